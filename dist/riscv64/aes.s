# Made by tools/dist from the proved crate aes_c; BUILD says from what. Don't edit it.
/* A Rust crate defines in_rust; for x86-64, a static library of both builds defines chosen, and choose_*.c calls these names. */
	.macro	export_aes name
	.ifdef	in_rust
	.globl	aes.\name
	.hidden	aes.\name
	.else
	.globl	\name
	.set	\name, aes.\name
	.endif
	.endm
	.file	"rattle"
	.section	.rodata.cst16,"aM",@progbits,16
	.p2align	4, 0x0                          # -- Begin function aes_permute::lane_keys::expand_lanes
.Laes_CPI0_0:
	.byte	0                               # 0x0
	.byte	1                               # 0x1
	.byte	28                              # 0x1c
	.byte	29                              # 0x1d
	.byte	45                              # 0x2d
	.byte	44                              # 0x2c
	.byte	49                              # 0x31
	.byte	48                              # 0x30
	.byte	39                              # 0x27
	.byte	38                              # 0x26
	.byte	59                              # 0x3b
	.byte	58                              # 0x3a
	.byte	10                              # 0xa
	.byte	11                              # 0xb
	.byte	22                              # 0x16
	.byte	23                              # 0x17
.Laes_CPI0_1:
	.byte	0                               # 0x0
	.byte	134                             # 0x86
	.byte	253                             # 0xfd
	.byte	123                             # 0x7b
	.byte	142                             # 0x8e
	.byte	8                               # 0x8
	.byte	115                             # 0x73
	.byte	245                             # 0xf5
	.byte	119                             # 0x77
	.byte	241                             # 0xf1
	.byte	138                             # 0x8a
	.byte	12                              # 0xc
	.byte	249                             # 0xf9
	.byte	127                             # 0x7f
	.byte	4                               # 0x4
	.byte	130                             # 0x82
.Laes_CPI0_2:
	.byte	0                               # 0x0
	.byte	1                               # 0x1
	.byte	92                              # 0x5c
	.byte	93                              # 0x5d
	.byte	224                             # 0xe0
	.byte	225                             # 0xe1
	.byte	188                             # 0xbc
	.byte	189                             # 0xbd
	.byte	80                              # 0x50
	.byte	81                              # 0x51
	.byte	12                              # 0xc
	.byte	13                              # 0xd
	.byte	176                             # 0xb0
	.byte	177                             # 0xb1
	.byte	236                             # 0xec
	.byte	237                             # 0xed
.Laes_CPI0_3:
	.byte	0                               # 0x0
	.byte	178                             # 0xb2
	.byte	181                             # 0xb5
	.byte	7                               # 0x7
	.byte	58                              # 0x3a
	.byte	136                             # 0x88
	.byte	143                             # 0x8f
	.byte	61                              # 0x3d
	.byte	172                             # 0xac
	.byte	30                              # 0x1e
	.byte	25                              # 0x19
	.byte	171                             # 0xab
	.byte	150                             # 0x96
	.byte	36                              # 0x24
	.byte	35                              # 0x23
	.byte	145                             # 0x91
.Laes_CPI0_4:
	.byte	128                             # 0x80
	.byte	2                               # 0x2
	.byte	1                               # 0x1
	.byte	15                              # 0xf
	.byte	9                               # 0x9
	.byte	5                               # 0x5
	.byte	14                              # 0xe
	.byte	12                              # 0xc
	.byte	13                              # 0xd
	.byte	4                               # 0x4
	.byte	11                              # 0xb
	.byte	10                              # 0xa
	.byte	7                               # 0x7
	.byte	8                               # 0x8
	.byte	6                               # 0x6
	.byte	3                               # 0x3
.Laes_CPI0_5:
	.byte	128                             # 0x80
	.byte	1                               # 0x1
	.byte	9                               # 0x9
	.byte	14                              # 0xe
	.byte	13                              # 0xd
	.byte	11                              # 0xb
	.byte	7                               # 0x7
	.byte	6                               # 0x6
	.byte	15                              # 0xf
	.byte	2                               # 0x2
	.byte	12                              # 0xc
	.byte	5                               # 0x5
	.byte	10                              # 0xa
	.byte	4                               # 0x4
	.byte	3                               # 0x3
	.byte	8                               # 0x8
.Laes_CPI0_6:
	.byte	0                               # 0x0
	.byte	195                             # 0xc3
	.byte	79                              # 0x4f
	.byte	12                              # 0xc
	.byte	252                             # 0xfc
	.byte	124                             # 0x7c
	.byte	67                              # 0x43
	.byte	128                             # 0x80
	.byte	207                             # 0xcf
	.byte	51                              # 0x33
	.byte	63                              # 0x3f
	.byte	112                             # 0x70
	.byte	191                             # 0xbf
	.byte	179                             # 0xb3
	.byte	240                             # 0xf0
	.byte	140                             # 0x8c
.Laes_CPI0_7:
	.byte	0                               # 0x0
	.byte	230                             # 0xe6
	.byte	114                             # 0x72
	.byte	183                             # 0xb7
	.byte	229                             # 0xe5
	.byte	198                             # 0xc6
	.byte	197                             # 0xc5
	.byte	35                              # 0x23
	.byte	81                              # 0x51
	.byte	180                             # 0xb4
	.byte	3                               # 0x3
	.byte	113                             # 0x71
	.byte	32                              # 0x20
	.byte	151                             # 0x97
	.byte	82                              # 0x52
	.byte	148                             # 0x94
.Laes_CPI0_8:
	.byte	128                             # 0x80
	.byte	128                             # 0x80
	.byte	128                             # 0x80
	.byte	128                             # 0x80
	.byte	0                               # 0x0
	.byte	1                               # 0x1
	.byte	2                               # 0x2
	.byte	3                               # 0x3
	.byte	4                               # 0x4
	.byte	5                               # 0x5
	.byte	6                               # 0x6
	.byte	7                               # 0x7
	.byte	8                               # 0x8
	.byte	9                               # 0x9
	.byte	10                              # 0xa
	.byte	11                              # 0xb
.Laes_CPI0_9:
	.byte	128                             # 0x80
	.byte	128                             # 0x80
	.byte	128                             # 0x80
	.byte	128                             # 0x80
	.byte	128                             # 0x80
	.byte	128                             # 0x80
	.byte	128                             # 0x80
	.byte	128                             # 0x80
	.byte	0                               # 0x0
	.byte	1                               # 0x1
	.byte	2                               # 0x2
	.byte	3                               # 0x3
	.byte	4                               # 0x4
	.byte	5                               # 0x5
	.byte	6                               # 0x6
	.byte	7                               # 0x7
.Laes_CPI0_10:
	.byte	0                               # 0x0
	.byte	13                              # 0xd
	.byte	10                              # 0xa
	.byte	7                               # 0x7
	.byte	4                               # 0x4
	.byte	1                               # 0x1
	.byte	14                              # 0xe
	.byte	11                              # 0xb
	.byte	8                               # 0x8
	.byte	5                               # 0x5
	.byte	2                               # 0x2
	.byte	15                              # 0xf
	.byte	12                              # 0xc
	.byte	9                               # 0x9
	.byte	6                               # 0x6
	.byte	3                               # 0x3
	.section	.text.aes.aes_permute.lane_keys.expand_lanes,"ax",@progbits
	.p2align	1
	.type	aes.aes_permute.lane_keys.expand_lanes,@function
aes.aes_permute.lane_keys.expand_lanes: # @aes.aes_permute.lane_keys.expand_lanes
# %bb.0:                                # %start
	addi	t0, a0, 16
	addi	a3, a1, 8
	vsetivli	zero, 8, e8, mf2, ta, ma
	vle8.v	v8, (a1)
.Laes_pcrel_hi0:
	auipc	a1, %pcrel_hi(.Laes_CPI0_0)
	vle8.v	v16, (a3)
	addi	a1, a1, %pcrel_lo(.Laes_pcrel_hi0)
	vsetivli	zero, 16, e8, m1, ta, ma
	vle8.v	v14, (a1)
.Laes_pcrel_hi1:
	auipc	a1, %pcrel_hi(.Laes_CPI0_1)
	addi	a1, a1, %pcrel_lo(.Laes_pcrel_hi1)
	vle8.v	v15, (a1)
	vslideup.vi	v8, v16, 8
	vand.vi	v9, v8, 15
	vsrl.vi	v8, v8, 4
	vrgather.vv	v10, v14, v9
	vrgather.vv	v9, v15, v8
	li	a1, 24
	vxor.vv	v10, v9, v10
	beq	a2, a1, .Laes_BB0_6
# %bb.1:                                # %start
	li	a1, 16
	bne	a2, a1, .Laes_BB0_11
# %bb.2:                                # %then.1.i
	vand.vi	v11, v10, 15
.Laes_pcrel_hi2:
	auipc	a1, %pcrel_hi(.Laes_CPI0_2)
	vsrl.vi	v12, v10, 4
	addi	a1, a1, %pcrel_lo(.Laes_pcrel_hi2)
	vle8.v	v8, (a1)
.Laes_pcrel_hi3:
	auipc	a1, %pcrel_hi(.Laes_CPI0_3)
	addi	a1, a1, %pcrel_lo(.Laes_pcrel_hi3)
	vle8.v	v9, (a1)
.Laes_pcrel_hi4:
	auipc	a1, %pcrel_hi(.Laes_CPI0_4)
	addi	a1, a1, %pcrel_lo(.Laes_pcrel_hi4)
	vle8.v	v16, (a1)
.Laes_pcrel_hi5:
	auipc	a1, %pcrel_hi(.Laes_CPI0_5)
	addi	a1, a1, %pcrel_lo(.Laes_pcrel_hi5)
	vle8.v	v15, (a1)
.Laes_pcrel_hi6:
	auipc	a1, %pcrel_hi(.Laes_CPI0_6)
	addi	a1, a1, %pcrel_lo(.Laes_pcrel_hi6)
	vle8.v	v13, (a1)
.Laes_pcrel_hi7:
	auipc	a1, %pcrel_hi(.Laes_CPI0_7)
	addi	a1, a1, %pcrel_lo(.Laes_pcrel_hi7)
	vle8.v	v14, (a1)
.Laes_pcrel_hi8:
	auipc	a1, %pcrel_hi(.Laes_CPI0_8)
	addi	a1, a1, %pcrel_lo(.Laes_pcrel_hi8)
	vrgather.vv	v17, v8, v11
	vrgather.vv	v11, v9, v12
	vxor.vv	v12, v11, v17
	vle8.v	v11, (a1)
.Laes_pcrel_hi9:
	auipc	a1, %pcrel_hi(.Laes_CPI0_9)
	addi	a1, a1, %pcrel_lo(.Laes_pcrel_hi9)
	vse8.v	v12, (a0)
	vle8.v	v12, (a1)
	li	t1, 48
.Laes_pcrel_hi10:
	auipc	a2, %pcrel_hi(.Laes_static.0)
	addi	a2, a2, %pcrel_lo(.Laes_pcrel_hi10)
.Laes_BB0_3:                                # %join.5.i
                                        # =>This Inner Loop Header: Depth=1
	lbu	a3, 0(a2)
	lui	a6, 49393
.Laes_pcrel_hi11:
	auipc	a4, %pcrel_hi(.Laes_static.1)
.Laes_pcrel_hi12:
	auipc	a5, %pcrel_hi(.Laes_static.2)
	andi	a1, t1, 48
	addi	a0, a6, -499
	vsetivli	zero, 4, e32, m1, ta, ma
	vmv.v.x	v18, a0
.Laes_pcrel_hi13:
	auipc	a0, %pcrel_hi(.Laes_static.3)
	addi	a4, a4, %pcrel_lo(.Laes_pcrel_hi11)
	addi	a5, a5, %pcrel_lo(.Laes_pcrel_hi12)
	addi	a7, a0, %pcrel_lo(.Laes_pcrel_hi13)
	add	a1, a1, a7
	vsetivli	zero, 16, e8, m1, ta, ma
	vrgather.vv	v17, v10, v18
	vle8.v	v19, (a1)
	vsrl.vi	v20, v17, 4
	vand.vi	v17, v17, 15
	andi	a0, a3, 15
	srli	a3, a3, 4
	vxor.vv	v21, v20, v17
	vrgather.vv	v22, v16, v17
	vrgather.vv	v17, v15, v20
	add	a0, a0, a4
	add	a3, a3, a5
	vrgather.vv	v23, v15, v21
	vxor.vv	v17, v17, v22
	lbu	a0, 0(a0)
	lbu	a1, 0(a3)
	vxor.vv	v22, v23, v22
	vmsle.vi	v0, v17, -1
	vrgather.vv	v23, v15, v17
	vmerge.vim	v23, v23, 0, v0
	vmsle.vi	v0, v22, -1
	vrgather.vv	v17, v15, v22
	vmerge.vim	v22, v17, 0, v0
	vmv.v.i	v17, 0
	xor	a0, a0, a1
	li	a3, 110
	addi	t1, t1, 48
	vxor.vv	v21, v23, v21
	vmsle.vi	v0, v23, -1
	vrgather.vv	v23, v13, v21
	vxor.vx	v21, v23, a3
	vmerge.vxm	v21, v21, a3, v0
	vmv.v.i	v23, 0
	vsetvli	zero, zero, e8, m1, tu, ma
	vmv.s.x	v23, a0
	li	a6, 480
	vsetvli	zero, zero, e8, m1, ta, ma
	vxor.vv	v20, v22, v20
	vrgather.vv	v24, v14, v20
	vmsle.vi	v0, v22, -1
	vxor.vv	v10, v23, v10
	vrgather.vv	v20, v10, v11
	vxor.vv	v22, v21, v24
	vsetivli	zero, 4, e8, m1, tu, ma
	vmv.v.v	v20, v17
	vsetivli	zero, 16, e8, m1, ta, ma
	vmerge.vvm	v21, v22, v21, v0
	vmsle.vi	v0, v19, -1
	vxor.vv	v10, v10, v20
	vrgather.vv	v20, v10, v12
	vsetivli	zero, 8, e8, m1, tu, ma
	vmv.v.v	v20, v17
	vsetivli	zero, 16, e8, m1, ta, ma
	vxor.vv	v20, v21, v20
	vxor.vv	v10, v20, v10
	vrgather.vv	v20, v10, v19
	vxor.vx	v19, v20, a3
	vmerge.vxm	v19, v19, a3, v0
	vse8.v	v19, (t0)
	addi	t0, t0, 16
	addi	a2, a2, 1
	bne	t1, a6, .Laes_BB0_3
# %bb.4:                                # %join.5.i.peel
	lbu	a0, 0(a2)
	vrgather.vv	v19, v10, v18
	vsrl.vi	v18, v19, 4
	vand.vi	v19, v19, 15
	vxor.vv	v20, v18, v19
	vrgather.vv	v21, v16, v19
	vrgather.vv	v16, v15, v18
	vrgather.vv	v19, v15, v20
	vxor.vv	v16, v16, v21
	vxor.vv	v19, v19, v21
	vmsle.vi	v0, v16, -1
	vrgather.vv	v21, v15, v16
	vmerge.vim	v16, v21, 0, v0
	vmv1r.v	v21, v17
	andi	a1, a0, 15
	srli	a0, a0, 4
	vrgather.vv	v22, v15, v19
	vmsle.vi	v0, v19, -1
	add	a1, a1, a4
	add	a0, a0, a5
	vmerge.vim	v15, v22, 0, v0
	vxor.vv	v19, v16, v20
	vmsle.vi	v0, v16, -1
	lbu	a1, 0(a1)
	lbu	a0, 0(a0)
	vxor.vv	v16, v15, v18
	vrgather.vv	v18, v13, v19
	vrgather.vv	v13, v14, v16
	vxor.vx	v14, v18, a3
	vmerge.vxm	v14, v14, a3, v0
	vmsle.vi	v0, v15, -1
	xor	a0, a0, a1
	vxor.vv	v13, v14, v13
	vsetvli	zero, zero, e8, m1, tu, ma
	vmv.s.x	v21, a0
	vsetvli	zero, zero, e8, m1, ta, ma
	vxor.vv	v10, v21, v10
	vrgather.vv	v15, v10, v11
	vsetivli	zero, 4, e8, m1, tu, ma
	vmv.v.v	v15, v17
	vsetivli	zero, 16, e8, m1, ta, ma
	vxor.vv	v10, v10, v15
	vrgather.vv	v11, v10, v12
	vsetivli	zero, 8, e8, m1, tu, ma
	vmv.v.v	v11, v17
	vsetivli	zero, 16, e8, m1, ta, ma
	vmerge.vvm	v12, v13, v14, v0
	vxor.vv	v11, v12, v11
	vxor.vv	v10, v11, v10
	bne	t1, a6, .Laes_BB0_14
# %bb.5:                                # %then.4.i425.peel
	vand.vi	v11, v10, 15
	vsrl.vi	v10, v10, 4
	vrgather.vv	v12, v8, v11
	vrgather.vv	v8, v9, v10
	vxor.vv	v8, v12, v8
	li	a0, 99
	vxor.vx	v8, v8, a0
	j	.Laes_BB0_15
.Laes_BB0_6:                                # %then.4.i
	li	a6, 0
	addi	a3, a3, 8
	vand.vi	v12, v10, 15
	vsetivli	zero, 8, e8, mf2, ta, ma
	vle8.v	v17, (a3)
.Laes_pcrel_hi14:
	auipc	a1, %pcrel_hi(.Laes_CPI0_2)
	vsetivli	zero, 16, e8, m1, ta, ma
	vsrl.vi	v13, v10, 4
	addi	a1, a1, %pcrel_lo(.Laes_pcrel_hi14)
	vle8.v	v8, (a1)
.Laes_pcrel_hi15:
	auipc	a1, %pcrel_hi(.Laes_CPI0_3)
	addi	a1, a1, %pcrel_lo(.Laes_pcrel_hi15)
	vle8.v	v9, (a1)
.Laes_pcrel_hi16:
	auipc	a1, %pcrel_hi(.Laes_CPI0_4)
	addi	a1, a1, %pcrel_lo(.Laes_pcrel_hi16)
	vle8.v	v11, (a1)
.Laes_pcrel_hi17:
	auipc	a1, %pcrel_hi(.Laes_CPI0_5)
	addi	a1, a1, %pcrel_lo(.Laes_pcrel_hi17)
	vrgather.vv	v18, v8, v12
	vrgather.vv	v12, v9, v13
	vxor.vv	v13, v12, v18
	vle8.v	v12, (a1)
.Laes_pcrel_hi18:
	auipc	a1, %pcrel_hi(.Laes_CPI0_6)
	vse8.v	v13, (a0)
.Laes_pcrel_hi19:
	auipc	a0, %pcrel_hi(.Laes_CPI0_7)
	addi	a1, a1, %pcrel_lo(.Laes_pcrel_hi18)
	vle8.v	v13, (a1)
.Laes_pcrel_hi20:
	auipc	a1, %pcrel_hi(.Laes_CPI0_8)
	addi	a0, a0, %pcrel_lo(.Laes_pcrel_hi19)
	vslideup.vi	v16, v17, 8
	vand.vi	v17, v16, 15
	vrgather.vv	v18, v14, v17
	vle8.v	v14, (a0)
.Laes_pcrel_hi21:
	auipc	a0, %pcrel_hi(.Laes_CPI0_9)
	addi	a1, a1, %pcrel_lo(.Laes_pcrel_hi20)
	vsrl.vi	v16, v16, 4
	vrgather.vv	v17, v15, v16
	vle8.v	v15, (a1)
.Laes_pcrel_hi22:
	auipc	a1, %pcrel_hi(.Laes_static.0+1)
	addi	a0, a0, %pcrel_lo(.Laes_pcrel_hi21)
	vxor.vv	v17, v17, v18
	vle8.v	v16, (a0)
	addi	t2, t0, 32
	addi	t3, a1, %pcrel_lo(.Laes_pcrel_hi22)
	li	a3, 144
	j	.Laes_BB0_9
.Laes_BB0_7:                                # %join.6.i1332.i
                                        #   in Loop: Header=BB0_9 Depth=1
	andi	a0, a3, 48
	add	a0, a0, t0
	vle8.v	v19, (a0)
	vrgather.vv	v20, v10, v19
	vmsle.vi	v0, v19, -1
	vxor.vx	v19, v20, a5
	vmerge.vxm	v19, v19, a5, v0
.Laes_BB0_8:                                # %"aes_permute::lane_keys::stored_key.exit1337.i"
                                        #   in Loop: Header=BB0_9 Depth=1
	vsetivli	zero, 4, e32, m1, ta, ma
	vrgather.vi	v20, v10, 1
	vsetivli	zero, 16, e8, m1, ta, ma
	vrgather.vv	v21, v17, v15
	vse8.v	v19, (t2)
	addi	a6, a6, 16
	addi	a3, a3, 144
	addi	t2, t2, 48
	li	a0, 720
	vsetivli	zero, 4, e8, m1, tu, ma
	vmv.v.v	v21, v18
	vsetivli	zero, 16, e8, m1, ta, ma
	vxor.vv	v17, v21, v17
	vrgather.vv	v19, v17, v16
	vsetivli	zero, 8, e8, m1, tu, ma
	vmv.v.v	v19, v18
	vsetivli	zero, 16, e8, m1, ta, ma
	vxor.vv	v18, v19, v20
	vxor.vv	v17, v18, v17
	addi	t3, t3, 2
	beq	a3, a0, .Laes_BB0_16
.Laes_BB0_9:                                # %join.5.i684
                                        # =>This Inner Loop Header: Depth=1
	lui	a4, 49393
.Laes_pcrel_hi23:
	auipc	t0, %pcrel_hi(.Laes_static.1)
	addi	a7, a3, -96
.Laes_pcrel_hi25:
	auipc	a5, %pcrel_hi(.Laes_static.3)
	xori	t1, a6, 32
	addi	a1, a4, -499
	vsetivli	zero, 4, e32, m1, ta, ma
	vmv.v.x	v19, a1
	lbu	a1, -1(t3)
	lbu	a4, 0(t3)
	addi	a0, t0, %pcrel_lo(.Laes_pcrel_hi23)
	andi	a2, a7, 48
	addi	t0, a5, %pcrel_lo(.Laes_pcrel_hi25)
	add	a2, a2, t0
	add	t1, t1, t0
	vsetivli	zero, 16, e8, m1, ta, ma
	vrgather.vv	v18, v17, v19
	vle8.v	v20, (a2)
	vsrl.vi	v22, v18, 4
	vand.vi	v18, v18, 15
	vxor.vv	v23, v22, v18
	vrgather.vv	v21, v11, v18
	vrgather.vv	v18, v12, v22
	vrgather.vv	v24, v12, v23
	vxor.vv	v18, v18, v21
	vxor.vv	v21, v24, v21
	vmsle.vi	v0, v18, -1
	vrgather.vv	v24, v12, v18
	vmerge.vim	v18, v24, 0, v0
	vmsle.vi	v0, v21, -1
	vrgather.vv	v24, v12, v21
	vmerge.vim	v24, v24, 0, v0
	vle8.v	v21, (t1)
	andi	a2, a1, 15
	andi	a5, a4, 15
	add	a2, a2, a0
	add	a0, a0, a5
.Laes_pcrel_hi24:
	auipc	a5, %pcrel_hi(.Laes_static.2)
	addi	a5, a5, %pcrel_lo(.Laes_pcrel_hi24)
	srli	a1, a1, 4
	srli	a4, a4, 4
	add	a1, a1, a5
	add	a4, a4, a5
	li	a5, 110
	vxor.vv	v23, v18, v23
	vmsle.vi	v0, v18, -1
	vrgather.vv	v18, v13, v23
	vxor.vx	v18, v18, a5
	vmerge.vxm	v23, v18, a5, v0
	vmv.v.i	v18, 0
	lbu	a2, 0(a2)
	lbu	a1, 0(a1)
	vxor.vv	v22, v24, v22
	vrgather.vv	v25, v14, v22
	vmsle.vi	v0, v24, -1
	vxor.vv	v22, v23, v25
	vmerge.vvm	v22, v22, v23, v0
	vrgather.vv	v23, v17, v15
	vslidedown.vi	v24, v17, 8
	xor	a1, a1, a2
	addi	a7, t2, -32
	vsetivli	zero, 4, e8, m1, tu, ma
	vmv.v.v	v23, v18
	vsetivli	zero, 16, e8, m1, ta, ma
	vxor.vv	v17, v23, v17
	vmv1r.v	v23, v18
	vsetvli	zero, zero, e8, m1, tu, ma
	vmv.s.x	v23, a1
	li	a1, 32
	vsetvli	zero, zero, e8, m1, ta, ma
	vxor.vv	v10, v23, v10
	vrgather.vv	v23, v10, v15
	vsetivli	zero, 4, e8, m1, tu, ma
	vmv.v.v	v23, v18
	vsetivli	zero, 16, e8, m1, ta, ma
	vxor.vv	v10, v10, v23
	vrgather.vv	v23, v10, v16
	vsetivli	zero, 8, e8, m1, tu, ma
	vmv.v.v	v23, v18
	vsetivli	zero, 16, e8, m1, ta, ma
	vxor.vv	v22, v22, v23
	vmv1r.v	v23, v18
	lbu	a0, 0(a0)
	lbu	a2, 0(a4)
	vxor.vv	v10, v22, v10
	vrgather.vv	v22, v17, v16
	vsetivli	zero, 8, e8, m1, tu, ma
	vmv.v.v	v22, v18
	xor	a0, a0, a2
	vmv.s.x	v23, a0
	vsetivli	zero, 16, e8, m1, ta, ma
	vslideup.vi	v24, v10, 8
	vxor.vv	v23, v23, v10
	vsetivli	zero, 4, e32, m1, ta, ma
	vrgather.vi	v25, v10, 1
	vsetivli	zero, 16, e8, m1, ta, ma
	vxor.vv	v10, v22, v25
	vmsle.vi	v0, v20, -1
	vrgather.vv	v22, v24, v20
	vrgather.vv	v24, v23, v15
	vxor.vv	v17, v10, v17
	vxor.vx	v10, v22, a5
	vsetivli	zero, 4, e8, m1, tu, ma
	vmv.v.v	v24, v18
	vsetivli	zero, 16, e8, m1, ta, ma
	vmerge.vxm	v20, v10, a5, v0
	vrgather.vv	v10, v17, v21
	vmsle.vi	v0, v21, -1
	vrgather.vv	v21, v17, v19
	vxor.vv	v19, v23, v24
	vxor.vx	v10, v10, a5
	vsrl.vi	v24, v21, 4
	vand.vi	v25, v21, 15
	vmerge.vxm	v22, v10, a5, v0
	vsetvli	zero, a1, e8, m2, ta, ma
	vslideup.vi	v20, v22, 16
	vsetivli	zero, 16, e8, m1, ta, ma
	vrgather.vv	v10, v19, v16
	vxor.vv	v22, v24, v25
	vrgather.vv	v23, v11, v25
	vsetvli	zero, a1, e8, m2, ta, ma
	vse8.v	v20, (a7)
	vsetivli	zero, 16, e8, m1, ta, ma
	vrgather.vv	v20, v12, v24
	vsetivli	zero, 8, e8, m1, tu, ma
	vmv.v.v	v10, v18
	vsetivli	zero, 16, e8, m1, ta, ma
	vrgather.vv	v21, v12, v22
	vxor.vv	v20, v20, v23
	vxor.vv	v21, v21, v23
	vmsle.vi	v0, v20, -1
	vrgather.vv	v23, v12, v20
	vmerge.vim	v20, v23, 0, v0
	vmsle.vi	v0, v21, -1
	vrgather.vv	v23, v12, v21
	vmerge.vim	v21, v23, 0, v0
	vxor.vv	v22, v20, v22
	vmsle.vi	v0, v20, -1
	vxor.vv	v20, v21, v24
	vrgather.vv	v23, v13, v22
	vrgather.vv	v22, v14, v20
	vxor.vx	v20, v23, a5
	vmerge.vxm	v20, v20, a5, v0
	vmsle.vi	v0, v21, -1
	vxor.vv	v21, v20, v22
	vmerge.vvm	v20, v21, v20, v0
	vxor.vv	v10, v20, v10
	li	a0, 576
	vxor.vv	v10, v10, v19
	bne	a3, a0, .Laes_BB0_7
# %bb.10:                               # %then.4.i1334.i
                                        #   in Loop: Header=BB0_9 Depth=1
	vand.vi	v19, v10, 15
	vsrl.vi	v20, v10, 4
	vrgather.vv	v21, v8, v19
	vrgather.vv	v19, v9, v20
	vxor.vv	v19, v21, v19
	li	a0, 99
	vxor.vx	v19, v19, a0
	j	.Laes_BB0_8
.Laes_BB0_11:                               # %else.5.i
	li	t4, 0
	addi	a3, a3, 8
	vand.vi	v8, v10, 15
.Laes_pcrel_hi26:
	auipc	a2, %pcrel_hi(.Laes_CPI0_2)
	vsrl.vi	v9, v10, 4
.Laes_pcrel_hi27:
	auipc	a4, %pcrel_hi(.Laes_CPI0_3)
.Laes_pcrel_hi28:
	auipc	a5, %pcrel_hi(.Laes_CPI0_10)
	vle8.v	v13, (a3)
	li	t2, 110
	addi	a2, a2, %pcrel_lo(.Laes_pcrel_hi26)
	vle8.v	v11, (a2)
	li	a6, 32
	addi	a2, a4, %pcrel_lo(.Laes_pcrel_hi27)
	vle8.v	v12, (a2)
.Laes_pcrel_hi29:
	auipc	a2, %pcrel_hi(.Laes_CPI0_4)
	addi	a3, a5, %pcrel_lo(.Laes_pcrel_hi28)
	vle8.v	v16, (a3)
.Laes_pcrel_hi30:
	auipc	a3, %pcrel_hi(.Laes_CPI0_5)
	addi	a2, a2, %pcrel_lo(.Laes_pcrel_hi29)
	vand.vi	v17, v13, 15
	vrgather.vv	v19, v14, v17
	vle8.v	v18, (a2)
.Laes_pcrel_hi31:
	auipc	a2, %pcrel_hi(.Laes_CPI0_6)
	addi	a3, a3, %pcrel_lo(.Laes_pcrel_hi30)
	vsrl.vi	v13, v13, 4
	vrgather.vv	v14, v15, v13
	vle8.v	v17, (a3)
.Laes_pcrel_hi32:
	auipc	a3, %pcrel_hi(.Laes_CPI0_7)
	addi	a2, a2, %pcrel_lo(.Laes_pcrel_hi31)
	vrgather.vv	v13, v11, v8
	vrgather.vv	v8, v12, v9
	vxor.vv	v19, v14, v19
	vxor.vv	v8, v8, v13
	vrgather.vv	v9, v19, v16
	vxor.vx	v14, v9, t2
	vsetvli	zero, a6, e8, m2, ta, ma
	vslideup.vi	v8, v14, 16
	vsetivli	zero, 16, e8, m1, ta, ma
	vle8.v	v16, (a2)
.Laes_pcrel_hi33:
	auipc	a2, %pcrel_hi(.Laes_CPI0_8)
	addi	a3, a3, %pcrel_lo(.Laes_pcrel_hi32)
	vle8.v	v13, (a3)
.Laes_pcrel_hi34:
	auipc	a3, %pcrel_hi(.Laes_CPI0_9)
	vsetvli	zero, a6, e8, m2, ta, ma
	vse8.v	v8, (a0)
	addi	a7, a0, 32
	addi	a0, a2, %pcrel_lo(.Laes_pcrel_hi33)
	addi	a2, a3, %pcrel_lo(.Laes_pcrel_hi34)
	vsetivli	zero, 16, e8, m1, ta, ma
	vle8.v	v15, (a0)
	vle8.v	v14, (a2)
.Laes_pcrel_hi35:
	auipc	a5, %pcrel_hi(.Laes_static.0)
	addi	a5, a5, %pcrel_lo(.Laes_pcrel_hi35)
	li	a4, 96
.Laes_BB0_12:                               # %join.5.i727
                                        # =>This Inner Loop Header: Depth=1
	lbu	a0, 0(a5)
	lui	t1, 49393
.Laes_pcrel_hi36:
	auipc	a2, %pcrel_hi(.Laes_static.1)
.Laes_pcrel_hi37:
	auipc	a3, %pcrel_hi(.Laes_static.2)
	andi	t3, a4, 32
	addi	a1, t1, -499
	addi	a2, a2, %pcrel_lo(.Laes_pcrel_hi36)
	vsetivli	zero, 4, e32, m1, ta, ma
	vmv.v.x	v21, a1
	andi	a1, a0, 15
	add	a2, a2, a1
.Laes_pcrel_hi38:
	auipc	a1, %pcrel_hi(.Laes_static.3)
	addi	a3, a3, %pcrel_lo(.Laes_pcrel_hi37)
	srli	a0, a0, 4
	add	a0, a0, a3
	andi	a3, t4, 32
	addi	a1, a1, %pcrel_lo(.Laes_pcrel_hi38)
	add	t3, t3, a1
	lbu	a2, 0(a2)
	lbu	a0, 0(a0)
	add	a3, a3, a1
	vsetivli	zero, 16, e8, m1, ta, ma
	vle8.v	v8, (t3)
	vmv.v.i	v20, 0
	xor	a2, a2, a0
	add	a0, a7, t4
	vrgather.vv	v9, v19, v15
	addi	t4, t4, 32
	addi	a5, a5, 1
	vmv.v.i	v22, 0
	vsetvli	zero, zero, e8, m1, tu, ma
	vmv.s.x	v22, a2
	li	t1, 192
	vsetivli	zero, 4, e8, m1, tu, ma
	vmv.v.v	v9, v20
	vsetivli	zero, 16, e8, m1, ta, ma
	vxor.vv	v9, v9, v19
	vrgather.vv	v23, v19, v21
	vsrl.vi	v19, v23, 4
	vand.vi	v23, v23, 15
	vxor.vv	v24, v19, v23
	vrgather.vv	v25, v18, v23
	vrgather.vv	v23, v17, v19
	vrgather.vv	v26, v17, v24
	vxor.vv	v23, v23, v25
	vxor.vv	v25, v26, v25
	vmsle.vi	v0, v23, -1
	vrgather.vv	v26, v17, v23
	vmerge.vim	v23, v26, 0, v0
	vmsle.vi	v0, v25, -1
	vrgather.vv	v26, v17, v25
	vmerge.vim	v25, v26, 0, v0
	vxor.vv	v24, v23, v24
	vmsle.vi	v0, v23, -1
	vxor.vv	v19, v25, v19
	vrgather.vv	v23, v16, v24
	vrgather.vv	v24, v13, v19
	vxor.vx	v19, v23, t2
	vmerge.vxm	v19, v19, t2, v0
	vmsle.vi	v0, v25, -1
	vxor.vv	v10, v22, v10
	vrgather.vv	v22, v10, v15
	vxor.vv	v23, v19, v24
	vsetivli	zero, 4, e8, m1, tu, ma
	vmv.v.v	v22, v20
	vsetivli	zero, 16, e8, m1, ta, ma
	vmerge.vvm	v19, v23, v19, v0
	vmsle.vi	v0, v8, -1
	vxor.vv	v10, v10, v22
	vrgather.vv	v22, v10, v14
	vsetivli	zero, 8, e8, m1, tu, ma
	vmv.v.v	v22, v20
	vsetivli	zero, 16, e8, m1, ta, ma
	vxor.vv	v19, v19, v22
	vxor.vv	v10, v19, v10
	vrgather.vv	v19, v10, v8
	vsetivli	zero, 4, e32, m1, ta, ma
	vrgather.vi	v8, v10, 3
	vsetivli	zero, 16, e8, m1, ta, ma
	vxor.vx	v19, v19, t2
	vsrl.vi	v22, v8, 4
	vand.vi	v23, v8, 15
	vmerge.vxm	v8, v19, t2, v0
	vxor.vv	v19, v22, v23
	vrgather.vv	v24, v18, v23
	vrgather.vv	v23, v17, v22
	vrgather.vv	v25, v17, v19
	vxor.vv	v23, v23, v24
	vxor.vv	v24, v25, v24
	vmsle.vi	v0, v23, -1
	vrgather.vv	v25, v17, v23
	vmerge.vim	v23, v25, 0, v0
	vmsle.vi	v0, v24, -1
	vrgather.vv	v25, v17, v24
	vmerge.vim	v24, v25, 0, v0
	vrgather.vv	v25, v9, v14
	addi	a3, a3, 16
	vsetivli	zero, 8, e8, m1, tu, ma
	vmv.v.v	v25, v20
	vsetivli	zero, 16, e8, m1, ta, ma
	vxor.vv	v19, v23, v19
	vmsle.vi	v0, v23, -1
	vrgather.vv	v23, v16, v19
	vxor.vx	v19, v23, t2
	vmerge.vxm	v19, v19, t2, v0
	vle8.v	v23, (a3)
	vxor.vv	v22, v24, v22
	vrgather.vv	v26, v13, v22
	vmsle.vi	v0, v24, -1
	vxor.vv	v22, v19, v26
	vmerge.vvm	v19, v22, v19, v0
	vmsle.vi	v0, v23, -1
	vxor.vv	v19, v19, v25
	vxor.vv	v19, v19, v9
	vrgather.vv	v9, v19, v23
	vxor.vx	v9, v9, t2
	vmerge.vxm	v22, v9, t2, v0
	vsetvli	zero, a6, e8, m2, ta, ma
	vslideup.vi	v8, v22, 16
	vse8.v	v8, (a0)
	addi	a4, a4, 96
	bne	t4, t1, .Laes_BB0_12
# %bb.13:                               # %"aes_planes::expansion::expand_256::<#05c2c6c54e82e59f>.exit"
	vsetivli	zero, 16, e8, m1, ta, ma
	vrgather.vv	v8, v19, v21
	li	a0, -114
	vsrl.vi	v9, v8, 4
	vand.vi	v8, v8, 15
	vxor.vv	v19, v9, v8
	vrgather.vv	v21, v18, v8
	vrgather.vv	v8, v17, v9
	vrgather.vv	v18, v17, v19
	vxor.vv	v8, v8, v21
	vxor.vv	v18, v18, v21
	vmsle.vi	v0, v8, -1
	vrgather.vv	v21, v17, v8
	vmerge.vim	v8, v21, 0, v0
	vmv1r.v	v21, v20
	vsetvli	zero, zero, e8, m1, tu, ma
	vmv.s.x	v21, a0
	vsetvli	zero, zero, e8, m1, ta, ma
	vrgather.vv	v22, v17, v18
	vmsle.vi	v0, v18, -1
	li	a0, 110
	vmerge.vim	v17, v22, 0, v0
	vxor.vv	v18, v8, v19
	vmsle.vi	v0, v8, -1
	vrgather.vv	v8, v16, v18
	vxor.vx	v8, v8, a0
	vmerge.vxm	v8, v8, a0, v0
	li	a0, 99
	vxor.vv	v10, v10, v21
	vrgather.vv	v16, v10, v15
	vsetivli	zero, 4, e8, m1, tu, ma
	vmv.v.v	v16, v20
	vsetivli	zero, 16, e8, m1, ta, ma
	vxor.vv	v10, v16, v10
	vrgather.vv	v15, v10, v14
	vxor.vv	v9, v17, v9
	vsetivli	zero, 8, e8, m1, tu, ma
	vmv.v.v	v15, v20
	vsetivli	zero, 16, e8, m1, ta, ma
	vrgather.vv	v14, v13, v9
	vmsle.vi	v0, v17, -1
	vxor.vv	v9, v8, v14
	vmerge.vvm	v8, v9, v8, v0
	vxor.vv	v8, v8, v15
	vxor.vv	v8, v8, v10
	vand.vi	v9, v8, 15
	vsrl.vi	v8, v8, 4
	vrgather.vv	v10, v11, v9
	vrgather.vv	v9, v12, v8
	vxor.vv	v8, v10, v9
	vxor.vx	v8, v8, a0
	addi	a0, t0, 208
	vse8.v	v8, (a0)
	ret
.Laes_BB0_14:                               # %join.6.i.peel
	andi	a0, t1, 48
	add	a0, a0, a7
	vle8.v	v8, (a0)
	vrgather.vv	v9, v10, v8
	vmsle.vi	v0, v8, -1
	li	a0, 110
	vxor.vx	v8, v9, a0
	vmerge.vxm	v8, v8, a0, v0
.Laes_BB0_15:                               # %"aes_permute::lane_keys::stored_key.exit.peel"
	vse8.v	v8, (t0)
.Laes_BB0_16:                               # %"aes_planes::expansion::expand::<#05c2c6c54e82e59f>.exit"
	ret
.Laes_func_end0:
	.size	aes.aes_permute.lane_keys.expand_lanes, .Laes_func_end0-aes.aes_permute.lane_keys.expand_lanes
                                        # -- End function
	.section	.text.aes.aes_ctr.add_in_batches.add_keystream,"ax",@progbits
	.p2align	1                               # -- Begin function aes_ctr::add_in_batches::add_keystream::<#ef80964e0b8d42c0>
	.type	aes.aes_ctr.add_in_batches.add_keystream,@function
aes.aes_ctr.add_in_batches.add_keystream: # @aes.aes_ctr.add_in_batches.add_keystream
# %bb.0:                                # %start
	addi	sp, sp, -432
	sd	ra, 424(sp)                     # 8-byte Folded Spill
	sd	s0, 416(sp)                     # 8-byte Folded Spill
	sd	s1, 408(sp)                     # 8-byte Folded Spill
	sd	s2, 400(sp)                     # 8-byte Folded Spill
	sd	s3, 392(sp)                     # 8-byte Folded Spill
	sd	s4, 384(sp)                     # 8-byte Folded Spill
	sd	s5, 376(sp)                     # 8-byte Folded Spill
	sd	s6, 368(sp)                     # 8-byte Folded Spill
	sd	s7, 360(sp)                     # 8-byte Folded Spill
	sd	s8, 352(sp)                     # 8-byte Folded Spill
	sd	s9, 344(sp)                     # 8-byte Folded Spill
	sd	s10, 336(sp)                    # 8-byte Folded Spill
	sd	s11, 328(sp)                    # 8-byte Folded Spill
	mv	s2, a4
	mv	s4, a3
	mv	s3, a2
	mv	s9, a0
	vsetivli	zero, 16, e8, m1, ta, ma
	vle8.v	v8, (a1)
	addi	a0, sp, 16
	andi	s0, a2, 15
	li	a1, 16
	sub	a1, a1, s0
	vse8.v	v8, (a0)
	bgeu	a1, a4, .Laes_BB1_3
# %bb.1:                                # %else.2.i
	add	a1, s2, s0
	srli	a2, a1, 4
	andi	a1, a1, 15
	snez	a1, a1
	add	a1, a1, a2
	li	a2, 8
	sd	a0, 32(sp)
	sd	s3, 40(sp)
	sd	s4, 48(sp)
	sd	s2, 56(sp)
	bltu	a1, a2, .Laes_BB1_15
# %bb.2:                                # %then.1.i.i
	lbu	a0, 0(s9)
	lbu	a1, 1(s9)
	lbu	a2, 2(s9)
	lbu	a3, 3(s9)
	lbu	a4, 4(s9)
	lbu	a5, 5(s9)
	lbu	a6, 6(s9)
	lbu	s0, 7(s9)
	slli	a1, a1, 8
	slli	a2, a2, 16
	slli	a3, a3, 24
	slli	a5, a5, 8
	or	a7, a1, a0
	or	t0, a3, a2
	or	a4, a4, a5
	lbu	a1, 8(s9)
	lbu	a3, 9(s9)
	lbu	a5, 10(s9)
	lbu	a0, 11(s9)
	slli	a6, a6, 16
	slli	s0, s0, 24
	slli	a3, a3, 8
	slli	a5, a5, 16
	slli	a0, a0, 24
	or	s0, s0, a6
	or	a1, a1, a3
	or	a0, a0, a5
	lbu	a3, 13(s9)
	lbu	a5, 12(s9)
	lbu	a2, 14(s9)
	lbu	s1, 15(s9)
	slli	a3, a3, 8
	or	a3, a3, a5
	slli	a2, a2, 16
	slli	s1, s1, 24
	or	a2, a2, s1
	or	a5, t0, a7
	or	a4, a4, s0
	or	a1, a1, a0
	or	a2, a2, a3
	slli	a0, a4, 32
	slli	a2, a2, 32
	or	a0, a0, a5
	or	a1, a1, a2
	addi	a4, sp, 32
	mv	a2, a0
	mv	a3, a1
	call	aes.aes_hybrid.closures.lend_planes.1
	j	.Laes_BB1_22
.Laes_BB1_3:                                # %then.1.i
	lbu	a0, 16(s9)
	lbu	a1, 17(s9)
	lbu	a2, 18(s9)
	lbu	a3, 19(s9)
	lbu	a6, 20(s9)
	lbu	a7, 21(s9)
	lbu	a4, 22(s9)
	lbu	a5, 23(s9)
	lbu	t0, 24(s9)
	lbu	t1, 25(s9)
	lbu	t2, 26(s9)
	lbu	t3, 27(s9)
	slli	a1, a1, 8
	slli	a2, a2, 16
	slli	a3, a3, 24
	or	t4, a1, a0
	or	t5, a3, a2
	lbu	a2, 28(s9)
	lbu	a3, 29(s9)
	lbu	a1, 30(s9)
	lbu	s1, 31(s9)
	slli	a7, a7, 8
	slli	a4, a4, 16
	slli	a5, a5, 24
	or	a6, a7, a6
	or	a7, a5, a4
	ld	a4, 16(sp)
	ld	a0, 24(sp)
	slli	t1, t1, 8
	or	t1, t1, t0
	lui	t0, 4080
	slli	t2, t2, 16
	slli	t3, t3, 24
	or	t2, t3, t2
	li	a5, 255
	slli	a5, a5, 24
	slli	a3, a3, 8
	slli	a1, a1, 16
	slli	s1, s1, 24
	or	t6, a3, a2
	srli	a2, a4, 8
	or	s5, s1, a1
	srli	s1, a0, 8
	and	s7, a2, a5
	and	s6, s1, a5
	lui	a5, 16
	addi	a5, a5, -256
	or	t3, t5, t4
	srli	a3, a4, 24
	or	a6, a7, a6
	srli	a1, a4, 40
	or	a7, t2, t1
	srli	s1, a4, 56
	or	t1, s5, t6
	and	a2, a4, t0
	and	a3, a3, t0
	or	t2, s7, a3
	srliw	a3, a4, 24
	and	a1, a1, a5
	or	t5, a1, s1
	and	s1, a4, a5
	slli	a4, a4, 56
	slli	a2, a2, 24
	slli	a3, a3, 32
	or	a2, a2, a3
	srli	a3, a0, 24
	slli	s1, s1, 40
	or	a4, a4, s1
	srli	s1, a0, 40
	and	a3, a3, t0
	or	t4, s6, a3
	srli	a3, a0, 56
	and	a1, a0, t0
	and	s1, s1, a5
	or	a3, a3, s1
	srliw	s1, a0, 24
	slli	a1, a1, 24
	slli	s1, s1, 32
	or	a1, a1, s1
	and	a5, a5, a0
	slli	a0, a0, 56
	slli	a5, a5, 40
	or	a0, a0, a5
	or	a5, t2, t5
	or	a2, a2, a4
	srli	a4, s3, 4
	vid.v	v8
	vrsub.vi	v8, v8, 15
	slli	a6, a6, 32
	slli	t1, t1, 32
	or	a3, t4, a3
	or	s1, a0, a1
	or	a0, a6, t3
	or	a1, t1, a7
	or	a2, a2, a5
	or	a3, a3, s1
	add	a4, a4, a3
	sltu	a3, a4, a3
	vsetivli	zero, 2, e64, m1, ta, ma
	vmv.v.x	v9, a4
	add	a2, a2, a3
	vslide1down.vx	v9, v9, a2
	vsetivli	zero, 16, e8, m1, ta, ma
	vrgather.vv	v10, v9, v8
	addi	a2, sp, 64
	vse8.v	v10, (a2)
	li	a3, 1
	call	aes.aes_permute.blocks.process_on_lanes.1
	li	a1, 0
	beqz	s0, .Laes_BB1_8
# %bb.4:                                # %then.1.i
	beqz	s2, .Laes_BB1_8
# %bb.5:                                # %join.8.i68.lr.ph.i.i
	li	a0, 0
	addi	a1, sp, 64
	or	a1, a1, s0
	mv	a2, s2
.Laes_BB1_6:                                # %vector.body
                                        # =>This Inner Loop Header: Depth=1
	vsetvli	a3, a2, e8, m1, ta, ma
	add	a4, a1, a0
	vle8.v	v8, (a4)
	add	a4, s4, a0
	vle8.v	v9, (a4)
	sub	a2, a2, a3
	vxor.vv	v8, v9, v8
	vse8.v	v8, (a4)
	add	a0, a0, a3
	bnez	a2, .Laes_BB1_6
# %bb.7:
	mv	a1, s2
.Laes_BB1_8:                                # %join.3.i.i.i
	sub	a0, s2, a1
	li	a2, 16
	bltu	a0, a2, .Laes_BB1_11
# %bb.9:                                # %join.8.i.i.i.preheader
	vsetivli	zero, 16, e8, m1, ta, ma
.Laes_BB1_10:                               # %join.8.i.i.i
                                        # =>This Inner Loop Header: Depth=1
	add	a2, s0, a1
	addi	a3, sp, 64
	andi	a2, a2, -16
	add	a2, a2, a3
	add	a3, s4, a1
	vle8.v	v8, (a3)
	vle8.v	v9, (a2)
	addi	a1, a1, 16
	addi	a0, a0, -16
	vxor.vv	v8, v9, v8
	li	a2, 15
	vse8.v	v8, (a3)
	bltu	a2, a0, .Laes_BB1_10
.Laes_BB1_11:                               # %after.4.i.i.i
	bgeu	a1, s2, .Laes_BB1_22
# %bb.12:                               # %then.9.i.i.i
	beqz	a0, .Laes_BB1_22
# %bb.13:                               # %vector.body3.preheader
	li	a2, 0
	add	s0, s0, a1
	addi	a3, sp, 64
	andi	s0, s0, -16
	add	a3, a3, s0
	add	a1, a1, s4
.Laes_BB1_14:                               # %vector.body3
                                        # =>This Inner Loop Header: Depth=1
	vsetvli	a4, a0, e8, m2, ta, ma
	add	a5, a3, a2
	vle8.v	v8, (a5)
	add	a5, a1, a2
	vle8.v	v10, (a5)
	sub	a0, a0, a4
	vxor.vv	v8, v10, v8
	vse8.v	v8, (a5)
	add	a2, a2, a4
	bnez	a0, .Laes_BB1_14
	j	.Laes_BB1_22
.Laes_BB1_15:                               # %else.2.i.i
	beqz	s0, .Laes_BB1_17
# %bb.16:                               # %then.1.i.i10.i
	addi	a1, sp, 16
	mv	a0, s9
	mv	a2, s3
	li	a3, 0
	mv	a4, s4
	mv	a5, s2
	call	aes.aes_ctr.add_in_batches.add_next.2
	mv	s7, a0
	sub	s6, s2, a0
	li	a0, 64
	bgeu	s6, a0, .Laes_BB1_18
	j	.Laes_BB1_20
.Laes_BB1_17:
	li	s7, 0
	mv	s6, s2
	li	a0, 64
	bltu	s2, a0, .Laes_BB1_20
.Laes_BB1_18:                               # %join.11.lr.ph.i.i.i
	addi	s1, sp, 80
	ld	a1, 16(sp)
	ld	a0, 24(sp)
	lui	a6, 4080
	li	a3, 255
	lui	a4, 16
	slli	a3, a3, 24
	addi	t3, a4, -256
	srli	t1, a1, 24
	srli	a2, a1, 8
	srli	a7, a1, 40
	srli	t0, a1, 56
	srli	a5, a0, 8
	and	a2, a2, a3
	and	t2, a5, a3
	and	a5, a1, a6
	and	a3, t1, a6
	or	t1, a2, a3
	srliw	a3, a1, 24
	and	a2, a7, t3
	or	a7, a2, t0
	and	a4, a1, t3
	slli	a1, a1, 56
	slli	a5, a5, 24
	slli	a3, a3, 32
	or	t0, a5, a3
	srli	a5, a0, 24
	slli	a4, a4, 40
	or	a1, a1, a4
	srli	a4, a0, 40
	and	a5, a5, a6
	or	a5, t2, a5
	srli	a2, a0, 56
	and	a3, a0, a6
	and	a4, a4, t3
	or	a2, a2, a4
	srliw	a4, a0, 24
	slli	a3, a3, 24
	slli	a4, a4, 32
	or	a3, a3, a4
	addi	s8, s1, 16
	and	a4, a0, t3
	slli	a0, a0, 56
	slli	a4, a4, 40
	or	a0, a0, a4
	addi	a4, s1, 32
	sd	a4, 8(sp)                       # 8-byte Folded Spill
	or	a4, t1, a7
	or	a1, a1, t0
	or	a2, a2, a5
	or	a0, a0, a3
	or	s10, a1, a4
	or	s11, a0, a2
.Laes_BB1_19:                               # %join.11.i.i.i
                                        # =>This Inner Loop Header: Depth=1
	add	a0, s3, s7
	srli	s5, a0, 4
	li	a2, 192
	addi	a0, sp, 128
	li	a1, 0
	la	t1, memset
	jalr	t1
	add	s5, s5, s11
	vsetivli	zero, 16, e8, m1, ta, ma
	vid.v	v8
	li	a0, 32
	sltu	a1, s5, s11
	vsetivli	zero, 2, e64, m1, ta, ma
	vmv.v.x	v9, s5
	addi	a2, s5, 1
	vsetivli	zero, 16, e8, m1, ta, ma
	vrsub.vi	v13, v8, 15
	addi	a3, s5, 2
	addi	a4, s5, 3
	add	a1, a1, s10
	seqz	a5, a2
	vsetivli	zero, 2, e64, m1, ta, ma
	vmv.v.x	v8, a2
	sltu	a2, a3, s5
	vmv.v.x	v12, a3
	sltu	a3, a4, s5
	vslide1down.vx	v9, v9, a1
	add	a5, a5, a1
	vslide1down.vx	v11, v8, a5
	vsetivli	zero, 16, e8, m1, ta, ma
	vrgather.vv	v8, v9, v13
	vrgather.vv	v10, v11, v13
	vsetvli	zero, a0, e8, m2, ta, ma
	vslideup.vi	v8, v10, 16
	vsetivli	zero, 2, e64, m1, ta, ma
	vmv.v.x	v10, a4
	add	a2, a2, a1
	add	a1, a1, a3
	vslide1down.vx	v11, v12, a2
	vslide1down.vx	v10, v10, a1
	vsetivli	zero, 16, e8, m1, ta, ma
	vrgather.vv	v12, v10, v13
	vrgather.vv	v10, v11, v13
	vsetvli	zero, a0, e8, m2, ta, ma
	vslideup.vi	v10, v12, 16
	lbu	a0, 16(s9)
	lbu	a1, 17(s9)
	lbu	a2, 18(s9)
	lbu	a3, 19(s9)
	lbu	a6, 20(s9)
	lbu	a5, 21(s9)
	lbu	a4, 22(s9)
	lbu	s0, 23(s9)
	slli	a1, a1, 8
	slli	a2, a2, 16
	slli	a3, a3, 24
	or	a7, a1, a0
	or	t0, a3, a2
	lbu	a1, 24(s9)
	lbu	a3, 25(s9)
	lbu	a0, 26(s9)
	lbu	a2, 27(s9)
	slli	a5, a5, 8
	slli	a4, a4, 16
	slli	s0, s0, 24
	slli	a3, a3, 8
	slli	a0, a0, 16
	slli	a2, a2, 24
	or	a5, a5, a6
	or	a4, a4, s0
	or	a1, a1, a3
	or	a0, a0, a2
	lbu	a2, 29(s9)
	lbu	a3, 28(s9)
	lbu	s0, 30(s9)
	lbu	s1, 31(s9)
	slli	a2, a2, 8
	or	a2, a2, a3
	slli	s0, s0, 16
	slli	s1, s1, 24
	or	s0, s0, s1
	or	a3, t0, a7
	or	a4, a4, a5
	or	a1, a1, a0
	addi	s1, sp, 64
	or	a2, a2, s0
	add	s0, s4, s7
	slli	a0, a4, 32
	slli	a2, a2, 32
	vse8.v	v8, (s1)
	vse8.v	v10, (s8)
	or	a0, a0, a3
	or	a1, a1, a2
	addi	a2, sp, 64
	li	a3, 4
	call	aes.aes_permute.blocks.process_on_lanes.1
	addi	a0, s0, 16
	vsetivli	zero, 16, e8, m1, ta, ma
	addi	a1, sp, 80
	vle8.v	v8, (a1)
	vle8.v	v9, (a0)
	vle8.v	v10, (s1)
	vxor.vv	v8, v8, v9
	vle8.v	v9, (s0)
	vse8.v	v8, (a0)
	addi	a0, s0, 32
	vle8.v	v8, (s8)
	vxor.vv	v9, v10, v9
	vle8.v	v10, (a0)
	vse8.v	v9, (s0)
	addi	a1, s0, 48
	ld	a2, 8(sp)                       # 8-byte Folded Reload
	vle8.v	v9, (a2)
	vxor.vv	v8, v8, v10
	vle8.v	v10, (a1)
	vse8.v	v8, (a0)
	addi	s6, s6, -64
	li	a0, 63
	vxor.vv	v8, v9, v10
	vse8.v	v8, (a1)
	addi	s7, s7, 64
	bltu	a0, s6, .Laes_BB1_19
.Laes_BB1_20:                               # %loop.13.preheader.i.i.i
	bgeu	s7, s2, .Laes_BB1_22
.Laes_BB1_21:                               # %join.16.i.i.i
                                        # =>This Inner Loop Header: Depth=1
	addi	a1, sp, 16
	mv	a0, s9
	mv	a2, s3
	mv	a3, s7
	mv	a4, s4
	mv	a5, s2
	call	aes.aes_ctr.add_in_batches.add_next.2
	mv	s7, a0
	bltu	a0, s2, .Laes_BB1_21
.Laes_BB1_22:                               # %"aes_ctr::add_in_batches::add_stream::<#c11b85b865c7c27a>.exit"
	ld	ra, 424(sp)                     # 8-byte Folded Reload
	ld	s0, 416(sp)                     # 8-byte Folded Reload
	ld	s1, 408(sp)                     # 8-byte Folded Reload
	ld	s2, 400(sp)                     # 8-byte Folded Reload
	ld	s3, 392(sp)                     # 8-byte Folded Reload
	ld	s4, 384(sp)                     # 8-byte Folded Reload
	ld	s5, 376(sp)                     # 8-byte Folded Reload
	ld	s6, 368(sp)                     # 8-byte Folded Reload
	ld	s7, 360(sp)                     # 8-byte Folded Reload
	ld	s8, 352(sp)                     # 8-byte Folded Reload
	ld	s9, 344(sp)                     # 8-byte Folded Reload
	ld	s10, 336(sp)                    # 8-byte Folded Reload
	ld	s11, 328(sp)                    # 8-byte Folded Reload
	addi	sp, sp, 432
	ret
.Laes_func_end1:
	.size	aes.aes_ctr.add_in_batches.add_keystream, .Laes_func_end1-aes.aes_ctr.add_in_batches.add_keystream
                                        # -- End function
	.section	.text.aes.aes_hybrid.batches.process_on_planes.1,"ax",@progbits
	.p2align	1                               # -- Begin function aes_hybrid::batches::process_on_planes::<#a60badf655ff5009>
	.type	aes.aes_hybrid.batches.process_on_planes.1,@function
aes.aes_hybrid.batches.process_on_planes.1: # @aes.aes_hybrid.batches.process_on_planes.1
# %bb.0:                                # %start
	addi	sp, sp, -1984
	sd	ra, 1976(sp)                    # 8-byte Folded Spill
	sd	s0, 1968(sp)                    # 8-byte Folded Spill
	sd	s1, 1960(sp)                    # 8-byte Folded Spill
	sd	s2, 1952(sp)                    # 8-byte Folded Spill
	sd	s3, 1944(sp)                    # 8-byte Folded Spill
	sd	s4, 1936(sp)                    # 8-byte Folded Spill
	mv	s2, a3
	mv	s3, a2
	mv	s0, a1
	mv	s4, a0
	addi	a0, sp, 144
	li	a2, 1792
	li	a1, 0
	la	t1, memset
	jalr	t1
	slli	s1, s0, 3
	addi	a0, sp, 16
	mv	a1, s4
	mv	a2, s0
	call	aes.aes_hybrid.plane_keys.store_planes
	addi	a0, sp, 16
	mv	a1, s1
	mv	a2, s3
	mv	a3, s2
	call	aes.aes_hybrid.batches.process_batches_and_rest.1
	addi	a0, sp, 16
	call	aes.aes_cipher.zeroize.zeroize_words
	call	aes.aes_cipher.zeroize.stack.wipe_stack.1792
	ld	ra, 1976(sp)                    # 8-byte Folded Reload
	ld	s0, 1968(sp)                    # 8-byte Folded Reload
	ld	s1, 1960(sp)                    # 8-byte Folded Reload
	ld	s2, 1952(sp)                    # 8-byte Folded Reload
	ld	s3, 1944(sp)                    # 8-byte Folded Reload
	ld	s4, 1936(sp)                    # 8-byte Folded Reload
	addi	sp, sp, 1984
	ret
.Laes_func_end2:
	.size	aes.aes_hybrid.batches.process_on_planes.1, .Laes_func_end2-aes.aes_hybrid.batches.process_on_planes.1
                                        # -- End function
	.section	.rodata.cst16,"aM",@progbits,16
	.p2align	4, 0x0                          # -- Begin function aes_hybrid::plane_keys::store_planes::<#e29e0540aa8bc136>
.Laes_CPI3_0:
	.byte	0                               # 0x0
	.byte	4                               # 0x4
	.byte	8                               # 0x8
	.byte	12                              # 0xc
	.byte	1                               # 0x1
	.byte	5                               # 0x5
	.byte	9                               # 0x9
	.byte	13                              # 0xd
	.byte	2                               # 0x2
	.byte	6                               # 0x6
	.byte	10                              # 0xa
	.byte	14                              # 0xe
	.byte	3                               # 0x3
	.byte	7                               # 0x7
	.byte	11                              # 0xb
	.byte	15                              # 0xf
.Laes_CPI3_1:
	.byte	0                               # 0x0
	.byte	1                               # 0x1
	.byte	92                              # 0x5c
	.byte	93                              # 0x5d
	.byte	224                             # 0xe0
	.byte	225                             # 0xe1
	.byte	188                             # 0xbc
	.byte	189                             # 0xbd
	.byte	80                              # 0x50
	.byte	81                              # 0x51
	.byte	12                              # 0xc
	.byte	13                              # 0xd
	.byte	176                             # 0xb0
	.byte	177                             # 0xb1
	.byte	236                             # 0xec
	.byte	237                             # 0xed
.Laes_CPI3_2:
	.byte	0                               # 0x0
	.byte	178                             # 0xb2
	.byte	181                             # 0xb5
	.byte	7                               # 0x7
	.byte	58                              # 0x3a
	.byte	136                             # 0x88
	.byte	143                             # 0x8f
	.byte	61                              # 0x3d
	.byte	172                             # 0xac
	.byte	30                              # 0x1e
	.byte	25                              # 0x19
	.byte	171                             # 0xab
	.byte	150                             # 0x96
	.byte	36                              # 0x24
	.byte	35                              # 0x23
	.byte	145                             # 0x91
	.section	.text.aes.aes_hybrid.plane_keys.store_planes,"ax",@progbits
	.p2align	1
	.type	aes.aes_hybrid.plane_keys.store_planes,@function
aes.aes_hybrid.plane_keys.store_planes: # @aes.aes_hybrid.plane_keys.store_planes
# %bb.0:                                # %start
	addi	t1, a0, 16
	vsetivli	zero, 16, e8, m1, ta, ma
	vle8.v	v10, (a1)
.Laes_pcrel_hi39:
	auipc	a3, %pcrel_hi(.Laes_CPI3_0)
	vmv.v.i	v8, 0
	li	a6, 16
	li	a7, 32
	addi	a3, a3, %pcrel_lo(.Laes_pcrel_hi39)
	vle8.v	v9, (a3)
	li	t0, 64
	addi	a3, a0, 32
	addi	a5, a0, 112
	vrgather.vv	v11, v10, v9
	vand.vi	v10, v11, 2
	vand.vi	v12, v11, 4
	vsra.vi	v13, v11, 7
	vmsne.vi	v0, v10, 0
	vse8.v	v13, (a5)
	vmerge.vim	v10, v8, -1, v0
	vmsne.vi	v0, v12, 0
	addi	a5, a0, 48
	vmerge.vim	v12, v8, -1, v0
	vse8.v	v12, (a3)
	addi	a3, a0, 64
	vand.vi	v12, v11, 8
	vmsne.vi	v0, v12, 0
	vand.vx	v12, v11, a6
	vmerge.vim	v13, v8, -1, v0
	vmsne.vi	v0, v12, 0
	vse8.v	v13, (a5)
	addi	a5, a0, 80
	vmerge.vim	v12, v8, -1, v0
	vse8.v	v12, (a3)
	addi	a4, a0, 96
	vand.vx	v12, v11, a7
	vmsne.vi	v0, v12, 0
	vand.vx	v12, v11, t0
	vmerge.vim	v13, v8, -1, v0
	vmsne.vi	v0, v12, 0
	vse8.v	v13, (a5)
	addi	t2, a2, -1
	vmerge.vim	v12, v8, -1, v0
	vse8.v	v12, (a4)
	li	a4, 2
	vand.vi	v11, v11, 1
	vrsub.vi	v11, v11, 0
	vse8.v	v11, (a0)
	vse8.v	v10, (t1)
	bltu	t2, a4, .Laes_BB3_3
# %bb.1:                                # %join.5.lr.ph
.Laes_pcrel_hi40:
	auipc	a4, %pcrel_hi(.Laes_CPI3_1)
	addi	a4, a4, %pcrel_lo(.Laes_pcrel_hi40)
	vle8.v	v10, (a4)
.Laes_pcrel_hi41:
	auipc	a4, %pcrel_hi(.Laes_CPI3_2)
	addi	a4, a4, %pcrel_lo(.Laes_pcrel_hi41)
	vle8.v	v11, (a4)
	addi	a2, a2, -2
	addi	a4, t1, 224
	addi	a5, a1, 16
.Laes_BB3_2:                                # %join.5
                                        # =>This Inner Loop Header: Depth=1
	vle8.v	v12, (a5)
	addi	t1, a4, -112
	li	a3, 16
	vand.vi	v13, v12, 15
	vsrl.vi	v12, v12, 4
	vrgather.vv	v14, v10, v13
	vrgather.vv	v13, v11, v12
	vxor.vv	v12, v13, v14
	vrgather.vv	v13, v12, v9
	vand.vx	v12, v13, a3
	li	a3, 32
	vand.vx	v14, v13, a3
	li	a3, 64
	vand.vx	v15, v13, a3
	addi	a3, a4, -96
	vand.vi	v16, v13, 1
	vand.vi	v17, v13, 2
	vrsub.vi	v16, v16, 0
	vmsne.vi	v0, v17, 0
	vse8.v	v16, (t1)
	addi	t1, a4, -80
	vmerge.vim	v16, v8, -1, v0
	vse8.v	v16, (a3)
	addi	t3, a4, -64
	vand.vi	v16, v13, 4
	vmsne.vi	v0, v16, 0
	vand.vi	v16, v13, 8
	vmerge.vim	v17, v8, -1, v0
	vmsne.vi	v0, v16, 0
	vse8.v	v17, (t1)
	addi	t1, a4, -48
	vmerge.vim	v16, v8, -1, v0
	vmsne.vi	v0, v12, 0
	vse8.v	v16, (t3)
	addi	t3, a4, -32
	vmerge.vim	v12, v8, -1, v0
	vse8.v	v12, (t1)
	addi	a3, a4, -16
	addi	a2, a2, -1
	vsra.vi	v12, v13, 7
	vmsne.vi	v0, v14, 0
	vse8.v	v12, (a4)
	vmerge.vim	v12, v8, -1, v0
	vmsne.vi	v0, v15, 0
	addi	a4, a4, 128
	vmerge.vim	v13, v8, -1, v0
	vse8.v	v12, (t3)
	vse8.v	v13, (a3)
	addi	a5, a5, 16
	bnez	a2, .Laes_BB3_2
.Laes_BB3_3:                                # %after.1
	slli	a2, t2, 4
	slli	t2, t2, 7
	add	a1, a1, a2
	add	a0, a0, t2
	vle8.v	v10, (a1)
	addi	a1, a0, 16
	addi	a2, a0, 32
	addi	t1, a0, 48
	vrgather.vv	v11, v10, v9
	vand.vx	v9, v11, a6
	addi	a4, a0, 64
	vand.vx	v10, v11, a7
	addi	a5, a0, 80
	vand.vx	v12, v11, t0
	addi	a3, a0, 96
	vand.vi	v13, v11, 1
	vrsub.vi	v13, v13, 0
	vse8.v	v13, (a0)
	addi	a0, a0, 112
	vand.vi	v13, v11, 2
	vand.vi	v14, v11, 4
	vmsne.vi	v0, v13, 0
	vand.vi	v13, v11, 8
	vmerge.vim	v15, v8, -1, v0
	vmsne.vi	v0, v14, 0
	vsra.vi	v11, v11, 7
	vmerge.vim	v14, v8, -1, v0
	vmsne.vi	v0, v13, 0
	vse8.v	v15, (a1)
	vmerge.vim	v13, v8, -1, v0
	vmsne.vi	v0, v9, 0
	vse8.v	v14, (a2)
	vmerge.vim	v9, v8, -1, v0
	vmsne.vi	v0, v10, 0
	vse8.v	v13, (t1)
	vmerge.vim	v10, v8, -1, v0
	vmsne.vi	v0, v12, 0
	vse8.v	v9, (a4)
	vmerge.vim	v8, v8, -1, v0
	vse8.v	v10, (a5)
	vse8.v	v8, (a3)
	vse8.v	v11, (a0)
	ret
.Laes_func_end3:
	.size	aes.aes_hybrid.plane_keys.store_planes, .Laes_func_end3-aes.aes_hybrid.plane_keys.store_planes
                                        # -- End function
	.section	.rodata.cst16,"aM",@progbits,16
	.p2align	4, 0x0                          # -- Begin function aes_hybrid::batches::process_batches_and_rest::<#a60badf655ff5009>
.Laes_CPI4_0:
	.byte	0                               # 0x0
	.byte	4                               # 0x4
	.byte	8                               # 0x8
	.byte	12                              # 0xc
	.byte	1                               # 0x1
	.byte	5                               # 0x5
	.byte	9                               # 0x9
	.byte	13                              # 0xd
	.byte	2                               # 0x2
	.byte	6                               # 0x6
	.byte	10                              # 0xa
	.byte	14                              # 0xe
	.byte	3                               # 0x3
	.byte	7                               # 0x7
	.byte	11                              # 0xb
	.byte	15                              # 0xf
	.section	.rodata.cst32,"aM",@progbits,32
	.p2align	5, 0x0
.Laes_CPI4_1:
	.zero	1
	.zero	1
	.zero	1
	.zero	1
	.zero	1
	.zero	1
	.zero	1
	.zero	1
	.zero	1
	.zero	1
	.zero	1
	.zero	1
	.zero	1
	.zero	1
	.zero	1
	.zero	1
	.byte	0                               # 0x0
	.byte	4                               # 0x4
	.byte	8                               # 0x8
	.byte	12                              # 0xc
	.byte	1                               # 0x1
	.byte	5                               # 0x5
	.byte	9                               # 0x9
	.byte	13                              # 0xd
	.byte	2                               # 0x2
	.byte	6                               # 0x6
	.byte	10                              # 0xa
	.byte	14                              # 0xe
	.byte	3                               # 0x3
	.byte	7                               # 0x7
	.byte	11                              # 0xb
	.byte	15                              # 0xf
	.section	.text.aes.aes_hybrid.batches.process_batches_and_rest.1,"ax",@progbits
	.p2align	1
	.type	aes.aes_hybrid.batches.process_batches_and_rest.1,@function
aes.aes_hybrid.batches.process_batches_and_rest.1: # @aes.aes_hybrid.batches.process_batches_and_rest.1
# %bb.0:                                # %join.5.i.lr.ph
	addi	sp, sp, -320
	sd	ra, 312(sp)                     # 8-byte Folded Spill
	sd	s0, 304(sp)                     # 8-byte Folded Spill
	sd	s1, 296(sp)                     # 8-byte Folded Spill
	sd	s2, 288(sp)                     # 8-byte Folded Spill
	sd	s3, 280(sp)                     # 8-byte Folded Spill
	sd	s4, 272(sp)                     # 8-byte Folded Spill
	sd	s5, 264(sp)                     # 8-byte Folded Spill
	sd	s6, 256(sp)                     # 8-byte Folded Spill
	sd	s7, 248(sp)                     # 8-byte Folded Spill
	sd	s8, 240(sp)                     # 8-byte Folded Spill
	sd	s9, 232(sp)                     # 8-byte Folded Spill
	sd	s10, 224(sp)                    # 8-byte Folded Spill
	sd	s11, 216(sp)                    # 8-byte Folded Spill
	csrr	t1, vlenb
	li	t2, 3
	slli	t2, t2, 10
.Laes_BB4_1:                                # %join.5.i.lr.ph
                                        # =>This Inner Loop Header: Depth=1
	sub	sp, sp, t2
	sd	zero, 0(sp)
	sub	t1, t1, t2
	bge	t1, t2, .Laes_BB4_1
# %bb.2:                                # %join.5.i.lr.ph
	sub	sp, sp, t1
	mv	a6, a0
	li	s1, 0
	sd	a3, 40(sp)                      # 8-byte Folded Spill
	andi	a3, a3, -8
	sd	a3, 56(sp)                      # 8-byte Folded Spill
	sd	a1, 32(sp)                      # 8-byte Folded Spill
	srli	s6, a1, 3
	addi	s6, s6, -1
	sd	s6, 48(sp)                      # 8-byte Folded Spill
	sd	a2, 24(sp)                      # 8-byte Folded Spill
	addi	s4, a2, 112
.Laes_BB4_3:                                # %join.5.i
                                        # =>This Inner Loop Header: Depth=1
	addi	a3, s4, -112
	addi	a0, s4, -96
	addi	a5, s4, -80
	addi	a1, s4, -64
	addi	s0, s4, -48
	addi	a2, s4, -32
	addi	a4, s4, -16
	vsetivli	zero, 16, e8, m1, ta, ma
	vle8.v	v8, (s4)
	vle8.v	v9, (a0)
.Laes_pcrel_hi42:
	auipc	a0, %pcrel_hi(.Laes_CPI4_0)
	vle8.v	v10, (a1)
	li	s2, 85
	addi	a0, a0, %pcrel_lo(.Laes_pcrel_hi42)
	vle8.v	v16, (a0)
	li	s11, 51
	vle8.v	v11, (a3)
	vle8.v	v12, (a5)
	vle8.v	v13, (s0)
	vle8.v	v14, (a2)
	vle8.v	v15, (a4)
	vmv.v.v	v17, v16
	addi	a0, sp, 208
	vs1r.v	v16, (a0)                       # vscale x 8-byte Folded Spill
	vrgather.vv	v16, v11, v17
	vrgather.vv	v11, v9, v17
	vrgather.vv	v9, v12, v17
	vrgather.vv	v12, v10, v17
	vrgather.vv	v10, v13, v17
	vrgather.vv	v13, v14, v17
	vrgather.vv	v14, v15, v17
	vrgather.vv	v15, v8, v17
	vsrl.vi	v8, v16, 1
	vsrl.vi	v17, v9, 1
	vsrl.vi	v18, v10, 1
	vsrl.vi	v19, v14, 1
	vxor.vv	v8, v11, v8
	vxor.vv	v17, v12, v17
	vxor.vv	v18, v13, v18
	vxor.vv	v19, v15, v19
	vand.vx	v8, v8, s2
	vand.vx	v17, v17, s2
	vand.vx	v18, v18, s2
	vand.vx	v19, v19, s2
	vxor.vv	v11, v8, v11
	vadd.vv	v8, v8, v8
	vxor.vv	v12, v17, v12
	vadd.vv	v17, v17, v17
	vxor.vv	v13, v18, v13
	vadd.vv	v18, v18, v18
	vxor.vv	v15, v19, v15
	vadd.vv	v19, v19, v19
	vxor.vv	v8, v8, v16
	vxor.vv	v9, v17, v9
	vxor.vv	v10, v18, v10
	vxor.vv	v14, v19, v14
	vsrl.vi	v16, v11, 2
	vsrl.vi	v17, v13, 2
	vsrl.vi	v18, v8, 2
	vsrl.vi	v19, v10, 2
	vxor.vv	v16, v12, v16
	vxor.vv	v17, v15, v17
	vxor.vv	v18, v9, v18
	vxor.vv	v19, v14, v19
	vand.vx	v16, v16, s11
	vand.vx	v17, v17, s11
	vand.vx	v18, v18, s11
	vand.vx	v19, v19, s11
	vxor.vv	v12, v16, v12
	vsll.vi	v16, v16, 2
	vxor.vv	v15, v17, v15
	vsll.vi	v17, v17, 2
	vxor.vv	v9, v18, v9
	vsll.vi	v18, v18, 2
	vxor.vv	v14, v19, v14
	vsll.vi	v19, v19, 2
	vxor.vv	v11, v16, v11
	vxor.vv	v13, v17, v13
	vsrl.vi	v16, v12, 4
	vand.vi	v17, v15, 15
	vxor.vv	v8, v18, v8
	vxor.vv	v10, v19, v10
	vsrl.vi	v18, v11, 4
	vand.vi	v19, v13, 15
	vsrl.vi	v20, v9, 4
	vxor.vv	v16, v17, v16
	vand.vi	v17, v14, 15
	vxor.vv	v18, v19, v18
	vsrl.vi	v19, v8, 4
	vxor.vv	v17, v17, v20
	vand.vi	v20, v10, 15
	vxor.vv	v19, v20, v19
	vxor.vv	v15, v16, v15
	vsll.vi	v16, v16, 4
	vxor.vv	v12, v16, v12
	vxor.vv	v13, v18, v13
	vsll.vi	v16, v18, 4
	vxor.vv	v11, v16, v11
	addi	s3, sp, 64
	vxor.vv	v14, v17, v14
	vsll.vi	v16, v17, 4
	vxor.vv	v10, v19, v10
	vsll.vi	v17, v19, 4
	vxor.vv	v9, v16, v9
	addi	s7, sp, 112
	vse8.v	v12, (s7)
	addi	s9, sp, 144
	vse8.v	v13, (s9)
	addi	s10, sp, 160
	vse8.v	v14, (s10)
	vxor.vv	v8, v17, v8
	addi	s5, sp, 80
	vse8.v	v11, (s5)
	addi	s0, sp, 96
	vse8.v	v9, (s0)
	addi	s8, sp, 128
	vse8.v	v10, (s8)
	vse8.v	v8, (s3)
	addi	s7, sp, 176
	vse8.v	v15, (s7)
	addi	a2, sp, 64
	mv	a0, a6
	ld	a1, 48(sp)                      # 8-byte Folded Reload
	mv	s6, a6
	call	aes.aes_soft.soft.ciphers.planes.EncryptPlaneCipher.process_planes
	mv	a6, s6
	vsetivli	zero, 16, e8, m1, ta, ma
	vle8.v	v12, (s3)
	li	a0, 32
.Laes_pcrel_hi43:
	auipc	a1, %pcrel_hi(.Laes_CPI4_1)
	addi	a1, a1, %pcrel_lo(.Laes_pcrel_hi43)
	vsetvli	zero, a0, e8, m2, ta, ma
	vle8.v	v8, (a1)
	vsetivli	zero, 16, e8, m1, ta, ma
	vle8.v	v16, (s5)
	vle8.v	v13, (s0)
	addi	a1, sp, 112
	vle8.v	v17, (a1)
	vle8.v	v14, (s8)
	vle8.v	v18, (s9)
	vle8.v	v15, (s10)
	vle8.v	v19, (s7)
	vsrl.vi	v10, v12, 1
	vsrl.vi	v11, v13, 1
	vsrl.vi	v20, v14, 1
	vsrl.vi	v21, v15, 1
	vxor.vv	v10, v16, v10
	vxor.vv	v11, v17, v11
	vxor.vv	v20, v18, v20
	vxor.vv	v21, v19, v21
	vand.vx	v22, v10, s2
	vand.vx	v23, v11, s2
	vand.vx	v20, v20, s2
	vand.vx	v21, v21, s2
	csrr	a1, vlenb
	vsetvli	zero, a0, e8, m2, ta, ma
	vslidedown.vx	v10, v8, a1
	lui	a1, 1048560
	addi	s1, s1, 8
	vsetivli	zero, 16, e8, m1, ta, ma
	vxor.vv	v9, v22, v16
	vadd.vv	v11, v22, v22
	vxor.vv	v16, v23, v17
	vadd.vv	v17, v23, v23
	vxor.vv	v18, v20, v18
	vadd.vv	v20, v20, v20
	vxor.vv	v19, v21, v19
	vadd.vv	v21, v21, v21
	vxor.vv	v11, v11, v12
	vxor.vv	v12, v17, v13
	vxor.vv	v13, v20, v14
	vxor.vv	v14, v21, v15
	vsrl.vi	v15, v9, 2
	vsrl.vi	v17, v18, 2
	vsrl.vi	v20, v11, 2
	vsrl.vi	v21, v13, 2
	vxor.vv	v15, v16, v15
	vxor.vv	v17, v19, v17
	vxor.vv	v20, v12, v20
	vxor.vv	v21, v14, v21
	vand.vx	v15, v15, s11
	vand.vx	v17, v17, s11
	vand.vx	v20, v20, s11
	vand.vx	v21, v21, s11
	vxor.vv	v16, v15, v16
	vsll.vi	v15, v15, 2
	vxor.vv	v19, v17, v19
	vsll.vi	v17, v17, 2
	vxor.vv	v22, v20, v12
	vsll.vi	v12, v20, 2
	vxor.vv	v20, v21, v14
	vsll.vi	v14, v21, 2
	vxor.vv	v9, v15, v9
	vxor.vv	v15, v17, v18
	vsrl.vi	v17, v16, 4
	vand.vi	v18, v19, 15
	vxor.vv	v21, v12, v11
	vxor.vv	v23, v14, v13
	vsrl.vi	v11, v9, 4
	vand.vi	v12, v15, 15
	vxor.vv	v13, v18, v17
	vxor.vv	v11, v12, v11
	vxor.vv	v14, v13, v19
	vsll.vi	v12, v13, 4
	vxor.vv	v18, v11, v15
	vsll.vi	v11, v11, 4
	vxor.vv	v16, v12, v16
	vsetvli	a2, zero, e8, m1, ta, ma
	vrgather.vv	v13, v14, v10
	vsetivli	zero, 16, e8, m1, ta, ma
	vxor.vv	v9, v11, v9
	vsetvli	a2, zero, e8, m1, ta, ma
	vrgather.vv	v15, v16, v10
	vrgather.vv	v12, v14, v8
	vrgather.vv	v14, v16, v8
	vrgather.vv	v17, v18, v10
	vrgather.vv	v16, v18, v8
	vsetvli	zero, zero, e32, m4, ta, ma
	vmv.s.x	v0, a1
	vsetvli	zero, zero, e8, m1, ta, ma
	vrgather.vv	v11, v9, v10
	vrgather.vv	v10, v9, v8
	vsetivli	zero, 16, e8, m1, ta, ma
	vsrl.vi	v8, v22, 4
	vand.vi	v9, v20, 15
	vsrl.vi	v18, v21, 4
	vxor.vv	v8, v9, v8
	vand.vi	v9, v23, 15
	vxor.vv	v9, v9, v18
	vxor.vv	v18, v8, v20
	vsll.vi	v8, v8, 4
	vxor.vv	v19, v9, v23
	vsll.vi	v9, v9, 4
	vxor.vv	v20, v8, v22
	addi	a1, sp, 208
	vl1r.v	v22, (a1)                       # vscale x 8-byte Folded Reload
	vrgather.vv	v8, v18, v22
	vxor.vv	v9, v9, v21
	vrgather.vv	v18, v9, v22
	vsetvli	zero, a0, e8, m2, ta, ma
	vmerge.vvm	v10, v18, v10, v0
	vsetivli	zero, 16, e8, m1, ta, ma
	vrgather.vv	v18, v20, v22
	vrgather.vv	v20, v19, v22
	vsetvli	zero, a0, e8, m2, ta, ma
	vmerge.vvm	v14, v18, v14, v0
	addi	a0, s4, -112
	vse8.v	v10, (a0)
	addi	a0, s4, -80
	vse8.v	v14, (a0)
	vmerge.vvm	v10, v20, v16, v0
	addi	a0, s4, -48
	vse8.v	v10, (a0)
	vmerge.vvm	v8, v8, v12, v0
	addi	a0, s4, -16
	vse8.v	v8, (a0)
	addi	s4, s4, 128
	ld	a0, 56(sp)                      # 8-byte Folded Reload
	bltu	s1, a0, .Laes_BB4_3
# %bb.4:                                # %"aes_soft::soft::blocks::slices::process_batches_under::<#b3f041e12f379511>.exit"
	ld	a3, 40(sp)                      # 8-byte Folded Reload
	ld	a0, 56(sp)                      # 8-byte Folded Reload
	bne	a0, a3, .Laes_BB4_6
# %bb.5:                                # %join.5
	csrr	a0, vlenb
	add	sp, sp, a0
	ld	ra, 312(sp)                     # 8-byte Folded Reload
	ld	s0, 304(sp)                     # 8-byte Folded Reload
	ld	s1, 296(sp)                     # 8-byte Folded Reload
	ld	s2, 288(sp)                     # 8-byte Folded Reload
	ld	s3, 280(sp)                     # 8-byte Folded Reload
	ld	s4, 272(sp)                     # 8-byte Folded Reload
	ld	s5, 264(sp)                     # 8-byte Folded Reload
	ld	s6, 256(sp)                     # 8-byte Folded Reload
	ld	s7, 248(sp)                     # 8-byte Folded Reload
	ld	s8, 240(sp)                     # 8-byte Folded Reload
	ld	s9, 232(sp)                     # 8-byte Folded Reload
	ld	s10, 224(sp)                    # 8-byte Folded Reload
	ld	s11, 216(sp)                    # 8-byte Folded Reload
	addi	sp, sp, 320
	ret
.Laes_BB4_6:                                # %then.3
	andi	a3, a3, 7
	ld	a2, 56(sp)                      # 8-byte Folded Reload
	slli	a2, a2, 4
	ld	a0, 24(sp)                      # 8-byte Folded Reload
	add	a2, a2, a0
	mv	a0, a6
	ld	a1, 32(sp)                      # 8-byte Folded Reload
	csrr	a4, vlenb
	add	sp, sp, a4
	ld	ra, 312(sp)                     # 8-byte Folded Reload
	ld	s0, 304(sp)                     # 8-byte Folded Reload
	ld	s1, 296(sp)                     # 8-byte Folded Reload
	ld	s2, 288(sp)                     # 8-byte Folded Reload
	ld	s3, 280(sp)                     # 8-byte Folded Reload
	ld	s4, 272(sp)                     # 8-byte Folded Reload
	ld	s5, 264(sp)                     # 8-byte Folded Reload
	ld	s6, 256(sp)                     # 8-byte Folded Reload
	ld	s7, 248(sp)                     # 8-byte Folded Reload
	ld	s8, 240(sp)                     # 8-byte Folded Reload
	ld	s9, 232(sp)                     # 8-byte Folded Reload
	ld	s10, 224(sp)                    # 8-byte Folded Reload
	ld	s11, 216(sp)                    # 8-byte Folded Reload
	addi	sp, sp, 320
	tail	aes.aes_soft.soft.blocks.filled_up.process_filled_up.1
.Laes_func_end4:
	.size	aes.aes_hybrid.batches.process_batches_and_rest.1, .Laes_func_end4-aes.aes_hybrid.batches.process_batches_and_rest.1
                                        # -- End function
	.section	.rodata.cst16,"aM",@progbits,16
	.p2align	4, 0x0                          # -- Begin function aes_soft::soft::ciphers::planes::process_outlined::<#1a44e25bef607b64>
.Laes_CPI5_0:
	.byte	0                               # 0x0
	.byte	4                               # 0x4
	.byte	8                               # 0x8
	.byte	12                              # 0xc
	.byte	1                               # 0x1
	.byte	5                               # 0x5
	.byte	9                               # 0x9
	.byte	13                              # 0xd
	.byte	2                               # 0x2
	.byte	6                               # 0x6
	.byte	10                              # 0xa
	.byte	14                              # 0xe
	.byte	3                               # 0x3
	.byte	7                               # 0x7
	.byte	11                              # 0xb
	.byte	15                              # 0xf
	.section	.rodata.cst32,"aM",@progbits,32
	.p2align	5, 0x0
.Laes_CPI5_1:
	.zero	1
	.zero	1
	.zero	1
	.zero	1
	.zero	1
	.zero	1
	.zero	1
	.zero	1
	.zero	1
	.zero	1
	.zero	1
	.zero	1
	.zero	1
	.zero	1
	.zero	1
	.zero	1
	.byte	0                               # 0x0
	.byte	4                               # 0x4
	.byte	8                               # 0x8
	.byte	12                              # 0xc
	.byte	1                               # 0x1
	.byte	5                               # 0x5
	.byte	9                               # 0x9
	.byte	13                              # 0xd
	.byte	2                               # 0x2
	.byte	6                               # 0x6
	.byte	10                              # 0xa
	.byte	14                              # 0xe
	.byte	3                               # 0x3
	.byte	7                               # 0x7
	.byte	11                              # 0xb
	.byte	15                              # 0xf
	.section	.text.aes.aes_soft.soft.ciphers.planes.process_outlined.1,"ax",@progbits
	.p2align	1
	.type	aes.aes_soft.soft.ciphers.planes.process_outlined.1,@function
aes.aes_soft.soft.ciphers.planes.process_outlined.1: # @aes.aes_soft.soft.ciphers.planes.process_outlined.1
# %bb.0:                                # %start
	addi	sp, sp, -272
	sd	ra, 264(sp)                     # 8-byte Folded Spill
	sd	s0, 256(sp)                     # 8-byte Folded Spill
	sd	s1, 248(sp)                     # 8-byte Folded Spill
	sd	s2, 240(sp)                     # 8-byte Folded Spill
	sd	s3, 232(sp)                     # 8-byte Folded Spill
	sd	s4, 224(sp)                     # 8-byte Folded Spill
	sd	s5, 216(sp)                     # 8-byte Folded Spill
	sd	s6, 208(sp)                     # 8-byte Folded Spill
	sd	s7, 200(sp)                     # 8-byte Folded Spill
	sd	s8, 192(sp)                     # 8-byte Folded Spill
	sd	s9, 184(sp)                     # 8-byte Folded Spill
	sd	s10, 176(sp)                    # 8-byte Folded Spill
	sd	s11, 168(sp)                    # 8-byte Folded Spill
	csrr	t1, vlenb
	li	t2, 3
	slli	t2, t2, 10
.Laes_BB5_1:                                # %start
                                        # =>This Inner Loop Header: Depth=1
	sub	sp, sp, t2
	sd	zero, 0(sp)
	sub	t1, t1, t2
	bge	t1, t2, .Laes_BB5_1
# %bb.2:                                # %start
	sub	sp, sp, t1
	mv	a6, a2
	mv	a7, a1
	mv	s2, a0
	addi	a0, a3, 16
	vsetivli	zero, 16, e8, m1, ta, ma
	vle8.v	v8, (a3)
.Laes_pcrel_hi44:
	auipc	a2, %pcrel_hi(.Laes_CPI5_0)
	addi	a5, a3, 32
	addi	a4, a3, 48
	addi	a1, a3, 64
	addi	s1, a3, 80
	addi	s0, a3, 96
	addi	a3, a3, 112
	li	s5, 85
	li	s4, 51
	addi	a2, a2, %pcrel_lo(.Laes_pcrel_hi44)
	vle8.v	v9, (a0)
	vle8.v	v10, (a5)
	vle8.v	v11, (a4)
	vle8.v	v12, (a1)
	vle8.v	v17, (a2)
	addi	a0, sp, 160
	vs1r.v	v17, (a0)                       # vscale x 8-byte Folded Spill
	vle8.v	v13, (s1)
	vle8.v	v14, (s0)
	vle8.v	v15, (a3)
	vrgather.vv	v16, v8, v17
	vrgather.vv	v8, v9, v17
	vrgather.vv	v9, v10, v17
	vrgather.vv	v10, v11, v17
	vrgather.vv	v11, v12, v17
	vrgather.vv	v12, v13, v17
	vrgather.vv	v13, v14, v17
	vrgather.vv	v14, v15, v17
	vsrl.vi	v15, v16, 1
	vsrl.vi	v17, v9, 1
	vsrl.vi	v18, v11, 1
	vsrl.vi	v19, v13, 1
	vxor.vv	v15, v8, v15
	vxor.vv	v17, v10, v17
	vxor.vv	v18, v12, v18
	vxor.vv	v19, v14, v19
	vand.vx	v15, v15, s5
	vand.vx	v17, v17, s5
	vand.vx	v18, v18, s5
	vand.vx	v19, v19, s5
	vxor.vv	v8, v15, v8
	vadd.vv	v15, v15, v15
	vxor.vv	v10, v17, v10
	vadd.vv	v17, v17, v17
	vxor.vv	v12, v18, v12
	vadd.vv	v18, v18, v18
	vxor.vv	v14, v19, v14
	vadd.vv	v19, v19, v19
	vxor.vv	v15, v15, v16
	vxor.vv	v9, v17, v9
	vxor.vv	v11, v18, v11
	vxor.vv	v13, v19, v13
	vsrl.vi	v16, v8, 2
	vsrl.vi	v17, v12, 2
	vsrl.vi	v18, v15, 2
	vsrl.vi	v19, v11, 2
	vxor.vv	v16, v10, v16
	vxor.vv	v17, v14, v17
	vxor.vv	v18, v9, v18
	vxor.vv	v19, v13, v19
	vand.vx	v16, v16, s4
	vand.vx	v17, v17, s4
	vand.vx	v18, v18, s4
	vand.vx	v19, v19, s4
	vxor.vv	v10, v16, v10
	vsll.vi	v16, v16, 2
	vxor.vv	v14, v17, v14
	vsll.vi	v17, v17, 2
	vxor.vv	v9, v18, v9
	vsll.vi	v18, v18, 2
	vxor.vv	v13, v19, v13
	vsll.vi	v19, v19, 2
	vxor.vv	v8, v16, v8
	vxor.vv	v12, v17, v12
	vsrl.vi	v16, v10, 4
	vand.vi	v17, v14, 15
	vxor.vv	v15, v18, v15
	vxor.vv	v11, v19, v11
	vsrl.vi	v18, v8, 4
	vand.vi	v19, v12, 15
	vsrl.vi	v20, v9, 4
	vxor.vv	v16, v17, v16
	vand.vi	v17, v13, 15
	vxor.vv	v18, v19, v18
	vsrl.vi	v19, v15, 4
	vxor.vv	v17, v17, v20
	vand.vi	v20, v11, 15
	vxor.vv	v19, v20, v19
	vxor.vv	v14, v16, v14
	vsll.vi	v16, v16, 4
	vxor.vv	v10, v16, v10
	vxor.vv	v12, v18, v12
	vsll.vi	v16, v18, 4
	vxor.vv	v8, v16, v8
	addi	s3, s2, 32
	addi	s6, sp, 32
	addi	s7, sp, 16
	addi	s8, sp, 48
	addi	s9, sp, 64
	addi	s10, sp, 80
	addi	s11, sp, 96
	addi	s0, sp, 112
	addi	s1, sp, 128
	vxor.vv	v13, v17, v13
	vsll.vi	v16, v17, 4
	vxor.vv	v11, v19, v11
	vsll.vi	v17, v19, 4
	vxor.vv	v9, v16, v9
	vse8.v	v10, (s9)
	vse8.v	v12, (s11)
	vse8.v	v13, (s0)
	vxor.vv	v10, v17, v15
	vse8.v	v8, (s6)
	vse8.v	v9, (s8)
	vse8.v	v11, (s10)
	vse8.v	v10, (s7)
	vse8.v	v14, (s1)
	addi	a2, sp, 16
	mv	a0, a7
	mv	a1, a6
	call	aes.aes_soft.soft.ciphers.planes.EncryptPlaneCipher.process_planes
	vsetivli	zero, 16, e8, m1, ta, ma
	vle8.v	v12, (s7)
	vle8.v	v16, (s6)
	vle8.v	v13, (s8)
	vle8.v	v17, (s9)
	vle8.v	v14, (s10)
	vle8.v	v18, (s11)
	vle8.v	v15, (s0)
	vle8.v	v19, (s1)
	li	a0, 32
.Laes_pcrel_hi45:
	auipc	a4, %pcrel_hi(.Laes_CPI5_1)
	csrr	a5, vlenb
	lui	a3, 1048560
	addi	a1, s2, 64
	addi	a2, s2, 96
	addi	a4, a4, %pcrel_lo(.Laes_pcrel_hi45)
	vsetvli	zero, a0, e8, m2, ta, ma
	vle8.v	v8, (a4)
	vsetivli	zero, 16, e8, m1, ta, ma
	vsrl.vi	v10, v12, 1
	vsrl.vi	v11, v13, 1
	vsrl.vi	v20, v14, 1
	vsrl.vi	v21, v15, 1
	vxor.vv	v10, v16, v10
	vxor.vv	v11, v17, v11
	vxor.vv	v20, v18, v20
	vxor.vv	v21, v19, v21
	vand.vx	v22, v10, s5
	vand.vx	v23, v11, s5
	vand.vx	v20, v20, s5
	vand.vx	v21, v21, s5
	vsetvli	zero, a0, e8, m2, ta, ma
	vslidedown.vx	v10, v8, a5
	vsetivli	zero, 16, e8, m1, ta, ma
	vxor.vv	v9, v22, v16
	vadd.vv	v11, v22, v22
	vxor.vv	v16, v23, v17
	vadd.vv	v17, v23, v23
	vxor.vv	v18, v20, v18
	vadd.vv	v20, v20, v20
	vxor.vv	v19, v21, v19
	vadd.vv	v21, v21, v21
	vxor.vv	v11, v11, v12
	vxor.vv	v12, v17, v13
	vxor.vv	v13, v20, v14
	vxor.vv	v14, v21, v15
	vsrl.vi	v15, v9, 2
	vsrl.vi	v17, v18, 2
	vsrl.vi	v20, v11, 2
	vsrl.vi	v21, v13, 2
	vxor.vv	v15, v16, v15
	vxor.vv	v17, v19, v17
	vxor.vv	v20, v12, v20
	vxor.vv	v21, v14, v21
	vand.vx	v15, v15, s4
	vand.vx	v17, v17, s4
	vand.vx	v20, v20, s4
	vand.vx	v21, v21, s4
	vxor.vv	v16, v15, v16
	vsll.vi	v15, v15, 2
	vxor.vv	v19, v17, v19
	vsll.vi	v17, v17, 2
	vxor.vv	v22, v20, v12
	vsll.vi	v12, v20, 2
	vxor.vv	v20, v21, v14
	vsll.vi	v14, v21, 2
	vxor.vv	v9, v15, v9
	vxor.vv	v15, v17, v18
	vsrl.vi	v17, v16, 4
	vand.vi	v18, v19, 15
	vxor.vv	v21, v12, v11
	vxor.vv	v23, v14, v13
	vsrl.vi	v11, v9, 4
	vand.vi	v12, v15, 15
	vxor.vv	v13, v18, v17
	vxor.vv	v11, v12, v11
	vxor.vv	v14, v13, v19
	vsll.vi	v12, v13, 4
	vxor.vv	v18, v11, v15
	vsll.vi	v11, v11, 4
	vxor.vv	v15, v12, v16
	vsetvli	a4, zero, e8, m1, ta, ma
	vrgather.vv	v13, v14, v10
	vsetivli	zero, 16, e8, m1, ta, ma
	vxor.vv	v9, v11, v9
	vsetvli	a4, zero, e8, m1, ta, ma
	vrgather.vv	v17, v15, v10
	vrgather.vv	v12, v14, v8
	vrgather.vv	v16, v15, v8
	vrgather.vv	v15, v18, v10
	vrgather.vv	v14, v18, v8
	vsetvli	zero, zero, e32, m4, ta, ma
	vmv.s.x	v0, a3
	vsetvli	zero, zero, e8, m1, ta, ma
	vrgather.vv	v11, v9, v10
	vrgather.vv	v10, v9, v8
	vsetivli	zero, 16, e8, m1, ta, ma
	vsrl.vi	v8, v22, 4
	vand.vi	v9, v20, 15
	vsrl.vi	v18, v21, 4
	vxor.vv	v8, v9, v8
	vand.vi	v9, v23, 15
	vxor.vv	v9, v9, v18
	vxor.vv	v18, v8, v20
	vsll.vi	v8, v8, 4
	vxor.vv	v19, v9, v23
	vsll.vi	v9, v9, 4
	vxor.vv	v20, v8, v22
	addi	a3, sp, 160
	vl1r.v	v22, (a3)                       # vscale x 8-byte Folded Reload
	vrgather.vv	v8, v18, v22
	vxor.vv	v9, v9, v21
	vrgather.vv	v18, v9, v22
	vsetvli	zero, a0, e8, m2, ta, ma
	vmerge.vvm	v10, v18, v10, v0
	vsetivli	zero, 16, e8, m1, ta, ma
	vrgather.vv	v18, v20, v22
	vrgather.vv	v20, v19, v22
	vsetvli	zero, a0, e8, m2, ta, ma
	vmerge.vvm	v16, v18, v16, v0
	vse8.v	v10, (s2)
	vse8.v	v16, (s3)
	vmerge.vvm	v10, v20, v14, v0
	vse8.v	v10, (a1)
	vmerge.vvm	v8, v8, v12, v0
	vse8.v	v8, (a2)
	csrr	a0, vlenb
	add	sp, sp, a0
	ld	ra, 264(sp)                     # 8-byte Folded Reload
	ld	s0, 256(sp)                     # 8-byte Folded Reload
	ld	s1, 248(sp)                     # 8-byte Folded Reload
	ld	s2, 240(sp)                     # 8-byte Folded Reload
	ld	s3, 232(sp)                     # 8-byte Folded Reload
	ld	s4, 224(sp)                     # 8-byte Folded Reload
	ld	s5, 216(sp)                     # 8-byte Folded Reload
	ld	s6, 208(sp)                     # 8-byte Folded Reload
	ld	s7, 200(sp)                     # 8-byte Folded Reload
	ld	s8, 192(sp)                     # 8-byte Folded Reload
	ld	s9, 184(sp)                     # 8-byte Folded Reload
	ld	s10, 176(sp)                    # 8-byte Folded Reload
	ld	s11, 168(sp)                    # 8-byte Folded Reload
	addi	sp, sp, 272
	ret
.Laes_func_end5:
	.size	aes.aes_soft.soft.ciphers.planes.process_outlined.1, .Laes_func_end5-aes.aes_soft.soft.ciphers.planes.process_outlined.1
                                        # -- End function
	.section	.rodata.cst16,"aM",@progbits,16
	.p2align	4, 0x0                          # -- Begin function aes_soft::soft::ciphers::planes::EncryptPlaneCipher::process_planes::<#f2467153fb0a218d>
.Laes_CPI6_0:
	.byte	5                               # 0x5
	.byte	6                               # 0x6
	.byte	7                               # 0x7
	.byte	8                               # 0x8
	.byte	9                               # 0x9
	.byte	10                              # 0xa
	.byte	11                              # 0xb
	.byte	12                              # 0xc
	.byte	13                              # 0xd
	.byte	14                              # 0xe
	.byte	15                              # 0xf
	.byte	0                               # 0x0
	.byte	1                               # 0x1
	.byte	2                               # 0x2
	.byte	3                               # 0x3
	.byte	4                               # 0x4
.Laes_CPI6_1:
	.byte	1                               # 0x1
	.byte	2                               # 0x2
	.byte	3                               # 0x3
	.byte	4                               # 0x4
	.byte	5                               # 0x5
	.byte	6                               # 0x6
	.byte	7                               # 0x7
	.byte	8                               # 0x8
	.byte	9                               # 0x9
	.byte	10                              # 0xa
	.byte	11                              # 0xb
	.byte	12                              # 0xc
	.byte	13                              # 0xd
	.byte	14                              # 0xe
	.byte	15                              # 0xf
	.byte	0                               # 0x0
.Laes_CPI6_2:
	.byte	10                              # 0xa
	.byte	11                              # 0xb
	.byte	12                              # 0xc
	.byte	13                              # 0xd
	.byte	14                              # 0xe
	.byte	15                              # 0xf
	.byte	0                               # 0x0
	.byte	1                               # 0x1
	.byte	2                               # 0x2
	.byte	3                               # 0x3
	.byte	4                               # 0x4
	.byte	5                               # 0x5
	.byte	6                               # 0x6
	.byte	7                               # 0x7
	.byte	8                               # 0x8
	.byte	9                               # 0x9
.Laes_CPI6_3:
	.byte	6                               # 0x6
	.byte	7                               # 0x7
	.byte	8                               # 0x8
	.byte	9                               # 0x9
	.byte	10                              # 0xa
	.byte	11                              # 0xb
	.byte	12                              # 0xc
	.byte	13                              # 0xd
	.byte	14                              # 0xe
	.byte	15                              # 0xf
	.byte	0                               # 0x0
	.byte	1                               # 0x1
	.byte	2                               # 0x2
	.byte	3                               # 0x3
	.byte	4                               # 0x4
	.byte	5                               # 0x5
.Laes_CPI6_4:
	.byte	2                               # 0x2
	.byte	3                               # 0x3
	.byte	4                               # 0x4
	.byte	5                               # 0x5
	.byte	6                               # 0x6
	.byte	7                               # 0x7
	.byte	8                               # 0x8
	.byte	9                               # 0x9
	.byte	10                              # 0xa
	.byte	11                              # 0xb
	.byte	12                              # 0xc
	.byte	13                              # 0xd
	.byte	14                              # 0xe
	.byte	15                              # 0xf
	.byte	0                               # 0x0
	.byte	1                               # 0x1
.Laes_CPI6_5:
	.byte	8                               # 0x8
	.byte	9                               # 0x9
	.byte	10                              # 0xa
	.byte	11                              # 0xb
	.byte	12                              # 0xc
	.byte	13                              # 0xd
	.byte	14                              # 0xe
	.byte	15                              # 0xf
	.byte	0                               # 0x0
	.byte	1                               # 0x1
	.byte	2                               # 0x2
	.byte	3                               # 0x3
	.byte	4                               # 0x4
	.byte	5                               # 0x5
	.byte	6                               # 0x6
	.byte	7                               # 0x7
.Laes_CPI6_6:
	.byte	7                               # 0x7
	.byte	8                               # 0x8
	.byte	9                               # 0x9
	.byte	10                              # 0xa
	.byte	11                              # 0xb
	.byte	12                              # 0xc
	.byte	13                              # 0xd
	.byte	14                              # 0xe
	.byte	15                              # 0xf
	.byte	0                               # 0x0
	.byte	1                               # 0x1
	.byte	2                               # 0x2
	.byte	3                               # 0x3
	.byte	4                               # 0x4
	.byte	5                               # 0x5
	.byte	6                               # 0x6
.Laes_CPI6_7:
	.byte	3                               # 0x3
	.byte	4                               # 0x4
	.byte	5                               # 0x5
	.byte	6                               # 0x6
	.byte	7                               # 0x7
	.byte	8                               # 0x8
	.byte	9                               # 0x9
	.byte	10                              # 0xa
	.byte	11                              # 0xb
	.byte	12                              # 0xc
	.byte	13                              # 0xd
	.byte	14                              # 0xe
	.byte	15                              # 0xf
	.byte	0                               # 0x0
	.byte	1                               # 0x1
	.byte	2                               # 0x2
.Laes_CPI6_8:
	.byte	4                               # 0x4
	.byte	5                               # 0x5
	.byte	6                               # 0x6
	.byte	7                               # 0x7
	.byte	8                               # 0x8
	.byte	9                               # 0x9
	.byte	10                              # 0xa
	.byte	11                              # 0xb
	.byte	12                              # 0xc
	.byte	13                              # 0xd
	.byte	14                              # 0xe
	.byte	15                              # 0xf
	.byte	0                               # 0x0
	.byte	1                               # 0x1
	.byte	2                               # 0x2
	.byte	3                               # 0x3
.Laes_CPI6_9:
	.byte	2                               # 0x2
	.byte	3                               # 0x3
	.byte	4                               # 0x4
	.byte	5                               # 0x5
	.byte	6                               # 0x6
	.byte	7                               # 0x7
	.byte	8                               # 0x8
	.byte	9                               # 0x9
	.byte	10                              # 0xa
	.byte	11                              # 0xb
	.byte	12                              # 0xc
	.byte	13                              # 0xd
	.byte	14                              # 0xe
	.byte	15                              # 0xf
	.byte	128                             # 0x80
	.byte	129                             # 0x81
	.section	.text.aes.aes_soft.soft.ciphers.planes.EncryptPlaneCipher.process_planes,"ax",@progbits
	.p2align	1
	.type	aes.aes_soft.soft.ciphers.planes.EncryptPlaneCipher.process_planes,@function
aes.aes_soft.soft.ciphers.planes.EncryptPlaneCipher.process_planes: # @aes.aes_soft.soft.ciphers.planes.EncryptPlaneCipher.process_planes
# %bb.0:                                # %start
	addi	sp, sp, -80
	sd	s0, 72(sp)                      # 8-byte Folded Spill
	sd	s1, 64(sp)                      # 8-byte Folded Spill
	sd	s2, 56(sp)                      # 8-byte Folded Spill
	sd	s3, 48(sp)                      # 8-byte Folded Spill
	sd	s4, 40(sp)                      # 8-byte Folded Spill
	csrr	t1, vlenb
	slli	a3, t1, 3
	add	t1, t1, a3
	li	t2, 3
	slli	t2, t2, 10
.Laes_BB6_1:                                # %start
                                        # =>This Inner Loop Header: Depth=1
	sub	sp, sp, t2
	sd	zero, 0(sp)
	sub	t1, t1, t2
	bge	t1, t2, .Laes_BB6_1
# %bb.2:                                # %start
	sub	sp, sp, t1
	addi	s3, a0, 16
	addi	a6, a2, 16
	addi	t4, a1, -2
	vsetivli	zero, 16, e8, m1, ta, ma
	vle8.v	v8, (a2)
	addi	t1, a2, 32
	addi	a7, a2, 48
	addi	t0, a2, 64
	addi	s2, a2, 80
	addi	t5, a2, 96
	addi	t6, a2, 112
	vle8.v	v11, (a0)
	addi	a3, a0, 32
	addi	a4, a0, 48
	addi	s1, a0, 64
	addi	s0, a0, 80
	addi	a5, a0, 96
	vle8.v	v12, (a3)
	addi	a3, a0, 112
	vle8.v	v13, (a4)
.Laes_pcrel_hi46:
	auipc	a4, %pcrel_hi(.Laes_CPI6_0)
	vle8.v	v14, (s1)
.Laes_pcrel_hi47:
	auipc	s1, %pcrel_hi(.Laes_CPI6_1)
	vle8.v	v15, (s0)
.Laes_pcrel_hi48:
	auipc	s0, %pcrel_hi(.Laes_CPI6_2)
	vle8.v	v16, (a5)
.Laes_pcrel_hi49:
	auipc	a5, %pcrel_hi(.Laes_CPI6_3)
	vle8.v	v17, (a3)
.Laes_pcrel_hi50:
	auipc	t2, %pcrel_hi(.Laes_CPI6_4)
	addi	a4, a4, %pcrel_lo(.Laes_pcrel_hi46)
	vle8.v	v25, (a4)
.Laes_pcrel_hi51:
	auipc	a4, %pcrel_hi(.Laes_CPI6_5)
	addi	s1, s1, %pcrel_lo(.Laes_pcrel_hi47)
	vle8.v	v26, (s1)
.Laes_pcrel_hi52:
	auipc	s1, %pcrel_hi(.Laes_CPI6_6)
	addi	s0, s0, %pcrel_lo(.Laes_pcrel_hi48)
	vle8.v	v9, (s0)
	csrr	a3, vlenb
	slli	t3, a3, 3
	sub	a3, t3, a3
	add	a3, a3, sp
	addi	a3, a3, 32
	vs1r.v	v9, (a3)                        # vscale x 8-byte Folded Spill
.Laes_pcrel_hi53:
	auipc	a3, %pcrel_hi(.Laes_CPI6_7)
	addi	a5, a5, %pcrel_lo(.Laes_pcrel_hi49)
	vle8.v	v9, (a5)
	csrr	a5, vlenb
	li	t3, 6
	mul	a5, a5, t3
	add	a5, a5, sp
	addi	a5, a5, 32
	vs1r.v	v9, (a5)                        # vscale x 8-byte Folded Spill
	srli	s0, t4, 2
	vle8.v	v19, (a6)
	vle8.v	v20, (t1)
	vle8.v	v21, (s3)
	vle8.v	v22, (a7)
	vxor.vv	v18, v11, v8
	vle8.v	v8, (t0)
	vxor.vv	v21, v21, v19
	vle8.v	v11, (s2)
	vxor.vv	v20, v12, v20
	vle8.v	v12, (t5)
	vxor.vv	v23, v13, v22
	vle8.v	v13, (t6)
	addi	s4, t2, %pcrel_lo(.Laes_pcrel_hi50)
	addi	a4, a4, %pcrel_lo(.Laes_pcrel_hi51)
	addi	t2, s1, %pcrel_lo(.Laes_pcrel_hi52)
	vxor.vv	v24, v14, v8
	vxor.vv	v8, v15, v11
	vxor.vv	v22, v16, v12
	vxor.vv	v19, v17, v13
	addi	t3, a3, %pcrel_lo(.Laes_pcrel_hi53)
	csrr	a3, vlenb
	slli	a5, a3, 2
	add	a3, a3, a5
	add	a3, a3, sp
	addi	a3, a3, 32
	vs1r.v	v25, (a3)                       # vscale x 8-byte Folded Spill
	csrr	a3, vlenb
	slli	a3, a3, 2
	add	a3, a3, sp
	addi	a3, a3, 32
	vs1r.v	v26, (a3)                       # vscale x 8-byte Folded Spill
	beqz	s0, .Laes_BB6_5
# %bb.3:                                # %join.7.lr.ph
	vle8.v	v11, (s4)
	csrr	a3, vlenb
	slli	a5, a3, 1
	add	a3, a3, a5
	add	a3, a3, sp
	addi	a3, a3, 32
	vs1r.v	v11, (a3)                       # vscale x 8-byte Folded Spill
	vle8.v	v11, (a4)
	csrr	a3, vlenb
	slli	a3, a3, 3
	add	a3, a3, sp
	addi	a3, a3, 32
	vs1r.v	v11, (a3)                       # vscale x 8-byte Folded Spill
	vle8.v	v11, (t2)
	csrr	a3, vlenb
	slli	a3, a3, 1
	add	a3, a3, sp
	addi	a3, a3, 32
	vs1r.v	v11, (a3)                       # vscale x 8-byte Folded Spill
	vle8.v	v11, (t3)
	csrr	a3, vlenb
	add	a3, a3, sp
	addi	a3, a3, 32
	vs1r.v	v11, (a3)                       # vscale x 8-byte Folded Spill
.Laes_pcrel_hi54:
	auipc	a3, %pcrel_hi(.Laes_CPI6_8)
	addi	a3, a3, %pcrel_lo(.Laes_pcrel_hi54)
	vle8.v	v11, (a3)
	addi	a3, sp, 32
	vs1r.v	v11, (a3)                       # vscale x 8-byte Folded Spill
	addi	s1, s3, 608
.Laes_BB6_4:                                # %join.7
                                        # =>This Inner Loop Header: Depth=1
	vxor.vv	v11, v8, v22
	vxor.vv	v28, v24, v19
	vxor.vv	v26, v21, v19
	vxor.vv	v25, v20, v24
	vxor.vv	v27, v20, v19
	li	a3, 85
	vmv.s.x	v8, a3
	addi	a3, s1, -496
	vxor.vv	v12, v18, v11
	vxor.vv	v29, v26, v25
	vxor.vv	v24, v12, v24
	vxor.vv	v15, v29, v23
	vxor.vv	v30, v12, v19
	vxor.vv	v13, v12, v21
	vand.vv	v23, v24, v18
	vxor.vv	v31, v15, v20
	vxor.vv	v15, v15, v22
	vxor.vv	v22, v13, v27
	vand.vv	v7, v13, v12
	vxor.vv	v6, v15, v28
	vxor.vv	v5, v31, v18
	vand.vv	v4, v31, v29
	vxor.vv	v21, v31, v11
	vxor.vv	v3, v23, v27
	vand.vv	v2, v6, v28
	vxor.vv	v23, v6, v11
	vxor.vv	v20, v6, v21
	vxor.vv	v1, v6, v18
	vand.vv	v11, v21, v27
	vand.vv	v0, v5, v22
	vxor.vv	v3, v3, v21
	vxor.vv	v15, v15, v0
	vand.vv	v0, v20, v25
	vxor.vv	v11, v11, v2
	vxor.vv	v2, v0, v2
	vand.vv	v0, v1, v30
	vxor.vv	v3, v3, v4
	vxor.vv	v15, v15, v4
	vand.vv	v4, v23, v26
	vxor.vv	v7, v23, v7
	vxor.vv	v3, v3, v11
	vxor.vv	v7, v7, v4
	vxor.vv	v0, v23, v0
	vxor.vv	v15, v15, v2
	vxor.vv	v7, v7, v26
	vxor.vv	v4, v0, v4
	vxor.vv	v7, v7, v2
	vxor.vv	v19, v4, v19
	vxor.vv	v4, v15, v3
	vxor.vv	v19, v19, v11
	vand.vv	v15, v7, v15
	vxor.vv	v11, v15, v3
	vxor.vv	v2, v15, v19
	vxor.vv	v0, v19, v7
	vand.vv	v0, v11, v0
	vand.vv	v11, v2, v4
	vxor.vv	v3, v11, v3
	vle8.v	v11, (a3)
	addi	a3, s1, -480
	vxor.vv	v15, v0, v15
	vxor.vv	v16, v0, v19
	vand.vv	v19, v15, v19
	vle8.v	v15, (a3)
	lui	a3, 7
	addi	a3, a3, 1911
	vxor.vv	v2, v19, v2
	vxor.vv	v19, v19, v7
	vsetvli	zero, zero, e16, m2, ta, ma
	vmv.s.x	v0, a3
	addi	a5, s1, -464
	vsetvli	zero, zero, e8, m1, ta, mu
	vand.vv	v24, v16, v24
	vand.vv	v18, v16, v18
	vand.vv	v31, v19, v31
	vand.vv	v29, v19, v29
	vxor.vv	v19, v19, v16
	vxor.vv	v16, v3, v16
	vand.vv	v30, v3, v30
	vand.vv	v7, v3, v1
	vand.vv	v6, v16, v6
	vand.vv	v28, v16, v28
	vand.vv	v2, v2, v3
	vxor.vv	v4, v2, v4
	vand.vv	v5, v19, v5
	vand.vv	v22, v19, v22
	vxor.vv	v18, v31, v18
	vxor.vv	v19, v4, v19
	vxor.vv	v3, v4, v3
	vand.vv	v12, v4, v12
	vand.vv	v13, v4, v13
	vxor.vv	v31, v5, v31
	vxor.vv	v7, v18, v7
	vand.vv	v23, v3, v23
	vand.vv	v21, v19, v21
	vxor.vv	v16, v19, v16
	vand.vv	v26, v3, v26
	vand.vv	v19, v19, v27
	vand.vv	v25, v16, v25
	vxor.vv	v12, v23, v12
	vand.vv	v16, v16, v20
	vxor.vv	v20, v7, v23
	vxor.vv	v18, v21, v18
	vxor.vv	v19, v19, v28
	vxor.vv	v21, v25, v28
	vxor.vv	v16, v12, v16
	vxor.vv	v13, v20, v13
	vxor.vv	v12, v31, v12
	vxor.vv	v18, v18, v26
	vxor.vv	v22, v21, v22
	vxor.vv	v13, v13, v21
	vxor.vv	v18, v18, v16
	vxor.vv	v16, v16, v6
	vxor.vv	v21, v22, v29
	vxor.vv	v23, v18, v30
	vxor.vv	v27, v13, v18
	vxor.vv	v28, v13, v26
	vxor.vv	v13, v22, v24
	vxor.vv	v18, v19, v16
	vxor.vv	v12, v12, v21
	vxor.vv	v29, v13, v23
	vxor.vv	v25, v21, v16
	vxor.vv	v31, v18, v23
	csrr	a3, vlenb
	slli	a3, a3, 2
	add	a3, a3, sp
	addi	a3, a3, 32
	vl1r.v	v30, (a3)                       # vscale x 8-byte Folded Reload
	vrgather.vv	v13, v28, v30
	vrgather.vv	v24, v27, v30
	vxor.vv	v26, v12, v16
	vxor.vv	v16, v12, v20
	csrr	a3, vlenb
	slli	s3, a3, 2
	add	a3, a3, s3
	add	a3, a3, sp
	addi	a3, a3, 32
	vl1r.v	v17, (a3)                       # vscale x 8-byte Folded Reload
	vrgather.vv	v13, v28, v17, v0.t
	vrgather.vv	v24, v27, v17, v0.t
	vrgather.vv	v23, v29, v30
	vrgather.vv	v21, v12, v30
	vrgather.vv	v19, v31, v30
	vrgather.vv	v18, v25, v30
	vrgather.vv	v23, v29, v17, v0.t
	vrgather.vv	v22, v16, v30
	vrgather.vv	v20, v26, v30
	vxor.vv	v2, v13, v28
	vxor.vv	v30, v24, v27
	vrgather.vv	v22, v16, v17, v0.t
	vxor.vv	v27, v23, v29
	csrr	a3, vlenb
	slli	s3, a3, 3
	sub	a3, s3, a3
	add	a3, a3, sp
	addi	a3, a3, 32
	vl1r.v	v14, (a3)                       # vscale x 8-byte Folded Reload
	vrgather.vv	v7, v2, v14
	csrr	a3, vlenb
	li	s3, 6
	mul	a3, a3, s3
	add	a3, a3, sp
	addi	a3, a3, 32
	vl1r.v	v10, (a3)                       # vscale x 8-byte Folded Reload
	vrgather.vv	v6, v2, v10
	vrgather.vv	v5, v30, v14
	vrgather.vv	v4, v30, v10
	vrgather.vv	v21, v12, v17, v0.t
	vxor.vv	v29, v22, v16
	vrgather.vv	v16, v27, v14
	vrgather.vv	v3, v27, v10
	vrgather.vv	v19, v31, v17, v0.t
	vxor.vv	v28, v21, v12
	vrgather.vv	v20, v26, v17, v0.t
	vrgather.vv	v12, v29, v14
	vrgather.vv	v18, v25, v17, v0.t
	vmv1r.v	v0, v8
	vsetivli	zero, 8, e16, m1, ta, ma
	vmerge.vvm	v1, v6, v7, v0
	vsetivli	zero, 16, e8, m1, ta, ma
	vrgather.vv	v7, v29, v10
	vxor.vv	v31, v19, v31
	vsetivli	zero, 8, e16, m1, ta, ma
	vmerge.vvm	v17, v4, v5, v0
	vsetivli	zero, 16, e8, m1, ta, ma
	vrgather.vv	v6, v28, v14
	vsetivli	zero, 8, e16, m1, ta, ma
	vmerge.vvm	v4, v3, v16, v0
	vsetivli	zero, 16, e8, m1, ta, ma
	vrgather.vv	v16, v28, v10
	vsetivli	zero, 8, e16, m1, ta, ma
	vmerge.vvm	v5, v7, v12, v0
	vsetivli	zero, 16, e8, m1, ta, ma
	vrgather.vv	v12, v31, v14
	vsetivli	zero, 8, e16, m1, ta, ma
	vmerge.vvm	v6, v16, v6, v0
	vsetivli	zero, 16, e8, m1, ta, ma
	vrgather.vv	v16, v31, v10
	vsetivli	zero, 8, e16, m1, ta, ma
	vmerge.vvm	v7, v16, v12, v0
	vsetivli	zero, 16, e8, m1, ta, ma
	vle8.v	v0, (a5)
	addi	a3, s1, -448
	vle8.v	v3, (a3)
	addi	a3, s1, -432
	vxor.vv	v11, v1, v11
	vle8.v	v12, (a3)
	addi	a3, s1, -416
	vxor.vv	v13, v11, v13
	vle8.v	v11, (a3)
	addi	a3, s1, -400
	vxor.vv	v15, v17, v15
	vle8.v	v1, (a3)
	addi	a3, s1, -384
	vxor.vv	v15, v15, v2
	vle8.v	v2, (a3)
	addi	a5, s1, -368
	vxor.vv	v16, v20, v26
	vxor.vv	v17, v18, v25
	vxor.vv	v25, v4, v0
	vrgather.vv	v26, v16, v14
	vxor.vv	v15, v15, v24
	vrgather.vv	v24, v16, v10
	vxor.vv	v25, v25, v30
	vrgather.vv	v30, v17, v14
	vxor.vv	v5, v5, v3
	vrgather.vv	v4, v17, v10
	vxor.vv	v13, v13, v17
	vxor.vv	v3, v15, v17
	vxor.vv	v25, v25, v23
	vxor.vv	v12, v6, v12
	vxor.vv	v15, v5, v27
	vmv1r.v	v0, v8
	vsetivli	zero, 8, e16, m1, ta, ma
	vmerge.vvm	v23, v24, v26, v0
	vsetivli	zero, 16, e8, m1, ta, ma
	vxor.vv	v12, v12, v29
	vxor.vv	v11, v7, v11
	vxor.vv	v15, v15, v22
	vsetivli	zero, 8, e16, m1, ta, ma
	vmerge.vvm	v22, v4, v30, v0
	vsetivli	zero, 16, e8, m1, ta, ma
	vxor.vv	v12, v12, v21
	vxor.vv	v21, v23, v1
	vxor.vv	v11, v11, v28
	vxor.vv	v24, v15, v17
	vxor.vv	v17, v12, v17
	vxor.vv	v12, v21, v31
	vxor.vv	v15, v22, v2
	vxor.vv	v11, v11, v19
	vxor.vv	v19, v12, v20
	vxor.vv	v12, v15, v16
	vxor.vv	v22, v17, v25
	vxor.vv	v16, v12, v18
	vxor.vv	v11, v11, v19
	vxor.vv	v15, v16, v17
	vxor.vv	v18, v11, v13
	vxor.vv	v12, v16, v3
	vxor.vv	v23, v16, v25
	vxor.vv	v17, v18, v17
	vxor.vv	v31, v12, v22
	vxor.vv	v28, v18, v16
	vxor.vv	v27, v18, v3
	vand.vv	v20, v17, v13
	vxor.vv	v21, v24, v31
	vxor.vv	v30, v27, v23
	vand.vv	v7, v27, v18
	vxor.vv	v6, v21, v25
	vxor.vv	v19, v21, v19
	vxor.vv	v20, v20, v23
	vxor.vv	v25, v19, v15
	vxor.vv	v5, v6, v13
	vand.vv	v21, v6, v31
	vxor.vv	v26, v6, v11
	vand.vv	v4, v25, v15
	vxor.vv	v29, v25, v11
	vxor.vv	v24, v25, v26
	vxor.vv	v3, v25, v13
	vand.vv	v11, v26, v23
	vand.vv	v2, v5, v30
	vxor.vv	v20, v20, v26
	vxor.vv	v19, v19, v2
	vand.vv	v2, v24, v22
	vxor.vv	v11, v11, v4
	vxor.vv	v4, v2, v4
	vand.vv	v2, v3, v28
	vxor.vv	v20, v20, v21
	vxor.vv	v19, v19, v21
	vand.vv	v21, v29, v12
	vxor.vv	v7, v29, v7
	vxor.vv	v20, v20, v11
	vxor.vv	v7, v7, v21
	vxor.vv	v2, v29, v2
	vxor.vv	v19, v19, v4
	vxor.vv	v7, v7, v12
	vxor.vv	v21, v2, v21
	vxor.vv	v7, v7, v4
	vxor.vv	v16, v21, v16
	vxor.vv	v4, v19, v20
	vxor.vv	v11, v16, v11
	vand.vv	v16, v7, v19
	vxor.vv	v19, v16, v20
	vxor.vv	v2, v16, v11
	vxor.vv	v21, v11, v7
	vand.vv	v19, v19, v21
	vand.vv	v21, v2, v4
	vxor.vv	v1, v21, v20
	vle8.v	v20, (a5)
	addi	a3, s1, -352
	vxor.vv	v16, v19, v16
	vxor.vv	v0, v19, v11
	vand.vv	v11, v16, v11
	vle8.v	v21, (a3)
	addi	a3, s1, -336
	vxor.vv	v16, v11, v2
	vxor.vv	v7, v11, v7
	vle8.v	v19, (a3)
	addi	a3, s1, -320
	vand.vv	v11, v16, v1
	vxor.vv	v16, v11, v4
	vle8.v	v11, (a3)
	addi	a3, s1, -304
	vand.vv	v17, v0, v17
	vand.vv	v13, v0, v13
	vand.vv	v6, v7, v6
	vand.vv	v31, v7, v31
	vxor.vv	v7, v7, v0
	vxor.vv	v4, v1, v0
	vand.vv	v28, v1, v28
	vand.vv	v3, v1, v3
	vand.vv	v5, v7, v5
	vand.vv	v30, v7, v30
	vxor.vv	v7, v16, v7
	vxor.vv	v2, v16, v1
	vand.vv	v1, v16, v18
	vand.vv	v16, v16, v27
	vle8.v	v18, (a3)
	addi	a3, s1, -288
	vxor.vv	v27, v6, v13
	vxor.vv	v6, v5, v6
	vle8.v	v13, (a3)
	addi	a3, s1, -272
	vand.vv	v29, v2, v29
	vand.vv	v5, v2, v12
	vle8.v	v12, (a3)
	addi	a3, s1, -256
	vand.vv	v25, v4, v25
	vand.vv	v2, v4, v15
	vand.vv	v26, v7, v26
	vxor.vv	v4, v7, v4
	vand.vv	v23, v7, v23
	vle8.v	v15, (a3)
	vxor.vv	v7, v27, v3
	vand.vv	v22, v4, v22
	vxor.vv	v3, v29, v1
	vand.vv	v24, v4, v24
	vxor.vv	v29, v7, v29
	vxor.vv	v26, v26, v27
	vxor.vv	v23, v23, v2
	vxor.vv	v22, v22, v2
	vxor.vv	v24, v3, v24
	vxor.vv	v16, v29, v16
	vxor.vv	v27, v6, v3
	vxor.vv	v26, v26, v5
	vxor.vv	v30, v22, v30
	vxor.vv	v16, v16, v22
	vxor.vv	v22, v26, v24
	vxor.vv	v24, v24, v25
	vxor.vv	v25, v30, v31
	vxor.vv	v26, v22, v28
	vxor.vv	v28, v16, v22
	vxor.vv	v16, v16, v5
	vxor.vv	v17, v30, v17
	vxor.vv	v23, v23, v24
	vxor.vv	v27, v27, v25
	vxor.vv	v17, v17, v26
	vxor.vv	v22, v25, v24
	vxor.vv	v26, v23, v26
	vrgather.vv	v25, v16, v10
	csrr	a3, vlenb
	slli	a5, a3, 1
	add	a3, a3, a5
	add	a3, a3, sp
	addi	a3, a3, 32
	vl1r.v	v9, (a3)                        # vscale x 8-byte Folded Reload
	vrgather.vv	v30, v16, v9
	vrgather.vv	v31, v28, v10
	vrgather.vv	v7, v28, v9
	vxor.vv	v23, v27, v24
	vxor.vv	v29, v27, v29
	vmv1r.v	v0, v8
	vsetivli	zero, 8, e16, m1, ta, ma
	vmerge.vvm	v30, v30, v25, v0
	vmerge.vvm	v31, v7, v31, v0
	vsetivli	zero, 16, e8, m1, ta, ma
	vrgather.vv	v24, v17, v10
	vrgather.vv	v25, v17, v9
	vrgather.vv	v7, v27, v10
	vrgather.vv	v6, v27, v9
	vrgather.vv	v5, v26, v10
	vrgather.vv	v4, v26, v9
	vsetivli	zero, 8, e16, m1, ta, ma
	vmerge.vvm	v3, v25, v24, v0
	vsetivli	zero, 16, e8, m1, ta, ma
	vrgather.vv	v24, v29, v10
	vrgather.vv	v25, v29, v9
	vsetivli	zero, 8, e16, m1, ta, ma
	vmerge.vvm	v2, v25, v24, v0
	vsetivli	zero, 16, e8, m1, ta, ma
	vrgather.vv	v1, v22, v10
	vsetivli	zero, 8, e16, m1, ta, ma
	vmerge.vvm	v7, v6, v7, v0
	vsetivli	zero, 16, e8, m1, ta, ma
	vrgather.vv	v6, v22, v9
	vsetivli	zero, 8, e16, m1, ta, ma
	vmerge.vvm	v24, v4, v5, v0
	vsetivli	zero, 16, e8, m1, ta, ma
	vrgather.vv	v5, v23, v10
	vxor.vv	v25, v16, v30
	vxor.vv	v16, v28, v31
	csrr	a3, vlenb
	slli	a3, a3, 3
	add	a3, a3, sp
	addi	a3, a3, 32
	vl1r.v	v4, (a3)                        # vscale x 8-byte Folded Reload
	vrgather.vv	v28, v25, v4
	vxor.vv	v20, v28, v20
	vrgather.vv	v28, v16, v4
	vxor.vv	v21, v28, v21
	vrgather.vv	v28, v23, v9
	vmv1r.v	v9, v14
	vxor.vv	v17, v17, v3
	vxor.vv	v29, v29, v2
	vxor.vv	v20, v20, v30
	vrgather.vv	v30, v17, v4
	vxor.vv	v27, v27, v7
	vxor.vv	v21, v21, v31
	vrgather.vv	v31, v29, v4
	vxor.vv	v19, v30, v19
	vsetivli	zero, 8, e16, m1, ta, ma
	vmerge.vvm	v28, v28, v5, v0
	vsetivli	zero, 16, e8, m1, ta, ma
	vxor.vv	v26, v26, v24
	vrgather.vv	v30, v27, v4
	vxor.vv	v19, v19, v3
	vxor.vv	v11, v31, v11
	vsetivli	zero, 8, e16, m1, ta, ma
	vmerge.vvm	v31, v6, v1, v0
	vsetivli	zero, 16, e8, m1, ta, ma
	vxor.vv	v23, v23, v28
	vrgather.vv	v6, v26, v4
	vxor.vv	v16, v19, v16
	vxor.vv	v18, v30, v18
	vxor.vv	v11, v11, v2
	vxor.vv	v19, v22, v31
	vrgather.vv	v22, v23, v4
	vxor.vv	v18, v18, v7
	vxor.vv	v13, v6, v13
	vrgather.vv	v30, v19, v4
	vxor.vv	v20, v20, v19
	vxor.vv	v21, v21, v19
	vxor.vv	v18, v18, v19
	vxor.vv	v12, v22, v12
	vxor.vv	v13, v13, v24
	vxor.vv	v11, v11, v19
	vxor.vv	v24, v21, v25
	vxor.vv	v25, v18, v29
	vxor.vv	v12, v12, v28
	vxor.vv	v15, v30, v15
	vxor.vv	v13, v13, v27
	vxor.vv	v11, v11, v17
	vxor.vv	v12, v12, v26
	vxor.vv	v15, v15, v31
	vxor.vv	v18, v25, v16
	vxor.vv	v15, v15, v23
	vxor.vv	v17, v13, v12
	vxor.vv	v23, v15, v25
	vxor.vv	v22, v17, v20
	vxor.vv	v19, v15, v24
	vxor.vv	v21, v15, v16
	vxor.vv	v28, v22, v25
	vxor.vv	v27, v19, v18
	vxor.vv	v25, v22, v15
	vxor.vv	v24, v22, v24
	vand.vv	v29, v28, v20
	vxor.vv	v11, v11, v27
	vxor.vv	v26, v24, v21
	vand.vv	v6, v24, v22
	vxor.vv	v13, v11, v16
	vxor.vv	v16, v11, v12
	vxor.vv	v5, v29, v21
	vxor.vv	v31, v16, v23
	vxor.vv	v30, v13, v20
	vand.vv	v4, v13, v27
	vxor.vv	v11, v13, v17
	vand.vv	v3, v31, v23
	vxor.vv	v12, v31, v17
	vxor.vv	v29, v31, v11
	vxor.vv	v7, v31, v20
	vand.vv	v17, v11, v21
	vand.vv	v2, v30, v26
	vxor.vv	v5, v5, v11
	vxor.vv	v16, v16, v2
	vand.vv	v2, v29, v18
	vxor.vv	v17, v17, v3
	vxor.vv	v3, v2, v3
	vand.vv	v2, v7, v25
	vxor.vv	v5, v5, v4
	vxor.vv	v16, v16, v4
	vand.vv	v4, v12, v19
	vxor.vv	v6, v12, v6
	vxor.vv	v0, v5, v17
	vxor.vv	v6, v6, v4
	vxor.vv	v5, v12, v2
	vxor.vv	v16, v16, v3
	vxor.vv	v6, v6, v19
	vxor.vv	v4, v5, v4
	vxor.vv	v5, v6, v3
	vxor.vv	v6, v4, v15
	vxor.vv	v15, v16, v0
	vxor.vv	v3, v6, v17
	vand.vv	v2, v5, v16
	vxor.vv	v16, v2, v0
	vxor.vv	v4, v2, v3
	vxor.vv	v17, v3, v5
	vand.vv	v1, v16, v17
	vand.vv	v16, v4, v15
	vxor.vv	v6, v16, v0
	addi	a3, s1, -240
	vxor.vv	v16, v1, v2
	vxor.vv	v17, v1, v3
	vand.vv	v16, v16, v3
	vle8.v	v3, (a3)
	lui	a3, 1
	addi	a3, a3, 273
	vxor.vv	v4, v16, v4
	vxor.vv	v16, v16, v5
	vsetvli	zero, zero, e16, m2, ta, ma
	vmv.s.x	v0, a3
	addi	a5, s1, -224
	vsetvli	zero, zero, e8, m1, ta, mu
	vand.vv	v28, v17, v28
	vand.vv	v20, v17, v20
	vand.vv	v13, v16, v13
	vand.vv	v27, v16, v27
	vxor.vv	v16, v16, v17
	vxor.vv	v17, v6, v17
	vand.vv	v25, v6, v25
	vand.vv	v7, v6, v7
	vand.vv	v31, v17, v31
	vand.vv	v23, v17, v23
	vand.vv	v5, v4, v6
	vxor.vv	v15, v5, v15
	vand.vv	v30, v16, v30
	vand.vv	v26, v16, v26
	vxor.vv	v20, v13, v20
	vxor.vv	v16, v15, v16
	vxor.vv	v6, v15, v6
	vand.vv	v22, v15, v22
	vand.vv	v15, v15, v24
	vxor.vv	v13, v30, v13
	vxor.vv	v24, v20, v7
	vand.vv	v12, v6, v12
	vand.vv	v11, v16, v11
	vxor.vv	v17, v16, v17
	vand.vv	v19, v6, v19
	vand.vv	v16, v16, v21
	vand.vv	v18, v17, v18
	vxor.vv	v21, v12, v22
	vand.vv	v17, v17, v29
	vxor.vv	v12, v24, v12
	vxor.vv	v11, v11, v20
	vxor.vv	v16, v16, v23
	vxor.vv	v18, v18, v23
	vxor.vv	v17, v21, v17
	vxor.vv	v15, v12, v15
	vxor.vv	v13, v13, v21
	vxor.vv	v11, v11, v19
	vxor.vv	v20, v18, v26
	vxor.vv	v15, v15, v18
	vxor.vv	v11, v11, v17
	vxor.vv	v17, v17, v31
	vxor.vv	v18, v20, v27
	vxor.vv	v21, v11, v25
	vxor.vv	v22, v15, v11
	vxor.vv	v23, v15, v19
	vxor.vv	v11, v20, v28
	vxor.vv	v15, v16, v17
	vxor.vv	v16, v13, v18
	vxor.vv	v20, v11, v21
	vxor.vv	v25, v18, v17
	vxor.vv	v24, v15, v21
	csrr	a3, vlenb
	add	a3, a3, sp
	addi	a3, a3, 32
	vl1r.v	v18, (a3)                       # vscale x 8-byte Folded Reload
	vrgather.vv	v29, v23, v18
	vrgather.vv	v28, v22, v18
	vxor.vv	v26, v16, v17
	vxor.vv	v17, v16, v12
	csrr	a3, vlenb
	slli	a3, a3, 1
	add	a3, a3, sp
	addi	a3, a3, 32
	vl1r.v	v14, (a3)                       # vscale x 8-byte Folded Reload
	vrgather.vv	v29, v23, v14, v0.t
	vrgather.vv	v28, v22, v14, v0.t
	vrgather.vv	v27, v20, v18
	vrgather.vv	v15, v16, v18
	vrgather.vv	v12, v24, v18
	vrgather.vv	v11, v25, v18
	vrgather.vv	v27, v20, v14, v0.t
	vrgather.vv	v19, v17, v18
	vrgather.vv	v13, v26, v18
	vxor.vv	v23, v23, v29
	vxor.vv	v22, v22, v28
	vrgather.vv	v19, v17, v14, v0.t
	vxor.vv	v18, v20, v27
	vrgather.vv	v30, v23, v9
	vrgather.vv	v31, v23, v10
	vrgather.vv	v7, v22, v9
	vrgather.vv	v6, v22, v10
	vrgather.vv	v15, v16, v14, v0.t
	vxor.vv	v20, v17, v19
	vrgather.vv	v17, v18, v9
	vrgather.vv	v5, v18, v10
	vrgather.vv	v12, v24, v14, v0.t
	vxor.vv	v21, v16, v15
	vrgather.vv	v13, v26, v14, v0.t
	vrgather.vv	v16, v20, v9
	vrgather.vv	v11, v25, v14, v0.t
	vmv1r.v	v0, v8
	vsetivli	zero, 8, e16, m1, ta, ma
	vmerge.vvm	v4, v31, v30, v0
	vsetivli	zero, 16, e8, m1, ta, ma
	vrgather.vv	v30, v20, v10
	vxor.vv	v24, v24, v12
	vsetivli	zero, 8, e16, m1, ta, ma
	vmerge.vvm	v6, v6, v7, v0
	vsetivli	zero, 16, e8, m1, ta, ma
	vrgather.vv	v31, v21, v9
	vsetivli	zero, 8, e16, m1, ta, ma
	vmerge.vvm	v17, v5, v17, v0
	vsetivli	zero, 16, e8, m1, ta, ma
	vrgather.vv	v5, v21, v10
	vsetivli	zero, 8, e16, m1, ta, ma
	vmerge.vvm	v7, v30, v16, v0
	vsetivli	zero, 16, e8, m1, ta, ma
	vrgather.vv	v16, v24, v9
	vsetivli	zero, 8, e16, m1, ta, ma
	vmerge.vvm	v31, v5, v31, v0
	vsetivli	zero, 16, e8, m1, ta, ma
	vrgather.vv	v30, v24, v10
	vsetivli	zero, 8, e16, m1, ta, ma
	vmerge.vvm	v30, v30, v16, v0
	vsetivli	zero, 16, e8, m1, ta, ma
	vle8.v	v16, (a5)
	addi	a3, s1, -208
	vle8.v	v5, (a3)
	addi	a3, s1, -192
	vxor.vv	v4, v4, v3
	vle8.v	v3, (a3)
	addi	a3, s1, -176
	vxor.vv	v29, v4, v29
	vle8.v	v4, (a3)
	addi	a3, s1, -160
	vxor.vv	v16, v6, v16
	vle8.v	v6, (a3)
	addi	a3, s1, -144
	vxor.vv	v16, v16, v28
	vle8.v	v28, (a3)
	addi	a3, s1, -128
	vxor.vv	v17, v17, v5
	vle8.v	v5, (a3)
	vxor.vv	v26, v26, v13
	vxor.vv	v25, v25, v11
	vxor.vv	v17, v17, v27
	vrgather.vv	v27, v26, v9
	vxor.vv	v7, v7, v3
	vrgather.vv	v3, v26, v10
	vxor.vv	v16, v16, v25
	vxor.vv	v16, v16, v23
	vrgather.vv	v2, v25, v9
	vxor.vv	v17, v17, v22
	vrgather.vv	v22, v25, v10
	vxor.vv	v23, v29, v25
	vxor.vv	v29, v31, v4
	vxor.vv	v19, v7, v19
	vsetivli	zero, 8, e16, m1, ta, ma
	vmerge.vvm	v27, v3, v27, v0
	vsetivli	zero, 16, e8, m1, ta, ma
	vxor.vv	v15, v29, v15
	vxor.vv	v29, v30, v6
	vxor.vv	v19, v19, v25
	vsetivli	zero, 8, e16, m1, ta, ma
	vmerge.vvm	v8, v22, v2, v0
	vsetivli	zero, 16, e8, m1, ta, ma
	vxor.vv	v15, v15, v25
	vxor.vv	v22, v27, v28
	vxor.vv	v12, v29, v12
	vxor.vv	v18, v19, v18
	vxor.vv	v15, v15, v20
	vxor.vv	v13, v22, v13
	vxor.vv	v8, v8, v5
	vxor.vv	v12, v12, v21
	vxor.vv	v19, v13, v24
	vxor.vv	v11, v8, v11
	vxor.vv	v8, v15, v17
	vxor.vv	v31, v11, v26
	vxor.vv	v20, v12, v19
	vxor.vv	v11, v31, v15
	vxor.vv	v22, v20, v23
	vxor.vv	v13, v31, v16
	vxor.vv	v12, v31, v17
	vxor.vv	v21, v22, v15
	vxor.vv	v26, v13, v8
	vxor.vv	v25, v22, v31
	vxor.vv	v24, v22, v16
	vand.vv	v15, v21, v23
	vxor.vv	v16, v18, v26
	vxor.vv	v27, v24, v12
	vand.vv	v7, v24, v22
	vxor.vv	v29, v16, v17
	vxor.vv	v16, v16, v19
	vxor.vv	v17, v15, v12
	vxor.vv	v18, v16, v11
	vxor.vv	v28, v29, v23
	vand.vv	v6, v29, v26
	vxor.vv	v19, v29, v20
	vand.vv	v5, v18, v11
	vxor.vv	v20, v18, v20
	vxor.vv	v15, v18, v19
	vxor.vv	v30, v18, v23
	vand.vv	v4, v19, v12
	vand.vv	v3, v28, v27
	vxor.vv	v17, v17, v19
	vxor.vv	v16, v16, v3
	vand.vv	v3, v15, v8
	vxor.vv	v4, v4, v5
	vxor.vv	v5, v3, v5
	vand.vv	v3, v30, v25
	vxor.vv	v17, v17, v6
	vxor.vv	v16, v16, v6
	vand.vv	v6, v20, v13
	vxor.vv	v7, v20, v7
	vxor.vv	v17, v17, v4
	vxor.vv	v7, v7, v6
	vxor.vv	v3, v20, v3
	vxor.vv	v16, v16, v5
	vxor.vv	v7, v7, v13
	vxor.vv	v6, v3, v6
	vxor.vv	v7, v7, v5
	vxor.vv	v31, v6, v31
	vxor.vv	v6, v16, v17
	vxor.vv	v31, v31, v4
	vand.vv	v16, v7, v16
	vxor.vv	v5, v16, v17
	vxor.vv	v4, v16, v31
	vxor.vv	v3, v31, v7
	vand.vv	v5, v5, v3
	vand.vv	v3, v4, v6
	vxor.vv	v17, v3, v17
	vxor.vv	v16, v5, v16
	vxor.vv	v5, v5, v31
	vand.vv	v16, v16, v31
	vxor.vv	v31, v16, v4
	vxor.vv	v16, v16, v7
	vand.vv	v31, v31, v17
	vxor.vv	v7, v31, v6
	vand.vv	v21, v5, v21
	vand.vv	v6, v5, v23
	vand.vv	v4, v16, v29
	vand.vv	v23, v16, v26
	vxor.vv	v16, v16, v5
	vxor.vv	v31, v17, v5
	vand.vv	v25, v17, v25
	vand.vv	v29, v17, v30
	vand.vv	v30, v16, v28
	vand.vv	v26, v16, v27
	vxor.vv	v16, v7, v16
	vxor.vv	v17, v7, v17
	vand.vv	v28, v7, v22
	vand.vv	v22, v7, v24
	vxor.vv	v27, v4, v6
	vxor.vv	v24, v30, v4
	addi	a3, s1, -112
	vand.vv	v20, v17, v20
	vand.vv	v13, v17, v13
	vle8.v	v17, (a3)
	addi	a3, s1, -96
	vand.vv	v18, v31, v18
	vand.vv	v11, v31, v11
	vand.vv	v19, v16, v19
	vxor.vv	v30, v16, v31
	vand.vv	v12, v16, v12
	vle8.v	v16, (a3)
	addi	a3, s1, -80
	vand.vv	v31, v30, v8
	vand.vv	v15, v30, v15
	vle8.v	v30, (a3)
	addi	a3, s1, -64
	vxor.vv	v8, v27, v29
	vxor.vv	v28, v20, v28
	vxor.vv	v20, v8, v20
	vle8.v	v8, (a3)
	addi	a3, s1, -48
	vxor.vv	v19, v19, v27
	vle8.v	v27, (a3)
	addi	a3, s1, -32
	vxor.vv	v12, v12, v11
	vxor.vv	v11, v31, v11
	vle8.v	v29, (a3)
	addi	a5, s1, -16
	vxor.vv	v15, v28, v15
	vxor.vv	v24, v24, v28
	vle8.v	v28, (s1)
	vxor.vv	v22, v20, v22
	vxor.vv	v19, v19, v13
	vxor.vv	v26, v11, v26
	vxor.vv	v11, v22, v11
	vxor.vv	v19, v19, v15
	vxor.vv	v15, v15, v18
	vxor.vv	v18, v26, v23
	vxor.vv	v22, v19, v25
	vxor.vv	v19, v11, v19
	vxor.vv	v11, v11, v13
	vxor.vv	v13, v26, v21
	vxor.vv	v12, v12, v15
	vxor.vv	v21, v24, v18
	vxor.vv	v13, v13, v22
	vxor.vv	v18, v18, v15
	vxor.vv	v12, v12, v22
	addi	a3, sp, 32
	vl1r.v	v14, (a3)                       # vscale x 8-byte Folded Reload
	vrgather.vv	v22, v11, v14
	vrgather.vv	v23, v19, v14
	vxor.vv	v15, v21, v15
	vxor.vv	v20, v21, v20
	vrgather.vv	v24, v13, v14
	vrgather.vv	v25, v21, v14
	vxor.vv	v11, v11, v22
	vxor.vv	v19, v19, v23
	csrr	a3, vlenb
	slli	a3, a3, 3
	add	a3, a3, sp
	addi	a3, a3, 32
	vl1r.v	v9, (a3)                        # vscale x 8-byte Folded Reload
	vrgather.vv	v26, v11, v9
	vxor.vv	v17, v26, v17
	vrgather.vv	v26, v19, v9
	vxor.vv	v16, v26, v16
	vrgather.vv	v26, v12, v14
	vxor.vv	v17, v17, v22
	vrgather.vv	v22, v18, v14
	vxor.vv	v13, v13, v24
	vxor.vv	v31, v21, v25
	vxor.vv	v12, v12, v26
	vxor.vv	v7, v18, v22
	vxor.vv	v16, v16, v23
	vrgather.vv	v18, v13, v9
	vxor.vv	v18, v18, v30
	vrgather.vv	v21, v31, v9
	vxor.vv	v21, v21, v27
	vrgather.vv	v23, v12, v9
	vxor.vv	v23, v23, v29
	vrgather.vv	v27, v7, v9
	vxor.vv	v27, v27, v28
	vrgather.vv	v28, v20, v14
	vxor.vv	v29, v20, v28
	vxor.vv	v18, v18, v24
	vrgather.vv	v20, v29, v9
	vxor.vv	v8, v20, v8
	vle8.v	v20, (a5)
	vxor.vv	v24, v21, v25
	vrgather.vv	v25, v15, v14
	vxor.vv	v15, v15, v25
	vxor.vv	v23, v23, v26
	vrgather.vv	v21, v15, v9
	vxor.vv	v26, v21, v20
	vxor.vv	v22, v27, v22
	vxor.vv	v16, v16, v7
	vxor.vv	v21, v16, v11
	vxor.vv	v20, v18, v19
	vxor.vv	v11, v8, v28
	vxor.vv	v8, v23, v31
	vxor.vv	v16, v26, v25
	vxor.vv	v19, v22, v15
	vxor.vv	v18, v17, v7
	vxor.vv	v15, v24, v7
	vxor.vv	v11, v11, v7
	vxor.vv	v24, v15, v29
	vxor.vv	v22, v16, v12
	vxor.vv	v23, v11, v13
	addi	s0, s0, -1
	addi	s1, s1, 512
	bnez	s0, .Laes_BB6_4
.Laes_BB6_5:                                # %after.3
	andi	s0, t4, -4
	vxor.vv	v8, v8, v22
	vxor.vv	v16, v24, v19
	vxor.vv	v14, v21, v19
	vxor.vv	v13, v20, v24
	vxor.vv	v15, v20, v19
	lui	a3, 7
	li	s1, 85
	vxor.vv	v12, v18, v8
	vxor.vv	v25, v14, v13
	addi	a5, a3, 1911
	vxor.vv	v27, v12, v24
	vxor.vv	v11, v25, v23
	vxor.vv	v24, v12, v19
	vxor.vv	v17, v12, v21
	vand.vv	v23, v27, v18
	vxor.vv	v29, v11, v20
	vxor.vv	v11, v11, v22
	vxor.vv	v22, v17, v15
	vand.vv	v31, v17, v12
	vxor.vv	v28, v11, v16
	vxor.vv	v26, v29, v18
	vand.vv	v7, v29, v25
	vxor.vv	v21, v29, v8
	vxor.vv	v6, v23, v15
	vand.vv	v5, v28, v16
	vxor.vv	v23, v28, v8
	vxor.vv	v20, v28, v21
	vxor.vv	v30, v28, v18
	vand.vv	v8, v21, v15
	vand.vv	v4, v26, v22
	vxor.vv	v6, v6, v21
	vxor.vv	v11, v11, v4
	vand.vv	v4, v20, v13
	vxor.vv	v8, v8, v5
	vxor.vv	v5, v4, v5
	vand.vv	v4, v30, v24
	vxor.vv	v6, v6, v7
	vxor.vv	v11, v11, v7
	vand.vv	v7, v23, v14
	vxor.vv	v31, v23, v31
	vxor.vv	v6, v6, v8
	vxor.vv	v31, v31, v7
	vxor.vv	v4, v23, v4
	vxor.vv	v3, v11, v5
	vxor.vv	v11, v31, v14
	vxor.vv	v31, v4, v7
	vxor.vv	v11, v11, v5
	vxor.vv	v31, v31, v19
	vxor.vv	v19, v3, v6
	vxor.vv	v5, v31, v8
	vand.vv	v4, v11, v3
	vxor.vv	v8, v4, v6
	vxor.vv	v7, v4, v5
	vxor.vv	v31, v5, v11
	vand.vv	v3, v8, v31
	vand.vv	v8, v7, v19
	vxor.vv	v31, v8, v6
	vmv.s.x	v8, s1
	slli	s1, s0, 7
	vxor.vv	v6, v3, v4
	vxor.vv	v4, v3, v5
	vand.vv	v6, v6, v5
	vsetvli	zero, zero, e16, m2, ta, ma
	vmv.s.x	v0, a5
	add	s1, s1, a0
	addi	a3, s1, 128
	vsetvli	zero, zero, e8, m1, ta, mu
	vxor.vv	v7, v6, v7
	vxor.vv	v6, v6, v11
	vle8.v	v11, (a3)
	vand.vv	v27, v4, v27
	vand.vv	v18, v4, v18
	vand.vv	v29, v6, v29
	vand.vv	v25, v6, v25
	vxor.vv	v6, v6, v4
	vxor.vv	v5, v31, v4
	vand.vv	v24, v31, v24
	vand.vv	v30, v31, v30
	vand.vv	v28, v5, v28
	vand.vv	v16, v5, v16
	vand.vv	v7, v7, v31
	vxor.vv	v19, v7, v19
	vand.vv	v26, v6, v26
	vand.vv	v22, v6, v22
	vxor.vv	v18, v29, v18
	vxor.vv	v7, v19, v6
	vxor.vv	v31, v19, v31
	vand.vv	v12, v19, v12
	vand.vv	v17, v19, v17
	vxor.vv	v19, v26, v29
	vxor.vv	v26, v18, v30
	vand.vv	v23, v31, v23
	vand.vv	v21, v7, v21
	vxor.vv	v29, v7, v5
	vand.vv	v14, v31, v14
	vand.vv	v15, v7, v15
	vand.vv	v13, v29, v13
	vxor.vv	v12, v23, v12
	vand.vv	v20, v29, v20
	vxor.vv	v23, v26, v23
	vxor.vv	v18, v21, v18
	vxor.vv	v15, v15, v16
	vxor.vv	v13, v13, v16
	vxor.vv	v16, v12, v20
	vxor.vv	v17, v23, v17
	vxor.vv	v12, v19, v12
	vxor.vv	v18, v18, v14
	vxor.vv	v19, v13, v22
	vxor.vv	v13, v17, v13
	vxor.vv	v17, v18, v16
	vxor.vv	v18, v16, v28
	vxor.vv	v16, v19, v25
	vxor.vv	v20, v17, v24
	vxor.vv	v21, v13, v17
	vxor.vv	v22, v13, v14
	vxor.vv	v13, v19, v27
	vxor.vv	v14, v15, v18
	vxor.vv	v27, v12, v16
	vxor.vv	v24, v13, v20
	vxor.vv	v28, v16, v18
	vxor.vv	v29, v14, v20
	csrr	a3, vlenb
	slli	a3, a3, 2
	add	a3, a3, sp
	addi	a3, a3, 32
	vl1r.v	v25, (a3)                       # vscale x 8-byte Folded Reload
	vrgather.vv	v19, v22, v25
	vrgather.vv	v16, v21, v25
	vxor.vv	v30, v27, v18
	vxor.vv	v20, v27, v23
	csrr	a3, vlenb
	slli	a5, a3, 2
	add	a3, a3, a5
	add	a3, a3, sp
	addi	a3, a3, 32
	vl1r.v	v1, (a3)                        # vscale x 8-byte Folded Reload
	vrgather.vv	v19, v22, v1, v0.t
	vrgather.vv	v16, v21, v1, v0.t
	vrgather.vv	v18, v24, v25
	vrgather.vv	v15, v27, v25
	vrgather.vv	v12, v29, v25
	vrgather.vv	v13, v28, v25
	vrgather.vv	v18, v24, v1, v0.t
	vrgather.vv	v17, v20, v25
	vrgather.vv	v14, v30, v25
	vxor.vv	v26, v19, v22
	vxor.vv	v25, v16, v21
	vrgather.vv	v17, v20, v1, v0.t
	vxor.vv	v23, v18, v24
	csrr	a3, vlenb
	slli	a5, a3, 3
	sub	a3, a5, a3
	add	a3, a3, sp
	addi	a3, a3, 32
	vl1r.v	v10, (a3)                       # vscale x 8-byte Folded Reload
	vrgather.vv	v22, v26, v10
	csrr	a3, vlenb
	li	a5, 6
	mul	a3, a3, a5
	add	a3, a3, sp
	addi	a3, a3, 32
	vl1r.v	v9, (a3)                        # vscale x 8-byte Folded Reload
	vrgather.vv	v31, v26, v9
	vrgather.vv	v7, v25, v10
	vrgather.vv	v6, v25, v9
	vrgather.vv	v15, v27, v1, v0.t
	vxor.vv	v24, v17, v20
	vrgather.vv	v5, v23, v10
	vrgather.vv	v4, v23, v9
	vrgather.vv	v12, v29, v1, v0.t
	vxor.vv	v20, v15, v27
	vrgather.vv	v3, v24, v10
	vrgather.vv	v14, v30, v1, v0.t
	vrgather.vv	v2, v24, v9
	vxor.vv	v21, v12, v29
	vrgather.vv	v13, v28, v1, v0.t
	vrgather.vv	v29, v20, v10
	vmv1r.v	v0, v8
	vsetivli	zero, 8, e16, m1, ta, ma
	vmerge.vvm	v31, v31, v22, v0
	vsetivli	zero, 16, e8, m1, ta, ma
	vrgather.vv	v1, v20, v9
	vxor.vv	v22, v14, v30
	vsetivli	zero, 8, e16, m1, ta, ma
	vmerge.vvm	v30, v6, v7, v0
	vsetivli	zero, 16, e8, m1, ta, ma
	vrgather.vv	v7, v21, v10
	vsetivli	zero, 8, e16, m1, ta, ma
	vmerge.vvm	v6, v4, v5, v0
	vsetivli	zero, 16, e8, m1, ta, ma
	vrgather.vv	v5, v21, v9
	vxor.vv	v27, v13, v28
	vsetivli	zero, 8, e16, m1, ta, ma
	vmerge.vvm	v28, v2, v3, v0
	vsetivli	zero, 16, e8, m1, ta, ma
	vrgather.vv	v4, v22, v10
	vsetivli	zero, 8, e16, m1, ta, ma
	vmerge.vvm	v29, v1, v29, v0
	vsetivli	zero, 16, e8, m1, ta, ma
	vrgather.vv	v3, v22, v9
	vsetivli	zero, 8, e16, m1, ta, ma
	vmerge.vvm	v7, v5, v7, v0
	vsetivli	zero, 16, e8, m1, ta, ma
	vrgather.vv	v5, v27, v10
	vsetivli	zero, 8, e16, m1, ta, ma
	vmerge.vvm	v4, v3, v4, v0
	vsetivli	zero, 16, e8, m1, ta, ma
	vrgather.vv	v3, v27, v9
	vsetivli	zero, 8, e16, m1, ta, ma
	vmerge.vvm	v5, v3, v5, v0
	addi	a3, s1, 144
	vsetivli	zero, 16, e8, m1, ta, ma
	vxor.vv	v11, v31, v11
	vle8.v	v31, (a3)
	addi	a3, s1, 160
	vxor.vv	v11, v11, v19
	vle8.v	v19, (a3)
	vxor.vv	v30, v30, v31
	vxor.vv	v26, v30, v26
	addi	a3, s1, 176
	vxor.vv	v19, v6, v19
	vle8.v	v30, (a3)
	vxor.vv	v16, v26, v16
	vxor.vv	v19, v19, v25
	addi	a3, s1, 192
	vxor.vv	v25, v28, v30
	vle8.v	v26, (a3)
	vxor.vv	v18, v19, v18
	vxor.vv	v19, v25, v23
	addi	a3, s1, 208
	vxor.vv	v23, v29, v26
	vle8.v	v25, (a3)
	vxor.vv	v19, v19, v17
	vxor.vv	v17, v23, v24
	addi	a3, s1, 224
	vxor.vv	v23, v7, v25
	vle8.v	v24, (a3)
	vxor.vv	v15, v17, v15
	vxor.vv	v23, v23, v20
	addi	a3, s1, 240
	vxor.vv	v24, v4, v24
	vle8.v	v25, (a3)
	vxor.vv	v11, v11, v27
	vxor.vv	v17, v16, v27
	vxor.vv	v19, v19, v27
	vxor.vv	v20, v15, v27
	vxor.vv	v12, v23, v12
	vxor.vv	v15, v24, v21
	vxor.vv	v16, v5, v25
	vxor.vv	v24, v15, v14
	vxor.vv	v14, v16, v22
	addi	s0, s0, 2
	vxor.vv	v27, v14, v13
	bgeu	s0, a1, .Laes_BB6_7
# %bb.6:                                # %then.11
	vmv1r.v	v0, v8
	vxor.vv	v26, v24, v12
	vxor.vv	v13, v27, v20
	vxor.vv	v14, v27, v17
	vxor.vv	v12, v20, v18
	vxor.vv	v15, v27, v18
	vxor.vv	v16, v26, v11
	vxor.vv	v21, v14, v12
	vxor.vv	v23, v16, v20
	vxor.vv	v19, v21, v19
	vxor.vv	v22, v16, v27
	vxor.vv	v17, v16, v17
	vand.vv	v20, v23, v11
	vxor.vv	v25, v19, v18
	vxor.vv	v30, v19, v24
	vxor.vv	v24, v17, v15
	vand.vv	v31, v17, v16
	vxor.vv	v18, v30, v13
	vxor.vv	v28, v25, v11
	vand.vv	v7, v25, v21
	vxor.vv	v19, v25, v26
	vxor.vv	v6, v20, v15
	vand.vv	v5, v18, v13
	vxor.vv	v26, v18, v26
	vxor.vv	v20, v18, v19
	vxor.vv	v29, v18, v11
	vand.vv	v4, v19, v15
	vand.vv	v3, v28, v24
	vxor.vv	v6, v6, v19
	vxor.vv	v30, v30, v3
	vand.vv	v3, v20, v12
	vxor.vv	v4, v4, v5
	vxor.vv	v5, v3, v5
	vand.vv	v3, v29, v22
	vxor.vv	v6, v6, v7
	vxor.vv	v30, v30, v7
	vand.vv	v7, v26, v14
	vxor.vv	v31, v26, v31
	vxor.vv	v6, v6, v4
	vxor.vv	v31, v31, v7
	vxor.vv	v3, v26, v3
	vxor.vv	v2, v30, v5
	vxor.vv	v30, v31, v14
	vxor.vv	v31, v3, v7
	vxor.vv	v30, v30, v5
	vxor.vv	v27, v31, v27
	vxor.vv	v7, v2, v6
	vxor.vv	v27, v27, v4
	vand.vv	v4, v30, v2
	vxor.vv	v31, v4, v6
	vxor.vv	v5, v4, v27
	vxor.vv	v3, v27, v30
	vand.vv	v3, v31, v3
	vand.vv	v31, v5, v7
	vxor.vv	v31, v31, v6
	vxor.vv	v4, v3, v4
	vxor.vv	v6, v3, v27
	vand.vv	v3, v4, v27
	vle8.v	v27, (s4)
	vxor.vv	v4, v3, v5
	vxor.vv	v5, v3, v30
	vle8.v	v30, (a4)
	slli	t4, t4, 7
	add	t4, t4, a0
	vand.vv	v4, v4, v31
	vxor.vv	v4, v4, v7
	vle8.v	v7, (t4)
	addi	a3, t4, 16
	addi	a4, t4, 32
	vand.vv	v23, v6, v23
	vand.vv	v11, v6, v11
	vand.vv	v25, v5, v25
	vand.vv	v21, v5, v21
	vxor.vv	v5, v5, v6
	vxor.vv	v6, v31, v6
	vand.vv	v22, v31, v22
	vand.vv	v29, v31, v29
	vand.vv	v28, v5, v28
	vand.vv	v24, v5, v24
	vxor.vv	v5, v4, v5
	vxor.vv	v31, v4, v31
	vand.vv	v3, v4, v16
	vand.vv	v4, v4, v17
	vle8.v	v17, (a3)
	addi	a3, t4, 48
	vxor.vv	v2, v25, v11
	vxor.vv	v25, v28, v25
	vle8.v	v16, (a4)
	addi	a4, t4, 64
	vand.vv	v26, v31, v26
	vand.vv	v14, v31, v14
	vle8.v	v11, (a3)
	addi	a5, t4, 80
	vand.vv	v18, v6, v18
	vand.vv	v28, v6, v13
	vand.vv	v19, v5, v19
	vxor.vv	v31, v5, v6
	vand.vv	v15, v5, v15
	vle8.v	v13, (a4)
	addi	a3, t4, 96
	addi	a4, t4, 112
	vand.vv	v6, v31, v12
	vand.vv	v20, v31, v20
	vle8.v	v12, (a5)
	vxor.vv	v29, v2, v29
	vxor.vv	v31, v26, v3
	vxor.vv	v26, v29, v26
	vxor.vv	v19, v19, v2
	vxor.vv	v15, v15, v28
	vxor.vv	v28, v6, v28
	vxor.vv	v20, v31, v20
	vxor.vv	v29, v26, v4
	vxor.vv	v25, v25, v31
	vxor.vv	v19, v19, v14
	vxor.vv	v24, v28, v24
	vxor.vv	v28, v29, v28
	vxor.vv	v19, v19, v20
	vxor.vv	v29, v20, v18
	vxor.vv	v31, v24, v21
	vxor.vv	v18, v19, v22
	vxor.vv	v6, v28, v19
	vxor.vv	v28, v28, v14
	vxor.vv	v14, v24, v23
	vxor.vv	v15, v15, v29
	vxor.vv	v24, v25, v31
	vxor.vv	v25, v14, v18
	vxor.vv	v5, v15, v18
	csrr	a5, vlenb
	li	t4, 6
	mul	a5, a5, t4
	add	a5, a5, sp
	addi	a5, a5, 32
	vl1r.v	v10, (a5)                       # vscale x 8-byte Folded Reload
	vrgather.vv	v15, v28, v10
	vrgather.vv	v18, v28, v27
	vrgather.vv	v19, v6, v10
	vrgather.vv	v20, v6, v27
	vxor.vv	v14, v24, v29
	vxor.vv	v26, v24, v26
	vsetivli	zero, 8, e16, m1, ta, ma
	vmerge.vvm	v4, v18, v15, v0
	vmerge.vvm	v3, v20, v19, v0
	vsetivli	zero, 16, e8, m1, ta, ma
	vrgather.vv	v15, v25, v10
	vrgather.vv	v18, v25, v27
	vrgather.vv	v19, v24, v10
	vrgather.vv	v21, v24, v27
	vrgather.vv	v23, v5, v10
	vsetivli	zero, 8, e16, m1, ta, ma
	vmerge.vvm	v22, v18, v15, v0
	vsetivli	zero, 16, e8, m1, ta, ma
	vrgather.vv	v15, v26, v10
	vrgather.vv	v18, v26, v27
	vsetivli	zero, 8, e16, m1, ta, ma
	vmerge.vvm	v20, v18, v15, v0
	vsetivli	zero, 16, e8, m1, ta, ma
	vrgather.vv	v15, v5, v27
	vsetivli	zero, 8, e16, m1, ta, ma
	vmerge.vvm	v19, v21, v19, v0
	vsetivli	zero, 16, e8, m1, ta, ma
	vrgather.vv	v18, v14, v10
	vsetivli	zero, 8, e16, m1, ta, ma
	vmerge.vvm	v15, v15, v23, v0
	vsetivli	zero, 16, e8, m1, ta, ma
	vrgather.vv	v21, v14, v27
	vsetivli	zero, 8, e16, m1, ta, ma
	vmerge.vvm	v18, v21, v18, v0
	vsetivli	zero, 16, e8, m1, ta, ma
	vle8.v	v23, (a3)
	vle8.v	v21, (a4)
	vxor.vv	v29, v31, v29
	vxor.vv	v28, v4, v28
	vxor.vv	v31, v3, v6
	vrgather.vv	v6, v28, v30
	vxor.vv	v7, v6, v7
	vrgather.vv	v6, v31, v30
	vxor.vv	v17, v6, v17
	vrgather.vv	v6, v29, v10
	vrgather.vv	v2, v29, v27
	vxor.vv	v25, v22, v25
	vxor.vv	v26, v20, v26
	vxor.vv	v27, v7, v4
	vrgather.vv	v7, v25, v30
	vxor.vv	v24, v19, v24
	vxor.vv	v17, v17, v28
	vrgather.vv	v28, v26, v30
	vxor.vv	v16, v7, v16
	vxor.vv	v7, v15, v5
	vrgather.vv	v5, v24, v30
	vxor.vv	v17, v17, v3
	vxor.vv	v16, v16, v31
	vxor.vv	v11, v28, v11
	vsetivli	zero, 8, e16, m1, ta, ma
	vmerge.vvm	v28, v2, v6, v0
	vsetivli	zero, 16, e8, m1, ta, ma
	vxor.vv	v14, v18, v14
	vrgather.vv	v31, v7, v30
	vxor.vv	v6, v16, v22
	vxor.vv	v13, v5, v13
	vxor.vv	v11, v11, v25
	vxor.vv	v16, v28, v29
	vrgather.vv	v22, v14, v30
	vxor.vv	v25, v13, v26
	vxor.vv	v12, v31, v12
	vxor.vv	v11, v11, v20
	vrgather.vv	v20, v16, v30
	vxor.vv	v13, v27, v16
	vxor.vv	v17, v17, v16
	vxor.vv	v19, v25, v19
	vxor.vv	v22, v22, v23
	vxor.vv	v12, v12, v24
	vxor.vv	v23, v11, v16
	vxor.vv	v19, v19, v16
	vxor.vv	v11, v22, v7
	vxor.vv	v16, v20, v21
	vxor.vv	v12, v12, v15
	vxor.vv	v24, v11, v18
	vxor.vv	v14, v16, v14
	vxor.vv	v11, v19, v6
	vxor.vv	v22, v14, v28
	vxor.vv	v25, v12, v24
	vxor.vv	v16, v22, v19
	vxor.vv	v15, v25, v13
	vxor.vv	v12, v22, v17
	vxor.vv	v14, v22, v6
	vxor.vv	v21, v15, v19
	vxor.vv	v19, v12, v11
	vxor.vv	v18, v15, v22
	vxor.vv	v17, v15, v17
	vand.vv	v27, v21, v13
	vxor.vv	v23, v23, v19
	vxor.vv	v20, v17, v14
	vand.vv	v30, v17, v15
	vxor.vv	v26, v23, v6
	vxor.vv	v31, v23, v24
	vxor.vv	v7, v27, v14
	vxor.vv	v28, v31, v16
	vxor.vv	v27, v26, v13
	vand.vv	v6, v26, v19
	vxor.vv	v24, v26, v25
	vand.vv	v5, v28, v16
	vxor.vv	v25, v28, v25
	vxor.vv	v23, v28, v24
	vxor.vv	v29, v28, v13
	vand.vv	v4, v24, v14
	vand.vv	v3, v27, v20
	vxor.vv	v7, v7, v24
	vxor.vv	v31, v31, v3
	vand.vv	v3, v23, v11
	vxor.vv	v4, v4, v5
	vxor.vv	v5, v3, v5
	vand.vv	v3, v29, v18
	vxor.vv	v7, v7, v6
	vxor.vv	v31, v31, v6
	vand.vv	v6, v25, v12
	vxor.vv	v30, v25, v30
	vxor.vv	v2, v7, v4
	vxor.vv	v30, v30, v6
	vxor.vv	v7, v25, v3
	vxor.vv	v31, v31, v5
	vxor.vv	v30, v30, v12
	vxor.vv	v7, v7, v6
	vxor.vv	v30, v30, v5
	vxor.vv	v22, v7, v22
	vxor.vv	v7, v31, v2
	vxor.vv	v22, v22, v4
	vand.vv	v6, v30, v31
	vxor.vv	v31, v6, v2
	vxor.vv	v5, v6, v22
	vxor.vv	v4, v22, v30
	vand.vv	v4, v31, v4
	vand.vv	v31, v5, v7
	vxor.vv	v31, v31, v2
	vxor.vv	v3, v4, v6
	vxor.vv	v6, v4, v22
	vand.vv	v4, v3, v22
	vle8.v	v22, (t2)
	vxor.vv	v5, v4, v5
	vxor.vv	v4, v4, v30
	vle8.v	v30, (t3)
	lui	a3, 1
	addi	a3, a3, 273
	vand.vv	v5, v5, v31
	vxor.vv	v7, v5, v7
	vsetvli	zero, zero, e16, m2, ta, ma
	vmv.s.x	v0, a3
	vsetvli	zero, zero, e8, m1, ta, mu
	vand.vv	v21, v6, v21
	vand.vv	v13, v6, v13
	vand.vv	v26, v4, v26
	vand.vv	v19, v4, v19
	vxor.vv	v5, v4, v6
	vxor.vv	v6, v31, v6
	vand.vv	v18, v31, v18
	vand.vv	v29, v31, v29
	vand.vv	v28, v6, v28
	vand.vv	v16, v6, v16
	vand.vv	v27, v5, v27
	vand.vv	v20, v5, v20
	vxor.vv	v13, v26, v13
	vxor.vv	v5, v7, v5
	vxor.vv	v31, v7, v31
	vand.vv	v15, v7, v15
	vand.vv	v17, v7, v17
	vxor.vv	v26, v27, v26
	vxor.vv	v27, v13, v29
	vand.vv	v25, v31, v25
	vand.vv	v24, v5, v24
	vxor.vv	v29, v5, v6
	vand.vv	v12, v31, v12
	vand.vv	v14, v5, v14
	vand.vv	v11, v29, v11
	vxor.vv	v15, v25, v15
	vand.vv	v23, v29, v23
	vxor.vv	v29, v27, v25
	vxor.vv	v13, v24, v13
	vxor.vv	v14, v14, v16
	vxor.vv	v11, v11, v16
	vxor.vv	v16, v15, v23
	vxor.vv	v17, v29, v17
	vxor.vv	v15, v26, v15
	vxor.vv	v13, v13, v12
	vxor.vv	v20, v11, v20
	vxor.vv	v11, v17, v11
	vxor.vv	v13, v13, v16
	vxor.vv	v16, v16, v28
	vxor.vv	v17, v20, v19
	vxor.vv	v18, v13, v18
	vxor.vv	v23, v11, v13
	vxor.vv	v24, v11, v12
	vxor.vv	v11, v20, v21
	vxor.vv	v12, v14, v16
	vxor.vv	v25, v15, v17
	vxor.vv	v20, v11, v18
	vxor.vv	v21, v17, v16
	vxor.vv	v27, v12, v18
	vrgather.vv	v14, v24, v30
	vrgather.vv	v13, v23, v30
	vxor.vv	v26, v25, v16
	vxor.vv	v28, v25, v29
	vrgather.vv	v14, v24, v22, v0.t
	vrgather.vv	v13, v23, v22, v0.t
	vrgather.vv	v17, v20, v30
	vrgather.vv	v16, v25, v30
	vrgather.vv	v12, v27, v30
	vrgather.vv	v11, v21, v30
	vrgather.vv	v17, v20, v22, v0.t
	vrgather.vv	v19, v28, v30
	vrgather.vv	v15, v26, v30
	vxor.vv	v24, v24, v14
	vxor.vv	v23, v23, v13
	vrgather.vv	v19, v28, v22, v0.t
	vxor.vv	v18, v20, v17
	csrr	a3, vlenb
	slli	a4, a3, 3
	sub	a3, a4, a3
	add	a3, a3, sp
	addi	a3, a3, 32
	vl1r.v	v9, (a3)                        # vscale x 8-byte Folded Reload
	vrgather.vv	v29, v24, v9
	vrgather.vv	v30, v24, v10
	vrgather.vv	v7, v23, v9
	vrgather.vv	v6, v23, v10
	vrgather.vv	v16, v25, v22, v0.t
	vxor.vv	v20, v28, v19
	vrgather.vv	v28, v18, v9
	vrgather.vv	v5, v18, v10
	vrgather.vv	v12, v27, v22, v0.t
	vxor.vv	v25, v25, v16
	vrgather.vv	v15, v26, v22, v0.t
	vrgather.vv	v4, v20, v9
	vrgather.vv	v11, v21, v22, v0.t
	vrgather.vv	v3, v20, v10
	vxor.vv	v22, v27, v12
	vmv1r.v	v0, v8
	vsetivli	zero, 8, e16, m1, ta, ma
	vmerge.vvm	v31, v30, v29, v0
	vsetivli	zero, 16, e8, m1, ta, ma
	vrgather.vv	v27, v25, v9
	vsetivli	zero, 8, e16, m1, ta, ma
	vmerge.vvm	v7, v6, v7, v0
	vsetivli	zero, 16, e8, m1, ta, ma
	vrgather.vv	v29, v25, v10
	vxor.vv	v26, v26, v15
	vsetivli	zero, 8, e16, m1, ta, ma
	vmerge.vvm	v30, v5, v28, v0
	vsetivli	zero, 16, e8, m1, ta, ma
	vrgather.vv	v5, v22, v9
	vsetivli	zero, 8, e16, m1, ta, ma
	vmerge.vvm	v6, v3, v4, v0
	vsetivli	zero, 16, e8, m1, ta, ma
	vrgather.vv	v4, v22, v10
	vsetivli	zero, 8, e16, m1, ta, ma
	vmerge.vvm	v28, v29, v27, v0
	vsetivli	zero, 16, e8, m1, ta, ma
	vrgather.vv	v27, v26, v9
	vsetivli	zero, 8, e16, m1, ta, ma
	vmerge.vvm	v29, v4, v5, v0
	vsetivli	zero, 16, e8, m1, ta, ma
	vrgather.vv	v5, v26, v10
	vsetivli	zero, 8, e16, m1, ta, ma
	vmerge.vvm	v27, v5, v27, v0
	slli	a1, a1, 7
	add	a3, a0, a1
	addi	a4, a3, -128
	vsetivli	zero, 16, e8, m1, ta, ma
	vle8.v	v5, (a4)
	vxor.vv	v21, v21, v11
	vrgather.vv	v4, v21, v9
	vrgather.vv	v9, v21, v10
	vsetivli	zero, 8, e16, m1, ta, ma
	vmerge.vvm	v9, v9, v4, v0
	addi	a4, a3, -112
	addi	a5, a3, -96
	vsetivli	zero, 16, e8, m1, ta, ma
	vxor.vv	v8, v31, v5
	vle8.v	v10, (a4)
	addi	a4, a3, -80
	vxor.vv	v8, v8, v14
	vle8.v	v14, (a5)
	vxor.vv	v10, v7, v10
	vle8.v	v31, (a4)
	vxor.vv	v10, v10, v13
	vxor.vv	v13, v30, v14
	vxor.vv	v13, v13, v17
	vxor.vv	v17, v6, v31
	addi	a4, a3, -64
	addi	a5, a3, -48
	vxor.vv	v10, v10, v21
	vxor.vv	v14, v10, v24
	vle8.v	v10, (a4)
	vxor.vv	v13, v13, v23
	vle8.v	v23, (a5)
	vxor.vv	v17, v17, v19
	vxor.vv	v10, v28, v10
	vxor.vv	v10, v10, v16
	vxor.vv	v19, v29, v23
	addi	a4, a3, -32
	vxor.vv	v16, v17, v21
	vxor.vv	v16, v16, v18
	vle8.v	v17, (a4)
	vxor.vv	v8, v8, v21
	vxor.vv	v10, v10, v21
	vxor.vv	v12, v19, v12
	addi	a3, a3, -16
	vxor.vv	v17, v27, v17
	vle8.v	v19, (a3)
	vxor.vv	v18, v10, v20
	vxor.vv	v10, v12, v25
	vxor.vv	v12, v17, v15
	vxor.vv	v9, v9, v19
	vxor.vv	v17, v12, v22
	vxor.vv	v9, v9, v11
	vxor.vv	v15, v9, v26
	j	.Laes_BB6_8
.Laes_BB6_7:                                # %else.12
.Laes_pcrel_hi55:
	auipc	a3, %pcrel_hi(.Laes_CPI6_9)
	vmv.v.i	v8, 0
	addi	a3, a3, %pcrel_lo(.Laes_pcrel_hi55)
	vle8.v	v10, (a3)
	lui	a3, 65535
	vid.v	v9
	vmv1r.v	v13, v8
	slli	a3, a3, 20
	vadd.vi	v9, v9, -2
	vmv1r.v	v14, v8
	vmv1r.v	v15, v8
	vmv1r.v	v16, v8
	vmv1r.v	v21, v8
	vmv1r.v	v22, v8
	vmv1r.v	v23, v8
	vmv1r.v	v25, v8
	vsetivli	zero, 2, e64, m1, ta, ma
	vmv.v.x	v26, a3
	vsetivli	zero, 14, e8, m1, tu, ma
	vrgather.vv	v13, v11, v10
	vrgather.vv	v14, v17, v10
	vrgather.vv	v15, v18, v10
	vrgather.vv	v16, v19, v10
	vrgather.vv	v21, v20, v10
	vrgather.vv	v22, v12, v10
	vrgather.vv	v23, v24, v10
	vrgather.vv	v25, v27, v10
	vsetivli	zero, 16, e8, m1, ta, ma
	vxor.vv	v10, v13, v11
	vxor.vv	v13, v14, v17
	vxor.vv	v14, v15, v18
	vxor.vv	v15, v16, v19
	vxor.vv	v16, v21, v20
	vxor.vv	v21, v22, v12
	vxor.vv	v22, v23, v24
	vxor.vv	v23, v25, v27
	vand.vv	v25, v10, v26
	vand.vv	v28, v13, v26
	vand.vv	v13, v14, v26
	vand.vv	v14, v15, v26
	vand.vv	v15, v16, v26
	vand.vv	v10, v21, v26
	vand.vv	v16, v22, v26
	vand.vv	v21, v23, v26
	vrgather.vv	v22, v25, v9
	vrgather.vv	v23, v28, v9
	vrgather.vv	v26, v13, v9
	vrgather.vv	v29, v14, v9
	vrgather.vv	v30, v15, v9
	vrgather.vv	v31, v10, v9
	vrgather.vv	v7, v16, v9
	vrgather.vv	v6, v21, v9
	vsetivli	zero, 2, e8, m1, tu, ma
	vmv.v.v	v22, v8
	vmv.v.v	v23, v8
	vmv.v.v	v26, v8
	vmv.v.v	v29, v8
	vmv.v.v	v30, v8
	vmv.v.v	v31, v8
	vmv.v.v	v7, v8
	vmv.v.v	v6, v8
	vsetivli	zero, 16, e8, m1, ta, ma
	vxor.vv	v8, v7, v24
	vxor.vv	v9, v31, v12
	vxor.vv	v12, v30, v20
	vxor.vv	v19, v29, v19
	vxor.vv	v20, v26, v18
	vxor.vv	v23, v23, v17
	vxor.vv	v11, v22, v11
	vxor.vv	v22, v6, v27
	vxor.vv	v17, v8, v16
	vxor.vv	v10, v9, v10
	vxor.vv	v18, v12, v15
	vxor.vv	v16, v19, v14
	vxor.vv	v13, v20, v13
	vxor.vv	v14, v23, v28
	vxor.vv	v8, v11, v25
	vxor.vv	v15, v22, v21
	slli	a1, a1, 7
.Laes_BB6_8:                                # %join.13
	vxor.vv	v20, v10, v17
	vxor.vv	v11, v18, v15
	vxor.vv	v10, v14, v15
	vxor.vv	v9, v13, v18
	vxor.vv	v12, v13, v15
	add	a0, a0, a1
	vxor.vv	v22, v8, v20
	vxor.vv	v23, v10, v9
	vle8.v	v21, (a0)
	addi	a1, a0, 16
	vle8.v	v19, (a1)
	addi	a1, a0, 32
	vxor.vv	v28, v22, v18
	vxor.vv	v16, v23, v16
	vxor.vv	v24, v22, v15
	vxor.vv	v14, v22, v14
	vand.vv	v18, v28, v8
	vxor.vv	v27, v16, v13
	vxor.vv	v29, v16, v17
	vxor.vv	v25, v14, v12
	vand.vv	v30, v14, v22
	vxor.vv	v17, v29, v11
	vxor.vv	v26, v27, v8
	vand.vv	v31, v27, v23
	vxor.vv	v16, v27, v20
	vxor.vv	v7, v18, v12
	vand.vv	v6, v17, v11
	vxor.vv	v18, v17, v20
	vxor.vv	v13, v17, v16
	vxor.vv	v20, v17, v8
	vand.vv	v5, v16, v12
	vand.vv	v4, v26, v25
	vxor.vv	v7, v7, v16
	vxor.vv	v29, v29, v4
	vand.vv	v4, v13, v9
	vxor.vv	v5, v5, v6
	vxor.vv	v6, v4, v6
	vand.vv	v4, v20, v24
	vxor.vv	v7, v7, v31
	vxor.vv	v29, v29, v31
	vand.vv	v31, v18, v10
	vxor.vv	v30, v18, v30
	vxor.vv	v7, v7, v5
	vxor.vv	v30, v30, v31
	vxor.vv	v4, v18, v4
	vxor.vv	v29, v29, v6
	vxor.vv	v30, v30, v10
	vxor.vv	v31, v4, v31
	vxor.vv	v30, v30, v6
	vxor.vv	v15, v31, v15
	vxor.vv	v31, v29, v7
	vxor.vv	v15, v15, v5
	vand.vv	v29, v30, v29
	vxor.vv	v6, v29, v7
	vxor.vv	v5, v29, v15
	vxor.vv	v4, v15, v30
	vand.vv	v6, v6, v4
	vand.vv	v4, v5, v31
	vxor.vv	v7, v4, v7
	vle8.v	v4, (a1)
	addi	a1, a0, 48
	vxor.vv	v29, v6, v29
	vxor.vv	v6, v6, v15
	vand.vv	v15, v29, v15
	vle8.v	v29, (a1)
	addi	a1, a0, 64
	vxor.vv	v5, v15, v5
	vxor.vv	v30, v15, v30
	vle8.v	v15, (a1)
	addi	a1, a0, 80
	vand.vv	v28, v6, v28
	vxor.vv	v28, v28, v4
	vle8.v	v4, (a1)
	addi	a1, a0, 96
	addi	a0, a0, 112
	vand.vv	v5, v5, v7
	vxor.vv	v31, v5, v31
	vle8.v	v5, (a1)
	vand.vv	v8, v6, v8
	vand.vv	v27, v30, v27
	vand.vv	v23, v30, v23
	vxor.vv	v30, v30, v6
	vxor.vv	v6, v7, v6
	vand.vv	v24, v7, v24
	vand.vv	v20, v7, v20
	vand.vv	v26, v30, v26
	vand.vv	v25, v30, v25
	vxor.vv	v30, v31, v30
	vxor.vv	v7, v31, v7
	vand.vv	v22, v31, v22
	vand.vv	v14, v31, v14
	vle8.v	v31, (a0)
	vand.vv	v17, v6, v17
	vand.vv	v11, v6, v11
	vxor.vv	v8, v27, v8
	vxor.vv	v26, v26, v27
	vxor.vv	v20, v8, v20
	vand.vv	v18, v7, v18
	vand.vv	v16, v30, v16
	vxor.vv	v27, v30, v6
	vand.vv	v10, v7, v10
	vand.vv	v12, v30, v12
	vand.vv	v9, v27, v9
	vxor.vv	v22, v18, v22
	vand.vv	v13, v27, v13
	vxor.vv	v18, v20, v18
	vxor.vv	v8, v16, v8
	vxor.vv	v16, v10, v21
	vxor.vv	v12, v4, v12
	vxor.vv	v9, v9, v11
	vxor.vv	v13, v22, v13
	vxor.vv	v14, v18, v14
	vxor.vv	v20, v26, v22
	vxor.vv	v8, v8, v10
	vxor.vv	v10, v18, v29
	vxor.vv	v11, v12, v11
	vxor.vv	v12, v9, v25
	vxor.vv	v9, v14, v9
	vxor.vv	v8, v8, v13
	vxor.vv	v13, v13, v17
	vxor.vv	v14, v12, v23
	vxor.vv	v17, v8, v24
	vxor.vv	v16, v16, v9
	vxor.vv	v8, v8, v19
	vxor.vv	v12, v28, v12
	vxor.vv	v11, v11, v13
	vxor.vv	v18, v13, v5
	vxor.vv	v13, v13, v31
	vxor.vv	v19, v20, v14
	vxor.vv	v8, v8, v9
	vxor.vv	v9, v12, v17
	vxor.vv	v11, v11, v17
	vxor.vv	v12, v13, v14
	vse8.v	v16, (a2)
	vxor.vv	v10, v10, v19
	vxor.vv	v13, v19, v15
	vxor.vv	v14, v18, v19
	vse8.v	v8, (a6)
	vse8.v	v9, (t1)
	vse8.v	v11, (s2)
	vse8.v	v10, (a7)
	vse8.v	v13, (t0)
	vse8.v	v14, (t5)
	vse8.v	v12, (t6)
	csrr	a0, vlenb
	slli	a1, a0, 3
	add	a0, a0, a1
	add	sp, sp, a0
	ld	s0, 72(sp)                      # 8-byte Folded Reload
	ld	s1, 64(sp)                      # 8-byte Folded Reload
	ld	s2, 56(sp)                      # 8-byte Folded Reload
	ld	s3, 48(sp)                      # 8-byte Folded Reload
	ld	s4, 40(sp)                      # 8-byte Folded Reload
	addi	sp, sp, 80
	ret
.Laes_func_end6:
	.size	aes.aes_soft.soft.ciphers.planes.EncryptPlaneCipher.process_planes, .Laes_func_end6-aes.aes_soft.soft.ciphers.planes.EncryptPlaneCipher.process_planes
                                        # -- End function
	.section	.text.aes.aes_soft.soft.blocks.filled_up.process_filled_up.1,"ax",@progbits
	.p2align	1                               # -- Begin function aes_soft::soft::blocks::filled_up::process_filled_up::<#a60badf655ff5009>
	.type	aes.aes_soft.soft.blocks.filled_up.process_filled_up.1,@function
aes.aes_soft.soft.blocks.filled_up.process_filled_up.1: # @aes.aes_soft.soft.blocks.filled_up.process_filled_up.1
# %bb.0:                                # %start
	addi	sp, sp, -432
	sd	ra, 424(sp)                     # 8-byte Folded Spill
	sd	s0, 416(sp)                     # 8-byte Folded Spill
	sd	s1, 408(sp)                     # 8-byte Folded Spill
	sd	s2, 400(sp)                     # 8-byte Folded Spill
	sd	s3, 392(sp)                     # 8-byte Folded Spill
	mv	s1, a3
	mv	s0, a2
	mv	t1, a0
	addi	a6, sp, 240
	vsetivli	zero, 8, e64, m4, ta, ma
	vmv.v.i	v8, 0
	mv	s2, sp
	addi	a2, sp, 64
	vse64.v	v8, (s2)
	vse64.v	v8, (a2)
	vsetivli	zero, 2, e64, m1, ta, ma
	vmv.v.i	v8, 0
	addi	a2, sp, 224
	addi	a3, sp, 208
	addi	a5, sp, 192
	addi	a0, sp, 176
	addi	a4, sp, 160
	addi	t5, sp, 144
	addi	s3, sp, 128
	vsetivli	zero, 16, e8, m1, ta, ma
	vle8.v	v9, (s0)
	addi	t4, sp, 256
	vsetivli	zero, 2, e64, m1, ta, ma
	vse64.v	v8, (a6)
	addi	t3, sp, 272
	vse64.v	v8, (a2)
	addi	t2, sp, 288
	vse64.v	v8, (a3)
	addi	a3, sp, 304
	vse64.v	v8, (a5)
	addi	t0, sp, 320
	vse64.v	v8, (a0)
	addi	a7, sp, 336
	vse64.v	v8, (a4)
	addi	a6, sp, 352
	vsetivli	zero, 16, e8, m1, ta, ma
	vle8.v	v10, (s0)
	vsetivli	zero, 2, e64, m1, ta, ma
	vse64.v	v8, (t5)
	addi	a0, sp, 368
	srli	a1, a1, 3
	vse64.v	v8, (s3)
	vsetivli	zero, 16, e8, m1, ta, ma
	vse8.v	v9, (t4)
	vse8.v	v9, (t3)
	vse8.v	v9, (t2)
	vse8.v	v9, (a3)
	vse8.v	v9, (t0)
	vse8.v	v9, (a7)
	vse8.v	v10, (a6)
	vse8.v	v10, (a0)
	addi	a2, a1, -1
	beqz	s1, .Laes_BB7_10
# %bb.1:                                # %join.8.i
	vle8.v	v8, (s0)
	li	a0, 1
	vse8.v	v8, (t4)
	beq	s1, a0, .Laes_BB7_8
# %bb.2:                                # %join.8.i.1
	addi	a0, s0, 16
	vle8.v	v8, (a0)
	li	a0, 2
	vse8.v	v8, (t3)
	beq	s1, a0, .Laes_BB7_8
# %bb.3:                                # %join.8.i.2
	addi	a0, s0, 32
	vle8.v	v8, (a0)
	li	a0, 3
	vse8.v	v8, (t2)
	beq	s1, a0, .Laes_BB7_8
# %bb.4:                                # %join.8.i.3
	addi	a0, s0, 48
	vle8.v	v8, (a0)
	li	a0, 4
	vse8.v	v8, (a3)
	beq	s1, a0, .Laes_BB7_8
# %bb.5:                                # %join.8.i.4
	addi	a0, s0, 64
	vle8.v	v8, (a0)
	li	a0, 5
	vse8.v	v8, (t0)
	beq	s1, a0, .Laes_BB7_8
# %bb.6:                                # %join.8.i.5
	addi	a0, s0, 80
	vle8.v	v8, (a0)
	li	a0, 6
	vse8.v	v8, (a7)
	beq	s1, a0, .Laes_BB7_8
# %bb.7:                                # %join.8.i.6
	addi	a0, s0, 96
	vle8.v	v8, (a0)
	vse8.v	v8, (a6)
.Laes_BB7_8:                                # %"aes_soft::soft::blocks::filled_up::filled_up::<#3fb8a7784760496e>.exit"
	mv	a0, sp
	addi	a3, sp, 256
	mv	a1, t1
	call	aes.aes_soft.soft.ciphers.planes.process_outlined.1
	vsetivli	zero, 16, e64, m8, ta, ma
	vle64.v	v8, (s2)
	addi	a0, sp, 128
	slli	a1, s1, 4
	vse64.v	v8, (a0)
	add	a1, a1, s0
.Laes_BB7_9:                                # %join.8.i19
                                        # =>This Inner Loop Header: Depth=1
	vsetvli	zero, zero, e8, m1, ta, ma
	vle8.v	v8, (a0)
	vse8.v	v8, (s0)
	addi	s0, s0, 16
	addi	a0, a0, 16
	bne	s0, a1, .Laes_BB7_9
	j	.Laes_BB7_11
.Laes_BB7_10:                               # %"aes_soft::soft::blocks::filled_up::copy_first::<#3fb8a7784760496e>.exit.critedge"
	mv	a0, sp
	addi	a3, sp, 256
	mv	a1, t1
	call	aes.aes_soft.soft.ciphers.planes.process_outlined.1
	vsetivli	zero, 16, e64, m8, ta, ma
	vle64.v	v8, (s2)
	vse64.v	v8, (s3)
.Laes_BB7_11:                               # %"aes_soft::soft::blocks::filled_up::copy_first::<#3fb8a7784760496e>.exit"
	ld	ra, 424(sp)                     # 8-byte Folded Reload
	ld	s0, 416(sp)                     # 8-byte Folded Reload
	ld	s1, 408(sp)                     # 8-byte Folded Reload
	ld	s2, 400(sp)                     # 8-byte Folded Reload
	ld	s3, 392(sp)                     # 8-byte Folded Reload
	addi	sp, sp, 432
	ret
.Laes_func_end7:
	.size	aes.aes_soft.soft.blocks.filled_up.process_filled_up.1, .Laes_func_end7-aes.aes_soft.soft.blocks.filled_up.process_filled_up.1
                                        # -- End function
	.section	.text.aes.aes_cipher.zeroize.zeroize_words,"ax",@progbits
	.p2align	1                               # -- Begin function aes_cipher::zeroize::zeroize_words::<#e29e0540aa8bc136>
	.type	aes.aes_cipher.zeroize.zeroize_words,@function
aes.aes_cipher.zeroize.zeroize_words: # @aes.aes_cipher.zeroize.zeroize_words
# %bb.0:                                # %start
	addi	sp, sp, -32
	sd	ra, 24(sp)                      # 8-byte Folded Spill
	sd	s0, 16(sp)                      # 8-byte Folded Spill
	sd	s1, 8(sp)                       # 8-byte Folded Spill
	sd	zero, 0(sp)
	#APP
	#NO_APP
	fence	rw, rw
	ld	a1, 0(sp)
	fence	r, rw
	#APP
	#NO_APP
	li	a2, 120
	bgeu	a1, a2, .Laes_BB8_2
# %bb.1:                                # %then.1.i
	slli	a1, a1, 4
	add	s0, a0, a1
	lbu	s1, 0(s0)
	li	a2, 1920
	li	a1, 0
	la	t1, memset
	jalr	t1
	lbu	a0, 0(s0)
	and	a0, a0, s1
	j	.Laes_BB8_3
.Laes_BB8_2:                                # %"aes_cipher::zeroize::observe::<#ccfd3525e01c7eaa>.exit11"
	li	a2, 1920
	li	a1, 0
	la	t1, memset
	jalr	t1
	li	a0, 0
.Laes_BB8_3:                                # %"aes_cipher::zeroize::observe::<#ccfd3525e01c7eaa>.exit"
	#APP
	#NO_APP
	mv	a1, sp
	amoswap.d.aqrl	zero, a0, (a1)
	#APP
	#NO_APP
	ld	ra, 24(sp)                      # 8-byte Folded Reload
	ld	s0, 16(sp)                      # 8-byte Folded Reload
	ld	s1, 8(sp)                       # 8-byte Folded Reload
	addi	sp, sp, 32
	ret
.Laes_func_end8:
	.size	aes.aes_cipher.zeroize.zeroize_words, .Laes_func_end8-aes.aes_cipher.zeroize.zeroize_words
                                        # -- End function
	.section	.text.aes.aes_cipher.zeroize.stack.wipe_stack.1792,"ax",@progbits
	.p2align	1                               # -- Begin function aes_cipher::zeroize::stack::wipe_stack::<=1792>
	.type	aes.aes_cipher.zeroize.stack.wipe_stack.1792,@function
aes.aes_cipher.zeroize.stack.wipe_stack.1792: # @aes.aes_cipher.zeroize.stack.wipe_stack.1792
# %bb.0:                                # %start
	addi	sp, sp, -1840
	sd	ra, 1832(sp)                    # 8-byte Folded Spill
	sd	s0, 1824(sp)                    # 8-byte Folded Spill
	sd	s1, 1816(sp)                    # 8-byte Folded Spill
	addi	s0, sp, 24
	addi	a0, sp, 24
	li	a2, 1792
	li	s1, 1792
	li	a1, 0
	la	t1, memset
	jalr	t1
	sd	zero, 16(sp)
	#APP
	#NO_APP
	fence	rw, rw
	ld	a0, 16(sp)
	fence	r, rw
	#APP
	#NO_APP
	bgeu	a0, s1, .Laes_BB9_2
# %bb.1:                                # %then.1
	add	a0, a0, s0
	lbu	a0, 0(a0)
	#APP
	#NO_APP
	addi	a1, sp, 16
	amoswap.d.aqrl	zero, a0, (a1)
	#APP
	#NO_APP
.Laes_BB9_2:                                # %common.ret
	ld	ra, 1832(sp)                    # 8-byte Folded Reload
	ld	s0, 1824(sp)                    # 8-byte Folded Reload
	ld	s1, 1816(sp)                    # 8-byte Folded Reload
	addi	sp, sp, 1840
	ret
.Laes_func_end9:
	.size	aes.aes_cipher.zeroize.stack.wipe_stack.1792, .Laes_func_end9-aes.aes_cipher.zeroize.stack.wipe_stack.1792
                                        # -- End function
	.section	.rodata.cst16,"aM",@progbits,16
	.p2align	4, 0x0                          # -- Begin function aes_permute::blocks::process_on_lanes::<#06aaae76f5856d0a>
.Laes_CPI10_0:
	.byte	0                               # 0x0
	.byte	1                               # 0x1
	.byte	28                              # 0x1c
	.byte	29                              # 0x1d
	.byte	45                              # 0x2d
	.byte	44                              # 0x2c
	.byte	49                              # 0x31
	.byte	48                              # 0x30
	.byte	39                              # 0x27
	.byte	38                              # 0x26
	.byte	59                              # 0x3b
	.byte	58                              # 0x3a
	.byte	10                              # 0xa
	.byte	11                              # 0xb
	.byte	22                              # 0x16
	.byte	23                              # 0x17
.Laes_CPI10_1:
	.byte	0                               # 0x0
	.byte	134                             # 0x86
	.byte	253                             # 0xfd
	.byte	123                             # 0x7b
	.byte	142                             # 0x8e
	.byte	8                               # 0x8
	.byte	115                             # 0x73
	.byte	245                             # 0xf5
	.byte	119                             # 0x77
	.byte	241                             # 0xf1
	.byte	138                             # 0x8a
	.byte	12                              # 0xc
	.byte	249                             # 0xf9
	.byte	127                             # 0x7f
	.byte	4                               # 0x4
	.byte	130                             # 0x82
.Laes_CPI10_2:
	.byte	128                             # 0x80
	.byte	2                               # 0x2
	.byte	1                               # 0x1
	.byte	15                              # 0xf
	.byte	9                               # 0x9
	.byte	5                               # 0x5
	.byte	14                              # 0xe
	.byte	12                              # 0xc
	.byte	13                              # 0xd
	.byte	4                               # 0x4
	.byte	11                              # 0xb
	.byte	10                              # 0xa
	.byte	7                               # 0x7
	.byte	8                               # 0x8
	.byte	6                               # 0x6
	.byte	3                               # 0x3
.Laes_CPI10_3:
	.byte	128                             # 0x80
	.byte	1                               # 0x1
	.byte	9                               # 0x9
	.byte	14                              # 0xe
	.byte	13                              # 0xd
	.byte	11                              # 0xb
	.byte	7                               # 0x7
	.byte	6                               # 0x6
	.byte	15                              # 0xf
	.byte	2                               # 0x2
	.byte	12                              # 0xc
	.byte	5                               # 0x5
	.byte	10                              # 0xa
	.byte	4                               # 0x4
	.byte	3                               # 0x3
	.byte	8                               # 0x8
.Laes_CPI10_4:
	.byte	0                               # 0x0
	.byte	195                             # 0xc3
	.byte	79                              # 0x4f
	.byte	12                              # 0xc
	.byte	252                             # 0xfc
	.byte	124                             # 0x7c
	.byte	67                              # 0x43
	.byte	128                             # 0x80
	.byte	207                             # 0xcf
	.byte	51                              # 0x33
	.byte	63                              # 0x3f
	.byte	112                             # 0x70
	.byte	191                             # 0xbf
	.byte	179                             # 0xb3
	.byte	240                             # 0xf0
	.byte	140                             # 0x8c
.Laes_CPI10_5:
	.byte	0                               # 0x0
	.byte	230                             # 0xe6
	.byte	114                             # 0x72
	.byte	183                             # 0xb7
	.byte	229                             # 0xe5
	.byte	198                             # 0xc6
	.byte	197                             # 0xc5
	.byte	35                              # 0x23
	.byte	81                              # 0x51
	.byte	180                             # 0xb4
	.byte	3                               # 0x3
	.byte	113                             # 0x71
	.byte	32                              # 0x20
	.byte	151                             # 0x97
	.byte	82                              # 0x52
	.byte	148                             # 0x94
.Laes_CPI10_6:
	.byte	0                               # 0x0
	.byte	124                             # 0x7c
	.byte	32                              # 0x20
	.byte	207                             # 0xcf
	.byte	146                             # 0x92
	.byte	1                               # 0x1
	.byte	239                             # 0xef
	.byte	147                             # 0x93
	.byte	179                             # 0xb3
	.byte	33                              # 0x21
	.byte	238                             # 0xee
	.byte	206                             # 0xce
	.byte	125                             # 0x7d
	.byte	178                             # 0xb2
	.byte	93                              # 0x5d
	.byte	92                              # 0x5c
.Laes_CPI10_7:
	.byte	0                               # 0x0
	.byte	209                             # 0xd1
	.byte	229                             # 0xe5
	.byte	247                             # 0xf7
	.byte	230                             # 0xe6
	.byte	37                              # 0x25
	.byte	18                              # 0x12
	.byte	195                             # 0xc3
	.byte	38                              # 0x26
	.byte	192                             # 0xc0
	.byte	55                              # 0x37
	.byte	210                             # 0xd2
	.byte	244                             # 0xf4
	.byte	3                               # 0x3
	.byte	17                              # 0x11
	.byte	52                              # 0x34
.Laes_CPI10_8:
	.byte	0                               # 0x0
	.byte	203                             # 0xcb
	.byte	215                             # 0xd7
	.byte	176                             # 0xb0
	.byte	33                              # 0x21
	.byte	141                             # 0x8d
	.byte	103                             # 0x67
	.byte	172                             # 0xac
	.byte	123                             # 0x7b
	.byte	90                              # 0x5a
	.byte	234                             # 0xea
	.byte	61                              # 0x3d
	.byte	70                              # 0x46
	.byte	246                             # 0xf6
	.byte	145                             # 0x91
	.byte	28                              # 0x1c
.Laes_CPI10_9:
	.byte	0                               # 0x0
	.byte	159                             # 0x9f
	.byte	97                              # 0x61
	.byte	22                              # 0x16
	.byte	194                             # 0xc2
	.byte	42                              # 0x2a
	.byte	119                             # 0x77
	.byte	232                             # 0xe8
	.byte	137                             # 0x89
	.byte	75                              # 0x4b
	.byte	93                              # 0x5d
	.byte	60                              # 0x3c
	.byte	181                             # 0xb5
	.byte	163                             # 0xa3
	.byte	212                             # 0xd4
	.byte	254                             # 0xfe
	.section	.text.aes.aes_permute.blocks.process_on_lanes.1,"ax",@progbits
	.p2align	1
	.type	aes.aes_permute.blocks.process_on_lanes.1,@function
aes.aes_permute.blocks.process_on_lanes.1: # @aes.aes_permute.blocks.process_on_lanes.1
# %bb.0:                                # %start
	addi	sp, sp, -112
	sd	ra, 104(sp)                     # 8-byte Folded Spill
	sd	s0, 96(sp)                      # 8-byte Folded Spill
	sd	s1, 88(sp)                      # 8-byte Folded Spill
	sd	s2, 80(sp)                      # 8-byte Folded Spill
	sd	s3, 72(sp)                      # 8-byte Folded Spill
	sd	s4, 64(sp)                      # 8-byte Folded Spill
	sd	s5, 56(sp)                      # 8-byte Folded Spill
	sd	s6, 48(sp)                      # 8-byte Folded Spill
	sd	s7, 40(sp)                      # 8-byte Folded Spill
	sd	s8, 32(sp)                      # 8-byte Folded Spill
	sd	s9, 24(sp)                      # 8-byte Folded Spill
	sd	s10, 16(sp)                     # 8-byte Folded Spill
	sd	s11, 8(sp)                      # 8-byte Folded Spill
	li	a7, 2
	addi	a6, a1, -1
.Laes_pcrel_hi56:
	auipc	t0, %pcrel_hi(.Laes_CPI10_0)
.Laes_pcrel_hi57:
	auipc	t1, %pcrel_hi(.Laes_CPI10_1)
.Laes_pcrel_hi58:
	auipc	t2, %pcrel_hi(.Laes_CPI10_2)
.Laes_pcrel_hi59:
	auipc	t6, %pcrel_hi(.Laes_CPI10_3)
.Laes_pcrel_hi60:
	auipc	s2, %pcrel_hi(.Laes_CPI10_4)
.Laes_pcrel_hi61:
	auipc	s3, %pcrel_hi(.Laes_CPI10_5)
.Laes_pcrel_hi62:
	auipc	s6, %pcrel_hi(.Laes_CPI10_6)
.Laes_pcrel_hi63:
	auipc	s7, %pcrel_hi(.Laes_CPI10_7)
.Laes_pcrel_hi64:
	auipc	s8, %pcrel_hi(.Laes_CPI10_8)
.Laes_pcrel_hi65:
	auipc	s1, %pcrel_hi(.Laes_CPI10_9)
.Laes_pcrel_hi66:
	auipc	s0, %pcrel_hi(.Laes_static.3)
.Laes_pcrel_hi67:
	auipc	a4, %pcrel_hi(.Laes_static.4)
.Laes_pcrel_hi68:
	auipc	a5, %pcrel_hi(.Laes_static.5)
	addi	t3, t0, %pcrel_lo(.Laes_pcrel_hi56)
	addi	t4, t1, %pcrel_lo(.Laes_pcrel_hi57)
	addi	t5, t2, %pcrel_lo(.Laes_pcrel_hi58)
	addi	t6, t6, %pcrel_lo(.Laes_pcrel_hi59)
	addi	s4, s2, %pcrel_lo(.Laes_pcrel_hi60)
	addi	s5, s3, %pcrel_lo(.Laes_pcrel_hi61)
	addi	s2, s6, %pcrel_lo(.Laes_pcrel_hi62)
	addi	s3, s7, %pcrel_lo(.Laes_pcrel_hi63)
	addi	t1, s8, %pcrel_lo(.Laes_pcrel_hi64)
	addi	t2, s1, %pcrel_lo(.Laes_pcrel_hi65)
	addi	t0, s0, %pcrel_lo(.Laes_pcrel_hi66)
	addi	s10, a4, %pcrel_lo(.Laes_pcrel_hi67)
	addi	s11, a5, %pcrel_lo(.Laes_pcrel_hi68)
	bltu	a3, a7, .Laes_BB10_6
# %bb.1:                                # %join.5.lr.ph
	li	a7, 0
	vsetivli	zero, 16, e8, m1, ta, ma
	vle8.v	v12, (t3)
	vle8.v	v13, (t4)
	vle8.v	v14, (t5)
	vle8.v	v15, (t6)
	vle8.v	v16, (s4)
	vle8.v	v17, (s5)
	vle8.v	v18, (s2)
	vle8.v	v19, (s3)
	slli	s8, a6, 4
	vle8.v	v20, (t1)
	vle8.v	v21, (t2)
	andi	a4, s8, 48
	add	a4, a4, t0
	vle8.v	v22, (a4)
	add	s8, s8, a0
	addi	s6, a1, -2
	addi	s7, a0, 16
	j	.Laes_BB10_3
.Laes_BB10_2:                               # %"aes_permute::blocks::process_two_vectors::<#06aaae76f5856d0a>.exit"
                                        #   in Loop: Header=BB10_3 Depth=1
	vsrl.vi	v11, v10, 4
	vand.vi	v10, v10, 15
	vsrl.vi	v9, v8, 4
	vand.vi	v8, v8, 15
	vxor.vv	v23, v11, v10
	vrgather.vv	v24, v14, v10
	vrgather.vv	v25, v15, v11
	vxor.vv	v10, v9, v8
	vrgather.vv	v26, v14, v8
	vrgather.vv	v8, v15, v9
	vrgather.vv	v27, v15, v23
	vxor.vv	v25, v25, v24
	vxor.vv	v24, v27, v24
	vrgather.vv	v27, v15, v10
	vxor.vv	v28, v8, v26
	vxor.vv	v26, v27, v26
	vmsle.vi	v0, v25, -1
	vrgather.vv	v8, v15, v25
	vmerge.vim	v25, v8, 0, v0
	vmsle.vi	v0, v24, -1
	vrgather.vv	v8, v15, v24
	vmerge.vim	v24, v8, 0, v0
	vmsle.vi	v8, v22, -1
	vxor.vv	v11, v24, v11
	vmsle.vi	v0, v24, -1
	vrgather.vv	v24, v21, v11
	vmerge.vim	v24, v24, 0, v0
	vle8.v	v11, (s8)
	li	a4, 32
	addi	a7, a7, 2
	sub	a5, a3, a7
	vxor.vv	v23, v25, v23
	vrgather.vv	v27, v20, v23
	vmsle.vi	v0, v25, -1
	vxor.vv	v23, v24, v27
	vmerge.vvm	v23, v23, v24, v0
	vrgather.vv	v24, v23, v22
	vxor.vv	v23, v11, v24
	vmv1r.v	v0, v8
	vmerge.vvm	v24, v23, v11, v0
	vmsle.vi	v0, v28, -1
	vrgather.vv	v23, v15, v28
	vmerge.vim	v23, v23, 0, v0
	vmsle.vi	v0, v26, -1
	vrgather.vv	v25, v15, v26
	vmerge.vim	v25, v25, 0, v0
	vxor.vv	v10, v23, v10
	vxor.vv	v9, v25, v9
	vrgather.vv	v26, v20, v10
	vmsle.vi	v0, v25, -1
	vrgather.vv	v10, v21, v9
	vmerge.vim	v9, v10, 0, v0
	vmsle.vi	v0, v23, -1
	vxor.vv	v10, v9, v26
	vmerge.vvm	v9, v10, v9, v0
	vrgather.vv	v10, v9, v22
	vxor.vv	v9, v11, v10
	vmv1r.v	v0, v8
	vmerge.vvm	v8, v9, v11, v0
	vsetvli	zero, a4, e8, m2, ta, ma
	vslideup.vi	v24, v8, 16
	li	a4, 1
	vse8.v	v24, (s9)
	bgeu	a4, a5, .Laes_BB10_7
.Laes_BB10_3:                               # %join.5
                                        # =>This Loop Header: Depth=1
                                        #     Child Loop BB10_5 Depth 2
	slli	s9, a7, 4
	vsetivli	zero, 16, e8, m1, ta, ma
	vle8.v	v8, (a0)
	add	s9, s9, a2
	vle8.v	v9, (s9)
	addi	a4, s9, 16
	vle8.v	v10, (a4)
	vxor.vv	v9, v8, v9
	vand.vi	v11, v9, 15
	vsrl.vi	v9, v9, 4
	vxor.vv	v8, v8, v10
	vrgather.vv	v10, v12, v11
	vrgather.vv	v11, v13, v9
	vand.vi	v9, v8, 15
	vsrl.vi	v8, v8, 4
	vxor.vv	v10, v11, v10
	vrgather.vv	v11, v12, v9
	vrgather.vv	v9, v13, v8
	li	a4, 2
	vxor.vv	v8, v9, v11
	bltu	a6, a4, .Laes_BB10_2
# %bb.4:                                # %join.5.i2130.preheader
                                        #   in Loop: Header=BB10_3 Depth=1
	li	ra, 16
	mv	s1, s7
	mv	a5, s6
.Laes_BB10_5:                               # %join.5.i2130
                                        #   Parent Loop BB10_3 Depth=1
                                        # =>  This Inner Loop Header: Depth=2
	vsrl.vi	v9, v10, 4
	vand.vi	v10, v10, 15
	andi	s0, ra, 48
	vsrl.vi	v11, v8, 4
	vand.vi	v8, v8, 15
	vle8.v	v23, (s1)
	addi	a5, a5, -1
	addi	s1, s1, 16
	vxor.vv	v26, v9, v10
	vrgather.vv	v27, v14, v10
	vrgather.vv	v10, v15, v9
	add	a4, s10, s0
	add	s0, s0, s11
	vxor.vv	v28, v11, v8
	vrgather.vv	v29, v14, v8
	vrgather.vv	v8, v15, v11
	vrgather.vv	v30, v15, v26
	vxor.vv	v10, v10, v27
	vle8.v	v24, (a4)
	vle8.v	v25, (s0)
	vrgather.vv	v31, v15, v28
	vxor.vv	v7, v8, v29
	vxor.vv	v8, v30, v27
	vrgather.vv	v27, v15, v10
	vmsle.vi	v0, v10, -1
	vxor.vv	v29, v31, v29
	vmerge.vim	v10, v27, 0, v0
	vmsle.vi	v0, v8, -1
	vrgather.vv	v27, v15, v8
	vmerge.vim	v27, v27, 0, v0
	vxor.vv	v26, v10, v26
	vmsle.vi	v8, v10, -1
	vxor.vv	v30, v27, v9
	vrgather.vv	v10, v16, v26
	vmsle.vi	v9, v27, -1
	vrgather.vv	v27, v18, v26
	vrgather.vv	v26, v17, v30
	vmv1r.v	v0, v9
	vmerge.vim	v26, v26, 0, v0
	vxor.vv	v10, v26, v10
	vmv1r.v	v0, v8
	vmerge.vvm	v26, v10, v26, v0
	vmsle.vi	v10, v24, -1
	vrgather.vv	v31, v19, v30
	vmv1r.v	v0, v9
	vmerge.vim	v9, v31, 0, v0
	vxor.vv	v27, v9, v27
	vrgather.vv	v30, v26, v24
	vmv1r.v	v0, v8
	vmerge.vvm	v8, v27, v9, v0
	vxor.vv	v9, v8, v30
	vmv1r.v	v0, v10
	vmerge.vvm	v27, v9, v8, v0
	vrgather.vv	v8, v27, v24
	vmerge.vim	v30, v8, 0, v0
	vmsle.vi	v0, v7, -1
	vrgather.vv	v8, v15, v7
	vmerge.vim	v8, v8, 0, v0
	vmsle.vi	v0, v29, -1
	vrgather.vv	v9, v15, v29
	vmerge.vim	v9, v9, 0, v0
	vxor.vv	v28, v8, v28
	vmsle.vi	v8, v8, -1
	vxor.vv	v29, v9, v11
	vrgather.vv	v11, v16, v28
	vmsle.vi	v9, v9, -1
	vrgather.vv	v31, v17, v29
	vmv1r.v	v0, v9
	vmerge.vim	v31, v31, 0, v0
	vxor.vv	v11, v31, v11
	vmv1r.v	v0, v8
	vmerge.vvm	v31, v11, v31, v0
	vmsle.vi	v11, v25, -1
	vrgather.vv	v7, v26, v25
	vxor.vv	v26, v30, v7
	vrgather.vv	v7, v18, v28
	vrgather.vv	v28, v19, v29
	vmv1r.v	v0, v9
	vmerge.vim	v9, v28, 0, v0
	vxor.vv	v28, v9, v7
	vrgather.vv	v29, v31, v24
	vrgather.vv	v7, v31, v25
	vmv1r.v	v0, v8
	vmerge.vvm	v8, v28, v9, v0
	vxor.vv	v9, v8, v29
	vmv1r.v	v0, v10
	vmerge.vvm	v8, v9, v8, v0
	vrgather.vv	v9, v8, v24
	vmerge.vim	v9, v9, 0, v0
	vmv1r.v	v0, v11
	vmerge.vvm	v10, v26, v30, v0
	vxor.vv	v10, v10, v27
	vxor.vv	v24, v9, v7
	vxor.vv	v10, v10, v23
	vmerge.vvm	v9, v24, v9, v0
	vxor.vv	v8, v9, v8
	vxor.vv	v8, v8, v23
	addi	ra, ra, 16
	bnez	a5, .Laes_BB10_5
	j	.Laes_BB10_2
.Laes_BB10_6:
	li	a7, 0
.Laes_BB10_7:                               # %loop.7.preheader
	bne	a3, a7, .Laes_BB10_9
.Laes_BB10_8:                               # %after.11
	ld	ra, 104(sp)                     # 8-byte Folded Reload
	ld	s0, 96(sp)                      # 8-byte Folded Reload
	ld	s1, 88(sp)                      # 8-byte Folded Reload
	ld	s2, 80(sp)                      # 8-byte Folded Reload
	ld	s3, 72(sp)                      # 8-byte Folded Reload
	ld	s4, 64(sp)                      # 8-byte Folded Reload
	ld	s5, 56(sp)                      # 8-byte Folded Reload
	ld	s6, 48(sp)                      # 8-byte Folded Reload
	ld	s7, 40(sp)                      # 8-byte Folded Reload
	ld	s8, 32(sp)                      # 8-byte Folded Reload
	ld	s9, 24(sp)                      # 8-byte Folded Reload
	ld	s10, 16(sp)                     # 8-byte Folded Reload
	ld	s11, 8(sp)                      # 8-byte Folded Reload
	addi	sp, sp, 112
	ret
.Laes_BB10_9:                               # %join.10.lr.ph
	vsetivli	zero, 16, e8, m1, ta, ma
	vle8.v	v10, (t3)
	vle8.v	v11, (t4)
	vle8.v	v12, (t5)
	vle8.v	v13, (t6)
	vle8.v	v14, (s4)
	vle8.v	v15, (s5)
	vle8.v	v16, (s2)
	vle8.v	v17, (s3)
	slli	a5, a6, 4
	vle8.v	v18, (t1)
	vle8.v	v19, (t2)
	andi	a4, a5, 48
	add	a4, a4, t0
	vle8.v	v20, (a4)
	addi	t0, a1, -2
	add	t1, a0, a5
	j	.Laes_BB10_11
.Laes_BB10_10:                              # %"aes_permute::blocks::process_vector::<#06aaae76f5856d0a>.exit"
                                        #   in Loop: Header=BB10_11 Depth=1
	vle8.v	v9, (t1)
	vsrl.vi	v21, v8, 4
	vand.vi	v8, v8, 15
	vxor.vv	v22, v21, v8
	vrgather.vv	v23, v12, v8
	vrgather.vv	v8, v13, v21
	vrgather.vv	v24, v13, v22
	vxor.vv	v8, v8, v23
	vxor.vv	v23, v24, v23
	vmsle.vi	v0, v8, -1
	vrgather.vv	v24, v13, v8
	vmerge.vim	v24, v24, 0, v0
	vmsle.vi	v8, v20, -1
	vmsle.vi	v0, v23, -1
	vrgather.vv	v25, v13, v23
	vmerge.vim	v23, v25, 0, v0
	vxor.vv	v22, v24, v22
	vxor.vv	v21, v23, v21
	vrgather.vv	v25, v18, v22
	vmsle.vi	v0, v23, -1
	vrgather.vv	v22, v19, v21
	vmerge.vim	v21, v22, 0, v0
	vmsle.vi	v0, v24, -1
	vxor.vv	v22, v21, v25
	vmerge.vvm	v21, v22, v21, v0
	vrgather.vv	v22, v21, v20
	vxor.vv	v21, v9, v22
	vmv1r.v	v0, v8
	vmerge.vvm	v8, v21, v9, v0
	addi	a7, a7, 1
	vse8.v	v8, (s1)
	beq	a3, a7, .Laes_BB10_8
.Laes_BB10_11:                              # %join.10
                                        # =>This Loop Header: Depth=1
                                        #     Child Loop BB10_13 Depth 2
	slli	s1, a7, 4
	vle8.v	v8, (a0)
	add	s1, s1, a2
	vle8.v	v9, (s1)
	vxor.vv	v8, v8, v9
	vand.vi	v9, v8, 15
	vsrl.vi	v8, v8, 4
	vrgather.vv	v21, v10, v9
	vrgather.vv	v9, v11, v8
	li	a1, 2
	vxor.vv	v8, v9, v21
	bltu	a6, a1, .Laes_BB10_10
# %bb.12:                               # %join.5.i.preheader
                                        #   in Loop: Header=BB10_11 Depth=1
	li	s0, 16
	mv	a1, t0
.Laes_BB10_13:                              # %join.5.i
                                        #   Parent Loop BB10_11 Depth=1
                                        # =>  This Inner Loop Header: Depth=2
	add	a4, a0, s0
	vsrl.vi	v9, v8, 4
	vand.vi	v8, v8, 15
	andi	a5, s0, 48
	addi	a1, a1, -1
	vle8.v	v21, (a4)
	vxor.vv	v22, v9, v8
	vrgather.vv	v23, v12, v8
	vrgather.vv	v8, v13, v9
	add	a4, s10, a5
	add	a5, a5, s11
	vrgather.vv	v24, v13, v22
	vxor.vv	v8, v8, v23
	vxor.vv	v23, v24, v23
	vmsle.vi	v0, v8, -1
	vrgather.vv	v24, v13, v8
	vmerge.vim	v8, v24, 0, v0
	vmsle.vi	v0, v23, -1
	vrgather.vv	v24, v13, v23
	vmerge.vim	v23, v24, 0, v0
	vxor.vv	v22, v8, v22
	vmsle.vi	v8, v8, -1
	vxor.vv	v24, v23, v9
	vrgather.vv	v25, v14, v22
	vmsle.vi	v9, v23, -1
	vrgather.vv	v23, v15, v24
	vmv1r.v	v0, v9
	vmerge.vim	v23, v23, 0, v0
	vxor.vv	v25, v23, v25
	vmv1r.v	v0, v8
	vmerge.vvm	v23, v25, v23, v0
	vle8.v	v25, (a4)
	vle8.v	v26, (a5)
	vrgather.vv	v27, v16, v22
	vrgather.vv	v22, v17, v24
	vmv1r.v	v0, v9
	vmerge.vim	v22, v22, 0, v0
	vmsle.vi	v9, v25, -1
	vxor.vv	v24, v22, v27
	vmv1r.v	v0, v8
	vmerge.vvm	v8, v24, v22, v0
	vrgather.vv	v22, v23, v25
	vrgather.vv	v24, v23, v26
	vxor.vv	v22, v8, v22
	vmv1r.v	v0, v9
	vmerge.vvm	v22, v22, v8, v0
	vmsle.vi	v8, v26, -1
	vrgather.vv	v23, v22, v25
	vxor.vv	v23, v21, v23
	vmerge.vvm	v9, v23, v21, v0
	vxor.vv	v21, v9, v24
	vmv1r.v	v0, v8
	vmerge.vvm	v8, v21, v9, v0
	vxor.vv	v8, v8, v22
	addi	s0, s0, 16
	bnez	a1, .Laes_BB10_13
	j	.Laes_BB10_10
.Laes_func_end10:
	.size	aes.aes_permute.blocks.process_on_lanes.1, .Laes_func_end10-aes.aes_permute.blocks.process_on_lanes.1
                                        # -- End function
	.section	.text.aes.aes_hybrid.closures.lend_planes.1,"ax",@progbits
	.p2align	1                               # -- Begin function aes_hybrid::closures::lend_planes::<#b70de9c75faff52b>
	.type	aes.aes_hybrid.closures.lend_planes.1,@function
aes.aes_hybrid.closures.lend_planes.1: # @aes.aes_hybrid.closures.lend_planes.1
# %bb.0:                                # %start
	addi	sp, sp, -2032
	sd	ra, 2024(sp)                    # 8-byte Folded Spill
	sd	s0, 2016(sp)                    # 8-byte Folded Spill
	sd	s1, 2008(sp)                    # 8-byte Folded Spill
	sd	s2, 2000(sp)                    # 8-byte Folded Spill
	sd	s3, 1992(sp)                    # 8-byte Folded Spill
	sd	s4, 1984(sp)                    # 8-byte Folded Spill
	sd	s5, 1976(sp)                    # 8-byte Folded Spill
	mv	s2, a4
	mv	s3, a3
	mv	s4, a2
	mv	s1, a1
	mv	s0, a0
	addi	a0, sp, 176
	li	a2, 1792
	li	a1, 0
	la	t1, memset
	jalr	t1
	slli	s5, s1, 3
	addi	a0, sp, 48
	mv	a1, s0
	mv	a2, s1
	call	aes.aes_hybrid.plane_keys.store_planes
	sd	s0, 16(sp)
	sd	s1, 24(sp)
	sd	s4, 32(sp)
	sd	s3, 40(sp)
	addi	a0, sp, 16
	addi	a1, sp, 48
	mv	a2, s5
	mv	a3, s2
	call	aes.aes_hybrid.closures.call_to_work.1
	addi	a0, sp, 48
	call	aes.aes_cipher.zeroize.zeroize_words
	call	aes.aes_cipher.zeroize.stack.wipe_stack.2032
	ld	ra, 2024(sp)                    # 8-byte Folded Reload
	ld	s0, 2016(sp)                    # 8-byte Folded Reload
	ld	s1, 2008(sp)                    # 8-byte Folded Reload
	ld	s2, 2000(sp)                    # 8-byte Folded Reload
	ld	s3, 1992(sp)                    # 8-byte Folded Reload
	ld	s4, 1984(sp)                    # 8-byte Folded Reload
	ld	s5, 1976(sp)                    # 8-byte Folded Reload
	addi	sp, sp, 2032
	ret
.Laes_func_end11:
	.size	aes.aes_hybrid.closures.lend_planes.1, .Laes_func_end11-aes.aes_hybrid.closures.lend_planes.1
                                        # -- End function
	.section	.rodata.cst16,"aM",@progbits,16
	.p2align	4, 0x0                          # -- Begin function aes_hybrid::closures::call_to_work::<#b70de9c75faff52b>
.Laes_CPI12_0:
	.byte	0                               # 0x0
	.byte	4                               # 0x4
	.byte	8                               # 0x8
	.byte	12                              # 0xc
	.byte	1                               # 0x1
	.byte	5                               # 0x5
	.byte	9                               # 0x9
	.byte	13                              # 0xd
	.byte	2                               # 0x2
	.byte	6                               # 0x6
	.byte	10                              # 0xa
	.byte	14                              # 0xe
	.byte	3                               # 0x3
	.byte	7                               # 0x7
	.byte	11                              # 0xb
	.byte	15                              # 0xf
	.section	.rodata.cst32,"aM",@progbits,32
	.p2align	5, 0x0
.Laes_CPI12_1:
	.zero	1
	.zero	1
	.zero	1
	.zero	1
	.zero	1
	.zero	1
	.zero	1
	.zero	1
	.zero	1
	.zero	1
	.zero	1
	.zero	1
	.zero	1
	.zero	1
	.zero	1
	.zero	1
	.byte	0                               # 0x0
	.byte	4                               # 0x4
	.byte	8                               # 0x8
	.byte	12                              # 0xc
	.byte	1                               # 0x1
	.byte	5                               # 0x5
	.byte	9                               # 0x9
	.byte	13                              # 0xd
	.byte	2                               # 0x2
	.byte	6                               # 0x6
	.byte	10                              # 0xa
	.byte	14                              # 0xe
	.byte	3                               # 0x3
	.byte	7                               # 0x7
	.byte	11                              # 0xb
	.byte	15                              # 0xf
	.section	.text.aes.aes_hybrid.closures.call_to_work.1,"ax",@progbits
	.p2align	1
	.type	aes.aes_hybrid.closures.call_to_work.1,@function
aes.aes_hybrid.closures.call_to_work.1: # @aes.aes_hybrid.closures.call_to_work.1
# %bb.0:                                # %start
	addi	sp, sp, -368
	sd	ra, 360(sp)                     # 8-byte Folded Spill
	sd	s0, 352(sp)                     # 8-byte Folded Spill
	sd	s1, 344(sp)                     # 8-byte Folded Spill
	sd	s2, 336(sp)                     # 8-byte Folded Spill
	sd	s3, 328(sp)                     # 8-byte Folded Spill
	sd	s4, 320(sp)                     # 8-byte Folded Spill
	sd	s5, 312(sp)                     # 8-byte Folded Spill
	sd	s6, 304(sp)                     # 8-byte Folded Spill
	sd	s7, 296(sp)                     # 8-byte Folded Spill
	sd	s8, 288(sp)                     # 8-byte Folded Spill
	sd	s9, 280(sp)                     # 8-byte Folded Spill
	sd	s10, 272(sp)                    # 8-byte Folded Spill
	sd	s11, 264(sp)                    # 8-byte Folded Spill
	csrr	t1, vlenb
	li	t2, 3
	slli	t2, t2, 10
.Laes_BB12_1:                               # %start
                                        # =>This Inner Loop Header: Depth=1
	sub	sp, sp, t2
	sd	zero, 0(sp)
	sub	t1, t1, t2
	bge	t1, t2, .Laes_BB12_1
# %bb.2:                                # %start
	sub	sp, sp, t1
	mv	s5, a2
	ld	s2, 8(a3)
	ld	s4, 0(a3)
	ld	s1, 16(a3)
	ld	s0, 24(a3)
	andi	a2, s2, 15
	sd	a0, 88(sp)
	sd	a1, 72(sp)                      # 8-byte Folded Spill
	sd	a1, 96(sp)
	sd	s5, 104(sp)
	beqz	a2, .Laes_BB12_4
# %bb.3:                                # %then.1.i.i
	addi	a0, sp, 88
	mv	a1, s4
	mv	a2, s2
	li	a3, 0
	mv	a4, s1
	mv	a5, s0
	call	aes.aes_ctr.add_in_batches.add_next.1
	mv	s11, a0
	sd	s0, 16(sp)                      # 8-byte Folded Spill
	sub	a4, s0, a0
	li	a0, 128
	bgeu	a4, a0, .Laes_BB12_5
	j	.Laes_BB12_7
.Laes_BB12_4:
	li	s11, 0
	sd	s0, 16(sp)                      # 8-byte Folded Spill
	mv	a4, s0
	li	a0, 128
	bltu	s0, a0, .Laes_BB12_7
.Laes_BB12_5:                               # %join.11.lr.ph.i.i
	addi	a0, sp, 128
	srli	s0, s5, 3
	addi	a1, a0, 48
	sd	a1, 64(sp)                      # 8-byte Folded Spill
	addi	a1, a0, 64
	sd	a1, 48(sp)                      # 8-byte Folded Spill
	addi	a1, a0, 80
	sd	a1, 40(sp)                      # 8-byte Folded Spill
	addi	a0, a0, 96
	sd	a0, 32(sp)                      # 8-byte Folded Spill
	addi	s0, s0, -1
	sd	s0, 24(sp)                      # 8-byte Folded Spill
	vsetivli	zero, 16, e8, m1, ta, ma
	sd	s1, 56(sp)                      # 8-byte Folded Spill
.Laes_BB12_6:                               # %join.11.i.i
                                        # =>This Inner Loop Header: Depth=1
	sd	a4, 80(sp)                      # 8-byte Folded Spill
	lbu	ra, 8(s4)
	lbu	t1, 9(s4)
	lbu	t2, 10(s4)
	lbu	t3, 11(s4)
	lbu	t4, 12(s4)
	lbu	a7, 13(s4)
	lbu	t0, 14(s4)
	lbu	a6, 15(s4)
	lbu	a0, 0(s4)
	lbu	t5, 1(s4)
	lbu	s9, 2(s4)
	lbu	s10, 3(s4)
.Laes_pcrel_hi69:
	auipc	a2, %pcrel_hi(.Laes_CPI12_0)
	addi	a2, a2, %pcrel_lo(.Laes_pcrel_hi69)
	vle8.v	v18, (a2)
	lbu	a4, 4(s4)
	lbu	s0, 5(s4)
	lbu	a2, 6(s4)
	lbu	t6, 7(s4)
	slli	t3, t3, 24
	slli	t4, t4, 32
	or	a5, t3, t4
	li	t3, 255
	slli	s10, s10, 24
	slli	a4, a4, 32
	or	a4, s10, a4
	lui	t4, 4080
	slli	t1, t1, 8
	slli	t2, t2, 16
	or	a3, t1, ra
	or	a1, a3, t2
	lui	a3, 16
	slli	t3, t3, 24
	addi	t1, a3, -256
	slli	t5, t5, 8
	slli	s9, s9, 16
	or	s1, t5, a0
	slli	a0, a0, 56
	or	s1, s1, s9
	or	a3, a1, a5
	or	a4, a4, s1
	and	a5, s1, t1
	srli	s1, a4, 8
	slli	a5, a5, 40
	or	t2, a0, a5
	srli	a0, a3, 8
	and	a5, s1, t3
	and	t5, a0, t3
	add	s1, s2, s11
	vid.v	v8
	slli	ra, ra, 56
	and	a1, a1, t1
	slli	a1, a1, 40
	or	t3, ra, a1
	li	s10, 85
	slli	a7, a7, 40
	slli	t0, t0, 48
	slli	s0, s0, 40
	slli	a2, a2, 48
	or	a1, a3, a7
	or	s0, s0, a4
	and	a4, a4, t4
	and	a3, a3, t4
	or	a7, a1, t0
	or	a0, s0, a2
	srli	s0, s0, 24
	srli	a1, a1, 24
	and	s0, s0, t4
	and	a1, a1, t4
	li	t4, 51
	srli	t0, s1, 4
	vrsub.vi	v8, v8, 15
	slli	a4, a4, 24
	slli	a3, a3, 24
	or	a5, a5, s0
	srli	a2, a0, 40
	srliw	a0, a0, 24
	or	a1, t5, a1
	srli	s0, a7, 40
	srliw	s1, a7, 24
	and	a2, a2, t1
	slli	a0, a0, 32
	and	s0, s0, t1
	slli	s1, s1, 32
	or	a2, a2, t6
	or	a0, a0, a4
	or	a4, s0, a6
	or	a3, a3, s1
	or	a2, a2, a5
	or	a0, t2, a0
	or	a1, a1, a4
	or	a3, t3, a3
	or	a0, a0, a2
	or	a1, a1, a3
	add	t0, t0, a1
	sltu	a1, t0, a1
	vsetivli	zero, 2, e64, m1, ta, ma
	vmv.v.x	v9, t0
	addi	a2, t0, 1
	addi	a3, t0, 2
	addi	a4, t0, 3
	addi	a5, t0, 4
	addi	s1, t0, 5
	addi	a6, t0, 6
	addi	s0, t0, 7
	add	a0, a0, a1
	seqz	a7, a2
	vmv.v.x	v10, a2
	sltu	a2, a3, t0
	vmv.v.x	v11, a3
	sltu	a3, a4, t0
	vmv.v.x	v12, a4
	sltu	a4, a5, t0
	vmv.v.x	v13, a5
	sltu	a5, s1, t0
	vmv.v.x	v14, s1
	sltu	s1, a6, t0
	vmv.v.x	v15, a6
	sltu	a1, s0, t0
	vmv.v.x	v16, s0
	vslide1down.vx	v9, v9, a0
	add	a7, a7, a0
	add	a2, a2, a0
	add	a3, a3, a0
	add	a4, a4, a0
	add	a5, a5, a0
	add	s1, s1, a0
	add	a1, a1, a0
	vsetivli	zero, 16, e8, m1, ta, ma
	vrgather.vv	v17, v9, v8
	vsetivli	zero, 2, e64, m1, ta, ma
	vslide1down.vx	v9, v10, a7
	vslide1down.vx	v10, v11, a2
	vslide1down.vx	v11, v12, a3
	vslide1down.vx	v12, v13, a4
	vslide1down.vx	v13, v14, a5
	vslide1down.vx	v14, v15, s1
	ld	a0, 72(sp)                      # 8-byte Folded Reload
	vslide1down.vx	v15, v16, a1
	vsetivli	zero, 16, e8, m1, ta, ma
	vrgather.vv	v16, v9, v8
	vrgather.vv	v9, v10, v8
	vrgather.vv	v10, v11, v8
	vrgather.vv	v11, v12, v8
	vrgather.vv	v12, v13, v8
	vrgather.vv	v13, v14, v8
	vrgather.vv	v14, v15, v8
	addi	a1, sp, 256
	vs1r.v	v18, (a1)                       # vscale x 8-byte Folded Spill
	vrgather.vv	v8, v17, v18
	vrgather.vv	v15, v16, v18
	vrgather.vv	v16, v9, v18
	vrgather.vv	v9, v10, v18
	vrgather.vv	v10, v11, v18
	vrgather.vv	v11, v12, v18
	vrgather.vv	v12, v13, v18
	vrgather.vv	v13, v14, v18
	vsrl.vi	v14, v8, 1
	vxor.vv	v14, v15, v14
	vsrl.vi	v17, v16, 1
	vsrl.vi	v18, v10, 1
	vsrl.vi	v19, v12, 1
	vand.vx	v14, v14, s10
	vxor.vv	v17, v9, v17
	vxor.vv	v18, v11, v18
	vxor.vv	v19, v13, v19
	vxor.vv	v15, v14, v15
	vadd.vv	v14, v14, v14
	vand.vx	v17, v17, s10
	vand.vx	v18, v18, s10
	vand.vx	v19, v19, s10
	vxor.vv	v8, v14, v8
	vxor.vv	v9, v17, v9
	vadd.vv	v14, v17, v17
	vxor.vv	v11, v18, v11
	vadd.vv	v17, v18, v18
	vxor.vv	v13, v19, v13
	vadd.vv	v18, v19, v19
	vsrl.vi	v19, v15, 2
	vxor.vv	v14, v14, v16
	vxor.vv	v10, v17, v10
	vxor.vv	v12, v18, v12
	vsrl.vi	v16, v8, 2
	vxor.vv	v17, v9, v19
	vsrl.vi	v18, v11, 2
	vxor.vv	v16, v14, v16
	vsrl.vi	v19, v10, 2
	vand.vx	v17, v17, t4
	vxor.vv	v18, v13, v18
	vand.vx	v16, v16, t4
	vxor.vv	v19, v12, v19
	vxor.vv	v9, v17, v9
	vsll.vi	v17, v17, 2
	vand.vx	v18, v18, t4
	vxor.vv	v14, v16, v14
	vsll.vi	v16, v16, 2
	vand.vx	v19, v19, t4
	vxor.vv	v15, v17, v15
	vxor.vv	v13, v18, v13
	vsll.vi	v17, v18, 2
	vsrl.vi	v18, v9, 4
	vxor.vv	v8, v16, v8
	vxor.vv	v12, v19, v12
	vsll.vi	v16, v19, 2
	vxor.vv	v11, v17, v11
	vsrl.vi	v17, v15, 4
	vsrl.vi	v19, v14, 4
	vand.vi	v20, v13, 15
	vxor.vv	v10, v16, v10
	vsrl.vi	v16, v8, 4
	vxor.vv	v18, v20, v18
	vand.vi	v20, v11, 15
	vxor.vv	v17, v20, v17
	vand.vi	v20, v12, 15
	vxor.vv	v19, v20, v19
	vand.vi	v20, v10, 15
	vxor.vv	v16, v20, v16
	vxor.vv	v13, v18, v13
	vsll.vi	v18, v18, 4
	vxor.vv	v9, v18, v9
	vxor.vv	v11, v17, v11
	vsll.vi	v17, v17, 4
	vxor.vv	v15, v17, v15
	addi	s0, sp, 112
	vxor.vv	v12, v19, v12
	vsll.vi	v17, v19, 4
	vxor.vv	v10, v16, v10
	vsll.vi	v16, v16, 4
	vxor.vv	v14, v17, v14
	mv	s5, s2
	addi	s2, sp, 128
	addi	s8, s2, 32
	vse8.v	v9, (s8)
	ld	s3, 48(sp)                      # 8-byte Folded Reload
	vse8.v	v11, (s3)
	ld	s7, 40(sp)                      # 8-byte Folded Reload
	vse8.v	v12, (s7)
	vxor.vv	v8, v16, v8
	vse8.v	v15, (s2)
	addi	s1, s2, 16
	vse8.v	v14, (s1)
	ld	s6, 64(sp)                      # 8-byte Folded Reload
	vse8.v	v10, (s6)
	vse8.v	v8, (s0)
	ld	s9, 32(sp)                      # 8-byte Folded Reload
	vse8.v	v13, (s9)
	addi	a2, sp, 112
	ld	a1, 24(sp)                      # 8-byte Folded Reload
	call	aes.aes_soft.soft.ciphers.planes.EncryptPlaneCipher.process_planes
	ld	a4, 80(sp)                      # 8-byte Folded Reload
	vsetivli	zero, 16, e32, m4, ta, ma
	vle8.v	v12, (s0)
	li	a0, 32
	lui	a1, 1048560
	vmv.s.x	v0, a1
.Laes_pcrel_hi70:
	auipc	a1, %pcrel_hi(.Laes_CPI12_1)
	addi	a1, a1, %pcrel_lo(.Laes_pcrel_hi70)
	vsetvli	zero, a0, e8, m2, ta, ma
	vle8.v	v8, (a1)
	vsetivli	zero, 16, e8, m1, ta, ma
	vle8.v	v14, (s2)
	mv	s2, s5
	vle8.v	v13, (s1)
	ld	s1, 56(sp)                      # 8-byte Folded Reload
	vle8.v	v17, (s8)
	vle8.v	v16, (s7)
	vle8.v	v15, (s6)
	vle8.v	v18, (s3)
	vle8.v	v19, (s9)
	vsrl.vi	v10, v16, 1
	vsrl.vi	v11, v15, 1
	vsrl.vi	v20, v13, 1
	vsrl.vi	v21, v12, 1
	vxor.vv	v10, v19, v10
	vxor.vv	v11, v18, v11
	vxor.vv	v22, v17, v20
	vxor.vv	v23, v14, v21
	vand.vx	v20, v10, s10
	vand.vx	v21, v11, s10
	vand.vx	v22, v22, s10
	vand.vx	v23, v23, s10
	csrr	a1, vlenb
	vsetvli	zero, a0, e8, m2, ta, ma
	vslidedown.vx	v10, v8, a1
	add	a1, s1, s11
	addi	a4, a4, -128
	vsetivli	zero, 16, e8, m1, ta, ma
	vadd.vv	v9, v20, v20
	vadd.vv	v11, v21, v21
	vadd.vv	v24, v22, v22
	vadd.vv	v25, v23, v23
	vxor.vv	v19, v20, v19
	vxor.vv	v18, v21, v18
	vxor.vv	v17, v22, v17
	vxor.vv	v14, v23, v14
	vxor.vv	v9, v9, v16
	vxor.vv	v11, v11, v15
	vxor.vv	v13, v24, v13
	vxor.vv	v12, v25, v12
	vsrl.vi	v15, v18, 2
	vsrl.vi	v16, v14, 2
	vsrl.vi	v20, v11, 2
	vsrl.vi	v21, v12, 2
	vxor.vv	v15, v19, v15
	vxor.vv	v16, v17, v16
	vxor.vv	v20, v9, v20
	vxor.vv	v21, v13, v21
	li	a2, 51
	vand.vx	v15, v15, a2
	vand.vx	v16, v16, a2
	vand.vx	v20, v20, a2
	vand.vx	v21, v21, a2
	addi	a2, a1, 96
	vle8.v	v22, (a2)
	vxor.vv	v19, v15, v19
	vxor.vv	v17, v16, v17
	vsll.vi	v15, v15, 2
	vsll.vi	v16, v16, 2
	vxor.vv	v9, v20, v9
	vxor.vv	v23, v21, v13
	vand.vi	v13, v19, 15
	vsrl.vi	v24, v17, 4
	vsll.vi	v20, v20, 2
	vsll.vi	v21, v21, 2
	vxor.vv	v15, v15, v18
	vxor.vv	v16, v16, v14
	vand.vi	v14, v9, 15
	vsrl.vi	v18, v23, 4
	vxor.vv	v13, v13, v24
	vxor.vv	v11, v20, v11
	vxor.vv	v21, v21, v12
	vand.vi	v12, v15, 15
	vsrl.vi	v20, v16, 4
	vxor.vv	v14, v14, v18
	vxor.vv	v18, v13, v19
	vand.vi	v19, v11, 15
	vsrl.vi	v24, v21, 4
	vxor.vv	v12, v12, v20
	vsll.vi	v20, v13, 4
	vxor.vv	v9, v14, v9
	vsetvli	a3, zero, e8, m1, ta, ma
	vrgather.vv	v13, v18, v10
	vsetivli	zero, 16, e8, m1, ta, ma
	vxor.vv	v19, v19, v24
	vxor.vv	v24, v12, v15
	vsll.vi	v25, v14, 4
	vxor.vv	v20, v20, v17
	vsll.vi	v26, v12, 4
	vsetvli	a3, zero, e8, m1, ta, ma
	vrgather.vv	v12, v18, v8
	addi	a3, sp, 256
	vl1r.v	v27, (a3)                       # vscale x 8-byte Folded Reload
	vsetivli	zero, 16, e8, m1, ta, ma
	vrgather.vv	v14, v9, v27
	vxor.vv	v9, v19, v11
	vsetvli	a3, zero, e8, m1, ta, ma
	vrgather.vv	v15, v24, v10
	vsetivli	zero, 16, e8, m1, ta, ma
	vxor.vv	v11, v25, v23
	vsetvli	a3, zero, e8, m1, ta, ma
	vrgather.vv	v17, v20, v10
	vsetivli	zero, 16, e8, m1, ta, ma
	vsll.vi	v19, v19, 4
	vxor.vv	v23, v26, v16
	vsetvli	zero, a0, e8, m2, ta, ma
	vmerge.vvm	v12, v14, v12, v0
	vsetvli	a3, zero, e8, m1, ta, ma
	vrgather.vv	v14, v24, v8
	vsetivli	zero, 16, e8, m1, ta, ma
	vrgather.vv	v18, v9, v27
	vsetvli	a3, zero, e8, m1, ta, ma
	vrgather.vv	v16, v20, v8
	vsetivli	zero, 16, e8, m1, ta, ma
	vrgather.vv	v20, v11, v27
	vxor.vv	v9, v19, v21
	vsetvli	a3, zero, e8, m1, ta, ma
	vrgather.vv	v19, v23, v10
	vsetvli	zero, a0, e8, m2, ta, ma
	vmerge.vvm	v10, v18, v14, v0
	vmerge.vvm	v14, v20, v16, v0
	vsetvli	a3, zero, e8, m1, ta, ma
	vrgather.vv	v18, v23, v8
	vsetivli	zero, 16, e8, m1, ta, ma
	vrgather.vv	v8, v9, v27
	vsetvli	zero, a0, e8, m2, ta, ma
	vmerge.vvm	v8, v8, v18, v0
	addi	a0, a1, 32
	vsetivli	zero, 16, e8, m1, ta, ma
	vle8.v	v16, (a0)
	vxor.vv	v17, v12, v22
	vse8.v	v17, (a2)
	addi	a2, a1, 64
	vle8.v	v17, (a2)
	vxor.vv	v16, v14, v16
	vse8.v	v16, (a0)
	addi	a0, a1, 112
	vle8.v	v16, (a0)
	vxor.vv	v17, v10, v17
	vse8.v	v17, (a2)
	addi	a2, a1, 48
	vle8.v	v17, (a2)
	vsetivli	zero, 16, e8, m2, ta, ma
	vslidedown.vi	v12, v12, 16
	vsetivli	zero, 16, e8, m1, ta, ma
	vxor.vv	v12, v12, v16
	vse8.v	v12, (a0)
	li	a0, 127
	vle8.v	v16, (a1)
	vsetivli	zero, 16, e8, m2, ta, ma
	vslidedown.vi	v12, v14, 16
	vsetivli	zero, 16, e8, m1, ta, ma
	vxor.vv	v12, v12, v17
	vse8.v	v12, (a2)
	addi	a2, a1, 16
	vxor.vv	v12, v8, v16
	vse8.v	v12, (a1)
	addi	a1, a1, 80
	vle8.v	v12, (a1)
	vle8.v	v13, (a2)
	vsetivli	zero, 16, e8, m2, ta, ma
	vslidedown.vi	v10, v10, 16
	vslidedown.vi	v8, v8, 16
	vsetivli	zero, 16, e8, m1, ta, ma
	vxor.vv	v9, v10, v12
	vxor.vv	v8, v8, v13
	vse8.v	v9, (a1)
	vse8.v	v8, (a2)
	addi	s11, s11, 128
	bltu	a0, a4, .Laes_BB12_6
.Laes_BB12_7:                               # %loop.13.preheader.i.i
	ld	s0, 16(sp)                      # 8-byte Folded Reload
	bgeu	s11, s0, .Laes_BB12_9
.Laes_BB12_8:                               # %join.16.i.i
                                        # =>This Inner Loop Header: Depth=1
	addi	a0, sp, 88
	mv	a1, s4
	mv	a2, s2
	mv	a3, s11
	mv	a4, s1
	mv	a5, s0
	call	aes.aes_ctr.add_in_batches.add_next.1
	mv	s11, a0
	bltu	a0, s0, .Laes_BB12_8
.Laes_BB12_9:                               # %"aes_ctr::add_in_batches::AddStreamBlockCipherEncClosure::call::<#8328edac2e5961b6>.exit"
	csrr	a0, vlenb
	add	sp, sp, a0
	ld	ra, 360(sp)                     # 8-byte Folded Reload
	ld	s0, 352(sp)                     # 8-byte Folded Reload
	ld	s1, 344(sp)                     # 8-byte Folded Reload
	ld	s2, 336(sp)                     # 8-byte Folded Reload
	ld	s3, 328(sp)                     # 8-byte Folded Reload
	ld	s4, 320(sp)                     # 8-byte Folded Reload
	ld	s5, 312(sp)                     # 8-byte Folded Reload
	ld	s6, 304(sp)                     # 8-byte Folded Reload
	ld	s7, 296(sp)                     # 8-byte Folded Reload
	ld	s8, 288(sp)                     # 8-byte Folded Reload
	ld	s9, 280(sp)                     # 8-byte Folded Reload
	ld	s10, 272(sp)                    # 8-byte Folded Reload
	ld	s11, 264(sp)                    # 8-byte Folded Reload
	addi	sp, sp, 368
	ret
.Laes_func_end12:
	.size	aes.aes_hybrid.closures.call_to_work.1, .Laes_func_end12-aes.aes_hybrid.closures.call_to_work.1
                                        # -- End function
	.section	.rodata.cst16,"aM",@progbits,16
	.p2align	4, 0x0                          # -- Begin function aes_ctr::add_in_batches::add_next::<#f3c9f23e0dfa84c8>
.Laes_CPI13_0:
	.byte	0                               # 0x0
	.byte	4                               # 0x4
	.byte	8                               # 0x8
	.byte	12                              # 0xc
	.byte	1                               # 0x1
	.byte	5                               # 0x5
	.byte	9                               # 0x9
	.byte	13                              # 0xd
	.byte	2                               # 0x2
	.byte	6                               # 0x6
	.byte	10                              # 0xa
	.byte	14                              # 0xe
	.byte	3                               # 0x3
	.byte	7                               # 0x7
	.byte	11                              # 0xb
	.byte	15                              # 0xf
	.section	.rodata.cst32,"aM",@progbits,32
	.p2align	5, 0x0
.Laes_CPI13_1:
	.zero	1
	.zero	1
	.zero	1
	.zero	1
	.zero	1
	.zero	1
	.zero	1
	.zero	1
	.zero	1
	.zero	1
	.zero	1
	.zero	1
	.zero	1
	.zero	1
	.zero	1
	.zero	1
	.byte	0                               # 0x0
	.byte	4                               # 0x4
	.byte	8                               # 0x8
	.byte	12                              # 0xc
	.byte	1                               # 0x1
	.byte	5                               # 0x5
	.byte	9                               # 0x9
	.byte	13                              # 0xd
	.byte	2                               # 0x2
	.byte	6                               # 0x6
	.byte	10                              # 0xa
	.byte	14                              # 0xe
	.byte	3                               # 0x3
	.byte	7                               # 0x7
	.byte	11                              # 0xb
	.byte	15                              # 0xf
	.section	.text.aes.aes_ctr.add_in_batches.add_next.1,"ax",@progbits
	.p2align	1
	.type	aes.aes_ctr.add_in_batches.add_next.1,@function
aes.aes_ctr.add_in_batches.add_next.1: # @aes.aes_ctr.add_in_batches.add_next.1
# %bb.0:                                # %start
	addi	sp, sp, -544
	sd	ra, 536(sp)                     # 8-byte Folded Spill
	sd	s0, 528(sp)                     # 8-byte Folded Spill
	sd	s1, 520(sp)                     # 8-byte Folded Spill
	sd	s2, 512(sp)                     # 8-byte Folded Spill
	sd	s3, 504(sp)                     # 8-byte Folded Spill
	sd	s4, 496(sp)                     # 8-byte Folded Spill
	sd	s5, 488(sp)                     # 8-byte Folded Spill
	sd	s6, 480(sp)                     # 8-byte Folded Spill
	sd	s7, 472(sp)                     # 8-byte Folded Spill
	sd	s8, 464(sp)                     # 8-byte Folded Spill
	sd	s9, 456(sp)                     # 8-byte Folded Spill
	sd	s10, 448(sp)                    # 8-byte Folded Spill
	sd	s11, 440(sp)                    # 8-byte Folded Spill
	csrr	t1, vlenb
	li	t2, 3
	slli	t2, t2, 10
.Laes_BB13_1:                               # %start
                                        # =>This Inner Loop Header: Depth=1
	sub	sp, sp, t2
	sd	zero, 0(sp)
	sub	t1, t1, t2
	bge	t1, t2, .Laes_BB13_1
# %bb.2:                                # %start
	sub	sp, sp, t1
	mv	s4, a5
	sd	a4, 24(sp)                      # 8-byte Folded Spill
	mv	s3, a3
	mv	s5, a2
	mv	s0, a1
	mv	s8, a0
	addi	s9, sp, 48
	addi	s6, sp, 64
	addi	s11, sp, 80
	addi	s2, sp, 96
	addi	s7, sp, 112
	addi	s10, sp, 128
	addi	a0, sp, 32
	li	a2, 256
	li	a1, 0
	la	t1, memset
	jalr	t1
	lbu	a1, 8(s0)
	lbu	t2, 9(s0)
	lbu	s1, 10(s0)
	lbu	a0, 11(s0)
	lbu	a2, 12(s0)
	lbu	t0, 13(s0)
	lbu	t1, 14(s0)
	lbu	a6, 15(s0)
	lbu	a3, 0(s0)
	lbu	t6, 1(s0)
	lbu	ra, 2(s0)
	lbu	a5, 3(s0)
	lbu	a4, 4(s0)
	lbu	t3, 5(s0)
	lbu	t4, 6(s0)
	lbu	a7, 7(s0)
	slli	a0, a0, 24
	slli	a2, a2, 32
	or	a0, a0, a2
	li	t5, 255
	slli	a5, a5, 24
	slli	a2, a4, 32
	or	a2, a2, a5
	lui	a5, 4080
	slli	t2, t2, 8
	slli	s1, s1, 16
	or	s0, t2, a1
	or	s0, s0, s1
	lui	a4, 16
	add	t2, s3, s5
	vsetivli	zero, 16, e8, m1, ta, ma
	vid.v	v8
	slli	t5, t5, 24
	addi	a4, a4, -256
	slli	t6, t6, 8
	slli	ra, ra, 16
	or	s1, t6, a3
	slli	t6, a3, 56
	or	s1, s1, ra
	or	a0, a0, s0
	or	a2, a2, s1
	and	s1, s1, a4
	srli	a3, a2, 8
	slli	s1, s1, 40
	or	t6, t6, s1
	srli	s1, a0, 8
	and	ra, a3, t5
	and	s5, s1, t5
	srli	t5, t2, 4
	vrsub.vi	v8, v8, 15
	slli	t0, t0, 40
	slli	t1, t1, 48
	slli	t3, t3, 40
	slli	t4, t4, 48
	slli	a1, a1, 56
	and	s0, s0, a4
	or	s1, a0, t0
	or	a3, a2, t3
	and	a2, a2, a5
	and	t0, a0, a5
	slli	t3, s0, 40
	or	a0, s1, t1
	or	s0, a3, t4
	srli	a3, a3, 24
	slli	a2, a2, 24
	srli	s1, s1, 24
	slli	t0, t0, 24
	or	t1, a1, t3
	and	a3, a3, a5
	srli	a1, s0, 40
	srliw	s0, s0, 24
	and	a5, a5, s1
	srli	s1, a0, 40
	srliw	a0, a0, 24
	or	a3, ra, a3
	and	a1, a1, a4
	slli	s0, s0, 32
	or	a5, s5, a5
	and	a4, a4, s1
	slli	a0, a0, 32
	or	a1, a1, a7
	or	a2, a2, s0
	or	a4, a4, a6
	or	a0, t0, a0
	or	a1, a1, a3
	or	a2, t6, a2
	or	a4, a4, a5
	or	a0, t1, a0
	or	a1, a1, a2
	or	a4, a4, a0
	add	a0, a4, t5
	sltu	a2, a0, a4
	vsetivli	zero, 2, e64, m1, ta, ma
	vmv.v.x	v9, a0
	addi	a6, a0, 1
	addi	a7, a0, 2
	addi	t0, a0, 3
	addi	t1, a0, 4
	addi	t3, a0, 5
	addi	t4, a0, 6
	addi	a4, a0, 7
	add	a1, a1, a2
	seqz	t5, a6
	vmv.v.x	v10, a6
	sltu	t6, a7, a0
	vmv.v.x	v11, a7
	sltu	s1, t0, a0
	vmv.v.x	v12, t0
	sltu	s0, t1, a0
	vmv.v.x	v13, t1
	sltu	a3, t3, a0
	vmv.v.x	v14, t3
	sltu	a2, t4, a0
	vmv.v.x	v15, t4
	sltu	a0, a4, a0
	vslide1down.vx	v9, v9, a1
	vsetivli	zero, 16, e8, m1, ta, ma
	vrgather.vv	v16, v9, v8
	addi	a5, sp, 32
	vse8.v	v16, (a5)
	vsetivli	zero, 2, e64, m1, ta, ma
	vmv.v.x	v9, a4
	add	t5, t5, a1
	add	a5, a1, t6
	add	s1, s1, a1
	add	s0, s0, a1
	add	a3, a3, a1
	add	a2, a2, a1
	add	a0, a0, a1
	vslide1down.vx	v10, v10, t5
	vslide1down.vx	v11, v11, a5
	addi	a5, sp, 144
	vslide1down.vx	v12, v12, s1
	vslide1down.vx	v13, v13, s0
	vslide1down.vx	v14, v14, a3
	vslide1down.vx	v15, v15, a2
	vslide1down.vx	v9, v9, a0
	vsetivli	zero, 16, e8, m1, ta, ma
	vrgather.vv	v16, v10, v8
	vrgather.vv	v10, v11, v8
	vrgather.vv	v11, v12, v8
	vrgather.vv	v12, v13, v8
	vrgather.vv	v13, v14, v8
	vrgather.vv	v14, v15, v8
	vrgather.vv	v15, v9, v8
	vse8.v	v16, (s9)
	mv	a4, s6
	vse8.v	v10, (s6)
	vse8.v	v11, (s11)
	mv	a3, s2
	vse8.v	v12, (s2)
	vse8.v	v13, (s7)
	li	a0, 128
	sub	s5, s4, s3
	andi	s0, t2, 15
	sub	a0, a0, s0
	mv	a2, s10
	vse8.v	v14, (s10)
	vse8.v	v15, (a5)
	bltu	s5, a0, .Laes_BB13_4
# %bb.3:                                # %start
	mv	s5, a0
.Laes_BB13_4:                               # %start
	add	a0, s5, s0
	li	a1, 80
	bltu	a1, a0, .Laes_BB13_12
# %bb.5:                                # %then.1.i.i
	ld	a1, 0(s8)
	lbu	a6, 16(a1)
	lbu	a3, 17(a1)
	lbu	a4, 18(a1)
	lbu	a5, 19(a1)
	lbu	s1, 20(a1)
	lbu	a2, 21(a1)
	lbu	a7, 22(a1)
	lbu	t0, 23(a1)
	slli	a3, a3, 8
	slli	a4, a4, 16
	slli	a5, a5, 24
	slli	a2, a2, 8
	or	a6, a3, a6
	or	t2, a5, a4
	or	t1, a2, s1
	lbu	a5, 24(a1)
	lbu	s1, 25(a1)
	lbu	a3, 26(a1)
	lbu	a2, 27(a1)
	slli	a7, a7, 16
	slli	t0, t0, 24
	slli	s1, s1, 8
	slli	a3, a3, 16
	slli	a2, a2, 24
	or	a7, t0, a7
	or	t0, s1, a5
	or	a2, a2, a3
	lbu	a3, 29(a1)
	lbu	s1, 28(a1)
	lbu	a4, 30(a1)
	lbu	a1, 31(a1)
	slli	a3, a3, 8
	or	s1, s1, a3
	slli	a4, a4, 16
	slli	a1, a1, 24
	or	a1, a1, a4
	or	a4, t2, a6
	or	a5, a7, t1
	or	a2, a2, t0
	addi	a0, a0, 15
	srli	a3, a0, 4
	or	a1, a1, s1
	slli	a0, a5, 32
	slli	a1, a1, 32
	or	a0, a0, a4
	or	a1, a1, a2
	addi	a2, sp, 32
	call	aes.aes_permute.blocks.process_on_lanes.1
	ld	s2, 24(sp)                      # 8-byte Folded Reload
	add	s2, s2, s3
	beqz	s0, .Laes_BB13_13
.Laes_BB13_6:                               # %then.1.i
	li	a1, 16
	sub	a1, a1, s0
	mv	a0, s5
	bltu	s5, a1, .Laes_BB13_8
# %bb.7:                                # %then.1.i
	mv	a0, a1
.Laes_BB13_8:                               # %then.1.i
	beq	s4, s3, .Laes_BB13_11
# %bb.9:                                # %join.8.i80.lr.ph
	li	a1, 0
	addi	a2, sp, 32
	or	a2, a2, s0
	mv	a3, a0
.Laes_BB13_10:                              # %vector.body
                                        # =>This Inner Loop Header: Depth=1
	vsetvli	a4, a3, e8, m1, ta, ma
	add	a5, a2, a1
	vle8.v	v8, (a5)
	add	a5, s2, a1
	vle8.v	v9, (a5)
	sub	a3, a3, a4
	vxor.vv	v8, v9, v8
	vse8.v	v8, (a5)
	add	a1, a1, a4
	bnez	a3, .Laes_BB13_10
.Laes_BB13_11:                              # %join.3.i
	sub	a1, s5, a0
	li	a2, 16
	bgeu	a1, a2, .Laes_BB13_14
	j	.Laes_BB13_16
.Laes_BB13_12:                              # %else.2.i.i
	addi	a1, sp, 32
	vle8.v	v8, (s9)
	vle8.v	v9, (a4)
	vle8.v	v10, (s11)
	vle8.v	v11, (a3)
	vle8.v	v12, (s7)
	mv	s9, a2
	vle8.v	v13, (a2)
.Laes_pcrel_hi71:
	auipc	a0, %pcrel_hi(.Laes_CPI13_0)
	vle8.v	v14, (a1)
	addi	a0, a0, %pcrel_lo(.Laes_pcrel_hi71)
	vle8.v	v16, (a0)
	vle8.v	v15, (a5)
	li	a1, 85
	li	a0, 51
	vmv1r.v	v17, v16
	addi	a2, sp, 432
	vs1r.v	v16, (a2)                       # vscale x 8-byte Folded Spill
	vrgather.vv	v16, v14, v17
	vrgather.vv	v14, v8, v17
	vrgather.vv	v8, v9, v17
	vrgather.vv	v9, v10, v17
	vrgather.vv	v10, v11, v17
	vrgather.vv	v11, v12, v17
	vrgather.vv	v12, v13, v17
	vrgather.vv	v13, v15, v17
	vsrl.vi	v15, v16, 1
	vsrl.vi	v17, v8, 1
	vsrl.vi	v18, v10, 1
	vsrl.vi	v19, v12, 1
	vxor.vv	v15, v14, v15
	vxor.vv	v17, v9, v17
	vxor.vv	v18, v11, v18
	vxor.vv	v19, v13, v19
	vand.vx	v15, v15, a1
	vand.vx	v17, v17, a1
	vand.vx	v18, v18, a1
	vand.vx	v19, v19, a1
	vxor.vv	v14, v15, v14
	vadd.vv	v15, v15, v15
	vxor.vv	v9, v17, v9
	vadd.vv	v17, v17, v17
	vxor.vv	v11, v18, v11
	vadd.vv	v18, v18, v18
	vxor.vv	v13, v19, v13
	vadd.vv	v19, v19, v19
	vxor.vv	v15, v15, v16
	vxor.vv	v8, v17, v8
	vxor.vv	v16, v18, v10
	vxor.vv	v10, v19, v12
	vsrl.vi	v12, v14, 2
	vsrl.vi	v17, v11, 2
	vsrl.vi	v18, v15, 2
	vsrl.vi	v19, v16, 2
	vxor.vv	v12, v9, v12
	vxor.vv	v17, v13, v17
	vxor.vv	v18, v8, v18
	vxor.vv	v19, v10, v19
	vand.vx	v12, v12, a0
	vand.vx	v17, v17, a0
	vand.vx	v18, v18, a0
	vand.vx	v19, v19, a0
	vxor.vv	v20, v12, v9
	vsll.vi	v12, v12, 2
	vxor.vv	v21, v17, v13
	vsll.vi	v13, v17, 2
	vxor.vv	v8, v18, v8
	vsll.vi	v17, v18, 2
	vxor.vv	v9, v19, v10
	vsll.vi	v18, v19, 2
	vxor.vv	v14, v12, v14
	vxor.vv	v19, v13, v11
	vsrl.vi	v12, v20, 4
	vand.vi	v13, v21, 15
	vxor.vv	v10, v17, v15
	vxor.vv	v11, v18, v16
	vsrl.vi	v15, v14, 4
	vand.vi	v16, v19, 15
	vsrl.vi	v17, v8, 4
	vxor.vv	v18, v13, v12
	vand.vi	v12, v9, 15
	vxor.vv	v22, v16, v15
	vsrl.vi	v13, v10, 4
	vxor.vv	v15, v12, v17
	vand.vi	v12, v11, 15
	vxor.vv	v13, v12, v13
	vxor.vv	v12, v18, v21
	vsll.vi	v16, v18, 4
	vxor.vv	v17, v16, v20
	vxor.vv	v16, v22, v19
	vsll.vi	v18, v22, 4
	vxor.vv	v14, v18, v14
	lbu	a0, 8(s8)
	lbu	a1, 9(s8)
	lbu	a2, 10(s8)
	lbu	a3, 11(s8)
	lbu	a4, 12(s8)
	lbu	a5, 13(s8)
	lbu	s1, 14(s8)
	lbu	a6, 15(s8)
	slli	a1, a1, 8
	slli	a2, a2, 16
	slli	a3, a3, 24
	slli	a5, a5, 8
	or	t0, a1, a0
	or	t1, a3, a2
	or	a7, a5, a4
	lbu	a1, 16(s8)
	lbu	a3, 17(s8)
	lbu	a5, 18(s8)
	lbu	a4, 19(s8)
	slli	s1, s1, 16
	slli	a6, a6, 24
	slli	a3, a3, 8
	slli	a5, a5, 16
	slli	a4, a4, 24
	or	a6, a6, s1
	or	a1, a1, a3
	or	a4, a4, a5
	lbu	a3, 21(s8)
	lbu	a5, 20(s8)
	lbu	a0, 22(s8)
	lbu	a2, 23(s8)
	slli	a3, a3, 8
	or	a3, a3, a5
	addi	s1, sp, 304
	slli	a0, a0, 16
	slli	a2, a2, 24
	or	a0, a0, a2
	addi	s7, sp, 288
	or	a2, t1, t0
	addi	s8, s1, 16
	or	a5, a6, a7
	addi	s10, s1, 32
	or	a1, a1, a4
	addi	s11, s1, 48
	or	a3, a3, a0
	addi	s2, s1, 64
	slli	a0, a5, 32
	or	a0, a0, a2
	mv	s6, s3
	addi	s3, s1, 80
	slli	a3, a3, 32
	or	a1, a1, a3
	sd	s4, 16(sp)                      # 8-byte Folded Spill
	addi	s4, s1, 96
	srli	a1, a1, 3
	addi	a1, a1, -1
	vxor.vv	v9, v15, v9
	vsll.vi	v15, v15, 4
	vxor.vv	v11, v13, v11
	vsll.vi	v13, v13, 4
	vxor.vv	v8, v15, v8
	vse8.v	v17, (s10)
	vse8.v	v16, (s2)
	vse8.v	v9, (s3)
	vxor.vv	v9, v13, v10
	vse8.v	v14, (s1)
	vse8.v	v8, (s8)
	vse8.v	v11, (s11)
	vse8.v	v9, (s7)
	vse8.v	v12, (s4)
	addi	a2, sp, 288
	call	aes.aes_soft.soft.ciphers.planes.EncryptPlaneCipher.process_planes
	vsetivli	zero, 16, e8, m1, ta, ma
	vle8.v	v12, (s7)
	vle8.v	v16, (s1)
	vle8.v	v13, (s8)
	vle8.v	v17, (s10)
	vle8.v	v14, (s11)
	vle8.v	v18, (s2)
	vle8.v	v15, (s3)
	mv	s3, s6
	vle8.v	v19, (s4)
	ld	s4, 16(sp)                      # 8-byte Folded Reload
	li	a0, 32
.Laes_pcrel_hi72:
	auipc	a2, %pcrel_hi(.Laes_CPI13_1)
	csrr	a3, vlenb
	lui	a1, 1048560
	addi	a2, a2, %pcrel_lo(.Laes_pcrel_hi72)
	vsetvli	zero, a0, e8, m2, ta, ma
	vle8.v	v8, (a2)
	vsetivli	zero, 16, e8, m1, ta, ma
	vsrl.vi	v10, v12, 1
	vsrl.vi	v11, v13, 1
	vsrl.vi	v20, v14, 1
	vsrl.vi	v21, v15, 1
	vxor.vv	v10, v16, v10
	vxor.vv	v11, v17, v11
	vxor.vv	v20, v18, v20
	vxor.vv	v21, v19, v21
	li	a2, 85
	vand.vx	v22, v10, a2
	vand.vx	v23, v11, a2
	vand.vx	v20, v20, a2
	vand.vx	v21, v21, a2
	vsetvli	zero, a0, e8, m2, ta, ma
	vslidedown.vx	v10, v8, a3
	vsetivli	zero, 16, e8, m1, ta, ma
	vxor.vv	v9, v22, v16
	vadd.vv	v11, v22, v22
	vxor.vv	v16, v23, v17
	vadd.vv	v17, v23, v23
	vxor.vv	v18, v20, v18
	vadd.vv	v20, v20, v20
	vxor.vv	v19, v21, v19
	vadd.vv	v21, v21, v21
	vxor.vv	v11, v11, v12
	vxor.vv	v12, v17, v13
	vxor.vv	v13, v20, v14
	vxor.vv	v14, v21, v15
	vsrl.vi	v15, v9, 2
	vsrl.vi	v17, v18, 2
	vsrl.vi	v20, v11, 2
	vsrl.vi	v21, v13, 2
	vxor.vv	v15, v16, v15
	vxor.vv	v17, v19, v17
	vxor.vv	v20, v12, v20
	vxor.vv	v21, v14, v21
	li	a2, 51
	vand.vx	v15, v15, a2
	vand.vx	v17, v17, a2
	vand.vx	v20, v20, a2
	vand.vx	v21, v21, a2
	vxor.vv	v16, v15, v16
	vsll.vi	v15, v15, 2
	vxor.vv	v19, v17, v19
	vsll.vi	v17, v17, 2
	vxor.vv	v22, v20, v12
	vsll.vi	v12, v20, 2
	vxor.vv	v20, v21, v14
	vsll.vi	v14, v21, 2
	vxor.vv	v9, v15, v9
	vxor.vv	v15, v17, v18
	vsrl.vi	v17, v16, 4
	vand.vi	v18, v19, 15
	vxor.vv	v21, v12, v11
	vxor.vv	v23, v14, v13
	vsrl.vi	v11, v9, 4
	vand.vi	v12, v15, 15
	vxor.vv	v13, v18, v17
	vxor.vv	v11, v12, v11
	vxor.vv	v14, v13, v19
	vsll.vi	v12, v13, 4
	vxor.vv	v18, v11, v15
	vsll.vi	v11, v11, 4
	vxor.vv	v15, v12, v16
	vsetvli	a2, zero, e8, m1, ta, ma
	vrgather.vv	v13, v14, v10
	vsetivli	zero, 16, e8, m1, ta, ma
	vxor.vv	v9, v11, v9
	vsetvli	a2, zero, e8, m1, ta, ma
	vrgather.vv	v17, v15, v10
	vrgather.vv	v12, v14, v8
	vrgather.vv	v16, v15, v8
	vrgather.vv	v15, v18, v10
	vrgather.vv	v14, v18, v8
	vsetvli	zero, zero, e32, m4, ta, ma
	vmv.s.x	v0, a1
	vsetvli	zero, zero, e8, m1, ta, ma
	vrgather.vv	v11, v9, v10
	vrgather.vv	v10, v9, v8
	vsetivli	zero, 16, e8, m1, ta, ma
	vsrl.vi	v8, v22, 4
	vand.vi	v9, v20, 15
	vsrl.vi	v18, v21, 4
	vxor.vv	v8, v9, v8
	vand.vi	v9, v23, 15
	vxor.vv	v9, v9, v18
	vxor.vv	v18, v8, v20
	vsll.vi	v8, v8, 4
	vxor.vv	v19, v9, v23
	vsll.vi	v9, v9, 4
	vxor.vv	v20, v8, v22
	addi	a1, sp, 432
	vl1r.v	v22, (a1)                       # vscale x 8-byte Folded Reload
	vrgather.vv	v8, v18, v22
	vxor.vv	v9, v9, v21
	vrgather.vv	v18, v9, v22
	vsetvli	zero, a0, e8, m2, ta, ma
	vmerge.vvm	v10, v18, v10, v0
	vsetivli	zero, 16, e8, m1, ta, ma
	vrgather.vv	v18, v20, v22
	vrgather.vv	v20, v19, v22
	vsetvli	zero, a0, e8, m2, ta, ma
	vmerge.vvm	v16, v18, v16, v0
	addi	a0, sp, 32
	vse8.v	v10, (a0)
	addi	a0, sp, 64
	vse8.v	v16, (a0)
	vmerge.vvm	v10, v20, v14, v0
	addi	a0, sp, 96
	vse8.v	v10, (a0)
	vmerge.vvm	v8, v8, v12, v0
	vse8.v	v8, (s9)
	ld	s2, 24(sp)                      # 8-byte Folded Reload
	add	s2, s2, s6
	bnez	s0, .Laes_BB13_6
.Laes_BB13_13:
	li	a0, 0
	mv	a1, s5
	li	a2, 16
	bltu	s5, a2, .Laes_BB13_16
.Laes_BB13_14:                              # %join.8.i.preheader
	vsetivli	zero, 16, e8, m1, ta, ma
.Laes_BB13_15:                              # %join.8.i
                                        # =>This Inner Loop Header: Depth=1
	add	a2, s0, a0
	addi	a3, sp, 32
	andi	a2, a2, -16
	add	a2, a2, a3
	add	a3, s2, a0
	vle8.v	v8, (a3)
	vle8.v	v9, (a2)
	addi	a0, a0, 16
	addi	a1, a1, -16
	vxor.vv	v8, v9, v8
	li	a2, 15
	vse8.v	v8, (a3)
	bltu	a2, a1, .Laes_BB13_15
.Laes_BB13_16:                              # %after.4.i
	bgeu	a0, s5, .Laes_BB13_20
# %bb.17:                               # %then.9.i
	beqz	a1, .Laes_BB13_20
# %bb.18:                               # %vector.body157.preheader
	li	a2, 0
	add	s0, s0, a0
	addi	a3, sp, 32
	andi	s0, s0, -16
	add	a3, a3, s0
	add	a0, a0, s2
.Laes_BB13_19:                              # %vector.body157
                                        # =>This Inner Loop Header: Depth=1
	vsetvli	a4, a1, e8, m2, ta, ma
	add	a5, a3, a2
	vle8.v	v8, (a5)
	add	a5, a0, a2
	vle8.v	v10, (a5)
	sub	a1, a1, a4
	vxor.vv	v8, v10, v8
	vse8.v	v8, (a5)
	add	a2, a2, a4
	bnez	a1, .Laes_BB13_19
.Laes_BB13_20:                              # %"aes_ctr::add_blocks::add_blocks.exit"
	add	a0, s5, s3
	csrr	a1, vlenb
	add	sp, sp, a1
	ld	ra, 536(sp)                     # 8-byte Folded Reload
	ld	s0, 528(sp)                     # 8-byte Folded Reload
	ld	s1, 520(sp)                     # 8-byte Folded Reload
	ld	s2, 512(sp)                     # 8-byte Folded Reload
	ld	s3, 504(sp)                     # 8-byte Folded Reload
	ld	s4, 496(sp)                     # 8-byte Folded Reload
	ld	s5, 488(sp)                     # 8-byte Folded Reload
	ld	s6, 480(sp)                     # 8-byte Folded Reload
	ld	s7, 472(sp)                     # 8-byte Folded Reload
	ld	s8, 464(sp)                     # 8-byte Folded Reload
	ld	s9, 456(sp)                     # 8-byte Folded Reload
	ld	s10, 448(sp)                    # 8-byte Folded Reload
	ld	s11, 440(sp)                    # 8-byte Folded Reload
	addi	sp, sp, 544
	ret
.Laes_func_end13:
	.size	aes.aes_ctr.add_in_batches.add_next.1, .Laes_func_end13-aes.aes_ctr.add_in_batches.add_next.1
                                        # -- End function
	.section	.text.aes.aes_cipher.zeroize.stack.wipe_stack.2032,"ax",@progbits
	.p2align	1                               # -- Begin function aes_cipher::zeroize::stack::wipe_stack::<=2032>
	.type	aes.aes_cipher.zeroize.stack.wipe_stack.2032,@function
aes.aes_cipher.zeroize.stack.wipe_stack.2032: # @aes.aes_cipher.zeroize.stack.wipe_stack.2032
# %bb.0:                                # %start
	addi	sp, sp, -496
	sd	ra, 488(sp)                     # 8-byte Folded Spill
	sd	s0, 480(sp)                     # 8-byte Folded Spill
	sd	s1, 472(sp)                     # 8-byte Folded Spill
	addi	sp, sp, -1584
	addi	s0, sp, 24
	addi	a0, sp, 24
	li	a2, 2032
	li	s1, 2032
	li	a1, 0
	la	t1, memset
	jalr	t1
	sd	zero, 16(sp)
	#APP
	#NO_APP
	fence	rw, rw
	ld	a0, 16(sp)
	fence	r, rw
	#APP
	#NO_APP
	bgeu	a0, s1, .Laes_BB14_2
# %bb.1:                                # %then.1
	add	a0, a0, s0
	lbu	a0, 0(a0)
	#APP
	#NO_APP
	addi	a1, sp, 16
	amoswap.d.aqrl	zero, a0, (a1)
	#APP
	#NO_APP
.Laes_BB14_2:                               # %common.ret
	addi	sp, sp, 1584
	ld	ra, 488(sp)                     # 8-byte Folded Reload
	ld	s0, 480(sp)                     # 8-byte Folded Reload
	ld	s1, 472(sp)                     # 8-byte Folded Reload
	addi	sp, sp, 496
	ret
.Laes_func_end14:
	.size	aes.aes_cipher.zeroize.stack.wipe_stack.2032, .Laes_func_end14-aes.aes_cipher.zeroize.stack.wipe_stack.2032
                                        # -- End function
	.section	.text.aes.aes_ctr.add_in_batches.add_next.2,"ax",@progbits
	.p2align	1                               # -- Begin function aes_ctr::add_in_batches::add_next::<#2d16df7ebc44f3ac>
	.type	aes.aes_ctr.add_in_batches.add_next.2,@function
aes.aes_ctr.add_in_batches.add_next.2: # @aes.aes_ctr.add_in_batches.add_next.2
# %bb.0:                                # %start
	addi	sp, sp, -368
	sd	ra, 360(sp)                     # 8-byte Folded Spill
	sd	s0, 352(sp)                     # 8-byte Folded Spill
	sd	s1, 344(sp)                     # 8-byte Folded Spill
	sd	s2, 336(sp)                     # 8-byte Folded Spill
	sd	s3, 328(sp)                     # 8-byte Folded Spill
	sd	s4, 320(sp)                     # 8-byte Folded Spill
	sd	s5, 312(sp)                     # 8-byte Folded Spill
	sd	s6, 304(sp)                     # 8-byte Folded Spill
	sd	s7, 296(sp)                     # 8-byte Folded Spill
	sd	s8, 288(sp)                     # 8-byte Folded Spill
	sd	s9, 280(sp)                     # 8-byte Folded Spill
	sd	s10, 272(sp)                    # 8-byte Folded Spill
	sd	s11, 264(sp)                    # 8-byte Folded Spill
	mv	s4, a5
	mv	s2, a4
	mv	s5, a3
	mv	s0, a1
	mv	s8, a0
	add	a2, a2, a3
	li	a0, 64
	andi	s7, a2, 15
	sub	a0, a0, s7
	sub	s6, a5, a3
	bltu	s6, a0, .Laes_BB15_2
# %bb.1:                                # %start
	mv	s6, a0
.Laes_BB15_2:                               # %start
	add	a0, s7, s6
	srli	s9, a2, 4
	addi	a0, a0, 15
	srli	s3, a0, 4
	addi	a0, sp, 72
	li	a2, 192
	li	a1, 0
	la	t1, memset
	jalr	t1
	lbu	ra, 0(s0)
	lbu	a3, 1(s0)
	lbu	a4, 2(s0)
	lbu	a0, 3(s0)
	lbu	s11, 8(s0)
	lbu	t5, 9(s0)
	lbu	t6, 10(s0)
	lbu	a5, 11(s0)
	lbu	a2, 4(s0)
	lbu	a7, 5(s0)
	lbu	t0, 6(s0)
	lbu	a6, 7(s0)
	lbu	a1, 12(s0)
	lbu	t2, 13(s0)
	lbu	t3, 14(s0)
	lbu	t1, 15(s0)
	slli	a2, a2, 32
	slli	a0, a0, 24
	or	s10, a0, a2
	li	t4, 255
	slli	a1, a1, 32
	slli	a0, a5, 24
	or	a0, a0, a1
	lui	s0, 4080
	slli	a4, a4, 16
	slli	a3, a3, 8
	or	a3, a3, ra
	or	a3, a3, a4
	lui	a1, 16
	vsetivli	zero, 16, e8, m1, ta, ma
	vid.v	v8
	slli	t4, t4, 24
	addi	a2, a1, -256
	slli	t6, t6, 16
	slli	t5, t5, 8
	slli	ra, ra, 56
	or	a1, t5, s11
	or	a4, a1, t6
	or	a5, a3, s10
	or	a0, a0, a4
	and	a3, a3, a2
	srli	a1, a5, 8
	slli	a3, a3, 40
	or	t5, ra, a3
	srli	a3, a0, 8
	and	s10, a1, t4
	and	t6, a3, t4
	li	t4, 32
	vrsub.vi	v11, v8, 15
	slli	t0, t0, 48
	slli	a7, a7, 40
	slli	t3, t3, 48
	slli	t2, t2, 40
	slli	s11, s11, 56
	and	a4, a4, a2
	or	a3, a5, a7
	or	a1, a0, t2
	and	a5, a5, s0
	and	a7, a0, s0
	slli	a4, a4, 40
	or	s1, a3, t0
	or	a0, a1, t3
	srli	a3, a3, 24
	slli	a5, a5, 24
	srli	a1, a1, 24
	slli	a7, a7, 24
	or	t0, s11, a4
	and	a3, a3, s0
	srli	a4, s1, 40
	srliw	s1, s1, 24
	and	a1, a1, s0
	srli	s0, a0, 40
	srliw	a0, a0, 24
	or	a3, s10, a3
	and	a4, a4, a2
	slli	s1, s1, 32
	or	a1, t6, a1
	and	a2, a2, s0
	slli	a0, a0, 32
	or	a4, a4, a6
	or	a5, a5, s1
	or	a2, a2, t1
	or	a0, a7, a0
	or	a3, a3, a4
	or	a4, t5, a5
	or	a1, a1, a2
	or	a0, t0, a0
	or	a3, a3, a4
	or	a0, a0, a1
	add	s9, s9, a0
	sltu	a0, s9, a0
	vsetivli	zero, 2, e64, m1, ta, ma
	vmv.v.x	v8, s9
	addi	a1, s9, 1
	addi	a2, s9, 2
	addi	a4, s9, 3
	add	a0, a0, a3
	seqz	a3, a1
	vmv.v.x	v9, a1
	sltu	a1, a2, s9
	vmv.v.x	v10, a2
	sltu	a2, a4, s9
	vslide1down.vx	v12, v8, a0
	add	a3, a3, a0
	vslide1down.vx	v9, v9, a3
	vsetivli	zero, 16, e8, m1, ta, ma
	vrgather.vv	v8, v12, v11
	vrgather.vv	v12, v9, v11
	vsetvli	zero, t4, e8, m2, ta, ma
	vslideup.vi	v8, v12, 16
	vsetivli	zero, 2, e64, m1, ta, ma
	vmv.v.x	v12, a4
	add	a1, a1, a0
	add	a0, a0, a2
	vslide1down.vx	v13, v10, a1
	vslide1down.vx	v10, v12, a0
	vsetivli	zero, 16, e8, m1, ta, ma
	vrgather.vv	v12, v10, v11
	vrgather.vv	v10, v13, v11
	vsetvli	zero, t4, e8, m2, ta, ma
	vslideup.vi	v10, v12, 16
	addi	a6, sp, 8
	lbu	a7, 16(s8)
	lbu	t1, 17(s8)
	lbu	t2, 18(s8)
	lbu	t3, 19(s8)
	lbu	t0, 20(s8)
	lbu	t5, 21(s8)
	lbu	t6, 22(s8)
	lbu	a1, 23(s8)
	lbu	t4, 24(s8)
	lbu	a5, 25(s8)
	lbu	a2, 26(s8)
	lbu	a3, 27(s8)
	lbu	s9, 28(s8)
	lbu	a0, 29(s8)
	lbu	s1, 30(s8)
	lbu	s0, 31(s8)
	slli	t1, t1, 8
	slli	t2, t2, 16
	slli	t3, t3, 24
	slli	t5, t5, 8
	slli	t6, t6, 16
	slli	s8, a1, 24
	slli	s11, a5, 8
	slli	s10, a2, 16
	slli	a3, a3, 24
	slli	ra, a0, 8
	slli	s1, s1, 16
	slli	s0, s0, 24
	or	a7, t1, a7
	or	a1, t3, t2
	or	a2, t5, t0
	or	a5, s8, t6
	or	a0, s11, t4
	or	a3, a3, s10
	or	a4, ra, s9
	or	s0, s0, s1
	or	a1, a1, a7
	or	a2, a2, a5
	or	a3, a3, a0
	or	a4, a4, s0
	slli	a0, a2, 32
	slli	a4, a4, 32
	or	a0, a0, a1
	vse8.v	v8, (a6)
	addi	a1, sp, 40
	vse8.v	v10, (a1)
	or	a1, a4, a3
	addi	a2, sp, 8
	mv	a3, s3
	call	aes.aes_permute.blocks.process_on_lanes.1
	add	s2, s2, s5
	beqz	s7, .Laes_BB15_9
# %bb.3:                                # %then.1.i
	li	a0, 16
	sub	a1, a0, s7
	mv	a0, s6
	bltu	s6, a1, .Laes_BB15_5
# %bb.4:                                # %then.1.i
	mv	a0, a1
.Laes_BB15_5:                               # %then.1.i
	beq	s4, s5, .Laes_BB15_8
# %bb.6:                                # %join.8.i80.lr.ph
	li	a1, 0
	addi	a2, sp, 8
	add	a2, a2, s7
	mv	a3, a0
.Laes_BB15_7:                               # %vector.body
                                        # =>This Inner Loop Header: Depth=1
	vsetvli	a4, a3, e8, m1, ta, ma
	add	a5, a2, a1
	vle8.v	v8, (a5)
	add	a5, s2, a1
	vle8.v	v9, (a5)
	sub	a3, a3, a4
	vxor.vv	v8, v9, v8
	vse8.v	v8, (a5)
	add	a1, a1, a4
	bnez	a3, .Laes_BB15_7
.Laes_BB15_8:                               # %join.3.i
	sub	a1, s6, a0
	li	a2, 16
	bgeu	a1, a2, .Laes_BB15_10
	j	.Laes_BB15_12
.Laes_BB15_9:
	li	a0, 0
	mv	a1, s6
	li	a2, 16
	bltu	s6, a2, .Laes_BB15_12
.Laes_BB15_10:                              # %join.8.i.preheader
	vsetivli	zero, 16, e8, m1, ta, ma
.Laes_BB15_11:                              # %join.8.i
                                        # =>This Inner Loop Header: Depth=1
	add	a2, s7, a0
	addi	a3, sp, 8
	andi	a2, a2, -16
	add	a2, a2, a3
	add	a3, s2, a0
	vle8.v	v8, (a3)
	vle8.v	v9, (a2)
	addi	a0, a0, 16
	addi	a1, a1, -16
	vxor.vv	v8, v9, v8
	li	a2, 15
	vse8.v	v8, (a3)
	bltu	a2, a1, .Laes_BB15_11
.Laes_BB15_12:                              # %after.4.i
	bgeu	a0, s6, .Laes_BB15_16
# %bb.13:                               # %then.9.i
	beqz	a1, .Laes_BB15_16
# %bb.14:                               # %vector.body157.preheader
	li	a2, 0
	add	s7, s7, a0
	addi	a3, sp, 8
	andi	a4, s7, -16
	add	a3, a3, a4
	add	a0, a0, s2
.Laes_BB15_15:                              # %vector.body157
                                        # =>This Inner Loop Header: Depth=1
	vsetvli	a4, a1, e8, m2, ta, ma
	add	a5, a3, a2
	vle8.v	v8, (a5)
	add	a5, a0, a2
	vle8.v	v10, (a5)
	sub	a1, a1, a4
	vxor.vv	v8, v10, v8
	vse8.v	v8, (a5)
	add	a2, a2, a4
	bnez	a1, .Laes_BB15_15
.Laes_BB15_16:                              # %"aes_ctr::add_blocks::add_blocks.exit"
	add	a0, s6, s5
	ld	ra, 360(sp)                     # 8-byte Folded Reload
	ld	s0, 352(sp)                     # 8-byte Folded Reload
	ld	s1, 344(sp)                     # 8-byte Folded Reload
	ld	s2, 336(sp)                     # 8-byte Folded Reload
	ld	s3, 328(sp)                     # 8-byte Folded Reload
	ld	s4, 320(sp)                     # 8-byte Folded Reload
	ld	s5, 312(sp)                     # 8-byte Folded Reload
	ld	s6, 304(sp)                     # 8-byte Folded Reload
	ld	s7, 296(sp)                     # 8-byte Folded Reload
	ld	s8, 288(sp)                     # 8-byte Folded Reload
	ld	s9, 280(sp)                     # 8-byte Folded Reload
	ld	s10, 272(sp)                    # 8-byte Folded Reload
	ld	s11, 264(sp)                    # 8-byte Folded Reload
	addi	sp, sp, 368
	ret
.Laes_func_end15:
	.size	aes.aes_ctr.add_in_batches.add_next.2, .Laes_func_end15-aes.aes_ctr.add_in_batches.add_next.2
                                        # -- End function
	.section	.text.aes.aes_cipher.zeroize.elements.zeroize_elements.1,"ax",@progbits
	.p2align	1                               # -- Begin function aes_cipher::zeroize::elements::zeroize_elements::<#530874d131791bfe>
	.type	aes.aes_cipher.zeroize.elements.zeroize_elements.1,@function
aes.aes_cipher.zeroize.elements.zeroize_elements.1: # @aes.aes_cipher.zeroize.elements.zeroize_elements.1
# %bb.0:                                # %start
	addi	sp, sp, -32
	li	a1, 0
	vsetivli	zero, 2, e64, m1, ta, ma
	vmv.v.i	v8, 0
	addi	a5, sp, 16
	sd	zero, 8(sp)
	vse64.v	v8, (a5)
	#APP
	#NO_APP
	fence	rw, rw
	ld	a2, 8(sp)
	fence	r, rw
	#APP
	#NO_APP
	li	a4, 14
	slli	a3, a2, 4
	bltu	a4, a2, .Laes_BB16_2
# %bb.1:                                # %then.1.i6
	add	a1, a0, a3
	lbu	a1, 0(a1)
.Laes_BB16_2:                               # %"aes_cipher::zeroize::observe::<#3f54e6b29a41109e>.exit10"
	vsetivli	zero, 16, e8, m1, ta, ma
	vle8.v	v8, (a5)
	addi	a5, a0, 16
	vse8.v	v8, (a5)
	addi	a5, a0, 32
	vse8.v	v8, (a5)
	addi	a5, a0, 48
	vse8.v	v8, (a5)
	addi	a5, a0, 64
	vse8.v	v8, (a5)
	addi	a5, a0, 80
	vse8.v	v8, (a5)
	addi	a5, a0, 96
	vse8.v	v8, (a5)
	addi	a5, a0, 112
	vse8.v	v8, (a5)
	addi	a5, a0, 128
	vse8.v	v8, (a5)
	addi	a5, a0, 144
	vse8.v	v8, (a5)
	addi	a5, a0, 160
	vse8.v	v8, (a5)
	addi	a5, a0, 176
	vse8.v	v8, (a5)
	addi	a5, a0, 192
	vse8.v	v8, (a5)
	addi	a5, a0, 208
	vse8.v	v8, (a5)
	addi	a5, a0, 224
	vse8.v	v8, (a0)
	vse8.v	v8, (a5)
	bltu	a4, a2, .Laes_BB16_4
# %bb.3:                                # %then.1.i
	add	a0, a0, a3
	lbu	a0, 0(a0)
	and	a0, a0, a1
	#APP
	#NO_APP
	addi	a1, sp, 8
	amoswap.d.aqrl	zero, a0, (a1)
	#APP
	#NO_APP
	addi	sp, sp, 32
	vsetvli	t0, zero, e8, m8, ta, ma
	vmv.v.i	v0, 0
	vmv.v.i	v8, 0
	vmv.v.i	v16, 0
	vmv.v.i	v24, 0
	li	a1, 0
	li	a2, 0
	li	a3, 0
	li	a4, 0
	li	a5, 0
	li	a6, 0
	li	a7, 0
	li	t0, 0
	li	t1, 0
	li	t2, 0
	li	t3, 0
	li	t4, 0
	li	t5, 0
	li	t6, 0
	ret
.Laes_BB16_4:
	#APP
	#NO_APP
	addi	a1, sp, 8
	amoswap.d.aqrl	zero, zero, (a1)
	#APP
	#NO_APP
	addi	sp, sp, 32
	vsetvli	t0, zero, e8, m8, ta, ma
	vmv.v.i	v0, 0
	vmv.v.i	v8, 0
	vmv.v.i	v16, 0
	vmv.v.i	v24, 0
	li	a1, 0
	li	a2, 0
	li	a3, 0
	li	a4, 0
	li	a5, 0
	li	a6, 0
	li	a7, 0
	li	t0, 0
	li	t1, 0
	li	t2, 0
	li	t3, 0
	li	t4, 0
	li	t5, 0
	li	t6, 0
	ret
.Laes_func_end16:
	.size	aes.aes_cipher.zeroize.elements.zeroize_elements.1, .Laes_func_end16-aes.aes_cipher.zeroize.elements.zeroize_elements.1
                                        # -- End function
	.section	.text.aes.cmac.tags.tag,"ax",@progbits
	.p2align	1                               # -- Begin function cmac::tags::tag::<#ef80964e0b8d42c0>
	.type	aes.cmac.tags.tag,@function
aes.cmac.tags.tag: # @aes.cmac.tags.tag
# %bb.0:                                # %start
	addi	sp, sp, -96
	sd	ra, 88(sp)                      # 8-byte Folded Spill
	sd	s0, 80(sp)                      # 8-byte Folded Spill
	sd	s1, 72(sp)                      # 8-byte Folded Spill
	sd	s2, 64(sp)                      # 8-byte Folded Spill
	sd	s3, 56(sp)                      # 8-byte Folded Spill
	sd	s4, 48(sp)                      # 8-byte Folded Spill
	sd	s5, 40(sp)                      # 8-byte Folded Spill
	mv	s4, a3
	mv	s3, a2
	mv	s1, a1
	mv	s2, a0
	vsetivli	zero, 2, e64, m1, ta, ma
	vmv.v.i	v8, 0
	addi	s5, sp, 16
	snez	a0, a3
	mv	a1, sp
	vse64.v	v8, (s5)
	sub	s0, a3, a0
	andi	s0, s0, -16
	vse64.v	v8, (a1)
	mv	a0, s1
	mv	a3, s0
	call	aes.cmac.chaining.chain
	add	a4, s3, s0
	sub	a5, s4, s0
	lbu	a6, 16(s1)
	lbu	a1, 17(s1)
	lbu	a2, 18(s1)
	lbu	a3, 19(s1)
	lbu	s0, 20(s1)
	lbu	a0, 21(s1)
	lbu	a7, 22(s1)
	lbu	t0, 23(s1)
	slli	a1, a1, 8
	slli	a2, a2, 16
	slli	a3, a3, 24
	slli	a0, a0, 8
	or	a6, a1, a6
	or	t2, a3, a2
	or	t1, a0, s0
	lbu	a3, 24(s1)
	lbu	s0, 25(s1)
	lbu	a1, 26(s1)
	lbu	a0, 27(s1)
	slli	a7, a7, 16
	slli	t0, t0, 24
	slli	s0, s0, 8
	slli	a1, a1, 16
	slli	a0, a0, 24
	or	a7, t0, a7
	or	a3, a3, s0
	or	a0, a0, a1
	lbu	a1, 29(s1)
	lbu	s0, 28(s1)
	lbu	a2, 30(s1)
	lbu	s1, 31(s1)
	slli	a1, a1, 8
	or	a1, a1, s0
	slli	a2, a2, 16
	slli	s1, s1, 24
	or	a2, a2, s1
	or	s1, t2, a6
	or	s0, a7, t1
	or	a0, a0, a3
	or	a1, a1, a2
	slli	s0, s0, 32
	slli	a2, a1, 32
	or	a1, s0, s1
	or	a2, a2, a0
	addi	a0, sp, 16
	mv	a3, sp
	call	aes.cmac.tags.tag_at_end
	vsetivli	zero, 16, e8, m1, ta, ma
	vle8.v	v8, (s5)
	vse8.v	v8, (s2)
	ld	ra, 88(sp)                      # 8-byte Folded Reload
	ld	s0, 80(sp)                      # 8-byte Folded Reload
	ld	s1, 72(sp)                      # 8-byte Folded Reload
	ld	s2, 64(sp)                      # 8-byte Folded Reload
	ld	s3, 56(sp)                      # 8-byte Folded Reload
	ld	s4, 48(sp)                      # 8-byte Folded Reload
	ld	s5, 40(sp)                      # 8-byte Folded Reload
	addi	sp, sp, 96
	ret
.Laes_func_end17:
	.size	aes.cmac.tags.tag, .Laes_func_end17-aes.cmac.tags.tag
                                        # -- End function
	.section	.rodata.cst16,"aM",@progbits,16
	.p2align	4, 0x0                          # -- Begin function cmac::chaining::chain::<#ef80964e0b8d42c0>
.Laes_CPI18_0:
	.byte	0                               # 0x0
	.byte	1                               # 0x1
	.byte	28                              # 0x1c
	.byte	29                              # 0x1d
	.byte	45                              # 0x2d
	.byte	44                              # 0x2c
	.byte	49                              # 0x31
	.byte	48                              # 0x30
	.byte	39                              # 0x27
	.byte	38                              # 0x26
	.byte	59                              # 0x3b
	.byte	58                              # 0x3a
	.byte	10                              # 0xa
	.byte	11                              # 0xb
	.byte	22                              # 0x16
	.byte	23                              # 0x17
.Laes_CPI18_1:
	.byte	0                               # 0x0
	.byte	134                             # 0x86
	.byte	253                             # 0xfd
	.byte	123                             # 0x7b
	.byte	142                             # 0x8e
	.byte	8                               # 0x8
	.byte	115                             # 0x73
	.byte	245                             # 0xf5
	.byte	119                             # 0x77
	.byte	241                             # 0xf1
	.byte	138                             # 0x8a
	.byte	12                              # 0xc
	.byte	249                             # 0xf9
	.byte	127                             # 0x7f
	.byte	4                               # 0x4
	.byte	130                             # 0x82
.Laes_CPI18_2:
	.byte	128                             # 0x80
	.byte	2                               # 0x2
	.byte	1                               # 0x1
	.byte	15                              # 0xf
	.byte	9                               # 0x9
	.byte	5                               # 0x5
	.byte	14                              # 0xe
	.byte	12                              # 0xc
	.byte	13                              # 0xd
	.byte	4                               # 0x4
	.byte	11                              # 0xb
	.byte	10                              # 0xa
	.byte	7                               # 0x7
	.byte	8                               # 0x8
	.byte	6                               # 0x6
	.byte	3                               # 0x3
.Laes_CPI18_3:
	.byte	128                             # 0x80
	.byte	1                               # 0x1
	.byte	9                               # 0x9
	.byte	14                              # 0xe
	.byte	13                              # 0xd
	.byte	11                              # 0xb
	.byte	7                               # 0x7
	.byte	6                               # 0x6
	.byte	15                              # 0xf
	.byte	2                               # 0x2
	.byte	12                              # 0xc
	.byte	5                               # 0x5
	.byte	10                              # 0xa
	.byte	4                               # 0x4
	.byte	3                               # 0x3
	.byte	8                               # 0x8
.Laes_CPI18_4:
	.byte	0                               # 0x0
	.byte	195                             # 0xc3
	.byte	79                              # 0x4f
	.byte	12                              # 0xc
	.byte	252                             # 0xfc
	.byte	124                             # 0x7c
	.byte	67                              # 0x43
	.byte	128                             # 0x80
	.byte	207                             # 0xcf
	.byte	51                              # 0x33
	.byte	63                              # 0x3f
	.byte	112                             # 0x70
	.byte	191                             # 0xbf
	.byte	179                             # 0xb3
	.byte	240                             # 0xf0
	.byte	140                             # 0x8c
.Laes_CPI18_5:
	.byte	0                               # 0x0
	.byte	230                             # 0xe6
	.byte	114                             # 0x72
	.byte	183                             # 0xb7
	.byte	229                             # 0xe5
	.byte	198                             # 0xc6
	.byte	197                             # 0xc5
	.byte	35                              # 0x23
	.byte	81                              # 0x51
	.byte	180                             # 0xb4
	.byte	3                               # 0x3
	.byte	113                             # 0x71
	.byte	32                              # 0x20
	.byte	151                             # 0x97
	.byte	82                              # 0x52
	.byte	148                             # 0x94
.Laes_CPI18_6:
	.byte	0                               # 0x0
	.byte	124                             # 0x7c
	.byte	32                              # 0x20
	.byte	207                             # 0xcf
	.byte	146                             # 0x92
	.byte	1                               # 0x1
	.byte	239                             # 0xef
	.byte	147                             # 0x93
	.byte	179                             # 0xb3
	.byte	33                              # 0x21
	.byte	238                             # 0xee
	.byte	206                             # 0xce
	.byte	125                             # 0x7d
	.byte	178                             # 0xb2
	.byte	93                              # 0x5d
	.byte	92                              # 0x5c
.Laes_CPI18_7:
	.byte	0                               # 0x0
	.byte	209                             # 0xd1
	.byte	229                             # 0xe5
	.byte	247                             # 0xf7
	.byte	230                             # 0xe6
	.byte	37                              # 0x25
	.byte	18                              # 0x12
	.byte	195                             # 0xc3
	.byte	38                              # 0x26
	.byte	192                             # 0xc0
	.byte	55                              # 0x37
	.byte	210                             # 0xd2
	.byte	244                             # 0xf4
	.byte	3                               # 0x3
	.byte	17                              # 0x11
	.byte	52                              # 0x34
.Laes_CPI18_8:
	.byte	0                               # 0x0
	.byte	203                             # 0xcb
	.byte	215                             # 0xd7
	.byte	176                             # 0xb0
	.byte	33                              # 0x21
	.byte	141                             # 0x8d
	.byte	103                             # 0x67
	.byte	172                             # 0xac
	.byte	123                             # 0x7b
	.byte	90                              # 0x5a
	.byte	234                             # 0xea
	.byte	61                              # 0x3d
	.byte	70                              # 0x46
	.byte	246                             # 0xf6
	.byte	145                             # 0x91
	.byte	28                              # 0x1c
.Laes_CPI18_9:
	.byte	0                               # 0x0
	.byte	159                             # 0x9f
	.byte	97                              # 0x61
	.byte	22                              # 0x16
	.byte	194                             # 0xc2
	.byte	42                              # 0x2a
	.byte	119                             # 0x77
	.byte	232                             # 0xe8
	.byte	137                             # 0x89
	.byte	75                              # 0x4b
	.byte	93                              # 0x5d
	.byte	60                              # 0x3c
	.byte	181                             # 0xb5
	.byte	163                             # 0xa3
	.byte	212                             # 0xd4
	.byte	254                             # 0xfe
	.section	.text.aes.cmac.chaining.chain,"ax",@progbits
	.p2align	1
	.type	aes.cmac.chaining.chain,@function
aes.cmac.chaining.chain: # @aes.cmac.chaining.chain
# %bb.0:                                # %start
	beqz	a3, .Laes_BB18_12
# %bb.1:                                # %join.5.lr.ph
	addi	sp, sp, -128
	sd	ra, 120(sp)                     # 8-byte Folded Spill
	sd	s0, 112(sp)                     # 8-byte Folded Spill
	sd	s1, 104(sp)                     # 8-byte Folded Spill
	sd	s2, 96(sp)                      # 8-byte Folded Spill
	sd	s3, 88(sp)                      # 8-byte Folded Spill
	sd	s4, 80(sp)                      # 8-byte Folded Spill
	sd	s5, 72(sp)                      # 8-byte Folded Spill
	sd	s6, 64(sp)                      # 8-byte Folded Spill
	sd	s7, 56(sp)                      # 8-byte Folded Spill
	csrr	t1, vlenb
	li	a4, 11
	mul	t1, t1, a4
	li	t2, 3
	slli	t2, t2, 10
.Laes_BB18_2:                               # %join.5.lr.ph
                                        # =>This Inner Loop Header: Depth=1
	sub	sp, sp, t2
	sd	zero, 0(sp)
	sub	t1, t1, t2
	bge	t1, t2, .Laes_BB18_2
# %bb.3:                                # %join.5.lr.ph
	sub	sp, sp, t1
	mv	s3, a3
	mv	s2, a2
	mv	s4, a1
	mv	s7, a0
	li	s6, 0
	srli	s5, a3, 4
.Laes_pcrel_hi73:
	auipc	a0, %pcrel_hi(.Laes_CPI18_0)
	addi	a0, a0, %pcrel_lo(.Laes_pcrel_hi73)
	vsetivli	zero, 16, e8, m1, ta, ma
	vle8.v	v8, (a0)
	csrr	a0, vlenb
	slli	a1, a0, 3
	add	a0, a0, a1
	add	a0, a0, sp
	addi	a0, a0, 48
	vs1r.v	v8, (a0)                        # vscale x 8-byte Folded Spill
.Laes_pcrel_hi74:
	auipc	a0, %pcrel_hi(.Laes_CPI18_1)
	addi	a0, a0, %pcrel_lo(.Laes_pcrel_hi74)
	vle8.v	v8, (a0)
	csrr	a0, vlenb
	slli	a0, a0, 3
	add	a0, a0, sp
	addi	a0, a0, 48
	vs1r.v	v8, (a0)                        # vscale x 8-byte Folded Spill
.Laes_pcrel_hi75:
	auipc	a0, %pcrel_hi(.Laes_CPI18_2)
	addi	a0, a0, %pcrel_lo(.Laes_pcrel_hi75)
	vle8.v	v17, (a0)
.Laes_pcrel_hi76:
	auipc	a0, %pcrel_hi(.Laes_CPI18_3)
	addi	a0, a0, %pcrel_lo(.Laes_pcrel_hi76)
	vle8.v	v18, (a0)
.Laes_pcrel_hi77:
	auipc	a0, %pcrel_hi(.Laes_CPI18_4)
	addi	a0, a0, %pcrel_lo(.Laes_pcrel_hi77)
	vle8.v	v19, (a0)
.Laes_pcrel_hi78:
	auipc	a0, %pcrel_hi(.Laes_CPI18_5)
	addi	a0, a0, %pcrel_lo(.Laes_pcrel_hi78)
	vle8.v	v20, (a0)
.Laes_pcrel_hi79:
	auipc	a0, %pcrel_hi(.Laes_CPI18_6)
	addi	a0, a0, %pcrel_lo(.Laes_pcrel_hi79)
	vle8.v	v21, (a0)
.Laes_pcrel_hi80:
	auipc	a0, %pcrel_hi(.Laes_CPI18_7)
	addi	a0, a0, %pcrel_lo(.Laes_pcrel_hi80)
	vle8.v	v22, (a0)
.Laes_pcrel_hi81:
	auipc	a0, %pcrel_hi(.Laes_CPI18_8)
	addi	a0, a0, %pcrel_lo(.Laes_pcrel_hi81)
	vle8.v	v8, (a0)
	csrr	a0, vlenb
	slli	a1, a0, 2
	add	a0, a0, a1
	add	a0, a0, sp
	addi	a0, a0, 48
	vs1r.v	v8, (a0)                        # vscale x 8-byte Folded Spill
.Laes_pcrel_hi82:
	auipc	a0, %pcrel_hi(.Laes_CPI18_9)
	addi	a0, a0, %pcrel_lo(.Laes_pcrel_hi82)
	vle8.v	v8, (a0)
	csrr	a0, vlenb
	slli	a0, a0, 2
	add	a0, a0, sp
	addi	a0, a0, 48
	vs1r.v	v8, (a0)                        # vscale x 8-byte Folded Spill
	vle8.v	v8, (s4)
	andi	a0, a3, 15
	snez	a0, a0
	add	s5, s5, a0
	csrr	a0, vlenb
	slli	a1, a0, 3
	sub	a0, a1, a0
	add	a0, a0, sp
	addi	a0, a0, 48
	vs1r.v	v17, (a0)                       # vscale x 8-byte Folded Spill
	csrr	a0, vlenb
	li	a1, 6
	mul	a0, a0, a1
	add	a0, a0, sp
	addi	a0, a0, 48
	vs1r.v	v18, (a0)                       # vscale x 8-byte Folded Spill
	csrr	a0, vlenb
	slli	a1, a0, 1
	add	a0, a0, a1
	add	a0, a0, sp
	addi	a0, a0, 48
	vs1r.v	v19, (a0)                       # vscale x 8-byte Folded Spill
	csrr	a0, vlenb
	slli	a0, a0, 1
	add	a0, a0, sp
	addi	a0, a0, 48
	vs1r.v	v20, (a0)                       # vscale x 8-byte Folded Spill
	csrr	a0, vlenb
	add	a0, a0, sp
	addi	a0, a0, 48
	vs1r.v	v21, (a0)                       # vscale x 8-byte Folded Spill
	addi	a0, sp, 48
	vs1r.v	v22, (a0)                       # vscale x 8-byte Folded Spill
	j	.Laes_BB18_6
.Laes_BB18_4:                               #   in Loop: Header=BB18_6 Depth=1
	csrr	a2, vlenb
	slli	a3, a2, 3
	sub	a2, a3, a2
	add	a2, a2, sp
	addi	a2, a2, 48
	vl1r.v	v17, (a2)                       # vscale x 8-byte Folded Reload
	csrr	a2, vlenb
	li	a3, 6
	mul	a2, a2, a3
	add	a2, a2, sp
	addi	a2, a2, 48
	vl1r.v	v18, (a2)                       # vscale x 8-byte Folded Reload
.Laes_BB18_5:                               # %"cmac::chaining::chain_block::<#ef80964e0b8d42c0>.exit"
                                        #   in Loop: Header=BB18_6 Depth=1
	slli	a1, a1, 4
	vsrl.vi	v9, v8, 4
	vand.vi	v8, v8, 15
	add	a0, a0, a1
	vle8.v	v10, (a0)
.Laes_pcrel_hi85:
	auipc	a0, %pcrel_hi(.Laes_static.3)
	vxor.vv	v11, v9, v8
	vrgather.vv	v12, v17, v8
	vrgather.vv	v8, v18, v9
	andi	a1, a1, 48
	addi	a0, a0, %pcrel_lo(.Laes_pcrel_hi85)
	vrgather.vv	v13, v18, v11
	vxor.vv	v8, v8, v12
	add	a0, a0, a1
	vxor.vv	v12, v13, v12
	vmsle.vi	v0, v8, -1
	vrgather.vv	v13, v18, v8
	vmerge.vim	v8, v13, 0, v0
	vmsle.vi	v0, v12, -1
	vrgather.vv	v13, v18, v12
	vmerge.vim	v12, v13, 0, v0
	vle8.v	v13, (a0)
	vxor.vv	v11, v8, v11
	vxor.vv	v9, v12, v9
	csrr	a0, vlenb
	slli	a1, a0, 2
	add	a0, a0, a1
	add	a0, a0, sp
	addi	a0, a0, 48
	vl1r.v	v15, (a0)                       # vscale x 8-byte Folded Reload
	vrgather.vv	v14, v15, v11
	vmsle.vi	v0, v12, -1
	csrr	a0, vlenb
	slli	a0, a0, 2
	add	a0, a0, sp
	addi	a0, a0, 48
	vl1r.v	v12, (a0)                       # vscale x 8-byte Folded Reload
	vrgather.vv	v11, v12, v9
	vmerge.vim	v9, v11, 0, v0
	vmsle.vi	v0, v8, -1
	vxor.vv	v8, v9, v14
	vmerge.vvm	v8, v8, v9, v0
	vmsle.vi	v0, v13, -1
	vrgather.vv	v9, v8, v13
	vxor.vv	v8, v10, v9
	vmerge.vvm	v8, v8, v10, v0
	addi	s6, s6, 1
	vse8.v	v8, (s4)
	beq	s6, s5, .Laes_BB18_11
.Laes_BB18_6:                               # %join.5
                                        # =>This Loop Header: Depth=1
                                        #     Child Loop BB18_10 Depth 2
	csrr	a0, vlenb
	li	a1, 10
	mul	a0, a0, a1
	add	a0, a0, sp
	addi	a0, a0, 48
	vs1r.v	v8, (a0)                        # vscale x 8-byte Folded Spill
	slli	a0, s6, 4
	addi	a2, a0, 16
	bltu	a2, s3, .Laes_BB18_8
# %bb.7:                                # %join.5
                                        #   in Loop: Header=BB18_6 Depth=1
	mv	a2, s3
.Laes_BB18_8:                               # %join.5
                                        #   in Loop: Header=BB18_6 Depth=1
	add	a1, s2, a0
	sub	a2, a2, a0
	vsetivli	zero, 2, e64, m1, ta, ma
	vmv.v.i	v8, 0
	addi	s1, sp, 16
	vse64.v	v8, (s1)
	addi	a0, sp, 16
	la	t1, memcpy
	jalr	t1
	vsetivli	zero, 16, e8, m1, ta, ma
	vle8.v	v8, (s1)
	csrr	a0, vlenb
	li	a1, 10
	mul	a0, a0, a1
	add	a0, a0, sp
	addi	a0, a0, 48
	vl1r.v	v9, (a0)                        # vscale x 8-byte Folded Reload
	vxor.vv	v8, v8, v9
	vse8.v	v8, (s4)
	lbu	a0, 16(s7)
	lbu	a1, 17(s7)
	lbu	a2, 18(s7)
	lbu	a3, 19(s7)
	lbu	a6, 20(s7)
	lbu	a5, 21(s7)
	lbu	s1, 22(s7)
	lbu	a4, 23(s7)
	slli	a1, a1, 8
	slli	a2, a2, 16
	slli	a3, a3, 24
	or	a7, a1, a0
	or	t0, a3, a2
	lbu	a1, 24(s7)
	lbu	a3, 25(s7)
	lbu	a0, 26(s7)
	lbu	a2, 27(s7)
	slli	a5, a5, 8
	slli	s1, s1, 16
	slli	a4, a4, 24
	slli	a3, a3, 8
	slli	a0, a0, 16
	slli	a2, a2, 24
	or	a5, a5, a6
	or	a4, a4, s1
	or	a1, a1, a3
	or	a0, a0, a2
	lbu	a2, 29(s7)
	lbu	a3, 28(s7)
	lbu	s1, 30(s7)
	lbu	s0, 31(s7)
	slli	a2, a2, 8
	or	a2, a2, a3
	slli	s1, s1, 16
	slli	s0, s0, 24
	or	s0, s0, s1
	or	a3, t0, a7
	or	a4, a4, a5
	or	a1, a1, a0
	or	a2, a2, s0
	slli	a0, a4, 32
	or	a0, a0, a3
	vle8.v	v9, (a0)
	slli	a2, a2, 32
	or	a2, a2, a1
	addi	a1, a2, -1
	vxor.vv	v8, v9, v8
	vand.vi	v9, v8, 15
	vsrl.vi	v8, v8, 4
	csrr	a3, vlenb
	slli	a4, a3, 3
	add	a3, a3, a4
	add	a3, a3, sp
	addi	a3, a3, 48
	vl1r.v	v11, (a3)                       # vscale x 8-byte Folded Reload
	vrgather.vv	v10, v11, v9
	csrr	a3, vlenb
	slli	a3, a3, 3
	add	a3, a3, sp
	addi	a3, a3, 48
	vl1r.v	v11, (a3)                       # vscale x 8-byte Folded Reload
	vrgather.vv	v9, v11, v8
	li	a3, 2
	vxor.vv	v8, v9, v10
	bltu	a1, a3, .Laes_BB18_4
# %bb.9:                                # %join.5.i.i.i.preheader
                                        #   in Loop: Header=BB18_6 Depth=1
	addi	a2, a2, -2
	li	a3, 16
	csrr	a4, vlenb
	slli	a5, a4, 3
	sub	a4, a5, a4
	add	a4, a4, sp
	addi	a4, a4, 48
	vl1r.v	v17, (a4)                       # vscale x 8-byte Folded Reload
	csrr	a4, vlenb
	li	a5, 6
	mul	a4, a4, a5
	add	a4, a4, sp
	addi	a4, a4, 48
	vl1r.v	v18, (a4)                       # vscale x 8-byte Folded Reload
	csrr	a4, vlenb
	slli	a5, a4, 1
	add	a4, a4, a5
	add	a4, a4, sp
	addi	a4, a4, 48
	vl1r.v	v19, (a4)                       # vscale x 8-byte Folded Reload
	csrr	a4, vlenb
	slli	a4, a4, 1
	add	a4, a4, sp
	addi	a4, a4, 48
	vl1r.v	v20, (a4)                       # vscale x 8-byte Folded Reload
	csrr	a4, vlenb
	add	a4, a4, sp
	addi	a4, a4, 48
	vl1r.v	v21, (a4)                       # vscale x 8-byte Folded Reload
	addi	a4, sp, 48
	vl1r.v	v22, (a4)                       # vscale x 8-byte Folded Reload
.Laes_BB18_10:                              # %join.5.i.i.i
                                        #   Parent Loop BB18_6 Depth=1
                                        # =>  This Inner Loop Header: Depth=2
	add	a4, a0, a3
	andi	a5, a3, 48
.Laes_pcrel_hi83:
	auipc	s1, %pcrel_hi(.Laes_static.4)
	vle8.v	v10, (a4)
.Laes_pcrel_hi84:
	auipc	a4, %pcrel_hi(.Laes_static.5)
	addi	s1, s1, %pcrel_lo(.Laes_pcrel_hi83)
	addi	a4, a4, %pcrel_lo(.Laes_pcrel_hi84)
	add	s1, s1, a5
	add	a4, a4, a5
	vsrl.vi	v9, v8, 4
	vand.vi	v8, v8, 15
	addi	a2, a2, -1
	vxor.vv	v11, v9, v8
	vrgather.vv	v12, v17, v8
	vrgather.vv	v8, v18, v9
	vrgather.vv	v13, v18, v11
	vxor.vv	v8, v8, v12
	vxor.vv	v12, v13, v12
	vmsle.vi	v0, v8, -1
	vrgather.vv	v13, v18, v8
	vmerge.vim	v8, v13, 0, v0
	vmsle.vi	v0, v12, -1
	vrgather.vv	v13, v18, v12
	vmerge.vim	v12, v13, 0, v0
	vxor.vv	v11, v8, v11
	vmsle.vi	v8, v8, -1
	vxor.vv	v13, v12, v9
	vrgather.vv	v14, v19, v11
	vmsle.vi	v9, v12, -1
	vrgather.vv	v12, v20, v13
	vmv1r.v	v0, v9
	vmerge.vim	v12, v12, 0, v0
	vxor.vv	v14, v12, v14
	vmv1r.v	v0, v8
	vmerge.vvm	v12, v14, v12, v0
	vle8.v	v14, (s1)
	vle8.v	v15, (a4)
	vrgather.vv	v16, v21, v11
	vrgather.vv	v11, v22, v13
	vmv1r.v	v0, v9
	vmerge.vim	v11, v11, 0, v0
	vmsle.vi	v9, v14, -1
	vxor.vv	v13, v11, v16
	vmv1r.v	v0, v8
	vmerge.vvm	v8, v13, v11, v0
	vrgather.vv	v11, v12, v14
	vrgather.vv	v13, v12, v15
	vxor.vv	v11, v8, v11
	vmv1r.v	v0, v9
	vmerge.vvm	v11, v11, v8, v0
	vmsle.vi	v8, v15, -1
	vrgather.vv	v12, v11, v14
	vxor.vv	v12, v10, v12
	vmerge.vvm	v9, v12, v10, v0
	vxor.vv	v10, v9, v13
	vmv1r.v	v0, v8
	vmerge.vvm	v8, v10, v9, v0
	vxor.vv	v8, v8, v11
	addi	a3, a3, 16
	bnez	a2, .Laes_BB18_10
	j	.Laes_BB18_5
.Laes_BB18_11:
	csrr	a0, vlenb
	li	a1, 11
	mul	a0, a0, a1
	add	sp, sp, a0
	ld	ra, 120(sp)                     # 8-byte Folded Reload
	ld	s0, 112(sp)                     # 8-byte Folded Reload
	ld	s1, 104(sp)                     # 8-byte Folded Reload
	ld	s2, 96(sp)                      # 8-byte Folded Reload
	ld	s3, 88(sp)                      # 8-byte Folded Reload
	ld	s4, 80(sp)                      # 8-byte Folded Reload
	ld	s5, 72(sp)                      # 8-byte Folded Reload
	ld	s6, 64(sp)                      # 8-byte Folded Reload
	ld	s7, 56(sp)                      # 8-byte Folded Reload
	addi	sp, sp, 128
.Laes_BB18_12:                              # %after.1
	ret
.Laes_func_end18:
	.size	aes.cmac.chaining.chain, .Laes_func_end18-aes.cmac.chaining.chain
                                        # -- End function
	.section	.rodata.cst16,"aM",@progbits,16
	.p2align	4, 0x0                          # -- Begin function cmac::tags::tag_at_end::<#ef80964e0b8d42c0>
.Laes_CPI19_0:
	.byte	0                               # 0x0
	.byte	1                               # 0x1
	.byte	28                              # 0x1c
	.byte	29                              # 0x1d
	.byte	45                              # 0x2d
	.byte	44                              # 0x2c
	.byte	49                              # 0x31
	.byte	48                              # 0x30
	.byte	39                              # 0x27
	.byte	38                              # 0x26
	.byte	59                              # 0x3b
	.byte	58                              # 0x3a
	.byte	10                              # 0xa
	.byte	11                              # 0xb
	.byte	22                              # 0x16
	.byte	23                              # 0x17
.Laes_CPI19_1:
	.byte	0                               # 0x0
	.byte	134                             # 0x86
	.byte	253                             # 0xfd
	.byte	123                             # 0x7b
	.byte	142                             # 0x8e
	.byte	8                               # 0x8
	.byte	115                             # 0x73
	.byte	245                             # 0xf5
	.byte	119                             # 0x77
	.byte	241                             # 0xf1
	.byte	138                             # 0x8a
	.byte	12                              # 0xc
	.byte	249                             # 0xf9
	.byte	127                             # 0x7f
	.byte	4                               # 0x4
	.byte	130                             # 0x82
.Laes_CPI19_2:
	.byte	128                             # 0x80
	.byte	2                               # 0x2
	.byte	1                               # 0x1
	.byte	15                              # 0xf
	.byte	9                               # 0x9
	.byte	5                               # 0x5
	.byte	14                              # 0xe
	.byte	12                              # 0xc
	.byte	13                              # 0xd
	.byte	4                               # 0x4
	.byte	11                              # 0xb
	.byte	10                              # 0xa
	.byte	7                               # 0x7
	.byte	8                               # 0x8
	.byte	6                               # 0x6
	.byte	3                               # 0x3
.Laes_CPI19_3:
	.byte	128                             # 0x80
	.byte	1                               # 0x1
	.byte	9                               # 0x9
	.byte	14                              # 0xe
	.byte	13                              # 0xd
	.byte	11                              # 0xb
	.byte	7                               # 0x7
	.byte	6                               # 0x6
	.byte	15                              # 0xf
	.byte	2                               # 0x2
	.byte	12                              # 0xc
	.byte	5                               # 0x5
	.byte	10                              # 0xa
	.byte	4                               # 0x4
	.byte	3                               # 0x3
	.byte	8                               # 0x8
.Laes_CPI19_4:
	.byte	0                               # 0x0
	.byte	195                             # 0xc3
	.byte	79                              # 0x4f
	.byte	12                              # 0xc
	.byte	252                             # 0xfc
	.byte	124                             # 0x7c
	.byte	67                              # 0x43
	.byte	128                             # 0x80
	.byte	207                             # 0xcf
	.byte	51                              # 0x33
	.byte	63                              # 0x3f
	.byte	112                             # 0x70
	.byte	191                             # 0xbf
	.byte	179                             # 0xb3
	.byte	240                             # 0xf0
	.byte	140                             # 0x8c
.Laes_CPI19_5:
	.byte	0                               # 0x0
	.byte	230                             # 0xe6
	.byte	114                             # 0x72
	.byte	183                             # 0xb7
	.byte	229                             # 0xe5
	.byte	198                             # 0xc6
	.byte	197                             # 0xc5
	.byte	35                              # 0x23
	.byte	81                              # 0x51
	.byte	180                             # 0xb4
	.byte	3                               # 0x3
	.byte	113                             # 0x71
	.byte	32                              # 0x20
	.byte	151                             # 0x97
	.byte	82                              # 0x52
	.byte	148                             # 0x94
.Laes_CPI19_6:
	.byte	0                               # 0x0
	.byte	124                             # 0x7c
	.byte	32                              # 0x20
	.byte	207                             # 0xcf
	.byte	146                             # 0x92
	.byte	1                               # 0x1
	.byte	239                             # 0xef
	.byte	147                             # 0x93
	.byte	179                             # 0xb3
	.byte	33                              # 0x21
	.byte	238                             # 0xee
	.byte	206                             # 0xce
	.byte	125                             # 0x7d
	.byte	178                             # 0xb2
	.byte	93                              # 0x5d
	.byte	92                              # 0x5c
.Laes_CPI19_7:
	.byte	0                               # 0x0
	.byte	209                             # 0xd1
	.byte	229                             # 0xe5
	.byte	247                             # 0xf7
	.byte	230                             # 0xe6
	.byte	37                              # 0x25
	.byte	18                              # 0x12
	.byte	195                             # 0xc3
	.byte	38                              # 0x26
	.byte	192                             # 0xc0
	.byte	55                              # 0x37
	.byte	210                             # 0xd2
	.byte	244                             # 0xf4
	.byte	3                               # 0x3
	.byte	17                              # 0x11
	.byte	52                              # 0x34
.Laes_CPI19_8:
	.byte	0                               # 0x0
	.byte	203                             # 0xcb
	.byte	215                             # 0xd7
	.byte	176                             # 0xb0
	.byte	33                              # 0x21
	.byte	141                             # 0x8d
	.byte	103                             # 0x67
	.byte	172                             # 0xac
	.byte	123                             # 0x7b
	.byte	90                              # 0x5a
	.byte	234                             # 0xea
	.byte	61                              # 0x3d
	.byte	70                              # 0x46
	.byte	246                             # 0xf6
	.byte	145                             # 0x91
	.byte	28                              # 0x1c
.Laes_CPI19_9:
	.byte	0                               # 0x0
	.byte	159                             # 0x9f
	.byte	97                              # 0x61
	.byte	22                              # 0x16
	.byte	194                             # 0xc2
	.byte	42                              # 0x2a
	.byte	119                             # 0x77
	.byte	232                             # 0xe8
	.byte	137                             # 0x89
	.byte	75                              # 0x4b
	.byte	93                              # 0x5d
	.byte	60                              # 0x3c
	.byte	181                             # 0xb5
	.byte	163                             # 0xa3
	.byte	212                             # 0xd4
	.byte	254                             # 0xfe
	.section	.text.aes.cmac.tags.tag_at_end,"ax",@progbits
	.p2align	1
	.type	aes.cmac.tags.tag_at_end,@function
aes.cmac.tags.tag_at_end: # @aes.cmac.tags.tag_at_end
# %bb.0:                                # %start
	addi	sp, sp, -208
	sd	ra, 200(sp)                     # 8-byte Folded Spill
	sd	s0, 192(sp)                     # 8-byte Folded Spill
	sd	s1, 184(sp)                     # 8-byte Folded Spill
	sd	s2, 176(sp)                     # 8-byte Folded Spill
	sd	s3, 168(sp)                     # 8-byte Folded Spill
	sd	s4, 160(sp)                     # 8-byte Folded Spill
	sd	s5, 152(sp)                     # 8-byte Folded Spill
	sd	s6, 144(sp)                     # 8-byte Folded Spill
	sd	s7, 136(sp)                     # 8-byte Folded Spill
	sd	s8, 128(sp)                     # 8-byte Folded Spill
	sd	s9, 120(sp)                     # 8-byte Folded Spill
	sd	s10, 112(sp)                    # 8-byte Folded Spill
	sd	s11, 104(sp)                    # 8-byte Folded Spill
	csrr	t1, vlenb
	li	a6, 10
	mul	t1, t1, a6
	li	t2, 3
	slli	t2, t2, 10
.Laes_BB19_1:                               # %start
                                        # =>This Inner Loop Header: Depth=1
	sub	sp, sp, t2
	sd	zero, 0(sp)
	sub	t1, t1, t2
	bge	t1, t2, .Laes_BB19_1
# %bb.2:                                # %start
	sub	sp, sp, t1
	mv	s5, a5
	mv	a6, a4
	sd	a3, 48(sp)                      # 8-byte Folded Spill
	mv	s4, a2
	mv	s6, a1
	sd	a0, 56(sp)                      # 8-byte Folded Spill
	addi	a4, a2, -1
	vsetivli	zero, 16, e8, m1, ta, ma
	vle8.v	v9, (a1)
.Laes_pcrel_hi86:
	auipc	a0, %pcrel_hi(.Laes_CPI19_0)
.Laes_pcrel_hi87:
	auipc	a1, %pcrel_hi(.Laes_CPI19_1)
.Laes_pcrel_hi88:
	auipc	a2, %pcrel_hi(.Laes_CPI19_2)
.Laes_pcrel_hi89:
	auipc	a3, %pcrel_hi(.Laes_CPI19_3)
	li	a5, 2
.Laes_pcrel_hi90:
	auipc	s1, %pcrel_hi(.Laes_CPI19_4)
.Laes_pcrel_hi91:
	auipc	s0, %pcrel_hi(.Laes_CPI19_5)
	addi	a0, a0, %pcrel_lo(.Laes_pcrel_hi86)
	vle8.v	v11, (a0)
.Laes_pcrel_hi92:
	auipc	a0, %pcrel_hi(.Laes_CPI19_6)
	addi	a1, a1, %pcrel_lo(.Laes_pcrel_hi87)
	vle8.v	v12, (a1)
.Laes_pcrel_hi93:
	auipc	a1, %pcrel_hi(.Laes_CPI19_7)
	addi	a2, a2, %pcrel_lo(.Laes_pcrel_hi88)
	vle8.v	v22, (a2)
.Laes_pcrel_hi94:
	auipc	a2, %pcrel_hi(.Laes_static.4)
	addi	a3, a3, %pcrel_lo(.Laes_pcrel_hi89)
	vand.vi	v8, v9, 15
	csrr	a7, vlenb
	slli	t0, a7, 3
	sub	a7, t0, a7
	add	a7, a7, sp
	addi	a7, a7, 96
	vs1r.v	v9, (a7)                        # vscale x 8-byte Folded Spill
	vsrl.vi	v9, v9, 4
	csrr	a7, vlenb
	li	t0, 6
	mul	a7, a7, t0
	add	a7, a7, sp
	addi	a7, a7, 96
	vs1r.v	v11, (a7)                       # vscale x 8-byte Folded Spill
	vrgather.vv	v10, v11, v8
	csrr	a7, vlenb
	slli	t0, a7, 2
	add	a7, a7, t0
	add	a7, a7, sp
	addi	a7, a7, 96
	vs1r.v	v12, (a7)                       # vscale x 8-byte Folded Spill
	vrgather.vv	v8, v12, v9
	vxor.vv	v14, v8, v10
	vle8.v	v21, (a3)
.Laes_pcrel_hi95:
	auipc	a3, %pcrel_hi(.Laes_static.5)
	addi	s1, s1, %pcrel_lo(.Laes_pcrel_hi90)
	addi	s0, s0, %pcrel_lo(.Laes_pcrel_hi91)
	addi	a0, a0, %pcrel_lo(.Laes_pcrel_hi92)
	addi	a1, a1, %pcrel_lo(.Laes_pcrel_hi93)
	addi	s9, a2, %pcrel_lo(.Laes_pcrel_hi94)
	addi	s10, a3, %pcrel_lo(.Laes_pcrel_hi95)
	sd	s0, 40(sp)                      # 8-byte Folded Spill
	sd	a0, 32(sp)                      # 8-byte Folded Spill
	sd	a1, 24(sp)                      # 8-byte Folded Spill
	bltu	a4, a5, .Laes_BB19_5
# %bb.3:                                # %join.5.i.i.lr.ph.i.i
	mv	s11, s1
	vle8.v	v10, (s1)
	vle8.v	v11, (s0)
	vle8.v	v12, (a0)
	vle8.v	v13, (a1)
	addi	a0, s4, -2
	li	a1, 16
.Laes_BB19_4:                               # %join.5.i.i.i.i
                                        # =>This Inner Loop Header: Depth=1
	add	a2, s6, a1
	vsrl.vi	v9, v14, 4
	vand.vi	v8, v14, 15
	andi	a3, a1, 48
	addi	a0, a0, -1
	vle8.v	v14, (a2)
	vxor.vv	v15, v9, v8
	vrgather.vv	v16, v22, v8
	vrgather.vv	v8, v21, v9
	add	a2, s9, a3
	add	a3, a3, s10
	vrgather.vv	v17, v21, v15
	vxor.vv	v8, v8, v16
	vxor.vv	v16, v17, v16
	vmsle.vi	v0, v8, -1
	vrgather.vv	v17, v21, v8
	vmerge.vim	v8, v17, 0, v0
	vmsle.vi	v0, v16, -1
	vrgather.vv	v17, v21, v16
	vmerge.vim	v16, v17, 0, v0
	vxor.vv	v15, v8, v15
	vmsle.vi	v8, v8, -1
	vxor.vv	v17, v16, v9
	vrgather.vv	v18, v10, v15
	vmsle.vi	v9, v16, -1
	vrgather.vv	v16, v11, v17
	vmv1r.v	v0, v9
	vmerge.vim	v16, v16, 0, v0
	vxor.vv	v18, v16, v18
	vmv1r.v	v0, v8
	vmerge.vvm	v16, v18, v16, v0
	vle8.v	v18, (a2)
	vle8.v	v19, (a3)
	vrgather.vv	v20, v12, v15
	vrgather.vv	v15, v13, v17
	vmv1r.v	v0, v9
	vmerge.vim	v15, v15, 0, v0
	vmsle.vi	v9, v18, -1
	vxor.vv	v17, v15, v20
	vmv1r.v	v0, v8
	vmerge.vvm	v8, v17, v15, v0
	vrgather.vv	v15, v16, v18
	vrgather.vv	v17, v16, v19
	vxor.vv	v15, v8, v15
	vmv1r.v	v0, v9
	vmerge.vvm	v15, v15, v8, v0
	vmsle.vi	v8, v19, -1
	vrgather.vv	v16, v15, v18
	vxor.vv	v16, v14, v16
	vmerge.vvm	v9, v16, v14, v0
	vxor.vv	v14, v9, v17
	vmv1r.v	v0, v8
	vmerge.vvm	v8, v14, v9, v0
	vxor.vv	v14, v8, v15
	addi	a1, a1, 16
	bnez	a0, .Laes_BB19_4
	j	.Laes_BB19_6
.Laes_BB19_5:
	mv	s11, s1
.Laes_BB19_6:                               # %"cmac::subkeys::subkeys::<#ef80964e0b8d42c0>.exit.i"
	slli	a4, a4, 4
	vsrl.vi	v8, v14, 4
	vand.vi	v9, v14, 15
.Laes_pcrel_hi96:
	auipc	a1, %pcrel_hi(.Laes_CPI19_8)
.Laes_pcrel_hi97:
	auipc	a2, %pcrel_hi(.Laes_CPI19_9)
.Laes_pcrel_hi98:
	auipc	a3, %pcrel_hi(.Laes_static.3)
	lui	a5, 16
	lui	s2, 4080
	li	s3, 255
	add	a0, s6, a4
	vxor.vv	v10, v8, v9
	csrr	a7, vlenb
	slli	a7, a7, 3
	add	a7, a7, sp
	addi	a7, a7, 96
	vs1r.v	v22, (a7)                       # vscale x 8-byte Folded Spill
	vrgather.vv	v11, v22, v9
	vrgather.vv	v9, v21, v8
	addi	a1, a1, %pcrel_lo(.Laes_pcrel_hi96)
	addi	a2, a2, %pcrel_lo(.Laes_pcrel_hi97)
	andi	a4, a4, 48
	addi	a3, a3, %pcrel_lo(.Laes_pcrel_hi98)
	addi	s7, a5, -256
	slli	s3, s3, 24
	vle8.v	v13, (a0)
	vrgather.vv	v12, v21, v10
	vxor.vv	v9, v9, v11
	vle8.v	v14, (a1)
	vxor.vv	v11, v12, v11
	vmsle.vi	v0, v9, -1
	vrgather.vv	v12, v21, v9
	vmerge.vim	v9, v12, 0, v0
	vmsle.vi	v0, v11, -1
	csrr	a0, vlenb
	slli	a1, a0, 3
	add	a0, a0, a1
	add	a0, a0, sp
	addi	a0, a0, 96
	vs1r.v	v21, (a0)                       # vscale x 8-byte Folded Spill
	vrgather.vv	v12, v21, v11
	vmerge.vim	v11, v12, 0, v0
	vle8.v	v12, (a2)
	add	a3, a3, a4
	vxor.vv	v8, v11, v8
	vmsle.vi	v0, v11, -1
	csrr	a0, vlenb
	slli	a0, a0, 1
	add	a0, a0, sp
	addi	a0, a0, 96
	vs1r.v	v12, (a0)                       # vscale x 8-byte Folded Spill
	vrgather.vv	v11, v12, v8
	vmerge.vim	v8, v11, 0, v0
	vle8.v	v12, (a3)
	vxor.vv	v10, v9, v10
	csrr	a0, vlenb
	slli	a1, a0, 1
	add	a0, a0, a1
	add	a0, a0, sp
	addi	a0, a0, 96
	vs1r.v	v14, (a0)                       # vscale x 8-byte Folded Spill
	vrgather.vv	v11, v14, v10
	vmsle.vi	v0, v9, -1
	vxor.vv	v9, v8, v11
	vmerge.vvm	v8, v9, v8, v0
	vmsle.vi	v0, v12, -1
	csrr	a0, vlenb
	add	a0, a0, sp
	addi	a0, a0, 96
	vs1r.v	v12, (a0)                       # vscale x 8-byte Folded Spill
	vrgather.vv	v9, v8, v12
	vxor.vv	v8, v13, v9
	csrr	a0, vlenb
	slli	a0, a0, 2
	add	a0, a0, sp
	addi	a0, a0, 96
	vs1r.v	v13, (a0)                       # vscale x 8-byte Folded Spill
	vmerge.vvm	v8, v8, v13, v0
	vsetivli	zero, 2, e64, m1, ta, ma
	vmv.x.s	a1, v8
	vslidedown.vi	v8, v8, 1
	vmv.x.s	a0, v8
	srli	a7, a1, 40
	srli	t0, a1, 56
	srli	a4, a1, 24
	srli	a5, a1, 8
	srliw	s0, a1, 24
	and	s1, a1, s2
	srli	a2, a0, 40
	and	a3, a7, s7
	or	a7, a3, t0
	srli	a3, a0, 56
	and	a4, a4, s2
	and	a5, a5, s3
	or	a4, a4, a5
	srli	a5, a0, 24
	slli	s0, s0, 32
	slli	s1, s1, 24
	or	s0, s0, s1
	srli	s1, a0, 8
	and	a2, a2, s7
	or	a2, a2, a3
	srliw	a3, a0, 24
	and	a5, a5, s2
	and	s1, s1, s3
	or	a5, a5, s1
	and	s1, a0, s2
	slli	a3, a3, 32
	slli	s1, s1, 24
	or	a3, a3, s1
	or	a4, a4, a7
	slli	s1, a1, 56
	and	a1, a1, s7
	slli	a1, a1, 40
	or	a1, a1, s1
	or	a1, a1, s0
	or	a2, a2, a5
	slli	a5, a0, 56
	and	a0, a0, s7
	slli	a0, a0, 40
	or	a0, a0, a5
	or	a0, a0, a3
	vmv.v.i	v8, 0
	or	a1, a1, a4
	addi	s8, sp, 64
	srai	s1, s1, 63
	srli	a5, a5, 63
	andi	a3, s1, 135
	or	a0, a0, a2
	slli	a1, a1, 1
	or	a1, a1, a5
	slli	a0, a0, 1
	xor	a0, a0, a3
	vmv.v.x	v9, a0
	vslide1down.vx	v9, v9, a1
	addi	a0, sp, 96
	vs1r.v	v9, (a0)                        # vscale x 8-byte Folded Spill
	vse64.v	v8, (s8)
	addi	a0, sp, 64
	mv	a1, a6
	mv	a2, s5
	la	t1, memcpy
	jalr	t1
	li	a0, 16
	bne	s5, a0, .Laes_BB19_8
# %bb.7:                                # %then.1.i
	vsetivli	zero, 16, e8, m1, ta, ma
	vle8.v	v8, (s8)
	vid.v	v9
	vrsub.vi	v9, v9, 15
	addi	a0, sp, 96
	vl1r.v	v11, (a0)                       # vscale x 8-byte Folded Reload
	vrgather.vv	v10, v11, v9
	vxor.vv	v8, v8, v10
	j	.Laes_BB19_9
.Laes_BB19_8:                               # %else.2.i
	addi	a0, sp, 96
	vl1r.v	v16, (a0)                       # vscale x 8-byte Folded Reload
	vsetivli	zero, 8, e64, m4, ta, ma
	vzext.vf8	v8, v16
	vid.v	v12
	li	a0, 56
	vsetivli	zero, 8, e8, m1, ta, ma
	vslidedown.vi	v20, v16, 8
	vsetivli	zero, 8, e64, m4, ta, ma
	vsll.vi	v12, v12, 3
	vzext.vf8	v16, v20
	vrsub.vx	v20, v12, a0
	vsll.vv	v12, v8, v20
	vsll.vv	v8, v16, v20
	add	s5, s5, s8
	li	a0, 128
	vsetivli	zero, 16, e8, m1, ta, ma
	vid.v	v16
	sb	a0, 0(s5)
	vsetivli	zero, 8, e64, m4, ta, ma
	vredor.vs	v12, v12, v12
	vsetivli	zero, 16, e8, m1, ta, ma
	vle8.v	v13, (s8)
	vsetivli	zero, 8, e64, m4, ta, ma
	vredor.vs	v8, v8, v8
	vmv.x.s	a0, v12
	vmv.x.s	s1, v8
	srli	a2, a0, 40
	srli	a3, a0, 56
	srli	a4, a0, 24
	srli	a5, a0, 8
	srliw	a1, a0, 24
	srli	s0, s1, 8
	and	a5, a5, s3
	and	a6, s0, s3
	and	s0, a0, s2
	and	a2, a2, s7
	or	a7, a2, a3
	slli	a3, a0, 56
	and	a0, a0, s7
	and	a4, a4, s2
	or	t0, a5, a4
	srli	a5, s1, 40
	slli	a1, a1, 32
	slli	s0, s0, 24
	or	t1, s0, a1
	srli	a1, s1, 56
	and	a5, a5, s7
	or	a5, a5, a1
	srli	a1, s1, 24
	and	a1, a1, s2
	or	a1, a6, a1
	srliw	a2, s1, 24
	and	a4, s1, s2
	and	s0, s1, s7
	slli	s1, s1, 56
	slli	a0, a0, 40
	slli	a2, a2, 32
	slli	a4, a4, 24
	slli	s0, s0, 40
	or	a2, a2, a4
	srai	a4, s1, 63
	or	a0, a0, a3
	srli	a3, a3, 63
	or	s0, s0, s1
	andi	a4, a4, 135
	or	s1, t0, a7
	or	a0, a0, t1
	or	a1, a1, a5
	or	a2, a2, s0
	or	a0, a0, s1
	or	a1, a1, a2
	slli	a1, a1, 1
	slli	a0, a0, 1
	or	a1, a1, a3
	xor	a0, a0, a4
	vsetivli	zero, 2, e64, m1, ta, ma
	vmv.v.x	v8, a0
	vslide1down.vx	v8, v8, a1
	vsetivli	zero, 16, e8, m1, ta, ma
	vrsub.vi	v9, v16, 15
	vrgather.vv	v10, v8, v9
	vxor.vv	v8, v13, v10
.Laes_BB19_9:                               # %"cmac::tags::last_block::<#ef80964e0b8d42c0>.exit"
	ld	a0, 48(sp)                      # 8-byte Folded Reload
	vle8.v	v9, (a0)
	vxor.vv	v8, v8, v9
	csrr	a0, vlenb
	slli	a1, a0, 3
	sub	a0, a1, a0
	add	a0, a0, sp
	addi	a0, a0, 96
	vl1r.v	v9, (a0)                        # vscale x 8-byte Folded Reload
	vxor.vv	v8, v8, v9
	vand.vi	v9, v8, 15
	vsrl.vi	v8, v8, 4
	csrr	a0, vlenb
	li	a1, 6
	mul	a0, a0, a1
	add	a0, a0, sp
	addi	a0, a0, 96
	vl1r.v	v11, (a0)                       # vscale x 8-byte Folded Reload
	vrgather.vv	v10, v11, v9
	csrr	a0, vlenb
	slli	a1, a0, 2
	add	a0, a0, a1
	add	a0, a0, sp
	addi	a0, a0, 96
	vl1r.v	v11, (a0)                       # vscale x 8-byte Folded Reload
	vrgather.vv	v9, v11, v8
	li	a0, 2
	vxor.vv	v8, v9, v10
	csrr	a1, vlenb
	slli	a2, a1, 3
	add	a1, a1, a2
	add	a1, a1, sp
	addi	a1, a1, 96
	vl1r.v	v21, (a1)                       # vscale x 8-byte Folded Reload
	csrr	a1, vlenb
	slli	a1, a1, 3
	add	a1, a1, sp
	addi	a1, a1, 96
	vl1r.v	v22, (a1)                       # vscale x 8-byte Folded Reload
	addi	a1, s4, -1
	ld	a2, 40(sp)                      # 8-byte Folded Reload
	bltu	a1, a0, .Laes_BB19_12
# %bb.10:                               # %join.5.i.i.lr.ph
	vle8.v	v10, (s11)
	vle8.v	v11, (a2)
	ld	a0, 32(sp)                      # 8-byte Folded Reload
	vle8.v	v12, (a0)
	ld	a0, 24(sp)                      # 8-byte Folded Reload
	vle8.v	v13, (a0)
	addi	s4, s4, -2
	li	a0, 16
.Laes_BB19_11:                              # %join.5.i.i
                                        # =>This Inner Loop Header: Depth=1
	add	a1, s6, a0
	vsrl.vi	v9, v8, 4
	vand.vi	v8, v8, 15
	andi	a2, a0, 48
	addi	s4, s4, -1
	vle8.v	v14, (a1)
	vxor.vv	v15, v9, v8
	vrgather.vv	v16, v22, v8
	vrgather.vv	v8, v21, v9
	add	a1, s9, a2
	add	a2, a2, s10
	vrgather.vv	v17, v21, v15
	vxor.vv	v8, v8, v16
	vxor.vv	v16, v17, v16
	vmsle.vi	v0, v8, -1
	vrgather.vv	v17, v21, v8
	vmerge.vim	v8, v17, 0, v0
	vmsle.vi	v0, v16, -1
	vrgather.vv	v17, v21, v16
	vmerge.vim	v16, v17, 0, v0
	vxor.vv	v15, v8, v15
	vmsle.vi	v8, v8, -1
	vxor.vv	v17, v16, v9
	vrgather.vv	v18, v10, v15
	vmsle.vi	v9, v16, -1
	vrgather.vv	v16, v11, v17
	vmv1r.v	v0, v9
	vmerge.vim	v16, v16, 0, v0
	vxor.vv	v18, v16, v18
	vmv1r.v	v0, v8
	vmerge.vvm	v16, v18, v16, v0
	vle8.v	v18, (a1)
	vle8.v	v19, (a2)
	vrgather.vv	v20, v12, v15
	vrgather.vv	v15, v13, v17
	vmv1r.v	v0, v9
	vmerge.vim	v15, v15, 0, v0
	vmsle.vi	v9, v18, -1
	vxor.vv	v17, v15, v20
	vmv1r.v	v0, v8
	vmerge.vvm	v8, v17, v15, v0
	vrgather.vv	v15, v16, v18
	vrgather.vv	v17, v16, v19
	vxor.vv	v15, v8, v15
	vmv1r.v	v0, v9
	vmerge.vvm	v15, v15, v8, v0
	vmsle.vi	v8, v19, -1
	vrgather.vv	v16, v15, v18
	vxor.vv	v16, v14, v16
	vmerge.vvm	v9, v16, v14, v0
	vxor.vv	v14, v9, v17
	vmv1r.v	v0, v8
	vmerge.vvm	v8, v14, v9, v0
	vxor.vv	v8, v8, v15
	addi	a0, a0, 16
	bnez	s4, .Laes_BB19_11
.Laes_BB19_12:                              # %"aes_permute::blocks::process_block::<#aedbc4fd156a355d>.exit"
	vsrl.vi	v9, v8, 4
	vand.vi	v8, v8, 15
	vxor.vv	v10, v9, v8
	vrgather.vv	v11, v22, v8
	vrgather.vv	v8, v21, v9
	vrgather.vv	v12, v21, v10
	vxor.vv	v8, v8, v11
	vxor.vv	v11, v12, v11
	vmsle.vi	v0, v8, -1
	vrgather.vv	v12, v21, v8
	vmerge.vim	v12, v12, 0, v0
	csrr	a0, vlenb
	add	a0, a0, sp
	addi	a0, a0, 96
	vl1r.v	v15, (a0)                       # vscale x 8-byte Folded Reload
	vmsle.vi	v8, v15, -1
	vmsle.vi	v0, v11, -1
	vrgather.vv	v13, v21, v11
	vmerge.vim	v11, v13, 0, v0
	vxor.vv	v10, v12, v10
	vxor.vv	v9, v11, v9
	csrr	a0, vlenb
	slli	a1, a0, 1
	add	a0, a0, a1
	add	a0, a0, sp
	addi	a0, a0, 96
	vl1r.v	v14, (a0)                       # vscale x 8-byte Folded Reload
	vrgather.vv	v13, v14, v10
	vmsle.vi	v0, v11, -1
	csrr	a0, vlenb
	slli	a0, a0, 1
	add	a0, a0, sp
	addi	a0, a0, 96
	vl1r.v	v11, (a0)                       # vscale x 8-byte Folded Reload
	vrgather.vv	v10, v11, v9
	vmerge.vim	v9, v10, 0, v0
	vmsle.vi	v0, v12, -1
	vxor.vv	v10, v9, v13
	vmerge.vvm	v9, v10, v9, v0
	vrgather.vv	v10, v9, v15
	csrr	a0, vlenb
	slli	a0, a0, 2
	add	a0, a0, sp
	addi	a0, a0, 96
	vl1r.v	v11, (a0)                       # vscale x 8-byte Folded Reload
	vxor.vv	v9, v11, v10
	vmv1r.v	v0, v8
	vmerge.vvm	v8, v9, v11, v0
	ld	a0, 56(sp)                      # 8-byte Folded Reload
	vse8.v	v8, (a0)
	csrr	a0, vlenb
	li	a1, 10
	mul	a0, a0, a1
	add	sp, sp, a0
	ld	ra, 200(sp)                     # 8-byte Folded Reload
	ld	s0, 192(sp)                     # 8-byte Folded Reload
	ld	s1, 184(sp)                     # 8-byte Folded Reload
	ld	s2, 176(sp)                     # 8-byte Folded Reload
	ld	s3, 168(sp)                     # 8-byte Folded Reload
	ld	s4, 160(sp)                     # 8-byte Folded Reload
	ld	s5, 152(sp)                     # 8-byte Folded Reload
	ld	s6, 144(sp)                     # 8-byte Folded Reload
	ld	s7, 136(sp)                     # 8-byte Folded Reload
	ld	s8, 128(sp)                     # 8-byte Folded Reload
	ld	s9, 120(sp)                     # 8-byte Folded Reload
	ld	s10, 112(sp)                    # 8-byte Folded Reload
	ld	s11, 104(sp)                    # 8-byte Folded Reload
	addi	sp, sp, 208
	ret
.Laes_func_end19:
	.size	aes.cmac.tags.tag_at_end, .Laes_func_end19-aes.cmac.tags.tag_at_end
                                        # -- End function
	.section	.text.aes.aes_cipher.zeroize.stack.wipe_stack.768,"ax",@progbits
	.p2align	1                               # -- Begin function aes_cipher::zeroize::stack::wipe_stack::<=768>
	.type	aes.aes_cipher.zeroize.stack.wipe_stack.768,@function
aes.aes_cipher.zeroize.stack.wipe_stack.768: # @aes.aes_cipher.zeroize.stack.wipe_stack.768
# %bb.0:                                # %start
	addi	sp, sp, -800
	sd	ra, 792(sp)                     # 8-byte Folded Spill
	sd	s0, 784(sp)                     # 8-byte Folded Spill
	sd	s1, 776(sp)                     # 8-byte Folded Spill
	addi	s0, sp, 8
	addi	a0, sp, 8
	li	a2, 768
	li	s1, 768
	li	a1, 0
	la	t1, memset
	jalr	t1
	sd	zero, 0(sp)
	#APP
	#NO_APP
	fence	rw, rw
	ld	a0, 0(sp)
	fence	r, rw
	#APP
	#NO_APP
	bgeu	a0, s1, .Laes_BB20_2
# %bb.1:                                # %then.1
	add	a0, a0, s0
	lbu	a0, 0(a0)
	#APP
	#NO_APP
	mv	a1, sp
	amoswap.d.aqrl	zero, a0, (a1)
	#APP
	#NO_APP
.Laes_BB20_2:                               # %common.ret
	ld	ra, 792(sp)                     # 8-byte Folded Reload
	ld	s0, 784(sp)                     # 8-byte Folded Reload
	ld	s1, 776(sp)                     # 8-byte Folded Reload
	addi	sp, sp, 800
	ret
.Laes_func_end20:
	.size	aes.aes_cipher.zeroize.stack.wipe_stack.768, .Laes_func_end20-aes.aes_cipher.zeroize.stack.wipe_stack.768
                                        # -- End function
	.section	.text.aes.cmac.pieces.MessageZeroize.zeroize,"ax",@progbits
	.p2align	1                               # -- Begin function cmac::pieces::MessageZeroize::zeroize
	.type	aes.cmac.pieces.MessageZeroize.zeroize,@function
aes.cmac.pieces.MessageZeroize.zeroize: # @aes.cmac.pieces.MessageZeroize.zeroize
# %bb.0:                                # %start
	addi	sp, sp, -16
	sd	ra, 8(sp)                       # 8-byte Folded Spill
	sd	s0, 0(sp)                       # 8-byte Folded Spill
	mv	s0, a0
	addi	a0, a0, 16
	vsetivli	zero, 2, e64, m1, ta, ma
	vmv.v.i	v8, 0
	vse64.v	v8, (s0)
	call	aes.aes_cipher.zeroize.elements.zeroize_elements.2
	addi	a0, s0, 32
	ld	ra, 8(sp)                       # 8-byte Folded Reload
	ld	s0, 0(sp)                       # 8-byte Folded Reload
	addi	sp, sp, 16
	tail	aes.aes_cipher.zeroize.elements.zeroize_elements.2
.Laes_func_end21:
	.size	aes.cmac.pieces.MessageZeroize.zeroize, .Laes_func_end21-aes.cmac.pieces.MessageZeroize.zeroize
                                        # -- End function
	.section	.text.aes.aes_cipher.zeroize.elements.zeroize_elements.2,"ax",@progbits
	.p2align	1                               # -- Begin function aes_cipher::zeroize::elements::zeroize_elements::<#331496ca003a3905>
	.type	aes.aes_cipher.zeroize.elements.zeroize_elements.2,@function
aes.aes_cipher.zeroize.elements.zeroize_elements.2: # @aes.aes_cipher.zeroize.elements.zeroize_elements.2
# %bb.0:                                # %start
	addi	sp, sp, -32
	vsetivli	zero, 2, e64, m1, ta, ma
	vmv.v.i	v8, 0
	addi	a1, sp, 16
	sd	zero, 8(sp)
	vse64.v	v8, (a1)
	#APP
	#NO_APP
	fence	rw, rw
	ld	a2, 8(sp)
	fence	r, rw
	#APP
	#NO_APP
	beqz	a2, .Laes_BB22_2
# %bb.1:                                # %"aes_cipher::zeroize::observe::<#38c92a2c69ae69e8>.exit8"
	vsetivli	zero, 16, e8, m1, ta, ma
	vle8.v	v8, (a1)
	vse8.v	v8, (a0)
	#APP
	#NO_APP
	addi	a0, sp, 8
	amoswap.d.aqrl	zero, zero, (a0)
	#APP
	#NO_APP
	addi	sp, sp, 32
	vsetvli	t0, zero, e8, m8, ta, ma
	vmv.v.i	v0, 0
	vmv.v.i	v8, 0
	vmv.v.i	v16, 0
	vmv.v.i	v24, 0
	li	a1, 0
	li	a2, 0
	li	a3, 0
	li	a4, 0
	li	a5, 0
	li	a6, 0
	li	a7, 0
	li	t0, 0
	li	t1, 0
	li	t2, 0
	li	t3, 0
	li	t4, 0
	li	t5, 0
	li	t6, 0
	ret
.Laes_BB22_2:                               # %then.1.i
	vsetivli	zero, 16, e8, m1, ta, ma
	vle8.v	v8, (a1)
	lbu	a1, 0(a0)
	vse8.v	v8, (a0)
	lbu	a2, 0(a0)
	and	a2, a2, a1
	#APP
	#NO_APP
	addi	a0, sp, 8
	amoswap.d.aqrl	zero, a2, (a0)
	#APP
	#NO_APP
	addi	sp, sp, 32
	vsetvli	t0, zero, e8, m8, ta, ma
	vmv.v.i	v0, 0
	vmv.v.i	v8, 0
	vmv.v.i	v16, 0
	vmv.v.i	v24, 0
	li	a1, 0
	li	a2, 0
	li	a3, 0
	li	a4, 0
	li	a5, 0
	li	a6, 0
	li	a7, 0
	li	t0, 0
	li	t1, 0
	li	t2, 0
	li	t3, 0
	li	t4, 0
	li	t5, 0
	li	t6, 0
	ret
.Laes_func_end22:
	.size	aes.aes_cipher.zeroize.elements.zeroize_elements.2, .Laes_func_end22-aes.aes_cipher.zeroize.elements.zeroize_elements.2
                                        # -- End function
	.section	.text.aes.cmac.chain_in_pieces.ChainInPieces.extend,"ax",@progbits
	.p2align	1                               # -- Begin function cmac::chain_in_pieces::ChainInPieces::extend::<#ef80964e0b8d42c0>
	.type	aes.cmac.chain_in_pieces.ChainInPieces.extend,@function
aes.cmac.chain_in_pieces.ChainInPieces.extend: # @aes.cmac.chain_in_pieces.ChainInPieces.extend
# %bb.0:                                # %start
	addi	sp, sp, -96
	sd	ra, 88(sp)                      # 8-byte Folded Spill
	sd	s0, 80(sp)                      # 8-byte Folded Spill
	sd	s1, 72(sp)                      # 8-byte Folded Spill
	sd	s2, 64(sp)                      # 8-byte Folded Spill
	sd	s3, 56(sp)                      # 8-byte Folded Spill
	sd	s4, 48(sp)                      # 8-byte Folded Spill
	sd	s5, 40(sp)                      # 8-byte Folded Spill
	sd	s6, 32(sp)                      # 8-byte Folded Spill
	sd	s7, 24(sp)                      # 8-byte Folded Spill
	sd	s8, 16(sp)                      # 8-byte Folded Spill
	sd	s9, 8(sp)                       # 8-byte Folded Spill
	sd	s10, 0(sp)                      # 8-byte Folded Spill
	mv	s1, a2
	mv	s3, a0
	ld	s9, 0(a0)
	li	a0, 16
	mv	s4, a1
	bltu	s9, a0, .Laes_BB23_2
# %bb.1:                                # %start
	li	s9, 16
.Laes_BB23_2:                               # %start
	sub	a2, a0, s9
	bgeu	a2, a3, .Laes_BB23_7
# %bb.3:                                # %join.3
	add	s5, s1, a2
	addi	s6, s3, 24
	add	a0, s6, s9
	sub	a1, a0, s1
	sub	s2, a3, a2
	mv	s10, a3
	bgeu	a1, a2, .Laes_BB23_11
# %bb.4:                                # %vector.memcheck61
	csrr	a1, vlenb
	add	a3, s9, s3
	slli	a1, a1, 1
	sub	a3, a3, s1
	addi	a3, a3, 24
	bgeu	a3, a1, .Laes_BB23_13
# %bb.5:
	mv	a1, s1
.Laes_BB23_6:                               # %join.7.i.i.i.i.i.i29
                                        # =>This Inner Loop Header: Depth=1
	lbu	a2, 0(a1)
	addi	a1, a1, 1
	sb	a2, 0(a0)
	addi	a0, a0, 1
	bne	a1, s5, .Laes_BB23_6
	j	.Laes_BB23_15
.Laes_BB23_7:                               # %then.1
	add	a1, s3, s9
	addi	a0, a1, 24
	sub	a2, a0, s1
	add	s2, s9, a3
	bgeu	a2, a3, .Laes_BB23_12
# %bb.8:                                # %vector.memcheck
	csrr	a2, vlenb
	sub	a1, a1, s1
	slli	a2, a2, 1
	addi	a1, a1, 24
	bgeu	a1, a2, .Laes_BB23_22
# %bb.9:                                # %join.7.i.i.i.i.i.i.preheader
	add	a3, a3, s1
.Laes_BB23_10:                              # %join.7.i.i.i.i.i.i
                                        # =>This Inner Loop Header: Depth=1
	lbu	a1, 0(s1)
	addi	s1, s1, 1
	sb	a1, 0(a0)
	addi	a0, a0, 1
	bne	s1, a3, .Laes_BB23_10
	j	.Laes_BB23_21
.Laes_BB23_11:                              # %apart.2.i.i.i.i.i.i28
	mv	a1, s1
	la	t1, memmove
	jalr	t1
	j	.Laes_BB23_15
.Laes_BB23_12:                              # %apart.2.i.i.i.i.i.i
	mv	a1, s1
	mv	a2, a3
	j	.Laes_BB23_20
.Laes_BB23_13:                              # %vector.body67.preheader
	li	a1, 0
.Laes_BB23_14:                              # %vector.body67
                                        # =>This Inner Loop Header: Depth=1
	vsetvli	a3, a2, e8, m2, ta, ma
	add	a4, s1, a1
	vle8.v	v8, (a4)
	add	a4, a0, a1
	sub	a2, a2, a3
	vse8.v	v8, (a4)
	add	a1, a1, a3
	bnez	a2, .Laes_BB23_14
.Laes_BB23_15:                              # %"core::slice::edits::slice+T::copy_from_slice::<i8,20'core::clone::U8Clone{}>.exit36"
	addi	a0, s2, -1
	andi	s7, a0, -16
	add	s0, s5, s7
	sub	s2, s2, s7
	addi	s8, s3, 8
	li	a3, 16
	mv	a0, s4
	mv	a1, s8
	mv	a2, s6
	call	aes.cmac.chaining.chain
	mv	a0, s4
	mv	a1, s8
	mv	a2, s5
	mv	a3, s7
	call	aes.cmac.chaining.chain
	sub	a0, s6, s0
	bgeu	a0, s2, .Laes_BB23_19
# %bb.16:                               # %vector.memcheck74
	csrr	a0, vlenb
	add	s9, s9, s3
	add	s7, s7, s1
	slli	a0, a0, 1
	sub	a1, s9, s7
	addi	a1, a1, 8
	bgeu	a1, a0, .Laes_BB23_24
# %bb.17:                               # %join.7.i.i.i.i.i.i47.preheader
	add	s1, s1, s10
.Laes_BB23_18:                              # %join.7.i.i.i.i.i.i47
                                        # =>This Inner Loop Header: Depth=1
	lbu	a0, 0(s0)
	addi	s0, s0, 1
	sb	a0, 0(s6)
	addi	s6, s6, 1
	bne	s0, s1, .Laes_BB23_18
	j	.Laes_BB23_21
.Laes_BB23_19:                              # %apart.2.i.i.i.i.i.i46
	mv	a0, s6
	mv	a1, s0
	mv	a2, s2
.Laes_BB23_20:                              # %common.ret
	la	t1, memmove
	jalr	t1
.Laes_BB23_21:                              # %common.ret
	sd	s2, 0(s3)
	ld	ra, 88(sp)                      # 8-byte Folded Reload
	ld	s0, 80(sp)                      # 8-byte Folded Reload
	ld	s1, 72(sp)                      # 8-byte Folded Reload
	ld	s2, 64(sp)                      # 8-byte Folded Reload
	ld	s3, 56(sp)                      # 8-byte Folded Reload
	ld	s4, 48(sp)                      # 8-byte Folded Reload
	ld	s5, 40(sp)                      # 8-byte Folded Reload
	ld	s6, 32(sp)                      # 8-byte Folded Reload
	ld	s7, 24(sp)                      # 8-byte Folded Reload
	ld	s8, 16(sp)                      # 8-byte Folded Reload
	ld	s9, 8(sp)                       # 8-byte Folded Reload
	ld	s10, 0(sp)                      # 8-byte Folded Reload
	addi	sp, sp, 96
	ret
.Laes_BB23_22:                              # %vector.body.preheader
	li	a1, 0
.Laes_BB23_23:                              # %vector.body
                                        # =>This Inner Loop Header: Depth=1
	vsetvli	a2, a3, e8, m2, ta, ma
	add	a4, s1, a1
	vle8.v	v8, (a4)
	add	a4, a0, a1
	sub	a3, a3, a2
	vse8.v	v8, (a4)
	add	a1, a1, a2
	bnez	a3, .Laes_BB23_23
	j	.Laes_BB23_21
.Laes_BB23_24:                              # %vector.body80.preheader
	li	a0, 0
	mv	a1, s2
.Laes_BB23_25:                              # %vector.body80
                                        # =>This Inner Loop Header: Depth=1
	vsetvli	a2, a1, e8, m2, ta, ma
	add	a3, s0, a0
	vle8.v	v8, (a3)
	add	a3, s6, a0
	sub	a1, a1, a2
	vse8.v	v8, (a3)
	add	a0, a0, a2
	bnez	a1, .Laes_BB23_25
	j	.Laes_BB23_21
.Laes_func_end23:
	.size	aes.cmac.chain_in_pieces.ChainInPieces.extend, .Laes_func_end23-aes.cmac.chain_in_pieces.ChainInPieces.extend
                                        # -- End function
	.section	.rodata.cst16,"aM",@progbits,16
	.p2align	4, 0x0                          # -- Begin function aes_c::kept::fotsgure_aes_set_key
.Laes_CPI24_0:
	.byte	0                               # 0x0
	.byte	1                               # 0x1
	.byte	92                              # 0x5c
	.byte	93                              # 0x5d
	.byte	224                             # 0xe0
	.byte	225                             # 0xe1
	.byte	188                             # 0xbc
	.byte	189                             # 0xbd
	.byte	80                              # 0x50
	.byte	81                              # 0x51
	.byte	12                              # 0xc
	.byte	13                              # 0xd
	.byte	176                             # 0xb0
	.byte	177                             # 0xb1
	.byte	236                             # 0xec
	.byte	237                             # 0xed
.Laes_CPI24_1:
	.byte	0                               # 0x0
	.byte	178                             # 0xb2
	.byte	181                             # 0xb5
	.byte	7                               # 0x7
	.byte	58                              # 0x3a
	.byte	136                             # 0x88
	.byte	143                             # 0x8f
	.byte	61                              # 0x3d
	.byte	172                             # 0xac
	.byte	30                              # 0x1e
	.byte	25                              # 0x19
	.byte	171                             # 0xab
	.byte	150                             # 0x96
	.byte	36                              # 0x24
	.byte	35                              # 0x23
	.byte	145                             # 0x91
.Laes_CPI24_2:
	.byte	0                               # 0x0
	.byte	110                             # 0x6e
	.byte	200                             # 0xc8
	.byte	166                             # 0xa6
	.byte	124                             # 0x7c
	.byte	18                              # 0x12
	.byte	180                             # 0xb4
	.byte	218                             # 0xda
	.byte	188                             # 0xbc
	.byte	210                             # 0xd2
	.byte	116                             # 0x74
	.byte	26                              # 0x1a
	.byte	192                             # 0xc0
	.byte	174                             # 0xae
	.byte	8                               # 0x8
	.byte	102                             # 0x66
.Laes_CPI24_3:
	.byte	0                               # 0x0
	.byte	74                              # 0x4a
	.byte	121                             # 0x79
	.byte	51                              # 0x33
	.byte	55                              # 0x37
	.byte	125                             # 0x7d
	.byte	78                              # 0x4e
	.byte	4                               # 0x4
	.byte	217                             # 0xd9
	.byte	147                             # 0x93
	.byte	160                             # 0xa0
	.byte	234                             # 0xea
	.byte	238                             # 0xee
	.byte	164                             # 0xa4
	.byte	151                             # 0x97
	.byte	221                             # 0xdd
.Laes_CPI24_4:
	.byte	0                               # 0x0
	.byte	219                             # 0xdb
	.byte	20                              # 0x14
	.byte	207                             # 0xcf
	.byte	167                             # 0xa7
	.byte	124                             # 0x7c
	.byte	179                             # 0xb3
	.byte	104                             # 0x68
	.byte	168                             # 0xa8
	.byte	115                             # 0x73
	.byte	188                             # 0xbc
	.byte	103                             # 0x67
	.byte	15                              # 0xf
	.byte	212                             # 0xd4
	.byte	27                              # 0x1b
	.byte	192                             # 0xc0
.Laes_CPI24_5:
	.byte	0                               # 0x0
	.byte	237                             # 0xed
	.byte	209                             # 0xd1
	.byte	60                              # 0x3c
	.byte	218                             # 0xda
	.byte	55                              # 0x37
	.byte	11                              # 0xb
	.byte	230                             # 0xe6
	.byte	8                               # 0x8
	.byte	229                             # 0xe5
	.byte	217                             # 0xd9
	.byte	52                              # 0x34
	.byte	210                             # 0xd2
	.byte	63                              # 0x3f
	.byte	3                               # 0x3
	.byte	238                             # 0xee
.Laes_CPI24_6:
	.byte	0                               # 0x0
	.byte	28                              # 0x1c
	.byte	68                              # 0x44
	.byte	88                              # 0x58
	.byte	151                             # 0x97
	.byte	139                             # 0x8b
	.byte	211                             # 0xd3
	.byte	207                             # 0xcf
	.byte	138                             # 0x8a
	.byte	150                             # 0x96
	.byte	206                             # 0xce
	.byte	210                             # 0xd2
	.byte	29                              # 0x1d
	.byte	1                               # 0x1
	.byte	89                              # 0x59
	.byte	69                              # 0x45
.Laes_CPI24_7:
	.byte	0                               # 0x0
	.byte	48                              # 0x30
	.byte	38                              # 0x26
	.byte	22                              # 0x16
	.byte	183                             # 0xb7
	.byte	135                             # 0x87
	.byte	145                             # 0x91
	.byte	161                             # 0xa1
	.byte	65                              # 0x41
	.byte	113                             # 0x71
	.byte	103                             # 0x67
	.byte	87                              # 0x57
	.byte	246                             # 0xf6
	.byte	198                             # 0xc6
	.byte	208                             # 0xd0
	.byte	224                             # 0xe0
	.section	.text.aes.aes_c.kept.fotsgure_aes_set_key,"ax",@progbits
	.p2align	1
	.type	aes.aes_c.kept.fotsgure_aes_set_key,@function
aes.aes_c.kept.fotsgure_aes_set_key:    # @aes.aes_c.kept.fotsgure_aes_set_key
# %bb.0:                                # %start
	addi	sp, sp, -80
	sd	ra, 72(sp)                      # 8-byte Folded Spill
	sd	s0, 64(sp)                      # 8-byte Folded Spill
	sd	s1, 56(sp)                      # 8-byte Folded Spill
	sd	s2, 48(sp)                      # 8-byte Folded Spill
	sd	s3, 40(sp)                      # 8-byte Folded Spill
	sd	s4, 32(sp)                      # 8-byte Folded Spill
	sd	s5, 24(sp)                      # 8-byte Folded Spill
	sd	s6, 16(sp)                      # 8-byte Folded Spill
	csrr	t1, vlenb
	slli	t1, t1, 3
	li	t2, 3
	slli	t2, t2, 10
.Laes_BB24_1:                               # %start
                                        # =>This Inner Loop Header: Depth=1
	sub	sp, sp, t2
	sd	zero, 0(sp)
	sub	t1, t1, t2
	bge	t1, t2, .Laes_BB24_1
# %bb.2:                                # %start
	sub	sp, sp, t1
	mv	s2, a1
	li	a1, 32
	mv	s0, a0
	bltu	a1, a2, .Laes_BB24_7
# %bb.3:                                # %start
	mv	s1, a2
	lui	a0, 65793
	slli	a0, a0, 4
	srl	a0, a0, a2
	andi	a0, a0, 1
	beqz	a0, .Laes_BB24_7
# %bb.4:                                # %join.3
	addi	s3, s0, 4
	srli	s4, s1, 2
	li	a2, 240
	mv	a0, s3
	li	a1, 0
	la	t1, memset
	jalr	t1
	mv	a0, s3
	mv	a1, s2
	mv	a2, s1
	call	aes.aes_permute.lane_keys.expand_lanes
	sw	s1, 0(s0)
	addi	s2, s0, 244
.Laes_pcrel_hi99:
	auipc	a0, %pcrel_hi(.Laes_CPI24_0)
.Laes_pcrel_hi100:
	auipc	a1, %pcrel_hi(.Laes_CPI24_1)
.Laes_pcrel_hi101:
	auipc	a2, %pcrel_hi(.Laes_CPI24_2)
.Laes_pcrel_hi102:
	auipc	a3, %pcrel_hi(.Laes_CPI24_3)
	addi	a0, a0, %pcrel_lo(.Laes_pcrel_hi99)
	vsetivli	zero, 16, e8, m1, ta, ma
	vle8.v	v8, (a0)
	csrr	a0, vlenb
	slli	a4, a0, 3
	sub	a0, a4, a0
	add	a0, a0, sp
	addi	a0, a0, 16
	vs1r.v	v8, (a0)                        # vscale x 8-byte Folded Spill
.Laes_pcrel_hi103:
	auipc	a0, %pcrel_hi(.Laes_CPI24_4)
	addi	a1, a1, %pcrel_lo(.Laes_pcrel_hi100)
	vle8.v	v8, (a1)
	csrr	a1, vlenb
	li	a4, 6
	mul	a1, a1, a4
	add	a1, a1, sp
	addi	a1, a1, 16
	vs1r.v	v8, (a1)                        # vscale x 8-byte Folded Spill
.Laes_pcrel_hi104:
	auipc	a1, %pcrel_hi(.Laes_CPI24_5)
	addi	a2, a2, %pcrel_lo(.Laes_pcrel_hi101)
	vle8.v	v8, (a2)
	csrr	a2, vlenb
	slli	a4, a2, 2
	add	a2, a2, a4
	add	a2, a2, sp
	addi	a2, a2, 16
	vs1r.v	v8, (a2)                        # vscale x 8-byte Folded Spill
.Laes_pcrel_hi105:
	auipc	a2, %pcrel_hi(.Laes_CPI24_6)
	addi	a3, a3, %pcrel_lo(.Laes_pcrel_hi102)
	vle8.v	v8, (a3)
	csrr	a3, vlenb
	slli	a3, a3, 2
	add	a3, a3, sp
	addi	a3, a3, 16
	vs1r.v	v8, (a3)                        # vscale x 8-byte Folded Spill
.Laes_pcrel_hi106:
	auipc	a3, %pcrel_hi(.Laes_CPI24_7)
	addi	a0, a0, %pcrel_lo(.Laes_pcrel_hi103)
	vle8.v	v8, (a0)
	csrr	a0, vlenb
	slli	a4, a0, 1
	add	a0, a0, a4
	add	a0, a0, sp
	addi	a0, a0, 16
	vs1r.v	v8, (a0)                        # vscale x 8-byte Folded Spill
	slli	s1, s4, 4
	addi	a0, a1, %pcrel_lo(.Laes_pcrel_hi104)
	addi	a1, a2, %pcrel_lo(.Laes_pcrel_hi105)
	addi	a2, a3, %pcrel_lo(.Laes_pcrel_hi106)
	vle8.v	v8, (a0)
	csrr	a0, vlenb
	slli	a0, a0, 1
	add	a0, a0, sp
	addi	a0, a0, 16
	vs1r.v	v8, (a0)                        # vscale x 8-byte Folded Spill
	addi	s5, s1, 96
	vle8.v	v8, (a1)
	csrr	a0, vlenb
	add	a0, a0, sp
	addi	a0, a0, 16
	vs1r.v	v8, (a0)                        # vscale x 8-byte Folded Spill
	vle8.v	v8, (a2)
	addi	a0, sp, 16
	vs1r.v	v8, (a0)                        # vscale x 8-byte Folded Spill
	andi	a0, s5, 48
.Laes_pcrel_hi107:
	auipc	a1, %pcrel_hi(.Laes_static.3)
	addi	a1, a1, %pcrel_lo(.Laes_pcrel_hi107)
	add	s6, a1, a0
	li	a2, 240
	mv	a0, s2
	li	a1, 0
	la	t1, memset
	jalr	t1
	addi	a0, sp, 16
	vl1r.v	v24, (a0)                       # vscale x 8-byte Folded Reload
	csrr	a0, vlenb
	add	a0, a0, sp
	addi	a0, a0, 16
	vl1r.v	v23, (a0)                       # vscale x 8-byte Folded Reload
	csrr	a0, vlenb
	slli	a0, a0, 1
	add	a0, a0, sp
	addi	a0, a0, 16
	vl1r.v	v22, (a0)                       # vscale x 8-byte Folded Reload
	csrr	a0, vlenb
	slli	a1, a0, 1
	add	a0, a0, a1
	add	a0, a0, sp
	addi	a0, a0, 16
	vl1r.v	v21, (a0)                       # vscale x 8-byte Folded Reload
	csrr	a0, vlenb
	slli	a0, a0, 2
	add	a0, a0, sp
	addi	a0, a0, 16
	vl1r.v	v20, (a0)                       # vscale x 8-byte Folded Reload
	csrr	a0, vlenb
	slli	a1, a0, 2
	add	a0, a0, a1
	add	a0, a0, sp
	addi	a0, a0, 16
	vl1r.v	v19, (a0)                       # vscale x 8-byte Folded Reload
	csrr	a0, vlenb
	li	a1, 6
	mul	a0, a0, a1
	add	a0, a0, sp
	addi	a0, a0, 16
	vl1r.v	v18, (a0)                       # vscale x 8-byte Folded Reload
	csrr	a0, vlenb
	slli	a1, a0, 3
	sub	a0, a1, a0
	add	a0, a0, sp
	addi	a0, a0, 16
	vl1r.v	v17, (a0)                       # vscale x 8-byte Folded Reload
	vsetivli	zero, 16, e8, m1, ta, ma
	vle8.v	v10, (s6)
	addi	a0, s4, 5
	addi	a1, s0, 260
	addi	a2, s1, 80
.Laes_BB24_5:                               # %join.5.i
                                        # =>This Inner Loop Header: Depth=1
	add	a3, s0, a2
	andi	a4, a2, 48
.Laes_pcrel_hi108:
	auipc	a5, %pcrel_hi(.Laes_static.6)
.Laes_pcrel_hi109:
	auipc	s1, %pcrel_hi(.Laes_static.4)
	addi	a3, a3, 4
	vle8.v	v8, (a3)
.Laes_pcrel_hi110:
	auipc	a3, %pcrel_hi(.Laes_static.5)
	addi	a5, a5, %pcrel_lo(.Laes_pcrel_hi108)
	addi	s1, s1, %pcrel_lo(.Laes_pcrel_hi109)
	addi	a3, a3, %pcrel_lo(.Laes_pcrel_hi110)
	add	a5, a5, a4
	add	s1, s1, a4
	add	a3, a3, a4
	vle8.v	v9, (a5)
	vle8.v	v11, (s1)
	li	a4, 99
	vle8.v	v12, (a3)
	li	a3, 44
	addi	a0, a0, -1
	vand.vi	v13, v8, 15
	vsrl.vi	v8, v8, 4
	vrgather.vv	v14, v17, v13
	vrgather.vv	v13, v18, v8
	vxor.vv	v8, v14, v13
	vxor.vx	v8, v8, a4
	vand.vi	v13, v8, 15
	vsrl.vi	v8, v8, 4
	vrgather.vv	v14, v19, v13
	vrgather.vv	v15, v20, v8
	vxor.vv	v14, v15, v14
	vmsle.vi	v0, v9, -1
	vrgather.vv	v15, v21, v13
	vrgather.vv	v13, v22, v8
	vxor.vv	v13, v13, v15
	vmsle.vi	v8, v11, -1
	vrgather.vv	v15, v13, v9
	vxor.vv	v9, v14, v15
	vmerge.vvm	v13, v9, v14, v0
	vand.vi	v9, v13, 15
	vsrl.vi	v14, v13, 4
	vrgather.vv	v15, v13, v11
	vrgather.vv	v16, v23, v9
	vrgather.vv	v9, v24, v14
	vxor.vv	v9, v9, v16
	vxor.vv	v14, v9, v15
	vmv1r.v	v0, v8
	vmerge.vvm	v14, v14, v9, v0
	vmsle.vi	v9, v10, -1
	vrgather.vv	v15, v13, v12
	vxor.vx	v13, v15, a3
	vmsle.vi	v0, v12, -1
	vrgather.vv	v12, v14, v11
	vmerge.vxm	v11, v13, a3, v0
	vxor.vv	v12, v11, v12
	vmv1r.v	v0, v8
	vmerge.vvm	v8, v12, v11, v0
	vxor.vv	v8, v8, v14
	vrgather.vv	v11, v8, v10
	vmv1r.v	v0, v9
	vmerge.vim	v8, v11, 0, v0
	vse8.v	v8, (a1)
	addi	a1, a1, 16
	addi	a2, a2, -16
	bnez	a0, .Laes_BB24_5
# %bb.6:                                # %"aes_permute::lane_keys::invert_lanes.exit"
	add	a1, s3, s5
	vle8.v	v8, (a1)
	vle8.v	v9, (s3)
	vse8.v	v8, (s2)
	add	s2, s2, s5
	vse8.v	v9, (s2)
	j	.Laes_BB24_8
.Laes_BB24_7:                               # %then.1
	li	a2, 484
	mv	a0, s0
	li	a1, 0
	la	t1, memset
	jalr	t1
	li	a0, 1
.Laes_BB24_8:                               # %common.ret
	csrr	a1, vlenb
	slli	a1, a1, 3
	add	sp, sp, a1
	ld	ra, 72(sp)                      # 8-byte Folded Reload
	ld	s0, 64(sp)                      # 8-byte Folded Reload
	ld	s1, 56(sp)                      # 8-byte Folded Reload
	ld	s2, 48(sp)                      # 8-byte Folded Reload
	ld	s3, 40(sp)                      # 8-byte Folded Reload
	ld	s4, 32(sp)                      # 8-byte Folded Reload
	ld	s5, 24(sp)                      # 8-byte Folded Reload
	ld	s6, 16(sp)                      # 8-byte Folded Reload
	addi	sp, sp, 80
	ret
.Laes_func_end24:
	.size	aes.aes_c.kept.fotsgure_aes_set_key, .Laes_func_end24-aes.aes_c.kept.fotsgure_aes_set_key
                                        # -- End function
	.section	.text.aes.key_wrap.wrapping.wrap,"ax",@progbits
	.p2align	1                               # -- Begin function key_wrap::wrapping::wrap::<#ef80964e0b8d42c0>
	.type	aes.key_wrap.wrapping.wrap,@function
aes.key_wrap.wrapping.wrap: # @aes.key_wrap.wrapping.wrap
# %bb.0:                                # %start
	addi	sp, sp, -48
	sd	ra, 40(sp)                      # 8-byte Folded Spill
	sd	s0, 32(sp)                      # 8-byte Folded Spill
	sd	s1, 24(sp)                      # 8-byte Folded Spill
	sd	s2, 16(sp)                      # 8-byte Folded Spill
	sd	s3, 8(sp)                       # 8-byte Folded Spill
	sd	s4, 0(sp)                       # 8-byte Folded Spill
	addi	s1, a2, -2
	li	s0, 1
	slli	a5, s0, 54
	addi	a5, a5, -3
	bltu	a5, s1, .Laes_BB25_9
# %bb.1:                                # %start
	addi	a5, a2, 1
	bne	a4, a5, .Laes_BB25_9
# %bb.2:                                # %after.1
	beqz	a4, .Laes_BB25_8
# %bb.3:                                # %arm.12
	addi	s4, a3, 8
	li	a5, 166
	slli	a2, a2, 3
	sb	a5, 4(a3)
	sb	a5, 5(a3)
	sb	a5, 6(a3)
	sb	a5, 7(a3)
	sb	a5, 0(a3)
	sb	a5, 1(a3)
	sb	a5, 2(a3)
	sb	a5, 3(a3)
	sub	a5, s4, a1
	addi	s2, a4, -1
	bgeu	a5, a2, .Laes_BB25_6
# %bb.4:                                # %join.7.i.i.i.i.i.i.preheader
	add	a6, a1, a2
	mv	a4, s4
.Laes_BB25_5:                               # %join.7.i.i.i.i.i.i
                                        # =>This Inner Loop Header: Depth=1
	lbu	a7, 0(a1)
	lbu	t0, 1(a1)
	lbu	t2, 2(a1)
	lbu	t1, 3(a1)
	lbu	a5, 4(a1)
	lbu	s1, 5(a1)
	lbu	a2, 6(a1)
	lbu	s0, 7(a1)
	addi	a1, a1, 8
	sb	a5, 4(a4)
	sb	s1, 5(a4)
	sb	a2, 6(a4)
	sb	s0, 7(a4)
	sb	a7, 0(a4)
	sb	t0, 1(a4)
	sb	t2, 2(a4)
	sb	t1, 3(a4)
	addi	a4, a4, 8
	bne	a1, a6, .Laes_BB25_5
	j	.Laes_BB25_7
.Laes_BB25_6:                               # %apart.2.i.i.i.i.i.i
	mv	s3, a0
	mv	a0, s4
	mv	s1, a3
	la	t1, memmove
	jalr	t1
	mv	a0, s3
	mv	a3, s1
.Laes_BB25_7:                               # %"core::slice::edits::slice+T::copy_from_slice::<#76f67ba6cf9709da>.exit"
	mv	a1, a3
	mv	a2, s4
	mv	a3, s2
	call	aes.key_wrap.steps.wrap_in_place
.Laes_BB25_8:                               # %return.10
	li	s0, 0
.Laes_BB25_9:                               # %return.10
	mv	a0, s0
	ld	ra, 40(sp)                      # 8-byte Folded Reload
	ld	s0, 32(sp)                      # 8-byte Folded Reload
	ld	s1, 24(sp)                      # 8-byte Folded Reload
	ld	s2, 16(sp)                      # 8-byte Folded Reload
	ld	s3, 8(sp)                       # 8-byte Folded Reload
	ld	s4, 0(sp)                       # 8-byte Folded Reload
	addi	sp, sp, 48
	ret
.Laes_func_end25:
	.size	aes.key_wrap.wrapping.wrap, .Laes_func_end25-aes.key_wrap.wrapping.wrap
                                        # -- End function
	.section	.text.aes.key_wrap.steps.wrap_in_place,"ax",@progbits
	.p2align	1                               # -- Begin function key_wrap::steps::wrap_in_place::<#ef80964e0b8d42c0>
	.type	aes.key_wrap.steps.wrap_in_place,@function
aes.key_wrap.steps.wrap_in_place: # @aes.key_wrap.steps.wrap_in_place
# %bb.0:                                # %start
	beqz	a3, .Laes_BB26_14
# %bb.1:                                # %join.5.i.preheader
	addi	sp, sp, -80
	sd	ra, 72(sp)                      # 8-byte Folded Spill
	sd	s0, 64(sp)                      # 8-byte Folded Spill
	sd	s1, 56(sp)                      # 8-byte Folded Spill
	sd	s2, 48(sp)                      # 8-byte Folded Spill
	sd	s3, 40(sp)                      # 8-byte Folded Spill
	sd	s4, 32(sp)                      # 8-byte Folded Spill
	sd	s5, 24(sp)                      # 8-byte Folded Spill
	sd	s6, 16(sp)                      # 8-byte Folded Spill
	sd	s7, 8(sp)                       # 8-byte Folded Spill
	mv	s4, a3
	mv	s2, a2
	mv	s1, a1
	mv	s3, a0
	li	s0, 1
	mv	s5, a2
	mv	s6, a3
.Laes_BB26_2:                               # %join.5.i
                                        # =>This Inner Loop Header: Depth=1
	mv	a0, s3
	mv	a1, s1
	mv	a2, s5
	call	aes.key_wrap.steps.encrypt_halves
	lbu	a6, 0(s1)
	lbu	a7, 1(s1)
	lbu	t0, 2(s1)
	lbu	a3, 3(s1)
	srli	a4, s0, 40
	lui	a5, 16
	srli	a0, s0, 56
	srli	a1, s0, 24
	lui	a2, 4080
	addi	a5, a5, -256
	and	a4, a4, a5
	or	a0, a0, a4
	srli	a4, s0, 8
	and	a1, a1, a2
	srliw	a4, a4, 24
	slli	a4, a4, 24
	or	a1, a1, a4
	srliw	a4, s0, 24
	and	a2, a2, s0
	slli	a4, a4, 32
	slli	a2, a2, 24
	or	t1, a2, a4
	slli	a4, s0, 56
	and	a5, a5, s0
	slli	a5, a5, 40
	slli	a7, a7, 8
	slli	t0, t0, 16
	slli	a3, a3, 24
	or	t2, a1, a0
	or	a4, a4, a5
	or	a6, a7, a6
	or	a3, a3, t0
	lbu	a5, 5(s1)
	lbu	a2, 4(s1)
	lbu	a0, 6(s1)
	lbu	a1, 7(s1)
	slli	a5, a5, 8
	or	a2, a2, a5
	addi	s6, s6, -1
	addi	s0, s0, 1
	slli	a0, a0, 16
	slli	a1, a1, 24
	or	a0, a0, a1
	or	a1, a4, t1
	or	a3, a3, a6
	or	a0, a0, a2
	or	a1, a1, t2
	slli	a0, a0, 32
	or	a0, a0, a3
	xor	a0, a0, a1
	srli	a7, a0, 48
	srli	a2, a0, 56
	srli	a3, a0, 32
	srli	a4, a0, 40
	srli	a5, a0, 16
	srli	a6, a0, 24
	srli	a1, a0, 8
	sb	a3, 4(s1)
	sb	a4, 5(s1)
	sb	a7, 6(s1)
	sb	a2, 7(s1)
	sb	a0, 0(s1)
	sb	a1, 1(s1)
	sb	a5, 2(s1)
	sb	a6, 3(s1)
	addi	s5, s5, 8
	bnez	s6, .Laes_BB26_2
# %bb.3:                                # %"key_wrap::steps::wrap_turn::<#ef80964e0b8d42c0>.exit.loopexit"
	addi	s0, s4, 1
	mv	s5, s2
	mv	s6, s4
.Laes_BB26_4:                               # %join.5.i.1
                                        # =>This Inner Loop Header: Depth=1
	mv	a0, s3
	mv	a1, s1
	mv	a2, s5
	call	aes.key_wrap.steps.encrypt_halves
	lbu	a6, 0(s1)
	lbu	a7, 1(s1)
	lbu	t0, 2(s1)
	lbu	a3, 3(s1)
	srli	a4, s0, 40
	lui	a5, 16
	srli	a0, s0, 56
	srli	a1, s0, 24
	lui	a2, 4080
	addi	a5, a5, -256
	and	a4, a4, a5
	or	a0, a0, a4
	srli	a4, s0, 8
	and	a1, a1, a2
	srliw	a4, a4, 24
	slli	a4, a4, 24
	or	a1, a1, a4
	srliw	a4, s0, 24
	and	a2, a2, s0
	slli	a4, a4, 32
	slli	a2, a2, 24
	or	t1, a2, a4
	slli	a4, s0, 56
	and	a5, a5, s0
	slli	a5, a5, 40
	slli	a7, a7, 8
	slli	t0, t0, 16
	slli	a3, a3, 24
	or	t2, a1, a0
	or	a4, a4, a5
	or	a6, a7, a6
	or	a3, a3, t0
	lbu	a5, 5(s1)
	lbu	a2, 4(s1)
	lbu	a0, 6(s1)
	lbu	a1, 7(s1)
	slli	a5, a5, 8
	or	a2, a2, a5
	addi	s6, s6, -1
	addi	s0, s0, 1
	slli	a0, a0, 16
	slli	a1, a1, 24
	or	a0, a0, a1
	or	a1, a4, t1
	or	a3, a3, a6
	or	a0, a0, a2
	or	a1, a1, t2
	slli	a0, a0, 32
	or	a0, a0, a3
	xor	a0, a0, a1
	srli	a7, a0, 48
	srli	a2, a0, 56
	srli	a3, a0, 32
	srli	a4, a0, 40
	srli	a5, a0, 16
	srli	a6, a0, 24
	srli	a1, a0, 8
	sb	a3, 4(s1)
	sb	a4, 5(s1)
	sb	a7, 6(s1)
	sb	a2, 7(s1)
	sb	a0, 0(s1)
	sb	a1, 1(s1)
	sb	a5, 2(s1)
	sb	a6, 3(s1)
	addi	s5, s5, 8
	bnez	s6, .Laes_BB26_4
# %bb.5:                                # %"key_wrap::steps::wrap_turn::<#ef80964e0b8d42c0>.exit.loopexit.1"
	slli	s5, s4, 1
	addi	s0, s5, 1
	mv	s6, s2
	mv	s7, s4
.Laes_BB26_6:                               # %join.5.i.2
                                        # =>This Inner Loop Header: Depth=1
	mv	a0, s3
	mv	a1, s1
	mv	a2, s6
	call	aes.key_wrap.steps.encrypt_halves
	lbu	a6, 0(s1)
	lbu	a7, 1(s1)
	lbu	t0, 2(s1)
	lbu	a3, 3(s1)
	srli	a4, s0, 40
	lui	a5, 16
	srli	a0, s0, 56
	srli	a1, s0, 24
	lui	a2, 4080
	addi	a5, a5, -256
	and	a4, a4, a5
	or	a0, a0, a4
	srli	a4, s0, 8
	and	a1, a1, a2
	srliw	a4, a4, 24
	slli	a4, a4, 24
	or	a1, a1, a4
	srliw	a4, s0, 24
	and	a2, a2, s0
	slli	a4, a4, 32
	slli	a2, a2, 24
	or	t1, a2, a4
	slli	a4, s0, 56
	and	a5, a5, s0
	slli	a5, a5, 40
	slli	a7, a7, 8
	slli	t0, t0, 16
	slli	a3, a3, 24
	or	t2, a1, a0
	or	a4, a4, a5
	or	a6, a7, a6
	or	a3, a3, t0
	lbu	a5, 5(s1)
	lbu	a2, 4(s1)
	lbu	a0, 6(s1)
	lbu	a1, 7(s1)
	slli	a5, a5, 8
	or	a2, a2, a5
	addi	s7, s7, -1
	addi	s0, s0, 1
	slli	a0, a0, 16
	slli	a1, a1, 24
	or	a0, a0, a1
	or	a1, a4, t1
	or	a3, a3, a6
	or	a0, a0, a2
	or	a1, a1, t2
	slli	a0, a0, 32
	or	a0, a0, a3
	xor	a0, a0, a1
	srli	a7, a0, 48
	srli	a2, a0, 56
	srli	a3, a0, 32
	srli	a4, a0, 40
	srli	a5, a0, 16
	srli	a6, a0, 24
	srli	a1, a0, 8
	sb	a3, 4(s1)
	sb	a4, 5(s1)
	sb	a7, 6(s1)
	sb	a2, 7(s1)
	sb	a0, 0(s1)
	sb	a1, 1(s1)
	sb	a5, 2(s1)
	sb	a6, 3(s1)
	addi	s6, s6, 8
	bnez	s7, .Laes_BB26_6
# %bb.7:                                # %"key_wrap::steps::wrap_turn::<#ef80964e0b8d42c0>.exit.loopexit.2"
	add	s0, s5, s4
	addi	s0, s0, 1
	mv	s5, s2
	mv	s6, s4
.Laes_BB26_8:                               # %join.5.i.3
                                        # =>This Inner Loop Header: Depth=1
	mv	a0, s3
	mv	a1, s1
	mv	a2, s5
	call	aes.key_wrap.steps.encrypt_halves
	lbu	a6, 0(s1)
	lbu	a7, 1(s1)
	lbu	t0, 2(s1)
	lbu	a3, 3(s1)
	srli	a4, s0, 40
	lui	a5, 16
	srli	a0, s0, 56
	srli	a1, s0, 24
	lui	a2, 4080
	addi	a5, a5, -256
	and	a4, a4, a5
	or	a0, a0, a4
	srli	a4, s0, 8
	and	a1, a1, a2
	srliw	a4, a4, 24
	slli	a4, a4, 24
	or	a1, a1, a4
	srliw	a4, s0, 24
	and	a2, a2, s0
	slli	a4, a4, 32
	slli	a2, a2, 24
	or	t1, a2, a4
	slli	a4, s0, 56
	and	a5, a5, s0
	slli	a5, a5, 40
	slli	a7, a7, 8
	slli	t0, t0, 16
	slli	a3, a3, 24
	or	t2, a1, a0
	or	a4, a4, a5
	or	a6, a7, a6
	or	a3, a3, t0
	lbu	a5, 5(s1)
	lbu	a2, 4(s1)
	lbu	a0, 6(s1)
	lbu	a1, 7(s1)
	slli	a5, a5, 8
	or	a2, a2, a5
	addi	s6, s6, -1
	addi	s0, s0, 1
	slli	a0, a0, 16
	slli	a1, a1, 24
	or	a0, a0, a1
	or	a1, a4, t1
	or	a3, a3, a6
	or	a0, a0, a2
	or	a1, a1, t2
	slli	a0, a0, 32
	or	a0, a0, a3
	xor	a0, a0, a1
	srli	a7, a0, 48
	srli	a2, a0, 56
	srli	a3, a0, 32
	srli	a4, a0, 40
	srli	a5, a0, 16
	srli	a6, a0, 24
	srli	a1, a0, 8
	sb	a3, 4(s1)
	sb	a4, 5(s1)
	sb	a7, 6(s1)
	sb	a2, 7(s1)
	sb	a0, 0(s1)
	sb	a1, 1(s1)
	sb	a5, 2(s1)
	sb	a6, 3(s1)
	addi	s5, s5, 8
	bnez	s6, .Laes_BB26_8
# %bb.9:                                # %"key_wrap::steps::wrap_turn::<#ef80964e0b8d42c0>.exit.loopexit.3"
	slli	s5, s4, 2
	addi	s0, s5, 1
	mv	s6, s2
	mv	s7, s4
.Laes_BB26_10:                              # %join.5.i.4
                                        # =>This Inner Loop Header: Depth=1
	mv	a0, s3
	mv	a1, s1
	mv	a2, s6
	call	aes.key_wrap.steps.encrypt_halves
	lbu	a6, 0(s1)
	lbu	a7, 1(s1)
	lbu	t0, 2(s1)
	lbu	a3, 3(s1)
	srli	a4, s0, 40
	lui	a5, 16
	srli	a0, s0, 56
	srli	a1, s0, 24
	lui	a2, 4080
	addi	a5, a5, -256
	and	a4, a4, a5
	or	a0, a0, a4
	srli	a4, s0, 8
	and	a1, a1, a2
	srliw	a4, a4, 24
	slli	a4, a4, 24
	or	a1, a1, a4
	srliw	a4, s0, 24
	and	a2, a2, s0
	slli	a4, a4, 32
	slli	a2, a2, 24
	or	t1, a2, a4
	slli	a4, s0, 56
	and	a5, a5, s0
	slli	a5, a5, 40
	slli	a7, a7, 8
	slli	t0, t0, 16
	slli	a3, a3, 24
	or	t2, a1, a0
	or	a4, a4, a5
	or	a6, a7, a6
	or	a3, a3, t0
	lbu	a5, 5(s1)
	lbu	a2, 4(s1)
	lbu	a0, 6(s1)
	lbu	a1, 7(s1)
	slli	a5, a5, 8
	or	a2, a2, a5
	addi	s7, s7, -1
	addi	s0, s0, 1
	slli	a0, a0, 16
	slli	a1, a1, 24
	or	a0, a0, a1
	or	a1, a4, t1
	or	a3, a3, a6
	or	a0, a0, a2
	or	a1, a1, t2
	slli	a0, a0, 32
	or	a0, a0, a3
	xor	a0, a0, a1
	srli	a7, a0, 48
	srli	a2, a0, 56
	srli	a3, a0, 32
	srli	a4, a0, 40
	srli	a5, a0, 16
	srli	a6, a0, 24
	srli	a1, a0, 8
	sb	a3, 4(s1)
	sb	a4, 5(s1)
	sb	a7, 6(s1)
	sb	a2, 7(s1)
	sb	a0, 0(s1)
	sb	a1, 1(s1)
	sb	a5, 2(s1)
	sb	a6, 3(s1)
	addi	s6, s6, 8
	bnez	s7, .Laes_BB26_10
# %bb.11:                               # %"key_wrap::steps::wrap_turn::<#ef80964e0b8d42c0>.exit.loopexit.4"
	add	s0, s5, s4
	addi	s0, s0, 1
.Laes_BB26_12:                              # %join.5.i.5
                                        # =>This Inner Loop Header: Depth=1
	mv	a0, s3
	mv	a1, s1
	mv	a2, s2
	call	aes.key_wrap.steps.encrypt_halves
	lbu	a6, 0(s1)
	lbu	a7, 1(s1)
	lbu	t0, 2(s1)
	lbu	a3, 3(s1)
	srli	a4, s0, 40
	lui	a5, 16
	srli	a0, s0, 56
	srli	a1, s0, 24
	lui	a2, 4080
	addi	a5, a5, -256
	and	a4, a4, a5
	or	a0, a0, a4
	srli	a4, s0, 8
	and	a1, a1, a2
	srliw	a4, a4, 24
	slli	a4, a4, 24
	or	a1, a1, a4
	srliw	a4, s0, 24
	and	a2, a2, s0
	slli	a4, a4, 32
	slli	a2, a2, 24
	or	t1, a2, a4
	slli	a4, s0, 56
	and	a5, a5, s0
	slli	a5, a5, 40
	slli	a7, a7, 8
	slli	t0, t0, 16
	slli	a3, a3, 24
	or	t2, a1, a0
	or	a4, a4, a5
	or	a6, a7, a6
	or	a3, a3, t0
	lbu	a5, 5(s1)
	lbu	a2, 4(s1)
	lbu	a0, 6(s1)
	lbu	a1, 7(s1)
	slli	a5, a5, 8
	or	a2, a2, a5
	addi	s4, s4, -1
	addi	s0, s0, 1
	slli	a0, a0, 16
	slli	a1, a1, 24
	or	a0, a0, a1
	or	a1, a4, t1
	or	a3, a3, a6
	or	a0, a0, a2
	or	a1, a1, t2
	slli	a0, a0, 32
	or	a0, a0, a3
	xor	a0, a0, a1
	srli	a7, a0, 48
	srli	a2, a0, 56
	srli	a3, a0, 32
	srli	a4, a0, 40
	srli	a5, a0, 16
	srli	a6, a0, 24
	srli	a1, a0, 8
	sb	a3, 4(s1)
	sb	a4, 5(s1)
	sb	a7, 6(s1)
	sb	a2, 7(s1)
	sb	a0, 0(s1)
	sb	a1, 1(s1)
	sb	a5, 2(s1)
	sb	a6, 3(s1)
	addi	s2, s2, 8
	bnez	s4, .Laes_BB26_12
# %bb.13:
	ld	ra, 72(sp)                      # 8-byte Folded Reload
	ld	s0, 64(sp)                      # 8-byte Folded Reload
	ld	s1, 56(sp)                      # 8-byte Folded Reload
	ld	s2, 48(sp)                      # 8-byte Folded Reload
	ld	s3, 40(sp)                      # 8-byte Folded Reload
	ld	s4, 32(sp)                      # 8-byte Folded Reload
	ld	s5, 24(sp)                      # 8-byte Folded Reload
	ld	s6, 16(sp)                      # 8-byte Folded Reload
	ld	s7, 8(sp)                       # 8-byte Folded Reload
	addi	sp, sp, 80
.Laes_BB26_14:                              # %after.1
	ret
.Laes_func_end26:
	.size	aes.key_wrap.steps.wrap_in_place, .Laes_func_end26-aes.key_wrap.steps.wrap_in_place
                                        # -- End function
	.section	.rodata.cst16,"aM",@progbits,16
	.p2align	4, 0x0                          # -- Begin function key_wrap::steps::encrypt_halves::<#ef80964e0b8d42c0>
.Laes_CPI27_0:
	.byte	0                               # 0x0
	.byte	1                               # 0x1
	.byte	28                              # 0x1c
	.byte	29                              # 0x1d
	.byte	45                              # 0x2d
	.byte	44                              # 0x2c
	.byte	49                              # 0x31
	.byte	48                              # 0x30
	.byte	39                              # 0x27
	.byte	38                              # 0x26
	.byte	59                              # 0x3b
	.byte	58                              # 0x3a
	.byte	10                              # 0xa
	.byte	11                              # 0xb
	.byte	22                              # 0x16
	.byte	23                              # 0x17
.Laes_CPI27_1:
	.byte	0                               # 0x0
	.byte	134                             # 0x86
	.byte	253                             # 0xfd
	.byte	123                             # 0x7b
	.byte	142                             # 0x8e
	.byte	8                               # 0x8
	.byte	115                             # 0x73
	.byte	245                             # 0xf5
	.byte	119                             # 0x77
	.byte	241                             # 0xf1
	.byte	138                             # 0x8a
	.byte	12                              # 0xc
	.byte	249                             # 0xf9
	.byte	127                             # 0x7f
	.byte	4                               # 0x4
	.byte	130                             # 0x82
.Laes_CPI27_2:
	.byte	128                             # 0x80
	.byte	2                               # 0x2
	.byte	1                               # 0x1
	.byte	15                              # 0xf
	.byte	9                               # 0x9
	.byte	5                               # 0x5
	.byte	14                              # 0xe
	.byte	12                              # 0xc
	.byte	13                              # 0xd
	.byte	4                               # 0x4
	.byte	11                              # 0xb
	.byte	10                              # 0xa
	.byte	7                               # 0x7
	.byte	8                               # 0x8
	.byte	6                               # 0x6
	.byte	3                               # 0x3
.Laes_CPI27_3:
	.byte	128                             # 0x80
	.byte	1                               # 0x1
	.byte	9                               # 0x9
	.byte	14                              # 0xe
	.byte	13                              # 0xd
	.byte	11                              # 0xb
	.byte	7                               # 0x7
	.byte	6                               # 0x6
	.byte	15                              # 0xf
	.byte	2                               # 0x2
	.byte	12                              # 0xc
	.byte	5                               # 0x5
	.byte	10                              # 0xa
	.byte	4                               # 0x4
	.byte	3                               # 0x3
	.byte	8                               # 0x8
.Laes_CPI27_4:
	.byte	0                               # 0x0
	.byte	195                             # 0xc3
	.byte	79                              # 0x4f
	.byte	12                              # 0xc
	.byte	252                             # 0xfc
	.byte	124                             # 0x7c
	.byte	67                              # 0x43
	.byte	128                             # 0x80
	.byte	207                             # 0xcf
	.byte	51                              # 0x33
	.byte	63                              # 0x3f
	.byte	112                             # 0x70
	.byte	191                             # 0xbf
	.byte	179                             # 0xb3
	.byte	240                             # 0xf0
	.byte	140                             # 0x8c
.Laes_CPI27_5:
	.byte	0                               # 0x0
	.byte	230                             # 0xe6
	.byte	114                             # 0x72
	.byte	183                             # 0xb7
	.byte	229                             # 0xe5
	.byte	198                             # 0xc6
	.byte	197                             # 0xc5
	.byte	35                              # 0x23
	.byte	81                              # 0x51
	.byte	180                             # 0xb4
	.byte	3                               # 0x3
	.byte	113                             # 0x71
	.byte	32                              # 0x20
	.byte	151                             # 0x97
	.byte	82                              # 0x52
	.byte	148                             # 0x94
.Laes_CPI27_6:
	.byte	0                               # 0x0
	.byte	124                             # 0x7c
	.byte	32                              # 0x20
	.byte	207                             # 0xcf
	.byte	146                             # 0x92
	.byte	1                               # 0x1
	.byte	239                             # 0xef
	.byte	147                             # 0x93
	.byte	179                             # 0xb3
	.byte	33                              # 0x21
	.byte	238                             # 0xee
	.byte	206                             # 0xce
	.byte	125                             # 0x7d
	.byte	178                             # 0xb2
	.byte	93                              # 0x5d
	.byte	92                              # 0x5c
.Laes_CPI27_7:
	.byte	0                               # 0x0
	.byte	209                             # 0xd1
	.byte	229                             # 0xe5
	.byte	247                             # 0xf7
	.byte	230                             # 0xe6
	.byte	37                              # 0x25
	.byte	18                              # 0x12
	.byte	195                             # 0xc3
	.byte	38                              # 0x26
	.byte	192                             # 0xc0
	.byte	55                              # 0x37
	.byte	210                             # 0xd2
	.byte	244                             # 0xf4
	.byte	3                               # 0x3
	.byte	17                              # 0x11
	.byte	52                              # 0x34
.Laes_CPI27_8:
	.byte	0                               # 0x0
	.byte	203                             # 0xcb
	.byte	215                             # 0xd7
	.byte	176                             # 0xb0
	.byte	33                              # 0x21
	.byte	141                             # 0x8d
	.byte	103                             # 0x67
	.byte	172                             # 0xac
	.byte	123                             # 0x7b
	.byte	90                              # 0x5a
	.byte	234                             # 0xea
	.byte	61                              # 0x3d
	.byte	70                              # 0x46
	.byte	246                             # 0xf6
	.byte	145                             # 0x91
	.byte	28                              # 0x1c
.Laes_CPI27_9:
	.byte	0                               # 0x0
	.byte	159                             # 0x9f
	.byte	97                              # 0x61
	.byte	22                              # 0x16
	.byte	194                             # 0xc2
	.byte	42                              # 0x2a
	.byte	119                             # 0x77
	.byte	232                             # 0xe8
	.byte	137                             # 0x89
	.byte	75                              # 0x4b
	.byte	93                              # 0x5d
	.byte	60                              # 0x3c
	.byte	181                             # 0xb5
	.byte	163                             # 0xa3
	.byte	212                             # 0xd4
	.byte	254                             # 0xfe
	.section	.text.aes.key_wrap.steps.encrypt_halves,"ax",@progbits
	.p2align	1
	.type	aes.key_wrap.steps.encrypt_halves,@function
aes.key_wrap.steps.encrypt_halves: # @aes.key_wrap.steps.encrypt_halves
# %bb.0:                                # %start
	addi	sp, sp, -64
	sd	s0, 56(sp)                      # 8-byte Folded Spill
	sd	s1, 48(sp)                      # 8-byte Folded Spill
	sd	s2, 40(sp)                      # 8-byte Folded Spill
	sd	s3, 32(sp)                      # 8-byte Folded Spill
	sd	s4, 24(sp)                      # 8-byte Folded Spill
	sd	s5, 16(sp)                      # 8-byte Folded Spill
	sd	s6, 8(sp)                       # 8-byte Folded Spill
	lbu	a7, 0(a1)
	lbu	t0, 1(a1)
	lbu	t2, 2(a1)
	lbu	t4, 3(a1)
	lbu	a6, 4(a1)
	lbu	t1, 5(a1)
	lbu	t3, 6(a1)
	lbu	t6, 7(a1)
	lbu	t5, 0(a2)
	lbu	s2, 1(a2)
	lbu	s3, 2(a2)
	lbu	s4, 3(a2)
.Laes_pcrel_hi111:
	auipc	s0, %pcrel_hi(.Laes_CPI27_0)
.Laes_pcrel_hi112:
	auipc	s1, %pcrel_hi(.Laes_CPI27_1)
	addi	s0, s0, %pcrel_lo(.Laes_pcrel_hi111)
	addi	s1, s1, %pcrel_lo(.Laes_pcrel_hi112)
	vsetivli	zero, 16, e8, m1, ta, ma
	vle8.v	v9, (s0)
	vle8.v	v8, (s1)
	slli	t0, t0, 8
	slli	t2, t2, 16
	slli	t4, t4, 24
	or	a7, t0, a7
	or	t0, t4, t2
	lbu	t4, 4(a2)
	lbu	s5, 5(a2)
	lbu	s6, 6(a2)
	lbu	s1, 7(a2)
	slli	t1, t1, 8
	slli	t3, t3, 16
	slli	t6, t6, 24
	slli	s2, s2, 8
	slli	s3, s3, 16
	slli	s4, s4, 24
	or	a6, t1, a6
	or	t2, t6, t3
	or	t1, s2, t5
	or	t3, s4, s3
	lbu	s0, 16(a0)
	lbu	a5, 17(a0)
	lbu	a3, 18(a0)
	lbu	a4, 19(a0)
	slli	s5, s5, 8
	slli	s6, s6, 16
	slli	s1, s1, 24
	slli	a5, a5, 8
	slli	a3, a3, 16
	slli	a4, a4, 24
	or	t4, s5, t4
	or	t6, s1, s6
	or	t5, a5, s0
	or	s2, a4, a3
	lbu	a4, 21(a0)
	lbu	s0, 20(a0)
	lbu	a5, 22(a0)
	lbu	s1, 23(a0)
	slli	a4, a4, 8
	or	s3, a4, s0
	slli	a5, a5, 16
	slli	s1, s1, 24
	or	a5, a5, s1
	or	a7, t0, a7
	or	s0, t2, a6
	or	a6, t3, t1
	or	a4, t6, t4
	or	s1, s2, t5
	or	a5, a5, s3
	slli	s0, s0, 32
	slli	a4, a4, 32
	slli	a5, a5, 32
	or	a3, s0, a7
	or	a4, a4, a6
	or	s0, a5, s1
	vsetivli	zero, 2, e64, m1, ta, ma
	vmv.v.x	v10, a3
	lbu	a6, 24(a0)
	lbu	s1, 25(a0)
	lbu	a3, 26(a0)
	lbu	a5, 27(a0)
	vsetivli	zero, 16, e8, m1, ta, ma
	vle8.v	v11, (s0)
	vsetivli	zero, 2, e64, m1, ta, ma
	vslide1down.vx	v10, v10, a4
.Laes_pcrel_hi113:
	auipc	a4, %pcrel_hi(.Laes_CPI27_2)
	addi	a4, a4, %pcrel_lo(.Laes_pcrel_hi113)
	vsetivli	zero, 16, e8, m1, ta, ma
	vxor.vv	v10, v11, v10
	vand.vi	v11, v10, 15
	vrgather.vv	v12, v9, v11
	vle8.v	v11, (a4)
.Laes_pcrel_hi114:
	auipc	a4, %pcrel_hi(.Laes_CPI27_3)
	addi	a4, a4, %pcrel_lo(.Laes_pcrel_hi114)
	vsrl.vi	v9, v10, 4
	vrgather.vv	v13, v8, v9
	vle8.v	v10, (a4)
	slli	s1, s1, 8
	slli	a3, a3, 16
	slli	a5, a5, 24
	or	a6, s1, a6
	or	a5, a5, a3
	lbu	s1, 29(a0)
	lbu	a3, 28(a0)
	lbu	a4, 30(a0)
	lbu	a0, 31(a0)
	slli	s1, s1, 8
	or	a3, a3, s1
	slli	a4, a4, 16
	slli	a0, a0, 24
	or	a0, a0, a4
	or	a4, a5, a6
	or	a0, a0, a3
	slli	a0, a0, 32
	or	a4, a4, a0
	addi	a6, a4, -1
	li	a5, 2
	vxor.vv	v8, v13, v12
	bltu	a6, a5, .Laes_BB27_3
# %bb.1:                                # %join.5.i.i.lr.ph
.Laes_pcrel_hi115:
	auipc	a5, %pcrel_hi(.Laes_CPI27_4)
	addi	a5, a5, %pcrel_lo(.Laes_pcrel_hi115)
	vle8.v	v12, (a5)
.Laes_pcrel_hi116:
	auipc	a5, %pcrel_hi(.Laes_CPI27_5)
	addi	a5, a5, %pcrel_lo(.Laes_pcrel_hi116)
	vle8.v	v13, (a5)
.Laes_pcrel_hi117:
	auipc	a5, %pcrel_hi(.Laes_CPI27_6)
	addi	a5, a5, %pcrel_lo(.Laes_pcrel_hi117)
	vle8.v	v14, (a5)
.Laes_pcrel_hi118:
	auipc	a5, %pcrel_hi(.Laes_CPI27_7)
	addi	a5, a5, %pcrel_lo(.Laes_pcrel_hi118)
	vle8.v	v15, (a5)
	addi	a4, a4, -2
	li	a5, 16
.Laes_BB27_2:                               # %join.5.i.i
                                        # =>This Inner Loop Header: Depth=1
	add	a3, s0, a5
	andi	s1, a5, 48
.Laes_pcrel_hi119:
	auipc	a0, %pcrel_hi(.Laes_static.4)
	vle8.v	v16, (a3)
.Laes_pcrel_hi120:
	auipc	a3, %pcrel_hi(.Laes_static.5)
	addi	a0, a0, %pcrel_lo(.Laes_pcrel_hi119)
	addi	a3, a3, %pcrel_lo(.Laes_pcrel_hi120)
	add	a0, a0, s1
	add	a3, a3, s1
	vsrl.vi	v9, v8, 4
	vand.vi	v8, v8, 15
	addi	a4, a4, -1
	vxor.vv	v17, v9, v8
	vrgather.vv	v18, v11, v8
	vrgather.vv	v8, v10, v9
	vrgather.vv	v19, v10, v17
	vxor.vv	v8, v8, v18
	vxor.vv	v18, v19, v18
	vmsle.vi	v0, v8, -1
	vrgather.vv	v19, v10, v8
	vmerge.vim	v8, v19, 0, v0
	vmsle.vi	v0, v18, -1
	vrgather.vv	v19, v10, v18
	vmerge.vim	v18, v19, 0, v0
	vxor.vv	v17, v8, v17
	vmsle.vi	v8, v8, -1
	vxor.vv	v19, v18, v9
	vrgather.vv	v20, v12, v17
	vmsle.vi	v9, v18, -1
	vrgather.vv	v18, v13, v19
	vmv1r.v	v0, v9
	vmerge.vim	v18, v18, 0, v0
	vxor.vv	v20, v18, v20
	vmv1r.v	v0, v8
	vmerge.vvm	v18, v20, v18, v0
	vle8.v	v20, (a0)
	vle8.v	v21, (a3)
	vrgather.vv	v22, v14, v17
	vrgather.vv	v17, v15, v19
	vmv1r.v	v0, v9
	vmerge.vim	v17, v17, 0, v0
	vmsle.vi	v9, v20, -1
	vxor.vv	v19, v17, v22
	vmv1r.v	v0, v8
	vmerge.vvm	v8, v19, v17, v0
	vrgather.vv	v17, v18, v20
	vrgather.vv	v19, v18, v21
	vxor.vv	v17, v8, v17
	vmv1r.v	v0, v9
	vmerge.vvm	v17, v17, v8, v0
	vmsle.vi	v8, v21, -1
	vrgather.vv	v18, v17, v20
	vxor.vv	v18, v16, v18
	vmerge.vvm	v9, v18, v16, v0
	vxor.vv	v16, v9, v19
	vmv1r.v	v0, v8
	vmerge.vvm	v8, v16, v9, v0
	vxor.vv	v8, v8, v17
	addi	a5, a5, 16
	bnez	a4, .Laes_BB27_2
.Laes_BB27_3:                               # %"aes_permute::blocks::process_block::<#aedbc4fd156a355d>.exit"
	slli	a6, a6, 4
	vsrl.vi	v9, v8, 4
	vand.vi	v8, v8, 15
.Laes_pcrel_hi121:
	auipc	a0, %pcrel_hi(.Laes_CPI27_8)
.Laes_pcrel_hi122:
	auipc	a3, %pcrel_hi(.Laes_CPI27_9)
.Laes_pcrel_hi123:
	auipc	a4, %pcrel_hi(.Laes_static.3)
	add	s0, s0, a6
	vxor.vv	v12, v9, v8
	vrgather.vv	v13, v11, v8
	vrgather.vv	v8, v10, v9
	addi	a0, a0, %pcrel_lo(.Laes_pcrel_hi121)
	addi	a3, a3, %pcrel_lo(.Laes_pcrel_hi122)
	andi	a5, a6, 48
	addi	a4, a4, %pcrel_lo(.Laes_pcrel_hi123)
	vle8.v	v11, (s0)
	vrgather.vv	v14, v10, v12
	vxor.vv	v8, v8, v13
	vxor.vv	v13, v14, v13
	vmsle.vi	v0, v8, -1
	vrgather.vv	v14, v10, v8
	vmerge.vim	v8, v14, 0, v0
	vrgather.vv	v14, v10, v13
	vmsle.vi	v0, v13, -1
	vle8.v	v10, (a0)
	vmerge.vim	v13, v14, 0, v0
	vle8.v	v14, (a3)
	add	a4, a4, a5
	vxor.vv	v12, v8, v12
	vrgather.vv	v15, v10, v12
	vle8.v	v10, (a4)
	vxor.vv	v9, v13, v9
	vmsle.vi	v0, v13, -1
	vrgather.vv	v12, v14, v9
	vmerge.vim	v9, v12, 0, v0
	vmsle.vi	v0, v8, -1
	vxor.vv	v8, v9, v15
	vmerge.vvm	v8, v8, v9, v0
	vmsle.vi	v0, v10, -1
	vrgather.vv	v9, v8, v10
	vxor.vv	v8, v11, v9
	vmerge.vvm	v8, v8, v11, v0
	vsetivli	zero, 1, e64, m1, ta, ma
	vmv.x.s	a0, v8
	vslidedown.vi	v8, v8, 1
	vmv.x.s	a3, v8
	srli	a6, a0, 56
	srli	a7, a0, 48
	srli	s1, a0, 40
	srli	s0, a0, 32
	srli	t0, a0, 24
	srli	a5, a0, 16
	srli	a4, a0, 8
	sb	s0, 4(a1)
	sb	s1, 5(a1)
	sb	a7, 6(a1)
	sb	a6, 7(a1)
	sb	a0, 0(a1)
	sb	a4, 1(a1)
	sb	a5, 2(a1)
	sb	t0, 3(a1)
	srli	a0, a3, 48
	srli	a1, a3, 56
	srli	a4, a3, 32
	srli	a5, a3, 40
	srli	s1, a3, 16
	srli	s0, a3, 24
	sb	a4, 4(a2)
	sb	a5, 5(a2)
	sb	a0, 6(a2)
	sb	a1, 7(a2)
	srli	a0, a3, 8
	sb	a3, 0(a2)
	sb	a0, 1(a2)
	sb	s1, 2(a2)
	sb	s0, 3(a2)
	ld	s0, 56(sp)                      # 8-byte Folded Reload
	ld	s1, 48(sp)                      # 8-byte Folded Reload
	ld	s2, 40(sp)                      # 8-byte Folded Reload
	ld	s3, 32(sp)                      # 8-byte Folded Reload
	ld	s4, 24(sp)                      # 8-byte Folded Reload
	ld	s5, 16(sp)                      # 8-byte Folded Reload
	ld	s6, 8(sp)                       # 8-byte Folded Reload
	addi	sp, sp, 64
	ret
.Laes_func_end27:
	.size	aes.key_wrap.steps.encrypt_halves, .Laes_func_end27-aes.key_wrap.steps.encrypt_halves
                                        # -- End function
	.section	.text.aes.aes_cipher.zeroize.stack.wipe_stack.512,"ax",@progbits
	.p2align	1                               # -- Begin function aes_cipher::zeroize::stack::wipe_stack::<=512>
	.type	aes.aes_cipher.zeroize.stack.wipe_stack.512,@function
aes.aes_cipher.zeroize.stack.wipe_stack.512: # @aes.aes_cipher.zeroize.stack.wipe_stack.512
# %bb.0:                                # %start
	addi	sp, sp, -544
	sd	ra, 536(sp)                     # 8-byte Folded Spill
	sd	s0, 528(sp)                     # 8-byte Folded Spill
	sd	s1, 520(sp)                     # 8-byte Folded Spill
	addi	s0, sp, 8
	addi	a0, sp, 8
	li	a2, 512
	li	s1, 512
	li	a1, 0
	la	t1, memset
	jalr	t1
	sd	zero, 0(sp)
	#APP
	#NO_APP
	fence	rw, rw
	ld	a0, 0(sp)
	fence	r, rw
	#APP
	#NO_APP
	bgeu	a0, s1, .Laes_BB28_2
# %bb.1:                                # %then.1
	add	a0, a0, s0
	lbu	a0, 0(a0)
	#APP
	#NO_APP
	mv	a1, sp
	amoswap.d.aqrl	zero, a0, (a1)
	#APP
	#NO_APP
.Laes_BB28_2:                               # %common.ret
	ld	ra, 536(sp)                     # 8-byte Folded Reload
	ld	s0, 528(sp)                     # 8-byte Folded Reload
	ld	s1, 520(sp)                     # 8-byte Folded Reload
	addi	sp, sp, 544
	vsetvli	t0, zero, e8, m8, ta, ma
	vmv.v.i	v0, 0
	vmv.v.i	v8, 0
	vmv.v.i	v16, 0
	vmv.v.i	v24, 0
	li	a1, 0
	li	a2, 0
	li	a3, 0
	li	a4, 0
	li	a5, 0
	li	a6, 0
	li	a7, 0
	li	t0, 0
	li	t1, 0
	li	t2, 0
	li	t3, 0
	li	t4, 0
	li	t5, 0
	li	t6, 0
	ret
.Laes_func_end28:
	.size	aes.aes_cipher.zeroize.stack.wipe_stack.512, .Laes_func_end28-aes.aes_cipher.zeroize.stack.wipe_stack.512
                                        # -- End function
	.section	.text.aes.key_wrap.padded.wrap_padded,"ax",@progbits
	.p2align	1                               # -- Begin function key_wrap::padded::wrap_padded::<#ef80964e0b8d42c0>
	.type	aes.key_wrap.padded.wrap_padded,@function
aes.key_wrap.padded.wrap_padded: # @aes.key_wrap.padded.wrap_padded
# %bb.0:                                # %start
	addi	sp, sp, -80
	sd	ra, 72(sp)                      # 8-byte Folded Spill
	sd	s0, 64(sp)                      # 8-byte Folded Spill
	sd	s1, 56(sp)                      # 8-byte Folded Spill
	sd	s2, 48(sp)                      # 8-byte Folded Spill
	sd	s3, 40(sp)                      # 8-byte Folded Spill
	sd	s4, 32(sp)                      # 8-byte Folded Spill
	sd	s5, 24(sp)                      # 8-byte Folded Spill
	sd	s6, 16(sp)                      # 8-byte Folded Spill
	sd	s7, 8(sp)                       # 8-byte Folded Spill
	mv	s7, a2
	mv	s6, a1
	addi	a2, a2, -1
	li	a1, 1
	slli	a5, a1, 32
	addi	a5, a5, -2
	bltu	a5, a2, .Laes_BB29_11
# %bb.1:                                # %start
	addi	a2, s7, 7
	srli	a2, a2, 3
	addi	a2, a2, 1
	bne	a4, a2, .Laes_BB29_11
# %bb.2:                                # %arm.5
	addi	s2, a3, 8
	addi	s3, a4, -1
	lui	a1, 864971
	srli	a2, s7, 8
	srli	a4, s7, 16
	srli	a5, s7, 24
	addi	a1, a1, -813
	sb	a5, 4(a3)
	sb	a4, 5(a3)
	sb	a2, 6(a3)
	sb	s7, 7(a3)
	slli	a1, a1, 33
	or	a1, s7, a1
	srli	a2, a1, 56
	srli	a4, a1, 32
	srli	a5, a1, 40
	srli	a1, a1, 48
	sb	a2, 0(a3)
	sb	a1, 1(a3)
	sb	a5, 2(a3)
	sb	a4, 3(a3)
	beqz	s3, .Laes_BB29_9
# %bb.3:                                # %join.5.i.preheader
	mv	s4, a0
	mv	s5, a3
	mv	s1, s2
	mv	s0, s3
	j	.Laes_BB29_5
.Laes_BB29_4:                               # %join.5.i
                                        #   in Loop: Header=BB29_5 Depth=1
	sd	zero, 0(sp)
	mv	a0, sp
	mv	a1, s6
	la	t1, memcpy
	jalr	t1
	ld	a0, 0(sp)
	addi	s0, s0, -1
	addi	s7, s7, -8
	srli	a1, a0, 56
	srli	a2, a0, 48
	srli	a3, a0, 40
	srli	a4, a0, 32
	srli	a6, a0, 24
	srli	a5, a0, 16
	sb	a4, 4(s1)
	sb	a3, 5(s1)
	sb	a2, 6(s1)
	sb	a1, 7(s1)
	srli	a1, a0, 8
	sb	a0, 0(s1)
	sb	a1, 1(s1)
	sb	a5, 2(s1)
	sb	a6, 3(s1)
	addi	s1, s1, 8
	addi	s6, s6, 8
	beqz	s0, .Laes_BB29_7
.Laes_BB29_5:                               # %join.5.i
                                        # =>This Inner Loop Header: Depth=1
	li	a0, 8
	mv	a2, s7
	bltu	s7, a0, .Laes_BB29_4
# %bb.6:                                # %join.5.i
                                        #   in Loop: Header=BB29_5 Depth=1
	li	a2, 8
	j	.Laes_BB29_4
.Laes_BB29_7:                               # %"key_wrap::padded::fill.exit"
	li	a1, 1
	mv	a3, s5
	mv	a0, s4
	bne	s3, a1, .Laes_BB29_9
# %bb.8:                                # %then.1.i
	mv	a1, a3
	mv	a2, s2
	call	aes.key_wrap.steps.encrypt_halves
	j	.Laes_BB29_10
.Laes_BB29_9:                               # %else.2.i
	mv	a1, a3
	mv	a2, s2
	mv	a3, s3
	call	aes.key_wrap.steps.wrap_in_place
.Laes_BB29_10:                              # %return.4
	li	a1, 0
.Laes_BB29_11:                              # %return.4
	mv	a0, a1
	ld	ra, 72(sp)                      # 8-byte Folded Reload
	ld	s0, 64(sp)                      # 8-byte Folded Reload
	ld	s1, 56(sp)                      # 8-byte Folded Reload
	ld	s2, 48(sp)                      # 8-byte Folded Reload
	ld	s3, 40(sp)                      # 8-byte Folded Reload
	ld	s4, 32(sp)                      # 8-byte Folded Reload
	ld	s5, 24(sp)                      # 8-byte Folded Reload
	ld	s6, 16(sp)                      # 8-byte Folded Reload
	ld	s7, 8(sp)                       # 8-byte Folded Reload
	addi	sp, sp, 80
	ret
.Laes_func_end29:
	.size	aes.key_wrap.padded.wrap_padded, .Laes_func_end29-aes.key_wrap.padded.wrap_padded
                                        # -- End function
	.section	.text.aes.aes_hybrid.closures.lend_planes.2,"ax",@progbits
	.p2align	1                               # -- Begin function aes_hybrid::closures::lend_planes::<#f679257bbe3eb97f>
	.type	aes.aes_hybrid.closures.lend_planes.2,@function
aes.aes_hybrid.closures.lend_planes.2: # @aes.aes_hybrid.closures.lend_planes.2
# %bb.0:                                # %start
	addi	sp, sp, -2032
	sd	ra, 2024(sp)                    # 8-byte Folded Spill
	sd	s0, 2016(sp)                    # 8-byte Folded Spill
	sd	s1, 2008(sp)                    # 8-byte Folded Spill
	sd	s2, 2000(sp)                    # 8-byte Folded Spill
	sd	s3, 1992(sp)                    # 8-byte Folded Spill
	sd	s4, 1984(sp)                    # 8-byte Folded Spill
	sd	s5, 1976(sp)                    # 8-byte Folded Spill
	mv	s2, a4
	mv	s3, a3
	mv	s4, a2
	mv	s1, a1
	mv	s0, a0
	addi	a0, sp, 176
	li	a2, 1792
	li	a1, 0
	la	t1, memset
	jalr	t1
	slli	s5, s1, 3
	addi	a0, sp, 48
	mv	a1, s0
	mv	a2, s1
	call	aes.aes_hybrid.plane_keys.store_planes
	sd	s0, 16(sp)
	sd	s1, 24(sp)
	sd	s4, 32(sp)
	sd	s3, 40(sp)
	addi	a0, sp, 16
	addi	a1, sp, 48
	mv	a2, s5
	mv	a3, s2
	call	aes.aes_hybrid.closures.call_to_work.2
	addi	a0, sp, 48
	call	aes.aes_cipher.zeroize.zeroize_words
	call	aes.aes_cipher.zeroize.stack.wipe_stack.2032
	ld	ra, 2024(sp)                    # 8-byte Folded Reload
	ld	s0, 2016(sp)                    # 8-byte Folded Reload
	ld	s1, 2008(sp)                    # 8-byte Folded Reload
	ld	s2, 2000(sp)                    # 8-byte Folded Reload
	ld	s3, 1992(sp)                    # 8-byte Folded Reload
	ld	s4, 1984(sp)                    # 8-byte Folded Reload
	ld	s5, 1976(sp)                    # 8-byte Folded Reload
	addi	sp, sp, 2032
	ret
.Laes_func_end30:
	.size	aes.aes_hybrid.closures.lend_planes.2, .Laes_func_end30-aes.aes_hybrid.closures.lend_planes.2
                                        # -- End function
	.section	.rodata.cst16,"aM",@progbits,16
	.p2align	4, 0x0                          # -- Begin function aes_hybrid::closures::call_to_work::<#f679257bbe3eb97f>
.Laes_CPI31_0:
	.byte	0                               # 0x0
	.byte	4                               # 0x4
	.byte	8                               # 0x8
	.byte	12                              # 0xc
	.byte	1                               # 0x1
	.byte	5                               # 0x5
	.byte	9                               # 0x9
	.byte	13                              # 0xd
	.byte	2                               # 0x2
	.byte	6                               # 0x6
	.byte	10                              # 0xa
	.byte	14                              # 0xe
	.byte	3                               # 0x3
	.byte	7                               # 0x7
	.byte	11                              # 0xb
	.byte	15                              # 0xf
	.section	.rodata.cst32,"aM",@progbits,32
	.p2align	5, 0x0
.Laes_CPI31_1:
	.zero	1
	.zero	1
	.zero	1
	.zero	1
	.zero	1
	.zero	1
	.zero	1
	.zero	1
	.zero	1
	.zero	1
	.zero	1
	.zero	1
	.zero	1
	.zero	1
	.zero	1
	.zero	1
	.byte	0                               # 0x0
	.byte	4                               # 0x4
	.byte	8                               # 0x8
	.byte	12                              # 0xc
	.byte	1                               # 0x1
	.byte	5                               # 0x5
	.byte	9                               # 0x9
	.byte	13                              # 0xd
	.byte	2                               # 0x2
	.byte	6                               # 0x6
	.byte	10                              # 0xa
	.byte	14                              # 0xe
	.byte	3                               # 0x3
	.byte	7                               # 0x7
	.byte	11                              # 0xb
	.byte	15                              # 0xf
	.section	.text.aes.aes_hybrid.closures.call_to_work.2,"ax",@progbits
	.p2align	1
	.type	aes.aes_hybrid.closures.call_to_work.2,@function
aes.aes_hybrid.closures.call_to_work.2: # @aes.aes_hybrid.closures.call_to_work.2
# %bb.0:                                # %start
	addi	sp, sp, -1408
	sd	ra, 1400(sp)                    # 8-byte Folded Spill
	sd	s0, 1392(sp)                    # 8-byte Folded Spill
	sd	s1, 1384(sp)                    # 8-byte Folded Spill
	sd	s2, 1376(sp)                    # 8-byte Folded Spill
	sd	s3, 1368(sp)                    # 8-byte Folded Spill
	sd	s4, 1360(sp)                    # 8-byte Folded Spill
	sd	s5, 1352(sp)                    # 8-byte Folded Spill
	sd	s6, 1344(sp)                    # 8-byte Folded Spill
	sd	s7, 1336(sp)                    # 8-byte Folded Spill
	sd	s8, 1328(sp)                    # 8-byte Folded Spill
	sd	s9, 1320(sp)                    # 8-byte Folded Spill
	sd	s10, 1312(sp)                   # 8-byte Folded Spill
	sd	s11, 1304(sp)                   # 8-byte Folded Spill
	csrr	t1, vlenb
	li	t2, 3
	slli	t2, t2, 10
.Laes_BB31_1:                               # %start
                                        # =>This Inner Loop Header: Depth=1
	sub	sp, sp, t2
	sd	zero, 0(sp)
	sub	t1, t1, t2
	bge	t1, t2, .Laes_BB31_1
# %bb.2:                                # %start
	sub	sp, sp, t1
	ld	s3, 24(a3)
	beqz	s3, .Laes_BB31_16
# %bb.3:                                # %join.5.lr.ph.i.i
	mv	s7, a3
	mv	s2, a1
	mv	s5, a0
	li	s6, 0
	addi	a5, sp, 1168
	ld	s9, 16(a3)
	addi	s8, a5, 16
	addi	a0, a5, 32
	addi	a1, a5, 48
	addi	a3, a5, 64
	addi	a4, a5, 80
	addi	a5, a5, 96
	sd	a5, 120(sp)                     # 8-byte Folded Spill
	srli	a2, a2, 3
	addi	a2, a2, -1
	sd	s3, 40(sp)                      # 8-byte Folded Spill
	sd	s7, 32(sp)                      # 8-byte Folded Spill
	sd	s9, 24(sp)                      # 8-byte Folded Spill
	sd	a0, 112(sp)                     # 8-byte Folded Spill
	sd	a1, 104(sp)                     # 8-byte Folded Spill
	sd	a3, 96(sp)                      # 8-byte Folded Spill
	sd	a4, 88(sp)                      # 8-byte Folded Spill
	sd	a2, 80(sp)                      # 8-byte Folded Spill
	sd	s2, 72(sp)                      # 8-byte Folded Spill
	sd	s8, 64(sp)                      # 8-byte Folded Spill
.Laes_BB31_4:                               # %join.5.i.i
                                        # =>This Loop Header: Depth=1
                                        #     Child Loop BB31_8 Depth 2
                                        #     Child Loop BB31_12 Depth 2
                                        #     Child Loop BB31_14 Depth 2
	sub	s0, s3, s6
	li	a0, 64
	mv	s10, s0
	bltu	s0, a0, .Laes_BB31_6
# %bb.5:                                # %join.5.i.i
                                        #   in Loop: Header=BB31_4 Depth=1
	li	s10, 64
.Laes_BB31_6:                               # %join.5.i.i
                                        #   in Loop: Header=BB31_4 Depth=1
	slli	s11, s6, 4
	sd	s11, 56(sp)                     # 8-byte Folded Spill
	add	s11, s11, s9
	slli	s1, s10, 4
	addi	a0, sp, 128
	li	a2, 1024
	li	a1, 0
	la	t1, memset
	jalr	t1
	addi	a0, sp, 128
	mv	a1, s11
	mv	a2, s1
	la	t1, memcpy
	jalr	t1
	li	a1, 8
	li	a0, 0
	bltu	s0, a1, .Laes_BB31_10
# %bb.7:                                # %join.5.i.i.i.i.preheader
                                        #   in Loop: Header=BB31_4 Depth=1
	sd	s6, 48(sp)                      # 8-byte Folded Spill
	li	a5, 0
	mv	s0, s11
	ld	a6, 120(sp)                     # 8-byte Folded Reload
.Laes_BB31_8:                               # %join.5.i.i.i.i
                                        #   Parent Loop BB31_4 Depth=1
                                        # =>  This Inner Loop Header: Depth=2
	addi	a0, s0, 16
	vsetivli	zero, 16, e8, m1, ta, ma
	vle8.v	v8, (s0)
	addi	a3, s0, 32
	addi	a1, s0, 48
	addi	s1, s0, 64
	addi	a2, s0, 80
	addi	a4, s0, 96
	vle8.v	v9, (a0)
	addi	a0, s0, 112
	vle8.v	v10, (a1)
.Laes_pcrel_hi124:
	auipc	a1, %pcrel_hi(.Laes_CPI31_0)
	vle8.v	v11, (a2)
	li	a2, 85
	addi	a1, a1, %pcrel_lo(.Laes_pcrel_hi124)
	vle8.v	v16, (a1)
	li	a1, 51
	vle8.v	v12, (a3)
	vle8.v	v13, (s1)
	vle8.v	v14, (a4)
	vle8.v	v15, (a0)
	vmv.v.v	v17, v16
	addi	a0, sp, 1296
	vs1r.v	v16, (a0)                       # vscale x 8-byte Folded Spill
	vrgather.vv	v16, v8, v17
	vrgather.vv	v8, v9, v17
	vrgather.vv	v9, v12, v17
	vrgather.vv	v12, v10, v17
	vrgather.vv	v10, v13, v17
	vrgather.vv	v13, v11, v17
	vrgather.vv	v11, v14, v17
	vrgather.vv	v14, v15, v17
	vsrl.vi	v15, v16, 1
	vsrl.vi	v17, v9, 1
	vsrl.vi	v18, v10, 1
	vsrl.vi	v19, v11, 1
	vxor.vv	v15, v8, v15
	vxor.vv	v17, v12, v17
	vxor.vv	v18, v13, v18
	vxor.vv	v19, v14, v19
	vand.vx	v15, v15, a2
	vand.vx	v17, v17, a2
	vand.vx	v18, v18, a2
	vand.vx	v19, v19, a2
	vxor.vv	v8, v15, v8
	vadd.vv	v15, v15, v15
	vxor.vv	v12, v17, v12
	vadd.vv	v17, v17, v17
	vxor.vv	v13, v18, v13
	vadd.vv	v18, v18, v18
	vxor.vv	v14, v19, v14
	vadd.vv	v19, v19, v19
	vxor.vv	v15, v15, v16
	vxor.vv	v9, v17, v9
	vxor.vv	v10, v18, v10
	vxor.vv	v11, v19, v11
	vsrl.vi	v16, v8, 2
	vsrl.vi	v17, v13, 2
	vsrl.vi	v18, v15, 2
	vsrl.vi	v19, v10, 2
	vxor.vv	v16, v12, v16
	vxor.vv	v17, v14, v17
	vxor.vv	v18, v9, v18
	vxor.vv	v19, v11, v19
	vand.vx	v16, v16, a1
	vand.vx	v17, v17, a1
	vand.vx	v18, v18, a1
	vand.vx	v19, v19, a1
	vxor.vv	v12, v16, v12
	vsll.vi	v16, v16, 2
	vxor.vv	v14, v17, v14
	vsll.vi	v17, v17, 2
	vxor.vv	v9, v18, v9
	vsll.vi	v18, v18, 2
	vxor.vv	v11, v19, v11
	vsll.vi	v19, v19, 2
	vxor.vv	v8, v16, v8
	vxor.vv	v13, v17, v13
	vsrl.vi	v16, v12, 4
	vand.vi	v17, v14, 15
	vxor.vv	v15, v18, v15
	vxor.vv	v10, v19, v10
	vsrl.vi	v18, v8, 4
	vand.vi	v19, v13, 15
	vsrl.vi	v20, v9, 4
	vxor.vv	v16, v17, v16
	vand.vi	v17, v11, 15
	vxor.vv	v18, v19, v18
	vsrl.vi	v19, v15, 4
	vxor.vv	v17, v17, v20
	vand.vi	v20, v10, 15
	vxor.vv	v19, v20, v19
	vxor.vv	v14, v16, v14
	vsll.vi	v16, v16, 4
	vxor.vv	v12, v16, v12
	vxor.vv	v13, v18, v13
	vsll.vi	v16, v18, 4
	vxor.vv	v8, v16, v8
	addi	s3, sp, 1152
	vxor.vv	v11, v17, v11
	vsll.vi	v16, v17, 4
	vxor.vv	v10, v19, v10
	vsll.vi	v17, v19, 4
	vxor.vv	v9, v16, v9
	ld	s7, 112(sp)                     # 8-byte Folded Reload
	vse8.v	v12, (s7)
	ld	s9, 96(sp)                      # 8-byte Folded Reload
	vse8.v	v13, (s9)
	ld	s1, 88(sp)                      # 8-byte Folded Reload
	vse8.v	v11, (s1)
	vxor.vv	v11, v17, v15
	addi	s4, sp, 1168
	vse8.v	v8, (s4)
	ld	s8, 64(sp)                      # 8-byte Folded Reload
	vse8.v	v9, (s8)
	ld	s6, 104(sp)                     # 8-byte Folded Reload
	vse8.v	v10, (s6)
	vse8.v	v11, (s3)
	vse8.v	v14, (a6)
	addi	a2, sp, 1152
	ld	a0, 72(sp)                      # 8-byte Folded Reload
	ld	a1, 80(sp)                      # 8-byte Folded Reload
	mv	s2, a5
	call	aes.aes_soft.soft.ciphers.planes.DecryptPlaneCipher.process_planes
	ld	a6, 120(sp)                     # 8-byte Folded Reload
	vsetivli	zero, 16, e8, m1, ta, ma
	vle8.v	v12, (s3)
	li	a0, 32
.Laes_pcrel_hi125:
	auipc	a1, %pcrel_hi(.Laes_CPI31_1)
	addi	a1, a1, %pcrel_lo(.Laes_pcrel_hi125)
	vsetvli	zero, a0, e8, m2, ta, ma
	vle8.v	v8, (a1)
	vsetivli	zero, 16, e8, m1, ta, ma
	vle8.v	v16, (s4)
	vle8.v	v13, (s8)
	vle8.v	v17, (s7)
	vle8.v	v14, (s6)
	vle8.v	v18, (s9)
	vle8.v	v15, (s1)
	vle8.v	v19, (a6)
	vsrl.vi	v10, v12, 1
	vsrl.vi	v11, v13, 1
	vsrl.vi	v20, v14, 1
	vsrl.vi	v21, v15, 1
	vxor.vv	v10, v16, v10
	vxor.vv	v11, v17, v11
	vxor.vv	v20, v18, v20
	vxor.vv	v21, v19, v21
	li	a1, 85
	vand.vx	v22, v10, a1
	vand.vx	v23, v11, a1
	vand.vx	v20, v20, a1
	vand.vx	v21, v21, a1
	csrr	a1, vlenb
	vsetvli	zero, a0, e8, m2, ta, ma
	vslidedown.vx	v10, v8, a1
	lui	a1, 1048560
	addi	a5, s2, -8
	vsetivli	zero, 16, e8, m1, ta, ma
	vxor.vv	v9, v22, v16
	vadd.vv	v11, v22, v22
	vxor.vv	v16, v23, v17
	vadd.vv	v17, v23, v23
	vxor.vv	v18, v20, v18
	vadd.vv	v20, v20, v20
	vxor.vv	v19, v21, v19
	vadd.vv	v21, v21, v21
	vxor.vv	v11, v11, v12
	vxor.vv	v12, v17, v13
	vxor.vv	v13, v20, v14
	vxor.vv	v14, v21, v15
	vsrl.vi	v15, v9, 2
	vsrl.vi	v17, v18, 2
	vsrl.vi	v20, v11, 2
	vsrl.vi	v21, v13, 2
	vxor.vv	v15, v16, v15
	vxor.vv	v17, v19, v17
	vxor.vv	v20, v12, v20
	vxor.vv	v21, v14, v21
	li	a2, 51
	vand.vx	v15, v15, a2
	vand.vx	v17, v17, a2
	vand.vx	v20, v20, a2
	vand.vx	v21, v21, a2
	li	a2, 7
	vxor.vv	v16, v15, v16
	vsll.vi	v15, v15, 2
	vxor.vv	v19, v17, v19
	vsll.vi	v17, v17, 2
	vxor.vv	v22, v20, v12
	vsll.vi	v12, v20, 2
	vxor.vv	v20, v21, v14
	vsll.vi	v14, v21, 2
	vxor.vv	v9, v15, v9
	vxor.vv	v15, v17, v18
	vsrl.vi	v17, v16, 4
	vand.vi	v18, v19, 15
	vxor.vv	v21, v12, v11
	vxor.vv	v23, v14, v13
	vsrl.vi	v11, v9, 4
	vand.vi	v12, v15, 15
	vxor.vv	v13, v18, v17
	vxor.vv	v11, v12, v11
	vxor.vv	v14, v13, v19
	vsll.vi	v12, v13, 4
	vxor.vv	v18, v11, v15
	vsll.vi	v11, v11, 4
	vxor.vv	v16, v12, v16
	vsetvli	a3, zero, e8, m1, ta, ma
	vrgather.vv	v13, v14, v10
	vsetivli	zero, 16, e8, m1, ta, ma
	vxor.vv	v9, v11, v9
	vsetvli	a3, zero, e8, m1, ta, ma
	vrgather.vv	v15, v16, v10
	vrgather.vv	v12, v14, v8
	vrgather.vv	v14, v16, v8
	vrgather.vv	v17, v18, v10
	vrgather.vv	v16, v18, v8
	vsetvli	zero, zero, e32, m4, ta, ma
	vmv.s.x	v0, a1
	add	a1, s10, a5
	vsetvli	zero, zero, e8, m1, ta, ma
	vrgather.vv	v11, v9, v10
	vrgather.vv	v10, v9, v8
	vsetivli	zero, 16, e8, m1, ta, ma
	vsrl.vi	v8, v22, 4
	vand.vi	v9, v20, 15
	vsrl.vi	v18, v21, 4
	vxor.vv	v8, v9, v8
	vand.vi	v9, v23, 15
	vxor.vv	v9, v9, v18
	vxor.vv	v18, v8, v20
	vsll.vi	v8, v8, 4
	vxor.vv	v19, v9, v23
	vsll.vi	v9, v9, 4
	vxor.vv	v20, v8, v22
	addi	a3, sp, 1296
	vl1r.v	v22, (a3)                       # vscale x 8-byte Folded Reload
	vrgather.vv	v8, v18, v22
	vxor.vv	v9, v9, v21
	vrgather.vv	v18, v9, v22
	vsetvli	zero, a0, e8, m2, ta, ma
	vmerge.vvm	v10, v18, v10, v0
	vsetivli	zero, 16, e8, m1, ta, ma
	vrgather.vv	v18, v20, v22
	vrgather.vv	v20, v19, v22
	vsetvli	zero, a0, e8, m2, ta, ma
	vmerge.vvm	v14, v18, v14, v0
	vse8.v	v10, (s0)
	addi	a0, s0, 32
	vse8.v	v14, (a0)
	vmerge.vvm	v10, v20, v16, v0
	addi	a0, s0, 64
	vse8.v	v10, (a0)
	vmerge.vvm	v8, v8, v12, v0
	addi	a0, s0, 96
	vse8.v	v8, (a0)
	addi	s0, s0, 128
	bltu	a2, a1, .Laes_BB31_8
# %bb.9:                                # %loop.7.preheader.i.i.i.i.loopexit
                                        #   in Loop: Header=BB31_4 Depth=1
	neg	a0, a5
	ld	s3, 40(sp)                      # 8-byte Folded Reload
	ld	s6, 48(sp)                      # 8-byte Folded Reload
	ld	s7, 32(sp)                      # 8-byte Folded Reload
	ld	s9, 24(sp)                      # 8-byte Folded Reload
.Laes_BB31_10:                              # %loop.7.preheader.i.i.i.i
                                        #   in Loop: Header=BB31_4 Depth=1
	bgeu	a0, s10, .Laes_BB31_13
# %bb.11:                               # %join.10.i.i.i.i.preheader
                                        #   in Loop: Header=BB31_4 Depth=1
	sub	s0, s10, a0
	slli	a0, a0, 4
	ld	a1, 56(sp)                      # 8-byte Folded Reload
	add	a0, a0, a1
	add	s1, s9, a0
.Laes_BB31_12:                              # %join.10.i.i.i.i
                                        #   Parent Loop BB31_4 Depth=1
                                        # =>  This Inner Loop Header: Depth=2
	lbu	a0, 16(s5)
	lbu	a1, 17(s5)
	lbu	a2, 18(s5)
	lbu	a3, 19(s5)
	lbu	a6, 20(s5)
	lbu	a7, 21(s5)
	lbu	a4, 22(s5)
	lbu	a5, 23(s5)
	slli	a1, a1, 8
	slli	a2, a2, 16
	slli	a3, a3, 24
	or	t0, a1, a0
	or	t1, a3, a2
	lbu	a1, 24(s5)
	lbu	a3, 25(s5)
	lbu	a0, 26(s5)
	lbu	a2, 27(s5)
	slli	a7, a7, 8
	slli	a4, a4, 16
	slli	a5, a5, 24
	slli	a3, a3, 8
	slli	a0, a0, 16
	slli	a2, a2, 24
	or	a6, a7, a6
	or	a4, a4, a5
	or	a7, a3, a1
	or	a0, a0, a2
	lbu	a2, 29(s5)
	lbu	a3, 28(s5)
	lbu	a5, 30(s5)
	lbu	a1, 31(s5)
	slli	a2, a2, 8
	or	a2, a2, a3
	slli	a5, a5, 16
	slli	a1, a1, 24
	or	a1, a1, a5
	or	a3, t1, t0
	or	a4, a4, a6
	or	a5, a0, a7
	or	a1, a1, a2
	slli	a0, a4, 32
	slli	a1, a1, 32
	or	a0, a0, a3
	or	a1, a1, a5
	li	a3, 1
	mv	a2, s1
	call	aes.aes_permute.blocks.process_on_lanes.2
	addi	s0, s0, -1
	addi	s1, s1, 16
	bnez	s0, .Laes_BB31_12
.Laes_BB31_13:                              # %join.7.lr.ph.i.i.i
                                        #   in Loop: Header=BB31_4 Depth=1
	vsetivli	zero, 16, e8, m1, ta, ma
	vle8.v	v8, (s7)
	add	s6, s6, s10
	addi	a0, sp, 128
.Laes_BB31_14:                              # %join.7.i.i.i
                                        #   Parent Loop BB31_4 Depth=1
                                        # =>  This Inner Loop Header: Depth=2
	vle8.v	v9, (s11)
	vxor.vv	v9, v9, v8
	vle8.v	v8, (a0)
	addi	s10, s10, -1
	addi	a0, a0, 16
	vse8.v	v9, (s11)
	vse8.v	v8, (s7)
	addi	s11, s11, 16
	bnez	s10, .Laes_BB31_14
# %bb.15:                               # %"cbc::decryption::unchain_part::<#e6bd2e7595c2ce9d>.exit.loopexit.i.i"
                                        #   in Loop: Header=BB31_4 Depth=1
	bltu	s6, s3, .Laes_BB31_4
.Laes_BB31_16:                              # %"cbc::decryption::ChainBlockCipherDecClosure::call::<#e6bd2e7595c2ce9d>.exit"
	csrr	a0, vlenb
	add	sp, sp, a0
	ld	ra, 1400(sp)                    # 8-byte Folded Reload
	ld	s0, 1392(sp)                    # 8-byte Folded Reload
	ld	s1, 1384(sp)                    # 8-byte Folded Reload
	ld	s2, 1376(sp)                    # 8-byte Folded Reload
	ld	s3, 1368(sp)                    # 8-byte Folded Reload
	ld	s4, 1360(sp)                    # 8-byte Folded Reload
	ld	s5, 1352(sp)                    # 8-byte Folded Reload
	ld	s6, 1344(sp)                    # 8-byte Folded Reload
	ld	s7, 1336(sp)                    # 8-byte Folded Reload
	ld	s8, 1328(sp)                    # 8-byte Folded Reload
	ld	s9, 1320(sp)                    # 8-byte Folded Reload
	ld	s10, 1312(sp)                   # 8-byte Folded Reload
	ld	s11, 1304(sp)                   # 8-byte Folded Reload
	addi	sp, sp, 1408
	ret
.Laes_func_end31:
	.size	aes.aes_hybrid.closures.call_to_work.2, .Laes_func_end31-aes.aes_hybrid.closures.call_to_work.2
                                        # -- End function
	.section	.rodata.cst16,"aM",@progbits,16
	.p2align	4, 0x0                          # -- Begin function aes_soft::soft::ciphers::planes::process_outlined::<#0cf5cff84c52603c>
.Laes_CPI32_0:
	.byte	0                               # 0x0
	.byte	4                               # 0x4
	.byte	8                               # 0x8
	.byte	12                              # 0xc
	.byte	1                               # 0x1
	.byte	5                               # 0x5
	.byte	9                               # 0x9
	.byte	13                              # 0xd
	.byte	2                               # 0x2
	.byte	6                               # 0x6
	.byte	10                              # 0xa
	.byte	14                              # 0xe
	.byte	3                               # 0x3
	.byte	7                               # 0x7
	.byte	11                              # 0xb
	.byte	15                              # 0xf
	.section	.rodata.cst32,"aM",@progbits,32
	.p2align	5, 0x0
.Laes_CPI32_1:
	.zero	1
	.zero	1
	.zero	1
	.zero	1
	.zero	1
	.zero	1
	.zero	1
	.zero	1
	.zero	1
	.zero	1
	.zero	1
	.zero	1
	.zero	1
	.zero	1
	.zero	1
	.zero	1
	.byte	0                               # 0x0
	.byte	4                               # 0x4
	.byte	8                               # 0x8
	.byte	12                              # 0xc
	.byte	1                               # 0x1
	.byte	5                               # 0x5
	.byte	9                               # 0x9
	.byte	13                              # 0xd
	.byte	2                               # 0x2
	.byte	6                               # 0x6
	.byte	10                              # 0xa
	.byte	14                              # 0xe
	.byte	3                               # 0x3
	.byte	7                               # 0x7
	.byte	11                              # 0xb
	.byte	15                              # 0xf
	.section	.text.aes.aes_soft.soft.ciphers.planes.process_outlined.2,"ax",@progbits
	.p2align	1
	.type	aes.aes_soft.soft.ciphers.planes.process_outlined.2,@function
aes.aes_soft.soft.ciphers.planes.process_outlined.2: # @aes.aes_soft.soft.ciphers.planes.process_outlined.2
# %bb.0:                                # %start
	addi	sp, sp, -272
	sd	ra, 264(sp)                     # 8-byte Folded Spill
	sd	s0, 256(sp)                     # 8-byte Folded Spill
	sd	s1, 248(sp)                     # 8-byte Folded Spill
	sd	s2, 240(sp)                     # 8-byte Folded Spill
	sd	s3, 232(sp)                     # 8-byte Folded Spill
	sd	s4, 224(sp)                     # 8-byte Folded Spill
	sd	s5, 216(sp)                     # 8-byte Folded Spill
	sd	s6, 208(sp)                     # 8-byte Folded Spill
	sd	s7, 200(sp)                     # 8-byte Folded Spill
	sd	s8, 192(sp)                     # 8-byte Folded Spill
	sd	s9, 184(sp)                     # 8-byte Folded Spill
	sd	s10, 176(sp)                    # 8-byte Folded Spill
	sd	s11, 168(sp)                    # 8-byte Folded Spill
	csrr	t1, vlenb
	li	t2, 3
	slli	t2, t2, 10
.Laes_BB32_1:                               # %start
                                        # =>This Inner Loop Header: Depth=1
	sub	sp, sp, t2
	sd	zero, 0(sp)
	sub	t1, t1, t2
	bge	t1, t2, .Laes_BB32_1
# %bb.2:                                # %start
	sub	sp, sp, t1
	mv	a6, a2
	mv	a7, a1
	mv	s2, a0
	addi	a0, a3, 16
	vsetivli	zero, 16, e8, m1, ta, ma
	vle8.v	v8, (a3)
.Laes_pcrel_hi126:
	auipc	a2, %pcrel_hi(.Laes_CPI32_0)
	addi	a5, a3, 32
	addi	a4, a3, 48
	addi	a1, a3, 64
	addi	s1, a3, 80
	addi	s0, a3, 96
	addi	a3, a3, 112
	li	s5, 85
	li	s4, 51
	addi	a2, a2, %pcrel_lo(.Laes_pcrel_hi126)
	vle8.v	v9, (a0)
	vle8.v	v10, (a5)
	vle8.v	v11, (a4)
	vle8.v	v12, (a1)
	vle8.v	v17, (a2)
	addi	a0, sp, 160
	vs1r.v	v17, (a0)                       # vscale x 8-byte Folded Spill
	vle8.v	v13, (s1)
	vle8.v	v14, (s0)
	vle8.v	v15, (a3)
	vrgather.vv	v16, v8, v17
	vrgather.vv	v8, v9, v17
	vrgather.vv	v9, v10, v17
	vrgather.vv	v10, v11, v17
	vrgather.vv	v11, v12, v17
	vrgather.vv	v12, v13, v17
	vrgather.vv	v13, v14, v17
	vrgather.vv	v14, v15, v17
	vsrl.vi	v15, v16, 1
	vsrl.vi	v17, v9, 1
	vsrl.vi	v18, v11, 1
	vsrl.vi	v19, v13, 1
	vxor.vv	v15, v8, v15
	vxor.vv	v17, v10, v17
	vxor.vv	v18, v12, v18
	vxor.vv	v19, v14, v19
	vand.vx	v15, v15, s5
	vand.vx	v17, v17, s5
	vand.vx	v18, v18, s5
	vand.vx	v19, v19, s5
	vxor.vv	v8, v15, v8
	vadd.vv	v15, v15, v15
	vxor.vv	v10, v17, v10
	vadd.vv	v17, v17, v17
	vxor.vv	v12, v18, v12
	vadd.vv	v18, v18, v18
	vxor.vv	v14, v19, v14
	vadd.vv	v19, v19, v19
	vxor.vv	v15, v15, v16
	vxor.vv	v9, v17, v9
	vxor.vv	v11, v18, v11
	vxor.vv	v13, v19, v13
	vsrl.vi	v16, v8, 2
	vsrl.vi	v17, v12, 2
	vsrl.vi	v18, v15, 2
	vsrl.vi	v19, v11, 2
	vxor.vv	v16, v10, v16
	vxor.vv	v17, v14, v17
	vxor.vv	v18, v9, v18
	vxor.vv	v19, v13, v19
	vand.vx	v16, v16, s4
	vand.vx	v17, v17, s4
	vand.vx	v18, v18, s4
	vand.vx	v19, v19, s4
	vxor.vv	v10, v16, v10
	vsll.vi	v16, v16, 2
	vxor.vv	v14, v17, v14
	vsll.vi	v17, v17, 2
	vxor.vv	v9, v18, v9
	vsll.vi	v18, v18, 2
	vxor.vv	v13, v19, v13
	vsll.vi	v19, v19, 2
	vxor.vv	v8, v16, v8
	vxor.vv	v12, v17, v12
	vsrl.vi	v16, v10, 4
	vand.vi	v17, v14, 15
	vxor.vv	v15, v18, v15
	vxor.vv	v11, v19, v11
	vsrl.vi	v18, v8, 4
	vand.vi	v19, v12, 15
	vsrl.vi	v20, v9, 4
	vxor.vv	v16, v17, v16
	vand.vi	v17, v13, 15
	vxor.vv	v18, v19, v18
	vsrl.vi	v19, v15, 4
	vxor.vv	v17, v17, v20
	vand.vi	v20, v11, 15
	vxor.vv	v19, v20, v19
	vxor.vv	v14, v16, v14
	vsll.vi	v16, v16, 4
	vxor.vv	v10, v16, v10
	vxor.vv	v12, v18, v12
	vsll.vi	v16, v18, 4
	vxor.vv	v8, v16, v8
	addi	s3, s2, 32
	addi	s6, sp, 32
	addi	s7, sp, 16
	addi	s8, sp, 48
	addi	s9, sp, 64
	addi	s10, sp, 80
	addi	s11, sp, 96
	addi	s0, sp, 112
	addi	s1, sp, 128
	vxor.vv	v13, v17, v13
	vsll.vi	v16, v17, 4
	vxor.vv	v11, v19, v11
	vsll.vi	v17, v19, 4
	vxor.vv	v9, v16, v9
	vse8.v	v10, (s9)
	vse8.v	v12, (s11)
	vse8.v	v13, (s0)
	vxor.vv	v10, v17, v15
	vse8.v	v8, (s6)
	vse8.v	v9, (s8)
	vse8.v	v11, (s10)
	vse8.v	v10, (s7)
	vse8.v	v14, (s1)
	addi	a2, sp, 16
	mv	a0, a7
	mv	a1, a6
	call	aes.aes_soft.soft.ciphers.planes.DecryptPlaneCipher.process_planes
	vsetivli	zero, 16, e8, m1, ta, ma
	vle8.v	v12, (s7)
	vle8.v	v16, (s6)
	vle8.v	v13, (s8)
	vle8.v	v17, (s9)
	vle8.v	v14, (s10)
	vle8.v	v18, (s11)
	vle8.v	v15, (s0)
	vle8.v	v19, (s1)
	li	a0, 32
.Laes_pcrel_hi127:
	auipc	a4, %pcrel_hi(.Laes_CPI32_1)
	csrr	a5, vlenb
	lui	a3, 1048560
	addi	a1, s2, 64
	addi	a2, s2, 96
	addi	a4, a4, %pcrel_lo(.Laes_pcrel_hi127)
	vsetvli	zero, a0, e8, m2, ta, ma
	vle8.v	v8, (a4)
	vsetivli	zero, 16, e8, m1, ta, ma
	vsrl.vi	v10, v12, 1
	vsrl.vi	v11, v13, 1
	vsrl.vi	v20, v14, 1
	vsrl.vi	v21, v15, 1
	vxor.vv	v10, v16, v10
	vxor.vv	v11, v17, v11
	vxor.vv	v20, v18, v20
	vxor.vv	v21, v19, v21
	vand.vx	v22, v10, s5
	vand.vx	v23, v11, s5
	vand.vx	v20, v20, s5
	vand.vx	v21, v21, s5
	vsetvli	zero, a0, e8, m2, ta, ma
	vslidedown.vx	v10, v8, a5
	vsetivli	zero, 16, e8, m1, ta, ma
	vxor.vv	v9, v22, v16
	vadd.vv	v11, v22, v22
	vxor.vv	v16, v23, v17
	vadd.vv	v17, v23, v23
	vxor.vv	v18, v20, v18
	vadd.vv	v20, v20, v20
	vxor.vv	v19, v21, v19
	vadd.vv	v21, v21, v21
	vxor.vv	v11, v11, v12
	vxor.vv	v12, v17, v13
	vxor.vv	v13, v20, v14
	vxor.vv	v14, v21, v15
	vsrl.vi	v15, v9, 2
	vsrl.vi	v17, v18, 2
	vsrl.vi	v20, v11, 2
	vsrl.vi	v21, v13, 2
	vxor.vv	v15, v16, v15
	vxor.vv	v17, v19, v17
	vxor.vv	v20, v12, v20
	vxor.vv	v21, v14, v21
	vand.vx	v15, v15, s4
	vand.vx	v17, v17, s4
	vand.vx	v20, v20, s4
	vand.vx	v21, v21, s4
	vxor.vv	v16, v15, v16
	vsll.vi	v15, v15, 2
	vxor.vv	v19, v17, v19
	vsll.vi	v17, v17, 2
	vxor.vv	v22, v20, v12
	vsll.vi	v12, v20, 2
	vxor.vv	v20, v21, v14
	vsll.vi	v14, v21, 2
	vxor.vv	v9, v15, v9
	vxor.vv	v15, v17, v18
	vsrl.vi	v17, v16, 4
	vand.vi	v18, v19, 15
	vxor.vv	v21, v12, v11
	vxor.vv	v23, v14, v13
	vsrl.vi	v11, v9, 4
	vand.vi	v12, v15, 15
	vxor.vv	v13, v18, v17
	vxor.vv	v11, v12, v11
	vxor.vv	v14, v13, v19
	vsll.vi	v12, v13, 4
	vxor.vv	v18, v11, v15
	vsll.vi	v11, v11, 4
	vxor.vv	v15, v12, v16
	vsetvli	a4, zero, e8, m1, ta, ma
	vrgather.vv	v13, v14, v10
	vsetivli	zero, 16, e8, m1, ta, ma
	vxor.vv	v9, v11, v9
	vsetvli	a4, zero, e8, m1, ta, ma
	vrgather.vv	v17, v15, v10
	vrgather.vv	v12, v14, v8
	vrgather.vv	v16, v15, v8
	vrgather.vv	v15, v18, v10
	vrgather.vv	v14, v18, v8
	vsetvli	zero, zero, e32, m4, ta, ma
	vmv.s.x	v0, a3
	vsetvli	zero, zero, e8, m1, ta, ma
	vrgather.vv	v11, v9, v10
	vrgather.vv	v10, v9, v8
	vsetivli	zero, 16, e8, m1, ta, ma
	vsrl.vi	v8, v22, 4
	vand.vi	v9, v20, 15
	vsrl.vi	v18, v21, 4
	vxor.vv	v8, v9, v8
	vand.vi	v9, v23, 15
	vxor.vv	v9, v9, v18
	vxor.vv	v18, v8, v20
	vsll.vi	v8, v8, 4
	vxor.vv	v19, v9, v23
	vsll.vi	v9, v9, 4
	vxor.vv	v20, v8, v22
	addi	a3, sp, 160
	vl1r.v	v22, (a3)                       # vscale x 8-byte Folded Reload
	vrgather.vv	v8, v18, v22
	vxor.vv	v9, v9, v21
	vrgather.vv	v18, v9, v22
	vsetvli	zero, a0, e8, m2, ta, ma
	vmerge.vvm	v10, v18, v10, v0
	vsetivli	zero, 16, e8, m1, ta, ma
	vrgather.vv	v18, v20, v22
	vrgather.vv	v20, v19, v22
	vsetvli	zero, a0, e8, m2, ta, ma
	vmerge.vvm	v16, v18, v16, v0
	vse8.v	v10, (s2)
	vse8.v	v16, (s3)
	vmerge.vvm	v10, v20, v14, v0
	vse8.v	v10, (a1)
	vmerge.vvm	v8, v8, v12, v0
	vse8.v	v8, (a2)
	csrr	a0, vlenb
	add	sp, sp, a0
	ld	ra, 264(sp)                     # 8-byte Folded Reload
	ld	s0, 256(sp)                     # 8-byte Folded Reload
	ld	s1, 248(sp)                     # 8-byte Folded Reload
	ld	s2, 240(sp)                     # 8-byte Folded Reload
	ld	s3, 232(sp)                     # 8-byte Folded Reload
	ld	s4, 224(sp)                     # 8-byte Folded Reload
	ld	s5, 216(sp)                     # 8-byte Folded Reload
	ld	s6, 208(sp)                     # 8-byte Folded Reload
	ld	s7, 200(sp)                     # 8-byte Folded Reload
	ld	s8, 192(sp)                     # 8-byte Folded Reload
	ld	s9, 184(sp)                     # 8-byte Folded Reload
	ld	s10, 176(sp)                    # 8-byte Folded Reload
	ld	s11, 168(sp)                    # 8-byte Folded Reload
	addi	sp, sp, 272
	ret
.Laes_func_end32:
	.size	aes.aes_soft.soft.ciphers.planes.process_outlined.2, .Laes_func_end32-aes.aes_soft.soft.ciphers.planes.process_outlined.2
                                        # -- End function
	.section	.rodata.cst16,"aM",@progbits,16
	.p2align	4, 0x0                          # -- Begin function aes_soft::soft::ciphers::planes::DecryptPlaneCipher::process_planes::<#f2467153fb0a218d>
.Laes_CPI33_0:
	.byte	2                               # 0x2
	.byte	3                               # 0x3
	.byte	4                               # 0x4
	.byte	5                               # 0x5
	.byte	6                               # 0x6
	.byte	7                               # 0x7
	.byte	8                               # 0x8
	.byte	9                               # 0x9
	.byte	10                              # 0xa
	.byte	11                              # 0xb
	.byte	12                              # 0xc
	.byte	13                              # 0xd
	.byte	14                              # 0xe
	.byte	15                              # 0xf
	.byte	128                             # 0x80
	.byte	129                             # 0x81
.Laes_CPI33_1:
	.byte	10                              # 0xa
	.byte	11                              # 0xb
	.byte	12                              # 0xc
	.byte	13                              # 0xd
	.byte	14                              # 0xe
	.byte	15                              # 0xf
	.byte	0                               # 0x0
	.byte	1                               # 0x1
	.byte	2                               # 0x2
	.byte	3                               # 0x3
	.byte	4                               # 0x4
	.byte	5                               # 0x5
	.byte	6                               # 0x6
	.byte	7                               # 0x7
	.byte	8                               # 0x8
	.byte	9                               # 0x9
.Laes_CPI33_2:
	.byte	6                               # 0x6
	.byte	7                               # 0x7
	.byte	8                               # 0x8
	.byte	9                               # 0x9
	.byte	10                              # 0xa
	.byte	11                              # 0xb
	.byte	12                              # 0xc
	.byte	13                              # 0xd
	.byte	14                              # 0xe
	.byte	15                              # 0xf
	.byte	0                               # 0x0
	.byte	1                               # 0x1
	.byte	2                               # 0x2
	.byte	3                               # 0x3
	.byte	4                               # 0x4
	.byte	5                               # 0x5
.Laes_CPI33_3:
	.byte	7                               # 0x7
	.byte	8                               # 0x8
	.byte	9                               # 0x9
	.byte	10                              # 0xa
	.byte	11                              # 0xb
	.byte	12                              # 0xc
	.byte	13                              # 0xd
	.byte	14                              # 0xe
	.byte	15                              # 0xf
	.byte	0                               # 0x0
	.byte	1                               # 0x1
	.byte	2                               # 0x2
	.byte	3                               # 0x3
	.byte	4                               # 0x4
	.byte	5                               # 0x5
	.byte	6                               # 0x6
.Laes_CPI33_4:
	.byte	3                               # 0x3
	.byte	4                               # 0x4
	.byte	5                               # 0x5
	.byte	6                               # 0x6
	.byte	7                               # 0x7
	.byte	8                               # 0x8
	.byte	9                               # 0x9
	.byte	10                              # 0xa
	.byte	11                              # 0xb
	.byte	12                              # 0xc
	.byte	13                              # 0xd
	.byte	14                              # 0xe
	.byte	15                              # 0xf
	.byte	0                               # 0x0
	.byte	1                               # 0x1
	.byte	2                               # 0x2
.Laes_CPI33_5:
	.byte	2                               # 0x2
	.byte	3                               # 0x3
	.byte	4                               # 0x4
	.byte	5                               # 0x5
	.byte	6                               # 0x6
	.byte	7                               # 0x7
	.byte	8                               # 0x8
	.byte	9                               # 0x9
	.byte	10                              # 0xa
	.byte	11                              # 0xb
	.byte	12                              # 0xc
	.byte	13                              # 0xd
	.byte	14                              # 0xe
	.byte	15                              # 0xf
	.byte	0                               # 0x0
	.byte	1                               # 0x1
.Laes_CPI33_6:
	.byte	8                               # 0x8
	.byte	9                               # 0x9
	.byte	10                              # 0xa
	.byte	11                              # 0xb
	.byte	12                              # 0xc
	.byte	13                              # 0xd
	.byte	14                              # 0xe
	.byte	15                              # 0xf
	.byte	0                               # 0x0
	.byte	1                               # 0x1
	.byte	2                               # 0x2
	.byte	3                               # 0x3
	.byte	4                               # 0x4
	.byte	5                               # 0x5
	.byte	6                               # 0x6
	.byte	7                               # 0x7
.Laes_CPI33_7:
	.byte	5                               # 0x5
	.byte	6                               # 0x6
	.byte	7                               # 0x7
	.byte	8                               # 0x8
	.byte	9                               # 0x9
	.byte	10                              # 0xa
	.byte	11                              # 0xb
	.byte	12                              # 0xc
	.byte	13                              # 0xd
	.byte	14                              # 0xe
	.byte	15                              # 0xf
	.byte	0                               # 0x0
	.byte	1                               # 0x1
	.byte	2                               # 0x2
	.byte	3                               # 0x3
	.byte	4                               # 0x4
.Laes_CPI33_8:
	.byte	1                               # 0x1
	.byte	2                               # 0x2
	.byte	3                               # 0x3
	.byte	4                               # 0x4
	.byte	5                               # 0x5
	.byte	6                               # 0x6
	.byte	7                               # 0x7
	.byte	8                               # 0x8
	.byte	9                               # 0x9
	.byte	10                              # 0xa
	.byte	11                              # 0xb
	.byte	12                              # 0xc
	.byte	13                              # 0xd
	.byte	14                              # 0xe
	.byte	15                              # 0xf
	.byte	0                               # 0x0
.Laes_CPI33_9:
	.byte	4                               # 0x4
	.byte	5                               # 0x5
	.byte	6                               # 0x6
	.byte	7                               # 0x7
	.byte	8                               # 0x8
	.byte	9                               # 0x9
	.byte	10                              # 0xa
	.byte	11                              # 0xb
	.byte	12                              # 0xc
	.byte	13                              # 0xd
	.byte	14                              # 0xe
	.byte	15                              # 0xf
	.byte	0                               # 0x0
	.byte	1                               # 0x1
	.byte	2                               # 0x2
	.byte	3                               # 0x3
	.section	.text.aes.aes_soft.soft.ciphers.planes.DecryptPlaneCipher.process_planes,"ax",@progbits
	.p2align	1
	.type	aes.aes_soft.soft.ciphers.planes.DecryptPlaneCipher.process_planes,@function
aes.aes_soft.soft.ciphers.planes.DecryptPlaneCipher.process_planes: # @aes.aes_soft.soft.ciphers.planes.DecryptPlaneCipher.process_planes
# %bb.0:                                # %start
	addi	sp, sp, -64
	sd	s0, 56(sp)                      # 8-byte Folded Spill
	sd	s1, 48(sp)                      # 8-byte Folded Spill
	sd	s2, 40(sp)                      # 8-byte Folded Spill
	sd	s3, 32(sp)                      # 8-byte Folded Spill
	sd	s4, 24(sp)                      # 8-byte Folded Spill
	sd	s5, 16(sp)                      # 8-byte Folded Spill
	csrr	t1, vlenb
	slli	a3, t1, 3
	sub	t1, a3, t1
	li	t2, 3
	slli	t2, t2, 10
.Laes_BB33_1:                               # %start
                                        # =>This Inner Loop Header: Depth=1
	sub	sp, sp, t2
	sd	zero, 0(sp)
	sub	t1, t1, t2
	bge	t1, t2, .Laes_BB33_1
# %bb.2:                                # %start
	sub	sp, sp, t1
	addi	a6, a2, 16
	addi	s4, a1, -2
	vsetivli	zero, 16, e8, m1, ta, ma
	vle8.v	v8, (a2)
	addi	a7, a2, 32
	addi	t0, a2, 48
	addi	t1, a2, 64
	addi	t2, a2, 80
	addi	t3, a2, 96
	addi	t4, a2, 112
	slli	a5, a1, 7
.Laes_pcrel_hi128:
	auipc	s0, %pcrel_hi(.Laes_CPI33_3)
.Laes_pcrel_hi129:
	auipc	s1, %pcrel_hi(.Laes_CPI33_4)
.Laes_pcrel_hi130:
	auipc	a3, %pcrel_hi(.Laes_CPI33_5)
.Laes_pcrel_hi131:
	auipc	s5, %pcrel_hi(.Laes_CPI33_6)
	srli	a4, s4, 2
	andi	s3, s4, -4
	vle8.v	v9, (a6)
	vle8.v	v10, (a7)
	vle8.v	v11, (t0)
	vle8.v	v12, (t1)
	vle8.v	v13, (t2)
	vle8.v	v14, (t3)
	vle8.v	v15, (t4)
	add	a5, a5, a0
	addi	s2, s0, %pcrel_lo(.Laes_pcrel_hi128)
	addi	t6, s1, %pcrel_lo(.Laes_pcrel_hi129)
	addi	t5, a3, %pcrel_lo(.Laes_pcrel_hi130)
	vle8.v	v16, (a5)
	addi	a3, a5, 16
	vle8.v	v17, (a3)
	addi	a3, a5, 32
	vle8.v	v18, (a3)
	addi	a3, a5, 48
	vle8.v	v19, (a3)
	addi	a3, a5, 64
	vle8.v	v20, (a3)
	addi	a3, a5, 80
	vle8.v	v21, (a3)
	addi	a3, a5, 96
	vle8.v	v22, (a3)
	addi	a3, a5, 112
	vle8.v	v23, (a3)
	addi	s0, s3, 2
	vxor.vv	v24, v16, v8
	vxor.vv	v9, v17, v9
	vxor.vv	v10, v18, v10
	vxor.vv	v19, v19, v11
	vxor.vv	v11, v20, v12
	vxor.vv	v20, v21, v13
	vxor.vv	v17, v22, v14
	vxor.vv	v15, v23, v15
	vxor.vv	v18, v9, v24
	vxor.vv	v8, v15, v17
	vxor.vv	v21, v20, v10
	vxor.vv	v12, v17, v11
	vxor.vv	v22, v20, v19
	vxor.vv	v23, v17, v9
	vxor.vv	v16, v15, v11
	vxor.vv	v14, v11, v19
	vxor.vv	v25, v10, v9
	vxor.vv	v26, v19, v24
	vxor.vv	v13, v8, v18
	vxor.vv	v11, v22, v23
	vxor.vv	v22, v15, v21
	vxor.vv	v27, v16, v17
	vxor.vv	v15, v14, v18
	vxor.vv	v17, v12, v21
	vxor.vv	v9, v14, v25
	vxor.vv	v21, v14, v24
	vxor.vv	v24, v12, v18
	vxor.vv	v23, v23, v26
	vxor.vv	v18, v8, v26
	vxor.vv	v10, v27, v19
	vand.vv	v19, v13, v17
	vand.vv	v28, v27, v16
	vand.vv	v29, v11, v15
	vor.vv	v30, v11, v15
	vand.vv	v31, v12, v21
	vand.vv	v7, v24, v22
	vxor.vv	v6, v24, v20
	vand.vv	v5, v18, v8
	vxor.vv	v4, v18, v9
	vxor.vv	v3, v18, v25
	vand.vv	v2, v10, v9
	vand.vv	v4, v4, v14
	vxor.vv	v30, v30, v31
	vand.vv	v31, v6, v23
	vxor.vv	v26, v7, v26
	vxor.vv	v25, v25, v28
	vxor.vv	v28, v4, v2
	vxor.vv	v7, v4, v5
	vxor.vv	v26, v26, v19
	vxor.vv	v25, v25, v18
	vxor.vv	v29, v29, v31
	vxor.vv	v30, v30, v28
	vxor.vv	v26, v26, v7
	vxor.vv	v19, v25, v19
	vxor.vv	v25, v29, v14
	vxor.vv	v19, v19, v28
	vxor.vv	v20, v25, v20
	vand.vv	v25, v26, v30
	vand.vv	v28, v19, v30
	vxor.vv	v29, v19, v26
	vxor.vv	v20, v20, v7
	vnot.v	v25, v25
	vxor.vv	v31, v28, v26
	vand.vv	v19, v19, v20
	vxor.vv	v30, v20, v30
	vxor.vv	v7, v28, v20
	vand.vv	v19, v19, v29
	vand.vv	v7, v7, v29
	vand.vv	v31, v31, v30
	vand.vv	v25, v30, v25
	vxor.vv	v26, v7, v26
	vxor.vv	v19, v28, v19
	vxor.vv	v20, v31, v20
	vxor.vv	v25, v25, v28
	vand.vv	v23, v26, v23
	vxor.vv	v19, v19, v29
	vxor.vv	v28, v26, v20
	vand.vv	v22, v20, v22
	vand.vv	v24, v20, v24
	vand.vv	v29, v26, v6
	vand.vv	v16, v25, v16
	vxor.vv	v20, v20, v25
	vand.vv	v27, v25, v27
	vxor.vv	v26, v26, v19
	vand.vv	v12, v19, v12
	vand.vv	v14, v28, v14
	vand.vv	v30, v28, v3
	vand.vv	v21, v19, v21
	vxor.vv	v19, v19, v25
	vand.vv	v17, v20, v17
	vand.vv	v13, v20, v13
	vxor.vv	v16, v22, v16
	vand.vv	v15, v26, v15
	vand.vv	v11, v26, v11
	vand.vv	v18, v19, v18
	vxor.vv	v20, v17, v29
	vxor.vv	v25, v28, v19
	vxor.vv	v17, v17, v22
	vxor.vv	v14, v14, v24
	vxor.vv	v22, v21, v27
	vxor.vv	v24, v16, v24
	vand.vv	v8, v19, v8
	vxor.vv	v16, v16, v12
	vxor.vv	v12, v15, v12
	vxor.vv	v19, v11, v23
	vxor.vv	v23, v11, v29
	vand.vv	v9, v25, v9
	vand.vv	v10, v25, v10
	vxor.vv	v25, v20, v22
	vxor.vv	v15, v24, v15
	vxor.vv	v13, v13, v8
	vxor.vv	v8, v20, v8
	vxor.vv	v16, v16, v18
	vxor.vv	v20, v12, v30
	vxor.vv	v9, v9, v21
	vxor.vv	v18, v10, v18
	vxor.vv	v10, v10, v11
	vxor.vv	v11, v19, v22
	vxor.vv	v8, v8, v24
	vxor.vv	v12, v14, v13
	vxor.vv	v19, v16, v13
	vxor.vv	v9, v9, v20
	vxor.vv	v16, v18, v20
	vxor.vv	v20, v11, v30
	vxor.vv	v15, v15, v18
	vxor.vv	v13, v25, v16
	vxor.vv	v14, v17, v16
	vxor.vv	v11, v23, v16
	vxor.vv	v15, v15, v20
	vxor.vv	v16, v10, v9
	vxor.vv	v17, v8, v9
	vxor.vv	v18, v19, v20
	addi	a3, s5, %pcrel_lo(.Laes_pcrel_hi131)
	bgeu	s0, a1, .Laes_BB33_4
# %bb.3:                                # %then.3
	addi	a1, a5, -128
	vle8.v	v20, (a1)
	addi	a1, a5, -112
	vle8.v	v21, (a1)
	addi	a1, a5, -96
	vle8.v	v22, (a1)
	addi	a1, a5, -80
	vle8.v	v23, (a1)
	addi	a1, a5, -64
	vle8.v	v24, (a1)
	addi	a1, a5, -48
	vle8.v	v25, (a1)
	addi	a1, a5, -32
	addi	a5, a5, -16
	vle8.v	v19, (s2)
	vle8.v	v26, (t6)
	vle8.v	v27, (a1)
	lui	a1, 1
	vle8.v	v28, (a5)
	li	a5, 85
	vmv.s.x	v8, a5
.Laes_pcrel_hi132:
	auipc	a5, %pcrel_hi(.Laes_CPI33_1)
	addi	a1, a1, 273
	vsetvli	zero, zero, e16, m2, ta, ma
	vmv.s.x	v0, a1
.Laes_pcrel_hi133:
	auipc	a1, %pcrel_hi(.Laes_CPI33_2)
	addi	a5, a5, %pcrel_lo(.Laes_pcrel_hi132)
	addi	a1, a1, %pcrel_lo(.Laes_pcrel_hi133)
	vle8.v	v1, (a5)
	vle8.v	v10, (a1)
	vsetvli	zero, zero, e8, m1, ta, mu
	vxor.vv	v20, v20, v12
	vxor.vv	v12, v21, v16
	vxor.vv	v13, v22, v13
	vxor.vv	v16, v23, v17
	vxor.vv	v14, v24, v14
	vxor.vv	v15, v25, v15
	vxor.vv	v17, v27, v18
	vxor.vv	v18, v28, v11
	vrgather.vv	v11, v20, v26
	vrgather.vv	v21, v12, v26
	vrgather.vv	v22, v13, v26
	vrgather.vv	v23, v16, v26
	vrgather.vv	v24, v14, v26
	vrgather.vv	v25, v15, v26
	vrgather.vv	v28, v17, v26
	vrgather.vv	v29, v18, v26
	vrgather.vv	v11, v20, v19, v0.t
	vrgather.vv	v21, v12, v19, v0.t
	vrgather.vv	v22, v13, v19, v0.t
	vxor.vv	v26, v11, v20
	vxor.vv	v30, v21, v12
	vrgather.vv	v23, v16, v19, v0.t
	vxor.vv	v31, v22, v13
	vxor.vv	v7, v26, v12
	vxor.vv	v11, v30, v13
	vrgather.vv	v24, v14, v19, v0.t
	vxor.vv	v21, v23, v16
	vxor.vv	v16, v31, v16
	vrgather.vv	v25, v15, v19, v0.t
	vxor.vv	v27, v24, v14
	vxor.vv	v14, v21, v14
	vrgather.vv	v28, v17, v19, v0.t
	vxor.vv	v23, v25, v15
	vxor.vv	v15, v27, v15
	vrgather.vv	v29, v18, v19, v0.t
	vxor.vv	v28, v28, v17
	vxor.vv	v13, v23, v17
	vxor.vv	v17, v29, v18
	vxor.vv	v12, v28, v18
	vxor.vv	v22, v13, v26
	vxor.vv	v26, v13, v21
	vxor.vv	v21, v17, v20
	vxor.vv	v20, v7, v17
	vxor.vv	v19, v16, v17
	vxor.vv	v18, v14, v17
	vxor.vv	v16, v12, v13
	vxor.vv	v24, v12, v31
	vxor.vv	v29, v12, v23
	vxor.vv	v14, v17, v15
	vrgather.vv	v31, v22, v1
	vrgather.vv	v7, v22, v10
	vxor.vv	v25, v16, v30
	vxor.vv	v24, v24, v21
	vxor.vv	v23, v26, v20
	vxor.vv	v30, v16, v11
	vxor.vv	v17, v29, v19
	vxor.vv	v16, v18, v28
	vmv1r.v	v0, v8
	vsetivli	zero, 8, e16, m1, ta, ma
	vmerge.vvm	v29, v7, v31, v0
	vsetivli	zero, 16, e8, m1, ta, ma
	vrgather.vv	v26, v14, v1
	vrgather.vv	v28, v14, v10
	vxor.vv	v27, v30, v27
	vrgather.vv	v30, v25, v1
	vrgather.vv	v31, v25, v10
	vrgather.vv	v7, v24, v1
	vrgather.vv	v6, v24, v10
	vrgather.vv	v5, v23, v1
	vrgather.vv	v4, v23, v10
	vsetivli	zero, 8, e16, m1, ta, ma
	vmerge.vvm	v30, v31, v30, v0
	vsetivli	zero, 16, e8, m1, ta, ma
	vrgather.vv	v31, v17, v1
	vsetivli	zero, 8, e16, m1, ta, ma
	vmerge.vvm	v7, v6, v7, v0
	vsetivli	zero, 16, e8, m1, ta, ma
	vrgather.vv	v6, v17, v10
	vsetivli	zero, 8, e16, m1, ta, ma
	vmerge.vvm	v5, v4, v5, v0
	vsetivli	zero, 16, e8, m1, ta, ma
	vrgather.vv	v4, v16, v1
	vrgather.vv	v3, v16, v10
	vxor.vv	v22, v29, v22
	vrgather.vv	v29, v27, v1
	vxor.vv	v21, v22, v21
	vrgather.vv	v22, v27, v10
	vxor.vv	v25, v25, v30
	vxor.vv	v11, v11, v7
	vsetivli	zero, 8, e16, m1, ta, ma
	vmerge.vvm	v22, v22, v29, v0
	vsetivli	zero, 16, e8, m1, ta, ma
	vxor.vv	v20, v25, v20
	vxor.vv	v24, v11, v24
	vxor.vv	v11, v19, v5
	vsetivli	zero, 8, e16, m1, ta, ma
	vmerge.vvm	v19, v6, v31, v0
	vsetivli	zero, 16, e8, m1, ta, ma
	vxor.vv	v30, v11, v23
	vxor.vv	v18, v18, v22
	vxor.vv	v31, v20, v21
	vxor.vv	v11, v24, v20
	vsetivli	zero, 8, e16, m1, ta, ma
	vmerge.vvm	v22, v3, v4, v0
	vsetivli	zero, 16, e8, m1, ta, ma
	vxor.vv	v18, v18, v27
	vxor.vv	v15, v15, v19
	vxor.vv	v7, v30, v21
	vsetivli	zero, 8, e16, m1, ta, ma
	vmerge.vvm	v19, v28, v26, v0
	vsetivli	zero, 16, e8, m1, ta, ma
	vxor.vv	v29, v15, v17
	vxor.vv	v15, v13, v22
	vxor.vv	v13, v18, v30
	vxor.vv	v15, v15, v16
	vxor.vv	v17, v12, v19
	vxor.vv	v24, v29, v24
	vxor.vv	v23, v29, v30
	vxor.vv	v16, v13, v31
	vxor.vv	v12, v13, v11
	vxor.vv	v19, v13, v21
	vxor.vv	v21, v17, v14
	vxor.vv	v22, v15, v18
	vxor.vv	v20, v15, v20
	vxor.vv	v14, v21, v15
	vxor.vv	v17, v23, v20
	vxor.vv	v23, v21, v24
	vxor.vv	v25, v21, v18
	vxor.vv	v18, v22, v24
	vand.vv	v6, v22, v19
	vxor.vv	v24, v22, v31
	vxor.vv	v26, v20, v7
	vxor.vv	v21, v14, v31
	vxor.vv	v27, v25, v15
	vand.vv	v31, v17, v16
	vor.vv	v5, v17, v16
	vand.vv	v4, v23, v24
	vxor.vv	v20, v14, v7
	vxor.vv	v28, v24, v29
	vxor.vv	v15, v27, v30
	vand.vv	v3, v21, v18
	vand.vv	v2, v20, v14
	vxor.vv	v30, v5, v6
	vxor.vv	v5, v20, v12
	vxor.vv	v4, v4, v7
	vand.vv	v7, v28, v26
	vxor.vv	v6, v31, v7
	vand.vv	v31, v15, v12
	vand.vv	v7, v5, v13
	vxor.vv	v31, v7, v31
	vxor.vv	v7, v7, v2
	vand.vv	v5, v27, v25
	vxor.vv	v4, v4, v3
	vxor.vv	v5, v11, v5
	vxor.vv	v5, v5, v20
	vxor.vv	v5, v5, v3
	slli	s1, s4, 7
	vxor.vv	v6, v6, v13
	vxor.vv	v30, v30, v31
	vxor.vv	v4, v4, v7
	vxor.vv	v29, v6, v29
	vxor.vv	v5, v5, v31
	vxor.vv	v31, v29, v7
	vand.vv	v29, v4, v30
	vand.vv	v3, v5, v30
	vxor.vv	v30, v30, v31
	vnot.v	v29, v29
	vxor.vv	v7, v3, v4
	vand.vv	v29, v30, v29
	vand.vv	v6, v7, v30
	vxor.vv	v30, v5, v4
	vand.vv	v7, v5, v31
	vand.vv	v7, v7, v30
	vxor.vv	v2, v3, v7
	vxor.vv	v7, v29, v3
	vxor.vv	v29, v3, v31
	vand.vv	v29, v29, v30
	vxor.vv	v5, v29, v4
	vle8.v	v29, (t5)
	vxor.vv	v4, v2, v30
	vle8.v	v30, (a3)
	add	s1, s1, a0
	vxor.vv	v31, v6, v31
	vand.vv	v25, v7, v25
	vand.vv	v27, v7, v27
	vand.vv	v26, v5, v26
	vxor.vv	v6, v5, v4
	vand.vv	v28, v5, v28
	vxor.vv	v5, v5, v31
	vand.vv	v22, v4, v22
	vand.vv	v23, v31, v23
	vand.vv	v24, v31, v24
	vand.vv	v19, v4, v19
	vxor.vv	v4, v4, v7
	vxor.vv	v31, v31, v7
	vle8.v	v7, (s1)
	addi	a1, s1, 16
	addi	a5, s1, 32
	vand.vv	v16, v6, v16
	vand.vv	v17, v6, v17
	vle8.v	v6, (a1)
	addi	a1, s1, 64
	vand.vv	v18, v31, v18
	vand.vv	v21, v31, v21
	vle8.v	v31, (a1)
	addi	a1, s1, 48
	vxor.vv	v11, v20, v11
	vand.vv	v13, v5, v13
	vand.vv	v11, v5, v11
	vand.vv	v20, v4, v20
	vxor.vv	v5, v5, v4
	vand.vv	v14, v4, v14
	vle8.v	v4, (a5)
	addi	a5, s1, 80
	vxor.vv	v25, v23, v25
	vxor.vv	v23, v23, v31
	vle8.v	v31, (a1)
	addi	a1, s1, 96
	addi	s0, s1, 112
	vand.vv	v12, v5, v12
	vand.vv	v15, v5, v15
	vle8.v	v5, (a1)
	vxor.vv	v13, v7, v13
	vle8.v	v7, (s0)
	vxor.vv	v21, v21, v14
	vxor.vv	v14, v14, v31
	vle8.v	v31, (a5)
	vxor.vv	v27, v19, v27
	vxor.vv	v5, v22, v5
	vxor.vv	v7, v28, v7
	vxor.vv	v22, v16, v22
	vxor.vv	v26, v17, v26
	vxor.vv	v28, v18, v28
	vxor.vv	v18, v23, v18
	vxor.vv	v23, v25, v24
	vxor.vv	v6, v17, v6
	vxor.vv	v4, v27, v4
	vxor.vv	v16, v16, v31
	vxor.vv	v25, v5, v25
	vxor.vv	v17, v7, v17
	vxor.vv	v22, v22, v11
	vxor.vv	v12, v12, v19
	vxor.vv	v19, v15, v20
	vxor.vv	v26, v26, v27
	vxor.vv	v13, v13, v24
	vxor.vv	v15, v6, v15
	vxor.vv	v24, v4, v28
	vxor.vv	v14, v14, v28
	vxor.vv	v16, v16, v23
	vxor.vv	v20, v25, v20
	vxor.vv	v12, v12, v22
	vxor.vv	v22, v19, v22
	vxor.vv	v11, v26, v11
	vxor.vv	v13, v13, v21
	vxor.vv	v14, v14, v23
	vxor.vv	v16, v16, v19
	vxor.vv	v19, v20, v21
	vxor.vv	v15, v15, v12
	vxor.vv	v20, v24, v22
	vxor.vv	v12, v14, v12
	vxor.vv	v14, v18, v22
	vxor.vv	v16, v16, v11
	vxor.vv	v11, v19, v11
	vxor.vv	v17, v17, v22
	vrgather.vv	v18, v13, v10
	vrgather.vv	v19, v13, v29
	vsetivli	zero, 8, e16, m1, ta, ma
	vmerge.vvm	v18, v19, v18, v0
	vsetivli	zero, 16, e8, m1, ta, ma
	vrgather.vv	v19, v15, v10
	vrgather.vv	v21, v15, v29
	vrgather.vv	v22, v20, v10
	vrgather.vv	v23, v20, v29
	vrgather.vv	v24, v12, v10
	vrgather.vv	v25, v12, v29
	vrgather.vv	v26, v14, v10
	vrgather.vv	v27, v14, v29
	vrgather.vv	v28, v16, v10
	vrgather.vv	v31, v16, v29
	vrgather.vv	v7, v11, v10
	vrgather.vv	v6, v11, v29
	vrgather.vv	v5, v17, v10
	vrgather.vv	v4, v17, v29
	vsetivli	zero, 8, e16, m1, ta, ma
	vmerge.vvm	v19, v21, v19, v0
	vmerge.vvm	v21, v23, v22, v0
	vsetivli	zero, 16, e8, m1, ta, ma
	vxor.vv	v18, v13, v18
	vsetivli	zero, 8, e16, m1, ta, ma
	vmerge.vvm	v22, v25, v24, v0
	vsetivli	zero, 16, e8, m1, ta, ma
	vxor.vv	v19, v15, v19
	vxor.vv	v21, v20, v21
	vxor.vv	v15, v15, v18
	vsetivli	zero, 8, e16, m1, ta, ma
	vmerge.vvm	v23, v27, v26, v0
	vsetivli	zero, 16, e8, m1, ta, ma
	vxor.vv	v22, v12, v22
	vxor.vv	v20, v19, v20
	vxor.vv	v12, v21, v12
	vsetivli	zero, 8, e16, m1, ta, ma
	vmerge.vvm	v24, v31, v28, v0
	vsetivli	zero, 16, e8, m1, ta, ma
	vxor.vv	v23, v14, v23
	vxor.vv	v14, v22, v14
	vsetivli	zero, 8, e16, m1, ta, ma
	vmerge.vvm	v25, v6, v7, v0
	vsetivli	zero, 16, e8, m1, ta, ma
	vxor.vv	v24, v16, v24
	vxor.vv	v16, v16, v23
	vsetivli	zero, 8, e16, m1, ta, ma
	vmerge.vvm	v8, v4, v5, v0
	vsetivli	zero, 16, e8, m1, ta, ma
	vxor.vv	v25, v25, v11
	vxor.vv	v11, v24, v11
	vxor.vv	v8, v8, v17
	vxor.vv	v17, v25, v17
	vxor.vv	v18, v11, v18
	vxor.vv	v22, v11, v22
	vxor.vv	v13, v8, v13
	vxor.vv	v15, v15, v8
	vxor.vv	v26, v12, v8
	vxor.vv	v14, v14, v8
	vxor.vv	v12, v17, v11
	vxor.vv	v21, v17, v21
	vxor.vv	v24, v17, v24
	vxor.vv	v8, v8, v16
	vrgather.vv	v27, v18, v30
	vxor.vv	v19, v12, v19
	vxor.vv	v21, v21, v13
	vxor.vv	v22, v22, v15
	vxor.vv	v12, v12, v23
	vxor.vv	v23, v24, v26
	vxor.vv	v24, v14, v25
	vrgather.vv	v25, v8, v30
	vxor.vv	v18, v18, v27
	vxor.vv	v28, v12, v20
	vrgather.vv	v27, v19, v30
	vrgather.vv	v29, v21, v30
	vrgather.vv	v31, v22, v30
	vrgather.vv	v7, v23, v30
	vrgather.vv	v6, v24, v30
	vxor.vv	v12, v18, v13
	vxor.vv	v13, v17, v25
	vrgather.vv	v17, v28, v30
	vxor.vv	v18, v19, v27
	vxor.vv	v19, v29, v20
	vxor.vv	v20, v26, v31
	vxor.vv	v16, v7, v16
	vxor.vv	v11, v11, v6
	vxor.vv	v25, v13, v8
	vxor.vv	v13, v18, v15
	vxor.vv	v15, v19, v21
	vxor.vv	v29, v20, v22
	vxor.vv	v8, v14, v17
	vxor.vv	v27, v16, v23
	vxor.vv	v11, v11, v24
	vxor.vv	v16, v8, v28
	vxor.vv	v26, v13, v12
	vxor.vv	v8, v25, v11
	vxor.vv	v20, v27, v15
	vxor.vv	v17, v27, v29
	vxor.vv	v19, v11, v13
	vxor.vv	v13, v15, v13
	vxor.vv	v30, v29, v12
	vxor.vv	v14, v8, v26
	vxor.vv	v18, v11, v16
	vxor.vv	v15, v17, v19
	vxor.vv	v23, v25, v20
	vxor.vv	v21, v25, v16
	vxor.vv	v16, v16, v29
	vxor.vv	v25, v19, v30
	vxor.vv	v17, v8, v30
	vxor.vv	v22, v21, v11
	vxor.vv	v19, v16, v26
	vxor.vv	v20, v18, v20
	vxor.vv	v11, v16, v13
	vxor.vv	v24, v16, v12
	vxor.vv	v26, v18, v26
	vand.vv	v31, v17, v8
	vxor.vv	v12, v22, v29
	vand.vv	v29, v14, v20
	vand.vv	v7, v15, v19
	vor.vv	v6, v15, v19
	vand.vv	v5, v18, v24
	vand.vv	v4, v26, v23
	vxor.vv	v28, v26, v27
	vxor.vv	v6, v6, v5
	vxor.vv	v5, v17, v11
	vxor.vv	v30, v4, v30
	vand.vv	v4, v12, v11
	vand.vv	v5, v5, v16
	vxor.vv	v4, v5, v4
	vxor.vv	v31, v5, v31
	vand.vv	v5, v28, v25
	vxor.vv	v7, v7, v5
	vand.vv	v5, v22, v21
	vxor.vv	v5, v13, v5
	vxor.vv	v30, v30, v29
	vxor.vv	v5, v5, v17
	vxor.vv	v6, v6, v4
	vxor.vv	v30, v30, v31
	vxor.vv	v29, v5, v29
	vxor.vv	v7, v7, v16
	vxor.vv	v29, v29, v4
	vxor.vv	v27, v7, v27
	vand.vv	v7, v30, v6
	vand.vv	v5, v29, v6
	vxor.vv	v4, v29, v30
	vxor.vv	v27, v27, v31
	vnot.v	v31, v7
	vxor.vv	v7, v5, v30
	vxor.vv	v6, v27, v6
	vand.vv	v7, v7, v6
	vand.vv	v31, v6, v31
	vxor.vv	v6, v5, v27
	vand.vv	v6, v6, v4
	vxor.vv	v30, v6, v30
	vand.vv	v29, v29, v27
	vxor.vv	v27, v7, v27
	vand.vv	v29, v29, v4
	vxor.vv	v29, v5, v29
	vxor.vv	v31, v31, v5
	vand.vv	v25, v30, v25
	vxor.vv	v29, v29, v4
	vxor.vv	v7, v30, v27
	vand.vv	v6, v27, v23
	vand.vv	v26, v27, v26
	vand.vv	v23, v30, v28
	vand.vv	v21, v31, v21
	vxor.vv	v27, v27, v31
	vand.vv	v22, v31, v22
	vxor.vv	v28, v30, v29
	vand.vv	v18, v29, v18
	vand.vv	v24, v29, v24
	vxor.vv	v29, v29, v31
	vand.vv	v20, v27, v20
	vand.vv	v14, v27, v14
	vand.vv	v19, v28, v19
	vand.vv	v15, v28, v15
	vxor.vv	v13, v17, v13
	vand.vv	v16, v7, v16
	vand.vv	v13, v7, v13
	vand.vv	v17, v29, v17
	vxor.vv	v27, v7, v29
	vand.vv	v8, v29, v8
	vand.vv	v11, v27, v11
	vand.vv	v12, v27, v12
	vxor.vv	v22, v24, v22
	vxor.vv	v11, v11, v24
	vxor.vv	v21, v6, v21
	vxor.vv	v24, v20, v6
	vxor.vv	v20, v20, v23
	vxor.vv	v16, v16, v26
	vxor.vv	v26, v21, v26
	vxor.vv	v21, v21, v18
	vxor.vv	v25, v15, v25
	vxor.vv	v23, v15, v23
	vxor.vv	v21, v21, v17
	vxor.vv	v17, v12, v17
	vxor.vv	v27, v12, v15
	vxor.vv	v14, v14, v8
	vxor.vv	v8, v20, v8
	vxor.vv	v15, v20, v22
	vxor.vv	v20, v25, v22
	vxor.vv	v18, v19, v18
	vxor.vv	v19, v26, v19
	vxor.vv	v8, v8, v26
	vxor.vv	v12, v16, v14
	vxor.vv	v21, v21, v14
	vxor.vv	v14, v18, v13
	vxor.vv	v13, v20, v13
	vxor.vv	v20, v11, v14
	vxor.vv	v14, v17, v14
	vxor.vv	v19, v19, v17
	vxor.vv	v16, v15, v14
	vxor.vv	v11, v24, v14
	vxor.vv	v15, v23, v14
	vxor.vv	v18, v27, v20
	vxor.vv	v17, v8, v20
	vxor.vv	v14, v19, v13
	vxor.vv	v13, v21, v13
	j	.Laes_BB33_5
.Laes_BB33_4:                               # %else.4
.Laes_pcrel_hi134:
	auipc	a1, %pcrel_hi(.Laes_CPI33_0)
	vmv.v.i	v8, 0
	addi	a1, a1, %pcrel_lo(.Laes_pcrel_hi134)
	vle8.v	v20, (a1)
	lui	a1, 65535
	vid.v	v10
	slli	a1, a1, 20
	vsetivli	zero, 2, e64, m1, ta, ma
	vmv.v.x	v19, a1
.Laes_pcrel_hi135:
	auipc	a1, %pcrel_hi(.Laes_CPI33_1)
	addi	a1, a1, %pcrel_lo(.Laes_pcrel_hi135)
	vsetivli	zero, 16, e8, m1, ta, ma
	vle8.v	v1, (a1)
.Laes_pcrel_hi136:
	auipc	a1, %pcrel_hi(.Laes_CPI33_2)
	vmv1r.v	v21, v8
	vadd.vi	v22, v10, -2
	vmv1r.v	v23, v8
	vmv1r.v	v24, v8
	vmv1r.v	v25, v8
	vmv1r.v	v26, v8
	vmv1r.v	v27, v8
	vmv1r.v	v28, v8
	vmv1r.v	v29, v8
	addi	a1, a1, %pcrel_lo(.Laes_pcrel_hi136)
	vle8.v	v10, (a1)
	vsetivli	zero, 14, e8, m1, tu, ma
	vrgather.vv	v21, v12, v20
	vrgather.vv	v23, v16, v20
	vrgather.vv	v24, v13, v20
	vrgather.vv	v25, v17, v20
	vrgather.vv	v26, v14, v20
	vrgather.vv	v27, v15, v20
	vrgather.vv	v28, v18, v20
	vrgather.vv	v29, v11, v20
	vsetivli	zero, 16, e8, m1, ta, ma
	vxor.vv	v20, v21, v12
	vxor.vv	v21, v23, v16
	vxor.vv	v23, v24, v13
	vxor.vv	v24, v25, v17
	vxor.vv	v25, v26, v14
	vxor.vv	v26, v27, v15
	vxor.vv	v27, v28, v18
	vxor.vv	v28, v29, v11
	vand.vv	v20, v20, v19
	vand.vv	v21, v21, v19
	vand.vv	v23, v23, v19
	vand.vv	v24, v24, v19
	vand.vv	v25, v25, v19
	vand.vv	v26, v26, v19
	vand.vv	v27, v27, v19
	vand.vv	v19, v28, v19
	vrgather.vv	v28, v20, v22
	vrgather.vv	v29, v21, v22
	vrgather.vv	v30, v23, v22
	vrgather.vv	v31, v24, v22
	vrgather.vv	v7, v25, v22
	vrgather.vv	v6, v26, v22
	vrgather.vv	v5, v27, v22
	vrgather.vv	v4, v19, v22
	vsetivli	zero, 2, e8, m1, tu, ma
	vmv.v.v	v28, v8
	vmv.v.v	v29, v8
	vmv.v.v	v30, v8
	vmv.v.v	v31, v8
	vmv.v.v	v7, v8
	vmv.v.v	v6, v8
	vmv.v.v	v5, v8
	vmv.v.v	v4, v8
	vsetivli	zero, 16, e8, m1, ta, ma
	vxor.vv	v8, v5, v18
	vxor.vv	v15, v6, v15
	vxor.vv	v18, v7, v14
	vxor.vv	v17, v31, v17
	vxor.vv	v22, v30, v13
	vxor.vv	v29, v29, v16
	vxor.vv	v12, v28, v12
	vxor.vv	v28, v4, v11
	vxor.vv	v13, v8, v27
	vxor.vv	v14, v15, v26
	vxor.vv	v11, v18, v25
	vxor.vv	v17, v17, v24
	vxor.vv	v16, v22, v23
	vxor.vv	v18, v29, v21
	vxor.vv	v12, v12, v20
	vxor.vv	v15, v28, v19
.Laes_BB33_5:                               # %join.5
	slli	s3, s3, 7
.Laes_pcrel_hi137:
	auipc	a1, %pcrel_hi(.Laes_CPI33_7)
	li	a5, 85
	vmv.s.x	v8, a5
.Laes_pcrel_hi138:
	auipc	a5, %pcrel_hi(.Laes_CPI33_8)
	addi	a1, a1, %pcrel_lo(.Laes_pcrel_hi137)
	vle8.v	v2, (a1)
	lui	a1, 7
	add	s3, s3, a0
	addi	a5, a5, %pcrel_lo(.Laes_pcrel_hi138)
	addi	a1, a1, 1911
	vle8.v	v9, (a5)
	addi	a5, s3, 128
	vsetvli	zero, zero, e16, m2, ta, ma
	vmv.s.x	v0, a1
	addi	a1, s3, 144
	vle8.v	v19, (a5)
	addi	a5, s3, 160
	vle8.v	v20, (a1)
	addi	a1, s3, 176
	vle8.v	v21, (a5)
	addi	a5, s3, 192
	vle8.v	v22, (a1)
	addi	a1, s3, 208
	vle8.v	v23, (a5)
	addi	a5, s3, 224
	addi	s0, s3, 240
	vle8.v	v24, (a1)
	vle8.v	v25, (a5)
	vle8.v	v26, (s0)
	vsetvli	zero, zero, e8, m1, ta, mu
	vxor.vv	v19, v19, v12
	vxor.vv	v12, v20, v18
	vxor.vv	v16, v21, v16
	vxor.vv	v17, v22, v17
	vxor.vv	v11, v23, v11
	vxor.vv	v14, v24, v14
	vxor.vv	v18, v25, v13
	vxor.vv	v20, v26, v15
	vrgather.vv	v13, v19, v9
	vrgather.vv	v15, v12, v9
	vrgather.vv	v21, v16, v9
	vrgather.vv	v22, v17, v9
	vrgather.vv	v23, v11, v9
	vrgather.vv	v24, v14, v9
	vrgather.vv	v25, v18, v9
	vrgather.vv	v27, v20, v9
	vrgather.vv	v13, v19, v2, v0.t
	vrgather.vv	v15, v12, v2, v0.t
	vrgather.vv	v21, v16, v2, v0.t
	vxor.vv	v28, v13, v19
	vxor.vv	v29, v15, v12
	vrgather.vv	v22, v17, v2, v0.t
	vxor.vv	v21, v21, v16
	vxor.vv	v30, v28, v12
	vxor.vv	v13, v29, v16
	vrgather.vv	v23, v11, v2, v0.t
	vxor.vv	v16, v22, v17
	vxor.vv	v17, v21, v17
	vrgather.vv	v24, v14, v2, v0.t
	vxor.vv	v26, v23, v11
	vxor.vv	v31, v16, v11
	vrgather.vv	v25, v18, v2, v0.t
	vxor.vv	v24, v24, v14
	vxor.vv	v15, v26, v14
	vrgather.vv	v27, v20, v2, v0.t
	vxor.vv	v25, v25, v18
	vxor.vv	v12, v24, v18
	vxor.vv	v14, v27, v20
	vxor.vv	v11, v25, v20
	vxor.vv	v23, v12, v28
	vxor.vv	v16, v12, v16
	vxor.vv	v22, v14, v19
	vxor.vv	v20, v30, v14
	vxor.vv	v19, v17, v14
	vxor.vv	v18, v31, v14
	vxor.vv	v17, v11, v12
	vxor.vv	v21, v11, v21
	vxor.vv	v28, v11, v24
	vxor.vv	v14, v14, v15
	vrgather.vv	v30, v23, v1
	vrgather.vv	v31, v23, v10
	vxor.vv	v27, v17, v29
	vxor.vv	v24, v21, v22
	vxor.vv	v21, v16, v20
	vxor.vv	v7, v17, v13
	vxor.vv	v17, v28, v19
	vxor.vv	v16, v18, v25
	vmv1r.v	v0, v8
	vsetivli	zero, 8, e16, m1, ta, ma
	vmerge.vvm	v29, v31, v30, v0
	vsetivli	zero, 16, e8, m1, ta, ma
	vrgather.vv	v25, v14, v1
	vrgather.vv	v28, v14, v10
	vxor.vv	v26, v7, v26
	vrgather.vv	v30, v27, v1
	vrgather.vv	v31, v27, v10
	vrgather.vv	v7, v24, v1
	vrgather.vv	v6, v24, v10
	vrgather.vv	v5, v21, v1
	vsetivli	zero, 8, e16, m1, ta, ma
	vmerge.vvm	v30, v31, v30, v0
	vsetivli	zero, 16, e8, m1, ta, ma
	vrgather.vv	v31, v21, v10
	vsetivli	zero, 8, e16, m1, ta, ma
	vmerge.vvm	v7, v6, v7, v0
	vsetivli	zero, 16, e8, m1, ta, ma
	vrgather.vv	v6, v17, v1
	vsetivli	zero, 8, e16, m1, ta, ma
	vmerge.vvm	v31, v31, v5, v0
	vsetivli	zero, 16, e8, m1, ta, ma
	vrgather.vv	v5, v17, v10
	vrgather.vv	v4, v16, v1
	vxor.vv	v23, v29, v23
	vrgather.vv	v3, v16, v10
	vxor.vv	v22, v23, v22
	vrgather.vv	v23, v26, v1
	vxor.vv	v27, v27, v30
	vrgather.vv	v29, v26, v10
	vxor.vv	v13, v13, v7
	vsetivli	zero, 8, e16, m1, ta, ma
	vmerge.vvm	v23, v29, v23, v0
	vsetivli	zero, 16, e8, m1, ta, ma
	vxor.vv	v27, v27, v20
	vxor.vv	v20, v13, v24
	vxor.vv	v13, v19, v31
	vsetivli	zero, 8, e16, m1, ta, ma
	vmerge.vvm	v19, v5, v6, v0
	vsetivli	zero, 16, e8, m1, ta, ma
	vxor.vv	v29, v13, v21
	vxor.vv	v18, v18, v23
	vxor.vv	v21, v27, v22
	vxor.vv	v13, v20, v27
	vsetivli	zero, 8, e16, m1, ta, ma
	vmerge.vvm	v23, v3, v4, v0
	vsetivli	zero, 16, e8, m1, ta, ma
	vxor.vv	v18, v18, v26
	vxor.vv	v15, v15, v19
	vxor.vv	v30, v29, v22
	vsetivli	zero, 8, e16, m1, ta, ma
	vmerge.vvm	v8, v28, v25, v0
	vsetivli	zero, 16, e8, m1, ta, ma
	vxor.vv	v28, v15, v17
	vxor.vv	v12, v12, v23
	vxor.vv	v15, v18, v29
	vxor.vv	v12, v12, v16
	vxor.vv	v11, v11, v8
	vxor.vv	v19, v28, v20
	vxor.vv	v23, v28, v29
	vxor.vv	v16, v15, v21
	vxor.vv	v8, v15, v13
	vxor.vv	v17, v15, v22
	vxor.vv	v24, v11, v14
	vxor.vv	v20, v12, v18
	vxor.vv	v25, v12, v27
	vxor.vv	v11, v24, v12
	vxor.vv	v14, v23, v25
	vxor.vv	v22, v24, v19
	vxor.vv	v24, v24, v18
	vxor.vv	v18, v20, v19
	vand.vv	v31, v20, v17
	vxor.vv	v23, v20, v21
	vxor.vv	v25, v25, v30
	vxor.vv	v19, v11, v21
	vxor.vv	v26, v24, v12
	vand.vv	v7, v14, v16
	vor.vv	v6, v14, v16
	vand.vv	v5, v22, v23
	vxor.vv	v21, v11, v30
	vxor.vv	v27, v23, v28
	vxor.vv	v12, v26, v29
	vand.vv	v29, v19, v18
	vand.vv	v4, v21, v11
	vxor.vv	v31, v6, v31
	vxor.vv	v6, v21, v8
	vxor.vv	v30, v5, v30
	vand.vv	v5, v27, v25
	vxor.vv	v7, v7, v5
	vand.vv	v5, v12, v8
	vand.vv	v6, v6, v15
	vxor.vv	v5, v6, v5
	vxor.vv	v6, v6, v4
	vand.vv	v4, v26, v24
	vxor.vv	v30, v30, v29
	vxor.vv	v4, v13, v4
	vxor.vv	v4, v4, v21
	vxor.vv	v29, v4, v29
	vxor.vv	v7, v7, v15
	vxor.vv	v31, v31, v5
	vxor.vv	v30, v30, v6
	vxor.vv	v28, v7, v28
	vxor.vv	v29, v29, v5
	vxor.vv	v28, v28, v6
	vand.vv	v7, v30, v31
	vand.vv	v6, v29, v31
	vxor.vv	v31, v31, v28
	vnot.v	v7, v7
	vxor.vv	v5, v6, v30
	vand.vv	v7, v31, v7
	vand.vv	v31, v5, v31
	vxor.vv	v5, v29, v30
	vand.vv	v29, v29, v28
	vand.vv	v29, v29, v5
	vxor.vv	v29, v6, v29
	vxor.vv	v7, v7, v6
	vxor.vv	v6, v6, v28
	vand.vv	v6, v6, v5
	vxor.vv	v30, v6, v30
	vxor.vv	v29, v29, v5
	vxor.vv	v28, v31, v28
	vand.vv	v24, v7, v24
	vand.vv	v26, v7, v26
	vand.vv	v25, v30, v25
	vxor.vv	v31, v30, v29
	vand.vv	v27, v30, v27
	vxor.vv	v30, v30, v28
	vand.vv	v20, v29, v20
	vand.vv	v22, v28, v22
	vand.vv	v23, v28, v23
	vand.vv	v17, v29, v17
	vxor.vv	v29, v29, v7
	vxor.vv	v28, v28, v7
	vand.vv	v16, v31, v16
	vand.vv	v14, v31, v14
	vand.vv	v18, v28, v18
	vand.vv	v19, v28, v19
	vxor.vv	v13, v21, v13
	vand.vv	v15, v30, v15
	vand.vv	v13, v30, v13
	vand.vv	v21, v29, v21
	vxor.vv	v28, v30, v29
	vand.vv	v11, v29, v11
	vand.vv	v8, v28, v8
	vand.vv	v12, v28, v12
	vxor.vv	v26, v17, v26
	vxor.vv	v8, v8, v17
	vxor.vv	v17, v22, v24
	vxor.vv	v24, v14, v25
	vxor.vv	v22, v18, v22
	vxor.vv	v18, v18, v27
	vxor.vv	v19, v19, v11
	vxor.vv	v24, v24, v26
	vxor.vv	v25, v18, v26
	vxor.vv	v11, v18, v11
	vxor.vv	v18, v14, v27
	vxor.vv	v15, v15, v23
	vxor.vv	v23, v17, v23
	vxor.vv	v17, v17, v20
	vxor.vv	v14, v12, v14
	vxor.vv	v12, v12, v21
	vxor.vv	v17, v17, v21
	vxor.vv	v20, v16, v20
	vxor.vv	v20, v20, v13
	vxor.vv	v13, v24, v13
	vxor.vv	v16, v23, v16
	vxor.vv	v24, v8, v20
	vxor.vv	v8, v12, v20
	vxor.vv	v12, v16, v12
	vxor.vv	v11, v11, v23
	vxor.vv	v21, v15, v19
	vxor.vv	v15, v17, v19
	vxor.vv	v20, v25, v8
	vxor.vv	v19, v22, v8
	vxor.vv	v8, v18, v8
	vxor.vv	v25, v14, v24
	vxor.vv	v24, v11, v24
	vxor.vv	v23, v12, v13
	vxor.vv	v22, v15, v13
	addi	a1, a0, 16
	bnez	a4, .Laes_BB33_6
	j	.Laes_BB33_8
.Laes_BB33_6:                               # %join.10.lr.ph
.Laes_pcrel_hi139:
	auipc	a5, %pcrel_hi(.Laes_CPI33_9)
	vle8.v	v13, (a3)
	vle8.v	v11, (s2)
	csrr	a3, vlenb
	slli	a3, a3, 2
	add	a3, a3, sp
	addi	a3, a3, 16
	vs1r.v	v11, (a3)                       # vscale x 8-byte Folded Spill
	vle8.v	v11, (t6)
	csrr	a3, vlenb
	slli	t6, a3, 1
	add	a3, a3, t6
	add	a3, a3, sp
	addi	a3, a3, 16
	vs1r.v	v11, (a3)                       # vscale x 8-byte Folded Spill
	addi	a3, a5, %pcrel_lo(.Laes_pcrel_hi139)
	vle8.v	v11, (a3)
	csrr	a3, vlenb
	slli	a3, a3, 1
	add	a3, a3, sp
	addi	a3, a3, 16
	vs1r.v	v11, (a3)                       # vscale x 8-byte Folded Spill
	vle8.v	v11, (t5)
	csrr	a3, vlenb
	add	a3, a3, sp
	addi	a3, a3, 16
	vs1r.v	v11, (a3)                       # vscale x 8-byte Folded Spill
	slli	a3, a4, 9
	add	a3, a3, a0
	addi	a5, a3, -384
	addi	a3, sp, 16
	vs1r.v	v9, (a3)                        # vscale x 8-byte Folded Spill
	csrr	a3, vlenb
	li	t5, 6
	mul	a3, a3, t5
	add	a3, a3, sp
	addi	a3, a3, 16
	vs1r.v	v1, (a3)                        # vscale x 8-byte Folded Spill
	csrr	a3, vlenb
	slli	t5, a3, 2
	add	a3, a3, t5
	add	a3, a3, sp
	addi	a3, a3, 16
	vs1r.v	v2, (a3)                        # vscale x 8-byte Folded Spill
.Laes_BB33_7:                               # %join.10
                                        # =>This Inner Loop Header: Depth=1
	addi	a3, a5, 384
	addi	s1, a5, 400
	vle8.v	v11, (a3)
	addi	a3, a5, 416
	vle8.v	v12, (s1)
	addi	s1, a5, 432
	vle8.v	v26, (a3)
	addi	a3, a5, 448
	vle8.v	v27, (s1)
	addi	s1, a5, 464
	vle8.v	v28, (a3)
	addi	s0, a5, 480
	vle8.v	v18, (s1)
	addi	a3, a5, 496
	vle8.v	v29, (s0)
	addi	s0, a5, 256
	vle8.v	v14, (a3)
	addi	s1, a5, 272
	vle8.v	v0, (s0)
	addi	a3, a5, 288
	vxor.vv	v11, v11, v21
	vxor.vv	v12, v12, v25
	vxor.vv	v15, v26, v20
	vxor.vv	v16, v27, v24
	vxor.vv	v19, v28, v19
	vxor.vv	v18, v18, v23
	vxor.vv	v20, v29, v22
	vxor.vv	v8, v14, v8
	csrr	t5, vlenb
	slli	t5, t5, 1
	add	t5, t5, sp
	addi	t5, t5, 16
	vl1r.v	v9, (t5)                        # vscale x 8-byte Folded Reload
	vrgather.vv	v14, v11, v9
	vrgather.vv	v21, v12, v9
	vrgather.vv	v22, v15, v9
	vrgather.vv	v23, v16, v9
	vrgather.vv	v24, v19, v9
	vrgather.vv	v25, v18, v9
	vrgather.vv	v26, v20, v9
	vrgather.vv	v27, v8, v9
	vxor.vv	v14, v14, v11
	vxor.vv	v21, v21, v12
	vxor.vv	v22, v22, v15
	vxor.vv	v23, v23, v16
	vxor.vv	v24, v24, v19
	vxor.vv	v25, v25, v18
	vxor.vv	v26, v26, v20
	vxor.vv	v27, v27, v8
	vxor.vv	v11, v27, v11
	vxor.vv	v12, v14, v12
	vxor.vv	v15, v21, v15
	vxor.vv	v16, v22, v16
	vxor.vv	v19, v23, v19
	vxor.vv	v18, v24, v18
	vxor.vv	v20, v25, v20
	vxor.vv	v8, v26, v8
	vxor.vv	v12, v12, v27
	vxor.vv	v16, v16, v27
	vxor.vv	v19, v19, v27
	vxor.vv	v28, v8, v20
	vxor.vv	v14, v20, v14
	vxor.vv	v22, v8, v22
	vxor.vv	v23, v20, v23
	vxor.vv	v25, v8, v25
	vxor.vv	v27, v27, v18
	vxor.vv	v21, v28, v21
	vxor.vv	v22, v22, v11
	vxor.vv	v23, v23, v12
	vxor.vv	v28, v28, v15
	vxor.vv	v25, v25, v16
	vxor.vv	v26, v19, v26
	vrgather.vv	v29, v14, v13
	vrgather.vv	v30, v27, v13
	vxor.vv	v24, v28, v24
	vrgather.vv	v28, v21, v13
	vrgather.vv	v31, v22, v13
	vrgather.vv	v7, v23, v13
	vrgather.vv	v6, v25, v13
	vrgather.vv	v5, v26, v13
	vxor.vv	v14, v14, v29
	vxor.vv	v8, v8, v30
	vrgather.vv	v29, v24, v13
	vxor.vv	v14, v14, v11
	vxor.vv	v11, v12, v28
	vxor.vv	v12, v31, v15
	vxor.vv	v15, v7, v16
	vxor.vv	v16, v18, v6
	vxor.vv	v18, v20, v5
	vxor.vv	v20, v8, v27
	vxor.vv	v11, v11, v21
	vxor.vv	v12, v12, v22
	vxor.vv	v21, v15, v23
	vxor.vv	v8, v19, v29
	vxor.vv	v22, v16, v25
	vxor.vv	v19, v18, v26
	vxor.vv	v18, v8, v24
	vxor.vv	v23, v11, v14
	vxor.vv	v8, v20, v19
	vxor.vv	v25, v22, v12
	vxor.vv	v15, v22, v21
	vxor.vv	v28, v19, v11
	vxor.vv	v11, v12, v11
	vxor.vv	v29, v21, v14
	vxor.vv	v27, v8, v23
	vxor.vv	v16, v19, v18
	vxor.vv	v15, v15, v28
	vxor.vv	v26, v20, v25
	vxor.vv	v24, v20, v18
	vxor.vv	v12, v18, v21
	vxor.vv	v31, v28, v29
	vxor.vv	v18, v8, v29
	vxor.vv	v28, v24, v19
	vxor.vv	v3, v12, v23
	vxor.vv	v30, v16, v25
	vxor.vv	v19, v12, v11
	vxor.vv	v7, v12, v14
	vxor.vv	v6, v16, v23
	vand.vv	v14, v18, v8
	vxor.vv	v20, v28, v21
	vand.vv	v21, v27, v30
	vand.vv	v23, v15, v3
	vor.vv	v25, v15, v3
	vand.vv	v5, v16, v7
	vand.vv	v4, v6, v26
	vxor.vv	v2, v6, v22
	vxor.vv	v25, v25, v5
	vxor.vv	v5, v18, v19
	vxor.vv	v29, v4, v29
	vand.vv	v4, v20, v19
	vand.vv	v5, v5, v12
	vxor.vv	v4, v5, v4
	vxor.vv	v14, v5, v14
	vand.vv	v5, v2, v31
	vxor.vv	v23, v23, v5
	vand.vv	v5, v28, v24
	vxor.vv	v5, v11, v5
	vxor.vv	v29, v29, v21
	vxor.vv	v5, v5, v18
	vxor.vv	v25, v25, v4
	vxor.vv	v29, v29, v14
	vxor.vv	v21, v5, v21
	vxor.vv	v23, v23, v12
	vxor.vv	v5, v21, v4
	vxor.vv	v21, v23, v22
	vand.vv	v22, v29, v25
	vand.vv	v23, v5, v25
	vxor.vv	v4, v5, v29
	vxor.vv	v14, v21, v14
	vnot.v	v21, v22
	vxor.vv	v22, v23, v29
	vxor.vv	v25, v14, v25
	vand.vv	v22, v22, v25
	vand.vv	v25, v25, v21
	vxor.vv	v21, v23, v14
	vand.vv	v21, v21, v4
	vxor.vv	v1, v21, v29
	vle8.v	v21, (s1)
	addi	s1, a5, 304
	vand.vv	v29, v5, v14
	vxor.vv	v5, v22, v14
	vle8.v	v22, (a3)
	addi	a3, a5, 320
	vand.vv	v14, v29, v4
	vxor.vv	v14, v23, v14
	vxor.vv	v17, v25, v23
	vle8.v	v23, (s1)
	addi	s1, a5, 336
	vand.vv	v25, v1, v31
	vxor.vv	v4, v14, v4
	vxor.vv	v14, v1, v5
	vand.vv	v9, v5, v26
	vand.vv	v26, v5, v6
	vand.vv	v29, v1, v2
	vand.vv	v2, v17, v24
	vxor.vv	v5, v5, v17
	vand.vv	v31, v17, v28
	vxor.vv	v1, v1, v4
	vand.vv	v28, v4, v16
	vand.vv	v24, v4, v7
	vxor.vv	v16, v4, v17
	vle8.v	v17, (a3)
	addi	a3, a5, 352
	vand.vv	v6, v5, v30
	vand.vv	v7, v5, v27
	vle8.v	v27, (s1)
	addi	s1, a5, 368
	vxor.vv	v30, v9, v2
	vxor.vv	v4, v9, v17
	vle8.v	v5, (a3)
	lui	a3, 1
	vand.vv	v2, v1, v3
	vand.vv	v3, v1, v15
	vle8.v	v1, (s1)
	li	s1, 85
	vxor.vv	v9, v18, v11
	vand.vv	v15, v14, v12
	vand.vv	v11, v14, v9
	vand.vv	v12, v16, v18
	vxor.vv	v14, v14, v16
	vand.vv	v18, v16, v8
	vmv.s.x	v8, s1
	addi	s1, a5, 128
	addi	a3, a3, 273
	vxor.vv	v9, v0, v15
	vsetvli	zero, zero, e16, m2, ta, ma
	vmv.s.x	v0, a3
	addi	a3, a5, 144
	vsetvli	zero, zero, e8, m1, ta, mu
	vxor.vv	v15, v29, v1
	csrr	t5, vlenb
	li	t6, 6
	mul	t5, t5, t6
	add	t5, t5, sp
	addi	t5, t5, 16
	vl1r.v	v1, (t5)                        # vscale x 8-byte Folded Reload
	vxor.vv	v16, v6, v29
	vxor.vv	v17, v24, v31
	vxor.vv	v29, v4, v6
	vxor.vv	v31, v30, v26
	vxor.vv	v6, v28, v5
	vxor.vv	v28, v2, v28
	vxor.vv	v25, v3, v25
	vand.vv	v19, v14, v19
	vand.vv	v14, v14, v20
	vxor.vv	v20, v7, v18
	vxor.vv	v9, v9, v26
	vxor.vv	v21, v3, v21
	vxor.vv	v22, v17, v22
	vxor.vv	v18, v18, v23
	vxor.vv	v23, v2, v27
	vxor.vv	v26, v6, v30
	vxor.vv	v15, v15, v3
	vxor.vv	v27, v28, v11
	vxor.vv	v19, v19, v24
	vxor.vv	v24, v14, v12
	vxor.vv	v17, v25, v17
	vxor.vv	v9, v9, v20
	vxor.vv	v14, v21, v14
	vxor.vv	v21, v22, v16
	vxor.vv	v16, v18, v16
	vxor.vv	v18, v23, v31
	vxor.vv	v12, v26, v12
	vxor.vv	v19, v19, v27
	vxor.vv	v22, v24, v27
	vxor.vv	v11, v17, v11
	vxor.vv	v16, v16, v31
	vxor.vv	v17, v18, v24
	vxor.vv	v12, v12, v20
	csrr	t5, vlenb
	slli	t6, t5, 1
	add	t5, t5, t6
	add	t5, t5, sp
	addi	t5, t5, 16
	vl1r.v	v27, (t5)                       # vscale x 8-byte Folded Reload
	vrgather.vv	v18, v9, v27
	vxor.vv	v14, v14, v19
	vxor.vv	v20, v21, v22
	vxor.vv	v16, v16, v19
	vxor.vv	v19, v29, v22
	vxor.vv	v17, v17, v11
	vxor.vv	v11, v12, v11
	vxor.vv	v21, v15, v22
	csrr	t5, vlenb
	slli	t5, t5, 2
	add	t5, t5, sp
	addi	t5, t5, 16
	vl1r.v	v29, (t5)                       # vscale x 8-byte Folded Reload
	vrgather.vv	v18, v9, v29, v0.t
	vrgather.vv	v12, v14, v27
	vrgather.vv	v15, v20, v27
	vrgather.vv	v22, v16, v27
	vrgather.vv	v23, v19, v27
	vrgather.vv	v24, v17, v27
	vrgather.vv	v25, v11, v27
	vrgather.vv	v26, v21, v27
	vxor.vv	v18, v9, v18
	vrgather.vv	v12, v14, v29, v0.t
	vrgather.vv	v15, v20, v29, v0.t
	vxor.vv	v27, v14, v18
	vrgather.vv	v22, v16, v29, v0.t
	vxor.vv	v14, v14, v12
	vxor.vv	v28, v20, v15
	vrgather.vv	v23, v19, v29, v0.t
	vxor.vv	v22, v16, v22
	vxor.vv	v20, v14, v20
	vxor.vv	v16, v28, v16
	vrgather.vv	v24, v17, v29, v0.t
	vxor.vv	v23, v23, v19
	vxor.vv	v19, v22, v19
	vrgather.vv	v25, v11, v29, v0.t
	vxor.vv	v24, v24, v17
	vxor.vv	v15, v17, v23
	vrgather.vv	v26, v21, v29, v0.t
	vxor.vv	v17, v25, v11
	vxor.vv	v12, v24, v11
	vxor.vv	v25, v26, v21
	vxor.vv	v11, v17, v21
	vxor.vv	v18, v12, v18
	vxor.vv	v21, v12, v22
	vxor.vv	v9, v25, v9
	vxor.vv	v22, v27, v25
	vxor.vv	v16, v16, v25
	vxor.vv	v19, v19, v25
	vxor.vv	v26, v11, v12
	vxor.vv	v27, v11, v28
	vxor.vv	v24, v11, v24
	vxor.vv	v25, v25, v15
	vrgather.vv	v28, v18, v1
	vrgather.vv	v29, v18, v10
	vxor.vv	v14, v26, v14
	vxor.vv	v27, v27, v9
	vxor.vv	v21, v21, v22
	vxor.vv	v23, v26, v23
	vxor.vv	v24, v24, v16
	vxor.vv	v17, v19, v17
	vmv1r.v	v0, v8
	vsetivli	zero, 8, e16, m1, ta, ma
	vmerge.vvm	v26, v29, v28, v0
	vsetivli	zero, 16, e8, m1, ta, ma
	vrgather.vv	v28, v25, v1
	vrgather.vv	v29, v25, v10
	vxor.vv	v23, v23, v20
	vrgather.vv	v30, v14, v1
	vrgather.vv	v31, v14, v10
	vrgather.vv	v7, v27, v1
	vrgather.vv	v6, v27, v10
	vrgather.vv	v5, v21, v1
	vrgather.vv	v4, v21, v10
	vsetivli	zero, 8, e16, m1, ta, ma
	vmerge.vvm	v30, v31, v30, v0
	vsetivli	zero, 16, e8, m1, ta, ma
	vrgather.vv	v31, v24, v1
	vsetivli	zero, 8, e16, m1, ta, ma
	vmerge.vvm	v7, v6, v7, v0
	vsetivli	zero, 16, e8, m1, ta, ma
	vrgather.vv	v6, v24, v10
	vsetivli	zero, 8, e16, m1, ta, ma
	vmerge.vvm	v5, v4, v5, v0
	vsetivli	zero, 16, e8, m1, ta, ma
	vrgather.vv	v4, v17, v1
	vrgather.vv	v3, v17, v10
	vxor.vv	v18, v26, v18
	vrgather.vv	v26, v23, v1
	vxor.vv	v9, v18, v9
	vrgather.vv	v18, v23, v10
	vxor.vv	v14, v14, v30
	vxor.vv	v20, v20, v7
	vsetivli	zero, 8, e16, m1, ta, ma
	vmerge.vvm	v18, v18, v26, v0
	vsetivli	zero, 16, e8, m1, ta, ma
	vxor.vv	v22, v14, v22
	vxor.vv	v20, v20, v27
	vxor.vv	v14, v16, v5
	vsetivli	zero, 8, e16, m1, ta, ma
	vmerge.vvm	v16, v6, v31, v0
	vsetivli	zero, 16, e8, m1, ta, ma
	vxor.vv	v26, v14, v21
	vxor.vv	v18, v19, v18
	vxor.vv	v30, v22, v9
	vxor.vv	v14, v20, v22
	vsetivli	zero, 8, e16, m1, ta, ma
	vmerge.vvm	v19, v3, v4, v0
	vsetivli	zero, 16, e8, m1, ta, ma
	vxor.vv	v23, v18, v23
	vxor.vv	v15, v15, v16
	vxor.vv	v16, v26, v9
	vsetivli	zero, 8, e16, m1, ta, ma
	vmerge.vvm	v18, v29, v28, v0
	vsetivli	zero, 16, e8, m1, ta, ma
	vxor.vv	v31, v15, v24
	vxor.vv	v12, v12, v19
	vxor.vv	v15, v23, v26
	vxor.vv	v12, v12, v17
	vxor.vv	v17, v11, v18
	vxor.vv	v20, v31, v20
	vxor.vv	v21, v31, v26
	vxor.vv	v19, v15, v30
	vxor.vv	v11, v15, v14
	vxor.vv	v24, v15, v9
	vxor.vv	v9, v17, v25
	vxor.vv	v27, v12, v23
	vxor.vv	v17, v12, v22
	vxor.vv	v18, v9, v12
	vxor.vv	v21, v21, v17
	vxor.vv	v28, v9, v20
	vxor.vv	v9, v9, v23
	vxor.vv	v20, v27, v20
	vand.vv	v25, v27, v24
	vxor.vv	v29, v27, v30
	vxor.vv	v17, v17, v16
	vxor.vv	v23, v18, v30
	vxor.vv	v30, v9, v12
	vand.vv	v7, v21, v19
	vor.vv	v6, v21, v19
	vand.vv	v5, v28, v29
	vxor.vv	v22, v18, v16
	vxor.vv	v4, v29, v31
	vxor.vv	v12, v30, v26
	vand.vv	v26, v23, v20
	vand.vv	v3, v22, v18
	vxor.vv	v25, v6, v25
	vxor.vv	v6, v22, v11
	vxor.vv	v16, v5, v16
	vand.vv	v5, v4, v17
	vxor.vv	v7, v7, v5
	vand.vv	v5, v12, v11
	vand.vv	v6, v6, v15
	vxor.vv	v5, v6, v5
	vxor.vv	v6, v6, v3
	vand.vv	v3, v30, v9
	vxor.vv	v2, v16, v26
	vxor.vv	v16, v14, v3
	vxor.vv	v16, v16, v22
	vxor.vv	v26, v16, v26
	vle8.v	v16, (s1)
	addi	s1, a5, 160
	vxor.vv	v7, v7, v15
	vxor.vv	v25, v25, v5
	vxor.vv	v3, v2, v6
	vxor.vv	v31, v7, v31
	vxor.vv	v26, v26, v5
	vxor.vv	v31, v31, v6
	vand.vv	v7, v3, v25
	vand.vv	v6, v26, v25
	vxor.vv	v25, v25, v31
	vnot.v	v7, v7
	vxor.vv	v5, v6, v3
	vand.vv	v7, v25, v7
	vand.vv	v5, v5, v25
	vxor.vv	v2, v26, v3
	vand.vv	v25, v26, v31
	vand.vv	v25, v25, v2
	vxor.vv	v26, v6, v25
	vxor.vv	v7, v7, v6
	vxor.vv	v25, v6, v31
	vand.vv	v25, v25, v2
	vxor.vv	v6, v25, v3
	vle8.v	v25, (a3)
	addi	a3, a5, 176
	vxor.vv	v3, v26, v2
	vle8.v	v26, (s1)
	addi	s1, a5, 192
	vxor.vv	v31, v5, v31
	vand.vv	v9, v7, v9
	vand.vv	v30, v7, v30
	vand.vv	v17, v6, v17
	vxor.vv	v5, v6, v3
	vand.vv	v4, v6, v4
	vxor.vv	v6, v6, v31
	vand.vv	v2, v3, v27
	vand.vv	v28, v31, v28
	vand.vv	v27, v31, v29
	vand.vv	v24, v3, v24
	vxor.vv	v29, v3, v7
	vxor.vv	v31, v31, v7
	vle8.v	v7, (a3)
	addi	a3, a5, 208
	vand.vv	v19, v5, v19
	vand.vv	v21, v5, v21
	vle8.v	v5, (s1)
	addi	s1, a5, 224
	vand.vv	v20, v31, v20
	vand.vv	v23, v31, v23
	vle8.v	v31, (s1)
	addi	s1, a5, 240
	vxor.vv	v14, v22, v14
	vand.vv	v15, v6, v15
	vand.vv	v14, v6, v14
	vand.vv	v22, v29, v22
	vxor.vv	v6, v6, v29
	vand.vv	v18, v29, v18
	vle8.v	v29, (s1)
	vxor.vv	v9, v28, v9
	vxor.vv	v28, v28, v5
	vle8.v	v5, (a3)
	vxor.vv	v30, v24, v30
	vxor.vv	v31, v2, v31
	vxor.vv	v29, v4, v29
	vxor.vv	v3, v19, v2
	vxor.vv	v17, v21, v17
	vxor.vv	v4, v20, v4
	vand.vv	v11, v6, v11
	vand.vv	v12, v6, v12
	vxor.vv	v6, v9, v27
	vxor.vv	v23, v23, v18
	vxor.vv	v15, v16, v15
	vxor.vv	v16, v21, v25
	vxor.vv	v25, v30, v26
	vxor.vv	v18, v18, v7
	vxor.vv	v26, v28, v20
	vxor.vv	v19, v19, v5
	vxor.vv	v9, v31, v9
	vxor.vv	v21, v29, v21
	vxor.vv	v20, v3, v14
	vxor.vv	v11, v11, v24
	vxor.vv	v24, v12, v22
	vxor.vv	v17, v17, v30
	vxor.vv	v15, v15, v27
	vxor.vv	v12, v16, v12
	vxor.vv	v16, v25, v4
	vxor.vv	v18, v18, v4
	vxor.vv	v19, v19, v6
	vxor.vv	v9, v9, v22
	vxor.vv	v22, v11, v20
	vxor.vv	v25, v24, v20
	vxor.vv	v14, v17, v14
	vxor.vv	v11, v15, v23
	vxor.vv	v15, v18, v6
	vxor.vv	v17, v19, v24
	vxor.vv	v9, v9, v23
	vxor.vv	v20, v12, v22
	vxor.vv	v18, v16, v25
	vxor.vv	v19, v15, v22
	vxor.vv	v16, v26, v25
	vxor.vv	v15, v17, v14
	vxor.vv	v14, v9, v14
	vxor.vv	v12, v21, v25
	vrgather.vv	v9, v11, v10
	csrr	a3, vlenb
	add	a3, a3, sp
	addi	a3, a3, 16
	vl1r.v	v5, (a3)                        # vscale x 8-byte Folded Reload
	vrgather.vv	v17, v11, v5
	vsetivli	zero, 8, e16, m1, ta, ma
	vmerge.vvm	v9, v17, v9, v0
	vsetivli	zero, 16, e8, m1, ta, ma
	vrgather.vv	v17, v20, v10
	vrgather.vv	v21, v20, v5
	vrgather.vv	v22, v18, v10
	vrgather.vv	v23, v18, v5
	vrgather.vv	v24, v19, v10
	vrgather.vv	v25, v19, v5
	vrgather.vv	v26, v16, v10
	vrgather.vv	v27, v16, v5
	vrgather.vv	v28, v15, v10
	vrgather.vv	v29, v15, v5
	vrgather.vv	v30, v14, v10
	vrgather.vv	v31, v14, v5
	vrgather.vv	v7, v12, v10
	vrgather.vv	v6, v12, v5
	vsetivli	zero, 8, e16, m1, ta, ma
	vmerge.vvm	v17, v21, v17, v0
	vmerge.vvm	v21, v23, v22, v0
	vsetivli	zero, 16, e8, m1, ta, ma
	vxor.vv	v9, v11, v9
	vsetivli	zero, 8, e16, m1, ta, ma
	vmerge.vvm	v22, v25, v24, v0
	vsetivli	zero, 16, e8, m1, ta, ma
	vxor.vv	v17, v20, v17
	vxor.vv	v21, v18, v21
	vxor.vv	v20, v20, v9
	vsetivli	zero, 8, e16, m1, ta, ma
	vmerge.vvm	v23, v27, v26, v0
	vsetivli	zero, 16, e8, m1, ta, ma
	vxor.vv	v22, v19, v22
	vxor.vv	v18, v17, v18
	vxor.vv	v19, v21, v19
	vsetivli	zero, 8, e16, m1, ta, ma
	vmerge.vvm	v24, v29, v28, v0
	vsetivli	zero, 16, e8, m1, ta, ma
	vxor.vv	v23, v16, v23
	vxor.vv	v16, v22, v16
	vsetivli	zero, 8, e16, m1, ta, ma
	vmerge.vvm	v25, v31, v30, v0
	vsetivli	zero, 16, e8, m1, ta, ma
	vxor.vv	v24, v15, v24
	vxor.vv	v15, v15, v23
	vsetivli	zero, 8, e16, m1, ta, ma
	vmerge.vvm	v26, v6, v7, v0
	vsetivli	zero, 16, e8, m1, ta, ma
	vxor.vv	v25, v25, v14
	vxor.vv	v14, v24, v14
	vxor.vv	v26, v26, v12
	vxor.vv	v12, v25, v12
	vxor.vv	v9, v14, v9
	vxor.vv	v22, v14, v22
	vxor.vv	v11, v26, v11
	vxor.vv	v20, v20, v26
	vxor.vv	v19, v19, v26
	vxor.vv	v27, v16, v26
	vxor.vv	v16, v12, v14
	vxor.vv	v21, v12, v21
	vxor.vv	v24, v12, v24
	vxor.vv	v26, v26, v15
	vrgather.vv	v28, v9, v13
	vxor.vv	v17, v16, v17
	vxor.vv	v21, v21, v11
	vxor.vv	v22, v22, v20
	vxor.vv	v16, v16, v23
	vxor.vv	v23, v24, v19
	vxor.vv	v24, v27, v25
	vrgather.vv	v25, v26, v13
	vxor.vv	v9, v9, v28
	vxor.vv	v28, v16, v18
	vrgather.vv	v29, v17, v13
	vrgather.vv	v30, v21, v13
	vrgather.vv	v31, v22, v13
	vrgather.vv	v7, v23, v13
	vrgather.vv	v6, v24, v13
	vxor.vv	v16, v9, v11
	vxor.vv	v9, v12, v25
	vrgather.vv	v11, v28, v13
	vxor.vv	v12, v17, v29
	vxor.vv	v17, v30, v18
	vxor.vv	v18, v19, v31
	vxor.vv	v15, v7, v15
	vxor.vv	v14, v14, v6
	vxor.vv	v9, v9, v26
	vxor.vv	v12, v12, v20
	vxor.vv	v17, v17, v21
	vxor.vv	v18, v18, v22
	vxor.vv	v11, v27, v11
	vxor.vv	v31, v15, v23
	vxor.vv	v21, v14, v24
	vxor.vv	v15, v11, v28
	vxor.vv	v30, v12, v16
	vxor.vv	v11, v9, v21
	vxor.vv	v24, v31, v17
	vxor.vv	v19, v31, v18
	vxor.vv	v20, v21, v12
	vxor.vv	v14, v17, v12
	vxor.vv	v17, v18, v16
	vxor.vv	v22, v11, v30
	vxor.vv	v23, v21, v15
	vxor.vv	v19, v19, v20
	vxor.vv	v26, v9, v24
	vxor.vv	v25, v9, v15
	vxor.vv	v15, v15, v18
	vxor.vv	v29, v20, v17
	vxor.vv	v20, v11, v17
	vxor.vv	v27, v25, v21
	vxor.vv	v21, v15, v30
	vxor.vv	v24, v23, v24
	vxor.vv	v12, v15, v14
	vxor.vv	v28, v15, v16
	vxor.vv	v30, v23, v30
	vand.vv	v9, v20, v11
	vxor.vv	v18, v27, v18
	vand.vv	v7, v22, v24
	vand.vv	v6, v19, v21
	vor.vv	v5, v19, v21
	vand.vv	v4, v23, v28
	vand.vv	v3, v30, v26
	vxor.vv	v16, v30, v31
	vxor.vv	v5, v5, v4
	vxor.vv	v4, v20, v12
	vxor.vv	v17, v3, v17
	vand.vv	v3, v18, v12
	vand.vv	v4, v4, v15
	vxor.vv	v3, v4, v3
	vxor.vv	v9, v4, v9
	vand.vv	v4, v16, v29
	vxor.vv	v6, v6, v4
	vand.vv	v4, v27, v25
	vxor.vv	v4, v14, v4
	vxor.vv	v17, v17, v7
	vxor.vv	v4, v4, v20
	vxor.vv	v5, v5, v3
	vxor.vv	v17, v17, v9
	vxor.vv	v7, v4, v7
	vxor.vv	v6, v6, v15
	vxor.vv	v7, v7, v3
	vxor.vv	v31, v6, v31
	vand.vv	v6, v17, v5
	vand.vv	v4, v7, v5
	vxor.vv	v3, v7, v17
	vxor.vv	v9, v31, v9
	vnot.v	v31, v6
	vxor.vv	v6, v4, v17
	vxor.vv	v5, v9, v5
	vand.vv	v6, v6, v5
	vand.vv	v31, v5, v31
	vxor.vv	v5, v4, v9
	vand.vv	v5, v5, v3
	vxor.vv	v17, v5, v17
	addi	a3, a5, 16
	vand.vv	v5, v7, v9
	vxor.vv	v9, v6, v9
	vle8.v	v7, (a5)
	addi	s1, a5, 32
	vand.vv	v6, v5, v3
	vxor.vv	v6, v4, v6
	vxor.vv	v5, v31, v4
	vle8.v	v31, (a3)
	addi	a3, a5, 64
	vand.vv	v29, v17, v29
	vxor.vv	v6, v6, v3
	vxor.vv	v4, v17, v9
	vand.vv	v3, v9, v26
	vand.vv	v26, v9, v30
	vand.vv	v30, v17, v16
	vand.vv	v2, v5, v25
	vxor.vv	v9, v9, v5
	vand.vv	v25, v5, v27
	vxor.vv	v17, v17, v6
	vand.vv	v23, v6, v23
	vand.vv	v16, v6, v28
	vxor.vv	v28, v6, v5
	vle8.v	v6, (a3)
	addi	a3, a5, 48
	vand.vv	v5, v9, v24
	vand.vv	v27, v9, v22
	vle8.v	v24, (s1)
	addi	s1, a5, 80
	vxor.vv	v22, v3, v2
	csrr	t5, vlenb
	slli	t6, t5, 2
	add	t5, t5, t6
	add	t5, t5, sp
	addi	t5, t5, 16
	vl1r.v	v2, (t5)                        # vscale x 8-byte Folded Reload
	vxor.vv	v9, v3, v6
	vle8.v	v6, (a3)
	addi	a3, a5, 96
	vand.vv	v21, v17, v21
	vand.vv	v17, v17, v19
	vle8.v	v19, (s1)
	addi	s1, a5, 112
	vxor.vv	v14, v20, v14
	vand.vv	v15, v4, v15
	vand.vv	v14, v4, v14
	vand.vv	v20, v28, v20
	vxor.vv	v4, v4, v28
	vand.vv	v11, v28, v11
	vle8.v	v28, (s1)
	lui	s1, 7
	vxor.vv	v15, v7, v15
	vle8.v	v7, (a3)
	addi	a3, s1, 1911
	vxor.vv	v28, v30, v28
	vxor.vv	v30, v5, v30
	vxor.vv	v9, v9, v5
	vsetvli	zero, zero, e16, m2, ta, ma
	vmv.s.x	v0, a3
	vsetvli	zero, zero, e8, m1, ta, mu
	vxor.vv	v25, v16, v25
	vand.vv	v12, v4, v12
	vand.vv	v18, v4, v18
	vxor.vv	v5, v22, v26
	vxor.vv	v7, v23, v7
	vxor.vv	v23, v21, v23
	vxor.vv	v29, v17, v29
	vxor.vv	v27, v27, v11
	vxor.vv	v15, v15, v26
	vxor.vv	v26, v17, v31
	vxor.vv	v24, v25, v24
	vxor.vv	v11, v11, v6
	vxor.vv	v19, v21, v19
	vxor.vv	v21, v7, v22
	vxor.vv	v17, v28, v17
	vxor.vv	v22, v23, v14
	vxor.vv	v12, v12, v16
	vxor.vv	v16, v18, v20
	vxor.vv	v23, v29, v25
	vxor.vv	v15, v15, v27
	vxor.vv	v18, v26, v18
	vxor.vv	v24, v24, v30
	vxor.vv	v11, v11, v30
	vxor.vv	v19, v19, v5
	vxor.vv	v20, v21, v20
	vxor.vv	v12, v12, v22
	vxor.vv	v21, v16, v22
	vxor.vv	v22, v23, v14
	vxor.vv	v11, v11, v5
	vxor.vv	v14, v19, v16
	vxor.vv	v16, v20, v27
	addi	a3, sp, 16
	vl1r.v	v27, (a3)                       # vscale x 8-byte Folded Reload
	vrgather.vv	v19, v15, v27
	vxor.vv	v18, v18, v12
	vxor.vv	v20, v24, v21
	vxor.vv	v23, v11, v12
	vxor.vv	v9, v9, v21
	vxor.vv	v14, v14, v22
	vxor.vv	v12, v16, v22
	vxor.vv	v11, v17, v21
	vrgather.vv	v19, v15, v2, v0.t
	vrgather.vv	v16, v18, v27
	vrgather.vv	v17, v20, v27
	vrgather.vv	v21, v23, v27
	vrgather.vv	v22, v9, v27
	vrgather.vv	v24, v14, v27
	vrgather.vv	v25, v12, v27
	vrgather.vv	v26, v11, v27
	vxor.vv	v19, v15, v19
	vrgather.vv	v16, v18, v2, v0.t
	vrgather.vv	v17, v20, v2, v0.t
	vxor.vv	v27, v18, v19
	vrgather.vv	v21, v23, v2, v0.t
	vxor.vv	v28, v18, v16
	vxor.vv	v17, v20, v17
	vrgather.vv	v22, v9, v2, v0.t
	vxor.vv	v16, v23, v21
	vxor.vv	v18, v28, v20
	vxor.vv	v20, v17, v23
	vrgather.vv	v24, v14, v2, v0.t
	vxor.vv	v29, v22, v9
	vxor.vv	v9, v16, v9
	vrgather.vv	v25, v12, v2, v0.t
	vxor.vv	v30, v24, v14
	vxor.vv	v14, v14, v29
	vrgather.vv	v26, v11, v2, v0.t
	vxor.vv	v31, v25, v12
	vxor.vv	v12, v30, v12
	vxor.vv	v25, v26, v11
	vxor.vv	v11, v31, v11
	vxor.vv	v23, v12, v19
	vxor.vv	v19, v12, v16
	vxor.vv	v24, v25, v15
	vxor.vv	v22, v27, v25
	vxor.vv	v21, v20, v25
	vxor.vv	v16, v9, v25
	vxor.vv	v9, v11, v12
	vxor.vv	v17, v11, v17
	vxor.vv	v20, v11, v30
	vxor.vv	v15, v25, v14
	vrgather.vv	v30, v23, v1
	vrgather.vv	v7, v23, v10
	vxor.vv	v27, v9, v28
	vxor.vv	v26, v17, v24
	vxor.vv	v25, v19, v22
	vxor.vv	v9, v9, v29
	vxor.vv	v20, v20, v21
	vxor.vv	v19, v16, v31
	vmv1r.v	v0, v8
	vsetivli	zero, 8, e16, m1, ta, ma
	vmerge.vvm	v30, v7, v30, v0
	vsetivli	zero, 16, e8, m1, ta, ma
	vrgather.vv	v28, v15, v1
	vrgather.vv	v29, v15, v10
	vxor.vv	v31, v9, v18
	vrgather.vv	v9, v27, v1
	vrgather.vv	v17, v27, v10
	vrgather.vv	v7, v26, v1
	vrgather.vv	v6, v26, v10
	vrgather.vv	v5, v25, v1
	vsetivli	zero, 8, e16, m1, ta, ma
	vmerge.vvm	v9, v17, v9, v0
	vsetivli	zero, 16, e8, m1, ta, ma
	vrgather.vv	v17, v25, v10
	vsetivli	zero, 8, e16, m1, ta, ma
	vmerge.vvm	v7, v6, v7, v0
	vsetivli	zero, 16, e8, m1, ta, ma
	vrgather.vv	v6, v20, v1
	vsetivli	zero, 8, e16, m1, ta, ma
	vmerge.vvm	v17, v17, v5, v0
	vsetivli	zero, 16, e8, m1, ta, ma
	vrgather.vv	v5, v20, v10
	vrgather.vv	v4, v19, v1
	vxor.vv	v23, v30, v23
	vrgather.vv	v3, v19, v10
	vxor.vv	v23, v23, v24
	vrgather.vv	v24, v31, v1
	vxor.vv	v9, v27, v9
	vrgather.vv	v27, v31, v10
	vxor.vv	v18, v18, v7
	vsetivli	zero, 8, e16, m1, ta, ma
	vmerge.vvm	v24, v27, v24, v0
	vsetivli	zero, 16, e8, m1, ta, ma
	vxor.vv	v9, v9, v22
	vxor.vv	v22, v18, v26
	vxor.vv	v17, v21, v17
	vsetivli	zero, 8, e16, m1, ta, ma
	vmerge.vvm	v21, v5, v6, v0
	vsetivli	zero, 16, e8, m1, ta, ma
	vxor.vv	v30, v17, v25
	vxor.vv	v16, v16, v24
	vxor.vv	v17, v9, v23
	vxor.vv	v18, v22, v9
	vsetivli	zero, 8, e16, m1, ta, ma
	vmerge.vvm	v24, v3, v4, v0
	vsetivli	zero, 16, e8, m1, ta, ma
	vxor.vv	v25, v16, v31
	vxor.vv	v14, v14, v21
	vxor.vv	v31, v30, v23
	vsetivli	zero, 8, e16, m1, ta, ma
	vmerge.vvm	v8, v29, v28, v0
	vsetivli	zero, 16, e8, m1, ta, ma
	vxor.vv	v7, v14, v20
	vxor.vv	v12, v12, v24
	vxor.vv	v14, v25, v30
	vxor.vv	v12, v12, v19
	vxor.vv	v11, v11, v8
	vxor.vv	v20, v7, v22
	vxor.vv	v21, v7, v30
	vxor.vv	v16, v14, v17
	vxor.vv	v8, v14, v18
	vxor.vv	v19, v14, v23
	vxor.vv	v23, v11, v15
	vxor.vv	v22, v12, v25
	vxor.vv	v9, v12, v9
	vxor.vv	v11, v23, v12
	vxor.vv	v15, v21, v9
	vxor.vv	v24, v23, v20
	vxor.vv	v26, v23, v25
	vxor.vv	v20, v22, v20
	vand.vv	v6, v22, v19
	vxor.vv	v25, v22, v17
	vxor.vv	v27, v9, v31
	vxor.vv	v21, v11, v17
	vxor.vv	v28, v26, v12
	vand.vv	v9, v15, v16
	vor.vv	v17, v15, v16
	vand.vv	v5, v24, v25
	vxor.vv	v23, v11, v31
	vxor.vv	v29, v25, v7
	vxor.vv	v12, v28, v30
	vand.vv	v30, v21, v20
	vand.vv	v4, v23, v11
	vxor.vv	v17, v17, v6
	vxor.vv	v6, v23, v8
	vxor.vv	v31, v5, v31
	vand.vv	v5, v29, v27
	vxor.vv	v9, v9, v5
	vand.vv	v5, v12, v8
	vand.vv	v6, v6, v14
	vxor.vv	v5, v6, v5
	vxor.vv	v6, v6, v4
	vand.vv	v4, v28, v26
	vxor.vv	v31, v31, v30
	vxor.vv	v4, v18, v4
	vxor.vv	v4, v4, v23
	vxor.vv	v30, v4, v30
	vxor.vv	v9, v9, v14
	vxor.vv	v17, v17, v5
	vxor.vv	v31, v31, v6
	vxor.vv	v9, v9, v7
	vxor.vv	v30, v30, v5
	vxor.vv	v9, v9, v6
	vand.vv	v7, v31, v17
	vand.vv	v6, v30, v17
	vxor.vv	v17, v17, v9
	vnot.v	v7, v7
	vxor.vv	v5, v6, v31
	vand.vv	v7, v17, v7
	vand.vv	v17, v5, v17
	vxor.vv	v5, v30, v31
	vand.vv	v30, v30, v9
	vand.vv	v30, v30, v5
	vxor.vv	v30, v6, v30
	vxor.vv	v7, v7, v6
	vxor.vv	v6, v6, v9
	vand.vv	v6, v6, v5
	vxor.vv	v31, v6, v31
	vxor.vv	v30, v30, v5
	vxor.vv	v9, v17, v9
	vand.vv	v17, v7, v26
	vand.vv	v26, v7, v28
	vand.vv	v27, v31, v27
	vxor.vv	v28, v31, v30
	vand.vv	v29, v31, v29
	vxor.vv	v31, v31, v9
	vand.vv	v22, v30, v22
	vand.vv	v24, v9, v24
	vand.vv	v25, v9, v25
	vand.vv	v19, v30, v19
	vxor.vv	v30, v30, v7
	vxor.vv	v9, v9, v7
	vand.vv	v16, v28, v16
	vand.vv	v15, v28, v15
	vand.vv	v20, v9, v20
	vand.vv	v9, v9, v21
	vxor.vv	v18, v23, v18
	vand.vv	v14, v31, v14
	vand.vv	v18, v31, v18
	vand.vv	v21, v30, v23
	vxor.vv	v23, v31, v30
	vand.vv	v11, v30, v11
	vand.vv	v8, v23, v8
	vand.vv	v12, v23, v12
	vxor.vv	v23, v19, v26
	vxor.vv	v8, v8, v19
	vxor.vv	v17, v24, v17
	vxor.vv	v19, v15, v27
	vxor.vv	v24, v20, v24
	vxor.vv	v20, v20, v29
	vxor.vv	v9, v9, v11
	vxor.vv	v19, v19, v23
	vxor.vv	v23, v20, v23
	vxor.vv	v11, v20, v11
	vxor.vv	v26, v15, v29
	vxor.vv	v14, v14, v25
	vxor.vv	v20, v17, v25
	vxor.vv	v17, v17, v22
	vxor.vv	v15, v12, v15
	vxor.vv	v12, v12, v21
	vxor.vv	v17, v17, v21
	vxor.vv	v21, v16, v22
	vxor.vv	v21, v21, v18
	vxor.vv	v18, v19, v18
	vxor.vv	v16, v20, v16
	vxor.vv	v22, v8, v21
	vxor.vv	v8, v12, v21
	vxor.vv	v12, v16, v12
	vxor.vv	v11, v11, v20
	vxor.vv	v21, v14, v9
	vxor.vv	v9, v17, v9
	vxor.vv	v20, v23, v8
	vxor.vv	v19, v24, v8
	vxor.vv	v8, v26, v8
	vxor.vv	v25, v15, v22
	vxor.vv	v24, v11, v22
	vxor.vv	v23, v12, v18
	vxor.vv	v22, v9, v18
	addi	a4, a4, -1
	addi	a5, a5, -512
	bnez	a4, .Laes_BB33_7
.Laes_BB33_8:                               # %after.6
	vle8.v	v9, (a0)
	vle8.v	v10, (a1)
	addi	a0, a1, 16
	vle8.v	v11, (a0)
	addi	a0, a1, 32
	vle8.v	v12, (a0)
	addi	a0, a1, 48
	vle8.v	v13, (a0)
	addi	a0, a1, 64
	vle8.v	v14, (a0)
	addi	a0, a1, 80
	addi	a1, a1, 96
	vle8.v	v15, (a0)
	vle8.v	v16, (a1)
	vxor.vv	v9, v9, v21
	vxor.vv	v10, v10, v25
	vxor.vv	v11, v11, v20
	vxor.vv	v12, v12, v24
	vxor.vv	v13, v13, v19
	vxor.vv	v14, v14, v23
	vxor.vv	v15, v15, v22
	vxor.vv	v8, v16, v8
	vse8.v	v9, (a2)
	vse8.v	v10, (a6)
	vse8.v	v11, (a7)
	vse8.v	v12, (t0)
	vse8.v	v13, (t1)
	vse8.v	v14, (t2)
	vse8.v	v15, (t3)
	vse8.v	v8, (t4)
	csrr	a0, vlenb
	slli	a1, a0, 3
	sub	a0, a1, a0
	add	sp, sp, a0
	ld	s0, 56(sp)                      # 8-byte Folded Reload
	ld	s1, 48(sp)                      # 8-byte Folded Reload
	ld	s2, 40(sp)                      # 8-byte Folded Reload
	ld	s3, 32(sp)                      # 8-byte Folded Reload
	ld	s4, 24(sp)                      # 8-byte Folded Reload
	ld	s5, 16(sp)                      # 8-byte Folded Reload
	addi	sp, sp, 64
	ret
.Laes_func_end33:
	.size	aes.aes_soft.soft.ciphers.planes.DecryptPlaneCipher.process_planes, .Laes_func_end33-aes.aes_soft.soft.ciphers.planes.DecryptPlaneCipher.process_planes
                                        # -- End function
	.section	.rodata.cst16,"aM",@progbits,16
	.p2align	4, 0x0                          # -- Begin function aes_permute::blocks::process_on_lanes::<#e7683a4e90f73162>
.Laes_CPI34_0:
	.byte	0                               # 0x0
	.byte	181                             # 0xb5
	.byte	220                             # 0xdc
	.byte	105                             # 0x69
	.byte	219                             # 0xdb
	.byte	110                             # 0x6e
	.byte	7                               # 0x7
	.byte	178                             # 0xb2
	.byte	20                              # 0x14
	.byte	161                             # 0xa1
	.byte	200                             # 0xc8
	.byte	125                             # 0x7d
	.byte	207                             # 0xcf
	.byte	122                             # 0x7a
	.byte	19                              # 0x13
	.byte	166                             # 0xa6
.Laes_CPI34_1:
	.byte	0                               # 0x0
	.byte	167                             # 0xa7
	.byte	168                             # 0xa8
	.byte	15                              # 0xf
	.byte	237                             # 0xed
	.byte	74                              # 0x4a
	.byte	69                              # 0x45
	.byte	226                             # 0xe2
	.byte	209                             # 0xd1
	.byte	118                             # 0x76
	.byte	121                             # 0x79
	.byte	222                             # 0xde
	.byte	60                              # 0x3c
	.byte	155                             # 0x9b
	.byte	148                             # 0x94
	.byte	51                              # 0x33
.Laes_CPI34_2:
	.byte	128                             # 0x80
	.byte	2                               # 0x2
	.byte	1                               # 0x1
	.byte	15                              # 0xf
	.byte	9                               # 0x9
	.byte	5                               # 0x5
	.byte	14                              # 0xe
	.byte	12                              # 0xc
	.byte	13                              # 0xd
	.byte	4                               # 0x4
	.byte	11                              # 0xb
	.byte	10                              # 0xa
	.byte	7                               # 0x7
	.byte	8                               # 0x8
	.byte	6                               # 0x6
	.byte	3                               # 0x3
.Laes_CPI34_3:
	.byte	128                             # 0x80
	.byte	1                               # 0x1
	.byte	9                               # 0x9
	.byte	14                              # 0xe
	.byte	13                              # 0xd
	.byte	11                              # 0xb
	.byte	7                               # 0x7
	.byte	6                               # 0x6
	.byte	15                              # 0xf
	.byte	2                               # 0x2
	.byte	12                              # 0xc
	.byte	5                               # 0x5
	.byte	10                              # 0xa
	.byte	4                               # 0x4
	.byte	3                               # 0x3
	.byte	8                               # 0x8
.Laes_CPI34_4:
	.byte	0                               # 0x0
	.byte	41                              # 0x29
	.byte	235                             # 0xeb
	.byte	82                              # 0x52
	.byte	166                             # 0xa6
	.byte	54                              # 0x36
	.byte	185                             # 0xb9
	.byte	144                             # 0x90
	.byte	123                             # 0x7b
	.byte	221                             # 0xdd
	.byte	143                             # 0x8f
	.byte	100                             # 0x64
	.byte	31                              # 0x1f
	.byte	77                              # 0x4d
	.byte	244                             # 0xf4
	.byte	194                             # 0xc2
.Laes_CPI34_5:
	.byte	0                               # 0x0
	.byte	5                               # 0x5
	.byte	253                             # 0xfd
	.byte	152                             # 0x98
	.byte	223                             # 0xdf
	.byte	191                             # 0xbf
	.byte	101                             # 0x65
	.byte	96                              # 0x60
	.byte	157                             # 0x9d
	.byte	66                              # 0x42
	.byte	218                             # 0xda
	.byte	39                              # 0x27
	.byte	186                             # 0xba
	.byte	34                              # 0x22
	.byte	71                              # 0x47
	.byte	248                             # 0xf8
.Laes_CPI34_6:
	.byte	0                               # 0x0
	.byte	91                              # 0x5b
	.byte	164                             # 0xa4
	.byte	122                             # 0x7a
	.byte	207                             # 0xcf
	.byte	74                              # 0x4a
	.byte	222                             # 0xde
	.byte	133                             # 0x85
	.byte	33                              # 0x21
	.byte	238                             # 0xee
	.byte	148                             # 0x94
	.byte	48                              # 0x30
	.byte	17                              # 0x11
	.byte	107                             # 0x6b
	.byte	181                             # 0xb5
	.byte	255                             # 0xff
.Laes_CPI34_7:
	.byte	0                               # 0x0
	.byte	118                             # 0x76
	.byte	62                              # 0x3e
	.byte	158                             # 0x9e
	.byte	30                              # 0x1e
	.byte	200                             # 0xc8
	.byte	160                             # 0xa0
	.byte	214                             # 0xd6
	.byte	232                             # 0xe8
	.byte	246                             # 0xf6
	.byte	104                             # 0x68
	.byte	86                              # 0x56
	.byte	190                             # 0xbe
	.byte	32                              # 0x20
	.byte	128                             # 0x80
	.byte	72                              # 0x48
.Laes_CPI34_8:
	.byte	0                               # 0x0
	.byte	28                              # 0x1c
	.byte	68                              # 0x44
	.byte	88                              # 0x58
	.byte	151                             # 0x97
	.byte	139                             # 0x8b
	.byte	211                             # 0xd3
	.byte	207                             # 0xcf
	.byte	138                             # 0x8a
	.byte	150                             # 0x96
	.byte	206                             # 0xce
	.byte	210                             # 0xd2
	.byte	29                              # 0x1d
	.byte	1                               # 0x1
	.byte	89                              # 0x59
	.byte	69                              # 0x45
.Laes_CPI34_9:
	.byte	0                               # 0x0
	.byte	48                              # 0x30
	.byte	38                              # 0x26
	.byte	22                              # 0x16
	.byte	183                             # 0xb7
	.byte	135                             # 0x87
	.byte	145                             # 0x91
	.byte	161                             # 0xa1
	.byte	65                              # 0x41
	.byte	113                             # 0x71
	.byte	103                             # 0x67
	.byte	87                              # 0x57
	.byte	246                             # 0xf6
	.byte	198                             # 0xc6
	.byte	208                             # 0xd0
	.byte	224                             # 0xe0
.Laes_CPI34_10:
	.byte	0                               # 0x0
	.byte	59                              # 0x3b
	.byte	228                             # 0xe4
	.byte	200                             # 0xc8
	.byte	3                               # 0x3
	.byte	20                              # 0x14
	.byte	44                              # 0x2c
	.byte	23                              # 0x17
	.byte	243                             # 0xf3
	.byte	240                             # 0xf0
	.byte	56                              # 0x38
	.byte	220                             # 0xdc
	.byte	47                              # 0x2f
	.byte	231                             # 0xe7
	.byte	203                             # 0xcb
	.byte	223                             # 0xdf
.Laes_CPI34_11:
	.byte	0                               # 0x0
	.byte	36                              # 0x24
	.byte	145                             # 0x91
	.byte	25                              # 0x19
	.byte	35                              # 0x23
	.byte	143                             # 0x8f
	.byte	136                             # 0x88
	.byte	172                             # 0xac
	.byte	61                              # 0x3d
	.byte	30                              # 0x1e
	.byte	7                               # 0x7
	.byte	150                             # 0x96
	.byte	171                             # 0xab
	.byte	178                             # 0xb2
	.byte	58                              # 0x3a
	.byte	181                             # 0xb5
	.section	.text.aes.aes_permute.blocks.process_on_lanes.2,"ax",@progbits
	.p2align	1
	.type	aes.aes_permute.blocks.process_on_lanes.2,@function
aes.aes_permute.blocks.process_on_lanes.2: # @aes.aes_permute.blocks.process_on_lanes.2
# %bb.0:                                # %start
	addi	sp, sp, -144
	sd	ra, 136(sp)                     # 8-byte Folded Spill
	sd	s0, 128(sp)                     # 8-byte Folded Spill
	sd	s1, 120(sp)                     # 8-byte Folded Spill
	sd	s2, 112(sp)                     # 8-byte Folded Spill
	sd	s3, 104(sp)                     # 8-byte Folded Spill
	sd	s4, 96(sp)                      # 8-byte Folded Spill
	sd	s5, 88(sp)                      # 8-byte Folded Spill
	sd	s6, 80(sp)                      # 8-byte Folded Spill
	sd	s7, 72(sp)                      # 8-byte Folded Spill
	sd	s8, 64(sp)                      # 8-byte Folded Spill
	sd	s9, 56(sp)                      # 8-byte Folded Spill
	sd	s10, 48(sp)                     # 8-byte Folded Spill
	sd	s11, 40(sp)                     # 8-byte Folded Spill
	li	t0, 2
	sd	a1, 32(sp)                      # 8-byte Folded Spill
	addi	a6, a1, -1
.Laes_pcrel_hi140:
	auipc	a7, %pcrel_hi(.Laes_CPI34_0)
.Laes_pcrel_hi141:
	auipc	t2, %pcrel_hi(.Laes_CPI34_1)
.Laes_pcrel_hi142:
	auipc	t5, %pcrel_hi(.Laes_CPI34_2)
.Laes_pcrel_hi143:
	auipc	s2, %pcrel_hi(.Laes_CPI34_3)
.Laes_pcrel_hi144:
	auipc	s3, %pcrel_hi(.Laes_CPI34_4)
.Laes_pcrel_hi145:
	auipc	s4, %pcrel_hi(.Laes_CPI34_5)
.Laes_pcrel_hi146:
	auipc	s5, %pcrel_hi(.Laes_CPI34_6)
.Laes_pcrel_hi147:
	auipc	s6, %pcrel_hi(.Laes_CPI34_7)
.Laes_pcrel_hi148:
	auipc	s9, %pcrel_hi(.Laes_CPI34_8)
.Laes_pcrel_hi149:
	auipc	s10, %pcrel_hi(.Laes_CPI34_9)
.Laes_pcrel_hi150:
	auipc	s11, %pcrel_hi(.Laes_CPI34_10)
.Laes_pcrel_hi151:
	auipc	t6, %pcrel_hi(.Laes_CPI34_11)
.Laes_pcrel_hi152:
	auipc	s8, %pcrel_hi(.Laes_static.3)
.Laes_pcrel_hi153:
	auipc	ra, %pcrel_hi(.Laes_static.6)
.Laes_pcrel_hi154:
	auipc	t3, %pcrel_hi(.Laes_static.4)
.Laes_pcrel_hi155:
	auipc	t4, %pcrel_hi(.Laes_static.5)
	addi	t1, a7, %pcrel_lo(.Laes_pcrel_hi140)
	addi	a4, t2, %pcrel_lo(.Laes_pcrel_hi141)
	addi	a1, t5, %pcrel_lo(.Laes_pcrel_hi142)
	addi	s1, s2, %pcrel_lo(.Laes_pcrel_hi143)
	addi	s7, s3, %pcrel_lo(.Laes_pcrel_hi144)
	addi	s2, s4, %pcrel_lo(.Laes_pcrel_hi145)
	addi	s3, s5, %pcrel_lo(.Laes_pcrel_hi146)
	addi	s4, s6, %pcrel_lo(.Laes_pcrel_hi147)
	addi	s5, s9, %pcrel_lo(.Laes_pcrel_hi148)
	addi	s6, s10, %pcrel_lo(.Laes_pcrel_hi149)
	addi	a5, s11, %pcrel_lo(.Laes_pcrel_hi150)
	addi	s0, t6, %pcrel_lo(.Laes_pcrel_hi151)
	addi	t2, s8, %pcrel_lo(.Laes_pcrel_hi152)
	addi	a7, ra, %pcrel_lo(.Laes_pcrel_hi153)
	addi	t5, t3, %pcrel_lo(.Laes_pcrel_hi154)
	addi	t6, t4, %pcrel_lo(.Laes_pcrel_hi155)
	sd	a5, 24(sp)                      # 8-byte Folded Spill
	sd	t2, 16(sp)                      # 8-byte Folded Spill
	sd	s0, 8(sp)                       # 8-byte Folded Spill
	sd	a1, 0(sp)                       # 8-byte Folded Spill
	bltu	a3, t0, .Laes_BB34_6
# %bb.1:                                # %join.5.lr.ph
	li	t0, 0
	vsetivli	zero, 16, e8, m1, ta, ma
	vle8.v	v13, (t1)
	mv	t3, a4
	vle8.v	v14, (a4)
	vle8.v	v15, (a1)
	mv	t4, s1
	vle8.v	v16, (s1)
	vle8.v	v17, (s7)
	vle8.v	v18, (s2)
	vle8.v	v19, (s3)
	vle8.v	v20, (s4)
	vle8.v	v21, (s5)
	vle8.v	v22, (s6)
	slli	s11, a6, 4
	vle8.v	v23, (a5)
	vle8.v	v24, (s0)
	slli	a1, a6, 5
	add	a1, a1, s11
	andi	a1, a1, 48
	add	a1, a1, t2
	vle8.v	v25, (a1)
	add	s11, s11, a0
	ld	a4, 32(sp)                      # 8-byte Folded Reload
	addi	a1, a4, -2
	addi	s10, a0, 16
	mv	a5, t1
	mv	t1, a4
	j	.Laes_BB34_3
.Laes_BB34_2:                               # %"aes_permute::blocks::process_two_vectors::<#e7683a4e90f73162>.exit"
                                        #   in Loop: Header=BB34_3 Depth=1
	vsrl.vi	v11, v10, 4
	vand.vi	v8, v10, 15
	vsrl.vi	v10, v9, 4
	vand.vi	v12, v9, 15
	vxor.vv	v26, v11, v8
	vrgather.vv	v27, v15, v8
	vrgather.vv	v8, v16, v11
	vxor.vv	v9, v10, v12
	vrgather.vv	v28, v15, v12
	vrgather.vv	v12, v16, v10
	vrgather.vv	v29, v16, v26
	vxor.vv	v8, v8, v27
	vxor.vv	v27, v29, v27
	vrgather.vv	v29, v16, v9
	vxor.vv	v12, v12, v28
	vxor.vv	v28, v29, v28
	vmsle.vi	v0, v8, -1
	vrgather.vv	v29, v16, v8
	vmerge.vim	v29, v29, 0, v0
	vmsle.vi	v0, v27, -1
	vrgather.vv	v8, v16, v27
	vmerge.vim	v27, v8, 0, v0
	vmsle.vi	v8, v25, -1
	vxor.vv	v11, v27, v11
	vmsle.vi	v0, v27, -1
	vrgather.vv	v27, v24, v11
	vmerge.vim	v27, v27, 0, v0
	vle8.v	v11, (s11)
	li	a4, 32
	addi	t0, t0, 2
	sub	s1, a3, t0
	vxor.vv	v26, v29, v26
	vrgather.vv	v30, v23, v26
	vmsle.vi	v0, v29, -1
	vxor.vv	v26, v27, v30
	vmerge.vvm	v26, v26, v27, v0
	vrgather.vv	v27, v26, v25
	vxor.vv	v26, v11, v27
	vmv1r.v	v0, v8
	vmerge.vvm	v26, v26, v11, v0
	vmsle.vi	v0, v12, -1
	vrgather.vv	v27, v16, v12
	vmerge.vim	v12, v27, 0, v0
	vmsle.vi	v0, v28, -1
	vrgather.vv	v27, v16, v28
	vmerge.vim	v27, v27, 0, v0
	vxor.vv	v9, v12, v9
	vxor.vv	v10, v27, v10
	vrgather.vv	v28, v23, v9
	vmsle.vi	v0, v27, -1
	vrgather.vv	v9, v24, v10
	vmerge.vim	v9, v9, 0, v0
	vmsle.vi	v0, v12, -1
	vxor.vv	v10, v9, v28
	vmerge.vvm	v9, v10, v9, v0
	vrgather.vv	v10, v9, v25
	vxor.vv	v9, v11, v10
	vmv1r.v	v0, v8
	vmerge.vvm	v8, v9, v11, v0
	vsetvli	zero, a4, e8, m2, ta, ma
	vslideup.vi	v26, v8, 16
	li	a4, 1
	vse8.v	v26, (ra)
	bgeu	a4, s1, .Laes_BB34_7
.Laes_BB34_3:                               # %join.5
                                        # =>This Loop Header: Depth=1
                                        #     Child Loop BB34_5 Depth 2
	slli	ra, t0, 4
	vsetivli	zero, 16, e8, m1, ta, ma
	vle8.v	v8, (a0)
	add	ra, ra, a2
	vle8.v	v9, (ra)
	addi	a4, ra, 16
	vle8.v	v10, (a4)
	vxor.vv	v9, v8, v9
	vand.vi	v11, v9, 15
	vsrl.vi	v9, v9, 4
	vxor.vv	v8, v8, v10
	vrgather.vv	v10, v13, v11
	vrgather.vv	v11, v14, v9
	vand.vi	v9, v8, 15
	vsrl.vi	v8, v8, 4
	vxor.vv	v10, v11, v10
	vrgather.vv	v11, v13, v9
	vrgather.vv	v9, v14, v8
	li	a4, 2
	vxor.vv	v9, v9, v11
	bltu	a6, a4, .Laes_BB34_2
# %bb.4:                                # %join.5.i2392.preheader
                                        #   in Loop: Header=BB34_3 Depth=1
	li	s0, 48
	mv	s1, s10
	mv	s9, a1
.Laes_BB34_5:                               # %join.5.i2392
                                        #   Parent Loop BB34_3 Depth=1
                                        # =>  This Inner Loop Header: Depth=2
	vsrl.vi	v8, v10, 4
	vand.vi	v10, v10, 15
	andi	t2, s0, 48
	vsrl.vi	v12, v9, 4
	vand.vi	v9, v9, 15
	vle8.v	v26, (s1)
	addi	s9, s9, -1
	addi	s1, s1, 16
	vxor.vv	v11, v8, v10
	vrgather.vv	v30, v15, v10
	vrgather.vv	v10, v16, v8
	add	a4, a7, t2
	vle8.v	v28, (a4)
	add	a4, t5, t2
	add	t2, t2, t6
	vxor.vv	v31, v12, v9
	vrgather.vv	v7, v15, v9
	vrgather.vv	v9, v16, v12
	vrgather.vv	v6, v16, v11
	vxor.vv	v10, v10, v30
	vle8.v	v27, (a4)
	vle8.v	v29, (t2)
	vrgather.vv	v5, v16, v31
	vxor.vv	v4, v9, v7
	vxor.vv	v9, v6, v30
	vrgather.vv	v30, v16, v10
	vmsle.vi	v0, v10, -1
	vxor.vv	v7, v5, v7
	vmerge.vim	v10, v30, 0, v0
	vmsle.vi	v0, v9, -1
	vrgather.vv	v30, v16, v9
	vmerge.vim	v30, v30, 0, v0
	vxor.vv	v11, v10, v11
	vmsle.vi	v9, v10, -1
	vxor.vv	v6, v30, v8
	vrgather.vv	v8, v17, v11
	vmsle.vi	v10, v30, -1
	vrgather.vv	v30, v19, v11
	vmsle.vi	v11, v28, -1
	vrgather.vv	v5, v18, v6
	vmv1r.v	v0, v10
	vmerge.vim	v5, v5, 0, v0
	vxor.vv	v8, v5, v8
	vmv1r.v	v0, v9
	vmerge.vvm	v5, v8, v5, v0
	vmsle.vi	v8, v27, -1
	vrgather.vv	v3, v20, v6
	vmv1r.v	v0, v10
	vmerge.vim	v10, v3, 0, v0
	vxor.vv	v30, v10, v30
	vmv1r.v	v0, v9
	vmerge.vvm	v9, v30, v10, v0
	vrgather.vv	v10, v9, v28
	vxor.vv	v9, v5, v10
	vmv1r.v	v0, v11
	vmerge.vvm	v30, v9, v5, v0
	vand.vi	v9, v30, 15
	vsrl.vi	v10, v30, 4
	vrgather.vv	v6, v30, v27
	vrgather.vv	v5, v21, v9
	vrgather.vv	v9, v22, v10
	vxor.vv	v9, v9, v5
	vxor.vv	v10, v9, v6
	vmv1r.v	v0, v8
	vmerge.vvm	v6, v10, v9, v0
	vrgather.vv	v9, v6, v27
	vmerge.vim	v5, v9, 0, v0
	vmsle.vi	v0, v4, -1
	vrgather.vv	v9, v16, v4
	vmerge.vim	v9, v9, 0, v0
	vmsle.vi	v0, v7, -1
	vrgather.vv	v10, v16, v7
	vmerge.vim	v10, v10, 0, v0
	vxor.vv	v31, v9, v31
	vmsle.vi	v9, v9, -1
	vxor.vv	v7, v10, v12
	vrgather.vv	v12, v17, v31
	vmsle.vi	v10, v10, -1
	vrgather.vv	v4, v18, v7
	vmv1r.v	v0, v10
	vmerge.vim	v4, v4, 0, v0
	vxor.vv	v12, v4, v12
	vmv1r.v	v0, v9
	vmerge.vvm	v4, v12, v4, v0
	vmsle.vi	v12, v29, -1
	vrgather.vv	v3, v30, v29
	vxor.vv	v30, v5, v3
	vrgather.vv	v3, v19, v31
	vrgather.vv	v31, v20, v7
	vmv1r.v	v0, v10
	vmerge.vim	v10, v31, 0, v0
	vxor.vv	v31, v10, v3
	vmv1r.v	v0, v9
	vmerge.vvm	v9, v31, v10, v0
	vrgather.vv	v10, v9, v28
	vxor.vv	v9, v4, v10
	vmv1r.v	v0, v11
	vmerge.vvm	v9, v9, v4, v0
	vand.vi	v10, v9, 15
	vsrl.vi	v11, v9, 4
	vrgather.vv	v28, v9, v27
	vrgather.vv	v31, v9, v29
	vrgather.vv	v9, v21, v10
	vrgather.vv	v10, v22, v11
	vxor.vv	v9, v10, v9
	vxor.vv	v10, v9, v28
	vmv1r.v	v0, v8
	vmerge.vvm	v9, v10, v9, v0
	vrgather.vv	v10, v9, v27
	vmerge.vim	v8, v10, 0, v0
	vmv1r.v	v0, v12
	vmerge.vvm	v10, v30, v5, v0
	vxor.vv	v10, v10, v6
	vxor.vv	v11, v8, v31
	vxor.vv	v10, v10, v26
	vmerge.vvm	v8, v11, v8, v0
	vxor.vv	v8, v8, v9
	vxor.vv	v9, v8, v26
	addi	s0, s0, 48
	bnez	s9, .Laes_BB34_5
	j	.Laes_BB34_2
.Laes_BB34_6:
	mv	t4, s1
	mv	t3, a4
	li	t0, 0
	mv	a5, t1
	ld	t1, 32(sp)                      # 8-byte Folded Reload
.Laes_BB34_7:                               # %loop.7.preheader
	bne	a3, t0, .Laes_BB34_9
.Laes_BB34_8:                               # %after.11
	ld	ra, 136(sp)                     # 8-byte Folded Reload
	ld	s0, 128(sp)                     # 8-byte Folded Reload
	ld	s1, 120(sp)                     # 8-byte Folded Reload
	ld	s2, 112(sp)                     # 8-byte Folded Reload
	ld	s3, 104(sp)                     # 8-byte Folded Reload
	ld	s4, 96(sp)                      # 8-byte Folded Reload
	ld	s5, 88(sp)                      # 8-byte Folded Reload
	ld	s6, 80(sp)                      # 8-byte Folded Reload
	ld	s7, 72(sp)                      # 8-byte Folded Reload
	ld	s8, 64(sp)                      # 8-byte Folded Reload
	ld	s9, 56(sp)                      # 8-byte Folded Reload
	ld	s10, 48(sp)                     # 8-byte Folded Reload
	ld	s11, 40(sp)                     # 8-byte Folded Reload
	addi	sp, sp, 144
	ret
.Laes_BB34_9:                               # %join.10.lr.ph
	vsetivli	zero, 16, e8, m1, ta, ma
	vle8.v	v10, (a5)
	vle8.v	v11, (t3)
	ld	a1, 0(sp)                       # 8-byte Folded Reload
	vle8.v	v12, (a1)
	vle8.v	v13, (t4)
	vle8.v	v14, (s7)
	vle8.v	v15, (s2)
	vle8.v	v16, (s3)
	vle8.v	v17, (s4)
	vle8.v	v18, (s5)
	vle8.v	v19, (s6)
	slli	t3, a6, 4
	ld	a1, 24(sp)                      # 8-byte Folded Reload
	vle8.v	v20, (a1)
	ld	a1, 8(sp)                       # 8-byte Folded Reload
	vle8.v	v21, (a1)
	slli	a1, a6, 5
	add	a1, a1, t3
	andi	a1, a1, 48
	ld	a4, 16(sp)                      # 8-byte Folded Reload
	add	a1, a1, a4
	vle8.v	v22, (a1)
	addi	t1, t1, -2
	addi	t2, a0, 16
	add	t3, t3, a0
	j	.Laes_BB34_11
.Laes_BB34_10:                              # %"aes_permute::blocks::process_vector::<#e7683a4e90f73162>.exit"
                                        #   in Loop: Header=BB34_11 Depth=1
	vle8.v	v9, (t3)
	vsrl.vi	v23, v8, 4
	vand.vi	v8, v8, 15
	vxor.vv	v24, v23, v8
	vrgather.vv	v25, v12, v8
	vrgather.vv	v8, v13, v23
	vrgather.vv	v26, v13, v24
	vxor.vv	v8, v8, v25
	vxor.vv	v25, v26, v25
	vmsle.vi	v0, v8, -1
	vrgather.vv	v26, v13, v8
	vmerge.vim	v26, v26, 0, v0
	vmsle.vi	v8, v22, -1
	vmsle.vi	v0, v25, -1
	vrgather.vv	v27, v13, v25
	vmerge.vim	v25, v27, 0, v0
	vxor.vv	v24, v26, v24
	vxor.vv	v23, v25, v23
	vrgather.vv	v27, v20, v24
	vmsle.vi	v0, v25, -1
	vrgather.vv	v24, v21, v23
	vmerge.vim	v23, v24, 0, v0
	vmsle.vi	v0, v26, -1
	vxor.vv	v24, v23, v27
	vmerge.vvm	v23, v24, v23, v0
	vrgather.vv	v24, v23, v22
	vxor.vv	v23, v9, v24
	vmv1r.v	v0, v8
	vmerge.vvm	v8, v23, v9, v0
	addi	t0, t0, 1
	vse8.v	v8, (t4)
	beq	a3, t0, .Laes_BB34_8
.Laes_BB34_11:                              # %join.10
                                        # =>This Loop Header: Depth=1
                                        #     Child Loop BB34_13 Depth 2
	slli	t4, t0, 4
	vle8.v	v8, (a0)
	add	t4, t4, a2
	vle8.v	v9, (t4)
	vxor.vv	v8, v8, v9
	vand.vi	v9, v8, 15
	vsrl.vi	v8, v8, 4
	vrgather.vv	v23, v10, v9
	vrgather.vv	v9, v11, v8
	li	a1, 2
	vxor.vv	v8, v9, v23
	bltu	a6, a1, .Laes_BB34_10
# %bb.12:                               # %join.5.i.preheader
                                        #   in Loop: Header=BB34_11 Depth=1
	li	a1, 48
	mv	s1, t1
	mv	s0, t2
.Laes_BB34_13:                              # %join.5.i
                                        #   Parent Loop BB34_11 Depth=1
                                        # =>  This Inner Loop Header: Depth=2
	vle8.v	v23, (s0)
	vsrl.vi	v9, v8, 4
	vand.vi	v8, v8, 15
	andi	a4, a1, 48
	addi	s0, s0, 16
	addi	s1, s1, -1
	vxor.vv	v24, v9, v8
	vrgather.vv	v25, v12, v8
	vrgather.vv	v8, v13, v9
	add	a5, a7, a4
	vrgather.vv	v26, v13, v24
	vxor.vv	v8, v8, v25
	vxor.vv	v25, v26, v25
	vmsle.vi	v0, v8, -1
	vrgather.vv	v26, v13, v8
	vmerge.vim	v8, v26, 0, v0
	vmsle.vi	v0, v25, -1
	vrgather.vv	v26, v13, v25
	vmerge.vim	v25, v26, 0, v0
	vxor.vv	v24, v8, v24
	vmsle.vi	v8, v8, -1
	vxor.vv	v26, v25, v9
	vrgather.vv	v27, v14, v24
	vmsle.vi	v9, v25, -1
	vrgather.vv	v25, v15, v26
	vmv1r.v	v0, v9
	vmerge.vim	v25, v25, 0, v0
	vxor.vv	v27, v25, v27
	vmv1r.v	v0, v8
	vmerge.vvm	v25, v27, v25, v0
	vle8.v	v27, (a5)
	add	a5, t5, a4
	add	a4, a4, t6
	vle8.v	v28, (a5)
	vrgather.vv	v29, v17, v26
	vmv1r.v	v0, v9
	vmerge.vim	v9, v29, 0, v0
	vle8.v	v26, (a4)
	vrgather.vv	v29, v16, v24
	vxor.vv	v24, v9, v29
	vmv1r.v	v0, v8
	vmerge.vvm	v9, v24, v9, v0
	vmsle.vi	v8, v28, -1
	vmsle.vi	v0, v27, -1
	vrgather.vv	v24, v9, v27
	vxor.vv	v9, v25, v24
	vmerge.vvm	v9, v9, v25, v0
	vand.vi	v24, v9, 15
	vsrl.vi	v25, v9, 4
	vrgather.vv	v27, v9, v28
	vrgather.vv	v29, v9, v26
	vrgather.vv	v9, v18, v24
	vrgather.vv	v24, v19, v25
	vxor.vv	v9, v24, v9
	vxor.vv	v24, v9, v27
	vmv1r.v	v0, v8
	vmerge.vvm	v24, v24, v9, v0
	vmsle.vi	v9, v26, -1
	vrgather.vv	v25, v24, v28
	vxor.vv	v25, v23, v25
	vmerge.vvm	v8, v25, v23, v0
	vxor.vv	v23, v8, v29
	vmv1r.v	v0, v9
	vmerge.vvm	v8, v23, v8, v0
	vxor.vv	v8, v8, v24
	addi	a1, a1, 48
	bnez	s1, .Laes_BB34_13
	j	.Laes_BB34_10
.Laes_func_end34:
	.size	aes.aes_permute.blocks.process_on_lanes.2, .Laes_func_end34-aes.aes_permute.blocks.process_on_lanes.2
                                        # -- End function
	.section	.text.aes.aes_hybrid.batches.process_on_planes.2,"ax",@progbits
	.p2align	1                               # -- Begin function aes_hybrid::batches::process_on_planes::<#0fbbf5e423d2a9b1>
	.type	aes.aes_hybrid.batches.process_on_planes.2,@function
aes.aes_hybrid.batches.process_on_planes.2: # @aes.aes_hybrid.batches.process_on_planes.2
# %bb.0:                                # %start
	addi	sp, sp, -1984
	sd	ra, 1976(sp)                    # 8-byte Folded Spill
	sd	s0, 1968(sp)                    # 8-byte Folded Spill
	sd	s1, 1960(sp)                    # 8-byte Folded Spill
	sd	s2, 1952(sp)                    # 8-byte Folded Spill
	sd	s3, 1944(sp)                    # 8-byte Folded Spill
	sd	s4, 1936(sp)                    # 8-byte Folded Spill
	mv	s2, a3
	mv	s3, a2
	mv	s0, a1
	mv	s4, a0
	addi	a0, sp, 144
	li	a2, 1792
	li	a1, 0
	la	t1, memset
	jalr	t1
	slli	s1, s0, 3
	addi	a0, sp, 16
	mv	a1, s4
	mv	a2, s0
	call	aes.aes_hybrid.plane_keys.store_planes
	addi	a0, sp, 16
	mv	a1, s1
	mv	a2, s3
	mv	a3, s2
	call	aes.aes_hybrid.batches.process_batches_and_rest.2
	addi	a0, sp, 16
	call	aes.aes_cipher.zeroize.zeroize_words
	call	aes.aes_cipher.zeroize.stack.wipe_stack.1792
	ld	ra, 1976(sp)                    # 8-byte Folded Reload
	ld	s0, 1968(sp)                    # 8-byte Folded Reload
	ld	s1, 1960(sp)                    # 8-byte Folded Reload
	ld	s2, 1952(sp)                    # 8-byte Folded Reload
	ld	s3, 1944(sp)                    # 8-byte Folded Reload
	ld	s4, 1936(sp)                    # 8-byte Folded Reload
	addi	sp, sp, 1984
	ret
.Laes_func_end35:
	.size	aes.aes_hybrid.batches.process_on_planes.2, .Laes_func_end35-aes.aes_hybrid.batches.process_on_planes.2
                                        # -- End function
	.section	.rodata.cst16,"aM",@progbits,16
	.p2align	4, 0x0                          # -- Begin function aes_hybrid::batches::process_batches_and_rest::<#0fbbf5e423d2a9b1>
.Laes_CPI36_0:
	.byte	0                               # 0x0
	.byte	4                               # 0x4
	.byte	8                               # 0x8
	.byte	12                              # 0xc
	.byte	1                               # 0x1
	.byte	5                               # 0x5
	.byte	9                               # 0x9
	.byte	13                              # 0xd
	.byte	2                               # 0x2
	.byte	6                               # 0x6
	.byte	10                              # 0xa
	.byte	14                              # 0xe
	.byte	3                               # 0x3
	.byte	7                               # 0x7
	.byte	11                              # 0xb
	.byte	15                              # 0xf
	.section	.rodata.cst32,"aM",@progbits,32
	.p2align	5, 0x0
.Laes_CPI36_1:
	.zero	1
	.zero	1
	.zero	1
	.zero	1
	.zero	1
	.zero	1
	.zero	1
	.zero	1
	.zero	1
	.zero	1
	.zero	1
	.zero	1
	.zero	1
	.zero	1
	.zero	1
	.zero	1
	.byte	0                               # 0x0
	.byte	4                               # 0x4
	.byte	8                               # 0x8
	.byte	12                              # 0xc
	.byte	1                               # 0x1
	.byte	5                               # 0x5
	.byte	9                               # 0x9
	.byte	13                              # 0xd
	.byte	2                               # 0x2
	.byte	6                               # 0x6
	.byte	10                              # 0xa
	.byte	14                              # 0xe
	.byte	3                               # 0x3
	.byte	7                               # 0x7
	.byte	11                              # 0xb
	.byte	15                              # 0xf
	.section	.text.aes.aes_hybrid.batches.process_batches_and_rest.2,"ax",@progbits
	.p2align	1
	.type	aes.aes_hybrid.batches.process_batches_and_rest.2,@function
aes.aes_hybrid.batches.process_batches_and_rest.2: # @aes.aes_hybrid.batches.process_batches_and_rest.2
# %bb.0:                                # %join.5.i.lr.ph
	addi	sp, sp, -320
	sd	ra, 312(sp)                     # 8-byte Folded Spill
	sd	s0, 304(sp)                     # 8-byte Folded Spill
	sd	s1, 296(sp)                     # 8-byte Folded Spill
	sd	s2, 288(sp)                     # 8-byte Folded Spill
	sd	s3, 280(sp)                     # 8-byte Folded Spill
	sd	s4, 272(sp)                     # 8-byte Folded Spill
	sd	s5, 264(sp)                     # 8-byte Folded Spill
	sd	s6, 256(sp)                     # 8-byte Folded Spill
	sd	s7, 248(sp)                     # 8-byte Folded Spill
	sd	s8, 240(sp)                     # 8-byte Folded Spill
	sd	s9, 232(sp)                     # 8-byte Folded Spill
	sd	s10, 224(sp)                    # 8-byte Folded Spill
	sd	s11, 216(sp)                    # 8-byte Folded Spill
	csrr	t1, vlenb
	li	t2, 3
	slli	t2, t2, 10
.Laes_BB36_1:                               # %join.5.i.lr.ph
                                        # =>This Inner Loop Header: Depth=1
	sub	sp, sp, t2
	sd	zero, 0(sp)
	sub	t1, t1, t2
	bge	t1, t2, .Laes_BB36_1
# %bb.2:                                # %join.5.i.lr.ph
	sub	sp, sp, t1
	mv	a6, a0
	li	s1, 0
	sd	a3, 40(sp)                      # 8-byte Folded Spill
	andi	a3, a3, -8
	sd	a3, 56(sp)                      # 8-byte Folded Spill
	sd	a1, 32(sp)                      # 8-byte Folded Spill
	srli	s6, a1, 3
	addi	s6, s6, -1
	sd	s6, 48(sp)                      # 8-byte Folded Spill
	sd	a2, 24(sp)                      # 8-byte Folded Spill
	addi	s4, a2, 112
.Laes_BB36_3:                               # %join.5.i
                                        # =>This Inner Loop Header: Depth=1
	addi	a3, s4, -112
	addi	a0, s4, -96
	addi	a5, s4, -80
	addi	a1, s4, -64
	addi	s0, s4, -48
	addi	a2, s4, -32
	addi	a4, s4, -16
	vsetivli	zero, 16, e8, m1, ta, ma
	vle8.v	v8, (s4)
	vle8.v	v9, (a0)
.Laes_pcrel_hi156:
	auipc	a0, %pcrel_hi(.Laes_CPI36_0)
	vle8.v	v10, (a1)
	li	s2, 85
	addi	a0, a0, %pcrel_lo(.Laes_pcrel_hi156)
	vle8.v	v16, (a0)
	li	s11, 51
	vle8.v	v11, (a3)
	vle8.v	v12, (a5)
	vle8.v	v13, (s0)
	vle8.v	v14, (a2)
	vle8.v	v15, (a4)
	vmv.v.v	v17, v16
	addi	a0, sp, 208
	vs1r.v	v16, (a0)                       # vscale x 8-byte Folded Spill
	vrgather.vv	v16, v11, v17
	vrgather.vv	v11, v9, v17
	vrgather.vv	v9, v12, v17
	vrgather.vv	v12, v10, v17
	vrgather.vv	v10, v13, v17
	vrgather.vv	v13, v14, v17
	vrgather.vv	v14, v15, v17
	vrgather.vv	v15, v8, v17
	vsrl.vi	v8, v16, 1
	vsrl.vi	v17, v9, 1
	vsrl.vi	v18, v10, 1
	vsrl.vi	v19, v14, 1
	vxor.vv	v8, v11, v8
	vxor.vv	v17, v12, v17
	vxor.vv	v18, v13, v18
	vxor.vv	v19, v15, v19
	vand.vx	v8, v8, s2
	vand.vx	v17, v17, s2
	vand.vx	v18, v18, s2
	vand.vx	v19, v19, s2
	vxor.vv	v11, v8, v11
	vadd.vv	v8, v8, v8
	vxor.vv	v12, v17, v12
	vadd.vv	v17, v17, v17
	vxor.vv	v13, v18, v13
	vadd.vv	v18, v18, v18
	vxor.vv	v15, v19, v15
	vadd.vv	v19, v19, v19
	vxor.vv	v8, v8, v16
	vxor.vv	v9, v17, v9
	vxor.vv	v10, v18, v10
	vxor.vv	v14, v19, v14
	vsrl.vi	v16, v11, 2
	vsrl.vi	v17, v13, 2
	vsrl.vi	v18, v8, 2
	vsrl.vi	v19, v10, 2
	vxor.vv	v16, v12, v16
	vxor.vv	v17, v15, v17
	vxor.vv	v18, v9, v18
	vxor.vv	v19, v14, v19
	vand.vx	v16, v16, s11
	vand.vx	v17, v17, s11
	vand.vx	v18, v18, s11
	vand.vx	v19, v19, s11
	vxor.vv	v12, v16, v12
	vsll.vi	v16, v16, 2
	vxor.vv	v15, v17, v15
	vsll.vi	v17, v17, 2
	vxor.vv	v9, v18, v9
	vsll.vi	v18, v18, 2
	vxor.vv	v14, v19, v14
	vsll.vi	v19, v19, 2
	vxor.vv	v11, v16, v11
	vxor.vv	v13, v17, v13
	vsrl.vi	v16, v12, 4
	vand.vi	v17, v15, 15
	vxor.vv	v8, v18, v8
	vxor.vv	v10, v19, v10
	vsrl.vi	v18, v11, 4
	vand.vi	v19, v13, 15
	vsrl.vi	v20, v9, 4
	vxor.vv	v16, v17, v16
	vand.vi	v17, v14, 15
	vxor.vv	v18, v19, v18
	vsrl.vi	v19, v8, 4
	vxor.vv	v17, v17, v20
	vand.vi	v20, v10, 15
	vxor.vv	v19, v20, v19
	vxor.vv	v15, v16, v15
	vsll.vi	v16, v16, 4
	vxor.vv	v12, v16, v12
	vxor.vv	v13, v18, v13
	vsll.vi	v16, v18, 4
	vxor.vv	v11, v16, v11
	addi	s3, sp, 64
	vxor.vv	v14, v17, v14
	vsll.vi	v16, v17, 4
	vxor.vv	v10, v19, v10
	vsll.vi	v17, v19, 4
	vxor.vv	v9, v16, v9
	addi	s7, sp, 112
	vse8.v	v12, (s7)
	addi	s9, sp, 144
	vse8.v	v13, (s9)
	addi	s10, sp, 160
	vse8.v	v14, (s10)
	vxor.vv	v8, v17, v8
	addi	s5, sp, 80
	vse8.v	v11, (s5)
	addi	s0, sp, 96
	vse8.v	v9, (s0)
	addi	s8, sp, 128
	vse8.v	v10, (s8)
	vse8.v	v8, (s3)
	addi	s7, sp, 176
	vse8.v	v15, (s7)
	addi	a2, sp, 64
	mv	a0, a6
	ld	a1, 48(sp)                      # 8-byte Folded Reload
	mv	s6, a6
	call	aes.aes_soft.soft.ciphers.planes.DecryptPlaneCipher.process_planes
	mv	a6, s6
	vsetivli	zero, 16, e8, m1, ta, ma
	vle8.v	v12, (s3)
	li	a0, 32
.Laes_pcrel_hi157:
	auipc	a1, %pcrel_hi(.Laes_CPI36_1)
	addi	a1, a1, %pcrel_lo(.Laes_pcrel_hi157)
	vsetvli	zero, a0, e8, m2, ta, ma
	vle8.v	v8, (a1)
	vsetivli	zero, 16, e8, m1, ta, ma
	vle8.v	v16, (s5)
	vle8.v	v13, (s0)
	addi	a1, sp, 112
	vle8.v	v17, (a1)
	vle8.v	v14, (s8)
	vle8.v	v18, (s9)
	vle8.v	v15, (s10)
	vle8.v	v19, (s7)
	vsrl.vi	v10, v12, 1
	vsrl.vi	v11, v13, 1
	vsrl.vi	v20, v14, 1
	vsrl.vi	v21, v15, 1
	vxor.vv	v10, v16, v10
	vxor.vv	v11, v17, v11
	vxor.vv	v20, v18, v20
	vxor.vv	v21, v19, v21
	vand.vx	v22, v10, s2
	vand.vx	v23, v11, s2
	vand.vx	v20, v20, s2
	vand.vx	v21, v21, s2
	csrr	a1, vlenb
	vsetvli	zero, a0, e8, m2, ta, ma
	vslidedown.vx	v10, v8, a1
	lui	a1, 1048560
	addi	s1, s1, 8
	vsetivli	zero, 16, e8, m1, ta, ma
	vxor.vv	v9, v22, v16
	vadd.vv	v11, v22, v22
	vxor.vv	v16, v23, v17
	vadd.vv	v17, v23, v23
	vxor.vv	v18, v20, v18
	vadd.vv	v20, v20, v20
	vxor.vv	v19, v21, v19
	vadd.vv	v21, v21, v21
	vxor.vv	v11, v11, v12
	vxor.vv	v12, v17, v13
	vxor.vv	v13, v20, v14
	vxor.vv	v14, v21, v15
	vsrl.vi	v15, v9, 2
	vsrl.vi	v17, v18, 2
	vsrl.vi	v20, v11, 2
	vsrl.vi	v21, v13, 2
	vxor.vv	v15, v16, v15
	vxor.vv	v17, v19, v17
	vxor.vv	v20, v12, v20
	vxor.vv	v21, v14, v21
	vand.vx	v15, v15, s11
	vand.vx	v17, v17, s11
	vand.vx	v20, v20, s11
	vand.vx	v21, v21, s11
	vxor.vv	v16, v15, v16
	vsll.vi	v15, v15, 2
	vxor.vv	v19, v17, v19
	vsll.vi	v17, v17, 2
	vxor.vv	v22, v20, v12
	vsll.vi	v12, v20, 2
	vxor.vv	v20, v21, v14
	vsll.vi	v14, v21, 2
	vxor.vv	v9, v15, v9
	vxor.vv	v15, v17, v18
	vsrl.vi	v17, v16, 4
	vand.vi	v18, v19, 15
	vxor.vv	v21, v12, v11
	vxor.vv	v23, v14, v13
	vsrl.vi	v11, v9, 4
	vand.vi	v12, v15, 15
	vxor.vv	v13, v18, v17
	vxor.vv	v11, v12, v11
	vxor.vv	v14, v13, v19
	vsll.vi	v12, v13, 4
	vxor.vv	v18, v11, v15
	vsll.vi	v11, v11, 4
	vxor.vv	v16, v12, v16
	vsetvli	a2, zero, e8, m1, ta, ma
	vrgather.vv	v13, v14, v10
	vsetivli	zero, 16, e8, m1, ta, ma
	vxor.vv	v9, v11, v9
	vsetvli	a2, zero, e8, m1, ta, ma
	vrgather.vv	v15, v16, v10
	vrgather.vv	v12, v14, v8
	vrgather.vv	v14, v16, v8
	vrgather.vv	v17, v18, v10
	vrgather.vv	v16, v18, v8
	vsetvli	zero, zero, e32, m4, ta, ma
	vmv.s.x	v0, a1
	vsetvli	zero, zero, e8, m1, ta, ma
	vrgather.vv	v11, v9, v10
	vrgather.vv	v10, v9, v8
	vsetivli	zero, 16, e8, m1, ta, ma
	vsrl.vi	v8, v22, 4
	vand.vi	v9, v20, 15
	vsrl.vi	v18, v21, 4
	vxor.vv	v8, v9, v8
	vand.vi	v9, v23, 15
	vxor.vv	v9, v9, v18
	vxor.vv	v18, v8, v20
	vsll.vi	v8, v8, 4
	vxor.vv	v19, v9, v23
	vsll.vi	v9, v9, 4
	vxor.vv	v20, v8, v22
	addi	a1, sp, 208
	vl1r.v	v22, (a1)                       # vscale x 8-byte Folded Reload
	vrgather.vv	v8, v18, v22
	vxor.vv	v9, v9, v21
	vrgather.vv	v18, v9, v22
	vsetvli	zero, a0, e8, m2, ta, ma
	vmerge.vvm	v10, v18, v10, v0
	vsetivli	zero, 16, e8, m1, ta, ma
	vrgather.vv	v18, v20, v22
	vrgather.vv	v20, v19, v22
	vsetvli	zero, a0, e8, m2, ta, ma
	vmerge.vvm	v14, v18, v14, v0
	addi	a0, s4, -112
	vse8.v	v10, (a0)
	addi	a0, s4, -80
	vse8.v	v14, (a0)
	vmerge.vvm	v10, v20, v16, v0
	addi	a0, s4, -48
	vse8.v	v10, (a0)
	vmerge.vvm	v8, v8, v12, v0
	addi	a0, s4, -16
	vse8.v	v8, (a0)
	addi	s4, s4, 128
	ld	a0, 56(sp)                      # 8-byte Folded Reload
	bltu	s1, a0, .Laes_BB36_3
# %bb.4:                                # %"aes_soft::soft::blocks::slices::process_batches_under::<#08d50db34e92a375>.exit"
	ld	a3, 40(sp)                      # 8-byte Folded Reload
	ld	a0, 56(sp)                      # 8-byte Folded Reload
	bne	a0, a3, .Laes_BB36_6
# %bb.5:                                # %join.5
	csrr	a0, vlenb
	add	sp, sp, a0
	ld	ra, 312(sp)                     # 8-byte Folded Reload
	ld	s0, 304(sp)                     # 8-byte Folded Reload
	ld	s1, 296(sp)                     # 8-byte Folded Reload
	ld	s2, 288(sp)                     # 8-byte Folded Reload
	ld	s3, 280(sp)                     # 8-byte Folded Reload
	ld	s4, 272(sp)                     # 8-byte Folded Reload
	ld	s5, 264(sp)                     # 8-byte Folded Reload
	ld	s6, 256(sp)                     # 8-byte Folded Reload
	ld	s7, 248(sp)                     # 8-byte Folded Reload
	ld	s8, 240(sp)                     # 8-byte Folded Reload
	ld	s9, 232(sp)                     # 8-byte Folded Reload
	ld	s10, 224(sp)                    # 8-byte Folded Reload
	ld	s11, 216(sp)                    # 8-byte Folded Reload
	addi	sp, sp, 320
	ret
.Laes_BB36_6:                               # %then.3
	andi	a3, a3, 7
	ld	a2, 56(sp)                      # 8-byte Folded Reload
	slli	a2, a2, 4
	ld	a0, 24(sp)                      # 8-byte Folded Reload
	add	a2, a2, a0
	mv	a0, a6
	ld	a1, 32(sp)                      # 8-byte Folded Reload
	csrr	a4, vlenb
	add	sp, sp, a4
	ld	ra, 312(sp)                     # 8-byte Folded Reload
	ld	s0, 304(sp)                     # 8-byte Folded Reload
	ld	s1, 296(sp)                     # 8-byte Folded Reload
	ld	s2, 288(sp)                     # 8-byte Folded Reload
	ld	s3, 280(sp)                     # 8-byte Folded Reload
	ld	s4, 272(sp)                     # 8-byte Folded Reload
	ld	s5, 264(sp)                     # 8-byte Folded Reload
	ld	s6, 256(sp)                     # 8-byte Folded Reload
	ld	s7, 248(sp)                     # 8-byte Folded Reload
	ld	s8, 240(sp)                     # 8-byte Folded Reload
	ld	s9, 232(sp)                     # 8-byte Folded Reload
	ld	s10, 224(sp)                    # 8-byte Folded Reload
	ld	s11, 216(sp)                    # 8-byte Folded Reload
	addi	sp, sp, 320
	tail	aes.aes_soft.soft.blocks.filled_up.process_filled_up.2
.Laes_func_end36:
	.size	aes.aes_hybrid.batches.process_batches_and_rest.2, .Laes_func_end36-aes.aes_hybrid.batches.process_batches_and_rest.2
                                        # -- End function
	.section	.text.aes.aes_soft.soft.blocks.filled_up.process_filled_up.2,"ax",@progbits
	.p2align	1                               # -- Begin function aes_soft::soft::blocks::filled_up::process_filled_up::<#0fbbf5e423d2a9b1>
	.type	aes.aes_soft.soft.blocks.filled_up.process_filled_up.2,@function
aes.aes_soft.soft.blocks.filled_up.process_filled_up.2: # @aes.aes_soft.soft.blocks.filled_up.process_filled_up.2
# %bb.0:                                # %start
	addi	sp, sp, -432
	sd	ra, 424(sp)                     # 8-byte Folded Spill
	sd	s0, 416(sp)                     # 8-byte Folded Spill
	sd	s1, 408(sp)                     # 8-byte Folded Spill
	sd	s2, 400(sp)                     # 8-byte Folded Spill
	sd	s3, 392(sp)                     # 8-byte Folded Spill
	mv	s1, a3
	mv	s0, a2
	mv	t1, a0
	addi	a6, sp, 240
	vsetivli	zero, 8, e64, m4, ta, ma
	vmv.v.i	v8, 0
	mv	s2, sp
	addi	a2, sp, 64
	vse64.v	v8, (s2)
	vse64.v	v8, (a2)
	vsetivli	zero, 2, e64, m1, ta, ma
	vmv.v.i	v8, 0
	addi	a2, sp, 224
	addi	a3, sp, 208
	addi	a5, sp, 192
	addi	a0, sp, 176
	addi	a4, sp, 160
	addi	t5, sp, 144
	addi	s3, sp, 128
	vsetivli	zero, 16, e8, m1, ta, ma
	vle8.v	v9, (s0)
	addi	t4, sp, 256
	vsetivli	zero, 2, e64, m1, ta, ma
	vse64.v	v8, (a6)
	addi	t3, sp, 272
	vse64.v	v8, (a2)
	addi	t2, sp, 288
	vse64.v	v8, (a3)
	addi	a3, sp, 304
	vse64.v	v8, (a5)
	addi	t0, sp, 320
	vse64.v	v8, (a0)
	addi	a7, sp, 336
	vse64.v	v8, (a4)
	addi	a6, sp, 352
	vsetivli	zero, 16, e8, m1, ta, ma
	vle8.v	v10, (s0)
	vsetivli	zero, 2, e64, m1, ta, ma
	vse64.v	v8, (t5)
	addi	a0, sp, 368
	srli	a1, a1, 3
	vse64.v	v8, (s3)
	vsetivli	zero, 16, e8, m1, ta, ma
	vse8.v	v9, (t4)
	vse8.v	v9, (t3)
	vse8.v	v9, (t2)
	vse8.v	v9, (a3)
	vse8.v	v9, (t0)
	vse8.v	v9, (a7)
	vse8.v	v10, (a6)
	vse8.v	v10, (a0)
	addi	a2, a1, -1
	beqz	s1, .Laes_BB37_10
# %bb.1:                                # %join.8.i
	vle8.v	v8, (s0)
	li	a0, 1
	vse8.v	v8, (t4)
	beq	s1, a0, .Laes_BB37_8
# %bb.2:                                # %join.8.i.1
	addi	a0, s0, 16
	vle8.v	v8, (a0)
	li	a0, 2
	vse8.v	v8, (t3)
	beq	s1, a0, .Laes_BB37_8
# %bb.3:                                # %join.8.i.2
	addi	a0, s0, 32
	vle8.v	v8, (a0)
	li	a0, 3
	vse8.v	v8, (t2)
	beq	s1, a0, .Laes_BB37_8
# %bb.4:                                # %join.8.i.3
	addi	a0, s0, 48
	vle8.v	v8, (a0)
	li	a0, 4
	vse8.v	v8, (a3)
	beq	s1, a0, .Laes_BB37_8
# %bb.5:                                # %join.8.i.4
	addi	a0, s0, 64
	vle8.v	v8, (a0)
	li	a0, 5
	vse8.v	v8, (t0)
	beq	s1, a0, .Laes_BB37_8
# %bb.6:                                # %join.8.i.5
	addi	a0, s0, 80
	vle8.v	v8, (a0)
	li	a0, 6
	vse8.v	v8, (a7)
	beq	s1, a0, .Laes_BB37_8
# %bb.7:                                # %join.8.i.6
	addi	a0, s0, 96
	vle8.v	v8, (a0)
	vse8.v	v8, (a6)
.Laes_BB37_8:                               # %"aes_soft::soft::blocks::filled_up::filled_up::<#3fb8a7784760496e>.exit"
	mv	a0, sp
	addi	a3, sp, 256
	mv	a1, t1
	call	aes.aes_soft.soft.ciphers.planes.process_outlined.2
	vsetivli	zero, 16, e64, m8, ta, ma
	vle64.v	v8, (s2)
	addi	a0, sp, 128
	slli	a1, s1, 4
	vse64.v	v8, (a0)
	add	a1, a1, s0
.Laes_BB37_9:                               # %join.8.i19
                                        # =>This Inner Loop Header: Depth=1
	vsetvli	zero, zero, e8, m1, ta, ma
	vle8.v	v8, (a0)
	vse8.v	v8, (s0)
	addi	s0, s0, 16
	addi	a0, a0, 16
	bne	s0, a1, .Laes_BB37_9
	j	.Laes_BB37_11
.Laes_BB37_10:                              # %"aes_soft::soft::blocks::filled_up::copy_first::<#3fb8a7784760496e>.exit.critedge"
	mv	a0, sp
	addi	a3, sp, 256
	mv	a1, t1
	call	aes.aes_soft.soft.ciphers.planes.process_outlined.2
	vsetivli	zero, 16, e64, m8, ta, ma
	vle64.v	v8, (s2)
	vse64.v	v8, (s3)
.Laes_BB37_11:                              # %"aes_soft::soft::blocks::filled_up::copy_first::<#3fb8a7784760496e>.exit"
	ld	ra, 424(sp)                     # 8-byte Folded Reload
	ld	s0, 416(sp)                     # 8-byte Folded Reload
	ld	s1, 408(sp)                     # 8-byte Folded Reload
	ld	s2, 400(sp)                     # 8-byte Folded Reload
	ld	s3, 392(sp)                     # 8-byte Folded Reload
	addi	sp, sp, 432
	ret
.Laes_func_end37:
	.size	aes.aes_soft.soft.blocks.filled_up.process_filled_up.2, .Laes_func_end37-aes.aes_soft.soft.blocks.filled_up.process_filled_up.2
                                        # -- End function
	.section	.rodata.cst8,"aM",@progbits,8
	.p2align	3, 0x0                          # -- Begin function key_wrap::wrapping::unwrap::<#bc4275ba8002e6b4>
.Laes_CPI38_0:
	.quad	-6438275382588823898            # 0xa6a6a6a6a6a6a6a6
	.section	.text.aes.key_wrap.wrapping.unwrap,"ax",@progbits
	.p2align	1
	.type	aes.key_wrap.wrapping.unwrap,@function
aes.key_wrap.wrapping.unwrap: # @aes.key_wrap.wrapping.unwrap
# %bb.0:                                # %start
	addi	sp, sp, -64
	sd	ra, 56(sp)                      # 8-byte Folded Spill
	sd	s0, 48(sp)                      # 8-byte Folded Spill
	sd	s1, 40(sp)                      # 8-byte Folded Spill
	sd	s2, 32(sp)                      # 8-byte Folded Spill
	sd	s3, 24(sp)                      # 8-byte Folded Spill
	sd	s4, 16(sp)                      # 8-byte Folded Spill
	mv	s4, a4
	mv	s3, a3
	addi	a5, a4, -2
	li	a3, 1
	slli	a4, a3, 54
	addi	a4, a4, -3
	li	s0, 0
	bltu	a4, a5, .Laes_BB38_9
# %bb.1:                                # %start
	addi	a4, s4, 1
	bne	a2, a4, .Laes_BB38_9
# %bb.2:                                # %after.1
	addi	a3, a1, 8
	addi	a4, a2, -1
	slli	a2, a4, 3
	sub	a5, s3, a3
	bgeu	a5, a2, .Laes_BB38_5
# %bb.3:                                # %loop.4.preheader.i.i.i.i.i.i.i.i
	mv	a2, s3
	beqz	a4, .Laes_BB38_6
.Laes_BB38_4:                               # %join.7.i.i.i.i.i.i.i.i
                                        # =>This Inner Loop Header: Depth=1
	lbu	a6, 0(a3)
	lbu	a7, 1(a3)
	lbu	t1, 2(a3)
	lbu	t0, 3(a3)
	lbu	s0, 4(a3)
	lbu	t2, 5(a3)
	lbu	s1, 6(a3)
	lbu	a5, 7(a3)
	addi	a4, a4, -1
	addi	a3, a3, 8
	sb	s0, 4(a2)
	sb	t2, 5(a2)
	sb	s1, 6(a2)
	sb	a5, 7(a2)
	sb	a6, 0(a2)
	sb	a7, 1(a2)
	sb	t1, 2(a2)
	sb	t0, 3(a2)
	addi	a2, a2, 8
	bnez	a4, .Laes_BB38_4
	j	.Laes_BB38_6
.Laes_BB38_5:                               # %apart.2.i.i.i.i.i.i.i.i
	mv	s2, a0
	mv	a0, s3
	mv	s0, a1
	mv	a1, a3
	la	t1, memmove
	jalr	t1
	mv	a1, s0
	mv	a0, s2
.Laes_BB38_6:                               # %"key_wrap::wrapping::unwrap_all::<#bc4275ba8002e6b4>.exit"
	lbu	a2, 1(a1)
	lbu	a3, 2(a1)
	lbu	a4, 3(a1)
	lbu	a5, 0(a1)
	slli	a2, a2, 8
	slli	a3, a3, 16
	slli	a4, a4, 24
	or	a2, a2, a5
	or	a3, a3, a4
	lbu	a4, 5(a1)
	lbu	a5, 4(a1)
	lbu	s1, 6(a1)
	lbu	a1, 7(a1)
	slli	a4, a4, 8
	or	a4, a4, a5
	slli	s1, s1, 16
	slli	a1, a1, 24
	or	a1, a1, s1
	or	a2, a2, a3
	or	a1, a1, a4
	slli	a1, a1, 32
	or	a1, a1, a2
	sd	a1, 0(sp)
	mv	a1, sp
	mv	a2, s3
	mv	a3, s4
	call	aes.key_wrap.steps.unwrap_in_place
	ld	a0, 0(sp)
.Laes_pcrel_hi158:
	auipc	a1, %pcrel_hi(.Laes_CPI38_0)
	ld	a1, %pcrel_lo(.Laes_pcrel_hi158)(a1)
	sd	a0, 0(sp)
	sd	a1, 8(sp)
.Laes_pcrel_hi159:
	auipc	a1, %pcrel_hi(.Laes_static.8)
	addi	a1, a1, %pcrel_lo(.Laes_pcrel_hi159)
	mv	a0, sp
	call	aes.aes_cipher.blocks.difference
	slli	a0, a0, 32
	srli	a0, a0, 32
	beqz	a0, .Laes_BB38_8
# %bb.7:                                # %loop.5.preheader.i
	slli	s4, s4, 3
	addi	a2, s4, -8
	mv	a0, s3
	li	a1, 0
	la	t1, memset
	jalr	t1
	add	s3, s3, s4
	li	s0, 1
	sb	zero, -4(s3)
	sb	zero, -3(s3)
	sb	zero, -2(s3)
	sb	zero, -1(s3)
	sb	zero, -8(s3)
	sb	zero, -7(s3)
	sb	zero, -6(s3)
	sb	zero, -5(s3)
	li	a3, 1
	j	.Laes_BB38_9
.Laes_BB38_8:
	li	s0, 0
	li	a3, 0
.Laes_BB38_9:                               # %return.10
	mv	a0, a3
	mv	a1, s0
	ld	ra, 56(sp)                      # 8-byte Folded Reload
	ld	s0, 48(sp)                      # 8-byte Folded Reload
	ld	s1, 40(sp)                      # 8-byte Folded Reload
	ld	s2, 32(sp)                      # 8-byte Folded Reload
	ld	s3, 24(sp)                      # 8-byte Folded Reload
	ld	s4, 16(sp)                      # 8-byte Folded Reload
	addi	sp, sp, 64
	ret
.Laes_func_end38:
	.size	aes.key_wrap.wrapping.unwrap, .Laes_func_end38-aes.key_wrap.wrapping.unwrap
                                        # -- End function
	.section	.text.aes.key_wrap.steps.unwrap_in_place,"ax",@progbits
	.p2align	1                               # -- Begin function key_wrap::steps::unwrap_in_place::<#bc4275ba8002e6b4>
	.type	aes.key_wrap.steps.unwrap_in_place,@function
aes.key_wrap.steps.unwrap_in_place: # @aes.key_wrap.steps.unwrap_in_place
# %bb.0:                                # %start
	beqz	a3, .Laes_BB39_14
# %bb.1:                                # %join.5.preheader
	addi	sp, sp, -80
	sd	ra, 72(sp)                      # 8-byte Folded Spill
	sd	s0, 64(sp)                      # 8-byte Folded Spill
	sd	s1, 56(sp)                      # 8-byte Folded Spill
	sd	s2, 48(sp)                      # 8-byte Folded Spill
	sd	s3, 40(sp)                      # 8-byte Folded Spill
	sd	s4, 32(sp)                      # 8-byte Folded Spill
	sd	s5, 24(sp)                      # 8-byte Folded Spill
	sd	s6, 16(sp)                      # 8-byte Folded Spill
	sd	s7, 8(sp)                       # 8-byte Folded Spill
	sd	s8, 0(sp)                       # 8-byte Folded Spill
	mv	s3, a3
	mv	s1, a1
	mv	s2, a0
	slli	s4, a3, 1
	slli	s6, a3, 2
	slli	s5, a3, 3
	add	s0, s6, s4
	add	s5, s5, a2
	addi	s7, s5, -8
	mv	s8, a3
.Laes_BB39_2:                               # %join.5.i
                                        # =>This Inner Loop Header: Depth=1
	lbu	a6, 0(s1)
	lbu	a7, 1(s1)
	lbu	t0, 2(s1)
	lbu	a3, 3(s1)
	srli	a4, s0, 40
	lui	a5, 16
	srli	a0, s0, 56
	srli	a1, s0, 24
	lui	a2, 4080
	addi	a5, a5, -256
	and	a4, a4, a5
	or	a0, a0, a4
	srli	a4, s0, 8
	and	a1, a1, a2
	srliw	a4, a4, 24
	slli	a4, a4, 24
	or	a1, a1, a4
	srliw	a4, s0, 24
	and	a2, a2, s0
	slli	a4, a4, 32
	slli	a2, a2, 24
	or	t1, a2, a4
	slli	a4, s0, 56
	and	a5, a5, s0
	slli	a5, a5, 40
	slli	a7, a7, 8
	slli	t0, t0, 16
	slli	a3, a3, 24
	or	t2, a1, a0
	or	a4, a4, a5
	or	a6, a7, a6
	or	a3, a3, t0
	lbu	a5, 5(s1)
	lbu	a2, 4(s1)
	lbu	a0, 6(s1)
	lbu	a1, 7(s1)
	slli	a5, a5, 8
	or	a2, a2, a5
	slli	a0, a0, 16
	slli	a1, a1, 24
	or	a0, a0, a1
	or	a1, a4, t1
	or	a3, a3, a6
	or	a0, a0, a2
	or	a1, a1, t2
	slli	a0, a0, 32
	or	a0, a0, a3
	xor	a0, a0, a1
	srli	a6, a0, 48
	srli	a7, a0, 56
	srli	a3, a0, 32
	srli	a4, a0, 40
	srli	a5, a0, 16
	srli	a1, a0, 24
	srli	a2, a0, 8
	sb	a3, 4(s1)
	sb	a4, 5(s1)
	sb	a6, 6(s1)
	sb	a7, 7(s1)
	sb	a0, 0(s1)
	sb	a2, 1(s1)
	sb	a5, 2(s1)
	sb	a1, 3(s1)
	mv	a0, s2
	mv	a1, s1
	mv	a2, s7
	call	aes.key_wrap.steps.decrypt_halves
	addi	s8, s8, -1
	addi	s0, s0, -1
	addi	s7, s7, -8
	bnez	s8, .Laes_BB39_2
# %bb.3:                                # %"key_wrap::steps::unwrap_turn::<#bc4275ba8002e6b4>.exit.loopexit"
	add	s0, s6, s3
	addi	s7, s5, -8
	mv	s8, s3
.Laes_BB39_4:                               # %join.5.i.1
                                        # =>This Inner Loop Header: Depth=1
	lbu	a6, 0(s1)
	lbu	a7, 1(s1)
	lbu	t0, 2(s1)
	lbu	a3, 3(s1)
	srli	a4, s0, 40
	lui	a5, 16
	srli	a0, s0, 56
	srli	a1, s0, 24
	lui	a2, 4080
	addi	a5, a5, -256
	and	a4, a4, a5
	or	a0, a0, a4
	srli	a4, s0, 8
	and	a1, a1, a2
	srliw	a4, a4, 24
	slli	a4, a4, 24
	or	a1, a1, a4
	srliw	a4, s0, 24
	and	a2, a2, s0
	slli	a4, a4, 32
	slli	a2, a2, 24
	or	t1, a2, a4
	slli	a4, s0, 56
	and	a5, a5, s0
	slli	a5, a5, 40
	slli	a7, a7, 8
	slli	t0, t0, 16
	slli	a3, a3, 24
	or	t2, a1, a0
	or	a4, a4, a5
	or	a6, a7, a6
	or	a3, a3, t0
	lbu	a5, 5(s1)
	lbu	a2, 4(s1)
	lbu	a0, 6(s1)
	lbu	a1, 7(s1)
	slli	a5, a5, 8
	or	a2, a2, a5
	slli	a0, a0, 16
	slli	a1, a1, 24
	or	a0, a0, a1
	or	a1, a4, t1
	or	a3, a3, a6
	or	a0, a0, a2
	or	a1, a1, t2
	slli	a0, a0, 32
	or	a0, a0, a3
	xor	a0, a0, a1
	srli	a6, a0, 48
	srli	a7, a0, 56
	srli	a3, a0, 32
	srli	a4, a0, 40
	srli	a5, a0, 16
	srli	a1, a0, 24
	srli	a2, a0, 8
	sb	a3, 4(s1)
	sb	a4, 5(s1)
	sb	a6, 6(s1)
	sb	a7, 7(s1)
	sb	a0, 0(s1)
	sb	a2, 1(s1)
	sb	a5, 2(s1)
	sb	a1, 3(s1)
	mv	a0, s2
	mv	a1, s1
	mv	a2, s7
	call	aes.key_wrap.steps.decrypt_halves
	addi	s8, s8, -1
	addi	s0, s0, -1
	addi	s7, s7, -8
	bnez	s8, .Laes_BB39_4
# %bb.5:                                # %"key_wrap::steps::unwrap_turn::<#bc4275ba8002e6b4>.exit.loopexit.1"
	addi	s7, s5, -8
	mv	s8, s3
.Laes_BB39_6:                               # %join.5.i.2
                                        # =>This Inner Loop Header: Depth=1
	lbu	a6, 0(s1)
	lbu	a7, 1(s1)
	lbu	t0, 2(s1)
	lbu	a3, 3(s1)
	srli	a4, s6, 40
	lui	a5, 16
	srli	a0, s6, 56
	srli	a1, s6, 24
	lui	a2, 4080
	addi	a5, a5, -256
	and	a4, a4, a5
	or	a0, a0, a4
	srli	a4, s6, 8
	and	a1, a1, a2
	srliw	a4, a4, 24
	slli	a4, a4, 24
	or	a1, a1, a4
	srliw	a4, s6, 24
	and	a2, s6, a2
	slli	a4, a4, 32
	slli	a2, a2, 24
	or	t1, a2, a4
	slli	a4, s6, 56
	and	a5, s6, a5
	slli	a5, a5, 40
	slli	a7, a7, 8
	slli	t0, t0, 16
	slli	a3, a3, 24
	or	t2, a1, a0
	or	a4, a4, a5
	or	a1, a7, a6
	or	a3, a3, t0
	lbu	a5, 5(s1)
	lbu	a2, 4(s1)
	lbu	a0, 6(s1)
	lbu	s0, 7(s1)
	slli	a5, a5, 8
	or	a2, a2, a5
	slli	a0, a0, 16
	slli	s0, s0, 24
	or	a0, a0, s0
	or	a4, a4, t1
	or	a1, a1, a3
	or	a0, a0, a2
	or	a2, a4, t2
	slli	a0, a0, 32
	or	a0, a0, a1
	xor	a0, a0, a2
	srli	a6, a0, 48
	srli	a2, a0, 56
	srli	a3, a0, 32
	srli	a4, a0, 40
	srli	a5, a0, 16
	srli	s0, a0, 24
	srli	a1, a0, 8
	sb	a3, 4(s1)
	sb	a4, 5(s1)
	sb	a6, 6(s1)
	sb	a2, 7(s1)
	sb	a0, 0(s1)
	sb	a1, 1(s1)
	sb	a5, 2(s1)
	sb	s0, 3(s1)
	mv	a0, s2
	mv	a1, s1
	mv	a2, s7
	call	aes.key_wrap.steps.decrypt_halves
	addi	s8, s8, -1
	addi	s6, s6, -1
	addi	s7, s7, -8
	bnez	s8, .Laes_BB39_6
# %bb.7:                                # %"key_wrap::steps::unwrap_turn::<#bc4275ba8002e6b4>.exit.loopexit.2"
	add	s0, s4, s3
	addi	s6, s5, -8
	mv	s7, s3
.Laes_BB39_8:                               # %join.5.i.3
                                        # =>This Inner Loop Header: Depth=1
	lbu	a6, 0(s1)
	lbu	a7, 1(s1)
	lbu	t0, 2(s1)
	lbu	a3, 3(s1)
	srli	a4, s0, 40
	lui	a5, 16
	srli	a0, s0, 56
	srli	a1, s0, 24
	lui	a2, 4080
	addi	a5, a5, -256
	and	a4, a4, a5
	or	a0, a0, a4
	srli	a4, s0, 8
	and	a1, a1, a2
	srliw	a4, a4, 24
	slli	a4, a4, 24
	or	a1, a1, a4
	srliw	a4, s0, 24
	and	a2, a2, s0
	slli	a4, a4, 32
	slli	a2, a2, 24
	or	t1, a2, a4
	slli	a4, s0, 56
	and	a5, a5, s0
	slli	a5, a5, 40
	slli	a7, a7, 8
	slli	t0, t0, 16
	slli	a3, a3, 24
	or	t2, a1, a0
	or	a4, a4, a5
	or	a6, a7, a6
	or	a3, a3, t0
	lbu	a5, 5(s1)
	lbu	a2, 4(s1)
	lbu	a0, 6(s1)
	lbu	a1, 7(s1)
	slli	a5, a5, 8
	or	a2, a2, a5
	slli	a0, a0, 16
	slli	a1, a1, 24
	or	a0, a0, a1
	or	a1, a4, t1
	or	a3, a3, a6
	or	a0, a0, a2
	or	a1, a1, t2
	slli	a0, a0, 32
	or	a0, a0, a3
	xor	a0, a0, a1
	srli	a6, a0, 48
	srli	a7, a0, 56
	srli	a3, a0, 32
	srli	a4, a0, 40
	srli	a5, a0, 16
	srli	a1, a0, 24
	srli	a2, a0, 8
	sb	a3, 4(s1)
	sb	a4, 5(s1)
	sb	a6, 6(s1)
	sb	a7, 7(s1)
	sb	a0, 0(s1)
	sb	a2, 1(s1)
	sb	a5, 2(s1)
	sb	a1, 3(s1)
	mv	a0, s2
	mv	a1, s1
	mv	a2, s6
	call	aes.key_wrap.steps.decrypt_halves
	addi	s7, s7, -1
	addi	s0, s0, -1
	addi	s6, s6, -8
	bnez	s7, .Laes_BB39_8
# %bb.9:                                # %"key_wrap::steps::unwrap_turn::<#bc4275ba8002e6b4>.exit.loopexit.3"
	addi	s6, s5, -8
	mv	s7, s3
.Laes_BB39_10:                              # %join.5.i.4
                                        # =>This Inner Loop Header: Depth=1
	lbu	a6, 0(s1)
	lbu	a7, 1(s1)
	lbu	t0, 2(s1)
	lbu	a3, 3(s1)
	srli	a4, s4, 40
	lui	a5, 16
	srli	a0, s4, 56
	srli	a1, s4, 24
	lui	a2, 4080
	addi	a5, a5, -256
	and	a4, a4, a5
	or	a0, a0, a4
	srli	a4, s4, 8
	and	a1, a1, a2
	srliw	a4, a4, 24
	slli	a4, a4, 24
	or	a1, a1, a4
	srliw	a4, s4, 24
	and	a2, s4, a2
	slli	a4, a4, 32
	slli	a2, a2, 24
	or	t1, a2, a4
	slli	a4, s4, 56
	and	a5, s4, a5
	slli	a5, a5, 40
	slli	a7, a7, 8
	slli	t0, t0, 16
	slli	a3, a3, 24
	or	t2, a1, a0
	or	a4, a4, a5
	or	a1, a7, a6
	or	a3, a3, t0
	lbu	a5, 5(s1)
	lbu	a2, 4(s1)
	lbu	a0, 6(s1)
	lbu	s0, 7(s1)
	slli	a5, a5, 8
	or	a2, a2, a5
	slli	a0, a0, 16
	slli	s0, s0, 24
	or	a0, a0, s0
	or	a4, a4, t1
	or	a1, a1, a3
	or	a0, a0, a2
	or	a2, a4, t2
	slli	a0, a0, 32
	or	a0, a0, a1
	xor	a0, a0, a2
	srli	a6, a0, 48
	srli	a2, a0, 56
	srli	a3, a0, 32
	srli	a4, a0, 40
	srli	a5, a0, 16
	srli	s0, a0, 24
	srli	a1, a0, 8
	sb	a3, 4(s1)
	sb	a4, 5(s1)
	sb	a6, 6(s1)
	sb	a2, 7(s1)
	sb	a0, 0(s1)
	sb	a1, 1(s1)
	sb	a5, 2(s1)
	sb	s0, 3(s1)
	mv	a0, s2
	mv	a1, s1
	mv	a2, s6
	call	aes.key_wrap.steps.decrypt_halves
	addi	s7, s7, -1
	addi	s4, s4, -1
	addi	s6, s6, -8
	bnez	s7, .Laes_BB39_10
# %bb.11:                               # %join.5.i.5.preheader
	addi	s5, s5, -8
.Laes_BB39_12:                              # %join.5.i.5
                                        # =>This Inner Loop Header: Depth=1
	lbu	a6, 0(s1)
	lbu	a7, 1(s1)
	lbu	t0, 2(s1)
	lbu	a3, 3(s1)
	srli	a4, s3, 40
	lui	a5, 16
	srli	a0, s3, 56
	srli	a1, s3, 24
	lui	a2, 4080
	addi	a5, a5, -256
	and	a4, a4, a5
	or	a0, a0, a4
	srli	a4, s3, 8
	and	a1, a1, a2
	srliw	a4, a4, 24
	slli	a4, a4, 24
	or	a1, a1, a4
	srliw	a4, s3, 24
	and	a2, s3, a2
	slli	a4, a4, 32
	slli	a2, a2, 24
	or	t1, a2, a4
	slli	a4, s3, 56
	and	a5, s3, a5
	slli	a5, a5, 40
	slli	a7, a7, 8
	slli	t0, t0, 16
	slli	a3, a3, 24
	or	t2, a1, a0
	or	a4, a4, a5
	or	a1, a7, a6
	or	a3, a3, t0
	lbu	a5, 5(s1)
	lbu	a2, 4(s1)
	lbu	a0, 6(s1)
	lbu	s0, 7(s1)
	slli	a5, a5, 8
	or	a2, a2, a5
	slli	a0, a0, 16
	slli	s0, s0, 24
	or	a0, a0, s0
	or	a4, a4, t1
	or	a1, a1, a3
	or	a0, a0, a2
	or	a2, a4, t2
	slli	a0, a0, 32
	or	a0, a0, a1
	xor	a0, a0, a2
	srli	a6, a0, 48
	srli	a2, a0, 56
	srli	a3, a0, 32
	srli	a4, a0, 40
	srli	a5, a0, 16
	srli	s0, a0, 24
	srli	a1, a0, 8
	sb	a3, 4(s1)
	sb	a4, 5(s1)
	sb	a6, 6(s1)
	sb	a2, 7(s1)
	sb	a0, 0(s1)
	sb	a1, 1(s1)
	sb	a5, 2(s1)
	sb	s0, 3(s1)
	mv	a0, s2
	mv	a1, s1
	mv	a2, s5
	call	aes.key_wrap.steps.decrypt_halves
	addi	s3, s3, -1
	addi	s5, s5, -8
	bnez	s3, .Laes_BB39_12
# %bb.13:
	ld	ra, 72(sp)                      # 8-byte Folded Reload
	ld	s0, 64(sp)                      # 8-byte Folded Reload
	ld	s1, 56(sp)                      # 8-byte Folded Reload
	ld	s2, 48(sp)                      # 8-byte Folded Reload
	ld	s3, 40(sp)                      # 8-byte Folded Reload
	ld	s4, 32(sp)                      # 8-byte Folded Reload
	ld	s5, 24(sp)                      # 8-byte Folded Reload
	ld	s6, 16(sp)                      # 8-byte Folded Reload
	ld	s7, 8(sp)                       # 8-byte Folded Reload
	ld	s8, 0(sp)                       # 8-byte Folded Reload
	addi	sp, sp, 80
.Laes_BB39_14:                              # %after.1
	ret
.Laes_func_end39:
	.size	aes.key_wrap.steps.unwrap_in_place, .Laes_func_end39-aes.key_wrap.steps.unwrap_in_place
                                        # -- End function
	.section	.rodata.cst16,"aM",@progbits,16
	.p2align	4, 0x0                          # -- Begin function key_wrap::steps::decrypt_halves::<#bc4275ba8002e6b4>
.Laes_CPI40_0:
	.byte	0                               # 0x0
	.byte	181                             # 0xb5
	.byte	220                             # 0xdc
	.byte	105                             # 0x69
	.byte	219                             # 0xdb
	.byte	110                             # 0x6e
	.byte	7                               # 0x7
	.byte	178                             # 0xb2
	.byte	20                              # 0x14
	.byte	161                             # 0xa1
	.byte	200                             # 0xc8
	.byte	125                             # 0x7d
	.byte	207                             # 0xcf
	.byte	122                             # 0x7a
	.byte	19                              # 0x13
	.byte	166                             # 0xa6
.Laes_CPI40_1:
	.byte	0                               # 0x0
	.byte	167                             # 0xa7
	.byte	168                             # 0xa8
	.byte	15                              # 0xf
	.byte	237                             # 0xed
	.byte	74                              # 0x4a
	.byte	69                              # 0x45
	.byte	226                             # 0xe2
	.byte	209                             # 0xd1
	.byte	118                             # 0x76
	.byte	121                             # 0x79
	.byte	222                             # 0xde
	.byte	60                              # 0x3c
	.byte	155                             # 0x9b
	.byte	148                             # 0x94
	.byte	51                              # 0x33
.Laes_CPI40_2:
	.byte	128                             # 0x80
	.byte	2                               # 0x2
	.byte	1                               # 0x1
	.byte	15                              # 0xf
	.byte	9                               # 0x9
	.byte	5                               # 0x5
	.byte	14                              # 0xe
	.byte	12                              # 0xc
	.byte	13                              # 0xd
	.byte	4                               # 0x4
	.byte	11                              # 0xb
	.byte	10                              # 0xa
	.byte	7                               # 0x7
	.byte	8                               # 0x8
	.byte	6                               # 0x6
	.byte	3                               # 0x3
.Laes_CPI40_3:
	.byte	128                             # 0x80
	.byte	1                               # 0x1
	.byte	9                               # 0x9
	.byte	14                              # 0xe
	.byte	13                              # 0xd
	.byte	11                              # 0xb
	.byte	7                               # 0x7
	.byte	6                               # 0x6
	.byte	15                              # 0xf
	.byte	2                               # 0x2
	.byte	12                              # 0xc
	.byte	5                               # 0x5
	.byte	10                              # 0xa
	.byte	4                               # 0x4
	.byte	3                               # 0x3
	.byte	8                               # 0x8
.Laes_CPI40_4:
	.byte	0                               # 0x0
	.byte	41                              # 0x29
	.byte	235                             # 0xeb
	.byte	82                              # 0x52
	.byte	166                             # 0xa6
	.byte	54                              # 0x36
	.byte	185                             # 0xb9
	.byte	144                             # 0x90
	.byte	123                             # 0x7b
	.byte	221                             # 0xdd
	.byte	143                             # 0x8f
	.byte	100                             # 0x64
	.byte	31                              # 0x1f
	.byte	77                              # 0x4d
	.byte	244                             # 0xf4
	.byte	194                             # 0xc2
.Laes_CPI40_5:
	.byte	0                               # 0x0
	.byte	5                               # 0x5
	.byte	253                             # 0xfd
	.byte	152                             # 0x98
	.byte	223                             # 0xdf
	.byte	191                             # 0xbf
	.byte	101                             # 0x65
	.byte	96                              # 0x60
	.byte	157                             # 0x9d
	.byte	66                              # 0x42
	.byte	218                             # 0xda
	.byte	39                              # 0x27
	.byte	186                             # 0xba
	.byte	34                              # 0x22
	.byte	71                              # 0x47
	.byte	248                             # 0xf8
.Laes_CPI40_6:
	.byte	0                               # 0x0
	.byte	91                              # 0x5b
	.byte	164                             # 0xa4
	.byte	122                             # 0x7a
	.byte	207                             # 0xcf
	.byte	74                              # 0x4a
	.byte	222                             # 0xde
	.byte	133                             # 0x85
	.byte	33                              # 0x21
	.byte	238                             # 0xee
	.byte	148                             # 0x94
	.byte	48                              # 0x30
	.byte	17                              # 0x11
	.byte	107                             # 0x6b
	.byte	181                             # 0xb5
	.byte	255                             # 0xff
.Laes_CPI40_7:
	.byte	0                               # 0x0
	.byte	118                             # 0x76
	.byte	62                              # 0x3e
	.byte	158                             # 0x9e
	.byte	30                              # 0x1e
	.byte	200                             # 0xc8
	.byte	160                             # 0xa0
	.byte	214                             # 0xd6
	.byte	232                             # 0xe8
	.byte	246                             # 0xf6
	.byte	104                             # 0x68
	.byte	86                              # 0x56
	.byte	190                             # 0xbe
	.byte	32                              # 0x20
	.byte	128                             # 0x80
	.byte	72                              # 0x48
.Laes_CPI40_8:
	.byte	0                               # 0x0
	.byte	28                              # 0x1c
	.byte	68                              # 0x44
	.byte	88                              # 0x58
	.byte	151                             # 0x97
	.byte	139                             # 0x8b
	.byte	211                             # 0xd3
	.byte	207                             # 0xcf
	.byte	138                             # 0x8a
	.byte	150                             # 0x96
	.byte	206                             # 0xce
	.byte	210                             # 0xd2
	.byte	29                              # 0x1d
	.byte	1                               # 0x1
	.byte	89                              # 0x59
	.byte	69                              # 0x45
.Laes_CPI40_9:
	.byte	0                               # 0x0
	.byte	48                              # 0x30
	.byte	38                              # 0x26
	.byte	22                              # 0x16
	.byte	183                             # 0xb7
	.byte	135                             # 0x87
	.byte	145                             # 0x91
	.byte	161                             # 0xa1
	.byte	65                              # 0x41
	.byte	113                             # 0x71
	.byte	103                             # 0x67
	.byte	87                              # 0x57
	.byte	246                             # 0xf6
	.byte	198                             # 0xc6
	.byte	208                             # 0xd0
	.byte	224                             # 0xe0
.Laes_CPI40_10:
	.byte	0                               # 0x0
	.byte	59                              # 0x3b
	.byte	228                             # 0xe4
	.byte	200                             # 0xc8
	.byte	3                               # 0x3
	.byte	20                              # 0x14
	.byte	44                              # 0x2c
	.byte	23                              # 0x17
	.byte	243                             # 0xf3
	.byte	240                             # 0xf0
	.byte	56                              # 0x38
	.byte	220                             # 0xdc
	.byte	47                              # 0x2f
	.byte	231                             # 0xe7
	.byte	203                             # 0xcb
	.byte	223                             # 0xdf
.Laes_CPI40_11:
	.byte	0                               # 0x0
	.byte	36                              # 0x24
	.byte	145                             # 0x91
	.byte	25                              # 0x19
	.byte	35                              # 0x23
	.byte	143                             # 0x8f
	.byte	136                             # 0x88
	.byte	172                             # 0xac
	.byte	61                              # 0x3d
	.byte	30                              # 0x1e
	.byte	7                               # 0x7
	.byte	150                             # 0x96
	.byte	171                             # 0xab
	.byte	178                             # 0xb2
	.byte	58                              # 0x3a
	.byte	181                             # 0xb5
	.section	.text.aes.key_wrap.steps.decrypt_halves,"ax",@progbits
	.p2align	1
	.type	aes.key_wrap.steps.decrypt_halves,@function
aes.key_wrap.steps.decrypt_halves: # @aes.key_wrap.steps.decrypt_halves
# %bb.0:                                # %start
	addi	sp, sp, -80
	sd	ra, 72(sp)                      # 8-byte Folded Spill
	sd	s0, 64(sp)                      # 8-byte Folded Spill
	sd	s1, 56(sp)                      # 8-byte Folded Spill
	sd	s2, 48(sp)                      # 8-byte Folded Spill
	sd	s3, 40(sp)                      # 8-byte Folded Spill
	sd	s4, 32(sp)                      # 8-byte Folded Spill
	sd	s5, 24(sp)                      # 8-byte Folded Spill
	sd	s6, 16(sp)                      # 8-byte Folded Spill
	lbu	a7, 0(a1)
	lbu	t0, 1(a1)
	lbu	t2, 2(a1)
	lbu	t4, 3(a1)
	lbu	a6, 4(a1)
	lbu	t1, 5(a1)
	lbu	t3, 6(a1)
	lbu	t6, 7(a1)
	lbu	t5, 0(a2)
	lbu	s2, 1(a2)
	lbu	s3, 2(a2)
	lbu	s4, 3(a2)
.Laes_pcrel_hi160:
	auipc	s0, %pcrel_hi(.Laes_CPI40_0)
	addi	s0, s0, %pcrel_lo(.Laes_pcrel_hi160)
	vsetivli	zero, 16, e8, m1, ta, ma
	vle8.v	v8, (s0)
	slli	t0, t0, 8
	slli	t2, t2, 16
	slli	t4, t4, 24
	or	a7, t0, a7
	or	t0, t4, t2
	lbu	t4, 4(a2)
	lbu	s5, 5(a2)
	lbu	s6, 6(a2)
	lbu	s0, 7(a2)
	slli	t1, t1, 8
	slli	t3, t3, 16
	slli	t6, t6, 24
	slli	s2, s2, 8
	slli	s3, s3, 16
	slli	s4, s4, 24
	or	a6, t1, a6
	or	t2, t6, t3
	or	t1, s2, t5
	or	t3, s4, s3
	lbu	a5, 16(a0)
	lbu	s1, 17(a0)
	lbu	a3, 18(a0)
	lbu	a4, 19(a0)
	slli	s5, s5, 8
	slli	s6, s6, 16
	slli	s0, s0, 24
	slli	s1, s1, 8
	slli	a3, a3, 16
	slli	a4, a4, 24
	or	t4, s5, t4
	or	t6, s0, s6
	or	t5, s1, a5
	or	s2, a4, a3
	lbu	a4, 21(a0)
	lbu	s1, 20(a0)
	lbu	a5, 22(a0)
	lbu	s0, 23(a0)
	slli	a4, a4, 8
	or	s3, a4, s1
	slli	a5, a5, 16
	slli	s0, s0, 24
	or	a5, a5, s0
	or	s1, t0, a7
	or	s0, t2, a6
	or	a3, t3, t1
	or	a4, t6, t4
	or	a6, s2, t5
	or	a5, a5, s3
	slli	s0, s0, 32
	slli	a4, a4, 32
	or	s0, s0, s1
	or	a3, a3, a4
	lbu	t0, 24(a0)
	lbu	s1, 25(a0)
	lbu	a4, 26(a0)
	lbu	t1, 27(a0)
	slli	a5, a5, 32
	or	a7, a5, a6
	mv	a6, sp
	sd	s0, 0(sp)
	sd	a3, 8(sp)
.Laes_pcrel_hi161:
	auipc	a3, %pcrel_hi(.Laes_CPI40_1)
	addi	a3, a3, %pcrel_lo(.Laes_pcrel_hi161)
	vle8.v	v9, (a7)
	vle8.v	v10, (a6)
	vle8.v	v12, (a3)
.Laes_pcrel_hi162:
	auipc	a3, %pcrel_hi(.Laes_CPI40_2)
	addi	a3, a3, %pcrel_lo(.Laes_pcrel_hi162)
	vxor.vv	v9, v9, v10
	vand.vi	v10, v9, 15
	vrgather.vv	v13, v8, v10
	vle8.v	v11, (a3)
.Laes_pcrel_hi163:
	auipc	a3, %pcrel_hi(.Laes_CPI40_3)
	addi	a3, a3, %pcrel_lo(.Laes_pcrel_hi163)
	vsrl.vi	v8, v9, 4
	vrgather.vv	v9, v12, v8
	vle8.v	v10, (a3)
	slli	s1, s1, 8
	slli	a4, a4, 16
	slli	t1, t1, 24
	or	a3, s1, t0
	or	a4, t1, a4
	lbu	a5, 29(a0)
	lbu	s1, 28(a0)
	lbu	s0, 30(a0)
	lbu	a0, 31(a0)
	slli	a5, a5, 8
	or	a5, a5, s1
	slli	s0, s0, 16
	slli	a0, a0, 24
	or	a0, a0, s0
	or	a3, a3, a4
	or	a0, a0, a5
	slli	a0, a0, 32
	or	a3, a3, a0
	addi	t0, a3, -1
	li	a4, 2
	vxor.vv	v8, v9, v13
	bltu	t0, a4, .Laes_BB40_3
# %bb.1:                                # %join.5.i.i.lr.ph
.Laes_pcrel_hi164:
	auipc	a4, %pcrel_hi(.Laes_CPI40_4)
.Laes_pcrel_hi165:
	auipc	a5, %pcrel_hi(.Laes_CPI40_5)
	addi	a4, a4, %pcrel_lo(.Laes_pcrel_hi164)
	vle8.v	v12, (a4)
.Laes_pcrel_hi166:
	auipc	a4, %pcrel_hi(.Laes_CPI40_6)
	addi	a5, a5, %pcrel_lo(.Laes_pcrel_hi165)
	vle8.v	v13, (a5)
.Laes_pcrel_hi167:
	auipc	a5, %pcrel_hi(.Laes_CPI40_7)
	addi	a4, a4, %pcrel_lo(.Laes_pcrel_hi166)
	vle8.v	v14, (a4)
.Laes_pcrel_hi168:
	auipc	a4, %pcrel_hi(.Laes_CPI40_8)
	addi	a5, a5, %pcrel_lo(.Laes_pcrel_hi167)
	vle8.v	v15, (a5)
.Laes_pcrel_hi169:
	auipc	a5, %pcrel_hi(.Laes_CPI40_9)
	addi	a4, a4, %pcrel_lo(.Laes_pcrel_hi168)
	addi	a5, a5, %pcrel_lo(.Laes_pcrel_hi169)
	vle8.v	v16, (a4)
	vle8.v	v17, (a5)
	addi	t1, a7, 16
	addi	a3, a3, -2
	li	a4, 48
.Laes_BB40_2:                               # %join.5.i.i
                                        # =>This Inner Loop Header: Depth=1
	andi	s1, a4, 48
.Laes_pcrel_hi170:
	auipc	s0, %pcrel_hi(.Laes_static.6)
.Laes_pcrel_hi171:
	auipc	a0, %pcrel_hi(.Laes_static.4)
.Laes_pcrel_hi172:
	auipc	a5, %pcrel_hi(.Laes_static.5)
	addi	s0, s0, %pcrel_lo(.Laes_pcrel_hi170)
	addi	a0, a0, %pcrel_lo(.Laes_pcrel_hi171)
	addi	a5, a5, %pcrel_lo(.Laes_pcrel_hi172)
	add	s0, s0, s1
	add	a0, a0, s1
	add	a5, a5, s1
	vle8.v	v18, (s0)
	vsrl.vi	v9, v8, 4
	vand.vi	v8, v8, 15
	vxor.vv	v19, v9, v8
	vrgather.vv	v20, v11, v8
	vrgather.vv	v8, v10, v9
	vrgather.vv	v21, v10, v19
	vxor.vv	v8, v8, v20
	vxor.vv	v20, v21, v20
	vmsle.vi	v0, v8, -1
	vrgather.vv	v21, v10, v8
	vmerge.vim	v8, v21, 0, v0
	vmsle.vi	v0, v20, -1
	vrgather.vv	v21, v10, v20
	vmerge.vim	v20, v21, 0, v0
	vxor.vv	v19, v8, v19
	vmsle.vi	v8, v8, -1
	vxor.vv	v21, v20, v9
	vrgather.vv	v22, v12, v19
	vmsle.vi	v9, v20, -1
	vrgather.vv	v20, v13, v21
	vmv1r.v	v0, v9
	vmerge.vim	v20, v20, 0, v0
	vxor.vv	v22, v20, v22
	vmv1r.v	v0, v8
	vmerge.vvm	v20, v22, v20, v0
	vle8.v	v22, (t1)
	addi	t1, t1, 16
	addi	a3, a3, -1
	vle8.v	v23, (a0)
	vrgather.vv	v24, v15, v21
	vmv1r.v	v0, v9
	vmerge.vim	v9, v24, 0, v0
	vle8.v	v21, (a5)
	vrgather.vv	v24, v14, v19
	vxor.vv	v19, v9, v24
	vmv1r.v	v0, v8
	vmerge.vvm	v9, v19, v9, v0
	vmsle.vi	v8, v23, -1
	vmsle.vi	v0, v18, -1
	vrgather.vv	v19, v9, v18
	vxor.vv	v9, v20, v19
	vmerge.vvm	v9, v9, v20, v0
	vand.vi	v18, v9, 15
	vsrl.vi	v19, v9, 4
	vrgather.vv	v20, v9, v23
	vrgather.vv	v24, v9, v21
	vrgather.vv	v9, v16, v18
	vrgather.vv	v18, v17, v19
	vxor.vv	v9, v18, v9
	vxor.vv	v18, v9, v20
	vmv1r.v	v0, v8
	vmerge.vvm	v18, v18, v9, v0
	vmsle.vi	v9, v21, -1
	vrgather.vv	v19, v18, v23
	vxor.vv	v19, v22, v19
	vmerge.vvm	v8, v19, v22, v0
	vxor.vv	v19, v8, v24
	vmv1r.v	v0, v9
	vmerge.vvm	v8, v19, v8, v0
	vxor.vv	v8, v8, v18
	addi	a4, a4, 48
	bnez	a3, .Laes_BB40_2
.Laes_BB40_3:                               # %"aes_permute::blocks::process_block::<#d2d6b19aefc59415>.exit"
	slli	a0, t0, 4
	vsrl.vi	v9, v8, 4
	vand.vi	v8, v8, 15
.Laes_pcrel_hi173:
	auipc	a3, %pcrel_hi(.Laes_CPI40_10)
.Laes_pcrel_hi174:
	auipc	a4, %pcrel_hi(.Laes_CPI40_11)
	slli	t0, t0, 5
.Laes_pcrel_hi175:
	auipc	a5, %pcrel_hi(.Laes_static.3)
	add	a7, a7, a0
	vxor.vv	v12, v9, v8
	vrgather.vv	v13, v11, v8
	vrgather.vv	v8, v10, v9
	addi	a3, a3, %pcrel_lo(.Laes_pcrel_hi173)
	addi	a4, a4, %pcrel_lo(.Laes_pcrel_hi174)
	add	a0, a0, t0
	addi	a5, a5, %pcrel_lo(.Laes_pcrel_hi175)
	vle8.v	v11, (a7)
	vrgather.vv	v14, v10, v12
	vxor.vv	v8, v8, v13
	vxor.vv	v13, v14, v13
	vmsle.vi	v0, v8, -1
	vrgather.vv	v14, v10, v8
	vmerge.vim	v8, v14, 0, v0
	vrgather.vv	v14, v10, v13
	vmsle.vi	v0, v13, -1
	vle8.v	v10, (a3)
	vmerge.vim	v13, v14, 0, v0
	vle8.v	v14, (a4)
	andi	a0, a0, 48
	add	a0, a0, a5
	vxor.vv	v12, v8, v12
	vrgather.vv	v15, v10, v12
	vle8.v	v10, (a0)
	vxor.vv	v9, v13, v9
	vmsle.vi	v0, v13, -1
	vrgather.vv	v12, v14, v9
	vmerge.vim	v9, v12, 0, v0
	vmsle.vi	v0, v8, -1
	vxor.vv	v8, v9, v15
	vmerge.vvm	v8, v8, v9, v0
	vmsle.vi	v0, v10, -1
	vrgather.vv	v9, v8, v10
	vxor.vv	v8, v11, v9
	vmerge.vvm	v8, v8, v11, v0
	vse8.v	v8, (a6)
	ld	a0, 0(sp)
	ld	a3, 8(sp)
	srli	a6, a0, 56
	srli	t0, a0, 48
	srli	s1, a0, 40
	srli	s0, a0, 32
	srli	a7, a0, 24
	srli	t3, a0, 16
	srli	a5, a0, 8
	srli	t1, a3, 48
	srli	t2, a3, 56
	srli	t4, a3, 32
	srli	a4, a3, 40
	sb	s0, 4(a1)
	sb	s1, 5(a1)
	sb	t0, 6(a1)
	sb	a6, 7(a1)
	srli	s1, a3, 16
	sb	a0, 0(a1)
	sb	a5, 1(a1)
	sb	t3, 2(a1)
	sb	a7, 3(a1)
	srli	a0, a3, 24
	srli	a1, a3, 8
	sb	t4, 4(a2)
	sb	a4, 5(a2)
	sb	t1, 6(a2)
	sb	t2, 7(a2)
	sb	a3, 0(a2)
	sb	a1, 1(a2)
	sb	s1, 2(a2)
	sb	a0, 3(a2)
	mv	a0, sp
	call	aes.aes_cipher.zeroize.elements.zeroize_elements.3
	ld	ra, 72(sp)                      # 8-byte Folded Reload
	ld	s0, 64(sp)                      # 8-byte Folded Reload
	ld	s1, 56(sp)                      # 8-byte Folded Reload
	ld	s2, 48(sp)                      # 8-byte Folded Reload
	ld	s3, 40(sp)                      # 8-byte Folded Reload
	ld	s4, 32(sp)                      # 8-byte Folded Reload
	ld	s5, 24(sp)                      # 8-byte Folded Reload
	ld	s6, 16(sp)                      # 8-byte Folded Reload
	addi	sp, sp, 80
	ret
.Laes_func_end40:
	.size	aes.key_wrap.steps.decrypt_halves, .Laes_func_end40-aes.key_wrap.steps.decrypt_halves
                                        # -- End function
	.section	.text.aes.aes_cipher.zeroize.elements.zeroize_elements.3,"ax",@progbits
	.p2align	1                               # -- Begin function aes_cipher::zeroize::elements::zeroize_elements::<#51e2d7e6a2c2e10f>
	.type	aes.aes_cipher.zeroize.elements.zeroize_elements.3,@function
aes.aes_cipher.zeroize.elements.zeroize_elements.3: # @aes.aes_cipher.zeroize.elements.zeroize_elements.3
# %bb.0:                                # %start
	addi	sp, sp, -32
	vsetivli	zero, 2, e64, m1, ta, ma
	vmv.v.i	v8, 0
	addi	a1, sp, 16
	sd	zero, 8(sp)
	vse64.v	v8, (a1)
	#APP
	#NO_APP
	fence	rw, rw
	ld	a2, 8(sp)
	fence	r, rw
	#APP
	#NO_APP
	beqz	a2, .Laes_BB41_2
# %bb.1:                                # %"aes_cipher::zeroize::observe::<#b3ccab65b2a1c990>.exit8"
	vsetivli	zero, 16, e8, m1, ta, ma
	vle8.v	v8, (a1)
	vse8.v	v8, (a0)
	#APP
	#NO_APP
	addi	a0, sp, 8
	amoswap.d.aqrl	zero, zero, (a0)
	#APP
	#NO_APP
	addi	sp, sp, 32
	ret
.Laes_BB41_2:                               # %then.1.i
	vsetivli	zero, 16, e8, m1, ta, ma
	vle8.v	v8, (a1)
	lbu	a1, 0(a0)
	vse8.v	v8, (a0)
	lbu	a2, 0(a0)
	and	a2, a2, a1
	#APP
	#NO_APP
	addi	a0, sp, 8
	amoswap.d.aqrl	zero, a2, (a0)
	#APP
	#NO_APP
	addi	sp, sp, 32
	ret
.Laes_func_end41:
	.size	aes.aes_cipher.zeroize.elements.zeroize_elements.3, .Laes_func_end41-aes.aes_cipher.zeroize.elements.zeroize_elements.3
                                        # -- End function
	.section	.text.aes.aes_cipher.blocks.difference,"ax",@progbits
	.p2align	1                               # -- Begin function aes_cipher::blocks::difference
	.type	aes.aes_cipher.blocks.difference,@function
aes.aes_cipher.blocks.difference:       # @aes.aes_cipher.blocks.difference
# %bb.0:                                # %start
	vsetivli	zero, 16, e8, m1, ta, ma
	vle8.v	v8, (a0)
	vle8.v	v9, (a1)
	vxor.vv	v8, v9, v8
	vredor.vs	v8, v8, v8
	vmv.x.s	a0, v8
	zext.b	a0, a0
	ret
.Laes_func_end42:
	.size	aes.aes_cipher.blocks.difference, .Laes_func_end42-aes.aes_cipher.blocks.difference
                                        # -- End function
	.section	.text.aes.key_wrap.padded.unwrap_padded,"ax",@progbits
	.p2align	1                               # -- Begin function key_wrap::padded::unwrap_padded::<#bc4275ba8002e6b4>
	.type	aes.key_wrap.padded.unwrap_padded,@function
aes.key_wrap.padded.unwrap_padded: # @aes.key_wrap.padded.unwrap_padded
# %bb.0:                                # %start
	addi	sp, sp, -80
	sd	ra, 72(sp)                      # 8-byte Folded Spill
	sd	s0, 64(sp)                      # 8-byte Folded Spill
	sd	s1, 56(sp)                      # 8-byte Folded Spill
	sd	s2, 48(sp)                      # 8-byte Folded Spill
	sd	s3, 40(sp)                      # 8-byte Folded Spill
	sd	s4, 32(sp)                      # 8-byte Folded Spill
	sd	s5, 24(sp)                      # 8-byte Folded Spill
	sd	s6, 16(sp)                      # 8-byte Folded Spill
	mv	s3, a1
	addi	s5, a5, -1
	srli	a1, s5, 29
	mv	s6, a0
	bnez	a1, .Laes_BB43_5
# %bb.1:                                # %start
	mv	s4, a5
	addi	a0, a5, 1
	bne	a3, a0, .Laes_BB43_5
# %bb.2:                                # %after.1
	mv	s2, a4
	addi	a1, a2, 8
	addi	a0, a3, -1
	slli	a3, a0, 3
	sub	a4, a4, a1
	bgeu	a4, a3, .Laes_BB43_6
# %bb.3:                                # %loop.4.preheader.i.i.i.i.i.i.i
	mv	a3, s2
	beqz	a0, .Laes_BB43_7
.Laes_BB43_4:                               # %join.7.i.i.i.i.i.i.i
                                        # =>This Inner Loop Header: Depth=1
	lbu	a6, 0(a1)
	lbu	a7, 1(a1)
	lbu	t1, 2(a1)
	lbu	t0, 3(a1)
	lbu	a4, 4(a1)
	lbu	a5, 5(a1)
	lbu	s0, 6(a1)
	lbu	s1, 7(a1)
	addi	a0, a0, -1
	addi	a1, a1, 8
	sb	a4, 4(a3)
	sb	a5, 5(a3)
	sb	s0, 6(a3)
	sb	s1, 7(a3)
	sb	a6, 0(a3)
	sb	a7, 1(a3)
	sb	t1, 2(a3)
	sb	t0, 3(a3)
	addi	a3, a3, 8
	bnez	a0, .Laes_BB43_4
	j	.Laes_BB43_7
.Laes_BB43_5:                               # %join.5
	li	a0, 1
	sb	zero, 6(s6)
	sb	zero, 7(s6)
	sb	a0, 0(s6)
	sb	zero, 1(s6)
	j	.Laes_BB43_14
.Laes_BB43_6:                               # %apart.2.i.i.i.i.i.i.i
	mv	a0, s2
	mv	s1, a2
	mv	a2, a3
	la	t1, memmove
	jalr	t1
	mv	a2, s1
.Laes_BB43_7:                               # %"key_wrap::wrapping::copy_apart.exit"
	lbu	a0, 1(a2)
	lbu	a1, 2(a2)
	lbu	a3, 3(a2)
	lbu	a4, 0(a2)
	slli	a0, a0, 8
	slli	a1, a1, 16
	slli	a3, a3, 24
	or	a0, a0, a4
	or	a1, a1, a3
	lbu	a3, 5(a2)
	lbu	a4, 4(a2)
	lbu	a5, 6(a2)
	lbu	a2, 7(a2)
	slli	a3, a3, 8
	or	a3, a3, a4
	slli	a5, a5, 16
	slli	a2, a2, 24
	or	a2, a2, a5
	or	a0, a0, a1
	or	a2, a2, a3
	slli	a2, a2, 32
	or	a0, a0, a2
	li	a1, 1
	sd	a0, 8(sp)
	bne	s4, a1, .Laes_BB43_9
# %bb.8:                                # %then.1.i
	addi	a1, sp, 8
	mv	a0, s3
	mv	a2, s2
	call	aes.key_wrap.steps.decrypt_halves
	j	.Laes_BB43_10
.Laes_BB43_9:                               # %else.2.i
	addi	a1, sp, 8
	mv	a0, s3
	mv	a2, s2
	mv	a3, s4
	call	aes.key_wrap.steps.unwrap_in_place
.Laes_BB43_10:                              # %"key_wrap::steps::unwrap_string::<#bc4275ba8002e6b4>.exit"
	lw	a0, 8(sp)
	lw	s1, 12(sp)
	mv	a1, s1
	mv	a2, s2
	mv	a3, s4
	call	aes.key_wrap.padded.difference
	beqz	a0, .Laes_BB43_16
# %bb.11:                               # %loop.5.preheader.i
	beqz	s5, .Laes_BB43_13
# %bb.12:                               # %join.8.i.preheader
	slli	a2, s4, 3
	addi	a2, a2, -8
	mv	a0, s2
	li	a1, 0
	la	t1, memset
	jalr	t1
.Laes_BB43_13:                              # %"core::slice::edits::slice+T::fill::<#1e8902aced0720be>.exit"
	slli	s5, s5, 3
	add	s2, s2, s5
	li	a0, 1
	sb	zero, 4(s2)
	sb	zero, 5(s2)
	sb	zero, 6(s2)
	sb	zero, 7(s2)
	sb	zero, 0(s2)
	sb	zero, 1(s2)
	sb	zero, 2(s2)
	sb	zero, 3(s2)
	sb	zero, 6(s6)
	sb	zero, 7(s6)
	sb	a0, 0(s6)
	sb	a0, 1(s6)
.Laes_BB43_14:                              # %common.ret
	sb	zero, 4(s6)
	sb	zero, 5(s6)
.Laes_BB43_15:                              # %common.ret
	ld	ra, 72(sp)                      # 8-byte Folded Reload
	ld	s0, 64(sp)                      # 8-byte Folded Reload
	ld	s1, 56(sp)                      # 8-byte Folded Reload
	ld	s2, 48(sp)                      # 8-byte Folded Reload
	ld	s3, 40(sp)                      # 8-byte Folded Reload
	ld	s4, 32(sp)                      # 8-byte Folded Reload
	ld	s5, 24(sp)                      # 8-byte Folded Reload
	ld	s6, 16(sp)                      # 8-byte Folded Reload
	addi	sp, sp, 80
	ret
.Laes_BB43_16:                              # %join.16
	srli	a0, s1, 24
	srli	a1, s1, 8
	srli	a2, s1, 16
	sb	a1, 6(s6)
	sb	s1, 7(s6)
	sb	zero, 0(s6)
	sb	zero, 1(s6)
	sb	a0, 4(s6)
	sb	a2, 5(s6)
	j	.Laes_BB43_15
.Laes_func_end43:
	.size	aes.key_wrap.padded.unwrap_padded, .Laes_func_end43-aes.key_wrap.padded.unwrap_padded
                                        # -- End function
	.section	.text.aes.key_wrap.padded.difference,"ax",@progbits
	.p2align	1                               # -- Begin function key_wrap::padded::difference
	.type	aes.key_wrap.padded.difference,@function
aes.key_wrap.padded.difference:         # @aes.key_wrap.padded.difference
# %bb.0:                                # %start
	addi	sp, sp, -96
	sd	ra, 88(sp)                      # 8-byte Folded Spill
	sd	s0, 80(sp)                      # 8-byte Folded Spill
	sd	s1, 72(sp)                      # 8-byte Folded Spill
	sd	s2, 64(sp)                      # 8-byte Folded Spill
	sd	s3, 56(sp)                      # 8-byte Folded Spill
	sd	s4, 48(sp)                      # 8-byte Folded Spill
	sd	s5, 40(sp)                      # 8-byte Folded Spill
	sd	s6, 32(sp)                      # 8-byte Folded Spill
	sd	s7, 24(sp)                      # 8-byte Folded Spill
	sd	s8, 16(sp)                      # 8-byte Folded Spill
	sd	s9, 8(sp)                       # 8-byte Folded Spill
	sd	s10, 0(sp)                      # 8-byte Folded Spill
	srli	a4, a0, 8
	lui	a5, 16
	srliw	s1, a0, 24
	srli	s0, a1, 8
	addi	a5, a5, -256
	and	a4, a4, a5
	or	a4, a4, s1
	srliw	s1, a1, 24
	and	s0, s0, a5
	or	s0, s0, s1
	slli	s1, a0, 24
	and	a0, a0, a5
	slli	a0, a0, 8
	or	a0, a0, s1
	and	a5, a5, a1
	slli	a1, a1, 24
	slli	a3, a3, 3
	add	a2, a2, a3
	slli	a5, a5, 8
	or	a1, a1, a5
	or	s8, a0, a4
	or	a1, a1, s0
	slli	a1, a1, 32
	srli	a1, a1, 32
	sub	s9, a3, a1
	addi	s10, a2, -8
	andi	s0, s9, 7
	li	a0, 0
	mv	a1, s0
	call	aes.key_wrap.padded.mask_below
	mv	s2, a0
	li	a0, 1
	mv	a1, s0
	call	aes.key_wrap.padded.mask_below
	mv	s3, a0
	li	a0, 2
	mv	a1, s0
	call	aes.key_wrap.padded.mask_below
	mv	s4, a0
	li	a0, 3
	mv	a1, s0
	call	aes.key_wrap.padded.mask_below
	mv	s1, a0
	li	a0, 4
	mv	a1, s0
	call	aes.key_wrap.padded.mask_below
	mv	s5, a0
	li	a0, 5
	mv	a1, s0
	call	aes.key_wrap.padded.mask_below
	mv	s6, a0
	li	a0, 6
	mv	a1, s0
	call	aes.key_wrap.padded.mask_below
	mv	s7, a0
	li	a0, 7
	mv	a1, s0
	call	aes.key_wrap.padded.mask_below
	vsetivli	zero, 8, e8, mf2, ta, mu
	vle8.v	v8, (s10)
	vmv.v.x	v9, s1
	vmv.v.x	v10, a0
	vmv.v.i	v0, 15
	lui	a0, 367210
	srli	a1, s9, 3
	vslide1down.vx	v9, v9, s4
	vslide1down.vx	v10, v10, s7
	addi	a0, a0, 1626
	vslide1down.vx	v9, v9, s3
	vslide1down.vx	v10, v10, s6
	add	a0, a0, s8
	vslide1down.vx	v9, v9, s2
	vslide1down.vx	v10, v10, s5
	slli	a0, a0, 32
	vslidedown.vi	v9, v10, 4, v0.t
	srli	a0, a0, 32
	vand.vv	v8, v9, v8
	vredor.vs	v8, v8, v8
	vmv.x.s	a2, v8
	or	a0, a0, a1
	zext.b	a1, a2
	or	a0, a0, a1
	ld	ra, 88(sp)                      # 8-byte Folded Reload
	ld	s0, 80(sp)                      # 8-byte Folded Reload
	ld	s1, 72(sp)                      # 8-byte Folded Reload
	ld	s2, 64(sp)                      # 8-byte Folded Reload
	ld	s3, 56(sp)                      # 8-byte Folded Reload
	ld	s4, 48(sp)                      # 8-byte Folded Reload
	ld	s5, 40(sp)                      # 8-byte Folded Reload
	ld	s6, 32(sp)                      # 8-byte Folded Reload
	ld	s7, 24(sp)                      # 8-byte Folded Reload
	ld	s8, 16(sp)                      # 8-byte Folded Reload
	ld	s9, 8(sp)                       # 8-byte Folded Reload
	ld	s10, 0(sp)                      # 8-byte Folded Reload
	addi	sp, sp, 96
	ret
.Laes_func_end44:
	.size	aes.key_wrap.padded.difference, .Laes_func_end44-aes.key_wrap.padded.difference
                                        # -- End function
	.section	.text.aes.key_wrap.padded.mask_below,"ax",@progbits
	.p2align	1                               # -- Begin function key_wrap::padded::mask_below
	.type	aes.key_wrap.padded.mask_below,@function
aes.key_wrap.padded.mask_below:         # @aes.key_wrap.padded.mask_below
# %bb.0:                                # %start
	sub	a0, a0, a1
	srliw	a0, a0, 24
	ret
.Laes_func_end45:
	.size	aes.key_wrap.padded.mask_below, .Laes_func_end45-aes.key_wrap.padded.mask_below
                                        # -- End function
	.section	.rodata.cst16,"aM",@progbits,16
	.p2align	4, 0x0                          # -- Begin function aes_c::single_rounds::inverse_mixed
.Laes_CPI46_0:
	.byte	0                               # 0x0
	.byte	4                               # 0x4
	.byte	8                               # 0x8
	.byte	12                              # 0xc
	.byte	1                               # 0x1
	.byte	5                               # 0x5
	.byte	9                               # 0x9
	.byte	13                              # 0xd
	.byte	2                               # 0x2
	.byte	6                               # 0x6
	.byte	10                              # 0xa
	.byte	14                              # 0xe
	.byte	3                               # 0x3
	.byte	7                               # 0x7
	.byte	11                              # 0xb
	.byte	15                              # 0xf
.Laes_CPI46_1:
	.byte	4                               # 0x4
	.byte	5                               # 0x5
	.byte	6                               # 0x6
	.byte	7                               # 0x7
	.byte	8                               # 0x8
	.byte	9                               # 0x9
	.byte	10                              # 0xa
	.byte	11                              # 0xb
	.byte	12                              # 0xc
	.byte	13                              # 0xd
	.byte	14                              # 0xe
	.byte	15                              # 0xf
	.byte	0                               # 0x0
	.byte	1                               # 0x1
	.byte	2                               # 0x2
	.byte	3                               # 0x3
.Laes_CPI46_2:
	.byte	8                               # 0x8
	.byte	9                               # 0x9
	.byte	10                              # 0xa
	.byte	11                              # 0xb
	.byte	12                              # 0xc
	.byte	13                              # 0xd
	.byte	14                              # 0xe
	.byte	15                              # 0xf
	.byte	0                               # 0x0
	.byte	1                               # 0x1
	.byte	2                               # 0x2
	.byte	3                               # 0x3
	.byte	4                               # 0x4
	.byte	5                               # 0x5
	.byte	6                               # 0x6
	.byte	7                               # 0x7
	.section	.text.aes.aes_c.single_rounds.inverse_mixed,"ax",@progbits
	.p2align	1
	.type	aes.aes_c.single_rounds.inverse_mixed,@function
aes.aes_c.single_rounds.inverse_mixed:  # @aes.aes_c.single_rounds.inverse_mixed
# %bb.0:                                # %start
	vsetivli	zero, 16, e8, m1, ta, ma
	vle8.v	v11, (a0)
.Laes_pcrel_hi176:
	auipc	a2, %pcrel_hi(.Laes_CPI46_0)
	vmv.v.i	v8, 0
	li	a1, 16
	addi	a2, a2, %pcrel_lo(.Laes_pcrel_hi176)
	vle8.v	v12, (a2)
.Laes_pcrel_hi177:
	auipc	a2, %pcrel_hi(.Laes_CPI46_1)
	addi	a2, a2, %pcrel_lo(.Laes_pcrel_hi177)
	vle8.v	v10, (a2)
.Laes_pcrel_hi178:
	auipc	a2, %pcrel_hi(.Laes_CPI46_2)
	addi	a2, a2, %pcrel_lo(.Laes_pcrel_hi178)
	vle8.v	v9, (a2)
	li	a2, 32
	vrgather.vv	v13, v11, v12
	vand.vx	v12, v13, a1
	li	a3, 64
	vand.vx	v15, v13, a2
	li	a1, -86
	vand.vx	v16, v13, a3
	li	a2, 34
	vand.vi	v11, v13, 1
	vand.vi	v14, v13, 2
	vand.vi	v17, v13, 4
	vand.vi	v18, v13, 8
	vsra.vi	v19, v13, 7
	vrsub.vi	v11, v11, 0
	vmsne.vi	v0, v14, 0
	vrgather.vv	v13, v19, v10
	vmerge.vim	v20, v8, -1, v0
	vmsne.vi	v0, v17, 0
	vrgather.vv	v14, v11, v10
	vxor.vv	v17, v13, v19
	vmerge.vim	v21, v8, -1, v0
	vmsne.vi	v0, v18, 0
	vrgather.vv	v18, v20, v10
	vxor.vv	v13, v14, v11
	vxor.vv	v11, v17, v11
	vmerge.vim	v22, v8, -1, v0
	vmsne.vi	v0, v12, 0
	vrgather.vv	v12, v21, v10
	vxor.vv	v14, v18, v20
	vxor.vv	v18, v13, v20
	vmerge.vim	v20, v8, -1, v0
	vmsne.vi	v0, v15, 0
	vrgather.vv	v15, v22, v10
	vxor.vv	v23, v12, v21
	vxor.vv	v12, v18, v17
	vxor.vv	v18, v14, v21
	vmerge.vim	v21, v8, -1, v0
	vmsne.vi	v0, v16, 0
	vrgather.vv	v16, v20, v10
	vxor.vv	v15, v15, v22
	vxor.vv	v22, v23, v22
	vmerge.vim	v8, v8, -1, v0
	vrgather.vv	v24, v21, v10
	vxor.vv	v16, v16, v20
	vxor.vv	v22, v22, v17
	vxor.vv	v20, v15, v20
	vrgather.vv	v25, v8, v10
	vxor.vv	v24, v24, v21
	vxor.vv	v20, v20, v17
	vxor.vv	v10, v16, v21
	vxor.vv	v21, v25, v8
	vxor.vv	v25, v24, v8
	vxor.vv	v17, v17, v10
	vxor.vv	v19, v21, v19
	vxor.vv	v8, v25, v15
	vxor.vv	v15, v20, v21
	vrgather.vv	v21, v17, v9
	vxor.vv	v23, v19, v23
	vxor.vv	v26, v8, v12
	vrgather.vv	v8, v15, v9
	vxor.vv	v23, v23, v11
	vrgather.vv	v27, v26, v9
	vxor.vv	v8, v25, v8
	vrgather.vv	v28, v23, v9
	vxor.vv	v8, v8, v15
	vxor.vv	v15, v28, v18
	vsrl.vi	v28, v8, 1
	vxor.vv	v15, v15, v23
	vxor.vv	v21, v21, v28
	vsrl.vi	v23, v15, 1
	vxor.vv	v21, v21, v19
	vxor.vv	v23, v27, v23
	vxor.vv	v17, v21, v17
	vxor.vv	v21, v23, v22
	vadd.vv	v17, v17, v17
	vxor.vv	v21, v21, v26
	vand.vx	v17, v17, a2
	vadd.vv	v21, v21, v21
	vand.vx	v21, v21, a2
	li	a2, -52
	vxor.vv	v16, v16, v18
	vxor.vv	v13, v25, v13
	vxor.vv	v18, v19, v25
	vxor.vv	v19, v19, v24
	vrgather.vv	v23, v13, v9
	vxor.vv	v14, v18, v14
	vxor.vv	v16, v16, v18
	vxor.vv	v18, v19, v22
	vxor.vv	v13, v13, v23
	vrgather.vv	v19, v14, v9
	vrgather.vv	v22, v16, v9
	vrgather.vv	v23, v18, v9
	vxor.vv	v9, v13, v11
	vxor.vv	v11, v20, v22
	vsrl.vi	v13, v9, 1
	vxor.vv	v11, v11, v16
	vxor.vv	v13, v19, v13
	vxor.vv	v12, v13, v12
	vsrl.vi	v13, v11, 1
	vxor.vv	v12, v12, v14
	vxor.vv	v13, v23, v13
	vadd.vv	v12, v12, v12
	vxor.vv	v10, v13, v10
	vand.vx	v12, v12, a1
	vxor.vv	v10, v10, v18
	vxor.vv	v9, v12, v9
	vadd.vv	v10, v10, v10
	vand.vx	v10, v10, a1
	vsrl.vi	v12, v9, 2
	vxor.vv	v10, v10, v11
	vxor.vv	v11, v12, v21
	vxor.vv	v11, v11, v15
	vsrl.vi	v12, v10, 2
	vsll.vi	v11, v11, 2
	vxor.vv	v12, v17, v12
	vand.vx	v11, v11, a2
	vxor.vv	v8, v12, v8
	vxor.vv	v9, v11, v9
	vsll.vi	v8, v8, 2
	vsrl.vi	v11, v9, 4
	vxor.vv	v8, v11, v8
	vxor.vv	v8, v8, v10
	vsll.vi	v8, v8, 4
	vxor.vv	v8, v8, v9
	vsetivli	zero, 4, e8, m1, ta, ma
	vslidedown.vi	v9, v8, 4
	vslidedown.vi	v10, v8, 8
	vslidedown.vi	v11, v8, 12
	vsetivli	zero, 4, e8, mf4, ta, ma
	vsseg4e8.v	v8, (a0)
	ret
.Laes_func_end46:
	.size	aes.aes_c.single_rounds.inverse_mixed, .Laes_func_end46-aes.aes_c.single_rounds.inverse_mixed
                                        # -- End function
	.section	.rodata.cst16,"aM",@progbits,16
	.p2align	4, 0x0                          # -- Begin function aes_c::single_rounds::inverse_round
.Laes_CPI47_0:
	.byte	0                               # 0x0
	.byte	4                               # 0x4
	.byte	8                               # 0x8
	.byte	12                              # 0xc
	.byte	1                               # 0x1
	.byte	5                               # 0x5
	.byte	9                               # 0x9
	.byte	13                              # 0xd
	.byte	2                               # 0x2
	.byte	6                               # 0x6
	.byte	10                              # 0xa
	.byte	14                              # 0xe
	.byte	3                               # 0x3
	.byte	7                               # 0x7
	.byte	11                              # 0xb
	.byte	15                              # 0xf
.Laes_CPI47_1:
	.byte	2                               # 0x2
	.byte	3                               # 0x3
	.byte	4                               # 0x4
	.byte	5                               # 0x5
	.byte	6                               # 0x6
	.byte	7                               # 0x7
	.byte	8                               # 0x8
	.byte	9                               # 0x9
	.byte	10                              # 0xa
	.byte	11                              # 0xb
	.byte	12                              # 0xc
	.byte	13                              # 0xd
	.byte	14                              # 0xe
	.byte	15                              # 0xf
	.byte	128                             # 0x80
	.byte	129                             # 0x81
.Laes_CPI47_2:
	.byte	1                               # 0x1
	.byte	2                               # 0x2
	.byte	3                               # 0x3
	.byte	4                               # 0x4
	.byte	5                               # 0x5
	.byte	6                               # 0x6
	.byte	7                               # 0x7
	.byte	8                               # 0x8
	.byte	9                               # 0x9
	.byte	10                              # 0xa
	.byte	11                              # 0xb
	.byte	12                              # 0xc
	.byte	13                              # 0xd
	.byte	14                              # 0xe
	.byte	15                              # 0xf
	.byte	128                             # 0x80
.Laes_CPI47_3:
	.byte	4                               # 0x4
	.byte	5                               # 0x5
	.byte	6                               # 0x6
	.byte	7                               # 0x7
	.byte	8                               # 0x8
	.byte	9                               # 0x9
	.byte	10                              # 0xa
	.byte	11                              # 0xb
	.byte	12                              # 0xc
	.byte	13                              # 0xd
	.byte	14                              # 0xe
	.byte	15                              # 0xf
	.byte	0                               # 0x0
	.byte	1                               # 0x1
	.byte	2                               # 0x2
	.byte	3                               # 0x3
.Laes_CPI47_4:
	.byte	8                               # 0x8
	.byte	9                               # 0x9
	.byte	10                              # 0xa
	.byte	11                              # 0xb
	.byte	12                              # 0xc
	.byte	13                              # 0xd
	.byte	14                              # 0xe
	.byte	15                              # 0xf
	.byte	0                               # 0x0
	.byte	1                               # 0x1
	.byte	2                               # 0x2
	.byte	3                               # 0x3
	.byte	4                               # 0x4
	.byte	5                               # 0x5
	.byte	6                               # 0x6
	.byte	7                               # 0x7
	.section	.text.aes.aes_c.single_rounds.inverse_round,"ax",@progbits
	.p2align	1
	.type	aes.aes_c.single_rounds.inverse_round,@function
aes.aes_c.single_rounds.inverse_round:  # @aes.aes_c.single_rounds.inverse_round
# %bb.0:                                # %start
	addi	sp, sp, -16
	csrr	t1, vlenb
	li	t2, 3
	slli	t2, t2, 10
.Laes_BB47_1:                               # %start
                                        # =>This Inner Loop Header: Depth=1
	sub	sp, sp, t2
	sd	zero, 0(sp)
	sub	t1, t1, t2
	bge	t1, t2, .Laes_BB47_1
# %bb.2:                                # %start
	sub	sp, sp, t1
	vsetivli	zero, 16, e8, m1, ta, ma
	vle8.v	v12, (a0)
.Laes_pcrel_hi179:
	auipc	a3, %pcrel_hi(.Laes_CPI47_0)
	vmv.v.i	v9, 0
	li	a2, 16
	addi	a3, a3, %pcrel_lo(.Laes_pcrel_hi179)
	vle8.v	v8, (a3)
	addi	a3, sp, 16
	vs1r.v	v8, (a3)                        # vscale x 8-byte Folded Spill
.Laes_pcrel_hi180:
	auipc	a3, %pcrel_hi(.Laes_CPI47_1)
	addi	a3, a3, %pcrel_lo(.Laes_pcrel_hi180)
	vle8.v	v10, (a3)
.Laes_pcrel_hi181:
	auipc	a3, %pcrel_hi(.Laes_CPI47_2)
	addi	a3, a3, %pcrel_lo(.Laes_pcrel_hi181)
	vle8.v	v11, (a3)
	li	a3, 32
	vrgather.vv	v17, v12, v8
	vand.vx	v16, v17, a2
	li	a4, 64
	vand.vx	v14, v17, a3
	lui	a2, 1
	vid.v	v13
	vmv.s.x	v12, zero
	vand.vx	v15, v17, a4
.Laes_pcrel_hi182:
	auipc	a3, %pcrel_hi(.Laes_CPI47_3)
	addi	a3, a3, %pcrel_lo(.Laes_pcrel_hi182)
	vand.vi	v18, v17, 1
	vand.vi	v19, v17, 2
	vand.vi	v20, v17, 4
	vmsne.vi	v0, v20, 0
	vand.vi	v20, v17, 8
	vmerge.vim	v21, v9, -1, v0
	vmsne.vi	v0, v20, 0
	vsra.vi	v23, v17, 7
	vmerge.vim	v27, v9, -1, v0
	vmsne.vi	v0, v16, 0
	vadd.vi	v16, v18, -1
	vmerge.vim	v25, v9, -1, v0
	vmseq.vi	v0, v19, 0
	vxor.vv	v5, v16, v27
	vmerge.vim	v19, v9, -1, v0
	vmseq.vi	v0, v14, 0
	vxor.vv	v24, v23, v25
	vxor.vv	v18, v25, v27
	vmerge.vim	v14, v9, -1, v0
	vmseq.vi	v0, v15, 0
	vxor.vv	v15, v16, v19
	vxor.vv	v20, v21, v19
	vxor.vv	v26, v18, v16
	vmerge.vim	v16, v9, -1, v0
	vxor.vv	v28, v14, v21
	vxor.vv	v7, v14, v27
	vxor.vv	v22, v18, v15
	vxor.vv	v17, v18, v20
	vxor.vv	v21, v23, v16
	vxor.vv	v29, v16, v25
	vxor.vv	v6, v16, v19
	vxor.vv	v31, v28, v23
	vxor.vv	v30, v24, v16
	vxor.vv	v25, v21, v15
	vxor.vv	v23, v7, v6
	vxor.vv	v19, v30, v27
	vxor.vv	v28, v29, v28
	vand.vv	v16, v30, v24
	vand.vv	v4, v26, v29
	vxor.vv	v7, v29, v15
	vxor.vv	v6, v6, v5
	vxor.vv	v27, v21, v5
	vand.vv	v15, v25, v28
	vand.vv	v3, v23, v22
	vor.vv	v2, v23, v22
	vand.vv	v1, v19, v17
	vand.vv	v0, v7, v31
	vxor.vv	v4, v2, v4
	vand.vv	v2, v27, v21
	vxor.vv	v0, v0, v5
	vxor.vv	v5, v27, v17
	vand.vv	v5, v5, v18
	vxor.vv	v1, v5, v1
	vxor.vv	v2, v5, v2
	vxor.vv	v5, v7, v14
	vxor.vv	v16, v20, v16
	vxor.vv	v16, v16, v27
	vxor.vv	v0, v0, v15
	vxor.vv	v15, v16, v15
	vand.vv	v16, v5, v6
	vxor.vv	v16, v3, v16
	vxor.vv	v3, v4, v1
	vxor.vv	v0, v0, v2
	vxor.vv	v1, v15, v1
	vxor.vv	v14, v16, v14
	vand.vv	v16, v1, v3
	vxor.vv	v4, v1, v0
	vxor.vv	v14, v14, v18
	vand.vv	v15, v0, v3
	vxor.vv	v14, v14, v2
	vxor.vv	v2, v16, v0
	vnot.v	v15, v15
	vxor.vv	v3, v14, v3
	vand.vv	v2, v2, v3
	vand.vv	v8, v3, v15
	vxor.vv	v15, v16, v14
	vand.vv	v15, v15, v4
	vxor.vv	v3, v15, v0
	vle8.v	v15, (a3)
.Laes_pcrel_hi183:
	auipc	a3, %pcrel_hi(.Laes_CPI47_4)
	addi	a3, a3, %pcrel_lo(.Laes_pcrel_hi183)
	vand.vv	v1, v14, v1
	vxor.vv	v2, v2, v14
	vle8.v	v14, (a3)
	lui	a3, 4080
	addi	a3, a3, 255
	slli	a3, a3, 32
	vand.vv	v1, v1, v4
	vxor.vv	v1, v16, v1
	vxor.vv	v8, v8, v16
	vsetivli	zero, 2, e64, m1, ta, ma
	vmv.v.x	v16, a3
	li	a3, -86
	addi	a2, a2, 800
	vsetivli	zero, 16, e8, m1, ta, ma
	vand.vv	v6, v3, v6
	vxor.vv	v4, v1, v4
	vxor.vv	v1, v3, v2
	vand.vv	v31, v2, v31
	vand.vv	v7, v2, v7
	vand.vv	v5, v3, v5
	vand.vv	v24, v8, v24
	vxor.vv	v2, v2, v8
	vand.vv	v30, v8, v30
	vxor.vv	v3, v4, v3
	vand.vv	v29, v4, v29
	vand.vv	v26, v4, v26
	vxor.vv	v8, v4, v8
	vsetvli	zero, zero, e16, m2, ta, ma
	vmv.s.x	v0, a2
	li	a2, 34
	vsetvli	zero, zero, e8, m1, ta, ma
	vand.vv	v28, v2, v28
	vand.vv	v25, v2, v25
	vmv1r.v	v4, v9
	vand.vv	v2, v3, v22
	vand.vv	v23, v3, v23
	vadd.vi	v22, v13, -2
	vxor.vv	v20, v27, v20
	vand.vv	v18, v1, v18
	vand.vv	v20, v1, v20
	vand.vv	v27, v8, v27
	vxor.vv	v3, v8, v1
	vand.vv	v8, v8, v21
	vmv1r.v	v21, v9
	vxor.vv	v24, v31, v24
	vxor.vv	v6, v20, v6
	vxor.vv	v20, v20, v29
	vxor.vv	v18, v18, v7
	vxor.vv	v7, v24, v7
	vxor.vv	v24, v24, v29
	vmv1r.v	v29, v9
	vand.vv	v17, v3, v17
	vand.vv	v19, v3, v19
	vmv1r.v	v3, v9
	vxor.vv	v30, v26, v30
	vxor.vv	v17, v17, v26
	vmv1r.v	v26, v9
	vxor.vv	v31, v28, v31
	vxor.vv	v28, v28, v5
	vxor.vv	v5, v23, v5
	vxor.vv	v6, v6, v23
	vxor.vv	v24, v24, v27
	vxor.vv	v27, v19, v27
	vxor.vv	v19, v19, v23
	vmv1r.v	v23, v9
	vxor.vv	v25, v8, v25
	vxor.vv	v8, v28, v8
	vxor.vv	v28, v28, v30
	vxor.vv	v30, v6, v30
	vmv1r.v	v6, v9
	vxor.vv	v20, v20, v2
	vxor.vv	v2, v7, v2
	vxor.vv	v8, v8, v7
	vmv1r.v	v7, v9
	vadd.vi	v13, v13, -1
	vmerge.vim	v1, v9, -1, v0
	vxor.vv	v18, v18, v25
	vxor.vv	v24, v24, v25
	vxor.vv	v17, v17, v20
	vxor.vv	v20, v27, v20
	vxor.vv	v25, v2, v27
	vxor.vv	v24, v24, v30
	vsetivli	zero, 14, e8, m1, tu, ma
	vrgather.vv	v4, v18, v10
	vsetivli	zero, 16, e8, m1, ta, ma
	vxor.vv	v27, v28, v20
	vxor.vv	v28, v31, v20
	vxor.vv	v20, v5, v20
	vxor.vv	v25, v25, v30
	vxor.vv	v19, v19, v17
	vxor.vv	v8, v8, v17
	vxor.vv	v17, v18, v4
	vsetivli	zero, 14, e8, m1, tu, ma
	vrgather.vv	v6, v24, v10
	vsetivli	zero, 16, e8, m1, ta, ma
	vand.vv	v17, v17, v1
	vsetivli	zero, 14, e8, m1, tu, ma
	vrgather.vv	v21, v19, v10
	vrgather.vv	v29, v27, v10
	vrgather.vv	v3, v8, v10
	vrgather.vv	v26, v28, v10
	vrgather.vv	v23, v25, v10
	vsetivli	zero, 16, e8, m1, ta, ma
	vxor.vv	v30, v24, v6
	vsetivli	zero, 14, e8, m1, tu, ma
	vrgather.vv	v7, v20, v10
	vsetivli	zero, 16, e8, m1, ta, ma
	vrgather.vv	v10, v17, v22
	vxor.vv	v21, v19, v21
	vxor.vv	v29, v27, v29
	vxor.vv	v31, v8, v3
	vxor.vv	v26, v28, v26
	vxor.vv	v23, v25, v23
	vand.vv	v30, v30, v1
	vxor.vv	v7, v20, v7
	vsetivli	zero, 2, e8, m1, tu, ma
	vmv.v.v	v10, v9
	vsetivli	zero, 16, e8, m1, ta, ma
	vand.vv	v21, v21, v1
	vand.vv	v29, v29, v1
	vand.vv	v31, v31, v1
	vand.vv	v26, v26, v1
	vand.vv	v23, v23, v1
	vrgather.vv	v6, v30, v22
	vand.vv	v7, v7, v1
	vrgather.vv	v5, v21, v22
	vrgather.vv	v4, v29, v22
	vrgather.vv	v3, v31, v22
	vrgather.vv	v2, v26, v22
	vrgather.vv	v1, v23, v22
	vsetivli	zero, 2, e8, m1, tu, ma
	vmv.v.v	v6, v9
	vsetivli	zero, 16, e8, m1, ta, ma
	vrgather.vv	v0, v7, v22
	vxor.vv	v10, v18, v10
	vsetivli	zero, 2, e8, m1, tu, ma
	vmv.v.v	v5, v9
	vmv.v.v	v4, v9
	vmv.v.v	v3, v9
	vmv.v.v	v2, v9
	vmv.v.v	v1, v9
	vmv.v.v	v0, v9
	vsetivli	zero, 16, e8, m1, ta, ma
	vxor.vv	v9, v24, v6
	vxor.vv	v10, v10, v17
	vxor.vv	v9, v9, v30
	vxor.vv	v17, v25, v1
	vxor.vv	v18, v28, v2
	vxor.vv	v8, v8, v3
	vxor.vv	v22, v27, v4
	vxor.vv	v19, v19, v5
	vxor.vv	v20, v20, v0
	vrgather.vv	v24, v10, v11
	vxor.vv	v17, v17, v23
	vxor.vv	v18, v18, v26
	vxor.vv	v8, v8, v31
	vxor.vv	v22, v22, v29
	vxor.vv	v19, v19, v21
	vxor.vv	v20, v20, v7
	vslideup.vi	v24, v12, 15
	vrgather.vv	v21, v9, v11
	vxor.vv	v23, v10, v24
	vrgather.vv	v24, v19, v11
	vrgather.vv	v25, v22, v11
	vrgather.vv	v26, v8, v11
	vrgather.vv	v27, v18, v11
	vrgather.vv	v28, v17, v11
	vslideup.vi	v21, v12, 15
	vrgather.vv	v29, v20, v11
	vand.vv	v11, v23, v16
	vslideup.vi	v24, v12, 15
	vslideup.vi	v25, v12, 15
	vslideup.vi	v26, v12, 15
	vslideup.vi	v27, v12, 15
	vslideup.vi	v28, v12, 15
	vxor.vv	v21, v21, v9
	vslideup.vi	v29, v12, 15
	vrgather.vv	v12, v11, v13
	vxor.vv	v23, v19, v24
	vxor.vv	v24, v22, v25
	vxor.vv	v25, v8, v26
	vxor.vv	v26, v27, v18
	vxor.vv	v27, v28, v17
	vand.vv	v21, v21, v16
	vxor.vv	v28, v29, v20
	vsetvli	zero, zero, e8, m1, tu, ma
	vmv.s.x	v12, zero
	vsetvli	zero, zero, e8, m1, ta, ma
	vand.vv	v23, v23, v16
	vand.vv	v24, v24, v16
	vand.vv	v25, v25, v16
	vand.vv	v26, v26, v16
	vand.vv	v27, v27, v16
	vrgather.vv	v29, v21, v13
	vand.vv	v16, v28, v16
	vrgather.vv	v28, v23, v13
	vrgather.vv	v30, v24, v13
	vrgather.vv	v31, v25, v13
	vrgather.vv	v7, v26, v13
	vrgather.vv	v6, v27, v13
	vsetvli	zero, zero, e8, m1, tu, ma
	vmv.s.x	v29, zero
	vsetvli	zero, zero, e8, m1, ta, ma
	vrgather.vv	v5, v16, v13
	vxor.vv	v10, v10, v12
	vsetvli	zero, zero, e8, m1, tu, ma
	vmv.s.x	v28, zero
	vmv.s.x	v30, zero
	vmv.s.x	v31, zero
	vmv.s.x	v7, zero
	vmv.s.x	v6, zero
	vmv.s.x	v5, zero
	vsetvli	zero, zero, e8, m1, ta, ma
	vxor.vv	v9, v29, v9
	vxor.vv	v10, v10, v11
	vxor.vv	v11, v9, v21
	vxor.vv	v9, v6, v17
	vxor.vv	v12, v7, v18
	vxor.vv	v8, v8, v31
	vxor.vv	v13, v22, v30
	vxor.vv	v17, v19, v28
	vxor.vv	v18, v5, v20
	vrgather.vv	v19, v10, v15
	vxor.vv	v20, v9, v27
	vxor.vv	v12, v12, v26
	vxor.vv	v8, v8, v25
	vxor.vv	v13, v13, v24
	vxor.vv	v9, v17, v23
	vxor.vv	v16, v18, v16
	vrgather.vv	v17, v11, v15
	vxor.vv	v18, v19, v10
	vrgather.vv	v19, v9, v15
	vrgather.vv	v21, v13, v15
	vrgather.vv	v22, v8, v15
	vrgather.vv	v23, v12, v15
	vrgather.vv	v24, v20, v15
	vrgather.vv	v25, v16, v15
	vxor.vv	v15, v17, v11
	vxor.vv	v17, v18, v9
	vxor.vv	v19, v19, v9
	vxor.vv	v21, v21, v13
	vxor.vv	v22, v22, v8
	vxor.vv	v23, v23, v12
	vxor.vv	v24, v24, v20
	vxor.vv	v25, v25, v16
	vxor.vv	v9, v15, v16
	vxor.vv	v10, v25, v10
	vxor.vv	v16, v17, v25
	vxor.vv	v13, v19, v13
	vxor.vv	v8, v21, v8
	vxor.vv	v12, v22, v12
	vxor.vv	v17, v23, v20
	vxor.vv	v11, v24, v11
	vxor.vv	v20, v9, v24
	vxor.vv	v8, v8, v25
	vxor.vv	v12, v12, v25
	vxor.vv	v24, v9, v11
	vxor.vv	v18, v11, v18
	vxor.vv	v23, v23, v13
	vxor.vv	v19, v24, v19
	vxor.vv	v23, v23, v24
	vxor.vv	v20, v20, v8
	vrgather.vv	v24, v18, v14
	vrgather.vv	v26, v19, v14
	vrgather.vv	v27, v23, v14
	vrgather.vv	v28, v20, v14
	vxor.vv	v18, v18, v24
	vxor.vv	v18, v18, v10
	vxor.vv	v24, v12, v27
	vxor.vv	v23, v24, v23
	vsrl.vi	v24, v18, 1
	vxor.vv	v24, v26, v24
	vsrl.vi	v26, v23, 1
	vxor.vv	v24, v24, v16
	vxor.vv	v26, v28, v26
	vxor.vv	v19, v24, v19
	vxor.vv	v24, v26, v17
	vadd.vv	v19, v19, v19
	vxor.vv	v20, v24, v20
	vand.vx	v19, v19, a3
	vadd.vv	v20, v20, v20
	vand.vx	v20, v20, a3
	li	a3, -52
	vxor.vv	v21, v9, v21
	vxor.vv	v10, v21, v10
	vxor.vv	v21, v11, v22
	vxor.vv	v17, v25, v17
	vxor.vv	v16, v21, v16
	vxor.vv	v12, v12, v15
	vrgather.vv	v15, v10, v14
	vrgather.vv	v21, v17, v14
	vrgather.vv	v22, v16, v14
	vrgather.vv	v24, v12, v14
	vxor.vv	v13, v15, v13
	vxor.vv	v10, v13, v10
	vxor.vv	v11, v11, v24
	vxor.vv	v11, v11, v12
	vsrl.vi	v12, v10, 1
	vxor.vv	v12, v22, v12
	vsrl.vi	v13, v11, 1
	vxor.vv	v8, v12, v8
	vxor.vv	v12, v21, v13
	vxor.vv	v8, v8, v16
	vxor.vv	v9, v12, v9
	vadd.vv	v8, v8, v8
	vxor.vv	v9, v9, v17
	vand.vx	v8, v8, a2
	vadd.vv	v9, v9, v9
	vxor.vv	v12, v19, v18
	vand.vx	v9, v9, a2
	vxor.vv	v13, v20, v23
	vsrl.vi	v14, v12, 2
	vxor.vv	v8, v14, v8
	vsrl.vi	v14, v13, 2
	vxor.vv	v8, v8, v10
	vxor.vv	v9, v9, v14
	vsll.vi	v8, v8, 2
	vxor.vv	v9, v9, v11
	vand.vx	v8, v8, a3
	vsll.vi	v9, v9, 2
	vxor.vv	v8, v8, v12
	vsrl.vi	v10, v8, 4
	vxor.vv	v9, v10, v9
	vxor.vv	v9, v9, v13
	vle8.v	v10, (a1)
	vsll.vi	v9, v9, 4
	vxor.vv	v8, v9, v8
	addi	a1, sp, 16
	vl1r.v	v11, (a1)                       # vscale x 8-byte Folded Reload
	vrgather.vv	v9, v8, v11
	vxor.vv	v8, v10, v9
	vse8.v	v8, (a0)
	csrr	a0, vlenb
	add	sp, sp, a0
	addi	sp, sp, 16
	ret
.Laes_func_end47:
	.size	aes.aes_c.single_rounds.inverse_round, .Laes_func_end47-aes.aes_c.single_rounds.inverse_round
                                        # -- End function
	.section	.rodata.cst16,"aM",@progbits,16
	.p2align	4, 0x0                          # -- Begin function aes_c::single_rounds::inverse_rounds
.Laes_CPI48_0:
	.byte	2                               # 0x2
	.byte	3                               # 0x3
	.byte	4                               # 0x4
	.byte	5                               # 0x5
	.byte	6                               # 0x6
	.byte	7                               # 0x7
	.byte	8                               # 0x8
	.byte	9                               # 0x9
	.byte	10                              # 0xa
	.byte	11                              # 0xb
	.byte	12                              # 0xc
	.byte	13                              # 0xd
	.byte	14                              # 0xe
	.byte	15                              # 0xf
	.byte	128                             # 0x80
	.byte	129                             # 0x81
.Laes_CPI48_1:
	.byte	1                               # 0x1
	.byte	2                               # 0x2
	.byte	3                               # 0x3
	.byte	4                               # 0x4
	.byte	5                               # 0x5
	.byte	6                               # 0x6
	.byte	7                               # 0x7
	.byte	8                               # 0x8
	.byte	9                               # 0x9
	.byte	10                              # 0xa
	.byte	11                              # 0xb
	.byte	12                              # 0xc
	.byte	13                              # 0xd
	.byte	14                              # 0xe
	.byte	15                              # 0xf
	.byte	128                             # 0x80
.Laes_CPI48_2:
	.byte	4                               # 0x4
	.byte	5                               # 0x5
	.byte	6                               # 0x6
	.byte	7                               # 0x7
	.byte	8                               # 0x8
	.byte	9                               # 0x9
	.byte	10                              # 0xa
	.byte	11                              # 0xb
	.byte	12                              # 0xc
	.byte	13                              # 0xd
	.byte	14                              # 0xe
	.byte	15                              # 0xf
	.byte	0                               # 0x0
	.byte	1                               # 0x1
	.byte	2                               # 0x2
	.byte	3                               # 0x3
.Laes_CPI48_3:
	.byte	8                               # 0x8
	.byte	9                               # 0x9
	.byte	10                              # 0xa
	.byte	11                              # 0xb
	.byte	12                              # 0xc
	.byte	13                              # 0xd
	.byte	14                              # 0xe
	.byte	15                              # 0xf
	.byte	0                               # 0x0
	.byte	1                               # 0x1
	.byte	2                               # 0x2
	.byte	3                               # 0x3
	.byte	4                               # 0x4
	.byte	5                               # 0x5
	.byte	6                               # 0x6
	.byte	7                               # 0x7
.Laes_CPI48_4:
	.byte	0                               # 0x0
	.byte	4                               # 0x4
	.byte	8                               # 0x8
	.byte	12                              # 0xc
	.byte	1                               # 0x1
	.byte	5                               # 0x5
	.byte	9                               # 0x9
	.byte	13                              # 0xd
	.byte	2                               # 0x2
	.byte	6                               # 0x6
	.byte	10                              # 0xa
	.byte	14                              # 0xe
	.byte	3                               # 0x3
	.byte	7                               # 0x7
	.byte	11                              # 0xb
	.byte	15                              # 0xf
	.section	.rodata.cst32,"aM",@progbits,32
	.p2align	5, 0x0
.Laes_CPI48_5:
	.zero	1
	.zero	1
	.zero	1
	.zero	1
	.zero	1
	.zero	1
	.zero	1
	.zero	1
	.zero	1
	.zero	1
	.zero	1
	.zero	1
	.zero	1
	.zero	1
	.zero	1
	.zero	1
	.byte	0                               # 0x0
	.byte	4                               # 0x4
	.byte	8                               # 0x8
	.byte	12                              # 0xc
	.byte	1                               # 0x1
	.byte	5                               # 0x5
	.byte	9                               # 0x9
	.byte	13                              # 0xd
	.byte	2                               # 0x2
	.byte	6                               # 0x6
	.byte	10                              # 0xa
	.byte	14                              # 0xe
	.byte	3                               # 0x3
	.byte	7                               # 0x7
	.byte	11                              # 0xb
	.byte	15                              # 0xf
	.section	.text.aes.aes_c.single_rounds.inverse_rounds,"ax",@progbits
	.p2align	1
	.type	aes.aes_c.single_rounds.inverse_rounds,@function
aes.aes_c.single_rounds.inverse_rounds: # @aes.aes_c.single_rounds.inverse_rounds
# %bb.0:                                # %start
	addi	t1, a0, 16
	vsetivli	zero, 16, e8, m1, ta, ma
	vle8.v	v8, (a0)
	addi	t4, a0, 32
	addi	t0, a0, 48
	addi	t3, a0, 64
	addi	a7, a0, 80
	addi	t2, a0, 96
	addi	a6, a0, 112
.Laes_pcrel_hi188:
	auipc	a4, %pcrel_hi(.Laes_CPI48_4)
	li	t5, 85
	li	a3, 51
	vle8.v	v9, (t1)
	vle8.v	v10, (t4)
	vle8.v	v11, (t0)
	vle8.v	v12, (t3)
	addi	a4, a4, %pcrel_lo(.Laes_pcrel_hi188)
	vle8.v	v14, (a4)
	vle8.v	v13, (a7)
	vle8.v	v15, (t2)
	vle8.v	v16, (a6)
	vrgather.vv	v17, v8, v14
	vrgather.vv	v8, v9, v14
	vrgather.vv	v9, v10, v14
	vrgather.vv	v10, v11, v14
	vrgather.vv	v11, v12, v14
	vrgather.vv	v12, v13, v14
	vrgather.vv	v13, v15, v14
	vrgather.vv	v15, v16, v14
	vsrl.vi	v16, v17, 1
	vsrl.vi	v18, v9, 1
	vsrl.vi	v19, v11, 1
	vsrl.vi	v20, v13, 1
	vxor.vv	v16, v8, v16
	vxor.vv	v18, v10, v18
	vxor.vv	v19, v12, v19
	vxor.vv	v20, v15, v20
	vand.vx	v16, v16, t5
	vand.vx	v18, v18, t5
	vand.vx	v19, v19, t5
	vand.vx	v20, v20, t5
	vxor.vv	v8, v16, v8
	vadd.vv	v16, v16, v16
	vxor.vv	v10, v18, v10
	vadd.vv	v18, v18, v18
	vxor.vv	v12, v19, v12
	vadd.vv	v19, v19, v19
	vxor.vv	v15, v20, v15
	vadd.vv	v20, v20, v20
	vxor.vv	v16, v16, v17
	vxor.vv	v9, v18, v9
	vxor.vv	v11, v19, v11
	vxor.vv	v13, v20, v13
	vsrl.vi	v17, v8, 2
	vsrl.vi	v18, v12, 2
	vsrl.vi	v19, v16, 2
	vsrl.vi	v20, v11, 2
	vxor.vv	v17, v10, v17
	vxor.vv	v18, v15, v18
	vxor.vv	v19, v9, v19
	vxor.vv	v20, v13, v20
	vand.vx	v17, v17, a3
	vand.vx	v18, v18, a3
	vand.vx	v19, v19, a3
	vand.vx	v20, v20, a3
	vxor.vv	v10, v17, v10
	vsll.vi	v17, v17, 2
	vxor.vv	v15, v18, v15
	vsll.vi	v18, v18, 2
	vxor.vv	v9, v19, v9
	vsll.vi	v19, v19, 2
	vxor.vv	v13, v20, v13
	vsll.vi	v20, v20, 2
	vxor.vv	v8, v17, v8
	vxor.vv	v12, v18, v12
	vsrl.vi	v17, v10, 4
	vand.vi	v18, v15, 15
	vxor.vv	v16, v19, v16
	vxor.vv	v11, v20, v11
	vsrl.vi	v19, v8, 4
	vand.vi	v20, v12, 15
	vsrl.vi	v21, v9, 4
	vand.vi	v22, v13, 15
	vxor.vv	v17, v18, v17
	vsrl.vi	v18, v16, 4
	vand.vi	v23, v11, 15
	vxor.vv	v19, v20, v19
	vxor.vv	v20, v22, v21
	vxor.vv	v15, v17, v15
	vsll.vi	v17, v17, 4
	vxor.vv	v18, v23, v18
	vsll.vi	v21, v19, 4
	vxor.vv	v24, v20, v13
	vsll.vi	v13, v20, 4
	vxor.vv	v25, v17, v10
	vxor.vv	v10, v12, v19
	vxor.vv	v11, v18, v11
	vsll.vi	v12, v18, 4
	vxor.vv	v17, v21, v8
	vxor.vv	v19, v13, v9
	vnot.v	v8, v10
	vnot.v	v10, v24
	vxor.vv	v16, v12, v16
	vxor.vv	v9, v15, v10
	vxor.vv	v20, v19, v8
	vxor.vv	v13, v11, v10
	vxor.vv	v21, v25, v8
	vxor.vv	v27, v17, v24
	vxor.vv	v18, v11, v15
	vxor.vv	v12, v11, v25
	vxor.vv	v29, v17, v19
	vnot.v	v28, v16
	vxor.vv	v16, v16, v17
	vxor.vv	v17, v21, v27
	vxor.vv	v23, v20, v15
	vxor.vv	v22, v18, v10
	vxor.vv	v19, v13, v20
	vand.vv	v30, v18, v24
	vnot.v	v15, v29
	vxor.vv	v21, v16, v9
	vxor.vv	v10, v22, v25
	vxor.vv	v20, v16, v12
	vxor.vv	v11, v12, v15
	vxor.vv	v24, v12, v28
	vxor.vv	v26, v16, v13
	vxor.vv	v16, v25, v28
	vxor.vv	v30, v30, v15
	vand.vv	v31, v21, v19
	vand.vv	v7, v20, v17
	vor.vv	v25, v20, v17
	vand.vv	v6, v10, v11
	vand.vv	v28, v24, v13
	vxor.vv	v27, v16, v27
	vand.vv	v5, v26, v23
	vxor.vv	v4, v25, v28
	vxor.vv	v25, v16, v9
	vxor.vv	v16, v5, v16
	vxor.vv	v28, v26, v8
	vxor.vv	v30, v30, v25
	vxor.vv	v16, v16, v31
	vxor.vv	v30, v30, v31
	vand.vv	v31, v28, v27
	vxor.vv	v31, v7, v31
	vand.vv	v7, v25, v9
	vxor.vv	v29, v25, v29
	vand.vv	v29, v29, v12
	vxor.vv	v6, v29, v6
	vxor.vv	v7, v29, v7
	vxor.vv	v8, v31, v8
	vxor.vv	v31, v4, v6
	vxor.vv	v16, v16, v7
	vxor.vv	v6, v30, v6
	vxor.vv	v8, v8, v12
	vand.vv	v5, v6, v31
	vxor.vv	v29, v6, v16
	vxor.vv	v8, v8, v7
	vand.vv	v30, v16, v31
	vxor.vv	v7, v5, v16
	vxor.vv	v31, v8, v31
	vnot.v	v30, v30
	vand.vv	v7, v31, v7
	vand.vv	v31, v31, v30
	vxor.vv	v30, v8, v5
	vand.vv	v30, v30, v29
	vxor.vv	v30, v30, v16
.Laes_pcrel_hi184:
	auipc	a4, %pcrel_hi(.Laes_CPI48_0)
	vand.vv	v16, v29, v6
	vand.vv	v16, v16, v8
	vxor.vv	v7, v7, v8
	vid.v	v8
	vxor.vv	v6, v5, v16
	vxor.vv	v31, v31, v5
	vmv.v.i	v16, 0
	lui	a2, 1
	addi	a5, a4, %pcrel_lo(.Laes_pcrel_hi184)
	vand.vv	v27, v30, v27
	vxor.vv	v29, v6, v29
	vxor.vv	v6, v30, v7
	vand.vv	v23, v7, v23
	vand.vv	v5, v7, v26
	vand.vv	v26, v30, v28
	vand.vv	v28, v31, v18
	vxor.vv	v18, v7, v31
	vand.vv	v22, v31, v22
	vxor.vv	v30, v29, v30
	vand.vv	v7, v29, v13
	vand.vv	v24, v29, v24
	vxor.vv	v29, v29, v31
	vadd.vi	v13, v8, -2
	vand.vv	v31, v18, v19
	vand.vv	v21, v18, v21
	vmv.v.i	v18, 0
	addi	a4, a2, 800
	vand.vv	v19, v30, v20
	vand.vv	v20, v30, v17
	vmv.v.i	v17, 0
	vxor.vv	v15, v25, v15
	vand.vv	v12, v6, v12
	vand.vv	v15, v6, v15
	vand.vv	v25, v29, v25
	vxor.vv	v30, v29, v6
	vand.vv	v29, v29, v9
	vmv.v.i	v9, 0
	vxor.vv	v28, v23, v28
	vxor.vv	v27, v15, v27
	vxor.vv	v15, v15, v7
	vxor.vv	v6, v12, v5
	vxor.vv	v5, v28, v5
	vxor.vv	v28, v28, v7
	vmv.v.i	v12, 0
	vand.vv	v11, v30, v11
	vand.vv	v30, v30, v10
	vmv.v.i	v10, 0
	vxor.vv	v22, v24, v22
	vxor.vv	v11, v11, v24
	vmv.v.i	v24, 0
	vxor.vv	v23, v31, v23
	vxor.vv	v31, v31, v26
	vxor.vv	v26, v20, v26
	vxor.vv	v27, v27, v20
	vxor.vv	v28, v28, v25
	vxor.vv	v25, v30, v25
	vxor.vv	v20, v30, v20
	vmv.v.i	v30, 0
	vxor.vv	v21, v29, v21
	vxor.vv	v29, v31, v29
	vxor.vv	v31, v31, v22
	vxor.vv	v22, v27, v22
	vmv.v.i	v27, 0
	vxor.vv	v15, v15, v19
	vxor.vv	v19, v5, v19
	vxor.vv	v29, v29, v5
	vsetvli	zero, zero, e16, m2, ta, ma
	vmv.s.x	v0, a4
	vsetvli	zero, zero, e8, m1, ta, ma
	vxor.vv	v7, v6, v21
	vxor.vv	v21, v28, v21
	vle8.v	v28, (a5)
	vmerge.vim	v6, v16, -1, v0
	vxor.vv	v5, v11, v15
	vxor.vv	v11, v25, v15
	vxor.vv	v15, v19, v25
	vxor.vv	v21, v21, v22
	vsetivli	zero, 14, e8, m1, tu, ma
	vrgather.vv	v18, v7, v28
	vsetivli	zero, 16, e8, m1, ta, ma
	vxor.vv	v19, v31, v11
	vxor.vv	v23, v23, v11
	vxor.vv	v11, v26, v11
	vxor.vv	v22, v15, v22
	vxor.vv	v15, v20, v5
	vxor.vv	v20, v29, v5
	vxor.vv	v18, v7, v18
	vsetivli	zero, 14, e8, m1, tu, ma
	vrgather.vv	v30, v21, v28
	vsetivli	zero, 16, e8, m1, ta, ma
	vand.vv	v18, v18, v6
	vsetivli	zero, 14, e8, m1, tu, ma
	vrgather.vv	v17, v15, v28
	vrgather.vv	v9, v19, v28
	vrgather.vv	v12, v20, v28
	vrgather.vv	v10, v23, v28
	vrgather.vv	v24, v22, v28
	vsetivli	zero, 16, e8, m1, ta, ma
	vxor.vv	v25, v21, v30
	vsetivli	zero, 14, e8, m1, tu, ma
	vrgather.vv	v27, v11, v28
	vsetivli	zero, 16, e8, m1, ta, ma
	vrgather.vv	v26, v18, v13
	vxor.vv	v17, v15, v17
	vxor.vv	v9, v19, v9
	vxor.vv	v28, v20, v12
	vxor.vv	v10, v23, v10
	vxor.vv	v24, v22, v24
	vand.vv	v25, v25, v6
	vxor.vv	v27, v11, v27
	vsetivli	zero, 2, e8, m1, tu, ma
	vmv.v.v	v26, v16
	vsetivli	zero, 16, e8, m1, ta, ma
	vand.vv	v12, v17, v6
	vand.vv	v29, v9, v6
	vand.vv	v28, v28, v6
	vand.vv	v30, v10, v6
	vand.vv	v17, v24, v6
	vrgather.vv	v9, v25, v13
	vand.vv	v24, v27, v6
	vrgather.vv	v27, v12, v13
	vrgather.vv	v31, v29, v13
	vrgather.vv	v6, v28, v13
	vrgather.vv	v5, v30, v13
	vxor.vv	v10, v7, v26
	vrgather.vv	v26, v17, v13
	vsetivli	zero, 2, e8, m1, tu, ma
	vmv.v.v	v9, v16
	vsetivli	zero, 16, e8, m1, ta, ma
	vrgather.vv	v7, v24, v13
	vsetivli	zero, 2, e8, m1, tu, ma
	vmv.v.v	v27, v16
	vmv.v.v	v31, v16
	vmv.v.v	v6, v16
	vmv.v.v	v5, v16
	vmv.v.v	v26, v16
	vmv.v.v	v7, v16
	vsetivli	zero, 16, e8, m1, ta, ma
	vxor.vv	v9, v21, v9
	vxor.vv	v10, v10, v18
	vxor.vv	v9, v9, v25
	vxor.vv	v13, v22, v26
	vxor.vv	v16, v23, v5
	vxor.vv	v21, v20, v6
.Laes_pcrel_hi185:
	auipc	a2, %pcrel_hi(.Laes_CPI48_1)
.Laes_pcrel_hi186:
	auipc	a4, %pcrel_hi(.Laes_CPI48_2)
	vxor.vv	v22, v19, v31
	vmv.s.x	v18, zero
	addi	a2, a2, %pcrel_lo(.Laes_pcrel_hi185)
	vxor.vv	v23, v15, v27
	vle8.v	v20, (a2)
	lui	a2, 4080
	addi	a2, a2, 255
	slli	a5, a2, 32
	vxor.vv	v25, v11, v7
	vrgather.vv	v19, v10, v20
	vxor.vv	v17, v13, v17
	vxor.vv	v16, v16, v30
	vxor.vv	v15, v21, v28
	vxor.vv	v13, v22, v29
	vxor.vv	v11, v23, v12
	vxor.vv	v12, v25, v24
	vslideup.vi	v19, v18, 15
	vrgather.vv	v21, v9, v20
	vrgather.vv	v22, v11, v20
	vrgather.vv	v23, v13, v20
	vrgather.vv	v24, v15, v20
	vrgather.vv	v25, v16, v20
	vrgather.vv	v26, v17, v20
	vslideup.vi	v21, v18, 15
	vrgather.vv	v27, v12, v20
	vslideup.vi	v22, v18, 15
	vslideup.vi	v23, v18, 15
	vslideup.vi	v24, v18, 15
	vslideup.vi	v25, v18, 15
	vslideup.vi	v26, v18, 15
	vslideup.vi	v27, v18, 15
	vsetivli	zero, 2, e64, m1, ta, ma
	vmv.v.x	v18, a5
.Laes_pcrel_hi187:
	auipc	a2, %pcrel_hi(.Laes_CPI48_3)
	vsetivli	zero, 16, e8, m1, ta, ma
	vadd.vi	v20, v8, -1
	addi	a4, a4, %pcrel_lo(.Laes_pcrel_hi186)
	addi	a2, a2, %pcrel_lo(.Laes_pcrel_hi187)
	vxor.vv	v8, v10, v19
	vand.vv	v8, v8, v18
	vxor.vv	v19, v9, v21
	vxor.vv	v21, v11, v22
	vxor.vv	v22, v13, v23
	vxor.vv	v23, v15, v24
	vxor.vv	v24, v16, v25
	vxor.vv	v25, v17, v26
	vand.vv	v19, v19, v18
	vxor.vv	v26, v12, v27
	vand.vv	v21, v21, v18
	vand.vv	v22, v22, v18
	vand.vv	v23, v23, v18
	vand.vv	v24, v24, v18
	vand.vv	v25, v25, v18
	vand.vv	v26, v26, v18
	vrgather.vv	v18, v8, v20
	vsetvli	zero, zero, e8, m1, tu, ma
	vmv.s.x	v18, zero
	vsetvli	zero, zero, e8, m1, ta, ma
	vxor.vv	v10, v10, v18
	vrgather.vv	v18, v19, v20
	vsetvli	zero, zero, e8, m1, tu, ma
	vmv.s.x	v18, zero
	vsetvli	zero, zero, e8, m1, ta, ma
	vxor.vv	v9, v9, v18
	vle8.v	v27, (a4)
	vxor.vv	v10, v10, v8
	vle8.v	v8, (a2)
	vxor.vv	v18, v9, v19
	vrgather.vv	v9, v25, v20
	vsetvli	zero, zero, e8, m1, tu, ma
	vmv.s.x	v9, zero
	vsetvli	zero, zero, e8, m1, ta, ma
	vxor.vv	v9, v17, v9
	vrgather.vv	v17, v24, v20
	vsetvli	zero, zero, e8, m1, tu, ma
	vmv.s.x	v17, zero
	vsetvli	zero, zero, e8, m1, ta, ma
	vxor.vv	v16, v16, v17
	vrgather.vv	v17, v23, v20
	vsetvli	zero, zero, e8, m1, tu, ma
	vmv.s.x	v17, zero
	vsetvli	zero, zero, e8, m1, ta, ma
	vxor.vv	v15, v15, v17
	vrgather.vv	v17, v22, v20
	vsetvli	zero, zero, e8, m1, tu, ma
	vmv.s.x	v17, zero
	vsetvli	zero, zero, e8, m1, ta, ma
	vxor.vv	v13, v13, v17
	vrgather.vv	v17, v21, v20
	vrgather.vv	v19, v26, v20
	vsetvli	zero, zero, e8, m1, tu, ma
	vmv.s.x	v17, zero
	vmv.s.x	v19, zero
	vsetvli	zero, zero, e8, m1, ta, ma
	vxor.vv	v11, v11, v17
	vxor.vv	v12, v12, v19
	vrgather.vv	v17, v10, v27
	vxor.vv	v19, v9, v25
	vxor.vv	v16, v16, v24
	vxor.vv	v15, v15, v23
	vxor.vv	v20, v13, v22
	vxor.vv	v11, v11, v21
	vxor.vv	v12, v12, v26
	vrgather.vv	v9, v18, v27
	vxor.vv	v17, v10, v17
	vrgather.vv	v13, v11, v27
	vrgather.vv	v21, v20, v27
	vrgather.vv	v22, v15, v27
	vrgather.vv	v23, v16, v27
	vrgather.vv	v24, v19, v27
	vrgather.vv	v25, v12, v27
	vxor.vv	v9, v9, v18
	vxor.vv	v26, v11, v17
	vxor.vv	v27, v11, v13
	vxor.vv	v21, v20, v21
	vxor.vv	v13, v15, v22
	vxor.vv	v22, v23, v16
	vxor.vv	v23, v24, v19
	vxor.vv	v24, v25, v12
	vxor.vv	v25, v9, v12
	vxor.vv	v28, v24, v10
	vxor.vv	v26, v26, v24
	vxor.vv	v29, v27, v20
	vxor.vv	v12, v21, v15
	vxor.vv	v15, v13, v16
	vxor.vv	v10, v22, v19
	vxor.vv	v11, v23, v18
	vxor.vv	v16, v25, v21
	vxor.vv	v19, v25, v23
	vxor.vv	v18, v12, v24
	vxor.vv	v15, v15, v24
	vxor.vv	v12, v25, v11
	vxor.vv	v21, v11, v17
	vxor.vv	v20, v16, v28
	vxor.vv	v22, v29, v22
	vxor.vv	v17, v24, v10
	vxor.vv	v16, v12, v27
	vxor.vv	v12, v22, v12
	vrgather.vv	v22, v21, v8
	vxor.vv	v24, v22, v21
	vrgather.vv	v21, v20, v8
	vxor.vv	v22, v21, v29
	vrgather.vv	v21, v17, v8
	vxor.vv	v23, v25, v21
	vxor.vv	v13, v11, v13
	vxor.vv	v21, v13, v26
	vxor.vv	v13, v24, v28
	vrgather.vv	v24, v16, v8
	vxor.vv	v24, v26, v24
	li	a5, 32
.Laes_pcrel_hi189:
	auipc	a2, %pcrel_hi(.Laes_CPI48_5)
	addi	a2, a2, %pcrel_lo(.Laes_pcrel_hi189)
	vxor.vv	v19, v19, v18
	vxor.vv	v25, v15, v9
	vxor.vv	v20, v22, v20
	vrgather.vv	v9, v21, v8
	vxor.vv	v18, v18, v9
	vrgather.vv	v9, v12, v8
	vxor.vv	v15, v15, v9
	vrgather.vv	v9, v19, v8
	vrgather.vv	v22, v25, v8
	vxor.vv	v26, v10, v9
	vxor.vv	v22, v11, v22
	vsetvli	zero, a5, e8, m2, ta, ma
	vle8.v	v8, (a2)
	csrr	a2, vlenb
	vsetivli	zero, 16, e8, m1, ta, ma
	vxor.vv	v17, v23, v17
	vxor.vv	v16, v24, v16
	vsetvli	zero, a5, e8, m2, ta, ma
	vslidedown.vx	v10, v8, a2
	lui	a4, 1048560
	vsetivli	zero, 16, e8, m1, ta, ma
	vxor.vv	v9, v18, v21
	vxor.vv	v11, v15, v12
	vxor.vv	v12, v26, v19
	vxor.vv	v15, v22, v25
	vsrl.vi	v18, v13, 1
	vsrl.vi	v19, v20, 1
	vxor.vv	v18, v16, v18
	vxor.vv	v19, v9, v19
	vsrl.vi	v21, v11, 1
	vsrl.vi	v22, v15, 1
	vand.vx	v18, v18, t5
	vand.vx	v19, v19, t5
	vxor.vv	v21, v12, v21
	vxor.vv	v22, v17, v22
	vxor.vv	v16, v18, v16
	vadd.vv	v18, v18, v18
	vxor.vv	v9, v19, v9
	vadd.vv	v19, v19, v19
	vand.vx	v21, v21, t5
	vand.vx	v22, v22, t5
	vxor.vv	v13, v18, v13
	vxor.vv	v18, v19, v20
	vxor.vv	v12, v21, v12
	vadd.vv	v19, v21, v21
	vxor.vv	v17, v22, v17
	vadd.vv	v20, v22, v22
	vsrl.vi	v21, v16, 2
	vxor.vv	v19, v19, v11
	vxor.vv	v11, v20, v15
	vsrl.vi	v15, v13, 2
	vxor.vv	v20, v9, v21
	vsrl.vi	v21, v12, 2
	vxor.vv	v15, v18, v15
	vsrl.vi	v22, v19, 2
	vand.vx	v20, v20, a3
	vxor.vv	v21, v17, v21
	vand.vx	v15, v15, a3
	vxor.vv	v22, v11, v22
	vxor.vv	v23, v20, v9
	vsll.vi	v20, v20, 2
	vand.vx	v21, v21, a3
	vxor.vv	v9, v15, v18
	vsll.vi	v15, v15, 2
	vand.vx	v18, v22, a3
	vxor.vv	v16, v20, v16
	vxor.vv	v17, v21, v17
	vsll.vi	v20, v21, 2
	vsrl.vi	v21, v23, 4
	vxor.vv	v15, v15, v13
	vxor.vv	v11, v18, v11
	vsll.vi	v13, v18, 2
	vxor.vv	v12, v20, v12
	vsrl.vi	v18, v16, 4
	vand.vi	v20, v17, 15
	vxor.vv	v22, v13, v19
	vand.vi	v13, v12, 15
	vxor.vv	v19, v20, v21
	vxor.vv	v13, v13, v18
	vxor.vv	v18, v19, v17
	vsll.vi	v17, v19, 4
	vxor.vv	v20, v13, v12
	vsll.vi	v12, v13, 4
	vxor.vv	v19, v17, v23
	vsetvli	a2, zero, e8, m1, ta, ma
	vrgather.vv	v13, v18, v10
	vsetivli	zero, 16, e8, m1, ta, ma
	vxor.vv	v23, v12, v16
	vsetvli	a2, zero, e8, m1, ta, ma
	vrgather.vv	v17, v19, v10
	vrgather.vv	v12, v18, v8
	vrgather.vv	v16, v19, v8
	vrgather.vv	v19, v20, v10
	vrgather.vv	v18, v20, v8
	vsetvli	zero, zero, e32, m4, ta, ma
	vmv.s.x	v0, a4
	vsetvli	zero, zero, e8, m1, ta, ma
	vrgather.vv	v21, v23, v10
	vrgather.vv	v20, v23, v8
	vsetivli	zero, 16, e8, m1, ta, ma
	vsrl.vi	v8, v15, 4
	vand.vi	v10, v22, 15
	vxor.vv	v10, v10, v8
	vsll.vi	v8, v10, 4
	vxor.vv	v15, v8, v15
	vrgather.vv	v8, v15, v14
	vsetvli	zero, a5, e8, m2, ta, ma
	vmerge.vvm	v20, v8, v20, v0
	vsetivli	zero, 16, e8, m1, ta, ma
	vsrl.vi	v8, v9, 4
	vand.vi	v15, v11, 15
	vxor.vv	v15, v15, v8
	vsll.vi	v8, v15, 4
	vxor.vv	v9, v8, v9
	vrgather.vv	v8, v9, v14
	vsetvli	zero, a5, e8, m2, ta, ma
	vmerge.vvm	v8, v8, v16, v0
	vsetivli	zero, 16, e8, m1, ta, ma
	vxor.vv	v16, v10, v22
	vrgather.vv	v10, v16, v14
	vsetvli	zero, a5, e8, m2, ta, ma
	vmerge.vvm	v16, v10, v18, v0
	vsetivli	zero, 16, e8, m1, ta, ma
	vxor.vv	v11, v15, v11
	vrgather.vv	v10, v11, v14
	vsetvli	zero, a5, e8, m2, ta, ma
	vmerge.vvm	v10, v10, v12, v0
	vse8.v	v20, (a0)
	vse8.v	v8, (t4)
	vse8.v	v16, (t3)
	vse8.v	v10, (t2)
	vsetivli	zero, 16, e8, m1, ta, ma
	vle8.v	v8, (a0)
	vle8.v	v9, (a1)
	addi	a2, a1, 16
	vxor.vv	v8, v9, v8
	vle8.v	v9, (t1)
	vse8.v	v8, (a0)
	vle8.v	v8, (a2)
	addi	a0, a1, 32
	vxor.vv	v8, v8, v9
	vle8.v	v9, (t4)
	vse8.v	v8, (t1)
	vle8.v	v8, (a0)
	addi	a0, a1, 48
	vxor.vv	v8, v8, v9
	vle8.v	v9, (t0)
	vse8.v	v8, (t4)
	vle8.v	v8, (a0)
	addi	a0, a1, 64
	vxor.vv	v8, v8, v9
	vle8.v	v9, (t3)
	vse8.v	v8, (t0)
	vle8.v	v8, (a0)
	addi	a0, a1, 80
	vxor.vv	v8, v8, v9
	vle8.v	v9, (a7)
	vse8.v	v8, (t3)
	vle8.v	v8, (a0)
	addi	a0, a1, 96
	vxor.vv	v8, v8, v9
	vle8.v	v9, (t2)
	vse8.v	v8, (a7)
	vle8.v	v8, (a0)
	addi	a0, a1, 112
	vxor.vv	v8, v8, v9
	vse8.v	v8, (t2)
	vle8.v	v8, (a6)
	vle8.v	v9, (a0)
	vxor.vv	v8, v9, v8
	vse8.v	v8, (a6)
	ret
.Laes_func_end48:
	.size	aes.aes_c.single_rounds.inverse_rounds, .Laes_func_end48-aes.aes_c.single_rounds.inverse_rounds
                                        # -- End function
	.section	.text.aes.cmac.pieces.Message.is_tag_so_far,"ax",@progbits
	.p2align	1                               # -- Begin function cmac::pieces::Message::is_tag_so_far::<#ef80964e0b8d42c0>
	.type	aes.cmac.pieces.Message.is_tag_so_far,@function
aes.cmac.pieces.Message.is_tag_so_far: # @aes.cmac.pieces.Message.is_tag_so_far
# %bb.0:                                # %start
	addi	sp, sp, -64
	sd	ra, 56(sp)                      # 8-byte Folded Spill
	sd	s0, 48(sp)                      # 8-byte Folded Spill
	sd	s1, 40(sp)                      # 8-byte Folded Spill
	sd	s2, 32(sp)                      # 8-byte Folded Spill
	mv	s2, a4
	mv	s1, a3
	ld	a5, 8(a0)
	vsetivli	zero, 2, e64, m1, ta, ma
	vmv.v.i	v8, 0
	mv	s0, sp
	li	a3, 16
	vse64.v	v8, (s0)
	bltu	a5, a3, .Laes_BB49_2
# %bb.1:                                # %start
	li	a5, 16
.Laes_BB49_2:                               # %start
	addi	a3, a0, 16
	addi	a4, a0, 32
	mv	a0, sp
	call	aes.cmac.tags.tag_at_end
	vsetivli	zero, 2, e64, m1, ta, ma
	vle64.v	v8, (s0)
	addi	a0, sp, 16
	vse64.v	v8, (a0)
	mv	a1, s1
	mv	a2, s2
	la	t1, memcpy
	jalr	t1
	addi	a0, sp, 16
	mv	a1, sp
	call	aes.aes_cipher.blocks.difference
	slli	a0, a0, 32
	srli	a0, a0, 32
	seqz	a0, a0
	ld	ra, 56(sp)                      # 8-byte Folded Reload
	ld	s0, 48(sp)                      # 8-byte Folded Reload
	ld	s1, 40(sp)                      # 8-byte Folded Reload
	ld	s2, 32(sp)                      # 8-byte Folded Reload
	addi	sp, sp, 64
	ret
.Laes_func_end49:
	.size	aes.cmac.pieces.Message.is_tag_so_far, .Laes_func_end49-aes.cmac.pieces.Message.is_tag_so_far
                                        # -- End function
	.section	.text.aes.cmac.tags.is_tag_start,"ax",@progbits
	.p2align	1                               # -- Begin function cmac::tags::is_tag_start::<#ef80964e0b8d42c0>
	.type	aes.cmac.tags.is_tag_start,@function
aes.cmac.tags.is_tag_start: # @aes.cmac.tags.is_tag_start
# %bb.0:                                # %start
	addi	sp, sp, -64
	sd	ra, 56(sp)                      # 8-byte Folded Spill
	sd	s0, 48(sp)                      # 8-byte Folded Spill
	sd	s1, 40(sp)                      # 8-byte Folded Spill
	sd	s2, 32(sp)                      # 8-byte Folded Spill
	mv	s0, a4
	mv	s1, a3
	mv	a3, a2
	mv	a2, a1
	mv	a1, a0
	mv	a0, sp
	mv	s2, sp
	call	aes.cmac.tags.tag
	vsetivli	zero, 16, e8, m1, ta, ma
	vle8.v	v8, (s2)
	addi	a0, sp, 16
	vse8.v	v8, (a0)
	mv	a1, s1
	mv	a2, s0
	la	t1, memcpy
	jalr	t1
	addi	a0, sp, 16
	mv	a1, sp
	call	aes.aes_cipher.blocks.difference
	slli	a0, a0, 32
	srli	a0, a0, 32
	seqz	a0, a0
	ld	ra, 56(sp)                      # 8-byte Folded Reload
	ld	s0, 48(sp)                      # 8-byte Folded Reload
	ld	s1, 40(sp)                      # 8-byte Folded Reload
	ld	s2, 32(sp)                      # 8-byte Folded Reload
	addi	sp, sp, 64
	ret
.Laes_func_end50:
	.size	aes.cmac.tags.is_tag_start, .Laes_func_end50-aes.cmac.tags.is_tag_start
                                        # -- End function
	.section	.rodata.cst16,"aM",@progbits,16
	.p2align	4, 0x0                          # -- Begin function aes_c::single_rounds::mixed
.Laes_CPI51_0:
	.byte	0                               # 0x0
	.byte	4                               # 0x4
	.byte	8                               # 0x8
	.byte	12                              # 0xc
	.byte	1                               # 0x1
	.byte	5                               # 0x5
	.byte	9                               # 0x9
	.byte	13                              # 0xd
	.byte	2                               # 0x2
	.byte	6                               # 0x6
	.byte	10                              # 0xa
	.byte	14                              # 0xe
	.byte	3                               # 0x3
	.byte	7                               # 0x7
	.byte	11                              # 0xb
	.byte	15                              # 0xf
.Laes_CPI51_1:
	.byte	4                               # 0x4
	.byte	5                               # 0x5
	.byte	6                               # 0x6
	.byte	7                               # 0x7
	.byte	8                               # 0x8
	.byte	9                               # 0x9
	.byte	10                              # 0xa
	.byte	11                              # 0xb
	.byte	12                              # 0xc
	.byte	13                              # 0xd
	.byte	14                              # 0xe
	.byte	15                              # 0xf
	.byte	0                               # 0x0
	.byte	1                               # 0x1
	.byte	2                               # 0x2
	.byte	3                               # 0x3
.Laes_CPI51_2:
	.byte	8                               # 0x8
	.byte	9                               # 0x9
	.byte	10                              # 0xa
	.byte	11                              # 0xb
	.byte	12                              # 0xc
	.byte	13                              # 0xd
	.byte	14                              # 0xe
	.byte	15                              # 0xf
	.byte	0                               # 0x0
	.byte	1                               # 0x1
	.byte	2                               # 0x2
	.byte	3                               # 0x3
	.byte	4                               # 0x4
	.byte	5                               # 0x5
	.byte	6                               # 0x6
	.byte	7                               # 0x7
	.section	.text.aes.aes_c.single_rounds.mixed,"ax",@progbits
	.p2align	1
	.type	aes.aes_c.single_rounds.mixed,@function
aes.aes_c.single_rounds.mixed:          # @aes.aes_c.single_rounds.mixed
# %bb.0:                                # %start
	vsetivli	zero, 16, e8, m1, ta, ma
	vle8.v	v11, (a0)
.Laes_pcrel_hi190:
	auipc	a1, %pcrel_hi(.Laes_CPI51_0)
	vmv.v.i	v8, 0
	li	a2, 16
	addi	a1, a1, %pcrel_lo(.Laes_pcrel_hi190)
	vle8.v	v12, (a1)
.Laes_pcrel_hi191:
	auipc	a1, %pcrel_hi(.Laes_CPI51_1)
	addi	a1, a1, %pcrel_lo(.Laes_pcrel_hi191)
	vle8.v	v9, (a1)
.Laes_pcrel_hi192:
	auipc	a1, %pcrel_hi(.Laes_CPI51_2)
	addi	a1, a1, %pcrel_lo(.Laes_pcrel_hi192)
	vle8.v	v10, (a1)
	li	a1, 32
	vrgather.vv	v13, v11, v12
	vand.vx	v14, v13, a2
	li	a3, 64
	vand.vx	v15, v13, a1
	li	a2, -86
	vand.vx	v12, v13, a3
	li	a1, 34
	vand.vi	v11, v13, 1
	vand.vi	v16, v13, 2
	vand.vi	v17, v13, 4
	vand.vi	v18, v13, 8
	vsra.vi	v13, v13, 7
	vrsub.vi	v19, v11, 0
	vmsne.vi	v0, v16, 0
	vrgather.vv	v11, v13, v9
	vmerge.vim	v16, v8, -1, v0
	vmsne.vi	v0, v17, 0
	vrgather.vv	v17, v19, v9
	vxor.vv	v13, v11, v13
	vmerge.vim	v20, v8, -1, v0
	vmsne.vi	v0, v18, 0
	vrgather.vv	v18, v16, v9
	vxor.vv	v19, v17, v19
	vmerge.vim	v21, v8, -1, v0
	vmsne.vi	v0, v14, 0
	vxor.vv	v14, v18, v16
	vrgather.vv	v16, v19, v10
	vmerge.vim	v22, v8, -1, v0
	vmsne.vi	v0, v15, 0
	vrgather.vv	v15, v21, v9
	vrgather.vv	v23, v14, v10
	vxor.vv	v16, v16, v17
	vmerge.vim	v17, v8, -1, v0
	vrgather.vv	v24, v22, v9
	vxor.vv	v21, v15, v21
	vxor.vv	v16, v16, v13
	vrgather.vv	v25, v17, v9
	vxor.vv	v22, v24, v22
	vsrl.vi	v26, v16, 1
	vxor.vv	v17, v25, v17
	vrgather.vv	v27, v22, v10
	vxor.vv	v23, v23, v26
	vrgather.vv	v26, v17, v10
	vxor.vv	v27, v21, v27
	vxor.vv	v18, v23, v18
	vxor.vv	v23, v27, v24
	vxor.vv	v18, v18, v19
	vxor.vv	v19, v23, v13
	vxor.vv	v18, v18, v13
	vadd.vv	v18, v18, v18
	vsrl.vi	v23, v19, 1
	vand.vx	v18, v18, a2
	vxor.vv	v23, v26, v23
	vxor.vv	v23, v23, v25
	vxor.vv	v22, v23, v22
	vadd.vv	v22, v22, v22
	vand.vx	v22, v22, a2
	li	a2, -52
	vrgather.vv	v23, v13, v10
	vrgather.vv	v24, v20, v9
	vxor.vv	v20, v24, v20
	vmsne.vi	v0, v12, 0
	vrgather.vv	v12, v20, v10
	vmerge.vim	v8, v8, -1, v0
	vrgather.vv	v25, v21, v10
	vxor.vv	v12, v24, v12
	vrgather.vv	v21, v8, v9
	vxor.vv	v9, v12, v14
	vxor.vv	v8, v21, v8
	vsrl.vi	v12, v9, 1
	vrgather.vv	v14, v8, v10
	vxor.vv	v10, v25, v12
	vxor.vv	v12, v21, v14
	vxor.vv	v10, v10, v15
	vxor.vv	v12, v12, v17
	vxor.vv	v10, v10, v20
	vxor.vv	v10, v10, v13
	vsrl.vi	v13, v12, 1
	vxor.vv	v14, v18, v16
	vadd.vv	v10, v10, v10
	vxor.vv	v13, v23, v13
	vand.vx	v10, v10, a1
	vxor.vv	v11, v13, v11
	vsrl.vi	v13, v14, 2
	vxor.vv	v8, v11, v8
	vxor.vv	v10, v10, v13
	vadd.vv	v8, v8, v8
	vxor.vv	v9, v10, v9
	vxor.vv	v10, v22, v19
	vand.vx	v8, v8, a1
	vsll.vi	v9, v9, 2
	vand.vx	v9, v9, a2
	vsrl.vi	v11, v10, 2
	vxor.vv	v9, v9, v14
	vxor.vv	v8, v8, v11
	vxor.vv	v8, v8, v12
	vsll.vi	v8, v8, 2
	vsrl.vi	v11, v9, 4
	vxor.vv	v8, v11, v8
	vxor.vv	v8, v8, v10
	vsll.vi	v8, v8, 4
	vxor.vv	v8, v8, v9
	vsetivli	zero, 4, e8, m1, ta, ma
	vslidedown.vi	v9, v8, 4
	vslidedown.vi	v10, v8, 8
	vslidedown.vi	v11, v8, 12
	vsetivli	zero, 4, e8, mf4, ta, ma
	vsseg4e8.v	v8, (a0)
	ret
.Laes_func_end51:
	.size	aes.aes_c.single_rounds.mixed, .Laes_func_end51-aes.aes_c.single_rounds.mixed
                                        # -- End function
	.section	.rodata.cst16,"aM",@progbits,16
	.p2align	4, 0x0                          # -- Begin function aes_c::single_rounds::round
.Laes_CPI52_0:
	.byte	0                               # 0x0
	.byte	4                               # 0x4
	.byte	8                               # 0x8
	.byte	12                              # 0xc
	.byte	1                               # 0x1
	.byte	5                               # 0x5
	.byte	9                               # 0x9
	.byte	13                              # 0xd
	.byte	2                               # 0x2
	.byte	6                               # 0x6
	.byte	10                              # 0xa
	.byte	14                              # 0xe
	.byte	3                               # 0x3
	.byte	7                               # 0x7
	.byte	11                              # 0xb
	.byte	15                              # 0xf
.Laes_CPI52_1:
	.byte	2                               # 0x2
	.byte	3                               # 0x3
	.byte	4                               # 0x4
	.byte	5                               # 0x5
	.byte	6                               # 0x6
	.byte	7                               # 0x7
	.byte	8                               # 0x8
	.byte	9                               # 0x9
	.byte	10                              # 0xa
	.byte	11                              # 0xb
	.byte	12                              # 0xc
	.byte	13                              # 0xd
	.byte	14                              # 0xe
	.byte	15                              # 0xf
	.byte	128                             # 0x80
	.byte	129                             # 0x81
.Laes_CPI52_2:
	.byte	1                               # 0x1
	.byte	2                               # 0x2
	.byte	3                               # 0x3
	.byte	4                               # 0x4
	.byte	5                               # 0x5
	.byte	6                               # 0x6
	.byte	7                               # 0x7
	.byte	8                               # 0x8
	.byte	9                               # 0x9
	.byte	10                              # 0xa
	.byte	11                              # 0xb
	.byte	12                              # 0xc
	.byte	13                              # 0xd
	.byte	14                              # 0xe
	.byte	15                              # 0xf
	.byte	128                             # 0x80
.Laes_CPI52_3:
	.byte	4                               # 0x4
	.byte	5                               # 0x5
	.byte	6                               # 0x6
	.byte	7                               # 0x7
	.byte	8                               # 0x8
	.byte	9                               # 0x9
	.byte	10                              # 0xa
	.byte	11                              # 0xb
	.byte	12                              # 0xc
	.byte	13                              # 0xd
	.byte	14                              # 0xe
	.byte	15                              # 0xf
	.byte	0                               # 0x0
	.byte	1                               # 0x1
	.byte	2                               # 0x2
	.byte	3                               # 0x3
.Laes_CPI52_4:
	.byte	8                               # 0x8
	.byte	9                               # 0x9
	.byte	10                              # 0xa
	.byte	11                              # 0xb
	.byte	12                              # 0xc
	.byte	13                              # 0xd
	.byte	14                              # 0xe
	.byte	15                              # 0xf
	.byte	0                               # 0x0
	.byte	1                               # 0x1
	.byte	2                               # 0x2
	.byte	3                               # 0x3
	.byte	4                               # 0x4
	.byte	5                               # 0x5
	.byte	6                               # 0x6
	.byte	7                               # 0x7
	.section	.text.aes.aes_c.single_rounds.round,"ax",@progbits
	.p2align	1
	.type	aes.aes_c.single_rounds.round,@function
aes.aes_c.single_rounds.round:          # @aes.aes_c.single_rounds.round
# %bb.0:                                # %start
	addi	sp, sp, -16
	csrr	t1, vlenb
	slli	t1, t1, 1
	li	t2, 3
	slli	t2, t2, 10
.Laes_BB52_1:                               # %start
                                        # =>This Inner Loop Header: Depth=1
	sub	sp, sp, t2
	sd	zero, 0(sp)
	sub	t1, t1, t2
	bge	t1, t2, .Laes_BB52_1
# %bb.2:                                # %start
	sub	sp, sp, t1
	vsetivli	zero, 16, e8, m1, ta, ma
	vle8.v	v8, (a0)
.Laes_pcrel_hi193:
	auipc	a3, %pcrel_hi(.Laes_CPI52_0)
	vmv.v.i	v9, 0
	li	a2, 16
	addi	a3, a3, %pcrel_lo(.Laes_pcrel_hi193)
	vle8.v	v10, (a3)
	csrr	a3, vlenb
	add	a3, a3, sp
	addi	a3, a3, 16
	vs1r.v	v10, (a3)                       # vscale x 8-byte Folded Spill
.Laes_pcrel_hi194:
	auipc	a3, %pcrel_hi(.Laes_CPI52_1)
	addi	a3, a3, %pcrel_lo(.Laes_pcrel_hi194)
	vle8.v	v11, (a3)
	li	a3, 32
	vrgather.vv	v15, v8, v10
	vand.vx	v13, v15, a2
	li	a4, 64
	vand.vx	v8, v15, a3
	lui	a2, 2
	vid.v	v14
	vand.vx	v16, v15, a4
.Laes_pcrel_hi195:
	auipc	a3, %pcrel_hi(.Laes_CPI52_2)
	vmv.s.x	v12, zero
	addi	a3, a3, %pcrel_lo(.Laes_pcrel_hi195)
	vand.vi	v17, v15, 1
	vand.vi	v19, v15, 2
	vand.vi	v20, v15, 4
	vand.vi	v21, v15, 8
	vsra.vi	v15, v15, 7
	vrsub.vi	v18, v17, 0
	vmsne.vi	v0, v19, 0
	vmsne.vi	v17, v8, 0
	vmerge.vim	v24, v9, -1, v0
	vmsne.vi	v0, v20, 0
	vmsne.vi	v8, v16, 0
	vmerge.vim	v16, v9, -1, v0
	vmsne.vi	v0, v21, 0
	vxor.vv	v20, v15, v24
	vmerge.vim	v23, v9, -1, v0
	vmsne.vi	v0, v13, 0
	vxor.vv	v19, v15, v16
	vmerge.vim	v13, v9, -1, v0
	vmv.v.v	v0, v8
	vmerge.vim	v26, v9, -1, v0
	vmxor.mm	v0, v8, v17
	vxor.vv	v22, v15, v13
	vxor.vv	v21, v13, v16
	vmerge.vim	v17, v9, -1, v0
	vxor.vv	v29, v20, v21
	vxor.vv	v25, v17, v18
	vxor.vv	v23, v29, v23
	vxor.vv	v8, v25, v13
	addi	a4, sp, 16
	vs1r.v	v8, (a4)                        # vscale x 8-byte Folded Spill
	vxor.vv	v31, v23, v16
	vxor.vv	v13, v23, v26
	vxor.vv	v23, v25, v15
	vxor.vv	v28, v25, v24
	vand.vv	v16, v8, v18
	vxor.vv	v24, v13, v22
	vxor.vv	v5, v31, v18
	vxor.vv	v7, v28, v19
	vand.vv	v4, v31, v29
	vxor.vv	v27, v31, v17
	vand.vv	v3, v28, v25
	vand.vv	v2, v24, v22
	vxor.vv	v6, v24, v17
	vxor.vv	v26, v24, v27
	vxor.vv	v30, v24, v18
	vand.vv	v17, v27, v19
	vand.vv	v1, v5, v7
	vxor.vv	v16, v16, v19
	vxor.vv	v13, v13, v1
	vand.vv	v1, v26, v21
	vxor.vv	v17, v17, v2
	vxor.vv	v2, v1, v2
	vand.vv	v1, v30, v23
	vxor.vv	v16, v16, v27
	vxor.vv	v16, v16, v4
	vxor.vv	v13, v13, v4
	vand.vv	v4, v6, v20
	vxor.vv	v3, v6, v3
	vxor.vv	v3, v3, v4
	vxor.vv	v1, v6, v1
	vxor.vv	v0, v16, v17
	vxor.vv	v13, v13, v2
	vxor.vv	v16, v3, v20
	vxor.vv	v4, v1, v4
	vxor.vv	v16, v16, v2
	vxor.vv	v15, v4, v15
	vxor.vv	v3, v13, v0
	vxor.vv	v15, v15, v17
	vand.vv	v17, v16, v13
	vxor.vv	v13, v17, v0
	vxor.vv	v2, v17, v15
	vxor.vv	v4, v15, v16
	vand.vv	v1, v13, v4
	vand.vv	v13, v2, v3
	vxor.vv	v4, v13, v0
	vle8.v	v13, (a3)
.Laes_pcrel_hi196:
	auipc	a3, %pcrel_hi(.Laes_CPI52_3)
	addi	a3, a3, %pcrel_lo(.Laes_pcrel_hi196)
	vxor.vv	v0, v1, v17
	vxor.vv	v17, v1, v15
	vand.vv	v1, v0, v15
	vle8.v	v15, (a3)
.Laes_pcrel_hi197:
	auipc	a3, %pcrel_hi(.Laes_CPI52_4)
	addi	a3, a3, %pcrel_lo(.Laes_pcrel_hi197)
	vxor.vv	v2, v1, v2
	vxor.vv	v1, v1, v16
	vle8.v	v16, (a3)
	lui	a3, 4080
	vand.vv	v2, v2, v4
	vxor.vv	v2, v2, v3
	vmv.v.i	v3, 0
	addi	a2, a2, 784
	vand.vv	v18, v17, v18
	vand.vv	v31, v1, v31
	vand.vv	v29, v1, v29
	vxor.vv	v1, v1, v17
	vand.vv	v5, v1, v5
	vxor.vv	v0, v31, v18
	vxor.vv	v31, v5, v31
	vadd.vi	v18, v14, -2
	vand.vv	v7, v1, v7
	vxor.vv	v5, v2, v1
	vand.vv	v25, v2, v25
	vand.vv	v28, v2, v28
	vxor.vv	v2, v2, v4
	vand.vv	v6, v2, v6
	vand.vv	v2, v2, v20
	vmv.v.i	v1, 0
	vand.vv	v23, v4, v23
	vand.vv	v20, v4, v30
	vxor.vv	v30, v4, v17
	vand.vv	v24, v30, v24
	vand.vv	v22, v30, v22
	vand.vv	v27, v5, v27
	vxor.vv	v30, v5, v30
	vand.vv	v19, v5, v19
	vmv.v.i	v5, 0
	vand.vv	v21, v30, v21
	vand.vv	v26, v30, v26
	vmv.v.i	v30, 0
	vxor.vv	v20, v0, v20
	vxor.vv	v25, v6, v25
	vxor.vv	v6, v20, v6
	vmv.v.i	v4, 0
	vxor.vv	v27, v27, v0
	vmv.v.i	v10, 0
	addi	a3, a3, 255
	vadd.vi	v14, v14, -1
	slli	a3, a3, 32
	vxor.vv	v8, v22, v19
	vxor.vv	v22, v21, v22
	vsetvli	zero, zero, e16, m2, ta, ma
	vmv.s.x	v0, a2
	vsetvli	zero, zero, e8, m1, ta, ma
	vxor.vv	v26, v25, v26
	vxor.vv	v25, v31, v25
	vsetivli	zero, 2, e64, m1, ta, ma
	vmv.v.x	v19, a3
	vsetivli	zero, 16, e8, m1, ta, ma
	vmerge.vim	v20, v9, -1, v0
	vxor.vv	v28, v6, v28
	vxor.vv	v27, v27, v2
	vxor.vv	v21, v22, v7
	vxor.vv	v28, v28, v22
	vxor.vv	v27, v27, v26
	vxor.vv	v22, v26, v24
	vxor.vv	v26, v21, v29
	vxor.vv	v23, v27, v23
	vxor.vv	v29, v28, v2
	vxor.vv	v27, v28, v27
	vxor.vv	v8, v8, v22
	vxor.vv	v24, v25, v26
	vxor.vv	v25, v26, v22
	vnot.v	v26, v29
	vnot.v	v27, v27
	vxor.vv	v8, v8, v23
	vxor.vv	v28, v24, v6
	vnot.v	v8, v8
	vsetivli	zero, 14, e8, m1, tu, ma
	vrgather.vv	v3, v26, v11
	vrgather.vv	v1, v27, v11
	vrgather.vv	v30, v24, v11
	vrgather.vv	v10, v25, v11
	vsetivli	zero, 16, e8, m1, ta, ma
	vxor.vv	v29, v3, v26
	vxor.vv	v31, v1, v27
	vsetivli	zero, 14, e8, m1, tu, ma
	vrgather.vv	v5, v28, v11
	vsetivli	zero, 16, e8, m1, ta, ma
	vxor.vv	v30, v24, v30
	vsetivli	zero, 14, e8, m1, tu, ma
	vrgather.vv	v4, v8, v11
	vsetivli	zero, 16, e8, m1, ta, ma
	vxor.vv	v10, v25, v10
	vand.vv	v29, v29, v20
	vand.vv	v31, v31, v20
	vxor.vv	v7, v28, v5
	vand.vv	v30, v30, v20
	vxor.vv	v6, v4, v8
	vand.vv	v10, v10, v20
	vrgather.vv	v5, v29, v18
	vrgather.vv	v4, v31, v18
	vand.vv	v7, v7, v20
	vrgather.vv	v3, v30, v18
	vand.vv	v6, v6, v20
	vsetivli	zero, 2, e8, m1, tu, ma
	vmv.v.v	v4, v9
	vsetivli	zero, 16, e8, m1, ta, ma
	vxor.vv	v27, v4, v27
	vrgather.vv	v4, v10, v18
	vsetivli	zero, 2, e8, m1, tu, ma
	vmv.v.v	v5, v9
	vsetivli	zero, 16, e8, m1, ta, ma
	vxor.vv	v26, v5, v26
	vrgather.vv	v5, v7, v18
	vsetivli	zero, 2, e8, m1, tu, ma
	vmv.v.v	v3, v9
	vmv.v.v	v4, v9
	vsetivli	zero, 16, e8, m1, ta, ma
	vxor.vv	v25, v25, v4
	vrgather.vv	v4, v6, v18
	vsetivli	zero, 2, e8, m1, tu, ma
	vmv.v.v	v5, v9
	vmv.v.v	v4, v9
	vsetivli	zero, 16, e8, m1, ta, ma
	vxor.vv	v3, v24, v3
	vxor.vv	v8, v4, v8
	vxor.vv	v30, v3, v30
	vxor.vv	v28, v28, v5
	vxor.vv	v27, v27, v31
	vxor.vv	v26, v26, v29
	vxor.vv	v10, v25, v10
	vxor.vv	v8, v8, v6
	vxor.vv	v25, v28, v7
	vrgather.vv	v28, v26, v13
	vrgather.vv	v29, v27, v13
	vrgather.vv	v31, v30, v13
	vrgather.vv	v7, v10, v13
	vslideup.vi	v28, v12, 15
	vslideup.vi	v29, v12, 15
	vrgather.vv	v6, v25, v13
	vslideup.vi	v31, v12, 15
	vrgather.vv	v5, v8, v13
	vslideup.vi	v7, v12, 15
	vxor.vv	v28, v26, v28
	vxor.vv	v29, v27, v29
	vslideup.vi	v6, v12, 15
	vxor.vv	v31, v30, v31
	vslideup.vi	v5, v12, 15
	vxor.vv	v7, v10, v7
	vand.vv	v28, v28, v19
	vand.vv	v29, v29, v19
	vxor.vv	v6, v25, v6
	vand.vv	v31, v31, v19
	vxor.vv	v5, v8, v5
	vand.vv	v7, v7, v19
	vrgather.vv	v4, v28, v14
	vrgather.vv	v3, v31, v14
	vsetvli	zero, zero, e8, m1, tu, ma
	vmv.s.x	v3, zero
	vsetvli	zero, zero, e8, m1, ta, ma
	vxor.vv	v30, v30, v3
	vrgather.vv	v3, v29, v14
	vand.vv	v6, v6, v19
	vand.vv	v5, v5, v19
	vsetvli	zero, zero, e8, m1, tu, ma
	vmv.s.x	v3, zero
	vsetvli	zero, zero, e8, m1, ta, ma
	vxor.vv	v27, v27, v3
	vrgather.vv	v3, v7, v14
	vsetvli	zero, zero, e8, m1, tu, ma
	vmv.s.x	v4, zero
	vsetvli	zero, zero, e8, m1, ta, ma
	vxor.vv	v26, v26, v4
	vrgather.vv	v4, v6, v14
	vsetvli	zero, zero, e8, m1, tu, ma
	vmv.s.x	v3, zero
	vsetvli	zero, zero, e8, m1, ta, ma
	vxor.vv	v10, v3, v10
	vrgather.vv	v3, v5, v14
	vsetvli	zero, zero, e8, m1, tu, ma
	vmv.s.x	v4, zero
	vmv.s.x	v3, zero
	vsetvli	zero, zero, e8, m1, ta, ma
	vxor.vv	v8, v8, v3
	vxor.vv	v30, v30, v31
	vxor.vv	v25, v25, v4
	vxor.vv	v27, v27, v29
	vxor.vv	v28, v26, v28
	vxor.vv	v10, v10, v7
	vxor.vv	v8, v8, v5
	vxor.vv	v29, v25, v6
	vrgather.vv	v7, v28, v15
	vrgather.vv	v6, v27, v15
	vrgather.vv	v5, v30, v15
	vrgather.vv	v25, v10, v15
	vrgather.vv	v26, v29, v15
	vrgather.vv	v4, v8, v15
	vxor.vv	v3, v28, v7
	vxor.vv	v28, v27, v6
	vxor.vv	v2, v5, v30
	vxor.vv	v27, v25, v10
	vxor.vv	v31, v29, v26
	vxor.vv	v29, v4, v8
	vrgather.vv	v8, v3, v16
	vrgather.vv	v10, v28, v16
	vxor.vv	v8, v8, v7
	vrgather.vv	v30, v2, v16
	vxor.vv	v7, v5, v30
	vxor.vv	v30, v8, v27
	vsrl.vi	v8, v30, 1
	vxor.vv	v8, v10, v8
	vrgather.vv	v10, v29, v16
	vxor.vv	v7, v7, v31
	vxor.vv	v7, v7, v27
	vxor.vv	v8, v8, v6
	vsrl.vi	v6, v7, 1
	vxor.vv	v10, v10, v6
	li	a3, -86
	li	a2, 34
	vxor.vv	v8, v8, v3
	vxor.vv	v10, v10, v4
	vxor.vv	v8, v8, v27
	vxor.vv	v10, v10, v2
	vadd.vv	v8, v8, v8
	vadd.vv	v10, v10, v10
	vand.vx	v6, v8, a3
	vand.vx	v5, v10, a3
	li	a3, -52
	vmv1r.v	v8, v9
	vmv1r.v	v10, v9
	vl1r.v	v4, (a4)                        # vscale x 8-byte Folded Reload
	vand.vv	v17, v17, v4
	vxor.vv	v17, v21, v17
	vxor.vv	v17, v17, v23
	vxor.vv	v21, v22, v24
	vsetivli	zero, 14, e8, m1, tu, ma
	vrgather.vv	v8, v17, v11
	vsetivli	zero, 16, e8, m1, ta, ma
	vnot.v	v21, v21
	vxor.vv	v8, v17, v8
	vand.vv	v8, v8, v20
	vsetivli	zero, 14, e8, m1, tu, ma
	vrgather.vv	v10, v21, v11
	vsetivli	zero, 16, e8, m1, ta, ma
	vrgather.vv	v11, v8, v18
	vxor.vv	v10, v10, v21
	vsetivli	zero, 2, e8, m1, tu, ma
	vmv.v.v	v11, v9
	vsetivli	zero, 16, e8, m1, ta, ma
	vand.vv	v10, v10, v20
	vrgather.vv	v20, v10, v18
	vxor.vv	v11, v17, v11
	vsetivli	zero, 2, e8, m1, tu, ma
	vmv.v.v	v20, v9
	vsetivli	zero, 16, e8, m1, ta, ma
	vxor.vv	v8, v11, v8
	vxor.vv	v9, v20, v21
	vrgather.vv	v11, v8, v13
	vxor.vv	v9, v9, v10
	vslideup.vi	v11, v12, 15
	vxor.vv	v10, v8, v11
	vrgather.vv	v11, v9, v13
	vand.vv	v10, v10, v19
	vslideup.vi	v11, v12, 15
	vrgather.vv	v12, v10, v14
	vxor.vv	v11, v9, v11
	vsetvli	zero, zero, e8, m1, tu, ma
	vmv.s.x	v12, zero
	vsetvli	zero, zero, e8, m1, ta, ma
	vand.vv	v11, v11, v19
	vrgather.vv	v13, v11, v14
	vxor.vv	v8, v8, v12
	vsetvli	zero, zero, e8, m1, tu, ma
	vmv.s.x	v13, zero
	vsetvli	zero, zero, e8, m1, ta, ma
	vxor.vv	v8, v8, v10
	vxor.vv	v9, v9, v13
	vrgather.vv	v10, v8, v15
	vxor.vv	v9, v9, v11
	vxor.vv	v8, v8, v10
	vrgather.vv	v11, v9, v15
	vrgather.vv	v12, v8, v16
	vrgather.vv	v13, v27, v16
	vxor.vv	v9, v11, v9
	vrgather.vv	v14, v31, v16
	vxor.vv	v10, v10, v12
	vrgather.vv	v12, v9, v16
	vxor.vv	v10, v10, v28
	vxor.vv	v11, v11, v12
	vsrl.vi	v12, v10, 1
	vxor.vv	v11, v11, v29
	vxor.vv	v12, v14, v12
	vxor.vv	v12, v12, v26
	vsrl.vi	v14, v11, 1
	vxor.vv	v8, v12, v8
	vxor.vv	v12, v13, v14
	vxor.vv	v8, v8, v27
	vxor.vv	v12, v12, v25
	vadd.vv	v8, v8, v8
	vxor.vv	v9, v12, v9
	vand.vx	v8, v8, a2
	vadd.vv	v9, v9, v9
	vxor.vv	v12, v6, v30
	vxor.vv	v13, v5, v7
	vand.vx	v9, v9, a2
	vsrl.vi	v14, v12, 2
	vsrl.vi	v15, v13, 2
	vxor.vv	v8, v8, v14
	vxor.vv	v9, v9, v15
	vxor.vv	v8, v8, v10
	vxor.vv	v9, v9, v11
	vsll.vi	v8, v8, 2
	vsll.vi	v9, v9, 2
	vand.vx	v8, v8, a3
	vxor.vv	v8, v8, v12
	vsrl.vi	v10, v8, 4
	vxor.vv	v9, v10, v9
	vxor.vv	v9, v9, v13
	vle8.v	v10, (a1)
	vsll.vi	v9, v9, 4
	vxor.vv	v8, v9, v8
	csrr	a1, vlenb
	add	a1, a1, sp
	addi	a1, a1, 16
	vl1r.v	v11, (a1)                       # vscale x 8-byte Folded Reload
	vrgather.vv	v9, v8, v11
	vxor.vv	v8, v9, v10
	vse8.v	v8, (a0)
	csrr	a0, vlenb
	slli	a0, a0, 1
	add	sp, sp, a0
	addi	sp, sp, 16
	ret
.Laes_func_end52:
	.size	aes.aes_c.single_rounds.round, .Laes_func_end52-aes.aes_c.single_rounds.round
                                        # -- End function
	.section	.rodata.cst16,"aM",@progbits,16
	.p2align	4, 0x0                          # -- Begin function aes_c::single_rounds::rounds
.Laes_CPI53_0:
	.byte	2                               # 0x2
	.byte	3                               # 0x3
	.byte	4                               # 0x4
	.byte	5                               # 0x5
	.byte	6                               # 0x6
	.byte	7                               # 0x7
	.byte	8                               # 0x8
	.byte	9                               # 0x9
	.byte	10                              # 0xa
	.byte	11                              # 0xb
	.byte	12                              # 0xc
	.byte	13                              # 0xd
	.byte	14                              # 0xe
	.byte	15                              # 0xf
	.byte	128                             # 0x80
	.byte	129                             # 0x81
.Laes_CPI53_1:
	.byte	1                               # 0x1
	.byte	2                               # 0x2
	.byte	3                               # 0x3
	.byte	4                               # 0x4
	.byte	5                               # 0x5
	.byte	6                               # 0x6
	.byte	7                               # 0x7
	.byte	8                               # 0x8
	.byte	9                               # 0x9
	.byte	10                              # 0xa
	.byte	11                              # 0xb
	.byte	12                              # 0xc
	.byte	13                              # 0xd
	.byte	14                              # 0xe
	.byte	15                              # 0xf
	.byte	128                             # 0x80
.Laes_CPI53_2:
	.byte	4                               # 0x4
	.byte	5                               # 0x5
	.byte	6                               # 0x6
	.byte	7                               # 0x7
	.byte	8                               # 0x8
	.byte	9                               # 0x9
	.byte	10                              # 0xa
	.byte	11                              # 0xb
	.byte	12                              # 0xc
	.byte	13                              # 0xd
	.byte	14                              # 0xe
	.byte	15                              # 0xf
	.byte	0                               # 0x0
	.byte	1                               # 0x1
	.byte	2                               # 0x2
	.byte	3                               # 0x3
.Laes_CPI53_3:
	.byte	8                               # 0x8
	.byte	9                               # 0x9
	.byte	10                              # 0xa
	.byte	11                              # 0xb
	.byte	12                              # 0xc
	.byte	13                              # 0xd
	.byte	14                              # 0xe
	.byte	15                              # 0xf
	.byte	0                               # 0x0
	.byte	1                               # 0x1
	.byte	2                               # 0x2
	.byte	3                               # 0x3
	.byte	4                               # 0x4
	.byte	5                               # 0x5
	.byte	6                               # 0x6
	.byte	7                               # 0x7
.Laes_CPI53_4:
	.byte	0                               # 0x0
	.byte	4                               # 0x4
	.byte	8                               # 0x8
	.byte	12                              # 0xc
	.byte	1                               # 0x1
	.byte	5                               # 0x5
	.byte	9                               # 0x9
	.byte	13                              # 0xd
	.byte	2                               # 0x2
	.byte	6                               # 0x6
	.byte	10                              # 0xa
	.byte	14                              # 0xe
	.byte	3                               # 0x3
	.byte	7                               # 0x7
	.byte	11                              # 0xb
	.byte	15                              # 0xf
	.section	.rodata.cst32,"aM",@progbits,32
	.p2align	5, 0x0
.Laes_CPI53_5:
	.zero	1
	.zero	1
	.zero	1
	.zero	1
	.zero	1
	.zero	1
	.zero	1
	.zero	1
	.zero	1
	.zero	1
	.zero	1
	.zero	1
	.zero	1
	.zero	1
	.zero	1
	.zero	1
	.byte	0                               # 0x0
	.byte	4                               # 0x4
	.byte	8                               # 0x8
	.byte	12                              # 0xc
	.byte	1                               # 0x1
	.byte	5                               # 0x5
	.byte	9                               # 0x9
	.byte	13                              # 0xd
	.byte	2                               # 0x2
	.byte	6                               # 0x6
	.byte	10                              # 0xa
	.byte	14                              # 0xe
	.byte	3                               # 0x3
	.byte	7                               # 0x7
	.byte	11                              # 0xb
	.byte	15                              # 0xf
	.section	.text.aes.aes_c.single_rounds.rounds,"ax",@progbits
	.p2align	1
	.type	aes.aes_c.single_rounds.rounds,@function
aes.aes_c.single_rounds.rounds:         # @aes.aes_c.single_rounds.rounds
# %bb.0:                                # %start
	addi	t1, a0, 16
	vsetivli	zero, 16, e8, m1, ta, ma
	vle8.v	v8, (a0)
	addi	t4, a0, 32
	addi	t0, a0, 48
	addi	t3, a0, 64
	addi	a7, a0, 80
	addi	t2, a0, 96
	addi	a6, a0, 112
.Laes_pcrel_hi202:
	auipc	a4, %pcrel_hi(.Laes_CPI53_4)
	li	a2, 85
	li	a3, 51
	vle8.v	v9, (t1)
	vle8.v	v10, (t4)
	vle8.v	v11, (t0)
	vle8.v	v12, (t3)
	addi	a4, a4, %pcrel_lo(.Laes_pcrel_hi202)
	vle8.v	v14, (a4)
	vle8.v	v13, (a7)
	vle8.v	v15, (t2)
	vle8.v	v16, (a6)
	vrgather.vv	v17, v8, v14
	vrgather.vv	v8, v9, v14
	vrgather.vv	v9, v10, v14
	vrgather.vv	v10, v11, v14
	vrgather.vv	v11, v12, v14
	vrgather.vv	v12, v13, v14
	vrgather.vv	v13, v15, v14
	vrgather.vv	v15, v16, v14
	vsrl.vi	v16, v17, 1
	vsrl.vi	v18, v9, 1
	vsrl.vi	v19, v11, 1
	vsrl.vi	v20, v13, 1
	vxor.vv	v16, v8, v16
	vxor.vv	v18, v10, v18
	vxor.vv	v19, v12, v19
	vxor.vv	v20, v15, v20
	vand.vx	v16, v16, a2
	vand.vx	v18, v18, a2
	vand.vx	v19, v19, a2
	vand.vx	v20, v20, a2
	vxor.vv	v8, v16, v8
	vadd.vv	v16, v16, v16
	vxor.vv	v10, v18, v10
	vadd.vv	v18, v18, v18
	vxor.vv	v12, v19, v12
	vadd.vv	v19, v19, v19
	vxor.vv	v15, v20, v15
	vadd.vv	v20, v20, v20
	vxor.vv	v16, v16, v17
	vxor.vv	v9, v18, v9
	vxor.vv	v11, v19, v11
	vxor.vv	v13, v20, v13
	vsrl.vi	v17, v8, 2
	vsrl.vi	v18, v12, 2
	vsrl.vi	v19, v16, 2
	vsrl.vi	v20, v11, 2
	vxor.vv	v17, v10, v17
	vxor.vv	v18, v15, v18
	vxor.vv	v19, v9, v19
	vxor.vv	v20, v13, v20
	vand.vx	v17, v17, a3
	vand.vx	v18, v18, a3
	vand.vx	v19, v19, a3
	vand.vx	v20, v20, a3
	vxor.vv	v10, v17, v10
	vsll.vi	v17, v17, 2
	vxor.vv	v15, v18, v15
	vsll.vi	v18, v18, 2
	vxor.vv	v9, v19, v9
	vsll.vi	v19, v19, 2
	vxor.vv	v21, v20, v13
	vsll.vi	v13, v20, 2
	vxor.vv	v8, v17, v8
	vxor.vv	v12, v18, v12
	vsrl.vi	v17, v10, 4
	vand.vi	v18, v15, 15
	vxor.vv	v16, v19, v16
	vxor.vv	v11, v13, v11
	vsrl.vi	v13, v8, 4
	vand.vi	v19, v12, 15
	vsrl.vi	v20, v9, 4
	vand.vi	v22, v21, 15
	vxor.vv	v17, v18, v17
	vsrl.vi	v18, v16, 4
	vand.vi	v23, v11, 15
	vxor.vv	v19, v19, v13
	vxor.vv	v20, v22, v20
	vxor.vv	v13, v17, v15
	vsll.vi	v15, v17, 4
	vxor.vv	v17, v23, v18
	vxor.vv	v12, v19, v12
	vsll.vi	v18, v19, 4
	vxor.vv	v22, v20, v21
	vsll.vi	v19, v20, 4
	vxor.vv	v15, v15, v10
	vxor.vv	v20, v17, v11
	vsll.vi	v10, v17, 4
	vxor.vv	v17, v18, v8
	vxor.vv	v23, v19, v9
	vxor.vv	v25, v12, v22
	vxor.vv	v19, v10, v16
	vxor.vv	v9, v20, v13
	vxor.vv	v12, v17, v13
	vxor.vv	v10, v20, v23
	vxor.vv	v11, v23, v13
	vxor.vv	v8, v19, v25
	vxor.vv	v18, v12, v10
	vxor.vv	v26, v8, v20
	vxor.vv	v15, v15, v18
	vxor.vv	v21, v8, v13
	vxor.vv	v20, v8, v17
	vand.vv	v17, v26, v19
	vxor.vv	v23, v15, v23
	vxor.vv	v28, v15, v22
	vxor.vv	v22, v20, v11
	vand.vv	v29, v20, v8
	vxor.vv	v15, v28, v9
	vxor.vv	v24, v23, v19
	vand.vv	v30, v23, v18
	vxor.vv	v16, v23, v25
	vxor.vv	v31, v17, v11
	vand.vv	v7, v15, v9
	vxor.vv	v25, v15, v25
	vxor.vv	v17, v15, v16
	vxor.vv	v27, v15, v19
	vand.vv	v6, v16, v11
	vand.vv	v5, v24, v22
	vxor.vv	v31, v31, v16
	vxor.vv	v28, v28, v5
	vand.vv	v5, v17, v10
	vxor.vv	v6, v6, v7
	vxor.vv	v7, v5, v7
	vand.vv	v5, v27, v21
	vxor.vv	v31, v31, v30
	vxor.vv	v28, v28, v30
	vand.vv	v30, v25, v12
	vxor.vv	v29, v25, v29
	vxor.vv	v31, v31, v6
	vxor.vv	v29, v29, v30
	vxor.vv	v5, v25, v5
	vxor.vv	v28, v28, v7
	vxor.vv	v29, v29, v12
	vxor.vv	v30, v5, v30
	vxor.vv	v29, v29, v7
	vxor.vv	v13, v30, v13
	vxor.vv	v30, v28, v31
	vxor.vv	v13, v13, v6
	vand.vv	v28, v29, v28
	vxor.vv	v7, v28, v31
	vxor.vv	v6, v28, v13
	vxor.vv	v5, v13, v29
	vand.vv	v7, v7, v5
	vand.vv	v5, v6, v30
	vxor.vv	v31, v5, v31
	vxor.vv	v28, v7, v28
	vxor.vv	v7, v7, v13
	vand.vv	v13, v28, v13
	vxor.vv	v28, v13, v6
	vxor.vv	v29, v13, v29
	vand.vv	v13, v28, v31
	vxor.vv	v28, v13, v30
	vand.vv	v13, v7, v26
	vand.vv	v26, v7, v19
	vand.vv	v23, v29, v23
	vand.vv	v19, v29, v18
	vxor.vv	v29, v29, v7
	vxor.vv	v30, v31, v7
	vand.vv	v18, v31, v21
	vand.vv	v27, v31, v27
	vand.vv	v24, v29, v24
	vand.vv	v21, v29, v22
	vxor.vv	v29, v28, v29
	vxor.vv	v31, v28, v31
	vand.vv	v7, v28, v8
	vand.vv	v22, v28, v20
.Laes_pcrel_hi198:
	auipc	a4, %pcrel_hi(.Laes_CPI53_0)
	vxor.vv	v26, v23, v26
	vxor.vv	v23, v24, v23
	vid.v	v8
	vand.vv	v24, v31, v25
	vand.vv	v20, v31, v12
	vmv.v.i	v12, 0
	lui	a5, 2
	addi	a4, a4, %pcrel_lo(.Laes_pcrel_hi198)
	vand.vv	v25, v30, v15
	vand.vv	v28, v30, v9
	vand.vv	v16, v29, v16
	vxor.vv	v15, v29, v30
	vand.vv	v29, v29, v11
	vadd.vi	v9, v8, -2
	vand.vv	v30, v15, v10
	vand.vv	v31, v15, v17
	vmv.v.i	v10, 0
	addi	a5, a5, 784
	vxor.vv	v11, v26, v27
	vxor.vv	v27, v24, v7
	vxor.vv	v15, v11, v24
	vmv.v.i	v11, 0
	vxor.vv	v24, v16, v26
	vmv.v.i	v16, 0
	vxor.vv	v26, v28, v29
	vxor.vv	v28, v30, v28
	vmv.v.i	v17, 0
	vxor.vv	v29, v27, v31
	vxor.vv	v23, v23, v27
	vmv.v.i	v27, 0
	vxor.vv	v22, v15, v22
	vxor.vv	v21, v28, v21
	vxor.vv	v22, v22, v28
	vmv.v.i	v28, 0
	vxor.vv	v24, v24, v20
	vxor.vv	v24, v24, v29
	vxor.vv	v25, v29, v25
	vmv.v.i	v29, 0
	vxor.vv	v19, v21, v19
	vxor.vv	v13, v21, v13
	vmv.v.i	v21, 0
	vxor.vv	v18, v24, v18
	vxor.vv	v20, v22, v20
	vxor.vv	v22, v22, v24
	vsetvli	zero, zero, e16, m2, ta, ma
	vmv.s.x	v0, a5
	vsetvli	zero, zero, e8, m1, ta, ma
	vxor.vv	v24, v26, v25
	vxor.vv	v26, v13, v18
	vxor.vv	v13, v24, v18
	vle8.v	v18, (a4)
	vmerge.vim	v24, v12, -1, v0
	vxor.vv	v23, v23, v19
	vxor.vv	v19, v19, v25
	vnot.v	v20, v20
	vnot.v	v22, v22
	vxor.vv	v15, v23, v15
	vnot.v	v30, v13
	vxor.vv	v13, v25, v23
	vsetivli	zero, 14, e8, m1, tu, ma
	vrgather.vv	v10, v20, v18
	vrgather.vv	v11, v22, v18
	vrgather.vv	v16, v26, v18
	vrgather.vv	v27, v23, v18
	vrgather.vv	v21, v19, v18
	vsetivli	zero, 16, e8, m1, ta, ma
	vnot.v	v13, v13
	vxor.vv	v10, v10, v20
	vxor.vv	v11, v11, v22
	vxor.vv	v25, v26, v16
	vsetivli	zero, 14, e8, m1, tu, ma
	vrgather.vv	v17, v15, v18
	vsetivli	zero, 16, e8, m1, ta, ma
	vxor.vv	v27, v23, v27
	vsetivli	zero, 14, e8, m1, tu, ma
	vrgather.vv	v28, v30, v18
	vsetivli	zero, 16, e8, m1, ta, ma
	vxor.vv	v21, v19, v21
	vand.vv	v16, v10, v24
	vand.vv	v31, v11, v24
	vand.vv	v25, v25, v24
	vxor.vv	v10, v15, v17
	vand.vv	v11, v27, v24
	vxor.vv	v17, v28, v30
	vsetivli	zero, 14, e8, m1, tu, ma
	vrgather.vv	v29, v13, v18
	vsetivli	zero, 16, e8, m1, ta, ma
	vand.vv	v18, v21, v24
	vrgather.vv	v21, v16, v9
	vand.vv	v27, v10, v24
	vand.vv	v17, v17, v24
	vxor.vv	v10, v29, v13
	vand.vv	v10, v10, v24
	vrgather.vv	v24, v11, v9
	vsetivli	zero, 2, e8, m1, tu, ma
	vmv.v.v	v24, v12
	vsetivli	zero, 16, e8, m1, ta, ma
	vxor.vv	v23, v23, v24
	vrgather.vv	v24, v25, v9
	vsetivli	zero, 2, e8, m1, tu, ma
	vmv.v.v	v24, v12
	vsetivli	zero, 16, e8, m1, ta, ma
	vxor.vv	v24, v26, v24
	vrgather.vv	v26, v31, v9
	vsetivli	zero, 2, e8, m1, tu, ma
	vmv.v.v	v26, v12
	vsetivli	zero, 16, e8, m1, ta, ma
	vxor.vv	v22, v26, v22
	vrgather.vv	v26, v18, v9
	vsetivli	zero, 2, e8, m1, tu, ma
	vmv.v.v	v21, v12
	vsetivli	zero, 16, e8, m1, ta, ma
	vxor.vv	v20, v21, v20
	vrgather.vv	v21, v27, v9
	vsetivli	zero, 2, e8, m1, tu, ma
	vmv.v.v	v26, v12
	vsetivli	zero, 16, e8, m1, ta, ma
	vxor.vv	v26, v19, v26
	vrgather.vv	v19, v17, v9
	vsetivli	zero, 2, e8, m1, tu, ma
	vmv.v.v	v21, v12
	vmv.v.v	v19, v12
	vsetivli	zero, 16, e8, m1, ta, ma
	vrgather.vv	v28, v10, v9
	vsetivli	zero, 2, e8, m1, tu, ma
	vmv.v.v	v28, v12
	vsetivli	zero, 16, e8, m1, ta, ma
	vxor.vv	v9, v19, v30
	vxor.vv	v19, v23, v11
.Laes_pcrel_hi199:
	auipc	a4, %pcrel_hi(.Laes_CPI53_1)
	vxor.vv	v15, v15, v21
	vmv.s.x	v11, zero
	lui	a5, 4080
	addi	a4, a4, %pcrel_lo(.Laes_pcrel_hi199)
	vadd.vi	v8, v8, -1
	addi	a5, a5, 255
	vxor.vv	v23, v24, v25
	vle8.v	v12, (a4)
	slli	a4, a5, 32
	vxor.vv	v21, v22, v31
	vxor.vv	v22, v20, v16
	vxor.vv	v20, v26, v18
	vxor.vv	v16, v28, v13
	vxor.vv	v18, v9, v17
	vxor.vv	v17, v15, v27
	vrgather.vv	v13, v22, v12
	vrgather.vv	v15, v21, v12
	vrgather.vv	v24, v23, v12
	vrgather.vv	v25, v19, v12
	vrgather.vv	v26, v20, v12
	vxor.vv	v9, v16, v10
	vslideup.vi	v13, v11, 15
	vslideup.vi	v15, v11, 15
	vslideup.vi	v24, v11, 15
	vrgather.vv	v27, v17, v12
	vslideup.vi	v25, v11, 15
	vrgather.vv	v28, v18, v12
	vslideup.vi	v26, v11, 15
	vslideup.vi	v27, v11, 15
	vslideup.vi	v28, v11, 15
	vrgather.vv	v29, v9, v12
	vslideup.vi	v29, v11, 15
	vsetivli	zero, 2, e64, m1, ta, ma
	vmv.v.x	v11, a4
	vsetivli	zero, 16, e8, m1, ta, ma
	vxor.vv	v10, v22, v13
	vxor.vv	v12, v21, v15
	vxor.vv	v13, v23, v24
	vxor.vv	v15, v19, v25
	vxor.vv	v24, v20, v26
	vand.vv	v10, v10, v11
	vand.vv	v16, v12, v11
	vand.vv	v25, v13, v11
	vxor.vv	v12, v17, v27
	vand.vv	v26, v15, v11
	vxor.vv	v13, v18, v28
	vand.vv	v15, v24, v11
	vand.vv	v12, v12, v11
	vand.vv	v13, v13, v11
	vxor.vv	v24, v9, v29
	vand.vv	v11, v24, v11
	vrgather.vv	v24, v26, v8
	vsetvli	zero, zero, e8, m1, tu, ma
	vmv.s.x	v24, zero
	vsetvli	zero, zero, e8, m1, ta, ma
	vxor.vv	v24, v19, v24
	vrgather.vv	v19, v25, v8
	vsetvli	zero, zero, e8, m1, tu, ma
	vmv.s.x	v19, zero
	vsetvli	zero, zero, e8, m1, ta, ma
	vxor.vv	v27, v23, v19
	vrgather.vv	v19, v16, v8
	vsetvli	zero, zero, e8, m1, tu, ma
	vmv.s.x	v19, zero
	vsetvli	zero, zero, e8, m1, ta, ma
	vxor.vv	v21, v21, v19
	vrgather.vv	v19, v10, v8
	vsetvli	zero, zero, e8, m1, tu, ma
	vmv.s.x	v19, zero
	vsetvli	zero, zero, e8, m1, ta, ma
	vxor.vv	v19, v22, v19
	vrgather.vv	v22, v15, v8
	vsetvli	zero, zero, e8, m1, tu, ma
	vmv.s.x	v22, zero
	vsetvli	zero, zero, e8, m1, ta, ma
	vxor.vv	v22, v20, v22
	vrgather.vv	v20, v13, v8
	vsetvli	zero, zero, e8, m1, tu, ma
	vmv.s.x	v20, zero
	vsetvli	zero, zero, e8, m1, ta, ma
	vxor.vv	v23, v18, v20
	vxor.vv	v18, v24, v26
	vrgather.vv	v20, v12, v8
	vsetvli	zero, zero, e8, m1, tu, ma
	vmv.s.x	v20, zero
	vsetvli	zero, zero, e8, m1, ta, ma
	vxor.vv	v24, v17, v20
.Laes_pcrel_hi200:
	auipc	a5, %pcrel_hi(.Laes_CPI53_2)
.Laes_pcrel_hi201:
	auipc	a4, %pcrel_hi(.Laes_CPI53_3)
	addi	a5, a5, %pcrel_lo(.Laes_pcrel_hi200)
	vxor.vv	v20, v27, v25
	vle8.v	v17, (a5)
	li	a5, 32
	addi	a4, a4, %pcrel_lo(.Laes_pcrel_hi201)
	vxor.vv	v16, v21, v16
	vle8.v	v21, (a4)
.Laes_pcrel_hi203:
	auipc	a4, %pcrel_hi(.Laes_CPI53_5)
	addi	a4, a4, %pcrel_lo(.Laes_pcrel_hi203)
	vrgather.vv	v25, v11, v8
	vsetvli	zero, zero, e8, m1, tu, ma
	vmv.s.x	v25, zero
	vsetvli	zero, zero, e8, m1, ta, ma
	vxor.vv	v8, v19, v10
	vxor.vv	v10, v22, v15
	vxor.vv	v9, v9, v25
	vxor.vv	v13, v23, v13
	vxor.vv	v12, v24, v12
	vrgather.vv	v15, v8, v17
	vrgather.vv	v19, v16, v17
	vrgather.vv	v22, v20, v17
	vrgather.vv	v23, v18, v17
	vrgather.vv	v24, v10, v17
	vxor.vv	v9, v9, v11
	vxor.vv	v8, v8, v15
	vxor.vv	v11, v16, v19
	vxor.vv	v16, v20, v22
	vxor.vv	v18, v18, v23
	vxor.vv	v20, v10, v24
	vrgather.vv	v10, v8, v21
	vxor.vv	v15, v10, v15
	vrgather.vv	v10, v11, v21
	vxor.vv	v10, v10, v19
	vrgather.vv	v19, v16, v21
	vxor.vv	v19, v19, v22
	vrgather.vv	v22, v18, v21
	vxor.vv	v22, v23, v22
	vrgather.vv	v23, v20, v21
	vxor.vv	v23, v24, v23
	vrgather.vv	v24, v12, v17
	vxor.vv	v25, v10, v8
	vrgather.vv	v8, v13, v17
	vrgather.vv	v26, v9, v17
	vxor.vv	v10, v12, v24
	vxor.vv	v12, v13, v8
	vxor.vv	v9, v9, v26
	vxor.vv	v13, v19, v11
	vrgather.vv	v11, v10, v21
	vxor.vv	v11, v11, v24
	vrgather.vv	v17, v12, v21
	vrgather.vv	v19, v9, v21
	vxor.vv	v17, v8, v17
	vxor.vv	v21, v23, v9
	vsetvli	zero, a5, e8, m2, ta, ma
	vle8.v	v8, (a4)
	csrr	a4, vlenb
	vsetivli	zero, 16, e8, m1, ta, ma
	vxor.vv	v22, v22, v20
	vxor.vv	v16, v11, v16
	vxor.vv	v22, v22, v10
	vsetvli	zero, a5, e8, m2, ta, ma
	vslidedown.vx	v10, v8, a4
	lui	a4, 1048560
	vsetivli	zero, 16, e8, m1, ta, ma
	vxor.vv	v9, v15, v20
	vxor.vv	v11, v25, v20
	vxor.vv	v15, v17, v18
	vxor.vv	v17, v26, v19
	vsrl.vi	v18, v9, 1
	vsrl.vi	v19, v13, 1
	vxor.vv	v16, v16, v20
	vxor.vv	v12, v17, v12
	vxor.vv	v17, v18, v11
	vsrl.vi	v18, v22, 1
	vand.vx	v17, v17, a2
	vxor.vv	v19, v16, v19
	vxor.vv	v18, v18, v15
	vsrl.vi	v20, v12, 1
	vxor.vv	v11, v17, v11
	vadd.vv	v17, v17, v17
	vand.vx	v19, v19, a2
	vand.vx	v18, v18, a2
	vxor.vv	v20, v21, v20
	vxor.vv	v17, v17, v9
	vxor.vv	v9, v19, v16
	vadd.vv	v16, v19, v19
	vxor.vv	v15, v18, v15
	vadd.vv	v18, v18, v18
	vand.vx	v19, v20, a2
	vsrl.vi	v20, v11, 2
	vxor.vv	v13, v16, v13
	vxor.vv	v16, v18, v22
	vxor.vv	v18, v19, v21
	vadd.vv	v19, v19, v19
	vsrl.vi	v21, v17, 2
	vxor.vv	v20, v9, v20
	vsrl.vi	v22, v15, 2
	vxor.vv	v12, v19, v12
	vxor.vv	v19, v13, v21
	vsrl.vi	v21, v16, 2
	vand.vx	v20, v20, a3
	vxor.vv	v22, v18, v22
	vand.vx	v19, v19, a3
	vxor.vv	v21, v12, v21
	vxor.vv	v23, v20, v9
	vsll.vi	v20, v20, 2
	vand.vx	v22, v22, a3
	vxor.vv	v9, v19, v13
	vsll.vi	v13, v19, 2
	vand.vx	v19, v21, a3
	vxor.vv	v20, v20, v11
	vxor.vv	v18, v22, v18
	vsll.vi	v21, v22, 2
	vsrl.vi	v22, v23, 4
	vxor.vv	v24, v13, v17
	vxor.vv	v11, v19, v12
	vsll.vi	v12, v19, 2
	vxor.vv	v13, v21, v15
	vsrl.vi	v15, v20, 4
	vand.vi	v17, v18, 15
	vxor.vv	v25, v12, v16
	vand.vi	v12, v13, 15
	vxor.vv	v16, v17, v22
	vxor.vv	v12, v12, v15
	vxor.vv	v15, v16, v18
	vsll.vi	v16, v16, 4
	vxor.vv	v21, v12, v13
	vsll.vi	v12, v12, 4
	vxor.vv	v18, v16, v23
	vsetvli	a2, zero, e8, m1, ta, ma
	vrgather.vv	v13, v15, v10
	vsetivli	zero, 16, e8, m1, ta, ma
	vxor.vv	v22, v12, v20
	vsetvli	a2, zero, e8, m1, ta, ma
	vrgather.vv	v17, v18, v10
	vrgather.vv	v12, v15, v8
	vrgather.vv	v16, v18, v8
	vrgather.vv	v19, v21, v10
	vrgather.vv	v18, v21, v8
	vsetvli	zero, zero, e32, m4, ta, ma
	vmv.s.x	v0, a4
	vsetvli	zero, zero, e8, m1, ta, ma
	vrgather.vv	v21, v22, v10
	vrgather.vv	v20, v22, v8
	vsetivli	zero, 16, e8, m1, ta, ma
	vsrl.vi	v8, v24, 4
	vand.vi	v10, v25, 15
	vxor.vv	v10, v10, v8
	vsll.vi	v8, v10, 4
	vxor.vv	v15, v8, v24
	vrgather.vv	v8, v15, v14
	vsetvli	zero, a5, e8, m2, ta, ma
	vmerge.vvm	v20, v8, v20, v0
	vsetivli	zero, 16, e8, m1, ta, ma
	vsrl.vi	v8, v9, 4
	vand.vi	v15, v11, 15
	vxor.vv	v15, v15, v8
	vsll.vi	v8, v15, 4
	vxor.vv	v9, v8, v9
	vrgather.vv	v8, v9, v14
	vsetvli	zero, a5, e8, m2, ta, ma
	vmerge.vvm	v8, v8, v16, v0
	vsetivli	zero, 16, e8, m1, ta, ma
	vxor.vv	v16, v10, v25
	vrgather.vv	v10, v16, v14
	vsetvli	zero, a5, e8, m2, ta, ma
	vmerge.vvm	v16, v10, v18, v0
	vsetivli	zero, 16, e8, m1, ta, ma
	vxor.vv	v11, v15, v11
	vrgather.vv	v10, v11, v14
	vsetvli	zero, a5, e8, m2, ta, ma
	vmerge.vvm	v10, v10, v12, v0
	vse8.v	v20, (a0)
	vse8.v	v8, (t4)
	vse8.v	v16, (t3)
	vse8.v	v10, (t2)
	vsetivli	zero, 16, e8, m1, ta, ma
	vle8.v	v8, (a0)
	vle8.v	v9, (a1)
	addi	a2, a1, 16
	vxor.vv	v8, v9, v8
	vle8.v	v9, (t1)
	vse8.v	v8, (a0)
	vle8.v	v8, (a2)
	addi	a0, a1, 32
	vxor.vv	v8, v8, v9
	vle8.v	v9, (t4)
	vse8.v	v8, (t1)
	vle8.v	v8, (a0)
	addi	a0, a1, 48
	vxor.vv	v8, v8, v9
	vle8.v	v9, (t0)
	vse8.v	v8, (t4)
	vle8.v	v8, (a0)
	addi	a0, a1, 64
	vxor.vv	v8, v8, v9
	vle8.v	v9, (t3)
	vse8.v	v8, (t0)
	vle8.v	v8, (a0)
	addi	a0, a1, 80
	vxor.vv	v8, v8, v9
	vle8.v	v9, (a7)
	vse8.v	v8, (t3)
	vle8.v	v8, (a0)
	addi	a0, a1, 96
	vxor.vv	v8, v8, v9
	vle8.v	v9, (t2)
	vse8.v	v8, (a7)
	vle8.v	v8, (a0)
	addi	a0, a1, 112
	vxor.vv	v8, v8, v9
	vse8.v	v8, (t2)
	vle8.v	v8, (a6)
	vle8.v	v9, (a0)
	vxor.vv	v8, v9, v8
	vse8.v	v8, (a6)
	ret
.Laes_func_end53:
	.size	aes.aes_c.single_rounds.rounds, .Laes_func_end53-aes.aes_c.single_rounds.rounds
                                        # -- End function
	.section	.text.aes.ccm.mode.decrypt,"ax",@progbits
	.p2align	1                               # -- Begin function ccm::mode::decrypt::<#ef80964e0b8d42c0>
	.type	aes.ccm.mode.decrypt,@function
aes.ccm.mode.decrypt: # @aes.ccm.mode.decrypt
# %bb.0:                                # %start
	addi	sp, sp, -160
	sd	ra, 152(sp)                     # 8-byte Folded Spill
	sd	s0, 144(sp)                     # 8-byte Folded Spill
	sd	s1, 136(sp)                     # 8-byte Folded Spill
	sd	s2, 128(sp)                     # 8-byte Folded Spill
	sd	s3, 120(sp)                     # 8-byte Folded Spill
	sd	s4, 112(sp)                     # 8-byte Folded Spill
	sd	s5, 104(sp)                     # 8-byte Folded Spill
	sd	s6, 96(sp)                      # 8-byte Folded Spill
	sd	s7, 88(sp)                      # 8-byte Folded Spill
	sd	s8, 80(sp)                      # 8-byte Folded Spill
	sd	s9, 72(sp)                      # 8-byte Folded Spill
	sd	s10, 64(sp)                     # 8-byte Folded Spill
	sd	s11, 56(sp)                     # 8-byte Folded Spill
	addi	t0, t4, -4
	li	s0, 12
	li	s1, 0
	bltu	s0, t0, .Laes_BB54_7
# %bb.1:                                # %start
	andi	s0, t4, 1
	bnez	s0, .Laes_BB54_7
# %bb.2:                                # %after.1.i
	addi	s1, a3, -14
	li	s0, -7
	bgeu	s1, s0, .Laes_BB54_4
# %bb.3:
	li	s1, 1
	j	.Laes_BB54_7
.Laes_BB54_4:                               # %"ccm::formatting::check.exit"
	li	s1, 7
	beq	a3, s1, .Laes_BB54_9
# %bb.5:                                # %"ccm::formatting::check.exit"
	slli	s1, a3, 3
	xori	s1, s1, 120
	srl	s1, a7, s1
	beqz	s1, .Laes_BB54_9
# %bb.6:
	li	s1, 2
.Laes_BB54_7:                               # %arm.1
	li	a1, 1
	sb	a1, 0(a0)
	sb	zero, 1(a0)
	sb	s1, 2(a0)
.Laes_BB54_8:                               # %common.ret
	ld	ra, 152(sp)                     # 8-byte Folded Reload
	ld	s0, 144(sp)                     # 8-byte Folded Reload
	ld	s1, 136(sp)                     # 8-byte Folded Reload
	ld	s2, 128(sp)                     # 8-byte Folded Reload
	ld	s3, 120(sp)                     # 8-byte Folded Reload
	ld	s4, 112(sp)                     # 8-byte Folded Reload
	ld	s5, 104(sp)                     # 8-byte Folded Reload
	ld	s6, 96(sp)                      # 8-byte Folded Reload
	ld	s7, 88(sp)                      # 8-byte Folded Reload
	ld	s8, 80(sp)                      # 8-byte Folded Reload
	ld	s9, 72(sp)                      # 8-byte Folded Reload
	ld	s10, 64(sp)                     # 8-byte Folded Reload
	ld	s11, 56(sp)                     # 8-byte Folded Reload
	addi	sp, sp, 160
	ret
.Laes_BB54_9:                               # %join.4
	sd	a0, 8(sp)                       # 8-byte Folded Spill
	li	a0, 14
	sub	s11, a0, a3
	sd	zero, 16(sp)
	sw	zero, 24(sp)
	sh	zero, 28(sp)
	sb	zero, 30(sp)
	addi	a0, sp, 16
	mv	s0, a1
	mv	a1, a2
	mv	s3, a2
	mv	a2, a3
	mv	s6, a7
	mv	s1, a6
	mv	s4, a3
	mv	s7, t4
	mv	s8, t3
	mv	s9, a5
	mv	s10, a4
	la	t1, memcpy
	jalr	t1
	sb	s11, 32(sp)
	addi	a0, sp, 33
	addi	a1, sp, 16
	li	a2, 15
	la	t1, memcpy
	jalr	t1
	addi	a1, sp, 32
	li	a2, 16
	mv	a0, s0
	mv	a3, s1
	mv	a4, s6
	call	aes.aes_ctr.add_in_batches.add_keystream
	addi	t3, sp, 16
	mv	s2, s0
	mv	a0, s0
	mv	s5, s3
	mv	a1, s3
	mv	s0, s4
	mv	a2, s4
	mv	a3, s7
	mv	a4, s10
	mv	a5, s9
	mv	s3, s1
	mv	a6, s1
	mv	s4, s6
	mv	a7, s6
	call	aes.ccm.message.put_tag
	vsetivli	zero, 16, e8, m1, ta, ma
	addi	a0, sp, 16
	vle8.v	v8, (a0)
	addi	a0, sp, 32
	vse8.v	v8, (a0)
	mv	a1, s8
	mv	a2, s7
	la	t1, memcpy
	jalr	t1
	addi	a0, sp, 32
	addi	a1, sp, 16
	call	aes.aes_cipher.blocks.difference
	slli	a0, a0, 32
	srli	a0, a0, 32
	beqz	a0, .Laes_BB54_11
# %bb.10:                               # %join.7
	sd	zero, 16(sp)
	sw	zero, 24(sp)
	sh	zero, 28(sp)
	sb	zero, 30(sp)
	addi	a0, sp, 16
	mv	a1, s5
	mv	a2, s0
	la	t1, memcpy
	jalr	t1
	sb	s11, 32(sp)
	addi	a0, sp, 33
	addi	a1, sp, 16
	li	a2, 15
	la	t1, memcpy
	jalr	t1
	addi	a1, sp, 32
	li	a2, 16
	mv	a0, s2
	mv	a3, s3
	mv	a4, s4
	call	aes.aes_ctr.add_in_batches.add_keystream
	li	a0, 1
	ld	a1, 8(sp)                       # 8-byte Folded Reload
	sb	a0, 0(a1)
	sb	a0, 1(a1)
	sb	zero, 2(a1)
	j	.Laes_BB54_8
.Laes_BB54_11:                              # %then.5
	ld	a0, 8(sp)                       # 8-byte Folded Reload
	sb	zero, 0(a0)
	sb	zero, 1(a0)
	sb	zero, 2(a0)
	j	.Laes_BB54_8
.Laes_func_end54:
	.size	aes.ccm.mode.decrypt, .Laes_func_end54-aes.ccm.mode.decrypt
                                        # -- End function
	.section	.rodata.cst16,"aM",@progbits,16
	.p2align	4, 0x0                          # -- Begin function ccm::message::put_tag::<#ef80964e0b8d42c0>
.Laes_CPI55_0:
	.byte	0                               # 0x0
	.byte	1                               # 0x1
	.byte	28                              # 0x1c
	.byte	29                              # 0x1d
	.byte	45                              # 0x2d
	.byte	44                              # 0x2c
	.byte	49                              # 0x31
	.byte	48                              # 0x30
	.byte	39                              # 0x27
	.byte	38                              # 0x26
	.byte	59                              # 0x3b
	.byte	58                              # 0x3a
	.byte	10                              # 0xa
	.byte	11                              # 0xb
	.byte	22                              # 0x16
	.byte	23                              # 0x17
.Laes_CPI55_1:
	.byte	0                               # 0x0
	.byte	134                             # 0x86
	.byte	253                             # 0xfd
	.byte	123                             # 0x7b
	.byte	142                             # 0x8e
	.byte	8                               # 0x8
	.byte	115                             # 0x73
	.byte	245                             # 0xf5
	.byte	119                             # 0x77
	.byte	241                             # 0xf1
	.byte	138                             # 0x8a
	.byte	12                              # 0xc
	.byte	249                             # 0xf9
	.byte	127                             # 0x7f
	.byte	4                               # 0x4
	.byte	130                             # 0x82
.Laes_CPI55_2:
	.byte	128                             # 0x80
	.byte	2                               # 0x2
	.byte	1                               # 0x1
	.byte	15                              # 0xf
	.byte	9                               # 0x9
	.byte	5                               # 0x5
	.byte	14                              # 0xe
	.byte	12                              # 0xc
	.byte	13                              # 0xd
	.byte	4                               # 0x4
	.byte	11                              # 0xb
	.byte	10                              # 0xa
	.byte	7                               # 0x7
	.byte	8                               # 0x8
	.byte	6                               # 0x6
	.byte	3                               # 0x3
.Laes_CPI55_3:
	.byte	128                             # 0x80
	.byte	1                               # 0x1
	.byte	9                               # 0x9
	.byte	14                              # 0xe
	.byte	13                              # 0xd
	.byte	11                              # 0xb
	.byte	7                               # 0x7
	.byte	6                               # 0x6
	.byte	15                              # 0xf
	.byte	2                               # 0x2
	.byte	12                              # 0xc
	.byte	5                               # 0x5
	.byte	10                              # 0xa
	.byte	4                               # 0x4
	.byte	3                               # 0x3
	.byte	8                               # 0x8
.Laes_CPI55_4:
	.byte	0                               # 0x0
	.byte	195                             # 0xc3
	.byte	79                              # 0x4f
	.byte	12                              # 0xc
	.byte	252                             # 0xfc
	.byte	124                             # 0x7c
	.byte	67                              # 0x43
	.byte	128                             # 0x80
	.byte	207                             # 0xcf
	.byte	51                              # 0x33
	.byte	63                              # 0x3f
	.byte	112                             # 0x70
	.byte	191                             # 0xbf
	.byte	179                             # 0xb3
	.byte	240                             # 0xf0
	.byte	140                             # 0x8c
.Laes_CPI55_5:
	.byte	0                               # 0x0
	.byte	230                             # 0xe6
	.byte	114                             # 0x72
	.byte	183                             # 0xb7
	.byte	229                             # 0xe5
	.byte	198                             # 0xc6
	.byte	197                             # 0xc5
	.byte	35                              # 0x23
	.byte	81                              # 0x51
	.byte	180                             # 0xb4
	.byte	3                               # 0x3
	.byte	113                             # 0x71
	.byte	32                              # 0x20
	.byte	151                             # 0x97
	.byte	82                              # 0x52
	.byte	148                             # 0x94
.Laes_CPI55_6:
	.byte	0                               # 0x0
	.byte	124                             # 0x7c
	.byte	32                              # 0x20
	.byte	207                             # 0xcf
	.byte	146                             # 0x92
	.byte	1                               # 0x1
	.byte	239                             # 0xef
	.byte	147                             # 0x93
	.byte	179                             # 0xb3
	.byte	33                              # 0x21
	.byte	238                             # 0xee
	.byte	206                             # 0xce
	.byte	125                             # 0x7d
	.byte	178                             # 0xb2
	.byte	93                              # 0x5d
	.byte	92                              # 0x5c
.Laes_CPI55_7:
	.byte	0                               # 0x0
	.byte	209                             # 0xd1
	.byte	229                             # 0xe5
	.byte	247                             # 0xf7
	.byte	230                             # 0xe6
	.byte	37                              # 0x25
	.byte	18                              # 0x12
	.byte	195                             # 0xc3
	.byte	38                              # 0x26
	.byte	192                             # 0xc0
	.byte	55                              # 0x37
	.byte	210                             # 0xd2
	.byte	244                             # 0xf4
	.byte	3                               # 0x3
	.byte	17                              # 0x11
	.byte	52                              # 0x34
.Laes_CPI55_8:
	.byte	0                               # 0x0
	.byte	203                             # 0xcb
	.byte	215                             # 0xd7
	.byte	176                             # 0xb0
	.byte	33                              # 0x21
	.byte	141                             # 0x8d
	.byte	103                             # 0x67
	.byte	172                             # 0xac
	.byte	123                             # 0x7b
	.byte	90                              # 0x5a
	.byte	234                             # 0xea
	.byte	61                              # 0x3d
	.byte	70                              # 0x46
	.byte	246                             # 0xf6
	.byte	145                             # 0x91
	.byte	28                              # 0x1c
.Laes_CPI55_9:
	.byte	0                               # 0x0
	.byte	159                             # 0x9f
	.byte	97                              # 0x61
	.byte	22                              # 0x16
	.byte	194                             # 0xc2
	.byte	42                              # 0x2a
	.byte	119                             # 0x77
	.byte	232                             # 0xe8
	.byte	137                             # 0x89
	.byte	75                              # 0x4b
	.byte	93                              # 0x5d
	.byte	60                              # 0x3c
	.byte	181                             # 0xb5
	.byte	163                             # 0xa3
	.byte	212                             # 0xd4
	.byte	254                             # 0xfe
	.section	.text.aes.ccm.message.put_tag,"ax",@progbits
	.p2align	1
	.type	aes.ccm.message.put_tag,@function
aes.ccm.message.put_tag: # @aes.ccm.message.put_tag
# %bb.0:                                # %start
	addi	sp, sp, -224
	sd	ra, 216(sp)                     # 8-byte Folded Spill
	sd	s0, 208(sp)                     # 8-byte Folded Spill
	sd	s1, 200(sp)                     # 8-byte Folded Spill
	sd	s2, 192(sp)                     # 8-byte Folded Spill
	sd	s3, 184(sp)                     # 8-byte Folded Spill
	sd	s4, 176(sp)                     # 8-byte Folded Spill
	sd	s5, 168(sp)                     # 8-byte Folded Spill
	sd	s6, 160(sp)                     # 8-byte Folded Spill
	sd	s7, 152(sp)                     # 8-byte Folded Spill
	sd	s8, 144(sp)                     # 8-byte Folded Spill
	sd	s9, 136(sp)                     # 8-byte Folded Spill
	sd	s10, 128(sp)                    # 8-byte Folded Spill
	sd	s11, 120(sp)                    # 8-byte Folded Spill
	csrr	t1, vlenb
	li	t0, 6
	mul	t1, t1, t0
	li	t2, 3
	slli	t2, t2, 10
.Laes_BB55_1:                               # %start
                                        # =>This Inner Loop Header: Depth=1
	sub	sp, sp, t2
	sd	zero, 0(sp)
	sub	t1, t1, t2
	bge	t1, t2, .Laes_BB55_1
# %bb.2:                                # %start
	sub	sp, sp, t1
	mv	s2, t3
	mv	s7, a7
	sd	a6, 48(sp)                      # 8-byte Folded Spill
	mv	s8, a5
	mv	s6, a4
	mv	s4, a2
	mv	s9, a1
	mv	s10, a0
	srli	a0, a7, 40
	lui	a1, 16
	srli	a2, a7, 56
	srli	a4, a7, 24
	lui	a5, 4080
	addi	a1, a1, -256
	and	a0, a0, a1
	or	a0, a0, a2
	srli	a2, a7, 8
	and	a4, a4, a5
	srliw	a2, a2, 24
	slli	a2, a2, 24
	or	a2, a2, a4
	srliw	a4, a7, 24
	and	a5, a7, a5
	slli	a4, a4, 32
	slli	a5, a5, 24
	or	a4, a4, a5
	addi	a5, a3, -2
	sltu	a3, a3, a5
	addi	a3, a3, -1
	and	a3, a3, a5
	slli	a5, a7, 56
	and	a1, a7, a1
	slli	a1, a1, 40
	or	a0, a0, a2
	or	a1, a1, a5
	slli	a3, a3, 2
	or	a1, a1, a4
	andi	a2, a3, 248
	or	a0, a0, a1
	sd	a0, 56(sp)
	sub	a0, a2, s4
	beqz	s8, .Laes_BB55_4
# %bb.3:                                # %start
	li	a1, 78
	j	.Laes_BB55_5
.Laes_BB55_4:
	li	a1, 14
.Laes_BB55_5:                               # %start
	add	s0, a1, a0
	sd	zero, 64(sp)
	sw	zero, 72(sp)
	sh	zero, 76(sp)
	sb	zero, 78(sp)
	addi	a0, sp, 64
	mv	a1, s9
	mv	a2, s4
	la	t1, memcpy
	jalr	t1
	sb	s0, 80(sp)
	addi	s0, sp, 81
	addi	a1, sp, 64
	li	a2, 15
	li	s1, 15
	mv	a0, s0
	la	t1, memcpy
	jalr	t1
	add	a0, s0, s4
	addi	a1, sp, 56
	add	a1, a1, s4
	addi	a1, a1, -7
	sub	a2, s1, s4
	la	t1, memcpy
	jalr	t1
	addi	a0, sp, 80
.Laes_pcrel_hi204:
	auipc	a4, %pcrel_hi(.Laes_CPI55_0)
.Laes_pcrel_hi205:
	auipc	a5, %pcrel_hi(.Laes_CPI55_1)
.Laes_pcrel_hi206:
	auipc	s1, %pcrel_hi(.Laes_CPI55_2)
.Laes_pcrel_hi207:
	auipc	s0, %pcrel_hi(.Laes_CPI55_3)
	li	a6, 2
.Laes_pcrel_hi208:
	auipc	a7, %pcrel_hi(.Laes_CPI55_4)
.Laes_pcrel_hi209:
	auipc	a3, %pcrel_hi(.Laes_CPI55_5)
	vsetivli	zero, 16, e8, m1, ta, ma
	vle8.v	v8, (a0)
	addi	a0, a4, %pcrel_lo(.Laes_pcrel_hi204)
	addi	a4, a5, %pcrel_lo(.Laes_pcrel_hi205)
	addi	a5, s1, %pcrel_lo(.Laes_pcrel_hi206)
	vle8.v	v11, (a0)
	vle8.v	v12, (a4)
	vse8.v	v8, (s2)
	lbu	a0, 16(s10)
	lbu	a4, 17(s10)
	lbu	s1, 18(s10)
	lbu	a2, 19(s10)
	vle8.v	v21, (a5)
	slli	a4, a4, 8
	slli	s1, s1, 16
	slli	a2, a2, 24
	or	a0, a0, a4
	or	a2, a2, s1
	lbu	a4, 20(s10)
	lbu	a5, 21(s10)
	lbu	s1, 22(s10)
	lbu	a1, 23(s10)
	addi	s0, s0, %pcrel_lo(.Laes_pcrel_hi207)
	slli	a5, a5, 8
	slli	s1, s1, 16
	slli	a1, a1, 24
	or	a4, a4, a5
	or	a1, a1, s1
	or	a0, a0, a2
	or	a1, a1, a4
	slli	a1, a1, 32
	or	a0, a0, a1
	vle8.v	v9, (a0)
	lbu	a1, 24(s10)
	lbu	a2, 25(s10)
	lbu	a4, 26(s10)
	lbu	a5, 27(s10)
	vxor.vv	v8, v9, v8
	vand.vi	v9, v8, 15
	vsrl.vi	v8, v8, 4
	csrr	t0, vlenb
	slli	t1, t0, 1
	add	t0, t0, t1
	add	t0, t0, sp
	addi	t0, t0, 112
	vs1r.v	v11, (t0)                       # vscale x 8-byte Folded Spill
	vrgather.vv	v10, v11, v9
	csrr	t0, vlenb
	slli	t0, t0, 1
	add	t0, t0, sp
	addi	t0, t0, 112
	vs1r.v	v12, (t0)                       # vscale x 8-byte Folded Spill
	vrgather.vv	v9, v12, v8
	vxor.vv	v8, v9, v10
	vle8.v	v22, (s0)
	slli	a2, a2, 8
	slli	a4, a4, 16
	slli	a5, a5, 24
	or	a1, a1, a2
	or	a4, a4, a5
	lbu	a2, 29(s10)
	lbu	a5, 28(s10)
	lbu	s1, 30(s10)
	lbu	s0, 31(s10)
	slli	a2, a2, 8
	or	a2, a2, a5
.Laes_pcrel_hi210:
	auipc	a5, %pcrel_hi(.Laes_CPI55_6)
	slli	s1, s1, 16
	slli	s0, s0, 24
	or	s0, s0, s1
.Laes_pcrel_hi211:
	auipc	s1, %pcrel_hi(.Laes_CPI55_7)
	or	a1, a1, a4
.Laes_pcrel_hi212:
	auipc	a4, %pcrel_hi(.Laes_static.4)
	or	a2, a2, s0
.Laes_pcrel_hi213:
	auipc	s0, %pcrel_hi(.Laes_static.5)
	addi	a7, a7, %pcrel_lo(.Laes_pcrel_hi208)
	addi	t0, a3, %pcrel_lo(.Laes_pcrel_hi209)
	addi	a5, a5, %pcrel_lo(.Laes_pcrel_hi210)
	addi	t1, s1, %pcrel_lo(.Laes_pcrel_hi211)
	addi	s3, a4, %pcrel_lo(.Laes_pcrel_hi212)
	slli	a2, a2, 32
	or	a3, a2, a1
	addi	a1, a3, -1
	addi	s1, s0, %pcrel_lo(.Laes_pcrel_hi213)
	sd	a5, 24(sp)                      # 8-byte Folded Spill
	bltu	a1, a6, .Laes_BB55_8
# %bb.6:                                # %join.5.i.i912.lr.ph
	vle8.v	v10, (a7)
	vle8.v	v11, (t0)
	vle8.v	v12, (a5)
	vle8.v	v13, (t1)
	addi	a2, a3, -2
	li	a3, 16
.Laes_BB55_7:                               # %join.5.i.i912
                                        # =>This Inner Loop Header: Depth=1
	add	a4, a0, a3
	vsrl.vi	v9, v8, 4
	vand.vi	v8, v8, 15
	andi	a5, a3, 48
	addi	a2, a2, -1
	vle8.v	v14, (a4)
	vxor.vv	v15, v9, v8
	vrgather.vv	v16, v21, v8
	vrgather.vv	v8, v22, v9
	add	a4, s3, a5
	add	a5, a5, s1
	vrgather.vv	v17, v22, v15
	vxor.vv	v8, v8, v16
	vxor.vv	v16, v17, v16
	vmsle.vi	v0, v8, -1
	vrgather.vv	v17, v22, v8
	vmerge.vim	v8, v17, 0, v0
	vmsle.vi	v0, v16, -1
	vrgather.vv	v17, v22, v16
	vmerge.vim	v16, v17, 0, v0
	vxor.vv	v15, v8, v15
	vmsle.vi	v8, v8, -1
	vxor.vv	v17, v16, v9
	vrgather.vv	v18, v10, v15
	vmsle.vi	v9, v16, -1
	vrgather.vv	v16, v11, v17
	vmv1r.v	v0, v9
	vmerge.vim	v16, v16, 0, v0
	vxor.vv	v18, v16, v18
	vmv1r.v	v0, v8
	vmerge.vvm	v16, v18, v16, v0
	vle8.v	v18, (a4)
	vle8.v	v19, (a5)
	vrgather.vv	v20, v12, v15
	vrgather.vv	v15, v13, v17
	vmv1r.v	v0, v9
	vmerge.vim	v15, v15, 0, v0
	vmsle.vi	v9, v18, -1
	vxor.vv	v17, v15, v20
	vmv1r.v	v0, v8
	vmerge.vvm	v8, v17, v15, v0
	vrgather.vv	v15, v16, v18
	vrgather.vv	v17, v16, v19
	vxor.vv	v15, v8, v15
	vmv1r.v	v0, v9
	vmerge.vvm	v15, v15, v8, v0
	vmsle.vi	v8, v19, -1
	vrgather.vv	v16, v15, v18
	vxor.vv	v16, v14, v16
	vmerge.vvm	v9, v16, v14, v0
	vxor.vv	v14, v9, v17
	vmv1r.v	v0, v8
	vmerge.vvm	v8, v14, v9, v0
	vxor.vv	v8, v8, v15
	addi	a3, a3, 16
	bnez	a2, .Laes_BB55_7
.Laes_BB55_8:                               # %"aes_permute::blocks::process_block::<#aedbc4fd156a355d>.exit1656"
	sd	t1, 16(sp)                      # 8-byte Folded Spill
	sd	t0, 32(sp)                      # 8-byte Folded Spill
	sd	a7, 40(sp)                      # 8-byte Folded Spill
	addi	s11, sp, 88
	slli	a1, a1, 4
	vsrl.vi	v9, v8, 4
	vand.vi	v10, v8, 15
	add	a0, a0, a1
	vle8.v	v8, (a0)
.Laes_pcrel_hi214:
	auipc	a0, %pcrel_hi(.Laes_CPI55_8)
	addi	a0, a0, %pcrel_lo(.Laes_pcrel_hi214)
	vle8.v	v14, (a0)
.Laes_pcrel_hi215:
	auipc	a0, %pcrel_hi(.Laes_CPI55_9)
	vxor.vv	v11, v9, v10
	csrr	a2, vlenb
	slli	a3, a2, 2
	add	a2, a2, a3
	add	a2, a2, sp
	addi	a2, a2, 112
	vs1r.v	v21, (a2)                       # vscale x 8-byte Folded Spill
	vrgather.vv	v12, v21, v10
	vrgather.vv	v10, v22, v9
	addi	a0, a0, %pcrel_lo(.Laes_pcrel_hi215)
	vrgather.vv	v13, v22, v11
	vxor.vv	v10, v10, v12
	vxor.vv	v12, v13, v12
	vmsle.vi	v0, v10, -1
	vrgather.vv	v13, v22, v10
	vmerge.vim	v10, v13, 0, v0
	vmsle.vi	v0, v12, -1
	csrr	a2, vlenb
	slli	a2, a2, 2
	add	a2, a2, sp
	addi	a2, a2, 112
	vs1r.v	v22, (a2)                       # vscale x 8-byte Folded Spill
	vrgather.vv	v13, v22, v12
	vmerge.vim	v12, v13, 0, v0
	vle8.v	v13, (a0)
.Laes_pcrel_hi216:
	auipc	a0, %pcrel_hi(.Laes_static.3)
	andi	a1, a1, 48
	addi	s5, a0, %pcrel_lo(.Laes_pcrel_hi216)
	add	a1, a1, s5
	vxor.vv	v9, v12, v9
	vmsle.vi	v0, v12, -1
	addi	a0, sp, 112
	vs1r.v	v13, (a0)                       # vscale x 8-byte Folded Spill
	vrgather.vv	v12, v13, v9
	vmerge.vim	v9, v12, 0, v0
	vle8.v	v12, (a1)
	vxor.vv	v11, v10, v11
	csrr	a0, vlenb
	add	a0, a0, sp
	addi	a0, a0, 112
	vs1r.v	v14, (a0)                       # vscale x 8-byte Folded Spill
	vrgather.vv	v13, v14, v11
	vmsle.vi	v0, v10, -1
	vxor.vv	v10, v9, v13
	vmerge.vvm	v9, v10, v9, v0
	vrgather.vv	v10, v9, v12
	vmsle.vi	v0, v12, -1
	vxor.vv	v9, v8, v10
	vmerge.vvm	v8, v9, v8, v0
	vse8.v	v8, (s2)
	beqz	s8, .Laes_BB55_16
# %bb.9:                                # %join.3.i
	vsetivli	zero, 2, e64, m1, ta, ma
	vmv.v.i	v8, 0
	addi	a0, sp, 80
	srli	a1, s8, 24
	lui	a2, 4080
	srli	a4, s8, 8
	li	a5, 255
	srli	a3, s8, 40
	lui	s0, 16
	vse64.v	v8, (a0)
	and	a1, a1, a2
	slli	a0, a5, 24
	and	a0, a0, a4
	or	a0, a0, a1
	srli	a1, s8, 56
	addi	s0, s0, -256
	and	a3, a3, s0
	or	a1, a1, a3
	srliw	a3, s8, 24
	and	a2, s8, a2
	slli	a3, a3, 32
	slli	a2, a2, 24
	or	a2, a2, a3
	slli	a3, s8, 56
	and	s0, s8, s0
	slli	s0, s0, 40
	or	a0, a0, a1
	or	a3, a3, s0
	or	a3, a3, a2
	or	a1, a3, a0
	bgeu	a4, a5, .Laes_BB55_11
# %bb.10:                               # %then.1.i.i
	addi	a0, sp, 82
	srli	a1, a1, 48
	sh	a1, 80(sp)
	li	a2, 14
	mv	s0, s9
	bgeu	a2, s8, .Laes_BB55_14
	j	.Laes_BB55_15
.Laes_BB55_11:                              # %join.3.i.i
	li	a2, -1
	srli	a0, s8, 32
	sb	a2, 80(sp)
	bnez	a0, .Laes_BB55_13
# %bb.12:                               # %then.4.i.i
	addi	a0, sp, 86
	srli	a3, a3, 32
	li	a1, -2
	srli	a2, a3, 16
	sb	a1, 81(sp)
	sh	a3, 82(sp)
	sh	a2, 84(sp)
	li	a2, 10
	mv	s0, s9
	bgeu	a2, s8, .Laes_BB55_14
	j	.Laes_BB55_15
.Laes_BB55_13:                              # %join.6.i.i
	addi	a0, sp, 90
	srli	a3, a1, 48
	srli	a4, a1, 32
	sh	a3, 88(sp)
	srli	a3, a1, 16
	sb	a2, 81(sp)
	sh	a1, 82(sp)
	sh	a3, 84(sp)
	sh	a4, 86(sp)
	li	a2, 6
	mv	s0, s9
	bltu	a2, s8, .Laes_BB55_15
.Laes_BB55_14:                              # %"ccm::formatting::put_length.exit.i"
	mv	a2, s8
.Laes_BB55_15:                              # %"ccm::formatting::put_length.exit.i"
	add	s9, s6, a2
	sub	s8, s8, a2
	mv	a1, s6
	la	t1, memcpy
	jalr	t1
	addi	a2, sp, 80
	li	a3, 16
	mv	a0, s10
	mv	a1, s2
	call	aes.cmac.chaining.chain
	mv	a0, s10
	mv	a1, s2
	mv	a2, s9
	mv	a3, s8
	call	aes.cmac.chaining.chain
	mv	s9, s0
.Laes_BB55_16:                              # %"ccm::message::chain_additional::<#ef80964e0b8d42c0>.exit"
	mv	a0, s10
	mv	a1, s2
	ld	a2, 48(sp)                      # 8-byte Folded Reload
	mv	a3, s7
	call	aes.cmac.chaining.chain
	li	a0, 14
	sub	s6, a0, s4
	sd	zero, 80(sp)
	sw	zero, 88(sp)
	sh	zero, 92(sp)
	sb	zero, 94(sp)
	addi	a0, sp, 80
	addi	s0, sp, 80
	mv	a1, s9
	mv	a2, s4
	la	t1, memcpy
	jalr	t1
	vsetivli	zero, 8, e8, mf2, ta, ma
	vle8.v	v9, (s0)
	vsetivli	zero, 4, e8, mf4, ta, ma
	vle8.v	v10, (s11)
	addi	s11, s11, 4
	lbu	a6, 94(sp)
	lbu	a7, 16(s10)
	lbu	a2, 17(s10)
	lbu	a3, 18(s10)
	lbu	a4, 19(s10)
	vsetivli	zero, 2, e8, mf8, ta, ma
	vle8.v	v8, (s11)
	vsetivli	zero, 16, e8, m1, ta, ma
	vslide1up.vx	v11, v9, s6
	lbu	a5, 20(s10)
	lbu	s0, 21(s10)
	lbu	a0, 22(s10)
	lbu	a1, 23(s10)
	slli	a2, a2, 8
	slli	a3, a3, 16
	slli	a4, a4, 24
	slli	s0, s0, 8
	vsetivli	zero, 13, e8, m1, tu, ma
	vslideup.vi	v11, v10, 9
	vmv.s.x	v9, a6
	or	a6, a2, a7
	or	a7, a4, a3
	or	t0, s0, a5
	lbu	a4, 24(s10)
	lbu	s0, 25(s10)
	lbu	a2, 26(s10)
	lbu	a3, 27(s10)
	slli	a0, a0, 16
	slli	a1, a1, 24
	slli	s0, s0, 8
	slli	a2, a2, 16
	slli	a3, a3, 24
	or	a0, a0, a1
	or	a4, a4, s0
	or	a2, a2, a3
	lbu	a1, 29(s10)
	lbu	a3, 28(s10)
	lbu	s0, 30(s10)
	lbu	a5, 31(s10)
	slli	a1, a1, 8
	or	a1, a1, a3
	slli	s0, s0, 16
	slli	a5, a5, 24
	or	a5, a5, s0
	or	a3, a7, a6
	or	a0, a0, t0
	or	a2, a2, a4
	or	a1, a1, a5
	vsetivli	zero, 15, e8, m1, tu, ma
	vslideup.vi	v11, v8, 13
	slli	a0, a0, 32
	slli	a1, a1, 32
	or	a0, a0, a3
	vsetivli	zero, 16, e8, m1, ta, ma
	vle8.v	v8, (a0)
	vslideup.vi	v11, v9, 15
	or	a2, a2, a1
	addi	a1, a2, -1
	vxor.vv	v8, v8, v11
	vand.vi	v9, v8, 15
	vsrl.vi	v8, v8, 4
	csrr	a3, vlenb
	slli	a4, a3, 1
	add	a3, a3, a4
	add	a3, a3, sp
	addi	a3, a3, 112
	vl1r.v	v11, (a3)                       # vscale x 8-byte Folded Reload
	vrgather.vv	v10, v11, v9
	csrr	a3, vlenb
	slli	a3, a3, 1
	add	a3, a3, sp
	addi	a3, a3, 112
	vl1r.v	v11, (a3)                       # vscale x 8-byte Folded Reload
	vrgather.vv	v9, v11, v8
	li	a3, 2
	vxor.vv	v8, v9, v10
	bltu	a1, a3, .Laes_BB55_19
# %bb.17:                               # %join.5.i.i.lr.ph
	ld	a3, 40(sp)                      # 8-byte Folded Reload
	vle8.v	v10, (a3)
	ld	a3, 32(sp)                      # 8-byte Folded Reload
	vle8.v	v11, (a3)
	ld	a3, 24(sp)                      # 8-byte Folded Reload
	vle8.v	v12, (a3)
	ld	a3, 16(sp)                      # 8-byte Folded Reload
	vle8.v	v13, (a3)
	addi	a2, a2, -2
	li	a3, 16
	csrr	a4, vlenb
	slli	a5, a4, 2
	add	a4, a4, a5
	add	a4, a4, sp
	addi	a4, a4, 112
	vl1r.v	v21, (a4)                       # vscale x 8-byte Folded Reload
	csrr	a4, vlenb
	slli	a4, a4, 2
	add	a4, a4, sp
	addi	a4, a4, 112
	vl1r.v	v22, (a4)                       # vscale x 8-byte Folded Reload
.Laes_BB55_18:                              # %join.5.i.i
                                        # =>This Inner Loop Header: Depth=1
	add	a4, a0, a3
	vsrl.vi	v9, v8, 4
	vand.vi	v8, v8, 15
	andi	a5, a3, 48
	addi	a2, a2, -1
	vle8.v	v14, (a4)
	vxor.vv	v15, v9, v8
	vrgather.vv	v16, v21, v8
	vrgather.vv	v8, v22, v9
	add	a4, s3, a5
	add	a5, a5, s1
	vrgather.vv	v17, v22, v15
	vxor.vv	v8, v8, v16
	vxor.vv	v16, v17, v16
	vmsle.vi	v0, v8, -1
	vrgather.vv	v17, v22, v8
	vmerge.vim	v8, v17, 0, v0
	vmsle.vi	v0, v16, -1
	vrgather.vv	v17, v22, v16
	vmerge.vim	v16, v17, 0, v0
	vxor.vv	v15, v8, v15
	vmsle.vi	v8, v8, -1
	vxor.vv	v17, v16, v9
	vrgather.vv	v18, v10, v15
	vmsle.vi	v9, v16, -1
	vrgather.vv	v16, v11, v17
	vmv1r.v	v0, v9
	vmerge.vim	v16, v16, 0, v0
	vxor.vv	v18, v16, v18
	vmv1r.v	v0, v8
	vmerge.vvm	v16, v18, v16, v0
	vle8.v	v18, (a4)
	vle8.v	v19, (a5)
	vrgather.vv	v20, v12, v15
	vrgather.vv	v15, v13, v17
	vmv1r.v	v0, v9
	vmerge.vim	v15, v15, 0, v0
	vmsle.vi	v9, v18, -1
	vxor.vv	v17, v15, v20
	vmv1r.v	v0, v8
	vmerge.vvm	v8, v17, v15, v0
	vrgather.vv	v15, v16, v18
	vrgather.vv	v17, v16, v19
	vxor.vv	v15, v8, v15
	vmv1r.v	v0, v9
	vmerge.vvm	v15, v15, v8, v0
	vmsle.vi	v8, v19, -1
	vrgather.vv	v16, v15, v18
	vxor.vv	v16, v14, v16
	vmerge.vvm	v9, v16, v14, v0
	vxor.vv	v14, v9, v17
	vmv1r.v	v0, v8
	vmerge.vvm	v8, v14, v9, v0
	vxor.vv	v8, v8, v15
	addi	a3, a3, 16
	bnez	a2, .Laes_BB55_18
	j	.Laes_BB55_20
.Laes_BB55_19:
	csrr	a2, vlenb
	slli	a3, a2, 2
	add	a2, a2, a3
	add	a2, a2, sp
	addi	a2, a2, 112
	vl1r.v	v21, (a2)                       # vscale x 8-byte Folded Reload
	csrr	a2, vlenb
	slli	a2, a2, 2
	add	a2, a2, sp
	addi	a2, a2, 112
	vl1r.v	v22, (a2)                       # vscale x 8-byte Folded Reload
.Laes_BB55_20:                              # %"aes_permute::blocks::process_block::<#aedbc4fd156a355d>.exit"
	slli	a1, a1, 4
	vsrl.vi	v9, v8, 4
	vand.vi	v8, v8, 15
	vle8.v	v10, (s2)
	add	a0, a0, a1
	vxor.vv	v11, v9, v8
	vrgather.vv	v12, v21, v8
	vrgather.vv	v8, v22, v9
	andi	a1, a1, 48
	vrgather.vv	v13, v22, v11
	vxor.vv	v8, v8, v12
	vxor.vv	v12, v13, v12
	vmsle.vi	v0, v8, -1
	vrgather.vv	v13, v22, v8
	vmerge.vim	v8, v13, 0, v0
	vle8.v	v13, (a0)
	vrgather.vv	v14, v22, v12
	vmsle.vi	v0, v12, -1
	add	a1, a1, s5
	vmerge.vim	v12, v14, 0, v0
	vle8.v	v14, (a1)
	vxor.vv	v11, v8, v11
	vxor.vv	v9, v12, v9
	csrr	a0, vlenb
	add	a0, a0, sp
	addi	a0, a0, 112
	vl1r.v	v16, (a0)                       # vscale x 8-byte Folded Reload
	vrgather.vv	v15, v16, v11
	vmsle.vi	v0, v12, -1
	addi	a0, sp, 112
	vl1r.v	v12, (a0)                       # vscale x 8-byte Folded Reload
	vrgather.vv	v11, v12, v9
	vmerge.vim	v9, v11, 0, v0
	vmsle.vi	v0, v8, -1
	vxor.vv	v8, v9, v15
	vmerge.vvm	v8, v8, v9, v0
	vrgather.vv	v9, v8, v14
	vmsle.vi	v0, v14, -1
	vxor.vv	v8, v13, v9
	vmerge.vvm	v8, v8, v13, v0
	vxor.vv	v8, v8, v10
	vse8.v	v8, (s2)
	csrr	a0, vlenb
	li	a1, 6
	mul	a0, a0, a1
	add	sp, sp, a0
	ld	ra, 216(sp)                     # 8-byte Folded Reload
	ld	s0, 208(sp)                     # 8-byte Folded Reload
	ld	s1, 200(sp)                     # 8-byte Folded Reload
	ld	s2, 192(sp)                     # 8-byte Folded Reload
	ld	s3, 184(sp)                     # 8-byte Folded Reload
	ld	s4, 176(sp)                     # 8-byte Folded Reload
	ld	s5, 168(sp)                     # 8-byte Folded Reload
	ld	s6, 160(sp)                     # 8-byte Folded Reload
	ld	s7, 152(sp)                     # 8-byte Folded Reload
	ld	s8, 144(sp)                     # 8-byte Folded Reload
	ld	s9, 136(sp)                     # 8-byte Folded Reload
	ld	s10, 128(sp)                    # 8-byte Folded Reload
	ld	s11, 120(sp)                    # 8-byte Folded Reload
	addi	sp, sp, 224
	ret
.Laes_func_end55:
	.size	aes.ccm.message.put_tag, .Laes_func_end55-aes.ccm.message.put_tag
                                        # -- End function
	.section	.text.aes.aes_cipher.zeroize.stack.wipe_stack.1024,"ax",@progbits
	.p2align	1                               # -- Begin function aes_cipher::zeroize::stack::wipe_stack::<=1024>
	.type	aes.aes_cipher.zeroize.stack.wipe_stack.1024,@function
aes.aes_cipher.zeroize.stack.wipe_stack.1024: # @aes.aes_cipher.zeroize.stack.wipe_stack.1024
# %bb.0:                                # %start
	addi	sp, sp, -1072
	sd	ra, 1064(sp)                    # 8-byte Folded Spill
	sd	s0, 1056(sp)                    # 8-byte Folded Spill
	sd	s1, 1048(sp)                    # 8-byte Folded Spill
	addi	s0, sp, 24
	addi	a0, sp, 24
	li	a2, 1024
	li	s1, 1024
	li	a1, 0
	la	t1, memset
	jalr	t1
	sd	zero, 16(sp)
	#APP
	#NO_APP
	fence	rw, rw
	ld	a0, 16(sp)
	fence	r, rw
	#APP
	#NO_APP
	bgeu	a0, s1, .Laes_BB56_2
# %bb.1:                                # %then.1
	add	a0, a0, s0
	lbu	a0, 0(a0)
	#APP
	#NO_APP
	addi	a1, sp, 16
	amoswap.d.aqrl	zero, a0, (a1)
	#APP
	#NO_APP
.Laes_BB56_2:                               # %common.ret
	ld	ra, 1064(sp)                    # 8-byte Folded Reload
	ld	s0, 1056(sp)                    # 8-byte Folded Reload
	ld	s1, 1048(sp)                    # 8-byte Folded Reload
	addi	sp, sp, 1072
	ret
.Laes_func_end56:
	.size	aes.aes_cipher.zeroize.stack.wipe_stack.1024, .Laes_func_end56-aes.aes_cipher.zeroize.stack.wipe_stack.1024
                                        # -- End function
	.section	.text.aes.ccm.mode.encrypt,"ax",@progbits
	.p2align	1                               # -- Begin function ccm::mode::encrypt::<#ef80964e0b8d42c0>
	.type	aes.ccm.mode.encrypt,@function
aes.ccm.mode.encrypt: # @aes.ccm.mode.encrypt
# %bb.0:                                # %start
	addi	sp, sp, -128
	sd	ra, 120(sp)                     # 8-byte Folded Spill
	sd	s0, 112(sp)                     # 8-byte Folded Spill
	sd	s1, 104(sp)                     # 8-byte Folded Spill
	sd	s2, 96(sp)                      # 8-byte Folded Spill
	sd	s3, 88(sp)                      # 8-byte Folded Spill
	sd	s4, 80(sp)                      # 8-byte Folded Spill
	sd	s5, 72(sp)                      # 8-byte Folded Spill
	sd	s6, 64(sp)                      # 8-byte Folded Spill
	sd	s7, 56(sp)                      # 8-byte Folded Spill
	li	t1, 0
	addi	s1, t3, -4
	li	s0, 12
	li	t0, 1
	bltu	s0, s1, .Laes_BB57_6
# %bb.1:                                # %start
	andi	s1, t3, 1
	bnez	s1, .Laes_BB57_6
# %bb.2:                                # %after.1.i
	addi	s1, a2, -14
	li	t0, 1
	li	s0, -7
	li	t1, 1
	bltu	s1, s0, .Laes_BB57_6
# %bb.3:                                # %"ccm::formatting::check.exit"
	addi	s1, a2, -7
	slli	s0, a2, 3
	snez	s1, s1
	xori	s0, s0, 120
	srl	s0, a6, s0
	snez	s0, s0
	and	t0, s1, s0
	beqz	t0, .Laes_BB57_5
# %bb.4:
	li	t1, 2
	j	.Laes_BB57_6
.Laes_BB57_5:                               # %arm.1
	mv	s4, t3
	addi	t3, sp, 8
	mv	s7, t0
	mv	s2, a0
	mv	s3, a1
	mv	s1, a2
	mv	s0, a3
	mv	a3, s4
	mv	t0, a4
	mv	a4, s0
	mv	s6, a5
	mv	a5, t0
	mv	s5, a6
	mv	a6, s6
	mv	s0, a7
	mv	a7, s5
	call	aes.ccm.message.put_tag
	addi	a1, sp, 8
	mv	a0, s0
	mv	a2, s4
	la	t1, memcpy
	jalr	t1
	li	a0, 14
	sub	s0, a0, s1
	sd	zero, 40(sp)
	sw	zero, 48(sp)
	sh	zero, 52(sp)
	sb	zero, 54(sp)
	addi	a0, sp, 40
	mv	a1, s3
	mv	a2, s1
	la	t1, memcpy
	jalr	t1
	sb	s0, 24(sp)
	addi	a0, sp, 25
	addi	a1, sp, 40
	li	a2, 15
	la	t1, memcpy
	jalr	t1
	addi	a1, sp, 24
	li	a2, 16
	mv	a0, s2
	mv	a3, s6
	mv	a4, s5
	call	aes.aes_ctr.add_in_batches.add_keystream
	mv	t0, s7
	li	t1, 0
.Laes_BB57_6:                               # %return.5
	mv	a0, t0
	mv	a1, t1
	ld	ra, 120(sp)                     # 8-byte Folded Reload
	ld	s0, 112(sp)                     # 8-byte Folded Reload
	ld	s1, 104(sp)                     # 8-byte Folded Reload
	ld	s2, 96(sp)                      # 8-byte Folded Reload
	ld	s3, 88(sp)                      # 8-byte Folded Reload
	ld	s4, 80(sp)                      # 8-byte Folded Reload
	ld	s5, 72(sp)                      # 8-byte Folded Reload
	ld	s6, 64(sp)                      # 8-byte Folded Reload
	ld	s7, 56(sp)                      # 8-byte Folded Reload
	addi	sp, sp, 128
	ret
.Laes_func_end57:
	.size	aes.ccm.mode.encrypt, .Laes_func_end57-aes.ccm.mode.encrypt
                                        # -- End function
	.section	.text.aes.fotsgure_aes_add_keystream_with,"ax",@progbits
	export_aes	fotsgure_aes_add_keystream_with
	.p2align	1
	.type	aes.fotsgure_aes_add_keystream_with,@function
aes.fotsgure_aes_add_keystream_with:        # @aes.fotsgure_aes_add_keystream_with
# %bb.0:                                # %start
	addi	sp, sp, -352
	sd	ra, 344(sp)                     # 8-byte Folded Spill
	sd	s0, 336(sp)                     # 8-byte Folded Spill
	sd	s1, 328(sp)                     # 8-byte Folded Spill
	sd	s2, 320(sp)                     # 8-byte Folded Spill
	sd	s3, 312(sp)                     # 8-byte Folded Spill
	sd	s4, 304(sp)                     # 8-byte Folded Spill
	sd	s5, 296(sp)                     # 8-byte Folded Spill
	sd	s6, 288(sp)                     # 8-byte Folded Spill
	sd	s7, 280(sp)                     # 8-byte Folded Spill
	mv	s2, a4
	mv	s1, a2
	li	a4, 32
	li	a2, 1
	bltu	a4, a1, .Laes_BB58_5
# %bb.1:                                # %start
	lui	a4, 65793
	slli	a4, a4, 4
	srl	a4, a4, a1
	andi	a4, a4, 1
	beqz	a4, .Laes_BB58_5
# %bb.2:                                # %join.3.i
	ld	s6, 16(s1)
	not	a2, s6
	bgeu	a2, s2, .Laes_BB58_4
# %bb.3:
	li	a2, 4
	j	.Laes_BB58_5
.Laes_BB58_4:                               # %join.6.i
	seqz	a2, a0
	seqz	a4, a3
	addi	s3, sp, 40
	slli	a2, a2, 12
	add	s4, a0, a2
	srli	a0, a1, 2
	slli	a4, a4, 12
	addi	s7, a0, 7
	add	s5, a3, a4
	addi	a0, sp, 56
	li	a2, 224
	mv	s0, a1
	li	a1, 0
	la	t1, memset
	jalr	t1
	mv	a0, s3
	mv	a1, s4
	mv	a2, s0
	call	aes.aes_permute.lane_keys.expand_lanes
	sw	s0, 36(sp)
	sd	s3, 0(sp)
	sd	s7, 8(sp)
	sd	s3, 16(sp)
	sd	s7, 24(sp)
	mv	a0, sp
	mv	a1, s1
	mv	a2, s6
	mv	a3, s5
	mv	a4, s2
	call	aes.aes_ctr.add_in_batches.add_keystream
	ld	a0, 16(s1)
	add	a0, a0, s2
	sd	a0, 16(s1)
	sw	zero, 36(sp)
	mv	a0, s3
	call	aes.aes_cipher.zeroize.elements.zeroize_elements.1
	li	a2, 0
.Laes_BB58_5:                               # %"aes_c::once::fotsgure_aes_add_keystream_with.exit"
	mv	a0, a2
	ld	ra, 344(sp)                     # 8-byte Folded Reload
	ld	s0, 336(sp)                     # 8-byte Folded Reload
	ld	s1, 328(sp)                     # 8-byte Folded Reload
	ld	s2, 320(sp)                     # 8-byte Folded Reload
	ld	s3, 312(sp)                     # 8-byte Folded Reload
	ld	s4, 304(sp)                     # 8-byte Folded Reload
	ld	s5, 296(sp)                     # 8-byte Folded Reload
	ld	s6, 288(sp)                     # 8-byte Folded Reload
	ld	s7, 280(sp)                     # 8-byte Folded Reload
	addi	sp, sp, 352
	vsetvli	t0, zero, e8, m8, ta, ma
	vmv.v.i	v0, 0
	vmv.v.i	v8, 0
	vmv.v.i	v16, 0
	vmv.v.i	v24, 0
	li	a1, 0
	li	a2, 0
	li	a3, 0
	li	a4, 0
	li	a5, 0
	li	a6, 0
	li	a7, 0
	li	t0, 0
	li	t1, 0
	li	t2, 0
	li	t3, 0
	li	t4, 0
	li	t5, 0
	li	t6, 0
	ret
.Laes_func_end58:
	.size	aes.fotsgure_aes_add_keystream_with, .Laes_func_end58-aes.fotsgure_aes_add_keystream_with
                                        # -- End function
	.section	.rodata.cst16,"aM",@progbits,16
	.p2align	4, 0x0                          # -- Begin function aes.fotsgure_aes_cbc_encrypt
.Laes_CPI59_0:
	.byte	0                               # 0x0
	.byte	1                               # 0x1
	.byte	28                              # 0x1c
	.byte	29                              # 0x1d
	.byte	45                              # 0x2d
	.byte	44                              # 0x2c
	.byte	49                              # 0x31
	.byte	48                              # 0x30
	.byte	39                              # 0x27
	.byte	38                              # 0x26
	.byte	59                              # 0x3b
	.byte	58                              # 0x3a
	.byte	10                              # 0xa
	.byte	11                              # 0xb
	.byte	22                              # 0x16
	.byte	23                              # 0x17
.Laes_CPI59_1:
	.byte	0                               # 0x0
	.byte	134                             # 0x86
	.byte	253                             # 0xfd
	.byte	123                             # 0x7b
	.byte	142                             # 0x8e
	.byte	8                               # 0x8
	.byte	115                             # 0x73
	.byte	245                             # 0xf5
	.byte	119                             # 0x77
	.byte	241                             # 0xf1
	.byte	138                             # 0x8a
	.byte	12                              # 0xc
	.byte	249                             # 0xf9
	.byte	127                             # 0x7f
	.byte	4                               # 0x4
	.byte	130                             # 0x82
.Laes_CPI59_2:
	.byte	128                             # 0x80
	.byte	2                               # 0x2
	.byte	1                               # 0x1
	.byte	15                              # 0xf
	.byte	9                               # 0x9
	.byte	5                               # 0x5
	.byte	14                              # 0xe
	.byte	12                              # 0xc
	.byte	13                              # 0xd
	.byte	4                               # 0x4
	.byte	11                              # 0xb
	.byte	10                              # 0xa
	.byte	7                               # 0x7
	.byte	8                               # 0x8
	.byte	6                               # 0x6
	.byte	3                               # 0x3
.Laes_CPI59_3:
	.byte	128                             # 0x80
	.byte	1                               # 0x1
	.byte	9                               # 0x9
	.byte	14                              # 0xe
	.byte	13                              # 0xd
	.byte	11                              # 0xb
	.byte	7                               # 0x7
	.byte	6                               # 0x6
	.byte	15                              # 0xf
	.byte	2                               # 0x2
	.byte	12                              # 0xc
	.byte	5                               # 0x5
	.byte	10                              # 0xa
	.byte	4                               # 0x4
	.byte	3                               # 0x3
	.byte	8                               # 0x8
.Laes_CPI59_4:
	.byte	0                               # 0x0
	.byte	195                             # 0xc3
	.byte	79                              # 0x4f
	.byte	12                              # 0xc
	.byte	252                             # 0xfc
	.byte	124                             # 0x7c
	.byte	67                              # 0x43
	.byte	128                             # 0x80
	.byte	207                             # 0xcf
	.byte	51                              # 0x33
	.byte	63                              # 0x3f
	.byte	112                             # 0x70
	.byte	191                             # 0xbf
	.byte	179                             # 0xb3
	.byte	240                             # 0xf0
	.byte	140                             # 0x8c
.Laes_CPI59_5:
	.byte	0                               # 0x0
	.byte	230                             # 0xe6
	.byte	114                             # 0x72
	.byte	183                             # 0xb7
	.byte	229                             # 0xe5
	.byte	198                             # 0xc6
	.byte	197                             # 0xc5
	.byte	35                              # 0x23
	.byte	81                              # 0x51
	.byte	180                             # 0xb4
	.byte	3                               # 0x3
	.byte	113                             # 0x71
	.byte	32                              # 0x20
	.byte	151                             # 0x97
	.byte	82                              # 0x52
	.byte	148                             # 0x94
.Laes_CPI59_6:
	.byte	0                               # 0x0
	.byte	124                             # 0x7c
	.byte	32                              # 0x20
	.byte	207                             # 0xcf
	.byte	146                             # 0x92
	.byte	1                               # 0x1
	.byte	239                             # 0xef
	.byte	147                             # 0x93
	.byte	179                             # 0xb3
	.byte	33                              # 0x21
	.byte	238                             # 0xee
	.byte	206                             # 0xce
	.byte	125                             # 0x7d
	.byte	178                             # 0xb2
	.byte	93                              # 0x5d
	.byte	92                              # 0x5c
.Laes_CPI59_7:
	.byte	0                               # 0x0
	.byte	209                             # 0xd1
	.byte	229                             # 0xe5
	.byte	247                             # 0xf7
	.byte	230                             # 0xe6
	.byte	37                              # 0x25
	.byte	18                              # 0x12
	.byte	195                             # 0xc3
	.byte	38                              # 0x26
	.byte	192                             # 0xc0
	.byte	55                              # 0x37
	.byte	210                             # 0xd2
	.byte	244                             # 0xf4
	.byte	3                               # 0x3
	.byte	17                              # 0x11
	.byte	52                              # 0x34
.Laes_CPI59_8:
	.byte	0                               # 0x0
	.byte	203                             # 0xcb
	.byte	215                             # 0xd7
	.byte	176                             # 0xb0
	.byte	33                              # 0x21
	.byte	141                             # 0x8d
	.byte	103                             # 0x67
	.byte	172                             # 0xac
	.byte	123                             # 0x7b
	.byte	90                              # 0x5a
	.byte	234                             # 0xea
	.byte	61                              # 0x3d
	.byte	70                              # 0x46
	.byte	246                             # 0xf6
	.byte	145                             # 0x91
	.byte	28                              # 0x1c
.Laes_CPI59_9:
	.byte	0                               # 0x0
	.byte	159                             # 0x9f
	.byte	97                              # 0x61
	.byte	22                              # 0x16
	.byte	194                             # 0xc2
	.byte	42                              # 0x2a
	.byte	119                             # 0x77
	.byte	232                             # 0xe8
	.byte	137                             # 0x89
	.byte	75                              # 0x4b
	.byte	93                              # 0x5d
	.byte	60                              # 0x3c
	.byte	181                             # 0xb5
	.byte	163                             # 0xa3
	.byte	212                             # 0xd4
	.byte	254                             # 0xfe
	.section	.text.aes.fotsgure_aes_cbc_encrypt,"ax",@progbits
	export_aes	fotsgure_aes_cbc_encrypt
	.p2align	1
	.type	aes.fotsgure_aes_cbc_encrypt,@function
aes.fotsgure_aes_cbc_encrypt:               # @aes.fotsgure_aes_cbc_encrypt
# %bb.0:                                # %start
	addi	sp, sp, -32
	sd	s0, 24(sp)                      # 8-byte Folded Spill
	sd	s1, 16(sp)                      # 8-byte Folded Spill
	sd	s2, 8(sp)                       # 8-byte Folded Spill
	mv	a4, a0
	lw	a5, 0(a0)
	li	s1, 32
	li	a0, 2
	bltu	s1, a5, .Laes_BB59_10
# %bb.1:                                # %start
	lui	s1, 65793
	slli	s1, s1, 4
	srl	s1, s1, a5
	andi	s1, s1, 1
	beqz	s1, .Laes_BB59_10
# %bb.2:                                # %join.3.i
	vsetivli	zero, 8, e8, mf2, ta, ma
	vle8.v	v8, (a1)
	addi	a0, a1, 8
	vle8.v	v9, (a0)
	beqz	a3, .Laes_BB59_8
# %bb.3:                                # %join.5.lr.ph.i.i
	li	t3, 0
	addi	a6, a4, 4
	slli	a4, a5, 32
.Laes_pcrel_hi217:
	auipc	a5, %pcrel_hi(.Laes_CPI59_0)
.Laes_pcrel_hi218:
	auipc	s1, %pcrel_hi(.Laes_CPI59_1)
	addi	a5, a5, %pcrel_lo(.Laes_pcrel_hi217)
	vsetivli	zero, 16, e8, m1, ta, ma
	vle8.v	v10, (a5)
.Laes_pcrel_hi219:
	auipc	a5, %pcrel_hi(.Laes_CPI59_2)
	addi	s1, s1, %pcrel_lo(.Laes_pcrel_hi218)
	vle8.v	v11, (s1)
.Laes_pcrel_hi220:
	auipc	s1, %pcrel_hi(.Laes_CPI59_3)
	addi	a5, a5, %pcrel_lo(.Laes_pcrel_hi219)
	vle8.v	v12, (a5)
.Laes_pcrel_hi221:
	auipc	a5, %pcrel_hi(.Laes_CPI59_4)
	addi	s1, s1, %pcrel_lo(.Laes_pcrel_hi220)
	vle8.v	v13, (s1)
.Laes_pcrel_hi222:
	auipc	s1, %pcrel_hi(.Laes_CPI59_5)
	addi	a5, a5, %pcrel_lo(.Laes_pcrel_hi221)
	vle8.v	v14, (a5)
.Laes_pcrel_hi223:
	auipc	a5, %pcrel_hi(.Laes_CPI59_6)
	addi	s1, s1, %pcrel_lo(.Laes_pcrel_hi222)
	vle8.v	v15, (s1)
.Laes_pcrel_hi224:
	auipc	s1, %pcrel_hi(.Laes_CPI59_7)
	addi	a5, a5, %pcrel_lo(.Laes_pcrel_hi223)
	vle8.v	v16, (a5)
.Laes_pcrel_hi225:
	auipc	a5, %pcrel_hi(.Laes_CPI59_8)
	addi	s1, s1, %pcrel_lo(.Laes_pcrel_hi224)
	vle8.v	v17, (s1)
.Laes_pcrel_hi226:
	auipc	s1, %pcrel_hi(.Laes_CPI59_9)
	addi	a5, a5, %pcrel_lo(.Laes_pcrel_hi225)
	vle8.v	v18, (a5)
.Laes_pcrel_hi227:
	auipc	a5, %pcrel_hi(.Laes_static.3)
	srli	a4, a4, 32
	addi	s1, s1, %pcrel_lo(.Laes_pcrel_hi226)
	addi	s0, a5, %pcrel_lo(.Laes_pcrel_hi227)
	slli	a4, a4, 2
	vle8.v	v19, (s1)
	andi	a4, a4, -16
	addi	a5, a4, 96
	andi	a4, a5, 48
	add	a4, a4, s0
	seqz	s1, a2
	slli	t0, s1, 12
	vle8.v	v20, (a4)
	add	t0, t0, a2
	add	t1, a6, a5
	addi	a7, a6, 16
.Laes_BB59_4:                               # %join.5.i.i
                                        # =>This Loop Header: Depth=1
                                        #     Child Loop BB59_5 Depth 2
	slli	t2, t3, 4
	add	t2, t2, t0
	vsetivli	zero, 16, e8, m1, ta, ma
	vle8.v	v21, (t2)
	vle8.v	v22, (a6)
	vslideup.vi	v8, v9, 8
	vxor.vv	v8, v21, v8
	vxor.vv	v8, v8, v22
	vand.vi	v9, v8, 15
	vsrl.vi	v8, v8, 4
	vrgather.vv	v21, v10, v9
	vrgather.vv	v9, v11, v8
	vxor.vv	v8, v9, v21
	li	a4, 16
	mv	a2, a7
.Laes_BB59_5:                               # %join.5.i.i.i.i
                                        #   Parent Loop BB59_4 Depth=1
                                        # =>  This Inner Loop Header: Depth=2
	andi	s1, a4, 48
.Laes_pcrel_hi228:
	auipc	s0, %pcrel_hi(.Laes_static.4)
.Laes_pcrel_hi229:
	auipc	a0, %pcrel_hi(.Laes_static.5)
	addi	s0, s0, %pcrel_lo(.Laes_pcrel_hi228)
	addi	a0, a0, %pcrel_lo(.Laes_pcrel_hi229)
	add	s0, s0, s1
	add	a0, a0, s1
	vle8.v	v21, (a2)
	vsrl.vi	v9, v8, 4
	vand.vi	v8, v8, 15
	addi	a4, a4, 16
	vxor.vv	v22, v9, v8
	vrgather.vv	v23, v12, v8
	vrgather.vv	v8, v13, v9
	vrgather.vv	v24, v13, v22
	vxor.vv	v8, v8, v23
	vxor.vv	v23, v24, v23
	vmsle.vi	v0, v8, -1
	vrgather.vv	v24, v13, v8
	vmerge.vim	v8, v24, 0, v0
	vmsle.vi	v0, v23, -1
	vrgather.vv	v24, v13, v23
	vmerge.vim	v23, v24, 0, v0
	vxor.vv	v22, v8, v22
	vmsle.vi	v8, v8, -1
	vxor.vv	v24, v23, v9
	vrgather.vv	v25, v14, v22
	vmsle.vi	v9, v23, -1
	vrgather.vv	v23, v15, v24
	vmv1r.v	v0, v9
	vmerge.vim	v23, v23, 0, v0
	vxor.vv	v25, v23, v25
	vmv1r.v	v0, v8
	vmerge.vvm	v23, v25, v23, v0
	vle8.v	v25, (s0)
	vle8.v	v26, (a0)
	vrgather.vv	v27, v16, v22
	vrgather.vv	v22, v17, v24
	vmv1r.v	v0, v9
	vmerge.vim	v22, v22, 0, v0
	vmsle.vi	v9, v25, -1
	vxor.vv	v24, v22, v27
	vmv1r.v	v0, v8
	vmerge.vvm	v8, v24, v22, v0
	vrgather.vv	v22, v23, v25
	vrgather.vv	v24, v23, v26
	vxor.vv	v22, v8, v22
	vmv1r.v	v0, v9
	vmerge.vvm	v22, v22, v8, v0
	vmsle.vi	v8, v26, -1
	vrgather.vv	v23, v22, v25
	vxor.vv	v23, v21, v23
	vmerge.vvm	v9, v23, v21, v0
	vxor.vv	v21, v9, v24
	vmv1r.v	v0, v8
	vmerge.vvm	v8, v21, v9, v0
	vxor.vv	v8, v8, v22
	addi	a2, a2, 16
	bne	a4, a5, .Laes_BB59_5
# %bb.6:                                # %"aes_permute::blocks::process_block::<#aedbc4fd156a355d>.exit.i.i"
                                        #   in Loop: Header=BB59_4 Depth=1
	vle8.v	v9, (t1)
	vsrl.vi	v21, v8, 4
	vand.vi	v8, v8, 15
	addi	t3, t3, 1
	vxor.vv	v22, v21, v8
	vrgather.vv	v23, v12, v8
	vrgather.vv	v8, v13, v21
	vrgather.vv	v24, v13, v22
	vxor.vv	v8, v8, v23
	vxor.vv	v23, v24, v23
	vmsle.vi	v0, v8, -1
	vrgather.vv	v24, v13, v8
	vmerge.vim	v24, v24, 0, v0
	vmsle.vi	v8, v20, -1
	vmsle.vi	v0, v23, -1
	vrgather.vv	v25, v13, v23
	vmerge.vim	v23, v25, 0, v0
	vxor.vv	v22, v24, v22
	vxor.vv	v21, v23, v21
	vrgather.vv	v25, v18, v22
	vmsle.vi	v0, v23, -1
	vrgather.vv	v22, v19, v21
	vmerge.vim	v21, v22, 0, v0
	vmsle.vi	v0, v24, -1
	vxor.vv	v22, v21, v25
	vmerge.vvm	v21, v22, v21, v0
	vrgather.vv	v22, v21, v20
	vxor.vv	v21, v9, v22
	vmv1r.v	v0, v8
	vmerge.vvm	v8, v21, v9, v0
	vse8.v	v8, (t2)
	vsetivli	zero, 8, e8, m1, ta, ma
	vslidedown.vi	v9, v8, 8
	bne	t3, a3, .Laes_BB59_4
# %bb.7:                                # %"cbc::chain::Cbc::encrypt_blocks::<#ef80964e0b8d42c0>.exit.i.loopexit"
	vslidedown.vi	v9, v8, 15
	vmv.x.s	a7, v9
	vslidedown.vi	v9, v8, 14
	vmv.x.s	t0, v9
	vslidedown.vi	v9, v8, 13
	vmv.x.s	s2, v9
	vslidedown.vi	v9, v8, 12
	vmv.x.s	t2, v9
	vslidedown.vi	v9, v8, 11
	vmv.x.s	t1, v9
	vslidedown.vi	v9, v8, 10
	vmv.x.s	t4, v9
	vslidedown.vi	v9, v8, 9
	vmv.x.s	t3, v9
	vslidedown.vi	v9, v8, 8
	vmv.x.s	a6, v9
	vslidedown.vi	v9, v8, 7
	vmv.x.s	a2, v9
	vslidedown.vi	v9, v8, 6
	vmv.x.s	s0, v9
	vslidedown.vi	v9, v8, 5
	vmv.x.s	t5, v9
	vslidedown.vi	v9, v8, 4
	vmv.x.s	t6, v9
	vslidedown.vi	v9, v8, 3
	vmv.x.s	a5, v9
	vslidedown.vi	v9, v8, 2
	vmv.x.s	a3, v9
	vslidedown.vi	v9, v8, 1
	vmv.x.s	a4, v9
	vmv.x.s	s1, v8
	j	.Laes_BB59_9
.Laes_BB59_8:
	vmv.x.s	s1, v8
	vslidedown.vi	v10, v8, 1
	vmv.x.s	a4, v10
	vslidedown.vi	v10, v8, 2
	vmv.x.s	a3, v10
	vslidedown.vi	v10, v8, 3
	vmv.x.s	a5, v10
	vslidedown.vi	v10, v8, 4
	vmv.x.s	t6, v10
	vslidedown.vi	v10, v8, 5
	vmv.x.s	t5, v10
	vslidedown.vi	v10, v8, 6
	vslidedown.vi	v8, v8, 7
	vmv.x.s	a6, v9
	vmv.x.s	s0, v10
	vslidedown.vi	v10, v9, 1
	vmv.x.s	a2, v8
	vslidedown.vi	v8, v9, 2
	vmv.x.s	t3, v10
	vslidedown.vi	v10, v9, 3
	vmv.x.s	t4, v8
	vslidedown.vi	v8, v9, 4
	vmv.x.s	t1, v10
	vslidedown.vi	v10, v9, 5
	vmv.x.s	t2, v8
	vslidedown.vi	v8, v9, 6
	vslidedown.vi	v9, v9, 7
	vmv.x.s	s2, v10
	vmv.x.s	t0, v8
	vmv.x.s	a7, v9
.Laes_BB59_9:                               # %"cbc::chain::Cbc::encrypt_blocks::<#ef80964e0b8d42c0>.exit.i"
	li	a0, 0
	sb	s1, 0(a1)
	sb	a4, 1(a1)
	sb	a3, 2(a1)
	sb	a5, 3(a1)
	sb	t6, 4(a1)
	sb	t5, 5(a1)
	sb	s0, 6(a1)
	sb	a2, 7(a1)
	sb	a6, 8(a1)
	sb	t3, 9(a1)
	sb	t4, 10(a1)
	sb	t1, 11(a1)
	sb	t2, 12(a1)
	sb	s2, 13(a1)
	sb	t0, 14(a1)
	sb	a7, 15(a1)
.Laes_BB59_10:                              # %"aes_c::chains::fotsgure_aes_cbc_encrypt.exit"
	ld	s0, 24(sp)                      # 8-byte Folded Reload
	ld	s1, 16(sp)                      # 8-byte Folded Reload
	ld	s2, 8(sp)                       # 8-byte Folded Reload
	addi	sp, sp, 32
	vsetvli	t0, zero, e8, m8, ta, ma
	vmv.v.i	v0, 0
	vmv.v.i	v8, 0
	vmv.v.i	v16, 0
	vmv.v.i	v24, 0
	li	a1, 0
	li	a2, 0
	li	a3, 0
	li	a4, 0
	li	a5, 0
	li	a6, 0
	li	a7, 0
	li	t0, 0
	li	t1, 0
	li	t2, 0
	li	t3, 0
	li	t4, 0
	li	t5, 0
	li	t6, 0
	ret
.Laes_func_end59:
	.size	aes.fotsgure_aes_cbc_encrypt, .Laes_func_end59-aes.fotsgure_aes_cbc_encrypt
                                        # -- End function
	.section	.text.aes.fotsgure_aes_cmac,"ax",@progbits
	export_aes	fotsgure_aes_cmac
	.p2align	1
	.type	aes.fotsgure_aes_cmac,@function
aes.fotsgure_aes_cmac:                      # @aes.fotsgure_aes_cmac
# %bb.0:                                # %start
	addi	sp, sp, -80
	sd	ra, 72(sp)                      # 8-byte Folded Spill
	sd	s0, 64(sp)                      # 8-byte Folded Spill
	sd	s1, 56(sp)                      # 8-byte Folded Spill
	mv	s0, a3
	mv	a3, a2
	lw	a4, 0(a0)
	li	a5, 32
	li	a2, 2
	bltu	a5, a4, .Laes_BB60_3
# %bb.1:                                # %start
	lui	a5, 65793
	slli	a5, a5, 4
	srl	a5, a5, a4
	andi	a5, a5, 1
	beqz	a5, .Laes_BB60_3
# %bb.2:                                # %join.3.i
	slli	a4, a4, 32
	seqz	a2, a1
	addi	a0, a0, 4
	srli	a4, a4, 32
	slli	a2, a2, 12
	add	a2, a2, a1
	srli	a4, a4, 2
	addi	a4, a4, 7
	sd	a0, 8(sp)
	sd	a4, 16(sp)
	sd	a0, 24(sp)
	sd	a4, 32(sp)
	addi	a0, sp, 40
	addi	a1, sp, 8
	addi	s1, sp, 40
	call	aes.cmac.tags.tag
	vsetivli	zero, 16, e8, m1, ta, ma
	vle8.v	v8, (s1)
	vse8.v	v8, (s0)
	call	aes.aes_cipher.zeroize.stack.wipe_stack.768
	li	a2, 0
.Laes_BB60_3:                               # %"aes_c::tags::fotsgure_aes_cmac.exit"
	mv	a0, a2
	ld	ra, 72(sp)                      # 8-byte Folded Reload
	ld	s0, 64(sp)                      # 8-byte Folded Reload
	ld	s1, 56(sp)                      # 8-byte Folded Reload
	addi	sp, sp, 80
	vsetvli	t0, zero, e8, m8, ta, ma
	vmv.v.i	v0, 0
	vmv.v.i	v8, 0
	vmv.v.i	v16, 0
	vmv.v.i	v24, 0
	li	a1, 0
	li	a2, 0
	li	a3, 0
	li	a4, 0
	li	a5, 0
	li	a6, 0
	li	a7, 0
	li	t0, 0
	li	t1, 0
	li	t2, 0
	li	t3, 0
	li	t4, 0
	li	t5, 0
	li	t6, 0
	ret
.Laes_func_end60:
	.size	aes.fotsgure_aes_cmac, .Laes_func_end60-aes.fotsgure_aes_cmac
                                        # -- End function
	.section	.text.aes.fotsgure_aes_cmac_begin,"ax",@progbits
	export_aes	fotsgure_aes_cmac_begin
	.p2align	1
	.type	aes.fotsgure_aes_cmac_begin,@function
aes.fotsgure_aes_cmac_begin:                # @aes.fotsgure_aes_cmac_begin
# %bb.0:                                # %start
	lw	a2, 0(a0)
	li	a3, 32
	li	a0, 2
	bltu	a3, a2, .Laes_BB61_3
# %bb.1:                                # %start
	lui	a3, 65793
	slli	a3, a3, 4
	srl	a2, a3, a2
	andi	a2, a2, 1
	beqz	a2, .Laes_BB61_3
# %bb.2:                                # %join.3.i
	li	a0, 0
	addi	a2, a1, 8
	sb	zero, 47(a1)
	sb	zero, 43(a1)
	sb	zero, 44(a1)
	sb	zero, 45(a1)
	sb	zero, 46(a1)
	li	a3, 1
	sd	a3, 0(a1)
	sb	zero, 40(a1)
	sb	zero, 41(a1)
	sb	zero, 42(a1)
	addi	a1, a1, 24
	vsetivli	zero, 16, e8, m1, ta, ma
	vmv.v.i	v8, 0
	vse8.v	v8, (a1)
	vse8.v	v8, (a2)
.Laes_BB61_3:                               # %"aes_c::tags::pieces::fotsgure_aes_cmac_begin.exit"
	vsetvli	t0, zero, e8, m8, ta, ma
	vmv.v.i	v0, 0
	vmv.v.i	v8, 0
	vmv.v.i	v16, 0
	vmv.v.i	v24, 0
	li	a1, 0
	li	a2, 0
	li	a3, 0
	li	a4, 0
	li	a5, 0
	li	a6, 0
	li	a7, 0
	li	t0, 0
	li	t1, 0
	li	t2, 0
	li	t3, 0
	li	t4, 0
	li	t5, 0
	li	t6, 0
	ret
.Laes_func_end61:
	.size	aes.fotsgure_aes_cmac_begin, .Laes_func_end61-aes.fotsgure_aes_cmac_begin
                                        # -- End function
	.section	.text.aes.fotsgure_aes_cmac_finish,"ax",@progbits
	export_aes	fotsgure_aes_cmac_finish
	.p2align	1
	.type	aes.fotsgure_aes_cmac_finish,@function
aes.fotsgure_aes_cmac_finish:               # @aes.fotsgure_aes_cmac_finish
# %bb.0:                                # %start
	addi	sp, sp, -64
	sd	ra, 56(sp)                      # 8-byte Folded Spill
	sd	s0, 48(sp)                      # 8-byte Folded Spill
	sd	s1, 40(sp)                      # 8-byte Folded Spill
	sd	s2, 32(sp)                      # 8-byte Folded Spill
	sd	s3, 24(sp)                      # 8-byte Folded Spill
	mv	s2, a2
	mv	a2, a0
	lw	a3, 0(a0)
	li	a4, 32
	li	a0, 2
	bltu	a4, a3, .Laes_BB62_7
# %bb.1:                                # %start
	lui	a4, 65793
	slli	a4, a4, 4
	srl	a4, a4, a3
	andi	a4, a4, 1
	beqz	a4, .Laes_BB62_7
# %bb.2:                                # %join.3.i
	ld	a0, 0(a1)
	li	a4, 1
	bne	a0, a4, .Laes_BB62_6
# %bb.3:                                # %arm.4.i
	slli	a3, a3, 32
	addi	s0, a2, 4
	vsetivli	zero, 2, e64, m1, ta, ma
	vmv.v.i	v8, 0
	mv	s3, sp
	ld	a5, 8(a1)
	srli	a3, a3, 32
	srli	a2, a3, 2
	addi	a2, a2, 7
	li	a0, 16
	vse64.v	v8, (s3)
	bltu	a5, a0, .Laes_BB62_5
# %bb.4:                                # %arm.4.i
	li	a5, 16
.Laes_BB62_5:                               # %arm.4.i
	addi	a3, a1, 16
	addi	a4, a1, 32
	mv	a0, sp
	mv	s1, a1
	mv	a1, s0
	call	aes.cmac.tags.tag_at_end
	mv	a0, s1
	call	aes.cmac.pieces.MessageZeroize.zeroize
	call	aes.aes_cipher.zeroize.stack.wipe_stack.768
	li	a0, 0
	vsetivli	zero, 16, e8, m1, ta, ma
	vle8.v	v8, (s3)
	vse8.v	v8, (s2)
	j	.Laes_BB62_7
.Laes_BB62_6:                               # %"cmac::pieces::Message::finish::<#ef80964e0b8d42c0>.exit.i"
	call	aes.aes_cipher.zeroize.stack.wipe_stack.768
	li	a0, 10
.Laes_BB62_7:                               # %"aes_c::tags::pieces::fotsgure_aes_cmac_finish.exit"
	ld	ra, 56(sp)                      # 8-byte Folded Reload
	ld	s0, 48(sp)                      # 8-byte Folded Reload
	ld	s1, 40(sp)                      # 8-byte Folded Reload
	ld	s2, 32(sp)                      # 8-byte Folded Reload
	ld	s3, 24(sp)                      # 8-byte Folded Reload
	addi	sp, sp, 64
	vsetvli	t0, zero, e8, m8, ta, ma
	vmv.v.i	v0, 0
	vmv.v.i	v8, 0
	vmv.v.i	v16, 0
	vmv.v.i	v24, 0
	li	a1, 0
	li	a2, 0
	li	a3, 0
	li	a4, 0
	li	a5, 0
	li	a6, 0
	li	a7, 0
	li	t0, 0
	li	t1, 0
	li	t2, 0
	li	t3, 0
	li	t4, 0
	li	t5, 0
	li	t6, 0
	ret
.Laes_func_end62:
	.size	aes.fotsgure_aes_cmac_finish, .Laes_func_end62-aes.fotsgure_aes_cmac_finish
                                        # -- End function
	.section	.text.aes.fotsgure_aes_cmac_update,"ax",@progbits
	export_aes	fotsgure_aes_cmac_update
	.p2align	1
	.type	aes.fotsgure_aes_cmac_update,@function
aes.fotsgure_aes_cmac_update:               # @aes.fotsgure_aes_cmac_update
# %bb.0:                                # %start
	addi	sp, sp, -48
	sd	ra, 40(sp)                      # 8-byte Folded Spill
	sd	s0, 32(sp)                      # 8-byte Folded Spill
	lw	a4, 0(a0)
	li	a5, 32
	li	s0, 2
	bltu	a5, a4, .Laes_BB63_6
# %bb.1:                                # %start
	lui	a5, 65793
	slli	a5, a5, 4
	srl	a5, a5, a4
	andi	a5, a5, 1
	beqz	a5, .Laes_BB63_6
# %bb.2:                                # %join.3.i
	slli	a4, a4, 32
	addi	a0, a0, 4
	ld	a5, 0(a1)
	li	s0, 1
	srli	a4, a4, 32
	srli	a4, a4, 2
	addi	a4, a4, 7
	sd	a0, 0(sp)
	sd	a4, 8(sp)
	sd	a0, 16(sp)
	sd	a4, 24(sp)
	bne	a5, s0, .Laes_BB63_4
# %bb.3:                                # %join.3.i.i
	seqz	a0, a2
	slli	a0, a0, 12
	add	a2, a2, a0
	addi	a0, a1, 8
	mv	a1, sp
	call	aes.cmac.chain_in_pieces.ChainInPieces.extend
	li	s0, 0
	j	.Laes_BB63_5
.Laes_BB63_4:
	li	s0, 10
.Laes_BB63_5:                               # %"cmac::pieces::Message::update::<#ef80964e0b8d42c0>.exit.i"
	call	aes.aes_cipher.zeroize.stack.wipe_stack.768
.Laes_BB63_6:                               # %"aes_c::tags::pieces::fotsgure_aes_cmac_update.exit"
	mv	a0, s0
	ld	ra, 40(sp)                      # 8-byte Folded Reload
	ld	s0, 32(sp)                      # 8-byte Folded Reload
	addi	sp, sp, 48
	vsetvli	t0, zero, e8, m8, ta, ma
	vmv.v.i	v0, 0
	vmv.v.i	v8, 0
	vmv.v.i	v16, 0
	vmv.v.i	v24, 0
	li	a1, 0
	li	a2, 0
	li	a3, 0
	li	a4, 0
	li	a5, 0
	li	a6, 0
	li	a7, 0
	li	t0, 0
	li	t1, 0
	li	t2, 0
	li	t3, 0
	li	t4, 0
	li	t5, 0
	li	t6, 0
	ret
.Laes_func_end63:
	.size	aes.fotsgure_aes_cmac_update, .Laes_func_end63-aes.fotsgure_aes_cmac_update
                                        # -- End function
	.section	.text.aes.fotsgure_aes_cmac_wipe,"ax",@progbits
	export_aes	fotsgure_aes_cmac_wipe
	.p2align	1
	.type	aes.fotsgure_aes_cmac_wipe,@function
aes.fotsgure_aes_cmac_wipe:                 # @aes.fotsgure_aes_cmac_wipe
# %bb.0:                                # %start
	vsetivli	zero, 16, e8, m1, ta, ma
	vmv.v.i	v8, 0
	addi	a1, a0, 32
	vse8.v	v8, (a1)
	addi	a1, a0, 16
	vse8.v	v8, (a0)
	vse8.v	v8, (a1)
	tail	aes.cmac.pieces.MessageZeroize.zeroize
.Laes_func_end64:
	.size	aes.fotsgure_aes_cmac_wipe, .Laes_func_end64-aes.fotsgure_aes_cmac_wipe
                                        # -- End function
	.section	.text.aes.fotsgure_aes_encrypt_blocks,"ax",@progbits
	export_aes	fotsgure_aes_encrypt_blocks
	.p2align	1
	.type	aes.fotsgure_aes_encrypt_blocks,@function
aes.fotsgure_aes_encrypt_blocks:            # @aes.fotsgure_aes_encrypt_blocks
# %bb.0:                                # %start
	addi	sp, sp, -48
	sd	ra, 40(sp)                      # 8-byte Folded Spill
	sd	s0, 32(sp)                      # 8-byte Folded Spill
	sd	s1, 24(sp)                      # 8-byte Folded Spill
	sd	s2, 16(sp)                      # 8-byte Folded Spill
	sd	s3, 8(sp)                       # 8-byte Folded Spill
	sd	s4, 0(sp)                       # 8-byte Folded Spill
	mv	s0, a2
	lw	a3, 0(a0)
	li	a4, 32
	li	a2, 2
	bltu	a4, a3, .Laes_BB65_6
# %bb.1:                                # %start
	lui	a4, 65793
	slli	a4, a4, 4
	srl	a4, a4, a3
	andi	a4, a4, 1
	beqz	a4, .Laes_BB65_6
# %bb.2:                                # %join.3.i
	seqz	a2, a1
	slli	a3, a3, 32
	addi	s2, a0, 4
	slli	a2, a2, 12
	srli	a3, a3, 32
	add	s4, a1, a2
	srli	a3, a3, 2
	li	a0, 15
	addi	s3, a3, 7
	bgeu	s0, a0, .Laes_BB65_4
# %bb.3:
	li	s1, 0
	j	.Laes_BB65_5
.Laes_BB65_4:                               # %join.6.i.i.i
	andi	a0, s0, 7
	sltiu	a1, a0, 6
	neg	a1, a1
	and	a0, a0, a1
	sub	s1, s0, a0
	mv	a0, s2
	mv	a1, s3
	mv	a2, s4
	mv	a3, s1
	call	aes.aes_hybrid.batches.process_on_planes.1
.Laes_BB65_5:                               # %"aes_hybrid::borrowed_cipher::BorrowedCipher::process_blocks::<#ee6d29ed0cc28f94>.exit.i"
	slli	a2, s1, 4
	add	a2, a2, s4
	sub	a3, s0, s1
	mv	a0, s2
	mv	a1, s3
	call	aes.aes_permute.blocks.process_on_lanes.1
	li	a2, 0
.Laes_BB65_6:                               # %"aes_c::blocks::fotsgure_aes_encrypt_blocks.exit"
	mv	a0, a2
	ld	ra, 40(sp)                      # 8-byte Folded Reload
	ld	s0, 32(sp)                      # 8-byte Folded Reload
	ld	s1, 24(sp)                      # 8-byte Folded Reload
	ld	s2, 16(sp)                      # 8-byte Folded Reload
	ld	s3, 8(sp)                       # 8-byte Folded Reload
	ld	s4, 0(sp)                       # 8-byte Folded Reload
	addi	sp, sp, 48
	vsetvli	t0, zero, e8, m8, ta, ma
	vmv.v.i	v0, 0
	vmv.v.i	v8, 0
	vmv.v.i	v16, 0
	vmv.v.i	v24, 0
	li	a1, 0
	li	a2, 0
	li	a3, 0
	li	a4, 0
	li	a5, 0
	li	a6, 0
	li	a7, 0
	li	t0, 0
	li	t1, 0
	li	t2, 0
	li	t3, 0
	li	t4, 0
	li	t5, 0
	li	t6, 0
	ret
.Laes_func_end65:
	.size	aes.fotsgure_aes_encrypt_blocks, .Laes_func_end65-aes.fotsgure_aes_encrypt_blocks
                                        # -- End function
	.section	.text.aes.fotsgure_aes_encrypt_blocks_to,"ax",@progbits
	export_aes	fotsgure_aes_encrypt_blocks_to
	.p2align	1
	.type	aes.fotsgure_aes_encrypt_blocks_to,@function
aes.fotsgure_aes_encrypt_blocks_to:         # @aes.fotsgure_aes_encrypt_blocks_to
# %bb.0:                                # %start
	bne	a2, a4, .Laes_BB66_8
# %bb.1:                                # %join.3.i
	addi	sp, sp, -48
	sd	ra, 40(sp)                      # 8-byte Folded Spill
	sd	s0, 32(sp)                      # 8-byte Folded Spill
	sd	s1, 24(sp)                      # 8-byte Folded Spill
	sd	s2, 16(sp)                      # 8-byte Folded Spill
	sd	s3, 8(sp)                       # 8-byte Folded Spill
	sd	s4, 0(sp)                       # 8-byte Folded Spill
	lw	a5, 0(a0)
	li	s1, 32
	li	a4, 2
	bltu	s1, a5, .Laes_BB66_13
# %bb.2:                                # %join.3.i
	lui	s1, 65793
	slli	s1, s1, 4
	srl	s1, s1, a5
	andi	s1, s1, 1
	beqz	s1, .Laes_BB66_13
# %bb.3:                                # %join.6.i
	seqz	a4, a1
	seqz	s1, a3
	slli	a4, a4, 12
	slli	s0, s1, 12
	add	a1, a1, a4
	add	s0, s0, a3
	slli	a3, a2, 4
	sub	a4, s0, a1
	bgeu	a4, a3, .Laes_BB66_9
# %bb.4:                                # %loop.4.preheader.i.i.i.i.i.i.i
	mv	a3, s0
	mv	a4, a2
	beqz	a2, .Laes_BB66_11
.Laes_BB66_5:                               # %join.7.i.i.i.i.i.i.i
                                        # =>This Inner Loop Header: Depth=1
	vsetivli	zero, 16, e8, m1, ta, ma
	vle8.v	v8, (a1)
	addi	a4, a4, -1
	addi	a1, a1, 16
	vse8.v	v8, (a3)
	addi	a3, a3, 16
	bnez	a4, .Laes_BB66_5
# %bb.6:                                # %"core::slice::edits::slice+T::copy_from_slice::<#b9e87c6de6ee7501>.exit.i"
	lwu	a1, 0(a0)
	addi	s2, a0, 4
	srli	a1, a1, 2
	li	a0, 15
	addi	s3, a1, 7
	bgeu	a2, a0, .Laes_BB66_10
.Laes_BB66_7:
	li	s1, 0
	j	.Laes_BB66_12
.Laes_BB66_8:
	li	a0, 3
	vsetvli	t0, zero, e8, m8, ta, ma
	vmv.v.i	v0, 0
	vmv.v.i	v8, 0
	vmv.v.i	v16, 0
	vmv.v.i	v24, 0
	li	a1, 0
	li	a2, 0
	li	a3, 0
	li	a4, 0
	li	a5, 0
	li	a6, 0
	li	a7, 0
	li	t0, 0
	li	t1, 0
	li	t2, 0
	li	t3, 0
	li	t4, 0
	li	t5, 0
	li	t6, 0
	ret
.Laes_BB66_9:                               # %apart.2.i.i.i.i.i.i.i
	mv	s2, a0
	mv	a0, s0
	mv	s1, a2
	mv	a2, a3
	la	t1, memmove
	jalr	t1
	mv	a2, s1
	lwu	a1, 0(s2)
	addi	s2, s2, 4
	srli	a1, a1, 2
	li	a0, 15
	addi	s3, a1, 7
	bltu	s1, a0, .Laes_BB66_7
.Laes_BB66_10:                              # %join.6.i.i.i
	andi	a0, a2, 7
	sltiu	a1, a0, 6
	neg	a1, a1
	and	a0, a0, a1
	sub	s1, a2, a0
	mv	a0, s2
	mv	a1, s3
	mv	s4, a2
	mv	a2, s0
	mv	a3, s1
	call	aes.aes_hybrid.batches.process_on_planes.1
	mv	a2, s4
	j	.Laes_BB66_12
.Laes_BB66_11:                              # %"core::slice::edits::slice+T::copy_from_slice::<#b9e87c6de6ee7501>.exit.thread.i"
	li	s1, 0
	slli	a5, a5, 32
	srli	a5, a5, 32
	addi	s2, a0, 4
	srli	a5, a5, 2
	addi	s3, a5, 7
.Laes_BB66_12:                              # %"aes_hybrid::borrowed_cipher::BorrowedCipher::process_blocks::<#ee6d29ed0cc28f94>.exit.i"
	slli	a0, s1, 4
	add	s0, s0, a0
	sub	a3, a2, s1
	mv	a0, s2
	mv	a1, s3
	mv	a2, s0
	call	aes.aes_permute.blocks.process_on_lanes.1
	li	a4, 0
.Laes_BB66_13:
	ld	ra, 40(sp)                      # 8-byte Folded Reload
	ld	s0, 32(sp)                      # 8-byte Folded Reload
	ld	s1, 24(sp)                      # 8-byte Folded Reload
	ld	s2, 16(sp)                      # 8-byte Folded Reload
	ld	s3, 8(sp)                       # 8-byte Folded Reload
	ld	s4, 0(sp)                       # 8-byte Folded Reload
	addi	sp, sp, 48
	mv	a0, a4
	vsetvli	t0, zero, e8, m8, ta, ma
	vmv.v.i	v0, 0
	vmv.v.i	v8, 0
	vmv.v.i	v16, 0
	vmv.v.i	v24, 0
	li	a1, 0
	li	a2, 0
	li	a3, 0
	li	a4, 0
	li	a5, 0
	li	a6, 0
	li	a7, 0
	li	t0, 0
	li	t1, 0
	li	t2, 0
	li	t3, 0
	li	t4, 0
	li	t5, 0
	li	t6, 0
	ret
.Laes_func_end66:
	.size	aes.fotsgure_aes_encrypt_blocks_to, .Laes_func_end66-aes.fotsgure_aes_encrypt_blocks_to
                                        # -- End function
	.section	.text.aes.fotsgure_aes_encrypt_blocks_with,"ax",@progbits
	export_aes	fotsgure_aes_encrypt_blocks_with
	.p2align	1
	.type	aes.fotsgure_aes_encrypt_blocks_with,@function
aes.fotsgure_aes_encrypt_blocks_with:       # @aes.fotsgure_aes_encrypt_blocks_with
# %bb.0:                                # %start
	addi	sp, sp, -304
	sd	ra, 296(sp)                     # 8-byte Folded Spill
	sd	s0, 288(sp)                     # 8-byte Folded Spill
	sd	s1, 280(sp)                     # 8-byte Folded Spill
	sd	s2, 272(sp)                     # 8-byte Folded Spill
	sd	s3, 264(sp)                     # 8-byte Folded Spill
	sd	s4, 256(sp)                     # 8-byte Folded Spill
	sd	s5, 248(sp)                     # 8-byte Folded Spill
	mv	s5, a3
	mv	s1, a1
	li	a3, 32
	li	a1, 1
	bltu	a3, s1, .Laes_BB67_5
# %bb.1:                                # %start
	lui	a3, 65793
	slli	a3, a3, 4
	srl	a3, a3, s1
	andi	a3, a3, 1
	beqz	a3, .Laes_BB67_5
# %bb.2:                                # %join.3.i
	seqz	a1, a2
	seqz	a3, a0
	addi	s2, sp, 8
	slli	a1, a1, 12
	add	s4, a2, a1
	srli	s3, s1, 2
	slli	a3, a3, 12
	addi	s3, s3, 7
	add	s0, a0, a3
	addi	a0, sp, 24
	li	a2, 224
	li	a1, 0
	la	t1, memset
	jalr	t1
	mv	a0, s2
	mv	a1, s0
	mv	a2, s1
	call	aes.aes_permute.lane_keys.expand_lanes
	li	s0, 0
	li	a0, 15
	sw	s1, 4(sp)
	bltu	s5, a0, .Laes_BB67_4
# %bb.3:                                # %join.6.i.i.i
	andi	a0, s5, 7
	sltiu	a1, a0, 6
	neg	a1, a1
	and	a0, a0, a1
	sub	s0, s5, a0
	mv	a0, s2
	mv	a1, s3
	mv	a2, s4
	mv	a3, s0
	call	aes.aes_hybrid.batches.process_on_planes.1
.Laes_BB67_4:                               # %"aes_hybrid::borrowed_cipher::BorrowedCipher::process_blocks::<#ee6d29ed0cc28f94>.exit.i"
	slli	a2, s0, 4
	add	a2, a2, s4
	sub	a3, s5, s0
	mv	a0, s2
	mv	a1, s3
	call	aes.aes_permute.blocks.process_on_lanes.1
	sw	zero, 4(sp)
	mv	a0, s2
	call	aes.aes_cipher.zeroize.elements.zeroize_elements.1
	li	a1, 0
.Laes_BB67_5:                               # %"aes_c::once::fotsgure_aes_encrypt_blocks_with.exit"
	mv	a0, a1
	ld	ra, 296(sp)                     # 8-byte Folded Reload
	ld	s0, 288(sp)                     # 8-byte Folded Reload
	ld	s1, 280(sp)                     # 8-byte Folded Reload
	ld	s2, 272(sp)                     # 8-byte Folded Reload
	ld	s3, 264(sp)                     # 8-byte Folded Reload
	ld	s4, 256(sp)                     # 8-byte Folded Reload
	ld	s5, 248(sp)                     # 8-byte Folded Reload
	addi	sp, sp, 304
	vsetvli	t0, zero, e8, m8, ta, ma
	vmv.v.i	v0, 0
	vmv.v.i	v8, 0
	vmv.v.i	v16, 0
	vmv.v.i	v24, 0
	li	a1, 0
	li	a2, 0
	li	a3, 0
	li	a4, 0
	li	a5, 0
	li	a6, 0
	li	a7, 0
	li	t0, 0
	li	t1, 0
	li	t2, 0
	li	t3, 0
	li	t4, 0
	li	t5, 0
	li	t6, 0
	ret
.Laes_func_end67:
	.size	aes.fotsgure_aes_encrypt_blocks_with, .Laes_func_end67-aes.fotsgure_aes_encrypt_blocks_with
                                        # -- End function
	.section	.text.aes.fotsgure_aes_key_length,"ax",@progbits
	export_aes	fotsgure_aes_key_length
	.p2align	1
	.type	aes.fotsgure_aes_key_length,@function
aes.fotsgure_aes_key_length:                # @aes.fotsgure_aes_key_length
# %bb.0:                                # %start
	lw	a1, 0(a0)
	li	a2, 32
	li	a0, 0
	bltu	a2, a1, .Laes_BB68_3
# %bb.1:                                # %start
	lui	a2, 65793
	slli	a2, a2, 4
	srl	a2, a2, a1
	andi	a2, a2, 1
	beqz	a2, .Laes_BB68_3
# %bb.2:                                # %then.1.i.i
	mv	a0, a1
.Laes_BB68_3:                               # %"aes_c::kept::fotsgure_aes_key_length.exit"
	vsetvli	t0, zero, e8, m8, ta, ma
	vmv.v.i	v0, 0
	vmv.v.i	v8, 0
	vmv.v.i	v16, 0
	vmv.v.i	v24, 0
	li	a1, 0
	li	a2, 0
	li	a3, 0
	li	a4, 0
	li	a5, 0
	li	a6, 0
	li	a7, 0
	li	t0, 0
	li	t1, 0
	li	t2, 0
	li	t3, 0
	li	t4, 0
	li	t5, 0
	li	t6, 0
	ret
.Laes_func_end68:
	.size	aes.fotsgure_aes_key_length, .Laes_func_end68-aes.fotsgure_aes_key_length
                                        # -- End function
	.section	.text.aes.fotsgure_aes_set_key,"ax",@progbits
	export_aes	fotsgure_aes_set_key
	.p2align	1
	.type	aes.fotsgure_aes_set_key,@function
aes.fotsgure_aes_set_key:                   # @aes.fotsgure_aes_set_key
# %bb.0:                                # %start
	addi	sp, sp, -16
	sd	ra, 8(sp)                       # 8-byte Folded Spill
	seqz	a3, a1
	slli	a3, a3, 12
	add	a1, a1, a3
	call	aes.aes_c.kept.fotsgure_aes_set_key
	slli	a0, a0, 32
	srli	a0, a0, 32
	ld	ra, 8(sp)                       # 8-byte Folded Reload
	addi	sp, sp, 16
	vsetvli	t0, zero, e8, m8, ta, ma
	vmv.v.i	v0, 0
	vmv.v.i	v8, 0
	vmv.v.i	v16, 0
	vmv.v.i	v24, 0
	li	a1, 0
	li	a2, 0
	li	a3, 0
	li	a4, 0
	li	a5, 0
	li	a6, 0
	li	a7, 0
	li	t0, 0
	li	t1, 0
	li	t2, 0
	li	t3, 0
	li	t4, 0
	li	t5, 0
	li	t6, 0
	ret
.Laes_func_end69:
	.size	aes.fotsgure_aes_set_key, .Laes_func_end69-aes.fotsgure_aes_set_key
                                        # -- End function
	.section	.text.aes.fotsgure_aes_version,"ax",@progbits
	export_aes	fotsgure_aes_version
	.p2align	1
	.type	aes.fotsgure_aes_version,@function
aes.fotsgure_aes_version:                   # @aes.fotsgure_aes_version
# %bb.0:                                # %start
	li	a0, 400
	vsetvli	t0, zero, e8, m8, ta, ma
	vmv.v.i	v0, 0
	vmv.v.i	v8, 0
	vmv.v.i	v16, 0
	vmv.v.i	v24, 0
	li	a1, 0
	li	a2, 0
	li	a3, 0
	li	a4, 0
	li	a5, 0
	li	a6, 0
	li	a7, 0
	li	t0, 0
	li	t1, 0
	li	t2, 0
	li	t3, 0
	li	t4, 0
	li	t5, 0
	li	t6, 0
	ret
.Laes_func_end70:
	.size	aes.fotsgure_aes_version, .Laes_func_end70-aes.fotsgure_aes_version
                                        # -- End function
	.section	.text.aes.fotsgure_aes_wipe,"ax",@progbits
	export_aes	fotsgure_aes_wipe
	.p2align	1
	.type	aes.fotsgure_aes_wipe,@function
aes.fotsgure_aes_wipe:                      # @aes.fotsgure_aes_wipe
# %bb.0:                                # %start
	addi	sp, sp, -32
	sd	ra, 24(sp)                      # 8-byte Folded Spill
	sd	s0, 16(sp)                      # 8-byte Folded Spill
	sd	s1, 8(sp)                       # 8-byte Folded Spill
	addi	s0, a0, 4
	addi	s1, a0, 244
	li	a2, 484
	li	a1, 0
	la	t1, memset
	jalr	t1
	mv	a0, s0
	call	aes.aes_cipher.zeroize.elements.zeroize_elements.1
	mv	a0, s1
	ld	ra, 24(sp)                      # 8-byte Folded Reload
	ld	s0, 16(sp)                      # 8-byte Folded Reload
	ld	s1, 8(sp)                       # 8-byte Folded Reload
	addi	sp, sp, 32
	tail	aes.aes_cipher.zeroize.elements.zeroize_elements.1
.Laes_func_end71:
	.size	aes.fotsgure_aes_wipe, .Laes_func_end71-aes.fotsgure_aes_wipe
                                        # -- End function
	.section	.text.aes.fotsgure_aes_wrap,"ax",@progbits
	export_aes	fotsgure_aes_wrap
	.p2align	1
	.type	aes.fotsgure_aes_wrap,@function
aes.fotsgure_aes_wrap:                      # @aes.fotsgure_aes_wrap
# %bb.0:                                # %start
	lw	t0, 0(a0)
	li	a7, 32
	li	a6, 2
	bltu	a7, t0, .Laes_BB72_3
# %bb.1:                                # %start
	lui	a5, 65793
	slli	a5, a5, 4
	srl	a5, a5, t0
	andi	a5, a5, 1
	beqz	a5, .Laes_BB72_3
# %bb.2:                                # %join.3.i
	addi	sp, sp, -48
	sd	ra, 40(sp)                      # 8-byte Folded Spill
	sd	s0, 32(sp)                      # 8-byte Folded Spill
	slli	t0, t0, 32
	seqz	a5, a3
	slli	a5, a5, 12
	add	a3, a3, a5
	seqz	a6, a1
	addi	a0, a0, 4
	srli	a5, t0, 32
	slli	a6, a6, 12
	add	a1, a1, a6
	srli	a5, a5, 2
	addi	a5, a5, 7
	sd	a0, 0(sp)
	sd	a5, 8(sp)
	sd	a0, 16(sp)
	sd	a5, 24(sp)
	mv	a0, sp
	call	aes.key_wrap.wrapping.wrap
	zext.b	s0, a0
	call	aes.aes_cipher.zeroize.stack.wipe_stack.512
	neg	a0, s0
	andi	a6, a0, 5
	ld	ra, 40(sp)                      # 8-byte Folded Reload
	ld	s0, 32(sp)                      # 8-byte Folded Reload
	addi	sp, sp, 48
.Laes_BB72_3:                               # %"aes_c::wrapping::fotsgure_aes_wrap.exit"
	mv	a0, a6
	vsetvli	t0, zero, e8, m8, ta, ma
	vmv.v.i	v0, 0
	vmv.v.i	v8, 0
	vmv.v.i	v16, 0
	vmv.v.i	v24, 0
	li	a1, 0
	li	a2, 0
	li	a3, 0
	li	a4, 0
	li	a5, 0
	li	a6, 0
	li	a7, 0
	li	t0, 0
	li	t1, 0
	li	t2, 0
	li	t3, 0
	li	t4, 0
	li	t5, 0
	li	t6, 0
	ret
.Laes_func_end72:
	.size	aes.fotsgure_aes_wrap, .Laes_func_end72-aes.fotsgure_aes_wrap
                                        # -- End function
	.section	.text.aes.fotsgure_aes_wrap_padded,"ax",@progbits
	export_aes	fotsgure_aes_wrap_padded
	.p2align	1
	.type	aes.fotsgure_aes_wrap_padded,@function
aes.fotsgure_aes_wrap_padded:               # @aes.fotsgure_aes_wrap_padded
# %bb.0:                                # %start
	lw	t0, 0(a0)
	li	a7, 32
	li	a6, 2
	bltu	a7, t0, .Laes_BB73_3
# %bb.1:                                # %start
	lui	a5, 65793
	slli	a5, a5, 4
	srl	a5, a5, t0
	andi	a5, a5, 1
	beqz	a5, .Laes_BB73_3
# %bb.2:                                # %join.3.i
	addi	sp, sp, -48
	sd	ra, 40(sp)                      # 8-byte Folded Spill
	sd	s0, 32(sp)                      # 8-byte Folded Spill
	slli	t0, t0, 32
	seqz	a5, a3
	slli	a5, a5, 12
	add	a3, a3, a5
	seqz	a6, a1
	addi	a0, a0, 4
	srli	a5, t0, 32
	slli	a6, a6, 12
	add	a1, a1, a6
	srli	a5, a5, 2
	addi	a5, a5, 7
	sd	a0, 0(sp)
	sd	a5, 8(sp)
	sd	a0, 16(sp)
	sd	a5, 24(sp)
	mv	a0, sp
	call	aes.key_wrap.padded.wrap_padded
	zext.b	s0, a0
	call	aes.aes_cipher.zeroize.stack.wipe_stack.512
	neg	a0, s0
	andi	a6, a0, 5
	ld	ra, 40(sp)                      # 8-byte Folded Reload
	ld	s0, 32(sp)                      # 8-byte Folded Reload
	addi	sp, sp, 48
.Laes_BB73_3:                               # %"aes_c::wrapping::fotsgure_aes_wrap_padded.exit"
	mv	a0, a6
	vsetvli	t0, zero, e8, m8, ta, ma
	vmv.v.i	v0, 0
	vmv.v.i	v8, 0
	vmv.v.i	v16, 0
	vmv.v.i	v24, 0
	li	a1, 0
	li	a2, 0
	li	a3, 0
	li	a4, 0
	li	a5, 0
	li	a6, 0
	li	a7, 0
	li	t0, 0
	li	t1, 0
	li	t2, 0
	li	t3, 0
	li	t4, 0
	li	t5, 0
	li	t6, 0
	ret
.Laes_func_end73:
	.size	aes.fotsgure_aes_wrap_padded, .Laes_func_end73-aes.fotsgure_aes_wrap_padded
                                        # -- End function
	.section	.text.aes.fotsgure_aes_cbc_decrypt,"ax",@progbits
	export_aes	fotsgure_aes_cbc_decrypt
	.p2align	1
	.type	aes.fotsgure_aes_cbc_decrypt,@function
aes.fotsgure_aes_cbc_decrypt:               # @aes.fotsgure_aes_cbc_decrypt
# %bb.0:                                # %start
	addi	sp, sp, -1152
	sd	ra, 1144(sp)                    # 8-byte Folded Spill
	sd	s0, 1136(sp)                    # 8-byte Folded Spill
	sd	s1, 1128(sp)                    # 8-byte Folded Spill
	sd	s2, 1120(sp)                    # 8-byte Folded Spill
	sd	s3, 1112(sp)                    # 8-byte Folded Spill
	sd	s4, 1104(sp)                    # 8-byte Folded Spill
	sd	s5, 1096(sp)                    # 8-byte Folded Spill
	sd	s6, 1088(sp)                    # 8-byte Folded Spill
	sd	s7, 1080(sp)                    # 8-byte Folded Spill
	sd	s8, 1072(sp)                    # 8-byte Folded Spill
	mv	s5, a3
	mv	s2, a1
	lw	a3, 0(a0)
	li	a4, 32
	li	a1, 2
	bltu	a4, a3, .Laes_BB74_14
# %bb.1:                                # %start
	lui	a4, 65793
	slli	a4, a4, 4
	srl	a4, a4, a3
	andi	a4, a4, 1
	beqz	a4, .Laes_BB74_14
# %bb.2:                                # %join.3.i
	seqz	s6, a2
	slli	a3, a3, 32
	addi	s3, a0, 244
	vsetivli	zero, 16, e8, m1, ta, ma
	vle8.v	v8, (s2)
	addi	a1, sp, 16
	li	a4, 8
	slli	s6, s6, 12
	srli	a3, a3, 32
	vse8.v	v8, (a1)
	add	s8, a2, s6
	srli	a3, a3, 2
	addi	s4, a3, 7
	sd	s8, 32(sp)
	sd	s5, 40(sp)
	bltu	s5, a4, .Laes_BB74_4
# %bb.3:                                # %then.1.i.i.i
	addi	a0, a0, 4
	addi	a4, sp, 16
	mv	a1, s4
	mv	a2, s3
	mv	a3, s4
	call	aes.aes_hybrid.closures.lend_planes.2
	vsetivli	zero, 16, e8, m1, ta, ma
	j	.Laes_BB74_13
.Laes_BB74_4:                               # %else.2.i.i.i
	beqz	s5, .Laes_BB74_13
# %bb.5:                                # %join.5.lr.ph.i.i.i.i
	mv	s7, a2
	slli	s1, s5, 4
	li	a2, 1024
	addi	a0, sp, 48
	sub	a2, a2, s1
	add	a0, a0, s1
	li	a1, 0
	la	t1, memset
	jalr	t1
	addi	a0, sp, 48
	mv	a1, s8
	mv	a2, s1
	la	t1, memcpy
	jalr	t1
	li	a1, 4
	li	a0, 0
	bltu	s5, a1, .Laes_BB74_7
# %bb.6:                                # %loop.7.preheader.i.i.i.i.loopexit.i.i
	li	a3, 4
	mv	a0, s3
	mv	a1, s4
	mv	a2, s8
	call	aes.aes_permute.blocks.process_on_lanes.2
	li	a0, 4
.Laes_BB74_7:                               # %loop.7.preheader.i.i.i.i.i.i
	bgeu	a0, s5, .Laes_BB74_10
# %bb.8:                                # %join.10.i.i.i.i.i.i.preheader
	sub	s0, s5, a0
	slli	a0, a0, 4
	add	a0, a0, s7
	add	s1, a0, s6
.Laes_BB74_9:                               # %join.10.i.i.i.i.i.i
                                        # =>This Inner Loop Header: Depth=1
	li	a3, 1
	mv	a0, s3
	mv	a1, s4
	mv	a2, s1
	call	aes.aes_permute.blocks.process_on_lanes.2
	addi	s0, s0, -1
	addi	s1, s1, 16
	bnez	s0, .Laes_BB74_9
.Laes_BB74_10:                              # %join.7.lr.ph.i.i.i.i.i
	addi	a1, sp, 16
	addi	a0, sp, 48
	vsetivli	zero, 16, e8, m1, ta, ma
.Laes_BB74_11:                              # %join.7.i.i.i.i.i
                                        # =>This Inner Loop Header: Depth=1
	vle8.v	v8, (a1)
	vle8.v	v9, (s8)
	mv	a1, a0
	addi	s5, s5, -1
	addi	a0, a0, 16
	vxor.vv	v8, v9, v8
	vse8.v	v8, (s8)
	addi	s8, s8, 16
	bnez	s5, .Laes_BB74_11
# %bb.12:                               # %"cbc::decryption::unchain_part::<#625643f3508b39e7>.exit.loopexit.i.i.i.i"
	addi	a0, a0, -16
	vle8.v	v8, (a0)
	addi	a0, sp, 16
	vse8.v	v8, (a0)
.Laes_BB74_13:                              # %"cbc::chain::Cbc::decrypt_blocks::<#bc4275ba8002e6b4>.exit.i"
	li	a1, 0
	addi	a0, sp, 16
	vle8.v	v8, (a0)
	vse8.v	v8, (s2)
.Laes_BB74_14:                              # %"aes_c::chains::fotsgure_aes_cbc_decrypt.exit"
	mv	a0, a1
	ld	ra, 1144(sp)                    # 8-byte Folded Reload
	ld	s0, 1136(sp)                    # 8-byte Folded Reload
	ld	s1, 1128(sp)                    # 8-byte Folded Reload
	ld	s2, 1120(sp)                    # 8-byte Folded Reload
	ld	s3, 1112(sp)                    # 8-byte Folded Reload
	ld	s4, 1104(sp)                    # 8-byte Folded Reload
	ld	s5, 1096(sp)                    # 8-byte Folded Reload
	ld	s6, 1088(sp)                    # 8-byte Folded Reload
	ld	s7, 1080(sp)                    # 8-byte Folded Reload
	ld	s8, 1072(sp)                    # 8-byte Folded Reload
	addi	sp, sp, 1152
	vsetvli	t0, zero, e8, m8, ta, ma
	vmv.v.i	v0, 0
	vmv.v.i	v8, 0
	vmv.v.i	v16, 0
	vmv.v.i	v24, 0
	li	a1, 0
	li	a2, 0
	li	a3, 0
	li	a4, 0
	li	a5, 0
	li	a6, 0
	li	a7, 0
	li	t0, 0
	li	t1, 0
	li	t2, 0
	li	t3, 0
	li	t4, 0
	li	t5, 0
	li	t6, 0
	ret
.Laes_func_end74:
	.size	aes.fotsgure_aes_cbc_decrypt, .Laes_func_end74-aes.fotsgure_aes_cbc_decrypt
                                        # -- End function
	.section	.text.aes.fotsgure_aes_decrypt_blocks,"ax",@progbits
	export_aes	fotsgure_aes_decrypt_blocks
	.p2align	1
	.type	aes.fotsgure_aes_decrypt_blocks,@function
aes.fotsgure_aes_decrypt_blocks:            # @aes.fotsgure_aes_decrypt_blocks
# %bb.0:                                # %start
	addi	sp, sp, -48
	sd	ra, 40(sp)                      # 8-byte Folded Spill
	sd	s0, 32(sp)                      # 8-byte Folded Spill
	sd	s1, 24(sp)                      # 8-byte Folded Spill
	sd	s2, 16(sp)                      # 8-byte Folded Spill
	sd	s3, 8(sp)                       # 8-byte Folded Spill
	sd	s4, 0(sp)                       # 8-byte Folded Spill
	mv	s0, a2
	lw	a3, 0(a0)
	li	a4, 32
	li	a2, 2
	bltu	a4, a3, .Laes_BB75_6
# %bb.1:                                # %start
	lui	a4, 65793
	slli	a4, a4, 4
	srl	a4, a4, a3
	andi	a4, a4, 1
	beqz	a4, .Laes_BB75_6
# %bb.2:                                # %join.3.i
	seqz	a2, a1
	slli	a3, a3, 32
	li	a4, 15
	slli	a2, a2, 12
	srli	a3, a3, 32
	add	s4, a1, a2
	srli	a3, a3, 2
	addi	s2, a3, 7
	addi	s3, a0, 244
	bgeu	s0, a4, .Laes_BB75_4
# %bb.3:
	li	s1, 0
	j	.Laes_BB75_5
.Laes_BB75_4:                               # %join.6.i.i.i
	addi	a0, a0, 4
	andi	a1, s0, 7
	sltiu	a2, a1, 6
	neg	a2, a2
	and	a1, a1, a2
	sub	s1, s0, a1
	mv	a1, s2
	mv	a2, s4
	mv	a3, s1
	call	aes.aes_hybrid.batches.process_on_planes.2
.Laes_BB75_5:                               # %"aes_hybrid::borrowed_cipher::BorrowedCipher::process_blocks::<#b6eb981607e07ed4>.exit.i"
	slli	a2, s1, 4
	add	a2, a2, s4
	sub	a3, s0, s1
	mv	a0, s3
	mv	a1, s2
	call	aes.aes_permute.blocks.process_on_lanes.2
	li	a2, 0
.Laes_BB75_6:                               # %"aes_c::blocks::fotsgure_aes_decrypt_blocks.exit"
	mv	a0, a2
	ld	ra, 40(sp)                      # 8-byte Folded Reload
	ld	s0, 32(sp)                      # 8-byte Folded Reload
	ld	s1, 24(sp)                      # 8-byte Folded Reload
	ld	s2, 16(sp)                      # 8-byte Folded Reload
	ld	s3, 8(sp)                       # 8-byte Folded Reload
	ld	s4, 0(sp)                       # 8-byte Folded Reload
	addi	sp, sp, 48
	vsetvli	t0, zero, e8, m8, ta, ma
	vmv.v.i	v0, 0
	vmv.v.i	v8, 0
	vmv.v.i	v16, 0
	vmv.v.i	v24, 0
	li	a1, 0
	li	a2, 0
	li	a3, 0
	li	a4, 0
	li	a5, 0
	li	a6, 0
	li	a7, 0
	li	t0, 0
	li	t1, 0
	li	t2, 0
	li	t3, 0
	li	t4, 0
	li	t5, 0
	li	t6, 0
	ret
.Laes_func_end75:
	.size	aes.fotsgure_aes_decrypt_blocks, .Laes_func_end75-aes.fotsgure_aes_decrypt_blocks
                                        # -- End function
	.section	.text.aes.fotsgure_aes_decrypt_blocks_to,"ax",@progbits
	export_aes	fotsgure_aes_decrypt_blocks_to
	.p2align	1
	.type	aes.fotsgure_aes_decrypt_blocks_to,@function
aes.fotsgure_aes_decrypt_blocks_to:         # @aes.fotsgure_aes_decrypt_blocks_to
# %bb.0:                                # %start
	bne	a2, a4, .Laes_BB76_8
# %bb.1:                                # %join.3.i
	addi	sp, sp, -48
	sd	ra, 40(sp)                      # 8-byte Folded Spill
	sd	s0, 32(sp)                      # 8-byte Folded Spill
	sd	s1, 24(sp)                      # 8-byte Folded Spill
	sd	s2, 16(sp)                      # 8-byte Folded Spill
	sd	s3, 8(sp)                       # 8-byte Folded Spill
	sd	s4, 0(sp)                       # 8-byte Folded Spill
	lw	a5, 0(a0)
	li	s1, 32
	li	a4, 2
	bltu	s1, a5, .Laes_BB76_13
# %bb.2:                                # %join.3.i
	lui	s1, 65793
	slli	s1, s1, 4
	srl	s1, s1, a5
	andi	s1, s1, 1
	beqz	s1, .Laes_BB76_13
# %bb.3:                                # %join.6.i
	seqz	a4, a1
	seqz	s1, a3
	slli	a4, a4, 12
	slli	s0, s1, 12
	add	a1, a1, a4
	add	s0, s0, a3
	slli	a3, a2, 4
	sub	a4, s0, a1
	bgeu	a4, a3, .Laes_BB76_9
# %bb.4:                                # %loop.4.preheader.i.i.i.i.i.i.i
	mv	a3, s0
	mv	a4, a2
	beqz	a2, .Laes_BB76_11
.Laes_BB76_5:                               # %join.7.i.i.i.i.i.i.i
                                        # =>This Inner Loop Header: Depth=1
	vsetivli	zero, 16, e8, m1, ta, ma
	vle8.v	v8, (a1)
	addi	a4, a4, -1
	addi	a1, a1, 16
	vse8.v	v8, (a3)
	addi	a3, a3, 16
	bnez	a4, .Laes_BB76_5
# %bb.6:                                # %"core::slice::edits::slice+T::copy_from_slice::<#b9e87c6de6ee7501>.exit.i"
	lwu	a1, 0(a0)
	srli	a1, a1, 2
	li	a3, 15
	addi	s2, a1, 7
	bgeu	a2, a3, .Laes_BB76_10
.Laes_BB76_7:
	li	s1, 0
	j	.Laes_BB76_12
.Laes_BB76_8:
	li	a0, 3
	vsetvli	t0, zero, e8, m8, ta, ma
	vmv.v.i	v0, 0
	vmv.v.i	v8, 0
	vmv.v.i	v16, 0
	vmv.v.i	v24, 0
	li	a1, 0
	li	a2, 0
	li	a3, 0
	li	a4, 0
	li	a5, 0
	li	a6, 0
	li	a7, 0
	li	t0, 0
	li	t1, 0
	li	t2, 0
	li	t3, 0
	li	t4, 0
	li	t5, 0
	li	t6, 0
	ret
.Laes_BB76_9:                               # %apart.2.i.i.i.i.i.i.i
	mv	s2, a0
	mv	a0, s0
	mv	s1, a2
	mv	a2, a3
	la	t1, memmove
	jalr	t1
	mv	a0, s2
	mv	a2, s1
	lwu	a1, 0(s2)
	srli	a1, a1, 2
	li	a3, 15
	addi	s2, a1, 7
	bltu	s1, a3, .Laes_BB76_7
.Laes_BB76_10:                              # %join.6.i.i.i
	addi	a1, a0, 4
	andi	a3, a2, 7
	sltiu	a4, a3, 6
	neg	a4, a4
	and	a3, a3, a4
	sub	s1, a2, a3
	mv	s3, a0
	mv	a0, a1
	mv	a1, s2
	mv	s4, a2
	mv	a2, s0
	mv	a3, s1
	call	aes.aes_hybrid.batches.process_on_planes.2
	mv	a0, s3
	mv	a2, s4
	j	.Laes_BB76_12
.Laes_BB76_11:                              # %"core::slice::edits::slice+T::copy_from_slice::<#b9e87c6de6ee7501>.exit.thread.i"
	li	s1, 0
	slli	a5, a5, 32
	srli	a5, a5, 32
	srli	a5, a5, 2
	addi	s2, a5, 7
.Laes_BB76_12:                              # %"aes_hybrid::borrowed_cipher::BorrowedCipher::process_blocks::<#b6eb981607e07ed4>.exit.i"
	addi	a0, a0, 244
	slli	a1, s1, 4
	add	s0, s0, a1
	sub	a3, a2, s1
	mv	a1, s2
	mv	a2, s0
	call	aes.aes_permute.blocks.process_on_lanes.2
	li	a4, 0
.Laes_BB76_13:
	ld	ra, 40(sp)                      # 8-byte Folded Reload
	ld	s0, 32(sp)                      # 8-byte Folded Reload
	ld	s1, 24(sp)                      # 8-byte Folded Reload
	ld	s2, 16(sp)                      # 8-byte Folded Reload
	ld	s3, 8(sp)                       # 8-byte Folded Reload
	ld	s4, 0(sp)                       # 8-byte Folded Reload
	addi	sp, sp, 48
	mv	a0, a4
	vsetvli	t0, zero, e8, m8, ta, ma
	vmv.v.i	v0, 0
	vmv.v.i	v8, 0
	vmv.v.i	v16, 0
	vmv.v.i	v24, 0
	li	a1, 0
	li	a2, 0
	li	a3, 0
	li	a4, 0
	li	a5, 0
	li	a6, 0
	li	a7, 0
	li	t0, 0
	li	t1, 0
	li	t2, 0
	li	t3, 0
	li	t4, 0
	li	t5, 0
	li	t6, 0
	ret
.Laes_func_end76:
	.size	aes.fotsgure_aes_decrypt_blocks_to, .Laes_func_end76-aes.fotsgure_aes_decrypt_blocks_to
                                        # -- End function
	.section	.text.aes.fotsgure_aes_decrypt_blocks_with,"ax",@progbits
	export_aes	fotsgure_aes_decrypt_blocks_with
	.p2align	1
	.type	aes.fotsgure_aes_decrypt_blocks_with,@function
aes.fotsgure_aes_decrypt_blocks_with:       # @aes.fotsgure_aes_decrypt_blocks_with
# %bb.0:                                # %start
	addi	sp, sp, -544
	sd	ra, 536(sp)                     # 8-byte Folded Spill
	sd	s0, 528(sp)                     # 8-byte Folded Spill
	sd	s1, 520(sp)                     # 8-byte Folded Spill
	sd	s2, 512(sp)                     # 8-byte Folded Spill
	sd	s3, 504(sp)                     # 8-byte Folded Spill
	sd	s4, 496(sp)                     # 8-byte Folded Spill
	sd	s5, 488(sp)                     # 8-byte Folded Spill
	mv	s4, a3
	mv	s5, a2
	mv	s0, a1
	seqz	a1, a0
	slli	a1, a1, 12
	add	s1, a0, a1
	addi	a0, sp, 4
	li	a2, 484
	li	a1, 0
	la	t1, memset
	jalr	t1
	addi	a0, sp, 4
	mv	a1, s1
	mv	a2, s0
	call	aes.aes_c.kept.fotsgure_aes_set_key
	slli	a0, a0, 32
	srli	a0, a0, 32
	beqz	a0, .Laes_BB77_2
# %bb.1:
	li	s0, 1
	j	.Laes_BB77_9
.Laes_BB77_2:                               # %join.3.i
	lw	a0, 4(sp)
	addi	s2, sp, 8
	addi	s3, sp, 248
	li	a1, 32
	li	s0, 2
	bltu	a1, a0, .Laes_BB77_8
# %bb.3:                                # %join.3.i
	lui	a1, 65793
	slli	a1, a1, 4
	srl	a1, a1, a0
	andi	a1, a1, 1
	beqz	a1, .Laes_BB77_8
# %bb.4:                                # %join.3.i.i
	seqz	a1, s5
	slli	a0, a0, 32
	slli	a1, a1, 12
	srli	a0, a0, 32
	add	s1, s5, a1
	srli	a0, a0, 2
	li	a1, 15
	addi	s5, a0, 7
	bgeu	s4, a1, .Laes_BB77_6
# %bb.5:
	li	s0, 0
	j	.Laes_BB77_7
.Laes_BB77_6:                               # %join.6.i.i.i.i
	andi	a0, s4, 7
	sltiu	a1, a0, 6
	neg	a1, a1
	and	a0, a0, a1
	sub	s0, s4, a0
	mv	a0, s2
	mv	a1, s5
	mv	a2, s1
	mv	a3, s0
	call	aes.aes_hybrid.batches.process_on_planes.2
.Laes_BB77_7:                               # %"aes_hybrid::borrowed_cipher::BorrowedCipher::process_blocks::<#b6eb981607e07ed4>.exit.i.i"
	slli	a2, s0, 4
	add	a2, a2, s1
	sub	a3, s4, s0
	mv	a0, s3
	mv	a1, s5
	call	aes.aes_permute.blocks.process_on_lanes.2
	li	s0, 0
.Laes_BB77_8:                               # %"aes_c::blocks::fotsgure_aes_decrypt_blocks.exit.i"
	sw	zero, 4(sp)
	mv	a0, s2
	call	aes.aes_cipher.zeroize.elements.zeroize_elements.1
	mv	a0, s3
	call	aes.aes_cipher.zeroize.elements.zeroize_elements.1
.Laes_BB77_9:                               # %"aes_c::once::fotsgure_aes_decrypt_blocks_with.exit"
	mv	a0, s0
	ld	ra, 536(sp)                     # 8-byte Folded Reload
	ld	s0, 528(sp)                     # 8-byte Folded Reload
	ld	s1, 520(sp)                     # 8-byte Folded Reload
	ld	s2, 512(sp)                     # 8-byte Folded Reload
	ld	s3, 504(sp)                     # 8-byte Folded Reload
	ld	s4, 496(sp)                     # 8-byte Folded Reload
	ld	s5, 488(sp)                     # 8-byte Folded Reload
	addi	sp, sp, 544
	vsetvli	t0, zero, e8, m8, ta, ma
	vmv.v.i	v0, 0
	vmv.v.i	v8, 0
	vmv.v.i	v16, 0
	vmv.v.i	v24, 0
	li	a1, 0
	li	a2, 0
	li	a3, 0
	li	a4, 0
	li	a5, 0
	li	a6, 0
	li	a7, 0
	li	t0, 0
	li	t1, 0
	li	t2, 0
	li	t3, 0
	li	t4, 0
	li	t5, 0
	li	t6, 0
	ret
.Laes_func_end77:
	.size	aes.fotsgure_aes_decrypt_blocks_with, .Laes_func_end77-aes.fotsgure_aes_decrypt_blocks_with
                                        # -- End function
	.section	.text.aes.fotsgure_aes_unwrap,"ax",@progbits
	export_aes	fotsgure_aes_unwrap
	.p2align	1
	.type	aes.fotsgure_aes_unwrap,@function
aes.fotsgure_aes_unwrap:                    # @aes.fotsgure_aes_unwrap
# %bb.0:                                # %start
	lw	t0, 0(a0)
	li	a7, 32
	li	a6, 2
	bltu	a7, t0, .Laes_BB78_3
# %bb.1:                                # %start
	lui	a5, 65793
	slli	a5, a5, 4
	srl	a5, a5, t0
	andi	a5, a5, 1
	beqz	a5, .Laes_BB78_3
# %bb.2:                                # %join.3.i
	addi	sp, sp, -64
	sd	ra, 56(sp)                      # 8-byte Folded Spill
	sd	s0, 48(sp)                      # 8-byte Folded Spill
	sd	s1, 40(sp)                      # 8-byte Folded Spill
	slli	t0, t0, 32
	seqz	a5, a3
	slli	a5, a5, 12
	add	a3, a3, a5
	seqz	a5, a1
	slli	a5, a5, 12
	add	a1, a1, a5
	addi	a6, a0, 4
	addi	a0, a0, 244
	srli	a5, t0, 32
	srli	a5, a5, 2
	addi	a5, a5, 7
	sd	a6, 8(sp)
	sd	a5, 16(sp)
	sd	a0, 24(sp)
	sd	a5, 32(sp)
	addi	a0, sp, 8
	call	aes.key_wrap.wrapping.unwrap
	zext.b	s0, a1
	zext.b	s1, a0
	call	aes.aes_cipher.zeroize.stack.wipe_stack.512
	seqz	a0, s1
	snez	a1, s0
	addi	a1, a1, 5
	addi	a0, a0, -1
	and	a6, a0, a1
	ld	ra, 56(sp)                      # 8-byte Folded Reload
	ld	s0, 48(sp)                      # 8-byte Folded Reload
	ld	s1, 40(sp)                      # 8-byte Folded Reload
	addi	sp, sp, 64
.Laes_BB78_3:                               # %"aes_c::wrapping::fotsgure_aes_unwrap.exit"
	mv	a0, a6
	vsetvli	t0, zero, e8, m8, ta, ma
	vmv.v.i	v0, 0
	vmv.v.i	v8, 0
	vmv.v.i	v16, 0
	vmv.v.i	v24, 0
	li	a1, 0
	li	a2, 0
	li	a3, 0
	li	a4, 0
	li	a5, 0
	li	a6, 0
	li	a7, 0
	li	t0, 0
	li	t1, 0
	li	t2, 0
	li	t3, 0
	li	t4, 0
	li	t5, 0
	li	t6, 0
	ret
.Laes_func_end78:
	.size	aes.fotsgure_aes_unwrap, .Laes_func_end78-aes.fotsgure_aes_unwrap
                                        # -- End function
	.section	.text.aes.fotsgure_aes_unwrap_padded,"ax",@progbits
	export_aes	fotsgure_aes_unwrap_padded
	.p2align	1
	.type	aes.fotsgure_aes_unwrap_padded,@function
aes.fotsgure_aes_unwrap_padded:             # @aes.fotsgure_aes_unwrap_padded
# %bb.0:                                # %start
	addi	sp, sp, -64
	sd	ra, 56(sp)                      # 8-byte Folded Spill
	sd	s0, 48(sp)                      # 8-byte Folded Spill
	mv	s0, a5
	mv	a6, a4
	mv	a7, a2
	sd	zero, 0(a5)
	lw	a4, 0(a0)
	sd	zero, 40(sp)
	li	a5, 32
	li	a2, 2
	bltu	a5, a4, .Laes_BB79_4
# %bb.1:                                # %start
	lui	a5, 65793
	slli	a5, a5, 4
	srl	a5, a5, a4
	andi	a5, a5, 1
	beqz	a5, .Laes_BB79_4
# %bb.2:                                # %join.3.i
	slli	a5, a4, 32
	seqz	a2, a3
	slli	a2, a2, 12
	add	a4, a3, a2
	seqz	a2, a1
	slli	a2, a2, 12
	add	a2, a2, a1
	addi	a1, a0, 4
	addi	a0, a0, 244
	srli	a5, a5, 32
	srli	a5, a5, 2
	addi	a5, a5, 7
	sd	a1, 8(sp)
	sd	a5, 16(sp)
	sd	a0, 24(sp)
	sd	a5, 32(sp)
	addi	a0, sp, 40
	addi	a1, sp, 8
	mv	a3, a7
	mv	a5, a6
	call	aes.key_wrap.padded.unwrap_padded
	call	aes.aes_cipher.zeroize.stack.wipe_stack.512
	lbu	a0, 40(sp)
	beqz	a0, .Laes_BB79_5
# %bb.3:                                # %arm.5.i
	lbu	a0, 41(sp)
	snez	a2, a0
	addi	a2, a2, 5
.Laes_BB79_4:                               # %"aes_c::wrapping::fotsgure_aes_unwrap_padded.exit"
	mv	a0, a2
	ld	ra, 56(sp)                      # 8-byte Folded Reload
	ld	s0, 48(sp)                      # 8-byte Folded Reload
	addi	sp, sp, 64
	vsetvli	t0, zero, e8, m8, ta, ma
	vmv.v.i	v0, 0
	vmv.v.i	v8, 0
	vmv.v.i	v16, 0
	vmv.v.i	v24, 0
	li	a1, 0
	li	a2, 0
	li	a3, 0
	li	a4, 0
	li	a5, 0
	li	a6, 0
	li	a7, 0
	li	t0, 0
	li	t1, 0
	li	t2, 0
	li	t3, 0
	li	t4, 0
	li	t5, 0
	li	t6, 0
	ret
.Laes_BB79_5:                               # %arm.4.i
	lwu	a0, 44(sp)
	sd	a0, 0(s0)
	li	a0, 0
	ld	ra, 56(sp)                      # 8-byte Folded Reload
	ld	s0, 48(sp)                      # 8-byte Folded Reload
	addi	sp, sp, 64
	vsetvli	t0, zero, e8, m8, ta, ma
	vmv.v.i	v0, 0
	vmv.v.i	v8, 0
	vmv.v.i	v16, 0
	vmv.v.i	v24, 0
	li	a1, 0
	li	a2, 0
	li	a3, 0
	li	a4, 0
	li	a5, 0
	li	a6, 0
	li	a7, 0
	li	t0, 0
	li	t1, 0
	li	t2, 0
	li	t3, 0
	li	t4, 0
	li	t5, 0
	li	t6, 0
	ret
.Laes_func_end79:
	.size	aes.fotsgure_aes_unwrap_padded, .Laes_func_end79-aes.fotsgure_aes_unwrap_padded
                                        # -- End function
	.section	.text.aes.fotsgure_aes_inv_mix_columns,"ax",@progbits
	export_aes	fotsgure_aes_inv_mix_columns
	.p2align	1
	.type	aes.fotsgure_aes_inv_mix_columns,@function
aes.fotsgure_aes_inv_mix_columns:           # @aes.fotsgure_aes_inv_mix_columns
# %bb.0:                                # %start
	addi	sp, sp, -16
	sd	ra, 8(sp)                       # 8-byte Folded Spill
	call	aes.aes_c.single_rounds.inverse_mixed
	ld	ra, 8(sp)                       # 8-byte Folded Reload
	addi	sp, sp, 16
	tail	aes.aes_cipher.zeroize.stack.wipe_stack.512
.Laes_func_end80:
	.size	aes.fotsgure_aes_inv_mix_columns, .Laes_func_end80-aes.fotsgure_aes_inv_mix_columns
                                        # -- End function
	.section	.text.aes.fotsgure_aes_equiv_inv_cipher_round,"ax",@progbits
	export_aes	fotsgure_aes_equiv_inv_cipher_round
	.p2align	1
	.type	aes.fotsgure_aes_equiv_inv_cipher_round,@function
aes.fotsgure_aes_equiv_inv_cipher_round:    # @aes.fotsgure_aes_equiv_inv_cipher_round
# %bb.0:                                # %start
	addi	sp, sp, -16
	sd	ra, 8(sp)                       # 8-byte Folded Spill
	call	aes.aes_c.single_rounds.inverse_round
	ld	ra, 8(sp)                       # 8-byte Folded Reload
	addi	sp, sp, 16
	tail	aes.aes_cipher.zeroize.stack.wipe_stack.512
.Laes_func_end81:
	.size	aes.fotsgure_aes_equiv_inv_cipher_round, .Laes_func_end81-aes.fotsgure_aes_equiv_inv_cipher_round
                                        # -- End function
	.section	.text.aes.fotsgure_aes_equiv_inv_cipher_round_par,"ax",@progbits
	export_aes	fotsgure_aes_equiv_inv_cipher_round_par
	.p2align	1
	.type	aes.fotsgure_aes_equiv_inv_cipher_round_par,@function
aes.fotsgure_aes_equiv_inv_cipher_round_par: # @aes.fotsgure_aes_equiv_inv_cipher_round_par
# %bb.0:                                # %start
	addi	sp, sp, -16
	sd	ra, 8(sp)                       # 8-byte Folded Spill
	call	aes.aes_c.single_rounds.inverse_rounds
	ld	ra, 8(sp)                       # 8-byte Folded Reload
	addi	sp, sp, 16
	tail	aes.aes_cipher.zeroize.stack.wipe_stack.512
.Laes_func_end82:
	.size	aes.fotsgure_aes_equiv_inv_cipher_round_par, .Laes_func_end82-aes.fotsgure_aes_equiv_inv_cipher_round_par
                                        # -- End function
	.section	.text.aes.fotsgure_aes_cmac_accept,"ax",@progbits
	export_aes	fotsgure_aes_cmac_accept
	.p2align	1
	.type	aes.fotsgure_aes_cmac_accept,@function
aes.fotsgure_aes_cmac_accept:               # @aes.fotsgure_aes_cmac_accept
# %bb.0:                                # %start
	addi	sp, sp, -16
	sd	ra, 8(sp)                       # 8-byte Folded Spill
	sd	s0, 0(sp)                       # 8-byte Folded Spill
	mv	a4, a3
	lw	a3, 0(a0)
	li	a5, 32
	li	s0, 2
	bltu	a5, a3, .Laes_BB83_7
# %bb.1:                                # %start
	lui	a5, 65793
	slli	a5, a5, 4
	srl	a5, a5, a3
	andi	a5, a5, 1
	beqz	a5, .Laes_BB83_7
# %bb.2:                                # %join.3.i
	addi	a5, a4, -4
	li	s0, 12
	bltu	s0, a5, .Laes_BB83_6
# %bb.3:                                # %join.6.i
	ld	a5, 0(a1)
	li	s0, 1
	bne	a5, s0, .Laes_BB83_8
# %bb.4:                                # %join.3.i.i
	seqz	a5, a2
	slli	a3, a3, 32
	slli	a5, a5, 12
	srli	s0, a3, 32
	add	a3, a2, a5
	srli	a2, s0, 2
	addi	a2, a2, 7
	addi	a5, a0, 4
	mv	s0, a1
	mv	a0, a1
	mv	a1, a5
	call	aes.cmac.pieces.Message.is_tag_so_far
	beqz	a0, .Laes_BB83_9
# %bb.5:                                # %join.7.i.i
	mv	a0, s0
	call	aes.cmac.pieces.MessageZeroize.zeroize
	call	aes.aes_cipher.zeroize.stack.wipe_stack.768
	li	a0, 0
	ld	ra, 8(sp)                       # 8-byte Folded Reload
	ld	s0, 0(sp)                       # 8-byte Folded Reload
	addi	sp, sp, 16
	vsetvli	t0, zero, e8, m8, ta, ma
	vmv.v.i	v0, 0
	vmv.v.i	v8, 0
	vmv.v.i	v16, 0
	vmv.v.i	v24, 0
	li	a1, 0
	li	a2, 0
	li	a3, 0
	li	a4, 0
	li	a5, 0
	li	a6, 0
	li	a7, 0
	li	t0, 0
	li	t1, 0
	li	t2, 0
	li	t3, 0
	li	t4, 0
	li	t5, 0
	li	t6, 0
	ret
.Laes_BB83_6:
	li	s0, 7
.Laes_BB83_7:                               # %"aes_c::tags::pieces::fotsgure_aes_cmac_accept.exit"
	mv	a0, s0
	ld	ra, 8(sp)                       # 8-byte Folded Reload
	ld	s0, 0(sp)                       # 8-byte Folded Reload
	addi	sp, sp, 16
	vsetvli	t0, zero, e8, m8, ta, ma
	vmv.v.i	v0, 0
	vmv.v.i	v8, 0
	vmv.v.i	v16, 0
	vmv.v.i	v24, 0
	li	a1, 0
	li	a2, 0
	li	a3, 0
	li	a4, 0
	li	a5, 0
	li	a6, 0
	li	a7, 0
	li	t0, 0
	li	t1, 0
	li	t2, 0
	li	t3, 0
	li	t4, 0
	li	t5, 0
	li	t6, 0
	ret
.Laes_BB83_8:
	li	s0, 10
	call	aes.aes_cipher.zeroize.stack.wipe_stack.768
	mv	a0, s0
	ld	ra, 8(sp)                       # 8-byte Folded Reload
	ld	s0, 0(sp)                       # 8-byte Folded Reload
	addi	sp, sp, 16
	vsetvli	t0, zero, e8, m8, ta, ma
	vmv.v.i	v0, 0
	vmv.v.i	v8, 0
	vmv.v.i	v16, 0
	vmv.v.i	v24, 0
	li	a1, 0
	li	a2, 0
	li	a3, 0
	li	a4, 0
	li	a5, 0
	li	a6, 0
	li	a7, 0
	li	t0, 0
	li	t1, 0
	li	t2, 0
	li	t3, 0
	li	t4, 0
	li	t5, 0
	li	t6, 0
	ret
.Laes_BB83_9:
	li	s0, 6
	call	aes.aes_cipher.zeroize.stack.wipe_stack.768
	mv	a0, s0
	ld	ra, 8(sp)                       # 8-byte Folded Reload
	ld	s0, 0(sp)                       # 8-byte Folded Reload
	addi	sp, sp, 16
	vsetvli	t0, zero, e8, m8, ta, ma
	vmv.v.i	v0, 0
	vmv.v.i	v8, 0
	vmv.v.i	v16, 0
	vmv.v.i	v24, 0
	li	a1, 0
	li	a2, 0
	li	a3, 0
	li	a4, 0
	li	a5, 0
	li	a6, 0
	li	a7, 0
	li	t0, 0
	li	t1, 0
	li	t2, 0
	li	t3, 0
	li	t4, 0
	li	t5, 0
	li	t6, 0
	ret
.Laes_func_end83:
	.size	aes.fotsgure_aes_cmac_accept, .Laes_func_end83-aes.fotsgure_aes_cmac_accept
                                        # -- End function
	.section	.text.aes.fotsgure_aes_cmac_verify,"ax",@progbits
	export_aes	fotsgure_aes_cmac_verify
	.p2align	1
	.type	aes.fotsgure_aes_cmac_verify,@function
aes.fotsgure_aes_cmac_verify:               # @aes.fotsgure_aes_cmac_verify
# %bb.0:                                # %start
	addi	sp, sp, -48
	sd	ra, 40(sp)                      # 8-byte Folded Spill
	sd	s0, 32(sp)                      # 8-byte Folded Spill
	lw	s0, 0(a0)
	li	a6, 32
	li	a7, 2
	bltu	a6, s0, .Laes_BB84_4
# %bb.1:                                # %start
	lui	a5, 65793
	slli	a5, a5, 4
	srl	a5, a5, s0
	andi	a5, a5, 1
	beqz	a5, .Laes_BB84_4
# %bb.2:                                # %join.3.i
	addi	a6, a4, -4
	li	a5, 12
	bltu	a5, a6, .Laes_BB84_5
# %bb.3:                                # %join.6.i
	seqz	a5, a1
	slli	a5, a5, 12
	add	a1, a1, a5
	seqz	a5, a3
	slli	s0, s0, 32
	addi	a0, a0, 4
	slli	a5, a5, 12
	srli	s0, s0, 32
	add	a3, a3, a5
	srli	s0, s0, 2
	addi	s0, s0, 7
	sd	a0, 0(sp)
	sd	s0, 8(sp)
	sd	a0, 16(sp)
	sd	s0, 24(sp)
	mv	a0, sp
	call	aes.cmac.tags.is_tag_start
	mv	s0, a0
	call	aes.aes_cipher.zeroize.stack.wipe_stack.768
	addi	s0, s0, -1
	andi	a7, s0, 6
.Laes_BB84_4:                               # %"aes_c::tags::fotsgure_aes_cmac_verify.exit"
	mv	a0, a7
	ld	ra, 40(sp)                      # 8-byte Folded Reload
	ld	s0, 32(sp)                      # 8-byte Folded Reload
	addi	sp, sp, 48
	vsetvli	t0, zero, e8, m8, ta, ma
	vmv.v.i	v0, 0
	vmv.v.i	v8, 0
	vmv.v.i	v16, 0
	vmv.v.i	v24, 0
	li	a1, 0
	li	a2, 0
	li	a3, 0
	li	a4, 0
	li	a5, 0
	li	a6, 0
	li	a7, 0
	li	t0, 0
	li	t1, 0
	li	t2, 0
	li	t3, 0
	li	t4, 0
	li	t5, 0
	li	t6, 0
	ret
.Laes_BB84_5:
	li	a0, 7
	ld	ra, 40(sp)                      # 8-byte Folded Reload
	ld	s0, 32(sp)                      # 8-byte Folded Reload
	addi	sp, sp, 48
	vsetvli	t0, zero, e8, m8, ta, ma
	vmv.v.i	v0, 0
	vmv.v.i	v8, 0
	vmv.v.i	v16, 0
	vmv.v.i	v24, 0
	li	a1, 0
	li	a2, 0
	li	a3, 0
	li	a4, 0
	li	a5, 0
	li	a6, 0
	li	a7, 0
	li	t0, 0
	li	t1, 0
	li	t2, 0
	li	t3, 0
	li	t4, 0
	li	t5, 0
	li	t6, 0
	ret
.Laes_func_end84:
	.size	aes.fotsgure_aes_cmac_verify, .Laes_func_end84-aes.fotsgure_aes_cmac_verify
                                        # -- End function
	.section	.text.aes.fotsgure_aes_mix_columns,"ax",@progbits
	export_aes	fotsgure_aes_mix_columns
	.p2align	1
	.type	aes.fotsgure_aes_mix_columns,@function
aes.fotsgure_aes_mix_columns:               # @aes.fotsgure_aes_mix_columns
# %bb.0:                                # %start
	addi	sp, sp, -16
	sd	ra, 8(sp)                       # 8-byte Folded Spill
	call	aes.aes_c.single_rounds.mixed
	ld	ra, 8(sp)                       # 8-byte Folded Reload
	addi	sp, sp, 16
	tail	aes.aes_cipher.zeroize.stack.wipe_stack.512
.Laes_func_end85:
	.size	aes.fotsgure_aes_mix_columns, .Laes_func_end85-aes.fotsgure_aes_mix_columns
                                        # -- End function
	.section	.text.aes.fotsgure_aes_add_keystream,"ax",@progbits
	export_aes	fotsgure_aes_add_keystream
	.p2align	1
	.type	aes.fotsgure_aes_add_keystream,@function
aes.fotsgure_aes_add_keystream:             # @aes.fotsgure_aes_add_keystream
# %bb.0:                                # %start
	addi	sp, sp, -64
	sd	ra, 56(sp)                      # 8-byte Folded Spill
	sd	s0, 48(sp)                      # 8-byte Folded Spill
	sd	s1, 40(sp)                      # 8-byte Folded Spill
	mv	s0, a3
	mv	a3, a2
	ld	a2, 16(a1)
	not	a5, a2
	bgeu	a5, s0, .Laes_BB86_3
# %bb.1:
	li	a0, 4
.Laes_BB86_2:                               # %"aes_c::stream::fotsgure_aes_add_keystream.exit"
	ld	ra, 56(sp)                      # 8-byte Folded Reload
	ld	s0, 48(sp)                      # 8-byte Folded Reload
	ld	s1, 40(sp)                      # 8-byte Folded Reload
	addi	sp, sp, 64
	vsetvli	t0, zero, e8, m8, ta, ma
	vmv.v.i	v0, 0
	vmv.v.i	v8, 0
	vmv.v.i	v16, 0
	vmv.v.i	v24, 0
	li	a1, 0
	li	a2, 0
	li	a3, 0
	li	a4, 0
	li	a5, 0
	li	a6, 0
	li	a7, 0
	li	t0, 0
	li	t1, 0
	li	t2, 0
	li	t3, 0
	li	t4, 0
	li	t5, 0
	li	t6, 0
	ret
.Laes_BB86_3:                               # %join.3.i.i
	mv	a4, a0
	lw	a5, 0(a0)
	li	s1, 32
	li	a0, 2
	bltu	s1, a5, .Laes_BB86_2
# %bb.4:                                # %join.3.i.i
	lui	s1, 65793
	slli	s1, s1, 4
	srl	s1, s1, a5
	andi	s1, s1, 1
	beqz	s1, .Laes_BB86_2
# %bb.5:                                # %then.1.i
	seqz	a0, a3
	slli	a5, a5, 32
	addi	a4, a4, 4
	slli	a0, a0, 12
	srli	a5, a5, 32
	add	a3, a3, a0
	srli	a5, a5, 2
	addi	a5, a5, 7
	sd	a4, 8(sp)
	sd	a5, 16(sp)
	sd	a4, 24(sp)
	sd	a5, 32(sp)
	addi	a0, sp, 8
	mv	s1, a1
	mv	a4, s0
	call	aes.aes_ctr.add_in_batches.add_keystream
	li	a0, 0
	ld	a1, 16(s1)
	add	a1, a1, s0
	sd	a1, 16(s1)
	ld	ra, 56(sp)                      # 8-byte Folded Reload
	ld	s0, 48(sp)                      # 8-byte Folded Reload
	ld	s1, 40(sp)                      # 8-byte Folded Reload
	addi	sp, sp, 64
	vsetvli	t0, zero, e8, m8, ta, ma
	vmv.v.i	v0, 0
	vmv.v.i	v8, 0
	vmv.v.i	v16, 0
	vmv.v.i	v24, 0
	li	a1, 0
	li	a2, 0
	li	a3, 0
	li	a4, 0
	li	a5, 0
	li	a6, 0
	li	a7, 0
	li	t0, 0
	li	t1, 0
	li	t2, 0
	li	t3, 0
	li	t4, 0
	li	t5, 0
	li	t6, 0
	ret
.Laes_func_end86:
	.size	aes.fotsgure_aes_add_keystream, .Laes_func_end86-aes.fotsgure_aes_add_keystream
                                        # -- End function
	.section	.text.aes.fotsgure_aes_add_keystream_to,"ax",@progbits
	export_aes	fotsgure_aes_add_keystream_to
	.p2align	1
	.type	aes.fotsgure_aes_add_keystream_to,@function
aes.fotsgure_aes_add_keystream_to:          # @aes.fotsgure_aes_add_keystream_to
# %bb.0:                                # %start
	bne	a3, a5, .Laes_BB87_3
# %bb.1:                                # %join.3.i
	ld	a5, 16(a1)
	not	a5, a5
	bgeu	a5, a3, .Laes_BB87_4
# %bb.2:
	li	a0, 4
	vsetvli	t0, zero, e8, m8, ta, ma
	vmv.v.i	v0, 0
	vmv.v.i	v8, 0
	vmv.v.i	v16, 0
	vmv.v.i	v24, 0
	li	a1, 0
	li	a2, 0
	li	a3, 0
	li	a4, 0
	li	a5, 0
	li	a6, 0
	li	a7, 0
	li	t0, 0
	li	t1, 0
	li	t2, 0
	li	t3, 0
	li	t4, 0
	li	t5, 0
	li	t6, 0
	ret
.Laes_BB87_3:
	li	a0, 3
	vsetvli	t0, zero, e8, m8, ta, ma
	vmv.v.i	v0, 0
	vmv.v.i	v8, 0
	vmv.v.i	v16, 0
	vmv.v.i	v24, 0
	li	a1, 0
	li	a2, 0
	li	a3, 0
	li	a4, 0
	li	a5, 0
	li	a6, 0
	li	a7, 0
	li	t0, 0
	li	t1, 0
	li	t2, 0
	li	t3, 0
	li	t4, 0
	li	t5, 0
	li	t6, 0
	ret
.Laes_BB87_4:                               # %join.3.i.i
	addi	sp, sp, -80
	sd	ra, 72(sp)                      # 8-byte Folded Spill
	sd	s0, 64(sp)                      # 8-byte Folded Spill
	sd	s1, 56(sp)                      # 8-byte Folded Spill
	sd	s2, 48(sp)                      # 8-byte Folded Spill
	sd	s3, 40(sp)                      # 8-byte Folded Spill
	sd	s4, 32(sp)                      # 8-byte Folded Spill
	lw	s1, 0(a0)
	li	s0, 32
	li	a5, 2
	bltu	s0, s1, .Laes_BB87_18
# %bb.5:                                # %join.3.i.i
	lui	s0, 65793
	slli	s0, s0, 4
	srl	s1, s0, s1
	andi	s1, s1, 1
	beqz	s1, .Laes_BB87_18
# %bb.6:                                # %join.6.i
	seqz	a6, a2
	seqz	s1, a4
	slli	a6, a6, 12
	slli	a7, s1, 12
	add	a5, a2, a6
	add	s4, a4, a7
	sub	s0, s4, a5
	bgeu	s0, a3, .Laes_BB87_10
# %bb.7:                                # %vector.memcheck
	csrr	t0, vlenb
	add	a4, a4, a7
	add	s0, a2, a6
	slli	t0, t0, 1
	sub	a4, a4, s0
	bgeu	a4, t0, .Laes_BB87_11
# %bb.8:                                # %join.7.i.i.i.i.i.i.i.preheader
	add	a6, a6, a3
	add	a2, a2, a6
	mv	a4, s4
.Laes_BB87_9:                               # %join.7.i.i.i.i.i.i.i
                                        # =>This Inner Loop Header: Depth=1
	lbu	s1, 0(a5)
	addi	a5, a5, 1
	sb	s1, 0(a4)
	addi	a4, a4, 1
	bne	a5, a2, .Laes_BB87_9
	j	.Laes_BB87_13
.Laes_BB87_10:                              # %apart.2.i.i.i.i.i.i.i
	mv	s2, a0
	mv	a0, s4
	mv	s3, a1
	mv	a1, a5
	mv	a2, a3
	mv	s0, a3
	la	t1, memmove
	jalr	t1
	mv	a0, s2
	mv	a1, s3
	mv	a3, s0
	j	.Laes_BB87_13
.Laes_BB87_11:                              # %vector.body.preheader
	li	s0, 0
	mv	a4, a3
.Laes_BB87_12:                              # %vector.body
                                        # =>This Inner Loop Header: Depth=1
	vsetvli	s1, a4, e8, m2, ta, ma
	add	a2, a5, s0
	vle8.v	v8, (a2)
	add	a2, s4, s0
	sub	a4, a4, s1
	vse8.v	v8, (a2)
	add	s0, s0, s1
	bnez	a4, .Laes_BB87_12
.Laes_BB87_13:                              # %"core::slice::edits::slice+T::copy_from_slice::<i8,20'core::clone::U8Clone{}>.exit.i"
	ld	a2, 16(a1)
	not	a4, a2
	bgeu	a4, a3, .Laes_BB87_15
# %bb.14:
	li	a5, 4
	j	.Laes_BB87_18
.Laes_BB87_15:                              # %join.3.i.i.i
	lw	a4, 0(a0)
	li	s1, 32
	li	a5, 2
	bltu	s1, a4, .Laes_BB87_18
# %bb.16:                               # %join.3.i.i.i
	lui	s1, 65793
	slli	s1, s1, 4
	srl	s1, s1, a4
	andi	s1, s1, 1
	beqz	s1, .Laes_BB87_18
# %bb.17:                               # %then.1.i.i
	slli	a4, a4, 32
	addi	a0, a0, 4
	srli	a4, a4, 32
	srli	a4, a4, 2
	addi	a4, a4, 7
	sd	a0, 0(sp)
	sd	a4, 8(sp)
	sd	a0, 16(sp)
	sd	a4, 24(sp)
	mv	a0, sp
	mv	s0, a1
	mv	s2, a3
	mv	a3, s4
	mv	a4, s2
	call	aes.aes_ctr.add_in_batches.add_keystream
	li	a5, 0
	ld	a0, 16(s0)
	add	a0, a0, s2
	sd	a0, 16(s0)
.Laes_BB87_18:
	ld	ra, 72(sp)                      # 8-byte Folded Reload
	ld	s0, 64(sp)                      # 8-byte Folded Reload
	ld	s1, 56(sp)                      # 8-byte Folded Reload
	ld	s2, 48(sp)                      # 8-byte Folded Reload
	ld	s3, 40(sp)                      # 8-byte Folded Reload
	ld	s4, 32(sp)                      # 8-byte Folded Reload
	addi	sp, sp, 80
	mv	a0, a5
	vsetvli	t0, zero, e8, m8, ta, ma
	vmv.v.i	v0, 0
	vmv.v.i	v8, 0
	vmv.v.i	v16, 0
	vmv.v.i	v24, 0
	li	a1, 0
	li	a2, 0
	li	a3, 0
	li	a4, 0
	li	a5, 0
	li	a6, 0
	li	a7, 0
	li	t0, 0
	li	t1, 0
	li	t2, 0
	li	t3, 0
	li	t4, 0
	li	t5, 0
	li	t6, 0
	ret
.Laes_func_end87:
	.size	aes.fotsgure_aes_add_keystream_to, .Laes_func_end87-aes.fotsgure_aes_add_keystream_to
                                        # -- End function
	.section	.text.aes.fotsgure_aes_cipher_round,"ax",@progbits
	export_aes	fotsgure_aes_cipher_round
	.p2align	1
	.type	aes.fotsgure_aes_cipher_round,@function
aes.fotsgure_aes_cipher_round:              # @aes.fotsgure_aes_cipher_round
# %bb.0:                                # %start
	addi	sp, sp, -16
	sd	ra, 8(sp)                       # 8-byte Folded Spill
	call	aes.aes_c.single_rounds.round
	ld	ra, 8(sp)                       # 8-byte Folded Reload
	addi	sp, sp, 16
	tail	aes.aes_cipher.zeroize.stack.wipe_stack.512
.Laes_func_end88:
	.size	aes.fotsgure_aes_cipher_round, .Laes_func_end88-aes.fotsgure_aes_cipher_round
                                        # -- End function
	.section	.text.aes.fotsgure_aes_cipher_round_par,"ax",@progbits
	export_aes	fotsgure_aes_cipher_round_par
	.p2align	1
	.type	aes.fotsgure_aes_cipher_round_par,@function
aes.fotsgure_aes_cipher_round_par:          # @aes.fotsgure_aes_cipher_round_par
# %bb.0:                                # %start
	addi	sp, sp, -16
	sd	ra, 8(sp)                       # 8-byte Folded Spill
	call	aes.aes_c.single_rounds.rounds
	ld	ra, 8(sp)                       # 8-byte Folded Reload
	addi	sp, sp, 16
	tail	aes.aes_cipher.zeroize.stack.wipe_stack.512
.Laes_func_end89:
	.size	aes.fotsgure_aes_cipher_round_par, .Laes_func_end89-aes.fotsgure_aes_cipher_round_par
                                        # -- End function
	.section	.text.aes.fotsgure_aes_ccm_open,"ax",@progbits
	export_aes	fotsgure_aes_ccm_open
	.p2align	1
	.type	aes.fotsgure_aes_ccm_open,@function
aes.fotsgure_aes_ccm_open:                  # @aes.fotsgure_aes_ccm_open
# %bb.0:                                # %start
	mv	t0, a6
	mv	t1, a4
	lw	a4, 0(a0)
	li	a6, 32
	li	t3, 2
	bltu	a6, a4, .Laes_BB90_8
# %bb.1:                                # %start
	mv	t2, a2
	lui	a2, 65793
	slli	a2, a2, 4
	srl	a2, a2, a4
	andi	a2, a2, 1
	beqz	a2, .Laes_BB90_8
# %bb.2:                                # %join.3.i
	addi	sp, sp, -48
	sd	ra, 40(sp)                      # 8-byte Folded Spill
	ld	t4, 48(sp)
	slli	a2, a4, 32
	seqz	a4, a7
	slli	a4, a4, 12
	add	t3, a7, a4
	seqz	a4, a5
	slli	a4, a4, 12
	add	a6, a5, a4
	seqz	a4, a3
	slli	a4, a4, 12
	add	a4, a4, a3
	seqz	a3, a1
	addi	a0, a0, 4
	srli	a5, a2, 32
	slli	a2, a3, 12
	add	a2, a2, a1
	srli	a5, a5, 2
	addi	a5, a5, 7
	sd	a0, 0(sp)
	sd	a5, 8(sp)
	sd	a0, 16(sp)
	sd	a5, 24(sp)
	addi	a0, sp, 37
	mv	a1, sp
	mv	a3, t2
	mv	a5, t1
	mv	a7, t0
	call	aes.ccm.mode.decrypt
	call	aes.aes_cipher.zeroize.stack.wipe_stack.1024
	lbu	a0, 37(sp)
	beqz	a0, .Laes_BB90_5
# %bb.3:                                # %arm.5.i
	lbu	a0, 38(sp)
	beqz	a0, .Laes_BB90_6
# %bb.4:
	li	t3, 6
	j	.Laes_BB90_7
.Laes_BB90_5:
	li	t3, 0
	j	.Laes_BB90_7
.Laes_BB90_6:                               # %arm.8.i
	lbu	t3, 39(sp)
	addi	t3, t3, 7
.Laes_BB90_7:
	ld	ra, 40(sp)                      # 8-byte Folded Reload
	addi	sp, sp, 48
.Laes_BB90_8:                               # %"aes_c::messages::fotsgure_aes_ccm_open.exit"
	mv	a0, t3
	vsetvli	t0, zero, e8, m8, ta, ma
	vmv.v.i	v0, 0
	vmv.v.i	v8, 0
	vmv.v.i	v16, 0
	vmv.v.i	v24, 0
	li	a1, 0
	li	a2, 0
	li	a3, 0
	li	a4, 0
	li	a5, 0
	li	a6, 0
	li	a7, 0
	li	t0, 0
	li	t1, 0
	li	t2, 0
	li	t3, 0
	li	t4, 0
	li	t5, 0
	li	t6, 0
	ret
.Laes_func_end90:
	.size	aes.fotsgure_aes_ccm_open, .Laes_func_end90-aes.fotsgure_aes_ccm_open
                                        # -- End function
	.section	.text.aes.fotsgure_aes_ccm_seal,"ax",@progbits
	export_aes	fotsgure_aes_ccm_seal
	.p2align	1
	.type	aes.fotsgure_aes_ccm_seal,@function
aes.fotsgure_aes_ccm_seal:                  # @aes.fotsgure_aes_ccm_seal
# %bb.0:                                # %start
	lw	t2, 0(a0)
	li	t1, 32
	li	t0, 2
	bltu	t1, t2, .Laes_BB91_6
# %bb.1:                                # %start
	addi	sp, sp, -64
	sd	ra, 56(sp)                      # 8-byte Folded Spill
	sd	s0, 48(sp)                      # 8-byte Folded Spill
	sd	s1, 40(sp)                      # 8-byte Folded Spill
	lui	s0, 65793
	slli	s0, s0, 4
	srl	s0, s0, t2
	andi	s0, s0, 1
	beqz	s0, .Laes_BB91_5
# %bb.2:                                # %join.3.i
	ld	t3, 64(sp)
	slli	t2, t2, 32
	seqz	s0, a7
	slli	s0, s0, 12
	add	a7, a7, s0
	seqz	s0, a5
	slli	s0, s0, 12
	add	a5, a5, s0
	seqz	s0, a3
	slli	s0, s0, 12
	add	a3, a3, s0
	seqz	t0, a1
	addi	a0, a0, 4
	srli	s0, t2, 32
	slli	t0, t0, 12
	add	a1, a1, t0
	srli	s0, s0, 2
	addi	s0, s0, 7
	sd	a0, 8(sp)
	sd	s0, 16(sp)
	sd	a0, 24(sp)
	sd	s0, 32(sp)
	addi	a0, sp, 8
	call	aes.ccm.mode.encrypt
	mv	s0, a1
	zext.b	s1, a0
	call	aes.aes_cipher.zeroize.stack.wipe_stack.1024
	beqz	s1, .Laes_BB91_4
# %bb.3:                                # %arm.5.i
	zext.b	t0, s0
	addi	t0, t0, 7
	j	.Laes_BB91_5
.Laes_BB91_4:
	li	t0, 0
.Laes_BB91_5:
	ld	ra, 56(sp)                      # 8-byte Folded Reload
	ld	s0, 48(sp)                      # 8-byte Folded Reload
	ld	s1, 40(sp)                      # 8-byte Folded Reload
	addi	sp, sp, 64
.Laes_BB91_6:                               # %"aes_c::messages::fotsgure_aes_ccm_seal.exit"
	mv	a0, t0
	vsetvli	t0, zero, e8, m8, ta, ma
	vmv.v.i	v0, 0
	vmv.v.i	v8, 0
	vmv.v.i	v16, 0
	vmv.v.i	v24, 0
	li	a1, 0
	li	a2, 0
	li	a3, 0
	li	a4, 0
	li	a5, 0
	li	a6, 0
	li	a7, 0
	li	t0, 0
	li	t1, 0
	li	t2, 0
	li	t3, 0
	li	t4, 0
	li	t5, 0
	li	t6, 0
	ret
.Laes_func_end91:
	.size	aes.fotsgure_aes_ccm_seal, .Laes_func_end91-aes.fotsgure_aes_ccm_seal
                                        # -- End function
	.type	.Laes_static.0,@object              # @static.0
	.section	.rodata..Laes_static.0,"a",@progbits
.Laes_static.0:
	.ascii	"\001\002\004\b\020 @\200\0336"
	.size	.Laes_static.0, 10

	.type	.Laes_static.1,@object              # @static.1
	.section	.rodata.cst16,"aM",@progbits,16
.Laes_static.1:
	.ascii	"\000\001\034\035-,10'&;:\n\013\026\027"
	.size	.Laes_static.1, 16

	.type	.Laes_static.2,@object              # @static.2
.Laes_static.2:
	.ascii	"\000\206\375{\216\bs\365w\361\212\f\371\177\004\202"
	.size	.Laes_static.2, 16

	.type	.Laes_static.3,@object              # @static.3
	.section	.rodata..Laes_static.3,"a",@progbits
.Laes_static.3:
	.ascii	"\000\001\002\003\004\005\006\007\b\t\n\013\f\r\016\017\000\005\n\017\004\t\016\003\b\r\002\007\f\001\006\013\000\t\002\013\004\r\006\017\b\001\n\003\f\005\016\007\000\r\n\007\004\001\016\013\b\005\002\017\f\t\006\003"
	.size	.Laes_static.3, 64

	.type	.Laes_static.4,@object              # @static.4
	.section	.rodata..Laes_static.4,"a",@progbits
.Laes_static.4:
	.ascii	"\001\002\003\000\005\006\007\004\t\n\013\b\r\016\017\f\005\006\007\004\t\n\013\b\r\016\017\f\001\002\003\000\t\n\013\b\r\016\017\f\001\002\003\000\005\006\007\004\r\016\017\f\001\002\003\000\005\006\007\004\t\n\013\b"
	.size	.Laes_static.4, 64

	.type	.Laes_static.5,@object              # @static.5
	.section	.rodata..Laes_static.5,"a",@progbits
.Laes_static.5:
	.ascii	"\003\000\001\002\007\004\005\006\013\b\t\n\017\f\r\016\017\f\r\016\003\000\001\002\007\004\005\006\013\b\t\n\013\b\t\n\017\f\r\016\003\000\001\002\007\004\005\006\007\004\005\006\013\b\t\n\017\f\r\016\003\000\001\002"
	.size	.Laes_static.5, 64

	.type	.Laes_static.6,@object              # @static.6
	.section	.rodata..Laes_static.6,"a",@progbits
.Laes_static.6:
	.ascii	"\002\003\000\001\006\007\004\005\n\013\b\t\016\017\f\r\n\013\b\t\016\017\f\r\002\003\000\001\006\007\004\005\002\003\000\001\006\007\004\005\n\013\b\t\016\017\f\r\n\013\b\t\016\017\f\r\002\003\000\001\006\007\004\005"
	.size	.Laes_static.6, 64

	.type	.Laes_static.8,@object              # @static.8
	.section	.rodata.cst16,"aM",@progbits,16
.Laes_static.8:
	.zero	16,166
	.size	.Laes_static.8, 16

	.ident	"rattle logic=dac8208d650f15bf3e2dc313a14fa4c783a3acf887bdfab66e1714b038d9e11b"
	.section	".note.GNU-stack","",@progbits

	.section	.note.fotsgure,"a",%note
	.p2align	2, 0x0
	.long	9, 116, 1
	.asciz	"Fotsgure"
	.p2align	2, 0x0
	.asciz	"fotsgure_aes 0.4.0, riscv64/aes.s, sources SHA-256 f3fecc818c73814a93835f06896045f67fddc8c102490795e0e19679064b46a4"
	.p2align	2, 0x0
