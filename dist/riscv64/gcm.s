# Made by tools/dist from the proved crate gcm_c; BUILD says from what. Don't edit it.
/* A Rust crate defines in_rust; for x86-64, a static library of both builds defines chosen, and choose_*.c calls these names. */
	.macro	export_gcm name
	.ifdef	in_rust
	.globl	gcm.\name
	.hidden	gcm.\name
	.else
	.globl	\name
	.set	\name, gcm.\name
	.endif
	.endm
	.file	"rattle"
	.section	.text.gcm.aes_cipher.zeroize.elements.zeroize_elements.1,"ax",@progbits
	.p2align	1                               # -- Begin function aes_cipher::zeroize::elements::zeroize_elements::<#530874d131791bfe>
	.type	gcm.aes_cipher.zeroize.elements.zeroize_elements.1,@function
gcm.aes_cipher.zeroize.elements.zeroize_elements.1: # @gcm.aes_cipher.zeroize.elements.zeroize_elements.1
# %bb.0:                                # %start
	addi	sp, sp, -32
	li	a1, 0
	vsetivli	zero, 2, e64, m1, ta, ma
	vmv.v.i	v8, 0
	addi	a5, sp, 16
	sd	zero, 8(sp)
	vse64.v	v8, (a5)
	#APP
	#NO_APP
	fence	rw, rw
	ld	a2, 8(sp)
	fence	r, rw
	#APP
	#NO_APP
	li	a4, 14
	slli	a3, a2, 4
	bltu	a4, a2, .Lgcm_BB0_2
# %bb.1:                                # %then.1.i6
	add	a1, a0, a3
	lbu	a1, 0(a1)
.Lgcm_BB0_2:                                # %"aes_cipher::zeroize::observe::<#3f54e6b29a41109e>.exit10"
	vsetivli	zero, 16, e8, m1, ta, ma
	vle8.v	v8, (a5)
	addi	a5, a0, 16
	vse8.v	v8, (a5)
	addi	a5, a0, 32
	vse8.v	v8, (a5)
	addi	a5, a0, 48
	vse8.v	v8, (a5)
	addi	a5, a0, 64
	vse8.v	v8, (a5)
	addi	a5, a0, 80
	vse8.v	v8, (a5)
	addi	a5, a0, 96
	vse8.v	v8, (a5)
	addi	a5, a0, 112
	vse8.v	v8, (a5)
	addi	a5, a0, 128
	vse8.v	v8, (a5)
	addi	a5, a0, 144
	vse8.v	v8, (a5)
	addi	a5, a0, 160
	vse8.v	v8, (a5)
	addi	a5, a0, 176
	vse8.v	v8, (a5)
	addi	a5, a0, 192
	vse8.v	v8, (a5)
	addi	a5, a0, 208
	vse8.v	v8, (a5)
	addi	a5, a0, 224
	vse8.v	v8, (a0)
	vse8.v	v8, (a5)
	bltu	a4, a2, .Lgcm_BB0_4
# %bb.3:                                # %then.1.i
	add	a0, a0, a3
	lbu	a0, 0(a0)
	and	a0, a0, a1
	#APP
	#NO_APP
	addi	a1, sp, 8
	amoswap.d.aqrl	zero, a0, (a1)
	#APP
	#NO_APP
	addi	sp, sp, 32
	vsetvli	t0, zero, e8, m8, ta, ma
	vmv.v.i	v0, 0
	vmv.v.i	v8, 0
	vmv.v.i	v16, 0
	vmv.v.i	v24, 0
	li	a1, 0
	li	a2, 0
	li	a3, 0
	li	a4, 0
	li	a5, 0
	li	a6, 0
	li	a7, 0
	li	t0, 0
	li	t1, 0
	li	t2, 0
	li	t3, 0
	li	t4, 0
	li	t5, 0
	li	t6, 0
	ret
.Lgcm_BB0_4:
	#APP
	#NO_APP
	addi	a1, sp, 8
	amoswap.d.aqrl	zero, zero, (a1)
	#APP
	#NO_APP
	addi	sp, sp, 32
	vsetvli	t0, zero, e8, m8, ta, ma
	vmv.v.i	v0, 0
	vmv.v.i	v8, 0
	vmv.v.i	v16, 0
	vmv.v.i	v24, 0
	li	a1, 0
	li	a2, 0
	li	a3, 0
	li	a4, 0
	li	a5, 0
	li	a6, 0
	li	a7, 0
	li	t0, 0
	li	t1, 0
	li	t2, 0
	li	t3, 0
	li	t4, 0
	li	t5, 0
	li	t6, 0
	ret
.Lgcm_func_end0:
	.size	gcm.aes_cipher.zeroize.elements.zeroize_elements.1, .Lgcm_func_end0-gcm.aes_cipher.zeroize.elements.zeroize_elements.1
                                        # -- End function
	.section	.text.gcm.aes_cipher.zeroize.elements.zeroize_elements.2,"ax",@progbits
	.p2align	1                               # -- Begin function aes_cipher::zeroize::elements::zeroize_elements::<#d3d1c9d97fea966e>
	.type	gcm.aes_cipher.zeroize.elements.zeroize_elements.2,@function
gcm.aes_cipher.zeroize.elements.zeroize_elements.2: # @gcm.aes_cipher.zeroize.elements.zeroize_elements.2
# %bb.0:                                # %start
	addi	sp, sp, -32
	li	a6, 0
	vsetivli	zero, 2, e64, m1, ta, ma
	vmv.v.i	v8, 0
	addi	a2, sp, 16
	sd	zero, 8(sp)
	vse64.v	v8, (a2)
	#APP
	#NO_APP
	fence	rw, rw
	ld	a3, 8(sp)
	fence	r, rw
	#APP
	#NO_APP
	slli	a7, a3, 4
	bgeu	a3, a1, .Lgcm_BB1_2
# %bb.1:                                # %then.1.i6
	add	a2, a0, a7
	lbu	a6, 0(a2)
.Lgcm_BB1_2:                                # %"aes_cipher::zeroize::observe::<#32a0ae3c0a3d48e0>.exit10"
	slli	a5, a1, 4
	add	a5, a5, a0
	mv	a2, a0
	vsetivli	zero, 16, e8, m1, ta, ma
.Lgcm_BB1_3:                                # %join.6.i
                                        # =>This Inner Loop Header: Depth=1
	addi	a4, sp, 16
	vle8.v	v8, (a4)
	vse8.v	v8, (a2)
	addi	a2, a2, 16
	bne	a2, a5, .Lgcm_BB1_3
# %bb.4:                                # %"aes_cipher::zeroize::overwrite::<#8898ba818a1b9c8b>.exit"
	bgeu	a3, a1, .Lgcm_BB1_6
# %bb.5:                                # %then.1.i
	add	a0, a0, a7
	lbu	a0, 0(a0)
	and	a0, a0, a6
	#APP
	#NO_APP
	addi	a1, sp, 8
	amoswap.d.aqrl	zero, a0, (a1)
	#APP
	#NO_APP
	addi	sp, sp, 32
	vsetvli	t0, zero, e8, m8, ta, ma
	vmv.v.i	v0, 0
	vmv.v.i	v8, 0
	vmv.v.i	v16, 0
	vmv.v.i	v24, 0
	li	a1, 0
	li	a2, 0
	li	a3, 0
	li	a4, 0
	li	a5, 0
	li	a6, 0
	li	a7, 0
	li	t0, 0
	li	t1, 0
	li	t2, 0
	li	t3, 0
	li	t4, 0
	li	t5, 0
	li	t6, 0
	ret
.Lgcm_BB1_6:
	#APP
	#NO_APP
	addi	a1, sp, 8
	amoswap.d.aqrl	zero, zero, (a1)
	#APP
	#NO_APP
	addi	sp, sp, 32
	vsetvli	t0, zero, e8, m8, ta, ma
	vmv.v.i	v0, 0
	vmv.v.i	v8, 0
	vmv.v.i	v16, 0
	vmv.v.i	v24, 0
	li	a1, 0
	li	a2, 0
	li	a3, 0
	li	a4, 0
	li	a5, 0
	li	a6, 0
	li	a7, 0
	li	t0, 0
	li	t1, 0
	li	t2, 0
	li	t3, 0
	li	t4, 0
	li	t5, 0
	li	t6, 0
	ret
.Lgcm_func_end1:
	.size	gcm.aes_cipher.zeroize.elements.zeroize_elements.2, .Lgcm_func_end1-gcm.aes_cipher.zeroize.elements.zeroize_elements.2
                                        # -- End function
	.section	.text.gcm.gcm.message_state.MessageZeroize.zeroize,"ax",@progbits
	.p2align	1                               # -- Begin function gcm::message_state::MessageZeroize::zeroize
	.type	gcm.gcm.message_state.MessageZeroize.zeroize,@function
gcm.gcm.message_state.MessageZeroize.zeroize: # @gcm.gcm.message_state.MessageZeroize.zeroize
# %bb.0:                                # %start
	addi	sp, sp, -16
	sd	ra, 8(sp)                       # 8-byte Folded Spill
	sd	s0, 0(sp)                       # 8-byte Folded Spill
	mv	s0, a0
	addi	a0, a0, 32
	vsetivli	zero, 2, e64, m1, ta, ma
	vmv.v.i	v8, 0
	addi	a1, s0, 16
	vse64.v	v8, (s0)
	vse64.v	v8, (a1)
	call	gcm.aes_cipher.zeroize.elements.zeroize_elements.3
	addi	a0, s0, 48
	call	gcm.aes_cipher.zeroize.elements.zeroize_elements.3
	addi	a0, s0, 64
	ld	ra, 8(sp)                       # 8-byte Folded Reload
	ld	s0, 0(sp)                       # 8-byte Folded Reload
	addi	sp, sp, 16
	tail	gcm.aes_cipher.zeroize.elements.zeroize_elements.3
.Lgcm_func_end2:
	.size	gcm.gcm.message_state.MessageZeroize.zeroize, .Lgcm_func_end2-gcm.gcm.message_state.MessageZeroize.zeroize
                                        # -- End function
	.section	.text.gcm.aes_cipher.zeroize.elements.zeroize_elements.3,"ax",@progbits
	.p2align	1                               # -- Begin function aes_cipher::zeroize::elements::zeroize_elements::<#3b2097f0eef5a37b>
	.type	gcm.aes_cipher.zeroize.elements.zeroize_elements.3,@function
gcm.aes_cipher.zeroize.elements.zeroize_elements.3: # @gcm.aes_cipher.zeroize.elements.zeroize_elements.3
# %bb.0:                                # %start
	addi	sp, sp, -32
	vsetivli	zero, 2, e64, m1, ta, ma
	vmv.v.i	v8, 0
	addi	a1, sp, 16
	sd	zero, 8(sp)
	vse64.v	v8, (a1)
	#APP
	#NO_APP
	fence	rw, rw
	ld	a2, 8(sp)
	fence	r, rw
	#APP
	#NO_APP
	beqz	a2, .Lgcm_BB3_2
# %bb.1:                                # %"aes_cipher::zeroize::observe::<#ff6ee9ab78975cb2>.exit8"
	vsetivli	zero, 16, e8, m1, ta, ma
	vle8.v	v8, (a1)
	vse8.v	v8, (a0)
	#APP
	#NO_APP
	addi	a0, sp, 8
	amoswap.d.aqrl	zero, zero, (a0)
	#APP
	#NO_APP
	addi	sp, sp, 32
	vsetvli	t0, zero, e8, m8, ta, ma
	vmv.v.i	v0, 0
	vmv.v.i	v8, 0
	vmv.v.i	v16, 0
	vmv.v.i	v24, 0
	li	a1, 0
	li	a2, 0
	li	a3, 0
	li	a4, 0
	li	a5, 0
	li	a6, 0
	li	a7, 0
	li	t0, 0
	li	t1, 0
	li	t2, 0
	li	t3, 0
	li	t4, 0
	li	t5, 0
	li	t6, 0
	ret
.Lgcm_BB3_2:                                # %then.1.i
	vsetivli	zero, 16, e8, m1, ta, ma
	vle8.v	v8, (a1)
	lbu	a1, 0(a0)
	vse8.v	v8, (a0)
	lbu	a2, 0(a0)
	and	a2, a2, a1
	#APP
	#NO_APP
	addi	a0, sp, 8
	amoswap.d.aqrl	zero, a2, (a0)
	#APP
	#NO_APP
	addi	sp, sp, 32
	vsetvli	t0, zero, e8, m8, ta, ma
	vmv.v.i	v0, 0
	vmv.v.i	v8, 0
	vmv.v.i	v16, 0
	vmv.v.i	v24, 0
	li	a1, 0
	li	a2, 0
	li	a3, 0
	li	a4, 0
	li	a5, 0
	li	a6, 0
	li	a7, 0
	li	t0, 0
	li	t1, 0
	li	t2, 0
	li	t3, 0
	li	t4, 0
	li	t5, 0
	li	t6, 0
	ret
.Lgcm_func_end3:
	.size	gcm.aes_cipher.zeroize.elements.zeroize_elements.3, .Lgcm_func_end3-gcm.aes_cipher.zeroize.elements.zeroize_elements.3
                                        # -- End function
	.section	.rodata.cst16,"aM",@progbits,16
	.p2align	4, 0x0                          # -- Begin function aes_permute::lane_keys::expand_lanes
.Lgcm_CPI4_0:
	.byte	0                               # 0x0
	.byte	1                               # 0x1
	.byte	28                              # 0x1c
	.byte	29                              # 0x1d
	.byte	45                              # 0x2d
	.byte	44                              # 0x2c
	.byte	49                              # 0x31
	.byte	48                              # 0x30
	.byte	39                              # 0x27
	.byte	38                              # 0x26
	.byte	59                              # 0x3b
	.byte	58                              # 0x3a
	.byte	10                              # 0xa
	.byte	11                              # 0xb
	.byte	22                              # 0x16
	.byte	23                              # 0x17
.Lgcm_CPI4_1:
	.byte	0                               # 0x0
	.byte	134                             # 0x86
	.byte	253                             # 0xfd
	.byte	123                             # 0x7b
	.byte	142                             # 0x8e
	.byte	8                               # 0x8
	.byte	115                             # 0x73
	.byte	245                             # 0xf5
	.byte	119                             # 0x77
	.byte	241                             # 0xf1
	.byte	138                             # 0x8a
	.byte	12                              # 0xc
	.byte	249                             # 0xf9
	.byte	127                             # 0x7f
	.byte	4                               # 0x4
	.byte	130                             # 0x82
.Lgcm_CPI4_2:
	.byte	0                               # 0x0
	.byte	1                               # 0x1
	.byte	92                              # 0x5c
	.byte	93                              # 0x5d
	.byte	224                             # 0xe0
	.byte	225                             # 0xe1
	.byte	188                             # 0xbc
	.byte	189                             # 0xbd
	.byte	80                              # 0x50
	.byte	81                              # 0x51
	.byte	12                              # 0xc
	.byte	13                              # 0xd
	.byte	176                             # 0xb0
	.byte	177                             # 0xb1
	.byte	236                             # 0xec
	.byte	237                             # 0xed
.Lgcm_CPI4_3:
	.byte	0                               # 0x0
	.byte	178                             # 0xb2
	.byte	181                             # 0xb5
	.byte	7                               # 0x7
	.byte	58                              # 0x3a
	.byte	136                             # 0x88
	.byte	143                             # 0x8f
	.byte	61                              # 0x3d
	.byte	172                             # 0xac
	.byte	30                              # 0x1e
	.byte	25                              # 0x19
	.byte	171                             # 0xab
	.byte	150                             # 0x96
	.byte	36                              # 0x24
	.byte	35                              # 0x23
	.byte	145                             # 0x91
.Lgcm_CPI4_4:
	.byte	128                             # 0x80
	.byte	2                               # 0x2
	.byte	1                               # 0x1
	.byte	15                              # 0xf
	.byte	9                               # 0x9
	.byte	5                               # 0x5
	.byte	14                              # 0xe
	.byte	12                              # 0xc
	.byte	13                              # 0xd
	.byte	4                               # 0x4
	.byte	11                              # 0xb
	.byte	10                              # 0xa
	.byte	7                               # 0x7
	.byte	8                               # 0x8
	.byte	6                               # 0x6
	.byte	3                               # 0x3
.Lgcm_CPI4_5:
	.byte	128                             # 0x80
	.byte	1                               # 0x1
	.byte	9                               # 0x9
	.byte	14                              # 0xe
	.byte	13                              # 0xd
	.byte	11                              # 0xb
	.byte	7                               # 0x7
	.byte	6                               # 0x6
	.byte	15                              # 0xf
	.byte	2                               # 0x2
	.byte	12                              # 0xc
	.byte	5                               # 0x5
	.byte	10                              # 0xa
	.byte	4                               # 0x4
	.byte	3                               # 0x3
	.byte	8                               # 0x8
.Lgcm_CPI4_6:
	.byte	0                               # 0x0
	.byte	195                             # 0xc3
	.byte	79                              # 0x4f
	.byte	12                              # 0xc
	.byte	252                             # 0xfc
	.byte	124                             # 0x7c
	.byte	67                              # 0x43
	.byte	128                             # 0x80
	.byte	207                             # 0xcf
	.byte	51                              # 0x33
	.byte	63                              # 0x3f
	.byte	112                             # 0x70
	.byte	191                             # 0xbf
	.byte	179                             # 0xb3
	.byte	240                             # 0xf0
	.byte	140                             # 0x8c
.Lgcm_CPI4_7:
	.byte	0                               # 0x0
	.byte	230                             # 0xe6
	.byte	114                             # 0x72
	.byte	183                             # 0xb7
	.byte	229                             # 0xe5
	.byte	198                             # 0xc6
	.byte	197                             # 0xc5
	.byte	35                              # 0x23
	.byte	81                              # 0x51
	.byte	180                             # 0xb4
	.byte	3                               # 0x3
	.byte	113                             # 0x71
	.byte	32                              # 0x20
	.byte	151                             # 0x97
	.byte	82                              # 0x52
	.byte	148                             # 0x94
.Lgcm_CPI4_8:
	.byte	128                             # 0x80
	.byte	128                             # 0x80
	.byte	128                             # 0x80
	.byte	128                             # 0x80
	.byte	0                               # 0x0
	.byte	1                               # 0x1
	.byte	2                               # 0x2
	.byte	3                               # 0x3
	.byte	4                               # 0x4
	.byte	5                               # 0x5
	.byte	6                               # 0x6
	.byte	7                               # 0x7
	.byte	8                               # 0x8
	.byte	9                               # 0x9
	.byte	10                              # 0xa
	.byte	11                              # 0xb
.Lgcm_CPI4_9:
	.byte	128                             # 0x80
	.byte	128                             # 0x80
	.byte	128                             # 0x80
	.byte	128                             # 0x80
	.byte	128                             # 0x80
	.byte	128                             # 0x80
	.byte	128                             # 0x80
	.byte	128                             # 0x80
	.byte	0                               # 0x0
	.byte	1                               # 0x1
	.byte	2                               # 0x2
	.byte	3                               # 0x3
	.byte	4                               # 0x4
	.byte	5                               # 0x5
	.byte	6                               # 0x6
	.byte	7                               # 0x7
.Lgcm_CPI4_10:
	.byte	0                               # 0x0
	.byte	13                              # 0xd
	.byte	10                              # 0xa
	.byte	7                               # 0x7
	.byte	4                               # 0x4
	.byte	1                               # 0x1
	.byte	14                              # 0xe
	.byte	11                              # 0xb
	.byte	8                               # 0x8
	.byte	5                               # 0x5
	.byte	2                               # 0x2
	.byte	15                              # 0xf
	.byte	12                              # 0xc
	.byte	9                               # 0x9
	.byte	6                               # 0x6
	.byte	3                               # 0x3
	.section	.text.gcm.aes_permute.lane_keys.expand_lanes,"ax",@progbits
	.p2align	1
	.type	gcm.aes_permute.lane_keys.expand_lanes,@function
gcm.aes_permute.lane_keys.expand_lanes: # @gcm.aes_permute.lane_keys.expand_lanes
# %bb.0:                                # %start
	addi	t0, a0, 16
	addi	a3, a1, 8
	vsetivli	zero, 8, e8, mf2, ta, ma
	vle8.v	v8, (a1)
.Lgcm_pcrel_hi0:
	auipc	a1, %pcrel_hi(.Lgcm_CPI4_0)
	vle8.v	v16, (a3)
	addi	a1, a1, %pcrel_lo(.Lgcm_pcrel_hi0)
	vsetivli	zero, 16, e8, m1, ta, ma
	vle8.v	v14, (a1)
.Lgcm_pcrel_hi1:
	auipc	a1, %pcrel_hi(.Lgcm_CPI4_1)
	addi	a1, a1, %pcrel_lo(.Lgcm_pcrel_hi1)
	vle8.v	v15, (a1)
	vslideup.vi	v8, v16, 8
	vand.vi	v9, v8, 15
	vsrl.vi	v8, v8, 4
	vrgather.vv	v10, v14, v9
	vrgather.vv	v9, v15, v8
	li	a1, 24
	vxor.vv	v10, v9, v10
	beq	a2, a1, .Lgcm_BB4_6
# %bb.1:                                # %start
	li	a1, 16
	bne	a2, a1, .Lgcm_BB4_11
# %bb.2:                                # %then.1.i
	vand.vi	v11, v10, 15
.Lgcm_pcrel_hi2:
	auipc	a1, %pcrel_hi(.Lgcm_CPI4_2)
	vsrl.vi	v12, v10, 4
	addi	a1, a1, %pcrel_lo(.Lgcm_pcrel_hi2)
	vle8.v	v8, (a1)
.Lgcm_pcrel_hi3:
	auipc	a1, %pcrel_hi(.Lgcm_CPI4_3)
	addi	a1, a1, %pcrel_lo(.Lgcm_pcrel_hi3)
	vle8.v	v9, (a1)
.Lgcm_pcrel_hi4:
	auipc	a1, %pcrel_hi(.Lgcm_CPI4_4)
	addi	a1, a1, %pcrel_lo(.Lgcm_pcrel_hi4)
	vle8.v	v16, (a1)
.Lgcm_pcrel_hi5:
	auipc	a1, %pcrel_hi(.Lgcm_CPI4_5)
	addi	a1, a1, %pcrel_lo(.Lgcm_pcrel_hi5)
	vle8.v	v15, (a1)
.Lgcm_pcrel_hi6:
	auipc	a1, %pcrel_hi(.Lgcm_CPI4_6)
	addi	a1, a1, %pcrel_lo(.Lgcm_pcrel_hi6)
	vle8.v	v13, (a1)
.Lgcm_pcrel_hi7:
	auipc	a1, %pcrel_hi(.Lgcm_CPI4_7)
	addi	a1, a1, %pcrel_lo(.Lgcm_pcrel_hi7)
	vle8.v	v14, (a1)
.Lgcm_pcrel_hi8:
	auipc	a1, %pcrel_hi(.Lgcm_CPI4_8)
	addi	a1, a1, %pcrel_lo(.Lgcm_pcrel_hi8)
	vrgather.vv	v17, v8, v11
	vrgather.vv	v11, v9, v12
	vxor.vv	v12, v11, v17
	vle8.v	v11, (a1)
.Lgcm_pcrel_hi9:
	auipc	a1, %pcrel_hi(.Lgcm_CPI4_9)
	addi	a1, a1, %pcrel_lo(.Lgcm_pcrel_hi9)
	vse8.v	v12, (a0)
	vle8.v	v12, (a1)
	li	t1, 48
.Lgcm_pcrel_hi10:
	auipc	a2, %pcrel_hi(.Lgcm_static.0)
	addi	a2, a2, %pcrel_lo(.Lgcm_pcrel_hi10)
.Lgcm_BB4_3:                                # %join.5.i
                                        # =>This Inner Loop Header: Depth=1
	lbu	a3, 0(a2)
	lui	a6, 49393
.Lgcm_pcrel_hi11:
	auipc	a4, %pcrel_hi(.Lgcm_static.1)
.Lgcm_pcrel_hi12:
	auipc	a5, %pcrel_hi(.Lgcm_static.2)
	andi	a1, t1, 48
	addi	a0, a6, -499
	vsetivli	zero, 4, e32, m1, ta, ma
	vmv.v.x	v18, a0
.Lgcm_pcrel_hi13:
	auipc	a0, %pcrel_hi(.Lgcm_static.3)
	addi	a4, a4, %pcrel_lo(.Lgcm_pcrel_hi11)
	addi	a5, a5, %pcrel_lo(.Lgcm_pcrel_hi12)
	addi	a7, a0, %pcrel_lo(.Lgcm_pcrel_hi13)
	add	a1, a1, a7
	vsetivli	zero, 16, e8, m1, ta, ma
	vrgather.vv	v17, v10, v18
	vle8.v	v19, (a1)
	vsrl.vi	v20, v17, 4
	vand.vi	v17, v17, 15
	andi	a0, a3, 15
	srli	a3, a3, 4
	vxor.vv	v21, v20, v17
	vrgather.vv	v22, v16, v17
	vrgather.vv	v17, v15, v20
	add	a0, a0, a4
	add	a3, a3, a5
	vrgather.vv	v23, v15, v21
	vxor.vv	v17, v17, v22
	lbu	a0, 0(a0)
	lbu	a1, 0(a3)
	vxor.vv	v22, v23, v22
	vmsle.vi	v0, v17, -1
	vrgather.vv	v23, v15, v17
	vmerge.vim	v23, v23, 0, v0
	vmsle.vi	v0, v22, -1
	vrgather.vv	v17, v15, v22
	vmerge.vim	v22, v17, 0, v0
	vmv.v.i	v17, 0
	xor	a0, a0, a1
	li	a3, 110
	addi	t1, t1, 48
	vxor.vv	v21, v23, v21
	vmsle.vi	v0, v23, -1
	vrgather.vv	v23, v13, v21
	vxor.vx	v21, v23, a3
	vmerge.vxm	v21, v21, a3, v0
	vmv.v.i	v23, 0
	vsetvli	zero, zero, e8, m1, tu, ma
	vmv.s.x	v23, a0
	li	a6, 480
	vsetvli	zero, zero, e8, m1, ta, ma
	vxor.vv	v20, v22, v20
	vrgather.vv	v24, v14, v20
	vmsle.vi	v0, v22, -1
	vxor.vv	v10, v23, v10
	vrgather.vv	v20, v10, v11
	vxor.vv	v22, v21, v24
	vsetivli	zero, 4, e8, m1, tu, ma
	vmv.v.v	v20, v17
	vsetivli	zero, 16, e8, m1, ta, ma
	vmerge.vvm	v21, v22, v21, v0
	vmsle.vi	v0, v19, -1
	vxor.vv	v10, v10, v20
	vrgather.vv	v20, v10, v12
	vsetivli	zero, 8, e8, m1, tu, ma
	vmv.v.v	v20, v17
	vsetivli	zero, 16, e8, m1, ta, ma
	vxor.vv	v20, v21, v20
	vxor.vv	v10, v20, v10
	vrgather.vv	v20, v10, v19
	vxor.vx	v19, v20, a3
	vmerge.vxm	v19, v19, a3, v0
	vse8.v	v19, (t0)
	addi	t0, t0, 16
	addi	a2, a2, 1
	bne	t1, a6, .Lgcm_BB4_3
# %bb.4:                                # %join.5.i.peel
	lbu	a0, 0(a2)
	vrgather.vv	v19, v10, v18
	vsrl.vi	v18, v19, 4
	vand.vi	v19, v19, 15
	vxor.vv	v20, v18, v19
	vrgather.vv	v21, v16, v19
	vrgather.vv	v16, v15, v18
	vrgather.vv	v19, v15, v20
	vxor.vv	v16, v16, v21
	vxor.vv	v19, v19, v21
	vmsle.vi	v0, v16, -1
	vrgather.vv	v21, v15, v16
	vmerge.vim	v16, v21, 0, v0
	vmv1r.v	v21, v17
	andi	a1, a0, 15
	srli	a0, a0, 4
	vrgather.vv	v22, v15, v19
	vmsle.vi	v0, v19, -1
	add	a1, a1, a4
	add	a0, a0, a5
	vmerge.vim	v15, v22, 0, v0
	vxor.vv	v19, v16, v20
	vmsle.vi	v0, v16, -1
	lbu	a1, 0(a1)
	lbu	a0, 0(a0)
	vxor.vv	v16, v15, v18
	vrgather.vv	v18, v13, v19
	vrgather.vv	v13, v14, v16
	vxor.vx	v14, v18, a3
	vmerge.vxm	v14, v14, a3, v0
	vmsle.vi	v0, v15, -1
	xor	a0, a0, a1
	vxor.vv	v13, v14, v13
	vsetvli	zero, zero, e8, m1, tu, ma
	vmv.s.x	v21, a0
	vsetvli	zero, zero, e8, m1, ta, ma
	vxor.vv	v10, v21, v10
	vrgather.vv	v15, v10, v11
	vsetivli	zero, 4, e8, m1, tu, ma
	vmv.v.v	v15, v17
	vsetivli	zero, 16, e8, m1, ta, ma
	vxor.vv	v10, v10, v15
	vrgather.vv	v11, v10, v12
	vsetivli	zero, 8, e8, m1, tu, ma
	vmv.v.v	v11, v17
	vsetivli	zero, 16, e8, m1, ta, ma
	vmerge.vvm	v12, v13, v14, v0
	vxor.vv	v11, v12, v11
	vxor.vv	v10, v11, v10
	bne	t1, a6, .Lgcm_BB4_14
# %bb.5:                                # %then.4.i425.peel
	vand.vi	v11, v10, 15
	vsrl.vi	v10, v10, 4
	vrgather.vv	v12, v8, v11
	vrgather.vv	v8, v9, v10
	vxor.vv	v8, v12, v8
	li	a0, 99
	vxor.vx	v8, v8, a0
	j	.Lgcm_BB4_15
.Lgcm_BB4_6:                                # %then.4.i
	li	a6, 0
	addi	a3, a3, 8
	vand.vi	v12, v10, 15
	vsetivli	zero, 8, e8, mf2, ta, ma
	vle8.v	v17, (a3)
.Lgcm_pcrel_hi14:
	auipc	a1, %pcrel_hi(.Lgcm_CPI4_2)
	vsetivli	zero, 16, e8, m1, ta, ma
	vsrl.vi	v13, v10, 4
	addi	a1, a1, %pcrel_lo(.Lgcm_pcrel_hi14)
	vle8.v	v8, (a1)
.Lgcm_pcrel_hi15:
	auipc	a1, %pcrel_hi(.Lgcm_CPI4_3)
	addi	a1, a1, %pcrel_lo(.Lgcm_pcrel_hi15)
	vle8.v	v9, (a1)
.Lgcm_pcrel_hi16:
	auipc	a1, %pcrel_hi(.Lgcm_CPI4_4)
	addi	a1, a1, %pcrel_lo(.Lgcm_pcrel_hi16)
	vle8.v	v11, (a1)
.Lgcm_pcrel_hi17:
	auipc	a1, %pcrel_hi(.Lgcm_CPI4_5)
	addi	a1, a1, %pcrel_lo(.Lgcm_pcrel_hi17)
	vrgather.vv	v18, v8, v12
	vrgather.vv	v12, v9, v13
	vxor.vv	v13, v12, v18
	vle8.v	v12, (a1)
.Lgcm_pcrel_hi18:
	auipc	a1, %pcrel_hi(.Lgcm_CPI4_6)
	vse8.v	v13, (a0)
.Lgcm_pcrel_hi19:
	auipc	a0, %pcrel_hi(.Lgcm_CPI4_7)
	addi	a1, a1, %pcrel_lo(.Lgcm_pcrel_hi18)
	vle8.v	v13, (a1)
.Lgcm_pcrel_hi20:
	auipc	a1, %pcrel_hi(.Lgcm_CPI4_8)
	addi	a0, a0, %pcrel_lo(.Lgcm_pcrel_hi19)
	vslideup.vi	v16, v17, 8
	vand.vi	v17, v16, 15
	vrgather.vv	v18, v14, v17
	vle8.v	v14, (a0)
.Lgcm_pcrel_hi21:
	auipc	a0, %pcrel_hi(.Lgcm_CPI4_9)
	addi	a1, a1, %pcrel_lo(.Lgcm_pcrel_hi20)
	vsrl.vi	v16, v16, 4
	vrgather.vv	v17, v15, v16
	vle8.v	v15, (a1)
.Lgcm_pcrel_hi22:
	auipc	a1, %pcrel_hi(.Lgcm_static.0+1)
	addi	a0, a0, %pcrel_lo(.Lgcm_pcrel_hi21)
	vxor.vv	v17, v17, v18
	vle8.v	v16, (a0)
	addi	t2, t0, 32
	addi	t3, a1, %pcrel_lo(.Lgcm_pcrel_hi22)
	li	a3, 144
	j	.Lgcm_BB4_9
.Lgcm_BB4_7:                                # %join.6.i1332.i
                                        #   in Loop: Header=BB4_9 Depth=1
	andi	a0, a3, 48
	add	a0, a0, t0
	vle8.v	v19, (a0)
	vrgather.vv	v20, v10, v19
	vmsle.vi	v0, v19, -1
	vxor.vx	v19, v20, a5
	vmerge.vxm	v19, v19, a5, v0
.Lgcm_BB4_8:                                # %"aes_permute::lane_keys::stored_key.exit1337.i"
                                        #   in Loop: Header=BB4_9 Depth=1
	vsetivli	zero, 4, e32, m1, ta, ma
	vrgather.vi	v20, v10, 1
	vsetivli	zero, 16, e8, m1, ta, ma
	vrgather.vv	v21, v17, v15
	vse8.v	v19, (t2)
	addi	a6, a6, 16
	addi	a3, a3, 144
	addi	t2, t2, 48
	li	a0, 720
	vsetivli	zero, 4, e8, m1, tu, ma
	vmv.v.v	v21, v18
	vsetivli	zero, 16, e8, m1, ta, ma
	vxor.vv	v17, v21, v17
	vrgather.vv	v19, v17, v16
	vsetivli	zero, 8, e8, m1, tu, ma
	vmv.v.v	v19, v18
	vsetivli	zero, 16, e8, m1, ta, ma
	vxor.vv	v18, v19, v20
	vxor.vv	v17, v18, v17
	addi	t3, t3, 2
	beq	a3, a0, .Lgcm_BB4_16
.Lgcm_BB4_9:                                # %join.5.i684
                                        # =>This Inner Loop Header: Depth=1
	lui	a4, 49393
.Lgcm_pcrel_hi23:
	auipc	t0, %pcrel_hi(.Lgcm_static.1)
	addi	a7, a3, -96
.Lgcm_pcrel_hi25:
	auipc	a5, %pcrel_hi(.Lgcm_static.3)
	xori	t1, a6, 32
	addi	a1, a4, -499
	vsetivli	zero, 4, e32, m1, ta, ma
	vmv.v.x	v19, a1
	lbu	a1, -1(t3)
	lbu	a4, 0(t3)
	addi	a0, t0, %pcrel_lo(.Lgcm_pcrel_hi23)
	andi	a2, a7, 48
	addi	t0, a5, %pcrel_lo(.Lgcm_pcrel_hi25)
	add	a2, a2, t0
	add	t1, t1, t0
	vsetivli	zero, 16, e8, m1, ta, ma
	vrgather.vv	v18, v17, v19
	vle8.v	v20, (a2)
	vsrl.vi	v22, v18, 4
	vand.vi	v18, v18, 15
	vxor.vv	v23, v22, v18
	vrgather.vv	v21, v11, v18
	vrgather.vv	v18, v12, v22
	vrgather.vv	v24, v12, v23
	vxor.vv	v18, v18, v21
	vxor.vv	v21, v24, v21
	vmsle.vi	v0, v18, -1
	vrgather.vv	v24, v12, v18
	vmerge.vim	v18, v24, 0, v0
	vmsle.vi	v0, v21, -1
	vrgather.vv	v24, v12, v21
	vmerge.vim	v24, v24, 0, v0
	vle8.v	v21, (t1)
	andi	a2, a1, 15
	andi	a5, a4, 15
	add	a2, a2, a0
	add	a0, a0, a5
.Lgcm_pcrel_hi24:
	auipc	a5, %pcrel_hi(.Lgcm_static.2)
	addi	a5, a5, %pcrel_lo(.Lgcm_pcrel_hi24)
	srli	a1, a1, 4
	srli	a4, a4, 4
	add	a1, a1, a5
	add	a4, a4, a5
	li	a5, 110
	vxor.vv	v23, v18, v23
	vmsle.vi	v0, v18, -1
	vrgather.vv	v18, v13, v23
	vxor.vx	v18, v18, a5
	vmerge.vxm	v23, v18, a5, v0
	vmv.v.i	v18, 0
	lbu	a2, 0(a2)
	lbu	a1, 0(a1)
	vxor.vv	v22, v24, v22
	vrgather.vv	v25, v14, v22
	vmsle.vi	v0, v24, -1
	vxor.vv	v22, v23, v25
	vmerge.vvm	v22, v22, v23, v0
	vrgather.vv	v23, v17, v15
	vslidedown.vi	v24, v17, 8
	xor	a1, a1, a2
	addi	a7, t2, -32
	vsetivli	zero, 4, e8, m1, tu, ma
	vmv.v.v	v23, v18
	vsetivli	zero, 16, e8, m1, ta, ma
	vxor.vv	v17, v23, v17
	vmv1r.v	v23, v18
	vsetvli	zero, zero, e8, m1, tu, ma
	vmv.s.x	v23, a1
	li	a1, 32
	vsetvli	zero, zero, e8, m1, ta, ma
	vxor.vv	v10, v23, v10
	vrgather.vv	v23, v10, v15
	vsetivli	zero, 4, e8, m1, tu, ma
	vmv.v.v	v23, v18
	vsetivli	zero, 16, e8, m1, ta, ma
	vxor.vv	v10, v10, v23
	vrgather.vv	v23, v10, v16
	vsetivli	zero, 8, e8, m1, tu, ma
	vmv.v.v	v23, v18
	vsetivli	zero, 16, e8, m1, ta, ma
	vxor.vv	v22, v22, v23
	vmv1r.v	v23, v18
	lbu	a0, 0(a0)
	lbu	a2, 0(a4)
	vxor.vv	v10, v22, v10
	vrgather.vv	v22, v17, v16
	vsetivli	zero, 8, e8, m1, tu, ma
	vmv.v.v	v22, v18
	xor	a0, a0, a2
	vmv.s.x	v23, a0
	vsetivli	zero, 16, e8, m1, ta, ma
	vslideup.vi	v24, v10, 8
	vxor.vv	v23, v23, v10
	vsetivli	zero, 4, e32, m1, ta, ma
	vrgather.vi	v25, v10, 1
	vsetivli	zero, 16, e8, m1, ta, ma
	vxor.vv	v10, v22, v25
	vmsle.vi	v0, v20, -1
	vrgather.vv	v22, v24, v20
	vrgather.vv	v24, v23, v15
	vxor.vv	v17, v10, v17
	vxor.vx	v10, v22, a5
	vsetivli	zero, 4, e8, m1, tu, ma
	vmv.v.v	v24, v18
	vsetivli	zero, 16, e8, m1, ta, ma
	vmerge.vxm	v20, v10, a5, v0
	vrgather.vv	v10, v17, v21
	vmsle.vi	v0, v21, -1
	vrgather.vv	v21, v17, v19
	vxor.vv	v19, v23, v24
	vxor.vx	v10, v10, a5
	vsrl.vi	v24, v21, 4
	vand.vi	v25, v21, 15
	vmerge.vxm	v22, v10, a5, v0
	vsetvli	zero, a1, e8, m2, ta, ma
	vslideup.vi	v20, v22, 16
	vsetivli	zero, 16, e8, m1, ta, ma
	vrgather.vv	v10, v19, v16
	vxor.vv	v22, v24, v25
	vrgather.vv	v23, v11, v25
	vsetvli	zero, a1, e8, m2, ta, ma
	vse8.v	v20, (a7)
	vsetivli	zero, 16, e8, m1, ta, ma
	vrgather.vv	v20, v12, v24
	vsetivli	zero, 8, e8, m1, tu, ma
	vmv.v.v	v10, v18
	vsetivli	zero, 16, e8, m1, ta, ma
	vrgather.vv	v21, v12, v22
	vxor.vv	v20, v20, v23
	vxor.vv	v21, v21, v23
	vmsle.vi	v0, v20, -1
	vrgather.vv	v23, v12, v20
	vmerge.vim	v20, v23, 0, v0
	vmsle.vi	v0, v21, -1
	vrgather.vv	v23, v12, v21
	vmerge.vim	v21, v23, 0, v0
	vxor.vv	v22, v20, v22
	vmsle.vi	v0, v20, -1
	vxor.vv	v20, v21, v24
	vrgather.vv	v23, v13, v22
	vrgather.vv	v22, v14, v20
	vxor.vx	v20, v23, a5
	vmerge.vxm	v20, v20, a5, v0
	vmsle.vi	v0, v21, -1
	vxor.vv	v21, v20, v22
	vmerge.vvm	v20, v21, v20, v0
	vxor.vv	v10, v20, v10
	li	a0, 576
	vxor.vv	v10, v10, v19
	bne	a3, a0, .Lgcm_BB4_7
# %bb.10:                               # %then.4.i1334.i
                                        #   in Loop: Header=BB4_9 Depth=1
	vand.vi	v19, v10, 15
	vsrl.vi	v20, v10, 4
	vrgather.vv	v21, v8, v19
	vrgather.vv	v19, v9, v20
	vxor.vv	v19, v21, v19
	li	a0, 99
	vxor.vx	v19, v19, a0
	j	.Lgcm_BB4_8
.Lgcm_BB4_11:                               # %else.5.i
	li	t4, 0
	addi	a3, a3, 8
	vand.vi	v8, v10, 15
.Lgcm_pcrel_hi26:
	auipc	a2, %pcrel_hi(.Lgcm_CPI4_2)
	vsrl.vi	v9, v10, 4
.Lgcm_pcrel_hi27:
	auipc	a4, %pcrel_hi(.Lgcm_CPI4_3)
.Lgcm_pcrel_hi28:
	auipc	a5, %pcrel_hi(.Lgcm_CPI4_10)
	vle8.v	v13, (a3)
	li	t2, 110
	addi	a2, a2, %pcrel_lo(.Lgcm_pcrel_hi26)
	vle8.v	v11, (a2)
	li	a6, 32
	addi	a2, a4, %pcrel_lo(.Lgcm_pcrel_hi27)
	vle8.v	v12, (a2)
.Lgcm_pcrel_hi29:
	auipc	a2, %pcrel_hi(.Lgcm_CPI4_4)
	addi	a3, a5, %pcrel_lo(.Lgcm_pcrel_hi28)
	vle8.v	v16, (a3)
.Lgcm_pcrel_hi30:
	auipc	a3, %pcrel_hi(.Lgcm_CPI4_5)
	addi	a2, a2, %pcrel_lo(.Lgcm_pcrel_hi29)
	vand.vi	v17, v13, 15
	vrgather.vv	v19, v14, v17
	vle8.v	v18, (a2)
.Lgcm_pcrel_hi31:
	auipc	a2, %pcrel_hi(.Lgcm_CPI4_6)
	addi	a3, a3, %pcrel_lo(.Lgcm_pcrel_hi30)
	vsrl.vi	v13, v13, 4
	vrgather.vv	v14, v15, v13
	vle8.v	v17, (a3)
.Lgcm_pcrel_hi32:
	auipc	a3, %pcrel_hi(.Lgcm_CPI4_7)
	addi	a2, a2, %pcrel_lo(.Lgcm_pcrel_hi31)
	vrgather.vv	v13, v11, v8
	vrgather.vv	v8, v12, v9
	vxor.vv	v19, v14, v19
	vxor.vv	v8, v8, v13
	vrgather.vv	v9, v19, v16
	vxor.vx	v14, v9, t2
	vsetvli	zero, a6, e8, m2, ta, ma
	vslideup.vi	v8, v14, 16
	vsetivli	zero, 16, e8, m1, ta, ma
	vle8.v	v16, (a2)
.Lgcm_pcrel_hi33:
	auipc	a2, %pcrel_hi(.Lgcm_CPI4_8)
	addi	a3, a3, %pcrel_lo(.Lgcm_pcrel_hi32)
	vle8.v	v13, (a3)
.Lgcm_pcrel_hi34:
	auipc	a3, %pcrel_hi(.Lgcm_CPI4_9)
	vsetvli	zero, a6, e8, m2, ta, ma
	vse8.v	v8, (a0)
	addi	a7, a0, 32
	addi	a0, a2, %pcrel_lo(.Lgcm_pcrel_hi33)
	addi	a2, a3, %pcrel_lo(.Lgcm_pcrel_hi34)
	vsetivli	zero, 16, e8, m1, ta, ma
	vle8.v	v15, (a0)
	vle8.v	v14, (a2)
.Lgcm_pcrel_hi35:
	auipc	a5, %pcrel_hi(.Lgcm_static.0)
	addi	a5, a5, %pcrel_lo(.Lgcm_pcrel_hi35)
	li	a4, 96
.Lgcm_BB4_12:                               # %join.5.i727
                                        # =>This Inner Loop Header: Depth=1
	lbu	a0, 0(a5)
	lui	t1, 49393
.Lgcm_pcrel_hi36:
	auipc	a2, %pcrel_hi(.Lgcm_static.1)
.Lgcm_pcrel_hi37:
	auipc	a3, %pcrel_hi(.Lgcm_static.2)
	andi	t3, a4, 32
	addi	a1, t1, -499
	addi	a2, a2, %pcrel_lo(.Lgcm_pcrel_hi36)
	vsetivli	zero, 4, e32, m1, ta, ma
	vmv.v.x	v21, a1
	andi	a1, a0, 15
	add	a2, a2, a1
.Lgcm_pcrel_hi38:
	auipc	a1, %pcrel_hi(.Lgcm_static.3)
	addi	a3, a3, %pcrel_lo(.Lgcm_pcrel_hi37)
	srli	a0, a0, 4
	add	a0, a0, a3
	andi	a3, t4, 32
	addi	a1, a1, %pcrel_lo(.Lgcm_pcrel_hi38)
	add	t3, t3, a1
	lbu	a2, 0(a2)
	lbu	a0, 0(a0)
	add	a3, a3, a1
	vsetivli	zero, 16, e8, m1, ta, ma
	vle8.v	v8, (t3)
	vmv.v.i	v20, 0
	xor	a2, a2, a0
	add	a0, a7, t4
	vrgather.vv	v9, v19, v15
	addi	t4, t4, 32
	addi	a5, a5, 1
	vmv.v.i	v22, 0
	vsetvli	zero, zero, e8, m1, tu, ma
	vmv.s.x	v22, a2
	li	t1, 192
	vsetivli	zero, 4, e8, m1, tu, ma
	vmv.v.v	v9, v20
	vsetivli	zero, 16, e8, m1, ta, ma
	vxor.vv	v9, v9, v19
	vrgather.vv	v23, v19, v21
	vsrl.vi	v19, v23, 4
	vand.vi	v23, v23, 15
	vxor.vv	v24, v19, v23
	vrgather.vv	v25, v18, v23
	vrgather.vv	v23, v17, v19
	vrgather.vv	v26, v17, v24
	vxor.vv	v23, v23, v25
	vxor.vv	v25, v26, v25
	vmsle.vi	v0, v23, -1
	vrgather.vv	v26, v17, v23
	vmerge.vim	v23, v26, 0, v0
	vmsle.vi	v0, v25, -1
	vrgather.vv	v26, v17, v25
	vmerge.vim	v25, v26, 0, v0
	vxor.vv	v24, v23, v24
	vmsle.vi	v0, v23, -1
	vxor.vv	v19, v25, v19
	vrgather.vv	v23, v16, v24
	vrgather.vv	v24, v13, v19
	vxor.vx	v19, v23, t2
	vmerge.vxm	v19, v19, t2, v0
	vmsle.vi	v0, v25, -1
	vxor.vv	v10, v22, v10
	vrgather.vv	v22, v10, v15
	vxor.vv	v23, v19, v24
	vsetivli	zero, 4, e8, m1, tu, ma
	vmv.v.v	v22, v20
	vsetivli	zero, 16, e8, m1, ta, ma
	vmerge.vvm	v19, v23, v19, v0
	vmsle.vi	v0, v8, -1
	vxor.vv	v10, v10, v22
	vrgather.vv	v22, v10, v14
	vsetivli	zero, 8, e8, m1, tu, ma
	vmv.v.v	v22, v20
	vsetivli	zero, 16, e8, m1, ta, ma
	vxor.vv	v19, v19, v22
	vxor.vv	v10, v19, v10
	vrgather.vv	v19, v10, v8
	vsetivli	zero, 4, e32, m1, ta, ma
	vrgather.vi	v8, v10, 3
	vsetivli	zero, 16, e8, m1, ta, ma
	vxor.vx	v19, v19, t2
	vsrl.vi	v22, v8, 4
	vand.vi	v23, v8, 15
	vmerge.vxm	v8, v19, t2, v0
	vxor.vv	v19, v22, v23
	vrgather.vv	v24, v18, v23
	vrgather.vv	v23, v17, v22
	vrgather.vv	v25, v17, v19
	vxor.vv	v23, v23, v24
	vxor.vv	v24, v25, v24
	vmsle.vi	v0, v23, -1
	vrgather.vv	v25, v17, v23
	vmerge.vim	v23, v25, 0, v0
	vmsle.vi	v0, v24, -1
	vrgather.vv	v25, v17, v24
	vmerge.vim	v24, v25, 0, v0
	vrgather.vv	v25, v9, v14
	addi	a3, a3, 16
	vsetivli	zero, 8, e8, m1, tu, ma
	vmv.v.v	v25, v20
	vsetivli	zero, 16, e8, m1, ta, ma
	vxor.vv	v19, v23, v19
	vmsle.vi	v0, v23, -1
	vrgather.vv	v23, v16, v19
	vxor.vx	v19, v23, t2
	vmerge.vxm	v19, v19, t2, v0
	vle8.v	v23, (a3)
	vxor.vv	v22, v24, v22
	vrgather.vv	v26, v13, v22
	vmsle.vi	v0, v24, -1
	vxor.vv	v22, v19, v26
	vmerge.vvm	v19, v22, v19, v0
	vmsle.vi	v0, v23, -1
	vxor.vv	v19, v19, v25
	vxor.vv	v19, v19, v9
	vrgather.vv	v9, v19, v23
	vxor.vx	v9, v9, t2
	vmerge.vxm	v22, v9, t2, v0
	vsetvli	zero, a6, e8, m2, ta, ma
	vslideup.vi	v8, v22, 16
	vse8.v	v8, (a0)
	addi	a4, a4, 96
	bne	t4, t1, .Lgcm_BB4_12
# %bb.13:                               # %"aes_planes::expansion::expand_256::<#05c2c6c54e82e59f>.exit"
	vsetivli	zero, 16, e8, m1, ta, ma
	vrgather.vv	v8, v19, v21
	li	a0, -114
	vsrl.vi	v9, v8, 4
	vand.vi	v8, v8, 15
	vxor.vv	v19, v9, v8
	vrgather.vv	v21, v18, v8
	vrgather.vv	v8, v17, v9
	vrgather.vv	v18, v17, v19
	vxor.vv	v8, v8, v21
	vxor.vv	v18, v18, v21
	vmsle.vi	v0, v8, -1
	vrgather.vv	v21, v17, v8
	vmerge.vim	v8, v21, 0, v0
	vmv1r.v	v21, v20
	vsetvli	zero, zero, e8, m1, tu, ma
	vmv.s.x	v21, a0
	vsetvli	zero, zero, e8, m1, ta, ma
	vrgather.vv	v22, v17, v18
	vmsle.vi	v0, v18, -1
	li	a0, 110
	vmerge.vim	v17, v22, 0, v0
	vxor.vv	v18, v8, v19
	vmsle.vi	v0, v8, -1
	vrgather.vv	v8, v16, v18
	vxor.vx	v8, v8, a0
	vmerge.vxm	v8, v8, a0, v0
	li	a0, 99
	vxor.vv	v10, v10, v21
	vrgather.vv	v16, v10, v15
	vsetivli	zero, 4, e8, m1, tu, ma
	vmv.v.v	v16, v20
	vsetivli	zero, 16, e8, m1, ta, ma
	vxor.vv	v10, v16, v10
	vrgather.vv	v15, v10, v14
	vxor.vv	v9, v17, v9
	vsetivli	zero, 8, e8, m1, tu, ma
	vmv.v.v	v15, v20
	vsetivli	zero, 16, e8, m1, ta, ma
	vrgather.vv	v14, v13, v9
	vmsle.vi	v0, v17, -1
	vxor.vv	v9, v8, v14
	vmerge.vvm	v8, v9, v8, v0
	vxor.vv	v8, v8, v15
	vxor.vv	v8, v8, v10
	vand.vi	v9, v8, 15
	vsrl.vi	v8, v8, 4
	vrgather.vv	v10, v11, v9
	vrgather.vv	v9, v12, v8
	vxor.vv	v8, v10, v9
	vxor.vx	v8, v8, a0
	addi	a0, t0, 208
	vse8.v	v8, (a0)
	ret
.Lgcm_BB4_14:                               # %join.6.i.peel
	andi	a0, t1, 48
	add	a0, a0, a7
	vle8.v	v8, (a0)
	vrgather.vv	v9, v10, v8
	vmsle.vi	v0, v8, -1
	li	a0, 110
	vxor.vx	v8, v9, a0
	vmerge.vxm	v8, v8, a0, v0
.Lgcm_BB4_15:                               # %"aes_permute::lane_keys::stored_key.exit.peel"
	vse8.v	v8, (t0)
.Lgcm_BB4_16:                               # %"aes_planes::expansion::expand::<#05c2c6c54e82e59f>.exit"
	ret
.Lgcm_func_end4:
	.size	gcm.aes_permute.lane_keys.expand_lanes, .Lgcm_func_end4-gcm.aes_permute.lane_keys.expand_lanes
                                        # -- End function
	.section	.text.gcm.gcm.mode.BorrowedGcm.put_pre_counter,"ax",@progbits
	.p2align	1                               # -- Begin function gcm::mode::BorrowedGcm::put_pre_counter::<#c13ce517942629d6>
	.type	gcm.gcm.mode.BorrowedGcm.put_pre_counter,@function
gcm.gcm.mode.BorrowedGcm.put_pre_counter: # @gcm.gcm.mode.BorrowedGcm.put_pre_counter
# %bb.0:                                # %start
	addi	sp, sp, -96
	sd	ra, 88(sp)                      # 8-byte Folded Spill
	sd	s0, 80(sp)                      # 8-byte Folded Spill
	sd	s1, 72(sp)                      # 8-byte Folded Spill
	sd	s2, 64(sp)                      # 8-byte Folded Spill
	sd	s3, 56(sp)                      # 8-byte Folded Spill
	sd	s4, 48(sp)                      # 8-byte Folded Spill
	sd	s5, 40(sp)                      # 8-byte Folded Spill
	sd	s6, 32(sp)                      # 8-byte Folded Spill
	mv	s3, a3
	mv	a3, a1
	li	a1, 12
	bne	a2, a1, .Lgcm_BB5_2
# %bb.1:                                # %then.1
	lbu	a0, 1(a3)
	lbu	a1, 0(a3)
	lbu	a2, 2(a3)
	lbu	a4, 3(a3)
	slli	a0, a0, 8
	or	a0, a0, a1
	lbu	a1, 4(a3)
	lbu	a5, 5(a3)
	lbu	s1, 6(a3)
	lbu	s0, 7(a3)
	slli	a2, a2, 16
	slli	a4, a4, 24
	slli	a5, a5, 8
	slli	s1, s1, 16
	slli	s0, s0, 24
	or	a2, a2, a4
	or	a1, a1, a5
	or	s0, s0, s1
	lbu	a4, 9(a3)
	lbu	a5, 8(a3)
	lbu	s1, 10(a3)
	lbu	a3, 11(a3)
	slli	a4, a4, 8
	or	a4, a4, a5
	slli	s1, s1, 16
	slli	a3, a3, 24
	or	a3, a3, s1
	or	a0, a0, a2
	sb	zero, 28(sp)
	sb	zero, 29(sp)
	or	a1, a1, s0
	lh	a2, 28(sp)
	or	a3, a3, a4
	slli	a1, a1, 32
	or	a0, a0, a1
	sd	a0, 0(sp)
	sw	a3, 8(sp)
	sh	a2, 12(sp)
	sb	zero, 14(sp)
	mv	a1, sp
	li	a2, 15
	mv	a0, s3
	la	t1, memcpy
	jalr	t1
	li	a0, 1
	j	.Lgcm_BB5_3
.Lgcm_BB5_2:                                # %else.2
	mv	s1, a2
	ld	a1, 32(a0)
	mv	s0, a0
	mv	a0, a1
	li	a1, 0
	li	a2, 0
	mv	a4, s1
	call	gcm.gcm.hash_room.MultiplesRoomHashRoom.hash_on
	mv	a6, a1
	ld	a1, 32(s0)
	srli	s4, s1, 53
	slli	s5, s1, 59
	slli	t2, s1, 43
	slli	t1, s1, 27
	slli	t0, s1, 11
	li	t6, 255
	srli	a7, s1, 5
	srli	t5, s1, 21
	lui	s2, 4080
	srli	t4, s1, 37
	lui	t3, 16
	vsetivli	zero, 2, e64, m1, ta, ma
	vmv.v.i	v8, 0
	addi	s1, sp, 16
	vsetivli	zero, 16, e8, m1, ta, ma
	vid.v	v9
	vsetivli	zero, 2, e64, m1, ta, ma
	vse64.v	v8, (s1)
	slli	s0, t6, 48
	and	t2, t2, s0
	slli	a5, t6, 40
	and	a5, t1, a5
	slli	s1, t6, 32
	and	a3, t0, s1
	zext.b	a4, s4
	slli	s6, t6, 24
	and	t1, t5, s2
	addi	s1, t3, -256
	or	a4, a4, s5
	srli	t0, s5, 56
	slli	s4, s4, 56
	and	a7, a7, s6
	and	a2, t4, s1
	or	a4, a4, a3
	or	s0, a5, t2
	or	a2, a2, t1
	srli	a5, a5, 24
	srli	a3, a3, 8
	or	a4, a4, s0
	or	a3, a3, a5
	or	a2, a2, a4
	srli	a4, a4, 40
	or	a5, a2, a7
	and	a4, a4, s1
	and	a2, a2, s1
	or	a4, a4, t0
	srliw	s0, a5, 24
	and	a5, a5, s2
	slli	a2, a2, 40
	or	a3, a3, a4
	slli	s0, s0, 32
	slli	a5, a5, 24
	or	a2, s4, a2
	or	a5, a5, s0
	or	a2, a2, a3
	or	a2, a2, a5
	xor	a0, a0, a2
	vmv.v.x	v8, a0
	vslide1down.vx	v10, v8, a6
	vsetivli	zero, 16, e8, m1, ta, ma
	vrsub.vi	v9, v9, 15
	vrgather.vv	v8, v10, v9
	addi	a0, sp, 16
	call	gcm.gcm.multiples.Multiples.block_product
	ld	a1, 16(sp)
	ld	a0, 24(sp)
	srli	a6, a1, 24
	srli	a3, a1, 8
	srli	a7, a1, 40
	srli	a5, a1, 56
	srli	s0, a0, 8
	and	a3, a3, s6
	and	s0, s0, s6
	and	a2, a1, s2
	and	a4, a6, s2
	or	a6, a3, a4
	srliw	a4, a1, 24
	and	a3, a7, s1
	or	a3, a3, a5
	and	a5, a1, s1
	slli	a1, a1, 56
	slli	a2, a2, 24
	slli	a4, a4, 32
	or	a7, a2, a4
	srli	a4, a0, 24
	slli	a5, a5, 40
	or	a1, a1, a5
	srli	a5, a0, 40
	and	a4, a4, s2
	or	a4, a4, s0
	srli	s0, a0, 56
	and	a2, a0, s2
	and	a5, a5, s1
	or	a5, a5, s0
	srliw	s0, a0, 24
	slli	a2, a2, 24
	slli	s0, s0, 32
	or	a2, a2, s0
	and	s1, s1, a0
	slli	a0, a0, 56
	slli	s1, s1, 40
	or	a0, a0, s1
	vsetivli	zero, 8, e8, mf2, ta, ma
	vid.v	v8
	or	a3, a6, a3
	addi	s1, s3, 8
	vsetivli	zero, 4, e8, mf4, ta, ma
	vid.v	v9
	or	a1, a1, a7
	addi	s0, s3, 13
	or	a4, a4, a5
	li	a5, -1
	or	a0, a0, a2
	addi	a2, s3, 14
	vsetivli	zero, 8, e8, mf2, ta, ma
	vrsub.vi	v8, v8, 7
	vsetivli	zero, 4, e8, mf4, ta, ma
	vrsub.vi	v9, v9, 3
	or	a1, a1, a3
	or	a0, a0, a4
	vsetvli	zero, zero, e64, m2, ta, ma
	vmv.s.x	v10, a1
	vsetivli	zero, 2, e64, m1, ta, ma
	vmv.v.x	v11, a0
	vslide1down.vx	v11, v11, a1
	vsetivli	zero, 8, e8, mf2, ta, ma
	vrgather.vv	v12, v10, v8
	vsetivli	zero, 1, e8, m1, ta, ma
	vslidedown.vi	v8, v11, 1
	vmv.x.s	a0, v11
	vsetivli	zero, 8, e8, mf2, ta, ma
	vse8.v	v12, (s3)
	vsetivli	zero, 4, e8, m1, ta, ma
	vslidedown.vi	v10, v11, 4
	vsetivli	zero, 2, e8, m1, ta, ma
	vslidedown.vi	v11, v11, 2
	vsetivli	zero, 4, e8, mf4, ta, ma
	vrgather.vv	v12, v10, v9
	vse8.v	v12, (s1)
	vsetivli	zero, 2, e8, mf8, ta, ma
	vsse8.v	v11, (s0), a5
	vsetivli	zero, 1, e8, m1, ta, ma
	vse8.v	v8, (a2)
.Lgcm_BB5_3:                                # %join.3
	sb	a0, 15(s3)
	ld	ra, 88(sp)                      # 8-byte Folded Reload
	ld	s0, 80(sp)                      # 8-byte Folded Reload
	ld	s1, 72(sp)                      # 8-byte Folded Reload
	ld	s2, 64(sp)                      # 8-byte Folded Reload
	ld	s3, 56(sp)                      # 8-byte Folded Reload
	ld	s4, 48(sp)                      # 8-byte Folded Reload
	ld	s5, 40(sp)                      # 8-byte Folded Reload
	ld	s6, 32(sp)                      # 8-byte Folded Reload
	addi	sp, sp, 96
	ret
.Lgcm_func_end5:
	.size	gcm.gcm.mode.BorrowedGcm.put_pre_counter, .Lgcm_func_end5-gcm.gcm.mode.BorrowedGcm.put_pre_counter
                                        # -- End function
	.section	.text.gcm.gcm.hash_room.MultiplesRoomHashRoom.hash_on,"ax",@progbits
	.p2align	1                               # -- Begin function gcm::hash_room::MultiplesRoomHashRoom::hash_on
	.type	gcm.gcm.hash_room.MultiplesRoomHashRoom.hash_on,@function
gcm.gcm.hash_room.MultiplesRoomHashRoom.hash_on: # @gcm.gcm.hash_room.MultiplesRoomHashRoom.hash_on
# %bb.0:                                # %start
	addi	sp, sp, -144
	sd	ra, 136(sp)                     # 8-byte Folded Spill
	sd	s0, 128(sp)                     # 8-byte Folded Spill
	sd	s1, 120(sp)                     # 8-byte Folded Spill
	sd	s2, 112(sp)                     # 8-byte Folded Spill
	sd	s3, 104(sp)                     # 8-byte Folded Spill
	sd	s4, 96(sp)                      # 8-byte Folded Spill
	sd	s5, 88(sp)                      # 8-byte Folded Spill
	sd	s6, 80(sp)                      # 8-byte Folded Spill
	sd	s7, 72(sp)                      # 8-byte Folded Spill
	csrr	t1, vlenb
	li	t2, 3
	slli	t2, t2, 10
.Lgcm_BB6_1:                                # %start
                                        # =>This Inner Loop Header: Depth=1
	sub	sp, sp, t2
	sd	zero, 0(sp)
	sub	t1, t1, t2
	bge	t1, t2, .Lgcm_BB6_1
# %bb.2:                                # %start
	sub	sp, sp, t1
	mv	s5, a4
	mv	s2, a3
	mv	s6, a0
	vsetivli	zero, 2, e64, m1, ta, ma
	vmv.v.x	v8, a1
	vsetivli	zero, 16, e8, m1, ta, ma
	vid.v	v9
	addi	a0, sp, 32
	lui	a1, 699051
	vsetivli	zero, 2, e64, m1, ta, ma
	vslide1down.vx	v8, v8, a2
	li	a2, 48
	vsetivli	zero, 16, e8, m1, ta, ma
	vrsub.vi	v9, v9, 15
	addi	a1, a1, -1365
	vrgather.vv	v10, v8, v9
	vse8.v	v10, (a0)
	slli	a0, a1, 32
	add	a0, a0, a1
	mulhu	a0, a4, a0
	srli	a0, a0, 5
	slli	s3, a0, 4
	slli	s4, a0, 5
	bltu	a4, a2, .Lgcm_BB6_6
# %bb.3:                                # %join.5.i.preheader
	add	s7, s4, s3
	add	s7, s7, s2
	mv	s0, s2
.Lgcm_BB6_4:                                # %join.5.i
                                        # =>This Inner Loop Header: Depth=1
	addi	a0, s0, 16
	vsetivli	zero, 16, e8, m1, ta, ma
	vle8.v	v8, (s0)
	addi	s1, sp, 32
	vle8.v	v11, (s1)
	vle8.v	v9, (a0)
	addi	a0, s0, 32
	vle8.v	v10, (a0)
	vxor.vv	v8, v11, v8
	addi	a0, sp, 32
	mv	a1, s6
	call	gcm.gcm.multiples.Multiples.three_products
	addi	s0, s0, 48
	bne	s0, s7, .Lgcm_BB6_4
# %bb.5:                                # %"gcm::hash::hash_threes::<#4e0b07d5b1f54653>.exit.loopexit"
	vsetivli	zero, 16, e8, m1, ta, ma
	vle8.v	v10, (s1)
.Lgcm_BB6_6:                                # %"gcm::hash::hash_threes::<#4e0b07d5b1f54653>.exit"
	vsetivli	zero, 2, e64, m1, ta, ma
	vmv.v.i	v11, 0
	addi	a0, sp, 16
	add	s4, s4, s3
	vse64.v	v11, (a0)
	beq	s5, s4, .Lgcm_BB6_19
# %bb.7:                                # %join.3.i
	sub	a2, s5, s4
	li	a0, 16
	add	s3, s2, s4
	bltu	a0, a2, .Lgcm_BB6_11
# %bb.8:                                # %then.4.i
	beq	a2, a0, .Lgcm_BB6_10
# %bb.9:                                # %join.3.i133
	addi	a0, sp, 32
	vse64.v	v11, (a0)
	mv	a1, s3
	addi	a3, sp, 64
	vs1r.v	v10, (a3)                       # vscale x 8-byte Folded Spill
	la	t1, memcpy
	jalr	t1
	addi	a0, sp, 64
	vl1r.v	v10, (a0)                       # vscale x 8-byte Folded Reload
	addi	s3, sp, 32
.Lgcm_BB6_10:                               # %"gcm::hash::zero_filled.exit184"
	vsetivli	zero, 16, e8, m1, ta, ma
	vle8.v	v8, (s3)
	vxor.vv	v8, v8, v10
	addi	a0, sp, 16
	addi	s0, sp, 16
	mv	a1, s6
	call	gcm.gcm.multiples.Multiples.block_product
	j	.Lgcm_BB6_18
.Lgcm_BB6_11:                               # %join.6.i
	vsetivli	zero, 16, e8, m1, ta, ma
	vle8.v	v9, (s3)
	li	a0, 32
	vxor.vv	v8, v9, v10
	bltu	a0, a2, .Lgcm_BB6_15
# %bb.12:                               # %then.7.i
	addi	a1, s4, 16
	sub	a2, s5, a1
	li	a0, 16
	add	a1, a1, s2
	beq	a2, a0, .Lgcm_BB6_14
# %bb.13:                               # %join.3.i79
	addi	a0, sp, 32
	vsetivli	zero, 2, e64, m1, ta, ma
	vse64.v	v11, (a0)
	addi	a3, sp, 64
	vs1r.v	v8, (a3)                        # vscale x 8-byte Folded Spill
	la	t1, memcpy
	jalr	t1
	addi	a0, sp, 64
	vl1r.v	v8, (a0)                        # vscale x 8-byte Folded Reload
	addi	a1, sp, 32
	vsetivli	zero, 16, e8, m1, ta, ma
.Lgcm_BB6_14:                               # %"gcm::hash::zero_filled.exit130"
	vle8.v	v9, (a1)
	addi	a0, sp, 16
	addi	s0, sp, 16
	mv	a1, s6
	call	gcm.gcm.multiples.Multiples.two_products
	j	.Lgcm_BB6_18
.Lgcm_BB6_15:                               # %join.9.i
	addi	a1, s4, 32
	sub	a2, s5, a1
	li	a0, 16
	add	a1, a1, s2
	beq	a2, a0, .Lgcm_BB6_17
# %bb.16:                               # %join.3.i71
	addi	a0, sp, 32
	vsetivli	zero, 2, e64, m1, ta, ma
	vse64.v	v11, (a0)
	addi	a3, sp, 64
	vs1r.v	v8, (a3)                        # vscale x 8-byte Folded Spill
	la	t1, memcpy
	jalr	t1
	addi	a0, sp, 64
	vl1r.v	v8, (a0)                        # vscale x 8-byte Folded Reload
	addi	a1, sp, 32
	vsetivli	zero, 16, e8, m1, ta, ma
.Lgcm_BB6_17:                               # %"gcm::hash::zero_filled.exit"
	vle8.v	v10, (a1)
	addi	s3, s3, 16
	vle8.v	v9, (s3)
	addi	a0, sp, 16
	addi	s0, sp, 16
	mv	a1, s6
	call	gcm.gcm.multiples.Multiples.three_products
.Lgcm_BB6_18:                               # %"gcm::hash::hash_last_group::<#4e0b07d5b1f54653>.exit"
	vsetivli	zero, 16, e8, m1, ta, ma
	vle8.v	v10, (s0)
.Lgcm_BB6_19:                               # %"gcm::hash::hash_last_group::<#4e0b07d5b1f54653>.exit"
	vsetivli	zero, 1, e64, m1, ta, ma
	vslidedown.vi	v8, v10, 1
	vmv.x.s	a0, v10
	lui	a6, 4080
	li	a1, 255
	lui	a3, 16
	vmv.x.s	a2, v8
	srli	a5, a0, 24
	srli	s1, a0, 8
	slli	a7, a1, 24
	srli	s0, a0, 40
	addi	a3, a3, -256
	srli	a1, a0, 56
	and	a5, a5, a6
	and	s1, s1, a7
	or	a5, a5, s1
	and	s1, a0, a6
	and	s0, s0, a3
	or	a1, a1, s0
	srliw	s0, a0, 24
	slli	s1, s1, 24
	slli	s0, s0, 32
	or	t0, s1, s0
	srli	a4, a2, 8
	and	a4, a4, a7
	slli	s1, a0, 56
	and	a0, a0, a3
	or	a1, a1, a5
	srli	a5, a2, 24
	slli	a0, a0, 40
	or	a0, a0, s1
	srli	s1, a2, 40
	and	a5, a5, a6
	or	a4, a4, a5
	srli	a5, a2, 56
	and	s0, a2, a6
	and	s1, s1, a3
	or	a5, a5, s1
	srliw	s1, a2, 24
	slli	s0, s0, 24
	slli	s1, s1, 32
	or	s0, s0, s1
	and	a3, a3, a2
	slli	a2, a2, 56
	slli	a3, a3, 40
	or	a2, a2, a3
	or	a0, a0, t0
	or	a4, a4, a5
	or	a2, a2, s0
	or	a1, a1, a0
	or	a0, a2, a4
	csrr	a2, vlenb
	add	sp, sp, a2
	ld	ra, 136(sp)                     # 8-byte Folded Reload
	ld	s0, 128(sp)                     # 8-byte Folded Reload
	ld	s1, 120(sp)                     # 8-byte Folded Reload
	ld	s2, 112(sp)                     # 8-byte Folded Reload
	ld	s3, 104(sp)                     # 8-byte Folded Reload
	ld	s4, 96(sp)                      # 8-byte Folded Reload
	ld	s5, 88(sp)                      # 8-byte Folded Reload
	ld	s6, 80(sp)                      # 8-byte Folded Reload
	ld	s7, 72(sp)                      # 8-byte Folded Reload
	addi	sp, sp, 144
	ret
.Lgcm_func_end6:
	.size	gcm.gcm.hash_room.MultiplesRoomHashRoom.hash_on, .Lgcm_func_end6-gcm.gcm.hash_room.MultiplesRoomHashRoom.hash_on
                                        # -- End function
	.section	.text.gcm.gcm.multiples.Multiples.three_products,"ax",@progbits
	.p2align	1                               # -- Begin function gcm::multiples::Multiples::three_products
	.type	gcm.gcm.multiples.Multiples.three_products,@function
gcm.gcm.multiples.Multiples.three_products: # @gcm.gcm.multiples.Multiples.three_products
# %bb.0:                                # %start
	vsetivli	zero, 1, e8, m1, ta, ma
	vmv1r.v	v14, v9
	li	a2, 0
	li	a6, 32
	vsetvli	zero, a6, e8, m2, ta, ma
	vmv.v.i	v12, 0
	vmv2r.v	v16, v8
	vsetivli	zero, 16, e8, m1, ta, ma
	vand.vi	v28, v8, 15
	vmv2r.v	v18, v14
	vand.vi	v29, v14, 15
	vmv2r.v	v20, v10
	vand.vi	v30, v10, 15
	vsetvli	zero, a6, e8, m2, ta, ma
	vslideup.vi	v16, v8, 16
	vslideup.vi	v18, v14, 16
	vslideup.vi	v20, v10, 16
	vsrl.vi	v10, v16, 4
	vsrl.vi	v14, v18, 4
	vsrl.vi	v16, v20, 4
	vsetivli	zero, 16, e8, m2, ta, ma
	vslidedown.vi	v18, v10, 16
	vslidedown.vi	v20, v14, 16
	vslidedown.vi	v22, v16, 16
	vmv2r.v	v8, v12
	vmv2r.v	v24, v12
.Lgcm_BB7_1:                                # %join.5.i
                                        # =>This Inner Loop Header: Depth=1
	vsetivli	zero, 1, e32, m4, ta, ma
	vmv2r.v	v26, v8
	add	a4, a1, a2
	lui	a5, 1048560
	addi	a5, a5, -2
	vmv.s.x	v0, a5
	vsetvli	zero, a6, e8, m2, ta, mu
	vslidedown.vi	v8, v24, 15
	vslideup.vi	v8, v26, 1, v0.t
	vmv2r.v	v26, v12
	addi	a5, a4, 1248
	addi	a3, a4, 1504
	vsetivli	zero, 16, e8, m1, ta, ma
	vle8.v	v11, (a3)
	addi	a3, a4, 1520
	vle8.v	v15, (a3)
	addi	a3, a4, 1264
	vsetvli	zero, a6, e8, m2, ta, mu
	vslideup.vi	v26, v24, 1, v0.t
	vsetivli	zero, 16, e8, m1, ta, ma
	vle8.v	v17, (a5)
	addi	a5, a4, 736
	vle8.v	v19, (a3)
	addi	a3, a4, 992
	vle8.v	v21, (a3)
	addi	a3, a4, 1008
	vrgather.vv	v23, v11, v28
	vrgather.vv	v11, v17, v10
	vxor.vv	v11, v11, v23
	vle8.v	v17, (a3)
	addi	a3, a4, 752
	vrgather.vv	v23, v15, v28
	vrgather.vv	v15, v19, v18
	vxor.vv	v15, v15, v23
	vle8.v	v19, (a5)
	addi	a5, a4, 224
	vrgather.vv	v23, v21, v29
	vxor.vv	v11, v11, v23
	vle8.v	v21, (a3)
	addi	a3, a4, 480
	vrgather.vv	v23, v17, v29
	vxor.vv	v15, v15, v23
	vle8.v	v17, (a3)
	addi	a3, a4, 496
	addi	a4, a4, 240
	vrgather.vv	v23, v19, v14
	vxor.vv	v11, v11, v23
	vle8.v	v19, (a3)
	vrgather.vv	v23, v21, v20
	vxor.vv	v15, v15, v23
	vle8.v	v21, (a5)
	vrgather.vv	v23, v17, v30
	vxor.vv	v11, v11, v23
	vle8.v	v17, (a4)
	vrgather.vv	v23, v19, v30
	vxor.vv	v15, v15, v23
	vrgather.vv	v19, v21, v16
	vrgather.vv	v21, v17, v22
	vxor.vv	v24, v11, v19
	vxor.vv	v6, v15, v21
	vsetvli	zero, a6, e8, m2, ta, ma
	vslideup.vi	v24, v6, 16
	addi	a2, a2, -32
	li	a3, -256
	vxor.vv	v24, v24, v26
	bne	a2, a3, .Lgcm_BB7_1
# %bb.2:                                # %"gcm::multiples::shifted_sum::<#21b77b0062812be4>.exit"
	vsetivli	zero, 16, e8, m2, ta, ma
	vslidedown.vi	v14, v24, 16
	vsetivli	zero, 16, e8, m1, ta, ma
	vmv.v.i	v10, 0
	vslideup.vi	v10, v14, 8
	vxor.vv	v12, v10, v24
	vsetivli	zero, 16, e8, m2, ta, ma
	vslidedown.vi	v10, v8, 16
	lui	a2, 16
	lui	a6, 4080
	li	a3, 255
	vsetivli	zero, 16, e8, m1, ta, ma
	vslidedown.vi	v11, v14, 8
	vid.v	v9
	addi	a1, a2, -256
	slli	a7, a3, 24
	vslideup.vi	v11, v10, 8
	vxor.vv	v8, v11, v8
	vsetivli	zero, 2, e64, m1, ta, ma
	vslidedown.vi	v10, v8, 1
	vmv.x.s	a4, v8
	vmv.x.s	a5, v10
	srli	a2, a4, 24
	srli	a3, a4, 8
	srliw	t0, a4, 24
	and	t1, a4, a6
	and	a2, a2, a6
	and	a3, a3, a7
	or	t2, a3, a2
	slli	a3, a4, 56
	slli	t0, t0, 32
	slli	t1, t1, 24
	or	t0, t1, t0
	and	a2, a4, a1
	slli	a2, a2, 40
	or	a2, a2, a3
	srli	a3, a5, 8
	and	a7, a3, a7
	srli	a3, a4, 40
	srli	a4, a4, 56
	and	a3, a3, a1
	or	a3, a3, a4
	or	t1, t2, a3
	srli	a3, a5, 40
	or	t0, a2, t0
	srli	a2, a5, 56
	and	a3, a3, a1
	or	t2, a3, a2
	srli	a3, a5, 24
	and	a3, a3, a6
	or	a7, a7, a3
	srliw	a2, a5, 24
	and	a3, a5, a6
	and	a1, a1, a5
	slli	a5, a5, 56
	slli	a2, a2, 32
	slli	a3, a3, 24
	or	a2, a2, a3
	slli	a6, a4, 63
	slli	a1, a1, 40
	or	a1, a1, a5
	slli	t4, a4, 62
	slli	t3, a4, 57
	or	a3, t0, t1
	or	a4, a7, t2
	or	a1, a1, a2
	or	a1, a1, a4
	srli	a2, a3, 1
	srli	a4, a3, 2
	srli	a5, a3, 7
	srli	a7, a1, 1
	xor	t0, a4, a2
	srli	a4, a1, 2
	xor	a3, a3, a5
	srli	a5, a1, 7
	or	a2, a7, a6
	or	a4, a4, t4
	or	a5, a5, t3
	xor	a3, t0, a3
	xor	a2, a2, a4
	xor	a1, a1, a5
	xor	a1, a1, a2
	vmv.v.x	v8, a1
	vslide1down.vx	v8, v8, a3
	vsetivli	zero, 16, e8, m1, ta, ma
	vrsub.vi	v9, v9, 15
	vrgather.vv	v10, v8, v9
	vxor.vv	v8, v12, v10
	vse8.v	v8, (a0)
	ret
.Lgcm_func_end7:
	.size	gcm.gcm.multiples.Multiples.three_products, .Lgcm_func_end7-gcm.gcm.multiples.Multiples.three_products
                                        # -- End function
	.section	.text.gcm.gcm.multiples.Multiples.block_product,"ax",@progbits
	.p2align	1                               # -- Begin function gcm::multiples::Multiples::block_product
	.type	gcm.gcm.multiples.Multiples.block_product,@function
gcm.gcm.multiples.Multiples.block_product: # @gcm.gcm.multiples.Multiples.block_product
# %bb.0:                                # %start
	addi	a6, a1, 16
	li	t2, 32
	addi	a2, a1, 224
	addi	a4, a1, 480
	addi	a5, a1, 496
	addi	a7, a1, 240
	addi	t1, a1, 192
	addi	a3, a1, 448
	vsetivli	zero, 16, e32, m4, ta, ma
	vle8.v	v18, (a4)
	addi	a4, a1, 464
	vle8.v	v19, (a5)
	addi	t3, a1, 208
	vle8.v	v21, (a2)
	lui	a2, 16352
	vle8.v	v22, (a7)
	lui	a5, 1048560
	vle8.v	v20, (a3)
	addi	t0, a1, 160
	vle8.v	v24, (a4)
	addi	a4, a1, 416
	addi	a2, a2, 1022
	vmv.s.x	v0, a2
	addi	t4, a1, 432
	addi	a5, a5, -2
	vmv.s.x	v10, a5
	addi	a7, a1, 176
	vsetvli	zero, t2, e8, m2, ta, ma
	vmv.v.i	v12, 0
	vmv2r.v	v14, v8
	vsetivli	zero, 16, e8, m1, ta, ma
	vand.vi	v11, v8, 15
	vmv2r.v	v16, v12
	vsetvli	zero, t2, e8, m2, ta, ma
	vslideup.vi	v14, v8, 16
	vsrl.vi	v14, v14, 4
	vsetivli	zero, 16, e8, m2, ta, ma
	vslidedown.vi	v8, v14, 16
	vsetivli	zero, 16, e8, m1, ta, ma
	vrgather.vv	v9, v18, v11
	vrgather.vv	v15, v19, v11
	vrgather.vv	v18, v21, v14
	vrgather.vv	v19, v22, v8
	vxor.vv	v22, v18, v9
	vxor.vv	v18, v19, v15
	vsetvli	zero, t2, e8, m2, ta, mu
	vslideup.vi	v22, v18, 16
	vslidedown.vi	v18, v22, 15
	vslideup.vi	v18, v12, 1, v0.t
	vmv1r.v	v0, v10
	vslideup.vi	v16, v22, 1, v0.t
	vsetivli	zero, 16, e8, m1, ta, ma
	vle8.v	v9, (t1)
	lui	a2, 32736
	vle8.v	v15, (t3)
	addi	t1, a1, 128
	vle8.v	v25, (a4)
	addi	a3, a1, 384
	vrgather.vv	v21, v20, v11
	vrgather.vv	v22, v24, v11
	vrgather.vv	v20, v9, v14
	vrgather.vv	v9, v15, v8
	vxor.vv	v20, v20, v21
	vxor.vv	v22, v9, v22
	vsetvli	zero, t2, e8, m2, ta, ma
	vslideup.vi	v20, v22, 16
	vsetivli	zero, 16, e32, m4, ta, ma
	vle8.v	v9, (t4)
	addi	a5, a1, 400
	addi	a2, a2, 2046
	vmv.s.x	v0, a2
	addi	t3, a1, 144
	vsetvli	zero, t2, e8, m2, ta, mu
	vxor.vv	v20, v20, v16
	vslidedown.vi	v16, v20, 15
	vslideup.vi	v16, v18, 1, v0.t
	vmv2r.v	v18, v12
	vmv1r.v	v0, v10
	vslideup.vi	v18, v20, 1, v0.t
	vsetivli	zero, 16, e8, m1, ta, ma
	vle8.v	v15, (t0)
	lui	a4, 65505
	vle8.v	v20, (a7)
	addi	a7, a1, 96
	vle8.v	v24, (a3)
	addi	a2, a1, 352
	vrgather.vv	v21, v25, v11
	vrgather.vv	v22, v9, v11
	vrgather.vv	v9, v15, v14
	vrgather.vv	v15, v20, v8
	vxor.vv	v20, v9, v21
	vxor.vv	v22, v15, v22
	vsetvli	zero, t2, e8, m2, ta, ma
	vslideup.vi	v20, v22, 16
	vsetivli	zero, 16, e32, m4, ta, ma
	vle8.v	v9, (a5)
	addi	a5, a1, 368
	addi	a4, a4, -2
	vmv.s.x	v0, a4
	addi	t4, a1, 112
	vsetvli	zero, t2, e8, m2, ta, mu
	vxor.vv	v20, v20, v18
	vslidedown.vi	v18, v20, 15
	vslideup.vi	v18, v16, 1, v0.t
	vmv2r.v	v16, v12
	vmv1r.v	v0, v10
	vslideup.vi	v16, v20, 1, v0.t
	vsetivli	zero, 16, e8, m1, ta, ma
	vle8.v	v15, (t1)
	lui	a3, 131042
	vle8.v	v20, (t3)
	addi	t0, a1, 64
	vle8.v	v25, (a2)
	addi	a2, a1, 320
	vrgather.vv	v21, v24, v11
	vrgather.vv	v22, v9, v11
	vrgather.vv	v9, v15, v14
	vrgather.vv	v15, v20, v8
	vxor.vv	v20, v9, v21
	vxor.vv	v22, v15, v22
	vsetvli	zero, t2, e8, m2, ta, ma
	vslideup.vi	v20, v22, 16
	vsetivli	zero, 16, e32, m4, ta, ma
	vle8.v	v9, (a5)
	addi	a4, a1, 336
	addi	a3, a3, -2
	vmv.s.x	v0, a3
	addi	t1, a1, 80
	vsetvli	zero, t2, e8, m2, ta, mu
	vxor.vv	v20, v20, v16
	vslidedown.vi	v16, v20, 15
	vslideup.vi	v16, v18, 1, v0.t
	vmv2r.v	v18, v12
	vmv1r.v	v0, v10
	vslideup.vi	v18, v20, 1, v0.t
	vsetivli	zero, 16, e8, m1, ta, ma
	vle8.v	v15, (a7)
	lui	a3, 262116
	vle8.v	v20, (t4)
	addi	a5, a1, 32
	vle8.v	v24, (a2)
	addi	a7, a1, 288
	vrgather.vv	v21, v25, v11
	vrgather.vv	v22, v9, v11
	vrgather.vv	v9, v15, v14
	vrgather.vv	v15, v20, v8
	vxor.vv	v20, v9, v21
	vxor.vv	v22, v15, v22
	vsetvli	zero, t2, e8, m2, ta, ma
	vslideup.vi	v20, v22, 16
	vsetivli	zero, 16, e32, m4, ta, ma
	vle8.v	v9, (a4)
	addi	t3, a1, 304
	addi	a3, a3, -2
	vmv.s.x	v0, a3
	addi	a4, a1, 48
	vsetvli	zero, t2, e8, m2, ta, mu
	vxor.vv	v18, v20, v18
	vslidedown.vi	v20, v18, 15
	vslideup.vi	v20, v16, 1, v0.t
	vmv2r.v	v16, v12
	vmv1r.v	v0, v10
	vslideup.vi	v16, v18, 1, v0.t
	vsetivli	zero, 16, e8, m1, ta, ma
	vle8.v	v15, (t0)
	lui	t0, 524264
	vle8.v	v18, (t1)
	addi	a2, a1, 256
	vle8.v	v25, (a1)
	addi	a3, a1, 272
	vrgather.vv	v19, v24, v11
	vrgather.vv	v22, v9, v11
	vrgather.vv	v9, v15, v14
	vrgather.vv	v15, v18, v8
	vxor.vv	v18, v9, v19
	vxor.vv	v22, v15, v22
	vsetvli	zero, t2, e8, m2, ta, ma
	vslideup.vi	v18, v22, 16
	vsetivli	zero, 16, e8, m1, ta, ma
	vmv.v.i	v9, 0
	addi	t0, t0, -2
	vsetvli	zero, zero, e32, m4, ta, ma
	vmv.s.x	v0, t0
	lui	t0, 16
	vsetvli	zero, t2, e8, m2, ta, mu
	vxor.vv	v18, v18, v16
	vslidedown.vi	v16, v18, 15
	vslideup.vi	v16, v20, 1, v0.t
	vsetivli	zero, 16, e8, m1, ta, ma
	vle8.v	v20, (a5)
	lui	t1, 4080
	vle8.v	v21, (a4)
	li	a4, 255
	vle8.v	v22, (a6)
	vrgather.vv	v15, v20, v14
	vrgather.vv	v20, v25, v14
	vle8.v	v23, (a7)
	vle8.v	v24, (t3)
	vrgather.vv	v14, v21, v8
	vrgather.vv	v21, v22, v8
	vle8.v	v8, (a2)
	vle8.v	v25, (a3)
	vrgather.vv	v22, v23, v11
	vrgather.vv	v23, v24, v11
	vrgather.vv	v24, v8, v11
	vrgather.vv	v26, v25, v11
	vid.v	v8
	addi	a7, t0, -256
	slli	a6, a4, 24
	vxor.vv	v11, v20, v24
	vxor.vv	v24, v21, v26
	vmv2r.v	v20, v12
	vxor.vv	v22, v15, v22
	vxor.vv	v14, v14, v23
	vsetvli	zero, t2, e8, m2, ta, mu
	vslideup.vi	v22, v14, 16
	vmv1r.v	v0, v10
	vslideup.vi	v20, v18, 1, v0.t
	vxor.vv	v14, v22, v20
	vslidedown.vi	v18, v14, 15
	vslideup.vi	v18, v16, 1, v0.t
	vslideup.vi	v12, v14, 1, v0.t
	vsetivli	zero, 16, e8, m1, ta, ma
	vxor.vv	v14, v11, v12
	vsetivli	zero, 16, e8, m2, ta, ma
	vslidedown.vi	v10, v12, 16
	vslidedown.vi	v12, v18, 16
	vsetivli	zero, 16, e8, m1, ta, ma
	vxor.vv	v10, v24, v10
	vslideup.vi	v9, v10, 8
	vslidedown.vi	v10, v10, 8
	vxor.vv	v9, v9, v14
	vslideup.vi	v10, v12, 8
	vxor.vv	v10, v10, v18
	vsetivli	zero, 2, e64, m1, ta, ma
	vslidedown.vi	v11, v10, 1
	vmv.x.s	a3, v10
	vmv.x.s	a5, v11
	srli	a1, a3, 24
	srli	a4, a3, 8
	srliw	a2, a3, 24
	and	t0, a3, t1
	and	a1, a1, t1
	and	a4, a4, a6
	or	t2, a4, a1
	slli	a4, a3, 56
	slli	a2, a2, 32
	slli	t0, t0, 24
	or	a2, t0, a2
	and	a1, a3, a7
	slli	a1, a1, 40
	or	a1, a1, a4
	srli	a4, a5, 8
	and	a6, a4, a6
	srli	a4, a3, 40
	srli	a3, a3, 56
	and	a4, a4, a7
	or	a4, a4, a3
	or	t0, t2, a4
	srli	a4, a5, 40
	or	t2, a1, a2
	srli	a2, a5, 56
	and	a4, a4, a7
	or	t3, a4, a2
	srli	a4, a5, 24
	and	a4, a4, t1
	or	a6, a6, a4
	srliw	a1, a5, 24
	and	a2, a5, t1
	and	a4, a5, a7
	slli	a5, a5, 56
	slli	a1, a1, 32
	slli	a2, a2, 24
	or	a1, a1, a2
	slli	a7, a3, 63
	slli	a4, a4, 40
	or	a4, a4, a5
	slli	t4, a3, 62
	slli	t1, a3, 57
	or	a2, t2, t0
	or	a3, a6, t3
	or	a1, a1, a4
	or	a1, a1, a3
	srli	a3, a2, 1
	srli	a4, a2, 2
	srli	a5, a2, 7
	srli	a6, a1, 1
	xor	t0, a4, a3
	srli	a4, a1, 2
	xor	a2, a2, a5
	srli	a5, a1, 7
	or	a3, a6, a7
	or	a4, a4, t4
	or	a5, a5, t1
	xor	a2, t0, a2
	xor	a3, a3, a4
	xor	a1, a1, a5
	xor	a1, a1, a3
	vmv.v.x	v10, a1
	vslide1down.vx	v10, v10, a2
	vsetivli	zero, 16, e8, m1, ta, ma
	vrsub.vi	v8, v8, 15
	vrgather.vv	v11, v10, v8
	vxor.vv	v8, v9, v11
	vse8.v	v8, (a0)
	ret
.Lgcm_func_end8:
	.size	gcm.gcm.multiples.Multiples.block_product, .Lgcm_func_end8-gcm.gcm.multiples.Multiples.block_product
                                        # -- End function
	.section	.text.gcm.gcm.multiples.Multiples.two_products,"ax",@progbits
	.p2align	1                               # -- Begin function gcm::multiples::Multiples::two_products
	.type	gcm.gcm.multiples.Multiples.two_products,@function
gcm.gcm.multiples.Multiples.two_products: # @gcm.gcm.multiples.Multiples.two_products
# %bb.0:                                # %start
	vsetivli	zero, 1, e8, m1, ta, ma
	vmv1r.v	v12, v9
	li	a2, 0
	li	a6, 32
	vsetvli	zero, a6, e8, m2, ta, ma
	vmv.v.i	v10, 0
	vmv2r.v	v14, v8
	vsetivli	zero, 16, e8, m1, ta, ma
	vand.vi	v26, v8, 15
	vmv2r.v	v16, v12
	vand.vi	v27, v12, 15
	vsetvli	zero, a6, e8, m2, ta, ma
	vslideup.vi	v14, v8, 16
	vslideup.vi	v16, v12, 16
	vsrl.vi	v12, v14, 4
	vsrl.vi	v14, v16, 4
	vsetivli	zero, 16, e8, m2, ta, ma
	vslidedown.vi	v16, v12, 16
	vslidedown.vi	v18, v14, 16
	vmv2r.v	v8, v10
	vmv2r.v	v20, v10
.Lgcm_BB9_1:                                # %join.5.i
                                        # =>This Inner Loop Header: Depth=1
	vsetvli	zero, a6, e8, m2, ta, ma
	vmv2r.v	v22, v8
	add	a4, a1, a2
	vslidedown.vi	v8, v20, 15
	lui	a5, 1048560
	vmv2r.v	v24, v10
	addi	a2, a2, -32
	addi	a3, a4, 992
	vsetivli	zero, 16, e32, m4, ta, ma
	vle8.v	v13, (a3)
	addi	a3, a4, 1008
	vle8.v	v15, (a3)
	addi	a3, a4, 736
	addi	a5, a5, -2
	vmv.s.x	v0, a5
	addi	a5, a4, 752
	vsetvli	zero, a6, e8, m2, ta, mu
	vslideup.vi	v8, v22, 1, v0.t
	vsetivli	zero, 16, e8, m1, ta, ma
	vle8.v	v17, (a3)
	addi	a3, a4, 224
	vle8.v	v19, (a5)
	addi	a5, a4, 480
	vle8.v	v22, (a5)
	addi	a5, a4, 496
	addi	a4, a4, 240
	vsetvli	zero, a6, e8, m2, ta, mu
	vslideup.vi	v24, v20, 1, v0.t
	vsetivli	zero, 16, e8, m1, ta, ma
	vle8.v	v20, (a5)
	vle8.v	v21, (a3)
	vle8.v	v23, (a4)
	vrgather.vv	v28, v13, v26
	vrgather.vv	v13, v15, v26
	vrgather.vv	v15, v17, v12
	vrgather.vv	v17, v19, v16
	vrgather.vv	v19, v22, v27
	vrgather.vv	v22, v20, v27
	vrgather.vv	v20, v21, v14
	vrgather.vv	v21, v23, v18
	vxor.vv	v15, v15, v28
	vxor.vv	v13, v17, v13
	vxor.vv	v15, v15, v19
	vxor.vv	v13, v13, v22
	vxor.vv	v20, v15, v20
	vxor.vv	v22, v13, v21
	vsetvli	zero, a6, e8, m2, ta, ma
	vslideup.vi	v20, v22, 16
	li	a3, -256
	vxor.vv	v20, v20, v24
	bne	a2, a3, .Lgcm_BB9_1
# %bb.2:                                # %"gcm::multiples::shifted_sum::<#8860c9ef4de2646f>.exit"
	vsetivli	zero, 16, e8, m2, ta, ma
	vslidedown.vi	v14, v20, 16
	vsetivli	zero, 16, e8, m1, ta, ma
	vmv.v.i	v10, 0
	vslideup.vi	v10, v14, 8
	vxor.vv	v12, v10, v20
	vsetivli	zero, 16, e8, m2, ta, ma
	vslidedown.vi	v10, v8, 16
	lui	a2, 16
	lui	a6, 4080
	li	a3, 255
	vsetivli	zero, 16, e8, m1, ta, ma
	vslidedown.vi	v11, v14, 8
	vid.v	v9
	addi	a1, a2, -256
	slli	a7, a3, 24
	vslideup.vi	v11, v10, 8
	vxor.vv	v8, v11, v8
	vsetivli	zero, 2, e64, m1, ta, ma
	vslidedown.vi	v10, v8, 1
	vmv.x.s	a4, v8
	vmv.x.s	a5, v10
	srli	a2, a4, 24
	srli	a3, a4, 8
	srliw	t0, a4, 24
	and	t1, a4, a6
	and	a2, a2, a6
	and	a3, a3, a7
	or	t2, a3, a2
	slli	a3, a4, 56
	slli	t0, t0, 32
	slli	t1, t1, 24
	or	t0, t1, t0
	and	a2, a4, a1
	slli	a2, a2, 40
	or	a2, a2, a3
	srli	a3, a5, 8
	and	a7, a3, a7
	srli	a3, a4, 40
	srli	a4, a4, 56
	and	a3, a3, a1
	or	a3, a3, a4
	or	t1, t2, a3
	srli	a3, a5, 40
	or	t0, a2, t0
	srli	a2, a5, 56
	and	a3, a3, a1
	or	t2, a3, a2
	srli	a3, a5, 24
	and	a3, a3, a6
	or	a7, a7, a3
	srliw	a2, a5, 24
	and	a3, a5, a6
	and	a1, a1, a5
	slli	a5, a5, 56
	slli	a2, a2, 32
	slli	a3, a3, 24
	or	a2, a2, a3
	slli	a6, a4, 63
	slli	a1, a1, 40
	or	a1, a1, a5
	slli	t4, a4, 62
	slli	t3, a4, 57
	or	a3, t0, t1
	or	a4, a7, t2
	or	a1, a1, a2
	or	a1, a1, a4
	srli	a2, a3, 1
	srli	a4, a3, 2
	srli	a5, a3, 7
	srli	a7, a1, 1
	xor	t0, a4, a2
	srli	a4, a1, 2
	xor	a3, a3, a5
	srli	a5, a1, 7
	or	a2, a7, a6
	or	a4, a4, t4
	or	a5, a5, t3
	xor	a3, t0, a3
	xor	a2, a2, a4
	xor	a1, a1, a5
	xor	a1, a1, a2
	vmv.v.x	v8, a1
	vslide1down.vx	v8, v8, a3
	vsetivli	zero, 16, e8, m1, ta, ma
	vrsub.vi	v9, v9, 15
	vrgather.vv	v10, v8, v9
	vxor.vv	v8, v12, v10
	vse8.v	v8, (a0)
	ret
.Lgcm_func_end9:
	.size	gcm.gcm.multiples.Multiples.two_products, .Lgcm_func_end9-gcm.gcm.multiples.Multiples.two_products
                                        # -- End function
	.section	.text.gcm.aes_cipher.zeroize.stack.wipe_stack.512,"ax",@progbits
	.p2align	1                               # -- Begin function aes_cipher::zeroize::stack::wipe_stack::<=512>
	.type	gcm.aes_cipher.zeroize.stack.wipe_stack.512,@function
gcm.aes_cipher.zeroize.stack.wipe_stack.512: # @gcm.aes_cipher.zeroize.stack.wipe_stack.512
# %bb.0:                                # %start
	addi	sp, sp, -544
	sd	ra, 536(sp)                     # 8-byte Folded Spill
	sd	s0, 528(sp)                     # 8-byte Folded Spill
	sd	s1, 520(sp)                     # 8-byte Folded Spill
	addi	s0, sp, 8
	addi	a0, sp, 8
	li	a2, 512
	li	s1, 512
	li	a1, 0
	la	t1, memset
	jalr	t1
	sd	zero, 0(sp)
	#APP
	#NO_APP
	fence	rw, rw
	ld	a0, 0(sp)
	fence	r, rw
	#APP
	#NO_APP
	bgeu	a0, s1, .Lgcm_BB10_2
# %bb.1:                                # %then.1
	add	a0, a0, s0
	lbu	a0, 0(a0)
	#APP
	#NO_APP
	mv	a1, sp
	amoswap.d.aqrl	zero, a0, (a1)
	#APP
	#NO_APP
.Lgcm_BB10_2:                               # %common.ret
	ld	ra, 536(sp)                     # 8-byte Folded Reload
	ld	s0, 528(sp)                     # 8-byte Folded Reload
	ld	s1, 520(sp)                     # 8-byte Folded Reload
	addi	sp, sp, 544
	ret
.Lgcm_func_end10:
	.size	gcm.aes_cipher.zeroize.stack.wipe_stack.512, .Lgcm_func_end10-gcm.aes_cipher.zeroize.stack.wipe_stack.512
                                        # -- End function
	.section	.text.gcm.gcm.mode.BorrowedGcm.put_tag_so_far,"ax",@progbits
	.p2align	1                               # -- Begin function gcm::mode::BorrowedGcm::put_tag_so_far::<#c13ce517942629d6>
	.type	gcm.gcm.mode.BorrowedGcm.put_tag_so_far,@function
gcm.gcm.mode.BorrowedGcm.put_tag_so_far: # @gcm.gcm.mode.BorrowedGcm.put_tag_so_far
# %bb.0:                                # %start
	addi	sp, sp, -160
	sd	ra, 152(sp)                     # 8-byte Folded Spill
	sd	s0, 144(sp)                     # 8-byte Folded Spill
	sd	s1, 136(sp)                     # 8-byte Folded Spill
	sd	s2, 128(sp)                     # 8-byte Folded Spill
	sd	s3, 120(sp)                     # 8-byte Folded Spill
	sd	s4, 112(sp)                     # 8-byte Folded Spill
	sd	s5, 104(sp)                     # 8-byte Folded Spill
	sd	s6, 96(sp)                      # 8-byte Folded Spill
	sd	s7, 88(sp)                      # 8-byte Folded Spill
	sd	s8, 80(sp)                      # 8-byte Folded Spill
	sd	s9, 72(sp)                      # 8-byte Folded Spill
	sd	s10, 64(sp)                     # 8-byte Folded Spill
	sd	s11, 56(sp)                     # 8-byte Folded Spill
	csrr	t1, vlenb
	li	t2, 3
	slli	t2, t2, 10
.Lgcm_BB11_1:                               # %start
                                        # =>This Inner Loop Header: Depth=1
	sub	sp, sp, t2
	sd	zero, 0(sp)
	sub	t1, t1, t2
	bge	t1, t2, .Lgcm_BB11_1
# %bb.2:                                # %start
	sub	sp, sp, t1
	mv	s2, a2
	mv	s0, a1
	mv	s1, a0
	addi	a1, a1, 32
	call	gcm.gcm.tags.put_mask
	ld	a0, 32(s1)
	mv	a1, s0
	call	gcm.gcm.mode.BorrowedGcm.hash_so_far
	ld	a2, 0(s0)
	li	a3, -1
	srli	a3, a3, 3
	bltu	a2, a3, .Lgcm_BB11_4
# %bb.3:                                # %start
	mv	a2, a3
.Lgcm_BB11_4:                               # %start
	ld	a3, 8(s0)
	li	a4, 1
	slli	a4, a4, 36
	addi	a4, a4, -32
	bltu	a3, a4, .Lgcm_BB11_6
# %bb.5:                                # %start
	mv	a3, a4
.Lgcm_BB11_6:                               # %start
	ld	a6, 32(s1)
	srli	s9, a2, 53
	slli	s11, a2, 59
	slli	t3, a2, 43
	slli	t1, a2, 27
	slli	t2, a2, 11
	slli	s5, a3, 59
	slli	t4, a3, 43
	slli	t0, a3, 27
	slli	a7, a3, 11
	li	s8, 255
	srli	t5, a2, 5
	srli	s7, a2, 21
	lui	s3, 4080
	srli	s4, a2, 37
	lui	t6, 16
	srli	a3, a3, 5
	lui	s6, 520192
	vsetivli	zero, 2, e64, m1, ta, ma
	vmv.v.i	v8, 0
	addi	s10, sp, 16
	vsetivli	zero, 16, e8, m1, ta, ma
	vid.v	v9
	slli	s0, s8, 48
	slli	s1, s8, 40
	and	ra, a3, s6
	slli	a4, s8, 32
	slli	s6, s8, 24
	and	s8, s7, s3
	addi	s7, t6, -256
	vsetivli	zero, 2, e64, m1, ta, ma
	vse64.v	v8, (s10)
	or	a5, s11, s9
	srli	t6, s11, 56
	slli	s9, s9, 56
	and	t3, t3, s0
	and	s10, t4, s0
	srli	t4, s5, 56
	and	t1, t1, s1
	and	a3, t2, a4
	and	a2, t5, s6
	and	s0, s4, s7
	and	s1, t0, s1
	and	a4, a7, a4
	or	a5, a5, s0
	or	a2, a2, a3
	or	a3, a4, s5
	or	s0, ra, s1
	srli	s1, s1, 24
	srli	a4, a4, 8
	or	a5, a5, s8
	or	a3, a3, s0
	or	a7, a4, s1
	or	a2, a2, a5
	or	a3, a3, s10
	and	a5, a5, s7
	or	s1, a2, t1
	srli	s0, a2, 8
	and	t0, a2, s3
	slli	a5, a5, 40
	srli	a4, a3, 40
	slli	a3, a3, 32
	or	a2, s1, t3
	and	s0, s0, s6
	srli	s1, s1, 24
	slli	t0, t0, 24
	or	t1, s9, a5
	and	a4, a4, s7
	srli	a3, a3, 24
	and	s1, s1, s3
	srli	a5, a2, 40
	srliw	a2, a2, 24
	or	a4, a4, t4
	or	a3, a3, a7
	or	s0, s0, s1
	and	a5, a5, s7
	slli	a2, a2, 32
	or	a3, a3, a4
	or	a4, a5, t6
	or	a2, t0, a2
	xor	a0, a0, a3
	or	a4, a4, s0
	or	a2, t1, a2
	vmv.v.x	v8, a0
	or	a2, a2, a4
	xor	a1, a1, a2
	vslide1down.vx	v10, v8, a1
	vsetivli	zero, 16, e8, m1, ta, ma
	vrsub.vi	v9, v9, 15
	addi	a0, sp, 48
	vs1r.v	v9, (a0)                        # vscale x 8-byte Folded Spill
	vrgather.vv	v8, v10, v9
	addi	a0, sp, 16
	mv	a1, a6
	call	gcm.gcm.multiples.Multiples.block_product
	ld	a1, 16(sp)
	ld	a0, 24(sp)
	srli	a2, a1, 24
	srli	a3, a1, 8
	srli	a4, a1, 40
	srli	a5, a1, 56
	srli	s1, a0, 8
	and	a3, a3, s6
	and	s1, s1, s6
	and	s0, a1, s3
	and	a2, a2, s3
	or	a6, a3, a2
	srliw	a3, a1, 24
	and	a4, a4, s7
	or	a4, a4, a5
	and	a5, a1, s7
	slli	a1, a1, 56
	slli	s0, s0, 24
	slli	a3, a3, 32
	or	a3, a3, s0
	srli	s0, a0, 24
	slli	a5, a5, 40
	or	a1, a1, a5
	srli	a5, a0, 40
	and	s0, s0, s3
	or	s0, s0, s1
	srli	s1, a0, 56
	and	a2, a0, s3
	and	a5, a5, s7
	or	a5, a5, s1
	srliw	s1, a0, 24
	slli	a2, a2, 24
	slli	s1, s1, 32
	or	a2, a2, s1
	and	s1, a0, s7
	slli	a0, a0, 56
	slli	s1, s1, 40
	or	a0, a0, s1
	or	a4, a6, a4
	or	a1, a1, a3
	or	a5, a5, s0
	or	a0, a0, a2
	or	a1, a1, a4
	or	a0, a0, a5
	vsetivli	zero, 16, e8, m1, ta, ma
	vle8.v	v8, (s2)
	vsetivli	zero, 2, e64, m1, ta, ma
	vmv.v.x	v9, a0
	vslide1down.vx	v9, v9, a1
	addi	a0, sp, 48
	vl1r.v	v11, (a0)                       # vscale x 8-byte Folded Reload
	vsetivli	zero, 16, e8, m1, ta, ma
	vrgather.vv	v10, v9, v11
	vxor.vv	v8, v8, v10
	vse8.v	v8, (s2)
	csrr	a0, vlenb
	add	sp, sp, a0
	ld	ra, 152(sp)                     # 8-byte Folded Reload
	ld	s0, 144(sp)                     # 8-byte Folded Reload
	ld	s1, 136(sp)                     # 8-byte Folded Reload
	ld	s2, 128(sp)                     # 8-byte Folded Reload
	ld	s3, 120(sp)                     # 8-byte Folded Reload
	ld	s4, 112(sp)                     # 8-byte Folded Reload
	ld	s5, 104(sp)                     # 8-byte Folded Reload
	ld	s6, 96(sp)                      # 8-byte Folded Reload
	ld	s7, 88(sp)                      # 8-byte Folded Reload
	ld	s8, 80(sp)                      # 8-byte Folded Reload
	ld	s9, 72(sp)                      # 8-byte Folded Reload
	ld	s10, 64(sp)                     # 8-byte Folded Reload
	ld	s11, 56(sp)                     # 8-byte Folded Reload
	addi	sp, sp, 160
	ret
.Lgcm_func_end11:
	.size	gcm.gcm.mode.BorrowedGcm.put_tag_so_far, .Lgcm_func_end11-gcm.gcm.mode.BorrowedGcm.put_tag_so_far
                                        # -- End function
	.section	.rodata.cst16,"aM",@progbits,16
	.p2align	4, 0x0                          # -- Begin function gcm::tags::put_mask::<#ed3b81e0963a9ab3>
.Lgcm_CPI12_0:
	.byte	0                               # 0x0
	.byte	1                               # 0x1
	.byte	28                              # 0x1c
	.byte	29                              # 0x1d
	.byte	45                              # 0x2d
	.byte	44                              # 0x2c
	.byte	49                              # 0x31
	.byte	48                              # 0x30
	.byte	39                              # 0x27
	.byte	38                              # 0x26
	.byte	59                              # 0x3b
	.byte	58                              # 0x3a
	.byte	10                              # 0xa
	.byte	11                              # 0xb
	.byte	22                              # 0x16
	.byte	23                              # 0x17
.Lgcm_CPI12_1:
	.byte	0                               # 0x0
	.byte	134                             # 0x86
	.byte	253                             # 0xfd
	.byte	123                             # 0x7b
	.byte	142                             # 0x8e
	.byte	8                               # 0x8
	.byte	115                             # 0x73
	.byte	245                             # 0xf5
	.byte	119                             # 0x77
	.byte	241                             # 0xf1
	.byte	138                             # 0x8a
	.byte	12                              # 0xc
	.byte	249                             # 0xf9
	.byte	127                             # 0x7f
	.byte	4                               # 0x4
	.byte	130                             # 0x82
.Lgcm_CPI12_2:
	.byte	128                             # 0x80
	.byte	2                               # 0x2
	.byte	1                               # 0x1
	.byte	15                              # 0xf
	.byte	9                               # 0x9
	.byte	5                               # 0x5
	.byte	14                              # 0xe
	.byte	12                              # 0xc
	.byte	13                              # 0xd
	.byte	4                               # 0x4
	.byte	11                              # 0xb
	.byte	10                              # 0xa
	.byte	7                               # 0x7
	.byte	8                               # 0x8
	.byte	6                               # 0x6
	.byte	3                               # 0x3
.Lgcm_CPI12_3:
	.byte	128                             # 0x80
	.byte	1                               # 0x1
	.byte	9                               # 0x9
	.byte	14                              # 0xe
	.byte	13                              # 0xd
	.byte	11                              # 0xb
	.byte	7                               # 0x7
	.byte	6                               # 0x6
	.byte	15                              # 0xf
	.byte	2                               # 0x2
	.byte	12                              # 0xc
	.byte	5                               # 0x5
	.byte	10                              # 0xa
	.byte	4                               # 0x4
	.byte	3                               # 0x3
	.byte	8                               # 0x8
.Lgcm_CPI12_4:
	.byte	0                               # 0x0
	.byte	195                             # 0xc3
	.byte	79                              # 0x4f
	.byte	12                              # 0xc
	.byte	252                             # 0xfc
	.byte	124                             # 0x7c
	.byte	67                              # 0x43
	.byte	128                             # 0x80
	.byte	207                             # 0xcf
	.byte	51                              # 0x33
	.byte	63                              # 0x3f
	.byte	112                             # 0x70
	.byte	191                             # 0xbf
	.byte	179                             # 0xb3
	.byte	240                             # 0xf0
	.byte	140                             # 0x8c
.Lgcm_CPI12_5:
	.byte	0                               # 0x0
	.byte	230                             # 0xe6
	.byte	114                             # 0x72
	.byte	183                             # 0xb7
	.byte	229                             # 0xe5
	.byte	198                             # 0xc6
	.byte	197                             # 0xc5
	.byte	35                              # 0x23
	.byte	81                              # 0x51
	.byte	180                             # 0xb4
	.byte	3                               # 0x3
	.byte	113                             # 0x71
	.byte	32                              # 0x20
	.byte	151                             # 0x97
	.byte	82                              # 0x52
	.byte	148                             # 0x94
.Lgcm_CPI12_6:
	.byte	0                               # 0x0
	.byte	124                             # 0x7c
	.byte	32                              # 0x20
	.byte	207                             # 0xcf
	.byte	146                             # 0x92
	.byte	1                               # 0x1
	.byte	239                             # 0xef
	.byte	147                             # 0x93
	.byte	179                             # 0xb3
	.byte	33                              # 0x21
	.byte	238                             # 0xee
	.byte	206                             # 0xce
	.byte	125                             # 0x7d
	.byte	178                             # 0xb2
	.byte	93                              # 0x5d
	.byte	92                              # 0x5c
.Lgcm_CPI12_7:
	.byte	0                               # 0x0
	.byte	209                             # 0xd1
	.byte	229                             # 0xe5
	.byte	247                             # 0xf7
	.byte	230                             # 0xe6
	.byte	37                              # 0x25
	.byte	18                              # 0x12
	.byte	195                             # 0xc3
	.byte	38                              # 0x26
	.byte	192                             # 0xc0
	.byte	55                              # 0x37
	.byte	210                             # 0xd2
	.byte	244                             # 0xf4
	.byte	3                               # 0x3
	.byte	17                              # 0x11
	.byte	52                              # 0x34
.Lgcm_CPI12_8:
	.byte	0                               # 0x0
	.byte	203                             # 0xcb
	.byte	215                             # 0xd7
	.byte	176                             # 0xb0
	.byte	33                              # 0x21
	.byte	141                             # 0x8d
	.byte	103                             # 0x67
	.byte	172                             # 0xac
	.byte	123                             # 0x7b
	.byte	90                              # 0x5a
	.byte	234                             # 0xea
	.byte	61                              # 0x3d
	.byte	70                              # 0x46
	.byte	246                             # 0xf6
	.byte	145                             # 0x91
	.byte	28                              # 0x1c
.Lgcm_CPI12_9:
	.byte	0                               # 0x0
	.byte	159                             # 0x9f
	.byte	97                              # 0x61
	.byte	22                              # 0x16
	.byte	194                             # 0xc2
	.byte	42                              # 0x2a
	.byte	119                             # 0x77
	.byte	232                             # 0xe8
	.byte	137                             # 0x89
	.byte	75                              # 0x4b
	.byte	93                              # 0x5d
	.byte	60                              # 0x3c
	.byte	181                             # 0xb5
	.byte	163                             # 0xa3
	.byte	212                             # 0xd4
	.byte	254                             # 0xfe
	.section	.text.gcm.gcm.tags.put_mask,"ax",@progbits
	.p2align	1
	.type	gcm.gcm.tags.put_mask,@function
gcm.gcm.tags.put_mask: # @gcm.gcm.tags.put_mask
# %bb.0:                                # %start
	vsetivli	zero, 16, e8, m1, ta, ma
	vle8.v	v8, (a1)
	vse8.v	v8, (a2)
	lbu	a1, 17(a0)
	lbu	a3, 18(a0)
	lbu	a4, 19(a0)
	lbu	a5, 16(a0)
	slli	a1, a1, 8
	slli	a3, a3, 16
	slli	a4, a4, 24
	or	a6, a1, a5
	or	a7, a4, a3
	lbu	a4, 21(a0)
	lbu	a5, 20(a0)
	lbu	a1, 22(a0)
	lbu	a3, 23(a0)
	slli	a4, a4, 8
	or	t0, a4, a5
.Lgcm_pcrel_hi39:
	auipc	t1, %pcrel_hi(.Lgcm_CPI12_0)
	slli	a1, a1, 16
	slli	a3, a3, 24
	or	a1, a1, a3
.Lgcm_pcrel_hi40:
	auipc	t2, %pcrel_hi(.Lgcm_CPI12_1)
	or	a6, a7, a6
.Lgcm_pcrel_hi41:
	auipc	a5, %pcrel_hi(.Lgcm_CPI12_2)
	or	a1, a1, t0
.Lgcm_pcrel_hi42:
	auipc	a4, %pcrel_hi(.Lgcm_CPI12_3)
	addi	a3, t1, %pcrel_lo(.Lgcm_pcrel_hi39)
	addi	a7, t2, %pcrel_lo(.Lgcm_pcrel_hi40)
	addi	a5, a5, %pcrel_lo(.Lgcm_pcrel_hi41)
	slli	a1, a1, 32
	or	t0, a1, a6
	vle8.v	v9, (t0)
	addi	a6, a4, %pcrel_lo(.Lgcm_pcrel_hi42)
	vle8.v	v10, (a3)
	vle8.v	v12, (a7)
	vxor.vv	v8, v9, v8
	vand.vi	v9, v8, 15
	vrgather.vv	v13, v10, v9
	vle8.v	v11, (a5)
	lbu	a7, 24(a0)
	lbu	a5, 25(a0)
	lbu	a4, 26(a0)
	lbu	a3, 27(a0)
	vsrl.vi	v8, v8, 4
	vrgather.vv	v9, v12, v8
	vle8.v	v10, (a6)
	slli	a5, a5, 8
	slli	a4, a4, 16
	slli	a3, a3, 24
	or	a6, a5, a7
	or	a7, a3, a4
	lbu	a4, 29(a0)
	lbu	a5, 28(a0)
	lbu	a3, 30(a0)
	lbu	a0, 31(a0)
	slli	a4, a4, 8
	or	a4, a4, a5
	slli	a3, a3, 16
	slli	a0, a0, 24
	or	a0, a0, a3
	or	a3, a7, a6
	or	a0, a0, a4
	slli	a0, a0, 32
	or	a3, a3, a0
	addi	a6, a3, -1
	li	a4, 2
	vxor.vv	v8, v9, v13
	bltu	a6, a4, .Lgcm_BB12_3
# %bb.1:                                # %join.5.i.lr.ph
.Lgcm_pcrel_hi43:
	auipc	a4, %pcrel_hi(.Lgcm_CPI12_4)
	addi	a4, a4, %pcrel_lo(.Lgcm_pcrel_hi43)
	vle8.v	v12, (a4)
.Lgcm_pcrel_hi44:
	auipc	a4, %pcrel_hi(.Lgcm_CPI12_5)
	addi	a4, a4, %pcrel_lo(.Lgcm_pcrel_hi44)
	vle8.v	v13, (a4)
.Lgcm_pcrel_hi45:
	auipc	a4, %pcrel_hi(.Lgcm_CPI12_6)
	addi	a4, a4, %pcrel_lo(.Lgcm_pcrel_hi45)
	vle8.v	v14, (a4)
.Lgcm_pcrel_hi46:
	auipc	a4, %pcrel_hi(.Lgcm_CPI12_7)
	addi	a4, a4, %pcrel_lo(.Lgcm_pcrel_hi46)
	vle8.v	v15, (a4)
	addi	a3, a3, -2
	li	a4, 16
.Lgcm_BB12_2:                               # %join.5.i
                                        # =>This Inner Loop Header: Depth=1
	add	a5, t0, a4
	andi	a0, a4, 48
.Lgcm_pcrel_hi47:
	auipc	a1, %pcrel_hi(.Lgcm_static.5)
	vle8.v	v16, (a5)
.Lgcm_pcrel_hi48:
	auipc	a5, %pcrel_hi(.Lgcm_static.6)
	addi	a1, a1, %pcrel_lo(.Lgcm_pcrel_hi47)
	addi	a5, a5, %pcrel_lo(.Lgcm_pcrel_hi48)
	add	a1, a1, a0
	add	a0, a0, a5
	vsrl.vi	v9, v8, 4
	vand.vi	v8, v8, 15
	addi	a3, a3, -1
	vxor.vv	v17, v9, v8
	vrgather.vv	v18, v11, v8
	vrgather.vv	v8, v10, v9
	vrgather.vv	v19, v10, v17
	vxor.vv	v8, v8, v18
	vxor.vv	v18, v19, v18
	vmsle.vi	v0, v8, -1
	vrgather.vv	v19, v10, v8
	vmerge.vim	v8, v19, 0, v0
	vmsle.vi	v0, v18, -1
	vrgather.vv	v19, v10, v18
	vmerge.vim	v18, v19, 0, v0
	vxor.vv	v17, v8, v17
	vmsle.vi	v8, v8, -1
	vxor.vv	v19, v18, v9
	vrgather.vv	v20, v12, v17
	vmsle.vi	v9, v18, -1
	vrgather.vv	v18, v13, v19
	vmv1r.v	v0, v9
	vmerge.vim	v18, v18, 0, v0
	vxor.vv	v20, v18, v20
	vmv1r.v	v0, v8
	vmerge.vvm	v18, v20, v18, v0
	vle8.v	v20, (a1)
	vle8.v	v21, (a0)
	vrgather.vv	v22, v14, v17
	vrgather.vv	v17, v15, v19
	vmv1r.v	v0, v9
	vmerge.vim	v17, v17, 0, v0
	vmsle.vi	v9, v20, -1
	vxor.vv	v19, v17, v22
	vmv1r.v	v0, v8
	vmerge.vvm	v8, v19, v17, v0
	vrgather.vv	v17, v18, v20
	vrgather.vv	v19, v18, v21
	vxor.vv	v17, v8, v17
	vmv1r.v	v0, v9
	vmerge.vvm	v17, v17, v8, v0
	vmsle.vi	v8, v21, -1
	vrgather.vv	v18, v17, v20
	vxor.vv	v18, v16, v18
	vmerge.vvm	v9, v18, v16, v0
	vxor.vv	v16, v9, v19
	vmv1r.v	v0, v8
	vmerge.vvm	v8, v16, v9, v0
	vxor.vv	v8, v8, v17
	addi	a4, a4, 16
	bnez	a3, .Lgcm_BB12_2
.Lgcm_BB12_3:                               # %"aes_permute::blocks::process_vector::<#06aaae76f5856d0a>.exit"
	slli	a6, a6, 4
	vsrl.vi	v9, v8, 4
	vand.vi	v12, v8, 15
	add	t0, t0, a6
	vle8.v	v8, (t0)
.Lgcm_pcrel_hi49:
	auipc	a0, %pcrel_hi(.Lgcm_CPI12_8)
	vxor.vv	v13, v9, v12
	vrgather.vv	v14, v11, v12
	vrgather.vv	v11, v10, v9
	addi	a0, a0, %pcrel_lo(.Lgcm_pcrel_hi49)
	vrgather.vv	v12, v10, v13
	vxor.vv	v11, v11, v14
	vxor.vv	v12, v12, v14
	vmsle.vi	v0, v11, -1
	vrgather.vv	v14, v10, v11
	vmerge.vim	v11, v14, 0, v0
	vle8.v	v14, (a0)
.Lgcm_pcrel_hi50:
	auipc	a0, %pcrel_hi(.Lgcm_CPI12_9)
	vrgather.vv	v15, v10, v12
	vmsle.vi	v0, v12, -1
	addi	a0, a0, %pcrel_lo(.Lgcm_pcrel_hi50)
	vmerge.vim	v10, v15, 0, v0
	vle8.v	v12, (a0)
.Lgcm_pcrel_hi51:
	auipc	a0, %pcrel_hi(.Lgcm_static.3)
	andi	a1, a6, 48
	addi	a0, a0, %pcrel_lo(.Lgcm_pcrel_hi51)
	add	a0, a0, a1
	vxor.vv	v13, v11, v13
	vrgather.vv	v15, v14, v13
	vle8.v	v13, (a0)
	vxor.vv	v9, v10, v9
	vmsle.vi	v0, v10, -1
	vrgather.vv	v10, v12, v9
	vmerge.vim	v9, v10, 0, v0
	vmsle.vi	v0, v11, -1
	vxor.vv	v10, v9, v15
	vmerge.vvm	v9, v10, v9, v0
	vrgather.vv	v10, v9, v13
	vmsle.vi	v0, v13, -1
	vxor.vv	v9, v8, v10
	vmerge.vvm	v8, v9, v8, v0
	vse8.v	v8, (a2)
	ret
.Lgcm_func_end12:
	.size	gcm.gcm.tags.put_mask, .Lgcm_func_end12-gcm.gcm.tags.put_mask
                                        # -- End function
	.section	.text.gcm.gcm.mode.BorrowedGcm.hash_so_far,"ax",@progbits
	.p2align	1                               # -- Begin function gcm::mode::BorrowedGcm::hash_so_far::<#c13ce517942629d6>
	.type	gcm.gcm.mode.BorrowedGcm.hash_so_far,@function
gcm.gcm.mode.BorrowedGcm.hash_so_far: # @gcm.gcm.mode.BorrowedGcm.hash_so_far
# %bb.0:                                # %start
	ld	a6, 24(a1)
	ld	a3, 48(a1)
	ld	a4, 56(a1)
	lui	a7, 4080
	li	a2, 255
	lui	a5, 16
	slli	t4, a2, 24
	addi	t5, a5, -256
	srli	t0, a4, 24
	srli	t1, a4, 8
	srli	t2, a4, 40
	srli	t3, a4, 56
	srli	a2, a3, 8
	and	a5, t1, t4
	and	t1, a2, t4
	and	t4, a4, a7
	and	a2, t0, a7
	or	t0, a5, a2
	srliw	a5, a4, 24
	and	a2, t2, t5
	or	t2, a2, t3
	and	a2, a4, t5
	slli	a4, a4, 56
	slli	t4, t4, 24
	slli	a5, a5, 32
	or	t3, t4, a5
	srli	a5, a3, 24
	slli	a2, a2, 40
	or	t4, a4, a2
	srli	a4, a3, 40
	and	a5, a5, a7
	or	t1, t1, a5
	srli	a2, a3, 56
	and	a5, a3, a7
	and	a4, a4, t5
	or	a7, a4, a2
	srliw	a4, a3, 24
	slli	a5, a5, 24
	slli	a4, a4, 32
	or	t6, a5, a4
	and	a5, a3, t5
	slli	a3, a3, 56
	slli	a5, a5, 40
	or	t5, a3, a5
	addi	a6, a6, -1
	snez	a5, a6
	slli	a5, a5, 3
	add	a5, a5, a1
	or	a6, t0, t2
	or	a4, t4, t3
	or	a3, t1, a7
	ld	a5, 0(a5)
	or	a2, t5, t6
	or	a6, a4, a6
	or	a2, a2, a3
	andi	a4, a5, 15
	addi	a3, a1, 64
	mv	a1, a6
	tail	gcm.gcm.hash_room.MultiplesRoomHashRoom.hash_on
.Lgcm_func_end13:
	.size	gcm.gcm.mode.BorrowedGcm.hash_so_far, .Lgcm_func_end13-gcm.gcm.mode.BorrowedGcm.hash_so_far
                                        # -- End function
	.section	.rodata.cst16,"aM",@progbits,16
	.p2align	4, 0x0                          # -- Begin function gcm::mode::put_subkey::<#a407e1eb9411991d>
.Lgcm_CPI14_0:
	.byte	0                               # 0x0
	.byte	1                               # 0x1
	.byte	28                              # 0x1c
	.byte	29                              # 0x1d
	.byte	45                              # 0x2d
	.byte	44                              # 0x2c
	.byte	49                              # 0x31
	.byte	48                              # 0x30
	.byte	39                              # 0x27
	.byte	38                              # 0x26
	.byte	59                              # 0x3b
	.byte	58                              # 0x3a
	.byte	10                              # 0xa
	.byte	11                              # 0xb
	.byte	22                              # 0x16
	.byte	23                              # 0x17
.Lgcm_CPI14_1:
	.byte	0                               # 0x0
	.byte	134                             # 0x86
	.byte	253                             # 0xfd
	.byte	123                             # 0x7b
	.byte	142                             # 0x8e
	.byte	8                               # 0x8
	.byte	115                             # 0x73
	.byte	245                             # 0xf5
	.byte	119                             # 0x77
	.byte	241                             # 0xf1
	.byte	138                             # 0x8a
	.byte	12                              # 0xc
	.byte	249                             # 0xf9
	.byte	127                             # 0x7f
	.byte	4                               # 0x4
	.byte	130                             # 0x82
.Lgcm_CPI14_2:
	.byte	128                             # 0x80
	.byte	2                               # 0x2
	.byte	1                               # 0x1
	.byte	15                              # 0xf
	.byte	9                               # 0x9
	.byte	5                               # 0x5
	.byte	14                              # 0xe
	.byte	12                              # 0xc
	.byte	13                              # 0xd
	.byte	4                               # 0x4
	.byte	11                              # 0xb
	.byte	10                              # 0xa
	.byte	7                               # 0x7
	.byte	8                               # 0x8
	.byte	6                               # 0x6
	.byte	3                               # 0x3
.Lgcm_CPI14_3:
	.byte	128                             # 0x80
	.byte	1                               # 0x1
	.byte	9                               # 0x9
	.byte	14                              # 0xe
	.byte	13                              # 0xd
	.byte	11                              # 0xb
	.byte	7                               # 0x7
	.byte	6                               # 0x6
	.byte	15                              # 0xf
	.byte	2                               # 0x2
	.byte	12                              # 0xc
	.byte	5                               # 0x5
	.byte	10                              # 0xa
	.byte	4                               # 0x4
	.byte	3                               # 0x3
	.byte	8                               # 0x8
.Lgcm_CPI14_4:
	.byte	0                               # 0x0
	.byte	195                             # 0xc3
	.byte	79                              # 0x4f
	.byte	12                              # 0xc
	.byte	252                             # 0xfc
	.byte	124                             # 0x7c
	.byte	67                              # 0x43
	.byte	128                             # 0x80
	.byte	207                             # 0xcf
	.byte	51                              # 0x33
	.byte	63                              # 0x3f
	.byte	112                             # 0x70
	.byte	191                             # 0xbf
	.byte	179                             # 0xb3
	.byte	240                             # 0xf0
	.byte	140                             # 0x8c
.Lgcm_CPI14_5:
	.byte	0                               # 0x0
	.byte	230                             # 0xe6
	.byte	114                             # 0x72
	.byte	183                             # 0xb7
	.byte	229                             # 0xe5
	.byte	198                             # 0xc6
	.byte	197                             # 0xc5
	.byte	35                              # 0x23
	.byte	81                              # 0x51
	.byte	180                             # 0xb4
	.byte	3                               # 0x3
	.byte	113                             # 0x71
	.byte	32                              # 0x20
	.byte	151                             # 0x97
	.byte	82                              # 0x52
	.byte	148                             # 0x94
.Lgcm_CPI14_6:
	.byte	0                               # 0x0
	.byte	124                             # 0x7c
	.byte	32                              # 0x20
	.byte	207                             # 0xcf
	.byte	146                             # 0x92
	.byte	1                               # 0x1
	.byte	239                             # 0xef
	.byte	147                             # 0x93
	.byte	179                             # 0xb3
	.byte	33                              # 0x21
	.byte	238                             # 0xee
	.byte	206                             # 0xce
	.byte	125                             # 0x7d
	.byte	178                             # 0xb2
	.byte	93                              # 0x5d
	.byte	92                              # 0x5c
.Lgcm_CPI14_7:
	.byte	0                               # 0x0
	.byte	209                             # 0xd1
	.byte	229                             # 0xe5
	.byte	247                             # 0xf7
	.byte	230                             # 0xe6
	.byte	37                              # 0x25
	.byte	18                              # 0x12
	.byte	195                             # 0xc3
	.byte	38                              # 0x26
	.byte	192                             # 0xc0
	.byte	55                              # 0x37
	.byte	210                             # 0xd2
	.byte	244                             # 0xf4
	.byte	3                               # 0x3
	.byte	17                              # 0x11
	.byte	52                              # 0x34
.Lgcm_CPI14_8:
	.byte	0                               # 0x0
	.byte	203                             # 0xcb
	.byte	215                             # 0xd7
	.byte	176                             # 0xb0
	.byte	33                              # 0x21
	.byte	141                             # 0x8d
	.byte	103                             # 0x67
	.byte	172                             # 0xac
	.byte	123                             # 0x7b
	.byte	90                              # 0x5a
	.byte	234                             # 0xea
	.byte	61                              # 0x3d
	.byte	70                              # 0x46
	.byte	246                             # 0xf6
	.byte	145                             # 0x91
	.byte	28                              # 0x1c
.Lgcm_CPI14_9:
	.byte	0                               # 0x0
	.byte	159                             # 0x9f
	.byte	97                              # 0x61
	.byte	22                              # 0x16
	.byte	194                             # 0xc2
	.byte	42                              # 0x2a
	.byte	119                             # 0x77
	.byte	232                             # 0xe8
	.byte	137                             # 0x89
	.byte	75                              # 0x4b
	.byte	93                              # 0x5d
	.byte	60                              # 0x3c
	.byte	181                             # 0xb5
	.byte	163                             # 0xa3
	.byte	212                             # 0xd4
	.byte	254                             # 0xfe
	.section	.text.gcm.gcm.mode.put_subkey,"ax",@progbits
	.p2align	1
	.type	gcm.gcm.mode.put_subkey,@function
gcm.gcm.mode.put_subkey: # @gcm.gcm.mode.put_subkey
# %bb.0:                                # %start
	addi	sp, sp, -80
	sd	ra, 72(sp)                      # 8-byte Folded Spill
	sd	s0, 64(sp)                      # 8-byte Folded Spill
	sd	s1, 56(sp)                      # 8-byte Folded Spill
	sd	s2, 48(sp)                      # 8-byte Folded Spill
	sd	s3, 40(sp)                      # 8-byte Folded Spill
	sd	s4, 32(sp)                      # 8-byte Folded Spill
	sd	s5, 24(sp)                      # 8-byte Folded Spill
	mv	s2, a2
	vsetivli	zero, 2, e64, m1, ta, ma
	vmv.v.i	v8, 0
	mv	a6, sp
	vsetivli	zero, 16, e8, m1, ta, ma
	vle8.v	v9, (a0)
.Lgcm_pcrel_hi52:
	auipc	a3, %pcrel_hi(.Lgcm_CPI14_0)
.Lgcm_pcrel_hi53:
	auipc	a4, %pcrel_hi(.Lgcm_CPI14_1)
	addi	a3, a3, %pcrel_lo(.Lgcm_pcrel_hi52)
	vle8.v	v10, (a3)
.Lgcm_pcrel_hi54:
	auipc	a3, %pcrel_hi(.Lgcm_CPI14_2)
	addi	a4, a4, %pcrel_lo(.Lgcm_pcrel_hi53)
	vle8.v	v12, (a4)
.Lgcm_pcrel_hi55:
	auipc	a4, %pcrel_hi(.Lgcm_CPI14_3)
	vsetivli	zero, 2, e64, m1, ta, ma
	vse64.v	v8, (a6)
	addi	a3, a3, %pcrel_lo(.Lgcm_pcrel_hi54)
	addi	a4, a4, %pcrel_lo(.Lgcm_pcrel_hi55)
	vsetivli	zero, 16, e8, m1, ta, ma
	vand.vi	v8, v9, 15
	vrgather.vv	v13, v10, v8
	vle8.v	v11, (a3)
	vsrl.vi	v8, v9, 4
	vrgather.vv	v9, v12, v8
	vle8.v	v10, (a4)
	addi	a3, a1, -1
	li	a4, 2
	vxor.vv	v8, v9, v13
	bltu	a3, a4, .Lgcm_BB14_3
# %bb.1:                                # %join.5.i.lr.ph
.Lgcm_pcrel_hi56:
	auipc	a4, %pcrel_hi(.Lgcm_CPI14_4)
	addi	a4, a4, %pcrel_lo(.Lgcm_pcrel_hi56)
	vle8.v	v12, (a4)
.Lgcm_pcrel_hi57:
	auipc	a4, %pcrel_hi(.Lgcm_CPI14_5)
	addi	a4, a4, %pcrel_lo(.Lgcm_pcrel_hi57)
	vle8.v	v13, (a4)
.Lgcm_pcrel_hi58:
	auipc	a4, %pcrel_hi(.Lgcm_CPI14_6)
	addi	a4, a4, %pcrel_lo(.Lgcm_pcrel_hi58)
	vle8.v	v14, (a4)
.Lgcm_pcrel_hi59:
	auipc	a4, %pcrel_hi(.Lgcm_CPI14_7)
	addi	a4, a4, %pcrel_lo(.Lgcm_pcrel_hi59)
	vle8.v	v15, (a4)
	addi	a1, a1, -2
	li	a4, 16
.Lgcm_BB14_2:                               # %join.5.i
                                        # =>This Inner Loop Header: Depth=1
	add	a5, a0, a4
	andi	s1, a4, 48
.Lgcm_pcrel_hi60:
	auipc	s0, %pcrel_hi(.Lgcm_static.5)
	vle8.v	v16, (a5)
.Lgcm_pcrel_hi61:
	auipc	a5, %pcrel_hi(.Lgcm_static.6)
	addi	s0, s0, %pcrel_lo(.Lgcm_pcrel_hi60)
	addi	a5, a5, %pcrel_lo(.Lgcm_pcrel_hi61)
	add	s0, s0, s1
	add	a5, a5, s1
	vsrl.vi	v9, v8, 4
	vand.vi	v8, v8, 15
	addi	a1, a1, -1
	vxor.vv	v17, v9, v8
	vrgather.vv	v18, v11, v8
	vrgather.vv	v8, v10, v9
	vrgather.vv	v19, v10, v17
	vxor.vv	v8, v8, v18
	vxor.vv	v18, v19, v18
	vmsle.vi	v0, v8, -1
	vrgather.vv	v19, v10, v8
	vmerge.vim	v8, v19, 0, v0
	vmsle.vi	v0, v18, -1
	vrgather.vv	v19, v10, v18
	vmerge.vim	v18, v19, 0, v0
	vxor.vv	v17, v8, v17
	vmsle.vi	v8, v8, -1
	vxor.vv	v19, v18, v9
	vrgather.vv	v20, v12, v17
	vmsle.vi	v9, v18, -1
	vrgather.vv	v18, v13, v19
	vmv1r.v	v0, v9
	vmerge.vim	v18, v18, 0, v0
	vxor.vv	v20, v18, v20
	vmv1r.v	v0, v8
	vmerge.vvm	v18, v20, v18, v0
	vle8.v	v20, (s0)
	vle8.v	v21, (a5)
	vrgather.vv	v22, v14, v17
	vrgather.vv	v17, v15, v19
	vmv1r.v	v0, v9
	vmerge.vim	v17, v17, 0, v0
	vmsle.vi	v9, v20, -1
	vxor.vv	v19, v17, v22
	vmv1r.v	v0, v8
	vmerge.vvm	v8, v19, v17, v0
	vrgather.vv	v17, v18, v20
	vrgather.vv	v19, v18, v21
	vxor.vv	v17, v8, v17
	vmv1r.v	v0, v9
	vmerge.vvm	v17, v17, v8, v0
	vmsle.vi	v8, v21, -1
	vrgather.vv	v18, v17, v20
	vxor.vv	v18, v16, v18
	vmerge.vvm	v9, v18, v16, v0
	vxor.vv	v16, v9, v19
	vmv1r.v	v0, v8
	vmerge.vvm	v8, v16, v9, v0
	vxor.vv	v8, v8, v17
	addi	a4, a4, 16
	bnez	a1, .Lgcm_BB14_2
.Lgcm_BB14_3:                               # %"aes_permute::blocks::process_vector::<#06aaae76f5856d0a>.exit"
	slli	a3, a3, 4
	vsrl.vi	v9, v8, 4
	vand.vi	v8, v8, 15
.Lgcm_pcrel_hi62:
	auipc	a4, %pcrel_hi(.Lgcm_CPI14_8)
.Lgcm_pcrel_hi63:
	auipc	a5, %pcrel_hi(.Lgcm_CPI14_9)
.Lgcm_pcrel_hi64:
	auipc	s1, %pcrel_hi(.Lgcm_static.3)
	lui	t0, 16
	lui	a7, 4080
	li	a2, 255
	add	a0, a0, a3
	vxor.vv	v12, v9, v8
	vrgather.vv	v13, v11, v8
	vrgather.vv	v8, v10, v9
	addi	a1, a4, %pcrel_lo(.Lgcm_pcrel_hi62)
	addi	a5, a5, %pcrel_lo(.Lgcm_pcrel_hi63)
	andi	s0, a3, 48
	addi	s1, s1, %pcrel_lo(.Lgcm_pcrel_hi64)
	addi	a4, t0, -256
	slli	t0, a2, 24
	vle8.v	v11, (a0)
	vrgather.vv	v14, v10, v12
	vxor.vv	v8, v8, v13
	vxor.vv	v13, v14, v13
	vmsle.vi	v0, v8, -1
	vrgather.vv	v14, v10, v8
	vmerge.vim	v8, v14, 0, v0
	vrgather.vv	v14, v10, v13
	vmsle.vi	v0, v13, -1
	vle8.v	v10, (a1)
	vmerge.vim	v13, v14, 0, v0
	vle8.v	v14, (a5)
	add	s0, s0, s1
	vxor.vv	v12, v8, v12
	vrgather.vv	v15, v10, v12
	vle8.v	v10, (s0)
	vxor.vv	v9, v13, v9
	vmsle.vi	v0, v13, -1
	vrgather.vv	v12, v14, v9
	vmerge.vim	v9, v12, 0, v0
	vmsle.vi	v0, v8, -1
	vxor.vv	v8, v9, v15
	vmerge.vvm	v8, v8, v9, v0
	vmsle.vi	v0, v10, -1
	vrgather.vv	v9, v8, v10
	vxor.vv	v8, v11, v9
	vmerge.vvm	v8, v8, v11, v0
	vse8.v	v8, (a6)
	vsetivli	zero, 1, e64, m1, ta, ma
	vslidedown.vi	v9, v8, 1
	vmv.x.s	a0, v8
	vmv.x.s	a5, v9
	srli	a1, a0, 40
	srli	a2, a0, 56
	srli	s1, a0, 24
	srli	s0, a0, 8
	and	a1, a1, a4
	or	a1, a1, a2
	srliw	a2, a0, 24
	and	s1, s1, a7
	and	s0, s0, t0
	or	s0, s0, s1
	and	s1, a0, a7
	slli	a2, a2, 32
	slli	s1, s1, 24
	or	a3, s1, a2
	slli	s1, a0, 56
	and	a0, a0, a4
	slli	a0, a0, 40
	or	a0, a0, s1
	srli	a2, a5, 8
	and	a2, a2, t0
	or	a1, a1, s0
	srli	s1, a5, 40
	or	a0, a0, a3
	srli	a3, a5, 56
	and	s1, s1, a4
	or	s1, s1, a3
	srli	a3, a5, 24
	and	a3, a3, a7
	or	a2, a2, a3
	srliw	a3, a5, 24
	and	s0, a5, a7
	slli	a3, a3, 32
	slli	s0, s0, 24
	or	a3, a3, s0
	addi	s3, s2, 512
	and	a4, a4, a5
	slli	a5, a5, 56
	slli	a4, a4, 40
	or	a4, a4, a5
	or	s0, a0, a1
	or	a2, a2, s1
	or	a3, a3, a4
	or	s1, a3, a2
	addi	s4, s2, 1024
	mv	a0, s2
	mv	a1, s1
	mv	a2, s0
	call	gcm.gcm.multiples.put_table
	mv	a0, s2
	mv	a1, s1
	mv	a2, s0
	call	gcm.gcm.multiples.next_power
	mv	s0, a0
	mv	s1, a1
	mv	a0, s2
	mv	a1, s0
	mv	a2, s1
	call	gcm.gcm.multiples.next_power
	mv	s2, a0
	mv	s5, a1
	mv	a0, s3
	mv	a1, s0
	mv	a2, s1
	call	gcm.gcm.multiples.put_table
	mv	a0, s4
	mv	a1, s2
	mv	a2, s5
	call	gcm.gcm.multiples.put_table
	mv	a0, sp
	call	gcm.aes_cipher.zeroize.elements.zeroize_elements.3
	ld	ra, 72(sp)                      # 8-byte Folded Reload
	ld	s0, 64(sp)                      # 8-byte Folded Reload
	ld	s1, 56(sp)                      # 8-byte Folded Reload
	ld	s2, 48(sp)                      # 8-byte Folded Reload
	ld	s3, 40(sp)                      # 8-byte Folded Reload
	ld	s4, 32(sp)                      # 8-byte Folded Reload
	ld	s5, 24(sp)                      # 8-byte Folded Reload
	addi	sp, sp, 80
	ret
.Lgcm_func_end14:
	.size	gcm.gcm.mode.put_subkey, .Lgcm_func_end14-gcm.gcm.mode.put_subkey
                                        # -- End function
	.section	.rodata.cst32,"aM",@progbits,32
	.p2align	5, 0x0                          # -- Begin function gcm::multiples::next_power
.Lgcm_CPI15_0:
	.byte	15                              # 0xf
	.byte	14                              # 0xe
	.byte	13                              # 0xd
	.byte	12                              # 0xc
	.byte	11                              # 0xb
	.byte	10                              # 0xa
	.byte	9                               # 0x9
	.byte	8                               # 0x8
	.byte	7                               # 0x7
	.byte	6                               # 0x6
	.byte	5                               # 0x5
	.byte	4                               # 0x4
	.byte	3                               # 0x3
	.byte	2                               # 0x2
	.byte	1                               # 0x1
	.byte	0                               # 0x0
	.byte	15                              # 0xf
	.byte	14                              # 0xe
	.byte	13                              # 0xd
	.byte	12                              # 0xc
	.byte	11                              # 0xb
	.byte	10                              # 0xa
	.byte	9                               # 0x9
	.byte	8                               # 0x8
	.byte	7                               # 0x7
	.byte	6                               # 0x6
	.byte	5                               # 0x5
	.byte	4                               # 0x4
	.byte	3                               # 0x3
	.byte	2                               # 0x2
	.byte	1                               # 0x1
	.byte	0                               # 0x0
	.section	.text.gcm.gcm.multiples.next_power,"ax",@progbits
	.p2align	1
	.type	gcm.gcm.multiples.next_power,@function
gcm.gcm.multiples.next_power:           # @gcm.gcm.multiples.next_power
# %bb.0:                                # %start
	addi	sp, sp, -32
	sd	s0, 24(sp)                      # 8-byte Folded Spill
	sd	s1, 16(sp)                      # 8-byte Folded Spill
	sd	s2, 8(sp)                       # 8-byte Folded Spill
	addi	a6, a0, 16
	vsetivli	zero, 2, e64, m1, ta, ma
	vmv.v.x	v8, a1
	li	s2, 32
.Lgcm_pcrel_hi65:
	auipc	a3, %pcrel_hi(.Lgcm_CPI15_0)
	addi	t0, a0, 224
	addi	a5, a0, 480
	addi	s0, a0, 496
	addi	a7, a0, 240
	addi	t1, a0, 192
	addi	a4, a0, 448
	addi	a1, a0, 464
	vslide1down.vx	v12, v8, a2
	addi	a2, a0, 208
	vsetivli	zero, 16, e8, m1, ta, ma
	vle8.v	v22, (a5)
	lui	a5, 16352
	vle8.v	v24, (s0)
	lui	t2, 1048560
	vle8.v	v25, (t0)
	addi	t3, a0, 160
	vle8.v	v29, (a7)
	addi	s0, a0, 416
	vle8.v	v23, (a4)
	addi	a4, a0, 432
	vle8.v	v26, (a1)
	addi	t6, a0, 176
	vle8.v	v27, (t1)
	lui	t5, 32736
	vle8.v	v28, (a2)
	addi	t0, a0, 128
	vle8.v	v9, (s0)
	addi	a1, a0, 384
	addi	a2, a3, %pcrel_lo(.Lgcm_pcrel_hi65)
	vsetvli	zero, s2, e32, m8, ta, ma
	vle8.v	v14, (a2)
	addi	t4, a0, 400
	addi	a2, a5, 1022
	vmv.s.x	v0, a2
	addi	t1, a0, 144
	vsetvli	zero, zero, e8, m2, ta, ma
	vmv.v.i	v10, 0
	addi	t2, t2, -2
	vsetvli	zero, zero, e32, m8, ta, ma
	vmv.s.x	v8, t2
	vsetvli	a2, zero, e8, m1, ta, ma
	vrgather.vv	v18, v12, v14
	lui	t2, 65505
	vmv2r.v	v20, v10
	vmv.v.v	v19, v18
	vsetvli	zero, s2, e8, m2, ta, ma
	vsrl.vi	v16, v18, 4
	vand.vi	v18, v18, 15
	vsetivli	zero, 16, e8, m2, ta, ma
	vslidedown.vi	v12, v16, 16
	vslidedown.vi	v14, v18, 16
	vsetivli	zero, 16, e8, m1, ta, ma
	vrgather.vv	v13, v22, v18
	vrgather.vv	v15, v25, v16
	vrgather.vv	v17, v24, v14
	vrgather.vv	v19, v29, v12
	vxor.vv	v30, v15, v13
	vxor.vv	v24, v19, v17
	vsetvli	zero, s2, e8, m2, ta, mu
	vslideup.vi	v30, v24, 16
	vslidedown.vi	v24, v30, 15
	vslideup.vi	v24, v10, 1, v0.t
	vmv1r.v	v0, v8
	vslideup.vi	v20, v30, 1, v0.t
	vsetivli	zero, 16, e8, m1, ta, ma
	vle8.v	v15, (a4)
	addi	a7, a0, 96
	vle8.v	v19, (t3)
	addi	a3, a0, 352
	vle8.v	v29, (t6)
	addi	t3, a0, 368
	vrgather.vv	v13, v23, v18
	vrgather.vv	v17, v27, v16
	vrgather.vv	v23, v26, v14
	vrgather.vv	v26, v28, v12
	vxor.vv	v22, v17, v13
	vxor.vv	v26, v26, v23
	vsetvli	zero, s2, e8, m2, ta, ma
	vslideup.vi	v22, v26, 16
	vsetivli	zero, 16, e32, m4, ta, ma
	vle8.v	v13, (a1)
	addi	t6, a0, 112
	addi	a1, t5, 2046
	vmv.s.x	v0, a1
	lui	t5, 131042
	vsetvli	zero, s2, e8, m2, ta, mu
	vxor.vv	v26, v22, v20
	vslidedown.vi	v22, v26, 15
	vslideup.vi	v22, v24, 1, v0.t
	vmv2r.v	v20, v10
	vmv1r.v	v0, v8
	vslideup.vi	v20, v26, 1, v0.t
	vsetivli	zero, 16, e8, m1, ta, ma
	vle8.v	v17, (t4)
	addi	t4, a0, 64
	vle8.v	v28, (t0)
	addi	s0, a0, 320
	vle8.v	v30, (t1)
	addi	a2, a0, 336
	vrgather.vv	v24, v9, v18
	vrgather.vv	v9, v19, v16
	vrgather.vv	v19, v15, v14
	vrgather.vv	v15, v29, v12
	vxor.vv	v24, v9, v24
	vxor.vv	v26, v15, v19
	vsetvli	zero, s2, e8, m2, ta, ma
	vslideup.vi	v24, v26, 16
	vsetivli	zero, 16, e32, m4, ta, ma
	vle8.v	v9, (a3)
	addi	a5, a0, 80
	addi	t2, t2, -2
	vmv.s.x	v0, t2
	lui	t0, 262116
	vsetvli	zero, s2, e8, m2, ta, mu
	vxor.vv	v24, v24, v20
	vslidedown.vi	v20, v24, 15
	vslideup.vi	v20, v22, 1, v0.t
	vmv2r.v	v22, v10
	vmv1r.v	v0, v8
	vslideup.vi	v22, v24, 1, v0.t
	vsetivli	zero, 16, e8, m1, ta, ma
	vle8.v	v15, (t3)
	addi	a3, a0, 32
	vle8.v	v19, (a7)
	addi	a1, a0, 288
	vle8.v	v29, (t6)
	addi	a4, a0, 304
	vrgather.vv	v24, v13, v18
	vrgather.vv	v13, v28, v16
	vrgather.vv	v25, v17, v14
	vrgather.vv	v17, v30, v12
	vxor.vv	v24, v13, v24
	vxor.vv	v26, v17, v25
	vsetvli	zero, s2, e8, m2, ta, ma
	vslideup.vi	v24, v26, 16
	vsetivli	zero, 16, e32, m4, ta, ma
	vle8.v	v17, (s0)
	addi	s0, a0, 48
	addi	t5, t5, -2
	vmv.s.x	v0, t5
	addi	s1, a0, 256
	vsetvli	zero, s2, e8, m2, ta, mu
	vxor.vv	v22, v24, v22
	vslidedown.vi	v24, v22, 15
	vslideup.vi	v24, v20, 1, v0.t
	vmv2r.v	v20, v10
	vmv1r.v	v0, v8
	vslideup.vi	v20, v22, 1, v0.t
	vsetivli	zero, 16, e8, m1, ta, ma
	vle8.v	v28, (a0)
	addi	a0, a0, 272
	vle8.v	v30, (a2)
	vle8.v	v31, (t4)
	vrgather.vv	v13, v9, v18
	vrgather.vv	v9, v19, v16
	vrgather.vv	v19, v15, v14
	vrgather.vv	v15, v29, v12
	vxor.vv	v22, v9, v13
	vxor.vv	v26, v15, v19
	vsetvli	zero, s2, e8, m2, ta, ma
	vslideup.vi	v22, v26, 16
	vsetivli	zero, 16, e32, m4, ta, ma
	vle8.v	v19, (a5)
	addi	t0, t0, -2
	vmv.s.x	v0, t0
	vsetvli	zero, s2, e8, m2, ta, mu
	vxor.vv	v22, v22, v20
	vslidedown.vi	v20, v22, 15
	vslideup.vi	v20, v24, 1, v0.t
	vsetivli	zero, 16, e8, m1, ta, ma
	vle8.v	v15, (a1)
	vle8.v	v24, (s1)
	vle8.v	v25, (a3)
	vrgather.vv	v13, v17, v18
	vrgather.vv	v9, v15, v18
	vrgather.vv	v26, v24, v18
	vle8.v	v27, (a4)
	vle8.v	v29, (s0)
	vrgather.vv	v17, v31, v16
	vrgather.vv	v15, v25, v16
	vrgather.vv	v31, v28, v16
	vle8.v	v25, (a0)
	vle8.v	v28, (a6)
	vrgather.vv	v24, v30, v14
	vrgather.vv	v18, v27, v14
	vrgather.vv	v16, v25, v14
	vrgather.vv	v25, v19, v12
	vrgather.vv	v19, v29, v12
	vrgather.vv	v14, v28, v12
	lui	a2, 524264
	vmv.v.i	v12, 0
	lui	a1, 16
	lui	a6, 4080
	li	a3, 255
	vxor.vv	v27, v31, v26
	vid.v	v26
	addi	a4, a2, -2
	addi	t0, a1, -256
	slli	a7, a3, 24
	vrsub.vi	v26, v26, 15
	vxor.vv	v28, v17, v13
	vxor.vv	v24, v25, v24
	vsetvli	zero, s2, e8, m2, ta, ma
	vslideup.vi	v28, v24, 16
	vmv2r.v	v24, v10
	vsetivli	zero, 16, e8, m1, ta, ma
	vxor.vv	v30, v15, v9
	vxor.vv	v18, v19, v18
	vsetvli	zero, s2, e8, m2, ta, ma
	vslideup.vi	v30, v18, 16
	vmv2r.v	v18, v10
	vsetivli	zero, 16, e8, m1, ta, ma
	vxor.vv	v13, v14, v16
	vmv1r.v	v0, v8
	vsetvli	zero, s2, e8, m2, ta, mu
	vslideup.vi	v24, v22, 1, v0.t
	vsetvli	zero, zero, e32, m8, ta, ma
	vmv.s.x	v0, a4
	vsetvli	zero, zero, e8, m2, ta, mu
	vxor.vv	v14, v28, v24
	vslidedown.vi	v16, v14, 15
	vslideup.vi	v16, v20, 1, v0.t
	vmv1r.v	v0, v8
	vslideup.vi	v18, v14, 1, v0.t
	vxor.vv	v14, v30, v18
	vslidedown.vi	v18, v14, 15
	vslideup.vi	v18, v16, 1, v0.t
	vslideup.vi	v10, v14, 1, v0.t
	vsetivli	zero, 16, e8, m1, ta, ma
	vxor.vv	v14, v27, v10
	vsetivli	zero, 16, e8, m2, ta, ma
	vslidedown.vi	v8, v10, 16
	vslidedown.vi	v10, v18, 16
	vsetivli	zero, 16, e8, m1, ta, ma
	vxor.vv	v8, v13, v8
	vslideup.vi	v12, v8, 8
	vslidedown.vi	v9, v8, 8
	vxor.vv	v8, v12, v14
	vslideup.vi	v9, v10, 8
	vxor.vv	v9, v9, v18
	vsetivli	zero, 2, e64, m1, ta, ma
	vslidedown.vi	v10, v9, 1
	vmv.x.s	a1, v9
	vmv.x.s	a4, v10
	srli	a5, a1, 40
	srli	s1, a1, 56
	srli	s0, a1, 24
	srli	a0, a1, 8
	srliw	a3, a1, 24
	and	a2, a1, a6
	slli	t1, a1, 56
	and	a1, a1, t0
	and	t2, a5, t0
	and	s0, s0, a6
	and	a0, a0, a7
	slli	a3, a3, 32
	slli	a2, a2, 24
	slli	a1, a1, 40
	or	a0, a0, s0
	srli	t3, a4, 40
	or	a2, a2, a3
	srli	a3, a4, 56
	or	a1, t1, a1
	srli	a5, a4, 24
	or	s0, t2, s1
	or	t1, a0, s0
	srli	s0, a4, 8
	or	a1, a1, a2
	srliw	a2, a4, 24
	and	a0, t3, t0
	or	a0, a0, a3
	and	a3, a4, a6
	and	a5, a5, a6
	and	s0, s0, a7
	or	a5, a5, s0
	slli	s0, a4, 56
	and	a4, a4, t0
	slli	a2, a2, 32
	slli	a3, a3, 24
	or	a2, a2, a3
	slli	t2, s1, 63
	slli	a4, a4, 40
	or	a4, a4, s0
	slli	s0, s1, 62
	slli	s1, s1, 57
	or	a1, a1, t1
	or	a0, a0, a5
	or	a2, a2, a4
	or	a0, a0, a2
	srli	a2, a1, 1
	srli	a4, a1, 2
	srli	a5, a1, 7
	srli	a3, a0, 1
	xor	a2, a2, a4
	srli	a4, a0, 2
	xor	a1, a1, a5
	srli	a5, a0, 7
	or	a3, a3, t2
	or	a4, a4, s0
	or	a5, a5, s1
	xor	a1, a1, a2
	xor	a3, a3, a4
	xor	a0, a0, a5
	xor	a0, a0, a3
	vmv.v.x	v9, a0
	vslide1down.vx	v9, v9, a1
	vsetivli	zero, 16, e8, m1, ta, ma
	vrgather.vv	v10, v9, v26
	vxor.vv	v8, v8, v10
	vsetivli	zero, 1, e64, m1, ta, ma
	vslidedown.vi	v9, v8, 1
	vmv.x.s	a0, v8
	vmv.x.s	a1, v9
	srli	a2, a0, 40
	srli	t1, a0, 56
	srli	a4, a0, 24
	srli	a5, a0, 8
	srliw	s1, a0, 24
	and	s0, a0, a6
	slli	a3, a0, 56
	and	a0, a0, t0
	and	a2, a2, t0
	and	a4, a4, a6
	and	a5, a5, a7
	slli	s1, s1, 32
	slli	s0, s0, 24
	slli	a0, a0, 40
	or	t1, a2, t1
	srli	a2, a1, 40
	or	t2, a5, a4
	srli	t3, a1, 56
	or	t4, s0, s1
	srli	s1, a1, 24
	or	t5, a3, a0
	srli	a3, a1, 8
	and	a7, a3, a7
	srliw	a4, a1, 24
	and	s1, s1, a6
	and	a5, a1, a6
	and	a2, a2, t0
	and	s0, a1, t0
	slli	a3, a1, 56
	slli	a4, a4, 32
	slli	a5, a5, 24
	slli	s0, s0, 40
	or	a0, t2, t1
	or	a1, t5, t4
	or	a2, a2, t3
	or	s1, a7, s1
	or	a4, a4, a5
	or	a3, a3, s0
	or	a1, a1, a0
	or	a2, a2, s1
	or	a0, a3, a4
	or	a0, a0, a2
	ld	s0, 24(sp)                      # 8-byte Folded Reload
	ld	s1, 16(sp)                      # 8-byte Folded Reload
	ld	s2, 8(sp)                       # 8-byte Folded Reload
	addi	sp, sp, 32
	ret
.Lgcm_func_end15:
	.size	gcm.gcm.multiples.next_power, .Lgcm_func_end15-gcm.gcm.multiples.next_power
                                        # -- End function
	.section	.rodata.cst16,"aM",@progbits,16
	.p2align	4, 0x0                          # -- Begin function gcm::multiples::put_table
.Lgcm_CPI16_0:
	.byte	0                               # 0x0
	.byte	28                              # 0x1c
	.byte	56                              # 0x38
	.byte	36                              # 0x24
	.byte	112                             # 0x70
	.byte	108                             # 0x6c
	.byte	72                              # 0x48
	.byte	84                              # 0x54
	.byte	225                             # 0xe1
	.byte	253                             # 0xfd
	.byte	217                             # 0xd9
	.byte	197                             # 0xc5
	.byte	145                             # 0x91
	.byte	141                             # 0x8d
	.byte	169                             # 0xa9
	.byte	181                             # 0xb5
	.section	.text.gcm.gcm.multiples.put_table,"ax",@progbits
	.p2align	1
	.type	gcm.gcm.multiples.put_table,@function
gcm.gcm.multiples.put_table:            # @gcm.gcm.multiples.put_table
# %bb.0:                                # %start
	li	a4, 0
	addi	t4, a0, 16
	slli	a6, a2, 63
	srli	a7, a1, 1
	srli	t2, a2, 1
	slli	t0, a1, 63
	li	t1, -31
	slli	t3, a1, 62
	slli	t5, a1, 61
	vsetivli	zero, 2, e64, m1, ta, ma
	vmv.v.x	v8, a1
	vsetivli	zero, 16, e8, m1, ta, ma
	vid.v	v30
	or	a1, a7, a6
	srai	a7, t0, 63
	slli	t1, t1, 56
	slli	a6, t2, 63
	srai	a5, t3, 63
	srai	t0, t5, 63
	vsetivli	zero, 2, e64, m1, ta, ma
	vslide1down.vx	v8, v8, a2
	vsetivli	zero, 16, e8, m1, ta, ma
	vrsub.vi	v13, v30, 15
	and	a2, a7, t1
	srli	a3, a1, 1
	and	t3, a5, t1
	and	a7, t0, t1
	vrgather.vv	v9, v8, v13
	vsetivli	zero, 2, e64, m1, ta, ma
	vmv.v.x	v8, a1
	xor	a1, a2, t2
	or	a2, a3, a6
	srli	a3, a1, 1
	srli	a5, a2, 1
	vslide1down.vx	v8, v8, a1
	vmv.v.x	v11, a2
	xor	a1, a3, t3
	slli	a3, a3, 63
	vsetivli	zero, 16, e8, m1, ta, ma
	vrgather.vv	v10, v8, v13
	or	a3, a3, a5
	srli	a2, a1, 1
	vsetivli	zero, 2, e64, m1, ta, ma
	vslide1down.vx	v8, v11, a1
	xor	a1, a2, a7
	vsetivli	zero, 16, e8, m1, ta, ma
	vrgather.vv	v11, v8, v13
	vsetivli	zero, 2, e64, m1, ta, ma
	vmv.v.x	v8, a3
	vslide1down.vx	v8, v8, a1
	vsetivli	zero, 16, e8, m1, ta, ma
	vrgather.vv	v12, v8, v13
	mv	a2, a0
.Lgcm_BB16_1:                               # %join.5.i499
                                        # =>This Inner Loop Header: Depth=1
	li	a1, 255
	vsetivli	zero, 16, e8, m1, ta, ma
	vmv.v.i	v8, 0
	li	a3, -128
	vsll.vi	v13, v30, 7
	vsetvli	zero, zero, e16, m2, ta, ma
	vmv.s.x	v0, a1
	li	a1, 128
	vsetvli	zero, zero, e8, m1, ta, ma
	vrsub.vx	v13, v13, a1
	lui	a1, 65793
	vmerge.vxm	v14, v8, a3, v0
	lui	a3, 8
	addi	a3, a3, 128
	vsetivli	zero, 4, e32, m1, ta, ma
	vmv.v.x	v15, a3
	ori	a3, a4, 8
	slli	a1, a1, 3
	addi	a1, a1, 128
	vsetivli	zero, 2, e64, m1, ta, ma
	vmv.v.x	v16, a1
	li	a1, 32
	vsetivli	zero, 16, e8, m1, ta, ma
	vor.vx	v17, v13, a3
	vor.vx	v18, v14, a3
	vor.vx	v19, v15, a3
	vor.vx	v20, v16, a3
	li	a3, 8
	vor.vx	v13, v13, a4
	vor.vx	v14, v14, a4
	vor.vx	v15, v15, a4
	vrgather.vv	v21, v12, v13
	vrgather.vv	v22, v12, v17
	vor.vx	v16, v16, a4
	vmsle.vi	v0, v16, -1
	vrgather.vv	v23, v10, v16
	vmerge.vim	v16, v23, 0, v0
	vrgather.vv	v23, v9, v14
	vmsle.vi	v0, v14, -1
	vxor.vv	v14, v16, v23
	vmerge.vvm	v14, v14, v16, v0
	vrgather.vv	v16, v11, v15
	vrgather.vv	v23, v9, v18
	vmsle.vi	v0, v15, -1
	vxor.vv	v15, v14, v16
	vmerge.vvm	v14, v15, v14, v0
	vrgather.vv	v15, v11, v19
	addi	a4, a4, 1
	vmsle.vi	v0, v13, -1
	vxor.vv	v13, v14, v21
	vmerge.vvm	v14, v13, v14, v0
	vmsle.vi	v0, v20, -1
	vrgather.vv	v13, v10, v20
	vmerge.vim	v13, v13, 0, v0
	vmsle.vi	v0, v18, -1
	vxor.vv	v16, v13, v23
	vmerge.vvm	v13, v16, v13, v0
	vmsle.vi	v0, v19, -1
	vxor.vv	v15, v13, v15
	vmerge.vvm	v13, v15, v13, v0
	vmsle.vi	v0, v17, -1
	vxor.vv	v15, v13, v22
	vmerge.vvm	v16, v15, v13, v0
	vsetvli	zero, a1, e8, m2, ta, ma
	vslideup.vi	v14, v16, 16
	vse8.v	v14, (a2)
	addi	a2, a2, 32
	bne	a4, a3, .Lgcm_BB16_1
# %bb.2:                                # %"gcm::multiples::put_rows.exit"
	addi	a6, t4, 224
	addi	a7, t4, 208
	vsetivli	zero, 16, e8, m1, ta, ma
	vle8.v	v10, (a0)
	vle8.v	v14, (t4)
	addi	a0, t4, 16
	addi	a3, t4, 32
	addi	a5, t4, 48
	addi	a2, t4, 64
	vle8.v	v12, (a0)
	addi	a4, t4, 80
	vle8.v	v22, (a3)
	addi	a3, t4, 96
	vle8.v	v16, (a5)
	addi	a5, t4, 112
	vle8.v	v24, (a2)
	addi	a0, t4, 128
	vle8.v	v18, (a4)
	addi	a2, t4, 144
	vle8.v	v28, (a3)
	addi	a3, t4, 160
	vle8.v	v20, (a2)
	addi	a2, t4, 176
	vle8.v	v26, (a7)
	vsetvli	zero, a1, e8, m2, ta, ma
	vslideup.vi	v8, v26, 16
	vsetivli	zero, 16, e8, m1, ta, ma
	vle8.v	v6, (a3)
	addi	a3, t4, 192
	vsetvli	zero, a1, e8, m2, ta, ma
	vslideup.vi	v10, v14, 16
	vsetivli	zero, 16, e8, m1, ta, ma
	vle8.v	v26, (a5)
	vsetvli	zero, a1, e8, m2, ta, ma
	vslideup.vi	v12, v22, 16
	vsetivli	zero, 16, e8, m1, ta, ma
	vle8.v	v14, (a0)
	vsetvli	zero, a1, e8, m2, ta, ma
	vslideup.vi	v16, v24, 16
	vsetivli	zero, 16, e8, m1, ta, ma
	vle8.v	v22, (a5)
	vsetvli	zero, a1, e8, m2, ta, ma
	vslideup.vi	v18, v28, 16
	vsetivli	zero, 16, e8, m1, ta, ma
	vle8.v	v24, (a0)
	vsetvli	zero, a1, e8, m2, ta, ma
	vslideup.vi	v26, v14, 16
	vsetivli	zero, 16, e8, m1, ta, ma
	vle8.v	v14, (a2)
	vsetvli	zero, a1, e8, m2, ta, ma
	vslideup.vi	v20, v6, 16
	vsetivli	zero, 16, e8, m1, ta, ma
	vle8.v	v28, (a3)
	vsetvli	zero, a1, e8, m2, ta, ma
	vslideup.vi	v22, v24, 16
	vsetivli	zero, 16, e8, m1, ta, ma
	vle8.v	v24, (a7)
	vsetvli	zero, a1, e8, m2, ta, ma
	vslideup.vi	v14, v28, 16
	vsetivli	zero, 16, e8, m1, ta, ma
	vle8.v	v28, (a6)
	vsetvli	zero, a1, e8, m2, ta, ma
	vsll.vi	v8, v8, 4
	vslideup.vi	v24, v28, 16
	vsrl.vi	v28, v10, 4
	vsll.vi	v10, v10, 4
	vor.vv	v8, v8, v28
	vsrl.vi	v28, v12, 4
	vor.vv	v10, v10, v28
	vsrl.vi	v28, v16, 4
	vsll.vi	v12, v12, 4
	vor.vv	v12, v12, v28
	vsrl.vi	v28, v18, 4
	vsll.vi	v16, v16, 4
	vor.vv	v16, v16, v28
.Lgcm_pcrel_hi66:
	auipc	a0, %pcrel_hi(.Lgcm_CPI16_0)
	vsrl.vi	v26, v26, 4
	vsll.vi	v18, v18, 4
	vor.vv	v18, v18, v26
	vsrl.vi	v26, v20, 4
	vsll.vi	v22, v22, 4
	vor.vv	v22, v22, v26
	vsrl.vi	v26, v14, 4
	vsll.vi	v20, v20, 4
	vor.vv	v20, v20, v26
	vsetivli	zero, 16, e8, m1, ta, ma
	vle8.v	v26, (a6)
	addi	a0, a0, %pcrel_lo(.Lgcm_pcrel_hi66)
	vle8.v	v27, (a0)
	vsetvli	zero, a1, e8, m2, ta, ma
	vsrl.vi	v24, v24, 4
	vsll.vi	v14, v14, 4
	vor.vv	v14, v14, v24
	vsetivli	zero, 16, e8, m1, ta, ma
	vand.vi	v25, v26, 15
	vrgather.vv	v24, v27, v25
	vxor.vv	v24, v8, v24
	vsetivli	zero, 16, e8, m2, tu, ma
	vmv.v.v	v8, v24
	addi	a0, t4, 304
	vsetvli	zero, a1, e8, m2, ta, ma
	vse8.v	v12, (a0)
	addi	a0, t4, 336
	vse8.v	v16, (a0)
	addi	a0, t4, 368
	vse8.v	v18, (a0)
	addi	a0, t4, 400
	vse8.v	v22, (a0)
	addi	a0, t4, 432
	vse8.v	v20, (a0)
	addi	a0, t4, 240
	vsetivli	zero, 16, e8, m1, ta, ma
	vsll.vi	v12, v30, 5
	addi	a2, t4, 272
	addi	a3, t4, 464
	vrgather.vv	v13, v12, v25
	vxor.vv	v12, v10, v13
	vsetvli	zero, a1, e8, m2, ta, ma
	vse8.v	v8, (a0)
	vsetivli	zero, 16, e8, m2, tu, ma
	vmv.v.v	v10, v12
	vsetvli	zero, a1, e8, m2, ta, ma
	vse8.v	v10, (a2)
	vse8.v	v14, (a3)
	ret
.Lgcm_func_end16:
	.size	gcm.gcm.multiples.put_table, .Lgcm_func_end16-gcm.gcm.multiples.put_table
                                        # -- End function
	.section	.text.gcm.gcm.mode.BorrowedGcm.compare,"ax",@progbits
	.p2align	1                               # -- Begin function gcm::mode::BorrowedGcm::compare::<#c13ce517942629d6>
	.type	gcm.gcm.mode.BorrowedGcm.compare,@function
gcm.gcm.mode.BorrowedGcm.compare: # @gcm.gcm.mode.BorrowedGcm.compare
# %bb.0:                                # %start
	addi	sp, sp, -80
	sd	ra, 72(sp)                      # 8-byte Folded Spill
	sd	s0, 64(sp)                      # 8-byte Folded Spill
	sd	s1, 56(sp)                      # 8-byte Folded Spill
	sd	s2, 48(sp)                      # 8-byte Folded Spill
	sd	s3, 40(sp)                      # 8-byte Folded Spill
	sd	s4, 32(sp)                      # 8-byte Folded Spill
	sd	s5, 24(sp)                      # 8-byte Folded Spill
	sd	s6, 16(sp)                      # 8-byte Folded Spill
	mv	t0, a0
	li	a0, -1
	slli	a0, a0, 61
	add	s1, a2, a0
	addi	s0, a0, 1
	li	a0, 1
	bltu	s1, s0, .Lgcm_BB17_4
# %bb.1:                                # %else.7
	srli	s1, a4, 61
	bnez	s1, .Lgcm_BB17_4
# %bb.2:                                # %else.7
	li	s1, 1
	slli	s1, s1, 36
	addi	s1, s1, -32
	bltu	s1, a6, .Lgcm_BB17_4
# %bb.3:                                # %after.1
	mv	s0, t0
	mv	a0, t0
	mv	s5, a3
	mv	a3, t3
	mv	s2, a7
	mv	s3, a6
	mv	s4, a5
	mv	s1, t3
	mv	s6, a4
	call	gcm.gcm.mode.BorrowedGcm.put_pre_counter
	mv	a6, sp
	mv	a0, s0
	mv	a1, s1
	mv	a2, s5
	mv	a3, s6
	mv	a4, s4
	mv	a5, s3
	call	gcm.gcm.mode.BorrowedGcm.put_tag
	mv	a1, sp
	mv	a0, s2
	call	gcm.aes_cipher.blocks.difference
	slli	a0, a0, 32
	srli	a0, a0, 32
	snez	s0, a0
	mv	a0, sp
	call	gcm.aes_cipher.zeroize.elements.zeroize_elements.3
	mv	a0, s0
.Lgcm_BB17_4:                               # %return.13
	ld	ra, 72(sp)                      # 8-byte Folded Reload
	ld	s0, 64(sp)                      # 8-byte Folded Reload
	ld	s1, 56(sp)                      # 8-byte Folded Reload
	ld	s2, 48(sp)                      # 8-byte Folded Reload
	ld	s3, 40(sp)                      # 8-byte Folded Reload
	ld	s4, 32(sp)                      # 8-byte Folded Reload
	ld	s5, 24(sp)                      # 8-byte Folded Reload
	ld	s6, 16(sp)                      # 8-byte Folded Reload
	addi	sp, sp, 80
	ret
.Lgcm_func_end17:
	.size	gcm.gcm.mode.BorrowedGcm.compare, .Lgcm_func_end17-gcm.gcm.mode.BorrowedGcm.compare
                                        # -- End function
	.section	.text.gcm.gcm.mode.BorrowedGcm.put_tag,"ax",@progbits
	.p2align	1                               # -- Begin function gcm::mode::BorrowedGcm::put_tag::<#c13ce517942629d6>
	.type	gcm.gcm.mode.BorrowedGcm.put_tag,@function
gcm.gcm.mode.BorrowedGcm.put_tag: # @gcm.gcm.mode.BorrowedGcm.put_tag
# %bb.0:                                # %start
	addi	sp, sp, -144
	sd	ra, 136(sp)                     # 8-byte Folded Spill
	sd	s0, 128(sp)                     # 8-byte Folded Spill
	sd	s1, 120(sp)                     # 8-byte Folded Spill
	sd	s2, 112(sp)                     # 8-byte Folded Spill
	sd	s3, 104(sp)                     # 8-byte Folded Spill
	sd	s4, 96(sp)                      # 8-byte Folded Spill
	sd	s5, 88(sp)                      # 8-byte Folded Spill
	sd	s6, 80(sp)                      # 8-byte Folded Spill
	sd	s7, 72(sp)                      # 8-byte Folded Spill
	sd	s8, 64(sp)                      # 8-byte Folded Spill
	csrr	t1, vlenb
	slli	a7, t1, 1
	add	t1, t1, a7
	li	t2, 3
	slli	t2, t2, 10
.Lgcm_BB18_1:                               # %start
                                        # =>This Inner Loop Header: Depth=1
	sub	sp, sp, t2
	sd	zero, 0(sp)
	sub	t1, t1, t2
	bge	t1, t2, .Lgcm_BB18_1
# %bb.2:                                # %start
	sub	sp, sp, t1
	mv	s2, a6
	mv	s5, a5
	mv	s3, a4
	mv	s1, a3
	mv	s4, a2
	mv	s0, a0
	mv	a2, a6
	call	gcm.gcm.tags.put_mask
	ld	a0, 32(s0)
	li	a1, 0
	li	a2, 0
	mv	a3, s4
	mv	a4, s1
	call	gcm.gcm.hash_room.MultiplesRoomHashRoom.hash_on
	srli	a3, s1, 53
	srli	t0, s1, 29
	srli	a4, s5, 53
	srli	t3, s5, 29
	srli	a5, s1, 45
	srli	s4, s1, 37
	srli	t2, s1, 21
	srli	t1, s1, 13
	srli	a7, s1, 5
	slli	a6, s1, 3
	srli	s1, s5, 45
	srli	a2, s5, 37
	srli	s6, s5, 21
	srli	t6, s5, 13
	srli	t5, s5, 5
	slli	t4, s5, 3
	ld	s7, 32(s0)
	vsetivli	zero, 2, e64, m1, ta, ma
	vmv.v.x	v8, a0
	vsetivli	zero, 16, e8, m1, ta, ma
	vid.v	v9
	li	a0, 255
	vsetivli	zero, 2, e64, m1, ta, ma
	vslide1down.vx	v8, v8, a1
	addi	a1, sp, 48
	vsetivli	zero, 16, e8, m1, ta, ma
	vmv.v.x	v10, a4
	lui	a4, 699051
	vmv.v.x	v11, a3
	li	a3, 48
	vrsub.vi	v9, v9, 15
	vsetvli	zero, zero, e16, m2, ta, ma
	vmv.s.x	v0, a0
	addi	a0, a4, -1365
	csrr	a4, vlenb
	slli	a4, a4, 1
	add	a4, a4, sp
	addi	a4, a4, 64
	vs1r.v	v9, (a4)                        # vscale x 8-byte Folded Spill
	vsetvli	zero, zero, e8, m1, ta, mu
	vrgather.vv	v12, v8, v9
	vslide1down.vx	v8, v10, s1
	vslide1down.vx	v9, v11, a5
	slli	a4, a0, 32
	vslide1down.vx	v8, v8, a2
	vslide1down.vx	v9, v9, s4
	vse8.v	v12, (a1)
	add	a0, a0, a4
	vslide1down.vx	v8, v8, t3
	vslide1down.vx	v9, v9, t0
	mulhu	a0, s5, a0
	vslide1down.vx	v8, v8, s6
	vslide1down.vx	v9, v9, t2
	srli	a0, a0, 5
	vslide1down.vx	v8, v8, t6
	vslide1down.vx	v9, v9, t1
	slli	s4, a0, 4
	vslide1down.vx	v8, v8, t5
	vslide1down.vx	v9, v9, a7
	vslide1down.vx	v10, v8, t4
	vslide1down.vx	v8, v9, a6
	vslidedown.vi	v10, v8, 8, v0.t
	slli	s6, a0, 5
	bltu	s5, a3, .Lgcm_BB18_6
# %bb.3:                                # %join.5.i.i.i.i.preheader
	csrr	a0, vlenb
	add	a0, a0, sp
	addi	a0, a0, 64
	vs1r.v	v10, (a0)                       # vscale x 8-byte Folded Spill
	add	s8, s6, s4
	add	s8, s8, s3
	mv	s1, s3
.Lgcm_BB18_4:                               # %join.5.i.i.i.i
                                        # =>This Inner Loop Header: Depth=1
	addi	a0, s1, 16
	vsetivli	zero, 16, e8, m1, ta, ma
	vle8.v	v8, (s1)
	addi	s0, sp, 48
	vle8.v	v11, (s0)
	vle8.v	v9, (a0)
	addi	a0, s1, 32
	vle8.v	v10, (a0)
	vxor.vv	v8, v11, v8
	addi	a0, sp, 48
	mv	a1, s7
	call	gcm.gcm.multiples.Multiples.three_products
	addi	s1, s1, 48
	bne	s1, s8, .Lgcm_BB18_4
# %bb.5:                                # %"gcm::hash::hash_string_and_end::<#4e0b07d5b1f54653>.exit.loopexit.i.i"
	vsetivli	zero, 16, e8, m1, ta, ma
	vle8.v	v12, (s0)
	csrr	a0, vlenb
	add	a0, a0, sp
	addi	a0, a0, 64
	vl1r.v	v10, (a0)                       # vscale x 8-byte Folded Reload
.Lgcm_BB18_6:                               # %"gcm::hash::hash_string_and_end::<#4e0b07d5b1f54653>.exit.i.i"
	vsetivli	zero, 2, e64, m1, ta, ma
	vmv.v.i	v11, 0
	addi	a0, sp, 16
	add	a1, s6, s4
	vse64.v	v11, (a0)
	bne	s5, a1, .Lgcm_BB18_9
# %bb.7:                                # %then.1.i.i.i
	vsetivli	zero, 16, e8, m1, ta, ma
	vxor.vv	v8, v12, v10
.Lgcm_BB18_8:                               # %"gcm::tags::hash::<#84904cd934dcda78>.exit"
	mv	a1, s7
	call	gcm.gcm.multiples.Multiples.block_product
	j	.Lgcm_BB18_17
.Lgcm_BB18_9:                               # %join.3.i.i.i
	sub	a2, s5, a1
	li	a0, 16
	bltu	a0, a2, .Lgcm_BB18_13
# %bb.10:                               # %then.4.i.i.i
	add	a1, a1, s3
	beq	a2, a0, .Lgcm_BB18_12
# %bb.11:                               # %join.3.i45.i.i.i
	addi	a0, sp, 48
	vse64.v	v11, (a0)
	csrr	a3, vlenb
	add	a3, a3, sp
	addi	a3, a3, 64
	vs1r.v	v10, (a3)                       # vscale x 8-byte Folded Spill
	addi	a3, sp, 64
	vs1r.v	v12, (a3)                       # vscale x 8-byte Folded Spill
	la	t1, memcpy
	jalr	t1
	addi	a0, sp, 64
	vl1r.v	v12, (a0)                       # vscale x 8-byte Folded Reload
	csrr	a0, vlenb
	add	a0, a0, sp
	addi	a0, a0, 64
	vl1r.v	v10, (a0)                       # vscale x 8-byte Folded Reload
	addi	a1, sp, 48
.Lgcm_BB18_12:                              # %"gcm::hash::zero_filled.exit.i.i.i"
	vsetivli	zero, 16, e8, m1, ta, ma
	vle8.v	v8, (a1)
	vxor.vv	v8, v8, v12
	addi	a0, sp, 16
	mv	a1, s7
	vmv1r.v	v9, v10
	call	gcm.gcm.multiples.Multiples.two_products
	j	.Lgcm_BB18_17
.Lgcm_BB18_13:                              # %join.6.i.i.i
	li	a0, 32
	bltu	a0, a2, .Lgcm_BB18_18
# %bb.14:                               # %then.7.i.i.i
	add	a0, s3, a1
	vsetivli	zero, 16, e8, m1, ta, ma
	vle8.v	v9, (a0)
	addi	a1, a1, 16
	li	a0, 16
	sub	a2, s5, a1
	vxor.vv	v8, v9, v12
	add	a1, a1, s3
	beq	a2, a0, .Lgcm_BB18_16
# %bb.15:                               # %join.3.i52.i.i.i
	addi	a0, sp, 48
	vsetivli	zero, 2, e64, m1, ta, ma
	vse64.v	v11, (a0)
	csrr	a3, vlenb
	add	a3, a3, sp
	addi	a3, a3, 64
	vs1r.v	v10, (a3)                       # vscale x 8-byte Folded Spill
	addi	a3, sp, 64
	vs1r.v	v8, (a3)                        # vscale x 8-byte Folded Spill
	la	t1, memcpy
	jalr	t1
	addi	a0, sp, 64
	vl1r.v	v8, (a0)                        # vscale x 8-byte Folded Reload
	csrr	a0, vlenb
	add	a0, a0, sp
	addi	a0, a0, 64
	vl1r.v	v10, (a0)                       # vscale x 8-byte Folded Reload
	addi	a1, sp, 48
	vsetivli	zero, 16, e8, m1, ta, ma
.Lgcm_BB18_16:                              # %"gcm::hash::zero_filled.exit103.i.i.i"
	vle8.v	v9, (a1)
	addi	a0, sp, 16
	mv	a1, s7
	call	gcm.gcm.multiples.Multiples.three_products
.Lgcm_BB18_17:                              # %"gcm::tags::hash::<#84904cd934dcda78>.exit"
	ld	a1, 16(sp)
	ld	a0, 24(sp)
	lui	a6, 4080
	li	a3, 255
	lui	a4, 16
	slli	a3, a3, 24
	addi	a4, a4, -256
	srli	a5, a1, 24
	srli	s1, a1, 8
	srli	a7, a1, 40
	srli	a2, a1, 56
	srli	s0, a0, 8
	and	s1, s1, a3
	and	a3, a3, s0
	and	s0, a1, a6
	and	a5, a5, a6
	or	t0, s1, a5
	srliw	s1, a1, 24
	and	a5, a7, a4
	or	a7, a5, a2
	and	a5, a1, a4
	slli	a1, a1, 56
	slli	s0, s0, 24
	slli	s1, s1, 32
	or	s0, s0, s1
	srli	s1, a0, 24
	slli	a5, a5, 40
	or	a1, a1, a5
	srli	a5, a0, 40
	and	s1, s1, a6
	or	a3, a3, s1
	srli	s1, a0, 56
	and	a2, a0, a6
	and	a5, a5, a4
	or	a5, a5, s1
	srliw	s1, a0, 24
	slli	a2, a2, 24
	slli	s1, s1, 32
	or	a2, a2, s1
	and	a4, a4, a0
	slli	a0, a0, 56
	slli	a4, a4, 40
	or	a0, a0, a4
	or	a4, t0, a7
	or	a1, a1, s0
	or	a3, a3, a5
	or	a0, a0, a2
	or	a1, a1, a4
	or	a0, a0, a3
	vsetivli	zero, 16, e8, m1, ta, ma
	vle8.v	v8, (s2)
	vsetivli	zero, 2, e64, m1, ta, ma
	vmv.v.x	v9, a0
	vslide1down.vx	v9, v9, a1
	csrr	a0, vlenb
	slli	a0, a0, 1
	add	a0, a0, sp
	addi	a0, a0, 64
	vl1r.v	v11, (a0)                       # vscale x 8-byte Folded Reload
	vsetivli	zero, 16, e8, m1, ta, ma
	vrgather.vv	v10, v9, v11
	vxor.vv	v8, v8, v10
	vse8.v	v8, (s2)
	csrr	a0, vlenb
	slli	a1, a0, 1
	add	a0, a0, a1
	add	sp, sp, a0
	ld	ra, 136(sp)                     # 8-byte Folded Reload
	ld	s0, 128(sp)                     # 8-byte Folded Reload
	ld	s1, 120(sp)                     # 8-byte Folded Reload
	ld	s2, 112(sp)                     # 8-byte Folded Reload
	ld	s3, 104(sp)                     # 8-byte Folded Reload
	ld	s4, 96(sp)                      # 8-byte Folded Reload
	ld	s5, 88(sp)                      # 8-byte Folded Reload
	ld	s6, 80(sp)                      # 8-byte Folded Reload
	ld	s7, 72(sp)                      # 8-byte Folded Reload
	ld	s8, 64(sp)                      # 8-byte Folded Reload
	addi	sp, sp, 144
	ret
.Lgcm_BB18_18:                              # %join.9.i.i.i.i
	csrr	a0, vlenb
	add	a0, a0, sp
	addi	a0, a0, 64
	vs1r.v	v10, (a0)                       # vscale x 8-byte Folded Spill
	addi	s4, sp, 32
	add	s0, s3, a1
	vse64.v	v11, (s4)
	vsetivli	zero, 16, e8, m1, ta, ma
	vle8.v	v9, (s0)
	addi	a0, a1, 32
	add	a1, s3, a0
	sub	a2, s5, a0
	li	a0, 16
	vxor.vv	v8, v9, v12
	beq	a2, a0, .Lgcm_BB18_20
# %bb.19:                               # %join.3.i106.i.i.i
	addi	a0, sp, 48
	vsetivli	zero, 2, e64, m1, ta, ma
	vse64.v	v11, (a0)
	addi	a3, sp, 64
	vs1r.v	v8, (a3)                        # vscale x 8-byte Folded Spill
	la	t1, memcpy
	jalr	t1
	addi	a0, sp, 64
	vl1r.v	v8, (a0)                        # vscale x 8-byte Folded Reload
	addi	a1, sp, 48
	vsetivli	zero, 16, e8, m1, ta, ma
.Lgcm_BB18_20:                              # %"gcm::hash::hash_last_group::<#4e0b07d5b1f54653>.exit.i.i.i"
	vle8.v	v10, (a1)
	addi	s0, s0, 16
	vle8.v	v9, (s0)
	addi	a0, sp, 32
	mv	a1, s7
	call	gcm.gcm.multiples.Multiples.three_products
	vsetivli	zero, 16, e8, m1, ta, ma
	vle8.v	v8, (s4)
	csrr	a0, vlenb
	add	a0, a0, sp
	addi	a0, a0, 64
	vl1r.v	v9, (a0)                        # vscale x 8-byte Folded Reload
	vxor.vv	v8, v8, v9
	addi	a0, sp, 16
	j	.Lgcm_BB18_8
.Lgcm_func_end18:
	.size	gcm.gcm.mode.BorrowedGcm.put_tag, .Lgcm_func_end18-gcm.gcm.mode.BorrowedGcm.put_tag
                                        # -- End function
	.section	.text.gcm.aes_cipher.blocks.difference,"ax",@progbits
	.p2align	1                               # -- Begin function aes_cipher::blocks::difference
	.type	gcm.aes_cipher.blocks.difference,@function
gcm.aes_cipher.blocks.difference:       # @gcm.aes_cipher.blocks.difference
# %bb.0:                                # %start
	vsetivli	zero, 16, e8, m1, ta, ma
	vle8.v	v8, (a0)
	vle8.v	v9, (a1)
	vxor.vv	v8, v9, v8
	vredor.vs	v8, v8, v8
	vmv.x.s	a0, v8
	zext.b	a0, a0
	ret
.Lgcm_func_end19:
	.size	gcm.aes_cipher.blocks.difference, .Lgcm_func_end19-gcm.aes_cipher.blocks.difference
                                        # -- End function
	.section	.text.gcm.gcm.gctr.add_gctr,"ax",@progbits
	.p2align	1                               # -- Begin function gcm::gctr::add_gctr::<#ed3b81e0963a9ab3>
	.type	gcm.gcm.gctr.add_gctr,@function
gcm.gcm.gctr.add_gctr: # @gcm.gcm.gctr.add_gctr
# %bb.0:                                # %start
	beqz	a4, .Lgcm_BB20_23
# %bb.1:                                # %then.1
	addi	sp, sp, -432
	sd	ra, 424(sp)                     # 8-byte Folded Spill
	sd	s0, 416(sp)                     # 8-byte Folded Spill
	sd	s1, 408(sp)                     # 8-byte Folded Spill
	sd	s2, 400(sp)                     # 8-byte Folded Spill
	sd	s3, 392(sp)                     # 8-byte Folded Spill
	sd	s4, 384(sp)                     # 8-byte Folded Spill
	sd	s5, 376(sp)                     # 8-byte Folded Spill
	sd	s6, 368(sp)                     # 8-byte Folded Spill
	sd	s7, 360(sp)                     # 8-byte Folded Spill
	sd	s8, 352(sp)                     # 8-byte Folded Spill
	sd	s9, 344(sp)                     # 8-byte Folded Spill
	sd	s10, 336(sp)                    # 8-byte Folded Spill
	sd	s11, 328(sp)                    # 8-byte Folded Spill
	mv	s3, a4
	mv	s4, a3
	mv	s2, a2
	mv	s8, a0
	vsetivli	zero, 16, e8, m1, ta, ma
	vle8.v	v8, (a1)
	addi	a0, sp, 16
	andi	s0, a2, 15
	li	a1, 16
	sub	a1, a1, s0
	vse8.v	v8, (a0)
	bgeu	a1, a4, .Lgcm_BB20_4
# %bb.2:                                # %else.2.i
	add	a1, s3, s0
	srli	a2, a1, 4
	andi	a1, a1, 15
	snez	a1, a1
	add	a1, a1, a2
	li	a2, 8
	sd	a0, 32(sp)
	sd	s2, 40(sp)
	sd	s4, 48(sp)
	sd	s3, 56(sp)
	bltu	a1, a2, .Lgcm_BB20_8
# %bb.3:                                # %then.1.i.i
	lbu	a0, 0(s8)
	lbu	a1, 1(s8)
	lbu	a2, 2(s8)
	lbu	a3, 3(s8)
	lbu	a4, 4(s8)
	lbu	a5, 5(s8)
	lbu	a6, 6(s8)
	lbu	s0, 7(s8)
	slli	a1, a1, 8
	slli	a2, a2, 16
	slli	a3, a3, 24
	slli	a5, a5, 8
	or	a7, a1, a0
	or	t0, a3, a2
	or	a4, a4, a5
	lbu	a1, 8(s8)
	lbu	a3, 9(s8)
	lbu	a5, 10(s8)
	lbu	a0, 11(s8)
	slli	a6, a6, 16
	slli	s0, s0, 24
	slli	a3, a3, 8
	slli	a5, a5, 16
	slli	a0, a0, 24
	or	s0, s0, a6
	or	a1, a1, a3
	or	a0, a0, a5
	lbu	a3, 13(s8)
	lbu	a5, 12(s8)
	lbu	a2, 14(s8)
	lbu	s1, 15(s8)
	slli	a3, a3, 8
	or	a3, a3, a5
	slli	a2, a2, 16
	slli	s1, s1, 24
	or	a2, a2, s1
	or	a5, t0, a7
	or	a4, a4, s0
	or	a1, a1, a0
	or	a2, a2, a3
	slli	a0, a4, 32
	slli	a2, a2, 32
	or	a0, a0, a5
	or	a1, a1, a2
	addi	a4, sp, 32
	mv	a2, a0
	mv	a3, a1
	call	gcm.aes_hybrid.closures.lend_planes.1
	j	.Lgcm_BB20_22
.Lgcm_BB20_4:                               # %then.1.i
	lbu	a0, 16(s8)
	lbu	a1, 17(s8)
	lbu	a2, 18(s8)
	lbu	a3, 19(s8)
	lbu	a6, 20(s8)
	lbu	a7, 21(s8)
	lbu	a4, 22(s8)
	lbu	a5, 23(s8)
	lbu	t0, 24(s8)
	lbu	t1, 25(s8)
	lbu	t2, 26(s8)
	lbu	t3, 27(s8)
	slli	a1, a1, 8
	slli	a2, a2, 16
	slli	a3, a3, 24
	or	t4, a1, a0
	or	t5, a3, a2
	lbu	a2, 28(s8)
	lbu	a3, 29(s8)
	lbu	a1, 30(s8)
	lbu	s1, 31(s8)
	slli	a7, a7, 8
	slli	a4, a4, 16
	slli	a5, a5, 24
	or	a6, a7, a6
	or	a7, a5, a4
	ld	a4, 16(sp)
	ld	a0, 24(sp)
	slli	t1, t1, 8
	or	t1, t1, t0
	lui	t0, 4080
	slli	t2, t2, 16
	slli	t3, t3, 24
	or	t2, t3, t2
	li	a5, 255
	slli	a5, a5, 24
	slli	a3, a3, 8
	slli	a1, a1, 16
	slli	s1, s1, 24
	or	t6, a3, a2
	srli	a3, a4, 8
	or	s5, s1, a1
	srli	a1, a0, 8
	and	s7, a3, a5
	and	s6, a1, a5
	lui	a5, 16
	addi	a5, a5, -256
	or	t3, t5, t4
	srli	a2, a4, 24
	or	a7, a7, a6
	srli	s1, a4, 40
	or	a6, t2, t1
	srli	a1, a4, 56
	or	t1, s5, t6
	and	a3, a4, t0
	and	a2, a2, t0
	or	t2, s7, a2
	srliw	a2, a4, 24
	and	s1, s1, a5
	or	t5, s1, a1
	and	s1, a4, a5
	slli	a4, a4, 56
	slli	a3, a3, 24
	slli	a2, a2, 32
	or	a2, a2, a3
	srli	a3, a0, 24
	slli	s1, s1, 40
	or	a4, a4, s1
	srli	s1, a0, 40
	and	a3, a3, t0
	or	t4, s6, a3
	srli	a3, a0, 56
	and	a1, a0, t0
	and	s1, s1, a5
	or	a3, a3, s1
	srliw	s1, a0, 24
	slli	a1, a1, 24
	slli	s1, s1, 32
	or	a1, a1, s1
	and	a5, a5, a0
	slli	a0, a0, 56
	slli	a5, a5, 40
	or	a0, a0, a5
	or	a5, t2, t5
	or	a2, a2, a4
	srli	a4, s2, 4
	vid.v	v8
	vrsub.vi	v8, v8, 15
	slli	a7, a7, 32
	slli	t1, t1, 32
	or	a3, t4, a3
	or	s1, a0, a1
	or	a0, a7, t3
	or	a1, t1, a6
	or	a2, a2, a5
	or	a3, a3, s1
	srli	a5, a3, 32
	add	a3, a3, a4
	slli	a5, a5, 32
	slli	a3, a3, 32
	srli	a3, a3, 32
	or	a3, a3, a5
	vsetivli	zero, 2, e64, m1, ta, ma
	vmv.v.x	v9, a3
	vslide1down.vx	v9, v9, a2
	vsetivli	zero, 16, e8, m1, ta, ma
	vrgather.vv	v10, v9, v8
	addi	s1, sp, 64
	vse8.v	v10, (s1)
	addi	a2, sp, 64
	li	a3, 1
	call	gcm.aes_permute.blocks.process_on_lanes
	beqz	s0, .Lgcm_BB20_10
# %bb.5:                                # %then.1.i.i.i
	li	a0, 0
	or	a1, s1, s0
	mv	a2, s3
.Lgcm_BB20_6:                               # %vector.body
                                        # =>This Inner Loop Header: Depth=1
	vsetvli	a3, a2, e8, m1, ta, ma
	add	a4, a1, a0
	vle8.v	v8, (a4)
	add	a4, s4, a0
	vle8.v	v9, (a4)
	sub	a2, a2, a3
	vxor.vv	v8, v9, v8
	vse8.v	v8, (a4)
	add	a0, a0, a3
	bnez	a2, .Lgcm_BB20_6
# %bb.7:
	mv	a1, s3
	sub	a0, s3, s3
	li	a2, 16
	bgeu	a0, a2, .Lgcm_BB20_11
	j	.Lgcm_BB20_13
.Lgcm_BB20_8:                               # %else.2.i.i
	beqz	s0, .Lgcm_BB20_17
# %bb.9:                                # %then.1.i.i9.i
	addi	a1, sp, 16
	mv	a0, s8
	mv	a2, s2
	li	a3, 0
	mv	a4, s4
	mv	a5, s3
	call	gcm.aes_ctr.add_in_batches.add_next.2
	mv	s9, a0
	sub	s6, s3, a0
	li	a0, 64
	bgeu	s6, a0, .Lgcm_BB20_18
	j	.Lgcm_BB20_20
.Lgcm_BB20_10:
	li	a1, 0
	mv	a0, s3
	li	a2, 16
	bltu	s3, a2, .Lgcm_BB20_13
.Lgcm_BB20_11:                              # %join.8.i.i.i.preheader
	vsetivli	zero, 16, e8, m1, ta, ma
.Lgcm_BB20_12:                              # %join.8.i.i.i
                                        # =>This Inner Loop Header: Depth=1
	add	a2, s0, a1
	addi	a3, sp, 64
	andi	a2, a2, -16
	add	a2, a2, a3
	add	a3, s4, a1
	vle8.v	v8, (a3)
	vle8.v	v9, (a2)
	addi	a1, a1, 16
	addi	a0, a0, -16
	vxor.vv	v8, v9, v8
	li	a2, 15
	vse8.v	v8, (a3)
	bltu	a2, a0, .Lgcm_BB20_12
.Lgcm_BB20_13:                              # %after.4.i.i.i
	bgeu	a1, s3, .Lgcm_BB20_22
# %bb.14:                               # %then.9.i.i.i
	beqz	a0, .Lgcm_BB20_22
# %bb.15:                               # %vector.body4.preheader
	li	a2, 0
	add	s0, s0, a1
	addi	a3, sp, 64
	andi	s0, s0, -16
	add	a3, a3, s0
	add	a1, a1, s4
.Lgcm_BB20_16:                              # %vector.body4
                                        # =>This Inner Loop Header: Depth=1
	vsetvli	a4, a0, e8, m2, ta, ma
	add	a5, a3, a2
	vle8.v	v8, (a5)
	add	a5, a1, a2
	vle8.v	v10, (a5)
	sub	a0, a0, a4
	vxor.vv	v8, v10, v8
	vse8.v	v8, (a5)
	add	a2, a2, a4
	bnez	a0, .Lgcm_BB20_16
	j	.Lgcm_BB20_22
.Lgcm_BB20_17:
	li	s9, 0
	mv	s6, s3
	li	a0, 64
	bltu	s3, a0, .Lgcm_BB20_20
.Lgcm_BB20_18:                              # %join.11.lr.ph.i.i.i
	addi	s1, sp, 80
	ld	a1, 16(sp)
	ld	a0, 24(sp)
	lui	a6, 4080
	li	a3, 255
	lui	a4, 16
	slli	a3, a3, 24
	addi	t3, a4, -256
	srli	t1, a1, 24
	srli	a2, a1, 8
	srli	a7, a1, 40
	srli	t0, a1, 56
	srli	a5, a0, 8
	and	a2, a2, a3
	and	t2, a5, a3
	and	a5, a1, a6
	and	a3, t1, a6
	or	t1, a2, a3
	srliw	a3, a1, 24
	and	a2, a7, t3
	or	a7, a2, t0
	and	a4, a1, t3
	slli	a1, a1, 56
	slli	a5, a5, 24
	slli	a3, a3, 32
	or	t0, a5, a3
	srli	a5, a0, 24
	slli	a4, a4, 40
	or	a1, a1, a4
	srli	a4, a0, 40
	and	a5, a5, a6
	or	a5, t2, a5
	srli	a2, a0, 56
	and	a3, a0, a6
	and	a4, a4, t3
	or	a2, a2, a4
	srliw	a4, a0, 24
	slli	a3, a3, 24
	slli	a4, a4, 32
	or	a3, a3, a4
	addi	a4, s1, 16
	sd	a4, 8(sp)                       # 8-byte Folded Spill
	and	a4, a0, t3
	slli	a0, a0, 56
	slli	a4, a4, 40
	or	a0, a0, a4
	addi	a4, s1, 32
	sd	a4, 0(sp)                       # 8-byte Folded Spill
	or	a4, t1, a7
	or	a1, a1, t0
	or	a2, a2, a5
	or	a0, a0, a3
	or	s10, a1, a4
	or	s11, a0, a2
	srli	s5, s11, 32
	slli	s5, s5, 32
.Lgcm_BB20_19:                              # %join.11.i.i.i
                                        # =>This Inner Loop Header: Depth=1
	add	a0, s2, s9
	srli	s7, a0, 4
	li	a2, 192
	addi	a0, sp, 128
	li	a1, 0
	la	t1, memset
	jalr	t1
	add	s7, s7, s11
	vsetivli	zero, 16, e8, m1, ta, ma
	vid.v	v8
	li	a0, 32
	slli	a1, s7, 32
	addi	a2, s7, 1
	vrsub.vi	v13, v8, 15
	addi	a3, s7, 2
	addi	s7, s7, 3
	srli	a1, a1, 32
	slli	a2, a2, 32
	slli	a3, a3, 32
	slli	s7, s7, 32
	or	a1, s5, a1
	srli	a2, a2, 32
	srli	a3, a3, 32
	srli	a4, s7, 32
	vsetivli	zero, 2, e64, m1, ta, ma
	vmv.v.x	v8, a1
	or	a1, s5, a2
	or	a2, s5, a3
	or	a3, s5, a4
	vslide1down.vx	v9, v8, s10
	vmv.v.x	v8, a1
	vmv.v.x	v12, a2
	vslide1down.vx	v11, v8, s10
	vsetivli	zero, 16, e8, m1, ta, ma
	vrgather.vv	v8, v9, v13
	vrgather.vv	v10, v11, v13
	vsetvli	zero, a0, e8, m2, ta, ma
	vslideup.vi	v8, v10, 16
	vsetivli	zero, 2, e64, m1, ta, ma
	vmv.v.x	v10, a3
	vslide1down.vx	v11, v12, s10
	vslide1down.vx	v10, v10, s10
	vsetivli	zero, 16, e8, m1, ta, ma
	vrgather.vv	v12, v10, v13
	vrgather.vv	v10, v11, v13
	vsetvli	zero, a0, e8, m2, ta, ma
	vslideup.vi	v10, v12, 16
	lbu	a0, 16(s8)
	lbu	a1, 17(s8)
	lbu	a2, 18(s8)
	lbu	a3, 19(s8)
	lbu	a6, 20(s8)
	lbu	a5, 21(s8)
	lbu	a4, 22(s8)
	lbu	s0, 23(s8)
	slli	a1, a1, 8
	slli	a2, a2, 16
	slli	a3, a3, 24
	or	a7, a1, a0
	or	t0, a3, a2
	lbu	a1, 24(s8)
	lbu	a3, 25(s8)
	lbu	a0, 26(s8)
	lbu	a2, 27(s8)
	slli	a5, a5, 8
	slli	a4, a4, 16
	slli	s0, s0, 24
	slli	a3, a3, 8
	slli	a0, a0, 16
	slli	a2, a2, 24
	or	a5, a5, a6
	or	a4, a4, s0
	or	a1, a1, a3
	or	a0, a0, a2
	lbu	a2, 29(s8)
	lbu	a3, 28(s8)
	lbu	s0, 30(s8)
	lbu	s1, 31(s8)
	slli	a2, a2, 8
	or	a2, a2, a3
	slli	s0, s0, 16
	slli	s1, s1, 24
	or	s0, s0, s1
	or	a3, t0, a7
	or	a4, a4, a5
	or	a1, a1, a0
	addi	s7, sp, 64
	or	a2, a2, s0
	add	s0, s4, s9
	slli	a0, a4, 32
	slli	a2, a2, 32
	or	a0, a0, a3
	vse8.v	v8, (s7)
	ld	s1, 8(sp)                       # 8-byte Folded Reload
	vse8.v	v10, (s1)
	or	a1, a1, a2
	addi	a2, sp, 64
	li	a3, 4
	call	gcm.aes_permute.blocks.process_on_lanes
	addi	a0, s0, 16
	vsetivli	zero, 16, e8, m1, ta, ma
	addi	a1, sp, 80
	vle8.v	v8, (a1)
	vle8.v	v9, (a0)
	vle8.v	v10, (s7)
	vxor.vv	v8, v8, v9
	vle8.v	v9, (s0)
	vse8.v	v8, (a0)
	addi	a0, s0, 32
	vle8.v	v8, (s1)
	vxor.vv	v9, v10, v9
	vle8.v	v10, (a0)
	vse8.v	v9, (s0)
	addi	a1, s0, 48
	ld	a2, 0(sp)                       # 8-byte Folded Reload
	vle8.v	v9, (a2)
	vxor.vv	v8, v8, v10
	vle8.v	v10, (a1)
	vse8.v	v8, (a0)
	addi	s6, s6, -64
	li	a0, 63
	vxor.vv	v8, v9, v10
	vse8.v	v8, (a1)
	addi	s9, s9, 64
	bltu	a0, s6, .Lgcm_BB20_19
.Lgcm_BB20_20:                              # %loop.13.preheader.i.i.i
	bgeu	s9, s3, .Lgcm_BB20_22
.Lgcm_BB20_21:                              # %join.16.i.i.i
                                        # =>This Inner Loop Header: Depth=1
	addi	a1, sp, 16
	mv	a0, s8
	mv	a2, s2
	mv	a3, s9
	mv	a4, s4
	mv	a5, s3
	call	gcm.aes_ctr.add_in_batches.add_next.2
	mv	s9, a0
	bltu	a0, s3, .Lgcm_BB20_21
.Lgcm_BB20_22:                              # %"aes_ctr::add_in_batches::add_stream::<#6c41d78f1cdff180>.exit"
	ld	ra, 424(sp)                     # 8-byte Folded Reload
	ld	s0, 416(sp)                     # 8-byte Folded Reload
	ld	s1, 408(sp)                     # 8-byte Folded Reload
	ld	s2, 400(sp)                     # 8-byte Folded Reload
	ld	s3, 392(sp)                     # 8-byte Folded Reload
	ld	s4, 384(sp)                     # 8-byte Folded Reload
	ld	s5, 376(sp)                     # 8-byte Folded Reload
	ld	s6, 368(sp)                     # 8-byte Folded Reload
	ld	s7, 360(sp)                     # 8-byte Folded Reload
	ld	s8, 352(sp)                     # 8-byte Folded Reload
	ld	s9, 344(sp)                     # 8-byte Folded Reload
	ld	s10, 336(sp)                    # 8-byte Folded Reload
	ld	s11, 328(sp)                    # 8-byte Folded Reload
	addi	sp, sp, 432
.Lgcm_BB20_23:                              # %join.3
	ret
.Lgcm_func_end20:
	.size	gcm.gcm.gctr.add_gctr, .Lgcm_func_end20-gcm.gcm.gctr.add_gctr
                                        # -- End function
	.section	.text.gcm.aes_hybrid.batches.process_on_planes,"ax",@progbits
	.p2align	1                               # -- Begin function aes_hybrid::batches::process_on_planes::<#2a076538018b6fb3>
	.type	gcm.aes_hybrid.batches.process_on_planes,@function
gcm.aes_hybrid.batches.process_on_planes: # @gcm.aes_hybrid.batches.process_on_planes
# %bb.0:                                # %start
	addi	sp, sp, -1984
	sd	ra, 1976(sp)                    # 8-byte Folded Spill
	sd	s0, 1968(sp)                    # 8-byte Folded Spill
	sd	s1, 1960(sp)                    # 8-byte Folded Spill
	sd	s2, 1952(sp)                    # 8-byte Folded Spill
	sd	s3, 1944(sp)                    # 8-byte Folded Spill
	sd	s4, 1936(sp)                    # 8-byte Folded Spill
	mv	s2, a3
	mv	s3, a2
	mv	s0, a1
	mv	s4, a0
	addi	a0, sp, 144
	li	a2, 1792
	li	a1, 0
	la	t1, memset
	jalr	t1
	slli	s1, s0, 3
	addi	a0, sp, 16
	mv	a1, s4
	mv	a2, s0
	call	gcm.aes_hybrid.plane_keys.store_planes
	addi	a0, sp, 16
	mv	a1, s1
	mv	a2, s3
	mv	a3, s2
	call	gcm.aes_hybrid.batches.process_batches_and_rest
	addi	a0, sp, 16
	call	gcm.aes_cipher.zeroize.zeroize_words
	call	gcm.aes_cipher.zeroize.stack.wipe_stack.1792
	ld	ra, 1976(sp)                    # 8-byte Folded Reload
	ld	s0, 1968(sp)                    # 8-byte Folded Reload
	ld	s1, 1960(sp)                    # 8-byte Folded Reload
	ld	s2, 1952(sp)                    # 8-byte Folded Reload
	ld	s3, 1944(sp)                    # 8-byte Folded Reload
	ld	s4, 1936(sp)                    # 8-byte Folded Reload
	addi	sp, sp, 1984
	ret
.Lgcm_func_end21:
	.size	gcm.aes_hybrid.batches.process_on_planes, .Lgcm_func_end21-gcm.aes_hybrid.batches.process_on_planes
                                        # -- End function
	.section	.rodata.cst16,"aM",@progbits,16
	.p2align	4, 0x0                          # -- Begin function aes_hybrid::plane_keys::store_planes::<#fab3fa1ddd682008>
.Lgcm_CPI22_0:
	.byte	0                               # 0x0
	.byte	4                               # 0x4
	.byte	8                               # 0x8
	.byte	12                              # 0xc
	.byte	1                               # 0x1
	.byte	5                               # 0x5
	.byte	9                               # 0x9
	.byte	13                              # 0xd
	.byte	2                               # 0x2
	.byte	6                               # 0x6
	.byte	10                              # 0xa
	.byte	14                              # 0xe
	.byte	3                               # 0x3
	.byte	7                               # 0x7
	.byte	11                              # 0xb
	.byte	15                              # 0xf
.Lgcm_CPI22_1:
	.byte	0                               # 0x0
	.byte	1                               # 0x1
	.byte	92                              # 0x5c
	.byte	93                              # 0x5d
	.byte	224                             # 0xe0
	.byte	225                             # 0xe1
	.byte	188                             # 0xbc
	.byte	189                             # 0xbd
	.byte	80                              # 0x50
	.byte	81                              # 0x51
	.byte	12                              # 0xc
	.byte	13                              # 0xd
	.byte	176                             # 0xb0
	.byte	177                             # 0xb1
	.byte	236                             # 0xec
	.byte	237                             # 0xed
.Lgcm_CPI22_2:
	.byte	0                               # 0x0
	.byte	178                             # 0xb2
	.byte	181                             # 0xb5
	.byte	7                               # 0x7
	.byte	58                              # 0x3a
	.byte	136                             # 0x88
	.byte	143                             # 0x8f
	.byte	61                              # 0x3d
	.byte	172                             # 0xac
	.byte	30                              # 0x1e
	.byte	25                              # 0x19
	.byte	171                             # 0xab
	.byte	150                             # 0x96
	.byte	36                              # 0x24
	.byte	35                              # 0x23
	.byte	145                             # 0x91
	.section	.text.gcm.aes_hybrid.plane_keys.store_planes,"ax",@progbits
	.p2align	1
	.type	gcm.aes_hybrid.plane_keys.store_planes,@function
gcm.aes_hybrid.plane_keys.store_planes: # @gcm.aes_hybrid.plane_keys.store_planes
# %bb.0:                                # %start
	addi	t1, a0, 16
	vsetivli	zero, 16, e8, m1, ta, ma
	vle8.v	v10, (a1)
.Lgcm_pcrel_hi67:
	auipc	a3, %pcrel_hi(.Lgcm_CPI22_0)
	vmv.v.i	v8, 0
	li	a6, 16
	li	a7, 32
	addi	a3, a3, %pcrel_lo(.Lgcm_pcrel_hi67)
	vle8.v	v9, (a3)
	li	t0, 64
	addi	a3, a0, 32
	addi	a5, a0, 112
	vrgather.vv	v11, v10, v9
	vand.vi	v10, v11, 2
	vand.vi	v12, v11, 4
	vsra.vi	v13, v11, 7
	vmsne.vi	v0, v10, 0
	vse8.v	v13, (a5)
	vmerge.vim	v10, v8, -1, v0
	vmsne.vi	v0, v12, 0
	addi	a5, a0, 48
	vmerge.vim	v12, v8, -1, v0
	vse8.v	v12, (a3)
	addi	a3, a0, 64
	vand.vi	v12, v11, 8
	vmsne.vi	v0, v12, 0
	vand.vx	v12, v11, a6
	vmerge.vim	v13, v8, -1, v0
	vmsne.vi	v0, v12, 0
	vse8.v	v13, (a5)
	addi	a5, a0, 80
	vmerge.vim	v12, v8, -1, v0
	vse8.v	v12, (a3)
	addi	a4, a0, 96
	vand.vx	v12, v11, a7
	vmsne.vi	v0, v12, 0
	vand.vx	v12, v11, t0
	vmerge.vim	v13, v8, -1, v0
	vmsne.vi	v0, v12, 0
	vse8.v	v13, (a5)
	addi	t2, a2, -1
	vmerge.vim	v12, v8, -1, v0
	vse8.v	v12, (a4)
	li	a4, 2
	vand.vi	v11, v11, 1
	vrsub.vi	v11, v11, 0
	vse8.v	v11, (a0)
	vse8.v	v10, (t1)
	bltu	t2, a4, .Lgcm_BB22_3
# %bb.1:                                # %join.5.lr.ph
.Lgcm_pcrel_hi68:
	auipc	a4, %pcrel_hi(.Lgcm_CPI22_1)
	addi	a4, a4, %pcrel_lo(.Lgcm_pcrel_hi68)
	vle8.v	v10, (a4)
.Lgcm_pcrel_hi69:
	auipc	a4, %pcrel_hi(.Lgcm_CPI22_2)
	addi	a4, a4, %pcrel_lo(.Lgcm_pcrel_hi69)
	vle8.v	v11, (a4)
	addi	a2, a2, -2
	addi	a4, t1, 224
	addi	a5, a1, 16
.Lgcm_BB22_2:                               # %join.5
                                        # =>This Inner Loop Header: Depth=1
	vle8.v	v12, (a5)
	addi	t1, a4, -112
	li	a3, 16
	vand.vi	v13, v12, 15
	vsrl.vi	v12, v12, 4
	vrgather.vv	v14, v10, v13
	vrgather.vv	v13, v11, v12
	vxor.vv	v12, v13, v14
	vrgather.vv	v13, v12, v9
	vand.vx	v12, v13, a3
	li	a3, 32
	vand.vx	v14, v13, a3
	li	a3, 64
	vand.vx	v15, v13, a3
	addi	a3, a4, -96
	vand.vi	v16, v13, 1
	vand.vi	v17, v13, 2
	vrsub.vi	v16, v16, 0
	vmsne.vi	v0, v17, 0
	vse8.v	v16, (t1)
	addi	t1, a4, -80
	vmerge.vim	v16, v8, -1, v0
	vse8.v	v16, (a3)
	addi	t3, a4, -64
	vand.vi	v16, v13, 4
	vmsne.vi	v0, v16, 0
	vand.vi	v16, v13, 8
	vmerge.vim	v17, v8, -1, v0
	vmsne.vi	v0, v16, 0
	vse8.v	v17, (t1)
	addi	t1, a4, -48
	vmerge.vim	v16, v8, -1, v0
	vmsne.vi	v0, v12, 0
	vse8.v	v16, (t3)
	addi	t3, a4, -32
	vmerge.vim	v12, v8, -1, v0
	vse8.v	v12, (t1)
	addi	a3, a4, -16
	addi	a2, a2, -1
	vsra.vi	v12, v13, 7
	vmsne.vi	v0, v14, 0
	vse8.v	v12, (a4)
	vmerge.vim	v12, v8, -1, v0
	vmsne.vi	v0, v15, 0
	addi	a4, a4, 128
	vmerge.vim	v13, v8, -1, v0
	vse8.v	v12, (t3)
	vse8.v	v13, (a3)
	addi	a5, a5, 16
	bnez	a2, .Lgcm_BB22_2
.Lgcm_BB22_3:                               # %after.1
	slli	a2, t2, 4
	slli	t2, t2, 7
	add	a1, a1, a2
	add	a0, a0, t2
	vle8.v	v10, (a1)
	addi	a1, a0, 16
	addi	a2, a0, 32
	addi	t1, a0, 48
	vrgather.vv	v11, v10, v9
	vand.vx	v9, v11, a6
	addi	a4, a0, 64
	vand.vx	v10, v11, a7
	addi	a5, a0, 80
	vand.vx	v12, v11, t0
	addi	a3, a0, 96
	vand.vi	v13, v11, 1
	vrsub.vi	v13, v13, 0
	vse8.v	v13, (a0)
	addi	a0, a0, 112
	vand.vi	v13, v11, 2
	vand.vi	v14, v11, 4
	vmsne.vi	v0, v13, 0
	vand.vi	v13, v11, 8
	vmerge.vim	v15, v8, -1, v0
	vmsne.vi	v0, v14, 0
	vsra.vi	v11, v11, 7
	vmerge.vim	v14, v8, -1, v0
	vmsne.vi	v0, v13, 0
	vse8.v	v15, (a1)
	vmerge.vim	v13, v8, -1, v0
	vmsne.vi	v0, v9, 0
	vse8.v	v14, (a2)
	vmerge.vim	v9, v8, -1, v0
	vmsne.vi	v0, v10, 0
	vse8.v	v13, (t1)
	vmerge.vim	v10, v8, -1, v0
	vmsne.vi	v0, v12, 0
	vse8.v	v9, (a4)
	vmerge.vim	v8, v8, -1, v0
	vse8.v	v10, (a5)
	vse8.v	v8, (a3)
	vse8.v	v11, (a0)
	ret
.Lgcm_func_end22:
	.size	gcm.aes_hybrid.plane_keys.store_planes, .Lgcm_func_end22-gcm.aes_hybrid.plane_keys.store_planes
                                        # -- End function
	.section	.rodata.cst16,"aM",@progbits,16
	.p2align	4, 0x0                          # -- Begin function aes_hybrid::batches::process_batches_and_rest::<#2a076538018b6fb3>
.Lgcm_CPI23_0:
	.byte	0                               # 0x0
	.byte	4                               # 0x4
	.byte	8                               # 0x8
	.byte	12                              # 0xc
	.byte	1                               # 0x1
	.byte	5                               # 0x5
	.byte	9                               # 0x9
	.byte	13                              # 0xd
	.byte	2                               # 0x2
	.byte	6                               # 0x6
	.byte	10                              # 0xa
	.byte	14                              # 0xe
	.byte	3                               # 0x3
	.byte	7                               # 0x7
	.byte	11                              # 0xb
	.byte	15                              # 0xf
	.section	.rodata.cst32,"aM",@progbits,32
	.p2align	5, 0x0
.Lgcm_CPI23_1:
	.zero	1
	.zero	1
	.zero	1
	.zero	1
	.zero	1
	.zero	1
	.zero	1
	.zero	1
	.zero	1
	.zero	1
	.zero	1
	.zero	1
	.zero	1
	.zero	1
	.zero	1
	.zero	1
	.byte	0                               # 0x0
	.byte	4                               # 0x4
	.byte	8                               # 0x8
	.byte	12                              # 0xc
	.byte	1                               # 0x1
	.byte	5                               # 0x5
	.byte	9                               # 0x9
	.byte	13                              # 0xd
	.byte	2                               # 0x2
	.byte	6                               # 0x6
	.byte	10                              # 0xa
	.byte	14                              # 0xe
	.byte	3                               # 0x3
	.byte	7                               # 0x7
	.byte	11                              # 0xb
	.byte	15                              # 0xf
	.section	.text.gcm.aes_hybrid.batches.process_batches_and_rest,"ax",@progbits
	.p2align	1
	.type	gcm.aes_hybrid.batches.process_batches_and_rest,@function
gcm.aes_hybrid.batches.process_batches_and_rest: # @gcm.aes_hybrid.batches.process_batches_and_rest
# %bb.0:                                # %join.5.i.lr.ph
	addi	sp, sp, -336
	sd	ra, 328(sp)                     # 8-byte Folded Spill
	sd	s0, 320(sp)                     # 8-byte Folded Spill
	sd	s1, 312(sp)                     # 8-byte Folded Spill
	sd	s2, 304(sp)                     # 8-byte Folded Spill
	sd	s3, 296(sp)                     # 8-byte Folded Spill
	sd	s4, 288(sp)                     # 8-byte Folded Spill
	sd	s5, 280(sp)                     # 8-byte Folded Spill
	sd	s6, 272(sp)                     # 8-byte Folded Spill
	sd	s7, 264(sp)                     # 8-byte Folded Spill
	sd	s8, 256(sp)                     # 8-byte Folded Spill
	sd	s9, 248(sp)                     # 8-byte Folded Spill
	sd	s10, 240(sp)                    # 8-byte Folded Spill
	sd	s11, 232(sp)                    # 8-byte Folded Spill
	csrr	t1, vlenb
	li	t2, 3
	slli	t2, t2, 10
.Lgcm_BB23_1:                               # %join.5.i.lr.ph
                                        # =>This Inner Loop Header: Depth=1
	sub	sp, sp, t2
	sd	zero, 0(sp)
	sub	t1, t1, t2
	bge	t1, t2, .Lgcm_BB23_1
# %bb.2:                                # %join.5.i.lr.ph
	sub	sp, sp, t1
	lui	a4, 262144
	sd	a1, 32(sp)                      # 8-byte Folded Spill
	srli	s1, a1, 3
	addi	a4, a4, -8
	addi	s1, s1, -1
	sd	s1, 64(sp)                      # 8-byte Folded Spill
	sd	a3, 48(sp)                      # 8-byte Folded Spill
	and	a1, a3, a4
	addi	s11, a2, 112
	sd	a1, 40(sp)                      # 8-byte Folded Spill
	slli	a1, a1, 4
	sd	a1, 16(sp)                      # 8-byte Folded Spill
	addi	a1, a1, -16
	andi	a1, a1, -128
	sd	a2, 24(sp)                      # 8-byte Folded Spill
	add	a1, a1, a2
	addi	a1, a1, 240
	sd	a1, 56(sp)                      # 8-byte Folded Spill
.Lgcm_BB23_3:                               # %join.5.i
                                        # =>This Inner Loop Header: Depth=1
	addi	a4, s11, -112
	addi	a3, s11, -96
	addi	s1, s11, -80
	addi	a1, s11, -64
	addi	s0, s11, -48
	addi	a2, s11, -32
	addi	a5, s11, -16
	sd	a5, 72(sp)                      # 8-byte Folded Spill
	vsetivli	zero, 16, e8, m1, ta, ma
	vle8.v	v8, (s11)
	vle8.v	v9, (a3)
.Lgcm_pcrel_hi70:
	auipc	a3, %pcrel_hi(.Lgcm_CPI23_0)
	vle8.v	v10, (a1)
	li	s9, 85
	addi	a1, a3, %pcrel_lo(.Lgcm_pcrel_hi70)
	vle8.v	v16, (a1)
	li	s8, 51
	vle8.v	v11, (a4)
	vle8.v	v12, (s1)
	vle8.v	v13, (s0)
	vle8.v	v14, (a2)
	vle8.v	v15, (a5)
	vmv.v.v	v17, v16
	addi	a1, sp, 224
	vs1r.v	v16, (a1)                       # vscale x 8-byte Folded Spill
	vrgather.vv	v16, v11, v17
	vrgather.vv	v11, v9, v17
	vrgather.vv	v9, v12, v17
	vrgather.vv	v12, v10, v17
	vrgather.vv	v10, v13, v17
	vrgather.vv	v13, v14, v17
	vrgather.vv	v14, v15, v17
	vrgather.vv	v15, v8, v17
	vsrl.vi	v8, v16, 1
	vsrl.vi	v17, v9, 1
	vsrl.vi	v18, v10, 1
	vsrl.vi	v19, v14, 1
	vxor.vv	v8, v11, v8
	vxor.vv	v17, v12, v17
	vxor.vv	v18, v13, v18
	vxor.vv	v19, v15, v19
	vand.vx	v8, v8, s9
	vand.vx	v17, v17, s9
	vand.vx	v18, v18, s9
	vand.vx	v19, v19, s9
	vxor.vv	v11, v8, v11
	vadd.vv	v8, v8, v8
	vxor.vv	v12, v17, v12
	vadd.vv	v17, v17, v17
	vxor.vv	v13, v18, v13
	vadd.vv	v18, v18, v18
	vxor.vv	v15, v19, v15
	vadd.vv	v19, v19, v19
	vxor.vv	v8, v8, v16
	vxor.vv	v9, v17, v9
	vxor.vv	v10, v18, v10
	vxor.vv	v14, v19, v14
	vsrl.vi	v16, v11, 2
	vsrl.vi	v17, v13, 2
	vsrl.vi	v18, v8, 2
	vsrl.vi	v19, v10, 2
	vxor.vv	v16, v12, v16
	vxor.vv	v17, v15, v17
	vxor.vv	v18, v9, v18
	vxor.vv	v19, v14, v19
	vand.vx	v16, v16, s8
	vand.vx	v17, v17, s8
	vand.vx	v18, v18, s8
	vand.vx	v19, v19, s8
	vxor.vv	v12, v16, v12
	vsll.vi	v16, v16, 2
	vxor.vv	v15, v17, v15
	vsll.vi	v17, v17, 2
	vxor.vv	v9, v18, v9
	vsll.vi	v18, v18, 2
	vxor.vv	v14, v19, v14
	vsll.vi	v19, v19, 2
	vxor.vv	v11, v16, v11
	vxor.vv	v13, v17, v13
	vsrl.vi	v16, v12, 4
	vand.vi	v17, v15, 15
	vxor.vv	v8, v18, v8
	vxor.vv	v10, v19, v10
	vsrl.vi	v18, v11, 4
	vand.vi	v19, v13, 15
	vsrl.vi	v20, v9, 4
	vxor.vv	v16, v17, v16
	vand.vi	v17, v14, 15
	vxor.vv	v18, v19, v18
	vsrl.vi	v19, v8, 4
	vxor.vv	v17, v17, v20
	vand.vi	v20, v10, 15
	vxor.vv	v19, v20, v19
	vxor.vv	v15, v16, v15
	vsll.vi	v16, v16, 4
	vxor.vv	v12, v16, v12
	vxor.vv	v13, v18, v13
	vsll.vi	v16, v18, 4
	vxor.vv	v11, v16, v11
	addi	s10, sp, 80
	vxor.vv	v14, v17, v14
	vsll.vi	v16, v17, 4
	vxor.vv	v10, v19, v10
	vsll.vi	v17, v19, 4
	vxor.vv	v9, v16, v9
	addi	s3, sp, 128
	vse8.v	v12, (s3)
	addi	s6, sp, 160
	vse8.v	v13, (s6)
	addi	s7, sp, 176
	vse8.v	v14, (s7)
	vxor.vv	v8, v17, v8
	addi	s2, sp, 96
	vse8.v	v11, (s2)
	addi	s0, sp, 112
	vse8.v	v9, (s0)
	addi	s4, sp, 144
	vse8.v	v10, (s4)
	vse8.v	v8, (s10)
	addi	s5, sp, 192
	vse8.v	v15, (s5)
	addi	a2, sp, 80
	ld	a1, 64(sp)                      # 8-byte Folded Reload
	mv	s1, a0
	call	gcm.aes_soft.soft.ciphers.planes.EncryptPlaneCipher.process_planes
	mv	a0, s1
	vsetivli	zero, 16, e8, m1, ta, ma
	vle8.v	v12, (s10)
	li	a3, 32
.Lgcm_pcrel_hi71:
	auipc	a1, %pcrel_hi(.Lgcm_CPI23_1)
	addi	a1, a1, %pcrel_lo(.Lgcm_pcrel_hi71)
	vsetvli	zero, a3, e8, m2, ta, ma
	vle8.v	v8, (a1)
	vsetivli	zero, 16, e8, m1, ta, ma
	vle8.v	v13, (s2)
	vle8.v	v14, (s0)
	vle8.v	v15, (s3)
	vle8.v	v16, (s4)
	vle8.v	v17, (s6)
	vle8.v	v18, (s7)
	vle8.v	v19, (s5)
	vsrl.vi	v10, v12, 1
	vsrl.vi	v11, v14, 1
	vsrl.vi	v20, v16, 1
	vsrl.vi	v21, v18, 1
	vxor.vv	v10, v13, v10
	vxor.vv	v11, v15, v11
	vxor.vv	v20, v17, v20
	vxor.vv	v21, v19, v21
	vand.vx	v22, v10, s9
	vand.vx	v23, v11, s9
	vand.vx	v20, v20, s9
	vand.vx	v21, v21, s9
	csrr	a1, vlenb
	vsetvli	zero, a3, e8, m2, ta, ma
	vslidedown.vx	v10, v8, a1
	lui	a1, 1048560
	vsetivli	zero, 16, e8, m1, ta, ma
	vxor.vv	v9, v22, v13
	vadd.vv	v11, v22, v22
	vxor.vv	v13, v23, v15
	vadd.vv	v15, v23, v23
	vxor.vv	v17, v20, v17
	vadd.vv	v20, v20, v20
	vxor.vv	v19, v21, v19
	vadd.vv	v21, v21, v21
	vxor.vv	v11, v11, v12
	vxor.vv	v12, v15, v14
	vxor.vv	v14, v20, v16
	vxor.vv	v15, v21, v18
	vsrl.vi	v16, v9, 2
	vsrl.vi	v18, v17, 2
	vsrl.vi	v20, v11, 2
	vsrl.vi	v21, v14, 2
	vxor.vv	v16, v13, v16
	vxor.vv	v18, v19, v18
	vxor.vv	v20, v12, v20
	vxor.vv	v21, v15, v21
	vand.vx	v16, v16, s8
	vand.vx	v18, v18, s8
	vand.vx	v20, v20, s8
	vand.vx	v21, v21, s8
	vxor.vv	v13, v16, v13
	vsll.vi	v16, v16, 2
	vxor.vv	v19, v18, v19
	vsll.vi	v18, v18, 2
	vxor.vv	v22, v20, v12
	vsll.vi	v12, v20, 2
	vxor.vv	v20, v21, v15
	vsll.vi	v15, v21, 2
	vxor.vv	v9, v16, v9
	vxor.vv	v16, v18, v17
	vsrl.vi	v17, v13, 4
	vand.vi	v18, v19, 15
	vxor.vv	v21, v12, v11
	vxor.vv	v23, v15, v14
	vsrl.vi	v11, v9, 4
	vand.vi	v12, v16, 15
	vxor.vv	v14, v18, v17
	vxor.vv	v11, v12, v11
	vxor.vv	v15, v14, v19
	vsll.vi	v12, v14, 4
	vxor.vv	v18, v11, v16
	vsll.vi	v11, v11, 4
	vxor.vv	v14, v12, v13
	vsetvli	a2, zero, e8, m1, ta, ma
	vrgather.vv	v13, v15, v10
	vsetivli	zero, 16, e8, m1, ta, ma
	vxor.vv	v9, v11, v9
	vsetvli	a2, zero, e8, m1, ta, ma
	vrgather.vv	v17, v14, v10
	vrgather.vv	v12, v15, v8
	vrgather.vv	v16, v14, v8
	vrgather.vv	v15, v18, v10
	vrgather.vv	v14, v18, v8
	vsetvli	zero, zero, e32, m4, ta, ma
	vmv.s.x	v0, a1
	vsetvli	zero, zero, e8, m1, ta, ma
	vrgather.vv	v11, v9, v10
	vrgather.vv	v10, v9, v8
	vsetivli	zero, 16, e8, m1, ta, ma
	vsrl.vi	v8, v22, 4
	vand.vi	v9, v20, 15
	vsrl.vi	v18, v21, 4
	vxor.vv	v8, v9, v8
	vand.vi	v9, v23, 15
	vxor.vv	v9, v9, v18
	vxor.vv	v18, v8, v20
	vsll.vi	v8, v8, 4
	vxor.vv	v19, v9, v23
	vsll.vi	v9, v9, 4
	vxor.vv	v20, v8, v22
	addi	a1, sp, 224
	vl1r.v	v22, (a1)                       # vscale x 8-byte Folded Reload
	vrgather.vv	v8, v18, v22
	vxor.vv	v9, v9, v21
	vrgather.vv	v18, v9, v22
	vsetvli	zero, a3, e8, m2, ta, ma
	vmerge.vvm	v10, v18, v10, v0
	vsetivli	zero, 16, e8, m1, ta, ma
	vrgather.vv	v18, v20, v22
	vrgather.vv	v20, v19, v22
	vsetvli	zero, a3, e8, m2, ta, ma
	vmerge.vvm	v16, v18, v16, v0
	addi	a1, s11, -112
	vse8.v	v10, (a1)
	addi	a1, s11, -80
	vse8.v	v16, (a1)
	vmerge.vvm	v10, v20, v14, v0
	addi	a1, s11, -48
	vse8.v	v10, (a1)
	vmerge.vvm	v8, v8, v12, v0
	addi	s11, s11, 128
	ld	a1, 72(sp)                      # 8-byte Folded Reload
	vse8.v	v8, (a1)
	ld	a1, 56(sp)                      # 8-byte Folded Reload
	bne	s11, a1, .Lgcm_BB23_3
# %bb.4:                                # %"aes_soft::soft::blocks::slices::process_batches_under::<#083782f7c613e34b>.exit"
	ld	a3, 48(sp)                      # 8-byte Folded Reload
	ld	a1, 40(sp)                      # 8-byte Folded Reload
	bne	a1, a3, .Lgcm_BB23_6
# %bb.5:                                # %join.5
	csrr	a0, vlenb
	add	sp, sp, a0
	ld	ra, 328(sp)                     # 8-byte Folded Reload
	ld	s0, 320(sp)                     # 8-byte Folded Reload
	ld	s1, 312(sp)                     # 8-byte Folded Reload
	ld	s2, 304(sp)                     # 8-byte Folded Reload
	ld	s3, 296(sp)                     # 8-byte Folded Reload
	ld	s4, 288(sp)                     # 8-byte Folded Reload
	ld	s5, 280(sp)                     # 8-byte Folded Reload
	ld	s6, 272(sp)                     # 8-byte Folded Reload
	ld	s7, 264(sp)                     # 8-byte Folded Reload
	ld	s8, 256(sp)                     # 8-byte Folded Reload
	ld	s9, 248(sp)                     # 8-byte Folded Reload
	ld	s10, 240(sp)                    # 8-byte Folded Reload
	ld	s11, 232(sp)                    # 8-byte Folded Reload
	addi	sp, sp, 336
	ret
.Lgcm_BB23_6:                               # %then.3
	andi	a3, a3, 7
	ld	a2, 24(sp)                      # 8-byte Folded Reload
	ld	a1, 16(sp)                      # 8-byte Folded Reload
	add	a2, a2, a1
	ld	a1, 32(sp)                      # 8-byte Folded Reload
	csrr	a4, vlenb
	add	sp, sp, a4
	ld	ra, 328(sp)                     # 8-byte Folded Reload
	ld	s0, 320(sp)                     # 8-byte Folded Reload
	ld	s1, 312(sp)                     # 8-byte Folded Reload
	ld	s2, 304(sp)                     # 8-byte Folded Reload
	ld	s3, 296(sp)                     # 8-byte Folded Reload
	ld	s4, 288(sp)                     # 8-byte Folded Reload
	ld	s5, 280(sp)                     # 8-byte Folded Reload
	ld	s6, 272(sp)                     # 8-byte Folded Reload
	ld	s7, 264(sp)                     # 8-byte Folded Reload
	ld	s8, 256(sp)                     # 8-byte Folded Reload
	ld	s9, 248(sp)                     # 8-byte Folded Reload
	ld	s10, 240(sp)                    # 8-byte Folded Reload
	ld	s11, 232(sp)                    # 8-byte Folded Reload
	addi	sp, sp, 336
	tail	gcm.aes_soft.soft.blocks.filled_up.process_filled_up
.Lgcm_func_end23:
	.size	gcm.aes_hybrid.batches.process_batches_and_rest, .Lgcm_func_end23-gcm.aes_hybrid.batches.process_batches_and_rest
                                        # -- End function
	.section	.rodata.cst16,"aM",@progbits,16
	.p2align	4, 0x0                          # -- Begin function aes_soft::soft::ciphers::planes::process_outlined::<#bddb9db0bc69ed2a>
.Lgcm_CPI24_0:
	.byte	0                               # 0x0
	.byte	4                               # 0x4
	.byte	8                               # 0x8
	.byte	12                              # 0xc
	.byte	1                               # 0x1
	.byte	5                               # 0x5
	.byte	9                               # 0x9
	.byte	13                              # 0xd
	.byte	2                               # 0x2
	.byte	6                               # 0x6
	.byte	10                              # 0xa
	.byte	14                              # 0xe
	.byte	3                               # 0x3
	.byte	7                               # 0x7
	.byte	11                              # 0xb
	.byte	15                              # 0xf
	.section	.rodata.cst32,"aM",@progbits,32
	.p2align	5, 0x0
.Lgcm_CPI24_1:
	.zero	1
	.zero	1
	.zero	1
	.zero	1
	.zero	1
	.zero	1
	.zero	1
	.zero	1
	.zero	1
	.zero	1
	.zero	1
	.zero	1
	.zero	1
	.zero	1
	.zero	1
	.zero	1
	.byte	0                               # 0x0
	.byte	4                               # 0x4
	.byte	8                               # 0x8
	.byte	12                              # 0xc
	.byte	1                               # 0x1
	.byte	5                               # 0x5
	.byte	9                               # 0x9
	.byte	13                              # 0xd
	.byte	2                               # 0x2
	.byte	6                               # 0x6
	.byte	10                              # 0xa
	.byte	14                              # 0xe
	.byte	3                               # 0x3
	.byte	7                               # 0x7
	.byte	11                              # 0xb
	.byte	15                              # 0xf
	.section	.text.gcm.aes_soft.soft.ciphers.planes.process_outlined,"ax",@progbits
	.p2align	1
	.type	gcm.aes_soft.soft.ciphers.planes.process_outlined,@function
gcm.aes_soft.soft.ciphers.planes.process_outlined: # @gcm.aes_soft.soft.ciphers.planes.process_outlined
# %bb.0:                                # %start
	addi	sp, sp, -272
	sd	ra, 264(sp)                     # 8-byte Folded Spill
	sd	s0, 256(sp)                     # 8-byte Folded Spill
	sd	s1, 248(sp)                     # 8-byte Folded Spill
	sd	s2, 240(sp)                     # 8-byte Folded Spill
	sd	s3, 232(sp)                     # 8-byte Folded Spill
	sd	s4, 224(sp)                     # 8-byte Folded Spill
	sd	s5, 216(sp)                     # 8-byte Folded Spill
	sd	s6, 208(sp)                     # 8-byte Folded Spill
	sd	s7, 200(sp)                     # 8-byte Folded Spill
	sd	s8, 192(sp)                     # 8-byte Folded Spill
	sd	s9, 184(sp)                     # 8-byte Folded Spill
	sd	s10, 176(sp)                    # 8-byte Folded Spill
	sd	s11, 168(sp)                    # 8-byte Folded Spill
	csrr	t1, vlenb
	li	t2, 3
	slli	t2, t2, 10
.Lgcm_BB24_1:                               # %start
                                        # =>This Inner Loop Header: Depth=1
	sub	sp, sp, t2
	sd	zero, 0(sp)
	sub	t1, t1, t2
	bge	t1, t2, .Lgcm_BB24_1
# %bb.2:                                # %start
	sub	sp, sp, t1
	mv	a6, a2
	mv	a7, a1
	mv	s2, a0
	addi	a0, a3, 16
	vsetivli	zero, 16, e8, m1, ta, ma
	vle8.v	v8, (a3)
.Lgcm_pcrel_hi72:
	auipc	a2, %pcrel_hi(.Lgcm_CPI24_0)
	addi	a5, a3, 32
	addi	a4, a3, 48
	addi	a1, a3, 64
	addi	s1, a3, 80
	addi	s0, a3, 96
	addi	a3, a3, 112
	li	s5, 85
	li	s4, 51
	addi	a2, a2, %pcrel_lo(.Lgcm_pcrel_hi72)
	vle8.v	v9, (a0)
	vle8.v	v10, (a5)
	vle8.v	v11, (a4)
	vle8.v	v12, (a1)
	vle8.v	v17, (a2)
	addi	a0, sp, 160
	vs1r.v	v17, (a0)                       # vscale x 8-byte Folded Spill
	vle8.v	v13, (s1)
	vle8.v	v14, (s0)
	vle8.v	v15, (a3)
	vrgather.vv	v16, v8, v17
	vrgather.vv	v8, v9, v17
	vrgather.vv	v9, v10, v17
	vrgather.vv	v10, v11, v17
	vrgather.vv	v11, v12, v17
	vrgather.vv	v12, v13, v17
	vrgather.vv	v13, v14, v17
	vrgather.vv	v14, v15, v17
	vsrl.vi	v15, v16, 1
	vsrl.vi	v17, v9, 1
	vsrl.vi	v18, v11, 1
	vsrl.vi	v19, v13, 1
	vxor.vv	v15, v8, v15
	vxor.vv	v17, v10, v17
	vxor.vv	v18, v12, v18
	vxor.vv	v19, v14, v19
	vand.vx	v15, v15, s5
	vand.vx	v17, v17, s5
	vand.vx	v18, v18, s5
	vand.vx	v19, v19, s5
	vxor.vv	v8, v15, v8
	vadd.vv	v15, v15, v15
	vxor.vv	v10, v17, v10
	vadd.vv	v17, v17, v17
	vxor.vv	v12, v18, v12
	vadd.vv	v18, v18, v18
	vxor.vv	v14, v19, v14
	vadd.vv	v19, v19, v19
	vxor.vv	v15, v15, v16
	vxor.vv	v9, v17, v9
	vxor.vv	v11, v18, v11
	vxor.vv	v13, v19, v13
	vsrl.vi	v16, v8, 2
	vsrl.vi	v17, v12, 2
	vsrl.vi	v18, v15, 2
	vsrl.vi	v19, v11, 2
	vxor.vv	v16, v10, v16
	vxor.vv	v17, v14, v17
	vxor.vv	v18, v9, v18
	vxor.vv	v19, v13, v19
	vand.vx	v16, v16, s4
	vand.vx	v17, v17, s4
	vand.vx	v18, v18, s4
	vand.vx	v19, v19, s4
	vxor.vv	v10, v16, v10
	vsll.vi	v16, v16, 2
	vxor.vv	v14, v17, v14
	vsll.vi	v17, v17, 2
	vxor.vv	v9, v18, v9
	vsll.vi	v18, v18, 2
	vxor.vv	v13, v19, v13
	vsll.vi	v19, v19, 2
	vxor.vv	v8, v16, v8
	vxor.vv	v12, v17, v12
	vsrl.vi	v16, v10, 4
	vand.vi	v17, v14, 15
	vxor.vv	v15, v18, v15
	vxor.vv	v11, v19, v11
	vsrl.vi	v18, v8, 4
	vand.vi	v19, v12, 15
	vsrl.vi	v20, v9, 4
	vxor.vv	v16, v17, v16
	vand.vi	v17, v13, 15
	vxor.vv	v18, v19, v18
	vsrl.vi	v19, v15, 4
	vxor.vv	v17, v17, v20
	vand.vi	v20, v11, 15
	vxor.vv	v19, v20, v19
	vxor.vv	v14, v16, v14
	vsll.vi	v16, v16, 4
	vxor.vv	v10, v16, v10
	vxor.vv	v12, v18, v12
	vsll.vi	v16, v18, 4
	vxor.vv	v8, v16, v8
	addi	s3, s2, 32
	addi	s6, sp, 32
	addi	s7, sp, 16
	addi	s8, sp, 48
	addi	s9, sp, 64
	addi	s10, sp, 80
	addi	s11, sp, 96
	addi	s0, sp, 112
	addi	s1, sp, 128
	vxor.vv	v13, v17, v13
	vsll.vi	v16, v17, 4
	vxor.vv	v11, v19, v11
	vsll.vi	v17, v19, 4
	vxor.vv	v9, v16, v9
	vse8.v	v10, (s9)
	vse8.v	v12, (s11)
	vse8.v	v13, (s0)
	vxor.vv	v10, v17, v15
	vse8.v	v8, (s6)
	vse8.v	v9, (s8)
	vse8.v	v11, (s10)
	vse8.v	v10, (s7)
	vse8.v	v14, (s1)
	addi	a2, sp, 16
	mv	a0, a7
	mv	a1, a6
	call	gcm.aes_soft.soft.ciphers.planes.EncryptPlaneCipher.process_planes
	vsetivli	zero, 16, e8, m1, ta, ma
	vle8.v	v12, (s7)
	vle8.v	v16, (s6)
	vle8.v	v13, (s8)
	vle8.v	v17, (s9)
	vle8.v	v14, (s10)
	vle8.v	v18, (s11)
	vle8.v	v15, (s0)
	vle8.v	v19, (s1)
	li	a0, 32
.Lgcm_pcrel_hi73:
	auipc	a4, %pcrel_hi(.Lgcm_CPI24_1)
	csrr	a5, vlenb
	lui	a3, 1048560
	addi	a1, s2, 64
	addi	a2, s2, 96
	addi	a4, a4, %pcrel_lo(.Lgcm_pcrel_hi73)
	vsetvli	zero, a0, e8, m2, ta, ma
	vle8.v	v8, (a4)
	vsetivli	zero, 16, e8, m1, ta, ma
	vsrl.vi	v10, v12, 1
	vsrl.vi	v11, v13, 1
	vsrl.vi	v20, v14, 1
	vsrl.vi	v21, v15, 1
	vxor.vv	v10, v16, v10
	vxor.vv	v11, v17, v11
	vxor.vv	v20, v18, v20
	vxor.vv	v21, v19, v21
	vand.vx	v22, v10, s5
	vand.vx	v23, v11, s5
	vand.vx	v20, v20, s5
	vand.vx	v21, v21, s5
	vsetvli	zero, a0, e8, m2, ta, ma
	vslidedown.vx	v10, v8, a5
	vsetivli	zero, 16, e8, m1, ta, ma
	vxor.vv	v9, v22, v16
	vadd.vv	v11, v22, v22
	vxor.vv	v16, v23, v17
	vadd.vv	v17, v23, v23
	vxor.vv	v18, v20, v18
	vadd.vv	v20, v20, v20
	vxor.vv	v19, v21, v19
	vadd.vv	v21, v21, v21
	vxor.vv	v11, v11, v12
	vxor.vv	v12, v17, v13
	vxor.vv	v13, v20, v14
	vxor.vv	v14, v21, v15
	vsrl.vi	v15, v9, 2
	vsrl.vi	v17, v18, 2
	vsrl.vi	v20, v11, 2
	vsrl.vi	v21, v13, 2
	vxor.vv	v15, v16, v15
	vxor.vv	v17, v19, v17
	vxor.vv	v20, v12, v20
	vxor.vv	v21, v14, v21
	vand.vx	v15, v15, s4
	vand.vx	v17, v17, s4
	vand.vx	v20, v20, s4
	vand.vx	v21, v21, s4
	vxor.vv	v16, v15, v16
	vsll.vi	v15, v15, 2
	vxor.vv	v19, v17, v19
	vsll.vi	v17, v17, 2
	vxor.vv	v22, v20, v12
	vsll.vi	v12, v20, 2
	vxor.vv	v20, v21, v14
	vsll.vi	v14, v21, 2
	vxor.vv	v9, v15, v9
	vxor.vv	v15, v17, v18
	vsrl.vi	v17, v16, 4
	vand.vi	v18, v19, 15
	vxor.vv	v21, v12, v11
	vxor.vv	v23, v14, v13
	vsrl.vi	v11, v9, 4
	vand.vi	v12, v15, 15
	vxor.vv	v13, v18, v17
	vxor.vv	v11, v12, v11
	vxor.vv	v14, v13, v19
	vsll.vi	v12, v13, 4
	vxor.vv	v18, v11, v15
	vsll.vi	v11, v11, 4
	vxor.vv	v15, v12, v16
	vsetvli	a4, zero, e8, m1, ta, ma
	vrgather.vv	v13, v14, v10
	vsetivli	zero, 16, e8, m1, ta, ma
	vxor.vv	v9, v11, v9
	vsetvli	a4, zero, e8, m1, ta, ma
	vrgather.vv	v17, v15, v10
	vrgather.vv	v12, v14, v8
	vrgather.vv	v16, v15, v8
	vrgather.vv	v15, v18, v10
	vrgather.vv	v14, v18, v8
	vsetvli	zero, zero, e32, m4, ta, ma
	vmv.s.x	v0, a3
	vsetvli	zero, zero, e8, m1, ta, ma
	vrgather.vv	v11, v9, v10
	vrgather.vv	v10, v9, v8
	vsetivli	zero, 16, e8, m1, ta, ma
	vsrl.vi	v8, v22, 4
	vand.vi	v9, v20, 15
	vsrl.vi	v18, v21, 4
	vxor.vv	v8, v9, v8
	vand.vi	v9, v23, 15
	vxor.vv	v9, v9, v18
	vxor.vv	v18, v8, v20
	vsll.vi	v8, v8, 4
	vxor.vv	v19, v9, v23
	vsll.vi	v9, v9, 4
	vxor.vv	v20, v8, v22
	addi	a3, sp, 160
	vl1r.v	v22, (a3)                       # vscale x 8-byte Folded Reload
	vrgather.vv	v8, v18, v22
	vxor.vv	v9, v9, v21
	vrgather.vv	v18, v9, v22
	vsetvli	zero, a0, e8, m2, ta, ma
	vmerge.vvm	v10, v18, v10, v0
	vsetivli	zero, 16, e8, m1, ta, ma
	vrgather.vv	v18, v20, v22
	vrgather.vv	v20, v19, v22
	vsetvli	zero, a0, e8, m2, ta, ma
	vmerge.vvm	v16, v18, v16, v0
	vse8.v	v10, (s2)
	vse8.v	v16, (s3)
	vmerge.vvm	v10, v20, v14, v0
	vse8.v	v10, (a1)
	vmerge.vvm	v8, v8, v12, v0
	vse8.v	v8, (a2)
	csrr	a0, vlenb
	add	sp, sp, a0
	ld	ra, 264(sp)                     # 8-byte Folded Reload
	ld	s0, 256(sp)                     # 8-byte Folded Reload
	ld	s1, 248(sp)                     # 8-byte Folded Reload
	ld	s2, 240(sp)                     # 8-byte Folded Reload
	ld	s3, 232(sp)                     # 8-byte Folded Reload
	ld	s4, 224(sp)                     # 8-byte Folded Reload
	ld	s5, 216(sp)                     # 8-byte Folded Reload
	ld	s6, 208(sp)                     # 8-byte Folded Reload
	ld	s7, 200(sp)                     # 8-byte Folded Reload
	ld	s8, 192(sp)                     # 8-byte Folded Reload
	ld	s9, 184(sp)                     # 8-byte Folded Reload
	ld	s10, 176(sp)                    # 8-byte Folded Reload
	ld	s11, 168(sp)                    # 8-byte Folded Reload
	addi	sp, sp, 272
	ret
.Lgcm_func_end24:
	.size	gcm.aes_soft.soft.ciphers.planes.process_outlined, .Lgcm_func_end24-gcm.aes_soft.soft.ciphers.planes.process_outlined
                                        # -- End function
	.section	.rodata.cst16,"aM",@progbits,16
	.p2align	4, 0x0                          # -- Begin function aes_soft::soft::ciphers::planes::EncryptPlaneCipher::process_planes::<#eab796f82dda8b4f>
.Lgcm_CPI25_0:
	.byte	5                               # 0x5
	.byte	6                               # 0x6
	.byte	7                               # 0x7
	.byte	8                               # 0x8
	.byte	9                               # 0x9
	.byte	10                              # 0xa
	.byte	11                              # 0xb
	.byte	12                              # 0xc
	.byte	13                              # 0xd
	.byte	14                              # 0xe
	.byte	15                              # 0xf
	.byte	0                               # 0x0
	.byte	1                               # 0x1
	.byte	2                               # 0x2
	.byte	3                               # 0x3
	.byte	4                               # 0x4
.Lgcm_CPI25_1:
	.byte	1                               # 0x1
	.byte	2                               # 0x2
	.byte	3                               # 0x3
	.byte	4                               # 0x4
	.byte	5                               # 0x5
	.byte	6                               # 0x6
	.byte	7                               # 0x7
	.byte	8                               # 0x8
	.byte	9                               # 0x9
	.byte	10                              # 0xa
	.byte	11                              # 0xb
	.byte	12                              # 0xc
	.byte	13                              # 0xd
	.byte	14                              # 0xe
	.byte	15                              # 0xf
	.byte	0                               # 0x0
.Lgcm_CPI25_2:
	.byte	10                              # 0xa
	.byte	11                              # 0xb
	.byte	12                              # 0xc
	.byte	13                              # 0xd
	.byte	14                              # 0xe
	.byte	15                              # 0xf
	.byte	0                               # 0x0
	.byte	1                               # 0x1
	.byte	2                               # 0x2
	.byte	3                               # 0x3
	.byte	4                               # 0x4
	.byte	5                               # 0x5
	.byte	6                               # 0x6
	.byte	7                               # 0x7
	.byte	8                               # 0x8
	.byte	9                               # 0x9
.Lgcm_CPI25_3:
	.byte	6                               # 0x6
	.byte	7                               # 0x7
	.byte	8                               # 0x8
	.byte	9                               # 0x9
	.byte	10                              # 0xa
	.byte	11                              # 0xb
	.byte	12                              # 0xc
	.byte	13                              # 0xd
	.byte	14                              # 0xe
	.byte	15                              # 0xf
	.byte	0                               # 0x0
	.byte	1                               # 0x1
	.byte	2                               # 0x2
	.byte	3                               # 0x3
	.byte	4                               # 0x4
	.byte	5                               # 0x5
.Lgcm_CPI25_4:
	.byte	2                               # 0x2
	.byte	3                               # 0x3
	.byte	4                               # 0x4
	.byte	5                               # 0x5
	.byte	6                               # 0x6
	.byte	7                               # 0x7
	.byte	8                               # 0x8
	.byte	9                               # 0x9
	.byte	10                              # 0xa
	.byte	11                              # 0xb
	.byte	12                              # 0xc
	.byte	13                              # 0xd
	.byte	14                              # 0xe
	.byte	15                              # 0xf
	.byte	0                               # 0x0
	.byte	1                               # 0x1
.Lgcm_CPI25_5:
	.byte	8                               # 0x8
	.byte	9                               # 0x9
	.byte	10                              # 0xa
	.byte	11                              # 0xb
	.byte	12                              # 0xc
	.byte	13                              # 0xd
	.byte	14                              # 0xe
	.byte	15                              # 0xf
	.byte	0                               # 0x0
	.byte	1                               # 0x1
	.byte	2                               # 0x2
	.byte	3                               # 0x3
	.byte	4                               # 0x4
	.byte	5                               # 0x5
	.byte	6                               # 0x6
	.byte	7                               # 0x7
.Lgcm_CPI25_6:
	.byte	7                               # 0x7
	.byte	8                               # 0x8
	.byte	9                               # 0x9
	.byte	10                              # 0xa
	.byte	11                              # 0xb
	.byte	12                              # 0xc
	.byte	13                              # 0xd
	.byte	14                              # 0xe
	.byte	15                              # 0xf
	.byte	0                               # 0x0
	.byte	1                               # 0x1
	.byte	2                               # 0x2
	.byte	3                               # 0x3
	.byte	4                               # 0x4
	.byte	5                               # 0x5
	.byte	6                               # 0x6
.Lgcm_CPI25_7:
	.byte	3                               # 0x3
	.byte	4                               # 0x4
	.byte	5                               # 0x5
	.byte	6                               # 0x6
	.byte	7                               # 0x7
	.byte	8                               # 0x8
	.byte	9                               # 0x9
	.byte	10                              # 0xa
	.byte	11                              # 0xb
	.byte	12                              # 0xc
	.byte	13                              # 0xd
	.byte	14                              # 0xe
	.byte	15                              # 0xf
	.byte	0                               # 0x0
	.byte	1                               # 0x1
	.byte	2                               # 0x2
.Lgcm_CPI25_8:
	.byte	4                               # 0x4
	.byte	5                               # 0x5
	.byte	6                               # 0x6
	.byte	7                               # 0x7
	.byte	8                               # 0x8
	.byte	9                               # 0x9
	.byte	10                              # 0xa
	.byte	11                              # 0xb
	.byte	12                              # 0xc
	.byte	13                              # 0xd
	.byte	14                              # 0xe
	.byte	15                              # 0xf
	.byte	0                               # 0x0
	.byte	1                               # 0x1
	.byte	2                               # 0x2
	.byte	3                               # 0x3
.Lgcm_CPI25_9:
	.byte	2                               # 0x2
	.byte	3                               # 0x3
	.byte	4                               # 0x4
	.byte	5                               # 0x5
	.byte	6                               # 0x6
	.byte	7                               # 0x7
	.byte	8                               # 0x8
	.byte	9                               # 0x9
	.byte	10                              # 0xa
	.byte	11                              # 0xb
	.byte	12                              # 0xc
	.byte	13                              # 0xd
	.byte	14                              # 0xe
	.byte	15                              # 0xf
	.byte	128                             # 0x80
	.byte	129                             # 0x81
	.section	.text.gcm.aes_soft.soft.ciphers.planes.EncryptPlaneCipher.process_planes,"ax",@progbits
	.p2align	1
	.type	gcm.aes_soft.soft.ciphers.planes.EncryptPlaneCipher.process_planes,@function
gcm.aes_soft.soft.ciphers.planes.EncryptPlaneCipher.process_planes: # @gcm.aes_soft.soft.ciphers.planes.EncryptPlaneCipher.process_planes
# %bb.0:                                # %start
	addi	sp, sp, -80
	sd	s0, 72(sp)                      # 8-byte Folded Spill
	sd	s1, 64(sp)                      # 8-byte Folded Spill
	sd	s2, 56(sp)                      # 8-byte Folded Spill
	sd	s3, 48(sp)                      # 8-byte Folded Spill
	sd	s4, 40(sp)                      # 8-byte Folded Spill
	csrr	t1, vlenb
	slli	t1, t1, 3
	li	t2, 3
	slli	t2, t2, 10
.Lgcm_BB25_1:                               # %start
                                        # =>This Inner Loop Header: Depth=1
	sub	sp, sp, t2
	sd	zero, 0(sp)
	sub	t1, t1, t2
	bge	t1, t2, .Lgcm_BB25_1
# %bb.2:                                # %start
	sub	sp, sp, t1
	addi	s3, a0, 16
	addi	a6, a2, 16
	addi	t4, a1, -2
	vsetivli	zero, 16, e8, m1, ta, ma
	vle8.v	v8, (a2)
	addi	t1, a2, 32
	addi	a7, a2, 48
	addi	t0, a2, 64
	addi	s2, a2, 80
	addi	t5, a2, 96
	addi	t6, a2, 112
	vle8.v	v11, (a0)
	addi	a3, a0, 32
	addi	a4, a0, 48
	addi	s1, a0, 64
	addi	s0, a0, 80
	addi	a5, a0, 96
	vle8.v	v12, (a3)
	addi	a3, a0, 112
	vle8.v	v13, (a4)
.Lgcm_pcrel_hi74:
	auipc	a4, %pcrel_hi(.Lgcm_CPI25_0)
	vle8.v	v14, (s1)
.Lgcm_pcrel_hi75:
	auipc	s1, %pcrel_hi(.Lgcm_CPI25_1)
	vle8.v	v15, (s0)
.Lgcm_pcrel_hi76:
	auipc	s0, %pcrel_hi(.Lgcm_CPI25_2)
	vle8.v	v16, (a5)
.Lgcm_pcrel_hi77:
	auipc	a5, %pcrel_hi(.Lgcm_CPI25_3)
	vle8.v	v17, (a3)
.Lgcm_pcrel_hi78:
	auipc	t2, %pcrel_hi(.Lgcm_CPI25_4)
	addi	a4, a4, %pcrel_lo(.Lgcm_pcrel_hi74)
	vle8.v	v25, (a4)
.Lgcm_pcrel_hi79:
	auipc	a4, %pcrel_hi(.Lgcm_CPI25_5)
	addi	s1, s1, %pcrel_lo(.Lgcm_pcrel_hi75)
	vle8.v	v26, (s1)
.Lgcm_pcrel_hi80:
	auipc	s1, %pcrel_hi(.Lgcm_CPI25_6)
	addi	s0, s0, %pcrel_lo(.Lgcm_pcrel_hi76)
	vle8.v	v9, (s0)
	csrr	a3, vlenb
	li	t3, 6
	mul	a3, a3, t3
	add	a3, a3, sp
	addi	a3, a3, 32
	vs1r.v	v9, (a3)                        # vscale x 8-byte Folded Spill
.Lgcm_pcrel_hi81:
	auipc	a3, %pcrel_hi(.Lgcm_CPI25_7)
	addi	a5, a5, %pcrel_lo(.Lgcm_pcrel_hi77)
	vle8.v	v9, (a5)
	srli	s0, t4, 2
	vle8.v	v19, (a6)
	vle8.v	v20, (t1)
	vle8.v	v21, (s3)
	vle8.v	v22, (a7)
	vxor.vv	v18, v11, v8
	vle8.v	v8, (t0)
	vxor.vv	v21, v21, v19
	vle8.v	v11, (s2)
	vxor.vv	v20, v12, v20
	vle8.v	v12, (t5)
	vxor.vv	v23, v13, v22
	vle8.v	v13, (t6)
	addi	s4, t2, %pcrel_lo(.Lgcm_pcrel_hi78)
	addi	a4, a4, %pcrel_lo(.Lgcm_pcrel_hi79)
	addi	t2, s1, %pcrel_lo(.Lgcm_pcrel_hi80)
	vxor.vv	v24, v14, v8
	vxor.vv	v8, v15, v11
	vxor.vv	v22, v16, v12
	vxor.vv	v19, v17, v13
	addi	t3, a3, %pcrel_lo(.Lgcm_pcrel_hi81)
	csrr	a3, vlenb
	slli	a5, a3, 2
	add	a3, a3, a5
	add	a3, a3, sp
	addi	a3, a3, 32
	vs1r.v	v25, (a3)                       # vscale x 8-byte Folded Spill
	csrr	a3, vlenb
	slli	a3, a3, 2
	add	a3, a3, sp
	addi	a3, a3, 32
	vs1r.v	v26, (a3)                       # vscale x 8-byte Folded Spill
	beqz	s0, .Lgcm_BB25_5
# %bb.3:                                # %join.7.lr.ph
	vle8.v	v11, (s4)
	csrr	a3, vlenb
	slli	a5, a3, 1
	add	a3, a3, a5
	add	a3, a3, sp
	addi	a3, a3, 32
	vs1r.v	v11, (a3)                       # vscale x 8-byte Folded Spill
	vle8.v	v11, (a4)
	csrr	a3, vlenb
	slli	a5, a3, 3
	sub	a3, a5, a3
	add	a3, a3, sp
	addi	a3, a3, 32
	vs1r.v	v11, (a3)                       # vscale x 8-byte Folded Spill
	vle8.v	v11, (t2)
	csrr	a3, vlenb
	slli	a3, a3, 1
	add	a3, a3, sp
	addi	a3, a3, 32
	vs1r.v	v11, (a3)                       # vscale x 8-byte Folded Spill
	vle8.v	v11, (t3)
	csrr	a3, vlenb
	add	a3, a3, sp
	addi	a3, a3, 32
	vs1r.v	v11, (a3)                       # vscale x 8-byte Folded Spill
.Lgcm_pcrel_hi82:
	auipc	a3, %pcrel_hi(.Lgcm_CPI25_8)
	addi	a3, a3, %pcrel_lo(.Lgcm_pcrel_hi82)
	vle8.v	v11, (a3)
	addi	a3, sp, 32
	vs1r.v	v11, (a3)                       # vscale x 8-byte Folded Spill
	addi	s1, s3, 608
.Lgcm_BB25_4:                               # %join.7
                                        # =>This Inner Loop Header: Depth=1
	vxor.vv	v11, v8, v22
	vxor.vv	v28, v24, v19
	vxor.vv	v26, v21, v19
	vxor.vv	v25, v20, v24
	vxor.vv	v27, v20, v19
	li	a3, 85
	vmv.s.x	v8, a3
	addi	a3, s1, -496
	vxor.vv	v12, v18, v11
	vxor.vv	v29, v26, v25
	vxor.vv	v24, v12, v24
	vxor.vv	v15, v29, v23
	vxor.vv	v30, v12, v19
	vxor.vv	v13, v12, v21
	vand.vv	v23, v24, v18
	vxor.vv	v31, v15, v20
	vxor.vv	v15, v15, v22
	vxor.vv	v22, v13, v27
	vand.vv	v7, v13, v12
	vxor.vv	v6, v15, v28
	vxor.vv	v5, v31, v18
	vand.vv	v4, v31, v29
	vxor.vv	v21, v31, v11
	vxor.vv	v3, v23, v27
	vand.vv	v2, v6, v28
	vxor.vv	v23, v6, v11
	vxor.vv	v20, v6, v21
	vxor.vv	v1, v6, v18
	vand.vv	v11, v21, v27
	vand.vv	v0, v5, v22
	vxor.vv	v3, v3, v21
	vxor.vv	v15, v15, v0
	vand.vv	v0, v20, v25
	vxor.vv	v11, v11, v2
	vxor.vv	v2, v0, v2
	vand.vv	v0, v1, v30
	vxor.vv	v3, v3, v4
	vxor.vv	v15, v15, v4
	vand.vv	v4, v23, v26
	vxor.vv	v7, v23, v7
	vxor.vv	v3, v3, v11
	vxor.vv	v7, v7, v4
	vxor.vv	v0, v23, v0
	vxor.vv	v15, v15, v2
	vxor.vv	v7, v7, v26
	vxor.vv	v4, v0, v4
	vxor.vv	v7, v7, v2
	vxor.vv	v19, v4, v19
	vxor.vv	v4, v15, v3
	vxor.vv	v19, v19, v11
	vand.vv	v15, v7, v15
	vxor.vv	v11, v15, v3
	vxor.vv	v2, v15, v19
	vxor.vv	v0, v19, v7
	vand.vv	v0, v11, v0
	vand.vv	v11, v2, v4
	vxor.vv	v3, v11, v3
	vle8.v	v11, (a3)
	addi	a3, s1, -480
	vxor.vv	v15, v0, v15
	vxor.vv	v16, v0, v19
	vand.vv	v19, v15, v19
	vle8.v	v15, (a3)
	lui	a3, 7
	addi	a3, a3, 1911
	vxor.vv	v2, v19, v2
	vxor.vv	v19, v19, v7
	vsetvli	zero, zero, e16, m2, ta, ma
	vmv.s.x	v0, a3
	addi	a5, s1, -464
	vsetvli	zero, zero, e8, m1, ta, mu
	vand.vv	v24, v16, v24
	vand.vv	v18, v16, v18
	vand.vv	v31, v19, v31
	vand.vv	v29, v19, v29
	vxor.vv	v19, v19, v16
	vxor.vv	v16, v3, v16
	vand.vv	v30, v3, v30
	vand.vv	v7, v3, v1
	vand.vv	v6, v16, v6
	vand.vv	v28, v16, v28
	vand.vv	v2, v2, v3
	vxor.vv	v4, v2, v4
	vand.vv	v5, v19, v5
	vand.vv	v22, v19, v22
	vxor.vv	v18, v31, v18
	vxor.vv	v19, v4, v19
	vxor.vv	v3, v4, v3
	vand.vv	v12, v4, v12
	vand.vv	v13, v4, v13
	vxor.vv	v31, v5, v31
	vxor.vv	v7, v18, v7
	vand.vv	v23, v3, v23
	vand.vv	v21, v19, v21
	vxor.vv	v16, v19, v16
	vand.vv	v26, v3, v26
	vand.vv	v19, v19, v27
	vand.vv	v25, v16, v25
	vxor.vv	v12, v23, v12
	vand.vv	v16, v16, v20
	vxor.vv	v20, v7, v23
	vxor.vv	v18, v21, v18
	vxor.vv	v19, v19, v28
	vxor.vv	v21, v25, v28
	vxor.vv	v16, v12, v16
	vxor.vv	v13, v20, v13
	vxor.vv	v12, v31, v12
	vxor.vv	v18, v18, v26
	vxor.vv	v22, v21, v22
	vxor.vv	v13, v13, v21
	vxor.vv	v18, v18, v16
	vxor.vv	v16, v16, v6
	vxor.vv	v21, v22, v29
	vxor.vv	v23, v18, v30
	vxor.vv	v27, v13, v18
	vxor.vv	v28, v13, v26
	vxor.vv	v13, v22, v24
	vxor.vv	v18, v19, v16
	vxor.vv	v12, v12, v21
	vxor.vv	v29, v13, v23
	vxor.vv	v25, v21, v16
	vxor.vv	v31, v18, v23
	csrr	a3, vlenb
	slli	a3, a3, 2
	add	a3, a3, sp
	addi	a3, a3, 32
	vl1r.v	v30, (a3)                       # vscale x 8-byte Folded Reload
	vrgather.vv	v13, v28, v30
	vrgather.vv	v24, v27, v30
	vxor.vv	v26, v12, v16
	vxor.vv	v16, v12, v20
	csrr	a3, vlenb
	slli	s3, a3, 2
	add	a3, a3, s3
	add	a3, a3, sp
	addi	a3, a3, 32
	vl1r.v	v17, (a3)                       # vscale x 8-byte Folded Reload
	vrgather.vv	v13, v28, v17, v0.t
	vrgather.vv	v24, v27, v17, v0.t
	vrgather.vv	v23, v29, v30
	vrgather.vv	v21, v12, v30
	vrgather.vv	v19, v31, v30
	vrgather.vv	v18, v25, v30
	vrgather.vv	v23, v29, v17, v0.t
	vrgather.vv	v22, v16, v30
	vrgather.vv	v20, v26, v30
	vxor.vv	v2, v13, v28
	vxor.vv	v30, v24, v27
	vrgather.vv	v22, v16, v17, v0.t
	vxor.vv	v27, v23, v29
	csrr	a3, vlenb
	li	s3, 6
	mul	a3, a3, s3
	add	a3, a3, sp
	addi	a3, a3, 32
	vl1r.v	v14, (a3)                       # vscale x 8-byte Folded Reload
	vrgather.vv	v7, v2, v14
	vmv1r.v	v10, v9
	vrgather.vv	v6, v2, v9
	vrgather.vv	v5, v30, v14
	vrgather.vv	v4, v30, v9
	vrgather.vv	v21, v12, v17, v0.t
	vxor.vv	v29, v22, v16
	vrgather.vv	v16, v27, v14
	vrgather.vv	v3, v27, v9
	vrgather.vv	v19, v31, v17, v0.t
	vxor.vv	v28, v21, v12
	vrgather.vv	v20, v26, v17, v0.t
	vrgather.vv	v12, v29, v14
	vrgather.vv	v18, v25, v17, v0.t
	vmv1r.v	v0, v8
	vsetivli	zero, 8, e16, m1, ta, ma
	vmerge.vvm	v1, v6, v7, v0
	vsetivli	zero, 16, e8, m1, ta, ma
	vrgather.vv	v7, v29, v9
	vxor.vv	v31, v19, v31
	vsetivli	zero, 8, e16, m1, ta, ma
	vmerge.vvm	v17, v4, v5, v0
	vsetivli	zero, 16, e8, m1, ta, ma
	vrgather.vv	v6, v28, v14
	vsetivli	zero, 8, e16, m1, ta, ma
	vmerge.vvm	v4, v3, v16, v0
	vsetivli	zero, 16, e8, m1, ta, ma
	vrgather.vv	v16, v28, v9
	vsetivli	zero, 8, e16, m1, ta, ma
	vmerge.vvm	v5, v7, v12, v0
	vsetivli	zero, 16, e8, m1, ta, ma
	vrgather.vv	v12, v31, v14
	vsetivli	zero, 8, e16, m1, ta, ma
	vmerge.vvm	v6, v16, v6, v0
	vsetivli	zero, 16, e8, m1, ta, ma
	vrgather.vv	v16, v31, v9
	vsetivli	zero, 8, e16, m1, ta, ma
	vmerge.vvm	v7, v16, v12, v0
	vsetivli	zero, 16, e8, m1, ta, ma
	vle8.v	v0, (a5)
	addi	a3, s1, -448
	vle8.v	v3, (a3)
	addi	a3, s1, -432
	vxor.vv	v11, v1, v11
	vle8.v	v12, (a3)
	addi	a3, s1, -416
	vxor.vv	v13, v11, v13
	vle8.v	v11, (a3)
	addi	a3, s1, -400
	vxor.vv	v15, v17, v15
	vle8.v	v1, (a3)
	addi	a3, s1, -384
	vxor.vv	v15, v15, v2
	vle8.v	v2, (a3)
	addi	a5, s1, -368
	vxor.vv	v16, v20, v26
	vxor.vv	v17, v18, v25
	vxor.vv	v25, v4, v0
	vrgather.vv	v26, v16, v14
	vxor.vv	v15, v15, v24
	vrgather.vv	v24, v16, v9
	vxor.vv	v25, v25, v30
	vrgather.vv	v30, v17, v14
	vxor.vv	v5, v5, v3
	vrgather.vv	v4, v17, v9
	vxor.vv	v13, v13, v17
	vxor.vv	v3, v15, v17
	vxor.vv	v25, v25, v23
	vxor.vv	v12, v6, v12
	vxor.vv	v15, v5, v27
	vmv1r.v	v0, v8
	vsetivli	zero, 8, e16, m1, ta, ma
	vmerge.vvm	v23, v24, v26, v0
	vsetivli	zero, 16, e8, m1, ta, ma
	vxor.vv	v12, v12, v29
	vxor.vv	v11, v7, v11
	vxor.vv	v15, v15, v22
	vsetivli	zero, 8, e16, m1, ta, ma
	vmerge.vvm	v22, v4, v30, v0
	vsetivli	zero, 16, e8, m1, ta, ma
	vxor.vv	v12, v12, v21
	vxor.vv	v21, v23, v1
	vxor.vv	v11, v11, v28
	vxor.vv	v24, v15, v17
	vxor.vv	v17, v12, v17
	vxor.vv	v12, v21, v31
	vxor.vv	v15, v22, v2
	vxor.vv	v11, v11, v19
	vxor.vv	v19, v12, v20
	vxor.vv	v12, v15, v16
	vxor.vv	v22, v17, v25
	vxor.vv	v16, v12, v18
	vxor.vv	v11, v11, v19
	vxor.vv	v15, v16, v17
	vxor.vv	v18, v11, v13
	vxor.vv	v12, v16, v3
	vxor.vv	v23, v16, v25
	vxor.vv	v17, v18, v17
	vxor.vv	v31, v12, v22
	vxor.vv	v28, v18, v16
	vxor.vv	v27, v18, v3
	vand.vv	v20, v17, v13
	vxor.vv	v21, v24, v31
	vxor.vv	v30, v27, v23
	vand.vv	v7, v27, v18
	vxor.vv	v6, v21, v25
	vxor.vv	v19, v21, v19
	vxor.vv	v20, v20, v23
	vxor.vv	v25, v19, v15
	vxor.vv	v5, v6, v13
	vand.vv	v21, v6, v31
	vxor.vv	v26, v6, v11
	vand.vv	v4, v25, v15
	vxor.vv	v29, v25, v11
	vxor.vv	v24, v25, v26
	vxor.vv	v3, v25, v13
	vand.vv	v11, v26, v23
	vand.vv	v2, v5, v30
	vxor.vv	v20, v20, v26
	vxor.vv	v19, v19, v2
	vand.vv	v2, v24, v22
	vxor.vv	v11, v11, v4
	vxor.vv	v4, v2, v4
	vand.vv	v2, v3, v28
	vxor.vv	v20, v20, v21
	vxor.vv	v19, v19, v21
	vand.vv	v21, v29, v12
	vxor.vv	v7, v29, v7
	vxor.vv	v20, v20, v11
	vxor.vv	v7, v7, v21
	vxor.vv	v2, v29, v2
	vxor.vv	v19, v19, v4
	vxor.vv	v7, v7, v12
	vxor.vv	v21, v2, v21
	vxor.vv	v7, v7, v4
	vxor.vv	v16, v21, v16
	vxor.vv	v4, v19, v20
	vxor.vv	v11, v16, v11
	vand.vv	v16, v7, v19
	vxor.vv	v19, v16, v20
	vxor.vv	v2, v16, v11
	vxor.vv	v21, v11, v7
	vand.vv	v19, v19, v21
	vand.vv	v21, v2, v4
	vxor.vv	v1, v21, v20
	vle8.v	v20, (a5)
	addi	a3, s1, -352
	vxor.vv	v16, v19, v16
	vxor.vv	v0, v19, v11
	vand.vv	v11, v16, v11
	vle8.v	v21, (a3)
	addi	a3, s1, -336
	vxor.vv	v16, v11, v2
	vxor.vv	v7, v11, v7
	vle8.v	v19, (a3)
	addi	a3, s1, -320
	vand.vv	v11, v16, v1
	vxor.vv	v16, v11, v4
	vle8.v	v11, (a3)
	addi	a3, s1, -304
	vand.vv	v17, v0, v17
	vand.vv	v13, v0, v13
	vand.vv	v6, v7, v6
	vand.vv	v31, v7, v31
	vxor.vv	v7, v7, v0
	vxor.vv	v4, v1, v0
	vand.vv	v28, v1, v28
	vand.vv	v3, v1, v3
	vand.vv	v5, v7, v5
	vand.vv	v30, v7, v30
	vxor.vv	v7, v16, v7
	vxor.vv	v2, v16, v1
	vand.vv	v1, v16, v18
	vand.vv	v16, v16, v27
	vle8.v	v18, (a3)
	addi	a3, s1, -288
	vxor.vv	v27, v6, v13
	vxor.vv	v6, v5, v6
	vle8.v	v13, (a3)
	addi	a3, s1, -272
	vand.vv	v29, v2, v29
	vand.vv	v5, v2, v12
	vle8.v	v12, (a3)
	addi	a3, s1, -256
	vand.vv	v25, v4, v25
	vand.vv	v2, v4, v15
	vand.vv	v26, v7, v26
	vxor.vv	v4, v7, v4
	vand.vv	v23, v7, v23
	vle8.v	v15, (a3)
	vxor.vv	v7, v27, v3
	vand.vv	v22, v4, v22
	vxor.vv	v3, v29, v1
	vand.vv	v24, v4, v24
	vxor.vv	v29, v7, v29
	vxor.vv	v26, v26, v27
	vxor.vv	v23, v23, v2
	vxor.vv	v22, v22, v2
	vxor.vv	v24, v3, v24
	vxor.vv	v16, v29, v16
	vxor.vv	v27, v6, v3
	vxor.vv	v26, v26, v5
	vxor.vv	v30, v22, v30
	vxor.vv	v16, v16, v22
	vxor.vv	v22, v26, v24
	vxor.vv	v24, v24, v25
	vxor.vv	v25, v30, v31
	vxor.vv	v26, v22, v28
	vxor.vv	v28, v16, v22
	vxor.vv	v16, v16, v5
	vxor.vv	v17, v30, v17
	vxor.vv	v23, v23, v24
	vxor.vv	v27, v27, v25
	vxor.vv	v17, v17, v26
	vxor.vv	v22, v25, v24
	vxor.vv	v26, v23, v26
	vrgather.vv	v25, v16, v9
	csrr	a3, vlenb
	slli	a5, a3, 1
	add	a3, a3, a5
	add	a3, a3, sp
	addi	a3, a3, 32
	vl1r.v	v9, (a3)                        # vscale x 8-byte Folded Reload
	vrgather.vv	v30, v16, v9
	vrgather.vv	v31, v28, v10
	vrgather.vv	v7, v28, v9
	vxor.vv	v23, v27, v24
	vxor.vv	v29, v27, v29
	vmv1r.v	v0, v8
	vsetivli	zero, 8, e16, m1, ta, ma
	vmerge.vvm	v30, v30, v25, v0
	vmerge.vvm	v31, v7, v31, v0
	vsetivli	zero, 16, e8, m1, ta, ma
	vrgather.vv	v24, v17, v10
	vrgather.vv	v25, v17, v9
	vrgather.vv	v7, v27, v10
	vrgather.vv	v6, v27, v9
	vrgather.vv	v5, v26, v10
	vrgather.vv	v4, v26, v9
	vsetivli	zero, 8, e16, m1, ta, ma
	vmerge.vvm	v3, v25, v24, v0
	vsetivli	zero, 16, e8, m1, ta, ma
	vrgather.vv	v24, v29, v10
	vrgather.vv	v25, v29, v9
	vsetivli	zero, 8, e16, m1, ta, ma
	vmerge.vvm	v2, v25, v24, v0
	vsetivli	zero, 16, e8, m1, ta, ma
	vrgather.vv	v1, v22, v10
	vsetivli	zero, 8, e16, m1, ta, ma
	vmerge.vvm	v7, v6, v7, v0
	vsetivli	zero, 16, e8, m1, ta, ma
	vrgather.vv	v6, v22, v9
	vsetivli	zero, 8, e16, m1, ta, ma
	vmerge.vvm	v24, v4, v5, v0
	vsetivli	zero, 16, e8, m1, ta, ma
	vrgather.vv	v5, v23, v10
	vxor.vv	v25, v16, v30
	vxor.vv	v16, v28, v31
	csrr	a3, vlenb
	slli	a5, a3, 3
	sub	a3, a5, a3
	add	a3, a3, sp
	addi	a3, a3, 32
	vl1r.v	v4, (a3)                        # vscale x 8-byte Folded Reload
	vrgather.vv	v28, v25, v4
	vxor.vv	v20, v28, v20
	vrgather.vv	v28, v16, v4
	vxor.vv	v21, v28, v21
	vrgather.vv	v28, v23, v9
	vmv1r.v	v9, v14
	vxor.vv	v17, v17, v3
	vxor.vv	v29, v29, v2
	vxor.vv	v20, v20, v30
	vrgather.vv	v30, v17, v4
	vxor.vv	v27, v27, v7
	vxor.vv	v21, v21, v31
	vrgather.vv	v31, v29, v4
	vxor.vv	v19, v30, v19
	vsetivli	zero, 8, e16, m1, ta, ma
	vmerge.vvm	v28, v28, v5, v0
	vsetivli	zero, 16, e8, m1, ta, ma
	vxor.vv	v26, v26, v24
	vrgather.vv	v30, v27, v4
	vxor.vv	v19, v19, v3
	vxor.vv	v11, v31, v11
	vsetivli	zero, 8, e16, m1, ta, ma
	vmerge.vvm	v31, v6, v1, v0
	vsetivli	zero, 16, e8, m1, ta, ma
	vxor.vv	v23, v23, v28
	vrgather.vv	v6, v26, v4
	vxor.vv	v16, v19, v16
	vxor.vv	v18, v30, v18
	vxor.vv	v11, v11, v2
	vxor.vv	v19, v22, v31
	vrgather.vv	v22, v23, v4
	vxor.vv	v18, v18, v7
	vxor.vv	v13, v6, v13
	vrgather.vv	v30, v19, v4
	vxor.vv	v20, v20, v19
	vxor.vv	v21, v21, v19
	vxor.vv	v18, v18, v19
	vxor.vv	v12, v22, v12
	vxor.vv	v13, v13, v24
	vxor.vv	v11, v11, v19
	vxor.vv	v24, v21, v25
	vxor.vv	v25, v18, v29
	vxor.vv	v12, v12, v28
	vxor.vv	v15, v30, v15
	vxor.vv	v13, v13, v27
	vxor.vv	v11, v11, v17
	vxor.vv	v12, v12, v26
	vxor.vv	v15, v15, v31
	vxor.vv	v18, v25, v16
	vxor.vv	v15, v15, v23
	vxor.vv	v17, v13, v12
	vxor.vv	v23, v15, v25
	vxor.vv	v22, v17, v20
	vxor.vv	v19, v15, v24
	vxor.vv	v21, v15, v16
	vxor.vv	v28, v22, v25
	vxor.vv	v27, v19, v18
	vxor.vv	v25, v22, v15
	vxor.vv	v24, v22, v24
	vand.vv	v29, v28, v20
	vxor.vv	v11, v11, v27
	vxor.vv	v26, v24, v21
	vand.vv	v6, v24, v22
	vxor.vv	v13, v11, v16
	vxor.vv	v16, v11, v12
	vxor.vv	v5, v29, v21
	vxor.vv	v31, v16, v23
	vxor.vv	v30, v13, v20
	vand.vv	v4, v13, v27
	vxor.vv	v11, v13, v17
	vand.vv	v3, v31, v23
	vxor.vv	v12, v31, v17
	vxor.vv	v29, v31, v11
	vxor.vv	v7, v31, v20
	vand.vv	v17, v11, v21
	vand.vv	v2, v30, v26
	vxor.vv	v5, v5, v11
	vxor.vv	v16, v16, v2
	vand.vv	v2, v29, v18
	vxor.vv	v17, v17, v3
	vxor.vv	v3, v2, v3
	vand.vv	v2, v7, v25
	vxor.vv	v5, v5, v4
	vxor.vv	v16, v16, v4
	vand.vv	v4, v12, v19
	vxor.vv	v6, v12, v6
	vxor.vv	v0, v5, v17
	vxor.vv	v6, v6, v4
	vxor.vv	v5, v12, v2
	vxor.vv	v16, v16, v3
	vxor.vv	v6, v6, v19
	vxor.vv	v4, v5, v4
	vxor.vv	v5, v6, v3
	vxor.vv	v6, v4, v15
	vxor.vv	v15, v16, v0
	vxor.vv	v3, v6, v17
	vand.vv	v2, v5, v16
	vxor.vv	v16, v2, v0
	vxor.vv	v4, v2, v3
	vxor.vv	v17, v3, v5
	vand.vv	v1, v16, v17
	vand.vv	v16, v4, v15
	vxor.vv	v6, v16, v0
	addi	a3, s1, -240
	vxor.vv	v16, v1, v2
	vxor.vv	v17, v1, v3
	vand.vv	v16, v16, v3
	vle8.v	v3, (a3)
	lui	a3, 1
	addi	a3, a3, 273
	vxor.vv	v4, v16, v4
	vxor.vv	v16, v16, v5
	vsetvli	zero, zero, e16, m2, ta, ma
	vmv.s.x	v0, a3
	addi	a5, s1, -224
	vsetvli	zero, zero, e8, m1, ta, mu
	vand.vv	v28, v17, v28
	vand.vv	v20, v17, v20
	vand.vv	v13, v16, v13
	vand.vv	v27, v16, v27
	vxor.vv	v16, v16, v17
	vxor.vv	v17, v6, v17
	vand.vv	v25, v6, v25
	vand.vv	v7, v6, v7
	vand.vv	v31, v17, v31
	vand.vv	v23, v17, v23
	vand.vv	v5, v4, v6
	vxor.vv	v15, v5, v15
	vand.vv	v30, v16, v30
	vand.vv	v26, v16, v26
	vxor.vv	v20, v13, v20
	vxor.vv	v16, v15, v16
	vxor.vv	v6, v15, v6
	vand.vv	v22, v15, v22
	vand.vv	v15, v15, v24
	vxor.vv	v13, v30, v13
	vxor.vv	v24, v20, v7
	vand.vv	v12, v6, v12
	vand.vv	v11, v16, v11
	vxor.vv	v17, v16, v17
	vand.vv	v19, v6, v19
	vand.vv	v16, v16, v21
	vand.vv	v18, v17, v18
	vxor.vv	v21, v12, v22
	vand.vv	v17, v17, v29
	vxor.vv	v12, v24, v12
	vxor.vv	v11, v11, v20
	vxor.vv	v16, v16, v23
	vxor.vv	v18, v18, v23
	vxor.vv	v17, v21, v17
	vxor.vv	v15, v12, v15
	vxor.vv	v13, v13, v21
	vxor.vv	v11, v11, v19
	vxor.vv	v20, v18, v26
	vxor.vv	v15, v15, v18
	vxor.vv	v11, v11, v17
	vxor.vv	v17, v17, v31
	vxor.vv	v18, v20, v27
	vxor.vv	v21, v11, v25
	vxor.vv	v22, v15, v11
	vxor.vv	v23, v15, v19
	vxor.vv	v11, v20, v28
	vxor.vv	v15, v16, v17
	vxor.vv	v16, v13, v18
	vxor.vv	v20, v11, v21
	vxor.vv	v25, v18, v17
	vxor.vv	v24, v15, v21
	csrr	a3, vlenb
	add	a3, a3, sp
	addi	a3, a3, 32
	vl1r.v	v18, (a3)                       # vscale x 8-byte Folded Reload
	vrgather.vv	v29, v23, v18
	vrgather.vv	v28, v22, v18
	vxor.vv	v26, v16, v17
	vxor.vv	v17, v16, v12
	csrr	a3, vlenb
	slli	a3, a3, 1
	add	a3, a3, sp
	addi	a3, a3, 32
	vl1r.v	v14, (a3)                       # vscale x 8-byte Folded Reload
	vrgather.vv	v29, v23, v14, v0.t
	vrgather.vv	v28, v22, v14, v0.t
	vrgather.vv	v27, v20, v18
	vrgather.vv	v15, v16, v18
	vrgather.vv	v12, v24, v18
	vrgather.vv	v11, v25, v18
	vrgather.vv	v27, v20, v14, v0.t
	vrgather.vv	v19, v17, v18
	vrgather.vv	v13, v26, v18
	vxor.vv	v23, v23, v29
	vxor.vv	v22, v22, v28
	vrgather.vv	v19, v17, v14, v0.t
	vxor.vv	v18, v20, v27
	vrgather.vv	v30, v23, v9
	vrgather.vv	v31, v23, v10
	vrgather.vv	v7, v22, v9
	vrgather.vv	v6, v22, v10
	vrgather.vv	v15, v16, v14, v0.t
	vxor.vv	v20, v17, v19
	vrgather.vv	v17, v18, v9
	vrgather.vv	v5, v18, v10
	vrgather.vv	v12, v24, v14, v0.t
	vxor.vv	v21, v16, v15
	vrgather.vv	v13, v26, v14, v0.t
	vrgather.vv	v16, v20, v9
	vrgather.vv	v11, v25, v14, v0.t
	vmv1r.v	v0, v8
	vsetivli	zero, 8, e16, m1, ta, ma
	vmerge.vvm	v4, v31, v30, v0
	vsetivli	zero, 16, e8, m1, ta, ma
	vrgather.vv	v30, v20, v10
	vxor.vv	v24, v24, v12
	vsetivli	zero, 8, e16, m1, ta, ma
	vmerge.vvm	v6, v6, v7, v0
	vsetivli	zero, 16, e8, m1, ta, ma
	vrgather.vv	v31, v21, v9
	vsetivli	zero, 8, e16, m1, ta, ma
	vmerge.vvm	v17, v5, v17, v0
	vsetivli	zero, 16, e8, m1, ta, ma
	vrgather.vv	v5, v21, v10
	vsetivli	zero, 8, e16, m1, ta, ma
	vmerge.vvm	v7, v30, v16, v0
	vsetivli	zero, 16, e8, m1, ta, ma
	vrgather.vv	v16, v24, v9
	vsetivli	zero, 8, e16, m1, ta, ma
	vmerge.vvm	v31, v5, v31, v0
	vsetivli	zero, 16, e8, m1, ta, ma
	vrgather.vv	v30, v24, v10
	vsetivli	zero, 8, e16, m1, ta, ma
	vmerge.vvm	v30, v30, v16, v0
	vsetivli	zero, 16, e8, m1, ta, ma
	vle8.v	v16, (a5)
	addi	a3, s1, -208
	vle8.v	v5, (a3)
	addi	a3, s1, -192
	vxor.vv	v4, v4, v3
	vle8.v	v3, (a3)
	addi	a3, s1, -176
	vxor.vv	v29, v4, v29
	vle8.v	v4, (a3)
	addi	a3, s1, -160
	vxor.vv	v16, v6, v16
	vle8.v	v6, (a3)
	addi	a3, s1, -144
	vxor.vv	v16, v16, v28
	vle8.v	v28, (a3)
	addi	a3, s1, -128
	vxor.vv	v17, v17, v5
	vle8.v	v5, (a3)
	vxor.vv	v26, v26, v13
	vxor.vv	v25, v25, v11
	vxor.vv	v17, v17, v27
	vrgather.vv	v27, v26, v9
	vxor.vv	v7, v7, v3
	vrgather.vv	v3, v26, v10
	vxor.vv	v16, v16, v25
	vxor.vv	v16, v16, v23
	vrgather.vv	v2, v25, v9
	vxor.vv	v17, v17, v22
	vmv1r.v	v9, v10
	vrgather.vv	v22, v25, v10
	vxor.vv	v23, v29, v25
	vxor.vv	v29, v31, v4
	vxor.vv	v19, v7, v19
	vsetivli	zero, 8, e16, m1, ta, ma
	vmerge.vvm	v27, v3, v27, v0
	vsetivli	zero, 16, e8, m1, ta, ma
	vxor.vv	v15, v29, v15
	vxor.vv	v29, v30, v6
	vxor.vv	v19, v19, v25
	vsetivli	zero, 8, e16, m1, ta, ma
	vmerge.vvm	v8, v22, v2, v0
	vsetivli	zero, 16, e8, m1, ta, ma
	vxor.vv	v15, v15, v25
	vxor.vv	v22, v27, v28
	vxor.vv	v12, v29, v12
	vxor.vv	v18, v19, v18
	vxor.vv	v15, v15, v20
	vxor.vv	v13, v22, v13
	vxor.vv	v8, v8, v5
	vxor.vv	v12, v12, v21
	vxor.vv	v19, v13, v24
	vxor.vv	v11, v8, v11
	vxor.vv	v8, v15, v17
	vxor.vv	v31, v11, v26
	vxor.vv	v20, v12, v19
	vxor.vv	v11, v31, v15
	vxor.vv	v22, v20, v23
	vxor.vv	v13, v31, v16
	vxor.vv	v12, v31, v17
	vxor.vv	v21, v22, v15
	vxor.vv	v26, v13, v8
	vxor.vv	v25, v22, v31
	vxor.vv	v24, v22, v16
	vand.vv	v15, v21, v23
	vxor.vv	v16, v18, v26
	vxor.vv	v27, v24, v12
	vand.vv	v7, v24, v22
	vxor.vv	v29, v16, v17
	vxor.vv	v16, v16, v19
	vxor.vv	v17, v15, v12
	vxor.vv	v18, v16, v11
	vxor.vv	v28, v29, v23
	vand.vv	v6, v29, v26
	vxor.vv	v19, v29, v20
	vand.vv	v5, v18, v11
	vxor.vv	v20, v18, v20
	vxor.vv	v15, v18, v19
	vxor.vv	v30, v18, v23
	vand.vv	v4, v19, v12
	vand.vv	v3, v28, v27
	vxor.vv	v17, v17, v19
	vxor.vv	v16, v16, v3
	vand.vv	v3, v15, v8
	vxor.vv	v4, v4, v5
	vxor.vv	v5, v3, v5
	vand.vv	v3, v30, v25
	vxor.vv	v17, v17, v6
	vxor.vv	v16, v16, v6
	vand.vv	v6, v20, v13
	vxor.vv	v7, v20, v7
	vxor.vv	v17, v17, v4
	vxor.vv	v7, v7, v6
	vxor.vv	v3, v20, v3
	vxor.vv	v16, v16, v5
	vxor.vv	v7, v7, v13
	vxor.vv	v6, v3, v6
	vxor.vv	v7, v7, v5
	vxor.vv	v31, v6, v31
	vxor.vv	v6, v16, v17
	vxor.vv	v31, v31, v4
	vand.vv	v16, v7, v16
	vxor.vv	v5, v16, v17
	vxor.vv	v4, v16, v31
	vxor.vv	v3, v31, v7
	vand.vv	v5, v5, v3
	vand.vv	v3, v4, v6
	vxor.vv	v17, v3, v17
	vxor.vv	v16, v5, v16
	vxor.vv	v5, v5, v31
	vand.vv	v16, v16, v31
	vxor.vv	v31, v16, v4
	vxor.vv	v16, v16, v7
	vand.vv	v31, v31, v17
	vxor.vv	v7, v31, v6
	vand.vv	v21, v5, v21
	vand.vv	v6, v5, v23
	vand.vv	v4, v16, v29
	vand.vv	v23, v16, v26
	vxor.vv	v16, v16, v5
	vxor.vv	v31, v17, v5
	vand.vv	v25, v17, v25
	vand.vv	v29, v17, v30
	vand.vv	v30, v16, v28
	vand.vv	v26, v16, v27
	vxor.vv	v16, v7, v16
	vxor.vv	v17, v7, v17
	vand.vv	v28, v7, v22
	vand.vv	v22, v7, v24
	vxor.vv	v27, v4, v6
	vxor.vv	v24, v30, v4
	addi	a3, s1, -112
	vand.vv	v20, v17, v20
	vand.vv	v13, v17, v13
	vle8.v	v17, (a3)
	addi	a3, s1, -96
	vand.vv	v18, v31, v18
	vand.vv	v11, v31, v11
	vand.vv	v19, v16, v19
	vxor.vv	v30, v16, v31
	vand.vv	v12, v16, v12
	vle8.v	v16, (a3)
	addi	a3, s1, -80
	vand.vv	v31, v30, v8
	vand.vv	v15, v30, v15
	vle8.v	v30, (a3)
	addi	a3, s1, -64
	vxor.vv	v8, v27, v29
	vxor.vv	v28, v20, v28
	vxor.vv	v20, v8, v20
	vle8.v	v8, (a3)
	addi	a3, s1, -48
	vxor.vv	v19, v19, v27
	vle8.v	v27, (a3)
	addi	a3, s1, -32
	vxor.vv	v12, v12, v11
	vxor.vv	v11, v31, v11
	vle8.v	v29, (a3)
	addi	a5, s1, -16
	vxor.vv	v15, v28, v15
	vxor.vv	v24, v24, v28
	vle8.v	v28, (s1)
	vxor.vv	v22, v20, v22
	vxor.vv	v19, v19, v13
	vxor.vv	v26, v11, v26
	vxor.vv	v11, v22, v11
	vxor.vv	v19, v19, v15
	vxor.vv	v15, v15, v18
	vxor.vv	v18, v26, v23
	vxor.vv	v22, v19, v25
	vxor.vv	v19, v11, v19
	vxor.vv	v11, v11, v13
	vxor.vv	v13, v26, v21
	vxor.vv	v12, v12, v15
	vxor.vv	v21, v24, v18
	vxor.vv	v13, v13, v22
	vxor.vv	v18, v18, v15
	vxor.vv	v12, v12, v22
	addi	a3, sp, 32
	vl1r.v	v14, (a3)                       # vscale x 8-byte Folded Reload
	vrgather.vv	v22, v11, v14
	vrgather.vv	v23, v19, v14
	vxor.vv	v15, v21, v15
	vxor.vv	v20, v21, v20
	vrgather.vv	v24, v13, v14
	vrgather.vv	v25, v21, v14
	vxor.vv	v11, v11, v22
	vxor.vv	v19, v19, v23
	csrr	a3, vlenb
	slli	s3, a3, 3
	sub	a3, s3, a3
	add	a3, a3, sp
	addi	a3, a3, 32
	vl1r.v	v10, (a3)                       # vscale x 8-byte Folded Reload
	vrgather.vv	v26, v11, v10
	vxor.vv	v17, v26, v17
	vrgather.vv	v26, v19, v10
	vxor.vv	v16, v26, v16
	vrgather.vv	v26, v12, v14
	vxor.vv	v17, v17, v22
	vrgather.vv	v22, v18, v14
	vxor.vv	v13, v13, v24
	vxor.vv	v31, v21, v25
	vxor.vv	v12, v12, v26
	vxor.vv	v7, v18, v22
	vxor.vv	v16, v16, v23
	vrgather.vv	v18, v13, v10
	vxor.vv	v18, v18, v30
	vrgather.vv	v21, v31, v10
	vxor.vv	v21, v21, v27
	vrgather.vv	v23, v12, v10
	vxor.vv	v23, v23, v29
	vrgather.vv	v27, v7, v10
	vxor.vv	v27, v27, v28
	vrgather.vv	v28, v20, v14
	vxor.vv	v29, v20, v28
	vxor.vv	v18, v18, v24
	vrgather.vv	v20, v29, v10
	vxor.vv	v8, v20, v8
	vle8.v	v20, (a5)
	vxor.vv	v24, v21, v25
	vrgather.vv	v25, v15, v14
	vxor.vv	v15, v15, v25
	vxor.vv	v23, v23, v26
	vrgather.vv	v21, v15, v10
	vxor.vv	v26, v21, v20
	vxor.vv	v22, v27, v22
	vxor.vv	v16, v16, v7
	vxor.vv	v21, v16, v11
	vxor.vv	v20, v18, v19
	vxor.vv	v11, v8, v28
	vxor.vv	v8, v23, v31
	vxor.vv	v16, v26, v25
	vxor.vv	v19, v22, v15
	vxor.vv	v18, v17, v7
	vxor.vv	v15, v24, v7
	vxor.vv	v11, v11, v7
	vxor.vv	v24, v15, v29
	vxor.vv	v22, v16, v12
	vxor.vv	v23, v11, v13
	addi	s0, s0, -1
	addi	s1, s1, 512
	bnez	s0, .Lgcm_BB25_4
.Lgcm_BB25_5:                               # %after.3
	andi	s0, t4, -4
	vxor.vv	v8, v8, v22
	vxor.vv	v16, v24, v19
	vxor.vv	v14, v21, v19
	vxor.vv	v13, v20, v24
	vxor.vv	v15, v20, v19
	lui	a3, 7
	li	s1, 85
	vxor.vv	v12, v18, v8
	vxor.vv	v25, v14, v13
	addi	a5, a3, 1911
	vxor.vv	v27, v12, v24
	vxor.vv	v11, v25, v23
	vxor.vv	v24, v12, v19
	vxor.vv	v17, v12, v21
	vand.vv	v23, v27, v18
	vxor.vv	v29, v11, v20
	vxor.vv	v11, v11, v22
	vxor.vv	v22, v17, v15
	vand.vv	v31, v17, v12
	vxor.vv	v28, v11, v16
	vxor.vv	v26, v29, v18
	vand.vv	v7, v29, v25
	vxor.vv	v21, v29, v8
	vxor.vv	v6, v23, v15
	vand.vv	v5, v28, v16
	vxor.vv	v23, v28, v8
	vxor.vv	v20, v28, v21
	vxor.vv	v30, v28, v18
	vand.vv	v8, v21, v15
	vand.vv	v4, v26, v22
	vxor.vv	v6, v6, v21
	vxor.vv	v11, v11, v4
	vand.vv	v4, v20, v13
	vxor.vv	v8, v8, v5
	vxor.vv	v5, v4, v5
	vand.vv	v4, v30, v24
	vxor.vv	v6, v6, v7
	vxor.vv	v11, v11, v7
	vand.vv	v7, v23, v14
	vxor.vv	v31, v23, v31
	vxor.vv	v6, v6, v8
	vxor.vv	v31, v31, v7
	vxor.vv	v4, v23, v4
	vxor.vv	v3, v11, v5
	vxor.vv	v11, v31, v14
	vxor.vv	v31, v4, v7
	vxor.vv	v11, v11, v5
	vxor.vv	v31, v31, v19
	vxor.vv	v19, v3, v6
	vxor.vv	v5, v31, v8
	vand.vv	v4, v11, v3
	vxor.vv	v8, v4, v6
	vxor.vv	v7, v4, v5
	vxor.vv	v31, v5, v11
	vand.vv	v3, v8, v31
	vand.vv	v8, v7, v19
	vxor.vv	v31, v8, v6
	vmv.s.x	v8, s1
	slli	s1, s0, 7
	vxor.vv	v6, v3, v4
	vxor.vv	v4, v3, v5
	vand.vv	v6, v6, v5
	vsetvli	zero, zero, e16, m2, ta, ma
	vmv.s.x	v0, a5
	add	s1, s1, a0
	addi	a3, s1, 128
	vsetvli	zero, zero, e8, m1, ta, mu
	vxor.vv	v7, v6, v7
	vxor.vv	v6, v6, v11
	vle8.v	v11, (a3)
	vand.vv	v27, v4, v27
	vand.vv	v18, v4, v18
	vand.vv	v29, v6, v29
	vand.vv	v25, v6, v25
	vxor.vv	v6, v6, v4
	vxor.vv	v5, v31, v4
	vand.vv	v24, v31, v24
	vand.vv	v30, v31, v30
	vand.vv	v28, v5, v28
	vand.vv	v16, v5, v16
	vand.vv	v7, v7, v31
	vxor.vv	v19, v7, v19
	vand.vv	v26, v6, v26
	vand.vv	v22, v6, v22
	vxor.vv	v18, v29, v18
	vxor.vv	v7, v19, v6
	vxor.vv	v31, v19, v31
	vand.vv	v12, v19, v12
	vand.vv	v17, v19, v17
	vxor.vv	v19, v26, v29
	vxor.vv	v26, v18, v30
	vand.vv	v23, v31, v23
	vand.vv	v21, v7, v21
	vxor.vv	v29, v7, v5
	vand.vv	v14, v31, v14
	vand.vv	v15, v7, v15
	vand.vv	v13, v29, v13
	vxor.vv	v12, v23, v12
	vand.vv	v20, v29, v20
	vxor.vv	v23, v26, v23
	vxor.vv	v18, v21, v18
	vxor.vv	v15, v15, v16
	vxor.vv	v13, v13, v16
	vxor.vv	v16, v12, v20
	vxor.vv	v17, v23, v17
	vxor.vv	v12, v19, v12
	vxor.vv	v18, v18, v14
	vxor.vv	v19, v13, v22
	vxor.vv	v13, v17, v13
	vxor.vv	v17, v18, v16
	vxor.vv	v18, v16, v28
	vxor.vv	v16, v19, v25
	vxor.vv	v20, v17, v24
	vxor.vv	v21, v13, v17
	vxor.vv	v22, v13, v14
	vxor.vv	v13, v19, v27
	vxor.vv	v14, v15, v18
	vxor.vv	v19, v12, v16
	vxor.vv	v24, v13, v20
	vxor.vv	v27, v16, v18
	vxor.vv	v28, v14, v20
	csrr	a3, vlenb
	slli	a3, a3, 2
	add	a3, a3, sp
	addi	a3, a3, 32
	vl1r.v	v25, (a3)                       # vscale x 8-byte Folded Reload
	vrgather.vv	v20, v22, v25
	vrgather.vv	v16, v21, v25
	vxor.vv	v29, v19, v18
	vxor.vv	v30, v19, v23
	csrr	a3, vlenb
	slli	a5, a3, 2
	add	a3, a3, a5
	add	a3, a3, sp
	addi	a3, a3, 32
	vl1r.v	v2, (a3)                        # vscale x 8-byte Folded Reload
	vrgather.vv	v20, v22, v2, v0.t
	vrgather.vv	v16, v21, v2, v0.t
	vrgather.vv	v18, v24, v25
	vrgather.vv	v15, v19, v25
	vrgather.vv	v12, v28, v25
	vrgather.vv	v13, v27, v25
	vrgather.vv	v18, v24, v2, v0.t
	vrgather.vv	v17, v30, v25
	vrgather.vv	v14, v29, v25
	vxor.vv	v26, v20, v22
	vxor.vv	v25, v16, v21
	vrgather.vv	v17, v30, v2, v0.t
	vxor.vv	v23, v18, v24
	csrr	a3, vlenb
	li	a5, 6
	mul	a3, a3, a5
	add	a3, a3, sp
	addi	a3, a3, 32
	vl1r.v	v10, (a3)                       # vscale x 8-byte Folded Reload
	vrgather.vv	v21, v26, v10
	vrgather.vv	v31, v26, v9
	vrgather.vv	v7, v25, v10
	vrgather.vv	v6, v25, v9
	vrgather.vv	v15, v19, v2, v0.t
	vxor.vv	v24, v17, v30
	vrgather.vv	v30, v23, v10
	vrgather.vv	v5, v23, v9
	vrgather.vv	v12, v28, v2, v0.t
	vxor.vv	v22, v15, v19
	vrgather.vv	v4, v24, v10
	vrgather.vv	v14, v29, v2, v0.t
	vrgather.vv	v3, v24, v9
	vxor.vv	v19, v12, v28
	vrgather.vv	v13, v27, v2, v0.t
	vrgather.vv	v28, v22, v10
	vmv1r.v	v0, v8
	vsetivli	zero, 8, e16, m1, ta, ma
	vmerge.vvm	v31, v31, v21, v0
	vsetivli	zero, 16, e8, m1, ta, ma
	vrgather.vv	v2, v22, v9
	vxor.vv	v21, v14, v29
	vsetivli	zero, 8, e16, m1, ta, ma
	vmerge.vvm	v29, v6, v7, v0
	vsetivli	zero, 16, e8, m1, ta, ma
	vrgather.vv	v7, v19, v10
	vsetivli	zero, 8, e16, m1, ta, ma
	vmerge.vvm	v30, v5, v30, v0
	vsetivli	zero, 16, e8, m1, ta, ma
	vrgather.vv	v6, v19, v9
	vxor.vv	v27, v13, v27
	vsetivli	zero, 8, e16, m1, ta, ma
	vmerge.vvm	v5, v3, v4, v0
	vsetivli	zero, 16, e8, m1, ta, ma
	vrgather.vv	v4, v21, v10
	vsetivli	zero, 8, e16, m1, ta, ma
	vmerge.vvm	v28, v2, v28, v0
	vsetivli	zero, 16, e8, m1, ta, ma
	vrgather.vv	v3, v21, v9
	vsetivli	zero, 8, e16, m1, ta, ma
	vmerge.vvm	v7, v6, v7, v0
	vsetivli	zero, 16, e8, m1, ta, ma
	vrgather.vv	v6, v27, v10
	vsetivli	zero, 8, e16, m1, ta, ma
	vmerge.vvm	v4, v3, v4, v0
	vsetivli	zero, 16, e8, m1, ta, ma
	vrgather.vv	v3, v27, v9
	vsetivli	zero, 8, e16, m1, ta, ma
	vmerge.vvm	v6, v3, v6, v0
	addi	a3, s1, 144
	vsetivli	zero, 16, e8, m1, ta, ma
	vxor.vv	v11, v31, v11
	vle8.v	v31, (a3)
	addi	a3, s1, 160
	vxor.vv	v11, v11, v20
	vle8.v	v20, (a3)
	vxor.vv	v29, v29, v31
	vxor.vv	v26, v29, v26
	addi	a3, s1, 176
	vxor.vv	v20, v30, v20
	vle8.v	v29, (a3)
	vxor.vv	v16, v26, v16
	vxor.vv	v20, v20, v25
	addi	a3, s1, 192
	vxor.vv	v25, v5, v29
	vle8.v	v26, (a3)
	vxor.vv	v18, v20, v18
	vxor.vv	v20, v25, v23
	addi	a3, s1, 208
	vxor.vv	v23, v28, v26
	vle8.v	v25, (a3)
	vxor.vv	v20, v20, v17
	vxor.vv	v17, v23, v24
	addi	a3, s1, 224
	vxor.vv	v23, v7, v25
	vle8.v	v24, (a3)
	vxor.vv	v15, v17, v15
	vxor.vv	v23, v23, v22
	addi	a3, s1, 240
	vxor.vv	v24, v4, v24
	vle8.v	v25, (a3)
	vxor.vv	v11, v11, v27
	vxor.vv	v17, v16, v27
	vxor.vv	v20, v20, v27
	vxor.vv	v22, v15, v27
	vxor.vv	v12, v23, v12
	vxor.vv	v15, v24, v19
	vxor.vv	v16, v6, v25
	vxor.vv	v19, v15, v14
	vxor.vv	v14, v16, v21
	addi	s0, s0, 2
	vxor.vv	v25, v14, v13
	bgeu	s0, a1, .Lgcm_BB25_7
# %bb.6:                                # %then.11
	vmv1r.v	v0, v8
	vxor.vv	v27, v19, v12
	vxor.vv	v13, v25, v22
	vxor.vv	v14, v25, v17
	vxor.vv	v12, v22, v18
	vxor.vv	v15, v25, v18
	vxor.vv	v16, v27, v11
	vxor.vv	v21, v14, v12
	vxor.vv	v23, v16, v22
	vxor.vv	v20, v21, v20
	vxor.vv	v22, v16, v25
	vxor.vv	v17, v16, v17
	vand.vv	v29, v23, v11
	vxor.vv	v26, v20, v18
	vxor.vv	v30, v20, v19
	vxor.vv	v24, v17, v15
	vand.vv	v31, v17, v16
	vxor.vv	v18, v30, v13
	vxor.vv	v28, v26, v11
	vand.vv	v7, v26, v21
	vxor.vv	v19, v26, v27
	vxor.vv	v6, v29, v15
	vand.vv	v5, v18, v13
	vxor.vv	v27, v18, v27
	vxor.vv	v20, v18, v19
	vxor.vv	v29, v18, v11
	vand.vv	v4, v19, v15
	vand.vv	v3, v28, v24
	vxor.vv	v6, v6, v19
	vxor.vv	v30, v30, v3
	vand.vv	v3, v20, v12
	vxor.vv	v4, v4, v5
	vxor.vv	v5, v3, v5
	vand.vv	v3, v29, v22
	vxor.vv	v6, v6, v7
	vxor.vv	v30, v30, v7
	vand.vv	v7, v27, v14
	vxor.vv	v31, v27, v31
	vxor.vv	v6, v6, v4
	vxor.vv	v31, v31, v7
	vxor.vv	v3, v27, v3
	vxor.vv	v2, v30, v5
	vxor.vv	v30, v31, v14
	vxor.vv	v31, v3, v7
	vxor.vv	v30, v30, v5
	vxor.vv	v25, v31, v25
	vxor.vv	v7, v2, v6
	vxor.vv	v25, v25, v4
	vand.vv	v4, v30, v2
	vxor.vv	v31, v4, v6
	vxor.vv	v5, v4, v25
	vxor.vv	v3, v25, v30
	vand.vv	v3, v31, v3
	vand.vv	v31, v5, v7
	vxor.vv	v31, v31, v6
	vxor.vv	v4, v3, v4
	vxor.vv	v6, v3, v25
	vand.vv	v3, v4, v25
	vle8.v	v25, (s4)
	vxor.vv	v4, v3, v5
	vxor.vv	v5, v3, v30
	vle8.v	v30, (a4)
	slli	t4, t4, 7
	add	t4, t4, a0
	vand.vv	v4, v4, v31
	vxor.vv	v4, v4, v7
	vle8.v	v7, (t4)
	addi	a3, t4, 16
	addi	a4, t4, 32
	vand.vv	v23, v6, v23
	vand.vv	v11, v6, v11
	vand.vv	v26, v5, v26
	vand.vv	v21, v5, v21
	vxor.vv	v5, v5, v6
	vxor.vv	v6, v31, v6
	vand.vv	v22, v31, v22
	vand.vv	v29, v31, v29
	vand.vv	v28, v5, v28
	vand.vv	v24, v5, v24
	vxor.vv	v5, v4, v5
	vxor.vv	v31, v4, v31
	vand.vv	v3, v4, v16
	vand.vv	v4, v4, v17
	vle8.v	v17, (a3)
	addi	a3, t4, 48
	vxor.vv	v2, v26, v11
	vxor.vv	v26, v28, v26
	vle8.v	v16, (a4)
	addi	a4, t4, 64
	vand.vv	v27, v31, v27
	vand.vv	v14, v31, v14
	vle8.v	v11, (a3)
	addi	a5, t4, 80
	vand.vv	v18, v6, v18
	vand.vv	v28, v6, v13
	vand.vv	v19, v5, v19
	vxor.vv	v31, v5, v6
	vand.vv	v15, v5, v15
	vle8.v	v13, (a4)
	addi	a3, t4, 96
	addi	a4, t4, 112
	vand.vv	v6, v31, v12
	vand.vv	v20, v31, v20
	vle8.v	v12, (a5)
	vxor.vv	v29, v2, v29
	vxor.vv	v31, v27, v3
	vxor.vv	v27, v29, v27
	vxor.vv	v19, v19, v2
	vxor.vv	v15, v15, v28
	vxor.vv	v28, v6, v28
	vxor.vv	v20, v31, v20
	vxor.vv	v29, v27, v4
	vxor.vv	v26, v26, v31
	vxor.vv	v19, v19, v14
	vxor.vv	v24, v28, v24
	vxor.vv	v28, v29, v28
	vxor.vv	v19, v19, v20
	vxor.vv	v29, v20, v18
	vxor.vv	v31, v24, v21
	vxor.vv	v18, v19, v22
	vxor.vv	v6, v28, v19
	vxor.vv	v28, v28, v14
	vxor.vv	v14, v24, v23
	vxor.vv	v15, v15, v29
	vxor.vv	v24, v26, v31
	vxor.vv	v26, v14, v18
	vxor.vv	v5, v15, v18
	vmv1r.v	v10, v9
	vrgather.vv	v15, v28, v9
	vrgather.vv	v18, v28, v25
	vrgather.vv	v19, v6, v9
	vrgather.vv	v20, v6, v25
	vxor.vv	v14, v24, v29
	vxor.vv	v27, v24, v27
	vsetivli	zero, 8, e16, m1, ta, ma
	vmerge.vvm	v4, v18, v15, v0
	vmerge.vvm	v3, v20, v19, v0
	vsetivli	zero, 16, e8, m1, ta, ma
	vrgather.vv	v15, v26, v9
	vrgather.vv	v18, v26, v25
	vrgather.vv	v19, v24, v9
	vrgather.vv	v21, v24, v25
	vrgather.vv	v23, v5, v9
	vsetivli	zero, 8, e16, m1, ta, ma
	vmerge.vvm	v22, v18, v15, v0
	vsetivli	zero, 16, e8, m1, ta, ma
	vrgather.vv	v15, v27, v9
	vrgather.vv	v18, v27, v25
	vsetivli	zero, 8, e16, m1, ta, ma
	vmerge.vvm	v20, v18, v15, v0
	vsetivli	zero, 16, e8, m1, ta, ma
	vrgather.vv	v15, v5, v25
	vsetivli	zero, 8, e16, m1, ta, ma
	vmerge.vvm	v19, v21, v19, v0
	vsetivli	zero, 16, e8, m1, ta, ma
	vrgather.vv	v18, v14, v9
	vsetivli	zero, 8, e16, m1, ta, ma
	vmerge.vvm	v15, v15, v23, v0
	vsetivli	zero, 16, e8, m1, ta, ma
	vrgather.vv	v21, v14, v25
	vsetivli	zero, 8, e16, m1, ta, ma
	vmerge.vvm	v18, v21, v18, v0
	vsetivli	zero, 16, e8, m1, ta, ma
	vle8.v	v23, (a3)
	vle8.v	v21, (a4)
	vxor.vv	v29, v31, v29
	vxor.vv	v28, v4, v28
	vxor.vv	v31, v3, v6
	vrgather.vv	v6, v28, v30
	vxor.vv	v7, v6, v7
	vrgather.vv	v6, v31, v30
	vxor.vv	v17, v6, v17
	vrgather.vv	v6, v29, v9
	vrgather.vv	v2, v29, v25
	vxor.vv	v25, v22, v26
	vxor.vv	v26, v20, v27
	vxor.vv	v27, v7, v4
	vrgather.vv	v7, v25, v30
	vxor.vv	v24, v19, v24
	vxor.vv	v17, v17, v28
	vrgather.vv	v28, v26, v30
	vxor.vv	v16, v7, v16
	vxor.vv	v7, v15, v5
	vrgather.vv	v5, v24, v30
	vxor.vv	v17, v17, v3
	vxor.vv	v16, v16, v31
	vxor.vv	v11, v28, v11
	vsetivli	zero, 8, e16, m1, ta, ma
	vmerge.vvm	v28, v2, v6, v0
	vsetivli	zero, 16, e8, m1, ta, ma
	vxor.vv	v14, v18, v14
	vrgather.vv	v31, v7, v30
	vxor.vv	v6, v16, v22
	vxor.vv	v13, v5, v13
	vxor.vv	v11, v11, v25
	vxor.vv	v16, v28, v29
	vrgather.vv	v22, v14, v30
	vxor.vv	v25, v13, v26
	vxor.vv	v12, v31, v12
	vxor.vv	v11, v11, v20
	vrgather.vv	v20, v16, v30
	vxor.vv	v13, v27, v16
	vxor.vv	v17, v17, v16
	vxor.vv	v19, v25, v19
	vxor.vv	v22, v22, v23
	vxor.vv	v12, v12, v24
	vxor.vv	v23, v11, v16
	vxor.vv	v19, v19, v16
	vxor.vv	v11, v22, v7
	vxor.vv	v16, v20, v21
	vxor.vv	v12, v12, v15
	vxor.vv	v24, v11, v18
	vxor.vv	v14, v16, v14
	vxor.vv	v11, v19, v6
	vxor.vv	v22, v14, v28
	vxor.vv	v25, v12, v24
	vxor.vv	v16, v22, v19
	vxor.vv	v15, v25, v13
	vxor.vv	v12, v22, v17
	vxor.vv	v14, v22, v6
	vxor.vv	v21, v15, v19
	vxor.vv	v19, v12, v11
	vxor.vv	v18, v15, v22
	vxor.vv	v17, v15, v17
	vand.vv	v27, v21, v13
	vxor.vv	v23, v23, v19
	vxor.vv	v20, v17, v14
	vand.vv	v30, v17, v15
	vxor.vv	v26, v23, v6
	vxor.vv	v31, v23, v24
	vxor.vv	v7, v27, v14
	vxor.vv	v28, v31, v16
	vxor.vv	v27, v26, v13
	vand.vv	v6, v26, v19
	vxor.vv	v24, v26, v25
	vand.vv	v5, v28, v16
	vxor.vv	v25, v28, v25
	vxor.vv	v23, v28, v24
	vxor.vv	v29, v28, v13
	vand.vv	v4, v24, v14
	vand.vv	v3, v27, v20
	vxor.vv	v7, v7, v24
	vxor.vv	v31, v31, v3
	vand.vv	v3, v23, v11
	vxor.vv	v4, v4, v5
	vxor.vv	v5, v3, v5
	vand.vv	v3, v29, v18
	vxor.vv	v7, v7, v6
	vxor.vv	v31, v31, v6
	vand.vv	v6, v25, v12
	vxor.vv	v30, v25, v30
	vxor.vv	v2, v7, v4
	vxor.vv	v30, v30, v6
	vxor.vv	v7, v25, v3
	vxor.vv	v31, v31, v5
	vxor.vv	v30, v30, v12
	vxor.vv	v7, v7, v6
	vxor.vv	v30, v30, v5
	vxor.vv	v22, v7, v22
	vxor.vv	v7, v31, v2
	vxor.vv	v22, v22, v4
	vand.vv	v6, v30, v31
	vxor.vv	v31, v6, v2
	vxor.vv	v5, v6, v22
	vxor.vv	v4, v22, v30
	vand.vv	v4, v31, v4
	vand.vv	v31, v5, v7
	vxor.vv	v31, v31, v2
	vxor.vv	v3, v4, v6
	vxor.vv	v6, v4, v22
	vand.vv	v4, v3, v22
	vle8.v	v22, (t2)
	vxor.vv	v5, v4, v5
	vxor.vv	v4, v4, v30
	vle8.v	v30, (t3)
	lui	a3, 1
	addi	a3, a3, 273
	vand.vv	v5, v5, v31
	vxor.vv	v7, v5, v7
	vsetvli	zero, zero, e16, m2, ta, ma
	vmv.s.x	v0, a3
	vsetvli	zero, zero, e8, m1, ta, mu
	vand.vv	v21, v6, v21
	vand.vv	v13, v6, v13
	vand.vv	v26, v4, v26
	vand.vv	v19, v4, v19
	vxor.vv	v5, v4, v6
	vxor.vv	v6, v31, v6
	vand.vv	v18, v31, v18
	vand.vv	v29, v31, v29
	vand.vv	v28, v6, v28
	vand.vv	v16, v6, v16
	vand.vv	v27, v5, v27
	vand.vv	v20, v5, v20
	vxor.vv	v13, v26, v13
	vxor.vv	v5, v7, v5
	vxor.vv	v31, v7, v31
	vand.vv	v15, v7, v15
	vand.vv	v17, v7, v17
	vxor.vv	v26, v27, v26
	vxor.vv	v27, v13, v29
	vand.vv	v25, v31, v25
	vand.vv	v24, v5, v24
	vxor.vv	v29, v5, v6
	vand.vv	v12, v31, v12
	vand.vv	v14, v5, v14
	vand.vv	v11, v29, v11
	vxor.vv	v15, v25, v15
	vand.vv	v23, v29, v23
	vxor.vv	v29, v27, v25
	vxor.vv	v13, v24, v13
	vxor.vv	v14, v14, v16
	vxor.vv	v11, v11, v16
	vxor.vv	v16, v15, v23
	vxor.vv	v17, v29, v17
	vxor.vv	v15, v26, v15
	vxor.vv	v13, v13, v12
	vxor.vv	v20, v11, v20
	vxor.vv	v11, v17, v11
	vxor.vv	v13, v13, v16
	vxor.vv	v16, v16, v28
	vxor.vv	v17, v20, v19
	vxor.vv	v18, v13, v18
	vxor.vv	v23, v11, v13
	vxor.vv	v24, v11, v12
	vxor.vv	v11, v20, v21
	vxor.vv	v12, v14, v16
	vxor.vv	v25, v15, v17
	vxor.vv	v20, v11, v18
	vxor.vv	v21, v17, v16
	vxor.vv	v27, v12, v18
	vrgather.vv	v14, v24, v30
	vrgather.vv	v13, v23, v30
	vxor.vv	v26, v25, v16
	vxor.vv	v28, v25, v29
	vrgather.vv	v14, v24, v22, v0.t
	vrgather.vv	v13, v23, v22, v0.t
	vrgather.vv	v17, v20, v30
	vrgather.vv	v16, v25, v30
	vrgather.vv	v12, v27, v30
	vrgather.vv	v11, v21, v30
	vrgather.vv	v17, v20, v22, v0.t
	vrgather.vv	v19, v28, v30
	vrgather.vv	v15, v26, v30
	vxor.vv	v24, v24, v14
	vxor.vv	v23, v23, v13
	vrgather.vv	v19, v28, v22, v0.t
	vxor.vv	v18, v20, v17
	csrr	a3, vlenb
	li	a4, 6
	mul	a3, a3, a4
	add	a3, a3, sp
	addi	a3, a3, 32
	vl1r.v	v9, (a3)                        # vscale x 8-byte Folded Reload
	vrgather.vv	v29, v24, v9
	vrgather.vv	v30, v24, v10
	vrgather.vv	v7, v23, v9
	vrgather.vv	v6, v23, v10
	vrgather.vv	v16, v25, v22, v0.t
	vxor.vv	v20, v28, v19
	vrgather.vv	v28, v18, v9
	vrgather.vv	v5, v18, v10
	vrgather.vv	v12, v27, v22, v0.t
	vxor.vv	v25, v25, v16
	vrgather.vv	v15, v26, v22, v0.t
	vrgather.vv	v4, v20, v9
	vrgather.vv	v11, v21, v22, v0.t
	vrgather.vv	v3, v20, v10
	vxor.vv	v22, v27, v12
	vmv1r.v	v0, v8
	vsetivli	zero, 8, e16, m1, ta, ma
	vmerge.vvm	v31, v30, v29, v0
	vsetivli	zero, 16, e8, m1, ta, ma
	vrgather.vv	v27, v25, v9
	vsetivli	zero, 8, e16, m1, ta, ma
	vmerge.vvm	v7, v6, v7, v0
	vsetivli	zero, 16, e8, m1, ta, ma
	vrgather.vv	v29, v25, v10
	vxor.vv	v26, v26, v15
	vsetivli	zero, 8, e16, m1, ta, ma
	vmerge.vvm	v30, v5, v28, v0
	vsetivli	zero, 16, e8, m1, ta, ma
	vrgather.vv	v5, v22, v9
	vsetivli	zero, 8, e16, m1, ta, ma
	vmerge.vvm	v6, v3, v4, v0
	vsetivli	zero, 16, e8, m1, ta, ma
	vrgather.vv	v4, v22, v10
	vsetivli	zero, 8, e16, m1, ta, ma
	vmerge.vvm	v28, v29, v27, v0
	vsetivli	zero, 16, e8, m1, ta, ma
	vrgather.vv	v27, v26, v9
	vsetivli	zero, 8, e16, m1, ta, ma
	vmerge.vvm	v29, v4, v5, v0
	vsetivli	zero, 16, e8, m1, ta, ma
	vrgather.vv	v5, v26, v10
	vsetivli	zero, 8, e16, m1, ta, ma
	vmerge.vvm	v27, v5, v27, v0
	slli	a1, a1, 7
	add	a3, a0, a1
	addi	a4, a3, -128
	vsetivli	zero, 16, e8, m1, ta, ma
	vle8.v	v5, (a4)
	vxor.vv	v21, v21, v11
	vrgather.vv	v4, v21, v9
	vrgather.vv	v9, v21, v10
	vsetivli	zero, 8, e16, m1, ta, ma
	vmerge.vvm	v9, v9, v4, v0
	addi	a4, a3, -112
	addi	a5, a3, -96
	vsetivli	zero, 16, e8, m1, ta, ma
	vxor.vv	v8, v31, v5
	vle8.v	v10, (a4)
	addi	a4, a3, -80
	vxor.vv	v8, v8, v14
	vle8.v	v14, (a5)
	vxor.vv	v10, v7, v10
	vle8.v	v31, (a4)
	vxor.vv	v10, v10, v13
	vxor.vv	v13, v30, v14
	vxor.vv	v14, v13, v17
	vxor.vv	v17, v6, v31
	addi	a4, a3, -64
	addi	a5, a3, -48
	vxor.vv	v10, v10, v21
	vxor.vv	v13, v10, v24
	vle8.v	v10, (a4)
	vxor.vv	v14, v14, v23
	vle8.v	v23, (a5)
	vxor.vv	v17, v17, v19
	vxor.vv	v10, v28, v10
	vxor.vv	v10, v10, v16
	vxor.vv	v19, v29, v23
	addi	a4, a3, -32
	vxor.vv	v16, v17, v21
	vxor.vv	v16, v16, v18
	vle8.v	v17, (a4)
	vxor.vv	v8, v8, v21
	vxor.vv	v10, v10, v21
	vxor.vv	v12, v19, v12
	addi	a3, a3, -16
	vxor.vv	v18, v27, v17
	vle8.v	v19, (a3)
	vxor.vv	v17, v10, v20
	vxor.vv	v10, v12, v25
	vxor.vv	v12, v18, v15
	vxor.vv	v9, v9, v19
	vxor.vv	v18, v12, v22
	vxor.vv	v9, v9, v11
	vxor.vv	v15, v9, v26
	j	.Lgcm_BB25_8
.Lgcm_BB25_7:                               # %else.12
.Lgcm_pcrel_hi83:
	auipc	a3, %pcrel_hi(.Lgcm_CPI25_9)
	vmv.v.i	v8, 0
	addi	a3, a3, %pcrel_lo(.Lgcm_pcrel_hi83)
	vle8.v	v10, (a3)
	lui	a3, 65535
	vid.v	v9
	vmv1r.v	v13, v8
	slli	a3, a3, 20
	vadd.vi	v9, v9, -2
	vmv1r.v	v14, v8
	vmv1r.v	v15, v8
	vmv1r.v	v16, v8
	vmv1r.v	v21, v8
	vmv1r.v	v23, v8
	vmv1r.v	v24, v8
	vmv1r.v	v26, v8
	vsetivli	zero, 2, e64, m1, ta, ma
	vmv.v.x	v27, a3
	vsetivli	zero, 14, e8, m1, tu, ma
	vrgather.vv	v13, v11, v10
	vrgather.vv	v14, v17, v10
	vrgather.vv	v15, v18, v10
	vrgather.vv	v16, v20, v10
	vrgather.vv	v21, v22, v10
	vrgather.vv	v23, v12, v10
	vrgather.vv	v24, v19, v10
	vrgather.vv	v26, v25, v10
	vsetivli	zero, 16, e8, m1, ta, ma
	vxor.vv	v10, v13, v11
	vxor.vv	v13, v14, v17
	vxor.vv	v14, v15, v18
	vxor.vv	v15, v16, v20
	vxor.vv	v16, v21, v22
	vxor.vv	v21, v23, v12
	vxor.vv	v23, v24, v19
	vxor.vv	v24, v26, v25
	vand.vv	v10, v10, v27
	vand.vv	v13, v13, v27
	vand.vv	v14, v14, v27
	vand.vv	v15, v15, v27
	vand.vv	v26, v16, v27
	vand.vv	v21, v21, v27
	vand.vv	v23, v23, v27
	vand.vv	v24, v24, v27
	vrgather.vv	v16, v10, v9
	vrgather.vv	v27, v13, v9
	vrgather.vv	v28, v14, v9
	vrgather.vv	v29, v15, v9
	vrgather.vv	v30, v26, v9
	vrgather.vv	v31, v21, v9
	vrgather.vv	v7, v23, v9
	vrgather.vv	v6, v24, v9
	vsetivli	zero, 2, e8, m1, tu, ma
	vmv.v.v	v16, v8
	vmv.v.v	v27, v8
	vmv.v.v	v28, v8
	vmv.v.v	v29, v8
	vmv.v.v	v30, v8
	vmv.v.v	v31, v8
	vmv.v.v	v7, v8
	vmv.v.v	v6, v8
	vsetivli	zero, 16, e8, m1, ta, ma
	vxor.vv	v8, v16, v11
	vxor.vv	v9, v27, v17
	vxor.vv	v11, v28, v18
	vxor.vv	v16, v29, v20
	vxor.vv	v17, v30, v22
	vxor.vv	v12, v31, v12
	vxor.vv	v18, v7, v19
	vxor.vv	v19, v6, v25
	vxor.vv	v8, v8, v10
	vxor.vv	v13, v9, v13
	vxor.vv	v14, v11, v14
	vxor.vv	v16, v16, v15
	vxor.vv	v17, v17, v26
	vxor.vv	v10, v12, v21
	vxor.vv	v18, v18, v23
	vxor.vv	v15, v19, v24
	slli	a1, a1, 7
.Lgcm_BB25_8:                               # %join.13
	vxor.vv	v20, v10, v18
	vxor.vv	v11, v17, v15
	vxor.vv	v10, v13, v15
	vxor.vv	v9, v14, v17
	vxor.vv	v12, v14, v15
	add	a0, a0, a1
	vxor.vv	v22, v8, v20
	vxor.vv	v23, v10, v9
	vle8.v	v21, (a0)
	addi	a1, a0, 16
	vle8.v	v19, (a1)
	addi	a1, a0, 32
	vxor.vv	v28, v22, v17
	vxor.vv	v17, v23, v16
	vxor.vv	v24, v22, v15
	vxor.vv	v16, v22, v13
	vand.vv	v13, v28, v8
	vxor.vv	v27, v17, v14
	vxor.vv	v29, v17, v18
	vxor.vv	v25, v16, v12
	vand.vv	v30, v16, v22
	vxor.vv	v17, v29, v11
	vxor.vv	v26, v27, v8
	vand.vv	v31, v27, v23
	vxor.vv	v14, v27, v20
	vxor.vv	v7, v13, v12
	vand.vv	v6, v17, v11
	vxor.vv	v18, v17, v20
	vxor.vv	v13, v17, v14
	vxor.vv	v20, v17, v8
	vand.vv	v5, v14, v12
	vand.vv	v4, v26, v25
	vxor.vv	v7, v7, v14
	vxor.vv	v29, v29, v4
	vand.vv	v4, v13, v9
	vxor.vv	v5, v5, v6
	vxor.vv	v6, v4, v6
	vand.vv	v4, v20, v24
	vxor.vv	v7, v7, v31
	vxor.vv	v29, v29, v31
	vand.vv	v31, v18, v10
	vxor.vv	v30, v18, v30
	vxor.vv	v7, v7, v5
	vxor.vv	v30, v30, v31
	vxor.vv	v4, v18, v4
	vxor.vv	v29, v29, v6
	vxor.vv	v30, v30, v10
	vxor.vv	v31, v4, v31
	vxor.vv	v30, v30, v6
	vxor.vv	v15, v31, v15
	vxor.vv	v31, v29, v7
	vxor.vv	v15, v15, v5
	vand.vv	v29, v30, v29
	vxor.vv	v6, v29, v7
	vxor.vv	v5, v29, v15
	vxor.vv	v4, v15, v30
	vand.vv	v6, v6, v4
	vand.vv	v4, v5, v31
	vxor.vv	v7, v4, v7
	vle8.v	v4, (a1)
	addi	a1, a0, 48
	vxor.vv	v29, v6, v29
	vxor.vv	v6, v6, v15
	vand.vv	v15, v29, v15
	vle8.v	v29, (a1)
	addi	a1, a0, 64
	vxor.vv	v5, v15, v5
	vxor.vv	v30, v15, v30
	vle8.v	v15, (a1)
	addi	a1, a0, 80
	vand.vv	v28, v6, v28
	vxor.vv	v28, v28, v4
	vle8.v	v4, (a1)
	addi	a1, a0, 96
	addi	a0, a0, 112
	vand.vv	v5, v5, v7
	vxor.vv	v31, v5, v31
	vle8.v	v5, (a1)
	vand.vv	v8, v6, v8
	vand.vv	v27, v30, v27
	vand.vv	v23, v30, v23
	vxor.vv	v30, v30, v6
	vxor.vv	v6, v7, v6
	vand.vv	v24, v7, v24
	vand.vv	v20, v7, v20
	vand.vv	v26, v30, v26
	vand.vv	v25, v30, v25
	vxor.vv	v30, v31, v30
	vxor.vv	v7, v31, v7
	vand.vv	v22, v31, v22
	vand.vv	v16, v31, v16
	vle8.v	v31, (a0)
	vand.vv	v17, v6, v17
	vand.vv	v11, v6, v11
	vxor.vv	v8, v27, v8
	vxor.vv	v26, v26, v27
	vxor.vv	v20, v8, v20
	vand.vv	v18, v7, v18
	vand.vv	v14, v30, v14
	vxor.vv	v27, v30, v6
	vand.vv	v10, v7, v10
	vand.vv	v12, v30, v12
	vand.vv	v9, v27, v9
	vxor.vv	v22, v18, v22
	vand.vv	v13, v27, v13
	vxor.vv	v18, v20, v18
	vxor.vv	v8, v14, v8
	vxor.vv	v14, v10, v21
	vxor.vv	v12, v4, v12
	vxor.vv	v9, v9, v11
	vxor.vv	v13, v22, v13
	vxor.vv	v16, v18, v16
	vxor.vv	v20, v26, v22
	vxor.vv	v8, v8, v10
	vxor.vv	v10, v18, v29
	vxor.vv	v11, v12, v11
	vxor.vv	v12, v9, v25
	vxor.vv	v9, v16, v9
	vxor.vv	v8, v8, v13
	vxor.vv	v13, v13, v17
	vxor.vv	v16, v12, v23
	vxor.vv	v17, v8, v24
	vxor.vv	v14, v14, v9
	vxor.vv	v8, v8, v19
	vxor.vv	v12, v28, v12
	vxor.vv	v11, v11, v13
	vxor.vv	v18, v13, v5
	vxor.vv	v13, v13, v31
	vxor.vv	v19, v20, v16
	vxor.vv	v8, v8, v9
	vxor.vv	v9, v12, v17
	vxor.vv	v11, v11, v17
	vxor.vv	v12, v13, v16
	vse8.v	v14, (a2)
	vxor.vv	v10, v10, v19
	vxor.vv	v13, v19, v15
	vxor.vv	v14, v18, v19
	vse8.v	v8, (a6)
	vse8.v	v9, (t1)
	vse8.v	v11, (s2)
	vse8.v	v10, (a7)
	vse8.v	v13, (t0)
	vse8.v	v14, (t5)
	vse8.v	v12, (t6)
	csrr	a0, vlenb
	slli	a0, a0, 3
	add	sp, sp, a0
	ld	s0, 72(sp)                      # 8-byte Folded Reload
	ld	s1, 64(sp)                      # 8-byte Folded Reload
	ld	s2, 56(sp)                      # 8-byte Folded Reload
	ld	s3, 48(sp)                      # 8-byte Folded Reload
	ld	s4, 40(sp)                      # 8-byte Folded Reload
	addi	sp, sp, 80
	ret
.Lgcm_func_end25:
	.size	gcm.aes_soft.soft.ciphers.planes.EncryptPlaneCipher.process_planes, .Lgcm_func_end25-gcm.aes_soft.soft.ciphers.planes.EncryptPlaneCipher.process_planes
                                        # -- End function
	.section	.text.gcm.aes_soft.soft.blocks.filled_up.process_filled_up,"ax",@progbits
	.p2align	1                               # -- Begin function aes_soft::soft::blocks::filled_up::process_filled_up::<#2a076538018b6fb3>
	.type	gcm.aes_soft.soft.blocks.filled_up.process_filled_up,@function
gcm.aes_soft.soft.blocks.filled_up.process_filled_up: # @gcm.aes_soft.soft.blocks.filled_up.process_filled_up
# %bb.0:                                # %start
	addi	sp, sp, -432
	sd	ra, 424(sp)                     # 8-byte Folded Spill
	sd	s0, 416(sp)                     # 8-byte Folded Spill
	sd	s1, 408(sp)                     # 8-byte Folded Spill
	sd	s2, 400(sp)                     # 8-byte Folded Spill
	sd	s3, 392(sp)                     # 8-byte Folded Spill
	mv	s1, a3
	mv	s0, a2
	mv	t1, a0
	addi	a6, sp, 240
	vsetivli	zero, 8, e64, m4, ta, ma
	vmv.v.i	v8, 0
	mv	s2, sp
	addi	a2, sp, 64
	vse64.v	v8, (s2)
	vse64.v	v8, (a2)
	vsetivli	zero, 2, e64, m1, ta, ma
	vmv.v.i	v8, 0
	addi	a2, sp, 224
	addi	a3, sp, 208
	addi	a5, sp, 192
	addi	a0, sp, 176
	addi	a4, sp, 160
	addi	t5, sp, 144
	addi	s3, sp, 128
	vsetivli	zero, 16, e8, m1, ta, ma
	vle8.v	v9, (s0)
	addi	t4, sp, 256
	vsetivli	zero, 2, e64, m1, ta, ma
	vse64.v	v8, (a6)
	addi	t3, sp, 272
	vse64.v	v8, (a2)
	addi	t2, sp, 288
	vse64.v	v8, (a3)
	addi	a3, sp, 304
	vse64.v	v8, (a5)
	addi	t0, sp, 320
	vse64.v	v8, (a0)
	addi	a7, sp, 336
	vse64.v	v8, (a4)
	addi	a6, sp, 352
	vsetivli	zero, 16, e8, m1, ta, ma
	vle8.v	v10, (s0)
	vsetivli	zero, 2, e64, m1, ta, ma
	vse64.v	v8, (t5)
	addi	a0, sp, 368
	srli	a1, a1, 3
	vse64.v	v8, (s3)
	vsetivli	zero, 16, e8, m1, ta, ma
	vse8.v	v9, (t4)
	vse8.v	v9, (t3)
	vse8.v	v9, (t2)
	vse8.v	v9, (a3)
	vse8.v	v9, (t0)
	vse8.v	v9, (a7)
	vse8.v	v10, (a6)
	vse8.v	v10, (a0)
	addi	a2, a1, -1
	beqz	s1, .Lgcm_BB26_10
# %bb.1:                                # %join.8.i
	vle8.v	v8, (s0)
	li	a0, 1
	vse8.v	v8, (t4)
	beq	s1, a0, .Lgcm_BB26_8
# %bb.2:                                # %join.8.i.1
	addi	a0, s0, 16
	vle8.v	v8, (a0)
	li	a0, 2
	vse8.v	v8, (t3)
	beq	s1, a0, .Lgcm_BB26_8
# %bb.3:                                # %join.8.i.2
	addi	a0, s0, 32
	vle8.v	v8, (a0)
	li	a0, 3
	vse8.v	v8, (t2)
	beq	s1, a0, .Lgcm_BB26_8
# %bb.4:                                # %join.8.i.3
	addi	a0, s0, 48
	vle8.v	v8, (a0)
	li	a0, 4
	vse8.v	v8, (a3)
	beq	s1, a0, .Lgcm_BB26_8
# %bb.5:                                # %join.8.i.4
	addi	a0, s0, 64
	vle8.v	v8, (a0)
	li	a0, 5
	vse8.v	v8, (t0)
	beq	s1, a0, .Lgcm_BB26_8
# %bb.6:                                # %join.8.i.5
	addi	a0, s0, 80
	vle8.v	v8, (a0)
	li	a0, 6
	vse8.v	v8, (a7)
	beq	s1, a0, .Lgcm_BB26_8
# %bb.7:                                # %join.8.i.6
	addi	a0, s0, 96
	vle8.v	v8, (a0)
	vse8.v	v8, (a6)
.Lgcm_BB26_8:                               # %"aes_soft::soft::blocks::filled_up::filled_up::<#65d77337c4222250>.exit"
	mv	a0, sp
	addi	a3, sp, 256
	mv	a1, t1
	call	gcm.aes_soft.soft.ciphers.planes.process_outlined
	vsetivli	zero, 16, e64, m8, ta, ma
	vle64.v	v8, (s2)
	addi	a0, sp, 128
	slli	a1, s1, 4
	vse64.v	v8, (a0)
	add	a1, a1, s0
.Lgcm_BB26_9:                               # %join.8.i19
                                        # =>This Inner Loop Header: Depth=1
	vsetvli	zero, zero, e8, m1, ta, ma
	vle8.v	v8, (a0)
	vse8.v	v8, (s0)
	addi	s0, s0, 16
	addi	a0, a0, 16
	bne	s0, a1, .Lgcm_BB26_9
	j	.Lgcm_BB26_11
.Lgcm_BB26_10:                              # %"aes_soft::soft::blocks::filled_up::copy_first::<#65d77337c4222250>.exit.critedge"
	mv	a0, sp
	addi	a3, sp, 256
	mv	a1, t1
	call	gcm.aes_soft.soft.ciphers.planes.process_outlined
	vsetivli	zero, 16, e64, m8, ta, ma
	vle64.v	v8, (s2)
	vse64.v	v8, (s3)
.Lgcm_BB26_11:                              # %"aes_soft::soft::blocks::filled_up::copy_first::<#65d77337c4222250>.exit"
	ld	ra, 424(sp)                     # 8-byte Folded Reload
	ld	s0, 416(sp)                     # 8-byte Folded Reload
	ld	s1, 408(sp)                     # 8-byte Folded Reload
	ld	s2, 400(sp)                     # 8-byte Folded Reload
	ld	s3, 392(sp)                     # 8-byte Folded Reload
	addi	sp, sp, 432
	ret
.Lgcm_func_end26:
	.size	gcm.aes_soft.soft.blocks.filled_up.process_filled_up, .Lgcm_func_end26-gcm.aes_soft.soft.blocks.filled_up.process_filled_up
                                        # -- End function
	.section	.text.gcm.aes_cipher.zeroize.zeroize_words,"ax",@progbits
	.p2align	1                               # -- Begin function aes_cipher::zeroize::zeroize_words::<#fab3fa1ddd682008>
	.type	gcm.aes_cipher.zeroize.zeroize_words,@function
gcm.aes_cipher.zeroize.zeroize_words: # @gcm.aes_cipher.zeroize.zeroize_words
# %bb.0:                                # %start
	addi	sp, sp, -32
	sd	ra, 24(sp)                      # 8-byte Folded Spill
	sd	s0, 16(sp)                      # 8-byte Folded Spill
	sd	s1, 8(sp)                       # 8-byte Folded Spill
	sd	zero, 0(sp)
	#APP
	#NO_APP
	fence	rw, rw
	ld	a1, 0(sp)
	fence	r, rw
	#APP
	#NO_APP
	li	a2, 120
	bgeu	a1, a2, .Lgcm_BB27_2
# %bb.1:                                # %then.1.i
	slli	a1, a1, 4
	add	s0, a0, a1
	lbu	s1, 0(s0)
	li	a2, 1920
	li	a1, 0
	la	t1, memset
	jalr	t1
	lbu	a0, 0(s0)
	and	a0, a0, s1
	j	.Lgcm_BB27_3
.Lgcm_BB27_2:                               # %"aes_cipher::zeroize::observe::<#75b1955848bb803f>.exit11"
	li	a2, 1920
	li	a1, 0
	la	t1, memset
	jalr	t1
	li	a0, 0
.Lgcm_BB27_3:                               # %"aes_cipher::zeroize::observe::<#75b1955848bb803f>.exit"
	#APP
	#NO_APP
	mv	a1, sp
	amoswap.d.aqrl	zero, a0, (a1)
	#APP
	#NO_APP
	ld	ra, 24(sp)                      # 8-byte Folded Reload
	ld	s0, 16(sp)                      # 8-byte Folded Reload
	ld	s1, 8(sp)                       # 8-byte Folded Reload
	addi	sp, sp, 32
	ret
.Lgcm_func_end27:
	.size	gcm.aes_cipher.zeroize.zeroize_words, .Lgcm_func_end27-gcm.aes_cipher.zeroize.zeroize_words
                                        # -- End function
	.section	.text.gcm.aes_cipher.zeroize.stack.wipe_stack.1792,"ax",@progbits
	.p2align	1                               # -- Begin function aes_cipher::zeroize::stack::wipe_stack::<=1792>
	.type	gcm.aes_cipher.zeroize.stack.wipe_stack.1792,@function
gcm.aes_cipher.zeroize.stack.wipe_stack.1792: # @gcm.aes_cipher.zeroize.stack.wipe_stack.1792
# %bb.0:                                # %start
	addi	sp, sp, -1840
	sd	ra, 1832(sp)                    # 8-byte Folded Spill
	sd	s0, 1824(sp)                    # 8-byte Folded Spill
	sd	s1, 1816(sp)                    # 8-byte Folded Spill
	addi	s0, sp, 24
	addi	a0, sp, 24
	li	a2, 1792
	li	s1, 1792
	li	a1, 0
	la	t1, memset
	jalr	t1
	sd	zero, 16(sp)
	#APP
	#NO_APP
	fence	rw, rw
	ld	a0, 16(sp)
	fence	r, rw
	#APP
	#NO_APP
	bgeu	a0, s1, .Lgcm_BB28_2
# %bb.1:                                # %then.1
	add	a0, a0, s0
	lbu	a0, 0(a0)
	#APP
	#NO_APP
	addi	a1, sp, 16
	amoswap.d.aqrl	zero, a0, (a1)
	#APP
	#NO_APP
.Lgcm_BB28_2:                               # %common.ret
	ld	ra, 1832(sp)                    # 8-byte Folded Reload
	ld	s0, 1824(sp)                    # 8-byte Folded Reload
	ld	s1, 1816(sp)                    # 8-byte Folded Reload
	addi	sp, sp, 1840
	ret
.Lgcm_func_end28:
	.size	gcm.aes_cipher.zeroize.stack.wipe_stack.1792, .Lgcm_func_end28-gcm.aes_cipher.zeroize.stack.wipe_stack.1792
                                        # -- End function
	.section	.rodata.cst16,"aM",@progbits,16
	.p2align	4, 0x0                          # -- Begin function aes_permute::blocks::process_on_lanes::<#06aaae76f5856d0a>
.Lgcm_CPI29_0:
	.byte	0                               # 0x0
	.byte	1                               # 0x1
	.byte	28                              # 0x1c
	.byte	29                              # 0x1d
	.byte	45                              # 0x2d
	.byte	44                              # 0x2c
	.byte	49                              # 0x31
	.byte	48                              # 0x30
	.byte	39                              # 0x27
	.byte	38                              # 0x26
	.byte	59                              # 0x3b
	.byte	58                              # 0x3a
	.byte	10                              # 0xa
	.byte	11                              # 0xb
	.byte	22                              # 0x16
	.byte	23                              # 0x17
.Lgcm_CPI29_1:
	.byte	0                               # 0x0
	.byte	134                             # 0x86
	.byte	253                             # 0xfd
	.byte	123                             # 0x7b
	.byte	142                             # 0x8e
	.byte	8                               # 0x8
	.byte	115                             # 0x73
	.byte	245                             # 0xf5
	.byte	119                             # 0x77
	.byte	241                             # 0xf1
	.byte	138                             # 0x8a
	.byte	12                              # 0xc
	.byte	249                             # 0xf9
	.byte	127                             # 0x7f
	.byte	4                               # 0x4
	.byte	130                             # 0x82
.Lgcm_CPI29_2:
	.byte	128                             # 0x80
	.byte	2                               # 0x2
	.byte	1                               # 0x1
	.byte	15                              # 0xf
	.byte	9                               # 0x9
	.byte	5                               # 0x5
	.byte	14                              # 0xe
	.byte	12                              # 0xc
	.byte	13                              # 0xd
	.byte	4                               # 0x4
	.byte	11                              # 0xb
	.byte	10                              # 0xa
	.byte	7                               # 0x7
	.byte	8                               # 0x8
	.byte	6                               # 0x6
	.byte	3                               # 0x3
.Lgcm_CPI29_3:
	.byte	128                             # 0x80
	.byte	1                               # 0x1
	.byte	9                               # 0x9
	.byte	14                              # 0xe
	.byte	13                              # 0xd
	.byte	11                              # 0xb
	.byte	7                               # 0x7
	.byte	6                               # 0x6
	.byte	15                              # 0xf
	.byte	2                               # 0x2
	.byte	12                              # 0xc
	.byte	5                               # 0x5
	.byte	10                              # 0xa
	.byte	4                               # 0x4
	.byte	3                               # 0x3
	.byte	8                               # 0x8
.Lgcm_CPI29_4:
	.byte	0                               # 0x0
	.byte	195                             # 0xc3
	.byte	79                              # 0x4f
	.byte	12                              # 0xc
	.byte	252                             # 0xfc
	.byte	124                             # 0x7c
	.byte	67                              # 0x43
	.byte	128                             # 0x80
	.byte	207                             # 0xcf
	.byte	51                              # 0x33
	.byte	63                              # 0x3f
	.byte	112                             # 0x70
	.byte	191                             # 0xbf
	.byte	179                             # 0xb3
	.byte	240                             # 0xf0
	.byte	140                             # 0x8c
.Lgcm_CPI29_5:
	.byte	0                               # 0x0
	.byte	230                             # 0xe6
	.byte	114                             # 0x72
	.byte	183                             # 0xb7
	.byte	229                             # 0xe5
	.byte	198                             # 0xc6
	.byte	197                             # 0xc5
	.byte	35                              # 0x23
	.byte	81                              # 0x51
	.byte	180                             # 0xb4
	.byte	3                               # 0x3
	.byte	113                             # 0x71
	.byte	32                              # 0x20
	.byte	151                             # 0x97
	.byte	82                              # 0x52
	.byte	148                             # 0x94
.Lgcm_CPI29_6:
	.byte	0                               # 0x0
	.byte	124                             # 0x7c
	.byte	32                              # 0x20
	.byte	207                             # 0xcf
	.byte	146                             # 0x92
	.byte	1                               # 0x1
	.byte	239                             # 0xef
	.byte	147                             # 0x93
	.byte	179                             # 0xb3
	.byte	33                              # 0x21
	.byte	238                             # 0xee
	.byte	206                             # 0xce
	.byte	125                             # 0x7d
	.byte	178                             # 0xb2
	.byte	93                              # 0x5d
	.byte	92                              # 0x5c
.Lgcm_CPI29_7:
	.byte	0                               # 0x0
	.byte	209                             # 0xd1
	.byte	229                             # 0xe5
	.byte	247                             # 0xf7
	.byte	230                             # 0xe6
	.byte	37                              # 0x25
	.byte	18                              # 0x12
	.byte	195                             # 0xc3
	.byte	38                              # 0x26
	.byte	192                             # 0xc0
	.byte	55                              # 0x37
	.byte	210                             # 0xd2
	.byte	244                             # 0xf4
	.byte	3                               # 0x3
	.byte	17                              # 0x11
	.byte	52                              # 0x34
.Lgcm_CPI29_8:
	.byte	0                               # 0x0
	.byte	203                             # 0xcb
	.byte	215                             # 0xd7
	.byte	176                             # 0xb0
	.byte	33                              # 0x21
	.byte	141                             # 0x8d
	.byte	103                             # 0x67
	.byte	172                             # 0xac
	.byte	123                             # 0x7b
	.byte	90                              # 0x5a
	.byte	234                             # 0xea
	.byte	61                              # 0x3d
	.byte	70                              # 0x46
	.byte	246                             # 0xf6
	.byte	145                             # 0x91
	.byte	28                              # 0x1c
.Lgcm_CPI29_9:
	.byte	0                               # 0x0
	.byte	159                             # 0x9f
	.byte	97                              # 0x61
	.byte	22                              # 0x16
	.byte	194                             # 0xc2
	.byte	42                              # 0x2a
	.byte	119                             # 0x77
	.byte	232                             # 0xe8
	.byte	137                             # 0x89
	.byte	75                              # 0x4b
	.byte	93                              # 0x5d
	.byte	60                              # 0x3c
	.byte	181                             # 0xb5
	.byte	163                             # 0xa3
	.byte	212                             # 0xd4
	.byte	254                             # 0xfe
	.section	.text.gcm.aes_permute.blocks.process_on_lanes,"ax",@progbits
	.p2align	1
	.type	gcm.aes_permute.blocks.process_on_lanes,@function
gcm.aes_permute.blocks.process_on_lanes: # @gcm.aes_permute.blocks.process_on_lanes
# %bb.0:                                # %start
	addi	sp, sp, -112
	sd	ra, 104(sp)                     # 8-byte Folded Spill
	sd	s0, 96(sp)                      # 8-byte Folded Spill
	sd	s1, 88(sp)                      # 8-byte Folded Spill
	sd	s2, 80(sp)                      # 8-byte Folded Spill
	sd	s3, 72(sp)                      # 8-byte Folded Spill
	sd	s4, 64(sp)                      # 8-byte Folded Spill
	sd	s5, 56(sp)                      # 8-byte Folded Spill
	sd	s6, 48(sp)                      # 8-byte Folded Spill
	sd	s7, 40(sp)                      # 8-byte Folded Spill
	sd	s8, 32(sp)                      # 8-byte Folded Spill
	sd	s9, 24(sp)                      # 8-byte Folded Spill
	sd	s10, 16(sp)                     # 8-byte Folded Spill
	sd	s11, 8(sp)                      # 8-byte Folded Spill
	li	a7, 2
	addi	a6, a1, -1
.Lgcm_pcrel_hi84:
	auipc	t0, %pcrel_hi(.Lgcm_CPI29_0)
.Lgcm_pcrel_hi85:
	auipc	t1, %pcrel_hi(.Lgcm_CPI29_1)
.Lgcm_pcrel_hi86:
	auipc	t2, %pcrel_hi(.Lgcm_CPI29_2)
.Lgcm_pcrel_hi87:
	auipc	t6, %pcrel_hi(.Lgcm_CPI29_3)
.Lgcm_pcrel_hi88:
	auipc	s2, %pcrel_hi(.Lgcm_CPI29_4)
.Lgcm_pcrel_hi89:
	auipc	s3, %pcrel_hi(.Lgcm_CPI29_5)
.Lgcm_pcrel_hi90:
	auipc	s6, %pcrel_hi(.Lgcm_CPI29_6)
.Lgcm_pcrel_hi91:
	auipc	s7, %pcrel_hi(.Lgcm_CPI29_7)
.Lgcm_pcrel_hi92:
	auipc	s8, %pcrel_hi(.Lgcm_CPI29_8)
.Lgcm_pcrel_hi93:
	auipc	s1, %pcrel_hi(.Lgcm_CPI29_9)
.Lgcm_pcrel_hi94:
	auipc	s0, %pcrel_hi(.Lgcm_static.3)
.Lgcm_pcrel_hi95:
	auipc	a4, %pcrel_hi(.Lgcm_static.5)
.Lgcm_pcrel_hi96:
	auipc	a5, %pcrel_hi(.Lgcm_static.6)
	addi	t3, t0, %pcrel_lo(.Lgcm_pcrel_hi84)
	addi	t4, t1, %pcrel_lo(.Lgcm_pcrel_hi85)
	addi	t5, t2, %pcrel_lo(.Lgcm_pcrel_hi86)
	addi	t6, t6, %pcrel_lo(.Lgcm_pcrel_hi87)
	addi	s4, s2, %pcrel_lo(.Lgcm_pcrel_hi88)
	addi	s5, s3, %pcrel_lo(.Lgcm_pcrel_hi89)
	addi	s2, s6, %pcrel_lo(.Lgcm_pcrel_hi90)
	addi	s3, s7, %pcrel_lo(.Lgcm_pcrel_hi91)
	addi	t1, s8, %pcrel_lo(.Lgcm_pcrel_hi92)
	addi	t2, s1, %pcrel_lo(.Lgcm_pcrel_hi93)
	addi	t0, s0, %pcrel_lo(.Lgcm_pcrel_hi94)
	addi	s10, a4, %pcrel_lo(.Lgcm_pcrel_hi95)
	addi	s11, a5, %pcrel_lo(.Lgcm_pcrel_hi96)
	bltu	a3, a7, .Lgcm_BB29_6
# %bb.1:                                # %join.5.lr.ph
	li	a7, 0
	vsetivli	zero, 16, e8, m1, ta, ma
	vle8.v	v12, (t3)
	vle8.v	v13, (t4)
	vle8.v	v14, (t5)
	vle8.v	v15, (t6)
	vle8.v	v16, (s4)
	vle8.v	v17, (s5)
	vle8.v	v18, (s2)
	vle8.v	v19, (s3)
	slli	s8, a6, 4
	vle8.v	v20, (t1)
	vle8.v	v21, (t2)
	andi	a4, s8, 48
	add	a4, a4, t0
	vle8.v	v22, (a4)
	add	s8, s8, a0
	addi	s6, a1, -2
	addi	s7, a0, 16
	j	.Lgcm_BB29_3
.Lgcm_BB29_2:                               # %"aes_permute::blocks::process_two_vectors::<#06aaae76f5856d0a>.exit"
                                        #   in Loop: Header=BB29_3 Depth=1
	vsrl.vi	v11, v10, 4
	vand.vi	v10, v10, 15
	vsrl.vi	v9, v8, 4
	vand.vi	v8, v8, 15
	vxor.vv	v23, v11, v10
	vrgather.vv	v24, v14, v10
	vrgather.vv	v25, v15, v11
	vxor.vv	v10, v9, v8
	vrgather.vv	v26, v14, v8
	vrgather.vv	v8, v15, v9
	vrgather.vv	v27, v15, v23
	vxor.vv	v25, v25, v24
	vxor.vv	v24, v27, v24
	vrgather.vv	v27, v15, v10
	vxor.vv	v28, v8, v26
	vxor.vv	v26, v27, v26
	vmsle.vi	v0, v25, -1
	vrgather.vv	v8, v15, v25
	vmerge.vim	v25, v8, 0, v0
	vmsle.vi	v0, v24, -1
	vrgather.vv	v8, v15, v24
	vmerge.vim	v24, v8, 0, v0
	vmsle.vi	v8, v22, -1
	vxor.vv	v11, v24, v11
	vmsle.vi	v0, v24, -1
	vrgather.vv	v24, v21, v11
	vmerge.vim	v24, v24, 0, v0
	vle8.v	v11, (s8)
	li	a4, 32
	addi	a7, a7, 2
	sub	a5, a3, a7
	vxor.vv	v23, v25, v23
	vrgather.vv	v27, v20, v23
	vmsle.vi	v0, v25, -1
	vxor.vv	v23, v24, v27
	vmerge.vvm	v23, v23, v24, v0
	vrgather.vv	v24, v23, v22
	vxor.vv	v23, v11, v24
	vmv1r.v	v0, v8
	vmerge.vvm	v24, v23, v11, v0
	vmsle.vi	v0, v28, -1
	vrgather.vv	v23, v15, v28
	vmerge.vim	v23, v23, 0, v0
	vmsle.vi	v0, v26, -1
	vrgather.vv	v25, v15, v26
	vmerge.vim	v25, v25, 0, v0
	vxor.vv	v10, v23, v10
	vxor.vv	v9, v25, v9
	vrgather.vv	v26, v20, v10
	vmsle.vi	v0, v25, -1
	vrgather.vv	v10, v21, v9
	vmerge.vim	v9, v10, 0, v0
	vmsle.vi	v0, v23, -1
	vxor.vv	v10, v9, v26
	vmerge.vvm	v9, v10, v9, v0
	vrgather.vv	v10, v9, v22
	vxor.vv	v9, v11, v10
	vmv1r.v	v0, v8
	vmerge.vvm	v8, v9, v11, v0
	vsetvli	zero, a4, e8, m2, ta, ma
	vslideup.vi	v24, v8, 16
	li	a4, 1
	vse8.v	v24, (s9)
	bgeu	a4, a5, .Lgcm_BB29_7
.Lgcm_BB29_3:                               # %join.5
                                        # =>This Loop Header: Depth=1
                                        #     Child Loop BB29_5 Depth 2
	slli	s9, a7, 4
	vsetivli	zero, 16, e8, m1, ta, ma
	vle8.v	v8, (a0)
	add	s9, s9, a2
	vle8.v	v9, (s9)
	addi	a4, s9, 16
	vle8.v	v10, (a4)
	vxor.vv	v9, v8, v9
	vand.vi	v11, v9, 15
	vsrl.vi	v9, v9, 4
	vxor.vv	v8, v8, v10
	vrgather.vv	v10, v12, v11
	vrgather.vv	v11, v13, v9
	vand.vi	v9, v8, 15
	vsrl.vi	v8, v8, 4
	vxor.vv	v10, v11, v10
	vrgather.vv	v11, v12, v9
	vrgather.vv	v9, v13, v8
	li	a4, 2
	vxor.vv	v8, v9, v11
	bltu	a6, a4, .Lgcm_BB29_2
# %bb.4:                                # %join.5.i2829.preheader
                                        #   in Loop: Header=BB29_3 Depth=1
	li	ra, 16
	mv	s1, s7
	mv	a5, s6
.Lgcm_BB29_5:                               # %join.5.i2829
                                        #   Parent Loop BB29_3 Depth=1
                                        # =>  This Inner Loop Header: Depth=2
	vsrl.vi	v9, v10, 4
	vand.vi	v10, v10, 15
	andi	s0, ra, 48
	vsrl.vi	v11, v8, 4
	vand.vi	v8, v8, 15
	vle8.v	v23, (s1)
	addi	a5, a5, -1
	addi	s1, s1, 16
	vxor.vv	v26, v9, v10
	vrgather.vv	v27, v14, v10
	vrgather.vv	v10, v15, v9
	add	a4, s10, s0
	add	s0, s0, s11
	vxor.vv	v28, v11, v8
	vrgather.vv	v29, v14, v8
	vrgather.vv	v8, v15, v11
	vrgather.vv	v30, v15, v26
	vxor.vv	v10, v10, v27
	vle8.v	v24, (a4)
	vle8.v	v25, (s0)
	vrgather.vv	v31, v15, v28
	vxor.vv	v7, v8, v29
	vxor.vv	v8, v30, v27
	vrgather.vv	v27, v15, v10
	vmsle.vi	v0, v10, -1
	vxor.vv	v29, v31, v29
	vmerge.vim	v10, v27, 0, v0
	vmsle.vi	v0, v8, -1
	vrgather.vv	v27, v15, v8
	vmerge.vim	v27, v27, 0, v0
	vxor.vv	v26, v10, v26
	vmsle.vi	v8, v10, -1
	vxor.vv	v30, v27, v9
	vrgather.vv	v10, v16, v26
	vmsle.vi	v9, v27, -1
	vrgather.vv	v27, v18, v26
	vrgather.vv	v26, v17, v30
	vmv1r.v	v0, v9
	vmerge.vim	v26, v26, 0, v0
	vxor.vv	v10, v26, v10
	vmv1r.v	v0, v8
	vmerge.vvm	v26, v10, v26, v0
	vmsle.vi	v10, v24, -1
	vrgather.vv	v31, v19, v30
	vmv1r.v	v0, v9
	vmerge.vim	v9, v31, 0, v0
	vxor.vv	v27, v9, v27
	vrgather.vv	v30, v26, v24
	vmv1r.v	v0, v8
	vmerge.vvm	v8, v27, v9, v0
	vxor.vv	v9, v8, v30
	vmv1r.v	v0, v10
	vmerge.vvm	v27, v9, v8, v0
	vrgather.vv	v8, v27, v24
	vmerge.vim	v30, v8, 0, v0
	vmsle.vi	v0, v7, -1
	vrgather.vv	v8, v15, v7
	vmerge.vim	v8, v8, 0, v0
	vmsle.vi	v0, v29, -1
	vrgather.vv	v9, v15, v29
	vmerge.vim	v9, v9, 0, v0
	vxor.vv	v28, v8, v28
	vmsle.vi	v8, v8, -1
	vxor.vv	v29, v9, v11
	vrgather.vv	v11, v16, v28
	vmsle.vi	v9, v9, -1
	vrgather.vv	v31, v17, v29
	vmv1r.v	v0, v9
	vmerge.vim	v31, v31, 0, v0
	vxor.vv	v11, v31, v11
	vmv1r.v	v0, v8
	vmerge.vvm	v31, v11, v31, v0
	vmsle.vi	v11, v25, -1
	vrgather.vv	v7, v26, v25
	vxor.vv	v26, v30, v7
	vrgather.vv	v7, v18, v28
	vrgather.vv	v28, v19, v29
	vmv1r.v	v0, v9
	vmerge.vim	v9, v28, 0, v0
	vxor.vv	v28, v9, v7
	vrgather.vv	v29, v31, v24
	vrgather.vv	v7, v31, v25
	vmv1r.v	v0, v8
	vmerge.vvm	v8, v28, v9, v0
	vxor.vv	v9, v8, v29
	vmv1r.v	v0, v10
	vmerge.vvm	v8, v9, v8, v0
	vrgather.vv	v9, v8, v24
	vmerge.vim	v9, v9, 0, v0
	vmv1r.v	v0, v11
	vmerge.vvm	v10, v26, v30, v0
	vxor.vv	v10, v10, v27
	vxor.vv	v24, v9, v7
	vxor.vv	v10, v10, v23
	vmerge.vvm	v9, v24, v9, v0
	vxor.vv	v8, v9, v8
	vxor.vv	v8, v8, v23
	addi	ra, ra, 16
	bnez	a5, .Lgcm_BB29_5
	j	.Lgcm_BB29_2
.Lgcm_BB29_6:
	li	a7, 0
.Lgcm_BB29_7:                               # %loop.7.preheader
	bne	a3, a7, .Lgcm_BB29_9
.Lgcm_BB29_8:                               # %after.11
	ld	ra, 104(sp)                     # 8-byte Folded Reload
	ld	s0, 96(sp)                      # 8-byte Folded Reload
	ld	s1, 88(sp)                      # 8-byte Folded Reload
	ld	s2, 80(sp)                      # 8-byte Folded Reload
	ld	s3, 72(sp)                      # 8-byte Folded Reload
	ld	s4, 64(sp)                      # 8-byte Folded Reload
	ld	s5, 56(sp)                      # 8-byte Folded Reload
	ld	s6, 48(sp)                      # 8-byte Folded Reload
	ld	s7, 40(sp)                      # 8-byte Folded Reload
	ld	s8, 32(sp)                      # 8-byte Folded Reload
	ld	s9, 24(sp)                      # 8-byte Folded Reload
	ld	s10, 16(sp)                     # 8-byte Folded Reload
	ld	s11, 8(sp)                      # 8-byte Folded Reload
	addi	sp, sp, 112
	ret
.Lgcm_BB29_9:                               # %join.10.lr.ph
	vsetivli	zero, 16, e8, m1, ta, ma
	vle8.v	v10, (t3)
	vle8.v	v11, (t4)
	vle8.v	v12, (t5)
	vle8.v	v13, (t6)
	vle8.v	v14, (s4)
	vle8.v	v15, (s5)
	vle8.v	v16, (s2)
	vle8.v	v17, (s3)
	slli	a5, a6, 4
	vle8.v	v18, (t1)
	vle8.v	v19, (t2)
	andi	a4, a5, 48
	add	a4, a4, t0
	vle8.v	v20, (a4)
	addi	t0, a1, -2
	add	t1, a0, a5
	j	.Lgcm_BB29_11
.Lgcm_BB29_10:                              # %"aes_permute::blocks::process_vector::<#06aaae76f5856d0a>.exit54"
                                        #   in Loop: Header=BB29_11 Depth=1
	vle8.v	v9, (t1)
	vsrl.vi	v21, v8, 4
	vand.vi	v8, v8, 15
	vxor.vv	v22, v21, v8
	vrgather.vv	v23, v12, v8
	vrgather.vv	v8, v13, v21
	vrgather.vv	v24, v13, v22
	vxor.vv	v8, v8, v23
	vxor.vv	v23, v24, v23
	vmsle.vi	v0, v8, -1
	vrgather.vv	v24, v13, v8
	vmerge.vim	v24, v24, 0, v0
	vmsle.vi	v8, v20, -1
	vmsle.vi	v0, v23, -1
	vrgather.vv	v25, v13, v23
	vmerge.vim	v23, v25, 0, v0
	vxor.vv	v22, v24, v22
	vxor.vv	v21, v23, v21
	vrgather.vv	v25, v18, v22
	vmsle.vi	v0, v23, -1
	vrgather.vv	v22, v19, v21
	vmerge.vim	v21, v22, 0, v0
	vmsle.vi	v0, v24, -1
	vxor.vv	v22, v21, v25
	vmerge.vvm	v21, v22, v21, v0
	vrgather.vv	v22, v21, v20
	vxor.vv	v21, v9, v22
	vmv1r.v	v0, v8
	vmerge.vvm	v8, v21, v9, v0
	addi	a7, a7, 1
	vse8.v	v8, (s1)
	beq	a3, a7, .Lgcm_BB29_8
.Lgcm_BB29_11:                              # %join.10
                                        # =>This Loop Header: Depth=1
                                        #     Child Loop BB29_13 Depth 2
	slli	s1, a7, 4
	vle8.v	v8, (a0)
	add	s1, s1, a2
	vle8.v	v9, (s1)
	vxor.vv	v8, v8, v9
	vand.vi	v9, v8, 15
	vsrl.vi	v8, v8, 4
	vrgather.vv	v21, v10, v9
	vrgather.vv	v9, v11, v8
	li	a1, 2
	vxor.vv	v8, v9, v21
	bltu	a6, a1, .Lgcm_BB29_10
# %bb.12:                               # %join.5.i50.preheader
                                        #   in Loop: Header=BB29_11 Depth=1
	li	s0, 16
	mv	a1, t0
.Lgcm_BB29_13:                              # %join.5.i50
                                        #   Parent Loop BB29_11 Depth=1
                                        # =>  This Inner Loop Header: Depth=2
	add	a4, a0, s0
	vsrl.vi	v9, v8, 4
	vand.vi	v8, v8, 15
	andi	a5, s0, 48
	addi	a1, a1, -1
	vle8.v	v21, (a4)
	vxor.vv	v22, v9, v8
	vrgather.vv	v23, v12, v8
	vrgather.vv	v8, v13, v9
	add	a4, s10, a5
	add	a5, a5, s11
	vrgather.vv	v24, v13, v22
	vxor.vv	v8, v8, v23
	vxor.vv	v23, v24, v23
	vmsle.vi	v0, v8, -1
	vrgather.vv	v24, v13, v8
	vmerge.vim	v8, v24, 0, v0
	vmsle.vi	v0, v23, -1
	vrgather.vv	v24, v13, v23
	vmerge.vim	v23, v24, 0, v0
	vxor.vv	v22, v8, v22
	vmsle.vi	v8, v8, -1
	vxor.vv	v24, v23, v9
	vrgather.vv	v25, v14, v22
	vmsle.vi	v9, v23, -1
	vrgather.vv	v23, v15, v24
	vmv1r.v	v0, v9
	vmerge.vim	v23, v23, 0, v0
	vxor.vv	v25, v23, v25
	vmv1r.v	v0, v8
	vmerge.vvm	v23, v25, v23, v0
	vle8.v	v25, (a4)
	vle8.v	v26, (a5)
	vrgather.vv	v27, v16, v22
	vrgather.vv	v22, v17, v24
	vmv1r.v	v0, v9
	vmerge.vim	v22, v22, 0, v0
	vmsle.vi	v9, v25, -1
	vxor.vv	v24, v22, v27
	vmv1r.v	v0, v8
	vmerge.vvm	v8, v24, v22, v0
	vrgather.vv	v22, v23, v25
	vrgather.vv	v24, v23, v26
	vxor.vv	v22, v8, v22
	vmv1r.v	v0, v9
	vmerge.vvm	v22, v22, v8, v0
	vmsle.vi	v8, v26, -1
	vrgather.vv	v23, v22, v25
	vxor.vv	v23, v21, v23
	vmerge.vvm	v9, v23, v21, v0
	vxor.vv	v21, v9, v24
	vmv1r.v	v0, v8
	vmerge.vvm	v8, v21, v9, v0
	vxor.vv	v8, v8, v22
	addi	s0, s0, 16
	bnez	a1, .Lgcm_BB29_13
	j	.Lgcm_BB29_10
.Lgcm_func_end29:
	.size	gcm.aes_permute.blocks.process_on_lanes, .Lgcm_func_end29-gcm.aes_permute.blocks.process_on_lanes
                                        # -- End function
	.section	.text.gcm.aes_hybrid.closures.lend_planes.1,"ax",@progbits
	.p2align	1                               # -- Begin function aes_hybrid::closures::lend_planes::<#8383eef3f4ca9323>
	.type	gcm.aes_hybrid.closures.lend_planes.1,@function
gcm.aes_hybrid.closures.lend_planes.1: # @gcm.aes_hybrid.closures.lend_planes.1
# %bb.0:                                # %start
	addi	sp, sp, -2032
	sd	ra, 2024(sp)                    # 8-byte Folded Spill
	sd	s0, 2016(sp)                    # 8-byte Folded Spill
	sd	s1, 2008(sp)                    # 8-byte Folded Spill
	sd	s2, 2000(sp)                    # 8-byte Folded Spill
	sd	s3, 1992(sp)                    # 8-byte Folded Spill
	sd	s4, 1984(sp)                    # 8-byte Folded Spill
	sd	s5, 1976(sp)                    # 8-byte Folded Spill
	mv	s2, a4
	mv	s3, a3
	mv	s4, a2
	mv	s1, a1
	mv	s0, a0
	addi	a0, sp, 176
	li	a2, 1792
	li	a1, 0
	la	t1, memset
	jalr	t1
	slli	s5, s1, 3
	addi	a0, sp, 48
	mv	a1, s0
	mv	a2, s1
	call	gcm.aes_hybrid.plane_keys.store_planes
	sd	s0, 16(sp)
	sd	s1, 24(sp)
	sd	s4, 32(sp)
	sd	s3, 40(sp)
	addi	a0, sp, 16
	addi	a1, sp, 48
	mv	a2, s5
	mv	a3, s2
	call	gcm.aes_hybrid.closures.call_to_work.1
	addi	a0, sp, 48
	call	gcm.aes_cipher.zeroize.zeroize_words
	call	gcm.aes_cipher.zeroize.stack.wipe_stack.2032
	ld	ra, 2024(sp)                    # 8-byte Folded Reload
	ld	s0, 2016(sp)                    # 8-byte Folded Reload
	ld	s1, 2008(sp)                    # 8-byte Folded Reload
	ld	s2, 2000(sp)                    # 8-byte Folded Reload
	ld	s3, 1992(sp)                    # 8-byte Folded Reload
	ld	s4, 1984(sp)                    # 8-byte Folded Reload
	ld	s5, 1976(sp)                    # 8-byte Folded Reload
	addi	sp, sp, 2032
	ret
.Lgcm_func_end30:
	.size	gcm.aes_hybrid.closures.lend_planes.1, .Lgcm_func_end30-gcm.aes_hybrid.closures.lend_planes.1
                                        # -- End function
	.section	.rodata.cst16,"aM",@progbits,16
	.p2align	4, 0x0                          # -- Begin function aes_hybrid::closures::call_to_work::<#8383eef3f4ca9323>
.Lgcm_CPI31_0:
	.byte	0                               # 0x0
	.byte	4                               # 0x4
	.byte	8                               # 0x8
	.byte	12                              # 0xc
	.byte	1                               # 0x1
	.byte	5                               # 0x5
	.byte	9                               # 0x9
	.byte	13                              # 0xd
	.byte	2                               # 0x2
	.byte	6                               # 0x6
	.byte	10                              # 0xa
	.byte	14                              # 0xe
	.byte	3                               # 0x3
	.byte	7                               # 0x7
	.byte	11                              # 0xb
	.byte	15                              # 0xf
	.section	.rodata.cst32,"aM",@progbits,32
	.p2align	5, 0x0
.Lgcm_CPI31_1:
	.zero	1
	.zero	1
	.zero	1
	.zero	1
	.zero	1
	.zero	1
	.zero	1
	.zero	1
	.zero	1
	.zero	1
	.zero	1
	.zero	1
	.zero	1
	.zero	1
	.zero	1
	.zero	1
	.byte	0                               # 0x0
	.byte	4                               # 0x4
	.byte	8                               # 0x8
	.byte	12                              # 0xc
	.byte	1                               # 0x1
	.byte	5                               # 0x5
	.byte	9                               # 0x9
	.byte	13                              # 0xd
	.byte	2                               # 0x2
	.byte	6                               # 0x6
	.byte	10                              # 0xa
	.byte	14                              # 0xe
	.byte	3                               # 0x3
	.byte	7                               # 0x7
	.byte	11                              # 0xb
	.byte	15                              # 0xf
	.section	.text.gcm.aes_hybrid.closures.call_to_work.1,"ax",@progbits
	.p2align	1
	.type	gcm.aes_hybrid.closures.call_to_work.1,@function
gcm.aes_hybrid.closures.call_to_work.1: # @gcm.aes_hybrid.closures.call_to_work.1
# %bb.0:                                # %start
	addi	sp, sp, -368
	sd	ra, 360(sp)                     # 8-byte Folded Spill
	sd	s0, 352(sp)                     # 8-byte Folded Spill
	sd	s1, 344(sp)                     # 8-byte Folded Spill
	sd	s2, 336(sp)                     # 8-byte Folded Spill
	sd	s3, 328(sp)                     # 8-byte Folded Spill
	sd	s4, 320(sp)                     # 8-byte Folded Spill
	sd	s5, 312(sp)                     # 8-byte Folded Spill
	sd	s6, 304(sp)                     # 8-byte Folded Spill
	sd	s7, 296(sp)                     # 8-byte Folded Spill
	sd	s8, 288(sp)                     # 8-byte Folded Spill
	sd	s9, 280(sp)                     # 8-byte Folded Spill
	sd	s10, 272(sp)                    # 8-byte Folded Spill
	sd	s11, 264(sp)                    # 8-byte Folded Spill
	csrr	t1, vlenb
	li	t2, 3
	slli	t2, t2, 10
.Lgcm_BB31_1:                               # %start
                                        # =>This Inner Loop Header: Depth=1
	sub	sp, sp, t2
	sd	zero, 0(sp)
	sub	t1, t1, t2
	bge	t1, t2, .Lgcm_BB31_1
# %bb.2:                                # %start
	sub	sp, sp, t1
	mv	s5, a2
	ld	s2, 8(a3)
	ld	s4, 0(a3)
	ld	s1, 16(a3)
	ld	s0, 24(a3)
	andi	a2, s2, 15
	sd	a0, 88(sp)
	sd	a1, 72(sp)                      # 8-byte Folded Spill
	sd	a1, 96(sp)
	sd	s5, 104(sp)
	beqz	a2, .Lgcm_BB31_4
# %bb.3:                                # %then.1.i.i
	addi	a0, sp, 88
	mv	a1, s4
	mv	a2, s2
	li	a3, 0
	mv	a4, s1
	mv	a5, s0
	call	gcm.aes_ctr.add_in_batches.add_next.1
	mv	s11, a0
	sd	s0, 16(sp)                      # 8-byte Folded Spill
	sub	a4, s0, a0
	li	a0, 128
	bgeu	a4, a0, .Lgcm_BB31_5
	j	.Lgcm_BB31_7
.Lgcm_BB31_4:
	li	s11, 0
	sd	s0, 16(sp)                      # 8-byte Folded Spill
	mv	a4, s0
	li	a0, 128
	bltu	s0, a0, .Lgcm_BB31_7
.Lgcm_BB31_5:                               # %join.11.lr.ph.i.i
	addi	a0, sp, 128
	srli	s0, s5, 3
	addi	a1, a0, 48
	sd	a1, 64(sp)                      # 8-byte Folded Spill
	addi	a1, a0, 64
	sd	a1, 48(sp)                      # 8-byte Folded Spill
	addi	a1, a0, 80
	sd	a1, 40(sp)                      # 8-byte Folded Spill
	addi	a0, a0, 96
	sd	a0, 32(sp)                      # 8-byte Folded Spill
	addi	s0, s0, -1
	sd	s0, 24(sp)                      # 8-byte Folded Spill
	vsetivli	zero, 16, e8, m1, ta, ma
	sd	s1, 56(sp)                      # 8-byte Folded Spill
.Lgcm_BB31_6:                               # %join.11.i.i
                                        # =>This Inner Loop Header: Depth=1
	sd	a4, 80(sp)                      # 8-byte Folded Spill
	lbu	ra, 8(s4)
	lbu	t1, 9(s4)
	lbu	t2, 10(s4)
	lbu	t3, 11(s4)
	lbu	t4, 12(s4)
	lbu	a7, 13(s4)
	lbu	t0, 14(s4)
	lbu	a6, 15(s4)
	lbu	a0, 0(s4)
	lbu	t5, 1(s4)
	lbu	s9, 2(s4)
	lbu	s10, 3(s4)
.Lgcm_pcrel_hi97:
	auipc	a2, %pcrel_hi(.Lgcm_CPI31_0)
	addi	a2, a2, %pcrel_lo(.Lgcm_pcrel_hi97)
	vle8.v	v18, (a2)
	lbu	a4, 4(s4)
	lbu	s0, 5(s4)
	lbu	a2, 6(s4)
	lbu	t6, 7(s4)
	slli	t3, t3, 24
	slli	t4, t4, 32
	or	a5, t3, t4
	li	t3, 255
	slli	s10, s10, 24
	slli	a4, a4, 32
	or	a4, s10, a4
	lui	t4, 4080
	slli	t1, t1, 8
	slli	t2, t2, 16
	or	a3, t1, ra
	or	a1, a3, t2
	lui	a3, 16
	slli	t3, t3, 24
	addi	t1, a3, -256
	slli	t5, t5, 8
	slli	s9, s9, 16
	or	s1, t5, a0
	slli	a0, a0, 56
	or	s1, s1, s9
	or	a3, a1, a5
	or	a4, a4, s1
	and	a5, s1, t1
	srli	s1, a4, 8
	slli	a5, a5, 40
	or	t2, a0, a5
	srli	a0, a3, 8
	and	a5, s1, t3
	and	t5, a0, t3
	add	s1, s2, s11
	vid.v	v8
	slli	ra, ra, 56
	and	a1, a1, t1
	slli	a1, a1, 40
	or	t3, ra, a1
	li	s10, 85
	slli	a7, a7, 40
	slli	t0, t0, 48
	slli	s0, s0, 40
	slli	a2, a2, 48
	or	a1, a3, a7
	or	s0, s0, a4
	and	a4, a4, t4
	and	a3, a3, t4
	or	a7, a1, t0
	or	a0, s0, a2
	srli	s0, s0, 24
	srli	a1, a1, 24
	and	s0, s0, t4
	and	a1, a1, t4
	li	t4, 51
	srli	t0, s1, 4
	vrsub.vi	v8, v8, 15
	slli	a4, a4, 24
	slli	a3, a3, 24
	or	a5, a5, s0
	srli	a2, a0, 40
	srliw	a0, a0, 24
	or	a1, t5, a1
	srli	s0, a7, 40
	srliw	s1, a7, 24
	and	a2, a2, t1
	slli	a0, a0, 32
	and	s0, s0, t1
	slli	s1, s1, 32
	or	a2, a2, t6
	or	a0, a0, a4
	or	a4, s0, a6
	or	a3, a3, s1
	or	a2, a2, a5
	or	a0, t2, a0
	or	a1, a1, a4
	or	a3, t3, a3
	or	a2, a2, a0
	or	a1, a1, a3
	add	t0, t0, a1
	srli	a1, a1, 32
	slli	a1, a1, 32
	slli	a0, t0, 32
	addi	a3, t0, 1
	addi	a4, t0, 2
	addi	a5, t0, 3
	addi	s1, t0, 4
	addi	s0, t0, 5
	addi	a6, t0, 6
	addi	t0, t0, 7
	srli	a0, a0, 32
	slli	a3, a3, 32
	slli	a4, a4, 32
	slli	a5, a5, 32
	slli	s1, s1, 32
	slli	s0, s0, 32
	slli	a6, a6, 32
	slli	t0, t0, 32
	or	a0, a0, a1
	srli	a3, a3, 32
	srli	a4, a4, 32
	srli	a5, a5, 32
	srli	s1, s1, 32
	srli	s0, s0, 32
	srli	a6, a6, 32
	srli	a7, t0, 32
	vsetivli	zero, 2, e64, m1, ta, ma
	vmv.v.x	v9, a0
	or	a3, a3, a1
	or	a4, a4, a1
	or	a5, a5, a1
	or	s1, s1, a1
	or	s0, s0, a1
	or	a6, a1, a6
	or	a1, a1, a7
	vslide1down.vx	v9, v9, a2
	vmv.v.x	v10, a3
	vmv.v.x	v11, a4
	vmv.v.x	v12, a5
	vmv.v.x	v13, s1
	ld	a0, 72(sp)                      # 8-byte Folded Reload
	vmv.v.x	v14, s0
	vmv.v.x	v15, a6
	vmv.v.x	v16, a1
	vsetivli	zero, 16, e8, m1, ta, ma
	vrgather.vv	v17, v9, v8
	vsetivli	zero, 2, e64, m1, ta, ma
	vslide1down.vx	v9, v10, a2
	vslide1down.vx	v10, v11, a2
	vslide1down.vx	v11, v12, a2
	vslide1down.vx	v12, v13, a2
	vslide1down.vx	v13, v14, a2
	vslide1down.vx	v14, v15, a2
	vslide1down.vx	v15, v16, a2
	vsetivli	zero, 16, e8, m1, ta, ma
	vrgather.vv	v16, v9, v8
	vrgather.vv	v9, v10, v8
	vrgather.vv	v10, v11, v8
	vrgather.vv	v11, v12, v8
	vrgather.vv	v12, v13, v8
	vrgather.vv	v13, v14, v8
	vrgather.vv	v14, v15, v8
	addi	a1, sp, 256
	vs1r.v	v18, (a1)                       # vscale x 8-byte Folded Spill
	vrgather.vv	v8, v17, v18
	vrgather.vv	v15, v16, v18
	vrgather.vv	v16, v9, v18
	vrgather.vv	v9, v10, v18
	vrgather.vv	v10, v11, v18
	vrgather.vv	v11, v12, v18
	vrgather.vv	v12, v13, v18
	vrgather.vv	v13, v14, v18
	vsrl.vi	v14, v8, 1
	vxor.vv	v14, v15, v14
	vsrl.vi	v17, v16, 1
	vsrl.vi	v18, v10, 1
	vsrl.vi	v19, v12, 1
	vand.vx	v14, v14, s10
	vxor.vv	v17, v9, v17
	vxor.vv	v18, v11, v18
	vxor.vv	v19, v13, v19
	vxor.vv	v15, v14, v15
	vadd.vv	v14, v14, v14
	vand.vx	v17, v17, s10
	vand.vx	v18, v18, s10
	vand.vx	v19, v19, s10
	vxor.vv	v8, v14, v8
	vxor.vv	v9, v17, v9
	vadd.vv	v14, v17, v17
	vxor.vv	v11, v18, v11
	vadd.vv	v17, v18, v18
	vxor.vv	v13, v19, v13
	vadd.vv	v18, v19, v19
	vsrl.vi	v19, v15, 2
	vxor.vv	v14, v14, v16
	vxor.vv	v10, v17, v10
	vxor.vv	v12, v18, v12
	vsrl.vi	v16, v8, 2
	vxor.vv	v17, v9, v19
	vsrl.vi	v18, v11, 2
	vxor.vv	v16, v14, v16
	vsrl.vi	v19, v10, 2
	vand.vx	v17, v17, t4
	vxor.vv	v18, v13, v18
	vand.vx	v16, v16, t4
	vxor.vv	v19, v12, v19
	vxor.vv	v9, v17, v9
	vsll.vi	v17, v17, 2
	vand.vx	v18, v18, t4
	vxor.vv	v14, v16, v14
	vsll.vi	v16, v16, 2
	vand.vx	v19, v19, t4
	vxor.vv	v15, v17, v15
	vxor.vv	v13, v18, v13
	vsll.vi	v17, v18, 2
	vsrl.vi	v18, v9, 4
	vxor.vv	v8, v16, v8
	vxor.vv	v12, v19, v12
	vsll.vi	v16, v19, 2
	vxor.vv	v11, v17, v11
	vsrl.vi	v17, v15, 4
	vsrl.vi	v19, v14, 4
	vand.vi	v20, v13, 15
	vxor.vv	v10, v16, v10
	vsrl.vi	v16, v8, 4
	vxor.vv	v18, v20, v18
	vand.vi	v20, v11, 15
	vxor.vv	v17, v20, v17
	vand.vi	v20, v12, 15
	vxor.vv	v19, v20, v19
	vand.vi	v20, v10, 15
	vxor.vv	v16, v20, v16
	vxor.vv	v13, v18, v13
	vsll.vi	v18, v18, 4
	vxor.vv	v9, v18, v9
	vxor.vv	v11, v17, v11
	vsll.vi	v17, v17, 4
	vxor.vv	v15, v17, v15
	addi	s0, sp, 112
	vxor.vv	v12, v19, v12
	vsll.vi	v17, v19, 4
	vxor.vv	v10, v16, v10
	vsll.vi	v16, v16, 4
	vxor.vv	v14, v17, v14
	mv	s5, s2
	addi	s2, sp, 128
	addi	s8, s2, 32
	vse8.v	v9, (s8)
	ld	s3, 48(sp)                      # 8-byte Folded Reload
	vse8.v	v11, (s3)
	ld	s7, 40(sp)                      # 8-byte Folded Reload
	vse8.v	v12, (s7)
	vxor.vv	v8, v16, v8
	vse8.v	v15, (s2)
	addi	s1, s2, 16
	vse8.v	v14, (s1)
	ld	s6, 64(sp)                      # 8-byte Folded Reload
	vse8.v	v10, (s6)
	vse8.v	v8, (s0)
	ld	s9, 32(sp)                      # 8-byte Folded Reload
	vse8.v	v13, (s9)
	addi	a2, sp, 112
	ld	a1, 24(sp)                      # 8-byte Folded Reload
	call	gcm.aes_soft.soft.ciphers.planes.EncryptPlaneCipher.process_planes
	ld	a4, 80(sp)                      # 8-byte Folded Reload
	vsetivli	zero, 16, e32, m4, ta, ma
	vle8.v	v12, (s0)
	li	a0, 32
	lui	a1, 1048560
	vmv.s.x	v0, a1
.Lgcm_pcrel_hi98:
	auipc	a1, %pcrel_hi(.Lgcm_CPI31_1)
	addi	a1, a1, %pcrel_lo(.Lgcm_pcrel_hi98)
	vsetvli	zero, a0, e8, m2, ta, ma
	vle8.v	v8, (a1)
	vsetivli	zero, 16, e8, m1, ta, ma
	vle8.v	v14, (s2)
	mv	s2, s5
	vle8.v	v13, (s1)
	ld	s1, 56(sp)                      # 8-byte Folded Reload
	vle8.v	v17, (s8)
	vle8.v	v16, (s7)
	vle8.v	v15, (s6)
	vle8.v	v18, (s3)
	vle8.v	v19, (s9)
	vsrl.vi	v10, v16, 1
	vsrl.vi	v11, v15, 1
	vsrl.vi	v20, v13, 1
	vsrl.vi	v21, v12, 1
	vxor.vv	v10, v19, v10
	vxor.vv	v11, v18, v11
	vxor.vv	v22, v17, v20
	vxor.vv	v23, v14, v21
	vand.vx	v20, v10, s10
	vand.vx	v21, v11, s10
	vand.vx	v22, v22, s10
	vand.vx	v23, v23, s10
	csrr	a1, vlenb
	vsetvli	zero, a0, e8, m2, ta, ma
	vslidedown.vx	v10, v8, a1
	add	a1, s1, s11
	addi	a4, a4, -128
	vsetivli	zero, 16, e8, m1, ta, ma
	vadd.vv	v9, v20, v20
	vadd.vv	v11, v21, v21
	vadd.vv	v24, v22, v22
	vadd.vv	v25, v23, v23
	vxor.vv	v19, v20, v19
	vxor.vv	v18, v21, v18
	vxor.vv	v17, v22, v17
	vxor.vv	v14, v23, v14
	vxor.vv	v9, v9, v16
	vxor.vv	v11, v11, v15
	vxor.vv	v13, v24, v13
	vxor.vv	v12, v25, v12
	vsrl.vi	v15, v18, 2
	vsrl.vi	v16, v14, 2
	vsrl.vi	v20, v11, 2
	vsrl.vi	v21, v12, 2
	vxor.vv	v15, v19, v15
	vxor.vv	v16, v17, v16
	vxor.vv	v20, v9, v20
	vxor.vv	v21, v13, v21
	li	a2, 51
	vand.vx	v15, v15, a2
	vand.vx	v16, v16, a2
	vand.vx	v20, v20, a2
	vand.vx	v21, v21, a2
	addi	a2, a1, 96
	vle8.v	v22, (a2)
	vxor.vv	v19, v15, v19
	vxor.vv	v17, v16, v17
	vsll.vi	v15, v15, 2
	vsll.vi	v16, v16, 2
	vxor.vv	v9, v20, v9
	vxor.vv	v23, v21, v13
	vand.vi	v13, v19, 15
	vsrl.vi	v24, v17, 4
	vsll.vi	v20, v20, 2
	vsll.vi	v21, v21, 2
	vxor.vv	v15, v15, v18
	vxor.vv	v16, v16, v14
	vand.vi	v14, v9, 15
	vsrl.vi	v18, v23, 4
	vxor.vv	v13, v13, v24
	vxor.vv	v11, v20, v11
	vxor.vv	v21, v21, v12
	vand.vi	v12, v15, 15
	vsrl.vi	v20, v16, 4
	vxor.vv	v14, v14, v18
	vxor.vv	v18, v13, v19
	vand.vi	v19, v11, 15
	vsrl.vi	v24, v21, 4
	vxor.vv	v12, v12, v20
	vsll.vi	v20, v13, 4
	vxor.vv	v9, v14, v9
	vsetvli	a3, zero, e8, m1, ta, ma
	vrgather.vv	v13, v18, v10
	vsetivli	zero, 16, e8, m1, ta, ma
	vxor.vv	v19, v19, v24
	vxor.vv	v24, v12, v15
	vsll.vi	v25, v14, 4
	vxor.vv	v20, v20, v17
	vsll.vi	v26, v12, 4
	vsetvli	a3, zero, e8, m1, ta, ma
	vrgather.vv	v12, v18, v8
	addi	a3, sp, 256
	vl1r.v	v27, (a3)                       # vscale x 8-byte Folded Reload
	vsetivli	zero, 16, e8, m1, ta, ma
	vrgather.vv	v14, v9, v27
	vxor.vv	v9, v19, v11
	vsetvli	a3, zero, e8, m1, ta, ma
	vrgather.vv	v15, v24, v10
	vsetivli	zero, 16, e8, m1, ta, ma
	vxor.vv	v11, v25, v23
	vsetvli	a3, zero, e8, m1, ta, ma
	vrgather.vv	v17, v20, v10
	vsetivli	zero, 16, e8, m1, ta, ma
	vsll.vi	v19, v19, 4
	vxor.vv	v23, v26, v16
	vsetvli	zero, a0, e8, m2, ta, ma
	vmerge.vvm	v12, v14, v12, v0
	vsetvli	a3, zero, e8, m1, ta, ma
	vrgather.vv	v14, v24, v8
	vsetivli	zero, 16, e8, m1, ta, ma
	vrgather.vv	v18, v9, v27
	vsetvli	a3, zero, e8, m1, ta, ma
	vrgather.vv	v16, v20, v8
	vsetivli	zero, 16, e8, m1, ta, ma
	vrgather.vv	v20, v11, v27
	vxor.vv	v9, v19, v21
	vsetvli	a3, zero, e8, m1, ta, ma
	vrgather.vv	v19, v23, v10
	vsetvli	zero, a0, e8, m2, ta, ma
	vmerge.vvm	v10, v18, v14, v0
	vmerge.vvm	v14, v20, v16, v0
	vsetvli	a3, zero, e8, m1, ta, ma
	vrgather.vv	v18, v23, v8
	vsetivli	zero, 16, e8, m1, ta, ma
	vrgather.vv	v8, v9, v27
	vsetvli	zero, a0, e8, m2, ta, ma
	vmerge.vvm	v8, v8, v18, v0
	addi	a0, a1, 32
	vsetivli	zero, 16, e8, m1, ta, ma
	vle8.v	v16, (a0)
	vxor.vv	v17, v12, v22
	vse8.v	v17, (a2)
	addi	a2, a1, 64
	vle8.v	v17, (a2)
	vxor.vv	v16, v14, v16
	vse8.v	v16, (a0)
	addi	a0, a1, 112
	vle8.v	v16, (a0)
	vxor.vv	v17, v10, v17
	vse8.v	v17, (a2)
	addi	a2, a1, 48
	vle8.v	v17, (a2)
	vsetivli	zero, 16, e8, m2, ta, ma
	vslidedown.vi	v12, v12, 16
	vsetivli	zero, 16, e8, m1, ta, ma
	vxor.vv	v12, v12, v16
	vse8.v	v12, (a0)
	li	a0, 127
	vle8.v	v16, (a1)
	vsetivli	zero, 16, e8, m2, ta, ma
	vslidedown.vi	v12, v14, 16
	vsetivli	zero, 16, e8, m1, ta, ma
	vxor.vv	v12, v12, v17
	vse8.v	v12, (a2)
	addi	a2, a1, 16
	vxor.vv	v12, v8, v16
	vse8.v	v12, (a1)
	addi	a1, a1, 80
	vle8.v	v12, (a1)
	vle8.v	v13, (a2)
	vsetivli	zero, 16, e8, m2, ta, ma
	vslidedown.vi	v10, v10, 16
	vslidedown.vi	v8, v8, 16
	vsetivli	zero, 16, e8, m1, ta, ma
	vxor.vv	v9, v10, v12
	vxor.vv	v8, v8, v13
	vse8.v	v9, (a1)
	vse8.v	v8, (a2)
	addi	s11, s11, 128
	bltu	a0, a4, .Lgcm_BB31_6
.Lgcm_BB31_7:                               # %loop.13.preheader.i.i
	ld	s0, 16(sp)                      # 8-byte Folded Reload
	bgeu	s11, s0, .Lgcm_BB31_9
.Lgcm_BB31_8:                               # %join.16.i.i
                                        # =>This Inner Loop Header: Depth=1
	addi	a0, sp, 88
	mv	a1, s4
	mv	a2, s2
	mv	a3, s11
	mv	a4, s1
	mv	a5, s0
	call	gcm.aes_ctr.add_in_batches.add_next.1
	mv	s11, a0
	bltu	a0, s0, .Lgcm_BB31_8
.Lgcm_BB31_9:                               # %"aes_ctr::add_in_batches::AddStreamBlockCipherEncClosure::call::<#568a98508308736d>.exit"
	csrr	a0, vlenb
	add	sp, sp, a0
	ld	ra, 360(sp)                     # 8-byte Folded Reload
	ld	s0, 352(sp)                     # 8-byte Folded Reload
	ld	s1, 344(sp)                     # 8-byte Folded Reload
	ld	s2, 336(sp)                     # 8-byte Folded Reload
	ld	s3, 328(sp)                     # 8-byte Folded Reload
	ld	s4, 320(sp)                     # 8-byte Folded Reload
	ld	s5, 312(sp)                     # 8-byte Folded Reload
	ld	s6, 304(sp)                     # 8-byte Folded Reload
	ld	s7, 296(sp)                     # 8-byte Folded Reload
	ld	s8, 288(sp)                     # 8-byte Folded Reload
	ld	s9, 280(sp)                     # 8-byte Folded Reload
	ld	s10, 272(sp)                    # 8-byte Folded Reload
	ld	s11, 264(sp)                    # 8-byte Folded Reload
	addi	sp, sp, 368
	ret
.Lgcm_func_end31:
	.size	gcm.aes_hybrid.closures.call_to_work.1, .Lgcm_func_end31-gcm.aes_hybrid.closures.call_to_work.1
                                        # -- End function
	.section	.rodata.cst16,"aM",@progbits,16
	.p2align	4, 0x0                          # -- Begin function aes_ctr::add_in_batches::add_next::<#849d7687381e9207>
.Lgcm_CPI32_0:
	.byte	0                               # 0x0
	.byte	4                               # 0x4
	.byte	8                               # 0x8
	.byte	12                              # 0xc
	.byte	1                               # 0x1
	.byte	5                               # 0x5
	.byte	9                               # 0x9
	.byte	13                              # 0xd
	.byte	2                               # 0x2
	.byte	6                               # 0x6
	.byte	10                              # 0xa
	.byte	14                              # 0xe
	.byte	3                               # 0x3
	.byte	7                               # 0x7
	.byte	11                              # 0xb
	.byte	15                              # 0xf
	.section	.rodata.cst32,"aM",@progbits,32
	.p2align	5, 0x0
.Lgcm_CPI32_1:
	.zero	1
	.zero	1
	.zero	1
	.zero	1
	.zero	1
	.zero	1
	.zero	1
	.zero	1
	.zero	1
	.zero	1
	.zero	1
	.zero	1
	.zero	1
	.zero	1
	.zero	1
	.zero	1
	.byte	0                               # 0x0
	.byte	4                               # 0x4
	.byte	8                               # 0x8
	.byte	12                              # 0xc
	.byte	1                               # 0x1
	.byte	5                               # 0x5
	.byte	9                               # 0x9
	.byte	13                              # 0xd
	.byte	2                               # 0x2
	.byte	6                               # 0x6
	.byte	10                              # 0xa
	.byte	14                              # 0xe
	.byte	3                               # 0x3
	.byte	7                               # 0x7
	.byte	11                              # 0xb
	.byte	15                              # 0xf
	.section	.text.gcm.aes_ctr.add_in_batches.add_next.1,"ax",@progbits
	.p2align	1
	.type	gcm.aes_ctr.add_in_batches.add_next.1,@function
gcm.aes_ctr.add_in_batches.add_next.1: # @gcm.aes_ctr.add_in_batches.add_next.1
# %bb.0:                                # %start
	addi	sp, sp, -544
	sd	ra, 536(sp)                     # 8-byte Folded Spill
	sd	s0, 528(sp)                     # 8-byte Folded Spill
	sd	s1, 520(sp)                     # 8-byte Folded Spill
	sd	s2, 512(sp)                     # 8-byte Folded Spill
	sd	s3, 504(sp)                     # 8-byte Folded Spill
	sd	s4, 496(sp)                     # 8-byte Folded Spill
	sd	s5, 488(sp)                     # 8-byte Folded Spill
	sd	s6, 480(sp)                     # 8-byte Folded Spill
	sd	s7, 472(sp)                     # 8-byte Folded Spill
	sd	s8, 464(sp)                     # 8-byte Folded Spill
	sd	s9, 456(sp)                     # 8-byte Folded Spill
	sd	s10, 448(sp)                    # 8-byte Folded Spill
	sd	s11, 440(sp)                    # 8-byte Folded Spill
	csrr	t1, vlenb
	li	t2, 3
	slli	t2, t2, 10
.Lgcm_BB32_1:                               # %start
                                        # =>This Inner Loop Header: Depth=1
	sub	sp, sp, t2
	sd	zero, 0(sp)
	sub	t1, t1, t2
	bge	t1, t2, .Lgcm_BB32_1
# %bb.2:                                # %start
	sub	sp, sp, t1
	mv	s4, a5
	sd	a4, 24(sp)                      # 8-byte Folded Spill
	mv	s3, a3
	mv	s5, a2
	mv	s0, a1
	mv	s8, a0
	addi	s9, sp, 64
	addi	s6, sp, 96
	addi	s2, sp, 112
	addi	s10, sp, 128
	addi	s11, sp, 144
	addi	a0, sp, 32
	li	a2, 256
	addi	s7, sp, 32
	li	a1, 0
	la	t1, memset
	jalr	t1
	lbu	a1, 8(s0)
	lbu	a7, 9(s0)
	lbu	s1, 10(s0)
	lbu	a0, 11(s0)
	lbu	a2, 12(s0)
	lbu	t0, 13(s0)
	lbu	t1, 14(s0)
	lbu	a6, 15(s0)
	lbu	a3, 0(s0)
	lbu	t6, 1(s0)
	lbu	ra, 2(s0)
	lbu	a5, 3(s0)
	lbu	a4, 4(s0)
	lbu	t3, 5(s0)
	lbu	t4, 6(s0)
	lbu	t2, 7(s0)
	slli	a0, a0, 24
	slli	a2, a2, 32
	or	a0, a0, a2
	li	t5, 255
	slli	a5, a5, 24
	slli	a2, a4, 32
	or	a2, a2, a5
	lui	a5, 4080
	slli	a7, a7, 8
	slli	s1, s1, 16
	or	s0, a7, a1
	or	s0, s0, s1
	lui	a4, 16
	add	a7, s3, s5
	vsetivli	zero, 16, e8, m1, ta, ma
	vid.v	v8
	slli	t5, t5, 24
	addi	a4, a4, -256
	slli	t6, t6, 8
	slli	ra, ra, 16
	or	s1, t6, a3
	slli	t6, a3, 56
	or	s1, s1, ra
	or	a0, a0, s0
	or	a2, a2, s1
	and	s1, s1, a4
	srli	a3, a2, 8
	slli	s1, s1, 40
	or	t6, t6, s1
	srli	s1, a0, 8
	and	ra, a3, t5
	and	s5, s1, t5
	srli	t5, a7, 4
	vrsub.vi	v8, v8, 15
	slli	t0, t0, 40
	slli	t1, t1, 48
	slli	t3, t3, 40
	slli	t4, t4, 48
	slli	a1, a1, 56
	and	s0, s0, a4
	or	s1, a0, t0
	or	a3, a2, t3
	and	a2, a2, a5
	and	t0, a0, a5
	slli	t3, s0, 40
	or	a0, s1, t1
	or	s0, a3, t4
	srli	a3, a3, 24
	slli	a2, a2, 24
	srli	s1, s1, 24
	slli	t0, t0, 24
	or	t1, a1, t3
	and	a3, a3, a5
	srli	a1, s0, 40
	srliw	s0, s0, 24
	and	a5, a5, s1
	srli	s1, a0, 40
	srliw	a0, a0, 24
	or	a3, ra, a3
	and	a1, a1, a4
	slli	s0, s0, 32
	or	a5, s5, a5
	and	a4, a4, s1
	slli	a0, a0, 32
	or	a1, a1, t2
	or	a2, a2, s0
	or	a4, a4, a6
	or	a0, t0, a0
	or	a1, a1, a3
	or	a2, t6, a2
	or	a4, a4, a5
	or	a3, t1, a0
	or	a0, a2, a1
	or	a3, a3, a4
	add	t5, t5, a3
	srli	a1, a3, 32
	slli	a1, a1, 32
	slli	a6, t5, 32
	addi	t0, t5, 1
	addi	a4, t5, 2
	addi	a5, t5, 3
	addi	s1, t5, 4
	addi	s0, t5, 5
	addi	a2, t5, 6
	addi	t5, t5, 7
	srli	a3, a6, 32
	slli	t0, t0, 32
	slli	a4, a4, 32
	slli	a5, a5, 32
	slli	s1, s1, 32
	slli	s0, s0, 32
	slli	a2, a2, 32
	slli	t5, t5, 32
	or	a3, a3, a1
	srli	a6, t0, 32
	srli	a4, a4, 32
	srli	a5, a5, 32
	srli	s1, s1, 32
	srli	s0, s0, 32
	srli	a2, a2, 32
	srli	t0, t5, 32
	vsetivli	zero, 2, e64, m1, ta, ma
	vmv.v.x	v9, a3
	or	a3, a1, a6
	mv	a6, s2
	or	a4, a4, a1
	or	a5, a5, a1
	or	s1, s1, a1
	or	s0, s0, a1
	or	a2, a2, a1
	or	a1, a1, t0
	vslide1down.vx	v9, v9, a0
	vmv.v.x	v10, a3
	vmv.v.x	v11, a4
	vmv.v.x	v12, a5
	addi	a5, sp, 80
	addi	s2, sp, 48
	vmv.v.x	v13, s1
	vmv.v.x	v14, s0
	vmv.v.x	v15, a2
	vsetivli	zero, 16, e8, m1, ta, ma
	vrgather.vv	v16, v9, v8
	vse8.v	v16, (s7)
	vsetivli	zero, 2, e64, m1, ta, ma
	vmv.v.x	v9, a1
	vslide1down.vx	v10, v10, a0
	vslide1down.vx	v11, v11, a0
	vslide1down.vx	v12, v12, a0
	vslide1down.vx	v13, v13, a0
	vslide1down.vx	v14, v14, a0
	vslide1down.vx	v15, v15, a0
	vslide1down.vx	v9, v9, a0
	vsetivli	zero, 16, e8, m1, ta, ma
	vrgather.vv	v16, v10, v8
	vrgather.vv	v10, v11, v8
	vrgather.vv	v11, v12, v8
	vrgather.vv	v12, v13, v8
	vrgather.vv	v13, v14, v8
	vrgather.vv	v14, v15, v8
	vrgather.vv	v15, v9, v8
	vse8.v	v16, (s2)
	mv	a4, s9
	vse8.v	v10, (s9)
	vse8.v	v11, (a5)
	mv	a3, s6
	vse8.v	v12, (s6)
	vse8.v	v13, (a6)
	li	a0, 128
	sub	s5, s4, s3
	andi	s0, a7, 15
	sub	a0, a0, s0
	mv	a2, s10
	vse8.v	v14, (s10)
	vse8.v	v15, (s11)
	bltu	s5, a0, .Lgcm_BB32_4
# %bb.3:                                # %start
	mv	s5, a0
.Lgcm_BB32_4:                               # %start
	add	a0, s5, s0
	li	a1, 80
	bltu	a1, a0, .Lgcm_BB32_12
# %bb.5:                                # %then.1.i.i
	ld	a1, 0(s8)
	lbu	a6, 16(a1)
	lbu	a3, 17(a1)
	lbu	a4, 18(a1)
	lbu	a5, 19(a1)
	lbu	s1, 20(a1)
	lbu	a2, 21(a1)
	lbu	a7, 22(a1)
	lbu	t0, 23(a1)
	slli	a3, a3, 8
	slli	a4, a4, 16
	slli	a5, a5, 24
	slli	a2, a2, 8
	or	a6, a3, a6
	or	t2, a5, a4
	or	t1, a2, s1
	lbu	a5, 24(a1)
	lbu	s1, 25(a1)
	lbu	a3, 26(a1)
	lbu	a2, 27(a1)
	slli	a7, a7, 16
	slli	t0, t0, 24
	slli	s1, s1, 8
	slli	a3, a3, 16
	slli	a2, a2, 24
	or	a7, t0, a7
	or	t0, s1, a5
	or	a2, a2, a3
	lbu	a3, 29(a1)
	lbu	s1, 28(a1)
	lbu	a4, 30(a1)
	lbu	a1, 31(a1)
	slli	a3, a3, 8
	or	s1, s1, a3
	slli	a4, a4, 16
	slli	a1, a1, 24
	or	a1, a1, a4
	or	a4, t2, a6
	or	a5, a7, t1
	or	a2, a2, t0
	addi	a0, a0, 15
	srli	a3, a0, 4
	or	a1, a1, s1
	slli	a0, a5, 32
	slli	a1, a1, 32
	or	a0, a0, a4
	or	a1, a1, a2
	addi	a2, sp, 32
	call	gcm.aes_permute.blocks.process_on_lanes
	ld	s2, 24(sp)                      # 8-byte Folded Reload
	add	s2, s2, s3
	beqz	s0, .Lgcm_BB32_13
.Lgcm_BB32_6:                               # %then.1.i
	li	a1, 16
	sub	a1, a1, s0
	mv	a0, s5
	bltu	s5, a1, .Lgcm_BB32_8
# %bb.7:                                # %then.1.i
	mv	a0, a1
.Lgcm_BB32_8:                               # %then.1.i
	beq	s4, s3, .Lgcm_BB32_11
# %bb.9:                                # %join.8.i80.lr.ph
	li	a1, 0
	addi	a2, sp, 32
	or	a2, a2, s0
	mv	a3, a0
.Lgcm_BB32_10:                              # %vector.body
                                        # =>This Inner Loop Header: Depth=1
	vsetvli	a4, a3, e8, m1, ta, ma
	add	a5, a2, a1
	vle8.v	v8, (a5)
	add	a5, s2, a1
	vle8.v	v9, (a5)
	sub	a3, a3, a4
	vxor.vv	v8, v9, v8
	vse8.v	v8, (a5)
	add	a1, a1, a4
	bnez	a3, .Lgcm_BB32_10
.Lgcm_BB32_11:                              # %join.3.i
	sub	a1, s5, a0
	li	a2, 16
	bgeu	a1, a2, .Lgcm_BB32_14
	j	.Lgcm_BB32_16
.Lgcm_BB32_12:                              # %else.2.i.i
	addi	a1, sp, 32
	vle8.v	v8, (s2)
	vle8.v	v9, (a4)
	vle8.v	v10, (a5)
	vle8.v	v11, (a3)
	vle8.v	v12, (a6)
	vle8.v	v13, (a2)
.Lgcm_pcrel_hi99:
	auipc	a0, %pcrel_hi(.Lgcm_CPI32_0)
	vle8.v	v14, (a1)
	addi	a0, a0, %pcrel_lo(.Lgcm_pcrel_hi99)
	vle8.v	v16, (a0)
	vle8.v	v15, (s11)
	li	a0, 85
	li	s9, 51
	vmv1r.v	v17, v16
	addi	a1, sp, 432
	vs1r.v	v16, (a1)                       # vscale x 8-byte Folded Spill
	vrgather.vv	v16, v14, v17
	vrgather.vv	v14, v8, v17
	vrgather.vv	v8, v9, v17
	vrgather.vv	v9, v10, v17
	vrgather.vv	v10, v11, v17
	vrgather.vv	v11, v12, v17
	vrgather.vv	v12, v13, v17
	vrgather.vv	v13, v15, v17
	vsrl.vi	v15, v16, 1
	vsrl.vi	v17, v8, 1
	vsrl.vi	v18, v10, 1
	vsrl.vi	v19, v12, 1
	vxor.vv	v15, v14, v15
	vxor.vv	v17, v9, v17
	vxor.vv	v18, v11, v18
	vxor.vv	v19, v13, v19
	vand.vx	v15, v15, a0
	vand.vx	v17, v17, a0
	vand.vx	v18, v18, a0
	vand.vx	v19, v19, a0
	vxor.vv	v14, v15, v14
	vadd.vv	v15, v15, v15
	vxor.vv	v9, v17, v9
	vadd.vv	v17, v17, v17
	vxor.vv	v11, v18, v11
	vadd.vv	v18, v18, v18
	vxor.vv	v13, v19, v13
	vadd.vv	v19, v19, v19
	vxor.vv	v15, v15, v16
	vxor.vv	v8, v17, v8
	vxor.vv	v16, v18, v10
	vxor.vv	v10, v19, v12
	vsrl.vi	v12, v14, 2
	vsrl.vi	v17, v11, 2
	vsrl.vi	v18, v15, 2
	vsrl.vi	v19, v16, 2
	vxor.vv	v12, v9, v12
	vxor.vv	v17, v13, v17
	vxor.vv	v18, v8, v18
	vxor.vv	v19, v10, v19
	vand.vx	v12, v12, s9
	vand.vx	v17, v17, s9
	vand.vx	v18, v18, s9
	vand.vx	v19, v19, s9
	vxor.vv	v20, v12, v9
	vsll.vi	v12, v12, 2
	vxor.vv	v21, v17, v13
	vsll.vi	v13, v17, 2
	vxor.vv	v8, v18, v8
	vsll.vi	v17, v18, 2
	vxor.vv	v9, v19, v10
	vsll.vi	v18, v19, 2
	vxor.vv	v14, v12, v14
	vxor.vv	v19, v13, v11
	vsrl.vi	v12, v20, 4
	vand.vi	v13, v21, 15
	vxor.vv	v10, v17, v15
	vxor.vv	v11, v18, v16
	vsrl.vi	v15, v14, 4
	vand.vi	v16, v19, 15
	vsrl.vi	v17, v8, 4
	vxor.vv	v18, v13, v12
	vand.vi	v12, v9, 15
	vxor.vv	v22, v16, v15
	vsrl.vi	v13, v10, 4
	vxor.vv	v15, v12, v17
	vand.vi	v12, v11, 15
	vxor.vv	v13, v12, v13
	vxor.vv	v12, v18, v21
	vsll.vi	v16, v18, 4
	vxor.vv	v17, v16, v20
	vxor.vv	v16, v22, v19
	vsll.vi	v18, v22, 4
	vxor.vv	v14, v18, v14
	lbu	a0, 8(s8)
	lbu	a1, 9(s8)
	lbu	a2, 10(s8)
	lbu	a3, 11(s8)
	lbu	a4, 12(s8)
	lbu	a5, 13(s8)
	lbu	s1, 14(s8)
	lbu	a6, 15(s8)
	slli	a1, a1, 8
	slli	a2, a2, 16
	slli	a3, a3, 24
	slli	a5, a5, 8
	or	t0, a1, a0
	or	t1, a3, a2
	or	a7, a5, a4
	lbu	a1, 16(s8)
	lbu	a3, 17(s8)
	lbu	a5, 18(s8)
	lbu	a4, 19(s8)
	slli	s1, s1, 16
	slli	a6, a6, 24
	slli	a3, a3, 8
	slli	a5, a5, 16
	slli	a4, a4, 24
	or	a6, a6, s1
	or	a1, a1, a3
	or	a4, a4, a5
	lbu	a3, 21(s8)
	lbu	a5, 20(s8)
	lbu	a0, 22(s8)
	lbu	a2, 23(s8)
	slli	a3, a3, 8
	or	a3, a3, a5
	addi	s1, sp, 304
	slli	a0, a0, 16
	slli	a2, a2, 24
	or	a0, a0, a2
	addi	s7, sp, 288
	or	a2, t1, t0
	addi	s8, s1, 16
	or	a5, a6, a7
	addi	s10, s1, 32
	or	a1, a1, a4
	addi	s11, s1, 48
	or	a3, a3, a0
	addi	s2, s1, 64
	slli	a0, a5, 32
	or	a0, a0, a2
	mv	s6, s3
	addi	s3, s1, 80
	slli	a3, a3, 32
	or	a1, a1, a3
	sd	s4, 16(sp)                      # 8-byte Folded Spill
	addi	s4, s1, 96
	srli	a1, a1, 3
	addi	a1, a1, -1
	vxor.vv	v9, v15, v9
	vsll.vi	v15, v15, 4
	vxor.vv	v11, v13, v11
	vsll.vi	v13, v13, 4
	vxor.vv	v8, v15, v8
	vse8.v	v17, (s10)
	vse8.v	v16, (s2)
	vse8.v	v9, (s3)
	vxor.vv	v9, v13, v10
	vse8.v	v14, (s1)
	vse8.v	v8, (s8)
	vse8.v	v11, (s11)
	vse8.v	v9, (s7)
	vse8.v	v12, (s4)
	addi	a2, sp, 288
	call	gcm.aes_soft.soft.ciphers.planes.EncryptPlaneCipher.process_planes
	vsetivli	zero, 16, e8, m1, ta, ma
	vle8.v	v12, (s7)
	vle8.v	v16, (s1)
	vle8.v	v13, (s8)
	vle8.v	v17, (s10)
	vle8.v	v14, (s11)
	vle8.v	v18, (s2)
	vle8.v	v15, (s3)
	mv	s3, s6
	vle8.v	v19, (s4)
	ld	s4, 16(sp)                      # 8-byte Folded Reload
	li	a0, 32
.Lgcm_pcrel_hi100:
	auipc	a2, %pcrel_hi(.Lgcm_CPI32_1)
	csrr	a3, vlenb
	lui	a1, 1048560
	addi	a2, a2, %pcrel_lo(.Lgcm_pcrel_hi100)
	vsetvli	zero, a0, e8, m2, ta, ma
	vle8.v	v8, (a2)
	vsetivli	zero, 16, e8, m1, ta, ma
	vsrl.vi	v10, v12, 1
	vsrl.vi	v11, v13, 1
	vsrl.vi	v20, v14, 1
	vsrl.vi	v21, v15, 1
	vxor.vv	v10, v16, v10
	vxor.vv	v11, v17, v11
	vxor.vv	v20, v18, v20
	vxor.vv	v21, v19, v21
	li	a2, 85
	vand.vx	v22, v10, a2
	vand.vx	v23, v11, a2
	vand.vx	v20, v20, a2
	vand.vx	v21, v21, a2
	vsetvli	zero, a0, e8, m2, ta, ma
	vslidedown.vx	v10, v8, a3
	vsetivli	zero, 16, e8, m1, ta, ma
	vxor.vv	v9, v22, v16
	vadd.vv	v11, v22, v22
	vxor.vv	v16, v23, v17
	vadd.vv	v17, v23, v23
	vxor.vv	v18, v20, v18
	vadd.vv	v20, v20, v20
	vxor.vv	v19, v21, v19
	vadd.vv	v21, v21, v21
	vxor.vv	v11, v11, v12
	vxor.vv	v12, v17, v13
	vxor.vv	v13, v20, v14
	vxor.vv	v14, v21, v15
	vsrl.vi	v15, v9, 2
	vsrl.vi	v17, v18, 2
	vsrl.vi	v20, v11, 2
	vsrl.vi	v21, v13, 2
	vxor.vv	v15, v16, v15
	vxor.vv	v17, v19, v17
	vxor.vv	v20, v12, v20
	vxor.vv	v21, v14, v21
	vand.vx	v15, v15, s9
	vand.vx	v17, v17, s9
	vand.vx	v20, v20, s9
	vand.vx	v21, v21, s9
	vxor.vv	v16, v15, v16
	vsll.vi	v15, v15, 2
	vxor.vv	v19, v17, v19
	vsll.vi	v17, v17, 2
	vxor.vv	v22, v20, v12
	vsll.vi	v12, v20, 2
	vxor.vv	v20, v21, v14
	vsll.vi	v14, v21, 2
	vxor.vv	v9, v15, v9
	vxor.vv	v15, v17, v18
	vsrl.vi	v17, v16, 4
	vand.vi	v18, v19, 15
	vxor.vv	v21, v12, v11
	vxor.vv	v23, v14, v13
	vsrl.vi	v11, v9, 4
	vand.vi	v12, v15, 15
	vxor.vv	v13, v18, v17
	vxor.vv	v11, v12, v11
	vxor.vv	v14, v13, v19
	vsll.vi	v12, v13, 4
	vxor.vv	v18, v11, v15
	vsll.vi	v11, v11, 4
	vxor.vv	v15, v12, v16
	vsetvli	a2, zero, e8, m1, ta, ma
	vrgather.vv	v13, v14, v10
	vsetivli	zero, 16, e8, m1, ta, ma
	vxor.vv	v9, v11, v9
	vsetvli	a2, zero, e8, m1, ta, ma
	vrgather.vv	v17, v15, v10
	vrgather.vv	v12, v14, v8
	vrgather.vv	v16, v15, v8
	vrgather.vv	v15, v18, v10
	vrgather.vv	v14, v18, v8
	vsetvli	zero, zero, e32, m4, ta, ma
	vmv.s.x	v0, a1
	vsetvli	zero, zero, e8, m1, ta, ma
	vrgather.vv	v11, v9, v10
	vrgather.vv	v10, v9, v8
	vsetivli	zero, 16, e8, m1, ta, ma
	vsrl.vi	v8, v22, 4
	vand.vi	v9, v20, 15
	vsrl.vi	v18, v21, 4
	vxor.vv	v8, v9, v8
	vand.vi	v9, v23, 15
	vxor.vv	v9, v9, v18
	vxor.vv	v18, v8, v20
	vsll.vi	v8, v8, 4
	vxor.vv	v19, v9, v23
	vsll.vi	v9, v9, 4
	vxor.vv	v20, v8, v22
	addi	a1, sp, 432
	vl1r.v	v22, (a1)                       # vscale x 8-byte Folded Reload
	vrgather.vv	v8, v18, v22
	vxor.vv	v9, v9, v21
	vrgather.vv	v18, v9, v22
	vsetvli	zero, a0, e8, m2, ta, ma
	vmerge.vvm	v10, v18, v10, v0
	vsetivli	zero, 16, e8, m1, ta, ma
	vrgather.vv	v18, v20, v22
	vrgather.vv	v20, v19, v22
	vsetvli	zero, a0, e8, m2, ta, ma
	vmerge.vvm	v16, v18, v16, v0
	addi	a0, sp, 32
	vse8.v	v10, (a0)
	addi	a0, sp, 64
	vse8.v	v16, (a0)
	vmerge.vvm	v10, v20, v14, v0
	addi	a0, sp, 96
	vse8.v	v10, (a0)
	vmerge.vvm	v8, v8, v12, v0
	addi	a0, sp, 128
	vse8.v	v8, (a0)
	ld	s2, 24(sp)                      # 8-byte Folded Reload
	add	s2, s2, s6
	bnez	s0, .Lgcm_BB32_6
.Lgcm_BB32_13:
	li	a0, 0
	mv	a1, s5
	li	a2, 16
	bltu	s5, a2, .Lgcm_BB32_16
.Lgcm_BB32_14:                              # %join.8.i.preheader
	vsetivli	zero, 16, e8, m1, ta, ma
.Lgcm_BB32_15:                              # %join.8.i
                                        # =>This Inner Loop Header: Depth=1
	add	a2, s0, a0
	addi	a3, sp, 32
	andi	a2, a2, -16
	add	a2, a2, a3
	add	a3, s2, a0
	vle8.v	v8, (a3)
	vle8.v	v9, (a2)
	addi	a0, a0, 16
	addi	a1, a1, -16
	vxor.vv	v8, v9, v8
	li	a2, 15
	vse8.v	v8, (a3)
	bltu	a2, a1, .Lgcm_BB32_15
.Lgcm_BB32_16:                              # %after.4.i
	bgeu	a0, s5, .Lgcm_BB32_20
# %bb.17:                               # %then.9.i
	beqz	a1, .Lgcm_BB32_20
# %bb.18:                               # %vector.body155.preheader
	li	a2, 0
	add	s0, s0, a0
	addi	a3, sp, 32
	andi	s0, s0, -16
	add	a3, a3, s0
	add	a0, a0, s2
.Lgcm_BB32_19:                              # %vector.body155
                                        # =>This Inner Loop Header: Depth=1
	vsetvli	a4, a1, e8, m2, ta, ma
	add	a5, a3, a2
	vle8.v	v8, (a5)
	add	a5, a0, a2
	vle8.v	v10, (a5)
	sub	a1, a1, a4
	vxor.vv	v8, v10, v8
	vse8.v	v8, (a5)
	add	a2, a2, a4
	bnez	a1, .Lgcm_BB32_19
.Lgcm_BB32_20:                              # %"aes_ctr::add_blocks::add_blocks.exit"
	add	a0, s5, s3
	csrr	a1, vlenb
	add	sp, sp, a1
	ld	ra, 536(sp)                     # 8-byte Folded Reload
	ld	s0, 528(sp)                     # 8-byte Folded Reload
	ld	s1, 520(sp)                     # 8-byte Folded Reload
	ld	s2, 512(sp)                     # 8-byte Folded Reload
	ld	s3, 504(sp)                     # 8-byte Folded Reload
	ld	s4, 496(sp)                     # 8-byte Folded Reload
	ld	s5, 488(sp)                     # 8-byte Folded Reload
	ld	s6, 480(sp)                     # 8-byte Folded Reload
	ld	s7, 472(sp)                     # 8-byte Folded Reload
	ld	s8, 464(sp)                     # 8-byte Folded Reload
	ld	s9, 456(sp)                     # 8-byte Folded Reload
	ld	s10, 448(sp)                    # 8-byte Folded Reload
	ld	s11, 440(sp)                    # 8-byte Folded Reload
	addi	sp, sp, 544
	ret
.Lgcm_func_end32:
	.size	gcm.aes_ctr.add_in_batches.add_next.1, .Lgcm_func_end32-gcm.aes_ctr.add_in_batches.add_next.1
                                        # -- End function
	.section	.text.gcm.aes_cipher.zeroize.stack.wipe_stack.2032,"ax",@progbits
	.p2align	1                               # -- Begin function aes_cipher::zeroize::stack::wipe_stack::<=2032>
	.type	gcm.aes_cipher.zeroize.stack.wipe_stack.2032,@function
gcm.aes_cipher.zeroize.stack.wipe_stack.2032: # @gcm.aes_cipher.zeroize.stack.wipe_stack.2032
# %bb.0:                                # %start
	addi	sp, sp, -496
	sd	ra, 488(sp)                     # 8-byte Folded Spill
	sd	s0, 480(sp)                     # 8-byte Folded Spill
	sd	s1, 472(sp)                     # 8-byte Folded Spill
	addi	sp, sp, -1584
	addi	s0, sp, 24
	addi	a0, sp, 24
	li	a2, 2032
	li	s1, 2032
	li	a1, 0
	la	t1, memset
	jalr	t1
	sd	zero, 16(sp)
	#APP
	#NO_APP
	fence	rw, rw
	ld	a0, 16(sp)
	fence	r, rw
	#APP
	#NO_APP
	bgeu	a0, s1, .Lgcm_BB33_2
# %bb.1:                                # %then.1
	add	a0, a0, s0
	lbu	a0, 0(a0)
	#APP
	#NO_APP
	addi	a1, sp, 16
	amoswap.d.aqrl	zero, a0, (a1)
	#APP
	#NO_APP
.Lgcm_BB33_2:                               # %common.ret
	addi	sp, sp, 1584
	ld	ra, 488(sp)                     # 8-byte Folded Reload
	ld	s0, 480(sp)                     # 8-byte Folded Reload
	ld	s1, 472(sp)                     # 8-byte Folded Reload
	addi	sp, sp, 496
	ret
.Lgcm_func_end33:
	.size	gcm.aes_cipher.zeroize.stack.wipe_stack.2032, .Lgcm_func_end33-gcm.aes_cipher.zeroize.stack.wipe_stack.2032
                                        # -- End function
	.section	.text.gcm.aes_ctr.add_in_batches.add_next.2,"ax",@progbits
	.p2align	1                               # -- Begin function aes_ctr::add_in_batches::add_next::<#6a304718cc059ec9>
	.type	gcm.aes_ctr.add_in_batches.add_next.2,@function
gcm.aes_ctr.add_in_batches.add_next.2: # @gcm.aes_ctr.add_in_batches.add_next.2
# %bb.0:                                # %start
	addi	sp, sp, -368
	sd	ra, 360(sp)                     # 8-byte Folded Spill
	sd	s0, 352(sp)                     # 8-byte Folded Spill
	sd	s1, 344(sp)                     # 8-byte Folded Spill
	sd	s2, 336(sp)                     # 8-byte Folded Spill
	sd	s3, 328(sp)                     # 8-byte Folded Spill
	sd	s4, 320(sp)                     # 8-byte Folded Spill
	sd	s5, 312(sp)                     # 8-byte Folded Spill
	sd	s6, 304(sp)                     # 8-byte Folded Spill
	sd	s7, 296(sp)                     # 8-byte Folded Spill
	sd	s8, 288(sp)                     # 8-byte Folded Spill
	sd	s9, 280(sp)                     # 8-byte Folded Spill
	sd	s10, 272(sp)                    # 8-byte Folded Spill
	sd	s11, 264(sp)                    # 8-byte Folded Spill
	mv	s4, a5
	mv	s2, a4
	mv	s5, a3
	mv	s0, a1
	mv	s8, a0
	add	a2, a2, a3
	li	a0, 64
	andi	s7, a2, 15
	sub	a0, a0, s7
	sub	s6, a5, a3
	bltu	s6, a0, .Lgcm_BB34_2
# %bb.1:                                # %start
	mv	s6, a0
.Lgcm_BB34_2:                               # %start
	add	a0, s7, s6
	srli	s9, a2, 4
	addi	a0, a0, 15
	srli	s3, a0, 4
	addi	a0, sp, 72
	li	a2, 192
	li	a1, 0
	la	t1, memset
	jalr	t1
	lbu	ra, 0(s0)
	lbu	a3, 1(s0)
	lbu	a4, 2(s0)
	lbu	a0, 3(s0)
	lbu	s11, 8(s0)
	lbu	t5, 9(s0)
	lbu	t6, 10(s0)
	lbu	a5, 11(s0)
	lbu	a2, 4(s0)
	lbu	a7, 5(s0)
	lbu	t0, 6(s0)
	lbu	a6, 7(s0)
	lbu	a1, 12(s0)
	lbu	t2, 13(s0)
	lbu	t3, 14(s0)
	lbu	t1, 15(s0)
	slli	a2, a2, 32
	slli	a0, a0, 24
	or	s10, a0, a2
	li	t4, 255
	slli	a1, a1, 32
	slli	a0, a5, 24
	or	a0, a0, a1
	lui	s0, 4080
	slli	a4, a4, 16
	slli	a3, a3, 8
	or	a3, a3, ra
	or	a3, a3, a4
	lui	a1, 16
	vsetivli	zero, 16, e8, m1, ta, ma
	vid.v	v8
	slli	t4, t4, 24
	addi	a2, a1, -256
	slli	t6, t6, 16
	slli	t5, t5, 8
	slli	ra, ra, 56
	or	a1, t5, s11
	or	a4, a1, t6
	or	a5, a3, s10
	or	a0, a0, a4
	and	a3, a3, a2
	srli	a1, a5, 8
	slli	a3, a3, 40
	or	t5, ra, a3
	srli	a3, a0, 8
	and	s10, a1, t4
	and	t6, a3, t4
	li	t4, 32
	vrsub.vi	v11, v8, 15
	slli	t0, t0, 48
	slli	a7, a7, 40
	slli	t3, t3, 48
	slli	t2, t2, 40
	slli	s11, s11, 56
	and	a4, a4, a2
	or	a3, a5, a7
	or	a1, a0, t2
	and	a5, a5, s0
	and	a7, a0, s0
	slli	a4, a4, 40
	or	s1, a3, t0
	or	a0, a1, t3
	srli	a3, a3, 24
	slli	a5, a5, 24
	srli	a1, a1, 24
	slli	a7, a7, 24
	or	t0, s11, a4
	and	a3, a3, s0
	srli	a4, s1, 40
	srliw	s1, s1, 24
	and	a1, a1, s0
	srli	s0, a0, 40
	srliw	a0, a0, 24
	or	a3, s10, a3
	and	a4, a4, a2
	slli	s1, s1, 32
	or	a1, t6, a1
	and	a2, a2, s0
	slli	a0, a0, 32
	or	a4, a4, a6
	or	a5, a5, s1
	or	a2, a2, t1
	or	a0, a7, a0
	or	a3, a3, a4
	or	a4, t5, a5
	or	a1, a1, a2
	or	a0, t0, a0
	or	a3, a3, a4
	or	a0, a0, a1
	srli	a1, a0, 32
	add	a0, a0, s9
	slli	a1, a1, 32
	slli	a2, a0, 32
	addi	a4, a0, 1
	addi	a5, a0, 2
	addi	a0, a0, 3
	srli	a2, a2, 32
	slli	a4, a4, 32
	slli	a5, a5, 32
	slli	a0, a0, 32
	or	a2, a2, a1
	srli	a4, a4, 32
	srli	a5, a5, 32
	srli	a0, a0, 32
	vsetivli	zero, 2, e64, m1, ta, ma
	vmv.v.x	v8, a2
	or	a4, a4, a1
	or	a5, a5, a1
	or	a0, a0, a1
	vslide1down.vx	v9, v8, a3
	vmv.v.x	v8, a4
	vmv.v.x	v10, a5
	vslide1down.vx	v13, v8, a3
	vsetivli	zero, 16, e8, m1, ta, ma
	vrgather.vv	v8, v9, v11
	vrgather.vv	v12, v13, v11
	vsetvli	zero, t4, e8, m2, ta, ma
	vslideup.vi	v8, v12, 16
	vsetivli	zero, 2, e64, m1, ta, ma
	vmv.v.x	v12, a0
	vslide1down.vx	v13, v10, a3
	vslide1down.vx	v10, v12, a3
	vsetivli	zero, 16, e8, m1, ta, ma
	vrgather.vv	v12, v10, v11
	vrgather.vv	v10, v13, v11
	vsetvli	zero, t4, e8, m2, ta, ma
	vslideup.vi	v10, v12, 16
	addi	a6, sp, 8
	lbu	a7, 16(s8)
	lbu	t1, 17(s8)
	lbu	t2, 18(s8)
	lbu	t3, 19(s8)
	lbu	t0, 20(s8)
	lbu	t5, 21(s8)
	lbu	t6, 22(s8)
	lbu	a1, 23(s8)
	lbu	t4, 24(s8)
	lbu	a5, 25(s8)
	lbu	a2, 26(s8)
	lbu	a3, 27(s8)
	lbu	s9, 28(s8)
	lbu	a0, 29(s8)
	lbu	s1, 30(s8)
	lbu	s0, 31(s8)
	slli	t1, t1, 8
	slli	t2, t2, 16
	slli	t3, t3, 24
	slli	t5, t5, 8
	slli	t6, t6, 16
	slli	s8, a1, 24
	slli	s11, a5, 8
	slli	s10, a2, 16
	slli	a3, a3, 24
	slli	ra, a0, 8
	slli	s1, s1, 16
	slli	s0, s0, 24
	or	a7, t1, a7
	or	a1, t3, t2
	or	a2, t5, t0
	or	a5, s8, t6
	or	a0, s11, t4
	or	a3, a3, s10
	or	a4, ra, s9
	or	s0, s0, s1
	or	a1, a1, a7
	or	a2, a2, a5
	or	a3, a3, a0
	or	a4, a4, s0
	slli	a0, a2, 32
	slli	a4, a4, 32
	or	a0, a0, a1
	vse8.v	v8, (a6)
	addi	a1, sp, 40
	vse8.v	v10, (a1)
	or	a1, a4, a3
	addi	a2, sp, 8
	mv	a3, s3
	call	gcm.aes_permute.blocks.process_on_lanes
	add	s2, s2, s5
	beqz	s7, .Lgcm_BB34_9
# %bb.3:                                # %then.1.i
	li	a0, 16
	sub	a1, a0, s7
	mv	a0, s6
	bltu	s6, a1, .Lgcm_BB34_5
# %bb.4:                                # %then.1.i
	mv	a0, a1
.Lgcm_BB34_5:                               # %then.1.i
	beq	s4, s5, .Lgcm_BB34_8
# %bb.6:                                # %join.8.i80.lr.ph
	li	a1, 0
	addi	a2, sp, 8
	add	a2, a2, s7
	mv	a3, a0
.Lgcm_BB34_7:                               # %vector.body
                                        # =>This Inner Loop Header: Depth=1
	vsetvli	a4, a3, e8, m1, ta, ma
	add	a5, a2, a1
	vle8.v	v8, (a5)
	add	a5, s2, a1
	vle8.v	v9, (a5)
	sub	a3, a3, a4
	vxor.vv	v8, v9, v8
	vse8.v	v8, (a5)
	add	a1, a1, a4
	bnez	a3, .Lgcm_BB34_7
.Lgcm_BB34_8:                               # %join.3.i
	sub	a1, s6, a0
	li	a2, 16
	bgeu	a1, a2, .Lgcm_BB34_10
	j	.Lgcm_BB34_12
.Lgcm_BB34_9:
	li	a0, 0
	mv	a1, s6
	li	a2, 16
	bltu	s6, a2, .Lgcm_BB34_12
.Lgcm_BB34_10:                              # %join.8.i.preheader
	vsetivli	zero, 16, e8, m1, ta, ma
.Lgcm_BB34_11:                              # %join.8.i
                                        # =>This Inner Loop Header: Depth=1
	add	a2, s7, a0
	addi	a3, sp, 8
	andi	a2, a2, -16
	add	a2, a2, a3
	add	a3, s2, a0
	vle8.v	v8, (a3)
	vle8.v	v9, (a2)
	addi	a0, a0, 16
	addi	a1, a1, -16
	vxor.vv	v8, v9, v8
	li	a2, 15
	vse8.v	v8, (a3)
	bltu	a2, a1, .Lgcm_BB34_11
.Lgcm_BB34_12:                              # %after.4.i
	bgeu	a0, s6, .Lgcm_BB34_16
# %bb.13:                               # %then.9.i
	beqz	a1, .Lgcm_BB34_16
# %bb.14:                               # %vector.body155.preheader
	li	a2, 0
	add	s7, s7, a0
	addi	a3, sp, 8
	andi	a4, s7, -16
	add	a3, a3, a4
	add	a0, a0, s2
.Lgcm_BB34_15:                              # %vector.body155
                                        # =>This Inner Loop Header: Depth=1
	vsetvli	a4, a1, e8, m2, ta, ma
	add	a5, a3, a2
	vle8.v	v8, (a5)
	add	a5, a0, a2
	vle8.v	v10, (a5)
	sub	a1, a1, a4
	vxor.vv	v8, v10, v8
	vse8.v	v8, (a5)
	add	a2, a2, a4
	bnez	a1, .Lgcm_BB34_15
.Lgcm_BB34_16:                              # %"aes_ctr::add_blocks::add_blocks.exit"
	add	a0, s6, s5
	ld	ra, 360(sp)                     # 8-byte Folded Reload
	ld	s0, 352(sp)                     # 8-byte Folded Reload
	ld	s1, 344(sp)                     # 8-byte Folded Reload
	ld	s2, 336(sp)                     # 8-byte Folded Reload
	ld	s3, 328(sp)                     # 8-byte Folded Reload
	ld	s4, 320(sp)                     # 8-byte Folded Reload
	ld	s5, 312(sp)                     # 8-byte Folded Reload
	ld	s6, 304(sp)                     # 8-byte Folded Reload
	ld	s7, 296(sp)                     # 8-byte Folded Reload
	ld	s8, 288(sp)                     # 8-byte Folded Reload
	ld	s9, 280(sp)                     # 8-byte Folded Reload
	ld	s10, 272(sp)                    # 8-byte Folded Reload
	ld	s11, 264(sp)                    # 8-byte Folded Reload
	addi	sp, sp, 368
	ret
.Lgcm_func_end34:
	.size	gcm.aes_ctr.add_in_batches.add_next.2, .Lgcm_func_end34-gcm.aes_ctr.add_in_batches.add_next.2
                                        # -- End function
	.section	.text.gcm.aes_cipher.zeroize.stack.wipe_stack.1536,"ax",@progbits
	.p2align	1                               # -- Begin function aes_cipher::zeroize::stack::wipe_stack::<=1536>
	.type	gcm.aes_cipher.zeroize.stack.wipe_stack.1536,@function
gcm.aes_cipher.zeroize.stack.wipe_stack.1536: # @gcm.aes_cipher.zeroize.stack.wipe_stack.1536
# %bb.0:                                # %start
	addi	sp, sp, -1584
	sd	ra, 1576(sp)                    # 8-byte Folded Spill
	sd	s0, 1568(sp)                    # 8-byte Folded Spill
	sd	s1, 1560(sp)                    # 8-byte Folded Spill
	addi	s0, sp, 24
	addi	a0, sp, 24
	li	a2, 1536
	li	s1, 1536
	li	a1, 0
	la	t1, memset
	jalr	t1
	sd	zero, 16(sp)
	#APP
	#NO_APP
	fence	rw, rw
	ld	a0, 16(sp)
	fence	r, rw
	#APP
	#NO_APP
	bgeu	a0, s1, .Lgcm_BB35_2
# %bb.1:                                # %then.1
	add	a0, a0, s0
	lbu	a0, 0(a0)
	#APP
	#NO_APP
	addi	a1, sp, 16
	amoswap.d.aqrl	zero, a0, (a1)
	#APP
	#NO_APP
.Lgcm_BB35_2:                               # %common.ret
	ld	ra, 1576(sp)                    # 8-byte Folded Reload
	ld	s0, 1568(sp)                    # 8-byte Folded Reload
	ld	s1, 1560(sp)                    # 8-byte Folded Reload
	addi	sp, sp, 1584
	ret
.Lgcm_func_end35:
	.size	gcm.aes_cipher.zeroize.stack.wipe_stack.1536, .Lgcm_func_end35-gcm.aes_cipher.zeroize.stack.wipe_stack.1536
                                        # -- End function
	.section	.text.gcm.gcm_c.whole.fotsgure_gcm_seal,"ax",@progbits
	.p2align	1                               # -- Begin function gcm_c::whole::fotsgure_gcm_seal
	.type	gcm.gcm_c.whole.fotsgure_gcm_seal,@function
gcm.gcm_c.whole.fotsgure_gcm_seal:      # @gcm.gcm_c.whole.fotsgure_gcm_seal
# %bb.0:                                # %start
	addi	sp, sp, -128
	sd	ra, 120(sp)                     # 8-byte Folded Spill
	sd	s0, 112(sp)                     # 8-byte Folded Spill
	sd	s1, 104(sp)                     # 8-byte Folded Spill
	sd	s2, 96(sp)                      # 8-byte Folded Spill
	sd	s3, 88(sp)                      # 8-byte Folded Spill
	sd	s4, 80(sp)                      # 8-byte Folded Spill
	sd	s5, 72(sp)                      # 8-byte Folded Spill
	li	s1, -1
	slli	s1, s1, 61
	add	s0, a2, s1
	addi	s1, s1, 1
	bgeu	s0, s1, .Lgcm_BB36_2
# %bb.1:
	li	a0, 3
	j	.Lgcm_BB36_7
.Lgcm_BB36_2:                               # %after.1.i
	mv	t0, a0
	srli	s1, a4, 61
	li	a0, 5
	bnez	s1, .Lgcm_BB36_7
# %bb.3:                                # %after.1.i
	li	s1, 1
	slli	s1, s1, 36
	addi	s1, s1, -32
	bltu	s1, a6, .Lgcm_BB36_7
# %bb.4:                                # %after.11.i
	lw	s1, 0(t0)
	li	s0, 32
	li	a0, 2
	bltu	s0, s1, .Lgcm_BB36_7
# %bb.5:                                # %after.11.i
	lui	s0, 65793
	slli	s0, s0, 4
	srl	s0, s0, s1
	andi	s0, s0, 1
	beqz	s0, .Lgcm_BB36_7
# %bb.6:                                # %join.3
	slli	s1, s1, 32
	addi	a0, t0, 4
	addi	s0, t0, 244
	srli	s1, s1, 32
	srli	s1, s1, 2
	addi	s1, s1, 7
	sd	a0, 16(sp)
	sd	s1, 24(sp)
	sd	a0, 32(sp)
	sd	s1, 40(sp)
	sd	s0, 48(sp)
	addi	a0, sp, 16
	mv	s2, a3
	addi	a3, sp, 56
	mv	s4, a7
	mv	s1, a6
	mv	s0, a5
	mv	s3, a4
	call	gcm.gcm.mode.BorrowedGcm.put_pre_counter
	addi	a0, sp, 16
	addi	a1, sp, 56
	li	a2, 16
	mv	a3, s0
	mv	a4, s1
	call	gcm.gcm.gctr.add_gctr
	addi	a0, sp, 16
	addi	a1, sp, 56
	mv	a6, sp
	mv	s5, sp
	mv	a2, s2
	mv	a3, s3
	mv	a4, s0
	mv	a5, s1
	call	gcm.gcm.mode.BorrowedGcm.put_tag
	addi	a0, sp, 56
	call	gcm.aes_cipher.zeroize.elements.zeroize_elements.3
	call	gcm.aes_cipher.zeroize.stack.wipe_stack.1536
	li	a0, 0
	vsetivli	zero, 16, e8, m1, ta, ma
	vle8.v	v8, (s5)
	vse8.v	v8, (s4)
.Lgcm_BB36_7:                               # %common.ret
	ld	ra, 120(sp)                     # 8-byte Folded Reload
	ld	s0, 112(sp)                     # 8-byte Folded Reload
	ld	s1, 104(sp)                     # 8-byte Folded Reload
	ld	s2, 96(sp)                      # 8-byte Folded Reload
	ld	s3, 88(sp)                      # 8-byte Folded Reload
	ld	s4, 80(sp)                      # 8-byte Folded Reload
	ld	s5, 72(sp)                      # 8-byte Folded Reload
	addi	sp, sp, 128
	ret
.Lgcm_func_end36:
	.size	gcm.gcm_c.whole.fotsgure_gcm_seal, .Lgcm_func_end36-gcm.gcm_c.whole.fotsgure_gcm_seal
                                        # -- End function
	.section	.text.gcm.gcm_c.whole_to.copy,"ax",@progbits
	.p2align	1                               # -- Begin function gcm_c::whole_to::copy
	.type	gcm.gcm_c.whole_to.copy,@function
gcm.gcm_c.whole_to.copy:                # @gcm.gcm_c.whole_to.copy
# %bb.0:                                # %start
	mv	a3, a0
	sub	a0, a2, a0
	mv	a4, a1
	bgeu	a0, a1, .Lgcm_BB37_4
# %bb.1:                                # %vector.memcheck
	csrr	a1, vlenb
	slli	a1, a1, 1
	bgeu	a0, a1, .Lgcm_BB37_5
# %bb.2:                                # %join.7.i.i.i.i.i.i.preheader
	add	a4, a4, a3
.Lgcm_BB37_3:                               # %join.7.i.i.i.i.i.i
                                        # =>This Inner Loop Header: Depth=1
	lbu	a0, 0(a3)
	addi	a3, a3, 1
	sb	a0, 0(a2)
	addi	a2, a2, 1
	bne	a3, a4, .Lgcm_BB37_3
	j	.Lgcm_BB37_7
.Lgcm_BB37_4:                               # %apart.2.i.i.i.i.i.i
	mv	a0, a2
	mv	a1, a3
	mv	a2, a4
	la	t1, memmove
	jr	t1
.Lgcm_BB37_5:                               # %vector.body.preheader
	li	a0, 0
.Lgcm_BB37_6:                               # %vector.body
                                        # =>This Inner Loop Header: Depth=1
	vsetvli	a1, a4, e8, m2, ta, ma
	add	a5, a3, a0
	vle8.v	v8, (a5)
	add	a5, a2, a0
	sub	a4, a4, a1
	vse8.v	v8, (a5)
	add	a0, a0, a1
	bnez	a4, .Lgcm_BB37_6
.Lgcm_BB37_7:                               # %"core::slice::edits::slice+T::copy_from_slice::<i8,20'core::clone::U8Clone{}>.exit"
	ret
.Lgcm_func_end37:
	.size	gcm.gcm_c.whole_to.copy, .Lgcm_func_end37-gcm.gcm_c.whole_to.copy
                                        # -- End function
	.section	.text.gcm.gcm_siv.course.open_in.1,"ax",@progbits
	.p2align	1                               # -- Begin function gcm_siv::course::open_in::<#b1a7be6fe22fdaa9>
	.type	gcm.gcm_siv.course.open_in.1,@function
gcm.gcm_siv.course.open_in.1: # @gcm.gcm_siv.course.open_in.1
# %bb.0:                                # %start
	addi	sp, sp, -1360
	sd	ra, 1352(sp)                    # 8-byte Folded Spill
	sd	s0, 1344(sp)                    # 8-byte Folded Spill
	sd	s1, 1336(sp)                    # 8-byte Folded Spill
	sd	s2, 1328(sp)                    # 8-byte Folded Spill
	sd	s3, 1320(sp)                    # 8-byte Folded Spill
	sd	s4, 1312(sp)                    # 8-byte Folded Spill
	sd	s5, 1304(sp)                    # 8-byte Folded Spill
	sd	s6, 1296(sp)                    # 8-byte Folded Spill
	sd	s7, 1288(sp)                    # 8-byte Folded Spill
	sd	s8, 1280(sp)                    # 8-byte Folded Spill
	mv	s2, a7
	mv	s3, a6
	mv	s4, a5
	mv	s5, a4
	mv	s6, a3
	mv	s1, a2
	mv	s7, a1
	mv	s0, a0
	addi	a0, sp, 1264
	vsetivli	zero, 16, e8, m1, ta, ma
	vmv.v.i	v8, 0
	vse8.v	v8, (a0)
	addi	a0, sp, 768
	li	a2, 496
	li	a1, 0
	la	t1, memset
	jalr	t1
	addi	a0, sp, 256
	addi	a1, sp, 768
	li	a2, 512
	la	t1, memcpy
	jalr	t1
	addi	s8, sp, 16
	addi	a0, sp, 12
	li	a2, 244
	li	a1, 0
	la	t1, memset
	jalr	t1
	addi	a3, sp, 12
	addi	a4, sp, 256
	mv	a0, s0
	mv	a1, s7
	mv	a2, s1
	call	gcm.gcm_siv.keys.derive_and_prepare.1
	addi	a0, sp, 12
	addi	a1, sp, 256
	mv	a2, s1
	mv	a3, s6
	mv	a4, s5
	mv	a5, s4
	mv	a6, s3
	mv	a7, s2
	call	gcm.gcm_siv.message.open.1
	mv	s0, a0
	sw	zero, 12(sp)
	mv	a0, s8
	call	gcm.aes_cipher.zeroize.elements.zeroize_elements.1
	addi	a0, sp, 256
	li	a1, 32
	call	gcm.aes_cipher.zeroize.elements.zeroize_elements.2
	call	gcm.aes_cipher.zeroize.stack.wipe_stack.2816
	mv	a0, s0
	ld	ra, 1352(sp)                    # 8-byte Folded Reload
	ld	s0, 1344(sp)                    # 8-byte Folded Reload
	ld	s1, 1336(sp)                    # 8-byte Folded Reload
	ld	s2, 1328(sp)                    # 8-byte Folded Reload
	ld	s3, 1320(sp)                    # 8-byte Folded Reload
	ld	s4, 1312(sp)                    # 8-byte Folded Reload
	ld	s5, 1304(sp)                    # 8-byte Folded Reload
	ld	s6, 1296(sp)                    # 8-byte Folded Reload
	ld	s7, 1288(sp)                    # 8-byte Folded Reload
	ld	s8, 1280(sp)                    # 8-byte Folded Reload
	addi	sp, sp, 1360
	ret
.Lgcm_func_end38:
	.size	gcm.gcm_siv.course.open_in.1, .Lgcm_func_end38-gcm.gcm_siv.course.open_in.1
                                        # -- End function
	.section	.text.gcm.gcm_siv.keys.derive_and_prepare.1,"ax",@progbits
	.p2align	1                               # -- Begin function gcm_siv::keys::derive_and_prepare::<#b1a7be6fe22fdaa9>
	.type	gcm.gcm_siv.keys.derive_and_prepare.1,@function
gcm.gcm_siv.keys.derive_and_prepare.1: # @gcm.gcm_siv.keys.derive_and_prepare.1
# %bb.0:                                # %start
	addi	sp, sp, -256
	sd	ra, 248(sp)                     # 8-byte Folded Spill
	sd	s0, 240(sp)                     # 8-byte Folded Spill
	sd	s1, 232(sp)                     # 8-byte Folded Spill
	sd	s2, 224(sp)                     # 8-byte Folded Spill
	sd	s3, 216(sp)                     # 8-byte Folded Spill
	sd	s4, 208(sp)                     # 8-byte Folded Spill
	sd	s5, 200(sp)                     # 8-byte Folded Spill
	mv	s3, a4
	mv	s5, a3
	mv	s4, a1
	li	a1, 192
	addi	s2, sp, 16
	vsetivli	zero, 8, e64, m4, ta, ma
	vmv.v.i	v8, 0
	vse64.v	v8, (s2)
	vsetvli	zero, zero, e8, mf2, ta, ma
	vmv.v.i	v8, 0
	vmv.s.x	v0, a1
	addi	a1, sp, 128
	vmerge.vim	v12, v8, 0, v0
	vsetvli	zero, zero, e64, m4, ta, ma
	vsext.vf8	v8, v12
	vse64.v	v8, (a1)
	vsetivli	zero, 2, e64, m1, ta, ma
	vmv.v.i	v8, 0
	addi	a1, sp, 96
	vse64.v	v8, (a1)
	addi	a1, sp, 112
	vse64.v	v8, (a1)
	addi	a1, sp, 176
	vle64.v	v9, (a1)
	mv	a1, sp
	vse64.v	v8, (a1)
	addi	a1, sp, 80
	vse64.v	v9, (a1)
	mv	a3, sp
	mv	a1, s4
	call	gcm.gcm_siv.keys.derive
	ld	a0, 0(sp)
	lhu	a1, 8(sp)
	lbu	a2, 10(sp)
	lbu	a3, 11(sp)
	lbu	a4, 12(sp)
	lbu	a5, 13(sp)
	lbu	s1, 14(sp)
	lbu	s0, 15(sp)
	slli	a4, a4, 32
	slli	a3, a3, 24
	or	a3, a3, a4
	slli	s1, s1, 48
	slli	a5, a5, 40
	slli	a2, a2, 16
	or	a2, a2, a1
	slli	a1, a1, 63
	or	a5, a5, s1
	srli	a4, a0, 1
	or	a1, a1, a4
	li	a4, -31
	slli	a4, a4, 56
	slli	s0, s0, 56
	slli	a0, a0, 63
	srai	a0, a0, 63
	or	a2, a2, a3
	or	a5, a5, s0
	or	a2, a2, a5
	srli	a2, a2, 1
	and	a0, a0, a4
	xor	a2, a2, a0
	mv	a0, s3
	call	gcm.gcm.multiples.put_table
	addi	s3, s5, 4
	addi	a0, s5, 20
	li	a2, 224
	li	a1, 0
	la	t1, memset
	jalr	t1
	li	s1, 16
	bne	s4, s1, .Lgcm_BB39_2
# %bb.1:                                # %then.1.i
	li	a2, 16
	j	.Lgcm_BB39_3
.Lgcm_BB39_2:                               # %else.2.i
	li	a2, 32
	li	s1, 32
.Lgcm_BB39_3:                               # %"gcm_siv::keys::set_encryption_key::<#66aa1833bfd7fef8>.exit"
	mv	a0, s3
	mv	a1, s2
	call	gcm.aes_permute.lane_keys.expand_lanes
	sw	s1, 0(s5)
	mv	a0, sp
	li	a1, 6
	call	gcm.aes_cipher.zeroize.elements.zeroize_elements.4
	ld	ra, 248(sp)                     # 8-byte Folded Reload
	ld	s0, 240(sp)                     # 8-byte Folded Reload
	ld	s1, 232(sp)                     # 8-byte Folded Reload
	ld	s2, 224(sp)                     # 8-byte Folded Reload
	ld	s3, 216(sp)                     # 8-byte Folded Reload
	ld	s4, 208(sp)                     # 8-byte Folded Reload
	ld	s5, 200(sp)                     # 8-byte Folded Reload
	addi	sp, sp, 256
	ret
.Lgcm_func_end39:
	.size	gcm.gcm_siv.keys.derive_and_prepare.1, .Lgcm_func_end39-gcm.gcm_siv.keys.derive_and_prepare.1
                                        # -- End function
	.section	.text.gcm.gcm_siv.keys.derive,"ax",@progbits
	.p2align	1                               # -- Begin function gcm_siv::keys::derive::<#ed3b81e0963a9ab3>
	.type	gcm.gcm_siv.keys.derive,@function
gcm.gcm_siv.keys.derive: # @gcm.gcm_siv.keys.derive
# %bb.0:                                # %start
	addi	sp, sp, -160
	sd	ra, 152(sp)                     # 8-byte Folded Spill
	sd	s0, 144(sp)                     # 8-byte Folded Spill
	sd	s1, 136(sp)                     # 8-byte Folded Spill
	sd	s2, 128(sp)                     # 8-byte Folded Spill
	sd	s3, 120(sp)                     # 8-byte Folded Spill
	sd	s4, 112(sp)                     # 8-byte Folded Spill
	sd	s5, 104(sp)                     # 8-byte Folded Spill
	mv	s0, a3
	mv	s2, a1
	mv	s1, a0
	lbu	a0, 9(a2)
	lbu	a1, 8(a2)
	lbu	a7, 10(a2)
	lbu	a4, 11(a2)
	slli	a0, a0, 8
	or	a6, a0, a1
	lbu	a1, 0(a2)
	lbu	a5, 1(a2)
	lbu	a0, 2(a2)
	lbu	a3, 3(a2)
	slli	a7, a7, 16
	slli	a4, a4, 24
	slli	a5, a5, 8
	slli	a0, a0, 16
	slli	a3, a3, 24
	or	a4, a4, a7
	or	a7, a5, a1
	or	a0, a0, a3
	lbu	a3, 5(a2)
	lbu	a5, 4(a2)
	lbu	a1, 6(a2)
	lbu	a2, 7(a2)
	slli	a3, a3, 8
	or	a3, a3, a5
	slli	a1, a1, 16
	slli	a2, a2, 24
	or	a1, a1, a2
	or	a2, a4, a6
	sb	zero, 0(s0)
	sb	zero, 1(s0)
	sb	zero, 2(s0)
	sb	zero, 3(s0)
	or	a0, a0, a7
	or	a1, a1, a3
	slli	a1, a1, 32
	or	a0, a0, a1
	sd	a0, 88(sp)
	sw	a2, 96(sp)
	sd	a0, 72(sp)
	sw	a2, 80(sp)
	sd	a0, 56(sp)
	sw	a2, 64(sp)
	sd	a0, 40(sp)
	sw	a2, 48(sp)
	sd	a0, 24(sp)
	sw	a2, 32(sp)
	sd	a0, 8(sp)
	sw	a2, 16(sp)
	addi	a0, s0, 4
	addi	a1, sp, 88
	li	a2, 12
	la	t1, memcpy
	jalr	t1
	li	a0, 1
	sb	a0, 16(s0)
	sb	zero, 17(s0)
	sb	zero, 18(s0)
	sb	zero, 19(s0)
	addi	a0, s0, 20
	addi	a1, sp, 72
	li	a2, 12
	la	t1, memcpy
	jalr	t1
	li	a0, 2
	sb	a0, 32(s0)
	sb	zero, 33(s0)
	sb	zero, 34(s0)
	sb	zero, 35(s0)
	addi	a0, s0, 36
	addi	a1, sp, 56
	li	a2, 12
	la	t1, memcpy
	jalr	t1
	li	a0, 3
	sb	a0, 48(s0)
	sb	zero, 49(s0)
	sb	zero, 50(s0)
	sb	zero, 51(s0)
	addi	a0, s0, 52
	addi	a1, sp, 40
	li	a2, 12
	la	t1, memcpy
	jalr	t1
	li	a0, 4
	sb	a0, 64(s0)
	sb	zero, 65(s0)
	sb	zero, 66(s0)
	sb	zero, 67(s0)
	addi	a0, s0, 68
	addi	a1, sp, 24
	li	a2, 12
	la	t1, memcpy
	jalr	t1
	li	a0, 5
	sb	a0, 80(s0)
	sb	zero, 81(s0)
	sb	zero, 82(s0)
	sb	zero, 83(s0)
	addi	a0, s0, 84
	addi	a1, sp, 8
	li	a2, 12
	la	t1, memcpy
	jalr	t1
	li	s3, 0
	srli	s4, s2, 3
	li	a0, 104
	addi	s4, s4, 2
	bltu	s2, a0, .Lgcm_BB40_2
# %bb.1:                                # %join.6.i.i
	lbu	a7, 8(s1)
	lbu	t0, 9(s1)
	lbu	a2, 10(s1)
	lbu	a3, 11(s1)
	lbu	a6, 12(s1)
	lbu	t1, 13(s1)
	lbu	t2, 14(s1)
	lbu	t3, 15(s1)
	andi	a1, s4, 7
	sltiu	a5, a1, 6
	neg	a5, a5
	and	t4, a5, a1
	slli	t0, t0, 8
	slli	a2, a2, 16
	slli	a3, a3, 24
	or	a7, t0, a7
	or	t0, a3, a2
	lbu	a3, 0(s1)
	lbu	a4, 1(s1)
	lbu	a0, 2(s1)
	lbu	a5, 3(s1)
	slli	t1, t1, 8
	slli	t2, t2, 16
	slli	t3, t3, 24
	slli	a4, a4, 8
	slli	a0, a0, 16
	slli	a5, a5, 24
	or	a6, t1, a6
	or	t1, t3, t2
	or	a3, a3, a4
	or	a0, a0, a5
	lbu	a4, 5(s1)
	lbu	a5, 4(s1)
	lbu	a1, 6(s1)
	lbu	a2, 7(s1)
	slli	a4, a4, 8
	or	a4, a4, a5
	slli	a1, a1, 16
	slli	a2, a2, 24
	or	a1, a1, a2
	or	a2, t0, a7
	or	a5, t1, a6
	or	a0, a0, a3
	or	a1, a1, a4
	slli	a5, a5, 32
	slli	a3, a1, 32
	or	a1, a5, a2
	or	a0, a0, a3
	sub	s3, s4, t4
	mv	a2, s0
	mv	a3, s3
	call	gcm.aes_hybrid.batches.process_on_planes
.Lgcm_BB40_2:                               # %"aes_hybrid::borrowed_cipher::BorrowedCipher::process_blocks::<#19237d6279b3cf3a>.exit"
	lbu	a0, 16(s1)
	lbu	a1, 17(s1)
	lbu	a2, 18(s1)
	lbu	a3, 19(s1)
	lbu	a4, 20(s1)
	lbu	a5, 21(s1)
	lbu	a6, 22(s1)
	lbu	a7, 23(s1)
	slli	a1, a1, 8
	slli	a2, a2, 16
	slli	a3, a3, 24
	slli	a5, a5, 8
	or	t0, a1, a0
	or	t1, a3, a2
	or	t2, a5, a4
	lbu	a1, 24(s1)
	lbu	a3, 25(s1)
	lbu	a5, 26(s1)
	lbu	a0, 27(s1)
	slli	a6, a6, 16
	slli	a7, a7, 24
	slli	a3, a3, 8
	slli	a5, a5, 16
	slli	a0, a0, 24
	or	a7, a7, a6
	or	a6, a3, a1
	or	a2, a0, a5
	lbu	a3, 29(s1)
	lbu	a5, 28(s1)
	lbu	a4, 30(s1)
	lbu	s1, 31(s1)
	slli	a3, a3, 8
	or	a0, a3, a5
	slli	a4, a4, 16
	slli	s1, s1, 24
	or	a4, a4, s1
	or	s1, t1, t0
	or	a1, a7, t2
	or	a5, a2, a6
	sub	a3, s4, s3
	slli	a2, s3, 4
	add	a2, a2, s0
	or	a0, a0, a4
	slli	a1, a1, 32
	slli	a4, a0, 32
	or	a0, a1, s1
	or	a1, a4, a5
	call	gcm.aes_permute.blocks.process_on_lanes
	lbu	a6, 16(s0)
	lbu	t3, 17(s0)
	lbu	t4, 18(s0)
	lbu	t5, 19(s0)
	lbu	a4, 20(s0)
	lbu	a5, 21(s0)
	lbu	s1, 22(s0)
	lbu	t6, 23(s0)
	lbu	a7, 32(s0)
	lbu	t0, 33(s0)
	lbu	t1, 34(s0)
	lbu	t2, 35(s0)
	lbu	a1, 36(s0)
	lbu	a2, 37(s0)
	lbu	a3, 38(s0)
	lbu	a0, 39(s0)
	sb	a4, 12(s0)
	sb	a5, 13(s0)
	sb	s1, 14(s0)
	sb	t6, 15(s0)
	lbu	s2, 48(s0)
	lbu	s3, 49(s0)
	lbu	s4, 50(s0)
	lbu	t6, 51(s0)
	sb	a6, 8(s0)
	sb	t3, 9(s0)
	sb	t4, 10(s0)
	sb	t5, 11(s0)
	lbu	a4, 52(s0)
	lbu	a5, 53(s0)
	lbu	s1, 54(s0)
	lbu	a6, 55(s0)
	sb	a1, 20(s0)
	sb	a2, 21(s0)
	sb	a3, 22(s0)
	sb	a0, 23(s0)
	lbu	t3, 64(s0)
	lbu	t4, 65(s0)
	lbu	t5, 66(s0)
	lbu	s5, 67(s0)
	sb	a7, 16(s0)
	sb	t0, 17(s0)
	sb	t1, 18(s0)
	sb	t2, 19(s0)
	lbu	t2, 68(s0)
	lbu	a1, 69(s0)
	lbu	a2, 70(s0)
	lbu	a3, 71(s0)
	sb	a4, 28(s0)
	sb	a5, 29(s0)
	sb	s1, 30(s0)
	sb	a6, 31(s0)
	lbu	a7, 80(s0)
	lbu	t0, 81(s0)
	lbu	t1, 82(s0)
	lbu	a6, 83(s0)
	sb	s2, 24(s0)
	sb	s3, 25(s0)
	sb	s4, 26(s0)
	sb	t6, 27(s0)
	lbu	a4, 84(s0)
	lbu	a5, 85(s0)
	lbu	s1, 86(s0)
	lbu	a0, 87(s0)
	sb	t2, 36(s0)
	sb	a1, 37(s0)
	sb	a2, 38(s0)
	sb	a3, 39(s0)
	sb	t3, 32(s0)
	sb	t4, 33(s0)
	sb	t5, 34(s0)
	sb	s5, 35(s0)
	sb	a4, 44(s0)
	sb	a5, 45(s0)
	sb	s1, 46(s0)
	sb	a0, 47(s0)
	sb	a7, 40(s0)
	sb	t0, 41(s0)
	sb	t1, 42(s0)
	sb	a6, 43(s0)
	ld	ra, 152(sp)                     # 8-byte Folded Reload
	ld	s0, 144(sp)                     # 8-byte Folded Reload
	ld	s1, 136(sp)                     # 8-byte Folded Reload
	ld	s2, 128(sp)                     # 8-byte Folded Reload
	ld	s3, 120(sp)                     # 8-byte Folded Reload
	ld	s4, 112(sp)                     # 8-byte Folded Reload
	ld	s5, 104(sp)                     # 8-byte Folded Reload
	addi	sp, sp, 160
	ret
.Lgcm_func_end40:
	.size	gcm.gcm_siv.keys.derive, .Lgcm_func_end40-gcm.gcm_siv.keys.derive
                                        # -- End function
	.section	.text.gcm.aes_cipher.zeroize.elements.zeroize_elements.4,"ax",@progbits
	.p2align	1                               # -- Begin function aes_cipher::zeroize::elements::zeroize_elements::<#82a118249f09cfc6>
	.type	gcm.aes_cipher.zeroize.elements.zeroize_elements.4,@function
gcm.aes_cipher.zeroize.elements.zeroize_elements.4: # @gcm.aes_cipher.zeroize.elements.zeroize_elements.4
# %bb.0:                                # %start
	addi	sp, sp, -32
	li	a6, 0
	vsetivli	zero, 2, e64, m1, ta, ma
	vmv.v.i	v8, 0
	addi	a2, sp, 16
	sd	zero, 8(sp)
	vse64.v	v8, (a2)
	#APP
	#NO_APP
	fence	rw, rw
	ld	a3, 8(sp)
	fence	r, rw
	#APP
	#NO_APP
	slli	a7, a3, 4
	bgeu	a3, a1, .Lgcm_BB41_2
# %bb.1:                                # %then.1.i6
	add	a2, a0, a7
	lbu	a6, 0(a2)
.Lgcm_BB41_2:                               # %"aes_cipher::zeroize::observe::<#aefc49fcc22ee515>.exit10"
	slli	a5, a1, 4
	add	a5, a5, a0
	mv	a2, a0
	vsetivli	zero, 16, e8, m1, ta, ma
.Lgcm_BB41_3:                               # %join.6.i
                                        # =>This Inner Loop Header: Depth=1
	addi	a4, sp, 16
	vle8.v	v8, (a4)
	vse8.v	v8, (a2)
	addi	a2, a2, 16
	bne	a2, a5, .Lgcm_BB41_3
# %bb.4:                                # %"aes_cipher::zeroize::overwrite::<#8c2be25e1e7027ab>.exit"
	bgeu	a3, a1, .Lgcm_BB41_6
# %bb.5:                                # %then.1.i
	add	a0, a0, a7
	lbu	a0, 0(a0)
	and	a0, a0, a6
	#APP
	#NO_APP
	addi	a1, sp, 8
	amoswap.d.aqrl	zero, a0, (a1)
	#APP
	#NO_APP
	addi	sp, sp, 32
	ret
.Lgcm_BB41_6:
	#APP
	#NO_APP
	addi	a1, sp, 8
	amoswap.d.aqrl	zero, zero, (a1)
	#APP
	#NO_APP
	addi	sp, sp, 32
	ret
.Lgcm_func_end41:
	.size	gcm.aes_cipher.zeroize.elements.zeroize_elements.4, .Lgcm_func_end41-gcm.aes_cipher.zeroize.elements.zeroize_elements.4
                                        # -- End function
	.section	.text.gcm.gcm_siv.message.open.1,"ax",@progbits
	.p2align	1                               # -- Begin function gcm_siv::message::open::<#f940bb35374b8583>
	.type	gcm.gcm_siv.message.open.1,@function
gcm.gcm_siv.message.open.1: # @gcm.gcm_siv.message.open.1
# %bb.0:                                # %start
	addi	sp, sp, -96
	sd	ra, 88(sp)                      # 8-byte Folded Spill
	sd	s0, 80(sp)                      # 8-byte Folded Spill
	sd	s1, 72(sp)                      # 8-byte Folded Spill
	sd	s2, 64(sp)                      # 8-byte Folded Spill
	sd	s3, 56(sp)                      # 8-byte Folded Spill
	sd	s4, 48(sp)                      # 8-byte Folded Spill
	sd	s5, 40(sp)                      # 8-byte Folded Spill
	sd	s6, 32(sp)                      # 8-byte Folded Spill
	sd	s7, 24(sp)                      # 8-byte Folded Spill
	sd	s8, 16(sp)                      # 8-byte Folded Spill
	mv	s3, a7
	mv	s2, a6
	mv	s8, a5
	mv	s4, a4
	mv	s5, a3
	mv	s6, a2
	mv	s7, a1
	mv	s1, a0
	mv	a1, a7
	mv	a2, a5
	mv	a3, a6
	call	gcm.gcm_siv.message.process_text
	vsetivli	zero, 2, e64, m1, ta, ma
	vmv.v.i	v8, 0
	mv	a0, sp
	vse64.v	v8, (a0)
	mv	a7, sp
	mv	a0, s1
	mv	a1, s7
	mv	a2, s6
	mv	a3, s5
	mv	a4, s4
	mv	a5, s8
	mv	a6, s2
	call	gcm.gcm_siv.message.put_tag.1
	mv	a1, sp
	mv	a0, s3
	call	gcm.aes_cipher.blocks.difference
	slli	a0, a0, 32
	srli	s0, a0, 32
	mv	a0, sp
	li	a1, 1
	call	gcm.aes_cipher.zeroize.elements.zeroize_elements.4
	beqz	s0, .Lgcm_BB42_2
# %bb.1:                                # %join.3
	mv	a0, s1
	mv	a1, s3
	mv	a2, s8
	mv	a3, s2
	call	gcm.gcm_siv.message.process_text
.Lgcm_BB42_2:                               # %common.ret
	seqz	a0, s0
	ld	ra, 88(sp)                      # 8-byte Folded Reload
	ld	s0, 80(sp)                      # 8-byte Folded Reload
	ld	s1, 72(sp)                      # 8-byte Folded Reload
	ld	s2, 64(sp)                      # 8-byte Folded Reload
	ld	s3, 56(sp)                      # 8-byte Folded Reload
	ld	s4, 48(sp)                      # 8-byte Folded Reload
	ld	s5, 40(sp)                      # 8-byte Folded Reload
	ld	s6, 32(sp)                      # 8-byte Folded Reload
	ld	s7, 24(sp)                      # 8-byte Folded Reload
	ld	s8, 16(sp)                      # 8-byte Folded Reload
	addi	sp, sp, 96
	ret
.Lgcm_func_end42:
	.size	gcm.gcm_siv.message.open.1, .Lgcm_func_end42-gcm.gcm_siv.message.open.1
                                        # -- End function
	.section	.rodata.cst16,"aM",@progbits,16
	.p2align	4, 0x0                          # -- Begin function gcm_siv::message::put_tag::<#f940bb35374b8583>
.Lgcm_CPI43_0:
	.byte	0                               # 0x0
	.byte	1                               # 0x1
	.byte	28                              # 0x1c
	.byte	29                              # 0x1d
	.byte	45                              # 0x2d
	.byte	44                              # 0x2c
	.byte	49                              # 0x31
	.byte	48                              # 0x30
	.byte	39                              # 0x27
	.byte	38                              # 0x26
	.byte	59                              # 0x3b
	.byte	58                              # 0x3a
	.byte	10                              # 0xa
	.byte	11                              # 0xb
	.byte	22                              # 0x16
	.byte	23                              # 0x17
.Lgcm_CPI43_1:
	.byte	0                               # 0x0
	.byte	134                             # 0x86
	.byte	253                             # 0xfd
	.byte	123                             # 0x7b
	.byte	142                             # 0x8e
	.byte	8                               # 0x8
	.byte	115                             # 0x73
	.byte	245                             # 0xf5
	.byte	119                             # 0x77
	.byte	241                             # 0xf1
	.byte	138                             # 0x8a
	.byte	12                              # 0xc
	.byte	249                             # 0xf9
	.byte	127                             # 0x7f
	.byte	4                               # 0x4
	.byte	130                             # 0x82
.Lgcm_CPI43_2:
	.byte	128                             # 0x80
	.byte	2                               # 0x2
	.byte	1                               # 0x1
	.byte	15                              # 0xf
	.byte	9                               # 0x9
	.byte	5                               # 0x5
	.byte	14                              # 0xe
	.byte	12                              # 0xc
	.byte	13                              # 0xd
	.byte	4                               # 0x4
	.byte	11                              # 0xb
	.byte	10                              # 0xa
	.byte	7                               # 0x7
	.byte	8                               # 0x8
	.byte	6                               # 0x6
	.byte	3                               # 0x3
.Lgcm_CPI43_3:
	.byte	128                             # 0x80
	.byte	1                               # 0x1
	.byte	9                               # 0x9
	.byte	14                              # 0xe
	.byte	13                              # 0xd
	.byte	11                              # 0xb
	.byte	7                               # 0x7
	.byte	6                               # 0x6
	.byte	15                              # 0xf
	.byte	2                               # 0x2
	.byte	12                              # 0xc
	.byte	5                               # 0x5
	.byte	10                              # 0xa
	.byte	4                               # 0x4
	.byte	3                               # 0x3
	.byte	8                               # 0x8
.Lgcm_CPI43_4:
	.byte	0                               # 0x0
	.byte	195                             # 0xc3
	.byte	79                              # 0x4f
	.byte	12                              # 0xc
	.byte	252                             # 0xfc
	.byte	124                             # 0x7c
	.byte	67                              # 0x43
	.byte	128                             # 0x80
	.byte	207                             # 0xcf
	.byte	51                              # 0x33
	.byte	63                              # 0x3f
	.byte	112                             # 0x70
	.byte	191                             # 0xbf
	.byte	179                             # 0xb3
	.byte	240                             # 0xf0
	.byte	140                             # 0x8c
.Lgcm_CPI43_5:
	.byte	0                               # 0x0
	.byte	230                             # 0xe6
	.byte	114                             # 0x72
	.byte	183                             # 0xb7
	.byte	229                             # 0xe5
	.byte	198                             # 0xc6
	.byte	197                             # 0xc5
	.byte	35                              # 0x23
	.byte	81                              # 0x51
	.byte	180                             # 0xb4
	.byte	3                               # 0x3
	.byte	113                             # 0x71
	.byte	32                              # 0x20
	.byte	151                             # 0x97
	.byte	82                              # 0x52
	.byte	148                             # 0x94
.Lgcm_CPI43_6:
	.byte	0                               # 0x0
	.byte	124                             # 0x7c
	.byte	32                              # 0x20
	.byte	207                             # 0xcf
	.byte	146                             # 0x92
	.byte	1                               # 0x1
	.byte	239                             # 0xef
	.byte	147                             # 0x93
	.byte	179                             # 0xb3
	.byte	33                              # 0x21
	.byte	238                             # 0xee
	.byte	206                             # 0xce
	.byte	125                             # 0x7d
	.byte	178                             # 0xb2
	.byte	93                              # 0x5d
	.byte	92                              # 0x5c
.Lgcm_CPI43_7:
	.byte	0                               # 0x0
	.byte	209                             # 0xd1
	.byte	229                             # 0xe5
	.byte	247                             # 0xf7
	.byte	230                             # 0xe6
	.byte	37                              # 0x25
	.byte	18                              # 0x12
	.byte	195                             # 0xc3
	.byte	38                              # 0x26
	.byte	192                             # 0xc0
	.byte	55                              # 0x37
	.byte	210                             # 0xd2
	.byte	244                             # 0xf4
	.byte	3                               # 0x3
	.byte	17                              # 0x11
	.byte	52                              # 0x34
.Lgcm_CPI43_8:
	.byte	0                               # 0x0
	.byte	203                             # 0xcb
	.byte	215                             # 0xd7
	.byte	176                             # 0xb0
	.byte	33                              # 0x21
	.byte	141                             # 0x8d
	.byte	103                             # 0x67
	.byte	172                             # 0xac
	.byte	123                             # 0x7b
	.byte	90                              # 0x5a
	.byte	234                             # 0xea
	.byte	61                              # 0x3d
	.byte	70                              # 0x46
	.byte	246                             # 0xf6
	.byte	145                             # 0x91
	.byte	28                              # 0x1c
.Lgcm_CPI43_9:
	.byte	0                               # 0x0
	.byte	159                             # 0x9f
	.byte	97                              # 0x61
	.byte	22                              # 0x16
	.byte	194                             # 0xc2
	.byte	42                              # 0x2a
	.byte	119                             # 0x77
	.byte	232                             # 0xe8
	.byte	137                             # 0x89
	.byte	75                              # 0x4b
	.byte	93                              # 0x5d
	.byte	60                              # 0x3c
	.byte	181                             # 0xb5
	.byte	163                             # 0xa3
	.byte	212                             # 0xd4
	.byte	254                             # 0xfe
	.section	.text.gcm.gcm_siv.message.put_tag.1,"ax",@progbits
	.p2align	1
	.type	gcm.gcm_siv.message.put_tag.1,@function
gcm.gcm_siv.message.put_tag.1: # @gcm.gcm_siv.message.put_tag.1
# %bb.0:                                # %start
	addi	sp, sp, -160
	sd	ra, 152(sp)                     # 8-byte Folded Spill
	sd	s0, 144(sp)                     # 8-byte Folded Spill
	sd	s1, 136(sp)                     # 8-byte Folded Spill
	sd	s2, 128(sp)                     # 8-byte Folded Spill
	sd	s3, 120(sp)                     # 8-byte Folded Spill
	sd	s4, 112(sp)                     # 8-byte Folded Spill
	sd	s5, 104(sp)                     # 8-byte Folded Spill
	sd	s6, 96(sp)                      # 8-byte Folded Spill
	sd	s7, 88(sp)                      # 8-byte Folded Spill
	sd	s8, 80(sp)                      # 8-byte Folded Spill
	sd	s9, 72(sp)                      # 8-byte Folded Spill
	sd	s10, 64(sp)                     # 8-byte Folded Spill
	sd	s11, 56(sp)                     # 8-byte Folded Spill
	csrr	t1, vlenb
	li	t2, 3
	slli	t2, t2, 10
.Lgcm_BB43_1:                               # %start
                                        # =>This Inner Loop Header: Depth=1
	sub	sp, sp, t2
	sd	zero, 0(sp)
	sub	t1, t1, t2
	bge	t1, t2, .Lgcm_BB43_1
# %bb.2:                                # %start
	sub	sp, sp, t1
	mv	s2, a7
	mv	s5, a6
	mv	s6, a5
	mv	s8, a4
	mv	s7, a3
	mv	s4, a2
	mv	s9, a1
	mv	s3, a0
	srli	a0, a4, 4
	vsetivli	zero, 16, e8, m1, ta, ma
	vmv.v.i	v8, 0
	beqz	a0, .Lgcm_BB43_15
# %bb.3:                                # %join.5.i.i.i.i.preheader
	slli	a0, a0, 4
	add	s10, s7, a0
	vmv.v.i	v11, 0
	mv	s1, s7
.Lgcm_BB43_4:                               # %join.5.i.i.i.i
                                        # =>This Inner Loop Header: Depth=1
	vle8.v	v8, (s1)
	vid.v	v9
	vrsub.vi	v9, v9, 15
	vrgather.vv	v10, v8, v9
	vsetivli	zero, 2, e64, m1, ta, ma
	vmv.v.i	v8, 0
	addi	s0, sp, 16
	vse64.v	v8, (s0)
	vsetivli	zero, 16, e8, m1, ta, ma
	vxor.vv	v8, v10, v11
	addi	a0, sp, 16
	mv	a1, s9
	call	gcm.gcm.multiples.Table.product
	vsetivli	zero, 16, e8, m1, ta, ma
	vle8.v	v11, (s0)
	addi	s1, s1, 16
	bne	s1, s10, .Lgcm_BB43_4
# %bb.5:                                # %"gcm::single_blocks::hash_whole::<#a9149335c466a3fd>.exit.i.i.i"
	andi	s0, s8, 15
	beqz	s0, .Lgcm_BB43_7
.Lgcm_BB43_6:                               # %join.3.i.i.i
	andi	a0, s8, -16
	li	a2, 16
	addi	s1, sp, 16
	add	s7, s7, a0
	sub	a2, a2, s0
	or	a0, s1, s0
	li	a1, 0
	addi	a3, sp, 48
	vs1r.v	v11, (a3)                       # vscale x 8-byte Folded Spill
	la	t1, memset
	jalr	t1
	addi	a0, sp, 16
	mv	a1, s7
	mv	a2, s0
	la	t1, memcpy
	jalr	t1
	vsetivli	zero, 16, e8, m1, ta, ma
	vle8.v	v8, (s1)
	vid.v	v9
	vrsub.vi	v9, v9, 15
	vrgather.vv	v10, v8, v9
	vsetivli	zero, 2, e64, m1, ta, ma
	vmv.v.i	v8, 0
	vse64.v	v8, (s1)
	addi	a0, sp, 48
	vl1r.v	v8, (a0)                        # vscale x 8-byte Folded Reload
	vsetivli	zero, 16, e8, m1, ta, ma
	vxor.vv	v8, v10, v8
	addi	a0, sp, 16
	mv	a1, s9
	call	gcm.gcm.multiples.Table.product
	vsetivli	zero, 16, e8, m1, ta, ma
	vle8.v	v11, (s1)
.Lgcm_BB43_7:                               # %"gcm::single_blocks::hash_singly::<#a9149335c466a3fd>.exit.i.i"
	srli	a0, s5, 4
	beqz	a0, .Lgcm_BB43_10
# %bb.8:                                # %join.5.i.i12.i.i.preheader
	slli	a0, a0, 4
	add	s7, s6, a0
	mv	s1, s6
.Lgcm_BB43_9:                               # %join.5.i.i12.i.i
                                        # =>This Inner Loop Header: Depth=1
	vle8.v	v8, (s1)
	vid.v	v9
	vrsub.vi	v9, v9, 15
	vrgather.vv	v10, v8, v9
	vsetivli	zero, 2, e64, m1, ta, ma
	vmv.v.i	v8, 0
	addi	s0, sp, 16
	vse64.v	v8, (s0)
	vsetivli	zero, 16, e8, m1, ta, ma
	vxor.vv	v8, v10, v11
	addi	a0, sp, 16
	mv	a1, s9
	call	gcm.gcm.multiples.Table.product
	vsetivli	zero, 16, e8, m1, ta, ma
	vle8.v	v11, (s0)
	addi	s1, s1, 16
	bne	s1, s7, .Lgcm_BB43_9
.Lgcm_BB43_10:                              # %"gcm::single_blocks::hash_whole::<#a9149335c466a3fd>.exit.i23.i.i"
	andi	s0, s5, 15
	addi	s7, s3, 4
	beqz	s0, .Lgcm_BB43_12
# %bb.11:                               # %join.3.i27.i.i
	andi	a0, s5, -16
	li	a2, 16
	addi	s1, sp, 16
	add	s6, s6, a0
	sub	a2, a2, s0
	or	a0, s1, s0
	li	a1, 0
	addi	a3, sp, 48
	vs1r.v	v11, (a3)                       # vscale x 8-byte Folded Spill
	la	t1, memset
	jalr	t1
	addi	a0, sp, 16
	mv	a1, s6
	mv	a2, s0
	la	t1, memcpy
	jalr	t1
	vsetivli	zero, 16, e8, m1, ta, ma
	vle8.v	v8, (s1)
	vid.v	v9
	vrsub.vi	v9, v9, 15
	vrgather.vv	v10, v8, v9
	vsetivli	zero, 2, e64, m1, ta, ma
	vmv.v.i	v8, 0
	vse64.v	v8, (s1)
	addi	a0, sp, 48
	vl1r.v	v8, (a0)                        # vscale x 8-byte Folded Reload
	vsetivli	zero, 16, e8, m1, ta, ma
	vxor.vv	v8, v10, v8
	addi	a0, sp, 16
	mv	a1, s9
	call	gcm.gcm.multiples.Table.product
	vsetivli	zero, 16, e8, m1, ta, ma
	vle8.v	v11, (s1)
.Lgcm_BB43_12:                              # %"gcm_siv::hash::TableRoomPolyvalRoom::hash.exit"
	slli	a6, s8, 3
	slli	a7, s5, 3
	srli	t0, s8, 5
	srli	t1, s8, 13
	srli	t3, s8, 21
	srli	t5, s8, 29
	srli	s1, s8, 37
	srli	s0, s8, 45
	srli	a0, s8, 53
	srli	t2, s5, 5
	srli	t4, s5, 13
	srli	a3, s5, 21
	srli	a1, s5, 29
	srli	a4, s5, 37
	srli	a2, s5, 45
	srli	a5, s5, 53
	vmv.v.x	v8, a0
	li	s5, 255
	vmv.v.x	v9, a5
	vsetvli	zero, zero, e16, m2, ta, ma
	vmv.s.x	v0, s5
	vsetvli	zero, zero, e8, m1, ta, mu
	vslide1down.vx	v8, v8, s0
	vslide1down.vx	v9, v9, a2
	vslide1down.vx	v8, v8, s1
	vslide1down.vx	v9, v9, a4
	vslide1down.vx	v8, v8, t5
	vslide1down.vx	v9, v9, a1
	vslide1down.vx	v8, v8, t3
	vslide1down.vx	v9, v9, a3
	vslide1down.vx	v8, v8, t1
	vslide1down.vx	v9, v9, t4
	vslide1down.vx	v8, v8, t0
	vslide1down.vx	v9, v9, t2
	vslide1down.vx	v8, v8, a6
	vslide1down.vx	v9, v9, a7
	vslidedown.vi	v8, v9, 8, v0.t
	vsetivli	zero, 2, e64, m1, ta, ma
	vmv.v.i	v9, 0
	addi	a0, sp, 16
	vse64.v	v9, (a0)
	vsetivli	zero, 16, e8, m1, ta, ma
	vxor.vv	v8, v11, v8
	mv	a1, s9
	call	gcm.gcm.multiples.Table.product
	vsetivli	zero, 1, e16, m1, ta, ma
	vmv.s.x	v0, s5
	ld	s6, 16(sp)
	ld	s8, 24(sp)
	lui	a7, 4080
	slli	s5, s5, 24
	lui	a6, 16
	vsetivli	zero, 8, e8, mf2, ta, ma
	vle8.v	v10, (s4)
	addi	s4, s4, 8
	vsetivli	zero, 16, e8, m1, ta, ma
	vmv.v.i	v8, -1
	li	t1, 127
.Lgcm_pcrel_hi101:
	auipc	s1, %pcrel_hi(.Lgcm_CPI43_0)
.Lgcm_pcrel_hi102:
	auipc	s0, %pcrel_hi(.Lgcm_CPI43_1)
.Lgcm_pcrel_hi103:
	auipc	t0, %pcrel_hi(.Lgcm_CPI43_2)
.Lgcm_pcrel_hi104:
	auipc	t2, %pcrel_hi(.Lgcm_CPI43_3)
.Lgcm_pcrel_hi105:
	auipc	t3, %pcrel_hi(.Lgcm_CPI43_4)
.Lgcm_pcrel_hi106:
	auipc	t4, %pcrel_hi(.Lgcm_CPI43_5)
.Lgcm_pcrel_hi107:
	auipc	t5, %pcrel_hi(.Lgcm_CPI43_6)
.Lgcm_pcrel_hi108:
	auipc	t6, %pcrel_hi(.Lgcm_CPI43_7)
	addi	a4, a6, -256
	vsetivli	zero, 4, e8, mf4, ta, ma
	vle8.v	v12, (s4)
	vsetivli	zero, 16, e8, m1, ta, ma
	vslide1down.vx	v11, v8, t1
	addi	s1, s1, %pcrel_lo(.Lgcm_pcrel_hi101)
	addi	s0, s0, %pcrel_lo(.Lgcm_pcrel_hi102)
	vle8.v	v9, (s1)
	vle8.v	v8, (s0)
	srli	a0, s6, 24
	srli	a2, s6, 8
	srli	a6, s6, 40
	srli	a3, s6, 56
	and	s1, s6, a7
	srliw	s0, s6, 24
	srli	a1, s8, 8
	and	a2, a2, s5
	and	a1, a1, s5
	and	a5, s6, a4
	and	a0, a0, a7
	or	s4, a2, a0
	slli	a0, s6, 56
	slli	s1, s1, 24
	slli	s0, s0, 32
	or	s9, s1, s0
	srli	s1, s8, 24
	slli	a5, a5, 40
	or	t1, a0, a5
	srli	a5, s8, 40
	and	s1, s1, a7
	or	s5, a1, s1
	srli	s1, s8, 56
	and	a0, s8, a7
	and	a5, a5, a4
	or	a1, a5, s1
	srliw	s1, s8, 24
	and	a2, a6, a4
	and	a4, s8, a4
	slli	a0, a0, 24
	slli	s1, s1, 32
	or	a0, a0, s1
	slli	s1, s8, 56
	zext.b	a6, s8
	vmv.v.i	v13, 0
	vsetivli	zero, 8, e8, m1, tu, ma
	vmv.v.v	v13, v10
	slli	a4, a4, 40
	or	a2, a2, a3
	slli	s0, a3, 56
	vsetivli	zero, 12, e8, m1, tu, ma
	vslideup.vi	v13, v12, 8
	or	a5, s1, a4
	or	s1, s4, a2
	or	a3, t1, s9
	or	a1, s5, a1
	or	a4, a5, a0
	slli	a2, a2, 48
	srli	a7, a5, 48
	or	a1, a1, a4
	slli	a5, s1, 32
	srli	a0, a4, 32
	or	s4, a0, a5
	srli	a5, a1, 8
	or	s8, a5, s0
	srli	a5, a1, 16
	or	s5, a5, a2
	or	a5, a3, s1
	slli	s1, s1, 40
	srli	a4, a4, 40
	vsetivli	zero, 16, e8, m1, ta, mu
	vmv.v.x	v10, a1
	srli	a1, a1, 24
	or	s11, a1, s1
	slli	a1, a5, 24
	or	s9, a4, a1
	slli	a1, a5, 16
	or	a7, a7, a1
	slli	a1, a5, 8
	or	s10, a6, a1
	srli	a1, a5, 8
	vmv.v.x	v12, a5
	vslide1down.vx	v12, v12, a1
	srli	a1, a5, 16
	vslide1down.vx	v12, v12, a1
	addi	a1, s7, 16
	addi	a0, t0, %pcrel_lo(.Lgcm_pcrel_hi103)
	addi	ra, t2, %pcrel_lo(.Lgcm_pcrel_hi104)
	addi	a4, t3, %pcrel_lo(.Lgcm_pcrel_hi105)
	addi	a6, t4, %pcrel_lo(.Lgcm_pcrel_hi106)
	addi	t0, t5, %pcrel_lo(.Lgcm_pcrel_hi107)
	addi	t2, t6, %pcrel_lo(.Lgcm_pcrel_hi108)
	zext.b	a2, s6
	srli	s1, t1, 48
	vslide1down.vx	v10, v10, s8
	srli	s0, a3, 32
	srli	a3, a3, 40
	srli	a5, a5, 24
	vslide1down.vx	v12, v12, a5
	vslide1down.vx	v10, v10, s5
	vslide1down.vx	v12, v12, s0
	vslide1down.vx	v10, v10, s11
	vslide1down.vx	v12, v12, a3
	vslide1down.vx	v10, v10, s4
	vslide1down.vx	v12, v12, s1
	vslide1down.vx	v10, v10, s9
	vslide1down.vx	v12, v12, a2
	vslide1down.vx	v10, v10, a7
	vslide1down.vx	v10, v10, s10
	vslidedown.vi	v12, v10, 8, v0.t
	vxor.vv	v10, v12, v13
	vand.vv	v13, v10, v11
	vse8.v	v13, (s2)
	vle8.v	v14, (s7)
	vle8.v	v11, (a0)
	vle8.v	v10, (ra)
	vle8.v	v12, (a4)
	vxor.vv	v14, v14, v13
	vand.vi	v13, v14, 15
	vrgather.vv	v15, v9, v13
	vle8.v	v13, (a6)
	lwu	a0, 0(s3)
	vsrl.vi	v9, v14, 4
	vrgather.vv	v16, v8, v9
	vle8.v	v14, (t0)
	vxor.vv	v8, v16, v15
	vle8.v	v15, (t2)
	srli	a2, a0, 2
	addi	a0, a2, 6
	slli	a2, a2, 4
	addi	a2, a2, 96
	li	a3, 16
.Lgcm_BB43_13:                              # %join.5.i.i
                                        # =>This Inner Loop Header: Depth=1
	andi	a4, a3, 48
.Lgcm_pcrel_hi109:
	auipc	a5, %pcrel_hi(.Lgcm_static.5)
.Lgcm_pcrel_hi110:
	auipc	s1, %pcrel_hi(.Lgcm_static.6)
	addi	a5, a5, %pcrel_lo(.Lgcm_pcrel_hi109)
	addi	s1, s1, %pcrel_lo(.Lgcm_pcrel_hi110)
	add	a5, a5, a4
	add	a4, a4, s1
	vsetvli	zero, zero, e8, m1, ta, ma
	vle8.v	v16, (a1)
	vsrl.vi	v9, v8, 4
	vand.vi	v8, v8, 15
	addi	a3, a3, 16
	vxor.vv	v17, v9, v8
	vrgather.vv	v18, v11, v8
	vrgather.vv	v8, v10, v9
	vrgather.vv	v19, v10, v17
	vxor.vv	v8, v8, v18
	vxor.vv	v18, v19, v18
	vmsle.vi	v0, v8, -1
	vrgather.vv	v19, v10, v8
	vmerge.vim	v8, v19, 0, v0
	vmsle.vi	v0, v18, -1
	vrgather.vv	v19, v10, v18
	vmerge.vim	v18, v19, 0, v0
	vxor.vv	v17, v8, v17
	vmsle.vi	v8, v8, -1
	vxor.vv	v19, v18, v9
	vrgather.vv	v20, v12, v17
	vmsle.vi	v9, v18, -1
	vrgather.vv	v18, v13, v19
	vmv.v.v	v0, v9
	vmerge.vim	v18, v18, 0, v0
	vxor.vv	v20, v18, v20
	vmv.v.v	v0, v8
	vmerge.vvm	v18, v20, v18, v0
	vle8.v	v20, (a5)
	vle8.v	v21, (a4)
	vrgather.vv	v22, v14, v17
	vrgather.vv	v17, v15, v19
	vmv.v.v	v0, v9
	vmerge.vim	v17, v17, 0, v0
	vmsle.vi	v9, v20, -1
	vxor.vv	v19, v17, v22
	vmv.v.v	v0, v8
	vmerge.vvm	v8, v19, v17, v0
	vrgather.vv	v17, v18, v20
	vrgather.vv	v19, v18, v21
	vxor.vv	v17, v8, v17
	vmv.v.v	v0, v9
	vmerge.vvm	v17, v17, v8, v0
	vmsle.vi	v8, v21, -1
	vrgather.vv	v18, v17, v20
	vxor.vv	v18, v16, v18
	vmerge.vvm	v9, v18, v16, v0
	vxor.vv	v16, v9, v19
	vmv.v.v	v0, v8
	vmerge.vvm	v8, v16, v9, v0
	vxor.vv	v8, v8, v17
	addi	a1, a1, 16
	bne	a3, a2, .Lgcm_BB43_13
# %bb.14:                               # %"gcm_c::siv::MessageRoomMessageKey::encrypt_block.exit"
	slli	a0, a0, 4
	vsrl.vi	v9, v8, 4
	vand.vi	v12, v8, 15
	add	s7, s7, a0
	vle8.v	v8, (s7)
.Lgcm_pcrel_hi111:
	auipc	a1, %pcrel_hi(.Lgcm_CPI43_8)
	vxor.vv	v13, v9, v12
	vrgather.vv	v14, v11, v12
	vrgather.vv	v11, v10, v9
	addi	a1, a1, %pcrel_lo(.Lgcm_pcrel_hi111)
	vrgather.vv	v12, v10, v13
	vxor.vv	v11, v11, v14
	vxor.vv	v12, v12, v14
	vmsle.vi	v0, v11, -1
	vrgather.vv	v14, v10, v11
	vmerge.vim	v11, v14, 0, v0
	vle8.v	v14, (a1)
.Lgcm_pcrel_hi112:
	auipc	a1, %pcrel_hi(.Lgcm_CPI43_9)
	vrgather.vv	v15, v10, v12
	vmsle.vi	v0, v12, -1
	addi	a1, a1, %pcrel_lo(.Lgcm_pcrel_hi112)
	vmerge.vim	v10, v15, 0, v0
	vle8.v	v12, (a1)
.Lgcm_pcrel_hi113:
	auipc	a1, %pcrel_hi(.Lgcm_static.3)
	andi	a0, a0, 48
	addi	a1, a1, %pcrel_lo(.Lgcm_pcrel_hi113)
	add	a0, a0, a1
	vxor.vv	v13, v11, v13
	vrgather.vv	v15, v14, v13
	vle8.v	v13, (a0)
	vxor.vv	v9, v10, v9
	vmsle.vi	v0, v10, -1
	vrgather.vv	v10, v12, v9
	vmerge.vim	v9, v10, 0, v0
	vmsle.vi	v0, v11, -1
	vxor.vv	v10, v9, v15
	vmerge.vvm	v9, v10, v9, v0
	vrgather.vv	v10, v9, v13
	vmsle.vi	v0, v13, -1
	vxor.vv	v9, v8, v10
	vmerge.vvm	v8, v9, v8, v0
	vse8.v	v8, (s2)
	csrr	a0, vlenb
	add	sp, sp, a0
	ld	ra, 152(sp)                     # 8-byte Folded Reload
	ld	s0, 144(sp)                     # 8-byte Folded Reload
	ld	s1, 136(sp)                     # 8-byte Folded Reload
	ld	s2, 128(sp)                     # 8-byte Folded Reload
	ld	s3, 120(sp)                     # 8-byte Folded Reload
	ld	s4, 112(sp)                     # 8-byte Folded Reload
	ld	s5, 104(sp)                     # 8-byte Folded Reload
	ld	s6, 96(sp)                      # 8-byte Folded Reload
	ld	s7, 88(sp)                      # 8-byte Folded Reload
	ld	s8, 80(sp)                      # 8-byte Folded Reload
	ld	s9, 72(sp)                      # 8-byte Folded Reload
	ld	s10, 64(sp)                     # 8-byte Folded Reload
	ld	s11, 56(sp)                     # 8-byte Folded Reload
	addi	sp, sp, 160
	ret
.Lgcm_BB43_15:
	vmv1r.v	v11, v8
	andi	s0, s8, 15
	bnez	s0, .Lgcm_BB43_6
	j	.Lgcm_BB43_7
.Lgcm_func_end43:
	.size	gcm.gcm_siv.message.put_tag.1, .Lgcm_func_end43-gcm.gcm_siv.message.put_tag.1
                                        # -- End function
	.section	.text.gcm.gcm.multiples.Table.product,"ax",@progbits
	.p2align	1                               # -- Begin function gcm::multiples::Table::product
	.type	gcm.gcm.multiples.Table.product,@function
gcm.gcm.multiples.Table.product:       # @gcm.gcm.multiples.Table.product
# %bb.0:                                # %start
	addi	a6, a1, 16
	li	t2, 32
	addi	a2, a1, 224
	addi	a4, a1, 480
	addi	a5, a1, 496
	addi	a7, a1, 240
	addi	t1, a1, 192
	addi	a3, a1, 448
	vsetivli	zero, 16, e32, m4, ta, ma
	vle8.v	v18, (a4)
	addi	a4, a1, 464
	vle8.v	v19, (a5)
	addi	t3, a1, 208
	vle8.v	v21, (a2)
	lui	a2, 16352
	vle8.v	v22, (a7)
	lui	a5, 1048560
	vle8.v	v20, (a3)
	addi	t0, a1, 160
	vle8.v	v24, (a4)
	addi	a4, a1, 416
	addi	a2, a2, 1022
	vmv.s.x	v0, a2
	addi	t4, a1, 432
	addi	a5, a5, -2
	vmv.s.x	v10, a5
	addi	a7, a1, 176
	vsetvli	zero, t2, e8, m2, ta, ma
	vmv.v.i	v12, 0
	vmv2r.v	v14, v8
	vsetivli	zero, 16, e8, m1, ta, ma
	vand.vi	v11, v8, 15
	vmv2r.v	v16, v12
	vsetvli	zero, t2, e8, m2, ta, ma
	vslideup.vi	v14, v8, 16
	vsrl.vi	v14, v14, 4
	vsetivli	zero, 16, e8, m2, ta, ma
	vslidedown.vi	v8, v14, 16
	vsetivli	zero, 16, e8, m1, ta, ma
	vrgather.vv	v9, v18, v11
	vrgather.vv	v15, v19, v11
	vrgather.vv	v18, v21, v14
	vrgather.vv	v19, v22, v8
	vxor.vv	v22, v18, v9
	vxor.vv	v18, v19, v15
	vsetvli	zero, t2, e8, m2, ta, mu
	vslideup.vi	v22, v18, 16
	vslidedown.vi	v18, v22, 15
	vslideup.vi	v18, v12, 1, v0.t
	vmv1r.v	v0, v10
	vslideup.vi	v16, v22, 1, v0.t
	vsetivli	zero, 16, e8, m1, ta, ma
	vle8.v	v9, (t1)
	lui	a2, 32736
	vle8.v	v15, (t3)
	addi	t1, a1, 128
	vle8.v	v25, (a4)
	addi	a3, a1, 384
	vrgather.vv	v21, v20, v11
	vrgather.vv	v22, v24, v11
	vrgather.vv	v20, v9, v14
	vrgather.vv	v9, v15, v8
	vxor.vv	v20, v20, v21
	vxor.vv	v22, v9, v22
	vsetvli	zero, t2, e8, m2, ta, ma
	vslideup.vi	v20, v22, 16
	vsetivli	zero, 16, e32, m4, ta, ma
	vle8.v	v9, (t4)
	addi	a5, a1, 400
	addi	a2, a2, 2046
	vmv.s.x	v0, a2
	addi	t3, a1, 144
	vsetvli	zero, t2, e8, m2, ta, mu
	vxor.vv	v20, v20, v16
	vslidedown.vi	v16, v20, 15
	vslideup.vi	v16, v18, 1, v0.t
	vmv2r.v	v18, v12
	vmv1r.v	v0, v10
	vslideup.vi	v18, v20, 1, v0.t
	vsetivli	zero, 16, e8, m1, ta, ma
	vle8.v	v15, (t0)
	lui	a4, 65505
	vle8.v	v20, (a7)
	addi	a7, a1, 96
	vle8.v	v24, (a3)
	addi	a2, a1, 352
	vrgather.vv	v21, v25, v11
	vrgather.vv	v22, v9, v11
	vrgather.vv	v9, v15, v14
	vrgather.vv	v15, v20, v8
	vxor.vv	v20, v9, v21
	vxor.vv	v22, v15, v22
	vsetvli	zero, t2, e8, m2, ta, ma
	vslideup.vi	v20, v22, 16
	vsetivli	zero, 16, e32, m4, ta, ma
	vle8.v	v9, (a5)
	addi	a5, a1, 368
	addi	a4, a4, -2
	vmv.s.x	v0, a4
	addi	t4, a1, 112
	vsetvli	zero, t2, e8, m2, ta, mu
	vxor.vv	v20, v20, v18
	vslidedown.vi	v18, v20, 15
	vslideup.vi	v18, v16, 1, v0.t
	vmv2r.v	v16, v12
	vmv1r.v	v0, v10
	vslideup.vi	v16, v20, 1, v0.t
	vsetivli	zero, 16, e8, m1, ta, ma
	vle8.v	v15, (t1)
	lui	a3, 131042
	vle8.v	v20, (t3)
	addi	t0, a1, 64
	vle8.v	v25, (a2)
	addi	a2, a1, 320
	vrgather.vv	v21, v24, v11
	vrgather.vv	v22, v9, v11
	vrgather.vv	v9, v15, v14
	vrgather.vv	v15, v20, v8
	vxor.vv	v20, v9, v21
	vxor.vv	v22, v15, v22
	vsetvli	zero, t2, e8, m2, ta, ma
	vslideup.vi	v20, v22, 16
	vsetivli	zero, 16, e32, m4, ta, ma
	vle8.v	v9, (a5)
	addi	a4, a1, 336
	addi	a3, a3, -2
	vmv.s.x	v0, a3
	addi	t1, a1, 80
	vsetvli	zero, t2, e8, m2, ta, mu
	vxor.vv	v20, v20, v16
	vslidedown.vi	v16, v20, 15
	vslideup.vi	v16, v18, 1, v0.t
	vmv2r.v	v18, v12
	vmv1r.v	v0, v10
	vslideup.vi	v18, v20, 1, v0.t
	vsetivli	zero, 16, e8, m1, ta, ma
	vle8.v	v15, (a7)
	lui	a3, 262116
	vle8.v	v20, (t4)
	addi	a5, a1, 32
	vle8.v	v24, (a2)
	addi	a7, a1, 288
	vrgather.vv	v21, v25, v11
	vrgather.vv	v22, v9, v11
	vrgather.vv	v9, v15, v14
	vrgather.vv	v15, v20, v8
	vxor.vv	v20, v9, v21
	vxor.vv	v22, v15, v22
	vsetvli	zero, t2, e8, m2, ta, ma
	vslideup.vi	v20, v22, 16
	vsetivli	zero, 16, e32, m4, ta, ma
	vle8.v	v9, (a4)
	addi	t3, a1, 304
	addi	a3, a3, -2
	vmv.s.x	v0, a3
	addi	a4, a1, 48
	vsetvli	zero, t2, e8, m2, ta, mu
	vxor.vv	v18, v20, v18
	vslidedown.vi	v20, v18, 15
	vslideup.vi	v20, v16, 1, v0.t
	vmv2r.v	v16, v12
	vmv1r.v	v0, v10
	vslideup.vi	v16, v18, 1, v0.t
	vsetivli	zero, 16, e8, m1, ta, ma
	vle8.v	v15, (t0)
	lui	t0, 524264
	vle8.v	v18, (t1)
	addi	a2, a1, 256
	vle8.v	v25, (a1)
	addi	a3, a1, 272
	vrgather.vv	v19, v24, v11
	vrgather.vv	v22, v9, v11
	vrgather.vv	v9, v15, v14
	vrgather.vv	v15, v18, v8
	vxor.vv	v18, v9, v19
	vxor.vv	v22, v15, v22
	vsetvli	zero, t2, e8, m2, ta, ma
	vslideup.vi	v18, v22, 16
	vsetivli	zero, 16, e8, m1, ta, ma
	vmv.v.i	v9, 0
	addi	t0, t0, -2
	vsetvli	zero, zero, e32, m4, ta, ma
	vmv.s.x	v0, t0
	lui	t0, 16
	vsetvli	zero, t2, e8, m2, ta, mu
	vxor.vv	v18, v18, v16
	vslidedown.vi	v16, v18, 15
	vslideup.vi	v16, v20, 1, v0.t
	vsetivli	zero, 16, e8, m1, ta, ma
	vle8.v	v20, (a5)
	lui	t1, 4080
	vle8.v	v21, (a4)
	li	a4, 255
	vle8.v	v22, (a6)
	vrgather.vv	v15, v20, v14
	vrgather.vv	v20, v25, v14
	vle8.v	v23, (a7)
	vle8.v	v24, (t3)
	vrgather.vv	v14, v21, v8
	vrgather.vv	v21, v22, v8
	vle8.v	v8, (a2)
	vle8.v	v25, (a3)
	vrgather.vv	v22, v23, v11
	vrgather.vv	v23, v24, v11
	vrgather.vv	v24, v8, v11
	vrgather.vv	v26, v25, v11
	vid.v	v8
	addi	a7, t0, -256
	slli	a6, a4, 24
	vxor.vv	v11, v20, v24
	vxor.vv	v24, v21, v26
	vmv2r.v	v20, v12
	vxor.vv	v22, v15, v22
	vxor.vv	v14, v14, v23
	vsetvli	zero, t2, e8, m2, ta, mu
	vslideup.vi	v22, v14, 16
	vmv1r.v	v0, v10
	vslideup.vi	v20, v18, 1, v0.t
	vxor.vv	v14, v22, v20
	vslidedown.vi	v18, v14, 15
	vslideup.vi	v18, v16, 1, v0.t
	vslideup.vi	v12, v14, 1, v0.t
	vsetivli	zero, 16, e8, m1, ta, ma
	vxor.vv	v14, v11, v12
	vsetivli	zero, 16, e8, m2, ta, ma
	vslidedown.vi	v10, v12, 16
	vslidedown.vi	v12, v18, 16
	vsetivli	zero, 16, e8, m1, ta, ma
	vxor.vv	v10, v24, v10
	vslideup.vi	v9, v10, 8
	vslidedown.vi	v10, v10, 8
	vxor.vv	v9, v9, v14
	vslideup.vi	v10, v12, 8
	vxor.vv	v10, v10, v18
	vsetivli	zero, 2, e64, m1, ta, ma
	vslidedown.vi	v11, v10, 1
	vmv.x.s	a3, v10
	vmv.x.s	a5, v11
	srli	a1, a3, 24
	srli	a4, a3, 8
	srliw	a2, a3, 24
	and	t0, a3, t1
	and	a1, a1, t1
	and	a4, a4, a6
	or	t2, a4, a1
	slli	a4, a3, 56
	slli	a2, a2, 32
	slli	t0, t0, 24
	or	a2, t0, a2
	and	a1, a3, a7
	slli	a1, a1, 40
	or	a1, a1, a4
	srli	a4, a5, 8
	and	a6, a4, a6
	srli	a4, a3, 40
	srli	a3, a3, 56
	and	a4, a4, a7
	or	a4, a4, a3
	or	t0, t2, a4
	srli	a4, a5, 40
	or	t2, a1, a2
	srli	a2, a5, 56
	and	a4, a4, a7
	or	t3, a4, a2
	srli	a4, a5, 24
	and	a4, a4, t1
	or	a6, a6, a4
	srliw	a1, a5, 24
	and	a2, a5, t1
	and	a4, a5, a7
	slli	a5, a5, 56
	slli	a1, a1, 32
	slli	a2, a2, 24
	or	a1, a1, a2
	slli	a7, a3, 63
	slli	a4, a4, 40
	or	a4, a4, a5
	slli	t4, a3, 62
	slli	t1, a3, 57
	or	a2, t2, t0
	or	a3, a6, t3
	or	a1, a1, a4
	or	a1, a1, a3
	srli	a3, a2, 1
	srli	a4, a2, 2
	srli	a5, a2, 7
	srli	a6, a1, 1
	xor	t0, a4, a3
	srli	a4, a1, 2
	xor	a2, a2, a5
	srli	a5, a1, 7
	or	a3, a6, a7
	or	a4, a4, t4
	or	a5, a5, t1
	xor	a2, t0, a2
	xor	a3, a3, a4
	xor	a1, a1, a5
	xor	a1, a1, a3
	vmv.v.x	v10, a1
	vslide1down.vx	v10, v10, a2
	vsetivli	zero, 16, e8, m1, ta, ma
	vrsub.vi	v8, v8, 15
	vrgather.vv	v11, v10, v8
	vxor.vv	v8, v9, v11
	vse8.v	v8, (a0)
	ret
.Lgcm_func_end44:
	.size	gcm.gcm.multiples.Table.product, .Lgcm_func_end44-gcm.gcm.multiples.Table.product
                                        # -- End function
	.section	.text.gcm.gcm_siv.message.process_text,"ax",@progbits
	.p2align	1                               # -- Begin function gcm_siv::message::process_text::<#66aa1833bfd7fef8>
	.type	gcm.gcm_siv.message.process_text,@function
gcm.gcm_siv.message.process_text: # @gcm.gcm_siv.message.process_text
# %bb.0:                                # %start
	addi	sp, sp, -448
	sd	ra, 440(sp)                     # 8-byte Folded Spill
	sd	s0, 432(sp)                     # 8-byte Folded Spill
	sd	s1, 424(sp)                     # 8-byte Folded Spill
	sd	s2, 416(sp)                     # 8-byte Folded Spill
	sd	s3, 408(sp)                     # 8-byte Folded Spill
	sd	s4, 400(sp)                     # 8-byte Folded Spill
	sd	s5, 392(sp)                     # 8-byte Folded Spill
	sd	s6, 384(sp)                     # 8-byte Folded Spill
	sd	s7, 376(sp)                     # 8-byte Folded Spill
	sd	s8, 368(sp)                     # 8-byte Folded Spill
	sd	s9, 360(sp)                     # 8-byte Folded Spill
	sd	s10, 352(sp)                    # 8-byte Folded Spill
	sd	s11, 344(sp)                    # 8-byte Folded Spill
	mv	s4, a3
	mv	s8, a2
	lbu	a4, 12(a1)
	lbu	a5, 13(a1)
	lbu	a6, 14(a1)
	lbu	a7, 15(a1)
	lbu	t1, 8(a1)
	lbu	t2, 9(a1)
	lbu	a2, 10(a1)
	lbu	a3, 11(a1)
	slli	a5, a5, 8
	or	t0, a5, a4
	lbu	a5, 0(a1)
	lbu	a4, 1(a1)
	lbu	s1, 2(a1)
	lbu	s0, 3(a1)
	slli	t2, t2, 8
	slli	a2, a2, 16
	slli	a3, a3, 24
	slli	a4, a4, 8
	slli	s1, s1, 16
	slli	s0, s0, 24
	or	t1, t2, t1
	or	t2, a3, a2
	or	a4, a4, a5
	or	s0, s0, s1
	lbu	a3, 5(a1)
	lbu	a5, 4(a1)
	lbu	s1, 6(a1)
	lbu	a2, 7(a1)
	slli	a3, a3, 8
	or	a3, a3, a5
	slli	s1, s1, 16
	slli	a2, a2, 24
	or	a2, a2, s1
	or	a5, t2, t1
	or	a4, a4, s0
	or	a2, a2, a3
	addi	s9, a0, 4
	lwu	a0, 0(a0)
	slli	a2, a2, 32
	or	a2, a2, a4
	li	a3, 16
	ori	s0, a7, -128
	srli	a0, a0, 2
	addi	s3, a0, 7
	sd	a2, 32(sp)
	sw	a5, 40(sp)
	sh	t0, 44(sp)
	sb	a6, 46(sp)
	sb	s0, 47(sp)
	bltu	a3, s4, .Lgcm_BB45_4
# %bb.1:                                # %then.1.i.i
	lw	s1, 32(sp)
	addi	a0, sp, 84
	addi	a1, a1, 4
	li	a2, 11
	la	t1, memcpy
	jalr	t1
	sw	s1, 80(sp)
	sb	s0, 95(sp)
	addi	a2, sp, 80
	li	a3, 1
	mv	a0, s9
	mv	a1, s3
	call	gcm.aes_permute.blocks.process_on_lanes
	beqz	s4, .Lgcm_BB45_32
# %bb.2:                                # %then.1.i.i
	li	a0, 16
	bne	s4, a0, .Lgcm_BB45_10
# %bb.3:                                # %after.4.i.thread.i.i.i
	vsetivli	zero, 16, e8, m1, ta, ma
	vle8.v	v8, (s8)
	addi	a0, sp, 80
	vle8.v	v9, (a0)
	vxor.vv	v8, v9, v8
	vse8.v	v8, (s8)
	j	.Lgcm_BB45_32
.Lgcm_BB45_4:                               # %else.2.i.i
	srli	a0, s4, 4
	andi	a1, s4, 15
	addi	a2, sp, 32
	snez	a1, a1
	add	a0, a0, a1
	li	a1, 8
	sd	a2, 48(sp)
	sd	zero, 56(sp)
	sd	s8, 64(sp)
	sd	s4, 72(sp)
	bltu	a0, a1, .Lgcm_BB45_6
# %bb.5:                                # %then.1.i.i.i
	addi	a4, sp, 48
	mv	a0, s9
	mv	a1, s3
	mv	a2, s9
	mv	a3, s3
	call	gcm.aes_hybrid.closures.lend_planes.2
	j	.Lgcm_BB45_32
.Lgcm_BB45_6:                               # %join.3.i.i.i.i
	li	a0, 64
	addi	s6, sp, 84
	addi	s10, sp, 36
	li	s7, 0
	bltu	s4, a0, .Lgcm_BB45_12
# %bb.7:                                # %join.11.lr.ph.i.i.i.i
	addi	a0, sp, 96
	lw	s0, 32(sp)
	addi	a4, a0, 16
	sd	a4, 24(sp)                      # 8-byte Folded Spill
	addi	a0, a0, 32
	sd	a0, 16(sp)                      # 8-byte Folded Spill
	addi	a0, s4, -64
	andi	a0, a0, -64
	addi	a0, a0, 64
	sd	a0, 8(sp)                       # 8-byte Folded Spill
	addi	s2, sp, 100
.Lgcm_BB45_8:                               # %join.11.i.i.i.i
                                        # =>This Inner Loop Header: Depth=1
	add	s5, s8, s7
	addi	s7, s7, 64
	li	a2, 192
	addi	a0, sp, 144
	li	a1, 0
	la	t1, memset
	jalr	t1
	lw	a0, 0(s10)
	lw	a1, 4(s10)
	lw	a2, 8(s10)
	addi	a3, s10, 4
	addi	a4, s0, 2
	vsetivli	zero, 2, e32, mf2, ta, ma
	vle32.v	v8, (a3)
	addi	a3, s0, 3
	sw	a4, 112(sp)
	sw	a3, 128(sp)
	addi	a3, s2, 4
	vse32.v	v8, (a3)
	addi	a4, sp, 116
	addi	a3, a4, 4
	vse32.v	v8, (a3)
	addi	a3, s0, 1
	vle32.v	v8, (s10)
	sw	a0, 0(a4)
	addi	a4, sp, 132
	sw	a2, 8(a4)
	sw	s0, 80(sp)
	sw	a3, 96(sp)
	sw	a0, 0(s6)
	sw	a1, 4(s6)
	sw	a2, 8(s6)
	sw	a0, 0(s2)
	vse32.v	v8, (a4)
	addi	a2, sp, 80
	li	a3, 4
	addi	s11, sp, 80
	mv	a0, s9
	mv	a1, s3
	call	gcm.aes_permute.blocks.process_on_lanes
	vsetivli	zero, 16, e8, m1, ta, ma
	vle8.v	v8, (s5)
	vle8.v	v9, (s11)
	addi	a0, s5, 16
	addi	a1, sp, 96
	vle8.v	v10, (a1)
	addi	a1, s5, 32
	ld	a2, 24(sp)                      # 8-byte Folded Reload
	vle8.v	v11, (a2)
	addi	a2, s5, 48
	ld	a3, 16(sp)                      # 8-byte Folded Reload
	vle8.v	v12, (a3)
	vle8.v	v13, (a0)
	vle8.v	v14, (a1)
	vxor.vv	v8, v9, v8
	vle8.v	v9, (a2)
	vse8.v	v8, (s5)
	vxor.vv	v8, v10, v13
	vxor.vv	v10, v11, v14
	vxor.vv	v9, v12, v9
	vse8.v	v8, (a0)
	vse8.v	v10, (a1)
	vse8.v	v9, (a2)
	addi	s0, s0, 4
	ld	a0, 8(sp)                       # 8-byte Folded Reload
	bne	s7, a0, .Lgcm_BB45_8
# %bb.9:                                # %loop.13.preheader.i.i.i.i
	bltu	s7, s4, .Lgcm_BB45_13
	j	.Lgcm_BB45_32
.Lgcm_BB45_10:                              # %vector.body21.preheader
	li	a0, 0
.Lgcm_BB45_11:                              # %vector.body21
                                        # =>This Inner Loop Header: Depth=1
	vsetvli	a1, s4, e8, m2, ta, ma
	addi	a2, sp, 80
	add	a2, a2, a0
	vle8.v	v8, (a2)
	add	a2, s8, a0
	vle8.v	v10, (a2)
	sub	s4, s4, a1
	vxor.vv	v8, v10, v8
	vse8.v	v8, (a2)
	add	a0, a0, a1
	bnez	s4, .Lgcm_BB45_11
	j	.Lgcm_BB45_32
.Lgcm_BB45_12:
	addi	s2, sp, 100
	bgeu	s7, s4, .Lgcm_BB45_32
.Lgcm_BB45_13:                              # %join.16.i.i.i.preheader.i
	mv	s0, s2
	mv	s2, s9
	lw	a0, 32(sp)
	sd	a0, 24(sp)                      # 8-byte Folded Spill
	j	.Lgcm_BB45_15
.Lgcm_BB45_14:                              # %"aes_ctr::add_in_batches::add_next::<#67adacb97a8afb93>.exit.i"
                                        #   in Loop: Header=BB45_15 Depth=1
	add	s7, s7, s9
	bgeu	s7, s4, .Lgcm_BB45_32
.Lgcm_BB45_15:                              # %join.16.i.i.i.i
                                        # =>This Loop Header: Depth=1
                                        #     Child Loop BB45_24 Depth 2
                                        #     Child Loop BB45_27 Depth 2
                                        #     Child Loop BB45_31 Depth 2
	andi	s1, s7, 15
	li	a0, 64
	sub	a0, a0, s1
	sub	s9, s4, s7
	bltu	s9, a0, .Lgcm_BB45_17
# %bb.16:                               # %join.16.i.i.i.i
                                        #   in Loop: Header=BB45_15 Depth=1
	mv	s9, a0
.Lgcm_BB45_17:                              # %join.16.i.i.i.i
                                        #   in Loop: Header=BB45_15 Depth=1
	add	a0, s1, s9
	addi	a0, a0, 15
	srli	s11, a0, 4
	srli	s5, s7, 4
	li	a2, 192
	addi	a0, sp, 144
	li	a1, 0
	la	t1, memset
	jalr	t1
	ld	a0, 24(sp)                      # 8-byte Folded Reload
	add	s5, s5, a0
	addi	a0, s10, 4
	vsetivli	zero, 2, e32, mf2, ta, ma
	vle32.v	v8, (a0)
	lw	a0, 0(s10)
	lw	a1, 4(s10)
	lw	a2, 8(s10)
	addi	a3, s0, 4
	addi	a5, sp, 116
	addi	a4, a5, 4
	vse32.v	v8, (a3)
	vse32.v	v8, (a4)
	vle32.v	v8, (s10)
	addi	a3, s5, 2
	addi	a4, s5, 3
	sw	a3, 112(sp)
	sw	a4, 128(sp)
	addi	a3, s5, 1
	sw	a0, 0(a5)
	addi	a4, sp, 132
	sw	a2, 8(a4)
	sw	s5, 80(sp)
	sw	a3, 96(sp)
	sw	a0, 0(s6)
	sw	a1, 4(s6)
	sw	a2, 8(s6)
	sw	a0, 0(s0)
	vse32.v	v8, (a4)
	addi	a2, sp, 80
	mv	a0, s2
	mv	a1, s3
	mv	a3, s11
	call	gcm.aes_permute.blocks.process_on_lanes
	add	a0, s8, s7
	beqz	s1, .Lgcm_BB45_21
# %bb.18:                               # %then.1.i.i2.i
                                        #   in Loop: Header=BB45_15 Depth=1
	li	a2, 16
	sub	a2, a2, s1
	mv	a1, s9
	bgeu	s9, a2, .Lgcm_BB45_22
# %bb.19:                               # %then.1.i.i2.i
                                        #   in Loop: Header=BB45_15 Depth=1
	bne	s4, s7, .Lgcm_BB45_23
.Lgcm_BB45_20:                              # %join.3.i.i.i
                                        #   in Loop: Header=BB45_15 Depth=1
	sub	a2, s9, a1
	li	a3, 16
	bgeu	a2, a3, .Lgcm_BB45_26
	j	.Lgcm_BB45_28
.Lgcm_BB45_21:                              #   in Loop: Header=BB45_15 Depth=1
	li	a1, 0
	mv	a2, s9
	li	a3, 16
	bgeu	s9, a3, .Lgcm_BB45_26
	j	.Lgcm_BB45_28
.Lgcm_BB45_22:                              # %then.1.i.i2.i
                                        #   in Loop: Header=BB45_15 Depth=1
	mv	a1, a2
	beq	s4, s7, .Lgcm_BB45_20
.Lgcm_BB45_23:                              # %join.8.i80.lr.ph.i.i
                                        #   in Loop: Header=BB45_15 Depth=1
	li	a5, 0
	addi	a3, sp, 80
	add	a3, a3, s1
	mv	a4, a1
.Lgcm_BB45_24:                              # %vector.body12
                                        #   Parent Loop BB45_15 Depth=1
                                        # =>  This Inner Loop Header: Depth=2
	vsetvli	s0, a4, e8, m1, ta, ma
	add	a2, a3, a5
	vle8.v	v8, (a2)
	add	a2, a0, a5
	vle8.v	v9, (a2)
	sub	a4, a4, s0
	vxor.vv	v8, v9, v8
	vse8.v	v8, (a2)
	add	a5, a5, s0
	bnez	a4, .Lgcm_BB45_24
# %bb.25:                               #   in Loop: Header=BB45_15 Depth=1
	addi	s0, sp, 100
	sub	a2, s9, a1
	li	a3, 16
	bltu	a2, a3, .Lgcm_BB45_28
.Lgcm_BB45_26:                              # %join.8.i.i.i.preheader
                                        #   in Loop: Header=BB45_15 Depth=1
	vsetivli	zero, 16, e8, m1, ta, ma
.Lgcm_BB45_27:                              # %join.8.i.i.i
                                        #   Parent Loop BB45_15 Depth=1
                                        # =>  This Inner Loop Header: Depth=2
	add	a3, s1, a1
	addi	a4, sp, 80
	andi	a3, a3, -16
	add	a3, a3, a4
	add	a4, a0, a1
	vle8.v	v8, (a4)
	vle8.v	v9, (a3)
	addi	a1, a1, 16
	addi	a2, a2, -16
	vxor.vv	v8, v9, v8
	li	a3, 15
	vse8.v	v8, (a4)
	bltu	a3, a2, .Lgcm_BB45_27
.Lgcm_BB45_28:                              # %after.4.i.i.i
                                        #   in Loop: Header=BB45_15 Depth=1
	bgeu	a1, s9, .Lgcm_BB45_14
# %bb.29:                               # %then.9.i.i.i
                                        #   in Loop: Header=BB45_15 Depth=1
	beqz	a2, .Lgcm_BB45_14
# %bb.30:                               # %vector.body.preheader
                                        #   in Loop: Header=BB45_15 Depth=1
	li	a3, 0
	add	s1, s1, a1
	addi	a4, sp, 80
	andi	s1, s1, -16
	add	a4, a4, s1
	add	a0, a0, a1
.Lgcm_BB45_31:                              # %vector.body
                                        #   Parent Loop BB45_15 Depth=1
                                        # =>  This Inner Loop Header: Depth=2
	vsetvli	a1, a2, e8, m2, ta, ma
	add	a5, a4, a3
	vle8.v	v8, (a5)
	add	a5, a0, a3
	vle8.v	v10, (a5)
	sub	a2, a2, a1
	vxor.vv	v8, v10, v8
	vse8.v	v8, (a5)
	add	a3, a3, a1
	bnez	a2, .Lgcm_BB45_31
	j	.Lgcm_BB45_14
.Lgcm_BB45_32:                              # %"gcm_siv::counters::add_keystream::<#ed3b81e0963a9ab3>.exit"
	ld	ra, 440(sp)                     # 8-byte Folded Reload
	ld	s0, 432(sp)                     # 8-byte Folded Reload
	ld	s1, 424(sp)                     # 8-byte Folded Reload
	ld	s2, 416(sp)                     # 8-byte Folded Reload
	ld	s3, 408(sp)                     # 8-byte Folded Reload
	ld	s4, 400(sp)                     # 8-byte Folded Reload
	ld	s5, 392(sp)                     # 8-byte Folded Reload
	ld	s6, 384(sp)                     # 8-byte Folded Reload
	ld	s7, 376(sp)                     # 8-byte Folded Reload
	ld	s8, 368(sp)                     # 8-byte Folded Reload
	ld	s9, 360(sp)                     # 8-byte Folded Reload
	ld	s10, 352(sp)                    # 8-byte Folded Reload
	ld	s11, 344(sp)                    # 8-byte Folded Reload
	addi	sp, sp, 448
	ret
.Lgcm_func_end45:
	.size	gcm.gcm_siv.message.process_text, .Lgcm_func_end45-gcm.gcm_siv.message.process_text
                                        # -- End function
	.section	.text.gcm.aes_hybrid.closures.lend_planes.2,"ax",@progbits
	.p2align	1                               # -- Begin function aes_hybrid::closures::lend_planes::<#4eff1f6a6667429a>
	.type	gcm.aes_hybrid.closures.lend_planes.2,@function
gcm.aes_hybrid.closures.lend_planes.2: # @gcm.aes_hybrid.closures.lend_planes.2
# %bb.0:                                # %start
	addi	sp, sp, -2032
	sd	ra, 2024(sp)                    # 8-byte Folded Spill
	sd	s0, 2016(sp)                    # 8-byte Folded Spill
	sd	s1, 2008(sp)                    # 8-byte Folded Spill
	sd	s2, 2000(sp)                    # 8-byte Folded Spill
	sd	s3, 1992(sp)                    # 8-byte Folded Spill
	sd	s4, 1984(sp)                    # 8-byte Folded Spill
	sd	s5, 1976(sp)                    # 8-byte Folded Spill
	mv	s2, a4
	mv	s3, a3
	mv	s4, a2
	mv	s1, a1
	mv	s0, a0
	addi	a0, sp, 176
	li	a2, 1792
	li	a1, 0
	la	t1, memset
	jalr	t1
	slli	s5, s1, 3
	addi	a0, sp, 48
	mv	a1, s0
	mv	a2, s1
	call	gcm.aes_hybrid.plane_keys.store_planes
	sd	s0, 16(sp)
	sd	s1, 24(sp)
	sd	s4, 32(sp)
	sd	s3, 40(sp)
	addi	a0, sp, 16
	addi	a1, sp, 48
	mv	a2, s5
	mv	a3, s2
	call	gcm.aes_hybrid.closures.call_to_work.2
	addi	a0, sp, 48
	call	gcm.aes_cipher.zeroize.zeroize_words
	call	gcm.aes_cipher.zeroize.stack.wipe_stack.2032
	ld	ra, 2024(sp)                    # 8-byte Folded Reload
	ld	s0, 2016(sp)                    # 8-byte Folded Reload
	ld	s1, 2008(sp)                    # 8-byte Folded Reload
	ld	s2, 2000(sp)                    # 8-byte Folded Reload
	ld	s3, 1992(sp)                    # 8-byte Folded Reload
	ld	s4, 1984(sp)                    # 8-byte Folded Reload
	ld	s5, 1976(sp)                    # 8-byte Folded Reload
	addi	sp, sp, 2032
	ret
.Lgcm_func_end46:
	.size	gcm.aes_hybrid.closures.lend_planes.2, .Lgcm_func_end46-gcm.aes_hybrid.closures.lend_planes.2
                                        # -- End function
	.section	.rodata.cst16,"aM",@progbits,16
	.p2align	4, 0x0                          # -- Begin function aes_hybrid::closures::call_to_work::<#4eff1f6a6667429a>
.Lgcm_CPI47_0:
	.byte	0                               # 0x0
	.byte	4                               # 0x4
	.byte	8                               # 0x8
	.byte	12                              # 0xc
	.byte	1                               # 0x1
	.byte	5                               # 0x5
	.byte	9                               # 0x9
	.byte	13                              # 0xd
	.byte	2                               # 0x2
	.byte	6                               # 0x6
	.byte	10                              # 0xa
	.byte	14                              # 0xe
	.byte	3                               # 0x3
	.byte	7                               # 0x7
	.byte	11                              # 0xb
	.byte	15                              # 0xf
	.section	.rodata.cst32,"aM",@progbits,32
	.p2align	5, 0x0
.Lgcm_CPI47_1:
	.zero	1
	.zero	1
	.zero	1
	.zero	1
	.zero	1
	.zero	1
	.zero	1
	.zero	1
	.zero	1
	.zero	1
	.zero	1
	.zero	1
	.zero	1
	.zero	1
	.zero	1
	.zero	1
	.byte	0                               # 0x0
	.byte	4                               # 0x4
	.byte	8                               # 0x8
	.byte	12                              # 0xc
	.byte	1                               # 0x1
	.byte	5                               # 0x5
	.byte	9                               # 0x9
	.byte	13                              # 0xd
	.byte	2                               # 0x2
	.byte	6                               # 0x6
	.byte	10                              # 0xa
	.byte	14                              # 0xe
	.byte	3                               # 0x3
	.byte	7                               # 0x7
	.byte	11                              # 0xb
	.byte	15                              # 0xf
	.section	.text.gcm.aes_hybrid.closures.call_to_work.2,"ax",@progbits
	.p2align	1
	.type	gcm.aes_hybrid.closures.call_to_work.2,@function
gcm.aes_hybrid.closures.call_to_work.2: # @gcm.aes_hybrid.closures.call_to_work.2
# %bb.0:                                # %start
	addi	sp, sp, -608
	sd	ra, 600(sp)                     # 8-byte Folded Spill
	sd	s0, 592(sp)                     # 8-byte Folded Spill
	sd	s1, 584(sp)                     # 8-byte Folded Spill
	sd	s2, 576(sp)                     # 8-byte Folded Spill
	sd	s3, 568(sp)                     # 8-byte Folded Spill
	sd	s4, 560(sp)                     # 8-byte Folded Spill
	sd	s5, 552(sp)                     # 8-byte Folded Spill
	sd	s6, 544(sp)                     # 8-byte Folded Spill
	sd	s7, 536(sp)                     # 8-byte Folded Spill
	sd	s8, 528(sp)                     # 8-byte Folded Spill
	sd	s9, 520(sp)                     # 8-byte Folded Spill
	sd	s10, 512(sp)                    # 8-byte Folded Spill
	sd	s11, 504(sp)                    # 8-byte Folded Spill
	csrr	t1, vlenb
	li	t2, 3
	slli	t2, t2, 10
.Lgcm_BB47_1:                               # %start
                                        # =>This Inner Loop Header: Depth=1
	sub	sp, sp, t2
	sd	zero, 0(sp)
	sub	t1, t1, t2
	bge	t1, t2, .Lgcm_BB47_1
# %bb.2:                                # %start
	sub	sp, sp, t1
	mv	s8, a2
	ld	a2, 8(a3)
	ld	s9, 0(a3)
	ld	s0, 16(a3)
	ld	s3, 24(a3)
	sd	a2, 224(sp)                     # 8-byte Folded Spill
	andi	a2, a2, 15
	sd	a0, 232(sp)
	sd	a1, 200(sp)                     # 8-byte Folded Spill
	sd	a1, 240(sp)
	sd	s8, 248(sp)
	beqz	a2, .Lgcm_BB47_4
# %bb.3:                                # %then.1.i.i
	addi	a0, sp, 232
	mv	a1, s9
	ld	a2, 224(sp)                     # 8-byte Folded Reload
	li	a3, 0
	mv	a4, s0
	mv	a5, s3
	call	gcm.aes_ctr.add_in_batches.add_next.3
	mv	s10, a0
	sd	s3, 24(sp)                      # 8-byte Folded Spill
	sub	a4, s3, a0
	li	a0, 128
	bgeu	a4, a0, .Lgcm_BB47_5
	j	.Lgcm_BB47_7
.Lgcm_BB47_4:
	li	s10, 0
	sd	s3, 24(sp)                      # 8-byte Folded Spill
	mv	a4, s3
	li	a0, 128
	bltu	s3, a0, .Lgcm_BB47_7
.Lgcm_BB47_5:                               # %join.11.lr.ph.i.i
	addi	a1, sp, 368
	addi	a2, sp, 260
	srli	a0, s8, 3
	addi	a3, a1, 16
	sd	a3, 192(sp)                     # 8-byte Folded Spill
	addi	a3, a1, 32
	sd	a3, 184(sp)                     # 8-byte Folded Spill
	addi	a3, a1, 48
	sd	a3, 168(sp)                     # 8-byte Folded Spill
	addi	a3, a1, 64
	sd	a3, 160(sp)                     # 8-byte Folded Spill
	addi	a3, a1, 80
	sd	a3, 152(sp)                     # 8-byte Folded Spill
	addi	a1, a1, 96
	sd	a1, 144(sp)                     # 8-byte Folded Spill
	addi	a1, a2, 8
	sd	a1, 136(sp)                     # 8-byte Folded Spill
	addi	a1, a2, 16
	sd	a1, 128(sp)                     # 8-byte Folded Spill
	addi	a1, a2, 24
	sd	a1, 120(sp)                     # 8-byte Folded Spill
	addi	a1, a2, 32
	sd	a1, 112(sp)                     # 8-byte Folded Spill
	addi	a1, a2, 40
	sd	a1, 104(sp)                     # 8-byte Folded Spill
	addi	a1, a2, 48
	sd	a1, 96(sp)                      # 8-byte Folded Spill
	addi	a1, a2, 56
	sd	a1, 88(sp)                      # 8-byte Folded Spill
	addi	a1, a2, 64
	sd	a1, 80(sp)                      # 8-byte Folded Spill
	addi	a1, a2, 72
	sd	a1, 72(sp)                      # 8-byte Folded Spill
	addi	a1, a2, 76
	sd	a1, 216(sp)                     # 8-byte Folded Spill
	addi	a0, a0, -1
	sd	a0, 64(sp)                      # 8-byte Folded Spill
	addi	a0, a2, 28
	sd	a0, 56(sp)                      # 8-byte Folded Spill
	addi	a0, a2, 60
	sd	a0, 48(sp)                      # 8-byte Folded Spill
	addi	a0, a2, 12
	sd	a0, 40(sp)                      # 8-byte Folded Spill
	addi	a0, a2, 44
	sd	a0, 32(sp)                      # 8-byte Folded Spill
	sd	s0, 176(sp)                     # 8-byte Folded Spill
.Lgcm_BB47_6:                               # %join.11.i.i
                                        # =>This Inner Loop Header: Depth=1
	sd	a4, 208(sp)                     # 8-byte Folded Spill
	lbu	a0, 1(s9)
	lbu	a1, 0(s9)
	lbu	a2, 2(s9)
	lb	a3, 3(s9)
	slli	a0, a0, 8
	or	a0, a0, a1
	ld	a1, 224(sp)                     # 8-byte Folded Reload
	add	a1, a1, s10
	srli	a1, a1, 4
	slli	a2, a2, 16
	slli	a3, a3, 24
	or	a2, a2, a3
	or	a0, a0, a2
	add	s1, a0, a1
	sw	s1, 256(sp)
	li	a2, 12
	addi	a0, sp, 260
	addi	s3, s9, 4
	mv	a1, s3
	la	t1, memcpy
	jalr	t1
	addi	s11, s1, 1
	sw	s11, 272(sp)
	li	a2, 12
	addi	a0, sp, 276
	mv	a1, s3
	la	t1, memcpy
	jalr	t1
	addi	s8, s1, 2
	sw	s8, 288(sp)
	li	a2, 12
	addi	a0, sp, 292
	mv	a1, s3
	la	t1, memcpy
	jalr	t1
	addi	s0, s1, 3
	sw	s0, 304(sp)
	li	a2, 12
	addi	a0, sp, 308
	mv	a1, s3
	la	t1, memcpy
	jalr	t1
	addi	s7, s1, 4
	sw	s7, 320(sp)
	li	a2, 12
	addi	a0, sp, 324
	mv	a1, s3
	la	t1, memcpy
	jalr	t1
	addi	a0, s1, 5
	sw	a0, 336(sp)
	li	a2, 12
	addi	a0, sp, 340
	mv	a1, s3
	la	t1, memcpy
	jalr	t1
	addi	a0, s1, 7
	vsetivli	zero, 8, e32, m1, ta, ma
	vmv.s.x	v10, a0
	srliw	a0, s1, 8
	vsetivli	zero, 16, e8, m1, ta, ma
	vmv.v.x	v8, s1
	vslide1down.vx	v8, v8, a0
	srliw	a0, s11, 8
	vmv.v.x	v9, s11
	vslide1down.vx	v9, v9, a0
	srliw	a0, s8, 8
	vmv.v.x	v11, s8
	vslide1down.vx	v11, v11, a0
	srliw	a0, s0, 8
	vmv.v.x	v12, s0
	vslide1down.vx	v12, v12, a0
	srliw	a0, s7, 8
	vmv.v.x	v13, s7
	vslide1down.vx	v21, v13, a0
	srliw	a0, s1, 16
	vslide1down.vx	v8, v8, a0
	srliw	a0, s11, 16
	vslide1down.vx	v9, v9, a0
	srliw	a0, s8, 16
	vslide1down.vx	v11, v11, a0
	srliw	a0, s0, 16
	vslide1down.vx	v15, v12, a0
	srliw	a0, s1, 24
	vslide1down.vx	v18, v8, a0
	srliw	a0, s11, 24
	vslide1down.vx	v19, v9, a0
	srliw	a0, s8, 24
	vslide1down.vx	v20, v11, a0
	addi	s1, s1, 6
	vsetivli	zero, 12, e8, m1, ta, ma
	vle8.v	v16, (s3)
	addi	a0, sp, 260
	vle8.v	v22, (a0)
	vsetivli	zero, 16, e8, m1, ta, ma
	ld	a0, 136(sp)                     # 8-byte Folded Reload
	vle8.v	v13, (a0)
	vsetivli	zero, 12, e8, m1, ta, ma
	ld	a0, 128(sp)                     # 8-byte Folded Reload
	vle8.v	v23, (a0)
	vsetivli	zero, 16, e8, m1, ta, ma
	ld	a0, 120(sp)                     # 8-byte Folded Reload
	vle8.v	v14, (a0)
	vsetivli	zero, 12, e8, m1, ta, ma
	ld	a0, 112(sp)                     # 8-byte Folded Reload
	vle8.v	v24, (a0)
	vsetivli	zero, 4, e32, m1, ta, ma
	vslideup.vi	v12, v16, 1
	vsetivli	zero, 8, e32, m2, ta, ma
	vslideup.vi	v8, v16, 5
	vsetivli	zero, 5, e32, m2, tu, ma
	vslideup.vi	v8, v10, 4
	vsetivli	zero, 16, e8, m1, ta, ma
	ld	a0, 104(sp)                     # 8-byte Folded Reload
	vle8.v	v11, (a0)
	srliw	a0, s0, 24
	vsetivli	zero, 12, e8, m1, ta, ma
	ld	a1, 96(sp)                      # 8-byte Folded Reload
	vle8.v	v25, (a1)
	vsetivli	zero, 16, e8, m1, ta, ma
	vslidedown.vi	v10, v18, 12
	vsetivli	zero, 12, e8, m1, tu, ma
	vslideup.vi	v10, v22, 4
	vsetivli	zero, 16, e8, m1, ta, ma
	ld	a1, 88(sp)                      # 8-byte Folded Reload
	vle8.v	v16, (a1)
	vslide1down.vx	v18, v15, a0
	srliw	a0, s7, 16
	srliw	a1, s7, 24
	vslidedown.vi	v15, v19, 12
	vsetivli	zero, 12, e8, m1, tu, ma
	vslideup.vi	v15, v23, 4
	vsetvli	zero, zero, e8, m1, ta, ma
	ld	a2, 80(sp)                      # 8-byte Folded Reload
	vle8.v	v22, (a2)
	vsetivli	zero, 16, e8, m1, ta, ma
	vslidedown.vi	v17, v20, 12
	vsetivli	zero, 12, e8, m1, tu, ma
	vslideup.vi	v17, v24, 4
	vsetivli	zero, 16, e8, m1, ta, ma
	ld	a2, 72(sp)                      # 8-byte Folded Reload
	vle8.v	v19, (a2)
	vslidedown.vi	v18, v18, 12
	vsetivli	zero, 12, e8, m1, tu, ma
	vslideup.vi	v18, v25, 4
	vsetivli	zero, 16, e8, m1, ta, ma
	ld	a2, 216(sp)                     # 8-byte Folded Reload
	vle8.v	v20, (a2)
	vslide1down.vx	v21, v21, a0
.Lgcm_pcrel_hi114:
	auipc	a0, %pcrel_hi(.Lgcm_CPI47_0)
	vslide1down.vx	v21, v21, a1
	li	s11, 85
	addi	a0, a0, %pcrel_lo(.Lgcm_pcrel_hi114)
	vslidedown.vi	v21, v21, 12
	vsetivli	zero, 12, e8, m1, tu, ma
	vslideup.vi	v21, v22, 4
	vsetivli	zero, 16, e8, m1, ta, ma
	vle8.v	v22, (a0)
	li	s7, 51
	vsetvli	zero, zero, e32, m4, tu, ma
	vmv.s.x	v12, s1
	ld	a0, 200(sp)                     # 8-byte Folded Reload
	addi	s0, sp, 352
	vsetvli	zero, zero, e8, m1, ta, ma
	vslideup.vi	v10, v13, 12
	vslideup.vi	v15, v14, 12
	vslideup.vi	v17, v11, 12
	vslideup.vi	v18, v16, 12
	vslideup.vi	v21, v19, 12
	addi	a1, sp, 496
	vs1r.v	v22, (a1)                       # vscale x 8-byte Folded Spill
	vrgather.vv	v11, v20, v22
	vrgather.vv	v13, v12, v22
	vsetivli	zero, 4, e32, m2, ta, ma
	vslidedown.vi	v8, v8, 4
	vsetivli	zero, 16, e8, m1, ta, ma
	vrgather.vv	v9, v10, v22
	vrgather.vv	v10, v15, v22
	vrgather.vv	v12, v17, v22
	vrgather.vv	v14, v18, v22
	vrgather.vv	v15, v21, v22
	vsrl.vi	v16, v13, 1
	vrgather.vv	v17, v8, v22
	vsrl.vi	v8, v9, 1
	vsrl.vi	v18, v12, 1
	vsrl.vi	v19, v15, 1
	vxor.vv	v8, v10, v8
	vxor.vv	v18, v14, v18
	vxor.vv	v19, v11, v19
	vxor.vv	v16, v17, v16
	vand.vx	v8, v8, s11
	vand.vx	v18, v18, s11
	vand.vx	v19, v19, s11
	vand.vx	v16, v16, s11
	vxor.vv	v10, v8, v10
	vadd.vv	v8, v8, v8
	vxor.vv	v14, v18, v14
	vadd.vv	v18, v18, v18
	vxor.vv	v11, v19, v11
	vadd.vv	v19, v19, v19
	vxor.vv	v17, v16, v17
	vadd.vv	v16, v16, v16
	vxor.vv	v8, v8, v9
	vxor.vv	v9, v18, v12
	vxor.vv	v12, v19, v15
	vxor.vv	v13, v16, v13
	vsrl.vi	v15, v10, 2
	vsrl.vi	v16, v11, 2
	vsrl.vi	v18, v8, 2
	vsrl.vi	v19, v12, 2
	vxor.vv	v15, v14, v15
	vxor.vv	v16, v17, v16
	vxor.vv	v18, v9, v18
	vxor.vv	v19, v13, v19
	vand.vx	v15, v15, s7
	vand.vx	v16, v16, s7
	vand.vx	v18, v18, s7
	vand.vx	v19, v19, s7
	vxor.vv	v14, v15, v14
	vsll.vi	v15, v15, 2
	vxor.vv	v17, v16, v17
	vsll.vi	v16, v16, 2
	vxor.vv	v9, v18, v9
	vsll.vi	v18, v18, 2
	vxor.vv	v13, v19, v13
	vsll.vi	v19, v19, 2
	vxor.vv	v10, v15, v10
	vxor.vv	v11, v16, v11
	vsrl.vi	v15, v14, 4
	vand.vi	v16, v17, 15
	vxor.vv	v8, v18, v8
	vxor.vv	v12, v19, v12
	vsrl.vi	v18, v10, 4
	vand.vi	v19, v11, 15
	vsrl.vi	v20, v9, 4
	vand.vi	v21, v13, 15
	vxor.vv	v15, v16, v15
	vsrl.vi	v16, v8, 4
	vxor.vv	v18, v19, v18
	vand.vi	v19, v12, 15
	vxor.vv	v20, v21, v20
	vxor.vv	v17, v15, v17
	vsll.vi	v15, v15, 4
	vxor.vv	v16, v19, v16
	vxor.vv	v11, v18, v11
	vsll.vi	v18, v18, 4
	vxor.vv	v13, v20, v13
	vsll.vi	v19, v20, 4
	vxor.vv	v14, v15, v14
	vxor.vv	v12, v16, v12
	vsll.vi	v15, v16, 4
	vxor.vv	v10, v18, v10
	vxor.vv	v9, v19, v9
	ld	s3, 184(sp)                     # 8-byte Folded Reload
	vse8.v	v14, (s3)
	ld	s6, 160(sp)                     # 8-byte Folded Reload
	vse8.v	v11, (s6)
	ld	s2, 152(sp)                     # 8-byte Folded Reload
	vse8.v	v13, (s2)
	vxor.vv	v8, v15, v8
	addi	s8, sp, 368
	vse8.v	v10, (s8)
	ld	s1, 192(sp)                     # 8-byte Folded Reload
	vse8.v	v9, (s1)
	ld	s4, 168(sp)                     # 8-byte Folded Reload
	vse8.v	v12, (s4)
	vse8.v	v8, (s0)
	ld	s5, 144(sp)                     # 8-byte Folded Reload
	vse8.v	v17, (s5)
	addi	a2, sp, 352
	ld	a1, 64(sp)                      # 8-byte Folded Reload
	call	gcm.aes_soft.soft.ciphers.planes.EncryptPlaneCipher.process_planes
	ld	a4, 208(sp)                     # 8-byte Folded Reload
	vsetivli	zero, 16, e32, m4, ta, ma
	vle8.v	v12, (s0)
	ld	s0, 176(sp)                     # 8-byte Folded Reload
	li	a0, 32
	lui	a1, 1048560
	vmv.s.x	v0, a1
.Lgcm_pcrel_hi115:
	auipc	a1, %pcrel_hi(.Lgcm_CPI47_1)
	addi	a1, a1, %pcrel_lo(.Lgcm_pcrel_hi115)
	vsetvli	zero, a0, e8, m2, ta, ma
	vle8.v	v8, (a1)
	vsetivli	zero, 16, e8, m1, ta, ma
	vle8.v	v13, (s8)
	vle8.v	v16, (s1)
	vle8.v	v14, (s3)
	vle8.v	v17, (s4)
	vle8.v	v15, (s6)
	vle8.v	v18, (s2)
	vle8.v	v19, (s5)
	vsrl.vi	v10, v12, 1
	vsrl.vi	v11, v16, 1
	vsrl.vi	v20, v17, 1
	vsrl.vi	v21, v18, 1
	vxor.vv	v10, v13, v10
	vxor.vv	v11, v14, v11
	vxor.vv	v20, v15, v20
	vxor.vv	v21, v19, v21
	vand.vx	v22, v10, s11
	vand.vx	v23, v11, s11
	vand.vx	v20, v20, s11
	vand.vx	v21, v21, s11
	csrr	a1, vlenb
	vsetvli	zero, a0, e8, m2, ta, ma
	vslidedown.vx	v10, v8, a1
	addi	a1, sp, 256
	vsetivli	zero, 16, e8, m1, ta, ma
	vxor.vv	v9, v22, v13
	vadd.vv	v13, v22, v22
	vxor.vv	v14, v23, v14
	vadd.vv	v22, v23, v23
	vxor.vv	v11, v20, v15
	vadd.vv	v20, v20, v20
	vxor.vv	v15, v21, v19
	vadd.vv	v19, v21, v21
	vxor.vv	v12, v13, v12
	vxor.vv	v16, v22, v16
	vxor.vv	v13, v20, v17
	vxor.vv	v17, v19, v18
	vsrl.vi	v18, v9, 2
	vsrl.vi	v19, v11, 2
	vsrl.vi	v20, v12, 2
	vsrl.vi	v21, v13, 2
	vxor.vv	v18, v14, v18
	vxor.vv	v19, v15, v19
	vxor.vv	v22, v16, v20
	vxor.vv	v23, v17, v21
	vand.vx	v21, v18, s7
	vand.vx	v20, v19, s7
	vand.vx	v19, v22, s7
	vand.vx	v18, v23, s7
	add	a2, s0, s10
	addi	a4, a4, -128
	vxor.vv	v14, v21, v14
	vsll.vi	v21, v21, 2
	vxor.vv	v15, v20, v15
	vsll.vi	v20, v20, 2
	vxor.vv	v16, v19, v16
	vsll.vi	v19, v19, 2
	vxor.vv	v17, v18, v17
	vsll.vi	v18, v18, 2
	vxor.vv	v9, v21, v9
	vxor.vv	v11, v20, v11
	vsrl.vi	v20, v14, 4
	vand.vi	v21, v15, 15
	vxor.vv	v19, v19, v12
	vxor.vv	v12, v18, v13
	vsrl.vi	v13, v9, 4
	vand.vi	v18, v11, 15
	vsrl.vi	v22, v16, 4
	vxor.vv	v20, v21, v20
	vand.vi	v21, v17, 15
	vxor.vv	v13, v18, v13
	vsrl.vi	v18, v19, 4
	vxor.vv	v21, v21, v22
	vand.vi	v22, v12, 15
	vxor.vv	v23, v20, v15
	vsll.vi	v15, v20, 4
	vxor.vv	v18, v22, v18
	vxor.vv	v20, v13, v11
	vsll.vi	v11, v13, 4
	vsll.vi	v22, v21, 4
	vxor.vv	v24, v15, v14
	vxor.vv	v17, v21, v17
	vsetvli	a3, zero, e8, m1, ta, ma
	vrgather.vv	v13, v23, v10
	vsetivli	zero, 16, e8, m1, ta, ma
	vxor.vv	v21, v18, v12
	vsll.vi	v14, v18, 4
	vxor.vv	v9, v11, v9
	vxor.vv	v18, v22, v16
	vsetvli	a3, zero, e8, m1, ta, ma
	vrgather.vv	v15, v24, v10
	vrgather.vv	v12, v23, v8
	vsetivli	zero, 16, e8, m1, ta, ma
	vxor.vv	v23, v14, v19
	vsetvli	a3, zero, e8, m1, ta, ma
	vrgather.vv	v11, v20, v10
	vrgather.vv	v14, v24, v8
	addi	a3, sp, 496
	vl1r.v	v24, (a3)                       # vscale x 8-byte Folded Reload
	vsetivli	zero, 16, e8, m1, ta, ma
	vrgather.vv	v16, v17, v24
	vsetvli	a3, zero, e8, m1, ta, ma
	vrgather.vv	v19, v9, v10
	vrgather.vv	v10, v20, v8
	vsetivli	zero, 16, e8, m1, ta, ma
	vrgather.vv	v20, v18, v24
	vsetvli	a3, zero, e8, m1, ta, ma
	vrgather.vv	v18, v9, v8
	vsetivli	zero, 16, e8, m1, ta, ma
	vrgather.vv	v8, v21, v24
	vrgather.vv	v22, v23, v24
	vsetvli	zero, a0, e8, m2, ta, ma
	vmerge.vvm	v18, v22, v18, v0
	vmerge.vvm	v14, v20, v14, v0
	vse8.v	v18, (a1)
	ld	a3, 56(sp)                      # 8-byte Folded Reload
	vse8.v	v14, (a3)
	vmerge.vvm	v8, v8, v10, v0
	ld	a5, 48(sp)                      # 8-byte Folded Reload
	vse8.v	v8, (a5)
	vmerge.vvm	v8, v16, v12, v0
	addi	a0, a2, 96
	vsetivli	zero, 16, e8, m1, ta, ma
	vle8.v	v10, (a0)
	vle8.v	v11, (a2)
	vle8.v	v12, (a1)
	addi	a1, a2, 16
	vxor.vv	v10, v10, v8
	vse8.v	v10, (a0)
	addi	a0, a2, 112
	vle8.v	v10, (a0)
	vle8.v	v13, (a1)
	ld	s1, 40(sp)                      # 8-byte Folded Reload
	vle8.v	v14, (s1)
	vsetivli	zero, 16, e8, m2, ta, ma
	vslidedown.vi	v8, v8, 16
	vsetivli	zero, 16, e8, m1, ta, ma
	vxor.vv	v8, v10, v8
	vse8.v	v8, (a0)
	addi	a0, a2, 32
	vle8.v	v8, (a0)
	vle8.v	v9, (a3)
	vxor.vv	v10, v14, v13
	vse8.v	v10, (a1)
	addi	a1, a2, 48
	vxor.vv	v8, v9, v8
	vse8.v	v8, (a0)
	addi	a0, a2, 64
	vxor.vv	v8, v12, v11
	vse8.v	v8, (a2)
	addi	a2, a2, 80
	vle8.v	v8, (a1)
	vle8.v	v9, (a0)
	ld	a3, 32(sp)                      # 8-byte Folded Reload
	vle8.v	v10, (a3)
	vle8.v	v11, (a2)
	vle8.v	v12, (a5)
	ld	a3, 216(sp)                     # 8-byte Folded Reload
	vle8.v	v13, (a3)
	vxor.vv	v8, v10, v8
	vse8.v	v8, (a1)
	li	a1, 127
	vxor.vv	v8, v12, v9
	vxor.vv	v9, v13, v11
	vse8.v	v8, (a0)
	vse8.v	v9, (a2)
	addi	s10, s10, 128
	bltu	a1, a4, .Lgcm_BB47_6
.Lgcm_BB47_7:                               # %loop.13.preheader.i.i
	ld	s1, 24(sp)                      # 8-byte Folded Reload
	bgeu	s10, s1, .Lgcm_BB47_9
.Lgcm_BB47_8:                               # %join.16.i.i
                                        # =>This Inner Loop Header: Depth=1
	addi	a0, sp, 232
	mv	a1, s9
	ld	a2, 224(sp)                     # 8-byte Folded Reload
	mv	a3, s10
	mv	a4, s0
	mv	a5, s1
	call	gcm.aes_ctr.add_in_batches.add_next.3
	mv	s10, a0
	bltu	a0, s1, .Lgcm_BB47_8
.Lgcm_BB47_9:                               # %"aes_ctr::add_in_batches::AddStreamBlockCipherEncClosure::call::<#ba6e0fd4d3166cbd>.exit"
	csrr	a0, vlenb
	add	sp, sp, a0
	ld	ra, 600(sp)                     # 8-byte Folded Reload
	ld	s0, 592(sp)                     # 8-byte Folded Reload
	ld	s1, 584(sp)                     # 8-byte Folded Reload
	ld	s2, 576(sp)                     # 8-byte Folded Reload
	ld	s3, 568(sp)                     # 8-byte Folded Reload
	ld	s4, 560(sp)                     # 8-byte Folded Reload
	ld	s5, 552(sp)                     # 8-byte Folded Reload
	ld	s6, 544(sp)                     # 8-byte Folded Reload
	ld	s7, 536(sp)                     # 8-byte Folded Reload
	ld	s8, 528(sp)                     # 8-byte Folded Reload
	ld	s9, 520(sp)                     # 8-byte Folded Reload
	ld	s10, 512(sp)                    # 8-byte Folded Reload
	ld	s11, 504(sp)                    # 8-byte Folded Reload
	addi	sp, sp, 608
	ret
.Lgcm_func_end47:
	.size	gcm.aes_hybrid.closures.call_to_work.2, .Lgcm_func_end47-gcm.aes_hybrid.closures.call_to_work.2
                                        # -- End function
	.section	.rodata.cst16,"aM",@progbits,16
	.p2align	4, 0x0                          # -- Begin function aes_ctr::add_in_batches::add_next::<#4d6730d4b1bb99fd>
.Lgcm_CPI48_0:
	.byte	0                               # 0x0
	.byte	4                               # 0x4
	.byte	8                               # 0x8
	.byte	12                              # 0xc
	.byte	1                               # 0x1
	.byte	5                               # 0x5
	.byte	9                               # 0x9
	.byte	13                              # 0xd
	.byte	2                               # 0x2
	.byte	6                               # 0x6
	.byte	10                              # 0xa
	.byte	14                              # 0xe
	.byte	3                               # 0x3
	.byte	7                               # 0x7
	.byte	11                              # 0xb
	.byte	15                              # 0xf
	.section	.rodata.cst32,"aM",@progbits,32
	.p2align	5, 0x0
.Lgcm_CPI48_1:
	.zero	1
	.zero	1
	.zero	1
	.zero	1
	.zero	1
	.zero	1
	.zero	1
	.zero	1
	.zero	1
	.zero	1
	.zero	1
	.zero	1
	.zero	1
	.zero	1
	.zero	1
	.zero	1
	.byte	0                               # 0x0
	.byte	4                               # 0x4
	.byte	8                               # 0x8
	.byte	12                              # 0xc
	.byte	1                               # 0x1
	.byte	5                               # 0x5
	.byte	9                               # 0x9
	.byte	13                              # 0xd
	.byte	2                               # 0x2
	.byte	6                               # 0x6
	.byte	10                              # 0xa
	.byte	14                              # 0xe
	.byte	3                               # 0x3
	.byte	7                               # 0x7
	.byte	11                              # 0xb
	.byte	15                              # 0xf
	.section	.text.gcm.aes_ctr.add_in_batches.add_next.3,"ax",@progbits
	.p2align	1
	.type	gcm.aes_ctr.add_in_batches.add_next.3,@function
gcm.aes_ctr.add_in_batches.add_next.3: # @gcm.aes_ctr.add_in_batches.add_next.3
# %bb.0:                                # %start
	addi	sp, sp, -560
	sd	ra, 552(sp)                     # 8-byte Folded Spill
	sd	s0, 544(sp)                     # 8-byte Folded Spill
	sd	s1, 536(sp)                     # 8-byte Folded Spill
	sd	s2, 528(sp)                     # 8-byte Folded Spill
	sd	s3, 520(sp)                     # 8-byte Folded Spill
	sd	s4, 512(sp)                     # 8-byte Folded Spill
	sd	s5, 504(sp)                     # 8-byte Folded Spill
	sd	s6, 496(sp)                     # 8-byte Folded Spill
	sd	s7, 488(sp)                     # 8-byte Folded Spill
	sd	s8, 480(sp)                     # 8-byte Folded Spill
	sd	s9, 472(sp)                     # 8-byte Folded Spill
	sd	s10, 464(sp)                    # 8-byte Folded Spill
	sd	s11, 456(sp)                    # 8-byte Folded Spill
	csrr	t1, vlenb
	li	t2, 3
	slli	t2, t2, 10
.Lgcm_BB48_1:                               # %start
                                        # =>This Inner Loop Header: Depth=1
	sub	sp, sp, t2
	sd	zero, 0(sp)
	sub	t1, t1, t2
	bge	t1, t2, .Lgcm_BB48_1
# %bb.2:                                # %start
	sub	sp, sp, t1
	sd	a4, 24(sp)                      # 8-byte Folded Spill
	mv	s10, a0
	add	a2, a2, a3
	li	a0, 128
	andi	s9, a2, 15
	sub	a0, a0, s9
	sd	a3, 40(sp)                      # 8-byte Folded Spill
	sd	a5, 16(sp)                      # 8-byte Folded Spill
	sub	s1, a5, a3
	addi	s8, sp, 52
	bltu	s1, a0, .Lgcm_BB48_4
# %bb.3:                                # %start
	mv	s1, a0
.Lgcm_BB48_4:                               # %start
	addi	a0, sp, 176
	li	a3, 32
	vsetvli	zero, a3, e32, m8, ta, ma
	vmv.v.i	v8, 0
	vse32.v	v8, (a0)
	lbu	a0, 1(a1)
	lbu	a3, 0(a1)
	lbu	a4, 2(a1)
	lb	a5, 3(a1)
	slli	a0, a0, 8
	or	a0, a0, a3
	sd	s1, 32(sp)                      # 8-byte Folded Spill
	add	s5, s1, s9
	srli	a2, a2, 4
	slli	a4, a4, 16
	slli	a5, a5, 24
	or	a4, a4, a5
	or	a0, a0, a4
	add	s2, a0, a2
	addi	s0, a1, 4
	sw	s2, 48(sp)
	li	a2, 12
	mv	a0, s8
	mv	a1, s0
	la	t1, memcpy
	jalr	t1
	addi	s11, s2, 1
	sw	s11, 64(sp)
	addi	s1, sp, 68
	li	a2, 12
	mv	a0, s1
	mv	a1, s0
	la	t1, memcpy
	jalr	t1
	addi	s3, s2, 2
	sw	s3, 80(sp)
	addi	s6, sp, 84
	li	a2, 12
	mv	a0, s6
	mv	a1, s0
	la	t1, memcpy
	jalr	t1
	addi	s4, s2, 3
	sw	s4, 96(sp)
	addi	s7, sp, 100
	li	a2, 12
	mv	a0, s7
	mv	a1, s0
	la	t1, memcpy
	jalr	t1
	addi	a0, s2, 4
	sw	a0, 112(sp)
	addi	a0, sp, 116
	li	a2, 12
	mv	a1, s0
	la	t1, memcpy
	jalr	t1
	addi	a0, s2, 5
	sw	a0, 128(sp)
	addi	a0, sp, 132
	li	a2, 12
	mv	a1, s0
	la	t1, memcpy
	jalr	t1
	addi	a0, s2, 6
	sw	a0, 144(sp)
	addi	a0, sp, 148
	li	a2, 12
	mv	a1, s0
	la	t1, memcpy
	jalr	t1
	addi	a0, s2, 7
	sw	a0, 160(sp)
	addi	a0, sp, 164
	li	a2, 12
	mv	a1, s0
	la	t1, memcpy
	jalr	t1
	li	a0, 80
	bltu	a0, s5, .Lgcm_BB48_12
# %bb.5:                                # %then.1.i.i
	ld	a0, 0(s10)
	lbu	a1, 16(a0)
	lbu	a2, 17(a0)
	lbu	a3, 18(a0)
	lbu	a4, 19(a0)
	lbu	a5, 20(a0)
	lbu	s0, 21(a0)
	lbu	a6, 22(a0)
	lbu	s1, 23(a0)
	slli	a2, a2, 8
	slli	a3, a3, 16
	slli	a4, a4, 24
	slli	s0, s0, 8
	or	a7, a2, a1
	or	t0, a4, a3
	or	a5, a5, s0
	lbu	a2, 24(a0)
	lbu	a4, 25(a0)
	lbu	s0, 26(a0)
	lbu	a1, 27(a0)
	slli	a6, a6, 16
	slli	s1, s1, 24
	slli	a4, a4, 8
	slli	s0, s0, 16
	slli	a1, a1, 24
	or	s1, s1, a6
	or	a2, a2, a4
	or	a1, a1, s0
	lbu	a4, 29(a0)
	lbu	s0, 28(a0)
	lbu	a3, 30(a0)
	lbu	a0, 31(a0)
	slli	a4, a4, 8
	or	a4, a4, s0
	slli	a3, a3, 16
	slli	a0, a0, 24
	or	a0, a0, a3
	or	s0, t0, a7
	or	a5, a5, s1
	or	a1, a1, a2
	addi	a3, s5, 15
	srli	a3, a3, 4
	or	a0, a0, a4
	slli	a5, a5, 32
	slli	a2, a0, 32
	or	a0, a5, s0
	or	a1, a1, a2
	addi	a2, sp, 48
	call	gcm.aes_permute.blocks.process_on_lanes
	ld	a6, 40(sp)                      # 8-byte Folded Reload
	ld	a0, 24(sp)                      # 8-byte Folded Reload
	add	a0, a0, a6
	ld	s0, 32(sp)                      # 8-byte Folded Reload
	beqz	s9, .Lgcm_BB48_13
.Lgcm_BB48_6:                               # %then.1.i
	li	a1, 16
	sub	a2, a1, s9
	mv	a1, s0
	bltu	s0, a2, .Lgcm_BB48_8
# %bb.7:                                # %then.1.i
	mv	a1, a2
.Lgcm_BB48_8:                               # %then.1.i
	ld	a2, 16(sp)                      # 8-byte Folded Reload
	beq	a2, a6, .Lgcm_BB48_11
# %bb.9:                                # %join.8.i80.lr.ph
	li	a5, 0
	addi	a3, sp, 48
	add	a3, a3, s9
	mv	a4, a1
.Lgcm_BB48_10:                              # %vector.body
                                        # =>This Inner Loop Header: Depth=1
	vsetvli	s1, a4, e8, m1, ta, ma
	add	a2, a3, a5
	vle8.v	v8, (a2)
	add	a2, a0, a5
	vle8.v	v9, (a2)
	sub	a4, a4, s1
	vxor.vv	v8, v9, v8
	vse8.v	v8, (a2)
	add	a5, a5, s1
	bnez	a4, .Lgcm_BB48_10
.Lgcm_BB48_11:                              # %join.3.i
	sub	a2, s0, a1
	li	a3, 16
	bgeu	a2, a3, .Lgcm_BB48_14
	j	.Lgcm_BB48_16
.Lgcm_BB48_12:                              # %else.2.i.i
	addi	t4, sp, 112
	addi	a7, sp, 128
	addi	t3, sp, 144
	addi	a6, sp, 160
	srliw	t0, s4, 24
	srliw	t1, s4, 16
	vsetivli	zero, 12, e8, m1, ta, ma
	vle8.v	v10, (s1)
	srliw	t2, s4, 8
	vle8.v	v9, (s6)
	srliw	a5, s3, 24
	vle8.v	v8, (s7)
	srliw	a2, s3, 16
	vsetivli	zero, 16, e8, m1, ta, ma
	vmv.v.x	v11, s3
	srliw	s0, s3, 8
	vmv.v.x	v17, s4
	addi	a0, s8, 8
	vle8.v	v12, (a0)
	addi	a0, s8, 24
	vle8.v	v13, (a0)
	addi	a0, s8, 40
	vle8.v	v14, (a0)
	srliw	a4, s11, 24
	vsetivli	zero, 12, e8, m1, ta, ma
	vle8.v	v18, (s8)
	addi	a0, s8, 56
	vsetivli	zero, 16, e8, m1, ta, ma
	vle8.v	v15, (a0)
	srliw	a0, s11, 16
	vmv.v.x	v19, s11
	srliw	a1, s11, 8
	vle8.v	v16, (a7)
	srliw	s1, s2, 8
	vmv.v.x	v20, s2
	vslide1down.vx	v20, v20, s1
	srliw	s1, s2, 24
	srliw	a3, s2, 16
	vslide1down.vx	v19, v19, a1
.Lgcm_pcrel_hi116:
	auipc	a1, %pcrel_hi(.Lgcm_CPI48_0)
	vslide1down.vx	v20, v20, a3
	li	s3, 85
	vslide1down.vx	v20, v20, s1
	li	s2, 51
	vle8.v	v21, (t4)
	vslidedown.vi	v20, v20, 12
	vsetivli	zero, 12, e8, m1, tu, ma
	vslideup.vi	v20, v18, 4
	vsetivli	zero, 16, e8, m1, ta, ma
	vle8.v	v18, (t3)
	vslide1down.vx	v19, v19, a0
	vslide1down.vx	v19, v19, a4
	vslidedown.vi	v19, v19, 12
	vsetivli	zero, 12, e8, m1, tu, ma
	vslideup.vi	v19, v10, 4
	vsetivli	zero, 16, e8, m1, ta, ma
	vle8.v	v10, (a6)
	addi	a0, a1, %pcrel_lo(.Lgcm_pcrel_hi116)
	vslide1down.vx	v11, v11, s0
	vslide1down.vx	v17, v17, t2
	vslide1down.vx	v11, v11, a2
	vslide1down.vx	v11, v11, a5
	vslidedown.vi	v11, v11, 12
	vsetivli	zero, 12, e8, m1, tu, ma
	vslideup.vi	v11, v9, 4
	vsetivli	zero, 16, e8, m1, ta, ma
	vle8.v	v22, (a0)
	addi	a0, sp, 448
	vs1r.v	v22, (a0)                       # vscale x 8-byte Folded Spill
	vslide1down.vx	v9, v17, t1
	vslide1down.vx	v9, v9, t0
	vslidedown.vi	v9, v9, 12
	vsetivli	zero, 12, e8, m1, tu, ma
	vslideup.vi	v9, v8, 4
	vsetivli	zero, 16, e8, m1, ta, ma
	vslideup.vi	v20, v12, 12
	vslideup.vi	v19, v13, 12
	vslideup.vi	v11, v14, 12
	vslideup.vi	v9, v15, 12
	vrgather.vv	v8, v21, v22
	vrgather.vv	v12, v16, v22
	vrgather.vv	v14, v18, v22
	vrgather.vv	v13, v10, v22
	vrgather.vv	v10, v20, v22
	vrgather.vv	v15, v19, v22
	vrgather.vv	v16, v11, v22
	vrgather.vv	v11, v9, v22
	vsrl.vi	v9, v8, 1
	vsrl.vi	v17, v14, 1
	vsrl.vi	v18, v10, 1
	vsrl.vi	v19, v16, 1
	vxor.vv	v9, v12, v9
	vxor.vv	v17, v13, v17
	vxor.vv	v18, v15, v18
	vxor.vv	v19, v11, v19
	vand.vx	v9, v9, s3
	vand.vx	v17, v17, s3
	vand.vx	v18, v18, s3
	vand.vx	v19, v19, s3
	vxor.vv	v12, v9, v12
	vadd.vv	v9, v9, v9
	vxor.vv	v20, v17, v13
	vadd.vv	v17, v17, v17
	vxor.vv	v13, v18, v15
	vadd.vv	v15, v18, v18
	vxor.vv	v11, v19, v11
	vadd.vv	v18, v19, v19
	vxor.vv	v19, v9, v8
	vxor.vv	v8, v17, v14
	vsrl.vi	v9, v12, 2
	vxor.vv	v17, v15, v10
	vxor.vv	v14, v18, v16
	vsrl.vi	v10, v19, 2
	vsrl.vi	v15, v13, 2
	vxor.vv	v9, v20, v9
	vsrl.vi	v16, v17, 2
	vxor.vv	v10, v8, v10
	vxor.vv	v15, v11, v15
	vand.vx	v9, v9, s2
	vxor.vv	v16, v14, v16
	vand.vx	v18, v10, s2
	vand.vx	v15, v15, s2
	vxor.vv	v10, v9, v20
	vsll.vi	v20, v9, 2
	vand.vx	v16, v16, s2
	vxor.vv	v8, v18, v8
	vsll.vi	v18, v18, 2
	vxor.vv	v9, v15, v11
	vsll.vi	v21, v15, 2
	vxor.vv	v11, v20, v12
	vand.vi	v20, v10, 15
	vxor.vv	v12, v16, v14
	vsll.vi	v16, v16, 2
	vxor.vv	v15, v18, v19
	vxor.vv	v14, v21, v13
	vand.vi	v18, v11, 15
	vand.vi	v21, v8, 15
	vsrl.vi	v19, v9, 4
	vxor.vv	v13, v16, v17
	vand.vi	v16, v15, 15
	vxor.vv	v19, v20, v19
	vsrl.vi	v17, v14, 4
	vxor.vv	v17, v18, v17
	vsrl.vi	v18, v12, 4
	vxor.vv	v18, v21, v18
	vsrl.vi	v20, v13, 4
	vxor.vv	v16, v16, v20
	addi	s4, sp, 320
	lbu	a0, 8(s10)
	lbu	a1, 9(s10)
	lbu	a2, 10(s10)
	lbu	a3, 11(s10)
	lbu	a4, 12(s10)
	lbu	a5, 13(s10)
	lbu	s1, 14(s10)
	lbu	s0, 15(s10)
	slli	a1, a1, 8
	slli	a2, a2, 16
	slli	a3, a3, 24
	slli	a5, a5, 8
	or	a7, a1, a0
	or	a2, a2, a3
	or	a6, a5, a4
	lbu	a1, 16(s10)
	lbu	a3, 17(s10)
	lbu	a5, 18(s10)
	lbu	a4, 19(s10)
	slli	s1, s1, 16
	slli	s0, s0, 24
	slli	a3, a3, 8
	slli	a5, a5, 16
	slli	a4, a4, 24
	or	s0, s0, s1
	or	a1, a1, a3
	or	a4, a4, a5
	lbu	a3, 21(s10)
	lbu	a5, 20(s10)
	lbu	s1, 22(s10)
	lbu	a0, 23(s10)
	slli	a3, a3, 8
	or	a3, a3, a5
	addi	s6, sp, 80
	slli	s1, s1, 16
	slli	a0, a0, 24
	or	a0, a0, s1
	addi	s5, sp, 304
	or	a2, a2, a7
	addi	s7, s4, 16
	or	a5, s0, a6
	addi	s8, s4, 32
	or	a1, a1, a4
	addi	s10, s4, 48
	or	a3, a3, a0
	addi	s11, s4, 64
	slli	a0, a5, 32
	or	a0, a0, a2
	addi	s1, s4, 80
	slli	a3, a3, 32
	or	a1, a1, a3
	addi	s0, s4, 96
	srli	a1, a1, 3
	addi	a1, a1, -1
	vxor.vv	v10, v19, v10
	vsll.vi	v19, v19, 4
	vxor.vv	v11, v17, v11
	vsll.vi	v17, v17, 4
	vxor.vv	v8, v18, v8
	vsll.vi	v18, v18, 4
	vxor.vv	v9, v19, v9
	vxor.vv	v15, v16, v15
	vsll.vi	v16, v16, 4
	vxor.vv	v14, v17, v14
	vxor.vv	v12, v18, v12
	vse8.v	v9, (s8)
	vse8.v	v11, (s11)
	vse8.v	v8, (s1)
	vxor.vv	v8, v16, v13
	vse8.v	v14, (s4)
	vse8.v	v12, (s7)
	vse8.v	v15, (s10)
	vse8.v	v8, (s5)
	vse8.v	v10, (s0)
	addi	a2, sp, 304
	call	gcm.aes_soft.soft.ciphers.planes.EncryptPlaneCipher.process_planes
	vsetivli	zero, 16, e8, m1, ta, ma
	vle8.v	v12, (s5)
	vle8.v	v16, (s4)
	vle8.v	v13, (s7)
	vle8.v	v17, (s8)
	vle8.v	v14, (s10)
	vle8.v	v18, (s11)
	vle8.v	v15, (s1)
	vle8.v	v19, (s0)
.Lgcm_pcrel_hi117:
	auipc	a2, %pcrel_hi(.Lgcm_CPI48_1)
	csrr	a3, vlenb
	lui	a1, 1048560
	addi	a0, sp, 48
	addi	a2, a2, %pcrel_lo(.Lgcm_pcrel_hi117)
	li	a4, 32
	vsetvli	zero, a4, e8, m2, ta, ma
	vle8.v	v8, (a2)
	vsetivli	zero, 16, e8, m1, ta, ma
	vsrl.vi	v10, v12, 1
	vsrl.vi	v11, v13, 1
	vsrl.vi	v20, v14, 1
	vsrl.vi	v21, v15, 1
	vxor.vv	v10, v16, v10
	vxor.vv	v11, v17, v11
	vxor.vv	v20, v18, v20
	vxor.vv	v21, v19, v21
	vand.vx	v22, v10, s3
	vand.vx	v23, v11, s3
	vand.vx	v20, v20, s3
	vand.vx	v21, v21, s3
	vsetvli	zero, a4, e8, m2, ta, ma
	vslidedown.vx	v10, v8, a3
	vsetivli	zero, 16, e8, m1, ta, ma
	vxor.vv	v9, v22, v16
	vadd.vv	v11, v22, v22
	vxor.vv	v16, v23, v17
	vadd.vv	v17, v23, v23
	vxor.vv	v18, v20, v18
	vadd.vv	v20, v20, v20
	vxor.vv	v19, v21, v19
	vadd.vv	v21, v21, v21
	vxor.vv	v11, v11, v12
	vxor.vv	v12, v17, v13
	vxor.vv	v13, v20, v14
	vxor.vv	v14, v21, v15
	vsrl.vi	v15, v9, 2
	vsrl.vi	v17, v18, 2
	vsrl.vi	v20, v11, 2
	vsrl.vi	v21, v13, 2
	vxor.vv	v15, v16, v15
	vxor.vv	v17, v19, v17
	vxor.vv	v20, v12, v20
	vxor.vv	v21, v14, v21
	vand.vx	v15, v15, s2
	vand.vx	v17, v17, s2
	vand.vx	v20, v20, s2
	vand.vx	v21, v21, s2
	vxor.vv	v16, v15, v16
	vsll.vi	v15, v15, 2
	vxor.vv	v19, v17, v19
	vsll.vi	v17, v17, 2
	vxor.vv	v22, v20, v12
	vsll.vi	v12, v20, 2
	vxor.vv	v20, v21, v14
	vsll.vi	v14, v21, 2
	vxor.vv	v9, v15, v9
	vxor.vv	v15, v17, v18
	vsrl.vi	v17, v16, 4
	vand.vi	v18, v19, 15
	vxor.vv	v21, v12, v11
	vxor.vv	v23, v14, v13
	vsrl.vi	v11, v9, 4
	vand.vi	v12, v15, 15
	vxor.vv	v13, v18, v17
	vxor.vv	v11, v12, v11
	vxor.vv	v14, v13, v19
	vsll.vi	v12, v13, 4
	vxor.vv	v18, v11, v15
	vsll.vi	v11, v11, 4
	vxor.vv	v15, v12, v16
	vsetvli	a2, zero, e8, m1, ta, ma
	vrgather.vv	v13, v14, v10
	vsetivli	zero, 16, e8, m1, ta, ma
	vxor.vv	v9, v11, v9
	vsetvli	a2, zero, e8, m1, ta, ma
	vrgather.vv	v17, v15, v10
	vrgather.vv	v12, v14, v8
	vrgather.vv	v16, v15, v8
	vrgather.vv	v15, v18, v10
	vrgather.vv	v14, v18, v8
	vsetvli	zero, zero, e32, m4, ta, ma
	vmv.s.x	v0, a1
	vsetvli	zero, zero, e8, m1, ta, ma
	vrgather.vv	v11, v9, v10
	vrgather.vv	v10, v9, v8
	vsetivli	zero, 16, e8, m1, ta, ma
	vsrl.vi	v8, v22, 4
	vand.vi	v9, v20, 15
	vsrl.vi	v18, v21, 4
	vxor.vv	v8, v9, v8
	vand.vi	v9, v23, 15
	vxor.vv	v9, v9, v18
	vxor.vv	v18, v8, v20
	vsll.vi	v8, v8, 4
	vxor.vv	v19, v9, v23
	vsll.vi	v9, v9, 4
	vxor.vv	v20, v8, v22
	addi	a1, sp, 448
	vl1r.v	v22, (a1)                       # vscale x 8-byte Folded Reload
	vrgather.vv	v8, v18, v22
	vxor.vv	v9, v9, v21
	vrgather.vv	v18, v9, v22
	vsetvli	zero, a4, e8, m2, ta, ma
	vmerge.vvm	v10, v18, v10, v0
	vsetivli	zero, 16, e8, m1, ta, ma
	vrgather.vv	v18, v20, v22
	vrgather.vv	v20, v19, v22
	vsetvli	zero, a4, e8, m2, ta, ma
	vmerge.vvm	v16, v18, v16, v0
	vse8.v	v10, (a0)
	vse8.v	v16, (s6)
	vmerge.vvm	v10, v20, v14, v0
	addi	a0, sp, 112
	vse8.v	v10, (a0)
	vmerge.vvm	v8, v8, v12, v0
	addi	a0, sp, 144
	vse8.v	v8, (a0)
	ld	a6, 40(sp)                      # 8-byte Folded Reload
	ld	a0, 24(sp)                      # 8-byte Folded Reload
	add	a0, a0, a6
	ld	s0, 32(sp)                      # 8-byte Folded Reload
	bnez	s9, .Lgcm_BB48_6
.Lgcm_BB48_13:
	li	a1, 0
	mv	a2, s0
	li	a3, 16
	bltu	s0, a3, .Lgcm_BB48_16
.Lgcm_BB48_14:                              # %join.8.i.preheader
	vsetivli	zero, 16, e8, m1, ta, ma
.Lgcm_BB48_15:                              # %join.8.i
                                        # =>This Inner Loop Header: Depth=1
	add	a3, s9, a1
	addi	a4, sp, 48
	andi	a3, a3, -16
	add	a3, a3, a4
	add	a4, a0, a1
	vle8.v	v8, (a4)
	vle8.v	v9, (a3)
	addi	a1, a1, 16
	addi	a2, a2, -16
	vxor.vv	v8, v9, v8
	li	a3, 15
	vse8.v	v8, (a4)
	bltu	a3, a2, .Lgcm_BB48_15
.Lgcm_BB48_16:                              # %after.4.i
	bgeu	a1, s0, .Lgcm_BB48_20
# %bb.17:                               # %then.9.i
	beqz	a2, .Lgcm_BB48_20
# %bb.18:                               # %vector.body191.preheader
	li	a3, 0
	add	s9, s9, a1
	addi	a4, sp, 48
	andi	a5, s9, -16
	add	a4, a4, a5
	add	a0, a0, a1
.Lgcm_BB48_19:                              # %vector.body191
                                        # =>This Inner Loop Header: Depth=1
	vsetvli	a1, a2, e8, m2, ta, ma
	add	a5, a4, a3
	vle8.v	v8, (a5)
	add	a5, a0, a3
	vle8.v	v10, (a5)
	sub	a2, a2, a1
	vxor.vv	v8, v10, v8
	vse8.v	v8, (a5)
	add	a3, a3, a1
	bnez	a2, .Lgcm_BB48_19
.Lgcm_BB48_20:                              # %"aes_ctr::add_blocks::add_blocks.exit"
	add	a0, s0, a6
	csrr	a1, vlenb
	add	sp, sp, a1
	ld	ra, 552(sp)                     # 8-byte Folded Reload
	ld	s0, 544(sp)                     # 8-byte Folded Reload
	ld	s1, 536(sp)                     # 8-byte Folded Reload
	ld	s2, 528(sp)                     # 8-byte Folded Reload
	ld	s3, 520(sp)                     # 8-byte Folded Reload
	ld	s4, 512(sp)                     # 8-byte Folded Reload
	ld	s5, 504(sp)                     # 8-byte Folded Reload
	ld	s6, 496(sp)                     # 8-byte Folded Reload
	ld	s7, 488(sp)                     # 8-byte Folded Reload
	ld	s8, 480(sp)                     # 8-byte Folded Reload
	ld	s9, 472(sp)                     # 8-byte Folded Reload
	ld	s10, 464(sp)                    # 8-byte Folded Reload
	ld	s11, 456(sp)                    # 8-byte Folded Reload
	addi	sp, sp, 560
	ret
.Lgcm_func_end48:
	.size	gcm.aes_ctr.add_in_batches.add_next.3, .Lgcm_func_end48-gcm.aes_ctr.add_in_batches.add_next.3
                                        # -- End function
	.section	.text.gcm.aes_cipher.zeroize.stack.wipe_stack.2816,"ax",@progbits
	.p2align	1                               # -- Begin function aes_cipher::zeroize::stack::wipe_stack::<=2816>
	.type	gcm.aes_cipher.zeroize.stack.wipe_stack.2816,@function
gcm.aes_cipher.zeroize.stack.wipe_stack.2816: # @gcm.aes_cipher.zeroize.stack.wipe_stack.2816
# %bb.0:                                # %start
	addi	sp, sp, -2032
	sd	ra, 2024(sp)                    # 8-byte Folded Spill
	sd	s0, 2016(sp)                    # 8-byte Folded Spill
	sd	s1, 2008(sp)                    # 8-byte Folded Spill
	addi	sp, sp, -832
	li	s1, 11
	slli	a2, s1, 8
	addi	a0, sp, 24
	addi	s0, sp, 24
	li	a1, 0
	la	t1, memset
	jalr	t1
	sd	zero, 16(sp)
	#APP
	#NO_APP
	fence	rw, rw
	ld	a0, 16(sp)
	fence	r, rw
	#APP
	#NO_APP
	srli	a1, a0, 8
	bgeu	a1, s1, .Lgcm_BB49_2
# %bb.1:                                # %then.1
	add	a0, a0, s0
	lbu	a0, 0(a0)
	#APP
	#NO_APP
	addi	a1, sp, 16
	amoswap.d.aqrl	zero, a0, (a1)
	#APP
	#NO_APP
.Lgcm_BB49_2:                               # %common.ret
	addi	sp, sp, 832
	ld	ra, 2024(sp)                    # 8-byte Folded Reload
	ld	s0, 2016(sp)                    # 8-byte Folded Reload
	ld	s1, 2008(sp)                    # 8-byte Folded Reload
	addi	sp, sp, 2032
	ret
.Lgcm_func_end49:
	.size	gcm.aes_cipher.zeroize.stack.wipe_stack.2816, .Lgcm_func_end49-gcm.aes_cipher.zeroize.stack.wipe_stack.2816
                                        # -- End function
	.section	.text.gcm.gcm_siv.course.open_in.2,"ax",@progbits
	.p2align	1                               # -- Begin function gcm_siv::course::open_in::<#40c030eaacddd0c9>
	.type	gcm.gcm_siv.course.open_in.2,@function
gcm.gcm_siv.course.open_in.2: # @gcm.gcm_siv.course.open_in.2
# %bb.0:                                # %start
	addi	sp, sp, -2032
	sd	ra, 2024(sp)                    # 8-byte Folded Spill
	sd	s0, 2016(sp)                    # 8-byte Folded Spill
	sd	s1, 2008(sp)                    # 8-byte Folded Spill
	sd	s2, 2000(sp)                    # 8-byte Folded Spill
	sd	s3, 1992(sp)                    # 8-byte Folded Spill
	sd	s4, 1984(sp)                    # 8-byte Folded Spill
	sd	s5, 1976(sp)                    # 8-byte Folded Spill
	sd	s6, 1968(sp)                    # 8-byte Folded Spill
	sd	s7, 1960(sp)                    # 8-byte Folded Spill
	sd	s8, 1952(sp)                    # 8-byte Folded Spill
	addi	sp, sp, -1376
	mv	s2, a7
	mv	s3, a6
	mv	s4, a5
	mv	s5, a4
	mv	s6, a3
	mv	s1, a2
	mv	s7, a1
	mv	s0, a0
	addi	a0, sp, 2047
	addi	a0, a0, 1265
	vsetivli	zero, 16, e8, m1, ta, ma
	vmv.v.i	v8, 0
	vse8.v	v8, (a0)
	addi	a0, sp, 1792
	li	a2, 1520
	li	a1, 0
	la	t1, memset
	jalr	t1
	addi	a0, sp, 256
	addi	a1, sp, 1792
	li	a2, 1536
	la	t1, memcpy
	jalr	t1
	addi	s8, sp, 16
	addi	a0, sp, 12
	li	a2, 244
	li	a1, 0
	la	t1, memset
	jalr	t1
	addi	a3, sp, 12
	addi	a4, sp, 256
	mv	a0, s0
	mv	a1, s7
	mv	a2, s1
	call	gcm.gcm_siv.keys.derive_and_prepare.2
	addi	a0, sp, 12
	addi	a1, sp, 256
	mv	a2, s1
	mv	a3, s6
	mv	a4, s5
	mv	a5, s4
	mv	a6, s3
	mv	a7, s2
	call	gcm.gcm_siv.message.open.2
	mv	s0, a0
	sw	zero, 12(sp)
	mv	a0, s8
	call	gcm.aes_cipher.zeroize.elements.zeroize_elements.1
	addi	a0, sp, 256
	li	a1, 96
	call	gcm.aes_cipher.zeroize.elements.zeroize_elements.2
	call	gcm.aes_cipher.zeroize.stack.wipe_stack.2816
	mv	a0, s0
	addi	sp, sp, 1376
	ld	ra, 2024(sp)                    # 8-byte Folded Reload
	ld	s0, 2016(sp)                    # 8-byte Folded Reload
	ld	s1, 2008(sp)                    # 8-byte Folded Reload
	ld	s2, 2000(sp)                    # 8-byte Folded Reload
	ld	s3, 1992(sp)                    # 8-byte Folded Reload
	ld	s4, 1984(sp)                    # 8-byte Folded Reload
	ld	s5, 1976(sp)                    # 8-byte Folded Reload
	ld	s6, 1968(sp)                    # 8-byte Folded Reload
	ld	s7, 1960(sp)                    # 8-byte Folded Reload
	ld	s8, 1952(sp)                    # 8-byte Folded Reload
	addi	sp, sp, 2032
	ret
.Lgcm_func_end50:
	.size	gcm.gcm_siv.course.open_in.2, .Lgcm_func_end50-gcm.gcm_siv.course.open_in.2
                                        # -- End function
	.section	.text.gcm.gcm_siv.keys.derive_and_prepare.2,"ax",@progbits
	.p2align	1                               # -- Begin function gcm_siv::keys::derive_and_prepare::<#40c030eaacddd0c9>
	.type	gcm.gcm_siv.keys.derive_and_prepare.2,@function
gcm.gcm_siv.keys.derive_and_prepare.2: # @gcm.gcm_siv.keys.derive_and_prepare.2
# %bb.0:                                # %start
	addi	sp, sp, -272
	sd	ra, 264(sp)                     # 8-byte Folded Spill
	sd	s0, 256(sp)                     # 8-byte Folded Spill
	sd	s1, 248(sp)                     # 8-byte Folded Spill
	sd	s2, 240(sp)                     # 8-byte Folded Spill
	sd	s3, 232(sp)                     # 8-byte Folded Spill
	sd	s4, 224(sp)                     # 8-byte Folded Spill
	sd	s5, 216(sp)                     # 8-byte Folded Spill
	sd	s6, 208(sp)                     # 8-byte Folded Spill
	sd	s7, 200(sp)                     # 8-byte Folded Spill
	sd	s8, 192(sp)                     # 8-byte Folded Spill
	mv	s6, a4
	mv	s4, a3
	mv	s3, a1
	li	a1, 192
	addi	s2, sp, 16
	vsetivli	zero, 8, e64, m4, ta, ma
	vmv.v.i	v8, 0
	vse64.v	v8, (s2)
	vsetvli	zero, zero, e8, mf2, ta, ma
	vmv.v.i	v8, 0
	vmv.s.x	v0, a1
	addi	a1, sp, 128
	vmerge.vim	v12, v8, 0, v0
	vsetvli	zero, zero, e64, m4, ta, ma
	vsext.vf8	v8, v12
	vse64.v	v8, (a1)
	vsetivli	zero, 2, e64, m1, ta, ma
	vmv.v.i	v8, 0
	addi	a1, sp, 96
	vse64.v	v8, (a1)
	addi	a1, sp, 112
	vse64.v	v8, (a1)
	addi	a1, sp, 176
	vle64.v	v9, (a1)
	mv	a1, sp
	vse64.v	v8, (a1)
	addi	a1, sp, 80
	vse64.v	v9, (a1)
	mv	a3, sp
	mv	a1, s3
	call	gcm.gcm_siv.keys.derive
	ld	a0, 0(sp)
	lhu	a1, 8(sp)
	lbu	a2, 10(sp)
	lbu	a3, 11(sp)
	lbu	a4, 12(sp)
	lbu	a5, 13(sp)
	lbu	s1, 14(sp)
	lbu	a6, 15(sp)
	slli	a4, a4, 32
	slli	a3, a3, 24
	or	a3, a3, a4
	slli	s1, s1, 48
	slli	a5, a5, 40
	slli	a2, a2, 16
	or	a2, a2, a1
	slli	a1, a1, 63
	or	a5, a5, s1
	srli	s0, a0, 1
	or	s0, s0, a1
	li	a1, -31
	or	a2, a2, a3
	addi	s5, s6, 512
	slli	a1, a1, 56
	slli	a6, a6, 56
	slli	a0, a0, 63
	srai	a0, a0, 63
	or	a3, a5, a6
	and	a0, a0, a1
	or	a2, a2, a3
	srli	a2, a2, 1
	xor	s1, a2, a0
	addi	s7, s6, 1024
	mv	a0, s6
	mv	a1, s0
	mv	a2, s1
	call	gcm.gcm.multiples.put_table
	mv	a0, s6
	mv	a1, s0
	mv	a2, s1
	call	gcm.gcm.multiples.next_power
	mv	s0, a0
	mv	s1, a1
	mv	a0, s6
	mv	a1, s0
	mv	a2, s1
	call	gcm.gcm.multiples.next_power
	mv	s6, a0
	mv	s8, a1
	mv	a0, s5
	mv	a1, s0
	mv	a2, s1
	call	gcm.gcm.multiples.put_table
	mv	a0, s7
	mv	a1, s6
	mv	a2, s8
	call	gcm.gcm.multiples.put_table
	addi	s1, s4, 4
	addi	a0, s4, 20
	li	a2, 224
	li	a1, 0
	la	t1, memset
	jalr	t1
	li	s0, 16
	bne	s3, s0, .Lgcm_BB51_2
# %bb.1:                                # %then.1.i
	li	a2, 16
	j	.Lgcm_BB51_3
.Lgcm_BB51_2:                               # %else.2.i
	li	a2, 32
	li	s0, 32
.Lgcm_BB51_3:                               # %"gcm_siv::keys::set_encryption_key::<#66aa1833bfd7fef8>.exit"
	mv	a0, s1
	mv	a1, s2
	call	gcm.aes_permute.lane_keys.expand_lanes
	sw	s0, 0(s4)
	mv	a0, sp
	li	a1, 6
	call	gcm.aes_cipher.zeroize.elements.zeroize_elements.4
	ld	ra, 264(sp)                     # 8-byte Folded Reload
	ld	s0, 256(sp)                     # 8-byte Folded Reload
	ld	s1, 248(sp)                     # 8-byte Folded Reload
	ld	s2, 240(sp)                     # 8-byte Folded Reload
	ld	s3, 232(sp)                     # 8-byte Folded Reload
	ld	s4, 224(sp)                     # 8-byte Folded Reload
	ld	s5, 216(sp)                     # 8-byte Folded Reload
	ld	s6, 208(sp)                     # 8-byte Folded Reload
	ld	s7, 200(sp)                     # 8-byte Folded Reload
	ld	s8, 192(sp)                     # 8-byte Folded Reload
	addi	sp, sp, 272
	ret
.Lgcm_func_end51:
	.size	gcm.gcm_siv.keys.derive_and_prepare.2, .Lgcm_func_end51-gcm.gcm_siv.keys.derive_and_prepare.2
                                        # -- End function
	.section	.text.gcm.gcm_siv.message.open.2,"ax",@progbits
	.p2align	1                               # -- Begin function gcm_siv::message::open::<#2b34360e0e51af73>
	.type	gcm.gcm_siv.message.open.2,@function
gcm.gcm_siv.message.open.2: # @gcm.gcm_siv.message.open.2
# %bb.0:                                # %start
	addi	sp, sp, -96
	sd	ra, 88(sp)                      # 8-byte Folded Spill
	sd	s0, 80(sp)                      # 8-byte Folded Spill
	sd	s1, 72(sp)                      # 8-byte Folded Spill
	sd	s2, 64(sp)                      # 8-byte Folded Spill
	sd	s3, 56(sp)                      # 8-byte Folded Spill
	sd	s4, 48(sp)                      # 8-byte Folded Spill
	sd	s5, 40(sp)                      # 8-byte Folded Spill
	sd	s6, 32(sp)                      # 8-byte Folded Spill
	sd	s7, 24(sp)                      # 8-byte Folded Spill
	sd	s8, 16(sp)                      # 8-byte Folded Spill
	mv	s3, a7
	mv	s2, a6
	mv	s8, a5
	mv	s4, a4
	mv	s5, a3
	mv	s6, a2
	mv	s7, a1
	mv	s1, a0
	mv	a1, a7
	mv	a2, a5
	mv	a3, a6
	call	gcm.gcm_siv.message.process_text
	vsetivli	zero, 2, e64, m1, ta, ma
	vmv.v.i	v8, 0
	mv	a0, sp
	vse64.v	v8, (a0)
	mv	a7, sp
	mv	a0, s1
	mv	a1, s7
	mv	a2, s6
	mv	a3, s5
	mv	a4, s4
	mv	a5, s8
	mv	a6, s2
	call	gcm.gcm_siv.message.put_tag.2
	mv	a1, sp
	mv	a0, s3
	call	gcm.aes_cipher.blocks.difference
	slli	a0, a0, 32
	srli	s0, a0, 32
	mv	a0, sp
	li	a1, 1
	call	gcm.aes_cipher.zeroize.elements.zeroize_elements.4
	beqz	s0, .Lgcm_BB52_2
# %bb.1:                                # %join.3
	mv	a0, s1
	mv	a1, s3
	mv	a2, s8
	mv	a3, s2
	call	gcm.gcm_siv.message.process_text
.Lgcm_BB52_2:                               # %common.ret
	seqz	a0, s0
	ld	ra, 88(sp)                      # 8-byte Folded Reload
	ld	s0, 80(sp)                      # 8-byte Folded Reload
	ld	s1, 72(sp)                      # 8-byte Folded Reload
	ld	s2, 64(sp)                      # 8-byte Folded Reload
	ld	s3, 56(sp)                      # 8-byte Folded Reload
	ld	s4, 48(sp)                      # 8-byte Folded Reload
	ld	s5, 40(sp)                      # 8-byte Folded Reload
	ld	s6, 32(sp)                      # 8-byte Folded Reload
	ld	s7, 24(sp)                      # 8-byte Folded Reload
	ld	s8, 16(sp)                      # 8-byte Folded Reload
	addi	sp, sp, 96
	ret
.Lgcm_func_end52:
	.size	gcm.gcm_siv.message.open.2, .Lgcm_func_end52-gcm.gcm_siv.message.open.2
                                        # -- End function
	.section	.rodata.cst16,"aM",@progbits,16
	.p2align	4, 0x0                          # -- Begin function gcm_siv::message::put_tag::<#2b34360e0e51af73>
.Lgcm_CPI53_0:
	.byte	0                               # 0x0
	.byte	1                               # 0x1
	.byte	28                              # 0x1c
	.byte	29                              # 0x1d
	.byte	45                              # 0x2d
	.byte	44                              # 0x2c
	.byte	49                              # 0x31
	.byte	48                              # 0x30
	.byte	39                              # 0x27
	.byte	38                              # 0x26
	.byte	59                              # 0x3b
	.byte	58                              # 0x3a
	.byte	10                              # 0xa
	.byte	11                              # 0xb
	.byte	22                              # 0x16
	.byte	23                              # 0x17
.Lgcm_CPI53_1:
	.byte	0                               # 0x0
	.byte	134                             # 0x86
	.byte	253                             # 0xfd
	.byte	123                             # 0x7b
	.byte	142                             # 0x8e
	.byte	8                               # 0x8
	.byte	115                             # 0x73
	.byte	245                             # 0xf5
	.byte	119                             # 0x77
	.byte	241                             # 0xf1
	.byte	138                             # 0x8a
	.byte	12                              # 0xc
	.byte	249                             # 0xf9
	.byte	127                             # 0x7f
	.byte	4                               # 0x4
	.byte	130                             # 0x82
.Lgcm_CPI53_2:
	.byte	128                             # 0x80
	.byte	2                               # 0x2
	.byte	1                               # 0x1
	.byte	15                              # 0xf
	.byte	9                               # 0x9
	.byte	5                               # 0x5
	.byte	14                              # 0xe
	.byte	12                              # 0xc
	.byte	13                              # 0xd
	.byte	4                               # 0x4
	.byte	11                              # 0xb
	.byte	10                              # 0xa
	.byte	7                               # 0x7
	.byte	8                               # 0x8
	.byte	6                               # 0x6
	.byte	3                               # 0x3
.Lgcm_CPI53_3:
	.byte	128                             # 0x80
	.byte	1                               # 0x1
	.byte	9                               # 0x9
	.byte	14                              # 0xe
	.byte	13                              # 0xd
	.byte	11                              # 0xb
	.byte	7                               # 0x7
	.byte	6                               # 0x6
	.byte	15                              # 0xf
	.byte	2                               # 0x2
	.byte	12                              # 0xc
	.byte	5                               # 0x5
	.byte	10                              # 0xa
	.byte	4                               # 0x4
	.byte	3                               # 0x3
	.byte	8                               # 0x8
.Lgcm_CPI53_4:
	.byte	0                               # 0x0
	.byte	195                             # 0xc3
	.byte	79                              # 0x4f
	.byte	12                              # 0xc
	.byte	252                             # 0xfc
	.byte	124                             # 0x7c
	.byte	67                              # 0x43
	.byte	128                             # 0x80
	.byte	207                             # 0xcf
	.byte	51                              # 0x33
	.byte	63                              # 0x3f
	.byte	112                             # 0x70
	.byte	191                             # 0xbf
	.byte	179                             # 0xb3
	.byte	240                             # 0xf0
	.byte	140                             # 0x8c
.Lgcm_CPI53_5:
	.byte	0                               # 0x0
	.byte	230                             # 0xe6
	.byte	114                             # 0x72
	.byte	183                             # 0xb7
	.byte	229                             # 0xe5
	.byte	198                             # 0xc6
	.byte	197                             # 0xc5
	.byte	35                              # 0x23
	.byte	81                              # 0x51
	.byte	180                             # 0xb4
	.byte	3                               # 0x3
	.byte	113                             # 0x71
	.byte	32                              # 0x20
	.byte	151                             # 0x97
	.byte	82                              # 0x52
	.byte	148                             # 0x94
.Lgcm_CPI53_6:
	.byte	0                               # 0x0
	.byte	124                             # 0x7c
	.byte	32                              # 0x20
	.byte	207                             # 0xcf
	.byte	146                             # 0x92
	.byte	1                               # 0x1
	.byte	239                             # 0xef
	.byte	147                             # 0x93
	.byte	179                             # 0xb3
	.byte	33                              # 0x21
	.byte	238                             # 0xee
	.byte	206                             # 0xce
	.byte	125                             # 0x7d
	.byte	178                             # 0xb2
	.byte	93                              # 0x5d
	.byte	92                              # 0x5c
.Lgcm_CPI53_7:
	.byte	0                               # 0x0
	.byte	209                             # 0xd1
	.byte	229                             # 0xe5
	.byte	247                             # 0xf7
	.byte	230                             # 0xe6
	.byte	37                              # 0x25
	.byte	18                              # 0x12
	.byte	195                             # 0xc3
	.byte	38                              # 0x26
	.byte	192                             # 0xc0
	.byte	55                              # 0x37
	.byte	210                             # 0xd2
	.byte	244                             # 0xf4
	.byte	3                               # 0x3
	.byte	17                              # 0x11
	.byte	52                              # 0x34
.Lgcm_CPI53_8:
	.byte	0                               # 0x0
	.byte	203                             # 0xcb
	.byte	215                             # 0xd7
	.byte	176                             # 0xb0
	.byte	33                              # 0x21
	.byte	141                             # 0x8d
	.byte	103                             # 0x67
	.byte	172                             # 0xac
	.byte	123                             # 0x7b
	.byte	90                              # 0x5a
	.byte	234                             # 0xea
	.byte	61                              # 0x3d
	.byte	70                              # 0x46
	.byte	246                             # 0xf6
	.byte	145                             # 0x91
	.byte	28                              # 0x1c
.Lgcm_CPI53_9:
	.byte	0                               # 0x0
	.byte	159                             # 0x9f
	.byte	97                              # 0x61
	.byte	22                              # 0x16
	.byte	194                             # 0xc2
	.byte	42                              # 0x2a
	.byte	119                             # 0x77
	.byte	232                             # 0xe8
	.byte	137                             # 0x89
	.byte	75                              # 0x4b
	.byte	93                              # 0x5d
	.byte	60                              # 0x3c
	.byte	181                             # 0xb5
	.byte	163                             # 0xa3
	.byte	212                             # 0xd4
	.byte	254                             # 0xfe
	.section	.text.gcm.gcm_siv.message.put_tag.2,"ax",@progbits
	.p2align	1
	.type	gcm.gcm_siv.message.put_tag.2,@function
gcm.gcm_siv.message.put_tag.2: # @gcm.gcm_siv.message.put_tag.2
# %bb.0:                                # %start
	addi	sp, sp, -208
	sd	ra, 200(sp)                     # 8-byte Folded Spill
	sd	s0, 192(sp)                     # 8-byte Folded Spill
	sd	s1, 184(sp)                     # 8-byte Folded Spill
	sd	s2, 176(sp)                     # 8-byte Folded Spill
	sd	s3, 168(sp)                     # 8-byte Folded Spill
	sd	s4, 160(sp)                     # 8-byte Folded Spill
	sd	s5, 152(sp)                     # 8-byte Folded Spill
	sd	s6, 144(sp)                     # 8-byte Folded Spill
	sd	s7, 136(sp)                     # 8-byte Folded Spill
	sd	s8, 128(sp)                     # 8-byte Folded Spill
	sd	s9, 120(sp)                     # 8-byte Folded Spill
	sd	s10, 112(sp)                    # 8-byte Folded Spill
	sd	s11, 104(sp)                    # 8-byte Folded Spill
	csrr	t1, vlenb
	slli	t0, t1, 1
	add	t1, t1, t0
	li	t2, 3
	slli	t2, t2, 10
.Lgcm_BB53_1:                               # %start
                                        # =>This Inner Loop Header: Depth=1
	sub	sp, sp, t2
	sd	zero, 0(sp)
	sub	t1, t1, t2
	bge	t1, t2, .Lgcm_BB53_1
# %bb.2:                                # %start
	sub	sp, sp, t1
	sd	a7, 24(sp)                      # 8-byte Folded Spill
	mv	s6, a6
	mv	s5, a5
	mv	s10, a4
	mv	s7, a3
	mv	s4, a2
	mv	s11, a1
	mv	s3, a0
	lui	a0, 699051
	vsetivli	zero, 2, e64, m1, ta, ma
	vmv.v.i	v10, 0
	addi	a1, sp, 64
	vsetivli	zero, 16, e8, m1, ta, ma
	vmv.v.i	v8, 0
	li	a2, 48
	addi	a0, a0, -1365
	vsetivli	zero, 2, e64, m1, ta, ma
	vse64.v	v10, (a1)
	slli	a1, a0, 32
	add	a0, a0, a1
	mulhu	a0, a4, a0
	srli	a0, a0, 5
	slli	s8, a0, 4
	slli	s9, a0, 5
	bgeu	a4, a2, .Lgcm_BB53_4
# %bb.3:
	vmv1r.v	v11, v8
	addi	a0, sp, 48
	add	s9, s9, s8
	vse64.v	v10, (a0)
	bne	s10, s9, .Lgcm_BB53_7
	j	.Lgcm_BB53_19
.Lgcm_BB53_4:                               # %join.5.i.i128.preheader
	add	s0, s9, s8
	add	s0, s0, s7
	mv	s1, s7
.Lgcm_BB53_5:                               # %join.5.i.i128
                                        # =>This Inner Loop Header: Depth=1
	addi	a0, s1, 16
	vsetivli	zero, 16, e8, m1, ta, ma
	vle8.v	v8, (s1)
	vid.v	v9
	addi	s2, sp, 64
	vle8.v	v10, (a0)
	addi	a0, s1, 32
	vle8.v	v11, (s2)
	vrsub.vi	v12, v9, 15
	vle8.v	v13, (a0)
	vrgather.vv	v9, v8, v12
	vxor.vv	v8, v11, v9
	vrgather.vv	v9, v10, v12
	vrgather.vv	v10, v13, v12
	addi	a0, sp, 64
	mv	a1, s11
	call	gcm.gcm.multiples.Multiples.three_products
	addi	s1, s1, 48
	bne	s1, s0, .Lgcm_BB53_5
# %bb.6:                                # %"gcm::hash::hash_threes::<#1ace2c8123f9d1c9>.exit.loopexit.i"
	vsetivli	zero, 16, e8, m1, ta, ma
	vle8.v	v11, (s2)
	vsetivli	zero, 2, e64, m1, ta, ma
	vmv.v.i	v10, 0
	addi	a0, sp, 48
	add	s9, s9, s8
	vse64.v	v10, (a0)
	beq	s10, s9, .Lgcm_BB53_19
.Lgcm_BB53_7:                               # %join.3.i.i
	sub	a2, s10, s9
	li	a0, 16
	add	s8, s7, s9
	bltu	a0, a2, .Lgcm_BB53_11
# %bb.8:                                # %then.4.i.i
	beq	a2, a0, .Lgcm_BB53_10
# %bb.9:                                # %join.3.i.i93.i.i
	addi	a0, sp, 64
	vse64.v	v10, (a0)
	mv	a1, s8
	csrr	a3, vlenb
	add	a3, a3, sp
	addi	a3, a3, 96
	vs1r.v	v11, (a3)                       # vscale x 8-byte Folded Spill
	la	t1, memcpy
	jalr	t1
	csrr	a0, vlenb
	add	a0, a0, sp
	addi	a0, a0, 96
	vl1r.v	v11, (a0)                       # vscale x 8-byte Folded Reload
	addi	s8, sp, 64
.Lgcm_BB53_10:                              # %"gcm::hash::last_block::<#1ace2c8123f9d1c9>.exit147.i.i"
	vsetivli	zero, 16, e8, m1, ta, ma
	vle8.v	v8, (s8)
	vid.v	v9
	vrsub.vi	v9, v9, 15
	vrgather.vv	v10, v8, v9
	vxor.vv	v8, v10, v11
	addi	a0, sp, 48
	addi	s0, sp, 48
	mv	a1, s11
	call	gcm.gcm.multiples.Multiples.block_product
	j	.Lgcm_BB53_18
.Lgcm_BB53_11:                              # %join.6.i.i
	vsetivli	zero, 16, e8, m1, ta, ma
	vle8.v	v8, (s8)
	vid.v	v9
	vrsub.vi	v12, v9, 15
	vrgather.vv	v9, v8, v12
	li	a0, 32
	vxor.vv	v8, v9, v11
	bltu	a0, a2, .Lgcm_BB53_15
# %bb.12:                               # %then.7.i.i
	addi	a1, s9, 16
	sub	a2, s10, a1
	li	a0, 16
	add	a1, a1, s7
	beq	a2, a0, .Lgcm_BB53_14
# %bb.13:                               # %join.3.i.i34.i.i
	addi	a0, sp, 64
	vsetivli	zero, 2, e64, m1, ta, ma
	vse64.v	v10, (a0)
	csrr	a3, vlenb
	slli	a3, a3, 1
	add	a3, a3, sp
	addi	a3, a3, 96
	vs1r.v	v8, (a3)                        # vscale x 8-byte Folded Spill
	csrr	a3, vlenb
	add	a3, a3, sp
	addi	a3, a3, 96
	vs1r.v	v12, (a3)                       # vscale x 8-byte Folded Spill
	la	t1, memcpy
	jalr	t1
	csrr	a0, vlenb
	add	a0, a0, sp
	addi	a0, a0, 96
	vl1r.v	v12, (a0)                       # vscale x 8-byte Folded Reload
	csrr	a0, vlenb
	slli	a0, a0, 1
	add	a0, a0, sp
	addi	a0, a0, 96
	vl1r.v	v8, (a0)                        # vscale x 8-byte Folded Reload
	addi	a1, sp, 64
	vsetivli	zero, 16, e8, m1, ta, ma
.Lgcm_BB53_14:                              # %"gcm::hash::last_block::<#1ace2c8123f9d1c9>.exit88.i.i"
	vle8.v	v10, (a1)
	vrgather.vv	v9, v10, v12
	addi	a0, sp, 48
	addi	s0, sp, 48
	mv	a1, s11
	call	gcm.gcm.multiples.Multiples.two_products
	j	.Lgcm_BB53_18
.Lgcm_BB53_15:                              # %join.9.i.i
	addi	a1, s9, 32
	sub	a2, s10, a1
	li	a0, 16
	add	a1, a1, s7
	beq	a2, a0, .Lgcm_BB53_17
# %bb.16:                               # %join.3.i.i.i.i
	addi	a0, sp, 64
	vsetivli	zero, 2, e64, m1, ta, ma
	vse64.v	v10, (a0)
	csrr	a3, vlenb
	slli	a3, a3, 1
	add	a3, a3, sp
	addi	a3, a3, 96
	vs1r.v	v8, (a3)                        # vscale x 8-byte Folded Spill
	csrr	a3, vlenb
	add	a3, a3, sp
	addi	a3, a3, 96
	vs1r.v	v12, (a3)                       # vscale x 8-byte Folded Spill
	la	t1, memcpy
	jalr	t1
	csrr	a0, vlenb
	add	a0, a0, sp
	addi	a0, a0, 96
	vl1r.v	v12, (a0)                       # vscale x 8-byte Folded Reload
	csrr	a0, vlenb
	slli	a0, a0, 1
	add	a0, a0, sp
	addi	a0, a0, 96
	vl1r.v	v8, (a0)                        # vscale x 8-byte Folded Reload
	addi	a1, sp, 64
	vsetivli	zero, 16, e8, m1, ta, ma
.Lgcm_BB53_17:                              # %"gcm::hash::last_block::<#1ace2c8123f9d1c9>.exit.i.i"
	vle8.v	v9, (a1)
	addi	s8, s8, 16
	vle8.v	v11, (s8)
	vrgather.vv	v10, v9, v12
	vrgather.vv	v9, v11, v12
	addi	a0, sp, 48
	addi	s0, sp, 48
	mv	a1, s11
	call	gcm.gcm.multiples.Multiples.three_products
.Lgcm_BB53_18:                              # %"gcm::hash::hash_last_group::<#1ace2c8123f9d1c9>.exit.i"
	vsetivli	zero, 16, e8, m1, ta, ma
	vle8.v	v11, (s0)
	vsetivli	zero, 2, e64, m1, ta, ma
	vmv.v.i	v10, 0
.Lgcm_BB53_19:                              # %"gcm::hash::hash_last_group::<#1ace2c8123f9d1c9>.exit.i"
	slli	a6, s10, 3
	slli	a7, s6, 3
	srli	t0, s10, 5
	srli	t1, s10, 13
	srli	t3, s10, 21
	srli	t5, s10, 29
	srli	a0, s10, 37
	srli	a1, s10, 45
	srli	a2, s10, 53
	srli	t2, s6, 5
	srli	t4, s6, 13
	srli	a3, s6, 21
	srli	a4, s6, 29
	srli	a5, s6, 37
	srli	s0, s6, 45
	srli	s1, s6, 53
	vsetivli	zero, 16, e8, m1, ta, ma
	vmv.v.x	v8, a2
	li	a2, 255
	vmv.v.x	v9, s1
	addi	s1, sp, 64
	vsetvli	zero, zero, e16, m2, ta, ma
	vmv.s.x	v0, a2
	lui	a2, 699051
	vse8.v	v11, (s1)
	li	s1, 48
	addi	a2, a2, -1365
	vsetvli	zero, zero, e8, m1, ta, mu
	vslide1down.vx	v8, v8, a1
	vslide1down.vx	v9, v9, s0
	slli	a1, a2, 32
	vslide1down.vx	v8, v8, a0
	vslide1down.vx	v9, v9, a5
	add	a1, a1, a2
	vslide1down.vx	v8, v8, t5
	vslide1down.vx	v9, v9, a4
	mulhu	a0, s6, a1
	vslide1down.vx	v8, v8, t3
	vslide1down.vx	v9, v9, a3
	srli	a0, a0, 5
	vslide1down.vx	v8, v8, t1
	vslide1down.vx	v9, v9, t4
	slli	s8, a0, 4
	vslide1down.vx	v8, v8, t0
	vslide1down.vx	v9, v9, t2
	vslide1down.vx	v12, v8, a6
	vslide1down.vx	v8, v9, a7
	vslidedown.vi	v12, v8, 8, v0.t
	slli	s9, a0, 5
	bltu	s6, s1, .Lgcm_BB53_23
# %bb.20:                               # %join.5.i.i.i.preheader
	csrr	a0, vlenb
	slli	a0, a0, 1
	add	a0, a0, sp
	addi	a0, a0, 96
	vs1r.v	v12, (a0)                       # vscale x 8-byte Folded Spill
	add	s2, s9, s8
	add	s2, s2, s5
	mv	s1, s5
.Lgcm_BB53_21:                              # %join.5.i.i.i
                                        # =>This Inner Loop Header: Depth=1
	addi	a0, s1, 16
	vsetivli	zero, 16, e8, m1, ta, ma
	vle8.v	v8, (s1)
	vid.v	v9
	addi	s0, sp, 64
	vle8.v	v10, (a0)
	addi	a0, s1, 32
	vle8.v	v11, (s0)
	vrsub.vi	v12, v9, 15
	vle8.v	v13, (a0)
	vrgather.vv	v9, v8, v12
	vxor.vv	v8, v11, v9
	vrgather.vv	v9, v10, v12
	vrgather.vv	v10, v13, v12
	addi	a0, sp, 64
	mv	a1, s11
	call	gcm.gcm.multiples.Multiples.three_products
	addi	s1, s1, 48
	bne	s1, s2, .Lgcm_BB53_21
# %bb.22:                               # %"gcm::hash::hash_string_and_end::<#1ace2c8123f9d1c9>.exit.loopexit.i"
	vsetivli	zero, 16, e8, m1, ta, ma
	vle8.v	v11, (s0)
	vsetivli	zero, 2, e64, m1, ta, ma
	vmv.v.i	v10, 0
	csrr	a0, vlenb
	slli	a0, a0, 1
	add	a0, a0, sp
	addi	a0, a0, 96
	vl1r.v	v12, (a0)                       # vscale x 8-byte Folded Reload
.Lgcm_BB53_23:                              # %"gcm::hash::hash_string_and_end::<#1ace2c8123f9d1c9>.exit.i"
	addi	s7, s3, 4
	addi	a0, sp, 32
	add	a1, s9, s8
	vsetivli	zero, 2, e64, m1, ta, ma
	vse64.v	v10, (a0)
	bne	s6, a1, .Lgcm_BB53_26
# %bb.24:                               # %then.1.i139.i
	vsetivli	zero, 16, e8, m1, ta, ma
	vxor.vv	v8, v11, v12
.Lgcm_BB53_25:                              # %"gcm_siv::hash::MultiplesRoomPolyvalRoom::hash.exit"
	mv	a1, s11
	call	gcm.gcm.multiples.Multiples.block_product
	j	.Lgcm_BB53_34
.Lgcm_BB53_26:                              # %join.3.i59.i
	sub	a2, s6, a1
	li	a0, 16
	bltu	a0, a2, .Lgcm_BB53_30
# %bb.27:                               # %then.4.i137.i
	add	a1, a1, s5
	beq	a2, a0, .Lgcm_BB53_29
# %bb.28:                               # %join.3.i.i27.i.i
	addi	a0, sp, 64
	vse64.v	v10, (a0)
	csrr	a3, vlenb
	add	a3, a3, sp
	addi	a3, a3, 96
	vs1r.v	v11, (a3)                       # vscale x 8-byte Folded Spill
	csrr	a3, vlenb
	slli	a3, a3, 1
	add	a3, a3, sp
	addi	a3, a3, 96
	vs1r.v	v12, (a3)                       # vscale x 8-byte Folded Spill
	la	t1, memcpy
	jalr	t1
	csrr	a0, vlenb
	slli	a0, a0, 1
	add	a0, a0, sp
	addi	a0, a0, 96
	vl1r.v	v12, (a0)                       # vscale x 8-byte Folded Reload
	csrr	a0, vlenb
	add	a0, a0, sp
	addi	a0, a0, 96
	vl1r.v	v11, (a0)                       # vscale x 8-byte Folded Reload
	addi	a1, sp, 64
.Lgcm_BB53_29:                              # %"gcm::hash::last_block::<#1ace2c8123f9d1c9>.exit81.i.i"
	vsetivli	zero, 16, e8, m1, ta, ma
	vle8.v	v8, (a1)
	vid.v	v9
	vrsub.vi	v9, v9, 15
	vrgather.vv	v10, v8, v9
	vxor.vv	v8, v10, v11
	addi	a0, sp, 32
	mv	a1, s11
	vmv1r.v	v9, v12
	call	gcm.gcm.multiples.Multiples.two_products
	j	.Lgcm_BB53_34
.Lgcm_BB53_30:                              # %join.6.i60.i
	li	a0, 32
	bltu	a0, a2, .Lgcm_BB53_37
# %bb.31:                               # %then.7.i76.i
	add	a0, s5, a1
	vsetivli	zero, 16, e8, m1, ta, ma
	vid.v	v8
	addi	a1, a1, 16
	vle8.v	v9, (a0)
	li	a0, 16
	vrsub.vi	v13, v8, 15
	sub	a2, s6, a1
	vrgather.vv	v8, v9, v13
	vxor.vv	v8, v8, v11
	add	a1, a1, s5
	beq	a2, a0, .Lgcm_BB53_33
# %bb.32:                               # %join.3.i.i.i83.i
	addi	a0, sp, 64
	vsetivli	zero, 2, e64, m1, ta, ma
	vse64.v	v10, (a0)
	csrr	a3, vlenb
	slli	a3, a3, 1
	add	a3, a3, sp
	addi	a3, a3, 96
	vs1r.v	v12, (a3)                       # vscale x 8-byte Folded Spill
	csrr	a3, vlenb
	add	a3, a3, sp
	addi	a3, a3, 96
	vs1r.v	v8, (a3)                        # vscale x 8-byte Folded Spill
	addi	a3, sp, 96
	vs1r.v	v13, (a3)                       # vscale x 8-byte Folded Spill
	la	t1, memcpy
	jalr	t1
	addi	a0, sp, 96
	vl1r.v	v13, (a0)                       # vscale x 8-byte Folded Reload
	csrr	a0, vlenb
	add	a0, a0, sp
	addi	a0, a0, 96
	vl1r.v	v8, (a0)                        # vscale x 8-byte Folded Reload
	csrr	a0, vlenb
	slli	a0, a0, 1
	add	a0, a0, sp
	addi	a0, a0, 96
	vl1r.v	v12, (a0)                       # vscale x 8-byte Folded Reload
	addi	a1, sp, 64
	vsetivli	zero, 16, e8, m1, ta, ma
.Lgcm_BB53_33:                              # %"gcm::hash::last_block::<#1ace2c8123f9d1c9>.exit.i131.i"
	vle8.v	v10, (a1)
	vrgather.vv	v9, v10, v13
	addi	a0, sp, 32
	mv	a1, s11
	vmv1r.v	v10, v12
	call	gcm.gcm.multiples.Multiples.three_products
.Lgcm_BB53_34:                              # %"gcm_siv::hash::MultiplesRoomPolyvalRoom::hash.exit"
	ld	s6, 32(sp)
	ld	s8, 40(sp)
	lui	a6, 4080
	li	t0, 255
	lui	a7, 16
	vsetivli	zero, 8, e8, mf2, ta, ma
	vle8.v	v8, (s4)
	addi	s4, s4, 8
	vsetivli	zero, 16, e8, m1, ta, ma
	vmv.v.i	v9, -1
	li	t1, 127
.Lgcm_pcrel_hi118:
	auipc	t2, %pcrel_hi(.Lgcm_CPI53_0)
.Lgcm_pcrel_hi119:
	auipc	t3, %pcrel_hi(.Lgcm_CPI53_1)
.Lgcm_pcrel_hi120:
	auipc	t4, %pcrel_hi(.Lgcm_CPI53_2)
.Lgcm_pcrel_hi121:
	auipc	t5, %pcrel_hi(.Lgcm_CPI53_3)
.Lgcm_pcrel_hi122:
	auipc	t6, %pcrel_hi(.Lgcm_CPI53_4)
.Lgcm_pcrel_hi123:
	auipc	s2, %pcrel_hi(.Lgcm_CPI53_5)
.Lgcm_pcrel_hi124:
	auipc	s5, %pcrel_hi(.Lgcm_CPI53_6)
.Lgcm_pcrel_hi125:
	auipc	a5, %pcrel_hi(.Lgcm_CPI53_7)
	addi	a0, s7, 16
	slli	a4, t0, 24
	addi	a3, a7, -256
	vsetivli	zero, 4, e16, mf2, ta, ma
	vle8.v	v11, (s4)
	vmv.s.x	v0, t0
	vsetivli	zero, 16, e8, m1, ta, ma
	vslide1down.vx	v10, v9, t1
	addi	s1, t2, %pcrel_lo(.Lgcm_pcrel_hi118)
	addi	s0, t3, %pcrel_lo(.Lgcm_pcrel_hi119)
	addi	t0, t4, %pcrel_lo(.Lgcm_pcrel_hi120)
	addi	t1, t5, %pcrel_lo(.Lgcm_pcrel_hi121)
	addi	t2, t6, %pcrel_lo(.Lgcm_pcrel_hi122)
	addi	t3, s2, %pcrel_lo(.Lgcm_pcrel_hi123)
	addi	t4, s5, %pcrel_lo(.Lgcm_pcrel_hi124)
	addi	a7, a5, %pcrel_lo(.Lgcm_pcrel_hi125)
	vle8.v	v13, (s1)
	vle8.v	v9, (s0)
	srli	a5, s6, 24
	srli	a1, s6, 8
	srli	t5, s6, 40
	srli	t6, s6, 56
	and	s1, s6, a6
	srliw	a2, s6, 24
	srli	s0, s8, 8
	and	a1, a1, a4
	and	a4, a4, s0
	and	s0, s6, a3
	and	a5, a5, a6
	or	s2, a1, a5
	slli	a5, s6, 56
	slli	s1, s1, 24
	slli	a2, a2, 32
	or	s4, s1, a2
	srli	s1, s8, 24
	slli	s0, s0, 40
	or	a5, a5, s0
	srli	s0, s8, 40
	and	s1, s1, a6
	or	s5, a4, s1
	srli	s1, s8, 56
	and	a1, s8, a6
	and	s0, s0, a3
	or	s0, s0, s1
	srliw	s1, s8, 24
	and	a2, t5, a3
	and	a3, s8, a3
	slli	a1, a1, 24
	slli	s1, s1, 32
	or	s9, a1, s1
	slli	s1, s8, 56
	zext.b	a6, s8
	zext.b	t5, s6
	vmv.v.i	v12, 0
	vsetivli	zero, 8, e8, m1, tu, ma
	vmv.v.v	v12, v8
	slli	a3, a3, 40
	or	a2, a2, t6
	slli	t6, t6, 56
	vsetivli	zero, 12, e8, m1, tu, ma
	vslideup.vi	v12, v11, 8
	or	a1, s1, a3
	or	s1, s2, a2
	or	s6, a5, s4
	or	s0, s5, s0
	or	a4, a1, s9
	slli	a2, a2, 48
	srli	s4, a1, 48
	srli	s2, a5, 48
	or	a3, a4, s0
	slli	a5, s1, 32
	srli	a1, a4, 32
	or	s5, a1, a5
	srli	a5, a3, 8
	or	s8, a5, t6
	srli	s0, a3, 16
	or	t6, s0, a2
	or	a5, s6, s1
	slli	s1, s1, 40
	srli	a4, a4, 40
	vsetivli	zero, 16, e8, m1, ta, mu
	vmv.v.x	v8, a3
	srli	a3, a3, 24
	or	a3, a3, s1
	slli	s0, a5, 24
	or	a4, a4, s0
	slli	a1, a5, 16
	or	a1, s4, a1
	slli	s0, a5, 8
	or	s1, a6, s0
	srli	s0, a5, 8
	vmv.v.x	v11, a5
	vslide1down.vx	v11, v11, s0
	srli	a2, a5, 16
	vslide1down.vx	v11, v11, a2
	srli	a2, s6, 32
	srli	s0, s6, 40
	srli	a5, a5, 24
	vslide1down.vx	v8, v8, s8
	vslide1down.vx	v11, v11, a5
	vslide1down.vx	v8, v8, t6
	vslide1down.vx	v11, v11, a2
	vslide1down.vx	v8, v8, a3
	vslide1down.vx	v11, v11, s0
	vslide1down.vx	v8, v8, s5
	vslide1down.vx	v11, v11, s2
	vslide1down.vx	v8, v8, a4
	vslide1down.vx	v11, v11, t5
	vslide1down.vx	v8, v8, a1
	vslide1down.vx	v8, v8, s1
	vslidedown.vi	v11, v8, 8, v0.t
	vxor.vv	v8, v11, v12
	vand.vv	v8, v8, v10
	ld	s0, 24(sp)                      # 8-byte Folded Reload
	vse8.v	v8, (s0)
	vle8.v	v14, (s7)
	vle8.v	v11, (t0)
	vle8.v	v10, (t1)
	vle8.v	v12, (t2)
	vxor.vv	v8, v14, v8
	vand.vi	v14, v8, 15
	vrgather.vv	v15, v13, v14
	vle8.v	v13, (t3)
	lwu	a1, 0(s3)
	vsrl.vi	v8, v8, 4
	vrgather.vv	v16, v9, v8
	vle8.v	v14, (t4)
	vxor.vv	v8, v16, v15
	vle8.v	v15, (a7)
	srli	a2, a1, 2
	addi	a1, a2, 6
	slli	a2, a2, 4
	addi	a2, a2, 96
	li	a3, 16
.Lgcm_BB53_35:                              # %join.5.i.i
                                        # =>This Inner Loop Header: Depth=1
	andi	a4, a3, 48
.Lgcm_pcrel_hi126:
	auipc	a5, %pcrel_hi(.Lgcm_static.5)
.Lgcm_pcrel_hi127:
	auipc	s1, %pcrel_hi(.Lgcm_static.6)
	addi	a5, a5, %pcrel_lo(.Lgcm_pcrel_hi126)
	addi	s1, s1, %pcrel_lo(.Lgcm_pcrel_hi127)
	add	a5, a5, a4
	add	a4, a4, s1
	vsetvli	zero, zero, e8, m1, ta, ma
	vle8.v	v16, (a0)
	vsrl.vi	v9, v8, 4
	vand.vi	v8, v8, 15
	addi	a3, a3, 16
	vxor.vv	v17, v9, v8
	vrgather.vv	v18, v11, v8
	vrgather.vv	v8, v10, v9
	vrgather.vv	v19, v10, v17
	vxor.vv	v8, v8, v18
	vxor.vv	v18, v19, v18
	vmsle.vi	v0, v8, -1
	vrgather.vv	v19, v10, v8
	vmerge.vim	v8, v19, 0, v0
	vmsle.vi	v0, v18, -1
	vrgather.vv	v19, v10, v18
	vmerge.vim	v18, v19, 0, v0
	vxor.vv	v17, v8, v17
	vmsle.vi	v8, v8, -1
	vxor.vv	v19, v18, v9
	vrgather.vv	v20, v12, v17
	vmsle.vi	v9, v18, -1
	vrgather.vv	v18, v13, v19
	vmv.v.v	v0, v9
	vmerge.vim	v18, v18, 0, v0
	vxor.vv	v20, v18, v20
	vmv.v.v	v0, v8
	vmerge.vvm	v18, v20, v18, v0
	vle8.v	v20, (a5)
	vle8.v	v21, (a4)
	vrgather.vv	v22, v14, v17
	vrgather.vv	v17, v15, v19
	vmv.v.v	v0, v9
	vmerge.vim	v17, v17, 0, v0
	vmsle.vi	v9, v20, -1
	vxor.vv	v19, v17, v22
	vmv.v.v	v0, v8
	vmerge.vvm	v8, v19, v17, v0
	vrgather.vv	v17, v18, v20
	vrgather.vv	v19, v18, v21
	vxor.vv	v17, v8, v17
	vmv.v.v	v0, v9
	vmerge.vvm	v17, v17, v8, v0
	vmsle.vi	v8, v21, -1
	vrgather.vv	v18, v17, v20
	vxor.vv	v18, v16, v18
	vmerge.vvm	v9, v18, v16, v0
	vxor.vv	v16, v9, v19
	vmv.v.v	v0, v8
	vmerge.vvm	v8, v16, v9, v0
	vxor.vv	v8, v8, v17
	addi	a0, a0, 16
	bne	a3, a2, .Lgcm_BB53_35
# %bb.36:                               # %"gcm_c::siv::MessageRoomMessageKey::encrypt_block.exit"
	slli	a1, a1, 4
	vsrl.vi	v9, v8, 4
	vand.vi	v12, v8, 15
	add	s7, s7, a1
	vle8.v	v8, (s7)
.Lgcm_pcrel_hi128:
	auipc	a0, %pcrel_hi(.Lgcm_CPI53_8)
	vxor.vv	v13, v9, v12
	vrgather.vv	v14, v11, v12
	vrgather.vv	v11, v10, v9
	addi	a0, a0, %pcrel_lo(.Lgcm_pcrel_hi128)
	vrgather.vv	v12, v10, v13
	vxor.vv	v11, v11, v14
	vxor.vv	v12, v12, v14
	vmsle.vi	v0, v11, -1
	vrgather.vv	v14, v10, v11
	vmerge.vim	v11, v14, 0, v0
	vle8.v	v14, (a0)
.Lgcm_pcrel_hi129:
	auipc	a0, %pcrel_hi(.Lgcm_CPI53_9)
	vrgather.vv	v15, v10, v12
	vmsle.vi	v0, v12, -1
	addi	a0, a0, %pcrel_lo(.Lgcm_pcrel_hi129)
	vmerge.vim	v10, v15, 0, v0
	vle8.v	v12, (a0)
.Lgcm_pcrel_hi130:
	auipc	a0, %pcrel_hi(.Lgcm_static.3)
	andi	a1, a1, 48
	addi	a0, a0, %pcrel_lo(.Lgcm_pcrel_hi130)
	add	a0, a0, a1
	vxor.vv	v13, v11, v13
	vrgather.vv	v15, v14, v13
	vle8.v	v13, (a0)
	vxor.vv	v9, v10, v9
	vmsle.vi	v0, v10, -1
	vrgather.vv	v10, v12, v9
	vmerge.vim	v9, v10, 0, v0
	vmsle.vi	v0, v11, -1
	vxor.vv	v10, v9, v15
	vmerge.vvm	v9, v10, v9, v0
	vrgather.vv	v10, v9, v13
	vmsle.vi	v0, v13, -1
	vxor.vv	v9, v8, v10
	vmerge.vvm	v8, v9, v8, v0
	vse8.v	v8, (s0)
	csrr	a0, vlenb
	slli	a1, a0, 1
	add	a0, a0, a1
	add	sp, sp, a0
	ld	ra, 200(sp)                     # 8-byte Folded Reload
	ld	s0, 192(sp)                     # 8-byte Folded Reload
	ld	s1, 184(sp)                     # 8-byte Folded Reload
	ld	s2, 176(sp)                     # 8-byte Folded Reload
	ld	s3, 168(sp)                     # 8-byte Folded Reload
	ld	s4, 160(sp)                     # 8-byte Folded Reload
	ld	s5, 152(sp)                     # 8-byte Folded Reload
	ld	s6, 144(sp)                     # 8-byte Folded Reload
	ld	s7, 136(sp)                     # 8-byte Folded Reload
	ld	s8, 128(sp)                     # 8-byte Folded Reload
	ld	s9, 120(sp)                     # 8-byte Folded Reload
	ld	s10, 112(sp)                    # 8-byte Folded Reload
	ld	s11, 104(sp)                    # 8-byte Folded Reload
	addi	sp, sp, 208
	ret
.Lgcm_BB53_37:                              # %join.9.i.i.i
	csrr	a0, vlenb
	slli	a0, a0, 1
	add	a0, a0, sp
	addi	a0, a0, 96
	vs1r.v	v12, (a0)                       # vscale x 8-byte Folded Spill
	addi	s8, sp, 48
	add	s0, s5, a1
	vsetivli	zero, 16, e8, m1, ta, ma
	vid.v	v8
	addi	a0, a1, 32
	vsetivli	zero, 2, e64, m1, ta, ma
	vse64.v	v10, (s8)
	vsetivli	zero, 16, e8, m1, ta, ma
	vle8.v	v9, (s0)
	vrsub.vi	v12, v8, 15
	add	a1, s5, a0
	sub	a2, s6, a0
	vrgather.vv	v8, v9, v12
	li	a0, 16
	vxor.vv	v8, v8, v11
	beq	a2, a0, .Lgcm_BB53_39
# %bb.38:                               # %join.3.i.i.i.i.i
	addi	a0, sp, 64
	vsetivli	zero, 2, e64, m1, ta, ma
	vse64.v	v10, (a0)
	csrr	a3, vlenb
	add	a3, a3, sp
	addi	a3, a3, 96
	vs1r.v	v12, (a3)                       # vscale x 8-byte Folded Spill
	addi	a3, sp, 96
	vs1r.v	v8, (a3)                        # vscale x 8-byte Folded Spill
	la	t1, memcpy
	jalr	t1
	addi	a0, sp, 96
	vl1r.v	v8, (a0)                        # vscale x 8-byte Folded Reload
	csrr	a0, vlenb
	add	a0, a0, sp
	addi	a0, a0, 96
	vl1r.v	v12, (a0)                       # vscale x 8-byte Folded Reload
	addi	a1, sp, 64
	vsetivli	zero, 16, e8, m1, ta, ma
.Lgcm_BB53_39:                              # %"gcm::hash::hash_last_group::<#1ace2c8123f9d1c9>.exit.i.i"
	vle8.v	v9, (a1)
	addi	s0, s0, 16
	vle8.v	v11, (s0)
	vrgather.vv	v10, v9, v12
	vrgather.vv	v9, v11, v12
	addi	a0, sp, 48
	mv	a1, s11
	call	gcm.gcm.multiples.Multiples.three_products
	vsetivli	zero, 16, e8, m1, ta, ma
	vle8.v	v8, (s8)
	csrr	a0, vlenb
	slli	a0, a0, 1
	add	a0, a0, sp
	addi	a0, a0, 96
	vl1r.v	v9, (a0)                        # vscale x 8-byte Folded Reload
	vxor.vv	v8, v8, v9
	addi	a0, sp, 32
	j	.Lgcm_BB53_25
.Lgcm_func_end53:
	.size	gcm.gcm_siv.message.put_tag.2, .Lgcm_func_end53-gcm.gcm_siv.message.put_tag.2
                                        # -- End function
	.section	.text.gcm.gcm_siv.course.seal_in.1,"ax",@progbits
	.p2align	1                               # -- Begin function gcm_siv::course::seal_in::<#b1a7be6fe22fdaa9>
	.type	gcm.gcm_siv.course.seal_in.1,@function
gcm.gcm_siv.course.seal_in.1: # @gcm.gcm_siv.course.seal_in.1
# %bb.0:                                # %start
	addi	sp, sp, -1376
	sd	ra, 1368(sp)                    # 8-byte Folded Spill
	sd	s0, 1360(sp)                    # 8-byte Folded Spill
	sd	s1, 1352(sp)                    # 8-byte Folded Spill
	sd	s2, 1344(sp)                    # 8-byte Folded Spill
	sd	s3, 1336(sp)                    # 8-byte Folded Spill
	sd	s4, 1328(sp)                    # 8-byte Folded Spill
	sd	s5, 1320(sp)                    # 8-byte Folded Spill
	sd	s6, 1312(sp)                    # 8-byte Folded Spill
	sd	s7, 1304(sp)                    # 8-byte Folded Spill
	sd	s8, 1296(sp)                    # 8-byte Folded Spill
	mv	s3, a7
	mv	s4, a6
	mv	s5, a5
	mv	s6, a4
	mv	s1, a3
	mv	s7, a2
	mv	s0, a1
	mv	s2, a0
	addi	a0, sp, 1280
	vsetivli	zero, 16, e8, m1, ta, ma
	vmv.v.i	v8, 0
	vse8.v	v8, (a0)
	addi	a0, sp, 784
	li	a2, 496
	li	a1, 0
	la	t1, memset
	jalr	t1
	addi	a0, sp, 272
	addi	a1, sp, 784
	li	a2, 512
	la	t1, memcpy
	jalr	t1
	addi	s8, sp, 32
	addi	a0, sp, 28
	li	a2, 244
	li	a1, 0
	la	t1, memset
	jalr	t1
	addi	a3, sp, 28
	addi	a4, sp, 272
	mv	a0, s0
	mv	a1, s7
	mv	a2, s1
	call	gcm.gcm_siv.keys.derive_and_prepare.1
	addi	a0, sp, 12
	addi	a1, sp, 28
	addi	a2, sp, 272
	addi	s0, sp, 12
	mv	a3, s1
	mv	a4, s6
	mv	a5, s5
	mv	a6, s4
	mv	a7, s3
	call	gcm.gcm_siv.message.seal.1
	sw	zero, 28(sp)
	mv	a0, s8
	call	gcm.aes_cipher.zeroize.elements.zeroize_elements.1
	addi	a0, sp, 272
	li	a1, 32
	call	gcm.aes_cipher.zeroize.elements.zeroize_elements.2
	call	gcm.aes_cipher.zeroize.stack.wipe_stack.2816
	vsetivli	zero, 16, e8, m1, ta, ma
	vle8.v	v8, (s0)
	vse8.v	v8, (s2)
	ld	ra, 1368(sp)                    # 8-byte Folded Reload
	ld	s0, 1360(sp)                    # 8-byte Folded Reload
	ld	s1, 1352(sp)                    # 8-byte Folded Reload
	ld	s2, 1344(sp)                    # 8-byte Folded Reload
	ld	s3, 1336(sp)                    # 8-byte Folded Reload
	ld	s4, 1328(sp)                    # 8-byte Folded Reload
	ld	s5, 1320(sp)                    # 8-byte Folded Reload
	ld	s6, 1312(sp)                    # 8-byte Folded Reload
	ld	s7, 1304(sp)                    # 8-byte Folded Reload
	ld	s8, 1296(sp)                    # 8-byte Folded Reload
	addi	sp, sp, 1376
	ret
.Lgcm_func_end54:
	.size	gcm.gcm_siv.course.seal_in.1, .Lgcm_func_end54-gcm.gcm_siv.course.seal_in.1
                                        # -- End function
	.section	.text.gcm.gcm_siv.message.seal.1,"ax",@progbits
	.p2align	1                               # -- Begin function gcm_siv::message::seal::<#f940bb35374b8583>
	.type	gcm.gcm_siv.message.seal.1,@function
gcm.gcm_siv.message.seal.1: # @gcm.gcm_siv.message.seal.1
# %bb.0:                                # %start
	addi	sp, sp, -64
	sd	ra, 56(sp)                      # 8-byte Folded Spill
	sd	s0, 48(sp)                      # 8-byte Folded Spill
	sd	s1, 40(sp)                      # 8-byte Folded Spill
	sd	s2, 32(sp)                      # 8-byte Folded Spill
	sd	s3, 24(sp)                      # 8-byte Folded Spill
	sd	s4, 16(sp)                      # 8-byte Folded Spill
	mv	s2, a7
	mv	s1, a6
	mv	s0, a1
	mv	s3, a0
	vsetivli	zero, 2, e64, m1, ta, ma
	vmv.v.i	v8, 0
	mv	s4, sp
	vse64.v	v8, (s4)
	mv	a7, sp
	mv	a0, a1
	mv	a1, a2
	mv	a2, a3
	mv	a3, a4
	mv	a4, a5
	mv	a5, a6
	mv	a6, s2
	call	gcm.gcm_siv.message.put_tag.1
	mv	a1, sp
	mv	a0, s0
	mv	a2, s1
	mv	a3, s2
	call	gcm.gcm_siv.message.process_text
	vsetivli	zero, 16, e8, m1, ta, ma
	vle8.v	v8, (s4)
	vse8.v	v8, (s3)
	ld	ra, 56(sp)                      # 8-byte Folded Reload
	ld	s0, 48(sp)                      # 8-byte Folded Reload
	ld	s1, 40(sp)                      # 8-byte Folded Reload
	ld	s2, 32(sp)                      # 8-byte Folded Reload
	ld	s3, 24(sp)                      # 8-byte Folded Reload
	ld	s4, 16(sp)                      # 8-byte Folded Reload
	addi	sp, sp, 64
	ret
.Lgcm_func_end55:
	.size	gcm.gcm_siv.message.seal.1, .Lgcm_func_end55-gcm.gcm_siv.message.seal.1
                                        # -- End function
	.section	.text.gcm.gcm_siv.course.seal_in.2,"ax",@progbits
	.p2align	1                               # -- Begin function gcm_siv::course::seal_in::<#40c030eaacddd0c9>
	.type	gcm.gcm_siv.course.seal_in.2,@function
gcm.gcm_siv.course.seal_in.2: # @gcm.gcm_siv.course.seal_in.2
# %bb.0:                                # %start
	addi	sp, sp, -2032
	sd	ra, 2024(sp)                    # 8-byte Folded Spill
	sd	s0, 2016(sp)                    # 8-byte Folded Spill
	sd	s1, 2008(sp)                    # 8-byte Folded Spill
	sd	s2, 2000(sp)                    # 8-byte Folded Spill
	sd	s3, 1992(sp)                    # 8-byte Folded Spill
	sd	s4, 1984(sp)                    # 8-byte Folded Spill
	sd	s5, 1976(sp)                    # 8-byte Folded Spill
	sd	s6, 1968(sp)                    # 8-byte Folded Spill
	sd	s7, 1960(sp)                    # 8-byte Folded Spill
	sd	s8, 1952(sp)                    # 8-byte Folded Spill
	addi	sp, sp, -1392
	mv	s3, a7
	mv	s4, a6
	mv	s5, a5
	mv	s6, a4
	mv	s1, a3
	mv	s7, a2
	mv	s0, a1
	mv	s2, a0
	addi	a0, sp, 2047
	addi	a0, a0, 1281
	vsetivli	zero, 16, e8, m1, ta, ma
	vmv.v.i	v8, 0
	vse8.v	v8, (a0)
	addi	a0, sp, 1808
	li	a2, 1520
	li	a1, 0
	la	t1, memset
	jalr	t1
	addi	a0, sp, 272
	addi	a1, sp, 1808
	li	a2, 1536
	la	t1, memcpy
	jalr	t1
	addi	s8, sp, 32
	addi	a0, sp, 28
	li	a2, 244
	li	a1, 0
	la	t1, memset
	jalr	t1
	addi	a3, sp, 28
	addi	a4, sp, 272
	mv	a0, s0
	mv	a1, s7
	mv	a2, s1
	call	gcm.gcm_siv.keys.derive_and_prepare.2
	addi	a0, sp, 12
	addi	a1, sp, 28
	addi	a2, sp, 272
	addi	s0, sp, 12
	mv	a3, s1
	mv	a4, s6
	mv	a5, s5
	mv	a6, s4
	mv	a7, s3
	call	gcm.gcm_siv.message.seal.2
	sw	zero, 28(sp)
	mv	a0, s8
	call	gcm.aes_cipher.zeroize.elements.zeroize_elements.1
	addi	a0, sp, 272
	li	a1, 96
	call	gcm.aes_cipher.zeroize.elements.zeroize_elements.2
	call	gcm.aes_cipher.zeroize.stack.wipe_stack.2816
	vsetivli	zero, 16, e8, m1, ta, ma
	vle8.v	v8, (s0)
	vse8.v	v8, (s2)
	addi	sp, sp, 1392
	ld	ra, 2024(sp)                    # 8-byte Folded Reload
	ld	s0, 2016(sp)                    # 8-byte Folded Reload
	ld	s1, 2008(sp)                    # 8-byte Folded Reload
	ld	s2, 2000(sp)                    # 8-byte Folded Reload
	ld	s3, 1992(sp)                    # 8-byte Folded Reload
	ld	s4, 1984(sp)                    # 8-byte Folded Reload
	ld	s5, 1976(sp)                    # 8-byte Folded Reload
	ld	s6, 1968(sp)                    # 8-byte Folded Reload
	ld	s7, 1960(sp)                    # 8-byte Folded Reload
	ld	s8, 1952(sp)                    # 8-byte Folded Reload
	addi	sp, sp, 2032
	ret
.Lgcm_func_end56:
	.size	gcm.gcm_siv.course.seal_in.2, .Lgcm_func_end56-gcm.gcm_siv.course.seal_in.2
                                        # -- End function
	.section	.text.gcm.gcm_siv.message.seal.2,"ax",@progbits
	.p2align	1                               # -- Begin function gcm_siv::message::seal::<#2b34360e0e51af73>
	.type	gcm.gcm_siv.message.seal.2,@function
gcm.gcm_siv.message.seal.2: # @gcm.gcm_siv.message.seal.2
# %bb.0:                                # %start
	addi	sp, sp, -64
	sd	ra, 56(sp)                      # 8-byte Folded Spill
	sd	s0, 48(sp)                      # 8-byte Folded Spill
	sd	s1, 40(sp)                      # 8-byte Folded Spill
	sd	s2, 32(sp)                      # 8-byte Folded Spill
	sd	s3, 24(sp)                      # 8-byte Folded Spill
	sd	s4, 16(sp)                      # 8-byte Folded Spill
	mv	s2, a7
	mv	s1, a6
	mv	s0, a1
	mv	s3, a0
	vsetivli	zero, 2, e64, m1, ta, ma
	vmv.v.i	v8, 0
	mv	s4, sp
	vse64.v	v8, (s4)
	mv	a7, sp
	mv	a0, a1
	mv	a1, a2
	mv	a2, a3
	mv	a3, a4
	mv	a4, a5
	mv	a5, a6
	mv	a6, s2
	call	gcm.gcm_siv.message.put_tag.2
	mv	a1, sp
	mv	a0, s0
	mv	a2, s1
	mv	a3, s2
	call	gcm.gcm_siv.message.process_text
	vsetivli	zero, 16, e8, m1, ta, ma
	vle8.v	v8, (s4)
	vse8.v	v8, (s3)
	ld	ra, 56(sp)                      # 8-byte Folded Reload
	ld	s0, 48(sp)                      # 8-byte Folded Reload
	ld	s1, 40(sp)                      # 8-byte Folded Reload
	ld	s2, 32(sp)                      # 8-byte Folded Reload
	ld	s3, 24(sp)                      # 8-byte Folded Reload
	ld	s4, 16(sp)                      # 8-byte Folded Reload
	addi	sp, sp, 64
	ret
.Lgcm_func_end57:
	.size	gcm.gcm_siv.message.seal.2, .Lgcm_func_end57-gcm.gcm_siv.message.seal.2
                                        # -- End function
	.section	.text.gcm.gcm.hash_room.hash_piece,"ax",@progbits
	.p2align	1                               # -- Begin function gcm::hash_room::hash_piece::<#84904cd934dcda78>
	.type	gcm.gcm.hash_room.hash_piece,@function
gcm.gcm.hash_room.hash_piece: # @gcm.gcm.hash_room.hash_piece
# %bb.0:                                # %start
	addi	sp, sp, -176
	sd	ra, 168(sp)                     # 8-byte Folded Spill
	sd	s0, 160(sp)                     # 8-byte Folded Spill
	sd	s1, 152(sp)                     # 8-byte Folded Spill
	sd	s2, 144(sp)                     # 8-byte Folded Spill
	sd	s3, 136(sp)                     # 8-byte Folded Spill
	sd	s4, 128(sp)                     # 8-byte Folded Spill
	sd	s5, 120(sp)                     # 8-byte Folded Spill
	sd	s6, 112(sp)                     # 8-byte Folded Spill
	sd	s7, 104(sp)                     # 8-byte Folded Spill
	sd	s8, 96(sp)                      # 8-byte Folded Spill
	sd	s9, 88(sp)                      # 8-byte Folded Spill
	sd	s10, 80(sp)                     # 8-byte Folded Spill
	sd	s11, 72(sp)                     # 8-byte Folded Spill
	csrr	t1, vlenb
	li	t2, 3
	slli	t2, t2, 10
.Lgcm_BB58_1:                               # %start
                                        # =>This Inner Loop Header: Depth=1
	sub	sp, sp, t2
	sd	zero, 0(sp)
	sub	t1, t1, t2
	bge	t1, t2, .Lgcm_BB58_1
# %bb.2:                                # %start
	sub	sp, sp, t1
	mv	s8, a4
	mv	s4, a3
	mv	s1, a2
	mv	s2, a1
	li	a1, 16
	sub	a2, a1, a3
	sd	a0, 24(sp)                      # 8-byte Folded Spill
	bgeu	a5, a2, .Lgcm_BB58_7
# %bb.3:                                # %then.1
	add	a0, s1, s4
	sub	a1, a0, s8
	bgeu	a1, a5, .Lgcm_BB58_11
# %bb.4:                                # %vector.memcheck352
	csrr	a1, vlenb
	add	s1, s1, s4
	slli	a1, a1, 1
	sub	a2, s1, s8
	bgeu	a2, a1, .Lgcm_BB58_13
# %bb.5:                                # %join.7.i.i.i.i.i.i.preheader
	add	a5, a5, s8
.Lgcm_BB58_6:                               # %join.7.i.i.i.i.i.i
                                        # =>This Inner Loop Header: Depth=1
	lbu	a1, 0(s8)
	addi	s8, s8, 1
	sb	a1, 0(a0)
	addi	a0, a0, 1
	bne	s8, a5, .Lgcm_BB58_6
	j	.Lgcm_BB58_22
.Lgcm_BB58_7:                               # %join.3
	lbu	a0, 0(s2)
	lbu	a4, 1(s2)
	lbu	s0, 2(s2)
	lbu	a1, 3(s2)
	lbu	t0, 8(s2)
	lbu	t1, 9(s2)
	lbu	a6, 10(s2)
	lbu	a7, 11(s2)
	lbu	t2, 4(s2)
	lbu	t6, 5(s2)
	lbu	t3, 6(s2)
	lbu	t4, 7(s2)
	slli	a4, a4, 8
	or	t5, a4, a0
	lbu	s3, 12(s2)
	lbu	s6, 13(s2)
	lbu	s7, 14(s2)
	lbu	a3, 15(s2)
	slli	a1, a1, 24
	slli	s0, s0, 16
	or	s9, s0, a1
	add	s5, s8, a2
	slli	t6, t6, 40
	slli	t2, t2, 32
	or	t2, t2, t6
	add	a0, s1, s4
	slli	t1, t1, 8
	or	t6, t1, t0
	sub	t0, a0, s8
	slli	t4, t4, 56
	slli	t3, t3, 48
	slli	t1, a3, 56
	slli	s7, s7, 48
	slli	s6, s6, 40
	slli	s3, s3, 32
	slli	a7, a7, 24
	slli	a6, a6, 16
	or	a1, a6, a7
	or	s0, s3, s6
	or	a3, t5, s9
	or	a4, t2, t3
	or	a1, t6, a1
	or	s0, s0, s7
	or	a3, a3, a4
	or	a1, a1, s0
	or	a3, a3, t4
	sd	a3, 16(sp)                      # 8-byte Folded Spill
	or	s10, a1, t1
	sub	s0, a5, a2
	bgeu	t0, a2, .Lgcm_BB58_12
# %bb.8:                                # %vector.memcheck
	csrr	a1, vlenb
	add	a3, s1, s4
	sub	a3, a3, s8
	bgeu	a3, a1, .Lgcm_BB58_15
# %bb.9:
	mv	a1, s8
.Lgcm_BB58_10:                              # %join.7.i.i.i.i.i.i58
                                        # =>This Inner Loop Header: Depth=1
	lbu	a2, 0(a1)
	addi	a1, a1, 1
	sb	a2, 0(a0)
	addi	a0, a0, 1
	bne	a1, s5, .Lgcm_BB58_10
	j	.Lgcm_BB58_17
.Lgcm_BB58_11:                              # %apart.2.i.i.i.i.i.i
	mv	a1, s8
	mv	a2, a5
	csrr	a3, vlenb
	add	sp, sp, a3
	ld	ra, 168(sp)                     # 8-byte Folded Reload
	ld	s0, 160(sp)                     # 8-byte Folded Reload
	ld	s1, 152(sp)                     # 8-byte Folded Reload
	ld	s2, 144(sp)                     # 8-byte Folded Reload
	ld	s3, 136(sp)                     # 8-byte Folded Reload
	ld	s4, 128(sp)                     # 8-byte Folded Reload
	ld	s5, 120(sp)                     # 8-byte Folded Reload
	ld	s6, 112(sp)                     # 8-byte Folded Reload
	ld	s7, 104(sp)                     # 8-byte Folded Reload
	ld	s8, 96(sp)                      # 8-byte Folded Reload
	ld	s9, 88(sp)                      # 8-byte Folded Reload
	ld	s10, 80(sp)                     # 8-byte Folded Reload
	ld	s11, 72(sp)                     # 8-byte Folded Reload
	addi	sp, sp, 176
	la	t1, memmove
	jr	t1
.Lgcm_BB58_12:                              # %apart.2.i.i.i.i.i.i57
	mv	a1, s8
	la	t1, memmove
	jalr	t1
	j	.Lgcm_BB58_17
.Lgcm_BB58_13:                              # %vector.body358.preheader
	li	a1, 0
.Lgcm_BB58_14:                              # %vector.body358
                                        # =>This Inner Loop Header: Depth=1
	vsetvli	a2, a5, e8, m2, ta, ma
	add	a3, s8, a1
	vle8.v	v8, (a3)
	add	a3, a0, a1
	sub	a5, a5, a2
	vse8.v	v8, (a3)
	add	a1, a1, a2
	bnez	a5, .Lgcm_BB58_14
	j	.Lgcm_BB58_22
.Lgcm_BB58_15:                              # %vector.body.preheader
	li	a1, 0
.Lgcm_BB58_16:                              # %vector.body
                                        # =>This Inner Loop Header: Depth=1
	vsetvli	a3, a2, e8, m1, ta, ma
	add	a4, s8, a1
	vle8.v	v8, (a4)
	add	a4, a0, a1
	sub	a2, a2, a3
	vse8.v	v8, (a4)
	add	a1, a1, a3
	bnez	a2, .Lgcm_BB58_16
.Lgcm_BB58_17:                              # %"core::slice::edits::slice+T::copy_from_slice::<i8,20'core::clone::U8Clone{}>.exit65"
	andi	s6, s0, -16
	andi	s7, s0, 15
	lbu	t5, 0(s1)
	lbu	s0, 1(s1)
	lbu	t4, 2(s1)
	lbu	t6, 3(s1)
	lbu	t2, 8(s1)
	lbu	t3, 9(s1)
	lbu	a7, 10(s1)
	lbu	t0, 11(s1)
	lbu	s3, 4(s1)
	lbu	a1, 5(s1)
	lbu	a6, 6(s1)
	lbu	t1, 7(s1)
	vsetivli	zero, 2, e64, m1, ta, ma
	vmv.v.i	v8, 0
	addi	a5, sp, 32
	vse64.v	v8, (a5)
	lbu	ra, 12(s1)
	lbu	a0, 13(s1)
	lbu	a2, 14(s1)
	lbu	a3, 15(s1)
	slli	s0, s0, 8
	or	a4, s0, t5
	lui	t5, 16
	slli	t6, t6, 24
	slli	t4, t4, 16
	or	t4, t4, t6
	lui	s11, 4080
	slli	a1, a1, 40
	slli	s3, s3, 32
	or	t6, s3, a1
	li	s9, 255
	slli	t3, t3, 8
	or	t2, t3, t2
	ld	a1, 24(sp)                      # 8-byte Folded Reload
	ld	a1, 0(a1)
	vsetivli	zero, 16, e8, m1, ta, ma
	vid.v	v8
	slli	t0, t0, 24
	slli	a7, a7, 16
	or	a7, a7, t0
	add	s0, s5, s6
	addi	s3, t5, -256
	slli	s9, s9, 24
	slli	t1, t1, 56
	slli	a6, a6, 48
	slli	t0, a3, 56
	slli	a2, a2, 48
	slli	a0, a0, 40
	slli	ra, ra, 32
	or	a0, ra, a0
	or	a4, a4, t4
	or	a5, t6, a6
	or	a3, t2, a7
	or	a0, a0, a2
	or	a4, a4, a5
	or	a0, a0, a3
	or	a2, a4, t1
	or	a0, a0, t0
	xor	a0, a0, s10
	ld	a3, 16(sp)                      # 8-byte Folded Reload
	xor	a2, a2, a3
	srli	a3, a2, 40
	srli	a4, a2, 56
	srli	a5, a2, 24
	srli	a6, a2, 8
	srliw	a7, a2, 24
	and	t0, a2, s11
	slli	t1, a2, 56
	and	t4, a2, s3
	srli	t2, a0, 40
	srli	t3, a0, 56
	srli	s10, a0, 24
	srli	t5, a0, 8
	and	a3, a3, s3
	or	t6, a3, a4
	srliw	ra, a0, 24
	and	a5, a5, s11
	and	a3, a6, s9
	or	a6, a3, a5
	and	a5, a0, s11
	slli	a7, a7, 32
	slli	t0, t0, 24
	or	a7, t0, a7
	slli	t0, a0, 56
	and	a0, a0, s3
	slli	t4, t4, 40
	and	t2, t2, s3
	and	s10, s10, s11
	and	a2, t5, s9
	slli	ra, ra, 32
	slli	a5, a5, 24
	slli	a0, a0, 40
	or	t1, t1, t4
	or	t2, t2, t3
	or	a2, a2, s10
	or	a5, a5, ra
	or	a0, t0, a0
	or	a3, a6, t6
	or	a4, t1, a7
	or	a2, a2, t2
	or	a0, a0, a5
	or	a3, a3, a4
	or	a0, a0, a2
	vsetivli	zero, 2, e64, m1, ta, ma
	vmv.v.x	v9, a0
	vslide1down.vx	v9, v9, a3
	vsetivli	zero, 16, e8, m1, ta, ma
	vrsub.vi	v10, v8, 15
	addi	a0, sp, 64
	vs1r.v	v10, (a0)                       # vscale x 8-byte Folded Spill
	vrgather.vv	v8, v9, v10
	addi	a0, sp, 32
	call	gcm.gcm.multiples.Multiples.block_product
	ld	a1, 32(sp)
	ld	a0, 40(sp)
	srli	a6, a1, 24
	srli	a3, a1, 8
	srli	a7, a1, 40
	srli	t0, a1, 56
	srli	a2, a0, 8
	and	a3, a3, s9
	and	a2, a2, s9
	and	a4, a1, s11
	and	a5, a6, s11
	or	a6, a3, a5
	srliw	a5, a1, 24
	and	a3, a7, s3
	or	a7, a3, t0
	and	a3, a1, s3
	slli	a1, a1, 56
	slli	a4, a4, 24
	slli	a5, a5, 32
	or	t0, a4, a5
	srli	a5, a0, 24
	slli	a3, a3, 40
	or	t1, a1, a3
	srli	a3, a0, 40
	and	a5, a5, s11
	or	t2, a2, a5
	srli	a5, a0, 56
	and	a4, a0, s11
	and	a3, a3, s3
	or	a3, a3, a5
	srliw	a5, a0, 24
	slli	a4, a4, 24
	slli	a5, a5, 32
	or	a4, a4, a5
	and	a5, a0, s3
	slli	a0, a0, 56
	slli	a5, a5, 40
	or	a0, a0, a5
	or	a5, a6, a7
	sub	a1, s1, s0
	or	a2, t1, t0
	or	a3, t2, a3
	or	a0, a0, a4
	or	s9, a2, a5
	or	s10, a0, a3
	bgeu	a1, s7, .Lgcm_BB58_20
# %bb.18:                               # %join.7.i.i.i.i.i.i228.preheader
	add	s7, s7, s6
	sub	a0, s4, s8
	sub	a0, s7, a0
	addi	a0, a0, 16
.Lgcm_BB58_19:                              # %join.7.i.i.i.i.i.i228
                                        # =>This Inner Loop Header: Depth=1
	lbu	a1, 0(s0)
	addi	s0, s0, 1
	sb	a1, 0(s1)
	addi	s1, s1, 1
	bne	s0, a0, .Lgcm_BB58_19
	j	.Lgcm_BB58_21
.Lgcm_BB58_20:                              # %apart.2.i.i.i.i.i.i227
	mv	a0, s1
	mv	a1, s0
	mv	a2, s7
	la	t1, memmove
	jalr	t1
.Lgcm_BB58_21:                              # %"core::slice::edits::slice+T::copy_from_slice::<i8,20'core::clone::U8Clone{}>.exit235"
	ld	a0, 24(sp)                      # 8-byte Folded Reload
	ld	a0, 0(a0)
	mv	a1, s10
	mv	a2, s9
	mv	a3, s5
	mv	a4, s6
	call	gcm.gcm.hash_room.MultiplesRoomHashRoom.hash_on
	vsetivli	zero, 2, e64, m1, ta, ma
	vmv.v.x	v8, a0
	vslide1down.vx	v8, v8, a1
	addi	a0, sp, 64
	vl1r.v	v10, (a0)                       # vscale x 8-byte Folded Reload
	vsetivli	zero, 16, e8, m1, ta, ma
	vrgather.vv	v9, v8, v10
	vse8.v	v9, (s2)
.Lgcm_BB58_22:                              # %common.ret
	csrr	a0, vlenb
	add	sp, sp, a0
	ld	ra, 168(sp)                     # 8-byte Folded Reload
	ld	s0, 160(sp)                     # 8-byte Folded Reload
	ld	s1, 152(sp)                     # 8-byte Folded Reload
	ld	s2, 144(sp)                     # 8-byte Folded Reload
	ld	s3, 136(sp)                     # 8-byte Folded Reload
	ld	s4, 128(sp)                     # 8-byte Folded Reload
	ld	s5, 120(sp)                     # 8-byte Folded Reload
	ld	s6, 112(sp)                     # 8-byte Folded Reload
	ld	s7, 104(sp)                     # 8-byte Folded Reload
	ld	s8, 96(sp)                      # 8-byte Folded Reload
	ld	s9, 88(sp)                      # 8-byte Folded Reload
	ld	s10, 80(sp)                     # 8-byte Folded Reload
	ld	s11, 72(sp)                     # 8-byte Folded Reload
	addi	sp, sp, 176
	ret
.Lgcm_func_end58:
	.size	gcm.gcm.hash_room.hash_piece, .Lgcm_func_end58-gcm.gcm.hash_room.hash_piece
                                        # -- End function
	.section	.text.gcm.gcm.mode.BorrowedGcm.enter_phase,"ax",@progbits
	.p2align	1                               # -- Begin function gcm::mode::BorrowedGcm::enter_phase::<#c13ce517942629d6>
	.type	gcm.gcm.mode.BorrowedGcm.enter_phase,@function
gcm.gcm.mode.BorrowedGcm.enter_phase: # @gcm.gcm.mode.BorrowedGcm.enter_phase
# %bb.0:                                # %start
	addi	sp, sp, -32
	sd	ra, 24(sp)                      # 8-byte Folded Spill
	sd	s0, 16(sp)                      # 8-byte Folded Spill
	sd	s1, 8(sp)                       # 8-byte Folded Spill
	ld	a4, 24(a1)
	sltiu	a5, a4, 5
	neg	a5, a5
	and	a4, a4, a5
	zext.b	a5, a4
	li	a4, 1
	zext.b	s1, a2
	beq	a5, a4, .Lgcm_BB59_2
# %bb.1:                                # %start
	li	a2, 0
	bne	a5, s1, .Lgcm_BB59_6
.Lgcm_BB59_2:                               # %join.3
	ld	a2, 8(a1)
	li	a4, 1
	slli	s0, a4, 36
	add	a2, a2, a3
	sltu	a3, a2, a3
	neg	a3, a3
	or	a3, a3, a2
	addi	s0, s0, -32
	sltu	a2, s0, a3
	bne	a5, a4, .Lgcm_BB59_5
# %bb.3:                                # %join.3
	mv	a4, a2
	bltu	s0, a3, .Lgcm_BB59_6
# %bb.4:                                # %then.8
	ld	a0, 32(a0)
	mv	s0, a1
	call	gcm.gcm.mode.BorrowedGcm.hash_so_far
	li	a2, 0
	li	a4, 0
	vsetivli	zero, 2, e64, m1, ta, ma
	vmv.v.x	v8, a0
	vslide1down.vx	v8, v8, a1
	addi	a0, s0, 48
	vsetivli	zero, 16, e8, m1, ta, ma
	vid.v	v9
	vrsub.vi	v9, v9, 15
	vrgather.vv	v10, v8, v9
	vse8.v	v10, (a0)
	sd	s1, 24(s0)
	j	.Lgcm_BB59_6
.Lgcm_BB59_5:
	mv	a4, a2
.Lgcm_BB59_6:                               # %return.4
	mv	a0, a4
	mv	a1, a2
	ld	ra, 24(sp)                      # 8-byte Folded Reload
	ld	s0, 16(sp)                      # 8-byte Folded Reload
	ld	s1, 8(sp)                       # 8-byte Folded Reload
	addi	sp, sp, 32
	ret
.Lgcm_func_end59:
	.size	gcm.gcm.mode.BorrowedGcm.enter_phase, .Lgcm_func_end59-gcm.gcm.mode.BorrowedGcm.enter_phase
                                        # -- End function
	.section	.text.gcm.gcm.mode.BorrowedGcm.is_tag_so_far,"ax",@progbits
	.p2align	1                               # -- Begin function gcm::mode::BorrowedGcm::is_tag_so_far::<#c13ce517942629d6>
	.type	gcm.gcm.mode.BorrowedGcm.is_tag_so_far,@function
gcm.gcm.mode.BorrowedGcm.is_tag_so_far: # @gcm.gcm.mode.BorrowedGcm.is_tag_so_far
# %bb.0:                                # %start
	addi	sp, sp, -32
	sd	ra, 24(sp)                      # 8-byte Folded Spill
	sd	s0, 16(sp)                      # 8-byte Folded Spill
	mv	s0, a2
	mv	a2, sp
	call	gcm.gcm.mode.BorrowedGcm.put_tag_so_far
	mv	a1, sp
	mv	a0, s0
	call	gcm.aes_cipher.blocks.difference
	slli	a0, a0, 32
	srli	a0, a0, 32
	seqz	s0, a0
	mv	a0, sp
	call	gcm.aes_cipher.zeroize.elements.zeroize_elements.3
	mv	a0, s0
	ld	ra, 24(sp)                      # 8-byte Folded Reload
	ld	s0, 16(sp)                      # 8-byte Folded Reload
	addi	sp, sp, 32
	ret
.Lgcm_func_end60:
	.size	gcm.gcm.mode.BorrowedGcm.is_tag_so_far, .Lgcm_func_end60-gcm.gcm.mode.BorrowedGcm.is_tag_so_far
                                        # -- End function
	.section	.text.gcm.gcm.mode.BorrowedGcm.is_short_tag_so_far,"ax",@progbits
	.p2align	1                               # -- Begin function gcm::mode::BorrowedGcm::is_short_tag_so_far::<#c13ce517942629d6>
	.type	gcm.gcm.mode.BorrowedGcm.is_short_tag_so_far,@function
gcm.gcm.mode.BorrowedGcm.is_short_tag_so_far: # @gcm.gcm.mode.BorrowedGcm.is_short_tag_so_far
# %bb.0:                                # %start
	addi	sp, sp, -64
	sd	ra, 56(sp)                      # 8-byte Folded Spill
	sd	s0, 48(sp)                      # 8-byte Folded Spill
	sd	s1, 40(sp)                      # 8-byte Folded Spill
	sd	s2, 32(sp)                      # 8-byte Folded Spill
	mv	s0, a3
	mv	s1, a2
	addi	a2, sp, 16
	addi	s2, sp, 16
	call	gcm.gcm.mode.BorrowedGcm.put_tag_so_far
	vsetivli	zero, 16, e8, m1, ta, ma
	vle8.v	v8, (s2)
	mv	a0, sp
	vse8.v	v8, (a0)
	mv	a1, s1
	mv	a2, s0
	la	t1, memcpy
	jalr	t1
	mv	a0, sp
	addi	a1, sp, 16
	call	gcm.aes_cipher.blocks.difference
	slli	a0, a0, 32
	srli	a0, a0, 32
	seqz	s0, a0
	addi	a0, sp, 16
	call	gcm.aes_cipher.zeroize.elements.zeroize_elements.3
	mv	a0, sp
	call	gcm.aes_cipher.zeroize.elements.zeroize_elements.3
	mv	a0, s0
	ld	ra, 56(sp)                      # 8-byte Folded Reload
	ld	s0, 48(sp)                      # 8-byte Folded Reload
	ld	s1, 40(sp)                      # 8-byte Folded Reload
	ld	s2, 32(sp)                      # 8-byte Folded Reload
	addi	sp, sp, 64
	ret
.Lgcm_func_end61:
	.size	gcm.gcm.mode.BorrowedGcm.is_short_tag_so_far, .Lgcm_func_end61-gcm.gcm.mode.BorrowedGcm.is_short_tag_so_far
                                        # -- End function
	.section	.text.gcm.fotsgure_gcm_key_length,"ax",@progbits
	export_gcm	fotsgure_gcm_key_length
	.p2align	1
	.type	gcm.fotsgure_gcm_key_length,@function
gcm.fotsgure_gcm_key_length:                # @gcm.fotsgure_gcm_key_length
# %bb.0:                                # %start
	lw	a1, 0(a0)
	li	a2, 32
	li	a0, 0
	bltu	a2, a1, .Lgcm_BB62_3
# %bb.1:                                # %start
	lui	a2, 65793
	slli	a2, a2, 4
	srl	a2, a2, a1
	andi	a2, a2, 1
	beqz	a2, .Lgcm_BB62_3
# %bb.2:                                # %then.1.i.i
	mv	a0, a1
.Lgcm_BB62_3:                               # %"gcm_c::kept::fotsgure_gcm_key_length.exit"
	vsetvli	t0, zero, e8, m8, ta, ma
	vmv.v.i	v0, 0
	vmv.v.i	v8, 0
	vmv.v.i	v16, 0
	vmv.v.i	v24, 0
	li	a1, 0
	li	a2, 0
	li	a3, 0
	li	a4, 0
	li	a5, 0
	li	a6, 0
	li	a7, 0
	li	t0, 0
	li	t1, 0
	li	t2, 0
	li	t3, 0
	li	t4, 0
	li	t5, 0
	li	t6, 0
	ret
.Lgcm_func_end62:
	.size	gcm.fotsgure_gcm_key_length, .Lgcm_func_end62-gcm.fotsgure_gcm_key_length
                                        # -- End function
	.section	.text.gcm.fotsgure_gcm_siv_wipe,"ax",@progbits
	export_gcm	fotsgure_gcm_siv_wipe
	.p2align	1
	.type	gcm.fotsgure_gcm_siv_wipe,@function
gcm.fotsgure_gcm_siv_wipe:                  # @gcm.fotsgure_gcm_siv_wipe
# %bb.0:                                # %start
	addi	sp, sp, -16
	sd	ra, 8(sp)                       # 8-byte Folded Spill
	sd	s0, 0(sp)                       # 8-byte Folded Spill
	addi	s0, a0, 4
	li	a2, 244
	li	a1, 0
	la	t1, memset
	jalr	t1
	mv	a0, s0
	ld	ra, 8(sp)                       # 8-byte Folded Reload
	ld	s0, 0(sp)                       # 8-byte Folded Reload
	addi	sp, sp, 16
	tail	gcm.aes_cipher.zeroize.elements.zeroize_elements.1
.Lgcm_func_end63:
	.size	gcm.fotsgure_gcm_siv_wipe, .Lgcm_func_end63-gcm.fotsgure_gcm_siv_wipe
                                        # -- End function
	.section	.text.gcm.fotsgure_gcm_version,"ax",@progbits
	export_gcm	fotsgure_gcm_version
	.p2align	1
	.type	gcm.fotsgure_gcm_version,@function
gcm.fotsgure_gcm_version:                   # @gcm.fotsgure_gcm_version
# %bb.0:                                # %start
	li	a0, 400
	vsetvli	t0, zero, e8, m8, ta, ma
	vmv.v.i	v0, 0
	vmv.v.i	v8, 0
	vmv.v.i	v16, 0
	vmv.v.i	v24, 0
	li	a1, 0
	li	a2, 0
	li	a3, 0
	li	a4, 0
	li	a5, 0
	li	a6, 0
	li	a7, 0
	li	t0, 0
	li	t1, 0
	li	t2, 0
	li	t3, 0
	li	t4, 0
	li	t5, 0
	li	t6, 0
	ret
.Lgcm_func_end64:
	.size	gcm.fotsgure_gcm_version, .Lgcm_func_end64-gcm.fotsgure_gcm_version
                                        # -- End function
	.section	.text.gcm.fotsgure_gcm_wipe,"ax",@progbits
	export_gcm	fotsgure_gcm_wipe
	.p2align	1
	.type	gcm.fotsgure_gcm_wipe,@function
gcm.fotsgure_gcm_wipe:                      # @gcm.fotsgure_gcm_wipe
# %bb.0:                                # %start
	addi	sp, sp, -32
	sd	ra, 24(sp)                      # 8-byte Folded Spill
	sd	s0, 16(sp)                      # 8-byte Folded Spill
	sd	s1, 8(sp)                       # 8-byte Folded Spill
	addi	s0, a0, 4
	addi	s1, a0, 244
	li	a2, 1780
	li	a1, 0
	la	t1, memset
	jalr	t1
	mv	a0, s0
	call	gcm.aes_cipher.zeroize.elements.zeroize_elements.1
	li	a1, 96
	mv	a0, s1
	ld	ra, 24(sp)                      # 8-byte Folded Reload
	ld	s0, 16(sp)                      # 8-byte Folded Reload
	ld	s1, 8(sp)                       # 8-byte Folded Reload
	addi	sp, sp, 32
	tail	gcm.aes_cipher.zeroize.elements.zeroize_elements.2
.Lgcm_func_end65:
	.size	gcm.fotsgure_gcm_wipe, .Lgcm_func_end65-gcm.fotsgure_gcm_wipe
                                        # -- End function
	.section	.text.gcm.fotsgure_gcm_wipe_message,"ax",@progbits
	export_gcm	fotsgure_gcm_wipe_message
	.p2align	1
	.type	gcm.fotsgure_gcm_wipe_message,@function
gcm.fotsgure_gcm_wipe_message:              # @gcm.fotsgure_gcm_wipe_message
# %bb.0:                                # %start
	li	a1, 64
	vsetvli	zero, a1, e8, m4, ta, ma
	vmv.v.i	v8, 0
	vse8.v	v8, (a0)
	addi	a1, a0, 64
	vsetivli	zero, 16, e8, m1, ta, ma
	vmv.v.i	v8, 0
	vse8.v	v8, (a1)
	tail	gcm.gcm.message_state.MessageZeroize.zeroize
.Lgcm_func_end66:
	.size	gcm.fotsgure_gcm_wipe_message, .Lgcm_func_end66-gcm.fotsgure_gcm_wipe_message
                                        # -- End function
	.section	.text.gcm.fotsgure_gcm_siv_set_key,"ax",@progbits
	export_gcm	fotsgure_gcm_siv_set_key
	.p2align	1
	.type	gcm.fotsgure_gcm_siv_set_key,@function
gcm.fotsgure_gcm_siv_set_key:               # @gcm.fotsgure_gcm_siv_set_key
# %bb.0:                                # %start
	addi	sp, sp, -48
	sd	ra, 40(sp)                      # 8-byte Folded Spill
	sd	s0, 32(sp)                      # 8-byte Folded Spill
	sd	s1, 24(sp)                      # 8-byte Folded Spill
	sd	s2, 16(sp)                      # 8-byte Folded Spill
	sd	s3, 8(sp)                       # 8-byte Folded Spill
	mv	s0, a2
	li	a2, 16
	beq	s0, a2, .Lgcm_BB67_2
# %bb.1:                                # %start
	li	a2, 32
	bne	s0, a2, .Lgcm_BB67_3
.Lgcm_BB67_2:                               # %join.3.i
	seqz	a2, a1
	slli	a2, a2, 12
	add	s3, a1, a2
	addi	s2, a0, 4
	li	a2, 240
	mv	s1, a0
	mv	a0, s2
	li	a1, 0
	la	t1, memset
	jalr	t1
	mv	a0, s2
	mv	a1, s3
	mv	a2, s0
	call	gcm.aes_permute.lane_keys.expand_lanes
	li	a0, 0
	sw	s0, 0(s1)
	j	.Lgcm_BB67_4
.Lgcm_BB67_3:                               # %then.1.i
	li	a2, 244
	li	a1, 0
	la	t1, memset
	jalr	t1
	li	a0, 1
.Lgcm_BB67_4:                               # %"gcm_c::siv_kept::fotsgure_gcm_siv_set_key.exit"
	ld	ra, 40(sp)                      # 8-byte Folded Reload
	ld	s0, 32(sp)                      # 8-byte Folded Reload
	ld	s1, 24(sp)                      # 8-byte Folded Reload
	ld	s2, 16(sp)                      # 8-byte Folded Reload
	ld	s3, 8(sp)                       # 8-byte Folded Reload
	addi	sp, sp, 48
	vsetvli	t0, zero, e8, m8, ta, ma
	vmv.v.i	v0, 0
	vmv.v.i	v8, 0
	vmv.v.i	v16, 0
	vmv.v.i	v24, 0
	li	a1, 0
	li	a2, 0
	li	a3, 0
	li	a4, 0
	li	a5, 0
	li	a6, 0
	li	a7, 0
	li	t0, 0
	li	t1, 0
	li	t2, 0
	li	t3, 0
	li	t4, 0
	li	t5, 0
	li	t6, 0
	ret
.Lgcm_func_end67:
	.size	gcm.fotsgure_gcm_siv_set_key, .Lgcm_func_end67-gcm.fotsgure_gcm_siv_set_key
                                        # -- End function
	.section	.text.gcm.fotsgure_gcm_begin,"ax",@progbits
	export_gcm	fotsgure_gcm_begin
	.p2align	1
	.type	gcm.fotsgure_gcm_begin,@function
gcm.fotsgure_gcm_begin:                     # @gcm.fotsgure_gcm_begin
# %bb.0:                                # %start
	li	a4, -1
	slli	a4, a4, 61
	add	a5, a3, a4
	addi	a4, a4, 1
	bgeu	a5, a4, .Lgcm_BB68_3
# %bb.1:
	li	a0, 3
.Lgcm_BB68_2:                               # %"gcm_c::pieces::fotsgure_gcm_begin.exit"
	vsetvli	t0, zero, e8, m8, ta, ma
	vmv.v.i	v0, 0
	vmv.v.i	v8, 0
	vmv.v.i	v16, 0
	vmv.v.i	v24, 0
	li	a1, 0
	li	a2, 0
	li	a3, 0
	li	a4, 0
	li	a5, 0
	li	a6, 0
	li	a7, 0
	li	t0, 0
	li	t1, 0
	li	t2, 0
	li	t3, 0
	li	t4, 0
	li	t5, 0
	li	t6, 0
	ret
.Lgcm_BB68_3:                               # %after.1.i
	mv	a6, a0
	lw	a5, 0(a0)
	li	a4, 32
	li	a0, 2
	bltu	a4, a5, .Lgcm_BB68_2
# %bb.4:                                # %after.1.i
	lui	a4, 65793
	slli	a4, a4, 4
	srl	a4, a4, a5
	andi	a4, a4, 1
	beqz	a4, .Lgcm_BB68_2
# %bb.5:                                # %join.13.i
	addi	sp, sp, -64
	sd	ra, 56(sp)                      # 8-byte Folded Spill
	sd	s0, 48(sp)                      # 8-byte Folded Spill
	sd	s1, 40(sp)                      # 8-byte Folded Spill
	addi	a0, a6, 244
	sd	a0, 32(sp)
	seqz	a0, a2
	slli	a5, a5, 32
	addi	a6, a6, 4
	slli	a0, a0, 12
	srli	a5, a5, 32
	add	a2, a2, a0
	srli	a5, a5, 2
	addi	a5, a5, 7
	sd	a6, 0(sp)
	sd	a5, 8(sp)
	sd	a6, 16(sp)
	sd	a5, 24(sp)
	addi	a4, a1, 32
	mv	a0, sp
	mv	s0, a1
	mv	a1, a2
	mv	a2, a3
	mv	s1, a3
	mv	a3, a4
	call	gcm.gcm.mode.BorrowedGcm.put_pre_counter
	li	a0, 0
	li	a1, 1
	sd	zero, 16(s0)
	sd	a1, 24(s0)
	addi	a1, s0, 48
	vsetivli	zero, 2, e64, m1, ta, ma
	vmv.v.i	v8, 0
	vse64.v	v8, (s0)
	vsetivli	zero, 16, e8, m1, ta, ma
	vmv.v.i	v8, 0
	addi	a2, s0, 64
	vse8.v	v8, (a1)
	li	a1, 12
	vse8.v	v8, (a2)
	beq	s1, a1, .Lgcm_BB68_7
# %bb.6:                                # %then.1.i.i.i
	call	gcm.aes_cipher.zeroize.stack.wipe_stack.512
	li	a0, 0
.Lgcm_BB68_7:
	ld	ra, 56(sp)                      # 8-byte Folded Reload
	ld	s0, 48(sp)                      # 8-byte Folded Reload
	ld	s1, 40(sp)                      # 8-byte Folded Reload
	addi	sp, sp, 64
	vsetvli	t0, zero, e8, m8, ta, ma
	vmv.v.i	v0, 0
	vmv.v.i	v8, 0
	vmv.v.i	v16, 0
	vmv.v.i	v24, 0
	li	a1, 0
	li	a2, 0
	li	a3, 0
	li	a4, 0
	li	a5, 0
	li	a6, 0
	li	a7, 0
	li	t0, 0
	li	t1, 0
	li	t2, 0
	li	t3, 0
	li	t4, 0
	li	t5, 0
	li	t6, 0
	ret
.Lgcm_func_end68:
	.size	gcm.fotsgure_gcm_begin, .Lgcm_func_end68-gcm.fotsgure_gcm_begin
                                        # -- End function
	.section	.text.gcm.fotsgure_gcm_begin_next,"ax",@progbits
	export_gcm	fotsgure_gcm_begin_next
	.p2align	1
	.type	gcm.fotsgure_gcm_begin_next,@function
gcm.fotsgure_gcm_begin_next:                # @gcm.fotsgure_gcm_begin_next
# %bb.0:                                # %start
	addi	sp, sp, -96
	sd	ra, 88(sp)                      # 8-byte Folded Spill
	sd	s0, 80(sp)                      # 8-byte Folded Spill
	sd	s1, 72(sp)                      # 8-byte Folded Spill
	sd	s2, 64(sp)                      # 8-byte Folded Spill
	mv	s2, a3
	lbu	a6, 0(a2)
	lbu	a7, 1(a2)
	lbu	a5, 2(a2)
	lbu	s0, 3(a2)
	lbu	t0, 4(a2)
	lbu	a3, 5(a2)
	lbu	a4, 6(a2)
	lbu	s1, 7(a2)
	slli	a7, a7, 8
	slli	a5, a5, 16
	slli	s0, s0, 24
	slli	a3, a3, 8
	slli	a4, a4, 16
	slli	s1, s1, 24
	or	a6, a7, a6
	or	a7, s0, a5
	or	t0, a3, t0
	or	a4, a4, s1
	lbu	s1, 9(a2)
	lbu	s0, 8(a2)
	lbu	a5, 10(a2)
	lbu	a3, 11(a2)
	slli	s1, s1, 8
	or	s0, s0, s1
	slli	a5, a5, 16
	slli	a3, a3, 24
	or	a3, a3, a5
	or	a4, a4, t0
	or	a3, a3, s0
	slli	a3, a3, 32
	or	a4, a4, a3
	li	a3, -1
	or	a6, a7, a6
	bne	a4, a3, .Lgcm_BB69_3
# %bb.1:                                # %start
	sext.w	a5, a6
	bne	a5, a3, .Lgcm_BB69_3
# %bb.2:
	li	a3, 7
	j	.Lgcm_BB69_11
.Lgcm_BB69_3:                               # %join.3.i
	lw	s0, 0(a0)
	li	a5, 32
	li	a3, 2
	bltu	a5, s0, .Lgcm_BB69_11
# %bb.4:                                # %join.3.i
	lui	a5, 65793
	slli	a5, a5, 4
	srl	a5, a5, s0
	andi	a5, a5, 1
	beqz	a5, .Lgcm_BB69_11
# %bb.5:                                # %join.6.i
	slli	s0, s0, 32
	addi	a5, a0, 4
	addi	a0, a0, 244
	srli	s1, a6, 8
	lui	a3, 16
	sd	a0, 40(sp)
	srliw	a0, a6, 24
	addi	a3, a3, -256
	and	s1, s1, a3
	or	a0, a0, s1
	slli	s1, a6, 24
	srli	s0, s0, 32
	srli	s0, s0, 2
	addi	s0, s0, 7
	sd	a5, 8(sp)
	sd	s0, 16(sp)
	sd	a5, 24(sp)
	sd	s0, 32(sp)
	and	a5, a6, a3
	slli	a5, a5, 8
	or	a5, a5, s1
	li	s0, -1
	or	t5, a5, a0
	beq	a4, s0, .Lgcm_BB69_7
# %bb.6:                                # %"gcm::counter::nonce_after.exit.thread.i.i.i"
	srli	t1, a4, 24
	lui	t0, 4080
	srli	t2, a4, 8
	li	a7, 255
	srli	s1, a4, 40
	srli	a5, a4, 56
	and	s0, a4, a3
	and	s1, s1, a3
	or	t3, s1, a5
	slli	s1, a4, 56
	slli	s0, s0, 40
	or	t4, s1, s0
	srliw	s1, a4, 24
	and	a5, t1, t0
	slli	a7, a7, 24
	and	s0, t2, a7
	or	a5, a5, s0
	and	s0, a4, t0
	slli	s1, s1, 32
	slli	s0, s0, 24
	or	s0, s0, s1
	or	a5, a5, t3
	or	s1, t4, s0
	or	a5, a5, s1
	addi	s0, a5, 1
	srli	s1, s0, 40
	srli	a0, s0, 56
	srli	a5, s0, 8
	and	a7, a5, a7
	srli	a5, s0, 24
	and	s1, s1, a3
	or	t1, s1, a0
	srliw	s1, s0, 24
	and	a5, a5, t0
	and	a0, s0, t0
	and	a3, a3, s0
	slli	s0, s0, 56
	slli	s1, s1, 32
	slli	a0, a0, 24
	slli	a3, a3, 40
	or	a5, a7, a5
	or	a0, a0, s1
	or	a3, a3, s0
	or	a5, a5, t1
	or	a0, a0, a3
	or	a3, a0, a5
	j	.Lgcm_BB69_9
.Lgcm_BB69_7:                               # %"gcm::counter::nonce_after.exit.i.i.i"
	sext.w	a0, a6
	beq	a0, s0, .Lgcm_BB69_10
# %bb.8:
	li	a3, 0
	addi	t5, t5, 1
.Lgcm_BB69_9:                               # %arm.1.i.i.i
	srli	t0, t5, 24
	srli	t1, t5, 8
	srli	s1, t5, 16
	srli	a7, a3, 56
	srli	s0, a3, 48
	srli	a0, a3, 40
	srli	a5, a3, 32
	srli	t2, a3, 24
	sb	t0, 0(a2)
	sb	s1, 1(a2)
	sb	t1, 2(a2)
	sb	t5, 3(a2)
	srli	s1, a3, 16
	sb	a5, 8(a2)
	sb	a0, 9(a2)
	sb	s0, 10(a2)
	sb	a7, 11(a2)
	srli	a0, a3, 8
	sb	a3, 4(a2)
	sb	a0, 5(a2)
	sb	s1, 6(a2)
	sb	t2, 7(a2)
.Lgcm_BB69_10:                              # %"gcm::mode::BorrowedGcm::begin_next::<#c13ce517942629d6>.exit.i"
	srli	a0, a4, 32
	sw	a6, 52(sp)
	sw	a4, 56(sp)
	sw	a0, 60(sp)
	addi	a3, a1, 32
	addi	a0, sp, 8
	mv	s0, a1
	addi	a1, sp, 52
	li	a2, 12
	call	gcm.gcm.mode.BorrowedGcm.put_pre_counter
	li	a0, 1
	sd	zero, 16(s0)
	sd	a0, 24(s0)
	addi	a0, s0, 48
	vsetivli	zero, 2, e64, m1, ta, ma
	vmv.v.i	v8, 0
	vse64.v	v8, (s0)
	vsetivli	zero, 16, e8, m1, ta, ma
	vmv.v.i	v8, 0
	addi	a1, s0, 64
	vse8.v	v8, (a0)
	vse8.v	v8, (a1)
	addi	a1, sp, 52
	li	a2, 12
	mv	a0, s2
	la	t1, memcpy
	jalr	t1
	li	a3, 0
.Lgcm_BB69_11:                              # %"gcm_c::counter::fotsgure_gcm_begin_next.exit"
	mv	a0, a3
	ld	ra, 88(sp)                      # 8-byte Folded Reload
	ld	s0, 80(sp)                      # 8-byte Folded Reload
	ld	s1, 72(sp)                      # 8-byte Folded Reload
	ld	s2, 64(sp)                      # 8-byte Folded Reload
	addi	sp, sp, 96
	vsetvli	t0, zero, e8, m8, ta, ma
	vmv.v.i	v0, 0
	vmv.v.i	v8, 0
	vmv.v.i	v16, 0
	vmv.v.i	v24, 0
	li	a1, 0
	li	a2, 0
	li	a3, 0
	li	a4, 0
	li	a5, 0
	li	a6, 0
	li	a7, 0
	li	t0, 0
	li	t1, 0
	li	t2, 0
	li	t3, 0
	li	t4, 0
	li	t5, 0
	li	t6, 0
	ret
.Lgcm_func_end69:
	.size	gcm.fotsgure_gcm_begin_next, .Lgcm_func_end69-gcm.fotsgure_gcm_begin_next
                                        # -- End function
	.section	.text.gcm.fotsgure_gcm_finish,"ax",@progbits
	export_gcm	fotsgure_gcm_finish
	.p2align	1
	.type	gcm.fotsgure_gcm_finish,@function
gcm.fotsgure_gcm_finish:                    # @gcm.fotsgure_gcm_finish
# %bb.0:                                # %start
	mv	a3, a0
	lw	a4, 0(a0)
	li	a5, 32
	li	a0, 2
	bltu	a5, a4, .Lgcm_BB70_6
# %bb.1:                                # %start
	lui	a5, 65793
	slli	a5, a5, 4
	srl	a5, a5, a4
	andi	a5, a5, 1
	beqz	a5, .Lgcm_BB70_6
# %bb.2:                                # %join.3.i
	addi	sp, sp, -96
	sd	ra, 88(sp)                      # 8-byte Folded Spill
	sd	s0, 80(sp)                      # 8-byte Folded Spill
	sd	s1, 72(sp)                      # 8-byte Folded Spill
	sd	s2, 64(sp)                      # 8-byte Folded Spill
	slli	a4, a4, 32
	addi	a0, a3, 4
	addi	a5, a3, 244
	ld	a3, 24(a1)
	sd	a5, 56(sp)
	li	a5, 4
	srli	a4, a4, 32
	srli	a4, a4, 2
	addi	a4, a4, 7
	sd	a0, 24(sp)
	sd	a4, 32(sp)
	sd	a0, 40(sp)
	sd	a4, 48(sp)
	li	a0, 8
	bltu	a5, a3, .Lgcm_BB70_5
# %bb.3:                                # %join.3.i
	addi	a3, a3, -1
	li	a4, 1
	bltu	a4, a3, .Lgcm_BB70_5
# %bb.4:                                # %arm.4.i
	addi	a0, sp, 24
	mv	s1, a2
	addi	a2, sp, 8
	addi	s2, sp, 8
	mv	s0, a1
	call	gcm.gcm.mode.BorrowedGcm.put_tag_so_far
	call	gcm.aes_cipher.zeroize.stack.wipe_stack.512
	mv	a0, s0
	call	gcm.gcm.message_state.MessageZeroize.zeroize
	li	a0, 0
	vsetivli	zero, 16, e8, m1, ta, ma
	vle8.v	v8, (s2)
	vse8.v	v8, (s1)
.Lgcm_BB70_5:
	ld	ra, 88(sp)                      # 8-byte Folded Reload
	ld	s0, 80(sp)                      # 8-byte Folded Reload
	ld	s1, 72(sp)                      # 8-byte Folded Reload
	ld	s2, 64(sp)                      # 8-byte Folded Reload
	addi	sp, sp, 96
.Lgcm_BB70_6:                               # %"gcm_c::pieces::encrypting::fotsgure_gcm_finish.exit"
	vsetvli	t0, zero, e8, m8, ta, ma
	vmv.v.i	v0, 0
	vmv.v.i	v8, 0
	vmv.v.i	v16, 0
	vmv.v.i	v24, 0
	li	a1, 0
	li	a2, 0
	li	a3, 0
	li	a4, 0
	li	a5, 0
	li	a6, 0
	li	a7, 0
	li	t0, 0
	li	t1, 0
	li	t2, 0
	li	t3, 0
	li	t4, 0
	li	t5, 0
	li	t6, 0
	ret
.Lgcm_func_end70:
	.size	gcm.fotsgure_gcm_finish, .Lgcm_func_end70-gcm.fotsgure_gcm_finish
                                        # -- End function
	.section	.text.gcm.fotsgure_gcm_finish_unverified,"ax",@progbits
	export_gcm	fotsgure_gcm_finish_unverified
	.p2align	1
	.type	gcm.fotsgure_gcm_finish_unverified,@function
gcm.fotsgure_gcm_finish_unverified:         # @gcm.fotsgure_gcm_finish_unverified
# %bb.0:                                # %start
	lw	a4, 0(a0)
	li	a5, 32
	li	a3, 2
	bltu	a5, a4, .Lgcm_BB71_6
# %bb.1:                                # %start
	lui	a5, 65793
	slli	a5, a5, 4
	srl	a5, a5, a4
	andi	a5, a5, 1
	beqz	a5, .Lgcm_BB71_6
# %bb.2:                                # %join.3.i
	addi	sp, sp, -64
	sd	ra, 56(sp)                      # 8-byte Folded Spill
	sd	s0, 48(sp)                      # 8-byte Folded Spill
	slli	a4, a4, 32
	addi	a3, a0, 4
	addi	a0, a0, 244
	ld	a5, 24(a1)
	srli	a4, a4, 32
	srli	a4, a4, 2
	addi	a4, a4, 7
	sd	a3, 8(sp)
	sd	a4, 16(sp)
	sd	a3, 24(sp)
	sd	a4, 32(sp)
	sltiu	a3, a5, 5
	neg	a3, a3
	and	a3, a3, a5
	ori	a3, a3, 2
	zext.b	a3, a3
	li	a4, 3
	sd	a0, 40(sp)
	bne	a3, a4, .Lgcm_BB71_4
# %bb.3:                                # %arm.4.i
	addi	a0, sp, 8
	mv	s0, a1
	call	gcm.gcm.mode.BorrowedGcm.put_tag_so_far
	call	gcm.aes_cipher.zeroize.stack.wipe_stack.512
	mv	a0, s0
	call	gcm.gcm.message_state.MessageZeroize.zeroize
	li	a3, 0
	j	.Lgcm_BB71_5
.Lgcm_BB71_4:
	li	a3, 8
.Lgcm_BB71_5:
	ld	ra, 56(sp)                      # 8-byte Folded Reload
	ld	s0, 48(sp)                      # 8-byte Folded Reload
	addi	sp, sp, 64
.Lgcm_BB71_6:                               # %"gcm_c::pieces::decrypting::fotsgure_gcm_finish_unverified.exit"
	mv	a0, a3
	vsetvli	t0, zero, e8, m8, ta, ma
	vmv.v.i	v0, 0
	vmv.v.i	v8, 0
	vmv.v.i	v16, 0
	vmv.v.i	v24, 0
	li	a1, 0
	li	a2, 0
	li	a3, 0
	li	a4, 0
	li	a5, 0
	li	a6, 0
	li	a7, 0
	li	t0, 0
	li	t1, 0
	li	t2, 0
	li	t3, 0
	li	t4, 0
	li	t5, 0
	li	t6, 0
	ret
.Lgcm_func_end71:
	.size	gcm.fotsgure_gcm_finish_unverified, .Lgcm_func_end71-gcm.fotsgure_gcm_finish_unverified
                                        # -- End function
	.section	.text.gcm.fotsgure_gcm_set_key,"ax",@progbits
	export_gcm	fotsgure_gcm_set_key
	.p2align	1
	.type	gcm.fotsgure_gcm_set_key,@function
gcm.fotsgure_gcm_set_key:                   # @gcm.fotsgure_gcm_set_key
# %bb.0:                                # %start
	addi	sp, sp, -48
	sd	ra, 40(sp)                      # 8-byte Folded Spill
	sd	s0, 32(sp)                      # 8-byte Folded Spill
	sd	s1, 24(sp)                      # 8-byte Folded Spill
	sd	s2, 16(sp)                      # 8-byte Folded Spill
	sd	s3, 8(sp)                       # 8-byte Folded Spill
	mv	s0, a2
	li	a2, 32
	bltu	a2, s0, .Lgcm_BB72_3
# %bb.1:                                # %start
	lui	a2, 65793
	slli	a2, a2, 4
	srl	a2, a2, s0
	andi	a2, a2, 1
	beqz	a2, .Lgcm_BB72_3
# %bb.2:                                # %join.3.i
	seqz	a2, a1
	slli	a2, a2, 12
	add	s2, a1, a2
	addi	s1, a0, 4
	li	a2, 240
	mv	s3, a0
	mv	a0, s1
	li	a1, 0
	la	t1, memset
	jalr	t1
	mv	a0, s1
	mv	a1, s2
	mv	a2, s0
	call	gcm.aes_permute.lane_keys.expand_lanes
	sw	s0, 0(s3)
	srliw	a1, s0, 2
	addi	a1, a1, 7
	addi	a2, s3, 244
	mv	a0, s1
	call	gcm.gcm.mode.put_subkey
	call	gcm.aes_cipher.zeroize.stack.wipe_stack.512
	li	a0, 0
	j	.Lgcm_BB72_4
.Lgcm_BB72_3:                               # %then.1.i
	li	a2, 1780
	li	a1, 0
	la	t1, memset
	jalr	t1
	li	a0, 1
.Lgcm_BB72_4:                               # %"gcm_c::kept::fotsgure_gcm_set_key.exit"
	ld	ra, 40(sp)                      # 8-byte Folded Reload
	ld	s0, 32(sp)                      # 8-byte Folded Reload
	ld	s1, 24(sp)                      # 8-byte Folded Reload
	ld	s2, 16(sp)                      # 8-byte Folded Reload
	ld	s3, 8(sp)                       # 8-byte Folded Reload
	addi	sp, sp, 48
	vsetvli	t0, zero, e8, m8, ta, ma
	vmv.v.i	v0, 0
	vmv.v.i	v8, 0
	vmv.v.i	v16, 0
	vmv.v.i	v24, 0
	li	a1, 0
	li	a2, 0
	li	a3, 0
	li	a4, 0
	li	a5, 0
	li	a6, 0
	li	a7, 0
	li	t0, 0
	li	t1, 0
	li	t2, 0
	li	t3, 0
	li	t4, 0
	li	t5, 0
	li	t6, 0
	ret
.Lgcm_func_end72:
	.size	gcm.fotsgure_gcm_set_key, .Lgcm_func_end72-gcm.fotsgure_gcm_set_key
                                        # -- End function
	.section	.text.gcm.fotsgure_gcm_set_key_of,"ax",@progbits
	export_gcm	fotsgure_gcm_set_key_of
	.p2align	1
	.type	gcm.fotsgure_gcm_set_key_of,@function
gcm.fotsgure_gcm_set_key_of:                # @gcm.fotsgure_gcm_set_key_of
# %bb.0:                                # %start
	addi	sp, sp, -32
	sd	ra, 24(sp)                      # 8-byte Folded Spill
	sd	s0, 16(sp)                      # 8-byte Folded Spill
	sd	s1, 8(sp)                       # 8-byte Folded Spill
	sd	s2, 0(sp)                       # 8-byte Folded Spill
	lw	a2, 0(a1)
	li	a3, 32
	bltu	a3, a2, .Lgcm_BB73_3
# %bb.1:                                # %start
	lui	a3, 65793
	slli	a3, a3, 4
	srl	a3, a3, a2
	andi	a3, a3, 1
	beqz	a3, .Lgcm_BB73_3
# %bb.2:                                # %join.3.i
	slli	a3, a2, 32
	sw	a2, 0(a0)
	addi	a1, a1, 4
	srli	s2, a3, 32
	addi	s0, a0, 4
	li	a2, 240
	mv	s1, a0
	mv	a0, s0
	la	t1, memmove
	jalr	t1
	srli	a1, s2, 2
	addi	a1, a1, 7
	addi	a2, s1, 244
	mv	a0, s0
	call	gcm.gcm.mode.put_subkey
	call	gcm.aes_cipher.zeroize.stack.wipe_stack.512
	li	a0, 0
	ld	ra, 24(sp)                      # 8-byte Folded Reload
	ld	s0, 16(sp)                      # 8-byte Folded Reload
	ld	s1, 8(sp)                       # 8-byte Folded Reload
	ld	s2, 0(sp)                       # 8-byte Folded Reload
	addi	sp, sp, 32
	vsetvli	t0, zero, e8, m8, ta, ma
	vmv.v.i	v0, 0
	vmv.v.i	v8, 0
	vmv.v.i	v16, 0
	vmv.v.i	v24, 0
	li	a1, 0
	li	a2, 0
	li	a3, 0
	li	a4, 0
	li	a5, 0
	li	a6, 0
	li	a7, 0
	li	t0, 0
	li	t1, 0
	li	t2, 0
	li	t3, 0
	li	t4, 0
	li	t5, 0
	li	t6, 0
	ret
.Lgcm_BB73_3:                               # %then.1.i
	addi	s0, a0, 4
	addi	s1, a0, 244
	li	a2, 1780
	li	a1, 0
	la	t1, memset
	jalr	t1
	mv	a0, s0
	call	gcm.aes_cipher.zeroize.elements.zeroize_elements.1
	li	a1, 96
	mv	a0, s1
	call	gcm.aes_cipher.zeroize.elements.zeroize_elements.2
	li	a0, 2
	ld	ra, 24(sp)                      # 8-byte Folded Reload
	ld	s0, 16(sp)                      # 8-byte Folded Reload
	ld	s1, 8(sp)                       # 8-byte Folded Reload
	ld	s2, 0(sp)                       # 8-byte Folded Reload
	addi	sp, sp, 32
	vsetvli	t0, zero, e8, m8, ta, ma
	vmv.v.i	v0, 0
	vmv.v.i	v8, 0
	vmv.v.i	v16, 0
	vmv.v.i	v24, 0
	li	a1, 0
	li	a2, 0
	li	a3, 0
	li	a4, 0
	li	a5, 0
	li	a6, 0
	li	a7, 0
	li	t0, 0
	li	t1, 0
	li	t2, 0
	li	t3, 0
	li	t4, 0
	li	t5, 0
	li	t6, 0
	ret
.Lgcm_func_end73:
	.size	gcm.fotsgure_gcm_set_key_of, .Lgcm_func_end73-gcm.fotsgure_gcm_set_key_of
                                        # -- End function
	.section	.text.gcm.fotsgure_gcm_open,"ax",@progbits
	export_gcm	fotsgure_gcm_open
	.p2align	1
	.type	gcm.fotsgure_gcm_open,@function
gcm.fotsgure_gcm_open:                      # @gcm.fotsgure_gcm_open
# %bb.0:                                # %start
	addi	sp, sp, -112
	sd	ra, 104(sp)                     # 8-byte Folded Spill
	sd	s0, 96(sp)                      # 8-byte Folded Spill
	sd	s1, 88(sp)                      # 8-byte Folded Spill
	ld	s1, 112(sp)
	li	s0, 16
	bne	s1, s0, .Lgcm_BB74_4
# %bb.1:                                # %join.3.i
	li	s1, -1
	slli	s1, s1, 61
	add	s0, a2, s1
	addi	s1, s1, 1
	bgeu	s0, s1, .Lgcm_BB74_5
# %bb.2:
	li	s0, 3
.Lgcm_BB74_3:                               # %"gcm_c::whole::fotsgure_gcm_open.exit"
	mv	a0, s0
	ld	ra, 104(sp)                     # 8-byte Folded Reload
	ld	s0, 96(sp)                      # 8-byte Folded Reload
	ld	s1, 88(sp)                      # 8-byte Folded Reload
	addi	sp, sp, 112
	vsetvli	t0, zero, e8, m8, ta, ma
	vmv.v.i	v0, 0
	vmv.v.i	v8, 0
	vmv.v.i	v16, 0
	vmv.v.i	v24, 0
	li	a1, 0
	li	a2, 0
	li	a3, 0
	li	a4, 0
	li	a5, 0
	li	a6, 0
	li	a7, 0
	li	t0, 0
	li	t1, 0
	li	t2, 0
	li	t3, 0
	li	t4, 0
	li	t5, 0
	li	t6, 0
	ret
.Lgcm_BB74_4:
	li	a0, 4
	ld	ra, 104(sp)                     # 8-byte Folded Reload
	ld	s0, 96(sp)                      # 8-byte Folded Reload
	ld	s1, 88(sp)                      # 8-byte Folded Reload
	addi	sp, sp, 112
	vsetvli	t0, zero, e8, m8, ta, ma
	vmv.v.i	v0, 0
	vmv.v.i	v8, 0
	vmv.v.i	v16, 0
	vmv.v.i	v24, 0
	li	a1, 0
	li	a2, 0
	li	a3, 0
	li	a4, 0
	li	a5, 0
	li	a6, 0
	li	a7, 0
	li	t0, 0
	li	t1, 0
	li	t2, 0
	li	t3, 0
	li	t4, 0
	li	t5, 0
	li	t6, 0
	ret
.Lgcm_BB74_5:                               # %after.1.i.i
	srli	s1, a4, 61
	li	s0, 5
	bnez	s1, .Lgcm_BB74_3
# %bb.6:                                # %after.1.i.i
	li	s1, 1
	slli	s1, s1, 36
	addi	s1, s1, -32
	bltu	s1, a6, .Lgcm_BB74_3
# %bb.7:                                # %after.11.i.i
	lw	t1, 0(a0)
	li	t0, 32
	li	s0, 2
	bltu	t0, t1, .Lgcm_BB74_3
# %bb.8:                                # %after.11.i.i
	lui	s1, 65793
	slli	s1, s1, 4
	srl	s1, s1, t1
	andi	s1, s1, 1
	beqz	s1, .Lgcm_BB74_3
# %bb.9:                                # %join.6.i
	addi	s1, a0, 244
	sd	s1, 40(sp)
	seqz	s1, a7
	slli	s1, s1, 12
	add	a7, a7, s1
	seqz	s1, a1
	vsetivli	zero, 16, e8, m1, ta, ma
	vle8.v	v8, (a7)
	seqz	s0, a3
	slli	s1, s1, 12
	add	a1, a1, s1
	addi	s1, sp, 48
	vse8.v	v8, (s1)
	seqz	s1, a5
	slli	t1, t1, 32
	addi	a0, a0, 4
	vsetivli	zero, 2, e64, m1, ta, ma
	vmv.v.i	v8, 0
	slli	s0, s0, 12
	add	a3, a3, s0
	addi	a7, sp, 64
	slli	s0, s1, 12
	srli	s1, t1, 32
	add	s0, s0, a5
	srli	s1, s1, 2
	addi	s1, s1, 7
	sd	a0, 8(sp)
	sd	s1, 16(sp)
	sd	a0, 24(sp)
	sd	s1, 32(sp)
	vse64.v	v8, (a7)
	addi	a0, sp, 8
	addi	a7, sp, 48
	addi	t3, sp, 64
	mv	a5, s0
	mv	s1, a6
	call	gcm.gcm.mode.BorrowedGcm.compare
	zext.b	a0, a0
	beqz	a0, .Lgcm_BB74_11
# %bb.10:                               # %arm.8.critedge.i
	addi	a0, sp, 64
	call	gcm.aes_cipher.zeroize.elements.zeroize_elements.3
	call	gcm.aes_cipher.zeroize.stack.wipe_stack.1536
	li	a0, 6
	ld	ra, 104(sp)                     # 8-byte Folded Reload
	ld	s0, 96(sp)                      # 8-byte Folded Reload
	ld	s1, 88(sp)                      # 8-byte Folded Reload
	addi	sp, sp, 112
	vsetvli	t0, zero, e8, m8, ta, ma
	vmv.v.i	v0, 0
	vmv.v.i	v8, 0
	vmv.v.i	v16, 0
	vmv.v.i	v24, 0
	li	a1, 0
	li	a2, 0
	li	a3, 0
	li	a4, 0
	li	a5, 0
	li	a6, 0
	li	a7, 0
	li	t0, 0
	li	t1, 0
	li	t2, 0
	li	t3, 0
	li	t4, 0
	li	t5, 0
	li	t6, 0
	ret
.Lgcm_BB74_11:                              # %then.1.i.i
	addi	a0, sp, 8
	addi	a1, sp, 64
	li	a2, 16
	mv	a3, s0
	mv	a4, s1
	call	gcm.gcm.gctr.add_gctr
	addi	a0, sp, 64
	call	gcm.aes_cipher.zeroize.elements.zeroize_elements.3
	call	gcm.aes_cipher.zeroize.stack.wipe_stack.1536
	li	a0, 0
	ld	ra, 104(sp)                     # 8-byte Folded Reload
	ld	s0, 96(sp)                      # 8-byte Folded Reload
	ld	s1, 88(sp)                      # 8-byte Folded Reload
	addi	sp, sp, 112
	vsetvli	t0, zero, e8, m8, ta, ma
	vmv.v.i	v0, 0
	vmv.v.i	v8, 0
	vmv.v.i	v16, 0
	vmv.v.i	v24, 0
	li	a1, 0
	li	a2, 0
	li	a3, 0
	li	a4, 0
	li	a5, 0
	li	a6, 0
	li	a7, 0
	li	t0, 0
	li	t1, 0
	li	t2, 0
	li	t3, 0
	li	t4, 0
	li	t5, 0
	li	t6, 0
	ret
.Lgcm_func_end74:
	.size	gcm.fotsgure_gcm_open, .Lgcm_func_end74-gcm.fotsgure_gcm_open
                                        # -- End function
	.section	.text.gcm.fotsgure_gcm_open_to,"ax",@progbits
	export_gcm	fotsgure_gcm_open_to
	.p2align	1
	.type	gcm.fotsgure_gcm_open_to,@function
gcm.fotsgure_gcm_open_to:                   # @gcm.fotsgure_gcm_open_to
# %bb.0:                                # %start
	addi	sp, sp, -144
	sd	ra, 136(sp)                     # 8-byte Folded Spill
	sd	s0, 128(sp)                     # 8-byte Folded Spill
	sd	s1, 120(sp)                     # 8-byte Folded Spill
	sd	s2, 112(sp)                     # 8-byte Folded Spill
	sd	s3, 104(sp)                     # 8-byte Folded Spill
	sd	s4, 96(sp)                      # 8-byte Folded Spill
	sd	s5, 88(sp)                      # 8-byte Folded Spill
	sd	s6, 80(sp)                      # 8-byte Folded Spill
	ld	s1, 144(sp)
	bne	a6, s1, .Lgcm_BB75_4
# %bb.1:                                # %join.3.i
	ld	s1, 160(sp)
	li	s0, 16
	bne	s1, s0, .Lgcm_BB75_5
# %bb.2:                                # %join.6.i
	li	s1, -1
	slli	s1, s1, 61
	add	s0, a2, s1
	addi	s1, s1, 1
	bgeu	s0, s1, .Lgcm_BB75_7
# %bb.3:
	li	s1, 3
	j	.Lgcm_BB75_6
.Lgcm_BB75_4:
	li	s1, 10
	j	.Lgcm_BB75_6
.Lgcm_BB75_5:
	li	s1, 4
.Lgcm_BB75_6:                               # %"gcm_c::whole_to::fotsgure_gcm_open_to.exit"
	mv	a0, s1
	ld	ra, 136(sp)                     # 8-byte Folded Reload
	ld	s0, 128(sp)                     # 8-byte Folded Reload
	ld	s1, 120(sp)                     # 8-byte Folded Reload
	ld	s2, 112(sp)                     # 8-byte Folded Reload
	ld	s3, 104(sp)                     # 8-byte Folded Reload
	ld	s4, 96(sp)                      # 8-byte Folded Reload
	ld	s5, 88(sp)                      # 8-byte Folded Reload
	ld	s6, 80(sp)                      # 8-byte Folded Reload
	addi	sp, sp, 144
	vsetvli	t0, zero, e8, m8, ta, ma
	vmv.v.i	v0, 0
	vmv.v.i	v8, 0
	vmv.v.i	v16, 0
	vmv.v.i	v24, 0
	li	a1, 0
	li	a2, 0
	li	a3, 0
	li	a4, 0
	li	a5, 0
	li	a6, 0
	li	a7, 0
	li	t0, 0
	li	t1, 0
	li	t2, 0
	li	t3, 0
	li	t4, 0
	li	t5, 0
	li	t6, 0
	ret
.Lgcm_BB75_7:                               # %after.1.i.i
	srli	s0, a4, 61
	li	s1, 5
	bnez	s0, .Lgcm_BB75_6
# %bb.8:                                # %after.1.i.i
	li	s0, 1
	slli	s0, s0, 36
	addi	s0, s0, -32
	bltu	s0, a6, .Lgcm_BB75_6
# %bb.9:                                # %after.11.i.i
	lw	t1, 0(a0)
	li	t0, 32
	li	s1, 2
	bltu	t0, t1, .Lgcm_BB75_6
# %bb.10:                               # %after.11.i.i
	lui	s0, 65793
	slli	s0, s0, 4
	srl	s0, s0, t1
	andi	s0, s0, 1
	beqz	s0, .Lgcm_BB75_6
# %bb.11:                               # %join.9.i
	ld	s1, 152(sp)
	seqz	t0, a1
	seqz	t2, a3
	seqz	s2, a5
	seqz	s3, a7
	slli	t1, t1, 32
	seqz	s0, s1
	slli	s0, s0, 12
	add	s0, s0, s1
	vsetivli	zero, 16, e8, m1, ta, ma
	vle8.v	v8, (s0)
	addi	t3, sp, 48
	addi	s0, a0, 4
	addi	s1, a0, 244
	vse8.v	v8, (t3)
	vsetivli	zero, 2, e64, m1, ta, ma
	vmv.v.i	v8, 0
	addi	t3, sp, 64
	slli	t0, t0, 12
	slli	t2, t2, 12
	slli	s2, s2, 12
	slli	s3, s3, 12
	srli	a0, t1, 32
	sd	s1, 40(sp)
	add	a1, a1, t0
	add	a3, a3, t2
	mv	s4, a5
	add	s1, a5, s2
	mv	s5, a7
	add	s6, a7, s3
	srli	a0, a0, 2
	addi	a0, a0, 7
	sd	s0, 8(sp)
	sd	a0, 16(sp)
	sd	s0, 24(sp)
	sd	a0, 32(sp)
	vse64.v	v8, (t3)
	addi	a0, sp, 8
	addi	a7, sp, 48
	mv	a5, s1
	mv	s0, a6
	call	gcm.gcm.mode.BorrowedGcm.compare
	zext.b	a0, a0
	beqz	a0, .Lgcm_BB75_16
# %bb.12:                               # %else.2.i.i
	li	s2, 6
	beqz	s0, .Lgcm_BB75_24
# %bb.13:                               # %loop.5.preheader.i.i.i
	addi	s1, s0, -1
	beqz	s1, .Lgcm_BB75_15
# %bb.14:                               # %join.8.preheader.i.i.i
	mv	a0, s6
	li	a1, 0
	mv	a2, s1
	la	t1, memset
	jalr	t1
.Lgcm_BB75_15:                              # %after.4.i.i.i
	add	s1, s1, s6
	sb	zero, 0(s1)
	j	.Lgcm_BB75_24
.Lgcm_BB75_16:                              # %then.1.i.i
	sub	a0, s6, s1
	mv	a4, s0
	bgeu	a0, s0, .Lgcm_BB75_20
# %bb.17:                               # %vector.memcheck
	csrr	a0, vlenb
	add	s3, s3, s5
	add	a1, s4, s2
	slli	a0, a0, 1
	sub	a1, s3, a1
	bgeu	a1, a0, .Lgcm_BB75_21
# %bb.18:                               # %join.7.i.i.i.i.i.i.i.i.preheader
	add	a0, s2, a4
	add	a0, a0, s4
	mv	a1, s6
.Lgcm_BB75_19:                              # %join.7.i.i.i.i.i.i.i.i
                                        # =>This Inner Loop Header: Depth=1
	lbu	a2, 0(s1)
	addi	s1, s1, 1
	sb	a2, 0(a1)
	addi	a1, a1, 1
	bne	s1, a0, .Lgcm_BB75_19
	j	.Lgcm_BB75_23
.Lgcm_BB75_20:                              # %apart.2.i.i.i.i.i.i.i.i
	mv	a0, s6
	mv	a1, s1
	mv	a2, a4
	la	t1, memmove
	jalr	t1
	mv	a4, s0
	j	.Lgcm_BB75_23
.Lgcm_BB75_21:                              # %vector.body.preheader
	li	a0, 0
	mv	a1, a4
.Lgcm_BB75_22:                              # %vector.body
                                        # =>This Inner Loop Header: Depth=1
	vsetvli	a2, a1, e8, m2, ta, ma
	add	a3, s1, a0
	vle8.v	v8, (a3)
	add	a3, s6, a0
	sub	a1, a1, a2
	vse8.v	v8, (a3)
	add	a0, a0, a2
	bnez	a1, .Lgcm_BB75_22
.Lgcm_BB75_23:                              # %"core::slice::edits::slice+T::copy_from_slice::<i8,20'core::clone::U8Clone{}>.exit.i.i"
	addi	a0, sp, 8
	addi	a1, sp, 64
	li	a2, 16
	mv	a3, s6
	call	gcm.gcm.gctr.add_gctr
	li	s2, 0
.Lgcm_BB75_24:                              # %"gcm::mode::BorrowedGcm::decrypt_to::<#c13ce517942629d6>.exit.i"
	addi	a0, sp, 64
	call	gcm.aes_cipher.zeroize.elements.zeroize_elements.3
	call	gcm.aes_cipher.zeroize.stack.wipe_stack.1536
	mv	s1, s2
	j	.Lgcm_BB75_6
.Lgcm_func_end75:
	.size	gcm.fotsgure_gcm_open_to, .Lgcm_func_end75-gcm.fotsgure_gcm_open_to
                                        # -- End function
	.section	.text.gcm.fotsgure_gcm_seal,"ax",@progbits
	export_gcm	fotsgure_gcm_seal
	.p2align	1
	.type	gcm.fotsgure_gcm_seal,@function
gcm.fotsgure_gcm_seal:                      # @gcm.fotsgure_gcm_seal
# %bb.0:                                # %start
	addi	sp, sp, -16
	sd	ra, 8(sp)                       # 8-byte Folded Spill
	seqz	t0, a1
	slli	t0, t0, 12
	add	a1, a1, t0
	seqz	t0, a3
	slli	t0, t0, 12
	add	a3, a3, t0
	seqz	t0, a5
	slli	t0, t0, 12
	add	a5, a5, t0
	call	gcm.gcm_c.whole.fotsgure_gcm_seal
	slli	a0, a0, 32
	srli	a0, a0, 32
	ld	ra, 8(sp)                       # 8-byte Folded Reload
	addi	sp, sp, 16
	vsetvli	t0, zero, e8, m8, ta, ma
	vmv.v.i	v0, 0
	vmv.v.i	v8, 0
	vmv.v.i	v16, 0
	vmv.v.i	v24, 0
	li	a1, 0
	li	a2, 0
	li	a3, 0
	li	a4, 0
	li	a5, 0
	li	a6, 0
	li	a7, 0
	li	t0, 0
	li	t1, 0
	li	t2, 0
	li	t3, 0
	li	t4, 0
	li	t5, 0
	li	t6, 0
	ret
.Lgcm_func_end76:
	.size	gcm.fotsgure_gcm_seal, .Lgcm_func_end76-gcm.fotsgure_gcm_seal
                                        # -- End function
	.section	.text.gcm.fotsgure_gcm_seal_next,"ax",@progbits
	export_gcm	fotsgure_gcm_seal_next
	.p2align	1
	.type	gcm.fotsgure_gcm_seal_next,@function
gcm.fotsgure_gcm_seal_next:                 # @gcm.fotsgure_gcm_seal_next
# %bb.0:                                # %start
	addi	sp, sp, -32
	sd	ra, 24(sp)                      # 8-byte Folded Spill
	sd	s0, 16(sp)                      # 8-byte Folded Spill
	sd	s1, 8(sp)                       # 8-byte Folded Spill
	sd	s2, 0(sp)                       # 8-byte Folded Spill
	lbu	t0, 5(a1)
	lbu	t1, 6(a1)
	lbu	s1, 7(a1)
	lbu	s0, 4(a1)
	slli	t0, t0, 8
	slli	t1, t1, 16
	slli	s1, s1, 24
	or	t0, t0, s0
	or	t1, s1, t1
	lbu	t2, 9(a1)
	lbu	t3, 8(a1)
	lbu	s0, 10(a1)
	lbu	s1, 11(a1)
	slli	t2, t2, 8
	or	t2, t2, t3
	slli	s0, s0, 16
	slli	s1, s1, 24
	or	s0, s0, s1
	or	s1, t1, t0
	or	s0, s0, t2
	slli	s0, s0, 32
	or	s1, s1, s0
	li	t0, -1
	bne	s1, t0, .Lgcm_BB77_4
# %bb.1:                                # %start
	lbu	t2, 1(a1)
	lbu	t1, 0(a1)
	lbu	t3, 2(a1)
	lbu	s1, 3(a1)
	slliw	s0, t2, 8
	or	t1, s0, t1
	slliw	s0, t3, 16
	slliw	s1, s1, 24
	or	s0, s0, s1
	or	s1, s0, t1
	bne	s1, t0, .Lgcm_BB77_4
# %bb.2:
	li	a0, 7
.Lgcm_BB77_3:                               # %"gcm_c::counter::fotsgure_gcm_seal_next.exit"
	ld	ra, 24(sp)                      # 8-byte Folded Reload
	ld	s0, 16(sp)                      # 8-byte Folded Reload
	ld	s1, 8(sp)                       # 8-byte Folded Reload
	ld	s2, 0(sp)                       # 8-byte Folded Reload
	addi	sp, sp, 32
	vsetvli	t0, zero, e8, m8, ta, ma
	vmv.v.i	v0, 0
	vmv.v.i	v8, 0
	vmv.v.i	v16, 0
	vmv.v.i	v24, 0
	li	a1, 0
	li	a2, 0
	li	a3, 0
	li	a4, 0
	li	a5, 0
	li	a6, 0
	li	a7, 0
	li	t0, 0
	li	t1, 0
	li	t2, 0
	li	t3, 0
	li	t4, 0
	li	t5, 0
	li	t6, 0
	ret
.Lgcm_BB77_4:                               # %join.3.i
	mv	s2, a2
	seqz	a2, a5
	slli	a2, a2, 12
	add	a5, a5, a2
	seqz	a2, a3
	slli	a2, a2, 12
	add	a3, a3, a2
	li	a2, 12
	mv	s1, a1
	call	gcm.gcm_c.whole.fotsgure_gcm_seal
	slli	a0, a0, 32
	srli	a0, a0, 32
	bnez	a0, .Lgcm_BB77_3
# %bb.5:                                # %then.4.i
	mv	a0, s1
	lbu	a7, 0(s1)
	lbu	a6, 1(s1)
	lbu	t0, 2(s1)
	lbu	a4, 3(s1)
	lbu	a5, 4(s1)
	lbu	s1, 5(s1)
	lbu	s0, 6(a0)
	lbu	a1, 7(a0)
	slliw	a2, t0, 16
	slliw	a3, a4, 24
	slli	s1, s1, 8
	slli	s0, s0, 16
	slli	a1, a1, 24
	or	a2, a2, a3
	or	t1, s1, a5
	or	s0, s0, a1
	lbu	a1, 9(a0)
	lbu	a3, 8(a0)
	lbu	a5, 10(a0)
	lbu	s1, 11(a0)
	slli	a1, a1, 8
	or	a1, a1, a3
	slli	a5, a5, 16
	slli	s1, s1, 24
	or	s1, s1, a5
	slli	t0, t0, 8
	or	a4, t0, a4
	lui	a5, 16
	slliw	a3, a6, 8
	or	a3, a3, a7
	or	t3, a2, a3
	li	t2, -1
	addi	a5, a5, -256
	slli	a7, a7, 24
	or	a2, s0, t1
	or	a1, a1, s1
	or	a4, a7, a4
	slli	a1, a1, 32
	and	a3, t3, a5
	or	a2, a2, a1
	slli	a3, a3, 8
	or	t6, a4, a3
	srli	a7, a2, 56
	srli	t1, a2, 40
	srli	a6, a2, 24
	srli	t0, a2, 8
	beq	a2, t2, .Lgcm_BB77_7
# %bb.6:                                # %"gcm::counter::nonce_after.exit.thread.i.i"
	lui	t4, 4080
	li	t2, 255
	srliw	s1, a2, 24
	and	s0, a2, a5
	slli	a3, a2, 56
	and	a1, a6, t4
	slli	t2, t2, 24
	slli	s0, s0, 40
	or	a3, a3, s0
	and	s0, t0, t2
	or	a1, a1, s0
	and	s0, a2, t4
	slli	s1, s1, 32
	slli	s0, s0, 24
	or	s0, s0, s1
	and	s1, t1, a5
	or	s1, s1, a7
	or	a1, a1, s1
	or	a3, a3, s0
	or	a1, a1, a3
	addi	a3, a1, 1
	srli	s0, a3, 40
	srli	s1, a3, 56
	srli	a1, a3, 8
	and	t2, a1, t2
	srli	a1, a3, 24
	and	s0, s0, a5
	or	t5, s0, s1
	srliw	s1, a3, 24
	and	a1, a1, t4
	and	s0, a3, t4
	and	a5, a5, a3
	slli	a3, a3, 56
	slli	s1, s1, 32
	slli	s0, s0, 24
	slli	a5, a5, 40
	or	a1, t2, a1
	or	s0, s0, s1
	or	a3, a3, a5
	or	a1, a1, t5
	or	a3, a3, s0
	or	a5, a3, a1
	mv	s0, s2
	j	.Lgcm_BB77_9
.Lgcm_BB77_7:                               # %"gcm::counter::nonce_after.exit.i.i"
	mv	s0, s2
	beq	t3, t2, .Lgcm_BB77_10
# %bb.8:
	li	a5, 0
	addi	t6, t6, 1
.Lgcm_BB77_9:                               # %arm.1.i.i
	srli	t4, t6, 24
	srli	t5, t6, 8
	srli	a4, t6, 16
	srli	t2, a5, 56
	srli	s1, a5, 48
	srli	a1, a5, 40
	srli	a3, a5, 32
	srli	s2, a5, 24
	sb	t4, 0(a0)
	sb	a4, 1(a0)
	sb	t5, 2(a0)
	sb	t6, 3(a0)
	srli	a4, a5, 16
	sb	a3, 8(a0)
	sb	a1, 9(a0)
	sb	s1, 10(a0)
	sb	t2, 11(a0)
	srli	a1, a5, 8
	sb	a5, 4(a0)
	sb	a1, 5(a0)
	sb	a4, 6(a0)
	sb	s2, 7(a0)
.Lgcm_BB77_10:                              # %"gcm::counter::Counter::take.exit.i"
	li	a0, 0
	srli	a1, t3, 24
	srli	a3, t3, 16
	srli	a4, t3, 8
	srli	a5, a2, 48
	srli	s1, a2, 32
	sb	t3, 0(s0)
	sb	a4, 1(s0)
	sb	a3, 2(s0)
	sb	a1, 3(s0)
	srli	a1, a2, 16
	sb	s1, 8(s0)
	sb	t1, 9(s0)
	sb	a5, 10(s0)
	sb	a7, 11(s0)
	sb	a2, 4(s0)
	sb	t0, 5(s0)
	sb	a1, 6(s0)
	sb	a6, 7(s0)
	ld	ra, 24(sp)                      # 8-byte Folded Reload
	ld	s0, 16(sp)                      # 8-byte Folded Reload
	ld	s1, 8(sp)                       # 8-byte Folded Reload
	ld	s2, 0(sp)                       # 8-byte Folded Reload
	addi	sp, sp, 32
	vsetvli	t0, zero, e8, m8, ta, ma
	vmv.v.i	v0, 0
	vmv.v.i	v8, 0
	vmv.v.i	v16, 0
	vmv.v.i	v24, 0
	li	a1, 0
	li	a2, 0
	li	a3, 0
	li	a4, 0
	li	a5, 0
	li	a6, 0
	li	a7, 0
	li	t0, 0
	li	t1, 0
	li	t2, 0
	li	t3, 0
	li	t4, 0
	li	t5, 0
	li	t6, 0
	ret
.Lgcm_func_end77:
	.size	gcm.fotsgure_gcm_seal_next, .Lgcm_func_end77-gcm.fotsgure_gcm_seal_next
                                        # -- End function
	.section	.text.gcm.fotsgure_gcm_seal_to,"ax",@progbits
	export_gcm	fotsgure_gcm_seal_to
	.p2align	1
	.type	gcm.fotsgure_gcm_seal_to,@function
gcm.fotsgure_gcm_seal_to:                   # @gcm.fotsgure_gcm_seal_to
# %bb.0:                                # %start
	addi	sp, sp, -80
	sd	ra, 72(sp)                      # 8-byte Folded Spill
	sd	s0, 64(sp)                      # 8-byte Folded Spill
	sd	s1, 56(sp)                      # 8-byte Folded Spill
	sd	s2, 48(sp)                      # 8-byte Folded Spill
	sd	s3, 40(sp)                      # 8-byte Folded Spill
	sd	s4, 32(sp)                      # 8-byte Folded Spill
	sd	s5, 24(sp)                      # 8-byte Folded Spill
	sd	s6, 16(sp)                      # 8-byte Folded Spill
	sd	s7, 8(sp)                       # 8-byte Folded Spill
	ld	s1, 80(sp)
	bne	a6, s1, .Lgcm_BB78_3
# %bb.1:                                # %join.3.i
	li	s1, -1
	slli	s1, s1, 61
	add	s0, a2, s1
	addi	s1, s1, 1
	bgeu	s0, s1, .Lgcm_BB78_5
# %bb.2:
	li	t0, 3
	j	.Lgcm_BB78_4
.Lgcm_BB78_3:
	li	t0, 10
.Lgcm_BB78_4:                               # %"gcm_c::whole_to::fotsgure_gcm_seal_to.exit"
	mv	a0, t0
	ld	ra, 72(sp)                      # 8-byte Folded Reload
	ld	s0, 64(sp)                      # 8-byte Folded Reload
	ld	s1, 56(sp)                      # 8-byte Folded Reload
	ld	s2, 48(sp)                      # 8-byte Folded Reload
	ld	s3, 40(sp)                      # 8-byte Folded Reload
	ld	s4, 32(sp)                      # 8-byte Folded Reload
	ld	s5, 24(sp)                      # 8-byte Folded Reload
	ld	s6, 16(sp)                      # 8-byte Folded Reload
	ld	s7, 8(sp)                       # 8-byte Folded Reload
	addi	sp, sp, 80
	vsetvli	t0, zero, e8, m8, ta, ma
	vmv.v.i	v0, 0
	vmv.v.i	v8, 0
	vmv.v.i	v16, 0
	vmv.v.i	v24, 0
	li	a1, 0
	li	a2, 0
	li	a3, 0
	li	a4, 0
	li	a5, 0
	li	a6, 0
	li	a7, 0
	li	t0, 0
	li	t1, 0
	li	t2, 0
	li	t3, 0
	li	t4, 0
	li	t5, 0
	li	t6, 0
	ret
.Lgcm_BB78_5:                               # %after.1.i.i
	srli	s1, a4, 61
	li	t0, 5
	bnez	s1, .Lgcm_BB78_4
# %bb.6:                                # %after.1.i.i
	li	s1, 1
	slli	s1, s1, 36
	addi	s1, s1, -32
	bltu	s1, a6, .Lgcm_BB78_4
# %bb.7:                                # %after.11.i.i
	lw	s1, 0(a0)
	li	s0, 32
	li	t0, 2
	bltu	s0, s1, .Lgcm_BB78_4
# %bb.8:                                # %after.11.i.i
	lui	s0, 65793
	slli	s0, s0, 4
	srl	s1, s0, s1
	andi	s1, s1, 1
	beqz	s1, .Lgcm_BB78_4
# %bb.9:                                # %join.6.i
	ld	s2, 88(sp)
	seqz	s1, a1
	slli	s1, s1, 12
	add	s3, a1, s1
	seqz	a1, a3
	slli	a1, a1, 12
	add	s4, a3, a1
	seqz	a1, a5
	slli	a1, a1, 12
	add	a5, a5, a1
	seqz	a1, a7
	slli	a1, a1, 12
	add	s1, a7, a1
	mv	s0, a0
	mv	a0, a5
	mv	a1, a6
	mv	s5, a2
	mv	a2, s1
	mv	s6, a6
	mv	s7, a4
	call	gcm.gcm_c.whole_to.copy
	mv	a0, s0
	mv	a1, s3
	mv	a2, s5
	mv	a3, s4
	mv	a4, s7
	mv	a5, s1
	mv	a6, s6
	mv	a7, s2
	call	gcm.gcm_c.whole.fotsgure_gcm_seal
	slli	a0, a0, 32
	srli	t0, a0, 32
	j	.Lgcm_BB78_4
.Lgcm_func_end78:
	.size	gcm.fotsgure_gcm_seal_to, .Lgcm_func_end78-gcm.fotsgure_gcm_seal_to
                                        # -- End function
	.section	.text.gcm.fotsgure_gcm_siv_open,"ax",@progbits
	export_gcm	fotsgure_gcm_siv_open
	.p2align	1
	.type	gcm.fotsgure_gcm_siv_open,@function
gcm.fotsgure_gcm_siv_open:                  # @gcm.fotsgure_gcm_siv_open
# %bb.0:                                # %start
	mv	a7, a6
	mv	a6, a5
	mv	t1, a1
	li	a5, 1
	slli	a5, a5, 36
	li	a1, 5
	bltu	a5, a3, .Lgcm_BB79_9
# %bb.1:                                # %start
	bltu	a5, a6, .Lgcm_BB79_9
# %bb.2:                                # %after.1.i.i
	mv	t0, a2
	lw	a1, 0(a0)
	li	a5, 32
	beq	a1, a5, .Lgcm_BB79_4
# %bb.3:                                # %after.1.i.i
	li	a5, 16
	bne	a1, a5, .Lgcm_BB79_10
.Lgcm_BB79_4:                               # %join.3.i
	addi	sp, sp, -48
	sd	ra, 40(sp)                      # 8-byte Folded Spill
	seqz	a5, t0
	seqz	a2, a4
	addi	a0, a0, 4
	slli	a5, a5, 12
	add	t0, t0, a5
	srli	t2, a1, 2
	slli	a2, a2, 12
	add	a5, a4, a2
	li	a2, 160
	addi	t2, t2, 7
	sd	a0, 8(sp)
	sd	t2, 16(sp)
	sd	a0, 24(sp)
	sd	t2, 32(sp)
	bltu	a2, a3, .Lgcm_BB79_7
# %bb.5:                                # %join.3.i
	sub	a2, a2, a3
	bltu	a2, a6, .Lgcm_BB79_7
# %bb.6:                                # %then.1.i.i
	addi	a0, sp, 8
	mv	a2, t1
	mv	a4, a3
	mv	a3, t0
	call	gcm.gcm_siv.course.open_in.1
	j	.Lgcm_BB79_8
.Lgcm_BB79_7:                               # %else.2.i.i
	addi	a0, sp, 8
	mv	a2, t1
	mv	a4, a3
	mv	a3, t0
	call	gcm.gcm_siv.course.open_in.2
.Lgcm_BB79_8:                               # %"gcm_siv::course::open_message::<#c90a668d6150d2aa>.exit.i"
	addi	a0, a0, -1
	andi	a1, a0, 6
	ld	ra, 40(sp)                      # 8-byte Folded Reload
	addi	sp, sp, 48
.Lgcm_BB79_9:                               # %"gcm_c::siv::fotsgure_gcm_siv_open.exit"
	mv	a0, a1
	vsetvli	t0, zero, e8, m8, ta, ma
	vmv.v.i	v0, 0
	vmv.v.i	v8, 0
	vmv.v.i	v16, 0
	vmv.v.i	v24, 0
	li	a1, 0
	li	a2, 0
	li	a3, 0
	li	a4, 0
	li	a5, 0
	li	a6, 0
	li	a7, 0
	li	t0, 0
	li	t1, 0
	li	t2, 0
	li	t3, 0
	li	t4, 0
	li	t5, 0
	li	t6, 0
	ret
.Lgcm_BB79_10:
	li	a0, 2
	vsetvli	t0, zero, e8, m8, ta, ma
	vmv.v.i	v0, 0
	vmv.v.i	v8, 0
	vmv.v.i	v16, 0
	vmv.v.i	v24, 0
	li	a1, 0
	li	a2, 0
	li	a3, 0
	li	a4, 0
	li	a5, 0
	li	a6, 0
	li	a7, 0
	li	t0, 0
	li	t1, 0
	li	t2, 0
	li	t3, 0
	li	t4, 0
	li	t5, 0
	li	t6, 0
	ret
.Lgcm_func_end79:
	.size	gcm.fotsgure_gcm_siv_open, .Lgcm_func_end79-gcm.fotsgure_gcm_siv_open
                                        # -- End function
	.section	.text.gcm.fotsgure_gcm_siv_open_to,"ax",@progbits
	export_gcm	fotsgure_gcm_siv_open_to
	.p2align	1
	.type	gcm.fotsgure_gcm_siv_open_to,@function
gcm.fotsgure_gcm_siv_open_to:               # @gcm.fotsgure_gcm_siv_open_to
# %bb.0:                                # %start
	addi	sp, sp, -96
	sd	ra, 88(sp)                      # 8-byte Folded Spill
	sd	s0, 80(sp)                      # 8-byte Folded Spill
	sd	s1, 72(sp)                      # 8-byte Folded Spill
	sd	s2, 64(sp)                      # 8-byte Folded Spill
	sd	s3, 56(sp)                      # 8-byte Folded Spill
	sd	s4, 48(sp)                      # 8-byte Folded Spill
	sd	s5, 40(sp)                      # 8-byte Folded Spill
	bne	a5, a7, .Lgcm_BB80_9
# %bb.1:                                # %join.3.i
	li	s0, 1
	slli	s0, s0, 36
	li	s1, 5
	bltu	s0, a3, .Lgcm_BB80_10
# %bb.2:                                # %join.3.i
	bltu	s0, a5, .Lgcm_BB80_10
# %bb.3:                                # %after.1.i.i
	lw	s1, 0(a0)
	li	s0, 32
	beq	s1, s0, .Lgcm_BB80_5
# %bb.4:                                # %after.1.i.i
	li	s0, 16
	bne	s1, s0, .Lgcm_BB80_12
.Lgcm_BB80_5:                               # %join.6.i
	mv	s2, a1
	seqz	s1, a4
	seqz	s0, a6
	slli	a7, s1, 12
	slli	s0, s0, 12
	add	a1, a4, a7
	add	s3, a6, s0
	sub	s1, s3, a1
	bgeu	s1, a5, .Lgcm_BB80_11
# %bb.6:                                # %vector.memcheck
	csrr	s1, vlenb
	add	a6, a6, s0
	add	s0, a4, a7
	slli	s1, s1, 1
	sub	s0, a6, s0
	bgeu	s0, s1, .Lgcm_BB80_13
# %bb.7:                                # %join.7.i.i.i.i.i.i.i.preheader
	add	a7, a7, a5
	add	a4, a4, a7
	mv	s0, s3
.Lgcm_BB80_8:                               # %join.7.i.i.i.i.i.i.i
                                        # =>This Inner Loop Header: Depth=1
	lbu	s1, 0(a1)
	addi	a1, a1, 1
	sb	s1, 0(s0)
	addi	s0, s0, 1
	bne	a1, a4, .Lgcm_BB80_8
	j	.Lgcm_BB80_15
.Lgcm_BB80_9:
	li	s1, 10
.Lgcm_BB80_10:                              # %"gcm_c::siv_to::fotsgure_gcm_siv_open_to.exit"
	mv	a0, s1
	ld	ra, 88(sp)                      # 8-byte Folded Reload
	ld	s0, 80(sp)                      # 8-byte Folded Reload
	ld	s1, 72(sp)                      # 8-byte Folded Reload
	ld	s2, 64(sp)                      # 8-byte Folded Reload
	ld	s3, 56(sp)                      # 8-byte Folded Reload
	ld	s4, 48(sp)                      # 8-byte Folded Reload
	ld	s5, 40(sp)                      # 8-byte Folded Reload
	addi	sp, sp, 96
	vsetvli	t0, zero, e8, m8, ta, ma
	vmv.v.i	v0, 0
	vmv.v.i	v8, 0
	vmv.v.i	v16, 0
	vmv.v.i	v24, 0
	li	a1, 0
	li	a2, 0
	li	a3, 0
	li	a4, 0
	li	a5, 0
	li	a6, 0
	li	a7, 0
	li	t0, 0
	li	t1, 0
	li	t2, 0
	li	t3, 0
	li	t4, 0
	li	t5, 0
	li	t6, 0
	ret
.Lgcm_BB80_11:                              # %apart.2.i.i.i.i.i.i.i
	mv	s4, a0
	mv	a0, s3
	mv	s5, a2
	mv	a2, a5
	mv	s0, a5
	mv	s1, a3
	la	t1, memmove
	jalr	t1
	mv	a0, s4
	mv	a2, s5
	mv	a3, s1
	mv	a5, s0
	j	.Lgcm_BB80_15
.Lgcm_BB80_12:
	li	s1, 2
	j	.Lgcm_BB80_10
.Lgcm_BB80_13:                              # %vector.body.preheader
	li	s0, 0
	mv	s1, a5
.Lgcm_BB80_14:                              # %vector.body
                                        # =>This Inner Loop Header: Depth=1
	vsetvli	a6, s1, e8, m2, ta, ma
	add	a4, a1, s0
	vle8.v	v8, (a4)
	add	a4, s3, s0
	sub	s1, s1, a6
	vse8.v	v8, (a4)
	add	s0, s0, a6
	bnez	s1, .Lgcm_BB80_14
.Lgcm_BB80_15:                              # %after.1.i.i.i
	lw	a1, 0(a0)
	li	a4, 32
	beq	a1, a4, .Lgcm_BB80_17
# %bb.16:                               # %after.1.i.i.i
	li	a4, 16
	bne	a1, a4, .Lgcm_BB80_23
.Lgcm_BB80_17:                              # %join.3.i.i
	seqz	a4, a2
	ld	a7, 96(sp)
	addi	a0, a0, 4
	srli	s0, a1, 2
	slli	a4, a4, 12
	add	s1, a2, a4
	li	a2, 160
	addi	s0, s0, 7
	sd	a0, 8(sp)
	sd	s0, 16(sp)
	sd	a0, 24(sp)
	sd	s0, 32(sp)
	bltu	a2, a3, .Lgcm_BB80_21
# %bb.18:                               # %join.3.i.i
	sub	a2, a2, a3
	bltu	a2, a5, .Lgcm_BB80_21
# %bb.19:                               # %then.1.i.i.i
	addi	a0, sp, 8
	mv	a2, s2
	mv	a4, a3
	mv	a3, s1
	mv	a6, a5
	mv	a5, s3
	mv	s0, a6
	call	gcm.gcm_siv.course.open_in.1
	bnez	a0, .Lgcm_BB80_22
.Lgcm_BB80_20:
	li	s1, 6
	mv	a5, s0
	bnez	s0, .Lgcm_BB80_24
	j	.Lgcm_BB80_10
.Lgcm_BB80_21:                              # %"gcm_siv::course::open_message::<#c90a668d6150d2aa>.exit.i.i"
	addi	a0, sp, 8
	mv	a2, s2
	mv	a4, a3
	mv	a3, s1
	mv	a6, a5
	mv	a5, s3
	mv	s0, a6
	call	gcm.gcm_siv.course.open_in.2
	beqz	a0, .Lgcm_BB80_20
.Lgcm_BB80_22:                              # %"gcm_c::siv::fotsgure_gcm_siv_open.exit.i"
	li	s1, 0
	j	.Lgcm_BB80_10
.Lgcm_BB80_23:
	li	s1, 2
	beqz	a5, .Lgcm_BB80_10
.Lgcm_BB80_24:                              # %loop.5.preheader.i.i
	addi	s2, a5, -1
	beqz	s2, .Lgcm_BB80_26
# %bb.25:                               # %join.8.preheader.i.i
	mv	a0, s3
	li	a1, 0
	mv	a2, s2
	la	t1, memset
	jalr	t1
.Lgcm_BB80_26:                              # %after.4.i.i
	add	s2, s2, s3
	sb	zero, 0(s2)
	j	.Lgcm_BB80_10
.Lgcm_func_end80:
	.size	gcm.fotsgure_gcm_siv_open_to, .Lgcm_func_end80-gcm.fotsgure_gcm_siv_open_to
                                        # -- End function
	.section	.text.gcm.fotsgure_gcm_siv_seal,"ax",@progbits
	export_gcm	fotsgure_gcm_siv_seal
	.p2align	1
	.type	gcm.fotsgure_gcm_siv_seal,@function
gcm.fotsgure_gcm_siv_seal:                  # @gcm.fotsgure_gcm_siv_seal
# %bb.0:                                # %start
	mv	a7, a5
	mv	t0, a3
	mv	a5, a2
	mv	a3, a1
	li	a2, 1
	slli	a2, a2, 36
	li	a1, 5
	bltu	a2, t0, .Lgcm_BB81_9
# %bb.1:                                # %start
	bltu	a2, a7, .Lgcm_BB81_9
# %bb.2:                                # %after.1.i.i
	lw	a2, 0(a0)
	li	a1, 32
	beq	a2, a1, .Lgcm_BB81_4
# %bb.3:                                # %after.1.i.i
	li	a1, 16
	bne	a2, a1, .Lgcm_BB81_10
.Lgcm_BB81_4:                               # %join.3.i
	addi	sp, sp, -80
	sd	ra, 72(sp)                      # 8-byte Folded Spill
	sd	s0, 64(sp)                      # 8-byte Folded Spill
	sd	s1, 56(sp)                      # 8-byte Folded Spill
	mv	s1, a6
	seqz	a1, a5
	seqz	s0, a4
	addi	a0, a0, 4
	slli	a1, a1, 12
	mv	a6, a4
	add	a4, a5, a1
	srli	a1, a2, 2
	vsetivli	zero, 2, e64, m1, ta, ma
	vmv.v.i	v8, 0
	slli	s0, s0, 12
	add	a6, a6, s0
	addi	a5, sp, 32
	addi	a1, a1, 7
	sd	a0, 0(sp)
	sd	a1, 8(sp)
	sd	a0, 16(sp)
	sd	a1, 24(sp)
	li	a0, 160
	vse64.v	v8, (a5)
	bltu	a0, t0, .Lgcm_BB81_7
# %bb.5:                                # %join.3.i
	sub	a0, a0, t0
	bltu	a0, a7, .Lgcm_BB81_7
# %bb.6:                                # %then.1.i.i
	addi	a0, sp, 32
	mv	a1, sp
	mv	a5, t0
	call	gcm.gcm_siv.course.seal_in.1
	j	.Lgcm_BB81_8
.Lgcm_BB81_7:                               # %else.2.i.i
	addi	a0, sp, 32
	mv	a1, sp
	mv	a5, t0
	call	gcm.gcm_siv.course.seal_in.2
.Lgcm_BB81_8:                               # %"gcm_siv::course::seal_message::<#c90a668d6150d2aa>.exit.i"
	li	a1, 0
	addi	a0, sp, 32
	vsetivli	zero, 16, e8, m1, ta, ma
	vle8.v	v8, (a0)
	vse8.v	v8, (s1)
	ld	ra, 72(sp)                      # 8-byte Folded Reload
	ld	s0, 64(sp)                      # 8-byte Folded Reload
	ld	s1, 56(sp)                      # 8-byte Folded Reload
	addi	sp, sp, 80
.Lgcm_BB81_9:                               # %"gcm_c::siv::fotsgure_gcm_siv_seal.exit"
	mv	a0, a1
	vsetvli	t0, zero, e8, m8, ta, ma
	vmv.v.i	v0, 0
	vmv.v.i	v8, 0
	vmv.v.i	v16, 0
	vmv.v.i	v24, 0
	li	a1, 0
	li	a2, 0
	li	a3, 0
	li	a4, 0
	li	a5, 0
	li	a6, 0
	li	a7, 0
	li	t0, 0
	li	t1, 0
	li	t2, 0
	li	t3, 0
	li	t4, 0
	li	t5, 0
	li	t6, 0
	ret
.Lgcm_BB81_10:
	li	a0, 2
	vsetvli	t0, zero, e8, m8, ta, ma
	vmv.v.i	v0, 0
	vmv.v.i	v8, 0
	vmv.v.i	v16, 0
	vmv.v.i	v24, 0
	li	a1, 0
	li	a2, 0
	li	a3, 0
	li	a4, 0
	li	a5, 0
	li	a6, 0
	li	a7, 0
	li	t0, 0
	li	t1, 0
	li	t2, 0
	li	t3, 0
	li	t4, 0
	li	t5, 0
	li	t6, 0
	ret
.Lgcm_func_end81:
	.size	gcm.fotsgure_gcm_siv_seal, .Lgcm_func_end81-gcm.fotsgure_gcm_siv_seal
                                        # -- End function
	.section	.text.gcm.fotsgure_gcm_siv_seal_to,"ax",@progbits
	export_gcm	fotsgure_gcm_siv_seal_to
	.p2align	1
	.type	gcm.fotsgure_gcm_siv_seal_to,@function
gcm.fotsgure_gcm_siv_seal_to:               # @gcm.fotsgure_gcm_siv_seal_to
# %bb.0:                                # %start
	bne	a5, a7, .Lgcm_BB82_9
# %bb.1:                                # %join.3.i
	addi	sp, sp, -112
	sd	ra, 104(sp)                     # 8-byte Folded Spill
	sd	s0, 96(sp)                      # 8-byte Folded Spill
	sd	s1, 88(sp)                      # 8-byte Folded Spill
	sd	s2, 80(sp)                      # 8-byte Folded Spill
	sd	s3, 72(sp)                      # 8-byte Folded Spill
	sd	s4, 64(sp)                      # 8-byte Folded Spill
	sd	s5, 56(sp)                      # 8-byte Folded Spill
	mv	s2, a1
	li	s0, 1
	slli	s0, s0, 36
	li	a1, 5
	bltu	s0, a3, .Lgcm_BB82_21
# %bb.2:                                # %join.3.i
	bltu	s0, a5, .Lgcm_BB82_21
# %bb.3:                                # %after.1.i.i
	lw	a1, 0(a0)
	li	s0, 32
	beq	a1, s0, .Lgcm_BB82_5
# %bb.4:                                # %after.1.i.i
	li	s0, 16
	bne	a1, s0, .Lgcm_BB82_18
.Lgcm_BB82_5:                               # %join.6.i
	seqz	a7, a4
	seqz	s0, a6
	slli	a7, a7, 12
	slli	t0, s0, 12
	add	a1, a4, a7
	add	s4, a6, t0
	sub	s0, s4, a1
	bgeu	s0, a5, .Lgcm_BB82_10
# %bb.6:                                # %vector.memcheck
	csrr	t1, vlenb
	add	a6, a6, t0
	add	s0, a4, a7
	slli	t1, t1, 1
	sub	s0, a6, s0
	bgeu	s0, t1, .Lgcm_BB82_11
# %bb.7:                                # %join.7.i.i.i.i.i.i.i.preheader
	add	a7, a7, a5
	add	a4, a4, a7
	mv	s0, s4
.Lgcm_BB82_8:                               # %join.7.i.i.i.i.i.i.i
                                        # =>This Inner Loop Header: Depth=1
	lbu	s1, 0(a1)
	addi	a1, a1, 1
	sb	s1, 0(s0)
	addi	s0, s0, 1
	bne	a1, a4, .Lgcm_BB82_8
	j	.Lgcm_BB82_13
.Lgcm_BB82_9:
	li	a0, 10
	vsetvli	t0, zero, e8, m8, ta, ma
	vmv.v.i	v0, 0
	vmv.v.i	v8, 0
	vmv.v.i	v16, 0
	vmv.v.i	v24, 0
	li	a1, 0
	li	a2, 0
	li	a3, 0
	li	a4, 0
	li	a5, 0
	li	a6, 0
	li	a7, 0
	li	t0, 0
	li	t1, 0
	li	t2, 0
	li	t3, 0
	li	t4, 0
	li	t5, 0
	li	t6, 0
	ret
.Lgcm_BB82_10:                              # %apart.2.i.i.i.i.i.i.i
	mv	s3, a0
	mv	a0, s4
	mv	s5, a2
	mv	a2, a5
	mv	s0, a5
	mv	s1, a3
	la	t1, memmove
	jalr	t1
	mv	a0, s3
	mv	a2, s5
	mv	a3, s1
	mv	a5, s0
	j	.Lgcm_BB82_13
.Lgcm_BB82_11:                              # %vector.body.preheader
	li	s0, 0
	mv	s1, a5
.Lgcm_BB82_12:                              # %vector.body
                                        # =>This Inner Loop Header: Depth=1
	vsetvli	a6, s1, e8, m2, ta, ma
	add	a4, a1, s0
	vle8.v	v8, (a4)
	add	a4, s4, s0
	sub	s1, s1, a6
	vse8.v	v8, (a4)
	add	s0, s0, a6
	bnez	s1, .Lgcm_BB82_12
.Lgcm_BB82_13:                              # %after.1.i.i.i
	lw	s1, 0(a0)
	li	a1, 32
	beq	s1, a1, .Lgcm_BB82_15
# %bb.14:                               # %after.1.i.i.i
	li	a1, 16
	bne	s1, a1, .Lgcm_BB82_18
.Lgcm_BB82_15:                              # %join.3.i.i
	seqz	a1, a2
	ld	s3, 112(sp)
	addi	a0, a0, 4
	srli	s0, s1, 2
	vsetivli	zero, 2, e64, m1, ta, ma
	vmv.v.i	v8, 0
	slli	a1, a1, 12
	add	a4, a2, a1
	addi	a1, sp, 32
	addi	s0, s0, 7
	sd	a0, 0(sp)
	sd	s0, 8(sp)
	sd	a0, 16(sp)
	sd	s0, 24(sp)
	li	a0, 160
	vse64.v	v8, (a1)
	bltu	a0, a3, .Lgcm_BB82_19
# %bb.16:                               # %join.3.i.i
	sub	a0, a0, a3
	bltu	a0, a5, .Lgcm_BB82_19
# %bb.17:                               # %then.1.i.i.i
	addi	a0, sp, 32
	mv	a1, sp
	mv	a2, s1
	mv	s1, a3
	mv	a3, s2
	mv	a7, a5
	mv	a5, s1
	mv	a6, s4
	call	gcm.gcm_siv.course.seal_in.1
	j	.Lgcm_BB82_20
.Lgcm_BB82_18:
	li	a1, 2
	j	.Lgcm_BB82_21
.Lgcm_BB82_19:                              # %else.2.i.i.i
	addi	a0, sp, 32
	mv	a1, sp
	mv	a2, s1
	mv	s1, a3
	mv	a3, s2
	mv	a7, a5
	mv	a5, s1
	mv	a6, s4
	call	gcm.gcm_siv.course.seal_in.2
.Lgcm_BB82_20:                              # %"gcm_siv::course::seal_message::<#c90a668d6150d2aa>.exit.i.i"
	li	a1, 0
	addi	a0, sp, 32
	vsetivli	zero, 16, e8, m1, ta, ma
	vle8.v	v8, (a0)
	vse8.v	v8, (s3)
.Lgcm_BB82_21:
	ld	ra, 104(sp)                     # 8-byte Folded Reload
	ld	s0, 96(sp)                      # 8-byte Folded Reload
	ld	s1, 88(sp)                      # 8-byte Folded Reload
	ld	s2, 80(sp)                      # 8-byte Folded Reload
	ld	s3, 72(sp)                      # 8-byte Folded Reload
	ld	s4, 64(sp)                      # 8-byte Folded Reload
	ld	s5, 56(sp)                      # 8-byte Folded Reload
	addi	sp, sp, 112
	mv	a0, a1
	vsetvli	t0, zero, e8, m8, ta, ma
	vmv.v.i	v0, 0
	vmv.v.i	v8, 0
	vmv.v.i	v16, 0
	vmv.v.i	v24, 0
	li	a1, 0
	li	a2, 0
	li	a3, 0
	li	a4, 0
	li	a5, 0
	li	a6, 0
	li	a7, 0
	li	t0, 0
	li	t1, 0
	li	t2, 0
	li	t3, 0
	li	t4, 0
	li	t5, 0
	li	t6, 0
	ret
.Lgcm_func_end82:
	.size	gcm.fotsgure_gcm_siv_seal_to, .Lgcm_func_end82-gcm.fotsgure_gcm_siv_seal_to
                                        # -- End function
	.section	.text.gcm.fotsgure_gcm_additional,"ax",@progbits
	export_gcm	fotsgure_gcm_additional
	.p2align	1
	.type	gcm.fotsgure_gcm_additional,@function
gcm.fotsgure_gcm_additional:                # @gcm.fotsgure_gcm_additional
# %bb.0:                                # %start
	addi	sp, sp, -64
	sd	ra, 56(sp)                      # 8-byte Folded Spill
	sd	s0, 48(sp)                      # 8-byte Folded Spill
	sd	s1, 40(sp)                      # 8-byte Folded Spill
	mv	a4, a0
	lw	a5, 0(a0)
	li	s0, 32
	li	a0, 2
	bltu	s0, a5, .Lgcm_BB83_5
# %bb.1:                                # %start
	lui	s0, 65793
	slli	s0, s0, 4
	srl	s0, s0, a5
	andi	s0, s0, 1
	beqz	s0, .Lgcm_BB83_5
# %bb.2:                                # %join.3.i
	slli	a5, a5, 32
	addi	a0, a4, 4
	addi	a4, a4, 244
	ld	s0, 24(a1)
	srli	a5, a5, 32
	srli	a5, a5, 2
	addi	a5, a5, 7
	sd	a0, 0(sp)
	sd	a5, 8(sp)
	sd	a0, 16(sp)
	sd	a5, 24(sp)
	li	a0, 1
	sd	a4, 32(sp)
	bne	s0, a0, .Lgcm_BB83_6
# %bb.3:                                # %join.3.i.i
	ld	a5, 0(a1)
	add	a0, a3, a5
	sltu	a4, a0, a3
	neg	a4, a4
	or	a0, a0, a4
	srli	a0, a0, 61
	beqz	a0, .Lgcm_BB83_7
# %bb.4:
	li	a0, 5
.Lgcm_BB83_5:                               # %"gcm_c::pieces::fotsgure_gcm_additional.exit"
	ld	ra, 56(sp)                      # 8-byte Folded Reload
	ld	s0, 48(sp)                      # 8-byte Folded Reload
	ld	s1, 40(sp)                      # 8-byte Folded Reload
	addi	sp, sp, 64
	vsetvli	t0, zero, e8, m8, ta, ma
	vmv.v.i	v0, 0
	vmv.v.i	v8, 0
	vmv.v.i	v16, 0
	vmv.v.i	v24, 0
	li	a1, 0
	li	a2, 0
	li	a3, 0
	li	a4, 0
	li	a5, 0
	li	a6, 0
	li	a7, 0
	li	t0, 0
	li	t1, 0
	li	t2, 0
	li	t3, 0
	li	t4, 0
	li	t5, 0
	li	t6, 0
	ret
.Lgcm_BB83_6:
	li	a0, 8
	ld	ra, 56(sp)                      # 8-byte Folded Reload
	ld	s0, 48(sp)                      # 8-byte Folded Reload
	ld	s1, 40(sp)                      # 8-byte Folded Reload
	addi	sp, sp, 64
	vsetvli	t0, zero, e8, m8, ta, ma
	vmv.v.i	v0, 0
	vmv.v.i	v8, 0
	vmv.v.i	v16, 0
	vmv.v.i	v24, 0
	li	a1, 0
	li	a2, 0
	li	a3, 0
	li	a4, 0
	li	a5, 0
	li	a6, 0
	li	a7, 0
	li	t0, 0
	li	t1, 0
	li	t2, 0
	li	t3, 0
	li	t4, 0
	li	t5, 0
	li	t6, 0
	ret
.Lgcm_BB83_7:                               # %arm.4.i
	seqz	a4, a2
	addi	a0, sp, 32
	andi	a5, a5, 15
	addi	a6, a1, 48
	slli	a4, a4, 12
	add	a4, a4, a2
	addi	a2, a1, 64
	mv	s1, a1
	mv	a1, a6
	mv	s0, a3
	mv	a3, a5
	mv	a5, s0
	call	gcm.gcm.hash_room.hash_piece
	call	gcm.aes_cipher.zeroize.stack.wipe_stack.512
	li	a0, 0
	ld	a1, 0(s1)
	add	a1, a1, s0
	sd	a1, 0(s1)
	ld	ra, 56(sp)                      # 8-byte Folded Reload
	ld	s0, 48(sp)                      # 8-byte Folded Reload
	ld	s1, 40(sp)                      # 8-byte Folded Reload
	addi	sp, sp, 64
	vsetvli	t0, zero, e8, m8, ta, ma
	vmv.v.i	v0, 0
	vmv.v.i	v8, 0
	vmv.v.i	v16, 0
	vmv.v.i	v24, 0
	li	a1, 0
	li	a2, 0
	li	a3, 0
	li	a4, 0
	li	a5, 0
	li	a6, 0
	li	a7, 0
	li	t0, 0
	li	t1, 0
	li	t2, 0
	li	t3, 0
	li	t4, 0
	li	t5, 0
	li	t6, 0
	ret
.Lgcm_func_end83:
	.size	gcm.fotsgure_gcm_additional, .Lgcm_func_end83-gcm.fotsgure_gcm_additional
                                        # -- End function
	.section	.text.gcm.fotsgure_gcm_decrypt,"ax",@progbits
	export_gcm	fotsgure_gcm_decrypt
	.p2align	1
	.type	gcm.fotsgure_gcm_decrypt,@function
gcm.fotsgure_gcm_decrypt:                   # @gcm.fotsgure_gcm_decrypt
# %bb.0:                                # %start
	addi	sp, sp, -64
	sd	ra, 56(sp)                      # 8-byte Folded Spill
	sd	s0, 48(sp)                      # 8-byte Folded Spill
	sd	s1, 40(sp)                      # 8-byte Folded Spill
	mv	a4, a0
	lw	a5, 0(a0)
	li	s0, 32
	li	a0, 2
	bltu	s0, a5, .Lgcm_BB84_7
# %bb.1:                                # %start
	lui	s0, 65793
	slli	s0, s0, 4
	srl	s0, s0, a5
	andi	s0, s0, 1
	beqz	s0, .Lgcm_BB84_7
# %bb.2:                                # %join.3.i
	slli	a5, a5, 32
	addi	a0, a4, 4
	addi	a4, a4, 244
	ld	s0, 24(a1)
	srli	a5, a5, 32
	srli	a5, a5, 2
	addi	a5, a5, 7
	sd	a0, 0(sp)
	sd	a5, 8(sp)
	sd	a0, 16(sp)
	sd	a5, 24(sp)
	li	a0, 4
	sd	a4, 32(sp)
	bne	s0, a0, .Lgcm_BB84_8
# %bb.3:                                # %join.3.i.i
	ld	a6, 16(a1)
	ld	a4, 8(a1)
	li	a5, 1
	slli	a7, a5, 36
	add	a0, a3, a6
	sltu	s0, a0, a3
	neg	a5, s0
	addi	s0, a7, -32
	or	a5, a5, a0
	bltu	a4, s0, .Lgcm_BB84_5
# %bb.4:                                # %join.3.i.i
	mv	a4, s0
.Lgcm_BB84_5:                               # %join.3.i.i
	bgeu	a4, a5, .Lgcm_BB84_9
# %bb.6:
	li	a0, 5
.Lgcm_BB84_7:                               # %"gcm_c::pieces::decrypting::fotsgure_gcm_decrypt.exit"
	ld	ra, 56(sp)                      # 8-byte Folded Reload
	ld	s0, 48(sp)                      # 8-byte Folded Reload
	ld	s1, 40(sp)                      # 8-byte Folded Reload
	addi	sp, sp, 64
	vsetvli	t0, zero, e8, m8, ta, ma
	vmv.v.i	v0, 0
	vmv.v.i	v8, 0
	vmv.v.i	v16, 0
	vmv.v.i	v24, 0
	li	a1, 0
	li	a2, 0
	li	a3, 0
	li	a4, 0
	li	a5, 0
	li	a6, 0
	li	a7, 0
	li	t0, 0
	li	t1, 0
	li	t2, 0
	li	t3, 0
	li	t4, 0
	li	t5, 0
	li	t6, 0
	ret
.Lgcm_BB84_8:
	li	a0, 8
	ld	ra, 56(sp)                      # 8-byte Folded Reload
	ld	s0, 48(sp)                      # 8-byte Folded Reload
	ld	s1, 40(sp)                      # 8-byte Folded Reload
	addi	sp, sp, 64
	vsetvli	t0, zero, e8, m8, ta, ma
	vmv.v.i	v0, 0
	vmv.v.i	v8, 0
	vmv.v.i	v16, 0
	vmv.v.i	v24, 0
	li	a1, 0
	li	a2, 0
	li	a3, 0
	li	a4, 0
	li	a5, 0
	li	a6, 0
	li	a7, 0
	li	t0, 0
	li	t1, 0
	li	t2, 0
	li	t3, 0
	li	t4, 0
	li	t5, 0
	li	t6, 0
	ret
.Lgcm_BB84_9:                               # %arm.4.i
	seqz	a0, a2
	slli	a0, a0, 12
	add	a4, a2, a0
	addi	a5, a1, 32
	addi	a2, a6, 16
	mv	a0, sp
	mv	s1, a1
	mv	a1, a5
	mv	s0, a3
	mv	a3, a4
	mv	a4, s0
	call	gcm.gcm.gctr.add_gctr
	ld	a0, 16(s1)
	add	a0, a0, s0
	sd	a0, 16(s1)
	call	gcm.aes_cipher.zeroize.stack.wipe_stack.1536
	li	a0, 0
	ld	ra, 56(sp)                      # 8-byte Folded Reload
	ld	s0, 48(sp)                      # 8-byte Folded Reload
	ld	s1, 40(sp)                      # 8-byte Folded Reload
	addi	sp, sp, 64
	vsetvli	t0, zero, e8, m8, ta, ma
	vmv.v.i	v0, 0
	vmv.v.i	v8, 0
	vmv.v.i	v16, 0
	vmv.v.i	v24, 0
	li	a1, 0
	li	a2, 0
	li	a3, 0
	li	a4, 0
	li	a5, 0
	li	a6, 0
	li	a7, 0
	li	t0, 0
	li	t1, 0
	li	t2, 0
	li	t3, 0
	li	t4, 0
	li	t5, 0
	li	t6, 0
	ret
.Lgcm_func_end84:
	.size	gcm.fotsgure_gcm_decrypt, .Lgcm_func_end84-gcm.fotsgure_gcm_decrypt
                                        # -- End function
	.section	.text.gcm.fotsgure_gcm_decrypt_unverified,"ax",@progbits
	export_gcm	fotsgure_gcm_decrypt_unverified
	.p2align	1
	.type	gcm.fotsgure_gcm_decrypt_unverified,@function
gcm.fotsgure_gcm_decrypt_unverified:        # @gcm.fotsgure_gcm_decrypt_unverified
# %bb.0:                                # %start
	addi	sp, sp, -80
	sd	ra, 72(sp)                      # 8-byte Folded Spill
	sd	s0, 64(sp)                      # 8-byte Folded Spill
	sd	s1, 56(sp)                      # 8-byte Folded Spill
	sd	s2, 48(sp)                      # 8-byte Folded Spill
	sd	s3, 40(sp)                      # 8-byte Folded Spill
	mv	s0, a3
	mv	s2, a2
	mv	s1, a1
	mv	a1, a0
	lw	a2, 0(a0)
	li	a3, 32
	li	a0, 2
	bltu	a3, a2, .Lgcm_BB85_7
# %bb.1:                                # %start
	lui	a3, 65793
	slli	a3, a3, 4
	srl	a3, a3, a2
	andi	a3, a3, 1
	beqz	a3, .Lgcm_BB85_7
# %bb.2:                                # %join.3.i
	slli	a2, a2, 32
	addi	a0, a1, 4
	addi	a1, a1, 244
	srli	a2, a2, 32
	srli	a2, a2, 2
	addi	a2, a2, 7
	sd	a0, 0(sp)
	sd	a2, 8(sp)
	sd	a0, 16(sp)
	sd	a2, 24(sp)
	sd	a1, 32(sp)
	mv	a0, sp
	li	a2, 3
	mv	a1, s1
	mv	a3, s0
	call	gcm.gcm.mode.BorrowedGcm.enter_phase
	zext.b	a0, a0
	beqz	a0, .Lgcm_BB85_5
# %bb.3:                                # %arm.2.i.i
	andi	a1, a1, 1
	bnez	a1, .Lgcm_BB85_6
# %bb.4:                                # %arm.2.i.i
	li	a0, 8
	j	.Lgcm_BB85_7
.Lgcm_BB85_5:                               # %arm.1.i.i
	seqz	a2, s2
	addi	a0, sp, 32
	ld	a3, 8(s1)
	addi	a1, s1, 48
	slli	a2, a2, 12
	add	s2, s2, a2
	addi	s3, a3, 16
	andi	a3, a3, 15
	addi	a2, s1, 64
	mv	a4, s2
	mv	a5, s0
	call	gcm.gcm.hash_room.hash_piece
	ld	a0, 8(s1)
	add	a0, a0, s0
	sd	a0, 8(s1)
	addi	a1, s1, 32
	mv	a0, sp
	mv	a2, s3
	mv	a3, s2
	mv	a4, s0
	call	gcm.gcm.gctr.add_gctr
	call	gcm.aes_cipher.zeroize.stack.wipe_stack.1536
	li	a0, 0
	j	.Lgcm_BB85_7
.Lgcm_BB85_6:
	li	a0, 5
.Lgcm_BB85_7:                               # %"gcm_c::pieces::decrypting::fotsgure_gcm_decrypt_unverified.exit"
	ld	ra, 72(sp)                      # 8-byte Folded Reload
	ld	s0, 64(sp)                      # 8-byte Folded Reload
	ld	s1, 56(sp)                      # 8-byte Folded Reload
	ld	s2, 48(sp)                      # 8-byte Folded Reload
	ld	s3, 40(sp)                      # 8-byte Folded Reload
	addi	sp, sp, 80
	vsetvli	t0, zero, e8, m8, ta, ma
	vmv.v.i	v0, 0
	vmv.v.i	v8, 0
	vmv.v.i	v16, 0
	vmv.v.i	v24, 0
	li	a1, 0
	li	a2, 0
	li	a3, 0
	li	a4, 0
	li	a5, 0
	li	a6, 0
	li	a7, 0
	li	t0, 0
	li	t1, 0
	li	t2, 0
	li	t3, 0
	li	t4, 0
	li	t5, 0
	li	t6, 0
	ret
.Lgcm_func_end85:
	.size	gcm.fotsgure_gcm_decrypt_unverified, .Lgcm_func_end85-gcm.fotsgure_gcm_decrypt_unverified
                                        # -- End function
	.section	.text.gcm.fotsgure_gcm_encrypt,"ax",@progbits
	export_gcm	fotsgure_gcm_encrypt
	.p2align	1
	.type	gcm.fotsgure_gcm_encrypt,@function
gcm.fotsgure_gcm_encrypt:                   # @gcm.fotsgure_gcm_encrypt
# %bb.0:                                # %start
	addi	sp, sp, -80
	sd	ra, 72(sp)                      # 8-byte Folded Spill
	sd	s0, 64(sp)                      # 8-byte Folded Spill
	sd	s1, 56(sp)                      # 8-byte Folded Spill
	sd	s2, 48(sp)                      # 8-byte Folded Spill
	sd	s3, 40(sp)                      # 8-byte Folded Spill
	mv	s0, a3
	mv	s2, a2
	mv	s1, a1
	mv	a1, a0
	lw	a2, 0(a0)
	li	a3, 32
	li	a0, 2
	bltu	a3, a2, .Lgcm_BB86_7
# %bb.1:                                # %start
	lui	a3, 65793
	slli	a3, a3, 4
	srl	a3, a3, a2
	andi	a3, a3, 1
	beqz	a3, .Lgcm_BB86_7
# %bb.2:                                # %join.3.i
	slli	a2, a2, 32
	addi	a0, a1, 4
	addi	a1, a1, 244
	srli	a2, a2, 32
	srli	a2, a2, 2
	addi	a2, a2, 7
	sd	a0, 0(sp)
	sd	a2, 8(sp)
	sd	a0, 16(sp)
	sd	a2, 24(sp)
	sd	a1, 32(sp)
	mv	a0, sp
	li	a2, 2
	mv	a1, s1
	mv	a3, s0
	call	gcm.gcm.mode.BorrowedGcm.enter_phase
	zext.b	a0, a0
	beqz	a0, .Lgcm_BB86_5
# %bb.3:                                # %arm.2.i.i
	andi	a1, a1, 1
	bnez	a1, .Lgcm_BB86_6
# %bb.4:                                # %arm.2.i.i
	li	a0, 8
	j	.Lgcm_BB86_7
.Lgcm_BB86_5:                               # %arm.1.i.i
	seqz	a0, s2
	ld	a2, 8(s1)
	slli	a0, a0, 12
	add	s2, s2, a0
	addi	s3, sp, 32
	addi	a1, s1, 32
	addi	a2, a2, 16
	mv	a0, sp
	mv	a3, s2
	mv	a4, s0
	call	gcm.gcm.gctr.add_gctr
	ld	a3, 8(s1)
	addi	a1, s1, 48
	andi	a3, a3, 15
	addi	a2, s1, 64
	mv	a0, s3
	mv	a4, s2
	mv	a5, s0
	call	gcm.gcm.hash_room.hash_piece
	ld	a0, 8(s1)
	add	a0, a0, s0
	sd	a0, 8(s1)
	call	gcm.aes_cipher.zeroize.stack.wipe_stack.1536
	li	a0, 0
	j	.Lgcm_BB86_7
.Lgcm_BB86_6:
	li	a0, 5
.Lgcm_BB86_7:                               # %"gcm_c::pieces::encrypting::fotsgure_gcm_encrypt.exit"
	ld	ra, 72(sp)                      # 8-byte Folded Reload
	ld	s0, 64(sp)                      # 8-byte Folded Reload
	ld	s1, 56(sp)                      # 8-byte Folded Reload
	ld	s2, 48(sp)                      # 8-byte Folded Reload
	ld	s3, 40(sp)                      # 8-byte Folded Reload
	addi	sp, sp, 80
	vsetvli	t0, zero, e8, m8, ta, ma
	vmv.v.i	v0, 0
	vmv.v.i	v8, 0
	vmv.v.i	v16, 0
	vmv.v.i	v24, 0
	li	a1, 0
	li	a2, 0
	li	a3, 0
	li	a4, 0
	li	a5, 0
	li	a6, 0
	li	a7, 0
	li	t0, 0
	li	t1, 0
	li	t2, 0
	li	t3, 0
	li	t4, 0
	li	t5, 0
	li	t6, 0
	ret
.Lgcm_func_end86:
	.size	gcm.fotsgure_gcm_encrypt, .Lgcm_func_end86-gcm.fotsgure_gcm_encrypt
                                        # -- End function
	.section	.text.gcm.fotsgure_gcm_verify,"ax",@progbits
	export_gcm	fotsgure_gcm_verify
	.p2align	1
	.type	gcm.fotsgure_gcm_verify,@function
gcm.fotsgure_gcm_verify:                    # @gcm.fotsgure_gcm_verify
# %bb.0:                                # %start
	addi	sp, sp, -80
	sd	ra, 72(sp)                      # 8-byte Folded Spill
	sd	s0, 64(sp)                      # 8-byte Folded Spill
	sd	s1, 56(sp)                      # 8-byte Folded Spill
	sd	s2, 48(sp)                      # 8-byte Folded Spill
	mv	s0, a3
	mv	s2, a2
	mv	s1, a1
	mv	a1, a0
	lw	a2, 0(a0)
	li	a3, 32
	li	a0, 2
	bltu	a3, a2, .Lgcm_BB87_5
# %bb.1:                                # %start
	lui	a3, 65793
	slli	a3, a3, 4
	srl	a3, a3, a2
	andi	a3, a3, 1
	beqz	a3, .Lgcm_BB87_5
# %bb.2:                                # %join.3.i
	slli	a2, a2, 32
	addi	a0, a1, 4
	addi	a1, a1, 244
	srli	a2, a2, 32
	srli	a2, a2, 2
	addi	a2, a2, 7
	sd	a0, 8(sp)
	sd	a2, 16(sp)
	sd	a0, 24(sp)
	sd	a2, 32(sp)
	sd	a1, 40(sp)
	addi	a0, sp, 8
	li	a2, 3
	mv	a1, s1
	mv	a3, s0
	call	gcm.gcm.mode.BorrowedGcm.enter_phase
	zext.b	a0, a0
	beqz	a0, .Lgcm_BB87_6
# %bb.3:                                # %arm.2.i.i
	andi	a1, a1, 1
	bnez	a1, .Lgcm_BB87_7
# %bb.4:                                # %arm.2.i.i
	li	a0, 8
.Lgcm_BB87_5:                               # %"gcm_c::pieces::decrypting::fotsgure_gcm_verify.exit"
	ld	ra, 72(sp)                      # 8-byte Folded Reload
	ld	s0, 64(sp)                      # 8-byte Folded Reload
	ld	s1, 56(sp)                      # 8-byte Folded Reload
	ld	s2, 48(sp)                      # 8-byte Folded Reload
	addi	sp, sp, 80
	vsetvli	t0, zero, e8, m8, ta, ma
	vmv.v.i	v0, 0
	vmv.v.i	v8, 0
	vmv.v.i	v16, 0
	vmv.v.i	v24, 0
	li	a1, 0
	li	a2, 0
	li	a3, 0
	li	a4, 0
	li	a5, 0
	li	a6, 0
	li	a7, 0
	li	t0, 0
	li	t1, 0
	li	t2, 0
	li	t3, 0
	li	t4, 0
	li	t5, 0
	li	t6, 0
	ret
.Lgcm_BB87_6:                               # %arm.1.i.i
	seqz	a2, s2
	addi	a0, sp, 40
	ld	a3, 8(s1)
	addi	a1, s1, 48
	slli	a2, a2, 12
	add	a4, s2, a2
	andi	a3, a3, 15
	addi	a2, s1, 64
	mv	a5, s0
	call	gcm.gcm.hash_room.hash_piece
	ld	a0, 8(s1)
	add	a0, a0, s0
	sd	a0, 8(s1)
	call	gcm.aes_cipher.zeroize.stack.wipe_stack.512
	li	a0, 0
	ld	ra, 72(sp)                      # 8-byte Folded Reload
	ld	s0, 64(sp)                      # 8-byte Folded Reload
	ld	s1, 56(sp)                      # 8-byte Folded Reload
	ld	s2, 48(sp)                      # 8-byte Folded Reload
	addi	sp, sp, 80
	vsetvli	t0, zero, e8, m8, ta, ma
	vmv.v.i	v0, 0
	vmv.v.i	v8, 0
	vmv.v.i	v16, 0
	vmv.v.i	v24, 0
	li	a1, 0
	li	a2, 0
	li	a3, 0
	li	a4, 0
	li	a5, 0
	li	a6, 0
	li	a7, 0
	li	t0, 0
	li	t1, 0
	li	t2, 0
	li	t3, 0
	li	t4, 0
	li	t5, 0
	li	t6, 0
	ret
.Lgcm_BB87_7:
	li	a0, 5
	ld	ra, 72(sp)                      # 8-byte Folded Reload
	ld	s0, 64(sp)                      # 8-byte Folded Reload
	ld	s1, 56(sp)                      # 8-byte Folded Reload
	ld	s2, 48(sp)                      # 8-byte Folded Reload
	addi	sp, sp, 80
	vsetvli	t0, zero, e8, m8, ta, ma
	vmv.v.i	v0, 0
	vmv.v.i	v8, 0
	vmv.v.i	v16, 0
	vmv.v.i	v24, 0
	li	a1, 0
	li	a2, 0
	li	a3, 0
	li	a4, 0
	li	a5, 0
	li	a6, 0
	li	a7, 0
	li	t0, 0
	li	t1, 0
	li	t2, 0
	li	t3, 0
	li	t4, 0
	li	t5, 0
	li	t6, 0
	ret
.Lgcm_func_end87:
	.size	gcm.fotsgure_gcm_verify, .Lgcm_func_end87-gcm.fotsgure_gcm_verify
                                        # -- End function
	.section	.text.gcm.fotsgure_gcm_accept,"ax",@progbits
	export_gcm	fotsgure_gcm_accept
	.p2align	1
	.type	gcm.fotsgure_gcm_accept,@function
gcm.fotsgure_gcm_accept:                    # @gcm.fotsgure_gcm_accept
# %bb.0:                                # %start
	li	a4, 16
	bne	a3, a4, .Lgcm_BB88_6
# %bb.1:                                # %join.3.i
	lw	a4, 0(a0)
	li	a5, 32
	li	a3, 2
	bltu	a5, a4, .Lgcm_BB88_7
# %bb.2:                                # %join.3.i
	lui	a5, 65793
	slli	a5, a5, 4
	srl	a5, a5, a4
	andi	a5, a5, 1
	beqz	a5, .Lgcm_BB88_7
# %bb.3:                                # %join.6.i
	addi	sp, sp, -80
	sd	ra, 72(sp)                      # 8-byte Folded Spill
	sd	s0, 64(sp)                      # 8-byte Folded Spill
	sd	s1, 56(sp)                      # 8-byte Folded Spill
	addi	a3, a0, 244
	sd	a3, 48(sp)
	seqz	a3, a2
	slli	a4, a4, 32
	addi	a0, a0, 4
	slli	a3, a3, 12
	add	a2, a2, a3
	mv	a3, sp
	vsetivli	zero, 16, e8, m1, ta, ma
	vle8.v	v8, (a2)
	ld	a2, 24(a1)
	srli	a4, a4, 32
	srli	a4, a4, 2
	addi	a4, a4, 7
	sd	a0, 16(sp)
	sd	a4, 24(sp)
	sd	a0, 32(sp)
	sd	a4, 40(sp)
	sltiu	a0, a2, 5
	neg	a0, a0
	and	a0, a0, a2
	ori	a0, a0, 2
	zext.b	a0, a0
	li	a2, 3
	vse8.v	v8, (a3)
	bne	a0, a2, .Lgcm_BB88_8
# %bb.4:                                # %join.3.i.i
	addi	a0, sp, 16
	mv	a2, sp
	mv	s1, a1
	call	gcm.gcm.mode.BorrowedGcm.is_tag_so_far
	mv	s0, a0
	call	gcm.aes_cipher.zeroize.stack.wipe_stack.1536
	beqz	s0, .Lgcm_BB88_9
# %bb.5:                                # %arm.7.i
	li	a0, 4
	sd	zero, 16(s1)
	sd	a0, 24(s1)
	ld	ra, 72(sp)                      # 8-byte Folded Reload
	ld	s0, 64(sp)                      # 8-byte Folded Reload
	ld	s1, 56(sp)                      # 8-byte Folded Reload
	addi	sp, sp, 80
	li	a0, 0
	vsetvli	t0, zero, e8, m8, ta, ma
	vmv.v.i	v0, 0
	vmv.v.i	v8, 0
	vmv.v.i	v16, 0
	vmv.v.i	v24, 0
	li	a1, 0
	li	a2, 0
	li	a3, 0
	li	a4, 0
	li	a5, 0
	li	a6, 0
	li	a7, 0
	li	t0, 0
	li	t1, 0
	li	t2, 0
	li	t3, 0
	li	t4, 0
	li	t5, 0
	li	t6, 0
	ret
.Lgcm_BB88_6:
	li	a3, 4
.Lgcm_BB88_7:                               # %"gcm_c::pieces::decrypting::fotsgure_gcm_accept.exit"
	mv	a0, a3
	vsetvli	t0, zero, e8, m8, ta, ma
	vmv.v.i	v0, 0
	vmv.v.i	v8, 0
	vmv.v.i	v16, 0
	vmv.v.i	v24, 0
	li	a1, 0
	li	a2, 0
	li	a3, 0
	li	a4, 0
	li	a5, 0
	li	a6, 0
	li	a7, 0
	li	t0, 0
	li	t1, 0
	li	t2, 0
	li	t3, 0
	li	t4, 0
	li	t5, 0
	li	t6, 0
	ret
.Lgcm_BB88_8:
	li	a0, 8
	ld	ra, 72(sp)                      # 8-byte Folded Reload
	ld	s0, 64(sp)                      # 8-byte Folded Reload
	ld	s1, 56(sp)                      # 8-byte Folded Reload
	addi	sp, sp, 80
	vsetvli	t0, zero, e8, m8, ta, ma
	vmv.v.i	v0, 0
	vmv.v.i	v8, 0
	vmv.v.i	v16, 0
	vmv.v.i	v24, 0
	li	a1, 0
	li	a2, 0
	li	a3, 0
	li	a4, 0
	li	a5, 0
	li	a6, 0
	li	a7, 0
	li	t0, 0
	li	t1, 0
	li	t2, 0
	li	t3, 0
	li	t4, 0
	li	t5, 0
	li	t6, 0
	ret
.Lgcm_BB88_9:
	li	a0, 6
	ld	ra, 72(sp)                      # 8-byte Folded Reload
	ld	s0, 64(sp)                      # 8-byte Folded Reload
	ld	s1, 56(sp)                      # 8-byte Folded Reload
	addi	sp, sp, 80
	vsetvli	t0, zero, e8, m8, ta, ma
	vmv.v.i	v0, 0
	vmv.v.i	v8, 0
	vmv.v.i	v16, 0
	vmv.v.i	v24, 0
	li	a1, 0
	li	a2, 0
	li	a3, 0
	li	a4, 0
	li	a5, 0
	li	a6, 0
	li	a7, 0
	li	t0, 0
	li	t1, 0
	li	t2, 0
	li	t3, 0
	li	t4, 0
	li	t5, 0
	li	t6, 0
	ret
.Lgcm_func_end88:
	.size	gcm.fotsgure_gcm_accept, .Lgcm_func_end88-gcm.fotsgure_gcm_accept
                                        # -- End function
	.section	.text.gcm.fotsgure_gcm_accept_short,"ax",@progbits
	export_gcm	fotsgure_gcm_accept_short
	.p2align	1
	.type	gcm.fotsgure_gcm_accept_short,@function
gcm.fotsgure_gcm_accept_short:              # @gcm.fotsgure_gcm_accept_short
# %bb.0:                                # %start
	mv	a5, a0
	li	a0, 4
	bne	a4, a2, .Lgcm_BB89_10
# %bb.1:                                # %start
	addi	sp, sp, -64
	sd	ra, 56(sp)                      # 8-byte Folded Spill
	sd	s0, 48(sp)                      # 8-byte Folded Spill
	sd	s1, 40(sp)                      # 8-byte Folded Spill
	addi	a4, a2, -4
	andi	s1, a2, -4
	andi	a4, a4, -5
	addi	s1, s1, -12
	seqz	a4, a4
	seqz	s1, s1
	or	a4, a4, s1
	beqz	a4, .Lgcm_BB89_9
# %bb.2:                                # %join.3.i
	lw	a4, 0(a5)
	li	s1, 32
	li	a0, 2
	bltu	s1, a4, .Lgcm_BB89_9
# %bb.3:                                # %join.3.i
	lui	s1, 65793
	slli	s1, s1, 4
	srl	s1, s1, a4
	andi	s1, s1, 1
	beqz	s1, .Lgcm_BB89_9
# %bb.4:                                # %join.6.i
	slli	a4, a4, 32
	addi	a0, a5, 4
	addi	a5, a5, 244
	ld	s1, 24(a1)
	srli	a4, a4, 32
	srli	a4, a4, 2
	addi	a4, a4, 7
	sd	a0, 0(sp)
	sd	a4, 8(sp)
	sd	a0, 16(sp)
	sd	a4, 24(sp)
	sltiu	a0, s1, 5
	neg	a0, a0
	and	a0, a0, s1
	ori	a0, a0, 2
	zext.b	a0, a0
	li	a4, 3
	sd	a5, 32(sp)
	bne	a0, a4, .Lgcm_BB89_7
# %bb.5:                                # %join.7.i.i
	seqz	a0, a3
	slli	a0, a0, 12
	add	a4, a3, a0
	mv	a0, sp
	mv	s1, a1
	mv	a3, a2
	mv	a2, a4
	call	gcm.gcm.mode.BorrowedGcm.is_short_tag_so_far
	mv	s0, a0
	call	gcm.aes_cipher.zeroize.stack.wipe_stack.1536
	beqz	s0, .Lgcm_BB89_8
# %bb.6:                                # %arm.7.i
	li	a0, 0
	li	a1, 4
	sd	zero, 16(s1)
	sd	a1, 24(s1)
	j	.Lgcm_BB89_9
.Lgcm_BB89_7:
	li	a0, 8
	j	.Lgcm_BB89_9
.Lgcm_BB89_8:
	li	a0, 6
.Lgcm_BB89_9:
	ld	ra, 56(sp)                      # 8-byte Folded Reload
	ld	s0, 48(sp)                      # 8-byte Folded Reload
	ld	s1, 40(sp)                      # 8-byte Folded Reload
	addi	sp, sp, 64
.Lgcm_BB89_10:                              # %"gcm_c::pieces::decrypting::fotsgure_gcm_accept_short.exit"
	vsetvli	t0, zero, e8, m8, ta, ma
	vmv.v.i	v0, 0
	vmv.v.i	v8, 0
	vmv.v.i	v16, 0
	vmv.v.i	v24, 0
	li	a1, 0
	li	a2, 0
	li	a3, 0
	li	a4, 0
	li	a5, 0
	li	a6, 0
	li	a7, 0
	li	t0, 0
	li	t1, 0
	li	t2, 0
	li	t3, 0
	li	t4, 0
	li	t5, 0
	li	t6, 0
	ret
.Lgcm_func_end89:
	.size	gcm.fotsgure_gcm_accept_short, .Lgcm_func_end89-gcm.fotsgure_gcm_accept_short
                                        # -- End function
	.type	.Lgcm_static.0,@object              # @static.0
	.section	.rodata..Lgcm_static.0,"a",@progbits
.Lgcm_static.0:
	.ascii	"\001\002\004\b\020 @\200\0336"
	.size	.Lgcm_static.0, 10

	.type	.Lgcm_static.1,@object              # @static.1
	.section	.rodata.cst16,"aM",@progbits,16
.Lgcm_static.1:
	.ascii	"\000\001\034\035-,10'&;:\n\013\026\027"
	.size	.Lgcm_static.1, 16

	.type	.Lgcm_static.2,@object              # @static.2
.Lgcm_static.2:
	.ascii	"\000\206\375{\216\bs\365w\361\212\f\371\177\004\202"
	.size	.Lgcm_static.2, 16

	.type	.Lgcm_static.3,@object              # @static.3
	.section	.rodata..Lgcm_static.3,"a",@progbits
.Lgcm_static.3:
	.ascii	"\000\001\002\003\004\005\006\007\b\t\n\013\f\r\016\017\000\005\n\017\004\t\016\003\b\r\002\007\f\001\006\013\000\t\002\013\004\r\006\017\b\001\n\003\f\005\016\007\000\r\n\007\004\001\016\013\b\005\002\017\f\t\006\003"
	.size	.Lgcm_static.3, 64

	.type	.Lgcm_static.5,@object              # @static.5
	.section	.rodata..Lgcm_static.5,"a",@progbits
.Lgcm_static.5:
	.ascii	"\001\002\003\000\005\006\007\004\t\n\013\b\r\016\017\f\005\006\007\004\t\n\013\b\r\016\017\f\001\002\003\000\t\n\013\b\r\016\017\f\001\002\003\000\005\006\007\004\r\016\017\f\001\002\003\000\005\006\007\004\t\n\013\b"
	.size	.Lgcm_static.5, 64

	.type	.Lgcm_static.6,@object              # @static.6
	.section	.rodata..Lgcm_static.6,"a",@progbits
.Lgcm_static.6:
	.ascii	"\003\000\001\002\007\004\005\006\013\b\t\n\017\f\r\016\017\f\r\016\003\000\001\002\007\004\005\006\013\b\t\n\013\b\t\n\017\f\r\016\003\000\001\002\007\004\005\006\007\004\005\006\013\b\t\n\017\f\r\016\003\000\001\002"
	.size	.Lgcm_static.6, 64

	.ident	"rattle logic=dac8208d650f15bf3e2dc313a14fa4c783a3acf887bdfab66e1714b038d9e11b"
	.section	".note.GNU-stack","",@progbits

	.section	.note.fotsgure,"a",%note
	.p2align	2, 0x0
	.long	9, 116, 1
	.asciz	"Fotsgure"
	.p2align	2, 0x0
	.asciz	"fotsgure_gcm 0.4.0, riscv64/gcm.s, sources SHA-256 7839658995c36f00d13f13ab6f42fa9360d959953d441bf3a57996a9c2aa56dc"
	.p2align	2, 0x0
