# Made by tools/dist from the proved crate aes_c; BUILD says from what. Don't edit it.
/* A Rust crate defines in_rust; for x86-64, a static library of both builds defines chosen, and choose_*.c calls these names. */
	.macro	export_aes_narrow name
	.ifdef	in_rust
	.globl	aes_narrow.\name
	.hidden	aes_narrow.\name
	.else
	.ifdef	chosen
	.globl	\name\()_narrow
	.hidden	\name\()_narrow
	.set	\name\()_narrow, aes_narrow.\name
	.else
	.globl	\name
	.set	\name, aes_narrow.\name
	.endif
	.endif
	.endm
	.file	"rattle"
	.section	.rodata.cst8,"aM",@progbits,8
	.p2align	3, 0x0                          # -- Begin function aes_narrow::word_room::expand_words::<#c1bf765664b24187>
.Laes_narrow_CPI0_0:
	.quad	-4222189076152336               # 0xfff0fff0fff0fff0
.Laes_narrow_CPI0_1:
	.quad	-71777214294589696              # 0xff00ff00ff00ff00
	.section	.text.aes_narrow.aes_narrow.word_room.expand_words,"ax",@progbits
	.p2align	1
	.type	aes_narrow.aes_narrow.word_room.expand_words,@function
aes_narrow.aes_narrow.word_room.expand_words: # @aes_narrow.aes_narrow.word_room.expand_words
# %bb.0:                                # %start
	addi	sp, sp, -480
	sd	ra, 472(sp)                     # 8-byte Folded Spill
	sd	s0, 464(sp)                     # 8-byte Folded Spill
	sd	s1, 456(sp)                     # 8-byte Folded Spill
	sd	s2, 448(sp)                     # 8-byte Folded Spill
	sd	s3, 440(sp)                     # 8-byte Folded Spill
	sd	s4, 432(sp)                     # 8-byte Folded Spill
	sd	s5, 424(sp)                     # 8-byte Folded Spill
	sd	s6, 416(sp)                     # 8-byte Folded Spill
	sd	s7, 408(sp)                     # 8-byte Folded Spill
	sd	s8, 400(sp)                     # 8-byte Folded Spill
	sd	s9, 392(sp)                     # 8-byte Folded Spill
	sd	s10, 384(sp)                    # 8-byte Folded Spill
	sd	s11, 376(sp)                    # 8-byte Folded Spill
	mv	s10, a0
	lui	t5, 349525
	lui	t6, 209715
	lui	s2, 61681
	lbu	s6, 0(a1)
	lbu	s8, 1(a1)
	lbu	s5, 2(a1)
	lbu	s7, 3(a1)
	lbu	a0, 4(a1)
	lbu	s0, 5(a1)
	lbu	a3, 6(a1)
	lbu	a5, 7(a1)
	lbu	a6, 8(a1)
	lbu	a7, 9(a1)
	lbu	t0, 10(a1)
	lbu	t1, 11(a1)
	lbu	s4, 12(a1)
	lbu	t2, 13(a1)
	lbu	t3, 14(a1)
	lbu	t4, 15(a1)
	addi	a4, t5, 1365
	addi	s3, t6, 819
	addi	t6, s2, -241
	slli	s2, a4, 32
	slli	s1, s3, 32
	add	s2, s2, a4
	slli	a4, t6, 32
	add	s3, s3, s1
	add	t6, t6, a4
	slli	s0, s0, 16
	slli	a4, t2, 24
	slli	s1, s4, 8
	slli	a5, a5, 16
	or	t5, a4, s0
	slli	a4, t4, 24
	or	s9, a0, s1
	slli	s1, t3, 8
	slli	s0, s8, 16
	or	s8, a4, a5
	slli	a5, a7, 24
	or	a3, a3, s1
	slli	s1, a6, 8
	slli	s7, s7, 16
	or	a5, a5, s0
	slli	s0, t1, 24
	or	s1, s6, s1
	slli	a0, t0, 8
	or	s0, s0, s7
	or	a4, s5, a0
	or	a0, s9, t5
	or	a3, a3, s8
	or	a5, a5, s1
	or	a4, a4, s0
	slli	a3, a3, 32
	slli	a4, a4, 32
	or	a0, a0, a3
	or	a3, a5, a4
	srli	a5, a3, 1
	srli	a4, a0, 1
	xor	a5, a5, a3
	xor	a4, a4, a0
	and	a5, a5, s2
	and	a4, a4, s2
	slli	s0, a5, 1
	xor	s8, a5, a3
	slli	s1, a4, 1
	xor	a4, a4, a0
	xor	a3, a3, s0
	xor	t5, s1, a0
	srli	a5, s8, 2
	srli	s1, a4, 2
	srli	s0, a3, 2
	srli	a0, t5, 2
	xor	a5, a5, s8
	xor	s1, s1, a4
	xor	s0, s0, a3
	xor	a0, a0, t5
	and	a5, a5, s3
	and	s1, s1, s3
	and	s0, s0, s3
	and	a0, a0, s3
	slli	s5, a5, 2
	xor	s6, a5, s8
	slli	a5, s1, 2
	xor	s7, s1, a4
	xor	s8, s5, s8
	slli	s1, s0, 2
	xor	s9, s0, a3
	xor	a4, a4, a5
	slli	a5, a0, 2
	xor	a0, a0, t5
	xor	s5, s1, a3
	srli	s1, s6, 4
	xor	a5, a5, t5
	xor	s1, s1, s7
	and	s0, s1, t6
	slli	s1, s0, 4
	xor	a3, s1, s6
	sd	a3, 344(sp)                     # 8-byte Folded Spill
	srli	a3, s8, 4
	xor	a3, a3, a4
	and	a3, a3, t6
	xor	a4, a4, a3
	sd	a4, 328(sp)                     # 8-byte Folded Spill
	slli	a3, a3, 4
	xor	s8, a3, s8
	srli	a3, s9, 4
	xor	a3, a3, a0
	and	a3, a3, t6
	xor	a0, a0, a3
	sd	a0, 336(sp)                     # 8-byte Folded Spill
	slli	a3, a3, 4
	xor	ra, a3, s9
	srli	a0, s5, 4
	xor	a0, a0, a5
	and	a0, a0, t6
	xor	s9, a0, a5
	slli	a0, a0, 4
	xor	s11, a0, s5
	li	a0, 24
	xor	s6, s0, s7
	sd	s10, 16(sp)                     # 8-byte Folded Spill
	sd	a2, 8(sp)                       # 8-byte Folded Spill
	beq	a2, a0, .Laes_narrow_BB0_4
# %bb.1:                                # %start
	li	a0, 16
	beq	a2, a0, .Laes_narrow_BB0_2
	j	.Laes_narrow_BB0_6
.Laes_narrow_BB0_2:                                # %then.1.i156
.Laes_narrow_pcrel_hi0:
	auipc	a0, %pcrel_hi(.Laes_narrow_CPI0_0)
.Laes_narrow_pcrel_hi1:
	auipc	a1, %pcrel_hi(.Laes_narrow_CPI0_1)
	lui	a5, 240
	li	t1, 15
	sd	s11, 0(s10)
	mv	a2, s8
	sd	s8, 8(s10)
	sd	ra, 16(s10)
	ld	a4, 344(sp)                     # 8-byte Folded Reload
	sd	a4, 24(s10)
	sd	s9, 32(s10)
	ld	s0, 328(sp)                     # 8-byte Folded Reload
	sd	s0, 40(s10)
	ld	s1, 336(sp)                     # 8-byte Folded Reload
	sd	s1, 48(s10)
	sd	s6, 56(s10)
.Laes_narrow_pcrel_hi2:
	auipc	a3, %pcrel_hi(.Laes_narrow_static.0)
	ld	a0, %pcrel_lo(.Laes_narrow_pcrel_hi0)(a0)
	sd	a0, 352(sp)                     # 8-byte Folded Spill
	ld	a0, %pcrel_lo(.Laes_narrow_pcrel_hi1)(a1)
	sd	a0, 320(sp)                     # 8-byte Folded Spill
	addi	a5, a5, 15
	slli	t1, t1, 28
	sd	t1, 312(sp)                     # 8-byte Folded Spill
	slli	t5, a5, 32
	add	a5, a5, t5
	sd	a5, 304(sp)                     # 8-byte Folded Spill
	addi	a6, a3, %pcrel_lo(.Laes_narrow_pcrel_hi2)
	addi	s5, s10, 64
	mv	a5, s9
	sd	a6, 296(sp)                     # 8-byte Folded Spill
.Laes_narrow_BB0_3:                                # %join.5.i.i157
                                        # =>This Inner Loop Header: Depth=1
	sd	a6, 368(sp)                     # 8-byte Folded Spill
	xor	a1, s0, s1
	xor	s3, a5, s6
	xor	s8, a2, s6
	mv	t1, s6
	xor	s6, ra, a5
	xor	t3, ra, t1
	xor	a3, s11, a1
	xor	s7, s8, s6
	xor	s9, a3, a5
	xor	a0, s7, a4
	xor	s4, a3, t1
	xor	t6, a3, a2
	and	a2, s9, s11
	xor	s0, a0, ra
	mv	s2, s11
	xor	s11, a0, s1
	xor	t4, t6, t3
	and	a7, t6, a3
	xor	a0, s11, s3
	xor	t2, s0, s2
	and	s1, s0, s7
	xor	ra, s0, a1
	xor	a2, a2, t3
	and	a5, a0, s3
	xor	a1, a1, a0
	xor	a4, a0, ra
	sd	a4, 360(sp)                     # 8-byte Folded Spill
	xor	s10, a0, s2
	and	t5, ra, t3
	and	t0, t2, t4
	xor	a2, a2, ra
	xor	s11, s11, s1
	xor	a2, a2, s1
	and	s1, a4, s6
	xor	t0, s11, t0
	and	s11, s10, s4
	xor	a4, t5, a5
	xor	a5, a5, s1
	and	s1, a1, s8
	xor	a7, a1, a7
	xor	t5, a2, a4
	xor	a7, a7, s1
	xor	s11, a1, s11
	xor	s1, s1, t1
	xor	t0, t0, a5
	xor	a7, a7, s8
	xor	s1, s11, s1
	xor	t1, a7, a5
	xor	a4, a4, s1
	xor	s11, t0, t5
	and	s1, t1, t0
	xor	a7, a4, t1
	xor	t0, s1, t5
	xor	a5, s1, a4
	and	a7, t0, a7
	and	a2, a5, s11
	xor	a2, a2, t5
	lbu	t0, 0(a6)
	xor	s1, a7, s1
	xor	t5, a7, a4
	and	a4, a4, s1
	xor	a7, a4, a5
	xor	t1, a4, t1
	slli	a5, t0, 61
	srli	a5, a5, 63
	ld	a6, 312(sp)                     # 8-byte Folded Reload
	mul	a5, a5, a6
	and	s1, t5, s9
	xor	s9, s1, a5
	and	a5, a7, a2
	xor	a5, a5, s11
	and	s11, t5, s2
	and	a4, t1, s0
	and	s7, t1, s7
	xor	s0, t1, t5
	xor	s1, a2, t5
	and	a7, a2, s4
	and	t1, a2, s10
	and	t2, s0, t2
	and	t4, s0, t4
	xor	s0, s0, a5
	xor	a2, a2, a5
	and	a3, a3, a5
	and	t5, a5, t6
	xor	a5, a4, s11
	xor	t6, t2, a4
	and	a1, a1, a2
	and	a2, a2, s8
	and	t2, s1, a0
	and	a0, s1, s3
	and	a4, s0, ra
	xor	s1, s1, s0
	and	s4, s0, t3
	and	t3, s1, s6
	ld	s0, 360(sp)                     # 8-byte Folded Reload
	and	s1, s1, s0
	xor	s0, a5, t1
	xor	a3, a3, a1
	xor	a1, a1, s0
	xor	a4, a4, a5
	slli	a5, t0, 58
	srli	a5, a5, 63
	mul	a5, a5, a6
	xor	a5, a5, s4
	xor	s1, s1, a3
	xor	t1, t6, a3
	andi	s0, t0, 1
	mul	s0, s0, a6
	xor	s0, s0, a2
	xor	a2, a2, a4
	slli	a4, t0, 60
	srli	a4, a4, 63
	mul	a4, a4, a6
	xor	a3, a1, t5
	xor	t5, a1, a4
	xor	a4, t3, a0
	xor	a0, a0, a5
	xor	a5, a4, t4
	xor	a3, a3, a4
	xor	t4, a2, s1
	xor	a4, s1, t2
	slli	s1, t0, 62
	srli	s1, s1, 63
	mul	s1, s1, a6
	xor	t6, a3, s0
	xor	t2, a3, s1
	slli	s1, t0, 57
	xor	a1, a5, s7
	xor	t3, s9, a5
	srli	a3, t0, 7
	srli	s1, s1, 63
	mul	a3, a3, a6
	mul	s1, s1, a6
	xor	a5, a0, a4
	xor	s3, a4, s1
	xor	a3, a3, a4
	slli	t0, t0, 59
	srli	a4, t0, 63
	mul	a4, a4, a6
	xor	a0, t4, a7
	xor	a2, t1, a1
	xor	s0, t2, t4
	xor	s1, t3, a0
	xor	t1, a5, a0
	xor	a3, a3, a1
	srli	a5, t6, 28
	slli	t6, t6, 36
	xor	t3, t5, a2
	xor	t4, a2, a4
	xor	t5, s3, a2
	or	a7, t6, a5
	srli	t2, s0, 28
	slli	t0, s0, 36
	srli	s0, s1, 28
	slli	a5, s1, 36
	srli	a0, t1, 28
	slli	t1, t1, 36
	srli	a1, a3, 28
	slli	a3, a3, 36
	or	t2, t0, t2
	or	a5, a5, s0
	srli	s0, t3, 28
	slli	t3, t3, 36
	srli	a4, t4, 28
	slli	t4, t4, 36
	or	t1, t1, a0
	srli	a2, t5, 28
	slli	t5, t5, 36
	or	a3, a3, a1
	or	a6, t3, s0
	or	t3, t4, a4
	or	t0, t5, a2
	ld	s0, -64(s5)
	ld	a2, -56(s5)
	ld	a0, -48(s5)
	ld	s1, -40(s5)
	not	a4, a7
	ld	a1, 304(sp)                     # 8-byte Folded Reload
	and	a4, a4, a1
	xor	t4, a4, s0
	and	a5, a5, a1
	xor	t5, a5, a0
	ld	a5, -8(s5)
	not	s0, t2
	and	a0, a3, a1
	and	s0, s0, a1
	and	a3, a6, a1
	ld	a6, 368(sp)                     # 8-byte Folded Reload
	xor	t2, a0, a5
	xor	t6, s0, a2
	xor	s3, a3, s1
	ld	a5, -32(s5)
	ld	s1, -24(s5)
	ld	a7, -16(s5)
	and	s0, t3, a1
	xor	t3, s0, a5
	not	s0, t1
	and	s0, s0, a1
	xor	t1, s0, s1
	addi	a6, a6, 1
	not	s1, t0
	and	s1, s1, a1
	xor	a7, s1, a7
	slli	a4, t4, 4
	ld	s2, 352(sp)                     # 8-byte Folded Reload
	and	a4, a4, s2
	xor	t0, a4, t4
	slli	a0, t5, 4
	and	a0, a0, s2
	xor	a0, a0, t5
	slli	a1, t2, 4
	and	a1, a1, s2
	xor	t2, a1, t2
	slli	a2, t6, 4
	and	a2, a2, s2
	xor	a2, a2, t6
	slli	a3, s3, 4
	and	a3, a3, s2
	xor	a3, a3, s3
	slli	a5, t3, 4
	and	a5, a5, s2
	xor	a5, a5, t3
	slli	s0, t1, 4
	and	s0, s0, s2
	xor	s0, s0, t1
	slli	s1, a7, 4
	and	s1, s1, s2
	xor	s1, s1, a7
	slli	a4, t0, 8
	ld	a1, 320(sp)                     # 8-byte Folded Reload
	and	a4, a4, a1
	xor	s11, a4, t0
	slli	a4, a0, 8
	and	a4, a4, a1
	xor	ra, a4, a0
	slli	a0, t2, 8
	and	a0, a0, a1
	xor	s6, a0, t2
	slli	a0, a2, 8
	and	a0, a0, a1
	xor	a2, a2, a0
	slli	a0, a3, 8
	and	a0, a0, a1
	xor	a4, a0, a3
	slli	a0, a5, 8
	and	a0, a0, a1
	xor	a5, a5, a0
	slli	a0, s0, 8
	and	a0, a0, a1
	xor	s0, s0, a0
	slli	a0, s1, 8
	and	a0, a0, a1
	xor	s1, s1, a0
	ld	a0, 296(sp)                     # 8-byte Folded Reload
	addi	a0, a0, 10
	sd	s11, 0(s5)
	sd	a2, 8(s5)
	sd	ra, 16(s5)
	sd	a4, 24(s5)
	sd	a5, 32(s5)
	sd	s0, 40(s5)
	sd	s1, 48(s5)
	sd	s6, 56(s5)
	addi	s5, s5, 64
	bne	a6, a0, .Laes_narrow_BB0_3
	j	.Laes_narrow_BB0_9
.Laes_narrow_BB0_4:                                # %then.4.i154
	lui	a0, 4080
	lui	a2, 240
	lbu	a3, 23(a1)
	addi	a0, a0, 255
	addi	a2, a2, 15
	slli	a4, a0, 32
	add	a0, a0, a4
	sd	a0, 56(sp)                      # 8-byte Folded Spill
	slli	t5, a2, 32
	add	a2, a2, t5
	sd	a2, 48(sp)                      # 8-byte Folded Spill
	lbu	a0, 22(a1)
	slli	t4, t4, 16
	slli	a3, a3, 24
	or	t4, a3, t4
	lbu	a3, 21(a1)
	slli	a0, a0, 8
	or	a0, t3, a0
	lbu	a4, 20(a1)
	slli	t2, t2, 16
	slli	a3, a3, 24
	or	a3, a3, t2
	lbu	a5, 19(a1)
	slli	a4, a4, 8
	or	a4, s4, a4
	lbu	s1, 18(a1)
	slli	t1, t1, 16
	slli	a5, a5, 24
	or	a5, a5, t1
	lbu	s0, 16(a1)
	lbu	a1, 17(a1)
	slli	s1, s1, 8
	or	s1, t0, s1
.Laes_narrow_pcrel_hi3:
	auipc	s4, %pcrel_hi(.Laes_narrow_CPI0_0)
	slli	a7, a7, 16
	slli	a1, a1, 24
	or	a1, a1, a7
	lui	a2, 16
	addi	a2, a2, -1
	slli	s0, s0, 8
	or	s0, a6, s0
	and	a0, a0, a2
	and	a4, a4, a2
	and	s1, s1, a2
	and	a2, a2, s0
	or	a0, a0, t4
	or	a3, a3, a4
	or	a5, a5, s1
	or	a1, a1, a2
	slli	a0, a0, 32
	slli	a3, a3, 32
	slli	a5, a5, 32
	slli	a1, a1, 32
	srli	a3, a3, 32
	srli	a1, a1, 32
	or	a0, a0, a3
	or	a1, a1, a5
	srli	a2, a1, 1
	srli	a3, a0, 1
	xor	a2, a2, a1
	xor	a3, a3, a0
	and	a2, a2, s2
	and	a3, a3, s2
	slli	s1, a2, 1
	xor	a5, a2, a1
	slli	a4, a3, 1
	xor	a3, a3, a0
	xor	s1, s1, a1
	xor	a6, a4, a0
	srli	a0, a5, 2
	srli	a1, a3, 2
	srli	a2, s1, 2
	srli	a4, a6, 2
	xor	a0, a0, a5
	xor	a1, a1, a3
	xor	a2, a2, s1
	xor	a4, a4, a6
	and	a0, a0, s3
	and	a1, a1, s3
	and	a2, a2, s3
	and	a4, a4, s3
	slli	s0, a0, 2
	xor	a7, a0, a5
	slli	a0, a1, 2
	xor	a1, a1, a3
	slli	t1, a2, 2
	xor	t2, a2, s1
	slli	a2, a4, 2
	xor	t3, a4, a6
	xor	t4, s0, a5
	xor	a0, a0, a3
	srli	a3, a7, 4
	xor	t1, t1, s1
	xor	a2, a2, a6
	srli	a5, t4, 4
	srli	a4, t2, 4
	xor	a3, a3, a1
	srli	s1, t1, 4
	xor	a5, a5, a0
	xor	a4, a4, t3
	and	a3, a3, t6
	xor	s1, s1, a2
	and	a5, a5, t6
	and	a4, a4, t6
	and	s1, s1, t6
.Laes_narrow_pcrel_hi4:
	auipc	a6, %pcrel_hi(.Laes_narrow_CPI0_1)
	xor	t0, a3, a1
	slli	a3, a3, 4
	xor	a7, a3, a7
	li	a1, 15
	sd	s11, 0(s10)
	mv	s3, s8
	sd	s8, 8(s10)
	sd	ra, 16(s10)
	ld	s2, 344(sp)                     # 8-byte Folded Reload
	sd	s2, 24(s10)
	sd	s9, 32(s10)
	ld	s8, 328(sp)                     # 8-byte Folded Reload
	sd	s8, 40(s10)
	ld	s7, 336(sp)                     # 8-byte Folded Reload
	sd	s7, 48(s10)
	sd	s6, 56(s10)
	xor	t5, a5, a0
	slli	a5, a5, 4
	xor	t6, a5, t4
	addi	a0, s10, 128
	sd	a0, 312(sp)                     # 8-byte Folded Spill
	xor	a5, a4, t3
	slli	a4, a4, 4
	xor	s0, a4, t2
.Laes_narrow_pcrel_hi5:
	auipc	a0, %pcrel_hi(.Laes_narrow_static.0+1)
	ld	a3, %pcrel_lo(.Laes_narrow_pcrel_hi3)(s4)
	sd	a3, 40(sp)                      # 8-byte Folded Spill
	ld	a3, %pcrel_lo(.Laes_narrow_pcrel_hi4)(a6)
	sd	a3, 32(sp)                      # 8-byte Folded Spill
	slli	a1, a1, 28
	sd	a1, 320(sp)                     # 8-byte Folded Spill
	addi	a1, a0, %pcrel_lo(.Laes_narrow_pcrel_hi5)
	xor	a4, s1, a2
	slli	s1, s1, 4
	xor	t2, s1, t1
	addi	a0, s10, 896
	mv	s10, s9
	sd	a0, 24(sp)                      # 8-byte Folded Spill
.Laes_narrow_BB0_5:                                # %join.5.i165.i
                                        # =>This Inner Loop Header: Depth=1
	sd	ra, 272(sp)                     # 8-byte Folded Spill
	sd	a7, 232(sp)                     # 8-byte Folded Spill
	sd	s10, 280(sp)                    # 8-byte Folded Spill
	sd	s3, 288(sp)                     # 8-byte Folded Spill
	sd	s7, 336(sp)                     # 8-byte Folded Spill
	sd	t5, 248(sp)                     # 8-byte Folded Spill
	sd	s11, 296(sp)                    # 8-byte Folded Spill
	sd	s8, 328(sp)                     # 8-byte Folded Spill
	sd	s2, 344(sp)                     # 8-byte Folded Spill
	sd	s6, 304(sp)                     # 8-byte Folded Spill
	sd	t6, 352(sp)                     # 8-byte Folded Spill
	sd	s0, 360(sp)                     # 8-byte Folded Spill
	mv	s5, a1
	sd	a1, 368(sp)                     # 8-byte Folded Spill
	xor	t3, t5, a5
	xor	t1, t6, t0
	xor	t4, s0, a4
	xor	a6, s0, t0
	mv	a2, t0
	xor	s9, t2, t3
	xor	t0, t1, t4
	sd	t4, 216(sp)                     # 8-byte Folded Spill
	xor	s6, s9, a4
	mv	s1, a4
	sd	a4, 240(sp)                     # 8-byte Folded Spill
	xor	a4, t0, a7
	mv	a0, a5
	sd	a5, 256(sp)                     # 8-byte Folded Spill
	and	a5, s6, t2
	xor	a1, a4, s0
	xor	a0, a0, a4
	and	a3, a1, t0
	xor	s11, a1, t3
	xor	a5, a5, a6
	xor	a5, a5, s11
	mv	a4, t2
	xor	t2, a5, a3
	xor	s0, a0, a3
	xor	t5, s9, t6
	xor	a3, t5, a6
	sd	a3, 208(sp)                     # 8-byte Folded Spill
	xor	a7, a1, a4
	mv	t6, a4
	and	a3, a7, a3
	xor	s2, s0, a3
	mv	a5, a2
	sd	a2, 224(sp)                     # 8-byte Folded Spill
	xor	s4, s1, a2
	xor	a2, a0, s4
	and	a0, a2, s4
	and	a4, s11, a6
	xor	s8, a4, a0
	xor	a3, a2, s11
	sd	a3, 264(sp)                     # 8-byte Folded Spill
	and	a4, a3, t4
	xor	a0, a0, a4
	xor	t4, a2, t3
	and	a4, t5, s9
	xor	a4, t4, a4
	and	a3, t4, t1
	xor	a4, a4, a3
	xor	t3, s9, a5
	xor	s3, a2, t6
	and	s1, s3, t3
	xor	s1, t4, s1
	xor	a3, a3, a5
	xor	a3, a3, s1
	xor	s2, s2, a0
	xor	a4, a4, t1
	xor	ra, a4, a0
	xor	s1, t2, s8
	xor	a3, a3, s8
	and	a4, ra, s2
	xor	t2, a3, ra
	xor	a0, a4, s1
	and	a0, a0, t2
	xor	s2, s2, s1
	xor	s10, a4, a3
	and	a5, s10, s2
	xor	t2, a5, s1
	xor	a4, a4, a0
	xor	s8, a0, a3
	lbu	s7, -1(s5)
	and	a3, a3, a4
	xor	s10, a3, s10
	xor	ra, a3, ra
	slli	a3, s7, 61
	srli	a3, a3, 63
	ld	s0, 320(sp)                     # 8-byte Folded Reload
	mul	a3, a3, s0
	and	a4, s8, s6
	xor	s6, a4, a3
	and	a3, s10, t2
	xor	a3, a3, s2
	and	t3, t2, t3
	and	s3, t2, s3
	and	a1, ra, a1
	and	s2, ra, t0
	xor	s1, ra, s8
	and	a5, s1, a7
	ld	a0, 208(sp)                     # 8-byte Folded Reload
	and	a7, s1, a0
	xor	s1, s1, a3
	and	s10, a3, s9
	and	t0, a3, t5
	xor	a3, a3, t2
	xor	a4, t2, s8
	and	a0, s8, t6
	sd	t6, 200(sp)                     # 8-byte Folded Spill
	xor	a0, a0, a1
	xor	t2, a5, a1
	and	a5, a3, t4
	and	a3, a3, t1
	and	t1, a4, a2
	and	t5, a4, s4
	and	a1, s1, s11
	xor	a4, a4, s1
	and	t4, s1, a6
	ld	a2, 216(sp)                     # 8-byte Folded Reload
	and	a6, a4, a2
	ld	a2, 264(sp)                     # 8-byte Folded Reload
	and	a4, a4, a2
	xor	a2, a0, s3
	xor	s1, a5, s10
	xor	a2, a2, a5
	xor	a0, a0, a1
	slli	a1, s7, 58
	srli	a1, a1, 63
	mul	a1, a1, s0
	xor	a1, a1, t4
	xor	a4, a4, s1
	xor	t2, t2, s1
	andi	a5, s7, 1
	mul	a5, a5, s0
	xor	a5, a5, a3
	xor	a0, a0, a3
	slli	a3, s7, 60
	srli	a3, a3, 63
	mul	a3, a3, s0
	xor	s1, a2, t0
	xor	t0, a2, a3
	xor	a2, a6, t5
	xor	a1, a1, t5
	xor	a3, a2, a7
	xor	a2, a2, s1
	xor	a0, a0, a4
	xor	a4, a4, t1
	slli	s1, s7, 62
	srli	s1, s1, 63
	mul	s1, s1, s0
	xor	t1, a2, a5
	xor	a2, a2, s1
	xor	t5, a3, s2
	xor	a7, s6, a3
	slli	a3, s7, 57
	srli	a3, a3, 63
	srli	a5, s7, 7
	mul	a5, a5, s0
	mul	a3, a3, s0
	xor	t4, a1, a4
	xor	s4, a4, a3
	xor	a4, a4, a5
	xor	a1, a0, t3
	xor	a6, a2, a0
	srli	s5, t6, 8
	xor	s1, a7, a1
	xor	t4, t4, a1
	ld	a0, 352(sp)                     # 8-byte Folded Reload
	srli	t6, a0, 8
	xor	a3, t2, t5
	xor	t5, a4, t5
	ld	a0, 360(sp)                     # 8-byte Folded Reload
	srli	t3, a0, 8
	slli	s7, s7, 59
	srli	a2, s7, 63
	mul	a2, a2, s0
	xor	t0, t0, a3
	xor	s2, a3, a2
	xor	s3, s4, a3
	srli	a1, t1, 28
	slli	t1, t1, 36
	or	a1, t1, a1
	srli	a4, a6, 28
	slli	a6, a6, 36
	or	a4, a6, a4
	srli	a0, s1, 28
	slli	s1, s1, 36
	or	a0, a0, s1
	srli	s1, t4, 28
	slli	t4, t4, 36
	or	t4, t4, s1
	srli	s0, t5, 28
	slli	t5, t5, 36
	or	s0, t5, s0
	srli	a5, t0, 28
	slli	t0, t0, 36
	or	t5, t0, a5
	srli	a2, s2, 28
	slli	s2, s2, 36
	or	s4, s2, a2
	srli	a3, s3, 28
	slli	s3, s3, 36
	or	s6, s3, a3
	ld	t1, 232(sp)                     # 8-byte Folded Reload
	srli	a6, t1, 8
	not	a1, a1
	ld	s9, 48(sp)                      # 8-byte Folded Reload
	and	a1, s9, a1
	ld	a2, 296(sp)                     # 8-byte Folded Reload
	xor	s7, a1, a2
	ld	t0, 240(sp)                     # 8-byte Folded Reload
	srli	a5, t0, 8
	and	a0, a0, s9
	ld	a1, 272(sp)                     # 8-byte Folded Reload
	xor	s8, a0, a1
	ld	a7, 248(sp)                     # 8-byte Folded Reload
	srli	a2, a7, 8
	and	s0, s0, s9
	ld	a0, 304(sp)                     # 8-byte Folded Reload
	xor	s10, s0, a0
	ld	ra, 256(sp)                     # 8-byte Folded Reload
	srli	a3, ra, 8
	not	a4, a4
	and	a4, s9, a4
	ld	a0, 288(sp)                     # 8-byte Folded Reload
	xor	s11, a4, a0
	ld	t2, 224(sp)                     # 8-byte Folded Reload
	srli	s1, t2, 8
	ld	a0, 56(sp)                      # 8-byte Folded Reload
	and	s3, s5, a0
	and	s2, t6, a0
	and	t3, t3, a0
	and	a1, a6, a0
	sd	a1, 176(sp)                     # 8-byte Folded Spill
	and	a5, a5, a0
	sd	a5, 208(sp)                     # 8-byte Folded Spill
	and	a2, a2, a0
	sd	a2, 192(sp)                     # 8-byte Folded Spill
	and	a3, a3, a0
	sd	a3, 216(sp)                     # 8-byte Folded Spill
	and	a0, a0, s1
	sd	a0, 184(sp)                     # 8-byte Folded Spill
	not	a2, t4
	and	a3, t5, s9
	and	a5, s4, s9
	and	a2, s9, a2
	not	s1, s6
	ld	a0, 344(sp)                     # 8-byte Folded Reload
	xor	t5, a3, a0
	slli	a1, s7, 4
	ld	a0, 280(sp)                     # 8-byte Folded Reload
	xor	s6, a5, a0
	slli	a0, s8, 4
	ld	a3, 328(sp)                     # 8-byte Folded Reload
	xor	t6, a2, a3
	and	s1, s9, s1
	slli	s0, s10, 4
	ld	s4, 40(sp)                      # 8-byte Folded Reload
	and	a1, a1, s4
	ld	a3, 336(sp)                     # 8-byte Folded Reload
	xor	a3, a3, s1
	slli	t4, s11, 4
	and	a0, a0, s4
	xor	a1, a1, s7
	sd	a1, 328(sp)                     # 8-byte Folded Spill
	slli	a5, t5, 4
	xor	a0, a0, s8
	sd	a0, 336(sp)                     # 8-byte Folded Spill
	slli	s1, s6, 4
	and	s0, s0, s4
	xor	a4, s0, s10
	sd	a4, 344(sp)                     # 8-byte Folded Spill
	slli	a2, t6, 4
	and	s0, t4, s4
	and	a5, a5, s4
	and	t4, s1, s4
	and	a2, a2, s4
	xor	s0, s0, s11
	sd	s0, 304(sp)                     # 8-byte Folded Spill
	slli	s1, a3, 4
	xor	a5, a5, t5
	slli	t5, a1, 8
	xor	s6, t4, s6
	slli	s11, a0, 8
	xor	s7, a2, t6
	and	a2, s1, s4
	slli	s8, a4, 8
	xor	a6, a2, a3
	srli	a2, a1, 4
	and	a2, a2, s9
	ld	a1, 200(sp)                     # 8-byte Folded Reload
	xor	s5, a2, a1
	srli	a2, a0, 4
	and	a2, a2, s9
	ld	s1, 360(sp)                     # 8-byte Folded Reload
	xor	s1, s1, a2
	srli	a2, a4, 4
	ld	t4, 32(sp)                      # 8-byte Folded Reload
	and	t6, t5, t4
	sd	t6, 264(sp)                     # 8-byte Folded Spill
	and	a1, a2, s9
	xor	s10, a1, t2
	srli	a1, s0, 4
	and	a1, a1, s9
	ld	a0, 352(sp)                     # 8-byte Folded Reload
	xor	t5, a1, a0
	srli	a2, a5, 4
	mv	a3, a5
	sd	a5, 296(sp)                     # 8-byte Folded Spill
	and	a2, a2, s9
	xor	t2, a2, t1
	srli	a4, s6, 4
	sd	s6, 288(sp)                     # 8-byte Folded Spill
	and	a4, a4, s9
	xor	t1, a4, t0
	srli	a5, s7, 4
	mv	a4, s7
	sd	s7, 280(sp)                     # 8-byte Folded Spill
	and	a5, a5, s9
	xor	s7, a5, a7
	slli	a1, s0, 8
	and	a5, s11, t4
	sd	a5, 248(sp)                     # 8-byte Folded Spill
	and	a1, a1, t4
	sd	a1, 360(sp)                     # 8-byte Folded Spill
	or	a0, t6, s3
	or	a1, a1, s2
	ld	t6, 312(sp)                     # 8-byte Folded Reload
	sd	a0, -64(t6)
	sd	a6, 272(sp)                     # 8-byte Folded Spill
	srli	a0, a6, 4
	and	a0, a0, s9
	xor	s2, a0, ra
	slli	a2, a3, 8
	or	a0, a5, t3
	sd	a1, -56(t6)
	slli	a1, s6, 8
	and	a2, a2, t4
	sd	a2, 352(sp)                     # 8-byte Folded Spill
	ld	a3, 176(sp)                     # 8-byte Folded Reload
	or	a2, a2, a3
	sd	a0, -48(t6)
	slli	a4, a4, 8
	and	a0, s8, t4
	sd	a0, 224(sp)                     # 8-byte Folded Spill
	and	a5, a1, t4
	sd	a5, 232(sp)                     # 8-byte Folded Spill
	and	a3, a4, t4
	sd	a3, 240(sp)                     # 8-byte Folded Spill
	sd	a2, -40(t6)
	slli	a1, a6, 8
	ld	a2, 184(sp)                     # 8-byte Folded Reload
	or	a2, a2, a0
	and	a0, a1, t4
	sd	a0, 256(sp)                     # 8-byte Folded Spill
	ld	a1, 208(sp)                     # 8-byte Folded Reload
	or	a1, a1, a5
	ld	a4, 192(sp)                     # 8-byte Folded Reload
	or	a4, a4, a3
	sd	a1, -32(t6)
	slli	a1, s5, 4
	ld	a5, 216(sp)                     # 8-byte Folded Reload
	or	a5, a5, a0
	sd	a4, -24(t6)
	slli	a4, s1, 4
	and	a1, a1, s4
	xor	a6, a1, s5
	slli	a3, s10, 4
	and	a4, a4, s4
	xor	a7, a4, s1
	slli	s1, t5, 4
	and	a3, a3, s4
	xor	t0, a3, s10
	slli	s0, t2, 4
	sd	a5, -16(t6)
	slli	a5, t1, 4
	sd	a2, -8(t6)
	slli	a2, s7, 4
	and	s1, s1, s4
	and	s0, s0, s4
	and	a5, a5, s4
	and	a2, a2, s4
	xor	s1, s1, t5
	slli	a0, s2, 4
	xor	s0, s0, t2
	slli	a1, a6, 8
	xor	a5, a5, t1
	slli	a4, a7, 8
	xor	a2, a2, s7
	and	a0, a0, s4
	slli	a3, t0, 8
	and	a1, a1, t4
	xor	t1, a0, s2
	slli	a0, s1, 8
	and	a4, a4, t4
	xor	s10, a1, a6
	slli	a1, s0, 8
	xor	a7, a4, a7
	slli	a4, a5, 8
	and	a3, a3, t4
	xor	t3, a3, t0
	slli	a3, a2, 8
	and	a0, a0, t4
	and	a1, a1, t4
	and	a4, a4, t4
	and	a3, a3, t4
	xor	s1, s1, a0
	slli	a0, t1, 8
	xor	t5, a1, s0
	xor	t0, a4, a5
	xor	ra, a3, a2
	and	a0, a0, t4
	mv	s0, a7
	xor	a7, t3, a7
	xor	s2, a0, t1
	xor	s5, s2, ra
	sd	ra, 208(sp)                     # 8-byte Folded Spill
	xor	s7, s5, s10
	xor	a0, s7, t0
	sd	a0, 120(sp)                     # 8-byte Folded Spill
	and	a1, a0, s10
	xor	a1, a1, a7
	mv	a2, s1
	xor	s11, s1, t3
	xor	t2, t0, s0
	xor	a3, s11, t2
	sd	a3, 128(sp)                     # 8-byte Folded Spill
	sd	t2, 144(sp)                     # 8-byte Folded Spill
	xor	s1, a3, t5
	sd	t5, 192(sp)                     # 8-byte Folded Spill
	xor	s8, s1, s0
	mv	t1, s0
	sd	s0, 168(sp)                     # 8-byte Folded Spill
	and	a4, s8, a3
	xor	a0, s8, s5
	xor	a5, a0, a4
	xor	a6, a1, a5
	xor	a3, s1, s2
	mv	s0, s2
	sd	s2, 216(sp)                     # 8-byte Folded Spill
	xor	s2, a3, a4
	xor	a5, s7, a2
	mv	s1, a2
	sd	a2, 184(sp)                     # 8-byte Folded Spill
	xor	a2, s8, s10
	sd	a2, 96(sp)                      # 8-byte Folded Spill
	mv	a1, a7
	sd	a7, 160(sp)                     # 8-byte Folded Spill
	xor	a4, a5, a7
	sd	a4, 104(sp)                     # 8-byte Folded Spill
	mv	a7, a5
	sd	a5, 88(sp)                      # 8-byte Folded Spill
	and	a5, a2, a4
	xor	s2, s2, a5
	xor	a2, t0, t3
	sd	a2, 136(sp)                     # 8-byte Folded Spill
	sd	t0, 200(sp)                     # 8-byte Folded Spill
	xor	s3, a3, a2
	and	a3, s3, a2
	sd	a0, 112(sp)                     # 8-byte Folded Spill
	and	a5, a0, a1
	xor	s6, a5, a3
	xor	a0, s3, a0
	sd	a0, 152(sp)                     # 8-byte Folded Spill
	and	a5, a0, t2
	xor	a0, a5, a3
	xor	t2, s3, s5
	and	a3, a7, s7
	xor	a3, t2, a3
	sd	s11, 80(sp)                     # 8-byte Folded Spill
	and	a1, t2, s11
	xor	a5, a3, a1
	mv	a7, t3
	xor	a3, s7, t3
	sd	a3, 72(sp)                      # 8-byte Folded Spill
	xor	t3, s3, s10
	and	a3, t3, a3
	xor	a3, t2, a3
	xor	a1, a1, a7
	sd	a7, 176(sp)                     # 8-byte Folded Spill
	xor	a1, a1, a3
	xor	s2, s2, a0
	xor	a5, a5, s11
	xor	s11, a5, a0
	xor	a5, a6, s6
	xor	a1, a1, s6
	and	a3, s11, s2
	xor	a6, a1, s11
	xor	a4, a3, a5
	and	a6, a4, a6
	xor	a4, s2, a5
	xor	s5, a3, a1
	and	a2, s5, a4
	xor	s2, a2, a5
	sd	s10, 0(t6)
	mv	a5, s10
	sd	s1, 8(t6)
	sd	t1, 16(t6)
	sd	t5, 24(t6)
	sd	t0, 32(t6)
	sd	ra, 40(t6)
	sd	s0, 48(t6)
	sd	a7, 56(t6)
	xor	a2, a6, a3
	xor	s10, a6, a1
	ld	a3, 368(sp)                     # 8-byte Folded Reload
	lbu	s6, 0(a3)
	and	a1, a1, a2
	xor	a3, a1, s5
	xor	s11, a1, s11
	slli	a1, s6, 61
	srli	a1, a1, 63
	ld	a6, 320(sp)                     # 8-byte Folded Reload
	mul	a1, a1, a6
	ld	a0, 120(sp)                     # 8-byte Folded Reload
	and	a2, s10, a0
	xor	a1, a1, a2
	sd	a1, 64(sp)                      # 8-byte Folded Spill
	and	a1, a3, s2
	xor	a4, a4, a1
	ld	a0, 72(sp)                      # 8-byte Folded Reload
	and	a0, s2, a0
	sd	a0, 120(sp)                     # 8-byte Folded Spill
	and	t3, s2, t3
	and	a3, s11, s8
	ld	a0, 128(sp)                     # 8-byte Folded Reload
	and	ra, s11, a0
	xor	s1, s11, s10
	ld	a1, 96(sp)                      # 8-byte Folded Reload
	and	a1, a1, s1
	ld	a0, 104(sp)                     # 8-byte Folded Reload
	and	t1, s1, a0
	xor	s1, s1, a4
	and	s11, a4, s7
	ld	a0, 88(sp)                      # 8-byte Folded Reload
	and	a7, a4, a0
	xor	a4, a4, s2
	xor	a2, s2, s10
	and	s0, s10, a5
	mv	s8, a5
	xor	s0, s0, a3
	xor	s5, a1, a3
	and	a0, a4, t2
	ld	a3, 80(sp)                      # 8-byte Folded Reload
	and	a3, a3, a4
	and	s2, a2, s3
	ld	a4, 136(sp)                     # 8-byte Folded Reload
	and	a4, a4, a2
	ld	a1, 112(sp)                     # 8-byte Folded Reload
	and	a1, a1, s1
	xor	a2, a2, s1
	ld	a5, 160(sp)                     # 8-byte Folded Reload
	and	s3, s1, a5
	ld	a5, 144(sp)                     # 8-byte Folded Reload
	and	t0, a2, a5
	ld	a5, 152(sp)                     # 8-byte Folded Reload
	and	a2, a2, a5
	xor	a5, s0, t3
	xor	s1, a0, s11
	xor	a0, a0, a5
	xor	t5, a1, s0
	slli	a5, s6, 58
	srli	a5, a5, 63
	mv	a1, a6
	mul	a5, a5, a6
	xor	a5, a5, s3
	xor	a2, a2, s1
	xor	t3, s5, s1
	mv	s5, t6
	andi	s0, s6, 1
	mul	s0, s0, a6
	xor	t6, s0, a3
	xor	s0, t5, a3
	slli	a3, s6, 60
	srli	a3, a3, 63
	mul	a3, a3, a6
	xor	s1, a0, a7
	xor	a7, a0, a3
	xor	a3, t0, a4
	xor	t0, a5, a4
	xor	a5, a3, t1
	xor	a3, a3, s1
	xor	s0, s0, a2
	xor	a2, a2, s2
	slli	s1, s6, 62
	srli	s1, s1, 63
	mul	s1, s1, a6
	xor	t5, a3, t6
	xor	t2, a3, s1
	xor	s1, a5, ra
	ld	a0, 64(sp)                      # 8-byte Folded Reload
	xor	a6, a0, a5
	slli	a0, s6, 57
	srli	a0, a0, 63
	srli	a4, s6, 7
	mul	a4, a4, a1
	mul	a0, a0, a1
	xor	a3, t0, a2
	xor	t0, a2, a0
	xor	a2, a2, a4
	ld	a4, 120(sp)                     # 8-byte Folded Reload
	xor	a4, a4, s0
	xor	a5, t2, s0
	xor	t1, a6, a4
	xor	a3, a3, a4
	xor	a0, t3, s1
	xor	a4, a2, s1
	slli	s6, s6, 59
	srli	a2, s6, 63
	mul	a2, a2, a1
	xor	s1, a7, a0
	xor	t2, a0, a2
	xor	t0, t0, a0
	srli	s0, t5, 28
	slli	t5, t5, 36
	or	a6, t5, s0
	srli	a1, a5, 28
	slli	a5, a5, 36
	or	a7, a5, a1
	srli	a1, t1, 28
	slli	t1, t1, 36
	or	a1, t1, a1
	srli	a5, a3, 28
	slli	a3, a3, 36
	or	a3, a3, a5
	srli	a5, a4, 28
	slli	a4, a4, 36
	or	a4, a4, a5
	srli	a5, s1, 28
	slli	s1, s1, 36
	or	a5, a5, s1
	srli	a2, t2, 28
	slli	t2, t2, 36
	or	a2, t2, a2
	srli	a0, t0, 28
	slli	t0, t0, 36
	or	a0, t0, a0
	not	s1, a6
	and	s1, s9, s1
	ld	s0, 264(sp)                     # 8-byte Folded Reload
	or	s1, s1, s0
	and	a1, a1, s9
	ld	s0, 248(sp)                     # 8-byte Folded Reload
	or	a1, a1, s0
	and	a4, a4, s9
	ld	s0, 224(sp)                     # 8-byte Folded Reload
	or	a4, a4, s0
	ld	s0, 328(sp)                     # 8-byte Folded Reload
	xor	a6, s1, s0
	not	s0, a7
	and	s0, s9, s0
	ld	s1, 360(sp)                     # 8-byte Folded Reload
	or	s0, s0, s1
	ld	s1, 336(sp)                     # 8-byte Folded Reload
	xor	a7, a1, s1
	and	a5, a5, s9
	ld	a1, 352(sp)                     # 8-byte Folded Reload
	or	a5, a5, a1
	and	a2, a2, s9
	ld	a1, 232(sp)                     # 8-byte Folded Reload
	or	a1, a1, a2
	not	a3, a3
	and	a3, s9, a3
	ld	a2, 240(sp)                     # 8-byte Folded Reload
	or	a3, a3, a2
	ld	a2, 344(sp)                     # 8-byte Folded Reload
	xor	a2, a2, a4
	ld	a4, 304(sp)                     # 8-byte Folded Reload
	xor	s0, s0, a4
	ld	a4, 296(sp)                     # 8-byte Folded Reload
	xor	t3, a5, a4
	ld	a4, 288(sp)                     # 8-byte Folded Reload
	xor	t0, a1, a4
	ld	a1, 280(sp)                     # 8-byte Folded Reload
	xor	t1, a3, a1
	not	a0, a0
	and	a0, s9, a0
	ld	a1, 256(sp)                     # 8-byte Folded Reload
	or	a0, a0, a1
	ld	a1, 272(sp)                     # 8-byte Folded Reload
	xor	t2, a0, a1
	slli	s1, a6, 4
	and	s1, s1, s4
	xor	a5, s1, a6
	slli	a1, a7, 4
	and	a1, a1, s4
	xor	a1, a1, a7
	slli	a4, a2, 4
	and	a4, a4, s4
	xor	a4, a4, a2
	slli	a2, s0, 4
	and	a2, a2, s4
	xor	s0, s0, a2
	slli	a2, t3, 4
	and	a2, a2, s4
	xor	a7, a2, t3
	slli	a2, t0, 4
	and	a2, a2, s4
	xor	t0, a2, t0
	slli	a3, t1, 4
	and	a3, a3, s4
	xor	t1, a3, t1
	slli	a0, t2, 4
	and	a0, a0, s4
	xor	t2, a0, t2
	slli	s1, a5, 8
	and	s1, s1, t4
	xor	s11, s1, a5
	srli	a5, a5, 4
	and	a5, a5, s9
	xor	a6, a5, s8
	slli	a5, a1, 8
	and	a5, a5, t4
	xor	ra, a5, a1
	srli	a1, a1, 4
	and	a1, a1, s9
	ld	a0, 168(sp)                     # 8-byte Folded Reload
	xor	t3, a1, a0
	slli	a5, a4, 8
	and	a5, a5, t4
	xor	s6, a5, a4
	srli	a4, a4, 4
	and	a4, a4, s9
	ld	a0, 176(sp)                     # 8-byte Folded Reload
	xor	t6, a4, a0
	slli	a5, s0, 8
	and	a5, a5, t4
	xor	s3, a5, s0
	srli	s0, s0, 4
	and	a5, s0, s9
	ld	a0, 184(sp)                     # 8-byte Folded Reload
	xor	t5, a5, a0
	slli	s1, a7, 8
	and	s1, s1, t4
	xor	s2, s1, a7
	srli	s1, a7, 4
	and	s1, s1, s9
	ld	a0, 192(sp)                     # 8-byte Folded Reload
	xor	a7, s1, a0
	slli	a2, t0, 8
	and	a2, a2, t4
	xor	s10, a2, t0
	srli	a2, t0, 4
	and	a2, a2, s9
	ld	a0, 200(sp)                     # 8-byte Folded Reload
	xor	t0, a2, a0
	slli	a3, t1, 8
	and	a3, a3, t4
	xor	s8, a3, t1
	srli	a3, t1, 4
	and	a3, a3, s9
	ld	a0, 208(sp)                     # 8-byte Folded Reload
	xor	t1, a3, a0
	slli	a0, t2, 8
	and	a0, a0, t4
	xor	s7, a0, t2
	srli	a0, t2, 4
	and	a0, a0, s9
	ld	a1, 216(sp)                     # 8-byte Folded Reload
	xor	t2, a0, a1
	slli	s0, a6, 4
	and	s0, s0, s4
	xor	a6, s0, a6
	slli	a1, t3, 4
	and	a1, a1, s4
	xor	t3, a1, t3
	slli	a4, t6, 4
	and	a4, a4, s4
	xor	a4, a4, t6
	ld	s9, 368(sp)                     # 8-byte Folded Reload
	slli	a5, t5, 4
	and	a5, a5, s4
	xor	a5, a5, t5
	slli	s1, a7, 4
	and	s1, s1, s4
	xor	s1, s1, a7
	slli	a2, t0, 4
	and	a2, a2, s4
	xor	a2, a2, t0
	slli	a3, t1, 4
	and	a3, a3, s4
	xor	a3, a3, t1
	slli	a0, t2, 4
	and	a0, a0, s4
	xor	a0, a0, t2
	slli	s0, a6, 8
	and	s0, s0, t4
	xor	t2, s0, a6
	slli	a1, t3, 8
	and	a1, a1, t4
	xor	s0, a1, t3
	slli	a1, a4, 8
	and	a1, a1, t4
	xor	t0, a1, a4
	slli	a1, a5, 8
	and	a1, a1, t4
	xor	t6, a1, a5
	slli	a1, s1, 8
	and	a1, a1, t4
	xor	a7, a1, s1
	slli	a1, a2, 8
	and	a1, a1, t4
	xor	a4, a1, a2
	slli	a1, a3, 8
	and	a1, a1, t4
	xor	t5, a1, a3
	slli	a1, a0, 8
	and	a1, a1, t4
	xor	a5, a1, a0
	sd	s11, 64(s5)
	sd	s3, 72(s5)
	sd	ra, 80(s5)
	sd	s2, 88(s5)
	sd	s10, 96(s5)
	sd	s8, 104(s5)
	sd	s7, 112(s5)
	sd	s6, 120(s5)
	addi	s5, s5, 192
	addi	a1, s9, 2
	ld	a0, 24(sp)                      # 8-byte Folded Reload
	sd	s5, 312(sp)                     # 8-byte Folded Spill
	bne	s5, a0, .Laes_narrow_BB0_5
	j	.Laes_narrow_BB0_9
.Laes_narrow_BB0_6:                                # %else.5.i
	lbu	a6, 16(a1)
	lbu	a7, 17(a1)
	lbu	t1, 18(a1)
	lbu	t3, 19(a1)
	lbu	s4, 20(a1)
	lbu	s5, 21(a1)
	lbu	s0, 22(a1)
	lbu	a5, 23(a1)
	lbu	t0, 24(a1)
	lbu	t2, 25(a1)
	lbu	t4, 26(a1)
	lbu	t5, 27(a1)
	lbu	a3, 28(a1)
	lbu	a2, 29(a1)
	lbu	a0, 30(a1)
	lbu	a1, 31(a1)
	sd	s11, 0(s10)
	sd	s8, 8(s10)
	sd	ra, 16(s10)
	ld	a4, 344(sp)                     # 8-byte Folded Reload
	sd	a4, 24(s10)
	sd	s9, 32(s10)
	ld	a4, 328(sp)                     # 8-byte Folded Reload
	sd	a4, 40(s10)
	ld	a4, 336(sp)                     # 8-byte Folded Reload
	sd	a4, 48(s10)
	lui	a4, 240
	sd	s6, 56(s10)
	addi	s1, a4, 15
	slli	a4, s1, 32
	add	a4, a4, s1
	sd	a4, 296(sp)                     # 8-byte Folded Spill
	slli	a5, a5, 16
	slli	a1, a1, 24
	or	s6, a1, a5
	slli	a0, a0, 8
	or	a0, a0, s0
	slli	s5, s5, 16
	slli	a2, a2, 24
	or	a2, a2, s5
	slli	a3, a3, 8
	or	a3, s4, a3
	slli	t3, t3, 16
	slli	t5, t5, 24
	or	a5, t5, t3
	slli	t4, t4, 8
	or	s1, t1, t4
.Laes_narrow_pcrel_hi6:
	auipc	t1, %pcrel_hi(.Laes_narrow_CPI0_0)
	slli	a7, a7, 16
	slli	t2, t2, 24
	or	s0, t2, a7
	lui	a4, 16
	addi	a4, a4, -1
	slli	t0, t0, 8
	or	a1, a6, t0
	and	a0, a0, a4
	and	a3, a3, a4
	and	s1, s1, a4
	and	a1, a1, a4
	or	a0, a0, s6
	or	a2, a2, a3
	or	a5, a5, s1
	or	a1, a1, s0
	slli	a0, a0, 32
	slli	a2, a2, 32
	slli	a5, a5, 32
	slli	a1, a1, 32
	srli	a2, a2, 32
	srli	a1, a1, 32
	or	a0, a0, a2
	or	a1, a1, a5
	srli	a2, a1, 1
	srli	a3, a0, 1
	xor	a2, a2, a1
	xor	a3, a3, a0
	and	a2, a2, s2
	and	a3, a3, s2
	slli	a4, a2, 1
	xor	a2, a2, a1
	slli	a5, a3, 1
	xor	a3, a3, a0
	xor	s1, a4, a1
	xor	a6, a5, a0
	srli	a0, a2, 2
	srli	a5, a3, 2
	srli	a1, s1, 2
	srli	a4, a6, 2
	xor	a0, a0, a2
	xor	a5, a5, a3
	xor	a1, a1, s1
	xor	a4, a4, a6
	and	a0, a0, s3
	and	a5, a5, s3
	and	a1, a1, s3
	and	a4, a4, s3
	slli	s0, a0, 2
	xor	a7, a0, a2
	slli	a0, a5, 2
	xor	t4, a5, a3
	slli	t2, a1, 2
	xor	t0, a1, s1
	slli	a1, a4, 2
	xor	s2, a4, a6
	xor	t3, s0, a2
	xor	a0, a0, a3
	srli	a3, a7, 4
	xor	t2, t2, s1
	xor	s3, a1, a6
	srli	a1, t3, 4
	srli	s1, t0, 4
	xor	a3, a3, t4
	srli	s0, t2, 4
	xor	a1, a1, a0
	xor	s1, s1, s2
	and	a3, a3, t6
	xor	s0, s0, s3
	and	a2, a1, t6
	and	a4, s1, t6
	and	t6, s0, t6
.Laes_narrow_pcrel_hi7:
	auipc	a6, %pcrel_hi(.Laes_narrow_CPI0_1)
	xor	t5, a3, t4
	slli	a3, a3, 4
	xor	a3, a3, a7
	li	a7, 15
	xor	a1, a2, a0
	slli	a2, a2, 4
	xor	s1, a2, t3
.Laes_narrow_pcrel_hi8:
	auipc	a0, %pcrel_hi(.Laes_narrow_static.0)
	ld	a2, %pcrel_lo(.Laes_narrow_pcrel_hi6)(t1)
	sd	a2, 280(sp)                     # 8-byte Folded Spill
	ld	a2, %pcrel_lo(.Laes_narrow_pcrel_hi7)(a6)
	sd	a2, 288(sp)                     # 8-byte Folded Spill
	slli	a7, a7, 28
	sd	a7, 272(sp)                     # 8-byte Folded Spill
	addi	a6, a0, %pcrel_lo(.Laes_narrow_pcrel_hi8)
	xor	a2, a4, s2
	slli	a4, a4, 4
	xor	s0, t6, s3
	slli	t6, t6, 4
	xor	a4, a4, t0
	xor	s11, t6, t2
	sd	s0, 96(s10)
	sd	a1, 104(s10)
	sd	a2, 112(s10)
	sd	t5, 120(s10)
	sd	s11, 64(s10)
	sd	s1, 72(s10)
	sd	a4, 80(s10)
	sd	a3, 88(s10)
	addi	s4, s10, 128
	sd	a6, 264(sp)                     # 8-byte Folded Spill
.Laes_narrow_BB0_7:                                # %join.5.i352.i
                                        # =>This Inner Loop Header: Depth=1
	sd	a6, 368(sp)                     # 8-byte Folded Spill
	lbu	t3, 0(a6)
	xor	t6, a1, a2
	xor	a5, s0, t5
	xor	s9, s1, t5
	xor	t2, a4, s0
	xor	s6, a4, t5
	xor	a1, s11, t6
	xor	s7, s9, t2
	sd	t2, 312(sp)                     # 8-byte Folded Spill
	xor	s2, a1, s0
	xor	a0, s7, a3
	xor	ra, a1, t5
	xor	s1, s1, a1
	sd	s1, 328(sp)                     # 8-byte Folded Spill
	and	a3, s2, s11
	xor	a4, a4, a0
	xor	s3, a0, a2
	xor	a0, s1, s6
	and	s8, s1, a1
	xor	s1, s3, a5
	mv	s0, a5
	sd	a5, 320(sp)                     # 8-byte Folded Spill
	xor	s5, a4, s11
	and	a2, a4, s7
	xor	a6, a4, t6
	xor	a7, a3, s6
	slli	a5, t3, 61
	and	t4, s1, s0
	xor	t0, s1, t6
	xor	s10, s1, a6
	xor	t1, s1, s11
	and	t6, a6, s6
	mv	a3, s5
	and	s0, s5, a0
	mv	s5, a0
	xor	a7, a7, a6
	xor	a0, s3, a2
	srli	a5, a5, 63
	xor	a7, a7, a2
	and	a2, s10, t2
	xor	a0, a0, s0
	and	s0, t1, ra
	mv	s3, ra
	xor	t6, t6, t4
	xor	t4, a2, t4
	and	a2, t0, s9
	xor	s8, t0, s8
	ld	t2, 272(sp)                     # 8-byte Folded Reload
	mul	a5, a5, t2
	xor	a7, a7, t6
	xor	s8, s8, a2
	xor	s0, t0, s0
	xor	t5, a2, t5
	xor	a0, a0, t4
	xor	a2, s8, s9
	xor	s0, s0, t5
	xor	a2, a2, t4
	xor	s0, s0, t6
	xor	s8, a0, a7
	and	a0, a0, a2
	xor	t4, s0, a2
	xor	t5, a0, a7
	xor	t6, a0, s0
	and	t4, t5, t4
	and	t5, t6, s8
	xor	a0, t4, a0
	xor	ra, t4, s0
	xor	a7, t5, a7
	and	t4, ra, s2
	and	a0, a0, s0
	xor	s2, a0, t6
	xor	a2, a2, a0
	xor	t5, t4, a5
	ld	a0, -128(s4)
	sd	a0, 344(sp)                     # 8-byte Folded Spill
	ld	a0, -120(s4)
	sd	a0, 360(sp)                     # 8-byte Folded Spill
	ld	a0, -112(s4)
	sd	a0, 336(sp)                     # 8-byte Folded Spill
	ld	a0, -104(s4)
	sd	a0, 352(sp)                     # 8-byte Folded Spill
	and	a5, ra, s11
	and	a4, a4, a2
	and	t4, a2, s7
	xor	a2, a2, ra
	xor	s7, a7, ra
	and	ra, a7, s3
	and	a0, a7, t1
	and	s0, s2, a7
	xor	s0, s0, s8
	and	s2, a2, a3
	and	t1, a2, s5
	xor	s11, a4, a5
	xor	a2, a2, s0
	xor	a5, s0, a7
	and	a1, a1, s0
	ld	a3, 328(sp)                     # 8-byte Folded Reload
	and	a7, s0, a3
	xor	s2, s2, a4
	and	a4, a5, t0
	and	a5, a5, s9
	ld	t6, -96(s4)
	ld	t0, -88(s4)
	ld	a3, -80(s4)
	sd	a3, 328(sp)                     # 8-byte Folded Spill
	ld	s8, -72(s4)
	and	s9, s7, s1
	ld	a3, 320(sp)                     # 8-byte Folded Reload
	and	s3, s7, a3
	and	a6, a2, a6
	xor	s1, a2, s7
	and	a2, a2, s6
	andi	s6, t3, 1
	ld	a3, 312(sp)                     # 8-byte Folded Reload
	and	s5, s1, a3
	and	a3, s1, s10
	slli	s1, t3, 62
	xor	a0, s11, a0
	xor	a1, a1, a4
	xor	a0, a0, a4
	slli	a4, t3, 60
	xor	a6, a6, s11
	slli	s0, t3, 58
	srli	s0, s0, 63
	mul	s0, s0, t2
	xor	s7, s0, a2
	slli	s0, t3, 59
	xor	a3, a3, a1
	xor	s2, s2, a1
	slli	a1, t3, 57
	srli	a2, t3, 7
	mul	t3, s6, t2
	srli	s1, s1, 63
	srli	a4, a4, 63
	srli	s0, s0, 63
	srli	a1, a1, 63
	mul	s11, a2, t2
	mul	s1, s1, t2
	mul	a4, a4, t2
	mul	s6, s0, t2
	mul	a1, a1, t2
	xor	t3, t3, a5
	xor	a2, s5, s3
	xor	s0, a0, a7
	xor	a5, a6, a5
	xor	a6, a0, a4
	xor	a7, s7, s3
	xor	a4, a2, t1
	xor	a2, a2, s0
	xor	a5, a5, a3
	xor	a3, a3, s9
	xor	s0, a4, t4
	xor	a0, a5, ra
	xor	t1, a2, t3
	xor	a2, a2, s1
	xor	a4, t5, a4
	xor	s1, a7, a3
	xor	a7, a3, a1
	xor	a1, a3, s11
	xor	a3, s2, s0
	xor	a2, a2, a5
	xor	a4, a4, a0
	xor	a0, a0, s1
	xor	a5, a1, s0
	srli	a1, t1, 28
	slli	t1, t1, 36
	xor	s5, a6, a3
	xor	t3, a3, s6
	xor	s3, a7, a3
	or	a6, t1, a1
	srli	t1, a2, 28
	slli	s2, a2, 36
	srli	a7, a4, 28
	slli	t4, a4, 36
	srli	s6, a0, 28
	slli	a0, a0, 36
	srli	s7, a5, 28
	slli	a5, a5, 36
	not	a1, a6
	or	a2, s2, t1
	or	a3, t4, a7
	srli	s1, s5, 28
	slli	s5, s5, 36
	srli	a4, t3, 28
	slli	t3, t3, 36
	or	a0, a0, s6
	srli	s0, s3, 28
	slli	s3, s3, 36
	or	a5, a5, s7
	ld	s7, 296(sp)                     # 8-byte Folded Reload
	and	a6, s7, a1
	not	a2, a2
	and	a3, a3, s7
	or	s1, s5, s1
	or	a4, t3, a4
	not	a0, a0
	or	s0, s3, s0
	and	a5, a5, s7
	ld	a1, 344(sp)                     # 8-byte Folded Reload
	xor	a1, a6, a1
	and	a7, s7, a2
	ld	a2, 336(sp)                     # 8-byte Folded Reload
	xor	a3, a3, a2
	and	t1, s1, s7
	and	a4, a4, s7
	and	a0, s7, a0
	not	s0, s0
	xor	a5, a5, s8
	slli	a6, a1, 4
	ld	a2, 360(sp)                     # 8-byte Folded Reload
	xor	a2, a7, a2
	slli	a7, a3, 4
	ld	s1, 352(sp)                     # 8-byte Folded Reload
	xor	s1, t1, s1
	xor	a4, a4, t6
	xor	a0, a0, t0
	and	t2, s7, s0
	slli	t0, a5, 4
	ld	s6, 280(sp)                     # 8-byte Folded Reload
	and	a6, a6, s6
	slli	t1, a2, 4
	and	a7, a7, s6
	slli	t3, s1, 4
	slli	t4, a4, 4
	slli	t5, a0, 4
	ld	s0, 328(sp)                     # 8-byte Folded Reload
	xor	s0, t2, s0
	and	t0, t0, s6
	xor	a1, a6, a1
	and	a6, t1, s6
	xor	a3, a7, a3
	and	a7, t3, s6
	and	t1, t4, s6
	and	t3, t5, s6
	slli	t4, s0, 4
	xor	s2, t0, a5
	slli	t0, a1, 8
	xor	a2, a6, a2
	slli	a6, a3, 8
	xor	s1, a7, s1
	xor	a4, t1, a4
	xor	a0, t3, a0
	and	a7, t4, s6
	slli	t1, s2, 8
	ld	s3, 288(sp)                     # 8-byte Folded Reload
	and	t0, t0, s3
	slli	t3, a2, 8
	and	a6, a6, s3
	slli	t4, s1, 8
	slli	t5, a4, 8
	slli	t6, a0, 8
	xor	a7, a7, s0
	and	t1, t1, s3
	xor	t0, t0, a1
	and	t3, t3, s3
	xor	s5, a6, a3
	and	a3, t4, s3
	and	s0, t5, s3
	and	a5, t6, s3
	slli	a1, a7, 8
	xor	t1, t1, s2
	xor	a2, t3, a2
	xor	a6, a3, s1
	sd	a6, 328(sp)                     # 8-byte Folded Spill
	xor	a4, a4, s0
	xor	a0, a0, a5
	and	a1, a1, s3
	xor	s0, t1, s5
	xor	a3, a1, a7
	xor	t3, a4, t1
	sd	a2, 304(sp)                     # 8-byte Folded Spill
	xor	s11, a2, t1
	xor	ra, a4, s5
	sd	a4, 32(s4)
	sd	a0, 40(s4)
	sd	a3, 48(s4)
	sd	t1, 56(s4)
	xor	s1, a3, a0
	xor	s2, s11, ra
	sd	ra, 344(sp)                     # 8-byte Folded Spill
	xor	a7, s1, t0
	xor	a0, s2, a6
	xor	a1, a7, a4
	sd	a1, 312(sp)                     # 8-byte Folded Spill
	xor	t2, a0, s5
	xor	a5, a0, a3
	xor	s10, a7, t1
	xor	s8, a7, a2
	and	a4, a1, t0
	mv	a0, t3
	sd	t3, 352(sp)                     # 8-byte Folded Spill
	xor	a6, a5, t3
	xor	a3, t2, t0
	sd	a3, 320(sp)                     # 8-byte Folded Spill
	sd	s0, 336(sp)                     # 8-byte Folded Spill
	xor	s9, s8, s0
	and	a2, t2, s2
	xor	t6, t2, s1
	and	t3, s8, a7
	and	a0, a6, a0
	xor	t5, a6, s1
	xor	s1, a6, t6
	sd	s1, 360(sp)                     # 8-byte Folded Spill
	xor	t4, a6, t0
	and	a1, t6, s0
	xor	a4, a4, s0
	xor	a5, a5, a2
	xor	a2, t6, a2
	xor	a2, a2, a4
	and	s0, a3, s9
	xor	a5, a5, s0
	and	s0, s1, ra
	xor	a1, a1, a0
	xor	a0, a0, s0
	and	s0, t5, s11
	xor	s1, t5, t3
	xor	ra, s1, s0
	xor	t1, s0, t1
	and	s0, t4, s10
	xor	s1, a2, a1
	xor	a2, t5, s0
	xor	a5, a5, a0
	xor	s0, ra, s11
	xor	a2, a2, t1
	xor	a0, a0, s0
	xor	a1, a1, a2
	xor	t1, a5, s1
	and	a5, a5, a0
	xor	s0, a1, a0
	xor	a2, a5, s1
	and	a2, a2, s0
	xor	s0, a5, a1
	and	a4, s0, t1
	xor	a4, a4, s1
	xor	a5, a5, a2
	xor	a2, a2, a1
	and	a1, a1, a5
	xor	s0, s0, a1
	xor	a0, a0, a1
	and	s0, s0, a4
	xor	a1, s0, t1
	ld	a3, 304(sp)                     # 8-byte Folded Reload
	sd	a3, 8(s4)
	sd	s5, 16(s4)
	ld	a3, 328(sp)                     # 8-byte Folded Reload
	sd	a3, 24(s4)
	sd	t0, 0(s4)
	ld	a3, 312(sp)                     # 8-byte Folded Reload
	and	t1, a2, a3
	and	s1, a2, t0
	and	s0, a0, t2
	and	t2, a0, s2
	xor	a0, a0, a2
	xor	a2, a2, a4
	and	t0, a4, s10
	and	s10, a4, t4
	ld	a5, 320(sp)                     # 8-byte Folded Reload
	and	a5, a5, a0
	and	s2, a0, s9
	xor	a0, a0, a1
	xor	a4, a4, a1
	and	s9, a1, a7
	and	a7, a1, s8
	xor	a1, s0, s1
	xor	s8, a5, s0
	and	a5, a4, t5
	and	s5, a4, s11
	and	t3, a2, a6
	ld	a3, 352(sp)                     # 8-byte Folded Reload
	and	a3, a3, a2
	and	t4, a0, t6
	xor	a2, a2, a0
	ld	a4, 336(sp)                     # 8-byte Folded Reload
	and	a0, a0, a4
	ld	s1, 344(sp)                     # 8-byte Folded Reload
	and	s1, s1, a2
	ld	a4, 360(sp)                     # 8-byte Folded Reload
	and	a2, a2, a4
	xor	s0, a1, s10
	xor	a4, a5, s9
	xor	t5, s0, a5
	xor	a1, t4, a1
	xor	a0, a0, a3
	xor	a3, a3, s1
	xor	a2, a2, a4
	xor	t4, s8, a4
	xor	a4, t5, a7
	xor	a1, a1, s5
	xor	a5, a3, s2
	xor	a3, a3, a4
	xor	a1, a1, a2
	xor	a2, a2, t3
	xor	t3, a5, t2
	xor	a4, a1, t0
	xor	a5, a5, t1
	xor	s0, a3, s5
	xor	a1, a1, a3
	ld	a3, -64(s4)
	ld	t0, -56(s4)
	ld	t1, -48(s4)
	ld	a6, -40(s4)
	xor	a0, a0, a2
	xor	a5, a5, a4
	not	s0, s0
	not	a1, a1
	xor	a7, a0, a4
	srli	s0, s0, 12
	srli	a1, a1, 12
	srli	a5, a5, 12
	and	a4, s0, s7
	and	a0, a1, s7
	and	a1, a5, s7
	xor	s0, a4, a3
	xor	s2, a0, t0
	xor	t6, a1, t1
	ld	a5, -32(s4)
	ld	t1, -24(s4)
	ld	t0, -16(s4)
	ld	a4, -8(s4)
	xor	s1, t4, t3
	xor	a3, t3, a2
	xor	a1, s1, t5
	xor	a2, a2, s1
	srli	s1, s1, 12
	and	a0, s1, s7
	xor	t3, a0, a5
	srli	a3, a3, 12
	and	a3, a3, s7
	xor	t4, a3, a4
	srli	a1, a1, 12
	and	a1, a1, s7
	xor	a6, a1, a6
	not	a5, a7
	srli	a5, a5, 12
	and	a5, a5, s7
	xor	a7, a5, t1
	ld	a0, 368(sp)                     # 8-byte Folded Reload
	addi	a0, a0, 1
	sd	a0, 368(sp)                     # 8-byte Folded Spill
	not	a2, a2
	srli	a2, a2, 12
	and	a2, a2, s7
	xor	t0, a2, t0
	slli	a4, s0, 4
	and	a4, a4, s6
	xor	t1, a4, s0
	slli	s1, s2, 4
	and	s1, s1, s6
	xor	s1, s1, s2
	slli	s0, t6, 4
	and	s0, s0, s6
	xor	s0, s0, t6
	slli	a0, t3, 4
	and	a0, a0, s6
	xor	t3, a0, t3
	slli	a3, t4, 4
	and	a3, a3, s6
	xor	t4, a3, t4
	slli	a1, a6, 4
	and	a1, a1, s6
	xor	a1, a1, a6
	ld	a6, 368(sp)                     # 8-byte Folded Reload
	slli	a5, a7, 4
	and	a5, a5, s6
	xor	a5, a5, a7
	slli	a2, t0, 4
	and	a2, a2, s6
	xor	a2, a2, t0
	slli	a4, t1, 8
	and	a4, a4, s3
	xor	s11, a4, t1
	slli	a4, s1, 8
	and	a4, a4, s3
	xor	s1, s1, a4
	slli	a4, s0, 8
	and	a4, a4, s3
	xor	a4, a4, s0
	slli	a0, t3, 8
	and	a0, a0, s3
	xor	s0, a0, t3
	slli	a3, t4, 8
	and	a3, a3, s3
	xor	t5, a3, t4
	slli	a3, a1, 8
	and	a3, a3, s3
	xor	a3, a3, a1
	slli	a1, a5, 8
	and	a1, a1, s3
	xor	a1, a1, a5
	slli	a5, a2, 8
	and	a5, a5, s3
	xor	a2, a2, a5
	ld	a5, 264(sp)                     # 8-byte Folded Reload
	addi	a5, a5, 6
	sd	s11, 64(s4)
	sd	s1, 72(s4)
	sd	a4, 80(s4)
	sd	a3, 88(s4)
	sd	s0, 96(s4)
	sd	a1, 104(s4)
	sd	a2, 112(s4)
	sd	t5, 120(s4)
	addi	s4, s4, 128
	bne	a6, a5, .Laes_narrow_BB0_7
# %bb.8:                                # %after.1.i.i
	xor	a5, a2, a1
	xor	a7, t5, s0
	xor	t3, t5, s1
	xor	a6, s0, a4
	xor	t0, t5, a4
	xor	s10, a5, s11
	xor	t1, t3, a6
	xor	s4, s10, s0
	xor	a0, t1, a3
	xor	t6, s10, t5
	xor	s5, s10, s1
	and	s6, s4, s11
	xor	s9, a0, a4
	xor	a0, a0, a2
	xor	s2, s5, t0
	and	t4, s5, s10
	xor	ra, a0, a7
	xor	s3, s9, s11
	and	a3, s9, t1
	xor	s7, s9, a5
	and	s0, ra, a7
	xor	s8, ra, a5
	xor	t2, ra, s7
	and	a5, s7, t0
	xor	s1, t0, s7
	xor	s1, s6, s1
	and	a1, s3, s2
	xor	a0, a0, a3
	xor	a1, a1, a0
	and	a0, t2, a6
	xor	a5, a5, s0
	xor	s0, s0, a0
	xor	s6, ra, s11
	xor	a3, a3, s1
	and	s1, s8, t3
	xor	a0, s8, t4
	xor	a0, a0, s1
	xor	s1, s1, t5
	and	a4, s6, t6
	xor	a4, s8, a4
	xor	a3, a3, a5
	xor	a1, a1, s0
	xor	a0, a0, t3
	xor	a4, a4, s1
	xor	s0, s0, a0
	xor	a4, a4, a5
	xor	a2, a1, a3
	and	a0, s0, a1
	xor	s1, a4, s0
	xor	a1, a0, a3
	and	a1, a1, s1
	xor	s1, a0, a4
	and	a5, s1, a2
	xor	a3, a3, a5
	xor	a0, a0, a1
	xor	a1, a1, a4
	and	a0, a0, a4
	xor	s1, s1, a0
	xor	a0, a0, s0
	and	s1, s1, a3
	xor	a2, a2, s1
	and	t5, a1, s4
	and	s1, a1, s11
	and	s0, a0, s9
	and	t1, a0, t1
	xor	a0, a0, a1
	xor	a1, a1, a3
	and	t4, a3, t6
	and	s4, a3, s6
	and	a4, a0, s3
	and	t6, a0, s2
	xor	a0, a0, a2
	xor	a3, a3, a2
	and	s6, a2, s10
	and	s2, a2, s5
	xor	s1, s1, s0
	xor	s3, a4, s0
	and	s0, a3, s8
	and	s5, a3, t3
	and	t3, a1, ra
	and	a2, a1, a7
	and	a7, a0, s7
	xor	a1, a1, a0
	and	a0, a0, t0
	and	a5, a1, a6
	and	a1, a1, t2
	xor	a3, s1, s4
	xor	a4, s0, s6
	xor	t2, a3, s0
	xor	a3, a7, s1
	xor	a6, a2, a0
	xor	a2, a2, a5
	xor	a1, a1, a4
	xor	a7, s3, a4
	xor	a5, t2, s2
	xor	s1, a2, t6
	xor	a2, a2, a5
	lui	a5, 983041
	slli	a5, a5, 4
	addi	t0, a5, -1
	xor	a3, a3, s5
	xor	a3, a3, a1
	xor	a1, a1, t3
	xor	a4, s1, t1
	xor	a0, a3, t4
	xor	t3, s1, t5
	xor	s0, a2, s5
	xor	a2, a2, a3
	xor	a5, a6, a1
	xor	t4, a1, t0
	xor	a3, a7, a4
	xor	a4, a4, a1
	ld	s1, 16(sp)                      # 8-byte Folded Reload
	ld	a7, 768(s1)
	ld	t0, 776(s1)
	ld	t1, 784(s1)
	ld	a6, 792(s1)
	xor	a1, t3, a0
	xor	a5, a5, a0
	srli	a0, s0, 28
	slli	s0, s0, 36
	or	t3, s0, a0
	srli	a0, a2, 28
	slli	a2, a2, 36
	xor	s0, a3, t2
	xor	t5, t4, a3
	or	t2, a2, a0
	srli	a2, a1, 28
	slli	a1, a1, 36
	or	t4, a1, a2
	srli	a2, a3, 28
	slli	a3, a3, 36
	or	t6, a3, a2
	srli	a3, a5, 28
	slli	a5, a5, 36
	or	s2, a5, a3
	srli	a5, a4, 28
	slli	a4, a4, 36
	not	a3, t3
	not	a1, t2
	or	t2, a4, a5
	srli	a5, s0, 28
	slli	s0, s0, 36
	or	t3, s0, a5
	srli	a2, t5, 28
	slli	t5, t5, 36
	ld	a0, 296(sp)                     # 8-byte Folded Reload
	and	a3, a3, a0
	and	a1, a1, a0
	and	s0, t4, a0
	or	t4, t5, a2
	xor	s3, a7, a3
	xor	t5, t0, a1
	xor	t1, t1, s0
	ld	a2, 800(s1)
	ld	t0, 808(s1)
	ld	a7, 816(s1)
	ld	a5, 824(s1)
	and	a4, t6, a0
	xor	a2, a2, a4
	not	a4, s2
	and	a3, t2, a0
	and	a1, t3, a0
	and	a4, a4, a0
	and	s0, t4, a0
	xor	a3, a3, a5
	slli	a5, s3, 4
	xor	t2, a6, a1
	slli	a6, t5, 4
	xor	t4, t0, a4
	slli	a0, t1, 4
	xor	s0, a7, s0
	slli	a7, a2, 4
	ld	a1, 280(sp)                     # 8-byte Folded Reload
	and	a5, a5, a1
	xor	t3, a5, s3
	slli	t0, a3, 4
	and	a5, a6, a1
	and	a4, a0, a1
	xor	t6, a5, t5
	slli	a5, t2, 4
	and	a0, a7, a1
	xor	t1, a4, t1
	slli	a4, t4, 4
	xor	a6, a0, a2
	slli	a2, s0, 4
	and	a0, t0, a1
	and	a5, a5, a1
	and	a4, a4, a1
	and	a2, a2, a1
	xor	t5, a0, a3
	slli	a3, t3, 8
	xor	s2, a5, t2
	slli	a7, t6, 8
	xor	a0, a4, t4
	slli	a4, t1, 8
	xor	a5, a2, s0
	slli	s0, a6, 8
	ld	a1, 288(sp)                     # 8-byte Folded Reload
	and	a3, a3, a1
	xor	t0, a3, t3
	slli	t2, t5, 8
	and	a3, a7, a1
	and	a4, a4, a1
	xor	a7, a3, t6
	slli	a3, s2, 8
	and	s0, s0, a1
	xor	t1, a4, t1
	slli	a4, a0, 8
	xor	a6, s0, a6
	slli	a2, a5, 8
	and	s0, t2, a1
	and	a3, a3, a1
	and	a4, a4, a1
	and	a2, a2, a1
	xor	a1, s0, t5
	xor	a3, a3, s2
	xor	a0, a0, a4
	xor	a2, a2, a5
	sd	t0, 896(s1)
	sd	a7, 904(s1)
	sd	t1, 912(s1)
	sd	a3, 920(s1)
	sd	a6, 928(s1)
	sd	a0, 936(s1)
	sd	a2, 944(s1)
	sd	a1, 952(s1)
.Laes_narrow_BB0_9:                                # %"aes_planes::expansion::expand::<#1ebeba980f309daf>.exit"
	lui	t3, 61680
	lui	t0, 4080
	lui	a1, 3840
	lui	a2, 983295
	ld	a0, 8(sp)                       # 8-byte Folded Reload
	srli	a7, a0, 2
	li	a3, -6
	ld	a0, 16(sp)                      # 8-byte Folded Reload
	addi	a0, a0, 120
	slli	a4, t3, 32
	add	t3, t3, a4
	slli	a4, t0, 32
	addi	a1, a1, 255
	addi	a2, a2, 15
	sub	a6, a3, a7
	addi	a7, a7, 6
	add	t0, t0, a4
	slli	a1, a1, 16
	slli	a2, a2, 32
	addi	a1, a1, 15
	srli	t1, a2, 12
	slli	t2, a1, 16
	li	a5, 1
	j	.Laes_narrow_BB0_12
.Laes_narrow_BB0_10:                               # %then.7.i
                                        #   in Loop: Header=BB0_12 Depth=1
	xor	s10, a1, s9
	xor	s11, s1, a4
	xor	s6, s6, t4
	xor	s5, s5, t5
	xor	s4, s4, s7
	xor	s3, s3, a3
	xor	s2, s2, a2
	xor	t6, t6, s8
	and	s1, s10, t2
	and	a1, s11, t2
	and	s6, s6, t2
	and	s5, s5, t2
	and	s4, s4, t2
	and	s3, s3, t2
	and	s2, s2, t2
	and	t6, t6, t2
	slli	s0, s1, 8
	add	s0, s0, s1
	slli	s1, a1, 8
	add	s1, s1, a1
	slli	a1, s6, 8
	add	s6, s6, a1
	slli	a1, s5, 8
	add	s5, s5, a1
	slli	a1, s4, 8
	add	s4, s4, a1
	slli	a1, s3, 8
	add	s3, s3, a1
	slli	a1, s2, 8
	add	s2, s2, a1
	slli	a1, t6, 8
	add	a1, a1, t6
	xor	s9, s0, s9
	xor	s10, s1, a4
	xor	t4, s6, t4
	xor	t5, s5, t5
	xor	t6, s4, s7
	xor	s5, s3, a3
	xor	s6, s2, a2
	xor	s8, a1, s8
	srli	s2, s9, 4
	srli	s3, s10, 4
	srli	s4, t4, 4
	srli	s7, t5, 4
	srli	s11, t6, 4
	srli	ra, s5, 4
	srli	a2, s6, 4
	srli	s0, s8, 4
	xor	s1, s2, s9
	xor	a4, s3, s10
	xor	a1, s4, t4
	xor	a3, s7, t5
	xor	s2, s11, t6
	xor	s3, ra, s5
	xor	s4, a2, s6
	xor	s7, s0, s8
	and	s0, s1, t3
	and	a4, a4, t3
	and	a1, a1, t3
	and	a3, a3, t3
	and	a2, s2, t3
	and	s11, s3, t3
	and	s2, s4, t3
	and	s3, s7, t3
	slli	s1, s0, 4
	add	s4, s1, s0
	slli	s1, a4, 4
	add	s7, s1, a4
	slli	s1, a1, 4
	add	a1, a1, s1
	slli	s1, a3, 4
	add	a3, a3, s1
	slli	s1, a2, 4
	add	a2, a2, s1
	slli	s1, s11, 4
	add	s1, s1, s11
	slli	s0, s2, 4
	add	s0, s0, s2
	slli	a4, s3, 4
	add	s3, s3, a4
	xor	s9, s4, s9
	xor	a4, s7, s10
	xor	t4, a1, t4
	xor	t5, a3, t5
	xor	s7, a2, t6
	xor	a3, s1, s5
	xor	a2, s0, s6
	xor	s8, s3, s8
.Laes_narrow_BB0_11:                               # %join.8.i
                                        #   in Loop: Header=BB0_12 Depth=1
	not	a1, s9
	not	a4, a4
	not	a3, a3
	not	a2, a2
	addi	a5, a5, 1
	sd	a1, -56(a0)
	sd	a4, -48(a0)
	sd	t4, -40(a0)
	sd	t5, -32(a0)
	sd	s7, -24(a0)
	sd	a3, -16(a0)
	sd	a2, -8(a0)
	sd	s8, 0(a0)
	add	a1, a6, a5
	li	a2, 1
	addi	a0, a0, 64
	beq	a1, a2, .Laes_narrow_BB0_18
.Laes_narrow_BB0_12:                               # %join.5.i
                                        # =>This Inner Loop Header: Depth=1
	ld	s9, -56(a0)
	ld	a4, -48(a0)
	ld	t4, -40(a0)
	ld	t5, -32(a0)
	ld	s7, -24(a0)
	ld	a3, -16(a0)
	ld	a2, -8(a0)
	ld	s8, 0(a0)
	bgeu	a5, a7, .Laes_narrow_BB0_11
# %bb.13:                               # %ok.10.i
                                        #   in Loop: Header=BB0_12 Depth=1
	andi	s0, a5, 3
	li	a1, 1
	blt	a1, s0, .Laes_narrow_BB0_16
# %bb.14:                               # %ok.10.i
                                        #   in Loop: Header=BB0_12 Depth=1
	beqz	s0, .Laes_narrow_BB0_11
# %bb.15:                               # %then.1.i
                                        #   in Loop: Header=BB0_12 Depth=1
	srli	t6, s9, 8
	srli	s2, a4, 8
	srli	s3, t4, 8
	srli	s4, t5, 8
	srli	s5, s7, 8
	srli	s6, a3, 8
	srli	s10, a2, 8
	srli	s1, s8, 8
	xor	s0, t6, s9
	xor	a1, s2, a4
	xor	t6, s3, t4
	xor	s2, s4, t5
	xor	s3, s5, s7
	xor	s4, s6, a3
	xor	s5, s10, a2
	xor	s6, s1, s8
	and	s1, s0, t1
	and	a1, a1, t1
	and	s10, t6, t1
	and	t6, s2, t1
	and	s2, s3, t1
	and	s3, s4, t1
	and	s4, s5, t1
	and	s5, s6, t1
	slli	s0, s1, 8
	add	s0, s0, s1
	slli	s1, a1, 8
	add	s1, s1, a1
	slli	a1, s10, 8
	add	s10, s10, a1
	slli	a1, t6, 8
	add	t6, t6, a1
	slli	a1, s2, 8
	add	s2, s2, a1
	slli	a1, s3, 8
	add	s3, s3, a1
	slli	a1, s4, 8
	add	s4, s4, a1
	slli	a1, s5, 8
	add	s5, s5, a1
	xor	s6, s0, s9
	xor	ra, s1, a4
	xor	t4, s10, t4
	xor	t5, t6, t5
	xor	t6, s2, s7
	xor	s10, s3, a3
	xor	s11, s4, a2
	xor	s5, s5, s8
	srli	s2, s6, 4
	srli	s3, ra, 4
	srli	s4, t4, 4
	srli	s7, t5, 4
	srli	s8, t6, 4
	srli	s9, s10, 4
	srli	a2, s11, 4
	srli	s0, s5, 4
	xor	s1, s2, s6
	xor	a4, s3, ra
	xor	a1, s4, t4
	xor	a3, s7, t5
	xor	s2, s8, t6
	xor	s3, s9, s10
	xor	s4, a2, s11
	xor	s7, s0, s5
	and	s0, s1, t3
	and	a4, a4, t3
	and	a1, a1, t3
	and	a3, a3, t3
	and	a2, s2, t3
	and	s8, s3, t3
	and	s2, s4, t3
	and	s3, s7, t3
	slli	s1, s0, 4
	add	s4, s1, s0
	slli	s1, a4, 4
	add	s7, s1, a4
	slli	s1, a1, 4
	add	a1, a1, s1
	slli	s1, a3, 4
	add	a3, a3, s1
	slli	s1, a2, 4
	add	a2, a2, s1
	slli	s1, s8, 4
	add	s1, s1, s8
	slli	s0, s2, 4
	add	s0, s0, s2
	slli	a4, s3, 4
	add	s3, s3, a4
	xor	s9, s4, s6
	xor	a4, s7, ra
	xor	t4, a1, t4
	xor	t5, a3, t5
	xor	s7, a2, t6
	xor	a3, s1, s10
	xor	a2, s0, s11
	xor	s8, s3, s5
	j	.Laes_narrow_BB0_11
.Laes_narrow_BB0_16:                               # %ok.10.i
                                        #   in Loop: Header=BB0_12 Depth=1
	li	s10, 2
	srli	a1, s9, 8
	srli	s1, a4, 8
	srli	s6, t4, 8
	srli	s5, t5, 8
	srli	s4, s7, 8
	srli	s3, a3, 8
	srli	s2, a2, 8
	srli	t6, s8, 8
	bne	s0, s10, .Laes_narrow_BB0_10
# %bb.17:                               # %then.4.i
                                        #   in Loop: Header=BB0_12 Depth=1
	xor	s10, a1, s9
	xor	s11, s1, a4
	xor	s6, s6, t4
	xor	s5, s5, t5
	xor	s4, s4, s7
	xor	s3, s3, a3
	xor	s2, s2, a2
	xor	t6, t6, s8
	and	s1, s10, t0
	and	a1, s11, t0
	and	s6, s6, t0
	and	s5, s5, t0
	and	s4, s4, t0
	and	s3, s3, t0
	and	s2, s2, t0
	and	t6, t6, t0
	slli	s0, s1, 8
	add	s10, s0, s1
	slli	s1, a1, 8
	add	s11, s1, a1
	slli	s1, s6, 8
	add	s6, s6, s1
	slli	s0, s5, 8
	add	s5, s5, s0
	slli	a1, s4, 8
	add	s4, s4, a1
	slli	s1, s3, 8
	add	s1, s1, s3
	slli	s0, s2, 8
	add	s0, s0, s2
	slli	a1, t6, 8
	add	a1, a1, t6
	xor	s9, s10, s9
	xor	a4, s11, a4
	xor	t4, s6, t4
	xor	t5, s5, t5
	xor	s7, s4, s7
	xor	a3, a3, s1
	xor	a2, a2, s0
	xor	s8, a1, s8
	j	.Laes_narrow_BB0_11
.Laes_narrow_BB0_18:                               # %"aes_soft::soft::key_layout::store::<#22bae2b93930244e>.exit"
	ld	ra, 472(sp)                     # 8-byte Folded Reload
	ld	s0, 464(sp)                     # 8-byte Folded Reload
	ld	s1, 456(sp)                     # 8-byte Folded Reload
	ld	s2, 448(sp)                     # 8-byte Folded Reload
	ld	s3, 440(sp)                     # 8-byte Folded Reload
	ld	s4, 432(sp)                     # 8-byte Folded Reload
	ld	s5, 424(sp)                     # 8-byte Folded Reload
	ld	s6, 416(sp)                     # 8-byte Folded Reload
	ld	s7, 408(sp)                     # 8-byte Folded Reload
	ld	s8, 400(sp)                     # 8-byte Folded Reload
	ld	s9, 392(sp)                     # 8-byte Folded Reload
	ld	s10, 384(sp)                    # 8-byte Folded Reload
	ld	s11, 376(sp)                    # 8-byte Folded Reload
	addi	sp, sp, 480
	ret
.Laes_narrow_func_end0:
	.size	aes_narrow.aes_narrow.word_room.expand_words, .Laes_narrow_func_end0-aes_narrow.aes_narrow.word_room.expand_words
                                        # -- End function
	.section	.text.aes_narrow.aes_cipher.zeroize.stack.wipe_stack.768,"ax",@progbits
	.p2align	1                               # -- Begin function aes_cipher::zeroize::stack::wipe_stack::<=768>
	.type	aes_narrow.aes_cipher.zeroize.stack.wipe_stack.768,@function
aes_narrow.aes_cipher.zeroize.stack.wipe_stack.768: # @aes_narrow.aes_cipher.zeroize.stack.wipe_stack.768
# %bb.0:                                # %start
	addi	sp, sp, -800
	sd	ra, 792(sp)                     # 8-byte Folded Spill
	sd	s0, 784(sp)                     # 8-byte Folded Spill
	sd	s1, 776(sp)                     # 8-byte Folded Spill
	addi	s0, sp, 8
	addi	a0, sp, 8
	li	a2, 768
	li	s1, 768
	li	a1, 0
	la	t1, memset
	jalr	t1
	sd	zero, 0(sp)
	#APP
	#NO_APP
	fence	rw, rw
	ld	a0, 0(sp)
	fence	r, rw
	#APP
	#NO_APP
	bgeu	a0, s1, .Laes_narrow_BB1_2
# %bb.1:                                # %then.1
	add	a0, a0, s0
	lbu	a0, 0(a0)
	#APP
	#NO_APP
	mv	a1, sp
	amoswap.d.aqrl	zero, a0, (a1)
	#APP
	#NO_APP
.Laes_narrow_BB1_2:                                # %common.ret
	ld	ra, 792(sp)                     # 8-byte Folded Reload
	ld	s0, 784(sp)                     # 8-byte Folded Reload
	ld	s1, 776(sp)                     # 8-byte Folded Reload
	addi	sp, sp, 800
	ret
.Laes_narrow_func_end1:
	.size	aes_narrow.aes_cipher.zeroize.stack.wipe_stack.768, .Laes_narrow_func_end1-aes_narrow.aes_cipher.zeroize.stack.wipe_stack.768
                                        # -- End function
	.section	.text.aes_narrow.aes_ctr.add_in_batches.add_keystream,"ax",@progbits
	.p2align	1                               # -- Begin function aes_ctr::add_in_batches::add_keystream::<#f7269deedbd939eb>
	.type	aes_narrow.aes_ctr.add_in_batches.add_keystream,@function
aes_narrow.aes_ctr.add_in_batches.add_keystream: # @aes_narrow.aes_ctr.add_in_batches.add_keystream
# %bb.0:                                # %start
	addi	sp, sp, -160
	sd	ra, 152(sp)                     # 8-byte Folded Spill
	sd	s0, 144(sp)                     # 8-byte Folded Spill
	sd	s1, 136(sp)                     # 8-byte Folded Spill
	sd	s2, 128(sp)                     # 8-byte Folded Spill
	sd	s3, 120(sp)                     # 8-byte Folded Spill
	sd	s4, 112(sp)                     # 8-byte Folded Spill
	sd	s5, 104(sp)                     # 8-byte Folded Spill
	sd	s6, 96(sp)                      # 8-byte Folded Spill
	sd	s7, 88(sp)                      # 8-byte Folded Spill
	sd	s8, 80(sp)                      # 8-byte Folded Spill
	sd	s9, 72(sp)                      # 8-byte Folded Spill
	sd	s10, 64(sp)                     # 8-byte Folded Spill
	sd	s11, 56(sp)                     # 8-byte Folded Spill
	mv	s2, a4
	mv	s3, a3
	lbu	a6, 8(a1)
	lbu	a4, 9(a1)
	lbu	a5, 10(a1)
	lbu	s1, 11(a1)
	lbu	s0, 12(a1)
	lbu	a3, 13(a1)
	lbu	a7, 14(a1)
	lbu	t0, 15(a1)
	slli	a4, a4, 8
	slli	a5, a5, 16
	slli	s1, s1, 24
	slli	a3, a3, 8
	or	a6, a4, a6
	or	t2, s1, a5
	or	t1, a3, s0
	lbu	s1, 0(a1)
	lbu	s0, 1(a1)
	lbu	a4, 2(a1)
	lbu	a3, 3(a1)
	slli	a7, a7, 16
	slli	t0, t0, 24
	slli	s0, s0, 8
	slli	a4, a4, 16
	slli	a3, a3, 24
	or	a7, t0, a7
	or	s0, s0, s1
	or	a3, a3, a4
	lbu	a4, 5(a1)
	lbu	s1, 4(a1)
	lbu	a5, 6(a1)
	lbu	a1, 7(a1)
	slli	a4, a4, 8
	or	a4, a4, s1
	slli	a5, a5, 16
	slli	a1, a1, 24
	or	a1, a1, a5
	or	a5, t2, a6
	or	s1, a7, t1
	or	a3, a3, s0
	or	a1, a1, a4
	andi	s9, a2, 15
	slli	s1, s1, 32
	or	a5, a5, s1
	li	a4, 16
	sub	a4, a4, s9
	slli	a1, a1, 32
	or	a1, a1, a3
	sd	a1, 8(sp)
	sd	a5, 16(sp)
	bgeu	a4, s2, .Laes_narrow_BB2_2
# %bb.1:                                # %else.2.i
	addi	a6, sp, 8
	lbu	a3, 0(a0)
	lbu	a4, 1(a0)
	lbu	a5, 2(a0)
	lbu	s1, 3(a0)
	lbu	s0, 4(a0)
	lbu	a1, 5(a0)
	lbu	a7, 6(a0)
	lbu	t0, 7(a0)
	sd	a6, 24(sp)
	sd	a2, 32(sp)
	sd	s3, 40(sp)
	sd	s2, 48(sp)
	slli	a4, a4, 8
	slli	a5, a5, 16
	slli	s1, s1, 24
	slli	a1, a1, 8
	or	a6, a4, a3
	or	a5, a5, s1
	or	t1, a1, s0
	lbu	a2, 8(a0)
	lbu	a4, 9(a0)
	lbu	s1, 10(a0)
	lbu	s0, 11(a0)
	slli	a7, a7, 16
	slli	t0, t0, 24
	slli	a4, a4, 8
	slli	s1, s1, 16
	slli	s0, s0, 24
	or	a3, t0, a7
	or	a2, a2, a4
	or	s0, s0, s1
	lbu	a4, 13(a0)
	lbu	s1, 12(a0)
	lbu	a1, 14(a0)
	lbu	a0, 15(a0)
	slli	a4, a4, 8
	or	a4, a4, s1
	slli	a1, a1, 16
	slli	a0, a0, 24
	or	a0, a0, a1
	or	a1, a5, a6
	or	a3, a3, t1
	or	a2, a2, s0
	or	a0, a0, a4
	slli	a3, a3, 32
	slli	a4, a0, 32
	or	a0, a3, a1
	or	a1, a4, a2
	addi	a2, sp, 24
	call	aes_narrow.aes_narrow.borrowed_words.call_to_encrypt
	call	aes_narrow.aes_cipher.zeroize.stack.wipe_stack.2032
	j	.Laes_narrow_BB2_13
.Laes_narrow_BB2_2:                                # %then.1.i
	lbu	t5, 0(a0)
	lbu	a4, 1(a0)
	lbu	t1, 2(a0)
	lbu	t6, 3(a0)
	lbu	a7, 4(a0)
	lbu	a3, 5(a0)
	lbu	t0, 6(a0)
	lbu	s5, 7(a0)
	lbu	t2, 8(a0)
	lbu	t3, 9(a0)
	lbu	t4, 10(a0)
	lbu	s6, 11(a0)
	lbu	s4, 12(a0)
	lbu	s7, 13(a0)
	lbu	a1, 14(a0)
	lbu	a5, 15(a0)
	srli	a6, a2, 4
	slli	a4, a4, 8
	or	t5, a4, t5
	ld	a4, 8(sp)
	ld	a0, 16(sp)
	slli	t1, t1, 16
	slli	t6, t6, 24
	or	t1, t6, t1
	lui	t6, 4080
	slli	a3, a3, 8
	or	a7, a3, a7
	li	a3, 255
	slli	t0, t0, 16
	slli	s5, s5, 24
	or	t0, s5, t0
	lui	a2, 16
	slli	s1, a3, 24
	addi	a3, a2, -256
	slli	t3, t3, 8
	slli	t4, t4, 16
	slli	s6, s6, 24
	slli	s7, s7, 8
	slli	a1, a1, 16
	slli	a5, a5, 24
	or	t3, t3, t2
	srli	t2, a4, 24
	or	t4, s6, t4
	srli	a2, a4, 8
	or	s4, s7, s4
	srli	s5, a4, 40
	or	s7, a5, a1
	srli	a5, a0, 8
	and	a2, a2, s1
	and	s6, a5, s1
	srli	s1, a4, 56
	or	t1, t1, t5
	and	s8, a4, t6
	or	a7, t0, a7
	srliw	a1, a4, 24
	or	t0, t4, t3
	and	t3, a4, a3
	slli	t5, a4, 56
	or	t4, s7, s4
	srli	a4, a0, 24
	and	a5, t2, t6
	or	t2, a2, a5
	srli	a5, a0, 40
	and	a2, s5, a3
	or	s4, a2, s1
	srli	s5, a0, 56
	and	a4, a4, t6
	and	a2, a0, t6
	slli	s8, s8, 24
	slli	a1, a1, 32
	or	t6, s8, a1
	srliw	s1, a0, 24
	and	a5, a5, a3
	and	a3, a3, a0
	slli	a0, a0, 56
	slli	t3, t3, 40
	slli	a2, a2, 24
	slli	s1, s1, 32
	slli	a3, a3, 40
	or	a1, t5, t3
	or	a4, s6, a4
	or	a5, a5, s5
	or	a2, a2, s1
	or	a0, a0, a3
	slli	a7, a7, 32
	slli	t4, t4, 32
	or	a3, t2, s4
	or	s1, a1, t6
	or	a4, a4, a5
	or	a2, a2, a0
	or	a0, a7, t1
	or	a1, t4, t0
	or	t2, s1, a3
	or	a2, a2, a4
	add	a6, a6, a2
	sltu	a2, a6, a2
	srli	a7, a6, 8
	srli	t0, a6, 16
	srli	t1, a6, 24
	srli	a4, a6, 32
	srli	a5, a6, 40
	srli	s1, a6, 48
	srli	s0, a6, 56
	add	a3, t2, a2
	sb	s0, 32(sp)
	sb	s1, 33(sp)
	sb	a5, 34(sp)
	sb	a4, 35(sp)
	srli	t2, a3, 8
	srli	t3, a3, 16
	srli	a5, a3, 24
	srli	s1, a3, 32
	srli	s0, a3, 40
	srli	a4, a3, 48
	srli	a2, a3, 56
	sb	a2, 24(sp)
	sb	a4, 25(sp)
	sb	s0, 26(sp)
	sb	s1, 27(sp)
	sb	a5, 28(sp)
	sb	t3, 29(sp)
	sb	t2, 30(sp)
	sb	a3, 31(sp)
	sb	t1, 36(sp)
	sb	t0, 37(sp)
	sb	a7, 38(sp)
	sb	a6, 39(sp)
	addi	a2, sp, 24
	li	a3, 1
	call	aes_narrow.aes_narrow.blocks.process_all_batches.1
	call	aes_narrow.aes_cipher.zeroize.stack.wipe_stack.1024
	li	a1, 0
	beqz	s9, .Laes_narrow_BB2_7
# %bb.3:                                # %then.1.i
	beqz	s2, .Laes_narrow_BB2_7
# %bb.4:                                # %join.8.i68.lr.ph.i.i
	addi	a0, sp, 24
	add	a0, a0, s9
	add	a1, s3, s2
	mv	a2, s3
.Laes_narrow_BB2_5:                                # %join.8.i68.i.i
                                        # =>This Inner Loop Header: Depth=1
	lbu	a3, 0(a0)
	lbu	a4, 0(a2)
	xor	a3, a3, a4
	sb	a3, 0(a2)
	addi	a2, a2, 1
	addi	a0, a0, 1
	bne	a2, a1, .Laes_narrow_BB2_5
# %bb.6:
	mv	a1, s2
.Laes_narrow_BB2_7:                                # %join.3.i.i.i
	sub	s7, s2, a1
	li	a2, 16
	bltu	s7, a2, .Laes_narrow_BB2_9
.Laes_narrow_BB2_8:                                # %join.8.i.i.i
                                        # =>This Inner Loop Header: Depth=1
	add	a3, s9, a1
	addi	a6, sp, 24
	add	a2, s3, a1
	andi	a3, a3, -16
	lbu	t2, 8(a2)
	lbu	t1, 9(a2)
	lbu	t0, 10(a2)
	lbu	a7, 11(a2)
	lbu	t6, 4(a2)
	lbu	t4, 5(a2)
	lbu	t5, 6(a2)
	lbu	t3, 7(a2)
	lbu	a5, 0(a2)
	lbu	s5, 1(a2)
	lbu	s6, 2(a2)
	lbu	s4, 3(a2)
	add	a3, a3, a6
	lbu	a4, 0(a3)
	lbu	s10, 1(a3)
	lbu	s1, 2(a3)
	lbu	s8, 3(a3)
	xor	a6, a4, a5
	lbu	a5, 4(a3)
	lbu	a4, 5(a3)
	lbu	a0, 6(a3)
	lbu	s0, 7(a3)
	xor	s5, s10, s5
	xor	s6, s1, s6
	xor	s4, s8, s4
	xor	t6, a5, t6
	lbu	s1, 8(a3)
	lbu	a5, 9(a3)
	lbu	s8, 10(a3)
	lbu	s10, 11(a3)
	xor	s11, a4, t4
	xor	t4, a0, t5
	xor	t3, s0, t3
	xor	t2, s1, t2
	lbu	t5, 12(a2)
	lbu	ra, 13(a2)
	lbu	s0, 14(a2)
	lbu	s1, 15(a2)
	xor	t1, a5, t1
	xor	t0, s8, t0
	xor	a7, s10, a7
	lbu	a5, 12(a3)
	lbu	a0, 13(a3)
	lbu	a4, 14(a3)
	lbu	a3, 15(a3)
	xor	a5, a5, t5
	xor	a0, a0, ra
	xor	a4, a4, s0
	xor	a3, a3, s1
	sb	a5, 12(a2)
	sb	a0, 13(a2)
	sb	a4, 14(a2)
	sb	a3, 15(a2)
	sb	t2, 8(a2)
	sb	t1, 9(a2)
	sb	t0, 10(a2)
	sb	a7, 11(a2)
	sb	t6, 4(a2)
	sb	s11, 5(a2)
	sb	t4, 6(a2)
	sb	t3, 7(a2)
	sb	a6, 0(a2)
	sb	s5, 1(a2)
	sb	s6, 2(a2)
	sb	s4, 3(a2)
	addi	s7, s7, -16
	li	a0, 15
	addi	a1, a1, 16
	bltu	a0, s7, .Laes_narrow_BB2_8
.Laes_narrow_BB2_9:                                # %after.4.i.i.i
	bgeu	a1, s2, .Laes_narrow_BB2_13
# %bb.10:                               # %then.9.i.i.i
	beqz	s7, .Laes_narrow_BB2_13
# %bb.11:                               # %join.8.i11.i.i.preheader
	add	s9, s9, a1
	addi	a0, sp, 24
	add	s0, a1, s7
	add	a1, a1, s3
	andi	a2, s9, -16
	add	a0, a0, a2
	add	s0, s0, s3
.Laes_narrow_BB2_12:                               # %join.8.i11.i.i
                                        # =>This Inner Loop Header: Depth=1
	lbu	a2, 0(a0)
	lbu	a3, 0(a1)
	xor	a2, a2, a3
	sb	a2, 0(a1)
	addi	a1, a1, 1
	addi	a0, a0, 1
	bne	a1, s0, .Laes_narrow_BB2_12
.Laes_narrow_BB2_13:                               # %"aes_ctr::add_in_batches::add_stream::<#ec42baebce880cab>.exit"
	ld	ra, 152(sp)                     # 8-byte Folded Reload
	ld	s0, 144(sp)                     # 8-byte Folded Reload
	ld	s1, 136(sp)                     # 8-byte Folded Reload
	ld	s2, 128(sp)                     # 8-byte Folded Reload
	ld	s3, 120(sp)                     # 8-byte Folded Reload
	ld	s4, 112(sp)                     # 8-byte Folded Reload
	ld	s5, 104(sp)                     # 8-byte Folded Reload
	ld	s6, 96(sp)                      # 8-byte Folded Reload
	ld	s7, 88(sp)                      # 8-byte Folded Reload
	ld	s8, 80(sp)                      # 8-byte Folded Reload
	ld	s9, 72(sp)                      # 8-byte Folded Reload
	ld	s10, 64(sp)                     # 8-byte Folded Reload
	ld	s11, 56(sp)                     # 8-byte Folded Reload
	addi	sp, sp, 160
	ret
.Laes_narrow_func_end2:
	.size	aes_narrow.aes_ctr.add_in_batches.add_keystream, .Laes_narrow_func_end2-aes_narrow.aes_ctr.add_in_batches.add_keystream
                                        # -- End function
	.section	.text.aes_narrow.aes_narrow.blocks.process_all_batches.1,"ax",@progbits
	.p2align	1                               # -- Begin function aes_narrow::blocks::process_all_batches::<#fa0365327da542a1>
	.type	aes_narrow.aes_narrow.blocks.process_all_batches.1,@function
aes_narrow.aes_narrow.blocks.process_all_batches.1: # @aes_narrow.aes_narrow.blocks.process_all_batches.1
# %bb.0:                                # %start
	beqz	a3, .Laes_narrow_BB3_6
# %bb.1:                                # %join.5.preheader
	addi	sp, sp, -48
	sd	ra, 40(sp)                      # 8-byte Folded Spill
	sd	s0, 32(sp)                      # 8-byte Folded Spill
	sd	s1, 24(sp)                      # 8-byte Folded Spill
	sd	s2, 16(sp)                      # 8-byte Folded Spill
	sd	s3, 8(sp)                       # 8-byte Folded Spill
	sd	s4, 0(sp)                       # 8-byte Folded Spill
	mv	s0, a3
	mv	s2, a2
	mv	s3, a1
	mv	s4, a0
	li	a0, 0
	j	.Laes_narrow_BB3_3
.Laes_narrow_BB3_2:                                # %join.5
                                        #   in Loop: Header=BB3_3 Depth=1
	add	s1, a3, a0
	slli	a0, a0, 4
	add	a2, s2, a0
	mv	a0, s4
	mv	a1, s3
	call	aes_narrow.aes_soft.soft.blocks.filled_up.process_filled_up.1
	mv	a0, s1
	bgeu	s1, s0, .Laes_narrow_BB3_5
.Laes_narrow_BB3_3:                                # %join.5
                                        # =>This Inner Loop Header: Depth=1
	sub	a3, s0, a0
	li	a1, 4
	bltu	a3, a1, .Laes_narrow_BB3_2
# %bb.4:                                # %join.5
                                        #   in Loop: Header=BB3_3 Depth=1
	li	a3, 4
	j	.Laes_narrow_BB3_2
.Laes_narrow_BB3_5:
	ld	ra, 40(sp)                      # 8-byte Folded Reload
	ld	s0, 32(sp)                      # 8-byte Folded Reload
	ld	s1, 24(sp)                      # 8-byte Folded Reload
	ld	s2, 16(sp)                      # 8-byte Folded Reload
	ld	s3, 8(sp)                       # 8-byte Folded Reload
	ld	s4, 0(sp)                       # 8-byte Folded Reload
	addi	sp, sp, 48
.Laes_narrow_BB3_6:                                # %after.1
	ret
.Laes_narrow_func_end3:
	.size	aes_narrow.aes_narrow.blocks.process_all_batches.1, .Laes_narrow_func_end3-aes_narrow.aes_narrow.blocks.process_all_batches.1
                                        # -- End function
	.section	.text.aes_narrow.aes_soft.soft.blocks.filled_up.process_filled_up.1,"ax",@progbits
	.p2align	1                               # -- Begin function aes_soft::soft::blocks::filled_up::process_filled_up::<#fa0365327da542a1>
	.type	aes_narrow.aes_soft.soft.blocks.filled_up.process_filled_up.1,@function
aes_narrow.aes_soft.soft.blocks.filled_up.process_filled_up.1: # @aes_narrow.aes_soft.soft.blocks.filled_up.process_filled_up.1
# %bb.0:                                # %start
	addi	sp, sp, -304
	sd	ra, 296(sp)                     # 8-byte Folded Spill
	sd	s0, 288(sp)                     # 8-byte Folded Spill
	sd	s1, 280(sp)                     # 8-byte Folded Spill
	sd	s2, 272(sp)                     # 8-byte Folded Spill
	sd	s3, 264(sp)                     # 8-byte Folded Spill
	sd	s4, 256(sp)                     # 8-byte Folded Spill
	mv	s4, a3
	mv	s0, a2
	mv	s3, a1
	mv	s2, a0
	lbu	a0, 8(a2)
	lbu	a1, 9(a2)
	lbu	a2, 10(a2)
	lbu	a3, 11(s0)
	lbu	a6, 12(s0)
	lbu	a5, 13(s0)
	lbu	s1, 14(s0)
	lbu	a4, 15(s0)
	slli	a1, a1, 8
	slli	a2, a2, 16
	slli	a3, a3, 24
	or	a7, a1, a0
	or	t0, a3, a2
	lbu	a1, 0(s0)
	lbu	a3, 1(s0)
	lbu	a0, 2(s0)
	lbu	a2, 3(s0)
	slli	a5, a5, 8
	slli	s1, s1, 16
	slli	a4, a4, 24
	slli	a3, a3, 8
	slli	a0, a0, 16
	slli	a2, a2, 24
	or	a6, a5, a6
	or	a4, a4, s1
	or	a1, a1, a3
	or	a0, a0, a2
	lbu	a2, 5(s0)
	lbu	a3, 4(s0)
	lbu	s1, 6(s0)
	lbu	a5, 7(s0)
	slli	a2, a2, 8
	or	a2, a2, a3
	slli	s1, s1, 16
	slli	a5, a5, 24
	or	a5, a5, s1
	or	a3, t0, a7
	or	a4, a4, a6
	or	a0, a0, a1
	or	a2, a2, a5
	sd	zero, 160(sp)
	sd	zero, 168(sp)
	sd	zero, 176(sp)
	sd	zero, 184(sp)
	sd	zero, 128(sp)
	sd	zero, 136(sp)
	sd	zero, 144(sp)
	sd	zero, 152(sp)
	sd	zero, 64(sp)
	sd	zero, 72(sp)
	sd	zero, 80(sp)
	sd	zero, 88(sp)
	sd	zero, 96(sp)
	sd	zero, 104(sp)
	sd	zero, 112(sp)
	sd	zero, 120(sp)
	sd	zero, 0(sp)
	sd	zero, 8(sp)
	sd	zero, 16(sp)
	sd	zero, 24(sp)
	sd	zero, 32(sp)
	sd	zero, 40(sp)
	sd	zero, 48(sp)
	sd	zero, 56(sp)
	slli	a4, a4, 32
	slli	a2, a2, 32
	or	a3, a3, a4
	or	a0, a0, a2
	sd	a0, 192(sp)
	sd	a3, 200(sp)
	addi	a0, sp, 208
	li	a2, 16
	mv	a1, s0
	la	t1, memcpy
	jalr	t1
	addi	a0, sp, 224
	li	a2, 16
	mv	a1, s0
	la	t1, memcpy
	jalr	t1
	addi	a0, sp, 240
	li	a2, 16
	mv	a1, s0
	la	t1, memcpy
	jalr	t1
	srli	s3, s3, 3
	addi	s3, s3, -1
	beqz	s4, .Laes_narrow_BB4_4
# %bb.1:                                # %join.8.i
	lbu	a0, 8(s0)
	lbu	a1, 9(s0)
	lbu	a2, 10(s0)
	lbu	a3, 11(s0)
	lbu	a6, 12(s0)
	lbu	a5, 13(s0)
	lbu	s1, 14(s0)
	lbu	a4, 15(s0)
	slli	a1, a1, 8
	slli	a2, a2, 16
	slli	a3, a3, 24
	or	a7, a1, a0
	or	t0, a3, a2
	lbu	a1, 0(s0)
	lbu	a3, 1(s0)
	lbu	a0, 2(s0)
	lbu	a2, 3(s0)
	slli	a5, a5, 8
	slli	s1, s1, 16
	slli	a4, a4, 24
	slli	a3, a3, 8
	slli	a0, a0, 16
	slli	a2, a2, 24
	or	a6, a5, a6
	or	a4, a4, s1
	or	a1, a1, a3
	or	a0, a0, a2
	lbu	a2, 5(s0)
	lbu	a3, 4(s0)
	lbu	s1, 6(s0)
	lbu	a5, 7(s0)
	slli	a2, a2, 8
	or	a2, a2, a3
	slli	s1, s1, 16
	slli	a5, a5, 24
	or	a5, a5, s1
	or	a3, t0, a7
	or	a4, a4, a6
	or	a0, a0, a1
	or	a2, a2, a5
	slli	a4, a4, 32
	or	a3, a3, a4
	li	a1, 1
	slli	a2, a2, 32
	or	a0, a0, a2
	sd	a0, 192(sp)
	sd	a3, 200(sp)
	beq	s4, a1, .Laes_narrow_BB4_4
# %bb.2:                                # %join.8.i.1
	addi	a1, s0, 16
	addi	a0, sp, 208
	li	a2, 16
	la	t1, memcpy
	jalr	t1
	li	a0, 2
	beq	s4, a0, .Laes_narrow_BB4_4
# %bb.3:                                # %join.8.i.2
	addi	a1, s0, 32
	addi	a0, sp, 224
	li	a2, 16
	la	t1, memcpy
	jalr	t1
	li	a0, 3
	bne	s4, a0, .Laes_narrow_BB4_9
.Laes_narrow_BB4_4:                                # %then.6.i
	ld	a0, 224(sp)
	ld	a1, 232(sp)
	ld	a2, 240(sp)
	ld	a3, 248(sp)
	sd	a0, 96(sp)
	sd	a1, 104(sp)
	sd	a2, 112(sp)
	sd	a3, 120(sp)
	ld	a0, 192(sp)
	ld	a1, 200(sp)
	ld	a2, 208(sp)
	ld	a3, 216(sp)
	sd	a0, 64(sp)
	sd	a1, 72(sp)
	sd	a2, 80(sp)
	sd	a3, 88(sp)
.Laes_narrow_BB4_5:                                # %"aes_soft::soft::blocks::filled_up::filled_up::<#11fd18120a35d742>.exit"
	mv	a0, sp
	addi	a3, sp, 64
	mv	a1, s2
	mv	a2, s3
	call	aes_narrow.aes_soft.soft.ciphers.planes.process_outlined.1
	ld	a0, 32(sp)
	ld	a1, 40(sp)
	ld	a2, 48(sp)
	ld	a3, 56(sp)
	sd	a0, 160(sp)
	sd	a1, 168(sp)
	sd	a2, 176(sp)
	sd	a3, 184(sp)
	ld	a0, 0(sp)
	ld	a1, 8(sp)
	ld	a2, 16(sp)
	ld	a3, 24(sp)
	sd	a0, 128(sp)
	sd	a1, 136(sp)
	sd	a2, 144(sp)
	sd	a3, 152(sp)
	beqz	s4, .Laes_narrow_BB4_8
# %bb.6:                                # %join.8.i19.preheader
	slli	s2, s4, 4
	add	s2, s2, s0
	addi	s1, sp, 128
.Laes_narrow_BB4_7:                                # %join.8.i19
                                        # =>This Inner Loop Header: Depth=1
	li	a2, 16
	mv	a0, s0
	mv	a1, s1
	la	t1, memcpy
	jalr	t1
	addi	s0, s0, 16
	addi	s1, s1, 16
	bne	s0, s2, .Laes_narrow_BB4_7
.Laes_narrow_BB4_8:                                # %"aes_soft::soft::blocks::filled_up::copy_first::<#11fd18120a35d742>.exit"
	ld	ra, 296(sp)                     # 8-byte Folded Reload
	ld	s0, 288(sp)                     # 8-byte Folded Reload
	ld	s1, 280(sp)                     # 8-byte Folded Reload
	ld	s2, 272(sp)                     # 8-byte Folded Reload
	ld	s3, 264(sp)                     # 8-byte Folded Reload
	ld	s4, 256(sp)                     # 8-byte Folded Reload
	addi	sp, sp, 304
	ret
.Laes_narrow_BB4_9:                                # %join.8.i.3
	addi	a1, s0, 48
	addi	a0, sp, 240
	li	a2, 16
	la	t1, memcpy
	jalr	t1
	ld	a0, 192(sp)
	ld	a1, 200(sp)
	ld	a2, 208(sp)
	ld	a3, 216(sp)
	sd	a0, 64(sp)
	sd	a1, 72(sp)
	sd	a2, 80(sp)
	sd	a3, 88(sp)
	ld	a0, 224(sp)
	ld	a1, 232(sp)
	ld	a2, 240(sp)
	ld	a3, 248(sp)
	sd	a0, 96(sp)
	sd	a1, 104(sp)
	sd	a2, 112(sp)
	sd	a3, 120(sp)
	j	.Laes_narrow_BB4_5
.Laes_narrow_func_end4:
	.size	aes_narrow.aes_soft.soft.blocks.filled_up.process_filled_up.1, .Laes_narrow_func_end4-aes_narrow.aes_soft.soft.blocks.filled_up.process_filled_up.1
                                        # -- End function
	.section	.rodata.cst8,"aM",@progbits,8
	.p2align	3, 0x0                          # -- Begin function aes_soft::soft::ciphers::planes::process_outlined::<#376142b06004957a>
.Laes_narrow_CPI5_0:
	.quad	-4222189076152336               # 0xfff0fff0fff0fff0
.Laes_narrow_CPI5_1:
	.quad	-71777214294589696              # 0xff00ff00ff00ff00
.Laes_narrow_CPI5_2:
	.quad	-1152657617789587456            # 0xf000f000f000f000
	.section	.text.aes_narrow.aes_soft.soft.ciphers.planes.process_outlined.1,"ax",@progbits
	.p2align	1
	.type	aes_narrow.aes_soft.soft.ciphers.planes.process_outlined.1,@function
aes_narrow.aes_soft.soft.ciphers.planes.process_outlined.1: # @aes_narrow.aes_soft.soft.ciphers.planes.process_outlined.1
# %bb.0:                                # %start
	addi	sp, sp, -288
	sd	ra, 280(sp)                     # 8-byte Folded Spill
	sd	s0, 272(sp)                     # 8-byte Folded Spill
	sd	s1, 264(sp)                     # 8-byte Folded Spill
	sd	s2, 256(sp)                     # 8-byte Folded Spill
	sd	s3, 248(sp)                     # 8-byte Folded Spill
	sd	s4, 240(sp)                     # 8-byte Folded Spill
	sd	s5, 232(sp)                     # 8-byte Folded Spill
	sd	s6, 224(sp)                     # 8-byte Folded Spill
	sd	s7, 216(sp)                     # 8-byte Folded Spill
	sd	s8, 208(sp)                     # 8-byte Folded Spill
	sd	s9, 200(sp)                     # 8-byte Folded Spill
	sd	s10, 192(sp)                    # 8-byte Folded Spill
	sd	s11, 184(sp)                    # 8-byte Folded Spill
	sd	a2, 40(sp)                      # 8-byte Folded Spill
	sd	a1, 48(sp)                      # 8-byte Folded Spill
	sd	a0, 0(sp)                       # 8-byte Folded Spill
	lui	a6, 349525
	lui	a7, 209715
	lui	t0, 65521
	lui	t2, 61681
	lui	s4, 4080
	lui	s7, 240
	lbu	t1, 0(a3)
	lbu	t4, 1(a3)
	lbu	s2, 2(a3)
	lbu	s3, 3(a3)
	lbu	t3, 4(a3)
	lbu	s5, 5(a3)
	lbu	s11, 6(a3)
	lbu	ra, 7(a3)
	lbu	t5, 8(a3)
	lbu	t6, 9(a3)
	lbu	s6, 10(a3)
	lbu	s8, 11(a3)
	lbu	s9, 12(a3)
	lbu	s10, 13(a3)
	lbu	a1, 14(a3)
	lbu	s0, 15(a3)
	addi	a2, a6, 1365
	addi	a4, a7, 819
	addi	t0, t0, -1
	addi	a5, t2, -241
	addi	s1, s4, 255
	addi	a0, s7, 15
	slli	a6, a2, 32
	slli	a7, a4, 32
	add	a2, a2, a6
	sd	a2, 16(sp)                      # 8-byte Folded Spill
	slli	a2, t0, 32
	add	a4, a4, a7
	sd	a4, 24(sp)                      # 8-byte Folded Spill
	slli	a4, a5, 32
	add	a2, a2, t0
	sd	a2, 80(sp)                      # 8-byte Folded Spill
	slli	s7, s1, 32
	add	a4, a4, a5
	sd	a4, 32(sp)                      # 8-byte Folded Spill
	slli	a2, a0, 32
	add	s1, s1, s7
	sd	s1, 152(sp)                     # 8-byte Folded Spill
	add	a0, a0, a2
	sd	a0, 64(sp)                      # 8-byte Folded Spill
	slli	ra, ra, 16
	slli	s0, s0, 24
	slli	a1, a1, 8
	or	a0, s0, ra
	sd	a0, 112(sp)                     # 8-byte Folded Spill
	or	a0, s11, a1
	sd	a0, 176(sp)                     # 8-byte Folded Spill
	lbu	s11, 20(a3)
	lbu	ra, 21(a3)
	lbu	a6, 22(a3)
	lbu	a4, 23(a3)
	slli	s5, s5, 16
	slli	s10, s10, 24
	slli	s9, s9, 8
	slli	s3, s3, 16
	slli	s8, s8, 24
	slli	s6, s6, 8
	or	a0, s10, s5
	sd	a0, 168(sp)                     # 8-byte Folded Spill
	or	a0, t3, s9
	sd	a0, 144(sp)                     # 8-byte Folded Spill
	or	a0, s8, s3
	sd	a0, 160(sp)                     # 8-byte Folded Spill
	or	a0, s2, s6
	sd	a0, 128(sp)                     # 8-byte Folded Spill
	lbu	a5, 28(a3)
	lbu	s0, 29(a3)
	lbu	s1, 30(a3)
	lbu	a0, 31(a3)
	slli	t4, t4, 16
	slli	t6, t6, 24
	slli	a1, t5, 8
	slli	a4, a4, 16
	slli	a0, a0, 24
	slli	s1, s1, 8
	or	a2, t6, t4
	sd	a2, 136(sp)                     # 8-byte Folded Spill
	or	s4, t1, a1
	or	a0, a0, a4
	sd	a0, 120(sp)                     # 8-byte Folded Spill
	or	s5, a6, s1
	lbu	a0, 16(a3)
	lbu	a1, 17(a3)
	lbu	a2, 18(a3)
	lbu	a4, 19(a3)
	slli	ra, ra, 16
	slli	s0, s0, 24
	or	s1, s0, ra
	sd	s1, 104(sp)                     # 8-byte Folded Spill
	lbu	s1, 27(a3)
	slli	a5, a5, 8
	or	s8, s11, a5
	lbu	a5, 26(a3)
	slli	a4, a4, 16
	slli	s1, s1, 24
	or	s6, s1, a4
	lbu	a4, 25(a3)
	slli	a5, a5, 8
	or	s9, a2, a5
	lbu	a2, 24(a3)
	slli	a1, a1, 16
	slli	a4, a4, 24
	or	s3, a4, a1
	lbu	a1, 39(a3)
	lbu	a4, 47(a3)
	slli	a2, a2, 8
	or	s11, a0, a2
	slli	a1, a1, 16
	slli	a4, a4, 24
	or	s10, a4, a1
	lbu	a0, 46(a3)
	lbu	a1, 38(a3)
	lbu	a2, 37(a3)
	lbu	a4, 45(a3)
	slli	a0, a0, 8
	or	ra, a1, a0
	slli	a2, a2, 16
	slli	a4, a4, 24
	or	s2, a4, a2
	lbu	a0, 44(a3)
	lbu	a1, 36(a3)
	lbu	a2, 35(a3)
	lbu	a5, 43(a3)
	slli	a0, a0, 8
	or	t5, a1, a0
	slli	a2, a2, 16
	slli	a5, a5, 24
	or	s7, a5, a2
	lbu	a0, 42(a3)
	lbu	a1, 34(a3)
	lbu	a2, 33(a3)
	lbu	s0, 41(a3)
	slli	a0, a0, 8
	or	s1, a1, a0
	slli	a2, a2, 16
	slli	s0, s0, 24
	or	t6, s0, a2
	lbu	a2, 40(a3)
	lbu	a4, 32(a3)
	lbu	a1, 55(a3)
	lbu	a0, 63(a3)
	slli	a2, a2, 8
	or	t2, a4, a2
	slli	a1, a1, 16
	slli	a0, a0, 24
	or	t4, a0, a1
	lbu	a1, 62(a3)
	lbu	a4, 54(a3)
	lbu	a0, 53(a3)
	lbu	a2, 61(a3)
	slli	a1, a1, 8
	or	t1, a4, a1
	slli	a0, a0, 16
	slli	a1, a2, 24
	lbu	a2, 60(a3)
	lbu	a4, 52(a3)
	or	t3, a1, a0
	lbu	a0, 51(a3)
	slli	a2, a2, 8
	or	a7, a4, a2
	lbu	a4, 59(a3)
	slli	a0, a0, 16
	lbu	a1, 58(a3)
	lbu	a2, 50(a3)
	slli	a4, a4, 24
	or	t0, a4, a0
	slli	a1, a1, 8
	or	a5, a2, a1
	lbu	a2, 49(a3)
	lbu	a4, 57(a3)
	lbu	a0, 48(a3)
	lbu	a3, 56(a3)
	slli	a2, a2, 16
	slli	a4, a4, 24
	or	a6, a4, a2
	slli	a3, a3, 8
	or	a2, a0, a3
	lui	a3, 16
	addi	a3, a3, -1
	ld	a4, 176(sp)                     # 8-byte Folded Reload
	and	a4, a4, a3
	ld	a0, 144(sp)                     # 8-byte Folded Reload
	and	a0, a0, a3
	ld	a1, 128(sp)                     # 8-byte Folded Reload
	and	a1, a1, a3
	and	s4, s4, a3
	and	s5, s5, a3
	and	s8, s8, a3
	and	s9, s9, a3
	and	s11, s11, a3
	and	ra, ra, a3
	and	t5, t5, a3
	and	s1, s1, a3
	and	t2, t2, a3
	and	t1, t1, a3
	and	a7, a7, a3
	and	a5, a5, a3
	and	a2, a2, a3
	ld	a3, 112(sp)                     # 8-byte Folded Reload
	or	a3, a3, a4
	ld	a4, 168(sp)                     # 8-byte Folded Reload
	or	a0, a0, a4
	ld	a4, 160(sp)                     # 8-byte Folded Reload
	or	a1, a1, a4
	ld	a4, 136(sp)                     # 8-byte Folded Reload
	or	a4, s4, a4
	ld	s0, 120(sp)                     # 8-byte Folded Reload
	or	s4, s5, s0
	ld	s0, 104(sp)                     # 8-byte Folded Reload
	or	s5, s8, s0
	or	s6, s9, s6
	or	s3, s11, s3
	or	s8, ra, s10
	ld	s10, 48(sp)                     # 8-byte Folded Reload
	or	s2, t5, s2
	or	s1, s1, s7
	or	s0, t2, t6
	or	t6, t1, t4
	or	t5, a7, t3
	or	t1, a5, t0
	or	a7, a2, a6
	slli	a3, a3, 32
	slli	a0, a0, 32
	srli	a0, a0, 32
	or	a6, a0, a3
	slli	a1, a1, 32
	slli	a4, a4, 32
	srli	a2, a4, 32
	or	s9, a2, a1
	slli	s4, s4, 32
	slli	s5, s5, 32
	slli	s6, s6, 32
	slli	s3, s3, 32
	slli	s8, s8, 32
	slli	s2, s2, 32
	slli	s1, s1, 32
	slli	s0, s0, 32
	srli	a1, s5, 32
	srli	a3, s3, 32
	srli	a4, s2, 32
	srli	s0, s0, 32
	or	a1, a1, s4
	or	a0, a3, s6
	or	s3, a4, s8
	or	a4, s0, s1
	ld	t2, 0(s10)
	ld	t4, 8(s10)
	ld	t3, 16(s10)
	ld	s2, 24(s10)
	slli	t6, t6, 32
	slli	t5, t5, 32
	srli	s1, t5, 32
	or	s0, s1, t6
	ld	t0, 56(s10)
	slli	t1, t1, 32
	slli	a7, a7, 32
	srli	s1, a7, 32
	or	s1, s1, t1
	srli	a2, s9, 1
	xor	a2, a2, a0
	ld	a5, 16(sp)                      # 8-byte Folded Reload
	and	a2, a2, a5
	xor	a7, a2, a0
	slli	a2, a2, 1
	xor	t1, a2, s9
	srli	a3, a4, 1
	xor	a3, a3, s1
	and	a3, a3, a5
	xor	s1, s1, a3
	slli	a3, a3, 1
	xor	t6, a3, a4
	srli	a4, a6, 1
	xor	a4, a4, a1
	and	a4, a4, a5
	xor	a2, a4, a1
	slli	a4, a4, 1
	xor	a6, a4, a6
	srli	a1, s3, 1
	xor	a1, a1, s0
	and	a1, a1, a5
	xor	s0, s0, a1
	slli	a1, a1, 1
	xor	a1, a1, s3
	srli	a0, a7, 2
	xor	a0, a0, s1
	ld	a3, 24(sp)                      # 8-byte Folded Reload
	and	a0, a0, a3
	xor	s1, s1, a0
	slli	a0, a0, 2
	xor	t5, a0, a7
	srli	a5, a2, 2
	xor	a5, a5, s0
	and	a5, a5, a3
	xor	s0, s0, a5
	slli	a5, a5, 2
	xor	s3, a5, a2
	srli	a5, t1, 2
	xor	a5, t6, a5
	and	a5, a5, a3
	xor	a2, a5, t6
	slli	a5, a5, 2
	xor	t1, a5, t1
	srli	a4, a6, 2
	xor	a4, a4, a1
	and	a4, a4, a3
	xor	a1, a1, a4
	slli	a4, a4, 2
	xor	a7, s2, s1
	srli	s1, s1, 4
	xor	t0, s0, t0
	xor	a4, a4, a6
	xor	t6, s1, s0
	ld	s1, 40(s10)
	ld	a0, 48(s10)
	xor	a6, t4, t5
	srli	a5, t5, 4
	xor	s2, s3, s1
	xor	s1, a5, s3
	ld	a5, 32(s10)
	xor	t3, t3, a2
	srli	a3, a2, 4
	xor	t5, a1, a0
	xor	a1, a1, a3
.Laes_narrow_pcrel_hi9:
	auipc	t4, %pcrel_hi(.Laes_narrow_CPI5_0)
	xor	t2, t2, t1
	srli	a3, t1, 4
	ld	s0, 32(sp)                      # 8-byte Folded Reload
	and	a2, t6, s0
	xor	t1, a4, a5
	xor	t6, a3, a4
	slli	a3, a2, 4
	xor	s5, a7, a3
.Laes_narrow_pcrel_hi10:
	auipc	a4, %pcrel_hi(.Laes_narrow_CPI5_1)
	and	a3, s1, s0
	xor	a7, s2, a3
	slli	a3, a3, 4
	xor	s7, a6, a3
.Laes_narrow_pcrel_hi11:
	auipc	s1, %pcrel_hi(.Laes_narrow_CPI5_2)
	and	a1, a1, s0
	xor	a5, t5, a1
	slli	a1, a1, 4
	xor	a0, t3, a1
	ld	a3, 40(sp)                      # 8-byte Folded Reload
	addi	a3, a3, -2
	ld	a1, %pcrel_lo(.Laes_narrow_pcrel_hi9)(t4)
	sd	a1, 56(sp)                      # 8-byte Folded Spill
	ld	a6, %pcrel_lo(.Laes_narrow_pcrel_hi10)(a4)
	ld	s1, %pcrel_lo(.Laes_narrow_pcrel_hi11)(s1)
	and	a4, t6, s0
	xor	a1, t1, a4
	slli	a4, a4, 4
	xor	t3, t2, a4
	srli	a4, a3, 2
	xor	ra, t0, a2
	sd	a3, 8(sp)                       # 8-byte Folded Spill
	sd	a6, 168(sp)                     # 8-byte Folded Spill
	sd	s1, 72(sp)                      # 8-byte Folded Spill
	beqz	a4, .Laes_narrow_BB5_3
# %bb.1:                                # %join.7.i.preheader
	addi	a3, s10, 160
	sd	a3, 176(sp)                     # 8-byte Folded Spill
.Laes_narrow_BB5_2:                                # %join.7.i
                                        # =>This Inner Loop Header: Depth=1
	sd	a4, 144(sp)                     # 8-byte Folded Spill
	xor	a2, a7, a5
	xor	t0, a1, ra
	xor	s10, s7, ra
	xor	a7, a0, a1
	xor	t4, a0, ra
	xor	s1, t3, a2
	xor	s2, s10, a7
	xor	s9, s1, a1
	xor	a1, s2, s5
	xor	s4, s1, ra
	xor	s6, s1, s7
	and	s0, s9, t3
	xor	s11, a1, a0
	xor	a1, a1, a5
	xor	t1, s6, t4
	and	s5, s6, s1
	xor	a3, a1, t0
	xor	t2, s11, t3
	and	a0, s11, s2
	xor	a5, s11, a2
	xor	a4, s0, t4
	and	t5, a3, t0
	xor	s0, a3, a2
	xor	s3, a3, a5
	xor	a2, a3, t3
	and	t6, a5, t4
	and	s7, t2, t1
	xor	a4, a4, a5
	xor	a1, a1, a0
	xor	a0, a0, a4
	and	a4, s3, a7
	xor	s7, a1, s7
	and	a1, a2, s4
	xor	t6, t6, t5
	xor	t5, a4, t5
	and	a4, s0, s10
	xor	s5, s0, s5
	xor	a0, a0, t6
	xor	s5, s5, a4
	xor	a1, a1, s0
	xor	ra, a4, ra
	xor	a4, s7, t5
	xor	s5, s5, s10
	xor	a1, a1, ra
	xor	t5, s5, t5
	xor	a1, a1, t6
	xor	t6, a4, a0
	and	a4, t5, a4
	xor	s5, a1, t5
	xor	s7, a4, a0
	xor	ra, a4, a1
	and	s5, s7, s5
	and	s7, ra, t6
	xor	a4, s5, a4
	xor	s8, s5, a1
	xor	a0, s7, a0
	and	s5, s8, s9
	and	a4, a4, a1
	xor	s9, a0, s8
	and	s7, s8, t3
	and	t3, a0, s4
	and	s4, a0, a2
	xor	a2, a4, ra
	xor	a4, a4, t5
	and	t5, s9, a3
	and	t0, s9, t0
	and	a2, a2, a0
	xor	a3, a4, s8
	and	a1, a4, s11
	and	s2, a4, s2
	xor	a2, a2, t6
	and	a4, a3, t2
	and	t1, a3, t1
	xor	t2, a1, s7
	xor	a3, a3, a2
	xor	a0, a0, a2
	and	s1, s1, a2
	and	s6, a2, s6
	xor	t6, a4, a1
	xor	a4, t2, s4
	and	s0, s0, a0
	and	a5, a5, a3
	xor	a1, a3, s9
	and	s4, a0, s10
	and	a3, a3, t4
	and	a2, a1, a7
	xor	s1, s1, s0
	and	a1, a1, s3
	xor	a7, a4, s0
	xor	a5, a5, t2
	xor	t2, a3, t0
	xor	a2, a2, t0
	xor	a1, a1, s1
	xor	s0, a7, s6
	xor	t0, t6, s1
	xor	a5, a5, s4
	xor	a4, a2, t1
	xor	s0, s0, a2
	xor	a2, a5, a1
	xor	a1, a1, t5
	xor	s1, a4, s2
	xor	a5, a2, t3
	xor	t6, s0, a2
	xor	s7, s0, s4
	xor	a0, a4, s5
	xor	a3, t2, a1
	xor	a4, t0, s1
	xor	a6, a0, a5
	xor	s8, s1, a1
	xor	t5, a3, a5
	srli	t0, s7, 20
	slli	t1, s7, 44
	srli	t2, s7, 4
	slli	t3, s7, 60
	srli	a5, t6, 20
	slli	s0, t6, 44
	srli	a2, t6, 4
	slli	s1, t6, 60
	xor	a1, a1, a4
	sd	a1, 160(sp)                     # 8-byte Folded Spill
	xor	a0, a4, a7
	or	a7, t1, t0
	or	t0, t3, t2
	or	t1, s0, a5
	or	t2, s1, a2
	srli	t3, a6, 20
	slli	s2, a6, 44
	srli	t4, a6, 4
	slli	s3, a6, 60
	srli	s4, a4, 20
	slli	s6, a4, 44
	srli	s5, a4, 4
	slli	s9, a4, 60
	srli	s10, t5, 20
	slli	s11, t5, 44
	srli	s1, t5, 4
	slli	s0, t5, 60
	srli	a2, s8, 20
	slli	a5, s8, 44
	or	t3, s2, t3
	srli	ra, s8, 4
	or	s2, s3, t4
	slli	t4, s8, 60
	ld	a3, 80(sp)                      # 8-byte Folded Reload
	and	a7, a7, a3
	ld	a1, 72(sp)                      # 8-byte Folded Reload
	and	t0, t0, a1
	and	t1, t1, a3
	and	t2, t2, a1
	or	s3, s6, s4
	sd	a0, 136(sp)                     # 8-byte Folded Spill
	srli	s6, a0, 20
	or	s4, s9, s5
	slli	s5, a0, 44
	or	s9, s11, s10
	srli	s10, a0, 4
	or	s0, s0, s1
	slli	s11, a0, 60
	or	a2, a2, a5
	ld	a0, 160(sp)                     # 8-byte Folded Reload
	srli	a5, a0, 20
	or	ra, t4, ra
	slli	t4, a0, 44
	or	t0, a7, t0
	srli	s1, a0, 4
	or	a7, t1, t2
	slli	t1, a0, 60
	or	s5, s5, s6
	or	s6, s11, s10
	or	s10, t4, a5
	or	s11, t1, s1
	ld	a0, 176(sp)                     # 8-byte Folded Reload
	ld	a5, -96(a0)
	ld	t1, -88(a0)
	ld	t2, -80(a0)
	ld	t4, -72(a0)
	and	t3, t3, a3
	and	s1, s2, a1
	and	s2, s3, a3
	and	s3, s4, a1
	and	s4, s9, a3
	and	s0, s0, a1
	and	s9, a2, a3
	and	a2, ra, a1
	or	s1, t3, s1
	or	t3, s2, s3
	or	ra, s4, s0
	or	a2, s9, a2
	ld	s2, -64(a0)
	ld	s3, -56(a0)
	ld	s4, -48(a0)
	ld	s9, -40(a0)
	and	s5, s5, a3
	and	s0, s6, a1
	and	s6, s10, a3
	and	s10, s11, a1
	xor	s7, t0, s7
	xor	t6, a7, t6
	xor	a0, a5, t0
	sd	a0, 128(sp)                     # 8-byte Folded Spill
	xor	a5, t1, a7
	or	t1, s5, s0
	or	s5, s6, s10
	xor	a0, s1, a6
	xor	s0, t3, a4
	xor	a4, ra, t5
	xor	a3, a2, s8
	srli	a7, s7, 40
	slli	s6, s7, 24
	srli	s8, s7, 24
	slli	s10, s7, 40
	xor	s7, a5, s7
	srli	a6, t6, 40
	xor	s11, t2, s1
	slli	s1, t6, 24
	xor	t3, s2, t3
	srli	a5, t6, 24
	xor	t2, s9, a2
	slli	s9, t6, 40
	xor	s3, s3, ra
	ld	a1, 136(sp)                     # 8-byte Folded Reload
	xor	a1, t1, a1
	ld	a2, 160(sp)                     # 8-byte Folded Reload
	xor	s2, s5, a2
	or	t5, s6, a7
	or	s6, s10, s8
	or	s8, s1, a6
	or	a7, s9, a5
	srli	s10, a0, 40
	slli	s1, a0, 24
	srli	s9, a0, 24
	slli	a5, a0, 40
	srli	ra, s0, 40
	xor	a2, s11, t6
	sd	a2, 160(sp)                     # 8-byte Folded Spill
	slli	s11, s0, 24
	xor	s4, s4, s5
	srli	s5, s0, 24
	xor	a2, s3, s0
	sd	a2, 136(sp)                     # 8-byte Folded Spill
	slli	s0, s0, 40
	xor	t4, t4, a0
	srli	a0, a4, 40
	or	s3, s1, s10
	slli	s1, a4, 24
	or	s9, a5, s9
	srli	a5, a4, 24
	or	s10, s11, ra
	slli	s11, a4, 40
	or	s5, s0, s5
	srli	s0, a3, 40
	or	ra, s1, a0
	slli	s1, a3, 24
	or	t0, s11, a5
	srli	a0, a3, 24
	or	s11, s1, s0
	slli	s1, a3, 40
	ld	a2, 128(sp)                     # 8-byte Folded Reload
	xor	t6, a2, a3
	xor	s7, s7, a3
	xor	a5, t3, a3
	ld	s0, 152(sp)                     # 8-byte Folded Reload
	and	t3, t5, s0
	ld	a2, 168(sp)                     # 8-byte Folded Reload
	and	t5, s6, a2
	and	s6, s8, s0
	and	a6, a7, a2
	or	s8, s1, a0
	srli	s1, a1, 40
	xor	s4, s4, a4
	slli	a4, a1, 24
	xor	a7, t4, a3
	srli	a0, a1, 24
	xor	t4, a5, a1
	slli	a1, a1, 40
	or	t3, t3, t5
	srli	a3, s2, 40
	or	t5, s6, a6
	slli	a6, s2, 24
	or	s6, a4, s1
	srli	s1, s2, 24
	xor	t2, t2, s2
	slli	s2, s2, 40
	and	s3, s3, s0
	and	a4, s9, a2
	or	s9, a1, a0
	and	s10, s10, s0
	and	s5, s5, a2
	and	ra, ra, s0
	and	a5, t0, a2
	or	a6, a6, a3
	or	t0, s2, s1
	and	s1, s11, s0
	and	a0, s8, a2
	xor	s2, a7, t1
	or	t1, s3, a4
	and	a4, s6, s0
	and	a3, s9, a2
	or	a1, s10, s5
	or	a7, ra, a5
	and	a5, a6, s0
	mv	a6, s0
	and	s0, t0, a2
	or	a0, a0, s1
	xor	s8, t6, t3
	xor	s1, s7, t5
	or	a3, a3, a4
	or	s0, s0, a5
	ld	a2, 160(sp)                     # 8-byte Folded Reload
	xor	a4, a2, t1
	xor	a1, t4, a1
	xor	a2, t2, a0
	ld	a0, 136(sp)                     # 8-byte Folded Reload
	xor	a0, a0, a7
	xor	s0, s4, s0
	xor	t1, a1, a2
	xor	s9, s1, a2
	xor	t0, a1, a4
	xor	a3, s2, a3
	xor	s6, a2, a4
	xor	a0, a0, s0
	xor	s3, s9, t0
	xor	s11, a0, s8
	xor	a3, a3, s3
	xor	t5, s11, a1
	xor	s7, a3, a4
	xor	a4, a3, s0
	xor	t4, s11, a2
	xor	s2, s11, s1
	and	s1, t5, s8
	xor	ra, a4, t1
	xor	t2, s7, s8
	xor	t3, s2, s6
	and	a3, s7, s3
	xor	t6, s7, a0
	and	s4, s2, s11
	and	a1, ra, t1
	xor	s10, ra, a0
	xor	a7, ra, t6
	xor	s5, ra, s8
	and	a0, t6, s6
	and	a5, t2, t3
	xor	s1, s1, s6
	xor	a4, a4, a3
	xor	a3, t6, a3
	xor	a3, a3, s1
	and	s1, a7, t0
	xor	a4, a4, a5
	and	a5, s5, t4
	xor	a0, a0, a1
	xor	a1, a1, s1
	and	s1, s10, s9
	xor	s0, s10, s4
	xor	a3, a3, a0
	xor	s0, s0, s1
	xor	a5, s10, a5
	xor	a2, a2, s1
	xor	a4, a4, a1
	xor	s0, s0, s9
	xor	a2, a2, a5
	xor	a1, a1, s0
	xor	a0, a0, a2
	xor	a2, a4, a3
	and	a4, a4, a1
	xor	a5, a0, a1
	xor	s0, a4, a3
	xor	s1, a4, a0
	and	a5, a5, s0
	and	s0, s1, a2
	xor	a4, a4, a5
	xor	a5, a5, a0
	xor	a3, a3, s0
	and	s4, a5, t5
	and	a0, a0, a4
	xor	s0, a3, a5
	and	t5, a5, s8
	and	t4, a3, t4
	and	a4, a3, s5
	xor	s1, s1, a0
	xor	a0, a0, a1
	and	s5, s0, ra
	and	t1, s0, t1
	and	s1, s1, a3
	xor	a5, a5, a0
	and	a1, a0, s7
	and	s3, a0, s3
	xor	a2, a2, s1
	and	s1, a5, t2
	and	t2, a5, t3
	xor	a0, a1, t5
	xor	a5, a5, a2
	xor	a3, a3, a2
	and	t3, a2, s11
	and	s2, a2, s2
	xor	t5, s1, a1
	xor	s7, a0, a4
	and	s1, a3, s10
	and	a1, a5, t6
	xor	s0, s0, a5
	and	s8, a3, s9
	and	a5, a5, s6
	and	a2, s0, t0
	xor	a4, s1, t3
	and	s0, s0, a7
	xor	a7, s7, s1
	xor	a0, a0, a1
	xor	a1, a5, t1
	xor	a2, a2, t1
	xor	s0, s0, a4
	xor	a5, a7, s2
	xor	a4, t5, a4
	xor	a0, a0, s8
	xor	s1, a2, t2
	xor	a2, a2, a5
	xor	a0, a0, s0
	xor	a5, s0, s5
	xor	s0, s1, s3
	xor	a3, a0, t4
	xor	t6, a2, a0
	xor	s7, a2, s8
	xor	s1, s1, s4
	xor	a1, a1, a5
	xor	t1, a4, s0
	xor	ra, s1, a3
	xor	t5, s0, a5
	xor	s8, a1, a3
	srli	t2, s7, 24
	slli	t3, s7, 40
	srli	a3, s7, 8
	slli	a1, s7, 56
	srli	a4, t6, 24
	slli	s1, t6, 40
	srli	s0, t6, 8
	slli	a0, t6, 56
	xor	a2, t1, a5
	xor	t4, t1, a7
	or	s3, t3, t2
	or	s2, a1, a3
	or	a7, s1, a4
	or	a4, a0, s0
	srli	t2, ra, 24
	slli	s4, ra, 40
	srli	t3, ra, 8
	slli	s5, ra, 56
	srli	s6, t1, 24
	slli	s9, t1, 40
	srli	s10, t1, 8
	slli	s11, t1, 56
	srli	t0, s8, 24
	slli	a3, s8, 40
	srli	s1, s8, 8
	slli	s0, s8, 56
	srli	a1, t5, 24
	slli	a5, t5, 40
	or	a0, s4, t2
	sd	a0, 112(sp)                     # 8-byte Folded Spill
	srli	s4, t5, 8
	sd	t5, 128(sp)                     # 8-byte Folded Spill
	or	a0, s5, t3
	sd	a0, 104(sp)                     # 8-byte Folded Spill
	slli	a0, t5, 56
	mv	t2, a6
	and	s3, s3, a6
	ld	t3, 168(sp)                     # 8-byte Folded Reload
	and	a6, s2, t3
	and	a7, a7, t2
	and	s5, a4, t3
	or	a4, s9, s6
	sd	a4, 96(sp)                      # 8-byte Folded Spill
	sd	t4, 160(sp)                     # 8-byte Folded Spill
	srli	s6, t4, 24
	or	s2, s11, s10
	slli	s9, t4, 40
	or	a3, a3, t0
	srli	a4, t4, 8
	or	s10, s0, s1
	slli	s0, t4, 56
	or	s11, a5, a1
	sd	a2, 136(sp)                     # 8-byte Folded Spill
	srli	a5, a2, 24
	or	s4, a0, s4
	slli	t0, a2, 40
	or	t4, s3, a6
	srli	a0, a2, 8
	or	t5, a7, s5
	slli	a7, a2, 56
	or	s3, s9, s6
	or	a4, a4, s0
	sd	a4, 88(sp)                      # 8-byte Folded Spill
	or	s6, t0, a5
	or	s9, a7, a0
	ld	a2, 176(sp)                     # 8-byte Folded Reload
	ld	a7, -32(a2)
	ld	s5, -24(a2)
	ld	t0, -16(a2)
	ld	a1, -8(a2)
	sd	a1, 120(sp)                     # 8-byte Folded Spill
	mv	a0, t2
	ld	s0, 112(sp)                     # 8-byte Folded Reload
	and	s0, s0, t2
	mv	s1, t3
	ld	a1, 104(sp)                     # 8-byte Folded Reload
	and	t3, a1, t3
	ld	a1, 96(sp)                      # 8-byte Folded Reload
	and	t2, a1, t2
	and	a4, s2, s1
	and	s2, a3, a0
	and	a5, s10, s1
	and	a3, s11, a0
	mv	a1, a0
	and	a0, s4, s1
	or	s0, s0, t3
	or	a4, t2, a4
	or	s11, s2, a5
	or	a6, a3, a0
	ld	s10, 0(a2)
	ld	t2, 8(a2)
	ld	t3, 16(a2)
	ld	s2, 24(a2)
	and	s3, s3, a1
	ld	a5, 88(sp)                      # 8-byte Folded Reload
	and	a5, a5, s1
	and	s4, s6, a1
	and	s6, s9, s1
	xor	a3, t4, s7
	xor	t6, t5, t6
	xor	s7, a7, t4
	xor	a1, s5, t5
	or	a5, s3, a5
	or	s3, s4, s6
	xor	a7, s0, ra
	xor	a2, a4, t1
	xor	s4, s11, s8
	ld	a0, 128(sp)                     # 8-byte Folded Reload
	xor	a0, a6, a0
	srli	t5, a3, 32
	slli	s5, a3, 32
	srli	s6, t6, 32
	slli	s8, t6, 32
	xor	s9, a1, a3
	xor	ra, t0, s0
	xor	s10, s10, a4
	xor	t0, s2, a6
	xor	s0, t2, s11
	ld	a1, 160(sp)                     # 8-byte Folded Reload
	xor	s1, a5, a1
	mv	a6, a5
	ld	a1, 136(sp)                     # 8-byte Folded Reload
	xor	a1, s3, a1
	or	t1, s5, t5
	or	t2, s8, s6
	srli	s5, a7, 32
	slli	a3, a7, 32
	srli	t4, a2, 32
	slli	t5, a2, 32
	srli	s2, s4, 32
	slli	s11, s4, 32
	srli	s6, a0, 32
	xor	t6, ra, t6
	slli	s8, a0, 32
	xor	s7, s7, a0
	xor	s9, s9, a0
	xor	s10, s10, a0
	xor	t3, t3, s3
	xor	s3, s0, a2
	ld	a2, 120(sp)                     # 8-byte Folded Reload
	xor	ra, a2, a7
	or	a7, a3, s5
	srli	a5, s1, 32
	slli	a4, s1, 32
	or	s5, t5, t4
	or	t4, s11, s2
	srli	a3, a1, 32
	slli	a2, a1, 32
	or	s2, s8, s6
	xor	t5, s7, t1
	xor	t2, s9, t2
	xor	s1, s10, s1
	xor	t1, t3, s4
	xor	s0, t0, a1
	xor	a0, ra, a0
	or	a4, a4, a5
	or	a3, a3, a2
	xor	a5, t6, a7
	xor	a1, s1, s5
	xor	a2, s0, s2
	xor	s1, s3, t4
	xor	a0, a0, a6
	xor	a3, t1, a3
	xor	t1, a1, a2
	xor	s9, t2, a2
	xor	t0, a1, a5
	xor	a0, a0, a4
	xor	s6, a2, a5
	xor	s1, s1, a3
	xor	s3, s9, t0
	xor	s11, s1, t5
	xor	a0, a0, s3
	xor	a6, s11, a1
	xor	s7, a0, a5
	xor	a5, a0, a3
	xor	t4, s11, a2
	xor	s2, s11, t2
	and	s10, a6, t5
	xor	ra, a5, t1
	xor	t2, s7, t5
	xor	t3, s2, s6
	and	a3, s7, s3
	xor	t6, s7, s1
	and	s4, s2, s11
	and	a4, ra, t1
	xor	s8, ra, s1
	xor	a7, ra, t6
	xor	s5, ra, t5
	and	s1, t6, s6
	and	a1, t2, t3
	xor	s0, s10, s6
	xor	a5, a5, a3
	xor	a3, t6, a3
	xor	a3, a3, s0
	and	s0, a7, t0
	xor	a1, a1, a5
	and	a5, s5, t4
	xor	s1, s1, a4
	xor	a4, a4, s0
	and	s0, s8, s9
	xor	a0, s8, s4
	xor	a3, a3, s1
	xor	a0, a0, s0
	xor	a5, s8, a5
	xor	a2, a2, s0
	xor	a1, a1, a4
	xor	a0, a0, s9
	xor	a2, a2, a5
	xor	a0, a0, a4
	xor	a2, a2, s1
	xor	s10, a1, a3
	and	a1, a1, a0
	xor	a5, a2, a0
	xor	s0, a1, a3
	xor	s1, a1, a2
	and	a5, a5, s0
	and	s0, s1, s10
	xor	a1, a1, a5
	xor	a5, a5, a2
	xor	a3, a3, s0
	and	s4, a5, a6
	and	a2, a2, a1
	xor	s0, a3, a5
	and	t5, a5, t5
	and	a6, a3, t4
	and	a1, a3, s5
	xor	s1, s1, a2
	xor	a0, a0, a2
	and	t4, s0, ra
	and	s5, s0, t1
	and	s1, s1, a3
	xor	a5, a5, a0
	and	a4, a0, s7
	and	t1, a0, s3
	xor	s1, s1, s10
	and	a0, a5, t2
	and	t2, a5, t3
	xor	a2, a4, t5
	xor	a5, a5, s1
	xor	a3, a3, s1
	and	t3, s1, s11
	and	s2, s1, s2
	xor	t5, a0, a4
	xor	s3, a2, a1
	and	a4, a3, s8
	and	a0, a5, t6
	xor	s0, s0, a5
	and	t6, a3, s9
	and	a5, a5, s6
	and	s1, s0, t0
	xor	a1, a4, t3
	and	s0, s0, a7
	xor	a7, s3, a4
	xor	a0, a0, a2
	xor	t0, a5, s5
	xor	a2, s1, s5
	xor	s0, s0, a1
	xor	s1, a7, s2
	xor	t3, t5, a1
	xor	a0, a0, t6
	xor	a4, a2, t2
	xor	a2, a2, s1
	xor	a0, a0, s0
	xor	s0, s0, t4
	xor	a1, a4, t1
	xor	s1, a0, a6
	xor	s7, a2, a0
	xor	t5, a2, t6
	xor	a3, a4, s4
	xor	a5, t0, s0
	xor	t6, t3, a1
	xor	s8, a3, s1
	xor	a4, a1, s0
	xor	a5, a5, s1
	srli	t0, t5, 28
	slli	t1, t5, 36
	srli	t2, t5, 12
	slli	a1, t5, 52
	srli	a3, s7, 28
	slli	a2, s7, 36
	srli	a0, s7, 12
	slli	s1, s7, 52
	xor	a6, t6, s0
	xor	s0, t6, a7
	or	a7, t1, t0
	or	t0, a1, t2
	or	t1, a2, a3
	or	t2, s1, a0
	srli	t3, s8, 28
	slli	s2, s8, 36
	srli	t4, s8, 12
	slli	s3, s8, 52
	srli	s4, t6, 28
	slli	s5, t6, 36
	srli	s6, t6, 12
	slli	s9, t6, 52
	sd	a5, 160(sp)                     # 8-byte Folded Spill
	srli	s10, a5, 28
	slli	ra, a5, 36
	srli	s11, a5, 12
	slli	a2, a5, 52
	sd	a4, 128(sp)                     # 8-byte Folded Spill
	srli	a1, a4, 28
	slli	a3, a4, 36
	or	t3, s2, t3
	srli	a0, a4, 12
	or	s2, s3, t4
	slli	s1, a4, 52
	ld	a4, 64(sp)                      # 8-byte Folded Reload
	and	a7, a7, a4
	ld	a5, 56(sp)                      # 8-byte Folded Reload
	and	t0, t0, a5
	and	t4, t1, a4
	and	t1, t2, a5
	or	s3, s5, s4
	sd	s0, 112(sp)                     # 8-byte Folded Spill
	srli	s5, s0, 28
	or	s4, s9, s6
	slli	s6, s0, 36
	or	s9, ra, s10
	srli	s10, s0, 12
	or	ra, a2, s11
	slli	s11, s0, 52
	or	a1, a1, a3
	sd	a6, 136(sp)                     # 8-byte Folded Spill
	srli	a3, a6, 28
	or	t2, s1, a0
	slli	a0, a6, 36
	or	t0, a7, t0
	srli	s1, a6, 12
	or	a7, t4, t1
	slli	a2, a6, 52
	or	s5, s6, s5
	or	s6, s11, s10
	or	s10, a0, a3
	or	s11, a2, s1
	ld	a0, 176(sp)                     # 8-byte Folded Reload
	ld	a2, 32(a0)
	ld	a6, 40(a0)
	ld	t1, 48(a0)
	ld	t4, 56(a0)
	and	t3, t3, a4
	and	s1, s2, a5
	and	s2, s3, a4
	and	s4, s4, a5
	and	s3, s9, a4
	and	a3, ra, a5
	and	s9, a1, a4
	and	a1, t2, a5
	or	s1, t3, s1
	or	t2, s2, s4
	or	t3, s3, a3
	or	ra, s9, a1
	ld	s2, 64(a0)
	ld	s3, 72(a0)
	ld	s4, 80(a0)
	ld	s9, 88(a0)
	and	s5, s5, a4
	and	s6, s6, a5
	and	s10, s10, a4
	and	a3, s11, a5
	xor	a1, t0, t5
	xor	t5, a7, s7
	xor	t0, a2, t0
	xor	a7, a6, a7
	or	a5, s5, s6
	sd	a5, 120(sp)                     # 8-byte Folded Spill
	or	s5, s10, a3
	xor	a0, s1, s8
	xor	a2, t2, t6
	ld	a3, 160(sp)                     # 8-byte Folded Reload
	xor	a4, t3, a3
	ld	a3, 128(sp)                     # 8-byte Folded Reload
	xor	a3, ra, a3
	srli	s6, a1, 40
	slli	s8, a1, 24
	srli	s7, a1, 24
	slli	a6, a1, 40
	xor	s10, a7, a1
	srli	a1, t5, 40
	xor	s11, t1, s1
	slli	s1, t5, 24
	xor	t1, s2, t2
	srli	t2, t5, 24
	xor	s0, s9, ra
	sd	s0, 128(sp)                     # 8-byte Folded Spill
	slli	s2, t5, 40
	xor	t3, s3, t3
	ld	s0, 112(sp)                     # 8-byte Folded Reload
	xor	s0, s0, a5
	ld	a5, 136(sp)                     # 8-byte Folded Reload
	xor	s3, s5, a5
	or	s6, s8, s6
	or	s7, a6, s7
	or	s8, s1, a1
	or	s2, s2, t2
	srli	s9, a0, 40
	slli	a5, a0, 24
	srli	a6, a0, 24
	slli	a1, a0, 40
	srli	ra, a2, 40
	xor	s1, s11, t5
	sd	s1, 160(sp)                     # 8-byte Folded Spill
	slli	t5, a2, 24
	xor	s4, s4, s5
	srli	s5, a2, 24
	xor	s1, t3, a2
	sd	s1, 136(sp)                     # 8-byte Folded Spill
	slli	a2, a2, 40
	xor	t3, t4, a0
	srli	a0, a4, 40
	or	t4, a5, s9
	slli	a5, a4, 24
	or	s9, a1, a6
	srli	s1, a4, 24
	or	t5, t5, ra
	slli	a1, a4, 40
	or	s5, a2, s5
	srli	a2, a3, 40
	or	s11, a5, a0
	slli	a5, a3, 24
	or	t6, a1, s1
	srli	a6, a3, 24
	or	ra, a5, a2
	slli	a5, a3, 40
	xor	t2, t0, a3
	xor	s10, s10, a3
	xor	a0, t1, a3
	ld	a2, 152(sp)                     # 8-byte Folded Reload
	and	t1, s6, a2
	ld	s1, 168(sp)                     # 8-byte Folded Reload
	and	a1, s7, s1
	and	s6, s8, a2
	and	s2, s2, s1
	or	s7, a5, a6
	srli	a5, s0, 40
	xor	s4, s4, a4
	slli	a4, s0, 24
	xor	a7, t3, a3
	srli	a3, s0, 24
	xor	t3, a0, s0
	slli	s0, s0, 40
	or	s8, t1, a1
	srli	a6, s3, 40
	or	t1, s6, s2
	slli	s6, s3, 24
	or	s2, a4, a5
	srli	a4, s3, 24
	ld	a0, 128(sp)                     # 8-byte Folded Reload
	xor	t0, a0, s3
	slli	s3, s3, 40
	and	t4, t4, a2
	and	a0, s9, s1
	or	s9, s0, a3
	and	t5, t5, a2
	and	s5, s5, s1
	and	s11, s11, a2
	and	a1, t6, s1
	or	s6, s6, a6
	or	a6, s3, a4
	and	s0, ra, a2
	and	a4, s7, s1
	ld	a3, 120(sp)                     # 8-byte Folded Reload
	xor	t6, a7, a3
	or	t4, t4, a0
	and	a0, s2, a2
	and	a3, s9, s1
	or	a5, t5, s5
	or	a7, s11, a1
	and	a2, s6, a2
	and	s1, a6, s1
	or	a4, a4, s0
	xor	t5, t2, s8
	xor	s0, s10, t1
	or	a0, a0, a3
	or	a2, a2, s1
	ld	a3, 160(sp)                     # 8-byte Folded Reload
	xor	a3, a3, t4
	xor	a5, t3, a5
	xor	a4, t0, a4
	ld	a1, 136(sp)                     # 8-byte Folded Reload
	xor	a1, a1, a7
	xor	s1, s4, a2
	xor	s4, a5, a4
	xor	a6, s0, a4
	xor	t1, a5, a3
	xor	a2, t6, a0
	xor	s6, a4, a3
	xor	a0, a1, s1
	xor	t0, a6, t1
	xor	s11, a0, t5
	xor	a2, a2, t0
	xor	a7, s11, a5
	xor	t4, a2, a3
	xor	a2, a2, s1
	xor	t2, s11, a4
	xor	s10, s11, s0
	and	s8, a7, t5
	xor	ra, a2, s4
	xor	s2, t4, t5
	xor	s5, s10, s6
	and	s0, t4, t0
	xor	t6, t4, a0
	and	t3, s10, s11
	and	a3, ra, s4
	xor	s7, ra, a0
	xor	s3, ra, t6
	xor	s9, ra, t5
	and	a0, t6, s6
	and	s1, s2, s5
	xor	a1, s8, s6
	xor	a2, a2, s0
	xor	s0, t6, s0
	xor	a1, a1, s0
	and	s0, s3, t1
	xor	a2, a2, s1
	and	s1, s9, t2
	xor	a0, a0, a3
	xor	a3, a3, s0
	and	s0, s7, a6
	xor	a5, s7, t3
	xor	a1, a1, a0
	xor	a5, a5, s0
	xor	s1, s7, s1
	xor	a4, a4, s0
	xor	a2, a2, a3
	xor	a5, a5, a6
	xor	a4, a4, s1
	xor	a3, a3, a5
	xor	a0, a0, a4
	xor	t3, a2, a1
	and	a2, a2, a3
	xor	a5, a0, a3
	xor	s1, a2, a1
	xor	s0, a2, a0
	and	a5, a5, s1
	and	a4, s0, t3
	xor	a1, a1, a4
	xor	a2, a2, a5
	xor	a5, a5, a0
	and	a0, a0, a2
	xor	s0, s0, a0
	xor	a0, a0, a3
	and	s0, s0, a1
	xor	a2, s0, t3
	and	a7, a5, a7
	and	a3, a5, t5
	and	a4, a0, t4
	and	t0, a0, t0
	xor	a0, a0, a5
	xor	a5, a5, a1
	and	t3, a1, t2
	and	s9, a1, s9
	and	s0, a0, s2
	and	s2, a0, s5
	xor	a0, a0, a2
	xor	a1, a1, a2
	and	s11, a2, s11
	and	s5, a2, s10
	and	t2, a5, ra
	and	t5, a5, s4
	xor	s1, a4, a3
	xor	t4, s0, a4
	and	a2, a1, s7
	and	s4, a0, t6
	xor	a5, a5, a0
	and	s7, a1, a6
	and	s6, a0, s6
	and	a6, a5, t1
	and	t6, a5, s3
	ld	s10, 176(sp)                    # 8-byte Folded Reload
	ld	ra, 96(s10)
	ld	s8, 104(s10)
	ld	s3, 112(s10)
	ld	t1, 120(s10)
	xor	a0, s1, s9
	xor	s0, a2, s11
	xor	s9, a0, a2
	xor	a2, s4, s1
	xor	s4, s6, t5
	xor	a5, a6, t5
	xor	a3, s0, t6
	xor	a4, s9, s5
	xor	a6, t4, s0
	xor	a2, a2, s7
	xor	a1, a5, s2
	xor	a4, a4, a5
	xor	a2, a2, a3
	xor	a3, a3, t2
	xor	a5, a1, t0
	xor	s1, a2, t3
	xor	t0, a4, a2
	xor	a4, a4, s7
	xor	a1, a1, a7
	xor	s0, s4, a3
	xor	a0, a6, a5
	xor	t3, a1, s1
	xor	a7, a5, a3
	xor	t2, s0, s1
	srli	s1, a4, 16
	slli	a5, a4, 48
	srli	a2, t0, 16
	slli	s0, t0, 48
	xor	t4, a0, a3
	xor	a6, a0, s9
	or	a5, a5, s1
	or	t5, s0, a2
	srli	s1, t3, 16
	slli	a1, t3, 48
	srli	s0, a0, 16
	slli	a3, a0, 48
	srli	t6, t2, 16
	slli	a2, t2, 48
	srli	s2, a7, 16
	or	a1, a1, s1
	slli	s1, a7, 48
	or	s0, s0, a3
	srli	s5, a6, 16
	or	t6, a2, t6
	slli	a2, a6, 48
	or	s2, s1, s2
	srli	s1, t4, 16
	xor	a4, a4, a5
	xor	s4, ra, a5
	slli	a5, t4, 48
	xor	s9, t5, t0
	xor	t0, s8, t5
	or	t5, a2, s5
	or	s7, a5, s1
	xor	a3, a1, t3
	xor	t3, s3, a1
	ld	a2, 128(s10)
	ld	a5, 136(s10)
	ld	s3, 144(s10)
	ld	s5, 152(s10)
	xor	a0, a0, s0
	xor	s6, a2, s0
	xor	s8, t6, t2
	xor	a2, s2, a7
	xor	t6, a5, t6
	srli	a5, a4, 32
	xor	a7, t0, a4
	slli	a4, a4, 32
	xor	t0, s5, s2
	srli	s0, s9, 32
	or	t2, a4, a5
	slli	a5, s9, 32
	xor	a4, s7, t4
	or	s2, a5, s0
	srli	s0, a3, 32
	xor	t4, t3, s9
	slli	s1, a3, 32
	xor	s5, t1, a3
	srli	a5, a0, 32
	xor	t1, t6, a0
	slli	a0, a0, 32
	xor	a3, s3, s7
	srli	a1, s8, 32
	or	s3, s1, s0
	slli	s0, s8, 32
	or	t6, a0, a5
	srli	a5, a2, 32
	or	s9, s0, a1
	slli	a1, a2, 32
	or	a5, a5, a1
	xor	a1, s4, a2
	xor	t3, a1, t2
	xor	a1, a7, a2
	xor	s7, a1, s2
	xor	a1, s6, a2
	xor	a2, s5, a2
	xor	a0, t5, a6
	xor	a3, a3, s8
	srli	s1, a0, 32
	xor	a1, a1, a0
	slli	a0, a0, 32
	or	s1, s1, a0
	srli	a0, a4, 32
	xor	s0, t0, a4
	slli	a4, a4, 32
	or	a4, a4, a0
	xor	a0, t4, s3
	xor	a2, a2, t5
	xor	a1, a1, t6
	xor	a7, t1, s9
	xor	ra, s0, a5
	xor	s5, a2, s1
	xor	a5, a3, a4
	ld	a4, 144(sp)                     # 8-byte Folded Reload
	addi	a4, a4, -1
	addi	s10, s10, 256
	sd	s10, 176(sp)                    # 8-byte Folded Spill
	bnez	a4, .Laes_narrow_BB5_2
.Laes_narrow_BB5_3:                                # %after.3.i
	xor	a2, a5, a7
	xor	s3, ra, a1
	xor	s4, ra, s7
	xor	s2, a1, a0
	xor	s9, ra, a0
	xor	t5, a2, t3
	xor	s6, s4, s2
	xor	t6, t5, a1
	xor	a1, s6, s5
	xor	s1, t5, ra
	sd	s1, 144(sp)                     # 8-byte Folded Spill
	xor	s5, t5, s7
	and	a3, t6, t3
	xor	t4, a1, a0
	xor	a1, a1, a5
	xor	a0, s5, s9
	sd	a0, 176(sp)                     # 8-byte Folded Spill
	and	s7, s5, t5
	xor	a7, a1, s3
	xor	t2, t4, t3
	and	a5, t4, s6
	xor	s11, t4, a2
	xor	a3, a3, s9
	and	s0, a7, s3
	xor	a6, a7, a2
	xor	t1, a7, s11
	xor	t0, a7, t3
	and	a2, s11, s9
	and	a4, t2, a0
	xor	a3, a3, s11
	xor	a1, a1, a5
	xor	a3, a3, a5
	and	a5, t1, s2
	xor	a1, a1, a4
	and	a4, t0, s1
	xor	s1, a2, s0
	xor	a5, a5, s0
	and	s0, a6, s4
	xor	a0, a6, s7
	xor	a2, a3, s1
	xor	a0, a0, s0
	xor	a3, a6, a4
	xor	a4, s0, ra
	xor	a1, a1, a5
	xor	a0, a0, s4
	xor	a3, a3, a4
	xor	a5, a5, a0
	xor	s1, s1, a3
	xor	s7, a1, a2
	and	a0, a5, a1
	xor	a1, s1, a5
	xor	a4, a0, a2
	xor	s0, a0, s1
	and	a4, a4, a1
	and	a1, s0, s7
	xor	s8, a1, a2
	xor	a2, a4, a0
	xor	a0, a4, s1
	and	a2, a2, s1
	ld	a1, 8(sp)                       # 8-byte Folded Reload
	andi	a1, a1, -4
	sd	a1, 160(sp)                     # 8-byte Folded Spill
	xor	a3, a2, s0
	xor	a2, a2, a5
	slli	s10, a1, 6
	ld	a1, 48(sp)                      # 8-byte Folded Reload
	add	s10, s10, a1
	and	t6, a0, t6
	and	a5, a0, t3
	and	s1, a2, t4
	and	t3, a2, s6
	xor	a2, a2, a0
	xor	a0, s8, a0
	ld	a1, 144(sp)                     # 8-byte Folded Reload
	and	t4, s8, a1
	and	s6, s8, t0
	and	a7, a0, a7
	and	s0, a0, s3
	and	a3, a3, s8
	xor	a3, a3, s7
	and	a4, a2, t2
	ld	a1, 176(sp)                     # 8-byte Folded Reload
	and	t0, a2, a1
	xor	a5, a5, s1
	xor	a2, a2, a3
	xor	a1, a3, s8
	and	t2, a3, t5
	and	t5, a3, s5
	xor	s3, a4, s1
	xor	s5, a5, s6
	and	a3, a1, a6
	and	a6, a2, s11
	xor	a0, a0, a2
	and	a1, a1, s4
	and	a2, a2, s9
	and	s1, a0, s2
	xor	a4, a3, t2
	and	a0, a0, t1
	xor	t1, s5, a3
	xor	a3, a6, a5
	xor	a6, a2, s0
	xor	s0, s0, s1
	xor	a0, a0, a4
	xor	a2, t1, t5
	xor	t2, s3, a4
	xor	a3, a3, a1
	xor	s1, s0, t0
	xor	s0, s0, a2
	xor	a2, a3, a0
	xor	a0, a0, a7
	xor	a3, s1, t3
	xor	a5, a2, t4
	xor	t0, s0, a2
	xor	t4, s0, a1
	xor	a4, s1, t6
	xor	s1, a6, a0
	xor	a1, t2, a3
	xor	t5, a4, a5
	xor	t2, a3, a0
	xor	t6, s1, a5
	srli	a6, t4, 20
	slli	a7, t4, 44
	srli	s0, t4, 4
	slli	a2, t4, 60
	srli	a4, t0, 20
	slli	s1, t0, 44
	srli	a3, t0, 4
	slli	a5, t0, 60
	xor	s3, a1, a0
	xor	a0, a1, t1
	sd	a0, 176(sp)                     # 8-byte Folded Spill
	or	s8, a7, a6
	or	a7, a2, s0
	or	s2, s1, a4
	or	t1, a5, a3
	srli	a5, t5, 20
	slli	s1, t5, 44
	srli	s0, t5, 4
	slli	a2, t5, 60
	srli	s6, a1, 20
	slli	a4, a1, 44
	srli	s4, a1, 4
	slli	a0, a1, 60
	srli	s5, t6, 20
	slli	a3, t6, 44
	srli	s7, t6, 4
	or	a5, a5, s1
	sd	a5, 144(sp)                     # 8-byte Folded Spill
	slli	ra, t6, 60
	or	s9, a2, s0
	srli	s11, t2, 20
	or	s6, a4, s6
	slli	a5, t2, 44
	or	s4, a0, s4
	srli	a6, t2, 4
	or	s5, a3, s5
	slli	t3, t2, 60
	ld	a0, 80(sp)                      # 8-byte Folded Reload
	and	s8, s8, a0
	ld	a4, 72(sp)                      # 8-byte Folded Reload
	and	a2, a7, a4
	and	a7, s2, a0
	and	s1, t1, a4
	or	t1, ra, s7
	ld	a3, 176(sp)                     # 8-byte Folded Reload
	srli	s7, a3, 20
	or	a5, a5, s11
	sd	a5, 136(sp)                     # 8-byte Folded Spill
	slli	s0, a3, 44
	or	s2, t3, a6
	srli	t3, a3, 4
	or	a6, s8, a2
	slli	a5, a3, 60
	or	ra, a7, s1
	srli	a2, s3, 20
	or	a7, s0, s7
	slli	s0, s3, 44
	or	s7, a5, t3
	srli	t3, s3, 4
	or	s11, s0, a2
	slli	s0, s3, 60
	ld	a2, 144(sp)                     # 8-byte Folded Reload
	and	s8, a2, a0
	and	a3, s9, a4
	and	s6, s6, a0
	and	s1, s4, a4
	and	a5, s5, a0
	and	a2, t1, a4
	or	t3, s0, t3
	or	s0, s8, a3
	or	s6, s6, s1
	or	s5, a5, a2
	ld	s9, 64(s10)
	ld	s8, 72(s10)
	ld	s4, 80(s10)
	ld	a2, 88(s10)
	sd	a2, 128(sp)                     # 8-byte Folded Spill
	ld	a5, 136(sp)                     # 8-byte Folded Reload
	and	a5, a5, a0
	and	s1, s2, a4
	and	t1, a7, a0
	and	a2, s7, a4
	and	a3, s11, a0
	and	a4, t3, a4
	or	a5, a5, s1
	ld	s11, 96(s10)
	ld	s2, 104(s10)
	ld	a7, 112(s10)
	ld	s7, 120(s10)
	xor	s1, a6, t4
	xor	t4, ra, t0
	xor	a0, s9, a6
	sd	a0, 144(sp)                     # 8-byte Folded Spill
	xor	a0, s8, ra
	or	s8, t1, a2
	or	s9, a3, a4
	xor	a2, s0, t5
	xor	a1, s6, a1
	xor	a3, s5, t6
	xor	a4, a5, t2
	srli	t1, s1, 40
	slli	t3, s1, 24
	srli	t5, s1, 24
	slli	t6, s1, 40
	xor	t0, a0, s1
	srli	ra, t4, 40
	xor	s4, s4, s0
	slli	a0, t4, 24
	xor	s6, s11, s6
	srli	s11, t4, 24
	xor	s2, s2, s5
	slli	s1, t4, 40
	xor	s10, s7, a5
	xor	s0, s9, s3
	or	s3, t3, t1
	or	t3, t6, t5
	or	t5, a0, ra
	or	t6, s1, s11
	srli	s7, a2, 40
	slli	a5, a2, 24
	srli	ra, a2, 24
	slli	a6, a2, 40
	srli	s11, a1, 40
	xor	s1, s4, t4
	sd	s1, 136(sp)                     # 8-byte Folded Spill
	slli	s1, a1, 24
	ld	a0, 128(sp)                     # 8-byte Folded Reload
	xor	t4, a0, a2
	srli	s4, a1, 24
	xor	a2, s2, a1
	sd	a2, 128(sp)                     # 8-byte Folded Spill
	slli	a1, a1, 40
	xor	a7, a7, s9
	srli	a2, a3, 40
	or	s5, a5, s7
	slli	a5, a3, 24
	or	s7, a6, ra
	srli	a0, a3, 24
	or	s9, s1, s11
	slli	s1, a3, 40
	or	s4, a1, s4
	srli	a1, a4, 40
	or	s11, a5, a2
	slli	a5, a4, 24
	or	ra, s1, a0
	srli	s1, a4, 24
	or	s2, a5, a1
	slli	a5, a4, 40
	or	a6, a5, s1
	ld	a0, 144(sp)                     # 8-byte Folded Reload
	xor	t1, a0, a4
	xor	t0, t0, a4
	xor	s6, s6, a4
	xor	a1, t4, a4
	ld	a0, 176(sp)                     # 8-byte Folded Reload
	xor	a2, s8, a0
	ld	t4, 152(sp)                     # 8-byte Folded Reload
	and	s3, s3, t4
	ld	t2, 168(sp)                     # 8-byte Folded Reload
	and	a0, t3, t2
	and	a5, t5, t4
	and	a4, t6, t2
	xor	a7, a7, a3
	srli	a3, a2, 40
	or	t3, s3, a0
	slli	a0, a2, 24
	or	s3, a5, a4
	srli	a4, a2, 24
	xor	t5, s6, a2
	slli	a2, a2, 40
	or	s6, a0, a3
	srli	a3, s0, 40
	or	a2, a2, a4
	slli	a4, s0, 24
	or	a3, a3, a4
	srli	a4, s0, 24
	xor	t6, s10, s0
	slli	s0, s0, 40
	or	a4, a4, s0
	xor	s8, a1, s8
	and	a0, s5, t4
	and	a1, s7, t2
	or	a0, a0, a1
	and	a1, s9, t4
	and	s1, s4, t2
	or	s1, s1, a1
	and	a1, s11, t4
	and	a5, ra, t2
	or	a5, a5, a1
	and	a1, s2, t4
	and	s0, a6, t2
	or	s0, s0, a1
	xor	s2, t1, t3
	xor	s3, t0, s3
	and	a1, s6, t4
	and	a2, a2, t2
	or	a2, a2, a1
	and	a1, a3, t4
	and	a3, a4, t2
	or	a3, a3, a1
	ld	a1, 136(sp)                     # 8-byte Folded Reload
	xor	s6, a1, a0
	xor	s7, t5, s1
	ld	a0, 128(sp)                     # 8-byte Folded Reload
	xor	t0, a0, a5
	xor	a6, s8, a2
	xor	s4, a7, a3
	ld	a0, 160(sp)                     # 8-byte Folded Reload
	addi	a0, a0, 2
	xor	s9, t6, s0
	ld	s10, 40(sp)                     # 8-byte Folded Reload
	bgeu	a0, s10, .Laes_narrow_BB5_5
# %bb.4:                                # %then.11.i
	xor	a0, s4, t0
	xor	t0, s7, s9
	xor	t5, s3, s9
	xor	a7, s7, s6
	xor	t3, s9, s6
	xor	t2, a0, s2
	xor	t4, t5, a7
	xor	t6, t2, s7
	xor	a3, t4, a6
	xor	s3, t2, s3
	and	s0, t6, s2
	xor	s6, a3, s6
	xor	a1, a3, s4
	xor	t1, s3, t3
	xor	s8, a1, t0
	xor	s4, s6, s2
	and	a5, s6, t4
	xor	s5, s6, a0
	xor	s0, s0, t3
	and	a3, s8, t0
	xor	a6, s8, s5
	and	a4, s5, t3
	xor	a1, a1, a5
	xor	a5, s5, a5
	xor	s7, s0, a5
	and	s0, s4, t1
	xor	s0, s0, a1
	and	a1, a6, a7
	xor	a4, a4, a3
	xor	a3, a3, a1
	and	a1, s3, t2
	xor	s11, s8, a0
	xor	a1, s11, a1
	and	a5, s11, t5
	xor	a1, a1, a5
	xor	a2, a5, s9
	xor	s9, t2, s9
	xor	s10, s8, s2
	and	a5, s10, s9
	xor	a5, s11, a5
	xor	a2, a2, a5
	xor	s0, s0, a3
	xor	a1, a1, t5
	xor	a1, a1, a3
	xor	s1, s7, a4
	xor	a2, a2, a4
	and	a4, a1, s0
	xor	a5, a2, a1
	xor	a3, a4, s1
	and	a3, a3, a5
	xor	s0, s0, s1
	xor	a0, a4, a2
	and	a5, a0, s0
	xor	a5, a5, s1
	xor	a4, a4, a3
	xor	a3, a3, a2
	and	a2, a2, a4
	xor	a0, a0, a2
	xor	a1, a1, a2
	and	a0, a0, a5
	xor	a0, a0, s0
	and	t6, a3, t6
	and	s7, a3, s2
	and	a4, a1, s6
	and	t4, a1, t4
	xor	a1, a1, a3
	xor	a3, a3, a5
	and	s2, a5, s9
	and	s1, a5, s10
	and	s6, a3, s8
	and	s8, a3, t0
	and	a2, a1, s4
	and	t0, a1, t1
	xor	s0, a4, s7
	xor	a1, a1, a0
	xor	a5, a5, a0
	and	t1, a0, t2
	and	t2, a0, s3
	xor	s3, a2, a4
	xor	s4, s0, s1
	and	a4, a5, s11
	and	a0, a1, s5
	xor	a3, a3, a1
	and	t5, a5, t5
	and	a1, a1, t3
	and	a2, a3, a7
	xor	s1, a4, t1
	and	a3, a3, a6
	xor	a6, s4, a4
	xor	a0, a0, s0
	xor	a1, a1, s8
	xor	a2, a2, s8
	xor	a3, a3, s1
	xor	s0, a6, t2
	xor	s1, s3, s1
	xor	a0, a0, t5
	xor	a4, a2, t0
	xor	a2, a2, s0
	xor	a0, a0, a3
	xor	a3, a3, s6
	xor	s0, a4, t4
	xor	a5, a0, s2
	xor	s8, a2, a0
	xor	s9, a2, t5
	xor	a4, a4, t6
	xor	a1, a1, a3
	xor	ra, s1, s0
	xor	s11, a4, a5
	xor	s7, s0, a3
	xor	s10, a1, a5
	srli	a7, s9, 24
	slli	a5, s9, 40
	srli	a0, s9, 8
	slli	a1, s9, 56
	srli	a4, s8, 24
	slli	s1, s8, 40
	srli	a2, s8, 8
	slli	s0, s8, 56
	xor	t1, ra, a3
	xor	t3, ra, a6
	or	s4, a5, a7
	or	s3, a1, a0
	or	t2, s1, a4
	or	t4, s0, a2
	srli	a6, s11, 24
	slli	a2, s11, 40
	srli	a7, s11, 8
	slli	a5, s11, 56
	srli	s1, ra, 24
	slli	s0, ra, 40
	srli	a1, ra, 8
	slli	a3, ra, 56
	srli	a0, s10, 24
	slli	a4, s10, 40
	or	a2, a2, a6
	sd	a2, 176(sp)                     # 8-byte Folded Spill
	srli	a2, s10, 8
	or	a5, a5, a7
	sd	a5, 160(sp)                     # 8-byte Folded Spill
	slli	a5, s10, 56
	or	t0, s0, s1
	srli	s0, s7, 24
	or	t5, a3, a1
	slli	a1, s7, 40
	or	t6, a4, a0
	srli	a0, s7, 8
	or	s2, a5, a2
	slli	a2, s7, 56
	ld	a6, 152(sp)                     # 8-byte Folded Reload
	and	s1, s4, a6
	ld	a7, 168(sp)                     # 8-byte Folded Reload
	and	a4, s3, a7
	and	a5, t2, a6
	and	a3, t4, a7
	or	s5, a1, s0
	srli	s0, t3, 24
	or	s6, a2, a0
	slli	a0, t3, 40
	or	a1, s1, a4
	srli	a2, t3, 8
	or	a3, a3, a5
	slli	a4, t3, 56
	or	s3, a0, s0
	srli	a0, t1, 24
	or	s4, a4, a2
	slli	a2, t1, 40
	or	t2, a2, a0
	srli	a0, t1, 8
	slli	a2, t1, 56
	or	t4, a2, a0
	ld	a0, 8(sp)                       # 8-byte Folded Reload
	slli	a0, a0, 6
	ld	a2, 48(sp)                      # 8-byte Folded Reload
	add	a0, a0, a2
	mv	a5, a6
	ld	a2, 176(sp)                     # 8-byte Folded Reload
	and	a6, a2, a6
	mv	a4, a7
	ld	a2, 160(sp)                     # 8-byte Folded Reload
	and	a7, a2, a7
	and	t0, t0, a5
	and	s1, t5, a4
	and	t5, t6, a5
	and	t6, s2, a4
	and	s0, s5, a5
	and	a2, s6, a4
	or	a7, a6, a7
	or	a6, t0, s1
	or	t5, t5, t6
	or	t6, s0, a2
	ld	s0, 0(a0)
	ld	s5, 8(a0)
	ld	t0, 16(a0)
	ld	a2, 24(a0)
	sd	a2, 176(sp)                     # 8-byte Folded Spill
	and	s6, s3, a5
	and	a2, s4, a4
	xor	s1, a1, s9
	xor	s2, a3, s8
	xor	s3, s0, a1
	xor	s0, s5, a3
	or	s4, s6, a2
	ld	s9, 32(a0)
	ld	s6, 40(a0)
	ld	s5, 48(a0)
	ld	s8, 56(a0)
	and	a0, t2, a5
	and	a1, t4, a4
	or	a1, a1, a0
	xor	a3, a7, s11
	xor	a2, a6, ra
	xor	s10, t5, s10
	xor	a0, t6, s7
	srli	t2, s1, 32
	xor	t4, s0, s1
	slli	s7, s1, 32
	xor	a7, t0, a7
	srli	s11, s2, 32
	xor	t0, s9, a6
	slli	a5, s2, 32
	xor	t6, s8, t6
	xor	a4, s6, t5
	xor	s0, s4, t3
	xor	s1, a1, t1
	or	t1, s7, t2
	or	t2, a5, s11
	srli	t3, a3, 32
	slli	t5, a3, 32
	srli	ra, a2, 32
	slli	s6, a2, 32
	xor	a7, a7, s2
	srli	s8, s10, 32
	xor	s5, s5, a1
	slli	s9, s10, 32
	xor	s7, a4, a2
	srli	s11, a0, 32
	ld	a1, 176(sp)                     # 8-byte Folded Reload
	xor	a6, a1, a3
	slli	a2, a0, 32
	xor	a5, s3, a0
	xor	s3, t4, a0
	xor	a4, t0, a0
	or	t0, t5, t3
	srli	t4, s0, 32
	or	t3, s6, ra
	slli	a3, s0, 32
	or	t5, s9, s8
	srli	a1, s1, 32
	or	s2, a2, s11
	slli	a2, s1, 32
	xor	t1, t1, a5
	xor	t2, t2, s3
	xor	a4, a4, s0
	xor	s0, s5, s10
	xor	s1, t6, s1
	xor	a5, a6, a0
	or	a3, a3, t4
	or	a1, a1, a2
	xor	a2, t0, a7
	xor	a4, t3, a4
	xor	a0, s2, s1
	xor	s1, t5, s7
	xor	a5, a5, s4
	xor	a1, a1, s0
	xor	t4, a0, a4
	xor	t5, a0, t2
	xor	t3, a4, a2
	xor	a3, a3, a5
	xor	s2, a0, a2
	xor	a5, s1, a1
	xor	s4, t5, t3
	xor	s7, a5, t1
	xor	a3, a3, s4
	xor	s10, s7, a4
	xor	s9, a3, a2
	xor	a1, a1, a3
	xor	t6, s7, t2
	and	a2, s10, t1
	xor	ra, a1, t4
	xor	s5, s9, t1
	xor	s6, t6, s2
	and	a4, s9, s4
	xor	t2, s9, a5
	and	a3, t6, s7
	and	s1, ra, t4
	xor	s8, ra, a5
	xor	s3, ra, t2
	and	a5, t2, s2
	xor	a2, a2, s2
	xor	a1, a1, a4
	xor	a4, t2, a4
	xor	a2, a2, a4
	and	a4, s5, s6
	xor	a1, a1, a4
	and	a4, s3, t3
	xor	a5, a5, s1
	xor	a4, a4, s1
	and	s1, s8, t5
	xor	a3, s8, a3
	xor	a3, a3, s1
	xor	s1, s1, a0
	xor	a6, s7, a0
	xor	s0, ra, t1
	and	a0, s0, a6
	xor	a0, s8, a0
	xor	a0, a0, s1
	xor	a1, a1, a4
	xor	a3, a3, t5
	xor	a3, a3, a4
	xor	a2, a2, a5
	xor	a5, a5, a0
	and	s1, a3, a1
	xor	a4, a5, a3
	xor	a0, s1, a2
	and	a0, a0, a4
	xor	t0, a1, a2
	xor	a4, s1, a5
	and	a1, a4, t0
	xor	a7, a1, a2
	xor	s1, s1, a0
	xor	a0, a0, a5
	and	a2, s1, a5
	xor	s1, a2, a4
	xor	a2, a2, a3
	ld	a1, 40(sp)                      # 8-byte Folded Reload
	slli	a1, a1, 6
	sd	a1, 176(sp)                     # 8-byte Folded Spill
	and	s10, a0, s10
	and	a4, a0, t1
	and	a5, a2, s9
	and	t1, a2, s4
	xor	a2, a2, a0
	xor	a0, a7, a0
	and	a6, a7, a6
	and	s9, a7, s0
	and	s4, a0, ra
	and	s0, a0, t4
	and	a1, s1, a7
	xor	a1, a1, t0
	and	s1, a2, s5
	and	t0, a2, s6
	xor	a4, a4, a5
	xor	a2, a2, a1
	xor	a3, a1, a7
	and	a7, a1, s7
	and	t4, a1, t6
	xor	t6, s1, a5
	xor	s5, a4, s9
	and	a1, a3, s8
	and	t2, a2, t2
	xor	a0, a0, a2
	and	t5, a3, t5
	and	a2, a2, s2
	and	s1, a0, t3
	xor	a5, a1, a7
	and	a0, a0, s3
	xor	t3, s5, a1
	xor	a4, t2, a4
	xor	a7, a2, s0
	xor	s0, s0, s1
	xor	a0, a0, a5
	xor	s1, t3, t4
	xor	a1, t6, a5
	xor	a4, a4, t5
	xor	a2, s0, t0
	xor	s0, s0, s1
	xor	a4, a4, a0
	xor	a0, a0, s4
	xor	a3, a2, t1
	xor	s1, a4, a6
	xor	t2, s0, a4
	xor	t4, s0, t5
	xor	a4, a2, s10
	xor	a5, a7, a0
	xor	a2, a1, a3
	xor	t0, a4, s1
	xor	t5, a3, a0
	xor	t6, a5, s1
	srli	a6, t4, 28
	slli	a7, t4, 36
	srli	s0, t4, 12
	slli	s1, t4, 52
	srli	a3, t2, 28
	slli	a5, t2, 36
	srli	a1, t2, 12
	slli	a4, t2, 52
	xor	s3, a2, a0
	xor	t1, a2, t3
	or	a6, a7, a6
	or	s2, s1, s0
	or	t3, a5, a3
	or	a7, a4, a1
	srli	a4, t0, 28
	slli	a5, t0, 36
	srli	s1, t0, 12
	slli	a1, t0, 52
	srli	s6, a2, 28
	slli	s0, a2, 36
	srli	s4, a2, 12
	slli	a0, a2, 52
	srli	s5, t6, 28
	slli	a3, t6, 36
	srli	s7, t6, 12
	or	s8, a5, a4
	slli	a5, t6, 52
	or	s9, a1, s1
	srli	ra, t5, 28
	or	s6, s0, s6
	slli	a4, t5, 36
	or	s4, a0, s4
	srli	a1, t5, 12
	or	s11, a3, s5
	slli	s0, t5, 52
	ld	s5, 64(sp)                      # 8-byte Folded Reload
	and	s10, a6, s5
	ld	a0, 56(sp)                      # 8-byte Folded Reload
	and	a3, s2, a0
	and	t3, t3, s5
	and	s1, a7, a0
	or	a6, a5, s7
	srli	a5, t1, 28
	or	a7, a4, ra
	slli	a4, t1, 36
	or	s2, s0, a1
	srli	s0, t1, 12
	or	ra, s10, a3
	slli	a3, t1, 52
	or	s7, t3, s1
	srli	a1, s3, 28
	or	a4, a4, a5
	slli	a5, s3, 36
	or	t3, a3, s0
	srli	s0, s3, 12
	or	a1, a1, a5
	slli	a5, s3, 52
	or	s10, a5, s0
	ld	s0, 48(sp)                      # 8-byte Folded Reload
	ld	a3, 176(sp)                     # 8-byte Folded Reload
	add	s0, s0, a3
	and	s8, s8, s5
	and	s1, s9, a0
	and	s6, s6, s5
	and	s9, s4, a0
	and	a3, s11, s5
	and	a5, a6, a0
	and	a7, a7, s5
	or	s11, s8, s1
	and	s4, a4, s5
	or	s9, s6, s9
	or	s6, a3, a5
	and	s8, a1, s5
	ld	a5, -64(s0)
	ld	a4, -56(s0)
	ld	s5, -48(s0)
	ld	a6, -40(s0)
	and	a3, s2, a0
	and	a1, t3, a0
	and	a0, s10, a0
	or	t3, a7, a3
	xor	a3, ra, t4
	xor	a5, a5, ra
	sd	a5, 160(sp)                     # 8-byte Folded Spill
	ld	ra, -32(s0)
	ld	t4, -24(s0)
	ld	s2, -16(s0)
	ld	s10, -8(s0)
	xor	s0, s7, t2
	xor	t2, a4, s7
	or	a1, s4, a1
	sd	a1, 144(sp)                     # 8-byte Folded Spill
	or	s7, s8, a0
	xor	a0, s11, t0
	xor	a5, s9, a2
	xor	a2, s6, t6
	xor	s1, t3, t5
	srli	t0, a3, 40
	slli	t5, a3, 24
	srli	t6, a3, 24
	xor	t2, t2, a3
	slli	a3, a3, 40
	xor	s5, s5, s11
	srli	a4, s0, 40
	xor	s8, ra, s9
	slli	s9, s0, 24
	xor	t4, t4, s6
	srli	s6, s0, 24
	xor	t3, s10, t3
	slli	s10, s0, 40
	xor	s3, s7, s3
	or	t5, t5, t0
	or	a1, a3, t6
	or	s9, s9, a4
	or	t6, s10, s6
	srli	s10, a0, 40
	slli	a3, a0, 24
	srli	s6, a0, 24
	slli	ra, a0, 40
	xor	a4, s5, s0
	sd	a4, 136(sp)                     # 8-byte Folded Spill
	srli	s0, a5, 40
	xor	s5, a6, a0
	slli	a0, a5, 24
	xor	s2, s2, s7
	srli	s7, a5, 24
	xor	a4, t4, a5
	sd	a4, 128(sp)                     # 8-byte Folded Spill
	slli	a5, a5, 40
	or	t4, a3, s10
	srli	a4, a2, 40
	or	s6, ra, s6
	slli	a3, a2, 24
	or	s10, a0, s0
	srli	s0, a2, 24
	or	ra, a5, s7
	slli	a0, a2, 40
	or	s7, a3, a4
	srli	a4, s1, 40
	or	a6, a0, s0
	slli	s0, s1, 24
	or	t0, s0, a4
	srli	a3, s1, 24
	slli	a4, s1, 40
	or	a7, a4, a3
	ld	a0, 160(sp)                     # 8-byte Folded Reload
	xor	s11, a0, s1
	xor	s4, t2, s1
	xor	s8, s8, s1
	xor	t2, s5, s1
	ld	s0, 144(sp)                     # 8-byte Folded Reload
	xor	a5, s0, t1
	ld	a0, 152(sp)                     # 8-byte Folded Reload
	and	t5, t5, a0
	ld	a3, 168(sp)                     # 8-byte Folded Reload
	and	a4, a1, a3
	and	t1, s9, a0
	and	s1, t6, a3
	xor	s2, s2, a2
	srli	a2, a5, 40
	or	t5, t5, a4
	slli	a4, a5, 24
	or	s9, t1, s1
	srli	s1, a5, 24
	xor	s5, s8, a5
	slli	a5, a5, 40
	or	a2, a2, a4
	srli	a4, s3, 40
	or	t6, a5, s1
	slli	a1, s3, 24
	or	a1, a1, a4
	srli	a4, s3, 24
	xor	t3, t3, s3
	slli	s3, s3, 40
	or	a4, s3, a4
	xor	s3, t2, s0
	mv	a5, a0
	and	s1, t4, a0
	and	a0, s6, a3
	or	t2, s1, a0
	and	s1, s10, a5
	mv	a0, a3
	and	a3, ra, a3
	or	t4, s1, a3
	and	s1, s7, a5
	and	s0, a6, a0
	or	s1, s1, s0
	and	s0, t0, a5
	and	a3, a2, a5
	and	a1, a1, a5
	and	a5, a7, a0
	and	a2, t6, a0
	and	a4, a4, a0
	or	a5, a5, s0
	xor	t1, s11, t5
	xor	a7, s4, s9
	or	a2, a2, a3
	or	a1, a1, a4
	ld	a0, 136(sp)                     # 8-byte Folded Reload
	xor	t2, a0, t2
	xor	s0, s5, t4
	ld	a0, 128(sp)                     # 8-byte Folded Reload
	xor	a0, a0, s1
	xor	a6, s3, a2
	xor	t0, s2, a1
	ld	s10, 176(sp)                    # 8-byte Folded Reload
	xor	s2, t3, a5
	j	.Laes_narrow_BB5_6
.Laes_narrow_BB5_5:                                # %else.12.i
	srli	t1, s2, 8
	lui	a7, 4080
	srli	t2, s3, 8
	srli	t3, s6, 8
	srli	t4, a6, 8
	srli	t5, s7, 8
	srli	t6, t0, 8
	srli	s5, s4, 8
	slli	s0, a7, 32
	add	a7, a7, s0
	srli	s1, s9, 8
	xor	s0, t1, s2
	xor	a0, t2, s3
	xor	a3, t3, s6
	xor	a2, t4, a6
	xor	a5, t5, s7
	xor	a1, t6, t0
	xor	t2, s5, s4
	xor	t1, s1, s9
	and	s1, s0, a7
	and	a4, a0, a7
	and	a3, a3, a7
	and	a2, a2, a7
	and	a5, a5, a7
	and	a1, a1, a7
	and	t2, t2, a7
	and	a7, t1, a7
	slli	s0, s1, 8
	or	s0, s0, s1
	slli	a0, a4, 8
	or	a0, a0, a4
	slli	a4, a3, 8
	or	a3, a3, a4
	slli	a4, a2, 8
	or	a2, a2, a4
	slli	a4, a5, 8
	or	a4, a4, a5
	slli	a5, a1, 8
	or	a1, a1, a5
	slli	a5, t2, 8
	or	a5, a5, t2
	slli	s1, a7, 8
	or	s1, s1, a7
	xor	t1, s0, s2
	xor	a7, a0, s3
	xor	t2, a3, s6
	xor	a6, a2, a6
	xor	s0, a4, s7
	xor	a0, a1, t0
	xor	t0, a5, s4
	xor	s2, s1, s9
	slli	s10, s10, 6
.Laes_narrow_BB5_6:                                # %"aes_soft::soft::ciphers::planes::EncryptPlaneCipher::process_planes::<#04b8488f2d4d1c11>.exit"
	xor	s4, t0, a0
	xor	a1, s2, s0
	xor	t4, s2, a7
	xor	t3, s0, t2
	xor	t5, s2, t2
	ld	s11, 48(sp)                     # 8-byte Folded Reload
	add	s11, s11, s10
	xor	t6, s4, t1
	xor	s7, t4, t3
	xor	s5, t6, s0
	xor	a0, s7, a6
	xor	s6, t6, a7
	and	s1, s5, t1
	xor	ra, a0, t2
	xor	a5, a0, t0
	xor	a7, s6, t5
	and	t0, s6, t6
	sd	a1, 176(sp)                     # 8-byte Folded Spill
	xor	a2, a5, a1
	xor	s3, ra, t1
	and	a3, ra, s7
	xor	s8, ra, s4
	xor	s0, s1, t5
	and	a0, a2, a1
	xor	s4, a2, s4
	xor	a6, a2, s8
	and	s1, s8, t5
	xor	a5, a5, a3
	xor	a3, s8, a3
	xor	t2, s0, a3
	and	s0, s3, a7
	xor	s10, a5, s0
	and	s0, a6, t3
	xor	a4, s1, a0
	xor	a0, a0, s0
	and	s0, s4, t4
	xor	a3, s4, t0
	xor	a3, a3, s0
	xor	s0, s0, s2
	xor	s2, t6, s2
	xor	s9, a2, t1
	and	a5, s9, s2
	xor	a5, s4, a5
	xor	a5, a5, s0
	xor	s0, s10, a0
	xor	a3, a3, t4
	xor	s1, a3, a0
	xor	a3, t2, a4
	xor	a5, a5, a4
	and	a4, s1, s0
	xor	t0, a5, s1
	xor	a0, a4, a3
	and	a0, a0, t0
	xor	s10, s0, a3
	xor	s0, a4, a5
	and	a1, s0, s10
	xor	a1, a1, a3
	xor	a4, a4, a0
	xor	a0, a0, a5
	and	a4, a4, a5
	xor	s0, s0, a4
	ld	a3, 16(s11)
	xor	a4, a4, s1
	and	a5, a0, s5
	ld	t0, 24(s11)
	xor	t2, a5, a3
	and	s0, s0, a1
	xor	a3, s0, s10
	and	a5, a0, t1
	and	s1, a4, ra
	and	t1, a4, s7
	xor	a4, a4, a0
	xor	a0, a0, a1
	and	s2, a1, s2
	and	s5, a1, s9
	and	s0, a4, s3
	and	a7, a4, a7
	xor	a4, a4, a3
	xor	a1, a1, a3
	and	t6, a3, t6
	and	s3, a3, s6
	xor	a5, a5, s1
	xor	s6, s0, s1
	and	s1, a1, s4
	and	a1, a1, t4
	and	t4, a0, a2
	ld	a2, 176(sp)                     # 8-byte Folded Reload
	and	a2, a2, a0
	and	a3, a4, s8
	xor	a0, a0, a4
	and	t5, a4, t5
	and	t3, a0, t3
	and	a6, a0, a6
	ld	a0, 40(s11)
	xor	a4, a5, s5
	xor	s0, s1, t6
	xor	a4, a4, s1
	xor	a3, a3, a5
	ld	s4, 48(s11)
	ld	t6, 56(s11)
	xor	a0, a0, a2
	xor	a0, a0, t5
	xor	a2, t3, a2
	ld	s1, 0(s11)
	xor	a5, s0, a6
	xor	a6, s6, s0
	ld	s0, 8(s11)
	xor	t3, a1, s1
	xor	a1, a1, a3
	xor	a3, a4, s3
	xor	t0, a4, t0
	xor	a4, a2, a7
	xor	a2, a2, a3
	xor	a1, a1, a5
	xor	a3, a5, t4
	xor	a5, a1, s2
	xor	a1, a1, s0
	xor	s0, a4, t1
	xor	s1, t2, a4
	xor	t1, a0, a3
	xor	a7, a3, s4
	xor	a3, a3, t6
	xor	a4, t3, a2
	xor	a1, a1, a2
	ld	a2, 32(s11)
	xor	a0, a6, s0
	xor	a6, s1, a5
	xor	a5, t1, a5
	xor	t1, a3, s0
	srli	s1, a4, 1
	xor	s0, t0, a0
	xor	t0, a0, a2
	xor	a7, a7, a0
	xor	s1, s1, a1
	srli	a0, a6, 1
	ld	a3, 16(sp)                      # 8-byte Folded Reload
	and	s1, s1, a3
	xor	a0, a0, s0
	srli	a2, t0, 1
	xor	t4, s1, a1
	slli	s1, s1, 1
	xor	t2, s1, a4
	srli	s1, a7, 1
	and	a0, a0, a3
	xor	a2, a2, a5
	xor	s1, s1, t1
	and	a2, a2, a3
	and	s1, s1, a3
	xor	s0, s0, a0
	slli	a0, a0, 1
	xor	a3, a0, a6
	srli	a1, t4, 2
	xor	t3, a2, a5
	slli	a2, a2, 1
	xor	a4, s1, t1
	slli	s1, s1, 1
	xor	a6, a2, t0
	srli	a2, t2, 2
	xor	a1, a1, s0
	xor	s1, s1, a7
	xor	a2, a2, a3
	ld	a0, 24(sp)                      # 8-byte Folded Reload
	and	a1, a1, a0
	srli	a5, t3, 2
	and	a2, a2, a0
	xor	t6, a1, s0
	slli	a1, a1, 2
	xor	a7, a1, t4
	srli	a1, a6, 2
	xor	a5, a5, a4
	xor	t4, a2, a3
	slli	a2, a2, 2
	xor	a1, a1, s1
	and	a3, a5, a0
	xor	t0, a2, t2
	srli	a2, t6, 4
	and	a1, a1, a0
	slli	a5, a3, 2
	xor	a0, a3, a4
	srli	a4, a7, 4
	xor	a5, a5, t3
	srli	a3, t4, 4
	xor	s1, s1, a1
	slli	a1, a1, 2
	xor	t1, a1, a6
	srli	a1, t0, 4
	xor	s0, a0, a2
	xor	a4, a4, a5
	xor	a3, a3, s1
	ld	a2, 32(sp)                      # 8-byte Folded Reload
	and	s0, s0, a2
	xor	a1, t1, a1
	and	a4, a4, a2
	and	a3, a3, a2
	xor	t5, s0, a0
	slli	s0, s0, 4
	and	t3, a1, a2
	slli	a1, a4, 4
	xor	s3, a4, a5
	slli	a0, a3, 4
	xor	s1, s1, a3
	xor	t6, s0, t6
	srli	a6, t5, 40
	srli	t2, t5, 24
	xor	s2, a1, a7
	srli	a7, t5, 32
	xor	t4, a0, t4
	srli	a3, t5, 16
	ld	a5, 0(sp)                       # 8-byte Folded Reload
	sb	a3, 53(a5)
	srli	a1, t5, 8
	xor	a3, t3, t1
	slli	t3, t3, 4
	sb	a1, 60(a5)
	srli	a1, s3, 24
	sb	t2, 61(a5)
	srli	a0, s3, 32
	xor	a2, t3, t0
	srli	a4, s3, 16
	sb	a4, 21(a5)
	srli	a4, s3, 8
	sb	a4, 28(a5)
	srli	a4, s3, 40
	sb	a1, 29(a5)
	srli	a1, s3, 48
	sb	a0, 22(a5)
	sb	a1, 23(a5)
	sb	s3, 20(a5)
	srli	s0, s3, 56
	sb	a4, 30(a5)
	srli	a0, s1, 32
	sb	s0, 31(a5)
	srli	a1, s1, 16
	sb	a1, 37(a5)
	srli	a1, s1, 48
	sb	a0, 38(a5)
	srli	a0, s1, 24
	sb	s1, 36(a5)
	sb	a1, 39(a5)
	srli	a1, s1, 8
	sb	a1, 44(a5)
	srli	a1, s1, 56
	srli	s1, s1, 40
	sb	a0, 45(a5)
	srli	a0, t6, 24
	sb	s1, 46(a5)
	srli	a4, t6, 32
	sb	a1, 47(a5)
	srli	a1, t6, 16
	sb	a1, 49(a5)
	srli	a1, t6, 8
	sb	a1, 56(a5)
	srli	a1, t6, 40
	sb	a0, 57(a5)
	srli	a0, t6, 48
	sb	a4, 50(a5)
	sb	a0, 51(a5)
	sb	t6, 48(a5)
	srli	a0, t6, 56
	sb	a1, 58(a5)
	srli	a1, a3, 32
	sb	a0, 59(a5)
	srli	a0, a3, 16
	sb	a0, 5(a5)
	srli	a0, a3, 48
	sb	a1, 6(a5)
	srli	a1, a3, 24
	sb	a3, 4(a5)
	sb	a0, 7(a5)
	srli	a0, a3, 8
	sb	a0, 12(a5)
	srli	a0, a3, 56
	srli	a3, a3, 40
	sb	a1, 13(a5)
	srli	a1, s2, 24
	sb	a3, 14(a5)
	srli	a3, s2, 32
	sb	a0, 15(a5)
	srli	a0, s2, 16
	sb	a0, 17(a5)
	srli	a0, s2, 8
	sb	a0, 24(a5)
	srli	a0, s2, 40
	sb	a1, 25(a5)
	srli	a1, s2, 48
	sb	a3, 18(a5)
	sb	a1, 19(a5)
	sb	s2, 16(a5)
	srli	s0, s2, 56
	sb	a0, 26(a5)
	srli	a0, t4, 32
	sb	s0, 27(a5)
	srli	a1, t4, 16
	sb	a1, 33(a5)
	srli	a1, t4, 48
	sb	a0, 34(a5)
	srli	a0, t4, 24
	sb	t4, 32(a5)
	sb	a1, 35(a5)
	srli	a1, t4, 8
	sb	a1, 40(a5)
	srli	a1, t4, 56
	srli	a3, t4, 40
	sb	a0, 41(a5)
	srli	a0, a2, 24
	sb	a3, 42(a5)
	srli	a3, a2, 32
	sb	a1, 43(a5)
	srli	a1, a2, 16
	sb	a1, 1(a5)
	srli	a1, a2, 8
	sb	a1, 8(a5)
	srli	a1, a2, 40
	sb	a0, 9(a5)
	srli	a0, a2, 48
	sb	a3, 2(a5)
	sb	a0, 3(a5)
	sb	a2, 0(a5)
	srli	a2, a2, 56
	sb	a1, 10(a5)
	sb	a2, 11(a5)
	srli	a0, t5, 48
	sb	a7, 54(a5)
	sb	a0, 55(a5)
	sb	t5, 52(a5)
	srli	a0, t5, 56
	sb	a6, 62(a5)
	sb	a0, 63(a5)
	ld	ra, 280(sp)                     # 8-byte Folded Reload
	ld	s0, 272(sp)                     # 8-byte Folded Reload
	ld	s1, 264(sp)                     # 8-byte Folded Reload
	ld	s2, 256(sp)                     # 8-byte Folded Reload
	ld	s3, 248(sp)                     # 8-byte Folded Reload
	ld	s4, 240(sp)                     # 8-byte Folded Reload
	ld	s5, 232(sp)                     # 8-byte Folded Reload
	ld	s6, 224(sp)                     # 8-byte Folded Reload
	ld	s7, 216(sp)                     # 8-byte Folded Reload
	ld	s8, 208(sp)                     # 8-byte Folded Reload
	ld	s9, 200(sp)                     # 8-byte Folded Reload
	ld	s10, 192(sp)                    # 8-byte Folded Reload
	ld	s11, 184(sp)                    # 8-byte Folded Reload
	addi	sp, sp, 288
	ret
.Laes_narrow_func_end5:
	.size	aes_narrow.aes_soft.soft.ciphers.planes.process_outlined.1, .Laes_narrow_func_end5-aes_narrow.aes_soft.soft.ciphers.planes.process_outlined.1
                                        # -- End function
	.section	.text.aes_narrow.aes_cipher.zeroize.stack.wipe_stack.1024,"ax",@progbits
	.p2align	1                               # -- Begin function aes_cipher::zeroize::stack::wipe_stack::<=1024>
	.type	aes_narrow.aes_cipher.zeroize.stack.wipe_stack.1024,@function
aes_narrow.aes_cipher.zeroize.stack.wipe_stack.1024: # @aes_narrow.aes_cipher.zeroize.stack.wipe_stack.1024
# %bb.0:                                # %start
	addi	sp, sp, -1072
	sd	ra, 1064(sp)                    # 8-byte Folded Spill
	sd	s0, 1056(sp)                    # 8-byte Folded Spill
	sd	s1, 1048(sp)                    # 8-byte Folded Spill
	addi	s0, sp, 24
	addi	a0, sp, 24
	li	a2, 1024
	li	s1, 1024
	li	a1, 0
	la	t1, memset
	jalr	t1
	sd	zero, 16(sp)
	#APP
	#NO_APP
	fence	rw, rw
	ld	a0, 16(sp)
	fence	r, rw
	#APP
	#NO_APP
	bgeu	a0, s1, .Laes_narrow_BB6_2
# %bb.1:                                # %then.1
	add	a0, a0, s0
	lbu	a0, 0(a0)
	#APP
	#NO_APP
	addi	a1, sp, 16
	amoswap.d.aqrl	zero, a0, (a1)
	#APP
	#NO_APP
.Laes_narrow_BB6_2:                                # %common.ret
	ld	ra, 1064(sp)                    # 8-byte Folded Reload
	ld	s0, 1056(sp)                    # 8-byte Folded Reload
	ld	s1, 1048(sp)                    # 8-byte Folded Reload
	addi	sp, sp, 1072
	ret
.Laes_narrow_func_end6:
	.size	aes_narrow.aes_cipher.zeroize.stack.wipe_stack.1024, .Laes_narrow_func_end6-aes_narrow.aes_cipher.zeroize.stack.wipe_stack.1024
                                        # -- End function
	.section	.text.aes_narrow.aes_narrow.borrowed_words.call_to_encrypt,"ax",@progbits
	.p2align	1                               # -- Begin function aes_narrow::borrowed_words::call_to_encrypt::<#17b804b6897ee8c7>
	.type	aes_narrow.aes_narrow.borrowed_words.call_to_encrypt,@function
aes_narrow.aes_narrow.borrowed_words.call_to_encrypt: # @aes_narrow.aes_narrow.borrowed_words.call_to_encrypt
# %bb.0:                                # %start
	addi	sp, sp, -464
	sd	ra, 456(sp)                     # 8-byte Folded Spill
	sd	s0, 448(sp)                     # 8-byte Folded Spill
	sd	s1, 440(sp)                     # 8-byte Folded Spill
	sd	s2, 432(sp)                     # 8-byte Folded Spill
	sd	s3, 424(sp)                     # 8-byte Folded Spill
	sd	s4, 416(sp)                     # 8-byte Folded Spill
	sd	s5, 408(sp)                     # 8-byte Folded Spill
	sd	s6, 400(sp)                     # 8-byte Folded Spill
	sd	s7, 392(sp)                     # 8-byte Folded Spill
	sd	s8, 384(sp)                     # 8-byte Folded Spill
	sd	s9, 376(sp)                     # 8-byte Folded Spill
	sd	s10, 368(sp)                    # 8-byte Folded Spill
	sd	s11, 360(sp)                    # 8-byte Folded Spill
	mv	s4, a1
	mv	s5, a0
	ld	s0, 8(a2)
	ld	s1, 0(a2)
	ld	s2, 16(a2)
	ld	s3, 24(a2)
	andi	a0, s0, 15
	sd	s5, 88(sp)
	sd	a1, 96(sp)
	beqz	a0, .Laes_narrow_BB7_5
# %bb.1:                                # %then.1.i.i
	addi	a0, sp, 88
	mv	a1, s1
	mv	a2, s0
	li	a3, 0
	mv	a4, s2
	mv	a5, s3
	call	aes_narrow.aes_ctr.add_in_batches.add_next
	mv	a3, a0
	sub	a0, s3, a0
	li	a1, 64
	bgeu	a0, a1, .Laes_narrow_BB7_6
.Laes_narrow_BB7_2:                                # %loop.13.preheader.i.i
	bgeu	a3, s3, .Laes_narrow_BB7_4
.Laes_narrow_BB7_3:                                # %join.16.i.i
                                        # =>This Inner Loop Header: Depth=1
	addi	a0, sp, 88
	mv	a1, s1
	mv	a2, s0
	mv	a4, s2
	mv	a5, s3
	call	aes_narrow.aes_ctr.add_in_batches.add_next
	mv	a3, a0
	bltu	a0, s3, .Laes_narrow_BB7_3
.Laes_narrow_BB7_4:                                # %"aes_ctr::add_in_batches::AddStreamBlockCipherEncClosure::call::<#3c6ac22cfb045f8a>.exit"
	ld	ra, 456(sp)                     # 8-byte Folded Reload
	ld	s0, 448(sp)                     # 8-byte Folded Reload
	ld	s1, 440(sp)                     # 8-byte Folded Reload
	ld	s2, 432(sp)                     # 8-byte Folded Reload
	ld	s3, 424(sp)                     # 8-byte Folded Reload
	ld	s4, 416(sp)                     # 8-byte Folded Reload
	ld	s5, 408(sp)                     # 8-byte Folded Reload
	ld	s6, 400(sp)                     # 8-byte Folded Reload
	ld	s7, 392(sp)                     # 8-byte Folded Reload
	ld	s8, 384(sp)                     # 8-byte Folded Reload
	ld	s9, 376(sp)                     # 8-byte Folded Reload
	ld	s10, 368(sp)                    # 8-byte Folded Reload
	ld	s11, 360(sp)                    # 8-byte Folded Reload
	addi	sp, sp, 464
	ret
.Laes_narrow_BB7_5:
	li	a3, 0
	li	a1, 64
	bltu	s3, a1, .Laes_narrow_BB7_2
.Laes_narrow_BB7_6:                                # %join.11.lr.ph.i.i
	neg	a2, a3
	sd	s0, 16(sp)                      # 8-byte Folded Spill
	add	a4, a3, s0
	sd	s2, 8(sp)                       # 8-byte Folded Spill
	add	s0, s2, a3
	sd	s4, 32(sp)                      # 8-byte Folded Spill
	sd	s5, 24(sp)                      # 8-byte Folded Spill
	sd	s1, 48(sp)                      # 8-byte Folded Spill
	sd	s3, 40(sp)                      # 8-byte Folded Spill
.Laes_narrow_BB7_7:                                # %join.11.i.i
                                        # =>This Inner Loop Header: Depth=1
	sd	a4, 72(sp)                      # 8-byte Folded Spill
	sd	a2, 80(sp)                      # 8-byte Folded Spill
	srli	s10, a4, 4
	li	a2, 192
	addi	a0, sp, 168
	li	a1, 0
	la	t1, memset
	jalr	t1
	lbu	s4, 0(s1)
	lbu	t0, 1(s1)
	lbu	t3, 2(s1)
	lbu	ra, 3(s1)
	lbu	s5, 8(s1)
	lbu	t1, 9(s1)
	lbu	t6, 10(s1)
	lbu	a5, 11(s1)
	lbu	a2, 4(s1)
	lbu	a3, 5(s1)
	lbu	t2, 6(s1)
	lbu	a6, 7(s1)
	lbu	a1, 12(s1)
	lbu	s6, 13(s1)
	lbu	s2, 14(s1)
	lbu	a7, 15(s1)
	li	a0, 255
	lui	t4, 4080
	lui	a4, 16
	slli	a0, a0, 24
	addi	a4, a4, -256
	slli	t2, t2, 48
	slli	s1, a3, 40
	slli	a2, a2, 32
	slli	ra, ra, 24
	slli	t3, t3, 16
	slli	t0, t0, 8
	slli	s2, s2, 48
	slli	s6, s6, 40
	slli	a1, a1, 32
	slli	a5, a5, 24
	slli	t6, t6, 16
	slli	t1, t1, 8
	slli	t5, s4, 56
	slli	a3, s5, 56
	or	t0, t0, s4
	or	s4, ra, a2
	or	a2, t1, s5
	or	t1, a5, a1
	or	a5, t0, t3
	or	t0, a2, t6
	or	a1, a5, s4
	or	a2, t0, t1
	and	t1, a5, a4
	and	t0, t0, a4
	or	s1, s1, a1
	or	a5, a2, s6
	srli	t3, a1, 8
	and	s5, a1, t4
	slli	t1, t1, 40
	srli	t6, a2, 8
	and	s4, a2, t4
	slli	t0, t0, 40
	or	a2, s1, t2
	or	a1, a5, s2
	and	t2, t3, a0
	srli	s1, s1, 24
	slli	s5, s5, 24
	or	t1, t5, t1
	and	t3, t6, a0
	srli	a5, a5, 24
	slli	s4, s4, 24
	or	t0, a3, t0
	and	s1, s1, t4
	srli	a3, a2, 40
	srliw	a2, a2, 24
	and	a5, a5, t4
	srli	a0, a1, 40
	srliw	a1, a1, 24
	or	s1, t2, s1
	and	a3, a3, a4
	slli	a2, a2, 32
	or	a5, t3, a5
	and	a0, a0, a4
	slli	a1, a1, 32
	or	a3, a3, a6
	or	a2, s5, a2
	or	a0, a0, a7
	or	a1, s4, a1
	or	a3, a3, s1
	or	a2, t1, a2
	or	a0, a0, a5
	or	a1, t0, a1
	or	a6, a2, a3
	or	a0, a0, a1
	add	s10, s10, a0
	sltu	a7, s10, a0
	srli	t0, s10, 8
	srli	a0, s10, 16
	srli	t2, s10, 24
	srli	t3, s10, 32
	srli	a2, s10, 40
	srli	a3, s10, 48
	srli	a5, s10, 56
	addi	a1, s10, 1
	addi	a4, s10, 2
	addi	t1, s10, 3
	add	a6, a6, a7
	sb	a5, 112(sp)
	sb	a3, 113(sp)
	sb	a2, 114(sp)
	sb	t3, 115(sp)
	sb	t2, 116(sp)
	sb	a0, 117(sp)
	sb	t0, 118(sp)
	sb	s10, 119(sp)
	seqz	t2, a1
	srli	t3, a1, 8
	srli	t4, a1, 16
	srli	t5, a1, 24
	srli	s1, a1, 32
	srli	a2, a1, 40
	srli	a3, a1, 48
	srli	a5, a1, 56
	sltu	t6, a4, s10
	srli	s2, a4, 8
	srli	s4, a4, 16
	srli	s5, a4, 24
	srli	s6, a4, 32
	srli	ra, a4, 40
	srli	s3, a4, 48
	srli	s7, a4, 56
	sltu	s10, t1, s10
	srli	a0, t1, 8
	sd	a0, 64(sp)                      # 8-byte Folded Spill
	srli	a0, t1, 16
	sd	a0, 56(sp)                      # 8-byte Folded Spill
	srli	a0, t1, 24
	srli	s8, t1, 32
	srli	s9, t1, 40
	srli	a7, t1, 48
	srli	s11, t1, 56
	sb	a5, 128(sp)
	srli	t0, a6, 8
	sb	a3, 129(sp)
	srli	a5, a6, 16
	sb	a2, 130(sp)
	srli	a3, a6, 24
	sb	s1, 131(sp)
	srli	a2, a6, 32
	sb	t5, 132(sp)
	srli	t5, a6, 40
	sb	t4, 133(sp)
	srli	t4, a6, 48
	sb	t3, 134(sp)
	sb	a1, 135(sp)
	srli	t3, a6, 56
	add	s1, a6, t2
	add	a1, a6, t6
	sb	s7, 144(sp)
	sb	s3, 145(sp)
	sb	ra, 146(sp)
	sb	s6, 147(sp)
	sb	s5, 148(sp)
	sb	s4, 149(sp)
	sb	s2, 150(sp)
	sb	a4, 151(sp)
	add	a4, a6, s10
	sb	s11, 160(sp)
	sb	a7, 161(sp)
	sb	s9, 162(sp)
	sb	s8, 163(sp)
	sb	t3, 104(sp)
	sb	t4, 105(sp)
	sb	t5, 106(sp)
	sb	a2, 107(sp)
	sb	a3, 108(sp)
	sb	a5, 109(sp)
	sb	t0, 110(sp)
	sb	a6, 111(sp)
	srli	a6, s1, 8
	srli	a7, s1, 16
	srli	t0, s1, 24
	srli	t2, s1, 32
	srli	s4, s1, 40
	srli	a5, s1, 48
	srli	a2, s1, 56
	srli	t3, a1, 8
	srli	t4, a1, 16
	srli	t5, a1, 24
	srli	t6, a1, 32
	srli	s2, a1, 40
	srli	s3, a1, 48
	srli	a3, a1, 56
	srli	s5, a4, 8
	srli	s6, a4, 16
	srli	s7, a4, 24
	srli	s8, a4, 32
	srli	s9, a4, 40
	sb	a2, 120(sp)
	sb	a5, 121(sp)
	sb	s4, 122(sp)
	sb	t2, 123(sp)
	srli	a2, a4, 48
	sb	t0, 124(sp)
	sb	a7, 125(sp)
	sb	a6, 126(sp)
	sb	s1, 127(sp)
	srli	a5, a4, 56
	sb	a3, 136(sp)
	sb	s3, 137(sp)
	sb	s2, 138(sp)
	sb	t6, 139(sp)
	sb	t5, 140(sp)
	sb	t4, 141(sp)
	sb	t3, 142(sp)
	sb	a1, 143(sp)
	sb	a5, 152(sp)
	sb	a2, 153(sp)
	sb	s9, 154(sp)
	sb	s8, 155(sp)
	sb	s7, 156(sp)
	sb	s6, 157(sp)
	sb	s5, 158(sp)
	sb	a4, 159(sp)
	sb	a0, 164(sp)
	ld	a0, 56(sp)                      # 8-byte Folded Reload
	sb	a0, 165(sp)
	ld	a0, 64(sp)                      # 8-byte Folded Reload
	sb	a0, 166(sp)
	sb	t1, 167(sp)
	addi	a2, sp, 104
	li	a3, 4
	ld	a0, 24(sp)                      # 8-byte Folded Reload
	ld	a1, 32(sp)                      # 8-byte Folded Reload
	call	aes_narrow.aes_soft.soft.blocks.filled_up.process_filled_up.1
	lbu	t6, 12(s0)
	lbu	t5, 13(s0)
	lbu	t4, 14(s0)
	lbu	t3, 15(s0)
	lbu	s4, 8(s0)
	lbu	s5, 9(s0)
	lbu	s6, 10(s0)
	lbu	s7, 11(s0)
	lbu	s2, 4(s0)
	lbu	s3, 5(s0)
	lbu	s8, 6(s0)
	lbu	t2, 7(s0)
	lbu	a1, 0(s0)
	lbu	a2, 1(s0)
	lbu	a3, 2(s0)
	lbu	t1, 3(s0)
	lbu	a4, 104(sp)
	lbu	a5, 105(sp)
	lbu	s1, 106(sp)
	lbu	a0, 107(sp)
	xor	a6, a4, a1
	xor	a7, a5, a2
	xor	t0, s1, a3
	xor	t1, a0, t1
	lbu	a0, 108(sp)
	lbu	a1, 109(sp)
	lbu	a2, 110(sp)
	lbu	a3, 111(sp)
	xor	s2, a0, s2
	xor	s3, a1, s3
	xor	s8, a2, s8
	xor	t2, a3, t2
	lbu	a0, 112(sp)
	lbu	a1, 113(sp)
	lbu	a2, 114(sp)
	lbu	a3, 115(sp)
	xor	s1, a0, s4
	xor	s5, a1, s5
	xor	a1, a2, s6
	xor	a2, a3, s7
	lbu	a3, 116(sp)
	lbu	a4, 117(sp)
	lbu	a5, 118(sp)
	lbu	a0, 119(sp)
	xor	a3, a3, t6
	xor	a4, a4, t5
	xor	a5, a5, t4
	xor	a0, a0, t3
	lbu	t4, 28(s0)
	lbu	t3, 29(s0)
	lbu	t6, 30(s0)
	lbu	t5, 31(s0)
	sb	a3, 12(s0)
	sb	a4, 13(s0)
	sb	a5, 14(s0)
	sb	a0, 15(s0)
	lbu	s4, 24(s0)
	lbu	s9, 25(s0)
	lbu	s7, 26(s0)
	lbu	s6, 27(s0)
	sb	s1, 8(s0)
	sb	s5, 9(s0)
	sb	a1, 10(s0)
	sb	a2, 11(s0)
	lbu	s5, 20(s0)
	lbu	s10, 21(s0)
	lbu	s11, 22(s0)
	lbu	ra, 23(s0)
	sb	s2, 4(s0)
	sb	s3, 5(s0)
	sb	s8, 6(s0)
	sb	t2, 7(s0)
	lbu	a3, 16(s0)
	lbu	a4, 17(s0)
	lbu	a5, 18(s0)
	lbu	t2, 19(s0)
	sb	a6, 0(s0)
	sb	a7, 1(s0)
	sb	t0, 2(s0)
	sb	t1, 3(s0)
	lbu	a1, 120(sp)
	lbu	a2, 121(sp)
	lbu	s1, 122(sp)
	lbu	a0, 123(sp)
	xor	a6, a1, a3
	xor	a7, a2, a4
	xor	t0, s1, a5
	xor	t1, a0, t2
	lbu	a0, 124(sp)
	lbu	a1, 125(sp)
	lbu	a2, 126(sp)
	lbu	a3, 127(sp)
	xor	s5, a0, s5
	xor	s2, a1, s10
	xor	s3, a2, s11
	xor	s10, a3, ra
	lbu	a0, 128(sp)
	lbu	a1, 129(sp)
	lbu	a2, 130(sp)
	lbu	a3, 131(sp)
	xor	s1, a0, s4
	xor	s8, a1, s9
	xor	a1, a2, s7
	xor	a2, a3, s6
	lbu	a3, 132(sp)
	lbu	a4, 133(sp)
	lbu	a5, 134(sp)
	lbu	a0, 135(sp)
	xor	a3, a3, t4
	xor	a4, a4, t3
	xor	a5, a5, t6
	xor	a0, a0, t5
	lbu	t3, 44(s0)
	lbu	t2, 45(s0)
	lbu	t5, 46(s0)
	lbu	t4, 47(s0)
	sb	a3, 28(s0)
	sb	a4, 29(s0)
	sb	a5, 30(s0)
	sb	a0, 31(s0)
	lbu	s4, 40(s0)
	lbu	s9, 41(s0)
	lbu	s7, 42(s0)
	lbu	s6, 43(s0)
	sb	s1, 24(s0)
	sb	s8, 25(s0)
	sb	a1, 26(s0)
	sb	a2, 27(s0)
	lbu	t6, 36(s0)
	lbu	s8, 37(s0)
	lbu	s11, 38(s0)
	lbu	ra, 39(s0)
	sb	s5, 20(s0)
	sb	s2, 21(s0)
	sb	s3, 22(s0)
	sb	s10, 23(s0)
	lbu	a3, 32(s0)
	lbu	a4, 33(s0)
	lbu	a5, 34(s0)
	lbu	s2, 35(s0)
	sb	a6, 16(s0)
	sb	a7, 17(s0)
	sb	t0, 18(s0)
	sb	t1, 19(s0)
	lbu	a1, 136(sp)
	lbu	a2, 137(sp)
	lbu	s1, 138(sp)
	lbu	a0, 139(sp)
	xor	a6, a1, a3
	xor	a7, a2, a4
	xor	t0, s1, a5
	xor	t1, a0, s2
	lbu	a0, 140(sp)
	lbu	a1, 141(sp)
	lbu	a2, 142(sp)
	lbu	a3, 143(sp)
	xor	s5, a0, t6
	xor	s2, a1, s8
	xor	s3, a2, s11
	xor	t6, a3, ra
	lbu	a0, 144(sp)
	lbu	a1, 145(sp)
	lbu	a2, 146(sp)
	lbu	a3, 147(sp)
	xor	s1, a0, s4
	xor	s8, a1, s9
	xor	a2, a2, s7
	xor	a1, a3, s6
	lbu	a3, 148(sp)
	lbu	a4, 149(sp)
	lbu	a5, 150(sp)
	lbu	a0, 151(sp)
	xor	a3, a3, t3
	xor	a4, a4, t2
	xor	a5, a5, t5
	xor	a0, a0, t4
	lbu	t5, 60(s0)
	lbu	t4, 61(s0)
	lbu	t3, 62(s0)
	lbu	t2, 63(s0)
	sb	a3, 44(s0)
	sb	a4, 45(s0)
	sb	a5, 46(s0)
	sb	a0, 47(s0)
	lbu	s9, 56(s0)
	lbu	s7, 57(s0)
	lbu	s4, 58(s0)
	lbu	s6, 59(s0)
	sb	s1, 40(s0)
	sb	s8, 41(s0)
	sb	a2, 42(s0)
	sb	a1, 43(s0)
	lbu	s8, 52(s0)
	lbu	s10, 53(s0)
	lbu	ra, 54(s0)
	lbu	s11, 55(s0)
	sb	s5, 36(s0)
	sb	s2, 37(s0)
	sb	s3, 38(s0)
	sb	t6, 39(s0)
	lbu	t6, 48(s0)
	lbu	a4, 49(s0)
	lbu	a5, 50(s0)
	lbu	a0, 51(s0)
	sb	a6, 32(s0)
	sb	a7, 33(s0)
	sb	t0, 34(s0)
	sb	t1, 35(s0)
	lbu	a1, 152(sp)
	lbu	a3, 153(sp)
	lbu	s1, 154(sp)
	lbu	a2, 155(sp)
	xor	t0, a1, t6
	xor	t1, a3, a4
	xor	a7, s1, a5
	xor	a6, a2, a0
	lbu	a0, 156(sp)
	lbu	a4, 157(sp)
	lbu	s1, 158(sp)
	lbu	a2, 159(sp)
	xor	t6, a0, s8
	xor	s3, a4, s10
	xor	s5, s1, ra
	xor	s2, a2, s11
	lbu	a5, 160(sp)
	lbu	a1, 161(sp)
	lbu	a3, 162(sp)
	lbu	a0, 163(sp)
	xor	a5, a5, s9
	xor	a1, a1, s7
	xor	a3, a3, s4
	xor	s4, a0, s6
	lbu	a2, 164(sp)
	lbu	a4, 165(sp)
	lbu	s1, 166(sp)
	lbu	a0, 167(sp)
	xor	a2, a2, t5
	xor	a4, a4, t4
	xor	s1, s1, t3
	xor	a0, a0, t2
	sb	a2, 60(s0)
	ld	a2, 80(sp)                      # 8-byte Folded Reload
	sb	a4, 61(s0)
	ld	a4, 72(sp)                      # 8-byte Folded Reload
	sb	s1, 62(s0)
	sb	a0, 63(s0)
	sb	a5, 56(s0)
	sb	a1, 57(s0)
	sb	a3, 58(s0)
	sb	s4, 59(s0)
	sb	t6, 52(s0)
	sb	s3, 53(s0)
	ld	s3, 40(sp)                      # 8-byte Folded Reload
	ld	s1, 48(sp)                      # 8-byte Folded Reload
	sb	s5, 54(s0)
	sb	s2, 55(s0)
	sb	t0, 48(s0)
	sb	t1, 49(s0)
	addi	a2, a2, -64
	addi	a4, a4, 64
	sb	a7, 50(s0)
	li	a0, 63
	sb	a6, 51(s0)
	add	a1, s3, a2
	addi	s0, s0, 64
	bltu	a0, a1, .Laes_narrow_BB7_7
# %bb.8:                                # %loop.13.preheader.i.i.loopexit
	neg	a3, a2
	ld	s0, 16(sp)                      # 8-byte Folded Reload
	ld	s2, 8(sp)                       # 8-byte Folded Reload
	bltu	a3, s3, .Laes_narrow_BB7_3
	j	.Laes_narrow_BB7_4
.Laes_narrow_func_end7:
	.size	aes_narrow.aes_narrow.borrowed_words.call_to_encrypt, .Laes_narrow_func_end7-aes_narrow.aes_narrow.borrowed_words.call_to_encrypt
                                        # -- End function
	.section	.text.aes_narrow.aes_ctr.add_in_batches.add_next,"ax",@progbits
	.p2align	1                               # -- Begin function aes_ctr::add_in_batches::add_next::<#8dcac0e3988224e6>
	.type	aes_narrow.aes_ctr.add_in_batches.add_next,@function
aes_narrow.aes_ctr.add_in_batches.add_next: # @aes_narrow.aes_ctr.add_in_batches.add_next
# %bb.0:                                # %start
	addi	sp, sp, -416
	sd	ra, 408(sp)                     # 8-byte Folded Spill
	sd	s0, 400(sp)                     # 8-byte Folded Spill
	sd	s1, 392(sp)                     # 8-byte Folded Spill
	sd	s2, 384(sp)                     # 8-byte Folded Spill
	sd	s3, 376(sp)                     # 8-byte Folded Spill
	sd	s4, 368(sp)                     # 8-byte Folded Spill
	sd	s5, 360(sp)                     # 8-byte Folded Spill
	sd	s6, 352(sp)                     # 8-byte Folded Spill
	sd	s7, 344(sp)                     # 8-byte Folded Spill
	sd	s8, 336(sp)                     # 8-byte Folded Spill
	sd	s9, 328(sp)                     # 8-byte Folded Spill
	sd	s10, 320(sp)                    # 8-byte Folded Spill
	sd	s11, 312(sp)                    # 8-byte Folded Spill
	sd	a4, 24(sp)                      # 8-byte Folded Spill
	mv	s0, a1
	add	a2, a2, a3
	li	a1, 64
	andi	a4, a2, 15
	sub	a1, a1, a4
	sd	a3, 40(sp)                      # 8-byte Folded Spill
	sd	a5, 8(sp)                       # 8-byte Folded Spill
	sub	s8, a5, a3
	mv	s11, a0
	bltu	s8, a1, .Laes_narrow_BB8_2
# %bb.1:                                # %start
	mv	s8, a1
.Laes_narrow_BB8_2:                                # %start
	sd	s8, 32(sp)                      # 8-byte Folded Spill
	sd	a4, 48(sp)                      # 8-byte Folded Spill
	add	s8, s8, a4
	srli	s5, a2, 4
	addi	s8, s8, 15
	addi	a0, sp, 120
	li	a2, 192
	li	a1, 0
	la	t1, memset
	jalr	t1
	lbu	a0, 0(s0)
	lbu	t4, 1(s0)
	lbu	t1, 2(s0)
	lbu	a5, 3(s0)
	lbu	a3, 8(s0)
	lbu	t2, 9(s0)
	lbu	t3, 10(s0)
	lbu	ra, 11(s0)
	lbu	a2, 4(s0)
	lbu	t5, 5(s0)
	lbu	t6, 6(s0)
	lbu	s6, 7(s0)
	lbu	a1, 12(s0)
	lbu	t0, 13(s0)
	lbu	a7, 14(s0)
	lbu	a4, 15(s0)
	sd	a4, 16(sp)                      # 8-byte Folded Spill
	lui	a6, 4080
	lbu	s0, 0(s11)
	lbu	a4, 1(s11)
	lbu	s2, 2(s11)
	lbu	s3, 3(s11)
	slli	a2, a2, 32
	slli	a5, a5, 24
	or	a5, a5, a2
	lbu	a2, 4(s11)
	lbu	s4, 5(s11)
	lbu	s7, 6(s11)
	lbu	s9, 7(s11)
	slli	s10, a1, 32
	slli	ra, ra, 24
	slli	a1, a4, 8
	slli	s2, s2, 16
	slli	s3, s3, 24
	slli	s4, s4, 8
	or	s10, ra, s10
	or	a1, a1, s0
	or	s3, s3, s2
	or	s2, s4, a2
	lbu	a4, 8(s11)
	lbu	a2, 9(s11)
	lbu	s0, 10(s11)
	lbu	s1, 11(s11)
	slli	s7, s7, 16
	slli	s9, s9, 24
	slli	a2, a2, 8
	slli	s0, s0, 16
	slli	s1, s1, 24
	or	s4, s9, s7
	or	s7, a2, a4
	or	s9, s1, s0
	lbu	a4, 13(s11)
	lbu	s1, 12(s11)
	lbu	a2, 14(s11)
	lbu	s0, 15(s11)
	slli	a4, a4, 8
	or	s11, a4, s1
	lui	s1, 16
	andi	ra, s8, 240
	slli	a2, a2, 16
	slli	s0, s0, 24
	or	a2, a2, s0
	li	s0, 255
	slli	s0, s0, 24
	addi	s1, s1, -256
	slli	t6, t6, 48
	slli	t5, t5, 40
	slli	t1, t1, 16
	slli	t4, t4, 8
	slli	a7, a7, 48
	slli	t0, t0, 40
	slli	t3, t3, 16
	slli	t2, t2, 8
	or	a4, t4, a0
	slli	t4, a0, 56
	or	a0, t2, a3
	slli	t2, a3, 56
	or	a4, a4, t1
	or	a0, a0, t3
	or	t3, s3, a1
	or	a3, s4, s2
	or	t1, s9, s7
	or	a2, a2, s11
	or	a5, a5, a4
	or	a1, a0, s10
	and	a4, a4, s1
	and	a0, a0, s1
	slli	s3, a3, 32
	slli	s2, a2, 32
	or	a2, a5, t5
	or	a3, a1, t0
	srli	t0, a5, 8
	and	a5, a5, a6
	slli	s9, a4, 40
	srli	t5, a1, 8
	and	s7, a1, a6
	slli	s4, a0, 40
	or	s8, s3, t3
	or	a1, a2, t6
	or	a4, a3, a7
	and	a7, t0, s0
	srli	a2, a2, 24
	slli	t3, a5, 24
	or	t0, t4, s9
	and	t4, t5, s0
	srli	a3, a3, 24
	slli	s7, s7, 24
	or	t2, t2, s4
	and	a2, a2, a6
	srli	a5, a1, 40
	srliw	a1, a1, 24
	and	a3, a3, a6
	srli	s0, a4, 40
	srliw	a4, a4, 24
	or	a2, a7, a2
	and	a5, a5, s1
	slli	a1, a1, 32
	or	a3, t4, a3
	and	s0, s0, s1
	slli	a4, a4, 32
	or	a5, a5, s6
	or	a1, t3, a1
	ld	s1, 16(sp)                      # 8-byte Folded Reload
	or	s1, s1, s0
	or	a4, s7, a4
	or	a2, a2, a5
	or	a1, t0, a1
	or	a3, a3, s1
	or	a4, t2, a4
	or	t0, a1, a2
	or	a3, a3, a4
	add	a2, a3, s5
	sltu	a5, a2, a3
	srli	a6, a2, 8
	srli	a7, a2, 16
	srli	t2, a2, 24
	srli	t3, a2, 32
	srli	t4, a2, 40
	srli	a3, a2, 48
	srli	s0, a2, 56
	addi	a1, a2, 1
	addi	a4, a2, 2
	addi	s1, a2, 3
	add	a5, a5, t0
	sb	s0, 64(sp)
	sb	a3, 65(sp)
	sb	t4, 66(sp)
	sb	t3, 67(sp)
	sb	t2, 68(sp)
	sb	a7, 69(sp)
	sb	a6, 70(sp)
	sb	a2, 71(sp)
	seqz	a6, a1
	srli	a7, a1, 8
	srli	t0, a1, 16
	srli	t2, a1, 24
	srli	t3, a1, 32
	srli	t4, a1, 40
	srli	a3, a1, 48
	srli	s0, a1, 56
	sltu	t5, a4, a2
	srli	t6, a4, 8
	srli	s3, a4, 16
	srli	s4, a4, 24
	srli	s7, a4, 32
	srli	s9, a4, 40
	srli	s10, a4, 48
	srli	s11, a4, 56
	sltu	a2, s1, a2
	srli	s5, s1, 8
	srli	s6, s1, 16
	sb	s0, 80(sp)
	srli	a0, s1, 24
	sb	a3, 81(sp)
	srli	a3, s1, 32
	sb	t4, 82(sp)
	srli	t4, s1, 40
	sb	t3, 83(sp)
	srli	t3, s1, 48
	sb	t2, 84(sp)
	srli	t2, s1, 56
	sb	t0, 85(sp)
	srli	t0, a5, 8
	sb	a7, 86(sp)
	srli	a7, a5, 16
	sb	a1, 87(sp)
	srli	a1, a5, 24
	sb	s11, 96(sp)
	srli	s11, a5, 32
	sb	s10, 97(sp)
	srli	s10, a5, 40
	sb	s9, 98(sp)
	srli	s9, a5, 48
	sb	s7, 99(sp)
	srli	s7, a5, 56
	add	a6, a6, a5
	add	s0, a5, t5
	sb	s4, 100(sp)
	sb	s3, 101(sp)
	sb	t6, 102(sp)
	sb	a4, 103(sp)
	add	a4, a5, a2
	sb	t2, 112(sp)
	sb	t3, 113(sp)
	sb	t4, 114(sp)
	sb	a3, 115(sp)
	sb	a0, 116(sp)
	sb	s6, 117(sp)
	sb	s5, 118(sp)
	sb	s1, 119(sp)
	sb	s7, 56(sp)
	sb	s9, 57(sp)
	sb	s10, 58(sp)
	sb	s11, 59(sp)
	sb	a1, 60(sp)
	sb	a7, 61(sp)
	sb	t0, 62(sp)
	sb	a5, 63(sp)
	srli	a7, a6, 8
	srli	t4, a6, 16
	srli	t6, a6, 24
	srli	a3, a6, 32
	srli	a5, a6, 40
	srli	s1, a6, 48
	srli	a0, a6, 56
	srli	t0, s0, 8
	srli	t2, s0, 16
	srli	t3, s0, 24
	srli	t5, s0, 32
	srli	s3, s0, 40
	srli	a2, s0, 48
	srli	a1, s0, 56
	srli	s4, a4, 8
	srli	s5, a4, 16
	srli	s6, a4, 24
	srli	s7, a4, 32
	srli	s9, a4, 40
	sb	a0, 72(sp)
	sb	s1, 73(sp)
	sb	a5, 74(sp)
	sb	a3, 75(sp)
	srli	a0, a4, 48
	sb	t6, 76(sp)
	sb	t4, 77(sp)
	sb	a7, 78(sp)
	sb	a6, 79(sp)
	srli	a3, a4, 56
	sb	a1, 88(sp)
	sb	a2, 89(sp)
	sb	s3, 90(sp)
	sb	t5, 91(sp)
	sb	t3, 92(sp)
	sb	t2, 93(sp)
	sb	t0, 94(sp)
	sb	s0, 95(sp)
	sb	a3, 104(sp)
	sb	a0, 105(sp)
	sb	s9, 106(sp)
	sb	s7, 107(sp)
	sb	s6, 108(sp)
	sb	s5, 109(sp)
	sb	s4, 110(sp)
	sb	a4, 111(sp)
	or	a1, s2, t1
	addi	a2, sp, 56
	li	a0, 16
	bne	ra, a0, .Laes_narrow_BB8_4
# %bb.3:                                # %then.1.i.i.i
	li	a3, 1
	j	.Laes_narrow_BB8_5
.Laes_narrow_BB8_4:                                # %else.2.i.i.i
	li	a3, 4
.Laes_narrow_BB8_5:                                # %"aes_ctr::keystream::fill_by_backend::<#8dcac0e3988224e6>.exit"
	mv	a0, s8
	call	aes_narrow.aes_soft.soft.blocks.filled_up.process_filled_up.1
	ld	s11, 40(sp)                     # 8-byte Folded Reload
	ld	s2, 24(sp)                      # 8-byte Folded Reload
	add	s2, s2, s11
	ld	ra, 32(sp)                      # 8-byte Folded Reload
	ld	s1, 48(sp)                      # 8-byte Folded Reload
	beqz	s1, .Laes_narrow_BB8_18
# %bb.6:                                # %then.1.i
	li	a0, 16
	sub	a0, a0, s1
	mv	a1, ra
	bltu	ra, a0, .Laes_narrow_BB8_8
# %bb.7:                                # %then.1.i
	mv	a1, a0
.Laes_narrow_BB8_8:                                # %then.1.i
	ld	a0, 8(sp)                       # 8-byte Folded Reload
	beq	a0, s11, .Laes_narrow_BB8_11
# %bb.9:                                # %join.8.i80.lr.ph
	addi	a2, sp, 56
	add	a3, a1, s1
	add	a0, a2, s1
	add	a2, a2, a3
	mv	a3, s2
.Laes_narrow_BB8_10:                               # %join.8.i80
                                        # =>This Inner Loop Header: Depth=1
	lbu	a4, 0(a0)
	lbu	a5, 0(a3)
	addi	a0, a0, 1
	xor	a4, a4, a5
	sb	a4, 0(a3)
	addi	a3, a3, 1
	bne	a0, a2, .Laes_narrow_BB8_10
.Laes_narrow_BB8_11:                               # %join.3.i
	sub	s6, ra, a1
	li	a2, 16
	bltu	s6, a2, .Laes_narrow_BB8_13
.Laes_narrow_BB8_12:                               # %join.8.i
                                        # =>This Inner Loop Header: Depth=1
	add	a3, s1, a1
	addi	a6, sp, 56
	add	a2, s2, a1
	andi	a3, a3, -16
	lbu	t2, 8(a2)
	lbu	t1, 9(a2)
	lbu	t0, 10(a2)
	lbu	a7, 11(a2)
	lbu	t6, 4(a2)
	lbu	t4, 5(a2)
	lbu	t5, 6(a2)
	lbu	t3, 7(a2)
	lbu	a5, 0(a2)
	lbu	s4, 1(a2)
	lbu	s5, 2(a2)
	lbu	s3, 3(a2)
	add	a3, a3, a6
	lbu	a4, 0(a3)
	lbu	s8, 1(a3)
	lbu	s1, 2(a3)
	lbu	s7, 3(a3)
	xor	a6, a4, a5
	lbu	a5, 4(a3)
	lbu	a4, 5(a3)
	lbu	a0, 6(a3)
	lbu	s0, 7(a3)
	xor	s4, s8, s4
	xor	s5, s1, s5
	xor	s3, s7, s3
	xor	t6, a5, t6
	lbu	s1, 8(a3)
	lbu	a5, 9(a3)
	lbu	s7, 10(a3)
	lbu	s8, 11(a3)
	xor	s9, a4, t4
	xor	t4, a0, t5
	xor	t3, s0, t3
	xor	t2, s1, t2
	lbu	t5, 12(a2)
	lbu	s10, 13(a2)
	lbu	s0, 14(a2)
	lbu	s1, 15(a2)
	xor	t1, a5, t1
	xor	t0, s7, t0
	xor	a7, s8, a7
	lbu	a5, 12(a3)
	lbu	a0, 13(a3)
	lbu	a4, 14(a3)
	lbu	a3, 15(a3)
	xor	a5, a5, t5
	xor	a0, a0, s10
	xor	a4, a4, s0
	xor	a3, a3, s1
	sb	a5, 12(a2)
	sb	a0, 13(a2)
	sb	a4, 14(a2)
	sb	a3, 15(a2)
	sb	t2, 8(a2)
	sb	t1, 9(a2)
	sb	t0, 10(a2)
	sb	a7, 11(a2)
	sb	t6, 4(a2)
	sb	s9, 5(a2)
	sb	t4, 6(a2)
	sb	t3, 7(a2)
	sb	a6, 0(a2)
	ld	s1, 48(sp)                      # 8-byte Folded Reload
	sb	s4, 1(a2)
	sb	s5, 2(a2)
	sb	s3, 3(a2)
	addi	s6, s6, -16
	li	a0, 15
	addi	a1, a1, 16
	bltu	a0, s6, .Laes_narrow_BB8_12
.Laes_narrow_BB8_13:                               # %after.4.i
	bgeu	a1, ra, .Laes_narrow_BB8_17
# %bb.14:                               # %then.9.i
	beqz	s6, .Laes_narrow_BB8_17
# %bb.15:                               # %join.8.i23.preheader
	add	a0, a1, s1
	addi	a3, sp, 56
	add	a1, a1, s2
	andi	a0, a0, -16
	add	a2, a3, a0
	add	a0, a0, s6
	add	a0, a0, a3
.Laes_narrow_BB8_16:                               # %join.8.i23
                                        # =>This Inner Loop Header: Depth=1
	lbu	a3, 0(a2)
	lbu	a4, 0(a1)
	addi	a2, a2, 1
	xor	a3, a3, a4
	sb	a3, 0(a1)
	addi	a1, a1, 1
	bne	a2, a0, .Laes_narrow_BB8_16
.Laes_narrow_BB8_17:                               # %"aes_ctr::add_blocks::add_blocks.exit"
	add	a0, ra, s11
	ld	ra, 408(sp)                     # 8-byte Folded Reload
	ld	s0, 400(sp)                     # 8-byte Folded Reload
	ld	s1, 392(sp)                     # 8-byte Folded Reload
	ld	s2, 384(sp)                     # 8-byte Folded Reload
	ld	s3, 376(sp)                     # 8-byte Folded Reload
	ld	s4, 368(sp)                     # 8-byte Folded Reload
	ld	s5, 360(sp)                     # 8-byte Folded Reload
	ld	s6, 352(sp)                     # 8-byte Folded Reload
	ld	s7, 344(sp)                     # 8-byte Folded Reload
	ld	s8, 336(sp)                     # 8-byte Folded Reload
	ld	s9, 328(sp)                     # 8-byte Folded Reload
	ld	s10, 320(sp)                    # 8-byte Folded Reload
	ld	s11, 312(sp)                    # 8-byte Folded Reload
	addi	sp, sp, 416
	ret
.Laes_narrow_BB8_18:
	li	a1, 0
	mv	s6, ra
	li	a2, 16
	bgeu	ra, a2, .Laes_narrow_BB8_12
	j	.Laes_narrow_BB8_13
.Laes_narrow_func_end8:
	.size	aes_narrow.aes_ctr.add_in_batches.add_next, .Laes_narrow_func_end8-aes_narrow.aes_ctr.add_in_batches.add_next
                                        # -- End function
	.section	.text.aes_narrow.aes_cipher.zeroize.stack.wipe_stack.2032,"ax",@progbits
	.p2align	1                               # -- Begin function aes_cipher::zeroize::stack::wipe_stack::<=2032>
	.type	aes_narrow.aes_cipher.zeroize.stack.wipe_stack.2032,@function
aes_narrow.aes_cipher.zeroize.stack.wipe_stack.2032: # @aes_narrow.aes_cipher.zeroize.stack.wipe_stack.2032
# %bb.0:                                # %start
	addi	sp, sp, -496
	sd	ra, 488(sp)                     # 8-byte Folded Spill
	sd	s0, 480(sp)                     # 8-byte Folded Spill
	sd	s1, 472(sp)                     # 8-byte Folded Spill
	addi	sp, sp, -1584
	addi	s0, sp, 24
	addi	a0, sp, 24
	li	a2, 2032
	li	s1, 2032
	li	a1, 0
	la	t1, memset
	jalr	t1
	sd	zero, 16(sp)
	#APP
	#NO_APP
	fence	rw, rw
	ld	a0, 16(sp)
	fence	r, rw
	#APP
	#NO_APP
	bgeu	a0, s1, .Laes_narrow_BB9_2
# %bb.1:                                # %then.1
	add	a0, a0, s0
	lbu	a0, 0(a0)
	#APP
	#NO_APP
	addi	a1, sp, 16
	amoswap.d.aqrl	zero, a0, (a1)
	#APP
	#NO_APP
.Laes_narrow_BB9_2:                                # %common.ret
	addi	sp, sp, 1584
	ld	ra, 488(sp)                     # 8-byte Folded Reload
	ld	s0, 480(sp)                     # 8-byte Folded Reload
	ld	s1, 472(sp)                     # 8-byte Folded Reload
	addi	sp, sp, 496
	ret
.Laes_narrow_func_end9:
	.size	aes_narrow.aes_cipher.zeroize.stack.wipe_stack.2032, .Laes_narrow_func_end9-aes_narrow.aes_cipher.zeroize.stack.wipe_stack.2032
                                        # -- End function
	.section	.text.aes_narrow.aes_cipher.zeroize.elements.zeroize_elements.1,"ax",@progbits
	.p2align	1                               # -- Begin function aes_cipher::zeroize::elements::zeroize_elements::<#dc00545c7fcbb52d>
	.type	aes_narrow.aes_cipher.zeroize.elements.zeroize_elements.1,@function
aes_narrow.aes_cipher.zeroize.elements.zeroize_elements.1: # @aes_narrow.aes_cipher.zeroize.elements.zeroize_elements.1
# %bb.0:                                # %start
	addi	sp, sp, -32
	sd	ra, 24(sp)                      # 8-byte Folded Spill
	sd	s0, 16(sp)                      # 8-byte Folded Spill
	sd	s1, 8(sp)                       # 8-byte Folded Spill
	sd	zero, 0(sp)
	#APP
	#NO_APP
	fence	rw, rw
	ld	a1, 0(sp)
	fence	r, rw
	#APP
	#NO_APP
	li	a2, 120
	bgeu	a1, a2, .Laes_narrow_BB10_2
# %bb.1:                                # %then.1.i
	slli	a1, a1, 3
	add	s0, a0, a1
	lbu	s1, 0(s0)
	li	a2, 960
	li	a1, 0
	la	t1, memset
	jalr	t1
	lbu	a0, 0(s0)
	and	a0, a0, s1
	j	.Laes_narrow_BB10_3
.Laes_narrow_BB10_2:                               # %"aes_cipher::zeroize::observe::<#5fa2a95c26537284>.exit11"
	li	a2, 960
	li	a1, 0
	la	t1, memset
	jalr	t1
	li	a0, 0
.Laes_narrow_BB10_3:                               # %"aes_cipher::zeroize::observe::<#5fa2a95c26537284>.exit"
	#APP
	#NO_APP
	mv	a1, sp
	amoswap.d.aqrl	zero, a0, (a1)
	#APP
	#NO_APP
	ld	ra, 24(sp)                      # 8-byte Folded Reload
	ld	s0, 16(sp)                      # 8-byte Folded Reload
	ld	s1, 8(sp)                       # 8-byte Folded Reload
	addi	sp, sp, 32
	li	a1, 0
	li	a2, 0
	li	a3, 0
	li	a4, 0
	li	a5, 0
	li	a6, 0
	li	a7, 0
	li	t0, 0
	li	t1, 0
	li	t2, 0
	li	t3, 0
	li	t4, 0
	li	t5, 0
	li	t6, 0
	ret
.Laes_narrow_func_end10:
	.size	aes_narrow.aes_cipher.zeroize.elements.zeroize_elements.1, .Laes_narrow_func_end10-aes_narrow.aes_cipher.zeroize.elements.zeroize_elements.1
                                        # -- End function
	.section	.text.aes_narrow.cmac.tags.tag,"ax",@progbits
	.p2align	1                               # -- Begin function cmac::tags::tag::<#f7269deedbd939eb>
	.type	aes_narrow.cmac.tags.tag,@function
aes_narrow.cmac.tags.tag: # @aes_narrow.cmac.tags.tag
# %bb.0:                                # %start
	addi	sp, sp, -176
	sd	ra, 168(sp)                     # 8-byte Folded Spill
	sd	s0, 160(sp)                     # 8-byte Folded Spill
	sd	s1, 152(sp)                     # 8-byte Folded Spill
	sd	s2, 144(sp)                     # 8-byte Folded Spill
	sd	s3, 136(sp)                     # 8-byte Folded Spill
	sd	s4, 128(sp)                     # 8-byte Folded Spill
	sd	s5, 120(sp)                     # 8-byte Folded Spill
	sd	s6, 112(sp)                     # 8-byte Folded Spill
	sd	s7, 104(sp)                     # 8-byte Folded Spill
	sd	s8, 96(sp)                      # 8-byte Folded Spill
	sd	s9, 88(sp)                      # 8-byte Folded Spill
	sd	s10, 80(sp)                     # 8-byte Folded Spill
	sd	s11, 72(sp)                     # 8-byte Folded Spill
	sd	a2, 16(sp)                      # 8-byte Folded Spill
	mv	s1, a1
	sd	a0, 8(sp)                       # 8-byte Folded Spill
	snez	a0, a3
	sd	a3, 0(sp)                       # 8-byte Folded Spill
	sub	a0, a3, a0
	andi	s5, a0, -16
	sd	zero, 24(sp)
	sd	zero, 32(sp)
	beqz	s5, .Laes_narrow_BB11_5
# %bb.1:                                # %join.5.lr.ph.i
	li	s6, 0
	srli	s7, a0, 4
	li	s10, 16
	ld	s8, 16(sp)                      # 8-byte Folded Reload
	j	.Laes_narrow_BB11_3
.Laes_narrow_BB11_2:                               # %join.5.i
                                        #   in Loop: Header=BB11_3 Depth=1
	add	a2, a2, s6
	sd	zero, 56(sp)
	sd	zero, 64(sp)
	addi	a0, sp, 56
	mv	a1, s8
	la	t1, memcpy
	jalr	t1
	lbu	t0, 28(sp)
	lbu	t1, 29(sp)
	lbu	t2, 30(sp)
	lbu	t3, 31(sp)
	lbu	t4, 32(sp)
	lbu	t5, 33(sp)
	lbu	t6, 34(sp)
	lbu	s9, 35(sp)
	lbu	s11, 36(sp)
	lbu	ra, 37(sp)
	lbu	a0, 38(sp)
	lbu	a1, 39(sp)
	lbu	a2, 68(sp)
	lbu	a3, 69(sp)
	lbu	s0, 70(sp)
	lbu	a4, 71(sp)
	lbu	a5, 64(sp)
	lbu	s2, 65(sp)
	lbu	s3, 66(sp)
	lbu	s4, 67(sp)
	xor	a6, a4, a1
	xor	a7, s0, a0
	xor	ra, a3, ra
	xor	s11, a2, s11
	lbu	a2, 60(sp)
	lbu	a3, 61(sp)
	lbu	a4, 62(sp)
	lbu	s0, 63(sp)
	xor	s4, s4, s9
	xor	t6, s3, t6
	xor	t5, s2, t5
	xor	t4, a5, t4
	lbu	s2, 24(sp)
	lbu	s3, 25(sp)
	lbu	a5, 26(sp)
	lbu	a1, 27(sp)
	xor	t3, s0, t3
	xor	t2, a4, t2
	xor	t1, a3, t1
	xor	a2, a2, t0
	lbu	s0, 59(sp)
	lbu	a4, 58(sp)
	lbu	a3, 57(sp)
	lbu	a0, 56(sp)
	xor	a1, a1, s0
	xor	a4, a4, a5
	xor	a3, a3, s3
	xor	a0, a0, s2
	sb	a0, 24(sp)
	sb	a3, 25(sp)
	sb	a4, 26(sp)
	sb	a1, 27(sp)
	sb	a2, 28(sp)
	sb	t1, 29(sp)
	sb	t2, 30(sp)
	sb	t3, 31(sp)
	sb	t4, 32(sp)
	sb	t5, 33(sp)
	lbu	a0, 0(s1)
	lbu	a1, 1(s1)
	lbu	a2, 2(s1)
	lbu	a3, 3(s1)
	sb	t6, 34(sp)
	sb	s4, 35(sp)
	sb	s11, 36(sp)
	sb	ra, 37(sp)
	lbu	t0, 4(s1)
	lbu	a5, 5(s1)
	lbu	s0, 6(s1)
	lbu	a4, 7(s1)
	slli	a1, a1, 8
	slli	a2, a2, 16
	slli	a3, a3, 24
	sb	a7, 38(sp)
	sb	a6, 39(sp)
	or	a6, a1, a0
	or	a7, a3, a2
	lbu	a1, 8(s1)
	lbu	a3, 9(s1)
	lbu	a0, 10(s1)
	lbu	a2, 11(s1)
	slli	a5, a5, 8
	slli	s0, s0, 16
	slli	a4, a4, 24
	slli	a3, a3, 8
	slli	a0, a0, 16
	slli	a2, a2, 24
	or	t0, a5, t0
	or	a4, a4, s0
	or	a1, a1, a3
	or	a0, a0, a2
	lbu	a2, 13(s1)
	lbu	a3, 12(s1)
	lbu	s0, 14(s1)
	lbu	a5, 15(s1)
	slli	a2, a2, 8
	or	a2, a2, a3
	slli	s0, s0, 16
	slli	a5, a5, 24
	or	a5, a5, s0
	or	a3, a7, a6
	or	a4, a4, t0
	or	a1, a1, a0
	or	a2, a2, a5
	slli	a0, a4, 32
	or	a0, a0, a3
	slli	a2, a2, 32
	or	a1, a1, a2
	addi	a2, sp, 24
	li	a3, 1
	call	aes_narrow.aes_narrow.blocks.process_all_batches.1
	call	aes_narrow.aes_cipher.zeroize.stack.wipe_stack.1024
	addi	s7, s7, -1
	addi	s10, s10, 16
	addi	s6, s6, -16
	addi	s8, s8, 16
	beqz	s7, .Laes_narrow_BB11_5
.Laes_narrow_BB11_3:                               # %join.5.i
                                        # =>This Inner Loop Header: Depth=1
	mv	a2, s10
	bltu	s10, s5, .Laes_narrow_BB11_2
# %bb.4:                                # %join.5.i
                                        #   in Loop: Header=BB11_3 Depth=1
	mv	a2, s5
	j	.Laes_narrow_BB11_2
.Laes_narrow_BB11_5:                               # %"cmac::chaining::chain::<#f7269deedbd939eb>.exit"
	ld	a3, 16(sp)                      # 8-byte Folded Reload
	add	a3, a3, s5
	ld	a0, 0(sp)                       # 8-byte Folded Reload
	sub	a4, a0, s5
	addi	a0, sp, 40
	addi	a2, sp, 24
	mv	a1, s1
	call	aes_narrow.cmac.tags.tag_at_end
	addi	a1, sp, 40
	li	a2, 16
	ld	a0, 8(sp)                       # 8-byte Folded Reload
	la	t1, memcpy
	jalr	t1
	ld	ra, 168(sp)                     # 8-byte Folded Reload
	ld	s0, 160(sp)                     # 8-byte Folded Reload
	ld	s1, 152(sp)                     # 8-byte Folded Reload
	ld	s2, 144(sp)                     # 8-byte Folded Reload
	ld	s3, 136(sp)                     # 8-byte Folded Reload
	ld	s4, 128(sp)                     # 8-byte Folded Reload
	ld	s5, 120(sp)                     # 8-byte Folded Reload
	ld	s6, 112(sp)                     # 8-byte Folded Reload
	ld	s7, 104(sp)                     # 8-byte Folded Reload
	ld	s8, 96(sp)                      # 8-byte Folded Reload
	ld	s9, 88(sp)                      # 8-byte Folded Reload
	ld	s10, 80(sp)                     # 8-byte Folded Reload
	ld	s11, 72(sp)                     # 8-byte Folded Reload
	addi	sp, sp, 176
	ret
.Laes_narrow_func_end11:
	.size	aes_narrow.cmac.tags.tag, .Laes_narrow_func_end11-aes_narrow.cmac.tags.tag
                                        # -- End function
	.section	.text.aes_narrow.cmac.tags.tag_at_end,"ax",@progbits
	.p2align	1                               # -- Begin function cmac::tags::tag_at_end::<#f7269deedbd939eb>
	.type	aes_narrow.cmac.tags.tag_at_end,@function
aes_narrow.cmac.tags.tag_at_end: # @aes_narrow.cmac.tags.tag_at_end
# %bb.0:                                # %start
	addi	sp, sp, -240
	sd	ra, 232(sp)                     # 8-byte Folded Spill
	sd	s0, 224(sp)                     # 8-byte Folded Spill
	sd	s1, 216(sp)                     # 8-byte Folded Spill
	sd	s2, 208(sp)                     # 8-byte Folded Spill
	sd	s3, 200(sp)                     # 8-byte Folded Spill
	sd	s4, 192(sp)                     # 8-byte Folded Spill
	sd	s5, 184(sp)                     # 8-byte Folded Spill
	sd	s6, 176(sp)                     # 8-byte Folded Spill
	sd	s7, 168(sp)                     # 8-byte Folded Spill
	sd	s8, 160(sp)                     # 8-byte Folded Spill
	sd	s9, 152(sp)                     # 8-byte Folded Spill
	sd	s10, 144(sp)                    # 8-byte Folded Spill
	sd	s11, 136(sp)                    # 8-byte Folded Spill
	sd	a4, 88(sp)                      # 8-byte Folded Spill
	sd	a3, 80(sp)                      # 8-byte Folded Spill
	mv	s10, a2
	mv	s5, a1
	sd	a0, 96(sp)                      # 8-byte Folded Spill
	lbu	a0, 0(a1)
	lbu	a1, 1(a1)
	lbu	a2, 2(s5)
	lbu	a3, 3(s5)
	lbu	a6, 4(s5)
	lbu	a5, 5(s5)
	lbu	s0, 6(s5)
	lbu	a4, 7(s5)
	slli	a1, a1, 8
	slli	a2, a2, 16
	slli	a3, a3, 24
	or	a7, a1, a0
	or	t0, a3, a2
	lbu	a1, 8(s5)
	lbu	a3, 9(s5)
	lbu	a0, 10(s5)
	lbu	a2, 11(s5)
	slli	a5, a5, 8
	slli	s0, s0, 16
	slli	a4, a4, 24
	slli	a3, a3, 8
	slli	a0, a0, 16
	slli	a2, a2, 24
	or	a6, a5, a6
	or	a4, a4, s0
	or	a1, a1, a3
	or	a0, a0, a2
	lbu	a2, 13(s5)
	lbu	a3, 12(s5)
	lbu	s0, 14(s5)
	lbu	a5, 15(s5)
	slli	a2, a2, 8
	or	a2, a2, a3
	slli	s0, s0, 16
	slli	a5, a5, 24
	or	a5, a5, s0
	or	a3, t0, a7
	or	a4, a4, a6
	or	a1, a1, a0
	or	a2, a2, a5
	slli	a0, a4, 32
	slli	a2, a2, 32
	or	a0, a0, a3
	or	a1, a1, a2
	sd	zero, 120(sp)
	sd	zero, 128(sp)
	addi	a2, sp, 120
	li	a3, 1
	call	aes_narrow.aes_narrow.blocks.process_all_batches.1
	call	aes_narrow.aes_cipher.zeroize.stack.wipe_stack.1024
	ld	a0, 120(sp)
	ld	a1, 128(sp)
	lui	s6, 4080
	li	s7, 255
	lui	a2, 16
	slli	s1, s7, 24
	addi	s7, a2, -256
	srli	a7, a1, 24
	srli	t0, a1, 8
	srli	t1, a1, 40
	srli	a6, a1, 56
	and	t2, a1, s6
	srliw	t4, a1, 24
	and	t5, a1, s7
	slli	t6, a1, 56
	srli	s2, a0, 24
	srli	s3, a0, 8
	srli	s4, a0, 40
	srli	t3, a0, 56
	and	a5, a0, s6
	srliw	a2, a0, 24
	and	a1, a0, s7
	slli	s0, a0, 56
	and	a3, a7, s6
	and	a4, t0, s1
	and	a7, t1, s7
	slli	t2, t2, 24
	slli	t4, t4, 32
	slli	t5, t5, 40
	and	t0, s2, s6
	sd	s1, 8(sp)                       # 8-byte Folded Spill
	and	t1, s3, s1
	and	s3, s4, s7
	slli	s6, a5, 24
	slli	s9, a2, 32
	slli	s8, a1, 40
	or	s4, a4, a3
	srli	s2, t6, 63
	or	a4, a7, a6
	srai	a0, s0, 63
	or	a3, t2, t4
	or	a5, t6, t5
	or	a1, t1, t0
	or	a2, s3, t3
	or	s1, s6, s9
	or	s0, s0, s8
	andi	a0, a0, 135
	or	a4, s4, a4
	or	a5, a5, a3
	or	a1, a1, a2
	or	s0, s0, s1
	slli	s1, s1, 17
	slli	a3, a3, 17
	or	a4, a4, a5
	or	a1, a1, s0
	srli	s1, s1, 56
	sd	s1, 48(sp)                      # 8-byte Folded Spill
	srli	a3, a3, 56
	sd	a3, 72(sp)                      # 8-byte Folded Spill
	slli	a2, a1, 1
	slli	a1, a1, 49
	slli	a3, a4, 1
	slli	a4, a4, 49
	srli	s3, a2, 56
	srli	s9, a2, 48
	srli	a5, a2, 32
	sd	a5, 16(sp)                      # 8-byte Folded Spill
	srli	a1, a1, 56
	sd	a1, 64(sp)                      # 8-byte Folded Spill
	or	s4, a2, s2
	srli	s8, a3, 56
	srli	a1, a3, 48
	sd	a1, 24(sp)                      # 8-byte Folded Spill
	srli	a1, a3, 32
	sd	a1, 32(sp)                      # 8-byte Folded Spill
	srli	s1, a4, 56
	xor	s11, a0, a3
	srliw	s2, s4, 24
	srliw	s6, s4, 16
	srliw	a0, s11, 24
	sd	a0, 40(sp)                      # 8-byte Folded Spill
	srliw	a0, s11, 16
	sd	a0, 56(sp)                      # 8-byte Folded Spill
	sd	zero, 120(sp)
	sd	zero, 128(sp)
	addi	a0, sp, 120
	ld	a1, 80(sp)                      # 8-byte Folded Reload
	ld	s0, 88(sp)                      # 8-byte Folded Reload
	mv	a2, s0
	la	t1, memcpy
	jalr	t1
	li	a0, 16
	bne	s0, a0, .Laes_narrow_BB12_2
# %bb.1:                                # %then.1.i
	lbu	a0, 120(sp)
	lbu	a1, 121(sp)
	lbu	a2, 122(sp)
	lbu	a3, 123(sp)
	xor	a7, a0, s3
	xor	t1, a1, s9
	ld	a0, 48(sp)                      # 8-byte Folded Reload
	xor	a6, a2, a0
	ld	a0, 16(sp)                      # 8-byte Folded Reload
	xor	t4, a3, a0
	lbu	a0, 124(sp)
	lbu	a1, 125(sp)
	lbu	a2, 126(sp)
	lbu	a3, 127(sp)
	xor	t5, a0, s2
	xor	t6, a1, s6
	ld	a0, 64(sp)                      # 8-byte Folded Reload
	xor	s2, a2, a0
	xor	s3, a3, s4
	lbu	a0, 128(sp)
	lbu	a1, 129(sp)
	lbu	a2, 130(sp)
	lbu	a3, 131(sp)
	xor	s4, a0, s8
	ld	a0, 24(sp)                      # 8-byte Folded Reload
	xor	s7, a1, a0
	ld	a0, 72(sp)                      # 8-byte Folded Reload
	xor	t0, a2, a0
	ld	a0, 32(sp)                      # 8-byte Folded Reload
	xor	s9, a3, a0
	lbu	a0, 132(sp)
	lbu	a1, 133(sp)
	lbu	a2, 134(sp)
	mv	a3, s1
	lbu	s1, 135(sp)
	ld	s0, 40(sp)                      # 8-byte Folded Reload
	xor	s0, s0, a0
	ld	a0, 56(sp)                      # 8-byte Folded Reload
	xor	a1, a1, a0
	xor	a3, a3, a2
	xor	a2, s1, s11
	j	.Laes_narrow_BB12_3
.Laes_narrow_BB12_2:                               # %else.2.i
	addi	a0, sp, 120
	add	a6, a0, s0
	lbu	t0, 24(sp)                      # 8-byte Folded Reload
	ld	a2, 72(sp)                      # 8-byte Folded Reload
	slli	a2, a2, 16
	lbu	t1, 32(sp)                      # 8-byte Folded Reload
	ld	a7, 40(sp)                      # 8-byte Folded Reload
	slli	a7, a7, 32
	lbu	a5, 56(sp)                      # 8-byte Folded Reload
	slli	s11, s11, 56
	slli	s1, s1, 48
	zext.b	s0, s9
	ld	a0, 48(sp)                      # 8-byte Folded Reload
	slli	a0, a0, 16
	lbu	a4, 16(sp)                      # 8-byte Folded Reload
	slli	s2, s2, 32
	zext.b	a1, s6
	slli	s4, s4, 56
	ld	a3, 64(sp)                      # 8-byte Folded Reload
	slli	a3, a3, 48
	or	a2, s8, a2
	slli	s8, s8, 56
	or	t4, s11, s1
	slli	t6, s3, 56
	or	a0, s3, a0
	li	t2, 128
	slli	t0, t0, 8
	slli	t1, t1, 24
	slli	a5, a5, 40
	slli	s0, s0, 8
	slli	a4, a4, 24
	slli	a1, a1, 40
	or	s3, s4, a3
	srai	s1, t6, 63
	sb	t2, 0(a6)
	srli	t5, s8, 63
	or	a2, t0, a2
	or	a3, t1, a7
	or	a0, a0, s0
	or	a4, a4, s2
	andi	a6, s1, 135
	lbu	t3, 132(sp)
	lbu	t2, 133(sp)
	lbu	t0, 134(sp)
	lbu	s2, 135(sp)
	or	a3, a3, a2
	or	a4, a4, a0
	and	a2, a2, s7
	and	a0, a0, s7
	or	a5, a5, a3
	or	a1, a1, a4
	srli	s6, a3, 8
	lui	s1, 4080
	and	t1, a3, s1
	slli	a2, a2, 40
	or	a7, s8, a2
	srli	a2, a4, 8
	and	s4, a4, s1
	slli	a0, a0, 40
	or	a3, a5, t4
	or	s0, a1, s3
	ld	a4, 8(sp)                       # 8-byte Folded Reload
	and	s3, s6, a4
	srli	a5, a5, 24
	and	a2, a2, a4
	srli	a1, a1, 24
	or	t4, t6, a0
	srli	a0, a3, 40
	and	a5, a5, s1
	srli	a4, s0, 40
	and	a1, a1, s1
	xor	s6, s2, a6
	and	a0, a0, s7
	or	a5, s3, a5
	and	a4, a4, s7
	lbu	s2, 120(sp)
	lbu	t6, 121(sp)
	lbu	a6, 122(sp)
	lbu	s3, 123(sp)
	slli	t1, t1, 24
	slli	s4, s4, 24
	or	a1, a1, a2
	srli	a2, a3, 56
	srliw	a3, a3, 24
	or	a0, a0, a2
	srli	a2, s0, 56
	srliw	s0, s0, 24
	slli	a3, a3, 32
	slli	s0, s0, 32
	or	s8, t1, a3
	or	a2, a2, a4
	or	a3, s4, s0
	or	a0, a0, a5
	lbu	s9, 124(sp)
	lbu	a5, 125(sp)
	lbu	s7, 126(sp)
	lbu	s4, 127(sp)
	or	s0, a7, s8
	or	a1, a1, a2
	or	a2, t4, a3
	slli	a3, a3, 17
	or	a0, a0, s0
	or	a4, a2, a1
	srli	a3, a3, 56
	slli	a1, a4, 1
	xor	a6, a6, a3
	or	a3, a1, t5
	srliw	s0, a1, 16
	srliw	s1, a1, 24
	srli	a2, a1, 56
	xor	a7, s2, a2
	srli	a2, a1, 32
	srli	a1, a1, 48
	xor	t1, t6, a1
	xor	t4, s3, a2
	xor	t5, s9, s1
	xor	t6, a5, s0
	lbu	a1, 128(sp)
	lbu	a2, 129(sp)
	lbu	a5, 130(sp)
	lbu	s0, 131(sp)
	slli	a4, a4, 49
	srli	a4, a4, 56
	xor	s2, s7, a4
	slli	s1, a0, 1
	xor	s3, s4, a3
	srli	a3, s1, 56
	xor	s4, a1, a3
	srli	a1, s1, 48
	xor	s7, a2, a1
	srli	a4, s1, 32
	xor	s9, s0, a4
	srliw	a1, s1, 24
	xor	s0, t3, a1
	xor	a2, s6, s1
	srliw	a1, s1, 16
	xor	a1, t2, a1
	slli	a0, a0, 49
	srli	a0, a0, 56
	xor	a3, t0, a0
	slli	s8, s8, 17
	srli	a0, s8, 56
	xor	t0, a5, a0
.Laes_narrow_BB12_3:                               # %"cmac::tags::last_block::<#f7269deedbd939eb>.exit"
	lbu	a0, 15(s10)
	lbu	s1, 14(s10)
	lbu	a4, 13(s10)
	lbu	a5, 12(s10)
	xor	t2, a0, a2
	xor	t3, s1, a3
	xor	s6, a4, a1
	xor	s8, a5, s0
	lbu	a0, 11(s10)
	lbu	a4, 10(s10)
	lbu	s1, 9(s10)
	lbu	s0, 8(s10)
	xor	s9, a0, s9
	xor	t0, a4, t0
	xor	s7, s1, s7
	xor	s4, s0, s4
	lbu	a2, 7(s10)
	lbu	a3, 6(s10)
	lbu	a1, 5(s10)
	lbu	a5, 4(s10)
	xor	a2, a2, s3
	xor	a3, a3, s2
	xor	a1, a1, t6
	xor	a5, a5, t5
	lbu	a0, 3(s10)
	lbu	a4, 2(s10)
	lbu	s1, 1(s10)
	lbu	s0, 0(s10)
	xor	a0, a0, t4
	xor	a4, a4, a6
	xor	s1, s1, t1
	xor	s0, s0, a7
	sb	s0, 104(sp)
	sb	s1, 105(sp)
	sb	a4, 106(sp)
	sb	a0, 107(sp)
	sb	a5, 108(sp)
	sb	a1, 109(sp)
	sb	a3, 110(sp)
	sb	a2, 111(sp)
	sb	s4, 112(sp)
	sb	s7, 113(sp)
	sb	t0, 114(sp)
	lbu	a0, 0(s5)
	lbu	a1, 1(s5)
	lbu	a2, 2(s5)
	lbu	a3, 3(s5)
	sb	s9, 115(sp)
	sb	s8, 116(sp)
	sb	s6, 117(sp)
	sb	t3, 118(sp)
	lbu	a4, 4(s5)
	lbu	a5, 5(s5)
	lbu	s1, 6(s5)
	lbu	s0, 7(s5)
	slli	a1, a1, 8
	slli	a2, a2, 16
	slli	a3, a3, 24
	slli	a5, a5, 8
	sb	t2, 119(sp)
	or	a6, a1, a0
	or	a7, a3, a2
	or	a4, a4, a5
	lbu	a1, 8(s5)
	lbu	a3, 9(s5)
	lbu	a5, 10(s5)
	lbu	a0, 11(s5)
	slli	s1, s1, 16
	slli	s0, s0, 24
	slli	a3, a3, 8
	slli	a5, a5, 16
	slli	a0, a0, 24
	or	s0, s0, s1
	or	a1, a1, a3
	or	a0, a0, a5
	lbu	a3, 13(s5)
	lbu	a5, 12(s5)
	lbu	s1, 14(s5)
	lbu	a2, 15(s5)
	slli	a3, a3, 8
	or	a3, a3, a5
	slli	s1, s1, 16
	slli	a2, a2, 24
	or	a2, a2, s1
	or	a5, a7, a6
	or	a4, a4, s0
	or	a1, a1, a0
	or	a2, a2, a3
	slli	a0, a4, 32
	or	a0, a0, a5
	slli	a2, a2, 32
	or	a1, a1, a2
	addi	a2, sp, 104
	li	a3, 1
	call	aes_narrow.aes_narrow.blocks.process_all_batches.1
	call	aes_narrow.aes_cipher.zeroize.stack.wipe_stack.1024
	addi	a1, sp, 104
	li	a2, 16
	ld	a0, 96(sp)                      # 8-byte Folded Reload
	la	t1, memcpy
	jalr	t1
	ld	ra, 232(sp)                     # 8-byte Folded Reload
	ld	s0, 224(sp)                     # 8-byte Folded Reload
	ld	s1, 216(sp)                     # 8-byte Folded Reload
	ld	s2, 208(sp)                     # 8-byte Folded Reload
	ld	s3, 200(sp)                     # 8-byte Folded Reload
	ld	s4, 192(sp)                     # 8-byte Folded Reload
	ld	s5, 184(sp)                     # 8-byte Folded Reload
	ld	s6, 176(sp)                     # 8-byte Folded Reload
	ld	s7, 168(sp)                     # 8-byte Folded Reload
	ld	s8, 160(sp)                     # 8-byte Folded Reload
	ld	s9, 152(sp)                     # 8-byte Folded Reload
	ld	s10, 144(sp)                    # 8-byte Folded Reload
	ld	s11, 136(sp)                    # 8-byte Folded Reload
	addi	sp, sp, 240
	ret
.Laes_narrow_func_end12:
	.size	aes_narrow.cmac.tags.tag_at_end, .Laes_narrow_func_end12-aes_narrow.cmac.tags.tag_at_end
                                        # -- End function
	.section	.text.aes_narrow.cmac.pieces.MessageZeroize.zeroize,"ax",@progbits
	.p2align	1                               # -- Begin function cmac::pieces::MessageZeroize::zeroize
	.type	aes_narrow.cmac.pieces.MessageZeroize.zeroize,@function
aes_narrow.cmac.pieces.MessageZeroize.zeroize: # @aes_narrow.cmac.pieces.MessageZeroize.zeroize
# %bb.0:                                # %start
	addi	sp, sp, -16
	sd	ra, 8(sp)                       # 8-byte Folded Spill
	sd	s0, 0(sp)                       # 8-byte Folded Spill
	mv	s0, a0
	addi	a0, a0, 16
	sd	zero, 0(s0)
	sd	zero, 8(s0)
	call	aes_narrow.aes_cipher.zeroize.elements.zeroize_elements.2
	addi	a0, s0, 32
	ld	ra, 8(sp)                       # 8-byte Folded Reload
	ld	s0, 0(sp)                       # 8-byte Folded Reload
	addi	sp, sp, 16
	tail	aes_narrow.aes_cipher.zeroize.elements.zeroize_elements.2
.Laes_narrow_func_end13:
	.size	aes_narrow.cmac.pieces.MessageZeroize.zeroize, .Laes_narrow_func_end13-aes_narrow.cmac.pieces.MessageZeroize.zeroize
                                        # -- End function
	.section	.text.aes_narrow.aes_cipher.zeroize.elements.zeroize_elements.2,"ax",@progbits
	.p2align	1                               # -- Begin function aes_cipher::zeroize::elements::zeroize_elements::<#331496ca003a3905>
	.type	aes_narrow.aes_cipher.zeroize.elements.zeroize_elements.2,@function
aes_narrow.aes_cipher.zeroize.elements.zeroize_elements.2: # @aes_narrow.aes_cipher.zeroize.elements.zeroize_elements.2
# %bb.0:                                # %start
	addi	sp, sp, -48
	sd	ra, 40(sp)                      # 8-byte Folded Spill
	sd	s0, 32(sp)                      # 8-byte Folded Spill
	sd	s1, 24(sp)                      # 8-byte Folded Spill
	sd	zero, 8(sp)
	sd	zero, 16(sp)
	sd	zero, 0(sp)
	#APP
	#NO_APP
	fence	rw, rw
	ld	a1, 0(sp)
	fence	r, rw
	#APP
	#NO_APP
	beqz	a1, .Laes_narrow_BB14_2
# %bb.1:                                # %"aes_cipher::zeroize::observe::<#38c92a2c69ae69e8>.exit8"
	addi	a1, sp, 8
	li	a2, 16
	la	t1, memcpy
	jalr	t1
	li	a0, 0
	j	.Laes_narrow_BB14_3
.Laes_narrow_BB14_2:                               # %then.1.i
	lbu	s1, 0(a0)
	addi	a1, sp, 8
	li	a2, 16
	mv	s0, a0
	la	t1, memcpy
	jalr	t1
	lbu	a0, 0(s0)
	and	a0, a0, s1
.Laes_narrow_BB14_3:                               # %"aes_cipher::zeroize::observe::<#38c92a2c69ae69e8>.exit"
	#APP
	#NO_APP
	mv	a1, sp
	amoswap.d.aqrl	zero, a0, (a1)
	#APP
	#NO_APP
	ld	ra, 40(sp)                      # 8-byte Folded Reload
	ld	s0, 32(sp)                      # 8-byte Folded Reload
	ld	s1, 24(sp)                      # 8-byte Folded Reload
	addi	sp, sp, 48
	li	a1, 0
	li	a2, 0
	li	a3, 0
	li	a4, 0
	li	a5, 0
	li	a6, 0
	li	a7, 0
	li	t0, 0
	li	t1, 0
	li	t2, 0
	li	t3, 0
	li	t4, 0
	li	t5, 0
	li	t6, 0
	ret
.Laes_narrow_func_end14:
	.size	aes_narrow.aes_cipher.zeroize.elements.zeroize_elements.2, .Laes_narrow_func_end14-aes_narrow.aes_cipher.zeroize.elements.zeroize_elements.2
                                        # -- End function
	.section	.text.aes_narrow.cmac.chain_in_pieces.ChainInPieces.extend,"ax",@progbits
	.p2align	1                               # -- Begin function cmac::chain_in_pieces::ChainInPieces::extend::<#f7269deedbd939eb>
	.type	aes_narrow.cmac.chain_in_pieces.ChainInPieces.extend,@function
aes_narrow.cmac.chain_in_pieces.ChainInPieces.extend: # @aes_narrow.cmac.chain_in_pieces.ChainInPieces.extend
# %bb.0:                                # %start
	addi	sp, sp, -160
	sd	ra, 152(sp)                     # 8-byte Folded Spill
	sd	s0, 144(sp)                     # 8-byte Folded Spill
	sd	s1, 136(sp)                     # 8-byte Folded Spill
	sd	s2, 128(sp)                     # 8-byte Folded Spill
	sd	s3, 120(sp)                     # 8-byte Folded Spill
	sd	s4, 112(sp)                     # 8-byte Folded Spill
	sd	s5, 104(sp)                     # 8-byte Folded Spill
	sd	s6, 96(sp)                      # 8-byte Folded Spill
	sd	s7, 88(sp)                      # 8-byte Folded Spill
	sd	s8, 80(sp)                      # 8-byte Folded Spill
	sd	s9, 72(sp)                      # 8-byte Folded Spill
	sd	s10, 64(sp)                     # 8-byte Folded Spill
	sd	s11, 56(sp)                     # 8-byte Folded Spill
	mv	s0, a0
	ld	s4, 0(a0)
	li	a0, 16
	mv	s8, a1
	bltu	s4, a0, .Laes_narrow_BB15_2
# %bb.1:                                # %start
	li	s4, 16
.Laes_narrow_BB15_2:                               # %start
	sub	a4, a0, s4
	bgeu	a4, a3, .Laes_narrow_BB15_6
# %bb.3:                                # %join.3
	add	s3, a2, a4
	addi	s2, s0, 24
	add	a0, s2, s4
	sub	a1, a0, a2
	sub	s4, a3, a4
	sd	a3, 16(sp)                      # 8-byte Folded Spill
	sd	a2, 8(sp)                       # 8-byte Folded Spill
	bgeu	a1, a4, .Laes_narrow_BB15_9
# %bb.4:
	mv	a1, a2
.Laes_narrow_BB15_5:                               # %join.7.i.i.i.i.i.i29
                                        # =>This Inner Loop Header: Depth=1
	lbu	a2, 0(a1)
	addi	a1, a1, 1
	sb	a2, 0(a0)
	addi	a0, a0, 1
	bne	a1, s3, .Laes_narrow_BB15_5
	j	.Laes_narrow_BB15_10
.Laes_narrow_BB15_6:                               # %then.1
	add	a0, s0, s4
	addi	a0, a0, 24
	sub	a1, a0, a2
	add	s4, s4, a3
	bgeu	a1, a3, .Laes_narrow_BB15_18
# %bb.7:                                # %join.7.i.i.i.i.i.i.preheader
	add	a3, a3, a2
.Laes_narrow_BB15_8:                               # %join.7.i.i.i.i.i.i
                                        # =>This Inner Loop Header: Depth=1
	lbu	a1, 0(a2)
	addi	a2, a2, 1
	sb	a1, 0(a0)
	addi	a0, a0, 1
	bne	a2, a3, .Laes_narrow_BB15_8
	j	.Laes_narrow_BB15_21
.Laes_narrow_BB15_9:                               # %apart.2.i.i.i.i.i.i28
	mv	a1, a2
	mv	a2, a4
	la	t1, memmove
	jalr	t1
.Laes_narrow_BB15_10:                              # %"core::slice::edits::slice+T::copy_from_slice::<i8,20'core::clone::U8Clone{}>.exit36"
	lbu	a6, 28(s0)
	lbu	a7, 29(s0)
	lbu	t0, 30(s0)
	lbu	t1, 31(s0)
	lbu	t2, 32(s0)
	lbu	t3, 33(s0)
	lbu	t4, 34(s0)
	lbu	t5, 35(s0)
	lbu	t6, 36(s0)
	lbu	s5, 37(s0)
	lbu	s6, 38(s0)
	lbu	s7, 39(s0)
	lbu	a0, 20(s0)
	lbu	a1, 21(s0)
	lbu	a2, 22(s0)
	lbu	a3, 23(s0)
	lbu	s9, 16(s0)
	lbu	s10, 17(s0)
	lbu	a4, 18(s0)
	lbu	a5, 19(s0)
	xor	s7, s7, a3
	xor	s6, s6, a2
	xor	s5, s5, a1
	xor	t6, t6, a0
	lbu	s11, 12(s0)
	lbu	a2, 13(s0)
	lbu	a1, 14(s0)
	lbu	a0, 15(s0)
	xor	t5, t5, a5
	xor	t4, t4, a4
	xor	t3, t3, s10
	xor	t2, t2, s9
	lbu	s9, 24(s0)
	lbu	s10, 25(s0)
	lbu	a3, 26(s0)
	lbu	a5, 27(s0)
	xor	t1, t1, a0
	xor	t0, t0, a1
	xor	a7, a7, a2
	xor	a6, a6, s11
	lbu	a1, 11(s0)
	lbu	a2, 10(s0)
	lbu	a0, 9(s0)
	lbu	a4, 8(s0)
	xor	a1, a1, a5
	xor	a2, a2, a3
	xor	a0, s10, a0
	xor	a3, s9, a4
	sb	a3, 8(s0)
	sb	a0, 9(s0)
	sb	a2, 10(s0)
	sb	a1, 11(s0)
	sb	a6, 12(s0)
	sb	a7, 13(s0)
	sb	t0, 14(s0)
	sb	t1, 15(s0)
	sb	t2, 16(s0)
	sb	t3, 17(s0)
	sb	t4, 18(s0)
	sb	t5, 19(s0)
	sb	t6, 20(s0)
	sb	s5, 21(s0)
	sb	s6, 22(s0)
	sb	s7, 23(s0)
	lbu	a0, 0(s8)
	lbu	a1, 1(s8)
	lbu	a2, 2(s8)
	lbu	a3, 3(s8)
	lbu	a6, 4(s8)
	lbu	a7, 5(s8)
	lbu	a4, 6(s8)
	lbu	a5, 7(s8)
	slli	a1, a1, 8
	slli	a2, a2, 16
	slli	a3, a3, 24
	or	t0, a1, a0
	or	t1, a3, a2
	lbu	a1, 8(s8)
	lbu	a3, 9(s8)
	lbu	a0, 10(s8)
	lbu	a2, 11(s8)
	slli	a7, a7, 8
	slli	a4, a4, 16
	slli	a5, a5, 24
	slli	a3, a3, 8
	slli	a0, a0, 16
	slli	a2, a2, 24
	or	a6, a7, a6
	or	a4, a4, a5
	or	a7, a3, a1
	or	a0, a0, a2
	lbu	a2, 13(s8)
	lbu	a3, 12(s8)
	lbu	a5, 14(s8)
	lbu	a1, 15(s8)
	slli	a2, a2, 8
	or	a2, a2, a3
	slli	a5, a5, 16
	slli	a1, a1, 24
	or	a1, a1, a5
	or	a3, t1, t0
	or	a4, a4, a6
	or	a5, a0, a7
	or	a1, a1, a2
	slli	a0, a4, 32
	or	a0, a0, a3
	slli	a1, a1, 32
	or	a1, a1, a5
	addi	a2, s0, 8
	li	a3, 1
	call	aes_narrow.aes_narrow.blocks.process_all_batches.1
	call	aes_narrow.aes_cipher.zeroize.stack.wipe_stack.1024
	addi	a0, s4, -1
	andi	a2, a0, -16
	add	s5, s3, a2
	sub	a1, s4, a2
	sd	a1, 24(sp)                      # 8-byte Folded Spill
	sd	a2, 32(sp)                      # 8-byte Folded Spill
	beqz	a2, .Laes_narrow_BB15_15
# %bb.11:                               # %join.5.i74.preheader
	li	s10, 0
	srli	s11, a0, 4
	li	s7, 16
	j	.Laes_narrow_BB15_13
.Laes_narrow_BB15_12:                              # %join.5.i74
                                        #   in Loop: Header=BB15_13 Depth=1
	add	a2, a2, s10
	sd	zero, 40(sp)
	sd	zero, 48(sp)
	addi	a0, sp, 40
	mv	a1, s3
	la	t1, memcpy
	jalr	t1
	lbu	a6, 12(s0)
	lbu	a7, 13(s0)
	lbu	t0, 14(s0)
	lbu	t1, 15(s0)
	lbu	t2, 16(s0)
	lbu	t3, 17(s0)
	lbu	t4, 18(s0)
	lbu	t5, 19(s0)
	lbu	t6, 20(s0)
	lbu	ra, 21(s0)
	lbu	a4, 22(s0)
	lbu	a5, 23(s0)
	lbu	a0, 52(sp)
	lbu	a1, 53(sp)
	lbu	a2, 54(sp)
	lbu	s1, 55(sp)
	lbu	a3, 48(sp)
	lbu	s4, 49(sp)
	lbu	s6, 50(sp)
	lbu	s9, 51(sp)
	xor	a5, a5, s1
	xor	a2, a2, a4
	xor	ra, a1, ra
	xor	t6, a0, t6
	lbu	a4, 44(sp)
	lbu	s1, 45(sp)
	lbu	a1, 46(sp)
	lbu	a0, 47(sp)
	xor	t5, s9, t5
	xor	t4, s6, t4
	xor	t3, s4, t3
	xor	t2, a3, t2
	lbu	s4, 8(s0)
	lbu	s6, 9(s0)
	lbu	s9, 10(s0)
	lbu	a3, 11(s0)
	xor	t1, a0, t1
	xor	t0, a1, t0
	xor	a7, s1, a7
	xor	a6, a4, a6
	lbu	a0, 43(sp)
	lbu	a1, 42(sp)
	lbu	s1, 41(sp)
	lbu	a4, 40(sp)
	xor	a0, a0, a3
	xor	a1, a1, s9
	xor	a3, s1, s6
	xor	a4, a4, s4
	sb	a4, 8(s0)
	sb	a3, 9(s0)
	sb	a1, 10(s0)
	sb	a0, 11(s0)
	sb	a6, 12(s0)
	sb	a7, 13(s0)
	sb	t0, 14(s0)
	sb	t1, 15(s0)
	sb	t2, 16(s0)
	sb	t3, 17(s0)
	sb	t4, 18(s0)
	sb	t5, 19(s0)
	sb	t6, 20(s0)
	sb	ra, 21(s0)
	sb	a2, 22(s0)
	sb	a5, 23(s0)
	lbu	a0, 0(s8)
	lbu	a1, 1(s8)
	lbu	a2, 2(s8)
	lbu	a3, 3(s8)
	lbu	a6, 4(s8)
	lbu	a5, 5(s8)
	lbu	s1, 6(s8)
	lbu	a4, 7(s8)
	slli	a1, a1, 8
	slli	a2, a2, 16
	slli	a3, a3, 24
	or	a7, a1, a0
	or	t0, a3, a2
	lbu	a1, 8(s8)
	lbu	a3, 9(s8)
	lbu	a0, 10(s8)
	lbu	a2, 11(s8)
	slli	a5, a5, 8
	slli	s1, s1, 16
	slli	a4, a4, 24
	slli	a3, a3, 8
	slli	a0, a0, 16
	slli	a2, a2, 24
	or	a6, a5, a6
	or	a4, a4, s1
	or	a1, a1, a3
	or	a0, a0, a2
	lbu	a2, 13(s8)
	lbu	a3, 12(s8)
	lbu	s1, 14(s8)
	lbu	a5, 15(s8)
	slli	a2, a2, 8
	or	a2, a2, a3
	slli	s1, s1, 16
	slli	a5, a5, 24
	or	a5, a5, s1
	or	a3, t0, a7
	or	a4, a4, a6
	or	a1, a1, a0
	or	a2, a2, a5
	slli	a0, a4, 32
	or	a0, a0, a3
	slli	a2, a2, 32
	or	a1, a1, a2
	li	a3, 1
	addi	a2, s0, 8
	call	aes_narrow.aes_narrow.blocks.process_all_batches.1
	call	aes_narrow.aes_cipher.zeroize.stack.wipe_stack.1024
	addi	s11, s11, -1
	addi	s7, s7, 16
	addi	s10, s10, -16
	addi	s3, s3, 16
	beqz	s11, .Laes_narrow_BB15_15
.Laes_narrow_BB15_13:                              # %join.5.i74
                                        # =>This Inner Loop Header: Depth=1
	mv	a2, s7
	ld	a0, 32(sp)                      # 8-byte Folded Reload
	bltu	s7, a0, .Laes_narrow_BB15_12
# %bb.14:                               # %join.5.i74
                                        #   in Loop: Header=BB15_13 Depth=1
	ld	a2, 32(sp)                      # 8-byte Folded Reload
	j	.Laes_narrow_BB15_12
.Laes_narrow_BB15_15:                              # %"cmac::chaining::chain::<#f7269deedbd939eb>.exit166"
	sub	a0, s2, s5
	ld	s4, 24(sp)                      # 8-byte Folded Reload
	bgeu	a0, s4, .Laes_narrow_BB15_19
# %bb.16:                               # %join.7.i.i.i.i.i.i172.preheader
	ld	a0, 16(sp)                      # 8-byte Folded Reload
	ld	s8, 8(sp)                       # 8-byte Folded Reload
	add	s8, s8, a0
.Laes_narrow_BB15_17:                              # %join.7.i.i.i.i.i.i172
                                        # =>This Inner Loop Header: Depth=1
	lbu	a0, 0(s5)
	addi	s5, s5, 1
	sb	a0, 0(s2)
	addi	s2, s2, 1
	bne	s5, s8, .Laes_narrow_BB15_17
	j	.Laes_narrow_BB15_21
.Laes_narrow_BB15_18:                              # %apart.2.i.i.i.i.i.i
	mv	a1, a2
	mv	a2, a3
	j	.Laes_narrow_BB15_20
.Laes_narrow_BB15_19:                              # %apart.2.i.i.i.i.i.i171
	mv	a0, s2
	mv	a1, s5
	mv	a2, s4
.Laes_narrow_BB15_20:                              # %common.ret
	la	t1, memmove
	jalr	t1
.Laes_narrow_BB15_21:                              # %common.ret
	sd	s4, 0(s0)
	ld	ra, 152(sp)                     # 8-byte Folded Reload
	ld	s0, 144(sp)                     # 8-byte Folded Reload
	ld	s1, 136(sp)                     # 8-byte Folded Reload
	ld	s2, 128(sp)                     # 8-byte Folded Reload
	ld	s3, 120(sp)                     # 8-byte Folded Reload
	ld	s4, 112(sp)                     # 8-byte Folded Reload
	ld	s5, 104(sp)                     # 8-byte Folded Reload
	ld	s6, 96(sp)                      # 8-byte Folded Reload
	ld	s7, 88(sp)                      # 8-byte Folded Reload
	ld	s8, 80(sp)                      # 8-byte Folded Reload
	ld	s9, 72(sp)                      # 8-byte Folded Reload
	ld	s10, 64(sp)                     # 8-byte Folded Reload
	ld	s11, 56(sp)                     # 8-byte Folded Reload
	addi	sp, sp, 160
	ret
.Laes_narrow_func_end15:
	.size	aes_narrow.cmac.chain_in_pieces.ChainInPieces.extend, .Laes_narrow_func_end15-aes_narrow.cmac.chain_in_pieces.ChainInPieces.extend
                                        # -- End function
	.section	.text.aes_narrow.key_wrap.wrapping.wrap,"ax",@progbits
	.p2align	1                               # -- Begin function key_wrap::wrapping::wrap::<#f7269deedbd939eb>
	.type	aes_narrow.key_wrap.wrapping.wrap,@function
aes_narrow.key_wrap.wrapping.wrap: # @aes_narrow.key_wrap.wrapping.wrap
# %bb.0:                                # %start
	addi	sp, sp, -48
	sd	ra, 40(sp)                      # 8-byte Folded Spill
	sd	s0, 32(sp)                      # 8-byte Folded Spill
	sd	s1, 24(sp)                      # 8-byte Folded Spill
	sd	s2, 16(sp)                      # 8-byte Folded Spill
	sd	s3, 8(sp)                       # 8-byte Folded Spill
	sd	s4, 0(sp)                       # 8-byte Folded Spill
	addi	s1, a2, -2
	li	s0, 1
	slli	a5, s0, 54
	addi	a5, a5, -3
	bltu	a5, s1, .Laes_narrow_BB16_9
# %bb.1:                                # %start
	addi	a5, a2, 1
	bne	a4, a5, .Laes_narrow_BB16_9
# %bb.2:                                # %after.1
	beqz	a4, .Laes_narrow_BB16_8
# %bb.3:                                # %arm.12
	addi	s4, a3, 8
	li	a5, 166
	slli	a2, a2, 3
	sb	a5, 4(a3)
	sb	a5, 5(a3)
	sb	a5, 6(a3)
	sb	a5, 7(a3)
	sb	a5, 0(a3)
	sb	a5, 1(a3)
	sb	a5, 2(a3)
	sb	a5, 3(a3)
	sub	a5, s4, a1
	addi	s2, a4, -1
	bgeu	a5, a2, .Laes_narrow_BB16_6
# %bb.4:                                # %join.7.i.i.i.i.i.i.preheader
	add	a6, a1, a2
	mv	a4, s4
.Laes_narrow_BB16_5:                               # %join.7.i.i.i.i.i.i
                                        # =>This Inner Loop Header: Depth=1
	lbu	a7, 0(a1)
	lbu	t0, 1(a1)
	lbu	t2, 2(a1)
	lbu	t1, 3(a1)
	lbu	a5, 4(a1)
	lbu	s1, 5(a1)
	lbu	a2, 6(a1)
	lbu	s0, 7(a1)
	addi	a1, a1, 8
	sb	a5, 4(a4)
	sb	s1, 5(a4)
	sb	a2, 6(a4)
	sb	s0, 7(a4)
	sb	a7, 0(a4)
	sb	t0, 1(a4)
	sb	t2, 2(a4)
	sb	t1, 3(a4)
	addi	a4, a4, 8
	bne	a1, a6, .Laes_narrow_BB16_5
	j	.Laes_narrow_BB16_7
.Laes_narrow_BB16_6:                               # %apart.2.i.i.i.i.i.i
	mv	s3, a0
	mv	a0, s4
	mv	s1, a3
	la	t1, memmove
	jalr	t1
	mv	a0, s3
	mv	a3, s1
.Laes_narrow_BB16_7:                               # %"core::slice::edits::slice+T::copy_from_slice::<#76f67ba6cf9709da>.exit"
	mv	a1, a3
	mv	a2, s4
	mv	a3, s2
	call	aes_narrow.key_wrap.steps.wrap_in_place
.Laes_narrow_BB16_8:                               # %return.10
	li	s0, 0
.Laes_narrow_BB16_9:                               # %return.10
	mv	a0, s0
	ld	ra, 40(sp)                      # 8-byte Folded Reload
	ld	s0, 32(sp)                      # 8-byte Folded Reload
	ld	s1, 24(sp)                      # 8-byte Folded Reload
	ld	s2, 16(sp)                      # 8-byte Folded Reload
	ld	s3, 8(sp)                       # 8-byte Folded Reload
	ld	s4, 0(sp)                       # 8-byte Folded Reload
	addi	sp, sp, 48
	ret
.Laes_narrow_func_end16:
	.size	aes_narrow.key_wrap.wrapping.wrap, .Laes_narrow_func_end16-aes_narrow.key_wrap.wrapping.wrap
                                        # -- End function
	.section	.text.aes_narrow.key_wrap.steps.wrap_in_place,"ax",@progbits
	.p2align	1                               # -- Begin function key_wrap::steps::wrap_in_place::<#f7269deedbd939eb>
	.type	aes_narrow.key_wrap.steps.wrap_in_place,@function
aes_narrow.key_wrap.steps.wrap_in_place: # @aes_narrow.key_wrap.steps.wrap_in_place
# %bb.0:                                # %start
	beqz	a3, .Laes_narrow_BB17_14
# %bb.1:                                # %join.5.preheader
	addi	sp, sp, -112
	sd	ra, 104(sp)                     # 8-byte Folded Spill
	sd	s0, 96(sp)                      # 8-byte Folded Spill
	sd	s1, 88(sp)                      # 8-byte Folded Spill
	sd	s2, 80(sp)                      # 8-byte Folded Spill
	sd	s3, 72(sp)                      # 8-byte Folded Spill
	sd	s4, 64(sp)                      # 8-byte Folded Spill
	sd	s5, 56(sp)                      # 8-byte Folded Spill
	sd	s6, 48(sp)                      # 8-byte Folded Spill
	sd	s7, 40(sp)                      # 8-byte Folded Spill
	sd	s8, 32(sp)                      # 8-byte Folded Spill
	sd	s9, 24(sp)                      # 8-byte Folded Spill
	sd	s10, 16(sp)                     # 8-byte Folded Spill
	mv	s2, a3
	mv	s3, a2
	mv	s0, a1
	mv	s6, a0
	lbu	a0, 1(a1)
	lbu	a1, 2(a1)
	lbu	a2, 3(s0)
	lbu	a3, 0(s0)
	slli	a0, a0, 8
	slli	a1, a1, 16
	slli	a2, a2, 24
	or	a0, a0, a3
	or	a1, a1, a2
	lbu	a2, 5(s0)
	lbu	a3, 4(s0)
	lbu	a4, 6(s0)
	lbu	a5, 7(s0)
	slli	a2, a2, 8
	or	a2, a2, a3
	slli	a4, a4, 16
	slli	a5, a5, 24
	or	a4, a4, a5
	or	a0, a0, a1
	or	a2, a2, a4
	slli	a2, a2, 32
	or	a2, a2, a0
	li	s4, 1
	mv	s1, s3
	mv	s5, s2
.Laes_narrow_BB17_2:                               # %join.5.i
                                        # =>This Inner Loop Header: Depth=1
	lbu	t0, 0(s6)
	lbu	t4, 1(s6)
	lbu	a3, 2(s6)
	lbu	a4, 3(s6)
	lbu	a6, 4(s6)
	lbu	a7, 5(s6)
	lbu	t1, 6(s6)
	lbu	t2, 7(s6)
	lbu	t3, 8(s6)
	lbu	a0, 9(s6)
	lbu	a5, 10(s6)
	lbu	a1, 11(s6)
	slli	t4, t4, 8
	slli	a3, a3, 16
	slli	a4, a4, 24
	or	t0, t4, t0
	or	t4, a4, a3
	lbu	t5, 12(s6)
	lbu	t6, 13(s6)
	lbu	s7, 14(s6)
	lbu	a4, 15(s6)
	slli	a7, a7, 8
	slli	t1, t1, 16
	slli	t2, t2, 24
	slli	a0, a0, 8
	slli	a5, a5, 16
	slli	a1, a1, 24
	or	a6, a7, a6
	or	a7, t2, t1
	or	t1, a0, t3
	or	t2, a1, a5
	lbu	a5, 0(s1)
	lbu	a0, 1(s1)
	lbu	a1, 2(s1)
	lbu	a3, 3(s1)
	slli	t6, t6, 8
	slli	s7, s7, 16
	slli	a4, a4, 24
	slli	a0, a0, 8
	slli	a1, a1, 16
	slli	a3, a3, 24
	or	t3, t6, t5
	or	t6, a4, s7
	or	t5, a0, a5
	or	s7, a3, a1
	lbu	a3, 5(s1)
	lbu	a5, 4(s1)
	lbu	a0, 6(s1)
	lbu	a4, 7(s1)
	slli	a3, a3, 8
	or	s8, a3, a5
	slli	a0, a0, 16
	slli	a4, a4, 24
	or	a0, a0, a4
	or	t0, t4, t0
	or	a5, a7, a6
	or	a1, t2, t1
	or	a3, t6, t3
	or	a6, s7, t5
	or	a0, a0, s8
	slli	a5, a5, 32
	slli	a3, a3, 32
	slli	a4, a0, 32
	or	a0, a5, t0
	or	a1, a1, a3
	or	a3, a4, a6
	sd	a2, 0(sp)
	sd	a3, 8(sp)
	mv	a2, sp
	li	a3, 1
	call	aes_narrow.aes_narrow.blocks.process_all_batches.1
	call	aes_narrow.aes_cipher.zeroize.stack.wipe_stack.1024
	ld	a1, 0(sp)
	ld	t4, 8(sp)
	srli	t2, s4, 40
	lui	a6, 16
	srli	t0, s4, 56
	srli	a5, s4, 24
	lui	a7, 4080
	srli	a3, s4, 8
	srliw	t3, s4, 24
	slli	t1, s4, 56
	addi	s5, s5, -1
	addi	a2, a6, -256
	and	a5, a5, a7
	srliw	a3, a3, 24
	and	a4, s4, a7
	slli	t3, t3, 32
	and	a0, t2, a2
	slli	a3, a3, 24
	slli	a4, a4, 24
	and	a2, s4, a2
	addi	s4, s4, 1
	or	a0, a0, t0
	or	a3, a3, a5
	or	a6, a4, t3
	slli	a2, a2, 40
	srli	a7, a1, 56
	srli	t0, a1, 48
	srli	a5, a1, 40
	srli	a4, a1, 32
	srli	t2, a1, 24
	srli	t3, a1, 16
	srli	t5, a1, 8
	srli	t6, t4, 48
	srli	s7, t4, 56
	srli	s8, t4, 32
	or	s9, a3, a0
	srli	a3, t4, 40
	or	a2, t1, a2
	srli	a0, t4, 16
	sb	a4, 4(s0)
	sb	a5, 5(s0)
	sb	t0, 6(s0)
	sb	a7, 7(s0)
	srli	a4, t4, 24
	sb	a1, 0(s0)
	sb	t5, 1(s0)
	sb	t3, 2(s0)
	sb	t2, 3(s0)
	srli	a1, t4, 8
	sb	s8, 4(s1)
	sb	a3, 5(s1)
	sb	t6, 6(s1)
	sb	s7, 7(s1)
	sb	t4, 0(s1)
	sb	a1, 1(s1)
	sb	a0, 2(s1)
	sb	a4, 3(s1)
	or	a0, a2, a6
	lbu	a1, 0(s0)
	lbu	a2, 1(s0)
	lbu	a3, 2(s0)
	lbu	a4, 3(s0)
	or	a6, a0, s9
	slli	a2, a2, 8
	or	a7, a2, a1
	lbu	a2, 4(s0)
	lbu	a5, 5(s0)
	lbu	a0, 6(s0)
	lbu	a1, 7(s0)
	slli	a3, a3, 16
	slli	a4, a4, 24
	slli	a5, a5, 8
	slli	a0, a0, 16
	slli	a1, a1, 24
	or	a3, a3, a4
	or	a2, a2, a5
	or	a0, a0, a1
	or	a1, a3, a7
	or	a0, a0, a2
	slli	a0, a0, 32
	or	a0, a0, a1
	xor	a2, a0, a6
	srli	a7, a2, 48
	srli	a1, a2, 56
	srli	a3, a2, 32
	srli	a4, a2, 40
	srli	a5, a2, 16
	srli	a6, a2, 24
	srli	a0, a2, 8
	sb	a3, 4(s0)
	sb	a4, 5(s0)
	sb	a7, 6(s0)
	sb	a1, 7(s0)
	sb	a2, 0(s0)
	sb	a0, 1(s0)
	sb	a5, 2(s0)
	sb	a6, 3(s0)
	addi	s1, s1, 8
	bnez	s5, .Laes_narrow_BB17_2
# %bb.3:                                # %"key_wrap::steps::wrap_turn::<#f7269deedbd939eb>.exit.loopexit"
	addi	s4, s2, 1
	mv	s1, s3
	mv	s5, s2
.Laes_narrow_BB17_4:                               # %join.5.i.1
                                        # =>This Inner Loop Header: Depth=1
	lbu	t0, 0(s6)
	lbu	t4, 1(s6)
	lbu	a3, 2(s6)
	lbu	a4, 3(s6)
	lbu	a6, 4(s6)
	lbu	a7, 5(s6)
	lbu	t1, 6(s6)
	lbu	t2, 7(s6)
	lbu	t3, 8(s6)
	lbu	a0, 9(s6)
	lbu	a5, 10(s6)
	lbu	a1, 11(s6)
	slli	t4, t4, 8
	slli	a3, a3, 16
	slli	a4, a4, 24
	or	t0, t4, t0
	or	t4, a4, a3
	lbu	t5, 12(s6)
	lbu	t6, 13(s6)
	lbu	s7, 14(s6)
	lbu	a4, 15(s6)
	slli	a7, a7, 8
	slli	t1, t1, 16
	slli	t2, t2, 24
	slli	a0, a0, 8
	slli	a5, a5, 16
	slli	a1, a1, 24
	or	a6, a7, a6
	or	a7, t2, t1
	or	t1, a0, t3
	or	t2, a1, a5
	lbu	a5, 0(s1)
	lbu	a0, 1(s1)
	lbu	a1, 2(s1)
	lbu	a3, 3(s1)
	slli	t6, t6, 8
	slli	s7, s7, 16
	slli	a4, a4, 24
	slli	a0, a0, 8
	slli	a1, a1, 16
	slli	a3, a3, 24
	or	t3, t6, t5
	or	t6, a4, s7
	or	t5, a0, a5
	or	s7, a3, a1
	lbu	a3, 5(s1)
	lbu	a5, 4(s1)
	lbu	a0, 6(s1)
	lbu	a4, 7(s1)
	slli	a3, a3, 8
	or	s8, a3, a5
	slli	a0, a0, 16
	slli	a4, a4, 24
	or	a0, a0, a4
	or	t0, t4, t0
	or	a5, a7, a6
	or	a1, t2, t1
	or	a3, t6, t3
	or	a6, s7, t5
	or	a0, a0, s8
	slli	a5, a5, 32
	slli	a3, a3, 32
	slli	a4, a0, 32
	or	a0, a5, t0
	or	a1, a1, a3
	or	a3, a4, a6
	sd	a2, 0(sp)
	sd	a3, 8(sp)
	mv	a2, sp
	li	a3, 1
	call	aes_narrow.aes_narrow.blocks.process_all_batches.1
	call	aes_narrow.aes_cipher.zeroize.stack.wipe_stack.1024
	ld	a1, 0(sp)
	ld	t4, 8(sp)
	srli	t2, s4, 40
	lui	a6, 16
	srli	t0, s4, 56
	srli	a5, s4, 24
	lui	a7, 4080
	srli	a3, s4, 8
	srliw	t3, s4, 24
	slli	t1, s4, 56
	addi	s5, s5, -1
	addi	a2, a6, -256
	and	a5, a5, a7
	srliw	a3, a3, 24
	and	a4, s4, a7
	slli	t3, t3, 32
	and	a0, t2, a2
	slli	a3, a3, 24
	slli	a4, a4, 24
	and	a2, s4, a2
	addi	s4, s4, 1
	or	a0, a0, t0
	or	a3, a3, a5
	or	a6, a4, t3
	slli	a2, a2, 40
	srli	a7, a1, 56
	srli	t0, a1, 48
	srli	a5, a1, 40
	srli	a4, a1, 32
	srli	t2, a1, 24
	srli	t3, a1, 16
	srli	t5, a1, 8
	srli	t6, t4, 48
	srli	s7, t4, 56
	srli	s8, t4, 32
	or	s9, a3, a0
	srli	a3, t4, 40
	or	a2, t1, a2
	srli	a0, t4, 16
	sb	a4, 4(s0)
	sb	a5, 5(s0)
	sb	t0, 6(s0)
	sb	a7, 7(s0)
	srli	a4, t4, 24
	sb	a1, 0(s0)
	sb	t5, 1(s0)
	sb	t3, 2(s0)
	sb	t2, 3(s0)
	srli	a1, t4, 8
	sb	s8, 4(s1)
	sb	a3, 5(s1)
	sb	t6, 6(s1)
	sb	s7, 7(s1)
	sb	t4, 0(s1)
	sb	a1, 1(s1)
	sb	a0, 2(s1)
	sb	a4, 3(s1)
	or	a0, a2, a6
	lbu	a1, 0(s0)
	lbu	a2, 1(s0)
	lbu	a3, 2(s0)
	lbu	a4, 3(s0)
	or	a6, a0, s9
	slli	a2, a2, 8
	or	a7, a2, a1
	lbu	a2, 4(s0)
	lbu	a5, 5(s0)
	lbu	a0, 6(s0)
	lbu	a1, 7(s0)
	slli	a3, a3, 16
	slli	a4, a4, 24
	slli	a5, a5, 8
	slli	a0, a0, 16
	slli	a1, a1, 24
	or	a3, a3, a4
	or	a2, a2, a5
	or	a0, a0, a1
	or	a1, a3, a7
	or	a0, a0, a2
	slli	a0, a0, 32
	or	a0, a0, a1
	xor	a2, a0, a6
	srli	a7, a2, 48
	srli	a1, a2, 56
	srli	a3, a2, 32
	srli	a4, a2, 40
	srli	a5, a2, 16
	srli	a6, a2, 24
	srli	a0, a2, 8
	sb	a3, 4(s0)
	sb	a4, 5(s0)
	sb	a7, 6(s0)
	sb	a1, 7(s0)
	sb	a2, 0(s0)
	sb	a0, 1(s0)
	sb	a5, 2(s0)
	sb	a6, 3(s0)
	addi	s1, s1, 8
	bnez	s5, .Laes_narrow_BB17_4
# %bb.5:                                # %"key_wrap::steps::wrap_turn::<#f7269deedbd939eb>.exit.loopexit.1"
	slli	s4, s2, 1
	addi	s5, s4, 1
	mv	s1, s3
	mv	s7, s2
.Laes_narrow_BB17_6:                               # %join.5.i.2
                                        # =>This Inner Loop Header: Depth=1
	lbu	t0, 0(s6)
	lbu	t4, 1(s6)
	lbu	a3, 2(s6)
	lbu	a4, 3(s6)
	lbu	a6, 4(s6)
	lbu	a7, 5(s6)
	lbu	t1, 6(s6)
	lbu	t2, 7(s6)
	lbu	t3, 8(s6)
	lbu	a0, 9(s6)
	lbu	a5, 10(s6)
	lbu	a1, 11(s6)
	slli	t4, t4, 8
	slli	a3, a3, 16
	slli	a4, a4, 24
	or	t0, t4, t0
	or	t4, a4, a3
	lbu	t5, 12(s6)
	lbu	t6, 13(s6)
	lbu	s8, 14(s6)
	lbu	a4, 15(s6)
	slli	a7, a7, 8
	slli	t1, t1, 16
	slli	t2, t2, 24
	slli	a0, a0, 8
	slli	a5, a5, 16
	slli	a1, a1, 24
	or	a6, a7, a6
	or	a7, t2, t1
	or	t1, a0, t3
	or	t2, a1, a5
	lbu	a5, 0(s1)
	lbu	a0, 1(s1)
	lbu	a1, 2(s1)
	lbu	a3, 3(s1)
	slli	t6, t6, 8
	slli	s8, s8, 16
	slli	a4, a4, 24
	slli	a0, a0, 8
	slli	a1, a1, 16
	slli	a3, a3, 24
	or	t3, t6, t5
	or	t6, a4, s8
	or	t5, a0, a5
	or	s8, a3, a1
	lbu	a3, 5(s1)
	lbu	a5, 4(s1)
	lbu	a0, 6(s1)
	lbu	a4, 7(s1)
	slli	a3, a3, 8
	or	s9, a3, a5
	slli	a0, a0, 16
	slli	a4, a4, 24
	or	a0, a0, a4
	or	t0, t4, t0
	or	a5, a7, a6
	or	a1, t2, t1
	or	a3, t6, t3
	or	a6, s8, t5
	or	a0, a0, s9
	slli	a5, a5, 32
	slli	a3, a3, 32
	slli	a4, a0, 32
	or	a0, a5, t0
	or	a1, a1, a3
	or	a3, a4, a6
	sd	a2, 0(sp)
	sd	a3, 8(sp)
	mv	a2, sp
	li	a3, 1
	call	aes_narrow.aes_narrow.blocks.process_all_batches.1
	call	aes_narrow.aes_cipher.zeroize.stack.wipe_stack.1024
	ld	a1, 0(sp)
	ld	t4, 8(sp)
	srli	t2, s5, 40
	lui	a6, 16
	srli	t0, s5, 56
	srli	a5, s5, 24
	lui	a7, 4080
	srli	a3, s5, 8
	srliw	t3, s5, 24
	slli	t1, s5, 56
	addi	s7, s7, -1
	addi	a2, a6, -256
	and	a5, a5, a7
	srliw	a3, a3, 24
	and	a4, s5, a7
	slli	t3, t3, 32
	and	a0, t2, a2
	slli	a3, a3, 24
	slli	a4, a4, 24
	and	a2, s5, a2
	addi	s5, s5, 1
	or	a0, a0, t0
	or	a3, a3, a5
	or	a6, a4, t3
	slli	a2, a2, 40
	srli	a7, a1, 56
	srli	t0, a1, 48
	srli	a5, a1, 40
	srli	a4, a1, 32
	srli	t2, a1, 24
	srli	t3, a1, 16
	srli	t5, a1, 8
	srli	t6, t4, 48
	srli	s8, t4, 56
	srli	s9, t4, 32
	or	s10, a3, a0
	srli	a3, t4, 40
	or	a2, t1, a2
	srli	a0, t4, 16
	sb	a4, 4(s0)
	sb	a5, 5(s0)
	sb	t0, 6(s0)
	sb	a7, 7(s0)
	srli	a4, t4, 24
	sb	a1, 0(s0)
	sb	t5, 1(s0)
	sb	t3, 2(s0)
	sb	t2, 3(s0)
	srli	a1, t4, 8
	sb	s9, 4(s1)
	sb	a3, 5(s1)
	sb	t6, 6(s1)
	sb	s8, 7(s1)
	sb	t4, 0(s1)
	sb	a1, 1(s1)
	sb	a0, 2(s1)
	sb	a4, 3(s1)
	or	a0, a2, a6
	lbu	a1, 0(s0)
	lbu	a2, 1(s0)
	lbu	a3, 2(s0)
	lbu	a4, 3(s0)
	or	a6, a0, s10
	slli	a2, a2, 8
	or	a7, a2, a1
	lbu	a2, 4(s0)
	lbu	a5, 5(s0)
	lbu	a0, 6(s0)
	lbu	a1, 7(s0)
	slli	a3, a3, 16
	slli	a4, a4, 24
	slli	a5, a5, 8
	slli	a0, a0, 16
	slli	a1, a1, 24
	or	a3, a3, a4
	or	a2, a2, a5
	or	a0, a0, a1
	or	a1, a3, a7
	or	a0, a0, a2
	slli	a0, a0, 32
	or	a0, a0, a1
	xor	a2, a0, a6
	srli	a7, a2, 48
	srli	a1, a2, 56
	srli	a3, a2, 32
	srli	a4, a2, 40
	srli	a5, a2, 16
	srli	a6, a2, 24
	srli	a0, a2, 8
	sb	a3, 4(s0)
	sb	a4, 5(s0)
	sb	a7, 6(s0)
	sb	a1, 7(s0)
	sb	a2, 0(s0)
	sb	a0, 1(s0)
	sb	a5, 2(s0)
	sb	a6, 3(s0)
	addi	s1, s1, 8
	bnez	s7, .Laes_narrow_BB17_6
# %bb.7:                                # %"key_wrap::steps::wrap_turn::<#f7269deedbd939eb>.exit.loopexit.2"
	add	s4, s4, s2
	addi	s4, s4, 1
	mv	s1, s3
	mv	s5, s2
.Laes_narrow_BB17_8:                               # %join.5.i.3
                                        # =>This Inner Loop Header: Depth=1
	lbu	t0, 0(s6)
	lbu	t4, 1(s6)
	lbu	a3, 2(s6)
	lbu	a4, 3(s6)
	lbu	a6, 4(s6)
	lbu	a7, 5(s6)
	lbu	t1, 6(s6)
	lbu	t2, 7(s6)
	lbu	t3, 8(s6)
	lbu	a0, 9(s6)
	lbu	a5, 10(s6)
	lbu	a1, 11(s6)
	slli	t4, t4, 8
	slli	a3, a3, 16
	slli	a4, a4, 24
	or	t0, t4, t0
	or	t4, a4, a3
	lbu	t5, 12(s6)
	lbu	t6, 13(s6)
	lbu	s7, 14(s6)
	lbu	a4, 15(s6)
	slli	a7, a7, 8
	slli	t1, t1, 16
	slli	t2, t2, 24
	slli	a0, a0, 8
	slli	a5, a5, 16
	slli	a1, a1, 24
	or	a6, a7, a6
	or	a7, t2, t1
	or	t1, a0, t3
	or	t2, a1, a5
	lbu	a5, 0(s1)
	lbu	a0, 1(s1)
	lbu	a1, 2(s1)
	lbu	a3, 3(s1)
	slli	t6, t6, 8
	slli	s7, s7, 16
	slli	a4, a4, 24
	slli	a0, a0, 8
	slli	a1, a1, 16
	slli	a3, a3, 24
	or	t3, t6, t5
	or	t6, a4, s7
	or	t5, a0, a5
	or	s7, a3, a1
	lbu	a3, 5(s1)
	lbu	a5, 4(s1)
	lbu	a0, 6(s1)
	lbu	a4, 7(s1)
	slli	a3, a3, 8
	or	s8, a3, a5
	slli	a0, a0, 16
	slli	a4, a4, 24
	or	a0, a0, a4
	or	t0, t4, t0
	or	a5, a7, a6
	or	a1, t2, t1
	or	a3, t6, t3
	or	a6, s7, t5
	or	a0, a0, s8
	slli	a5, a5, 32
	slli	a3, a3, 32
	slli	a4, a0, 32
	or	a0, a5, t0
	or	a1, a1, a3
	or	a3, a4, a6
	sd	a2, 0(sp)
	sd	a3, 8(sp)
	mv	a2, sp
	li	a3, 1
	call	aes_narrow.aes_narrow.blocks.process_all_batches.1
	call	aes_narrow.aes_cipher.zeroize.stack.wipe_stack.1024
	ld	a1, 0(sp)
	ld	t4, 8(sp)
	srli	t2, s4, 40
	lui	a6, 16
	srli	t0, s4, 56
	srli	a5, s4, 24
	lui	a7, 4080
	srli	a3, s4, 8
	srliw	t3, s4, 24
	slli	t1, s4, 56
	addi	s5, s5, -1
	addi	a2, a6, -256
	and	a5, a5, a7
	srliw	a3, a3, 24
	and	a4, s4, a7
	slli	t3, t3, 32
	and	a0, t2, a2
	slli	a3, a3, 24
	slli	a4, a4, 24
	and	a2, s4, a2
	addi	s4, s4, 1
	or	a0, a0, t0
	or	a3, a3, a5
	or	a6, a4, t3
	slli	a2, a2, 40
	srli	a7, a1, 56
	srli	t0, a1, 48
	srli	a5, a1, 40
	srli	a4, a1, 32
	srli	t2, a1, 24
	srli	t3, a1, 16
	srli	t5, a1, 8
	srli	t6, t4, 48
	srli	s7, t4, 56
	srli	s8, t4, 32
	or	s9, a3, a0
	srli	a3, t4, 40
	or	a2, t1, a2
	srli	a0, t4, 16
	sb	a4, 4(s0)
	sb	a5, 5(s0)
	sb	t0, 6(s0)
	sb	a7, 7(s0)
	srli	a4, t4, 24
	sb	a1, 0(s0)
	sb	t5, 1(s0)
	sb	t3, 2(s0)
	sb	t2, 3(s0)
	srli	a1, t4, 8
	sb	s8, 4(s1)
	sb	a3, 5(s1)
	sb	t6, 6(s1)
	sb	s7, 7(s1)
	sb	t4, 0(s1)
	sb	a1, 1(s1)
	sb	a0, 2(s1)
	sb	a4, 3(s1)
	or	a0, a2, a6
	lbu	a1, 0(s0)
	lbu	a2, 1(s0)
	lbu	a3, 2(s0)
	lbu	a4, 3(s0)
	or	a6, a0, s9
	slli	a2, a2, 8
	or	a7, a2, a1
	lbu	a2, 4(s0)
	lbu	a5, 5(s0)
	lbu	a0, 6(s0)
	lbu	a1, 7(s0)
	slli	a3, a3, 16
	slli	a4, a4, 24
	slli	a5, a5, 8
	slli	a0, a0, 16
	slli	a1, a1, 24
	or	a3, a3, a4
	or	a2, a2, a5
	or	a0, a0, a1
	or	a1, a3, a7
	or	a0, a0, a2
	slli	a0, a0, 32
	or	a0, a0, a1
	xor	a2, a0, a6
	srli	a7, a2, 48
	srli	a1, a2, 56
	srli	a3, a2, 32
	srli	a4, a2, 40
	srli	a5, a2, 16
	srli	a6, a2, 24
	srli	a0, a2, 8
	sb	a3, 4(s0)
	sb	a4, 5(s0)
	sb	a7, 6(s0)
	sb	a1, 7(s0)
	sb	a2, 0(s0)
	sb	a0, 1(s0)
	sb	a5, 2(s0)
	sb	a6, 3(s0)
	addi	s1, s1, 8
	bnez	s5, .Laes_narrow_BB17_8
# %bb.9:                                # %"key_wrap::steps::wrap_turn::<#f7269deedbd939eb>.exit.loopexit.3"
	slli	s4, s2, 2
	addi	s5, s4, 1
	mv	s1, s3
	mv	s7, s2
.Laes_narrow_BB17_10:                              # %join.5.i.4
                                        # =>This Inner Loop Header: Depth=1
	lbu	t0, 0(s6)
	lbu	t4, 1(s6)
	lbu	a3, 2(s6)
	lbu	a4, 3(s6)
	lbu	a6, 4(s6)
	lbu	a7, 5(s6)
	lbu	t1, 6(s6)
	lbu	t2, 7(s6)
	lbu	t3, 8(s6)
	lbu	a0, 9(s6)
	lbu	a5, 10(s6)
	lbu	a1, 11(s6)
	slli	t4, t4, 8
	slli	a3, a3, 16
	slli	a4, a4, 24
	or	t0, t4, t0
	or	t4, a4, a3
	lbu	t5, 12(s6)
	lbu	t6, 13(s6)
	lbu	s8, 14(s6)
	lbu	a4, 15(s6)
	slli	a7, a7, 8
	slli	t1, t1, 16
	slli	t2, t2, 24
	slli	a0, a0, 8
	slli	a5, a5, 16
	slli	a1, a1, 24
	or	a6, a7, a6
	or	a7, t2, t1
	or	t1, a0, t3
	or	t2, a1, a5
	lbu	a5, 0(s1)
	lbu	a0, 1(s1)
	lbu	a1, 2(s1)
	lbu	a3, 3(s1)
	slli	t6, t6, 8
	slli	s8, s8, 16
	slli	a4, a4, 24
	slli	a0, a0, 8
	slli	a1, a1, 16
	slli	a3, a3, 24
	or	t3, t6, t5
	or	t6, a4, s8
	or	t5, a0, a5
	or	s8, a3, a1
	lbu	a3, 5(s1)
	lbu	a5, 4(s1)
	lbu	a0, 6(s1)
	lbu	a4, 7(s1)
	slli	a3, a3, 8
	or	s9, a3, a5
	slli	a0, a0, 16
	slli	a4, a4, 24
	or	a0, a0, a4
	or	t0, t4, t0
	or	a5, a7, a6
	or	a1, t2, t1
	or	a3, t6, t3
	or	a6, s8, t5
	or	a0, a0, s9
	slli	a5, a5, 32
	slli	a3, a3, 32
	slli	a4, a0, 32
	or	a0, a5, t0
	or	a1, a1, a3
	or	a3, a4, a6
	sd	a2, 0(sp)
	sd	a3, 8(sp)
	mv	a2, sp
	li	a3, 1
	call	aes_narrow.aes_narrow.blocks.process_all_batches.1
	call	aes_narrow.aes_cipher.zeroize.stack.wipe_stack.1024
	ld	a1, 0(sp)
	ld	t4, 8(sp)
	srli	t2, s5, 40
	lui	a6, 16
	srli	t0, s5, 56
	srli	a5, s5, 24
	lui	a7, 4080
	srli	a3, s5, 8
	srliw	t3, s5, 24
	slli	t1, s5, 56
	addi	s7, s7, -1
	addi	a2, a6, -256
	and	a5, a5, a7
	srliw	a3, a3, 24
	and	a4, s5, a7
	slli	t3, t3, 32
	and	a0, t2, a2
	slli	a3, a3, 24
	slli	a4, a4, 24
	and	a2, s5, a2
	addi	s5, s5, 1
	or	a0, a0, t0
	or	a3, a3, a5
	or	a6, a4, t3
	slli	a2, a2, 40
	srli	a7, a1, 56
	srli	t0, a1, 48
	srli	a5, a1, 40
	srli	a4, a1, 32
	srli	t2, a1, 24
	srli	t3, a1, 16
	srli	t5, a1, 8
	srli	t6, t4, 48
	srli	s8, t4, 56
	srli	s9, t4, 32
	or	s10, a3, a0
	srli	a3, t4, 40
	or	a2, t1, a2
	srli	a0, t4, 16
	sb	a4, 4(s0)
	sb	a5, 5(s0)
	sb	t0, 6(s0)
	sb	a7, 7(s0)
	srli	a4, t4, 24
	sb	a1, 0(s0)
	sb	t5, 1(s0)
	sb	t3, 2(s0)
	sb	t2, 3(s0)
	srli	a1, t4, 8
	sb	s9, 4(s1)
	sb	a3, 5(s1)
	sb	t6, 6(s1)
	sb	s8, 7(s1)
	sb	t4, 0(s1)
	sb	a1, 1(s1)
	sb	a0, 2(s1)
	sb	a4, 3(s1)
	or	a0, a2, a6
	lbu	a1, 0(s0)
	lbu	a2, 1(s0)
	lbu	a3, 2(s0)
	lbu	a4, 3(s0)
	or	a6, a0, s10
	slli	a2, a2, 8
	or	a7, a2, a1
	lbu	a2, 4(s0)
	lbu	a5, 5(s0)
	lbu	a0, 6(s0)
	lbu	a1, 7(s0)
	slli	a3, a3, 16
	slli	a4, a4, 24
	slli	a5, a5, 8
	slli	a0, a0, 16
	slli	a1, a1, 24
	or	a3, a3, a4
	or	a2, a2, a5
	or	a0, a0, a1
	or	a1, a3, a7
	or	a0, a0, a2
	slli	a0, a0, 32
	or	a0, a0, a1
	xor	a2, a0, a6
	srli	a7, a2, 48
	srli	a1, a2, 56
	srli	a3, a2, 32
	srli	a4, a2, 40
	srli	a5, a2, 16
	srli	a6, a2, 24
	srli	a0, a2, 8
	sb	a3, 4(s0)
	sb	a4, 5(s0)
	sb	a7, 6(s0)
	sb	a1, 7(s0)
	sb	a2, 0(s0)
	sb	a0, 1(s0)
	sb	a5, 2(s0)
	sb	a6, 3(s0)
	addi	s1, s1, 8
	bnez	s7, .Laes_narrow_BB17_10
# %bb.11:                               # %"key_wrap::steps::wrap_turn::<#f7269deedbd939eb>.exit.loopexit.4"
	add	s4, s4, s2
	addi	s4, s4, 1
.Laes_narrow_BB17_12:                              # %join.5.i.5
                                        # =>This Inner Loop Header: Depth=1
	lbu	t0, 0(s6)
	lbu	a4, 1(s6)
	lbu	a3, 2(s6)
	lbu	a1, 3(s6)
	lbu	a6, 4(s6)
	lbu	a7, 5(s6)
	lbu	t1, 6(s6)
	lbu	t3, 7(s6)
	lbu	t2, 8(s6)
	lbu	a5, 9(s6)
	lbu	a0, 10(s6)
	lbu	s1, 11(s6)
	slli	a4, a4, 8
	slli	a3, a3, 16
	slli	a1, a1, 24
	or	t0, a4, t0
	or	t4, a1, a3
	lbu	t5, 12(s6)
	lbu	t6, 13(s6)
	lbu	a1, 14(s6)
	lbu	a3, 15(s6)
	slli	a7, a7, 8
	slli	t1, t1, 16
	slli	t3, t3, 24
	slli	a5, a5, 8
	slli	a0, a0, 16
	slli	s1, s1, 24
	or	a6, a7, a6
	or	a7, t3, t1
	or	t1, a5, t2
	or	t2, s1, a0
	lbu	s1, 0(s3)
	lbu	a5, 1(s3)
	lbu	a0, 2(s3)
	lbu	a4, 3(s3)
	slli	t6, t6, 8
	slli	a1, a1, 16
	slli	a3, a3, 24
	slli	a5, a5, 8
	slli	a0, a0, 16
	slli	a4, a4, 24
	or	t3, t6, t5
	or	t5, a3, a1
	or	t6, a5, s1
	or	s5, a4, a0
	lbu	a3, 5(s3)
	lbu	a4, 4(s3)
	lbu	s1, 6(s3)
	lbu	a1, 7(s3)
	slli	a3, a3, 8
	or	s7, a3, a4
	slli	s1, s1, 16
	slli	a1, a1, 24
	or	a1, a1, s1
	or	t0, t4, t0
	or	s1, a7, a6
	or	a6, t2, t1
	or	a0, t5, t3
	or	a3, s5, t6
	or	a1, a1, s7
	slli	s1, s1, 32
	slli	a4, a0, 32
	slli	a5, a1, 32
	or	a0, s1, t0
	or	a1, a4, a6
	or	a3, a3, a5
	sd	a2, 0(sp)
	sd	a3, 8(sp)
	mv	a2, sp
	li	a3, 1
	call	aes_narrow.aes_narrow.blocks.process_all_batches.1
	call	aes_narrow.aes_cipher.zeroize.stack.wipe_stack.1024
	ld	a1, 0(sp)
	ld	t3, 8(sp)
	srli	t1, s4, 40
	lui	a6, 16
	srli	t0, s4, 56
	srli	a5, s4, 24
	lui	a7, 4080
	srli	a3, s4, 8
	srliw	s1, s4, 24
	slli	t2, s4, 56
	addi	s2, s2, -1
	addi	a2, a6, -256
	and	a5, a5, a7
	srliw	a3, a3, 24
	and	a4, s4, a7
	slli	s1, s1, 32
	and	a0, t1, a2
	slli	a3, a3, 24
	slli	a4, a4, 24
	and	a2, s4, a2
	addi	s4, s4, 1
	or	a0, a0, t0
	or	a3, a3, a5
	or	a6, a4, s1
	slli	a2, a2, 40
	srli	a7, a1, 56
	srli	t4, a1, 48
	srli	a4, a1, 40
	srli	a5, a1, 32
	srli	t0, a1, 24
	srli	t1, a1, 16
	srli	s1, a1, 8
	srli	t5, t3, 48
	srli	t6, t3, 56
	srli	s5, t3, 32
	or	s7, a3, a0
	srli	a3, t3, 40
	or	a2, t2, a2
	srli	a0, t3, 16
	sb	a5, 4(s0)
	sb	a4, 5(s0)
	sb	t4, 6(s0)
	sb	a7, 7(s0)
	srli	a4, t3, 24
	sb	a1, 0(s0)
	sb	s1, 1(s0)
	sb	t1, 2(s0)
	sb	t0, 3(s0)
	srli	a1, t3, 8
	sb	s5, 4(s3)
	sb	a3, 5(s3)
	sb	t5, 6(s3)
	sb	t6, 7(s3)
	sb	t3, 0(s3)
	sb	a1, 1(s3)
	sb	a0, 2(s3)
	sb	a4, 3(s3)
	or	a0, a2, a6
	lbu	a1, 0(s0)
	lbu	a2, 1(s0)
	lbu	a3, 2(s0)
	lbu	a4, 3(s0)
	or	a6, a0, s7
	slli	a2, a2, 8
	or	a1, a1, a2
	lbu	a2, 4(s0)
	lbu	a5, 5(s0)
	lbu	s1, 6(s0)
	lbu	a0, 7(s0)
	slli	a3, a3, 16
	slli	a4, a4, 24
	slli	a5, a5, 8
	slli	s1, s1, 16
	slli	a0, a0, 24
	or	a3, a3, a4
	or	a2, a2, a5
	or	a0, a0, s1
	or	a1, a1, a3
	or	a0, a0, a2
	slli	a0, a0, 32
	or	a0, a0, a1
	xor	a2, a0, a6
	srli	a6, a2, 48
	srli	a1, a2, 56
	srli	a3, a2, 32
	srli	a4, a2, 40
	srli	a5, a2, 16
	srli	s1, a2, 24
	srli	a0, a2, 8
	sb	a3, 4(s0)
	sb	a4, 5(s0)
	sb	a6, 6(s0)
	sb	a1, 7(s0)
	sb	a2, 0(s0)
	sb	a0, 1(s0)
	sb	a5, 2(s0)
	sb	s1, 3(s0)
	addi	s3, s3, 8
	bnez	s2, .Laes_narrow_BB17_12
# %bb.13:
	ld	ra, 104(sp)                     # 8-byte Folded Reload
	ld	s0, 96(sp)                      # 8-byte Folded Reload
	ld	s1, 88(sp)                      # 8-byte Folded Reload
	ld	s2, 80(sp)                      # 8-byte Folded Reload
	ld	s3, 72(sp)                      # 8-byte Folded Reload
	ld	s4, 64(sp)                      # 8-byte Folded Reload
	ld	s5, 56(sp)                      # 8-byte Folded Reload
	ld	s6, 48(sp)                      # 8-byte Folded Reload
	ld	s7, 40(sp)                      # 8-byte Folded Reload
	ld	s8, 32(sp)                      # 8-byte Folded Reload
	ld	s9, 24(sp)                      # 8-byte Folded Reload
	ld	s10, 16(sp)                     # 8-byte Folded Reload
	addi	sp, sp, 112
.Laes_narrow_BB17_14:                              # %after.1
	ret
.Laes_narrow_func_end17:
	.size	aes_narrow.key_wrap.steps.wrap_in_place, .Laes_narrow_func_end17-aes_narrow.key_wrap.steps.wrap_in_place
                                        # -- End function
	.section	.text.aes_narrow.aes_cipher.zeroize.stack.wipe_stack.512,"ax",@progbits
	.p2align	1                               # -- Begin function aes_cipher::zeroize::stack::wipe_stack::<=512>
	.type	aes_narrow.aes_cipher.zeroize.stack.wipe_stack.512,@function
aes_narrow.aes_cipher.zeroize.stack.wipe_stack.512: # @aes_narrow.aes_cipher.zeroize.stack.wipe_stack.512
# %bb.0:                                # %start
	addi	sp, sp, -544
	sd	ra, 536(sp)                     # 8-byte Folded Spill
	sd	s0, 528(sp)                     # 8-byte Folded Spill
	sd	s1, 520(sp)                     # 8-byte Folded Spill
	addi	s0, sp, 8
	addi	a0, sp, 8
	li	a2, 512
	li	s1, 512
	li	a1, 0
	la	t1, memset
	jalr	t1
	sd	zero, 0(sp)
	#APP
	#NO_APP
	fence	rw, rw
	ld	a0, 0(sp)
	fence	r, rw
	#APP
	#NO_APP
	bgeu	a0, s1, .Laes_narrow_BB18_2
# %bb.1:                                # %then.1
	add	a0, a0, s0
	lbu	a0, 0(a0)
	#APP
	#NO_APP
	mv	a1, sp
	amoswap.d.aqrl	zero, a0, (a1)
	#APP
	#NO_APP
.Laes_narrow_BB18_2:                               # %common.ret
	ld	ra, 536(sp)                     # 8-byte Folded Reload
	ld	s0, 528(sp)                     # 8-byte Folded Reload
	ld	s1, 520(sp)                     # 8-byte Folded Reload
	addi	sp, sp, 544
	li	a1, 0
	li	a2, 0
	li	a3, 0
	li	a4, 0
	li	a5, 0
	li	a6, 0
	li	a7, 0
	li	t0, 0
	li	t1, 0
	li	t2, 0
	li	t3, 0
	li	t4, 0
	li	t5, 0
	li	t6, 0
	ret
.Laes_narrow_func_end18:
	.size	aes_narrow.aes_cipher.zeroize.stack.wipe_stack.512, .Laes_narrow_func_end18-aes_narrow.aes_cipher.zeroize.stack.wipe_stack.512
                                        # -- End function
	.section	.text.aes_narrow.key_wrap.padded.wrap_padded,"ax",@progbits
	.p2align	1                               # -- Begin function key_wrap::padded::wrap_padded::<#f7269deedbd939eb>
	.type	aes_narrow.key_wrap.padded.wrap_padded,@function
aes_narrow.key_wrap.padded.wrap_padded: # @aes_narrow.key_wrap.padded.wrap_padded
# %bb.0:                                # %start
	addi	sp, sp, -96
	sd	ra, 88(sp)                      # 8-byte Folded Spill
	sd	s0, 80(sp)                      # 8-byte Folded Spill
	sd	s1, 72(sp)                      # 8-byte Folded Spill
	sd	s2, 64(sp)                      # 8-byte Folded Spill
	sd	s3, 56(sp)                      # 8-byte Folded Spill
	sd	s4, 48(sp)                      # 8-byte Folded Spill
	sd	s5, 40(sp)                      # 8-byte Folded Spill
	sd	s6, 32(sp)                      # 8-byte Folded Spill
	sd	s7, 24(sp)                      # 8-byte Folded Spill
	mv	s2, a3
	mv	s7, a2
	mv	s6, a1
	addi	a2, a2, -1
	li	a1, 1
	slli	a3, a1, 32
	addi	a3, a3, -2
	bltu	a3, a2, .Laes_narrow_BB19_10
# %bb.1:                                # %start
	addi	a2, s7, 7
	srli	a2, a2, 3
	addi	a2, a2, 1
	bne	a4, a2, .Laes_narrow_BB19_10
# %bb.2:                                # %arm.5
	addi	s3, s2, 8
	addi	s4, a4, -1
	lui	a1, 864971
	srli	a2, s7, 8
	srli	a3, s7, 16
	srli	a4, s7, 24
	addi	a1, a1, -813
	sb	a4, 4(s2)
	sb	a3, 5(s2)
	sb	a2, 6(s2)
	sb	s7, 7(s2)
	slli	a1, a1, 33
	or	a1, s7, a1
	srli	a2, a1, 56
	srli	a3, a1, 32
	srli	a4, a1, 40
	srli	a1, a1, 48
	sb	a2, 0(s2)
	sb	a1, 1(s2)
	sb	a4, 2(s2)
	sb	a3, 3(s2)
	beqz	s4, .Laes_narrow_BB19_9
# %bb.3:                                # %join.5.i.preheader
	mv	s5, a0
	mv	s0, s3
	mv	s1, s4
	j	.Laes_narrow_BB19_5
.Laes_narrow_BB19_4:                               # %join.5.i
                                        #   in Loop: Header=BB19_5 Depth=1
	sd	zero, 8(sp)
	addi	a0, sp, 8
	mv	a1, s6
	la	t1, memcpy
	jalr	t1
	ld	a0, 8(sp)
	addi	s1, s1, -1
	addi	s7, s7, -8
	srli	a1, a0, 56
	srli	a2, a0, 48
	srli	a3, a0, 40
	srli	a4, a0, 32
	srli	a6, a0, 24
	srli	a5, a0, 16
	sb	a4, 4(s0)
	sb	a3, 5(s0)
	sb	a2, 6(s0)
	sb	a1, 7(s0)
	srli	a1, a0, 8
	sb	a0, 0(s0)
	sb	a1, 1(s0)
	sb	a5, 2(s0)
	sb	a6, 3(s0)
	addi	s0, s0, 8
	addi	s6, s6, 8
	beqz	s1, .Laes_narrow_BB19_7
.Laes_narrow_BB19_5:                               # %join.5.i
                                        # =>This Inner Loop Header: Depth=1
	li	a0, 8
	mv	a2, s7
	bltu	s7, a0, .Laes_narrow_BB19_4
# %bb.6:                                # %join.5.i
                                        #   in Loop: Header=BB19_5 Depth=1
	li	a2, 8
	j	.Laes_narrow_BB19_4
.Laes_narrow_BB19_7:                               # %"key_wrap::padded::fill.exit"
	li	a1, 1
	mv	a0, s5
	bne	s4, a1, .Laes_narrow_BB19_9
# %bb.8:                                # %then.1.i
	lbu	t1, 0(s2)
	lbu	t3, 1(s2)
	lbu	a3, 2(s2)
	lbu	a4, 3(s2)
	lbu	a5, 4(s2)
	lbu	s1, 5(s2)
	lbu	a6, 6(s2)
	lbu	t0, 7(s2)
	lbu	a7, 8(s2)
	lbu	t2, 9(s2)
	lbu	t4, 10(s2)
	lbu	s0, 11(s2)
	lbu	a2, 12(s2)
	lbu	a1, 13(s2)
	lbu	t5, 14(s2)
	lbu	t6, 15(s2)
	slli	t3, t3, 8
	slli	a3, a3, 16
	slli	a4, a4, 24
	slli	s1, s1, 8
	or	t1, t3, t1
	or	t3, a4, a3
	or	s3, s1, a5
	lbu	s4, 0(a0)
	lbu	a4, 1(a0)
	lbu	a5, 2(a0)
	lbu	s1, 3(a0)
	slli	a6, a6, 16
	slli	t0, t0, 24
	slli	t2, t2, 8
	slli	t4, t4, 16
	slli	s0, s0, 24
	slli	a1, a1, 8
	or	t0, t0, a6
	or	a6, t2, a7
	or	a7, s0, t4
	or	t2, a1, a2
	lbu	a1, 4(a0)
	lbu	a2, 5(a0)
	lbu	s0, 6(a0)
	lbu	a3, 7(a0)
	slli	t5, t5, 16
	slli	t6, t6, 24
	slli	a4, a4, 8
	slli	a5, a5, 16
	slli	s1, s1, 24
	slli	a2, a2, 8
	or	t4, t6, t5
	or	t5, a4, s4
	or	s4, s1, a5
	or	t6, a2, a1
	lbu	a2, 8(a0)
	lbu	s1, 9(a0)
	lbu	a4, 10(a0)
	lbu	a1, 11(a0)
	slli	s0, s0, 16
	slli	a3, a3, 24
	slli	s1, s1, 8
	slli	a4, a4, 16
	slli	a1, a1, 24
	or	s6, a3, s0
	or	s5, s1, a2
	or	s7, a1, a4
	lbu	a4, 13(a0)
	lbu	s0, 12(a0)
	lbu	s1, 14(a0)
	lbu	a0, 15(a0)
	slli	a4, a4, 8
	or	a4, a4, s0
	slli	s1, s1, 16
	slli	a0, a0, 24
	or	a0, a0, s1
	or	s1, t3, t1
	or	s0, t0, s3
	or	a5, a7, a6
	or	a2, t4, t2
	or	a3, s4, t5
	or	a1, s6, t6
	or	a6, s7, s5
	or	a0, a0, a4
	slli	s0, s0, 32
	or	s0, s0, s1
	slli	a2, a2, 32
	or	a2, a2, a5
	slli	a1, a1, 32
	slli	a4, a0, 32
	or	a0, a1, a3
	sd	s0, 8(sp)
	sd	a2, 16(sp)
	or	a1, a4, a6
	addi	a2, sp, 8
	li	a3, 1
	call	aes_narrow.aes_narrow.blocks.process_all_batches.1
	call	aes_narrow.aes_cipher.zeroize.stack.wipe_stack.1024
	li	a1, 0
	ld	a0, 8(sp)
	ld	a2, 16(sp)
	srli	a6, a0, 56
	srli	t1, a0, 48
	srli	a5, a0, 40
	srli	s1, a0, 32
	srli	a7, a0, 24
	srli	t2, a0, 16
	srli	s0, a0, 8
	srli	t0, a2, 56
	srli	t3, a2, 48
	srli	a3, a2, 40
	srli	a4, a2, 32
	sb	s1, 4(s2)
	sb	a5, 5(s2)
	sb	t1, 6(s2)
	sb	a6, 7(s2)
	srli	a5, a2, 24
	sb	a0, 0(s2)
	sb	s0, 1(s2)
	sb	t2, 2(s2)
	sb	a7, 3(s2)
	srli	a0, a2, 16
	sb	a4, 12(s2)
	sb	a3, 13(s2)
	sb	t3, 14(s2)
	sb	t0, 15(s2)
	srli	a3, a2, 8
	sb	a2, 8(s2)
	sb	a3, 9(s2)
	sb	a0, 10(s2)
	sb	a5, 11(s2)
	j	.Laes_narrow_BB19_10
.Laes_narrow_BB19_9:                               # %else.2.i
	mv	a1, s2
	mv	a2, s3
	mv	a3, s4
	call	aes_narrow.key_wrap.steps.wrap_in_place
	li	a1, 0
.Laes_narrow_BB19_10:                              # %return.4
	mv	a0, a1
	ld	ra, 88(sp)                      # 8-byte Folded Reload
	ld	s0, 80(sp)                      # 8-byte Folded Reload
	ld	s1, 72(sp)                      # 8-byte Folded Reload
	ld	s2, 64(sp)                      # 8-byte Folded Reload
	ld	s3, 56(sp)                      # 8-byte Folded Reload
	ld	s4, 48(sp)                      # 8-byte Folded Reload
	ld	s5, 40(sp)                      # 8-byte Folded Reload
	ld	s6, 32(sp)                      # 8-byte Folded Reload
	ld	s7, 24(sp)                      # 8-byte Folded Reload
	addi	sp, sp, 96
	ret
.Laes_narrow_func_end19:
	.size	aes_narrow.key_wrap.padded.wrap_padded, .Laes_narrow_func_end19-aes_narrow.key_wrap.padded.wrap_padded
                                        # -- End function
	.section	.text.aes_narrow.aes_narrow.borrowed_words.call_to_decrypt,"ax",@progbits
	.p2align	1                               # -- Begin function aes_narrow::borrowed_words::call_to_decrypt::<#b45b2a079ba1e49f>
	.type	aes_narrow.aes_narrow.borrowed_words.call_to_decrypt,@function
aes_narrow.aes_narrow.borrowed_words.call_to_decrypt: # @aes_narrow.aes_narrow.borrowed_words.call_to_decrypt
# %bb.0:                                # %start
	addi	sp, sp, -1168
	sd	ra, 1160(sp)                    # 8-byte Folded Spill
	sd	s0, 1152(sp)                    # 8-byte Folded Spill
	sd	s1, 1144(sp)                    # 8-byte Folded Spill
	sd	s2, 1136(sp)                    # 8-byte Folded Spill
	sd	s3, 1128(sp)                    # 8-byte Folded Spill
	sd	s4, 1120(sp)                    # 8-byte Folded Spill
	sd	s5, 1112(sp)                    # 8-byte Folded Spill
	sd	s6, 1104(sp)                    # 8-byte Folded Spill
	sd	s7, 1096(sp)                    # 8-byte Folded Spill
	sd	s8, 1088(sp)                    # 8-byte Folded Spill
	sd	s9, 1080(sp)                    # 8-byte Folded Spill
	sd	s10, 1072(sp)                   # 8-byte Folded Spill
	sd	s11, 1064(sp)                   # 8-byte Folded Spill
	mv	s2, a1
	ld	a1, 24(a2)
	beqz	a1, .Laes_narrow_BB20_13
# %bb.1:                                # %join.5.lr.ph.i.i
	mv	s7, a2
	mv	s3, a0
	li	s6, 0
	ld	a0, 16(a2)
	sd	a0, 24(sp)                      # 8-byte Folded Spill
	addi	a0, a0, 7
	sd	a0, 8(sp)                       # 8-byte Folded Spill
	sd	a1, 16(sp)                      # 8-byte Folded Spill
.Laes_narrow_BB20_2:                               # %join.5.i.i
                                        # =>This Loop Header: Depth=1
                                        #     Child Loop BB20_6 Depth 2
                                        #     Child Loop BB20_9 Depth 2
                                        #     Child Loop BB20_11 Depth 2
	sub	s9, a1, s6
	li	a0, 64
	mv	s10, s9
	bltu	s9, a0, .Laes_narrow_BB20_4
# %bb.3:                                # %join.5.i.i
                                        #   in Loop: Header=BB20_2 Depth=1
	li	s10, 64
.Laes_narrow_BB20_4:                               # %join.5.i.i
                                        #   in Loop: Header=BB20_2 Depth=1
	slli	s11, s6, 4
	ld	s8, 24(sp)                      # 8-byte Folded Reload
	add	s8, s8, s11
	slli	s4, s10, 4
	addi	a0, sp, 40
	li	a2, 1024
	li	a1, 0
	la	t1, memset
	jalr	t1
	addi	a0, sp, 40
	mv	a1, s8
	mv	a2, s4
	la	t1, memcpy
	jalr	t1
	li	a0, 4
	li	s1, 0
	bltu	s9, a0, .Laes_narrow_BB20_7
# %bb.5:                                # %join.5.i.i.i.i.preheader
                                        #   in Loop: Header=BB20_2 Depth=1
	li	s1, 0
	mv	s0, s10
.Laes_narrow_BB20_6:                               # %join.5.i.i.i.i
                                        #   Parent Loop BB20_2 Depth=1
                                        # =>  This Inner Loop Header: Depth=2
	addi	s1, s1, 4
	li	a3, 4
	mv	a0, s3
	mv	a1, s2
	mv	a2, s8
	call	aes_narrow.aes_soft.soft.blocks.filled_up.process_filled_up.2
	addi	s0, s0, -4
	li	a0, 3
	addi	s8, s8, 64
	bltu	a0, s0, .Laes_narrow_BB20_6
.Laes_narrow_BB20_7:                               # %loop.7.preheader.i.i.i.i
                                        #   in Loop: Header=BB20_2 Depth=1
	bgeu	s1, s10, .Laes_narrow_BB20_10
# %bb.8:                                # %join.10.i.i.i.i.preheader
                                        #   in Loop: Header=BB20_2 Depth=1
	sub	s0, s10, s1
	slli	s1, s1, 4
	add	s1, s1, s11
	ld	a0, 24(sp)                      # 8-byte Folded Reload
	add	s1, s1, a0
.Laes_narrow_BB20_9:                               # %join.10.i.i.i.i
                                        #   Parent Loop BB20_2 Depth=1
                                        # =>  This Inner Loop Header: Depth=2
	li	a3, 1
	mv	a0, s3
	mv	a1, s2
	mv	a2, s1
	call	aes_narrow.aes_soft.soft.blocks.filled_up.process_filled_up.2
	addi	s0, s0, -1
	addi	s1, s1, 16
	bnez	s0, .Laes_narrow_BB20_9
.Laes_narrow_BB20_10:                              # %join.7.lr.ph.i.i.i
                                        #   in Loop: Header=BB20_2 Depth=1
	lbu	a6, 0(s7)
	lbu	a7, 1(s7)
	lbu	t0, 2(s7)
	lbu	t1, 3(s7)
	lbu	t2, 4(s7)
	lbu	t3, 5(s7)
	lbu	t4, 6(s7)
	lbu	t5, 7(s7)
	lbu	t6, 8(s7)
	lbu	ra, 9(s7)
	lbu	s8, 10(s7)
	lbu	s9, 11(s7)
	lbu	s5, 12(s7)
	lbu	a5, 13(s7)
	lbu	s1, 14(s7)
	lbu	a4, 15(s7)
	add	s6, s6, s10
	sd	s6, 32(sp)                      # 8-byte Folded Spill
	ld	a0, 8(sp)                       # 8-byte Folded Reload
	add	a0, a0, s11
	addi	a1, sp, 47
.Laes_narrow_BB20_11:                              # %join.7.i.i.i
                                        #   Parent Loop BB20_2 Depth=1
                                        # =>  This Inner Loop Header: Depth=2
	lbu	s0, 8(a0)
	lbu	a3, 7(a0)
	lbu	a2, 6(a0)
	lbu	s6, 5(a0)
	xor	s4, s0, a4
	xor	s11, a3, s1
	xor	a2, a2, a5
	xor	s5, s6, s5
	lbu	a3, 4(a0)
	lbu	a5, 3(a0)
	lbu	s0, 2(a0)
	lbu	s1, 1(a0)
	xor	s6, a3, s9
	xor	s8, a5, s8
	xor	ra, s0, ra
	xor	t6, s1, t6
	lbu	a5, 0(a0)
	lbu	s0, -1(a0)
	lbu	s1, -2(a0)
	lbu	a4, -3(a0)
	xor	t5, a5, t5
	xor	t4, s0, t4
	xor	t3, s1, t3
	xor	a5, a4, t2
	lbu	a4, -4(a0)
	lbu	s0, -5(a0)
	lbu	a3, -6(a0)
	lbu	s1, -7(a0)
	xor	a4, a4, t1
	xor	s0, s0, t0
	xor	a3, a3, a7
	xor	s1, s1, a6
	addi	s10, s10, -1
	sb	s1, -7(a0)
	sb	a3, -6(a0)
	sb	s0, -5(a0)
	sb	a4, -4(a0)
	lbu	a6, -7(a1)
	lbu	a7, -6(a1)
	lbu	t0, -5(a1)
	lbu	t1, -4(a1)
	sb	a5, -3(a0)
	sb	t3, -2(a0)
	sb	t4, -1(a0)
	sb	t5, 0(a0)
	lbu	t2, -3(a1)
	lbu	t3, -2(a1)
	lbu	t4, -1(a1)
	lbu	t5, 0(a1)
	sb	t6, 1(a0)
	sb	ra, 2(a0)
	sb	s8, 3(a0)
	sb	s6, 4(a0)
	lbu	t6, 1(a1)
	lbu	ra, 2(a1)
	lbu	s8, 3(a1)
	lbu	s9, 4(a1)
	sb	s5, 5(a0)
	sb	a2, 6(a0)
	sb	s11, 7(a0)
	sb	s4, 8(a0)
	lbu	s5, 5(a1)
	lbu	a5, 6(a1)
	lbu	s1, 7(a1)
	lbu	a4, 8(a1)
	addi	a0, a0, 16
	sb	a6, 0(s7)
	sb	a7, 1(s7)
	sb	t0, 2(s7)
	sb	t1, 3(s7)
	sb	t2, 4(s7)
	sb	t3, 5(s7)
	sb	t4, 6(s7)
	sb	t5, 7(s7)
	sb	t6, 8(s7)
	sb	ra, 9(s7)
	sb	s8, 10(s7)
	sb	s9, 11(s7)
	sb	s5, 12(s7)
	sb	a5, 13(s7)
	sb	s1, 14(s7)
	sb	a4, 15(s7)
	addi	a1, a1, 16
	bnez	s10, .Laes_narrow_BB20_11
# %bb.12:                               # %"cbc::decryption::unchain_part::<#3e45ddae9f4a7288>.exit.loopexit.i.i"
                                        #   in Loop: Header=BB20_2 Depth=1
	ld	a1, 16(sp)                      # 8-byte Folded Reload
	ld	s6, 32(sp)                      # 8-byte Folded Reload
	bltu	s6, a1, .Laes_narrow_BB20_2
.Laes_narrow_BB20_13:                              # %"cbc::decryption::ChainBlockCipherDecClosure::call::<#3e45ddae9f4a7288>.exit"
	ld	ra, 1160(sp)                    # 8-byte Folded Reload
	ld	s0, 1152(sp)                    # 8-byte Folded Reload
	ld	s1, 1144(sp)                    # 8-byte Folded Reload
	ld	s2, 1136(sp)                    # 8-byte Folded Reload
	ld	s3, 1128(sp)                    # 8-byte Folded Reload
	ld	s4, 1120(sp)                    # 8-byte Folded Reload
	ld	s5, 1112(sp)                    # 8-byte Folded Reload
	ld	s6, 1104(sp)                    # 8-byte Folded Reload
	ld	s7, 1096(sp)                    # 8-byte Folded Reload
	ld	s8, 1088(sp)                    # 8-byte Folded Reload
	ld	s9, 1080(sp)                    # 8-byte Folded Reload
	ld	s10, 1072(sp)                   # 8-byte Folded Reload
	ld	s11, 1064(sp)                   # 8-byte Folded Reload
	addi	sp, sp, 1168
	ret
.Laes_narrow_func_end20:
	.size	aes_narrow.aes_narrow.borrowed_words.call_to_decrypt, .Laes_narrow_func_end20-aes_narrow.aes_narrow.borrowed_words.call_to_decrypt
                                        # -- End function
	.section	.text.aes_narrow.aes_soft.soft.blocks.filled_up.process_filled_up.2,"ax",@progbits
	.p2align	1                               # -- Begin function aes_soft::soft::blocks::filled_up::process_filled_up::<#e30bc42c140a48e9>
	.type	aes_narrow.aes_soft.soft.blocks.filled_up.process_filled_up.2,@function
aes_narrow.aes_soft.soft.blocks.filled_up.process_filled_up.2: # @aes_narrow.aes_soft.soft.blocks.filled_up.process_filled_up.2
# %bb.0:                                # %start
	addi	sp, sp, -304
	sd	ra, 296(sp)                     # 8-byte Folded Spill
	sd	s0, 288(sp)                     # 8-byte Folded Spill
	sd	s1, 280(sp)                     # 8-byte Folded Spill
	sd	s2, 272(sp)                     # 8-byte Folded Spill
	sd	s3, 264(sp)                     # 8-byte Folded Spill
	sd	s4, 256(sp)                     # 8-byte Folded Spill
	mv	s4, a3
	mv	s0, a2
	mv	s3, a1
	mv	s2, a0
	lbu	a0, 8(a2)
	lbu	a1, 9(a2)
	lbu	a2, 10(a2)
	lbu	a3, 11(s0)
	lbu	a6, 12(s0)
	lbu	a5, 13(s0)
	lbu	s1, 14(s0)
	lbu	a4, 15(s0)
	slli	a1, a1, 8
	slli	a2, a2, 16
	slli	a3, a3, 24
	or	a7, a1, a0
	or	t0, a3, a2
	lbu	a1, 0(s0)
	lbu	a3, 1(s0)
	lbu	a0, 2(s0)
	lbu	a2, 3(s0)
	slli	a5, a5, 8
	slli	s1, s1, 16
	slli	a4, a4, 24
	slli	a3, a3, 8
	slli	a0, a0, 16
	slli	a2, a2, 24
	or	a6, a5, a6
	or	a4, a4, s1
	or	a1, a1, a3
	or	a0, a0, a2
	lbu	a2, 5(s0)
	lbu	a3, 4(s0)
	lbu	s1, 6(s0)
	lbu	a5, 7(s0)
	slli	a2, a2, 8
	or	a2, a2, a3
	slli	s1, s1, 16
	slli	a5, a5, 24
	or	a5, a5, s1
	or	a3, t0, a7
	or	a4, a4, a6
	or	a0, a0, a1
	or	a2, a2, a5
	sd	zero, 160(sp)
	sd	zero, 168(sp)
	sd	zero, 176(sp)
	sd	zero, 184(sp)
	sd	zero, 128(sp)
	sd	zero, 136(sp)
	sd	zero, 144(sp)
	sd	zero, 152(sp)
	sd	zero, 64(sp)
	sd	zero, 72(sp)
	sd	zero, 80(sp)
	sd	zero, 88(sp)
	sd	zero, 96(sp)
	sd	zero, 104(sp)
	sd	zero, 112(sp)
	sd	zero, 120(sp)
	sd	zero, 0(sp)
	sd	zero, 8(sp)
	sd	zero, 16(sp)
	sd	zero, 24(sp)
	sd	zero, 32(sp)
	sd	zero, 40(sp)
	sd	zero, 48(sp)
	sd	zero, 56(sp)
	slli	a4, a4, 32
	slli	a2, a2, 32
	or	a3, a3, a4
	or	a0, a0, a2
	sd	a0, 192(sp)
	sd	a3, 200(sp)
	addi	a0, sp, 208
	li	a2, 16
	mv	a1, s0
	la	t1, memcpy
	jalr	t1
	addi	a0, sp, 224
	li	a2, 16
	mv	a1, s0
	la	t1, memcpy
	jalr	t1
	addi	a0, sp, 240
	li	a2, 16
	mv	a1, s0
	la	t1, memcpy
	jalr	t1
	srli	s3, s3, 3
	addi	s3, s3, -1
	beqz	s4, .Laes_narrow_BB21_4
# %bb.1:                                # %join.8.i
	lbu	a0, 8(s0)
	lbu	a1, 9(s0)
	lbu	a2, 10(s0)
	lbu	a3, 11(s0)
	lbu	a6, 12(s0)
	lbu	a5, 13(s0)
	lbu	s1, 14(s0)
	lbu	a4, 15(s0)
	slli	a1, a1, 8
	slli	a2, a2, 16
	slli	a3, a3, 24
	or	a7, a1, a0
	or	t0, a3, a2
	lbu	a1, 0(s0)
	lbu	a3, 1(s0)
	lbu	a0, 2(s0)
	lbu	a2, 3(s0)
	slli	a5, a5, 8
	slli	s1, s1, 16
	slli	a4, a4, 24
	slli	a3, a3, 8
	slli	a0, a0, 16
	slli	a2, a2, 24
	or	a6, a5, a6
	or	a4, a4, s1
	or	a1, a1, a3
	or	a0, a0, a2
	lbu	a2, 5(s0)
	lbu	a3, 4(s0)
	lbu	s1, 6(s0)
	lbu	a5, 7(s0)
	slli	a2, a2, 8
	or	a2, a2, a3
	slli	s1, s1, 16
	slli	a5, a5, 24
	or	a5, a5, s1
	or	a3, t0, a7
	or	a4, a4, a6
	or	a0, a0, a1
	or	a2, a2, a5
	slli	a4, a4, 32
	or	a3, a3, a4
	li	a1, 1
	slli	a2, a2, 32
	or	a0, a0, a2
	sd	a0, 192(sp)
	sd	a3, 200(sp)
	beq	s4, a1, .Laes_narrow_BB21_4
# %bb.2:                                # %join.8.i.1
	addi	a1, s0, 16
	addi	a0, sp, 208
	li	a2, 16
	la	t1, memcpy
	jalr	t1
	li	a0, 2
	beq	s4, a0, .Laes_narrow_BB21_4
# %bb.3:                                # %join.8.i.2
	addi	a1, s0, 32
	addi	a0, sp, 224
	li	a2, 16
	la	t1, memcpy
	jalr	t1
	li	a0, 3
	bne	s4, a0, .Laes_narrow_BB21_9
.Laes_narrow_BB21_4:                               # %then.6.i
	ld	a0, 224(sp)
	ld	a1, 232(sp)
	ld	a2, 240(sp)
	ld	a3, 248(sp)
	sd	a0, 96(sp)
	sd	a1, 104(sp)
	sd	a2, 112(sp)
	sd	a3, 120(sp)
	ld	a0, 192(sp)
	ld	a1, 200(sp)
	ld	a2, 208(sp)
	ld	a3, 216(sp)
	sd	a0, 64(sp)
	sd	a1, 72(sp)
	sd	a2, 80(sp)
	sd	a3, 88(sp)
.Laes_narrow_BB21_5:                               # %"aes_soft::soft::blocks::filled_up::filled_up::<#11fd18120a35d742>.exit"
	mv	a0, sp
	addi	a3, sp, 64
	mv	a1, s2
	mv	a2, s3
	call	aes_narrow.aes_soft.soft.ciphers.planes.process_outlined.2
	ld	a0, 32(sp)
	ld	a1, 40(sp)
	ld	a2, 48(sp)
	ld	a3, 56(sp)
	sd	a0, 160(sp)
	sd	a1, 168(sp)
	sd	a2, 176(sp)
	sd	a3, 184(sp)
	ld	a0, 0(sp)
	ld	a1, 8(sp)
	ld	a2, 16(sp)
	ld	a3, 24(sp)
	sd	a0, 128(sp)
	sd	a1, 136(sp)
	sd	a2, 144(sp)
	sd	a3, 152(sp)
	beqz	s4, .Laes_narrow_BB21_8
# %bb.6:                                # %join.8.i19.preheader
	slli	s2, s4, 4
	add	s2, s2, s0
	addi	s1, sp, 128
.Laes_narrow_BB21_7:                               # %join.8.i19
                                        # =>This Inner Loop Header: Depth=1
	li	a2, 16
	mv	a0, s0
	mv	a1, s1
	la	t1, memcpy
	jalr	t1
	addi	s0, s0, 16
	addi	s1, s1, 16
	bne	s0, s2, .Laes_narrow_BB21_7
.Laes_narrow_BB21_8:                               # %"aes_soft::soft::blocks::filled_up::copy_first::<#11fd18120a35d742>.exit"
	ld	ra, 296(sp)                     # 8-byte Folded Reload
	ld	s0, 288(sp)                     # 8-byte Folded Reload
	ld	s1, 280(sp)                     # 8-byte Folded Reload
	ld	s2, 272(sp)                     # 8-byte Folded Reload
	ld	s3, 264(sp)                     # 8-byte Folded Reload
	ld	s4, 256(sp)                     # 8-byte Folded Reload
	addi	sp, sp, 304
	ret
.Laes_narrow_BB21_9:                               # %join.8.i.3
	addi	a1, s0, 48
	addi	a0, sp, 240
	li	a2, 16
	la	t1, memcpy
	jalr	t1
	ld	a0, 192(sp)
	ld	a1, 200(sp)
	ld	a2, 208(sp)
	ld	a3, 216(sp)
	sd	a0, 64(sp)
	sd	a1, 72(sp)
	sd	a2, 80(sp)
	sd	a3, 88(sp)
	ld	a0, 224(sp)
	ld	a1, 232(sp)
	ld	a2, 240(sp)
	ld	a3, 248(sp)
	sd	a0, 96(sp)
	sd	a1, 104(sp)
	sd	a2, 112(sp)
	sd	a3, 120(sp)
	j	.Laes_narrow_BB21_5
.Laes_narrow_func_end21:
	.size	aes_narrow.aes_soft.soft.blocks.filled_up.process_filled_up.2, .Laes_narrow_func_end21-aes_narrow.aes_soft.soft.blocks.filled_up.process_filled_up.2
                                        # -- End function
	.section	.rodata.cst8,"aM",@progbits,8
	.p2align	3, 0x0                          # -- Begin function aes_soft::soft::ciphers::planes::process_outlined::<#59b1328471decb7e>
.Laes_narrow_CPI22_0:
	.quad	-4222189076152336               # 0xfff0fff0fff0fff0
.Laes_narrow_CPI22_1:
	.quad	-71777214294589696              # 0xff00ff00ff00ff00
.Laes_narrow_CPI22_2:
	.quad	-1152657617789587456            # 0xf000f000f000f000
	.section	.text.aes_narrow.aes_soft.soft.ciphers.planes.process_outlined.2,"ax",@progbits
	.p2align	1
	.type	aes_narrow.aes_soft.soft.ciphers.planes.process_outlined.2,@function
aes_narrow.aes_soft.soft.ciphers.planes.process_outlined.2: # @aes_narrow.aes_soft.soft.ciphers.planes.process_outlined.2
# %bb.0:                                # %start
	addi	sp, sp, -240
	sd	ra, 232(sp)                     # 8-byte Folded Spill
	sd	s0, 224(sp)                     # 8-byte Folded Spill
	sd	s1, 216(sp)                     # 8-byte Folded Spill
	sd	s2, 208(sp)                     # 8-byte Folded Spill
	sd	s3, 200(sp)                     # 8-byte Folded Spill
	sd	s4, 192(sp)                     # 8-byte Folded Spill
	sd	s5, 184(sp)                     # 8-byte Folded Spill
	sd	s6, 176(sp)                     # 8-byte Folded Spill
	sd	s7, 168(sp)                     # 8-byte Folded Spill
	sd	s8, 160(sp)                     # 8-byte Folded Spill
	sd	s9, 152(sp)                     # 8-byte Folded Spill
	sd	s10, 144(sp)                    # 8-byte Folded Spill
	sd	s11, 136(sp)                    # 8-byte Folded Spill
	sd	a2, 128(sp)                     # 8-byte Folded Spill
	sd	a0, 0(sp)                       # 8-byte Folded Spill
	lui	t2, 349525
	lui	t3, 209715
	lui	t5, 61681
	lui	a0, 4080
	lui	s5, 240
	lbu	a6, 0(a3)
	lbu	a7, 1(a3)
	lbu	t4, 2(a3)
	lbu	s2, 3(a3)
	lbu	t6, 4(a3)
	lbu	s4, 5(a3)
	lbu	s9, 6(a3)
	lbu	s11, 7(a3)
	lbu	t0, 8(a3)
	lbu	t1, 9(a3)
	lbu	s3, 10(a3)
	lbu	s6, 11(a3)
	lbu	s7, 12(a3)
	lbu	s8, 13(a3)
	lbu	ra, 14(a3)
	lbu	s1, 15(a3)
	addi	s0, t2, 1365
	addi	a2, t3, 819
	addi	a5, t5, -241
	addi	s10, a0, 255
	addi	s5, s5, 15
	slli	a4, s0, 32
	slli	a0, a2, 32
	add	a4, a4, s0
	sd	a4, 8(sp)                       # 8-byte Folded Spill
	slli	a4, a5, 32
	add	a0, a0, a2
	sd	a0, 16(sp)                      # 8-byte Folded Spill
	slli	a0, s10, 32
	add	a4, a4, a5
	sd	a4, 24(sp)                      # 8-byte Folded Spill
	slli	a2, s5, 32
	add	a0, a0, s10
	sd	a0, 112(sp)                     # 8-byte Folded Spill
	mv	s10, a1
	add	a2, a2, s5
	sd	a2, 64(sp)                      # 8-byte Folded Spill
	slli	s11, s11, 16
	slli	s1, s1, 24
	slli	a4, ra, 8
	or	a0, s1, s11
	sd	a0, 120(sp)                     # 8-byte Folded Spill
	or	a0, s9, a4
	sd	a0, 104(sp)                     # 8-byte Folded Spill
	lbu	t5, 20(a3)
	lbu	t2, 21(a3)
	lbu	a2, 22(a3)
	lbu	a4, 23(a3)
	slli	s4, s4, 16
	slli	s8, s8, 24
	slli	s7, s7, 8
	slli	a5, s2, 16
	slli	s6, s6, 24
	slli	s3, s3, 8
	or	a0, s8, s4
	sd	a0, 96(sp)                      # 8-byte Folded Spill
	or	a0, t6, s7
	sd	a0, 80(sp)                      # 8-byte Folded Spill
	or	a0, s6, a5
	sd	a0, 88(sp)                      # 8-byte Folded Spill
	or	s5, t4, s3
	lbu	a5, 28(a3)
	lbu	s1, 29(a3)
	lbu	s0, 30(a3)
	lbu	a0, 31(a3)
	slli	a7, a7, 16
	slli	t1, t1, 24
	slli	t0, t0, 8
	slli	a4, a4, 16
	slli	a0, a0, 24
	slli	s0, s0, 8
	or	a1, t1, a7
	sd	a1, 72(sp)                      # 8-byte Folded Spill
	or	s3, a6, t0
	or	a0, a0, a4
	sd	a0, 56(sp)                      # 8-byte Folded Spill
	or	s2, a2, s0
	lbu	a0, 16(a3)
	lbu	a2, 17(a3)
	lbu	a4, 18(a3)
	lbu	s0, 19(a3)
	slli	a1, t2, 16
	slli	s1, s1, 24
	or	a1, a1, s1
	sd	a1, 48(sp)                      # 8-byte Folded Spill
	lbu	a1, 27(a3)
	slli	a5, a5, 8
	or	s11, t5, a5
	lbu	a5, 26(a3)
	slli	s0, s0, 16
	slli	a1, a1, 24
	or	a1, a1, s0
	sd	a1, 40(sp)                      # 8-byte Folded Spill
	lbu	a1, 25(a3)
	slli	a5, a5, 8
	or	s0, a4, a5
	lbu	a4, 24(a3)
	slli	a2, a2, 16
	slli	a1, a1, 24
	or	ra, a1, a2
	lbu	a1, 39(a3)
	lbu	a2, 47(a3)
	slli	a4, a4, 8
	or	s1, a0, a4
	slli	a1, a1, 16
	slli	a2, a2, 24
	or	s6, a2, a1
	lbu	a0, 46(a3)
	lbu	a1, 38(a3)
	lbu	a2, 37(a3)
	lbu	a4, 45(a3)
	slli	a0, a0, 8
	or	t6, a1, a0
	slli	a2, a2, 16
	slli	a4, a4, 24
	or	s4, a4, a2
	lbu	a0, 44(a3)
	lbu	a1, 36(a3)
	lbu	a2, 35(a3)
	lbu	a4, 43(a3)
	slli	a0, a0, 8
	or	t3, a1, a0
	slli	a2, a2, 16
	slli	a4, a4, 24
	or	t5, a4, a2
	lbu	a0, 42(a3)
	lbu	a1, 34(a3)
	lbu	a2, 33(a3)
	lbu	t0, 41(a3)
	slli	a0, a0, 8
	or	t2, a1, a0
	slli	a2, a2, 16
	slli	t0, t0, 24
	or	s7, t0, a2
	lbu	a0, 40(a3)
	lbu	t0, 32(a3)
	lbu	a2, 55(a3)
	lbu	a1, 63(a3)
	slli	a0, a0, 8
	or	a7, t0, a0
	slli	a2, a2, 16
	slli	a1, a1, 24
	or	t1, a1, a2
	lbu	a2, 62(a3)
	lbu	t0, 54(a3)
	lbu	t4, 53(a3)
	lbu	a0, 61(a3)
	slli	a2, a2, 8
	or	a6, t0, a2
	slli	t4, t4, 16
	slli	a0, a0, 24
	lbu	t0, 60(a3)
	lbu	a1, 52(a3)
	or	t4, a0, t4
	lbu	a0, 51(a3)
	slli	t0, t0, 8
	or	a5, a1, t0
	lbu	t0, 59(a3)
	slli	a0, a0, 16
	lbu	a1, 58(a3)
	lbu	a2, 50(a3)
	slli	t0, t0, 24
	or	s9, t0, a0
	slli	a1, a1, 8
	or	a4, a2, a1
	lbu	a0, 49(a3)
	lbu	a2, 57(a3)
	lbu	t0, 48(a3)
	lbu	a3, 56(a3)
	slli	a0, a0, 16
	slli	a2, a2, 24
	or	s8, a2, a0
	slli	a3, a3, 8
	or	t0, t0, a3
	lui	a3, 16
	addi	a3, a3, -1
	ld	a0, 104(sp)                     # 8-byte Folded Reload
	and	a0, a0, a3
	ld	a1, 80(sp)                      # 8-byte Folded Reload
	and	a1, a1, a3
	and	a2, s5, a3
	and	s3, s3, a3
	and	s2, s2, a3
	and	s11, s11, a3
	and	s0, s0, a3
	and	s1, s1, a3
	and	t6, t6, a3
	and	s5, t3, a3
	and	t2, t2, a3
	and	a7, a7, a3
	and	a6, a6, a3
	and	a5, a5, a3
	and	t3, a4, a3
	and	t0, t0, a3
	ld	a4, 120(sp)                     # 8-byte Folded Reload
	or	a4, a4, a0
	ld	a0, 96(sp)                      # 8-byte Folded Reload
	or	a0, a0, a1
	ld	a1, 88(sp)                      # 8-byte Folded Reload
	or	a1, a1, a2
	ld	a2, 72(sp)                      # 8-byte Folded Reload
	or	a2, s3, a2
	ld	a3, 56(sp)                      # 8-byte Folded Reload
	or	s2, s2, a3
	ld	a3, 48(sp)                      # 8-byte Folded Reload
	or	s3, s11, a3
	ld	a3, 40(sp)                      # 8-byte Folded Reload
	or	s0, s0, a3
	or	s11, s1, ra
	or	s6, t6, s6
	or	s4, s5, s4
	or	t5, t2, t5
	or	t2, a7, s7
	or	a6, a6, t1
	or	a7, a5, t4
	ld	a3, 128(sp)                     # 8-byte Folded Reload
	slli	a3, a3, 6
	sd	s10, 32(sp)                     # 8-byte Folded Spill
	add	ra, s10, a3
	or	s7, t3, s9
	or	s5, t0, s8
	slli	a4, a4, 32
	slli	a0, a0, 32
	slli	a1, a1, 32
	slli	a2, a2, 32
	srli	a0, a0, 32
	srli	a2, a2, 32
	or	s8, a0, a4
	or	s9, a2, a1
	ld	t0, 0(ra)
	ld	t4, 8(ra)
	ld	t3, 16(ra)
	ld	t6, 24(ra)
	slli	s2, s2, 32
	slli	s3, s3, 32
	slli	s0, s0, 32
	slli	s11, s11, 32
	slli	s6, s6, 32
	slli	s4, s4, 32
	slli	t5, t5, 32
	slli	t2, t2, 32
	srli	a2, s3, 32
	srli	a4, s11, 32
	srli	a5, s4, 32
	srli	s1, t2, 32
	or	a2, a2, s2
	or	a4, a4, s0
	or	s3, a5, s6
	or	a0, s1, t5
	ld	t1, 32(ra)
	ld	t2, 40(ra)
	ld	t5, 48(ra)
	ld	s2, 56(ra)
	slli	a6, a6, 32
	slli	a7, a7, 32
	slli	s7, s7, 32
	slli	s5, s5, 32
	srli	s0, a7, 32
	srli	a3, s5, 32
	or	s0, s0, a6
	or	a3, a3, s7
	srli	a1, s9, 1
	srli	s1, a0, 1
	xor	a1, a1, a4
	ld	a5, 8(sp)                       # 8-byte Folded Reload
	and	a1, a1, a5
	xor	a7, a1, a4
	slli	a1, a1, 1
	xor	a6, a1, s9
	srli	a1, s8, 1
	xor	s1, s1, a3
	and	s1, s1, a5
	xor	a3, a3, s1
	slli	s1, s1, 1
	xor	a0, a0, s1
	srli	a4, s3, 1
	xor	a1, a1, a2
	xor	a4, a4, s0
	and	a1, a1, a5
	and	a5, a5, a4
	xor	a2, a2, a1
	slli	a1, a1, 1
	xor	s0, s0, a5
	slli	a5, a5, 1
	xor	s4, a1, s8
	xor	a5, a5, s3
	srli	a4, a7, 2
	srli	s1, a2, 2
	xor	a4, a4, a3
	ld	a1, 16(sp)                      # 8-byte Folded Reload
	and	a4, a4, a1
	xor	a3, a3, a4
	slli	a4, a4, 2
	xor	s3, a4, a7
	srli	a4, a6, 2
	xor	s1, s1, s0
	and	s1, s1, a1
	xor	s0, s0, s1
	slli	s1, s1, 2
	xor	s5, s1, a2
	srli	s1, s4, 2
	xor	a4, a4, a0
	xor	s1, s1, a5
	and	a4, a4, a1
	and	s1, s1, a1
	xor	a2, a4, a0
	slli	a1, a4, 2
	xor	a5, a5, s1
	slli	s1, s1, 2
	xor	a7, t6, a3
	srli	a3, a3, 4
	xor	t6, s0, s2
	xor	a1, a1, a6
	xor	s1, s1, s4
	srli	a4, s3, 4
	srli	a0, a2, 4
	xor	a3, a3, s0
	xor	t4, t4, s3
	xor	a6, t3, a2
	xor	t2, s5, t2
	xor	t3, a5, t5
	srli	a2, a1, 4
	xor	a4, a4, s5
	xor	a5, a5, a0
	ld	a0, 24(sp)                      # 8-byte Folded Reload
	and	a3, a3, a0
	xor	t0, t0, a1
	xor	t5, s1, t1
	xor	a2, a2, s1
	and	a4, a4, a0
	and	a5, a5, a0
	slli	s1, a3, 4
	xor	a3, t6, a3
	and	a1, a2, a0
	slli	a2, a4, 4
	slli	s0, a5, 4
	xor	s1, a7, s1
	xor	t1, t2, a4
	xor	a0, t3, a5
	slli	a4, a1, 4
	xor	a2, t4, a2
	xor	s0, a6, s0
	xor	a1, t5, a1
	xor	t3, a0, a3
	xor	a5, t1, s1
	xor	a4, t0, a4
	xor	s2, s0, t1
	xor	s5, a1, a0
	xor	a6, a2, a0
	xor	t4, a1, a3
	xor	s11, a1, s1
	xor	t5, s0, a2
	xor	s0, a4, a2
	xor	t0, a5, a6
	xor	a7, s2, a3
	xor	s4, t4, a0
	xor	t6, s11, a4
	xor	a4, a4, s1
	xor	t2, s4, s1
	xor	s7, s0, s11
	and	a0, t6, s5
	or	a2, s7, t0
	xor	s8, a2, a0
	xor	s9, s0, s5
	xor	s6, a4, a6
	and	a0, s9, a7
	xor	a2, a0, a4
	xor	a0, a4, t3
	xor	a6, s11, t5
	xor	a4, a0, a6
	and	a4, a4, s11
	and	a3, t2, a6
	xor	a3, a3, a4
	and	s1, a0, t3
	xor	a1, a4, s1
	xor	s3, s5, s2
	xor	s2, s0, t3
	and	s0, s4, t4
	xor	s0, t5, s0
	xor	s0, s0, a0
	and	s1, s2, s3
	xor	a2, a2, s1
	xor	s0, s0, s1
	and	s1, s7, t0
	xor	s1, s1, t1
	xor	t1, s9, t1
	and	a5, t1, s6
	xor	a5, a5, s1
	xor	s1, s8, a3
	xor	s8, s0, a3
	xor	a4, a2, a1
	xor	a5, a5, s11
	xor	a3, a5, a1
	and	a5, s8, s1
	and	s0, a4, s1
	xor	s1, s1, a3
	not	s0, s0
	xor	a2, a5, a4
	and	a2, a2, s1
	and	s0, s0, s1
	xor	s1, s8, a4
	xor	a1, a3, a5
	and	a1, a1, s1
	xor	a1, a1, a4
	and	a4, s1, s8
	xor	s1, s1, a5
	and	a4, a4, a3
	xor	s1, s1, a4
	xor	a3, a3, a2
	xor	a5, a5, s0
	and	s6, a1, s6
	and	t1, a1, t1
	xor	s0, s1, a1
	xor	a1, a1, a3
	and	s5, s1, s5
	and	a7, a3, a7
	and	a4, a3, s9
	and	s8, s1, t6
	xor	s1, s1, a5
	and	t4, a5, t4
	xor	a3, a3, a5
	and	t6, a5, s4
	and	s4, s0, s7
	and	s7, s0, t0
	and	s3, a3, s3
	and	t0, a3, s2
	xor	a3, a0, t5
	and	t5, a1, s11
	and	a3, a3, a1
	and	s2, s1, a0
	xor	a1, a1, s1
	and	s1, s1, t3
	and	a2, a1, a6
	and	a1, a1, t2
	xor	a0, a7, t4
	xor	a5, a3, s6
	xor	t2, a3, s5
	xor	a6, t5, a4
	xor	a4, a4, a0
	xor	a0, a0, s5
	xor	s0, s8, t6
	xor	t3, a2, s8
	xor	a3, s7, s0
	xor	s5, a5, a3
	xor	a7, s3, a7
	xor	a5, s3, t1
	xor	a2, s1, t0
	xor	t4, a5, s0
	xor	a5, a5, s1
	xor	t1, s7, t1
	xor	t0, a1, s7
	xor	a1, a1, s2
	xor	a0, a0, s2
	xor	s0, t2, s4
	xor	s1, a4, s4
	xor	a3, t3, s0
	xor	s0, s0, a1
	xor	t5, s1, a1
.Laes_narrow_pcrel_hi12:
	auipc	s1, %pcrel_hi(.Laes_narrow_CPI22_0)
	xor	a4, a4, a5
.Laes_narrow_pcrel_hi13:
	auipc	a5, %pcrel_hi(.Laes_narrow_CPI22_1)
	xor	t2, a6, a2
	xor	a2, a2, a0
	ld	a1, 128(sp)                     # 8-byte Folded Reload
	addi	t6, a1, -2
	ld	s1, %pcrel_lo(.Laes_narrow_pcrel_hi12)(s1)
	ld	a0, %pcrel_lo(.Laes_narrow_pcrel_hi13)(a5)
	sd	a0, 120(sp)                     # 8-byte Folded Spill
	xor	t4, t4, s0
	xor	a7, a7, s0
	xor	a6, t1, s0
	andi	a0, t6, -4
	xor	t1, t0, a3
	xor	s4, a4, a3
	sd	a0, 104(sp)                     # 8-byte Folded Spill
	addi	a3, a0, 2
	xor	s3, t5, s5
	xor	t0, a2, s5
	srli	a0, t6, 2
	sd	a0, 96(sp)                      # 8-byte Folded Spill
	sd	s1, 40(sp)                      # 8-byte Folded Spill
	bgeu	a3, a1, .Laes_narrow_BB22_2
# %bb.1:                                # %then.3.i
	ld	a2, -64(ra)
	ld	a5, -56(ra)
	ld	a4, -48(ra)
	ld	a3, -40(ra)
	ld	t5, -32(ra)
	ld	a1, -24(ra)
	ld	s0, -16(ra)
	ld	a0, -8(ra)
	xor	a2, a2, t2
	xor	t3, a5, t1
	xor	a4, a4, t4
	xor	a3, a3, s4
	xor	s2, t5, a7
	xor	t4, a1, s3
	xor	s3, s0, t0
	xor	s10, a0, a6
	srli	a0, a2, 28
	slli	a6, a2, 36
	srli	t0, a2, 12
	slli	a1, a2, 52
	srli	a5, t3, 28
	sd	a5, 72(sp)                      # 8-byte Folded Spill
	slli	s5, t3, 36
	srli	a5, t3, 12
	slli	s6, t3, 52
	srli	s7, a4, 28
	slli	s8, a4, 36
	srli	s11, a4, 12
	slli	s4, a4, 52
	srli	s9, a3, 28
	slli	s0, a3, 36
	srli	ra, a3, 12
	slli	t5, a3, 52
	sd	t6, 128(sp)                     # 8-byte Folded Spill
	srli	t6, s2, 28
	slli	t1, s2, 36
	srli	t2, s2, 12
	or	a0, a6, a0
	sd	a0, 88(sp)                      # 8-byte Folded Spill
	slli	a7, s2, 52
	or	a0, a1, t0
	sd	a0, 80(sp)                      # 8-byte Folded Spill
	srli	t0, t4, 28
	ld	a0, 72(sp)                      # 8-byte Folded Reload
	or	s5, s5, a0
	slli	a6, t4, 36
	or	s6, s6, a5
	srli	a1, t4, 12
	or	s7, s8, s7
	slli	s8, t4, 52
	or	s4, s4, s11
	srli	s11, s3, 28
	or	s9, s0, s9
	slli	s0, s3, 36
	or	t5, t5, ra
	srli	ra, s3, 12
	or	t1, t1, t6
	slli	t6, s3, 52
	or	a7, a7, t2
	srli	t2, s10, 28
	or	a6, a6, t0
	slli	t0, s10, 36
	or	s8, s8, a1
	srli	a1, s10, 12
	or	s11, s0, s11
	slli	s0, s10, 52
	or	t6, t6, ra
	or	t0, t0, t2
	or	t2, s0, a1
	ld	a0, 64(sp)                      # 8-byte Folded Reload
	ld	a1, 88(sp)                      # 8-byte Folded Reload
	and	ra, a1, a0
	ld	a1, 80(sp)                      # 8-byte Folded Reload
	and	a1, a1, s1
	and	s5, s5, a0
	and	s0, s6, s1
	and	s6, s7, a0
	and	s4, s4, s1
	and	s7, s9, a0
	and	t5, t5, s1
	and	t1, t1, a0
	and	a7, a7, s1
	and	a6, a6, a0
	and	s8, s8, s1
	and	s9, s11, a0
	and	t6, t6, s1
	and	t0, t0, a0
	and	t2, t2, s1
	or	a1, ra, a1
	or	s0, s5, s0
	or	s4, s6, s4
	or	t5, s7, t5
	or	a7, t1, a7
	or	a6, a6, s8
	or	t1, s9, t6
	or	t0, t0, t2
	xor	s8, a1, a2
	xor	t2, s0, t3
	xor	s0, s4, a4
	xor	t5, t5, a3
	xor	t6, a7, s2
	xor	s7, a6, t4
	xor	t1, t1, s3
	xor	a1, t0, s10
	xor	s6, a1, a2
	xor	a2, s8, t3
	xor	a0, t2, a4
	xor	a3, a3, s0
	xor	a4, t5, s2
	xor	s2, t6, t4
	xor	t4, s7, s3
	xor	s5, t1, s10
	xor	s3, a2, a1
	xor	s4, a3, a1
	xor	a4, a4, a1
	xor	a3, s5, t4
	xor	s1, t4, s8
	xor	a6, s5, s0
	xor	a2, t4, t5
	xor	a5, t6, a0
	mv	s10, a0
	xor	s0, s5, s7
	xor	a0, a1, s2
	xor	a1, a3, t2
	xor	t2, a6, s6
	xor	a7, a2, s3
	xor	a5, a5, a3
	xor	t0, s0, s4
	xor	s0, a4, t1
	mv	t1, a4
	srli	s7, s1, 40
	slli	s8, s1, 24
	srli	s9, s1, 24
	slli	s11, s1, 40
	srli	a6, a0, 40
	slli	t5, a0, 24
	srli	t6, a0, 24
	slli	ra, a0, 40
	xor	a2, s1, s6
	sd	a2, 88(sp)                      # 8-byte Folded Spill
	xor	a0, s5, a0
	sd	a0, 80(sp)                      # 8-byte Folded Spill
	or	s6, s8, s7
	or	s7, s11, s9
	srli	s9, a1, 40
	slli	s1, a1, 24
	srli	s8, a1, 24
	slli	a0, a1, 40
	srli	s11, t2, 40
	slli	a2, t2, 24
	srli	a3, t2, 24
	or	t5, t5, a6
	slli	a6, t2, 40
	or	t6, ra, t6
	srli	ra, a7, 40
	xor	s5, s3, a1
	slli	a4, a7, 24
	xor	s3, s10, t2
	srli	a1, a7, 24
	xor	s4, s4, a7
	slli	a7, a7, 40
	or	s9, s1, s9
	srli	s1, a5, 40
	or	s8, a0, s8
	slli	a0, a5, 24
	or	s11, a2, s11
	srli	a2, a5, 24
	xor	t2, t1, a5
	slli	a5, a5, 40
	or	a6, a6, a3
	srli	a3, t0, 40
	or	ra, a4, ra
	slli	a4, t0, 24
	or	a7, a7, a1
	srli	a1, t0, 24
	xor	t1, s2, t0
	slli	t0, t0, 40
	or	s2, a0, s1
	srli	s1, s0, 40
	or	a2, a2, a5
	slli	a5, s0, 24
	or	a0, a4, a3
	srli	a4, s0, 24
	xor	t4, t4, s0
	slli	s0, s0, 40
	ld	a3, 112(sp)                     # 8-byte Folded Reload
	and	s6, s6, a3
	ld	t3, 120(sp)                     # 8-byte Folded Reload
	and	s7, s7, t3
	or	a1, t0, a1
	or	a5, a5, s1
	or	a4, a4, s0
	and	t5, t5, a3
	and	t6, t6, t3
	or	t0, s6, s7
	and	s6, s9, a3
	and	s7, s8, t3
	and	s8, s11, a3
	and	a6, a6, t3
	and	s9, ra, a3
	and	s11, a7, t3
	and	a7, s2, a3
	and	ra, a2, t3
	and	s2, a0, a3
	and	a1, a1, t3
	and	a5, a5, a3
	and	a4, a4, t3
	or	s1, t5, t6
	or	a0, s6, s7
	or	s0, s8, a6
	or	a2, s9, s11
	or	a6, a7, ra
	or	a1, s2, a1
	or	a7, a5, a4
	ld	a3, 88(sp)                      # 8-byte Folded Reload
	xor	t0, a3, t0
	ld	a3, 80(sp)                      # 8-byte Folded Reload
	xor	s1, s1, a3
	xor	a5, s5, a0
	xor	s0, s3, s0
	xor	a2, s4, a2
	xor	a4, t2, a6
	xor	t6, t1, a1
	xor	a1, t4, a7
	xor	a3, a5, t0
	xor	t4, a1, s1
	xor	t1, t6, s0
	xor	t2, a4, a1
	xor	a6, t6, a2
	xor	a7, a1, a5
	xor	s6, a4, s1
	xor	a4, a4, a2
	xor	s5, s0, a5
	xor	s0, a2, t0
	xor	a0, t4, a3
	sd	a0, 72(sp)                      # 8-byte Folded Spill
	xor	s7, a6, a7
	xor	s8, t1, s1
	xor	t5, s6, a1
	xor	s11, a4, a3
	xor	a1, t2, t1
	sd	a1, 56(sp)                      # 8-byte Folded Spill
	xor	s1, a4, s5
	xor	s9, a4, t0
	xor	ra, t2, a3
	xor	s4, s0, a7
	xor	s2, s0, t4
	xor	a5, t5, a2
	sd	a5, 88(sp)                      # 8-byte Folded Spill
	and	a2, a1, a0
	and	t1, t5, s6
	and	a7, s11, s7
	or	t0, s11, s7
	and	a3, s9, t2
	and	a1, ra, s8
	xor	s3, ra, t6
	and	a6, s2, t4
	xor	a3, a3, t0
	sd	s1, 80(sp)                      # 8-byte Folded Spill
	xor	a0, s1, s2
	xor	t0, s5, s2
	xor	s5, a1, s0
	and	a1, a5, s1
	and	a0, a0, a4
	xor	a7, a7, t6
	and	t6, s3, s4
	xor	s0, t0, t1
	xor	a5, a0, a1
	xor	a0, a0, a6
	xor	a1, s5, a2
	xor	s0, s0, a2
	xor	a2, a7, t6
	xor	a3, a3, a5
	xor	a6, a1, a0
	xor	a5, a5, s0
	xor	a1, a2, a4
	and	a2, a5, a3
	xor	s0, a5, a6
	xor	t1, a1, a0
	and	a7, a6, a3
	xor	a0, a2, a6
	and	a5, t1, a5
	xor	a3, t1, a3
	xor	a1, a2, t1
	and	t6, a5, s0
	and	a1, a1, s0
	xor	s0, s0, a2
	and	a0, a0, a3
	and	a5, a7, a3
	xor	a2, a2, a3
	ld	a3, 128(sp)                     # 8-byte Folded Reload
	slli	a3, a3, 6
	ld	s1, 32(sp)                      # 8-byte Folded Reload
	add	a3, a3, s1
	xor	a1, a1, a6
	xor	s0, s0, t6
	xor	a0, a0, t1
	xor	a2, a2, a5
	and	s5, a1, s4
	xor	t6, s0, a1
	xor	a5, a1, a0
	and	a7, s0, t2
	and	s4, a0, s8
	and	t2, a0, ra
	and	s8, a1, s3
	and	s3, s0, s9
	xor	s0, s0, a2
	and	s6, a2, s6
	xor	a0, a0, a2
	and	a2, a2, t5
	ld	a1, 0(a3)
	ld	s9, 8(a3)
	ld	s1, 16(a3)
	sd	s1, 128(sp)                     # 8-byte Folded Spill
	ld	ra, 24(a3)
	and	t5, t6, s11
	and	s11, a5, a4
	and	t0, a5, t0
	and	a4, t6, s7
	and	t6, s0, s2
	ld	s1, 56(sp)                      # 8-byte Folded Reload
	and	s2, a0, s1
	ld	s1, 72(sp)                      # 8-byte Folded Reload
	and	s7, a0, s1
	xor	s1, s0, a5
	and	s0, s0, t4
	ld	a0, 32(a3)
	ld	a6, 40(a3)
	ld	s10, 48(a3)
	ld	t4, 56(a3)
	xor	t1, a2, s3
	xor	a3, s6, s4
	xor	s6, a1, t2
	xor	s4, s4, a0
	xor	t4, s8, t4
	xor	a0, a4, s5
	xor	a1, t0, a7
	xor	s5, s2, s8
	ld	a5, 80(sp)                      # 8-byte Folded Reload
	and	s8, s1, a5
	ld	a5, 88(sp)                      # 8-byte Folded Reload
	and	a5, a5, s1
	xor	t0, t1, t0
	xor	t2, a3, t2
	xor	s7, s7, s0
	xor	s6, s6, s11
	xor	s9, a4, s9
	xor	s0, s0, ra
	xor	s11, s4, s2
	xor	ra, a3, t6
	xor	t4, t4, a4
	xor	a1, a1, t5
	xor	a4, s8, s3
	xor	s1, a5, t6
	xor	s2, s6, s7
	xor	t6, s9, a5
	xor	s0, s0, s5
	xor	s3, a0, a6
	xor	a3, t0, t5
	xor	a6, a0, s10
	xor	a0, t0, a7
	xor	s4, ra, s7
	xor	a4, a4, a1
	xor	a5, s1, a1
	ld	a2, 128(sp)                     # 8-byte Folded Reload
	xor	t0, a1, a2
	xor	a2, s1, t1
	xor	s0, s0, t2
	xor	t1, s3, a3
	xor	s1, t2, s1
	xor	t2, a6, a0
	srli	t5, s2, 24
	slli	a3, s2, 40
	srli	a0, s2, 8
	slli	a1, s2, 56
	xor	a6, t6, a4
	xor	a2, t0, a2
	xor	s0, s0, a4
	xor	a7, s11, a5
	xor	t6, t1, s1
	xor	t2, t2, s4
	xor	s4, t4, a5
	or	a5, a3, t5
	or	a0, a0, a1
	xor	a2, a2, s5
	ld	s10, 112(sp)                    # 8-byte Folded Reload
	and	t0, a5, s10
	and	t1, a0, t3
	srli	a5, a6, 24
	slli	a0, a6, 40
	srli	s1, a6, 8
	slli	a1, a6, 56
	srli	s7, s0, 24
	slli	s11, s0, 40
	srli	a3, s0, 8
	slli	s6, s0, 56
	srli	a4, a7, 24
	sd	a4, 128(sp)                     # 8-byte Folded Spill
	slli	s8, a7, 40
	srli	a4, a7, 8
	sd	a4, 88(sp)                      # 8-byte Folded Spill
	slli	ra, a7, 56
	srli	a4, t6, 24
	sd	a4, 80(sp)                      # 8-byte Folded Spill
	slli	s9, t6, 40
	srli	a4, t6, 8
	sd	a4, 72(sp)                      # 8-byte Folded Spill
	slli	s3, t6, 56
	srli	t5, t2, 24
	or	a4, t0, t1
	sd	a4, 48(sp)                      # 8-byte Folded Spill
	slli	t4, t2, 40
	or	a0, a0, a5
	sd	a0, 56(sp)                      # 8-byte Folded Spill
	srli	a5, t2, 8
	or	s5, a1, s1
	slli	s1, t2, 56
	or	s7, s11, s7
	srli	s11, s4, 24
	or	s6, s6, a3
	slli	t1, s4, 40
	ld	a0, 128(sp)                     # 8-byte Folded Reload
	or	s8, s8, a0
	srli	a0, s4, 8
	ld	a1, 88(sp)                      # 8-byte Folded Reload
	or	ra, ra, a1
	slli	t0, s4, 56
	ld	a1, 80(sp)                      # 8-byte Folded Reload
	or	s9, s9, a1
	srli	a3, a2, 24
	ld	a1, 72(sp)                      # 8-byte Folded Reload
	or	s3, s3, a1
	slli	a1, a2, 40
	or	t4, t4, t5
	srli	t5, a2, 8
	or	a5, a5, s1
	slli	s1, a2, 56
	or	t1, t1, s11
	or	a0, t0, a0
	ld	a4, 56(sp)                      # 8-byte Folded Reload
	and	t0, a4, s10
	and	s5, s5, t3
	or	s11, a1, a3
	or	t5, s1, t5
	and	s7, s7, s10
	and	s6, s6, t3
	and	s8, s8, s10
	and	ra, ra, t3
	and	s9, s9, s10
	and	a3, s3, t3
	and	a1, t4, s10
	and	a5, a5, t3
	and	s1, t1, s10
	and	a0, a0, t3
	ld	a4, 48(sp)                      # 8-byte Folded Reload
	xor	s3, a4, s2
	or	t0, t0, s5
	and	t1, s11, s10
	and	t4, t5, t3
	or	t5, s7, s6
	or	s5, s8, ra
	or	s8, s9, a3
	or	s7, a1, a5
	or	s6, s1, a0
	xor	s9, s3, a6
	or	s1, t1, t4
	xor	t0, t0, a6
	xor	a0, t5, s0
	xor	a3, s5, a7
	xor	t1, s8, t6
	xor	s5, s7, t2
	xor	a5, s6, s4
	xor	s1, s1, a2
	xor	a6, a5, s2
	xor	a1, s9, a5
	sd	a1, 128(sp)                     # 8-byte Folded Spill
	xor	s2, t0, a2
	xor	s0, s0, a5
	xor	a4, a5, a7
	xor	t3, a3, t6
	xor	t2, t1, t2
	xor	s8, s5, s4
	xor	t4, s0, s1
	xor	t5, a4, a0
	xor	a4, s8, t2
	xor	s0, t2, s3
	xor	s1, s1, a6
	xor	a1, a1, a0
	xor	a3, s2, a3
	xor	a0, t1, s8
	xor	a5, t3, a5
	xor	t6, a4, t0
	xor	s1, s1, s8
	xor	t0, a1, t2
	xor	s11, a3, a4
	xor	a7, t4, a0
	xor	t1, s5, t5
	srli	s3, s0, 32
	slli	s5, s0, 32
	srli	s6, a5, 32
	slli	s7, a5, 32
	xor	s4, a6, s0
	xor	s8, a5, s8
	or	s3, s5, s3
	srli	s5, t6, 32
	slli	s9, t6, 32
	srli	ra, s1, 32
	slli	a5, s1, 32
	srli	s0, t0, 32
	slli	a0, t0, 32
	srli	a1, s11, 32
	slli	a2, s11, 32
	srli	a3, a7, 32
	slli	a6, a7, 32
	or	s6, s7, s6
	srli	s7, t1, 32
	ld	a4, 128(sp)                     # 8-byte Folded Reload
	xor	t6, a4, t6
	slli	a4, t1, 32
	xor	s1, s2, s1
	xor	t0, t4, t0
	xor	t4, t5, s11
	xor	a7, t3, a7
	xor	t1, t2, t1
	or	t2, s9, s5
	or	a5, a5, ra
	or	t5, a0, s0
	or	a2, a2, a1
	or	a6, a6, a3
	or	a3, a4, s7
	xor	s5, s4, s3
	xor	a1, s6, s8
	xor	a0, t6, t2
	xor	a5, a5, s1
	xor	s1, t0, t5
	xor	a2, t4, a2
	xor	t5, a7, a6
	xor	a3, t1, a3
	xor	a4, a0, s5
	xor	t6, a3, a1
	xor	a6, t5, a5
	xor	t2, a2, a3
	xor	t0, t5, s1
	xor	s6, a0, a3
	xor	s3, a2, a1
	xor	a7, a2, s1
	xor	s7, a0, a5
	xor	s0, s1, s5
	xor	a0, a4, t6
	sd	a0, 128(sp)                     # 8-byte Folded Spill
	xor	t1, t0, s6
	xor	s4, a6, a1
	xor	s11, s3, a3
	xor	s9, a7, a4
	xor	t0, t2, a6
	xor	t4, a7, s7
	xor	s5, a7, s5
	xor	ra, t2, a4
	xor	s6, s6, s0
	xor	a6, s0, t6
	xor	s2, s11, s1
	and	a1, t0, a0
	and	s1, s11, s3
	and	a5, s9, t1
	or	a4, s9, t1
	and	a0, s5, t2
	and	a2, ra, s4
	xor	s8, ra, t5
	and	a3, a6, t6
	xor	a0, a0, a4
	xor	a4, t4, a6
	xor	s7, a6, s7
	xor	a2, a2, s0
	and	s0, s2, t4
	and	a4, a4, a7
	xor	t5, a5, t5
	and	a5, s8, s6
	xor	s1, s7, s1
	xor	s0, s0, a4
	xor	a3, a3, a4
	xor	a2, a2, a1
	xor	a1, a1, s1
	xor	a4, t5, a5
	xor	a0, a0, s0
	xor	a2, a2, a3
	xor	a1, a1, s0
	xor	a4, a4, a7
	and	a5, a1, a0
	xor	s1, a1, a2
	xor	a3, a3, a4
	and	t5, a2, a0
	xor	s0, a5, a2
	and	a1, a1, a3
	xor	a0, a0, a3
	xor	a4, a5, a3
	and	a1, a1, s1
	and	a4, a4, s1
	xor	s1, s1, a5
	and	s0, s0, a0
	and	t5, t5, a0
	xor	a0, a0, a5
	xor	a2, a2, a4
	xor	a4, s1, a1
	xor	a3, a3, s0
	xor	a0, a0, t5
	and	t5, a2, s6
	xor	s0, a4, a2
	and	s6, a2, s8
	xor	a2, a2, a3
	and	s8, a4, t2
	and	t2, a3, s4
	and	a1, a3, ra
	and	ra, a4, s5
	xor	a4, a4, a0
	and	s3, a0, s3
	xor	a3, a3, a0
	and	s4, a0, s11
	and	s5, s0, s9
	and	s9, s0, t1
	and	t1, a3, t0
	ld	a0, 128(sp)                     # 8-byte Folded Reload
	and	t0, a3, a0
	and	a7, a2, a7
	and	a3, a2, s7
	and	a6, a4, a6
	xor	a2, a2, a4
	and	a4, a4, t6
	and	t6, a2, t4
	and	a2, a2, s2
	xor	a5, s3, t2
	xor	s1, a3, t5
	xor	t4, a3, s8
	xor	a7, a7, a1
	xor	a0, a5, a1
	xor	a5, a5, s8
	xor	s0, s4, ra
	xor	t5, t6, ra
	xor	a3, s9, s0
	xor	a1, s1, a3
	xor	t2, t1, t2
	xor	a3, t1, s6
	xor	s1, t0, a4
	xor	t1, a3, s0
	xor	s3, a3, a4
	xor	t6, s9, s6
	xor	t0, a2, s9
	xor	a2, a2, a6
	xor	a5, a5, a6
	xor	a4, t4, s5
	xor	s0, a0, s5
	xor	a3, t5, a4
	xor	a4, a4, a2
	xor	a2, a2, s0
	xor	s0, s3, a0
	xor	s5, a7, s1
	xor	a0, a5, s1
	xor	t1, t1, a4
	xor	a7, t2, a4
	xor	a6, t6, a4
	xor	t2, t0, a3
	xor	t6, s0, a3
	xor	s3, a2, a1
	xor	t0, a0, a1
	j	.Laes_narrow_BB22_3
.Laes_narrow_BB22_2:                               # %else.4.i
	srli	t5, t2, 8
	lui	a0, 4080
	slli	a1, a0, 32
	srli	t6, t1, 8
	srli	s5, t4, 8
	srli	s6, s4, 8
	srli	s7, a7, 8
	srli	s8, s3, 8
	srli	s9, t0, 8
	add	a1, a1, a0
	srli	a0, a6, 8
	xor	a2, t5, t2
	xor	a3, t6, t1
	xor	a4, s5, t4
	xor	a5, s6, s4
	xor	s1, s7, a7
	xor	s0, s8, s3
	xor	t5, s9, t0
	xor	t6, a0, a6
	and	a0, a2, a1
	and	a3, a3, a1
	and	a4, a4, a1
	and	a5, a5, a1
	and	s1, s1, a1
	and	s0, s0, a1
	and	t5, t5, a1
	and	t6, t6, a1
	slli	a2, a0, 8
	or	a0, a0, a2
	slli	a2, a3, 8
	or	a2, a2, a3
	slli	a3, a4, 8
	or	a3, a3, a4
	slli	a4, a5, 8
	or	a4, a4, a5
	slli	a5, s1, 8
	or	s1, s1, a5
	slli	a5, s0, 8
	or	a5, a5, s0
	slli	s0, t5, 8
	or	s0, s0, t5
	slli	a1, t6, 8
	or	a1, a1, t6
	xor	s5, a0, t2
	xor	t2, a2, t1
	xor	t1, a3, t4
	xor	t6, a4, s4
	xor	a7, s1, a7
	xor	s3, a5, s3
	xor	t0, s0, t0
	xor	a6, a1, a6
	ld	s10, 112(sp)                    # 8-byte Folded Reload
.Laes_narrow_BB22_3:                               # %join.5.i
	ld	t3, 120(sp)                     # 8-byte Folded Reload
.Laes_narrow_pcrel_hi14:
	auipc	a1, %pcrel_hi(.Laes_narrow_CPI22_2)
	lui	a2, 65521
	ld	a4, 104(sp)                     # 8-byte Folded Reload
	slli	a4, a4, 6
	ld	s2, %pcrel_lo(.Laes_narrow_pcrel_hi14)(a1)
	addi	a2, a2, -1
	ld	a0, 32(sp)                      # 8-byte Folded Reload
	add	a4, a4, a0
	slli	t5, a2, 32
	ld	a1, 64(a4)
	ld	a5, 72(a4)
	ld	s0, 80(a4)
	ld	a3, 88(a4)
	ld	s1, 96(a4)
	ld	a0, 104(a4)
	ld	s4, 112(a4)
	ld	a4, 120(a4)
	add	t5, t5, a2
	xor	a2, a1, s5
	xor	a1, a5, t2
	xor	a5, s0, t1
	xor	s0, a3, t6
	xor	a3, s1, a7
	xor	t6, a0, s3
	xor	s3, s4, t0
	xor	t4, a4, a6
	srli	s1, a2, 20
	slli	a4, a2, 44
	srli	a0, a2, 4
	sd	a0, 128(sp)                     # 8-byte Folded Spill
	slli	a0, a2, 60
	sd	a0, 104(sp)                     # 8-byte Folded Spill
	srli	s5, a1, 20
	slli	s8, a1, 44
	srli	a0, a1, 4
	sd	a0, 80(sp)                      # 8-byte Folded Spill
	slli	a0, a1, 60
	srli	s6, a5, 20
	slli	s9, a5, 44
	srli	s7, a5, 4
	slli	s11, a5, 60
	srli	t2, s0, 20
	slli	t1, s0, 44
	srli	ra, s0, 4
	slli	s4, s0, 60
	srli	t0, a3, 20
	slli	a6, a3, 44
	or	a4, a4, s1
	sd	a4, 88(sp)                      # 8-byte Folded Spill
	srli	a7, a3, 4
	ld	a4, 128(sp)                     # 8-byte Folded Reload
	ld	s1, 104(sp)                     # 8-byte Folded Reload
	or	a4, a4, s1
	sd	a4, 128(sp)                     # 8-byte Folded Spill
	slli	a4, a3, 60
	or	s1, s8, s5
	sd	s1, 104(sp)                     # 8-byte Folded Spill
	srli	s8, t6, 20
	ld	s1, 80(sp)                      # 8-byte Folded Reload
	or	s5, a0, s1
	slli	a0, t6, 44
	or	s6, s9, s6
	srli	s9, t6, 4
	or	s7, s11, s7
	slli	s11, t6, 60
	or	t1, t1, t2
	srli	t2, s3, 20
	or	s4, s4, ra
	slli	ra, s3, 44
	or	a6, a6, t0
	srli	t0, s3, 4
	or	a7, a4, a7
	slli	a4, s3, 60
	or	s8, a0, s8
	srli	a0, t4, 20
	or	s9, s11, s9
	slli	s11, t4, 44
	or	t2, ra, t2
	srli	ra, t4, 4
	or	t0, a4, t0
	slli	a4, t4, 60
	or	a0, s11, a0
	or	ra, a4, ra
	ld	a4, 88(sp)                      # 8-byte Folded Reload
	and	s11, a4, t5
	ld	a4, 128(sp)                     # 8-byte Folded Reload
	and	a4, a4, s2
	ld	s1, 104(sp)                     # 8-byte Folded Reload
	and	s1, s1, t5
	and	s5, s5, s2
	and	s6, s6, t5
	and	s7, s7, s2
	and	t1, t1, t5
	and	s4, s4, s2
	and	a6, a6, t5
	and	a7, a7, s2
	and	s8, s8, t5
	and	s9, s9, s2
	and	t2, t2, t5
	and	t0, t0, s2
	sd	t5, 48(sp)                      # 8-byte Folded Spill
	and	a0, a0, t5
	sd	s2, 56(sp)                      # 8-byte Folded Spill
	and	ra, ra, s2
	or	a4, s11, a4
	or	s1, s1, s5
	or	s5, s6, s7
	or	t1, t1, s4
	or	a6, a6, a7
	or	a7, s8, s9
	or	t0, t2, t0
	or	s4, a0, ra
	xor	a4, a4, a2
	xor	t2, s1, a1
	xor	s9, s5, a5
	xor	t1, t1, s0
	xor	s1, a6, a3
	xor	s7, a7, t6
	xor	s8, t0, s3
	xor	a0, s4, t4
	xor	s5, a0, a2
	xor	a1, a1, a4
	xor	a5, t2, a5
	sd	a5, 128(sp)                     # 8-byte Folded Spill
	xor	a2, s9, s0
	xor	a3, t1, a3
	xor	t5, s1, t6
	xor	t6, s7, s3
	xor	s6, s8, t4
	xor	s3, a1, a0
	xor	s4, a2, a0
	xor	s2, a3, a0
	xor	a3, s6, t6
	xor	a6, t6, a4
	xor	a2, s6, s9
	xor	a4, t6, t1
	xor	a1, s1, a5
	xor	s0, s6, s7
	xor	a0, a0, t5
	xor	s1, a3, t2
	xor	t0, a2, s5
	xor	t4, a4, s3
	xor	a5, a1, a3
	xor	a3, s0, s4
	xor	s0, s2, s8
	srli	s7, a6, 40
	slli	s8, a6, 24
	srli	s9, a6, 24
	slli	s11, a6, 40
	srli	t1, a0, 40
	slli	t2, a0, 24
	srli	a4, a0, 24
	slli	ra, a0, 40
	xor	a1, a6, s5
	sd	a1, 104(sp)                     # 8-byte Folded Spill
	xor	a0, s6, a0
	sd	a0, 88(sp)                      # 8-byte Folded Spill
	or	s8, s8, s7
	or	s7, s11, s9
	srli	a0, s1, 40
	slli	a1, s1, 24
	srli	s9, s1, 24
	slli	s11, s1, 40
	srli	a2, t0, 40
	slli	a6, t0, 24
	or	t2, t2, t1
	srli	t1, t0, 24
	or	ra, ra, a4
	slli	a7, t0, 40
	xor	s6, s3, s1
	srli	s3, t4, 40
	ld	a4, 128(sp)                     # 8-byte Folded Reload
	xor	s5, a4, t0
	slli	a4, t4, 24
	or	a0, a0, a1
	srli	a1, t4, 24
	xor	s4, s4, t4
	slli	s1, t4, 40
	or	s9, s11, s9
	srli	s11, a5, 40
	or	a6, a6, a2
	slli	a2, a5, 24
	or	a7, a7, t1
	srli	t1, a5, 24
	xor	t4, s2, a5
	slli	a5, a5, 40
	or	s3, a4, s3
	srli	a4, a3, 40
	or	a1, a1, s1
	slli	s1, a3, 24
	or	s11, a2, s11
	srli	a2, a3, 24
	xor	t0, t5, a3
	slli	a3, a3, 40
	or	t1, a5, t1
	srli	a5, s0, 40
	or	a4, a4, s1
	slli	s1, s0, 24
	or	a2, a2, a3
	srli	a3, s0, 24
	xor	t6, t6, s0
	slli	s0, s0, 40
	and	s8, s8, s10
	and	s7, s7, t3
	or	a5, a5, s1
	or	a3, a3, s0
	and	s1, t2, s10
	and	ra, ra, t3
	or	t2, s8, s7
	and	s7, a0, s10
	and	s8, s9, t3
	and	a6, a6, s10
	and	a7, a7, t3
	and	s3, s3, s10
	and	a1, a1, t3
	and	s9, s11, s10
	and	s0, t1, t3
	and	t1, a4, s10
	and	a2, a2, t3
	and	a5, a5, s10
	and	a3, a3, t3
	or	s1, s1, ra
	or	a0, s7, s8
	or	a4, a6, a7
	or	a1, s3, a1
	or	s0, s9, s0
	or	a2, t1, a2
	or	a6, a5, a3
	ld	a3, 104(sp)                     # 8-byte Folded Reload
	xor	t1, a3, t2
	ld	a3, 88(sp)                      # 8-byte Folded Reload
	xor	s1, s1, a3
	xor	a0, s6, a0
	xor	a4, s5, a4
	xor	a1, s4, a1
	xor	a3, t4, s0
	xor	s11, t0, a2
	xor	s0, t6, a6
	xor	a5, a0, t1
	xor	s3, s0, s1
	xor	a2, s11, a4
	xor	s9, a3, s0
	xor	a7, s11, a1
	xor	s7, s0, a0
	xor	s4, a3, s1
	xor	a6, a3, a1
	xor	s8, a4, a0
	xor	a4, a1, t1
	xor	s2, s3, a5
	xor	t2, a7, s7
	xor	s5, a2, s1
	xor	ra, s4, s0
	xor	t0, a6, a5
	xor	t5, s9, a2
	xor	t6, a6, s8
	xor	s6, a6, t1
	xor	a7, s9, a5
	xor	s7, a4, s7
	xor	s0, a4, s3
	xor	t3, ra, a1
	and	a3, t5, s2
	and	a5, ra, s4
	and	s1, t0, t2
	or	a1, t0, t2
	and	a0, s6, s9
	and	a2, a7, s5
	xor	t1, a7, s11
	xor	a0, a0, a1
	and	a1, s0, s3
	xor	a2, a2, a4
	xor	a4, t6, s0
	xor	s8, s8, s0
	xor	s11, s1, s11
	and	s1, t3, t6
	and	a4, a4, a6
	xor	s1, s1, a4
	xor	a1, a1, a4
	and	a4, t1, s7
	xor	a5, s8, a5
	xor	a2, a2, a3
	xor	a3, a3, a5
	xor	a4, s11, a4
	xor	a0, a0, s1
	xor	t4, a2, a1
	xor	a3, a3, s1
	xor	a4, a4, a6
	and	a5, a3, a0
	xor	s1, a3, t4
	xor	a1, a1, a4
	and	s11, t4, a0
	and	a3, a3, a1
	xor	a0, a0, a1
	xor	a4, a5, a1
	and	a3, a3, s1
	and	a4, a4, s1
	xor	s1, s1, a5
	xor	a2, a5, t4
	and	a2, a2, a0
	and	s11, s11, a0
	xor	a0, a0, a5
	xor	a4, a4, t4
	xor	a3, a3, s1
	xor	a2, a2, a1
	xor	a0, a0, s11
	and	t4, a4, s7
	xor	a5, a3, a4
	and	t1, a4, t1
	xor	a4, a4, a2
	and	s7, a3, s9
	and	s5, a2, s5
	and	s1, a2, a7
	and	s6, a3, s6
	xor	a3, a3, a0
	and	a7, a0, s4
	xor	a2, a2, a0
	and	s4, a0, ra
	and	t0, a5, t0
	and	s11, a5, t2
	and	s9, a2, t5
	and	t2, a2, s2
	and	a6, a4, a6
	and	a2, a4, s8
	and	s8, a3, s0
	xor	a4, a4, a3
	and	a3, a3, s3
	and	a1, a4, t6
	and	a4, a4, t3
	xor	s0, a7, s5
	xor	a0, a2, t4
	xor	a7, a2, s7
	xor	a6, a6, s1
	xor	s1, s1, s0
	xor	s0, s0, s7
	xor	a5, s4, s6
	xor	s3, a1, s6
	xor	a2, s11, a5
	xor	t4, a0, a2
	xor	t6, s9, s5
	xor	a0, s9, t1
	xor	a2, t2, a3
	xor	s4, a0, a5
	xor	a0, a0, a3
	xor	t1, s11, t1
	xor	t2, a4, s11
	xor	a3, a4, s8
	xor	a4, s0, s8
	xor	s0, a7, t0
	xor	a1, s1, t0
	xor	a5, s3, s0
	xor	s0, s0, a3
	xor	a7, a1, a3
	xor	s1, s1, a0
	xor	s3, a6, a2
	xor	a6, a4, a2
	xor	s5, s4, s0
	xor	t6, t6, s0
	xor	t0, t1, s0
	xor	t2, t2, a5
	xor	t1, s1, a5
	xor	a7, a7, t4
	xor	a6, a6, t4
	ld	a0, 96(sp)                      # 8-byte Folded Reload
	bnez	a0, .Laes_narrow_BB22_4
	j	.Laes_narrow_BB22_6
.Laes_narrow_BB22_4:                               # %join.10.i.preheader
	slli	a2, a0, 8
	ld	a1, 32(sp)                      # 8-byte Folded Reload
	add	a2, a2, a1
	addi	a1, a2, -64
.Laes_narrow_BB22_5:                               # %join.10.i
                                        # =>This Inner Loop Header: Depth=1
	sd	a1, 128(sp)                     # 8-byte Folded Spill
	sd	a0, 96(sp)                      # 8-byte Folded Spill
	ld	a2, 64(a1)
	ld	a3, 72(a1)
	ld	a0, 80(a1)
	ld	a1, 128(sp)                     # 8-byte Folded Reload
	ld	a1, 88(a1)
	ld	a4, 128(sp)                     # 8-byte Folded Reload
	ld	a4, 96(a4)
	ld	a5, 128(sp)                     # 8-byte Folded Reload
	ld	a5, 104(a5)
	ld	s1, 128(sp)                     # 8-byte Folded Reload
	ld	s1, 112(s1)
	ld	s0, 128(sp)                     # 8-byte Folded Reload
	ld	s0, 120(s0)
	xor	a2, a2, s3
	xor	a3, a3, t2
	xor	a0, a0, s5
	xor	a1, a1, t1
	xor	a4, a4, t6
	xor	a5, a5, a7
	xor	s1, s1, a6
	xor	s0, s0, t0
	srli	a6, a2, 16
	slli	a7, a2, 48
	srli	t0, a3, 16
	slli	t1, a3, 48
	srli	t2, a0, 16
	slli	t4, a0, 48
	srli	t6, a1, 16
	slli	s3, a1, 48
	srli	s5, a4, 16
	slli	s6, a4, 48
	srli	s7, a5, 16
	slli	s8, a5, 48
	srli	s9, s1, 16
	slli	s11, s1, 48
	srli	ra, s0, 16
	slli	t3, s0, 48
	or	a6, a7, a6
	or	a7, t1, t0
	or	t0, t4, t2
	or	t1, s3, t6
	or	t2, s6, s5
	or	t4, s8, s7
	or	t6, s11, s9
	or	t3, t3, ra
	xor	s3, a6, a2
	xor	s5, a7, a3
	xor	s6, t0, a0
	xor	s7, t1, a1
	xor	s8, t2, a4
	xor	t4, t4, a5
	xor	s9, t6, s1
	xor	t3, t3, s0
	xor	t6, t3, a2
	xor	a3, s3, a3
	xor	a6, s5, a0
	xor	a0, s6, a1
	xor	a1, s7, a4
	xor	a7, s8, a5
	xor	s11, t4, s1
	xor	s1, s9, s0
	xor	t2, a3, t3
	xor	t0, a0, t3
	xor	t1, a1, t3
	xor	a1, s1, s11
	xor	a2, s11, s3
	xor	a0, s1, s6
	xor	a3, s11, s7
	xor	a4, s8, a6
	xor	s0, s1, t4
	xor	a5, t3, a7
	xor	t4, a1, s5
	xor	t3, a0, t6
	xor	ra, a3, t2
	xor	t5, a4, a1
	xor	s2, s0, t0
	xor	a4, t1, s9
	srli	s3, a2, 32
	slli	s5, a2, 32
	srli	s6, a5, 32
	slli	s8, a5, 32
	xor	t6, a2, t6
	xor	s7, s1, a5
	or	s3, s5, s3
	srli	s5, t4, 32
	slli	s9, t4, 32
	srli	s0, t3, 32
	slli	s1, t3, 32
	srli	a2, ra, 32
	slli	a0, ra, 32
	srli	a5, t5, 32
	slli	a1, t5, 32
	srli	a3, s2, 32
	slli	s10, s2, 32
	or	s6, s8, s6
	srli	s8, a4, 32
	xor	t2, t2, t4
	slli	t4, a4, 32
	xor	a6, a6, t3
	xor	t0, t0, ra
	xor	t1, t1, t5
	xor	a7, a7, s2
	xor	t3, s11, a4
	or	a4, s9, s5
	or	s0, s0, s1
	or	a0, a0, a2
	or	a1, a1, a5
	or	a2, s10, a3
	or	t4, t4, s8
	xor	t6, s3, t6
	xor	a5, s7, s6
	xor	a4, t2, a4
	xor	s0, a6, s0
	xor	a0, t0, a0
	xor	a3, t1, a1
	xor	t1, a7, a2
	xor	a2, t3, t4
	xor	s1, a4, t6
	xor	t4, a2, a5
	xor	a1, t1, s0
	xor	t5, a3, a2
	xor	a6, t1, a0
	xor	a7, a2, a4
	xor	s7, a3, a5
	xor	a3, a3, a0
	xor	a4, a4, s0
	xor	s0, a0, t6
	xor	s3, t4, s1
	xor	s8, a6, a7
	xor	s9, a1, a5
	xor	t3, s7, a2
	xor	ra, a3, s1
	xor	s5, t5, a1
	xor	s6, a3, a4
	xor	s11, a3, t6
	xor	s2, t5, s1
	xor	a6, s0, a7
	xor	s10, s0, t4
	xor	t6, t3, a0
	and	a0, s5, s3
	and	t2, t3, s7
	and	s1, ra, s8
	or	a5, ra, s8
	and	a2, s11, t5
	and	a1, s2, s9
	xor	a7, s2, t1
	and	s4, s10, t4
	xor	a2, a2, a5
	xor	a5, s6, s10
	xor	t0, a4, s10
	xor	a1, a1, s0
	and	a4, t6, s6
	and	a5, a5, a3
	xor	t1, s1, t1
	and	s0, a7, a6
	xor	s1, t0, t2
	xor	a4, a4, a5
	xor	a5, a5, s4
	xor	a1, a1, a0
	xor	a0, a0, s1
	xor	s1, t1, s0
	xor	a2, a2, a4
	xor	a1, a1, a5
	xor	a0, a0, a4
	xor	s1, s1, a3
	and	a4, a0, a2
	xor	s0, a0, a1
	xor	a5, a5, s1
	and	t1, a1, a2
	xor	t2, a4, a1
	and	a0, a0, a5
	xor	a2, a2, a5
	xor	s1, a4, a5
	and	s4, a0, s0
	and	s1, s1, s0
	xor	s0, s0, a4
	and	a0, t2, a2
	and	t1, t1, a2
	xor	a2, a2, a4
	xor	a1, a1, s1
	xor	a4, s0, s4
	xor	s1, a0, a5
	ld	a0, 128(sp)                     # 8-byte Folded Reload
	ld	a0, 0(a0)
	ld	a5, 128(sp)                     # 8-byte Folded Reload
	ld	s4, 8(a5)
	ld	s0, 128(sp)                     # 8-byte Folded Reload
	ld	a5, 16(s0)
	sd	a5, 88(sp)                      # 8-byte Folded Spill
	ld	s0, 128(sp)                     # 8-byte Folded Reload
	ld	t2, 24(s0)
	xor	a2, a2, t1
	and	a6, a1, a6
	xor	s0, a4, a1
	and	t1, a1, a7
	xor	a1, a1, s1
	and	a7, a4, t5
	and	s9, s1, s9
	and	s2, s1, s2
	and	t5, a4, s11
	xor	a4, a4, a2
	and	s7, a2, s7
	xor	s1, s1, a2
	and	a2, a2, t3
	and	t3, s0, ra
	and	s11, a1, a3
	and	a3, a1, t0
	and	s0, s0, s8
	and	t0, a4, s10
	and	s5, s1, s5
	and	s3, s1, s3
	xor	a1, a1, a4
	and	a4, a4, t4
	ld	s1, 128(sp)                     # 8-byte Folded Reload
	ld	s1, 32(s1)
	ld	a5, 128(sp)                     # 8-byte Folded Reload
	ld	t4, 40(a5)
	ld	a5, 128(sp)                     # 8-byte Folded Reload
	ld	s8, 48(a5)
	ld	a5, 128(sp)                     # 8-byte Folded Reload
	ld	s10, 56(a5)
	xor	ra, a2, t5
	xor	a2, s7, s9
	xor	s7, a0, s2
	xor	s9, s9, s1
	xor	s10, t1, s10
	xor	s1, s0, a6
	xor	a0, a3, a7
	xor	a6, s5, t1
	and	t1, a1, s6
	and	a1, a1, t6
	xor	s6, ra, a3
	xor	s2, a2, s2
	xor	a3, s3, a4
	xor	t6, s7, s11
	xor	a5, s0, s4
	xor	a4, a4, t2
	xor	t2, s9, s5
	xor	s5, a2, t0
	xor	s3, s10, s0
	xor	a0, a0, t3
	xor	s0, t1, t5
	xor	a2, a1, t0
	xor	t6, t6, a3
	xor	t0, a5, a1
	xor	t1, a4, a6
	xor	t4, s1, t4
	xor	a1, s6, t3
	xor	s1, s1, s8
	xor	a4, s6, a7
	xor	a7, s5, a3
	xor	s0, s0, a0
	xor	a3, a2, a0
	ld	a5, 88(sp)                      # 8-byte Folded Reload
	xor	t3, a0, a5
	xor	t5, a2, ra
	xor	t1, t1, s2
	xor	t4, t4, a1
	xor	s2, s2, a2
	xor	s1, s1, a4
	sd	t6, 104(sp)                     # 8-byte Folded Spill
	srli	a4, t6, 28
	slli	a1, t6, 36
	srli	a5, t6, 12
	slli	a0, t6, 52
	xor	t0, t0, s0
	xor	a2, t3, t5
	xor	s0, t1, s0
	xor	t1, t2, a3
	xor	s5, t4, s2
	xor	t6, s1, a7
	xor	s1, s3, a3
	or	a4, a4, a1
	or	a5, a5, a0
	xor	a7, a2, a6
	ld	a1, 64(sp)                      # 8-byte Folded Reload
	and	a2, a4, a1
	ld	a0, 40(sp)                      # 8-byte Folded Reload
	and	t2, a5, a0
	srli	t3, t0, 28
	slli	s2, t0, 36
	srli	t4, t0, 12
	slli	t5, t0, 52
	srli	s6, s0, 28
	slli	s8, s0, 36
	srli	s3, s0, 12
	slli	s4, s0, 52
	srli	s9, t1, 28
	slli	s7, t1, 36
	srli	a3, t1, 12
	sd	a3, 72(sp)                      # 8-byte Folded Spill
	slli	s10, t1, 52
	srli	s11, s5, 28
	slli	a3, s5, 36
	srli	ra, s5, 12
	slli	a4, s5, 52
	srli	a6, t6, 28
	or	a2, a2, t2
	sd	a2, 88(sp)                      # 8-byte Folded Spill
	slli	a5, t6, 36
	or	t2, s2, t3
	srli	t3, t6, 12
	or	t4, t5, t4
	slli	t5, t6, 52
	or	s2, s8, s6
	sd	s1, 80(sp)                      # 8-byte Folded Spill
	srli	s6, s1, 28
	or	s3, s4, s3
	slli	s4, s1, 36
	or	s8, s7, s9
	srli	s9, s1, 12
	ld	a2, 72(sp)                      # 8-byte Folded Reload
	or	s7, s10, a2
	slli	s10, s1, 52
	or	s11, a3, s11
	srli	a3, a7, 28
	or	ra, a4, ra
	slli	a4, a7, 36
	or	a6, a5, a6
	srli	a5, a7, 12
	or	t3, t5, t3
	slli	a2, a7, 52
	or	t5, s4, s6
	or	s4, s10, s9
	and	t2, t2, a1
	and	t4, t4, a0
	or	s9, a4, a3
	or	s6, a2, a5
	and	s2, s2, a1
	and	s10, s3, a0
	and	s3, s8, a1
	and	s7, s7, a0
	and	s8, s11, a1
	and	ra, ra, a0
	and	s11, a6, a1
	and	a5, t3, a0
	and	a3, t5, a1
	and	a4, s4, a0
	ld	a2, 104(sp)                     # 8-byte Folded Reload
	ld	s1, 88(sp)                      # 8-byte Folded Reload
	xor	t3, s1, a2
	or	a6, t2, t4
	and	t2, s9, a1
	and	t4, s6, a0
	or	t5, s2, s10
	or	s2, s3, s7
	or	s4, s8, ra
	or	s6, s11, a5
	or	s3, a3, a4
	xor	s8, t3, t0
	or	a5, t2, t4
	xor	t2, a6, t0
	xor	a0, t5, s0
	xor	a3, s2, t1
	xor	a6, s4, s5
	xor	t4, s6, t6
	ld	s1, 80(sp)                      # 8-byte Folded Reload
	xor	a4, s3, s1
	xor	a5, a5, a7
	xor	s7, a4, a2
	xor	s3, s8, a4
	xor	s2, t2, a7
	xor	s0, s0, a4
	xor	a2, a4, t1
	xor	a1, a3, s5
	sd	a1, 104(sp)                     # 8-byte Folded Spill
	xor	t1, a6, t6
	xor	s6, t4, s1
	xor	a7, s0, a5
	xor	t0, a2, a0
	xor	a2, s6, t1
	xor	s1, t1, t3
	xor	a5, a5, s7
	xor	a0, s3, a0
	xor	s0, s2, a3
	xor	a3, a6, s6
	xor	a4, a4, a1
	xor	s4, a2, t2
	xor	a6, a5, s6
	xor	a0, a0, t1
	xor	s0, s0, a2
	xor	a3, a7, a3
	xor	s10, t4, t0
	srli	s8, s1, 40
	slli	s9, s1, 24
	srli	s11, s1, 24
	slli	ra, s1, 40
	srli	t2, a4, 40
	slli	t3, a4, 24
	srli	t4, a4, 24
	slli	t5, a4, 40
	xor	a1, s7, s1
	sd	a1, 88(sp)                      # 8-byte Folded Spill
	xor	a1, a4, s6
	sd	a1, 80(sp)                      # 8-byte Folded Spill
	or	s6, s9, s8
	or	s7, ra, s11
	srli	s9, s4, 40
	slli	a1, s4, 24
	srli	s1, s4, 24
	slli	a2, s4, 40
	srli	s8, a6, 40
	slli	a4, a6, 24
	srli	s11, a6, 24
	or	ra, t3, t2
	slli	a5, a6, 40
	or	t4, t5, t4
	srli	t5, a0, 40
	xor	s5, s3, s4
	slli	s3, a0, 24
	xor	s2, s2, a6
	srli	t6, a0, 24
	xor	t3, a7, a0
	slli	a0, a0, 40
	or	a7, a1, s9
	srli	a1, s0, 40
	or	s4, a2, s1
	slli	s1, s0, 24
	or	s8, a4, s8
	srli	a2, s0, 24
	xor	t2, t0, s0
	slli	s0, s0, 40
	or	s9, a5, s11
	srli	a4, a3, 40
	or	t5, s3, t5
	slli	a5, a3, 24
	or	t6, a0, t6
	srli	a6, a3, 24
	ld	a0, 104(sp)                     # 8-byte Folded Reload
	xor	a0, a0, a3
	sd	a0, 104(sp)                     # 8-byte Folded Spill
	slli	a3, a3, 40
	or	s11, s1, a1
	srli	s1, s10, 40
	or	t0, s0, a2
	slli	s0, s10, 24
	or	a2, a5, a4
	srli	a5, s10, 24
	xor	s3, t1, s10
	slli	s10, s10, 40
	ld	a4, 112(sp)                     # 8-byte Folded Reload
	and	s6, s6, a4
	ld	a0, 120(sp)                     # 8-byte Folded Reload
	and	a1, s7, a0
	or	s7, a3, a6
	or	s0, s0, s1
	or	s10, s10, a5
	and	ra, ra, a4
	and	s1, t4, a0
	or	t4, s6, a1
	and	a7, a7, a4
	and	s4, s4, a0
	and	s6, s8, a4
	and	s8, s9, a0
	and	t5, t5, a4
	and	t6, t6, a0
	and	s9, s11, a4
	and	s11, t0, a0
	and	a6, a2, a4
	and	a1, s7, a0
	and	s0, s0, a4
	and	a5, s10, a0
	or	s1, ra, s1
	or	a0, a7, s4
	or	a3, s6, s8
	or	a2, t5, t6
	or	a7, s9, s11
	or	a1, a6, a1
	or	t5, s0, a5
	ld	a4, 88(sp)                      # 8-byte Folded Reload
	xor	t6, a4, t4
	ld	a4, 80(sp)                      # 8-byte Folded Reload
	xor	s1, s1, a4
	xor	a4, s5, a0
	xor	a3, s2, a3
	xor	a2, t3, a2
	xor	a5, t2, a7
	ld	a0, 104(sp)                     # 8-byte Folded Reload
	xor	t1, a0, a1
	xor	a1, s3, t5
	xor	s0, a4, t6
	xor	t3, a1, s1
	xor	a0, t1, a3
	xor	t4, a5, a1
	xor	a6, t1, a2
	xor	a7, a4, a1
	xor	s7, a5, s1
	xor	a5, a5, a2
	xor	a4, a4, a3
	xor	a3, a2, t6
	xor	s3, s0, t3
	xor	s8, a6, a7
	xor	s9, a0, s1
	xor	t5, s7, a1
	xor	ra, a5, s0
	xor	s5, t4, a0
	xor	s6, a5, a4
	xor	s11, a5, t6
	xor	s2, t4, s0
	xor	a6, a7, a3
	xor	s4, a3, t3
	xor	t6, t5, a2
	and	a1, s5, s3
	and	t2, t5, s7
	and	s10, ra, s8
	or	s0, ra, s8
	and	a0, s11, t4
	and	a2, s2, s9
	xor	a7, s2, t1
	and	s1, s4, t3
	xor	a0, a0, s0
	xor	s0, s6, s4
	xor	t0, s4, a4
	xor	a2, a2, a3
	and	a3, t6, s6
	and	s0, s0, a5
	xor	t1, s10, t1
	and	s10, a7, a6
	xor	a4, t0, t2
	xor	a3, a3, s0
	xor	s0, s0, s1
	xor	a2, a2, a1
	xor	a1, a1, a4
	xor	a4, t1, s10
	xor	a0, a0, a3
	xor	a2, a2, s0
	xor	a1, a1, a3
	xor	a4, a4, a5
	and	a3, a1, a0
	xor	s1, a1, a2
	xor	a4, a4, s0
	and	t1, a2, a0
	xor	t2, a3, a2
	and	a1, a1, a4
	xor	a0, a0, a4
	xor	s0, a3, a4
	and	s10, a1, s1
	and	s0, s0, s1
	xor	s1, s1, a3
	and	a1, t2, a0
	and	t1, t1, a0
	xor	a0, a0, a3
	xor	a2, a2, s0
	xor	s1, s1, s10
	xor	a4, a4, a1
	ld	a1, 128(sp)                     # 8-byte Folded Reload
	ld	a1, -64(a1)
	ld	a3, 128(sp)                     # 8-byte Folded Reload
	ld	t2, -56(a3)
	ld	a3, 128(sp)                     # 8-byte Folded Reload
	ld	a3, -48(a3)
	sd	a3, 104(sp)                     # 8-byte Folded Spill
	ld	a3, 128(sp)                     # 8-byte Folded Reload
	ld	s10, -40(a3)
	xor	a0, a0, t1
	and	t1, a2, a6
	xor	a6, s1, a2
	and	a7, a2, a7
	xor	a2, a2, a4
	and	t4, s1, t4
	and	s0, a4, s9
	and	s9, a4, s2
	and	s2, s1, s11
	xor	s1, s1, a0
	and	s7, a0, s7
	xor	a4, a4, a0
	and	a0, a0, t5
	and	t5, a6, ra
	and	s11, a2, a5
	and	t0, a2, t0
	and	a5, a6, s8
	and	a6, s1, s4
	and	s4, a4, s5
	and	s3, a4, s3
	xor	a2, a2, s1
	and	s1, s1, t3
	ld	a4, 128(sp)                     # 8-byte Folded Reload
	ld	a4, -32(a4)
	ld	a3, 128(sp)                     # 8-byte Folded Reload
	ld	t3, -24(a3)
	ld	a3, 128(sp)                     # 8-byte Folded Reload
	ld	s5, -16(a3)
	ld	a3, 128(sp)                     # 8-byte Folded Reload
	ld	s8, -8(a3)
	xor	ra, a0, s2
	xor	a0, s7, s0
	xor	s7, a1, s9
	xor	a4, a4, s0
	xor	s8, a7, s8
	xor	a1, a5, t1
	xor	t1, t0, t4
	xor	a7, s4, a7
	and	s6, a2, s6
	and	a2, a2, t6
	xor	s0, ra, t0
	xor	t0, a0, s9
	xor	s3, s3, s1
	xor	t6, s7, s11
	xor	t2, a5, t2
	xor	a3, s1, s10
	xor	s7, a4, s4
	xor	s9, a0, a6
	xor	s4, s8, a5
	xor	s1, t1, t5
	xor	a5, s6, s2
	xor	a4, a2, a6
	xor	t6, t6, s3
	xor	a6, t2, a2
	xor	a3, a3, a7
	xor	s2, a1, t3
	xor	a0, s0, t5
	xor	t2, a1, s5
	xor	s0, s0, t4
	xor	t1, s9, s3
	xor	a5, a5, s1
	xor	a1, a4, s1
	ld	a2, 104(sp)                     # 8-byte Folded Reload
	xor	t3, s1, a2
	xor	s1, a4, ra
	xor	t5, a3, t0
	xor	t4, s2, a0
	xor	a4, t0, a4
	xor	s0, t2, s0
	sd	t6, 88(sp)                      # 8-byte Folded Spill
	srli	t0, t6, 24
	slli	a2, t6, 40
	srli	a0, t6, 8
	slli	a3, t6, 56
	xor	a6, a6, a5
	xor	s1, t3, s1
	xor	a5, t5, a5
	xor	t2, s7, a1
	xor	s3, t4, a4
	xor	a4, s0, t1
	sd	a4, 104(sp)                     # 8-byte Folded Spill
	xor	t6, s4, a1
	or	s0, a2, t0
	or	a0, a0, a3
	xor	a4, s1, a7
	ld	a1, 112(sp)                     # 8-byte Folded Reload
	and	a7, s0, a1
	ld	a2, 120(sp)                     # 8-byte Folded Reload
	and	t0, a0, a2
	srli	t3, a6, 24
	slli	t5, a6, 40
	srli	t1, a6, 8
	slli	t4, a6, 56
	srli	s5, a5, 24
	slli	s8, a5, 40
	srli	s2, a5, 8
	slli	s4, a5, 56
	srli	s6, t2, 24
	slli	s10, t2, 40
	srli	s7, t2, 8
	slli	s9, t2, 56
	srli	s11, s3, 24
	slli	s1, s3, 40
	srli	ra, s3, 8
	slli	s0, s3, 56
	ld	a2, 104(sp)                     # 8-byte Folded Reload
	srli	a3, a2, 24
	or	a7, a7, t0
	slli	a0, a2, 40
	or	t0, t5, t3
	srli	t3, a2, 8
	or	t1, t4, t1
	slli	t4, a2, 56
	or	t5, s8, s5
	srli	s5, t6, 24
	or	s2, s4, s2
	slli	s4, t6, 40
	or	s6, s10, s6
	srli	s8, t6, 8
	or	s7, s9, s7
	slli	s9, t6, 56
	or	s10, s1, s11
	srli	s1, a4, 24
	or	s11, s0, ra
	slli	s0, a4, 40
	or	ra, a0, a3
	srli	a3, a4, 8
	or	t3, t4, t3
	slli	a2, a4, 56
	or	t4, s4, s5
	or	s4, s9, s8
	mv	a0, a1
	and	t0, t0, a1
	ld	a1, 120(sp)                     # 8-byte Folded Reload
	and	t1, t1, a1
	or	s8, s0, s1
	or	s5, a2, a3
	and	t5, t5, a0
	and	s9, s2, a1
	and	s2, s6, a0
	and	s6, s7, a1
	and	s7, s10, a0
	and	s10, s11, a1
	and	s11, ra, a0
	and	a3, t3, a1
	and	s0, t4, a0
	and	s1, s4, a1
	ld	a2, 88(sp)                      # 8-byte Folded Reload
	xor	t3, a7, a2
	or	a7, t0, t1
	and	t0, s8, a0
	and	t1, s5, a1
	or	t4, t5, s9
	or	t5, s2, s6
	or	s2, s7, s10
	or	s5, s11, a3
	or	s4, s0, s1
	xor	s7, t3, a6
	or	s1, t0, t1
	xor	s6, a7, a6
	xor	a3, t4, a5
	xor	a0, t5, t2
	xor	s2, s2, s3
	ld	a1, 104(sp)                     # 8-byte Folded Reload
	xor	t5, s5, a1
	xor	s0, s4, t6
	xor	s1, s1, a4
	xor	s9, s0, a2
	xor	a7, s7, s0
	xor	a6, s6, a4
	xor	a5, a5, s0
	xor	a2, s0, t2
	xor	t0, a0, s3
	xor	t4, s2, a1
	xor	a1, t5, t6
	xor	t1, a5, s1
	xor	t2, a2, a3
	xor	a2, a1, t4
	xor	a4, t4, t3
	xor	s1, s1, s9
	xor	a5, a7, a3
	xor	a3, a6, a0
	xor	a0, s2, a1
	xor	s0, t0, s0
	xor	s2, a2, s6
	xor	t3, s1, a1
	xor	s7, a5, t4
	xor	s8, a3, a2
	xor	s10, t1, a0
	xor	s1, t5, t2
	srli	t5, a4, 32
	slli	s3, a4, 32
	srli	s4, s0, 32
	slli	s5, s0, 32
	xor	t6, s9, a4
	xor	s6, s0, a1
	or	t5, s3, t5
	srli	s3, s2, 32
	slli	s9, s2, 32
	srli	s11, t3, 32
	slli	s0, t3, 32
	srli	ra, s7, 32
	slli	a5, s7, 32
	srli	a3, s8, 32
	slli	a0, s8, 32
	srli	a2, s10, 32
	slli	a1, s10, 32
	or	s4, s5, s4
	srli	s5, s1, 32
	xor	a7, a7, s2
	slli	a4, s1, 32
	xor	a6, a6, t3
	xor	t1, t1, s7
	xor	t2, t2, s8
	xor	t0, t0, s10
	xor	t3, t4, s1
	or	s1, s9, s3
	or	s0, s0, s11
	or	a5, a5, ra
	or	a0, a0, a3
	or	t4, a1, a2
	or	a2, a4, s5
	xor	t6, t6, t5
	xor	a4, s4, s6
	xor	s1, a7, s1
	xor	s0, a6, s0
	xor	a5, t1, a5
	xor	a1, t2, a0
	xor	t1, t0, t4
	xor	a2, t3, a2
	xor	a3, s1, t6
	xor	t4, a2, a4
	xor	a0, t1, s0
	xor	t5, a1, a2
	xor	a6, t1, a5
	xor	a7, s1, a2
	xor	s7, a1, a4
	xor	a1, a1, a5
	xor	s1, s1, s0
	xor	s0, a5, t6
	xor	s3, a3, t4
	xor	s8, a6, a7
	xor	s9, a0, a4
	xor	t3, s7, a2
	xor	ra, a1, a3
	xor	s5, t5, a0
	xor	s6, a1, s1
	xor	s11, a1, t6
	xor	s2, t5, a3
	xor	a6, a7, s0
	xor	s4, s0, t4
	xor	t6, t3, a5
	and	a0, s5, s3
	and	t2, t3, s7
	and	s10, ra, s8
	or	a4, ra, s8
	and	a2, s11, t5
	and	a3, s2, s9
	xor	a7, s2, t1
	and	a5, s4, t4
	xor	a2, a2, a4
	xor	a4, s6, s4
	xor	t0, s4, s1
	xor	a3, a3, s0
	and	s0, t6, s6
	and	a4, a4, a1
	xor	t1, s10, t1
	and	s10, a7, a6
	xor	s1, t0, t2
	xor	s0, s0, a4
	xor	a4, a4, a5
	xor	a3, a3, a0
	xor	a0, a0, s1
	xor	a5, t1, s10
	xor	a2, a2, s0
	xor	a3, a3, a4
	xor	s0, s0, a0
	xor	a5, a5, a1
	and	a0, s0, a2
	xor	s1, s0, a3
	xor	a4, a4, a5
	and	t1, a3, a2
	xor	t2, a0, a3
	and	s0, s0, a4
	xor	a2, a2, a4
	xor	a5, a0, a4
	and	s10, s0, s1
	and	a5, a5, s1
	xor	s1, s1, a0
	and	s0, t2, a2
	and	t1, t1, a2
	xor	a2, a2, a0
	xor	a3, a3, a5
	xor	s1, s1, s10
	xor	a4, a4, s0
	ld	a0, 128(sp)                     # 8-byte Folded Reload
	ld	a5, -128(a0)
	ld	a0, 128(sp)                     # 8-byte Folded Reload
	ld	t2, -120(a0)
	ld	a0, 128(sp)                     # 8-byte Folded Reload
	ld	a0, -112(a0)
	sd	a0, 88(sp)                      # 8-byte Folded Spill
	ld	a0, 128(sp)                     # 8-byte Folded Reload
	ld	s10, -104(a0)
	xor	a2, a2, t1
	and	a6, a3, a6
	xor	s0, s1, a3
	and	t1, a3, a7
	xor	a3, a3, a4
	and	a7, s1, t5
	and	s9, a4, s9
	and	s2, a4, s2
	and	t5, s1, s11
	xor	s1, s1, a2
	and	s7, a2, s7
	xor	a4, a4, a2
	and	a2, a2, t3
	and	t3, s0, ra
	and	s11, a3, a1
	and	a1, a3, t0
	and	s0, s0, s8
	and	t0, s1, s4
	and	s4, a4, s5
	and	s3, a4, s3
	xor	a3, a3, s1
	and	s1, s1, t4
	ld	a4, 128(sp)                     # 8-byte Folded Reload
	ld	a4, -96(a4)
	ld	a0, 128(sp)                     # 8-byte Folded Reload
	ld	t4, -88(a0)
	ld	a0, 128(sp)                     # 8-byte Folded Reload
	ld	s5, -80(a0)
	ld	a0, 128(sp)                     # 8-byte Folded Reload
	ld	s8, -72(a0)
	xor	ra, a2, t5
	xor	a2, s7, s9
	xor	s7, a5, s2
	xor	s9, s9, a4
	xor	s8, t1, s8
	xor	a4, s0, a6
	xor	a5, a1, a7
	xor	a6, s4, t1
	and	t1, a3, s6
	and	a3, a3, t6
	xor	s6, ra, a1
	xor	s2, a2, s2
	xor	a1, s3, s1
	xor	t6, s7, s11
	xor	t2, s0, t2
	xor	a0, s1, s10
	xor	s4, s9, s4
	xor	s7, a2, t0
	xor	s3, s8, s0
	xor	a5, a5, t3
	xor	s0, t1, t5
	xor	s1, a3, t0
	xor	t5, t6, a1
	xor	t0, t2, a3
	xor	t1, a0, a6
	xor	t4, a4, t4
	xor	a2, s6, t3
	xor	a4, a4, s5
	xor	a0, s6, a7
	xor	a7, s7, a1
	xor	s0, s0, a5
	xor	a1, s1, a5
	ld	a3, 88(sp)                      # 8-byte Folded Reload
	xor	t2, a5, a3
	xor	a5, s1, ra
	xor	t1, t1, s2
	xor	t3, t4, a2
	xor	s1, s2, s1
	xor	t4, a4, a0
	sd	t5, 104(sp)                     # 8-byte Folded Spill
	srli	a4, t5, 20
	slli	a3, t5, 44
	srli	a2, t5, 4
	slli	a0, t5, 60
	xor	t0, t0, s0
	xor	a5, t2, a5
	xor	s0, t1, s0
	xor	t1, s4, a1
	xor	s5, t3, s1
	xor	t6, t4, a7
	xor	s1, s3, a1
	or	a3, a3, a4
	or	a4, a0, a2
	xor	a7, a5, a6
	ld	a1, 48(sp)                      # 8-byte Folded Reload
	and	a2, a3, a1
	ld	a0, 56(sp)                      # 8-byte Folded Reload
	and	t2, a4, a0
	srli	t3, t0, 20
	slli	s2, t0, 44
	srli	t4, t0, 4
	slli	t5, t0, 60
	srli	s6, s0, 20
	slli	s8, s0, 44
	srli	s3, s0, 4
	slli	s4, s0, 60
	srli	s9, t1, 20
	slli	s7, t1, 44
	srli	a3, t1, 4
	sd	a3, 72(sp)                      # 8-byte Folded Spill
	slli	s10, t1, 60
	srli	s11, s5, 20
	slli	a3, s5, 44
	srli	ra, s5, 4
	slli	a4, s5, 60
	srli	a6, t6, 20
	or	a2, a2, t2
	sd	a2, 88(sp)                      # 8-byte Folded Spill
	slli	a5, t6, 44
	or	t2, s2, t3
	srli	t3, t6, 4
	or	t4, t5, t4
	slli	t5, t6, 60
	or	s2, s8, s6
	sd	s1, 80(sp)                      # 8-byte Folded Spill
	srli	s6, s1, 20
	or	s3, s4, s3
	slli	s4, s1, 44
	or	s8, s7, s9
	srli	s9, s1, 4
	ld	a2, 72(sp)                      # 8-byte Folded Reload
	or	s7, s10, a2
	slli	s10, s1, 60
	or	s11, a3, s11
	srli	a3, a7, 20
	or	ra, a4, ra
	slli	a4, a7, 44
	or	a6, a5, a6
	srli	a5, a7, 4
	or	t3, t5, t3
	slli	a2, a7, 60
	or	t5, s4, s6
	or	s4, s10, s9
	and	t2, t2, a1
	and	t4, t4, a0
	or	s9, a4, a3
	or	s6, a2, a5
	and	s2, s2, a1
	and	s10, s3, a0
	and	s3, s8, a1
	and	s7, s7, a0
	and	s8, s11, a1
	and	s11, ra, a0
	and	ra, a6, a1
	and	a5, t3, a0
	and	a3, t5, a1
	and	a4, s4, a0
	ld	a2, 104(sp)                     # 8-byte Folded Reload
	ld	s1, 88(sp)                      # 8-byte Folded Reload
	xor	t3, s1, a2
	or	a6, t2, t4
	and	t2, s9, a1
	and	t4, s6, a0
	or	t5, s2, s10
	or	s2, s3, s7
	or	s4, s8, s11
	or	s6, ra, a5
	or	s3, a3, a4
	xor	s8, t3, t0
	or	a5, t2, t4
	xor	t2, a6, t0
	xor	a0, t5, s0
	xor	a3, s2, t1
	xor	a6, s4, s5
	xor	t4, s6, t6
	ld	s1, 80(sp)                      # 8-byte Folded Reload
	xor	a4, s3, s1
	xor	a5, a5, a7
	xor	s7, a4, a2
	xor	s3, s8, a4
	xor	s2, t2, a7
	xor	s0, s0, a4
	xor	a2, a4, t1
	xor	a1, a3, s5
	sd	a1, 104(sp)                     # 8-byte Folded Spill
	xor	t1, a6, t6
	xor	s6, t4, s1
	xor	a7, s0, a5
	xor	t0, a2, a0
	xor	a2, s6, t1
	xor	s1, t1, t3
	xor	a5, a5, s7
	xor	a0, s3, a0
	xor	s0, s2, a3
	xor	a3, a6, s6
	xor	a4, a4, a1
	xor	s4, a2, t2
	xor	a6, a5, s6
	xor	a0, a0, t1
	xor	s0, s0, a2
	xor	a3, a7, a3
	xor	s10, t4, t0
	srli	s8, s1, 40
	slli	s9, s1, 24
	srli	s11, s1, 24
	slli	ra, s1, 40
	srli	t2, a4, 40
	slli	t3, a4, 24
	srli	t4, a4, 24
	slli	t5, a4, 40
	xor	a1, s7, s1
	sd	a1, 88(sp)                      # 8-byte Folded Spill
	xor	a1, a4, s6
	sd	a1, 80(sp)                      # 8-byte Folded Spill
	or	s6, s9, s8
	or	s7, ra, s11
	srli	s9, s4, 40
	slli	a1, s4, 24
	srli	s1, s4, 24
	slli	a2, s4, 40
	srli	s8, a6, 40
	slli	a4, a6, 24
	srli	s11, a6, 24
	or	ra, t3, t2
	slli	a5, a6, 40
	or	t4, t5, t4
	srli	t5, a0, 40
	xor	s5, s3, s4
	slli	s3, a0, 24
	xor	s2, s2, a6
	srli	t6, a0, 24
	xor	t3, a7, a0
	slli	a0, a0, 40
	or	a7, a1, s9
	srli	a1, s0, 40
	or	s4, a2, s1
	slli	s1, s0, 24
	or	s8, a4, s8
	srli	a2, s0, 24
	xor	t2, t0, s0
	slli	s0, s0, 40
	or	s9, a5, s11
	srli	a4, a3, 40
	or	t5, s3, t5
	slli	a5, a3, 24
	or	t6, a0, t6
	srli	a6, a3, 24
	ld	a0, 104(sp)                     # 8-byte Folded Reload
	xor	s3, a0, a3
	slli	a3, a3, 40
	or	s11, s1, a1
	srli	s1, s10, 40
	or	t0, s0, a2
	slli	s0, s10, 24
	or	a2, a5, a4
	srli	a5, s10, 24
	xor	t1, t1, s10
	slli	s10, s10, 40
	ld	a4, 112(sp)                     # 8-byte Folded Reload
	and	s6, s6, a4
	ld	a0, 120(sp)                     # 8-byte Folded Reload
	and	a1, s7, a0
	or	s7, a3, a6
	or	s0, s0, s1
	or	s10, s10, a5
	and	ra, ra, a4
	and	s1, t4, a0
	or	t4, s6, a1
	and	a7, a7, a4
	and	s4, s4, a0
	and	s6, s8, a4
	and	s8, s9, a0
	and	t5, t5, a4
	and	t6, t6, a0
	and	s9, s11, a4
	and	s11, t0, a0
	and	a6, a2, a4
	and	a1, s7, a0
	and	s0, s0, a4
	and	a5, s10, a0
	or	s1, ra, s1
	or	a0, a7, s4
	or	a3, s6, s8
	or	a2, t5, t6
	or	a7, s9, s11
	or	t6, a6, a1
	or	t5, s0, a5
	ld	a1, 88(sp)                      # 8-byte Folded Reload
	xor	s4, a1, t4
	ld	a4, 80(sp)                      # 8-byte Folded Reload
	xor	a4, a4, s1
	xor	a0, s5, a0
	xor	a1, s2, a3
	xor	a2, t3, a2
	xor	a5, t2, a7
	xor	t4, s3, t6
	xor	s1, t1, t5
	xor	a3, a0, s4
	xor	s3, s1, a4
	xor	a6, t4, a1
	xor	t2, a5, s1
	xor	t0, t4, a2
	xor	t5, a0, s1
	xor	s5, a5, a4
	xor	a5, a5, a2
	xor	a1, a1, a0
	xor	s0, a2, s4
	xor	a7, a3, s3
	xor	t1, t0, t5
	xor	s6, a6, a4
	xor	s2, s5, s1
	xor	t3, a5, a3
	xor	t0, t2, a6
	xor	t6, a5, a1
	xor	s7, a5, s4
	xor	s4, t2, a3
	xor	s8, t5, s0
	xor	s10, s0, s3
	xor	a6, s2, a2
	and	a2, t0, a7
	and	t5, s2, s5
	and	ra, t3, t1
	or	a0, t3, t1
	and	s1, s7, t2
	and	a3, s4, s6
	xor	s11, s4, t4
	and	a4, s10, s3
	xor	a0, a0, s1
	xor	s1, t6, s10
	xor	s9, s10, a1
	xor	a3, a3, s0
	and	a1, a6, t6
	and	s1, s1, a5
	xor	t4, ra, t4
	and	ra, s11, s8
	xor	s0, s9, t5
	xor	a1, a1, s1
	xor	a4, a4, s1
	xor	a3, a3, a2
	xor	a2, a2, s0
	xor	s1, t4, ra
	xor	a0, a0, a1
	xor	a3, a3, a4
	xor	a1, a1, a2
	xor	s1, s1, a5
	and	a2, a1, a0
	xor	s0, a1, a3
	xor	a4, a4, s1
	and	t4, a3, a0
	xor	t5, a2, a3
	and	a1, a1, a4
	xor	a0, a0, a4
	xor	s1, a2, a4
	and	ra, a1, s0
	and	s1, s1, s0
	xor	s0, s0, a2
	and	t5, t5, a0
	and	a1, t4, a0
	xor	a0, a0, a2
	xor	a3, a3, s1
	xor	a2, s0, ra
	xor	a4, t5, a4
	xor	a0, a0, a1
	and	t4, a3, s8
	xor	s0, a2, a3
	and	t5, a3, s11
	xor	a3, a3, a4
	and	s8, a2, t2
	and	t2, a4, s6
	and	s1, a4, s4
	and	s6, a2, s7
	xor	a2, a2, a0
	and	s4, a0, s5
	xor	a4, a4, a0
	and	s2, a0, s2
	and	t3, s0, t3
	and	s7, s0, t1
	and	s5, a4, t0
	and	a7, a4, a7
	and	t0, a3, a5
	and	a4, a3, s9
	and	t1, a2, s10
	xor	a3, a3, a2
	and	a2, a2, s3
	and	a1, a3, t6
	and	a3, a3, a6
	xor	a5, s4, t2
	xor	a0, a4, t4
	xor	t4, a4, s8
	xor	a6, t0, s1
	xor	s1, s1, a5
	xor	a5, a5, s8
	xor	s0, s2, s6
	xor	t6, a1, s6
	xor	a4, s7, s0
	xor	a0, a0, a4
	xor	t0, s5, t2
	xor	a4, s5, t5
	xor	a1, a7, a2
	xor	s2, a4, s0
	xor	s3, a4, a2
	xor	t2, s7, t5
	xor	a7, a3, s7
	xor	a3, a3, t1
	xor	a5, a5, t1
	xor	a4, t4, t3
	xor	s0, s1, t3
	xor	a2, t6, a4
	xor	a4, a4, a3
	xor	a3, a3, s0
	xor	s1, s3, s1
	xor	s3, a6, a1
	xor	a1, a1, a5
	xor	s5, s2, a4
	xor	t6, t0, a4
	xor	t0, t2, a4
	xor	t2, a7, a2
	xor	t1, s1, a2
	xor	a7, a3, a0
	xor	a6, a1, a0
	ld	a1, 128(sp)                     # 8-byte Folded Reload
	ld	a0, 96(sp)                      # 8-byte Folded Reload
	addi	a0, a0, -1
	addi	a1, a1, -256
	beqz	a0, .Laes_narrow_BB22_6
	j	.Laes_narrow_BB22_5
.Laes_narrow_BB22_6:                               # %"aes_soft::soft::ciphers::planes::DecryptPlaneCipher::process_planes::<#04b8488f2d4d1c11>.exit"
	ld	s0, 32(sp)                      # 8-byte Folded Reload
	ld	a0, 0(s0)
	ld	a1, 8(s0)
	ld	a2, 16(s0)
	ld	a3, 24(s0)
	xor	t3, a0, s3
	xor	t4, a1, t2
	xor	t2, a2, s5
	xor	a3, a3, t1
	ld	a4, 32(s0)
	ld	a5, 40(s0)
	ld	s1, 48(s0)
	ld	s0, 56(s0)
	xor	t1, a4, t6
	xor	a5, a5, a7
	xor	a6, s1, a6
	xor	s0, s0, t0
	srli	a0, t3, 1
	srli	a2, t2, 1
	srli	a4, t1, 1
	srli	s1, a6, 1
	xor	a1, t4, a0
	xor	a2, a2, a3
	xor	a4, a4, a5
	xor	s1, s1, s0
	ld	a0, 8(sp)                       # 8-byte Folded Reload
	and	a1, a1, a0
	and	a2, a2, a0
	and	a4, a4, a0
	and	s1, s1, a0
	xor	t0, a1, t4
	slli	a0, a1, 1
	xor	t4, a2, a3
	slli	a2, a2, 1
	xor	t5, a4, a5
	slli	a4, a4, 1
	xor	s0, s0, s1
	slli	s1, s1, 1
	xor	a7, a0, t3
	xor	a0, a2, t2
	xor	t1, a4, t1
	xor	a4, s1, a6
	srli	a1, t0, 2
	srli	a5, t5, 2
	srli	s1, a7, 2
	srli	a2, t1, 2
	xor	a3, t4, a1
	xor	a5, a5, s0
	xor	s1, s1, a0
	xor	a2, a2, a4
	ld	a1, 16(sp)                      # 8-byte Folded Reload
	and	a3, a3, a1
	and	a5, a5, a1
	and	s1, s1, a1
	and	a2, a2, a1
	xor	a6, a3, t4
	slli	a1, a3, 2
	xor	a3, a5, s0
	slli	a5, a5, 2
	xor	t4, s1, a0
	slli	s1, s1, 2
	xor	s0, a2, a4
	slli	a2, a2, 2
	xor	t6, a1, t0
	xor	a0, a5, t5
	srli	a1, a6, 4
	xor	t0, s1, a7
	xor	t1, a2, t1
	srli	a2, t6, 4
	srli	a5, t4, 4
	xor	a1, a1, a3
	srli	s1, t0, 4
	xor	a2, a2, a0
	xor	a5, a5, s0
	ld	a4, 24(sp)                      # 8-byte Folded Reload
	and	a1, a1, a4
	xor	s1, t1, s1
	and	a2, a2, a4
	and	a5, a5, a4
	xor	t5, a1, a3
	slli	a1, a1, 4
	and	t3, s1, a4
	slli	a3, a2, 4
	xor	s1, a2, a0
	slli	a0, a5, 4
	xor	s3, a5, s0
	xor	s2, a1, a6
	srli	a6, t5, 40
	srli	t2, t5, 24
	xor	s0, a3, t6
	srli	a7, t5, 32
	xor	t4, a0, t4
	srli	a0, t5, 16
	ld	a5, 0(sp)                       # 8-byte Folded Reload
	sb	a0, 53(a5)
	srli	a0, t5, 8
	xor	a2, t3, t1
	slli	t3, t3, 4
	sb	a0, 60(a5)
	srli	a1, s1, 24
	sb	t2, 61(a5)
	srli	a3, s1, 32
	xor	a0, t3, t0
	srli	a4, s1, 16
	sb	a4, 21(a5)
	srli	a4, s1, 8
	sb	a4, 28(a5)
	srli	a4, s1, 40
	sb	a1, 29(a5)
	srli	a1, s1, 48
	sb	a3, 22(a5)
	sb	a1, 23(a5)
	sb	s1, 20(a5)
	srli	s1, s1, 56
	sb	a4, 30(a5)
	srli	a1, s3, 32
	sb	s1, 31(a5)
	srli	a3, s3, 16
	sb	a3, 37(a5)
	srli	a3, s3, 48
	sb	a1, 38(a5)
	srli	a1, s3, 24
	sb	s3, 36(a5)
	sb	a3, 39(a5)
	srli	a3, s3, 8
	sb	a3, 44(a5)
	srli	a3, s3, 56
	srli	a4, s3, 40
	sb	a1, 45(a5)
	srli	a1, s2, 24
	sb	a4, 46(a5)
	srli	a4, s2, 32
	sb	a3, 47(a5)
	srli	a3, s2, 16
	sb	a3, 49(a5)
	srli	a3, s2, 8
	sb	a3, 56(a5)
	srli	a3, s2, 40
	sb	a1, 57(a5)
	srli	a1, s2, 48
	sb	a4, 50(a5)
	sb	a1, 51(a5)
	sb	s2, 48(a5)
	srli	a1, s2, 56
	sb	a3, 58(a5)
	srli	a3, a2, 32
	sb	a1, 59(a5)
	srli	a1, a2, 16
	sb	a1, 5(a5)
	srli	a1, a2, 48
	sb	a3, 6(a5)
	srli	a3, a2, 24
	sb	a2, 4(a5)
	sb	a1, 7(a5)
	srli	a1, a2, 8
	sb	a1, 12(a5)
	srli	a1, a2, 56
	srli	a2, a2, 40
	sb	a3, 13(a5)
	srli	a3, s0, 24
	sb	a2, 14(a5)
	srli	a2, s0, 32
	sb	a1, 15(a5)
	srli	a1, s0, 16
	sb	a1, 17(a5)
	srli	a1, s0, 8
	sb	a1, 24(a5)
	srli	a1, s0, 40
	sb	a3, 25(a5)
	srli	a3, s0, 48
	sb	a2, 18(a5)
	sb	a3, 19(a5)
	sb	s0, 16(a5)
	srli	s0, s0, 56
	sb	a1, 26(a5)
	srli	a1, t4, 32
	sb	s0, 27(a5)
	srli	a2, t4, 16
	sb	a2, 33(a5)
	srli	a2, t4, 48
	sb	a1, 34(a5)
	srli	a1, t4, 24
	sb	t4, 32(a5)
	sb	a2, 35(a5)
	srli	a2, t4, 8
	sb	a2, 40(a5)
	srli	a2, t4, 56
	srli	a3, t4, 40
	sb	a1, 41(a5)
	srli	a1, a0, 24
	sb	a3, 42(a5)
	srli	a3, a0, 32
	sb	a2, 43(a5)
	srli	a2, a0, 16
	sb	a2, 1(a5)
	srli	a2, a0, 8
	sb	a2, 8(a5)
	srli	a2, a0, 40
	sb	a1, 9(a5)
	srli	a1, a0, 48
	sb	a3, 2(a5)
	sb	a1, 3(a5)
	sb	a0, 0(a5)
	srli	a0, a0, 56
	sb	a2, 10(a5)
	sb	a0, 11(a5)
	srli	a0, t5, 48
	sb	a7, 54(a5)
	sb	a0, 55(a5)
	sb	t5, 52(a5)
	srli	a0, t5, 56
	sb	a6, 62(a5)
	sb	a0, 63(a5)
	ld	ra, 232(sp)                     # 8-byte Folded Reload
	ld	s0, 224(sp)                     # 8-byte Folded Reload
	ld	s1, 216(sp)                     # 8-byte Folded Reload
	ld	s2, 208(sp)                     # 8-byte Folded Reload
	ld	s3, 200(sp)                     # 8-byte Folded Reload
	ld	s4, 192(sp)                     # 8-byte Folded Reload
	ld	s5, 184(sp)                     # 8-byte Folded Reload
	ld	s6, 176(sp)                     # 8-byte Folded Reload
	ld	s7, 168(sp)                     # 8-byte Folded Reload
	ld	s8, 160(sp)                     # 8-byte Folded Reload
	ld	s9, 152(sp)                     # 8-byte Folded Reload
	ld	s10, 144(sp)                    # 8-byte Folded Reload
	ld	s11, 136(sp)                    # 8-byte Folded Reload
	addi	sp, sp, 240
	ret
.Laes_narrow_func_end22:
	.size	aes_narrow.aes_soft.soft.ciphers.planes.process_outlined.2, .Laes_narrow_func_end22-aes_narrow.aes_soft.soft.ciphers.planes.process_outlined.2
                                        # -- End function
	.section	.text.aes_narrow.aes_narrow.blocks.process_all_batches.2,"ax",@progbits
	.p2align	1                               # -- Begin function aes_narrow::blocks::process_all_batches::<#e30bc42c140a48e9>
	.type	aes_narrow.aes_narrow.blocks.process_all_batches.2,@function
aes_narrow.aes_narrow.blocks.process_all_batches.2: # @aes_narrow.aes_narrow.blocks.process_all_batches.2
# %bb.0:                                # %start
	beqz	a3, .Laes_narrow_BB23_6
# %bb.1:                                # %join.5.preheader
	addi	sp, sp, -48
	sd	ra, 40(sp)                      # 8-byte Folded Spill
	sd	s0, 32(sp)                      # 8-byte Folded Spill
	sd	s1, 24(sp)                      # 8-byte Folded Spill
	sd	s2, 16(sp)                      # 8-byte Folded Spill
	sd	s3, 8(sp)                       # 8-byte Folded Spill
	sd	s4, 0(sp)                       # 8-byte Folded Spill
	mv	s0, a3
	mv	s2, a2
	mv	s3, a1
	mv	s4, a0
	li	a0, 0
	j	.Laes_narrow_BB23_3
.Laes_narrow_BB23_2:                               # %join.5
                                        #   in Loop: Header=BB23_3 Depth=1
	add	s1, a3, a0
	slli	a0, a0, 4
	add	a2, s2, a0
	mv	a0, s4
	mv	a1, s3
	call	aes_narrow.aes_soft.soft.blocks.filled_up.process_filled_up.2
	mv	a0, s1
	bgeu	s1, s0, .Laes_narrow_BB23_5
.Laes_narrow_BB23_3:                               # %join.5
                                        # =>This Inner Loop Header: Depth=1
	sub	a3, s0, a0
	li	a1, 4
	bltu	a3, a1, .Laes_narrow_BB23_2
# %bb.4:                                # %join.5
                                        #   in Loop: Header=BB23_3 Depth=1
	li	a3, 4
	j	.Laes_narrow_BB23_2
.Laes_narrow_BB23_5:
	ld	ra, 40(sp)                      # 8-byte Folded Reload
	ld	s0, 32(sp)                      # 8-byte Folded Reload
	ld	s1, 24(sp)                      # 8-byte Folded Reload
	ld	s2, 16(sp)                      # 8-byte Folded Reload
	ld	s3, 8(sp)                       # 8-byte Folded Reload
	ld	s4, 0(sp)                       # 8-byte Folded Reload
	addi	sp, sp, 48
.Laes_narrow_BB23_6:                               # %after.1
	ret
.Laes_narrow_func_end23:
	.size	aes_narrow.aes_narrow.blocks.process_all_batches.2, .Laes_narrow_func_end23-aes_narrow.aes_narrow.blocks.process_all_batches.2
                                        # -- End function
	.section	.rodata.cst8,"aM",@progbits,8
	.p2align	3, 0x0                          # -- Begin function key_wrap::wrapping::unwrap::<#10cbf20c84ff2163>
.Laes_narrow_CPI24_0:
	.quad	-6438275382588823898            # 0xa6a6a6a6a6a6a6a6
	.section	.text.aes_narrow.key_wrap.wrapping.unwrap,"ax",@progbits
	.p2align	1
	.type	aes_narrow.key_wrap.wrapping.unwrap,@function
aes_narrow.key_wrap.wrapping.unwrap: # @aes_narrow.key_wrap.wrapping.unwrap
# %bb.0:                                # %start
	addi	sp, sp, -64
	sd	ra, 56(sp)                      # 8-byte Folded Spill
	sd	s0, 48(sp)                      # 8-byte Folded Spill
	sd	s1, 40(sp)                      # 8-byte Folded Spill
	sd	s2, 32(sp)                      # 8-byte Folded Spill
	sd	s3, 24(sp)                      # 8-byte Folded Spill
	sd	s4, 16(sp)                      # 8-byte Folded Spill
	mv	s4, a4
	mv	s3, a3
	addi	a5, a4, -2
	li	a3, 1
	slli	a4, a3, 54
	addi	a4, a4, -3
	li	s0, 0
	bltu	a4, a5, .Laes_narrow_BB24_9
# %bb.1:                                # %start
	addi	a4, s4, 1
	bne	a2, a4, .Laes_narrow_BB24_9
# %bb.2:                                # %after.1
	addi	a3, a1, 8
	addi	a4, a2, -1
	slli	a2, a4, 3
	sub	a5, s3, a3
	bgeu	a5, a2, .Laes_narrow_BB24_5
# %bb.3:                                # %loop.4.preheader.i.i.i.i.i.i.i.i
	mv	a2, s3
	beqz	a4, .Laes_narrow_BB24_6
.Laes_narrow_BB24_4:                               # %join.7.i.i.i.i.i.i.i.i
                                        # =>This Inner Loop Header: Depth=1
	lbu	a6, 0(a3)
	lbu	a7, 1(a3)
	lbu	t1, 2(a3)
	lbu	t0, 3(a3)
	lbu	s0, 4(a3)
	lbu	t2, 5(a3)
	lbu	s1, 6(a3)
	lbu	a5, 7(a3)
	addi	a4, a4, -1
	addi	a3, a3, 8
	sb	s0, 4(a2)
	sb	t2, 5(a2)
	sb	s1, 6(a2)
	sb	a5, 7(a2)
	sb	a6, 0(a2)
	sb	a7, 1(a2)
	sb	t1, 2(a2)
	sb	t0, 3(a2)
	addi	a2, a2, 8
	bnez	a4, .Laes_narrow_BB24_4
	j	.Laes_narrow_BB24_6
.Laes_narrow_BB24_5:                               # %apart.2.i.i.i.i.i.i.i.i
	mv	s2, a0
	mv	a0, s3
	mv	s0, a1
	mv	a1, a3
	la	t1, memmove
	jalr	t1
	mv	a1, s0
	mv	a0, s2
.Laes_narrow_BB24_6:                               # %"key_wrap::wrapping::unwrap_all::<#10cbf20c84ff2163>.exit"
	lbu	a2, 1(a1)
	lbu	a3, 2(a1)
	lbu	a4, 3(a1)
	lbu	a5, 0(a1)
	slli	a2, a2, 8
	slli	a3, a3, 16
	slli	a4, a4, 24
	or	a2, a2, a5
	or	a3, a3, a4
	lbu	a4, 5(a1)
	lbu	a5, 4(a1)
	lbu	s1, 6(a1)
	lbu	a1, 7(a1)
	slli	a4, a4, 8
	or	a4, a4, a5
	slli	s1, s1, 16
	slli	a1, a1, 24
	or	a1, a1, s1
	or	a2, a2, a3
	or	a1, a1, a4
	slli	a1, a1, 32
	or	a1, a1, a2
	sd	a1, 0(sp)
	mv	a1, sp
	mv	a2, s3
	mv	a3, s4
	call	aes_narrow.key_wrap.steps.unwrap_in_place
	ld	a0, 0(sp)
.Laes_narrow_pcrel_hi15:
	auipc	a1, %pcrel_hi(.Laes_narrow_CPI24_0)
	ld	a1, %pcrel_lo(.Laes_narrow_pcrel_hi15)(a1)
	sd	a0, 0(sp)
	sd	a1, 8(sp)
.Laes_narrow_pcrel_hi16:
	auipc	a1, %pcrel_hi(.Laes_narrow_static.2)
	addi	a1, a1, %pcrel_lo(.Laes_narrow_pcrel_hi16)
	mv	a0, sp
	call	aes_narrow.aes_cipher.blocks.difference
	slli	a0, a0, 32
	srli	a0, a0, 32
	beqz	a0, .Laes_narrow_BB24_8
# %bb.7:                                # %loop.5.preheader.i
	slli	s4, s4, 3
	addi	a2, s4, -8
	mv	a0, s3
	li	a1, 0
	la	t1, memset
	jalr	t1
	add	s3, s3, s4
	li	s0, 1
	sb	zero, -4(s3)
	sb	zero, -3(s3)
	sb	zero, -2(s3)
	sb	zero, -1(s3)
	sb	zero, -8(s3)
	sb	zero, -7(s3)
	sb	zero, -6(s3)
	sb	zero, -5(s3)
	li	a3, 1
	j	.Laes_narrow_BB24_9
.Laes_narrow_BB24_8:
	li	s0, 0
	li	a3, 0
.Laes_narrow_BB24_9:                               # %return.10
	mv	a0, a3
	mv	a1, s0
	ld	ra, 56(sp)                      # 8-byte Folded Reload
	ld	s0, 48(sp)                      # 8-byte Folded Reload
	ld	s1, 40(sp)                      # 8-byte Folded Reload
	ld	s2, 32(sp)                      # 8-byte Folded Reload
	ld	s3, 24(sp)                      # 8-byte Folded Reload
	ld	s4, 16(sp)                      # 8-byte Folded Reload
	addi	sp, sp, 64
	ret
.Laes_narrow_func_end24:
	.size	aes_narrow.key_wrap.wrapping.unwrap, .Laes_narrow_func_end24-aes_narrow.key_wrap.wrapping.unwrap
                                        # -- End function
	.section	.text.aes_narrow.key_wrap.steps.unwrap_in_place,"ax",@progbits
	.p2align	1                               # -- Begin function key_wrap::steps::unwrap_in_place::<#10cbf20c84ff2163>
	.type	aes_narrow.key_wrap.steps.unwrap_in_place,@function
aes_narrow.key_wrap.steps.unwrap_in_place: # @aes_narrow.key_wrap.steps.unwrap_in_place
# %bb.0:                                # %start
	beqz	a3, .Laes_narrow_BB25_14
# %bb.1:                                # %join.5.preheader
	addi	sp, sp, -112
	sd	ra, 104(sp)                     # 8-byte Folded Spill
	sd	s0, 96(sp)                      # 8-byte Folded Spill
	sd	s1, 88(sp)                      # 8-byte Folded Spill
	sd	s2, 80(sp)                      # 8-byte Folded Spill
	sd	s3, 72(sp)                      # 8-byte Folded Spill
	sd	s4, 64(sp)                      # 8-byte Folded Spill
	sd	s5, 56(sp)                      # 8-byte Folded Spill
	sd	s6, 48(sp)                      # 8-byte Folded Spill
	sd	s7, 40(sp)                      # 8-byte Folded Spill
	sd	s8, 32(sp)                      # 8-byte Folded Spill
	sd	s9, 24(sp)                      # 8-byte Folded Spill
	sd	s10, 16(sp)                     # 8-byte Folded Spill
	mv	s2, a3
	mv	s1, a1
	mv	s7, a0
	slli	s3, a3, 1
	slli	s5, a3, 2
	slli	s4, a3, 3
	add	s6, s5, s3
	add	s4, s4, a2
	addi	s0, s4, -8
	mv	s8, a3
.Laes_narrow_BB25_2:                               # %join.5.i
                                        # =>This Inner Loop Header: Depth=1
	lbu	a6, 0(s1)
	lbu	t0, 1(s1)
	lbu	t2, 2(s1)
	lbu	t3, 3(s1)
	lbu	a7, 4(s1)
	lbu	t4, 5(s1)
	lbu	t5, 6(s1)
	lbu	t6, 7(s1)
	srli	a2, s6, 40
	lui	t1, 16
	srli	a3, s6, 56
	srli	a4, s6, 24
	lui	s9, 4080
	srli	a0, s6, 8
	srliw	a1, s6, 24
	addi	a5, t1, -256
	and	a2, a2, a5
	or	t1, a2, a3
	slli	a3, s6, 56
	and	a4, a4, s9
	srliw	a0, a0, 24
	and	a2, s6, s9
	slli	a1, a1, 32
	slli	a0, a0, 24
	slli	a2, a2, 24
	and	a5, s6, a5
	or	a0, a0, a4
	or	s9, a2, a1
	slli	a5, a5, 40
	slli	t0, t0, 8
	slli	t2, t2, 16
	slli	t3, t3, 24
	slli	t4, t4, 8
	slli	t5, t5, 16
	slli	t6, t6, 24
	or	a0, a0, t1
	or	a3, a3, a5
	or	a2, t0, a6
	or	a4, t3, t2
	or	a5, t4, a7
	or	a1, t6, t5
	or	a3, a3, s9
	or	a2, a2, a4
	or	a1, a1, a5
	or	a0, a0, a3
	slli	a1, a1, 32
	or	a1, a1, a2
	xor	a1, a1, a0
	srli	a6, a1, 48
	srli	a7, a1, 56
	srli	a3, a1, 32
	srli	a4, a1, 40
	srli	a5, a1, 16
	srli	a0, a1, 24
	srli	a2, a1, 8
	sb	a3, 4(s1)
	sb	a4, 5(s1)
	sb	a6, 6(s1)
	sb	a7, 7(s1)
	sb	a1, 0(s1)
	sb	a2, 1(s1)
	sb	a5, 2(s1)
	sb	a0, 3(s1)
	lbu	t0, 0(s0)
	lbu	t3, 1(s0)
	lbu	a3, 2(s0)
	lbu	a4, 3(s0)
	lbu	a6, 4(s0)
	lbu	a7, 5(s0)
	lbu	t1, 6(s0)
	lbu	t2, 7(s0)
	lbu	t4, 0(s7)
	lbu	a0, 1(s7)
	lbu	a2, 2(s7)
	lbu	a5, 3(s7)
	slli	t3, t3, 8
	slli	a3, a3, 16
	slli	a4, a4, 24
	or	t0, t3, t0
	or	t3, a4, a3
	lbu	t5, 4(s7)
	lbu	t6, 5(s7)
	lbu	s9, 6(s7)
	lbu	a4, 7(s7)
	slli	a7, a7, 8
	slli	t1, t1, 16
	slli	t2, t2, 24
	slli	a0, a0, 8
	slli	a2, a2, 16
	slli	a5, a5, 24
	or	a6, a7, a6
	or	a7, t2, t1
	or	t1, a0, t4
	or	t2, a5, a2
	lbu	a5, 8(s7)
	lbu	a0, 9(s7)
	lbu	a2, 10(s7)
	lbu	a3, 11(s7)
	slli	t6, t6, 8
	slli	s9, s9, 16
	slli	a4, a4, 24
	slli	a0, a0, 8
	slli	a2, a2, 16
	slli	a3, a3, 24
	or	t4, t6, t5
	or	t6, a4, s9
	or	t5, a0, a5
	or	s9, a3, a2
	lbu	a3, 13(s7)
	lbu	a5, 12(s7)
	lbu	a0, 14(s7)
	lbu	a4, 15(s7)
	slli	a3, a3, 8
	or	s10, a3, a5
	slli	a0, a0, 16
	slli	a4, a4, 24
	or	a0, a0, a4
	or	a4, t3, t0
	or	a5, a7, a6
	or	a2, t2, t1
	or	a3, t6, t4
	or	a6, s9, t5
	or	a0, a0, s10
	slli	a5, a5, 32
	or	a4, a4, a5
	slli	a3, a3, 32
	slli	a5, a0, 32
	or	a0, a3, a2
	sd	a1, 0(sp)
	sd	a4, 8(sp)
	or	a1, a5, a6
	mv	a2, sp
	li	a3, 1
	call	aes_narrow.aes_narrow.blocks.process_all_batches.2
	call	aes_narrow.aes_cipher.zeroize.stack.wipe_stack.1024
	ld	a0, 0(sp)
	ld	a1, 8(sp)
	srli	a6, a0, 56
	srli	t0, a0, 48
	srli	t4, a0, 40
	srli	a5, a0, 32
	srli	a7, a0, 24
	srli	t3, a0, 16
	srli	a3, a0, 8
	srli	t1, a1, 48
	srli	t2, a1, 56
	srli	a2, a1, 32
	srli	a4, a1, 40
	sb	a5, 4(s1)
	sb	t4, 5(s1)
	sb	t0, 6(s1)
	sb	a6, 7(s1)
	srli	a5, a1, 16
	sb	a0, 0(s1)
	sb	a3, 1(s1)
	sb	t3, 2(s1)
	sb	a7, 3(s1)
	srli	a0, a1, 24
	sb	a2, 4(s0)
	sb	a4, 5(s0)
	sb	t1, 6(s0)
	sb	t2, 7(s0)
	srli	a2, a1, 8
	sb	a1, 0(s0)
	sb	a2, 1(s0)
	sb	a5, 2(s0)
	sb	a0, 3(s0)
	mv	a0, sp
	call	aes_narrow.aes_cipher.zeroize.elements.zeroize_elements.3
	addi	s8, s8, -1
	addi	s6, s6, -1
	addi	s0, s0, -8
	bnez	s8, .Laes_narrow_BB25_2
# %bb.3:                                # %"key_wrap::steps::unwrap_turn::<#10cbf20c84ff2163>.exit.loopexit"
	add	s6, s5, s2
	addi	s0, s4, -8
	mv	s8, s2
.Laes_narrow_BB25_4:                               # %join.5.i.1
                                        # =>This Inner Loop Header: Depth=1
	lbu	a6, 0(s1)
	lbu	t0, 1(s1)
	lbu	t2, 2(s1)
	lbu	t3, 3(s1)
	lbu	a7, 4(s1)
	lbu	t4, 5(s1)
	lbu	t5, 6(s1)
	lbu	t6, 7(s1)
	srli	a2, s6, 40
	lui	t1, 16
	srli	a3, s6, 56
	srli	a4, s6, 24
	lui	s9, 4080
	srli	a0, s6, 8
	srliw	a1, s6, 24
	addi	a5, t1, -256
	and	a2, a2, a5
	or	t1, a2, a3
	slli	a3, s6, 56
	and	a4, a4, s9
	srliw	a0, a0, 24
	and	a2, s6, s9
	slli	a1, a1, 32
	slli	a0, a0, 24
	slli	a2, a2, 24
	and	a5, s6, a5
	or	a0, a0, a4
	or	s9, a2, a1
	slli	a5, a5, 40
	slli	t0, t0, 8
	slli	t2, t2, 16
	slli	t3, t3, 24
	slli	t4, t4, 8
	slli	t5, t5, 16
	slli	t6, t6, 24
	or	a0, a0, t1
	or	a3, a3, a5
	or	a2, t0, a6
	or	a4, t3, t2
	or	a5, t4, a7
	or	a1, t6, t5
	or	a3, a3, s9
	or	a2, a2, a4
	or	a1, a1, a5
	or	a0, a0, a3
	slli	a1, a1, 32
	or	a1, a1, a2
	xor	a1, a1, a0
	srli	a6, a1, 48
	srli	a7, a1, 56
	srli	a3, a1, 32
	srli	a4, a1, 40
	srli	a5, a1, 16
	srli	a0, a1, 24
	srli	a2, a1, 8
	sb	a3, 4(s1)
	sb	a4, 5(s1)
	sb	a6, 6(s1)
	sb	a7, 7(s1)
	sb	a1, 0(s1)
	sb	a2, 1(s1)
	sb	a5, 2(s1)
	sb	a0, 3(s1)
	lbu	t0, 0(s0)
	lbu	t3, 1(s0)
	lbu	a3, 2(s0)
	lbu	a4, 3(s0)
	lbu	a6, 4(s0)
	lbu	a7, 5(s0)
	lbu	t1, 6(s0)
	lbu	t2, 7(s0)
	lbu	t4, 0(s7)
	lbu	a0, 1(s7)
	lbu	a2, 2(s7)
	lbu	a5, 3(s7)
	slli	t3, t3, 8
	slli	a3, a3, 16
	slli	a4, a4, 24
	or	t0, t3, t0
	or	t3, a4, a3
	lbu	t5, 4(s7)
	lbu	t6, 5(s7)
	lbu	s9, 6(s7)
	lbu	a4, 7(s7)
	slli	a7, a7, 8
	slli	t1, t1, 16
	slli	t2, t2, 24
	slli	a0, a0, 8
	slli	a2, a2, 16
	slli	a5, a5, 24
	or	a6, a7, a6
	or	a7, t2, t1
	or	t1, a0, t4
	or	t2, a5, a2
	lbu	a5, 8(s7)
	lbu	a0, 9(s7)
	lbu	a2, 10(s7)
	lbu	a3, 11(s7)
	slli	t6, t6, 8
	slli	s9, s9, 16
	slli	a4, a4, 24
	slli	a0, a0, 8
	slli	a2, a2, 16
	slli	a3, a3, 24
	or	t4, t6, t5
	or	t6, a4, s9
	or	t5, a0, a5
	or	s9, a3, a2
	lbu	a3, 13(s7)
	lbu	a5, 12(s7)
	lbu	a0, 14(s7)
	lbu	a4, 15(s7)
	slli	a3, a3, 8
	or	s10, a3, a5
	slli	a0, a0, 16
	slli	a4, a4, 24
	or	a0, a0, a4
	or	a4, t3, t0
	or	a5, a7, a6
	or	a2, t2, t1
	or	a3, t6, t4
	or	a6, s9, t5
	or	a0, a0, s10
	slli	a5, a5, 32
	or	a4, a4, a5
	slli	a3, a3, 32
	slli	a5, a0, 32
	or	a0, a3, a2
	sd	a1, 0(sp)
	sd	a4, 8(sp)
	or	a1, a5, a6
	mv	a2, sp
	li	a3, 1
	call	aes_narrow.aes_narrow.blocks.process_all_batches.2
	call	aes_narrow.aes_cipher.zeroize.stack.wipe_stack.1024
	ld	a0, 0(sp)
	ld	a1, 8(sp)
	srli	a6, a0, 56
	srli	t0, a0, 48
	srli	t4, a0, 40
	srli	a5, a0, 32
	srli	a7, a0, 24
	srli	t3, a0, 16
	srli	a3, a0, 8
	srli	t1, a1, 48
	srli	t2, a1, 56
	srli	a2, a1, 32
	srli	a4, a1, 40
	sb	a5, 4(s1)
	sb	t4, 5(s1)
	sb	t0, 6(s1)
	sb	a6, 7(s1)
	srli	a5, a1, 16
	sb	a0, 0(s1)
	sb	a3, 1(s1)
	sb	t3, 2(s1)
	sb	a7, 3(s1)
	srli	a0, a1, 24
	sb	a2, 4(s0)
	sb	a4, 5(s0)
	sb	t1, 6(s0)
	sb	t2, 7(s0)
	srli	a2, a1, 8
	sb	a1, 0(s0)
	sb	a2, 1(s0)
	sb	a5, 2(s0)
	sb	a0, 3(s0)
	mv	a0, sp
	call	aes_narrow.aes_cipher.zeroize.elements.zeroize_elements.3
	addi	s8, s8, -1
	addi	s6, s6, -1
	addi	s0, s0, -8
	bnez	s8, .Laes_narrow_BB25_4
# %bb.5:                                # %"key_wrap::steps::unwrap_turn::<#10cbf20c84ff2163>.exit.loopexit.1"
	addi	s0, s4, -8
	mv	s6, s2
.Laes_narrow_BB25_6:                               # %join.5.i.2
                                        # =>This Inner Loop Header: Depth=1
	lbu	a6, 0(s1)
	lbu	t0, 1(s1)
	lbu	t2, 2(s1)
	lbu	t3, 3(s1)
	lbu	a7, 4(s1)
	lbu	t4, 5(s1)
	lbu	t5, 6(s1)
	lbu	t6, 7(s1)
	srli	a2, s5, 40
	lui	t1, 16
	srli	a3, s5, 56
	srli	a4, s5, 24
	lui	s8, 4080
	srli	a0, s5, 8
	srliw	a1, s5, 24
	addi	a5, t1, -256
	and	a2, a2, a5
	or	t1, a2, a3
	slli	a3, s5, 56
	and	a4, a4, s8
	srliw	a0, a0, 24
	and	a2, s5, s8
	slli	a1, a1, 32
	slli	a0, a0, 24
	slli	a2, a2, 24
	and	a5, s5, a5
	or	a0, a0, a4
	or	s8, a2, a1
	slli	a5, a5, 40
	slli	t0, t0, 8
	slli	t2, t2, 16
	slli	t3, t3, 24
	slli	t4, t4, 8
	slli	t5, t5, 16
	slli	t6, t6, 24
	or	a0, a0, t1
	or	a3, a3, a5
	or	a2, t0, a6
	or	a4, t3, t2
	or	a5, t4, a7
	or	a1, t6, t5
	or	a3, a3, s8
	or	a2, a2, a4
	or	a1, a1, a5
	or	a0, a0, a3
	slli	a1, a1, 32
	or	a1, a1, a2
	xor	a1, a1, a0
	srli	a6, a1, 48
	srli	a7, a1, 56
	srli	a3, a1, 32
	srli	a4, a1, 40
	srli	a5, a1, 16
	srli	a0, a1, 24
	srli	a2, a1, 8
	sb	a3, 4(s1)
	sb	a4, 5(s1)
	sb	a6, 6(s1)
	sb	a7, 7(s1)
	sb	a1, 0(s1)
	sb	a2, 1(s1)
	sb	a5, 2(s1)
	sb	a0, 3(s1)
	lbu	t0, 0(s0)
	lbu	t3, 1(s0)
	lbu	a3, 2(s0)
	lbu	a4, 3(s0)
	lbu	a6, 4(s0)
	lbu	a7, 5(s0)
	lbu	t1, 6(s0)
	lbu	t2, 7(s0)
	lbu	t4, 0(s7)
	lbu	a0, 1(s7)
	lbu	a2, 2(s7)
	lbu	a5, 3(s7)
	slli	t3, t3, 8
	slli	a3, a3, 16
	slli	a4, a4, 24
	or	t0, t3, t0
	or	t3, a4, a3
	lbu	t5, 4(s7)
	lbu	t6, 5(s7)
	lbu	s8, 6(s7)
	lbu	a4, 7(s7)
	slli	a7, a7, 8
	slli	t1, t1, 16
	slli	t2, t2, 24
	slli	a0, a0, 8
	slli	a2, a2, 16
	slli	a5, a5, 24
	or	a6, a7, a6
	or	a7, t2, t1
	or	t1, a0, t4
	or	t2, a5, a2
	lbu	a5, 8(s7)
	lbu	a0, 9(s7)
	lbu	a2, 10(s7)
	lbu	a3, 11(s7)
	slli	t6, t6, 8
	slli	s8, s8, 16
	slli	a4, a4, 24
	slli	a0, a0, 8
	slli	a2, a2, 16
	slli	a3, a3, 24
	or	t4, t6, t5
	or	t6, a4, s8
	or	t5, a0, a5
	or	s8, a3, a2
	lbu	a3, 13(s7)
	lbu	a5, 12(s7)
	lbu	a0, 14(s7)
	lbu	a4, 15(s7)
	slli	a3, a3, 8
	or	s9, a3, a5
	slli	a0, a0, 16
	slli	a4, a4, 24
	or	a0, a0, a4
	or	a4, t3, t0
	or	a5, a7, a6
	or	a2, t2, t1
	or	a3, t6, t4
	or	a6, s8, t5
	or	a0, a0, s9
	slli	a5, a5, 32
	or	a4, a4, a5
	slli	a3, a3, 32
	slli	a5, a0, 32
	or	a0, a3, a2
	sd	a1, 0(sp)
	sd	a4, 8(sp)
	or	a1, a5, a6
	mv	a2, sp
	li	a3, 1
	call	aes_narrow.aes_narrow.blocks.process_all_batches.2
	call	aes_narrow.aes_cipher.zeroize.stack.wipe_stack.1024
	ld	a0, 0(sp)
	ld	a1, 8(sp)
	srli	a6, a0, 56
	srli	t0, a0, 48
	srli	t4, a0, 40
	srli	a5, a0, 32
	srli	a7, a0, 24
	srli	t3, a0, 16
	srli	a3, a0, 8
	srli	t1, a1, 48
	srli	t2, a1, 56
	srli	a2, a1, 32
	srli	a4, a1, 40
	sb	a5, 4(s1)
	sb	t4, 5(s1)
	sb	t0, 6(s1)
	sb	a6, 7(s1)
	srli	a5, a1, 16
	sb	a0, 0(s1)
	sb	a3, 1(s1)
	sb	t3, 2(s1)
	sb	a7, 3(s1)
	srli	a0, a1, 24
	sb	a2, 4(s0)
	sb	a4, 5(s0)
	sb	t1, 6(s0)
	sb	t2, 7(s0)
	srli	a2, a1, 8
	sb	a1, 0(s0)
	sb	a2, 1(s0)
	sb	a5, 2(s0)
	sb	a0, 3(s0)
	mv	a0, sp
	call	aes_narrow.aes_cipher.zeroize.elements.zeroize_elements.3
	addi	s6, s6, -1
	addi	s5, s5, -1
	addi	s0, s0, -8
	bnez	s6, .Laes_narrow_BB25_6
# %bb.7:                                # %"key_wrap::steps::unwrap_turn::<#10cbf20c84ff2163>.exit.loopexit.2"
	add	s5, s3, s2
	addi	s0, s4, -8
	mv	s6, s2
.Laes_narrow_BB25_8:                               # %join.5.i.3
                                        # =>This Inner Loop Header: Depth=1
	lbu	a6, 0(s1)
	lbu	t0, 1(s1)
	lbu	t2, 2(s1)
	lbu	t3, 3(s1)
	lbu	a7, 4(s1)
	lbu	t4, 5(s1)
	lbu	t5, 6(s1)
	lbu	t6, 7(s1)
	srli	a2, s5, 40
	lui	t1, 16
	srli	a3, s5, 56
	srli	a4, s5, 24
	lui	s8, 4080
	srli	a0, s5, 8
	srliw	a1, s5, 24
	addi	a5, t1, -256
	and	a2, a2, a5
	or	t1, a2, a3
	slli	a3, s5, 56
	and	a4, a4, s8
	srliw	a0, a0, 24
	and	a2, s5, s8
	slli	a1, a1, 32
	slli	a0, a0, 24
	slli	a2, a2, 24
	and	a5, s5, a5
	or	a0, a0, a4
	or	s8, a2, a1
	slli	a5, a5, 40
	slli	t0, t0, 8
	slli	t2, t2, 16
	slli	t3, t3, 24
	slli	t4, t4, 8
	slli	t5, t5, 16
	slli	t6, t6, 24
	or	a0, a0, t1
	or	a3, a3, a5
	or	a2, t0, a6
	or	a4, t3, t2
	or	a5, t4, a7
	or	a1, t6, t5
	or	a3, a3, s8
	or	a2, a2, a4
	or	a1, a1, a5
	or	a0, a0, a3
	slli	a1, a1, 32
	or	a1, a1, a2
	xor	a1, a1, a0
	srli	a6, a1, 48
	srli	a7, a1, 56
	srli	a3, a1, 32
	srli	a4, a1, 40
	srli	a5, a1, 16
	srli	a0, a1, 24
	srli	a2, a1, 8
	sb	a3, 4(s1)
	sb	a4, 5(s1)
	sb	a6, 6(s1)
	sb	a7, 7(s1)
	sb	a1, 0(s1)
	sb	a2, 1(s1)
	sb	a5, 2(s1)
	sb	a0, 3(s1)
	lbu	t0, 0(s0)
	lbu	t3, 1(s0)
	lbu	a3, 2(s0)
	lbu	a4, 3(s0)
	lbu	a6, 4(s0)
	lbu	a7, 5(s0)
	lbu	t1, 6(s0)
	lbu	t2, 7(s0)
	lbu	t4, 0(s7)
	lbu	a0, 1(s7)
	lbu	a2, 2(s7)
	lbu	a5, 3(s7)
	slli	t3, t3, 8
	slli	a3, a3, 16
	slli	a4, a4, 24
	or	t0, t3, t0
	or	t3, a4, a3
	lbu	t5, 4(s7)
	lbu	t6, 5(s7)
	lbu	s8, 6(s7)
	lbu	a4, 7(s7)
	slli	a7, a7, 8
	slli	t1, t1, 16
	slli	t2, t2, 24
	slli	a0, a0, 8
	slli	a2, a2, 16
	slli	a5, a5, 24
	or	a6, a7, a6
	or	a7, t2, t1
	or	t1, a0, t4
	or	t2, a5, a2
	lbu	a5, 8(s7)
	lbu	a0, 9(s7)
	lbu	a2, 10(s7)
	lbu	a3, 11(s7)
	slli	t6, t6, 8
	slli	s8, s8, 16
	slli	a4, a4, 24
	slli	a0, a0, 8
	slli	a2, a2, 16
	slli	a3, a3, 24
	or	t4, t6, t5
	or	t6, a4, s8
	or	t5, a0, a5
	or	s8, a3, a2
	lbu	a3, 13(s7)
	lbu	a5, 12(s7)
	lbu	a0, 14(s7)
	lbu	a4, 15(s7)
	slli	a3, a3, 8
	or	s9, a3, a5
	slli	a0, a0, 16
	slli	a4, a4, 24
	or	a0, a0, a4
	or	a4, t3, t0
	or	a5, a7, a6
	or	a2, t2, t1
	or	a3, t6, t4
	or	a6, s8, t5
	or	a0, a0, s9
	slli	a5, a5, 32
	or	a4, a4, a5
	slli	a3, a3, 32
	slli	a5, a0, 32
	or	a0, a3, a2
	sd	a1, 0(sp)
	sd	a4, 8(sp)
	or	a1, a5, a6
	mv	a2, sp
	li	a3, 1
	call	aes_narrow.aes_narrow.blocks.process_all_batches.2
	call	aes_narrow.aes_cipher.zeroize.stack.wipe_stack.1024
	ld	a0, 0(sp)
	ld	a1, 8(sp)
	srli	a6, a0, 56
	srli	t0, a0, 48
	srli	t4, a0, 40
	srli	a5, a0, 32
	srli	a7, a0, 24
	srli	t3, a0, 16
	srli	a3, a0, 8
	srli	t1, a1, 48
	srli	t2, a1, 56
	srli	a2, a1, 32
	srli	a4, a1, 40
	sb	a5, 4(s1)
	sb	t4, 5(s1)
	sb	t0, 6(s1)
	sb	a6, 7(s1)
	srli	a5, a1, 16
	sb	a0, 0(s1)
	sb	a3, 1(s1)
	sb	t3, 2(s1)
	sb	a7, 3(s1)
	srli	a0, a1, 24
	sb	a2, 4(s0)
	sb	a4, 5(s0)
	sb	t1, 6(s0)
	sb	t2, 7(s0)
	srli	a2, a1, 8
	sb	a1, 0(s0)
	sb	a2, 1(s0)
	sb	a5, 2(s0)
	sb	a0, 3(s0)
	mv	a0, sp
	call	aes_narrow.aes_cipher.zeroize.elements.zeroize_elements.3
	addi	s6, s6, -1
	addi	s5, s5, -1
	addi	s0, s0, -8
	bnez	s6, .Laes_narrow_BB25_8
# %bb.9:                                # %"key_wrap::steps::unwrap_turn::<#10cbf20c84ff2163>.exit.loopexit.3"
	addi	s0, s4, -8
	mv	s5, s2
.Laes_narrow_BB25_10:                              # %join.5.i.4
                                        # =>This Inner Loop Header: Depth=1
	lbu	a6, 0(s1)
	lbu	t0, 1(s1)
	lbu	t2, 2(s1)
	lbu	t3, 3(s1)
	lbu	a7, 4(s1)
	lbu	t4, 5(s1)
	lbu	t5, 6(s1)
	lbu	t6, 7(s1)
	srli	a2, s3, 40
	lui	t1, 16
	srli	a3, s3, 56
	srli	a4, s3, 24
	lui	s6, 4080
	srli	a0, s3, 8
	srliw	a1, s3, 24
	addi	a5, t1, -256
	and	a2, a2, a5
	or	t1, a2, a3
	slli	a3, s3, 56
	and	a4, a4, s6
	srliw	a0, a0, 24
	and	a2, s3, s6
	slli	a1, a1, 32
	slli	a0, a0, 24
	slli	a2, a2, 24
	and	a5, s3, a5
	or	a0, a0, a4
	or	s6, a2, a1
	slli	a5, a5, 40
	slli	t0, t0, 8
	slli	t2, t2, 16
	slli	t3, t3, 24
	slli	t4, t4, 8
	slli	t5, t5, 16
	slli	t6, t6, 24
	or	a0, a0, t1
	or	a3, a3, a5
	or	a2, t0, a6
	or	a4, t3, t2
	or	a5, t4, a7
	or	a1, t6, t5
	or	a3, a3, s6
	or	a2, a2, a4
	or	a1, a1, a5
	or	a0, a0, a3
	slli	a1, a1, 32
	or	a1, a1, a2
	xor	a1, a1, a0
	srli	a6, a1, 48
	srli	a7, a1, 56
	srli	a3, a1, 32
	srli	a4, a1, 40
	srli	a5, a1, 16
	srli	a0, a1, 24
	srli	a2, a1, 8
	sb	a3, 4(s1)
	sb	a4, 5(s1)
	sb	a6, 6(s1)
	sb	a7, 7(s1)
	sb	a1, 0(s1)
	sb	a2, 1(s1)
	sb	a5, 2(s1)
	sb	a0, 3(s1)
	lbu	t0, 0(s0)
	lbu	t3, 1(s0)
	lbu	a3, 2(s0)
	lbu	a4, 3(s0)
	lbu	a6, 4(s0)
	lbu	a7, 5(s0)
	lbu	t1, 6(s0)
	lbu	t2, 7(s0)
	lbu	t4, 0(s7)
	lbu	a0, 1(s7)
	lbu	a2, 2(s7)
	lbu	a5, 3(s7)
	slli	t3, t3, 8
	slli	a3, a3, 16
	slli	a4, a4, 24
	or	t0, t3, t0
	or	t3, a4, a3
	lbu	t5, 4(s7)
	lbu	t6, 5(s7)
	lbu	s6, 6(s7)
	lbu	a4, 7(s7)
	slli	a7, a7, 8
	slli	t1, t1, 16
	slli	t2, t2, 24
	slli	a0, a0, 8
	slli	a2, a2, 16
	slli	a5, a5, 24
	or	a6, a7, a6
	or	a7, t2, t1
	or	t1, a0, t4
	or	t2, a5, a2
	lbu	a5, 8(s7)
	lbu	a0, 9(s7)
	lbu	a2, 10(s7)
	lbu	a3, 11(s7)
	slli	t6, t6, 8
	slli	s6, s6, 16
	slli	a4, a4, 24
	slli	a0, a0, 8
	slli	a2, a2, 16
	slli	a3, a3, 24
	or	t4, t6, t5
	or	t6, a4, s6
	or	t5, a0, a5
	or	s6, a3, a2
	lbu	a3, 13(s7)
	lbu	a5, 12(s7)
	lbu	a0, 14(s7)
	lbu	a4, 15(s7)
	slli	a3, a3, 8
	or	s8, a3, a5
	slli	a0, a0, 16
	slli	a4, a4, 24
	or	a0, a0, a4
	or	a4, t3, t0
	or	a5, a7, a6
	or	a2, t2, t1
	or	a3, t6, t4
	or	a6, s6, t5
	or	a0, a0, s8
	slli	a5, a5, 32
	or	a4, a4, a5
	slli	a3, a3, 32
	slli	a5, a0, 32
	or	a0, a3, a2
	sd	a1, 0(sp)
	sd	a4, 8(sp)
	or	a1, a5, a6
	mv	a2, sp
	li	a3, 1
	call	aes_narrow.aes_narrow.blocks.process_all_batches.2
	call	aes_narrow.aes_cipher.zeroize.stack.wipe_stack.1024
	ld	a0, 0(sp)
	ld	a1, 8(sp)
	srli	a6, a0, 56
	srli	t0, a0, 48
	srli	t4, a0, 40
	srli	a5, a0, 32
	srli	a7, a0, 24
	srli	t3, a0, 16
	srli	a3, a0, 8
	srli	t1, a1, 48
	srli	t2, a1, 56
	srli	a2, a1, 32
	srli	a4, a1, 40
	sb	a5, 4(s1)
	sb	t4, 5(s1)
	sb	t0, 6(s1)
	sb	a6, 7(s1)
	srli	a5, a1, 16
	sb	a0, 0(s1)
	sb	a3, 1(s1)
	sb	t3, 2(s1)
	sb	a7, 3(s1)
	srli	a0, a1, 24
	sb	a2, 4(s0)
	sb	a4, 5(s0)
	sb	t1, 6(s0)
	sb	t2, 7(s0)
	srli	a2, a1, 8
	sb	a1, 0(s0)
	sb	a2, 1(s0)
	sb	a5, 2(s0)
	sb	a0, 3(s0)
	mv	a0, sp
	call	aes_narrow.aes_cipher.zeroize.elements.zeroize_elements.3
	addi	s5, s5, -1
	addi	s3, s3, -1
	addi	s0, s0, -8
	bnez	s5, .Laes_narrow_BB25_10
# %bb.11:                               # %join.5.i.5.preheader
	addi	s4, s4, -8
.Laes_narrow_BB25_12:                              # %join.5.i.5
                                        # =>This Inner Loop Header: Depth=1
	lbu	a6, 0(s1)
	lbu	t1, 1(s1)
	lbu	t2, 2(s1)
	lbu	t3, 3(s1)
	lbu	a7, 4(s1)
	lbu	t4, 5(s1)
	lbu	t5, 6(s1)
	lbu	t6, 7(s1)
	srli	a1, s2, 40
	lui	t0, 16
	srli	a2, s2, 56
	srli	a3, s2, 24
	lui	a4, 4080
	srli	a5, s2, 8
	srliw	s0, s2, 24
	addi	a0, t0, -256
	and	a1, a1, a0
	or	a1, a1, a2
	slli	a2, s2, 56
	and	a3, a3, a4
	srliw	a5, a5, 24
	and	a4, s2, a4
	slli	s0, s0, 32
	slli	a5, a5, 24
	slli	a4, a4, 24
	and	a0, s2, a0
	or	a3, a3, a5
	or	a4, a4, s0
	slli	a0, a0, 40
	slli	t1, t1, 8
	slli	t2, t2, 16
	slli	t3, t3, 24
	slli	t4, t4, 8
	slli	t5, t5, 16
	slli	t6, t6, 24
	or	a1, a1, a3
	or	a0, a0, a2
	or	a2, t1, a6
	or	a3, t3, t2
	or	a5, t4, a7
	or	s0, t6, t5
	or	a0, a0, a4
	or	a2, a2, a3
	or	a5, a5, s0
	or	a0, a0, a1
	slli	a5, a5, 32
	or	a1, a5, a2
	xor	a1, a1, a0
	srli	a6, a1, 48
	srli	a2, a1, 56
	srli	a3, a1, 32
	srli	a4, a1, 40
	srli	a5, a1, 16
	srli	s0, a1, 24
	srli	a0, a1, 8
	sb	a3, 4(s1)
	sb	a4, 5(s1)
	sb	a6, 6(s1)
	sb	a2, 7(s1)
	sb	a1, 0(s1)
	sb	a0, 1(s1)
	sb	a5, 2(s1)
	sb	s0, 3(s1)
	lbu	t0, 0(s4)
	lbu	a4, 1(s4)
	lbu	a3, 2(s4)
	lbu	a2, 3(s4)
	lbu	a6, 4(s4)
	lbu	a7, 5(s4)
	lbu	t1, 6(s4)
	lbu	t2, 7(s4)
	lbu	t3, 0(s7)
	lbu	a5, 1(s7)
	lbu	s0, 2(s7)
	lbu	a0, 3(s7)
	slli	a4, a4, 8
	slli	a3, a3, 16
	slli	a2, a2, 24
	or	t0, a4, t0
	or	t4, a2, a3
	lbu	t5, 4(s7)
	lbu	t6, 5(s7)
	lbu	a2, 6(s7)
	lbu	a3, 7(s7)
	slli	a7, a7, 8
	slli	t1, t1, 16
	slli	t2, t2, 24
	slli	a5, a5, 8
	slli	s0, s0, 16
	slli	a0, a0, 24
	or	a6, a7, a6
	or	a7, t2, t1
	or	t1, a5, t3
	or	t2, a0, s0
	lbu	s0, 8(s7)
	lbu	a5, 9(s7)
	lbu	a0, 10(s7)
	lbu	a4, 11(s7)
	slli	t6, t6, 8
	slli	a2, a2, 16
	slli	a3, a3, 24
	slli	a5, a5, 8
	slli	a0, a0, 16
	slli	a4, a4, 24
	or	t3, t6, t5
	or	t5, a3, a2
	or	t6, a5, s0
	or	s3, a4, a0
	lbu	a3, 13(s7)
	lbu	a4, 12(s7)
	lbu	s0, 14(s7)
	lbu	a2, 15(s7)
	slli	a3, a3, 8
	or	a3, a3, a4
	slli	s0, s0, 16
	slli	a2, a2, 24
	or	a2, a2, s0
	or	a4, t4, t0
	or	s0, a7, a6
	or	a5, t2, t1
	or	a0, t5, t3
	or	a6, s3, t6
	or	a2, a2, a3
	slli	s0, s0, 32
	or	a4, a4, s0
	slli	a0, a0, 32
	slli	a2, a2, 32
	or	a0, a0, a5
	sd	a1, 0(sp)
	sd	a4, 8(sp)
	or	a1, a2, a6
	mv	a2, sp
	li	a3, 1
	call	aes_narrow.aes_narrow.blocks.process_all_batches.2
	call	aes_narrow.aes_cipher.zeroize.stack.wipe_stack.1024
	ld	a0, 0(sp)
	ld	a1, 8(sp)
	srli	a6, a0, 56
	srli	t1, a0, 48
	srli	a4, a0, 40
	srli	a5, a0, 32
	srli	a7, a0, 24
	srli	t3, a0, 16
	srli	s0, a0, 8
	srli	t0, a1, 48
	srli	t2, a1, 56
	srli	a3, a1, 32
	srli	a2, a1, 40
	sb	a5, 4(s1)
	sb	a4, 5(s1)
	sb	t1, 6(s1)
	sb	a6, 7(s1)
	srli	a4, a1, 16
	sb	a0, 0(s1)
	sb	s0, 1(s1)
	sb	t3, 2(s1)
	sb	a7, 3(s1)
	srli	a0, a1, 24
	sb	a3, 4(s4)
	sb	a2, 5(s4)
	sb	t0, 6(s4)
	sb	t2, 7(s4)
	srli	a2, a1, 8
	sb	a1, 0(s4)
	sb	a2, 1(s4)
	sb	a4, 2(s4)
	sb	a0, 3(s4)
	mv	a0, sp
	call	aes_narrow.aes_cipher.zeroize.elements.zeroize_elements.3
	addi	s2, s2, -1
	addi	s4, s4, -8
	bnez	s2, .Laes_narrow_BB25_12
# %bb.13:
	ld	ra, 104(sp)                     # 8-byte Folded Reload
	ld	s0, 96(sp)                      # 8-byte Folded Reload
	ld	s1, 88(sp)                      # 8-byte Folded Reload
	ld	s2, 80(sp)                      # 8-byte Folded Reload
	ld	s3, 72(sp)                      # 8-byte Folded Reload
	ld	s4, 64(sp)                      # 8-byte Folded Reload
	ld	s5, 56(sp)                      # 8-byte Folded Reload
	ld	s6, 48(sp)                      # 8-byte Folded Reload
	ld	s7, 40(sp)                      # 8-byte Folded Reload
	ld	s8, 32(sp)                      # 8-byte Folded Reload
	ld	s9, 24(sp)                      # 8-byte Folded Reload
	ld	s10, 16(sp)                     # 8-byte Folded Reload
	addi	sp, sp, 112
.Laes_narrow_BB25_14:                              # %after.1
	ret
.Laes_narrow_func_end25:
	.size	aes_narrow.key_wrap.steps.unwrap_in_place, .Laes_narrow_func_end25-aes_narrow.key_wrap.steps.unwrap_in_place
                                        # -- End function
	.section	.text.aes_narrow.aes_cipher.zeroize.elements.zeroize_elements.3,"ax",@progbits
	.p2align	1                               # -- Begin function aes_cipher::zeroize::elements::zeroize_elements::<#51e2d7e6a2c2e10f>
	.type	aes_narrow.aes_cipher.zeroize.elements.zeroize_elements.3,@function
aes_narrow.aes_cipher.zeroize.elements.zeroize_elements.3: # @aes_narrow.aes_cipher.zeroize.elements.zeroize_elements.3
# %bb.0:                                # %start
	addi	sp, sp, -48
	sd	ra, 40(sp)                      # 8-byte Folded Spill
	sd	s0, 32(sp)                      # 8-byte Folded Spill
	sd	s1, 24(sp)                      # 8-byte Folded Spill
	sd	zero, 8(sp)
	sd	zero, 16(sp)
	sd	zero, 0(sp)
	#APP
	#NO_APP
	fence	rw, rw
	ld	a1, 0(sp)
	fence	r, rw
	#APP
	#NO_APP
	beqz	a1, .Laes_narrow_BB26_2
# %bb.1:                                # %"aes_cipher::zeroize::observe::<#b3ccab65b2a1c990>.exit8"
	addi	a1, sp, 8
	li	a2, 16
	la	t1, memcpy
	jalr	t1
	li	a0, 0
	j	.Laes_narrow_BB26_3
.Laes_narrow_BB26_2:                               # %then.1.i
	lbu	s1, 0(a0)
	addi	a1, sp, 8
	li	a2, 16
	mv	s0, a0
	la	t1, memcpy
	jalr	t1
	lbu	a0, 0(s0)
	and	a0, a0, s1
.Laes_narrow_BB26_3:                               # %"aes_cipher::zeroize::observe::<#b3ccab65b2a1c990>.exit"
	#APP
	#NO_APP
	mv	a1, sp
	amoswap.d.aqrl	zero, a0, (a1)
	#APP
	#NO_APP
	ld	ra, 40(sp)                      # 8-byte Folded Reload
	ld	s0, 32(sp)                      # 8-byte Folded Reload
	ld	s1, 24(sp)                      # 8-byte Folded Reload
	addi	sp, sp, 48
	ret
.Laes_narrow_func_end26:
	.size	aes_narrow.aes_cipher.zeroize.elements.zeroize_elements.3, .Laes_narrow_func_end26-aes_narrow.aes_cipher.zeroize.elements.zeroize_elements.3
                                        # -- End function
	.section	.text.aes_narrow.aes_cipher.blocks.difference,"ax",@progbits
	.p2align	1                               # -- Begin function aes_cipher::blocks::difference
	.type	aes_narrow.aes_cipher.blocks.difference,@function
aes_narrow.aes_cipher.blocks.difference:       # @aes_narrow.aes_cipher.blocks.difference
# %bb.0:                                # %start
	addi	sp, sp, -64
	sd	s0, 56(sp)                      # 8-byte Folded Spill
	sd	s1, 48(sp)                      # 8-byte Folded Spill
	sd	s2, 40(sp)                      # 8-byte Folded Spill
	sd	s3, 32(sp)                      # 8-byte Folded Spill
	sd	s4, 24(sp)                      # 8-byte Folded Spill
	sd	s5, 16(sp)                      # 8-byte Folded Spill
	sd	s6, 8(sp)                       # 8-byte Folded Spill
	lbu	t3, 0(a0)
	lbu	t6, 1(a0)
	lbu	a6, 2(a0)
	lbu	a7, 3(a0)
	lbu	a4, 0(a1)
	lbu	a5, 1(a1)
	lbu	t0, 2(a1)
	lbu	t1, 3(a1)
	lbu	t2, 4(a0)
	lbu	t5, 5(a0)
	lbu	t4, 6(a0)
	lbu	s2, 7(a0)
	lbu	a3, 4(a1)
	lbu	s0, 5(a1)
	lbu	s1, 6(a1)
	lbu	s6, 7(a1)
	xor	t3, a4, t3
	xor	t6, a5, t6
	lbu	a4, 8(a0)
	lbu	s3, 9(a0)
	lbu	s4, 10(a0)
	lbu	s5, 11(a0)
	xor	a6, t0, a6
	xor	a7, t1, a7
	xor	t0, a3, t2
	xor	t1, s0, t5
	lbu	a3, 8(a1)
	lbu	s0, 9(a1)
	lbu	a5, 10(a1)
	lbu	a2, 11(a1)
	xor	t2, s1, t4
	xor	t4, s6, s2
	xor	t5, a3, a4
	lbu	s2, 12(a0)
	lbu	s1, 13(a0)
	lbu	a3, 14(a0)
	lbu	a0, 15(a0)
	xor	s6, s0, s3
	xor	s3, a5, s4
	xor	a2, a2, s5
	lbu	a4, 12(a1)
	lbu	a5, 13(a1)
	lbu	s0, 14(a1)
	lbu	a1, 15(a1)
	xor	a4, a4, s2
	xor	a5, a5, s1
	xor	a3, a3, s0
	xor	s2, a1, a0
	or	a1, t6, t3
	or	s1, a7, a6
	or	s0, t1, t0
	or	a0, t5, t4
	or	a2, a2, a4
	or	a1, a1, s1
	or	a4, t2, s0
	or	a0, s6, a0
	or	a2, a2, a5
	or	a1, a1, a4
	or	a0, s3, a0
	or	a2, a2, a3
	or	a0, a0, a1
	or	a1, s2, a2
	or	a0, a0, a1
	ld	s0, 56(sp)                      # 8-byte Folded Reload
	ld	s1, 48(sp)                      # 8-byte Folded Reload
	ld	s2, 40(sp)                      # 8-byte Folded Reload
	ld	s3, 32(sp)                      # 8-byte Folded Reload
	ld	s4, 24(sp)                      # 8-byte Folded Reload
	ld	s5, 16(sp)                      # 8-byte Folded Reload
	ld	s6, 8(sp)                       # 8-byte Folded Reload
	addi	sp, sp, 64
	ret
.Laes_narrow_func_end27:
	.size	aes_narrow.aes_cipher.blocks.difference, .Laes_narrow_func_end27-aes_narrow.aes_cipher.blocks.difference
                                        # -- End function
	.section	.text.aes_narrow.key_wrap.padded.unwrap_padded,"ax",@progbits
	.p2align	1                               # -- Begin function key_wrap::padded::unwrap_padded::<#10cbf20c84ff2163>
	.type	aes_narrow.key_wrap.padded.unwrap_padded,@function
aes_narrow.key_wrap.padded.unwrap_padded: # @aes_narrow.key_wrap.padded.unwrap_padded
# %bb.0:                                # %start
	addi	sp, sp, -96
	sd	ra, 88(sp)                      # 8-byte Folded Spill
	sd	s0, 80(sp)                      # 8-byte Folded Spill
	sd	s1, 72(sp)                      # 8-byte Folded Spill
	sd	s2, 64(sp)                      # 8-byte Folded Spill
	sd	s3, 56(sp)                      # 8-byte Folded Spill
	sd	s4, 48(sp)                      # 8-byte Folded Spill
	sd	s5, 40(sp)                      # 8-byte Folded Spill
	sd	s6, 32(sp)                      # 8-byte Folded Spill
	sd	s7, 24(sp)                      # 8-byte Folded Spill
	mv	s7, a1
	addi	s5, a5, -1
	srli	a1, s5, 29
	mv	s3, a0
	bnez	a1, .Laes_narrow_BB28_5
# %bb.1:                                # %start
	mv	s2, a5
	addi	a0, a5, 1
	bne	a3, a0, .Laes_narrow_BB28_5
# %bb.2:                                # %after.1
	mv	s6, a4
	addi	a1, a2, 8
	addi	a0, a3, -1
	slli	a3, a0, 3
	sub	a4, a4, a1
	bgeu	a4, a3, .Laes_narrow_BB28_6
# %bb.3:                                # %loop.4.preheader.i.i.i.i.i.i.i
	mv	a3, s6
	beqz	a0, .Laes_narrow_BB28_7
.Laes_narrow_BB28_4:                               # %join.7.i.i.i.i.i.i.i
                                        # =>This Inner Loop Header: Depth=1
	lbu	a6, 0(a1)
	lbu	a7, 1(a1)
	lbu	t1, 2(a1)
	lbu	t0, 3(a1)
	lbu	a4, 4(a1)
	lbu	a5, 5(a1)
	lbu	s0, 6(a1)
	lbu	s1, 7(a1)
	addi	a0, a0, -1
	addi	a1, a1, 8
	sb	a4, 4(a3)
	sb	a5, 5(a3)
	sb	s0, 6(a3)
	sb	s1, 7(a3)
	sb	a6, 0(a3)
	sb	a7, 1(a3)
	sb	t1, 2(a3)
	sb	t0, 3(a3)
	addi	a3, a3, 8
	bnez	a0, .Laes_narrow_BB28_4
	j	.Laes_narrow_BB28_7
.Laes_narrow_BB28_5:                               # %join.5
	li	a0, 1
	sb	zero, 6(s3)
	sb	zero, 7(s3)
	sb	a0, 0(s3)
	sb	zero, 1(s3)
	j	.Laes_narrow_BB28_12
.Laes_narrow_BB28_6:                               # %apart.2.i.i.i.i.i.i.i
	mv	a0, s6
	mv	s4, a2
	mv	a2, a3
	la	t1, memmove
	jalr	t1
	mv	a2, s4
.Laes_narrow_BB28_7:                               # %"key_wrap::wrapping::copy_apart.exit"
	lbu	a0, 1(a2)
	lbu	a1, 2(a2)
	lbu	a3, 3(a2)
	lbu	a4, 0(a2)
	slli	a0, a0, 8
	slli	a1, a1, 16
	slli	a3, a3, 24
	or	a0, a0, a4
	or	a1, a1, a3
	lbu	a3, 5(a2)
	lbu	a4, 4(a2)
	lbu	a5, 6(a2)
	lbu	a2, 7(a2)
	slli	a3, a3, 8
	or	a3, a3, a4
	slli	a5, a5, 16
	slli	a2, a2, 24
	or	a2, a2, a5
	or	a0, a0, a1
	or	a2, a2, a3
	slli	a1, a2, 32
	or	t5, a1, a0
	li	a0, 1
	sd	t5, 0(sp)
	bne	s2, a0, .Laes_narrow_BB28_9
# %bb.8:                                # %"key_wrap::steps::unwrap_string::<#10cbf20c84ff2163>.exit.thread"
	lbu	a6, 0(s6)
	lbu	t2, 1(s6)
	lbu	a3, 2(s6)
	lbu	a4, 3(s6)
	lbu	a5, 4(s6)
	lbu	s1, 5(s6)
	lbu	a7, 6(s6)
	lbu	t0, 7(s6)
	lbu	t1, 0(s7)
	lbu	a0, 1(s7)
	lbu	s0, 2(s7)
	lbu	a2, 3(s7)
	slli	t2, t2, 8
	slli	a3, a3, 16
	slli	a4, a4, 24
	slli	s1, s1, 8
	or	a6, t2, a6
	or	t2, a4, a3
	or	t3, s1, a5
	lbu	a4, 4(s7)
	lbu	s1, 5(s7)
	lbu	a3, 6(s7)
	lbu	a5, 7(s7)
	slli	a7, a7, 16
	slli	t0, t0, 24
	slli	a0, a0, 8
	slli	s0, s0, 16
	slli	a2, a2, 24
	slli	s1, s1, 8
	or	a7, t0, a7
	or	t0, a0, t1
	or	t1, a2, s0
	or	t4, s1, a4
	lbu	s1, 8(s7)
	lbu	s0, 9(s7)
	lbu	a0, 10(s7)
	lbu	a2, 11(s7)
	slli	a3, a3, 16
	slli	a5, a5, 24
	slli	s0, s0, 8
	slli	a0, a0, 16
	slli	a2, a2, 24
	or	a3, a3, a5
	or	s0, s0, s1
	or	a0, a0, a2
	lbu	a2, 13(s7)
	lbu	a5, 12(s7)
	lbu	s1, 14(s7)
	lbu	a4, 15(s7)
	slli	a2, a2, 8
	or	a2, a2, a5
	slli	s1, s1, 16
	slli	a4, a4, 24
	or	a4, a4, s1
	or	a5, t2, a6
	or	s1, a7, t3
	or	a1, t1, t0
	or	a3, a3, t4
	or	s0, s0, a0
	or	a2, a2, a4
	slli	s1, s1, 32
	or	a5, a5, s1
	slli	a0, a3, 32
	slli	a2, a2, 32
	or	a0, a0, a1
	sd	t5, 8(sp)
	sd	a5, 16(sp)
	or	a1, a2, s0
	addi	a2, sp, 8
	li	a3, 1
	call	aes_narrow.aes_narrow.blocks.process_all_batches.2
	call	aes_narrow.aes_cipher.zeroize.stack.wipe_stack.1024
	ld	a0, 16(sp)
	ld	s4, 8(sp)
	srli	a1, a0, 56
	srli	a2, a0, 48
	srli	a3, a0, 40
	srli	a4, a0, 32
	srli	a5, a0, 24
	srli	s1, a0, 16
	sb	a4, 4(s6)
	sb	a3, 5(s6)
	sb	a2, 6(s6)
	sb	a1, 7(s6)
	srli	a1, a0, 8
	sb	a0, 0(s6)
	sb	a1, 1(s6)
	sb	s1, 2(s6)
	sb	a5, 3(s6)
	addi	a0, sp, 8
	call	aes_narrow.aes_cipher.zeroize.elements.zeroize_elements.3
	srli	s0, s4, 32
	mv	a0, s4
	mv	a1, s0
	mv	a2, s6
	mv	a3, s2
	call	aes_narrow.key_wrap.padded.difference
	bnez	a0, .Laes_narrow_BB28_11
	j	.Laes_narrow_BB28_14
.Laes_narrow_BB28_9:                               # %"key_wrap::steps::unwrap_string::<#10cbf20c84ff2163>.exit"
	mv	a1, sp
	mv	a0, s7
	mv	a2, s6
	mv	a3, s2
	call	aes_narrow.key_wrap.steps.unwrap_in_place
	lw	a0, 0(sp)
	lw	s0, 4(sp)
	mv	a1, s0
	mv	a2, s6
	mv	a3, s2
	call	aes_narrow.key_wrap.padded.difference
	beqz	a0, .Laes_narrow_BB28_14
# %bb.10:                               # %join.8.i.preheader
	slli	a2, s2, 3
	addi	a2, a2, -8
	mv	a0, s6
	li	a1, 0
	la	t1, memset
	jalr	t1
.Laes_narrow_BB28_11:                              # %"core::slice::edits::slice+T::fill::<#1e8902aced0720be>.exit"
	slli	s5, s5, 3
	add	s5, s5, s6
	li	a0, 1
	sb	zero, 4(s5)
	sb	zero, 5(s5)
	sb	zero, 6(s5)
	sb	zero, 7(s5)
	sb	zero, 0(s5)
	sb	zero, 1(s5)
	sb	zero, 2(s5)
	sb	zero, 3(s5)
	sb	zero, 6(s3)
	sb	zero, 7(s3)
	sb	a0, 0(s3)
	sb	a0, 1(s3)
.Laes_narrow_BB28_12:                              # %common.ret
	sb	zero, 4(s3)
	sb	zero, 5(s3)
.Laes_narrow_BB28_13:                              # %common.ret
	ld	ra, 88(sp)                      # 8-byte Folded Reload
	ld	s0, 80(sp)                      # 8-byte Folded Reload
	ld	s1, 72(sp)                      # 8-byte Folded Reload
	ld	s2, 64(sp)                      # 8-byte Folded Reload
	ld	s3, 56(sp)                      # 8-byte Folded Reload
	ld	s4, 48(sp)                      # 8-byte Folded Reload
	ld	s5, 40(sp)                      # 8-byte Folded Reload
	ld	s6, 32(sp)                      # 8-byte Folded Reload
	ld	s7, 24(sp)                      # 8-byte Folded Reload
	addi	sp, sp, 96
	ret
.Laes_narrow_BB28_14:                              # %join.16
	srli	a0, s0, 24
	srli	a1, s0, 8
	srli	a2, s0, 16
	sb	a1, 6(s3)
	sb	s0, 7(s3)
	sb	zero, 0(s3)
	sb	zero, 1(s3)
	sb	a0, 4(s3)
	sb	a2, 5(s3)
	j	.Laes_narrow_BB28_13
.Laes_narrow_func_end28:
	.size	aes_narrow.key_wrap.padded.unwrap_padded, .Laes_narrow_func_end28-aes_narrow.key_wrap.padded.unwrap_padded
                                        # -- End function
	.section	.text.aes_narrow.key_wrap.padded.difference,"ax",@progbits
	.p2align	1                               # -- Begin function key_wrap::padded::difference
	.type	aes_narrow.key_wrap.padded.difference,@function
aes_narrow.key_wrap.padded.difference:         # @aes_narrow.key_wrap.padded.difference
# %bb.0:                                # %start
	addi	sp, sp, -80
	sd	ra, 72(sp)                      # 8-byte Folded Spill
	sd	s0, 64(sp)                      # 8-byte Folded Spill
	sd	s1, 56(sp)                      # 8-byte Folded Spill
	sd	s2, 48(sp)                      # 8-byte Folded Spill
	sd	s3, 40(sp)                      # 8-byte Folded Spill
	sd	s4, 32(sp)                      # 8-byte Folded Spill
	sd	s5, 24(sp)                      # 8-byte Folded Spill
	sd	s6, 16(sp)                      # 8-byte Folded Spill
	sd	s7, 8(sp)                       # 8-byte Folded Spill
	srli	a4, a0, 8
	lui	a5, 16
	srliw	s1, a0, 24
	srli	s0, a1, 8
	addi	a5, a5, -256
	and	a4, a4, a5
	or	a4, a4, s1
	srliw	s1, a1, 24
	and	s0, s0, a5
	or	s0, s0, s1
	slli	s1, a0, 24
	and	a0, a0, a5
	slli	a0, a0, 8
	or	a0, a0, s1
	and	a5, a5, a1
	slli	a1, a1, 24
	slli	a3, a3, 3
	add	s1, a2, a3
	slli	a5, a5, 8
	or	a1, a1, a5
	or	s2, a0, a4
	or	a1, a1, s0
	slli	a1, a1, 32
	lbu	s4, -1(s1)
	srli	a1, a1, 32
	sub	s3, a3, a1
	andi	s0, s3, 7
	li	a0, 0
	mv	a1, s0
	call	aes_narrow.key_wrap.padded.mask_below
	lbu	s5, -2(s1)
	and	s4, a0, s4
	li	a0, 1
	mv	a1, s0
	call	aes_narrow.key_wrap.padded.mask_below
	lbu	s6, -3(s1)
	and	a0, a0, s5
	or	s4, a0, s4
	li	a0, 2
	mv	a1, s0
	call	aes_narrow.key_wrap.padded.mask_below
	lbu	s5, -4(s1)
	and	s6, a0, s6
	li	a0, 3
	mv	a1, s0
	call	aes_narrow.key_wrap.padded.mask_below
	lbu	s7, -5(s1)
	and	a0, a0, s5
	or	a0, s6, a0
	or	s4, s4, a0
	li	a0, 4
	mv	a1, s0
	call	aes_narrow.key_wrap.padded.mask_below
	lbu	s5, -6(s1)
	and	s6, a0, s7
	li	a0, 5
	mv	a1, s0
	call	aes_narrow.key_wrap.padded.mask_below
	lbu	s7, -7(s1)
	and	a0, a0, s5
	or	s5, s6, a0
	li	a0, 6
	mv	a1, s0
	call	aes_narrow.key_wrap.padded.mask_below
	lbu	s1, -8(s1)
	and	a0, a0, s7
	or	a0, s5, a0
	or	s4, s4, a0
	li	a0, 7
	mv	a1, s0
	call	aes_narrow.key_wrap.padded.mask_below
	and	a0, a0, s1
	lui	a1, 367210
	srli	a2, s3, 3
	or	a0, s4, a0
	addi	a1, a1, 1626
	add	a1, a1, s2
	slli	a1, a1, 32
	srli	a1, a1, 32
	or	a1, a1, a2
	zext.b	a0, a0
	or	a0, a0, a1
	ld	ra, 72(sp)                      # 8-byte Folded Reload
	ld	s0, 64(sp)                      # 8-byte Folded Reload
	ld	s1, 56(sp)                      # 8-byte Folded Reload
	ld	s2, 48(sp)                      # 8-byte Folded Reload
	ld	s3, 40(sp)                      # 8-byte Folded Reload
	ld	s4, 32(sp)                      # 8-byte Folded Reload
	ld	s5, 24(sp)                      # 8-byte Folded Reload
	ld	s6, 16(sp)                      # 8-byte Folded Reload
	ld	s7, 8(sp)                       # 8-byte Folded Reload
	addi	sp, sp, 80
	ret
.Laes_narrow_func_end29:
	.size	aes_narrow.key_wrap.padded.difference, .Laes_narrow_func_end29-aes_narrow.key_wrap.padded.difference
                                        # -- End function
	.section	.text.aes_narrow.key_wrap.padded.mask_below,"ax",@progbits
	.p2align	1                               # -- Begin function key_wrap::padded::mask_below
	.type	aes_narrow.key_wrap.padded.mask_below,@function
aes_narrow.key_wrap.padded.mask_below:         # @aes_narrow.key_wrap.padded.mask_below
# %bb.0:                                # %start
	sub	a0, a0, a1
	srliw	a0, a0, 24
	ret
.Laes_narrow_func_end30:
	.size	aes_narrow.key_wrap.padded.mask_below, .Laes_narrow_func_end30-aes_narrow.key_wrap.padded.mask_below
                                        # -- End function
	.section	.rodata.cst8,"aM",@progbits,8
	.p2align	3, 0x0                          # -- Begin function aes_c::single_rounds::inverse_mixed
.Laes_narrow_CPI31_0:
	.quad	-6148914691236517206            # 0xaaaaaaaaaaaaaaaa
.Laes_narrow_CPI31_1:
	.quad	-3689348814741910324            # 0xcccccccccccccccc
	.section	.text.aes_narrow.aes_c.single_rounds.inverse_mixed,"ax",@progbits
	.p2align	1
	.type	aes_narrow.aes_c.single_rounds.inverse_mixed,@function
aes_narrow.aes_c.single_rounds.inverse_mixed:  # @aes_narrow.aes_c.single_rounds.inverse_mixed
# %bb.0:                                # %start
	addi	sp, sp, -112
	sd	ra, 104(sp)                     # 8-byte Folded Spill
	sd	s0, 96(sp)                      # 8-byte Folded Spill
	sd	s1, 88(sp)                      # 8-byte Folded Spill
	sd	s2, 80(sp)                      # 8-byte Folded Spill
	sd	s3, 72(sp)                      # 8-byte Folded Spill
	sd	s4, 64(sp)                      # 8-byte Folded Spill
	sd	s5, 56(sp)                      # 8-byte Folded Spill
	sd	s6, 48(sp)                      # 8-byte Folded Spill
	sd	s7, 40(sp)                      # 8-byte Folded Spill
	sd	s8, 32(sp)                      # 8-byte Folded Spill
	sd	s9, 24(sp)                      # 8-byte Folded Spill
	sd	s10, 16(sp)                     # 8-byte Folded Spill
	sd	s11, 8(sp)                      # 8-byte Folded Spill
	lbu	a6, 0(a0)
	lbu	t1, 1(a0)
	lbu	a7, 2(a0)
	lbu	t3, 3(a0)
	lbu	t0, 4(a0)
	lbu	t6, 5(a0)
	lbu	t2, 6(a0)
	lbu	s4, 7(a0)
	lbu	t4, 8(a0)
	lbu	t5, 9(a0)
	lbu	s2, 10(a0)
	lbu	s3, 11(a0)
	lbu	s5, 12(a0)
	lbu	s6, 13(a0)
	lbu	s11, 14(a0)
	lbu	ra, 15(a0)
	lui	s7, 16
	lui	s8, 349525
	lui	s9, 209715
	lui	s10, 61681
.Laes_narrow_pcrel_hi17:
	auipc	a2, %pcrel_hi(.Laes_narrow_CPI31_0)
	lui	a5, 139810
.Laes_narrow_pcrel_hi18:
	auipc	s0, %pcrel_hi(.Laes_narrow_CPI31_1)
	addi	s7, s7, -1
	addi	a3, s8, 1365
	addi	a4, s9, 819
	addi	a1, s10, -241
	ld	s9, %pcrel_lo(.Laes_narrow_pcrel_hi17)(a2)
	addi	s1, a5, 546
	ld	s8, %pcrel_lo(.Laes_narrow_pcrel_hi18)(s0)
	slli	s0, a3, 32
	slli	a5, a4, 32
	slli	a2, a1, 32
	add	s0, s0, a3
	slli	a3, s1, 32
	add	a4, a4, a5
	add	a1, a1, a2
	add	s10, s1, a3
	slli	s4, s4, 16
	slli	ra, ra, 24
	slli	s11, s11, 8
	slli	t6, t6, 16
	slli	s6, s6, 24
	slli	s5, s5, 8
	slli	t3, t3, 16
	slli	s3, s3, 24
	slli	s2, s2, 8
	slli	t1, t1, 16
	slli	t5, t5, 24
	slli	t4, t4, 8
	or	s4, ra, s4
	or	a5, t2, s11
	or	t2, s6, t6
	or	a3, t0, s5
	or	t0, s3, t3
	or	s1, a7, s2
	or	a7, t5, t1
	or	a2, a6, t4
	and	a5, a5, s7
	and	a3, a3, s7
	and	s1, s1, s7
	and	a2, a2, s7
	or	a5, a5, s4
	or	a3, a3, t2
	or	s1, s1, t0
	or	a2, a2, a7
	slli	a5, a5, 32
	slli	a3, a3, 32
	slli	s1, s1, 32
	slli	a2, a2, 32
	srli	a3, a3, 32
	srli	a2, a2, 32
	or	a3, a3, a5
	or	a2, a2, s1
	srli	a5, a2, 1
	srli	s1, a3, 1
	xor	a5, a5, a2
	xor	s1, s1, a3
	and	a5, a5, s0
	and	s0, s0, s1
	slli	a6, a5, 1
	xor	a5, a5, a2
	slli	s1, s0, 1
	xor	s0, s0, a3
	xor	a2, a6, a2
	xor	a3, a3, s1
	srli	s1, a5, 2
	srli	a6, s0, 2
	srli	a7, a2, 2
	srli	t0, a3, 2
	xor	s1, s1, a5
	xor	a6, a6, s0
	xor	a7, a7, a2
	xor	t0, t0, a3
	and	s1, s1, a4
	and	a6, a6, a4
	and	a7, a7, a4
	and	a4, t0, a4
	slli	t0, s1, 2
	xor	t1, s1, a5
	slli	t2, a6, 2
	xor	s1, a6, s0
	slli	a6, a7, 2
	xor	a7, a7, a2
	slli	t3, a4, 2
	xor	t4, a4, a3
	xor	t0, t0, a5
	xor	s0, t2, s0
	srli	a5, t1, 4
	xor	a6, a6, a2
	xor	t2, t3, a3
	srli	a2, t0, 4
	srli	a3, a7, 4
	xor	a5, a5, s1
	srli	a4, a6, 4
	xor	a2, a2, s0
	xor	a3, a3, t4
	and	a5, a5, a1
	xor	a4, a4, t2
	and	a2, a2, a1
	and	a3, a3, a1
	slli	t3, a5, 4
	xor	s4, a5, s1
	and	a4, a4, a1
	slli	t5, a2, 4
	xor	s2, a2, s0
	slli	t6, a3, 4
	xor	s7, a3, t4
	xor	s1, t3, t1
	srli	t1, s4, 16
	slli	t3, s4, 48
	slli	t4, a4, 4
	xor	a4, a4, t2
	xor	s0, t5, t0
	xor	a2, t6, a7
	srli	a7, s1, 16
	slli	t0, s1, 48
	srli	t2, s2, 16
	slli	t5, s2, 48
	srli	t6, s7, 16
	slli	s3, s7, 48
	or	t1, t3, t1
	xor	a5, t4, a6
	srli	a6, s0, 16
	slli	t3, s0, 48
	srli	t4, a2, 16
	slli	s5, a2, 48
	or	a7, t0, a7
	srli	t0, a4, 16
	slli	s6, a4, 48
	or	t2, t5, t2
	or	t5, s3, t6
	xor	a3, t1, s4
	srli	t1, a5, 16
	slli	t6, a5, 48
	or	a6, t3, a6
	or	t3, s5, t4
	or	t0, s6, t0
	xor	a7, a7, s1
	xor	t2, t2, s2
	xor	t4, t5, s7
	xor	t5, a5, a3
	xor	s3, s0, a3
	xor	s5, a3, s1
	xor	s6, a4, a3
	or	t1, t6, t1
	xor	s11, a6, s0
	xor	s1, t3, a2
	xor	t0, t0, a4
	xor	a6, s6, a7
	xor	a4, t2, s7
	xor	t3, t4, s4
	xor	a5, t1, a5
	xor	s4, s11, a2
	xor	t1, s5, s1
	xor	t6, t0, s2
	xor	s2, t3, t5
	xor	a2, a4, t3
	xor	a7, a4, a7
	xor	t2, t3, t2
	xor	s0, a6, t4
	xor	t4, s3, a5
	xor	a5, a5, a4
	xor	s3, a2, s11
	xor	s1, s2, s1
	xor	a2, a2, t0
	xor	t0, t2, t1
	xor	t2, t6, a3
	srli	s2, s0, 32
	slli	a3, s0, 32
	xor	s5, a4, s0
	xor	s7, a7, t4
	xor	a2, a2, s4
	srli	a7, a5, 32
	slli	a4, a5, 32
	srli	s6, s3, 32
	slli	s0, s3, 32
	srli	s11, s1, 32
	or	s2, a3, s2
	slli	a3, s1, 32
	xor	t5, t5, a5
	srli	a5, t0, 32
	xor	s4, s4, s1
	slli	s1, t0, 32
	or	a7, a4, a7
	srli	a4, t2, 32
	or	s6, s0, s6
	slli	s0, t2, 32
	or	s11, a3, s11
	srli	a3, s7, 32
	or	a5, a5, s1
	slli	s1, s7, 32
	or	ra, s0, a4
	srli	s0, a2, 32
	xor	a4, a6, a2
	slli	a2, a2, 32
	xor	a6, s5, s2
	or	s2, s1, a3
	or	a2, a2, s0
	xor	t5, t5, a7
	xor	a7, s4, s11
	xor	s0, s6, s3
	xor	a5, a5, t6
	srli	t6, a6, 1
	xor	s1, ra, t3
	xor	t3, a4, a2
	srli	a4, t5, 1
	xor	s0, s0, t4
	srli	a2, a7, 1
	xor	a3, s2, t1
	xor	a5, a5, t0
	xor	s1, s1, t6
	xor	a4, a4, s0
	xor	a2, a2, a3
	srli	a3, t3, 1
	xor	s1, s1, t2
	slli	a4, a4, 1
	xor	a2, a2, s7
	xor	a3, a3, a5
	slli	s1, s1, 1
	and	a4, a4, s9
	slli	a2, a2, 1
	slli	a3, a3, 1
	and	a5, s1, s10
	xor	s1, a4, t5
	and	a2, a2, s10
	and	a3, a3, s9
	xor	a5, a5, a6
	xor	a3, a3, t3
	srli	a4, s1, 2
	xor	a2, a2, a7
	xor	a2, a2, a4
	srli	a4, a3, 2
	slli	a2, a2, 2
	xor	a4, a4, a5
	and	a2, a2, s8
	slli	a4, a4, 2
	xor	a2, a2, s1
	and	a4, a4, s8
	xor	a3, a3, a4
	srli	a4, a2, 4
	xor	a4, a4, a3
	and	a1, a1, a4
	slli	a4, a1, 4
	xor	a1, a1, a3
	xor	a2, a2, a4
	srli	a6, a1, 56
	srli	a7, a1, 40
	srli	t0, a1, 24
	srli	t1, a1, 8
	srli	t5, a1, 48
	srli	a3, a1, 32
	srli	a4, a1, 16
	srli	t2, a2, 56
	srli	t3, a2, 40
	srli	t4, a2, 24
	srli	t6, a2, 8
	srli	a5, a2, 48
	srli	s0, a2, 32
	srli	s1, a2, 16
	sb	a1, 4(a0)
	sb	a4, 5(a0)
	sb	a3, 6(a0)
	sb	t5, 7(a0)
	sb	a2, 0(a0)
	sb	s1, 1(a0)
	sb	s0, 2(a0)
	sb	a5, 3(a0)
	sb	t6, 8(a0)
	sb	t4, 9(a0)
	sb	t3, 10(a0)
	sb	t2, 11(a0)
	sb	t1, 12(a0)
	sb	t0, 13(a0)
	sb	a7, 14(a0)
	sb	a6, 15(a0)
	ld	ra, 104(sp)                     # 8-byte Folded Reload
	ld	s0, 96(sp)                      # 8-byte Folded Reload
	ld	s1, 88(sp)                      # 8-byte Folded Reload
	ld	s2, 80(sp)                      # 8-byte Folded Reload
	ld	s3, 72(sp)                      # 8-byte Folded Reload
	ld	s4, 64(sp)                      # 8-byte Folded Reload
	ld	s5, 56(sp)                      # 8-byte Folded Reload
	ld	s6, 48(sp)                      # 8-byte Folded Reload
	ld	s7, 40(sp)                      # 8-byte Folded Reload
	ld	s8, 32(sp)                      # 8-byte Folded Reload
	ld	s9, 24(sp)                      # 8-byte Folded Reload
	ld	s10, 16(sp)                     # 8-byte Folded Reload
	ld	s11, 8(sp)                      # 8-byte Folded Reload
	addi	sp, sp, 112
	ret
.Laes_narrow_func_end31:
	.size	aes_narrow.aes_c.single_rounds.inverse_mixed, .Laes_narrow_func_end31-aes_narrow.aes_c.single_rounds.inverse_mixed
                                        # -- End function
	.section	.rodata.cst8,"aM",@progbits,8
	.p2align	3, 0x0                          # -- Begin function aes_c::single_rounds::inverse_round
.Laes_narrow_CPI32_0:
	.quad	-6148914691236517206            # 0xaaaaaaaaaaaaaaaa
.Laes_narrow_CPI32_1:
	.quad	-3689348814741910324            # 0xcccccccccccccccc
	.section	.text.aes_narrow.aes_c.single_rounds.inverse_round,"ax",@progbits
	.p2align	1
	.type	aes_narrow.aes_c.single_rounds.inverse_round,@function
aes_narrow.aes_c.single_rounds.inverse_round:  # @aes_narrow.aes_c.single_rounds.inverse_round
# %bb.0:                                # %start
	addi	sp, sp, -144
	sd	ra, 136(sp)                     # 8-byte Folded Spill
	sd	s0, 128(sp)                     # 8-byte Folded Spill
	sd	s1, 120(sp)                     # 8-byte Folded Spill
	sd	s2, 112(sp)                     # 8-byte Folded Spill
	sd	s3, 104(sp)                     # 8-byte Folded Spill
	sd	s4, 96(sp)                      # 8-byte Folded Spill
	sd	s5, 88(sp)                      # 8-byte Folded Spill
	sd	s6, 80(sp)                      # 8-byte Folded Spill
	sd	s7, 72(sp)                      # 8-byte Folded Spill
	sd	s8, 64(sp)                      # 8-byte Folded Spill
	sd	s9, 56(sp)                      # 8-byte Folded Spill
	sd	s10, 48(sp)                     # 8-byte Folded Spill
	sd	s11, 40(sp)                     # 8-byte Folded Spill
	sd	a1, 24(sp)                      # 8-byte Folded Spill
	sd	a0, 32(sp)                      # 8-byte Folded Spill
	lbu	a6, 0(a0)
	lbu	t1, 1(a0)
	lbu	a7, 2(a0)
	lbu	t4, 3(a0)
	lbu	t0, 4(a0)
	lbu	s2, 5(a0)
	lbu	t2, 6(a0)
	lbu	s4, 7(a0)
	lbu	t3, 8(a0)
	lbu	t5, 9(a0)
	lbu	t6, 10(a0)
	lbu	s3, 11(a0)
	lbu	s7, 12(a0)
	lbu	s10, 13(a0)
	lbu	s11, 14(a0)
	lbu	ra, 15(a0)
	lui	s5, 16
	lui	s6, 349525
	lui	s8, 209715
	lui	s9, 61681
	lui	s1, 61680
	lui	a3, 139810
	addi	a5, s5, -1
	addi	a4, s6, 1365
	addi	a2, s8, 819
	addi	s6, s9, -241
	slli	s8, s1, 32
	addi	s5, a3, 546
	slli	a3, a4, 32
	slli	s0, a2, 32
	slli	s9, s6, 32
	add	s8, s8, s1
	slli	s1, s5, 32
	add	a3, a3, a4
	add	a2, a2, s0
	add	s6, s6, s9
	add	s1, s1, s5
	sd	s1, 16(sp)                      # 8-byte Folded Spill
	slli	s4, s4, 16
	slli	ra, ra, 24
	slli	s11, s11, 8
	slli	s2, s2, 16
	slli	s10, s10, 24
	slli	s7, s7, 8
	slli	t4, t4, 16
	slli	s3, s3, 24
	slli	t6, t6, 8
	slli	t1, t1, 16
	slli	t5, t5, 24
	slli	t3, t3, 8
	or	s4, ra, s4
	or	s9, t2, s11
	or	t2, s10, s2
	or	s2, t0, s7
	or	t0, s3, t4
	or	t4, a7, t6
	or	a7, t5, t1
	or	s1, a6, t3
	and	a4, s9, a5
	and	s0, s2, a5
	and	a6, t4, a5
	and	a5, a5, s1
	or	a4, a4, s4
	or	s1, s0, t2
	or	s0, a6, t0
	or	a5, a5, a7
	slli	a4, a4, 32
	slli	s1, s1, 32
	slli	s0, s0, 32
	slli	a5, a5, 32
	srli	s1, s1, 32
	srli	a5, a5, 32
	or	a4, a4, s1
	or	a5, a5, s0
	srli	s1, a5, 1
	srli	s0, a4, 1
	xor	s1, s1, a5
	xor	s0, s0, a4
	and	s1, s1, a3
	and	a3, a3, s0
	slli	a6, s1, 1
	xor	s1, s1, a5
	slli	s0, a3, 1
	xor	a3, a3, a4
	xor	a5, a6, a5
	xor	a4, a4, s0
	srli	s0, s1, 2
	srli	a6, a3, 2
	srli	a7, a5, 2
	srli	t0, a4, 2
	xor	s0, s0, s1
	xor	a6, a6, a3
	xor	a7, a7, a5
	xor	t0, t0, a4
	and	s0, s0, a2
	and	a6, a6, a2
	and	a7, a7, a2
	and	a2, t0, a2
	slli	t0, s0, 2
	xor	t1, s0, s1
	slli	t2, a6, 2
	xor	s0, a6, a3
	slli	a6, a7, 2
	xor	a7, a7, a5
	slli	t3, a2, 2
	xor	t4, a2, a4
	xor	t0, t0, s1
	xor	t2, t2, a3
	srli	s1, t1, 4
	xor	a6, a6, a5
	xor	a4, t3, a4
	srli	a5, t0, 4
	srli	a2, a7, 4
	xor	s1, s1, s0
	srli	a3, a6, 4
	xor	a5, a5, t2
	xor	a2, a2, t4
	sd	s6, 8(sp)                       # 8-byte Folded Spill
	and	s1, s1, s6
	xor	a3, a3, a4
	and	a5, a5, s6
	and	a2, a2, s6
	slli	t3, s1, 4
	xor	s4, s1, s0
	and	a3, a3, s6
	slli	t6, a5, 4
	slli	t5, a2, 4
	xor	s7, a2, t4
	xor	s0, t3, t1
	xor	t2, t2, a5
	slli	t1, a3, 4
	xor	a4, a4, a3
	xor	a3, t6, t0
	xor	a5, t5, a7
	not	s1, t2
	not	a7, s7
	xor	a2, t1, a6
	xor	s2, s4, a7
	xor	a6, a5, s1
	xor	s3, a4, a7
	xor	t0, s0, s1
	xor	t3, a3, s7
	xor	t6, a4, s4
	xor	a4, a4, s0
	xor	s9, a3, a5
	not	a5, a2
	xor	a3, a3, a2
	xor	t2, t0, t3
	xor	t1, a6, s4
	xor	t4, t6, a7
	xor	s5, s3, a6
	and	a2, t6, s7
	not	s4, s9
	xor	t0, a3, s2
	xor	s6, t4, s0
	xor	t5, a3, a4
	xor	s7, a4, a5
	xor	s10, a3, s3
	xor	a5, a5, s0
	xor	s11, a2, s4
	and	s0, t0, s5
	and	ra, t5, t2
	or	a2, t5, t2
	and	a3, s7, s3
	xor	t3, a5, t3
	xor	a6, a2, a3
	and	a2, s10, t1
	xor	a2, a2, a5
	xor	a5, a5, s2
	xor	ra, ra, s1
	xor	a7, s10, s1
	xor	s11, s11, a5
	xor	a2, a2, s0
	xor	s0, s11, s0
	and	s1, a7, t3
	xor	s1, ra, s1
	xor	s11, a4, s4
	xor	a1, a5, s9
	and	a1, a1, a4
	and	a0, s6, s11
	xor	a0, a0, a1
	and	a3, a5, s2
	xor	a1, a1, a3
	xor	a6, a6, a0
	xor	s0, s0, a0
	xor	a0, s1, a4
	xor	s1, a2, a1
	xor	a1, a1, a0
	and	a3, s0, a6
	xor	a2, s0, s1
	and	s0, s0, a1
	and	s0, s0, a2
	xor	a0, a1, a3
	and	s9, a0, a2
	xor	a2, a2, a3
	xor	a2, a2, s0
	xor	s0, a1, a6
	and	a0, s1, a6
	and	a6, a0, s0
	xor	a0, a3, s1
	xor	a3, a3, s0
	and	a0, a0, s0
	xor	a3, a3, a6
	xor	s1, s9, s1
	xor	a0, a0, a1
	and	s3, a2, s3
	and	a6, a2, s7
	xor	a1, a2, a3
	and	t6, a3, t6
	and	t4, a3, t4
	and	t3, s1, t3
	xor	a2, a2, s1
	and	a7, s1, a7
	xor	s1, s1, a0
	and	t1, a0, t1
	and	s7, a0, s10
	xor	a0, a0, a3
	lui	a3, 983295
	addi	a3, a3, 15
	slli	a3, a3, 32
	srli	s0, a3, 12
	xor	a3, a5, s4
	and	s9, a1, a5
	xor	t4, t4, a6
	and	s2, a1, s2
	and	t5, a2, t5
	and	s4, s1, a4
	and	a3, a3, s1
	and	a2, a2, t2
	and	a4, a0, s5
	and	t0, a0, t0
	xor	a1, a1, s1
	xor	s1, t6, t1
	xor	t6, s3, s9
	xor	t2, a2, a7
	xor	s3, a3, s3
	xor	a0, a4, a7
	and	a7, a1, s11
	xor	t1, a4, t1
	xor	s4, s4, s7
	and	a1, a1, s6
	xor	s6, s1, s7
	xor	t3, a3, t3
	xor	s5, a2, t4
	xor	a5, t0, s2
	xor	t0, s1, t6
	xor	s1, s3, t5
	xor	a7, a7, a6
	xor	a4, a1, s9
	xor	t6, a1, a2
	xor	t4, a0, t4
	xor	a1, t3, s5
	xor	a2, s6, t5
	xor	t3, a0, s2
	xor	a6, s4, a5
	xor	a5, t0, a5
	xor	a0, a7, s1
	xor	a3, a4, s1
	xor	a2, a2, a4
	xor	s1, t3, s6
	xor	t3, a5, a1
	srli	a5, a6, 8
	xor	t4, t4, a3
	xor	t0, t1, a3
	xor	a7, t2, a3
	xor	t1, a2, a1
	xor	t5, t6, a0
	xor	t2, s1, a0
	xor	a0, a5, a6
	srli	a1, t3, 8
	and	a0, a0, s0
	srli	a5, t5, 8
	srli	s1, t4, 8
	srli	a3, t2, 8
	srli	a2, t0, 8
	srli	a4, t1, 8
	xor	a1, a1, t3
	srli	t6, a7, 8
	slli	s2, a0, 8
	xor	a5, a5, t5
	xor	s1, s1, t4
	xor	a3, a3, t2
	xor	a2, a2, t0
	xor	a4, a4, t1
	and	a1, a1, s0
	xor	t6, t6, a7
	or	a0, s2, a0
	and	a5, a5, s0
	and	s1, s1, s0
	and	a3, a3, s0
	and	a2, a2, s0
	and	a4, a4, s0
	slli	s2, a1, 8
	and	s0, t6, s0
	xor	t6, a0, a6
	slli	a0, a5, 8
	slli	s3, s1, 8
	slli	s4, a3, 8
	slli	s5, a2, 8
	slli	s6, a4, 8
	or	a1, s2, a1
	slli	s2, s0, 8
	or	a0, a0, a5
	or	a5, s3, s1
	or	a3, s4, a3
	or	a2, s5, a2
	or	a4, s6, a4
	xor	s3, a1, t3
	or	s0, s2, s0
	srli	s1, t6, 4
	xor	s2, a0, t5
	xor	s4, a5, t4
	xor	s5, a3, t2
	xor	s6, a2, t0
	xor	s7, a4, t1
	xor	s9, s0, a7
	xor	s1, s1, t6
	srli	a1, s3, 4
	and	a4, s1, s8
	srli	a0, s2, 4
	srli	a5, s4, 4
	srli	a3, s5, 4
	srli	a2, s6, 4
	slli	s1, a4, 4
	or	s10, s1, a4
	srli	s1, s7, 4
	xor	a1, a1, s3
	xor	a0, a0, s2
	xor	a5, a5, s4
	xor	a3, a3, s5
	xor	a2, a2, s6
	xor	s1, s1, s7
	and	a4, a1, s8
	srli	s0, s9, 4
	xor	s0, s0, s9
	and	a0, a0, s8
	and	a5, a5, s8
	and	a3, a3, s8
	and	a2, a2, s8
	and	s1, s1, s8
	and	s0, s0, s8
	xor	t6, s10, t6
	slli	a1, a4, 4
	or	a1, a1, a4
	slli	a4, a0, 4
	or	a0, a0, a4
	slli	a4, a5, 4
	or	a4, a4, a5
	slli	a5, a3, 4
	or	a3, a3, a5
	slli	a5, a2, 4
	or	a2, a2, a5
	slli	a5, s1, 4
	or	a5, a5, s1
	xor	s3, a1, s3
	slli	s1, s0, 4
	or	s0, s0, s1
	xor	a0, a0, s2
	slli	a6, a6, 48
	slli	t3, t3, 48
	slli	t5, t5, 48
	slli	t4, t4, 48
	slli	t2, t2, 48
	slli	t0, t0, 48
	slli	t1, t1, 48
	slli	a7, a7, 48
	xor	a4, a4, s4
	srli	s1, t6, 16
	xor	a3, a3, s5
	xor	a2, a2, s6
	xor	a5, a5, s7
	xor	s0, s0, s9
	or	a6, a6, s1
	srli	a1, s3, 16
	srli	s1, a0, 16
	srli	s2, a4, 16
	srli	s4, a3, 16
	srli	s5, a2, 16
	or	t3, t3, a1
	srli	a1, a5, 16
	or	t5, t5, s1
	srli	s1, s0, 16
	xor	s6, a6, t6
	or	a6, t4, s2
	or	t2, t2, s4
	or	t0, t0, s5
	or	t4, t1, a1
	or	s2, a7, s1
	xor	t1, t3, s3
	xor	a7, a0, s6
	xor	t3, t5, a0
	xor	a1, a6, a4
	xor	t2, t2, a3
	xor	t0, t0, a2
	xor	a0, t4, a5
	xor	s1, s2, s0
	xor	t5, t1, s0
	xor	s7, s1, t6
	xor	a7, a7, s1
	xor	t4, t3, a4
	xor	a3, a3, s1
	xor	a2, t2, a2
	xor	a6, t0, a5
	xor	a5, a0, s3
	xor	a4, a1, t5
	xor	s3, a0, t5
	xor	t6, a3, a1
	xor	s4, a2, s1
	xor	a1, t5, a5
	xor	a3, a5, s6
	xor	a4, a4, s7
	xor	a0, a7, t2
	xor	a2, t4, t0
	xor	s5, a6, s1
	xor	t0, a1, t3
	xor	s2, a0, a5
	xor	a2, a2, a1
	xor	s3, t6, s3
	xor	a0, t1, s4
	srli	a1, a3, 32
	slli	s1, a3, 32
	srli	t1, a4, 32
	slli	s0, a4, 32
	srli	t2, s5, 32
	xor	t3, s7, a3
	slli	a3, s5, 32
	xor	t4, t4, a4
	or	s6, s1, a1
	srli	s1, t0, 32
	slli	a4, t0, 32
	or	s0, s0, t1
	srli	a1, s2, 32
	or	s7, a3, t2
	slli	a3, s2, 32
	or	s8, a4, s1
	srli	s1, a2, 32
	xor	a4, s4, a2
	slli	a2, a2, 32
	or	a1, a1, a3
	srli	a3, s3, 32
	or	a2, a2, s1
	slli	s1, s3, 32
	or	a3, a3, s1
	srli	s1, a0, 32
	xor	a5, a5, a0
	slli	a0, a0, 32
	or	a0, a0, s1
	xor	t2, t3, s6
	xor	t1, t4, s0
	xor	s0, s7, s5
	xor	t4, a4, a2
	xor	t3, a5, a0
	xor	a0, s8, a7
.Laes_narrow_pcrel_hi19:
	auipc	a2, %pcrel_hi(.Laes_narrow_CPI32_0)
	xor	a1, a1, t6
.Laes_narrow_pcrel_hi20:
	auipc	t6, %pcrel_hi(.Laes_narrow_CPI32_1)
	xor	a3, a3, a6
	srli	a4, t2, 1
	xor	s1, s0, t5
	srli	s0, t1, 1
	xor	a0, a0, a4
	xor	a1, a1, s0
	xor	a3, a3, s3
	xor	a0, a0, t0
	ld	a5, 24(sp)                      # 8-byte Folded Reload
	lbu	a7, 0(a5)
	lbu	a6, 1(a5)
	lbu	t0, 2(a5)
	lbu	t5, 3(a5)
	ld	a2, %pcrel_lo(.Laes_narrow_pcrel_hi19)(a2)
	xor	a1, a1, s2
	srli	s0, t4, 1
	xor	a3, a3, s0
	srli	s0, t3, 1
	xor	s0, s0, s1
	slli	a0, a0, 1
	slli	a1, a1, 1
	slli	a3, a3, 1
	slli	s0, s0, 1
	and	a0, a0, a2
	ld	a4, 16(sp)                      # 8-byte Folded Reload
	and	a1, a1, a4
	and	a2, a2, a3
	and	a3, s0, a4
	xor	s5, a0, t2
	lbu	s2, 4(a5)
	lbu	t2, 5(a5)
	lbu	s3, 6(a5)
	lbu	s4, 7(a5)
	ld	s0, %pcrel_lo(.Laes_narrow_pcrel_hi20)(t6)
	xor	a4, a2, t4
	xor	a1, a1, t1
	xor	a3, a3, t3
	srli	a0, s5, 2
	srli	a2, a4, 2
	xor	a0, a0, a1
	xor	a2, a2, a3
	slli	a0, a0, 2
	slli	a2, a2, 2
	and	a0, a0, s0
	and	a2, a2, s0
	lbu	t1, 12(a5)
	lbu	t3, 13(a5)
	lbu	t6, 14(a5)
	lbu	a1, 15(a5)
	mv	s1, a5
	xor	a0, a0, s5
	xor	a2, a2, a4
	srli	a4, a0, 4
	xor	a4, a4, a2
	ld	a3, 8(sp)                       # 8-byte Folded Reload
	and	a4, a4, a3
	slli	s0, a4, 4
	xor	a3, a4, a2
	xor	s0, s0, a0
	srli	s5, a3, 32
	srli	a0, a3, 48
	srli	a2, a3, 56
	xor	t4, a2, a1
	srli	a5, a3, 40
	xor	t6, a5, t6
	srli	a4, a3, 24
	xor	t3, a4, t3
	srli	a1, a3, 8
	xor	t1, a1, t1
	xor	s4, a0, s4
	xor	s3, s5, s3
	lbu	a2, 8(s1)
	lbu	a5, 9(s1)
	lbu	a4, 10(s1)
	lbu	a1, 11(s1)
	xor	s2, a3, s2
	srli	a3, a3, 16
	xor	a3, a3, t2
	srli	a0, s0, 56
	xor	t2, a0, a1
	srli	a1, s0, 40
	xor	s5, a1, a4
	srli	a4, s0, 24
	xor	a4, a4, a5
	srli	a5, s0, 8
	xor	a2, a2, a5
	srli	a5, s0, 48
	xor	a5, a5, t5
	srli	s1, s0, 32
	xor	s1, s1, t0
	xor	a0, s0, a7
	srli	s0, s0, 16
	xor	s0, s0, a6
	ld	a1, 32(sp)                      # 8-byte Folded Reload
	sb	s2, 4(a1)
	sb	a3, 5(a1)
	sb	s3, 6(a1)
	sb	s4, 7(a1)
	sb	a0, 0(a1)
	sb	s0, 1(a1)
	sb	s1, 2(a1)
	sb	a5, 3(a1)
	sb	a2, 8(a1)
	sb	a4, 9(a1)
	sb	s5, 10(a1)
	sb	t2, 11(a1)
	sb	t1, 12(a1)
	sb	t3, 13(a1)
	sb	t6, 14(a1)
	sb	t4, 15(a1)
	ld	ra, 136(sp)                     # 8-byte Folded Reload
	ld	s0, 128(sp)                     # 8-byte Folded Reload
	ld	s1, 120(sp)                     # 8-byte Folded Reload
	ld	s2, 112(sp)                     # 8-byte Folded Reload
	ld	s3, 104(sp)                     # 8-byte Folded Reload
	ld	s4, 96(sp)                      # 8-byte Folded Reload
	ld	s5, 88(sp)                      # 8-byte Folded Reload
	ld	s6, 80(sp)                      # 8-byte Folded Reload
	ld	s7, 72(sp)                      # 8-byte Folded Reload
	ld	s8, 64(sp)                      # 8-byte Folded Reload
	ld	s9, 56(sp)                      # 8-byte Folded Reload
	ld	s10, 48(sp)                     # 8-byte Folded Reload
	ld	s11, 40(sp)                     # 8-byte Folded Reload
	addi	sp, sp, 144
	ret
.Laes_narrow_func_end32:
	.size	aes_narrow.aes_c.single_rounds.inverse_round, .Laes_narrow_func_end32-aes_narrow.aes_c.single_rounds.inverse_round
                                        # -- End function
	.section	.text.aes_narrow.aes_c.single_rounds.inverse_rounds,"ax",@progbits
	.p2align	1                               # -- Begin function aes_c::single_rounds::inverse_rounds
	.type	aes_narrow.aes_c.single_rounds.inverse_rounds,@function
aes_narrow.aes_c.single_rounds.inverse_rounds: # @aes_narrow.aes_c.single_rounds.inverse_rounds
# %bb.0:                                # %start
	addi	sp, sp, -272
	sd	ra, 264(sp)                     # 8-byte Folded Spill
	sd	s0, 256(sp)                     # 8-byte Folded Spill
	sd	s1, 248(sp)                     # 8-byte Folded Spill
	sd	s2, 240(sp)                     # 8-byte Folded Spill
	sd	s3, 232(sp)                     # 8-byte Folded Spill
	sd	s4, 224(sp)                     # 8-byte Folded Spill
	sd	s5, 216(sp)                     # 8-byte Folded Spill
	sd	s6, 208(sp)                     # 8-byte Folded Spill
	sd	s7, 200(sp)                     # 8-byte Folded Spill
	sd	s8, 192(sp)                     # 8-byte Folded Spill
	sd	s9, 184(sp)                     # 8-byte Folded Spill
	sd	s10, 176(sp)                    # 8-byte Folded Spill
	sd	s11, 168(sp)                    # 8-byte Folded Spill
	sd	a1, 0(sp)                       # 8-byte Folded Spill
	sd	a0, 24(sp)                      # 8-byte Folded Spill
	li	a4, 0
	lui	a0, 349525
	lui	a5, 209715
	lui	a2, 61681
	lui	a3, 61680
	li	a1, 1
	addi	a0, a0, 1365
	addi	s1, a5, 819
	addi	a2, a2, -241
	slli	a5, a3, 32
	add	a3, a3, a5
	sd	a3, 16(sp)                      # 8-byte Folded Spill
	slli	a3, a0, 32
	add	a0, a0, a3
	sd	a0, 160(sp)                     # 8-byte Folded Spill
	slli	a0, s1, 32
	add	a0, a0, s1
	sd	a0, 152(sp)                     # 8-byte Folded Spill
	slli	a0, a2, 32
	add	a0, a0, a2
	sd	a0, 144(sp)                     # 8-byte Folded Spill
	lui	a0, 983295
	addi	a0, a0, 15
	slli	a0, a0, 32
	srli	a0, a0, 12
	sd	a0, 8(sp)                       # 8-byte Folded Spill
.Laes_narrow_BB33_1:                               # %join.5.i.i
                                        # =>This Inner Loop Header: Depth=1
	sd	a1, 136(sp)                     # 8-byte Folded Spill
	ld	a0, 24(sp)                      # 8-byte Folded Reload
	add	a4, a4, a0
	lbu	s6, 0(a4)
	lbu	s5, 1(a4)
	lbu	s4, 2(a4)
	lbu	t6, 3(a4)
	lbu	s2, 4(a4)
	lbu	s0, 5(a4)
	lbu	a7, 6(a4)
	lbu	t1, 7(a4)
	lbu	s8, 8(a4)
	lbu	a5, 9(a4)
	lbu	s3, 10(a4)
	lbu	a0, 11(a4)
	lbu	s1, 12(a4)
	lbu	a3, 13(a4)
	lbu	t2, 14(a4)
	lbu	a2, 15(a4)
	lbu	s7, 16(a4)
	lbu	s11, 17(a4)
	lbu	a6, 18(a4)
	lbu	s10, 19(a4)
	lbu	ra, 20(a4)
	lbu	t0, 21(a4)
	lbu	s9, 22(a4)
	lbu	a1, 23(a4)
	slli	t1, t1, 16
	slli	a2, a2, 24
	slli	t2, t2, 8
	or	a2, a2, t1
	sd	a2, 128(sp)                     # 8-byte Folded Spill
	or	a2, a7, t2
	sd	a2, 120(sp)                     # 8-byte Folded Spill
	lbu	a2, 24(a4)
	lbu	a7, 25(a4)
	lbu	t1, 26(a4)
	lbu	t2, 27(a4)
	slli	s0, s0, 16
	slli	a3, a3, 24
	slli	s1, s1, 8
	slli	t6, t6, 16
	slli	a0, a0, 24
	slli	s3, s3, 8
	or	a3, a3, s0
	sd	a3, 112(sp)                     # 8-byte Folded Spill
	or	t3, s2, s1
	or	a0, a0, t6
	sd	a0, 104(sp)                     # 8-byte Folded Spill
	or	a0, s4, s3
	sd	a0, 96(sp)                      # 8-byte Folded Spill
	lbu	a0, 28(a4)
	lbu	a3, 29(a4)
	lbu	s1, 30(a4)
	lbu	s0, 31(a4)
	slli	s5, s5, 16
	slli	a5, a5, 24
	slli	s8, s8, 8
	slli	a1, a1, 16
	slli	s0, s0, 24
	slli	s1, s1, 8
	or	a5, a5, s5
	sd	a5, 88(sp)                      # 8-byte Folded Spill
	or	t5, s6, s8
	or	a1, a1, s0
	sd	a1, 80(sp)                      # 8-byte Folded Spill
	or	a1, s9, s1
	sd	a1, 72(sp)                      # 8-byte Folded Spill
	lbu	t6, 36(a4)
	lbu	s3, 37(a4)
	lbu	s0, 38(a4)
	lbu	s1, 39(a4)
	slli	t0, t0, 16
	slli	a3, a3, 24
	slli	a0, a0, 8
	slli	a1, s10, 16
	slli	t2, t2, 24
	slli	a5, t1, 8
	or	a3, a3, t0
	sd	a3, 64(sp)                      # 8-byte Folded Spill
	or	s10, ra, a0
	or	a0, t2, a1
	sd	a0, 56(sp)                      # 8-byte Folded Spill
	or	s9, a6, a5
	lbu	a6, 44(a4)
	lbu	a1, 45(a4)
	lbu	a3, 46(a4)
	lbu	a5, 47(a4)
	slli	s11, s11, 16
	slli	a7, a7, 24
	slli	a2, a2, 8
	slli	a0, s1, 16
	slli	a5, a5, 24
	slli	a3, a3, 8
	or	s1, a7, s11
	sd	s1, 48(sp)                      # 8-byte Folded Spill
	or	s6, s7, a2
	or	a0, a0, a5
	sd	a0, 40(sp)                      # 8-byte Folded Spill
	or	s5, s0, a3
	lbu	t0, 32(a4)
	lbu	a2, 33(a4)
	lbu	a3, 34(a4)
	lbu	a5, 35(a4)
	slli	s3, s3, 16
	slli	a1, a1, 24
	or	a0, a1, s3
	sd	a0, 32(sp)                      # 8-byte Folded Spill
	lbu	a1, 43(a4)
	slli	a6, a6, 8
	or	s2, t6, a6
	lbu	a0, 42(a4)
	slli	a5, a5, 16
	slli	a1, a1, 24
	or	ra, a1, a5
	lbu	a1, 41(a4)
	slli	a0, a0, 8
	or	s1, a3, a0
	lbu	a0, 40(a4)
	slli	a2, a2, 16
	slli	a1, a1, 24
	or	s11, a1, a2
	lbu	a1, 55(a4)
	lbu	a2, 63(a4)
	slli	a0, a0, 8
	or	t6, t0, a0
	slli	a1, a1, 16
	slli	a2, a2, 24
	or	s8, a2, a1
	lbu	a0, 62(a4)
	lbu	a1, 54(a4)
	lbu	a2, 53(a4)
	lbu	a3, 61(a4)
	slli	a0, a0, 8
	or	t4, a1, a0
	slli	a2, a2, 16
	slli	a0, a3, 24
	or	s7, a0, a2
	lbu	a2, 60(a4)
	lbu	a3, 52(a4)
	lbu	a0, 51(a4)
	lbu	a1, 59(a4)
	slli	a2, a2, 8
	or	t2, a3, a2
	slli	a0, a0, 16
	slli	a1, a1, 24
	lbu	a3, 58(a4)
	lbu	a2, 50(a4)
	or	s4, a1, a0
	lbu	a1, 49(a4)
	slli	a3, a3, 8
	or	t0, a2, a3
	lbu	a3, 57(a4)
	slli	a1, a1, 16
	lbu	a0, 56(a4)
	lbu	a2, 48(a4)
	slli	a3, a3, 24
	or	s3, a3, a1
	slli	a0, a0, 8
	or	a3, a2, a0
	lui	a2, 16
	addi	a2, a2, -1
	ld	a0, 120(sp)                     # 8-byte Folded Reload
	and	a7, a0, a2
	and	t1, t3, a2
	ld	a0, 96(sp)                      # 8-byte Folded Reload
	and	t3, a0, a2
	and	t5, t5, a2
	ld	a0, 72(sp)                      # 8-byte Folded Reload
	and	a6, a0, a2
	and	s10, s10, a2
	and	s9, s9, a2
	and	s6, s6, a2
	and	s5, s5, a2
	and	s2, s2, a2
	and	s1, s1, a2
	and	t6, t6, a2
	and	t4, t4, a2
	and	t2, t2, a2
	and	t0, t0, a2
	and	a2, a2, a3
	ld	a3, 128(sp)                     # 8-byte Folded Reload
	or	a3, a7, a3
	ld	a0, 112(sp)                     # 8-byte Folded Reload
	or	a0, t1, a0
	ld	a1, 104(sp)                     # 8-byte Folded Reload
	or	a1, t3, a1
	ld	a5, 88(sp)                      # 8-byte Folded Reload
	or	a5, t5, a5
	ld	s0, 80(sp)                      # 8-byte Folded Reload
	or	a6, a6, s0
	ld	s0, 64(sp)                      # 8-byte Folded Reload
	or	a7, s10, s0
	ld	s0, 56(sp)                      # 8-byte Folded Reload
	or	s9, s9, s0
	ld	s0, 48(sp)                      # 8-byte Folded Reload
	or	s6, s6, s0
	ld	s0, 40(sp)                      # 8-byte Folded Reload
	or	s5, s5, s0
	ld	s0, 32(sp)                      # 8-byte Folded Reload
	or	s2, s2, s0
	or	s1, s1, ra
	or	t6, t6, s11
	or	s0, t4, s8
	or	t2, t2, s7
	or	t0, t0, s4
	or	a2, a2, s3
	slli	t1, a3, 32
	slli	a0, a0, 32
	slli	t3, a1, 32
	slli	a5, a5, 32
	slli	a6, a6, 32
	slli	a7, a7, 32
	slli	s9, s9, 32
	slli	s6, s6, 32
	slli	s5, s5, 32
	slli	s2, s2, 32
	slli	t4, s1, 32
	slli	t6, t6, 32
	slli	t5, s0, 32
	slli	t2, t2, 32
	slli	t0, t0, 32
	slli	a2, a2, 32
	srli	a0, a0, 32
	srli	a5, a5, 32
	srli	a3, a7, 32
	srli	a1, s6, 32
	srli	s1, s2, 32
	srli	s0, t6, 32
	srli	a7, t2, 32
	srli	a2, a2, 32
	or	t1, a0, t1
	or	t2, a5, t3
	or	t6, a3, a6
	or	a1, a1, s9
	or	a6, s1, s5
	or	t3, s0, t4
	or	t4, a7, t5
	or	a2, a2, t0
	srli	a7, t2, 1
	srli	s0, t3, 1
	srli	a5, t1, 1
	srli	s1, a6, 1
	xor	a3, a1, a7
	xor	s0, s0, a2
	xor	a5, t6, a5
	xor	s1, t4, s1
	ld	a0, 160(sp)                     # 8-byte Folded Reload
	and	a3, a3, a0
	and	s0, s0, a0
	and	a5, a5, a0
	and	s1, s1, a0
	slli	a0, a3, 1
	xor	a7, a3, a1
	slli	a1, s0, 1
	xor	s2, s0, a2
	slli	a2, a5, 1
	xor	t5, a5, t6
	slli	a3, s1, 1
	xor	s1, s1, t4
	xor	t0, a0, t2
	xor	t2, a1, t3
	xor	t1, a2, t1
	xor	a2, a3, a6
	srli	a3, a7, 2
	srli	a5, t5, 2
	srli	a1, t0, 2
	srli	s0, t1, 2
	xor	a3, s2, a3
	xor	a5, a5, s1
	xor	a1, t2, a1
	xor	s0, s0, a2
	ld	a0, 152(sp)                     # 8-byte Folded Reload
	and	a3, a3, a0
	and	a5, a5, a0
	and	a1, a1, a0
	and	s0, s0, a0
	slli	a0, a3, 2
	xor	a6, a3, s2
	slli	a3, a5, 2
	xor	t6, a5, s1
	slli	t3, a1, 2
	xor	t2, a1, t2
	slli	s1, s0, 2
	xor	s2, s0, a2
	xor	a7, a0, a7
	xor	t4, a3, t5
	srli	s0, a6, 4
	xor	t0, t3, t0
	xor	s1, s1, t1
	srli	a0, a7, 4
	srli	a3, t2, 4
	xor	s0, s0, t6
	srli	a1, t0, 4
	xor	a0, a0, t4
	xor	a3, a3, s2
	ld	a5, 144(sp)                     # 8-byte Folded Reload
	and	s0, s0, a5
	xor	a1, a1, s1
	and	a0, a0, a5
	and	a3, a3, a5
	slli	a2, s0, 4
	xor	s0, s0, t6
	and	a1, a1, a5
	slli	t3, a0, 4
	slli	t1, a3, 4
	xor	a3, a3, s2
	xor	a2, a2, a6
	xor	a0, t4, a0
	slli	a5, a1, 4
	xor	a1, a1, s1
	xor	s1, t3, a7
	xor	a6, t1, t2
	not	t3, a0
	not	a7, a3
	xor	a5, a5, t0
	xor	t6, s0, a7
	xor	a0, a6, t3
	xor	t0, a1, a7
	xor	t1, a2, t3
	xor	t2, s1, a3
	xor	s7, a1, s0
	xor	s9, a1, a2
	xor	s10, s1, a6
	not	a1, a5
	xor	a5, a5, s1
	xor	s5, t1, t2
	xor	s4, a0, s0
	xor	s6, s7, a7
	xor	s2, t0, a0
	and	a0, s7, a3
	not	a6, s10
	xor	s3, a5, t6
	xor	t4, s6, a2
	xor	a7, a5, s9
	xor	t5, s9, a6
	xor	s8, s9, a1
	xor	s11, a5, t0
	xor	a1, a1, a2
	xor	a2, a0, a6
	and	a5, s3, s2
	and	s0, a7, s5
	or	a0, a7, s5
	and	ra, t4, t5
	and	a3, s8, t0
	xor	t1, a1, t2
	and	s1, s11, s4
	xor	a3, a3, a0
	xor	a0, a1, t6
	xor	a1, a1, s1
	xor	t2, s11, t3
	xor	s1, s0, t3
	and	t3, a0, t6
	xor	s0, a0, s10
	xor	a2, a2, a0
	xor	s10, a1, a5
	xor	a2, a2, a5
	and	a5, t2, t1
	and	s0, s0, s9
	xor	a5, a5, s1
	xor	s1, s0, ra
	xor	s0, s0, t3
	xor	a5, a5, s9
	xor	a3, a3, s1
	xor	t3, s10, s0
	xor	a2, a2, s1
	xor	a5, a5, s0
	and	a1, a2, a3
	xor	s0, a2, t3
	xor	s1, a5, a3
	and	a2, a2, a5
	and	s10, t3, a3
	and	a2, a2, s0
	xor	a3, a5, a1
	and	ra, a3, s0
	xor	s0, s0, a1
	xor	a2, a2, s0
	xor	s0, a1, t3
	and	a3, s10, s1
	xor	a1, a1, s1
	and	s0, s0, s1
	xor	a3, a3, a1
	xor	a1, ra, t3
	xor	a5, a5, s0
	and	s10, a2, t0
	and	t3, a2, s8
	xor	s0, a3, a2
	and	s7, a3, s7
	and	t0, a3, s6
	and	t1, a1, t1
	xor	a2, a2, a1
	and	t2, a1, t2
	xor	a1, a1, a5
	and	s4, a5, s4
	and	s6, a5, s11
	xor	a3, a3, a5
	and	a7, a2, a7
	and	s8, a2, s5
	and	s5, a3, s2
	and	s2, a3, s3
	xor	a6, a0, a6
	and	s3, s0, a0
	and	s11, s0, t6
	and	a0, a1, s9
	and	a2, a1, a6
	xor	a1, a1, s0
	and	t5, a1, t5
	and	s9, a1, t4
	xor	s1, s7, s4
	xor	a6, a2, t1
	xor	t4, a2, s10
	xor	s0, s10, s3
	xor	t1, a0, s6
	xor	a0, s1, s6
	xor	t6, s1, s0
	xor	s0, t0, t3
	xor	t0, s5, s4
	xor	a2, s5, t2
	xor	t2, s8, t2
	xor	t3, t5, t3
	xor	s1, s8, s0
	xor	a3, s2, s11
	xor	a5, t4, a7
	xor	a1, s9, s3
	xor	t4, s9, s8
	xor	t5, a2, s0
	xor	s1, a6, s1
	xor	s0, a0, a7
	xor	a6, a2, s11
	xor	t1, t1, a3
	xor	a3, t6, a3
	xor	a2, t3, a5
	xor	a5, a5, a1
	xor	s0, s0, a1
	xor	a1, a6, a0
	xor	t6, a3, s1
	srli	a3, t1, 8
	xor	t3, t5, a5
	xor	a7, t0, a5
	xor	a6, t2, a5
	xor	t0, s0, s1
	xor	t4, t4, a2
	xor	t2, a1, a2
	xor	a0, a3, t1
	srli	a5, t6, 8
	ld	a1, 8(sp)                       # 8-byte Folded Reload
	and	a2, a0, a1
	srli	a3, t4, 8
	srli	s0, t3, 8
	srli	s1, t2, 8
	srli	t5, a7, 8
	srli	s3, t0, 8
	xor	s2, a5, t6
	srli	s4, a6, 8
	slli	s5, a2, 8
	xor	a3, a3, t4
	xor	s0, s0, t3
	xor	s1, s1, t2
	xor	a5, t5, a7
	xor	t5, s3, t0
	and	a0, s2, a1
	xor	s2, s4, a6
	add	s3, s5, a2
	and	a2, a3, a1
	and	a3, s0, a1
	and	s1, s1, a1
	and	a5, a5, a1
	and	s0, t5, a1
	slli	t5, a0, 8
	and	a1, s2, a1
	xor	t1, s3, t1
	slli	s2, a2, 8
	add	t5, t5, a0
	slli	a0, a3, 8
	add	s2, s2, a2
	slli	a2, s1, 8
	add	a3, a3, a0
	slli	a0, a5, 8
	add	s1, s1, a2
	slli	a2, s0, 8
	add	a0, a0, a5
	slli	a5, a1, 8
	add	s0, s0, a2
	xor	t5, t5, t6
	add	a1, a1, a5
	srli	a5, t1, 4
	xor	t4, s2, t4
	xor	t3, a3, t3
	xor	t2, s1, t2
	xor	a7, a0, a7
	xor	t0, s0, t0
	xor	a6, a1, a6
	xor	a2, a5, t1
	srli	a1, t5, 4
	ld	a0, 16(sp)                      # 8-byte Folded Reload
	and	a2, a2, a0
	srli	a5, t4, 4
	srli	s0, t3, 4
	srli	s1, t2, 4
	srli	a3, a7, 4
	srli	s2, t0, 4
	xor	t6, a1, t5
	srli	s3, a6, 4
	slli	s4, a2, 4
	xor	a5, a5, t4
	xor	s0, s0, t3
	xor	s1, s1, t2
	xor	a3, a3, a7
	xor	s2, s2, t0
	and	a1, t6, a0
	xor	t6, s3, a6
	add	s3, s4, a2
	and	a2, a5, a0
	and	a5, s0, a0
	and	s1, s1, a0
	and	a3, a3, a0
	and	s0, s2, a0
	slli	s2, a1, 4
	and	a0, t6, a0
	xor	t1, s3, t1
	slli	t6, a2, 4
	add	s2, s2, a1
	slli	a1, a5, 4
	add	t6, t6, a2
	slli	a2, s1, 4
	add	s3, a1, a5
	slli	a5, a3, 4
	add	a2, a2, s1
	slli	s1, s0, 4
	add	a3, a3, a5
	slli	a5, a0, 4
	add	s0, s0, s1
	xor	t5, s2, t5
	add	a0, a0, a5
	srli	a1, t1, 16
	slli	a5, t1, 48
	xor	s1, t6, t4
	xor	t4, s3, t3
	xor	t6, a2, t2
	xor	t3, a3, a7
	xor	t0, s0, t0
	xor	a7, a0, a6
	or	a6, a5, a1
	srli	s2, t5, 16
	slli	a5, t5, 48
	srli	s0, s1, 16
	slli	a1, s1, 48
	srli	a2, t4, 16
	slli	a3, t4, 48
	srli	t2, t6, 16
	slli	a0, t6, 48
	or	s2, a5, s2
	srli	a5, t3, 16
	or	s3, a1, s0
	slli	s0, t3, 48
	or	a2, a2, a3
	srli	a3, t0, 16
	or	a0, a0, t2
	slli	a1, t0, 48
	or	a5, a5, s0
	srli	s0, a7, 16
	or	a1, a1, a3
	slli	a3, a7, 48
	xor	s4, a6, t1
	or	a3, a3, s0
	xor	s2, s2, t5
	xor	s0, s1, s4
	xor	s3, s3, s1
	xor	a2, a2, t4
	xor	s7, a0, t6
	xor	a5, a5, t3
	xor	a1, a1, t0
	xor	s1, a3, a7
	xor	s6, s2, a7
	xor	s5, s1, t1
	xor	a7, s0, s1
	xor	t2, s3, t4
	xor	s0, s1, t6
	xor	a3, s7, t3
	xor	a6, a5, t0
	xor	t3, a1, t5
	xor	a0, a2, s6
	xor	t5, s6, a1
	xor	t1, s0, a2
	xor	t0, a3, s1
	xor	a2, s6, t3
	xor	a3, t3, s4
	xor	a1, s5, a0
	xor	s0, a7, s7
	xor	a5, t2, a5
	xor	s1, a6, s1
	xor	t4, a2, s3
	xor	s4, s0, t3
	xor	a5, a5, a2
	xor	s7, t5, t1
	xor	s2, t0, s2
	srli	t5, a3, 32
	xor	t6, s5, a3
	slli	a3, a3, 32
	or	t5, a3, t5
	srli	a0, a1, 32
	xor	t2, t2, a1
	slli	a1, a1, 32
	or	s3, a1, a0
	srli	a1, s1, 32
	xor	s5, s6, s1
	slli	s1, s1, 32
	or	s6, s1, a1
	srli	s1, t4, 32
	xor	a7, a7, t4
	slli	t4, t4, 32
	or	t4, t4, s1
	srli	s0, s4, 32
	xor	t1, t1, s4
	slli	s4, s4, 32
	or	s4, s4, s0
	srli	a2, a5, 32
	xor	t0, t0, a5
	slli	a5, a5, 32
	or	s8, a5, a2
	srli	a5, s7, 32
	xor	s9, a6, s7
	slli	s7, s7, 32
	or	a1, s7, a5
	srli	s1, s2, 32
	xor	a3, t3, s2
	slli	s2, s2, 32
	or	s1, s2, s1
	xor	s0, t6, t5
	xor	a5, t2, s3
	xor	a6, s5, s6
	xor	a2, a7, t4
	xor	a0, t1, s4
	xor	a7, t0, s8
	xor	t0, s9, a1
	xor	t2, a3, s1
	srli	s1, s0, 1
	srli	a1, a5, 1
	xor	s1, s1, a2
	xor	a1, a1, a0
	ld	a3, 160(sp)                     # 8-byte Folded Reload
	and	s1, s1, a3
	xor	t3, s1, a2
	slli	s1, s1, 1
	xor	t1, s1, s0
	srli	s1, a7, 1
	and	a1, a1, a3
	xor	a0, a0, a1
	slli	a1, a1, 1
	xor	s0, a1, a5
	srli	a1, t2, 1
	xor	s1, s1, t0
	xor	a1, a1, a6
	and	s1, s1, a3
	and	a1, a1, a3
	xor	t5, s1, t0
	slli	s1, s1, 1
	xor	a3, a1, a6
	slli	a1, a1, 1
	xor	a7, s1, a7
	srli	a2, t3, 2
	xor	a1, a1, t2
	srli	s1, t1, 2
	xor	a2, a2, a0
	ld	a5, 152(sp)                     # 8-byte Folded Reload
	and	a2, a2, a5
	xor	t2, a2, a0
	slli	a2, a2, 2
	xor	t0, a2, t3
	srli	a2, t5, 2
	xor	s1, s1, s0
	and	s1, s1, a5
	xor	a6, s1, s0
	slli	s1, s1, 2
	xor	t4, s1, t1
	srli	a0, a7, 2
	xor	a2, a2, a3
	xor	a0, a0, a1
	and	a2, a2, a5
	and	a5, a5, a0
	xor	a3, a3, a2
	slli	a2, a2, 2
	xor	a2, a2, t5
	srli	a0, t2, 4
	xor	a1, a1, a5
	slli	a5, a5, 2
	xor	t6, a5, a7
	srli	a5, t0, 4
	xor	a0, a0, a3
	ld	s1, 144(sp)                     # 8-byte Folded Reload
	and	a0, a0, s1
	xor	s0, a0, a3
	slli	a0, a0, 4
	xor	a7, a0, t2
	srli	a0, a6, 4
	xor	a5, a5, a2
	xor	a0, a0, a1
	and	a3, a5, s1
	and	a0, a0, s1
	xor	a5, a3, a2
	slli	a3, a3, 4
	xor	t1, a0, a1
	slli	a1, a0, 4
	xor	t5, a3, t0
	srli	a0, s0, 32
	xor	a3, a1, a6
	srli	a1, s0, 16
	sb	a1, 53(a4)
	srli	a1, s0, 48
	sb	a0, 54(a4)
	srli	a0, s0, 24
	sb	s0, 52(a4)
	sb	a1, 55(a4)
	srli	a1, s0, 8
	sb	a1, 60(a4)
	srli	a1, s0, 40
	sb	a0, 61(a4)
	srli	a0, t4, 4
	xor	a0, t6, a0
	and	a2, a0, s1
	srli	s0, s0, 56
	xor	a0, a2, t6
	slli	a2, a2, 4
	sb	a1, 62(a4)
	srli	a1, a5, 24
	sb	s0, 63(a4)
	srli	s1, a5, 32
	xor	s0, a2, t4
	srli	a2, a5, 16
	sb	a2, 21(a4)
	srli	a2, a5, 8
	sb	a2, 28(a4)
	srli	a2, a5, 40
	sb	a1, 29(a4)
	srli	a1, a5, 48
	sb	s1, 22(a4)
	sb	a1, 23(a4)
	sb	a5, 20(a4)
	srli	a5, a5, 56
	sb	a2, 30(a4)
	srli	a1, t1, 32
	sb	a5, 31(a4)
	srli	a2, t1, 16
	sb	a2, 37(a4)
	srli	a2, t1, 48
	sb	a1, 38(a4)
	srli	a1, t1, 24
	sb	t1, 36(a4)
	sb	a2, 39(a4)
	srli	a2, t1, 8
	sb	a2, 44(a4)
	srli	a2, t1, 56
	srli	a5, t1, 40
	sb	a1, 45(a4)
	srli	a1, a7, 24
	sb	a5, 46(a4)
	srli	a5, a7, 32
	sb	a2, 47(a4)
	srli	a2, a7, 16
	sb	a2, 49(a4)
	srli	a2, a7, 8
	sb	a2, 56(a4)
	srli	a2, a7, 40
	sb	a1, 57(a4)
	srli	a1, a7, 48
	sb	a5, 50(a4)
	sb	a1, 51(a4)
	sb	a7, 48(a4)
	srli	a1, a7, 56
	sb	a2, 58(a4)
	srli	a2, a0, 32
	sb	a1, 59(a4)
	srli	a1, a0, 16
	sb	a1, 5(a4)
	srli	a1, a0, 48
	sb	a2, 6(a4)
	srli	a2, a0, 24
	sb	a0, 4(a4)
	sb	a1, 7(a4)
	srli	a1, a0, 8
	sb	a1, 12(a4)
	srli	a1, a0, 56
	srli	a0, a0, 40
	sb	a2, 13(a4)
	srli	a2, t5, 24
	sb	a0, 14(a4)
	srli	a0, t5, 32
	sb	a1, 15(a4)
	srli	a1, t5, 16
	sb	a1, 17(a4)
	srli	a1, t5, 8
	sb	a1, 24(a4)
	srli	a1, t5, 40
	sb	a2, 25(a4)
	srli	a2, t5, 48
	sb	a0, 18(a4)
	sb	a2, 19(a4)
	sb	t5, 16(a4)
	srli	a0, t5, 56
	sb	a1, 26(a4)
	srli	a1, a3, 32
	sb	a0, 27(a4)
	srli	a0, a3, 16
	sb	a0, 33(a4)
	srli	a0, a3, 48
	sb	a1, 34(a4)
	srli	a1, a3, 24
	sb	a3, 32(a4)
	sb	a0, 35(a4)
	srli	a0, a3, 8
	sb	a0, 40(a4)
	srli	a0, a3, 56
	srli	a3, a3, 40
	sb	a1, 41(a4)
	srli	a1, s0, 24
	sb	a3, 42(a4)
	srli	a2, s0, 32
	sb	a0, 43(a4)
	srli	a0, s0, 16
	sb	a0, 1(a4)
	srli	a0, s0, 8
	sb	a0, 8(a4)
	srli	a0, s0, 40
	sb	a1, 9(a4)
	srli	a1, s0, 48
	sb	a2, 2(a4)
	sb	a1, 3(a4)
	sb	s0, 0(a4)
	srli	s0, s0, 56
	sb	a0, 10(a4)
	ld	a0, 136(sp)                     # 8-byte Folded Reload
	andi	a0, a0, 1
	sb	s0, 11(a4)
	li	a4, 64
	li	a1, 0
	bnez	a0, .Laes_narrow_BB33_1
# %bb.2:                                # %join.5.i2.i.preheader
	ld	a0, 24(sp)                      # 8-byte Folded Reload
	addi	a2, a0, 7
	ld	a1, 0(sp)                       # 8-byte Folded Reload
	addi	a1, a1, 7
	addi	a6, a0, 135
.Laes_narrow_BB33_3:                               # %join.5.i2.i
                                        # =>This Inner Loop Header: Depth=1
	lbu	a7, -3(a2)
	lbu	t0, -2(a2)
	lbu	t1, -1(a2)
	lbu	t2, 0(a2)
	lbu	t3, 1(a2)
	lbu	t4, 2(a2)
	lbu	t5, 3(a2)
	lbu	t6, 4(a2)
	lbu	s2, 5(a2)
	lbu	s3, 6(a2)
	lbu	s4, 7(a2)
	lbu	s5, 8(a2)
	lbu	a3, 5(a1)
	lbu	a4, 6(a1)
	lbu	a5, 7(a1)
	lbu	s1, 8(a1)
	lbu	s6, 1(a1)
	lbu	s7, 2(a1)
	lbu	s0, 3(a1)
	lbu	a0, 4(a1)
	xor	s5, s1, s5
	xor	s4, a5, s4
	xor	s3, a4, s3
	xor	s2, a3, s2
	lbu	s8, -3(a1)
	lbu	a5, -2(a1)
	lbu	a4, -1(a1)
	lbu	a3, 0(a1)
	xor	t6, a0, t6
	xor	t5, s0, t5
	xor	t4, s7, t4
	xor	t3, s6, t3
	lbu	s6, -7(a2)
	lbu	s7, -6(a2)
	lbu	a0, -5(a2)
	lbu	s1, -4(a2)
	xor	t2, a3, t2
	xor	t1, a4, t1
	xor	t0, a5, t0
	xor	a7, s8, a7
	lbu	a4, -4(a1)
	lbu	a5, -5(a1)
	lbu	a3, -6(a1)
	lbu	s0, -7(a1)
	xor	a4, a4, s1
	xor	a0, a0, a5
	xor	a3, a3, s7
	xor	a5, s0, s6
	sb	a5, -7(a2)
	sb	a3, -6(a2)
	sb	a0, -5(a2)
	sb	a4, -4(a2)
	sb	a7, -3(a2)
	sb	t0, -2(a2)
	sb	t1, -1(a2)
	sb	t2, 0(a2)
	sb	t3, 1(a2)
	sb	t4, 2(a2)
	sb	t5, 3(a2)
	sb	t6, 4(a2)
	sb	s2, 5(a2)
	sb	s3, 6(a2)
	sb	s4, 7(a2)
	sb	s5, 8(a2)
	addi	a2, a2, 16
	addi	a1, a1, 16
	bne	a2, a6, .Laes_narrow_BB33_3
# %bb.4:                                # %"aes_soft::soft::hazmat::par::equiv_inv_cipher_round_par::<#cf21cbf2af48237e>.exit"
	ld	ra, 264(sp)                     # 8-byte Folded Reload
	ld	s0, 256(sp)                     # 8-byte Folded Reload
	ld	s1, 248(sp)                     # 8-byte Folded Reload
	ld	s2, 240(sp)                     # 8-byte Folded Reload
	ld	s3, 232(sp)                     # 8-byte Folded Reload
	ld	s4, 224(sp)                     # 8-byte Folded Reload
	ld	s5, 216(sp)                     # 8-byte Folded Reload
	ld	s6, 208(sp)                     # 8-byte Folded Reload
	ld	s7, 200(sp)                     # 8-byte Folded Reload
	ld	s8, 192(sp)                     # 8-byte Folded Reload
	ld	s9, 184(sp)                     # 8-byte Folded Reload
	ld	s10, 176(sp)                    # 8-byte Folded Reload
	ld	s11, 168(sp)                    # 8-byte Folded Reload
	addi	sp, sp, 272
	ret
.Laes_narrow_func_end33:
	.size	aes_narrow.aes_c.single_rounds.inverse_rounds, .Laes_narrow_func_end33-aes_narrow.aes_c.single_rounds.inverse_rounds
                                        # -- End function
	.section	.text.aes_narrow.cmac.pieces.Message.is_tag_so_far,"ax",@progbits
	.p2align	1                               # -- Begin function cmac::pieces::Message::is_tag_so_far::<#f7269deedbd939eb>
	.type	aes_narrow.cmac.pieces.Message.is_tag_so_far,@function
aes_narrow.cmac.pieces.Message.is_tag_so_far: # @aes_narrow.cmac.pieces.Message.is_tag_so_far
# %bb.0:                                # %start
	addi	sp, sp, -80
	sd	ra, 72(sp)                      # 8-byte Folded Spill
	sd	s0, 64(sp)                      # 8-byte Folded Spill
	sd	s1, 56(sp)                      # 8-byte Folded Spill
	sd	s2, 48(sp)                      # 8-byte Folded Spill
	sd	s3, 40(sp)                      # 8-byte Folded Spill
	mv	s2, a3
	mv	s3, a2
	ld	a4, 8(a0)
	li	a2, 16
	bltu	a4, a2, .Laes_narrow_BB34_2
# %bb.1:                                # %start
	li	a4, 16
.Laes_narrow_BB34_2:                               # %start
	addi	a2, a0, 16
	addi	a3, a0, 32
	addi	a0, sp, 8
	call	aes_narrow.cmac.tags.tag_at_end
	lbu	a0, 16(sp)
	lbu	a1, 17(sp)
	lbu	a2, 18(sp)
	lbu	a3, 19(sp)
	lbu	a4, 20(sp)
	lbu	a5, 21(sp)
	lbu	s0, 22(sp)
	lbu	s1, 23(sp)
	slli	a1, a1, 8
	slli	a2, a2, 16
	slli	a3, a3, 24
	or	a6, a1, a0
	or	a7, a3, a2
	lbu	a1, 8(sp)
	lbu	a3, 9(sp)
	lbu	a0, 10(sp)
	lbu	a2, 11(sp)
	slli	a5, a5, 8
	slli	s0, s0, 16
	slli	s1, s1, 24
	slli	a3, a3, 8
	slli	a0, a0, 16
	slli	a2, a2, 24
	or	a4, a4, a5
	or	s0, s0, s1
	or	a1, a1, a3
	or	a0, a0, a2
	lbu	a2, 13(sp)
	lbu	a3, 12(sp)
	lbu	a5, 14(sp)
	lbu	s1, 15(sp)
	slli	a2, a2, 8
	or	a2, a2, a3
	slli	a5, a5, 16
	slli	s1, s1, 24
	or	a5, a5, s1
	or	a3, a7, a6
	or	a4, a4, s0
	or	a0, a0, a1
	or	a2, a2, a5
	slli	a4, a4, 32
	slli	a2, a2, 32
	or	a3, a3, a4
	or	a0, a0, a2
	sd	a0, 24(sp)
	sd	a3, 32(sp)
	addi	a0, sp, 24
	mv	a1, s3
	mv	a2, s2
	la	t1, memcpy
	jalr	t1
	addi	a0, sp, 24
	addi	a1, sp, 8
	call	aes_narrow.aes_cipher.blocks.difference
	slli	a0, a0, 32
	srli	a0, a0, 32
	seqz	a0, a0
	ld	ra, 72(sp)                      # 8-byte Folded Reload
	ld	s0, 64(sp)                      # 8-byte Folded Reload
	ld	s1, 56(sp)                      # 8-byte Folded Reload
	ld	s2, 48(sp)                      # 8-byte Folded Reload
	ld	s3, 40(sp)                      # 8-byte Folded Reload
	addi	sp, sp, 80
	ret
.Laes_narrow_func_end34:
	.size	aes_narrow.cmac.pieces.Message.is_tag_so_far, .Laes_narrow_func_end34-aes_narrow.cmac.pieces.Message.is_tag_so_far
                                        # -- End function
	.section	.text.aes_narrow.cmac.tags.is_tag_start,"ax",@progbits
	.p2align	1                               # -- Begin function cmac::tags::is_tag_start::<#f7269deedbd939eb>
	.type	aes_narrow.cmac.tags.is_tag_start,@function
aes_narrow.cmac.tags.is_tag_start: # @aes_narrow.cmac.tags.is_tag_start
# %bb.0:                                # %start
	addi	sp, sp, -64
	sd	ra, 56(sp)                      # 8-byte Folded Spill
	sd	s0, 48(sp)                      # 8-byte Folded Spill
	sd	s1, 40(sp)                      # 8-byte Folded Spill
	mv	s0, a4
	mv	s1, a3
	mv	a3, a2
	mv	a2, a1
	mv	a1, a0
	sd	zero, 8(sp)
	sd	zero, 16(sp)
	addi	a0, sp, 8
	call	aes_narrow.cmac.tags.tag
	ld	a0, 8(sp)
	ld	a1, 16(sp)
	sd	a0, 24(sp)
	sd	a1, 32(sp)
	addi	a0, sp, 24
	mv	a1, s1
	mv	a2, s0
	la	t1, memcpy
	jalr	t1
	addi	a0, sp, 24
	addi	a1, sp, 8
	call	aes_narrow.aes_cipher.blocks.difference
	slli	a0, a0, 32
	srli	a0, a0, 32
	seqz	a0, a0
	ld	ra, 56(sp)                      # 8-byte Folded Reload
	ld	s0, 48(sp)                      # 8-byte Folded Reload
	ld	s1, 40(sp)                      # 8-byte Folded Reload
	addi	sp, sp, 64
	ret
.Laes_narrow_func_end35:
	.size	aes_narrow.cmac.tags.is_tag_start, .Laes_narrow_func_end35-aes_narrow.cmac.tags.is_tag_start
                                        # -- End function
	.section	.rodata.cst8,"aM",@progbits,8
	.p2align	3, 0x0                          # -- Begin function aes_c::single_rounds::mixed
.Laes_narrow_CPI36_0:
	.quad	-6148914691236517206            # 0xaaaaaaaaaaaaaaaa
.Laes_narrow_CPI36_1:
	.quad	-3689348814741910324            # 0xcccccccccccccccc
	.section	.text.aes_narrow.aes_c.single_rounds.mixed,"ax",@progbits
	.p2align	1
	.type	aes_narrow.aes_c.single_rounds.mixed,@function
aes_narrow.aes_c.single_rounds.mixed:          # @aes_narrow.aes_c.single_rounds.mixed
# %bb.0:                                # %start
	addi	sp, sp, -112
	sd	ra, 104(sp)                     # 8-byte Folded Spill
	sd	s0, 96(sp)                      # 8-byte Folded Spill
	sd	s1, 88(sp)                      # 8-byte Folded Spill
	sd	s2, 80(sp)                      # 8-byte Folded Spill
	sd	s3, 72(sp)                      # 8-byte Folded Spill
	sd	s4, 64(sp)                      # 8-byte Folded Spill
	sd	s5, 56(sp)                      # 8-byte Folded Spill
	sd	s6, 48(sp)                      # 8-byte Folded Spill
	sd	s7, 40(sp)                      # 8-byte Folded Spill
	sd	s8, 32(sp)                      # 8-byte Folded Spill
	sd	s9, 24(sp)                      # 8-byte Folded Spill
	sd	s10, 16(sp)                     # 8-byte Folded Spill
	sd	s11, 8(sp)                      # 8-byte Folded Spill
	lbu	a6, 0(a0)
	lbu	t1, 1(a0)
	lbu	a7, 2(a0)
	lbu	t3, 3(a0)
	lbu	t0, 4(a0)
	lbu	t6, 5(a0)
	lbu	t2, 6(a0)
	lbu	s4, 7(a0)
	lbu	t4, 8(a0)
	lbu	t5, 9(a0)
	lbu	s2, 10(a0)
	lbu	s3, 11(a0)
	lbu	s5, 12(a0)
	lbu	s6, 13(a0)
	lbu	s11, 14(a0)
	lbu	ra, 15(a0)
	lui	s7, 16
	lui	s8, 349525
	lui	s9, 209715
	lui	s10, 61681
.Laes_narrow_pcrel_hi21:
	auipc	a2, %pcrel_hi(.Laes_narrow_CPI36_0)
	lui	a5, 139810
.Laes_narrow_pcrel_hi22:
	auipc	s0, %pcrel_hi(.Laes_narrow_CPI36_1)
	addi	s7, s7, -1
	addi	a3, s8, 1365
	addi	a4, s9, 819
	addi	a1, s10, -241
	ld	s9, %pcrel_lo(.Laes_narrow_pcrel_hi21)(a2)
	addi	s1, a5, 546
	ld	s8, %pcrel_lo(.Laes_narrow_pcrel_hi22)(s0)
	slli	s0, a3, 32
	slli	a5, a4, 32
	slli	a2, a1, 32
	add	s0, s0, a3
	slli	a3, s1, 32
	add	a4, a4, a5
	add	a1, a1, a2
	add	s10, s1, a3
	slli	s4, s4, 16
	slli	ra, ra, 24
	slli	s11, s11, 8
	slli	t6, t6, 16
	slli	s6, s6, 24
	slli	s5, s5, 8
	slli	t3, t3, 16
	slli	s3, s3, 24
	slli	s2, s2, 8
	slli	t1, t1, 16
	slli	t5, t5, 24
	slli	t4, t4, 8
	or	s4, ra, s4
	or	a5, t2, s11
	or	t2, s6, t6
	or	a3, t0, s5
	or	t0, s3, t3
	or	s1, a7, s2
	or	a7, t5, t1
	or	a2, a6, t4
	and	a5, a5, s7
	and	a3, a3, s7
	and	s1, s1, s7
	and	a2, a2, s7
	or	a5, a5, s4
	or	a3, a3, t2
	or	s1, s1, t0
	or	a2, a2, a7
	slli	a5, a5, 32
	slli	a3, a3, 32
	slli	s1, s1, 32
	slli	a2, a2, 32
	srli	a3, a3, 32
	srli	a2, a2, 32
	or	a3, a3, a5
	or	a2, a2, s1
	srli	a5, a2, 1
	srli	s1, a3, 1
	xor	a5, a5, a2
	xor	s1, s1, a3
	and	a5, a5, s0
	and	s0, s0, s1
	slli	a6, a5, 1
	xor	a5, a5, a2
	slli	s1, s0, 1
	xor	s0, s0, a3
	xor	a2, a6, a2
	xor	a3, a3, s1
	srli	s1, a5, 2
	srli	a6, s0, 2
	srli	a7, a2, 2
	srli	t0, a3, 2
	xor	s1, s1, a5
	xor	a6, a6, s0
	xor	a7, a7, a2
	xor	t0, t0, a3
	and	s1, s1, a4
	and	a6, a6, a4
	and	a7, a7, a4
	and	a4, t0, a4
	slli	t0, s1, 2
	xor	t1, s1, a5
	slli	t2, a6, 2
	xor	s1, a6, s0
	slli	a6, a7, 2
	xor	a7, a7, a2
	slli	t3, a4, 2
	xor	t4, a4, a3
	xor	t0, t0, a5
	xor	s0, t2, s0
	srli	a5, t1, 4
	xor	a6, a6, a2
	xor	t2, t3, a3
	srli	a2, t0, 4
	srli	a3, a7, 4
	xor	a5, a5, s1
	srli	a4, a6, 4
	xor	a2, a2, s0
	xor	a3, a3, t4
	and	a5, a5, a1
	xor	a4, a4, t2
	and	a2, a2, a1
	and	a3, a3, a1
	slli	t3, a5, 4
	xor	a5, a5, s1
	and	a4, a4, a1
	slli	t5, a2, 4
	xor	s2, a2, s0
	slli	t6, a3, 4
	xor	a3, a3, t4
	xor	s1, t3, t1
	srli	t1, a5, 16
	slli	t3, a5, 48
	slli	t4, a4, 4
	xor	s7, a4, t2
	xor	s0, t5, t0
	xor	a2, t6, a7
	srli	a7, s1, 16
	slli	t0, s1, 48
	srli	t2, s2, 16
	slli	t5, s2, 48
	srli	t6, a3, 16
	slli	s3, a3, 48
	or	t1, t3, t1
	xor	a6, t4, a6
	srli	t3, s0, 16
	slli	t4, s0, 48
	srli	s4, a2, 16
	slli	s5, a2, 48
	or	a7, t0, a7
	srli	t0, s7, 16
	slli	s6, s7, 48
	or	t2, t5, t2
	or	t5, s3, t6
	xor	a5, t1, a5
	srli	t6, a6, 16
	slli	s3, a6, 48
	or	t3, t4, t3
	or	t4, s5, s4
	or	t0, s6, t0
	xor	s1, a7, s1
	xor	a4, t2, s2
	xor	a3, t5, a3
	srli	s2, a5, 32
	slli	s4, a5, 32
	or	t6, s3, t6
	xor	s0, t3, s0
	xor	s3, t4, a2
	xor	a2, t0, s7
	srli	s5, s1, 32
	slli	s6, s1, 32
	srli	s7, a4, 32
	slli	s11, a4, 32
	or	s2, s4, s2
	srli	s4, a3, 32
	xor	t5, t5, a4
	slli	a4, a3, 32
	xor	ra, a5, s1
	xor	s1, t6, a6
	or	a6, s6, s5
	srli	s5, s0, 32
	or	s6, s11, s7
	slli	s7, s0, 32
	or	s4, a4, s4
	srli	s11, s3, 32
	xor	t4, t4, s0
	slli	s0, s3, 32
	xor	t0, ra, t0
	srli	ra, a2, 32
	xor	t1, s2, t1
	slli	a4, a2, 32
	xor	t6, a5, t6
	or	s2, s7, s5
	srli	s5, s1, 32
	or	s7, s0, s11
	slli	s0, s1, 32
	or	a4, a4, ra
	xor	t5, t5, s4
	xor	a6, a6, a5
	xor	t2, s6, t2
	xor	t1, t1, a3
	or	s0, s0, s5
	xor	t4, t4, s7
	xor	t0, t0, a4
	xor	a5, s2, a5
	xor	a3, a6, a7
	xor	a6, t2, a2
	srli	a2, t5, 1
	xor	a7, t6, s0
	xor	a5, a5, t3
	srli	t2, t4, 1
	xor	a3, a3, s3
	srli	s0, t0, 1
	xor	a2, t1, a2
	srli	a4, a7, 1
	xor	a5, a5, s1
	xor	a3, a3, t2
	xor	s1, a6, s0
	slli	a2, a2, 1
	xor	a4, a4, a5
	slli	a3, a3, 1
	slli	s1, s1, 1
	and	a2, a2, s10
	slli	a4, a4, 1
	and	a3, a3, s10
	and	a5, s1, s9
	xor	a2, a2, t5
	and	a4, a4, s9
	xor	a5, a5, t0
	xor	a3, a3, t4
	xor	a4, a4, a7
	srli	s1, a5, 2
	srli	s0, a4, 2
	xor	a2, a2, s1
	xor	a3, a3, s0
	slli	a2, a2, 2
	slli	a3, a3, 2
	and	a2, a2, s8
	and	a3, a3, s8
	xor	a2, a2, a5
	xor	a3, a3, a4
	srli	a4, a3, 4
	xor	a4, a4, a2
	and	a1, a1, a4
	slli	a4, a1, 4
	xor	a1, a1, a2
	xor	a3, a3, a4
	srli	a6, a1, 56
	srli	a7, a1, 40
	srli	t0, a1, 24
	srli	t1, a1, 8
	srli	t5, a1, 48
	srli	a2, a1, 32
	srli	a4, a1, 16
	srli	t2, a3, 56
	srli	t3, a3, 40
	srli	t4, a3, 24
	srli	t6, a3, 8
	srli	a5, a3, 48
	srli	s0, a3, 32
	srli	s1, a3, 16
	sb	a1, 4(a0)
	sb	a4, 5(a0)
	sb	a2, 6(a0)
	sb	t5, 7(a0)
	sb	a3, 0(a0)
	sb	s1, 1(a0)
	sb	s0, 2(a0)
	sb	a5, 3(a0)
	sb	t6, 8(a0)
	sb	t4, 9(a0)
	sb	t3, 10(a0)
	sb	t2, 11(a0)
	sb	t1, 12(a0)
	sb	t0, 13(a0)
	sb	a7, 14(a0)
	sb	a6, 15(a0)
	ld	ra, 104(sp)                     # 8-byte Folded Reload
	ld	s0, 96(sp)                      # 8-byte Folded Reload
	ld	s1, 88(sp)                      # 8-byte Folded Reload
	ld	s2, 80(sp)                      # 8-byte Folded Reload
	ld	s3, 72(sp)                      # 8-byte Folded Reload
	ld	s4, 64(sp)                      # 8-byte Folded Reload
	ld	s5, 56(sp)                      # 8-byte Folded Reload
	ld	s6, 48(sp)                      # 8-byte Folded Reload
	ld	s7, 40(sp)                      # 8-byte Folded Reload
	ld	s8, 32(sp)                      # 8-byte Folded Reload
	ld	s9, 24(sp)                      # 8-byte Folded Reload
	ld	s10, 16(sp)                     # 8-byte Folded Reload
	ld	s11, 8(sp)                      # 8-byte Folded Reload
	addi	sp, sp, 112
	ret
.Laes_narrow_func_end36:
	.size	aes_narrow.aes_c.single_rounds.mixed, .Laes_narrow_func_end36-aes_narrow.aes_c.single_rounds.mixed
                                        # -- End function
	.section	.rodata.cst8,"aM",@progbits,8
	.p2align	3, 0x0                          # -- Begin function aes_c::single_rounds::round
.Laes_narrow_CPI37_0:
	.quad	-6148914691236517206            # 0xaaaaaaaaaaaaaaaa
.Laes_narrow_CPI37_1:
	.quad	-3689348814741910324            # 0xcccccccccccccccc
	.section	.text.aes_narrow.aes_c.single_rounds.round,"ax",@progbits
	.p2align	1
	.type	aes_narrow.aes_c.single_rounds.round,@function
aes_narrow.aes_c.single_rounds.round:          # @aes_narrow.aes_c.single_rounds.round
# %bb.0:                                # %start
	addi	sp, sp, -144
	sd	ra, 136(sp)                     # 8-byte Folded Spill
	sd	s0, 128(sp)                     # 8-byte Folded Spill
	sd	s1, 120(sp)                     # 8-byte Folded Spill
	sd	s2, 112(sp)                     # 8-byte Folded Spill
	sd	s3, 104(sp)                     # 8-byte Folded Spill
	sd	s4, 96(sp)                      # 8-byte Folded Spill
	sd	s5, 88(sp)                      # 8-byte Folded Spill
	sd	s6, 80(sp)                      # 8-byte Folded Spill
	sd	s7, 72(sp)                      # 8-byte Folded Spill
	sd	s8, 64(sp)                      # 8-byte Folded Spill
	sd	s9, 56(sp)                      # 8-byte Folded Spill
	sd	s10, 48(sp)                     # 8-byte Folded Spill
	sd	s11, 40(sp)                     # 8-byte Folded Spill
	sd	a1, 24(sp)                      # 8-byte Folded Spill
	sd	a0, 32(sp)                      # 8-byte Folded Spill
	lbu	a6, 0(a0)
	lbu	t1, 1(a0)
	lbu	a7, 2(a0)
	lbu	t4, 3(a0)
	lbu	t0, 4(a0)
	lbu	s2, 5(a0)
	lbu	t2, 6(a0)
	lbu	s4, 7(a0)
	lbu	t3, 8(a0)
	lbu	t5, 9(a0)
	lbu	t6, 10(a0)
	lbu	s3, 11(a0)
	lbu	s7, 12(a0)
	lbu	s10, 13(a0)
	lbu	s11, 14(a0)
	lbu	ra, 15(a0)
	lui	s5, 16
	lui	s6, 349525
	lui	s8, 209715
	lui	s9, 61681
	lui	s1, 61680
	lui	a4, 139810
	addi	a3, s5, -1
	addi	a5, s6, 1365
	addi	a2, s8, 819
	addi	s6, s9, -241
	slli	s8, s1, 32
	addi	s5, a4, 546
	slli	a4, a5, 32
	slli	s0, a2, 32
	slli	s9, s6, 32
	add	s8, s8, s1
	slli	s1, s5, 32
	add	a4, a4, a5
	add	a2, a2, s0
	add	s6, s6, s9
	add	s1, s1, s5
	sd	s1, 16(sp)                      # 8-byte Folded Spill
	slli	s4, s4, 16
	slli	ra, ra, 24
	slli	s11, s11, 8
	slli	s2, s2, 16
	slli	s10, s10, 24
	slli	s7, s7, 8
	slli	t4, t4, 16
	slli	s3, s3, 24
	slli	t6, t6, 8
	slli	t1, t1, 16
	slli	t5, t5, 24
	slli	t3, t3, 8
	or	s4, ra, s4
	or	s9, t2, s11
	or	t2, s10, s2
	or	s2, t0, s7
	or	t0, s3, t4
	or	t4, a7, t6
	or	a7, t5, t1
	or	s1, a6, t3
	and	a5, s9, a3
	and	s0, s2, a3
	and	a6, t4, a3
	and	a3, a3, s1
	or	a5, a5, s4
	or	s1, s0, t2
	or	s0, a6, t0
	or	a3, a3, a7
	slli	a5, a5, 32
	slli	s1, s1, 32
	slli	s0, s0, 32
	slli	a3, a3, 32
	srli	s1, s1, 32
	srli	a3, a3, 32
	or	a5, a5, s1
	or	a3, a3, s0
	srli	s1, a3, 1
	srli	s0, a5, 1
	xor	s1, s1, a3
	xor	s0, s0, a5
	and	s1, s1, a4
	and	a4, a4, s0
	slli	a6, s1, 1
	xor	s1, s1, a3
	slli	s0, a4, 1
	xor	a4, a4, a5
	xor	a3, a6, a3
	xor	a5, a5, s0
	srli	s0, s1, 2
	srli	a6, a4, 2
	srli	a7, a3, 2
	srli	t0, a5, 2
	xor	s0, s0, s1
	xor	a6, a6, a4
	xor	a7, a7, a3
	xor	t0, t0, a5
	and	s0, s0, a2
	and	a6, a6, a2
	and	a7, a7, a2
	and	a2, t0, a2
	slli	t0, s0, 2
	xor	t1, s0, s1
	slli	t2, a6, 2
	xor	t5, a6, a4
	slli	a6, a7, 2
	xor	a7, a7, a3
	slli	t3, a2, 2
	xor	t4, a2, a5
	xor	t0, t0, s1
	xor	a4, t2, a4
	srli	s1, t1, 4
	xor	a6, a6, a3
	xor	a5, t3, a5
	srli	a3, t0, 4
	srli	a2, a7, 4
	xor	s1, s1, t5
	srli	s0, a6, 4
	xor	a3, a3, a4
	xor	a2, a2, t4
	sd	s6, 8(sp)                       # 8-byte Folded Spill
	and	s1, s1, s6
	xor	s0, s0, a5
	and	a3, a3, s6
	and	a2, a2, s6
	slli	t2, s1, 4
	xor	s1, s1, t5
	and	s0, s0, s6
	slli	t3, a3, 4
	xor	t5, a3, a4
	slli	a4, a2, 4
	xor	a3, a2, t4
	xor	t1, t2, t1
	slli	t2, s0, 4
	xor	a5, a5, s0
	xor	s0, t3, t0
	xor	a4, a4, a7
	xor	a2, t5, a3
	xor	s9, t2, a6
	xor	t0, a5, s1
	xor	t3, s0, s1
	xor	a7, a4, a5
	xor	s2, a4, s1
	xor	s7, s9, a2
	xor	t4, t3, a7
	xor	t6, s7, a5
	xor	a5, t1, t4
	xor	t1, s7, s0
	and	s0, t6, s9
	xor	s10, a5, a4
	xor	a3, a3, a5
	xor	t2, t1, s2
	and	s11, t1, s7
	xor	a4, a3, t0
	xor	t5, s10, s9
	and	a5, s10, t4
	xor	s3, s10, a2
	xor	ra, s0, s2
	and	s0, a4, t0
	xor	s4, a4, a2
	xor	s6, a4, s3
	and	a2, s3, s2
	xor	ra, ra, s3
	xor	a3, a3, a5
	xor	ra, ra, a5
	and	a5, t5, t2
	xor	a0, a3, a5
	and	a5, s6, a7
	xor	a2, a2, s0
	xor	a5, a5, s0
	and	s0, s4, t3
	xor	a3, s4, s11
	xor	a3, a3, s0
	xor	s0, s0, s1
	xor	a6, s7, s1
	xor	s11, a4, s9
	and	s5, s11, a6
	xor	a1, s4, s5
	xor	a1, a1, s0
	xor	s0, a0, a5
	xor	a3, a3, t3
	xor	a3, a3, a5
	xor	a5, ra, a2
	xor	a1, a1, a2
	and	a0, a3, s0
	xor	s5, a1, a3
	xor	a2, a0, a5
	and	a2, a2, s5
	xor	s5, s0, a5
	xor	s0, a0, a1
	and	s1, s0, s5
	xor	a5, a5, s1
	xor	a0, a0, a2
	xor	a2, a2, a1
	and	a0, a0, a1
	xor	s0, s0, a0
	xor	a0, a0, a3
	and	s0, s0, a5
	xor	a1, s0, s5
	lui	a3, 3840
	addi	a3, a3, 255
	slli	a3, a3, 16
	addi	a3, a3, 15
	slli	s0, a3, 16
	and	t6, a2, t6
	and	ra, a2, s9
	and	a3, a0, s10
	and	t4, a0, t4
	xor	a0, a0, a2
	xor	a2, a2, a5
	and	a6, a5, a6
	and	s5, a5, s11
	and	s9, a2, a4
	and	a4, a2, t0
	and	t5, a0, t5
	and	t0, a0, t2
	xor	s1, a3, ra
	xor	a0, a0, a1
	xor	a5, a5, a1
	and	t2, a1, s7
	and	t1, a1, t1
	xor	t5, t5, a3
	xor	s5, s1, s5
	and	a3, a5, s4
	and	s3, a0, s3
	xor	a2, a2, a0
	and	a5, a5, t3
	and	t3, a0, s2
	and	a1, a2, a7
	xor	a0, a3, t2
	and	a2, a2, s6
	xor	t2, s5, a3
	xor	s1, s3, s1
	xor	a7, a4, t3
	xor	a1, a1, a4
	xor	a2, a2, a0
	xor	a4, t2, t1
	xor	t1, t5, a0
	xor	s1, s1, a5
	xor	a0, a1, t0
	xor	a1, a1, a4
	xor	s1, s1, a2
	xor	a2, a2, s9
	xor	a4, a0, t4
	xor	a3, s1, a6
	xor	a0, a0, t6
	xor	a5, a5, a1
	xor	a1, a1, s1
	xor	s1, a7, a2
	xor	t1, t1, a4
	xor	a7, a0, a3
	xor	a6, a4, a2
	not	t4, a5
	not	t3, a1
	xor	s1, s1, a3
	xor	t2, t1, t2
	not	t0, s1
	xor	a1, a2, t1
	srli	a4, t4, 8
	srli	a5, t3, 8
	srli	s1, a7, 8
	srli	a3, t1, 8
	srli	a0, a6, 8
	not	t5, a1
	xor	a1, a4, t4
	xor	a4, a5, t3
	xor	a5, s1, a7
	srli	s1, t2, 8
	xor	a3, a3, t1
	srli	a2, t0, 8
	xor	a0, a0, a6
	and	a1, a1, s0
	and	a4, a4, s0
	and	a5, a5, s0
	xor	s4, s1, t2
	and	a3, a3, s0
	xor	s3, a2, t0
	srli	t6, t5, 8
	and	a0, a0, s0
	slli	s2, a1, 8
	xor	s5, t4, a1
	slli	s6, a4, 8
	xor	a4, t3, a4
	slli	s1, a5, 8
	and	a1, s4, s0
	slli	s4, a3, 8
	and	a2, s3, s0
	xor	t6, t6, t5
	slli	s3, a0, 8
	xor	s2, s2, s5
	xor	s5, s6, a4
	or	a5, a5, s1
	slli	s1, a1, 8
	or	a3, s4, a3
	slli	a4, a2, 8
	xor	a2, t0, a2
	and	s0, t6, s0
	or	a0, s3, a0
	xor	a5, a5, a7
	or	a1, a1, s1
	xor	s3, a3, t1
	xor	t6, a4, a2
	slli	a4, s0, 8
	xor	s1, t5, s0
	xor	s4, a0, a6
	srli	s0, s2, 4
	srli	a2, s5, 4
	xor	s6, a1, t2
	xor	s7, a4, s1
	xor	s0, s0, s2
	xor	a2, a2, s5
	srli	s1, a5, 4
	srli	a3, s3, 4
	srli	a0, t6, 4
	srli	a1, s4, 4
	and	a4, s0, s8
	and	a2, a2, s8
	xor	s1, s1, a5
	slli	s0, a4, 4
	or	s9, s0, a4
	slli	s0, a2, 4
	or	s10, s0, a2
	srli	s0, s6, 4
	xor	a3, a3, s3
	xor	a0, a0, t6
	xor	a1, a1, s4
	and	a2, s1, s8
	xor	s0, s0, s6
	and	a3, a3, s8
	and	a0, a0, s8
	srli	a4, s7, 4
	xor	a4, a4, s7
	and	a1, a1, s8
	and	s0, s0, s8
	and	a4, a4, s8
	xor	s2, s9, s2
	xor	s5, s10, s5
	slli	s1, a2, 4
	or	a2, a2, s1
	slli	s1, a3, 4
	or	a3, a3, s1
	slli	s1, a0, 4
	or	a0, a0, s1
	slli	s1, a1, 4
	or	a1, a1, s1
	xor	s8, a2, a5
	slli	a5, s0, 4
	or	a5, a5, s0
	slli	t4, t4, 48
	slli	t3, t3, 48
	slli	a7, a7, 48
	slli	t1, t1, 48
	slli	a6, a6, 48
	slli	t2, t2, 48
	slli	t0, t0, 48
	slli	t5, t5, 48
	xor	s3, a3, s3
	slli	s0, a4, 4
	xor	s9, a0, t6
	or	a4, a4, s0
	xor	a2, a1, s4
	srli	s1, s2, 16
	srli	s0, s5, 16
	xor	t6, a5, s6
	xor	s6, a4, s7
	or	t4, t4, s1
	or	t3, t3, s0
	srli	a5, s8, 16
	srli	a3, s3, 16
	srli	a0, s9, 16
	srli	a1, a2, 16
	or	a5, a7, a5
	srli	s0, t6, 16
	or	t1, t1, a3
	or	a7, t0, a0
	srli	a0, s6, 16
	or	s4, a6, a1
	xor	a6, t4, s2
	xor	a1, t3, s5
	or	t0, t2, s0
	or	a0, t5, a0
	xor	t5, a5, s8
	xor	s2, t1, s3
	xor	s0, a7, s9
	xor	a2, s4, a2
	srli	t2, a6, 32
	slli	a4, a6, 32
	srli	a3, a1, 32
	slli	s1, a1, 32
	xor	s3, a5, a1
	xor	s9, a0, s6
	or	t2, a4, t2
	or	s5, s1, a3
	srli	s1, t5, 32
	slli	a1, t5, 32
	srli	a3, s2, 32
	slli	a4, s2, 32
	or	s8, a1, s1
	srli	s1, s0, 32
	xor	s6, a0, s0
	slli	s0, s0, 32
	or	a3, a3, a4
	srli	a4, a2, 32
	or	s0, s0, s1
	slli	s1, a2, 32
	or	s7, s1, a4
	xor	s1, t0, t6
	xor	a0, t4, a2
	xor	a4, t1, a2
	xor	t2, a0, t2
	srli	a0, s1, 32
	xor	a4, a4, s1
	slli	s1, s1, 32
	xor	a1, s5, t3
	srli	a5, s9, 32
	or	a0, a0, s1
	slli	s1, s9, 32
	or	a5, a5, s1
	xor	t1, s8, s3
	xor	t4, a4, a3
	xor	t0, a2, t0
	xor	a1, a1, a2
	xor	a2, s0, s2
	xor	s1, s7, s4
.Laes_narrow_pcrel_hi23:
	auipc	s0, %pcrel_hi(.Laes_narrow_CPI37_0)
	xor	t6, s6, a5
	srli	a5, t2, 1
	xor	a1, a1, a5
.Laes_narrow_pcrel_hi24:
	auipc	t3, %pcrel_hi(.Laes_narrow_CPI37_1)
	xor	a0, a0, t5
	srli	a5, t1, 1
	xor	a2, a2, a7
	srli	a3, t4, 1
	xor	s1, s1, s9
	xor	a1, a1, a6
	xor	a5, a5, a0
	xor	a2, a2, a3
	ld	a0, 24(sp)                      # 8-byte Folded Reload
	lbu	a7, 0(a0)
	lbu	a6, 1(a0)
	lbu	t5, 2(a0)
	lbu	s2, 3(a0)
	ld	s0, %pcrel_lo(.Laes_narrow_pcrel_hi23)(s0)
	xor	a5, a5, t0
	srli	a4, t6, 1
	slli	a1, a1, 1
	slli	a2, a2, 1
	xor	a4, a4, s1
	and	a1, a1, s0
	and	a2, a2, s0
	xor	s0, a1, t2
	xor	a3, a2, t4
	lbu	t2, 4(a0)
	lbu	t0, 5(a0)
	lbu	t4, 6(a0)
	lbu	s3, 7(a0)
	ld	a2, %pcrel_lo(.Laes_narrow_pcrel_hi24)(t3)
	slli	a5, a5, 1
	slli	a4, a4, 1
	ld	a1, 16(sp)                      # 8-byte Folded Reload
	and	a5, a5, a1
	and	a4, a4, a1
	srli	a1, s0, 2
	xor	a5, a5, t1
	srli	s1, a3, 2
	xor	a4, a4, t6
	xor	a1, a1, a5
	xor	a4, a4, s1
	slli	a1, a1, 2
	slli	a4, a4, 2
	and	a1, a1, a2
	and	a2, a2, a4
	lbu	t1, 12(a0)
	lbu	t3, 13(a0)
	lbu	s5, 14(a0)
	lbu	a4, 15(a0)
	xor	a1, a1, s0
	xor	a2, a2, a3
	srli	a3, a1, 4
	xor	a3, a3, a2
	ld	a5, 8(sp)                       # 8-byte Folded Reload
	and	a3, a3, a5
	slli	s0, a3, 4
	xor	a5, a3, a2
	xor	s1, s0, a1
	srli	t6, a5, 32
	srli	a1, a5, 48
	srli	a2, a5, 56
	xor	s4, a2, a4
	srli	a2, a5, 40
	xor	s5, a2, s5
	srli	a3, a5, 24
	xor	t3, a3, t3
	srli	a4, a5, 8
	xor	t1, a4, t1
	xor	s3, a1, s3
	xor	t4, t6, t4
	lbu	s0, 8(a0)
	lbu	a2, 9(a0)
	lbu	a3, 10(a0)
	lbu	a4, 11(a0)
	xor	t2, a5, t2
	srli	a5, a5, 16
	xor	a5, a5, t0
	srli	a1, s1, 56
	xor	t0, a1, a4
	srli	a4, s1, 40
	xor	t6, a4, a3
	srli	a4, s1, 24
	xor	a2, a2, a4
	srli	a4, s1, 8
	xor	a0, a4, s0
	srli	a4, s1, 48
	xor	a4, a4, s2
	srli	s0, s1, 32
	xor	s0, s0, t5
	xor	a1, s1, a7
	srli	s1, s1, 16
	xor	s1, s1, a6
	ld	a3, 32(sp)                      # 8-byte Folded Reload
	sb	t2, 4(a3)
	sb	a5, 5(a3)
	sb	t4, 6(a3)
	sb	s3, 7(a3)
	sb	a1, 0(a3)
	sb	s1, 1(a3)
	sb	s0, 2(a3)
	sb	a4, 3(a3)
	sb	a0, 8(a3)
	sb	a2, 9(a3)
	sb	t6, 10(a3)
	sb	t0, 11(a3)
	sb	t1, 12(a3)
	sb	t3, 13(a3)
	sb	s5, 14(a3)
	sb	s4, 15(a3)
	ld	ra, 136(sp)                     # 8-byte Folded Reload
	ld	s0, 128(sp)                     # 8-byte Folded Reload
	ld	s1, 120(sp)                     # 8-byte Folded Reload
	ld	s2, 112(sp)                     # 8-byte Folded Reload
	ld	s3, 104(sp)                     # 8-byte Folded Reload
	ld	s4, 96(sp)                      # 8-byte Folded Reload
	ld	s5, 88(sp)                      # 8-byte Folded Reload
	ld	s6, 80(sp)                      # 8-byte Folded Reload
	ld	s7, 72(sp)                      # 8-byte Folded Reload
	ld	s8, 64(sp)                      # 8-byte Folded Reload
	ld	s9, 56(sp)                      # 8-byte Folded Reload
	ld	s10, 48(sp)                     # 8-byte Folded Reload
	ld	s11, 40(sp)                     # 8-byte Folded Reload
	addi	sp, sp, 144
	ret
.Laes_narrow_func_end37:
	.size	aes_narrow.aes_c.single_rounds.round, .Laes_narrow_func_end37-aes_narrow.aes_c.single_rounds.round
                                        # -- End function
	.section	.text.aes_narrow.aes_c.single_rounds.rounds,"ax",@progbits
	.p2align	1                               # -- Begin function aes_c::single_rounds::rounds
	.type	aes_narrow.aes_c.single_rounds.rounds,@function
aes_narrow.aes_c.single_rounds.rounds:         # @aes_narrow.aes_c.single_rounds.rounds
# %bb.0:                                # %start
	addi	sp, sp, -272
	sd	ra, 264(sp)                     # 8-byte Folded Spill
	sd	s0, 256(sp)                     # 8-byte Folded Spill
	sd	s1, 248(sp)                     # 8-byte Folded Spill
	sd	s2, 240(sp)                     # 8-byte Folded Spill
	sd	s3, 232(sp)                     # 8-byte Folded Spill
	sd	s4, 224(sp)                     # 8-byte Folded Spill
	sd	s5, 216(sp)                     # 8-byte Folded Spill
	sd	s6, 208(sp)                     # 8-byte Folded Spill
	sd	s7, 200(sp)                     # 8-byte Folded Spill
	sd	s8, 192(sp)                     # 8-byte Folded Spill
	sd	s9, 184(sp)                     # 8-byte Folded Spill
	sd	s10, 176(sp)                    # 8-byte Folded Spill
	sd	s11, 168(sp)                    # 8-byte Folded Spill
	sd	a1, 0(sp)                       # 8-byte Folded Spill
	sd	a0, 24(sp)                      # 8-byte Folded Spill
	li	a4, 0
	lui	a0, 349525
	lui	a5, 209715
	lui	a2, 61681
	lui	a3, 61680
	li	a1, 1
	addi	a0, a0, 1365
	addi	s1, a5, 819
	addi	a2, a2, -241
	slli	a5, a3, 32
	add	a3, a3, a5
	sd	a3, 16(sp)                      # 8-byte Folded Spill
	slli	a3, a0, 32
	add	a0, a0, a3
	sd	a0, 160(sp)                     # 8-byte Folded Spill
	slli	a0, s1, 32
	add	a0, a0, s1
	sd	a0, 152(sp)                     # 8-byte Folded Spill
	slli	a0, a2, 32
	add	a0, a0, a2
	sd	a0, 144(sp)                     # 8-byte Folded Spill
	lui	a0, 3840
	addi	a0, a0, 255
	slli	a0, a0, 16
	addi	a0, a0, 15
	slli	a0, a0, 16
	sd	a0, 8(sp)                       # 8-byte Folded Spill
.Laes_narrow_BB38_1:                               # %join.5.i.i
                                        # =>This Inner Loop Header: Depth=1
	sd	a1, 136(sp)                     # 8-byte Folded Spill
	ld	a0, 24(sp)                      # 8-byte Folded Reload
	add	a4, a4, a0
	lbu	s6, 0(a4)
	lbu	s5, 1(a4)
	lbu	s4, 2(a4)
	lbu	t6, 3(a4)
	lbu	s2, 4(a4)
	lbu	s0, 5(a4)
	lbu	a7, 6(a4)
	lbu	t1, 7(a4)
	lbu	s8, 8(a4)
	lbu	a5, 9(a4)
	lbu	s3, 10(a4)
	lbu	a0, 11(a4)
	lbu	s1, 12(a4)
	lbu	a3, 13(a4)
	lbu	t2, 14(a4)
	lbu	a2, 15(a4)
	lbu	s7, 16(a4)
	lbu	s11, 17(a4)
	lbu	a6, 18(a4)
	lbu	s10, 19(a4)
	lbu	ra, 20(a4)
	lbu	t0, 21(a4)
	lbu	s9, 22(a4)
	lbu	a1, 23(a4)
	slli	t1, t1, 16
	slli	a2, a2, 24
	slli	t2, t2, 8
	or	a2, a2, t1
	sd	a2, 128(sp)                     # 8-byte Folded Spill
	or	a2, a7, t2
	sd	a2, 120(sp)                     # 8-byte Folded Spill
	lbu	a2, 24(a4)
	lbu	a7, 25(a4)
	lbu	t1, 26(a4)
	lbu	t2, 27(a4)
	slli	s0, s0, 16
	slli	a3, a3, 24
	slli	s1, s1, 8
	slli	t6, t6, 16
	slli	a0, a0, 24
	slli	s3, s3, 8
	or	a3, a3, s0
	sd	a3, 112(sp)                     # 8-byte Folded Spill
	or	t3, s2, s1
	or	a0, a0, t6
	sd	a0, 104(sp)                     # 8-byte Folded Spill
	or	a0, s4, s3
	sd	a0, 96(sp)                      # 8-byte Folded Spill
	lbu	a0, 28(a4)
	lbu	a3, 29(a4)
	lbu	s1, 30(a4)
	lbu	s0, 31(a4)
	slli	s5, s5, 16
	slli	a5, a5, 24
	slli	s8, s8, 8
	slli	a1, a1, 16
	slli	s0, s0, 24
	slli	s1, s1, 8
	or	a5, a5, s5
	sd	a5, 88(sp)                      # 8-byte Folded Spill
	or	t5, s6, s8
	or	a1, a1, s0
	sd	a1, 80(sp)                      # 8-byte Folded Spill
	or	a1, s9, s1
	sd	a1, 72(sp)                      # 8-byte Folded Spill
	lbu	t6, 36(a4)
	lbu	s3, 37(a4)
	lbu	s0, 38(a4)
	lbu	s1, 39(a4)
	slli	t0, t0, 16
	slli	a3, a3, 24
	slli	a0, a0, 8
	slli	a1, s10, 16
	slli	t2, t2, 24
	slli	a5, t1, 8
	or	a3, a3, t0
	sd	a3, 64(sp)                      # 8-byte Folded Spill
	or	s10, ra, a0
	or	a0, t2, a1
	sd	a0, 56(sp)                      # 8-byte Folded Spill
	or	s9, a6, a5
	lbu	a6, 44(a4)
	lbu	a1, 45(a4)
	lbu	a3, 46(a4)
	lbu	a5, 47(a4)
	slli	s11, s11, 16
	slli	a7, a7, 24
	slli	a2, a2, 8
	slli	a0, s1, 16
	slli	a5, a5, 24
	slli	a3, a3, 8
	or	s1, a7, s11
	sd	s1, 48(sp)                      # 8-byte Folded Spill
	or	s6, s7, a2
	or	a0, a0, a5
	sd	a0, 40(sp)                      # 8-byte Folded Spill
	or	s5, s0, a3
	lbu	t0, 32(a4)
	lbu	a2, 33(a4)
	lbu	a3, 34(a4)
	lbu	a5, 35(a4)
	slli	s3, s3, 16
	slli	a1, a1, 24
	or	a0, a1, s3
	sd	a0, 32(sp)                      # 8-byte Folded Spill
	lbu	a1, 43(a4)
	slli	a6, a6, 8
	or	s2, t6, a6
	lbu	a0, 42(a4)
	slli	a5, a5, 16
	slli	a1, a1, 24
	or	ra, a1, a5
	lbu	a1, 41(a4)
	slli	a0, a0, 8
	or	s1, a3, a0
	lbu	a0, 40(a4)
	slli	a2, a2, 16
	slli	a1, a1, 24
	or	s11, a1, a2
	lbu	a1, 55(a4)
	lbu	a2, 63(a4)
	slli	a0, a0, 8
	or	t6, t0, a0
	slli	a1, a1, 16
	slli	a2, a2, 24
	or	s8, a2, a1
	lbu	a0, 62(a4)
	lbu	a1, 54(a4)
	lbu	a2, 53(a4)
	lbu	a3, 61(a4)
	slli	a0, a0, 8
	or	t4, a1, a0
	slli	a2, a2, 16
	slli	a0, a3, 24
	or	s7, a0, a2
	lbu	a2, 60(a4)
	lbu	a3, 52(a4)
	lbu	a0, 51(a4)
	lbu	a1, 59(a4)
	slli	a2, a2, 8
	or	t2, a3, a2
	slli	a0, a0, 16
	slli	a1, a1, 24
	lbu	a3, 58(a4)
	lbu	a2, 50(a4)
	or	s4, a1, a0
	lbu	a1, 49(a4)
	slli	a3, a3, 8
	or	t0, a2, a3
	lbu	a3, 57(a4)
	slli	a1, a1, 16
	lbu	a0, 56(a4)
	lbu	a2, 48(a4)
	slli	a3, a3, 24
	or	s3, a3, a1
	slli	a0, a0, 8
	or	a3, a2, a0
	lui	a2, 16
	addi	a2, a2, -1
	ld	a0, 120(sp)                     # 8-byte Folded Reload
	and	a7, a0, a2
	and	t1, t3, a2
	ld	a0, 96(sp)                      # 8-byte Folded Reload
	and	t3, a0, a2
	and	t5, t5, a2
	ld	a0, 72(sp)                      # 8-byte Folded Reload
	and	a6, a0, a2
	and	s10, s10, a2
	and	s9, s9, a2
	and	s6, s6, a2
	and	s5, s5, a2
	and	s2, s2, a2
	and	s1, s1, a2
	and	t6, t6, a2
	and	t4, t4, a2
	and	t2, t2, a2
	and	t0, t0, a2
	and	a2, a2, a3
	ld	a3, 128(sp)                     # 8-byte Folded Reload
	or	a3, a7, a3
	ld	a0, 112(sp)                     # 8-byte Folded Reload
	or	a0, t1, a0
	ld	a1, 104(sp)                     # 8-byte Folded Reload
	or	a1, t3, a1
	ld	a5, 88(sp)                      # 8-byte Folded Reload
	or	a5, t5, a5
	ld	s0, 80(sp)                      # 8-byte Folded Reload
	or	a6, a6, s0
	ld	s0, 64(sp)                      # 8-byte Folded Reload
	or	a7, s10, s0
	ld	s0, 56(sp)                      # 8-byte Folded Reload
	or	s9, s9, s0
	ld	s0, 48(sp)                      # 8-byte Folded Reload
	or	s6, s6, s0
	ld	s0, 40(sp)                      # 8-byte Folded Reload
	or	s5, s5, s0
	ld	s0, 32(sp)                      # 8-byte Folded Reload
	or	s2, s2, s0
	or	s1, s1, ra
	or	t6, t6, s11
	or	s0, t4, s8
	or	t2, t2, s7
	or	t0, t0, s4
	or	a2, a2, s3
	slli	t1, a3, 32
	slli	a0, a0, 32
	slli	t3, a1, 32
	slli	a5, a5, 32
	slli	a6, a6, 32
	slli	a7, a7, 32
	slli	s9, s9, 32
	slli	s6, s6, 32
	slli	s5, s5, 32
	slli	s2, s2, 32
	slli	t4, s1, 32
	slli	t6, t6, 32
	slli	t5, s0, 32
	slli	t2, t2, 32
	slli	t0, t0, 32
	slli	a2, a2, 32
	srli	a0, a0, 32
	srli	a5, a5, 32
	srli	a3, a7, 32
	srli	a1, s6, 32
	srli	s1, s2, 32
	srli	s0, t6, 32
	srli	a7, t2, 32
	srli	a2, a2, 32
	or	t1, a0, t1
	or	t2, a5, t3
	or	t6, a3, a6
	or	a1, a1, s9
	or	a6, s1, s5
	or	t3, s0, t4
	or	t4, a7, t5
	or	a2, a2, t0
	srli	a7, t2, 1
	srli	s0, t3, 1
	srli	a5, t1, 1
	srli	s1, a6, 1
	xor	a3, a1, a7
	xor	s0, s0, a2
	xor	a5, t6, a5
	xor	s1, t4, s1
	ld	a0, 160(sp)                     # 8-byte Folded Reload
	and	a3, a3, a0
	and	s0, s0, a0
	and	a5, a5, a0
	and	s1, s1, a0
	slli	a0, a3, 1
	xor	a7, a3, a1
	slli	a1, s0, 1
	xor	s2, s0, a2
	slli	a2, a5, 1
	xor	t5, a5, t6
	slli	a3, s1, 1
	xor	s1, s1, t4
	xor	t0, a0, t2
	xor	t2, a1, t3
	xor	t1, a2, t1
	xor	a2, a3, a6
	srli	a3, a7, 2
	srli	a5, t5, 2
	srli	a1, t0, 2
	srli	s0, t1, 2
	xor	a3, s2, a3
	xor	a5, a5, s1
	xor	a1, t2, a1
	xor	s0, s0, a2
	ld	a0, 152(sp)                     # 8-byte Folded Reload
	and	a3, a3, a0
	and	a5, a5, a0
	and	a1, a1, a0
	and	s0, s0, a0
	slli	a0, a3, 2
	xor	a6, a3, s2
	slli	a3, a5, 2
	xor	s2, a5, s1
	slli	t3, a1, 2
	xor	t4, a1, t2
	slli	t2, s0, 2
	xor	t6, s0, a2
	xor	a7, a0, a7
	xor	t5, a3, t5
	srli	a0, a6, 4
	xor	t3, t3, t0
	xor	a1, t2, t1
	srli	s0, a7, 4
	srli	a2, t4, 4
	xor	a0, a0, s2
	srli	s1, t3, 4
	xor	s0, s0, t5
	xor	a2, a2, t6
	ld	a5, 144(sp)                     # 8-byte Folded Reload
	and	a0, a0, a5
	xor	s1, s1, a1
	and	s0, s0, a5
	and	a2, a2, a5
	slli	a3, a0, 4
	xor	t0, a0, s2
	and	s1, s1, a5
	slli	a0, s0, 4
	xor	s0, s0, t5
	slli	a5, a2, 4
	xor	a2, a2, t6
	xor	t1, a3, a6
	slli	a3, s1, 4
	xor	a1, a1, s1
	xor	a0, a0, a7
	xor	s1, a5, t4
	xor	s0, s0, a2
	xor	ra, a3, t3
	xor	t6, a1, t0
	xor	s7, a0, t0
	xor	t4, s1, a1
	xor	s4, s1, t0
	xor	t2, ra, s0
	xor	s5, s7, t4
	xor	a6, t2, a1
	xor	a1, t1, s5
	xor	s2, t2, t0
	xor	s3, t2, a0
	and	a0, a6, ra
	xor	s9, a1, s1
	xor	a1, a1, a2
	xor	s6, s3, s4
	and	t1, s3, t2
	xor	s11, a1, t6
	xor	s8, s9, ra
	and	a2, s9, s5
	xor	t3, s9, s0
	xor	a0, a0, s4
	and	s1, s11, t6
	xor	s10, s11, s0
	xor	t5, s11, t3
	xor	a7, s11, ra
	and	s0, t3, s4
	and	a3, s8, s6
	xor	a0, a0, t3
	xor	a1, a1, a2
	xor	a0, a0, a2
	and	a2, t5, t4
	xor	a1, a1, a3
	and	a3, a7, s2
	xor	s0, s0, s1
	xor	a2, a2, s1
	and	s1, s10, s7
	xor	a5, s10, t1
	xor	a0, a0, s0
	xor	a5, a5, s1
	xor	a3, s10, a3
	xor	s1, s1, t0
	xor	a1, a1, a2
	xor	a5, a5, s7
	xor	a3, a3, s1
	xor	a2, a2, a5
	xor	a3, a3, s0
	xor	t0, a1, a0
	and	a1, a1, a2
	xor	s1, a3, a2
	xor	s0, a1, a0
	xor	a5, a1, a3
	and	s0, s0, s1
	and	s1, a5, t0
	xor	s1, s1, a0
	xor	a1, a1, s0
	xor	s0, s0, a3
	and	a1, a1, a3
	xor	a5, a5, a1
	xor	a1, a1, a2
	and	a5, a5, s1
	xor	a2, a5, t0
	and	a6, s0, a6
	and	ra, s0, ra
	and	a5, a1, s9
	and	t0, a1, s5
	xor	a1, a1, s0
	xor	s0, s0, s1
	and	t1, s1, s2
	and	a0, s1, a7
	and	a3, a1, s8
	and	a7, a1, s6
	xor	a1, a1, a2
	xor	s1, s1, a2
	and	t2, a2, t2
	and	s2, a2, s3
	xor	a2, a5, ra
	xor	s5, a3, a5
	and	a5, s1, s10
	and	s6, s1, s7
	and	s3, s0, s11
	and	a3, s0, t6
	xor	t6, a2, a0
	and	t3, a1, t3
	xor	s0, s0, a1
	and	a1, a1, s4
	and	a0, s0, t4
	xor	s1, a5, t2
	and	s0, s0, t5
	xor	t4, t6, a5
	xor	a2, t3, a2
	xor	t2, a3, a1
	xor	a0, a0, a3
	xor	s0, s0, s1
	xor	a3, t4, s2
	xor	t3, s5, s1
	xor	a2, a2, s6
	xor	a1, a0, a7
	xor	a0, a0, a3
	xor	a2, a2, s0
	xor	a3, s0, s3
	xor	s0, a1, t0
	xor	s1, a2, t1
	xor	a1, a1, a6
	xor	a5, a0, s6
	xor	a2, a2, a0
	xor	a0, t2, a3
	xor	t1, t3, s0
	xor	t5, a1, s1
	xor	t0, s0, a3
	not	s4, a5
	not	s3, a2
	xor	a0, a0, s1
	xor	a7, t1, t4
	not	t6, a0
	xor	a6, a3, t1
	srli	t2, s4, 8
	srli	t3, s3, 8
	srli	t4, t5, 8
	srli	s2, t1, 8
	srli	s5, t0, 8
	not	s6, a6
	xor	a0, t2, s4
	xor	a5, t3, s3
	xor	a3, t4, t5
	srli	a2, a7, 8
	xor	s0, s2, t1
	srli	s1, t6, 8
	xor	a6, s5, t0
	ld	a1, 8(sp)                       # 8-byte Folded Reload
	and	a0, a0, a1
	and	a5, a5, a1
	and	a3, a3, a1
	xor	t3, a2, a7
	and	s0, s0, a1
	xor	t4, s1, t6
	srli	t2, s6, 8
	and	a2, a6, a1
	slli	a6, a0, 8
	xor	s2, s4, a0
	slli	s4, a5, 8
	xor	a5, s3, a5
	slli	s3, a3, 8
	and	s1, t3, a1
	slli	t3, s0, 8
	and	a0, t4, a1
	xor	t4, t2, s6
	slli	s5, a2, 8
	xor	t2, a6, s2
	xor	a6, s4, a5
	add	a3, a3, s3
	slli	a5, s1, 8
	add	t3, t3, s0
	slli	s2, a0, 8
	xor	s0, t6, a0
	and	a1, t4, a1
	add	a2, a2, s5
	xor	t4, a3, t5
	add	a5, a5, s1
	xor	t1, t3, t1
	xor	t3, s2, s0
	slli	a0, a1, 8
	xor	a1, s6, a1
	xor	t0, a2, t0
	srli	s1, t2, 4
	srli	s0, a6, 4
	xor	s2, a5, a7
	xor	s3, a0, a1
	xor	a7, s1, t2
	xor	t5, s0, a6
	srli	t6, t4, 4
	srli	s0, t1, 4
	srli	s4, t3, 4
	srli	a3, t0, 4
	ld	a0, 16(sp)                      # 8-byte Folded Reload
	and	a1, a7, a0
	and	s1, t5, a0
	xor	a2, t6, t4
	srli	a5, s2, 4
	xor	s0, s0, t1
	xor	s4, s4, t3
	srli	a7, s3, 4
	xor	a3, a3, t0
	slli	t5, a1, 4
	slli	t6, s1, 4
	and	a2, a2, a0
	xor	a5, a5, s2
	and	s0, s0, a0
	and	s6, s4, a0
	xor	a7, a7, s3
	and	a3, a3, a0
	add	a1, a1, t5
	add	t6, t6, s1
	slli	s5, a2, 4
	and	a5, a5, a0
	slli	t5, s0, 4
	slli	s4, s6, 4
	and	s1, a7, a0
	xor	t2, a1, t2
	slli	a7, a3, 4
	xor	t6, t6, a6
	add	a2, a2, s5
	slli	a1, a5, 4
	add	t5, t5, s0
	add	a0, s4, s6
	slli	s0, s1, 4
	add	a3, a3, a7
	xor	s5, a2, t4
	add	a6, a1, a5
	xor	a5, t5, t1
	xor	s4, a0, t3
	add	s0, s0, s1
	xor	s6, a3, t0
	srli	a3, t2, 16
	slli	a1, t2, 48
	srli	a0, t6, 16
	slli	a2, t6, 48
	xor	t3, a6, s2
	xor	s2, s0, s3
	or	a6, a1, a3
	or	a7, a2, a0
	srli	t0, s5, 16
	slli	t1, s5, 48
	srli	t4, a5, 16
	slli	t5, a5, 48
	srli	s0, s4, 16
	slli	a0, s4, 48
	srli	s1, s6, 16
	slli	a1, s6, 48
	or	s3, t1, t0
	srli	a2, t3, 16
	slli	a3, t3, 48
	or	t1, t5, t4
	or	t4, a0, s0
	srli	a0, s2, 16
	slli	s0, s2, 48
	or	t0, a1, s1
	xor	s7, a6, t2
	xor	a1, a7, t6
	or	t2, a3, a2
	or	t5, s0, a0
	xor	s8, s3, s5
	xor	a0, t1, a5
	xor	a2, t4, s4
	xor	s1, t0, s6
	srli	t6, s7, 32
	slli	s4, s7, 32
	srli	s5, a1, 32
	xor	s3, s3, a1
	slli	a1, a1, 32
	xor	s9, t5, s2
	or	s6, s4, t6
	or	t6, a1, s5
	srli	a3, s8, 32
	slli	a1, s8, 32
	or	s2, a1, a3
	srli	a3, a0, 32
	xor	t4, a0, t4
	slli	a0, a0, 32
	or	s4, a0, a3
	srli	a3, a2, 32
	xor	t5, t5, a2
	slli	a2, a2, 32
	or	s5, a2, a3
	srli	a3, s1, 32
	xor	a1, a6, s1
	xor	a0, a7, s1
	xor	a5, s8, s1
	xor	a2, t1, s1
	slli	s1, s1, 32
	or	a6, s1, a3
	xor	t1, a1, s6
	xor	a0, a0, t6
	xor	s1, t2, t3
	xor	a7, a5, t2
	srli	a3, s1, 32
	xor	a2, a2, s1
	slli	s1, s1, 32
	or	a3, a3, s1
	srli	s0, s9, 32
	xor	s1, t0, s9
	slli	s9, s9, 32
	or	s0, s9, s0
	xor	a0, a0, s7
	xor	a5, s3, s2
	xor	t0, a2, s4
	xor	t4, t4, s5
	xor	a6, a6, s1
	xor	a3, a7, a3
	srli	a1, t1, 1
	xor	t2, t5, s0
	xor	a1, a1, a0
	srli	s1, a5, 1
	ld	a2, 160(sp)                     # 8-byte Folded Reload
	and	a1, a1, a2
	xor	t3, a1, a0
	slli	a1, a1, 1
	xor	a7, a1, t1
	srli	a1, t0, 1
	xor	s1, s1, a3
	xor	a1, a1, t4
	and	s1, s1, a2
	xor	a3, a3, s1
	slli	s1, s1, 1
	xor	a5, a5, s1
	srli	s0, t2, 1
	and	a1, a1, a2
	xor	s1, s0, a6
	xor	t1, a1, t4
	slli	a1, a1, 1
	and	s1, s1, a2
	xor	t0, a1, t0
	srli	a0, t3, 2
	xor	s0, s1, a6
	slli	s1, s1, 1
	xor	s1, s1, t2
	srli	a1, a7, 2
	xor	a0, a0, a3
	ld	a2, 152(sp)                     # 8-byte Folded Reload
	and	a0, a0, a2
	xor	a3, a3, a0
	slli	a0, a0, 2
	xor	t2, a0, t3
	srli	a0, t1, 2
	xor	a1, a1, a5
	and	a1, a1, a2
	xor	a6, a1, a5
	slli	a1, a1, 2
	xor	t4, a1, a7
	srli	a1, t0, 2
	xor	a0, a0, s0
	xor	a1, a1, s1
	and	a5, a0, a2
	and	a0, a1, a2
	xor	s0, s0, a5
	slli	a2, a5, 2
	xor	a5, a2, t1
	srli	a2, a3, 4
	xor	a1, a0, s1
	slli	a0, a0, 2
	xor	t6, a0, t0
	srli	a0, t2, 4
	xor	a2, a2, s0
	ld	s1, 144(sp)                     # 8-byte Folded Reload
	and	a2, a2, s1
	xor	s0, s0, a2
	slli	a2, a2, 4
	xor	a7, a2, a3
	srli	a3, a6, 4
	xor	a0, a0, a5
	xor	a3, a3, a1
	and	a0, a0, s1
	and	a3, a3, s1
	xor	a5, a5, a0
	slli	a0, a0, 4
	xor	t0, a3, a1
	slli	a3, a3, 4
	xor	t5, a0, t2
	srli	a0, s0, 32
	xor	a3, a3, a6
	srli	a1, s0, 16
	sb	a1, 53(a4)
	srli	a1, s0, 48
	sb	a0, 54(a4)
	srli	a0, s0, 24
	sb	s0, 52(a4)
	sb	a1, 55(a4)
	srli	a1, s0, 8
	sb	a1, 60(a4)
	srli	a1, s0, 40
	sb	a0, 61(a4)
	srli	a0, t4, 4
	xor	a0, a0, t6
	and	a2, a0, s1
	srli	s0, s0, 56
	xor	a0, a2, t6
	slli	a2, a2, 4
	sb	a1, 62(a4)
	srli	a1, a5, 24
	sb	s0, 63(a4)
	srli	s1, a5, 32
	xor	s0, a2, t4
	srli	a2, a5, 16
	sb	a2, 21(a4)
	srli	a2, a5, 8
	sb	a2, 28(a4)
	srli	a2, a5, 40
	sb	a1, 29(a4)
	srli	a1, a5, 48
	sb	s1, 22(a4)
	sb	a1, 23(a4)
	sb	a5, 20(a4)
	srli	a5, a5, 56
	sb	a2, 30(a4)
	srli	a1, t0, 32
	sb	a5, 31(a4)
	srli	a2, t0, 16
	sb	a2, 37(a4)
	srli	a2, t0, 48
	sb	a1, 38(a4)
	srli	a1, t0, 24
	sb	t0, 36(a4)
	sb	a2, 39(a4)
	srli	a2, t0, 8
	sb	a2, 44(a4)
	srli	a2, t0, 56
	srli	a5, t0, 40
	sb	a1, 45(a4)
	srli	a1, a7, 24
	sb	a5, 46(a4)
	srli	a5, a7, 32
	sb	a2, 47(a4)
	srli	a2, a7, 16
	sb	a2, 49(a4)
	srli	a2, a7, 8
	sb	a2, 56(a4)
	srli	a2, a7, 40
	sb	a1, 57(a4)
	srli	a1, a7, 48
	sb	a5, 50(a4)
	sb	a1, 51(a4)
	sb	a7, 48(a4)
	srli	a1, a7, 56
	sb	a2, 58(a4)
	srli	a2, a0, 32
	sb	a1, 59(a4)
	srli	a1, a0, 16
	sb	a1, 5(a4)
	srli	a1, a0, 48
	sb	a2, 6(a4)
	srli	a2, a0, 24
	sb	a0, 4(a4)
	sb	a1, 7(a4)
	srli	a1, a0, 8
	sb	a1, 12(a4)
	srli	a1, a0, 56
	srli	a0, a0, 40
	sb	a2, 13(a4)
	srli	a2, t5, 24
	sb	a0, 14(a4)
	srli	a0, t5, 32
	sb	a1, 15(a4)
	srli	a1, t5, 16
	sb	a1, 17(a4)
	srli	a1, t5, 8
	sb	a1, 24(a4)
	srli	a1, t5, 40
	sb	a2, 25(a4)
	srli	a2, t5, 48
	sb	a0, 18(a4)
	sb	a2, 19(a4)
	sb	t5, 16(a4)
	srli	a0, t5, 56
	sb	a1, 26(a4)
	srli	a1, a3, 32
	sb	a0, 27(a4)
	srli	a0, a3, 16
	sb	a0, 33(a4)
	srli	a0, a3, 48
	sb	a1, 34(a4)
	srli	a1, a3, 24
	sb	a3, 32(a4)
	sb	a0, 35(a4)
	srli	a0, a3, 8
	sb	a0, 40(a4)
	srli	a0, a3, 56
	srli	a3, a3, 40
	sb	a1, 41(a4)
	srli	a1, s0, 24
	sb	a3, 42(a4)
	srli	a2, s0, 32
	sb	a0, 43(a4)
	srli	a0, s0, 16
	sb	a0, 1(a4)
	srli	a0, s0, 8
	sb	a0, 8(a4)
	srli	a0, s0, 40
	sb	a1, 9(a4)
	srli	a1, s0, 48
	sb	a2, 2(a4)
	sb	a1, 3(a4)
	sb	s0, 0(a4)
	srli	s0, s0, 56
	sb	a0, 10(a4)
	ld	a0, 136(sp)                     # 8-byte Folded Reload
	andi	a0, a0, 1
	sb	s0, 11(a4)
	li	a4, 64
	li	a1, 0
	bnez	a0, .Laes_narrow_BB38_1
# %bb.2:                                # %join.5.i.i.i.preheader
	ld	a0, 24(sp)                      # 8-byte Folded Reload
	addi	a2, a0, 7
	ld	a1, 0(sp)                       # 8-byte Folded Reload
	addi	a1, a1, 7
	addi	a6, a0, 135
.Laes_narrow_BB38_3:                               # %join.5.i.i.i
                                        # =>This Inner Loop Header: Depth=1
	lbu	a7, -3(a2)
	lbu	t0, -2(a2)
	lbu	t1, -1(a2)
	lbu	t2, 0(a2)
	lbu	t3, 1(a2)
	lbu	t4, 2(a2)
	lbu	t5, 3(a2)
	lbu	t6, 4(a2)
	lbu	s2, 5(a2)
	lbu	s3, 6(a2)
	lbu	s4, 7(a2)
	lbu	s5, 8(a2)
	lbu	a3, 5(a1)
	lbu	a4, 6(a1)
	lbu	a5, 7(a1)
	lbu	s1, 8(a1)
	lbu	s6, 1(a1)
	lbu	s7, 2(a1)
	lbu	s0, 3(a1)
	lbu	a0, 4(a1)
	xor	s5, s1, s5
	xor	s4, a5, s4
	xor	s3, a4, s3
	xor	s2, a3, s2
	lbu	s8, -3(a1)
	lbu	a5, -2(a1)
	lbu	a4, -1(a1)
	lbu	a3, 0(a1)
	xor	t6, a0, t6
	xor	t5, s0, t5
	xor	t4, s7, t4
	xor	t3, s6, t3
	lbu	s6, -7(a2)
	lbu	s7, -6(a2)
	lbu	a0, -5(a2)
	lbu	s1, -4(a2)
	xor	t2, a3, t2
	xor	t1, a4, t1
	xor	t0, a5, t0
	xor	a7, s8, a7
	lbu	a4, -4(a1)
	lbu	a5, -5(a1)
	lbu	a3, -6(a1)
	lbu	s0, -7(a1)
	xor	a4, a4, s1
	xor	a0, a0, a5
	xor	a3, a3, s7
	xor	a5, s0, s6
	sb	a5, -7(a2)
	sb	a3, -6(a2)
	sb	a0, -5(a2)
	sb	a4, -4(a2)
	sb	a7, -3(a2)
	sb	t0, -2(a2)
	sb	t1, -1(a2)
	sb	t2, 0(a2)
	sb	t3, 1(a2)
	sb	t4, 2(a2)
	sb	t5, 3(a2)
	sb	t6, 4(a2)
	sb	s2, 5(a2)
	sb	s3, 6(a2)
	sb	s4, 7(a2)
	sb	s5, 8(a2)
	addi	a2, a2, 16
	addi	a1, a1, 16
	bne	a2, a6, .Laes_narrow_BB38_3
# %bb.4:                                # %"aes_soft::soft::hazmat::par::cipher_round_par::<#cf21cbf2af48237e>.exit"
	ld	ra, 264(sp)                     # 8-byte Folded Reload
	ld	s0, 256(sp)                     # 8-byte Folded Reload
	ld	s1, 248(sp)                     # 8-byte Folded Reload
	ld	s2, 240(sp)                     # 8-byte Folded Reload
	ld	s3, 232(sp)                     # 8-byte Folded Reload
	ld	s4, 224(sp)                     # 8-byte Folded Reload
	ld	s5, 216(sp)                     # 8-byte Folded Reload
	ld	s6, 208(sp)                     # 8-byte Folded Reload
	ld	s7, 200(sp)                     # 8-byte Folded Reload
	ld	s8, 192(sp)                     # 8-byte Folded Reload
	ld	s9, 184(sp)                     # 8-byte Folded Reload
	ld	s10, 176(sp)                    # 8-byte Folded Reload
	ld	s11, 168(sp)                    # 8-byte Folded Reload
	addi	sp, sp, 272
	ret
.Laes_narrow_func_end38:
	.size	aes_narrow.aes_c.single_rounds.rounds, .Laes_narrow_func_end38-aes_narrow.aes_c.single_rounds.rounds
                                        # -- End function
	.section	.text.aes_narrow.ccm.mode.decrypt,"ax",@progbits
	.p2align	1                               # -- Begin function ccm::mode::decrypt::<#f7269deedbd939eb>
	.type	aes_narrow.ccm.mode.decrypt,@function
aes_narrow.ccm.mode.decrypt: # @aes_narrow.ccm.mode.decrypt
# %bb.0:                                # %start
	addi	sp, sp, -144
	sd	ra, 136(sp)                     # 8-byte Folded Spill
	sd	s0, 128(sp)                     # 8-byte Folded Spill
	sd	s1, 120(sp)                     # 8-byte Folded Spill
	sd	s2, 112(sp)                     # 8-byte Folded Spill
	sd	s3, 104(sp)                     # 8-byte Folded Spill
	sd	s4, 96(sp)                      # 8-byte Folded Spill
	sd	s5, 88(sp)                      # 8-byte Folded Spill
	sd	s6, 80(sp)                      # 8-byte Folded Spill
	sd	s7, 72(sp)                      # 8-byte Folded Spill
	sd	s8, 64(sp)                      # 8-byte Folded Spill
	sd	s9, 56(sp)                      # 8-byte Folded Spill
	sd	s10, 48(sp)                     # 8-byte Folded Spill
	sd	s11, 40(sp)                     # 8-byte Folded Spill
	addi	t0, t4, -4
	li	s0, 12
	li	s1, 0
	bltu	s0, t0, .Laes_narrow_BB39_7
# %bb.1:                                # %start
	andi	s0, t4, 1
	bnez	s0, .Laes_narrow_BB39_7
# %bb.2:                                # %after.1.i
	addi	s1, a3, -14
	li	s0, -7
	bgeu	s1, s0, .Laes_narrow_BB39_4
# %bb.3:
	li	s1, 1
	j	.Laes_narrow_BB39_7
.Laes_narrow_BB39_4:                               # %"ccm::formatting::check.exit"
	li	s1, 7
	beq	a3, s1, .Laes_narrow_BB39_9
# %bb.5:                                # %"ccm::formatting::check.exit"
	slli	s1, a3, 3
	xori	s1, s1, 120
	srl	s1, a7, s1
	beqz	s1, .Laes_narrow_BB39_9
# %bb.6:
	li	s1, 2
.Laes_narrow_BB39_7:                               # %arm.1
	li	a1, 1
	sb	a1, 0(a0)
	sb	zero, 1(a0)
	sb	s1, 2(a0)
.Laes_narrow_BB39_8:                               # %common.ret
	ld	ra, 136(sp)                     # 8-byte Folded Reload
	ld	s0, 128(sp)                     # 8-byte Folded Reload
	ld	s1, 120(sp)                     # 8-byte Folded Reload
	ld	s2, 112(sp)                     # 8-byte Folded Reload
	ld	s3, 104(sp)                     # 8-byte Folded Reload
	ld	s4, 96(sp)                      # 8-byte Folded Reload
	ld	s5, 88(sp)                      # 8-byte Folded Reload
	ld	s6, 80(sp)                      # 8-byte Folded Reload
	ld	s7, 72(sp)                      # 8-byte Folded Reload
	ld	s8, 64(sp)                      # 8-byte Folded Reload
	ld	s9, 56(sp)                      # 8-byte Folded Reload
	ld	s10, 48(sp)                     # 8-byte Folded Reload
	ld	s11, 40(sp)                     # 8-byte Folded Reload
	addi	sp, sp, 144
	ret
.Laes_narrow_BB39_9:                               # %join.4
	sd	a0, 0(sp)                       # 8-byte Folded Spill
	li	a0, 14
	sub	s11, a0, a3
	sd	zero, 8(sp)
	sw	zero, 16(sp)
	sh	zero, 20(sp)
	sb	zero, 22(sp)
	addi	a0, sp, 8
	mv	s0, a1
	mv	a1, a2
	mv	s3, a2
	mv	a2, a3
	mv	s6, a7
	mv	s1, a6
	mv	s4, a3
	mv	s7, t4
	mv	s8, t3
	mv	s9, a5
	mv	s10, a4
	la	t1, memcpy
	jalr	t1
	sb	s11, 24(sp)
	addi	a0, sp, 25
	addi	a1, sp, 8
	li	a2, 15
	la	t1, memcpy
	jalr	t1
	addi	a1, sp, 24
	li	a2, 16
	mv	a0, s0
	mv	a3, s1
	mv	a4, s6
	call	aes_narrow.aes_ctr.add_in_batches.add_keystream
	sd	zero, 8(sp)
	sd	zero, 16(sp)
	addi	t3, sp, 8
	mv	s2, s0
	mv	a0, s0
	mv	s5, s3
	mv	a1, s3
	mv	s0, s4
	mv	a2, s4
	mv	a3, s7
	mv	a4, s10
	mv	a5, s9
	mv	s3, s1
	mv	a6, s1
	mv	s4, s6
	mv	a7, s6
	call	aes_narrow.ccm.message.put_tag
	ld	a0, 8(sp)
	ld	a1, 16(sp)
	sd	a0, 24(sp)
	sd	a1, 32(sp)
	addi	a0, sp, 24
	mv	a1, s8
	mv	a2, s7
	la	t1, memcpy
	jalr	t1
	addi	a0, sp, 24
	addi	a1, sp, 8
	call	aes_narrow.aes_cipher.blocks.difference
	slli	a0, a0, 32
	srli	a0, a0, 32
	beqz	a0, .Laes_narrow_BB39_11
# %bb.10:                               # %join.7
	sd	zero, 8(sp)
	sw	zero, 16(sp)
	sh	zero, 20(sp)
	sb	zero, 22(sp)
	addi	a0, sp, 8
	mv	a1, s5
	mv	a2, s0
	la	t1, memcpy
	jalr	t1
	sb	s11, 24(sp)
	addi	a0, sp, 25
	addi	a1, sp, 8
	li	a2, 15
	la	t1, memcpy
	jalr	t1
	addi	a1, sp, 24
	li	a2, 16
	mv	a0, s2
	mv	a3, s3
	mv	a4, s4
	call	aes_narrow.aes_ctr.add_in_batches.add_keystream
	li	a0, 1
	ld	a1, 0(sp)                       # 8-byte Folded Reload
	sb	a0, 0(a1)
	sb	a0, 1(a1)
	sb	zero, 2(a1)
	j	.Laes_narrow_BB39_8
.Laes_narrow_BB39_11:                              # %then.5
	ld	a0, 0(sp)                       # 8-byte Folded Reload
	sb	zero, 0(a0)
	sb	zero, 1(a0)
	sb	zero, 2(a0)
	j	.Laes_narrow_BB39_8
.Laes_narrow_func_end39:
	.size	aes_narrow.ccm.mode.decrypt, .Laes_narrow_func_end39-aes_narrow.ccm.mode.decrypt
                                        # -- End function
	.section	.text.aes_narrow.ccm.message.put_tag,"ax",@progbits
	.p2align	1                               # -- Begin function ccm::message::put_tag::<#f7269deedbd939eb>
	.type	aes_narrow.ccm.message.put_tag,@function
aes_narrow.ccm.message.put_tag: # @aes_narrow.ccm.message.put_tag
# %bb.0:                                # %start
	addi	sp, sp, -192
	sd	ra, 184(sp)                     # 8-byte Folded Spill
	sd	s0, 176(sp)                     # 8-byte Folded Spill
	sd	s1, 168(sp)                     # 8-byte Folded Spill
	sd	s2, 160(sp)                     # 8-byte Folded Spill
	sd	s3, 152(sp)                     # 8-byte Folded Spill
	sd	s4, 144(sp)                     # 8-byte Folded Spill
	sd	s5, 136(sp)                     # 8-byte Folded Spill
	sd	s6, 128(sp)                     # 8-byte Folded Spill
	sd	s7, 120(sp)                     # 8-byte Folded Spill
	sd	s8, 112(sp)                     # 8-byte Folded Spill
	sd	s9, 104(sp)                     # 8-byte Folded Spill
	sd	s10, 96(sp)                     # 8-byte Folded Spill
	sd	s11, 88(sp)                     # 8-byte Folded Spill
	mv	s5, t3
	mv	s6, a5
	mv	s4, a4
	mv	s2, a2
	mv	s10, a0
	sd	zero, 32(sp)
	sd	zero, 40(sp)
	srli	a0, a7, 40
	lui	s1, 16
	srli	a2, a7, 56
	srli	a4, a7, 24
	lui	a5, 4080
	addi	s1, s1, -256
	and	a0, a0, s1
	or	a0, a0, a2
	srli	a2, a7, 8
	and	a4, a4, a5
	srliw	a2, a2, 24
	slli	a2, a2, 24
	or	a2, a2, a4
	srliw	a4, a7, 24
	and	a5, a7, a5
	slli	a4, a4, 32
	slli	a5, a5, 24
	or	a4, a4, a5
	addi	a5, a3, -2
	sltu	a3, a3, a5
	addi	a3, a3, -1
	and	a3, a3, a5
	slli	a5, a7, 56
	sd	a7, 24(sp)                      # 8-byte Folded Spill
	and	s1, a7, s1
	slli	s1, s1, 40
	or	a0, a0, a2
	or	a5, a5, s1
	slli	a3, a3, 2
	or	a4, a4, a5
	andi	a2, a3, 248
	or	a0, a0, a4
	sd	a0, 48(sp)
	sub	a0, a2, s2
	mv	s0, a6
	beqz	s6, .Laes_narrow_BB40_2
# %bb.1:                                # %start
	li	s1, 78
	j	.Laes_narrow_BB40_3
.Laes_narrow_BB40_2:
	li	s1, 14
.Laes_narrow_BB40_3:                               # %start
	add	s1, s1, a0
	sd	zero, 56(sp)
	sw	zero, 64(sp)
	sh	zero, 68(sp)
	sb	zero, 70(sp)
	addi	a0, sp, 56
	sd	a1, 16(sp)                      # 8-byte Folded Spill
	mv	a2, s2
	la	t1, memcpy
	jalr	t1
	sb	s1, 72(sp)
	addi	s8, sp, 73
	addi	a1, sp, 56
	li	a2, 15
	li	s1, 15
	mv	a0, s8
	la	t1, memcpy
	jalr	t1
	add	a0, s8, s2
	addi	a1, sp, 48
	add	a1, a1, s2
	addi	a1, a1, -7
	sd	s2, 8(sp)                       # 8-byte Folded Spill
	sub	a2, s1, s2
	la	t1, memcpy
	jalr	t1
	lbu	a0, 72(sp)
	lbu	a1, 73(sp)
	lbu	a2, 74(sp)
	lbu	a3, 75(sp)
	lbu	a4, 76(sp)
	lbu	a5, 77(sp)
	lbu	s1, 78(sp)
	lbu	a6, 79(sp)
	lbu	a7, 80(sp)
	lbu	t0, 81(sp)
	lbu	t1, 82(sp)
	lbu	t2, 83(sp)
	lbu	t3, 84(sp)
	lbu	t4, 85(sp)
	lbu	t5, 86(sp)
	lbu	t6, 87(sp)
	sb	a0, 0(s5)
	sb	a1, 1(s5)
	sb	a2, 2(s5)
	sb	a3, 3(s5)
	sb	a4, 4(s5)
	sb	a5, 5(s5)
	sb	s1, 6(s5)
	sb	a6, 7(s5)
	sb	a7, 8(s5)
	sb	t0, 9(s5)
	sb	t1, 10(s5)
	sb	t2, 11(s5)
	sb	t3, 12(s5)
	sb	t4, 13(s5)
	sb	t5, 14(s5)
	sb	t6, 15(s5)
	lbu	a6, 0(s10)
	lbu	t0, 1(s10)
	lbu	t1, 2(s10)
	lbu	t2, 3(s10)
	lbu	a7, 4(s10)
	lbu	t4, 5(s10)
	lbu	t5, 6(s10)
	lbu	t6, 7(s10)
	lbu	t3, 8(s10)
	lbu	a1, 9(s10)
	lbu	a2, 10(s10)
	lbu	a3, 11(s10)
	lbu	s8, 12(s10)
	lbu	a5, 13(s10)
	lbu	s1, 14(s10)
	lbu	a0, 15(s10)
	slli	t0, t0, 8
	slli	t1, t1, 16
	slli	t2, t2, 24
	slli	t4, t4, 8
	slli	t5, t5, 16
	slli	t6, t6, 24
	slli	s9, a1, 8
	slli	s11, a2, 16
	slli	ra, a3, 24
	slli	a5, a5, 8
	slli	s1, s1, 16
	slli	a0, a0, 24
	or	a6, t0, a6
	or	t0, t2, t1
	or	a2, t4, a7
	or	a3, t6, t5
	or	a4, s9, t3
	or	a1, ra, s11
	or	a5, a5, s8
	or	a0, a0, s1
	or	s1, t0, a6
	or	a2, a2, a3
	or	a1, a1, a4
	or	a0, a0, a5
	slli	a2, a2, 32
	slli	a3, a0, 32
	or	a0, a2, s1
	or	a1, a1, a3
	li	a3, 1
	mv	a2, s5
	call	aes_narrow.aes_narrow.blocks.process_all_batches.1
	call	aes_narrow.aes_cipher.zeroize.stack.wipe_stack.1024
	beqz	s6, .Laes_narrow_BB40_15
# %bb.4:                                # %join.3.i
	sd	zero, 56(sp)
	sd	zero, 64(sp)
	srli	a0, s6, 24
	lui	a1, 4080
	srli	a3, s6, 8
	li	s1, 255
	srli	a2, s6, 40
	lui	a5, 16
	and	a0, a0, a1
	slli	a4, s1, 24
	and	a4, a4, a3
	or	a0, a0, a4
	srli	a4, s6, 56
	addi	a5, a5, -256
	and	a2, a2, a5
	or	a2, a2, a4
	srliw	a4, s6, 24
	and	a1, s6, a1
	slli	a4, a4, 32
	slli	a1, a1, 24
	or	a1, a1, a4
	slli	a4, s6, 56
	and	a5, s6, a5
	slli	a5, a5, 40
	or	a0, a0, a2
	or	a2, a4, a5
	or	a2, a2, a1
	or	a1, a2, a0
	bgeu	a3, s1, .Laes_narrow_BB40_6
# %bb.5:                                # %then.1.i.i
	addi	a0, sp, 58
	srli	s11, a1, 48
	srli	s9, a1, 56
	li	s8, 14
	mv	s3, s8
	bgeu	s8, s6, .Laes_narrow_BB40_9
	j	.Laes_narrow_BB40_10
.Laes_narrow_BB40_6:                               # %join.3.i.i
	srli	a0, s6, 32
	bnez	a0, .Laes_narrow_BB40_8
# %bb.7:                                # %then.4.i.i
	addi	a0, sp, 62
	srli	a2, a2, 32
	li	s8, 10
	li	s11, 255
	srli	a1, a2, 16
	sh	a2, 58(sp)
	sh	a1, 60(sp)
	li	s9, 254
	mv	s3, s8
	bgeu	s8, s6, .Laes_narrow_BB40_9
	j	.Laes_narrow_BB40_10
.Laes_narrow_BB40_8:                               # %join.6.i.i
	addi	a0, sp, 66
	srli	a2, a1, 48
	srli	a3, a1, 32
	srli	a4, a1, 16
	li	s8, 6
	li	s9, 255
	sh	a1, 58(sp)
	sh	a4, 60(sp)
	sh	a3, 62(sp)
	sh	a2, 64(sp)
	li	s11, 255
	mv	s3, s8
	bltu	s8, s6, .Laes_narrow_BB40_10
.Laes_narrow_BB40_9:                               # %"ccm::formatting::put_length.exit.i"
	mv	s3, s6
.Laes_narrow_BB40_10:                              # %"ccm::formatting::put_length.exit.i"
	mv	a1, s4
	mv	a2, s3
	la	t1, memcpy
	jalr	t1
	lbu	a6, 62(sp)
	lbu	a7, 63(sp)
	lbu	t0, 64(sp)
	lbu	t1, 65(sp)
	lbu	t2, 66(sp)
	lbu	t3, 67(sp)
	lbu	t4, 68(sp)
	lbu	t5, 69(sp)
	lbu	t6, 70(sp)
	lbu	ra, 71(sp)
	lbu	a3, 12(s5)
	lbu	a4, 13(s5)
	lbu	a5, 14(s5)
	lbu	s1, 15(s5)
	lbu	a0, 8(s5)
	lbu	a1, 9(s5)
	lbu	a2, 10(s5)
	lbu	s7, 11(s5)
	xor	ra, s1, ra
	xor	t6, a5, t6
	xor	t5, a4, t5
	xor	t4, a3, t4
	lbu	s1, 58(sp)
	lbu	a5, 59(sp)
	lbu	a4, 60(sp)
	lbu	a3, 61(sp)
	xor	t3, s7, t3
	xor	t2, a2, t2
	xor	t1, a1, t1
	xor	t0, a0, t0
	lbu	a2, 7(s5)
	lbu	a1, 6(s5)
	lbu	a0, 5(s5)
	lbu	s7, 4(s5)
	xor	a7, a2, a7
	xor	a6, a1, a6
	xor	a0, a0, a3
	xor	s7, s7, a4
	lbu	a4, 3(s5)
	lbu	a2, 2(s5)
	lbu	a1, 1(s5)
	lbu	a3, 0(s5)
	xor	a4, a4, a5
	xor	a2, a2, s1
	xor	a1, a1, s9
	xor	a3, a3, s11
	sb	a3, 0(s5)
	sb	a1, 1(s5)
	sb	a2, 2(s5)
	sb	a4, 3(s5)
	sb	s7, 4(s5)
	sb	a0, 5(s5)
	sb	a6, 6(s5)
	sb	a7, 7(s5)
	sb	t0, 8(s5)
	sb	t1, 9(s5)
	sb	t2, 10(s5)
	sb	t3, 11(s5)
	sb	t4, 12(s5)
	sb	t5, 13(s5)
	sb	t6, 14(s5)
	sb	ra, 15(s5)
	lbu	a0, 0(s10)
	lbu	a1, 1(s10)
	lbu	a2, 2(s10)
	lbu	a3, 3(s10)
	lbu	a6, 4(s10)
	lbu	a5, 5(s10)
	lbu	s1, 6(s10)
	lbu	a4, 7(s10)
	slli	a1, a1, 8
	slli	a2, a2, 16
	slli	a3, a3, 24
	or	a7, a1, a0
	or	t0, a3, a2
	lbu	a1, 8(s10)
	lbu	a3, 9(s10)
	lbu	a0, 10(s10)
	lbu	a2, 11(s10)
	slli	a5, a5, 8
	slli	s1, s1, 16
	slli	a4, a4, 24
	slli	a3, a3, 8
	slli	a0, a0, 16
	slli	a2, a2, 24
	or	a6, a5, a6
	or	a4, a4, s1
	or	a1, a1, a3
	or	a0, a0, a2
	lbu	a2, 13(s10)
	lbu	a3, 12(s10)
	lbu	s1, 14(s10)
	lbu	a5, 15(s10)
	slli	a2, a2, 8
	or	a2, a2, a3
	slli	s1, s1, 16
	slli	a5, a5, 24
	or	a5, a5, s1
	or	a3, t0, a7
	or	a4, a4, a6
	or	a1, a1, a0
	or	a2, a2, a5
	slli	a0, a4, 32
	or	a0, a0, a3
	slli	a2, a2, 32
	or	a1, a1, a2
	li	a3, 1
	mv	a2, s5
	call	aes_narrow.aes_narrow.blocks.process_all_batches.1
	call	aes_narrow.aes_cipher.zeroize.stack.wipe_stack.1024
	bgeu	s8, s6, .Laes_narrow_BB40_15
# %bb.11:                               # %join.5.i45.i.preheader
	li	s9, 0
	add	s7, s4, s3
	sub	s6, s6, s3
	srli	s8, s6, 4
	andi	a0, s6, 15
	snez	a0, a0
	add	s8, s8, a0
	li	s3, 16
	j	.Laes_narrow_BB40_13
.Laes_narrow_BB40_12:                              # %join.5.i45.i
                                        #   in Loop: Header=BB40_13 Depth=1
	add	a2, a2, s9
	sd	zero, 72(sp)
	sd	zero, 80(sp)
	addi	a0, sp, 72
	mv	a1, s7
	la	t1, memcpy
	jalr	t1
	lbu	a6, 4(s5)
	lbu	a7, 5(s5)
	lbu	t0, 6(s5)
	lbu	t1, 7(s5)
	lbu	t2, 8(s5)
	lbu	t3, 9(s5)
	lbu	t4, 10(s5)
	lbu	t5, 11(s5)
	lbu	t6, 12(s5)
	lbu	s11, 13(s5)
	lbu	ra, 14(s5)
	lbu	a5, 15(s5)
	lbu	a0, 84(sp)
	lbu	a1, 85(sp)
	lbu	s1, 86(sp)
	lbu	a2, 87(sp)
	lbu	a3, 80(sp)
	lbu	a4, 81(sp)
	lbu	s2, 82(sp)
	lbu	s4, 83(sp)
	xor	a2, a2, a5
	xor	ra, s1, ra
	xor	s11, a1, s11
	xor	t6, a0, t6
	lbu	s1, 76(sp)
	lbu	a5, 77(sp)
	lbu	a1, 78(sp)
	lbu	a0, 79(sp)
	xor	t5, s4, t5
	xor	t4, s2, t4
	xor	t3, a4, t3
	xor	t2, a3, t2
	lbu	s2, 0(s5)
	lbu	s4, 1(s5)
	lbu	a4, 2(s5)
	lbu	a3, 3(s5)
	xor	t1, a0, t1
	xor	t0, a1, t0
	xor	a7, a5, a7
	xor	a6, s1, a6
	lbu	a0, 75(sp)
	lbu	a1, 74(sp)
	lbu	a5, 73(sp)
	lbu	s1, 72(sp)
	xor	a0, a0, a3
	xor	a1, a1, a4
	xor	a3, a5, s4
	xor	a4, s1, s2
	sb	a4, 0(s5)
	sb	a3, 1(s5)
	sb	a1, 2(s5)
	sb	a0, 3(s5)
	sb	a6, 4(s5)
	sb	a7, 5(s5)
	sb	t0, 6(s5)
	sb	t1, 7(s5)
	sb	t2, 8(s5)
	sb	t3, 9(s5)
	sb	t4, 10(s5)
	sb	t5, 11(s5)
	sb	t6, 12(s5)
	sb	s11, 13(s5)
	sb	ra, 14(s5)
	sb	a2, 15(s5)
	lbu	a0, 0(s10)
	lbu	a1, 1(s10)
	lbu	a2, 2(s10)
	lbu	a3, 3(s10)
	lbu	a6, 4(s10)
	lbu	a5, 5(s10)
	lbu	s1, 6(s10)
	lbu	a4, 7(s10)
	slli	a1, a1, 8
	slli	a2, a2, 16
	slli	a3, a3, 24
	or	a7, a1, a0
	or	t0, a3, a2
	lbu	a1, 8(s10)
	lbu	a3, 9(s10)
	lbu	a0, 10(s10)
	lbu	a2, 11(s10)
	slli	a5, a5, 8
	slli	s1, s1, 16
	slli	a4, a4, 24
	slli	a3, a3, 8
	slli	a0, a0, 16
	slli	a2, a2, 24
	or	a6, a5, a6
	or	a4, a4, s1
	or	a1, a1, a3
	or	a0, a0, a2
	lbu	a2, 13(s10)
	lbu	a3, 12(s10)
	lbu	s1, 14(s10)
	lbu	a5, 15(s10)
	slli	a2, a2, 8
	or	a2, a2, a3
	slli	s1, s1, 16
	slli	a5, a5, 24
	or	a5, a5, s1
	or	a3, t0, a7
	or	a4, a4, a6
	or	a1, a1, a0
	or	a2, a2, a5
	slli	a0, a4, 32
	or	a0, a0, a3
	slli	a2, a2, 32
	or	a1, a1, a2
	li	a3, 1
	mv	a2, s5
	call	aes_narrow.aes_narrow.blocks.process_all_batches.1
	call	aes_narrow.aes_cipher.zeroize.stack.wipe_stack.1024
	addi	s8, s8, -1
	addi	s3, s3, 16
	addi	s9, s9, -16
	addi	s7, s7, 16
	beqz	s8, .Laes_narrow_BB40_15
.Laes_narrow_BB40_13:                              # %join.5.i45.i
                                        # =>This Inner Loop Header: Depth=1
	mv	a2, s3
	bltu	s3, s6, .Laes_narrow_BB40_12
# %bb.14:                               # %join.5.i45.i
                                        #   in Loop: Header=BB40_13 Depth=1
	mv	a2, s6
	j	.Laes_narrow_BB40_12
.Laes_narrow_BB40_15:                              # %"ccm::message::chain_additional::<#f7269deedbd939eb>.exit"
	ld	a0, 24(sp)                      # 8-byte Folded Reload
	beqz	a0, .Laes_narrow_BB40_20
# %bb.16:                               # %join.5.i.preheader
	li	s6, 0
	ld	a0, 24(sp)                      # 8-byte Folded Reload
	srli	s7, a0, 4
	andi	a0, a0, 15
	snez	a0, a0
	add	s7, s7, a0
	li	s2, 16
	j	.Laes_narrow_BB40_18
.Laes_narrow_BB40_17:                              # %join.5.i
                                        #   in Loop: Header=BB40_18 Depth=1
	add	a2, a2, s6
	sd	zero, 72(sp)
	sd	zero, 80(sp)
	addi	a0, sp, 72
	mv	s11, s0
	mv	a1, s0
	la	t1, memcpy
	jalr	t1
	lbu	a6, 4(s5)
	lbu	a7, 5(s5)
	lbu	t0, 6(s5)
	lbu	t1, 7(s5)
	lbu	t2, 8(s5)
	lbu	t3, 9(s5)
	lbu	t4, 10(s5)
	lbu	t5, 11(s5)
	lbu	t6, 12(s5)
	lbu	s3, 13(s5)
	lbu	s4, 14(s5)
	lbu	s8, 15(s5)
	lbu	a0, 84(sp)
	lbu	s1, 85(sp)
	lbu	a1, 86(sp)
	lbu	a2, 87(sp)
	lbu	a3, 80(sp)
	lbu	a4, 81(sp)
	lbu	a5, 82(sp)
	lbu	s0, 83(sp)
	xor	s8, a2, s8
	xor	s4, a1, s4
	xor	s3, s1, s3
	xor	t6, a0, t6
	lbu	a2, 76(sp)
	lbu	a1, 77(sp)
	lbu	s1, 78(sp)
	lbu	a0, 79(sp)
	xor	t5, s0, t5
	xor	t4, a5, t4
	xor	t3, a4, t3
	xor	t2, a3, t2
	lbu	s9, 0(s5)
	lbu	a5, 1(s5)
	lbu	a4, 2(s5)
	lbu	a3, 3(s5)
	xor	t1, a0, t1
	xor	t0, s1, t0
	xor	a7, a1, a7
	xor	a2, a2, a6
	lbu	a0, 75(sp)
	lbu	s1, 74(sp)
	lbu	a1, 73(sp)
	lbu	s0, 72(sp)
	xor	a0, a0, a3
	xor	a4, a4, s1
	xor	a1, a1, a5
	xor	a3, s0, s9
	sb	a3, 0(s5)
	sb	a1, 1(s5)
	sb	a4, 2(s5)
	sb	a0, 3(s5)
	sb	a2, 4(s5)
	sb	a7, 5(s5)
	sb	t0, 6(s5)
	sb	t1, 7(s5)
	sb	t2, 8(s5)
	sb	t3, 9(s5)
	sb	t4, 10(s5)
	sb	t5, 11(s5)
	sb	t6, 12(s5)
	sb	s3, 13(s5)
	sb	s4, 14(s5)
	sb	s8, 15(s5)
	lbu	a0, 0(s10)
	lbu	a1, 1(s10)
	lbu	a2, 2(s10)
	lbu	a3, 3(s10)
	lbu	a4, 4(s10)
	lbu	a5, 5(s10)
	lbu	s1, 6(s10)
	lbu	s0, 7(s10)
	slli	a1, a1, 8
	slli	a2, a2, 16
	slli	a3, a3, 24
	or	a6, a1, a0
	or	a7, a3, a2
	lbu	a1, 8(s10)
	lbu	a3, 9(s10)
	lbu	a0, 10(s10)
	lbu	a2, 11(s10)
	slli	a5, a5, 8
	slli	s1, s1, 16
	slli	s0, s0, 24
	slli	a3, a3, 8
	slli	a0, a0, 16
	slli	a2, a2, 24
	or	a4, a4, a5
	or	s0, s0, s1
	or	a1, a1, a3
	or	a0, a0, a2
	lbu	a2, 13(s10)
	lbu	a3, 12(s10)
	lbu	a5, 14(s10)
	lbu	s1, 15(s10)
	slli	a2, a2, 8
	or	a2, a2, a3
	slli	a5, a5, 16
	slli	s1, s1, 24
	or	a5, a5, s1
	or	a3, a7, a6
	or	a4, a4, s0
	or	a1, a1, a0
	or	a2, a2, a5
	slli	a0, a4, 32
	or	a0, a0, a3
	slli	a2, a2, 32
	or	a1, a1, a2
	li	a3, 1
	mv	a2, s5
	call	aes_narrow.aes_narrow.blocks.process_all_batches.1
	call	aes_narrow.aes_cipher.zeroize.stack.wipe_stack.1024
	addi	s7, s7, -1
	addi	s2, s2, 16
	addi	s6, s6, -16
	addi	s0, s11, 16
	beqz	s7, .Laes_narrow_BB40_20
.Laes_narrow_BB40_18:                              # %join.5.i
                                        # =>This Inner Loop Header: Depth=1
	ld	a0, 24(sp)                      # 8-byte Folded Reload
	mv	a2, a0
	bltu	a0, s2, .Laes_narrow_BB40_17
# %bb.19:                               # %join.5.i
                                        #   in Loop: Header=BB40_18 Depth=1
	mv	a2, s2
	j	.Laes_narrow_BB40_17
.Laes_narrow_BB40_20:                              # %"cmac::chaining::chain::<#f7269deedbd939eb>.exit"
	li	a0, 14
	ld	a2, 8(sp)                       # 8-byte Folded Reload
	sub	s3, a0, a2
	sd	zero, 72(sp)
	sw	zero, 80(sp)
	sh	zero, 84(sp)
	sb	zero, 86(sp)
	addi	a0, sp, 72
	ld	a1, 16(sp)                      # 8-byte Folded Reload
	la	t1, memcpy
	jalr	t1
	lbu	a2, 72(sp)
	lbu	a3, 73(sp)
	lbu	a4, 74(sp)
	lbu	a0, 75(sp)
	lbu	a1, 76(sp)
	lbu	a5, 77(sp)
	lbu	s1, 78(sp)
	lbu	t5, 79(sp)
	lbu	t6, 80(sp)
	lbu	t3, 81(sp)
	lbu	t4, 82(sp)
	lbu	a6, 83(sp)
	lbu	a7, 84(sp)
	lbu	t0, 85(sp)
	lbu	t1, 86(sp)
	lbu	t2, 0(s10)
	lbu	s2, 1(s10)
	lbu	s4, 2(s10)
	lbu	s6, 3(s10)
	sb	s3, 32(sp)
	sb	a2, 33(sp)
	sb	a3, 34(sp)
	sb	a4, 35(sp)
	lbu	s3, 4(s10)
	lbu	s7, 5(s10)
	lbu	s9, 6(s10)
	lbu	a2, 7(s10)
	sb	a0, 36(sp)
	sb	a1, 37(sp)
	sb	a5, 38(sp)
	sb	s1, 39(sp)
	lbu	s8, 8(s10)
	lbu	a1, 9(s10)
	lbu	a5, 10(s10)
	lbu	s1, 11(s10)
	sb	t5, 40(sp)
	sb	t6, 41(sp)
	sb	t3, 42(sp)
	sb	t4, 43(sp)
	lbu	t3, 12(s10)
	lbu	a3, 13(s10)
	lbu	a0, 14(s10)
	lbu	a4, 15(s10)
	sb	a6, 44(sp)
	sb	a7, 45(sp)
	sb	t0, 46(sp)
	sb	t1, 47(sp)
	slli	s2, s2, 8
	slli	s4, s4, 16
	slli	s6, s6, 24
	slli	s7, s7, 8
	slli	s9, s9, 16
	slli	a7, a2, 24
	slli	a6, a1, 8
	slli	t0, a5, 16
	slli	s1, s1, 24
	slli	a3, a3, 8
	slli	t1, a0, 16
	slli	a4, a4, 24
	or	s0, s2, t2
	or	a1, s6, s4
	or	a2, s7, s3
	or	a5, a7, s9
	or	a0, a6, s8
	or	s1, s1, t0
	or	a3, a3, t3
	or	a4, a4, t1
	or	a1, a1, s0
	or	a2, a2, a5
	or	s1, s1, a0
	or	a3, a3, a4
	slli	a0, a2, 32
	slli	a3, a3, 32
	or	a0, a0, a1
	or	a1, a3, s1
	addi	a2, sp, 32
	li	a3, 1
	call	aes_narrow.aes_narrow.blocks.process_all_batches.1
	call	aes_narrow.aes_cipher.zeroize.stack.wipe_stack.1024
	lbu	a6, 4(s5)
	lbu	a7, 5(s5)
	lbu	t0, 6(s5)
	lbu	t1, 7(s5)
	lbu	t2, 8(s5)
	lbu	t3, 9(s5)
	lbu	t4, 10(s5)
	lbu	t5, 11(s5)
	lbu	t6, 12(s5)
	lbu	s2, 13(s5)
	lbu	s3, 14(s5)
	lbu	s4, 15(s5)
	lbu	a4, 44(sp)
	lbu	a5, 45(sp)
	lbu	s1, 46(sp)
	lbu	s0, 47(sp)
	lbu	a0, 40(sp)
	lbu	a1, 41(sp)
	lbu	a2, 42(sp)
	lbu	a3, 43(sp)
	xor	s4, s0, s4
	xor	s3, s1, s3
	xor	s2, a5, s2
	xor	t6, a4, t6
	lbu	s0, 36(sp)
	lbu	s1, 37(sp)
	lbu	a5, 38(sp)
	lbu	a4, 39(sp)
	xor	t5, a3, t5
	xor	t4, a2, t4
	xor	t3, a1, t3
	xor	t2, a0, t2
	lbu	s6, 0(s5)
	lbu	a2, 1(s5)
	lbu	a1, 2(s5)
	lbu	a0, 3(s5)
	xor	t1, a4, t1
	xor	t0, a5, t0
	xor	a7, s1, a7
	xor	s0, s0, a6
	lbu	a4, 35(sp)
	lbu	a5, 34(sp)
	lbu	a3, 33(sp)
	lbu	s1, 32(sp)
	xor	a0, a0, a4
	xor	a1, a1, a5
	xor	a2, a2, a3
	xor	a3, s1, s6
	sb	a3, 0(s5)
	sb	a2, 1(s5)
	sb	a1, 2(s5)
	sb	a0, 3(s5)
	sb	s0, 4(s5)
	sb	a7, 5(s5)
	sb	t0, 6(s5)
	sb	t1, 7(s5)
	sb	t2, 8(s5)
	sb	t3, 9(s5)
	sb	t4, 10(s5)
	sb	t5, 11(s5)
	sb	t6, 12(s5)
	sb	s2, 13(s5)
	sb	s3, 14(s5)
	sb	s4, 15(s5)
	ld	ra, 184(sp)                     # 8-byte Folded Reload
	ld	s0, 176(sp)                     # 8-byte Folded Reload
	ld	s1, 168(sp)                     # 8-byte Folded Reload
	ld	s2, 160(sp)                     # 8-byte Folded Reload
	ld	s3, 152(sp)                     # 8-byte Folded Reload
	ld	s4, 144(sp)                     # 8-byte Folded Reload
	ld	s5, 136(sp)                     # 8-byte Folded Reload
	ld	s6, 128(sp)                     # 8-byte Folded Reload
	ld	s7, 120(sp)                     # 8-byte Folded Reload
	ld	s8, 112(sp)                     # 8-byte Folded Reload
	ld	s9, 104(sp)                     # 8-byte Folded Reload
	ld	s10, 96(sp)                     # 8-byte Folded Reload
	ld	s11, 88(sp)                     # 8-byte Folded Reload
	addi	sp, sp, 192
	ret
.Laes_narrow_func_end40:
	.size	aes_narrow.ccm.message.put_tag, .Laes_narrow_func_end40-aes_narrow.ccm.message.put_tag
                                        # -- End function
	.section	.text.aes_narrow.ccm.mode.encrypt,"ax",@progbits
	.p2align	1                               # -- Begin function ccm::mode::encrypt::<#f7269deedbd939eb>
	.type	aes_narrow.ccm.mode.encrypt,@function
aes_narrow.ccm.mode.encrypt: # @aes_narrow.ccm.mode.encrypt
# %bb.0:                                # %start
	addi	sp, sp, -128
	sd	ra, 120(sp)                     # 8-byte Folded Spill
	sd	s0, 112(sp)                     # 8-byte Folded Spill
	sd	s1, 104(sp)                     # 8-byte Folded Spill
	sd	s2, 96(sp)                      # 8-byte Folded Spill
	sd	s3, 88(sp)                      # 8-byte Folded Spill
	sd	s4, 80(sp)                      # 8-byte Folded Spill
	sd	s5, 72(sp)                      # 8-byte Folded Spill
	sd	s6, 64(sp)                      # 8-byte Folded Spill
	sd	s7, 56(sp)                      # 8-byte Folded Spill
	li	t1, 0
	addi	s1, t3, -4
	li	s0, 12
	li	t0, 1
	bltu	s0, s1, .Laes_narrow_BB41_6
# %bb.1:                                # %start
	andi	s1, t3, 1
	bnez	s1, .Laes_narrow_BB41_6
# %bb.2:                                # %after.1.i
	addi	s1, a2, -14
	li	t0, 1
	li	s0, -7
	li	t1, 1
	bltu	s1, s0, .Laes_narrow_BB41_6
# %bb.3:                                # %"ccm::formatting::check.exit"
	addi	s1, a2, -7
	slli	s0, a2, 3
	snez	s1, s1
	xori	s0, s0, 120
	srl	s0, a6, s0
	snez	s0, s0
	and	t0, s1, s0
	beqz	t0, .Laes_narrow_BB41_5
# %bb.4:
	li	t1, 2
	j	.Laes_narrow_BB41_6
.Laes_narrow_BB41_5:                               # %arm.1
	sd	zero, 8(sp)
	sd	zero, 16(sp)
	mv	s4, t3
	addi	t3, sp, 8
	mv	s7, t0
	mv	s2, a0
	mv	s3, a1
	mv	s1, a2
	mv	s0, a3
	mv	a3, s4
	mv	t0, a4
	mv	a4, s0
	mv	s6, a5
	mv	a5, t0
	mv	s5, a6
	mv	a6, s6
	mv	s0, a7
	mv	a7, s5
	call	aes_narrow.ccm.message.put_tag
	addi	a1, sp, 8
	mv	a0, s0
	mv	a2, s4
	la	t1, memcpy
	jalr	t1
	li	a0, 14
	sub	s0, a0, s1
	sd	zero, 40(sp)
	sw	zero, 48(sp)
	sh	zero, 52(sp)
	sb	zero, 54(sp)
	addi	a0, sp, 40
	mv	a1, s3
	mv	a2, s1
	la	t1, memcpy
	jalr	t1
	sb	s0, 24(sp)
	addi	a0, sp, 25
	addi	a1, sp, 40
	li	a2, 15
	la	t1, memcpy
	jalr	t1
	addi	a1, sp, 24
	li	a2, 16
	mv	a0, s2
	mv	a3, s6
	mv	a4, s5
	call	aes_narrow.aes_ctr.add_in_batches.add_keystream
	mv	t0, s7
	li	t1, 0
.Laes_narrow_BB41_6:                               # %return.5
	mv	a0, t0
	mv	a1, t1
	ld	ra, 120(sp)                     # 8-byte Folded Reload
	ld	s0, 112(sp)                     # 8-byte Folded Reload
	ld	s1, 104(sp)                     # 8-byte Folded Reload
	ld	s2, 96(sp)                      # 8-byte Folded Reload
	ld	s3, 88(sp)                      # 8-byte Folded Reload
	ld	s4, 80(sp)                      # 8-byte Folded Reload
	ld	s5, 72(sp)                      # 8-byte Folded Reload
	ld	s6, 64(sp)                      # 8-byte Folded Reload
	ld	s7, 56(sp)                      # 8-byte Folded Reload
	addi	sp, sp, 128
	ret
.Laes_narrow_func_end41:
	.size	aes_narrow.ccm.mode.encrypt, .Laes_narrow_func_end41-aes_narrow.ccm.mode.encrypt
                                        # -- End function
	.section	.text.aes_narrow.fotsgure_aes_add_keystream_with,"ax",@progbits
	export_aes_narrow	fotsgure_aes_add_keystream_with
	.p2align	1
	.type	aes_narrow.fotsgure_aes_add_keystream_with,@function
aes_narrow.fotsgure_aes_add_keystream_with:        # @aes_narrow.fotsgure_aes_add_keystream_with
# %bb.0:                                # %start
	addi	sp, sp, -1056
	sd	ra, 1048(sp)                    # 8-byte Folded Spill
	sd	s0, 1040(sp)                    # 8-byte Folded Spill
	sd	s1, 1032(sp)                    # 8-byte Folded Spill
	sd	s2, 1024(sp)                    # 8-byte Folded Spill
	sd	s3, 1016(sp)                    # 8-byte Folded Spill
	sd	s4, 1008(sp)                    # 8-byte Folded Spill
	sd	s5, 1000(sp)                    # 8-byte Folded Spill
	sd	s6, 992(sp)                     # 8-byte Folded Spill
	mv	s5, a4
	mv	s1, a2
	li	a4, 32
	li	a2, 1
	bltu	a4, a1, .Laes_narrow_BB42_5
# %bb.1:                                # %start
	lui	a4, 65793
	slli	a4, a4, 4
	srl	a4, a4, a1
	andi	a4, a4, 1
	beqz	a4, .Laes_narrow_BB42_5
# %bb.2:                                # %join.3.i
	ld	a2, 16(s1)
	not	a2, a2
	bgeu	a2, s5, .Laes_narrow_BB42_4
# %bb.3:
	li	a2, 4
	j	.Laes_narrow_BB42_5
.Laes_narrow_BB42_4:                               # %join.6.i
	seqz	a2, a0
	seqz	a4, a3
	slli	a2, a2, 12
	add	s2, a0, a2
	addi	s3, sp, 32
	slli	a4, a4, 12
	add	s4, a3, a4
	slli	a0, a1, 1
	addi	s6, a0, 56
	addi	a0, sp, 24
	li	a2, 968
	mv	s0, a1
	li	a1, 0
	la	t1, memset
	jalr	t1
	mv	a0, s3
	mv	a1, s2
	mv	a2, s0
	call	aes_narrow.aes_narrow.word_room.expand_words
	call	aes_narrow.aes_cipher.zeroize.stack.wipe_stack.768
	ld	a2, 16(s1)
	sd	s0, 24(sp)
	sd	s3, 8(sp)
	sd	s6, 16(sp)
	addi	a0, sp, 8
	mv	a1, s1
	mv	a3, s4
	mv	a4, s5
	call	aes_narrow.aes_ctr.add_in_batches.add_keystream
	ld	a0, 16(s1)
	add	a0, a0, s5
	sd	a0, 16(s1)
	sd	zero, 24(sp)
	mv	a0, s3
	call	aes_narrow.aes_cipher.zeroize.elements.zeroize_elements.1
	li	a2, 0
.Laes_narrow_BB42_5:                               # %"aes_c::once::fotsgure_aes_add_keystream_with.exit"
	mv	a0, a2
	ld	ra, 1048(sp)                    # 8-byte Folded Reload
	ld	s0, 1040(sp)                    # 8-byte Folded Reload
	ld	s1, 1032(sp)                    # 8-byte Folded Reload
	ld	s2, 1024(sp)                    # 8-byte Folded Reload
	ld	s3, 1016(sp)                    # 8-byte Folded Reload
	ld	s4, 1008(sp)                    # 8-byte Folded Reload
	ld	s5, 1000(sp)                    # 8-byte Folded Reload
	ld	s6, 992(sp)                     # 8-byte Folded Reload
	addi	sp, sp, 1056
	li	a1, 0
	li	a2, 0
	li	a3, 0
	li	a4, 0
	li	a5, 0
	li	a6, 0
	li	a7, 0
	li	t0, 0
	li	t1, 0
	li	t2, 0
	li	t3, 0
	li	t4, 0
	li	t5, 0
	li	t6, 0
	ret
.Laes_narrow_func_end42:
	.size	aes_narrow.fotsgure_aes_add_keystream_with, .Laes_narrow_func_end42-aes_narrow.fotsgure_aes_add_keystream_with
                                        # -- End function
	.section	.text.aes_narrow.fotsgure_aes_cbc_encrypt,"ax",@progbits
	export_aes_narrow	fotsgure_aes_cbc_encrypt
	.p2align	1
	.type	aes_narrow.fotsgure_aes_cbc_encrypt,@function
aes_narrow.fotsgure_aes_cbc_encrypt:               # @aes_narrow.fotsgure_aes_cbc_encrypt
# %bb.0:                                # %start
	addi	sp, sp, -128
	sd	ra, 120(sp)                     # 8-byte Folded Spill
	sd	s0, 112(sp)                     # 8-byte Folded Spill
	sd	s1, 104(sp)                     # 8-byte Folded Spill
	sd	s2, 96(sp)                      # 8-byte Folded Spill
	sd	s3, 88(sp)                      # 8-byte Folded Spill
	sd	s4, 80(sp)                      # 8-byte Folded Spill
	sd	s5, 72(sp)                      # 8-byte Folded Spill
	sd	s6, 64(sp)                      # 8-byte Folded Spill
	sd	s7, 56(sp)                      # 8-byte Folded Spill
	sd	s8, 48(sp)                      # 8-byte Folded Spill
	sd	s9, 40(sp)                      # 8-byte Folded Spill
	sd	s10, 32(sp)                     # 8-byte Folded Spill
	sd	s11, 24(sp)                     # 8-byte Folded Spill
	mv	s2, a1
	ld	a7, 0(a0)
	li	a4, 32
	li	a1, 2
	bltu	a4, a7, .Laes_narrow_BB43_6
# %bb.1:                                # %start
	lui	a4, 65793
	slli	a4, a4, 4
	srl	a4, a4, a7
	andi	a4, a4, 1
	beqz	a4, .Laes_narrow_BB43_6
# %bb.2:                                # %join.3.i
	mv	s5, a3
	lbu	a1, 8(s2)
	lbu	a4, 9(s2)
	lbu	a5, 10(s2)
	lbu	s1, 11(s2)
	lbu	a6, 12(s2)
	lbu	t0, 13(s2)
	lbu	a3, 14(s2)
	lbu	s0, 15(s2)
	slli	a4, a4, 8
	slli	a5, a5, 16
	slli	s1, s1, 24
	or	t1, a4, a1
	or	t2, s1, a5
	lbu	a4, 0(s2)
	lbu	s1, 1(s2)
	lbu	a1, 2(s2)
	lbu	a5, 3(s2)
	slli	t0, t0, 8
	slli	a3, a3, 16
	slli	s0, s0, 24
	slli	s1, s1, 8
	slli	a1, a1, 16
	slli	a5, a5, 24
	or	a6, t0, a6
	or	t0, s0, a3
	or	a4, a4, s1
	or	a1, a1, a5
	lbu	a5, 5(s2)
	lbu	s1, 4(s2)
	lbu	s0, 6(s2)
	lbu	a3, 7(s2)
	slli	a5, a5, 8
	or	a5, a5, s1
	slli	s0, s0, 16
	slli	a3, a3, 24
	or	a3, a3, s0
	or	s1, t2, t1
	or	s0, t0, a6
	or	a1, a1, a4
	or	a3, a3, a5
	slli	s0, s0, 32
	slli	a3, a3, 32
	or	s0, s0, s1
	or	a1, a1, a3
	sd	a1, 8(sp)
	sd	s0, 16(sp)
	beqz	s5, .Laes_narrow_BB43_5
# %bb.3:                                # %join.5.lr.ph.i.i
	seqz	s4, a2
	addi	s3, a0, 8
	slli	s7, a7, 1
	lbu	a6, 8(sp)
	lbu	a7, 9(sp)
	lbu	t0, 10(sp)
	lbu	t1, 11(sp)
	lbu	t2, 12(sp)
	lbu	t3, 13(sp)
	lbu	t4, 14(sp)
	lbu	t5, 15(sp)
	lbu	t6, 16(sp)
	lbu	s6, 17(sp)
	lbu	s8, 18(sp)
	lbu	s9, 19(sp)
	lbu	s10, 20(sp)
	lbu	a1, 21(sp)
	lbu	a3, 22(sp)
	lbu	a4, 23(sp)
	slli	s0, s4, 12
	addi	s4, s7, 56
	add	a2, a2, s0
	addi	s0, a2, 7
.Laes_narrow_BB43_4:                               # %join.5.i.i
                                        # =>This Inner Loop Header: Depth=1
	lbu	a2, 8(s0)
	lbu	a5, 7(s0)
	lbu	s1, 6(s0)
	lbu	a0, 5(s0)
	xor	s7, a2, a4
	xor	s11, a5, a3
	xor	ra, s1, a1
	xor	s10, a0, s10
	lbu	a4, 4(s0)
	lbu	a5, 3(s0)
	lbu	s1, 2(s0)
	lbu	a2, 1(s0)
	xor	s9, a4, s9
	xor	s8, a5, s8
	xor	s6, s1, s6
	xor	t6, a2, t6
	lbu	a3, 0(s0)
	lbu	a1, -1(s0)
	lbu	a0, -2(s0)
	lbu	a4, -3(s0)
	xor	t5, a3, t5
	xor	a1, a1, t4
	xor	a0, a0, t3
	xor	a4, a4, t2
	lbu	a5, -4(s0)
	lbu	s1, -5(s0)
	lbu	a2, -6(s0)
	lbu	a3, -7(s0)
	xor	a5, a5, t1
	xor	s1, s1, t0
	xor	a2, a2, a7
	xor	a3, a3, a6
	sb	a3, 8(sp)
	sb	a2, 9(sp)
	sb	s1, 10(sp)
	sb	a5, 11(sp)
	sb	a4, 12(sp)
	sb	a0, 13(sp)
	sb	a1, 14(sp)
	sb	t5, 15(sp)
	sb	t6, 16(sp)
	sb	s6, 17(sp)
	sb	s8, 18(sp)
	sb	s9, 19(sp)
	sb	s10, 20(sp)
	sb	ra, 21(sp)
	sb	s11, 22(sp)
	sb	s7, 23(sp)
	addi	a2, sp, 8
	li	a3, 1
	mv	a0, s3
	mv	a1, s4
	call	aes_narrow.aes_narrow.blocks.process_all_batches.1
	call	aes_narrow.aes_cipher.zeroize.stack.wipe_stack.1024
	lbu	a6, 8(sp)
	lbu	a7, 9(sp)
	lbu	t0, 10(sp)
	lbu	t1, 11(sp)
	lbu	t2, 12(sp)
	lbu	t3, 13(sp)
	lbu	t4, 14(sp)
	lbu	t5, 15(sp)
	lbu	t6, 16(sp)
	lbu	s6, 17(sp)
	lbu	s8, 18(sp)
	lbu	s9, 19(sp)
	lbu	s10, 20(sp)
	lbu	a1, 21(sp)
	lbu	a3, 22(sp)
	lbu	a4, 23(sp)
	addi	s5, s5, -1
	sb	a6, -7(s0)
	sb	a7, -6(s0)
	sb	t0, -5(s0)
	sb	t1, -4(s0)
	sb	t2, -3(s0)
	sb	t3, -2(s0)
	sb	t4, -1(s0)
	sb	t5, 0(s0)
	sb	t6, 1(s0)
	sb	s6, 2(s0)
	sb	s8, 3(s0)
	sb	s9, 4(s0)
	sb	s10, 5(s0)
	sb	a1, 6(s0)
	sb	a3, 7(s0)
	sb	a4, 8(s0)
	addi	s0, s0, 16
	bnez	s5, .Laes_narrow_BB43_4
.Laes_narrow_BB43_5:                               # %"cbc::chain::Cbc::encrypt_blocks::<#f7269deedbd939eb>.exit.i"
	addi	a1, sp, 8
	li	a2, 16
	mv	a0, s2
	la	t1, memcpy
	jalr	t1
	li	a1, 0
.Laes_narrow_BB43_6:                               # %"aes_c::chains::fotsgure_aes_cbc_encrypt.exit"
	mv	a0, a1
	ld	ra, 120(sp)                     # 8-byte Folded Reload
	ld	s0, 112(sp)                     # 8-byte Folded Reload
	ld	s1, 104(sp)                     # 8-byte Folded Reload
	ld	s2, 96(sp)                      # 8-byte Folded Reload
	ld	s3, 88(sp)                      # 8-byte Folded Reload
	ld	s4, 80(sp)                      # 8-byte Folded Reload
	ld	s5, 72(sp)                      # 8-byte Folded Reload
	ld	s6, 64(sp)                      # 8-byte Folded Reload
	ld	s7, 56(sp)                      # 8-byte Folded Reload
	ld	s8, 48(sp)                      # 8-byte Folded Reload
	ld	s9, 40(sp)                      # 8-byte Folded Reload
	ld	s10, 32(sp)                     # 8-byte Folded Reload
	ld	s11, 24(sp)                     # 8-byte Folded Reload
	addi	sp, sp, 128
	li	a1, 0
	li	a2, 0
	li	a3, 0
	li	a4, 0
	li	a5, 0
	li	a6, 0
	li	a7, 0
	li	t0, 0
	li	t1, 0
	li	t2, 0
	li	t3, 0
	li	t4, 0
	li	t5, 0
	li	t6, 0
	ret
.Laes_narrow_func_end43:
	.size	aes_narrow.fotsgure_aes_cbc_encrypt, .Laes_narrow_func_end43-aes_narrow.fotsgure_aes_cbc_encrypt
                                        # -- End function
	.section	.text.aes_narrow.fotsgure_aes_cmac,"ax",@progbits
	export_aes_narrow	fotsgure_aes_cmac
	.p2align	1
	.type	aes_narrow.fotsgure_aes_cmac,@function
aes_narrow.fotsgure_aes_cmac:                      # @aes_narrow.fotsgure_aes_cmac
# %bb.0:                                # %start
	addi	sp, sp, -48
	sd	ra, 40(sp)                      # 8-byte Folded Spill
	sd	s0, 32(sp)                      # 8-byte Folded Spill
	mv	s0, a3
	mv	a3, a2
	ld	a4, 0(a0)
	sd	zero, 16(sp)
	sd	zero, 24(sp)
	li	a5, 32
	li	a2, 2
	bltu	a5, a4, .Laes_narrow_BB44_3
# %bb.1:                                # %start
	lui	a5, 65793
	slli	a5, a5, 4
	srl	a5, a5, a4
	andi	a5, a5, 1
	beqz	a5, .Laes_narrow_BB44_3
# %bb.2:                                # %join.3.i
	seqz	a2, a1
	addi	a0, a0, 8
	slli	a4, a4, 1
	slli	a2, a2, 12
	addi	a4, a4, 56
	add	a2, a2, a1
	sd	a0, 0(sp)
	sd	a4, 8(sp)
	addi	a0, sp, 16
	mv	a1, sp
	call	aes_narrow.cmac.tags.tag
	addi	a1, sp, 16
	li	a2, 16
	mv	a0, s0
	la	t1, memcpy
	jalr	t1
	call	aes_narrow.aes_cipher.zeroize.stack.wipe_stack.768
	li	a2, 0
.Laes_narrow_BB44_3:                               # %"aes_c::tags::fotsgure_aes_cmac.exit"
	mv	a0, a2
	ld	ra, 40(sp)                      # 8-byte Folded Reload
	ld	s0, 32(sp)                      # 8-byte Folded Reload
	addi	sp, sp, 48
	li	a1, 0
	li	a2, 0
	li	a3, 0
	li	a4, 0
	li	a5, 0
	li	a6, 0
	li	a7, 0
	li	t0, 0
	li	t1, 0
	li	t2, 0
	li	t3, 0
	li	t4, 0
	li	t5, 0
	li	t6, 0
	ret
.Laes_narrow_func_end44:
	.size	aes_narrow.fotsgure_aes_cmac, .Laes_narrow_func_end44-aes_narrow.fotsgure_aes_cmac
                                        # -- End function
	.section	.text.aes_narrow.fotsgure_aes_cmac_begin,"ax",@progbits
	export_aes_narrow	fotsgure_aes_cmac_begin
	.p2align	1
	.type	aes_narrow.fotsgure_aes_cmac_begin,@function
aes_narrow.fotsgure_aes_cmac_begin:                # @aes_narrow.fotsgure_aes_cmac_begin
# %bb.0:                                # %start
	addi	sp, sp, -16
	sd	ra, 8(sp)                       # 8-byte Folded Spill
	sd	s0, 0(sp)                       # 8-byte Folded Spill
	mv	s0, a1
	ld	a1, 0(a0)
	li	a2, 32
	li	a0, 2
	bltu	a2, a1, .Laes_narrow_BB45_3
# %bb.1:                                # %start
	lui	a2, 65793
	slli	a2, a2, 4
	srl	a1, a2, a1
	andi	a1, a1, 1
	beqz	a1, .Laes_narrow_BB45_3
# %bb.2:                                # %join.3.i
	addi	a0, s0, 8
	li	a2, 40
	li	a1, 0
	la	t1, memset
	jalr	t1
	li	a0, 0
	li	a1, 1
	sd	a1, 0(s0)
.Laes_narrow_BB45_3:                               # %"aes_c::tags::pieces::fotsgure_aes_cmac_begin.exit"
	ld	ra, 8(sp)                       # 8-byte Folded Reload
	ld	s0, 0(sp)                       # 8-byte Folded Reload
	addi	sp, sp, 16
	li	a1, 0
	li	a2, 0
	li	a3, 0
	li	a4, 0
	li	a5, 0
	li	a6, 0
	li	a7, 0
	li	t0, 0
	li	t1, 0
	li	t2, 0
	li	t3, 0
	li	t4, 0
	li	t5, 0
	li	t6, 0
	ret
.Laes_narrow_func_end45:
	.size	aes_narrow.fotsgure_aes_cmac_begin, .Laes_narrow_func_end45-aes_narrow.fotsgure_aes_cmac_begin
                                        # -- End function
	.section	.text.aes_narrow.fotsgure_aes_cmac_finish,"ax",@progbits
	export_aes_narrow	fotsgure_aes_cmac_finish
	.p2align	1
	.type	aes_narrow.fotsgure_aes_cmac_finish,@function
aes_narrow.fotsgure_aes_cmac_finish:               # @aes_narrow.fotsgure_aes_cmac_finish
# %bb.0:                                # %start
	addi	sp, sp, -64
	sd	ra, 56(sp)                      # 8-byte Folded Spill
	sd	s0, 48(sp)                      # 8-byte Folded Spill
	sd	s1, 40(sp)                      # 8-byte Folded Spill
	mv	s0, a2
	mv	a2, a0
	ld	a3, 0(a0)
	li	a4, 32
	li	a0, 2
	bltu	a4, a3, .Laes_narrow_BB46_6
# %bb.1:                                # %start
	lui	a4, 65793
	slli	a4, a4, 4
	srl	a4, a4, a3
	andi	a4, a4, 1
	beqz	a4, .Laes_narrow_BB46_6
# %bb.2:                                # %join.3.i
	addi	a2, a2, 8
	slli	a3, a3, 1
	ld	a0, 0(a1)
	addi	a3, a3, 56
	li	a4, 1
	sd	a2, 8(sp)
	sd	a3, 16(sp)
	bne	a0, a4, .Laes_narrow_BB46_7
# %bb.3:                                # %arm.4.i
	ld	a4, 8(a1)
	li	a0, 16
	bltu	a4, a0, .Laes_narrow_BB46_5
# %bb.4:                                # %arm.4.i
	li	a4, 16
.Laes_narrow_BB46_5:                               # %arm.4.i
	addi	a2, a1, 16
	addi	a3, a1, 32
	addi	a0, sp, 24
	mv	s1, a1
	addi	a1, sp, 8
	call	aes_narrow.cmac.tags.tag_at_end
	mv	a0, s1
	call	aes_narrow.cmac.pieces.MessageZeroize.zeroize
	call	aes_narrow.aes_cipher.zeroize.stack.wipe_stack.768
	addi	a1, sp, 24
	li	a2, 16
	mv	a0, s0
	la	t1, memcpy
	jalr	t1
	li	a0, 0
.Laes_narrow_BB46_6:                               # %"aes_c::tags::pieces::fotsgure_aes_cmac_finish.exit"
	ld	ra, 56(sp)                      # 8-byte Folded Reload
	ld	s0, 48(sp)                      # 8-byte Folded Reload
	ld	s1, 40(sp)                      # 8-byte Folded Reload
	addi	sp, sp, 64
	li	a1, 0
	li	a2, 0
	li	a3, 0
	li	a4, 0
	li	a5, 0
	li	a6, 0
	li	a7, 0
	li	t0, 0
	li	t1, 0
	li	t2, 0
	li	t3, 0
	li	t4, 0
	li	t5, 0
	li	t6, 0
	ret
.Laes_narrow_BB46_7:                               # %"cmac::pieces::Message::finish::<#f7269deedbd939eb>.exit.i"
	call	aes_narrow.aes_cipher.zeroize.stack.wipe_stack.768
	li	a0, 10
	ld	ra, 56(sp)                      # 8-byte Folded Reload
	ld	s0, 48(sp)                      # 8-byte Folded Reload
	ld	s1, 40(sp)                      # 8-byte Folded Reload
	addi	sp, sp, 64
	li	a1, 0
	li	a2, 0
	li	a3, 0
	li	a4, 0
	li	a5, 0
	li	a6, 0
	li	a7, 0
	li	t0, 0
	li	t1, 0
	li	t2, 0
	li	t3, 0
	li	t4, 0
	li	t5, 0
	li	t6, 0
	ret
.Laes_narrow_func_end46:
	.size	aes_narrow.fotsgure_aes_cmac_finish, .Laes_narrow_func_end46-aes_narrow.fotsgure_aes_cmac_finish
                                        # -- End function
	.section	.text.aes_narrow.fotsgure_aes_cmac_update,"ax",@progbits
	export_aes_narrow	fotsgure_aes_cmac_update
	.p2align	1
	.type	aes_narrow.fotsgure_aes_cmac_update,@function
aes_narrow.fotsgure_aes_cmac_update:               # @aes_narrow.fotsgure_aes_cmac_update
# %bb.0:                                # %start
	addi	sp, sp, -32
	sd	ra, 24(sp)                      # 8-byte Folded Spill
	sd	s0, 16(sp)                      # 8-byte Folded Spill
	ld	a4, 0(a0)
	li	a5, 32
	li	s0, 2
	bltu	a5, a4, .Laes_narrow_BB47_6
# %bb.1:                                # %start
	lui	a5, 65793
	slli	a5, a5, 4
	srl	a5, a5, a4
	andi	a5, a5, 1
	beqz	a5, .Laes_narrow_BB47_6
# %bb.2:                                # %join.3.i
	addi	a0, a0, 8
	slli	a4, a4, 1
	ld	a5, 0(a1)
	addi	a4, a4, 56
	li	s0, 1
	sd	a0, 0(sp)
	sd	a4, 8(sp)
	bne	a5, s0, .Laes_narrow_BB47_4
# %bb.3:                                # %join.3.i.i
	seqz	a0, a2
	slli	a0, a0, 12
	add	a2, a2, a0
	addi	a0, a1, 8
	mv	a1, sp
	call	aes_narrow.cmac.chain_in_pieces.ChainInPieces.extend
	li	s0, 0
	j	.Laes_narrow_BB47_5
.Laes_narrow_BB47_4:
	li	s0, 10
.Laes_narrow_BB47_5:                               # %"cmac::pieces::Message::update::<#f7269deedbd939eb>.exit.i"
	call	aes_narrow.aes_cipher.zeroize.stack.wipe_stack.768
.Laes_narrow_BB47_6:                               # %"aes_c::tags::pieces::fotsgure_aes_cmac_update.exit"
	mv	a0, s0
	ld	ra, 24(sp)                      # 8-byte Folded Reload
	ld	s0, 16(sp)                      # 8-byte Folded Reload
	addi	sp, sp, 32
	li	a1, 0
	li	a2, 0
	li	a3, 0
	li	a4, 0
	li	a5, 0
	li	a6, 0
	li	a7, 0
	li	t0, 0
	li	t1, 0
	li	t2, 0
	li	t3, 0
	li	t4, 0
	li	t5, 0
	li	t6, 0
	ret
.Laes_narrow_func_end47:
	.size	aes_narrow.fotsgure_aes_cmac_update, .Laes_narrow_func_end47-aes_narrow.fotsgure_aes_cmac_update
                                        # -- End function
	.section	.text.aes_narrow.fotsgure_aes_cmac_wipe,"ax",@progbits
	export_aes_narrow	fotsgure_aes_cmac_wipe
	.p2align	1
	.type	aes_narrow.fotsgure_aes_cmac_wipe,@function
aes_narrow.fotsgure_aes_cmac_wipe:                 # @aes_narrow.fotsgure_aes_cmac_wipe
# %bb.0:                                # %start
	addi	sp, sp, -16
	sd	ra, 8(sp)                       # 8-byte Folded Spill
	sd	s0, 0(sp)                       # 8-byte Folded Spill
	mv	s0, a0
	li	a2, 48
	li	a1, 0
	la	t1, memset
	jalr	t1
	mv	a0, s0
	ld	ra, 8(sp)                       # 8-byte Folded Reload
	ld	s0, 0(sp)                       # 8-byte Folded Reload
	addi	sp, sp, 16
	tail	aes_narrow.cmac.pieces.MessageZeroize.zeroize
.Laes_narrow_func_end48:
	.size	aes_narrow.fotsgure_aes_cmac_wipe, .Laes_narrow_func_end48-aes_narrow.fotsgure_aes_cmac_wipe
                                        # -- End function
	.section	.text.aes_narrow.fotsgure_aes_encrypt_blocks,"ax",@progbits
	export_aes_narrow	fotsgure_aes_encrypt_blocks
	.p2align	1
	.type	aes_narrow.fotsgure_aes_encrypt_blocks,@function
aes_narrow.fotsgure_aes_encrypt_blocks:            # @aes_narrow.fotsgure_aes_encrypt_blocks
# %bb.0:                                # %start
	mv	a3, a2
	ld	a4, 0(a0)
	li	a5, 32
	li	a2, 2
	bltu	a5, a4, .Laes_narrow_BB49_3
# %bb.1:                                # %start
	lui	a5, 65793
	slli	a5, a5, 4
	srl	a5, a5, a4
	andi	a5, a5, 1
	beqz	a5, .Laes_narrow_BB49_3
# %bb.2:                                # %join.3.i
	addi	sp, sp, -16
	sd	ra, 8(sp)                       # 8-byte Folded Spill
	seqz	a2, a1
	addi	a0, a0, 8
	slli	a4, a4, 1
	slli	a2, a2, 12
	add	a2, a2, a1
	addi	a1, a4, 56
	call	aes_narrow.aes_narrow.blocks.process_all_batches.1
	call	aes_narrow.aes_cipher.zeroize.stack.wipe_stack.1024
	li	a2, 0
	ld	ra, 8(sp)                       # 8-byte Folded Reload
	addi	sp, sp, 16
.Laes_narrow_BB49_3:                               # %"aes_c::blocks::fotsgure_aes_encrypt_blocks.exit"
	mv	a0, a2
	li	a1, 0
	li	a2, 0
	li	a3, 0
	li	a4, 0
	li	a5, 0
	li	a6, 0
	li	a7, 0
	li	t0, 0
	li	t1, 0
	li	t2, 0
	li	t3, 0
	li	t4, 0
	li	t5, 0
	li	t6, 0
	ret
.Laes_narrow_func_end49:
	.size	aes_narrow.fotsgure_aes_encrypt_blocks, .Laes_narrow_func_end49-aes_narrow.fotsgure_aes_encrypt_blocks
                                        # -- End function
	.section	.text.aes_narrow.fotsgure_aes_encrypt_blocks_to,"ax",@progbits
	export_aes_narrow	fotsgure_aes_encrypt_blocks_to
	.p2align	1
	.type	aes_narrow.fotsgure_aes_encrypt_blocks_to,@function
aes_narrow.fotsgure_aes_encrypt_blocks_to:         # @aes_narrow.fotsgure_aes_encrypt_blocks_to
# %bb.0:                                # %start
	bne	a2, a4, .Laes_narrow_BB50_6
# %bb.1:                                # %join.3.i
	addi	sp, sp, -64
	sd	ra, 56(sp)                      # 8-byte Folded Spill
	sd	s0, 48(sp)                      # 8-byte Folded Spill
	sd	s1, 40(sp)                      # 8-byte Folded Spill
	sd	s2, 32(sp)                      # 8-byte Folded Spill
	sd	s3, 24(sp)                      # 8-byte Folded Spill
	sd	s4, 16(sp)                      # 8-byte Folded Spill
	sd	s5, 8(sp)                       # 8-byte Folded Spill
	mv	s4, a2
	mv	s3, a0
	ld	a2, 0(a0)
	li	a4, 32
	li	a0, 2
	bltu	a4, a2, .Laes_narrow_BB50_9
# %bb.2:                                # %join.3.i
	lui	a4, 65793
	slli	a4, a4, 4
	srl	a2, a4, a2
	andi	a2, a2, 1
	beqz	a2, .Laes_narrow_BB50_9
# %bb.3:                                # %join.6.i
	seqz	a0, a1
	seqz	a2, a3
	slli	a0, a0, 12
	slli	a2, a2, 12
	add	s5, a1, a0
	add	s2, a3, a2
	slli	a2, s4, 4
	sub	a0, s2, s5
	bgeu	a0, a2, .Laes_narrow_BB50_7
# %bb.4:                                # %loop.4.preheader.i.i.i.i.i.i.i
	mv	s0, s2
	mv	s1, s4
	beqz	s4, .Laes_narrow_BB50_8
.Laes_narrow_BB50_5:                               # %join.7.i.i.i.i.i.i.i
                                        # =>This Inner Loop Header: Depth=1
	li	a2, 16
	mv	a0, s0
	mv	a1, s5
	la	t1, memmove
	jalr	t1
	addi	s1, s1, -1
	addi	s5, s5, 16
	addi	s0, s0, 16
	bnez	s1, .Laes_narrow_BB50_5
	j	.Laes_narrow_BB50_8
.Laes_narrow_BB50_6:
	li	a0, 3
	li	a1, 0
	li	a2, 0
	li	a3, 0
	li	a4, 0
	li	a5, 0
	li	a6, 0
	li	a7, 0
	li	t0, 0
	li	t1, 0
	li	t2, 0
	li	t3, 0
	li	t4, 0
	li	t5, 0
	li	t6, 0
	ret
.Laes_narrow_BB50_7:                               # %apart.2.i.i.i.i.i.i.i
	mv	a0, s2
	mv	a1, s5
	la	t1, memmove
	jalr	t1
.Laes_narrow_BB50_8:                               # %"core::slice::edits::slice+T::copy_from_slice::<#b9e87c6de6ee7501>.exit.i"
	ld	a1, 0(s3)
	addi	a0, s3, 8
	slli	a1, a1, 1
	addi	a1, a1, 56
	mv	a2, s2
	mv	a3, s4
	call	aes_narrow.aes_narrow.blocks.process_all_batches.1
	call	aes_narrow.aes_cipher.zeroize.stack.wipe_stack.1024
	li	a0, 0
.Laes_narrow_BB50_9:
	ld	ra, 56(sp)                      # 8-byte Folded Reload
	ld	s0, 48(sp)                      # 8-byte Folded Reload
	ld	s1, 40(sp)                      # 8-byte Folded Reload
	ld	s2, 32(sp)                      # 8-byte Folded Reload
	ld	s3, 24(sp)                      # 8-byte Folded Reload
	ld	s4, 16(sp)                      # 8-byte Folded Reload
	ld	s5, 8(sp)                       # 8-byte Folded Reload
	addi	sp, sp, 64
	li	a1, 0
	li	a2, 0
	li	a3, 0
	li	a4, 0
	li	a5, 0
	li	a6, 0
	li	a7, 0
	li	t0, 0
	li	t1, 0
	li	t2, 0
	li	t3, 0
	li	t4, 0
	li	t5, 0
	li	t6, 0
	ret
.Laes_narrow_func_end50:
	.size	aes_narrow.fotsgure_aes_encrypt_blocks_to, .Laes_narrow_func_end50-aes_narrow.fotsgure_aes_encrypt_blocks_to
                                        # -- End function
	.section	.text.aes_narrow.fotsgure_aes_encrypt_blocks_with,"ax",@progbits
	export_aes_narrow	fotsgure_aes_encrypt_blocks_with
	.p2align	1
	.type	aes_narrow.fotsgure_aes_encrypt_blocks_with,@function
aes_narrow.fotsgure_aes_encrypt_blocks_with:       # @aes_narrow.fotsgure_aes_encrypt_blocks_with
# %bb.0:                                # %start
	addi	sp, sp, -1040
	sd	ra, 1032(sp)                    # 8-byte Folded Spill
	sd	s0, 1024(sp)                    # 8-byte Folded Spill
	sd	s1, 1016(sp)                    # 8-byte Folded Spill
	sd	s2, 1008(sp)                    # 8-byte Folded Spill
	sd	s3, 1000(sp)                    # 8-byte Folded Spill
	sd	s4, 992(sp)                     # 8-byte Folded Spill
	sd	s5, 984(sp)                     # 8-byte Folded Spill
	mv	s2, a3
	mv	s1, a1
	li	a3, 32
	li	a1, 1
	bltu	a3, s1, .Laes_narrow_BB51_3
# %bb.1:                                # %start
	lui	a3, 65793
	slli	a3, a3, 4
	srl	a3, a3, s1
	andi	a3, a3, 1
	beqz	a3, .Laes_narrow_BB51_3
# %bb.2:                                # %join.3.i
	seqz	a1, a2
	seqz	a3, a0
	slli	a1, a1, 12
	add	s4, a2, a1
	addi	s3, sp, 24
	slli	a3, a3, 12
	add	s0, a0, a3
	slli	a0, s1, 1
	addi	s5, a0, 56
	addi	a0, sp, 16
	li	a2, 968
	li	a1, 0
	la	t1, memset
	jalr	t1
	mv	a0, s3
	mv	a1, s0
	mv	a2, s1
	call	aes_narrow.aes_narrow.word_room.expand_words
	call	aes_narrow.aes_cipher.zeroize.stack.wipe_stack.768
	sd	s1, 16(sp)
	mv	a0, s3
	mv	a1, s5
	mv	a2, s4
	mv	a3, s2
	call	aes_narrow.aes_narrow.blocks.process_all_batches.1
	call	aes_narrow.aes_cipher.zeroize.stack.wipe_stack.1024
	sd	zero, 16(sp)
	mv	a0, s3
	call	aes_narrow.aes_cipher.zeroize.elements.zeroize_elements.1
	li	a1, 0
.Laes_narrow_BB51_3:                               # %"aes_c::once::fotsgure_aes_encrypt_blocks_with.exit"
	mv	a0, a1
	ld	ra, 1032(sp)                    # 8-byte Folded Reload
	ld	s0, 1024(sp)                    # 8-byte Folded Reload
	ld	s1, 1016(sp)                    # 8-byte Folded Reload
	ld	s2, 1008(sp)                    # 8-byte Folded Reload
	ld	s3, 1000(sp)                    # 8-byte Folded Reload
	ld	s4, 992(sp)                     # 8-byte Folded Reload
	ld	s5, 984(sp)                     # 8-byte Folded Reload
	addi	sp, sp, 1040
	li	a1, 0
	li	a2, 0
	li	a3, 0
	li	a4, 0
	li	a5, 0
	li	a6, 0
	li	a7, 0
	li	t0, 0
	li	t1, 0
	li	t2, 0
	li	t3, 0
	li	t4, 0
	li	t5, 0
	li	t6, 0
	ret
.Laes_narrow_func_end51:
	.size	aes_narrow.fotsgure_aes_encrypt_blocks_with, .Laes_narrow_func_end51-aes_narrow.fotsgure_aes_encrypt_blocks_with
                                        # -- End function
	.section	.text.aes_narrow.fotsgure_aes_key_length,"ax",@progbits
	export_aes_narrow	fotsgure_aes_key_length
	.p2align	1
	.type	aes_narrow.fotsgure_aes_key_length,@function
aes_narrow.fotsgure_aes_key_length:                # @aes_narrow.fotsgure_aes_key_length
# %bb.0:                                # %start
	ld	a1, 0(a0)
	li	a2, 32
	li	a0, 0
	bltu	a2, a1, .Laes_narrow_BB52_3
# %bb.1:                                # %start
	lui	a2, 65793
	slli	a2, a2, 4
	srl	a2, a2, a1
	andi	a2, a2, 1
	beqz	a2, .Laes_narrow_BB52_3
# %bb.2:                                # %then.1.i.i
	mv	a0, a1
.Laes_narrow_BB52_3:                               # %"aes_c::kept::fotsgure_aes_key_length.exit"
	li	a1, 0
	li	a2, 0
	li	a3, 0
	li	a4, 0
	li	a5, 0
	li	a6, 0
	li	a7, 0
	li	t0, 0
	li	t1, 0
	li	t2, 0
	li	t3, 0
	li	t4, 0
	li	t5, 0
	li	t6, 0
	ret
.Laes_narrow_func_end52:
	.size	aes_narrow.fotsgure_aes_key_length, .Laes_narrow_func_end52-aes_narrow.fotsgure_aes_key_length
                                        # -- End function
	.section	.text.aes_narrow.fotsgure_aes_version,"ax",@progbits
	export_aes_narrow	fotsgure_aes_version
	.p2align	1
	.type	aes_narrow.fotsgure_aes_version,@function
aes_narrow.fotsgure_aes_version:                   # @aes_narrow.fotsgure_aes_version
# %bb.0:                                # %start
	li	a0, 400
	li	a1, 0
	li	a2, 0
	li	a3, 0
	li	a4, 0
	li	a5, 0
	li	a6, 0
	li	a7, 0
	li	t0, 0
	li	t1, 0
	li	t2, 0
	li	t3, 0
	li	t4, 0
	li	t5, 0
	li	t6, 0
	ret
.Laes_narrow_func_end53:
	.size	aes_narrow.fotsgure_aes_version, .Laes_narrow_func_end53-aes_narrow.fotsgure_aes_version
                                        # -- End function
	.section	.text.aes_narrow.fotsgure_aes_wipe,"ax",@progbits
	export_aes_narrow	fotsgure_aes_wipe
	.p2align	1
	.type	aes_narrow.fotsgure_aes_wipe,@function
aes_narrow.fotsgure_aes_wipe:                      # @aes_narrow.fotsgure_aes_wipe
# %bb.0:                                # %start
	addi	sp, sp, -16
	sd	ra, 8(sp)                       # 8-byte Folded Spill
	sd	s0, 0(sp)                       # 8-byte Folded Spill
	addi	s0, a0, 8
	li	a2, 968
	li	a1, 0
	la	t1, memset
	jalr	t1
	mv	a0, s0
	ld	ra, 8(sp)                       # 8-byte Folded Reload
	ld	s0, 0(sp)                       # 8-byte Folded Reload
	addi	sp, sp, 16
	tail	aes_narrow.aes_cipher.zeroize.elements.zeroize_elements.1
.Laes_narrow_func_end54:
	.size	aes_narrow.fotsgure_aes_wipe, .Laes_narrow_func_end54-aes_narrow.fotsgure_aes_wipe
                                        # -- End function
	.section	.text.aes_narrow.fotsgure_aes_wrap,"ax",@progbits
	export_aes_narrow	fotsgure_aes_wrap
	.p2align	1
	.type	aes_narrow.fotsgure_aes_wrap,@function
aes_narrow.fotsgure_aes_wrap:                      # @aes_narrow.fotsgure_aes_wrap
# %bb.0:                                # %start
	ld	t0, 0(a0)
	li	a7, 32
	li	a6, 2
	bltu	a7, t0, .Laes_narrow_BB55_3
# %bb.1:                                # %start
	lui	a5, 65793
	slli	a5, a5, 4
	srl	a5, a5, t0
	andi	a5, a5, 1
	beqz	a5, .Laes_narrow_BB55_3
# %bb.2:                                # %join.3.i
	addi	sp, sp, -32
	sd	ra, 24(sp)                      # 8-byte Folded Spill
	sd	s0, 16(sp)                      # 8-byte Folded Spill
	seqz	a5, a3
	slli	a5, a5, 12
	add	a3, a3, a5
	seqz	a5, a1
	addi	a6, a0, 8
	slli	t0, t0, 1
	slli	a5, a5, 12
	addi	a0, t0, 56
	add	a1, a1, a5
	sd	a6, 0(sp)
	sd	a0, 8(sp)
	mv	a0, sp
	call	aes_narrow.key_wrap.wrapping.wrap
	zext.b	s0, a0
	call	aes_narrow.aes_cipher.zeroize.stack.wipe_stack.512
	neg	a0, s0
	andi	a6, a0, 5
	ld	ra, 24(sp)                      # 8-byte Folded Reload
	ld	s0, 16(sp)                      # 8-byte Folded Reload
	addi	sp, sp, 32
.Laes_narrow_BB55_3:                               # %"aes_c::wrapping::fotsgure_aes_wrap.exit"
	mv	a0, a6
	li	a1, 0
	li	a2, 0
	li	a3, 0
	li	a4, 0
	li	a5, 0
	li	a6, 0
	li	a7, 0
	li	t0, 0
	li	t1, 0
	li	t2, 0
	li	t3, 0
	li	t4, 0
	li	t5, 0
	li	t6, 0
	ret
.Laes_narrow_func_end55:
	.size	aes_narrow.fotsgure_aes_wrap, .Laes_narrow_func_end55-aes_narrow.fotsgure_aes_wrap
                                        # -- End function
	.section	.text.aes_narrow.fotsgure_aes_wrap_padded,"ax",@progbits
	export_aes_narrow	fotsgure_aes_wrap_padded
	.p2align	1
	.type	aes_narrow.fotsgure_aes_wrap_padded,@function
aes_narrow.fotsgure_aes_wrap_padded:               # @aes_narrow.fotsgure_aes_wrap_padded
# %bb.0:                                # %start
	ld	t0, 0(a0)
	li	a7, 32
	li	a6, 2
	bltu	a7, t0, .Laes_narrow_BB56_3
# %bb.1:                                # %start
	lui	a5, 65793
	slli	a5, a5, 4
	srl	a5, a5, t0
	andi	a5, a5, 1
	beqz	a5, .Laes_narrow_BB56_3
# %bb.2:                                # %join.3.i
	addi	sp, sp, -32
	sd	ra, 24(sp)                      # 8-byte Folded Spill
	sd	s0, 16(sp)                      # 8-byte Folded Spill
	seqz	a5, a3
	slli	a5, a5, 12
	add	a3, a3, a5
	seqz	a5, a1
	addi	a6, a0, 8
	slli	t0, t0, 1
	slli	a5, a5, 12
	addi	a0, t0, 56
	add	a1, a1, a5
	sd	a6, 0(sp)
	sd	a0, 8(sp)
	mv	a0, sp
	call	aes_narrow.key_wrap.padded.wrap_padded
	zext.b	s0, a0
	call	aes_narrow.aes_cipher.zeroize.stack.wipe_stack.512
	neg	a0, s0
	andi	a6, a0, 5
	ld	ra, 24(sp)                      # 8-byte Folded Reload
	ld	s0, 16(sp)                      # 8-byte Folded Reload
	addi	sp, sp, 32
.Laes_narrow_BB56_3:                               # %"aes_c::wrapping::fotsgure_aes_wrap_padded.exit"
	mv	a0, a6
	li	a1, 0
	li	a2, 0
	li	a3, 0
	li	a4, 0
	li	a5, 0
	li	a6, 0
	li	a7, 0
	li	t0, 0
	li	t1, 0
	li	t2, 0
	li	t3, 0
	li	t4, 0
	li	t5, 0
	li	t6, 0
	ret
.Laes_narrow_func_end56:
	.size	aes_narrow.fotsgure_aes_wrap_padded, .Laes_narrow_func_end56-aes_narrow.fotsgure_aes_wrap_padded
                                        # -- End function
	.section	.text.aes_narrow.fotsgure_aes_cbc_decrypt,"ax",@progbits
	export_aes_narrow	fotsgure_aes_cbc_decrypt
	.p2align	1
	.type	aes_narrow.fotsgure_aes_cbc_decrypt,@function
aes_narrow.fotsgure_aes_cbc_decrypt:               # @aes_narrow.fotsgure_aes_cbc_decrypt
# %bb.0:                                # %start
	addi	sp, sp, -48
	sd	ra, 40(sp)                      # 8-byte Folded Spill
	sd	s0, 32(sp)                      # 8-byte Folded Spill
	mv	s0, a1
	ld	t0, 0(a0)
	li	a5, 32
	li	a1, 2
	bltu	a5, t0, .Laes_narrow_BB57_3
# %bb.1:                                # %start
	lui	a5, 65793
	slli	a5, a5, 4
	srl	a5, a5, t0
	andi	a5, a5, 1
	beqz	a5, .Laes_narrow_BB57_3
# %bb.2:                                # %join.3.i
	seqz	a6, a2
	lbu	a7, 8(s0)
	lbu	a1, 9(s0)
	lbu	a5, 10(s0)
	lbu	a4, 11(s0)
	lbu	t1, 12(s0)
	lbu	t2, 13(s0)
	lbu	t3, 14(s0)
	lbu	t4, 15(s0)
	slli	a6, a6, 12
	add	a6, a6, a2
	slli	a1, a1, 8
	slli	a5, a5, 16
	slli	a4, a4, 24
	or	a7, a1, a7
	or	t5, a4, a5
	lbu	a5, 0(s0)
	lbu	a2, 1(s0)
	lbu	a1, 2(s0)
	lbu	a4, 3(s0)
	slli	t2, t2, 8
	slli	t3, t3, 16
	slli	t4, t4, 24
	slli	a2, a2, 8
	slli	a1, a1, 16
	slli	a4, a4, 24
	or	t1, t2, t1
	or	t2, t4, t3
	or	t3, a2, a5
	or	t4, a4, a1
	lbu	a4, 5(s0)
	lbu	a5, 4(s0)
	lbu	a2, 6(s0)
	lbu	a1, 7(s0)
	slli	a4, a4, 8
	or	a4, a4, a5
	slli	a2, a2, 16
	slli	a1, a1, 24
	or	a1, a1, a2
	or	a7, t5, a7
	or	a5, t2, t1
	or	a2, t4, t3
	or	a4, a4, a1
	addi	a0, a0, 8
	slli	t0, t0, 1
	addi	a1, t0, 56
	slli	a5, a5, 32
	slli	a4, a4, 32
	or	a5, a5, a7
	or	a2, a2, a4
	sd	a2, 0(sp)
	sd	a5, 8(sp)
	sd	a6, 16(sp)
	sd	a3, 24(sp)
	mv	a2, sp
	call	aes_narrow.aes_narrow.borrowed_words.call_to_decrypt
	call	aes_narrow.aes_cipher.zeroize.stack.wipe_stack.2032
	mv	a1, sp
	li	a2, 16
	mv	a0, s0
	la	t1, memcpy
	jalr	t1
	li	a1, 0
.Laes_narrow_BB57_3:                               # %"aes_c::chains::fotsgure_aes_cbc_decrypt.exit"
	mv	a0, a1
	ld	ra, 40(sp)                      # 8-byte Folded Reload
	ld	s0, 32(sp)                      # 8-byte Folded Reload
	addi	sp, sp, 48
	li	a1, 0
	li	a2, 0
	li	a3, 0
	li	a4, 0
	li	a5, 0
	li	a6, 0
	li	a7, 0
	li	t0, 0
	li	t1, 0
	li	t2, 0
	li	t3, 0
	li	t4, 0
	li	t5, 0
	li	t6, 0
	ret
.Laes_narrow_func_end57:
	.size	aes_narrow.fotsgure_aes_cbc_decrypt, .Laes_narrow_func_end57-aes_narrow.fotsgure_aes_cbc_decrypt
                                        # -- End function
	.section	.text.aes_narrow.fotsgure_aes_decrypt_blocks,"ax",@progbits
	export_aes_narrow	fotsgure_aes_decrypt_blocks
	.p2align	1
	.type	aes_narrow.fotsgure_aes_decrypt_blocks,@function
aes_narrow.fotsgure_aes_decrypt_blocks:            # @aes_narrow.fotsgure_aes_decrypt_blocks
# %bb.0:                                # %start
	mv	a3, a2
	ld	a4, 0(a0)
	li	a5, 32
	li	a2, 2
	bltu	a5, a4, .Laes_narrow_BB58_3
# %bb.1:                                # %start
	lui	a5, 65793
	slli	a5, a5, 4
	srl	a5, a5, a4
	andi	a5, a5, 1
	beqz	a5, .Laes_narrow_BB58_3
# %bb.2:                                # %join.3.i
	addi	sp, sp, -16
	sd	ra, 8(sp)                       # 8-byte Folded Spill
	seqz	a2, a1
	addi	a0, a0, 8
	slli	a4, a4, 1
	slli	a2, a2, 12
	add	a2, a2, a1
	addi	a1, a4, 56
	call	aes_narrow.aes_narrow.blocks.process_all_batches.2
	call	aes_narrow.aes_cipher.zeroize.stack.wipe_stack.1024
	li	a2, 0
	ld	ra, 8(sp)                       # 8-byte Folded Reload
	addi	sp, sp, 16
.Laes_narrow_BB58_3:                               # %"aes_c::blocks::fotsgure_aes_decrypt_blocks.exit"
	mv	a0, a2
	li	a1, 0
	li	a2, 0
	li	a3, 0
	li	a4, 0
	li	a5, 0
	li	a6, 0
	li	a7, 0
	li	t0, 0
	li	t1, 0
	li	t2, 0
	li	t3, 0
	li	t4, 0
	li	t5, 0
	li	t6, 0
	ret
.Laes_narrow_func_end58:
	.size	aes_narrow.fotsgure_aes_decrypt_blocks, .Laes_narrow_func_end58-aes_narrow.fotsgure_aes_decrypt_blocks
                                        # -- End function
	.section	.text.aes_narrow.fotsgure_aes_decrypt_blocks_to,"ax",@progbits
	export_aes_narrow	fotsgure_aes_decrypt_blocks_to
	.p2align	1
	.type	aes_narrow.fotsgure_aes_decrypt_blocks_to,@function
aes_narrow.fotsgure_aes_decrypt_blocks_to:         # @aes_narrow.fotsgure_aes_decrypt_blocks_to
# %bb.0:                                # %start
	bne	a2, a4, .Laes_narrow_BB59_6
# %bb.1:                                # %join.3.i
	addi	sp, sp, -64
	sd	ra, 56(sp)                      # 8-byte Folded Spill
	sd	s0, 48(sp)                      # 8-byte Folded Spill
	sd	s1, 40(sp)                      # 8-byte Folded Spill
	sd	s2, 32(sp)                      # 8-byte Folded Spill
	sd	s3, 24(sp)                      # 8-byte Folded Spill
	sd	s4, 16(sp)                      # 8-byte Folded Spill
	sd	s5, 8(sp)                       # 8-byte Folded Spill
	mv	s4, a2
	mv	s3, a0
	ld	a2, 0(a0)
	li	a4, 32
	li	a0, 2
	bltu	a4, a2, .Laes_narrow_BB59_9
# %bb.2:                                # %join.3.i
	lui	a4, 65793
	slli	a4, a4, 4
	srl	a2, a4, a2
	andi	a2, a2, 1
	beqz	a2, .Laes_narrow_BB59_9
# %bb.3:                                # %join.6.i
	seqz	a0, a1
	seqz	a2, a3
	slli	a0, a0, 12
	slli	a2, a2, 12
	add	s5, a1, a0
	add	s2, a3, a2
	slli	a2, s4, 4
	sub	a0, s2, s5
	bgeu	a0, a2, .Laes_narrow_BB59_7
# %bb.4:                                # %loop.4.preheader.i.i.i.i.i.i.i
	mv	s0, s2
	mv	s1, s4
	beqz	s4, .Laes_narrow_BB59_8
.Laes_narrow_BB59_5:                               # %join.7.i.i.i.i.i.i.i
                                        # =>This Inner Loop Header: Depth=1
	li	a2, 16
	mv	a0, s0
	mv	a1, s5
	la	t1, memmove
	jalr	t1
	addi	s1, s1, -1
	addi	s5, s5, 16
	addi	s0, s0, 16
	bnez	s1, .Laes_narrow_BB59_5
	j	.Laes_narrow_BB59_8
.Laes_narrow_BB59_6:
	li	a0, 3
	li	a1, 0
	li	a2, 0
	li	a3, 0
	li	a4, 0
	li	a5, 0
	li	a6, 0
	li	a7, 0
	li	t0, 0
	li	t1, 0
	li	t2, 0
	li	t3, 0
	li	t4, 0
	li	t5, 0
	li	t6, 0
	ret
.Laes_narrow_BB59_7:                               # %apart.2.i.i.i.i.i.i.i
	mv	a0, s2
	mv	a1, s5
	la	t1, memmove
	jalr	t1
.Laes_narrow_BB59_8:                               # %"core::slice::edits::slice+T::copy_from_slice::<#b9e87c6de6ee7501>.exit.i"
	ld	a1, 0(s3)
	addi	a0, s3, 8
	slli	a1, a1, 1
	addi	a1, a1, 56
	mv	a2, s2
	mv	a3, s4
	call	aes_narrow.aes_narrow.blocks.process_all_batches.2
	call	aes_narrow.aes_cipher.zeroize.stack.wipe_stack.1024
	li	a0, 0
.Laes_narrow_BB59_9:
	ld	ra, 56(sp)                      # 8-byte Folded Reload
	ld	s0, 48(sp)                      # 8-byte Folded Reload
	ld	s1, 40(sp)                      # 8-byte Folded Reload
	ld	s2, 32(sp)                      # 8-byte Folded Reload
	ld	s3, 24(sp)                      # 8-byte Folded Reload
	ld	s4, 16(sp)                      # 8-byte Folded Reload
	ld	s5, 8(sp)                       # 8-byte Folded Reload
	addi	sp, sp, 64
	li	a1, 0
	li	a2, 0
	li	a3, 0
	li	a4, 0
	li	a5, 0
	li	a6, 0
	li	a7, 0
	li	t0, 0
	li	t1, 0
	li	t2, 0
	li	t3, 0
	li	t4, 0
	li	t5, 0
	li	t6, 0
	ret
.Laes_narrow_func_end59:
	.size	aes_narrow.fotsgure_aes_decrypt_blocks_to, .Laes_narrow_func_end59-aes_narrow.fotsgure_aes_decrypt_blocks_to
                                        # -- End function
	.section	.text.aes_narrow.fotsgure_aes_unwrap,"ax",@progbits
	export_aes_narrow	fotsgure_aes_unwrap
	.p2align	1
	.type	aes_narrow.fotsgure_aes_unwrap,@function
aes_narrow.fotsgure_aes_unwrap:                    # @aes_narrow.fotsgure_aes_unwrap
# %bb.0:                                # %start
	ld	t0, 0(a0)
	li	a7, 32
	li	a6, 2
	bltu	a7, t0, .Laes_narrow_BB60_3
# %bb.1:                                # %start
	lui	a5, 65793
	slli	a5, a5, 4
	srl	a5, a5, t0
	andi	a5, a5, 1
	beqz	a5, .Laes_narrow_BB60_3
# %bb.2:                                # %join.3.i
	addi	sp, sp, -48
	sd	ra, 40(sp)                      # 8-byte Folded Spill
	sd	s0, 32(sp)                      # 8-byte Folded Spill
	sd	s1, 24(sp)                      # 8-byte Folded Spill
	seqz	a5, a3
	slli	a5, a5, 12
	add	a3, a3, a5
	seqz	a5, a1
	addi	a6, a0, 8
	slli	t0, t0, 1
	slli	a5, a5, 12
	addi	a0, t0, 56
	add	a1, a1, a5
	sd	a6, 8(sp)
	sd	a0, 16(sp)
	addi	a0, sp, 8
	call	aes_narrow.key_wrap.wrapping.unwrap
	zext.b	s0, a1
	zext.b	s1, a0
	call	aes_narrow.aes_cipher.zeroize.stack.wipe_stack.512
	seqz	a0, s1
	snez	a1, s0
	addi	a1, a1, 5
	addi	a0, a0, -1
	and	a6, a0, a1
	ld	ra, 40(sp)                      # 8-byte Folded Reload
	ld	s0, 32(sp)                      # 8-byte Folded Reload
	ld	s1, 24(sp)                      # 8-byte Folded Reload
	addi	sp, sp, 48
.Laes_narrow_BB60_3:                               # %"aes_c::wrapping::fotsgure_aes_unwrap.exit"
	mv	a0, a6
	li	a1, 0
	li	a2, 0
	li	a3, 0
	li	a4, 0
	li	a5, 0
	li	a6, 0
	li	a7, 0
	li	t0, 0
	li	t1, 0
	li	t2, 0
	li	t3, 0
	li	t4, 0
	li	t5, 0
	li	t6, 0
	ret
.Laes_narrow_func_end60:
	.size	aes_narrow.fotsgure_aes_unwrap, .Laes_narrow_func_end60-aes_narrow.fotsgure_aes_unwrap
                                        # -- End function
	.section	.text.aes_narrow.fotsgure_aes_unwrap_padded,"ax",@progbits
	export_aes_narrow	fotsgure_aes_unwrap_padded
	.p2align	1
	.type	aes_narrow.fotsgure_aes_unwrap_padded,@function
aes_narrow.fotsgure_aes_unwrap_padded:             # @aes_narrow.fotsgure_aes_unwrap_padded
# %bb.0:                                # %start
	addi	sp, sp, -48
	sd	ra, 40(sp)                      # 8-byte Folded Spill
	sd	s0, 32(sp)                      # 8-byte Folded Spill
	mv	s0, a5
	mv	a6, a4
	mv	a7, a2
	sd	zero, 0(a5)
	ld	a5, 0(a0)
	sd	zero, 24(sp)
	li	a4, 32
	li	a2, 2
	bltu	a4, a5, .Laes_narrow_BB61_4
# %bb.1:                                # %start
	lui	a4, 65793
	slli	a4, a4, 4
	srl	a4, a4, a5
	andi	a4, a4, 1
	beqz	a4, .Laes_narrow_BB61_4
# %bb.2:                                # %join.3.i
	seqz	a2, a3
	slli	a2, a2, 12
	add	a4, a3, a2
	seqz	a2, a1
	addi	a0, a0, 8
	slli	a5, a5, 1
	slli	a2, a2, 12
	addi	a3, a5, 56
	add	a2, a2, a1
	sd	a0, 8(sp)
	sd	a3, 16(sp)
	addi	a0, sp, 24
	addi	a1, sp, 8
	mv	a3, a7
	mv	a5, a6
	call	aes_narrow.key_wrap.padded.unwrap_padded
	call	aes_narrow.aes_cipher.zeroize.stack.wipe_stack.512
	lbu	a0, 24(sp)
	beqz	a0, .Laes_narrow_BB61_5
# %bb.3:                                # %arm.5.i
	lbu	a0, 25(sp)
	snez	a2, a0
	addi	a2, a2, 5
.Laes_narrow_BB61_4:                               # %"aes_c::wrapping::fotsgure_aes_unwrap_padded.exit"
	mv	a0, a2
	ld	ra, 40(sp)                      # 8-byte Folded Reload
	ld	s0, 32(sp)                      # 8-byte Folded Reload
	addi	sp, sp, 48
	li	a1, 0
	li	a2, 0
	li	a3, 0
	li	a4, 0
	li	a5, 0
	li	a6, 0
	li	a7, 0
	li	t0, 0
	li	t1, 0
	li	t2, 0
	li	t3, 0
	li	t4, 0
	li	t5, 0
	li	t6, 0
	ret
.Laes_narrow_BB61_5:                               # %arm.4.i
	lwu	a0, 28(sp)
	sd	a0, 0(s0)
	li	a0, 0
	ld	ra, 40(sp)                      # 8-byte Folded Reload
	ld	s0, 32(sp)                      # 8-byte Folded Reload
	addi	sp, sp, 48
	li	a1, 0
	li	a2, 0
	li	a3, 0
	li	a4, 0
	li	a5, 0
	li	a6, 0
	li	a7, 0
	li	t0, 0
	li	t1, 0
	li	t2, 0
	li	t3, 0
	li	t4, 0
	li	t5, 0
	li	t6, 0
	ret
.Laes_narrow_func_end61:
	.size	aes_narrow.fotsgure_aes_unwrap_padded, .Laes_narrow_func_end61-aes_narrow.fotsgure_aes_unwrap_padded
                                        # -- End function
	.section	.text.aes_narrow.fotsgure_aes_inv_mix_columns,"ax",@progbits
	export_aes_narrow	fotsgure_aes_inv_mix_columns
	.p2align	1
	.type	aes_narrow.fotsgure_aes_inv_mix_columns,@function
aes_narrow.fotsgure_aes_inv_mix_columns:           # @aes_narrow.fotsgure_aes_inv_mix_columns
# %bb.0:                                # %start
	addi	sp, sp, -16
	sd	ra, 8(sp)                       # 8-byte Folded Spill
	call	aes_narrow.aes_c.single_rounds.inverse_mixed
	ld	ra, 8(sp)                       # 8-byte Folded Reload
	addi	sp, sp, 16
	tail	aes_narrow.aes_cipher.zeroize.stack.wipe_stack.512
.Laes_narrow_func_end62:
	.size	aes_narrow.fotsgure_aes_inv_mix_columns, .Laes_narrow_func_end62-aes_narrow.fotsgure_aes_inv_mix_columns
                                        # -- End function
	.section	.text.aes_narrow.fotsgure_aes_equiv_inv_cipher_round,"ax",@progbits
	export_aes_narrow	fotsgure_aes_equiv_inv_cipher_round
	.p2align	1
	.type	aes_narrow.fotsgure_aes_equiv_inv_cipher_round,@function
aes_narrow.fotsgure_aes_equiv_inv_cipher_round:    # @aes_narrow.fotsgure_aes_equiv_inv_cipher_round
# %bb.0:                                # %start
	addi	sp, sp, -16
	sd	ra, 8(sp)                       # 8-byte Folded Spill
	call	aes_narrow.aes_c.single_rounds.inverse_round
	ld	ra, 8(sp)                       # 8-byte Folded Reload
	addi	sp, sp, 16
	tail	aes_narrow.aes_cipher.zeroize.stack.wipe_stack.512
.Laes_narrow_func_end63:
	.size	aes_narrow.fotsgure_aes_equiv_inv_cipher_round, .Laes_narrow_func_end63-aes_narrow.fotsgure_aes_equiv_inv_cipher_round
                                        # -- End function
	.section	.text.aes_narrow.fotsgure_aes_equiv_inv_cipher_round_par,"ax",@progbits
	export_aes_narrow	fotsgure_aes_equiv_inv_cipher_round_par
	.p2align	1
	.type	aes_narrow.fotsgure_aes_equiv_inv_cipher_round_par,@function
aes_narrow.fotsgure_aes_equiv_inv_cipher_round_par: # @aes_narrow.fotsgure_aes_equiv_inv_cipher_round_par
# %bb.0:                                # %start
	addi	sp, sp, -16
	sd	ra, 8(sp)                       # 8-byte Folded Spill
	call	aes_narrow.aes_c.single_rounds.inverse_rounds
	ld	ra, 8(sp)                       # 8-byte Folded Reload
	addi	sp, sp, 16
	tail	aes_narrow.aes_cipher.zeroize.stack.wipe_stack.512
.Laes_narrow_func_end64:
	.size	aes_narrow.fotsgure_aes_equiv_inv_cipher_round_par, .Laes_narrow_func_end64-aes_narrow.fotsgure_aes_equiv_inv_cipher_round_par
                                        # -- End function
	.section	.text.aes_narrow.fotsgure_aes_cmac_accept,"ax",@progbits
	export_aes_narrow	fotsgure_aes_cmac_accept
	.p2align	1
	.type	aes_narrow.fotsgure_aes_cmac_accept,@function
aes_narrow.fotsgure_aes_cmac_accept:               # @aes_narrow.fotsgure_aes_cmac_accept
# %bb.0:                                # %start
	addi	sp, sp, -32
	sd	ra, 24(sp)                      # 8-byte Folded Spill
	sd	s0, 16(sp)                      # 8-byte Folded Spill
	ld	a4, 0(a0)
	li	a5, 32
	li	s0, 2
	bltu	a5, a4, .Laes_narrow_BB65_7
# %bb.1:                                # %start
	lui	a5, 65793
	slli	a5, a5, 4
	srl	a5, a5, a4
	andi	a5, a5, 1
	beqz	a5, .Laes_narrow_BB65_7
# %bb.2:                                # %join.3.i
	addi	a5, a3, -4
	li	s0, 12
	bltu	s0, a5, .Laes_narrow_BB65_6
# %bb.3:                                # %join.6.i
	addi	a0, a0, 8
	slli	a4, a4, 1
	ld	a5, 0(a1)
	addi	a4, a4, 56
	li	s0, 1
	sd	a0, 0(sp)
	sd	a4, 8(sp)
	bne	a5, s0, .Laes_narrow_BB65_8
# %bb.4:                                # %join.3.i.i
	seqz	a0, a2
	slli	a0, a0, 12
	add	a2, a2, a0
	mv	a0, a1
	mv	a1, sp
	mv	s0, a0
	call	aes_narrow.cmac.pieces.Message.is_tag_so_far
	beqz	a0, .Laes_narrow_BB65_9
# %bb.5:                                # %join.7.i.i
	mv	a0, s0
	call	aes_narrow.cmac.pieces.MessageZeroize.zeroize
	call	aes_narrow.aes_cipher.zeroize.stack.wipe_stack.768
	li	a0, 0
	ld	ra, 24(sp)                      # 8-byte Folded Reload
	ld	s0, 16(sp)                      # 8-byte Folded Reload
	addi	sp, sp, 32
	li	a1, 0
	li	a2, 0
	li	a3, 0
	li	a4, 0
	li	a5, 0
	li	a6, 0
	li	a7, 0
	li	t0, 0
	li	t1, 0
	li	t2, 0
	li	t3, 0
	li	t4, 0
	li	t5, 0
	li	t6, 0
	ret
.Laes_narrow_BB65_6:
	li	s0, 7
.Laes_narrow_BB65_7:                               # %"aes_c::tags::pieces::fotsgure_aes_cmac_accept.exit"
	mv	a0, s0
	ld	ra, 24(sp)                      # 8-byte Folded Reload
	ld	s0, 16(sp)                      # 8-byte Folded Reload
	addi	sp, sp, 32
	li	a1, 0
	li	a2, 0
	li	a3, 0
	li	a4, 0
	li	a5, 0
	li	a6, 0
	li	a7, 0
	li	t0, 0
	li	t1, 0
	li	t2, 0
	li	t3, 0
	li	t4, 0
	li	t5, 0
	li	t6, 0
	ret
.Laes_narrow_BB65_8:
	li	s0, 10
	call	aes_narrow.aes_cipher.zeroize.stack.wipe_stack.768
	mv	a0, s0
	ld	ra, 24(sp)                      # 8-byte Folded Reload
	ld	s0, 16(sp)                      # 8-byte Folded Reload
	addi	sp, sp, 32
	li	a1, 0
	li	a2, 0
	li	a3, 0
	li	a4, 0
	li	a5, 0
	li	a6, 0
	li	a7, 0
	li	t0, 0
	li	t1, 0
	li	t2, 0
	li	t3, 0
	li	t4, 0
	li	t5, 0
	li	t6, 0
	ret
.Laes_narrow_BB65_9:
	li	s0, 6
	call	aes_narrow.aes_cipher.zeroize.stack.wipe_stack.768
	mv	a0, s0
	ld	ra, 24(sp)                      # 8-byte Folded Reload
	ld	s0, 16(sp)                      # 8-byte Folded Reload
	addi	sp, sp, 32
	li	a1, 0
	li	a2, 0
	li	a3, 0
	li	a4, 0
	li	a5, 0
	li	a6, 0
	li	a7, 0
	li	t0, 0
	li	t1, 0
	li	t2, 0
	li	t3, 0
	li	t4, 0
	li	t5, 0
	li	t6, 0
	ret
.Laes_narrow_func_end65:
	.size	aes_narrow.fotsgure_aes_cmac_accept, .Laes_narrow_func_end65-aes_narrow.fotsgure_aes_cmac_accept
                                        # -- End function
	.section	.text.aes_narrow.fotsgure_aes_cmac_verify,"ax",@progbits
	export_aes_narrow	fotsgure_aes_cmac_verify
	.p2align	1
	.type	aes_narrow.fotsgure_aes_cmac_verify,@function
aes_narrow.fotsgure_aes_cmac_verify:               # @aes_narrow.fotsgure_aes_cmac_verify
# %bb.0:                                # %start
	addi	sp, sp, -32
	sd	ra, 24(sp)                      # 8-byte Folded Spill
	sd	s0, 16(sp)                      # 8-byte Folded Spill
	ld	s0, 0(a0)
	li	a6, 32
	li	a7, 2
	bltu	a6, s0, .Laes_narrow_BB66_4
# %bb.1:                                # %start
	lui	a5, 65793
	slli	a5, a5, 4
	srl	a5, a5, s0
	andi	a5, a5, 1
	beqz	a5, .Laes_narrow_BB66_4
# %bb.2:                                # %join.3.i
	addi	a6, a4, -4
	li	a5, 12
	bltu	a5, a6, .Laes_narrow_BB66_5
# %bb.3:                                # %join.6.i
	seqz	a5, a1
	slli	a5, a5, 12
	add	a1, a1, a5
	seqz	a5, a3
	addi	a0, a0, 8
	slli	s0, s0, 1
	slli	a5, a5, 12
	addi	s0, s0, 56
	add	a3, a3, a5
	sd	a0, 0(sp)
	sd	s0, 8(sp)
	mv	a0, sp
	call	aes_narrow.cmac.tags.is_tag_start
	mv	s0, a0
	call	aes_narrow.aes_cipher.zeroize.stack.wipe_stack.768
	addi	s0, s0, -1
	andi	a7, s0, 6
.Laes_narrow_BB66_4:                               # %"aes_c::tags::fotsgure_aes_cmac_verify.exit"
	mv	a0, a7
	ld	ra, 24(sp)                      # 8-byte Folded Reload
	ld	s0, 16(sp)                      # 8-byte Folded Reload
	addi	sp, sp, 32
	li	a1, 0
	li	a2, 0
	li	a3, 0
	li	a4, 0
	li	a5, 0
	li	a6, 0
	li	a7, 0
	li	t0, 0
	li	t1, 0
	li	t2, 0
	li	t3, 0
	li	t4, 0
	li	t5, 0
	li	t6, 0
	ret
.Laes_narrow_BB66_5:
	li	a0, 7
	ld	ra, 24(sp)                      # 8-byte Folded Reload
	ld	s0, 16(sp)                      # 8-byte Folded Reload
	addi	sp, sp, 32
	li	a1, 0
	li	a2, 0
	li	a3, 0
	li	a4, 0
	li	a5, 0
	li	a6, 0
	li	a7, 0
	li	t0, 0
	li	t1, 0
	li	t2, 0
	li	t3, 0
	li	t4, 0
	li	t5, 0
	li	t6, 0
	ret
.Laes_narrow_func_end66:
	.size	aes_narrow.fotsgure_aes_cmac_verify, .Laes_narrow_func_end66-aes_narrow.fotsgure_aes_cmac_verify
                                        # -- End function
	.section	.text.aes_narrow.fotsgure_aes_mix_columns,"ax",@progbits
	export_aes_narrow	fotsgure_aes_mix_columns
	.p2align	1
	.type	aes_narrow.fotsgure_aes_mix_columns,@function
aes_narrow.fotsgure_aes_mix_columns:               # @aes_narrow.fotsgure_aes_mix_columns
# %bb.0:                                # %start
	addi	sp, sp, -16
	sd	ra, 8(sp)                       # 8-byte Folded Spill
	call	aes_narrow.aes_c.single_rounds.mixed
	ld	ra, 8(sp)                       # 8-byte Folded Reload
	addi	sp, sp, 16
	tail	aes_narrow.aes_cipher.zeroize.stack.wipe_stack.512
.Laes_narrow_func_end67:
	.size	aes_narrow.fotsgure_aes_mix_columns, .Laes_narrow_func_end67-aes_narrow.fotsgure_aes_mix_columns
                                        # -- End function
	.section	.text.aes_narrow.fotsgure_aes_add_keystream,"ax",@progbits
	export_aes_narrow	fotsgure_aes_add_keystream
	.p2align	1
	.type	aes_narrow.fotsgure_aes_add_keystream,@function
aes_narrow.fotsgure_aes_add_keystream:             # @aes_narrow.fotsgure_aes_add_keystream
# %bb.0:                                # %start
	addi	sp, sp, -48
	sd	ra, 40(sp)                      # 8-byte Folded Spill
	sd	s0, 32(sp)                      # 8-byte Folded Spill
	sd	s1, 24(sp)                      # 8-byte Folded Spill
	mv	s0, a3
	mv	a3, a2
	ld	a2, 16(a1)
	not	a5, a2
	bgeu	a5, s0, .Laes_narrow_BB68_3
# %bb.1:
	li	a0, 4
.Laes_narrow_BB68_2:                               # %"aes_c::stream::fotsgure_aes_add_keystream.exit"
	ld	ra, 40(sp)                      # 8-byte Folded Reload
	ld	s0, 32(sp)                      # 8-byte Folded Reload
	ld	s1, 24(sp)                      # 8-byte Folded Reload
	addi	sp, sp, 48
	li	a1, 0
	li	a2, 0
	li	a3, 0
	li	a4, 0
	li	a5, 0
	li	a6, 0
	li	a7, 0
	li	t0, 0
	li	t1, 0
	li	t2, 0
	li	t3, 0
	li	t4, 0
	li	t5, 0
	li	t6, 0
	ret
.Laes_narrow_BB68_3:                               # %join.3.i.i
	mv	a4, a0
	ld	a5, 0(a0)
	li	s1, 32
	li	a0, 2
	bltu	s1, a5, .Laes_narrow_BB68_2
# %bb.4:                                # %join.3.i.i
	lui	s1, 65793
	slli	s1, s1, 4
	srl	s1, s1, a5
	andi	s1, s1, 1
	beqz	s1, .Laes_narrow_BB68_2
# %bb.5:                                # %then.1.i
	seqz	a0, a3
	addi	a4, a4, 8
	slli	a5, a5, 1
	slli	a0, a0, 12
	addi	a5, a5, 56
	add	a3, a3, a0
	sd	a4, 8(sp)
	sd	a5, 16(sp)
	addi	a0, sp, 8
	mv	s1, a1
	mv	a4, s0
	call	aes_narrow.aes_ctr.add_in_batches.add_keystream
	li	a0, 0
	ld	a1, 16(s1)
	add	a1, a1, s0
	sd	a1, 16(s1)
	ld	ra, 40(sp)                      # 8-byte Folded Reload
	ld	s0, 32(sp)                      # 8-byte Folded Reload
	ld	s1, 24(sp)                      # 8-byte Folded Reload
	addi	sp, sp, 48
	li	a1, 0
	li	a2, 0
	li	a3, 0
	li	a4, 0
	li	a5, 0
	li	a6, 0
	li	a7, 0
	li	t0, 0
	li	t1, 0
	li	t2, 0
	li	t3, 0
	li	t4, 0
	li	t5, 0
	li	t6, 0
	ret
.Laes_narrow_func_end68:
	.size	aes_narrow.fotsgure_aes_add_keystream, .Laes_narrow_func_end68-aes_narrow.fotsgure_aes_add_keystream
                                        # -- End function
	.section	.text.aes_narrow.fotsgure_aes_add_keystream_to,"ax",@progbits
	export_aes_narrow	fotsgure_aes_add_keystream_to
	.p2align	1
	.type	aes_narrow.fotsgure_aes_add_keystream_to,@function
aes_narrow.fotsgure_aes_add_keystream_to:          # @aes_narrow.fotsgure_aes_add_keystream_to
# %bb.0:                                # %start
	bne	a3, a5, .Laes_narrow_BB69_10
# %bb.1:                                # %join.3.i
	addi	sp, sp, -64
	sd	ra, 56(sp)                      # 8-byte Folded Spill
	sd	s0, 48(sp)                      # 8-byte Folded Spill
	sd	s1, 40(sp)                      # 8-byte Folded Spill
	sd	s2, 32(sp)                      # 8-byte Folded Spill
	sd	s3, 24(sp)                      # 8-byte Folded Spill
	sd	s4, 16(sp)                      # 8-byte Folded Spill
	mv	s0, a4
	ld	a4, 16(a1)
	not	a4, a4
	bltu	a4, a3, .Laes_narrow_BB69_8
# %bb.2:                                # %join.3.i.i
	ld	a5, 0(a0)
	li	s1, 32
	li	a4, 2
	bltu	s1, a5, .Laes_narrow_BB69_9
# %bb.3:                                # %join.3.i.i
	lui	s1, 65793
	slli	s1, s1, 4
	srl	a5, s1, a5
	andi	a5, a5, 1
	beqz	a5, .Laes_narrow_BB69_9
# %bb.4:                                # %join.6.i
	seqz	a5, a2
	seqz	a4, s0
	slli	a5, a5, 12
	slli	s1, a4, 12
	add	a4, a2, a5
	add	s4, s0, s1
	sub	s0, s4, a4
	bgeu	s0, a3, .Laes_narrow_BB69_11
# %bb.5:                                # %join.7.i.i.i.i.i.i.i.preheader
	add	a5, a5, a3
	add	a2, a2, a5
	mv	a5, s4
.Laes_narrow_BB69_6:                               # %join.7.i.i.i.i.i.i.i
                                        # =>This Inner Loop Header: Depth=1
	lbu	s1, 0(a4)
	addi	a4, a4, 1
	sb	s1, 0(a5)
	addi	a5, a5, 1
	bne	a4, a2, .Laes_narrow_BB69_6
# %bb.7:                                # %"core::slice::edits::slice+T::copy_from_slice::<i8,20'core::clone::U8Clone{}>.exit.i"
	ld	a2, 16(a1)
	not	a4, a2
	bgeu	a4, a3, .Laes_narrow_BB69_12
.Laes_narrow_BB69_8:
	li	a4, 4
.Laes_narrow_BB69_9:
	ld	ra, 56(sp)                      # 8-byte Folded Reload
	ld	s0, 48(sp)                      # 8-byte Folded Reload
	ld	s1, 40(sp)                      # 8-byte Folded Reload
	ld	s2, 32(sp)                      # 8-byte Folded Reload
	ld	s3, 24(sp)                      # 8-byte Folded Reload
	ld	s4, 16(sp)                      # 8-byte Folded Reload
	addi	sp, sp, 64
	mv	a0, a4
	li	a1, 0
	li	a2, 0
	li	a3, 0
	li	a4, 0
	li	a5, 0
	li	a6, 0
	li	a7, 0
	li	t0, 0
	li	t1, 0
	li	t2, 0
	li	t3, 0
	li	t4, 0
	li	t5, 0
	li	t6, 0
	ret
.Laes_narrow_BB69_10:
	li	a0, 3
	li	a1, 0
	li	a2, 0
	li	a3, 0
	li	a4, 0
	li	a5, 0
	li	a6, 0
	li	a7, 0
	li	t0, 0
	li	t1, 0
	li	t2, 0
	li	t3, 0
	li	t4, 0
	li	t5, 0
	li	t6, 0
	ret
.Laes_narrow_BB69_11:                              # %apart.2.i.i.i.i.i.i.i
	mv	s2, a0
	mv	a0, s4
	mv	s3, a1
	mv	a1, a4
	mv	a2, a3
	mv	s1, a3
	la	t1, memmove
	jalr	t1
	mv	a0, s2
	mv	a1, s3
	mv	a3, s1
	ld	a2, 16(s3)
	not	a4, a2
	bltu	a4, s1, .Laes_narrow_BB69_8
.Laes_narrow_BB69_12:                              # %join.3.i.i.i
	ld	a5, 0(a0)
	li	s1, 32
	li	a4, 2
	bltu	s1, a5, .Laes_narrow_BB69_9
# %bb.13:                               # %join.3.i.i.i
	lui	s1, 65793
	slli	s1, s1, 4
	srl	s1, s1, a5
	andi	s1, s1, 1
	beqz	s1, .Laes_narrow_BB69_9
# %bb.14:                               # %then.1.i.i
	addi	a0, a0, 8
	slli	a5, a5, 1
	addi	a4, a5, 56
	sd	a0, 0(sp)
	sd	a4, 8(sp)
	mv	a0, sp
	mv	s1, a1
	mv	s2, a3
	mv	a3, s4
	mv	a4, s2
	call	aes_narrow.aes_ctr.add_in_batches.add_keystream
	li	a4, 0
	ld	a0, 16(s1)
	add	a0, a0, s2
	sd	a0, 16(s1)
	j	.Laes_narrow_BB69_9
.Laes_narrow_func_end69:
	.size	aes_narrow.fotsgure_aes_add_keystream_to, .Laes_narrow_func_end69-aes_narrow.fotsgure_aes_add_keystream_to
                                        # -- End function
	.section	.text.aes_narrow.fotsgure_aes_cipher_round,"ax",@progbits
	export_aes_narrow	fotsgure_aes_cipher_round
	.p2align	1
	.type	aes_narrow.fotsgure_aes_cipher_round,@function
aes_narrow.fotsgure_aes_cipher_round:              # @aes_narrow.fotsgure_aes_cipher_round
# %bb.0:                                # %start
	addi	sp, sp, -16
	sd	ra, 8(sp)                       # 8-byte Folded Spill
	call	aes_narrow.aes_c.single_rounds.round
	ld	ra, 8(sp)                       # 8-byte Folded Reload
	addi	sp, sp, 16
	tail	aes_narrow.aes_cipher.zeroize.stack.wipe_stack.512
.Laes_narrow_func_end70:
	.size	aes_narrow.fotsgure_aes_cipher_round, .Laes_narrow_func_end70-aes_narrow.fotsgure_aes_cipher_round
                                        # -- End function
	.section	.text.aes_narrow.fotsgure_aes_cipher_round_par,"ax",@progbits
	export_aes_narrow	fotsgure_aes_cipher_round_par
	.p2align	1
	.type	aes_narrow.fotsgure_aes_cipher_round_par,@function
aes_narrow.fotsgure_aes_cipher_round_par:          # @aes_narrow.fotsgure_aes_cipher_round_par
# %bb.0:                                # %start
	addi	sp, sp, -16
	sd	ra, 8(sp)                       # 8-byte Folded Spill
	call	aes_narrow.aes_c.single_rounds.rounds
	ld	ra, 8(sp)                       # 8-byte Folded Reload
	addi	sp, sp, 16
	tail	aes_narrow.aes_cipher.zeroize.stack.wipe_stack.512
.Laes_narrow_func_end71:
	.size	aes_narrow.fotsgure_aes_cipher_round_par, .Laes_narrow_func_end71-aes_narrow.fotsgure_aes_cipher_round_par
                                        # -- End function
	.section	.text.aes_narrow.fotsgure_aes_set_key,"ax",@progbits
	export_aes_narrow	fotsgure_aes_set_key
	.p2align	1
	.type	aes_narrow.fotsgure_aes_set_key,@function
aes_narrow.fotsgure_aes_set_key:                   # @aes_narrow.fotsgure_aes_set_key
# %bb.0:                                # %start
	addi	sp, sp, -48
	sd	ra, 40(sp)                      # 8-byte Folded Spill
	sd	s0, 32(sp)                      # 8-byte Folded Spill
	sd	s1, 24(sp)                      # 8-byte Folded Spill
	sd	s2, 16(sp)                      # 8-byte Folded Spill
	sd	s3, 8(sp)                       # 8-byte Folded Spill
	mv	s0, a2
	li	a2, 32
	bltu	a2, s0, .Laes_narrow_BB72_3
# %bb.1:                                # %start
	lui	a2, 65793
	slli	a2, a2, 4
	srl	a2, a2, s0
	andi	a2, a2, 1
	beqz	a2, .Laes_narrow_BB72_3
# %bb.2:                                # %join.3.i
	seqz	a2, a1
	slli	a2, a2, 12
	add	s1, a1, a2
	addi	s2, a0, 8
	li	a2, 960
	mv	s3, a0
	mv	a0, s2
	li	a1, 0
	la	t1, memset
	jalr	t1
	mv	a0, s2
	mv	a1, s1
	mv	a2, s0
	call	aes_narrow.aes_narrow.word_room.expand_words
	call	aes_narrow.aes_cipher.zeroize.stack.wipe_stack.768
	li	a0, 0
	sd	s0, 0(s3)
	j	.Laes_narrow_BB72_4
.Laes_narrow_BB72_3:                               # %then.1.i
	li	a2, 968
	li	a1, 0
	la	t1, memset
	jalr	t1
	li	a0, 1
.Laes_narrow_BB72_4:                               # %"aes_c::kept::fotsgure_aes_set_key.exit"
	ld	ra, 40(sp)                      # 8-byte Folded Reload
	ld	s0, 32(sp)                      # 8-byte Folded Reload
	ld	s1, 24(sp)                      # 8-byte Folded Reload
	ld	s2, 16(sp)                      # 8-byte Folded Reload
	ld	s3, 8(sp)                       # 8-byte Folded Reload
	addi	sp, sp, 48
	li	a1, 0
	li	a2, 0
	li	a3, 0
	li	a4, 0
	li	a5, 0
	li	a6, 0
	li	a7, 0
	li	t0, 0
	li	t1, 0
	li	t2, 0
	li	t3, 0
	li	t4, 0
	li	t5, 0
	li	t6, 0
	ret
.Laes_narrow_func_end72:
	.size	aes_narrow.fotsgure_aes_set_key, .Laes_narrow_func_end72-aes_narrow.fotsgure_aes_set_key
                                        # -- End function
	.section	.text.aes_narrow.fotsgure_aes_decrypt_blocks_with,"ax",@progbits
	export_aes_narrow	fotsgure_aes_decrypt_blocks_with
	.p2align	1
	.type	aes_narrow.fotsgure_aes_decrypt_blocks_with,@function
aes_narrow.fotsgure_aes_decrypt_blocks_with:       # @aes_narrow.fotsgure_aes_decrypt_blocks_with
# %bb.0:                                # %start
	addi	sp, sp, -1024
	sd	ra, 1016(sp)                    # 8-byte Folded Spill
	sd	s0, 1008(sp)                    # 8-byte Folded Spill
	sd	s1, 1000(sp)                    # 8-byte Folded Spill
	sd	s2, 992(sp)                     # 8-byte Folded Spill
	sd	s3, 984(sp)                     # 8-byte Folded Spill
	sd	s4, 976(sp)                     # 8-byte Folded Spill
	mv	s0, a1
	sd	zero, 8(sp)
	li	a1, 32
	li	s1, 1
	bltu	a1, s0, .Laes_narrow_BB73_6
# %bb.1:                                # %start
	lui	a1, 65793
	slli	a1, a1, 4
	srl	a1, a1, s0
	andi	a1, a1, 1
	beqz	a1, .Laes_narrow_BB73_6
# %bb.2:                                # %join.3.i
	mv	s3, a3
	mv	s4, a2
	addi	s2, sp, 16
	seqz	a1, a0
	slli	a1, a1, 12
	add	s1, a0, a1
	addi	a0, sp, 80
	li	a2, 896
	li	a1, 0
	la	t1, memset
	jalr	t1
	mv	a0, s2
	mv	a1, s1
	mv	a2, s0
	call	aes_narrow.aes_narrow.word_room.expand_words
	call	aes_narrow.aes_cipher.zeroize.stack.wipe_stack.768
	sd	s0, 8(sp)
	li	a0, 32
	li	s1, 2
	bltu	a0, s0, .Laes_narrow_BB73_5
# %bb.3:                                # %join.3.i
	lui	a0, 65793
	slli	a0, a0, 4
	srl	a0, a0, s0
	andi	a0, a0, 1
	beqz	a0, .Laes_narrow_BB73_5
# %bb.4:                                # %join.3.i8.i
	seqz	a0, s4
	slli	s0, s0, 1
	slli	a0, a0, 12
	add	a2, s4, a0
	addi	a1, s0, 56
	mv	a0, s2
	mv	a3, s3
	call	aes_narrow.aes_narrow.blocks.process_all_batches.2
	call	aes_narrow.aes_cipher.zeroize.stack.wipe_stack.1024
	li	s1, 0
.Laes_narrow_BB73_5:                               # %"aes_c::blocks::fotsgure_aes_decrypt_blocks.exit.i"
	sd	zero, 8(sp)
	mv	a0, s2
	call	aes_narrow.aes_cipher.zeroize.elements.zeroize_elements.1
.Laes_narrow_BB73_6:                               # %"aes_c::once::fotsgure_aes_decrypt_blocks_with.exit"
	mv	a0, s1
	ld	ra, 1016(sp)                    # 8-byte Folded Reload
	ld	s0, 1008(sp)                    # 8-byte Folded Reload
	ld	s1, 1000(sp)                    # 8-byte Folded Reload
	ld	s2, 992(sp)                     # 8-byte Folded Reload
	ld	s3, 984(sp)                     # 8-byte Folded Reload
	ld	s4, 976(sp)                     # 8-byte Folded Reload
	addi	sp, sp, 1024
	li	a1, 0
	li	a2, 0
	li	a3, 0
	li	a4, 0
	li	a5, 0
	li	a6, 0
	li	a7, 0
	li	t0, 0
	li	t1, 0
	li	t2, 0
	li	t3, 0
	li	t4, 0
	li	t5, 0
	li	t6, 0
	ret
.Laes_narrow_func_end73:
	.size	aes_narrow.fotsgure_aes_decrypt_blocks_with, .Laes_narrow_func_end73-aes_narrow.fotsgure_aes_decrypt_blocks_with
                                        # -- End function
	.section	.text.aes_narrow.fotsgure_aes_ccm_open,"ax",@progbits
	export_aes_narrow	fotsgure_aes_ccm_open
	.p2align	1
	.type	aes_narrow.fotsgure_aes_ccm_open,@function
aes_narrow.fotsgure_aes_ccm_open:                  # @aes_narrow.fotsgure_aes_ccm_open
# %bb.0:                                # %start
	mv	t0, a6
	mv	t2, a2
	ld	a2, 0(a0)
	li	a6, 32
	li	t3, 2
	bltu	a6, a2, .Laes_narrow_BB74_8
# %bb.1:                                # %start
	mv	t1, a4
	lui	a4, 65793
	slli	a4, a4, 4
	srl	a4, a4, a2
	andi	a4, a4, 1
	beqz	a4, .Laes_narrow_BB74_8
# %bb.2:                                # %join.3.i
	addi	sp, sp, -32
	sd	ra, 24(sp)                      # 8-byte Folded Spill
	ld	t4, 32(sp)
	seqz	a4, a7
	slli	a4, a4, 12
	add	t3, a7, a4
	seqz	a4, a5
	slli	a4, a4, 12
	add	a6, a5, a4
	seqz	a4, a3
	slli	a4, a4, 12
	add	a4, a4, a3
	seqz	a3, a1
	addi	a0, a0, 8
	slli	a2, a2, 1
	slli	a3, a3, 12
	addi	a5, a2, 56
	add	a2, a1, a3
	sd	a0, 0(sp)
	sd	a5, 8(sp)
	addi	a0, sp, 21
	mv	a1, sp
	mv	a3, t2
	mv	a5, t1
	mv	a7, t0
	call	aes_narrow.ccm.mode.decrypt
	call	aes_narrow.aes_cipher.zeroize.stack.wipe_stack.1024
	lbu	a0, 21(sp)
	beqz	a0, .Laes_narrow_BB74_5
# %bb.3:                                # %arm.5.i
	lbu	a0, 22(sp)
	beqz	a0, .Laes_narrow_BB74_6
# %bb.4:
	li	t3, 6
	j	.Laes_narrow_BB74_7
.Laes_narrow_BB74_5:
	li	t3, 0
	j	.Laes_narrow_BB74_7
.Laes_narrow_BB74_6:                               # %arm.8.i
	lbu	t3, 23(sp)
	addi	t3, t3, 7
.Laes_narrow_BB74_7:
	ld	ra, 24(sp)                      # 8-byte Folded Reload
	addi	sp, sp, 32
.Laes_narrow_BB74_8:                               # %"aes_c::messages::fotsgure_aes_ccm_open.exit"
	mv	a0, t3
	li	a1, 0
	li	a2, 0
	li	a3, 0
	li	a4, 0
	li	a5, 0
	li	a6, 0
	li	a7, 0
	li	t0, 0
	li	t1, 0
	li	t2, 0
	li	t3, 0
	li	t4, 0
	li	t5, 0
	li	t6, 0
	ret
.Laes_narrow_func_end74:
	.size	aes_narrow.fotsgure_aes_ccm_open, .Laes_narrow_func_end74-aes_narrow.fotsgure_aes_ccm_open
                                        # -- End function
	.section	.text.aes_narrow.fotsgure_aes_ccm_seal,"ax",@progbits
	export_aes_narrow	fotsgure_aes_ccm_seal
	.p2align	1
	.type	aes_narrow.fotsgure_aes_ccm_seal,@function
aes_narrow.fotsgure_aes_ccm_seal:                  # @aes_narrow.fotsgure_aes_ccm_seal
# %bb.0:                                # %start
	ld	t2, 0(a0)
	li	t1, 32
	li	t0, 2
	bltu	t1, t2, .Laes_narrow_BB75_6
# %bb.1:                                # %start
	addi	sp, sp, -48
	sd	ra, 40(sp)                      # 8-byte Folded Spill
	sd	s0, 32(sp)                      # 8-byte Folded Spill
	sd	s1, 24(sp)                      # 8-byte Folded Spill
	lui	s0, 65793
	slli	s0, s0, 4
	srl	s0, s0, t2
	andi	s0, s0, 1
	beqz	s0, .Laes_narrow_BB75_5
# %bb.2:                                # %join.3.i
	ld	t3, 48(sp)
	seqz	s0, a7
	slli	s0, s0, 12
	add	a7, a7, s0
	seqz	s0, a5
	slli	s0, s0, 12
	add	a5, a5, s0
	seqz	s0, a3
	slli	s0, s0, 12
	add	a3, a3, s0
	seqz	s0, a1
	addi	t0, a0, 8
	slli	t2, t2, 1
	slli	s0, s0, 12
	addi	a0, t2, 56
	add	a1, a1, s0
	sd	t0, 8(sp)
	sd	a0, 16(sp)
	addi	a0, sp, 8
	call	aes_narrow.ccm.mode.encrypt
	mv	s0, a1
	zext.b	s1, a0
	call	aes_narrow.aes_cipher.zeroize.stack.wipe_stack.1024
	beqz	s1, .Laes_narrow_BB75_4
# %bb.3:                                # %arm.5.i
	zext.b	t0, s0
	addi	t0, t0, 7
	j	.Laes_narrow_BB75_5
.Laes_narrow_BB75_4:
	li	t0, 0
.Laes_narrow_BB75_5:
	ld	ra, 40(sp)                      # 8-byte Folded Reload
	ld	s0, 32(sp)                      # 8-byte Folded Reload
	ld	s1, 24(sp)                      # 8-byte Folded Reload
	addi	sp, sp, 48
.Laes_narrow_BB75_6:                               # %"aes_c::messages::fotsgure_aes_ccm_seal.exit"
	mv	a0, t0
	li	a1, 0
	li	a2, 0
	li	a3, 0
	li	a4, 0
	li	a5, 0
	li	a6, 0
	li	a7, 0
	li	t0, 0
	li	t1, 0
	li	t2, 0
	li	t3, 0
	li	t4, 0
	li	t5, 0
	li	t6, 0
	ret
.Laes_narrow_func_end75:
	.size	aes_narrow.fotsgure_aes_ccm_seal, .Laes_narrow_func_end75-aes_narrow.fotsgure_aes_ccm_seal
                                        # -- End function
	.type	.Laes_narrow_static.0,@object              # @static.0
	.section	.rodata..Laes_narrow_static.0,"a",@progbits
.Laes_narrow_static.0:
	.ascii	"\001\002\004\b\020 @\200\0336"
	.size	.Laes_narrow_static.0, 10

	.type	.Laes_narrow_static.2,@object              # @static.2
	.section	.rodata.cst16,"aM",@progbits,16
.Laes_narrow_static.2:
	.zero	16,166
	.size	.Laes_narrow_static.2, 16

	.ident	"rattle logic=dac8208d650f15bf3e2dc313a14fa4c783a3acf887bdfab66e1714b038d9e11b"
	.section	".note.GNU-stack","",@progbits

	.section	.note.fotsgure,"a",%note
	.p2align	2, 0x0
	.long	9, 123, 1
	.asciz	"Fotsgure"
	.p2align	2, 0x0
	.asciz	"fotsgure_aes 0.4.0, riscv64/aes_narrow.s, sources SHA-256 f3fecc818c73814a93835f06896045f67fddc8c102490795e0e19679064b46a4"
	.p2align	2, 0x0
