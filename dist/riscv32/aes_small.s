# Made by tools/dist from the proved crate aes_c; BUILD says from what. Don't edit it.
/* A Rust crate defines in_rust; for x86-64, a static library of both builds defines chosen, and choose_*.c calls these names. */
	.macro	export_aes_small name
	.ifdef	in_rust
	.globl	aes_small.\name
	.hidden	aes_small.\name
	.else
	.globl	\name
	.set	\name, aes_small.\name
	.endif
	.endm
	.file	"rattle"
	.section	.text.aes_small.aes_narrow.word_room.expand_words,"ax",@progbits
	.p2align	1                               # -- Begin function aes_narrow::word_room::expand_words::<#6af90bfc14753d47>
	.type	aes_small.aes_narrow.word_room.expand_words,@function
aes_small.aes_narrow.word_room.expand_words: # @aes_small.aes_narrow.word_room.expand_words
# %bb.0:                                # %start
	addi	sp, sp, -208
	sw	ra, 204(sp)                     # 4-byte Folded Spill
	sw	s0, 200(sp)                     # 4-byte Folded Spill
	sw	s1, 196(sp)                     # 4-byte Folded Spill
	sw	s2, 192(sp)                     # 4-byte Folded Spill
	sw	s3, 188(sp)                     # 4-byte Folded Spill
	sw	s4, 184(sp)                     # 4-byte Folded Spill
	sw	s5, 180(sp)                     # 4-byte Folded Spill
	sw	s6, 176(sp)                     # 4-byte Folded Spill
	sw	s7, 172(sp)                     # 4-byte Folded Spill
	mv	s2, a3
	mv	s3, a2
	li	a2, 24
	mv	s4, a0
	beq	s3, a2, .Laes_small_BB0_4
# %bb.1:                                # %start
	li	a0, 16
	bne	s3, a0, .Laes_small_BB0_6
# %bb.2:                                # %then.1.i
	addi	a0, sp, 140
	li	a2, 0
	li	a3, 0
	call	aes_small.aes_soft.soft.plane_words.PlaneWordsFourWords.load
	addi	a3, sp, 140
	mv	a0, s4
	li	a1, 0
	li	a2, 0
	call	aes_small.aes_soft.soft.plane_words.PlaneWordsFourWords.store
	li	s0, 0
	li	s5, 0
.Laes_small_BB0_3:                                # %join.5.i.i
                                        # =>This Inner Loop Header: Depth=1
	addi	a0, sp, 108
	mv	a1, s4
	mv	a2, s0
	mv	a3, s5
	call	aes_small.aes_soft.soft.plane_words.PlaneWordsFourWords.read_back
.Laes_small_pcrel_hi0:
	auipc	a0, %pcrel_hi(.Laes_small_static.0)
	addi	a0, a0, %pcrel_lo(.Laes_small_pcrel_hi0)
	add	a0, a0, s0
	lbu	a3, 0(a0)
	addi	a0, sp, 140
	addi	a1, sp, 108
	addi	a2, sp, 140
	call	aes_small.aes_soft.soft.plane_words.PlaneWordsFourWords.rotated
	addi	s1, s0, 1
	seqz	s6, s1
	add	s6, s6, s5
	addi	a3, sp, 140
	mv	a0, s4
	mv	a1, s1
	mv	a2, s6
	call	aes_small.aes_soft.soft.plane_words.PlaneWordsFourWords.store
	sltiu	a0, s0, 9
	seqz	a1, s5
	and	a0, a0, a1
	mv	s0, s1
	mv	s5, s6
	bnez	a0, .Laes_small_BB0_3
	j	.Laes_small_BB0_9
.Laes_small_BB0_4:                                # %then.4.i
	addi	a0, sp, 140
	mv	s0, a1
	li	a2, 0
	li	a3, 0
	call	aes_small.aes_soft.soft.plane_words.PlaneWordsFourWords.load
	addi	a0, sp, 108
	li	a2, 8
	mv	a1, s0
	li	a3, 0
	call	aes_small.aes_soft.soft.plane_words.PlaneWordsFourWords.load
	addi	a3, sp, 140
	mv	a0, s4
	li	a1, 0
	li	a2, 0
	call	aes_small.aes_soft.soft.plane_words.PlaneWordsFourWords.store
	li	s1, 0
	li	s7, 0
.Laes_small_BB0_5:                                # %join.5.i14.i
                                        # =>This Inner Loop Header: Depth=1
	slli	s6, s1, 1
.Laes_small_pcrel_hi1:
	auipc	a0, %pcrel_hi(.Laes_small_static.0)
	addi	a0, a0, %pcrel_lo(.Laes_small_pcrel_hi1)
	add	s5, a0, s6
	lbu	a3, 0(s5)
	addi	a0, sp, 76
	addi	a1, sp, 140
	addi	a2, sp, 108
	call	aes_small.aes_soft.soft.plane_words.PlaneWordsFourWords.rotated
	addi	a0, sp, 44
	addi	a1, sp, 108
	addi	a2, sp, 76
	call	aes_small.aes_soft.soft.plane_words.PlaneWordsFourWords.plain
	addi	a0, sp, 12
	addi	a1, sp, 108
	addi	a2, sp, 76
	call	aes_small.aes_soft.soft.plane_words.PlaneWordsFourWords.straddled
	li	a0, 3
	slli	a1, s7, 1
	add	s6, s6, s1
	mulhu	a0, s1, a0
	add	a2, a1, s7
	addi	a1, s6, 1
	add	s0, a0, a2
	seqz	a2, a1
	add	a2, a2, s0
	addi	a3, sp, 12
	mv	a0, s4
	call	aes_small.aes_soft.soft.plane_words.PlaneWordsFourWords.store
	addi	a1, s6, 2
	sltu	a2, a1, s6
	add	a2, a2, s0
	addi	a3, sp, 44
	mv	a0, s4
	call	aes_small.aes_soft.soft.plane_words.PlaneWordsFourWords.store
	lbu	a3, 1(s5)
	addi	a0, sp, 140
	addi	a1, sp, 76
	addi	a2, sp, 44
	call	aes_small.aes_soft.soft.plane_words.PlaneWordsFourWords.rotated
	addi	a0, sp, 108
	addi	a1, sp, 44
	addi	a2, sp, 140
	call	aes_small.aes_soft.soft.plane_words.PlaneWordsFourWords.plain
	addi	a1, s6, 3
	sltu	a2, a1, s6
	add	a2, a2, s0
	addi	a3, sp, 140
	mv	a0, s4
	call	aes_small.aes_soft.soft.plane_words.PlaneWordsFourWords.store
	sltiu	a0, s1, 3
	addi	s1, s1, 1
	seqz	a1, s7
	seqz	a2, s1
	add	s7, s7, a2
	and	a0, a0, a1
	bnez	a0, .Laes_small_BB0_5
	j	.Laes_small_BB0_9
.Laes_small_BB0_6:                                # %else.5.i
	addi	a0, sp, 140
	mv	s0, a1
	li	a2, 0
	li	a3, 0
	call	aes_small.aes_soft.soft.plane_words.PlaneWordsFourWords.load
	addi	a0, sp, 108
	li	a2, 16
	mv	a1, s0
	li	a3, 0
	call	aes_small.aes_soft.soft.plane_words.PlaneWordsFourWords.load
	addi	a3, sp, 140
	mv	a0, s4
	li	a1, 0
	li	a2, 0
	call	aes_small.aes_soft.soft.plane_words.PlaneWordsFourWords.store
	li	a1, 1
	addi	a3, sp, 108
	mv	a0, s4
	li	a2, 0
	call	aes_small.aes_soft.soft.plane_words.PlaneWordsFourWords.store
	li	s0, 0
	li	s5, 0
.Laes_small_BB0_7:                                # %join.5.i23.i
                                        # =>This Inner Loop Header: Depth=1
	srli	a0, s0, 31
	slli	a1, s5, 1
	or	s6, a1, a0
	slli	s1, s0, 1
	addi	a0, sp, 76
	mv	a1, s4
	mv	a2, s1
	mv	a3, s6
	call	aes_small.aes_soft.soft.plane_words.PlaneWordsFourWords.read_back
.Laes_small_pcrel_hi2:
	auipc	a0, %pcrel_hi(.Laes_small_static.0)
	addi	a0, a0, %pcrel_lo(.Laes_small_pcrel_hi2)
	add	a0, a0, s0
	lbu	a3, 0(a0)
	addi	a0, sp, 140
	addi	a1, sp, 76
	addi	a2, sp, 108
	call	aes_small.aes_soft.soft.plane_words.PlaneWordsFourWords.rotated
	addi	a1, s1, 2
	sltu	a2, a1, s1
	add	a2, a2, s6
	addi	a3, sp, 140
	mv	a0, s4
	call	aes_small.aes_soft.soft.plane_words.PlaneWordsFourWords.store
	addi	a2, s1, 1
	addi	a0, sp, 44
	mv	a1, s4
	mv	a3, s6
	call	aes_small.aes_soft.soft.plane_words.PlaneWordsFourWords.read_back
	addi	a0, sp, 108
	addi	a1, sp, 44
	addi	a2, sp, 140
	call	aes_small.aes_soft.soft.plane_words.PlaneWordsFourWords.substituted
	addi	a1, s1, 3
	sltu	a2, a1, s1
	add	a2, a2, s6
	addi	a3, sp, 108
	mv	a0, s4
	call	aes_small.aes_soft.soft.plane_words.PlaneWordsFourWords.store
	sltiu	a0, s0, 5
	addi	s0, s0, 1
	seqz	a1, s5
	seqz	a2, s0
	add	s5, s5, a2
	and	a0, a0, a1
	bnez	a0, .Laes_small_BB0_7
# %bb.8:                                # %"aes_planes::expansion::expand_256::<#389ec886eeff95cb>.exit.i"
	addi	a0, sp, 12
	li	a2, 12
	mv	a1, s4
	li	a3, 0
	call	aes_small.aes_soft.soft.plane_words.PlaneWordsFourWords.read_back
	addi	a0, sp, 140
	addi	a1, sp, 12
	addi	a2, sp, 108
	li	a3, 64
	call	aes_small.aes_soft.soft.plane_words.PlaneWordsFourWords.rotated
	li	a1, 14
	addi	a3, sp, 140
	mv	a0, s4
	li	a2, 0
	call	aes_small.aes_soft.soft.plane_words.PlaneWordsFourWords.store
.Laes_small_BB0_9:                                # %"aes_planes::expansion::expand::<#389ec886eeff95cb>.exit"
	srli	a0, s3, 2
	slli	a1, s2, 30
	or	a0, a0, a1
	srli	a2, s2, 2
	addi	a1, a0, 6
	sltu	a0, a1, a0
	add	a2, a2, a0
	mv	a0, s4
	lw	ra, 204(sp)                     # 4-byte Folded Reload
	lw	s0, 200(sp)                     # 4-byte Folded Reload
	lw	s1, 196(sp)                     # 4-byte Folded Reload
	lw	s2, 192(sp)                     # 4-byte Folded Reload
	lw	s3, 188(sp)                     # 4-byte Folded Reload
	lw	s4, 184(sp)                     # 4-byte Folded Reload
	lw	s5, 180(sp)                     # 4-byte Folded Reload
	lw	s6, 176(sp)                     # 4-byte Folded Reload
	lw	s7, 172(sp)                     # 4-byte Folded Reload
	addi	sp, sp, 208
	tail	aes_small.aes_soft.soft.key_layout.store
.Laes_small_func_end0:
	.size	aes_small.aes_narrow.word_room.expand_words, .Laes_small_func_end0-aes_small.aes_narrow.word_room.expand_words
                                        # -- End function
	.section	.text.aes_small.aes_soft.soft.plane_words.PlaneWordsFourWords.load,"ax",@progbits
	.p2align	1                               # -- Begin function aes_soft::soft::plane_words::PlaneWordsFourWords::load::<#6af90bfc14753d47>
	.type	aes_small.aes_soft.soft.plane_words.PlaneWordsFourWords.load,@function
aes_small.aes_soft.soft.plane_words.PlaneWordsFourWords.load: # @aes_small.aes_soft.soft.plane_words.PlaneWordsFourWords.load
# %bb.0:                                # %start
	addi	sp, sp, -96
	sw	ra, 92(sp)                      # 4-byte Folded Spill
	sw	s0, 88(sp)                      # 4-byte Folded Spill
	sw	s1, 84(sp)                      # 4-byte Folded Spill
	sw	s2, 80(sp)                      # 4-byte Folded Spill
	sw	s3, 76(sp)                      # 4-byte Folded Spill
	mv	s2, a0
	add	a1, a1, a2
	lbu	a6, 0(a1)
	lbu	t1, 1(a1)
	lbu	t2, 2(a1)
	lbu	a4, 3(a1)
	lbu	a7, 4(a1)
	lbu	s0, 5(a1)
	lbu	s1, 6(a1)
	lbu	a0, 7(a1)
	lbu	t0, 8(a1)
	lbu	a5, 9(a1)
	lbu	a2, 10(a1)
	lbu	a3, 11(a1)
	lbu	t3, 12(a1)
	lbu	t4, 13(a1)
	lbu	t5, 14(a1)
	lbu	a1, 15(a1)
	slli	t6, a4, 24
	slli	t2, t2, 16
	slli	t1, t1, 8
	slli	s3, a0, 24
	slli	s1, s1, 16
	slli	s0, s0, 8
	slli	a3, a3, 24
	slli	a2, a2, 16
	slli	a5, a5, 8
	slli	a1, a1, 24
	slli	t5, t5, 16
	slli	t4, t4, 8
	or	a4, t1, a6
	or	a0, t2, t6
	or	s0, s0, a7
	or	s1, s1, s3
	or	a5, a5, t0
	or	a2, a2, a3
	or	a3, t4, t3
	or	a1, t5, a1
	or	a0, a0, a4
	or	s0, s0, s1
	or	a2, a2, a5
	or	a1, a1, a3
	sw	a0, 44(sp)
	sw	a0, 48(sp)
	sw	s0, 52(sp)
	sw	s0, 56(sp)
	sw	a2, 60(sp)
	sw	a2, 64(sp)
	sw	a1, 68(sp)
	sw	a1, 72(sp)
	addi	a0, sp, 12
	addi	a1, sp, 44
	call	aes_small.aes_planes.soft.word.transpose.transpose
	addi	a1, sp, 12
	li	a2, 32
	mv	a0, s2
	call	memcpy
	lw	ra, 92(sp)                      # 4-byte Folded Reload
	lw	s0, 88(sp)                      # 4-byte Folded Reload
	lw	s1, 84(sp)                      # 4-byte Folded Reload
	lw	s2, 80(sp)                      # 4-byte Folded Reload
	lw	s3, 76(sp)                      # 4-byte Folded Reload
	addi	sp, sp, 96
	ret
.Laes_small_func_end1:
	.size	aes_small.aes_soft.soft.plane_words.PlaneWordsFourWords.load, .Laes_small_func_end1-aes_small.aes_soft.soft.plane_words.PlaneWordsFourWords.load
                                        # -- End function
	.section	.text.aes_small.aes_planes.soft.word.transpose.transpose,"ax",@progbits
	.p2align	1                               # -- Begin function aes_planes::soft::word::transpose::transpose::<#9d6d04665546a1c3>
	.type	aes_small.aes_planes.soft.word.transpose.transpose,@function
aes_small.aes_planes.soft.word.transpose.transpose: # @aes_small.aes_planes.soft.word.transpose.transpose
# %bb.0:                                # %start
	addi	sp, sp, -64
	sw	ra, 60(sp)                      # 4-byte Folded Spill
	sw	s0, 56(sp)                      # 4-byte Folded Spill
	sw	s1, 52(sp)                      # 4-byte Folded Spill
	sw	s2, 48(sp)                      # 4-byte Folded Spill
	sw	s3, 44(sp)                      # 4-byte Folded Spill
	sw	s4, 40(sp)                      # 4-byte Folded Spill
	sw	s5, 36(sp)                      # 4-byte Folded Spill
	sw	s6, 32(sp)                      # 4-byte Folded Spill
	sw	s7, 28(sp)                      # 4-byte Folded Spill
	sw	s8, 24(sp)                      # 4-byte Folded Spill
	sw	s9, 20(sp)                      # 4-byte Folded Spill
	sw	s10, 16(sp)                     # 4-byte Folded Spill
	sw	s11, 12(sp)                     # 4-byte Folded Spill
	lbu	a7, 0(a1)
	lbu	t1, 1(a1)
	lbu	t2, 2(a1)
	lbu	a5, 3(a1)
	lbu	s2, 4(a1)
	lbu	a3, 5(a1)
	lbu	s3, 6(a1)
	lbu	s5, 7(a1)
	lbu	s4, 8(a1)
	lbu	s9, 9(a1)
	lbu	ra, 10(a1)
	lbu	a2, 11(a1)
	lbu	s0, 12(a1)
	lbu	s1, 13(a1)
	lbu	a6, 14(a1)
	lbu	t0, 15(a1)
	lbu	s10, 16(a1)
	lbu	s11, 17(a1)
	lbu	a4, 18(a1)
	sw	a4, 4(sp)                       # 4-byte Folded Spill
	lbu	t3, 19(a1)
	lbu	a4, 20(a1)
	sw	a4, 8(sp)                       # 4-byte Folded Spill
	lbu	t4, 21(a1)
	lbu	t5, 22(a1)
	lbu	t6, 23(a1)
	slli	t1, t1, 8
	slli	t2, t2, 16
	slli	a5, a5, 24
	slli	a3, a3, 8
	or	a7, t1, a7
	or	t1, a5, t2
	or	t2, a3, s2
	lbu	s2, 24(a1)
	lbu	s6, 25(a1)
	lbu	s7, 26(a1)
	lbu	s8, 27(a1)
	slli	s3, s3, 16
	slli	s5, s5, 24
	slli	s9, s9, 8
	slli	ra, ra, 16
	slli	a2, a2, 24
	or	s3, s5, s3
	or	s4, s9, s4
	or	s5, a2, ra
	lbu	s9, 28(a1)
	lbu	ra, 29(a1)
	lbu	a3, 30(a1)
	lbu	a5, 31(a1)
	slli	a1, s1, 8
	or	a1, a1, s0
	lui	s0, 349525
	slli	a6, a6, 16
	slli	a4, t0, 24
	or	a4, a4, a6
	lui	a6, 209715
	slli	s11, s11, 8
	or	s10, s11, s10
	lui	a2, 61681
	addi	s1, s0, 1365
	addi	s0, a6, 819
	addi	s11, a2, -241
	lw	t0, 4(sp)                       # 4-byte Folded Reload
	slli	t0, t0, 16
	slli	t3, t3, 24
	slli	t4, t4, 8
	slli	t5, t5, 16
	slli	t6, t6, 24
	slli	s6, s6, 8
	slli	s7, s7, 16
	slli	s8, s8, 24
	slli	ra, ra, 8
	slli	a3, a3, 16
	slli	a5, a5, 24
	or	t0, t3, t0
	lw	a2, 8(sp)                       # 4-byte Folded Reload
	or	a6, t4, a2
	or	t4, t6, t5
	or	t3, s6, s2
	or	t6, s8, s7
	or	t5, ra, s9
	or	a3, a3, a5
	or	a7, t1, a7
	or	a5, s3, t2
	or	t1, s5, s4
	or	t2, a4, a1
	or	t0, t0, s10
	or	t4, t4, a6
	or	a6, t6, t3
	or	t3, a3, t5
	srli	a4, a7, 1
	srli	a1, t1, 1
	srli	a2, t0, 1
	srli	a3, a6, 1
	xor	a4, a4, a5
	xor	a1, t2, a1
	xor	a2, t4, a2
	xor	a3, t3, a3
	and	a4, a4, s1
	and	a1, a1, s1
	and	a2, a2, s1
	and	a3, a3, s1
	slli	s1, a4, 1
	xor	t5, a4, a5
	slli	a5, a1, 1
	xor	t6, a1, t2
	slli	a4, a2, 1
	xor	t2, a2, t4
	slli	a2, a3, 1
	xor	a3, a3, t3
	xor	t3, s1, a7
	xor	a5, a5, t1
	xor	t0, a4, t0
	xor	a7, a2, a6
	srli	s1, t5, 2
	srli	a4, t2, 2
	srli	a1, t3, 2
	srli	a2, t0, 2
	xor	s1, t6, s1
	xor	a4, a4, a3
	xor	a1, a1, a5
	xor	a2, a7, a2
	and	s1, s1, s0
	and	a4, a4, s0
	and	a1, a1, s0
	and	a2, a2, s0
	slli	s0, s1, 2
	xor	t1, s1, t6
	slli	s1, a4, 2
	xor	a3, a3, a4
	slli	a4, a1, 2
	xor	a6, a1, a5
	slli	a1, a2, 2
	xor	t6, a2, a7
	xor	a7, s0, t5
	xor	a2, s1, t2
	srli	a5, t1, 4
	xor	t4, a4, t3
	xor	t5, a1, t0
	srli	a1, a7, 4
	srli	a4, a6, 4
	xor	a5, a5, a3
	srli	s0, t4, 4
	xor	a1, a1, a2
	xor	a4, t6, a4
	and	a5, a5, s11
	xor	s0, t5, s0
	and	s1, a1, s11
	and	a4, a4, s11
	slli	a1, a5, 4
	xor	s2, a5, a3
	and	s0, s0, s11
	slli	t0, s1, 4
	xor	s4, s1, a2
	slli	t2, a4, 4
	xor	s3, a4, t6
	xor	a2, a1, t1
	srli	t1, s2, 24
	srli	t3, s2, 16
	srli	t6, s2, 8
	slli	a4, s0, 4
	xor	s0, s0, t5
	xor	a1, t0, a7
	xor	a5, t2, a6
	srli	a6, a2, 24
	srli	s1, a2, 16
	srli	a3, a2, 8
	srli	a7, s4, 24
	srli	t0, s4, 16
	srli	t2, s4, 8
	srli	t5, s3, 24
	srli	s5, s3, 16
	srli	s6, s3, 8
	xor	a4, a4, t4
	srli	t4, a1, 24
	srli	s7, a1, 16
	srli	s8, a1, 8
	srli	s9, a5, 24
	srli	s10, a5, 16
	srli	s11, a5, 8
	sb	a2, 12(a0)
	sb	a3, 13(a0)
	sb	s1, 14(a0)
	sb	a6, 15(a0)
	srli	a6, s0, 24
	srli	a3, s0, 16
	sb	s4, 20(a0)
	sb	t2, 21(a0)
	sb	t0, 22(a0)
	sb	a7, 23(a0)
	srli	s1, s0, 8
	sb	s3, 24(a0)
	sb	s6, 25(a0)
	sb	s5, 26(a0)
	sb	t5, 27(a0)
	srli	a2, a4, 24
	sb	a1, 4(a0)
	sb	s8, 5(a0)
	sb	s7, 6(a0)
	sb	t4, 7(a0)
	srli	a1, a4, 16
	sb	a5, 8(a0)
	sb	s11, 9(a0)
	sb	s10, 10(a0)
	sb	s9, 11(a0)
	srli	a5, a4, 8
	sb	s0, 16(a0)
	sb	s1, 17(a0)
	sb	a3, 18(a0)
	sb	a6, 19(a0)
	sb	a4, 0(a0)
	sb	a5, 1(a0)
	sb	a1, 2(a0)
	sb	a2, 3(a0)
	sb	s2, 28(a0)
	sb	t6, 29(a0)
	sb	t3, 30(a0)
	sb	t1, 31(a0)
	lw	ra, 60(sp)                      # 4-byte Folded Reload
	lw	s0, 56(sp)                      # 4-byte Folded Reload
	lw	s1, 52(sp)                      # 4-byte Folded Reload
	lw	s2, 48(sp)                      # 4-byte Folded Reload
	lw	s3, 44(sp)                      # 4-byte Folded Reload
	lw	s4, 40(sp)                      # 4-byte Folded Reload
	lw	s5, 36(sp)                      # 4-byte Folded Reload
	lw	s6, 32(sp)                      # 4-byte Folded Reload
	lw	s7, 28(sp)                      # 4-byte Folded Reload
	lw	s8, 24(sp)                      # 4-byte Folded Reload
	lw	s9, 20(sp)                      # 4-byte Folded Reload
	lw	s10, 16(sp)                     # 4-byte Folded Reload
	lw	s11, 12(sp)                     # 4-byte Folded Reload
	addi	sp, sp, 64
	ret
.Laes_small_func_end2:
	.size	aes_small.aes_planes.soft.word.transpose.transpose, .Laes_small_func_end2-aes_small.aes_planes.soft.word.transpose.transpose
                                        # -- End function
	.section	.text.aes_small.aes_soft.soft.plane_words.PlaneWordsFourWords.read_back,"ax",@progbits
	.p2align	1                               # -- Begin function aes_soft::soft::plane_words::PlaneWordsFourWords::read_back::<#6af90bfc14753d47>
	.type	aes_small.aes_soft.soft.plane_words.PlaneWordsFourWords.read_back,@function
aes_small.aes_soft.soft.plane_words.PlaneWordsFourWords.read_back: # @aes_small.aes_soft.soft.plane_words.PlaneWordsFourWords.read_back
# %bb.0:                                # %start
	addi	sp, sp, -48
	sw	ra, 44(sp)                      # 4-byte Folded Spill
	sw	s0, 40(sp)                      # 4-byte Folded Spill
	mv	s0, a0
	addi	a0, sp, 8
	call	aes_small.aes_planes.soft.round_keys.round_key.1
	addi	a1, sp, 8
	li	a2, 32
	mv	a0, s0
	call	memcpy
	lw	ra, 44(sp)                      # 4-byte Folded Reload
	lw	s0, 40(sp)                      # 4-byte Folded Reload
	addi	sp, sp, 48
	ret
.Laes_small_func_end3:
	.size	aes_small.aes_soft.soft.plane_words.PlaneWordsFourWords.read_back, .Laes_small_func_end3-aes_small.aes_soft.soft.plane_words.PlaneWordsFourWords.read_back
                                        # -- End function
	.section	.text.aes_small.aes_planes.soft.round_keys.round_key.1,"ax",@progbits
	.p2align	1                               # -- Begin function aes_planes::soft::round_keys::round_key::<#6af90bfc14753d47>
	.type	aes_small.aes_planes.soft.round_keys.round_key.1,@function
aes_small.aes_planes.soft.round_keys.round_key.1: # @aes_small.aes_planes.soft.round_keys.round_key.1
# %bb.0:                                # %start
	addi	sp, sp, -64
	sw	ra, 60(sp)                      # 4-byte Folded Spill
	sw	s0, 56(sp)                      # 4-byte Folded Spill
	sw	s1, 52(sp)                      # 4-byte Folded Spill
	sw	s2, 48(sp)                      # 4-byte Folded Spill
	sw	s3, 44(sp)                      # 4-byte Folded Spill
	sw	s4, 40(sp)                      # 4-byte Folded Spill
	sw	s5, 36(sp)                      # 4-byte Folded Spill
	sw	s6, 32(sp)                      # 4-byte Folded Spill
	sw	s7, 28(sp)                      # 4-byte Folded Spill
	sw	s8, 24(sp)                      # 4-byte Folded Spill
	sw	s9, 20(sp)                      # 4-byte Folded Spill
	sw	s10, 16(sp)                     # 4-byte Folded Spill
	sw	s11, 12(sp)                     # 4-byte Folded Spill
	slli	a2, a2, 5
	add	a1, a1, a2
	lw	a4, 0(a1)
	lw	a2, 4(a1)
	lw	a3, 8(a1)
	lw	a5, 12(a1)
	lw	t1, 16(a1)
	lw	t0, 20(a1)
	lw	a7, 24(a1)
	lw	a6, 28(a1)
	srli	t2, a4, 24
	srli	t3, a4, 16
	srli	t6, a4, 8
	srli	t4, a2, 24
	srli	t5, a2, 16
	srli	s8, a2, 8
	srli	s2, a3, 24
	srli	s5, a3, 16
	srli	s11, a3, 8
	srli	s3, a5, 24
	srli	s4, a5, 16
	srli	s1, a5, 8
	srli	s6, t1, 24
	srli	s7, t1, 16
	srli	a1, t1, 8
	srli	s9, t0, 24
	srli	s10, t0, 16
	srli	s0, t0, 8
	srli	ra, a7, 24
	sb	a4, 0(a0)
	sb	t6, 1(a0)
	sb	t3, 2(a0)
	sb	t2, 3(a0)
	srli	a4, a7, 16
	sb	a2, 4(a0)
	sb	s8, 5(a0)
	sb	t5, 6(a0)
	sb	t4, 7(a0)
	srli	a2, a7, 8
	sb	a3, 8(a0)
	sb	s11, 9(a0)
	sb	s5, 10(a0)
	sb	s2, 11(a0)
	srli	a3, a6, 24
	sb	a5, 12(a0)
	sb	s1, 13(a0)
	sb	s4, 14(a0)
	sb	s3, 15(a0)
	srli	a5, a6, 16
	sb	t1, 16(a0)
	sb	a1, 17(a0)
	sb	s7, 18(a0)
	sb	s6, 19(a0)
	srli	a1, a6, 8
	sb	t0, 20(a0)
	sb	s0, 21(a0)
	sb	s10, 22(a0)
	sb	s9, 23(a0)
	sb	a7, 24(a0)
	sb	a2, 25(a0)
	sb	a4, 26(a0)
	sb	ra, 27(a0)
	sb	a6, 28(a0)
	sb	a1, 29(a0)
	sb	a5, 30(a0)
	sb	a3, 31(a0)
	lw	ra, 60(sp)                      # 4-byte Folded Reload
	lw	s0, 56(sp)                      # 4-byte Folded Reload
	lw	s1, 52(sp)                      # 4-byte Folded Reload
	lw	s2, 48(sp)                      # 4-byte Folded Reload
	lw	s3, 44(sp)                      # 4-byte Folded Reload
	lw	s4, 40(sp)                      # 4-byte Folded Reload
	lw	s5, 36(sp)                      # 4-byte Folded Reload
	lw	s6, 32(sp)                      # 4-byte Folded Reload
	lw	s7, 28(sp)                      # 4-byte Folded Reload
	lw	s8, 24(sp)                      # 4-byte Folded Reload
	lw	s9, 20(sp)                      # 4-byte Folded Reload
	lw	s10, 16(sp)                     # 4-byte Folded Reload
	lw	s11, 12(sp)                     # 4-byte Folded Reload
	addi	sp, sp, 64
	ret
.Laes_small_func_end4:
	.size	aes_small.aes_planes.soft.round_keys.round_key.1, .Laes_small_func_end4-aes_small.aes_planes.soft.round_keys.round_key.1
                                        # -- End function
	.section	.text.aes_small.aes_soft.soft.plane_words.PlaneWordsFourWords.rotated,"ax",@progbits
	.p2align	1                               # -- Begin function aes_soft::soft::plane_words::PlaneWordsFourWords::rotated::<#6af90bfc14753d47>
	.type	aes_small.aes_soft.soft.plane_words.PlaneWordsFourWords.rotated,@function
aes_small.aes_soft.soft.plane_words.PlaneWordsFourWords.rotated: # @aes_small.aes_soft.soft.plane_words.PlaneWordsFourWords.rotated
# %bb.0:                                # %start
	addi	sp, sp, -192
	sw	ra, 188(sp)                     # 4-byte Folded Spill
	sw	s0, 184(sp)                     # 4-byte Folded Spill
	sw	s1, 180(sp)                     # 4-byte Folded Spill
	sw	s2, 176(sp)                     # 4-byte Folded Spill
	sw	s3, 172(sp)                     # 4-byte Folded Spill
	sw	s4, 168(sp)                     # 4-byte Folded Spill
	sw	s5, 164(sp)                     # 4-byte Folded Spill
	sw	s6, 160(sp)                     # 4-byte Folded Spill
	sw	s7, 156(sp)                     # 4-byte Folded Spill
	sw	s8, 152(sp)                     # 4-byte Folded Spill
	sw	s9, 148(sp)                     # 4-byte Folded Spill
	sw	s10, 144(sp)                    # 4-byte Folded Spill
	sw	s11, 140(sp)                    # 4-byte Folded Spill
	sw	a3, 36(sp)                      # 4-byte Folded Spill
	sw	a0, 40(sp)                      # 4-byte Folded Spill
	lbu	a6, 28(a1)
	lbu	a7, 29(a1)
	lbu	t0, 30(a1)
	lbu	s2, 31(a1)
	lbu	t1, 24(a1)
	lbu	a5, 25(a1)
	lbu	s0, 26(a1)
	lbu	a0, 27(a1)
	lbu	s3, 20(a1)
	lbu	t3, 21(a1)
	lbu	t4, 22(a1)
	lbu	s8, 23(a1)
	lbu	t2, 16(a1)
	lbu	s1, 17(a1)
	lbu	t5, 18(a1)
	lbu	s4, 19(a1)
	lbu	t6, 12(a1)
	lbu	s5, 13(a1)
	lbu	s10, 14(a1)
	lbu	s11, 15(a1)
	lbu	ra, 8(a1)
	lbu	s9, 9(a1)
	lbu	s6, 10(a1)
	lbu	s7, 11(a1)
	slli	a7, a7, 8
	slli	t0, t0, 16
	slli	a4, s2, 24
	slli	a5, a5, 8
	slli	s0, s0, 16
	slli	a0, a0, 24
	or	a3, a7, a6
	sw	a3, 32(sp)                      # 4-byte Folded Spill
	or	a3, a4, t0
	sw	a3, 28(sp)                      # 4-byte Folded Spill
	or	a3, a5, t1
	sw	a3, 24(sp)                      # 4-byte Folded Spill
	or	a0, a0, s0
	sw	a0, 20(sp)                      # 4-byte Folded Spill
	lbu	a6, 4(a1)
	lbu	a4, 5(a1)
	lbu	a5, 6(a1)
	lbu	s0, 7(a1)
	slli	t3, t3, 8
	slli	t4, t4, 16
	slli	s8, s8, 24
	slli	s1, s1, 8
	or	a0, t3, s3
	sw	a0, 16(sp)                      # 4-byte Folded Spill
	or	a0, s8, t4
	sw	a0, 12(sp)                      # 4-byte Folded Spill
	or	a0, s1, t2
	sw	a0, 8(sp)                       # 4-byte Folded Spill
	lbu	s8, 0(a1)
	lbu	a0, 1(a1)
	lbu	a3, 2(a1)
	lbu	a1, 3(a1)
	slli	t5, t5, 16
	slli	s4, s4, 24
	slli	s5, s5, 8
	slli	s10, s10, 16
	slli	s11, s11, 24
	slli	s9, s9, 8
	or	s2, s4, t5
	or	s1, s5, t6
	sw	s1, 4(sp)                       # 4-byte Folded Spill
	or	t6, s11, s10
	or	s1, s9, ra
	sw	s1, 0(sp)                       # 4-byte Folded Spill
	lbu	s11, 0(a2)
	lbu	s10, 1(a2)
	lbu	ra, 2(a2)
	lbu	s1, 3(a2)
	slli	s6, s6, 16
	slli	s7, s7, 24
	slli	a4, a4, 8
	slli	a5, a5, 16
	slli	s0, s0, 24
	slli	a0, a0, 8
	or	s4, s7, s6
	or	s5, a4, a6
	or	s9, s0, a5
	or	s6, a0, s8
	lbu	a0, 4(a2)
	lbu	a6, 5(a2)
	lbu	a5, 6(a2)
	lbu	s0, 7(a2)
	slli	a3, a3, 16
	slli	a1, a1, 24
	slli	a4, s10, 8
	slli	ra, ra, 16
	slli	s1, s1, 24
	slli	a6, a6, 8
	or	s10, a1, a3
	or	s11, a4, s11
	or	t5, s1, ra
	or	ra, a6, a0
	lbu	a0, 8(a2)
	lbu	a1, 9(a2)
	lbu	a3, 10(a2)
	lbu	a4, 11(a2)
	slli	a5, a5, 16
	slli	s0, s0, 24
	slli	a1, a1, 8
	slli	a3, a3, 16
	slli	a4, a4, 24
	or	s7, s0, a5
	or	s8, a1, a0
	or	t4, a4, a3
	lbu	a0, 13(a2)
	lbu	a1, 12(a2)
	lbu	a4, 14(a2)
	lbu	a5, 15(a2)
	slli	a0, a0, 8
	or	t3, a0, a1
	slli	a4, a4, 16
	slli	a5, a5, 24
	or	t2, a5, a4
	lbu	a3, 17(a2)
	lbu	a1, 16(a2)
	lbu	a5, 18(a2)
	lbu	a0, 19(a2)
	slli	a3, a3, 8
	or	t1, a3, a1
	slli	a5, a5, 16
	slli	a0, a0, 24
	or	t0, a0, a5
	lbu	a3, 21(a2)
	lbu	a5, 20(a2)
	lbu	a1, 22(a2)
	lbu	a0, 23(a2)
	slli	a3, a3, 8
	or	a7, a3, a5
	slli	a1, a1, 16
	slli	a0, a0, 24
	or	a6, a0, a1
	lbu	a3, 25(a2)
	lbu	a5, 24(a2)
	lbu	a1, 26(a2)
	lbu	a0, 27(a2)
	slli	a3, a3, 8
	or	a4, a3, a5
	slli	a1, a1, 16
	slli	a0, a0, 24
	or	a3, a0, a1
	lbu	a1, 29(a2)
	lbu	a5, 28(a2)
	lbu	a0, 30(a2)
	lbu	a2, 31(a2)
	slli	a1, a1, 8
	or	a1, a1, a5
	slli	a0, a0, 16
	slli	a2, a2, 24
	or	a0, a0, a2
	lw	a2, 32(sp)                      # 4-byte Folded Reload
	lw	a5, 28(sp)                      # 4-byte Folded Reload
	or	a2, a2, a5
	lw	a5, 24(sp)                      # 4-byte Folded Reload
	lw	s3, 20(sp)                      # 4-byte Folded Reload
	or	a5, s3, a5
	lw	s0, 16(sp)                      # 4-byte Folded Reload
	lw	s1, 12(sp)                      # 4-byte Folded Reload
	or	s3, s1, s0
	lw	s0, 8(sp)                       # 4-byte Folded Reload
	or	s2, s2, s0
	lw	s0, 4(sp)                       # 4-byte Folded Reload
	or	t6, t6, s0
	lw	s0, 0(sp)                       # 4-byte Folded Reload
	or	s4, s4, s0
	or	s5, s9, s5
	or	s6, s10, s6
	or	t5, t5, s11
	or	s0, s7, ra
	or	s1, t4, s8
	or	t2, t2, t3
	or	t0, t0, t1
	or	a6, a6, a7
	or	a3, a3, a4
	or	a0, a0, a1
	sw	s2, 92(sp)
	sw	s3, 96(sp)
	sw	a5, 100(sp)
	sw	a2, 104(sp)
	sw	s6, 76(sp)
	sw	s5, 80(sp)
	sw	s4, 84(sp)
	sw	t6, 88(sp)
	sw	t5, 44(sp)
	sw	s0, 48(sp)
	sw	s1, 52(sp)
	sw	t2, 56(sp)
	sw	t0, 60(sp)
	sw	a6, 64(sp)
	sw	a3, 68(sp)
	sw	a0, 72(sp)
	addi	a0, sp, 44
	call	aes_small.aes_soft.soft.plane_words.substitute
	addi	a0, sp, 44
	lw	a1, 36(sp)                      # 4-byte Folded Reload
	call	aes_small.aes_planes.soft.key_columns.add_round_constant
	addi	a0, sp, 108
	addi	a1, sp, 76
	addi	a2, sp, 44
	li	a3, 14
	call	aes_small.aes_planes.soft.key_columns.summed_columns
	addi	a1, sp, 108
	li	a2, 32
	lw	a0, 40(sp)                      # 4-byte Folded Reload
	call	memcpy
	lw	ra, 188(sp)                     # 4-byte Folded Reload
	lw	s0, 184(sp)                     # 4-byte Folded Reload
	lw	s1, 180(sp)                     # 4-byte Folded Reload
	lw	s2, 176(sp)                     # 4-byte Folded Reload
	lw	s3, 172(sp)                     # 4-byte Folded Reload
	lw	s4, 168(sp)                     # 4-byte Folded Reload
	lw	s5, 164(sp)                     # 4-byte Folded Reload
	lw	s6, 160(sp)                     # 4-byte Folded Reload
	lw	s7, 156(sp)                     # 4-byte Folded Reload
	lw	s8, 152(sp)                     # 4-byte Folded Reload
	lw	s9, 148(sp)                     # 4-byte Folded Reload
	lw	s10, 144(sp)                    # 4-byte Folded Reload
	lw	s11, 140(sp)                    # 4-byte Folded Reload
	addi	sp, sp, 192
	ret
.Laes_small_func_end5:
	.size	aes_small.aes_soft.soft.plane_words.PlaneWordsFourWords.rotated, .Laes_small_func_end5-aes_small.aes_soft.soft.plane_words.PlaneWordsFourWords.rotated
                                        # -- End function
	.section	.text.aes_small.aes_soft.soft.plane_words.substitute,"ax",@progbits
	.p2align	1                               # -- Begin function aes_soft::soft::plane_words::substitute::<#6af90bfc14753d47>
	.type	aes_small.aes_soft.soft.plane_words.substitute,@function
aes_small.aes_soft.soft.plane_words.substitute: # @aes_small.aes_soft.soft.plane_words.substitute
# %bb.0:                                # %start
	addi	sp, sp, -16
	sw	ra, 12(sp)                      # 4-byte Folded Spill
	sw	s0, 8(sp)                       # 4-byte Folded Spill
	mv	s0, a0
	call	aes_small.aes_planes.soft.sbox.sub_bytes
	mv	a0, s0
	lw	ra, 12(sp)                      # 4-byte Folded Reload
	lw	s0, 8(sp)                       # 4-byte Folded Reload
	addi	sp, sp, 16
	tail	aes_small.aes_planes.soft.sbox.sub_bytes_nots
.Laes_small_func_end6:
	.size	aes_small.aes_soft.soft.plane_words.substitute, .Laes_small_func_end6-aes_small.aes_soft.soft.plane_words.substitute
                                        # -- End function
	.section	.text.aes_small.aes_planes.soft.sbox.sub_bytes,"ax",@progbits
	.p2align	1                               # -- Begin function aes_planes::soft::sbox::sub_bytes::<#6af90bfc14753d47>
	.type	aes_small.aes_planes.soft.sbox.sub_bytes,@function
aes_small.aes_planes.soft.sbox.sub_bytes: # @aes_small.aes_planes.soft.sbox.sub_bytes
# %bb.0:                                # %start
	addi	sp, sp, -64
	sw	ra, 60(sp)                      # 4-byte Folded Spill
	sw	s0, 56(sp)                      # 4-byte Folded Spill
	sw	s1, 52(sp)                      # 4-byte Folded Spill
	sw	s2, 48(sp)                      # 4-byte Folded Spill
	sw	s3, 44(sp)                      # 4-byte Folded Spill
	sw	s4, 40(sp)                      # 4-byte Folded Spill
	sw	s5, 36(sp)                      # 4-byte Folded Spill
	sw	s6, 32(sp)                      # 4-byte Folded Spill
	sw	s7, 28(sp)                      # 4-byte Folded Spill
	sw	s8, 24(sp)                      # 4-byte Folded Spill
	sw	s9, 20(sp)                      # 4-byte Folded Spill
	sw	s10, 16(sp)                     # 4-byte Folded Spill
	sw	s11, 12(sp)                     # 4-byte Folded Spill
	lw	a2, 16(a0)
	lw	a3, 20(a0)
	lw	s1, 24(a0)
	lw	s0, 28(a0)
	lw	s5, 0(a0)
	lw	a4, 4(a0)
	lw	a5, 8(a0)
	lw	a1, 12(a0)
	xor	a3, a3, s1
	xor	t0, s0, a2
	xor	t6, s0, a4
	xor	a6, a2, a5
	xor	t3, s0, a5
	xor	s6, a3, s5
	xor	t5, t6, a6
	xor	s2, s6, a2
	xor	a1, t5, a1
	xor	t1, s6, s0
	xor	t2, s6, a4
	and	a7, s2, s5
	xor	s9, a1, a5
	xor	a1, a1, s1
	xor	t4, t2, t3
	and	s7, t2, s6
	xor	s11, a1, t0
	xor	s3, s9, s5
	and	a5, s9, t5
	xor	s8, s9, a3
	xor	a4, a7, t3
	and	s1, s11, t0
	xor	s10, s11, a3
	xor	a7, s11, s8
	xor	s4, s11, s5
	and	a3, s8, t3
	and	a2, s3, t4
	xor	a4, a4, s8
	xor	a1, a1, a5
	xor	a4, a4, a5
	and	a5, a7, a6
	xor	ra, a1, a2
	and	a2, s4, t1
	xor	a3, a3, s1
	xor	a5, a5, s1
	and	s1, s10, t6
	xor	a1, s10, s7
	xor	a4, a4, a3
	xor	a1, a1, s1
	xor	a2, s10, a2
	xor	s0, s0, s1
	xor	s1, ra, a5
	xor	a1, a1, t6
	xor	a2, a2, s0
	xor	a1, a1, a5
	xor	a2, a2, a3
	xor	s7, s1, a4
	and	s1, s1, a1
	xor	a5, a1, a2
	xor	s0, s1, a4
	xor	a3, s1, a2
	and	a5, a5, s0
	and	s0, a3, s7
	xor	a4, a4, s0
	xor	s1, s1, a5
	xor	a5, a5, a2
	and	a2, a2, s1
	xor	a3, a3, a2
	xor	a2, a2, a1
	and	a3, a3, a4
	xor	a3, a3, s7
	and	s2, a5, s2
	and	s0, a5, s5
	and	s1, a2, s9
	and	t5, a2, t5
	xor	a2, a2, a5
	xor	a5, a5, a4
	and	t1, a4, t1
	and	s4, a4, s4
	and	a1, a2, s3
	and	t4, a2, t4
	xor	a2, a2, a3
	xor	a4, a4, a3
	and	s3, a3, s6
	and	s5, a3, t2
	xor	s7, s1, s0
	xor	s6, s1, a1
	and	s1, a4, s10
	and	t6, a4, t6
	and	t2, a5, s11
	and	a3, a5, t0
	and	t0, a2, s8
	xor	a5, a5, a2
	and	a2, a2, t3
	and	a1, a5, a6
	and	a5, a5, a7
	xor	a4, s7, s4
	xor	s0, s1, s3
	xor	t3, a4, s1
	xor	s1, t0, s7
	xor	a7, a2, a3
	xor	a1, a1, a3
	xor	a5, a5, s0
	xor	a6, s6, s0
	xor	s0, s5, t3
	xor	a3, a1, t4
	xor	a1, a1, s0
	xor	s1, s1, t6
	xor	s1, s1, a5
	xor	a5, a5, t2
	xor	s0, s1, t1
	xor	s1, s1, a1
	xor	a1, a1, t6
	xor	a2, a3, t5
	xor	a3, a3, s2
	xor	a4, a7, a5
	xor	a3, a3, s0
	xor	a4, a4, s0
	sw	a1, 0(a0)
	sw	s1, 4(a0)
	xor	a1, a6, a2
	xor	s1, a1, t3
	sw	a3, 8(a0)
	sw	s1, 12(a0)
	xor	a2, a2, a5
	xor	a5, a5, a1
	sw	a1, 16(a0)
	sw	a4, 20(a0)
	sw	a5, 24(a0)
	sw	a2, 28(a0)
	lw	ra, 60(sp)                      # 4-byte Folded Reload
	lw	s0, 56(sp)                      # 4-byte Folded Reload
	lw	s1, 52(sp)                      # 4-byte Folded Reload
	lw	s2, 48(sp)                      # 4-byte Folded Reload
	lw	s3, 44(sp)                      # 4-byte Folded Reload
	lw	s4, 40(sp)                      # 4-byte Folded Reload
	lw	s5, 36(sp)                      # 4-byte Folded Reload
	lw	s6, 32(sp)                      # 4-byte Folded Reload
	lw	s7, 28(sp)                      # 4-byte Folded Reload
	lw	s8, 24(sp)                      # 4-byte Folded Reload
	lw	s9, 20(sp)                      # 4-byte Folded Reload
	lw	s10, 16(sp)                     # 4-byte Folded Reload
	lw	s11, 12(sp)                     # 4-byte Folded Reload
	addi	sp, sp, 64
	ret
.Laes_small_func_end7:
	.size	aes_small.aes_planes.soft.sbox.sub_bytes, .Laes_small_func_end7-aes_small.aes_planes.soft.sbox.sub_bytes
                                        # -- End function
	.section	.text.aes_small.aes_planes.soft.sbox.sub_bytes_nots,"ax",@progbits
	.p2align	1                               # -- Begin function aes_planes::soft::sbox::sub_bytes_nots::<#6af90bfc14753d47>
	.type	aes_small.aes_planes.soft.sbox.sub_bytes_nots,@function
aes_small.aes_planes.soft.sbox.sub_bytes_nots: # @aes_small.aes_planes.soft.sbox.sub_bytes_nots
# %bb.0:                                # %start
	lw	a1, 0(a0)
	lw	a2, 4(a0)
	lw	a3, 20(a0)
	lw	a4, 24(a0)
	not	a1, a1
	not	a2, a2
	not	a3, a3
	not	a4, a4
	sw	a1, 0(a0)
	sw	a2, 4(a0)
	sw	a3, 20(a0)
	sw	a4, 24(a0)
	ret
.Laes_small_func_end8:
	.size	aes_small.aes_planes.soft.sbox.sub_bytes_nots, .Laes_small_func_end8-aes_small.aes_planes.soft.sbox.sub_bytes_nots
                                        # -- End function
	.section	.text.aes_small.aes_planes.soft.key_columns.add_round_constant,"ax",@progbits
	.p2align	1                               # -- Begin function aes_planes::soft::key_columns::add_round_constant::<#6af90bfc14753d47>
	.type	aes_small.aes_planes.soft.key_columns.add_round_constant,@function
aes_small.aes_planes.soft.key_columns.add_round_constant: # @aes_small.aes_planes.soft.key_columns.add_round_constant
# %bb.0:                                # %start
	addi	sp, sp, -32
	sw	s0, 28(sp)                      # 4-byte Folded Spill
	sw	s1, 24(sp)                      # 4-byte Folded Spill
	sw	s2, 20(sp)                      # 4-byte Folded Spill
	sw	s3, 16(sp)                      # 4-byte Folded Spill
	sw	s4, 12(sp)                      # 4-byte Folded Spill
	sw	s5, 8(sp)                       # 4-byte Folded Spill
	sw	s6, 4(sp)                       # 4-byte Folded Spill
	slli	a7, a1, 31
	slli	a6, a1, 7
	slli	t0, a1, 5
	slli	t1, a1, 4
	slli	t6, a1, 3
	slli	s2, a1, 2
	slli	s3, a1, 1
	andi	a5, a1, 64
	srli	s4, a1, 1
	lw	t2, 0(a0)
	lw	t3, 4(a0)
	lw	t4, 8(a0)
	lw	t5, 12(a0)
	srli	s5, a7, 25
	andi	a2, t0, 64
	andi	s0, t1, 64
	andi	s1, t6, 64
	andi	a4, s2, 64
	andi	a1, s3, 64
	slli	a7, a5, 8
	slli	a5, a5, 9
	andi	a3, s4, 64
	or	a6, a6, s5
	slli	t0, a2, 8
	slli	a2, a2, 9
	slli	t1, s0, 8
	slli	s0, s0, 9
	slli	t6, s1, 8
	slli	s1, s1, 9
	or	a7, a5, a7
	slli	a5, a4, 8
	slli	a4, a4, 9
	or	t0, a2, t0
	slli	a2, a1, 8
	slli	a1, a1, 9
	or	t1, s0, t1
	slli	s0, a3, 8
	slli	a3, a3, 9
	or	s4, s1, t6
	or	s3, a4, a5
	or	s2, a1, a2
	or	t6, a3, s0
	lw	s5, 16(a0)
	lw	a5, 20(a0)
	lw	s0, 24(a0)
	lw	s6, 28(a0)
	andi	a1, a6, 192
	slli	a1, a1, 8
	xor	a4, t3, t0
	xor	s1, t4, t1
	xor	a2, t5, s4
	xor	a3, s5, s3
	xor	a5, a5, s2
	xor	s0, s0, a7
	xor	a6, s6, t6
	xor	a1, t2, a1
	sw	a1, 0(a0)
	sw	a4, 4(a0)
	sw	s1, 8(a0)
	sw	a2, 12(a0)
	sw	a3, 16(a0)
	sw	a5, 20(a0)
	sw	s0, 24(a0)
	sw	a6, 28(a0)
	lw	s0, 28(sp)                      # 4-byte Folded Reload
	lw	s1, 24(sp)                      # 4-byte Folded Reload
	lw	s2, 20(sp)                      # 4-byte Folded Reload
	lw	s3, 16(sp)                      # 4-byte Folded Reload
	lw	s4, 12(sp)                      # 4-byte Folded Reload
	lw	s5, 8(sp)                       # 4-byte Folded Reload
	lw	s6, 4(sp)                       # 4-byte Folded Reload
	addi	sp, sp, 32
	ret
.Laes_small_func_end9:
	.size	aes_small.aes_planes.soft.key_columns.add_round_constant, .Laes_small_func_end9-aes_small.aes_planes.soft.key_columns.add_round_constant
                                        # -- End function
	.section	.text.aes_small.aes_planes.soft.key_columns.summed_columns,"ax",@progbits
	.p2align	1                               # -- Begin function aes_planes::soft::key_columns::summed_columns::<#6af90bfc14753d47>
	.type	aes_small.aes_planes.soft.key_columns.summed_columns,@function
aes_small.aes_planes.soft.key_columns.summed_columns: # @aes_small.aes_planes.soft.key_columns.summed_columns
# %bb.0:                                # %start
	addi	sp, sp, -64
	sw	ra, 60(sp)                      # 4-byte Folded Spill
	sw	s0, 56(sp)                      # 4-byte Folded Spill
	sw	s1, 52(sp)                      # 4-byte Folded Spill
	sw	s2, 48(sp)                      # 4-byte Folded Spill
	sw	s3, 44(sp)                      # 4-byte Folded Spill
	sw	s4, 40(sp)                      # 4-byte Folded Spill
	sw	s5, 36(sp)                      # 4-byte Folded Spill
	sw	s6, 32(sp)                      # 4-byte Folded Spill
	sw	s7, 28(sp)                      # 4-byte Folded Spill
	sw	s8, 24(sp)                      # 4-byte Folded Spill
	sw	s9, 20(sp)                      # 4-byte Folded Spill
	sw	s10, 16(sp)                     # 4-byte Folded Spill
	sw	s11, 12(sp)                     # 4-byte Folded Spill
	neg	a4, a3
	lui	t0, 1036240
	lui	t2, 986895
	lw	a7, 0(a1)
	lw	t1, 4(a1)
	lw	t3, 8(a1)
	lw	t4, 12(a1)
	lw	s3, 0(a2)
	lw	s2, 4(a2)
	lw	t6, 8(a2)
	lw	t5, 12(a2)
	lw	s4, 16(a2)
	lw	a5, 20(a2)
	lw	s0, 24(a2)
	lw	a2, 28(a2)
	sll	s5, s3, a4
	srl	s6, s3, a3
	sll	s3, s2, a4
	srl	s7, s2, a3
	sll	s2, t6, a4
	srl	s8, t6, a3
	sll	t6, t5, a4
	srl	s9, t5, a3
	sll	t5, s4, a4
	srl	s10, s4, a3
	sll	s4, a5, a4
	srl	a5, a5, a3
	sll	s1, s0, a4
	srl	s0, s0, a3
	sll	a4, a2, a4
	srl	a2, a2, a3
	lw	a3, 16(a1)
	lw	s11, 20(a1)
	lw	ra, 24(a1)
	lw	a6, 28(a1)
	lui	a1, 12336
	addi	a1, a1, 771
	addi	t0, t0, -772
	addi	t2, t2, 240
	or	s5, s6, s5
	or	s3, s7, s3
	or	s2, s8, s2
	or	t6, s9, t6
	or	t5, s10, t5
	or	a5, a5, s4
	or	s0, s0, s1
	or	a2, a2, a4
	and	a4, s5, a1
	and	s1, s3, a1
	and	s2, s2, a1
	and	t6, t6, a1
	and	t5, t5, a1
	and	a5, a5, a1
	and	s0, s0, a1
	and	s3, a2, a1
	xor	a2, a4, a7
	xor	a4, s1, t1
	xor	s1, s2, t3
	xor	a1, t6, t4
	xor	a3, t5, a3
	xor	a5, a5, s11
	xor	s0, s0, ra
	xor	a6, s3, a6
	slli	a7, a2, 2
	slli	t1, a4, 2
	slli	t3, s1, 2
	slli	t4, a1, 2
	slli	t5, a3, 2
	slli	t6, a5, 2
	slli	s2, s0, 2
	slli	s3, a6, 2
	and	a7, a7, t0
	and	t1, t1, t0
	and	t3, t3, t0
	and	t4, t4, t0
	and	t5, t5, t0
	and	t6, t6, t0
	and	s2, s2, t0
	and	t0, s3, t0
	xor	a2, a7, a2
	xor	a4, t1, a4
	xor	s1, t3, s1
	xor	a1, t4, a1
	xor	a3, t5, a3
	xor	a5, t6, a5
	xor	s0, s2, s0
	xor	a6, t0, a6
	slli	a7, a2, 4
	slli	t0, a4, 4
	slli	t1, s1, 4
	slli	t3, a1, 4
	slli	t4, a3, 4
	slli	t5, a5, 4
	slli	t6, s0, 4
	slli	s2, a6, 4
	and	a7, a7, t2
	and	t0, t0, t2
	and	t1, t1, t2
	and	t3, t3, t2
	and	t4, t4, t2
	and	t5, t5, t2
	and	t6, t6, t2
	and	t2, s2, t2
	xor	a2, a7, a2
	xor	a4, t0, a4
	xor	s1, t1, s1
	xor	a1, t3, a1
	xor	a3, t4, a3
	xor	a5, t5, a5
	xor	a7, t6, s0
	xor	a6, t2, a6
	srli	t2, a2, 8
	sb	a2, 0(a0)
	srli	t0, a2, 24
	srli	t6, a2, 16
	srli	t1, a4, 24
	srli	t3, a4, 16
	srli	s7, a4, 8
	srli	t4, s1, 24
	srli	t5, s1, 16
	srli	s4, s1, 8
	srli	s2, a1, 24
	srli	s3, a1, 16
	srli	s9, a1, 8
	srli	s5, a3, 24
	srli	s6, a3, 16
	srli	ra, a3, 8
	srli	s8, a5, 24
	srli	s10, a5, 16
	srli	a2, a5, 8
	srli	s11, a7, 24
	srli	s0, a7, 16
	sb	t2, 1(a0)
	sb	t6, 2(a0)
	sb	t0, 3(a0)
	srli	t0, a7, 8
	sb	a4, 4(a0)
	sb	s7, 5(a0)
	sb	t3, 6(a0)
	sb	t1, 7(a0)
	srli	a4, a6, 24
	sb	s1, 8(a0)
	sb	s4, 9(a0)
	sb	t5, 10(a0)
	sb	t4, 11(a0)
	srli	s1, a6, 16
	sb	a1, 12(a0)
	sb	s9, 13(a0)
	sb	s3, 14(a0)
	sb	s2, 15(a0)
	srli	a1, a6, 8
	sb	a3, 16(a0)
	sb	ra, 17(a0)
	sb	s6, 18(a0)
	sb	s5, 19(a0)
	sb	a5, 20(a0)
	sb	a2, 21(a0)
	sb	s10, 22(a0)
	sb	s8, 23(a0)
	sb	a7, 24(a0)
	sb	t0, 25(a0)
	sb	s0, 26(a0)
	sb	s11, 27(a0)
	sb	a6, 28(a0)
	sb	a1, 29(a0)
	sb	s1, 30(a0)
	sb	a4, 31(a0)
	lw	ra, 60(sp)                      # 4-byte Folded Reload
	lw	s0, 56(sp)                      # 4-byte Folded Reload
	lw	s1, 52(sp)                      # 4-byte Folded Reload
	lw	s2, 48(sp)                      # 4-byte Folded Reload
	lw	s3, 44(sp)                      # 4-byte Folded Reload
	lw	s4, 40(sp)                      # 4-byte Folded Reload
	lw	s5, 36(sp)                      # 4-byte Folded Reload
	lw	s6, 32(sp)                      # 4-byte Folded Reload
	lw	s7, 28(sp)                      # 4-byte Folded Reload
	lw	s8, 24(sp)                      # 4-byte Folded Reload
	lw	s9, 20(sp)                      # 4-byte Folded Reload
	lw	s10, 16(sp)                     # 4-byte Folded Reload
	lw	s11, 12(sp)                     # 4-byte Folded Reload
	addi	sp, sp, 64
	ret
.Laes_small_func_end10:
	.size	aes_small.aes_planes.soft.key_columns.summed_columns, .Laes_small_func_end10-aes_small.aes_planes.soft.key_columns.summed_columns
                                        # -- End function
	.section	.text.aes_small.aes_soft.soft.plane_words.PlaneWordsFourWords.store,"ax",@progbits
	.p2align	1                               # -- Begin function aes_soft::soft::plane_words::PlaneWordsFourWords::store::<#6af90bfc14753d47>
	.type	aes_small.aes_soft.soft.plane_words.PlaneWordsFourWords.store,@function
aes_small.aes_soft.soft.plane_words.PlaneWordsFourWords.store: # @aes_small.aes_soft.soft.plane_words.PlaneWordsFourWords.store
# %bb.0:                                # %start
	addi	sp, sp, -80
	sw	ra, 76(sp)                      # 4-byte Folded Spill
	sw	s0, 72(sp)                      # 4-byte Folded Spill
	sw	s1, 68(sp)                      # 4-byte Folded Spill
	sw	s2, 64(sp)                      # 4-byte Folded Spill
	sw	s3, 60(sp)                      # 4-byte Folded Spill
	sw	s4, 56(sp)                      # 4-byte Folded Spill
	sw	s5, 52(sp)                      # 4-byte Folded Spill
	sw	s6, 48(sp)                      # 4-byte Folded Spill
	sw	s7, 44(sp)                      # 4-byte Folded Spill
	sw	s8, 40(sp)                      # 4-byte Folded Spill
	sw	s9, 36(sp)                      # 4-byte Folded Spill
	lbu	a6, 28(a3)
	lbu	a7, 29(a3)
	lbu	t0, 30(a3)
	lbu	t1, 31(a3)
	lbu	s2, 24(a3)
	lbu	a5, 25(a3)
	lbu	t2, 26(a3)
	lbu	t3, 27(a3)
	lbu	t4, 20(a3)
	lbu	t5, 21(a3)
	lbu	t6, 22(a3)
	lbu	s5, 23(a3)
	lbu	s6, 16(a3)
	lbu	a4, 17(a3)
	lbu	s3, 18(a3)
	lbu	s4, 19(a3)
	slli	a7, a7, 8
	slli	t0, t0, 16
	slli	t1, t1, 24
	slli	a5, a5, 8
	or	a6, a7, a6
	or	t0, t1, t0
	or	a7, a5, s2
	lbu	s2, 12(a3)
	lbu	s7, 13(a3)
	lbu	s8, 14(a3)
	lbu	s9, 15(a3)
	slli	t2, t2, 16
	slli	t3, t3, 24
	slli	t5, t5, 8
	slli	t6, t6, 16
	slli	s5, s5, 24
	slli	a4, a4, 8
	or	t1, t3, t2
	or	t2, t5, t4
	or	t4, s5, t6
	or	t3, a4, s6
	lbu	a4, 8(a3)
	lbu	a5, 9(a3)
	lbu	s5, 10(a3)
	lbu	s6, 11(a3)
	slli	s3, s3, 16
	slli	s4, s4, 24
	slli	s7, s7, 8
	slli	s8, s8, 16
	slli	s9, s9, 24
	slli	a5, a5, 8
	or	t5, s4, s3
	or	t6, s7, s2
	or	s2, s9, s8
	or	s3, a5, a4
	lbu	a5, 4(a3)
	lbu	a4, 5(a3)
	lbu	s0, 6(a3)
	lbu	s1, 7(a3)
	slli	s5, s5, 16
	slli	s6, s6, 24
	slli	a4, a4, 8
	slli	s0, s0, 16
	slli	s1, s1, 24
	or	s4, s6, s5
	or	s5, a4, a5
	or	s6, s1, s0
	lbu	a5, 1(a3)
	lbu	s1, 0(a3)
	lbu	a4, 2(a3)
	lbu	a3, 3(a3)
	slli	a5, a5, 8
	or	s7, a5, s1
	slli	a4, a4, 16
	slli	a3, a3, 24
	or	a3, a3, a4
	or	a6, t0, a6
	or	s1, t1, a7
	or	s0, t4, t2
	or	a4, t5, t3
	or	a7, s2, t6
	or	t0, s4, s3
	or	a5, s6, s5
	or	a3, a3, s7
	sw	a4, 20(sp)
	sw	s0, 24(sp)
	sw	s1, 28(sp)
	sw	a6, 32(sp)
	sw	a3, 4(sp)
	sw	a5, 8(sp)
	sw	t0, 12(sp)
	sw	a7, 16(sp)
	addi	a3, sp, 4
	call	aes_small.aes_planes.soft.round_keys.store_round_key
	lw	ra, 76(sp)                      # 4-byte Folded Reload
	lw	s0, 72(sp)                      # 4-byte Folded Reload
	lw	s1, 68(sp)                      # 4-byte Folded Reload
	lw	s2, 64(sp)                      # 4-byte Folded Reload
	lw	s3, 60(sp)                      # 4-byte Folded Reload
	lw	s4, 56(sp)                      # 4-byte Folded Reload
	lw	s5, 52(sp)                      # 4-byte Folded Reload
	lw	s6, 48(sp)                      # 4-byte Folded Reload
	lw	s7, 44(sp)                      # 4-byte Folded Reload
	lw	s8, 40(sp)                      # 4-byte Folded Reload
	lw	s9, 36(sp)                      # 4-byte Folded Reload
	addi	sp, sp, 80
	ret
.Laes_small_func_end11:
	.size	aes_small.aes_soft.soft.plane_words.PlaneWordsFourWords.store, .Laes_small_func_end11-aes_small.aes_soft.soft.plane_words.PlaneWordsFourWords.store
                                        # -- End function
	.section	.text.aes_small.aes_planes.soft.round_keys.store_round_key,"ax",@progbits
	.p2align	1                               # -- Begin function aes_planes::soft::round_keys::store_round_key::<#6af90bfc14753d47>
	.type	aes_small.aes_planes.soft.round_keys.store_round_key,@function
aes_small.aes_planes.soft.round_keys.store_round_key: # @aes_small.aes_planes.soft.round_keys.store_round_key
# %bb.0:                                # %start
	lw	a2, 0(a3)
	slli	a1, a1, 5
	add	a0, a0, a1
	sw	a2, 0(a0)
	lw	a1, 4(a3)
	sw	a1, 4(a0)
	lw	a1, 8(a3)
	sw	a1, 8(a0)
	lw	a1, 12(a3)
	sw	a1, 12(a0)
	lw	a1, 16(a3)
	sw	a1, 16(a0)
	lw	a1, 20(a3)
	sw	a1, 20(a0)
	lw	a1, 24(a3)
	sw	a1, 24(a0)
	lw	a1, 28(a3)
	sw	a1, 28(a0)
	ret
.Laes_small_func_end12:
	.size	aes_small.aes_planes.soft.round_keys.store_round_key, .Laes_small_func_end12-aes_small.aes_planes.soft.round_keys.store_round_key
                                        # -- End function
	.section	.text.aes_small.aes_soft.soft.plane_words.PlaneWordsFourWords.straddled,"ax",@progbits
	.p2align	1                               # -- Begin function aes_soft::soft::plane_words::PlaneWordsFourWords::straddled::<#6af90bfc14753d47>
	.type	aes_small.aes_soft.soft.plane_words.PlaneWordsFourWords.straddled,@function
aes_small.aes_soft.soft.plane_words.PlaneWordsFourWords.straddled: # @aes_small.aes_soft.soft.plane_words.PlaneWordsFourWords.straddled
# %bb.0:                                # %start
	addi	sp, sp, -192
	sw	ra, 188(sp)                     # 4-byte Folded Spill
	sw	s0, 184(sp)                     # 4-byte Folded Spill
	sw	s1, 180(sp)                     # 4-byte Folded Spill
	sw	s2, 176(sp)                     # 4-byte Folded Spill
	sw	s3, 172(sp)                     # 4-byte Folded Spill
	sw	s4, 168(sp)                     # 4-byte Folded Spill
	sw	s5, 164(sp)                     # 4-byte Folded Spill
	sw	s6, 160(sp)                     # 4-byte Folded Spill
	sw	s7, 156(sp)                     # 4-byte Folded Spill
	sw	s8, 152(sp)                     # 4-byte Folded Spill
	sw	s9, 148(sp)                     # 4-byte Folded Spill
	sw	s10, 144(sp)                    # 4-byte Folded Spill
	sw	s11, 140(sp)                    # 4-byte Folded Spill
	sw	a0, 40(sp)                      # 4-byte Folded Spill
	lbu	a6, 28(a1)
	lbu	a7, 29(a1)
	lbu	t0, 30(a1)
	lbu	s10, 31(a1)
	lbu	s1, 24(a1)
	lbu	a4, 25(a1)
	lbu	t1, 26(a1)
	lbu	t3, 27(a1)
	lbu	t2, 20(a1)
	lbu	s9, 21(a1)
	lbu	s11, 22(a1)
	lbu	a5, 23(a1)
	lbu	t4, 16(a1)
	lbu	t5, 17(a1)
	lbu	t6, 18(a1)
	lbu	s7, 19(a1)
	lbu	s3, 12(a1)
	lbu	ra, 13(a1)
	lbu	a0, 14(a1)
	lbu	a3, 15(a1)
	lbu	s4, 8(a1)
	lbu	s5, 9(a1)
	lbu	s6, 10(a1)
	lbu	s8, 11(a1)
	slli	a7, a7, 8
	slli	t0, t0, 16
	slli	s10, s10, 24
	slli	a4, a4, 8
	or	s0, a7, a6
	sw	s0, 36(sp)                      # 4-byte Folded Spill
	or	s0, s10, t0
	sw	s0, 32(sp)                      # 4-byte Folded Spill
	or	a4, a4, s1
	sw	a4, 28(sp)                      # 4-byte Folded Spill
	lbu	s10, 4(a1)
	lbu	s1, 5(a1)
	lbu	s0, 6(a1)
	lbu	a6, 7(a1)
	slli	t1, t1, 16
	slli	t3, t3, 24
	slli	s9, s9, 8
	slli	s11, s11, 16
	slli	a5, a5, 24
	or	a4, t3, t1
	sw	a4, 24(sp)                      # 4-byte Folded Spill
	or	a4, s9, t2
	sw	a4, 20(sp)                      # 4-byte Folded Spill
	or	a4, a5, s11
	sw	a4, 16(sp)                      # 4-byte Folded Spill
	lbu	s9, 0(a1)
	lbu	s11, 1(a1)
	lbu	a7, 2(a1)
	lbu	a5, 3(a1)
	slli	t5, t5, 8
	slli	t6, t6, 16
	slli	s7, s7, 24
	slli	ra, ra, 8
	slli	a0, a0, 16
	slli	a3, a3, 24
	or	a1, t5, t4
	sw	a1, 12(sp)                      # 4-byte Folded Spill
	or	s2, s7, t6
	or	a1, ra, s3
	sw	a1, 8(sp)                       # 4-byte Folded Spill
	or	a0, a0, a3
	sw	a0, 4(sp)                       # 4-byte Folded Spill
	lbu	ra, 0(a2)
	lbu	a4, 1(a2)
	lbu	a3, 2(a2)
	lbu	a1, 3(a2)
	slli	s5, s5, 8
	slli	s6, s6, 16
	slli	s8, s8, 24
	slli	s1, s1, 8
	slli	s0, s0, 16
	slli	a6, a6, 24
	or	a0, s5, s4
	sw	a0, 0(sp)                       # 4-byte Folded Spill
	or	s3, s8, s6
	or	s6, s1, s10
	or	s4, a6, s0
	lbu	a6, 4(a2)
	lbu	s0, 5(a2)
	lbu	s1, 6(a2)
	lbu	a0, 7(a2)
	slli	s11, s11, 8
	slli	a7, a7, 16
	slli	a5, a5, 24
	slli	a4, a4, 8
	slli	a3, a3, 16
	slli	a1, a1, 24
	or	s5, s11, s9
	or	s9, a5, a7
	or	s10, a4, ra
	or	s11, a1, a3
	lbu	a1, 8(a2)
	lbu	a3, 9(a2)
	lbu	a4, 10(a2)
	lbu	a5, 11(a2)
	slli	s0, s0, 8
	slli	s1, s1, 16
	slli	a0, a0, 24
	slli	a3, a3, 8
	slli	a4, a4, 16
	slli	a5, a5, 24
	or	ra, s0, a6
	or	t5, a0, s1
	or	s8, a3, a1
	or	t3, a5, a4
	lbu	a3, 13(a2)
	lbu	a4, 14(a2)
	lbu	a5, 15(a2)
	lbu	s0, 12(a2)
	slli	a3, a3, 8
	slli	a4, a4, 16
	slli	a5, a5, 24
	or	s7, a3, s0
	or	t1, a5, a4
	lbu	a5, 17(a2)
	lbu	s0, 16(a2)
	lbu	a1, 18(a2)
	lbu	s1, 19(a2)
	slli	a5, a5, 8
	or	t4, a5, s0
	slli	a1, a1, 16
	slli	s0, s1, 24
	or	t2, s0, a1
	lbu	a3, 21(a2)
	lbu	s1, 20(a2)
	lbu	a1, 22(a2)
	lbu	a0, 23(a2)
	slli	a3, a3, 8
	or	t0, a3, s1
	slli	a1, a1, 16
	slli	a0, a0, 24
	or	a6, a0, a1
	lbu	a3, 25(a2)
	lbu	s1, 24(a2)
	lbu	a1, 26(a2)
	lbu	a0, 27(a2)
	slli	a3, a3, 8
	or	a7, a3, s1
	slli	a1, a1, 16
	slli	a0, a0, 24
	or	a4, a0, a1
	lbu	a1, 29(a2)
	lbu	s1, 28(a2)
	lbu	a0, 30(a2)
	lbu	a2, 31(a2)
	slli	a1, a1, 8
	or	a1, a1, s1
	slli	a0, a0, 16
	slli	a2, a2, 24
	or	a2, a2, a0
	lw	a0, 36(sp)                      # 4-byte Folded Reload
	lw	a3, 32(sp)                      # 4-byte Folded Reload
	or	a3, a3, a0
	lw	a0, 28(sp)                      # 4-byte Folded Reload
	lw	s1, 24(sp)                      # 4-byte Folded Reload
	or	s1, s1, a0
	lw	a0, 20(sp)                      # 4-byte Folded Reload
	lw	t6, 16(sp)                      # 4-byte Folded Reload
	or	a0, t6, a0
	lw	s0, 12(sp)                      # 4-byte Folded Reload
	or	s2, s2, s0
	lw	s0, 8(sp)                       # 4-byte Folded Reload
	lw	a5, 4(sp)                       # 4-byte Folded Reload
	or	t6, a5, s0
	lw	a5, 0(sp)                       # 4-byte Folded Reload
	or	s3, s3, a5
	or	s4, s4, s6
	or	s5, s9, s5
	or	s6, s11, s10
	or	t5, t5, ra
	or	t3, t3, s8
	or	t1, t1, s7
	or	s0, t2, t4
	or	a6, a6, t0
	or	a4, a4, a7
	or	a1, a1, a2
	sw	s2, 92(sp)
	sw	a0, 96(sp)
	sw	s1, 100(sp)
	sw	a3, 104(sp)
	sw	s5, 76(sp)
	sw	s4, 80(sp)
	sw	s3, 84(sp)
	sw	t6, 88(sp)
	sw	s6, 44(sp)
	sw	t5, 48(sp)
	sw	t3, 52(sp)
	sw	t1, 56(sp)
	sw	s0, 60(sp)
	sw	a6, 64(sp)
	sw	a4, 68(sp)
	sw	a1, 72(sp)
	addi	a0, sp, 108
	addi	a1, sp, 76
	addi	a2, sp, 44
	call	aes_small.aes_planes.soft.key_columns.straddle_columns
	addi	a1, sp, 108
	li	a2, 32
	lw	a0, 40(sp)                      # 4-byte Folded Reload
	call	memcpy
	lw	ra, 188(sp)                     # 4-byte Folded Reload
	lw	s0, 184(sp)                     # 4-byte Folded Reload
	lw	s1, 180(sp)                     # 4-byte Folded Reload
	lw	s2, 176(sp)                     # 4-byte Folded Reload
	lw	s3, 172(sp)                     # 4-byte Folded Reload
	lw	s4, 168(sp)                     # 4-byte Folded Reload
	lw	s5, 164(sp)                     # 4-byte Folded Reload
	lw	s6, 160(sp)                     # 4-byte Folded Reload
	lw	s7, 156(sp)                     # 4-byte Folded Reload
	lw	s8, 152(sp)                     # 4-byte Folded Reload
	lw	s9, 148(sp)                     # 4-byte Folded Reload
	lw	s10, 144(sp)                    # 4-byte Folded Reload
	lw	s11, 140(sp)                    # 4-byte Folded Reload
	addi	sp, sp, 192
	ret
.Laes_small_func_end13:
	.size	aes_small.aes_soft.soft.plane_words.PlaneWordsFourWords.straddled, .Laes_small_func_end13-aes_small.aes_soft.soft.plane_words.PlaneWordsFourWords.straddled
                                        # -- End function
	.section	.text.aes_small.aes_planes.soft.key_columns.straddle_columns,"ax",@progbits
	.p2align	1                               # -- Begin function aes_planes::soft::key_columns::straddle_columns::<#6af90bfc14753d47>
	.type	aes_small.aes_planes.soft.key_columns.straddle_columns,@function
aes_small.aes_planes.soft.key_columns.straddle_columns: # @aes_small.aes_planes.soft.key_columns.straddle_columns
# %bb.0:                                # %start
	addi	sp, sp, -64
	sw	ra, 60(sp)                      # 4-byte Folded Spill
	sw	s0, 56(sp)                      # 4-byte Folded Spill
	sw	s1, 52(sp)                      # 4-byte Folded Spill
	sw	s2, 48(sp)                      # 4-byte Folded Spill
	sw	s3, 44(sp)                      # 4-byte Folded Spill
	sw	s4, 40(sp)                      # 4-byte Folded Spill
	sw	s5, 36(sp)                      # 4-byte Folded Spill
	sw	s6, 32(sp)                      # 4-byte Folded Spill
	sw	s7, 28(sp)                      # 4-byte Folded Spill
	sw	s8, 24(sp)                      # 4-byte Folded Spill
	sw	s9, 20(sp)                      # 4-byte Folded Spill
	sw	s10, 16(sp)                     # 4-byte Folded Spill
	sw	s11, 12(sp)                     # 4-byte Folded Spill
	mv	s8, a2
	mv	s1, a1
	lw	a2, 0(a1)
	lw	a1, 0(s8)
	mv	s0, a0
	mv	a0, a2
	call	aes_small.aes_planes.soft.key_columns.straddle
	lw	a2, 4(s1)
	lw	a1, 4(s8)
	mv	s2, a0
	mv	a0, a2
	call	aes_small.aes_planes.soft.key_columns.straddle
	lw	a2, 8(s1)
	lw	a1, 8(s8)
	mv	s3, a0
	mv	a0, a2
	call	aes_small.aes_planes.soft.key_columns.straddle
	lw	a2, 12(s1)
	lw	a1, 12(s8)
	mv	s4, a0
	mv	a0, a2
	call	aes_small.aes_planes.soft.key_columns.straddle
	lw	a2, 16(s1)
	lw	a1, 16(s8)
	mv	s5, a0
	mv	a0, a2
	call	aes_small.aes_planes.soft.key_columns.straddle
	lw	a2, 20(s1)
	lw	a1, 20(s8)
	mv	s6, a0
	mv	a0, a2
	call	aes_small.aes_planes.soft.key_columns.straddle
	lw	a2, 24(s1)
	lw	a1, 24(s8)
	mv	s7, a0
	mv	a0, a2
	call	aes_small.aes_planes.soft.key_columns.straddle
	lw	a2, 28(s1)
	lw	a1, 28(s8)
	mv	s1, a0
	mv	a0, a2
	call	aes_small.aes_planes.soft.key_columns.straddle
	srli	a6, s2, 24
	srli	t1, s2, 16
	srli	s11, s2, 8
	srli	a7, s3, 24
	srli	t4, s3, 16
	srli	a1, s3, 8
	srli	t0, s4, 24
	srli	s8, s4, 16
	srli	a2, s4, 8
	srli	t2, s5, 24
	srli	t3, s5, 16
	srli	a5, s5, 8
	srli	t5, s6, 24
	srli	t6, s6, 16
	srli	a4, s6, 8
	srli	s9, s7, 24
	srli	s10, s7, 16
	srli	a3, s7, 8
	srli	ra, s1, 24
	sb	s2, 0(s0)
	sb	s11, 1(s0)
	sb	t1, 2(s0)
	sb	a6, 3(s0)
	srli	a6, s1, 16
	sb	s3, 4(s0)
	sb	a1, 5(s0)
	sb	t4, 6(s0)
	sb	a7, 7(s0)
	srli	a1, s1, 8
	sb	s4, 8(s0)
	sb	a2, 9(s0)
	sb	s8, 10(s0)
	sb	t0, 11(s0)
	srli	a2, a0, 24
	sb	s5, 12(s0)
	sb	a5, 13(s0)
	sb	t3, 14(s0)
	sb	t2, 15(s0)
	srli	a5, a0, 16
	sb	s6, 16(s0)
	sb	a4, 17(s0)
	sb	t6, 18(s0)
	sb	t5, 19(s0)
	srli	a4, a0, 8
	sb	s7, 20(s0)
	sb	a3, 21(s0)
	sb	s10, 22(s0)
	sb	s9, 23(s0)
	sb	s1, 24(s0)
	sb	a1, 25(s0)
	sb	a6, 26(s0)
	sb	ra, 27(s0)
	sb	a0, 28(s0)
	sb	a4, 29(s0)
	sb	a5, 30(s0)
	sb	a2, 31(s0)
	lw	ra, 60(sp)                      # 4-byte Folded Reload
	lw	s0, 56(sp)                      # 4-byte Folded Reload
	lw	s1, 52(sp)                      # 4-byte Folded Reload
	lw	s2, 48(sp)                      # 4-byte Folded Reload
	lw	s3, 44(sp)                      # 4-byte Folded Reload
	lw	s4, 40(sp)                      # 4-byte Folded Reload
	lw	s5, 36(sp)                      # 4-byte Folded Reload
	lw	s6, 32(sp)                      # 4-byte Folded Reload
	lw	s7, 28(sp)                      # 4-byte Folded Reload
	lw	s8, 24(sp)                      # 4-byte Folded Reload
	lw	s9, 20(sp)                      # 4-byte Folded Reload
	lw	s10, 16(sp)                     # 4-byte Folded Reload
	lw	s11, 12(sp)                     # 4-byte Folded Reload
	addi	sp, sp, 64
	ret
.Laes_small_func_end14:
	.size	aes_small.aes_planes.soft.key_columns.straddle_columns, .Laes_small_func_end14-aes_small.aes_planes.soft.key_columns.straddle_columns
                                        # -- End function
	.section	.text.aes_small.aes_planes.soft.key_columns.straddle,"ax",@progbits
	.p2align	1                               # -- Begin function aes_planes::soft::key_columns::straddle::<#6af90bfc14753d47>
	.type	aes_small.aes_planes.soft.key_columns.straddle,@function
aes_small.aes_planes.soft.key_columns.straddle: # @aes_small.aes_planes.soft.key_columns.straddle
# %bb.0:                                # %start
	srli	a0, a0, 4
	slli	a1, a1, 4
	lui	a2, 61681
	addi	a2, a2, -241
	and	a0, a0, a2
	lui	a2, 986895
	addi	a2, a2, 240
	and	a1, a1, a2
	or	a0, a0, a1
	ret
.Laes_small_func_end15:
	.size	aes_small.aes_planes.soft.key_columns.straddle, .Laes_small_func_end15-aes_small.aes_planes.soft.key_columns.straddle
                                        # -- End function
	.section	.text.aes_small.aes_soft.soft.plane_words.PlaneWordsFourWords.plain,"ax",@progbits
	.p2align	1                               # -- Begin function aes_soft::soft::plane_words::PlaneWordsFourWords::plain::<#6af90bfc14753d47>
	.type	aes_small.aes_soft.soft.plane_words.PlaneWordsFourWords.plain,@function
aes_small.aes_soft.soft.plane_words.PlaneWordsFourWords.plain: # @aes_small.aes_soft.soft.plane_words.PlaneWordsFourWords.plain
# %bb.0:                                # %start
	addi	sp, sp, -192
	sw	ra, 188(sp)                     # 4-byte Folded Spill
	sw	s0, 184(sp)                     # 4-byte Folded Spill
	sw	s1, 180(sp)                     # 4-byte Folded Spill
	sw	s2, 176(sp)                     # 4-byte Folded Spill
	sw	s3, 172(sp)                     # 4-byte Folded Spill
	sw	s4, 168(sp)                     # 4-byte Folded Spill
	sw	s5, 164(sp)                     # 4-byte Folded Spill
	sw	s6, 160(sp)                     # 4-byte Folded Spill
	sw	s7, 156(sp)                     # 4-byte Folded Spill
	sw	s8, 152(sp)                     # 4-byte Folded Spill
	sw	s9, 148(sp)                     # 4-byte Folded Spill
	sw	s10, 144(sp)                    # 4-byte Folded Spill
	sw	s11, 140(sp)                    # 4-byte Folded Spill
	sw	a0, 40(sp)                      # 4-byte Folded Spill
	lbu	a6, 28(a1)
	lbu	a7, 29(a1)
	lbu	t0, 30(a1)
	lbu	s10, 31(a1)
	lbu	s1, 24(a1)
	lbu	a4, 25(a1)
	lbu	t1, 26(a1)
	lbu	t3, 27(a1)
	lbu	t2, 20(a1)
	lbu	s9, 21(a1)
	lbu	s11, 22(a1)
	lbu	a5, 23(a1)
	lbu	t4, 16(a1)
	lbu	t5, 17(a1)
	lbu	t6, 18(a1)
	lbu	s7, 19(a1)
	lbu	s3, 12(a1)
	lbu	ra, 13(a1)
	lbu	a0, 14(a1)
	lbu	a3, 15(a1)
	lbu	s4, 8(a1)
	lbu	s5, 9(a1)
	lbu	s6, 10(a1)
	lbu	s8, 11(a1)
	slli	a7, a7, 8
	slli	t0, t0, 16
	slli	s10, s10, 24
	slli	a4, a4, 8
	or	s0, a7, a6
	sw	s0, 36(sp)                      # 4-byte Folded Spill
	or	s0, s10, t0
	sw	s0, 32(sp)                      # 4-byte Folded Spill
	or	a4, a4, s1
	sw	a4, 28(sp)                      # 4-byte Folded Spill
	lbu	s10, 4(a1)
	lbu	s1, 5(a1)
	lbu	s0, 6(a1)
	lbu	a6, 7(a1)
	slli	t1, t1, 16
	slli	t3, t3, 24
	slli	s9, s9, 8
	slli	s11, s11, 16
	slli	a5, a5, 24
	or	a4, t3, t1
	sw	a4, 24(sp)                      # 4-byte Folded Spill
	or	a4, s9, t2
	sw	a4, 20(sp)                      # 4-byte Folded Spill
	or	a4, a5, s11
	sw	a4, 16(sp)                      # 4-byte Folded Spill
	lbu	s9, 0(a1)
	lbu	s11, 1(a1)
	lbu	a7, 2(a1)
	lbu	a5, 3(a1)
	slli	t5, t5, 8
	slli	t6, t6, 16
	slli	s7, s7, 24
	slli	ra, ra, 8
	slli	a0, a0, 16
	slli	a3, a3, 24
	or	a1, t5, t4
	sw	a1, 12(sp)                      # 4-byte Folded Spill
	or	s2, s7, t6
	or	a1, ra, s3
	sw	a1, 8(sp)                       # 4-byte Folded Spill
	or	a0, a0, a3
	sw	a0, 4(sp)                       # 4-byte Folded Spill
	lbu	ra, 0(a2)
	lbu	a4, 1(a2)
	lbu	a3, 2(a2)
	lbu	a1, 3(a2)
	slli	s5, s5, 8
	slli	s6, s6, 16
	slli	s8, s8, 24
	slli	s1, s1, 8
	slli	s0, s0, 16
	slli	a6, a6, 24
	or	a0, s5, s4
	sw	a0, 0(sp)                       # 4-byte Folded Spill
	or	s3, s8, s6
	or	s6, s1, s10
	or	s4, a6, s0
	lbu	a6, 4(a2)
	lbu	s0, 5(a2)
	lbu	s1, 6(a2)
	lbu	a0, 7(a2)
	slli	s11, s11, 8
	slli	a7, a7, 16
	slli	a5, a5, 24
	slli	a4, a4, 8
	slli	a3, a3, 16
	slli	a1, a1, 24
	or	s5, s11, s9
	or	s9, a5, a7
	or	s10, a4, ra
	or	s11, a1, a3
	lbu	a1, 8(a2)
	lbu	a3, 9(a2)
	lbu	a4, 10(a2)
	lbu	a5, 11(a2)
	slli	s0, s0, 8
	slli	s1, s1, 16
	slli	a0, a0, 24
	slli	a3, a3, 8
	slli	a4, a4, 16
	slli	a5, a5, 24
	or	ra, s0, a6
	or	t5, a0, s1
	or	s8, a3, a1
	or	t3, a5, a4
	lbu	a3, 13(a2)
	lbu	a4, 14(a2)
	lbu	a5, 15(a2)
	lbu	s0, 12(a2)
	slli	a3, a3, 8
	slli	a4, a4, 16
	slli	a5, a5, 24
	or	s7, a3, s0
	or	t1, a5, a4
	lbu	a5, 17(a2)
	lbu	s0, 16(a2)
	lbu	a1, 18(a2)
	lbu	s1, 19(a2)
	slli	a5, a5, 8
	or	t4, a5, s0
	slli	a1, a1, 16
	slli	s0, s1, 24
	or	t2, s0, a1
	lbu	a3, 21(a2)
	lbu	s1, 20(a2)
	lbu	a1, 22(a2)
	lbu	a0, 23(a2)
	slli	a3, a3, 8
	or	t0, a3, s1
	slli	a1, a1, 16
	slli	a0, a0, 24
	or	a6, a0, a1
	lbu	a3, 25(a2)
	lbu	s1, 24(a2)
	lbu	a1, 26(a2)
	lbu	a0, 27(a2)
	slli	a3, a3, 8
	or	a7, a3, s1
	slli	a1, a1, 16
	slli	a0, a0, 24
	or	a4, a0, a1
	lbu	a1, 29(a2)
	lbu	s1, 28(a2)
	lbu	a0, 30(a2)
	lbu	a2, 31(a2)
	slli	a1, a1, 8
	or	a1, a1, s1
	slli	a0, a0, 16
	slli	a2, a2, 24
	or	a2, a2, a0
	lw	a0, 36(sp)                      # 4-byte Folded Reload
	lw	a3, 32(sp)                      # 4-byte Folded Reload
	or	a3, a3, a0
	lw	a0, 28(sp)                      # 4-byte Folded Reload
	lw	s1, 24(sp)                      # 4-byte Folded Reload
	or	s1, s1, a0
	lw	a0, 20(sp)                      # 4-byte Folded Reload
	lw	t6, 16(sp)                      # 4-byte Folded Reload
	or	a0, t6, a0
	lw	s0, 12(sp)                      # 4-byte Folded Reload
	or	s2, s2, s0
	lw	s0, 8(sp)                       # 4-byte Folded Reload
	lw	a5, 4(sp)                       # 4-byte Folded Reload
	or	t6, a5, s0
	lw	a5, 0(sp)                       # 4-byte Folded Reload
	or	s3, s3, a5
	or	s4, s4, s6
	or	s5, s9, s5
	or	s6, s11, s10
	or	t5, t5, ra
	or	t3, t3, s8
	or	t1, t1, s7
	or	s0, t2, t4
	or	a6, a6, t0
	or	a4, a4, a7
	or	a1, a1, a2
	sw	s2, 92(sp)
	sw	a0, 96(sp)
	sw	s1, 100(sp)
	sw	a3, 104(sp)
	sw	s5, 76(sp)
	sw	s4, 80(sp)
	sw	s3, 84(sp)
	sw	t6, 88(sp)
	sw	s6, 44(sp)
	sw	t5, 48(sp)
	sw	t3, 52(sp)
	sw	t1, 56(sp)
	sw	s0, 60(sp)
	sw	a6, 64(sp)
	sw	a4, 68(sp)
	sw	a1, 72(sp)
	addi	a0, sp, 108
	addi	a1, sp, 76
	addi	a2, sp, 44
	li	a3, 2
	call	aes_small.aes_planes.soft.key_columns.summed_columns
	addi	a1, sp, 108
	li	a2, 32
	lw	a0, 40(sp)                      # 4-byte Folded Reload
	call	memcpy
	lw	ra, 188(sp)                     # 4-byte Folded Reload
	lw	s0, 184(sp)                     # 4-byte Folded Reload
	lw	s1, 180(sp)                     # 4-byte Folded Reload
	lw	s2, 176(sp)                     # 4-byte Folded Reload
	lw	s3, 172(sp)                     # 4-byte Folded Reload
	lw	s4, 168(sp)                     # 4-byte Folded Reload
	lw	s5, 164(sp)                     # 4-byte Folded Reload
	lw	s6, 160(sp)                     # 4-byte Folded Reload
	lw	s7, 156(sp)                     # 4-byte Folded Reload
	lw	s8, 152(sp)                     # 4-byte Folded Reload
	lw	s9, 148(sp)                     # 4-byte Folded Reload
	lw	s10, 144(sp)                    # 4-byte Folded Reload
	lw	s11, 140(sp)                    # 4-byte Folded Reload
	addi	sp, sp, 192
	ret
.Laes_small_func_end16:
	.size	aes_small.aes_soft.soft.plane_words.PlaneWordsFourWords.plain, .Laes_small_func_end16-aes_small.aes_soft.soft.plane_words.PlaneWordsFourWords.plain
                                        # -- End function
	.section	.text.aes_small.aes_soft.soft.plane_words.PlaneWordsFourWords.substituted,"ax",@progbits
	.p2align	1                               # -- Begin function aes_soft::soft::plane_words::PlaneWordsFourWords::substituted::<#6af90bfc14753d47>
	.type	aes_small.aes_soft.soft.plane_words.PlaneWordsFourWords.substituted,@function
aes_small.aes_soft.soft.plane_words.PlaneWordsFourWords.substituted: # @aes_small.aes_soft.soft.plane_words.PlaneWordsFourWords.substituted
# %bb.0:                                # %start
	addi	sp, sp, -192
	sw	ra, 188(sp)                     # 4-byte Folded Spill
	sw	s0, 184(sp)                     # 4-byte Folded Spill
	sw	s1, 180(sp)                     # 4-byte Folded Spill
	sw	s2, 176(sp)                     # 4-byte Folded Spill
	sw	s3, 172(sp)                     # 4-byte Folded Spill
	sw	s4, 168(sp)                     # 4-byte Folded Spill
	sw	s5, 164(sp)                     # 4-byte Folded Spill
	sw	s6, 160(sp)                     # 4-byte Folded Spill
	sw	s7, 156(sp)                     # 4-byte Folded Spill
	sw	s8, 152(sp)                     # 4-byte Folded Spill
	sw	s9, 148(sp)                     # 4-byte Folded Spill
	sw	s10, 144(sp)                    # 4-byte Folded Spill
	sw	s11, 140(sp)                    # 4-byte Folded Spill
	sw	a0, 40(sp)                      # 4-byte Folded Spill
	lbu	a6, 28(a1)
	lbu	a7, 29(a1)
	lbu	t0, 30(a1)
	lbu	s10, 31(a1)
	lbu	s1, 24(a1)
	lbu	a4, 25(a1)
	lbu	t1, 26(a1)
	lbu	t3, 27(a1)
	lbu	t2, 20(a1)
	lbu	s9, 21(a1)
	lbu	s11, 22(a1)
	lbu	a5, 23(a1)
	lbu	t4, 16(a1)
	lbu	t5, 17(a1)
	lbu	t6, 18(a1)
	lbu	s7, 19(a1)
	lbu	s3, 12(a1)
	lbu	ra, 13(a1)
	lbu	a0, 14(a1)
	lbu	a3, 15(a1)
	lbu	s4, 8(a1)
	lbu	s5, 9(a1)
	lbu	s6, 10(a1)
	lbu	s8, 11(a1)
	slli	a7, a7, 8
	slli	t0, t0, 16
	slli	s10, s10, 24
	slli	a4, a4, 8
	or	s0, a7, a6
	sw	s0, 36(sp)                      # 4-byte Folded Spill
	or	s0, s10, t0
	sw	s0, 32(sp)                      # 4-byte Folded Spill
	or	a4, a4, s1
	sw	a4, 28(sp)                      # 4-byte Folded Spill
	lbu	s10, 4(a1)
	lbu	s1, 5(a1)
	lbu	s0, 6(a1)
	lbu	a6, 7(a1)
	slli	t1, t1, 16
	slli	t3, t3, 24
	slli	s9, s9, 8
	slli	s11, s11, 16
	slli	a5, a5, 24
	or	a4, t3, t1
	sw	a4, 24(sp)                      # 4-byte Folded Spill
	or	a4, s9, t2
	sw	a4, 20(sp)                      # 4-byte Folded Spill
	or	a4, a5, s11
	sw	a4, 16(sp)                      # 4-byte Folded Spill
	lbu	s9, 0(a1)
	lbu	s11, 1(a1)
	lbu	a7, 2(a1)
	lbu	a5, 3(a1)
	slli	t5, t5, 8
	slli	t6, t6, 16
	slli	s7, s7, 24
	slli	ra, ra, 8
	slli	a0, a0, 16
	slli	a3, a3, 24
	or	a1, t5, t4
	sw	a1, 12(sp)                      # 4-byte Folded Spill
	or	s2, s7, t6
	or	a1, ra, s3
	sw	a1, 8(sp)                       # 4-byte Folded Spill
	or	a0, a0, a3
	sw	a0, 4(sp)                       # 4-byte Folded Spill
	lbu	ra, 0(a2)
	lbu	a4, 1(a2)
	lbu	a3, 2(a2)
	lbu	a1, 3(a2)
	slli	s5, s5, 8
	slli	s6, s6, 16
	slli	s8, s8, 24
	slli	s1, s1, 8
	slli	s0, s0, 16
	slli	a6, a6, 24
	or	a0, s5, s4
	sw	a0, 0(sp)                       # 4-byte Folded Spill
	or	s3, s8, s6
	or	s6, s1, s10
	or	s4, a6, s0
	lbu	a6, 4(a2)
	lbu	s0, 5(a2)
	lbu	s1, 6(a2)
	lbu	a0, 7(a2)
	slli	s11, s11, 8
	slli	a7, a7, 16
	slli	a5, a5, 24
	slli	a4, a4, 8
	slli	a3, a3, 16
	slli	a1, a1, 24
	or	s5, s11, s9
	or	s9, a5, a7
	or	s10, a4, ra
	or	s11, a1, a3
	lbu	a1, 8(a2)
	lbu	a3, 9(a2)
	lbu	a4, 10(a2)
	lbu	a5, 11(a2)
	slli	s0, s0, 8
	slli	s1, s1, 16
	slli	a0, a0, 24
	slli	a3, a3, 8
	slli	a4, a4, 16
	slli	a5, a5, 24
	or	ra, s0, a6
	or	t5, a0, s1
	or	s8, a3, a1
	or	t3, a5, a4
	lbu	a3, 13(a2)
	lbu	a4, 14(a2)
	lbu	a5, 15(a2)
	lbu	s0, 12(a2)
	slli	a3, a3, 8
	slli	a4, a4, 16
	slli	a5, a5, 24
	or	s7, a3, s0
	or	t1, a5, a4
	lbu	a5, 17(a2)
	lbu	s0, 16(a2)
	lbu	a1, 18(a2)
	lbu	s1, 19(a2)
	slli	a5, a5, 8
	or	t4, a5, s0
	slli	a1, a1, 16
	slli	s0, s1, 24
	or	t2, s0, a1
	lbu	a3, 21(a2)
	lbu	s1, 20(a2)
	lbu	a1, 22(a2)
	lbu	a0, 23(a2)
	slli	a3, a3, 8
	or	t0, a3, s1
	slli	a1, a1, 16
	slli	a0, a0, 24
	or	a6, a0, a1
	lbu	a3, 25(a2)
	lbu	s1, 24(a2)
	lbu	a1, 26(a2)
	lbu	a0, 27(a2)
	slli	a3, a3, 8
	or	a7, a3, s1
	slli	a1, a1, 16
	slli	a0, a0, 24
	or	a4, a0, a1
	lbu	a1, 29(a2)
	lbu	s1, 28(a2)
	lbu	a0, 30(a2)
	lbu	a2, 31(a2)
	slli	a1, a1, 8
	or	a1, a1, s1
	slli	a0, a0, 16
	slli	a2, a2, 24
	or	a2, a2, a0
	lw	a0, 36(sp)                      # 4-byte Folded Reload
	lw	a3, 32(sp)                      # 4-byte Folded Reload
	or	a3, a3, a0
	lw	a0, 28(sp)                      # 4-byte Folded Reload
	lw	s1, 24(sp)                      # 4-byte Folded Reload
	or	s1, s1, a0
	lw	a0, 20(sp)                      # 4-byte Folded Reload
	lw	t6, 16(sp)                      # 4-byte Folded Reload
	or	a0, t6, a0
	lw	s0, 12(sp)                      # 4-byte Folded Reload
	or	s2, s2, s0
	lw	s0, 8(sp)                       # 4-byte Folded Reload
	lw	a5, 4(sp)                       # 4-byte Folded Reload
	or	t6, a5, s0
	lw	a5, 0(sp)                       # 4-byte Folded Reload
	or	s3, s3, a5
	or	s4, s4, s6
	or	s5, s9, s5
	or	s6, s11, s10
	or	t5, t5, ra
	or	t3, t3, s8
	or	t1, t1, s7
	or	s0, t2, t4
	or	a6, a6, t0
	or	a4, a4, a7
	or	a1, a1, a2
	sw	s2, 92(sp)
	sw	a0, 96(sp)
	sw	s1, 100(sp)
	sw	a3, 104(sp)
	sw	s5, 76(sp)
	sw	s4, 80(sp)
	sw	s3, 84(sp)
	sw	t6, 88(sp)
	sw	s6, 44(sp)
	sw	t5, 48(sp)
	sw	t3, 52(sp)
	sw	t1, 56(sp)
	sw	s0, 60(sp)
	sw	a6, 64(sp)
	sw	a4, 68(sp)
	sw	a1, 72(sp)
	addi	a0, sp, 44
	call	aes_small.aes_soft.soft.plane_words.substitute
	addi	a0, sp, 108
	addi	a1, sp, 76
	addi	a2, sp, 44
	li	a3, 6
	call	aes_small.aes_planes.soft.key_columns.summed_columns
	addi	a1, sp, 108
	li	a2, 32
	lw	a0, 40(sp)                      # 4-byte Folded Reload
	call	memcpy
	lw	ra, 188(sp)                     # 4-byte Folded Reload
	lw	s0, 184(sp)                     # 4-byte Folded Reload
	lw	s1, 180(sp)                     # 4-byte Folded Reload
	lw	s2, 176(sp)                     # 4-byte Folded Reload
	lw	s3, 172(sp)                     # 4-byte Folded Reload
	lw	s4, 168(sp)                     # 4-byte Folded Reload
	lw	s5, 164(sp)                     # 4-byte Folded Reload
	lw	s6, 160(sp)                     # 4-byte Folded Reload
	lw	s7, 156(sp)                     # 4-byte Folded Reload
	lw	s8, 152(sp)                     # 4-byte Folded Reload
	lw	s9, 148(sp)                     # 4-byte Folded Reload
	lw	s10, 144(sp)                    # 4-byte Folded Reload
	lw	s11, 140(sp)                    # 4-byte Folded Reload
	addi	sp, sp, 192
	ret
.Laes_small_func_end17:
	.size	aes_small.aes_soft.soft.plane_words.PlaneWordsFourWords.substituted, .Laes_small_func_end17-aes_small.aes_soft.soft.plane_words.PlaneWordsFourWords.substituted
                                        # -- End function
	.section	.text.aes_small.aes_soft.soft.key_layout.store,"ax",@progbits
	.p2align	1                               # -- Begin function aes_soft::soft::key_layout::store::<#dfb00681c6d298fe>
	.type	aes_small.aes_soft.soft.key_layout.store,@function
aes_small.aes_soft.soft.key_layout.store: # @aes_small.aes_soft.soft.key_layout.store
# %bb.0:                                # %start
	addi	sp, sp, -96
	sw	ra, 92(sp)                      # 4-byte Folded Spill
	sw	s0, 88(sp)                      # 4-byte Folded Spill
	sw	s1, 84(sp)                      # 4-byte Folded Spill
	sw	s2, 80(sp)                      # 4-byte Folded Spill
	sw	s3, 76(sp)                      # 4-byte Folded Spill
	sw	s4, 72(sp)                      # 4-byte Folded Spill
	sw	s5, 68(sp)                      # 4-byte Folded Spill
	mv	s3, a2
	mv	s2, a1
	mv	s4, a0
	addi	a0, sp, 4
	li	a2, 1
	li	s5, 1
	mv	a1, s4
	li	a3, 0
	call	aes_small.aes_planes.soft.round_keys.round_key.1
	li	s1, 0
	lw	a0, 20(sp)
	lw	a1, 24(sp)
	lw	a2, 28(sp)
	lw	a3, 32(sp)
	sw	a0, 52(sp)
	sw	a1, 56(sp)
	sw	a2, 60(sp)
	sw	a3, 64(sp)
	lw	a0, 4(sp)
	lw	a1, 8(sp)
	lw	a2, 12(sp)
	lw	a3, 16(sp)
	sw	a0, 36(sp)
	sw	a1, 40(sp)
	sw	a2, 44(sp)
	sw	a3, 48(sp)
	li	s0, 1
	j	.Laes_small_BB18_2
.Laes_small_BB18_1:                               # %join.8
                                        #   in Loop: Header=BB18_2 Depth=1
	sltu	a0, s1, s3
	beqz	a0, .Laes_small_BB18_12
.Laes_small_BB18_2:                               # %ok.10
                                        # =>This Inner Loop Header: Depth=1
	andi	a0, s0, 3
	blt	s5, a0, .Laes_small_BB18_5
# %bb.3:                                # %ok.10
                                        #   in Loop: Header=BB18_2 Depth=1
	beqz	a0, .Laes_small_BB18_10
# %bb.4:                                # %then.1.i
                                        #   in Loop: Header=BB18_2 Depth=1
	lui	a1, 12529
	addi	a0, sp, 36
	addi	a2, a1, -1024
	j	.Laes_small_BB18_8
.Laes_small_BB18_5:                               # %ok.10
                                        #   in Loop: Header=BB18_2 Depth=1
	li	a1, 2
	bne	a0, a1, .Laes_small_BB18_7
# %bb.6:                                # %then.4.i
                                        #   in Loop: Header=BB18_2 Depth=1
	lui	a1, 61441
	addi	a0, sp, 36
	addi	a2, a1, -256
	li	a1, 4
	j	.Laes_small_BB18_9
.Laes_small_BB18_7:                               # %then.7.i
                                        #   in Loop: Header=BB18_2 Depth=1
	lui	a1, 49392
	addi	a0, sp, 36
	addi	a2, a1, 768
.Laes_small_BB18_8:                               # %join.8
                                        #   in Loop: Header=BB18_2 Depth=1
	li	a1, 4
	call	aes_small.aes_planes.soft.shifts.swap_columns
	lui	a1, 208899
	addi	a0, sp, 36
	addi	a2, a1, 768
	li	a1, 2
.Laes_small_BB18_9:                               # %join.8
                                        #   in Loop: Header=BB18_2 Depth=1
	call	aes_small.aes_planes.soft.shifts.swap_columns
.Laes_small_BB18_10:                              # %join.8
                                        #   in Loop: Header=BB18_2 Depth=1
	addi	a0, sp, 36
	call	aes_small.aes_planes.soft.sbox.sub_bytes_nots
	addi	a3, sp, 36
	mv	a0, s4
	mv	a1, s0
	mv	a2, s1
	call	aes_small.aes_planes.soft.round_keys.store_round_key
	addi	s0, s0, 1
	seqz	a0, s0
	add	s1, s1, a0
	addi	a0, sp, 4
	mv	a1, s4
	mv	a2, s0
	mv	a3, s1
	call	aes_small.aes_planes.soft.round_keys.round_key.1
	lw	a0, 20(sp)
	lw	a1, 24(sp)
	lw	a2, 28(sp)
	lw	a3, 32(sp)
	sw	a0, 52(sp)
	sw	a1, 56(sp)
	sw	a2, 60(sp)
	sw	a3, 64(sp)
	lw	a0, 4(sp)
	lw	a1, 8(sp)
	lw	a2, 12(sp)
	lw	a3, 16(sp)
	sw	a0, 36(sp)
	sw	a1, 40(sp)
	sw	a2, 44(sp)
	sw	a3, 48(sp)
	bne	s1, s3, .Laes_small_BB18_1
# %bb.11:                               #   in Loop: Header=BB18_2 Depth=1
	sltu	a0, s0, s2
	bnez	a0, .Laes_small_BB18_2
.Laes_small_BB18_12:                              # %after.1.critedge
	addi	a0, sp, 36
	call	aes_small.aes_planes.soft.sbox.sub_bytes_nots
	addi	a3, sp, 36
	mv	a0, s4
	mv	a1, s0
	mv	a2, s1
	call	aes_small.aes_planes.soft.round_keys.store_round_key
	lw	ra, 92(sp)                      # 4-byte Folded Reload
	lw	s0, 88(sp)                      # 4-byte Folded Reload
	lw	s1, 84(sp)                      # 4-byte Folded Reload
	lw	s2, 80(sp)                      # 4-byte Folded Reload
	lw	s3, 76(sp)                      # 4-byte Folded Reload
	lw	s4, 72(sp)                      # 4-byte Folded Reload
	lw	s5, 68(sp)                      # 4-byte Folded Reload
	addi	sp, sp, 96
	ret
.Laes_small_func_end18:
	.size	aes_small.aes_soft.soft.key_layout.store, .Laes_small_func_end18-aes_small.aes_soft.soft.key_layout.store
                                        # -- End function
	.section	.text.aes_small.aes_planes.soft.shifts.swap_columns,"ax",@progbits
	.p2align	1                               # -- Begin function aes_planes::soft::shifts::swap_columns::<#6af90bfc14753d47>
	.type	aes_small.aes_planes.soft.shifts.swap_columns,@function
aes_small.aes_planes.soft.shifts.swap_columns: # @aes_small.aes_planes.soft.shifts.swap_columns
# %bb.0:                                # %start
	addi	sp, sp, -48
	sw	ra, 44(sp)                      # 4-byte Folded Spill
	sw	s0, 40(sp)                      # 4-byte Folded Spill
	sw	s1, 36(sp)                      # 4-byte Folded Spill
	sw	s2, 32(sp)                      # 4-byte Folded Spill
	sw	s3, 28(sp)                      # 4-byte Folded Spill
	sw	s4, 24(sp)                      # 4-byte Folded Spill
	sw	s5, 20(sp)                      # 4-byte Folded Spill
	sw	s6, 16(sp)                      # 4-byte Folded Spill
	sw	s7, 12(sp)                      # 4-byte Folded Spill
	sw	s8, 8(sp)                       # 4-byte Folded Spill
	sw	s9, 4(sp)                       # 4-byte Folded Spill
	sw	s10, 0(sp)                      # 4-byte Folded Spill
	mv	s9, a2
	mv	s0, a0
	lw	a0, 0(a0)
	lw	s2, 4(s0)
	lw	s3, 8(s0)
	lw	s4, 12(s0)
	lw	s5, 16(s0)
	lw	s6, 20(s0)
	lw	s7, 24(s0)
	lw	s8, 28(s0)
	mv	s1, a1
	call	aes_small.aes_planes.soft.shifts.delta_swap_1
	mv	s10, a0
	mv	a0, s2
	mv	a1, s1
	mv	a2, s9
	call	aes_small.aes_planes.soft.shifts.delta_swap_1
	mv	s2, a0
	mv	a0, s3
	mv	a1, s1
	mv	a2, s9
	call	aes_small.aes_planes.soft.shifts.delta_swap_1
	mv	s3, a0
	mv	a0, s4
	mv	a1, s1
	mv	a2, s9
	call	aes_small.aes_planes.soft.shifts.delta_swap_1
	mv	s4, a0
	mv	a0, s5
	mv	a1, s1
	mv	a2, s9
	call	aes_small.aes_planes.soft.shifts.delta_swap_1
	mv	s5, a0
	mv	a0, s6
	mv	a1, s1
	mv	a2, s9
	call	aes_small.aes_planes.soft.shifts.delta_swap_1
	mv	s6, a0
	mv	a0, s7
	mv	a1, s1
	mv	a2, s9
	call	aes_small.aes_planes.soft.shifts.delta_swap_1
	mv	s7, a0
	mv	a0, s8
	mv	a1, s1
	mv	a2, s9
	call	aes_small.aes_planes.soft.shifts.delta_swap_1
	sw	s10, 0(s0)
	sw	s2, 4(s0)
	sw	s3, 8(s0)
	sw	s4, 12(s0)
	sw	s5, 16(s0)
	sw	s6, 20(s0)
	sw	s7, 24(s0)
	sw	a0, 28(s0)
	lw	ra, 44(sp)                      # 4-byte Folded Reload
	lw	s0, 40(sp)                      # 4-byte Folded Reload
	lw	s1, 36(sp)                      # 4-byte Folded Reload
	lw	s2, 32(sp)                      # 4-byte Folded Reload
	lw	s3, 28(sp)                      # 4-byte Folded Reload
	lw	s4, 24(sp)                      # 4-byte Folded Reload
	lw	s5, 20(sp)                      # 4-byte Folded Reload
	lw	s6, 16(sp)                      # 4-byte Folded Reload
	lw	s7, 12(sp)                      # 4-byte Folded Reload
	lw	s8, 8(sp)                       # 4-byte Folded Reload
	lw	s9, 4(sp)                       # 4-byte Folded Reload
	lw	s10, 0(sp)                      # 4-byte Folded Reload
	addi	sp, sp, 48
	ret
.Laes_small_func_end19:
	.size	aes_small.aes_planes.soft.shifts.swap_columns, .Laes_small_func_end19-aes_small.aes_planes.soft.shifts.swap_columns
                                        # -- End function
	.section	.text.aes_small.aes_planes.soft.shifts.delta_swap_1,"ax",@progbits
	.p2align	1                               # -- Begin function aes_planes::soft::shifts::delta_swap_1::<#6af90bfc14753d47>
	.type	aes_small.aes_planes.soft.shifts.delta_swap_1,@function
aes_small.aes_planes.soft.shifts.delta_swap_1: # @aes_small.aes_planes.soft.shifts.delta_swap_1
# %bb.0:                                # %start
	srl	a3, a0, a1
	xor	a3, a3, a0
	and	a2, a2, a3
	sll	a1, a2, a1
	xor	a0, a0, a2
	xor	a0, a0, a1
	ret
.Laes_small_func_end20:
	.size	aes_small.aes_planes.soft.shifts.delta_swap_1, .Laes_small_func_end20-aes_small.aes_planes.soft.shifts.delta_swap_1
                                        # -- End function
	.section	.text.aes_small.aes_cipher.zeroize.stack.wipe_stack.768,"ax",@progbits
	.p2align	1                               # -- Begin function aes_cipher::zeroize::stack::wipe_stack::<=768>
	.type	aes_small.aes_cipher.zeroize.stack.wipe_stack.768,@function
aes_small.aes_cipher.zeroize.stack.wipe_stack.768: # @aes_small.aes_cipher.zeroize.stack.wipe_stack.768
# %bb.0:                                # %start
	addi	sp, sp, -784
	sw	ra, 780(sp)                     # 4-byte Folded Spill
	sw	s0, 776(sp)                     # 4-byte Folded Spill
	addi	a0, sp, 8
	li	a2, 768
	addi	s0, sp, 8
	li	a1, 0
	call	memset
	sw	zero, 0(sp)
	sw	zero, 4(sp)
	#APP
	#NO_APP
	lw	a0, 0(sp)
	lw	a1, 4(sp)
	#APP
	#NO_APP
	seqz	a1, a1
	sltiu	a2, a0, 768
	and	a1, a1, a2
	beqz	a1, .Laes_small_BB21_2
# %bb.1:                                # %then.1
	add	a0, a0, s0
	lbu	a0, 0(a0)
	#APP
	#NO_APP
	lw	zero, 4(sp)
	lw	zero, 0(sp)
	sw	zero, 4(sp)
	sw	a0, 0(sp)
	#APP
	#NO_APP
.Laes_small_BB21_2:                               # %common.ret
	lw	ra, 780(sp)                     # 4-byte Folded Reload
	lw	s0, 776(sp)                     # 4-byte Folded Reload
	addi	sp, sp, 784
	ret
.Laes_small_func_end21:
	.size	aes_small.aes_cipher.zeroize.stack.wipe_stack.768, .Laes_small_func_end21-aes_small.aes_cipher.zeroize.stack.wipe_stack.768
                                        # -- End function
	.section	.text.aes_small.aes_ctr.add_in_batches.add_to_one,"ax",@progbits
	.p2align	1                               # -- Begin function aes_ctr::add_in_batches::add_to_one::<#72982bb057555e7c>
	.type	aes_small.aes_ctr.add_in_batches.add_to_one,@function
aes_small.aes_ctr.add_in_batches.add_to_one: # @aes_small.aes_ctr.add_in_batches.add_to_one
# %bb.0:                                # %start
	addi	sp, sp, -48
	sw	ra, 44(sp)                      # 4-byte Folded Spill
	sw	s0, 40(sp)                      # 4-byte Folded Spill
	sw	s1, 36(sp)                      # 4-byte Folded Spill
	sw	s2, 32(sp)                      # 4-byte Folded Spill
	sw	s3, 28(sp)                      # 4-byte Folded Spill
	sw	s4, 24(sp)                      # 4-byte Folded Spill
	sw	s5, 20(sp)                      # 4-byte Folded Spill
	mv	s2, a6
	mv	s3, a5
	mv	s4, a4
	mv	s5, a2
	mv	a5, a1
	mv	s0, a0
	sw	zero, 4(sp)
	sw	zero, 8(sp)
	sw	zero, 12(sp)
	sw	zero, 16(sp)
	slli	a0, a3, 28
	srli	a1, a2, 4
	or	a1, a1, a0
	srli	a2, a3, 4
	addi	a3, sp, 4
	li	a4, 1
	mv	a0, a5
	li	a5, 0
	call	aes_small.aes_ctr.counter_blocks.WholeBlockCounterBlocks.put
	lbu	a0, 1(s0)
	lbu	a1, 0(s0)
	lbu	a2, 2(s0)
	lbu	a3, 3(s0)
	slli	a0, a0, 8
	or	a0, a0, a1
	lbu	a1, 8(s0)
	lbu	a4, 9(s0)
	lbu	a5, 10(s0)
	lbu	s1, 11(s0)
	slli	a2, a2, 16
	slli	a3, a3, 24
	slli	a4, a4, 8
	slli	a5, a5, 16
	slli	s1, s1, 24
	or	a2, a2, a3
	or	a1, a1, a4
	or	a5, a5, s1
	lbu	a3, 13(s0)
	lbu	a4, 12(s0)
	lbu	s1, 14(s0)
	lbu	s0, 15(s0)
	slli	a3, a3, 8
	or	a3, a3, a4
	slli	s1, s1, 16
	slli	s0, s0, 24
	or	s0, s0, s1
	or	a0, a0, a2
	or	a1, a1, a5
	or	a2, s0, a3
	addi	a3, sp, 4
	li	a4, 1
	li	a5, 0
	call	aes_small.aes_narrow.blocks.process_all_batches.1
	call	aes_small.aes_cipher.zeroize.stack.wipe_stack.1024
	andi	a1, s5, 15
	addi	a0, sp, 4
	li	a2, 0
	mv	a3, s4
	mv	a4, s3
	mv	a5, s2
	call	aes_small.aes_ctr.add_blocks.add_blocks
	lw	ra, 44(sp)                      # 4-byte Folded Reload
	lw	s0, 40(sp)                      # 4-byte Folded Reload
	lw	s1, 36(sp)                      # 4-byte Folded Reload
	lw	s2, 32(sp)                      # 4-byte Folded Reload
	lw	s3, 28(sp)                      # 4-byte Folded Reload
	lw	s4, 24(sp)                      # 4-byte Folded Reload
	lw	s5, 20(sp)                      # 4-byte Folded Reload
	addi	sp, sp, 48
	ret
.Laes_small_func_end22:
	.size	aes_small.aes_ctr.add_in_batches.add_to_one, .Laes_small_func_end22-aes_small.aes_ctr.add_in_batches.add_to_one
                                        # -- End function
	.section	.text.aes_small.aes_ctr.counter_blocks.WholeBlockCounterBlocks.put,"ax",@progbits
	.p2align	1                               # -- Begin function aes_ctr::counter_blocks::WholeBlockCounterBlocks::put
	.type	aes_small.aes_ctr.counter_blocks.WholeBlockCounterBlocks.put,@function
aes_small.aes_ctr.counter_blocks.WholeBlockCounterBlocks.put: # @aes_small.aes_ctr.counter_blocks.WholeBlockCounterBlocks.put
# %bb.0:                                # %start
	addi	sp, sp, -48
	sw	s0, 44(sp)                      # 4-byte Folded Spill
	sw	s1, 40(sp)                      # 4-byte Folded Spill
	sw	s2, 36(sp)                      # 4-byte Folded Spill
	sw	s3, 32(sp)                      # 4-byte Folded Spill
	sw	s4, 28(sp)                      # 4-byte Folded Spill
	sw	s5, 24(sp)                      # 4-byte Folded Spill
	sw	s6, 20(sp)                      # 4-byte Folded Spill
	sw	s7, 16(sp)                      # 4-byte Folded Spill
	sw	s8, 12(sp)                      # 4-byte Folded Spill
	lbu	a6, 0(a0)
	lbu	a7, 1(a0)
	lbu	t0, 2(a0)
	lbu	t1, 3(a0)
	lbu	t2, 4(a0)
	lbu	t3, 5(a0)
	lbu	t4, 6(a0)
	lbu	t5, 7(a0)
	lbu	t6, 8(a0)
	lbu	s0, 9(a0)
	lbu	s1, 10(a0)
	lbu	s2, 11(a0)
	lbu	s3, 12(a0)
	lbu	s4, 13(a0)
	lbu	s5, 14(a0)
	lbu	s6, 15(a0)
	slli	a6, a6, 24
	slli	a7, a7, 16
	slli	t0, t0, 8
	slli	t2, t2, 24
	slli	t3, t3, 16
	slli	t4, t4, 8
	slli	t6, t6, 24
	slli	s7, s0, 16
	slli	s8, s1, 8
	slli	s3, s3, 24
	slli	s4, s4, 16
	slli	s5, s5, 8
	or	a6, a7, a6
	or	t0, t0, t1
	or	s1, t2, t3
	or	a7, s7, t6
	or	a0, s8, s2
	or	s0, s3, s4
	or	a6, a6, t0
	or	s1, s1, t4
	or	a7, a7, a0
	or	s0, s0, s5
	or	t1, s1, t5
	or	a0, s0, s6
	add	a7, a7, a2
	sltu	s1, t1, s1
	sltu	s0, a0, s0
	add	a0, a0, a1
	add	a7, a7, s0
	sltu	a1, a0, a1
	add	t0, a7, a1
	add	a7, a6, s1
	beq	t0, a2, .Laes_small_BB23_2
# %bb.1:                                # %start
	sltu	a1, t0, a2
.Laes_small_BB23_2:                               # %start
	add	a1, a1, t1
	srli	t5, t0, 8
	srli	t6, t0, 16
	srli	s2, t0, 24
	srli	t2, a0, 8
	srli	t3, a0, 16
	srli	t4, a0, 24
	seqz	a2, a4
	addi	a6, a4, -1
	srli	s3, a1, 8
	srli	s0, a1, 16
	srli	s1, a1, 24
	sltu	a4, a1, t1
	sub	a5, a5, a2
	sb	s2, 8(a3)
	sb	t6, 9(a3)
	sb	t5, 10(a3)
	sb	t0, 11(a3)
	add	a7, a7, a4
	sb	s1, 4(a3)
	sb	s0, 5(a3)
	sb	s3, 6(a3)
	sb	a1, 7(a3)
	or	a2, a6, a5
	srli	s1, a7, 8
	srli	s0, a7, 16
	srli	a4, a7, 24
	sb	a4, 0(a3)
	sb	s0, 1(a3)
	sb	s1, 2(a3)
	sb	a7, 3(a3)
	sb	t4, 12(a3)
	sb	t3, 13(a3)
	sb	t2, 14(a3)
	sb	a0, 15(a3)
	beqz	a2, .Laes_small_BB23_5
.Laes_small_BB23_3:                               # %join.5
                                        # =>This Inner Loop Header: Depth=1
	xori	a2, a6, 1
	addi	a0, a0, 1
	or	a4, a2, a5
	seqz	a2, a0
	add	t0, t0, a2
	or	a2, a0, t0
	seqz	a2, a2
	add	a2, a2, a1
	sltu	a1, a2, a1
	add	a7, a7, a1
	mv	a1, a2
	bnez	a4, .Laes_small_BB23_3
# %bb.4:                                # %after.1.loopexit
	srli	a6, a7, 24
	srli	t3, a7, 16
	slli	a5, a7, 16
	srli	s1, a2, 24
	srli	t6, a2, 16
	slli	a1, a2, 16
	srli	t1, t0, 24
	srli	t2, t0, 16
	slli	a4, t0, 16
	srli	t4, a0, 24
	srli	t5, a0, 16
	slli	s0, a0, 16
	srli	a5, a5, 24
	srli	a1, a1, 24
	srli	a4, a4, 24
	srli	s0, s0, 24
	sb	a6, 16(a3)
	sb	t3, 17(a3)
	sb	a5, 18(a3)
	sb	a7, 19(a3)
	sb	s1, 20(a3)
	sb	t6, 21(a3)
	sb	a1, 22(a3)
	sb	a2, 23(a3)
	sb	t1, 24(a3)
	sb	t2, 25(a3)
	sb	a4, 26(a3)
	sb	t0, 27(a3)
	sb	t4, 28(a3)
	sb	t5, 29(a3)
	sb	s0, 30(a3)
	sb	a0, 31(a3)
.Laes_small_BB23_5:                               # %after.1
	lw	s0, 44(sp)                      # 4-byte Folded Reload
	lw	s1, 40(sp)                      # 4-byte Folded Reload
	lw	s2, 36(sp)                      # 4-byte Folded Reload
	lw	s3, 32(sp)                      # 4-byte Folded Reload
	lw	s4, 28(sp)                      # 4-byte Folded Reload
	lw	s5, 24(sp)                      # 4-byte Folded Reload
	lw	s6, 20(sp)                      # 4-byte Folded Reload
	lw	s7, 16(sp)                      # 4-byte Folded Reload
	lw	s8, 12(sp)                      # 4-byte Folded Reload
	addi	sp, sp, 48
	ret
.Laes_small_func_end23:
	.size	aes_small.aes_ctr.counter_blocks.WholeBlockCounterBlocks.put, .Laes_small_func_end23-aes_small.aes_ctr.counter_blocks.WholeBlockCounterBlocks.put
                                        # -- End function
	.section	.text.aes_small.aes_narrow.blocks.process_all_batches.1,"ax",@progbits
	.p2align	1                               # -- Begin function aes_narrow::blocks::process_all_batches::<#1a21aa7f601e7603>
	.type	aes_small.aes_narrow.blocks.process_all_batches.1,@function
aes_small.aes_narrow.blocks.process_all_batches.1: # @aes_small.aes_narrow.blocks.process_all_batches.1
# %bb.0:                                # %start
	addi	sp, sp, -48
	sw	ra, 44(sp)                      # 4-byte Folded Spill
	sw	s0, 40(sp)                      # 4-byte Folded Spill
	sw	s1, 36(sp)                      # 4-byte Folded Spill
	sw	s2, 32(sp)                      # 4-byte Folded Spill
	sw	s3, 28(sp)                      # 4-byte Folded Spill
	sw	s4, 24(sp)                      # 4-byte Folded Spill
	sw	s5, 20(sp)                      # 4-byte Folded Spill
	sw	s6, 16(sp)                      # 4-byte Folded Spill
	sw	s7, 12(sp)                      # 4-byte Folded Spill
	mv	s4, a1
	or	a1, a4, a5
	beqz	a1, .Laes_small_BB24_7
# %bb.1:                                # %join.5.preheader
	mv	s6, a5
	mv	s7, a4
	mv	s2, a3
	mv	s3, a2
	mv	s5, a0
	li	a0, 0
	li	s0, 0
	j	.Laes_small_BB24_3
.Laes_small_BB24_2:                               # %join.5
                                        #   in Loop: Header=BB24_3 Depth=1
	sltu	a1, s0, s6
	mv	a0, s1
	beqz	a1, .Laes_small_BB24_7
.Laes_small_BB24_3:                               # %join.5
                                        # =>This Inner Loop Header: Depth=1
	sltu	a1, s7, a0
	sub	a2, s6, s0
	sub	a2, a2, a1
	sub	a1, s7, a0
	seqz	a2, a2
	addi	a2, a2, -1
	or	a4, a2, a1
	li	a1, 2
	bltu	a4, a1, .Laes_small_BB24_5
# %bb.4:                                # %join.5
                                        #   in Loop: Header=BB24_3 Depth=1
	li	a4, 2
.Laes_small_BB24_5:                               # %join.5
                                        #   in Loop: Header=BB24_3 Depth=1
	add	s1, a4, a0
	slli	a0, a0, 4
	sltu	a1, s1, a4
	add	s0, s0, a1
	add	a3, s2, a0
	mv	a0, s5
	mv	a1, s4
	mv	a2, s3
	li	a5, 0
	call	aes_small.aes_soft.soft.blocks.filled_up.process_filled_up.1
	bne	s0, s6, .Laes_small_BB24_2
# %bb.6:                                #   in Loop: Header=BB24_3 Depth=1
	sltu	a1, s1, s7
	mv	a0, s1
	bnez	a1, .Laes_small_BB24_3
.Laes_small_BB24_7:                               # %after.1
	lw	ra, 44(sp)                      # 4-byte Folded Reload
	lw	s0, 40(sp)                      # 4-byte Folded Reload
	lw	s1, 36(sp)                      # 4-byte Folded Reload
	lw	s2, 32(sp)                      # 4-byte Folded Reload
	lw	s3, 28(sp)                      # 4-byte Folded Reload
	lw	s4, 24(sp)                      # 4-byte Folded Reload
	lw	s5, 20(sp)                      # 4-byte Folded Reload
	lw	s6, 16(sp)                      # 4-byte Folded Reload
	lw	s7, 12(sp)                      # 4-byte Folded Reload
	addi	sp, sp, 48
	ret
.Laes_small_func_end24:
	.size	aes_small.aes_narrow.blocks.process_all_batches.1, .Laes_small_func_end24-aes_small.aes_narrow.blocks.process_all_batches.1
                                        # -- End function
	.section	.text.aes_small.aes_soft.soft.blocks.filled_up.process_filled_up.1,"ax",@progbits
	.p2align	1                               # -- Begin function aes_soft::soft::blocks::filled_up::process_filled_up::<#1a21aa7f601e7603>
	.type	aes_small.aes_soft.soft.blocks.filled_up.process_filled_up.1,@function
aes_small.aes_soft.soft.blocks.filled_up.process_filled_up.1: # @aes_small.aes_soft.soft.blocks.filled_up.process_filled_up.1
# %bb.0:                                # %start
	addi	sp, sp, -160
	sw	ra, 156(sp)                     # 4-byte Folded Spill
	sw	s0, 152(sp)                     # 4-byte Folded Spill
	sw	s1, 148(sp)                     # 4-byte Folded Spill
	sw	s2, 144(sp)                     # 4-byte Folded Spill
	sw	s3, 140(sp)                     # 4-byte Folded Spill
	sw	s4, 136(sp)                     # 4-byte Folded Spill
	sw	s5, 132(sp)                     # 4-byte Folded Spill
	sw	s6, 128(sp)                     # 4-byte Folded Spill
	mv	s3, a5
	mv	s4, a4
	mv	s0, a3
	mv	s6, a2
	mv	s5, a1
	mv	s2, a0
	lbu	a0, 12(a3)
	lbu	a1, 13(a3)
	lbu	a2, 14(a3)
	lbu	a3, 15(a3)
	lbu	a6, 8(s0)
	lbu	a5, 9(s0)
	lbu	s1, 10(s0)
	lbu	a4, 11(s0)
	slli	a1, a1, 8
	slli	a2, a2, 16
	slli	a3, a3, 24
	or	a7, a1, a0
	or	t0, a3, a2
	lbu	a1, 4(s0)
	lbu	a3, 5(s0)
	lbu	a0, 6(s0)
	lbu	a2, 7(s0)
	slli	a5, a5, 8
	slli	s1, s1, 16
	slli	a4, a4, 24
	slli	a3, a3, 8
	slli	a0, a0, 16
	slli	a2, a2, 24
	or	a6, a5, a6
	or	a4, a4, s1
	or	a1, a1, a3
	or	a0, a0, a2
	lbu	a2, 1(s0)
	lbu	a3, 0(s0)
	lbu	s1, 2(s0)
	lbu	a5, 3(s0)
	slli	a2, a2, 8
	or	a2, a2, a3
	slli	s1, s1, 16
	slli	a5, a5, 24
	or	a5, a5, s1
	or	a3, t0, a7
	or	a4, a4, a6
	or	a0, a0, a1
	or	a2, a2, a5
	sw	zero, 80(sp)
	sw	zero, 84(sp)
	sw	zero, 88(sp)
	sw	zero, 92(sp)
	sw	zero, 64(sp)
	sw	zero, 68(sp)
	sw	zero, 72(sp)
	sw	zero, 76(sp)
	sw	zero, 32(sp)
	sw	zero, 36(sp)
	sw	zero, 40(sp)
	sw	zero, 44(sp)
	sw	zero, 48(sp)
	sw	zero, 52(sp)
	sw	zero, 56(sp)
	sw	zero, 60(sp)
	sw	zero, 0(sp)
	sw	zero, 4(sp)
	sw	zero, 8(sp)
	sw	zero, 12(sp)
	sw	zero, 16(sp)
	sw	zero, 20(sp)
	sw	zero, 24(sp)
	sw	zero, 28(sp)
	sw	a2, 96(sp)
	sw	a0, 100(sp)
	sw	a4, 104(sp)
	sw	a3, 108(sp)
	addi	a0, sp, 112
	li	a2, 16
	mv	a1, s0
	call	memcpy
	slli	a0, s6, 29
	srli	a1, s5, 3
	srli	a2, s6, 3
	or	a4, s4, s3
	or	a0, a0, a1
	seqz	a1, a0
	sub	a3, a2, a1
	seqz	s5, a4
	addi	a2, a0, -1
	xori	s4, s4, 1
	beqz	a4, .Laes_small_BB25_2
# %bb.1:                                # %join.8.i
	lbu	t0, 12(s0)
	lbu	a1, 13(s0)
	lbu	a4, 14(s0)
	lbu	a5, 15(s0)
	lbu	a6, 8(s0)
	lbu	a7, 9(s0)
	lbu	t2, 10(s0)
	lbu	a0, 11(s0)
	slli	a1, a1, 8
	slli	a4, a4, 16
	slli	a5, a5, 24
	or	t0, a1, t0
	or	t1, a5, a4
	lbu	a5, 4(s0)
	lbu	a1, 5(s0)
	lbu	a4, 6(s0)
	lbu	s1, 7(s0)
	slli	a7, a7, 8
	slli	t2, t2, 16
	slli	a0, a0, 24
	slli	a1, a1, 8
	slli	a4, a4, 16
	slli	s1, s1, 24
	or	a6, a7, a6
	or	a7, a0, t2
	or	t2, a1, a5
	or	a4, a4, s1
	lbu	a5, 1(s0)
	lbu	s1, 0(s0)
	lbu	a0, 2(s0)
	lbu	a1, 3(s0)
	slli	a5, a5, 8
	or	a5, a5, s1
	slli	a0, a0, 16
	slli	a1, a1, 24
	or	a0, a0, a1
	or	a1, t1, t0
	or	s1, a7, a6
	or	a4, a4, t2
	or	a0, a0, a5
	or	a5, s4, s3
	sw	a0, 96(sp)
	sw	a4, 100(sp)
	sw	s1, 104(sp)
	sw	a1, 108(sp)
	bnez	a5, .Laes_small_BB25_3
.Laes_small_BB25_2:                               # %then.6.i
	lw	a0, 112(sp)
	lw	a1, 116(sp)
	lw	a4, 120(sp)
	lw	a5, 124(sp)
	sw	a0, 48(sp)
	sw	a1, 52(sp)
	sw	a4, 56(sp)
	sw	a5, 60(sp)
	lw	a0, 96(sp)
	lw	a1, 100(sp)
	lw	a4, 104(sp)
	lw	a5, 108(sp)
	sw	a0, 32(sp)
	sw	a1, 36(sp)
	sw	a4, 40(sp)
	sw	a5, 44(sp)
	j	.Laes_small_BB25_4
.Laes_small_BB25_3:                               # %join.8.i.1
	addi	a1, s0, 16
	addi	a0, sp, 112
	mv	s6, a2
	li	a2, 16
	mv	s1, a3
	call	memcpy
	mv	a2, s6
	mv	a3, s1
	lw	a0, 96(sp)
	lw	a1, 100(sp)
	lw	a4, 104(sp)
	lw	a5, 108(sp)
	sw	a0, 32(sp)
	sw	a1, 36(sp)
	sw	a4, 40(sp)
	sw	a5, 44(sp)
	lw	a0, 112(sp)
	lw	a1, 116(sp)
	lw	a4, 120(sp)
	lw	a5, 124(sp)
	sw	a0, 48(sp)
	sw	a1, 52(sp)
	sw	a4, 56(sp)
	sw	a5, 60(sp)
.Laes_small_BB25_4:                               # %"aes_soft::soft::blocks::filled_up::filled_up::<#7d3b633001169d8c>.exit"
	mv	a0, sp
	addi	a4, sp, 32
	mv	a1, s2
	call	aes_small.aes_soft.soft.ciphers.planes.process_outlined.1
	lw	a0, 16(sp)
	lw	a1, 20(sp)
	lw	a2, 24(sp)
	lw	a3, 28(sp)
	sw	a0, 80(sp)
	sw	a1, 84(sp)
	sw	a2, 88(sp)
	sw	a3, 92(sp)
	lw	a0, 0(sp)
	lw	a1, 4(sp)
	lw	a2, 8(sp)
	lw	a3, 12(sp)
	sw	a0, 64(sp)
	sw	a1, 68(sp)
	sw	a2, 72(sp)
	sw	a3, 76(sp)
	bnez	s5, .Laes_small_BB25_7
# %bb.5:                                # %join.8.i22.peel
	addi	a1, sp, 64
	li	a2, 16
	mv	a0, s0
	call	memcpy
	or	a0, s4, s3
	beqz	a0, .Laes_small_BB25_7
# %bb.6:                                # %join.8.i22.preheader.peel.newph
	addi	a1, sp, 80
	addi	a0, s0, 16
	li	a2, 16
	call	memcpy
.Laes_small_BB25_7:                               # %"aes_soft::soft::blocks::filled_up::copy_first::<#7d3b633001169d8c>.exit"
	lw	ra, 156(sp)                     # 4-byte Folded Reload
	lw	s0, 152(sp)                     # 4-byte Folded Reload
	lw	s1, 148(sp)                     # 4-byte Folded Reload
	lw	s2, 144(sp)                     # 4-byte Folded Reload
	lw	s3, 140(sp)                     # 4-byte Folded Reload
	lw	s4, 136(sp)                     # 4-byte Folded Reload
	lw	s5, 132(sp)                     # 4-byte Folded Reload
	lw	s6, 128(sp)                     # 4-byte Folded Reload
	addi	sp, sp, 160
	ret
.Laes_small_func_end25:
	.size	aes_small.aes_soft.soft.blocks.filled_up.process_filled_up.1, .Laes_small_func_end25-aes_small.aes_soft.soft.blocks.filled_up.process_filled_up.1
                                        # -- End function
	.section	.text.aes_small.aes_soft.soft.ciphers.planes.process_outlined.1,"ax",@progbits
	.p2align	1                               # -- Begin function aes_soft::soft::ciphers::planes::process_outlined::<#18f5f0e5023a24e4>
	.type	aes_small.aes_soft.soft.ciphers.planes.process_outlined.1,@function
aes_small.aes_soft.soft.ciphers.planes.process_outlined.1: # @aes_small.aes_soft.soft.ciphers.planes.process_outlined.1
# %bb.0:                                # %start
	addi	sp, sp, -160
	sw	ra, 156(sp)                     # 4-byte Folded Spill
	sw	s0, 152(sp)                     # 4-byte Folded Spill
	sw	s1, 148(sp)                     # 4-byte Folded Spill
	sw	s2, 144(sp)                     # 4-byte Folded Spill
	sw	s3, 140(sp)                     # 4-byte Folded Spill
	sw	s4, 136(sp)                     # 4-byte Folded Spill
	sw	s5, 132(sp)                     # 4-byte Folded Spill
	sw	s6, 128(sp)                     # 4-byte Folded Spill
	sw	s7, 124(sp)                     # 4-byte Folded Spill
	sw	s8, 120(sp)                     # 4-byte Folded Spill
	sw	s9, 116(sp)                     # 4-byte Folded Spill
	sw	s10, 112(sp)                    # 4-byte Folded Spill
	sw	s11, 108(sp)                    # 4-byte Folded Spill
	mv	s2, a3
	mv	s3, a2
	mv	s7, a1
	mv	s6, a0
	lbu	a6, 0(a4)
	lbu	a7, 1(a4)
	lbu	t0, 2(a4)
	lbu	a3, 3(a4)
	lbu	s0, 16(a4)
	lbu	s1, 17(a4)
	lbu	t1, 18(a4)
	lbu	t4, 19(a4)
	lbu	t2, 4(a4)
	lbu	t3, 5(a4)
	lbu	s4, 6(a4)
	lbu	a1, 7(a4)
	lbu	a2, 20(a4)
	lbu	a0, 21(a4)
	lbu	t5, 22(a4)
	lbu	t6, 23(a4)
	slli	a3, a3, 24
	slli	t0, t0, 16
	slli	a7, a7, 8
	slli	a5, s1, 8
	or	a6, a7, a6
	or	t0, t0, a3
	or	a7, a5, s0
	lbu	s5, 8(a4)
	lbu	s0, 9(a4)
	lbu	a5, 10(a4)
	lbu	s1, 11(a4)
	slli	t4, t4, 24
	slli	t1, t1, 16
	slli	a1, a1, 24
	slli	s4, s4, 16
	slli	t3, t3, 8
	slli	a0, a0, 8
	or	t1, t1, t4
	or	t2, t3, t2
	or	t4, s4, a1
	or	t3, a0, a2
	lbu	a2, 24(a4)
	lbu	a0, 25(a4)
	lbu	a1, 26(a4)
	lbu	a3, 27(a4)
	slli	t6, t6, 24
	slli	t5, t5, 16
	slli	s1, s1, 24
	slli	a5, a5, 16
	slli	s0, s0, 8
	slli	a0, a0, 8
	or	t5, t5, t6
	or	t6, s0, s5
	or	s5, a5, s1
	or	s4, a0, a2
	lbu	a2, 12(a4)
	lbu	s1, 13(a4)
	lbu	s0, 15(a4)
	lbu	a0, 14(a4)
	slli	a3, a3, 24
	slli	a1, a1, 16
	slli	s0, s0, 24
	slli	a0, a0, 16
	slli	s1, s1, 8
	or	s8, a1, a3
	or	s9, s1, a2
	or	s10, a0, s0
	lbu	a3, 29(a4)
	lbu	s0, 28(a4)
	lbu	s1, 31(a4)
	lbu	a4, 30(a4)
	slli	a3, a3, 8
	or	s11, a3, s0
	slli	s1, s1, 24
	slli	a4, a4, 16
	or	a4, a4, s1
	or	s1, a6, t0
	or	s0, a7, t1
	or	a5, t2, t4
	or	a1, t3, t5
	or	a2, t6, s5
	or	a0, s4, s8
	or	a3, s9, s10
	or	a4, s11, a4
	sw	s1, 76(sp)
	sw	s0, 80(sp)
	sw	a5, 84(sp)
	sw	a1, 88(sp)
	sw	a2, 92(sp)
	sw	a0, 96(sp)
	sw	a3, 100(sp)
	sw	a4, 104(sp)
	addi	a0, sp, 12
	addi	a1, sp, 76
	call	aes_small.aes_planes.soft.word.transpose.transpose
	addi	a1, s3, -2
	lw	a6, 28(sp)
	lw	a7, 32(sp)
	lw	a2, 36(sp)
	lw	a3, 40(sp)
	lw	a4, 12(sp)
	lw	a5, 16(sp)
	lw	s1, 20(sp)
	lw	s0, 24(sp)
	sltu	a0, a1, s3
	srli	a1, a1, 2
	sw	s2, 8(sp)                       # 4-byte Folded Spill
	add	a0, a0, s2
	addi	s5, a0, -1
	sw	a6, 60(sp)
	sw	a7, 64(sp)
	sw	a2, 68(sp)
	sw	a3, 72(sp)
	slli	a0, s5, 30
	or	s8, a1, a0
	srli	s9, s5, 2
	sw	a4, 44(sp)
	sw	a5, 48(sp)
	sw	s1, 52(sp)
	sw	s0, 56(sp)
	addi	a0, sp, 76
	mv	a1, s7
	li	a2, 0
	li	a3, 0
	call	aes_small.aes_planes.soft.round_keys.round_key.2
	lw	a0, 76(sp)
	lw	a6, 80(sp)
	lw	a7, 84(sp)
	lw	t0, 88(sp)
	lw	t1, 92(sp)
	lw	t2, 96(sp)
	lw	t4, 100(sp)
	lw	t3, 104(sp)
	lw	a1, 44(sp)
	lw	a2, 48(sp)
	lw	a3, 52(sp)
	lw	a4, 56(sp)
	lw	a5, 60(sp)
	lw	s0, 64(sp)
	lw	s1, 68(sp)
	lw	t5, 72(sp)
	xor	t6, a1, a0
	or	a1, s8, s9
	xor	a2, a2, a6
	xor	a3, a3, a7
	xor	a4, a4, t0
	xor	a5, a5, t1
	xor	s0, s0, t2
	xor	s1, s1, t4
	xor	a0, t5, t3
	sw	t6, 44(sp)
	sw	a2, 48(sp)
	sw	a3, 52(sp)
	sw	a4, 56(sp)
	sw	a5, 60(sp)
	sw	s0, 64(sp)
	sw	s1, 68(sp)
	sw	a0, 72(sp)
	beqz	a1, .Laes_small_BB26_5
# %bb.1:                                # %join.7.lr.ph.i
	li	s4, 0
	li	s11, 0
	j	.Laes_small_BB26_3
.Laes_small_BB26_2:                               # %join.7.i
                                        #   in Loop: Header=BB26_3 Depth=1
	sltu	a0, s11, s9
	beqz	a0, .Laes_small_BB26_5
.Laes_small_BB26_3:                               # %join.7.i
                                        # =>This Inner Loop Header: Depth=1
	srli	a0, s4, 30
	slli	s0, s11, 2
	slli	s10, s4, 2
	or	s2, s0, a0
	addi	s1, s10, 1
	addi	a0, sp, 44
	call	aes_small.aes_planes.soft.sbox.sub_bytes
	addi	a0, sp, 44
	call	aes_small.aes_planes.soft.mix_columns.mix_columns_1
	addi	a0, sp, 76
	mv	a1, s7
	mv	a2, s1
	mv	a3, s2
	call	aes_small.aes_planes.soft.round_keys.round_key.2
	lw	a6, 76(sp)
	lw	a7, 80(sp)
	lw	t0, 84(sp)
	lw	t1, 88(sp)
	lw	t2, 92(sp)
	lw	t3, 96(sp)
	lw	t5, 100(sp)
	lw	t4, 104(sp)
	lw	a0, 44(sp)
	lw	a1, 48(sp)
	lw	a2, 52(sp)
	lw	a3, 56(sp)
	lw	a4, 60(sp)
	lw	a5, 64(sp)
	lw	s0, 68(sp)
	lw	s1, 72(sp)
	xor	a0, a0, a6
	xor	a1, a1, a7
	xor	a2, a2, t0
	xor	a3, a3, t1
	xor	a4, a4, t2
	xor	a5, a5, t3
	xor	s0, s0, t5
	xor	s1, s1, t4
	sw	a0, 44(sp)
	sw	a1, 48(sp)
	sw	a2, 52(sp)
	sw	a3, 56(sp)
	sw	a4, 60(sp)
	sw	a5, 64(sp)
	sw	s0, 68(sp)
	sw	s1, 72(sp)
	addi	s1, s10, 2
	addi	a0, sp, 44
	call	aes_small.aes_planes.soft.sbox.sub_bytes
	addi	a0, sp, 44
	call	aes_small.aes_planes.soft.mix_columns.mix_columns_2
	addi	a0, sp, 76
	mv	a1, s7
	mv	a2, s1
	mv	a3, s2
	call	aes_small.aes_planes.soft.round_keys.round_key.2
	lw	a6, 76(sp)
	lw	a7, 80(sp)
	lw	t0, 84(sp)
	lw	t1, 88(sp)
	lw	t2, 92(sp)
	lw	t3, 96(sp)
	lw	t5, 100(sp)
	lw	t4, 104(sp)
	lw	a0, 44(sp)
	lw	a1, 48(sp)
	lw	a2, 52(sp)
	lw	a3, 56(sp)
	lw	a4, 60(sp)
	lw	a5, 64(sp)
	lw	s0, 68(sp)
	lw	s1, 72(sp)
	xor	a0, a0, a6
	xor	a1, a1, a7
	xor	a2, a2, t0
	xor	a3, a3, t1
	xor	a4, a4, t2
	xor	a5, a5, t3
	xor	s0, s0, t5
	xor	s1, s1, t4
	sw	a0, 44(sp)
	sw	a1, 48(sp)
	sw	a2, 52(sp)
	sw	a3, 56(sp)
	sw	a4, 60(sp)
	sw	a5, 64(sp)
	sw	s0, 68(sp)
	sw	s1, 72(sp)
	addi	s1, s10, 3
	addi	a0, sp, 44
	call	aes_small.aes_planes.soft.sbox.sub_bytes
	addi	a0, sp, 44
	call	aes_small.aes_planes.soft.mix_columns.mix_columns_3
	addi	a0, sp, 76
	mv	a1, s7
	mv	a2, s1
	mv	a3, s2
	call	aes_small.aes_planes.soft.round_keys.round_key.2
	lw	a0, 76(sp)
	lw	a7, 80(sp)
	lw	t0, 84(sp)
	lw	t1, 88(sp)
	lw	t2, 92(sp)
	lw	t3, 96(sp)
	lw	t4, 100(sp)
	lw	a6, 104(sp)
	lw	s1, 44(sp)
	lw	a1, 48(sp)
	lw	a2, 52(sp)
	lw	a3, 56(sp)
	lw	a4, 60(sp)
	lw	a5, 64(sp)
	lw	t6, 68(sp)
	lw	t5, 72(sp)
	xor	ra, s1, a0
	addi	s1, s10, 4
	sltu	s10, s1, s10
	xor	a1, a1, a7
	xor	a2, a2, t0
	xor	a3, a3, t1
	xor	a4, a4, t2
	xor	a5, a5, t3
	xor	a0, t6, t4
	xor	s0, t5, a6
	sw	ra, 44(sp)
	sw	a1, 48(sp)
	sw	a2, 52(sp)
	sw	a3, 56(sp)
	sw	a4, 60(sp)
	sw	a5, 64(sp)
	sw	a0, 68(sp)
	sw	s0, 72(sp)
	add	s0, s2, s10
	addi	a0, sp, 44
	call	aes_small.aes_planes.soft.sbox.sub_bytes
	addi	a0, sp, 44
	call	aes_small.aes_planes.soft.mix_columns.mix_columns_0
	addi	a0, sp, 76
	mv	a1, s7
	mv	a2, s1
	mv	a3, s0
	call	aes_small.aes_planes.soft.round_keys.round_key.2
	lw	a6, 76(sp)
	lw	a7, 80(sp)
	lw	t0, 84(sp)
	lw	t1, 88(sp)
	lw	t2, 92(sp)
	lw	t3, 96(sp)
	lw	t5, 100(sp)
	lw	t4, 104(sp)
	lw	a0, 44(sp)
	lw	a1, 48(sp)
	lw	a2, 52(sp)
	lw	a3, 56(sp)
	addi	s4, s4, 1
	seqz	a4, s4
	add	s11, s11, a4
	lw	a4, 60(sp)
	lw	a5, 64(sp)
	lw	s0, 68(sp)
	lw	s1, 72(sp)
	xor	a0, a0, a6
	xor	a1, a1, a7
	xor	a2, a2, t0
	xor	a3, a3, t1
	xor	a4, a4, t2
	xor	a5, a5, t3
	xor	s0, s0, t5
	xor	s1, s1, t4
	sw	a0, 44(sp)
	sw	a1, 48(sp)
	sw	a2, 52(sp)
	sw	a3, 56(sp)
	sw	a4, 60(sp)
	sw	a5, 64(sp)
	sw	s0, 68(sp)
	sw	s1, 72(sp)
	bne	s11, s9, .Laes_small_BB26_2
# %bb.4:                                #   in Loop: Header=BB26_3 Depth=1
	sltu	a0, s4, s8
	bnez	a0, .Laes_small_BB26_3
.Laes_small_BB26_5:                               # %after.3.i
	addi	s8, s3, -2
	andi	s2, s8, -4
	addi	s0, s2, 1
	addi	a0, sp, 44
	call	aes_small.aes_planes.soft.sbox.sub_bytes
	addi	a0, sp, 44
	call	aes_small.aes_planes.soft.mix_columns.mix_columns_1
	addi	a0, sp, 76
	mv	a1, s7
	mv	a2, s0
	mv	a3, s5
	call	aes_small.aes_planes.soft.round_keys.round_key.2
	lw	a6, 76(sp)
	lw	a7, 80(sp)
	lw	t0, 84(sp)
	lw	t1, 88(sp)
	lw	t2, 92(sp)
	lw	t3, 96(sp)
	lw	t4, 100(sp)
	lw	t5, 104(sp)
	lw	a0, 44(sp)
	lw	a1, 48(sp)
	lw	a2, 52(sp)
	lw	a3, 56(sp)
	lw	a4, 60(sp)
	lw	a5, 64(sp)
	lw	s0, 68(sp)
	lw	s1, 72(sp)
	xor	a0, a0, a6
	xor	a1, a1, a7
	xor	a2, a2, t0
	xor	a3, a3, t1
	xor	a4, a4, t2
	xor	a5, a5, t3
	xor	s0, s0, t4
	xor	s1, s1, t5
	sw	a0, 44(sp)
	sw	a1, 48(sp)
	sw	a2, 52(sp)
	sw	a3, 56(sp)
	sw	a4, 60(sp)
	sw	a5, 64(sp)
	sw	s0, 68(sp)
	sw	s1, 72(sp)
	lw	s4, 8(sp)                       # 4-byte Folded Reload
	beq	s5, s4, .Laes_small_BB26_8
# %bb.6:                                # %after.3.i
	sltu	a0, s5, s4
	bnez	a0, .Laes_small_BB26_9
.Laes_small_BB26_7:                               # %else.12.i
	lui	a1, 61441
	addi	a0, sp, 44
	addi	a2, a1, -256
	li	a1, 4
	call	aes_small.aes_planes.soft.shifts.swap_columns
	j	.Laes_small_BB26_10
.Laes_small_BB26_8:
	addi	s2, s2, 2
	sltu	a0, s2, s3
	beqz	a0, .Laes_small_BB26_7
.Laes_small_BB26_9:                               # %then.11.i
	addi	a0, sp, 44
	call	aes_small.aes_planes.soft.sbox.sub_bytes
	addi	a0, sp, 44
	call	aes_small.aes_planes.soft.mix_columns.mix_columns_2
	addi	a0, sp, 76
	mv	a1, s7
	mv	a2, s8
	mv	a3, s5
	call	aes_small.aes_planes.soft.round_keys.round_key.2
	lw	a0, 76(sp)
	lw	a7, 80(sp)
	lw	t0, 84(sp)
	lw	t1, 88(sp)
	lw	t2, 92(sp)
	lw	t3, 96(sp)
	lw	t4, 100(sp)
	lw	a6, 104(sp)
	lw	s0, 44(sp)
	lw	a1, 48(sp)
	lw	a2, 52(sp)
	lw	a3, 56(sp)
	lw	a4, 60(sp)
	lw	a5, 64(sp)
	lw	s1, 68(sp)
	lw	t5, 72(sp)
	xor	a0, a0, s0
	seqz	s0, s3
	sub	s2, s4, s0
	xor	a1, a1, a7
	xor	a2, a2, t0
	xor	a3, a3, t1
	xor	a4, a4, t2
	xor	a5, a5, t3
	xor	s1, s1, t4
	xor	s0, t5, a6
	sw	a0, 44(sp)
	sw	a1, 48(sp)
	sw	a2, 52(sp)
	sw	a3, 56(sp)
	sw	a4, 60(sp)
	sw	a5, 64(sp)
	sw	s1, 68(sp)
	sw	s0, 72(sp)
	addi	s1, s3, -1
	addi	a0, sp, 44
	call	aes_small.aes_planes.soft.sbox.sub_bytes
	addi	a0, sp, 44
	call	aes_small.aes_planes.soft.mix_columns.mix_columns_3
	addi	a0, sp, 76
	mv	a1, s7
	mv	a2, s1
	mv	a3, s2
	call	aes_small.aes_planes.soft.round_keys.round_key.2
	lw	a6, 76(sp)
	lw	a7, 80(sp)
	lw	t0, 84(sp)
	lw	t1, 88(sp)
	lw	t2, 92(sp)
	lw	t3, 96(sp)
	lw	t5, 100(sp)
	lw	t4, 104(sp)
	lw	a0, 44(sp)
	lw	a1, 48(sp)
	lw	a2, 52(sp)
	lw	a3, 56(sp)
	lw	a4, 60(sp)
	lw	a5, 64(sp)
	lw	s0, 68(sp)
	lw	s1, 72(sp)
	xor	a0, a0, a6
	xor	a1, a1, a7
	xor	a2, a2, t0
	xor	a3, a3, t1
	xor	a4, a4, t2
	xor	a5, a5, t3
	xor	s0, s0, t5
	xor	s1, s1, t4
	sw	a0, 44(sp)
	sw	a1, 48(sp)
	sw	a2, 52(sp)
	sw	a3, 56(sp)
	sw	a4, 60(sp)
	sw	a5, 64(sp)
	sw	s0, 68(sp)
	sw	s1, 72(sp)
.Laes_small_BB26_10:                              # %"aes_soft::soft::ciphers::planes::EncryptPlaneCipher::process_planes::<#42add9d049d0c5fd>.exit"
	addi	a0, sp, 44
	call	aes_small.aes_planes.soft.sbox.sub_bytes
	addi	a0, sp, 76
	mv	a1, s7
	mv	a2, s3
	mv	a3, s4
	call	aes_small.aes_planes.soft.round_keys.round_key.2
	lw	a6, 76(sp)
	lw	a7, 80(sp)
	lw	t0, 84(sp)
	lw	t1, 88(sp)
	lw	t2, 92(sp)
	lw	t3, 96(sp)
	lw	t5, 100(sp)
	lw	t4, 104(sp)
	lw	a0, 44(sp)
	lw	a1, 48(sp)
	lw	a2, 52(sp)
	lw	a3, 56(sp)
	lw	a4, 60(sp)
	lw	a5, 64(sp)
	lw	s0, 68(sp)
	lw	s1, 72(sp)
	xor	a0, a0, a6
	xor	a1, a1, a7
	xor	a2, a2, t0
	xor	a3, a3, t1
	xor	a4, a4, t2
	xor	a5, a5, t3
	xor	s0, s0, t5
	xor	s1, s1, t4
	sw	a0, 44(sp)
	sw	a1, 48(sp)
	sw	a2, 52(sp)
	sw	a3, 56(sp)
	sw	a4, 60(sp)
	sw	a5, 64(sp)
	sw	s0, 68(sp)
	sw	s1, 72(sp)
	sw	a4, 28(sp)
	sw	a5, 32(sp)
	sw	s0, 36(sp)
	sw	s1, 40(sp)
	sw	a0, 12(sp)
	sw	a1, 16(sp)
	sw	a2, 20(sp)
	sw	a3, 24(sp)
	addi	a0, sp, 76
	addi	a1, sp, 12
	call	aes_small.aes_planes.soft.word.transpose.transpose
	lw	a2, 76(sp)
	lw	a1, 80(sp)
	lw	a3, 84(sp)
	lw	a0, 88(sp)
	srli	a4, a2, 8
	srli	a5, a2, 16
	srli	s1, a2, 24
	srli	s0, a3, 8
	sb	a2, 0(s6)
	srli	a2, a3, 16
	sb	a4, 1(s6)
	sb	a5, 2(s6)
	sb	s1, 3(s6)
	sb	a3, 4(s6)
	sb	s0, 5(s6)
	lw	a4, 92(sp)
	lw	a5, 96(sp)
	lw	s1, 100(sp)
	lw	s0, 104(sp)
	srli	a3, a3, 24
	sb	a2, 6(s6)
	srli	a2, a4, 8
	sb	a3, 7(s6)
	srli	a3, a4, 16
	sb	a2, 9(s6)
	sb	a4, 8(s6)
	srli	a4, a4, 24
	sb	a3, 10(s6)
	srli	a2, s1, 8
	sb	a4, 11(s6)
	srli	a3, s1, 16
	sb	a2, 13(s6)
	sb	s1, 12(s6)
	srli	s1, s1, 24
	sb	a3, 14(s6)
	srli	a2, a1, 8
	sb	s1, 15(s6)
	srli	a3, a1, 16
	sb	a2, 17(s6)
	sb	a1, 16(s6)
	srli	a1, a1, 24
	sb	a3, 18(s6)
	srli	a2, a0, 8
	sb	a1, 19(s6)
	srli	a1, a0, 16
	sb	a2, 21(s6)
	sb	a0, 20(s6)
	srli	a0, a0, 24
	sb	a1, 22(s6)
	srli	a1, a5, 8
	sb	a0, 23(s6)
	srli	a0, a5, 16
	sb	a1, 25(s6)
	sb	a5, 24(s6)
	srli	a5, a5, 24
	sb	a0, 26(s6)
	srli	a0, s0, 8
	sb	a5, 27(s6)
	srli	a1, s0, 16
	sb	a0, 29(s6)
	sb	s0, 28(s6)
	srli	s0, s0, 24
	sb	a1, 30(s6)
	sb	s0, 31(s6)
	lw	ra, 156(sp)                     # 4-byte Folded Reload
	lw	s0, 152(sp)                     # 4-byte Folded Reload
	lw	s1, 148(sp)                     # 4-byte Folded Reload
	lw	s2, 144(sp)                     # 4-byte Folded Reload
	lw	s3, 140(sp)                     # 4-byte Folded Reload
	lw	s4, 136(sp)                     # 4-byte Folded Reload
	lw	s5, 132(sp)                     # 4-byte Folded Reload
	lw	s6, 128(sp)                     # 4-byte Folded Reload
	lw	s7, 124(sp)                     # 4-byte Folded Reload
	lw	s8, 120(sp)                     # 4-byte Folded Reload
	lw	s9, 116(sp)                     # 4-byte Folded Reload
	lw	s10, 112(sp)                    # 4-byte Folded Reload
	lw	s11, 108(sp)                    # 4-byte Folded Reload
	addi	sp, sp, 160
	ret
.Laes_small_func_end26:
	.size	aes_small.aes_soft.soft.ciphers.planes.process_outlined.1, .Laes_small_func_end26-aes_small.aes_soft.soft.ciphers.planes.process_outlined.1
                                        # -- End function
	.section	.text.aes_small.aes_planes.soft.mix_columns.mix_columns_0,"ax",@progbits
	.p2align	1                               # -- Begin function aes_planes::soft::mix_columns::mix_columns_0::<#e817d94f9a7b6ba6>
	.type	aes_small.aes_planes.soft.mix_columns.mix_columns_0,@function
aes_small.aes_planes.soft.mix_columns.mix_columns_0: # @aes_small.aes_planes.soft.mix_columns.mix_columns_0
# %bb.0:                                # %start
	addi	sp, sp, -64
	sw	ra, 60(sp)                      # 4-byte Folded Spill
	sw	s0, 56(sp)                      # 4-byte Folded Spill
	sw	s1, 52(sp)                      # 4-byte Folded Spill
	sw	s2, 48(sp)                      # 4-byte Folded Spill
	sw	s3, 44(sp)                      # 4-byte Folded Spill
	sw	s4, 40(sp)                      # 4-byte Folded Spill
	sw	s5, 36(sp)                      # 4-byte Folded Spill
	sw	s6, 32(sp)                      # 4-byte Folded Spill
	sw	s7, 28(sp)                      # 4-byte Folded Spill
	sw	s8, 24(sp)                      # 4-byte Folded Spill
	sw	s9, 20(sp)                      # 4-byte Folded Spill
	sw	s10, 16(sp)                     # 4-byte Folded Spill
	sw	s11, 12(sp)                     # 4-byte Folded Spill
	lw	a2, 0(a0)
	lw	a3, 4(a0)
	lw	a4, 8(a0)
	lw	a5, 12(a0)
	lw	a1, 16(a0)
	lw	a7, 20(a0)
	lw	t0, 24(a0)
	lw	t1, 28(a0)
	srli	a6, a2, 8
	slli	t2, a2, 24
	srli	t3, a3, 8
	slli	t4, a3, 24
	srli	t5, a4, 8
	slli	t6, a4, 24
	srli	s2, a5, 8
	slli	s3, a5, 24
	srli	s4, a1, 8
	slli	s5, a1, 24
	srli	s6, a7, 8
	slli	s7, a7, 24
	srli	s8, t0, 8
	slli	s9, t0, 24
	srli	s0, t1, 8
	slli	s1, t1, 24
	or	a6, t2, a6
	or	t2, t4, t3
	or	t3, t6, t5
	or	t4, s3, s2
	or	t5, s5, s4
	or	t6, s7, s6
	or	s2, s9, s8
	or	s3, s1, s0
	xor	s1, a6, a2
	xor	a3, t2, a3
	xor	a4, t3, a4
	xor	a5, t4, a5
	xor	a1, t5, a1
	xor	s0, t6, a7
	xor	a7, s2, t0
	xor	a2, s3, t1
	srli	t0, s1, 16
	slli	t1, s1, 16
	srli	s4, a3, 16
	slli	s5, a3, 16
	srli	s6, a4, 16
	slli	s7, a4, 16
	srli	s8, a5, 16
	slli	s9, a5, 16
	srli	s10, a1, 16
	xor	t2, s1, t2
	slli	s11, a1, 16
	xor	t3, t3, a3
	srli	ra, s0, 16
	xor	t4, a4, t4
	slli	s1, s0, 16
	xor	a5, a5, t5
	srli	a4, a7, 16
	xor	t5, t6, a1
	slli	a1, a7, 16
	xor	t6, s2, s0
	srli	s2, a2, 16
	xor	a7, s3, a7
	slli	s0, a2, 16
	xor	a6, a6, a2
	or	a3, t1, t0
	or	t0, s5, s4
	or	t1, s7, s6
	or	s3, s9, s8
	or	s4, s11, s10
	or	s1, s1, ra
	or	s5, a1, a4
	or	s2, s0, s2
	xor	s0, t2, a2
	xor	a1, t4, a2
	xor	a2, a2, a5
	xor	a3, a3, a6
	xor	a5, s0, t0
	xor	s0, t3, t1
	xor	a1, a1, s3
	xor	a2, a2, s4
	xor	s1, t5, s1
	xor	a4, t6, s5
	xor	a6, a7, s2
	sw	a3, 0(a0)
	sw	a5, 4(a0)
	sw	s0, 8(a0)
	sw	a1, 12(a0)
	sw	a2, 16(a0)
	sw	s1, 20(a0)
	sw	a4, 24(a0)
	sw	a6, 28(a0)
	lw	ra, 60(sp)                      # 4-byte Folded Reload
	lw	s0, 56(sp)                      # 4-byte Folded Reload
	lw	s1, 52(sp)                      # 4-byte Folded Reload
	lw	s2, 48(sp)                      # 4-byte Folded Reload
	lw	s3, 44(sp)                      # 4-byte Folded Reload
	lw	s4, 40(sp)                      # 4-byte Folded Reload
	lw	s5, 36(sp)                      # 4-byte Folded Reload
	lw	s6, 32(sp)                      # 4-byte Folded Reload
	lw	s7, 28(sp)                      # 4-byte Folded Reload
	lw	s8, 24(sp)                      # 4-byte Folded Reload
	lw	s9, 20(sp)                      # 4-byte Folded Reload
	lw	s10, 16(sp)                     # 4-byte Folded Reload
	lw	s11, 12(sp)                     # 4-byte Folded Reload
	addi	sp, sp, 64
	ret
.Laes_small_func_end27:
	.size	aes_small.aes_planes.soft.mix_columns.mix_columns_0, .Laes_small_func_end27-aes_small.aes_planes.soft.mix_columns.mix_columns_0
                                        # -- End function
	.section	.text.aes_small.aes_planes.soft.mix_columns.mix_columns_1,"ax",@progbits
	.p2align	1                               # -- Begin function aes_planes::soft::mix_columns::mix_columns_1::<#e817d94f9a7b6ba6>
	.type	aes_small.aes_planes.soft.mix_columns.mix_columns_1,@function
aes_small.aes_planes.soft.mix_columns.mix_columns_1: # @aes_small.aes_planes.soft.mix_columns.mix_columns_1
# %bb.0:                                # %start
	addi	sp, sp, -64
	sw	ra, 60(sp)                      # 4-byte Folded Spill
	sw	s0, 56(sp)                      # 4-byte Folded Spill
	sw	s1, 52(sp)                      # 4-byte Folded Spill
	sw	s2, 48(sp)                      # 4-byte Folded Spill
	sw	s3, 44(sp)                      # 4-byte Folded Spill
	sw	s4, 40(sp)                      # 4-byte Folded Spill
	sw	s5, 36(sp)                      # 4-byte Folded Spill
	sw	s6, 32(sp)                      # 4-byte Folded Spill
	sw	s7, 28(sp)                      # 4-byte Folded Spill
	sw	s8, 24(sp)                      # 4-byte Folded Spill
	sw	s9, 20(sp)                      # 4-byte Folded Spill
	sw	s10, 16(sp)                     # 4-byte Folded Spill
	sw	s11, 12(sp)                     # 4-byte Folded Spill
	mv	a6, a0
	lw	t4, 0(a0)
	lw	a4, 4(a0)
	lw	a5, 8(a0)
	lw	s0, 12(a0)
	lw	s1, 16(a0)
	lw	t0, 20(a0)
	lw	t1, 24(a0)
	lw	t2, 28(a0)
	srli	t3, t4, 10
	slli	t5, t4, 22
	srli	a7, t4, 2
	slli	a2, t4, 30
	srli	t6, a4, 10
	slli	s4, a4, 22
	srli	s2, a4, 2
	slli	s6, a4, 30
	srli	s3, a5, 10
	slli	s7, a5, 22
	srli	s5, a5, 2
	slli	s8, a5, 30
	srli	s9, s0, 10
	slli	s10, s0, 22
	srli	ra, s0, 2
	slli	a1, s0, 30
	srli	s11, s1, 10
	or	t3, t5, t3
	slli	t5, s1, 22
	or	a7, a2, a7
	srli	a3, s1, 2
	or	a0, s4, t6
	slli	t6, s1, 30
	or	s2, s6, s2
	srli	s4, t0, 10
	or	s3, s7, s3
	slli	s6, t0, 22
	or	s5, s8, s5
	srli	s7, t0, 2
	or	s8, s10, s9
	slli	s9, t0, 30
	or	s10, a1, ra
	srli	ra, t1, 10
	or	t5, t5, s11
	slli	s11, t1, 22
	or	t6, t6, a3
	srli	a3, t1, 2
	or	s4, s6, s4
	slli	a1, t1, 30
	or	s6, s9, s7
	srli	s7, t2, 10
	or	s9, s11, ra
	slli	s11, t2, 22
	or	ra, a1, a3
	srli	a3, t2, 2
	or	s11, s11, s7
	slli	a2, t2, 30
	or	a2, a2, a3
	lui	s7, 789516
	lui	a3, 259060
	addi	a3, a3, -193
	addi	a1, s7, 192
	and	t3, t3, a3
	and	a7, a7, a1
	and	s7, a0, a3
	and	s2, s2, a1
	and	a0, s3, a3
	and	s5, s5, a1
	and	s8, s8, a3
	and	s10, s10, a1
	and	t5, t5, a3
	and	t6, t6, a1
	and	s4, s4, a3
	and	s6, s6, a1
	and	s9, s9, a3
	and	ra, ra, a1
	and	s11, s11, a3
	and	a1, a1, a2
	or	a3, t3, a7
	sw	a3, 8(sp)                       # 4-byte Folded Spill
	or	s3, s7, s2
	or	s2, a0, s5
	or	a0, s8, s10
	or	t5, t5, t6
	or	t6, s4, s6
	or	a2, s9, ra
	or	a7, s11, a1
	xor	a1, a3, t4
	xor	a4, s3, a4
	xor	a5, s2, a5
	xor	s0, s0, a0
	xor	s1, t5, s1
	xor	a3, t6, t0
	xor	t1, a2, t1
	xor	t3, a7, t2
	srli	t0, a1, 20
	slli	t2, a1, 12
	srli	s4, a1, 12
	slli	s5, a1, 20
	srli	s6, a4, 20
	slli	s7, a4, 12
	srli	s8, a4, 12
	slli	s9, a4, 20
	srli	s10, a5, 20
	slli	s11, a5, 12
	xor	s3, a1, s3
	srli	ra, a5, 12
	xor	a1, s2, a4
	sw	a1, 4(sp)                       # 4-byte Folded Spill
	slli	a4, a5, 20
	xor	s2, a5, a0
	srli	a5, s0, 20
	or	t2, t2, t0
	slli	a0, s0, 12
	or	t4, s5, s4
	srli	s5, s0, 12
	xor	t5, s0, t5
	slli	s0, s0, 20
	or	s4, s7, s6
	srli	s7, s1, 20
	or	s6, s9, s8
	slli	a1, s1, 12
	or	s8, s11, s10
	srli	s9, s1, 12
	xor	t6, t6, s1
	slli	s1, s1, 20
	or	s10, a4, ra
	srli	a4, a3, 20
	or	s11, a0, a5
	slli	a0, a3, 12
	or	s5, s0, s5
	srli	s0, a3, 12
	xor	ra, a2, a3
	slli	a3, a3, 20
	or	a1, a1, s7
	srli	a5, t1, 20
	or	s7, s1, s9
	slli	s1, t1, 12
	or	a0, a0, a4
	srli	a4, t1, 12
	xor	t0, a7, t1
	slli	t1, t1, 20
	or	s9, a3, s0
	srli	s0, t3, 20
	or	a5, a5, s1
	slli	s1, t3, 12
	or	a4, t1, a4
	srli	a3, t3, 12
	or	s0, s0, s1
	slli	a2, t3, 20
	or	a2, a2, a3
	lw	a3, 8(sp)                       # 4-byte Folded Reload
	xor	a7, a3, t3
	xor	s3, s3, t3
	xor	t1, s2, t3
	xor	t3, t5, t3
	lui	a3, 61681
	addi	a3, a3, -241
	and	s1, t2, a3
	and	t2, s4, a3
	and	t5, s8, a3
	and	s2, s11, a3
	and	s8, a1, a3
	and	s4, a0, a3
	and	a5, a5, a3
	and	s11, s0, a3
	lui	s0, 986895
	addi	s0, s0, 240
	and	a0, t4, s0
	and	a1, s6, s0
	and	a3, s10, s0
	and	t4, s5, s0
	and	s5, s7, s0
	and	s6, s9, s0
	and	a4, a4, s0
	and	a2, a2, s0
	or	a0, a0, s1
	or	a1, t2, a1
	or	a3, t5, a3
	or	s1, s2, t4
	or	s0, s8, s5
	or	t2, s4, s6
	or	a4, a4, a5
	or	a2, s11, a2
	xor	a0, a0, a7
	xor	a1, s3, a1
	lw	a5, 4(sp)                       # 4-byte Folded Reload
	xor	a3, a3, a5
	xor	a5, t1, s1
	xor	s1, t3, s0
	xor	s0, t6, t2
	xor	a4, ra, a4
	xor	a2, t0, a2
	sw	a0, 0(a6)
	sw	a1, 4(a6)
	sw	a3, 8(a6)
	sw	a5, 12(a6)
	sw	s1, 16(a6)
	sw	s0, 20(a6)
	sw	a4, 24(a6)
	sw	a2, 28(a6)
	lw	ra, 60(sp)                      # 4-byte Folded Reload
	lw	s0, 56(sp)                      # 4-byte Folded Reload
	lw	s1, 52(sp)                      # 4-byte Folded Reload
	lw	s2, 48(sp)                      # 4-byte Folded Reload
	lw	s3, 44(sp)                      # 4-byte Folded Reload
	lw	s4, 40(sp)                      # 4-byte Folded Reload
	lw	s5, 36(sp)                      # 4-byte Folded Reload
	lw	s6, 32(sp)                      # 4-byte Folded Reload
	lw	s7, 28(sp)                      # 4-byte Folded Reload
	lw	s8, 24(sp)                      # 4-byte Folded Reload
	lw	s9, 20(sp)                      # 4-byte Folded Reload
	lw	s10, 16(sp)                     # 4-byte Folded Reload
	lw	s11, 12(sp)                     # 4-byte Folded Reload
	addi	sp, sp, 64
	ret
.Laes_small_func_end28:
	.size	aes_small.aes_planes.soft.mix_columns.mix_columns_1, .Laes_small_func_end28-aes_small.aes_planes.soft.mix_columns.mix_columns_1
                                        # -- End function
	.section	.text.aes_small.aes_planes.soft.mix_columns.mix_columns_2,"ax",@progbits
	.p2align	1                               # -- Begin function aes_planes::soft::mix_columns::mix_columns_2::<#e817d94f9a7b6ba6>
	.type	aes_small.aes_planes.soft.mix_columns.mix_columns_2,@function
aes_small.aes_planes.soft.mix_columns.mix_columns_2: # @aes_small.aes_planes.soft.mix_columns.mix_columns_2
# %bb.0:                                # %start
	addi	sp, sp, -64
	sw	ra, 60(sp)                      # 4-byte Folded Spill
	sw	s0, 56(sp)                      # 4-byte Folded Spill
	sw	s1, 52(sp)                      # 4-byte Folded Spill
	sw	s2, 48(sp)                      # 4-byte Folded Spill
	sw	s3, 44(sp)                      # 4-byte Folded Spill
	sw	s4, 40(sp)                      # 4-byte Folded Spill
	sw	s5, 36(sp)                      # 4-byte Folded Spill
	sw	s6, 32(sp)                      # 4-byte Folded Spill
	sw	s7, 28(sp)                      # 4-byte Folded Spill
	sw	s8, 24(sp)                      # 4-byte Folded Spill
	sw	s9, 20(sp)                      # 4-byte Folded Spill
	sw	s10, 16(sp)                     # 4-byte Folded Spill
	sw	s11, 12(sp)                     # 4-byte Folded Spill
	lw	t2, 0(a0)
	lw	a2, 4(a0)
	lw	a3, 8(a0)
	lw	a4, 12(a0)
	lw	s1, 16(a0)
	lw	a6, 20(a0)
	lw	a7, 24(a0)
	lw	t0, 28(a0)
	srli	t1, t2, 12
	slli	a1, t2, 20
	srli	t3, t2, 4
	slli	t4, t2, 28
	srli	t5, a2, 12
	slli	t6, a2, 20
	srli	s3, a2, 4
	slli	s6, a2, 28
	srli	s2, a3, 12
	slli	s5, a3, 20
	srli	s4, a3, 4
	slli	s7, a3, 28
	srli	s8, a4, 12
	slli	s9, a4, 20
	srli	s11, a4, 4
	slli	ra, a4, 28
	srli	s10, s1, 12
	or	t1, a1, t1
	slli	s0, s1, 20
	or	a1, t4, t3
	sw	a1, 8(sp)                       # 4-byte Folded Spill
	srli	t4, s1, 4
	or	t3, t6, t5
	slli	t6, s1, 28
	or	t5, s6, s3
	srli	s3, a6, 12
	or	s2, s5, s2
	slli	s5, a6, 20
	or	s4, s7, s4
	srli	s7, a6, 4
	or	s6, s9, s8
	slli	a5, a6, 28
	or	s8, ra, s11
	srli	s9, a7, 12
	or	s10, s0, s10
	slli	s11, a7, 20
	or	t4, t6, t4
	srli	ra, a7, 4
	or	t6, s5, s3
	slli	s0, a7, 28
	or	s3, a5, s7
	srli	s7, t0, 12
	or	s5, s11, s9
	slli	a5, t0, 20
	or	s9, s0, ra
	srli	s0, t0, 4
	or	a5, a5, s7
	slli	a1, t0, 28
	or	s7, a1, s0
	lui	s0, 61681
	addi	s0, s0, -241
	and	t1, t1, s0
	and	t3, t3, s0
	and	s2, s2, s0
	and	s6, s6, s0
	and	s10, s10, s0
	and	t6, t6, s0
	and	s5, s5, s0
	and	s11, a5, s0
	lui	s0, 986895
	addi	s0, s0, 240
	lw	a1, 8(sp)                       # 4-byte Folded Reload
	and	a1, a1, s0
	and	a5, t5, s0
	and	t5, s4, s0
	and	s4, s8, s0
	and	t4, t4, s0
	and	s3, s3, s0
	and	s8, s9, s0
	and	s0, s7, s0
	or	t1, t1, a1
	or	s7, t3, a5
	or	t3, s2, t5
	or	t5, s6, s4
	or	t4, s10, t4
	or	t6, t6, s3
	or	s2, s5, s8
	or	s3, s11, s0
	xor	s0, t1, t2
	xor	a2, s7, a2
	xor	a3, t3, a3
	xor	a4, t5, a4
	xor	s1, t4, s1
	xor	a5, t6, a6
	xor	a6, s2, a7
	xor	a1, s3, t0
	srli	a7, s0, 16
	slli	t0, s0, 16
	srli	t2, a2, 16
	slli	s4, a2, 16
	srli	s5, a3, 16
	slli	s6, a3, 16
	srli	s8, a4, 16
	slli	s9, a4, 16
	srli	s10, s1, 16
	xor	s7, s0, s7
	slli	s11, s1, 16
	xor	t3, t3, a2
	srli	ra, a5, 16
	xor	t5, a3, t5
	slli	s0, a5, 16
	xor	a4, a4, t4
	srli	a3, a6, 16
	xor	t4, t6, s1
	slli	s1, a6, 16
	xor	t6, s2, a5
	srli	s2, a1, 16
	xor	a6, s3, a6
	slli	a5, a1, 16
	xor	t1, t1, a1
	or	a2, t0, a7
	or	a7, s4, t2
	or	t0, s6, s5
	or	t2, s9, s8
	or	s3, s11, s10
	or	s0, s0, ra
	or	s4, s1, a3
	or	s2, a5, s2
	xor	s1, s7, a1
	xor	a3, t5, a1
	xor	a1, a1, a4
	xor	a2, a2, t1
	xor	a4, s1, a7
	xor	s1, t3, t0
	xor	a3, a3, t2
	xor	a1, a1, s3
	xor	s0, t4, s0
	xor	a5, t6, s4
	xor	a6, a6, s2
	sw	a2, 0(a0)
	sw	a4, 4(a0)
	sw	s1, 8(a0)
	sw	a3, 12(a0)
	sw	a1, 16(a0)
	sw	s0, 20(a0)
	sw	a5, 24(a0)
	sw	a6, 28(a0)
	lw	ra, 60(sp)                      # 4-byte Folded Reload
	lw	s0, 56(sp)                      # 4-byte Folded Reload
	lw	s1, 52(sp)                      # 4-byte Folded Reload
	lw	s2, 48(sp)                      # 4-byte Folded Reload
	lw	s3, 44(sp)                      # 4-byte Folded Reload
	lw	s4, 40(sp)                      # 4-byte Folded Reload
	lw	s5, 36(sp)                      # 4-byte Folded Reload
	lw	s6, 32(sp)                      # 4-byte Folded Reload
	lw	s7, 28(sp)                      # 4-byte Folded Reload
	lw	s8, 24(sp)                      # 4-byte Folded Reload
	lw	s9, 20(sp)                      # 4-byte Folded Reload
	lw	s10, 16(sp)                     # 4-byte Folded Reload
	lw	s11, 12(sp)                     # 4-byte Folded Reload
	addi	sp, sp, 64
	ret
.Laes_small_func_end29:
	.size	aes_small.aes_planes.soft.mix_columns.mix_columns_2, .Laes_small_func_end29-aes_small.aes_planes.soft.mix_columns.mix_columns_2
                                        # -- End function
	.section	.text.aes_small.aes_planes.soft.mix_columns.mix_columns_3,"ax",@progbits
	.p2align	1                               # -- Begin function aes_planes::soft::mix_columns::mix_columns_3::<#e817d94f9a7b6ba6>
	.type	aes_small.aes_planes.soft.mix_columns.mix_columns_3,@function
aes_small.aes_planes.soft.mix_columns.mix_columns_3: # @aes_small.aes_planes.soft.mix_columns.mix_columns_3
# %bb.0:                                # %start
	addi	sp, sp, -64
	sw	ra, 60(sp)                      # 4-byte Folded Spill
	sw	s0, 56(sp)                      # 4-byte Folded Spill
	sw	s1, 52(sp)                      # 4-byte Folded Spill
	sw	s2, 48(sp)                      # 4-byte Folded Spill
	sw	s3, 44(sp)                      # 4-byte Folded Spill
	sw	s4, 40(sp)                      # 4-byte Folded Spill
	sw	s5, 36(sp)                      # 4-byte Folded Spill
	sw	s6, 32(sp)                      # 4-byte Folded Spill
	sw	s7, 28(sp)                      # 4-byte Folded Spill
	sw	s8, 24(sp)                      # 4-byte Folded Spill
	sw	s9, 20(sp)                      # 4-byte Folded Spill
	sw	s10, 16(sp)                     # 4-byte Folded Spill
	sw	s11, 12(sp)                     # 4-byte Folded Spill
	mv	a6, a0
	lw	t4, 0(a0)
	lw	a4, 4(a0)
	lw	a5, 8(a0)
	lw	s0, 12(a0)
	lw	s1, 16(a0)
	lw	t0, 20(a0)
	lw	t1, 24(a0)
	lw	t2, 28(a0)
	srli	t3, t4, 14
	slli	t5, t4, 18
	srli	a7, t4, 6
	slli	a2, t4, 26
	srli	t6, a4, 14
	slli	s4, a4, 18
	srli	s2, a4, 6
	slli	s6, a4, 26
	srli	s3, a5, 14
	slli	s7, a5, 18
	srli	s5, a5, 6
	slli	s8, a5, 26
	srli	s9, s0, 14
	slli	s10, s0, 18
	srli	ra, s0, 6
	slli	a1, s0, 26
	srli	s11, s1, 14
	or	t3, t5, t3
	slli	t5, s1, 18
	or	a7, a2, a7
	srli	a3, s1, 6
	or	a0, s4, t6
	slli	t6, s1, 26
	or	s2, s6, s2
	srli	s4, t0, 14
	or	s3, s7, s3
	slli	s6, t0, 18
	or	s5, s8, s5
	srli	s7, t0, 6
	or	s8, s10, s9
	slli	s9, t0, 26
	or	s10, a1, ra
	srli	ra, t1, 14
	or	t5, t5, s11
	slli	s11, t1, 18
	or	t6, t6, a3
	srli	a3, t1, 6
	or	s4, s6, s4
	slli	a1, t1, 26
	or	s6, s9, s7
	srli	s7, t2, 14
	or	s9, s11, ra
	slli	s11, t2, 18
	or	ra, a1, a3
	srli	a3, t2, 6
	or	s11, s11, s7
	slli	a2, t2, 26
	or	a2, a2, a3
	lui	s7, 1036240
	lui	a3, 12336
	addi	a3, a3, 771
	addi	a1, s7, -772
	and	t3, t3, a3
	and	a7, a7, a1
	and	s7, a0, a3
	and	s2, s2, a1
	and	a0, s3, a3
	and	s5, s5, a1
	and	s8, s8, a3
	and	s10, s10, a1
	and	t5, t5, a3
	and	t6, t6, a1
	and	s4, s4, a3
	and	s6, s6, a1
	and	s9, s9, a3
	and	ra, ra, a1
	and	s11, s11, a3
	and	a1, a1, a2
	or	a3, t3, a7
	sw	a3, 8(sp)                       # 4-byte Folded Spill
	or	s3, s7, s2
	or	s2, a0, s5
	or	a0, s8, s10
	or	t5, t5, t6
	or	t6, s4, s6
	or	a2, s9, ra
	or	a7, s11, a1
	xor	a1, a3, t4
	xor	a4, s3, a4
	xor	a5, s2, a5
	xor	s0, s0, a0
	xor	s1, t5, s1
	xor	a3, t6, t0
	xor	t1, a2, t1
	xor	t3, a7, t2
	srli	t0, a1, 20
	slli	t2, a1, 12
	srli	s4, a1, 12
	slli	s5, a1, 20
	srli	s6, a4, 20
	slli	s7, a4, 12
	srli	s8, a4, 12
	slli	s9, a4, 20
	srli	s10, a5, 20
	slli	s11, a5, 12
	xor	s3, a1, s3
	srli	ra, a5, 12
	xor	a1, s2, a4
	sw	a1, 4(sp)                       # 4-byte Folded Spill
	slli	a4, a5, 20
	xor	s2, a5, a0
	srli	a5, s0, 20
	or	t2, t2, t0
	slli	a0, s0, 12
	or	t4, s5, s4
	srli	s5, s0, 12
	xor	t5, s0, t5
	slli	s0, s0, 20
	or	s4, s7, s6
	srli	s7, s1, 20
	or	s6, s9, s8
	slli	a1, s1, 12
	or	s8, s11, s10
	srli	s9, s1, 12
	xor	t6, t6, s1
	slli	s1, s1, 20
	or	s10, a4, ra
	srli	a4, a3, 20
	or	s11, a0, a5
	slli	a0, a3, 12
	or	s5, s0, s5
	srli	s0, a3, 12
	xor	ra, a2, a3
	slli	a3, a3, 20
	or	a1, a1, s7
	srli	a5, t1, 20
	or	s7, s1, s9
	slli	s1, t1, 12
	or	a0, a0, a4
	srli	a4, t1, 12
	xor	t0, a7, t1
	slli	t1, t1, 20
	or	s9, a3, s0
	srli	s0, t3, 20
	or	a5, a5, s1
	slli	s1, t3, 12
	or	a4, t1, a4
	srli	a3, t3, 12
	or	s0, s0, s1
	slli	a2, t3, 20
	or	a2, a2, a3
	lw	a3, 8(sp)                       # 4-byte Folded Reload
	xor	a7, a3, t3
	xor	s3, s3, t3
	xor	t1, s2, t3
	xor	t3, t5, t3
	lui	a3, 61681
	addi	a3, a3, -241
	and	s1, t2, a3
	and	t2, s4, a3
	and	t5, s8, a3
	and	s2, s11, a3
	and	s8, a1, a3
	and	s4, a0, a3
	and	a5, a5, a3
	and	s11, s0, a3
	lui	s0, 986895
	addi	s0, s0, 240
	and	a0, t4, s0
	and	a1, s6, s0
	and	a3, s10, s0
	and	t4, s5, s0
	and	s5, s7, s0
	and	s6, s9, s0
	and	a4, a4, s0
	and	a2, a2, s0
	or	a0, a0, s1
	or	a1, t2, a1
	or	a3, t5, a3
	or	s1, s2, t4
	or	s0, s8, s5
	or	t2, s4, s6
	or	a4, a4, a5
	or	a2, s11, a2
	xor	a0, a0, a7
	xor	a1, s3, a1
	lw	a5, 4(sp)                       # 4-byte Folded Reload
	xor	a3, a3, a5
	xor	a5, t1, s1
	xor	s1, t3, s0
	xor	s0, t6, t2
	xor	a4, ra, a4
	xor	a2, t0, a2
	sw	a0, 0(a6)
	sw	a1, 4(a6)
	sw	a3, 8(a6)
	sw	a5, 12(a6)
	sw	s1, 16(a6)
	sw	s0, 20(a6)
	sw	a4, 24(a6)
	sw	a2, 28(a6)
	lw	ra, 60(sp)                      # 4-byte Folded Reload
	lw	s0, 56(sp)                      # 4-byte Folded Reload
	lw	s1, 52(sp)                      # 4-byte Folded Reload
	lw	s2, 48(sp)                      # 4-byte Folded Reload
	lw	s3, 44(sp)                      # 4-byte Folded Reload
	lw	s4, 40(sp)                      # 4-byte Folded Reload
	lw	s5, 36(sp)                      # 4-byte Folded Reload
	lw	s6, 32(sp)                      # 4-byte Folded Reload
	lw	s7, 28(sp)                      # 4-byte Folded Reload
	lw	s8, 24(sp)                      # 4-byte Folded Reload
	lw	s9, 20(sp)                      # 4-byte Folded Reload
	lw	s10, 16(sp)                     # 4-byte Folded Reload
	lw	s11, 12(sp)                     # 4-byte Folded Reload
	addi	sp, sp, 64
	ret
.Laes_small_func_end30:
	.size	aes_small.aes_planes.soft.mix_columns.mix_columns_3, .Laes_small_func_end30-aes_small.aes_planes.soft.mix_columns.mix_columns_3
                                        # -- End function
	.section	.text.aes_small.aes_planes.soft.round_keys.round_key.2,"ax",@progbits
	.p2align	1                               # -- Begin function aes_planes::soft::round_keys::round_key::<#e817d94f9a7b6ba6>
	.type	aes_small.aes_planes.soft.round_keys.round_key.2,@function
aes_small.aes_planes.soft.round_keys.round_key.2: # @aes_small.aes_planes.soft.round_keys.round_key.2
# %bb.0:                                # %start
	addi	sp, sp, -64
	sw	ra, 60(sp)                      # 4-byte Folded Spill
	sw	s0, 56(sp)                      # 4-byte Folded Spill
	sw	s1, 52(sp)                      # 4-byte Folded Spill
	sw	s2, 48(sp)                      # 4-byte Folded Spill
	sw	s3, 44(sp)                      # 4-byte Folded Spill
	sw	s4, 40(sp)                      # 4-byte Folded Spill
	sw	s5, 36(sp)                      # 4-byte Folded Spill
	sw	s6, 32(sp)                      # 4-byte Folded Spill
	sw	s7, 28(sp)                      # 4-byte Folded Spill
	sw	s8, 24(sp)                      # 4-byte Folded Spill
	sw	s9, 20(sp)                      # 4-byte Folded Spill
	sw	s10, 16(sp)                     # 4-byte Folded Spill
	sw	s11, 12(sp)                     # 4-byte Folded Spill
	slli	a2, a2, 5
	add	a1, a1, a2
	lw	a4, 0(a1)
	lw	a2, 4(a1)
	lw	a3, 8(a1)
	lw	a5, 12(a1)
	lw	t1, 16(a1)
	lw	t0, 20(a1)
	lw	a7, 24(a1)
	lw	a6, 28(a1)
	srli	t2, a4, 24
	srli	t3, a4, 16
	srli	t6, a4, 8
	srli	t4, a2, 24
	srli	t5, a2, 16
	srli	s8, a2, 8
	srli	s2, a3, 24
	srli	s5, a3, 16
	srli	s11, a3, 8
	srli	s3, a5, 24
	srli	s4, a5, 16
	srli	s1, a5, 8
	srli	s6, t1, 24
	srli	s7, t1, 16
	srli	a1, t1, 8
	srli	s9, t0, 24
	srli	s10, t0, 16
	srli	s0, t0, 8
	srli	ra, a7, 24
	sb	a4, 0(a0)
	sb	t6, 1(a0)
	sb	t3, 2(a0)
	sb	t2, 3(a0)
	srli	a4, a7, 16
	sb	a2, 4(a0)
	sb	s8, 5(a0)
	sb	t5, 6(a0)
	sb	t4, 7(a0)
	srli	a2, a7, 8
	sb	a3, 8(a0)
	sb	s11, 9(a0)
	sb	s5, 10(a0)
	sb	s2, 11(a0)
	srli	a3, a6, 24
	sb	a5, 12(a0)
	sb	s1, 13(a0)
	sb	s4, 14(a0)
	sb	s3, 15(a0)
	srli	a5, a6, 16
	sb	t1, 16(a0)
	sb	a1, 17(a0)
	sb	s7, 18(a0)
	sb	s6, 19(a0)
	srli	a1, a6, 8
	sb	t0, 20(a0)
	sb	s0, 21(a0)
	sb	s10, 22(a0)
	sb	s9, 23(a0)
	sb	a7, 24(a0)
	sb	a2, 25(a0)
	sb	a4, 26(a0)
	sb	ra, 27(a0)
	sb	a6, 28(a0)
	sb	a1, 29(a0)
	sb	a5, 30(a0)
	sb	a3, 31(a0)
	lw	ra, 60(sp)                      # 4-byte Folded Reload
	lw	s0, 56(sp)                      # 4-byte Folded Reload
	lw	s1, 52(sp)                      # 4-byte Folded Reload
	lw	s2, 48(sp)                      # 4-byte Folded Reload
	lw	s3, 44(sp)                      # 4-byte Folded Reload
	lw	s4, 40(sp)                      # 4-byte Folded Reload
	lw	s5, 36(sp)                      # 4-byte Folded Reload
	lw	s6, 32(sp)                      # 4-byte Folded Reload
	lw	s7, 28(sp)                      # 4-byte Folded Reload
	lw	s8, 24(sp)                      # 4-byte Folded Reload
	lw	s9, 20(sp)                      # 4-byte Folded Reload
	lw	s10, 16(sp)                     # 4-byte Folded Reload
	lw	s11, 12(sp)                     # 4-byte Folded Reload
	addi	sp, sp, 64
	ret
.Laes_small_func_end31:
	.size	aes_small.aes_planes.soft.round_keys.round_key.2, .Laes_small_func_end31-aes_small.aes_planes.soft.round_keys.round_key.2
                                        # -- End function
	.section	.text.aes_small.aes_cipher.zeroize.stack.wipe_stack.1024,"ax",@progbits
	.p2align	1                               # -- Begin function aes_cipher::zeroize::stack::wipe_stack::<=1024>
	.type	aes_small.aes_cipher.zeroize.stack.wipe_stack.1024,@function
aes_small.aes_cipher.zeroize.stack.wipe_stack.1024: # @aes_small.aes_cipher.zeroize.stack.wipe_stack.1024
# %bb.0:                                # %start
	addi	sp, sp, -1056
	sw	ra, 1052(sp)                    # 4-byte Folded Spill
	sw	s0, 1048(sp)                    # 4-byte Folded Spill
	addi	a0, sp, 24
	li	a2, 1024
	addi	s0, sp, 24
	li	a1, 0
	call	memset
	sw	zero, 16(sp)
	sw	zero, 20(sp)
	#APP
	#NO_APP
	lw	a0, 16(sp)
	lw	a1, 20(sp)
	#APP
	#NO_APP
	seqz	a1, a1
	sltiu	a2, a0, 1024
	and	a1, a1, a2
	beqz	a1, .Laes_small_BB32_2
# %bb.1:                                # %then.1
	add	a0, a0, s0
	lbu	a0, 0(a0)
	#APP
	#NO_APP
	lw	zero, 20(sp)
	lw	zero, 16(sp)
	sw	zero, 20(sp)
	sw	a0, 16(sp)
	#APP
	#NO_APP
.Laes_small_BB32_2:                               # %common.ret
	lw	ra, 1052(sp)                    # 4-byte Folded Reload
	lw	s0, 1048(sp)                    # 4-byte Folded Reload
	addi	sp, sp, 1056
	ret
.Laes_small_func_end32:
	.size	aes_small.aes_cipher.zeroize.stack.wipe_stack.1024, .Laes_small_func_end32-aes_small.aes_cipher.zeroize.stack.wipe_stack.1024
                                        # -- End function
	.section	.text.aes_small.aes_ctr.add_blocks.add_blocks,"ax",@progbits
	.p2align	1                               # -- Begin function aes_ctr::add_blocks::add_blocks
	.type	aes_small.aes_ctr.add_blocks.add_blocks,@function
aes_small.aes_ctr.add_blocks.add_blocks:      # @aes_small.aes_ctr.add_blocks.add_blocks
# %bb.0:                                # %start
	addi	sp, sp, -32
	sw	ra, 28(sp)                      # 4-byte Folded Spill
	sw	s0, 24(sp)                      # 4-byte Folded Spill
	sw	s1, 20(sp)                      # 4-byte Folded Spill
	sw	s2, 16(sp)                      # 4-byte Folded Spill
	sw	s3, 12(sp)                      # 4-byte Folded Spill
	sw	s4, 8(sp)                       # 4-byte Folded Spill
	sw	s5, 4(sp)                       # 4-byte Folded Spill
	sw	s6, 0(sp)                       # 4-byte Folded Spill
	mv	s5, a5
	mv	s6, a4
	mv	s2, a3
	mv	s4, a1
	or	a1, a1, a2
	mv	s3, a0
	beqz	a1, .Laes_small_BB33_3
# %bb.1:                                # %then.1
	sltiu	a0, s4, 17
	neg	a1, a2
	xori	a0, a0, 1
	sub	a0, a1, a0
	li	a1, 16
	sub	a1, a1, s4
	beq	s5, a0, .Laes_small_BB33_4
# %bb.2:                                # %then.1
	sltu	a3, s5, a0
	j	.Laes_small_BB33_5
.Laes_small_BB33_3:
	li	s1, 0
	li	s0, 0
	j	.Laes_small_BB33_8
.Laes_small_BB33_4:
	sltu	a3, s6, a1
.Laes_small_BB33_5:                               # %then.1
	mv	s0, s5
	mv	s1, s6
	bnez	a3, .Laes_small_BB33_7
# %bb.6:                                # %then.1
	mv	s0, a0
	mv	s1, a1
.Laes_small_BB33_7:                               # %then.1
	mv	a0, s3
	mv	a1, s4
	mv	a3, s2
	mv	a4, s1
	mv	a5, s0
	call	aes_small.aes_ctr.add_blocks.add_part
.Laes_small_BB33_8:                               # %join.3
	sltu	a0, s6, s1
	sub	a5, s5, s0
	sub	a4, s6, s1
	sub	a5, a5, a0
.Laes_small_BB33_9:                               # %join.8
                                        # =>This Inner Loop Header: Depth=1
	seqz	a0, a5
	sltiu	a1, a4, 16
	and	a0, a0, a1
	bnez	a0, .Laes_small_BB33_11
# %bb.10:                               # %join.8
                                        #   in Loop: Header=BB33_9 Depth=1
	mv	a3, s1
	add	a0, s1, s4
	addi	s1, s1, 16
	andi	a0, a0, -16
	sltu	a1, s1, a3
	add	a0, a0, s3
	add	s0, s0, a1
	add	a3, a3, s2
	li	a4, 16
	li	a1, 0
	li	a2, 0
	li	a5, 0
	call	aes_small.aes_ctr.add_blocks.add_part
	sltu	a0, s6, s1
	sub	a4, s6, s1
	sub	a5, s5, a0
	sub	a5, a5, s0
	j	.Laes_small_BB33_9
.Laes_small_BB33_11:                              # %after.4
	beq	s0, s5, .Laes_small_BB33_14
# %bb.12:                               # %after.4
	sltu	a0, s0, s5
	bnez	a0, .Laes_small_BB33_15
.Laes_small_BB33_13:                              # %join.11
	lw	ra, 28(sp)                      # 4-byte Folded Reload
	lw	s0, 24(sp)                      # 4-byte Folded Reload
	lw	s1, 20(sp)                      # 4-byte Folded Reload
	lw	s2, 16(sp)                      # 4-byte Folded Reload
	lw	s3, 12(sp)                      # 4-byte Folded Reload
	lw	s4, 8(sp)                       # 4-byte Folded Reload
	lw	s5, 4(sp)                       # 4-byte Folded Reload
	lw	s6, 0(sp)                       # 4-byte Folded Reload
	addi	sp, sp, 32
	ret
.Laes_small_BB33_14:
	sltu	a0, s1, s6
	beqz	a0, .Laes_small_BB33_13
.Laes_small_BB33_15:                              # %then.9
	add	s4, s4, s1
	andi	a0, s4, -16
	add	a0, a0, s3
	add	a3, s2, s1
	li	a1, 0
	li	a2, 0
	lw	ra, 28(sp)                      # 4-byte Folded Reload
	lw	s0, 24(sp)                      # 4-byte Folded Reload
	lw	s1, 20(sp)                      # 4-byte Folded Reload
	lw	s2, 16(sp)                      # 4-byte Folded Reload
	lw	s3, 12(sp)                      # 4-byte Folded Reload
	lw	s4, 8(sp)                       # 4-byte Folded Reload
	lw	s5, 4(sp)                       # 4-byte Folded Reload
	lw	s6, 0(sp)                       # 4-byte Folded Reload
	addi	sp, sp, 32
	tail	aes_small.aes_ctr.add_blocks.add_part
.Laes_small_func_end33:
	.size	aes_small.aes_ctr.add_blocks.add_blocks, .Laes_small_func_end33-aes_small.aes_ctr.add_blocks.add_blocks
                                        # -- End function
	.section	.text.aes_small.aes_ctr.add_blocks.add_part,"ax",@progbits
	.p2align	1                               # -- Begin function aes_ctr::add_blocks::add_part
	.type	aes_small.aes_ctr.add_blocks.add_part,@function
aes_small.aes_ctr.add_blocks.add_part:        # @aes_small.aes_ctr.add_blocks.add_part
# %bb.0:                                # %start
	or	a2, a4, a5
	beqz	a2, .Laes_small_BB34_8
# %bb.1:                                # %start
	addi	sp, sp, -32
	sw	s0, 28(sp)                      # 4-byte Folded Spill
	sw	s1, 24(sp)                      # 4-byte Folded Spill
	sw	s2, 20(sp)                      # 4-byte Folded Spill
	sw	s3, 16(sp)                      # 4-byte Folded Spill
	sw	s4, 12(sp)                      # 4-byte Folded Spill
	sw	s5, 8(sp)                       # 4-byte Folded Spill
	sw	s6, 4(sp)                       # 4-byte Folded Spill
	sw	s7, 0(sp)                       # 4-byte Folded Spill
	xori	a2, a4, 16
	or	a2, a2, a5
	bnez	a2, .Laes_small_BB34_3
# %bb.2:                                # %then.1
	lbu	t1, 8(a3)
	lbu	a6, 9(a3)
	lbu	a7, 10(a3)
	lbu	t0, 11(a3)
	lbu	t5, 4(a3)
	lbu	t3, 5(a3)
	lbu	t4, 6(a3)
	lbu	t2, 7(a3)
	lbu	a1, 0(a3)
	lbu	s2, 1(a3)
	lbu	s4, 2(a3)
	lbu	t6, 3(a3)
	lbu	a2, 0(a0)
	lbu	s0, 1(a0)
	lbu	s1, 2(a0)
	lbu	s5, 3(a0)
	xor	s3, a2, a1
	lbu	a2, 4(a0)
	lbu	a1, 5(a0)
	lbu	a5, 6(a0)
	lbu	a4, 7(a0)
	xor	s2, s0, s2
	xor	s4, s1, s4
	xor	t6, s5, t6
	xor	t5, a2, t5
	lbu	s0, 8(a0)
	lbu	s1, 9(a0)
	lbu	a2, 10(a0)
	lbu	s5, 11(a0)
	xor	t3, a1, t3
	xor	t4, a5, t4
	xor	t2, a4, t2
	xor	t1, s0, t1
	lbu	s7, 12(a3)
	lbu	a4, 13(a3)
	lbu	a5, 14(a3)
	lbu	s0, 15(a3)
	xor	s6, s1, a6
	xor	a7, a2, a7
	xor	a6, s5, t0
	lbu	a2, 12(a0)
	lbu	s1, 13(a0)
	lbu	a1, 14(a0)
	lbu	a0, 15(a0)
	xor	a2, a2, s7
	xor	a4, a4, s1
	xor	a1, a1, a5
	xor	a0, a0, s0
	sb	a2, 12(a3)
	sb	a4, 13(a3)
	sb	a1, 14(a3)
	sb	a0, 15(a3)
	sb	t1, 8(a3)
	sb	s6, 9(a3)
	sb	a7, 10(a3)
	sb	a6, 11(a3)
	sb	t5, 4(a3)
	sb	t3, 5(a3)
	sb	t4, 6(a3)
	sb	t2, 7(a3)
	sb	s3, 0(a3)
	sb	s2, 1(a3)
	sb	s4, 2(a3)
	sb	t6, 3(a3)
	j	.Laes_small_BB34_7
.Laes_small_BB34_3:                               # %join.8.preheader
	li	a2, 0
	li	a6, 0
	j	.Laes_small_BB34_5
.Laes_small_BB34_4:                               #   in Loop: Header=BB34_5 Depth=1
	sltu	a7, a2, a4
	beqz	a7, .Laes_small_BB34_7
.Laes_small_BB34_5:                               # %join.8
                                        # =>This Inner Loop Header: Depth=1
	add	s1, a2, a1
	add	s0, a3, a2
	add	s1, s1, a0
	lbu	a7, 0(s0)
	lbu	s1, 0(s1)
	addi	a2, a2, 1
	xor	a7, a7, s1
	seqz	s1, a2
	add	a6, a6, s1
	sb	a7, 0(s0)
	beq	a6, a5, .Laes_small_BB34_4
# %bb.6:                                # %join.8
                                        #   in Loop: Header=BB34_5 Depth=1
	sltu	a7, a6, a5
	bnez	a7, .Laes_small_BB34_5
.Laes_small_BB34_7:
	lw	s0, 28(sp)                      # 4-byte Folded Reload
	lw	s1, 24(sp)                      # 4-byte Folded Reload
	lw	s2, 20(sp)                      # 4-byte Folded Reload
	lw	s3, 16(sp)                      # 4-byte Folded Reload
	lw	s4, 12(sp)                      # 4-byte Folded Reload
	lw	s5, 8(sp)                       # 4-byte Folded Reload
	lw	s6, 4(sp)                       # 4-byte Folded Reload
	lw	s7, 0(sp)                       # 4-byte Folded Reload
	addi	sp, sp, 32
.Laes_small_BB34_8:                               # %join.3
	ret
.Laes_small_func_end34:
	.size	aes_small.aes_ctr.add_blocks.add_part, .Laes_small_func_end34-aes_small.aes_ctr.add_blocks.add_part
                                        # -- End function
	.section	.text.aes_small.aes_narrow.borrowed_words.call_to_encrypt,"ax",@progbits
	.p2align	1                               # -- Begin function aes_narrow::borrowed_words::call_to_encrypt::<#b6a72634b88802f3>
	.type	aes_small.aes_narrow.borrowed_words.call_to_encrypt,@function
aes_small.aes_narrow.borrowed_words.call_to_encrypt: # @aes_small.aes_narrow.borrowed_words.call_to_encrypt
# %bb.0:                                # %start
	addi	sp, sp, -32
	sw	ra, 28(sp)                      # 4-byte Folded Spill
	lw	a5, 24(a3)
	lw	a6, 28(a3)
	lw	t1, 0(a3)
	lw	a7, 8(a3)
	lw	t0, 12(a3)
	lw	a4, 16(a3)
	sw	a0, 8(sp)
	sw	zero, 12(sp)
	sw	a1, 16(sp)
	sw	a2, 20(sp)
	addi	a0, sp, 8
	mv	a1, t1
	mv	a2, a7
	mv	a3, t0
	call	aes_small.aes_ctr.add_in_batches.add_by_backend
	lw	ra, 28(sp)                      # 4-byte Folded Reload
	addi	sp, sp, 32
	ret
.Laes_small_func_end35:
	.size	aes_small.aes_narrow.borrowed_words.call_to_encrypt, .Laes_small_func_end35-aes_small.aes_narrow.borrowed_words.call_to_encrypt
                                        # -- End function
	.section	.text.aes_small.aes_ctr.add_in_batches.add_by_backend,"ax",@progbits
	.p2align	1                               # -- Begin function aes_ctr::add_in_batches::add_by_backend::<#a8e061590e9ece31>
	.type	aes_small.aes_ctr.add_in_batches.add_by_backend,@function
aes_small.aes_ctr.add_in_batches.add_by_backend: # @aes_small.aes_ctr.add_in_batches.add_by_backend
# %bb.0:                                # %start
	addi	sp, sp, -336
	sw	ra, 332(sp)                     # 4-byte Folded Spill
	sw	s0, 328(sp)                     # 4-byte Folded Spill
	sw	s1, 324(sp)                     # 4-byte Folded Spill
	sw	s2, 320(sp)                     # 4-byte Folded Spill
	sw	s3, 316(sp)                     # 4-byte Folded Spill
	sw	s4, 312(sp)                     # 4-byte Folded Spill
	sw	s5, 308(sp)                     # 4-byte Folded Spill
	sw	s6, 304(sp)                     # 4-byte Folded Spill
	sw	s7, 300(sp)                     # 4-byte Folded Spill
	sw	s8, 296(sp)                     # 4-byte Folded Spill
	sw	s9, 292(sp)                     # 4-byte Folded Spill
	sw	s10, 288(sp)                    # 4-byte Folded Spill
	sw	s11, 284(sp)                    # 4-byte Folded Spill
	mv	s3, a6
	mv	s4, a5
	mv	s2, a4
	mv	s5, a3
	mv	s6, a2
	mv	s7, a1
	andi	s0, a2, 15
	li	a1, 32
	sw	s7, 24(sp)                      # 4-byte Folded Spill
	sw	a0, 20(sp)                      # 4-byte Folded Spill
	beqz	s0, .Laes_small_BB36_3
# %bb.1:                                # %then.1
	sltu	a0, a1, s0
	neg	a0, a0
	sub	a1, a1, s0
	beq	s3, a0, .Laes_small_BB36_4
# %bb.2:                                # %then.1
	sltu	a2, s3, a0
	j	.Laes_small_BB36_5
.Laes_small_BB36_3:
	mv	s8, a0
	li	s1, 0
	li	s11, 0
	j	.Laes_small_BB36_8
.Laes_small_BB36_4:
	sltu	a2, s4, a1
.Laes_small_BB36_5:                               # %then.1
	mv	s11, s3
	mv	s1, s4
	bnez	a2, .Laes_small_BB36_7
# %bb.6:                                # %then.1
	mv	s11, a0
	mv	s1, a1
.Laes_small_BB36_7:                               # %then.1
	add	a0, s1, s0
	srli	a1, s6, 4
	slli	a2, s5, 28
	slli	a3, a0, 24
	andi	a0, a0, 15
	or	s7, a1, a2
	srli	a3, a3, 28
	snez	s10, a0
	add	s10, s10, a3
	sltu	a0, s10, a3
	sw	a0, 4(sp)                       # 4-byte Folded Spill
	srli	s9, s5, 4
	addi	a0, sp, 28
	li	a2, 256
	li	a1, 0
	call	memset
	addi	a6, sp, 28
	lw	s8, 20(sp)                      # 4-byte Folded Reload
	mv	a0, s8
	lw	a1, 24(sp)                      # 4-byte Folded Reload
	mv	a2, s7
	mv	a3, s9
	mv	s7, a1
	mv	a4, s10
	lw	a5, 4(sp)                       # 4-byte Folded Reload
	call	aes_small.aes_ctr.keystream.fill_by_backend
	addi	a0, sp, 28
	mv	a1, s0
	li	a2, 0
	mv	a3, s2
	mv	a4, s1
	mv	a5, s11
	call	aes_small.aes_ctr.add_blocks.add_blocks
.Laes_small_BB36_8:                               # %join.3
	sltu	a0, s4, s1
	sub	a1, s3, s11
	sub	a1, a1, a0
	sub	a0, s4, s1
	seqz	a1, a1
	sltiu	a0, a0, 32
	and	a0, a0, a1
	bnez	a0, .Laes_small_BB36_10
.Laes_small_BB36_9:                               # %join.11
                                        # =>This Inner Loop Header: Depth=1
	add	a0, s1, s6
	add	a1, s11, s5
	addi	s0, s1, 32
	sltu	a2, a0, s1
	srli	a0, a0, 4
	add	a1, a1, a2
	sltu	a2, s0, s1
	add	s11, s11, a2
	slli	a2, a1, 28
	srli	a3, a1, 4
	or	a2, a2, a0
	add	a4, s2, s1
	mv	a0, s8
	mv	a1, s7
	call	aes_small.aes_ctr.add_in_batches.add_batch
	sltu	a0, s4, s0
	sub	a1, s4, s0
	sub	a0, s3, a0
	sub	a0, a0, s11
	seqz	a0, a0
	sltiu	a1, a1, 32
	and	a0, a0, a1
	mv	s1, s0
	beqz	a0, .Laes_small_BB36_9
.Laes_small_BB36_10:                              # %loop.13.preheader
	beq	s11, s3, .Laes_small_BB36_12
# %bb.11:                               # %loop.13.preheader
	sltu	a0, s11, s3
	j	.Laes_small_BB36_13
.Laes_small_BB36_12:
	sltu	a0, s1, s4
.Laes_small_BB36_13:                              # %loop.13.preheader
	sw	s4, 16(sp)                      # 4-byte Folded Spill
	sw	s5, 12(sp)                      # 4-byte Folded Spill
	sw	s6, 8(sp)                       # 4-byte Folded Spill
	bnez	a0, .Laes_small_BB36_17
.Laes_small_BB36_14:                              # %after.12
	lw	ra, 332(sp)                     # 4-byte Folded Reload
	lw	s0, 328(sp)                     # 4-byte Folded Reload
	lw	s1, 324(sp)                     # 4-byte Folded Reload
	lw	s2, 320(sp)                     # 4-byte Folded Reload
	lw	s3, 316(sp)                     # 4-byte Folded Reload
	lw	s4, 312(sp)                     # 4-byte Folded Reload
	lw	s5, 308(sp)                     # 4-byte Folded Reload
	lw	s6, 304(sp)                     # 4-byte Folded Reload
	lw	s7, 300(sp)                     # 4-byte Folded Reload
	lw	s8, 296(sp)                     # 4-byte Folded Reload
	lw	s9, 292(sp)                     # 4-byte Folded Reload
	lw	s10, 288(sp)                    # 4-byte Folded Reload
	lw	s11, 284(sp)                    # 4-byte Folded Reload
	addi	sp, sp, 336
	ret
.Laes_small_BB36_15:                              # %join.16
                                        #   in Loop: Header=BB36_17 Depth=1
	sltu	a0, s11, s3
	lw	s4, 16(sp)                      # 4-byte Folded Reload
.Laes_small_BB36_16:                              # %join.16
                                        #   in Loop: Header=BB36_17 Depth=1
	lw	s6, 8(sp)                       # 4-byte Folded Reload
	mv	s1, s0
	lw	s5, 12(sp)                      # 4-byte Folded Reload
	beqz	a0, .Laes_small_BB36_14
.Laes_small_BB36_17:                              # %join.16
                                        # =>This Inner Loop Header: Depth=1
	add	a0, s1, s6
	sltu	a3, s4, s1
	sub	a4, s3, s11
	andi	s9, a0, 15
	li	a1, 32
	sltu	a2, a1, s9
	sub	a1, a1, s9
	neg	a2, a2
	sub	s10, a4, a3
	sub	s4, s4, s1
	beq	s10, a2, .Laes_small_BB36_19
# %bb.18:                               # %join.16
                                        #   in Loop: Header=BB36_17 Depth=1
	sltu	a3, s10, a2
	j	.Laes_small_BB36_20
.Laes_small_BB36_19:                              #   in Loop: Header=BB36_17 Depth=1
	sltu	a3, s4, a1
.Laes_small_BB36_20:                              # %join.16
                                        #   in Loop: Header=BB36_17 Depth=1
	mv	s8, s3
	mv	s7, s2
	bnez	a3, .Laes_small_BB36_22
# %bb.21:                               # %join.16
                                        #   in Loop: Header=BB36_17 Depth=1
	mv	s10, a2
	mv	s4, a1
.Laes_small_BB36_22:                              # %join.16
                                        #   in Loop: Header=BB36_17 Depth=1
	sltu	a1, a0, s1
	add	a2, s11, s5
	add	a3, s4, s9
	srli	a0, a0, 4
	add	a1, a1, a2
	slli	a2, a3, 24
	andi	a3, a3, 15
	srli	a2, a2, 28
	snez	s2, a3
	slli	a3, a1, 28
	add	s2, s2, a2
	or	s5, a0, a3
	sltu	s6, s2, a2
	srli	s3, a1, 4
	addi	a0, sp, 28
	li	a2, 256
	li	a1, 0
	call	memset
	addi	a6, sp, 28
	lw	a0, 20(sp)                      # 4-byte Folded Reload
	lw	a1, 24(sp)                      # 4-byte Folded Reload
	mv	a2, s5
	mv	a3, s3
	mv	a4, s2
	mv	a5, s6
	call	aes_small.aes_ctr.keystream.fill_by_backend
	add	s0, s4, s1
	add	s11, s11, s10
	sltu	a0, s0, s4
	add	s11, s11, a0
	mv	s2, s7
	add	a3, s7, s1
	addi	a0, sp, 28
	mv	a1, s9
	li	a2, 0
	mv	a4, s4
	mv	a5, s10
	call	aes_small.aes_ctr.add_blocks.add_blocks
	mv	s3, s8
	bne	s11, s8, .Laes_small_BB36_15
# %bb.23:                               #   in Loop: Header=BB36_17 Depth=1
	lw	s4, 16(sp)                      # 4-byte Folded Reload
	sltu	a0, s0, s4
	j	.Laes_small_BB36_16
.Laes_small_func_end36:
	.size	aes_small.aes_ctr.add_in_batches.add_by_backend, .Laes_small_func_end36-aes_small.aes_ctr.add_in_batches.add_by_backend
                                        # -- End function
	.section	.text.aes_small.aes_ctr.add_in_batches.add_batch,"ax",@progbits
	.p2align	1                               # -- Begin function aes_ctr::add_in_batches::add_batch::<#a8e061590e9ece31>
	.type	aes_small.aes_ctr.add_in_batches.add_batch,@function
aes_small.aes_ctr.add_in_batches.add_batch: # @aes_small.aes_ctr.add_in_batches.add_batch
# %bb.0:                                # %start
	addi	sp, sp, -288
	sw	ra, 284(sp)                     # 4-byte Folded Spill
	sw	s0, 280(sp)                     # 4-byte Folded Spill
	sw	s1, 276(sp)                     # 4-byte Folded Spill
	sw	s2, 272(sp)                     # 4-byte Folded Spill
	sw	s3, 268(sp)                     # 4-byte Folded Spill
	sw	s4, 264(sp)                     # 4-byte Folded Spill
	mv	s2, a4
	mv	s3, a3
	mv	s4, a2
	mv	s0, a1
	mv	s1, a0
	addi	a0, sp, 8
	li	a2, 256
	li	a1, 0
	call	memset
	addi	a3, sp, 8
	li	a4, 2
	mv	a0, s0
	mv	a1, s4
	mv	a2, s3
	li	a5, 0
	call	aes_small.aes_ctr.counter_blocks.WholeBlockCounterBlocks.put
	lbu	a0, 1(s1)
	lbu	a1, 0(s1)
	lbu	a2, 2(s1)
	lbu	a3, 3(s1)
	slli	a0, a0, 8
	or	a0, a0, a1
	lbu	a1, 8(s1)
	lbu	a4, 9(s1)
	lbu	a5, 10(s1)
	lbu	s0, 11(s1)
	slli	a2, a2, 16
	slli	a3, a3, 24
	slli	a4, a4, 8
	slli	a5, a5, 16
	slli	s0, s0, 24
	or	a2, a2, a3
	or	a1, a1, a4
	or	a5, a5, s0
	lbu	a3, 13(s1)
	lbu	a4, 12(s1)
	lbu	s0, 14(s1)
	lbu	s1, 15(s1)
	slli	a3, a3, 8
	or	a3, a3, a4
	slli	s0, s0, 16
	slli	s1, s1, 24
	or	s0, s0, s1
	or	a0, a0, a2
	or	a1, a1, a5
	or	a2, s0, a3
	addi	a3, sp, 8
	li	a4, 2
	li	a5, 0
	call	aes_small.aes_soft.soft.blocks.filled_up.process_filled_up.1
	addi	a0, sp, 8
	li	a4, 32
	li	a1, 0
	li	a2, 0
	mv	a3, s2
	li	a5, 0
	call	aes_small.aes_ctr.add_blocks.add_blocks
	lw	ra, 284(sp)                     # 4-byte Folded Reload
	lw	s0, 280(sp)                     # 4-byte Folded Reload
	lw	s1, 276(sp)                     # 4-byte Folded Reload
	lw	s2, 272(sp)                     # 4-byte Folded Reload
	lw	s3, 268(sp)                     # 4-byte Folded Reload
	lw	s4, 264(sp)                     # 4-byte Folded Reload
	addi	sp, sp, 288
	ret
.Laes_small_func_end37:
	.size	aes_small.aes_ctr.add_in_batches.add_batch, .Laes_small_func_end37-aes_small.aes_ctr.add_in_batches.add_batch
                                        # -- End function
	.section	.text.aes_small.aes_ctr.keystream.fill_by_backend,"ax",@progbits
	.p2align	1                               # -- Begin function aes_ctr::keystream::fill_by_backend::<#a8e061590e9ece31>
	.type	aes_small.aes_ctr.keystream.fill_by_backend,@function
aes_small.aes_ctr.keystream.fill_by_backend: # @aes_small.aes_ctr.keystream.fill_by_backend
# %bb.0:                                # %start
	addi	sp, sp, -32
	sw	ra, 28(sp)                      # 4-byte Folded Spill
	sw	s0, 24(sp)                      # 4-byte Folded Spill
	sw	s1, 20(sp)                      # 4-byte Folded Spill
	sw	s2, 16(sp)                      # 4-byte Folded Spill
	sw	s3, 12(sp)                      # 4-byte Folded Spill
	mv	s2, a6
	mv	s3, a5
	mv	s0, a4
	mv	s1, a0
	li	a4, 2
	mv	a0, a1
	mv	a1, a2
	mv	a2, a3
	mv	a3, a6
	li	a5, 0
	call	aes_small.aes_ctr.counter_blocks.WholeBlockCounterBlocks.put
	xori	a0, s0, 1
	lbu	a1, 0(s1)
	lbu	a2, 1(s1)
	lbu	a3, 2(s1)
	lbu	a4, 3(s1)
	or	a6, a0, s3
	slli	a2, a2, 8
	or	a1, a1, a2
	lbu	a0, 12(s1)
	lbu	a2, 13(s1)
	lbu	s0, 14(s1)
	lbu	a5, 15(s1)
	slli	a3, a3, 16
	slli	a4, a4, 24
	slli	a2, a2, 8
	slli	s0, s0, 16
	slli	a5, a5, 24
	or	a3, a3, a4
	or	a2, a2, a0
	or	a5, a5, s0
	lbu	a0, 9(s1)
	lbu	a4, 8(s1)
	lbu	s0, 10(s1)
	lbu	s1, 11(s1)
	slli	a0, a0, 8
	or	a4, a4, a0
	slli	s0, s0, 16
	slli	s1, s1, 24
	or	s0, s0, s1
	or	a0, a3, a1
	or	a2, a2, a5
	or	a1, s0, a4
	bnez	a6, .Laes_small_BB38_2
# %bb.1:                                # %then.1.i.i
	li	a4, 1
	j	.Laes_small_BB38_3
.Laes_small_BB38_2:                               # %else.2.i.i
	li	a4, 2
.Laes_small_BB38_3:                               # %then.1.i.i
	mv	a3, s2
	li	a5, 0
	lw	ra, 28(sp)                      # 4-byte Folded Reload
	lw	s0, 24(sp)                      # 4-byte Folded Reload
	lw	s1, 20(sp)                      # 4-byte Folded Reload
	lw	s2, 16(sp)                      # 4-byte Folded Reload
	lw	s3, 12(sp)                      # 4-byte Folded Reload
	addi	sp, sp, 32
	tail	aes_small.aes_soft.soft.blocks.filled_up.process_filled_up.1
.Laes_small_func_end38:
	.size	aes_small.aes_ctr.keystream.fill_by_backend, .Laes_small_func_end38-aes_small.aes_ctr.keystream.fill_by_backend
                                        # -- End function
	.section	.text.aes_small.aes_cipher.zeroize.stack.wipe_stack.2032,"ax",@progbits
	.p2align	1                               # -- Begin function aes_cipher::zeroize::stack::wipe_stack::<=2032>
	.type	aes_small.aes_cipher.zeroize.stack.wipe_stack.2032,@function
aes_small.aes_cipher.zeroize.stack.wipe_stack.2032: # @aes_small.aes_cipher.zeroize.stack.wipe_stack.2032
# %bb.0:                                # %start
	addi	sp, sp, -256
	sw	ra, 252(sp)                     # 4-byte Folded Spill
	sw	s0, 248(sp)                     # 4-byte Folded Spill
	addi	sp, sp, -1808
	addi	a0, sp, 24
	li	a2, 2032
	addi	s0, sp, 24
	li	a1, 0
	call	memset
	sw	zero, 16(sp)
	sw	zero, 20(sp)
	#APP
	#NO_APP
	lw	a0, 16(sp)
	lw	a1, 20(sp)
	#APP
	#NO_APP
	seqz	a1, a1
	sltiu	a2, a0, 2032
	and	a1, a1, a2
	beqz	a1, .Laes_small_BB39_2
# %bb.1:                                # %then.1
	add	a0, a0, s0
	lbu	a0, 0(a0)
	#APP
	#NO_APP
	lw	zero, 20(sp)
	lw	zero, 16(sp)
	sw	zero, 20(sp)
	sw	a0, 16(sp)
	#APP
	#NO_APP
.Laes_small_BB39_2:                               # %common.ret
	addi	sp, sp, 1808
	lw	ra, 252(sp)                     # 4-byte Folded Reload
	lw	s0, 248(sp)                     # 4-byte Folded Reload
	addi	sp, sp, 256
	ret
.Laes_small_func_end39:
	.size	aes_small.aes_cipher.zeroize.stack.wipe_stack.2032, .Laes_small_func_end39-aes_small.aes_cipher.zeroize.stack.wipe_stack.2032
                                        # -- End function
	.section	.text.aes_small.aes_cipher.zeroize.elements.zeroize_elements.1,"ax",@progbits
	.p2align	1                               # -- Begin function aes_cipher::zeroize::elements::zeroize_elements::<#54a2bb646728b9ee>
	.type	aes_small.aes_cipher.zeroize.elements.zeroize_elements.1,@function
aes_small.aes_cipher.zeroize.elements.zeroize_elements.1: # @aes_small.aes_cipher.zeroize.elements.zeroize_elements.1
# %bb.0:                                # %start
	addi	sp, sp, -32
	sw	ra, 28(sp)                      # 4-byte Folded Spill
	sw	s0, 24(sp)                      # 4-byte Folded Spill
	sw	s1, 20(sp)                      # 4-byte Folded Spill
	sw	zero, 8(sp)
	sw	zero, 12(sp)
	#APP
	#NO_APP
	lw	a1, 8(sp)
	lw	a2, 12(sp)
	#APP
	#NO_APP
	seqz	a2, a2
	sltiu	a3, a1, 120
	and	a2, a2, a3
	beqz	a2, .Laes_small_BB40_2
# %bb.1:                                # %then.1.i
	slli	a1, a1, 2
	add	s0, a0, a1
	lw	s1, 0(s0)
	li	a2, 480
	li	a1, 0
	call	memset
	lw	a0, 0(s0)
	and	a0, a0, s1
	j	.Laes_small_BB40_3
.Laes_small_BB40_2:                               # %"aes_cipher::zeroize::observe::<#94bc162b3f62047f>.exit12"
	li	a2, 480
	li	a1, 0
	call	memset
	li	a0, 0
.Laes_small_BB40_3:                               # %"aes_cipher::zeroize::observe::<#94bc162b3f62047f>.exit"
	zext.b	a0, a0
	#APP
	#NO_APP
	lw	zero, 12(sp)
	lw	zero, 8(sp)
	sw	zero, 12(sp)
	sw	a0, 8(sp)
	#APP
	#NO_APP
	lw	ra, 28(sp)                      # 4-byte Folded Reload
	lw	s0, 24(sp)                      # 4-byte Folded Reload
	lw	s1, 20(sp)                      # 4-byte Folded Reload
	addi	sp, sp, 32
	li	a1, 0
	li	a2, 0
	li	a3, 0
	li	a4, 0
	li	a5, 0
	li	a6, 0
	li	a7, 0
	li	t0, 0
	li	t1, 0
	li	t2, 0
	li	t3, 0
	li	t4, 0
	li	t5, 0
	li	t6, 0
	ret
.Laes_small_func_end40:
	.size	aes_small.aes_cipher.zeroize.elements.zeroize_elements.1, .Laes_small_func_end40-aes_small.aes_cipher.zeroize.elements.zeroize_elements.1
                                        # -- End function
	.section	.text.aes_small.cmac.tags.tag,"ax",@progbits
	.p2align	1                               # -- Begin function cmac::tags::tag::<#4f733d09d7f6c6b4>
	.type	aes_small.cmac.tags.tag,@function
aes_small.cmac.tags.tag: # @aes_small.cmac.tags.tag
# %bb.0:                                # %start
	addi	sp, sp, -112
	sw	ra, 108(sp)                     # 4-byte Folded Spill
	sw	s0, 104(sp)                     # 4-byte Folded Spill
	sw	s1, 100(sp)                     # 4-byte Folded Spill
	sw	s2, 96(sp)                      # 4-byte Folded Spill
	sw	s3, 92(sp)                      # 4-byte Folded Spill
	sw	s4, 88(sp)                      # 4-byte Folded Spill
	sw	s5, 84(sp)                      # 4-byte Folded Spill
	sw	s6, 80(sp)                      # 4-byte Folded Spill
	sw	s7, 76(sp)                      # 4-byte Folded Spill
	sw	s8, 72(sp)                      # 4-byte Folded Spill
	sw	s9, 68(sp)                      # 4-byte Folded Spill
	sw	s10, 64(sp)                     # 4-byte Folded Spill
	sw	s11, 60(sp)                     # 4-byte Folded Spill
	mv	s5, a2
	mv	s4, a1
	sw	a0, 0(sp)                       # 4-byte Folded Spill
	sw	a4, 8(sp)                       # 4-byte Folded Spill
	or	a0, a3, a4
	snez	a1, a0
	sw	a3, 4(sp)                       # 4-byte Folded Spill
	sub	a0, a3, a1
	andi	s6, a0, -16
	sw	zero, 12(sp)
	sw	zero, 16(sp)
	sw	zero, 20(sp)
	sw	zero, 24(sp)
	beqz	s6, .Laes_small_BB41_7
# %bb.1:                                # %join.5.lr.ph.i
	li	s10, 0
	li	s7, 0
	lw	a2, 4(sp)                       # 4-byte Folded Reload
	sltu	a1, a2, a1
	srli	a0, a0, 4
	lw	a2, 8(sp)                       # 4-byte Folded Reload
	sub	a1, a2, a1
	slli	a2, a1, 28
	or	s8, a0, a2
	srli	s9, a1, 4
	j	.Laes_small_BB41_3
.Laes_small_BB41_2:                               # %join.5.i
                                        #   in Loop: Header=BB41_3 Depth=1
	sltu	a0, s7, s9
	beqz	a0, .Laes_small_BB41_7
.Laes_small_BB41_3:                               # %join.5.i
                                        # =>This Inner Loop Header: Depth=1
	srli	a1, s10, 28
	slli	a2, s7, 4
	slli	a0, s10, 4
	or	a1, a1, a2
	addi	a2, a0, 16
	sltu	a3, a2, a0
	add	a1, a1, a3
	seqz	a1, a1
	sltu	a3, a2, s6
	and	a1, a1, a3
	bnez	a1, .Laes_small_BB41_5
# %bb.4:                                # %join.5.i
                                        #   in Loop: Header=BB41_3 Depth=1
	mv	a2, s6
.Laes_small_BB41_5:                               # %join.5.i
                                        #   in Loop: Header=BB41_3 Depth=1
	add	a1, s5, a0
	sub	a2, a2, a0
	sw	zero, 44(sp)
	sw	zero, 48(sp)
	sw	zero, 52(sp)
	sw	zero, 56(sp)
	addi	a0, sp, 44
	call	memcpy
	lbu	a6, 16(sp)
	lbu	a7, 17(sp)
	lbu	t0, 18(sp)
	lbu	t1, 19(sp)
	lbu	t2, 20(sp)
	lbu	t3, 21(sp)
	lbu	t4, 22(sp)
	lbu	t5, 23(sp)
	lbu	t6, 24(sp)
	lbu	s11, 25(sp)
	lbu	ra, 26(sp)
	lbu	a4, 27(sp)
	lbu	a5, 56(sp)
	lbu	s0, 57(sp)
	lbu	a0, 58(sp)
	lbu	a1, 59(sp)
	lbu	a2, 52(sp)
	lbu	a3, 53(sp)
	lbu	s2, 54(sp)
	lbu	s3, 55(sp)
	xor	a1, a1, a4
	xor	ra, a0, ra
	xor	s11, s0, s11
	xor	t6, a5, t6
	lbu	s0, 48(sp)
	lbu	a0, 49(sp)
	lbu	a4, 50(sp)
	lbu	a5, 51(sp)
	xor	t5, s3, t5
	xor	t4, s2, t4
	xor	t3, a3, t3
	xor	t2, a2, t2
	lbu	s2, 12(sp)
	lbu	s3, 13(sp)
	lbu	s1, 14(sp)
	lbu	a3, 15(sp)
	xor	t1, a5, t1
	xor	t0, a4, t0
	xor	a7, a0, a7
	xor	s0, s0, a6
	lbu	a5, 47(sp)
	lbu	a4, 46(sp)
	lbu	a0, 45(sp)
	lbu	a2, 44(sp)
	xor	a3, a3, a5
	xor	a4, a4, s1
	xor	a0, a0, s3
	xor	a2, a2, s2
	sb	a2, 12(sp)
	sb	a0, 13(sp)
	sb	a4, 14(sp)
	sb	a3, 15(sp)
	sb	s0, 16(sp)
	sb	a7, 17(sp)
	sb	t0, 18(sp)
	sb	t1, 19(sp)
	sb	t2, 20(sp)
	sb	t3, 21(sp)
	sb	t4, 22(sp)
	sb	t5, 23(sp)
	lbu	a0, 0(s4)
	lbu	a2, 1(s4)
	lbu	a3, 2(s4)
	lbu	a4, 3(s4)
	sb	t6, 24(sp)
	sb	s11, 25(sp)
	sb	ra, 26(sp)
	sb	a1, 27(sp)
	lbu	a1, 8(s4)
	lbu	a5, 9(s4)
	lbu	s1, 10(s4)
	lbu	s0, 11(s4)
	slli	a2, a2, 8
	slli	a3, a3, 16
	slli	a4, a4, 24
	slli	a5, a5, 8
	slli	s1, s1, 16
	slli	s0, s0, 24
	or	a0, a0, a2
	or	a3, a3, a4
	or	a1, a1, a5
	or	s0, s0, s1
	lbu	a2, 13(s4)
	lbu	a4, 12(s4)
	lbu	a5, 14(s4)
	lbu	s1, 15(s4)
	slli	a2, a2, 8
	or	a2, a2, a4
	slli	a5, a5, 16
	slli	s1, s1, 24
	or	a5, a5, s1
	or	a0, a0, a3
	or	a1, a1, s0
	or	a2, a2, a5
	addi	a3, sp, 12
	li	a4, 1
	li	a5, 0
	call	aes_small.aes_narrow.blocks.process_all_batches.1
	call	aes_small.aes_cipher.zeroize.stack.wipe_stack.1024
	addi	s10, s10, 1
	seqz	a0, s10
	add	s7, s7, a0
	bne	s7, s9, .Laes_small_BB41_2
# %bb.6:                                #   in Loop: Header=BB41_3 Depth=1
	sltu	a0, s10, s8
	bnez	a0, .Laes_small_BB41_3
.Laes_small_BB41_7:                               # %"cmac::chaining::chain::<#4f733d09d7f6c6b4>.exit"
	add	a3, s5, s6
	lw	a0, 4(sp)                       # 4-byte Folded Reload
	sub	a4, a0, s6
	sltu	a0, a0, s6
	lw	a5, 8(sp)                       # 4-byte Folded Reload
	sub	a5, a5, a0
	addi	a0, sp, 28
	addi	a2, sp, 12
	mv	a1, s4
	call	aes_small.cmac.tags.tag_at_end
	addi	a1, sp, 28
	li	a2, 16
	lw	a0, 0(sp)                       # 4-byte Folded Reload
	call	memcpy
	lw	ra, 108(sp)                     # 4-byte Folded Reload
	lw	s0, 104(sp)                     # 4-byte Folded Reload
	lw	s1, 100(sp)                     # 4-byte Folded Reload
	lw	s2, 96(sp)                      # 4-byte Folded Reload
	lw	s3, 92(sp)                      # 4-byte Folded Reload
	lw	s4, 88(sp)                      # 4-byte Folded Reload
	lw	s5, 84(sp)                      # 4-byte Folded Reload
	lw	s6, 80(sp)                      # 4-byte Folded Reload
	lw	s7, 76(sp)                      # 4-byte Folded Reload
	lw	s8, 72(sp)                      # 4-byte Folded Reload
	lw	s9, 68(sp)                      # 4-byte Folded Reload
	lw	s10, 64(sp)                     # 4-byte Folded Reload
	lw	s11, 60(sp)                     # 4-byte Folded Reload
	addi	sp, sp, 112
	ret
.Laes_small_func_end41:
	.size	aes_small.cmac.tags.tag, .Laes_small_func_end41-aes_small.cmac.tags.tag
                                        # -- End function
	.section	.text.aes_small.cmac.tags.tag_at_end,"ax",@progbits
	.p2align	1                               # -- Begin function cmac::tags::tag_at_end::<#4f733d09d7f6c6b4>
	.type	aes_small.cmac.tags.tag_at_end,@function
aes_small.cmac.tags.tag_at_end: # @aes_small.cmac.tags.tag_at_end
# %bb.0:                                # %start
	addi	sp, sp, -96
	sw	ra, 92(sp)                      # 4-byte Folded Spill
	sw	s0, 88(sp)                      # 4-byte Folded Spill
	sw	s1, 84(sp)                      # 4-byte Folded Spill
	sw	s2, 80(sp)                      # 4-byte Folded Spill
	sw	s3, 76(sp)                      # 4-byte Folded Spill
	sw	s4, 72(sp)                      # 4-byte Folded Spill
	sw	s5, 68(sp)                      # 4-byte Folded Spill
	sw	s6, 64(sp)                      # 4-byte Folded Spill
	sw	s7, 60(sp)                      # 4-byte Folded Spill
	sw	s8, 56(sp)                      # 4-byte Folded Spill
	sw	s9, 52(sp)                      # 4-byte Folded Spill
	sw	s10, 48(sp)                     # 4-byte Folded Spill
	sw	s11, 44(sp)                     # 4-byte Folded Spill
	mv	s4, a5
	mv	s3, a4
	mv	s5, a3
	mv	s8, a2
	mv	s1, a1
	mv	s2, a0
	lbu	a6, 0(a1)
	lbu	a1, 1(a1)
	lbu	a2, 2(s1)
	lbu	a3, 3(s1)
	lbu	a4, 8(s1)
	lbu	a5, 9(s1)
	lbu	s0, 10(s1)
	lbu	a0, 11(s1)
	slli	a1, a1, 8
	slli	a2, a2, 16
	slli	a3, a3, 24
	slli	a5, a5, 8
	slli	s0, s0, 16
	slli	a0, a0, 24
	or	a1, a1, a6
	or	a2, a2, a3
	or	a6, a5, a4
	or	s0, s0, a0
	lbu	a0, 13(s1)
	lbu	a3, 12(s1)
	lbu	a5, 14(s1)
	lbu	a4, 15(s1)
	slli	a0, a0, 8
	or	a3, a3, a0
	slli	a5, a5, 16
	slli	a4, a4, 24
	or	a4, a4, a5
	or	a0, a2, a1
	sw	zero, 28(sp)
	sw	zero, 32(sp)
	sw	zero, 36(sp)
	sw	zero, 40(sp)
	or	a1, s0, a6
	or	a2, a4, a3
	addi	a3, sp, 28
	li	a4, 1
	li	a5, 0
	call	aes_small.aes_narrow.blocks.process_all_batches.1
	call	aes_small.aes_cipher.zeroize.stack.wipe_stack.1024
	lw	a1, 28(sp)
	lbu	a7, 32(sp)
	lbu	t0, 33(sp)
	lbu	t1, 34(sp)
	lbu	a6, 35(sp)
	lw	a5, 36(sp)
	lbu	s0, 40(sp)
	lbu	t2, 41(sp)
	lui	a2, 16
	addi	a2, a2, -256
	srli	a3, a1, 8
	srli	a4, a1, 24
	and	a0, a1, a2
	slli	a1, a1, 24
	slli	a7, a7, 24
	slli	t0, t0, 16
	slli	t1, t1, 8
	and	a3, a3, a2
	or	t3, a3, a4
	srli	a4, a5, 8
	slli	a0, a0, 8
	or	t4, a1, a0
	srli	a1, a5, 24
	or	a3, a7, t0
	and	a4, a4, a2
	or	a3, a3, t1
	or	t0, a4, a1
	lbu	a4, 42(sp)
	lbu	t1, 43(sp)
	and	a2, a2, a5
	slli	a5, a5, 24
	slli	s0, s0, 24
	slli	t2, t2, 16
	slli	a4, a4, 8
	slli	a2, a2, 8
	or	a1, s0, t2
	srli	a7, a7, 31
	srli	s0, s0, 31
	or	a2, a2, a5
	or	a1, a1, a4
	or	a4, t4, t3
	or	a5, a3, a6
	or	a2, a2, t0
	or	a0, a1, t1
	sltu	a3, a5, a3
	sltu	a1, a0, a1
	slli	a5, a5, 1
	slli	a0, a0, 1
	add	a3, a3, a4
	add	a1, a1, a2
	slli	a2, a3, 1
	srli	a4, a1, 31
	slli	a1, a1, 1
	srai	a3, a3, 31
	or	s7, a2, a7
	or	s11, a5, a4
	or	s9, a1, s0
	andi	a1, a3, 135
	xor	s6, a0, a1
	sw	zero, 28(sp)
	sw	zero, 32(sp)
	sw	zero, 36(sp)
	sw	zero, 40(sp)
	addi	a0, sp, 28
	addi	s10, sp, 28
	mv	a1, s5
	mv	a2, s3
	call	memcpy
	xori	a0, s3, 16
	or	a0, a0, s4
	bnez	a0, .Laes_small_BB42_2
# %bb.1:                                # %then.1.i
	srli	s3, s6, 24
	slli	t6, s9, 16
	srli	s4, s9, 16
	srli	s5, s9, 24
	slli	t2, s11, 16
	srli	t3, s11, 16
	srli	t4, s11, 24
	slli	a0, s7, 16
	srli	a1, s7, 16
	srli	a2, s7, 24
	lbu	a3, 28(sp)
	lbu	a4, 29(sp)
	lbu	a5, 30(sp)
	lbu	s0, 31(sp)
	srli	a0, a0, 24
	xor	a6, a3, a2
	xor	a7, a4, a1
	xor	t0, a5, a0
	xor	t1, s0, s7
	lbu	a0, 32(sp)
	lbu	a1, 33(sp)
	lbu	a2, 34(sp)
	lbu	a3, 35(sp)
	srli	a4, t2, 24
	xor	t2, a0, t4
	xor	t3, a1, t3
	xor	t4, a2, a4
	xor	t5, a3, s11
	lbu	a0, 36(sp)
	lbu	a1, 37(sp)
	lbu	a2, 38(sp)
	lbu	a5, 39(sp)
	srli	a4, t6, 24
	xor	t6, a0, s5
	xor	s4, a1, s4
	xor	s11, a2, a4
	xor	s5, a5, s9
	lbu	a0, 40(sp)
	lbu	a1, 41(sp)
	lbu	a2, 42(sp)
	lbu	a3, 43(sp)
	xor	s3, a0, s3
	srli	s0, s6, 16
	xor	s0, s0, a1
	slli	a1, s6, 16
	srli	a1, a1, 24
	xor	a5, a2, a1
	xor	a2, a3, s6
	j	.Laes_small_BB42_3
.Laes_small_BB42_2:                               # %else.2.i
	srli	a6, s6, 31
	slli	a2, s9, 1
	srli	a3, s9, 31
	slli	a4, s11, 1
	srli	a5, s11, 31
	slli	s0, s7, 1
	slli	s9, s9, 17
	slli	s11, s11, 17
	slli	a0, s7, 17
	slli	ra, s6, 1
	add	s3, s3, s10
	li	a7, 128
	or	s5, a2, a6
	or	t5, a4, a3
	or	t1, s0, a5
	srli	s9, s9, 24
	srli	s4, a2, 16
	srli	t6, a2, 24
	srli	t4, s11, 24
	srli	t3, a4, 16
	srli	t2, a4, 24
	srli	t0, a0, 24
	srli	a2, s0, 16
	srli	s0, s0, 24
	srli	s10, ra, 24
	sb	a7, 0(s3)
	lbu	a3, 28(sp)
	lbu	a5, 29(sp)
	lbu	a4, 30(sp)
	lbu	a0, 31(sp)
	xor	a6, a3, s0
	xor	a7, a5, a2
	xor	t0, a4, t0
	xor	t1, a0, t1
	lbu	a0, 32(sp)
	lbu	a2, 33(sp)
	lbu	a3, 34(sp)
	lbu	a4, 35(sp)
	xor	t2, a0, t2
	xor	t3, a2, t3
	xor	t4, a3, t4
	xor	t5, a4, t5
	lbu	a0, 36(sp)
	lbu	a2, 37(sp)
	lbu	a3, 38(sp)
	lbu	a5, 39(sp)
	xor	t6, a0, t6
	xor	s4, a2, s4
	xor	s11, a3, s9
	xor	s5, a5, s5
	lbu	a0, 40(sp)
	lbu	a2, 41(sp)
	lbu	a3, 42(sp)
	lbu	a4, 43(sp)
	xor	s3, a0, s10
	srai	s0, s7, 31
	andi	s0, s0, 135
	xor	a1, ra, s0
	srli	s0, ra, 16
	xor	s0, s0, a2
	slli	s6, s6, 17
	srli	a5, s6, 24
	xor	a5, a5, a3
	xor	a2, a4, a1
.Laes_small_BB42_3:                               # %"cmac::tags::last_block::<#4f733d09d7f6c6b4>.exit"
	lbu	a1, 15(s8)
	lbu	a3, 14(s8)
	lbu	a4, 13(s8)
	lbu	a0, 12(s8)
	xor	s6, a1, a2
	xor	s7, a3, a5
	xor	s9, a4, s0
	xor	s3, a0, s3
	lbu	a2, 11(s8)
	lbu	a5, 10(s8)
	lbu	s0, 9(s8)
	lbu	a1, 8(s8)
	xor	s5, a2, s5
	xor	s10, a5, s11
	xor	s4, s0, s4
	xor	t6, a1, t6
	lbu	a3, 7(s8)
	lbu	a4, 6(s8)
	lbu	a0, 5(s8)
	lbu	a2, 4(s8)
	xor	t5, a3, t5
	xor	a4, a4, t4
	xor	a0, a0, t3
	xor	a2, a2, t2
	lbu	a5, 3(s8)
	lbu	s0, 2(s8)
	lbu	a1, 1(s8)
	lbu	a3, 0(s8)
	xor	a5, a5, t1
	xor	s0, s0, t0
	xor	a1, a1, a7
	xor	a3, a3, a6
	sb	a3, 12(sp)
	sb	a1, 13(sp)
	sb	s0, 14(sp)
	sb	a5, 15(sp)
	sb	a2, 16(sp)
	sb	a0, 17(sp)
	sb	a4, 18(sp)
	sb	t5, 19(sp)
	sb	t6, 20(sp)
	sb	s4, 21(sp)
	sb	s10, 22(sp)
	sb	s5, 23(sp)
	sb	s3, 24(sp)
	lbu	a0, 1(s1)
	lbu	a1, 0(s1)
	lbu	a2, 2(s1)
	lbu	a3, 3(s1)
	slli	a0, a0, 8
	sb	s9, 25(sp)
	sb	s7, 26(sp)
	sb	s6, 27(sp)
	or	a0, a0, a1
	lbu	a1, 8(s1)
	lbu	a4, 9(s1)
	lbu	a5, 10(s1)
	lbu	s0, 11(s1)
	slli	a2, a2, 16
	slli	a3, a3, 24
	slli	a4, a4, 8
	slli	a5, a5, 16
	slli	s0, s0, 24
	or	a2, a2, a3
	or	a1, a1, a4
	or	a5, a5, s0
	lbu	a3, 13(s1)
	lbu	a4, 12(s1)
	lbu	s0, 14(s1)
	lbu	s1, 15(s1)
	slli	a3, a3, 8
	or	a3, a3, a4
	slli	s0, s0, 16
	slli	s1, s1, 24
	or	s0, s0, s1
	or	a0, a0, a2
	or	a1, a1, a5
	or	a2, s0, a3
	addi	a3, sp, 12
	li	a4, 1
	li	a5, 0
	call	aes_small.aes_narrow.blocks.process_all_batches.1
	call	aes_small.aes_cipher.zeroize.stack.wipe_stack.1024
	addi	a1, sp, 12
	li	a2, 16
	mv	a0, s2
	call	memcpy
	lw	ra, 92(sp)                      # 4-byte Folded Reload
	lw	s0, 88(sp)                      # 4-byte Folded Reload
	lw	s1, 84(sp)                      # 4-byte Folded Reload
	lw	s2, 80(sp)                      # 4-byte Folded Reload
	lw	s3, 76(sp)                      # 4-byte Folded Reload
	lw	s4, 72(sp)                      # 4-byte Folded Reload
	lw	s5, 68(sp)                      # 4-byte Folded Reload
	lw	s6, 64(sp)                      # 4-byte Folded Reload
	lw	s7, 60(sp)                      # 4-byte Folded Reload
	lw	s8, 56(sp)                      # 4-byte Folded Reload
	lw	s9, 52(sp)                      # 4-byte Folded Reload
	lw	s10, 48(sp)                     # 4-byte Folded Reload
	lw	s11, 44(sp)                     # 4-byte Folded Reload
	addi	sp, sp, 96
	ret
.Laes_small_func_end42:
	.size	aes_small.cmac.tags.tag_at_end, .Laes_small_func_end42-aes_small.cmac.tags.tag_at_end
                                        # -- End function
	.section	.text.aes_small.cmac.pieces.MessageZeroize.zeroize,"ax",@progbits
	.p2align	1                               # -- Begin function cmac::pieces::MessageZeroize::zeroize
	.type	aes_small.cmac.pieces.MessageZeroize.zeroize,@function
aes_small.cmac.pieces.MessageZeroize.zeroize: # @aes_small.cmac.pieces.MessageZeroize.zeroize
# %bb.0:                                # %start
	addi	sp, sp, -16
	sw	ra, 12(sp)                      # 4-byte Folded Spill
	sw	s0, 8(sp)                       # 4-byte Folded Spill
	mv	s0, a0
	addi	a0, a0, 16
	sw	zero, 0(s0)
	sw	zero, 4(s0)
	sw	zero, 8(s0)
	sw	zero, 12(s0)
	call	aes_small.aes_cipher.zeroize.elements.zeroize_elements.2
	addi	a0, s0, 32
	lw	ra, 12(sp)                      # 4-byte Folded Reload
	lw	s0, 8(sp)                       # 4-byte Folded Reload
	addi	sp, sp, 16
	tail	aes_small.aes_cipher.zeroize.elements.zeroize_elements.2
.Laes_small_func_end43:
	.size	aes_small.cmac.pieces.MessageZeroize.zeroize, .Laes_small_func_end43-aes_small.cmac.pieces.MessageZeroize.zeroize
                                        # -- End function
	.section	.text.aes_small.aes_cipher.zeroize.elements.zeroize_elements.2,"ax",@progbits
	.p2align	1                               # -- Begin function aes_cipher::zeroize::elements::zeroize_elements::<#331496ca003a3905>
	.type	aes_small.aes_cipher.zeroize.elements.zeroize_elements.2,@function
aes_small.aes_cipher.zeroize.elements.zeroize_elements.2: # @aes_small.aes_cipher.zeroize.elements.zeroize_elements.2
# %bb.0:                                # %start
	addi	sp, sp, -16
	sw	ra, 12(sp)                      # 4-byte Folded Spill
	sw	zero, 0(sp)
	sw	zero, 4(sp)
	#APP
	#NO_APP
	lw	zero, 4(sp)
	lw	zero, 0(sp)
	#APP
	#NO_APP
	li	a2, 16
	li	a1, 0
	call	memset
	#APP
	#NO_APP
	lw	zero, 4(sp)
	lw	zero, 0(sp)
	sw	zero, 4(sp)
	sw	zero, 0(sp)
	#APP
	#NO_APP
	lw	ra, 12(sp)                      # 4-byte Folded Reload
	addi	sp, sp, 16
	li	a1, 0
	li	a2, 0
	li	a3, 0
	li	a4, 0
	li	a5, 0
	li	a6, 0
	li	a7, 0
	li	t0, 0
	li	t1, 0
	li	t2, 0
	li	t3, 0
	li	t4, 0
	li	t5, 0
	li	t6, 0
	ret
.Laes_small_func_end44:
	.size	aes_small.aes_cipher.zeroize.elements.zeroize_elements.2, .Laes_small_func_end44-aes_small.aes_cipher.zeroize.elements.zeroize_elements.2
                                        # -- End function
	.section	.text.aes_small.cmac.chain_in_pieces.ChainInPieces.extend,"ax",@progbits
	.p2align	1                               # -- Begin function cmac::chain_in_pieces::ChainInPieces::extend::<#4f733d09d7f6c6b4>
	.type	aes_small.cmac.chain_in_pieces.ChainInPieces.extend,@function
aes_small.cmac.chain_in_pieces.ChainInPieces.extend: # @aes_small.cmac.chain_in_pieces.ChainInPieces.extend
# %bb.0:                                # %start
	addi	sp, sp, -96
	sw	ra, 92(sp)                      # 4-byte Folded Spill
	sw	s0, 88(sp)                      # 4-byte Folded Spill
	sw	s1, 84(sp)                      # 4-byte Folded Spill
	sw	s2, 80(sp)                      # 4-byte Folded Spill
	sw	s3, 76(sp)                      # 4-byte Folded Spill
	sw	s4, 72(sp)                      # 4-byte Folded Spill
	sw	s5, 68(sp)                      # 4-byte Folded Spill
	sw	s6, 64(sp)                      # 4-byte Folded Spill
	sw	s7, 60(sp)                      # 4-byte Folded Spill
	sw	s8, 56(sp)                      # 4-byte Folded Spill
	sw	s9, 52(sp)                      # 4-byte Folded Spill
	sw	s10, 48(sp)                     # 4-byte Folded Spill
	sw	s11, 44(sp)                     # 4-byte Folded Spill
	mv	s0, a0
	lw	a0, 4(a0)
	lw	a5, 0(s0)
	seqz	a0, a0
	addi	a0, a0, -1
	or	a5, a5, a0
	li	a0, 16
	mv	s4, a1
	bltu	a5, a0, .Laes_small_BB45_2
# %bb.1:                                # %start
	li	a5, 16
.Laes_small_BB45_2:                               # %start
	sltiu	a1, a5, 17
	addi	t0, a1, -1
	sub	a6, a0, a5
	beq	a4, t0, .Laes_small_BB45_7
# %bb.3:                                # %start
	sltu	a0, t0, a4
	bnez	a0, .Laes_small_BB45_8
.Laes_small_BB45_4:                               # %then.1
	add	s2, a5, a3
	add	a0, s0, a5
	addi	a0, a0, 24
	sltu	a1, a0, a2
	neg	a1, a1
	sltu	s5, s2, a5
	beq	a1, a4, .Laes_small_BB45_10
# %bb.5:                                # %then.1
	sltu	a1, a1, a4
	add	s5, s5, a4
	bnez	a1, .Laes_small_BB45_11
.Laes_small_BB45_6:                               # %apart.2.i.i.i.i.i.i
	mv	a1, a2
	mv	a2, a3
	j	.Laes_small_BB45_34
.Laes_small_BB45_7:
	sltu	a0, a6, a3
	beqz	a0, .Laes_small_BB45_4
.Laes_small_BB45_8:                               # %join.3
	sltu	a7, a3, a6
	addi	a0, s0, 24
	add	a0, a0, a5
	sltu	a5, a0, a2
	neg	a5, a5
	sub	a4, a4, t0
	beq	a5, t0, .Laes_small_BB45_15
# %bb.9:                                # %join.3
	sltu	a5, a5, t0
	j	.Laes_small_BB45_16
.Laes_small_BB45_10:
	sub	a1, a0, a2
	sltu	a1, a1, a3
	add	s5, s5, a4
	beqz	a1, .Laes_small_BB45_6
.Laes_small_BB45_11:                              # %join.7.i.i.i.i.i.i.preheader
	li	s1, 0
	li	a7, 0
	j	.Laes_small_BB45_13
.Laes_small_BB45_12:                              #   in Loop: Header=BB45_13 Depth=1
	sltu	a1, s1, a3
	beqz	a1, .Laes_small_BB45_35
.Laes_small_BB45_13:                              # %join.7.i.i.i.i.i.i
                                        # =>This Inner Loop Header: Depth=1
	add	a6, a0, s1
	add	a1, a2, s1
	lbu	a1, 0(a1)
	addi	s1, s1, 1
	seqz	a5, s1
	add	a7, a7, a5
	sb	a1, 0(a6)
	beq	a7, a4, .Laes_small_BB45_12
# %bb.14:                               # %join.7.i.i.i.i.i.i
                                        #   in Loop: Header=BB45_13 Depth=1
	sltu	a1, a7, a4
	bnez	a1, .Laes_small_BB45_13
	j	.Laes_small_BB45_35
.Laes_small_BB45_15:
	sub	a5, a0, a2
	sltu	a5, a5, a6
.Laes_small_BB45_16:                              # %join.3
	add	a1, a2, a6
	sw	a1, 24(sp)                      # 4-byte Folded Spill
	sub	s3, a4, a7
	sub	s5, a3, a6
	beqz	a5, .Laes_small_BB45_21
# %bb.17:                               # %join.7.i.i.i.i.i.i39.preheader
	li	a5, 0
	li	s1, 0
	j	.Laes_small_BB45_19
.Laes_small_BB45_18:                              # %join.7.i.i.i.i.i.i39
                                        #   in Loop: Header=BB45_19 Depth=1
	sltu	a3, s1, t0
	beqz	a3, .Laes_small_BB45_22
.Laes_small_BB45_19:                              # %join.7.i.i.i.i.i.i39
                                        # =>This Inner Loop Header: Depth=1
	add	a1, a0, a5
	add	a3, a2, a5
	lbu	a3, 0(a3)
	addi	a5, a5, 1
	seqz	a4, a5
	add	s1, s1, a4
	sb	a3, 0(a1)
	bne	s1, t0, .Laes_small_BB45_18
# %bb.20:                               #   in Loop: Header=BB45_19 Depth=1
	sltu	a3, a5, a6
	bnez	a3, .Laes_small_BB45_19
	j	.Laes_small_BB45_22
.Laes_small_BB45_21:                              # %apart.2.i.i.i.i.i.i37
	mv	a1, a2
	mv	a2, a6
	call	memmove
.Laes_small_BB45_22:                              # %"core::slice::edits::slice+T::copy_from_slice::<i8,20'core::clone::U8Clone{}>.exit46"
	seqz	a0, s5
	addi	s2, s5, -1
	lbu	a6, 28(s0)
	lbu	a7, 29(s0)
	lbu	t0, 30(s0)
	lbu	t1, 31(s0)
	lbu	t2, 32(s0)
	lbu	t3, 33(s0)
	lbu	t4, 34(s0)
	lbu	t5, 35(s0)
	lbu	t6, 36(s0)
	lbu	s6, 37(s0)
	lbu	s10, 38(s0)
	lbu	s11, 39(s0)
	lbu	a1, 20(s0)
	lbu	a2, 21(s0)
	lbu	a3, 22(s0)
	lbu	a4, 23(s0)
	sub	s9, s3, a0
	andi	s8, s2, -16
	sw	s5, 16(sp)                      # 4-byte Folded Spill
	sltu	a5, s5, s8
	sub	s5, a0, a5
	lbu	s3, 16(s0)
	lbu	a5, 17(s0)
	lbu	s1, 18(s0)
	lbu	a0, 19(s0)
	xor	s11, s11, a4
	xor	s10, s10, a3
	xor	s6, s6, a2
	xor	t6, t6, a1
	lbu	ra, 12(s0)
	lbu	a3, 13(s0)
	lbu	a2, 14(s0)
	lbu	a1, 15(s0)
	xor	t5, t5, a0
	xor	t4, t4, s1
	xor	t3, t3, a5
	xor	t2, t2, s3
	lbu	s3, 24(s0)
	lbu	a5, 25(s0)
	lbu	a0, 26(s0)
	lbu	a4, 27(s0)
	xor	t1, t1, a1
	xor	t0, t0, a2
	xor	a7, a7, a3
	xor	a6, a6, ra
	lbu	a2, 11(s0)
	lbu	a3, 10(s0)
	lbu	s1, 9(s0)
	lbu	a1, 8(s0)
	xor	a2, a2, a4
	xor	a0, a0, a3
	xor	a5, a5, s1
	xor	a1, s3, a1
	sb	a1, 8(s0)
	sb	a5, 9(s0)
	sb	a0, 10(s0)
	sb	a2, 11(s0)
	sb	a6, 12(s0)
	sb	a7, 13(s0)
	sb	t0, 14(s0)
	sb	t1, 15(s0)
	sb	t2, 16(s0)
	sb	t3, 17(s0)
	sb	t4, 18(s0)
	sb	t5, 19(s0)
	sb	t6, 20(s0)
	sb	s6, 21(s0)
	sb	s10, 22(s0)
	sb	s11, 23(s0)
	lbu	a6, 0(s4)
	lbu	a1, 1(s4)
	lbu	a2, 2(s4)
	lbu	a3, 3(s4)
	lbu	a4, 8(s4)
	lbu	a5, 9(s4)
	lbu	s1, 10(s4)
	lbu	a0, 11(s4)
	slli	a1, a1, 8
	slli	a2, a2, 16
	slli	a3, a3, 24
	slli	a5, a5, 8
	slli	s1, s1, 16
	slli	a0, a0, 24
	or	a6, a1, a6
	or	a2, a2, a3
	or	a4, a4, a5
	or	s1, s1, a0
	lbu	a0, 13(s4)
	lbu	a3, 12(s4)
	lbu	a5, 14(s4)
	lbu	a1, 15(s4)
	slli	a0, a0, 8
	or	a3, a3, a0
	slli	a5, a5, 16
	slli	a1, a1, 24
	or	a5, a5, a1
	or	a0, a2, a6
	or	a1, s1, a4
	lw	a2, 24(sp)                      # 4-byte Folded Reload
	add	a2, a2, s8
	sw	a2, 12(sp)                      # 4-byte Folded Spill
	or	a2, a5, a3
	addi	a3, s0, 8
	li	a4, 1
	li	a5, 0
	call	aes_small.aes_narrow.blocks.process_all_batches.1
	call	aes_small.aes_cipher.zeroize.stack.wipe_stack.1024
	or	a0, s8, s9
	beqz	a0, .Laes_small_BB45_31
# %bb.23:                               # %join.5.i.preheader
	li	s10, 0
	li	s11, 0
	slli	a0, s9, 28
	srli	a1, s2, 4
	or	a0, a0, a1
	sw	a0, 20(sp)                      # 4-byte Folded Spill
	srli	s2, s9, 4
	j	.Laes_small_BB45_25
.Laes_small_BB45_24:                              # %join.5.i
                                        #   in Loop: Header=BB45_25 Depth=1
	sltu	a0, s11, s2
	beqz	a0, .Laes_small_BB45_31
.Laes_small_BB45_25:                              # %join.5.i
                                        # =>This Inner Loop Header: Depth=1
	srli	a1, s10, 28
	slli	a2, s11, 4
	slli	a0, s10, 4
	or	a1, a1, a2
	addi	a2, a0, 16
	sltu	a3, a2, a0
	add	a1, a1, a3
	beq	a1, s9, .Laes_small_BB45_27
# %bb.26:                               # %join.5.i
                                        #   in Loop: Header=BB45_25 Depth=1
	sltu	a1, a1, s9
	beqz	a1, .Laes_small_BB45_28
	j	.Laes_small_BB45_29
.Laes_small_BB45_27:                              #   in Loop: Header=BB45_25 Depth=1
	sltu	a1, a2, s8
	bnez	a1, .Laes_small_BB45_29
.Laes_small_BB45_28:                              # %join.5.i
                                        #   in Loop: Header=BB45_25 Depth=1
	mv	a2, s8
.Laes_small_BB45_29:                              # %join.5.i
                                        #   in Loop: Header=BB45_25 Depth=1
	lw	a1, 24(sp)                      # 4-byte Folded Reload
	add	a1, a1, a0
	sub	a2, a2, a0
	sw	zero, 28(sp)
	sw	zero, 32(sp)
	sw	zero, 36(sp)
	sw	zero, 40(sp)
	addi	a0, sp, 28
	call	memcpy
	lbu	a6, 12(s0)
	lbu	a7, 13(s0)
	lbu	t0, 14(s0)
	lbu	t1, 15(s0)
	lbu	t2, 16(s0)
	lbu	t3, 17(s0)
	lbu	t4, 18(s0)
	lbu	t5, 19(s0)
	lbu	t6, 20(s0)
	lbu	ra, 21(s0)
	lbu	a3, 22(s0)
	lbu	a4, 23(s0)
	lbu	a5, 40(sp)
	lbu	s1, 41(sp)
	lbu	a0, 42(sp)
	lbu	a1, 43(sp)
	lbu	a2, 36(sp)
	lbu	s6, 37(sp)
	lbu	s7, 38(sp)
	lbu	s3, 39(sp)
	xor	a1, a1, a4
	xor	a0, a0, a3
	xor	ra, s1, ra
	xor	t6, a5, t6
	lbu	a5, 32(sp)
	lbu	s1, 33(sp)
	lbu	a3, 34(sp)
	lbu	a4, 35(sp)
	xor	t5, s3, t5
	xor	t4, s7, t4
	xor	t3, s6, t3
	xor	t2, a2, t2
	lbu	s3, 8(s0)
	lbu	s6, 9(s0)
	lbu	s7, 10(s0)
	lbu	a2, 11(s0)
	xor	t1, a4, t1
	xor	t0, a3, t0
	xor	a7, s1, a7
	xor	a6, a5, a6
	lbu	a4, 31(sp)
	lbu	a3, 30(sp)
	lbu	s1, 29(sp)
	lbu	a5, 28(sp)
	xor	a2, a2, a4
	xor	a3, a3, s7
	xor	a4, s1, s6
	xor	a5, a5, s3
	sb	a5, 8(s0)
	sb	a4, 9(s0)
	sb	a3, 10(s0)
	sb	a2, 11(s0)
	sb	a6, 12(s0)
	sb	a7, 13(s0)
	sb	t0, 14(s0)
	sb	t1, 15(s0)
	sb	t2, 16(s0)
	sb	t3, 17(s0)
	sb	t4, 18(s0)
	sb	t5, 19(s0)
	sb	t6, 20(s0)
	sb	ra, 21(s0)
	sb	a0, 22(s0)
	sb	a1, 23(s0)
	lbu	a6, 0(s4)
	lbu	a1, 1(s4)
	lbu	a2, 2(s4)
	lbu	a3, 3(s4)
	lbu	a4, 8(s4)
	lbu	a5, 9(s4)
	lbu	s1, 10(s4)
	lbu	a0, 11(s4)
	slli	a1, a1, 8
	slli	a2, a2, 16
	slli	a3, a3, 24
	slli	a5, a5, 8
	slli	s1, s1, 16
	slli	a0, a0, 24
	or	a6, a1, a6
	or	a2, a2, a3
	or	a4, a4, a5
	or	s1, s1, a0
	lbu	a0, 13(s4)
	lbu	a3, 12(s4)
	lbu	a5, 14(s4)
	lbu	a1, 15(s4)
	slli	a0, a0, 8
	or	a3, a3, a0
	slli	a5, a5, 16
	slli	a1, a1, 24
	or	a5, a5, a1
	or	a0, a2, a6
	or	a1, s1, a4
	or	a2, a5, a3
	li	a4, 1
	addi	a3, s0, 8
	li	a5, 0
	call	aes_small.aes_narrow.blocks.process_all_batches.1
	call	aes_small.aes_cipher.zeroize.stack.wipe_stack.1024
	addi	s10, s10, 1
	seqz	a0, s10
	add	s11, s11, a0
	bne	s11, s2, .Laes_small_BB45_24
# %bb.30:                               #   in Loop: Header=BB45_25 Depth=1
	lw	a0, 20(sp)                      # 4-byte Folded Reload
	sltu	a0, s10, a0
	bnez	a0, .Laes_small_BB45_25
.Laes_small_BB45_31:                              # %"cmac::chaining::chain::<#4f733d09d7f6c6b4>.exit"
	addi	a0, s0, 24
	lw	a1, 12(sp)                      # 4-byte Folded Reload
	sltu	a2, a0, a1
	neg	a3, a2
	lw	a2, 16(sp)                      # 4-byte Folded Reload
	sub	s2, a2, s8
	beq	a3, s5, .Laes_small_BB45_36
# %bb.32:                               # %"cmac::chaining::chain::<#4f733d09d7f6c6b4>.exit"
	sltu	a2, a3, s5
	bnez	a2, .Laes_small_BB45_37
.Laes_small_BB45_33:                              # %apart.2.i.i.i.i.i.i179
	mv	a2, s2
.Laes_small_BB45_34:                              # %common.ret
	call	memmove
.Laes_small_BB45_35:                              # %common.ret
	sw	s2, 0(s0)
	sw	s5, 4(s0)
	lw	ra, 92(sp)                      # 4-byte Folded Reload
	lw	s0, 88(sp)                      # 4-byte Folded Reload
	lw	s1, 84(sp)                      # 4-byte Folded Reload
	lw	s2, 80(sp)                      # 4-byte Folded Reload
	lw	s3, 76(sp)                      # 4-byte Folded Reload
	lw	s4, 72(sp)                      # 4-byte Folded Reload
	lw	s5, 68(sp)                      # 4-byte Folded Reload
	lw	s6, 64(sp)                      # 4-byte Folded Reload
	lw	s7, 60(sp)                      # 4-byte Folded Reload
	lw	s8, 56(sp)                      # 4-byte Folded Reload
	lw	s9, 52(sp)                      # 4-byte Folded Reload
	lw	s10, 48(sp)                     # 4-byte Folded Reload
	lw	s11, 44(sp)                     # 4-byte Folded Reload
	addi	sp, sp, 96
	ret
.Laes_small_BB45_36:
	sub	a2, a0, a1
	sltu	a2, a2, s2
	beqz	a2, .Laes_small_BB45_33
.Laes_small_BB45_37:                              # %join.7.i.i.i.i.i.i181.preheader
	li	a5, 0
	li	s1, 0
	j	.Laes_small_BB45_39
.Laes_small_BB45_38:                              #   in Loop: Header=BB45_39 Depth=1
	sltu	a2, a5, s2
	beqz	a2, .Laes_small_BB45_35
.Laes_small_BB45_39:                              # %join.7.i.i.i.i.i.i181
                                        # =>This Inner Loop Header: Depth=1
	add	a2, a0, a5
	add	a3, a1, a5
	lbu	a3, 0(a3)
	addi	a5, a5, 1
	seqz	a4, a5
	add	s1, s1, a4
	sb	a3, 0(a2)
	beq	s1, s5, .Laes_small_BB45_38
# %bb.40:                               # %join.7.i.i.i.i.i.i181
                                        #   in Loop: Header=BB45_39 Depth=1
	sltu	a2, s1, s5
	bnez	a2, .Laes_small_BB45_39
	j	.Laes_small_BB45_35
.Laes_small_func_end45:
	.size	aes_small.cmac.chain_in_pieces.ChainInPieces.extend, .Laes_small_func_end45-aes_small.cmac.chain_in_pieces.ChainInPieces.extend
                                        # -- End function
	.section	.text.aes_small.key_wrap.wrapping.wrap,"ax",@progbits
	.p2align	1                               # -- Begin function key_wrap::wrapping::wrap::<#4f733d09d7f6c6b4>
	.type	aes_small.key_wrap.wrapping.wrap,@function
aes_small.key_wrap.wrapping.wrap: # @aes_small.key_wrap.wrapping.wrap
# %bb.0:                                # %start
	addi	sp, sp, -96
	sw	ra, 92(sp)                      # 4-byte Folded Spill
	sw	s0, 88(sp)                      # 4-byte Folded Spill
	sw	s1, 84(sp)                      # 4-byte Folded Spill
	sw	s2, 80(sp)                      # 4-byte Folded Spill
	sw	s3, 76(sp)                      # 4-byte Folded Spill
	sw	s4, 72(sp)                      # 4-byte Folded Spill
	sw	s5, 68(sp)                      # 4-byte Folded Spill
	sw	s6, 64(sp)                      # 4-byte Folded Spill
	sw	s7, 60(sp)                      # 4-byte Folded Spill
	sw	s8, 56(sp)                      # 4-byte Folded Spill
	sw	s9, 52(sp)                      # 4-byte Folded Spill
	sw	s10, 48(sp)                     # 4-byte Folded Spill
	sw	s11, 44(sp)                     # 4-byte Folded Spill
	mv	s4, a4
	mv	s11, a0
	sltiu	a0, a2, 2
	seqz	a4, a3
	and	a4, a4, a0
	li	a0, 1
	bnez	a4, .Laes_small_BB46_17
# %bb.1:                                # %start
	addi	a4, a2, 1
	seqz	s1, a4
	add	s1, s1, a3
	xor	a4, a4, a5
	xor	s1, a6, s1
	or	a4, a4, s1
	bnez	a4, .Laes_small_BB46_17
# %bb.2:                                # %arm.12
	addi	s0, s4, 8
	li	a0, 166
	srli	a4, a2, 29
	slli	s1, a3, 3
	sb	a0, 4(s4)
	sb	a0, 5(s4)
	sb	a0, 6(s4)
	sb	a0, 7(s4)
	sb	a0, 0(s4)
	sb	a0, 1(s4)
	sb	a0, 2(s4)
	sb	a0, 3(s4)
	or	a0, s1, a4
	sltu	a4, s0, a1
	neg	s1, a4
	slli	a4, a2, 3
	beq	s1, a0, .Laes_small_BB46_5
# %bb.3:                                # %arm.12
	sltu	a0, s1, a0
	seqz	s2, a5
	bnez	a0, .Laes_small_BB46_6
.Laes_small_BB46_4:                               # %apart.2.i.i.i.i.i.i
	mv	a0, s0
	mv	a2, a4
	mv	s3, a5
	mv	s1, a6
	call	memmove
	mv	a6, s1
	mv	a5, s3
	lui	a2, 682602
	addi	a7, a2, 1702
	mv	t0, a7
	j	.Laes_small_BB46_11
.Laes_small_BB46_5:
	sub	a0, s0, a1
	sltu	a0, a0, a4
	seqz	s2, a5
	beqz	a0, .Laes_small_BB46_4
.Laes_small_BB46_6:                               # %join.7.i.i.i.i.i.i.preheader
	li	t0, 0
	li	a7, 0
	j	.Laes_small_BB46_8
.Laes_small_BB46_7:                               # %join.7.i.i.i.i.i.i
                                        #   in Loop: Header=BB46_8 Depth=1
	sltu	s1, a7, a3
	beqz	s1, .Laes_small_BB46_10
.Laes_small_BB46_8:                               # %join.7.i.i.i.i.i.i
                                        # =>This Inner Loop Header: Depth=1
	slli	a4, t0, 3
	addi	t0, t0, 1
	add	a0, s0, a4
	add	a4, a4, a1
	seqz	s1, t0
	lbu	t1, 0(a4)
	lbu	t2, 1(a4)
	lbu	t3, 2(a4)
	lbu	t4, 3(a4)
	add	a7, a7, s1
	lbu	s1, 4(a4)
	lbu	t5, 5(a4)
	lbu	t6, 6(a4)
	lbu	a4, 7(a4)
	sb	s1, 4(a0)
	sb	t5, 5(a0)
	sb	t6, 6(a0)
	sb	a4, 7(a0)
	sb	t1, 0(a0)
	sb	t2, 1(a0)
	sb	t3, 2(a0)
	sb	t4, 3(a0)
	bne	a7, a3, .Laes_small_BB46_7
# %bb.9:                                #   in Loop: Header=BB46_8 Depth=1
	sltu	s1, t0, a2
	bnez	s1, .Laes_small_BB46_8
.Laes_small_BB46_10:                              # %"core::slice::edits::slice+T::copy_from_slice::<#76f67ba6cf9709da>.exit.loopexit"
	lbu	a0, 5(s4)
	lbu	a1, 6(s4)
	lbu	a2, 7(s4)
	lbu	a3, 4(s4)
	slli	a0, a0, 8
	slli	a1, a1, 16
	slli	a2, a2, 24
	or	a0, a0, a3
	or	a1, a1, a2
	lbu	a2, 1(s4)
	lbu	a3, 0(s4)
	lbu	a4, 2(s4)
	lbu	s1, 3(s4)
	slli	a2, a2, 8
	or	a2, a2, a3
	slli	a4, a4, 16
	slli	s1, s1, 24
	or	a4, a4, s1
	or	t0, a1, a0
	or	a7, a4, a2
.Laes_small_BB46_11:                              # %"core::slice::edits::slice+T::copy_from_slice::<#76f67ba6cf9709da>.exit"
	li	a1, 0
	li	a3, 0
	sub	s3, a6, s2
	addi	a5, a5, -1
	sw	a5, 16(sp)                      # 4-byte Folded Spill
	j	.Laes_small_BB46_13
.Laes_small_BB46_12:                              # %"key_wrap::steps::wrap_turn::<#4f733d09d7f6c6b4>.exit.i.loopexit"
                                        #   in Loop: Header=BB46_13 Depth=1
	lw	a1, 8(sp)                       # 4-byte Folded Reload
	sltiu	a0, a1, 5
	addi	a1, a1, 1
	lw	a4, 12(sp)                      # 4-byte Folded Reload
	seqz	a2, a4
	seqz	a3, a1
	add	a3, a3, a4
	and	a0, a0, a2
	beqz	a0, .Laes_small_BB46_17
.Laes_small_BB46_13:                              # %join.5.i
                                        # =>This Loop Header: Depth=1
                                        #     Child Loop BB46_15 Depth 2
	li	s5, 0
	li	s8, 0
	lw	a2, 16(sp)                      # 4-byte Folded Reload
	mulhu	a0, a1, a2
	mul	a5, a1, s3
	sw	a3, 12(sp)                      # 4-byte Folded Spill
	mul	a4, a3, a2
	add	a0, a0, a5
	sw	a1, 8(sp)                       # 4-byte Folded Spill
	mul	s9, a1, a2
	addi	s9, s9, 1
	add	a0, a0, a4
	seqz	s10, s9
	add	a0, a0, s10
	sw	a0, 20(sp)                      # 4-byte Folded Spill
	j	.Laes_small_BB46_15
.Laes_small_BB46_14:                              # %join.5.i.i
                                        #   in Loop: Header=BB46_15 Depth=2
	sltu	a0, s8, s3
	mv	s0, s10
	beqz	a0, .Laes_small_BB46_12
.Laes_small_BB46_15:                              # %join.5.i.i
                                        #   Parent Loop BB46_13 Depth=1
                                        # =>  This Inner Loop Header: Depth=2
	slli	s2, s5, 3
	add	s7, s9, s5
	lw	s6, 20(sp)                      # 4-byte Folded Reload
	add	s6, s6, s8
	lbu	a0, 0(s11)
	lbu	a1, 1(s11)
	lbu	t1, 2(s11)
	lbu	t3, 3(s11)
	lbu	a6, 8(s11)
	lbu	a2, 9(s11)
	lbu	a3, 10(s11)
	lbu	s1, 11(s11)
	sltu	a4, s7, s9
	add	s6, s6, a4
	slli	a1, a1, 8
	or	t2, a1, a0
	lbu	a1, 12(s11)
	lbu	a4, 13(s11)
	lbu	t4, 14(s11)
	lbu	a5, 15(s11)
	mv	s10, s0
	add	s2, s2, s0
	slli	t1, t1, 16
	slli	t3, t3, 24
	slli	a2, a2, 8
	slli	a3, a3, 16
	slli	s1, s1, 24
	slli	a4, a4, 8
	or	s0, t3, t1
	or	t3, a2, a6
	or	a3, a3, s1
	or	a6, a4, a1
	lbu	s1, 0(s2)
	lbu	a1, 1(s2)
	lbu	a4, 2(s2)
	lbu	a0, 3(s2)
	slli	t4, t4, 16
	slli	a5, a5, 24
	or	t1, a5, t4
	slli	a5, a1, 8
	slli	a4, a4, 16
	slli	a2, a0, 24
	or	a0, s0, t2
	or	a1, a3, t3
	or	a5, a5, s1
	or	a2, a2, a4
	lbu	a3, 5(s2)
	lbu	a4, 4(s2)
	lbu	s1, 6(s2)
	lbu	s0, 7(s2)
	slli	a3, a3, 8
	or	a3, a3, a4
	slli	s1, s1, 16
	slli	s0, s0, 24
	or	s0, s0, s1
	or	a2, a2, a5
	or	a3, a3, s0
	sw	a7, 24(sp)
	sw	t0, 28(sp)
	sw	a2, 32(sp)
	sw	a3, 36(sp)
	or	a2, t1, a6
	addi	a3, sp, 24
	li	a4, 1
	li	a5, 0
	call	aes_small.aes_narrow.blocks.process_all_batches.1
	call	aes_small.aes_cipher.zeroize.stack.wipe_stack.1024
	lw	t6, 24(sp)
	lw	ra, 28(sp)
	lw	t3, 32(sp)
	lw	t5, 36(sp)
	srli	t2, s6, 8
	lui	a6, 16
	srli	t1, s6, 24
	slli	a7, s6, 24
	srli	a5, s7, 8
	srli	t4, s7, 24
	slli	t0, s7, 24
	addi	s5, s5, 1
	addi	s1, a6, -256
	seqz	a4, s5
	and	a0, t2, s1
	and	s0, s6, s1
	and	a5, a5, s1
	and	s1, s7, s1
	add	s8, s8, a4
	or	a6, a0, t1
	slli	s0, s0, 8
	or	t1, a5, t4
	slli	s1, s1, 8
	srli	a5, ra, 24
	srli	a3, ra, 16
	srli	a1, ra, 8
	srli	a0, t6, 24
	srli	a4, t6, 16
	srli	a2, t6, 8
	srli	t2, t5, 16
	or	a7, a7, s0
	srli	s0, t5, 24
	or	t0, t0, s1
	srli	s1, t5, 8
	sb	ra, 4(s4)
	sb	a1, 5(s4)
	sb	a3, 6(s4)
	sb	a5, 7(s4)
	srli	a1, t3, 16
	sb	t6, 0(s4)
	sb	a2, 1(s4)
	sb	a4, 2(s4)
	sb	a0, 3(s4)
	srli	a0, t3, 24
	sb	t5, 4(s2)
	sb	s1, 5(s2)
	sb	t2, 6(s2)
	sb	s0, 7(s2)
	srli	a2, t3, 8
	sb	t3, 0(s2)
	sb	a2, 1(s2)
	sb	a1, 2(s2)
	sb	a0, 3(s2)
	or	a6, a7, a6
	or	a1, t0, t1
	lbu	a2, 5(s4)
	lbu	a3, 4(s4)
	lbu	a4, 6(s4)
	lbu	a5, 7(s4)
	slli	a2, a2, 8
	or	a2, a2, a3
	lbu	a3, 0(s4)
	lbu	s1, 1(s4)
	lbu	s0, 2(s4)
	lbu	a0, 3(s4)
	slli	a4, a4, 16
	slli	a5, a5, 24
	or	a4, a4, a5
	slli	s1, s1, 8
	slli	s0, s0, 16
	slli	a0, a0, 24
	or	a3, a3, s1
	or	a0, a0, s0
	or	a2, a2, a4
	or	a0, a0, a3
	xor	a7, a0, a6
	xor	t0, a2, a1
	srli	a0, a7, 16
	srli	a1, a7, 24
	srli	a2, a7, 8
	srli	a3, t0, 16
	srli	a4, t0, 24
	srli	a5, t0, 8
	sb	a7, 0(s4)
	sb	a2, 1(s4)
	sb	a0, 2(s4)
	sb	a1, 3(s4)
	sb	t0, 4(s4)
	sb	a5, 5(s4)
	sb	a3, 6(s4)
	sb	a4, 7(s4)
	bne	s8, s3, .Laes_small_BB46_14
# %bb.16:                               #   in Loop: Header=BB46_15 Depth=2
	lw	a0, 16(sp)                      # 4-byte Folded Reload
	sltu	a0, s5, a0
	mv	s0, s10
	bnez	a0, .Laes_small_BB46_15
	j	.Laes_small_BB46_12
.Laes_small_BB46_17:                              # %return.10
	lw	ra, 92(sp)                      # 4-byte Folded Reload
	lw	s0, 88(sp)                      # 4-byte Folded Reload
	lw	s1, 84(sp)                      # 4-byte Folded Reload
	lw	s2, 80(sp)                      # 4-byte Folded Reload
	lw	s3, 76(sp)                      # 4-byte Folded Reload
	lw	s4, 72(sp)                      # 4-byte Folded Reload
	lw	s5, 68(sp)                      # 4-byte Folded Reload
	lw	s6, 64(sp)                      # 4-byte Folded Reload
	lw	s7, 60(sp)                      # 4-byte Folded Reload
	lw	s8, 56(sp)                      # 4-byte Folded Reload
	lw	s9, 52(sp)                      # 4-byte Folded Reload
	lw	s10, 48(sp)                     # 4-byte Folded Reload
	lw	s11, 44(sp)                     # 4-byte Folded Reload
	addi	sp, sp, 96
	ret
.Laes_small_func_end46:
	.size	aes_small.key_wrap.wrapping.wrap, .Laes_small_func_end46-aes_small.key_wrap.wrapping.wrap
                                        # -- End function
	.section	.text.aes_small.aes_cipher.zeroize.stack.wipe_stack.512,"ax",@progbits
	.p2align	1                               # -- Begin function aes_cipher::zeroize::stack::wipe_stack::<=512>
	.type	aes_small.aes_cipher.zeroize.stack.wipe_stack.512,@function
aes_small.aes_cipher.zeroize.stack.wipe_stack.512: # @aes_small.aes_cipher.zeroize.stack.wipe_stack.512
# %bb.0:                                # %start
	addi	sp, sp, -528
	sw	ra, 524(sp)                     # 4-byte Folded Spill
	sw	s0, 520(sp)                     # 4-byte Folded Spill
	addi	a0, sp, 8
	li	a2, 512
	addi	s0, sp, 8
	li	a1, 0
	call	memset
	sw	zero, 0(sp)
	sw	zero, 4(sp)
	#APP
	#NO_APP
	lw	a0, 0(sp)
	lw	a1, 4(sp)
	#APP
	#NO_APP
	seqz	a1, a1
	sltiu	a2, a0, 512
	and	a1, a1, a2
	beqz	a1, .Laes_small_BB47_2
# %bb.1:                                # %then.1
	add	a0, a0, s0
	lbu	a0, 0(a0)
	#APP
	#NO_APP
	lw	zero, 4(sp)
	lw	zero, 0(sp)
	sw	zero, 4(sp)
	sw	a0, 0(sp)
	#APP
	#NO_APP
.Laes_small_BB47_2:                               # %common.ret
	lw	ra, 524(sp)                     # 4-byte Folded Reload
	lw	s0, 520(sp)                     # 4-byte Folded Reload
	addi	sp, sp, 528
	li	a1, 0
	li	a2, 0
	li	a3, 0
	li	a4, 0
	li	a5, 0
	li	a6, 0
	li	a7, 0
	li	t0, 0
	li	t1, 0
	li	t2, 0
	li	t3, 0
	li	t4, 0
	li	t5, 0
	li	t6, 0
	ret
.Laes_small_func_end47:
	.size	aes_small.aes_cipher.zeroize.stack.wipe_stack.512, .Laes_small_func_end47-aes_small.aes_cipher.zeroize.stack.wipe_stack.512
                                        # -- End function
	.section	.text.aes_small.key_wrap.padded.wrap_padded,"ax",@progbits
	.p2align	1                               # -- Begin function key_wrap::padded::wrap_padded::<#4f733d09d7f6c6b4>
	.type	aes_small.key_wrap.padded.wrap_padded,@function
aes_small.key_wrap.padded.wrap_padded: # @aes_small.key_wrap.padded.wrap_padded
# %bb.0:                                # %start
	addi	sp, sp, -96
	sw	ra, 92(sp)                      # 4-byte Folded Spill
	sw	s0, 88(sp)                      # 4-byte Folded Spill
	sw	s1, 84(sp)                      # 4-byte Folded Spill
	sw	s2, 80(sp)                      # 4-byte Folded Spill
	sw	s3, 76(sp)                      # 4-byte Folded Spill
	sw	s4, 72(sp)                      # 4-byte Folded Spill
	sw	s5, 68(sp)                      # 4-byte Folded Spill
	sw	s6, 64(sp)                      # 4-byte Folded Spill
	sw	s7, 60(sp)                      # 4-byte Folded Spill
	sw	s8, 56(sp)                      # 4-byte Folded Spill
	sw	s9, 52(sp)                      # 4-byte Folded Spill
	sw	s10, 48(sp)                     # 4-byte Folded Spill
	sw	s11, 44(sp)                     # 4-byte Folded Spill
	mv	s9, a1
	mv	s6, a0
	or	a1, a2, a3
	li	a0, 1
	beqz	a1, .Laes_small_BB48_11
# %bb.1:                                # %"key_wrap::padded::fits.exit"
	mv	s2, a3
	mv	s3, a2
	srli	a1, a2, 3
	andi	a2, a2, 7
	seqz	a2, a2
	sub	a3, a1, a2
	sltu	a1, a1, a2
	addi	a2, a3, 2
	sltu	a3, a2, a3
	sub	a3, a3, a1
	xor	a1, a6, a3
	xor	a2, a2, a5
	or	a1, a1, a2
	bnez	a1, .Laes_small_BB48_11
# %bb.2:                                # %arm.5
	mv	s4, a4
	seqz	a0, a5
	addi	a5, a5, -1
	lui	a1, 681366
	lui	a2, 16
	srli	a3, s3, 8
	srli	t0, s3, 24
	slli	a7, s3, 24
	srli	s0, s3, 16
	sub	s1, a6, a0
	addi	a0, a1, -1626
	addi	a1, a2, -256
	sb	t0, 4(a4)
	sb	s0, 5(a4)
	sb	a3, 6(a4)
	sb	s3, 7(a4)
	or	a4, s2, a0
	and	a3, a3, a1
	and	a2, s3, a1
	sw	a5, 16(sp)                      # 4-byte Folded Spill
	or	s5, a5, s1
	srli	s0, a4, 8
	srli	a5, a4, 24
	or	a6, a3, t0
	slli	a3, a4, 24
	slli	a2, a2, 8
	or	a2, a7, a2
	and	a0, a4, a1
	slli	a0, a0, 8
	or	a0, a0, a3
	srli	a3, a4, 16
	and	a1, a1, s0
	or	a1, a1, a5
	or	s7, a2, a6
	or	s8, a0, a1
	sb	a5, 0(s4)
	sb	a3, 1(s4)
	sb	s0, 2(s4)
	sb	a4, 3(s4)
	beqz	s5, .Laes_small_BB48_12
# %bb.3:                                # %join.5.i.preheader
	li	s11, 0
	li	s10, 0
	j	.Laes_small_BB48_5
.Laes_small_BB48_4:                               # %join.5.i
                                        #   in Loop: Header=BB48_5 Depth=1
	sltu	a0, s10, s1
	beqz	a0, .Laes_small_BB48_9
.Laes_small_BB48_5:                               # %join.5.i
                                        # =>This Inner Loop Header: Depth=1
	srli	a0, s11, 29
	slli	a1, s10, 3
	slli	s0, s11, 3
	or	a0, a0, a1
	sltu	a1, s3, s0
	sub	a0, s2, a0
	sub	a0, a0, a1
	sub	a1, s3, s0
	seqz	a0, a0
	addi	a0, a0, -1
	or	a2, a0, a1
	li	a0, 8
	bltu	a2, a0, .Laes_small_BB48_7
# %bb.6:                                # %join.5.i
                                        #   in Loop: Header=BB48_5 Depth=1
	li	a2, 8
.Laes_small_BB48_7:                               # %join.5.i
                                        #   in Loop: Header=BB48_5 Depth=1
	add	a1, s9, s0
	sw	zero, 24(sp)
	sw	zero, 28(sp)
	addi	a0, sp, 24
	call	memcpy
	lw	a0, 24(sp)
	lw	a1, 28(sp)
	add	s0, s0, s4
	addi	s11, s11, 1
	seqz	a2, s11
	add	s10, s10, a2
	srli	a2, a1, 24
	srli	a3, a1, 16
	srli	a4, a1, 8
	srli	a6, a0, 24
	srli	a5, a0, 16
	sb	a1, 12(s0)
	sb	a4, 13(s0)
	sb	a3, 14(s0)
	sb	a2, 15(s0)
	srli	a1, a0, 8
	sb	a0, 8(s0)
	sb	a1, 9(s0)
	sb	a5, 10(s0)
	sb	a6, 11(s0)
	bne	s10, s1, .Laes_small_BB48_4
# %bb.8:                                #   in Loop: Header=BB48_5 Depth=1
	lw	a0, 16(sp)                      # 4-byte Folded Reload
	sltu	a0, s11, a0
	bnez	a0, .Laes_small_BB48_5
.Laes_small_BB48_9:                               # %"key_wrap::padded::fill.exit"
	lw	a0, 16(sp)                      # 4-byte Folded Reload
	xori	a0, a0, 1
	or	a0, a0, s1
	bnez	a0, .Laes_small_BB48_12
# %bb.10:                               # %then.1.i
	lbu	a0, 8(s4)
	lbu	a1, 9(s4)
	lbu	t0, 10(s4)
	lbu	t1, 11(s4)
	lbu	a6, 12(s4)
	lbu	a5, 13(s4)
	lbu	s0, 14(s4)
	lbu	a4, 15(s4)
	slli	a1, a1, 8
	or	a7, a1, a0
	lbu	a1, 0(s6)
	lbu	a0, 1(s6)
	lbu	a2, 2(s6)
	lbu	a3, 3(s6)
	slli	t0, t0, 16
	slli	t1, t1, 24
	slli	a5, a5, 8
	slli	s0, s0, 16
	slli	a4, a4, 24
	slli	a0, a0, 8
	or	t0, t1, t0
	or	a6, a5, a6
	or	a4, a4, s0
	or	t1, a0, a1
	lbu	a1, 8(s6)
	lbu	s0, 9(s6)
	lbu	a5, 10(s6)
	lbu	a0, 11(s6)
	slli	a2, a2, 16
	slli	a3, a3, 24
	slli	s0, s0, 8
	slli	a5, a5, 16
	slli	a0, a0, 24
	or	a2, a2, a3
	or	a1, a1, s0
	or	a5, a5, a0
	lbu	a0, 13(s6)
	lbu	a3, 12(s6)
	lbu	s0, 14(s6)
	lbu	s1, 15(s6)
	slli	a0, a0, 8
	or	a3, a3, a0
	slli	s0, s0, 16
	slli	s1, s1, 24
	or	s0, s0, s1
	or	s1, t0, a7
	or	a4, a4, a6
	or	a0, a2, t1
	or	a1, a1, a5
	sw	s8, 24(sp)
	sw	s7, 28(sp)
	sw	s1, 32(sp)
	sw	a4, 36(sp)
	or	a2, s0, a3
	addi	a3, sp, 24
	li	a4, 1
	li	a5, 0
	call	aes_small.aes_narrow.blocks.process_all_batches.1
	call	aes_small.aes_cipher.zeroize.stack.wipe_stack.1024
	li	a0, 0
	lw	a1, 28(sp)
	lw	a2, 24(sp)
	lw	a3, 32(sp)
	lw	a4, 36(sp)
	srli	a7, a1, 24
	srli	t2, a1, 16
	srli	s0, a1, 8
	srli	a6, a2, 24
	srli	t0, a2, 16
	srli	a5, a2, 8
	srli	t1, a4, 24
	srli	t3, a4, 16
	srli	s1, a4, 8
	sb	a1, 4(s4)
	sb	s0, 5(s4)
	sb	t2, 6(s4)
	sb	a7, 7(s4)
	srli	a1, a3, 24
	sb	a2, 0(s4)
	sb	a5, 1(s4)
	sb	t0, 2(s4)
	sb	a6, 3(s4)
	srli	a2, a3, 16
	sb	a4, 12(s4)
	sb	s1, 13(s4)
	sb	t3, 14(s4)
	sb	t1, 15(s4)
	srli	a4, a3, 8
	sb	a3, 8(s4)
	sb	a4, 9(s4)
	sb	a2, 10(s4)
	sb	a1, 11(s4)
.Laes_small_BB48_11:                              # %return.4
	lw	ra, 92(sp)                      # 4-byte Folded Reload
	lw	s0, 88(sp)                      # 4-byte Folded Reload
	lw	s1, 84(sp)                      # 4-byte Folded Reload
	lw	s2, 80(sp)                      # 4-byte Folded Reload
	lw	s3, 76(sp)                      # 4-byte Folded Reload
	lw	s4, 72(sp)                      # 4-byte Folded Reload
	lw	s5, 68(sp)                      # 4-byte Folded Reload
	lw	s6, 64(sp)                      # 4-byte Folded Reload
	lw	s7, 60(sp)                      # 4-byte Folded Reload
	lw	s8, 56(sp)                      # 4-byte Folded Reload
	lw	s9, 52(sp)                      # 4-byte Folded Reload
	lw	s10, 48(sp)                     # 4-byte Folded Reload
	lw	s11, 44(sp)                     # 4-byte Folded Reload
	addi	sp, sp, 96
	ret
.Laes_small_BB48_12:                              # %else.2.i
	li	a4, 0
	li	a2, 0
	seqz	a0, s5
	sw	a0, 4(sp)                       # 4-byte Folded Spill
	sw	s1, 20(sp)                      # 4-byte Folded Spill
	j	.Laes_small_BB48_14
.Laes_small_BB48_13:                              # %"key_wrap::steps::wrap_turn::<#4f733d09d7f6c6b4>.exit.i.i"
                                        #   in Loop: Header=BB48_14 Depth=1
	lw	a1, 8(sp)                       # 4-byte Folded Reload
	sltiu	a0, a1, 5
	addi	a1, a1, 1
	lw	a4, 12(sp)                      # 4-byte Folded Reload
	seqz	a2, a4
	seqz	a3, a1
	add	a3, a3, a4
	and	a0, a0, a2
	mv	a4, a1
	mv	a2, a3
	lw	s1, 20(sp)                      # 4-byte Folded Reload
	beqz	a0, .Laes_small_BB48_11
.Laes_small_BB48_14:                              # %join.5.i.i
                                        # =>This Loop Header: Depth=1
                                        #     Child Loop BB48_17 Depth 2
	lw	a0, 4(sp)                       # 4-byte Folded Reload
	sw	a2, 12(sp)                      # 4-byte Folded Spill
	sw	a4, 8(sp)                       # 4-byte Folded Spill
	bnez	a0, .Laes_small_BB48_13
# %bb.15:                               # %join.5.lr.ph.i.i.i
                                        #   in Loop: Header=BB48_14 Depth=1
	li	s3, 0
	li	s10, 0
	lw	a3, 16(sp)                      # 4-byte Folded Reload
	mulhu	a0, a4, a3
	mul	a1, a4, s1
	mul	a2, a2, a3
	add	a0, a0, a1
	mul	s11, a4, a3
	addi	s11, s11, 1
	add	a0, a0, a2
	seqz	s2, s11
	add	s2, s2, a0
	j	.Laes_small_BB48_17
.Laes_small_BB48_16:                              # %join.5.i.i.i
                                        #   in Loop: Header=BB48_17 Depth=2
	sltu	a0, s10, a0
	beqz	a0, .Laes_small_BB48_13
.Laes_small_BB48_17:                              # %join.5.i.i.i
                                        #   Parent Loop BB48_14 Depth=1
                                        # =>  This Inner Loop Header: Depth=2
	slli	a7, s3, 3
	add	s9, s11, s3
	add	s5, s2, s10
	lbu	a0, 0(s6)
	lbu	a1, 1(s6)
	lbu	t1, 2(s6)
	lbu	t2, 3(s6)
	lbu	a6, 8(s6)
	lbu	a5, 9(s6)
	lbu	s1, 10(s6)
	lbu	a4, 11(s6)
	sltu	s0, s9, s11
	add	s5, s5, s0
	slli	a1, a1, 8
	or	t0, a1, a0
	lbu	a1, 12(s6)
	lbu	a0, 13(s6)
	lbu	t3, 14(s6)
	lbu	t4, 15(s6)
	add	s0, s4, a7
	slli	t1, t1, 16
	slli	t2, t2, 24
	slli	a5, a5, 8
	slli	s1, s1, 16
	slli	a4, a4, 24
	slli	a0, a0, 8
	or	t1, t2, t1
	or	t2, a5, a6
	or	a4, a4, s1
	or	a6, a0, a1
	lbu	s1, 8(s0)
	lbu	a0, 9(s0)
	lbu	a1, 10(s0)
	lbu	a3, 11(s0)
	slli	t3, t3, 16
	slli	t4, t4, 24
	or	a7, t4, t3
	slli	a2, a0, 8
	slli	a5, a1, 16
	slli	a3, a3, 24
	or	a0, t1, t0
	or	a1, a4, t2
	or	t0, a2, s1
	or	a3, a3, a5
	lbu	a4, 13(s0)
	lbu	a5, 12(s0)
	lbu	s1, 14(s0)
	lbu	a2, 15(s0)
	slli	a4, a4, 8
	or	a4, a4, a5
	slli	s1, s1, 16
	slli	a2, a2, 24
	or	a2, a2, s1
	or	a3, a3, t0
	or	a2, a2, a4
	sw	s8, 24(sp)
	sw	s7, 28(sp)
	sw	a3, 32(sp)
	sw	a2, 36(sp)
	or	a2, a7, a6
	addi	a3, sp, 24
	li	a4, 1
	li	a5, 0
	call	aes_small.aes_narrow.blocks.process_all_batches.1
	call	aes_small.aes_cipher.zeroize.stack.wipe_stack.1024
	lw	t6, 24(sp)
	lw	s7, 28(sp)
	lw	t3, 32(sp)
	lw	t5, 36(sp)
	srli	t2, s5, 8
	lui	a6, 16
	srli	t0, s5, 24
	slli	a7, s5, 24
	srli	a5, s9, 8
	srli	t4, s9, 24
	slli	t1, s9, 24
	addi	s3, s3, 1
	addi	a4, a6, -256
	seqz	a0, s3
	and	s1, t2, a4
	and	a1, s5, a4
	and	a5, a5, a4
	and	a4, s9, a4
	add	s10, s10, a0
	or	a6, s1, t0
	slli	a1, a1, 8
	or	t0, a5, t4
	slli	a4, a4, 8
	srli	a3, s7, 24
	srli	a2, s7, 16
	srli	s1, s7, 8
	srli	t2, t6, 24
	srli	a5, t6, 16
	srli	a0, t6, 8
	srli	t4, t5, 16
	or	a7, a7, a1
	srli	a1, t5, 24
	or	t1, t1, a4
	srli	a4, t5, 8
	sb	s7, 4(s4)
	sb	s1, 5(s4)
	sb	a2, 6(s4)
	sb	a3, 7(s4)
	srli	a2, t3, 16
	sb	t6, 0(s4)
	sb	a0, 1(s4)
	sb	a5, 2(s4)
	sb	t2, 3(s4)
	srli	a0, t3, 24
	sb	t5, 12(s0)
	sb	a4, 13(s0)
	sb	t4, 14(s0)
	sb	a1, 15(s0)
	srli	a1, t3, 8
	sb	t3, 8(s0)
	sb	a1, 9(s0)
	sb	a2, 10(s0)
	sb	a0, 11(s0)
	or	a6, a7, a6
	or	a1, t1, t0
	lbu	a2, 5(s4)
	lbu	a3, 4(s4)
	lbu	a4, 6(s4)
	lbu	a5, 7(s4)
	slli	a2, a2, 8
	or	a2, a2, a3
	lbu	a3, 0(s4)
	lbu	s1, 1(s4)
	lbu	s0, 2(s4)
	lbu	a0, 3(s4)
	slli	a4, a4, 16
	slli	a5, a5, 24
	or	a4, a4, a5
	slli	s1, s1, 8
	slli	s0, s0, 16
	slli	a0, a0, 24
	or	a3, a3, s1
	or	a0, a0, s0
	or	a2, a2, a4
	or	a0, a0, a3
	xor	s8, a0, a6
	xor	s7, a2, a1
	srli	a0, s8, 16
	srli	a1, s8, 24
	srli	a2, s8, 8
	srli	a3, s7, 16
	srli	a4, s7, 24
	srli	a5, s7, 8
	sb	s8, 0(s4)
	sb	a2, 1(s4)
	sb	a0, 2(s4)
	sb	a1, 3(s4)
	sb	s7, 4(s4)
	sb	a5, 5(s4)
	sb	a3, 6(s4)
	sb	a4, 7(s4)
	lw	a0, 20(sp)                      # 4-byte Folded Reload
	bne	s10, a0, .Laes_small_BB48_16
# %bb.18:                               #   in Loop: Header=BB48_17 Depth=2
	lw	a0, 16(sp)                      # 4-byte Folded Reload
	sltu	a0, s3, a0
	bnez	a0, .Laes_small_BB48_17
	j	.Laes_small_BB48_13
.Laes_small_func_end48:
	.size	aes_small.key_wrap.padded.wrap_padded, .Laes_small_func_end48-aes_small.key_wrap.padded.wrap_padded
                                        # -- End function
	.section	.text.aes_small.aes_narrow.borrowed_words.call_to_decrypt,"ax",@progbits
	.p2align	1                               # -- Begin function aes_narrow::borrowed_words::call_to_decrypt::<#a8a74a144d92a363>
	.type	aes_small.aes_narrow.borrowed_words.call_to_decrypt,@function
aes_small.aes_narrow.borrowed_words.call_to_decrypt: # @aes_small.aes_narrow.borrowed_words.call_to_decrypt
# %bb.0:                                # %start
	addi	sp, sp, -1120
	sw	ra, 1116(sp)                    # 4-byte Folded Spill
	sw	s0, 1112(sp)                    # 4-byte Folded Spill
	sw	s1, 1108(sp)                    # 4-byte Folded Spill
	sw	s2, 1104(sp)                    # 4-byte Folded Spill
	sw	s3, 1100(sp)                    # 4-byte Folded Spill
	sw	s4, 1096(sp)                    # 4-byte Folded Spill
	sw	s5, 1092(sp)                    # 4-byte Folded Spill
	sw	s6, 1088(sp)                    # 4-byte Folded Spill
	sw	s7, 1084(sp)                    # 4-byte Folded Spill
	sw	s8, 1080(sp)                    # 4-byte Folded Spill
	sw	s9, 1076(sp)                    # 4-byte Folded Spill
	sw	s10, 1072(sp)                   # 4-byte Folded Spill
	sw	s11, 1068(sp)                   # 4-byte Folded Spill
	mv	s7, a3
	mv	s3, a1
	lw	a1, 24(a3)
	lw	a3, 28(a3)
	sw	a1, 24(sp)                      # 4-byte Folded Spill
	or	a1, a1, a3
	beqz	a1, .Laes_small_BB49_18
# %bb.1:                                # %join.5.lr.ph.i.i
	mv	s2, a2
	mv	s4, a0
	li	s10, 0
	lw	a0, 16(s7)
	sw	a0, 4(sp)                       # 4-byte Folded Spill
	li	a4, 0
	sw	a3, 12(sp)                      # 4-byte Folded Spill
	sw	a2, 20(sp)                      # 4-byte Folded Spill
	sw	s3, 16(sp)                      # 4-byte Folded Spill
	sw	s4, 8(sp)                       # 4-byte Folded Spill
	j	.Laes_small_BB49_3
.Laes_small_BB49_2:                               # %"cbc::decryption::unchain_part::<#c3f6a2486d05430b>.exit.loopexit.i.i"
                                        #   in Loop: Header=BB49_3 Depth=1
	sltu	a0, a4, a3
	lw	s2, 20(sp)                      # 4-byte Folded Reload
	lw	s3, 16(sp)                      # 4-byte Folded Reload
	lw	s4, 8(sp)                       # 4-byte Folded Reload
	lw	s10, 28(sp)                     # 4-byte Folded Reload
	beqz	a0, .Laes_small_BB49_18
.Laes_small_BB49_3:                               # %join.5.i.i
                                        # =>This Loop Header: Depth=1
                                        #     Child Loop BB49_9 Depth 2
                                        #     Child Loop BB49_13 Depth 2
                                        #     Child Loop BB49_15 Depth 2
	lw	a2, 24(sp)                      # 4-byte Folded Reload
	sltu	a0, a2, s10
	sub	a1, a3, a4
	sub	s6, a2, s10
	sub	a1, a1, a0
	seqz	s9, a1
	addi	a0, s9, -1
	or	s5, a0, s6
	li	a0, 64
	bltu	s5, a0, .Laes_small_BB49_5
# %bb.4:                                # %join.5.i.i
                                        #   in Loop: Header=BB49_3 Depth=1
	li	s5, 64
.Laes_small_BB49_5:                               # %join.5.i.i
                                        #   in Loop: Header=BB49_3 Depth=1
	sw	a4, 32(sp)                      # 4-byte Folded Spill
	slli	s11, s10, 4
	lw	a0, 4(sp)                       # 4-byte Folded Reload
	add	s11, s11, a0
	addi	a0, sp, 44
	slli	s1, s5, 4
	bgeu	a0, s11, .Laes_small_BB49_7
# %bb.6:                                # %join.5.i.i
                                        #   in Loop: Header=BB49_3 Depth=1
	li	s0, 1
	j	.Laes_small_BB49_8
.Laes_small_BB49_7:                               #   in Loop: Header=BB49_3 Depth=1
	sub	a0, a0, s11
	sltu	a0, a0, s1
	xori	s0, a0, 1
.Laes_small_BB49_8:                               # %join.5.i.i
                                        #   in Loop: Header=BB49_3 Depth=1
	addi	a0, sp, 44
	li	a2, 1024
	li	a1, 0
	call	memset
	addi	a0, sp, 44
	mv	a1, s11
	mv	a2, s1
	call	memcpy
	sltiu	a0, s6, 2
	li	s1, 0
	li	s0, 0
	and	a0, s9, a0
	bnez	a0, .Laes_small_BB49_10
.Laes_small_BB49_9:                               # %join.5.i.i.i.i
                                        #   Parent Loop BB49_3 Depth=1
                                        # =>  This Inner Loop Header: Depth=2
	mv	a0, s1
	addi	s1, s1, 2
	slli	a3, a0, 4
	sltu	a0, s1, a0
	add	s0, s0, a0
	add	a3, a3, s11
	li	a4, 2
	mv	a0, s4
	mv	a1, s3
	mv	a2, s2
	li	a5, 0
	call	aes_small.aes_soft.soft.blocks.filled_up.process_filled_up.2
	sltu	a0, s5, s1
	sub	a1, s5, s1
	add	a0, a0, s0
	seqz	a0, a0
	sltiu	a1, a1, 2
	and	a0, a0, a1
	beqz	a0, .Laes_small_BB49_9
.Laes_small_BB49_10:                              # %loop.7.preheader.i.i.i.i
                                        #   in Loop: Header=BB49_3 Depth=1
	beqz	s0, .Laes_small_BB49_12
# %bb.11:                               # %loop.7.preheader.i.i.i.i
                                        #   in Loop: Header=BB49_3 Depth=1
	li	a0, 1
	beqz	a0, .Laes_small_BB49_13
	j	.Laes_small_BB49_14
.Laes_small_BB49_12:                              #   in Loop: Header=BB49_3 Depth=1
	sltu	a0, s1, s5
	xori	a0, a0, 1
	bnez	a0, .Laes_small_BB49_14
.Laes_small_BB49_13:                              # %join.10.i.i.i.i
                                        #   Parent Loop BB49_3 Depth=1
                                        # =>  This Inner Loop Header: Depth=2
	slli	a3, s1, 4
	add	a3, a3, s11
	li	a4, 1
	mv	a0, s4
	mv	a1, s3
	mv	a2, s2
	li	a5, 0
	call	aes_small.aes_soft.soft.blocks.filled_up.process_filled_up.2
	addi	s1, s1, 1
	seqz	a0, s1
	add	s0, s0, a0
	sltu	a0, s1, s5
	seqz	a1, s0
	and	a0, a0, a1
	bnez	a0, .Laes_small_BB49_13
.Laes_small_BB49_14:                              # %join.7.lr.ph.i.i.i
                                        #   in Loop: Header=BB49_3 Depth=1
	mv	a0, s5
	li	s5, 0
	li	s8, 0
	lbu	a6, 0(s7)
	lbu	a7, 1(s7)
	lbu	t0, 2(s7)
	lbu	t1, 3(s7)
	lbu	t2, 4(s7)
	lbu	t3, 5(s7)
	lbu	t4, 6(s7)
	lbu	t5, 7(s7)
	lbu	t6, 8(s7)
	lbu	ra, 9(s7)
	lbu	s2, 10(s7)
	sw	s11, 36(sp)                     # 4-byte Folded Spill
	lbu	s11, 11(s7)
	lbu	a4, 12(s7)
	lbu	a5, 13(s7)
	lbu	s1, 14(s7)
	lbu	s9, 15(s7)
	add	s10, s10, a0
	sw	s10, 28(sp)                     # 4-byte Folded Spill
	sw	a0, 40(sp)                      # 4-byte Folded Spill
	sltu	s0, s10, a0
	lw	a0, 32(sp)                      # 4-byte Folded Reload
	add	a0, a0, s0
	sw	a0, 32(sp)                      # 4-byte Folded Spill
.Laes_small_BB49_15:                              # %join.7.i.i.i
                                        #   Parent Loop BB49_3 Depth=1
                                        # =>  This Inner Loop Header: Depth=2
	slli	s10, s5, 4
	addi	s6, sp, 44
	addi	s5, s5, 1
	lw	s0, 36(sp)                      # 4-byte Folded Reload
	add	s0, s0, s10
	add	s10, s10, s6
	seqz	a1, s5
	lw	a0, 40(sp)                      # 4-byte Folded Reload
	sltu	a2, s5, a0
	add	s8, s8, a1
	seqz	a1, s8
	and	s6, a1, a2
	lbu	a1, 15(s0)
	lbu	a2, 14(s0)
	lbu	s3, 13(s0)
	lbu	s4, 12(s0)
	xor	s9, a1, s9
	xor	a2, a2, s1
	xor	s3, s3, a5
	xor	s4, s4, a4
	lbu	s1, 11(s0)
	lbu	a3, 10(s0)
	lbu	a1, 9(s0)
	lbu	a5, 8(s0)
	xor	s11, s1, s11
	xor	s2, a3, s2
	xor	ra, a1, ra
	xor	t6, a5, t6
	lbu	a0, 7(s0)
	lbu	a4, 6(s0)
	lbu	s1, 5(s0)
	lbu	a3, 4(s0)
	xor	t5, a0, t5
	xor	t4, a4, t4
	xor	s1, s1, t3
	xor	a3, a3, t2
	lbu	a1, 3(s0)
	lbu	a5, 2(s0)
	lbu	a0, 1(s0)
	lbu	a4, 0(s0)
	xor	a1, a1, t1
	xor	a5, a5, t0
	xor	a0, a0, a7
	xor	a4, a4, a6
	sb	a4, 0(s0)
	sb	a0, 1(s0)
	sb	a5, 2(s0)
	sb	a1, 3(s0)
	sb	a3, 4(s0)
	sb	s1, 5(s0)
	sb	t4, 6(s0)
	sb	t5, 7(s0)
	sb	t6, 8(s0)
	sb	ra, 9(s0)
	sb	s2, 10(s0)
	sb	s11, 11(s0)
	sb	s4, 12(s0)
	sb	s3, 13(s0)
	sb	a2, 14(s0)
	sb	s9, 15(s0)
	lbu	a6, 0(s10)
	lbu	a7, 1(s10)
	lbu	t0, 2(s10)
	lbu	t1, 3(s10)
	lbu	t2, 4(s10)
	lbu	t3, 5(s10)
	lbu	t4, 6(s10)
	lbu	t5, 7(s10)
	lbu	t6, 8(s10)
	lbu	ra, 9(s10)
	lbu	s2, 10(s10)
	lbu	s11, 11(s10)
	lbu	a4, 12(s10)
	lbu	a5, 13(s10)
	lbu	s1, 14(s10)
	lbu	s9, 15(s10)
	sb	a6, 0(s7)
	sb	a7, 1(s7)
	sb	t0, 2(s7)
	sb	t1, 3(s7)
	sb	t2, 4(s7)
	sb	t3, 5(s7)
	sb	t4, 6(s7)
	sb	t5, 7(s7)
	sb	t6, 8(s7)
	sb	ra, 9(s7)
	sb	s2, 10(s7)
	sb	s11, 11(s7)
	sb	a4, 12(s7)
	sb	a5, 13(s7)
	sb	s1, 14(s7)
	sb	s9, 15(s7)
	bnez	s6, .Laes_small_BB49_15
# %bb.16:                               # %"cbc::decryption::unchain_part::<#c3f6a2486d05430b>.exit.loopexit.i.i"
                                        #   in Loop: Header=BB49_3 Depth=1
	lw	a3, 12(sp)                      # 4-byte Folded Reload
	lw	a4, 32(sp)                      # 4-byte Folded Reload
	bne	a4, a3, .Laes_small_BB49_2
# %bb.17:                               #   in Loop: Header=BB49_3 Depth=1
	lw	a0, 24(sp)                      # 4-byte Folded Reload
	lw	s10, 28(sp)                     # 4-byte Folded Reload
	sltu	a0, s10, a0
	lw	s2, 20(sp)                      # 4-byte Folded Reload
	lw	s3, 16(sp)                      # 4-byte Folded Reload
	lw	s4, 8(sp)                       # 4-byte Folded Reload
	bnez	a0, .Laes_small_BB49_3
.Laes_small_BB49_18:                              # %"cbc::decryption::ChainBlockCipherDecClosure::call::<#c3f6a2486d05430b>.exit"
	lw	ra, 1116(sp)                    # 4-byte Folded Reload
	lw	s0, 1112(sp)                    # 4-byte Folded Reload
	lw	s1, 1108(sp)                    # 4-byte Folded Reload
	lw	s2, 1104(sp)                    # 4-byte Folded Reload
	lw	s3, 1100(sp)                    # 4-byte Folded Reload
	lw	s4, 1096(sp)                    # 4-byte Folded Reload
	lw	s5, 1092(sp)                    # 4-byte Folded Reload
	lw	s6, 1088(sp)                    # 4-byte Folded Reload
	lw	s7, 1084(sp)                    # 4-byte Folded Reload
	lw	s8, 1080(sp)                    # 4-byte Folded Reload
	lw	s9, 1076(sp)                    # 4-byte Folded Reload
	lw	s10, 1072(sp)                   # 4-byte Folded Reload
	lw	s11, 1068(sp)                   # 4-byte Folded Reload
	addi	sp, sp, 1120
	ret
.Laes_small_func_end49:
	.size	aes_small.aes_narrow.borrowed_words.call_to_decrypt, .Laes_small_func_end49-aes_small.aes_narrow.borrowed_words.call_to_decrypt
                                        # -- End function
	.section	.text.aes_small.aes_soft.soft.blocks.filled_up.process_filled_up.2,"ax",@progbits
	.p2align	1                               # -- Begin function aes_soft::soft::blocks::filled_up::process_filled_up::<#a3dcb71d05bd149b>
	.type	aes_small.aes_soft.soft.blocks.filled_up.process_filled_up.2,@function
aes_small.aes_soft.soft.blocks.filled_up.process_filled_up.2: # @aes_small.aes_soft.soft.blocks.filled_up.process_filled_up.2
# %bb.0:                                # %start
	addi	sp, sp, -160
	sw	ra, 156(sp)                     # 4-byte Folded Spill
	sw	s0, 152(sp)                     # 4-byte Folded Spill
	sw	s1, 148(sp)                     # 4-byte Folded Spill
	sw	s2, 144(sp)                     # 4-byte Folded Spill
	sw	s3, 140(sp)                     # 4-byte Folded Spill
	sw	s4, 136(sp)                     # 4-byte Folded Spill
	sw	s5, 132(sp)                     # 4-byte Folded Spill
	sw	s6, 128(sp)                     # 4-byte Folded Spill
	mv	s3, a5
	mv	s4, a4
	mv	s0, a3
	mv	s6, a2
	mv	s5, a1
	mv	s2, a0
	lbu	a0, 12(a3)
	lbu	a1, 13(a3)
	lbu	a2, 14(a3)
	lbu	a3, 15(a3)
	lbu	a6, 8(s0)
	lbu	a5, 9(s0)
	lbu	s1, 10(s0)
	lbu	a4, 11(s0)
	slli	a1, a1, 8
	slli	a2, a2, 16
	slli	a3, a3, 24
	or	a7, a1, a0
	or	t0, a3, a2
	lbu	a1, 4(s0)
	lbu	a3, 5(s0)
	lbu	a0, 6(s0)
	lbu	a2, 7(s0)
	slli	a5, a5, 8
	slli	s1, s1, 16
	slli	a4, a4, 24
	slli	a3, a3, 8
	slli	a0, a0, 16
	slli	a2, a2, 24
	or	a6, a5, a6
	or	a4, a4, s1
	or	a1, a1, a3
	or	a0, a0, a2
	lbu	a2, 1(s0)
	lbu	a3, 0(s0)
	lbu	s1, 2(s0)
	lbu	a5, 3(s0)
	slli	a2, a2, 8
	or	a2, a2, a3
	slli	s1, s1, 16
	slli	a5, a5, 24
	or	a5, a5, s1
	or	a3, t0, a7
	or	a4, a4, a6
	or	a0, a0, a1
	or	a2, a2, a5
	sw	zero, 80(sp)
	sw	zero, 84(sp)
	sw	zero, 88(sp)
	sw	zero, 92(sp)
	sw	zero, 64(sp)
	sw	zero, 68(sp)
	sw	zero, 72(sp)
	sw	zero, 76(sp)
	sw	zero, 32(sp)
	sw	zero, 36(sp)
	sw	zero, 40(sp)
	sw	zero, 44(sp)
	sw	zero, 48(sp)
	sw	zero, 52(sp)
	sw	zero, 56(sp)
	sw	zero, 60(sp)
	sw	zero, 0(sp)
	sw	zero, 4(sp)
	sw	zero, 8(sp)
	sw	zero, 12(sp)
	sw	zero, 16(sp)
	sw	zero, 20(sp)
	sw	zero, 24(sp)
	sw	zero, 28(sp)
	sw	a2, 96(sp)
	sw	a0, 100(sp)
	sw	a4, 104(sp)
	sw	a3, 108(sp)
	addi	a0, sp, 112
	li	a2, 16
	mv	a1, s0
	call	memcpy
	slli	a0, s6, 29
	srli	a1, s5, 3
	srli	a2, s6, 3
	or	a4, s4, s3
	or	a0, a0, a1
	seqz	a1, a0
	sub	a3, a2, a1
	seqz	s5, a4
	addi	a2, a0, -1
	xori	s4, s4, 1
	beqz	a4, .Laes_small_BB50_2
# %bb.1:                                # %join.8.i
	lbu	t0, 12(s0)
	lbu	a1, 13(s0)
	lbu	a4, 14(s0)
	lbu	a5, 15(s0)
	lbu	a6, 8(s0)
	lbu	a7, 9(s0)
	lbu	t2, 10(s0)
	lbu	a0, 11(s0)
	slli	a1, a1, 8
	slli	a4, a4, 16
	slli	a5, a5, 24
	or	t0, a1, t0
	or	t1, a5, a4
	lbu	a5, 4(s0)
	lbu	a1, 5(s0)
	lbu	a4, 6(s0)
	lbu	s1, 7(s0)
	slli	a7, a7, 8
	slli	t2, t2, 16
	slli	a0, a0, 24
	slli	a1, a1, 8
	slli	a4, a4, 16
	slli	s1, s1, 24
	or	a6, a7, a6
	or	a7, a0, t2
	or	t2, a1, a5
	or	a4, a4, s1
	lbu	a5, 1(s0)
	lbu	s1, 0(s0)
	lbu	a0, 2(s0)
	lbu	a1, 3(s0)
	slli	a5, a5, 8
	or	a5, a5, s1
	slli	a0, a0, 16
	slli	a1, a1, 24
	or	a0, a0, a1
	or	a1, t1, t0
	or	s1, a7, a6
	or	a4, a4, t2
	or	a0, a0, a5
	or	a5, s4, s3
	sw	a0, 96(sp)
	sw	a4, 100(sp)
	sw	s1, 104(sp)
	sw	a1, 108(sp)
	bnez	a5, .Laes_small_BB50_3
.Laes_small_BB50_2:                               # %then.6.i
	lw	a0, 112(sp)
	lw	a1, 116(sp)
	lw	a4, 120(sp)
	lw	a5, 124(sp)
	sw	a0, 48(sp)
	sw	a1, 52(sp)
	sw	a4, 56(sp)
	sw	a5, 60(sp)
	lw	a0, 96(sp)
	lw	a1, 100(sp)
	lw	a4, 104(sp)
	lw	a5, 108(sp)
	sw	a0, 32(sp)
	sw	a1, 36(sp)
	sw	a4, 40(sp)
	sw	a5, 44(sp)
	j	.Laes_small_BB50_4
.Laes_small_BB50_3:                               # %join.8.i.1
	addi	a1, s0, 16
	addi	a0, sp, 112
	mv	s6, a2
	li	a2, 16
	mv	s1, a3
	call	memcpy
	mv	a2, s6
	mv	a3, s1
	lw	a0, 96(sp)
	lw	a1, 100(sp)
	lw	a4, 104(sp)
	lw	a5, 108(sp)
	sw	a0, 32(sp)
	sw	a1, 36(sp)
	sw	a4, 40(sp)
	sw	a5, 44(sp)
	lw	a0, 112(sp)
	lw	a1, 116(sp)
	lw	a4, 120(sp)
	lw	a5, 124(sp)
	sw	a0, 48(sp)
	sw	a1, 52(sp)
	sw	a4, 56(sp)
	sw	a5, 60(sp)
.Laes_small_BB50_4:                               # %"aes_soft::soft::blocks::filled_up::filled_up::<#7d3b633001169d8c>.exit"
	mv	a0, sp
	addi	a4, sp, 32
	mv	a1, s2
	call	aes_small.aes_soft.soft.ciphers.planes.process_outlined.2
	lw	a0, 16(sp)
	lw	a1, 20(sp)
	lw	a2, 24(sp)
	lw	a3, 28(sp)
	sw	a0, 80(sp)
	sw	a1, 84(sp)
	sw	a2, 88(sp)
	sw	a3, 92(sp)
	lw	a0, 0(sp)
	lw	a1, 4(sp)
	lw	a2, 8(sp)
	lw	a3, 12(sp)
	sw	a0, 64(sp)
	sw	a1, 68(sp)
	sw	a2, 72(sp)
	sw	a3, 76(sp)
	bnez	s5, .Laes_small_BB50_7
# %bb.5:                                # %join.8.i22.peel
	addi	a1, sp, 64
	li	a2, 16
	mv	a0, s0
	call	memcpy
	or	a0, s4, s3
	beqz	a0, .Laes_small_BB50_7
# %bb.6:                                # %join.8.i22.preheader.peel.newph
	addi	a1, sp, 80
	addi	a0, s0, 16
	li	a2, 16
	call	memcpy
.Laes_small_BB50_7:                               # %"aes_soft::soft::blocks::filled_up::copy_first::<#7d3b633001169d8c>.exit"
	lw	ra, 156(sp)                     # 4-byte Folded Reload
	lw	s0, 152(sp)                     # 4-byte Folded Reload
	lw	s1, 148(sp)                     # 4-byte Folded Reload
	lw	s2, 144(sp)                     # 4-byte Folded Reload
	lw	s3, 140(sp)                     # 4-byte Folded Reload
	lw	s4, 136(sp)                     # 4-byte Folded Reload
	lw	s5, 132(sp)                     # 4-byte Folded Reload
	lw	s6, 128(sp)                     # 4-byte Folded Reload
	addi	sp, sp, 160
	ret
.Laes_small_func_end50:
	.size	aes_small.aes_soft.soft.blocks.filled_up.process_filled_up.2, .Laes_small_func_end50-aes_small.aes_soft.soft.blocks.filled_up.process_filled_up.2
                                        # -- End function
	.section	.text.aes_small.aes_soft.soft.ciphers.planes.process_outlined.2,"ax",@progbits
	.p2align	1                               # -- Begin function aes_soft::soft::ciphers::planes::process_outlined::<#4da0d9798c91611c>
	.type	aes_small.aes_soft.soft.ciphers.planes.process_outlined.2,@function
aes_small.aes_soft.soft.ciphers.planes.process_outlined.2: # @aes_small.aes_soft.soft.ciphers.planes.process_outlined.2
# %bb.0:                                # %start
	addi	sp, sp, -160
	sw	ra, 156(sp)                     # 4-byte Folded Spill
	sw	s0, 152(sp)                     # 4-byte Folded Spill
	sw	s1, 148(sp)                     # 4-byte Folded Spill
	sw	s2, 144(sp)                     # 4-byte Folded Spill
	sw	s3, 140(sp)                     # 4-byte Folded Spill
	sw	s4, 136(sp)                     # 4-byte Folded Spill
	sw	s5, 132(sp)                     # 4-byte Folded Spill
	sw	s6, 128(sp)                     # 4-byte Folded Spill
	sw	s7, 124(sp)                     # 4-byte Folded Spill
	sw	s8, 120(sp)                     # 4-byte Folded Spill
	sw	s9, 116(sp)                     # 4-byte Folded Spill
	sw	s10, 112(sp)                    # 4-byte Folded Spill
	sw	s11, 108(sp)                    # 4-byte Folded Spill
	mv	s3, a3
	mv	s2, a2
	mv	s7, a1
	mv	s6, a0
	lbu	a6, 0(a4)
	lbu	a7, 1(a4)
	lbu	t0, 2(a4)
	lbu	a3, 3(a4)
	lbu	s0, 16(a4)
	lbu	s1, 17(a4)
	lbu	t1, 18(a4)
	lbu	t4, 19(a4)
	lbu	t2, 4(a4)
	lbu	t3, 5(a4)
	lbu	s4, 6(a4)
	lbu	a1, 7(a4)
	lbu	a2, 20(a4)
	lbu	a0, 21(a4)
	lbu	t5, 22(a4)
	lbu	t6, 23(a4)
	slli	a3, a3, 24
	slli	t0, t0, 16
	slli	a7, a7, 8
	slli	a5, s1, 8
	or	a6, a7, a6
	or	t0, t0, a3
	or	a7, a5, s0
	lbu	s5, 8(a4)
	lbu	s0, 9(a4)
	lbu	a5, 10(a4)
	lbu	s1, 11(a4)
	slli	t4, t4, 24
	slli	t1, t1, 16
	slli	a1, a1, 24
	slli	s4, s4, 16
	slli	t3, t3, 8
	slli	a0, a0, 8
	or	t1, t1, t4
	or	t2, t3, t2
	or	t4, s4, a1
	or	t3, a0, a2
	lbu	a2, 24(a4)
	lbu	a0, 25(a4)
	lbu	a1, 26(a4)
	lbu	a3, 27(a4)
	slli	t6, t6, 24
	slli	t5, t5, 16
	slli	s1, s1, 24
	slli	a5, a5, 16
	slli	s0, s0, 8
	slli	a0, a0, 8
	or	t5, t5, t6
	or	t6, s0, s5
	or	s5, a5, s1
	or	s4, a0, a2
	lbu	a2, 12(a4)
	lbu	s1, 13(a4)
	lbu	s0, 15(a4)
	lbu	a0, 14(a4)
	slli	a3, a3, 24
	slli	a1, a1, 16
	slli	s0, s0, 24
	slli	a0, a0, 16
	slli	s1, s1, 8
	or	s8, a1, a3
	or	s9, s1, a2
	or	s10, a0, s0
	lbu	a3, 29(a4)
	lbu	s0, 28(a4)
	lbu	s1, 31(a4)
	lbu	a4, 30(a4)
	slli	a3, a3, 8
	or	s11, a3, s0
	slli	s1, s1, 24
	slli	a4, a4, 16
	or	a4, a4, s1
	or	s1, a6, t0
	or	s0, a7, t1
	or	a5, t2, t4
	or	a1, t3, t5
	or	a2, t6, s5
	or	a0, s4, s8
	or	a3, s9, s10
	or	a4, s11, a4
	sw	s1, 76(sp)
	sw	s0, 80(sp)
	sw	a5, 84(sp)
	sw	a1, 88(sp)
	sw	a2, 92(sp)
	sw	a0, 96(sp)
	sw	a3, 100(sp)
	sw	a4, 104(sp)
	addi	a0, sp, 12
	addi	a1, sp, 76
	call	aes_small.aes_planes.soft.word.transpose.transpose
	addi	s5, s2, -2
	lw	a6, 28(sp)
	lw	a1, 32(sp)
	lw	a2, 36(sp)
	lw	a3, 40(sp)
	lw	a4, 12(sp)
	lw	a5, 16(sp)
	lw	s1, 20(sp)
	lw	s0, 24(sp)
	sltu	a0, s5, s2
	srli	s8, s5, 2
	andi	s10, s5, -4
	add	a0, a0, s3
	addi	s4, a0, -1
	sw	a6, 60(sp)
	sw	a1, 64(sp)
	sw	a2, 68(sp)
	sw	a3, 72(sp)
	slli	s9, s4, 30
	sw	a4, 44(sp)
	sw	a5, 48(sp)
	sw	s1, 52(sp)
	sw	s0, 56(sp)
	addi	a0, sp, 76
	mv	a1, s7
	mv	a2, s2
	mv	a3, s3
	call	aes_small.aes_planes.soft.round_keys.round_key.2
	lw	a6, 76(sp)
	lw	a7, 80(sp)
	lw	t0, 84(sp)
	lw	t1, 88(sp)
	lw	t2, 92(sp)
	lw	t3, 96(sp)
	lw	t5, 100(sp)
	lw	t4, 104(sp)
	lw	a0, 44(sp)
	lw	a1, 48(sp)
	lw	a2, 52(sp)
	lw	a3, 56(sp)
	lw	a4, 60(sp)
	lw	a5, 64(sp)
	lw	s0, 68(sp)
	lw	s1, 72(sp)
	xor	a0, a0, a6
	xor	a1, a1, a7
	xor	a2, a2, t0
	xor	a3, a3, t1
	xor	a4, a4, t2
	xor	a5, a5, t3
	xor	s0, s0, t5
	xor	s1, s1, t4
	sw	a0, 44(sp)
	sw	a1, 48(sp)
	sw	a2, 52(sp)
	sw	a3, 56(sp)
	sw	a4, 60(sp)
	sw	a5, 64(sp)
	sw	s0, 68(sp)
	sw	s1, 72(sp)
	addi	a0, sp, 44
	call	aes_small.aes_planes.soft.sbox.inv_sub_bytes
	beq	s4, s3, .Laes_small_BB51_2
# %bb.1:                                # %start
	sltu	a0, s4, s3
	j	.Laes_small_BB51_3
.Laes_small_BB51_2:
	addi	a0, s10, 2
	sltu	a0, a0, s2
.Laes_small_BB51_3:                               # %start
	or	s8, s8, s9
	srli	s9, s4, 2
	addi	s10, s10, 1
	beqz	a0, .Laes_small_BB51_5
# %bb.4:                                # %then.3.i
	seqz	a0, s2
	sub	a3, s3, a0
	addi	a2, s2, -1
	addi	a0, sp, 76
	mv	a1, s7
	call	aes_small.aes_planes.soft.round_keys.round_key.2
	lw	a6, 76(sp)
	lw	a7, 80(sp)
	lw	t0, 84(sp)
	lw	t1, 88(sp)
	lw	t2, 92(sp)
	lw	t3, 96(sp)
	lw	t5, 100(sp)
	lw	t4, 104(sp)
	lw	a0, 44(sp)
	lw	a1, 48(sp)
	lw	a2, 52(sp)
	lw	a3, 56(sp)
	lw	a4, 60(sp)
	lw	a5, 64(sp)
	lw	s0, 68(sp)
	lw	s1, 72(sp)
	xor	a0, a0, a6
	xor	a1, a1, a7
	xor	a2, a2, t0
	xor	a3, a3, t1
	xor	a4, a4, t2
	xor	a5, a5, t3
	xor	s0, s0, t5
	xor	s1, s1, t4
	sw	a0, 44(sp)
	sw	a1, 48(sp)
	sw	a2, 52(sp)
	sw	a3, 56(sp)
	sw	a4, 60(sp)
	sw	a5, 64(sp)
	sw	s0, 68(sp)
	sw	s1, 72(sp)
	addi	a0, sp, 44
	call	aes_small.aes_planes.soft.mix_columns.inv_mix_columns_3
	addi	a0, sp, 44
	call	aes_small.aes_planes.soft.sbox.inv_sub_bytes
	addi	a0, sp, 76
	mv	a1, s7
	mv	a2, s5
	mv	a3, s4
	call	aes_small.aes_planes.soft.round_keys.round_key.2
	lw	a6, 76(sp)
	lw	a7, 80(sp)
	lw	t0, 84(sp)
	lw	t1, 88(sp)
	lw	t2, 92(sp)
	lw	t3, 96(sp)
	lw	t5, 100(sp)
	lw	t4, 104(sp)
	lw	a0, 44(sp)
	lw	a1, 48(sp)
	lw	a2, 52(sp)
	lw	a3, 56(sp)
	lw	a4, 60(sp)
	lw	a5, 64(sp)
	lw	s0, 68(sp)
	lw	s1, 72(sp)
	xor	a0, a0, a6
	xor	a1, a1, a7
	xor	a2, a2, t0
	xor	a3, a3, t1
	xor	a4, a4, t2
	xor	a5, a5, t3
	xor	s0, s0, t5
	xor	s1, s1, t4
	sw	a0, 44(sp)
	sw	a1, 48(sp)
	sw	a2, 52(sp)
	sw	a3, 56(sp)
	sw	a4, 60(sp)
	sw	a5, 64(sp)
	sw	s0, 68(sp)
	sw	s1, 72(sp)
	addi	a0, sp, 44
	call	aes_small.aes_planes.soft.mix_columns.inv_mix_columns_2
	addi	a0, sp, 44
	call	aes_small.aes_planes.soft.sbox.inv_sub_bytes
	j	.Laes_small_BB51_6
.Laes_small_BB51_5:                               # %else.4.i
	lui	a1, 61441
	addi	a0, sp, 44
	addi	a2, a1, -256
	li	a1, 4
	call	aes_small.aes_planes.soft.shifts.swap_columns
.Laes_small_BB51_6:                               # %join.5.i
	addi	a0, sp, 76
	mv	a1, s7
	mv	a2, s10
	mv	a3, s4
	call	aes_small.aes_planes.soft.round_keys.round_key.2
	lw	a6, 76(sp)
	lw	a7, 80(sp)
	lw	t0, 84(sp)
	lw	t1, 88(sp)
	lw	t2, 92(sp)
	lw	t3, 96(sp)
	lw	t5, 100(sp)
	lw	t4, 104(sp)
	lw	a0, 44(sp)
	lw	a1, 48(sp)
	lw	a2, 52(sp)
	lw	a3, 56(sp)
	lw	a4, 60(sp)
	lw	a5, 64(sp)
	lw	s0, 68(sp)
	lw	s1, 72(sp)
	xor	a0, a0, a6
	xor	a1, a1, a7
	xor	a2, a2, t0
	xor	a3, a3, t1
	xor	a4, a4, t2
	xor	a5, a5, t3
	xor	s0, s0, t5
	xor	s1, s1, t4
	sw	a0, 44(sp)
	sw	a1, 48(sp)
	sw	a2, 52(sp)
	sw	a3, 56(sp)
	sw	a4, 60(sp)
	sw	a5, 64(sp)
	sw	s0, 68(sp)
	sw	s1, 72(sp)
	addi	a0, sp, 44
	call	aes_small.aes_planes.soft.mix_columns.inv_mix_columns_1
	addi	a0, sp, 44
	call	aes_small.aes_planes.soft.sbox.inv_sub_bytes
	or	a0, s8, s9
	beqz	a0, .Laes_small_BB51_11
# %bb.7:                                # %join.10.lr.ph.i
	li	s2, 0
	li	s3, 0
	j	.Laes_small_BB51_9
.Laes_small_BB51_8:                               # %join.10.i
                                        #   in Loop: Header=BB51_9 Depth=1
	sltu	a0, s3, s9
	beqz	a0, .Laes_small_BB51_11
.Laes_small_BB51_9:                               # %join.10.i
                                        # =>This Inner Loop Header: Depth=1
	sltu	a0, s8, s2
	sub	a1, s9, s3
	sub	s0, s8, s2
	sub	a1, a1, a0
	srli	a0, s0, 30
	slli	a1, a1, 2
	or	s4, a1, a0
	slli	s5, s0, 2
	addi	a0, sp, 76
	mv	a1, s7
	mv	a2, s5
	mv	a3, s4
	call	aes_small.aes_planes.soft.round_keys.round_key.2
	lw	a6, 76(sp)
	lw	a7, 80(sp)
	lw	t0, 84(sp)
	lw	t1, 88(sp)
	lw	t2, 92(sp)
	lw	t3, 96(sp)
	lw	t5, 100(sp)
	lw	t4, 104(sp)
	lw	a0, 44(sp)
	lw	a1, 48(sp)
	lw	a2, 52(sp)
	lw	a3, 56(sp)
	lw	a4, 60(sp)
	lw	a5, 64(sp)
	lw	s0, 68(sp)
	lw	s1, 72(sp)
	xor	a0, a0, a6
	xor	a1, a1, a7
	xor	a2, a2, t0
	xor	a3, a3, t1
	xor	a4, a4, t2
	xor	a5, a5, t3
	xor	s0, s0, t5
	xor	s1, s1, t4
	sw	a0, 44(sp)
	sw	a1, 48(sp)
	sw	a2, 52(sp)
	sw	a3, 56(sp)
	sw	a4, 60(sp)
	sw	a5, 64(sp)
	sw	s0, 68(sp)
	sw	s1, 72(sp)
	addi	a0, sp, 44
	call	aes_small.aes_planes.soft.mix_columns.inv_mix_columns_0
	addi	a0, sp, 44
	call	aes_small.aes_planes.soft.sbox.inv_sub_bytes
	seqz	a0, s5
	sub	a3, s4, a0
	addi	a2, s5, -1
	addi	a0, sp, 76
	mv	a1, s7
	call	aes_small.aes_planes.soft.round_keys.round_key.2
	lw	a6, 76(sp)
	lw	a7, 80(sp)
	lw	t0, 84(sp)
	lw	t1, 88(sp)
	lw	t2, 92(sp)
	lw	t3, 96(sp)
	lw	t5, 100(sp)
	lw	t4, 104(sp)
	lw	a0, 44(sp)
	lw	a1, 48(sp)
	lw	a2, 52(sp)
	lw	a3, 56(sp)
	lw	a4, 60(sp)
	lw	a5, 64(sp)
	lw	s0, 68(sp)
	lw	s1, 72(sp)
	xor	a0, a0, a6
	xor	a1, a1, a7
	xor	a2, a2, t0
	xor	a3, a3, t1
	xor	a4, a4, t2
	xor	a5, a5, t3
	xor	s0, s0, t5
	xor	s1, s1, t4
	sw	a0, 44(sp)
	sw	a1, 48(sp)
	sw	a2, 52(sp)
	sw	a3, 56(sp)
	sw	a4, 60(sp)
	sw	a5, 64(sp)
	sw	s0, 68(sp)
	sw	s1, 72(sp)
	addi	a0, sp, 44
	call	aes_small.aes_planes.soft.mix_columns.inv_mix_columns_3
	addi	a0, sp, 44
	call	aes_small.aes_planes.soft.sbox.inv_sub_bytes
	addi	a2, s5, -2
	sltu	a3, a2, s5
	addi	s4, s4, -1
	add	a3, a3, s4
	addi	a0, sp, 76
	mv	a1, s7
	call	aes_small.aes_planes.soft.round_keys.round_key.2
	lw	a6, 76(sp)
	lw	a7, 80(sp)
	lw	t0, 84(sp)
	lw	t1, 88(sp)
	lw	t2, 92(sp)
	lw	t3, 96(sp)
	lw	t5, 100(sp)
	lw	t4, 104(sp)
	lw	a0, 44(sp)
	lw	a1, 48(sp)
	lw	a2, 52(sp)
	lw	a3, 56(sp)
	lw	a4, 60(sp)
	lw	a5, 64(sp)
	lw	s0, 68(sp)
	lw	s1, 72(sp)
	xor	a0, a0, a6
	xor	a1, a1, a7
	xor	a2, a2, t0
	xor	a3, a3, t1
	xor	a4, a4, t2
	xor	a5, a5, t3
	xor	s0, s0, t5
	xor	s1, s1, t4
	sw	a0, 44(sp)
	sw	a1, 48(sp)
	sw	a2, 52(sp)
	sw	a3, 56(sp)
	sw	a4, 60(sp)
	sw	a5, 64(sp)
	sw	s0, 68(sp)
	sw	s1, 72(sp)
	addi	a0, sp, 44
	call	aes_small.aes_planes.soft.mix_columns.inv_mix_columns_2
	addi	a0, sp, 44
	call	aes_small.aes_planes.soft.sbox.inv_sub_bytes
	addi	a2, s5, -3
	sltu	a3, a2, s5
	add	a3, a3, s4
	addi	a0, sp, 76
	mv	a1, s7
	call	aes_small.aes_planes.soft.round_keys.round_key.2
	lw	a6, 76(sp)
	lw	a7, 80(sp)
	lw	t0, 84(sp)
	lw	t1, 88(sp)
	lw	t2, 92(sp)
	lw	t3, 96(sp)
	lw	t5, 100(sp)
	lw	t4, 104(sp)
	lw	a0, 44(sp)
	lw	a1, 48(sp)
	lw	a2, 52(sp)
	lw	a3, 56(sp)
	lw	a4, 60(sp)
	lw	a5, 64(sp)
	lw	s0, 68(sp)
	lw	s1, 72(sp)
	xor	a0, a0, a6
	xor	a1, a1, a7
	xor	a2, a2, t0
	xor	a3, a3, t1
	xor	a4, a4, t2
	xor	a5, a5, t3
	xor	s0, s0, t5
	xor	s1, s1, t4
	sw	a0, 44(sp)
	sw	a1, 48(sp)
	sw	a2, 52(sp)
	sw	a3, 56(sp)
	sw	a4, 60(sp)
	sw	a5, 64(sp)
	sw	s0, 68(sp)
	sw	s1, 72(sp)
	addi	a0, sp, 44
	call	aes_small.aes_planes.soft.mix_columns.inv_mix_columns_1
	addi	a0, sp, 44
	call	aes_small.aes_planes.soft.sbox.inv_sub_bytes
	addi	s2, s2, 1
	seqz	a0, s2
	add	s3, s3, a0
	bne	s3, s9, .Laes_small_BB51_8
# %bb.10:                               #   in Loop: Header=BB51_9 Depth=1
	sltu	a0, s2, s8
	bnez	a0, .Laes_small_BB51_9
.Laes_small_BB51_11:                              # %"aes_soft::soft::ciphers::planes::DecryptPlaneCipher::process_planes::<#42add9d049d0c5fd>.exit"
	addi	a0, sp, 76
	mv	a1, s7
	li	a2, 0
	li	a3, 0
	call	aes_small.aes_planes.soft.round_keys.round_key.2
	lw	a6, 76(sp)
	lw	a7, 80(sp)
	lw	t0, 84(sp)
	lw	t1, 88(sp)
	lw	t2, 92(sp)
	lw	t3, 96(sp)
	lw	t5, 100(sp)
	lw	t4, 104(sp)
	lw	a0, 44(sp)
	lw	a1, 48(sp)
	lw	a2, 52(sp)
	lw	a3, 56(sp)
	lw	a4, 60(sp)
	lw	a5, 64(sp)
	lw	s0, 68(sp)
	lw	s1, 72(sp)
	xor	a0, a0, a6
	xor	a1, a1, a7
	xor	a2, a2, t0
	xor	a3, a3, t1
	xor	a4, a4, t2
	xor	a5, a5, t3
	xor	s0, s0, t5
	xor	s1, s1, t4
	sw	a0, 44(sp)
	sw	a1, 48(sp)
	sw	a2, 52(sp)
	sw	a3, 56(sp)
	sw	a4, 60(sp)
	sw	a5, 64(sp)
	sw	s0, 68(sp)
	sw	s1, 72(sp)
	sw	a4, 28(sp)
	sw	a5, 32(sp)
	sw	s0, 36(sp)
	sw	s1, 40(sp)
	sw	a0, 12(sp)
	sw	a1, 16(sp)
	sw	a2, 20(sp)
	sw	a3, 24(sp)
	addi	a0, sp, 76
	addi	a1, sp, 12
	call	aes_small.aes_planes.soft.word.transpose.transpose
	lw	a2, 76(sp)
	lw	a1, 80(sp)
	lw	a3, 84(sp)
	lw	a0, 88(sp)
	srli	a4, a2, 8
	srli	a5, a2, 16
	srli	s1, a2, 24
	srli	s0, a3, 8
	sb	a2, 0(s6)
	srli	a2, a3, 16
	sb	a4, 1(s6)
	sb	a5, 2(s6)
	sb	s1, 3(s6)
	sb	a3, 4(s6)
	sb	s0, 5(s6)
	lw	a4, 92(sp)
	lw	a5, 96(sp)
	lw	s1, 100(sp)
	lw	s0, 104(sp)
	srli	a3, a3, 24
	sb	a2, 6(s6)
	srli	a2, a4, 8
	sb	a3, 7(s6)
	srli	a3, a4, 16
	sb	a2, 9(s6)
	sb	a4, 8(s6)
	srli	a4, a4, 24
	sb	a3, 10(s6)
	srli	a2, s1, 8
	sb	a4, 11(s6)
	srli	a3, s1, 16
	sb	a2, 13(s6)
	sb	s1, 12(s6)
	srli	s1, s1, 24
	sb	a3, 14(s6)
	srli	a2, a1, 8
	sb	s1, 15(s6)
	srli	a3, a1, 16
	sb	a2, 17(s6)
	sb	a1, 16(s6)
	srli	a1, a1, 24
	sb	a3, 18(s6)
	srli	a2, a0, 8
	sb	a1, 19(s6)
	srli	a1, a0, 16
	sb	a2, 21(s6)
	sb	a0, 20(s6)
	srli	a0, a0, 24
	sb	a1, 22(s6)
	srli	a1, a5, 8
	sb	a0, 23(s6)
	srli	a0, a5, 16
	sb	a1, 25(s6)
	sb	a5, 24(s6)
	srli	a5, a5, 24
	sb	a0, 26(s6)
	srli	a0, s0, 8
	sb	a5, 27(s6)
	srli	a1, s0, 16
	sb	a0, 29(s6)
	sb	s0, 28(s6)
	srli	s0, s0, 24
	sb	a1, 30(s6)
	sb	s0, 31(s6)
	lw	ra, 156(sp)                     # 4-byte Folded Reload
	lw	s0, 152(sp)                     # 4-byte Folded Reload
	lw	s1, 148(sp)                     # 4-byte Folded Reload
	lw	s2, 144(sp)                     # 4-byte Folded Reload
	lw	s3, 140(sp)                     # 4-byte Folded Reload
	lw	s4, 136(sp)                     # 4-byte Folded Reload
	lw	s5, 132(sp)                     # 4-byte Folded Reload
	lw	s6, 128(sp)                     # 4-byte Folded Reload
	lw	s7, 124(sp)                     # 4-byte Folded Reload
	lw	s8, 120(sp)                     # 4-byte Folded Reload
	lw	s9, 116(sp)                     # 4-byte Folded Reload
	lw	s10, 112(sp)                    # 4-byte Folded Reload
	lw	s11, 108(sp)                    # 4-byte Folded Reload
	addi	sp, sp, 160
	ret
.Laes_small_func_end51:
	.size	aes_small.aes_soft.soft.ciphers.planes.process_outlined.2, .Laes_small_func_end51-aes_small.aes_soft.soft.ciphers.planes.process_outlined.2
                                        # -- End function
	.section	.text.aes_small.aes_planes.soft.sbox.inv_sub_bytes,"ax",@progbits
	.p2align	1                               # -- Begin function aes_planes::soft::sbox::inv_sub_bytes::<#e817d94f9a7b6ba6>
	.type	aes_small.aes_planes.soft.sbox.inv_sub_bytes,@function
aes_small.aes_planes.soft.sbox.inv_sub_bytes: # @aes_small.aes_planes.soft.sbox.inv_sub_bytes
# %bb.0:                                # %start
	addi	sp, sp, -64
	sw	ra, 60(sp)                      # 4-byte Folded Spill
	sw	s0, 56(sp)                      # 4-byte Folded Spill
	sw	s1, 52(sp)                      # 4-byte Folded Spill
	sw	s2, 48(sp)                      # 4-byte Folded Spill
	sw	s3, 44(sp)                      # 4-byte Folded Spill
	sw	s4, 40(sp)                      # 4-byte Folded Spill
	sw	s5, 36(sp)                      # 4-byte Folded Spill
	sw	s6, 32(sp)                      # 4-byte Folded Spill
	sw	s7, 28(sp)                      # 4-byte Folded Spill
	sw	s8, 24(sp)                      # 4-byte Folded Spill
	sw	s9, 20(sp)                      # 4-byte Folded Spill
	sw	s10, 16(sp)                     # 4-byte Folded Spill
	sw	s11, 12(sp)                     # 4-byte Folded Spill
	lw	a6, 0(a0)
	lw	a2, 4(a0)
	lw	a3, 16(a0)
	lw	s6, 20(a0)
	lw	a5, 24(a0)
	lw	s0, 28(a0)
	lw	a4, 8(a0)
	lw	s1, 12(a0)
	xor	a1, a2, a6
	xor	t2, s0, a5
	xor	t0, s6, a4
	xor	s5, a5, a3
	xor	t1, s6, s1
	xor	s2, a5, a2
	xor	t3, s0, a3
	xor	a3, a3, s1
	xor	s3, a4, a2
	xor	a4, s1, a6
	xor	a7, t2, a1
	xor	t4, t1, s2
	xor	t5, s0, t0
	xor	s4, t3, a5
	xor	s7, a3, a1
	xor	t1, s5, t0
	xor	t0, a3, s3
	xor	t6, a3, a6
	xor	s8, s5, a1
	xor	s2, s2, a4
	xor	s10, t2, a4
	xor	a2, s4, s1
	sw	a2, 8(sp)                       # 4-byte Folded Spill
	and	s1, a7, t1
	and	s11, s4, t3
	and	s9, t4, s7
	or	a5, t4, s7
	and	s0, s5, t6
	and	a1, s8, t5
	and	ra, s10, t2
	xor	a6, a5, s0
	xor	s0, s10, t0
	xor	a1, a1, a4
	and	a4, a2, t0
	and	s0, s0, a3
	xor	a4, a4, s0
	xor	s0, s0, ra
	xor	ra, s8, s6
	xor	s3, s3, s10
	xor	a2, s3, s11
	xor	a1, a1, s1
	xor	a2, a2, s1
	and	s1, ra, s2
	xor	a5, s9, a3
	xor	a5, a5, s1
	xor	s1, a6, a4
	xor	a1, a1, s0
	xor	a6, a2, a4
	xor	a4, a5, s6
	and	a5, a6, s1
	xor	a2, a6, a1
	xor	a4, a4, s0
	and	s0, a1, s1
	xor	s6, a5, a1
	xor	s1, s1, a4
	not	s0, s0
	and	s6, s6, s1
	and	s0, s0, s1
	xor	s1, a5, a4
	and	s1, s1, a2
	xor	a1, a1, s1
	and	s1, a6, a4
	and	s1, s1, a2
	xor	a2, a2, a5
	xor	a2, a2, s1
	xor	a4, s6, a4
	xor	s0, s0, a5
	and	s2, a1, s2
	xor	s1, a1, a2
	and	a6, a1, ra
	xor	a1, a1, a4
	and	s5, a2, s5
	and	t5, a4, t5
	and	s6, a4, s8
	and	a5, a2, t6
	xor	a2, a2, s0
	and	t3, s0, t3
	xor	a4, a4, s0
	and	t6, s0, s4
	and	s4, s1, s7
	and	s8, s1, t4
	and	s7, a4, t1
	and	a7, a4, a7
	and	t1, a1, a3
	and	s3, a1, s3
	and	t4, a2, s10
	xor	a1, a1, a2
	and	a2, a2, t2
	and	a3, a1, t0
	lw	a4, 8(sp)                       # 4-byte Folded Reload
	and	s9, a1, a4
	xor	s0, a5, t6
	xor	t2, a3, a5
	xor	a5, t5, t3
	xor	t0, t1, s6
	xor	t6, a5, s6
	xor	t1, s5, a5
	xor	a4, s4, s5
	xor	s1, s8, s2
	xor	a4, a4, s3
	xor	a5, s0, s3
	xor	a5, a5, s1
	xor	t3, s7, t5
	xor	s1, s7, a6
	xor	a1, a7, a2
	xor	a7, s0, s1
	xor	a2, a2, s1
	xor	t5, s8, a6
	xor	a6, s9, s8
	xor	s0, s9, t4
	xor	s1, t1, t4
	xor	a3, s4, t6
	xor	a2, a2, t6
	xor	a3, a3, a5
	xor	a5, a5, s1
	xor	s1, t2, a4
	xor	a4, a4, s0
	xor	a7, a4, a7
	xor	t1, t3, a4
	xor	a4, t5, a4
	xor	a3, a3, s0
	xor	s0, a6, s1
	xor	a2, a2, s1
	xor	s1, t0, a1
	xor	a1, a1, a5
	sw	s1, 0(a0)
	sw	s0, 4(a0)
	sw	a7, 8(a0)
	sw	a2, 12(a0)
	sw	t1, 16(a0)
	sw	a3, 20(a0)
	sw	a1, 24(a0)
	sw	a4, 28(a0)
	lw	ra, 60(sp)                      # 4-byte Folded Reload
	lw	s0, 56(sp)                      # 4-byte Folded Reload
	lw	s1, 52(sp)                      # 4-byte Folded Reload
	lw	s2, 48(sp)                      # 4-byte Folded Reload
	lw	s3, 44(sp)                      # 4-byte Folded Reload
	lw	s4, 40(sp)                      # 4-byte Folded Reload
	lw	s5, 36(sp)                      # 4-byte Folded Reload
	lw	s6, 32(sp)                      # 4-byte Folded Reload
	lw	s7, 28(sp)                      # 4-byte Folded Reload
	lw	s8, 24(sp)                      # 4-byte Folded Reload
	lw	s9, 20(sp)                      # 4-byte Folded Reload
	lw	s10, 16(sp)                     # 4-byte Folded Reload
	lw	s11, 12(sp)                     # 4-byte Folded Reload
	addi	sp, sp, 64
	ret
.Laes_small_func_end52:
	.size	aes_small.aes_planes.soft.sbox.inv_sub_bytes, .Laes_small_func_end52-aes_small.aes_planes.soft.sbox.inv_sub_bytes
                                        # -- End function
	.section	.text.aes_small.aes_planes.soft.mix_columns.inv_mix_columns_0,"ax",@progbits
	.p2align	1                               # -- Begin function aes_planes::soft::mix_columns::inv_mix_columns_0::<#e817d94f9a7b6ba6>
	.type	aes_small.aes_planes.soft.mix_columns.inv_mix_columns_0,@function
aes_small.aes_planes.soft.mix_columns.inv_mix_columns_0: # @aes_small.aes_planes.soft.mix_columns.inv_mix_columns_0
# %bb.0:                                # %start
	addi	sp, sp, -64
	sw	ra, 60(sp)                      # 4-byte Folded Spill
	sw	s0, 56(sp)                      # 4-byte Folded Spill
	sw	s1, 52(sp)                      # 4-byte Folded Spill
	sw	s2, 48(sp)                      # 4-byte Folded Spill
	sw	s3, 44(sp)                      # 4-byte Folded Spill
	sw	s4, 40(sp)                      # 4-byte Folded Spill
	sw	s5, 36(sp)                      # 4-byte Folded Spill
	sw	s6, 32(sp)                      # 4-byte Folded Spill
	sw	s7, 28(sp)                      # 4-byte Folded Spill
	sw	s8, 24(sp)                      # 4-byte Folded Spill
	sw	s9, 20(sp)                      # 4-byte Folded Spill
	sw	s10, 16(sp)                     # 4-byte Folded Spill
	sw	s11, 12(sp)                     # 4-byte Folded Spill
	lw	a1, 0(a0)
	lw	a2, 4(a0)
	lw	a3, 8(a0)
	lw	a4, 12(a0)
	lw	a5, 16(a0)
	lw	a7, 20(a0)
	lw	t0, 24(a0)
	lw	t1, 28(a0)
	srli	a6, a1, 8
	slli	t2, a1, 24
	srli	t3, a2, 8
	slli	t4, a2, 24
	srli	t5, a3, 8
	slli	t6, a3, 24
	srli	s2, a4, 8
	slli	s3, a4, 24
	srli	s4, a5, 8
	slli	s5, a5, 24
	srli	s6, a7, 8
	slli	s7, a7, 24
	srli	s8, t0, 8
	slli	s9, t0, 24
	srli	s10, t1, 8
	slli	s1, t1, 24
	or	s0, t2, a6
	or	a6, t4, t3
	or	t2, t6, t5
	or	t3, s3, s2
	or	t4, s5, s4
	or	t5, s7, s6
	or	t6, s9, s8
	or	s3, s1, s10
	xor	s6, s0, a1
	xor	s2, a6, a2
	xor	s1, t2, a3
	xor	s4, t3, a4
	xor	s5, t4, a5
	xor	t5, t5, a7
	xor	t6, t6, t0
	xor	s0, s3, t1
	xor	t4, s0, a1
	xor	a1, s6, a2
	xor	a6, s2, a3
	xor	a4, a4, s1
	xor	a3, s4, a5
	xor	a7, s5, a7
	xor	t3, t5, t0
	xor	a2, t6, t1
	xor	t2, a1, s0
	xor	t1, a4, s0
	xor	t0, a3, s0
	xor	a4, a2, t3
	xor	a5, t3, s6
	xor	s3, a2, s1
	xor	a3, t3, s4
	xor	a1, a6, s5
	xor	s1, a2, t5
	xor	s0, s0, a7
	xor	s4, a4, s2
	xor	s2, s3, t4
	xor	s8, a3, t2
	xor	s9, a4, a1
	xor	s11, s1, t1
	xor	t5, t0, t6
	srli	t6, a5, 16
	slli	s3, a5, 16
	srli	s5, s0, 16
	slli	s7, s0, 16
	xor	t4, a5, t4
	xor	s6, a2, s0
	or	t6, s3, t6
	srli	s3, s4, 16
	slli	s10, s4, 16
	srli	ra, s2, 16
	slli	s1, s2, 16
	srli	a5, s8, 16
	slli	a3, s8, 16
	srli	a4, s9, 16
	slli	a2, s9, 16
	or	s5, s7, s5
	srli	s7, s11, 16
	xor	t2, t2, s4
	slli	s4, s11, 16
	xor	a6, a6, s2
	srli	s2, t5, 16
	xor	t1, t1, s8
	slli	s0, t5, 16
	xor	t0, t0, s9
	xor	a7, a7, s11
	xor	t3, t3, t5
	or	a1, s10, s3
	or	s1, s1, ra
	or	a3, a3, a5
	or	a2, a2, a4
	or	a4, s4, s7
	or	a5, s0, s2
	xor	s0, t6, t4
	xor	t4, s6, s5
	xor	a1, t2, a1
	xor	s1, a6, s1
	xor	a3, t1, a3
	xor	a2, t0, a2
	xor	a4, a7, a4
	xor	a5, t3, a5
	sw	s0, 0(a0)
	sw	a1, 4(a0)
	sw	s1, 8(a0)
	sw	a3, 12(a0)
	sw	a2, 16(a0)
	sw	a4, 20(a0)
	sw	a5, 24(a0)
	sw	t4, 28(a0)
	lw	ra, 60(sp)                      # 4-byte Folded Reload
	lw	s0, 56(sp)                      # 4-byte Folded Reload
	lw	s1, 52(sp)                      # 4-byte Folded Reload
	lw	s2, 48(sp)                      # 4-byte Folded Reload
	lw	s3, 44(sp)                      # 4-byte Folded Reload
	lw	s4, 40(sp)                      # 4-byte Folded Reload
	lw	s5, 36(sp)                      # 4-byte Folded Reload
	lw	s6, 32(sp)                      # 4-byte Folded Reload
	lw	s7, 28(sp)                      # 4-byte Folded Reload
	lw	s8, 24(sp)                      # 4-byte Folded Reload
	lw	s9, 20(sp)                      # 4-byte Folded Reload
	lw	s10, 16(sp)                     # 4-byte Folded Reload
	lw	s11, 12(sp)                     # 4-byte Folded Reload
	addi	sp, sp, 64
	ret
.Laes_small_func_end53:
	.size	aes_small.aes_planes.soft.mix_columns.inv_mix_columns_0, .Laes_small_func_end53-aes_small.aes_planes.soft.mix_columns.inv_mix_columns_0
                                        # -- End function
	.section	.text.aes_small.aes_planes.soft.mix_columns.inv_mix_columns_3,"ax",@progbits
	.p2align	1                               # -- Begin function aes_planes::soft::mix_columns::inv_mix_columns_3::<#e817d94f9a7b6ba6>
	.type	aes_small.aes_planes.soft.mix_columns.inv_mix_columns_3,@function
aes_small.aes_planes.soft.mix_columns.inv_mix_columns_3: # @aes_small.aes_planes.soft.mix_columns.inv_mix_columns_3
# %bb.0:                                # %start
	addi	sp, sp, -64
	sw	ra, 60(sp)                      # 4-byte Folded Spill
	sw	s0, 56(sp)                      # 4-byte Folded Spill
	sw	s1, 52(sp)                      # 4-byte Folded Spill
	sw	s2, 48(sp)                      # 4-byte Folded Spill
	sw	s3, 44(sp)                      # 4-byte Folded Spill
	sw	s4, 40(sp)                      # 4-byte Folded Spill
	sw	s5, 36(sp)                      # 4-byte Folded Spill
	sw	s6, 32(sp)                      # 4-byte Folded Spill
	sw	s7, 28(sp)                      # 4-byte Folded Spill
	sw	s8, 24(sp)                      # 4-byte Folded Spill
	sw	s9, 20(sp)                      # 4-byte Folded Spill
	sw	s10, 16(sp)                     # 4-byte Folded Spill
	sw	s11, 12(sp)                     # 4-byte Folded Spill
	lw	s10, 0(a0)
	lw	s11, 4(a0)
	lw	ra, 8(a0)
	lw	a5, 12(a0)
	lw	a6, 16(a0)
	lw	a7, 20(a0)
	lw	t0, 24(a0)
	lw	t1, 28(a0)
	srli	t3, s10, 14
	slli	t4, s10, 18
	srli	t2, s10, 6
	slli	t5, s10, 26
	srli	t6, s11, 14
	slli	s2, s11, 18
	srli	s4, s11, 6
	slli	s7, s11, 26
	srli	s3, ra, 14
	slli	s5, ra, 18
	srli	s6, ra, 6
	slli	s8, ra, 26
	srli	s9, a5, 14
	slli	a4, a5, 18
	srli	s1, a5, 6
	slli	s0, a5, 26
	srli	a3, a6, 14
	or	t3, t4, t3
	slli	a1, a6, 18
	or	a2, t5, t2
	sw	a2, 8(sp)                       # 4-byte Folded Spill
	srli	t5, a6, 6
	or	t2, s2, t6
	slli	t6, a6, 26
	or	a2, s7, s4
	sw	a2, 4(sp)                       # 4-byte Folded Spill
	srli	s2, a7, 14
	or	s5, s5, s3
	slli	s3, a7, 18
	or	t4, s8, s6
	srli	s4, a7, 6
	or	s6, a4, s9
	slli	s8, a7, 26
	or	s1, s1, s0
	srli	s9, t0, 14
	or	s7, a1, a3
	slli	a3, t0, 18
	or	t6, t6, t5
	srli	a1, t0, 6
	or	t5, s3, s2
	slli	a4, t0, 26
	or	s2, s8, s4
	srli	s0, t1, 14
	or	s9, a3, s9
	slli	a3, t1, 18
	or	s3, a4, a1
	srli	a1, t1, 6
	or	a3, a3, s0
	slli	a4, t1, 26
	or	s4, a4, a1
	lui	a4, 1036240
	lui	s0, 12336
	addi	s0, s0, 771
	and	a1, t3, s0
	and	t2, t2, s0
	and	s5, s5, s0
	and	s6, s6, s0
	and	s7, s7, s0
	and	s8, t5, s0
	and	s9, s9, s0
	and	a2, a3, s0
	addi	a3, a4, -772
	lw	a4, 8(sp)                       # 4-byte Folded Reload
	and	a4, a4, a3
	lw	s0, 4(sp)                       # 4-byte Folded Reload
	and	s0, s0, a3
	and	t3, t4, a3
	and	s1, s1, a3
	and	t4, t6, a3
	and	t5, s2, a3
	and	t6, s3, a3
	and	a3, s4, a3
	or	a1, a1, a4
	or	a4, t2, s0
	or	s0, s5, t3
	or	s1, s6, s1
	or	t2, s7, t4
	or	t3, s8, t5
	or	t4, s9, t6
	or	t6, a2, a3
	xor	s3, a1, s10
	xor	t5, a4, s11
	xor	s0, s0, ra
	xor	s1, s1, a5
	xor	a4, t2, a6
	xor	a3, t3, a7
	xor	s2, t4, t0
	xor	a1, t6, t1
	xor	s6, a1, s10
	xor	t3, s3, s11
	xor	t2, t5, ra
	xor	a5, a5, s0
	xor	a2, s1, a6
	xor	a7, a4, a7
	xor	t4, a3, t0
	xor	t6, s2, t1
	xor	t3, t3, a1
	xor	t1, a5, a1
	xor	t0, a2, a1
	xor	a2, t6, t4
	xor	a5, t4, s3
	xor	s0, t6, s0
	xor	s1, t4, s1
	xor	a4, t2, a4
	xor	a3, t6, a3
	xor	a1, a1, a7
	xor	s7, a2, t5
	xor	s0, s0, s6
	xor	s1, s1, t3
	xor	a2, a2, a4
	xor	ra, a3, t1
	xor	t5, t0, s2
	srli	s2, a5, 20
	slli	s3, a5, 12
	srli	s4, a5, 12
	slli	s5, a5, 20
	srli	s8, a1, 20
	slli	s10, a1, 12
	srli	s9, a1, 12
	slli	s11, a1, 20
	xor	a3, a5, s6
	sw	a3, 8(sp)                       # 4-byte Folded Spill
	xor	s6, t6, a1
	or	t6, s3, s2
	or	s2, s5, s4
	srli	a1, s7, 20
	slli	a5, s7, 12
	srli	a3, s7, 12
	slli	a4, s7, 20
	srli	s3, s0, 20
	or	s4, s10, s8
	slli	s5, s0, 12
	or	s8, s11, s9
	srli	s9, s0, 12
	xor	t3, t3, s7
	slli	s7, s0, 20
	xor	t2, t2, s0
	srli	s0, s1, 20
	or	s11, a5, a1
	slli	a5, s1, 12
	or	s10, a4, a3
	srli	a3, s1, 12
	xor	t1, t1, s1
	slli	s1, s1, 20
	or	s5, s5, s3
	srli	a1, a2, 20
	or	s3, s7, s9
	slli	a4, a2, 12
	or	a6, a5, s0
	srli	s0, a2, 12
	xor	t0, t0, a2
	slli	a2, a2, 20
	or	s7, s1, a3
	srli	s1, ra, 20
	or	a1, a1, a4
	slli	a4, ra, 12
	or	s9, a2, s0
	srli	s0, ra, 12
	xor	a7, a7, ra
	slli	ra, ra, 20
	or	a4, a4, s1
	srli	s1, t5, 20
	or	ra, ra, s0
	slli	a3, t5, 12
	or	a3, a3, s1
	srli	s1, t5, 12
	xor	t4, t4, t5
	slli	t5, t5, 20
	or	s1, t5, s1
	lui	t5, 986895
	lui	a2, 61681
	addi	a2, a2, -241
	addi	s0, t5, 240
	and	t5, t6, a2
	and	a5, s2, s0
	or	t5, t5, a5
	and	a5, s4, a2
	and	t6, s11, a2
	and	s2, s5, a2
	and	a6, a6, a2
	and	s4, a1, a2
	and	s11, a4, a2
	and	s5, a3, a2
	and	a3, s8, s0
	and	a1, s10, s0
	and	a2, s3, s0
	and	a4, s7, s0
	and	s3, s9, s0
	and	s7, ra, s0
	and	s0, s0, s1
	or	a3, a3, a5
	or	t6, t6, a1
	or	a2, s2, a2
	or	a4, a6, a4
	or	a5, s4, s3
	or	s1, s11, s7
	or	s0, s5, s0
	lw	a1, 8(sp)                       # 4-byte Folded Reload
	xor	a6, a1, t5
	xor	a3, s6, a3
	xor	a1, t3, t6
	xor	a2, t2, a2
	xor	a4, t1, a4
	xor	a5, t0, a5
	xor	s1, a7, s1
	xor	s0, t4, s0
	sw	a6, 0(a0)
	sw	a1, 4(a0)
	sw	a2, 8(a0)
	sw	a4, 12(a0)
	sw	a5, 16(a0)
	sw	s1, 20(a0)
	sw	s0, 24(a0)
	sw	a3, 28(a0)
	lw	ra, 60(sp)                      # 4-byte Folded Reload
	lw	s0, 56(sp)                      # 4-byte Folded Reload
	lw	s1, 52(sp)                      # 4-byte Folded Reload
	lw	s2, 48(sp)                      # 4-byte Folded Reload
	lw	s3, 44(sp)                      # 4-byte Folded Reload
	lw	s4, 40(sp)                      # 4-byte Folded Reload
	lw	s5, 36(sp)                      # 4-byte Folded Reload
	lw	s6, 32(sp)                      # 4-byte Folded Reload
	lw	s7, 28(sp)                      # 4-byte Folded Reload
	lw	s8, 24(sp)                      # 4-byte Folded Reload
	lw	s9, 20(sp)                      # 4-byte Folded Reload
	lw	s10, 16(sp)                     # 4-byte Folded Reload
	lw	s11, 12(sp)                     # 4-byte Folded Reload
	addi	sp, sp, 64
	ret
.Laes_small_func_end54:
	.size	aes_small.aes_planes.soft.mix_columns.inv_mix_columns_3, .Laes_small_func_end54-aes_small.aes_planes.soft.mix_columns.inv_mix_columns_3
                                        # -- End function
	.section	.text.aes_small.aes_planes.soft.mix_columns.inv_mix_columns_2,"ax",@progbits
	.p2align	1                               # -- Begin function aes_planes::soft::mix_columns::inv_mix_columns_2::<#e817d94f9a7b6ba6>
	.type	aes_small.aes_planes.soft.mix_columns.inv_mix_columns_2,@function
aes_small.aes_planes.soft.mix_columns.inv_mix_columns_2: # @aes_small.aes_planes.soft.mix_columns.inv_mix_columns_2
# %bb.0:                                # %start
	addi	sp, sp, -64
	sw	ra, 60(sp)                      # 4-byte Folded Spill
	sw	s0, 56(sp)                      # 4-byte Folded Spill
	sw	s1, 52(sp)                      # 4-byte Folded Spill
	sw	s2, 48(sp)                      # 4-byte Folded Spill
	sw	s3, 44(sp)                      # 4-byte Folded Spill
	sw	s4, 40(sp)                      # 4-byte Folded Spill
	sw	s5, 36(sp)                      # 4-byte Folded Spill
	sw	s6, 32(sp)                      # 4-byte Folded Spill
	sw	s7, 28(sp)                      # 4-byte Folded Spill
	sw	s8, 24(sp)                      # 4-byte Folded Spill
	sw	s9, 20(sp)                      # 4-byte Folded Spill
	sw	s10, 16(sp)                     # 4-byte Folded Spill
	sw	s11, 12(sp)                     # 4-byte Folded Spill
	lw	a2, 0(a0)
	lw	a3, 4(a0)
	lw	a5, 8(a0)
	lw	a1, 12(a0)
	lw	t6, 16(a0)
	lw	a6, 20(a0)
	lw	a7, 24(a0)
	lw	t0, 28(a0)
	srli	t1, a2, 12
	slli	t2, a2, 20
	srli	t3, a2, 4
	slli	t4, a2, 28
	srli	t5, a3, 12
	slli	a4, a3, 20
	srli	s3, a3, 4
	slli	s6, a3, 28
	srli	s2, a5, 12
	slli	s5, a5, 20
	srli	s4, a5, 4
	slli	s7, a5, 28
	srli	s8, a1, 12
	slli	s9, a1, 20
	srli	s11, a1, 4
	slli	ra, a1, 28
	srli	s10, t6, 12
	or	t2, t2, t1
	slli	s1, t6, 20
	or	s0, t4, t3
	sw	s0, 8(sp)                       # 4-byte Folded Spill
	srli	t4, t6, 4
	or	t3, a4, t5
	slli	a4, t6, 28
	or	t5, s6, s3
	srli	s3, a6, 12
	or	s2, s5, s2
	slli	s5, a6, 20
	or	s4, s7, s4
	srli	s7, a6, 4
	or	s6, s9, s8
	slli	s0, a6, 28
	or	s8, ra, s11
	srli	s9, a7, 12
	or	s10, s1, s10
	slli	s11, a7, 20
	or	t4, a4, t4
	srli	ra, a7, 4
	or	t1, s5, s3
	slli	s1, a7, 28
	or	s3, s0, s7
	srli	s7, t0, 12
	or	s5, s11, s9
	slli	s0, t0, 20
	or	s9, s1, ra
	srli	s1, t0, 4
	or	s0, s0, s7
	slli	a4, t0, 28
	or	s7, a4, s1
	lui	s1, 61681
	addi	s1, s1, -241
	and	s11, t2, s1
	and	t2, t3, s1
	and	t3, s2, s1
	and	s2, s6, s1
	and	s6, s10, s1
	and	t1, t1, s1
	and	s5, s5, s1
	and	s10, s0, s1
	lui	s1, 986895
	addi	s1, s1, 240
	lw	a4, 8(sp)                       # 4-byte Folded Reload
	and	a4, a4, s1
	and	s0, t5, s1
	and	t5, s4, s1
	and	s4, s8, s1
	and	t4, t4, s1
	and	s3, s3, s1
	and	s8, s9, s1
	and	s1, s7, s1
	or	a4, s11, a4
	or	s0, t2, s0
	or	t2, t3, t5
	or	t3, s2, s4
	or	t4, s6, t4
	or	t1, t1, s3
	or	t5, s5, s8
	or	s3, s10, s1
	xor	a4, a4, a2
	xor	s2, s0, a3
	xor	s0, t2, a5
	xor	s6, t3, a1
	xor	s4, t4, t6
	xor	s5, t1, a6
	xor	t5, t5, a7
	xor	s1, s3, t0
	xor	t4, s1, a2
	xor	a3, a3, a4
	xor	t1, s2, a5
	xor	a1, a1, s0
	xor	a5, s6, t6
	xor	a6, s4, a6
	xor	t3, s5, a7
	xor	a2, t5, t0
	xor	t2, a3, s1
	xor	t0, a1, s1
	xor	a7, a5, s1
	xor	a5, a2, t3
	xor	a4, t3, a4
	xor	t6, a2, s0
	xor	a3, t3, s6
	xor	a1, t1, s4
	xor	s0, a2, s5
	xor	s1, s1, a6
	xor	s2, a5, s2
	xor	t6, t6, t4
	xor	s8, a3, t2
	xor	s9, a5, a1
	xor	ra, s0, t0
	xor	t5, a7, t5
	srli	s3, a4, 16
	slli	s4, a4, 16
	srli	s5, s1, 16
	slli	s7, s1, 16
	xor	t4, a4, t4
	xor	s6, a2, s1
	or	s3, s4, s3
	srli	s4, s2, 16
	slli	s10, s2, 16
	srli	s11, t6, 16
	slli	s1, t6, 16
	srli	a4, s8, 16
	slli	a3, s8, 16
	srli	a1, s9, 16
	slli	a2, s9, 16
	or	s5, s7, s5
	srli	s7, ra, 16
	xor	t2, t2, s2
	slli	s2, ra, 16
	xor	t1, t1, t6
	srli	t6, t5, 16
	xor	t0, t0, s8
	slli	s0, t5, 16
	xor	a7, a7, s9
	xor	a6, a6, ra
	xor	t3, t3, t5
	or	a5, s10, s4
	or	s1, s1, s11
	or	a3, a3, a4
	or	a1, a1, a2
	or	a2, s2, s7
	or	a4, s0, t6
	xor	s0, s3, t4
	xor	t4, s6, s5
	xor	a5, t2, a5
	xor	s1, t1, s1
	xor	a3, t0, a3
	xor	a1, a7, a1
	xor	a2, a6, a2
	xor	a4, t3, a4
	sw	s0, 0(a0)
	sw	a5, 4(a0)
	sw	s1, 8(a0)
	sw	a3, 12(a0)
	sw	a1, 16(a0)
	sw	a2, 20(a0)
	sw	a4, 24(a0)
	sw	t4, 28(a0)
	lw	ra, 60(sp)                      # 4-byte Folded Reload
	lw	s0, 56(sp)                      # 4-byte Folded Reload
	lw	s1, 52(sp)                      # 4-byte Folded Reload
	lw	s2, 48(sp)                      # 4-byte Folded Reload
	lw	s3, 44(sp)                      # 4-byte Folded Reload
	lw	s4, 40(sp)                      # 4-byte Folded Reload
	lw	s5, 36(sp)                      # 4-byte Folded Reload
	lw	s6, 32(sp)                      # 4-byte Folded Reload
	lw	s7, 28(sp)                      # 4-byte Folded Reload
	lw	s8, 24(sp)                      # 4-byte Folded Reload
	lw	s9, 20(sp)                      # 4-byte Folded Reload
	lw	s10, 16(sp)                     # 4-byte Folded Reload
	lw	s11, 12(sp)                     # 4-byte Folded Reload
	addi	sp, sp, 64
	ret
.Laes_small_func_end55:
	.size	aes_small.aes_planes.soft.mix_columns.inv_mix_columns_2, .Laes_small_func_end55-aes_small.aes_planes.soft.mix_columns.inv_mix_columns_2
                                        # -- End function
	.section	.text.aes_small.aes_planes.soft.mix_columns.inv_mix_columns_1,"ax",@progbits
	.p2align	1                               # -- Begin function aes_planes::soft::mix_columns::inv_mix_columns_1::<#e817d94f9a7b6ba6>
	.type	aes_small.aes_planes.soft.mix_columns.inv_mix_columns_1,@function
aes_small.aes_planes.soft.mix_columns.inv_mix_columns_1: # @aes_small.aes_planes.soft.mix_columns.inv_mix_columns_1
# %bb.0:                                # %start
	addi	sp, sp, -64
	sw	ra, 60(sp)                      # 4-byte Folded Spill
	sw	s0, 56(sp)                      # 4-byte Folded Spill
	sw	s1, 52(sp)                      # 4-byte Folded Spill
	sw	s2, 48(sp)                      # 4-byte Folded Spill
	sw	s3, 44(sp)                      # 4-byte Folded Spill
	sw	s4, 40(sp)                      # 4-byte Folded Spill
	sw	s5, 36(sp)                      # 4-byte Folded Spill
	sw	s6, 32(sp)                      # 4-byte Folded Spill
	sw	s7, 28(sp)                      # 4-byte Folded Spill
	sw	s8, 24(sp)                      # 4-byte Folded Spill
	sw	s9, 20(sp)                      # 4-byte Folded Spill
	sw	s10, 16(sp)                     # 4-byte Folded Spill
	sw	s11, 12(sp)                     # 4-byte Folded Spill
	lw	s10, 0(a0)
	lw	s11, 4(a0)
	lw	ra, 8(a0)
	lw	a5, 12(a0)
	lw	a6, 16(a0)
	lw	a7, 20(a0)
	lw	t0, 24(a0)
	lw	t1, 28(a0)
	srli	t3, s10, 10
	slli	t4, s10, 22
	srli	t2, s10, 2
	slli	t5, s10, 30
	srli	t6, s11, 10
	slli	s2, s11, 22
	srli	s4, s11, 2
	slli	s7, s11, 30
	srli	s3, ra, 10
	slli	s5, ra, 22
	srli	s6, ra, 2
	slli	s8, ra, 30
	srli	s9, a5, 10
	slli	a4, a5, 22
	srli	s1, a5, 2
	slli	s0, a5, 30
	srli	a3, a6, 10
	or	t3, t4, t3
	slli	a1, a6, 22
	or	a2, t5, t2
	sw	a2, 8(sp)                       # 4-byte Folded Spill
	srli	t5, a6, 2
	or	t2, s2, t6
	slli	t6, a6, 30
	or	a2, s7, s4
	sw	a2, 4(sp)                       # 4-byte Folded Spill
	srli	s2, a7, 10
	or	s5, s5, s3
	slli	s3, a7, 22
	or	t4, s8, s6
	srli	s4, a7, 2
	or	s6, a4, s9
	slli	s8, a7, 30
	or	s1, s1, s0
	srli	s9, t0, 10
	or	s7, a1, a3
	slli	a3, t0, 22
	or	t6, t6, t5
	srli	a1, t0, 2
	or	t5, s3, s2
	slli	a4, t0, 30
	or	s2, s8, s4
	srli	s0, t1, 10
	or	s9, a3, s9
	slli	a3, t1, 22
	or	s3, a4, a1
	srli	a1, t1, 2
	or	a3, a3, s0
	slli	a4, t1, 30
	or	s4, a4, a1
	lui	a4, 789516
	lui	s0, 259060
	addi	s0, s0, -193
	and	a1, t3, s0
	and	t2, t2, s0
	and	s5, s5, s0
	and	s6, s6, s0
	and	s7, s7, s0
	and	s8, t5, s0
	and	s9, s9, s0
	and	a2, a3, s0
	addi	a3, a4, 192
	lw	a4, 8(sp)                       # 4-byte Folded Reload
	and	a4, a4, a3
	lw	s0, 4(sp)                       # 4-byte Folded Reload
	and	s0, s0, a3
	and	t3, t4, a3
	and	s1, s1, a3
	and	t4, t6, a3
	and	t5, s2, a3
	and	t6, s3, a3
	and	a3, s4, a3
	or	a1, a1, a4
	or	a4, t2, s0
	or	s0, s5, t3
	or	s1, s6, s1
	or	t2, s7, t4
	or	t3, s8, t5
	or	t4, s9, t6
	or	t6, a2, a3
	xor	s3, a1, s10
	xor	t5, a4, s11
	xor	s0, s0, ra
	xor	s1, s1, a5
	xor	a4, t2, a6
	xor	a3, t3, a7
	xor	s2, t4, t0
	xor	a1, t6, t1
	xor	s6, a1, s10
	xor	t3, s3, s11
	xor	t2, t5, ra
	xor	a5, a5, s0
	xor	a2, s1, a6
	xor	a7, a4, a7
	xor	t4, a3, t0
	xor	t6, s2, t1
	xor	t3, t3, a1
	xor	t1, a5, a1
	xor	t0, a2, a1
	xor	a2, t6, t4
	xor	a5, t4, s3
	xor	s0, t6, s0
	xor	s1, t4, s1
	xor	a4, t2, a4
	xor	a3, t6, a3
	xor	a1, a1, a7
	xor	s7, a2, t5
	xor	s0, s0, s6
	xor	s1, s1, t3
	xor	a2, a2, a4
	xor	ra, a3, t1
	xor	t5, t0, s2
	srli	s2, a5, 20
	slli	s3, a5, 12
	srli	s4, a5, 12
	slli	s5, a5, 20
	srli	s8, a1, 20
	slli	s10, a1, 12
	srli	s9, a1, 12
	slli	s11, a1, 20
	xor	a3, a5, s6
	sw	a3, 8(sp)                       # 4-byte Folded Spill
	xor	s6, t6, a1
	or	t6, s3, s2
	or	s2, s5, s4
	srli	a1, s7, 20
	slli	a5, s7, 12
	srli	a3, s7, 12
	slli	a4, s7, 20
	srli	s3, s0, 20
	or	s4, s10, s8
	slli	s5, s0, 12
	or	s8, s11, s9
	srli	s9, s0, 12
	xor	t3, t3, s7
	slli	s7, s0, 20
	xor	t2, t2, s0
	srli	s0, s1, 20
	or	s11, a5, a1
	slli	a5, s1, 12
	or	s10, a4, a3
	srli	a3, s1, 12
	xor	t1, t1, s1
	slli	s1, s1, 20
	or	s5, s5, s3
	srli	a1, a2, 20
	or	s3, s7, s9
	slli	a4, a2, 12
	or	a6, a5, s0
	srli	s0, a2, 12
	xor	t0, t0, a2
	slli	a2, a2, 20
	or	s7, s1, a3
	srli	s1, ra, 20
	or	a1, a1, a4
	slli	a4, ra, 12
	or	s9, a2, s0
	srli	s0, ra, 12
	xor	a7, a7, ra
	slli	ra, ra, 20
	or	a4, a4, s1
	srli	s1, t5, 20
	or	ra, ra, s0
	slli	a3, t5, 12
	or	a3, a3, s1
	srli	s1, t5, 12
	xor	t4, t4, t5
	slli	t5, t5, 20
	or	s1, t5, s1
	lui	t5, 986895
	lui	a2, 61681
	addi	a2, a2, -241
	addi	s0, t5, 240
	and	t5, t6, a2
	and	a5, s2, s0
	or	t5, t5, a5
	and	a5, s4, a2
	and	t6, s11, a2
	and	s2, s5, a2
	and	a6, a6, a2
	and	s4, a1, a2
	and	s11, a4, a2
	and	s5, a3, a2
	and	a3, s8, s0
	and	a1, s10, s0
	and	a2, s3, s0
	and	a4, s7, s0
	and	s3, s9, s0
	and	s7, ra, s0
	and	s0, s0, s1
	or	a3, a3, a5
	or	t6, t6, a1
	or	a2, s2, a2
	or	a4, a6, a4
	or	a5, s4, s3
	or	s1, s11, s7
	or	s0, s5, s0
	lw	a1, 8(sp)                       # 4-byte Folded Reload
	xor	a6, a1, t5
	xor	a3, s6, a3
	xor	a1, t3, t6
	xor	a2, t2, a2
	xor	a4, t1, a4
	xor	a5, t0, a5
	xor	s1, a7, s1
	xor	s0, t4, s0
	sw	a6, 0(a0)
	sw	a1, 4(a0)
	sw	a2, 8(a0)
	sw	a4, 12(a0)
	sw	a5, 16(a0)
	sw	s1, 20(a0)
	sw	s0, 24(a0)
	sw	a3, 28(a0)
	lw	ra, 60(sp)                      # 4-byte Folded Reload
	lw	s0, 56(sp)                      # 4-byte Folded Reload
	lw	s1, 52(sp)                      # 4-byte Folded Reload
	lw	s2, 48(sp)                      # 4-byte Folded Reload
	lw	s3, 44(sp)                      # 4-byte Folded Reload
	lw	s4, 40(sp)                      # 4-byte Folded Reload
	lw	s5, 36(sp)                      # 4-byte Folded Reload
	lw	s6, 32(sp)                      # 4-byte Folded Reload
	lw	s7, 28(sp)                      # 4-byte Folded Reload
	lw	s8, 24(sp)                      # 4-byte Folded Reload
	lw	s9, 20(sp)                      # 4-byte Folded Reload
	lw	s10, 16(sp)                     # 4-byte Folded Reload
	lw	s11, 12(sp)                     # 4-byte Folded Reload
	addi	sp, sp, 64
	ret
.Laes_small_func_end56:
	.size	aes_small.aes_planes.soft.mix_columns.inv_mix_columns_1, .Laes_small_func_end56-aes_small.aes_planes.soft.mix_columns.inv_mix_columns_1
                                        # -- End function
	.section	.text.aes_small.aes_narrow.blocks.process_all_batches.2,"ax",@progbits
	.p2align	1                               # -- Begin function aes_narrow::blocks::process_all_batches::<#a3dcb71d05bd149b>
	.type	aes_small.aes_narrow.blocks.process_all_batches.2,@function
aes_small.aes_narrow.blocks.process_all_batches.2: # @aes_small.aes_narrow.blocks.process_all_batches.2
# %bb.0:                                # %start
	addi	sp, sp, -48
	sw	ra, 44(sp)                      # 4-byte Folded Spill
	sw	s0, 40(sp)                      # 4-byte Folded Spill
	sw	s1, 36(sp)                      # 4-byte Folded Spill
	sw	s2, 32(sp)                      # 4-byte Folded Spill
	sw	s3, 28(sp)                      # 4-byte Folded Spill
	sw	s4, 24(sp)                      # 4-byte Folded Spill
	sw	s5, 20(sp)                      # 4-byte Folded Spill
	sw	s6, 16(sp)                      # 4-byte Folded Spill
	sw	s7, 12(sp)                      # 4-byte Folded Spill
	mv	s4, a1
	or	a1, a4, a5
	beqz	a1, .Laes_small_BB57_7
# %bb.1:                                # %join.5.preheader
	mv	s6, a5
	mv	s7, a4
	mv	s2, a3
	mv	s3, a2
	mv	s5, a0
	li	a0, 0
	li	s0, 0
	j	.Laes_small_BB57_3
.Laes_small_BB57_2:                               # %join.5
                                        #   in Loop: Header=BB57_3 Depth=1
	sltu	a1, s0, s6
	mv	a0, s1
	beqz	a1, .Laes_small_BB57_7
.Laes_small_BB57_3:                               # %join.5
                                        # =>This Inner Loop Header: Depth=1
	sltu	a1, s7, a0
	sub	a2, s6, s0
	sub	a2, a2, a1
	sub	a1, s7, a0
	seqz	a2, a2
	addi	a2, a2, -1
	or	a4, a2, a1
	li	a1, 2
	bltu	a4, a1, .Laes_small_BB57_5
# %bb.4:                                # %join.5
                                        #   in Loop: Header=BB57_3 Depth=1
	li	a4, 2
.Laes_small_BB57_5:                               # %join.5
                                        #   in Loop: Header=BB57_3 Depth=1
	add	s1, a4, a0
	slli	a0, a0, 4
	sltu	a1, s1, a4
	add	s0, s0, a1
	add	a3, s2, a0
	mv	a0, s5
	mv	a1, s4
	mv	a2, s3
	li	a5, 0
	call	aes_small.aes_soft.soft.blocks.filled_up.process_filled_up.2
	bne	s0, s6, .Laes_small_BB57_2
# %bb.6:                                #   in Loop: Header=BB57_3 Depth=1
	sltu	a1, s1, s7
	mv	a0, s1
	bnez	a1, .Laes_small_BB57_3
.Laes_small_BB57_7:                               # %after.1
	lw	ra, 44(sp)                      # 4-byte Folded Reload
	lw	s0, 40(sp)                      # 4-byte Folded Reload
	lw	s1, 36(sp)                      # 4-byte Folded Reload
	lw	s2, 32(sp)                      # 4-byte Folded Reload
	lw	s3, 28(sp)                      # 4-byte Folded Reload
	lw	s4, 24(sp)                      # 4-byte Folded Reload
	lw	s5, 20(sp)                      # 4-byte Folded Reload
	lw	s6, 16(sp)                      # 4-byte Folded Reload
	lw	s7, 12(sp)                      # 4-byte Folded Reload
	addi	sp, sp, 48
	ret
.Laes_small_func_end57:
	.size	aes_small.aes_narrow.blocks.process_all_batches.2, .Laes_small_func_end57-aes_small.aes_narrow.blocks.process_all_batches.2
                                        # -- End function
	.section	.text.aes_small.key_wrap.wrapping.unwrap,"ax",@progbits
	.p2align	1                               # -- Begin function key_wrap::wrapping::unwrap::<#10c636071cb6e37c>
	.type	aes_small.key_wrap.wrapping.unwrap,@function
aes_small.key_wrap.wrapping.unwrap: # @aes_small.key_wrap.wrapping.unwrap
# %bb.0:                                # %start
	addi	sp, sp, -96
	sw	ra, 92(sp)                      # 4-byte Folded Spill
	sw	s0, 88(sp)                      # 4-byte Folded Spill
	sw	s1, 84(sp)                      # 4-byte Folded Spill
	sw	s2, 80(sp)                      # 4-byte Folded Spill
	sw	s3, 76(sp)                      # 4-byte Folded Spill
	sw	s4, 72(sp)                      # 4-byte Folded Spill
	sw	s5, 68(sp)                      # 4-byte Folded Spill
	sw	s6, 64(sp)                      # 4-byte Folded Spill
	sw	s7, 60(sp)                      # 4-byte Folded Spill
	sw	s8, 56(sp)                      # 4-byte Folded Spill
	sw	s9, 52(sp)                      # 4-byte Folded Spill
	sw	s10, 48(sp)                     # 4-byte Folded Spill
	sw	s11, 44(sp)                     # 4-byte Folded Spill
	mv	s2, a4
	mv	s4, a0
	li	s1, 0
	sltiu	a0, a5, 2
	seqz	a4, a6
	and	a4, a4, a0
	li	a0, 1
	bnez	a4, .Laes_small_BB58_23
# %bb.1:                                # %start
	mv	s3, a6
	mv	s6, a5
	addi	a4, a5, 1
	seqz	a5, a4
	add	a5, a5, a6
	xor	a4, a4, a2
	xor	a5, a5, a3
	or	a4, a4, a5
	bnez	a4, .Laes_small_BB58_23
# %bb.2:                                # %after.1
	addi	a6, a1, 8
	seqz	a5, a2
	addi	a7, a2, -1
	sub	t0, a3, a5
	srli	a2, a7, 29
	sltu	s1, s2, a6
	slli	a5, t0, 3
	or	a5, a5, a2
	neg	s1, s1
	slli	a2, a7, 3
	beq	s1, a5, .Laes_small_BB58_5
# %bb.3:                                # %after.1
	sltu	a5, s1, a5
	bnez	a5, .Laes_small_BB58_6
.Laes_small_BB58_4:                               # %apart.2.i.i.i.i.i.i.i.i
	mv	a0, s2
	mv	s1, a1
	mv	a1, a6
	call	memmove
	mv	a1, s1
	j	.Laes_small_BB58_10
.Laes_small_BB58_5:
	sub	a5, s2, a6
	sltu	a5, a5, a2
	beqz	a5, .Laes_small_BB58_4
.Laes_small_BB58_6:                               # %join.7.i.i.i.i.i.i.i.i.preheader
	li	a0, 0
	li	t1, 0
	j	.Laes_small_BB58_8
.Laes_small_BB58_7:                               # %join.7.i.i.i.i.i.i.i.i
                                        #   in Loop: Header=BB58_8 Depth=1
	sltu	s1, t1, t0
	beqz	s1, .Laes_small_BB58_10
.Laes_small_BB58_8:                               # %join.7.i.i.i.i.i.i.i.i
                                        # =>This Inner Loop Header: Depth=1
	slli	a4, a0, 3
	addi	a0, a0, 1
	add	a2, s2, a4
	add	a4, a4, a6
	seqz	a5, a0
	lbu	t5, 0(a4)
	lbu	t4, 1(a4)
	lbu	t2, 2(a4)
	lbu	t3, 3(a4)
	add	t1, t1, a5
	lbu	a5, 4(a4)
	lbu	a3, 5(a4)
	lbu	s1, 6(a4)
	lbu	a4, 7(a4)
	sb	a5, 4(a2)
	sb	a3, 5(a2)
	sb	s1, 6(a2)
	sb	a4, 7(a2)
	sb	t5, 0(a2)
	sb	t4, 1(a2)
	sb	t2, 2(a2)
	sb	t3, 3(a2)
	bne	t1, t0, .Laes_small_BB58_7
# %bb.9:                                #   in Loop: Header=BB58_8 Depth=1
	sltu	s1, a0, a7
	bnez	s1, .Laes_small_BB58_8
.Laes_small_BB58_10:                              # %"key_wrap::wrapping::copy_apart.exit.i"
	li	s0, 0
	li	s1, 0
	lbu	a0, 5(a1)
	lbu	a2, 6(a1)
	lbu	a3, 7(a1)
	lbu	a4, 4(a1)
	slli	a0, a0, 8
	slli	a2, a2, 16
	slli	a3, a3, 24
	or	a0, a0, a4
	or	a2, a2, a3
	lbu	a3, 1(a1)
	lbu	a4, 0(a1)
	lbu	a5, 2(a1)
	lbu	a1, 3(a1)
	slli	a3, a3, 8
	or	a3, a3, a4
	slli	a5, a5, 16
	slli	a1, a1, 24
	or	a1, a1, a5
	or	s10, a2, a0
	or	s7, a1, a3
	j	.Laes_small_BB58_12
.Laes_small_BB58_11:                              # %"key_wrap::steps::unwrap_turn::<#10c636071cb6e37c>.exit.i.i"
                                        #   in Loop: Header=BB58_12 Depth=1
	lw	a1, 12(sp)                      # 4-byte Folded Reload
	sltiu	a0, a1, 5
	addi	s0, a1, 1
	lw	a4, 16(sp)                      # 4-byte Folded Reload
	seqz	a2, a4
	seqz	a3, s0
	add	s1, a4, a3
	and	a0, a0, a2
	beqz	a0, .Laes_small_BB58_16
.Laes_small_BB58_12:                              # %join.5.lr.ph.i.i.i
                                        # =>This Loop Header: Depth=1
                                        #     Child Loop BB58_14 Depth 2
	li	s8, 0
	li	s5, 0
	sltiu	a0, s0, 6
	sw	s1, 16(sp)                      # 4-byte Folded Spill
	neg	a1, s1
	li	a2, 5
	xori	a0, a0, 1
	sw	s0, 12(sp)                      # 4-byte Folded Spill
	sub	a2, a2, s0
	sub	a1, a1, a0
	mul	a0, a2, s3
	mulhu	a3, a2, s6
	add	a0, a0, a3
	mul	s9, a2, s6
	mul	a1, a1, s6
	addi	s9, s9, 1
	add	a0, a0, a1
	seqz	s11, s9
	add	a0, a0, s11
	sw	a0, 20(sp)                      # 4-byte Folded Spill
	j	.Laes_small_BB58_14
.Laes_small_BB58_13:                              # %join.5.i.i.i
                                        #   in Loop: Header=BB58_14 Depth=2
	sltu	a0, s5, s3
	mv	s2, s11
	beqz	a0, .Laes_small_BB58_11
.Laes_small_BB58_14:                              # %join.5.i.i.i
                                        #   Parent Loop BB58_12 Depth=1
                                        # =>  This Inner Loop Header: Depth=2
	not	a6, s5
	not	a1, s8
	lui	a2, 16
	lbu	a7, 0(s4)
	lbu	t0, 1(s4)
	lbu	t1, 2(s4)
	lbu	t4, 3(s4)
	add	s0, s6, a1
	add	a6, a6, s3
	addi	a2, a2, -256
	sltu	s1, s0, s6
	add	a1, s9, s0
	add	a6, a6, s1
	sltu	s1, a1, s9
	srli	a3, a1, 8
	srli	a4, a1, 24
	slli	a5, a1, 24
	and	a1, a1, a2
	lw	a0, 20(sp)                      # 4-byte Folded Reload
	add	a6, a6, a0
	and	a3, a3, a2
	slli	a1, a1, 8
	add	a6, a6, s1
	or	t2, a3, a4
	or	t3, a5, a1
	lbu	a4, 8(s4)
	lbu	a5, 9(s4)
	lbu	s1, 10(s4)
	lbu	a3, 11(s4)
	slli	t0, t0, 8
	slli	t1, t1, 16
	slli	a0, t4, 24
	slli	a5, a5, 8
	slli	s1, s1, 16
	slli	a3, a3, 24
	or	a7, t0, a7
	or	t0, a0, t1
	or	a4, a4, a5
	or	a3, a3, s1
	lbu	a5, 13(s4)
	lbu	s1, 12(s4)
	lbu	a1, 14(s4)
	lbu	a0, 15(s4)
	slli	a5, a5, 8
	or	t1, a5, s1
	slli	s0, s0, 3
	mv	s11, s2
	add	s2, s2, s0
	slli	a1, a1, 16
	slli	a0, a0, 24
	or	t4, a0, a1
	srli	s0, a6, 8
	or	a5, t3, t2
	srli	s1, a6, 24
	or	a0, t0, a7
	or	a1, a3, a4
	and	s0, s0, a2
	xor	a7, a5, s10
	or	s0, s0, s1
	lbu	a4, 0(s2)
	lbu	a5, 1(s2)
	lbu	s1, 2(s2)
	lbu	a3, 3(s2)
	and	a2, a6, a2
	slli	a6, a6, 24
	slli	a2, a2, 8
	or	a2, a6, a2
	slli	a5, a5, 8
	slli	s1, s1, 16
	slli	a3, a3, 24
	or	a6, a2, s0
	or	a4, a4, a5
	or	a3, a3, s1
	lbu	a5, 5(s2)
	lbu	s1, 4(s2)
	lbu	s0, 6(s2)
	lbu	a2, 7(s2)
	slli	a5, a5, 8
	or	a5, a5, s1
	slli	s0, s0, 16
	slli	a2, a2, 24
	or	a2, a2, s0
	xor	s1, a6, s7
	or	a3, a3, a4
	or	a2, a2, a5
	sw	s1, 24(sp)
	sw	a7, 28(sp)
	sw	a3, 32(sp)
	sw	a2, 36(sp)
	or	a2, t4, t1
	addi	a3, sp, 24
	li	a4, 1
	li	a5, 0
	call	aes_small.aes_narrow.blocks.process_all_batches.2
	call	aes_small.aes_cipher.zeroize.stack.wipe_stack.1024
	lw	a0, 36(sp)
	lw	s7, 24(sp)
	lw	s10, 28(sp)
	lw	a1, 32(sp)
	srli	a2, a0, 24
	srli	a3, a0, 16
	srli	a4, a0, 8
	srli	a5, a1, 24
	srli	s1, a1, 16
	sb	a0, 4(s2)
	sb	a4, 5(s2)
	sb	a3, 6(s2)
	sb	a2, 7(s2)
	srli	a0, a1, 8
	sb	a1, 0(s2)
	sb	a0, 1(s2)
	sb	s1, 2(s2)
	sb	a5, 3(s2)
	addi	a0, sp, 24
	call	aes_small.aes_cipher.zeroize.elements.zeroize_elements.3
	addi	s8, s8, 1
	seqz	a0, s8
	add	s5, s5, a0
	bne	s5, s3, .Laes_small_BB58_13
# %bb.15:                               #   in Loop: Header=BB58_14 Depth=2
	sltu	a0, s8, s6
	mv	s2, s11
	bnez	a0, .Laes_small_BB58_14
	j	.Laes_small_BB58_11
.Laes_small_BB58_16:                              # %"key_wrap::wrapping::unwrap_all::<#10c636071cb6e37c>.exit"
	lui	a0, 682602
	addi	a0, a0, 1702
	sw	s7, 24(sp)
	sw	s10, 28(sp)
	sw	a0, 32(sp)
	sw	a0, 36(sp)
.Laes_small_pcrel_hi3:
	auipc	a1, %pcrel_hi(.Laes_small_static.2)
	addi	a1, a1, %pcrel_lo(.Laes_small_pcrel_hi3)
	addi	a0, sp, 24
	call	aes_small.aes_cipher.blocks.difference
	beqz	a0, .Laes_small_BB58_22
# %bb.17:                               # %loop.5.preheader.i
	seqz	a0, s6
	sub	a0, s3, a0
	addi	s6, s6, -1
	li	s1, 1
	mv	a2, s6
	bnez	a0, .Laes_small_BB58_19
# %bb.18:                               # %loop.5.preheader.i
	li	a2, 1
.Laes_small_BB58_19:                              # %loop.5.preheader.i
	bnez	a0, .Laes_small_BB58_21
# %bb.20:
	seqz	a2, s6
	add	a2, a2, s6
.Laes_small_BB58_21:                              # %loop.5.preheader.i
	slli	a2, a2, 3
	mv	a0, s2
	li	a1, 0
	call	memset
	slli	s6, s6, 3
	add	s6, s6, s2
	sb	zero, 4(s6)
	sb	zero, 5(s6)
	sb	zero, 6(s6)
	sb	zero, 7(s6)
	sb	zero, 0(s6)
	sb	zero, 1(s6)
	sb	zero, 2(s6)
	sb	zero, 3(s6)
	li	a0, 1
	j	.Laes_small_BB58_23
.Laes_small_BB58_22:
	li	s1, 0
.Laes_small_BB58_23:                              # %return.10
	mv	a1, s1
	lw	ra, 92(sp)                      # 4-byte Folded Reload
	lw	s0, 88(sp)                      # 4-byte Folded Reload
	lw	s1, 84(sp)                      # 4-byte Folded Reload
	lw	s2, 80(sp)                      # 4-byte Folded Reload
	lw	s3, 76(sp)                      # 4-byte Folded Reload
	lw	s4, 72(sp)                      # 4-byte Folded Reload
	lw	s5, 68(sp)                      # 4-byte Folded Reload
	lw	s6, 64(sp)                      # 4-byte Folded Reload
	lw	s7, 60(sp)                      # 4-byte Folded Reload
	lw	s8, 56(sp)                      # 4-byte Folded Reload
	lw	s9, 52(sp)                      # 4-byte Folded Reload
	lw	s10, 48(sp)                     # 4-byte Folded Reload
	lw	s11, 44(sp)                     # 4-byte Folded Reload
	addi	sp, sp, 96
	ret
.Laes_small_func_end58:
	.size	aes_small.key_wrap.wrapping.unwrap, .Laes_small_func_end58-aes_small.key_wrap.wrapping.unwrap
                                        # -- End function
	.section	.text.aes_small.aes_cipher.zeroize.elements.zeroize_elements.3,"ax",@progbits
	.p2align	1                               # -- Begin function aes_cipher::zeroize::elements::zeroize_elements::<#51e2d7e6a2c2e10f>
	.type	aes_small.aes_cipher.zeroize.elements.zeroize_elements.3,@function
aes_small.aes_cipher.zeroize.elements.zeroize_elements.3: # @aes_small.aes_cipher.zeroize.elements.zeroize_elements.3
# %bb.0:                                # %start
	addi	sp, sp, -16
	sw	ra, 12(sp)                      # 4-byte Folded Spill
	sw	zero, 0(sp)
	sw	zero, 4(sp)
	#APP
	#NO_APP
	lw	zero, 4(sp)
	lw	zero, 0(sp)
	#APP
	#NO_APP
	li	a2, 16
	li	a1, 0
	call	memset
	#APP
	#NO_APP
	lw	zero, 4(sp)
	lw	zero, 0(sp)
	sw	zero, 4(sp)
	sw	zero, 0(sp)
	#APP
	#NO_APP
	lw	ra, 12(sp)                      # 4-byte Folded Reload
	addi	sp, sp, 16
	ret
.Laes_small_func_end59:
	.size	aes_small.aes_cipher.zeroize.elements.zeroize_elements.3, .Laes_small_func_end59-aes_small.aes_cipher.zeroize.elements.zeroize_elements.3
                                        # -- End function
	.section	.text.aes_small.aes_cipher.blocks.difference,"ax",@progbits
	.p2align	1                               # -- Begin function aes_cipher::blocks::difference
	.type	aes_small.aes_cipher.blocks.difference,@function
aes_small.aes_cipher.blocks.difference:       # @aes_small.aes_cipher.blocks.difference
# %bb.0:                                # %start
	addi	sp, sp, -32
	sw	s0, 28(sp)                      # 4-byte Folded Spill
	sw	s1, 24(sp)                      # 4-byte Folded Spill
	sw	s2, 20(sp)                      # 4-byte Folded Spill
	sw	s3, 16(sp)                      # 4-byte Folded Spill
	sw	s4, 12(sp)                      # 4-byte Folded Spill
	sw	s5, 8(sp)                       # 4-byte Folded Spill
	sw	s6, 4(sp)                       # 4-byte Folded Spill
	lbu	t3, 0(a0)
	lbu	t6, 1(a0)
	lbu	a6, 2(a0)
	lbu	a7, 3(a0)
	lbu	a4, 0(a1)
	lbu	a5, 1(a1)
	lbu	t0, 2(a1)
	lbu	t1, 3(a1)
	lbu	t2, 4(a0)
	lbu	t5, 5(a0)
	lbu	t4, 6(a0)
	lbu	s2, 7(a0)
	lbu	a3, 4(a1)
	lbu	s0, 5(a1)
	lbu	s1, 6(a1)
	lbu	s6, 7(a1)
	xor	t3, a4, t3
	xor	t6, a5, t6
	lbu	a4, 8(a0)
	lbu	s3, 9(a0)
	lbu	s4, 10(a0)
	lbu	s5, 11(a0)
	xor	a6, t0, a6
	xor	a7, t1, a7
	xor	t0, a3, t2
	xor	t1, s0, t5
	lbu	a3, 8(a1)
	lbu	s0, 9(a1)
	lbu	a5, 10(a1)
	lbu	a2, 11(a1)
	xor	t2, s1, t4
	xor	t4, s6, s2
	xor	t5, a3, a4
	lbu	s2, 12(a0)
	lbu	s1, 13(a0)
	lbu	a3, 14(a0)
	lbu	a0, 15(a0)
	xor	s6, s0, s3
	xor	s3, a5, s4
	xor	a2, a2, s5
	lbu	a4, 12(a1)
	lbu	a5, 13(a1)
	lbu	s0, 14(a1)
	lbu	a1, 15(a1)
	xor	a4, a4, s2
	xor	a5, a5, s1
	xor	a3, a3, s0
	xor	s2, a1, a0
	or	a1, t6, t3
	or	s1, a7, a6
	or	s0, t1, t0
	or	a0, t5, t4
	or	a2, a2, a4
	or	a1, a1, s1
	or	a4, t2, s0
	or	a0, s6, a0
	or	a2, a2, a5
	or	a1, a1, a4
	or	a0, s3, a0
	or	a2, a2, a3
	or	a0, a0, a1
	or	a1, s2, a2
	or	a0, a0, a1
	lw	s0, 28(sp)                      # 4-byte Folded Reload
	lw	s1, 24(sp)                      # 4-byte Folded Reload
	lw	s2, 20(sp)                      # 4-byte Folded Reload
	lw	s3, 16(sp)                      # 4-byte Folded Reload
	lw	s4, 12(sp)                      # 4-byte Folded Reload
	lw	s5, 8(sp)                       # 4-byte Folded Reload
	lw	s6, 4(sp)                       # 4-byte Folded Reload
	addi	sp, sp, 32
	ret
.Laes_small_func_end60:
	.size	aes_small.aes_cipher.blocks.difference, .Laes_small_func_end60-aes_small.aes_cipher.blocks.difference
                                        # -- End function
	.section	.text.aes_small.key_wrap.padded.unwrap_padded,"ax",@progbits
	.p2align	1                               # -- Begin function key_wrap::padded::unwrap_padded::<#10c636071cb6e37c>
	.type	aes_small.key_wrap.padded.unwrap_padded,@function
aes_small.key_wrap.padded.unwrap_padded: # @aes_small.key_wrap.padded.unwrap_padded
# %bb.0:                                # %start
	addi	sp, sp, -112
	sw	ra, 108(sp)                     # 4-byte Folded Spill
	sw	s0, 104(sp)                     # 4-byte Folded Spill
	sw	s1, 100(sp)                     # 4-byte Folded Spill
	sw	s2, 96(sp)                      # 4-byte Folded Spill
	sw	s3, 92(sp)                      # 4-byte Folded Spill
	sw	s4, 88(sp)                      # 4-byte Folded Spill
	sw	s5, 84(sp)                      # 4-byte Folded Spill
	sw	s6, 80(sp)                      # 4-byte Folded Spill
	sw	s7, 76(sp)                      # 4-byte Folded Spill
	sw	s8, 72(sp)                      # 4-byte Folded Spill
	sw	s9, 68(sp)                      # 4-byte Folded Spill
	sw	s10, 64(sp)                     # 4-byte Folded Spill
	sw	s11, 60(sp)                     # 4-byte Folded Spill
	mv	s9, a1
	seqz	a1, a6
	addi	s5, a6, -1
	sub	s6, a7, a1
	srli	a1, s5, 29
	or	a1, s6, a1
	mv	s2, a0
	bnez	a1, .Laes_small_BB61_5
# %bb.1:                                # %start
	mv	s4, a7
	mv	s7, a6
	addi	a0, a6, 1
	seqz	a1, a0
	add	a1, a1, a7
	xor	a0, a0, a3
	xor	a1, a1, a4
	or	a0, a0, a1
	bnez	a0, .Laes_small_BB61_5
# %bb.2:                                # %after.1
	mv	s3, a5
	addi	a1, a2, 8
	seqz	a5, a3
	addi	a6, a3, -1
	sub	a7, a4, a5
	srli	a3, a6, 29
	sltu	s0, s3, a1
	slli	a5, a7, 3
	or	a5, a5, a3
	neg	s0, s0
	slli	a3, a6, 3
	beq	s0, a5, .Laes_small_BB61_6
# %bb.3:                                # %after.1
	sltu	a5, s0, a5
	bnez	a5, .Laes_small_BB61_7
.Laes_small_BB61_4:                               # %apart.2.i.i.i.i.i.i.i
	mv	a0, s3
	mv	s0, a2
	mv	a2, a3
	call	memmove
	mv	a2, s0
	j	.Laes_small_BB61_11
.Laes_small_BB61_5:                               # %join.5
	li	a0, 1
	sb	zero, 6(s2)
	sb	zero, 7(s2)
	sb	a0, 0(s2)
	sb	zero, 1(s2)
	j	.Laes_small_BB61_26
.Laes_small_BB61_6:
	sub	a5, s3, a1
	sltu	a5, a5, a3
	beqz	a5, .Laes_small_BB61_4
.Laes_small_BB61_7:                               # %join.7.i.i.i.i.i.i.i.preheader
	li	t5, 0
	li	t0, 0
	j	.Laes_small_BB61_9
.Laes_small_BB61_8:                               # %join.7.i.i.i.i.i.i.i
                                        #   in Loop: Header=BB61_9 Depth=1
	sltu	s0, t0, a7
	beqz	s0, .Laes_small_BB61_11
.Laes_small_BB61_9:                               # %join.7.i.i.i.i.i.i.i
                                        # =>This Inner Loop Header: Depth=1
	slli	a0, t5, 3
	addi	t5, t5, 1
	add	a3, s3, a0
	add	a0, a0, a1
	seqz	a5, t5
	lbu	t4, 0(a0)
	lbu	t1, 1(a0)
	lbu	t2, 2(a0)
	lbu	t3, 3(a0)
	add	t0, t0, a5
	lbu	a5, 4(a0)
	lbu	s0, 5(a0)
	lbu	a4, 6(a0)
	lbu	a0, 7(a0)
	sb	a5, 4(a3)
	sb	s0, 5(a3)
	sb	a4, 6(a3)
	sb	a0, 7(a3)
	sb	t4, 0(a3)
	sb	t1, 1(a3)
	sb	t2, 2(a3)
	sb	t3, 3(a3)
	bne	t0, a7, .Laes_small_BB61_8
# %bb.10:                               #   in Loop: Header=BB61_9 Depth=1
	sltu	s0, t5, a6
	bnez	s0, .Laes_small_BB61_9
.Laes_small_BB61_11:                              # %"key_wrap::wrapping::copy_apart.exit"
	lbu	a0, 5(a2)
	lbu	a1, 6(a2)
	lbu	a3, 7(a2)
	lbu	a4, 4(a2)
	slli	a0, a0, 8
	slli	a1, a1, 16
	slli	a3, a3, 24
	or	a0, a0, a4
	or	a1, a1, a3
	lbu	a3, 1(a2)
	lbu	a4, 0(a2)
	lbu	a5, 2(a2)
	lbu	a2, 3(a2)
	slli	a3, a3, 8
	or	a3, a3, a4
	slli	a5, a5, 16
	slli	a2, a2, 24
	or	a2, a2, a5
	or	s8, a1, a0
	xori	a0, s7, 1
	or	a0, a0, s4
	or	s11, a2, a3
	bnez	a0, .Laes_small_BB61_13
# %bb.12:                               # %then.1.i
	lbu	a0, 0(s3)
	lbu	a1, 1(s3)
	lbu	t0, 2(s3)
	lbu	t1, 3(s3)
	lbu	a6, 4(s3)
	lbu	a5, 5(s3)
	lbu	s0, 6(s3)
	lbu	a4, 7(s3)
	slli	a1, a1, 8
	or	a7, a1, a0
	lbu	a1, 0(s9)
	lbu	a0, 1(s9)
	lbu	a2, 2(s9)
	lbu	a3, 3(s9)
	slli	t0, t0, 16
	slli	t1, t1, 24
	slli	a5, a5, 8
	slli	s0, s0, 16
	slli	a4, a4, 24
	slli	a0, a0, 8
	or	t0, t1, t0
	or	a6, a5, a6
	or	a4, a4, s0
	or	t1, a0, a1
	lbu	a1, 8(s9)
	lbu	s0, 9(s9)
	lbu	a5, 10(s9)
	lbu	a0, 11(s9)
	slli	a2, a2, 16
	slli	a3, a3, 24
	slli	s0, s0, 8
	slli	a5, a5, 16
	slli	a0, a0, 24
	or	a2, a2, a3
	or	a1, a1, s0
	or	a5, a5, a0
	lbu	a0, 13(s9)
	lbu	a3, 12(s9)
	lbu	s0, 14(s9)
	lbu	s1, 15(s9)
	slli	a0, a0, 8
	or	a3, a3, a0
	slli	s0, s0, 16
	slli	s1, s1, 24
	or	s0, s0, s1
	or	s1, t0, a7
	or	a4, a4, a6
	or	a0, a2, t1
	or	a1, a1, a5
	sw	s11, 40(sp)
	sw	s8, 44(sp)
	sw	s1, 48(sp)
	sw	a4, 52(sp)
	or	a2, s0, a3
	addi	a3, sp, 40
	li	a4, 1
	li	a5, 0
	call	aes_small.aes_narrow.blocks.process_all_batches.2
	call	aes_small.aes_cipher.zeroize.stack.wipe_stack.1024
	lw	a0, 40(sp)
	lw	s8, 44(sp)
	lw	a1, 52(sp)
	lw	a2, 48(sp)
	sw	a0, 32(sp)
	sw	s8, 36(sp)
	srli	a0, a1, 24
	srli	a3, a1, 16
	srli	a4, a1, 8
	srli	a5, a2, 24
	srli	s1, a2, 16
	sb	a1, 4(s3)
	sb	a4, 5(s3)
	sb	a3, 6(s3)
	sb	a0, 7(s3)
	srli	a0, a2, 8
	sb	a2, 0(s3)
	sb	a0, 1(s3)
	sb	s1, 2(s3)
	sb	a5, 3(s3)
	addi	a0, sp, 40
	call	aes_small.aes_cipher.zeroize.elements.zeroize_elements.3
	j	.Laes_small_BB61_20
.Laes_small_BB61_13:                              # %else.2.i
	sw	s6, 12(sp)                      # 4-byte Folded Spill
	sw	s2, 16(sp)                      # 4-byte Folded Spill
	li	a4, 0
	li	a3, 0
	j	.Laes_small_BB61_15
.Laes_small_BB61_14:                              # %"key_wrap::steps::unwrap_turn::<#10c636071cb6e37c>.exit.i.i"
                                        #   in Loop: Header=BB61_15 Depth=1
	lw	a1, 20(sp)                      # 4-byte Folded Reload
	sltiu	a0, a1, 5
	addi	a1, a1, 1
	lw	a4, 24(sp)                      # 4-byte Folded Reload
	seqz	a2, a4
	seqz	a3, a1
	add	a3, a3, a4
	and	a0, a0, a2
	mv	a4, a1
	beqz	a0, .Laes_small_BB61_19
.Laes_small_BB61_15:                              # %join.5.i.i
                                        # =>This Loop Header: Depth=1
                                        #     Child Loop BB61_17 Depth 2
	li	s10, 0
	li	s6, 0
	sltiu	a0, a4, 6
	sw	a3, 24(sp)                      # 4-byte Folded Spill
	neg	a1, a3
	li	a2, 5
	xori	a0, a0, 1
	sw	a4, 20(sp)                      # 4-byte Folded Spill
	sub	a2, a2, a4
	sub	a1, a1, a0
	mul	a0, a2, s4
	mulhu	a3, a2, s7
	add	a0, a0, a3
	mul	s5, a2, s7
	mul	a1, a1, s7
	addi	s5, s5, 1
	add	a0, a0, a1
	seqz	s2, s5
	add	a0, a0, s2
	sw	a0, 28(sp)                      # 4-byte Folded Spill
	j	.Laes_small_BB61_17
.Laes_small_BB61_16:                              # %join.5.i.i.i
                                        #   in Loop: Header=BB61_17 Depth=2
	sltu	a0, s6, s4
	mv	s3, s2
	beqz	a0, .Laes_small_BB61_14
.Laes_small_BB61_17:                              # %join.5.i.i.i
                                        #   Parent Loop BB61_15 Depth=1
                                        # =>  This Inner Loop Header: Depth=2
	not	a6, s6
	not	a1, s10
	lui	a2, 16
	lbu	a7, 0(s9)
	lbu	t0, 1(s9)
	lbu	t1, 2(s9)
	lbu	t4, 3(s9)
	add	s1, s7, a1
	add	a6, a6, s4
	addi	a2, a2, -256
	sltu	s0, s1, s7
	add	a1, s5, s1
	add	a6, a6, s0
	sltu	s0, a1, s5
	srli	a3, a1, 8
	srli	a4, a1, 24
	slli	a5, a1, 24
	and	a1, a1, a2
	lw	a0, 28(sp)                      # 4-byte Folded Reload
	add	a6, a6, a0
	and	a3, a3, a2
	slli	a1, a1, 8
	add	a6, a6, s0
	or	t2, a3, a4
	or	t3, a5, a1
	lbu	a4, 8(s9)
	lbu	a5, 9(s9)
	lbu	s0, 10(s9)
	lbu	a3, 11(s9)
	slli	t0, t0, 8
	slli	t1, t1, 16
	slli	a0, t4, 24
	slli	a5, a5, 8
	slli	s0, s0, 16
	slli	a3, a3, 24
	or	a7, t0, a7
	or	t0, a0, t1
	or	a4, a4, a5
	or	a3, a3, s0
	lbu	a5, 13(s9)
	lbu	s0, 12(s9)
	lbu	a1, 14(s9)
	lbu	a0, 15(s9)
	slli	a5, a5, 8
	or	t1, a5, s0
	slli	s1, s1, 3
	mv	s2, s3
	add	s3, s3, s1
	slli	a1, a1, 16
	slli	a0, a0, 24
	or	t4, a0, a1
	srli	s0, a6, 8
	or	a5, t3, t2
	srli	s1, a6, 24
	or	a0, t0, a7
	or	a1, a3, a4
	and	s0, s0, a2
	xor	a7, a5, s8
	or	s0, s0, s1
	lbu	a4, 0(s3)
	lbu	a5, 1(s3)
	lbu	s1, 2(s3)
	lbu	a3, 3(s3)
	and	a2, a6, a2
	slli	a6, a6, 24
	slli	a2, a2, 8
	or	a2, a6, a2
	slli	a5, a5, 8
	slli	s1, s1, 16
	slli	a3, a3, 24
	or	a6, a2, s0
	or	a4, a4, a5
	or	a3, a3, s1
	lbu	a5, 5(s3)
	lbu	s1, 4(s3)
	lbu	s0, 6(s3)
	lbu	a2, 7(s3)
	slli	a5, a5, 8
	or	a5, a5, s1
	slli	s0, s0, 16
	slli	a2, a2, 24
	or	a2, a2, s0
	xor	s1, a6, s11
	or	a3, a3, a4
	or	a2, a2, a5
	sw	s1, 40(sp)
	sw	a7, 44(sp)
	sw	a3, 48(sp)
	sw	a2, 52(sp)
	or	a2, t4, t1
	addi	a3, sp, 40
	li	a4, 1
	li	a5, 0
	call	aes_small.aes_narrow.blocks.process_all_batches.2
	call	aes_small.aes_cipher.zeroize.stack.wipe_stack.1024
	lw	a0, 52(sp)
	lw	s11, 40(sp)
	lw	s8, 44(sp)
	lw	a1, 48(sp)
	srli	a2, a0, 24
	srli	a3, a0, 16
	srli	a4, a0, 8
	srli	a5, a1, 24
	srli	s1, a1, 16
	sb	a0, 4(s3)
	sb	a4, 5(s3)
	sb	a3, 6(s3)
	sb	a2, 7(s3)
	srli	a0, a1, 8
	sb	a1, 0(s3)
	sb	a0, 1(s3)
	sb	s1, 2(s3)
	sb	a5, 3(s3)
	addi	a0, sp, 40
	call	aes_small.aes_cipher.zeroize.elements.zeroize_elements.3
	addi	s10, s10, 1
	seqz	a0, s10
	add	s6, s6, a0
	bne	s6, s4, .Laes_small_BB61_16
# %bb.18:                               #   in Loop: Header=BB61_17 Depth=2
	sltu	a0, s10, s7
	mv	s3, s2
	bnez	a0, .Laes_small_BB61_17
	j	.Laes_small_BB61_14
.Laes_small_BB61_19:                              # %"key_wrap::steps::unwrap_string::<#10c636071cb6e37c>.exit.loopexit"
	sw	s11, 32(sp)
	sw	s8, 36(sp)
	lw	s2, 16(sp)                      # 4-byte Folded Reload
	addi	s5, s7, -1
	lw	s6, 12(sp)                      # 4-byte Folded Reload
.Laes_small_BB61_20:                              # %"key_wrap::steps::unwrap_string::<#10c636071cb6e37c>.exit"
	addi	a0, sp, 32
	mv	a1, s3
	mv	a2, s7
	mv	a3, s4
	call	aes_small.key_wrap.padded.difference
	or	a0, a0, a1
	beqz	a0, .Laes_small_BB61_28
# %bb.21:                               # %then.14
	or	a0, s7, s4
	beqz	a0, .Laes_small_BB61_25
# %bb.22:                               # %loop.5.preheader.i
	or	a0, s5, s6
	beqz	a0, .Laes_small_BB61_24
# %bb.23:                               # %join.8.i.preheader
	slli	a2, s7, 3
	addi	a2, a2, -8
	mv	a0, s3
	li	a1, 0
	call	memset
.Laes_small_BB61_24:                              # %after.4.i
	slli	a0, s5, 3
	add	a0, a0, s3
	sb	zero, 4(a0)
	sb	zero, 5(a0)
	sb	zero, 6(a0)
	sb	zero, 7(a0)
	sb	zero, 0(a0)
	sb	zero, 1(a0)
	sb	zero, 2(a0)
	sb	zero, 3(a0)
.Laes_small_BB61_25:                              # %"core::slice::edits::slice+T::fill::<#1e8902aced0720be>.exit"
	li	a0, 1
	sb	zero, 6(s2)
	sb	zero, 7(s2)
	sb	a0, 0(s2)
	sb	a0, 1(s2)
.Laes_small_BB61_26:                              # %common.ret
	sb	zero, 4(s2)
	sb	zero, 5(s2)
.Laes_small_BB61_27:                              # %common.ret
	lw	ra, 108(sp)                     # 4-byte Folded Reload
	lw	s0, 104(sp)                     # 4-byte Folded Reload
	lw	s1, 100(sp)                     # 4-byte Folded Reload
	lw	s2, 96(sp)                      # 4-byte Folded Reload
	lw	s3, 92(sp)                      # 4-byte Folded Reload
	lw	s4, 88(sp)                      # 4-byte Folded Reload
	lw	s5, 84(sp)                      # 4-byte Folded Reload
	lw	s6, 80(sp)                      # 4-byte Folded Reload
	lw	s7, 76(sp)                      # 4-byte Folded Reload
	lw	s8, 72(sp)                      # 4-byte Folded Reload
	lw	s9, 68(sp)                      # 4-byte Folded Reload
	lw	s10, 64(sp)                     # 4-byte Folded Reload
	lw	s11, 60(sp)                     # 4-byte Folded Reload
	addi	sp, sp, 112
	ret
.Laes_small_BB61_28:                              # %join.16
	srli	a0, s8, 24
	srli	a1, s8, 8
	srli	a2, s8, 16
	sb	a1, 6(s2)
	sb	s8, 7(s2)
	sb	zero, 0(s2)
	sb	zero, 1(s2)
	sb	a0, 4(s2)
	sb	a2, 5(s2)
	j	.Laes_small_BB61_27
.Laes_small_func_end61:
	.size	aes_small.key_wrap.padded.unwrap_padded, .Laes_small_func_end61-aes_small.key_wrap.padded.unwrap_padded
                                        # -- End function
	.section	.text.aes_small.key_wrap.padded.difference,"ax",@progbits
	.p2align	1                               # -- Begin function key_wrap::padded::difference
	.type	aes_small.key_wrap.padded.difference,@function
aes_small.key_wrap.padded.difference:         # @aes_small.key_wrap.padded.difference
# %bb.0:                                # %start
	addi	sp, sp, -48
	sw	ra, 44(sp)                      # 4-byte Folded Spill
	sw	s0, 40(sp)                      # 4-byte Folded Spill
	sw	s1, 36(sp)                      # 4-byte Folded Spill
	sw	s2, 32(sp)                      # 4-byte Folded Spill
	sw	s3, 28(sp)                      # 4-byte Folded Spill
	sw	s4, 24(sp)                      # 4-byte Folded Spill
	sw	s5, 20(sp)                      # 4-byte Folded Spill
	sw	s6, 16(sp)                      # 4-byte Folded Spill
	sw	s7, 12(sp)                      # 4-byte Folded Spill
	sw	s8, 8(sp)                       # 4-byte Folded Spill
	lbu	a6, 0(a0)
	lbu	a7, 1(a0)
	lbu	t1, 2(a0)
	lbu	t0, 3(a0)
	srli	s1, a2, 29
	slli	a3, a3, 3
	or	t2, a3, s1
	lbu	a5, 4(a0)
	lbu	a4, 5(a0)
	lbu	s0, 6(a0)
	lbu	a0, 7(a0)
	slli	a2, a2, 3
	add	s1, a1, a2
	slli	t1, t1, 8
	or	a1, t1, t0
	lbu	s5, -1(s1)
	slli	a7, a7, 16
	slli	a6, a6, 24
	slli	s0, s0, 8
	slli	a4, a4, 16
	slli	a5, a5, 24
	or	a3, a6, a7
	or	a0, a0, s0
	or	a4, a4, a5
	or	s2, a3, a1
	or	a0, a0, a4
	sltu	a1, a2, a0
	sub	s4, a2, a0
	sub	s3, t2, a1
	andi	s0, s4, 7
	li	a0, 0
	mv	a1, s0
	call	aes_small.key_wrap.padded.mask_below
	lbu	s6, -2(s1)
	and	s5, a0, s5
	li	a0, 1
	mv	a1, s0
	call	aes_small.key_wrap.padded.mask_below
	lbu	s7, -3(s1)
	and	a0, a0, s6
	or	s5, a0, s5
	li	a0, 2
	mv	a1, s0
	call	aes_small.key_wrap.padded.mask_below
	lbu	s6, -4(s1)
	and	s7, a0, s7
	li	a0, 3
	mv	a1, s0
	call	aes_small.key_wrap.padded.mask_below
	lbu	s8, -5(s1)
	and	a0, a0, s6
	or	a0, s7, a0
	or	s5, s5, a0
	li	a0, 4
	mv	a1, s0
	call	aes_small.key_wrap.padded.mask_below
	lbu	s6, -6(s1)
	and	s7, a0, s8
	li	a0, 5
	mv	a1, s0
	call	aes_small.key_wrap.padded.mask_below
	lbu	s8, -7(s1)
	and	a0, a0, s6
	or	s6, s7, a0
	li	a0, 6
	mv	a1, s0
	call	aes_small.key_wrap.padded.mask_below
	lbu	s1, -8(s1)
	and	a0, a0, s8
	or	a0, s6, a0
	or	s5, s5, a0
	li	a0, 7
	mv	a1, s0
	call	aes_small.key_wrap.padded.mask_below
	and	a0, a0, s1
	lui	a2, 367210
	srli	a3, s4, 3
	or	a0, s5, a0
	slli	a4, s3, 29
	srli	a1, s3, 3
	addi	a2, a2, 1626
	add	a2, a2, s2
	or	a2, a2, a3
	or	a2, a2, a4
	zext.b	a0, a0
	or	a0, a0, a2
	lw	ra, 44(sp)                      # 4-byte Folded Reload
	lw	s0, 40(sp)                      # 4-byte Folded Reload
	lw	s1, 36(sp)                      # 4-byte Folded Reload
	lw	s2, 32(sp)                      # 4-byte Folded Reload
	lw	s3, 28(sp)                      # 4-byte Folded Reload
	lw	s4, 24(sp)                      # 4-byte Folded Reload
	lw	s5, 20(sp)                      # 4-byte Folded Reload
	lw	s6, 16(sp)                      # 4-byte Folded Reload
	lw	s7, 12(sp)                      # 4-byte Folded Reload
	lw	s8, 8(sp)                       # 4-byte Folded Reload
	addi	sp, sp, 48
	ret
.Laes_small_func_end62:
	.size	aes_small.key_wrap.padded.difference, .Laes_small_func_end62-aes_small.key_wrap.padded.difference
                                        # -- End function
	.section	.text.aes_small.key_wrap.padded.mask_below,"ax",@progbits
	.p2align	1                               # -- Begin function key_wrap::padded::mask_below
	.type	aes_small.key_wrap.padded.mask_below,@function
aes_small.key_wrap.padded.mask_below:         # @aes_small.key_wrap.padded.mask_below
# %bb.0:                                # %start
	sub	a0, a0, a1
	srli	a0, a0, 24
	ret
.Laes_small_func_end63:
	.size	aes_small.key_wrap.padded.mask_below, .Laes_small_func_end63-aes_small.key_wrap.padded.mask_below
                                        # -- End function
	.section	.text.aes_small.aes_c.single_rounds.inverse_mixed,"ax",@progbits
	.p2align	1                               # -- Begin function aes_c::single_rounds::inverse_mixed
	.type	aes_small.aes_c.single_rounds.inverse_mixed,@function
aes_small.aes_c.single_rounds.inverse_mixed:  # @aes_small.aes_c.single_rounds.inverse_mixed
# %bb.0:                                # %start
	addi	sp, sp, -96
	sw	ra, 92(sp)                      # 4-byte Folded Spill
	sw	s0, 88(sp)                      # 4-byte Folded Spill
	sw	s1, 84(sp)                      # 4-byte Folded Spill
	sw	s2, 80(sp)                      # 4-byte Folded Spill
	sw	s3, 76(sp)                      # 4-byte Folded Spill
	sw	s4, 72(sp)                      # 4-byte Folded Spill
	sw	s5, 68(sp)                      # 4-byte Folded Spill
	mv	s0, a0
	lbu	a6, 0(a0)
	lbu	t1, 1(a0)
	lbu	t2, 2(a0)
	lbu	a3, 3(a0)
	lbu	a7, 4(a0)
	lbu	a5, 5(a0)
	lbu	a0, 6(a0)
	lbu	a4, 7(s0)
	lbu	t0, 8(s0)
	lbu	t3, 9(s0)
	lbu	a2, 10(s0)
	lbu	a1, 11(s0)
	lbu	t4, 12(s0)
	lbu	t5, 13(s0)
	lbu	t6, 14(s0)
	lbu	s1, 15(s0)
	slli	s2, a3, 24
	slli	t2, t2, 16
	slli	t1, t1, 8
	slli	s3, a4, 24
	slli	a0, a0, 16
	slli	a5, a5, 8
	slli	s4, a1, 24
	slli	a2, a2, 16
	slli	t3, t3, 8
	slli	s5, s1, 24
	slli	t6, t6, 16
	slli	t5, t5, 8
	or	a6, t1, a6
	or	a4, t2, s2
	or	a5, a5, a7
	or	a0, a0, s3
	or	a1, t3, t0
	or	a2, a2, s4
	or	s1, t5, t4
	or	a3, t6, s5
	or	a4, a6, a4
	or	a0, a0, a5
	or	a1, a1, a2
	or	a3, a3, s1
	sw	a4, 36(sp)
	sw	a4, 40(sp)
	sw	a0, 44(sp)
	sw	a0, 48(sp)
	sw	a1, 52(sp)
	sw	a1, 56(sp)
	sw	a3, 60(sp)
	sw	a3, 64(sp)
	addi	a0, sp, 4
	addi	a1, sp, 36
	call	aes_small.aes_planes.soft.word.transpose.transpose
	addi	a0, sp, 4
	call	aes_small.aes_planes.soft.mix_columns.inv_mix_columns_0
	addi	a0, sp, 36
	addi	a1, sp, 4
	call	aes_small.aes_planes.soft.word.transpose.transpose
	lw	a0, 36(sp)
	lw	a1, 44(sp)
	lw	a2, 52(sp)
	lw	a3, 60(sp)
	srli	a4, a0, 8
	srli	a5, a0, 16
	srli	s1, a0, 24
	srli	a6, a1, 8
	srli	a7, a1, 16
	srli	t0, a1, 24
	srli	t1, a2, 8
	srli	t2, a2, 16
	srli	t3, a2, 24
	srli	t4, a3, 8
	srli	t5, a3, 16
	srli	t6, a3, 24
	sb	a0, 0(s0)
	sb	a4, 1(s0)
	sb	a5, 2(s0)
	sb	s1, 3(s0)
	sb	a1, 4(s0)
	sb	a6, 5(s0)
	sb	a7, 6(s0)
	sb	t0, 7(s0)
	sb	a2, 8(s0)
	sb	t1, 9(s0)
	sb	t2, 10(s0)
	sb	t3, 11(s0)
	sb	a3, 12(s0)
	sb	t4, 13(s0)
	sb	t5, 14(s0)
	sb	t6, 15(s0)
	lw	ra, 92(sp)                      # 4-byte Folded Reload
	lw	s0, 88(sp)                      # 4-byte Folded Reload
	lw	s1, 84(sp)                      # 4-byte Folded Reload
	lw	s2, 80(sp)                      # 4-byte Folded Reload
	lw	s3, 76(sp)                      # 4-byte Folded Reload
	lw	s4, 72(sp)                      # 4-byte Folded Reload
	lw	s5, 68(sp)                      # 4-byte Folded Reload
	addi	sp, sp, 96
	ret
.Laes_small_func_end64:
	.size	aes_small.aes_c.single_rounds.inverse_mixed, .Laes_small_func_end64-aes_small.aes_c.single_rounds.inverse_mixed
                                        # -- End function
	.section	.text.aes_small.aes_c.single_rounds.inverse_round,"ax",@progbits
	.p2align	1                               # -- Begin function aes_c::single_rounds::inverse_round
	.type	aes_small.aes_c.single_rounds.inverse_round,@function
aes_small.aes_c.single_rounds.inverse_round:  # @aes_small.aes_c.single_rounds.inverse_round
# %bb.0:                                # %start
	addi	sp, sp, -96
	sw	ra, 92(sp)                      # 4-byte Folded Spill
	sw	s0, 88(sp)                      # 4-byte Folded Spill
	sw	s1, 84(sp)                      # 4-byte Folded Spill
	sw	s2, 80(sp)                      # 4-byte Folded Spill
	sw	s3, 76(sp)                      # 4-byte Folded Spill
	sw	s4, 72(sp)                      # 4-byte Folded Spill
	sw	s5, 68(sp)                      # 4-byte Folded Spill
	sw	s6, 64(sp)                      # 4-byte Folded Spill
	mv	s1, a1
	mv	s0, a0
	lbu	a6, 0(a0)
	lbu	t1, 1(a0)
	lbu	t2, 2(a0)
	lbu	a3, 3(a0)
	lbu	a7, 4(a0)
	lbu	a5, 5(a0)
	lbu	a0, 6(a0)
	lbu	a4, 7(s0)
	lbu	t0, 8(s0)
	lbu	t3, 9(s0)
	lbu	a2, 10(s0)
	lbu	a1, 11(s0)
	lbu	t4, 12(s0)
	lbu	t5, 13(s0)
	lbu	t6, 14(s0)
	lbu	s2, 15(s0)
	slli	s3, a3, 24
	slli	t2, t2, 16
	slli	t1, t1, 8
	slli	s4, a4, 24
	slli	a0, a0, 16
	slli	a5, a5, 8
	slli	s5, a1, 24
	slli	a2, a2, 16
	slli	t3, t3, 8
	slli	s2, s2, 24
	slli	t6, t6, 16
	slli	t5, t5, 8
	or	a6, t1, a6
	or	t1, t2, s3
	or	a7, a5, a7
	or	a0, a0, s4
	or	a1, t3, t0
	or	a2, a2, s5
	or	a3, t5, t4
	or	a4, t6, s2
	or	a5, a6, t1
	or	a0, a7, a0
	or	a1, a1, a2
	or	a3, a3, a4
	sw	a5, 32(sp)
	sw	a5, 36(sp)
	sw	a0, 40(sp)
	sw	a0, 44(sp)
	sw	a1, 48(sp)
	sw	a1, 52(sp)
	sw	a3, 56(sp)
	sw	a3, 60(sp)
	mv	a0, sp
	addi	a1, sp, 32
	call	aes_small.aes_planes.soft.word.transpose.transpose
	mv	a0, sp
	call	aes_small.aes_planes.soft.sbox.sub_bytes_nots
	mv	a0, sp
	call	aes_small.aes_planes.soft.sbox.inv_sub_bytes
	lui	a1, 12529
	mv	a0, sp
	addi	a2, a1, -1024
	li	a1, 4
	call	aes_small.aes_planes.soft.shifts.swap_columns
	lui	a1, 208899
	mv	a0, sp
	addi	a2, a1, 768
	li	a1, 2
	call	aes_small.aes_planes.soft.shifts.swap_columns
	mv	a0, sp
	call	aes_small.aes_planes.soft.mix_columns.inv_mix_columns_0
	addi	a0, sp, 32
	mv	a1, sp
	call	aes_small.aes_planes.soft.word.transpose.transpose
	lw	s2, 32(sp)
	lw	s5, 40(sp)
	lw	a4, 48(sp)
	lw	a0, 56(sp)
	lbu	a7, 4(s1)
	lbu	a6, 5(s1)
	lbu	t0, 6(s1)
	lbu	t1, 7(s1)
	lbu	t3, 12(s1)
	lbu	t2, 13(s1)
	lbu	a1, 14(s1)
	lbu	a5, 15(s1)
	lbu	t4, 8(s1)
	lbu	t5, 9(s1)
	lbu	t6, 10(s1)
	lbu	s3, 11(s1)
	srli	a3, a0, 24
	xor	s4, a5, a3
	srli	a5, a0, 16
	xor	s6, a1, a5
	srli	a5, s5, 16
	xor	t3, t3, a0
	srli	a0, a0, 8
	xor	t2, t2, a0
	srli	a2, a4, 24
	xor	s3, s3, a2
	srli	a1, a4, 16
	xor	t6, t6, a1
	srli	a3, s5, 24
	xor	t4, t4, a4
	srli	a4, a4, 8
	xor	t5, t5, a4
	xor	t1, t1, a3
	xor	t0, t0, a5
	lbu	a2, 0(s1)
	lbu	a1, 1(s1)
	lbu	a0, 2(s1)
	lbu	s1, 3(s1)
	xor	a4, a7, s5
	srli	a3, s5, 8
	xor	a3, a6, a3
	srli	a5, s2, 24
	xor	a5, a5, s1
	srli	s1, s2, 16
	xor	a0, a0, s1
	xor	a2, a2, s2
	srli	s1, s2, 8
	xor	a1, a1, s1
	sb	a2, 0(s0)
	sb	a1, 1(s0)
	sb	a0, 2(s0)
	sb	a5, 3(s0)
	sb	a4, 4(s0)
	sb	a3, 5(s0)
	sb	t0, 6(s0)
	sb	t1, 7(s0)
	sb	t4, 8(s0)
	sb	t5, 9(s0)
	sb	t6, 10(s0)
	sb	s3, 11(s0)
	sb	t3, 12(s0)
	sb	t2, 13(s0)
	sb	s6, 14(s0)
	sb	s4, 15(s0)
	lw	ra, 92(sp)                      # 4-byte Folded Reload
	lw	s0, 88(sp)                      # 4-byte Folded Reload
	lw	s1, 84(sp)                      # 4-byte Folded Reload
	lw	s2, 80(sp)                      # 4-byte Folded Reload
	lw	s3, 76(sp)                      # 4-byte Folded Reload
	lw	s4, 72(sp)                      # 4-byte Folded Reload
	lw	s5, 68(sp)                      # 4-byte Folded Reload
	lw	s6, 64(sp)                      # 4-byte Folded Reload
	addi	sp, sp, 96
	ret
.Laes_small_func_end65:
	.size	aes_small.aes_c.single_rounds.inverse_round, .Laes_small_func_end65-aes_small.aes_c.single_rounds.inverse_round
                                        # -- End function
	.section	.text.aes_small.aes_c.single_rounds.inverse_rounds,"ax",@progbits
	.p2align	1                               # -- Begin function aes_c::single_rounds::inverse_rounds
	.type	aes_small.aes_c.single_rounds.inverse_rounds,@function
aes_small.aes_c.single_rounds.inverse_rounds: # @aes_small.aes_c.single_rounds.inverse_rounds
# %bb.0:                                # %start
	addi	sp, sp, -128
	sw	ra, 124(sp)                     # 4-byte Folded Spill
	sw	s0, 120(sp)                     # 4-byte Folded Spill
	sw	s1, 116(sp)                     # 4-byte Folded Spill
	sw	s2, 112(sp)                     # 4-byte Folded Spill
	sw	s3, 108(sp)                     # 4-byte Folded Spill
	sw	s4, 104(sp)                     # 4-byte Folded Spill
	sw	s5, 100(sp)                     # 4-byte Folded Spill
	sw	s6, 96(sp)                      # 4-byte Folded Spill
	sw	s7, 92(sp)                      # 4-byte Folded Spill
	sw	s8, 88(sp)                      # 4-byte Folded Spill
	sw	s9, 84(sp)                      # 4-byte Folded Spill
	sw	s10, 80(sp)                     # 4-byte Folded Spill
	sw	s11, 76(sp)                     # 4-byte Folded Spill
	mv	s2, a1
	mv	s3, a0
	li	s7, 0
	li	s4, 0
.Laes_small_BB66_1:                               # %join.5.i.i
                                        # =>This Inner Loop Header: Depth=1
	slli	s1, s7, 4
	add	s1, s1, s3
	lbu	a6, 0(s1)
	lbu	a7, 1(s1)
	lbu	t0, 2(s1)
	lbu	a3, 3(s1)
	lbu	t1, 16(s1)
	lbu	a5, 17(s1)
	lbu	s0, 18(s1)
	lbu	a0, 19(s1)
	lbu	t2, 4(s1)
	lbu	s6, 5(s1)
	lbu	a4, 6(s1)
	lbu	a1, 7(s1)
	lbu	t3, 20(s1)
	lbu	t4, 21(s1)
	lbu	t5, 22(s1)
	lbu	t6, 23(s1)
	slli	a3, a3, 24
	slli	t0, t0, 16
	slli	a7, a7, 8
	or	a6, a7, a6
	or	a7, t0, a3
	lbu	t0, 8(s1)
	lbu	s5, 9(s1)
	lbu	a3, 10(s1)
	lbu	a2, 11(s1)
	slli	a0, a0, 24
	slli	s0, s0, 16
	slli	a5, a5, 8
	slli	a1, a1, 24
	slli	a4, a4, 16
	slli	s6, s6, 8
	or	t1, a5, t1
	or	s8, s0, a0
	or	t2, s6, t2
	or	s6, a4, a1
	lbu	s9, 24(s1)
	lbu	a5, 25(s1)
	lbu	a0, 26(s1)
	lbu	s0, 27(s1)
	slli	t6, t6, 24
	slli	t5, t5, 16
	slli	t4, t4, 8
	slli	a2, a2, 24
	slli	a3, a3, 16
	slli	s5, s5, 8
	or	t3, t4, t3
	or	t4, t5, t6
	or	t0, s5, t0
	or	t5, a3, a2
	lbu	a3, 12(s1)
	lbu	a1, 13(s1)
	lbu	a2, 14(s1)
	lbu	a4, 15(s1)
	slli	s0, s0, 24
	slli	a0, a0, 16
	slli	a5, a5, 8
	slli	a4, a4, 24
	slli	a2, a2, 16
	slli	a1, a1, 8
	or	t6, a5, s9
	or	s5, a0, s0
	or	s9, a1, a3
	or	s10, a2, a4
	lbu	a3, 29(s1)
	lbu	a4, 28(s1)
	lbu	s0, 31(s1)
	lbu	a5, 30(s1)
	slli	a3, a3, 8
	or	s11, a3, a4
	slli	s0, s0, 24
	slli	a5, a5, 16
	or	a5, a5, s0
	or	a4, a6, a7
	or	s0, t1, s8
	or	a0, t2, s6
	or	a1, t3, t4
	or	a2, t0, t5
	or	a3, t6, s5
	or	a6, s9, s10
	or	a5, s11, a5
	sw	a4, 44(sp)
	sw	s0, 48(sp)
	sw	a0, 52(sp)
	sw	a1, 56(sp)
	sw	a2, 60(sp)
	sw	a3, 64(sp)
	sw	a6, 68(sp)
	addi	s5, s7, 2
	sw	a5, 72(sp)
	sltu	s6, s5, s7
	add	s6, s6, s4
	addi	a0, sp, 12
	addi	a1, sp, 44
	call	aes_small.aes_planes.soft.word.transpose.transpose
	addi	a0, sp, 12
	call	aes_small.aes_planes.soft.sbox.sub_bytes_nots
	addi	a0, sp, 12
	call	aes_small.aes_planes.soft.sbox.inv_sub_bytes
	lui	a1, 12529
	addi	a0, sp, 12
	addi	a2, a1, -1024
	li	a1, 4
	call	aes_small.aes_planes.soft.shifts.swap_columns
	lui	a1, 208899
	addi	a0, sp, 12
	addi	a2, a1, 768
	li	a1, 2
	call	aes_small.aes_planes.soft.shifts.swap_columns
	addi	a0, sp, 12
	call	aes_small.aes_planes.soft.mix_columns.inv_mix_columns_0
	addi	a0, sp, 44
	addi	a1, sp, 12
	call	aes_small.aes_planes.soft.word.transpose.transpose
	lw	a0, 44(sp)
	lw	a7, 48(sp)
	lw	a1, 52(sp)
	lw	a6, 56(sp)
	sltiu	a4, s7, 6
	seqz	a5, s4
	and	a4, a4, a5
	srli	a5, a0, 8
	srli	a3, a0, 16
	srli	s0, a0, 24
	srli	a2, a1, 8
	sb	a0, 0(s1)
	srli	a0, a1, 16
	sb	a5, 1(s1)
	sb	a3, 2(s1)
	sb	s0, 3(s1)
	sb	a1, 4(s1)
	sb	a2, 5(s1)
	lw	a2, 60(sp)
	lw	a3, 64(sp)
	lw	a5, 68(sp)
	lw	s0, 72(sp)
	srli	a1, a1, 24
	sb	a0, 6(s1)
	srli	a0, a2, 8
	sb	a1, 7(s1)
	srli	a1, a2, 16
	sb	a0, 9(s1)
	sb	a2, 8(s1)
	srli	a2, a2, 24
	sb	a1, 10(s1)
	srli	a0, a5, 8
	sb	a2, 11(s1)
	srli	a1, a5, 16
	sb	a0, 13(s1)
	sb	a5, 12(s1)
	srli	a5, a5, 24
	sb	a1, 14(s1)
	srli	a0, a7, 8
	sb	a5, 15(s1)
	srli	a1, a7, 16
	sb	a0, 17(s1)
	sb	a7, 16(s1)
	srli	a0, a7, 24
	sb	a1, 18(s1)
	srli	a1, a6, 8
	sb	a0, 19(s1)
	srli	a0, a6, 16
	sb	a1, 21(s1)
	sb	a6, 20(s1)
	srli	a1, a6, 24
	sb	a0, 22(s1)
	srli	a0, a3, 8
	sb	a1, 23(s1)
	srli	a1, a3, 16
	sb	a0, 25(s1)
	sb	a3, 24(s1)
	srli	a3, a3, 24
	sb	a1, 26(s1)
	srli	a0, s0, 8
	sb	a3, 27(s1)
	srli	a1, s0, 16
	sb	a0, 29(s1)
	sb	s0, 28(s1)
	srli	s0, s0, 24
	sb	a1, 30(s1)
	sb	s0, 31(s1)
	mv	s7, s5
	mv	s4, s6
	bnez	a4, .Laes_small_BB66_1
# %bb.2:                                # %join.5.i2.i.preheader
	li	a1, 0
	li	t3, 0
.Laes_small_BB66_3:                               # %join.5.i2.i
                                        # =>This Inner Loop Header: Depth=1
	slli	a2, a1, 4
	sltiu	a4, a1, 7
	addi	a1, a1, 1
	seqz	a5, t3
	add	a3, s3, a2
	add	a2, a2, s2
	seqz	t6, a1
	and	a6, a5, a4
	lbu	a7, 4(a3)
	lbu	t0, 5(a3)
	lbu	t1, 6(a3)
	lbu	t2, 7(a3)
	lbu	t4, 12(a3)
	lbu	t5, 13(a3)
	lbu	s4, 14(a3)
	lbu	a0, 15(a3)
	lbu	s8, 12(a2)
	lbu	s9, 13(a2)
	lbu	s1, 14(a2)
	lbu	a5, 15(a2)
	lbu	s5, 8(a3)
	lbu	s6, 9(a3)
	lbu	s7, 10(a3)
	lbu	s0, 11(a3)
	add	t3, t3, t6
	xor	t6, a5, a0
	lbu	s10, 8(a2)
	lbu	a0, 9(a2)
	lbu	a4, 10(a2)
	lbu	a5, 11(a2)
	xor	s4, s1, s4
	xor	t5, s9, t5
	xor	t4, s8, t4
	xor	s8, a5, s0
	lbu	s9, 4(a2)
	lbu	s1, 5(a2)
	lbu	a5, 6(a2)
	lbu	s0, 7(a2)
	xor	s7, a4, s7
	xor	s6, a0, s6
	xor	s5, s10, s5
	xor	t2, s0, t2
	lbu	s10, 0(a3)
	lbu	s11, 1(a3)
	lbu	s0, 2(a3)
	lbu	a0, 3(a3)
	xor	t1, a5, t1
	xor	t0, s1, t0
	xor	a7, s9, a7
	lbu	s1, 3(a2)
	lbu	a5, 2(a2)
	lbu	a4, 1(a2)
	lbu	a2, 0(a2)
	xor	a0, a0, s1
	xor	a5, a5, s0
	xor	a4, a4, s11
	xor	a2, a2, s10
	sb	a2, 0(a3)
	sb	a4, 1(a3)
	sb	a5, 2(a3)
	sb	a0, 3(a3)
	sb	a7, 4(a3)
	sb	t0, 5(a3)
	sb	t1, 6(a3)
	sb	t2, 7(a3)
	sb	s5, 8(a3)
	sb	s6, 9(a3)
	sb	s7, 10(a3)
	sb	s8, 11(a3)
	sb	t4, 12(a3)
	sb	t5, 13(a3)
	sb	s4, 14(a3)
	sb	t6, 15(a3)
	bnez	a6, .Laes_small_BB66_3
# %bb.4:                                # %"aes_soft::soft::hazmat::par::equiv_inv_cipher_round_par::<#e817d94f9a7b6ba6>.exit"
	lw	ra, 124(sp)                     # 4-byte Folded Reload
	lw	s0, 120(sp)                     # 4-byte Folded Reload
	lw	s1, 116(sp)                     # 4-byte Folded Reload
	lw	s2, 112(sp)                     # 4-byte Folded Reload
	lw	s3, 108(sp)                     # 4-byte Folded Reload
	lw	s4, 104(sp)                     # 4-byte Folded Reload
	lw	s5, 100(sp)                     # 4-byte Folded Reload
	lw	s6, 96(sp)                      # 4-byte Folded Reload
	lw	s7, 92(sp)                      # 4-byte Folded Reload
	lw	s8, 88(sp)                      # 4-byte Folded Reload
	lw	s9, 84(sp)                      # 4-byte Folded Reload
	lw	s10, 80(sp)                     # 4-byte Folded Reload
	lw	s11, 76(sp)                     # 4-byte Folded Reload
	addi	sp, sp, 128
	ret
.Laes_small_func_end66:
	.size	aes_small.aes_c.single_rounds.inverse_rounds, .Laes_small_func_end66-aes_small.aes_c.single_rounds.inverse_rounds
                                        # -- End function
	.section	.text.aes_small.cmac.pieces.Message.is_tag_so_far,"ax",@progbits
	.p2align	1                               # -- Begin function cmac::pieces::Message::is_tag_so_far::<#4f733d09d7f6c6b4>
	.type	aes_small.cmac.pieces.Message.is_tag_so_far,@function
aes_small.cmac.pieces.Message.is_tag_so_far: # @aes_small.cmac.pieces.Message.is_tag_so_far
# %bb.0:                                # %start
	addi	sp, sp, -64
	sw	ra, 60(sp)                      # 4-byte Folded Spill
	sw	s0, 56(sp)                      # 4-byte Folded Spill
	sw	s1, 52(sp)                      # 4-byte Folded Spill
	sw	s2, 48(sp)                      # 4-byte Folded Spill
	sw	s3, 44(sp)                      # 4-byte Folded Spill
	mv	s2, a3
	mv	s3, a2
	lw	a2, 12(a0)
	lw	a3, 8(a0)
	seqz	a2, a2
	addi	a2, a2, -1
	or	a4, a2, a3
	li	a2, 16
	bltu	a4, a2, .Laes_small_BB67_2
# %bb.1:                                # %start
	li	a4, 16
.Laes_small_BB67_2:                               # %start
	addi	a2, a0, 16
	addi	a3, a0, 32
	addi	a0, sp, 12
	li	a5, 0
	call	aes_small.cmac.tags.tag_at_end
	lbu	a0, 24(sp)
	lbu	a1, 25(sp)
	lbu	a2, 26(sp)
	lbu	a3, 27(sp)
	lbu	a4, 20(sp)
	lbu	a5, 21(sp)
	lbu	s0, 22(sp)
	lbu	s1, 23(sp)
	slli	a1, a1, 8
	slli	a2, a2, 16
	slli	a3, a3, 24
	or	a6, a1, a0
	or	a7, a3, a2
	lbu	a1, 16(sp)
	lbu	a3, 17(sp)
	lbu	a0, 18(sp)
	lbu	a2, 19(sp)
	slli	a5, a5, 8
	slli	s0, s0, 16
	slli	s1, s1, 24
	slli	a3, a3, 8
	slli	a0, a0, 16
	slli	a2, a2, 24
	or	a4, a4, a5
	or	s0, s0, s1
	or	a1, a1, a3
	or	a0, a0, a2
	lbu	a2, 13(sp)
	lbu	a3, 12(sp)
	lbu	a5, 14(sp)
	lbu	s1, 15(sp)
	slli	a2, a2, 8
	or	a2, a2, a3
	slli	a5, a5, 16
	slli	s1, s1, 24
	or	a5, a5, s1
	or	a3, a7, a6
	or	a4, a4, s0
	or	a0, a0, a1
	or	a2, a2, a5
	sw	a2, 28(sp)
	sw	a0, 32(sp)
	sw	a4, 36(sp)
	sw	a3, 40(sp)
	addi	a0, sp, 28
	mv	a1, s3
	mv	a2, s2
	call	memcpy
	addi	a0, sp, 28
	addi	a1, sp, 12
	call	aes_small.aes_cipher.blocks.difference
	seqz	a0, a0
	lw	ra, 60(sp)                      # 4-byte Folded Reload
	lw	s0, 56(sp)                      # 4-byte Folded Reload
	lw	s1, 52(sp)                      # 4-byte Folded Reload
	lw	s2, 48(sp)                      # 4-byte Folded Reload
	lw	s3, 44(sp)                      # 4-byte Folded Reload
	addi	sp, sp, 64
	ret
.Laes_small_func_end67:
	.size	aes_small.cmac.pieces.Message.is_tag_so_far, .Laes_small_func_end67-aes_small.cmac.pieces.Message.is_tag_so_far
                                        # -- End function
	.section	.text.aes_small.cmac.tags.is_tag_start,"ax",@progbits
	.p2align	1                               # -- Begin function cmac::tags::is_tag_start::<#4f733d09d7f6c6b4>
	.type	aes_small.cmac.tags.is_tag_start,@function
aes_small.cmac.tags.is_tag_start: # @aes_small.cmac.tags.is_tag_start
# %bb.0:                                # %start
	addi	sp, sp, -48
	sw	ra, 44(sp)                      # 4-byte Folded Spill
	sw	s0, 40(sp)                      # 4-byte Folded Spill
	sw	s1, 36(sp)                      # 4-byte Folded Spill
	mv	s0, a5
	mv	s1, a4
	mv	a4, a3
	mv	a3, a2
	mv	a2, a1
	mv	a1, a0
	sw	zero, 4(sp)
	sw	zero, 8(sp)
	sw	zero, 12(sp)
	sw	zero, 16(sp)
	addi	a0, sp, 4
	call	aes_small.cmac.tags.tag
	lw	a0, 4(sp)
	lw	a1, 8(sp)
	lw	a2, 12(sp)
	lw	a3, 16(sp)
	sw	a0, 20(sp)
	sw	a1, 24(sp)
	sw	a2, 28(sp)
	sw	a3, 32(sp)
	addi	a0, sp, 20
	mv	a1, s1
	mv	a2, s0
	call	memcpy
	addi	a0, sp, 20
	addi	a1, sp, 4
	call	aes_small.aes_cipher.blocks.difference
	seqz	a0, a0
	lw	ra, 44(sp)                      # 4-byte Folded Reload
	lw	s0, 40(sp)                      # 4-byte Folded Reload
	lw	s1, 36(sp)                      # 4-byte Folded Reload
	addi	sp, sp, 48
	ret
.Laes_small_func_end68:
	.size	aes_small.cmac.tags.is_tag_start, .Laes_small_func_end68-aes_small.cmac.tags.is_tag_start
                                        # -- End function
	.section	.text.aes_small.aes_c.single_rounds.mixed,"ax",@progbits
	.p2align	1                               # -- Begin function aes_c::single_rounds::mixed
	.type	aes_small.aes_c.single_rounds.mixed,@function
aes_small.aes_c.single_rounds.mixed:          # @aes_small.aes_c.single_rounds.mixed
# %bb.0:                                # %start
	addi	sp, sp, -96
	sw	ra, 92(sp)                      # 4-byte Folded Spill
	sw	s0, 88(sp)                      # 4-byte Folded Spill
	sw	s1, 84(sp)                      # 4-byte Folded Spill
	sw	s2, 80(sp)                      # 4-byte Folded Spill
	sw	s3, 76(sp)                      # 4-byte Folded Spill
	sw	s4, 72(sp)                      # 4-byte Folded Spill
	sw	s5, 68(sp)                      # 4-byte Folded Spill
	mv	s0, a0
	lbu	a6, 0(a0)
	lbu	t1, 1(a0)
	lbu	t2, 2(a0)
	lbu	a3, 3(a0)
	lbu	a7, 4(a0)
	lbu	a5, 5(a0)
	lbu	a0, 6(a0)
	lbu	a4, 7(s0)
	lbu	t0, 8(s0)
	lbu	t3, 9(s0)
	lbu	a2, 10(s0)
	lbu	a1, 11(s0)
	lbu	t4, 12(s0)
	lbu	t5, 13(s0)
	lbu	t6, 14(s0)
	lbu	s1, 15(s0)
	slli	s2, a3, 24
	slli	t2, t2, 16
	slli	t1, t1, 8
	slli	s3, a4, 24
	slli	a0, a0, 16
	slli	a5, a5, 8
	slli	s4, a1, 24
	slli	a2, a2, 16
	slli	t3, t3, 8
	slli	s5, s1, 24
	slli	t6, t6, 16
	slli	t5, t5, 8
	or	a6, t1, a6
	or	a4, t2, s2
	or	a5, a5, a7
	or	a0, a0, s3
	or	a1, t3, t0
	or	a2, a2, s4
	or	s1, t5, t4
	or	a3, t6, s5
	or	a4, a6, a4
	or	a0, a0, a5
	or	a1, a1, a2
	or	a3, a3, s1
	sw	a4, 36(sp)
	sw	a4, 40(sp)
	sw	a0, 44(sp)
	sw	a0, 48(sp)
	sw	a1, 52(sp)
	sw	a1, 56(sp)
	sw	a3, 60(sp)
	sw	a3, 64(sp)
	addi	a0, sp, 4
	addi	a1, sp, 36
	call	aes_small.aes_planes.soft.word.transpose.transpose
	addi	a0, sp, 4
	call	aes_small.aes_planes.soft.mix_columns.mix_columns_0
	addi	a0, sp, 36
	addi	a1, sp, 4
	call	aes_small.aes_planes.soft.word.transpose.transpose
	lw	a0, 36(sp)
	lw	a1, 44(sp)
	lw	a2, 52(sp)
	lw	a3, 60(sp)
	srli	a4, a0, 8
	srli	a5, a0, 16
	srli	s1, a0, 24
	srli	a6, a1, 8
	srli	a7, a1, 16
	srli	t0, a1, 24
	srli	t1, a2, 8
	srli	t2, a2, 16
	srli	t3, a2, 24
	srli	t4, a3, 8
	srli	t5, a3, 16
	srli	t6, a3, 24
	sb	a0, 0(s0)
	sb	a4, 1(s0)
	sb	a5, 2(s0)
	sb	s1, 3(s0)
	sb	a1, 4(s0)
	sb	a6, 5(s0)
	sb	a7, 6(s0)
	sb	t0, 7(s0)
	sb	a2, 8(s0)
	sb	t1, 9(s0)
	sb	t2, 10(s0)
	sb	t3, 11(s0)
	sb	a3, 12(s0)
	sb	t4, 13(s0)
	sb	t5, 14(s0)
	sb	t6, 15(s0)
	lw	ra, 92(sp)                      # 4-byte Folded Reload
	lw	s0, 88(sp)                      # 4-byte Folded Reload
	lw	s1, 84(sp)                      # 4-byte Folded Reload
	lw	s2, 80(sp)                      # 4-byte Folded Reload
	lw	s3, 76(sp)                      # 4-byte Folded Reload
	lw	s4, 72(sp)                      # 4-byte Folded Reload
	lw	s5, 68(sp)                      # 4-byte Folded Reload
	addi	sp, sp, 96
	ret
.Laes_small_func_end69:
	.size	aes_small.aes_c.single_rounds.mixed, .Laes_small_func_end69-aes_small.aes_c.single_rounds.mixed
                                        # -- End function
	.section	.text.aes_small.aes_c.stream.fotsgure_aes_add_keystream,"ax",@progbits
	.p2align	1                               # -- Begin function aes_c::stream::fotsgure_aes_add_keystream
	.type	aes_small.aes_c.stream.fotsgure_aes_add_keystream,@function
aes_small.aes_c.stream.fotsgure_aes_add_keystream: # @aes_small.aes_c.stream.fotsgure_aes_add_keystream
# %bb.0:                                # %start
	addi	sp, sp, -96
	sw	ra, 92(sp)                      # 4-byte Folded Spill
	sw	s0, 88(sp)                      # 4-byte Folded Spill
	sw	s1, 84(sp)                      # 4-byte Folded Spill
	sw	s2, 80(sp)                      # 4-byte Folded Spill
	sw	s3, 76(sp)                      # 4-byte Folded Spill
	mv	s3, a4
	mv	s2, a3
	mv	a6, a2
	mv	s0, a1
	lw	a3, 20(a1)
	lw	a2, 16(a1)
	not	a1, a3
	beq	a4, a1, .Laes_small_BB70_7
# %bb.1:                                # %start
	sltu	a1, a1, s3
	bnez	a1, .Laes_small_BB70_8
.Laes_small_BB70_2:                               # %join.3.i
	lw	a5, 0(a0)
	addi	a4, a5, -16
	li	s1, 16
	li	a1, 2
	bltu	s1, a4, .Laes_small_BB70_12
# %bb.3:                                # %join.3.i
	lui	s1, 16
	addi	s1, s1, 257
	srl	a4, s1, a4
	andi	a4, a4, 1
	beqz	a4, .Laes_small_BB70_12
# %bb.4:                                # %then.1
	srli	a7, a5, 31
	slli	a5, a5, 1
	lbu	t0, 12(s0)
	lbu	t1, 13(s0)
	lbu	a4, 14(s0)
	lbu	s1, 15(s0)
	lbu	t2, 8(s0)
	lbu	t3, 9(s0)
	lbu	t4, 10(s0)
	lbu	t5, 11(s0)
	addi	a1, a5, 56
	sltu	a5, a1, a5
	add	a7, a7, a5
	slli	t1, t1, 8
	slli	a4, a4, 16
	slli	s1, s1, 24
	or	t0, t1, t0
	or	t1, s1, a4
	lbu	t6, 4(s0)
	lbu	a5, 5(s0)
	lbu	a4, 6(s0)
	lbu	s1, 7(s0)
	slli	t3, t3, 8
	slli	t4, t4, 16
	slli	t5, t5, 24
	slli	a5, a5, 8
	slli	a4, a4, 16
	slli	s1, s1, 24
	or	t2, t3, t2
	or	t3, t5, t4
	or	t4, a5, t6
	or	t5, s1, a4
	lbu	s1, 1(s0)
	lbu	t6, 0(s0)
	lbu	a4, 2(s0)
	lbu	a5, 3(s0)
	slli	s1, s1, 8
	or	s1, s1, t6
	slli	a4, a4, 16
	slli	a5, a5, 24
	or	a5, a5, a4
	or	t0, t1, t0
	or	t1, t3, t2
	addi	a0, a0, 4
	or	t2, t5, t4
	andi	a4, a2, 15
	or	s1, s1, a5
	sltiu	a5, a4, 17
	addi	a5, a5, -1
	sw	a0, 8(sp)
	sw	zero, 12(sp)
	sw	a1, 16(sp)
	sw	a7, 20(sp)
	sw	s1, 24(sp)
	sw	t2, 28(sp)
	sw	t1, 32(sp)
	sw	t0, 36(sp)
	sw	zero, 40(sp)
	sw	zero, 44(sp)
	beq	s3, a5, .Laes_small_BB70_9
# %bb.5:                                # %then.1
	sltu	a4, a5, s3
	bnez	a4, .Laes_small_BB70_10
.Laes_small_BB70_6:                               # %then.1.i.i
	addi	a0, sp, 8
	addi	a1, sp, 24
	mv	a4, a6
	mv	a5, s2
	mv	a6, s3
	call	aes_small.aes_ctr.add_in_batches.add_to_one
	j	.Laes_small_BB70_11
.Laes_small_BB70_7:
	not	a1, a2
	sltu	a1, a1, s2
	beqz	a1, .Laes_small_BB70_2
.Laes_small_BB70_8:
	li	a1, 4
	j	.Laes_small_BB70_12
.Laes_small_BB70_9:
	li	a5, 16
	sub	a5, a5, a4
	sltu	a4, a5, s2
	beqz	a4, .Laes_small_BB70_6
.Laes_small_BB70_10:                              # %else.2.i.i
	addi	a4, sp, 24
	sw	a4, 40(sp)
	sw	a2, 48(sp)
	sw	a3, 52(sp)
	sw	a6, 56(sp)
	sw	zero, 60(sp)
	sw	s2, 64(sp)
	sw	s3, 68(sp)
	addi	a3, sp, 40
	mv	a2, a7
	call	aes_small.aes_narrow.borrowed_words.call_to_encrypt
	call	aes_small.aes_cipher.zeroize.stack.wipe_stack.2032
.Laes_small_BB70_11:                              # %"aes_ctr::add_in_batches::add_keystream::<#4f733d09d7f6c6b4>.exit"
	li	a1, 0
	lw	a0, 20(s0)
	lw	a2, 16(s0)
	add	a0, a0, s3
	add	s2, s2, a2
	sltu	a2, s2, a2
	add	a0, a0, a2
	sw	s2, 16(s0)
	sw	a0, 20(s0)
.Laes_small_BB70_12:                              # %join.3
	mv	a0, a1
	lw	ra, 92(sp)                      # 4-byte Folded Reload
	lw	s0, 88(sp)                      # 4-byte Folded Reload
	lw	s1, 84(sp)                      # 4-byte Folded Reload
	lw	s2, 80(sp)                      # 4-byte Folded Reload
	lw	s3, 76(sp)                      # 4-byte Folded Reload
	addi	sp, sp, 96
	li	a1, 0
	li	a2, 0
	li	a3, 0
	li	a4, 0
	li	a5, 0
	li	a6, 0
	li	a7, 0
	li	t0, 0
	li	t1, 0
	li	t2, 0
	li	t3, 0
	li	t4, 0
	li	t5, 0
	li	t6, 0
	ret
.Laes_small_func_end70:
	.size	aes_small.aes_c.stream.fotsgure_aes_add_keystream, .Laes_small_func_end70-aes_small.aes_c.stream.fotsgure_aes_add_keystream
                                        # -- End function
	.section	.text.aes_small.aes_c.single_rounds.round,"ax",@progbits
	.p2align	1                               # -- Begin function aes_c::single_rounds::round
	.type	aes_small.aes_c.single_rounds.round,@function
aes_small.aes_c.single_rounds.round:          # @aes_small.aes_c.single_rounds.round
# %bb.0:                                # %start
	addi	sp, sp, -96
	sw	ra, 92(sp)                      # 4-byte Folded Spill
	sw	s0, 88(sp)                      # 4-byte Folded Spill
	sw	s1, 84(sp)                      # 4-byte Folded Spill
	sw	s2, 80(sp)                      # 4-byte Folded Spill
	sw	s3, 76(sp)                      # 4-byte Folded Spill
	sw	s4, 72(sp)                      # 4-byte Folded Spill
	sw	s5, 68(sp)                      # 4-byte Folded Spill
	sw	s6, 64(sp)                      # 4-byte Folded Spill
	mv	s1, a1
	mv	s0, a0
	lbu	a6, 0(a0)
	lbu	t1, 1(a0)
	lbu	t2, 2(a0)
	lbu	a3, 3(a0)
	lbu	a7, 4(a0)
	lbu	a5, 5(a0)
	lbu	a0, 6(a0)
	lbu	a4, 7(s0)
	lbu	t0, 8(s0)
	lbu	t3, 9(s0)
	lbu	a2, 10(s0)
	lbu	a1, 11(s0)
	lbu	t4, 12(s0)
	lbu	t5, 13(s0)
	lbu	t6, 14(s0)
	lbu	s2, 15(s0)
	slli	s3, a3, 24
	slli	t2, t2, 16
	slli	t1, t1, 8
	slli	s4, a4, 24
	slli	a0, a0, 16
	slli	a5, a5, 8
	slli	s5, a1, 24
	slli	a2, a2, 16
	slli	t3, t3, 8
	slli	s2, s2, 24
	slli	t6, t6, 16
	slli	t5, t5, 8
	or	a6, t1, a6
	or	t1, t2, s3
	or	a7, a5, a7
	or	a0, a0, s4
	or	a1, t3, t0
	or	a2, a2, s5
	or	a3, t5, t4
	or	a4, t6, s2
	or	a5, a6, t1
	or	a0, a7, a0
	or	a1, a1, a2
	or	a3, a3, a4
	sw	a5, 32(sp)
	sw	a5, 36(sp)
	sw	a0, 40(sp)
	sw	a0, 44(sp)
	sw	a1, 48(sp)
	sw	a1, 52(sp)
	sw	a3, 56(sp)
	sw	a3, 60(sp)
	mv	a0, sp
	addi	a1, sp, 32
	call	aes_small.aes_planes.soft.word.transpose.transpose
	mv	a0, sp
	call	aes_small.aes_planes.soft.sbox.sub_bytes
	mv	a0, sp
	call	aes_small.aes_planes.soft.sbox.sub_bytes_nots
	lui	a1, 49392
	mv	a0, sp
	addi	a2, a1, 768
	li	a1, 4
	call	aes_small.aes_planes.soft.shifts.swap_columns
	lui	a1, 208899
	mv	a0, sp
	addi	a2, a1, 768
	li	a1, 2
	call	aes_small.aes_planes.soft.shifts.swap_columns
	mv	a0, sp
	call	aes_small.aes_planes.soft.mix_columns.mix_columns_0
	addi	a0, sp, 32
	mv	a1, sp
	call	aes_small.aes_planes.soft.word.transpose.transpose
	lw	s2, 32(sp)
	lw	s5, 40(sp)
	lw	a4, 48(sp)
	lw	a0, 56(sp)
	lbu	a7, 4(s1)
	lbu	a6, 5(s1)
	lbu	t0, 6(s1)
	lbu	t1, 7(s1)
	lbu	t3, 12(s1)
	lbu	t2, 13(s1)
	lbu	a1, 14(s1)
	lbu	a5, 15(s1)
	lbu	t4, 8(s1)
	lbu	t5, 9(s1)
	lbu	t6, 10(s1)
	lbu	s3, 11(s1)
	srli	a3, a0, 24
	xor	s4, a5, a3
	srli	a5, a0, 16
	xor	s6, a1, a5
	srli	a5, s5, 16
	xor	t3, t3, a0
	srli	a0, a0, 8
	xor	t2, t2, a0
	srli	a2, a4, 24
	xor	s3, s3, a2
	srli	a1, a4, 16
	xor	t6, t6, a1
	srli	a3, s5, 24
	xor	t4, t4, a4
	srli	a4, a4, 8
	xor	t5, t5, a4
	xor	t1, t1, a3
	xor	t0, t0, a5
	lbu	a2, 0(s1)
	lbu	a1, 1(s1)
	lbu	a0, 2(s1)
	lbu	s1, 3(s1)
	xor	a4, a7, s5
	srli	a3, s5, 8
	xor	a3, a6, a3
	srli	a5, s2, 24
	xor	a5, a5, s1
	srli	s1, s2, 16
	xor	a0, a0, s1
	xor	a2, a2, s2
	srli	s1, s2, 8
	xor	a1, a1, s1
	sb	a2, 0(s0)
	sb	a1, 1(s0)
	sb	a0, 2(s0)
	sb	a5, 3(s0)
	sb	a4, 4(s0)
	sb	a3, 5(s0)
	sb	t0, 6(s0)
	sb	t1, 7(s0)
	sb	t4, 8(s0)
	sb	t5, 9(s0)
	sb	t6, 10(s0)
	sb	s3, 11(s0)
	sb	t3, 12(s0)
	sb	t2, 13(s0)
	sb	s6, 14(s0)
	sb	s4, 15(s0)
	lw	ra, 92(sp)                      # 4-byte Folded Reload
	lw	s0, 88(sp)                      # 4-byte Folded Reload
	lw	s1, 84(sp)                      # 4-byte Folded Reload
	lw	s2, 80(sp)                      # 4-byte Folded Reload
	lw	s3, 76(sp)                      # 4-byte Folded Reload
	lw	s4, 72(sp)                      # 4-byte Folded Reload
	lw	s5, 68(sp)                      # 4-byte Folded Reload
	lw	s6, 64(sp)                      # 4-byte Folded Reload
	addi	sp, sp, 96
	ret
.Laes_small_func_end71:
	.size	aes_small.aes_c.single_rounds.round, .Laes_small_func_end71-aes_small.aes_c.single_rounds.round
                                        # -- End function
	.section	.text.aes_small.aes_c.single_rounds.rounds,"ax",@progbits
	.p2align	1                               # -- Begin function aes_c::single_rounds::rounds
	.type	aes_small.aes_c.single_rounds.rounds,@function
aes_small.aes_c.single_rounds.rounds:         # @aes_small.aes_c.single_rounds.rounds
# %bb.0:                                # %start
	addi	sp, sp, -128
	sw	ra, 124(sp)                     # 4-byte Folded Spill
	sw	s0, 120(sp)                     # 4-byte Folded Spill
	sw	s1, 116(sp)                     # 4-byte Folded Spill
	sw	s2, 112(sp)                     # 4-byte Folded Spill
	sw	s3, 108(sp)                     # 4-byte Folded Spill
	sw	s4, 104(sp)                     # 4-byte Folded Spill
	sw	s5, 100(sp)                     # 4-byte Folded Spill
	sw	s6, 96(sp)                      # 4-byte Folded Spill
	sw	s7, 92(sp)                      # 4-byte Folded Spill
	sw	s8, 88(sp)                      # 4-byte Folded Spill
	sw	s9, 84(sp)                      # 4-byte Folded Spill
	sw	s10, 80(sp)                     # 4-byte Folded Spill
	sw	s11, 76(sp)                     # 4-byte Folded Spill
	mv	s2, a1
	mv	s3, a0
	li	s7, 0
	li	s4, 0
.Laes_small_BB72_1:                               # %join.5.i.i
                                        # =>This Inner Loop Header: Depth=1
	slli	s1, s7, 4
	add	s1, s1, s3
	lbu	a6, 0(s1)
	lbu	a7, 1(s1)
	lbu	t0, 2(s1)
	lbu	a3, 3(s1)
	lbu	t1, 16(s1)
	lbu	a5, 17(s1)
	lbu	s0, 18(s1)
	lbu	a0, 19(s1)
	lbu	t2, 4(s1)
	lbu	s6, 5(s1)
	lbu	a4, 6(s1)
	lbu	a1, 7(s1)
	lbu	t3, 20(s1)
	lbu	t4, 21(s1)
	lbu	t5, 22(s1)
	lbu	t6, 23(s1)
	slli	a3, a3, 24
	slli	t0, t0, 16
	slli	a7, a7, 8
	or	a6, a7, a6
	or	a7, t0, a3
	lbu	t0, 8(s1)
	lbu	s5, 9(s1)
	lbu	a3, 10(s1)
	lbu	a2, 11(s1)
	slli	a0, a0, 24
	slli	s0, s0, 16
	slli	a5, a5, 8
	slli	a1, a1, 24
	slli	a4, a4, 16
	slli	s6, s6, 8
	or	t1, a5, t1
	or	s8, s0, a0
	or	t2, s6, t2
	or	s6, a4, a1
	lbu	s9, 24(s1)
	lbu	a5, 25(s1)
	lbu	a0, 26(s1)
	lbu	s0, 27(s1)
	slli	t6, t6, 24
	slli	t5, t5, 16
	slli	t4, t4, 8
	slli	a2, a2, 24
	slli	a3, a3, 16
	slli	s5, s5, 8
	or	t3, t4, t3
	or	t4, t5, t6
	or	t0, s5, t0
	or	t5, a3, a2
	lbu	a3, 12(s1)
	lbu	a1, 13(s1)
	lbu	a2, 14(s1)
	lbu	a4, 15(s1)
	slli	s0, s0, 24
	slli	a0, a0, 16
	slli	a5, a5, 8
	slli	a4, a4, 24
	slli	a2, a2, 16
	slli	a1, a1, 8
	or	t6, a5, s9
	or	s5, a0, s0
	or	s9, a1, a3
	or	s10, a2, a4
	lbu	a3, 29(s1)
	lbu	a4, 28(s1)
	lbu	s0, 31(s1)
	lbu	a5, 30(s1)
	slli	a3, a3, 8
	or	s11, a3, a4
	slli	s0, s0, 24
	slli	a5, a5, 16
	or	a5, a5, s0
	or	a4, a6, a7
	or	s0, t1, s8
	or	a0, t2, s6
	or	a1, t3, t4
	or	a2, t0, t5
	or	a3, t6, s5
	or	a6, s9, s10
	or	a5, s11, a5
	sw	a4, 44(sp)
	sw	s0, 48(sp)
	sw	a0, 52(sp)
	sw	a1, 56(sp)
	sw	a2, 60(sp)
	sw	a3, 64(sp)
	sw	a6, 68(sp)
	addi	s5, s7, 2
	sw	a5, 72(sp)
	sltu	s6, s5, s7
	add	s6, s6, s4
	addi	a0, sp, 12
	addi	a1, sp, 44
	call	aes_small.aes_planes.soft.word.transpose.transpose
	addi	a0, sp, 12
	call	aes_small.aes_planes.soft.sbox.sub_bytes
	addi	a0, sp, 12
	call	aes_small.aes_planes.soft.sbox.sub_bytes_nots
	lui	a1, 49392
	addi	a0, sp, 12
	addi	a2, a1, 768
	li	a1, 4
	call	aes_small.aes_planes.soft.shifts.swap_columns
	lui	a1, 208899
	addi	a0, sp, 12
	addi	a2, a1, 768
	li	a1, 2
	call	aes_small.aes_planes.soft.shifts.swap_columns
	addi	a0, sp, 12
	call	aes_small.aes_planes.soft.mix_columns.mix_columns_0
	addi	a0, sp, 44
	addi	a1, sp, 12
	call	aes_small.aes_planes.soft.word.transpose.transpose
	lw	a0, 44(sp)
	lw	a7, 48(sp)
	lw	a1, 52(sp)
	lw	a6, 56(sp)
	sltiu	a4, s7, 6
	seqz	a5, s4
	and	a4, a4, a5
	srli	a5, a0, 8
	srli	a3, a0, 16
	srli	s0, a0, 24
	srli	a2, a1, 8
	sb	a0, 0(s1)
	srli	a0, a1, 16
	sb	a5, 1(s1)
	sb	a3, 2(s1)
	sb	s0, 3(s1)
	sb	a1, 4(s1)
	sb	a2, 5(s1)
	lw	a2, 60(sp)
	lw	a3, 64(sp)
	lw	a5, 68(sp)
	lw	s0, 72(sp)
	srli	a1, a1, 24
	sb	a0, 6(s1)
	srli	a0, a2, 8
	sb	a1, 7(s1)
	srli	a1, a2, 16
	sb	a0, 9(s1)
	sb	a2, 8(s1)
	srli	a2, a2, 24
	sb	a1, 10(s1)
	srli	a0, a5, 8
	sb	a2, 11(s1)
	srli	a1, a5, 16
	sb	a0, 13(s1)
	sb	a5, 12(s1)
	srli	a5, a5, 24
	sb	a1, 14(s1)
	srli	a0, a7, 8
	sb	a5, 15(s1)
	srli	a1, a7, 16
	sb	a0, 17(s1)
	sb	a7, 16(s1)
	srli	a0, a7, 24
	sb	a1, 18(s1)
	srli	a1, a6, 8
	sb	a0, 19(s1)
	srli	a0, a6, 16
	sb	a1, 21(s1)
	sb	a6, 20(s1)
	srli	a1, a6, 24
	sb	a0, 22(s1)
	srli	a0, a3, 8
	sb	a1, 23(s1)
	srli	a1, a3, 16
	sb	a0, 25(s1)
	sb	a3, 24(s1)
	srli	a3, a3, 24
	sb	a1, 26(s1)
	srli	a0, s0, 8
	sb	a3, 27(s1)
	srli	a1, s0, 16
	sb	a0, 29(s1)
	sb	s0, 28(s1)
	srli	s0, s0, 24
	sb	a1, 30(s1)
	sb	s0, 31(s1)
	mv	s7, s5
	mv	s4, s6
	bnez	a4, .Laes_small_BB72_1
# %bb.2:                                # %join.5.i.i.i.preheader
	li	a1, 0
	li	t3, 0
.Laes_small_BB72_3:                               # %join.5.i.i.i
                                        # =>This Inner Loop Header: Depth=1
	slli	a2, a1, 4
	sltiu	a4, a1, 7
	addi	a1, a1, 1
	seqz	a5, t3
	add	a3, s3, a2
	add	a2, a2, s2
	seqz	t6, a1
	and	a6, a5, a4
	lbu	a7, 4(a3)
	lbu	t0, 5(a3)
	lbu	t1, 6(a3)
	lbu	t2, 7(a3)
	lbu	t4, 12(a3)
	lbu	t5, 13(a3)
	lbu	s4, 14(a3)
	lbu	a0, 15(a3)
	lbu	s8, 12(a2)
	lbu	s9, 13(a2)
	lbu	s1, 14(a2)
	lbu	a5, 15(a2)
	lbu	s5, 8(a3)
	lbu	s6, 9(a3)
	lbu	s7, 10(a3)
	lbu	s0, 11(a3)
	add	t3, t3, t6
	xor	t6, a5, a0
	lbu	s10, 8(a2)
	lbu	a0, 9(a2)
	lbu	a4, 10(a2)
	lbu	a5, 11(a2)
	xor	s4, s1, s4
	xor	t5, s9, t5
	xor	t4, s8, t4
	xor	s8, a5, s0
	lbu	s9, 4(a2)
	lbu	s1, 5(a2)
	lbu	a5, 6(a2)
	lbu	s0, 7(a2)
	xor	s7, a4, s7
	xor	s6, a0, s6
	xor	s5, s10, s5
	xor	t2, s0, t2
	lbu	s10, 0(a3)
	lbu	s11, 1(a3)
	lbu	s0, 2(a3)
	lbu	a0, 3(a3)
	xor	t1, a5, t1
	xor	t0, s1, t0
	xor	a7, s9, a7
	lbu	s1, 3(a2)
	lbu	a5, 2(a2)
	lbu	a4, 1(a2)
	lbu	a2, 0(a2)
	xor	a0, a0, s1
	xor	a5, a5, s0
	xor	a4, a4, s11
	xor	a2, a2, s10
	sb	a2, 0(a3)
	sb	a4, 1(a3)
	sb	a5, 2(a3)
	sb	a0, 3(a3)
	sb	a7, 4(a3)
	sb	t0, 5(a3)
	sb	t1, 6(a3)
	sb	t2, 7(a3)
	sb	s5, 8(a3)
	sb	s6, 9(a3)
	sb	s7, 10(a3)
	sb	s8, 11(a3)
	sb	t4, 12(a3)
	sb	t5, 13(a3)
	sb	s4, 14(a3)
	sb	t6, 15(a3)
	bnez	a6, .Laes_small_BB72_3
# %bb.4:                                # %"aes_soft::soft::hazmat::par::cipher_round_par::<#e817d94f9a7b6ba6>.exit"
	lw	ra, 124(sp)                     # 4-byte Folded Reload
	lw	s0, 120(sp)                     # 4-byte Folded Reload
	lw	s1, 116(sp)                     # 4-byte Folded Reload
	lw	s2, 112(sp)                     # 4-byte Folded Reload
	lw	s3, 108(sp)                     # 4-byte Folded Reload
	lw	s4, 104(sp)                     # 4-byte Folded Reload
	lw	s5, 100(sp)                     # 4-byte Folded Reload
	lw	s6, 96(sp)                      # 4-byte Folded Reload
	lw	s7, 92(sp)                      # 4-byte Folded Reload
	lw	s8, 88(sp)                      # 4-byte Folded Reload
	lw	s9, 84(sp)                      # 4-byte Folded Reload
	lw	s10, 80(sp)                     # 4-byte Folded Reload
	lw	s11, 76(sp)                     # 4-byte Folded Reload
	addi	sp, sp, 128
	ret
.Laes_small_func_end72:
	.size	aes_small.aes_c.single_rounds.rounds, .Laes_small_func_end72-aes_small.aes_c.single_rounds.rounds
                                        # -- End function
	.section	.text.aes_small.ccm.mode.decrypt,"ax",@progbits
	.p2align	1                               # -- Begin function ccm::mode::decrypt::<#4f733d09d7f6c6b4>
	.type	aes_small.ccm.mode.decrypt,@function
aes_small.ccm.mode.decrypt: # @aes_small.ccm.mode.decrypt
# %bb.0:                                # %start
	addi	sp, sp, -144
	sw	ra, 140(sp)                     # 4-byte Folded Spill
	sw	s0, 136(sp)                     # 4-byte Folded Spill
	sw	s1, 132(sp)                     # 4-byte Folded Spill
	sw	s2, 128(sp)                     # 4-byte Folded Spill
	sw	s3, 124(sp)                     # 4-byte Folded Spill
	sw	s4, 120(sp)                     # 4-byte Folded Spill
	sw	s5, 116(sp)                     # 4-byte Folded Spill
	sw	s6, 112(sp)                     # 4-byte Folded Spill
	sw	s7, 108(sp)                     # 4-byte Folded Spill
	sw	s8, 104(sp)                     # 4-byte Folded Spill
	sw	s9, 100(sp)                     # 4-byte Folded Spill
	sw	s10, 96(sp)                     # 4-byte Folded Spill
	sw	s11, 92(sp)                     # 4-byte Folded Spill
	mv	s0, a1
	lw	s11, 144(sp)
	lw	s5, 148(sp)
	addi	a1, s11, -4
	sltu	s1, a1, s11
	add	s1, s1, s5
	addi	s1, s1, -1
	seqz	s1, s1
	sltiu	a1, a1, 13
	and	s1, s1, a1
	li	a1, 0
	beqz	s1, .Laes_small_BB73_10
# %bb.1:                                # %start
	andi	s1, s11, 1
	bnez	s1, .Laes_small_BB73_10
# %bb.2:                                # %after.1.i
	addi	a1, a3, -14
	sltu	s1, a1, a3
	add	s1, s1, a4
	snez	s1, s1
	sltiu	a1, a1, -7
	or	a1, a1, s1
	beqz	a1, .Laes_small_BB73_4
# %bb.3:
	li	a1, 1
	j	.Laes_small_BB73_10
.Laes_small_BB73_4:                               # %after.15.i
	mv	s4, t5
	mv	s3, t4
	mv	s2, t3
	xori	a1, a3, 7
	or	a1, a1, a4
	beqz	a1, .Laes_small_BB73_12
# %bb.5:                                # %"ccm::formatting::check.exit"
	slli	a1, a3, 3
	xori	a1, a1, 120
	addi	s1, a1, -32
	srl	t0, s4, a1
	bltz	s1, .Laes_small_BB73_7
# %bb.6:                                # %"ccm::formatting::check.exit"
	mv	a1, t0
	j	.Laes_small_BB73_8
.Laes_small_BB73_7:
	srl	t1, s3, a1
	slli	t2, s4, 1
	not	a1, a1
	sll	a1, t2, a1
	or	a1, t1, a1
.Laes_small_BB73_8:                               # %"ccm::formatting::check.exit"
	srai	s1, s1, 31
	and	s1, s1, t0
	or	a1, a1, s1
	beqz	a1, .Laes_small_BB73_12
# %bb.9:
	li	a1, 2
.Laes_small_BB73_10:                              # %arm.1
	li	a2, 1
	sb	a2, 0(a0)
	sb	zero, 1(a0)
	sb	a1, 2(a0)
.Laes_small_BB73_11:                              # %common.ret
	lw	ra, 140(sp)                     # 4-byte Folded Reload
	lw	s0, 136(sp)                     # 4-byte Folded Reload
	lw	s1, 132(sp)                     # 4-byte Folded Reload
	lw	s2, 128(sp)                     # 4-byte Folded Reload
	lw	s3, 124(sp)                     # 4-byte Folded Reload
	lw	s4, 120(sp)                     # 4-byte Folded Reload
	lw	s5, 116(sp)                     # 4-byte Folded Reload
	lw	s6, 112(sp)                     # 4-byte Folded Reload
	lw	s7, 108(sp)                     # 4-byte Folded Reload
	lw	s8, 104(sp)                     # 4-byte Folded Reload
	lw	s9, 100(sp)                     # 4-byte Folded Reload
	lw	s10, 96(sp)                     # 4-byte Folded Reload
	lw	s11, 92(sp)                     # 4-byte Folded Reload
	addi	sp, sp, 144
	ret
.Laes_small_BB73_12:                              # %join.4
	mv	s8, a4
	sw	a5, 4(sp)                       # 4-byte Folded Spill
	sw	a6, 8(sp)                       # 4-byte Folded Spill
	sw	a7, 12(sp)                      # 4-byte Folded Spill
	sw	t6, 20(sp)                      # 4-byte Folded Spill
	sw	a0, 16(sp)                      # 4-byte Folded Spill
	li	a0, 14
	sb	zero, 38(sp)
	sub	s9, a0, a3
	sw	zero, 24(sp)
	sw	zero, 28(sp)
	sw	zero, 32(sp)
	sh	zero, 36(sp)
	addi	a0, sp, 24
	mv	s7, a2
	mv	a1, a2
	mv	s6, a3
	mv	a2, a3
	call	memcpy
	sb	s9, 40(sp)
	addi	a0, sp, 41
	addi	a1, sp, 24
	li	a2, 15
	call	memcpy
	snez	a0, s4
	sltiu	a1, s3, 17
	xori	a1, a1, 1
	or	s10, a1, a0
	sw	zero, 56(sp)
	sw	zero, 60(sp)
	beqz	s10, .Laes_small_BB73_14
# %bb.13:                               # %else.2.i.i.i
	lbu	a6, 0(s0)
	lbu	a1, 1(s0)
	lbu	a2, 2(s0)
	lbu	a3, 3(s0)
	lbu	a4, 8(s0)
	lbu	a5, 9(s0)
	lbu	s1, 10(s0)
	lbu	a0, 11(s0)
	slli	a1, a1, 8
	slli	a2, a2, 16
	slli	a3, a3, 24
	slli	a5, a5, 8
	slli	s1, s1, 16
	slli	a0, a0, 24
	or	a1, a1, a6
	or	a2, a2, a3
	or	a6, a5, a4
	or	s1, s1, a0
	lbu	a0, 13(s0)
	lbu	a3, 12(s0)
	lbu	a5, 14(s0)
	lbu	a4, 15(s0)
	slli	a0, a0, 8
	or	a3, a3, a0
	slli	a5, a5, 16
	slli	a4, a4, 24
	or	a4, a4, a5
	addi	a5, sp, 40
	or	a0, a2, a1
	li	a1, 16
	sw	zero, 76(sp)
	sw	s3, 80(sp)
	sw	s4, 84(sp)
	sw	a5, 56(sp)
	sw	a1, 64(sp)
	sw	zero, 68(sp)
	sw	s2, 72(sp)
	or	a1, s1, a6
	or	a2, a4, a3
	addi	a3, sp, 56
	call	aes_small.aes_narrow.borrowed_words.call_to_encrypt
	call	aes_small.aes_cipher.zeroize.stack.wipe_stack.2032
	j	.Laes_small_BB73_15
.Laes_small_BB73_14:                              # %then.1.i.i.i
	addi	a1, sp, 40
	li	a2, 16
	mv	a0, s0
	li	a3, 0
	mv	a4, s2
	mv	a5, s3
	mv	a6, s4
	call	aes_small.aes_ctr.add_in_batches.add_to_one
.Laes_small_BB73_15:                              # %"ccm::message::process_text::<#4f733d09d7f6c6b4>.exit"
	sw	zero, 40(sp)
	sw	zero, 44(sp)
	sw	zero, 48(sp)
	sw	zero, 52(sp)
	addi	a0, sp, 40
	sw	a0, 0(sp)
	mv	a0, s0
	mv	a1, s7
	mv	a2, s6
	mv	a3, s8
	mv	a4, s11
	mv	a5, s5
	lw	a6, 4(sp)                       # 4-byte Folded Reload
	lw	a7, 8(sp)                       # 4-byte Folded Reload
	lw	t3, 12(sp)                      # 4-byte Folded Reload
	mv	t4, s2
	mv	t5, s3
	mv	t6, s4
	call	aes_small.ccm.message.put_tag
	lw	a0, 40(sp)
	lw	a1, 44(sp)
	lw	a2, 48(sp)
	lw	a3, 52(sp)
	sw	a0, 56(sp)
	sw	a1, 60(sp)
	sw	a2, 64(sp)
	sw	a3, 68(sp)
	addi	a0, sp, 56
	lw	a1, 20(sp)                      # 4-byte Folded Reload
	mv	a2, s11
	call	memcpy
	addi	a0, sp, 56
	addi	a1, sp, 40
	call	aes_small.aes_cipher.blocks.difference
	beqz	a0, .Laes_small_BB73_18
# %bb.16:                               # %join.7
	sb	zero, 38(sp)
	sw	zero, 24(sp)
	sw	zero, 28(sp)
	sw	zero, 32(sp)
	sh	zero, 36(sp)
	addi	a0, sp, 24
	mv	a1, s7
	mv	a2, s6
	call	memcpy
	sb	s9, 40(sp)
	addi	a0, sp, 41
	addi	a1, sp, 24
	li	a2, 15
	call	memcpy
	sw	zero, 56(sp)
	sw	zero, 60(sp)
	beqz	s10, .Laes_small_BB73_19
# %bb.17:                               # %else.2.i.i.i35
	addi	a0, sp, 40
	li	a1, 16
	sw	zero, 76(sp)
	sw	s3, 80(sp)
	sw	s4, 84(sp)
	lbu	a2, 0(s0)
	lbu	a3, 1(s0)
	lbu	a4, 2(s0)
	lbu	a5, 3(s0)
	sw	a0, 56(sp)
	sw	a1, 64(sp)
	sw	zero, 68(sp)
	sw	s2, 72(sp)
	slli	a3, a3, 8
	or	a2, a2, a3
	lbu	a0, 8(s0)
	lbu	a1, 9(s0)
	lbu	a3, 10(s0)
	lbu	s1, 11(s0)
	slli	a4, a4, 16
	slli	a5, a5, 24
	slli	a1, a1, 8
	slli	a3, a3, 16
	slli	s1, s1, 24
	or	a4, a4, a5
	or	a1, a1, a0
	or	a3, a3, s1
	lbu	a0, 13(s0)
	lbu	a5, 12(s0)
	lbu	s1, 14(s0)
	lbu	s0, 15(s0)
	slli	a0, a0, 8
	or	a5, a5, a0
	slli	s1, s1, 16
	slli	s0, s0, 24
	or	s0, s0, s1
	or	a0, a4, a2
	or	a1, a1, a3
	or	a2, s0, a5
	addi	a3, sp, 56
	call	aes_small.aes_narrow.borrowed_words.call_to_encrypt
	call	aes_small.aes_cipher.zeroize.stack.wipe_stack.2032
	j	.Laes_small_BB73_20
.Laes_small_BB73_18:                              # %then.5
	lw	a0, 16(sp)                      # 4-byte Folded Reload
	sb	zero, 0(a0)
	sb	zero, 1(a0)
	sb	zero, 2(a0)
	j	.Laes_small_BB73_11
.Laes_small_BB73_19:                              # %then.1.i.i.i34
	addi	a1, sp, 40
	li	a2, 16
	mv	a0, s0
	li	a3, 0
	mv	a4, s2
	mv	a5, s3
	mv	a6, s4
	call	aes_small.aes_ctr.add_in_batches.add_to_one
.Laes_small_BB73_20:                              # %"ccm::message::process_text::<#4f733d09d7f6c6b4>.exit43"
	li	a0, 1
	lw	a1, 16(sp)                      # 4-byte Folded Reload
	sb	a0, 0(a1)
	sb	a0, 1(a1)
	sb	zero, 2(a1)
	j	.Laes_small_BB73_11
.Laes_small_func_end73:
	.size	aes_small.ccm.mode.decrypt, .Laes_small_func_end73-aes_small.ccm.mode.decrypt
                                        # -- End function
	.section	.text.aes_small.ccm.message.put_tag,"ax",@progbits
	.p2align	1                               # -- Begin function ccm::message::put_tag::<#4f733d09d7f6c6b4>
	.type	aes_small.ccm.message.put_tag,@function
aes_small.ccm.message.put_tag: # @aes_small.ccm.message.put_tag
# %bb.0:                                # %start
	addi	sp, sp, -144
	sw	ra, 140(sp)                     # 4-byte Folded Spill
	sw	s0, 136(sp)                     # 4-byte Folded Spill
	sw	s1, 132(sp)                     # 4-byte Folded Spill
	sw	s2, 128(sp)                     # 4-byte Folded Spill
	sw	s3, 124(sp)                     # 4-byte Folded Spill
	sw	s4, 120(sp)                     # 4-byte Folded Spill
	sw	s5, 116(sp)                     # 4-byte Folded Spill
	sw	s6, 112(sp)                     # 4-byte Folded Spill
	sw	s7, 108(sp)                     # 4-byte Folded Spill
	sw	s8, 104(sp)                     # 4-byte Folded Spill
	sw	s9, 100(sp)                     # 4-byte Folded Spill
	sw	s10, 96(sp)                     # 4-byte Folded Spill
	sw	s11, 92(sp)                     # 4-byte Folded Spill
	sw	t4, 20(sp)                      # 4-byte Folded Spill
	mv	s5, t3
	mv	s8, a7
	mv	s9, a6
	mv	s0, a2
	mv	a6, a1
	mv	s7, a0
	srli	a0, t6, 8
	lui	a1, 16
	srli	a2, t6, 24
	slli	a3, t6, 24
	srli	s1, t5, 8
	addi	a1, a1, -256
	and	a0, a0, a1
	or	a0, a0, a2
	srli	a2, t5, 24
	and	s1, s1, a1
	or	a2, a2, s1
	sw	t6, 24(sp)                      # 4-byte Folded Spill
	and	s1, t6, a1
	slli	s1, s1, 8
	or	a3, a3, s1
	slli	s1, t5, 24
	sw	t5, 28(sp)                      # 4-byte Folded Spill
	and	a1, t5, a1
	slli	a1, a1, 8
	or	a1, a1, s1
	sw	zero, 32(sp)
	sw	zero, 36(sp)
	sw	zero, 40(sp)
	sw	zero, 44(sp)
	or	a0, a0, a3
	li	a3, 1
	or	a1, a1, a2
	sw	a0, 48(sp)
	sw	a1, 52(sp)
	addi	a0, a4, -2
	bltu	a3, a4, .Laes_small_BB74_2
# %bb.1:                                # %start
	sltiu	a1, a4, 2
	sub	a1, a5, a1
	sltu	a1, a5, a1
	j	.Laes_small_BB74_3
.Laes_small_BB74_2:
	sltu	a1, a4, a0
.Laes_small_BB74_3:                               # %start
	lw	s10, 144(sp)
	addi	a1, a1, -1
	and	a0, a0, a1
	slli	a0, a0, 2
	andi	a0, a0, 248
	or	s2, s8, s5
	sub	a0, a0, s0
	beqz	s2, .Laes_small_BB74_5
# %bb.4:                                # %start
	li	a1, 78
	j	.Laes_small_BB74_6
.Laes_small_BB74_5:
	li	a1, 14
.Laes_small_BB74_6:                               # %start
	add	s1, a1, a0
	sw	zero, 60(sp)
	sw	zero, 64(sp)
	sw	zero, 68(sp)
	sh	zero, 72(sp)
	sb	zero, 74(sp)
	addi	a0, sp, 60
	sw	a6, 4(sp)                       # 4-byte Folded Spill
	mv	a1, a6
	mv	a2, s0
	call	memcpy
	sb	s1, 76(sp)
	addi	s1, sp, 77
	addi	a1, sp, 60
	li	a2, 15
	li	s3, 15
	mv	a0, s1
	call	memcpy
	add	a0, s1, s0
	addi	a1, sp, 48
	add	a1, a1, s0
	addi	a1, a1, -7
	sw	s0, 8(sp)                       # 4-byte Folded Spill
	sub	a2, s3, s0
	call	memcpy
	lbu	a0, 76(sp)
	lbu	a1, 77(sp)
	lbu	a2, 78(sp)
	lbu	a3, 79(sp)
	lbu	a4, 80(sp)
	lbu	a5, 81(sp)
	lbu	s1, 82(sp)
	lbu	a6, 83(sp)
	lbu	a7, 84(sp)
	lbu	t0, 85(sp)
	lbu	t1, 86(sp)
	lbu	t2, 87(sp)
	lbu	t3, 88(sp)
	lbu	t4, 89(sp)
	lbu	t5, 90(sp)
	lbu	t6, 91(sp)
	sb	a0, 0(s10)
	sb	a1, 1(s10)
	sb	a2, 2(s10)
	sb	a3, 3(s10)
	sb	a4, 4(s10)
	sb	a5, 5(s10)
	sb	s1, 6(s10)
	sb	a6, 7(s10)
	sb	a7, 8(s10)
	sb	t0, 9(s10)
	sb	t1, 10(s10)
	sb	t2, 11(s10)
	sb	t3, 12(s10)
	sb	t4, 13(s10)
	sb	t5, 14(s10)
	sb	t6, 15(s10)
	lbu	a6, 0(s7)
	lbu	t0, 1(s7)
	lbu	t1, 2(s7)
	lbu	t2, 3(s7)
	lbu	a7, 8(s7)
	lbu	a5, 9(s7)
	lbu	s1, 10(s7)
	lbu	a0, 11(s7)
	lbu	t3, 12(s7)
	lbu	a1, 13(s7)
	lbu	a2, 14(s7)
	lbu	a3, 15(s7)
	slli	t0, t0, 8
	slli	t1, t1, 16
	slli	t2, t2, 24
	slli	t4, a5, 8
	slli	t5, s1, 16
	slli	a5, a0, 24
	slli	a1, a1, 8
	slli	t6, a2, 16
	slli	a3, a3, 24
	or	a4, t0, a6
	or	a0, t2, t1
	or	s1, t4, a7
	or	a5, a5, t5
	or	a2, a1, t3
	or	a3, a3, t6
	or	a0, a0, a4
	or	a1, a5, s1
	or	a2, a2, a3
	li	a4, 1
	mv	a3, s10
	li	a5, 0
	call	aes_small.aes_narrow.blocks.process_all_batches.1
	call	aes_small.aes_cipher.zeroize.stack.wipe_stack.1024
	beqz	s2, .Laes_small_BB74_28
# %bb.7:                                # %join.3.i
	sw	zero, 60(sp)
	sw	zero, 64(sp)
	sw	zero, 68(sp)
	sw	zero, 72(sp)
	srli	a0, s8, 8
	lui	a1, 16
	srli	a3, s5, 8
	slli	a4, s5, 24
	addi	a2, a1, -256
	or	a4, a4, a0
	seqz	a1, a3
	and	a3, s8, a2
	sltiu	a4, a4, 255
	slli	a3, a3, 8
	and	a4, a4, a1
	slli	a1, s8, 24
	or	a1, a1, a3
	beqz	a4, .Laes_small_BB74_10
# %bb.8:                                # %then.1.i.i
	addi	a0, sp, 82
	addi	a2, sp, 60
	sltu	a3, a2, a0
	sub	a2, a2, a0
	sltiu	a0, a2, 2
	xori	a0, a0, 1
	or	a0, a0, a3
	srli	a1, a1, 16
	bnez	a0, .Laes_small_BB74_11
# %bb.9:                                # %join.7.i.i.i.i.i.i.preheader.i.i
	zext.b	a0, s8
	sb	a1, 60(sp)
	sb	a0, 61(sp)
	j	.Laes_small_BB74_12
.Laes_small_BB74_10:                              # %join.3.i.i
	and	a0, a0, a2
	srli	a2, s8, 24
	or	a0, a0, a2
	li	a2, -257
	or	a0, a0, a1
	srli	a1, a0, 16
	sh	a2, 60(sp)
	sh	a0, 62(sp)
	sh	a1, 64(sp)
	li	a0, 6
	j	.Laes_small_BB74_13
.Laes_small_BB74_11:                              # %apart.2.i.i.i.i.i.i.i.i
	sh	a1, 60(sp)
.Laes_small_BB74_12:                              # %"ccm::formatting::put_length.exit.i"
	li	a0, 2
.Laes_small_BB74_13:                              # %"ccm::formatting::put_length.exit.i"
	li	a1, 16
	sltiu	s1, a0, 17
	sub	s0, a1, a0
	addi	s2, s1, -1
	sltu	s6, s0, s8
	sltu	s4, s2, s5
	mv	a1, s6
	beq	s2, s5, .Laes_small_BB74_15
# %bb.14:                               # %"ccm::formatting::put_length.exit.i"
	mv	a1, s4
.Laes_small_BB74_15:                              # %"ccm::formatting::put_length.exit.i"
	sw	s4, 16(sp)                      # 4-byte Folded Spill
	mv	a2, s2
	bnez	a1, .Laes_small_BB74_17
# %bb.16:                               # %"ccm::formatting::put_length.exit.i"
	mv	a2, s5
	mv	s0, s8
.Laes_small_BB74_17:                              # %"ccm::formatting::put_length.exit.i"
	sw	a2, 12(sp)                      # 4-byte Folded Spill
	addi	a1, sp, 60
	add	a0, a0, a1
	mv	s4, s9
	mv	a1, s9
	mv	a2, s0
	call	memcpy
	lbu	a6, 64(sp)
	lbu	a7, 65(sp)
	lbu	t0, 66(sp)
	lbu	t1, 67(sp)
	lbu	t2, 68(sp)
	lbu	t3, 69(sp)
	lbu	t4, 70(sp)
	lbu	t5, 71(sp)
	lbu	t6, 72(sp)
	lbu	ra, 73(sp)
	lbu	a3, 74(sp)
	lbu	a4, 75(sp)
	lbu	a5, 12(s10)
	lbu	s1, 13(s10)
	lbu	a0, 14(s10)
	lbu	a1, 15(s10)
	lbu	a2, 8(s10)
	lbu	s11, 9(s10)
	lbu	s3, 10(s10)
	lbu	s9, 11(s10)
	xor	a1, a1, a4
	xor	a0, a0, a3
	xor	ra, s1, ra
	xor	t6, a5, t6
	lbu	a5, 4(s10)
	lbu	s1, 5(s10)
	lbu	a3, 6(s10)
	lbu	a4, 7(s10)
	xor	t5, s9, t5
	xor	t4, s3, t4
	xor	t3, s11, t3
	xor	t2, a2, t2
	lbu	s3, 60(sp)
	lbu	s9, 61(sp)
	lbu	s11, 62(sp)
	lbu	a2, 63(sp)
	xor	t1, a4, t1
	xor	t0, a3, t0
	xor	a7, s1, a7
	xor	a6, a5, a6
	lbu	a4, 3(s10)
	lbu	a3, 2(s10)
	lbu	s1, 1(s10)
	lbu	a5, 0(s10)
	xor	a2, a2, a4
	xor	a3, a3, s11
	xor	a4, s1, s9
	xor	a5, a5, s3
	sb	a5, 0(s10)
	sb	a4, 1(s10)
	sb	a3, 2(s10)
	sb	a2, 3(s10)
	sb	a6, 4(s10)
	sb	a7, 5(s10)
	sb	t0, 6(s10)
	sb	t1, 7(s10)
	sb	t2, 8(s10)
	sb	t3, 9(s10)
	sb	t4, 10(s10)
	sb	t5, 11(s10)
	sb	t6, 12(s10)
	sb	ra, 13(s10)
	sb	a0, 14(s10)
	sb	a1, 15(s10)
	lbu	a6, 0(s7)
	lbu	a1, 1(s7)
	lbu	a2, 2(s7)
	lbu	a3, 3(s7)
	lbu	a4, 8(s7)
	lbu	a5, 9(s7)
	lbu	s1, 10(s7)
	lbu	a0, 11(s7)
	slli	a1, a1, 8
	slli	a2, a2, 16
	slli	a3, a3, 24
	slli	a5, a5, 8
	slli	s1, s1, 16
	slli	a0, a0, 24
	or	a6, a1, a6
	or	a2, a2, a3
	or	a4, a4, a5
	or	s1, s1, a0
	lbu	a0, 13(s7)
	lbu	a3, 12(s7)
	lbu	a5, 14(s7)
	lbu	a1, 15(s7)
	slli	a0, a0, 8
	or	a3, a3, a0
	slli	a5, a5, 16
	slli	a1, a1, 24
	or	a5, a5, a1
	or	a0, a2, a6
	or	a1, s1, a4
	or	a2, a5, a3
	li	a4, 1
	mv	a3, s10
	li	a5, 0
	call	aes_small.aes_narrow.blocks.process_all_batches.1
	call	aes_small.aes_cipher.zeroize.stack.wipe_stack.1024
	beq	s5, s2, .Laes_small_BB74_19
# %bb.18:                               # %"ccm::formatting::put_length.exit.i"
	lw	s6, 16(sp)                      # 4-byte Folded Reload
.Laes_small_BB74_19:                              # %"ccm::formatting::put_length.exit.i"
	beqz	s6, .Laes_small_BB74_28
# %bb.20:                               # %join.5.i.i.preheader
	li	s11, 0
	li	s3, 0
	sltu	a0, s8, s0
	lw	a1, 12(sp)                      # 4-byte Folded Reload
	sub	s1, s5, a1
	sub	s8, s8, s0
	add	s0, s0, s4
	sw	s0, 16(sp)                      # 4-byte Folded Spill
	sub	s6, s1, a0
	srli	a0, s8, 4
	andi	a1, s8, 15
	slli	a2, s6, 28
	snez	s9, a1
	or	a0, a0, a2
	add	s9, s9, a0
	srli	s2, s6, 4
	sw	s9, 12(sp)                      # 4-byte Folded Spill
	sltu	a0, s9, a0
	add	s2, s2, a0
	j	.Laes_small_BB74_22
.Laes_small_BB74_21:                              # %join.5.i.i
                                        #   in Loop: Header=BB74_22 Depth=1
	sltu	a0, s3, s2
	beqz	a0, .Laes_small_BB74_28
.Laes_small_BB74_22:                              # %join.5.i.i
                                        # =>This Inner Loop Header: Depth=1
	srli	a1, s11, 28
	slli	a2, s3, 4
	slli	a0, s11, 4
	or	a1, a1, a2
	addi	a2, a0, 16
	sltu	a3, a2, a0
	add	a1, a1, a3
	beq	a1, s6, .Laes_small_BB74_27
# %bb.23:                               # %join.5.i.i
                                        #   in Loop: Header=BB74_22 Depth=1
	sltu	a1, a1, s6
	bnez	a1, .Laes_small_BB74_25
.Laes_small_BB74_24:                              # %join.5.i.i
                                        #   in Loop: Header=BB74_22 Depth=1
	mv	a2, s8
.Laes_small_BB74_25:                              # %join.5.i.i
                                        #   in Loop: Header=BB74_22 Depth=1
	lw	a1, 16(sp)                      # 4-byte Folded Reload
	add	a1, a1, a0
	sub	a2, a2, a0
	sw	zero, 76(sp)
	sw	zero, 80(sp)
	sw	zero, 84(sp)
	sw	zero, 88(sp)
	addi	a0, sp, 76
	call	memcpy
	lbu	a6, 4(s10)
	lbu	a7, 5(s10)
	lbu	t0, 6(s10)
	lbu	t1, 7(s10)
	lbu	t2, 8(s10)
	lbu	t3, 9(s10)
	lbu	t4, 10(s10)
	lbu	t5, 11(s10)
	lbu	t6, 12(s10)
	lbu	ra, 13(s10)
	lbu	a3, 14(s10)
	lbu	a4, 15(s10)
	lbu	a5, 88(sp)
	lbu	s1, 89(sp)
	lbu	a0, 90(sp)
	lbu	a1, 91(sp)
	lbu	a2, 84(sp)
	lbu	s9, 85(sp)
	lbu	s5, 86(sp)
	lbu	s4, 87(sp)
	xor	a1, a1, a4
	xor	a0, a0, a3
	xor	ra, s1, ra
	xor	t6, a5, t6
	lbu	a5, 80(sp)
	lbu	s1, 81(sp)
	lbu	a3, 82(sp)
	lbu	a4, 83(sp)
	xor	t5, s4, t5
	xor	t4, s5, t4
	xor	t3, s9, t3
	xor	t2, a2, t2
	lbu	s4, 0(s10)
	lbu	s5, 1(s10)
	lbu	a2, 2(s10)
	lbu	s0, 3(s10)
	xor	t1, a4, t1
	xor	t0, a3, t0
	xor	a7, s1, a7
	xor	a6, a5, a6
	lbu	a4, 79(sp)
	lbu	a3, 78(sp)
	lbu	s1, 77(sp)
	lbu	a5, 76(sp)
	xor	a4, a4, s0
	xor	a2, a2, a3
	xor	a3, s1, s5
	xor	a5, a5, s4
	sb	a5, 0(s10)
	sb	a3, 1(s10)
	sb	a2, 2(s10)
	sb	a4, 3(s10)
	sb	a6, 4(s10)
	sb	a7, 5(s10)
	sb	t0, 6(s10)
	sb	t1, 7(s10)
	sb	t2, 8(s10)
	sb	t3, 9(s10)
	sb	t4, 10(s10)
	sb	t5, 11(s10)
	sb	t6, 12(s10)
	sb	ra, 13(s10)
	sb	a0, 14(s10)
	sb	a1, 15(s10)
	lbu	a0, 0(s7)
	lbu	a1, 1(s7)
	lbu	a2, 2(s7)
	lbu	a3, 3(s7)
	lbu	a4, 8(s7)
	lbu	a5, 9(s7)
	lbu	s1, 10(s7)
	lbu	s0, 11(s7)
	slli	a1, a1, 8
	slli	a2, a2, 16
	slli	a3, a3, 24
	slli	a5, a5, 8
	slli	s1, s1, 16
	slli	s0, s0, 24
	or	a0, a0, a1
	or	a2, a2, a3
	or	a4, a4, a5
	or	a1, s0, s1
	lbu	a3, 13(s7)
	lbu	a5, 12(s7)
	lbu	s1, 14(s7)
	lbu	s0, 15(s7)
	slli	a3, a3, 8
	or	a3, a3, a5
	slli	s1, s1, 16
	slli	s0, s0, 24
	or	s0, s0, s1
	or	a0, a0, a2
	or	a1, a1, a4
	or	a2, s0, a3
	li	a4, 1
	mv	a3, s10
	li	a5, 0
	call	aes_small.aes_narrow.blocks.process_all_batches.1
	call	aes_small.aes_cipher.zeroize.stack.wipe_stack.1024
	addi	s11, s11, 1
	seqz	a0, s11
	add	s3, s3, a0
	bne	s3, s2, .Laes_small_BB74_21
# %bb.26:                               #   in Loop: Header=BB74_22 Depth=1
	lw	a0, 12(sp)                      # 4-byte Folded Reload
	sltu	a0, s11, a0
	bnez	a0, .Laes_small_BB74_22
	j	.Laes_small_BB74_28
.Laes_small_BB74_27:                              #   in Loop: Header=BB74_22 Depth=1
	sltu	a1, a2, s8
	beqz	a1, .Laes_small_BB74_24
	j	.Laes_small_BB74_25
.Laes_small_BB74_28:                              # %"ccm::message::chain_additional::<#4f733d09d7f6c6b4>.exit"
	lw	a4, 24(sp)                      # 4-byte Folded Reload
	lw	a0, 28(sp)                      # 4-byte Folded Reload
	or	a0, a0, a4
	beqz	a0, .Laes_small_BB74_37
# %bb.29:                               # %join.5.i.preheader
	li	s4, 0
	li	s3, 0
	lw	a1, 28(sp)                      # 4-byte Folded Reload
	addi	a0, a1, 15
	sltu	a1, a0, a1
	srli	a0, a0, 4
	add	a1, a1, a4
	slli	a2, a1, 28
	or	s8, a0, a2
	srli	s2, a1, 4
	j	.Laes_small_BB74_31
.Laes_small_BB74_30:                              # %join.5.i
                                        #   in Loop: Header=BB74_31 Depth=1
	sltu	a0, s3, s2
	lw	a4, 24(sp)                      # 4-byte Folded Reload
	beqz	a0, .Laes_small_BB74_37
.Laes_small_BB74_31:                              # %join.5.i
                                        # =>This Inner Loop Header: Depth=1
	srli	a1, s4, 28
	slli	a2, s3, 4
	slli	a0, s4, 4
	or	a1, a1, a2
	addi	a2, a0, 16
	sltu	a3, a2, a0
	add	a1, a1, a3
	beq	a1, a4, .Laes_small_BB74_36
# %bb.32:                               # %join.5.i
                                        #   in Loop: Header=BB74_31 Depth=1
	sltu	a1, a1, a4
	bnez	a1, .Laes_small_BB74_34
.Laes_small_BB74_33:                              # %join.5.i
                                        #   in Loop: Header=BB74_31 Depth=1
	lw	a2, 28(sp)                      # 4-byte Folded Reload
.Laes_small_BB74_34:                              # %join.5.i
                                        #   in Loop: Header=BB74_31 Depth=1
	lw	a1, 20(sp)                      # 4-byte Folded Reload
	add	a1, a1, a0
	sub	a2, a2, a0
	sw	zero, 76(sp)
	sw	zero, 80(sp)
	sw	zero, 84(sp)
	sw	zero, 88(sp)
	addi	a0, sp, 76
	call	memcpy
	lbu	a6, 4(s10)
	lbu	a7, 5(s10)
	lbu	t0, 6(s10)
	lbu	t1, 7(s10)
	lbu	t2, 8(s10)
	lbu	t3, 9(s10)
	lbu	t4, 10(s10)
	lbu	t5, 11(s10)
	lbu	t6, 12(s10)
	lbu	s5, 13(s10)
	lbu	s6, 14(s10)
	lbu	s9, 15(s10)
	lbu	a4, 88(sp)
	lbu	a5, 89(sp)
	lbu	s0, 90(sp)
	lbu	s1, 91(sp)
	lbu	a0, 84(sp)
	lbu	a1, 85(sp)
	lbu	a2, 86(sp)
	lbu	a3, 87(sp)
	xor	s9, s1, s9
	xor	s6, s0, s6
	xor	s5, a5, s5
	xor	t6, a4, t6
	lbu	s1, 80(sp)
	lbu	s0, 81(sp)
	lbu	a5, 82(sp)
	lbu	a4, 83(sp)
	xor	t5, a3, t5
	xor	t4, a2, t4
	xor	t3, a1, t3
	xor	t2, a0, t2
	lbu	s11, 0(s10)
	lbu	a2, 1(s10)
	lbu	a1, 2(s10)
	lbu	a0, 3(s10)
	xor	t1, a4, t1
	xor	t0, a5, t0
	xor	a7, s0, a7
	xor	s1, s1, a6
	lbu	a4, 79(sp)
	lbu	a5, 78(sp)
	lbu	a3, 77(sp)
	lbu	s0, 76(sp)
	xor	a0, a0, a4
	xor	a1, a1, a5
	xor	a2, a2, a3
	xor	a3, s0, s11
	sb	a3, 0(s10)
	sb	a2, 1(s10)
	sb	a1, 2(s10)
	sb	a0, 3(s10)
	sb	s1, 4(s10)
	sb	a7, 5(s10)
	sb	t0, 6(s10)
	sb	t1, 7(s10)
	sb	t2, 8(s10)
	sb	t3, 9(s10)
	sb	t4, 10(s10)
	sb	t5, 11(s10)
	sb	t6, 12(s10)
	sb	s5, 13(s10)
	sb	s6, 14(s10)
	sb	s9, 15(s10)
	lbu	a0, 0(s7)
	lbu	a1, 1(s7)
	lbu	a2, 2(s7)
	lbu	a3, 3(s7)
	lbu	a4, 8(s7)
	lbu	a5, 9(s7)
	lbu	s1, 10(s7)
	lbu	s0, 11(s7)
	slli	a1, a1, 8
	slli	a2, a2, 16
	slli	a3, a3, 24
	slli	a5, a5, 8
	slli	s1, s1, 16
	slli	s0, s0, 24
	or	a0, a0, a1
	or	a2, a2, a3
	or	a4, a4, a5
	or	a1, s0, s1
	lbu	a3, 13(s7)
	lbu	a5, 12(s7)
	lbu	s1, 14(s7)
	lbu	s0, 15(s7)
	slli	a3, a3, 8
	or	a3, a3, a5
	slli	s1, s1, 16
	slli	s0, s0, 24
	or	s0, s0, s1
	or	a0, a0, a2
	or	a1, a1, a4
	or	a2, s0, a3
	li	a4, 1
	mv	a3, s10
	li	a5, 0
	call	aes_small.aes_narrow.blocks.process_all_batches.1
	call	aes_small.aes_cipher.zeroize.stack.wipe_stack.1024
	addi	s4, s4, 1
	seqz	a0, s4
	add	s3, s3, a0
	bne	s3, s2, .Laes_small_BB74_30
# %bb.35:                               #   in Loop: Header=BB74_31 Depth=1
	sltu	a0, s4, s8
	lw	a4, 24(sp)                      # 4-byte Folded Reload
	bnez	a0, .Laes_small_BB74_31
	j	.Laes_small_BB74_37
.Laes_small_BB74_36:                              #   in Loop: Header=BB74_31 Depth=1
	lw	a1, 28(sp)                      # 4-byte Folded Reload
	sltu	a1, a2, a1
	beqz	a1, .Laes_small_BB74_33
	j	.Laes_small_BB74_34
.Laes_small_BB74_37:                              # %"cmac::chaining::chain::<#4f733d09d7f6c6b4>.exit"
	li	a0, 14
	sb	zero, 90(sp)
	lw	a2, 8(sp)                       # 4-byte Folded Reload
	sub	s2, a0, a2
	sw	zero, 76(sp)
	sw	zero, 80(sp)
	sw	zero, 84(sp)
	sh	zero, 88(sp)
	addi	a0, sp, 76
	lw	a1, 4(sp)                       # 4-byte Folded Reload
	call	memcpy
	lbu	a0, 76(sp)
	lbu	a1, 77(sp)
	lbu	a2, 78(sp)
	lbu	s3, 79(sp)
	lbu	s4, 80(sp)
	lbu	s5, 81(sp)
	lbu	s1, 82(sp)
	lbu	a7, 83(sp)
	lbu	t0, 84(sp)
	lbu	t1, 85(sp)
	lbu	t2, 86(sp)
	lbu	t3, 87(sp)
	lbu	t4, 88(sp)
	lbu	t5, 89(sp)
	lbu	a6, 90(sp)
	lbu	t6, 0(s7)
	lbu	s6, 1(s7)
	lbu	s8, 2(s7)
	lbu	a4, 3(s7)
	sb	s2, 32(sp)
	sb	a0, 33(sp)
	sb	a1, 34(sp)
	sb	a2, 35(sp)
	lbu	s2, 8(s7)
	lbu	a1, 9(s7)
	lbu	a2, 10(s7)
	lbu	a5, 11(s7)
	sb	s3, 36(sp)
	sb	s4, 37(sp)
	sb	s5, 38(sp)
	sb	s1, 39(sp)
	lbu	s3, 12(s7)
	lbu	s0, 13(s7)
	lbu	a0, 14(s7)
	lbu	a3, 15(s7)
	sb	a7, 40(sp)
	sb	t0, 41(sp)
	sb	t1, 42(sp)
	sb	t2, 43(sp)
	sb	t3, 44(sp)
	sb	t4, 45(sp)
	sb	t5, 46(sp)
	sb	a6, 47(sp)
	slli	s6, s6, 8
	slli	s8, s8, 16
	slli	a4, a4, 24
	slli	a1, a1, 8
	slli	a2, a2, 16
	slli	a5, a5, 24
	slli	s0, s0, 8
	slli	a0, a0, 16
	slli	a3, a3, 24
	or	s1, s6, t6
	or	a4, a4, s8
	or	a1, a1, s2
	or	a2, a2, a5
	or	a5, s0, s3
	or	a3, a3, a0
	or	a0, a4, s1
	or	a1, a1, a2
	or	a2, a3, a5
	addi	a3, sp, 32
	li	a4, 1
	li	a5, 0
	call	aes_small.aes_narrow.blocks.process_all_batches.1
	call	aes_small.aes_cipher.zeroize.stack.wipe_stack.1024
	lbu	a6, 4(s10)
	lbu	a7, 5(s10)
	lbu	t0, 6(s10)
	lbu	t1, 7(s10)
	lbu	t2, 8(s10)
	lbu	t3, 9(s10)
	lbu	t4, 10(s10)
	lbu	t5, 11(s10)
	lbu	t6, 12(s10)
	lbu	s2, 13(s10)
	lbu	s3, 14(s10)
	lbu	s4, 15(s10)
	lbu	a4, 44(sp)
	lbu	a5, 45(sp)
	lbu	s1, 46(sp)
	lbu	s0, 47(sp)
	lbu	a0, 40(sp)
	lbu	a1, 41(sp)
	lbu	a2, 42(sp)
	lbu	a3, 43(sp)
	xor	s4, s0, s4
	xor	s3, s1, s3
	xor	s2, a5, s2
	xor	t6, a4, t6
	lbu	s0, 36(sp)
	lbu	s1, 37(sp)
	lbu	a5, 38(sp)
	lbu	a4, 39(sp)
	xor	t5, a3, t5
	xor	t4, a2, t4
	xor	t3, a1, t3
	xor	t2, a0, t2
	lbu	s5, 0(s10)
	lbu	a2, 1(s10)
	lbu	a1, 2(s10)
	lbu	a0, 3(s10)
	xor	t1, a4, t1
	xor	t0, a5, t0
	xor	a7, s1, a7
	xor	s0, s0, a6
	lbu	a4, 35(sp)
	lbu	a5, 34(sp)
	lbu	a3, 33(sp)
	lbu	s1, 32(sp)
	xor	a0, a0, a4
	xor	a1, a1, a5
	xor	a2, a2, a3
	xor	a3, s1, s5
	sb	a3, 0(s10)
	sb	a2, 1(s10)
	sb	a1, 2(s10)
	sb	a0, 3(s10)
	sb	s0, 4(s10)
	sb	a7, 5(s10)
	sb	t0, 6(s10)
	sb	t1, 7(s10)
	sb	t2, 8(s10)
	sb	t3, 9(s10)
	sb	t4, 10(s10)
	sb	t5, 11(s10)
	sb	t6, 12(s10)
	sb	s2, 13(s10)
	sb	s3, 14(s10)
	sb	s4, 15(s10)
	lw	ra, 140(sp)                     # 4-byte Folded Reload
	lw	s0, 136(sp)                     # 4-byte Folded Reload
	lw	s1, 132(sp)                     # 4-byte Folded Reload
	lw	s2, 128(sp)                     # 4-byte Folded Reload
	lw	s3, 124(sp)                     # 4-byte Folded Reload
	lw	s4, 120(sp)                     # 4-byte Folded Reload
	lw	s5, 116(sp)                     # 4-byte Folded Reload
	lw	s6, 112(sp)                     # 4-byte Folded Reload
	lw	s7, 108(sp)                     # 4-byte Folded Reload
	lw	s8, 104(sp)                     # 4-byte Folded Reload
	lw	s9, 100(sp)                     # 4-byte Folded Reload
	lw	s10, 96(sp)                     # 4-byte Folded Reload
	lw	s11, 92(sp)                     # 4-byte Folded Reload
	addi	sp, sp, 144
	ret
.Laes_small_func_end74:
	.size	aes_small.ccm.message.put_tag, .Laes_small_func_end74-aes_small.ccm.message.put_tag
                                        # -- End function
	.section	.text.aes_small.ccm.mode.encrypt,"ax",@progbits
	.p2align	1                               # -- Begin function ccm::mode::encrypt::<#4f733d09d7f6c6b4>
	.type	aes_small.ccm.mode.encrypt,@function
aes_small.ccm.mode.encrypt: # @aes_small.ccm.mode.encrypt
# %bb.0:                                # %start
	addi	sp, sp, -128
	sw	ra, 124(sp)                     # 4-byte Folded Spill
	sw	s0, 120(sp)                     # 4-byte Folded Spill
	sw	s1, 116(sp)                     # 4-byte Folded Spill
	sw	s2, 112(sp)                     # 4-byte Folded Spill
	sw	s3, 108(sp)                     # 4-byte Folded Spill
	sw	s4, 104(sp)                     # 4-byte Folded Spill
	sw	s5, 100(sp)                     # 4-byte Folded Spill
	sw	s6, 96(sp)                      # 4-byte Folded Spill
	sw	s7, 92(sp)                      # 4-byte Folded Spill
	sw	s8, 88(sp)                      # 4-byte Folded Spill
	mv	s4, a7
	mv	t2, a6
	mv	a7, a5
	mv	a6, a4
	lw	a5, 128(sp)
	addi	a4, t6, -4
	sltu	s1, a4, t6
	add	s1, s1, a5
	addi	s1, s1, -1
	seqz	s1, s1
	sltiu	a4, a4, 13
	and	s1, s1, a4
	li	a4, 0
	beqz	s1, .Laes_small_BB75_4
# %bb.1:                                # %start
	andi	s1, t6, 1
	bnez	s1, .Laes_small_BB75_4
# %bb.2:                                # %after.1.i
	addi	a4, a2, -14
	sltu	s1, a4, a2
	add	s1, s1, a3
	snez	s1, s1
	sltiu	a4, a4, -7
	or	a4, a4, s1
	beqz	a4, .Laes_small_BB75_5
# %bb.3:
	li	a4, 1
.Laes_small_BB75_4:                               # %"ccm::formatting::check.exit.thread"
	li	a0, 1
	j	.Laes_small_BB75_18
.Laes_small_BB75_5:                               # %after.15.i
	xori	a4, a2, 7
	or	a4, a4, a3
	bnez	a4, .Laes_small_BB75_7
# %bb.6:
	mv	s3, t5
	mv	s6, t3
	mv	s7, t4
	li	s8, 0
	j	.Laes_small_BB75_13
.Laes_small_BB75_7:                               # %"ccm::formatting::check.exit"
	slli	a4, a2, 3
	xori	a4, a4, 120
	addi	t1, a4, -32
	srl	t0, t4, a4
	bltz	t1, .Laes_small_BB75_9
# %bb.8:                                # %"ccm::formatting::check.exit"
	mv	a4, t0
	j	.Laes_small_BB75_10
.Laes_small_BB75_9:
	srl	s2, t3, a4
	slli	s1, t4, 1
	not	a4, a4
	sll	a4, s1, a4
	or	a4, s2, a4
.Laes_small_BB75_10:                              # %"ccm::formatting::check.exit"
	srai	s1, t1, 31
	and	s1, s1, t0
	or	a4, a4, s1
	snez	s8, a4
	beqz	a4, .Laes_small_BB75_12
# %bb.11:
	li	a4, 2
	j	.Laes_small_BB75_17
.Laes_small_BB75_12:
	mv	s3, t5
	mv	s6, t3
	mv	s7, t4
.Laes_small_BB75_13:                              # %arm.1
	sw	zero, 8(sp)
	sw	zero, 12(sp)
	sw	zero, 16(sp)
	sw	zero, 20(sp)
	addi	a4, sp, 8
	sw	a4, 0(sp)
	mv	s2, a0
	mv	s5, a1
	mv	s0, a2
	mv	a4, t6
	mv	t3, t2
	mv	t4, s4
	mv	t5, s6
	mv	s1, t6
	mv	t6, s7
	call	aes_small.ccm.message.put_tag
	addi	a1, sp, 8
	mv	a0, s3
	mv	a2, s1
	call	memcpy
	li	a0, 14
	sb	zero, 38(sp)
	sub	s1, a0, s0
	sw	zero, 24(sp)
	sw	zero, 28(sp)
	sw	zero, 32(sp)
	sh	zero, 36(sp)
	addi	a0, sp, 24
	mv	a1, s5
	mv	a2, s0
	call	memcpy
	sb	s1, 40(sp)
	addi	a0, sp, 41
	addi	a1, sp, 24
	li	a2, 15
	call	memcpy
	sltiu	a0, s6, 17
	seqz	a1, s7
	and	a0, a0, a1
	sw	zero, 56(sp)
	sw	zero, 60(sp)
	bnez	a0, .Laes_small_BB75_15
# %bb.14:                               # %else.2.i.i.i
	addi	a0, sp, 40
	li	a1, 16
	sw	zero, 76(sp)
	sw	s6, 80(sp)
	sw	s7, 84(sp)
	lbu	a2, 0(s2)
	lbu	a3, 1(s2)
	lbu	a4, 2(s2)
	lbu	a5, 3(s2)
	sw	a0, 56(sp)
	sw	a1, 64(sp)
	sw	zero, 68(sp)
	sw	s4, 72(sp)
	slli	a3, a3, 8
	or	a2, a2, a3
	lbu	a0, 8(s2)
	lbu	a1, 9(s2)
	lbu	a3, 10(s2)
	lbu	s1, 11(s2)
	slli	a4, a4, 16
	slli	a5, a5, 24
	slli	a1, a1, 8
	slli	a3, a3, 16
	slli	s1, s1, 24
	or	a4, a4, a5
	or	a1, a1, a0
	or	a3, a3, s1
	lbu	a0, 13(s2)
	lbu	a5, 12(s2)
	lbu	s1, 14(s2)
	lbu	s0, 15(s2)
	slli	a0, a0, 8
	or	a5, a5, a0
	slli	s1, s1, 16
	slli	s0, s0, 24
	or	s0, s0, s1
	or	a0, a4, a2
	or	a1, a1, a3
	or	a2, s0, a5
	addi	a3, sp, 56
	call	aes_small.aes_narrow.borrowed_words.call_to_encrypt
	call	aes_small.aes_cipher.zeroize.stack.wipe_stack.2032
	j	.Laes_small_BB75_16
.Laes_small_BB75_15:                              # %then.1.i.i.i
	addi	a1, sp, 40
	li	a2, 16
	mv	a0, s2
	li	a3, 0
	mv	a4, s4
	mv	a5, s6
	mv	a6, s7
	call	aes_small.aes_ctr.add_in_batches.add_to_one
.Laes_small_BB75_16:                              # %"ccm::message::process_text::<#4f733d09d7f6c6b4>.exit"
	li	a4, 0
.Laes_small_BB75_17:                              # %return.5
	mv	a0, s8
.Laes_small_BB75_18:                              # %return.5
	mv	a1, a4
	lw	ra, 124(sp)                     # 4-byte Folded Reload
	lw	s0, 120(sp)                     # 4-byte Folded Reload
	lw	s1, 116(sp)                     # 4-byte Folded Reload
	lw	s2, 112(sp)                     # 4-byte Folded Reload
	lw	s3, 108(sp)                     # 4-byte Folded Reload
	lw	s4, 104(sp)                     # 4-byte Folded Reload
	lw	s5, 100(sp)                     # 4-byte Folded Reload
	lw	s6, 96(sp)                      # 4-byte Folded Reload
	lw	s7, 92(sp)                      # 4-byte Folded Reload
	lw	s8, 88(sp)                      # 4-byte Folded Reload
	addi	sp, sp, 128
	ret
.Laes_small_func_end75:
	.size	aes_small.ccm.mode.encrypt, .Laes_small_func_end75-aes_small.ccm.mode.encrypt
                                        # -- End function
	.section	.text.aes_small.fotsgure_aes_version,"ax",@progbits
	export_aes_small	fotsgure_aes_version
	.p2align	1
	.type	aes_small.fotsgure_aes_version,@function
aes_small.fotsgure_aes_version:                   # @aes_small.fotsgure_aes_version
# %bb.0:
	li	a0, 400
	li	a1, 0
	li	a2, 0
	li	a3, 0
	li	a4, 0
	li	a5, 0
	li	a6, 0
	li	a7, 0
	li	t0, 0
	li	t1, 0
	li	t2, 0
	li	t3, 0
	li	t4, 0
	li	t5, 0
	li	t6, 0
	ret
.Laes_small_func_end76:
	.size	aes_small.fotsgure_aes_version, .Laes_small_func_end76-aes_small.fotsgure_aes_version
                                        # -- End function
	.section	.text.aes_small.fotsgure_aes_set_key,"ax",@progbits
	export_aes_small	fotsgure_aes_set_key
	.p2align	1
	.type	aes_small.fotsgure_aes_set_key,@function
aes_small.fotsgure_aes_set_key:                   # @aes_small.fotsgure_aes_set_key
# %bb.0:
	addi	sp, sp, -32
	sw	ra, 28(sp)                      # 4-byte Folded Spill
	sw	s0, 24(sp)                      # 4-byte Folded Spill
	sw	s1, 20(sp)                      # 4-byte Folded Spill
	sw	s2, 16(sp)                      # 4-byte Folded Spill
	sw	s3, 12(sp)                      # 4-byte Folded Spill
	mv	s0, a2
	li	a2, 32
	beq	s0, a2, .Laes_small_BB77_3
# %bb.1:
	andi	a2, s0, -9
	li	a3, 16
	beq	a2, a3, .Laes_small_BB77_3
# %bb.2:                                # %then.1.i.i
	li	a2, 484
	li	a1, 0
	call	memset
	li	a0, 1
	j	.Laes_small_BB77_4
.Laes_small_BB77_3:                               # %join.3.i.i
	seqz	a2, a1
	slli	a2, a2, 12
	add	s1, a1, a2
	addi	s2, a0, 4
	li	a2, 480
	mv	s3, a0
	mv	a0, s2
	li	a1, 0
	call	memset
	mv	a0, s2
	mv	a1, s1
	mv	a2, s0
	li	a3, 0
	call	aes_small.aes_narrow.word_room.expand_words
	call	aes_small.aes_cipher.zeroize.stack.wipe_stack.768
	li	a0, 0
	sw	s0, 0(s3)
.Laes_small_BB77_4:                               # %wide_fotsgure_aes_set_key.exit
	lw	ra, 28(sp)                      # 4-byte Folded Reload
	lw	s0, 24(sp)                      # 4-byte Folded Reload
	lw	s1, 20(sp)                      # 4-byte Folded Reload
	lw	s2, 16(sp)                      # 4-byte Folded Reload
	lw	s3, 12(sp)                      # 4-byte Folded Reload
	addi	sp, sp, 32
	li	a1, 0
	li	a2, 0
	li	a3, 0
	li	a4, 0
	li	a5, 0
	li	a6, 0
	li	a7, 0
	li	t0, 0
	li	t1, 0
	li	t2, 0
	li	t3, 0
	li	t4, 0
	li	t5, 0
	li	t6, 0
	ret
.Laes_small_func_end77:
	.size	aes_small.fotsgure_aes_set_key, .Laes_small_func_end77-aes_small.fotsgure_aes_set_key
                                        # -- End function
	.section	.text.aes_small.fotsgure_aes_key_length,"ax",@progbits
	export_aes_small	fotsgure_aes_key_length
	.p2align	1
	.type	aes_small.fotsgure_aes_key_length,@function
aes_small.fotsgure_aes_key_length:                # @aes_small.fotsgure_aes_key_length
# %bb.0:
	lw	a0, 0(a0)
	andi	a1, a0, -9
	addi	a2, a0, -32
	addi	a1, a1, -16
	seqz	a1, a1
	seqz	a2, a2
	or	a1, a1, a2
	neg	a1, a1
	and	a0, a0, a1
	li	a1, 0
	li	a2, 0
	li	a3, 0
	li	a4, 0
	li	a5, 0
	li	a6, 0
	li	a7, 0
	li	t0, 0
	li	t1, 0
	li	t2, 0
	li	t3, 0
	li	t4, 0
	li	t5, 0
	li	t6, 0
	ret
.Laes_small_func_end78:
	.size	aes_small.fotsgure_aes_key_length, .Laes_small_func_end78-aes_small.fotsgure_aes_key_length
                                        # -- End function
	.section	.text.aes_small.fotsgure_aes_wipe,"ax",@progbits
	export_aes_small	fotsgure_aes_wipe
	.p2align	1
	.type	aes_small.fotsgure_aes_wipe,@function
aes_small.fotsgure_aes_wipe:                      # @aes_small.fotsgure_aes_wipe
# %bb.0:
	addi	sp, sp, -16
	sw	ra, 12(sp)                      # 4-byte Folded Spill
	sw	s0, 8(sp)                       # 4-byte Folded Spill
	addi	s0, a0, 4
	li	a2, 484
	li	a1, 0
	call	memset
	mv	a0, s0
	lw	ra, 12(sp)                      # 4-byte Folded Reload
	lw	s0, 8(sp)                       # 4-byte Folded Reload
	addi	sp, sp, 16
	tail	aes_small.aes_cipher.zeroize.elements.zeroize_elements.1
.Laes_small_func_end79:
	.size	aes_small.fotsgure_aes_wipe, .Laes_small_func_end79-aes_small.fotsgure_aes_wipe
                                        # -- End function
	.section	.text.aes_small.fotsgure_aes_encrypt_blocks,"ax",@progbits
	export_aes_small	fotsgure_aes_encrypt_blocks
	.p2align	1
	.type	aes_small.fotsgure_aes_encrypt_blocks,@function
aes_small.fotsgure_aes_encrypt_blocks:            # @aes_small.fotsgure_aes_encrypt_blocks
# %bb.0:
	mv	a4, a2
	lw	a2, 0(a0)
	li	a3, 32
	beq	a2, a3, .Laes_small_BB80_3
# %bb.1:
	andi	a3, a2, -9
	li	a5, 16
	beq	a3, a5, .Laes_small_BB80_3
# %bb.2:
	li	a0, 2
	li	a1, 0
	li	a2, 0
	li	a3, 0
	li	a4, 0
	li	a5, 0
	li	a6, 0
	li	a7, 0
	li	t0, 0
	li	t1, 0
	li	t2, 0
	li	t3, 0
	li	t4, 0
	li	t5, 0
	li	t6, 0
	ret
.Laes_small_BB80_3:                               # %join.3.i.i
	addi	sp, sp, -16
	sw	ra, 12(sp)                      # 4-byte Folded Spill
	seqz	a3, a1
	addi	a0, a0, 4
	srli	a5, a2, 31
	slli	a2, a2, 1
	slli	a3, a3, 12
	add	a3, a3, a1
	addi	a1, a2, 56
	sltu	a2, a1, a2
	add	a2, a2, a5
	li	a5, 0
	call	aes_small.aes_narrow.blocks.process_all_batches.1
	call	aes_small.aes_cipher.zeroize.stack.wipe_stack.1024
	li	a0, 0
	lw	ra, 12(sp)                      # 4-byte Folded Reload
	addi	sp, sp, 16
	li	a1, 0
	li	a2, 0
	li	a3, 0
	li	a4, 0
	li	a5, 0
	li	a6, 0
	li	a7, 0
	li	t0, 0
	li	t1, 0
	li	t2, 0
	li	t3, 0
	li	t4, 0
	li	t5, 0
	li	t6, 0
	ret
.Laes_small_func_end80:
	.size	aes_small.fotsgure_aes_encrypt_blocks, .Laes_small_func_end80-aes_small.fotsgure_aes_encrypt_blocks
                                        # -- End function
	.section	.text.aes_small.fotsgure_aes_decrypt_blocks,"ax",@progbits
	export_aes_small	fotsgure_aes_decrypt_blocks
	.p2align	1
	.type	aes_small.fotsgure_aes_decrypt_blocks,@function
aes_small.fotsgure_aes_decrypt_blocks:            # @aes_small.fotsgure_aes_decrypt_blocks
# %bb.0:
	mv	a4, a2
	lw	a2, 0(a0)
	li	a3, 32
	beq	a2, a3, .Laes_small_BB81_3
# %bb.1:
	andi	a3, a2, -9
	li	a5, 16
	beq	a3, a5, .Laes_small_BB81_3
# %bb.2:
	li	a0, 2
	li	a1, 0
	li	a2, 0
	li	a3, 0
	li	a4, 0
	li	a5, 0
	li	a6, 0
	li	a7, 0
	li	t0, 0
	li	t1, 0
	li	t2, 0
	li	t3, 0
	li	t4, 0
	li	t5, 0
	li	t6, 0
	ret
.Laes_small_BB81_3:                               # %join.3.i.i
	addi	sp, sp, -16
	sw	ra, 12(sp)                      # 4-byte Folded Spill
	seqz	a3, a1
	addi	a0, a0, 4
	srli	a5, a2, 31
	slli	a2, a2, 1
	slli	a3, a3, 12
	add	a3, a3, a1
	addi	a1, a2, 56
	sltu	a2, a1, a2
	add	a2, a2, a5
	li	a5, 0
	call	aes_small.aes_narrow.blocks.process_all_batches.2
	call	aes_small.aes_cipher.zeroize.stack.wipe_stack.1024
	li	a0, 0
	lw	ra, 12(sp)                      # 4-byte Folded Reload
	addi	sp, sp, 16
	li	a1, 0
	li	a2, 0
	li	a3, 0
	li	a4, 0
	li	a5, 0
	li	a6, 0
	li	a7, 0
	li	t0, 0
	li	t1, 0
	li	t2, 0
	li	t3, 0
	li	t4, 0
	li	t5, 0
	li	t6, 0
	ret
.Laes_small_func_end81:
	.size	aes_small.fotsgure_aes_decrypt_blocks, .Laes_small_func_end81-aes_small.fotsgure_aes_decrypt_blocks
                                        # -- End function
	.section	.text.aes_small.fotsgure_aes_encrypt_blocks_to,"ax",@progbits
	export_aes_small	fotsgure_aes_encrypt_blocks_to
	.p2align	1
	.type	aes_small.fotsgure_aes_encrypt_blocks_to,@function
aes_small.fotsgure_aes_encrypt_blocks_to:         # @aes_small.fotsgure_aes_encrypt_blocks_to
# %bb.0:
	bne	a2, a4, .Laes_small_BB82_6
# %bb.1:                                # %join.3.i.i
	addi	sp, sp, -32
	sw	ra, 28(sp)                      # 4-byte Folded Spill
	sw	s0, 24(sp)                      # 4-byte Folded Spill
	sw	s1, 20(sp)                      # 4-byte Folded Spill
	sw	s2, 16(sp)                      # 4-byte Folded Spill
	sw	s3, 12(sp)                      # 4-byte Folded Spill
	sw	s4, 8(sp)                       # 4-byte Folded Spill
	sw	s5, 4(sp)                       # 4-byte Folded Spill
	mv	s3, a2
	mv	s2, a0
	lw	a2, 0(a0)
	addi	a2, a2, -16
	li	a4, 16
	li	a0, 2
	bltu	a4, a2, .Laes_small_BB82_11
# %bb.2:                                # %join.3.i.i
	lui	a4, 16
	addi	a4, a4, 257
	srl	a2, a4, a2
	andi	a2, a2, 1
	beqz	a2, .Laes_small_BB82_11
# %bb.3:                                # %join.6.i.i
	seqz	a0, a1
	seqz	a2, a3
	slli	a0, a0, 12
	slli	a2, a2, 12
	add	s5, a1, a0
	add	s4, a3, a2
	srli	a0, s3, 28
	sltu	a1, s4, s5
	neg	a1, a1
	slli	a2, s3, 4
	beq	a1, a0, .Laes_small_BB82_7
# %bb.4:                                # %join.6.i.i
	sltu	a0, a1, a0
	bnez	a0, .Laes_small_BB82_8
.Laes_small_BB82_5:                               # %apart.2.i.i.i.i.i.i.i.i
	mv	a0, s4
	mv	a1, s5
	call	memmove
	j	.Laes_small_BB82_10
.Laes_small_BB82_6:
	li	a0, 3
	li	a1, 0
	li	a2, 0
	li	a3, 0
	li	a4, 0
	li	a5, 0
	li	a6, 0
	li	a7, 0
	li	t0, 0
	li	t1, 0
	li	t2, 0
	li	t3, 0
	li	t4, 0
	li	t5, 0
	li	t6, 0
	ret
.Laes_small_BB82_7:
	sub	a0, s4, s5
	sltu	a0, a0, a2
	beqz	a0, .Laes_small_BB82_5
.Laes_small_BB82_8:                               # %join.7.i.i.i.i.i.i.i.i.preheader
	li	s1, 0
	li	s0, 0
.Laes_small_BB82_9:                               # %join.7.i.i.i.i.i.i.i.i
                                        # =>This Inner Loop Header: Depth=1
	slli	a1, s1, 4
	add	a0, s4, a1
	add	a1, a1, s5
	li	a2, 16
	call	memmove
	addi	s1, s1, 1
	seqz	a0, s1
	add	s0, s0, a0
	sltu	a0, s1, s3
	seqz	a1, s0
	and	a0, a0, a1
	bnez	a0, .Laes_small_BB82_9
.Laes_small_BB82_10:                              # %"core::slice::edits::slice+T::copy_from_slice::<#b9e87c6de6ee7501>.exit.i.i"
	lw	a1, 0(s2)
	addi	a0, s2, 4
	srli	a2, a1, 31
	slli	a3, a1, 1
	addi	a1, a3, 56
	sltu	a3, a1, a3
	add	a2, a2, a3
	mv	a3, s4
	mv	a4, s3
	li	a5, 0
	call	aes_small.aes_narrow.blocks.process_all_batches.1
	call	aes_small.aes_cipher.zeroize.stack.wipe_stack.1024
	li	a0, 0
.Laes_small_BB82_11:
	lw	ra, 28(sp)                      # 4-byte Folded Reload
	lw	s0, 24(sp)                      # 4-byte Folded Reload
	lw	s1, 20(sp)                      # 4-byte Folded Reload
	lw	s2, 16(sp)                      # 4-byte Folded Reload
	lw	s3, 12(sp)                      # 4-byte Folded Reload
	lw	s4, 8(sp)                       # 4-byte Folded Reload
	lw	s5, 4(sp)                       # 4-byte Folded Reload
	addi	sp, sp, 32
	li	a1, 0
	li	a2, 0
	li	a3, 0
	li	a4, 0
	li	a5, 0
	li	a6, 0
	li	a7, 0
	li	t0, 0
	li	t1, 0
	li	t2, 0
	li	t3, 0
	li	t4, 0
	li	t5, 0
	li	t6, 0
	ret
.Laes_small_func_end82:
	.size	aes_small.fotsgure_aes_encrypt_blocks_to, .Laes_small_func_end82-aes_small.fotsgure_aes_encrypt_blocks_to
                                        # -- End function
	.section	.text.aes_small.fotsgure_aes_decrypt_blocks_to,"ax",@progbits
	export_aes_small	fotsgure_aes_decrypt_blocks_to
	.p2align	1
	.type	aes_small.fotsgure_aes_decrypt_blocks_to,@function
aes_small.fotsgure_aes_decrypt_blocks_to:         # @aes_small.fotsgure_aes_decrypt_blocks_to
# %bb.0:
	bne	a2, a4, .Laes_small_BB83_6
# %bb.1:                                # %join.3.i.i
	addi	sp, sp, -32
	sw	ra, 28(sp)                      # 4-byte Folded Spill
	sw	s0, 24(sp)                      # 4-byte Folded Spill
	sw	s1, 20(sp)                      # 4-byte Folded Spill
	sw	s2, 16(sp)                      # 4-byte Folded Spill
	sw	s3, 12(sp)                      # 4-byte Folded Spill
	sw	s4, 8(sp)                       # 4-byte Folded Spill
	sw	s5, 4(sp)                       # 4-byte Folded Spill
	mv	s3, a2
	mv	s2, a0
	lw	a2, 0(a0)
	addi	a2, a2, -16
	li	a4, 16
	li	a0, 2
	bltu	a4, a2, .Laes_small_BB83_11
# %bb.2:                                # %join.3.i.i
	lui	a4, 16
	addi	a4, a4, 257
	srl	a2, a4, a2
	andi	a2, a2, 1
	beqz	a2, .Laes_small_BB83_11
# %bb.3:                                # %join.6.i.i
	seqz	a0, a1
	seqz	a2, a3
	slli	a0, a0, 12
	slli	a2, a2, 12
	add	s5, a1, a0
	add	s4, a3, a2
	srli	a0, s3, 28
	sltu	a1, s4, s5
	neg	a1, a1
	slli	a2, s3, 4
	beq	a1, a0, .Laes_small_BB83_7
# %bb.4:                                # %join.6.i.i
	sltu	a0, a1, a0
	bnez	a0, .Laes_small_BB83_8
.Laes_small_BB83_5:                               # %apart.2.i.i.i.i.i.i.i.i
	mv	a0, s4
	mv	a1, s5
	call	memmove
	j	.Laes_small_BB83_10
.Laes_small_BB83_6:
	li	a0, 3
	li	a1, 0
	li	a2, 0
	li	a3, 0
	li	a4, 0
	li	a5, 0
	li	a6, 0
	li	a7, 0
	li	t0, 0
	li	t1, 0
	li	t2, 0
	li	t3, 0
	li	t4, 0
	li	t5, 0
	li	t6, 0
	ret
.Laes_small_BB83_7:
	sub	a0, s4, s5
	sltu	a0, a0, a2
	beqz	a0, .Laes_small_BB83_5
.Laes_small_BB83_8:                               # %join.7.i.i.i.i.i.i.i.i.preheader
	li	s1, 0
	li	s0, 0
.Laes_small_BB83_9:                               # %join.7.i.i.i.i.i.i.i.i
                                        # =>This Inner Loop Header: Depth=1
	slli	a1, s1, 4
	add	a0, s4, a1
	add	a1, a1, s5
	li	a2, 16
	call	memmove
	addi	s1, s1, 1
	seqz	a0, s1
	add	s0, s0, a0
	sltu	a0, s1, s3
	seqz	a1, s0
	and	a0, a0, a1
	bnez	a0, .Laes_small_BB83_9
.Laes_small_BB83_10:                              # %"core::slice::edits::slice+T::copy_from_slice::<#b9e87c6de6ee7501>.exit.i.i"
	lw	a1, 0(s2)
	addi	a0, s2, 4
	srli	a2, a1, 31
	slli	a3, a1, 1
	addi	a1, a3, 56
	sltu	a3, a1, a3
	add	a2, a2, a3
	mv	a3, s4
	mv	a4, s3
	li	a5, 0
	call	aes_small.aes_narrow.blocks.process_all_batches.2
	call	aes_small.aes_cipher.zeroize.stack.wipe_stack.1024
	li	a0, 0
.Laes_small_BB83_11:
	lw	ra, 28(sp)                      # 4-byte Folded Reload
	lw	s0, 24(sp)                      # 4-byte Folded Reload
	lw	s1, 20(sp)                      # 4-byte Folded Reload
	lw	s2, 16(sp)                      # 4-byte Folded Reload
	lw	s3, 12(sp)                      # 4-byte Folded Reload
	lw	s4, 8(sp)                       # 4-byte Folded Reload
	lw	s5, 4(sp)                       # 4-byte Folded Reload
	addi	sp, sp, 32
	li	a1, 0
	li	a2, 0
	li	a3, 0
	li	a4, 0
	li	a5, 0
	li	a6, 0
	li	a7, 0
	li	t0, 0
	li	t1, 0
	li	t2, 0
	li	t3, 0
	li	t4, 0
	li	t5, 0
	li	t6, 0
	ret
.Laes_small_func_end83:
	.size	aes_small.fotsgure_aes_decrypt_blocks_to, .Laes_small_func_end83-aes_small.fotsgure_aes_decrypt_blocks_to
                                        # -- End function
	.section	.text.aes_small.fotsgure_aes_add_keystream,"ax",@progbits
	export_aes_small	fotsgure_aes_add_keystream
	.p2align	1
	.type	aes_small.fotsgure_aes_add_keystream,@function
aes_small.fotsgure_aes_add_keystream:             # @aes_small.fotsgure_aes_add_keystream
# %bb.0:
	seqz	a4, a2
	slli	a4, a4, 12
	add	a2, a2, a4
	li	a4, 0
	tail	aes_small.aes_c.stream.fotsgure_aes_add_keystream
.Laes_small_func_end84:
	.size	aes_small.fotsgure_aes_add_keystream, .Laes_small_func_end84-aes_small.fotsgure_aes_add_keystream
                                        # -- End function
	.section	.text.aes_small.fotsgure_aes_add_keystream_to,"ax",@progbits
	export_aes_small	fotsgure_aes_add_keystream_to
	.p2align	1
	.type	aes_small.fotsgure_aes_add_keystream_to,@function
aes_small.fotsgure_aes_add_keystream_to:          # @aes_small.fotsgure_aes_add_keystream_to
# %bb.0:
	addi	sp, sp, -32
	sw	ra, 28(sp)                      # 4-byte Folded Spill
	sw	s0, 24(sp)                      # 4-byte Folded Spill
	sw	s1, 20(sp)                      # 4-byte Folded Spill
	sw	s2, 16(sp)                      # 4-byte Folded Spill
	sw	s3, 12(sp)                      # 4-byte Folded Spill
	sw	s4, 8(sp)                       # 4-byte Folded Spill
	bne	a3, a5, .Laes_small_BB85_3
# %bb.1:                                # %join.3.i.i
	lw	a5, 16(a1)
	lw	s1, 20(a1)
	not	a5, a5
	addi	s1, s1, 1
	sltu	a5, a5, a3
	seqz	s1, s1
	and	a5, a5, s1
	beqz	a5, .Laes_small_BB85_5
# %bb.2:
	li	a5, 4
	j	.Laes_small_BB85_4
.Laes_small_BB85_3:
	li	a5, 3
.Laes_small_BB85_4:                               # %wide_fotsgure_aes_add_keystream_to.exit
	mv	a0, a5
	lw	ra, 28(sp)                      # 4-byte Folded Reload
	lw	s0, 24(sp)                      # 4-byte Folded Reload
	lw	s1, 20(sp)                      # 4-byte Folded Reload
	lw	s2, 16(sp)                      # 4-byte Folded Reload
	lw	s3, 12(sp)                      # 4-byte Folded Reload
	lw	s4, 8(sp)                       # 4-byte Folded Reload
	addi	sp, sp, 32
	li	a1, 0
	li	a2, 0
	li	a3, 0
	li	a4, 0
	li	a5, 0
	li	a6, 0
	li	a7, 0
	li	t0, 0
	li	t1, 0
	li	t2, 0
	li	t3, 0
	li	t4, 0
	li	t5, 0
	li	t6, 0
	ret
.Laes_small_BB85_5:                               # %join.3.i.i.i
	lw	s0, 0(a0)
	addi	s0, s0, -16
	li	s1, 16
	li	a5, 2
	bltu	s1, s0, .Laes_small_BB85_4
# %bb.6:                                # %join.3.i.i.i
	lui	s1, 16
	addi	s1, s1, 257
	srl	s1, s1, s0
	andi	s1, s1, 1
	beqz	s1, .Laes_small_BB85_4
# %bb.7:                                # %join.6.i.i
	seqz	a5, a2
	slli	a5, a5, 12
	add	a6, a2, a5
	seqz	a5, a4
	slli	a5, a5, 12
	add	s4, a4, a5
	bgeu	s4, a6, .Laes_small_BB85_10
# %bb.8:                                # %join.6.i.i
	li	a4, 1
	beqz	a4, .Laes_small_BB85_11
.Laes_small_BB85_9:                               # %apart.2.i.i.i.i.i.i.i.i
	mv	s2, a0
	mv	a0, s4
	mv	s3, a1
	mv	a1, a6
	mv	a2, a3
	mv	s0, a3
	call	memmove
	mv	a0, s2
	mv	a1, s3
	mv	a3, s0
	j	.Laes_small_BB85_13
.Laes_small_BB85_10:
	sub	a4, s4, a6
	sltu	a4, a4, a3
	xori	a4, a4, 1
	bnez	a4, .Laes_small_BB85_9
.Laes_small_BB85_11:                              # %join.7.i.i.i.i.i.i.i.i.preheader
	li	s1, 0
.Laes_small_BB85_12:                              # %join.7.i.i.i.i.i.i.i.i
                                        # =>This Inner Loop Header: Depth=1
	add	a7, s4, a4
	add	a2, a6, a4
	addi	a4, a4, 1
	lbu	a2, 0(a2)
	seqz	a5, a4
	add	s1, s1, a5
	sltu	a5, a4, a3
	seqz	s0, s1
	and	a5, a5, s0
	sb	a2, 0(a7)
	bnez	a5, .Laes_small_BB85_12
.Laes_small_BB85_13:                              # %"core::slice::edits::slice+T::copy_from_slice::<i8,20'core::clone::U8Clone{}>.exit.i.i"
	mv	a2, s4
	li	a4, 0
	lw	ra, 28(sp)                      # 4-byte Folded Reload
	lw	s0, 24(sp)                      # 4-byte Folded Reload
	lw	s1, 20(sp)                      # 4-byte Folded Reload
	lw	s2, 16(sp)                      # 4-byte Folded Reload
	lw	s3, 12(sp)                      # 4-byte Folded Reload
	lw	s4, 8(sp)                       # 4-byte Folded Reload
	addi	sp, sp, 32
	tail	aes_small.aes_c.stream.fotsgure_aes_add_keystream
.Laes_small_func_end85:
	.size	aes_small.fotsgure_aes_add_keystream_to, .Laes_small_func_end85-aes_small.fotsgure_aes_add_keystream_to
                                        # -- End function
	.section	.text.aes_small.fotsgure_aes_cbc_encrypt,"ax",@progbits
	export_aes_small	fotsgure_aes_cbc_encrypt
	.p2align	1
	.type	aes_small.fotsgure_aes_cbc_encrypt,@function
aes_small.fotsgure_aes_cbc_encrypt:               # @aes_small.fotsgure_aes_cbc_encrypt
# %bb.0:
	addi	sp, sp, -80
	sw	ra, 76(sp)                      # 4-byte Folded Spill
	sw	s0, 72(sp)                      # 4-byte Folded Spill
	sw	s1, 68(sp)                      # 4-byte Folded Spill
	sw	s2, 64(sp)                      # 4-byte Folded Spill
	sw	s3, 60(sp)                      # 4-byte Folded Spill
	sw	s4, 56(sp)                      # 4-byte Folded Spill
	sw	s5, 52(sp)                      # 4-byte Folded Spill
	sw	s6, 48(sp)                      # 4-byte Folded Spill
	sw	s7, 44(sp)                      # 4-byte Folded Spill
	sw	s8, 40(sp)                      # 4-byte Folded Spill
	sw	s9, 36(sp)                      # 4-byte Folded Spill
	sw	s10, 32(sp)                     # 4-byte Folded Spill
	sw	s11, 28(sp)                     # 4-byte Folded Spill
	mv	s3, a3
	lw	a3, 0(a0)
	li	a4, 32
	beq	a3, a4, .Laes_small_BB86_3
# %bb.1:
	andi	a5, a3, -9
	li	a4, 16
	beq	a5, a4, .Laes_small_BB86_3
# %bb.2:
	li	a0, 2
	j	.Laes_small_BB86_7
.Laes_small_BB86_3:                               # %join.3.i.i
	lbu	t0, 12(a1)
	lbu	a4, 13(a1)
	lbu	a5, 14(a1)
	lbu	s1, 15(a1)
	lbu	a6, 8(a1)
	lbu	a7, 9(a1)
	lbu	t2, 10(a1)
	lbu	t3, 11(a1)
	slli	a4, a4, 8
	slli	a5, a5, 16
	slli	s1, s1, 24
	or	t0, a4, t0
	or	t1, s1, a5
	lbu	s1, 4(a1)
	lbu	a4, 5(a1)
	lbu	a5, 6(a1)
	lbu	s0, 7(a1)
	slli	a7, a7, 8
	slli	t2, t2, 16
	slli	t3, t3, 24
	slli	a4, a4, 8
	slli	a5, a5, 16
	slli	s0, s0, 24
	or	a6, a7, a6
	or	a7, t3, t2
	or	t2, a4, s1
	or	t3, s0, a5
	lbu	s1, 1(a1)
	lbu	s0, 0(a1)
	lbu	a5, 2(a1)
	sw	a1, 8(sp)                       # 4-byte Folded Spill
	lbu	a4, 3(a1)
	slli	s1, s1, 8
	or	s0, s0, s1
	slli	a1, a5, 16
	slli	a4, a4, 24
	or	a1, a1, a4
	or	a4, t1, t0
	or	s1, a7, a6
	or	a5, t3, t2
	or	a1, a1, s0
	sw	a1, 12(sp)
	sw	a5, 16(sp)
	sw	s1, 20(sp)
	sw	a4, 24(sp)
	beqz	s3, .Laes_small_BB86_6
# %bb.4:                                # %join.5.lr.ph.i.i.i
	li	s2, 0
	li	s8, 0
	seqz	s5, a2
	srli	s4, a3, 31
	slli	s0, a3, 1
	lbu	a6, 12(sp)
	lbu	a7, 13(sp)
	lbu	t0, 14(sp)
	lbu	t1, 15(sp)
	lbu	t2, 16(sp)
	lbu	t3, 17(sp)
	lbu	t4, 18(sp)
	lbu	t5, 19(sp)
	lbu	t6, 20(sp)
	lbu	s9, 21(sp)
	lbu	s10, 22(sp)
	lbu	s11, 23(sp)
	lbu	ra, 24(sp)
	lbu	a3, 25(sp)
	lbu	a4, 26(sp)
	lbu	a5, 27(sp)
	slli	s5, s5, 12
	add	s7, a2, s5
	addi	s6, s0, 56
	sltu	a2, s6, s0
	add	s4, s4, a2
	addi	s5, a0, 4
.Laes_small_BB86_5:                               # %join.5.i.i.i
                                        # =>This Inner Loop Header: Depth=1
	slli	s0, s2, 4
	add	s0, s0, s7
	lbu	a0, 15(s0)
	lbu	a2, 14(s0)
	lbu	s1, 13(s0)
	lbu	a1, 12(s0)
	xor	a0, a0, a5
	xor	a2, a2, a4
	xor	a3, a3, s1
	xor	ra, a1, ra
	lbu	a4, 11(s0)
	lbu	a5, 10(s0)
	lbu	s1, 9(s0)
	lbu	a1, 8(s0)
	xor	s11, a4, s11
	xor	s10, a5, s10
	xor	s9, s1, s9
	xor	t6, a1, t6
	lbu	a4, 7(s0)
	lbu	a5, 6(s0)
	lbu	s1, 5(s0)
	lbu	a1, 4(s0)
	xor	t5, a4, t5
	xor	t4, a5, t4
	xor	t3, s1, t3
	xor	t2, a1, t2
	lbu	a4, 3(s0)
	lbu	a5, 2(s0)
	lbu	s1, 1(s0)
	lbu	a1, 0(s0)
	xor	a4, a4, t1
	xor	a5, a5, t0
	xor	s1, s1, a7
	xor	a1, a1, a6
	sb	a1, 12(sp)
	sb	s1, 13(sp)
	sb	a5, 14(sp)
	sb	a4, 15(sp)
	sb	t2, 16(sp)
	sb	t3, 17(sp)
	sb	t4, 18(sp)
	sb	t5, 19(sp)
	sb	t6, 20(sp)
	sb	s9, 21(sp)
	sb	s10, 22(sp)
	sb	s11, 23(sp)
	sb	ra, 24(sp)
	sb	a3, 25(sp)
	sb	a2, 26(sp)
	sb	a0, 27(sp)
	addi	a3, sp, 12
	li	a4, 1
	mv	a0, s5
	mv	a1, s6
	mv	a2, s4
	li	a5, 0
	call	aes_small.aes_narrow.blocks.process_all_batches.1
	call	aes_small.aes_cipher.zeroize.stack.wipe_stack.1024
	lbu	a6, 12(sp)
	lbu	a7, 13(sp)
	lbu	t0, 14(sp)
	lbu	t1, 15(sp)
	lbu	t2, 16(sp)
	lbu	t3, 17(sp)
	lbu	t4, 18(sp)
	lbu	t5, 19(sp)
	lbu	t6, 20(sp)
	lbu	s9, 21(sp)
	lbu	s10, 22(sp)
	lbu	s11, 23(sp)
	addi	s2, s2, 1
	seqz	a0, s2
	sltu	a1, s2, s3
	add	s8, s8, a0
	seqz	a0, s8
	and	a0, a0, a1
	lbu	ra, 24(sp)
	lbu	a3, 25(sp)
	lbu	a4, 26(sp)
	lbu	a5, 27(sp)
	sb	a6, 0(s0)
	sb	a7, 1(s0)
	sb	t0, 2(s0)
	sb	t1, 3(s0)
	sb	t2, 4(s0)
	sb	t3, 5(s0)
	sb	t4, 6(s0)
	sb	t5, 7(s0)
	sb	t6, 8(s0)
	sb	s9, 9(s0)
	sb	s10, 10(s0)
	sb	s11, 11(s0)
	sb	ra, 12(s0)
	sb	a3, 13(s0)
	sb	a4, 14(s0)
	sb	a5, 15(s0)
	bnez	a0, .Laes_small_BB86_5
.Laes_small_BB86_6:                               # %"cbc::chain::Cbc::encrypt_blocks::<#4f733d09d7f6c6b4>.exit.i.i"
	addi	a1, sp, 12
	li	a2, 16
	lw	a0, 8(sp)                       # 4-byte Folded Reload
	call	memcpy
	li	a0, 0
.Laes_small_BB86_7:                               # %wide_fotsgure_aes_cbc_encrypt.exit
	lw	ra, 76(sp)                      # 4-byte Folded Reload
	lw	s0, 72(sp)                      # 4-byte Folded Reload
	lw	s1, 68(sp)                      # 4-byte Folded Reload
	lw	s2, 64(sp)                      # 4-byte Folded Reload
	lw	s3, 60(sp)                      # 4-byte Folded Reload
	lw	s4, 56(sp)                      # 4-byte Folded Reload
	lw	s5, 52(sp)                      # 4-byte Folded Reload
	lw	s6, 48(sp)                      # 4-byte Folded Reload
	lw	s7, 44(sp)                      # 4-byte Folded Reload
	lw	s8, 40(sp)                      # 4-byte Folded Reload
	lw	s9, 36(sp)                      # 4-byte Folded Reload
	lw	s10, 32(sp)                     # 4-byte Folded Reload
	lw	s11, 28(sp)                     # 4-byte Folded Reload
	addi	sp, sp, 80
	li	a1, 0
	li	a2, 0
	li	a3, 0
	li	a4, 0
	li	a5, 0
	li	a6, 0
	li	a7, 0
	li	t0, 0
	li	t1, 0
	li	t2, 0
	li	t3, 0
	li	t4, 0
	li	t5, 0
	li	t6, 0
	ret
.Laes_small_func_end86:
	.size	aes_small.fotsgure_aes_cbc_encrypt, .Laes_small_func_end86-aes_small.fotsgure_aes_cbc_encrypt
                                        # -- End function
	.section	.text.aes_small.fotsgure_aes_cbc_decrypt,"ax",@progbits
	export_aes_small	fotsgure_aes_cbc_decrypt
	.p2align	1
	.type	aes_small.fotsgure_aes_cbc_decrypt,@function
aes_small.fotsgure_aes_cbc_decrypt:               # @aes_small.fotsgure_aes_cbc_decrypt
# %bb.0:
	addi	sp, sp, -48
	sw	ra, 44(sp)                      # 4-byte Folded Spill
	sw	s0, 40(sp)                      # 4-byte Folded Spill
	sw	s1, 36(sp)                      # 4-byte Folded Spill
	sw	s2, 32(sp)                      # 4-byte Folded Spill
	lw	a4, 0(a0)
	li	a5, 32
	beq	a4, a5, .Laes_small_BB87_3
# %bb.1:
	andi	a5, a4, -9
	li	s0, 16
	beq	a5, s0, .Laes_small_BB87_3
# %bb.2:
	li	a0, 2
	j	.Laes_small_BB87_4
.Laes_small_BB87_3:                               # %join.3.i.i
	seqz	a6, a2
	srli	a7, a4, 31
	slli	a4, a4, 1
	lbu	t0, 12(a1)
	lbu	t1, 13(a1)
	lbu	t6, 14(a1)
	lbu	s0, 15(a1)
	lbu	t2, 8(a1)
	lbu	t3, 9(a1)
	lbu	t4, 10(a1)
	lbu	t5, 11(a1)
	slli	a5, a6, 12
	addi	a6, a4, 56
	add	s2, a2, a5
	sltu	a2, a6, a4
	add	a2, a2, a7
	slli	t1, t1, 8
	slli	t6, t6, 16
	slli	s0, s0, 24
	or	a7, t1, t0
	or	t0, s0, t6
	lbu	a5, 4(a1)
	lbu	s1, 5(a1)
	lbu	a4, 6(a1)
	lbu	s0, 7(a1)
	slli	t3, t3, 8
	slli	t4, t4, 16
	slli	t5, t5, 24
	slli	s1, s1, 8
	slli	a4, a4, 16
	slli	s0, s0, 24
	or	t1, t3, t2
	or	t2, t5, t4
	or	t3, s1, a5
	or	t4, s0, a4
	lbu	s1, 1(a1)
	lbu	s0, 0(a1)
	lbu	a5, 2(a1)
	lbu	a4, 3(a1)
	slli	s1, s1, 8
	or	s0, s0, s1
	slli	a5, a5, 16
	slli	a4, a4, 24
	or	a4, a4, a5
	or	a7, t0, a7
	or	s1, t2, t1
	or	a5, t4, t3
	or	a4, a4, s0
	addi	a0, a0, 4
	sw	a4, 0(sp)
	sw	a5, 4(sp)
	sw	s1, 8(sp)
	sw	a7, 12(sp)
	sw	s2, 16(sp)
	sw	zero, 20(sp)
	sw	a3, 24(sp)
	sw	zero, 28(sp)
	mv	a3, sp
	mv	s0, a1
	mv	a1, a6
	call	aes_small.aes_narrow.borrowed_words.call_to_decrypt
	call	aes_small.aes_cipher.zeroize.stack.wipe_stack.2032
	mv	a1, sp
	li	a2, 16
	mv	a0, s0
	call	memcpy
	li	a0, 0
.Laes_small_BB87_4:                               # %wide_fotsgure_aes_cbc_decrypt.exit
	lw	ra, 44(sp)                      # 4-byte Folded Reload
	lw	s0, 40(sp)                      # 4-byte Folded Reload
	lw	s1, 36(sp)                      # 4-byte Folded Reload
	lw	s2, 32(sp)                      # 4-byte Folded Reload
	addi	sp, sp, 48
	li	a1, 0
	li	a2, 0
	li	a3, 0
	li	a4, 0
	li	a5, 0
	li	a6, 0
	li	a7, 0
	li	t0, 0
	li	t1, 0
	li	t2, 0
	li	t3, 0
	li	t4, 0
	li	t5, 0
	li	t6, 0
	ret
.Laes_small_func_end87:
	.size	aes_small.fotsgure_aes_cbc_decrypt, .Laes_small_func_end87-aes_small.fotsgure_aes_cbc_decrypt
                                        # -- End function
	.section	.text.aes_small.fotsgure_aes_wrap,"ax",@progbits
	export_aes_small	fotsgure_aes_wrap
	.p2align	1
	.type	aes_small.fotsgure_aes_wrap,@function
aes_small.fotsgure_aes_wrap:                      # @aes_small.fotsgure_aes_wrap
# %bb.0:
	mv	a6, a4
	lw	a5, 0(a0)
	li	a4, 32
	beq	a5, a4, .Laes_small_BB88_3
# %bb.1:
	andi	a7, a5, -9
	li	a4, 16
	beq	a7, a4, .Laes_small_BB88_3
# %bb.2:
	li	a0, 2
	li	a1, 0
	li	a2, 0
	li	a3, 0
	li	a4, 0
	li	a5, 0
	li	a6, 0
	li	a7, 0
	li	t0, 0
	li	t1, 0
	li	t2, 0
	li	t3, 0
	li	t4, 0
	li	t5, 0
	li	t6, 0
	ret
.Laes_small_BB88_3:                               # %join.3.i.i
	addi	sp, sp, -32
	sw	ra, 28(sp)                      # 4-byte Folded Spill
	sw	s0, 24(sp)                      # 4-byte Folded Spill
	seqz	a4, a3
	seqz	a7, a1
	addi	t0, a0, 4
	slli	a4, a4, 12
	add	a4, a4, a3
	srli	a3, a5, 31
	slli	a5, a5, 1
	slli	a7, a7, 12
	add	a1, a1, a7
	addi	a0, a5, 56
	sltu	a5, a0, a5
	add	a3, a3, a5
	sw	t0, 8(sp)
	sw	zero, 12(sp)
	sw	a0, 16(sp)
	sw	a3, 20(sp)
	addi	a0, sp, 8
	li	a3, 0
	mv	a5, a6
	li	a6, 0
	call	aes_small.key_wrap.wrapping.wrap
	zext.b	s0, a0
	call	aes_small.aes_cipher.zeroize.stack.wipe_stack.512
	neg	a0, s0
	andi	a0, a0, 5
	lw	ra, 28(sp)                      # 4-byte Folded Reload
	lw	s0, 24(sp)                      # 4-byte Folded Reload
	addi	sp, sp, 32
	li	a1, 0
	li	a2, 0
	li	a3, 0
	li	a4, 0
	li	a5, 0
	li	a6, 0
	li	a7, 0
	li	t0, 0
	li	t1, 0
	li	t2, 0
	li	t3, 0
	li	t4, 0
	li	t5, 0
	li	t6, 0
	ret
.Laes_small_func_end88:
	.size	aes_small.fotsgure_aes_wrap, .Laes_small_func_end88-aes_small.fotsgure_aes_wrap
                                        # -- End function
	.section	.text.aes_small.fotsgure_aes_unwrap,"ax",@progbits
	export_aes_small	fotsgure_aes_unwrap
	.p2align	1
	.type	aes_small.fotsgure_aes_unwrap,@function
aes_small.fotsgure_aes_unwrap:                    # @aes_small.fotsgure_aes_unwrap
# %bb.0:
	mv	a6, a4
	lw	a5, 0(a0)
	li	a4, 32
	beq	a5, a4, .Laes_small_BB89_3
# %bb.1:
	andi	a7, a5, -9
	li	a4, 16
	beq	a7, a4, .Laes_small_BB89_3
# %bb.2:
	li	a0, 2
	li	a1, 0
	li	a2, 0
	li	a3, 0
	li	a4, 0
	li	a5, 0
	li	a6, 0
	li	a7, 0
	li	t0, 0
	li	t1, 0
	li	t2, 0
	li	t3, 0
	li	t4, 0
	li	t5, 0
	li	t6, 0
	ret
.Laes_small_BB89_3:                               # %join.3.i.i
	addi	sp, sp, -32
	sw	ra, 28(sp)                      # 4-byte Folded Spill
	sw	s0, 24(sp)                      # 4-byte Folded Spill
	sw	s1, 20(sp)                      # 4-byte Folded Spill
	seqz	a4, a3
	seqz	a7, a1
	addi	t0, a0, 4
	slli	a4, a4, 12
	add	a4, a4, a3
	srli	a3, a5, 31
	slli	a5, a5, 1
	slli	a7, a7, 12
	add	a1, a1, a7
	addi	a0, a5, 56
	sltu	a5, a0, a5
	add	a3, a3, a5
	sw	t0, 0(sp)
	sw	zero, 4(sp)
	sw	a0, 8(sp)
	sw	a3, 12(sp)
	mv	a0, sp
	li	a3, 0
	mv	a5, a6
	li	a6, 0
	call	aes_small.key_wrap.wrapping.unwrap
	zext.b	s0, a1
	zext.b	s1, a0
	call	aes_small.aes_cipher.zeroize.stack.wipe_stack.512
	seqz	a0, s1
	snez	a1, s0
	addi	a1, a1, 5
	addi	a0, a0, -1
	and	a0, a0, a1
	lw	ra, 28(sp)                      # 4-byte Folded Reload
	lw	s0, 24(sp)                      # 4-byte Folded Reload
	lw	s1, 20(sp)                      # 4-byte Folded Reload
	addi	sp, sp, 32
	li	a1, 0
	li	a2, 0
	li	a3, 0
	li	a4, 0
	li	a5, 0
	li	a6, 0
	li	a7, 0
	li	t0, 0
	li	t1, 0
	li	t2, 0
	li	t3, 0
	li	t4, 0
	li	t5, 0
	li	t6, 0
	ret
.Laes_small_func_end89:
	.size	aes_small.fotsgure_aes_unwrap, .Laes_small_func_end89-aes_small.fotsgure_aes_unwrap
                                        # -- End function
	.section	.text.aes_small.fotsgure_aes_wrap_padded,"ax",@progbits
	export_aes_small	fotsgure_aes_wrap_padded
	.p2align	1
	.type	aes_small.fotsgure_aes_wrap_padded,@function
aes_small.fotsgure_aes_wrap_padded:               # @aes_small.fotsgure_aes_wrap_padded
# %bb.0:
	mv	a6, a4
	lw	a5, 0(a0)
	li	a4, 32
	beq	a5, a4, .Laes_small_BB90_3
# %bb.1:
	andi	a7, a5, -9
	li	a4, 16
	beq	a7, a4, .Laes_small_BB90_3
# %bb.2:
	li	a0, 2
	li	a1, 0
	li	a2, 0
	li	a3, 0
	li	a4, 0
	li	a5, 0
	li	a6, 0
	li	a7, 0
	li	t0, 0
	li	t1, 0
	li	t2, 0
	li	t3, 0
	li	t4, 0
	li	t5, 0
	li	t6, 0
	ret
.Laes_small_BB90_3:                               # %join.3.i.i
	addi	sp, sp, -32
	sw	ra, 28(sp)                      # 4-byte Folded Spill
	sw	s0, 24(sp)                      # 4-byte Folded Spill
	seqz	a4, a3
	seqz	a7, a1
	addi	t0, a0, 4
	slli	a4, a4, 12
	add	a4, a4, a3
	srli	a3, a5, 31
	slli	a5, a5, 1
	slli	a7, a7, 12
	add	a1, a1, a7
	addi	a0, a5, 56
	sltu	a5, a0, a5
	add	a3, a3, a5
	sw	t0, 8(sp)
	sw	zero, 12(sp)
	sw	a0, 16(sp)
	sw	a3, 20(sp)
	addi	a0, sp, 8
	li	a3, 0
	mv	a5, a6
	li	a6, 0
	call	aes_small.key_wrap.padded.wrap_padded
	zext.b	s0, a0
	call	aes_small.aes_cipher.zeroize.stack.wipe_stack.512
	neg	a0, s0
	andi	a0, a0, 5
	lw	ra, 28(sp)                      # 4-byte Folded Reload
	lw	s0, 24(sp)                      # 4-byte Folded Reload
	addi	sp, sp, 32
	li	a1, 0
	li	a2, 0
	li	a3, 0
	li	a4, 0
	li	a5, 0
	li	a6, 0
	li	a7, 0
	li	t0, 0
	li	t1, 0
	li	t2, 0
	li	t3, 0
	li	t4, 0
	li	t5, 0
	li	t6, 0
	ret
.Laes_small_func_end90:
	.size	aes_small.fotsgure_aes_wrap_padded, .Laes_small_func_end90-aes_small.fotsgure_aes_wrap_padded
                                        # -- End function
	.section	.text.aes_small.fotsgure_aes_unwrap_padded,"ax",@progbits
	export_aes_small	fotsgure_aes_unwrap_padded
	.p2align	1
	.type	aes_small.fotsgure_aes_unwrap_padded,@function
aes_small.fotsgure_aes_unwrap_padded:             # @aes_small.fotsgure_aes_unwrap_padded
# %bb.0:
	addi	sp, sp, -48
	sw	ra, 44(sp)                      # 4-byte Folded Spill
	sw	s0, 40(sp)                      # 4-byte Folded Spill
	sw	s1, 36(sp)                      # 4-byte Folded Spill
	sw	s2, 32(sp)                      # 4-byte Folded Spill
	mv	s2, a5
	mv	a6, a4
	mv	a4, a2
	lw	a2, 0(a0)
	li	a5, 32
	sw	zero, 24(sp)
	sw	zero, 28(sp)
	beq	a2, a5, .Laes_small_BB91_3
# %bb.1:
	andi	a5, a2, -9
	li	s0, 16
	beq	a5, s0, .Laes_small_BB91_3
# %bb.2:
	li	a1, 0
	li	a0, 2
	j	.Laes_small_BB91_6
.Laes_small_BB91_3:                               # %join.3.i.i
	seqz	a5, a3
	seqz	s0, a1
	addi	a0, a0, 4
	slli	a5, a5, 12
	add	a5, a5, a3
	srli	a3, a2, 31
	slli	s1, a2, 1
	slli	a2, s0, 12
	add	a2, a2, a1
	addi	a1, s1, 56
	sltu	s1, a1, s1
	add	a3, a3, s1
	sw	a0, 8(sp)
	sw	zero, 12(sp)
	sw	a1, 16(sp)
	sw	a3, 20(sp)
	addi	a0, sp, 24
	addi	a1, sp, 8
	mv	a3, a4
	li	a4, 0
	li	a7, 0
	call	aes_small.key_wrap.padded.unwrap_padded
	call	aes_small.aes_cipher.zeroize.stack.wipe_stack.512
	lbu	a0, 24(sp)
	beqz	a0, .Laes_small_BB91_5
# %bb.4:                                # %arm.5.i.i
	li	a1, 0
	lbu	a0, 25(sp)
	snez	a0, a0
	addi	a0, a0, 5
	j	.Laes_small_BB91_6
.Laes_small_BB91_5:                               # %arm.4.i.i
	lw	a1, 28(sp)
.Laes_small_BB91_6:                               # %wide_fotsgure_aes_unwrap_padded.exit
	sw	a1, 0(s2)
	lw	ra, 44(sp)                      # 4-byte Folded Reload
	lw	s0, 40(sp)                      # 4-byte Folded Reload
	lw	s1, 36(sp)                      # 4-byte Folded Reload
	lw	s2, 32(sp)                      # 4-byte Folded Reload
	addi	sp, sp, 48
	li	a1, 0
	li	a2, 0
	li	a3, 0
	li	a4, 0
	li	a5, 0
	li	a6, 0
	li	a7, 0
	li	t0, 0
	li	t1, 0
	li	t2, 0
	li	t3, 0
	li	t4, 0
	li	t5, 0
	li	t6, 0
	ret
.Laes_small_func_end91:
	.size	aes_small.fotsgure_aes_unwrap_padded, .Laes_small_func_end91-aes_small.fotsgure_aes_unwrap_padded
                                        # -- End function
	.section	.text.aes_small.fotsgure_aes_cmac,"ax",@progbits
	export_aes_small	fotsgure_aes_cmac
	.p2align	1
	.type	aes_small.fotsgure_aes_cmac,@function
aes_small.fotsgure_aes_cmac:                      # @aes_small.fotsgure_aes_cmac
# %bb.0:
	addi	sp, sp, -48
	sw	ra, 44(sp)                      # 4-byte Folded Spill
	sw	s0, 40(sp)                      # 4-byte Folded Spill
	sw	s1, 36(sp)                      # 4-byte Folded Spill
	mv	s1, a3
	mv	a3, a2
	lw	a2, 0(a0)
	li	a4, 32
	sw	zero, 20(sp)
	sw	zero, 24(sp)
	sw	zero, 28(sp)
	sw	zero, 32(sp)
	beq	a2, a4, .Laes_small_BB92_3
# %bb.1:
	andi	a4, a2, -9
	li	a5, 16
	beq	a4, a5, .Laes_small_BB92_3
# %bb.2:
	li	a0, 2
	j	.Laes_small_BB92_4
.Laes_small_BB92_3:                               # %join.3.i.i
	seqz	a4, a1
	addi	a0, a0, 4
	srli	a5, a2, 31
	slli	s0, a2, 1
	slli	a2, a4, 12
	add	a2, a2, a1
	addi	a1, s0, 56
	sltu	a4, a1, s0
	add	a4, a4, a5
	sw	a0, 0(sp)
	sw	zero, 4(sp)
	sw	a1, 8(sp)
	sw	a4, 12(sp)
	addi	a0, sp, 20
	mv	a1, sp
	li	a4, 0
	call	aes_small.cmac.tags.tag
	addi	a1, sp, 20
	li	a2, 16
	mv	a0, s1
	call	memcpy
	call	aes_small.aes_cipher.zeroize.stack.wipe_stack.768
	li	a0, 0
.Laes_small_BB92_4:                               # %wide_fotsgure_aes_cmac.exit
	lw	ra, 44(sp)                      # 4-byte Folded Reload
	lw	s0, 40(sp)                      # 4-byte Folded Reload
	lw	s1, 36(sp)                      # 4-byte Folded Reload
	addi	sp, sp, 48
	li	a1, 0
	li	a2, 0
	li	a3, 0
	li	a4, 0
	li	a5, 0
	li	a6, 0
	li	a7, 0
	li	t0, 0
	li	t1, 0
	li	t2, 0
	li	t3, 0
	li	t4, 0
	li	t5, 0
	li	t6, 0
	ret
.Laes_small_func_end92:
	.size	aes_small.fotsgure_aes_cmac, .Laes_small_func_end92-aes_small.fotsgure_aes_cmac
                                        # -- End function
	.section	.text.aes_small.fotsgure_aes_cmac_verify,"ax",@progbits
	export_aes_small	fotsgure_aes_cmac_verify
	.p2align	1
	.type	aes_small.fotsgure_aes_cmac_verify,@function
aes_small.fotsgure_aes_cmac_verify:               # @aes_small.fotsgure_aes_cmac_verify
# %bb.0:
	addi	sp, sp, -32
	sw	ra, 28(sp)                      # 4-byte Folded Spill
	sw	s0, 24(sp)                      # 4-byte Folded Spill
	mv	a6, a4
	lw	a4, 0(a0)
	li	s0, 32
	beq	a4, s0, .Laes_small_BB93_3
# %bb.1:
	andi	s0, a4, -9
	li	a5, 16
	beq	s0, a5, .Laes_small_BB93_3
# %bb.2:
	li	a0, 2
	j	.Laes_small_BB93_6
.Laes_small_BB93_3:                               # %join.3.i.i
	addi	a5, a6, -4
	li	s0, 12
	bltu	s0, a5, .Laes_small_BB93_5
# %bb.4:                                # %join.6.i.i
	seqz	a5, a1
	seqz	s0, a3
	addi	a7, a0, 4
	slli	a5, a5, 12
	add	a1, a1, a5
	srli	a5, a4, 31
	slli	a0, a4, 1
	slli	a4, s0, 12
	add	a4, a4, a3
	addi	a3, a0, 56
	sltu	a0, a3, a0
	add	a0, a0, a5
	sw	a7, 8(sp)
	sw	zero, 12(sp)
	sw	a3, 16(sp)
	sw	a0, 20(sp)
	addi	a0, sp, 8
	li	a3, 0
	mv	a5, a6
	li	a6, 0
	call	aes_small.cmac.tags.is_tag_start
	mv	s0, a0
	call	aes_small.aes_cipher.zeroize.stack.wipe_stack.768
	addi	a0, s0, -1
	andi	a0, a0, 6
	j	.Laes_small_BB93_6
.Laes_small_BB93_5:
	li	a0, 7
.Laes_small_BB93_6:                               # %wide_fotsgure_aes_cmac_verify.exit
	lw	ra, 28(sp)                      # 4-byte Folded Reload
	lw	s0, 24(sp)                      # 4-byte Folded Reload
	addi	sp, sp, 32
	li	a1, 0
	li	a2, 0
	li	a3, 0
	li	a4, 0
	li	a5, 0
	li	a6, 0
	li	a7, 0
	li	t0, 0
	li	t1, 0
	li	t2, 0
	li	t3, 0
	li	t4, 0
	li	t5, 0
	li	t6, 0
	ret
.Laes_small_func_end93:
	.size	aes_small.fotsgure_aes_cmac_verify, .Laes_small_func_end93-aes_small.fotsgure_aes_cmac_verify
                                        # -- End function
	.section	.text.aes_small.fotsgure_aes_cmac_begin,"ax",@progbits
	export_aes_small	fotsgure_aes_cmac_begin
	.p2align	1
	.type	aes_small.fotsgure_aes_cmac_begin,@function
aes_small.fotsgure_aes_cmac_begin:                # @aes_small.fotsgure_aes_cmac_begin
# %bb.0:
	addi	sp, sp, -16
	sw	ra, 12(sp)                      # 4-byte Folded Spill
	sw	s0, 8(sp)                       # 4-byte Folded Spill
	mv	s0, a1
	lw	a1, 0(a0)
	addi	a1, a1, -16
	li	a2, 16
	li	a0, 2
	bltu	a2, a1, .Laes_small_BB94_3
# %bb.1:
	lui	a2, 16
	addi	a2, a2, 257
	srl	a1, a2, a1
	andi	a1, a1, 1
	beqz	a1, .Laes_small_BB94_3
# %bb.2:                                # %join.3.i.i
	addi	a0, s0, 8
	li	a2, 40
	li	a1, 0
	call	memset
	li	a0, 0
	li	a1, 1
	sw	a1, 0(s0)
	sw	zero, 4(s0)
.Laes_small_BB94_3:                               # %wide_fotsgure_aes_cmac_begin.exit
	lw	ra, 12(sp)                      # 4-byte Folded Reload
	lw	s0, 8(sp)                       # 4-byte Folded Reload
	addi	sp, sp, 16
	li	a1, 0
	li	a2, 0
	li	a3, 0
	li	a4, 0
	li	a5, 0
	li	a6, 0
	li	a7, 0
	li	t0, 0
	li	t1, 0
	li	t2, 0
	li	t3, 0
	li	t4, 0
	li	t5, 0
	li	t6, 0
	ret
.Laes_small_func_end94:
	.size	aes_small.fotsgure_aes_cmac_begin, .Laes_small_func_end94-aes_small.fotsgure_aes_cmac_begin
                                        # -- End function
	.section	.text.aes_small.fotsgure_aes_cmac_update,"ax",@progbits
	export_aes_small	fotsgure_aes_cmac_update
	.p2align	1
	.type	aes_small.fotsgure_aes_cmac_update,@function
aes_small.fotsgure_aes_cmac_update:               # @aes_small.fotsgure_aes_cmac_update
# %bb.0:
	addi	sp, sp, -32
	sw	ra, 28(sp)                      # 4-byte Folded Spill
	sw	s0, 24(sp)                      # 4-byte Folded Spill
	lw	a4, 0(a0)
	li	a5, 32
	beq	a4, a5, .Laes_small_BB95_3
# %bb.1:
	andi	a5, a4, -9
	li	s0, 16
	beq	a5, s0, .Laes_small_BB95_3
# %bb.2:
	li	s0, 2
	j	.Laes_small_BB95_7
.Laes_small_BB95_3:                               # %join.3.i.i
	srli	a6, a4, 31
	slli	a4, a4, 1
	lw	s0, 0(a1)
	lw	a7, 4(a1)
	addi	a5, a4, 56
	sltu	a4, a5, a4
	add	a4, a4, a6
	xori	s0, s0, 1
	or	s0, s0, a7
	addi	a0, a0, 4
	sw	a0, 8(sp)
	sw	zero, 12(sp)
	sw	a5, 16(sp)
	sw	a4, 20(sp)
	bnez	s0, .Laes_small_BB95_5
# %bb.4:                                # %join.3.i.i.i
	seqz	a0, a2
	slli	a0, a0, 12
	add	a2, a2, a0
	addi	a0, a1, 8
	addi	a1, sp, 8
	li	a4, 0
	call	aes_small.cmac.chain_in_pieces.ChainInPieces.extend
	j	.Laes_small_BB95_6
.Laes_small_BB95_5:
	li	s0, 10
.Laes_small_BB95_6:                               # %"cmac::pieces::Message::update::<#4f733d09d7f6c6b4>.exit.i.i"
	call	aes_small.aes_cipher.zeroize.stack.wipe_stack.768
.Laes_small_BB95_7:                               # %wide_fotsgure_aes_cmac_update.exit
	mv	a0, s0
	lw	ra, 28(sp)                      # 4-byte Folded Reload
	lw	s0, 24(sp)                      # 4-byte Folded Reload
	addi	sp, sp, 32
	li	a1, 0
	li	a2, 0
	li	a3, 0
	li	a4, 0
	li	a5, 0
	li	a6, 0
	li	a7, 0
	li	t0, 0
	li	t1, 0
	li	t2, 0
	li	t3, 0
	li	t4, 0
	li	t5, 0
	li	t6, 0
	ret
.Laes_small_func_end95:
	.size	aes_small.fotsgure_aes_cmac_update, .Laes_small_func_end95-aes_small.fotsgure_aes_cmac_update
                                        # -- End function
	.section	.text.aes_small.fotsgure_aes_cmac_finish,"ax",@progbits
	export_aes_small	fotsgure_aes_cmac_finish
	.p2align	1
	.type	aes_small.fotsgure_aes_cmac_finish,@function
aes_small.fotsgure_aes_cmac_finish:               # @aes_small.fotsgure_aes_cmac_finish
# %bb.0:
	lw	a3, 0(a0)
	li	a4, 32
	beq	a3, a4, .Laes_small_BB96_3
# %bb.1:
	andi	a4, a3, -9
	li	a5, 16
	beq	a4, a5, .Laes_small_BB96_3
# %bb.2:
	li	a0, 2
	li	a1, 0
	li	a2, 0
	li	a3, 0
	li	a4, 0
	li	a5, 0
	li	a6, 0
	li	a7, 0
	li	t0, 0
	li	t1, 0
	li	t2, 0
	li	t3, 0
	li	t4, 0
	li	t5, 0
	li	t6, 0
	ret
.Laes_small_BB96_3:                               # %join.3.i.i
	addi	sp, sp, -48
	sw	ra, 44(sp)                      # 4-byte Folded Spill
	sw	s0, 40(sp)                      # 4-byte Folded Spill
	sw	s1, 36(sp)                      # 4-byte Folded Spill
	srli	a4, a3, 31
	slli	a3, a3, 1
	lw	a5, 0(a1)
	lw	s1, 4(a1)
	addi	s0, a3, 56
	sltu	a3, s0, a3
	add	a3, a3, a4
	xori	a4, a5, 1
	or	a4, a4, s1
	addi	a0, a0, 4
	sw	a0, 0(sp)
	sw	zero, 4(sp)
	sw	s0, 8(sp)
	sw	a3, 12(sp)
	bnez	a4, .Laes_small_BB96_7
# %bb.4:                                # %arm.4.i.i
	mv	s0, a2
	lw	a0, 12(a1)
	lw	a2, 8(a1)
	seqz	a0, a0
	addi	a0, a0, -1
	or	a4, a0, a2
	li	a0, 16
	bltu	a4, a0, .Laes_small_BB96_6
# %bb.5:                                # %arm.4.i.i
	li	a4, 16
.Laes_small_BB96_6:                               # %arm.4.i.i
	addi	a2, a1, 16
	addi	a3, a1, 32
	addi	a0, sp, 20
	mv	s1, a1
	mv	a1, sp
	li	a5, 0
	call	aes_small.cmac.tags.tag_at_end
	mv	a0, s1
	call	aes_small.cmac.pieces.MessageZeroize.zeroize
	call	aes_small.aes_cipher.zeroize.stack.wipe_stack.768
	addi	a1, sp, 20
	li	a2, 16
	mv	a0, s0
	call	memcpy
	li	a0, 0
	j	.Laes_small_BB96_8
.Laes_small_BB96_7:                               # %"cmac::pieces::Message::finish::<#4f733d09d7f6c6b4>.exit.i.i"
	call	aes_small.aes_cipher.zeroize.stack.wipe_stack.768
	li	a0, 10
.Laes_small_BB96_8:
	lw	ra, 44(sp)                      # 4-byte Folded Reload
	lw	s0, 40(sp)                      # 4-byte Folded Reload
	lw	s1, 36(sp)                      # 4-byte Folded Reload
	addi	sp, sp, 48
	li	a1, 0
	li	a2, 0
	li	a3, 0
	li	a4, 0
	li	a5, 0
	li	a6, 0
	li	a7, 0
	li	t0, 0
	li	t1, 0
	li	t2, 0
	li	t3, 0
	li	t4, 0
	li	t5, 0
	li	t6, 0
	ret
.Laes_small_func_end96:
	.size	aes_small.fotsgure_aes_cmac_finish, .Laes_small_func_end96-aes_small.fotsgure_aes_cmac_finish
                                        # -- End function
	.section	.text.aes_small.fotsgure_aes_cmac_accept,"ax",@progbits
	export_aes_small	fotsgure_aes_cmac_accept
	.p2align	1
	.type	aes_small.fotsgure_aes_cmac_accept,@function
aes_small.fotsgure_aes_cmac_accept:               # @aes_small.fotsgure_aes_cmac_accept
# %bb.0:
	addi	sp, sp, -32
	sw	ra, 28(sp)                      # 4-byte Folded Spill
	sw	s0, 24(sp)                      # 4-byte Folded Spill
	lw	a4, 0(a0)
	li	a5, 32
	beq	a4, a5, .Laes_small_BB97_3
# %bb.1:
	andi	a5, a4, -9
	li	s0, 16
	beq	a5, s0, .Laes_small_BB97_3
# %bb.2:
	li	a0, 2
	j	.Laes_small_BB97_11
.Laes_small_BB97_3:                               # %join.3.i.i
	addi	a5, a3, -4
	li	s0, 12
	bltu	s0, a5, .Laes_small_BB97_7
# %bb.4:                                # %join.6.i.i
	srli	a6, a4, 31
	slli	a4, a4, 1
	lw	s0, 0(a1)
	lw	a7, 4(a1)
	addi	a5, a4, 56
	sltu	a4, a5, a4
	add	a4, a4, a6
	xori	s0, s0, 1
	or	s0, s0, a7
	addi	a0, a0, 4
	sw	a0, 8(sp)
	sw	zero, 12(sp)
	sw	a5, 16(sp)
	sw	a4, 20(sp)
	bnez	s0, .Laes_small_BB97_8
# %bb.5:                                # %join.3.i.i.i
	seqz	a0, a2
	slli	a0, a0, 12
	add	a2, a2, a0
	mv	a0, a1
	addi	a1, sp, 8
	mv	s0, a0
	li	a4, 0
	call	aes_small.cmac.pieces.Message.is_tag_so_far
	beqz	a0, .Laes_small_BB97_9
# %bb.6:                                # %join.7.i.i.i
	mv	a0, s0
	call	aes_small.cmac.pieces.MessageZeroize.zeroize
	li	s0, 0
	j	.Laes_small_BB97_10
.Laes_small_BB97_7:
	li	a0, 7
	j	.Laes_small_BB97_11
.Laes_small_BB97_8:
	li	s0, 10
	j	.Laes_small_BB97_10
.Laes_small_BB97_9:
	li	s0, 6
.Laes_small_BB97_10:                              # %"cmac::pieces::Message::accept::<#4f733d09d7f6c6b4>.exit.i.i"
	call	aes_small.aes_cipher.zeroize.stack.wipe_stack.768
	mv	a0, s0
.Laes_small_BB97_11:                              # %wide_fotsgure_aes_cmac_accept.exit
	lw	ra, 28(sp)                      # 4-byte Folded Reload
	lw	s0, 24(sp)                      # 4-byte Folded Reload
	addi	sp, sp, 32
	li	a1, 0
	li	a2, 0
	li	a3, 0
	li	a4, 0
	li	a5, 0
	li	a6, 0
	li	a7, 0
	li	t0, 0
	li	t1, 0
	li	t2, 0
	li	t3, 0
	li	t4, 0
	li	t5, 0
	li	t6, 0
	ret
.Laes_small_func_end97:
	.size	aes_small.fotsgure_aes_cmac_accept, .Laes_small_func_end97-aes_small.fotsgure_aes_cmac_accept
                                        # -- End function
	.section	.text.aes_small.fotsgure_aes_cmac_wipe,"ax",@progbits
	export_aes_small	fotsgure_aes_cmac_wipe
	.p2align	1
	.type	aes_small.fotsgure_aes_cmac_wipe,@function
aes_small.fotsgure_aes_cmac_wipe:                 # @aes_small.fotsgure_aes_cmac_wipe
# %bb.0:
	addi	sp, sp, -16
	sw	ra, 12(sp)                      # 4-byte Folded Spill
	sw	s0, 8(sp)                       # 4-byte Folded Spill
	mv	s0, a0
	li	a2, 48
	li	a1, 0
	call	memset
	mv	a0, s0
	lw	ra, 12(sp)                      # 4-byte Folded Reload
	lw	s0, 8(sp)                       # 4-byte Folded Reload
	addi	sp, sp, 16
	tail	aes_small.cmac.pieces.MessageZeroize.zeroize
.Laes_small_func_end98:
	.size	aes_small.fotsgure_aes_cmac_wipe, .Laes_small_func_end98-aes_small.fotsgure_aes_cmac_wipe
                                        # -- End function
	.section	.text.aes_small.fotsgure_aes_ccm_seal,"ax",@progbits
	export_aes_small	fotsgure_aes_ccm_seal
	.p2align	1
	.type	aes_small.fotsgure_aes_ccm_seal,@function
aes_small.fotsgure_aes_ccm_seal:                  # @aes_small.fotsgure_aes_ccm_seal
# %bb.0:
	addi	sp, sp, -48
	sw	ra, 44(sp)                      # 4-byte Folded Spill
	sw	s0, 40(sp)                      # 4-byte Folded Spill
	sw	s1, 36(sp)                      # 4-byte Folded Spill
	mv	t3, a6
	mv	a6, a4
	lw	s0, 0(a0)
	li	a4, 32
	beq	s0, a4, .Laes_small_BB99_3
# %bb.1:
	andi	t0, s0, -9
	li	a4, 16
	beq	t0, a4, .Laes_small_BB99_3
# %bb.2:
	li	a0, 2
	j	.Laes_small_BB99_6
.Laes_small_BB99_3:                               # %join.3.i.i
	lw	t6, 48(sp)
	seqz	a4, a7
	seqz	t0, a5
	slli	a4, a4, 12
	add	t5, a7, a4
	seqz	a4, a3
	slli	a7, t0, 12
	add	a7, a7, a5
	seqz	a5, a1
	addi	a0, a0, 4
	slli	a4, a4, 12
	add	a4, a4, a3
	srli	a3, s0, 31
	slli	s0, s0, 1
	slli	a5, a5, 12
	add	a1, a1, a5
	addi	a5, s0, 56
	sltu	s0, a5, s0
	add	a3, a3, s0
	sw	a0, 16(sp)
	sw	zero, 20(sp)
	sw	a5, 24(sp)
	sw	a3, 28(sp)
	addi	a0, sp, 16
	sw	zero, 0(sp)
	li	a3, 0
	mv	a5, a6
	li	a6, 0
	li	t4, 0
	call	aes_small.ccm.mode.encrypt
	mv	s0, a1
	zext.b	s1, a0
	call	aes_small.aes_cipher.zeroize.stack.wipe_stack.1024
	beqz	s1, .Laes_small_BB99_5
# %bb.4:                                # %arm.5.i.i
	zext.b	a0, s0
	addi	a0, a0, 7
	j	.Laes_small_BB99_6
.Laes_small_BB99_5:
	li	a0, 0
.Laes_small_BB99_6:                               # %wide_fotsgure_aes_ccm_seal.exit
	lw	ra, 44(sp)                      # 4-byte Folded Reload
	lw	s0, 40(sp)                      # 4-byte Folded Reload
	lw	s1, 36(sp)                      # 4-byte Folded Reload
	addi	sp, sp, 48
	li	a1, 0
	li	a2, 0
	li	a3, 0
	li	a4, 0
	li	a5, 0
	li	a6, 0
	li	a7, 0
	li	t0, 0
	li	t1, 0
	li	t2, 0
	li	t3, 0
	li	t4, 0
	li	t5, 0
	li	t6, 0
	ret
.Laes_small_func_end99:
	.size	aes_small.fotsgure_aes_ccm_seal, .Laes_small_func_end99-aes_small.fotsgure_aes_ccm_seal
                                        # -- End function
	.section	.text.aes_small.fotsgure_aes_ccm_open,"ax",@progbits
	export_aes_small	fotsgure_aes_ccm_open
	.p2align	1
	.type	aes_small.fotsgure_aes_ccm_open,@function
aes_small.fotsgure_aes_ccm_open:                  # @aes_small.fotsgure_aes_ccm_open
# %bb.0:
	mv	t4, a6
	mv	a6, a4
	mv	t0, a2
	lw	a2, 0(a0)
	li	a4, 32
	beq	a2, a4, .Laes_small_BB100_3
# %bb.1:
	andi	t1, a2, -9
	li	a4, 16
	beq	t1, a4, .Laes_small_BB100_3
# %bb.2:
	li	a0, 2
	li	a1, 0
	li	a2, 0
	li	a3, 0
	li	a4, 0
	li	a5, 0
	li	a6, 0
	li	a7, 0
	li	t0, 0
	li	t1, 0
	li	t2, 0
	li	t3, 0
	li	t4, 0
	li	t5, 0
	li	t6, 0
	ret
.Laes_small_BB100_3:                              # %join.3.i.i
	addi	sp, sp, -32
	sw	ra, 28(sp)                      # 4-byte Folded Spill
	lw	t1, 32(sp)
	seqz	a4, a7
	seqz	t2, a5
	slli	a4, a4, 12
	add	t6, a7, a4
	seqz	a7, a3
	slli	t2, t2, 12
	add	t3, a5, t2
	seqz	a4, a1
	addi	t2, a0, 4
	slli	a5, a7, 12
	add	a5, a5, a3
	srli	a3, a2, 31
	slli	a0, a2, 1
	slli	a2, a4, 12
	add	a2, a2, a1
	addi	a1, a0, 56
	sltu	a0, a1, a0
	add	a0, a0, a3
	sw	t2, 8(sp)
	sw	zero, 12(sp)
	sw	a1, 16(sp)
	sw	a0, 20(sp)
	addi	a0, sp, 25
	addi	a1, sp, 8
	sw	t1, 0(sp)
	sw	zero, 4(sp)
	mv	a3, t0
	li	a4, 0
	li	a7, 0
	li	t5, 0
	call	aes_small.ccm.mode.decrypt
	call	aes_small.aes_cipher.zeroize.stack.wipe_stack.1024
	lbu	a0, 25(sp)
	beqz	a0, .Laes_small_BB100_7
# %bb.4:                                # %arm.5.i.i
	lbu	a0, 26(sp)
	beqz	a0, .Laes_small_BB100_6
# %bb.5:
	li	a0, 6
	j	.Laes_small_BB100_7
.Laes_small_BB100_6:                              # %arm.8.i.i
	lbu	a0, 27(sp)
	addi	a0, a0, 7
.Laes_small_BB100_7:
	lw	ra, 28(sp)                      # 4-byte Folded Reload
	addi	sp, sp, 32
	li	a1, 0
	li	a2, 0
	li	a3, 0
	li	a4, 0
	li	a5, 0
	li	a6, 0
	li	a7, 0
	li	t0, 0
	li	t1, 0
	li	t2, 0
	li	t3, 0
	li	t4, 0
	li	t5, 0
	li	t6, 0
	ret
.Laes_small_func_end100:
	.size	aes_small.fotsgure_aes_ccm_open, .Laes_small_func_end100-aes_small.fotsgure_aes_ccm_open
                                        # -- End function
	.section	.text.aes_small.fotsgure_aes_cipher_round,"ax",@progbits
	export_aes_small	fotsgure_aes_cipher_round
	.p2align	1
	.type	aes_small.fotsgure_aes_cipher_round,@function
aes_small.fotsgure_aes_cipher_round:              # @aes_small.fotsgure_aes_cipher_round
# %bb.0:
	addi	sp, sp, -16
	sw	ra, 12(sp)                      # 4-byte Folded Spill
	call	aes_small.aes_c.single_rounds.round
	lw	ra, 12(sp)                      # 4-byte Folded Reload
	addi	sp, sp, 16
	tail	aes_small.aes_cipher.zeroize.stack.wipe_stack.512
.Laes_small_func_end101:
	.size	aes_small.fotsgure_aes_cipher_round, .Laes_small_func_end101-aes_small.fotsgure_aes_cipher_round
                                        # -- End function
	.section	.text.aes_small.fotsgure_aes_equiv_inv_cipher_round,"ax",@progbits
	export_aes_small	fotsgure_aes_equiv_inv_cipher_round
	.p2align	1
	.type	aes_small.fotsgure_aes_equiv_inv_cipher_round,@function
aes_small.fotsgure_aes_equiv_inv_cipher_round:    # @aes_small.fotsgure_aes_equiv_inv_cipher_round
# %bb.0:
	addi	sp, sp, -16
	sw	ra, 12(sp)                      # 4-byte Folded Spill
	call	aes_small.aes_c.single_rounds.inverse_round
	lw	ra, 12(sp)                      # 4-byte Folded Reload
	addi	sp, sp, 16
	tail	aes_small.aes_cipher.zeroize.stack.wipe_stack.512
.Laes_small_func_end102:
	.size	aes_small.fotsgure_aes_equiv_inv_cipher_round, .Laes_small_func_end102-aes_small.fotsgure_aes_equiv_inv_cipher_round
                                        # -- End function
	.section	.text.aes_small.fotsgure_aes_cipher_round_par,"ax",@progbits
	export_aes_small	fotsgure_aes_cipher_round_par
	.p2align	1
	.type	aes_small.fotsgure_aes_cipher_round_par,@function
aes_small.fotsgure_aes_cipher_round_par:          # @aes_small.fotsgure_aes_cipher_round_par
# %bb.0:
	addi	sp, sp, -16
	sw	ra, 12(sp)                      # 4-byte Folded Spill
	call	aes_small.aes_c.single_rounds.rounds
	lw	ra, 12(sp)                      # 4-byte Folded Reload
	addi	sp, sp, 16
	tail	aes_small.aes_cipher.zeroize.stack.wipe_stack.512
.Laes_small_func_end103:
	.size	aes_small.fotsgure_aes_cipher_round_par, .Laes_small_func_end103-aes_small.fotsgure_aes_cipher_round_par
                                        # -- End function
	.section	.text.aes_small.fotsgure_aes_equiv_inv_cipher_round_par,"ax",@progbits
	export_aes_small	fotsgure_aes_equiv_inv_cipher_round_par
	.p2align	1
	.type	aes_small.fotsgure_aes_equiv_inv_cipher_round_par,@function
aes_small.fotsgure_aes_equiv_inv_cipher_round_par: # @aes_small.fotsgure_aes_equiv_inv_cipher_round_par
# %bb.0:
	addi	sp, sp, -16
	sw	ra, 12(sp)                      # 4-byte Folded Spill
	call	aes_small.aes_c.single_rounds.inverse_rounds
	lw	ra, 12(sp)                      # 4-byte Folded Reload
	addi	sp, sp, 16
	tail	aes_small.aes_cipher.zeroize.stack.wipe_stack.512
.Laes_small_func_end104:
	.size	aes_small.fotsgure_aes_equiv_inv_cipher_round_par, .Laes_small_func_end104-aes_small.fotsgure_aes_equiv_inv_cipher_round_par
                                        # -- End function
	.section	.text.aes_small.fotsgure_aes_mix_columns,"ax",@progbits
	export_aes_small	fotsgure_aes_mix_columns
	.p2align	1
	.type	aes_small.fotsgure_aes_mix_columns,@function
aes_small.fotsgure_aes_mix_columns:               # @aes_small.fotsgure_aes_mix_columns
# %bb.0:
	addi	sp, sp, -16
	sw	ra, 12(sp)                      # 4-byte Folded Spill
	call	aes_small.aes_c.single_rounds.mixed
	lw	ra, 12(sp)                      # 4-byte Folded Reload
	addi	sp, sp, 16
	tail	aes_small.aes_cipher.zeroize.stack.wipe_stack.512
.Laes_small_func_end105:
	.size	aes_small.fotsgure_aes_mix_columns, .Laes_small_func_end105-aes_small.fotsgure_aes_mix_columns
                                        # -- End function
	.section	.text.aes_small.fotsgure_aes_inv_mix_columns,"ax",@progbits
	export_aes_small	fotsgure_aes_inv_mix_columns
	.p2align	1
	.type	aes_small.fotsgure_aes_inv_mix_columns,@function
aes_small.fotsgure_aes_inv_mix_columns:           # @aes_small.fotsgure_aes_inv_mix_columns
# %bb.0:
	addi	sp, sp, -16
	sw	ra, 12(sp)                      # 4-byte Folded Spill
	call	aes_small.aes_c.single_rounds.inverse_mixed
	lw	ra, 12(sp)                      # 4-byte Folded Reload
	addi	sp, sp, 16
	tail	aes_small.aes_cipher.zeroize.stack.wipe_stack.512
.Laes_small_func_end106:
	.size	aes_small.fotsgure_aes_inv_mix_columns, .Laes_small_func_end106-aes_small.fotsgure_aes_inv_mix_columns
                                        # -- End function
	.section	.text.aes_small.fotsgure_aes_encrypt_blocks_with,"ax",@progbits
	export_aes_small	fotsgure_aes_encrypt_blocks_with
	.p2align	1
	.type	aes_small.fotsgure_aes_encrypt_blocks_with,@function
aes_small.fotsgure_aes_encrypt_blocks_with:       # @aes_small.fotsgure_aes_encrypt_blocks_with
# %bb.0:
	addi	sp, sp, -528
	sw	ra, 524(sp)                     # 4-byte Folded Spill
	sw	s0, 520(sp)                     # 4-byte Folded Spill
	sw	s1, 516(sp)                     # 4-byte Folded Spill
	sw	s2, 512(sp)                     # 4-byte Folded Spill
	sw	s3, 508(sp)                     # 4-byte Folded Spill
	sw	s4, 504(sp)                     # 4-byte Folded Spill
	sw	s5, 500(sp)                     # 4-byte Folded Spill
	sw	s6, 496(sp)                     # 4-byte Folded Spill
	mv	s4, a3
	li	a3, 32
	beq	a1, a3, .Laes_small_BB107_3
# %bb.1:
	andi	a3, a1, -9
	li	a4, 16
	beq	a3, a4, .Laes_small_BB107_3
# %bb.2:
	li	a0, 1
	j	.Laes_small_BB107_4
.Laes_small_BB107_3:                              # %join.3.i.i
	seqz	a3, a2
	seqz	a4, a0
	addi	s2, sp, 16
	srli	s5, a1, 31
	slli	a3, a3, 12
	add	s3, a2, a3
	slli	a2, a1, 1
	slli	a4, a4, 12
	add	s6, a0, a4
	addi	s0, a2, 56
	sltu	a0, s0, a2
	add	s5, s5, a0
	addi	a0, sp, 12
	li	a2, 484
	mv	s1, a1
	li	a1, 0
	call	memset
	mv	a0, s2
	mv	a1, s6
	mv	a2, s1
	li	a3, 0
	call	aes_small.aes_narrow.word_room.expand_words
	call	aes_small.aes_cipher.zeroize.stack.wipe_stack.768
	sw	s1, 12(sp)
	mv	a0, s2
	mv	a1, s0
	mv	a2, s5
	mv	a3, s3
	mv	a4, s4
	li	a5, 0
	call	aes_small.aes_narrow.blocks.process_all_batches.1
	call	aes_small.aes_cipher.zeroize.stack.wipe_stack.1024
	sw	zero, 12(sp)
	mv	a0, s2
	call	aes_small.aes_cipher.zeroize.elements.zeroize_elements.1
	li	a0, 0
.Laes_small_BB107_4:                              # %wide_fotsgure_aes_encrypt_blocks_with.exit
	lw	ra, 524(sp)                     # 4-byte Folded Reload
	lw	s0, 520(sp)                     # 4-byte Folded Reload
	lw	s1, 516(sp)                     # 4-byte Folded Reload
	lw	s2, 512(sp)                     # 4-byte Folded Reload
	lw	s3, 508(sp)                     # 4-byte Folded Reload
	lw	s4, 504(sp)                     # 4-byte Folded Reload
	lw	s5, 500(sp)                     # 4-byte Folded Reload
	lw	s6, 496(sp)                     # 4-byte Folded Reload
	addi	sp, sp, 528
	li	a1, 0
	li	a2, 0
	li	a3, 0
	li	a4, 0
	li	a5, 0
	li	a6, 0
	li	a7, 0
	li	t0, 0
	li	t1, 0
	li	t2, 0
	li	t3, 0
	li	t4, 0
	li	t5, 0
	li	t6, 0
	ret
.Laes_small_func_end107:
	.size	aes_small.fotsgure_aes_encrypt_blocks_with, .Laes_small_func_end107-aes_small.fotsgure_aes_encrypt_blocks_with
                                        # -- End function
	.section	.text.aes_small.fotsgure_aes_decrypt_blocks_with,"ax",@progbits
	export_aes_small	fotsgure_aes_decrypt_blocks_with
	.p2align	1
	.type	aes_small.fotsgure_aes_decrypt_blocks_with,@function
aes_small.fotsgure_aes_decrypt_blocks_with:       # @aes_small.fotsgure_aes_decrypt_blocks_with
# %bb.0:
	addi	sp, sp, -512
	sw	ra, 508(sp)                     # 4-byte Folded Spill
	sw	s0, 504(sp)                     # 4-byte Folded Spill
	sw	s1, 500(sp)                     # 4-byte Folded Spill
	sw	s2, 496(sp)                     # 4-byte Folded Spill
	sw	s3, 492(sp)                     # 4-byte Folded Spill
	sw	s4, 488(sp)                     # 4-byte Folded Spill
	sw	s5, 484(sp)                     # 4-byte Folded Spill
	mv	s3, a3
	mv	s4, a2
	mv	s1, a1
	li	s5, 32
	sw	zero, 0(sp)
	beq	a1, s5, .Laes_small_BB108_3
# %bb.1:
	andi	a1, s1, -9
	li	a2, 16
	beq	a1, a2, .Laes_small_BB108_3
# %bb.2:
	li	s0, 1
	j	.Laes_small_BB108_8
.Laes_small_BB108_3:                              # %join.3.i.i
	addi	s2, sp, 4
	seqz	a1, a0
	slli	a1, a1, 12
	add	s0, a0, a1
	li	a2, 480
	mv	a0, s2
	li	a1, 0
	call	memset
	mv	a0, s2
	mv	a1, s0
	mv	a2, s1
	li	a3, 0
	call	aes_small.aes_narrow.word_room.expand_words
	call	aes_small.aes_cipher.zeroize.stack.wipe_stack.768
	sw	s1, 0(sp)
	beq	s1, s5, .Laes_small_BB108_6
# %bb.4:                                # %join.3.i.i
	andi	a0, s1, 48
	li	a1, 16
	beq	a0, a1, .Laes_small_BB108_6
# %bb.5:
	li	s0, 2
	j	.Laes_small_BB108_7
.Laes_small_BB108_6:                              # %join.3.i15.i.i
	seqz	a0, s4
	srli	a2, s1, 31
	slli	s1, s1, 1
	slli	a0, a0, 12
	add	a3, s4, a0
	addi	a1, s1, 56
	sltu	a0, a1, s1
	add	a2, a2, a0
	mv	a0, s2
	mv	a4, s3
	li	a5, 0
	call	aes_small.aes_narrow.blocks.process_all_batches.2
	call	aes_small.aes_cipher.zeroize.stack.wipe_stack.1024
	li	s0, 0
.Laes_small_BB108_7:                              # %"aes_c::blocks::fotsgure_aes_decrypt_blocks.exit.i.i"
	sw	zero, 0(sp)
	mv	a0, s2
	call	aes_small.aes_cipher.zeroize.elements.zeroize_elements.1
.Laes_small_BB108_8:                              # %wide_fotsgure_aes_decrypt_blocks_with.exit
	mv	a0, s0
	lw	ra, 508(sp)                     # 4-byte Folded Reload
	lw	s0, 504(sp)                     # 4-byte Folded Reload
	lw	s1, 500(sp)                     # 4-byte Folded Reload
	lw	s2, 496(sp)                     # 4-byte Folded Reload
	lw	s3, 492(sp)                     # 4-byte Folded Reload
	lw	s4, 488(sp)                     # 4-byte Folded Reload
	lw	s5, 484(sp)                     # 4-byte Folded Reload
	addi	sp, sp, 512
	li	a1, 0
	li	a2, 0
	li	a3, 0
	li	a4, 0
	li	a5, 0
	li	a6, 0
	li	a7, 0
	li	t0, 0
	li	t1, 0
	li	t2, 0
	li	t3, 0
	li	t4, 0
	li	t5, 0
	li	t6, 0
	ret
.Laes_small_func_end108:
	.size	aes_small.fotsgure_aes_decrypt_blocks_with, .Laes_small_func_end108-aes_small.fotsgure_aes_decrypt_blocks_with
                                        # -- End function
	.section	.text.aes_small.fotsgure_aes_add_keystream_with,"ax",@progbits
	export_aes_small	fotsgure_aes_add_keystream_with
	.p2align	1
	.type	aes_small.fotsgure_aes_add_keystream_with,@function
aes_small.fotsgure_aes_add_keystream_with:        # @aes_small.fotsgure_aes_add_keystream_with
# %bb.0:
	addi	sp, sp, -592
	sw	ra, 588(sp)                     # 4-byte Folded Spill
	sw	s0, 584(sp)                     # 4-byte Folded Spill
	sw	s1, 580(sp)                     # 4-byte Folded Spill
	sw	s2, 576(sp)                     # 4-byte Folded Spill
	sw	s3, 572(sp)                     # 4-byte Folded Spill
	sw	s4, 568(sp)                     # 4-byte Folded Spill
	sw	s5, 564(sp)                     # 4-byte Folded Spill
	sw	s6, 560(sp)                     # 4-byte Folded Spill
	sw	s7, 556(sp)                     # 4-byte Folded Spill
	mv	s6, a4
	mv	s0, a2
	li	a2, 32
	beq	a1, a2, .Laes_small_BB109_3
# %bb.1:
	andi	a2, a1, -9
	li	a4, 16
	beq	a2, a4, .Laes_small_BB109_3
# %bb.2:
	li	a0, 1
	j	.Laes_small_BB109_9
.Laes_small_BB109_3:                              # %join.3.i.i
	lw	a2, 16(s0)
	lw	a4, 20(s0)
	not	a2, a2
	addi	a4, a4, 1
	sltu	a2, a2, s6
	seqz	a4, a4
	and	a2, a2, a4
	beqz	a2, .Laes_small_BB109_5
# %bb.4:
	li	a0, 4
	j	.Laes_small_BB109_9
.Laes_small_BB109_5:                              # %join.6.i.i
	seqz	a2, a0
	seqz	a4, a3
	addi	s2, sp, 24
	srli	s4, a1, 31
	slli	a2, a2, 12
	add	s7, a0, a2
	slli	a0, a1, 1
	slli	a4, a4, 12
	add	s5, a3, a4
	addi	s3, a0, 56
	sltu	a0, s3, a0
	add	s4, s4, a0
	addi	a0, sp, 20
	li	a2, 484
	mv	s1, a1
	li	a1, 0
	call	memset
	mv	a0, s2
	mv	a1, s7
	mv	a2, s1
	li	a3, 0
	call	aes_small.aes_narrow.word_room.expand_words
	call	aes_small.aes_cipher.zeroize.stack.wipe_stack.768
	sw	s1, 20(sp)
	lbu	a0, 12(s0)
	lbu	a1, 13(s0)
	lbu	a2, 14(s0)
	lbu	a3, 15(s0)
	lbu	a6, 8(s0)
	lbu	a5, 9(s0)
	lbu	s1, 10(s0)
	lbu	a4, 11(s0)
	slli	a1, a1, 8
	slli	a2, a2, 16
	slli	a3, a3, 24
	or	a7, a1, a0
	or	t0, a3, a2
	lbu	a1, 4(s0)
	lbu	a3, 5(s0)
	lbu	a0, 6(s0)
	lbu	a2, 7(s0)
	slli	a5, a5, 8
	slli	s1, s1, 16
	slli	a4, a4, 24
	slli	a3, a3, 8
	slli	a0, a0, 16
	slli	a2, a2, 24
	or	a5, a5, a6
	or	a4, a4, s1
	or	a6, a3, a1
	or	t1, a2, a0
	lbu	a2, 1(s0)
	lbu	a3, 0(s0)
	lbu	s1, 2(s0)
	lbu	a1, 3(s0)
	slli	a2, a2, 8
	or	a0, a2, a3
	slli	s1, s1, 16
	slli	a1, a1, 24
	or	a1, a1, s1
	sw	s2, 0(sp)
	sw	zero, 4(sp)
	sw	s3, 8(sp)
	sw	s4, 12(sp)
	or	a7, t0, a7
	or	a4, a4, a5
	lw	a2, 16(s0)
	lw	a3, 20(s0)
	or	a5, t1, a6
	li	a6, 16
	or	a0, a0, a1
	andi	a1, a2, 15
	sub	s1, a6, a1
	sltiu	a1, a1, 17
	sltu	s1, s1, s6
	sw	a0, 504(sp)
	sw	a5, 508(sp)
	sw	a4, 512(sp)
	sw	a7, 516(sp)
	and	a1, a1, s1
	sw	zero, 520(sp)
	sw	zero, 524(sp)
	beqz	a1, .Laes_small_BB109_7
# %bb.6:                                # %else.2.i.i.i.i
	addi	a0, sp, 504
	sw	a0, 520(sp)
	sw	a2, 528(sp)
	sw	a3, 532(sp)
	sw	s5, 536(sp)
	sw	zero, 540(sp)
	sw	s6, 544(sp)
	sw	zero, 548(sp)
	addi	a3, sp, 520
	mv	a0, s2
	mv	a1, s3
	mv	a2, s4
	call	aes_small.aes_narrow.borrowed_words.call_to_encrypt
	call	aes_small.aes_cipher.zeroize.stack.wipe_stack.2032
	j	.Laes_small_BB109_8
.Laes_small_BB109_7:                              # %then.1.i.i.i.i
	mv	a0, sp
	addi	a1, sp, 504
	mv	a4, s5
	mv	a5, s6
	li	a6, 0
	call	aes_small.aes_ctr.add_in_batches.add_to_one
.Laes_small_BB109_8:                              # %"aes_ctr::add_in_batches::add_keystream::<#4f733d09d7f6c6b4>.exit.i.i"
	lw	a0, 16(s0)
	lw	a1, 20(s0)
	add	s6, s6, a0
	sltu	a0, s6, a0
	add	a0, a0, a1
	sw	s6, 16(s0)
	sw	a0, 20(s0)
	sw	zero, 20(sp)
	mv	a0, s2
	call	aes_small.aes_cipher.zeroize.elements.zeroize_elements.1
	li	a0, 0
.Laes_small_BB109_9:                              # %wide_fotsgure_aes_add_keystream_with.exit
	lw	ra, 588(sp)                     # 4-byte Folded Reload
	lw	s0, 584(sp)                     # 4-byte Folded Reload
	lw	s1, 580(sp)                     # 4-byte Folded Reload
	lw	s2, 576(sp)                     # 4-byte Folded Reload
	lw	s3, 572(sp)                     # 4-byte Folded Reload
	lw	s4, 568(sp)                     # 4-byte Folded Reload
	lw	s5, 564(sp)                     # 4-byte Folded Reload
	lw	s6, 560(sp)                     # 4-byte Folded Reload
	lw	s7, 556(sp)                     # 4-byte Folded Reload
	addi	sp, sp, 592
	li	a1, 0
	li	a2, 0
	li	a3, 0
	li	a4, 0
	li	a5, 0
	li	a6, 0
	li	a7, 0
	li	t0, 0
	li	t1, 0
	li	t2, 0
	li	t3, 0
	li	t4, 0
	li	t5, 0
	li	t6, 0
	ret
.Laes_small_func_end109:
	.size	aes_small.fotsgure_aes_add_keystream_with, .Laes_small_func_end109-aes_small.fotsgure_aes_add_keystream_with
                                        # -- End function
	.type	.Laes_small_static.0,@object              # @static.0
	.section	.rodata..Laes_small_static.0,"a",@progbits
.Laes_small_static.0:
	.ascii	"\001\002\004\b\020 @\200\0336"
	.size	.Laes_small_static.0, 10

	.type	.Laes_small_static.2,@object              # @static.2
	.section	.rodata.cst16,"aM",@progbits,16
.Laes_small_static.2:
	.zero	16,166
	.size	.Laes_small_static.2, 16

	.ident	"rattle logic=dac8208d650f15bf3e2dc313a14fa4c783a3acf887bdfab66e1714b038d9e11b"
	.section	".note.GNU-stack","",@progbits

	.section	.note.fotsgure,"",%note
	.p2align	2, 0x0
	.long	9, 122, 1
	.asciz	"Fotsgure"
	.p2align	2, 0x0
	.asciz	"fotsgure_aes 0.4.0, riscv32/aes_small.s, sources SHA-256 f3fecc818c73814a93835f06896045f67fddc8c102490795e0e19679064b46a4"
	.p2align	2, 0x0
