# Made by tools/dist from the proved crate gcm_c; BUILD says from what. Don't edit it.
/* A Rust crate defines in_rust; for x86-64, a static library of both builds defines chosen, and choose_*.c calls these names. */
	.macro	export_gcm_small name
	.ifdef	in_rust
	.globl	gcm_small.\name
	.hidden	gcm_small.\name
	.else
	.globl	\name
	.set	\name, gcm_small.\name
	.endif
	.endm
	.file	"rattle"
	.section	.text.gcm_small.aes_cipher.zeroize.elements.zeroize_elements.1,"ax",@progbits
	.p2align	1                               # -- Begin function aes_cipher::zeroize::elements::zeroize_elements::<#54a2bb646728b9ee>
	.type	gcm_small.aes_cipher.zeroize.elements.zeroize_elements.1,@function
gcm_small.aes_cipher.zeroize.elements.zeroize_elements.1: # @gcm_small.aes_cipher.zeroize.elements.zeroize_elements.1
# %bb.0:                                # %start
	addi	sp, sp, -32
	sw	ra, 28(sp)                      # 4-byte Folded Spill
	sw	s0, 24(sp)                      # 4-byte Folded Spill
	sw	s1, 20(sp)                      # 4-byte Folded Spill
	sw	zero, 8(sp)
	sw	zero, 12(sp)
	#APP
	#NO_APP
	lw	a1, 8(sp)
	lw	a2, 12(sp)
	#APP
	#NO_APP
	seqz	a2, a2
	sltiu	a3, a1, 120
	and	a2, a2, a3
	beqz	a2, .Lgcm_small_BB0_2
# %bb.1:                                # %then.1.i
	slli	a1, a1, 2
	add	s0, a0, a1
	lw	s1, 0(s0)
	li	a2, 480
	li	a1, 0
	call	memset
	lw	a0, 0(s0)
	and	a0, a0, s1
	j	.Lgcm_small_BB0_3
.Lgcm_small_BB0_2:                                # %"aes_cipher::zeroize::observe::<#94bc162b3f62047f>.exit12"
	li	a2, 480
	li	a1, 0
	call	memset
	li	a0, 0
.Lgcm_small_BB0_3:                                # %"aes_cipher::zeroize::observe::<#94bc162b3f62047f>.exit"
	zext.b	a0, a0
	#APP
	#NO_APP
	lw	zero, 12(sp)
	lw	zero, 8(sp)
	sw	zero, 12(sp)
	sw	a0, 8(sp)
	#APP
	#NO_APP
	lw	ra, 28(sp)                      # 4-byte Folded Reload
	lw	s0, 24(sp)                      # 4-byte Folded Reload
	lw	s1, 20(sp)                      # 4-byte Folded Reload
	addi	sp, sp, 32
	li	a1, 0
	li	a2, 0
	li	a3, 0
	li	a4, 0
	li	a5, 0
	li	a6, 0
	li	a7, 0
	li	t0, 0
	li	t1, 0
	li	t2, 0
	li	t3, 0
	li	t4, 0
	li	t5, 0
	li	t6, 0
	ret
.Lgcm_small_func_end0:
	.size	gcm_small.aes_cipher.zeroize.elements.zeroize_elements.1, .Lgcm_small_func_end0-gcm_small.aes_cipher.zeroize.elements.zeroize_elements.1
                                        # -- End function
	.section	.text.gcm_small.gcm.message_state.MessageZeroize.zeroize,"ax",@progbits
	.p2align	1                               # -- Begin function gcm::message_state::MessageZeroize::zeroize
	.type	gcm_small.gcm.message_state.MessageZeroize.zeroize,@function
gcm_small.gcm.message_state.MessageZeroize.zeroize: # @gcm_small.gcm.message_state.MessageZeroize.zeroize
# %bb.0:                                # %start
	addi	sp, sp, -16
	sw	ra, 12(sp)                      # 4-byte Folded Spill
	sw	s0, 8(sp)                       # 4-byte Folded Spill
	mv	s0, a0
	addi	a0, a0, 32
	sw	zero, 16(s0)
	sw	zero, 20(s0)
	sw	zero, 24(s0)
	sw	zero, 28(s0)
	sw	zero, 0(s0)
	sw	zero, 4(s0)
	sw	zero, 8(s0)
	sw	zero, 12(s0)
	call	gcm_small.aes_cipher.zeroize.elements.zeroize_elements.2
	addi	a0, s0, 48
	call	gcm_small.aes_cipher.zeroize.elements.zeroize_elements.2
	addi	a0, s0, 64
	lw	ra, 12(sp)                      # 4-byte Folded Reload
	lw	s0, 8(sp)                       # 4-byte Folded Reload
	addi	sp, sp, 16
	tail	gcm_small.aes_cipher.zeroize.elements.zeroize_elements.2
.Lgcm_small_func_end1:
	.size	gcm_small.gcm.message_state.MessageZeroize.zeroize, .Lgcm_small_func_end1-gcm_small.gcm.message_state.MessageZeroize.zeroize
                                        # -- End function
	.section	.text.gcm_small.aes_cipher.zeroize.elements.zeroize_elements.2,"ax",@progbits
	.p2align	1                               # -- Begin function aes_cipher::zeroize::elements::zeroize_elements::<#3b2097f0eef5a37b>
	.type	gcm_small.aes_cipher.zeroize.elements.zeroize_elements.2,@function
gcm_small.aes_cipher.zeroize.elements.zeroize_elements.2: # @gcm_small.aes_cipher.zeroize.elements.zeroize_elements.2
# %bb.0:                                # %start
	addi	sp, sp, -16
	sw	ra, 12(sp)                      # 4-byte Folded Spill
	sw	zero, 0(sp)
	sw	zero, 4(sp)
	#APP
	#NO_APP
	lw	zero, 4(sp)
	lw	zero, 0(sp)
	#APP
	#NO_APP
	li	a2, 16
	li	a1, 0
	call	memset
	#APP
	#NO_APP
	lw	zero, 4(sp)
	lw	zero, 0(sp)
	sw	zero, 4(sp)
	sw	zero, 0(sp)
	#APP
	#NO_APP
	lw	ra, 12(sp)                      # 4-byte Folded Reload
	addi	sp, sp, 16
	li	a1, 0
	li	a2, 0
	li	a3, 0
	li	a4, 0
	li	a5, 0
	li	a6, 0
	li	a7, 0
	li	t0, 0
	li	t1, 0
	li	t2, 0
	li	t3, 0
	li	t4, 0
	li	t5, 0
	li	t6, 0
	ret
.Lgcm_small_func_end2:
	.size	gcm_small.aes_cipher.zeroize.elements.zeroize_elements.2, .Lgcm_small_func_end2-gcm_small.aes_cipher.zeroize.elements.zeroize_elements.2
                                        # -- End function
	.section	.text.gcm_small.aes_narrow.word_room.expand_words,"ax",@progbits
	.p2align	1                               # -- Begin function aes_narrow::word_room::expand_words::<#6af90bfc14753d47>
	.type	gcm_small.aes_narrow.word_room.expand_words,@function
gcm_small.aes_narrow.word_room.expand_words: # @gcm_small.aes_narrow.word_room.expand_words
# %bb.0:                                # %start
	addi	sp, sp, -208
	sw	ra, 204(sp)                     # 4-byte Folded Spill
	sw	s0, 200(sp)                     # 4-byte Folded Spill
	sw	s1, 196(sp)                     # 4-byte Folded Spill
	sw	s2, 192(sp)                     # 4-byte Folded Spill
	sw	s3, 188(sp)                     # 4-byte Folded Spill
	sw	s4, 184(sp)                     # 4-byte Folded Spill
	sw	s5, 180(sp)                     # 4-byte Folded Spill
	sw	s6, 176(sp)                     # 4-byte Folded Spill
	sw	s7, 172(sp)                     # 4-byte Folded Spill
	mv	s2, a3
	mv	s3, a2
	li	a2, 24
	mv	s4, a0
	beq	s3, a2, .Lgcm_small_BB3_4
# %bb.1:                                # %start
	li	a0, 16
	bne	s3, a0, .Lgcm_small_BB3_6
# %bb.2:                                # %then.1.i
	addi	a0, sp, 140
	li	a2, 0
	li	a3, 0
	call	gcm_small.aes_soft.soft.plane_words.PlaneWordsFourWords.load
	addi	a3, sp, 140
	mv	a0, s4
	li	a1, 0
	li	a2, 0
	call	gcm_small.aes_soft.soft.plane_words.PlaneWordsFourWords.store
	li	s0, 0
	li	s5, 0
.Lgcm_small_BB3_3:                                # %join.5.i.i
                                        # =>This Inner Loop Header: Depth=1
	addi	a0, sp, 108
	mv	a1, s4
	mv	a2, s0
	mv	a3, s5
	call	gcm_small.aes_soft.soft.plane_words.PlaneWordsFourWords.read_back
.Lgcm_small_pcrel_hi0:
	auipc	a0, %pcrel_hi(.Lgcm_small_static.0)
	addi	a0, a0, %pcrel_lo(.Lgcm_small_pcrel_hi0)
	add	a0, a0, s0
	lbu	a3, 0(a0)
	addi	a0, sp, 140
	addi	a1, sp, 108
	addi	a2, sp, 140
	call	gcm_small.aes_soft.soft.plane_words.PlaneWordsFourWords.rotated
	addi	s1, s0, 1
	seqz	s6, s1
	add	s6, s6, s5
	addi	a3, sp, 140
	mv	a0, s4
	mv	a1, s1
	mv	a2, s6
	call	gcm_small.aes_soft.soft.plane_words.PlaneWordsFourWords.store
	sltiu	a0, s0, 9
	seqz	a1, s5
	and	a0, a0, a1
	mv	s0, s1
	mv	s5, s6
	bnez	a0, .Lgcm_small_BB3_3
	j	.Lgcm_small_BB3_9
.Lgcm_small_BB3_4:                                # %then.4.i
	addi	a0, sp, 140
	mv	s0, a1
	li	a2, 0
	li	a3, 0
	call	gcm_small.aes_soft.soft.plane_words.PlaneWordsFourWords.load
	addi	a0, sp, 108
	li	a2, 8
	mv	a1, s0
	li	a3, 0
	call	gcm_small.aes_soft.soft.plane_words.PlaneWordsFourWords.load
	addi	a3, sp, 140
	mv	a0, s4
	li	a1, 0
	li	a2, 0
	call	gcm_small.aes_soft.soft.plane_words.PlaneWordsFourWords.store
	li	s1, 0
	li	s7, 0
.Lgcm_small_BB3_5:                                # %join.5.i14.i
                                        # =>This Inner Loop Header: Depth=1
	slli	s6, s1, 1
.Lgcm_small_pcrel_hi1:
	auipc	a0, %pcrel_hi(.Lgcm_small_static.0)
	addi	a0, a0, %pcrel_lo(.Lgcm_small_pcrel_hi1)
	add	s5, a0, s6
	lbu	a3, 0(s5)
	addi	a0, sp, 76
	addi	a1, sp, 140
	addi	a2, sp, 108
	call	gcm_small.aes_soft.soft.plane_words.PlaneWordsFourWords.rotated
	addi	a0, sp, 44
	addi	a1, sp, 108
	addi	a2, sp, 76
	call	gcm_small.aes_soft.soft.plane_words.PlaneWordsFourWords.plain
	addi	a0, sp, 12
	addi	a1, sp, 108
	addi	a2, sp, 76
	call	gcm_small.aes_soft.soft.plane_words.PlaneWordsFourWords.straddled
	li	a0, 3
	slli	a1, s7, 1
	add	s6, s6, s1
	mulhu	a0, s1, a0
	add	a2, a1, s7
	addi	a1, s6, 1
	add	s0, a0, a2
	seqz	a2, a1
	add	a2, a2, s0
	addi	a3, sp, 12
	mv	a0, s4
	call	gcm_small.aes_soft.soft.plane_words.PlaneWordsFourWords.store
	addi	a1, s6, 2
	sltu	a2, a1, s6
	add	a2, a2, s0
	addi	a3, sp, 44
	mv	a0, s4
	call	gcm_small.aes_soft.soft.plane_words.PlaneWordsFourWords.store
	lbu	a3, 1(s5)
	addi	a0, sp, 140
	addi	a1, sp, 76
	addi	a2, sp, 44
	call	gcm_small.aes_soft.soft.plane_words.PlaneWordsFourWords.rotated
	addi	a0, sp, 108
	addi	a1, sp, 44
	addi	a2, sp, 140
	call	gcm_small.aes_soft.soft.plane_words.PlaneWordsFourWords.plain
	addi	a1, s6, 3
	sltu	a2, a1, s6
	add	a2, a2, s0
	addi	a3, sp, 140
	mv	a0, s4
	call	gcm_small.aes_soft.soft.plane_words.PlaneWordsFourWords.store
	sltiu	a0, s1, 3
	addi	s1, s1, 1
	seqz	a1, s7
	seqz	a2, s1
	add	s7, s7, a2
	and	a0, a0, a1
	bnez	a0, .Lgcm_small_BB3_5
	j	.Lgcm_small_BB3_9
.Lgcm_small_BB3_6:                                # %else.5.i
	addi	a0, sp, 140
	mv	s0, a1
	li	a2, 0
	li	a3, 0
	call	gcm_small.aes_soft.soft.plane_words.PlaneWordsFourWords.load
	addi	a0, sp, 108
	li	a2, 16
	mv	a1, s0
	li	a3, 0
	call	gcm_small.aes_soft.soft.plane_words.PlaneWordsFourWords.load
	addi	a3, sp, 140
	mv	a0, s4
	li	a1, 0
	li	a2, 0
	call	gcm_small.aes_soft.soft.plane_words.PlaneWordsFourWords.store
	li	a1, 1
	addi	a3, sp, 108
	mv	a0, s4
	li	a2, 0
	call	gcm_small.aes_soft.soft.plane_words.PlaneWordsFourWords.store
	li	s0, 0
	li	s5, 0
.Lgcm_small_BB3_7:                                # %join.5.i23.i
                                        # =>This Inner Loop Header: Depth=1
	srli	a0, s0, 31
	slli	a1, s5, 1
	or	s6, a1, a0
	slli	s1, s0, 1
	addi	a0, sp, 76
	mv	a1, s4
	mv	a2, s1
	mv	a3, s6
	call	gcm_small.aes_soft.soft.plane_words.PlaneWordsFourWords.read_back
.Lgcm_small_pcrel_hi2:
	auipc	a0, %pcrel_hi(.Lgcm_small_static.0)
	addi	a0, a0, %pcrel_lo(.Lgcm_small_pcrel_hi2)
	add	a0, a0, s0
	lbu	a3, 0(a0)
	addi	a0, sp, 140
	addi	a1, sp, 76
	addi	a2, sp, 108
	call	gcm_small.aes_soft.soft.plane_words.PlaneWordsFourWords.rotated
	addi	a1, s1, 2
	sltu	a2, a1, s1
	add	a2, a2, s6
	addi	a3, sp, 140
	mv	a0, s4
	call	gcm_small.aes_soft.soft.plane_words.PlaneWordsFourWords.store
	addi	a2, s1, 1
	addi	a0, sp, 44
	mv	a1, s4
	mv	a3, s6
	call	gcm_small.aes_soft.soft.plane_words.PlaneWordsFourWords.read_back
	addi	a0, sp, 108
	addi	a1, sp, 44
	addi	a2, sp, 140
	call	gcm_small.aes_soft.soft.plane_words.PlaneWordsFourWords.substituted
	addi	a1, s1, 3
	sltu	a2, a1, s1
	add	a2, a2, s6
	addi	a3, sp, 108
	mv	a0, s4
	call	gcm_small.aes_soft.soft.plane_words.PlaneWordsFourWords.store
	sltiu	a0, s0, 5
	addi	s0, s0, 1
	seqz	a1, s5
	seqz	a2, s0
	add	s5, s5, a2
	and	a0, a0, a1
	bnez	a0, .Lgcm_small_BB3_7
# %bb.8:                                # %"aes_planes::expansion::expand_256::<#389ec886eeff95cb>.exit.i"
	addi	a0, sp, 12
	li	a2, 12
	mv	a1, s4
	li	a3, 0
	call	gcm_small.aes_soft.soft.plane_words.PlaneWordsFourWords.read_back
	addi	a0, sp, 140
	addi	a1, sp, 12
	addi	a2, sp, 108
	li	a3, 64
	call	gcm_small.aes_soft.soft.plane_words.PlaneWordsFourWords.rotated
	li	a1, 14
	addi	a3, sp, 140
	mv	a0, s4
	li	a2, 0
	call	gcm_small.aes_soft.soft.plane_words.PlaneWordsFourWords.store
.Lgcm_small_BB3_9:                                # %"aes_planes::expansion::expand::<#389ec886eeff95cb>.exit"
	srli	a0, s3, 2
	slli	a1, s2, 30
	or	a0, a0, a1
	srli	a2, s2, 2
	addi	a1, a0, 6
	sltu	a0, a1, a0
	add	a2, a2, a0
	mv	a0, s4
	lw	ra, 204(sp)                     # 4-byte Folded Reload
	lw	s0, 200(sp)                     # 4-byte Folded Reload
	lw	s1, 196(sp)                     # 4-byte Folded Reload
	lw	s2, 192(sp)                     # 4-byte Folded Reload
	lw	s3, 188(sp)                     # 4-byte Folded Reload
	lw	s4, 184(sp)                     # 4-byte Folded Reload
	lw	s5, 180(sp)                     # 4-byte Folded Reload
	lw	s6, 176(sp)                     # 4-byte Folded Reload
	lw	s7, 172(sp)                     # 4-byte Folded Reload
	addi	sp, sp, 208
	tail	gcm_small.aes_soft.soft.key_layout.store
.Lgcm_small_func_end3:
	.size	gcm_small.aes_narrow.word_room.expand_words, .Lgcm_small_func_end3-gcm_small.aes_narrow.word_room.expand_words
                                        # -- End function
	.section	.text.gcm_small.aes_soft.soft.plane_words.PlaneWordsFourWords.load,"ax",@progbits
	.p2align	1                               # -- Begin function aes_soft::soft::plane_words::PlaneWordsFourWords::load::<#6af90bfc14753d47>
	.type	gcm_small.aes_soft.soft.plane_words.PlaneWordsFourWords.load,@function
gcm_small.aes_soft.soft.plane_words.PlaneWordsFourWords.load: # @gcm_small.aes_soft.soft.plane_words.PlaneWordsFourWords.load
# %bb.0:                                # %start
	addi	sp, sp, -96
	sw	ra, 92(sp)                      # 4-byte Folded Spill
	sw	s0, 88(sp)                      # 4-byte Folded Spill
	sw	s1, 84(sp)                      # 4-byte Folded Spill
	sw	s2, 80(sp)                      # 4-byte Folded Spill
	sw	s3, 76(sp)                      # 4-byte Folded Spill
	mv	s2, a0
	add	a1, a1, a2
	lbu	a6, 0(a1)
	lbu	t1, 1(a1)
	lbu	t2, 2(a1)
	lbu	a4, 3(a1)
	lbu	a7, 4(a1)
	lbu	s0, 5(a1)
	lbu	s1, 6(a1)
	lbu	a0, 7(a1)
	lbu	t0, 8(a1)
	lbu	a5, 9(a1)
	lbu	a2, 10(a1)
	lbu	a3, 11(a1)
	lbu	t3, 12(a1)
	lbu	t4, 13(a1)
	lbu	t5, 14(a1)
	lbu	a1, 15(a1)
	slli	t6, a4, 24
	slli	t2, t2, 16
	slli	t1, t1, 8
	slli	s3, a0, 24
	slli	s1, s1, 16
	slli	s0, s0, 8
	slli	a3, a3, 24
	slli	a2, a2, 16
	slli	a5, a5, 8
	slli	a1, a1, 24
	slli	t5, t5, 16
	slli	t4, t4, 8
	or	a4, t1, a6
	or	a0, t2, t6
	or	s0, s0, a7
	or	s1, s1, s3
	or	a5, a5, t0
	or	a2, a2, a3
	or	a3, t4, t3
	or	a1, t5, a1
	or	a0, a0, a4
	or	s0, s0, s1
	or	a2, a2, a5
	or	a1, a1, a3
	sw	a0, 44(sp)
	sw	a0, 48(sp)
	sw	s0, 52(sp)
	sw	s0, 56(sp)
	sw	a2, 60(sp)
	sw	a2, 64(sp)
	sw	a1, 68(sp)
	sw	a1, 72(sp)
	addi	a0, sp, 12
	addi	a1, sp, 44
	call	gcm_small.aes_planes.soft.word.transpose.transpose
	addi	a1, sp, 12
	li	a2, 32
	mv	a0, s2
	call	memcpy
	lw	ra, 92(sp)                      # 4-byte Folded Reload
	lw	s0, 88(sp)                      # 4-byte Folded Reload
	lw	s1, 84(sp)                      # 4-byte Folded Reload
	lw	s2, 80(sp)                      # 4-byte Folded Reload
	lw	s3, 76(sp)                      # 4-byte Folded Reload
	addi	sp, sp, 96
	ret
.Lgcm_small_func_end4:
	.size	gcm_small.aes_soft.soft.plane_words.PlaneWordsFourWords.load, .Lgcm_small_func_end4-gcm_small.aes_soft.soft.plane_words.PlaneWordsFourWords.load
                                        # -- End function
	.section	.text.gcm_small.aes_planes.soft.word.transpose.transpose,"ax",@progbits
	.p2align	1                               # -- Begin function aes_planes::soft::word::transpose::transpose::<#9d6d04665546a1c3>
	.type	gcm_small.aes_planes.soft.word.transpose.transpose,@function
gcm_small.aes_planes.soft.word.transpose.transpose: # @gcm_small.aes_planes.soft.word.transpose.transpose
# %bb.0:                                # %start
	addi	sp, sp, -64
	sw	ra, 60(sp)                      # 4-byte Folded Spill
	sw	s0, 56(sp)                      # 4-byte Folded Spill
	sw	s1, 52(sp)                      # 4-byte Folded Spill
	sw	s2, 48(sp)                      # 4-byte Folded Spill
	sw	s3, 44(sp)                      # 4-byte Folded Spill
	sw	s4, 40(sp)                      # 4-byte Folded Spill
	sw	s5, 36(sp)                      # 4-byte Folded Spill
	sw	s6, 32(sp)                      # 4-byte Folded Spill
	sw	s7, 28(sp)                      # 4-byte Folded Spill
	sw	s8, 24(sp)                      # 4-byte Folded Spill
	sw	s9, 20(sp)                      # 4-byte Folded Spill
	sw	s10, 16(sp)                     # 4-byte Folded Spill
	sw	s11, 12(sp)                     # 4-byte Folded Spill
	lbu	a7, 0(a1)
	lbu	t1, 1(a1)
	lbu	t2, 2(a1)
	lbu	a5, 3(a1)
	lbu	s2, 4(a1)
	lbu	a3, 5(a1)
	lbu	s3, 6(a1)
	lbu	s5, 7(a1)
	lbu	s4, 8(a1)
	lbu	s9, 9(a1)
	lbu	ra, 10(a1)
	lbu	a2, 11(a1)
	lbu	s0, 12(a1)
	lbu	s1, 13(a1)
	lbu	a6, 14(a1)
	lbu	t0, 15(a1)
	lbu	s10, 16(a1)
	lbu	s11, 17(a1)
	lbu	a4, 18(a1)
	sw	a4, 4(sp)                       # 4-byte Folded Spill
	lbu	t3, 19(a1)
	lbu	a4, 20(a1)
	sw	a4, 8(sp)                       # 4-byte Folded Spill
	lbu	t4, 21(a1)
	lbu	t5, 22(a1)
	lbu	t6, 23(a1)
	slli	t1, t1, 8
	slli	t2, t2, 16
	slli	a5, a5, 24
	slli	a3, a3, 8
	or	a7, t1, a7
	or	t1, a5, t2
	or	t2, a3, s2
	lbu	s2, 24(a1)
	lbu	s6, 25(a1)
	lbu	s7, 26(a1)
	lbu	s8, 27(a1)
	slli	s3, s3, 16
	slli	s5, s5, 24
	slli	s9, s9, 8
	slli	ra, ra, 16
	slli	a2, a2, 24
	or	s3, s5, s3
	or	s4, s9, s4
	or	s5, a2, ra
	lbu	s9, 28(a1)
	lbu	ra, 29(a1)
	lbu	a3, 30(a1)
	lbu	a5, 31(a1)
	slli	a1, s1, 8
	or	a1, a1, s0
	lui	s0, 349525
	slli	a6, a6, 16
	slli	a4, t0, 24
	or	a4, a4, a6
	lui	a6, 209715
	slli	s11, s11, 8
	or	s10, s11, s10
	lui	a2, 61681
	addi	s1, s0, 1365
	addi	s0, a6, 819
	addi	s11, a2, -241
	lw	t0, 4(sp)                       # 4-byte Folded Reload
	slli	t0, t0, 16
	slli	t3, t3, 24
	slli	t4, t4, 8
	slli	t5, t5, 16
	slli	t6, t6, 24
	slli	s6, s6, 8
	slli	s7, s7, 16
	slli	s8, s8, 24
	slli	ra, ra, 8
	slli	a3, a3, 16
	slli	a5, a5, 24
	or	t0, t3, t0
	lw	a2, 8(sp)                       # 4-byte Folded Reload
	or	a6, t4, a2
	or	t4, t6, t5
	or	t3, s6, s2
	or	t6, s8, s7
	or	t5, ra, s9
	or	a3, a3, a5
	or	a7, t1, a7
	or	a5, s3, t2
	or	t1, s5, s4
	or	t2, a4, a1
	or	t0, t0, s10
	or	t4, t4, a6
	or	a6, t6, t3
	or	t3, a3, t5
	srli	a4, a7, 1
	srli	a1, t1, 1
	srli	a2, t0, 1
	srli	a3, a6, 1
	xor	a4, a4, a5
	xor	a1, t2, a1
	xor	a2, t4, a2
	xor	a3, t3, a3
	and	a4, a4, s1
	and	a1, a1, s1
	and	a2, a2, s1
	and	a3, a3, s1
	slli	s1, a4, 1
	xor	t5, a4, a5
	slli	a5, a1, 1
	xor	t6, a1, t2
	slli	a4, a2, 1
	xor	t2, a2, t4
	slli	a2, a3, 1
	xor	a3, a3, t3
	xor	t3, s1, a7
	xor	a5, a5, t1
	xor	t0, a4, t0
	xor	a7, a2, a6
	srli	s1, t5, 2
	srli	a4, t2, 2
	srli	a1, t3, 2
	srli	a2, t0, 2
	xor	s1, t6, s1
	xor	a4, a4, a3
	xor	a1, a1, a5
	xor	a2, a7, a2
	and	s1, s1, s0
	and	a4, a4, s0
	and	a1, a1, s0
	and	a2, a2, s0
	slli	s0, s1, 2
	xor	t1, s1, t6
	slli	s1, a4, 2
	xor	a3, a3, a4
	slli	a4, a1, 2
	xor	a6, a1, a5
	slli	a1, a2, 2
	xor	t6, a2, a7
	xor	a7, s0, t5
	xor	a2, s1, t2
	srli	a5, t1, 4
	xor	t4, a4, t3
	xor	t5, a1, t0
	srli	a1, a7, 4
	srli	a4, a6, 4
	xor	a5, a5, a3
	srli	s0, t4, 4
	xor	a1, a1, a2
	xor	a4, t6, a4
	and	a5, a5, s11
	xor	s0, t5, s0
	and	s1, a1, s11
	and	a4, a4, s11
	slli	a1, a5, 4
	xor	s2, a5, a3
	and	s0, s0, s11
	slli	t0, s1, 4
	xor	s4, s1, a2
	slli	t2, a4, 4
	xor	s3, a4, t6
	xor	a2, a1, t1
	srli	t1, s2, 24
	srli	t3, s2, 16
	srli	t6, s2, 8
	slli	a4, s0, 4
	xor	s0, s0, t5
	xor	a1, t0, a7
	xor	a5, t2, a6
	srli	a6, a2, 24
	srli	s1, a2, 16
	srli	a3, a2, 8
	srli	a7, s4, 24
	srli	t0, s4, 16
	srli	t2, s4, 8
	srli	t5, s3, 24
	srli	s5, s3, 16
	srli	s6, s3, 8
	xor	a4, a4, t4
	srli	t4, a1, 24
	srli	s7, a1, 16
	srli	s8, a1, 8
	srli	s9, a5, 24
	srli	s10, a5, 16
	srli	s11, a5, 8
	sb	a2, 12(a0)
	sb	a3, 13(a0)
	sb	s1, 14(a0)
	sb	a6, 15(a0)
	srli	a6, s0, 24
	srli	a3, s0, 16
	sb	s4, 20(a0)
	sb	t2, 21(a0)
	sb	t0, 22(a0)
	sb	a7, 23(a0)
	srli	s1, s0, 8
	sb	s3, 24(a0)
	sb	s6, 25(a0)
	sb	s5, 26(a0)
	sb	t5, 27(a0)
	srli	a2, a4, 24
	sb	a1, 4(a0)
	sb	s8, 5(a0)
	sb	s7, 6(a0)
	sb	t4, 7(a0)
	srli	a1, a4, 16
	sb	a5, 8(a0)
	sb	s11, 9(a0)
	sb	s10, 10(a0)
	sb	s9, 11(a0)
	srli	a5, a4, 8
	sb	s0, 16(a0)
	sb	s1, 17(a0)
	sb	a3, 18(a0)
	sb	a6, 19(a0)
	sb	a4, 0(a0)
	sb	a5, 1(a0)
	sb	a1, 2(a0)
	sb	a2, 3(a0)
	sb	s2, 28(a0)
	sb	t6, 29(a0)
	sb	t3, 30(a0)
	sb	t1, 31(a0)
	lw	ra, 60(sp)                      # 4-byte Folded Reload
	lw	s0, 56(sp)                      # 4-byte Folded Reload
	lw	s1, 52(sp)                      # 4-byte Folded Reload
	lw	s2, 48(sp)                      # 4-byte Folded Reload
	lw	s3, 44(sp)                      # 4-byte Folded Reload
	lw	s4, 40(sp)                      # 4-byte Folded Reload
	lw	s5, 36(sp)                      # 4-byte Folded Reload
	lw	s6, 32(sp)                      # 4-byte Folded Reload
	lw	s7, 28(sp)                      # 4-byte Folded Reload
	lw	s8, 24(sp)                      # 4-byte Folded Reload
	lw	s9, 20(sp)                      # 4-byte Folded Reload
	lw	s10, 16(sp)                     # 4-byte Folded Reload
	lw	s11, 12(sp)                     # 4-byte Folded Reload
	addi	sp, sp, 64
	ret
.Lgcm_small_func_end5:
	.size	gcm_small.aes_planes.soft.word.transpose.transpose, .Lgcm_small_func_end5-gcm_small.aes_planes.soft.word.transpose.transpose
                                        # -- End function
	.section	.text.gcm_small.aes_soft.soft.plane_words.PlaneWordsFourWords.read_back,"ax",@progbits
	.p2align	1                               # -- Begin function aes_soft::soft::plane_words::PlaneWordsFourWords::read_back::<#6af90bfc14753d47>
	.type	gcm_small.aes_soft.soft.plane_words.PlaneWordsFourWords.read_back,@function
gcm_small.aes_soft.soft.plane_words.PlaneWordsFourWords.read_back: # @gcm_small.aes_soft.soft.plane_words.PlaneWordsFourWords.read_back
# %bb.0:                                # %start
	addi	sp, sp, -48
	sw	ra, 44(sp)                      # 4-byte Folded Spill
	sw	s0, 40(sp)                      # 4-byte Folded Spill
	mv	s0, a0
	addi	a0, sp, 8
	call	gcm_small.aes_planes.soft.round_keys.round_key.1
	addi	a1, sp, 8
	li	a2, 32
	mv	a0, s0
	call	memcpy
	lw	ra, 44(sp)                      # 4-byte Folded Reload
	lw	s0, 40(sp)                      # 4-byte Folded Reload
	addi	sp, sp, 48
	ret
.Lgcm_small_func_end6:
	.size	gcm_small.aes_soft.soft.plane_words.PlaneWordsFourWords.read_back, .Lgcm_small_func_end6-gcm_small.aes_soft.soft.plane_words.PlaneWordsFourWords.read_back
                                        # -- End function
	.section	.text.gcm_small.aes_planes.soft.round_keys.round_key.1,"ax",@progbits
	.p2align	1                               # -- Begin function aes_planes::soft::round_keys::round_key::<#6af90bfc14753d47>
	.type	gcm_small.aes_planes.soft.round_keys.round_key.1,@function
gcm_small.aes_planes.soft.round_keys.round_key.1: # @gcm_small.aes_planes.soft.round_keys.round_key.1
# %bb.0:                                # %start
	addi	sp, sp, -64
	sw	ra, 60(sp)                      # 4-byte Folded Spill
	sw	s0, 56(sp)                      # 4-byte Folded Spill
	sw	s1, 52(sp)                      # 4-byte Folded Spill
	sw	s2, 48(sp)                      # 4-byte Folded Spill
	sw	s3, 44(sp)                      # 4-byte Folded Spill
	sw	s4, 40(sp)                      # 4-byte Folded Spill
	sw	s5, 36(sp)                      # 4-byte Folded Spill
	sw	s6, 32(sp)                      # 4-byte Folded Spill
	sw	s7, 28(sp)                      # 4-byte Folded Spill
	sw	s8, 24(sp)                      # 4-byte Folded Spill
	sw	s9, 20(sp)                      # 4-byte Folded Spill
	sw	s10, 16(sp)                     # 4-byte Folded Spill
	sw	s11, 12(sp)                     # 4-byte Folded Spill
	slli	a2, a2, 5
	add	a1, a1, a2
	lw	a4, 0(a1)
	lw	a2, 4(a1)
	lw	a3, 8(a1)
	lw	a5, 12(a1)
	lw	t1, 16(a1)
	lw	t0, 20(a1)
	lw	a7, 24(a1)
	lw	a6, 28(a1)
	srli	t2, a4, 24
	srli	t3, a4, 16
	srli	t6, a4, 8
	srli	t4, a2, 24
	srli	t5, a2, 16
	srli	s8, a2, 8
	srli	s2, a3, 24
	srli	s5, a3, 16
	srli	s11, a3, 8
	srli	s3, a5, 24
	srli	s4, a5, 16
	srli	s1, a5, 8
	srli	s6, t1, 24
	srli	s7, t1, 16
	srli	a1, t1, 8
	srli	s9, t0, 24
	srli	s10, t0, 16
	srli	s0, t0, 8
	srli	ra, a7, 24
	sb	a4, 0(a0)
	sb	t6, 1(a0)
	sb	t3, 2(a0)
	sb	t2, 3(a0)
	srli	a4, a7, 16
	sb	a2, 4(a0)
	sb	s8, 5(a0)
	sb	t5, 6(a0)
	sb	t4, 7(a0)
	srli	a2, a7, 8
	sb	a3, 8(a0)
	sb	s11, 9(a0)
	sb	s5, 10(a0)
	sb	s2, 11(a0)
	srli	a3, a6, 24
	sb	a5, 12(a0)
	sb	s1, 13(a0)
	sb	s4, 14(a0)
	sb	s3, 15(a0)
	srli	a5, a6, 16
	sb	t1, 16(a0)
	sb	a1, 17(a0)
	sb	s7, 18(a0)
	sb	s6, 19(a0)
	srli	a1, a6, 8
	sb	t0, 20(a0)
	sb	s0, 21(a0)
	sb	s10, 22(a0)
	sb	s9, 23(a0)
	sb	a7, 24(a0)
	sb	a2, 25(a0)
	sb	a4, 26(a0)
	sb	ra, 27(a0)
	sb	a6, 28(a0)
	sb	a1, 29(a0)
	sb	a5, 30(a0)
	sb	a3, 31(a0)
	lw	ra, 60(sp)                      # 4-byte Folded Reload
	lw	s0, 56(sp)                      # 4-byte Folded Reload
	lw	s1, 52(sp)                      # 4-byte Folded Reload
	lw	s2, 48(sp)                      # 4-byte Folded Reload
	lw	s3, 44(sp)                      # 4-byte Folded Reload
	lw	s4, 40(sp)                      # 4-byte Folded Reload
	lw	s5, 36(sp)                      # 4-byte Folded Reload
	lw	s6, 32(sp)                      # 4-byte Folded Reload
	lw	s7, 28(sp)                      # 4-byte Folded Reload
	lw	s8, 24(sp)                      # 4-byte Folded Reload
	lw	s9, 20(sp)                      # 4-byte Folded Reload
	lw	s10, 16(sp)                     # 4-byte Folded Reload
	lw	s11, 12(sp)                     # 4-byte Folded Reload
	addi	sp, sp, 64
	ret
.Lgcm_small_func_end7:
	.size	gcm_small.aes_planes.soft.round_keys.round_key.1, .Lgcm_small_func_end7-gcm_small.aes_planes.soft.round_keys.round_key.1
                                        # -- End function
	.section	.text.gcm_small.aes_soft.soft.plane_words.PlaneWordsFourWords.rotated,"ax",@progbits
	.p2align	1                               # -- Begin function aes_soft::soft::plane_words::PlaneWordsFourWords::rotated::<#6af90bfc14753d47>
	.type	gcm_small.aes_soft.soft.plane_words.PlaneWordsFourWords.rotated,@function
gcm_small.aes_soft.soft.plane_words.PlaneWordsFourWords.rotated: # @gcm_small.aes_soft.soft.plane_words.PlaneWordsFourWords.rotated
# %bb.0:                                # %start
	addi	sp, sp, -192
	sw	ra, 188(sp)                     # 4-byte Folded Spill
	sw	s0, 184(sp)                     # 4-byte Folded Spill
	sw	s1, 180(sp)                     # 4-byte Folded Spill
	sw	s2, 176(sp)                     # 4-byte Folded Spill
	sw	s3, 172(sp)                     # 4-byte Folded Spill
	sw	s4, 168(sp)                     # 4-byte Folded Spill
	sw	s5, 164(sp)                     # 4-byte Folded Spill
	sw	s6, 160(sp)                     # 4-byte Folded Spill
	sw	s7, 156(sp)                     # 4-byte Folded Spill
	sw	s8, 152(sp)                     # 4-byte Folded Spill
	sw	s9, 148(sp)                     # 4-byte Folded Spill
	sw	s10, 144(sp)                    # 4-byte Folded Spill
	sw	s11, 140(sp)                    # 4-byte Folded Spill
	sw	a3, 36(sp)                      # 4-byte Folded Spill
	sw	a0, 40(sp)                      # 4-byte Folded Spill
	lbu	a6, 28(a1)
	lbu	a7, 29(a1)
	lbu	t0, 30(a1)
	lbu	s2, 31(a1)
	lbu	t1, 24(a1)
	lbu	a5, 25(a1)
	lbu	s0, 26(a1)
	lbu	a0, 27(a1)
	lbu	s3, 20(a1)
	lbu	t3, 21(a1)
	lbu	t4, 22(a1)
	lbu	s8, 23(a1)
	lbu	t2, 16(a1)
	lbu	s1, 17(a1)
	lbu	t5, 18(a1)
	lbu	s4, 19(a1)
	lbu	t6, 12(a1)
	lbu	s5, 13(a1)
	lbu	s10, 14(a1)
	lbu	s11, 15(a1)
	lbu	ra, 8(a1)
	lbu	s9, 9(a1)
	lbu	s6, 10(a1)
	lbu	s7, 11(a1)
	slli	a7, a7, 8
	slli	t0, t0, 16
	slli	a4, s2, 24
	slli	a5, a5, 8
	slli	s0, s0, 16
	slli	a0, a0, 24
	or	a3, a7, a6
	sw	a3, 32(sp)                      # 4-byte Folded Spill
	or	a3, a4, t0
	sw	a3, 28(sp)                      # 4-byte Folded Spill
	or	a3, a5, t1
	sw	a3, 24(sp)                      # 4-byte Folded Spill
	or	a0, a0, s0
	sw	a0, 20(sp)                      # 4-byte Folded Spill
	lbu	a6, 4(a1)
	lbu	a4, 5(a1)
	lbu	a5, 6(a1)
	lbu	s0, 7(a1)
	slli	t3, t3, 8
	slli	t4, t4, 16
	slli	s8, s8, 24
	slli	s1, s1, 8
	or	a0, t3, s3
	sw	a0, 16(sp)                      # 4-byte Folded Spill
	or	a0, s8, t4
	sw	a0, 12(sp)                      # 4-byte Folded Spill
	or	a0, s1, t2
	sw	a0, 8(sp)                       # 4-byte Folded Spill
	lbu	s8, 0(a1)
	lbu	a0, 1(a1)
	lbu	a3, 2(a1)
	lbu	a1, 3(a1)
	slli	t5, t5, 16
	slli	s4, s4, 24
	slli	s5, s5, 8
	slli	s10, s10, 16
	slli	s11, s11, 24
	slli	s9, s9, 8
	or	s2, s4, t5
	or	s1, s5, t6
	sw	s1, 4(sp)                       # 4-byte Folded Spill
	or	t6, s11, s10
	or	s1, s9, ra
	sw	s1, 0(sp)                       # 4-byte Folded Spill
	lbu	s11, 0(a2)
	lbu	s10, 1(a2)
	lbu	ra, 2(a2)
	lbu	s1, 3(a2)
	slli	s6, s6, 16
	slli	s7, s7, 24
	slli	a4, a4, 8
	slli	a5, a5, 16
	slli	s0, s0, 24
	slli	a0, a0, 8
	or	s4, s7, s6
	or	s5, a4, a6
	or	s9, s0, a5
	or	s6, a0, s8
	lbu	a0, 4(a2)
	lbu	a6, 5(a2)
	lbu	a5, 6(a2)
	lbu	s0, 7(a2)
	slli	a3, a3, 16
	slli	a1, a1, 24
	slli	a4, s10, 8
	slli	ra, ra, 16
	slli	s1, s1, 24
	slli	a6, a6, 8
	or	s10, a1, a3
	or	s11, a4, s11
	or	t5, s1, ra
	or	ra, a6, a0
	lbu	a0, 8(a2)
	lbu	a1, 9(a2)
	lbu	a3, 10(a2)
	lbu	a4, 11(a2)
	slli	a5, a5, 16
	slli	s0, s0, 24
	slli	a1, a1, 8
	slli	a3, a3, 16
	slli	a4, a4, 24
	or	s7, s0, a5
	or	s8, a1, a0
	or	t4, a4, a3
	lbu	a0, 13(a2)
	lbu	a1, 12(a2)
	lbu	a4, 14(a2)
	lbu	a5, 15(a2)
	slli	a0, a0, 8
	or	t3, a0, a1
	slli	a4, a4, 16
	slli	a5, a5, 24
	or	t2, a5, a4
	lbu	a3, 17(a2)
	lbu	a1, 16(a2)
	lbu	a5, 18(a2)
	lbu	a0, 19(a2)
	slli	a3, a3, 8
	or	t1, a3, a1
	slli	a5, a5, 16
	slli	a0, a0, 24
	or	t0, a0, a5
	lbu	a3, 21(a2)
	lbu	a5, 20(a2)
	lbu	a1, 22(a2)
	lbu	a0, 23(a2)
	slli	a3, a3, 8
	or	a7, a3, a5
	slli	a1, a1, 16
	slli	a0, a0, 24
	or	a6, a0, a1
	lbu	a3, 25(a2)
	lbu	a5, 24(a2)
	lbu	a1, 26(a2)
	lbu	a0, 27(a2)
	slli	a3, a3, 8
	or	a4, a3, a5
	slli	a1, a1, 16
	slli	a0, a0, 24
	or	a3, a0, a1
	lbu	a1, 29(a2)
	lbu	a5, 28(a2)
	lbu	a0, 30(a2)
	lbu	a2, 31(a2)
	slli	a1, a1, 8
	or	a1, a1, a5
	slli	a0, a0, 16
	slli	a2, a2, 24
	or	a0, a0, a2
	lw	a2, 32(sp)                      # 4-byte Folded Reload
	lw	a5, 28(sp)                      # 4-byte Folded Reload
	or	a2, a2, a5
	lw	a5, 24(sp)                      # 4-byte Folded Reload
	lw	s3, 20(sp)                      # 4-byte Folded Reload
	or	a5, s3, a5
	lw	s0, 16(sp)                      # 4-byte Folded Reload
	lw	s1, 12(sp)                      # 4-byte Folded Reload
	or	s3, s1, s0
	lw	s0, 8(sp)                       # 4-byte Folded Reload
	or	s2, s2, s0
	lw	s0, 4(sp)                       # 4-byte Folded Reload
	or	t6, t6, s0
	lw	s0, 0(sp)                       # 4-byte Folded Reload
	or	s4, s4, s0
	or	s5, s9, s5
	or	s6, s10, s6
	or	t5, t5, s11
	or	s0, s7, ra
	or	s1, t4, s8
	or	t2, t2, t3
	or	t0, t0, t1
	or	a6, a6, a7
	or	a3, a3, a4
	or	a0, a0, a1
	sw	s2, 92(sp)
	sw	s3, 96(sp)
	sw	a5, 100(sp)
	sw	a2, 104(sp)
	sw	s6, 76(sp)
	sw	s5, 80(sp)
	sw	s4, 84(sp)
	sw	t6, 88(sp)
	sw	t5, 44(sp)
	sw	s0, 48(sp)
	sw	s1, 52(sp)
	sw	t2, 56(sp)
	sw	t0, 60(sp)
	sw	a6, 64(sp)
	sw	a3, 68(sp)
	sw	a0, 72(sp)
	addi	a0, sp, 44
	call	gcm_small.aes_soft.soft.plane_words.substitute
	addi	a0, sp, 44
	lw	a1, 36(sp)                      # 4-byte Folded Reload
	call	gcm_small.aes_planes.soft.key_columns.add_round_constant
	addi	a0, sp, 108
	addi	a1, sp, 76
	addi	a2, sp, 44
	li	a3, 14
	call	gcm_small.aes_planes.soft.key_columns.summed_columns
	addi	a1, sp, 108
	li	a2, 32
	lw	a0, 40(sp)                      # 4-byte Folded Reload
	call	memcpy
	lw	ra, 188(sp)                     # 4-byte Folded Reload
	lw	s0, 184(sp)                     # 4-byte Folded Reload
	lw	s1, 180(sp)                     # 4-byte Folded Reload
	lw	s2, 176(sp)                     # 4-byte Folded Reload
	lw	s3, 172(sp)                     # 4-byte Folded Reload
	lw	s4, 168(sp)                     # 4-byte Folded Reload
	lw	s5, 164(sp)                     # 4-byte Folded Reload
	lw	s6, 160(sp)                     # 4-byte Folded Reload
	lw	s7, 156(sp)                     # 4-byte Folded Reload
	lw	s8, 152(sp)                     # 4-byte Folded Reload
	lw	s9, 148(sp)                     # 4-byte Folded Reload
	lw	s10, 144(sp)                    # 4-byte Folded Reload
	lw	s11, 140(sp)                    # 4-byte Folded Reload
	addi	sp, sp, 192
	ret
.Lgcm_small_func_end8:
	.size	gcm_small.aes_soft.soft.plane_words.PlaneWordsFourWords.rotated, .Lgcm_small_func_end8-gcm_small.aes_soft.soft.plane_words.PlaneWordsFourWords.rotated
                                        # -- End function
	.section	.text.gcm_small.aes_soft.soft.plane_words.substitute,"ax",@progbits
	.p2align	1                               # -- Begin function aes_soft::soft::plane_words::substitute::<#6af90bfc14753d47>
	.type	gcm_small.aes_soft.soft.plane_words.substitute,@function
gcm_small.aes_soft.soft.plane_words.substitute: # @gcm_small.aes_soft.soft.plane_words.substitute
# %bb.0:                                # %start
	addi	sp, sp, -16
	sw	ra, 12(sp)                      # 4-byte Folded Spill
	sw	s0, 8(sp)                       # 4-byte Folded Spill
	mv	s0, a0
	call	gcm_small.aes_planes.soft.sbox.sub_bytes
	mv	a0, s0
	lw	ra, 12(sp)                      # 4-byte Folded Reload
	lw	s0, 8(sp)                       # 4-byte Folded Reload
	addi	sp, sp, 16
	tail	gcm_small.aes_planes.soft.sbox.sub_bytes_nots
.Lgcm_small_func_end9:
	.size	gcm_small.aes_soft.soft.plane_words.substitute, .Lgcm_small_func_end9-gcm_small.aes_soft.soft.plane_words.substitute
                                        # -- End function
	.section	.text.gcm_small.aes_planes.soft.sbox.sub_bytes,"ax",@progbits
	.p2align	1                               # -- Begin function aes_planes::soft::sbox::sub_bytes::<#6af90bfc14753d47>
	.type	gcm_small.aes_planes.soft.sbox.sub_bytes,@function
gcm_small.aes_planes.soft.sbox.sub_bytes: # @gcm_small.aes_planes.soft.sbox.sub_bytes
# %bb.0:                                # %start
	addi	sp, sp, -64
	sw	ra, 60(sp)                      # 4-byte Folded Spill
	sw	s0, 56(sp)                      # 4-byte Folded Spill
	sw	s1, 52(sp)                      # 4-byte Folded Spill
	sw	s2, 48(sp)                      # 4-byte Folded Spill
	sw	s3, 44(sp)                      # 4-byte Folded Spill
	sw	s4, 40(sp)                      # 4-byte Folded Spill
	sw	s5, 36(sp)                      # 4-byte Folded Spill
	sw	s6, 32(sp)                      # 4-byte Folded Spill
	sw	s7, 28(sp)                      # 4-byte Folded Spill
	sw	s8, 24(sp)                      # 4-byte Folded Spill
	sw	s9, 20(sp)                      # 4-byte Folded Spill
	sw	s10, 16(sp)                     # 4-byte Folded Spill
	sw	s11, 12(sp)                     # 4-byte Folded Spill
	lw	a2, 16(a0)
	lw	a3, 20(a0)
	lw	s1, 24(a0)
	lw	s0, 28(a0)
	lw	s5, 0(a0)
	lw	a4, 4(a0)
	lw	a5, 8(a0)
	lw	a1, 12(a0)
	xor	a3, a3, s1
	xor	t0, s0, a2
	xor	t6, s0, a4
	xor	a6, a2, a5
	xor	t3, s0, a5
	xor	s6, a3, s5
	xor	t5, t6, a6
	xor	s2, s6, a2
	xor	a1, t5, a1
	xor	t1, s6, s0
	xor	t2, s6, a4
	and	a7, s2, s5
	xor	s9, a1, a5
	xor	a1, a1, s1
	xor	t4, t2, t3
	and	s7, t2, s6
	xor	s11, a1, t0
	xor	s3, s9, s5
	and	a5, s9, t5
	xor	s8, s9, a3
	xor	a4, a7, t3
	and	s1, s11, t0
	xor	s10, s11, a3
	xor	a7, s11, s8
	xor	s4, s11, s5
	and	a3, s8, t3
	and	a2, s3, t4
	xor	a4, a4, s8
	xor	a1, a1, a5
	xor	a4, a4, a5
	and	a5, a7, a6
	xor	ra, a1, a2
	and	a2, s4, t1
	xor	a3, a3, s1
	xor	a5, a5, s1
	and	s1, s10, t6
	xor	a1, s10, s7
	xor	a4, a4, a3
	xor	a1, a1, s1
	xor	a2, s10, a2
	xor	s0, s0, s1
	xor	s1, ra, a5
	xor	a1, a1, t6
	xor	a2, a2, s0
	xor	a1, a1, a5
	xor	a2, a2, a3
	xor	s7, s1, a4
	and	s1, s1, a1
	xor	a5, a1, a2
	xor	s0, s1, a4
	xor	a3, s1, a2
	and	a5, a5, s0
	and	s0, a3, s7
	xor	a4, a4, s0
	xor	s1, s1, a5
	xor	a5, a5, a2
	and	a2, a2, s1
	xor	a3, a3, a2
	xor	a2, a2, a1
	and	a3, a3, a4
	xor	a3, a3, s7
	and	s2, a5, s2
	and	s0, a5, s5
	and	s1, a2, s9
	and	t5, a2, t5
	xor	a2, a2, a5
	xor	a5, a5, a4
	and	t1, a4, t1
	and	s4, a4, s4
	and	a1, a2, s3
	and	t4, a2, t4
	xor	a2, a2, a3
	xor	a4, a4, a3
	and	s3, a3, s6
	and	s5, a3, t2
	xor	s7, s1, s0
	xor	s6, s1, a1
	and	s1, a4, s10
	and	t6, a4, t6
	and	t2, a5, s11
	and	a3, a5, t0
	and	t0, a2, s8
	xor	a5, a5, a2
	and	a2, a2, t3
	and	a1, a5, a6
	and	a5, a5, a7
	xor	a4, s7, s4
	xor	s0, s1, s3
	xor	t3, a4, s1
	xor	s1, t0, s7
	xor	a7, a2, a3
	xor	a1, a1, a3
	xor	a5, a5, s0
	xor	a6, s6, s0
	xor	s0, s5, t3
	xor	a3, a1, t4
	xor	a1, a1, s0
	xor	s1, s1, t6
	xor	s1, s1, a5
	xor	a5, a5, t2
	xor	s0, s1, t1
	xor	s1, s1, a1
	xor	a1, a1, t6
	xor	a2, a3, t5
	xor	a3, a3, s2
	xor	a4, a7, a5
	xor	a3, a3, s0
	xor	a4, a4, s0
	sw	a1, 0(a0)
	sw	s1, 4(a0)
	xor	a1, a6, a2
	xor	s1, a1, t3
	sw	a3, 8(a0)
	sw	s1, 12(a0)
	xor	a2, a2, a5
	xor	a5, a5, a1
	sw	a1, 16(a0)
	sw	a4, 20(a0)
	sw	a5, 24(a0)
	sw	a2, 28(a0)
	lw	ra, 60(sp)                      # 4-byte Folded Reload
	lw	s0, 56(sp)                      # 4-byte Folded Reload
	lw	s1, 52(sp)                      # 4-byte Folded Reload
	lw	s2, 48(sp)                      # 4-byte Folded Reload
	lw	s3, 44(sp)                      # 4-byte Folded Reload
	lw	s4, 40(sp)                      # 4-byte Folded Reload
	lw	s5, 36(sp)                      # 4-byte Folded Reload
	lw	s6, 32(sp)                      # 4-byte Folded Reload
	lw	s7, 28(sp)                      # 4-byte Folded Reload
	lw	s8, 24(sp)                      # 4-byte Folded Reload
	lw	s9, 20(sp)                      # 4-byte Folded Reload
	lw	s10, 16(sp)                     # 4-byte Folded Reload
	lw	s11, 12(sp)                     # 4-byte Folded Reload
	addi	sp, sp, 64
	ret
.Lgcm_small_func_end10:
	.size	gcm_small.aes_planes.soft.sbox.sub_bytes, .Lgcm_small_func_end10-gcm_small.aes_planes.soft.sbox.sub_bytes
                                        # -- End function
	.section	.text.gcm_small.aes_planes.soft.sbox.sub_bytes_nots,"ax",@progbits
	.p2align	1                               # -- Begin function aes_planes::soft::sbox::sub_bytes_nots::<#6af90bfc14753d47>
	.type	gcm_small.aes_planes.soft.sbox.sub_bytes_nots,@function
gcm_small.aes_planes.soft.sbox.sub_bytes_nots: # @gcm_small.aes_planes.soft.sbox.sub_bytes_nots
# %bb.0:                                # %start
	lw	a1, 0(a0)
	lw	a2, 4(a0)
	lw	a3, 20(a0)
	lw	a4, 24(a0)
	not	a1, a1
	not	a2, a2
	not	a3, a3
	not	a4, a4
	sw	a1, 0(a0)
	sw	a2, 4(a0)
	sw	a3, 20(a0)
	sw	a4, 24(a0)
	ret
.Lgcm_small_func_end11:
	.size	gcm_small.aes_planes.soft.sbox.sub_bytes_nots, .Lgcm_small_func_end11-gcm_small.aes_planes.soft.sbox.sub_bytes_nots
                                        # -- End function
	.section	.text.gcm_small.aes_planes.soft.key_columns.add_round_constant,"ax",@progbits
	.p2align	1                               # -- Begin function aes_planes::soft::key_columns::add_round_constant::<#6af90bfc14753d47>
	.type	gcm_small.aes_planes.soft.key_columns.add_round_constant,@function
gcm_small.aes_planes.soft.key_columns.add_round_constant: # @gcm_small.aes_planes.soft.key_columns.add_round_constant
# %bb.0:                                # %start
	addi	sp, sp, -32
	sw	s0, 28(sp)                      # 4-byte Folded Spill
	sw	s1, 24(sp)                      # 4-byte Folded Spill
	sw	s2, 20(sp)                      # 4-byte Folded Spill
	sw	s3, 16(sp)                      # 4-byte Folded Spill
	sw	s4, 12(sp)                      # 4-byte Folded Spill
	sw	s5, 8(sp)                       # 4-byte Folded Spill
	sw	s6, 4(sp)                       # 4-byte Folded Spill
	slli	a7, a1, 31
	slli	a6, a1, 7
	slli	t0, a1, 5
	slli	t1, a1, 4
	slli	t6, a1, 3
	slli	s2, a1, 2
	slli	s3, a1, 1
	andi	a5, a1, 64
	srli	s4, a1, 1
	lw	t2, 0(a0)
	lw	t3, 4(a0)
	lw	t4, 8(a0)
	lw	t5, 12(a0)
	srli	s5, a7, 25
	andi	a2, t0, 64
	andi	s0, t1, 64
	andi	s1, t6, 64
	andi	a4, s2, 64
	andi	a1, s3, 64
	slli	a7, a5, 8
	slli	a5, a5, 9
	andi	a3, s4, 64
	or	a6, a6, s5
	slli	t0, a2, 8
	slli	a2, a2, 9
	slli	t1, s0, 8
	slli	s0, s0, 9
	slli	t6, s1, 8
	slli	s1, s1, 9
	or	a7, a5, a7
	slli	a5, a4, 8
	slli	a4, a4, 9
	or	t0, a2, t0
	slli	a2, a1, 8
	slli	a1, a1, 9
	or	t1, s0, t1
	slli	s0, a3, 8
	slli	a3, a3, 9
	or	s4, s1, t6
	or	s3, a4, a5
	or	s2, a1, a2
	or	t6, a3, s0
	lw	s5, 16(a0)
	lw	a5, 20(a0)
	lw	s0, 24(a0)
	lw	s6, 28(a0)
	andi	a1, a6, 192
	slli	a1, a1, 8
	xor	a4, t3, t0
	xor	s1, t4, t1
	xor	a2, t5, s4
	xor	a3, s5, s3
	xor	a5, a5, s2
	xor	s0, s0, a7
	xor	a6, s6, t6
	xor	a1, t2, a1
	sw	a1, 0(a0)
	sw	a4, 4(a0)
	sw	s1, 8(a0)
	sw	a2, 12(a0)
	sw	a3, 16(a0)
	sw	a5, 20(a0)
	sw	s0, 24(a0)
	sw	a6, 28(a0)
	lw	s0, 28(sp)                      # 4-byte Folded Reload
	lw	s1, 24(sp)                      # 4-byte Folded Reload
	lw	s2, 20(sp)                      # 4-byte Folded Reload
	lw	s3, 16(sp)                      # 4-byte Folded Reload
	lw	s4, 12(sp)                      # 4-byte Folded Reload
	lw	s5, 8(sp)                       # 4-byte Folded Reload
	lw	s6, 4(sp)                       # 4-byte Folded Reload
	addi	sp, sp, 32
	ret
.Lgcm_small_func_end12:
	.size	gcm_small.aes_planes.soft.key_columns.add_round_constant, .Lgcm_small_func_end12-gcm_small.aes_planes.soft.key_columns.add_round_constant
                                        # -- End function
	.section	.text.gcm_small.aes_planes.soft.key_columns.summed_columns,"ax",@progbits
	.p2align	1                               # -- Begin function aes_planes::soft::key_columns::summed_columns::<#6af90bfc14753d47>
	.type	gcm_small.aes_planes.soft.key_columns.summed_columns,@function
gcm_small.aes_planes.soft.key_columns.summed_columns: # @gcm_small.aes_planes.soft.key_columns.summed_columns
# %bb.0:                                # %start
	addi	sp, sp, -64
	sw	ra, 60(sp)                      # 4-byte Folded Spill
	sw	s0, 56(sp)                      # 4-byte Folded Spill
	sw	s1, 52(sp)                      # 4-byte Folded Spill
	sw	s2, 48(sp)                      # 4-byte Folded Spill
	sw	s3, 44(sp)                      # 4-byte Folded Spill
	sw	s4, 40(sp)                      # 4-byte Folded Spill
	sw	s5, 36(sp)                      # 4-byte Folded Spill
	sw	s6, 32(sp)                      # 4-byte Folded Spill
	sw	s7, 28(sp)                      # 4-byte Folded Spill
	sw	s8, 24(sp)                      # 4-byte Folded Spill
	sw	s9, 20(sp)                      # 4-byte Folded Spill
	sw	s10, 16(sp)                     # 4-byte Folded Spill
	sw	s11, 12(sp)                     # 4-byte Folded Spill
	neg	a4, a3
	lui	t0, 1036240
	lui	t2, 986895
	lw	a7, 0(a1)
	lw	t1, 4(a1)
	lw	t3, 8(a1)
	lw	t4, 12(a1)
	lw	s3, 0(a2)
	lw	s2, 4(a2)
	lw	t6, 8(a2)
	lw	t5, 12(a2)
	lw	s4, 16(a2)
	lw	a5, 20(a2)
	lw	s0, 24(a2)
	lw	a2, 28(a2)
	sll	s5, s3, a4
	srl	s6, s3, a3
	sll	s3, s2, a4
	srl	s7, s2, a3
	sll	s2, t6, a4
	srl	s8, t6, a3
	sll	t6, t5, a4
	srl	s9, t5, a3
	sll	t5, s4, a4
	srl	s10, s4, a3
	sll	s4, a5, a4
	srl	a5, a5, a3
	sll	s1, s0, a4
	srl	s0, s0, a3
	sll	a4, a2, a4
	srl	a2, a2, a3
	lw	a3, 16(a1)
	lw	s11, 20(a1)
	lw	ra, 24(a1)
	lw	a6, 28(a1)
	lui	a1, 12336
	addi	a1, a1, 771
	addi	t0, t0, -772
	addi	t2, t2, 240
	or	s5, s6, s5
	or	s3, s7, s3
	or	s2, s8, s2
	or	t6, s9, t6
	or	t5, s10, t5
	or	a5, a5, s4
	or	s0, s0, s1
	or	a2, a2, a4
	and	a4, s5, a1
	and	s1, s3, a1
	and	s2, s2, a1
	and	t6, t6, a1
	and	t5, t5, a1
	and	a5, a5, a1
	and	s0, s0, a1
	and	s3, a2, a1
	xor	a2, a4, a7
	xor	a4, s1, t1
	xor	s1, s2, t3
	xor	a1, t6, t4
	xor	a3, t5, a3
	xor	a5, a5, s11
	xor	s0, s0, ra
	xor	a6, s3, a6
	slli	a7, a2, 2
	slli	t1, a4, 2
	slli	t3, s1, 2
	slli	t4, a1, 2
	slli	t5, a3, 2
	slli	t6, a5, 2
	slli	s2, s0, 2
	slli	s3, a6, 2
	and	a7, a7, t0
	and	t1, t1, t0
	and	t3, t3, t0
	and	t4, t4, t0
	and	t5, t5, t0
	and	t6, t6, t0
	and	s2, s2, t0
	and	t0, s3, t0
	xor	a2, a7, a2
	xor	a4, t1, a4
	xor	s1, t3, s1
	xor	a1, t4, a1
	xor	a3, t5, a3
	xor	a5, t6, a5
	xor	s0, s2, s0
	xor	a6, t0, a6
	slli	a7, a2, 4
	slli	t0, a4, 4
	slli	t1, s1, 4
	slli	t3, a1, 4
	slli	t4, a3, 4
	slli	t5, a5, 4
	slli	t6, s0, 4
	slli	s2, a6, 4
	and	a7, a7, t2
	and	t0, t0, t2
	and	t1, t1, t2
	and	t3, t3, t2
	and	t4, t4, t2
	and	t5, t5, t2
	and	t6, t6, t2
	and	t2, s2, t2
	xor	a2, a7, a2
	xor	a4, t0, a4
	xor	s1, t1, s1
	xor	a1, t3, a1
	xor	a3, t4, a3
	xor	a5, t5, a5
	xor	a7, t6, s0
	xor	a6, t2, a6
	srli	t2, a2, 8
	sb	a2, 0(a0)
	srli	t0, a2, 24
	srli	t6, a2, 16
	srli	t1, a4, 24
	srli	t3, a4, 16
	srli	s7, a4, 8
	srli	t4, s1, 24
	srli	t5, s1, 16
	srli	s4, s1, 8
	srli	s2, a1, 24
	srli	s3, a1, 16
	srli	s9, a1, 8
	srli	s5, a3, 24
	srli	s6, a3, 16
	srli	ra, a3, 8
	srli	s8, a5, 24
	srli	s10, a5, 16
	srli	a2, a5, 8
	srli	s11, a7, 24
	srli	s0, a7, 16
	sb	t2, 1(a0)
	sb	t6, 2(a0)
	sb	t0, 3(a0)
	srli	t0, a7, 8
	sb	a4, 4(a0)
	sb	s7, 5(a0)
	sb	t3, 6(a0)
	sb	t1, 7(a0)
	srli	a4, a6, 24
	sb	s1, 8(a0)
	sb	s4, 9(a0)
	sb	t5, 10(a0)
	sb	t4, 11(a0)
	srli	s1, a6, 16
	sb	a1, 12(a0)
	sb	s9, 13(a0)
	sb	s3, 14(a0)
	sb	s2, 15(a0)
	srli	a1, a6, 8
	sb	a3, 16(a0)
	sb	ra, 17(a0)
	sb	s6, 18(a0)
	sb	s5, 19(a0)
	sb	a5, 20(a0)
	sb	a2, 21(a0)
	sb	s10, 22(a0)
	sb	s8, 23(a0)
	sb	a7, 24(a0)
	sb	t0, 25(a0)
	sb	s0, 26(a0)
	sb	s11, 27(a0)
	sb	a6, 28(a0)
	sb	a1, 29(a0)
	sb	s1, 30(a0)
	sb	a4, 31(a0)
	lw	ra, 60(sp)                      # 4-byte Folded Reload
	lw	s0, 56(sp)                      # 4-byte Folded Reload
	lw	s1, 52(sp)                      # 4-byte Folded Reload
	lw	s2, 48(sp)                      # 4-byte Folded Reload
	lw	s3, 44(sp)                      # 4-byte Folded Reload
	lw	s4, 40(sp)                      # 4-byte Folded Reload
	lw	s5, 36(sp)                      # 4-byte Folded Reload
	lw	s6, 32(sp)                      # 4-byte Folded Reload
	lw	s7, 28(sp)                      # 4-byte Folded Reload
	lw	s8, 24(sp)                      # 4-byte Folded Reload
	lw	s9, 20(sp)                      # 4-byte Folded Reload
	lw	s10, 16(sp)                     # 4-byte Folded Reload
	lw	s11, 12(sp)                     # 4-byte Folded Reload
	addi	sp, sp, 64
	ret
.Lgcm_small_func_end13:
	.size	gcm_small.aes_planes.soft.key_columns.summed_columns, .Lgcm_small_func_end13-gcm_small.aes_planes.soft.key_columns.summed_columns
                                        # -- End function
	.section	.text.gcm_small.aes_soft.soft.plane_words.PlaneWordsFourWords.store,"ax",@progbits
	.p2align	1                               # -- Begin function aes_soft::soft::plane_words::PlaneWordsFourWords::store::<#6af90bfc14753d47>
	.type	gcm_small.aes_soft.soft.plane_words.PlaneWordsFourWords.store,@function
gcm_small.aes_soft.soft.plane_words.PlaneWordsFourWords.store: # @gcm_small.aes_soft.soft.plane_words.PlaneWordsFourWords.store
# %bb.0:                                # %start
	addi	sp, sp, -80
	sw	ra, 76(sp)                      # 4-byte Folded Spill
	sw	s0, 72(sp)                      # 4-byte Folded Spill
	sw	s1, 68(sp)                      # 4-byte Folded Spill
	sw	s2, 64(sp)                      # 4-byte Folded Spill
	sw	s3, 60(sp)                      # 4-byte Folded Spill
	sw	s4, 56(sp)                      # 4-byte Folded Spill
	sw	s5, 52(sp)                      # 4-byte Folded Spill
	sw	s6, 48(sp)                      # 4-byte Folded Spill
	sw	s7, 44(sp)                      # 4-byte Folded Spill
	sw	s8, 40(sp)                      # 4-byte Folded Spill
	sw	s9, 36(sp)                      # 4-byte Folded Spill
	lbu	a6, 28(a3)
	lbu	a7, 29(a3)
	lbu	t0, 30(a3)
	lbu	t1, 31(a3)
	lbu	s2, 24(a3)
	lbu	a5, 25(a3)
	lbu	t2, 26(a3)
	lbu	t3, 27(a3)
	lbu	t4, 20(a3)
	lbu	t5, 21(a3)
	lbu	t6, 22(a3)
	lbu	s5, 23(a3)
	lbu	s6, 16(a3)
	lbu	a4, 17(a3)
	lbu	s3, 18(a3)
	lbu	s4, 19(a3)
	slli	a7, a7, 8
	slli	t0, t0, 16
	slli	t1, t1, 24
	slli	a5, a5, 8
	or	a6, a7, a6
	or	t0, t1, t0
	or	a7, a5, s2
	lbu	s2, 12(a3)
	lbu	s7, 13(a3)
	lbu	s8, 14(a3)
	lbu	s9, 15(a3)
	slli	t2, t2, 16
	slli	t3, t3, 24
	slli	t5, t5, 8
	slli	t6, t6, 16
	slli	s5, s5, 24
	slli	a4, a4, 8
	or	t1, t3, t2
	or	t2, t5, t4
	or	t4, s5, t6
	or	t3, a4, s6
	lbu	a4, 8(a3)
	lbu	a5, 9(a3)
	lbu	s5, 10(a3)
	lbu	s6, 11(a3)
	slli	s3, s3, 16
	slli	s4, s4, 24
	slli	s7, s7, 8
	slli	s8, s8, 16
	slli	s9, s9, 24
	slli	a5, a5, 8
	or	t5, s4, s3
	or	t6, s7, s2
	or	s2, s9, s8
	or	s3, a5, a4
	lbu	a5, 4(a3)
	lbu	a4, 5(a3)
	lbu	s0, 6(a3)
	lbu	s1, 7(a3)
	slli	s5, s5, 16
	slli	s6, s6, 24
	slli	a4, a4, 8
	slli	s0, s0, 16
	slli	s1, s1, 24
	or	s4, s6, s5
	or	s5, a4, a5
	or	s6, s1, s0
	lbu	a5, 1(a3)
	lbu	s1, 0(a3)
	lbu	a4, 2(a3)
	lbu	a3, 3(a3)
	slli	a5, a5, 8
	or	s7, a5, s1
	slli	a4, a4, 16
	slli	a3, a3, 24
	or	a3, a3, a4
	or	a6, t0, a6
	or	s1, t1, a7
	or	s0, t4, t2
	or	a4, t5, t3
	or	a7, s2, t6
	or	t0, s4, s3
	or	a5, s6, s5
	or	a3, a3, s7
	sw	a4, 20(sp)
	sw	s0, 24(sp)
	sw	s1, 28(sp)
	sw	a6, 32(sp)
	sw	a3, 4(sp)
	sw	a5, 8(sp)
	sw	t0, 12(sp)
	sw	a7, 16(sp)
	addi	a3, sp, 4
	call	gcm_small.aes_planes.soft.round_keys.store_round_key
	lw	ra, 76(sp)                      # 4-byte Folded Reload
	lw	s0, 72(sp)                      # 4-byte Folded Reload
	lw	s1, 68(sp)                      # 4-byte Folded Reload
	lw	s2, 64(sp)                      # 4-byte Folded Reload
	lw	s3, 60(sp)                      # 4-byte Folded Reload
	lw	s4, 56(sp)                      # 4-byte Folded Reload
	lw	s5, 52(sp)                      # 4-byte Folded Reload
	lw	s6, 48(sp)                      # 4-byte Folded Reload
	lw	s7, 44(sp)                      # 4-byte Folded Reload
	lw	s8, 40(sp)                      # 4-byte Folded Reload
	lw	s9, 36(sp)                      # 4-byte Folded Reload
	addi	sp, sp, 80
	ret
.Lgcm_small_func_end14:
	.size	gcm_small.aes_soft.soft.plane_words.PlaneWordsFourWords.store, .Lgcm_small_func_end14-gcm_small.aes_soft.soft.plane_words.PlaneWordsFourWords.store
                                        # -- End function
	.section	.text.gcm_small.aes_planes.soft.round_keys.store_round_key,"ax",@progbits
	.p2align	1                               # -- Begin function aes_planes::soft::round_keys::store_round_key::<#6af90bfc14753d47>
	.type	gcm_small.aes_planes.soft.round_keys.store_round_key,@function
gcm_small.aes_planes.soft.round_keys.store_round_key: # @gcm_small.aes_planes.soft.round_keys.store_round_key
# %bb.0:                                # %start
	lw	a2, 0(a3)
	slli	a1, a1, 5
	add	a0, a0, a1
	sw	a2, 0(a0)
	lw	a1, 4(a3)
	sw	a1, 4(a0)
	lw	a1, 8(a3)
	sw	a1, 8(a0)
	lw	a1, 12(a3)
	sw	a1, 12(a0)
	lw	a1, 16(a3)
	sw	a1, 16(a0)
	lw	a1, 20(a3)
	sw	a1, 20(a0)
	lw	a1, 24(a3)
	sw	a1, 24(a0)
	lw	a1, 28(a3)
	sw	a1, 28(a0)
	ret
.Lgcm_small_func_end15:
	.size	gcm_small.aes_planes.soft.round_keys.store_round_key, .Lgcm_small_func_end15-gcm_small.aes_planes.soft.round_keys.store_round_key
                                        # -- End function
	.section	.text.gcm_small.aes_soft.soft.plane_words.PlaneWordsFourWords.straddled,"ax",@progbits
	.p2align	1                               # -- Begin function aes_soft::soft::plane_words::PlaneWordsFourWords::straddled::<#6af90bfc14753d47>
	.type	gcm_small.aes_soft.soft.plane_words.PlaneWordsFourWords.straddled,@function
gcm_small.aes_soft.soft.plane_words.PlaneWordsFourWords.straddled: # @gcm_small.aes_soft.soft.plane_words.PlaneWordsFourWords.straddled
# %bb.0:                                # %start
	addi	sp, sp, -192
	sw	ra, 188(sp)                     # 4-byte Folded Spill
	sw	s0, 184(sp)                     # 4-byte Folded Spill
	sw	s1, 180(sp)                     # 4-byte Folded Spill
	sw	s2, 176(sp)                     # 4-byte Folded Spill
	sw	s3, 172(sp)                     # 4-byte Folded Spill
	sw	s4, 168(sp)                     # 4-byte Folded Spill
	sw	s5, 164(sp)                     # 4-byte Folded Spill
	sw	s6, 160(sp)                     # 4-byte Folded Spill
	sw	s7, 156(sp)                     # 4-byte Folded Spill
	sw	s8, 152(sp)                     # 4-byte Folded Spill
	sw	s9, 148(sp)                     # 4-byte Folded Spill
	sw	s10, 144(sp)                    # 4-byte Folded Spill
	sw	s11, 140(sp)                    # 4-byte Folded Spill
	sw	a0, 40(sp)                      # 4-byte Folded Spill
	lbu	a6, 28(a1)
	lbu	a7, 29(a1)
	lbu	t0, 30(a1)
	lbu	s10, 31(a1)
	lbu	s1, 24(a1)
	lbu	a4, 25(a1)
	lbu	t1, 26(a1)
	lbu	t3, 27(a1)
	lbu	t2, 20(a1)
	lbu	s9, 21(a1)
	lbu	s11, 22(a1)
	lbu	a5, 23(a1)
	lbu	t4, 16(a1)
	lbu	t5, 17(a1)
	lbu	t6, 18(a1)
	lbu	s7, 19(a1)
	lbu	s3, 12(a1)
	lbu	ra, 13(a1)
	lbu	a0, 14(a1)
	lbu	a3, 15(a1)
	lbu	s4, 8(a1)
	lbu	s5, 9(a1)
	lbu	s6, 10(a1)
	lbu	s8, 11(a1)
	slli	a7, a7, 8
	slli	t0, t0, 16
	slli	s10, s10, 24
	slli	a4, a4, 8
	or	s0, a7, a6
	sw	s0, 36(sp)                      # 4-byte Folded Spill
	or	s0, s10, t0
	sw	s0, 32(sp)                      # 4-byte Folded Spill
	or	a4, a4, s1
	sw	a4, 28(sp)                      # 4-byte Folded Spill
	lbu	s10, 4(a1)
	lbu	s1, 5(a1)
	lbu	s0, 6(a1)
	lbu	a6, 7(a1)
	slli	t1, t1, 16
	slli	t3, t3, 24
	slli	s9, s9, 8
	slli	s11, s11, 16
	slli	a5, a5, 24
	or	a4, t3, t1
	sw	a4, 24(sp)                      # 4-byte Folded Spill
	or	a4, s9, t2
	sw	a4, 20(sp)                      # 4-byte Folded Spill
	or	a4, a5, s11
	sw	a4, 16(sp)                      # 4-byte Folded Spill
	lbu	s9, 0(a1)
	lbu	s11, 1(a1)
	lbu	a7, 2(a1)
	lbu	a5, 3(a1)
	slli	t5, t5, 8
	slli	t6, t6, 16
	slli	s7, s7, 24
	slli	ra, ra, 8
	slli	a0, a0, 16
	slli	a3, a3, 24
	or	a1, t5, t4
	sw	a1, 12(sp)                      # 4-byte Folded Spill
	or	s2, s7, t6
	or	a1, ra, s3
	sw	a1, 8(sp)                       # 4-byte Folded Spill
	or	a0, a0, a3
	sw	a0, 4(sp)                       # 4-byte Folded Spill
	lbu	ra, 0(a2)
	lbu	a4, 1(a2)
	lbu	a3, 2(a2)
	lbu	a1, 3(a2)
	slli	s5, s5, 8
	slli	s6, s6, 16
	slli	s8, s8, 24
	slli	s1, s1, 8
	slli	s0, s0, 16
	slli	a6, a6, 24
	or	a0, s5, s4
	sw	a0, 0(sp)                       # 4-byte Folded Spill
	or	s3, s8, s6
	or	s6, s1, s10
	or	s4, a6, s0
	lbu	a6, 4(a2)
	lbu	s0, 5(a2)
	lbu	s1, 6(a2)
	lbu	a0, 7(a2)
	slli	s11, s11, 8
	slli	a7, a7, 16
	slli	a5, a5, 24
	slli	a4, a4, 8
	slli	a3, a3, 16
	slli	a1, a1, 24
	or	s5, s11, s9
	or	s9, a5, a7
	or	s10, a4, ra
	or	s11, a1, a3
	lbu	a1, 8(a2)
	lbu	a3, 9(a2)
	lbu	a4, 10(a2)
	lbu	a5, 11(a2)
	slli	s0, s0, 8
	slli	s1, s1, 16
	slli	a0, a0, 24
	slli	a3, a3, 8
	slli	a4, a4, 16
	slli	a5, a5, 24
	or	ra, s0, a6
	or	t5, a0, s1
	or	s8, a3, a1
	or	t3, a5, a4
	lbu	a3, 13(a2)
	lbu	a4, 14(a2)
	lbu	a5, 15(a2)
	lbu	s0, 12(a2)
	slli	a3, a3, 8
	slli	a4, a4, 16
	slli	a5, a5, 24
	or	s7, a3, s0
	or	t1, a5, a4
	lbu	a5, 17(a2)
	lbu	s0, 16(a2)
	lbu	a1, 18(a2)
	lbu	s1, 19(a2)
	slli	a5, a5, 8
	or	t4, a5, s0
	slli	a1, a1, 16
	slli	s0, s1, 24
	or	t2, s0, a1
	lbu	a3, 21(a2)
	lbu	s1, 20(a2)
	lbu	a1, 22(a2)
	lbu	a0, 23(a2)
	slli	a3, a3, 8
	or	t0, a3, s1
	slli	a1, a1, 16
	slli	a0, a0, 24
	or	a6, a0, a1
	lbu	a3, 25(a2)
	lbu	s1, 24(a2)
	lbu	a1, 26(a2)
	lbu	a0, 27(a2)
	slli	a3, a3, 8
	or	a7, a3, s1
	slli	a1, a1, 16
	slli	a0, a0, 24
	or	a4, a0, a1
	lbu	a1, 29(a2)
	lbu	s1, 28(a2)
	lbu	a0, 30(a2)
	lbu	a2, 31(a2)
	slli	a1, a1, 8
	or	a1, a1, s1
	slli	a0, a0, 16
	slli	a2, a2, 24
	or	a2, a2, a0
	lw	a0, 36(sp)                      # 4-byte Folded Reload
	lw	a3, 32(sp)                      # 4-byte Folded Reload
	or	a3, a3, a0
	lw	a0, 28(sp)                      # 4-byte Folded Reload
	lw	s1, 24(sp)                      # 4-byte Folded Reload
	or	s1, s1, a0
	lw	a0, 20(sp)                      # 4-byte Folded Reload
	lw	t6, 16(sp)                      # 4-byte Folded Reload
	or	a0, t6, a0
	lw	s0, 12(sp)                      # 4-byte Folded Reload
	or	s2, s2, s0
	lw	s0, 8(sp)                       # 4-byte Folded Reload
	lw	a5, 4(sp)                       # 4-byte Folded Reload
	or	t6, a5, s0
	lw	a5, 0(sp)                       # 4-byte Folded Reload
	or	s3, s3, a5
	or	s4, s4, s6
	or	s5, s9, s5
	or	s6, s11, s10
	or	t5, t5, ra
	or	t3, t3, s8
	or	t1, t1, s7
	or	s0, t2, t4
	or	a6, a6, t0
	or	a4, a4, a7
	or	a1, a1, a2
	sw	s2, 92(sp)
	sw	a0, 96(sp)
	sw	s1, 100(sp)
	sw	a3, 104(sp)
	sw	s5, 76(sp)
	sw	s4, 80(sp)
	sw	s3, 84(sp)
	sw	t6, 88(sp)
	sw	s6, 44(sp)
	sw	t5, 48(sp)
	sw	t3, 52(sp)
	sw	t1, 56(sp)
	sw	s0, 60(sp)
	sw	a6, 64(sp)
	sw	a4, 68(sp)
	sw	a1, 72(sp)
	addi	a0, sp, 108
	addi	a1, sp, 76
	addi	a2, sp, 44
	call	gcm_small.aes_planes.soft.key_columns.straddle_columns
	addi	a1, sp, 108
	li	a2, 32
	lw	a0, 40(sp)                      # 4-byte Folded Reload
	call	memcpy
	lw	ra, 188(sp)                     # 4-byte Folded Reload
	lw	s0, 184(sp)                     # 4-byte Folded Reload
	lw	s1, 180(sp)                     # 4-byte Folded Reload
	lw	s2, 176(sp)                     # 4-byte Folded Reload
	lw	s3, 172(sp)                     # 4-byte Folded Reload
	lw	s4, 168(sp)                     # 4-byte Folded Reload
	lw	s5, 164(sp)                     # 4-byte Folded Reload
	lw	s6, 160(sp)                     # 4-byte Folded Reload
	lw	s7, 156(sp)                     # 4-byte Folded Reload
	lw	s8, 152(sp)                     # 4-byte Folded Reload
	lw	s9, 148(sp)                     # 4-byte Folded Reload
	lw	s10, 144(sp)                    # 4-byte Folded Reload
	lw	s11, 140(sp)                    # 4-byte Folded Reload
	addi	sp, sp, 192
	ret
.Lgcm_small_func_end16:
	.size	gcm_small.aes_soft.soft.plane_words.PlaneWordsFourWords.straddled, .Lgcm_small_func_end16-gcm_small.aes_soft.soft.plane_words.PlaneWordsFourWords.straddled
                                        # -- End function
	.section	.text.gcm_small.aes_planes.soft.key_columns.straddle_columns,"ax",@progbits
	.p2align	1                               # -- Begin function aes_planes::soft::key_columns::straddle_columns::<#6af90bfc14753d47>
	.type	gcm_small.aes_planes.soft.key_columns.straddle_columns,@function
gcm_small.aes_planes.soft.key_columns.straddle_columns: # @gcm_small.aes_planes.soft.key_columns.straddle_columns
# %bb.0:                                # %start
	addi	sp, sp, -64
	sw	ra, 60(sp)                      # 4-byte Folded Spill
	sw	s0, 56(sp)                      # 4-byte Folded Spill
	sw	s1, 52(sp)                      # 4-byte Folded Spill
	sw	s2, 48(sp)                      # 4-byte Folded Spill
	sw	s3, 44(sp)                      # 4-byte Folded Spill
	sw	s4, 40(sp)                      # 4-byte Folded Spill
	sw	s5, 36(sp)                      # 4-byte Folded Spill
	sw	s6, 32(sp)                      # 4-byte Folded Spill
	sw	s7, 28(sp)                      # 4-byte Folded Spill
	sw	s8, 24(sp)                      # 4-byte Folded Spill
	sw	s9, 20(sp)                      # 4-byte Folded Spill
	sw	s10, 16(sp)                     # 4-byte Folded Spill
	sw	s11, 12(sp)                     # 4-byte Folded Spill
	mv	s8, a2
	mv	s1, a1
	lw	a2, 0(a1)
	lw	a1, 0(s8)
	mv	s0, a0
	mv	a0, a2
	call	gcm_small.aes_planes.soft.key_columns.straddle
	lw	a2, 4(s1)
	lw	a1, 4(s8)
	mv	s2, a0
	mv	a0, a2
	call	gcm_small.aes_planes.soft.key_columns.straddle
	lw	a2, 8(s1)
	lw	a1, 8(s8)
	mv	s3, a0
	mv	a0, a2
	call	gcm_small.aes_planes.soft.key_columns.straddle
	lw	a2, 12(s1)
	lw	a1, 12(s8)
	mv	s4, a0
	mv	a0, a2
	call	gcm_small.aes_planes.soft.key_columns.straddle
	lw	a2, 16(s1)
	lw	a1, 16(s8)
	mv	s5, a0
	mv	a0, a2
	call	gcm_small.aes_planes.soft.key_columns.straddle
	lw	a2, 20(s1)
	lw	a1, 20(s8)
	mv	s6, a0
	mv	a0, a2
	call	gcm_small.aes_planes.soft.key_columns.straddle
	lw	a2, 24(s1)
	lw	a1, 24(s8)
	mv	s7, a0
	mv	a0, a2
	call	gcm_small.aes_planes.soft.key_columns.straddle
	lw	a2, 28(s1)
	lw	a1, 28(s8)
	mv	s1, a0
	mv	a0, a2
	call	gcm_small.aes_planes.soft.key_columns.straddle
	srli	a6, s2, 24
	srli	t1, s2, 16
	srli	s11, s2, 8
	srli	a7, s3, 24
	srli	t4, s3, 16
	srli	a1, s3, 8
	srli	t0, s4, 24
	srli	s8, s4, 16
	srli	a2, s4, 8
	srli	t2, s5, 24
	srli	t3, s5, 16
	srli	a5, s5, 8
	srli	t5, s6, 24
	srli	t6, s6, 16
	srli	a4, s6, 8
	srli	s9, s7, 24
	srli	s10, s7, 16
	srli	a3, s7, 8
	srli	ra, s1, 24
	sb	s2, 0(s0)
	sb	s11, 1(s0)
	sb	t1, 2(s0)
	sb	a6, 3(s0)
	srli	a6, s1, 16
	sb	s3, 4(s0)
	sb	a1, 5(s0)
	sb	t4, 6(s0)
	sb	a7, 7(s0)
	srli	a1, s1, 8
	sb	s4, 8(s0)
	sb	a2, 9(s0)
	sb	s8, 10(s0)
	sb	t0, 11(s0)
	srli	a2, a0, 24
	sb	s5, 12(s0)
	sb	a5, 13(s0)
	sb	t3, 14(s0)
	sb	t2, 15(s0)
	srli	a5, a0, 16
	sb	s6, 16(s0)
	sb	a4, 17(s0)
	sb	t6, 18(s0)
	sb	t5, 19(s0)
	srli	a4, a0, 8
	sb	s7, 20(s0)
	sb	a3, 21(s0)
	sb	s10, 22(s0)
	sb	s9, 23(s0)
	sb	s1, 24(s0)
	sb	a1, 25(s0)
	sb	a6, 26(s0)
	sb	ra, 27(s0)
	sb	a0, 28(s0)
	sb	a4, 29(s0)
	sb	a5, 30(s0)
	sb	a2, 31(s0)
	lw	ra, 60(sp)                      # 4-byte Folded Reload
	lw	s0, 56(sp)                      # 4-byte Folded Reload
	lw	s1, 52(sp)                      # 4-byte Folded Reload
	lw	s2, 48(sp)                      # 4-byte Folded Reload
	lw	s3, 44(sp)                      # 4-byte Folded Reload
	lw	s4, 40(sp)                      # 4-byte Folded Reload
	lw	s5, 36(sp)                      # 4-byte Folded Reload
	lw	s6, 32(sp)                      # 4-byte Folded Reload
	lw	s7, 28(sp)                      # 4-byte Folded Reload
	lw	s8, 24(sp)                      # 4-byte Folded Reload
	lw	s9, 20(sp)                      # 4-byte Folded Reload
	lw	s10, 16(sp)                     # 4-byte Folded Reload
	lw	s11, 12(sp)                     # 4-byte Folded Reload
	addi	sp, sp, 64
	ret
.Lgcm_small_func_end17:
	.size	gcm_small.aes_planes.soft.key_columns.straddle_columns, .Lgcm_small_func_end17-gcm_small.aes_planes.soft.key_columns.straddle_columns
                                        # -- End function
	.section	.text.gcm_small.aes_planes.soft.key_columns.straddle,"ax",@progbits
	.p2align	1                               # -- Begin function aes_planes::soft::key_columns::straddle::<#6af90bfc14753d47>
	.type	gcm_small.aes_planes.soft.key_columns.straddle,@function
gcm_small.aes_planes.soft.key_columns.straddle: # @gcm_small.aes_planes.soft.key_columns.straddle
# %bb.0:                                # %start
	srli	a0, a0, 4
	slli	a1, a1, 4
	lui	a2, 61681
	addi	a2, a2, -241
	and	a0, a0, a2
	lui	a2, 986895
	addi	a2, a2, 240
	and	a1, a1, a2
	or	a0, a0, a1
	ret
.Lgcm_small_func_end18:
	.size	gcm_small.aes_planes.soft.key_columns.straddle, .Lgcm_small_func_end18-gcm_small.aes_planes.soft.key_columns.straddle
                                        # -- End function
	.section	.text.gcm_small.aes_soft.soft.plane_words.PlaneWordsFourWords.plain,"ax",@progbits
	.p2align	1                               # -- Begin function aes_soft::soft::plane_words::PlaneWordsFourWords::plain::<#6af90bfc14753d47>
	.type	gcm_small.aes_soft.soft.plane_words.PlaneWordsFourWords.plain,@function
gcm_small.aes_soft.soft.plane_words.PlaneWordsFourWords.plain: # @gcm_small.aes_soft.soft.plane_words.PlaneWordsFourWords.plain
# %bb.0:                                # %start
	addi	sp, sp, -192
	sw	ra, 188(sp)                     # 4-byte Folded Spill
	sw	s0, 184(sp)                     # 4-byte Folded Spill
	sw	s1, 180(sp)                     # 4-byte Folded Spill
	sw	s2, 176(sp)                     # 4-byte Folded Spill
	sw	s3, 172(sp)                     # 4-byte Folded Spill
	sw	s4, 168(sp)                     # 4-byte Folded Spill
	sw	s5, 164(sp)                     # 4-byte Folded Spill
	sw	s6, 160(sp)                     # 4-byte Folded Spill
	sw	s7, 156(sp)                     # 4-byte Folded Spill
	sw	s8, 152(sp)                     # 4-byte Folded Spill
	sw	s9, 148(sp)                     # 4-byte Folded Spill
	sw	s10, 144(sp)                    # 4-byte Folded Spill
	sw	s11, 140(sp)                    # 4-byte Folded Spill
	sw	a0, 40(sp)                      # 4-byte Folded Spill
	lbu	a6, 28(a1)
	lbu	a7, 29(a1)
	lbu	t0, 30(a1)
	lbu	s10, 31(a1)
	lbu	s1, 24(a1)
	lbu	a4, 25(a1)
	lbu	t1, 26(a1)
	lbu	t3, 27(a1)
	lbu	t2, 20(a1)
	lbu	s9, 21(a1)
	lbu	s11, 22(a1)
	lbu	a5, 23(a1)
	lbu	t4, 16(a1)
	lbu	t5, 17(a1)
	lbu	t6, 18(a1)
	lbu	s7, 19(a1)
	lbu	s3, 12(a1)
	lbu	ra, 13(a1)
	lbu	a0, 14(a1)
	lbu	a3, 15(a1)
	lbu	s4, 8(a1)
	lbu	s5, 9(a1)
	lbu	s6, 10(a1)
	lbu	s8, 11(a1)
	slli	a7, a7, 8
	slli	t0, t0, 16
	slli	s10, s10, 24
	slli	a4, a4, 8
	or	s0, a7, a6
	sw	s0, 36(sp)                      # 4-byte Folded Spill
	or	s0, s10, t0
	sw	s0, 32(sp)                      # 4-byte Folded Spill
	or	a4, a4, s1
	sw	a4, 28(sp)                      # 4-byte Folded Spill
	lbu	s10, 4(a1)
	lbu	s1, 5(a1)
	lbu	s0, 6(a1)
	lbu	a6, 7(a1)
	slli	t1, t1, 16
	slli	t3, t3, 24
	slli	s9, s9, 8
	slli	s11, s11, 16
	slli	a5, a5, 24
	or	a4, t3, t1
	sw	a4, 24(sp)                      # 4-byte Folded Spill
	or	a4, s9, t2
	sw	a4, 20(sp)                      # 4-byte Folded Spill
	or	a4, a5, s11
	sw	a4, 16(sp)                      # 4-byte Folded Spill
	lbu	s9, 0(a1)
	lbu	s11, 1(a1)
	lbu	a7, 2(a1)
	lbu	a5, 3(a1)
	slli	t5, t5, 8
	slli	t6, t6, 16
	slli	s7, s7, 24
	slli	ra, ra, 8
	slli	a0, a0, 16
	slli	a3, a3, 24
	or	a1, t5, t4
	sw	a1, 12(sp)                      # 4-byte Folded Spill
	or	s2, s7, t6
	or	a1, ra, s3
	sw	a1, 8(sp)                       # 4-byte Folded Spill
	or	a0, a0, a3
	sw	a0, 4(sp)                       # 4-byte Folded Spill
	lbu	ra, 0(a2)
	lbu	a4, 1(a2)
	lbu	a3, 2(a2)
	lbu	a1, 3(a2)
	slli	s5, s5, 8
	slli	s6, s6, 16
	slli	s8, s8, 24
	slli	s1, s1, 8
	slli	s0, s0, 16
	slli	a6, a6, 24
	or	a0, s5, s4
	sw	a0, 0(sp)                       # 4-byte Folded Spill
	or	s3, s8, s6
	or	s6, s1, s10
	or	s4, a6, s0
	lbu	a6, 4(a2)
	lbu	s0, 5(a2)
	lbu	s1, 6(a2)
	lbu	a0, 7(a2)
	slli	s11, s11, 8
	slli	a7, a7, 16
	slli	a5, a5, 24
	slli	a4, a4, 8
	slli	a3, a3, 16
	slli	a1, a1, 24
	or	s5, s11, s9
	or	s9, a5, a7
	or	s10, a4, ra
	or	s11, a1, a3
	lbu	a1, 8(a2)
	lbu	a3, 9(a2)
	lbu	a4, 10(a2)
	lbu	a5, 11(a2)
	slli	s0, s0, 8
	slli	s1, s1, 16
	slli	a0, a0, 24
	slli	a3, a3, 8
	slli	a4, a4, 16
	slli	a5, a5, 24
	or	ra, s0, a6
	or	t5, a0, s1
	or	s8, a3, a1
	or	t3, a5, a4
	lbu	a3, 13(a2)
	lbu	a4, 14(a2)
	lbu	a5, 15(a2)
	lbu	s0, 12(a2)
	slli	a3, a3, 8
	slli	a4, a4, 16
	slli	a5, a5, 24
	or	s7, a3, s0
	or	t1, a5, a4
	lbu	a5, 17(a2)
	lbu	s0, 16(a2)
	lbu	a1, 18(a2)
	lbu	s1, 19(a2)
	slli	a5, a5, 8
	or	t4, a5, s0
	slli	a1, a1, 16
	slli	s0, s1, 24
	or	t2, s0, a1
	lbu	a3, 21(a2)
	lbu	s1, 20(a2)
	lbu	a1, 22(a2)
	lbu	a0, 23(a2)
	slli	a3, a3, 8
	or	t0, a3, s1
	slli	a1, a1, 16
	slli	a0, a0, 24
	or	a6, a0, a1
	lbu	a3, 25(a2)
	lbu	s1, 24(a2)
	lbu	a1, 26(a2)
	lbu	a0, 27(a2)
	slli	a3, a3, 8
	or	a7, a3, s1
	slli	a1, a1, 16
	slli	a0, a0, 24
	or	a4, a0, a1
	lbu	a1, 29(a2)
	lbu	s1, 28(a2)
	lbu	a0, 30(a2)
	lbu	a2, 31(a2)
	slli	a1, a1, 8
	or	a1, a1, s1
	slli	a0, a0, 16
	slli	a2, a2, 24
	or	a2, a2, a0
	lw	a0, 36(sp)                      # 4-byte Folded Reload
	lw	a3, 32(sp)                      # 4-byte Folded Reload
	or	a3, a3, a0
	lw	a0, 28(sp)                      # 4-byte Folded Reload
	lw	s1, 24(sp)                      # 4-byte Folded Reload
	or	s1, s1, a0
	lw	a0, 20(sp)                      # 4-byte Folded Reload
	lw	t6, 16(sp)                      # 4-byte Folded Reload
	or	a0, t6, a0
	lw	s0, 12(sp)                      # 4-byte Folded Reload
	or	s2, s2, s0
	lw	s0, 8(sp)                       # 4-byte Folded Reload
	lw	a5, 4(sp)                       # 4-byte Folded Reload
	or	t6, a5, s0
	lw	a5, 0(sp)                       # 4-byte Folded Reload
	or	s3, s3, a5
	or	s4, s4, s6
	or	s5, s9, s5
	or	s6, s11, s10
	or	t5, t5, ra
	or	t3, t3, s8
	or	t1, t1, s7
	or	s0, t2, t4
	or	a6, a6, t0
	or	a4, a4, a7
	or	a1, a1, a2
	sw	s2, 92(sp)
	sw	a0, 96(sp)
	sw	s1, 100(sp)
	sw	a3, 104(sp)
	sw	s5, 76(sp)
	sw	s4, 80(sp)
	sw	s3, 84(sp)
	sw	t6, 88(sp)
	sw	s6, 44(sp)
	sw	t5, 48(sp)
	sw	t3, 52(sp)
	sw	t1, 56(sp)
	sw	s0, 60(sp)
	sw	a6, 64(sp)
	sw	a4, 68(sp)
	sw	a1, 72(sp)
	addi	a0, sp, 108
	addi	a1, sp, 76
	addi	a2, sp, 44
	li	a3, 2
	call	gcm_small.aes_planes.soft.key_columns.summed_columns
	addi	a1, sp, 108
	li	a2, 32
	lw	a0, 40(sp)                      # 4-byte Folded Reload
	call	memcpy
	lw	ra, 188(sp)                     # 4-byte Folded Reload
	lw	s0, 184(sp)                     # 4-byte Folded Reload
	lw	s1, 180(sp)                     # 4-byte Folded Reload
	lw	s2, 176(sp)                     # 4-byte Folded Reload
	lw	s3, 172(sp)                     # 4-byte Folded Reload
	lw	s4, 168(sp)                     # 4-byte Folded Reload
	lw	s5, 164(sp)                     # 4-byte Folded Reload
	lw	s6, 160(sp)                     # 4-byte Folded Reload
	lw	s7, 156(sp)                     # 4-byte Folded Reload
	lw	s8, 152(sp)                     # 4-byte Folded Reload
	lw	s9, 148(sp)                     # 4-byte Folded Reload
	lw	s10, 144(sp)                    # 4-byte Folded Reload
	lw	s11, 140(sp)                    # 4-byte Folded Reload
	addi	sp, sp, 192
	ret
.Lgcm_small_func_end19:
	.size	gcm_small.aes_soft.soft.plane_words.PlaneWordsFourWords.plain, .Lgcm_small_func_end19-gcm_small.aes_soft.soft.plane_words.PlaneWordsFourWords.plain
                                        # -- End function
	.section	.text.gcm_small.aes_soft.soft.plane_words.PlaneWordsFourWords.substituted,"ax",@progbits
	.p2align	1                               # -- Begin function aes_soft::soft::plane_words::PlaneWordsFourWords::substituted::<#6af90bfc14753d47>
	.type	gcm_small.aes_soft.soft.plane_words.PlaneWordsFourWords.substituted,@function
gcm_small.aes_soft.soft.plane_words.PlaneWordsFourWords.substituted: # @gcm_small.aes_soft.soft.plane_words.PlaneWordsFourWords.substituted
# %bb.0:                                # %start
	addi	sp, sp, -192
	sw	ra, 188(sp)                     # 4-byte Folded Spill
	sw	s0, 184(sp)                     # 4-byte Folded Spill
	sw	s1, 180(sp)                     # 4-byte Folded Spill
	sw	s2, 176(sp)                     # 4-byte Folded Spill
	sw	s3, 172(sp)                     # 4-byte Folded Spill
	sw	s4, 168(sp)                     # 4-byte Folded Spill
	sw	s5, 164(sp)                     # 4-byte Folded Spill
	sw	s6, 160(sp)                     # 4-byte Folded Spill
	sw	s7, 156(sp)                     # 4-byte Folded Spill
	sw	s8, 152(sp)                     # 4-byte Folded Spill
	sw	s9, 148(sp)                     # 4-byte Folded Spill
	sw	s10, 144(sp)                    # 4-byte Folded Spill
	sw	s11, 140(sp)                    # 4-byte Folded Spill
	sw	a0, 40(sp)                      # 4-byte Folded Spill
	lbu	a6, 28(a1)
	lbu	a7, 29(a1)
	lbu	t0, 30(a1)
	lbu	s10, 31(a1)
	lbu	s1, 24(a1)
	lbu	a4, 25(a1)
	lbu	t1, 26(a1)
	lbu	t3, 27(a1)
	lbu	t2, 20(a1)
	lbu	s9, 21(a1)
	lbu	s11, 22(a1)
	lbu	a5, 23(a1)
	lbu	t4, 16(a1)
	lbu	t5, 17(a1)
	lbu	t6, 18(a1)
	lbu	s7, 19(a1)
	lbu	s3, 12(a1)
	lbu	ra, 13(a1)
	lbu	a0, 14(a1)
	lbu	a3, 15(a1)
	lbu	s4, 8(a1)
	lbu	s5, 9(a1)
	lbu	s6, 10(a1)
	lbu	s8, 11(a1)
	slli	a7, a7, 8
	slli	t0, t0, 16
	slli	s10, s10, 24
	slli	a4, a4, 8
	or	s0, a7, a6
	sw	s0, 36(sp)                      # 4-byte Folded Spill
	or	s0, s10, t0
	sw	s0, 32(sp)                      # 4-byte Folded Spill
	or	a4, a4, s1
	sw	a4, 28(sp)                      # 4-byte Folded Spill
	lbu	s10, 4(a1)
	lbu	s1, 5(a1)
	lbu	s0, 6(a1)
	lbu	a6, 7(a1)
	slli	t1, t1, 16
	slli	t3, t3, 24
	slli	s9, s9, 8
	slli	s11, s11, 16
	slli	a5, a5, 24
	or	a4, t3, t1
	sw	a4, 24(sp)                      # 4-byte Folded Spill
	or	a4, s9, t2
	sw	a4, 20(sp)                      # 4-byte Folded Spill
	or	a4, a5, s11
	sw	a4, 16(sp)                      # 4-byte Folded Spill
	lbu	s9, 0(a1)
	lbu	s11, 1(a1)
	lbu	a7, 2(a1)
	lbu	a5, 3(a1)
	slli	t5, t5, 8
	slli	t6, t6, 16
	slli	s7, s7, 24
	slli	ra, ra, 8
	slli	a0, a0, 16
	slli	a3, a3, 24
	or	a1, t5, t4
	sw	a1, 12(sp)                      # 4-byte Folded Spill
	or	s2, s7, t6
	or	a1, ra, s3
	sw	a1, 8(sp)                       # 4-byte Folded Spill
	or	a0, a0, a3
	sw	a0, 4(sp)                       # 4-byte Folded Spill
	lbu	ra, 0(a2)
	lbu	a4, 1(a2)
	lbu	a3, 2(a2)
	lbu	a1, 3(a2)
	slli	s5, s5, 8
	slli	s6, s6, 16
	slli	s8, s8, 24
	slli	s1, s1, 8
	slli	s0, s0, 16
	slli	a6, a6, 24
	or	a0, s5, s4
	sw	a0, 0(sp)                       # 4-byte Folded Spill
	or	s3, s8, s6
	or	s6, s1, s10
	or	s4, a6, s0
	lbu	a6, 4(a2)
	lbu	s0, 5(a2)
	lbu	s1, 6(a2)
	lbu	a0, 7(a2)
	slli	s11, s11, 8
	slli	a7, a7, 16
	slli	a5, a5, 24
	slli	a4, a4, 8
	slli	a3, a3, 16
	slli	a1, a1, 24
	or	s5, s11, s9
	or	s9, a5, a7
	or	s10, a4, ra
	or	s11, a1, a3
	lbu	a1, 8(a2)
	lbu	a3, 9(a2)
	lbu	a4, 10(a2)
	lbu	a5, 11(a2)
	slli	s0, s0, 8
	slli	s1, s1, 16
	slli	a0, a0, 24
	slli	a3, a3, 8
	slli	a4, a4, 16
	slli	a5, a5, 24
	or	ra, s0, a6
	or	t5, a0, s1
	or	s8, a3, a1
	or	t3, a5, a4
	lbu	a3, 13(a2)
	lbu	a4, 14(a2)
	lbu	a5, 15(a2)
	lbu	s0, 12(a2)
	slli	a3, a3, 8
	slli	a4, a4, 16
	slli	a5, a5, 24
	or	s7, a3, s0
	or	t1, a5, a4
	lbu	a5, 17(a2)
	lbu	s0, 16(a2)
	lbu	a1, 18(a2)
	lbu	s1, 19(a2)
	slli	a5, a5, 8
	or	t4, a5, s0
	slli	a1, a1, 16
	slli	s0, s1, 24
	or	t2, s0, a1
	lbu	a3, 21(a2)
	lbu	s1, 20(a2)
	lbu	a1, 22(a2)
	lbu	a0, 23(a2)
	slli	a3, a3, 8
	or	t0, a3, s1
	slli	a1, a1, 16
	slli	a0, a0, 24
	or	a6, a0, a1
	lbu	a3, 25(a2)
	lbu	s1, 24(a2)
	lbu	a1, 26(a2)
	lbu	a0, 27(a2)
	slli	a3, a3, 8
	or	a7, a3, s1
	slli	a1, a1, 16
	slli	a0, a0, 24
	or	a4, a0, a1
	lbu	a1, 29(a2)
	lbu	s1, 28(a2)
	lbu	a0, 30(a2)
	lbu	a2, 31(a2)
	slli	a1, a1, 8
	or	a1, a1, s1
	slli	a0, a0, 16
	slli	a2, a2, 24
	or	a2, a2, a0
	lw	a0, 36(sp)                      # 4-byte Folded Reload
	lw	a3, 32(sp)                      # 4-byte Folded Reload
	or	a3, a3, a0
	lw	a0, 28(sp)                      # 4-byte Folded Reload
	lw	s1, 24(sp)                      # 4-byte Folded Reload
	or	s1, s1, a0
	lw	a0, 20(sp)                      # 4-byte Folded Reload
	lw	t6, 16(sp)                      # 4-byte Folded Reload
	or	a0, t6, a0
	lw	s0, 12(sp)                      # 4-byte Folded Reload
	or	s2, s2, s0
	lw	s0, 8(sp)                       # 4-byte Folded Reload
	lw	a5, 4(sp)                       # 4-byte Folded Reload
	or	t6, a5, s0
	lw	a5, 0(sp)                       # 4-byte Folded Reload
	or	s3, s3, a5
	or	s4, s4, s6
	or	s5, s9, s5
	or	s6, s11, s10
	or	t5, t5, ra
	or	t3, t3, s8
	or	t1, t1, s7
	or	s0, t2, t4
	or	a6, a6, t0
	or	a4, a4, a7
	or	a1, a1, a2
	sw	s2, 92(sp)
	sw	a0, 96(sp)
	sw	s1, 100(sp)
	sw	a3, 104(sp)
	sw	s5, 76(sp)
	sw	s4, 80(sp)
	sw	s3, 84(sp)
	sw	t6, 88(sp)
	sw	s6, 44(sp)
	sw	t5, 48(sp)
	sw	t3, 52(sp)
	sw	t1, 56(sp)
	sw	s0, 60(sp)
	sw	a6, 64(sp)
	sw	a4, 68(sp)
	sw	a1, 72(sp)
	addi	a0, sp, 44
	call	gcm_small.aes_soft.soft.plane_words.substitute
	addi	a0, sp, 108
	addi	a1, sp, 76
	addi	a2, sp, 44
	li	a3, 6
	call	gcm_small.aes_planes.soft.key_columns.summed_columns
	addi	a1, sp, 108
	li	a2, 32
	lw	a0, 40(sp)                      # 4-byte Folded Reload
	call	memcpy
	lw	ra, 188(sp)                     # 4-byte Folded Reload
	lw	s0, 184(sp)                     # 4-byte Folded Reload
	lw	s1, 180(sp)                     # 4-byte Folded Reload
	lw	s2, 176(sp)                     # 4-byte Folded Reload
	lw	s3, 172(sp)                     # 4-byte Folded Reload
	lw	s4, 168(sp)                     # 4-byte Folded Reload
	lw	s5, 164(sp)                     # 4-byte Folded Reload
	lw	s6, 160(sp)                     # 4-byte Folded Reload
	lw	s7, 156(sp)                     # 4-byte Folded Reload
	lw	s8, 152(sp)                     # 4-byte Folded Reload
	lw	s9, 148(sp)                     # 4-byte Folded Reload
	lw	s10, 144(sp)                    # 4-byte Folded Reload
	lw	s11, 140(sp)                    # 4-byte Folded Reload
	addi	sp, sp, 192
	ret
.Lgcm_small_func_end20:
	.size	gcm_small.aes_soft.soft.plane_words.PlaneWordsFourWords.substituted, .Lgcm_small_func_end20-gcm_small.aes_soft.soft.plane_words.PlaneWordsFourWords.substituted
                                        # -- End function
	.section	.text.gcm_small.aes_soft.soft.key_layout.store,"ax",@progbits
	.p2align	1                               # -- Begin function aes_soft::soft::key_layout::store::<#dfb00681c6d298fe>
	.type	gcm_small.aes_soft.soft.key_layout.store,@function
gcm_small.aes_soft.soft.key_layout.store: # @gcm_small.aes_soft.soft.key_layout.store
# %bb.0:                                # %start
	addi	sp, sp, -96
	sw	ra, 92(sp)                      # 4-byte Folded Spill
	sw	s0, 88(sp)                      # 4-byte Folded Spill
	sw	s1, 84(sp)                      # 4-byte Folded Spill
	sw	s2, 80(sp)                      # 4-byte Folded Spill
	sw	s3, 76(sp)                      # 4-byte Folded Spill
	sw	s4, 72(sp)                      # 4-byte Folded Spill
	sw	s5, 68(sp)                      # 4-byte Folded Spill
	mv	s3, a2
	mv	s2, a1
	mv	s4, a0
	addi	a0, sp, 4
	li	a2, 1
	li	s5, 1
	mv	a1, s4
	li	a3, 0
	call	gcm_small.aes_planes.soft.round_keys.round_key.1
	li	s1, 0
	lw	a0, 20(sp)
	lw	a1, 24(sp)
	lw	a2, 28(sp)
	lw	a3, 32(sp)
	sw	a0, 52(sp)
	sw	a1, 56(sp)
	sw	a2, 60(sp)
	sw	a3, 64(sp)
	lw	a0, 4(sp)
	lw	a1, 8(sp)
	lw	a2, 12(sp)
	lw	a3, 16(sp)
	sw	a0, 36(sp)
	sw	a1, 40(sp)
	sw	a2, 44(sp)
	sw	a3, 48(sp)
	li	s0, 1
	j	.Lgcm_small_BB21_2
.Lgcm_small_BB21_1:                               # %join.8
                                        #   in Loop: Header=BB21_2 Depth=1
	sltu	a0, s1, s3
	beqz	a0, .Lgcm_small_BB21_12
.Lgcm_small_BB21_2:                               # %ok.10
                                        # =>This Inner Loop Header: Depth=1
	andi	a0, s0, 3
	blt	s5, a0, .Lgcm_small_BB21_5
# %bb.3:                                # %ok.10
                                        #   in Loop: Header=BB21_2 Depth=1
	beqz	a0, .Lgcm_small_BB21_10
# %bb.4:                                # %then.1.i
                                        #   in Loop: Header=BB21_2 Depth=1
	lui	a1, 12529
	addi	a0, sp, 36
	addi	a2, a1, -1024
	j	.Lgcm_small_BB21_8
.Lgcm_small_BB21_5:                               # %ok.10
                                        #   in Loop: Header=BB21_2 Depth=1
	li	a1, 2
	bne	a0, a1, .Lgcm_small_BB21_7
# %bb.6:                                # %then.4.i
                                        #   in Loop: Header=BB21_2 Depth=1
	lui	a1, 61441
	addi	a0, sp, 36
	addi	a2, a1, -256
	li	a1, 4
	j	.Lgcm_small_BB21_9
.Lgcm_small_BB21_7:                               # %then.7.i
                                        #   in Loop: Header=BB21_2 Depth=1
	lui	a1, 49392
	addi	a0, sp, 36
	addi	a2, a1, 768
.Lgcm_small_BB21_8:                               # %join.8
                                        #   in Loop: Header=BB21_2 Depth=1
	li	a1, 4
	call	gcm_small.aes_planes.soft.shifts.swap_columns.1
	lui	a1, 208899
	addi	a0, sp, 36
	addi	a2, a1, 768
	li	a1, 2
.Lgcm_small_BB21_9:                               # %join.8
                                        #   in Loop: Header=BB21_2 Depth=1
	call	gcm_small.aes_planes.soft.shifts.swap_columns.1
.Lgcm_small_BB21_10:                              # %join.8
                                        #   in Loop: Header=BB21_2 Depth=1
	addi	a0, sp, 36
	call	gcm_small.aes_planes.soft.sbox.sub_bytes_nots
	addi	a3, sp, 36
	mv	a0, s4
	mv	a1, s0
	mv	a2, s1
	call	gcm_small.aes_planes.soft.round_keys.store_round_key
	addi	s0, s0, 1
	seqz	a0, s0
	add	s1, s1, a0
	addi	a0, sp, 4
	mv	a1, s4
	mv	a2, s0
	mv	a3, s1
	call	gcm_small.aes_planes.soft.round_keys.round_key.1
	lw	a0, 20(sp)
	lw	a1, 24(sp)
	lw	a2, 28(sp)
	lw	a3, 32(sp)
	sw	a0, 52(sp)
	sw	a1, 56(sp)
	sw	a2, 60(sp)
	sw	a3, 64(sp)
	lw	a0, 4(sp)
	lw	a1, 8(sp)
	lw	a2, 12(sp)
	lw	a3, 16(sp)
	sw	a0, 36(sp)
	sw	a1, 40(sp)
	sw	a2, 44(sp)
	sw	a3, 48(sp)
	bne	s1, s3, .Lgcm_small_BB21_1
# %bb.11:                               #   in Loop: Header=BB21_2 Depth=1
	sltu	a0, s0, s2
	bnez	a0, .Lgcm_small_BB21_2
.Lgcm_small_BB21_12:                              # %after.1.critedge
	addi	a0, sp, 36
	call	gcm_small.aes_planes.soft.sbox.sub_bytes_nots
	addi	a3, sp, 36
	mv	a0, s4
	mv	a1, s0
	mv	a2, s1
	call	gcm_small.aes_planes.soft.round_keys.store_round_key
	lw	ra, 92(sp)                      # 4-byte Folded Reload
	lw	s0, 88(sp)                      # 4-byte Folded Reload
	lw	s1, 84(sp)                      # 4-byte Folded Reload
	lw	s2, 80(sp)                      # 4-byte Folded Reload
	lw	s3, 76(sp)                      # 4-byte Folded Reload
	lw	s4, 72(sp)                      # 4-byte Folded Reload
	lw	s5, 68(sp)                      # 4-byte Folded Reload
	addi	sp, sp, 96
	ret
.Lgcm_small_func_end21:
	.size	gcm_small.aes_soft.soft.key_layout.store, .Lgcm_small_func_end21-gcm_small.aes_soft.soft.key_layout.store
                                        # -- End function
	.section	.text.gcm_small.aes_planes.soft.shifts.swap_columns.1,"ax",@progbits
	.p2align	1                               # -- Begin function aes_planes::soft::shifts::swap_columns::<#6af90bfc14753d47>
	.type	gcm_small.aes_planes.soft.shifts.swap_columns.1,@function
gcm_small.aes_planes.soft.shifts.swap_columns.1: # @gcm_small.aes_planes.soft.shifts.swap_columns.1
# %bb.0:                                # %start
	addi	sp, sp, -48
	sw	ra, 44(sp)                      # 4-byte Folded Spill
	sw	s0, 40(sp)                      # 4-byte Folded Spill
	sw	s1, 36(sp)                      # 4-byte Folded Spill
	sw	s2, 32(sp)                      # 4-byte Folded Spill
	sw	s3, 28(sp)                      # 4-byte Folded Spill
	sw	s4, 24(sp)                      # 4-byte Folded Spill
	sw	s5, 20(sp)                      # 4-byte Folded Spill
	sw	s6, 16(sp)                      # 4-byte Folded Spill
	sw	s7, 12(sp)                      # 4-byte Folded Spill
	sw	s8, 8(sp)                       # 4-byte Folded Spill
	sw	s9, 4(sp)                       # 4-byte Folded Spill
	sw	s10, 0(sp)                      # 4-byte Folded Spill
	mv	s9, a2
	mv	s0, a0
	lw	a0, 0(a0)
	lw	s2, 4(s0)
	lw	s3, 8(s0)
	lw	s4, 12(s0)
	lw	s5, 16(s0)
	lw	s6, 20(s0)
	lw	s7, 24(s0)
	lw	s8, 28(s0)
	mv	s1, a1
	call	gcm_small.aes_planes.soft.shifts.delta_swap_1.1
	mv	s10, a0
	mv	a0, s2
	mv	a1, s1
	mv	a2, s9
	call	gcm_small.aes_planes.soft.shifts.delta_swap_1.1
	mv	s2, a0
	mv	a0, s3
	mv	a1, s1
	mv	a2, s9
	call	gcm_small.aes_planes.soft.shifts.delta_swap_1.1
	mv	s3, a0
	mv	a0, s4
	mv	a1, s1
	mv	a2, s9
	call	gcm_small.aes_planes.soft.shifts.delta_swap_1.1
	mv	s4, a0
	mv	a0, s5
	mv	a1, s1
	mv	a2, s9
	call	gcm_small.aes_planes.soft.shifts.delta_swap_1.1
	mv	s5, a0
	mv	a0, s6
	mv	a1, s1
	mv	a2, s9
	call	gcm_small.aes_planes.soft.shifts.delta_swap_1.1
	mv	s6, a0
	mv	a0, s7
	mv	a1, s1
	mv	a2, s9
	call	gcm_small.aes_planes.soft.shifts.delta_swap_1.1
	mv	s7, a0
	mv	a0, s8
	mv	a1, s1
	mv	a2, s9
	call	gcm_small.aes_planes.soft.shifts.delta_swap_1.1
	sw	s10, 0(s0)
	sw	s2, 4(s0)
	sw	s3, 8(s0)
	sw	s4, 12(s0)
	sw	s5, 16(s0)
	sw	s6, 20(s0)
	sw	s7, 24(s0)
	sw	a0, 28(s0)
	lw	ra, 44(sp)                      # 4-byte Folded Reload
	lw	s0, 40(sp)                      # 4-byte Folded Reload
	lw	s1, 36(sp)                      # 4-byte Folded Reload
	lw	s2, 32(sp)                      # 4-byte Folded Reload
	lw	s3, 28(sp)                      # 4-byte Folded Reload
	lw	s4, 24(sp)                      # 4-byte Folded Reload
	lw	s5, 20(sp)                      # 4-byte Folded Reload
	lw	s6, 16(sp)                      # 4-byte Folded Reload
	lw	s7, 12(sp)                      # 4-byte Folded Reload
	lw	s8, 8(sp)                       # 4-byte Folded Reload
	lw	s9, 4(sp)                       # 4-byte Folded Reload
	lw	s10, 0(sp)                      # 4-byte Folded Reload
	addi	sp, sp, 48
	ret
.Lgcm_small_func_end22:
	.size	gcm_small.aes_planes.soft.shifts.swap_columns.1, .Lgcm_small_func_end22-gcm_small.aes_planes.soft.shifts.swap_columns.1
                                        # -- End function
	.section	.text.gcm_small.aes_planes.soft.shifts.delta_swap_1.1,"ax",@progbits
	.p2align	1                               # -- Begin function aes_planes::soft::shifts::delta_swap_1::<#6af90bfc14753d47>
	.type	gcm_small.aes_planes.soft.shifts.delta_swap_1.1,@function
gcm_small.aes_planes.soft.shifts.delta_swap_1.1: # @gcm_small.aes_planes.soft.shifts.delta_swap_1.1
# %bb.0:                                # %start
	srl	a3, a0, a1
	xor	a3, a3, a0
	and	a2, a2, a3
	sll	a1, a2, a1
	xor	a0, a0, a2
	xor	a0, a0, a1
	ret
.Lgcm_small_func_end23:
	.size	gcm_small.aes_planes.soft.shifts.delta_swap_1.1, .Lgcm_small_func_end23-gcm_small.aes_planes.soft.shifts.delta_swap_1.1
                                        # -- End function
	.section	.text.gcm_small.aes_cipher.zeroize.stack.wipe_stack.768,"ax",@progbits
	.p2align	1                               # -- Begin function aes_cipher::zeroize::stack::wipe_stack::<=768>
	.type	gcm_small.aes_cipher.zeroize.stack.wipe_stack.768,@function
gcm_small.aes_cipher.zeroize.stack.wipe_stack.768: # @gcm_small.aes_cipher.zeroize.stack.wipe_stack.768
# %bb.0:                                # %start
	addi	sp, sp, -784
	sw	ra, 780(sp)                     # 4-byte Folded Spill
	sw	s0, 776(sp)                     # 4-byte Folded Spill
	addi	a0, sp, 8
	li	a2, 768
	addi	s0, sp, 8
	li	a1, 0
	call	memset
	sw	zero, 0(sp)
	sw	zero, 4(sp)
	#APP
	#NO_APP
	lw	a0, 0(sp)
	lw	a1, 4(sp)
	#APP
	#NO_APP
	seqz	a1, a1
	sltiu	a2, a0, 768
	and	a1, a1, a2
	beqz	a1, .Lgcm_small_BB24_2
# %bb.1:                                # %then.1
	add	a0, a0, s0
	lbu	a0, 0(a0)
	#APP
	#NO_APP
	lw	zero, 4(sp)
	lw	zero, 0(sp)
	sw	zero, 4(sp)
	sw	a0, 0(sp)
	#APP
	#NO_APP
.Lgcm_small_BB24_2:                               # %common.ret
	lw	ra, 780(sp)                     # 4-byte Folded Reload
	lw	s0, 776(sp)                     # 4-byte Folded Reload
	addi	sp, sp, 784
	ret
.Lgcm_small_func_end24:
	.size	gcm_small.aes_cipher.zeroize.stack.wipe_stack.768, .Lgcm_small_func_end24-gcm_small.aes_cipher.zeroize.stack.wipe_stack.768
                                        # -- End function
	.section	.text.gcm_small.gcm.mode.BorrowedGcm.put_pre_counter,"ax",@progbits
	.p2align	1                               # -- Begin function gcm::mode::BorrowedGcm::put_pre_counter::<#c01aad2b5fbc92b1>
	.type	gcm_small.gcm.mode.BorrowedGcm.put_pre_counter,@function
gcm_small.gcm.mode.BorrowedGcm.put_pre_counter: # @gcm_small.gcm.mode.BorrowedGcm.put_pre_counter
# %bb.0:                                # %start
	addi	sp, sp, -128
	sw	ra, 124(sp)                     # 4-byte Folded Spill
	sw	s0, 120(sp)                     # 4-byte Folded Spill
	sw	s1, 116(sp)                     # 4-byte Folded Spill
	sw	s2, 112(sp)                     # 4-byte Folded Spill
	sw	s3, 108(sp)                     # 4-byte Folded Spill
	sw	s4, 104(sp)                     # 4-byte Folded Spill
	sw	s5, 100(sp)                     # 4-byte Folded Spill
	sw	s6, 96(sp)                      # 4-byte Folded Spill
	sw	s7, 92(sp)                      # 4-byte Folded Spill
	sw	s8, 88(sp)                      # 4-byte Folded Spill
	sw	s9, 84(sp)                      # 4-byte Folded Spill
	sw	s10, 80(sp)                     # 4-byte Folded Spill
	mv	s0, a4
	mv	a6, a1
	xori	a1, a2, 12
	or	a1, a1, a3
	bnez	a1, .Lgcm_small_BB25_2
# %bb.1:                                # %then.1
	lbu	a0, 9(a6)
	lbu	a1, 8(a6)
	lbu	a2, 10(a6)
	lbu	a3, 11(a6)
	slli	a0, a0, 8
	or	a7, a0, a1
	lbu	a1, 4(a6)
	lbu	a4, 5(a6)
	lbu	a5, 6(a6)
	lbu	s1, 7(a6)
	slli	a2, a2, 16
	slli	a3, a3, 24
	slli	a4, a4, 8
	slli	a5, a5, 16
	slli	s1, s1, 24
	or	a2, a2, a3
	or	a1, a1, a4
	or	a5, a5, s1
	lbu	a3, 1(a6)
	lbu	a4, 0(a6)
	lbu	s1, 2(a6)
	lbu	a0, 3(a6)
	slli	a3, a3, 8
	or	a3, a3, a4
	slli	s1, s1, 16
	slli	a0, a0, 24
	or	a0, a0, s1
	or	a2, a2, a7
	or	a1, a1, a5
	or	a0, a0, a3
	sw	a0, 32(sp)
	sw	a1, 36(sp)
	sw	a2, 40(sp)
	sh	zero, 44(sp)
	sb	zero, 46(sp)
	addi	a1, sp, 32
	li	a2, 15
	mv	a0, s0
	call	memcpy
	li	a0, 1
	j	.Lgcm_small_BB25_3
.Lgcm_small_BB25_2:                               # %else.2
	mv	s2, a3
	mv	s4, a2
	lw	a1, 16(a0)
	addi	s3, a0, 16
	lbu	t0, 0(a1)
	lbu	t2, 1(a1)
	lbu	t3, 2(a1)
	lbu	a7, 3(a1)
	lbu	t6, 4(a1)
	lbu	t5, 5(a1)
	lbu	t4, 6(a1)
	lbu	t1, 7(a1)
	lbu	a2, 8(a1)
	lbu	a3, 9(a1)
	lbu	a0, 10(a1)
	lbu	s5, 11(a1)
	lbu	a5, 12(a1)
	lbu	s1, 13(a1)
	lbu	a4, 14(a1)
	lbu	s6, 15(a1)
	slli	t0, t0, 24
	slli	t2, t2, 16
	slli	t3, t3, 8
	slli	t6, t6, 24
	slli	t5, t5, 16
	slli	t4, t4, 8
	slli	s7, a2, 24
	slli	s8, a3, 16
	slli	s9, a0, 8
	slli	a5, a5, 24
	slli	s1, s1, 16
	slli	s10, a4, 8
	or	a1, t2, t0
	or	a2, t3, a7
	or	a3, t6, t5
	or	a0, s8, s7
	or	a4, s9, s5
	or	a5, a5, s1
	or	a1, a1, a2
	or	a2, a3, t4
	or	a0, a0, a4
	or	a3, a5, s10
	or	a4, a2, t1
	or	a5, a3, s6
	sltu	a2, a4, a2
	sltu	a3, a5, a3
	add	a1, a1, a2
	add	a0, a0, a3
	sw	a5, 48(sp)
	sw	a0, 52(sp)
	sw	a4, 56(sp)
	sw	a1, 60(sp)
	addi	a0, sp, 16
	addi	a1, sp, 48
	li	a2, 0
	li	a3, 0
	li	a4, 0
	li	a5, 0
	mv	a7, s4
	mv	t3, s2
	call	gcm_small.gcm.single_blocks.hash_singly.1
	lw	a2, 16(sp)
	lw	a3, 20(sp)
	lw	a4, 24(sp)
	lw	a5, 28(sp)
	mv	a0, sp
	mv	a1, s3
	li	a6, 0
	li	a7, 0
	mv	t3, s4
	mv	t4, s2
	call	gcm_small.gcm.tags.hash_lengths
	lbu	a0, 0(sp)
	lbu	a6, 1(sp)
	lbu	a7, 2(sp)
	lbu	t0, 3(sp)
	lbu	t1, 4(sp)
	lbu	t2, 5(sp)
	lbu	t3, 6(sp)
	lbu	t4, 7(sp)
	lbu	t5, 12(sp)
	lbu	a3, 13(sp)
	lbu	a4, 14(sp)
	lbu	a5, 15(sp)
	lbu	t6, 8(sp)
	lbu	a1, 9(sp)
	lbu	a2, 10(sp)
	lbu	s1, 11(sp)
	sb	a5, 0(s0)
	sb	a4, 1(s0)
	sb	a3, 2(s0)
	sb	t5, 3(s0)
	sb	s1, 4(s0)
	sb	a2, 5(s0)
	sb	a1, 6(s0)
	sb	t6, 7(s0)
	sb	t4, 8(s0)
	sb	t3, 9(s0)
	sb	t2, 10(s0)
	sb	t1, 11(s0)
	sb	t0, 12(s0)
	sb	a7, 13(s0)
	sb	a6, 14(s0)
.Lgcm_small_BB25_3:                               # %join.3
	sb	a0, 15(s0)
	lw	ra, 124(sp)                     # 4-byte Folded Reload
	lw	s0, 120(sp)                     # 4-byte Folded Reload
	lw	s1, 116(sp)                     # 4-byte Folded Reload
	lw	s2, 112(sp)                     # 4-byte Folded Reload
	lw	s3, 108(sp)                     # 4-byte Folded Reload
	lw	s4, 104(sp)                     # 4-byte Folded Reload
	lw	s5, 100(sp)                     # 4-byte Folded Reload
	lw	s6, 96(sp)                      # 4-byte Folded Reload
	lw	s7, 92(sp)                      # 4-byte Folded Reload
	lw	s8, 88(sp)                      # 4-byte Folded Reload
	lw	s9, 84(sp)                      # 4-byte Folded Reload
	lw	s10, 80(sp)                     # 4-byte Folded Reload
	addi	sp, sp, 128
	ret
.Lgcm_small_func_end25:
	.size	gcm_small.gcm.mode.BorrowedGcm.put_pre_counter, .Lgcm_small_func_end25-gcm_small.gcm.mode.BorrowedGcm.put_pre_counter
                                        # -- End function
	.section	.text.gcm_small.gcm.single_blocks.hash_singly.1,"ax",@progbits
	.p2align	1                               # -- Begin function gcm::single_blocks::hash_singly::<#165deadc48559e33>
	.type	gcm_small.gcm.single_blocks.hash_singly.1,@function
gcm_small.gcm.single_blocks.hash_singly.1: # @gcm_small.gcm.single_blocks.hash_singly.1
# %bb.0:                                # %start
	addi	sp, sp, -128
	sw	ra, 124(sp)                     # 4-byte Folded Spill
	sw	s0, 120(sp)                     # 4-byte Folded Spill
	sw	s1, 116(sp)                     # 4-byte Folded Spill
	sw	s2, 112(sp)                     # 4-byte Folded Spill
	sw	s3, 108(sp)                     # 4-byte Folded Spill
	sw	s4, 104(sp)                     # 4-byte Folded Spill
	sw	s5, 100(sp)                     # 4-byte Folded Spill
	sw	s6, 96(sp)                      # 4-byte Folded Spill
	sw	s7, 92(sp)                      # 4-byte Folded Spill
	sw	s8, 88(sp)                      # 4-byte Folded Spill
	sw	s9, 84(sp)                      # 4-byte Folded Spill
	sw	s10, 80(sp)                     # 4-byte Folded Spill
	sw	s11, 76(sp)                     # 4-byte Folded Spill
	sw	a6, 20(sp)                      # 4-byte Folded Spill
	mv	s5, a5
	mv	s3, a4
	mv	s6, a3
	mv	s8, a2
	slli	a3, t3, 28
	sw	a7, 4(sp)                       # 4-byte Folded Spill
	srli	a2, a7, 4
	or	a2, a2, a3
	srli	s7, t3, 4
	sw	a2, 12(sp)                      # 4-byte Folded Spill
	or	a2, a2, s7
	sw	a0, 8(sp)                       # 4-byte Folded Spill
	sw	a1, 0(sp)                       # 4-byte Folded Spill
	beqz	a2, .Lgcm_small_BB26_6
# %bb.1:                                # %join.5.i.lr.ph
	li	s4, 0
	lw	a0, 0(a1)
	sw	a0, 16(sp)                      # 4-byte Folded Spill
	lw	s9, 4(a1)
	lw	s10, 8(a1)
	lw	s11, 12(a1)
	li	s2, 0
	j	.Lgcm_small_BB26_4
.Lgcm_small_BB26_2:                               # %join.5.i
                                        #   in Loop: Header=BB26_4 Depth=1
	sltu	a0, s2, s7
.Lgcm_small_BB26_3:                               # %join.5.i
                                        #   in Loop: Header=BB26_4 Depth=1
	lw	s8, 40(sp)
	lw	s6, 44(sp)
	lw	s3, 48(sp)
	lw	s5, 52(sp)
	beqz	a0, .Lgcm_small_BB26_6
.Lgcm_small_BB26_4:                               # %join.5.i
                                        # =>This Inner Loop Header: Depth=1
	slli	a0, s4, 4
	lw	a1, 20(sp)                      # 4-byte Folded Reload
	add	a0, a0, a1
	lbu	a7, 12(a0)
	lbu	t0, 13(a0)
	lbu	t1, 14(a0)
	lbu	a6, 15(a0)
	lbu	t3, 8(a0)
	lbu	t5, 9(a0)
	lbu	t4, 10(a0)
	lbu	t2, 11(a0)
	lbu	a1, 4(a0)
	lbu	a2, 5(a0)
	lbu	a3, 6(a0)
	lbu	a4, 7(a0)
	lbu	a5, 0(a0)
	lbu	s0, 1(a0)
	lbu	s1, 2(a0)
	lbu	a0, 3(a0)
	slli	a5, a5, 24
	slli	s0, s0, 16
	slli	s1, s1, 8
	slli	a1, a1, 24
	slli	a2, a2, 16
	slli	a3, a3, 8
	slli	t3, t3, 24
	slli	t5, t5, 16
	slli	t4, t4, 8
	slli	a7, a7, 24
	slli	t0, t0, 16
	slli	t1, t1, 8
	or	a5, a5, s0
	or	a0, a0, s1
	or	a1, a1, a4
	or	a4, t3, t5
	or	s1, t4, t2
	or	s0, a6, a7
	or	a0, a0, a5
	or	a1, a1, a2
	or	a4, a4, s1
	or	a2, s0, t0
	or	a3, a3, a1
	or	a5, a2, t1
	sltu	s1, a3, a1
	sltu	a2, a5, a2
	xor	a1, a5, s8
	add	a0, a0, s1
	add	a2, a2, a4
	xor	a2, a2, s6
	xor	a4, a0, s5
	xor	a3, a3, s3
	addi	a0, sp, 40
	lw	a5, 16(sp)                      # 4-byte Folded Reload
	mv	a6, s9
	mv	a7, s10
	mv	t3, s11
	call	gcm_small.gcm.bitwise.product_bitwise
	addi	s4, s4, 1
	seqz	a0, s4
	add	s2, s2, a0
	bne	s2, s7, .Lgcm_small_BB26_2
# %bb.5:                                #   in Loop: Header=BB26_4 Depth=1
	lw	a0, 12(sp)                      # 4-byte Folded Reload
	sltu	a0, s4, a0
	j	.Lgcm_small_BB26_3
.Lgcm_small_BB26_6:                               # %"gcm::single_blocks::hash_whole::<#165deadc48559e33>.exit"
	lw	a1, 4(sp)                       # 4-byte Folded Reload
	andi	a2, a1, 15
	beqz	a2, .Lgcm_small_BB26_11
# %bb.7:                                # %join.3
	andi	a1, a1, -16
	lw	a0, 20(sp)                      # 4-byte Folded Reload
	add	a1, a1, a0
	addi	a0, sp, 60
	bgeu	a0, a1, .Lgcm_small_BB26_9
# %bb.8:                                # %join.3
	li	a0, 1
	j	.Lgcm_small_BB26_10
.Lgcm_small_BB26_9:
	sub	a0, a0, a1
	sltu	a0, a0, a2
	xori	a0, a0, 1
.Lgcm_small_BB26_10:                              # %join.3
	sw	zero, 60(sp)
	sw	zero, 64(sp)
	sw	zero, 68(sp)
	sw	zero, 72(sp)
	addi	a0, sp, 60
	call	memcpy
	lw	a5, 60(sp)
	lbu	s1, 64(sp)
	lbu	s0, 65(sp)
	lbu	a1, 66(sp)
	lbu	t0, 67(sp)
	lw	a0, 68(sp)
	lbu	a6, 72(sp)
	lbu	a7, 73(sp)
	lbu	t2, 74(sp)
	lbu	t1, 75(sp)
	lui	a4, 16
	addi	a4, a4, -256
	srli	t3, a5, 8
	srli	t5, a5, 24
	slli	s1, s1, 24
	slli	s0, s0, 16
	or	t6, s1, s0
	and	s1, a5, a4
	slli	a5, a5, 24
	slli	s0, a1, 8
	slli	a6, a6, 24
	slli	a7, a7, 16
	or	t4, a6, a7
	srli	a2, a0, 8
	and	a3, t3, a4
	or	a3, a3, t5
	srli	a1, a0, 24
	slli	s1, s1, 8
	and	a2, a2, a4
	or	s1, s1, a5
	or	s0, t6, s0
	or	a1, a1, a2
	lw	a2, 0(sp)                       # 4-byte Folded Reload
	lw	a5, 0(a2)
	lw	a6, 4(a2)
	lw	a7, 8(a2)
	lw	t3, 12(a2)
	and	a4, a4, a0
	slli	a0, a0, 24
	slli	t2, t2, 8
	slli	a4, a4, 8
	or	a0, a0, a4
	or	a2, t4, t2
	or	a3, a3, s1
	or	s1, s0, t0
	or	a0, a0, a1
	or	a1, a2, t1
	sltu	a4, s1, s0
	sltu	a2, a1, a2
	xor	a1, a1, s8
	add	a3, a3, a4
	add	a0, a0, a2
	xor	a2, a0, s6
	xor	a4, a3, s5
	xor	a3, s1, s3
	addi	a0, sp, 24
	call	gcm_small.gcm.bitwise.product_bitwise
	lw	s8, 24(sp)
	lw	s6, 28(sp)
	lw	s3, 32(sp)
	lw	s5, 36(sp)
.Lgcm_small_BB26_11:                              # %common.ret
	lw	a0, 8(sp)                       # 4-byte Folded Reload
	sw	s8, 0(a0)
	sw	s6, 4(a0)
	sw	s3, 8(a0)
	sw	s5, 12(a0)
	lw	ra, 124(sp)                     # 4-byte Folded Reload
	lw	s0, 120(sp)                     # 4-byte Folded Reload
	lw	s1, 116(sp)                     # 4-byte Folded Reload
	lw	s2, 112(sp)                     # 4-byte Folded Reload
	lw	s3, 108(sp)                     # 4-byte Folded Reload
	lw	s4, 104(sp)                     # 4-byte Folded Reload
	lw	s5, 100(sp)                     # 4-byte Folded Reload
	lw	s6, 96(sp)                      # 4-byte Folded Reload
	lw	s7, 92(sp)                      # 4-byte Folded Reload
	lw	s8, 88(sp)                      # 4-byte Folded Reload
	lw	s9, 84(sp)                      # 4-byte Folded Reload
	lw	s10, 80(sp)                     # 4-byte Folded Reload
	lw	s11, 76(sp)                     # 4-byte Folded Reload
	addi	sp, sp, 128
	ret
.Lgcm_small_func_end26:
	.size	gcm_small.gcm.single_blocks.hash_singly.1, .Lgcm_small_func_end26-gcm_small.gcm.single_blocks.hash_singly.1
                                        # -- End function
	.section	.text.gcm_small.gcm.bitwise.product_bitwise,"ax",@progbits
	.p2align	1                               # -- Begin function gcm::bitwise::product_bitwise
	.type	gcm_small.gcm.bitwise.product_bitwise,@function
gcm_small.gcm.bitwise.product_bitwise:        # @gcm_small.gcm.bitwise.product_bitwise
# %bb.0:                                # %start
	addi	sp, sp, -32
	sw	s0, 28(sp)                      # 4-byte Folded Spill
	sw	s1, 24(sp)                      # 4-byte Folded Spill
	sw	s2, 20(sp)                      # 4-byte Folded Spill
	sw	s3, 16(sp)                      # 4-byte Folded Spill
	sw	s4, 12(sp)                      # 4-byte Folded Spill
	sw	s5, 8(sp)                       # 4-byte Folded Spill
	sw	s6, 4(sp)                       # 4-byte Folded Spill
	sw	s7, 0(sp)                       # 4-byte Folded Spill
	li	t0, 0
	li	t1, 0
	li	t2, 0
	li	t4, 0
	li	t5, 128
.Lgcm_small_BB27_1:                               # %join.5
                                        # =>This Inner Loop Header: Depth=1
	srai	t6, a4, 31
	srli	s3, a5, 1
	slli	s1, a6, 31
	srli	s2, a6, 1
	slli	s0, a7, 31
	srli	s4, a7, 1
	slli	s5, a5, 31
	and	s6, t6, a5
	or	s3, s3, s1
	slli	s1, t3, 31
	and	s7, t6, a6
	or	a6, s2, s0
	srli	s0, a1, 31
	and	a5, t6, a7
	or	a7, s4, s1
	slli	s1, a2, 1
	srli	a2, a2, 31
	or	s0, s0, s1
	slli	s1, a3, 1
	srli	a3, a3, 31
	or	s1, s1, a2
	slli	a4, a4, 1
	or	a4, a4, a3
	and	a2, t6, t3
	xor	t4, t4, a2
	srli	a2, t3, 1
	xor	t2, t2, a5
	lui	a3, 921600
	addi	t5, t5, -1
	srai	a5, s5, 31
	xor	t1, t1, s7
	xor	t0, t0, s6
	and	a3, a3, a5
	xor	t3, a3, a2
	slli	a1, a1, 1
	mv	a5, s3
	mv	a2, s0
	mv	a3, s1
	bnez	t5, .Lgcm_small_BB27_1
# %bb.2:                                # %after.1
	sw	t0, 0(a0)
	sw	t1, 4(a0)
	sw	t2, 8(a0)
	sw	t4, 12(a0)
	lw	s0, 28(sp)                      # 4-byte Folded Reload
	lw	s1, 24(sp)                      # 4-byte Folded Reload
	lw	s2, 20(sp)                      # 4-byte Folded Reload
	lw	s3, 16(sp)                      # 4-byte Folded Reload
	lw	s4, 12(sp)                      # 4-byte Folded Reload
	lw	s5, 8(sp)                       # 4-byte Folded Reload
	lw	s6, 4(sp)                       # 4-byte Folded Reload
	lw	s7, 0(sp)                       # 4-byte Folded Reload
	addi	sp, sp, 32
	ret
.Lgcm_small_func_end27:
	.size	gcm_small.gcm.bitwise.product_bitwise, .Lgcm_small_func_end27-gcm_small.gcm.bitwise.product_bitwise
                                        # -- End function
	.section	.text.gcm_small.gcm.tags.hash_lengths,"ax",@progbits
	.p2align	1                               # -- Begin function gcm::tags::hash_lengths::<#d9ba0fa9ccec4268>
	.type	gcm_small.gcm.tags.hash_lengths,@function
gcm_small.gcm.tags.hash_lengths: # @gcm_small.gcm.tags.hash_lengths
# %bb.0:                                # %start
	addi	sp, sp, -64
	sw	ra, 60(sp)                      # 4-byte Folded Spill
	sw	s0, 56(sp)                      # 4-byte Folded Spill
	sw	s1, 52(sp)                      # 4-byte Folded Spill
	sw	s2, 48(sp)                      # 4-byte Folded Spill
	sw	s3, 44(sp)                      # 4-byte Folded Spill
	sw	s4, 40(sp)                      # 4-byte Folded Spill
	sw	s5, 36(sp)                      # 4-byte Folded Spill
	sw	s6, 32(sp)                      # 4-byte Folded Spill
	sw	s7, 28(sp)                      # 4-byte Folded Spill
	sw	s8, 24(sp)                      # 4-byte Folded Spill
	sw	s9, 20(sp)                      # 4-byte Folded Spill
	mv	t0, a3
	mv	s2, a0
	slli	t6, a6, 3
	slli	s1, t3, 3
	srli	t5, a6, 29
	slli	a7, a7, 3
	lui	a6, 4080
	lui	t1, 1044480
	lui	t2, 16
	srli	a3, t3, 29
	slli	t4, t4, 3
	lw	a0, 0(a1)
	or	a7, a7, t5
	or	a6, t1, a6
	addi	s0, t2, -256
	or	t1, t4, a3
	xor	a1, s1, a2
	xor	a3, t6, a4
	or	a2, a6, s0
	and	a4, t6, a2
	and	a2, a2, s1
	sltu	a4, t6, a4
	sltu	a2, s1, a2
	lbu	t4, 0(a0)
	lbu	t3, 1(a0)
	lbu	a6, 2(a0)
	lbu	t2, 3(a0)
	lbu	s3, 4(a0)
	lbu	s4, 5(a0)
	lbu	t5, 6(a0)
	lbu	t6, 7(a0)
	add	a4, a4, a7
	lbu	s6, 8(a0)
	lbu	s1, 9(a0)
	lbu	a7, 10(a0)
	lbu	s5, 11(a0)
	add	a2, a2, t1
	xor	a2, a2, t0
	xor	a4, a4, a5
	lbu	a5, 12(a0)
	lbu	s0, 13(a0)
	lbu	t0, 14(a0)
	lbu	t1, 15(a0)
	slli	t4, t4, 24
	slli	t3, t3, 16
	slli	a6, a6, 8
	slli	s3, s3, 24
	slli	s4, s4, 16
	slli	t5, t5, 8
	slli	s6, s6, 24
	slli	s7, s1, 16
	slli	a7, a7, 8
	slli	s8, a5, 24
	slli	s9, s0, 16
	slli	t0, t0, 8
	or	t3, t3, t4
	or	s1, a6, t2
	or	a6, s3, s4
	or	s0, s7, s6
	or	a0, a7, s5
	or	a5, s8, s9
	or	t3, t3, s1
	or	s1, a6, t5
	or	a0, a0, s0
	or	s0, a5, t0
	or	a7, s1, t6
	or	a5, s0, t1
	sltu	s1, a7, s1
	sltu	a6, a5, s0
	add	t3, t3, s1
	add	a6, a6, a0
	mv	a0, sp
	call	gcm_small.gcm.bitwise.product_bitwise
	lw	a0, 0(sp)
	lw	a1, 4(sp)
	lw	a2, 8(sp)
	lw	a3, 12(sp)
	sw	a0, 0(s2)
	sw	a1, 4(s2)
	sw	a2, 8(s2)
	sw	a3, 12(s2)
	lw	ra, 60(sp)                      # 4-byte Folded Reload
	lw	s0, 56(sp)                      # 4-byte Folded Reload
	lw	s1, 52(sp)                      # 4-byte Folded Reload
	lw	s2, 48(sp)                      # 4-byte Folded Reload
	lw	s3, 44(sp)                      # 4-byte Folded Reload
	lw	s4, 40(sp)                      # 4-byte Folded Reload
	lw	s5, 36(sp)                      # 4-byte Folded Reload
	lw	s6, 32(sp)                      # 4-byte Folded Reload
	lw	s7, 28(sp)                      # 4-byte Folded Reload
	lw	s8, 24(sp)                      # 4-byte Folded Reload
	lw	s9, 20(sp)                      # 4-byte Folded Reload
	addi	sp, sp, 64
	ret
.Lgcm_small_func_end28:
	.size	gcm_small.gcm.tags.hash_lengths, .Lgcm_small_func_end28-gcm_small.gcm.tags.hash_lengths
                                        # -- End function
	.section	.text.gcm_small.aes_cipher.zeroize.stack.wipe_stack.512,"ax",@progbits
	.p2align	1                               # -- Begin function aes_cipher::zeroize::stack::wipe_stack::<=512>
	.type	gcm_small.aes_cipher.zeroize.stack.wipe_stack.512,@function
gcm_small.aes_cipher.zeroize.stack.wipe_stack.512: # @gcm_small.aes_cipher.zeroize.stack.wipe_stack.512
# %bb.0:                                # %start
	addi	sp, sp, -528
	sw	ra, 524(sp)                     # 4-byte Folded Spill
	sw	s0, 520(sp)                     # 4-byte Folded Spill
	addi	a0, sp, 8
	li	a2, 512
	addi	s0, sp, 8
	li	a1, 0
	call	memset
	sw	zero, 0(sp)
	sw	zero, 4(sp)
	#APP
	#NO_APP
	lw	a0, 0(sp)
	lw	a1, 4(sp)
	#APP
	#NO_APP
	seqz	a1, a1
	sltiu	a2, a0, 512
	and	a1, a1, a2
	beqz	a1, .Lgcm_small_BB29_2
# %bb.1:                                # %then.1
	add	a0, a0, s0
	lbu	a0, 0(a0)
	#APP
	#NO_APP
	lw	zero, 4(sp)
	lw	zero, 0(sp)
	sw	zero, 4(sp)
	sw	a0, 0(sp)
	#APP
	#NO_APP
.Lgcm_small_BB29_2:                               # %common.ret
	lw	ra, 524(sp)                     # 4-byte Folded Reload
	lw	s0, 520(sp)                     # 4-byte Folded Reload
	addi	sp, sp, 528
	ret
.Lgcm_small_func_end29:
	.size	gcm_small.aes_cipher.zeroize.stack.wipe_stack.512, .Lgcm_small_func_end29-gcm_small.aes_cipher.zeroize.stack.wipe_stack.512
                                        # -- End function
	.section	.text.gcm_small.gcm.mode.BorrowedGcm.put_tag_so_far,"ax",@progbits
	.p2align	1                               # -- Begin function gcm::mode::BorrowedGcm::put_tag_so_far::<#c01aad2b5fbc92b1>
	.type	gcm_small.gcm.mode.BorrowedGcm.put_tag_so_far,@function
gcm_small.gcm.mode.BorrowedGcm.put_tag_so_far: # @gcm_small.gcm.mode.BorrowedGcm.put_tag_so_far
# %bb.0:                                # %start
	addi	sp, sp, -80
	sw	ra, 76(sp)                      # 4-byte Folded Spill
	sw	s0, 72(sp)                      # 4-byte Folded Spill
	sw	s1, 68(sp)                      # 4-byte Folded Spill
	sw	s2, 64(sp)                      # 4-byte Folded Spill
	sw	s3, 60(sp)                      # 4-byte Folded Spill
	sw	s4, 56(sp)                      # 4-byte Folded Spill
	sw	s5, 52(sp)                      # 4-byte Folded Spill
	sw	s6, 48(sp)                      # 4-byte Folded Spill
	sw	s7, 44(sp)                      # 4-byte Folded Spill
	mv	s0, a2
	mv	s2, a1
	mv	s1, a0
	addi	a1, a1, 32
	li	a2, 16
	mv	a0, s0
	call	memmove
	lbu	a6, 0(s1)
	lbu	a7, 1(s1)
	lbu	a2, 2(s1)
	lbu	a3, 3(s1)
	lbu	a4, 8(s1)
	lbu	a5, 9(s1)
	lbu	a0, 10(s1)
	lbu	a1, 11(s1)
	slli	a7, a7, 8
	slli	a2, a2, 16
	slli	a3, a3, 24
	slli	a5, a5, 8
	slli	a0, a0, 16
	slli	a1, a1, 24
	or	a6, a7, a6
	or	a7, a3, a2
	or	a4, a4, a5
	or	a1, a1, a0
	lbu	a0, 13(s1)
	lbu	a3, 12(s1)
	lbu	a5, 14(s1)
	lbu	a2, 15(s1)
	slli	a0, a0, 8
	or	a3, a3, a0
	slli	a5, a5, 16
	slli	a2, a2, 24
	or	a2, a2, a5
	or	a0, a7, a6
	or	a1, a1, a4
	or	a2, a2, a3
	li	a4, 1
	li	s3, 1
	mv	a3, s0
	li	a5, 0
	call	gcm_small.aes_narrow.blocks.process_all_batches
	call	gcm_small.aes_cipher.zeroize.stack.wipe_stack.1024
	addi	a0, sp, 24
	mv	a1, s1
	mv	a2, s2
	call	gcm_small.gcm.mode.BorrowedGcm.hash_so_far
	lw	a7, 4(s2)
	lui	a0, 131072
	addi	a0, a0, -1
	beq	a7, a0, .Lgcm_small_BB30_2
# %bb.1:
	srli	a1, a7, 29
	seqz	s3, a1
.Lgcm_small_BB30_2:                               # %start
	bnez	s3, .Lgcm_small_BB30_4
# %bb.3:                                # %start
	mv	a7, a0
.Lgcm_small_BB30_4:                               # %start
	lw	a0, 0(s2)
	lw	t4, 12(s2)
	lw	t3, 8(s2)
	li	a1, 15
	addi	s3, s3, -1
	beq	t4, a1, .Lgcm_small_BB30_6
# %bb.5:                                # %start
	sltiu	a1, t4, 15
	j	.Lgcm_small_BB30_7
.Lgcm_small_BB30_6:
	sltiu	a1, t3, -32
.Lgcm_small_BB30_7:                               # %start
	lw	a2, 24(sp)
	lw	a3, 28(sp)
	lw	a4, 32(sp)
	lw	a5, 36(sp)
	or	a6, s3, a0
	bnez	a1, .Lgcm_small_BB30_9
# %bb.8:                                # %start
	li	t3, -32
	li	t4, 15
.Lgcm_small_BB30_9:                               # %start
	addi	a1, s1, 16
	addi	a0, sp, 8
	call	gcm_small.gcm.tags.hash_lengths
	lbu	a6, 16(sp)
	lbu	a7, 17(sp)
	lbu	t0, 18(sp)
	lbu	t1, 19(sp)
	lbu	t3, 12(sp)
	lbu	t4, 13(sp)
	lbu	t5, 14(sp)
	lbu	t2, 15(sp)
	lbu	s2, 8(sp)
	lbu	s3, 9(sp)
	lbu	s4, 10(sp)
	lbu	t6, 11(sp)
	lbu	a4, 12(s0)
	lbu	a5, 13(s0)
	lbu	s1, 14(s0)
	lbu	a0, 15(s0)
	lbu	s5, 8(s0)
	lbu	a2, 9(s0)
	lbu	a3, 10(s0)
	lbu	a1, 11(s0)
	xor	s2, a0, s2
	xor	s3, s1, s3
	xor	s4, a5, s4
	xor	t6, a4, t6
	lbu	s6, 4(s0)
	lbu	s1, 5(s0)
	lbu	a5, 6(s0)
	lbu	a4, 7(s0)
	xor	t3, a1, t3
	xor	t4, a3, t4
	xor	t5, a2, t5
	xor	t2, s5, t2
	lbu	s5, 0(s0)
	lbu	s7, 1(s0)
	lbu	a1, 2(s0)
	lbu	a0, 3(s0)
	xor	a6, a4, a6
	xor	a7, a5, a7
	xor	t0, s1, t0
	xor	a4, s6, t1
	lbu	a5, 20(sp)
	lbu	a3, 21(sp)
	lbu	s1, 22(sp)
	lbu	a2, 23(sp)
	xor	a0, a0, a5
	xor	a1, a1, a3
	xor	a3, s7, s1
	xor	a2, s5, a2
	sb	a2, 0(s0)
	sb	a3, 1(s0)
	sb	a1, 2(s0)
	sb	a0, 3(s0)
	sb	a4, 4(s0)
	sb	t0, 5(s0)
	sb	a7, 6(s0)
	sb	a6, 7(s0)
	sb	t2, 8(s0)
	sb	t5, 9(s0)
	sb	t4, 10(s0)
	sb	t3, 11(s0)
	sb	t6, 12(s0)
	sb	s4, 13(s0)
	sb	s3, 14(s0)
	sb	s2, 15(s0)
	lw	ra, 76(sp)                      # 4-byte Folded Reload
	lw	s0, 72(sp)                      # 4-byte Folded Reload
	lw	s1, 68(sp)                      # 4-byte Folded Reload
	lw	s2, 64(sp)                      # 4-byte Folded Reload
	lw	s3, 60(sp)                      # 4-byte Folded Reload
	lw	s4, 56(sp)                      # 4-byte Folded Reload
	lw	s5, 52(sp)                      # 4-byte Folded Reload
	lw	s6, 48(sp)                      # 4-byte Folded Reload
	lw	s7, 44(sp)                      # 4-byte Folded Reload
	addi	sp, sp, 80
	ret
.Lgcm_small_func_end30:
	.size	gcm_small.gcm.mode.BorrowedGcm.put_tag_so_far, .Lgcm_small_func_end30-gcm_small.gcm.mode.BorrowedGcm.put_tag_so_far
                                        # -- End function
	.section	.text.gcm_small.aes_narrow.blocks.process_all_batches,"ax",@progbits
	.p2align	1                               # -- Begin function aes_narrow::blocks::process_all_batches::<#f6c900d3ac1e47b9>
	.type	gcm_small.aes_narrow.blocks.process_all_batches,@function
gcm_small.aes_narrow.blocks.process_all_batches: # @gcm_small.aes_narrow.blocks.process_all_batches
# %bb.0:                                # %start
	addi	sp, sp, -48
	sw	ra, 44(sp)                      # 4-byte Folded Spill
	sw	s0, 40(sp)                      # 4-byte Folded Spill
	sw	s1, 36(sp)                      # 4-byte Folded Spill
	sw	s2, 32(sp)                      # 4-byte Folded Spill
	sw	s3, 28(sp)                      # 4-byte Folded Spill
	sw	s4, 24(sp)                      # 4-byte Folded Spill
	sw	s5, 20(sp)                      # 4-byte Folded Spill
	sw	s6, 16(sp)                      # 4-byte Folded Spill
	sw	s7, 12(sp)                      # 4-byte Folded Spill
	mv	s6, a5
	mv	s7, a4
	mv	s2, a3
	mv	s3, a2
	mv	s4, a1
	mv	s5, a0
	li	a0, 0
	li	s0, 0
	j	.Lgcm_small_BB31_2
.Lgcm_small_BB31_1:                               # %join.5
                                        #   in Loop: Header=BB31_2 Depth=1
	sltu	a1, s0, s6
	mv	a0, s1
	beqz	a1, .Lgcm_small_BB31_6
.Lgcm_small_BB31_2:                               # %join.5
                                        # =>This Inner Loop Header: Depth=1
	sltu	a1, s7, a0
	sub	a2, s6, s0
	sub	a2, a2, a1
	sub	a1, s7, a0
	seqz	a2, a2
	addi	a2, a2, -1
	or	a4, a2, a1
	li	a1, 2
	bltu	a4, a1, .Lgcm_small_BB31_4
# %bb.3:                                # %join.5
                                        #   in Loop: Header=BB31_2 Depth=1
	li	a4, 2
.Lgcm_small_BB31_4:                               # %join.5
                                        #   in Loop: Header=BB31_2 Depth=1
	add	s1, a4, a0
	slli	a0, a0, 4
	sltu	a1, s1, a4
	add	s0, s0, a1
	add	a3, s2, a0
	mv	a0, s5
	mv	a1, s4
	mv	a2, s3
	li	a5, 0
	call	gcm_small.aes_soft.soft.blocks.filled_up.process_filled_up
	bne	s0, s6, .Lgcm_small_BB31_1
# %bb.5:                                #   in Loop: Header=BB31_2 Depth=1
	sltu	a1, s1, s7
	mv	a0, s1
	bnez	a1, .Lgcm_small_BB31_2
.Lgcm_small_BB31_6:                               # %after.1
	lw	ra, 44(sp)                      # 4-byte Folded Reload
	lw	s0, 40(sp)                      # 4-byte Folded Reload
	lw	s1, 36(sp)                      # 4-byte Folded Reload
	lw	s2, 32(sp)                      # 4-byte Folded Reload
	lw	s3, 28(sp)                      # 4-byte Folded Reload
	lw	s4, 24(sp)                      # 4-byte Folded Reload
	lw	s5, 20(sp)                      # 4-byte Folded Reload
	lw	s6, 16(sp)                      # 4-byte Folded Reload
	lw	s7, 12(sp)                      # 4-byte Folded Reload
	addi	sp, sp, 48
	ret
.Lgcm_small_func_end31:
	.size	gcm_small.aes_narrow.blocks.process_all_batches, .Lgcm_small_func_end31-gcm_small.aes_narrow.blocks.process_all_batches
                                        # -- End function
	.section	.text.gcm_small.aes_soft.soft.blocks.filled_up.process_filled_up,"ax",@progbits
	.p2align	1                               # -- Begin function aes_soft::soft::blocks::filled_up::process_filled_up::<#f6c900d3ac1e47b9>
	.type	gcm_small.aes_soft.soft.blocks.filled_up.process_filled_up,@function
gcm_small.aes_soft.soft.blocks.filled_up.process_filled_up: # @gcm_small.aes_soft.soft.blocks.filled_up.process_filled_up
# %bb.0:                                # %start
	addi	sp, sp, -160
	sw	ra, 156(sp)                     # 4-byte Folded Spill
	sw	s0, 152(sp)                     # 4-byte Folded Spill
	sw	s1, 148(sp)                     # 4-byte Folded Spill
	sw	s2, 144(sp)                     # 4-byte Folded Spill
	sw	s3, 140(sp)                     # 4-byte Folded Spill
	sw	s4, 136(sp)                     # 4-byte Folded Spill
	sw	s5, 132(sp)                     # 4-byte Folded Spill
	sw	s6, 128(sp)                     # 4-byte Folded Spill
	mv	s3, a5
	mv	s4, a4
	mv	s0, a3
	mv	s6, a2
	mv	s5, a1
	mv	s2, a0
	lbu	a0, 12(a3)
	lbu	a1, 13(a3)
	lbu	a2, 14(a3)
	lbu	a3, 15(a3)
	lbu	a6, 8(s0)
	lbu	a5, 9(s0)
	lbu	s1, 10(s0)
	lbu	a4, 11(s0)
	slli	a1, a1, 8
	slli	a2, a2, 16
	slli	a3, a3, 24
	or	a7, a1, a0
	or	t0, a3, a2
	lbu	a1, 4(s0)
	lbu	a3, 5(s0)
	lbu	a0, 6(s0)
	lbu	a2, 7(s0)
	slli	a5, a5, 8
	slli	s1, s1, 16
	slli	a4, a4, 24
	slli	a3, a3, 8
	slli	a0, a0, 16
	slli	a2, a2, 24
	or	a6, a5, a6
	or	a4, a4, s1
	or	a1, a1, a3
	or	a0, a0, a2
	lbu	a2, 1(s0)
	lbu	a3, 0(s0)
	lbu	s1, 2(s0)
	lbu	a5, 3(s0)
	slli	a2, a2, 8
	or	a2, a2, a3
	slli	s1, s1, 16
	slli	a5, a5, 24
	or	a5, a5, s1
	or	a3, t0, a7
	or	a4, a4, a6
	or	a0, a0, a1
	or	a2, a2, a5
	sw	zero, 80(sp)
	sw	zero, 84(sp)
	sw	zero, 88(sp)
	sw	zero, 92(sp)
	sw	zero, 64(sp)
	sw	zero, 68(sp)
	sw	zero, 72(sp)
	sw	zero, 76(sp)
	sw	zero, 32(sp)
	sw	zero, 36(sp)
	sw	zero, 40(sp)
	sw	zero, 44(sp)
	sw	zero, 48(sp)
	sw	zero, 52(sp)
	sw	zero, 56(sp)
	sw	zero, 60(sp)
	sw	zero, 0(sp)
	sw	zero, 4(sp)
	sw	zero, 8(sp)
	sw	zero, 12(sp)
	sw	zero, 16(sp)
	sw	zero, 20(sp)
	sw	zero, 24(sp)
	sw	zero, 28(sp)
	sw	a2, 96(sp)
	sw	a0, 100(sp)
	sw	a4, 104(sp)
	sw	a3, 108(sp)
	addi	a0, sp, 112
	li	a2, 16
	mv	a1, s0
	call	memcpy
	slli	a0, s6, 29
	srli	a1, s5, 3
	srli	a2, s6, 3
	or	a4, s4, s3
	or	a0, a0, a1
	seqz	a1, a0
	sub	a3, a2, a1
	seqz	s5, a4
	addi	a2, a0, -1
	xori	s4, s4, 1
	beqz	a4, .Lgcm_small_BB32_2
# %bb.1:                                # %join.8.i
	lbu	t0, 12(s0)
	lbu	a1, 13(s0)
	lbu	a4, 14(s0)
	lbu	a5, 15(s0)
	lbu	a6, 8(s0)
	lbu	a7, 9(s0)
	lbu	t2, 10(s0)
	lbu	a0, 11(s0)
	slli	a1, a1, 8
	slli	a4, a4, 16
	slli	a5, a5, 24
	or	t0, a1, t0
	or	t1, a5, a4
	lbu	a5, 4(s0)
	lbu	a1, 5(s0)
	lbu	a4, 6(s0)
	lbu	s1, 7(s0)
	slli	a7, a7, 8
	slli	t2, t2, 16
	slli	a0, a0, 24
	slli	a1, a1, 8
	slli	a4, a4, 16
	slli	s1, s1, 24
	or	a6, a7, a6
	or	a7, a0, t2
	or	t2, a1, a5
	or	a4, a4, s1
	lbu	a5, 1(s0)
	lbu	s1, 0(s0)
	lbu	a0, 2(s0)
	lbu	a1, 3(s0)
	slli	a5, a5, 8
	or	a5, a5, s1
	slli	a0, a0, 16
	slli	a1, a1, 24
	or	a0, a0, a1
	or	a1, t1, t0
	or	s1, a7, a6
	or	a4, a4, t2
	or	a0, a0, a5
	or	a5, s4, s3
	sw	a0, 96(sp)
	sw	a4, 100(sp)
	sw	s1, 104(sp)
	sw	a1, 108(sp)
	bnez	a5, .Lgcm_small_BB32_3
.Lgcm_small_BB32_2:                               # %then.6.i
	lw	a0, 112(sp)
	lw	a1, 116(sp)
	lw	a4, 120(sp)
	lw	a5, 124(sp)
	sw	a0, 48(sp)
	sw	a1, 52(sp)
	sw	a4, 56(sp)
	sw	a5, 60(sp)
	lw	a0, 96(sp)
	lw	a1, 100(sp)
	lw	a4, 104(sp)
	lw	a5, 108(sp)
	sw	a0, 32(sp)
	sw	a1, 36(sp)
	sw	a4, 40(sp)
	sw	a5, 44(sp)
	j	.Lgcm_small_BB32_4
.Lgcm_small_BB32_3:                               # %join.8.i.1
	addi	a1, s0, 16
	addi	a0, sp, 112
	mv	s6, a2
	li	a2, 16
	mv	s1, a3
	call	memcpy
	mv	a2, s6
	mv	a3, s1
	lw	a0, 96(sp)
	lw	a1, 100(sp)
	lw	a4, 104(sp)
	lw	a5, 108(sp)
	sw	a0, 32(sp)
	sw	a1, 36(sp)
	sw	a4, 40(sp)
	sw	a5, 44(sp)
	lw	a0, 112(sp)
	lw	a1, 116(sp)
	lw	a4, 120(sp)
	lw	a5, 124(sp)
	sw	a0, 48(sp)
	sw	a1, 52(sp)
	sw	a4, 56(sp)
	sw	a5, 60(sp)
.Lgcm_small_BB32_4:                               # %"aes_soft::soft::blocks::filled_up::filled_up::<#ee324ebdabaa1892>.exit"
	mv	a0, sp
	addi	a4, sp, 32
	mv	a1, s2
	call	gcm_small.aes_soft.soft.ciphers.planes.process_outlined
	lw	a0, 16(sp)
	lw	a1, 20(sp)
	lw	a2, 24(sp)
	lw	a3, 28(sp)
	sw	a0, 80(sp)
	sw	a1, 84(sp)
	sw	a2, 88(sp)
	sw	a3, 92(sp)
	lw	a0, 0(sp)
	lw	a1, 4(sp)
	lw	a2, 8(sp)
	lw	a3, 12(sp)
	sw	a0, 64(sp)
	sw	a1, 68(sp)
	sw	a2, 72(sp)
	sw	a3, 76(sp)
	bnez	s5, .Lgcm_small_BB32_7
# %bb.5:                                # %join.8.i22.peel
	addi	a1, sp, 64
	li	a2, 16
	mv	a0, s0
	call	memcpy
	or	a0, s4, s3
	beqz	a0, .Lgcm_small_BB32_7
# %bb.6:                                # %join.8.i22.preheader.peel.newph
	addi	a1, sp, 80
	addi	a0, s0, 16
	li	a2, 16
	call	memcpy
.Lgcm_small_BB32_7:                               # %"aes_soft::soft::blocks::filled_up::copy_first::<#ee324ebdabaa1892>.exit"
	lw	ra, 156(sp)                     # 4-byte Folded Reload
	lw	s0, 152(sp)                     # 4-byte Folded Reload
	lw	s1, 148(sp)                     # 4-byte Folded Reload
	lw	s2, 144(sp)                     # 4-byte Folded Reload
	lw	s3, 140(sp)                     # 4-byte Folded Reload
	lw	s4, 136(sp)                     # 4-byte Folded Reload
	lw	s5, 132(sp)                     # 4-byte Folded Reload
	lw	s6, 128(sp)                     # 4-byte Folded Reload
	addi	sp, sp, 160
	ret
.Lgcm_small_func_end32:
	.size	gcm_small.aes_soft.soft.blocks.filled_up.process_filled_up, .Lgcm_small_func_end32-gcm_small.aes_soft.soft.blocks.filled_up.process_filled_up
                                        # -- End function
	.section	.text.gcm_small.aes_soft.soft.ciphers.planes.process_outlined,"ax",@progbits
	.p2align	1                               # -- Begin function aes_soft::soft::ciphers::planes::process_outlined::<#dc651273b304e77a>
	.type	gcm_small.aes_soft.soft.ciphers.planes.process_outlined,@function
gcm_small.aes_soft.soft.ciphers.planes.process_outlined: # @gcm_small.aes_soft.soft.ciphers.planes.process_outlined
# %bb.0:                                # %start
	addi	sp, sp, -160
	sw	ra, 156(sp)                     # 4-byte Folded Spill
	sw	s0, 152(sp)                     # 4-byte Folded Spill
	sw	s1, 148(sp)                     # 4-byte Folded Spill
	sw	s2, 144(sp)                     # 4-byte Folded Spill
	sw	s3, 140(sp)                     # 4-byte Folded Spill
	sw	s4, 136(sp)                     # 4-byte Folded Spill
	sw	s5, 132(sp)                     # 4-byte Folded Spill
	sw	s6, 128(sp)                     # 4-byte Folded Spill
	sw	s7, 124(sp)                     # 4-byte Folded Spill
	sw	s8, 120(sp)                     # 4-byte Folded Spill
	sw	s9, 116(sp)                     # 4-byte Folded Spill
	sw	s10, 112(sp)                    # 4-byte Folded Spill
	sw	s11, 108(sp)                    # 4-byte Folded Spill
	mv	s2, a3
	mv	s3, a2
	mv	s7, a1
	mv	s6, a0
	lbu	a6, 0(a4)
	lbu	a7, 1(a4)
	lbu	t0, 2(a4)
	lbu	a3, 3(a4)
	lbu	s0, 16(a4)
	lbu	s1, 17(a4)
	lbu	t1, 18(a4)
	lbu	t4, 19(a4)
	lbu	t2, 4(a4)
	lbu	t3, 5(a4)
	lbu	s4, 6(a4)
	lbu	a1, 7(a4)
	lbu	a2, 20(a4)
	lbu	a0, 21(a4)
	lbu	t5, 22(a4)
	lbu	t6, 23(a4)
	slli	a3, a3, 24
	slli	t0, t0, 16
	slli	a7, a7, 8
	slli	a5, s1, 8
	or	a6, a7, a6
	or	t0, t0, a3
	or	a7, a5, s0
	lbu	s5, 8(a4)
	lbu	s0, 9(a4)
	lbu	a5, 10(a4)
	lbu	s1, 11(a4)
	slli	t4, t4, 24
	slli	t1, t1, 16
	slli	a1, a1, 24
	slli	s4, s4, 16
	slli	t3, t3, 8
	slli	a0, a0, 8
	or	t1, t1, t4
	or	t2, t3, t2
	or	t4, s4, a1
	or	t3, a0, a2
	lbu	a2, 24(a4)
	lbu	a0, 25(a4)
	lbu	a1, 26(a4)
	lbu	a3, 27(a4)
	slli	t6, t6, 24
	slli	t5, t5, 16
	slli	s1, s1, 24
	slli	a5, a5, 16
	slli	s0, s0, 8
	slli	a0, a0, 8
	or	t5, t5, t6
	or	t6, s0, s5
	or	s5, a5, s1
	or	s4, a0, a2
	lbu	a2, 12(a4)
	lbu	s1, 13(a4)
	lbu	s0, 15(a4)
	lbu	a0, 14(a4)
	slli	a3, a3, 24
	slli	a1, a1, 16
	slli	s0, s0, 24
	slli	a0, a0, 16
	slli	s1, s1, 8
	or	s8, a1, a3
	or	s9, s1, a2
	or	s10, a0, s0
	lbu	a3, 29(a4)
	lbu	s0, 28(a4)
	lbu	s1, 31(a4)
	lbu	a4, 30(a4)
	slli	a3, a3, 8
	or	s11, a3, s0
	slli	s1, s1, 24
	slli	a4, a4, 16
	or	a4, a4, s1
	or	s1, a6, t0
	or	s0, a7, t1
	or	a5, t2, t4
	or	a1, t3, t5
	or	a2, t6, s5
	or	a0, s4, s8
	or	a3, s9, s10
	or	a4, s11, a4
	sw	s1, 76(sp)
	sw	s0, 80(sp)
	sw	a5, 84(sp)
	sw	a1, 88(sp)
	sw	a2, 92(sp)
	sw	a0, 96(sp)
	sw	a3, 100(sp)
	sw	a4, 104(sp)
	addi	a0, sp, 12
	addi	a1, sp, 76
	call	gcm_small.aes_planes.soft.word.transpose.transpose
	addi	a1, s3, -2
	lw	a6, 28(sp)
	lw	a7, 32(sp)
	lw	a2, 36(sp)
	lw	a3, 40(sp)
	lw	a4, 12(sp)
	lw	a5, 16(sp)
	lw	s1, 20(sp)
	lw	s0, 24(sp)
	sltu	a0, a1, s3
	srli	a1, a1, 2
	sw	s2, 8(sp)                       # 4-byte Folded Spill
	add	a0, a0, s2
	addi	s5, a0, -1
	sw	a6, 60(sp)
	sw	a7, 64(sp)
	sw	a2, 68(sp)
	sw	a3, 72(sp)
	slli	a0, s5, 30
	or	s8, a1, a0
	srli	s9, s5, 2
	sw	a4, 44(sp)
	sw	a5, 48(sp)
	sw	s1, 52(sp)
	sw	s0, 56(sp)
	addi	a0, sp, 76
	mv	a1, s7
	li	a2, 0
	li	a3, 0
	call	gcm_small.aes_planes.soft.round_keys.round_key.2
	lw	a0, 76(sp)
	lw	a6, 80(sp)
	lw	a7, 84(sp)
	lw	t0, 88(sp)
	lw	t1, 92(sp)
	lw	t2, 96(sp)
	lw	t4, 100(sp)
	lw	t3, 104(sp)
	lw	a1, 44(sp)
	lw	a2, 48(sp)
	lw	a3, 52(sp)
	lw	a4, 56(sp)
	lw	a5, 60(sp)
	lw	s0, 64(sp)
	lw	s1, 68(sp)
	lw	t5, 72(sp)
	xor	t6, a1, a0
	or	a1, s8, s9
	xor	a2, a2, a6
	xor	a3, a3, a7
	xor	a4, a4, t0
	xor	a5, a5, t1
	xor	s0, s0, t2
	xor	s1, s1, t4
	xor	a0, t5, t3
	sw	t6, 44(sp)
	sw	a2, 48(sp)
	sw	a3, 52(sp)
	sw	a4, 56(sp)
	sw	a5, 60(sp)
	sw	s0, 64(sp)
	sw	s1, 68(sp)
	sw	a0, 72(sp)
	beqz	a1, .Lgcm_small_BB33_5
# %bb.1:                                # %join.7.lr.ph.i
	li	s4, 0
	li	s11, 0
	j	.Lgcm_small_BB33_3
.Lgcm_small_BB33_2:                               # %join.7.i
                                        #   in Loop: Header=BB33_3 Depth=1
	sltu	a0, s11, s9
	beqz	a0, .Lgcm_small_BB33_5
.Lgcm_small_BB33_3:                               # %join.7.i
                                        # =>This Inner Loop Header: Depth=1
	srli	a0, s4, 30
	slli	s0, s11, 2
	slli	s10, s4, 2
	or	s2, s0, a0
	addi	s1, s10, 1
	addi	a0, sp, 44
	call	gcm_small.aes_planes.soft.sbox.sub_bytes
	addi	a0, sp, 44
	call	gcm_small.aes_planes.soft.mix_columns.mix_columns_1
	addi	a0, sp, 76
	mv	a1, s7
	mv	a2, s1
	mv	a3, s2
	call	gcm_small.aes_planes.soft.round_keys.round_key.2
	lw	a6, 76(sp)
	lw	a7, 80(sp)
	lw	t0, 84(sp)
	lw	t1, 88(sp)
	lw	t2, 92(sp)
	lw	t3, 96(sp)
	lw	t5, 100(sp)
	lw	t4, 104(sp)
	lw	a0, 44(sp)
	lw	a1, 48(sp)
	lw	a2, 52(sp)
	lw	a3, 56(sp)
	lw	a4, 60(sp)
	lw	a5, 64(sp)
	lw	s0, 68(sp)
	lw	s1, 72(sp)
	xor	a0, a0, a6
	xor	a1, a1, a7
	xor	a2, a2, t0
	xor	a3, a3, t1
	xor	a4, a4, t2
	xor	a5, a5, t3
	xor	s0, s0, t5
	xor	s1, s1, t4
	sw	a0, 44(sp)
	sw	a1, 48(sp)
	sw	a2, 52(sp)
	sw	a3, 56(sp)
	sw	a4, 60(sp)
	sw	a5, 64(sp)
	sw	s0, 68(sp)
	sw	s1, 72(sp)
	addi	s1, s10, 2
	addi	a0, sp, 44
	call	gcm_small.aes_planes.soft.sbox.sub_bytes
	addi	a0, sp, 44
	call	gcm_small.aes_planes.soft.mix_columns.mix_columns_2
	addi	a0, sp, 76
	mv	a1, s7
	mv	a2, s1
	mv	a3, s2
	call	gcm_small.aes_planes.soft.round_keys.round_key.2
	lw	a6, 76(sp)
	lw	a7, 80(sp)
	lw	t0, 84(sp)
	lw	t1, 88(sp)
	lw	t2, 92(sp)
	lw	t3, 96(sp)
	lw	t5, 100(sp)
	lw	t4, 104(sp)
	lw	a0, 44(sp)
	lw	a1, 48(sp)
	lw	a2, 52(sp)
	lw	a3, 56(sp)
	lw	a4, 60(sp)
	lw	a5, 64(sp)
	lw	s0, 68(sp)
	lw	s1, 72(sp)
	xor	a0, a0, a6
	xor	a1, a1, a7
	xor	a2, a2, t0
	xor	a3, a3, t1
	xor	a4, a4, t2
	xor	a5, a5, t3
	xor	s0, s0, t5
	xor	s1, s1, t4
	sw	a0, 44(sp)
	sw	a1, 48(sp)
	sw	a2, 52(sp)
	sw	a3, 56(sp)
	sw	a4, 60(sp)
	sw	a5, 64(sp)
	sw	s0, 68(sp)
	sw	s1, 72(sp)
	addi	s1, s10, 3
	addi	a0, sp, 44
	call	gcm_small.aes_planes.soft.sbox.sub_bytes
	addi	a0, sp, 44
	call	gcm_small.aes_planes.soft.mix_columns.mix_columns_3
	addi	a0, sp, 76
	mv	a1, s7
	mv	a2, s1
	mv	a3, s2
	call	gcm_small.aes_planes.soft.round_keys.round_key.2
	lw	a0, 76(sp)
	lw	a7, 80(sp)
	lw	t0, 84(sp)
	lw	t1, 88(sp)
	lw	t2, 92(sp)
	lw	t3, 96(sp)
	lw	t4, 100(sp)
	lw	a6, 104(sp)
	lw	s1, 44(sp)
	lw	a1, 48(sp)
	lw	a2, 52(sp)
	lw	a3, 56(sp)
	lw	a4, 60(sp)
	lw	a5, 64(sp)
	lw	t6, 68(sp)
	lw	t5, 72(sp)
	xor	ra, s1, a0
	addi	s1, s10, 4
	sltu	s10, s1, s10
	xor	a1, a1, a7
	xor	a2, a2, t0
	xor	a3, a3, t1
	xor	a4, a4, t2
	xor	a5, a5, t3
	xor	a0, t6, t4
	xor	s0, t5, a6
	sw	ra, 44(sp)
	sw	a1, 48(sp)
	sw	a2, 52(sp)
	sw	a3, 56(sp)
	sw	a4, 60(sp)
	sw	a5, 64(sp)
	sw	a0, 68(sp)
	sw	s0, 72(sp)
	add	s0, s2, s10
	addi	a0, sp, 44
	call	gcm_small.aes_planes.soft.sbox.sub_bytes
	addi	a0, sp, 44
	call	gcm_small.aes_planes.soft.mix_columns.mix_columns_0
	addi	a0, sp, 76
	mv	a1, s7
	mv	a2, s1
	mv	a3, s0
	call	gcm_small.aes_planes.soft.round_keys.round_key.2
	lw	a6, 76(sp)
	lw	a7, 80(sp)
	lw	t0, 84(sp)
	lw	t1, 88(sp)
	lw	t2, 92(sp)
	lw	t3, 96(sp)
	lw	t5, 100(sp)
	lw	t4, 104(sp)
	lw	a0, 44(sp)
	lw	a1, 48(sp)
	lw	a2, 52(sp)
	lw	a3, 56(sp)
	addi	s4, s4, 1
	seqz	a4, s4
	add	s11, s11, a4
	lw	a4, 60(sp)
	lw	a5, 64(sp)
	lw	s0, 68(sp)
	lw	s1, 72(sp)
	xor	a0, a0, a6
	xor	a1, a1, a7
	xor	a2, a2, t0
	xor	a3, a3, t1
	xor	a4, a4, t2
	xor	a5, a5, t3
	xor	s0, s0, t5
	xor	s1, s1, t4
	sw	a0, 44(sp)
	sw	a1, 48(sp)
	sw	a2, 52(sp)
	sw	a3, 56(sp)
	sw	a4, 60(sp)
	sw	a5, 64(sp)
	sw	s0, 68(sp)
	sw	s1, 72(sp)
	bne	s11, s9, .Lgcm_small_BB33_2
# %bb.4:                                #   in Loop: Header=BB33_3 Depth=1
	sltu	a0, s4, s8
	bnez	a0, .Lgcm_small_BB33_3
.Lgcm_small_BB33_5:                               # %after.3.i
	addi	s8, s3, -2
	andi	s2, s8, -4
	addi	s0, s2, 1
	addi	a0, sp, 44
	call	gcm_small.aes_planes.soft.sbox.sub_bytes
	addi	a0, sp, 44
	call	gcm_small.aes_planes.soft.mix_columns.mix_columns_1
	addi	a0, sp, 76
	mv	a1, s7
	mv	a2, s0
	mv	a3, s5
	call	gcm_small.aes_planes.soft.round_keys.round_key.2
	lw	a6, 76(sp)
	lw	a7, 80(sp)
	lw	t0, 84(sp)
	lw	t1, 88(sp)
	lw	t2, 92(sp)
	lw	t3, 96(sp)
	lw	t4, 100(sp)
	lw	t5, 104(sp)
	lw	a0, 44(sp)
	lw	a1, 48(sp)
	lw	a2, 52(sp)
	lw	a3, 56(sp)
	lw	a4, 60(sp)
	lw	a5, 64(sp)
	lw	s0, 68(sp)
	lw	s1, 72(sp)
	xor	a0, a0, a6
	xor	a1, a1, a7
	xor	a2, a2, t0
	xor	a3, a3, t1
	xor	a4, a4, t2
	xor	a5, a5, t3
	xor	s0, s0, t4
	xor	s1, s1, t5
	sw	a0, 44(sp)
	sw	a1, 48(sp)
	sw	a2, 52(sp)
	sw	a3, 56(sp)
	sw	a4, 60(sp)
	sw	a5, 64(sp)
	sw	s0, 68(sp)
	sw	s1, 72(sp)
	lw	s4, 8(sp)                       # 4-byte Folded Reload
	beq	s5, s4, .Lgcm_small_BB33_8
# %bb.6:                                # %after.3.i
	sltu	a0, s5, s4
	bnez	a0, .Lgcm_small_BB33_9
.Lgcm_small_BB33_7:                               # %else.12.i
	lui	a1, 61441
	addi	a1, a1, -256
	addi	a0, sp, 44
	call	gcm_small.aes_planes.soft.shifts.swap_columns.2
	j	.Lgcm_small_BB33_10
.Lgcm_small_BB33_8:
	addi	s2, s2, 2
	sltu	a0, s2, s3
	beqz	a0, .Lgcm_small_BB33_7
.Lgcm_small_BB33_9:                               # %then.11.i
	addi	a0, sp, 44
	call	gcm_small.aes_planes.soft.sbox.sub_bytes
	addi	a0, sp, 44
	call	gcm_small.aes_planes.soft.mix_columns.mix_columns_2
	addi	a0, sp, 76
	mv	a1, s7
	mv	a2, s8
	mv	a3, s5
	call	gcm_small.aes_planes.soft.round_keys.round_key.2
	lw	a0, 76(sp)
	lw	a7, 80(sp)
	lw	t0, 84(sp)
	lw	t1, 88(sp)
	lw	t2, 92(sp)
	lw	t3, 96(sp)
	lw	t4, 100(sp)
	lw	a6, 104(sp)
	lw	s0, 44(sp)
	lw	a1, 48(sp)
	lw	a2, 52(sp)
	lw	a3, 56(sp)
	lw	a4, 60(sp)
	lw	a5, 64(sp)
	lw	s1, 68(sp)
	lw	t5, 72(sp)
	xor	a0, a0, s0
	seqz	s0, s3
	sub	s2, s4, s0
	xor	a1, a1, a7
	xor	a2, a2, t0
	xor	a3, a3, t1
	xor	a4, a4, t2
	xor	a5, a5, t3
	xor	s1, s1, t4
	xor	s0, t5, a6
	sw	a0, 44(sp)
	sw	a1, 48(sp)
	sw	a2, 52(sp)
	sw	a3, 56(sp)
	sw	a4, 60(sp)
	sw	a5, 64(sp)
	sw	s1, 68(sp)
	sw	s0, 72(sp)
	addi	s1, s3, -1
	addi	a0, sp, 44
	call	gcm_small.aes_planes.soft.sbox.sub_bytes
	addi	a0, sp, 44
	call	gcm_small.aes_planes.soft.mix_columns.mix_columns_3
	addi	a0, sp, 76
	mv	a1, s7
	mv	a2, s1
	mv	a3, s2
	call	gcm_small.aes_planes.soft.round_keys.round_key.2
	lw	a6, 76(sp)
	lw	a7, 80(sp)
	lw	t0, 84(sp)
	lw	t1, 88(sp)
	lw	t2, 92(sp)
	lw	t3, 96(sp)
	lw	t5, 100(sp)
	lw	t4, 104(sp)
	lw	a0, 44(sp)
	lw	a1, 48(sp)
	lw	a2, 52(sp)
	lw	a3, 56(sp)
	lw	a4, 60(sp)
	lw	a5, 64(sp)
	lw	s0, 68(sp)
	lw	s1, 72(sp)
	xor	a0, a0, a6
	xor	a1, a1, a7
	xor	a2, a2, t0
	xor	a3, a3, t1
	xor	a4, a4, t2
	xor	a5, a5, t3
	xor	s0, s0, t5
	xor	s1, s1, t4
	sw	a0, 44(sp)
	sw	a1, 48(sp)
	sw	a2, 52(sp)
	sw	a3, 56(sp)
	sw	a4, 60(sp)
	sw	a5, 64(sp)
	sw	s0, 68(sp)
	sw	s1, 72(sp)
.Lgcm_small_BB33_10:                              # %"aes_soft::soft::ciphers::planes::EncryptPlaneCipher::process_planes::<#49ec3a76f5e72ccf>.exit"
	addi	a0, sp, 44
	call	gcm_small.aes_planes.soft.sbox.sub_bytes
	addi	a0, sp, 76
	mv	a1, s7
	mv	a2, s3
	mv	a3, s4
	call	gcm_small.aes_planes.soft.round_keys.round_key.2
	lw	a6, 76(sp)
	lw	a7, 80(sp)
	lw	t0, 84(sp)
	lw	t1, 88(sp)
	lw	t2, 92(sp)
	lw	t3, 96(sp)
	lw	t5, 100(sp)
	lw	t4, 104(sp)
	lw	a0, 44(sp)
	lw	a1, 48(sp)
	lw	a2, 52(sp)
	lw	a3, 56(sp)
	lw	a4, 60(sp)
	lw	a5, 64(sp)
	lw	s0, 68(sp)
	lw	s1, 72(sp)
	xor	a0, a0, a6
	xor	a1, a1, a7
	xor	a2, a2, t0
	xor	a3, a3, t1
	xor	a4, a4, t2
	xor	a5, a5, t3
	xor	s0, s0, t5
	xor	s1, s1, t4
	sw	a0, 44(sp)
	sw	a1, 48(sp)
	sw	a2, 52(sp)
	sw	a3, 56(sp)
	sw	a4, 60(sp)
	sw	a5, 64(sp)
	sw	s0, 68(sp)
	sw	s1, 72(sp)
	sw	a4, 28(sp)
	sw	a5, 32(sp)
	sw	s0, 36(sp)
	sw	s1, 40(sp)
	sw	a0, 12(sp)
	sw	a1, 16(sp)
	sw	a2, 20(sp)
	sw	a3, 24(sp)
	addi	a0, sp, 76
	addi	a1, sp, 12
	call	gcm_small.aes_planes.soft.word.transpose.transpose
	lw	a2, 76(sp)
	lw	a1, 80(sp)
	lw	a3, 84(sp)
	lw	a0, 88(sp)
	srli	a4, a2, 8
	srli	a5, a2, 16
	srli	s1, a2, 24
	srli	s0, a3, 8
	sb	a2, 0(s6)
	srli	a2, a3, 16
	sb	a4, 1(s6)
	sb	a5, 2(s6)
	sb	s1, 3(s6)
	sb	a3, 4(s6)
	sb	s0, 5(s6)
	lw	a4, 92(sp)
	lw	a5, 96(sp)
	lw	s1, 100(sp)
	lw	s0, 104(sp)
	srli	a3, a3, 24
	sb	a2, 6(s6)
	srli	a2, a4, 8
	sb	a3, 7(s6)
	srli	a3, a4, 16
	sb	a2, 9(s6)
	sb	a4, 8(s6)
	srli	a4, a4, 24
	sb	a3, 10(s6)
	srli	a2, s1, 8
	sb	a4, 11(s6)
	srli	a3, s1, 16
	sb	a2, 13(s6)
	sb	s1, 12(s6)
	srli	s1, s1, 24
	sb	a3, 14(s6)
	srli	a2, a1, 8
	sb	s1, 15(s6)
	srli	a3, a1, 16
	sb	a2, 17(s6)
	sb	a1, 16(s6)
	srli	a1, a1, 24
	sb	a3, 18(s6)
	srli	a2, a0, 8
	sb	a1, 19(s6)
	srli	a1, a0, 16
	sb	a2, 21(s6)
	sb	a0, 20(s6)
	srli	a0, a0, 24
	sb	a1, 22(s6)
	srli	a1, a5, 8
	sb	a0, 23(s6)
	srli	a0, a5, 16
	sb	a1, 25(s6)
	sb	a5, 24(s6)
	srli	a5, a5, 24
	sb	a0, 26(s6)
	srli	a0, s0, 8
	sb	a5, 27(s6)
	srli	a1, s0, 16
	sb	a0, 29(s6)
	sb	s0, 28(s6)
	srli	s0, s0, 24
	sb	a1, 30(s6)
	sb	s0, 31(s6)
	lw	ra, 156(sp)                     # 4-byte Folded Reload
	lw	s0, 152(sp)                     # 4-byte Folded Reload
	lw	s1, 148(sp)                     # 4-byte Folded Reload
	lw	s2, 144(sp)                     # 4-byte Folded Reload
	lw	s3, 140(sp)                     # 4-byte Folded Reload
	lw	s4, 136(sp)                     # 4-byte Folded Reload
	lw	s5, 132(sp)                     # 4-byte Folded Reload
	lw	s6, 128(sp)                     # 4-byte Folded Reload
	lw	s7, 124(sp)                     # 4-byte Folded Reload
	lw	s8, 120(sp)                     # 4-byte Folded Reload
	lw	s9, 116(sp)                     # 4-byte Folded Reload
	lw	s10, 112(sp)                    # 4-byte Folded Reload
	lw	s11, 108(sp)                    # 4-byte Folded Reload
	addi	sp, sp, 160
	ret
.Lgcm_small_func_end33:
	.size	gcm_small.aes_soft.soft.ciphers.planes.process_outlined, .Lgcm_small_func_end33-gcm_small.aes_soft.soft.ciphers.planes.process_outlined
                                        # -- End function
	.section	.text.gcm_small.aes_planes.soft.mix_columns.mix_columns_0,"ax",@progbits
	.p2align	1                               # -- Begin function aes_planes::soft::mix_columns::mix_columns_0::<#b6c81c619c5084c8>
	.type	gcm_small.aes_planes.soft.mix_columns.mix_columns_0,@function
gcm_small.aes_planes.soft.mix_columns.mix_columns_0: # @gcm_small.aes_planes.soft.mix_columns.mix_columns_0
# %bb.0:                                # %start
	addi	sp, sp, -64
	sw	ra, 60(sp)                      # 4-byte Folded Spill
	sw	s0, 56(sp)                      # 4-byte Folded Spill
	sw	s1, 52(sp)                      # 4-byte Folded Spill
	sw	s2, 48(sp)                      # 4-byte Folded Spill
	sw	s3, 44(sp)                      # 4-byte Folded Spill
	sw	s4, 40(sp)                      # 4-byte Folded Spill
	sw	s5, 36(sp)                      # 4-byte Folded Spill
	sw	s6, 32(sp)                      # 4-byte Folded Spill
	sw	s7, 28(sp)                      # 4-byte Folded Spill
	sw	s8, 24(sp)                      # 4-byte Folded Spill
	sw	s9, 20(sp)                      # 4-byte Folded Spill
	sw	s10, 16(sp)                     # 4-byte Folded Spill
	sw	s11, 12(sp)                     # 4-byte Folded Spill
	lw	a2, 0(a0)
	lw	a3, 4(a0)
	lw	a4, 8(a0)
	lw	a5, 12(a0)
	lw	a1, 16(a0)
	lw	a7, 20(a0)
	lw	t0, 24(a0)
	lw	t1, 28(a0)
	srli	a6, a2, 8
	slli	t2, a2, 24
	srli	t3, a3, 8
	slli	t4, a3, 24
	srli	t5, a4, 8
	slli	t6, a4, 24
	srli	s2, a5, 8
	slli	s3, a5, 24
	srli	s4, a1, 8
	slli	s5, a1, 24
	srli	s6, a7, 8
	slli	s7, a7, 24
	srli	s8, t0, 8
	slli	s9, t0, 24
	srli	s0, t1, 8
	slli	s1, t1, 24
	or	a6, t2, a6
	or	t2, t4, t3
	or	t3, t6, t5
	or	t4, s3, s2
	or	t5, s5, s4
	or	t6, s7, s6
	or	s2, s9, s8
	or	s3, s1, s0
	xor	s1, a6, a2
	xor	a3, t2, a3
	xor	a4, t3, a4
	xor	a5, t4, a5
	xor	a1, t5, a1
	xor	s0, t6, a7
	xor	a7, s2, t0
	xor	a2, s3, t1
	srli	t0, s1, 16
	slli	t1, s1, 16
	srli	s4, a3, 16
	slli	s5, a3, 16
	srli	s6, a4, 16
	slli	s7, a4, 16
	srli	s8, a5, 16
	slli	s9, a5, 16
	srli	s10, a1, 16
	xor	t2, s1, t2
	slli	s11, a1, 16
	xor	t3, t3, a3
	srli	ra, s0, 16
	xor	t4, a4, t4
	slli	s1, s0, 16
	xor	a5, a5, t5
	srli	a4, a7, 16
	xor	t5, t6, a1
	slli	a1, a7, 16
	xor	t6, s2, s0
	srli	s2, a2, 16
	xor	a7, s3, a7
	slli	s0, a2, 16
	xor	a6, a6, a2
	or	a3, t1, t0
	or	t0, s5, s4
	or	t1, s7, s6
	or	s3, s9, s8
	or	s4, s11, s10
	or	s1, s1, ra
	or	s5, a1, a4
	or	s2, s0, s2
	xor	s0, t2, a2
	xor	a1, t4, a2
	xor	a2, a2, a5
	xor	a3, a3, a6
	xor	a5, s0, t0
	xor	s0, t3, t1
	xor	a1, a1, s3
	xor	a2, a2, s4
	xor	s1, t5, s1
	xor	a4, t6, s5
	xor	a6, a7, s2
	sw	a3, 0(a0)
	sw	a5, 4(a0)
	sw	s0, 8(a0)
	sw	a1, 12(a0)
	sw	a2, 16(a0)
	sw	s1, 20(a0)
	sw	a4, 24(a0)
	sw	a6, 28(a0)
	lw	ra, 60(sp)                      # 4-byte Folded Reload
	lw	s0, 56(sp)                      # 4-byte Folded Reload
	lw	s1, 52(sp)                      # 4-byte Folded Reload
	lw	s2, 48(sp)                      # 4-byte Folded Reload
	lw	s3, 44(sp)                      # 4-byte Folded Reload
	lw	s4, 40(sp)                      # 4-byte Folded Reload
	lw	s5, 36(sp)                      # 4-byte Folded Reload
	lw	s6, 32(sp)                      # 4-byte Folded Reload
	lw	s7, 28(sp)                      # 4-byte Folded Reload
	lw	s8, 24(sp)                      # 4-byte Folded Reload
	lw	s9, 20(sp)                      # 4-byte Folded Reload
	lw	s10, 16(sp)                     # 4-byte Folded Reload
	lw	s11, 12(sp)                     # 4-byte Folded Reload
	addi	sp, sp, 64
	ret
.Lgcm_small_func_end34:
	.size	gcm_small.aes_planes.soft.mix_columns.mix_columns_0, .Lgcm_small_func_end34-gcm_small.aes_planes.soft.mix_columns.mix_columns_0
                                        # -- End function
	.section	.text.gcm_small.aes_planes.soft.mix_columns.mix_columns_1,"ax",@progbits
	.p2align	1                               # -- Begin function aes_planes::soft::mix_columns::mix_columns_1::<#b6c81c619c5084c8>
	.type	gcm_small.aes_planes.soft.mix_columns.mix_columns_1,@function
gcm_small.aes_planes.soft.mix_columns.mix_columns_1: # @gcm_small.aes_planes.soft.mix_columns.mix_columns_1
# %bb.0:                                # %start
	addi	sp, sp, -64
	sw	ra, 60(sp)                      # 4-byte Folded Spill
	sw	s0, 56(sp)                      # 4-byte Folded Spill
	sw	s1, 52(sp)                      # 4-byte Folded Spill
	sw	s2, 48(sp)                      # 4-byte Folded Spill
	sw	s3, 44(sp)                      # 4-byte Folded Spill
	sw	s4, 40(sp)                      # 4-byte Folded Spill
	sw	s5, 36(sp)                      # 4-byte Folded Spill
	sw	s6, 32(sp)                      # 4-byte Folded Spill
	sw	s7, 28(sp)                      # 4-byte Folded Spill
	sw	s8, 24(sp)                      # 4-byte Folded Spill
	sw	s9, 20(sp)                      # 4-byte Folded Spill
	sw	s10, 16(sp)                     # 4-byte Folded Spill
	sw	s11, 12(sp)                     # 4-byte Folded Spill
	mv	a6, a0
	lw	t4, 0(a0)
	lw	a4, 4(a0)
	lw	a5, 8(a0)
	lw	s0, 12(a0)
	lw	s1, 16(a0)
	lw	t0, 20(a0)
	lw	t1, 24(a0)
	lw	t2, 28(a0)
	srli	t3, t4, 10
	slli	t5, t4, 22
	srli	a7, t4, 2
	slli	a2, t4, 30
	srli	t6, a4, 10
	slli	s4, a4, 22
	srli	s2, a4, 2
	slli	s6, a4, 30
	srli	s3, a5, 10
	slli	s7, a5, 22
	srli	s5, a5, 2
	slli	s8, a5, 30
	srli	s9, s0, 10
	slli	s10, s0, 22
	srli	ra, s0, 2
	slli	a1, s0, 30
	srli	s11, s1, 10
	or	t3, t5, t3
	slli	t5, s1, 22
	or	a7, a2, a7
	srli	a3, s1, 2
	or	a0, s4, t6
	slli	t6, s1, 30
	or	s2, s6, s2
	srli	s4, t0, 10
	or	s3, s7, s3
	slli	s6, t0, 22
	or	s5, s8, s5
	srli	s7, t0, 2
	or	s8, s10, s9
	slli	s9, t0, 30
	or	s10, a1, ra
	srli	ra, t1, 10
	or	t5, t5, s11
	slli	s11, t1, 22
	or	t6, t6, a3
	srli	a3, t1, 2
	or	s4, s6, s4
	slli	a1, t1, 30
	or	s6, s9, s7
	srli	s7, t2, 10
	or	s9, s11, ra
	slli	s11, t2, 22
	or	ra, a1, a3
	srli	a3, t2, 2
	or	s11, s11, s7
	slli	a2, t2, 30
	or	a2, a2, a3
	lui	s7, 789516
	lui	a3, 259060
	addi	a3, a3, -193
	addi	a1, s7, 192
	and	t3, t3, a3
	and	a7, a7, a1
	and	s7, a0, a3
	and	s2, s2, a1
	and	a0, s3, a3
	and	s5, s5, a1
	and	s8, s8, a3
	and	s10, s10, a1
	and	t5, t5, a3
	and	t6, t6, a1
	and	s4, s4, a3
	and	s6, s6, a1
	and	s9, s9, a3
	and	ra, ra, a1
	and	s11, s11, a3
	and	a1, a1, a2
	or	a3, t3, a7
	sw	a3, 8(sp)                       # 4-byte Folded Spill
	or	s3, s7, s2
	or	s2, a0, s5
	or	a0, s8, s10
	or	t5, t5, t6
	or	t6, s4, s6
	or	a2, s9, ra
	or	a7, s11, a1
	xor	a1, a3, t4
	xor	a4, s3, a4
	xor	a5, s2, a5
	xor	s0, s0, a0
	xor	s1, t5, s1
	xor	a3, t6, t0
	xor	t1, a2, t1
	xor	t3, a7, t2
	srli	t0, a1, 20
	slli	t2, a1, 12
	srli	s4, a1, 12
	slli	s5, a1, 20
	srli	s6, a4, 20
	slli	s7, a4, 12
	srli	s8, a4, 12
	slli	s9, a4, 20
	srli	s10, a5, 20
	slli	s11, a5, 12
	xor	s3, a1, s3
	srli	ra, a5, 12
	xor	a1, s2, a4
	sw	a1, 4(sp)                       # 4-byte Folded Spill
	slli	a4, a5, 20
	xor	s2, a5, a0
	srli	a5, s0, 20
	or	t2, t2, t0
	slli	a0, s0, 12
	or	t4, s5, s4
	srli	s5, s0, 12
	xor	t5, s0, t5
	slli	s0, s0, 20
	or	s4, s7, s6
	srli	s7, s1, 20
	or	s6, s9, s8
	slli	a1, s1, 12
	or	s8, s11, s10
	srli	s9, s1, 12
	xor	t6, t6, s1
	slli	s1, s1, 20
	or	s10, a4, ra
	srli	a4, a3, 20
	or	s11, a0, a5
	slli	a0, a3, 12
	or	s5, s0, s5
	srli	s0, a3, 12
	xor	ra, a2, a3
	slli	a3, a3, 20
	or	a1, a1, s7
	srli	a5, t1, 20
	or	s7, s1, s9
	slli	s1, t1, 12
	or	a0, a0, a4
	srli	a4, t1, 12
	xor	t0, a7, t1
	slli	t1, t1, 20
	or	s9, a3, s0
	srli	s0, t3, 20
	or	a5, a5, s1
	slli	s1, t3, 12
	or	a4, t1, a4
	srli	a3, t3, 12
	or	s0, s0, s1
	slli	a2, t3, 20
	or	a2, a2, a3
	lw	a3, 8(sp)                       # 4-byte Folded Reload
	xor	a7, a3, t3
	xor	s3, s3, t3
	xor	t1, s2, t3
	xor	t3, t5, t3
	lui	a3, 61681
	addi	a3, a3, -241
	and	s1, t2, a3
	and	t2, s4, a3
	and	t5, s8, a3
	and	s2, s11, a3
	and	s8, a1, a3
	and	s4, a0, a3
	and	a5, a5, a3
	and	s11, s0, a3
	lui	s0, 986895
	addi	s0, s0, 240
	and	a0, t4, s0
	and	a1, s6, s0
	and	a3, s10, s0
	and	t4, s5, s0
	and	s5, s7, s0
	and	s6, s9, s0
	and	a4, a4, s0
	and	a2, a2, s0
	or	a0, a0, s1
	or	a1, t2, a1
	or	a3, t5, a3
	or	s1, s2, t4
	or	s0, s8, s5
	or	t2, s4, s6
	or	a4, a4, a5
	or	a2, s11, a2
	xor	a0, a0, a7
	xor	a1, s3, a1
	lw	a5, 4(sp)                       # 4-byte Folded Reload
	xor	a3, a3, a5
	xor	a5, t1, s1
	xor	s1, t3, s0
	xor	s0, t6, t2
	xor	a4, ra, a4
	xor	a2, t0, a2
	sw	a0, 0(a6)
	sw	a1, 4(a6)
	sw	a3, 8(a6)
	sw	a5, 12(a6)
	sw	s1, 16(a6)
	sw	s0, 20(a6)
	sw	a4, 24(a6)
	sw	a2, 28(a6)
	lw	ra, 60(sp)                      # 4-byte Folded Reload
	lw	s0, 56(sp)                      # 4-byte Folded Reload
	lw	s1, 52(sp)                      # 4-byte Folded Reload
	lw	s2, 48(sp)                      # 4-byte Folded Reload
	lw	s3, 44(sp)                      # 4-byte Folded Reload
	lw	s4, 40(sp)                      # 4-byte Folded Reload
	lw	s5, 36(sp)                      # 4-byte Folded Reload
	lw	s6, 32(sp)                      # 4-byte Folded Reload
	lw	s7, 28(sp)                      # 4-byte Folded Reload
	lw	s8, 24(sp)                      # 4-byte Folded Reload
	lw	s9, 20(sp)                      # 4-byte Folded Reload
	lw	s10, 16(sp)                     # 4-byte Folded Reload
	lw	s11, 12(sp)                     # 4-byte Folded Reload
	addi	sp, sp, 64
	ret
.Lgcm_small_func_end35:
	.size	gcm_small.aes_planes.soft.mix_columns.mix_columns_1, .Lgcm_small_func_end35-gcm_small.aes_planes.soft.mix_columns.mix_columns_1
                                        # -- End function
	.section	.text.gcm_small.aes_planes.soft.mix_columns.mix_columns_2,"ax",@progbits
	.p2align	1                               # -- Begin function aes_planes::soft::mix_columns::mix_columns_2::<#b6c81c619c5084c8>
	.type	gcm_small.aes_planes.soft.mix_columns.mix_columns_2,@function
gcm_small.aes_planes.soft.mix_columns.mix_columns_2: # @gcm_small.aes_planes.soft.mix_columns.mix_columns_2
# %bb.0:                                # %start
	addi	sp, sp, -64
	sw	ra, 60(sp)                      # 4-byte Folded Spill
	sw	s0, 56(sp)                      # 4-byte Folded Spill
	sw	s1, 52(sp)                      # 4-byte Folded Spill
	sw	s2, 48(sp)                      # 4-byte Folded Spill
	sw	s3, 44(sp)                      # 4-byte Folded Spill
	sw	s4, 40(sp)                      # 4-byte Folded Spill
	sw	s5, 36(sp)                      # 4-byte Folded Spill
	sw	s6, 32(sp)                      # 4-byte Folded Spill
	sw	s7, 28(sp)                      # 4-byte Folded Spill
	sw	s8, 24(sp)                      # 4-byte Folded Spill
	sw	s9, 20(sp)                      # 4-byte Folded Spill
	sw	s10, 16(sp)                     # 4-byte Folded Spill
	sw	s11, 12(sp)                     # 4-byte Folded Spill
	lw	t2, 0(a0)
	lw	a2, 4(a0)
	lw	a3, 8(a0)
	lw	a4, 12(a0)
	lw	s1, 16(a0)
	lw	a6, 20(a0)
	lw	a7, 24(a0)
	lw	t0, 28(a0)
	srli	t1, t2, 12
	slli	a1, t2, 20
	srli	t3, t2, 4
	slli	t4, t2, 28
	srli	t5, a2, 12
	slli	t6, a2, 20
	srli	s3, a2, 4
	slli	s6, a2, 28
	srli	s2, a3, 12
	slli	s5, a3, 20
	srli	s4, a3, 4
	slli	s7, a3, 28
	srli	s8, a4, 12
	slli	s9, a4, 20
	srli	s11, a4, 4
	slli	ra, a4, 28
	srli	s10, s1, 12
	or	t1, a1, t1
	slli	s0, s1, 20
	or	a1, t4, t3
	sw	a1, 8(sp)                       # 4-byte Folded Spill
	srli	t4, s1, 4
	or	t3, t6, t5
	slli	t6, s1, 28
	or	t5, s6, s3
	srli	s3, a6, 12
	or	s2, s5, s2
	slli	s5, a6, 20
	or	s4, s7, s4
	srli	s7, a6, 4
	or	s6, s9, s8
	slli	a5, a6, 28
	or	s8, ra, s11
	srli	s9, a7, 12
	or	s10, s0, s10
	slli	s11, a7, 20
	or	t4, t6, t4
	srli	ra, a7, 4
	or	t6, s5, s3
	slli	s0, a7, 28
	or	s3, a5, s7
	srli	s7, t0, 12
	or	s5, s11, s9
	slli	a5, t0, 20
	or	s9, s0, ra
	srli	s0, t0, 4
	or	a5, a5, s7
	slli	a1, t0, 28
	or	s7, a1, s0
	lui	s0, 61681
	addi	s0, s0, -241
	and	t1, t1, s0
	and	t3, t3, s0
	and	s2, s2, s0
	and	s6, s6, s0
	and	s10, s10, s0
	and	t6, t6, s0
	and	s5, s5, s0
	and	s11, a5, s0
	lui	s0, 986895
	addi	s0, s0, 240
	lw	a1, 8(sp)                       # 4-byte Folded Reload
	and	a1, a1, s0
	and	a5, t5, s0
	and	t5, s4, s0
	and	s4, s8, s0
	and	t4, t4, s0
	and	s3, s3, s0
	and	s8, s9, s0
	and	s0, s7, s0
	or	t1, t1, a1
	or	s7, t3, a5
	or	t3, s2, t5
	or	t5, s6, s4
	or	t4, s10, t4
	or	t6, t6, s3
	or	s2, s5, s8
	or	s3, s11, s0
	xor	s0, t1, t2
	xor	a2, s7, a2
	xor	a3, t3, a3
	xor	a4, t5, a4
	xor	s1, t4, s1
	xor	a5, t6, a6
	xor	a6, s2, a7
	xor	a1, s3, t0
	srli	a7, s0, 16
	slli	t0, s0, 16
	srli	t2, a2, 16
	slli	s4, a2, 16
	srli	s5, a3, 16
	slli	s6, a3, 16
	srli	s8, a4, 16
	slli	s9, a4, 16
	srli	s10, s1, 16
	xor	s7, s0, s7
	slli	s11, s1, 16
	xor	t3, t3, a2
	srli	ra, a5, 16
	xor	t5, a3, t5
	slli	s0, a5, 16
	xor	a4, a4, t4
	srli	a3, a6, 16
	xor	t4, t6, s1
	slli	s1, a6, 16
	xor	t6, s2, a5
	srli	s2, a1, 16
	xor	a6, s3, a6
	slli	a5, a1, 16
	xor	t1, t1, a1
	or	a2, t0, a7
	or	a7, s4, t2
	or	t0, s6, s5
	or	t2, s9, s8
	or	s3, s11, s10
	or	s0, s0, ra
	or	s4, s1, a3
	or	s2, a5, s2
	xor	s1, s7, a1
	xor	a3, t5, a1
	xor	a1, a1, a4
	xor	a2, a2, t1
	xor	a4, s1, a7
	xor	s1, t3, t0
	xor	a3, a3, t2
	xor	a1, a1, s3
	xor	s0, t4, s0
	xor	a5, t6, s4
	xor	a6, a6, s2
	sw	a2, 0(a0)
	sw	a4, 4(a0)
	sw	s1, 8(a0)
	sw	a3, 12(a0)
	sw	a1, 16(a0)
	sw	s0, 20(a0)
	sw	a5, 24(a0)
	sw	a6, 28(a0)
	lw	ra, 60(sp)                      # 4-byte Folded Reload
	lw	s0, 56(sp)                      # 4-byte Folded Reload
	lw	s1, 52(sp)                      # 4-byte Folded Reload
	lw	s2, 48(sp)                      # 4-byte Folded Reload
	lw	s3, 44(sp)                      # 4-byte Folded Reload
	lw	s4, 40(sp)                      # 4-byte Folded Reload
	lw	s5, 36(sp)                      # 4-byte Folded Reload
	lw	s6, 32(sp)                      # 4-byte Folded Reload
	lw	s7, 28(sp)                      # 4-byte Folded Reload
	lw	s8, 24(sp)                      # 4-byte Folded Reload
	lw	s9, 20(sp)                      # 4-byte Folded Reload
	lw	s10, 16(sp)                     # 4-byte Folded Reload
	lw	s11, 12(sp)                     # 4-byte Folded Reload
	addi	sp, sp, 64
	ret
.Lgcm_small_func_end36:
	.size	gcm_small.aes_planes.soft.mix_columns.mix_columns_2, .Lgcm_small_func_end36-gcm_small.aes_planes.soft.mix_columns.mix_columns_2
                                        # -- End function
	.section	.text.gcm_small.aes_planes.soft.mix_columns.mix_columns_3,"ax",@progbits
	.p2align	1                               # -- Begin function aes_planes::soft::mix_columns::mix_columns_3::<#b6c81c619c5084c8>
	.type	gcm_small.aes_planes.soft.mix_columns.mix_columns_3,@function
gcm_small.aes_planes.soft.mix_columns.mix_columns_3: # @gcm_small.aes_planes.soft.mix_columns.mix_columns_3
# %bb.0:                                # %start
	addi	sp, sp, -64
	sw	ra, 60(sp)                      # 4-byte Folded Spill
	sw	s0, 56(sp)                      # 4-byte Folded Spill
	sw	s1, 52(sp)                      # 4-byte Folded Spill
	sw	s2, 48(sp)                      # 4-byte Folded Spill
	sw	s3, 44(sp)                      # 4-byte Folded Spill
	sw	s4, 40(sp)                      # 4-byte Folded Spill
	sw	s5, 36(sp)                      # 4-byte Folded Spill
	sw	s6, 32(sp)                      # 4-byte Folded Spill
	sw	s7, 28(sp)                      # 4-byte Folded Spill
	sw	s8, 24(sp)                      # 4-byte Folded Spill
	sw	s9, 20(sp)                      # 4-byte Folded Spill
	sw	s10, 16(sp)                     # 4-byte Folded Spill
	sw	s11, 12(sp)                     # 4-byte Folded Spill
	mv	a6, a0
	lw	t4, 0(a0)
	lw	a4, 4(a0)
	lw	a5, 8(a0)
	lw	s0, 12(a0)
	lw	s1, 16(a0)
	lw	t0, 20(a0)
	lw	t1, 24(a0)
	lw	t2, 28(a0)
	srli	t3, t4, 14
	slli	t5, t4, 18
	srli	a7, t4, 6
	slli	a2, t4, 26
	srli	t6, a4, 14
	slli	s4, a4, 18
	srli	s2, a4, 6
	slli	s6, a4, 26
	srli	s3, a5, 14
	slli	s7, a5, 18
	srli	s5, a5, 6
	slli	s8, a5, 26
	srli	s9, s0, 14
	slli	s10, s0, 18
	srli	ra, s0, 6
	slli	a1, s0, 26
	srli	s11, s1, 14
	or	t3, t5, t3
	slli	t5, s1, 18
	or	a7, a2, a7
	srli	a3, s1, 6
	or	a0, s4, t6
	slli	t6, s1, 26
	or	s2, s6, s2
	srli	s4, t0, 14
	or	s3, s7, s3
	slli	s6, t0, 18
	or	s5, s8, s5
	srli	s7, t0, 6
	or	s8, s10, s9
	slli	s9, t0, 26
	or	s10, a1, ra
	srli	ra, t1, 14
	or	t5, t5, s11
	slli	s11, t1, 18
	or	t6, t6, a3
	srli	a3, t1, 6
	or	s4, s6, s4
	slli	a1, t1, 26
	or	s6, s9, s7
	srli	s7, t2, 14
	or	s9, s11, ra
	slli	s11, t2, 18
	or	ra, a1, a3
	srli	a3, t2, 6
	or	s11, s11, s7
	slli	a2, t2, 26
	or	a2, a2, a3
	lui	s7, 1036240
	lui	a3, 12336
	addi	a3, a3, 771
	addi	a1, s7, -772
	and	t3, t3, a3
	and	a7, a7, a1
	and	s7, a0, a3
	and	s2, s2, a1
	and	a0, s3, a3
	and	s5, s5, a1
	and	s8, s8, a3
	and	s10, s10, a1
	and	t5, t5, a3
	and	t6, t6, a1
	and	s4, s4, a3
	and	s6, s6, a1
	and	s9, s9, a3
	and	ra, ra, a1
	and	s11, s11, a3
	and	a1, a1, a2
	or	a3, t3, a7
	sw	a3, 8(sp)                       # 4-byte Folded Spill
	or	s3, s7, s2
	or	s2, a0, s5
	or	a0, s8, s10
	or	t5, t5, t6
	or	t6, s4, s6
	or	a2, s9, ra
	or	a7, s11, a1
	xor	a1, a3, t4
	xor	a4, s3, a4
	xor	a5, s2, a5
	xor	s0, s0, a0
	xor	s1, t5, s1
	xor	a3, t6, t0
	xor	t1, a2, t1
	xor	t3, a7, t2
	srli	t0, a1, 20
	slli	t2, a1, 12
	srli	s4, a1, 12
	slli	s5, a1, 20
	srli	s6, a4, 20
	slli	s7, a4, 12
	srli	s8, a4, 12
	slli	s9, a4, 20
	srli	s10, a5, 20
	slli	s11, a5, 12
	xor	s3, a1, s3
	srli	ra, a5, 12
	xor	a1, s2, a4
	sw	a1, 4(sp)                       # 4-byte Folded Spill
	slli	a4, a5, 20
	xor	s2, a5, a0
	srli	a5, s0, 20
	or	t2, t2, t0
	slli	a0, s0, 12
	or	t4, s5, s4
	srli	s5, s0, 12
	xor	t5, s0, t5
	slli	s0, s0, 20
	or	s4, s7, s6
	srli	s7, s1, 20
	or	s6, s9, s8
	slli	a1, s1, 12
	or	s8, s11, s10
	srli	s9, s1, 12
	xor	t6, t6, s1
	slli	s1, s1, 20
	or	s10, a4, ra
	srli	a4, a3, 20
	or	s11, a0, a5
	slli	a0, a3, 12
	or	s5, s0, s5
	srli	s0, a3, 12
	xor	ra, a2, a3
	slli	a3, a3, 20
	or	a1, a1, s7
	srli	a5, t1, 20
	or	s7, s1, s9
	slli	s1, t1, 12
	or	a0, a0, a4
	srli	a4, t1, 12
	xor	t0, a7, t1
	slli	t1, t1, 20
	or	s9, a3, s0
	srli	s0, t3, 20
	or	a5, a5, s1
	slli	s1, t3, 12
	or	a4, t1, a4
	srli	a3, t3, 12
	or	s0, s0, s1
	slli	a2, t3, 20
	or	a2, a2, a3
	lw	a3, 8(sp)                       # 4-byte Folded Reload
	xor	a7, a3, t3
	xor	s3, s3, t3
	xor	t1, s2, t3
	xor	t3, t5, t3
	lui	a3, 61681
	addi	a3, a3, -241
	and	s1, t2, a3
	and	t2, s4, a3
	and	t5, s8, a3
	and	s2, s11, a3
	and	s8, a1, a3
	and	s4, a0, a3
	and	a5, a5, a3
	and	s11, s0, a3
	lui	s0, 986895
	addi	s0, s0, 240
	and	a0, t4, s0
	and	a1, s6, s0
	and	a3, s10, s0
	and	t4, s5, s0
	and	s5, s7, s0
	and	s6, s9, s0
	and	a4, a4, s0
	and	a2, a2, s0
	or	a0, a0, s1
	or	a1, t2, a1
	or	a3, t5, a3
	or	s1, s2, t4
	or	s0, s8, s5
	or	t2, s4, s6
	or	a4, a4, a5
	or	a2, s11, a2
	xor	a0, a0, a7
	xor	a1, s3, a1
	lw	a5, 4(sp)                       # 4-byte Folded Reload
	xor	a3, a3, a5
	xor	a5, t1, s1
	xor	s1, t3, s0
	xor	s0, t6, t2
	xor	a4, ra, a4
	xor	a2, t0, a2
	sw	a0, 0(a6)
	sw	a1, 4(a6)
	sw	a3, 8(a6)
	sw	a5, 12(a6)
	sw	s1, 16(a6)
	sw	s0, 20(a6)
	sw	a4, 24(a6)
	sw	a2, 28(a6)
	lw	ra, 60(sp)                      # 4-byte Folded Reload
	lw	s0, 56(sp)                      # 4-byte Folded Reload
	lw	s1, 52(sp)                      # 4-byte Folded Reload
	lw	s2, 48(sp)                      # 4-byte Folded Reload
	lw	s3, 44(sp)                      # 4-byte Folded Reload
	lw	s4, 40(sp)                      # 4-byte Folded Reload
	lw	s5, 36(sp)                      # 4-byte Folded Reload
	lw	s6, 32(sp)                      # 4-byte Folded Reload
	lw	s7, 28(sp)                      # 4-byte Folded Reload
	lw	s8, 24(sp)                      # 4-byte Folded Reload
	lw	s9, 20(sp)                      # 4-byte Folded Reload
	lw	s10, 16(sp)                     # 4-byte Folded Reload
	lw	s11, 12(sp)                     # 4-byte Folded Reload
	addi	sp, sp, 64
	ret
.Lgcm_small_func_end37:
	.size	gcm_small.aes_planes.soft.mix_columns.mix_columns_3, .Lgcm_small_func_end37-gcm_small.aes_planes.soft.mix_columns.mix_columns_3
                                        # -- End function
	.section	.text.gcm_small.aes_planes.soft.shifts.swap_columns.2,"ax",@progbits
	.p2align	1                               # -- Begin function aes_planes::soft::shifts::swap_columns::<#b6c81c619c5084c8>
	.type	gcm_small.aes_planes.soft.shifts.swap_columns.2,@function
gcm_small.aes_planes.soft.shifts.swap_columns.2: # @gcm_small.aes_planes.soft.shifts.swap_columns.2
# %bb.0:                                # %start
	addi	sp, sp, -48
	sw	ra, 44(sp)                      # 4-byte Folded Spill
	sw	s0, 40(sp)                      # 4-byte Folded Spill
	sw	s1, 36(sp)                      # 4-byte Folded Spill
	sw	s2, 32(sp)                      # 4-byte Folded Spill
	sw	s3, 28(sp)                      # 4-byte Folded Spill
	sw	s4, 24(sp)                      # 4-byte Folded Spill
	sw	s5, 20(sp)                      # 4-byte Folded Spill
	sw	s6, 16(sp)                      # 4-byte Folded Spill
	sw	s7, 12(sp)                      # 4-byte Folded Spill
	sw	s8, 8(sp)                       # 4-byte Folded Spill
	sw	s9, 4(sp)                       # 4-byte Folded Spill
	mv	s0, a0
	lw	a0, 0(a0)
	lw	s8, 4(s0)
	lw	s2, 8(s0)
	lw	s3, 12(s0)
	lw	s4, 16(s0)
	lw	s5, 20(s0)
	lw	s6, 24(s0)
	lw	s7, 28(s0)
	mv	s1, a1
	call	gcm_small.aes_planes.soft.shifts.delta_swap_1.2
	mv	s9, a0
	mv	a0, s8
	mv	a1, s1
	call	gcm_small.aes_planes.soft.shifts.delta_swap_1.2
	mv	s8, a0
	mv	a0, s2
	mv	a1, s1
	call	gcm_small.aes_planes.soft.shifts.delta_swap_1.2
	mv	s2, a0
	mv	a0, s3
	mv	a1, s1
	call	gcm_small.aes_planes.soft.shifts.delta_swap_1.2
	mv	s3, a0
	mv	a0, s4
	mv	a1, s1
	call	gcm_small.aes_planes.soft.shifts.delta_swap_1.2
	mv	s4, a0
	mv	a0, s5
	mv	a1, s1
	call	gcm_small.aes_planes.soft.shifts.delta_swap_1.2
	mv	s5, a0
	mv	a0, s6
	mv	a1, s1
	call	gcm_small.aes_planes.soft.shifts.delta_swap_1.2
	mv	s6, a0
	mv	a0, s7
	mv	a1, s1
	call	gcm_small.aes_planes.soft.shifts.delta_swap_1.2
	sw	s9, 0(s0)
	sw	s8, 4(s0)
	sw	s2, 8(s0)
	sw	s3, 12(s0)
	sw	s4, 16(s0)
	sw	s5, 20(s0)
	sw	s6, 24(s0)
	sw	a0, 28(s0)
	lw	ra, 44(sp)                      # 4-byte Folded Reload
	lw	s0, 40(sp)                      # 4-byte Folded Reload
	lw	s1, 36(sp)                      # 4-byte Folded Reload
	lw	s2, 32(sp)                      # 4-byte Folded Reload
	lw	s3, 28(sp)                      # 4-byte Folded Reload
	lw	s4, 24(sp)                      # 4-byte Folded Reload
	lw	s5, 20(sp)                      # 4-byte Folded Reload
	lw	s6, 16(sp)                      # 4-byte Folded Reload
	lw	s7, 12(sp)                      # 4-byte Folded Reload
	lw	s8, 8(sp)                       # 4-byte Folded Reload
	lw	s9, 4(sp)                       # 4-byte Folded Reload
	addi	sp, sp, 48
	ret
.Lgcm_small_func_end38:
	.size	gcm_small.aes_planes.soft.shifts.swap_columns.2, .Lgcm_small_func_end38-gcm_small.aes_planes.soft.shifts.swap_columns.2
                                        # -- End function
	.section	.text.gcm_small.aes_planes.soft.shifts.delta_swap_1.2,"ax",@progbits
	.p2align	1                               # -- Begin function aes_planes::soft::shifts::delta_swap_1::<#b6c81c619c5084c8>
	.type	gcm_small.aes_planes.soft.shifts.delta_swap_1.2,@function
gcm_small.aes_planes.soft.shifts.delta_swap_1.2: # @gcm_small.aes_planes.soft.shifts.delta_swap_1.2
# %bb.0:                                # %start
	srli	a2, a0, 4
	xor	a2, a2, a0
	and	a1, a1, a2
	slli	a2, a1, 4
	xor	a0, a0, a1
	xor	a0, a0, a2
	ret
.Lgcm_small_func_end39:
	.size	gcm_small.aes_planes.soft.shifts.delta_swap_1.2, .Lgcm_small_func_end39-gcm_small.aes_planes.soft.shifts.delta_swap_1.2
                                        # -- End function
	.section	.text.gcm_small.aes_planes.soft.round_keys.round_key.2,"ax",@progbits
	.p2align	1                               # -- Begin function aes_planes::soft::round_keys::round_key::<#b6c81c619c5084c8>
	.type	gcm_small.aes_planes.soft.round_keys.round_key.2,@function
gcm_small.aes_planes.soft.round_keys.round_key.2: # @gcm_small.aes_planes.soft.round_keys.round_key.2
# %bb.0:                                # %start
	addi	sp, sp, -64
	sw	ra, 60(sp)                      # 4-byte Folded Spill
	sw	s0, 56(sp)                      # 4-byte Folded Spill
	sw	s1, 52(sp)                      # 4-byte Folded Spill
	sw	s2, 48(sp)                      # 4-byte Folded Spill
	sw	s3, 44(sp)                      # 4-byte Folded Spill
	sw	s4, 40(sp)                      # 4-byte Folded Spill
	sw	s5, 36(sp)                      # 4-byte Folded Spill
	sw	s6, 32(sp)                      # 4-byte Folded Spill
	sw	s7, 28(sp)                      # 4-byte Folded Spill
	sw	s8, 24(sp)                      # 4-byte Folded Spill
	sw	s9, 20(sp)                      # 4-byte Folded Spill
	sw	s10, 16(sp)                     # 4-byte Folded Spill
	sw	s11, 12(sp)                     # 4-byte Folded Spill
	slli	a2, a2, 5
	add	a1, a1, a2
	lw	a4, 0(a1)
	lw	a2, 4(a1)
	lw	a3, 8(a1)
	lw	a5, 12(a1)
	lw	t1, 16(a1)
	lw	t0, 20(a1)
	lw	a7, 24(a1)
	lw	a6, 28(a1)
	srli	t2, a4, 24
	srli	t3, a4, 16
	srli	t6, a4, 8
	srli	t4, a2, 24
	srli	t5, a2, 16
	srli	s8, a2, 8
	srli	s2, a3, 24
	srli	s5, a3, 16
	srli	s11, a3, 8
	srli	s3, a5, 24
	srli	s4, a5, 16
	srli	s1, a5, 8
	srli	s6, t1, 24
	srli	s7, t1, 16
	srli	a1, t1, 8
	srli	s9, t0, 24
	srli	s10, t0, 16
	srli	s0, t0, 8
	srli	ra, a7, 24
	sb	a4, 0(a0)
	sb	t6, 1(a0)
	sb	t3, 2(a0)
	sb	t2, 3(a0)
	srli	a4, a7, 16
	sb	a2, 4(a0)
	sb	s8, 5(a0)
	sb	t5, 6(a0)
	sb	t4, 7(a0)
	srli	a2, a7, 8
	sb	a3, 8(a0)
	sb	s11, 9(a0)
	sb	s5, 10(a0)
	sb	s2, 11(a0)
	srli	a3, a6, 24
	sb	a5, 12(a0)
	sb	s1, 13(a0)
	sb	s4, 14(a0)
	sb	s3, 15(a0)
	srli	a5, a6, 16
	sb	t1, 16(a0)
	sb	a1, 17(a0)
	sb	s7, 18(a0)
	sb	s6, 19(a0)
	srli	a1, a6, 8
	sb	t0, 20(a0)
	sb	s0, 21(a0)
	sb	s10, 22(a0)
	sb	s9, 23(a0)
	sb	a7, 24(a0)
	sb	a2, 25(a0)
	sb	a4, 26(a0)
	sb	ra, 27(a0)
	sb	a6, 28(a0)
	sb	a1, 29(a0)
	sb	a5, 30(a0)
	sb	a3, 31(a0)
	lw	ra, 60(sp)                      # 4-byte Folded Reload
	lw	s0, 56(sp)                      # 4-byte Folded Reload
	lw	s1, 52(sp)                      # 4-byte Folded Reload
	lw	s2, 48(sp)                      # 4-byte Folded Reload
	lw	s3, 44(sp)                      # 4-byte Folded Reload
	lw	s4, 40(sp)                      # 4-byte Folded Reload
	lw	s5, 36(sp)                      # 4-byte Folded Reload
	lw	s6, 32(sp)                      # 4-byte Folded Reload
	lw	s7, 28(sp)                      # 4-byte Folded Reload
	lw	s8, 24(sp)                      # 4-byte Folded Reload
	lw	s9, 20(sp)                      # 4-byte Folded Reload
	lw	s10, 16(sp)                     # 4-byte Folded Reload
	lw	s11, 12(sp)                     # 4-byte Folded Reload
	addi	sp, sp, 64
	ret
.Lgcm_small_func_end40:
	.size	gcm_small.aes_planes.soft.round_keys.round_key.2, .Lgcm_small_func_end40-gcm_small.aes_planes.soft.round_keys.round_key.2
                                        # -- End function
	.section	.text.gcm_small.aes_cipher.zeroize.stack.wipe_stack.1024,"ax",@progbits
	.p2align	1                               # -- Begin function aes_cipher::zeroize::stack::wipe_stack::<=1024>
	.type	gcm_small.aes_cipher.zeroize.stack.wipe_stack.1024,@function
gcm_small.aes_cipher.zeroize.stack.wipe_stack.1024: # @gcm_small.aes_cipher.zeroize.stack.wipe_stack.1024
# %bb.0:                                # %start
	addi	sp, sp, -1056
	sw	ra, 1052(sp)                    # 4-byte Folded Spill
	sw	s0, 1048(sp)                    # 4-byte Folded Spill
	addi	a0, sp, 24
	li	a2, 1024
	addi	s0, sp, 24
	li	a1, 0
	call	memset
	sw	zero, 16(sp)
	sw	zero, 20(sp)
	#APP
	#NO_APP
	lw	a0, 16(sp)
	lw	a1, 20(sp)
	#APP
	#NO_APP
	seqz	a1, a1
	sltiu	a2, a0, 1024
	and	a1, a1, a2
	beqz	a1, .Lgcm_small_BB41_2
# %bb.1:                                # %then.1
	add	a0, a0, s0
	lbu	a0, 0(a0)
	#APP
	#NO_APP
	lw	zero, 20(sp)
	lw	zero, 16(sp)
	sw	zero, 20(sp)
	sw	a0, 16(sp)
	#APP
	#NO_APP
.Lgcm_small_BB41_2:                               # %common.ret
	lw	ra, 1052(sp)                    # 4-byte Folded Reload
	lw	s0, 1048(sp)                    # 4-byte Folded Reload
	addi	sp, sp, 1056
	ret
.Lgcm_small_func_end41:
	.size	gcm_small.aes_cipher.zeroize.stack.wipe_stack.1024, .Lgcm_small_func_end41-gcm_small.aes_cipher.zeroize.stack.wipe_stack.1024
                                        # -- End function
	.section	.text.gcm_small.gcm.mode.BorrowedGcm.hash_so_far,"ax",@progbits
	.p2align	1                               # -- Begin function gcm::mode::BorrowedGcm::hash_so_far::<#c01aad2b5fbc92b1>
	.type	gcm_small.gcm.mode.BorrowedGcm.hash_so_far,@function
gcm_small.gcm.mode.BorrowedGcm.hash_so_far: # @gcm_small.gcm.mode.BorrowedGcm.hash_so_far
# %bb.0:                                # %start
	addi	sp, sp, -96
	sw	ra, 92(sp)                      # 4-byte Folded Spill
	sw	s0, 88(sp)                      # 4-byte Folded Spill
	sw	s1, 84(sp)                      # 4-byte Folded Spill
	sw	s2, 80(sp)                      # 4-byte Folded Spill
	sw	s3, 76(sp)                      # 4-byte Folded Spill
	sw	s4, 72(sp)                      # 4-byte Folded Spill
	sw	s5, 68(sp)                      # 4-byte Folded Spill
	sw	s6, 64(sp)                      # 4-byte Folded Spill
	sw	s7, 60(sp)                      # 4-byte Folded Spill
	sw	s8, 56(sp)                      # 4-byte Folded Spill
	sw	s9, 52(sp)                      # 4-byte Folded Spill
	sw	s10, 48(sp)                     # 4-byte Folded Spill
	sw	s11, 44(sp)                     # 4-byte Folded Spill
	mv	s2, a0
	lw	a5, 24(a2)
	lw	t1, 28(a2)
	lw	a3, 48(a2)
	lbu	t6, 52(a2)
	lbu	t3, 60(a2)
	lbu	t5, 61(a2)
	lbu	t4, 62(a2)
	lbu	a7, 63(a2)
	lui	t2, 16
	lbu	s3, 53(a2)
	lbu	s4, 54(a2)
	lbu	t0, 55(a2)
	lw	s1, 56(a2)
	addi	a6, a2, 64
	lw	a1, 16(a1)
	addi	a4, t2, -256
	seqz	a0, a5
	addi	t2, a5, -1
	srli	s0, a3, 8
	srli	a5, a3, 24
	and	s5, a3, a4
	slli	s6, a3, 24
	slli	t6, t6, 24
	slli	s3, s3, 16
	slli	s4, s4, 8
	srli	a3, s1, 8
	srli	s7, s1, 24
	sub	a0, t1, a0
	and	t1, s1, a4
	slli	s8, s1, 24
	slli	t3, t3, 24
	slli	t5, t5, 16
	slli	t4, t4, 8
	or	t6, t6, s3
	zext.b	s1, t2
	and	s0, s0, a4
	and	a3, a3, a4
	or	s11, t3, t5
	or	s10, a0, s1
	or	ra, s0, a5
	lbu	s9, 0(a1)
	lbu	t5, 1(a1)
	lbu	s3, 2(a1)
	lbu	t3, 3(a1)
	slli	s5, s5, 8
	slli	t1, t1, 8
	or	a5, s6, s5
	or	s6, t6, s4
	or	a3, a3, s7
	or	a0, s8, t1
	lbu	t6, 4(a1)
	lbu	s4, 5(a1)
	lbu	s5, 6(a1)
	lbu	t1, 7(a1)
	sltiu	a4, t2, 4
	or	s0, s11, t4
	seqz	s1, s10
	or	t4, a5, ra
	or	s10, a0, a3
	and	t2, s1, a4
	lbu	ra, 8(a1)
	lbu	s11, 9(a1)
	lbu	s8, 10(a1)
	lbu	s7, 11(a1)
	or	a4, s6, t0
	or	t0, s0, a7
	sltu	a5, a4, s6
	sltu	a3, t0, s0
	slli	s9, s9, 24
	slli	t5, t5, 16
	add	a5, a5, t4
	add	a3, a3, s10
	or	a7, t5, s9
	lbu	s0, 12(a1)
	lbu	a0, 13(a1)
	lbu	s1, 14(a1)
	lbu	t4, 15(a1)
	slli	s3, s3, 8
	slli	t6, t6, 24
	slli	s4, s4, 16
	slli	s5, s5, 8
	slli	ra, ra, 24
	slli	s11, s11, 16
	slli	s8, s8, 8
	slli	s6, s0, 24
	slli	s9, a0, 16
	slli	t5, s1, 8
	addi	t2, t2, -1
	or	t3, s3, t3
	or	s1, t6, s4
	or	t6, s11, ra
	or	a0, s8, s7
	or	a1, s6, s9
	andi	s0, t2, 8
	or	a7, a7, t3
	or	s1, s1, s5
	or	t2, t6, a0
	or	a1, a1, t5
	add	a2, a2, s0
	or	s0, s1, t1
	or	a0, a1, t4
	lw	a2, 0(a2)
	sltu	s1, s0, s1
	sltu	a1, a0, a1
	add	s1, s1, a7
	add	a1, a1, t2
	andi	a7, a2, 15
	sw	a0, 16(sp)
	sw	a1, 20(sp)
	sw	s0, 24(sp)
	sw	s1, 28(sp)
	mv	a0, sp
	addi	a1, sp, 16
	mv	a2, t0
	li	t3, 0
	call	gcm_small.gcm.single_blocks.hash_singly.1
	lw	a0, 0(sp)
	lw	a1, 4(sp)
	lw	a2, 8(sp)
	lw	a3, 12(sp)
	sw	a0, 0(s2)
	sw	a1, 4(s2)
	sw	a2, 8(s2)
	sw	a3, 12(s2)
	lw	ra, 92(sp)                      # 4-byte Folded Reload
	lw	s0, 88(sp)                      # 4-byte Folded Reload
	lw	s1, 84(sp)                      # 4-byte Folded Reload
	lw	s2, 80(sp)                      # 4-byte Folded Reload
	lw	s3, 76(sp)                      # 4-byte Folded Reload
	lw	s4, 72(sp)                      # 4-byte Folded Reload
	lw	s5, 68(sp)                      # 4-byte Folded Reload
	lw	s6, 64(sp)                      # 4-byte Folded Reload
	lw	s7, 60(sp)                      # 4-byte Folded Reload
	lw	s8, 56(sp)                      # 4-byte Folded Reload
	lw	s9, 52(sp)                      # 4-byte Folded Reload
	lw	s10, 48(sp)                     # 4-byte Folded Reload
	lw	s11, 44(sp)                     # 4-byte Folded Reload
	addi	sp, sp, 96
	ret
.Lgcm_small_func_end42:
	.size	gcm_small.gcm.mode.BorrowedGcm.hash_so_far, .Lgcm_small_func_end42-gcm_small.gcm.mode.BorrowedGcm.hash_so_far
                                        # -- End function
	.section	.text.gcm_small.gcm.mode.put_subkey,"ax",@progbits
	.p2align	1                               # -- Begin function gcm::mode::put_subkey::<#107cc7d9d0728059>
	.type	gcm_small.gcm.mode.put_subkey,@function
gcm_small.gcm.mode.put_subkey: # @gcm_small.gcm.mode.put_subkey
# %bb.0:                                # %start
	addi	sp, sp, -64
	sw	ra, 60(sp)                      # 4-byte Folded Spill
	sw	s0, 56(sp)                      # 4-byte Folded Spill
	sw	s1, 52(sp)                      # 4-byte Folded Spill
	sw	s2, 48(sp)                      # 4-byte Folded Spill
	sw	s3, 44(sp)                      # 4-byte Folded Spill
	sw	s4, 40(sp)                      # 4-byte Folded Spill
	sw	s5, 36(sp)                      # 4-byte Folded Spill
	sw	s6, 32(sp)                      # 4-byte Folded Spill
	sw	s7, 28(sp)                      # 4-byte Folded Spill
	mv	s0, a1
	lbu	a1, 1(a0)
	lbu	a2, 0(a0)
	lbu	a7, 2(a0)
	lbu	a4, 3(a0)
	slli	a1, a1, 8
	or	a6, a1, a2
	lbu	a2, 8(a0)
	lbu	a5, 9(a0)
	lbu	a1, 10(a0)
	lbu	a3, 11(a0)
	slli	a7, a7, 16
	slli	a4, a4, 24
	slli	a5, a5, 8
	slli	a1, a1, 16
	slli	a3, a3, 24
	or	a4, a4, a7
	or	a7, a5, a2
	or	a1, a1, a3
	lbu	a3, 13(a0)
	lbu	a5, 12(a0)
	lbu	a2, 14(a0)
	lbu	a0, 15(a0)
	slli	a3, a3, 8
	or	a3, a3, a5
	slli	a2, a2, 16
	slli	a0, a0, 24
	or	a2, a2, a0
	or	a0, a4, a6
	sw	zero, 12(sp)
	sw	zero, 16(sp)
	sw	zero, 20(sp)
	sw	zero, 24(sp)
	or	a1, a1, a7
	or	a2, a2, a3
	addi	a3, sp, 12
	li	a4, 1
	li	a5, 0
	call	gcm_small.aes_narrow.blocks.process_all_batches
	call	gcm_small.aes_cipher.zeroize.stack.wipe_stack.1024
	lw	a2, 12(sp)
	lbu	t6, 16(sp)
	lbu	t3, 17(sp)
	lbu	t4, 18(sp)
	lbu	a6, 19(sp)
	lw	a3, 20(sp)
	lbu	a7, 24(sp)
	lbu	t0, 25(sp)
	lbu	t1, 26(sp)
	lbu	t2, 27(sp)
	lui	a4, 16
	addi	a4, a4, -256
	srli	a0, a2, 8
	srli	s4, a2, 24
	and	t5, a2, a4
	slli	s2, a2, 24
	slli	a5, t6, 24
	slli	s1, t3, 16
	slli	s3, t4, 8
	srli	a2, a3, 8
	slli	a1, a7, 24
	or	s6, a5, s1
	slli	s1, t0, 16
	or	s5, a1, s1
	srli	s7, a3, 24
	and	a0, a0, a4
	and	a2, a2, a4
	and	a4, a4, a3
	slli	a3, a3, 24
	or	a0, a0, s4
	slli	a1, t1, 8
	sb	t6, 4(s0)
	sb	t3, 5(s0)
	sb	t4, 6(s0)
	sb	a6, 7(s0)
	slli	t5, t5, 8
	slli	a4, a4, 8
	or	a5, s2, t5
	or	s1, s6, s3
	or	a2, a2, s7
	or	a3, a3, a4
	or	a1, s5, a1
	or	a0, a0, a5
	or	a4, s1, a6
	or	a2, a2, a3
	or	a3, a1, t2
	sltu	a4, a4, s1
	sltu	a1, a3, a1
	add	a0, a0, a4
	add	a1, a1, a2
	srli	a2, a0, 8
	srli	a3, a0, 16
	srli	a4, a0, 24
	srli	a6, a1, 8
	srli	s1, a1, 16
	srli	a5, a1, 24
	sb	a4, 0(s0)
	sb	a3, 1(s0)
	sb	a2, 2(s0)
	sb	a0, 3(s0)
	sb	a5, 8(s0)
	sb	s1, 9(s0)
	sb	a6, 10(s0)
	sb	a1, 11(s0)
	sb	a7, 12(s0)
	sb	t0, 13(s0)
	sb	t1, 14(s0)
	sb	t2, 15(s0)
	addi	a0, sp, 12
	call	gcm_small.aes_cipher.zeroize.elements.zeroize_elements.2
	lw	ra, 60(sp)                      # 4-byte Folded Reload
	lw	s0, 56(sp)                      # 4-byte Folded Reload
	lw	s1, 52(sp)                      # 4-byte Folded Reload
	lw	s2, 48(sp)                      # 4-byte Folded Reload
	lw	s3, 44(sp)                      # 4-byte Folded Reload
	lw	s4, 40(sp)                      # 4-byte Folded Reload
	lw	s5, 36(sp)                      # 4-byte Folded Reload
	lw	s6, 32(sp)                      # 4-byte Folded Reload
	lw	s7, 28(sp)                      # 4-byte Folded Reload
	addi	sp, sp, 64
	ret
.Lgcm_small_func_end43:
	.size	gcm_small.gcm.mode.put_subkey, .Lgcm_small_func_end43-gcm_small.gcm.mode.put_subkey
                                        # -- End function
	.section	.text.gcm_small.gcm.mode.BorrowedGcm.compare,"ax",@progbits
	.p2align	1                               # -- Begin function gcm::mode::BorrowedGcm::compare::<#c01aad2b5fbc92b1>
	.type	gcm_small.gcm.mode.BorrowedGcm.compare,@function
gcm_small.gcm.mode.BorrowedGcm.compare: # @gcm_small.gcm.mode.BorrowedGcm.compare
# %bb.0:                                # %start
	addi	sp, sp, -64
	sw	ra, 60(sp)                      # 4-byte Folded Spill
	sw	s0, 56(sp)                      # 4-byte Folded Spill
	sw	s1, 52(sp)                      # 4-byte Folded Spill
	sw	s2, 48(sp)                      # 4-byte Folded Spill
	sw	s3, 44(sp)                      # 4-byte Folded Spill
	sw	s4, 40(sp)                      # 4-byte Folded Spill
	sw	s5, 36(sp)                      # 4-byte Folded Spill
	sw	s6, 32(sp)                      # 4-byte Folded Spill
	sw	s7, 28(sp)                      # 4-byte Folded Spill
	sw	s8, 24(sp)                      # 4-byte Folded Spill
	mv	s8, a4
	or	a4, a2, a3
	beqz	a4, .Lgcm_small_BB44_2
# %bb.1:                                # %else.7
	mv	s2, t5
	mv	s3, t4
	mv	s4, t3
	mv	s5, a7
	mv	s6, a6
	mv	s7, a5
	mv	s1, a0
	mv	a4, t6
	mv	s0, t6
	call	gcm_small.gcm.mode.BorrowedGcm.put_pre_counter
	addi	t3, sp, 8
	mv	a0, s1
	mv	a1, s0
	mv	a2, s8
	mv	a3, s7
	mv	a4, s6
	mv	a5, s5
	mv	a6, s4
	mv	a7, s3
	call	gcm_small.gcm.mode.BorrowedGcm.put_tag
	addi	a1, sp, 8
	mv	a0, s2
	call	gcm_small.aes_cipher.blocks.difference
	snez	s0, a0
	addi	a0, sp, 8
	call	gcm_small.aes_cipher.zeroize.elements.zeroize_elements.2
	j	.Lgcm_small_BB44_3
.Lgcm_small_BB44_2:
	li	s0, 1
.Lgcm_small_BB44_3:                               # %return.13
	mv	a0, s0
	lw	ra, 60(sp)                      # 4-byte Folded Reload
	lw	s0, 56(sp)                      # 4-byte Folded Reload
	lw	s1, 52(sp)                      # 4-byte Folded Reload
	lw	s2, 48(sp)                      # 4-byte Folded Reload
	lw	s3, 44(sp)                      # 4-byte Folded Reload
	lw	s4, 40(sp)                      # 4-byte Folded Reload
	lw	s5, 36(sp)                      # 4-byte Folded Reload
	lw	s6, 32(sp)                      # 4-byte Folded Reload
	lw	s7, 28(sp)                      # 4-byte Folded Reload
	lw	s8, 24(sp)                      # 4-byte Folded Reload
	addi	sp, sp, 64
	ret
.Lgcm_small_func_end44:
	.size	gcm_small.gcm.mode.BorrowedGcm.compare, .Lgcm_small_func_end44-gcm_small.gcm.mode.BorrowedGcm.compare
                                        # -- End function
	.section	.text.gcm_small.gcm.mode.BorrowedGcm.put_tag,"ax",@progbits
	.p2align	1                               # -- Begin function gcm::mode::BorrowedGcm::put_tag::<#c01aad2b5fbc92b1>
	.type	gcm_small.gcm.mode.BorrowedGcm.put_tag,@function
gcm_small.gcm.mode.BorrowedGcm.put_tag: # @gcm_small.gcm.mode.BorrowedGcm.put_tag
# %bb.0:                                # %start
	addi	sp, sp, -128
	sw	ra, 124(sp)                     # 4-byte Folded Spill
	sw	s0, 120(sp)                     # 4-byte Folded Spill
	sw	s1, 116(sp)                     # 4-byte Folded Spill
	sw	s2, 112(sp)                     # 4-byte Folded Spill
	sw	s3, 108(sp)                     # 4-byte Folded Spill
	sw	s4, 104(sp)                     # 4-byte Folded Spill
	sw	s5, 100(sp)                     # 4-byte Folded Spill
	sw	s6, 96(sp)                      # 4-byte Folded Spill
	sw	s7, 92(sp)                      # 4-byte Folded Spill
	sw	s8, 88(sp)                      # 4-byte Folded Spill
	sw	s9, 84(sp)                      # 4-byte Folded Spill
	sw	s10, 80(sp)                     # 4-byte Folded Spill
	sw	s11, 76(sp)                     # 4-byte Folded Spill
	mv	s0, t3
	mv	s3, a7
	mv	s2, a6
	mv	s4, a5
	mv	s6, a4
	mv	s5, a3
	mv	s7, a2
	mv	s1, a0
	li	a2, 16
	mv	a0, t3
	call	memmove
	lbu	a6, 0(s1)
	lbu	a7, 1(s1)
	lbu	a2, 2(s1)
	lbu	a3, 3(s1)
	lbu	a4, 8(s1)
	lbu	a5, 9(s1)
	lbu	a0, 10(s1)
	lbu	a1, 11(s1)
	slli	a7, a7, 8
	slli	a2, a2, 16
	slli	a3, a3, 24
	slli	a5, a5, 8
	slli	a0, a0, 16
	slli	a1, a1, 24
	or	a6, a7, a6
	or	a7, a3, a2
	or	a4, a4, a5
	or	a1, a1, a0
	lbu	a0, 13(s1)
	lbu	a3, 12(s1)
	lbu	a5, 14(s1)
	lbu	a2, 15(s1)
	slli	a0, a0, 8
	or	a3, a3, a0
	slli	a5, a5, 16
	slli	a2, a2, 24
	or	a2, a2, a5
	or	a0, a7, a6
	or	a1, a1, a4
	or	a2, a2, a3
	li	a4, 1
	mv	a3, s0
	li	a5, 0
	call	gcm_small.aes_narrow.blocks.process_all_batches
	call	gcm_small.aes_cipher.zeroize.stack.wipe_stack.1024
	lw	a0, 16(s1)
	lbu	a7, 0(a0)
	lbu	t1, 1(a0)
	lbu	t2, 2(a0)
	lbu	a6, 3(a0)
	lbu	t5, 4(a0)
	lbu	t4, 5(a0)
	lbu	t3, 6(a0)
	lbu	t0, 7(a0)
	lbu	a2, 8(a0)
	lbu	a3, 9(a0)
	lbu	a1, 10(a0)
	lbu	t6, 11(a0)
	lbu	a5, 12(a0)
	lbu	a4, 13(a0)
	lbu	s8, 14(a0)
	lbu	s9, 15(a0)
	slli	a7, a7, 24
	slli	t1, t1, 16
	slli	t2, t2, 8
	slli	t5, t5, 24
	slli	t4, t4, 16
	slli	t3, t3, 8
	slli	s10, a2, 24
	slli	s11, a3, 16
	slli	ra, a1, 8
	slli	a5, a5, 24
	slli	a4, a4, 16
	slli	s8, s8, 8
	or	a7, t1, a7
	or	a2, t2, a6
	or	a3, t5, t4
	or	a1, s11, s10
	or	a0, ra, t6
	or	a4, a4, a5
	or	a2, a7, a2
	or	a3, a3, t3
	or	a0, a0, a1
	or	a1, a4, s8
	or	a4, a3, t0
	or	a5, a1, s9
	sltu	a3, a4, a3
	sltu	a1, a5, a1
	add	a2, a2, a3
	add	a0, a0, a1
	sw	a5, 48(sp)
	sw	a0, 52(sp)
	sw	a4, 56(sp)
	sw	a2, 60(sp)
	addi	a0, sp, 32
	addi	a1, sp, 48
	li	a2, 0
	li	a3, 0
	li	a4, 0
	li	a5, 0
	mv	a6, s7
	mv	a7, s5
	mv	t3, s6
	call	gcm_small.gcm.single_blocks.hash_singly.1
	lw	a0, 16(s1)
	lw	a2, 32(sp)
	lw	a3, 36(sp)
	lw	a4, 40(sp)
	lw	a5, 44(sp)
	slli	s9, s5, 3
	slli	s10, s2, 3
	lbu	t0, 0(a0)
	lbu	t1, 1(a0)
	lbu	a6, 2(a0)
	lbu	a7, 3(a0)
	lbu	t4, 4(a0)
	lbu	t5, 5(a0)
	lbu	t2, 6(a0)
	lbu	t3, 7(a0)
	lbu	a1, 8(a0)
	lbu	s1, 9(a0)
	lbu	t6, 10(a0)
	lbu	s6, 11(a0)
	lbu	s7, 12(a0)
	lbu	s8, 13(a0)
	lbu	s11, 14(a0)
	lbu	ra, 15(a0)
	slli	t0, t0, 24
	slli	t1, t1, 16
	slli	a6, a6, 8
	slli	t4, t4, 24
	slli	t5, t5, 16
	slli	t2, t2, 8
	slli	a1, a1, 24
	slli	s1, s1, 16
	slli	t6, t6, 8
	slli	s7, s7, 24
	slli	s8, s8, 16
	slli	s11, s11, 8
	or	t0, t1, t0
	or	a7, a6, a7
	or	a6, t4, t5
	or	t1, s1, a1
	or	s1, t6, s6
	or	a0, s7, s8
	or	s7, t0, a7
	or	a1, a6, t2
	or	s8, t1, s1
	or	a0, a0, s11
	or	s6, a1, t3
	or	s11, a0, ra
	sltu	a1, s6, a1
	sltu	a0, s11, a0
	add	s7, s7, a1
	add	s8, s8, a0
	sw	s11, 48(sp)
	sw	s8, 52(sp)
	sw	s6, 56(sp)
	sw	s7, 60(sp)
	addi	a0, sp, 16
	addi	a1, sp, 48
	mv	a6, s4
	mv	a7, s2
	mv	t3, s3
	call	gcm_small.gcm.single_blocks.hash_singly.1
	lw	a0, 16(sp)
	lw	s1, 20(sp)
	lw	a3, 24(sp)
	lw	a4, 28(sp)
	srli	a5, s5, 29
	srli	a2, s2, 29
	xor	a1, a0, s10
	xor	a2, a2, s1
	xor	a3, a3, s9
	xor	a4, a4, a5
	mv	a0, sp
	mv	a5, s11
	mv	a6, s8
	mv	a7, s6
	mv	t3, s7
	call	gcm_small.gcm.bitwise.product_bitwise
	lbu	a6, 8(sp)
	lbu	a7, 9(sp)
	lbu	t0, 10(sp)
	lbu	t1, 11(sp)
	lbu	t3, 4(sp)
	lbu	t4, 5(sp)
	lbu	t5, 6(sp)
	lbu	t2, 7(sp)
	lbu	s2, 0(sp)
	lbu	s3, 1(sp)
	lbu	s4, 2(sp)
	lbu	t6, 3(sp)
	lbu	a4, 12(s0)
	lbu	a5, 13(s0)
	lbu	s1, 14(s0)
	lbu	a0, 15(s0)
	lbu	s5, 8(s0)
	lbu	a2, 9(s0)
	lbu	a3, 10(s0)
	lbu	a1, 11(s0)
	xor	s2, a0, s2
	xor	s3, s1, s3
	xor	s4, a5, s4
	xor	t6, a4, t6
	lbu	s6, 4(s0)
	lbu	s1, 5(s0)
	lbu	a5, 6(s0)
	lbu	a4, 7(s0)
	xor	t3, a1, t3
	xor	t4, a3, t4
	xor	t5, a2, t5
	xor	t2, s5, t2
	lbu	s5, 0(s0)
	lbu	s7, 1(s0)
	lbu	a1, 2(s0)
	lbu	a0, 3(s0)
	xor	a6, a4, a6
	xor	a7, a5, a7
	xor	t0, s1, t0
	xor	a4, s6, t1
	lbu	a5, 12(sp)
	lbu	a3, 13(sp)
	lbu	s1, 14(sp)
	lbu	a2, 15(sp)
	xor	a0, a0, a5
	xor	a1, a1, a3
	xor	a3, s7, s1
	xor	a2, s5, a2
	sb	a2, 0(s0)
	sb	a3, 1(s0)
	sb	a1, 2(s0)
	sb	a0, 3(s0)
	sb	a4, 4(s0)
	sb	t0, 5(s0)
	sb	a7, 6(s0)
	sb	a6, 7(s0)
	sb	t2, 8(s0)
	sb	t5, 9(s0)
	sb	t4, 10(s0)
	sb	t3, 11(s0)
	sb	t6, 12(s0)
	sb	s4, 13(s0)
	sb	s3, 14(s0)
	sb	s2, 15(s0)
	lw	ra, 124(sp)                     # 4-byte Folded Reload
	lw	s0, 120(sp)                     # 4-byte Folded Reload
	lw	s1, 116(sp)                     # 4-byte Folded Reload
	lw	s2, 112(sp)                     # 4-byte Folded Reload
	lw	s3, 108(sp)                     # 4-byte Folded Reload
	lw	s4, 104(sp)                     # 4-byte Folded Reload
	lw	s5, 100(sp)                     # 4-byte Folded Reload
	lw	s6, 96(sp)                      # 4-byte Folded Reload
	lw	s7, 92(sp)                      # 4-byte Folded Reload
	lw	s8, 88(sp)                      # 4-byte Folded Reload
	lw	s9, 84(sp)                      # 4-byte Folded Reload
	lw	s10, 80(sp)                     # 4-byte Folded Reload
	lw	s11, 76(sp)                     # 4-byte Folded Reload
	addi	sp, sp, 128
	ret
.Lgcm_small_func_end45:
	.size	gcm_small.gcm.mode.BorrowedGcm.put_tag, .Lgcm_small_func_end45-gcm_small.gcm.mode.BorrowedGcm.put_tag
                                        # -- End function
	.section	.text.gcm_small.aes_cipher.blocks.difference,"ax",@progbits
	.p2align	1                               # -- Begin function aes_cipher::blocks::difference
	.type	gcm_small.aes_cipher.blocks.difference,@function
gcm_small.aes_cipher.blocks.difference:       # @gcm_small.aes_cipher.blocks.difference
# %bb.0:                                # %start
	addi	sp, sp, -32
	sw	s0, 28(sp)                      # 4-byte Folded Spill
	sw	s1, 24(sp)                      # 4-byte Folded Spill
	sw	s2, 20(sp)                      # 4-byte Folded Spill
	sw	s3, 16(sp)                      # 4-byte Folded Spill
	sw	s4, 12(sp)                      # 4-byte Folded Spill
	sw	s5, 8(sp)                       # 4-byte Folded Spill
	sw	s6, 4(sp)                       # 4-byte Folded Spill
	lbu	t3, 0(a0)
	lbu	t6, 1(a0)
	lbu	a6, 2(a0)
	lbu	a7, 3(a0)
	lbu	a4, 0(a1)
	lbu	a5, 1(a1)
	lbu	t0, 2(a1)
	lbu	t1, 3(a1)
	lbu	t2, 4(a0)
	lbu	t5, 5(a0)
	lbu	t4, 6(a0)
	lbu	s2, 7(a0)
	lbu	a3, 4(a1)
	lbu	s0, 5(a1)
	lbu	s1, 6(a1)
	lbu	s6, 7(a1)
	xor	t3, a4, t3
	xor	t6, a5, t6
	lbu	a4, 8(a0)
	lbu	s3, 9(a0)
	lbu	s4, 10(a0)
	lbu	s5, 11(a0)
	xor	a6, t0, a6
	xor	a7, t1, a7
	xor	t0, a3, t2
	xor	t1, s0, t5
	lbu	a3, 8(a1)
	lbu	s0, 9(a1)
	lbu	a5, 10(a1)
	lbu	a2, 11(a1)
	xor	t2, s1, t4
	xor	t4, s6, s2
	xor	t5, a3, a4
	lbu	s2, 12(a0)
	lbu	s1, 13(a0)
	lbu	a3, 14(a0)
	lbu	a0, 15(a0)
	xor	s6, s0, s3
	xor	s3, a5, s4
	xor	a2, a2, s5
	lbu	a4, 12(a1)
	lbu	a5, 13(a1)
	lbu	s0, 14(a1)
	lbu	a1, 15(a1)
	xor	a4, a4, s2
	xor	a5, a5, s1
	xor	a3, a3, s0
	xor	s2, a1, a0
	or	a1, t6, t3
	or	s1, a7, a6
	or	s0, t1, t0
	or	a0, t5, t4
	or	a2, a2, a4
	or	a1, a1, s1
	or	a4, t2, s0
	or	a0, s6, a0
	or	a2, a2, a5
	or	a1, a1, a4
	or	a0, s3, a0
	or	a2, a2, a3
	or	a0, a0, a1
	or	a1, s2, a2
	or	a0, a0, a1
	lw	s0, 28(sp)                      # 4-byte Folded Reload
	lw	s1, 24(sp)                      # 4-byte Folded Reload
	lw	s2, 20(sp)                      # 4-byte Folded Reload
	lw	s3, 16(sp)                      # 4-byte Folded Reload
	lw	s4, 12(sp)                      # 4-byte Folded Reload
	lw	s5, 8(sp)                       # 4-byte Folded Reload
	lw	s6, 4(sp)                       # 4-byte Folded Reload
	addi	sp, sp, 32
	ret
.Lgcm_small_func_end46:
	.size	gcm_small.aes_cipher.blocks.difference, .Lgcm_small_func_end46-gcm_small.aes_cipher.blocks.difference
                                        # -- End function
	.section	.text.gcm_small.gcm.gctr.add_gctr,"ax",@progbits
	.p2align	1                               # -- Begin function gcm::gctr::add_gctr::<#099a9bc28799ce6c>
	.type	gcm_small.gcm.gctr.add_gctr,@function
gcm_small.gcm.gctr.add_gctr: # @gcm_small.gcm.gctr.add_gctr
# %bb.0:                                # %start
	or	a7, a5, a6
	beqz	a7, .Lgcm_small_BB47_7
# %bb.1:                                # %then.1
	addi	sp, sp, -64
	sw	ra, 60(sp)                      # 4-byte Folded Spill
	sw	s0, 56(sp)                      # 4-byte Folded Spill
	lbu	a7, 12(a1)
	lbu	t0, 13(a1)
	lbu	t1, 14(a1)
	lbu	t2, 15(a1)
	lbu	t3, 8(a1)
	lbu	t4, 9(a1)
	lbu	t5, 10(a1)
	lbu	t6, 11(a1)
	slli	t0, t0, 8
	slli	t1, t1, 16
	slli	t2, t2, 24
	slli	t4, t4, 8
	or	a7, t0, a7
	or	t0, t2, t1
	or	t1, t4, t3
	lbu	t2, 4(a1)
	lbu	t3, 5(a1)
	lbu	t4, 6(a1)
	lbu	s0, 7(a1)
	slli	t5, t5, 16
	slli	t6, t6, 24
	slli	t3, t3, 8
	slli	t4, t4, 16
	slli	s0, s0, 24
	or	t5, t6, t5
	or	t2, t3, t2
	or	t3, s0, t4
	lbu	t6, 1(a1)
	lbu	t4, 0(a1)
	lbu	s0, 2(a1)
	lbu	a1, 3(a1)
	slli	t6, t6, 8
	or	t4, t6, t4
	slli	s0, s0, 16
	slli	a1, a1, 24
	or	a1, a1, s0
	or	t0, t0, a7
	or	t1, t5, t1
	or	t2, t3, t2
	andi	a7, a2, 15
	or	s0, a1, t4
	sltiu	a1, a7, 17
	addi	a1, a1, -1
	sw	s0, 8(sp)
	sw	t2, 12(sp)
	sw	t1, 16(sp)
	sw	t0, 20(sp)
	sw	zero, 24(sp)
	sw	zero, 28(sp)
	beq	a6, a1, .Lgcm_small_BB47_4
# %bb.2:                                # %then.1
	sltu	a1, a1, a6
	bnez	a1, .Lgcm_small_BB47_5
.Lgcm_small_BB47_3:                               # %then.1.i
	addi	a1, sp, 8
	call	gcm_small.aes_ctr.add_in_batches.add_to_one.1
	j	.Lgcm_small_BB47_6
.Lgcm_small_BB47_4:
	li	a1, 16
	sub	a1, a1, a7
	sltu	a1, a1, a5
	beqz	a1, .Lgcm_small_BB47_3
.Lgcm_small_BB47_5:                               # %else.2.i
	addi	a7, sp, 8
	sw	zero, 44(sp)
	sw	a5, 48(sp)
	sw	a6, 52(sp)
	lbu	a5, 0(a0)
	lbu	s0, 1(a0)
	lbu	a6, 2(a0)
	lbu	a1, 3(a0)
	sw	a7, 24(sp)
	sw	a2, 32(sp)
	sw	a3, 36(sp)
	sw	a4, 40(sp)
	slli	s0, s0, 8
	or	a7, s0, a5
	lbu	a2, 8(a0)
	lbu	a3, 9(a0)
	lbu	a4, 10(a0)
	lbu	s0, 11(a0)
	slli	a6, a6, 16
	slli	a1, a1, 24
	slli	a3, a3, 8
	slli	a4, a4, 16
	slli	s0, s0, 24
	or	a1, a1, a6
	or	a2, a2, a3
	or	a4, a4, s0
	lbu	a3, 13(a0)
	lbu	s0, 12(a0)
	lbu	a5, 14(a0)
	lbu	a0, 15(a0)
	slli	a3, a3, 8
	or	a3, a3, s0
	slli	a5, a5, 16
	slli	a0, a0, 24
	or	a5, a5, a0
	or	a0, a1, a7
	or	a1, a4, a2
	or	a2, a5, a3
	addi	a3, sp, 24
	call	gcm_small.aes_narrow.borrowed_words.call_to_encrypt.1
	call	gcm_small.aes_cipher.zeroize.stack.wipe_stack.2032
.Lgcm_small_BB47_6:                               # %"aes_ctr::add_in_batches::add_stream::<#9f2532018b56b7e7>.exit"
	lw	ra, 60(sp)                      # 4-byte Folded Reload
	lw	s0, 56(sp)                      # 4-byte Folded Reload
	addi	sp, sp, 64
.Lgcm_small_BB47_7:                               # %join.3
	ret
.Lgcm_small_func_end47:
	.size	gcm_small.gcm.gctr.add_gctr, .Lgcm_small_func_end47-gcm_small.gcm.gctr.add_gctr
                                        # -- End function
	.section	.text.gcm_small.aes_ctr.add_in_batches.add_to_one.1,"ax",@progbits
	.p2align	1                               # -- Begin function aes_ctr::add_in_batches::add_to_one::<#9f2532018b56b7e7>
	.type	gcm_small.aes_ctr.add_in_batches.add_to_one.1,@function
gcm_small.aes_ctr.add_in_batches.add_to_one.1: # @gcm_small.aes_ctr.add_in_batches.add_to_one.1
# %bb.0:                                # %start
	addi	sp, sp, -80
	sw	ra, 76(sp)                      # 4-byte Folded Spill
	sw	s0, 72(sp)                      # 4-byte Folded Spill
	sw	s1, 68(sp)                      # 4-byte Folded Spill
	sw	s2, 64(sp)                      # 4-byte Folded Spill
	sw	s3, 60(sp)                      # 4-byte Folded Spill
	sw	s4, 56(sp)                      # 4-byte Folded Spill
	sw	s5, 52(sp)                      # 4-byte Folded Spill
	sw	s6, 48(sp)                      # 4-byte Folded Spill
	sw	s7, 44(sp)                      # 4-byte Folded Spill
	sw	s8, 40(sp)                      # 4-byte Folded Spill
	sw	s9, 36(sp)                      # 4-byte Folded Spill
	sw	s10, 32(sp)                     # 4-byte Folded Spill
	sw	s11, 28(sp)                     # 4-byte Folded Spill
	mv	s2, a6
	mv	s3, a5
	mv	s4, a4
	mv	s5, a2
	slli	a3, a3, 28
	srli	a2, a2, 4
	lbu	s0, 0(a1)
	lbu	s1, 1(a1)
	lbu	a4, 2(a1)
	lbu	a5, 3(a1)
	lbu	t4, 4(a1)
	lbu	t5, 5(a1)
	lbu	t6, 6(a1)
	lbu	t3, 7(a1)
	lbu	s8, 8(a1)
	lbu	s9, 9(a1)
	lbu	s7, 10(a1)
	lbu	s6, 11(a1)
	lbu	s10, 12(a1)
	lbu	s11, 13(a1)
	lbu	t1, 14(a1)
	lbu	a7, 15(a1)
	or	a6, a2, a3
	slli	s0, s0, 24
	slli	s1, s1, 16
	slli	a1, a4, 8
	slli	a2, t4, 24
	slli	a3, t5, 16
	or	t0, s1, s0
	or	ra, a1, a5
	or	t2, a2, a3
	lbu	a2, 0(a0)
	lbu	a3, 1(a0)
	lbu	a4, 2(a0)
	lbu	a5, 3(a0)
	slli	s8, s8, 24
	slli	s9, s9, 16
	slli	s7, s7, 8
	slli	s10, s10, 24
	slli	s11, s11, 16
	slli	a3, a3, 8
	or	s8, s9, s8
	or	s1, s7, s6
	or	s6, s10, s11
	or	s7, a3, a2
	lbu	a3, 8(a0)
	lbu	s0, 9(a0)
	lbu	a1, 10(a0)
	lbu	a2, 11(a0)
	slli	a4, a4, 16
	slli	a5, a5, 24
	slli	s0, s0, 8
	slli	a1, a1, 16
	slli	a2, a2, 24
	or	a4, a4, a5
	or	a3, a3, s0
	or	a1, a1, a2
	lbu	a2, 13(a0)
	lbu	a5, 12(a0)
	lbu	s0, 14(a0)
	lbu	a0, 15(a0)
	slli	a2, a2, 8
	or	s9, a2, a5
	slli	a5, t6, 8
	slli	t1, t1, 8
	sb	t4, 16(sp)
	sb	t5, 17(sp)
	sb	t6, 18(sp)
	sb	t3, 19(sp)
	slli	s0, s0, 16
	slli	a0, a0, 24
	or	t4, a0, s0
	or	a2, t0, ra
	or	a5, t2, a5
	or	s1, s8, s1
	or	s0, s6, t1
	or	a0, a4, s7
	or	a1, a1, a3
	or	a3, a5, t3
	or	a4, s0, a7
	sltu	a3, a3, a5
	sltu	a5, a4, s0
	add	a4, a4, a6
	add	a2, a2, a3
	add	a5, a5, s1
	srli	a7, a4, 8
	srli	s1, a4, 16
	srli	s0, a4, 24
	srli	a6, a2, 8
	srli	t0, a2, 16
	srli	a3, a2, 24
	srli	t1, a5, 8
	srli	t2, a5, 16
	srli	t3, a5, 24
	sb	s0, 24(sp)
	sb	s1, 25(sp)
	sb	a7, 26(sp)
	sb	a4, 27(sp)
	sb	a3, 12(sp)
	sb	t0, 13(sp)
	sb	a6, 14(sp)
	sb	a2, 15(sp)
	sb	t3, 20(sp)
	sb	t2, 21(sp)
	sb	t1, 22(sp)
	sb	a5, 23(sp)
	or	a2, t4, s9
	addi	a3, sp, 12
	li	a4, 1
	li	a5, 0
	call	gcm_small.aes_narrow.blocks.process_all_batches
	call	gcm_small.aes_cipher.zeroize.stack.wipe_stack.1024
	andi	a1, s5, 15
	addi	a0, sp, 12
	li	a2, 0
	mv	a3, s4
	mv	a4, s3
	mv	a5, s2
	call	gcm_small.aes_ctr.add_blocks.add_blocks
	lw	ra, 76(sp)                      # 4-byte Folded Reload
	lw	s0, 72(sp)                      # 4-byte Folded Reload
	lw	s1, 68(sp)                      # 4-byte Folded Reload
	lw	s2, 64(sp)                      # 4-byte Folded Reload
	lw	s3, 60(sp)                      # 4-byte Folded Reload
	lw	s4, 56(sp)                      # 4-byte Folded Reload
	lw	s5, 52(sp)                      # 4-byte Folded Reload
	lw	s6, 48(sp)                      # 4-byte Folded Reload
	lw	s7, 44(sp)                      # 4-byte Folded Reload
	lw	s8, 40(sp)                      # 4-byte Folded Reload
	lw	s9, 36(sp)                      # 4-byte Folded Reload
	lw	s10, 32(sp)                     # 4-byte Folded Reload
	lw	s11, 28(sp)                     # 4-byte Folded Reload
	addi	sp, sp, 80
	ret
.Lgcm_small_func_end48:
	.size	gcm_small.aes_ctr.add_in_batches.add_to_one.1, .Lgcm_small_func_end48-gcm_small.aes_ctr.add_in_batches.add_to_one.1
                                        # -- End function
	.section	.text.gcm_small.aes_ctr.add_blocks.add_blocks,"ax",@progbits
	.p2align	1                               # -- Begin function aes_ctr::add_blocks::add_blocks
	.type	gcm_small.aes_ctr.add_blocks.add_blocks,@function
gcm_small.aes_ctr.add_blocks.add_blocks:      # @gcm_small.aes_ctr.add_blocks.add_blocks
# %bb.0:                                # %start
	addi	sp, sp, -32
	sw	ra, 28(sp)                      # 4-byte Folded Spill
	sw	s0, 24(sp)                      # 4-byte Folded Spill
	sw	s1, 20(sp)                      # 4-byte Folded Spill
	sw	s2, 16(sp)                      # 4-byte Folded Spill
	sw	s3, 12(sp)                      # 4-byte Folded Spill
	sw	s4, 8(sp)                       # 4-byte Folded Spill
	sw	s5, 4(sp)                       # 4-byte Folded Spill
	sw	s6, 0(sp)                       # 4-byte Folded Spill
	mv	s5, a5
	mv	s6, a4
	mv	s2, a3
	mv	s4, a1
	or	a1, a1, a2
	mv	s3, a0
	beqz	a1, .Lgcm_small_BB49_3
# %bb.1:                                # %then.1
	sltiu	a0, s4, 17
	neg	a1, a2
	xori	a0, a0, 1
	sub	a0, a1, a0
	li	a1, 16
	sub	a1, a1, s4
	beq	s5, a0, .Lgcm_small_BB49_4
# %bb.2:                                # %then.1
	sltu	a3, s5, a0
	j	.Lgcm_small_BB49_5
.Lgcm_small_BB49_3:
	li	s1, 0
	li	s0, 0
	j	.Lgcm_small_BB49_8
.Lgcm_small_BB49_4:
	sltu	a3, s6, a1
.Lgcm_small_BB49_5:                               # %then.1
	mv	s0, s5
	mv	s1, s6
	bnez	a3, .Lgcm_small_BB49_7
# %bb.6:                                # %then.1
	mv	s0, a0
	mv	s1, a1
.Lgcm_small_BB49_7:                               # %then.1
	mv	a0, s3
	mv	a1, s4
	mv	a3, s2
	mv	a4, s1
	mv	a5, s0
	call	gcm_small.aes_ctr.add_blocks.add_part
.Lgcm_small_BB49_8:                               # %join.3
	sltu	a0, s6, s1
	sub	a5, s5, s0
	sub	a4, s6, s1
	sub	a5, a5, a0
.Lgcm_small_BB49_9:                               # %join.8
                                        # =>This Inner Loop Header: Depth=1
	seqz	a0, a5
	sltiu	a1, a4, 16
	and	a0, a0, a1
	bnez	a0, .Lgcm_small_BB49_11
# %bb.10:                               # %join.8
                                        #   in Loop: Header=BB49_9 Depth=1
	mv	a3, s1
	add	a0, s1, s4
	addi	s1, s1, 16
	andi	a0, a0, -16
	sltu	a1, s1, a3
	add	a0, a0, s3
	add	s0, s0, a1
	add	a3, a3, s2
	li	a4, 16
	li	a1, 0
	li	a2, 0
	li	a5, 0
	call	gcm_small.aes_ctr.add_blocks.add_part
	sltu	a0, s6, s1
	sub	a4, s6, s1
	sub	a5, s5, a0
	sub	a5, a5, s0
	j	.Lgcm_small_BB49_9
.Lgcm_small_BB49_11:                              # %after.4
	beq	s0, s5, .Lgcm_small_BB49_14
# %bb.12:                               # %after.4
	sltu	a0, s0, s5
	bnez	a0, .Lgcm_small_BB49_15
.Lgcm_small_BB49_13:                              # %join.11
	lw	ra, 28(sp)                      # 4-byte Folded Reload
	lw	s0, 24(sp)                      # 4-byte Folded Reload
	lw	s1, 20(sp)                      # 4-byte Folded Reload
	lw	s2, 16(sp)                      # 4-byte Folded Reload
	lw	s3, 12(sp)                      # 4-byte Folded Reload
	lw	s4, 8(sp)                       # 4-byte Folded Reload
	lw	s5, 4(sp)                       # 4-byte Folded Reload
	lw	s6, 0(sp)                       # 4-byte Folded Reload
	addi	sp, sp, 32
	ret
.Lgcm_small_BB49_14:
	sltu	a0, s1, s6
	beqz	a0, .Lgcm_small_BB49_13
.Lgcm_small_BB49_15:                              # %then.9
	add	s4, s4, s1
	andi	a0, s4, -16
	add	a0, a0, s3
	add	a3, s2, s1
	li	a1, 0
	li	a2, 0
	lw	ra, 28(sp)                      # 4-byte Folded Reload
	lw	s0, 24(sp)                      # 4-byte Folded Reload
	lw	s1, 20(sp)                      # 4-byte Folded Reload
	lw	s2, 16(sp)                      # 4-byte Folded Reload
	lw	s3, 12(sp)                      # 4-byte Folded Reload
	lw	s4, 8(sp)                       # 4-byte Folded Reload
	lw	s5, 4(sp)                       # 4-byte Folded Reload
	lw	s6, 0(sp)                       # 4-byte Folded Reload
	addi	sp, sp, 32
	tail	gcm_small.aes_ctr.add_blocks.add_part
.Lgcm_small_func_end49:
	.size	gcm_small.aes_ctr.add_blocks.add_blocks, .Lgcm_small_func_end49-gcm_small.aes_ctr.add_blocks.add_blocks
                                        # -- End function
	.section	.text.gcm_small.aes_ctr.add_blocks.add_part,"ax",@progbits
	.p2align	1                               # -- Begin function aes_ctr::add_blocks::add_part
	.type	gcm_small.aes_ctr.add_blocks.add_part,@function
gcm_small.aes_ctr.add_blocks.add_part:        # @gcm_small.aes_ctr.add_blocks.add_part
# %bb.0:                                # %start
	andi	a2, a4, 63
	beqz	a2, .Lgcm_small_BB50_8
# %bb.1:                                # %start
	addi	sp, sp, -32
	sw	s0, 28(sp)                      # 4-byte Folded Spill
	sw	s1, 24(sp)                      # 4-byte Folded Spill
	sw	s2, 20(sp)                      # 4-byte Folded Spill
	sw	s3, 16(sp)                      # 4-byte Folded Spill
	sw	s4, 12(sp)                      # 4-byte Folded Spill
	sw	s5, 8(sp)                       # 4-byte Folded Spill
	sw	s6, 4(sp)                       # 4-byte Folded Spill
	sw	s7, 0(sp)                       # 4-byte Folded Spill
	li	a2, 16
	bne	a4, a2, .Lgcm_small_BB50_3
# %bb.2:                                # %then.1
	lbu	t1, 8(a3)
	lbu	a6, 9(a3)
	lbu	a7, 10(a3)
	lbu	t0, 11(a3)
	lbu	t5, 4(a3)
	lbu	t3, 5(a3)
	lbu	t4, 6(a3)
	lbu	t2, 7(a3)
	lbu	a1, 0(a3)
	lbu	s2, 1(a3)
	lbu	s4, 2(a3)
	lbu	t6, 3(a3)
	lbu	a2, 0(a0)
	lbu	s0, 1(a0)
	lbu	s1, 2(a0)
	lbu	s5, 3(a0)
	xor	s3, a2, a1
	lbu	a2, 4(a0)
	lbu	a1, 5(a0)
	lbu	a5, 6(a0)
	lbu	a4, 7(a0)
	xor	s2, s0, s2
	xor	s4, s1, s4
	xor	t6, s5, t6
	xor	t5, a2, t5
	lbu	s0, 8(a0)
	lbu	s1, 9(a0)
	lbu	a2, 10(a0)
	lbu	s5, 11(a0)
	xor	t3, a1, t3
	xor	t4, a5, t4
	xor	t2, a4, t2
	xor	t1, s0, t1
	lbu	s7, 12(a3)
	lbu	a4, 13(a3)
	lbu	a5, 14(a3)
	lbu	s0, 15(a3)
	xor	s6, s1, a6
	xor	a7, a2, a7
	xor	a6, s5, t0
	lbu	a2, 12(a0)
	lbu	s1, 13(a0)
	lbu	a1, 14(a0)
	lbu	a0, 15(a0)
	xor	a2, a2, s7
	xor	a4, a4, s1
	xor	a1, a1, a5
	xor	a0, a0, s0
	sb	a2, 12(a3)
	sb	a4, 13(a3)
	sb	a1, 14(a3)
	sb	a0, 15(a3)
	sb	t1, 8(a3)
	sb	s6, 9(a3)
	sb	a7, 10(a3)
	sb	a6, 11(a3)
	sb	t5, 4(a3)
	sb	t3, 5(a3)
	sb	t4, 6(a3)
	sb	t2, 7(a3)
	sb	s3, 0(a3)
	sb	s2, 1(a3)
	sb	s4, 2(a3)
	sb	t6, 3(a3)
	j	.Lgcm_small_BB50_7
.Lgcm_small_BB50_3:                               # %join.8.preheader
	li	a2, 0
	li	a6, 0
	j	.Lgcm_small_BB50_5
.Lgcm_small_BB50_4:                               #   in Loop: Header=BB50_5 Depth=1
	sltu	a7, a2, a4
	beqz	a7, .Lgcm_small_BB50_7
.Lgcm_small_BB50_5:                               # %join.8
                                        # =>This Inner Loop Header: Depth=1
	add	s1, a2, a1
	add	s0, a3, a2
	add	s1, s1, a0
	lbu	a7, 0(s0)
	lbu	s1, 0(s1)
	addi	a2, a2, 1
	xor	a7, a7, s1
	seqz	s1, a2
	add	a6, a6, s1
	sb	a7, 0(s0)
	beq	a6, a5, .Lgcm_small_BB50_4
# %bb.6:                                # %join.8
                                        #   in Loop: Header=BB50_5 Depth=1
	sltu	a7, a6, a5
	bnez	a7, .Lgcm_small_BB50_5
.Lgcm_small_BB50_7:
	lw	s0, 28(sp)                      # 4-byte Folded Reload
	lw	s1, 24(sp)                      # 4-byte Folded Reload
	lw	s2, 20(sp)                      # 4-byte Folded Reload
	lw	s3, 16(sp)                      # 4-byte Folded Reload
	lw	s4, 12(sp)                      # 4-byte Folded Reload
	lw	s5, 8(sp)                       # 4-byte Folded Reload
	lw	s6, 4(sp)                       # 4-byte Folded Reload
	lw	s7, 0(sp)                       # 4-byte Folded Reload
	addi	sp, sp, 32
.Lgcm_small_BB50_8:                               # %join.3
	ret
.Lgcm_small_func_end50:
	.size	gcm_small.aes_ctr.add_blocks.add_part, .Lgcm_small_func_end50-gcm_small.aes_ctr.add_blocks.add_part
                                        # -- End function
	.section	.text.gcm_small.aes_narrow.borrowed_words.call_to_encrypt.1,"ax",@progbits
	.p2align	1                               # -- Begin function aes_narrow::borrowed_words::call_to_encrypt::<#1305835a18aa05db>
	.type	gcm_small.aes_narrow.borrowed_words.call_to_encrypt.1,@function
gcm_small.aes_narrow.borrowed_words.call_to_encrypt.1: # @gcm_small.aes_narrow.borrowed_words.call_to_encrypt.1
# %bb.0:                                # %start
	addi	sp, sp, -32
	sw	ra, 28(sp)                      # 4-byte Folded Spill
	lw	a5, 24(a3)
	lw	a6, 28(a3)
	lw	t1, 0(a3)
	lw	a7, 8(a3)
	lw	t0, 12(a3)
	lw	a4, 16(a3)
	sw	a0, 8(sp)
	sw	zero, 12(sp)
	sw	a1, 16(sp)
	sw	a2, 20(sp)
	addi	a0, sp, 8
	mv	a1, t1
	mv	a2, a7
	mv	a3, t0
	call	gcm_small.aes_ctr.add_in_batches.add_by_backend.1
	lw	ra, 28(sp)                      # 4-byte Folded Reload
	addi	sp, sp, 32
	ret
.Lgcm_small_func_end51:
	.size	gcm_small.aes_narrow.borrowed_words.call_to_encrypt.1, .Lgcm_small_func_end51-gcm_small.aes_narrow.borrowed_words.call_to_encrypt.1
                                        # -- End function
	.section	.text.gcm_small.aes_ctr.add_in_batches.add_by_backend.1,"ax",@progbits
	.p2align	1                               # -- Begin function aes_ctr::add_in_batches::add_by_backend::<#8f445e75de4b0592>
	.type	gcm_small.aes_ctr.add_in_batches.add_by_backend.1,@function
gcm_small.aes_ctr.add_in_batches.add_by_backend.1: # @gcm_small.aes_ctr.add_in_batches.add_by_backend.1
# %bb.0:                                # %start
	addi	sp, sp, -336
	sw	ra, 332(sp)                     # 4-byte Folded Spill
	sw	s0, 328(sp)                     # 4-byte Folded Spill
	sw	s1, 324(sp)                     # 4-byte Folded Spill
	sw	s2, 320(sp)                     # 4-byte Folded Spill
	sw	s3, 316(sp)                     # 4-byte Folded Spill
	sw	s4, 312(sp)                     # 4-byte Folded Spill
	sw	s5, 308(sp)                     # 4-byte Folded Spill
	sw	s6, 304(sp)                     # 4-byte Folded Spill
	sw	s7, 300(sp)                     # 4-byte Folded Spill
	sw	s8, 296(sp)                     # 4-byte Folded Spill
	sw	s9, 292(sp)                     # 4-byte Folded Spill
	sw	s10, 288(sp)                    # 4-byte Folded Spill
	sw	s11, 284(sp)                    # 4-byte Folded Spill
	mv	s3, a6
	mv	s4, a5
	mv	s2, a4
	mv	s1, a3
	mv	s5, a2
	mv	s6, a1
	andi	s0, a2, 15
	li	a1, 32
	sw	s6, 24(sp)                      # 4-byte Folded Spill
	sw	a0, 20(sp)                      # 4-byte Folded Spill
	beqz	s0, .Lgcm_small_BB52_3
# %bb.1:                                # %then.1
	sltu	a0, a1, s0
	neg	a0, a0
	sub	a1, a1, s0
	beq	s3, a0, .Lgcm_small_BB52_4
# %bb.2:                                # %then.1
	sltu	a2, s3, a0
	j	.Lgcm_small_BB52_5
.Lgcm_small_BB52_3:
	mv	s7, a0
	li	s8, 0
	li	s10, 0
	j	.Lgcm_small_BB52_8
.Lgcm_small_BB52_4:
	sltu	a2, s4, a1
.Lgcm_small_BB52_5:                               # %then.1
	mv	s10, s3
	mv	s8, s4
	bnez	a2, .Lgcm_small_BB52_7
# %bb.6:                                # %then.1
	mv	s10, a0
	mv	s8, a1
.Lgcm_small_BB52_7:                               # %then.1
	add	a0, s0, s8
	srli	a1, s5, 4
	slli	a2, s1, 28
	srli	s6, s1, 4
	sltu	a3, a0, s0
	or	s7, a1, a2
	addi	a1, a0, 15
	add	a3, a3, s10
	sltu	a0, a1, a0
	srli	a1, a1, 4
	add	a0, a0, a3
	slli	a2, a0, 28
	srli	s9, a0, 4
	or	s11, a1, a2
	addi	a0, sp, 60
	li	a2, 224
	li	a1, 0
	call	memset
	addi	a6, sp, 28
	lw	a0, 20(sp)                      # 4-byte Folded Reload
	lw	a1, 24(sp)                      # 4-byte Folded Reload
	mv	a2, s7
	mv	a3, s6
	mv	a4, s11
	mv	a5, s9
	mv	s7, a0
	mv	s6, a1
	call	gcm_small.aes_ctr.keystream.fill_by_backend.1
	addi	a0, sp, 28
	mv	a1, s0
	li	a2, 0
	mv	a3, s2
	mv	a4, s8
	mv	a5, s10
	call	gcm_small.aes_ctr.add_blocks.add_blocks
.Lgcm_small_BB52_8:                               # %join.3
	sltu	a0, s4, s8
	sub	a1, s3, s10
	sub	a1, a1, a0
	sub	a0, s4, s8
	seqz	a1, a1
	sltiu	a0, a0, 32
	and	a0, a0, a1
	bnez	a0, .Lgcm_small_BB52_10
.Lgcm_small_BB52_9:                               # %join.11
                                        # =>This Inner Loop Header: Depth=1
	add	a0, s8, s5
	add	a1, s10, s1
	addi	s0, s8, 32
	sltu	a2, a0, s8
	srli	a0, a0, 4
	add	a1, a1, a2
	sltu	a2, s0, s8
	add	s10, s10, a2
	slli	a2, a1, 28
	srli	a3, a1, 4
	or	a2, a2, a0
	add	a4, s2, s8
	mv	a0, s7
	mv	a1, s6
	call	gcm_small.aes_ctr.add_in_batches.add_batch.1
	sltu	a0, s4, s0
	sub	a1, s4, s0
	sub	a0, s3, a0
	sub	a0, a0, s10
	seqz	a0, a0
	sltiu	a1, a1, 32
	and	a0, a0, a1
	mv	s8, s0
	beqz	a0, .Lgcm_small_BB52_9
.Lgcm_small_BB52_10:                              # %loop.13.preheader
	beq	s10, s3, .Lgcm_small_BB52_12
# %bb.11:                               # %loop.13.preheader
	sltu	a0, s10, s3
	bnez	a0, .Lgcm_small_BB52_13
	j	.Lgcm_small_BB52_23
.Lgcm_small_BB52_12:
	sltu	a0, s8, s4
	beqz	a0, .Lgcm_small_BB52_23
.Lgcm_small_BB52_13:                              # %join.16.lr.ph
	sw	s4, 16(sp)                      # 4-byte Folded Spill
	sw	s1, 12(sp)                      # 4-byte Folded Spill
	sw	s5, 8(sp)                       # 4-byte Folded Spill
	j	.Lgcm_small_BB52_16
.Lgcm_small_BB52_14:                              # %join.16
                                        #   in Loop: Header=BB52_16 Depth=1
	sltu	a0, s10, s3
	lw	s4, 16(sp)                      # 4-byte Folded Reload
.Lgcm_small_BB52_15:                              # %join.16
                                        #   in Loop: Header=BB52_16 Depth=1
	lw	s5, 8(sp)                       # 4-byte Folded Reload
	mv	s8, s1
	lw	s1, 12(sp)                      # 4-byte Folded Reload
	beqz	a0, .Lgcm_small_BB52_23
.Lgcm_small_BB52_16:                              # %join.16
                                        # =>This Inner Loop Header: Depth=1
	add	a0, s8, s5
	sltu	a3, s4, s8
	sub	s0, s3, s10
	andi	s11, a0, 15
	li	a1, 32
	sltu	a2, a1, s11
	sub	a1, a1, s11
	neg	a2, a2
	sub	s0, s0, a3
	sub	s9, s4, s8
	beq	s0, a2, .Lgcm_small_BB52_18
# %bb.17:                               # %join.16
                                        #   in Loop: Header=BB52_16 Depth=1
	sltu	a3, s0, a2
	j	.Lgcm_small_BB52_19
.Lgcm_small_BB52_18:                              #   in Loop: Header=BB52_16 Depth=1
	sltu	a3, s9, a1
.Lgcm_small_BB52_19:                              # %join.16
                                        #   in Loop: Header=BB52_16 Depth=1
	mv	s4, s3
	mv	s7, s2
	bnez	a3, .Lgcm_small_BB52_21
# %bb.20:                               # %join.16
                                        #   in Loop: Header=BB52_16 Depth=1
	mv	s0, a2
	mv	s9, a1
.Lgcm_small_BB52_21:                              # %join.16
                                        #   in Loop: Header=BB52_16 Depth=1
	sltu	a1, a0, s8
	add	a2, s10, s1
	add	a3, s11, s9
	srli	a0, a0, 4
	add	a1, a1, a2
	sltu	a2, a3, s11
	addi	a4, a3, 15
	add	a2, a2, s0
	sltu	a3, a4, a3
	srli	a4, a4, 4
	add	a2, a2, a3
	slli	a3, a1, 28
	or	s2, a0, a3
	slli	a0, a2, 28
	srli	s5, a2, 4
	or	s6, a4, a0
	srli	s3, a1, 4
	li	a2, 224
	addi	a0, sp, 60
	li	a1, 0
	call	memset
	addi	a6, sp, 28
	lw	a0, 20(sp)                      # 4-byte Folded Reload
	lw	a1, 24(sp)                      # 4-byte Folded Reload
	mv	a2, s2
	mv	a3, s3
	mv	a4, s6
	mv	a5, s5
	call	gcm_small.aes_ctr.keystream.fill_by_backend.1
	add	s1, s9, s8
	add	s10, s10, s0
	sltu	a0, s1, s9
	add	s10, s10, a0
	mv	s2, s7
	add	a3, s7, s8
	addi	a0, sp, 28
	mv	a1, s11
	li	a2, 0
	mv	a4, s9
	mv	a5, s0
	call	gcm_small.aes_ctr.add_blocks.add_blocks
	mv	s3, s4
	bne	s10, s4, .Lgcm_small_BB52_14
# %bb.22:                               #   in Loop: Header=BB52_16 Depth=1
	lw	s4, 16(sp)                      # 4-byte Folded Reload
	sltu	a0, s1, s4
	j	.Lgcm_small_BB52_15
.Lgcm_small_BB52_23:                              # %after.12
	lw	ra, 332(sp)                     # 4-byte Folded Reload
	lw	s0, 328(sp)                     # 4-byte Folded Reload
	lw	s1, 324(sp)                     # 4-byte Folded Reload
	lw	s2, 320(sp)                     # 4-byte Folded Reload
	lw	s3, 316(sp)                     # 4-byte Folded Reload
	lw	s4, 312(sp)                     # 4-byte Folded Reload
	lw	s5, 308(sp)                     # 4-byte Folded Reload
	lw	s6, 304(sp)                     # 4-byte Folded Reload
	lw	s7, 300(sp)                     # 4-byte Folded Reload
	lw	s8, 296(sp)                     # 4-byte Folded Reload
	lw	s9, 292(sp)                     # 4-byte Folded Reload
	lw	s10, 288(sp)                    # 4-byte Folded Reload
	lw	s11, 284(sp)                    # 4-byte Folded Reload
	addi	sp, sp, 336
	ret
.Lgcm_small_func_end52:
	.size	gcm_small.aes_ctr.add_in_batches.add_by_backend.1, .Lgcm_small_func_end52-gcm_small.aes_ctr.add_in_batches.add_by_backend.1
                                        # -- End function
	.section	.text.gcm_small.aes_ctr.add_in_batches.add_batch.1,"ax",@progbits
	.p2align	1                               # -- Begin function aes_ctr::add_in_batches::add_batch::<#8f445e75de4b0592>
	.type	gcm_small.aes_ctr.add_in_batches.add_batch.1,@function
gcm_small.aes_ctr.add_in_batches.add_batch.1: # @gcm_small.aes_ctr.add_in_batches.add_batch.1
# %bb.0:                                # %start
	addi	sp, sp, -304
	sw	ra, 300(sp)                     # 4-byte Folded Spill
	sw	s0, 296(sp)                     # 4-byte Folded Spill
	sw	s1, 292(sp)                     # 4-byte Folded Spill
	sw	s2, 288(sp)                     # 4-byte Folded Spill
	sw	s3, 284(sp)                     # 4-byte Folded Spill
	sw	s4, 280(sp)                     # 4-byte Folded Spill
	sw	s5, 276(sp)                     # 4-byte Folded Spill
	sw	s6, 272(sp)                     # 4-byte Folded Spill
	sw	s7, 268(sp)                     # 4-byte Folded Spill
	sw	s8, 264(sp)                     # 4-byte Folded Spill
	mv	s2, a4
	mv	s3, a2
	mv	s1, a1
	mv	s0, a0
	addi	a0, sp, 40
	li	a2, 224
	li	a1, 0
	call	memset
	lbu	a1, 0(s1)
	lbu	a5, 1(s1)
	lbu	a0, 2(s1)
	lbu	a4, 3(s1)
	lbu	s6, 4(s1)
	lbu	a2, 5(s1)
	lbu	a6, 6(s1)
	lbu	s7, 7(s1)
	lbu	t4, 8(s1)
	lbu	t5, 9(s1)
	lbu	t6, 10(s1)
	lbu	t3, 11(s1)
	lbu	s5, 12(s1)
	lbu	s4, 13(s1)
	lbu	t0, 14(s1)
	lbu	a7, 15(s1)
	slli	a1, a1, 24
	slli	a5, a5, 16
	slli	a0, a0, 8
	slli	s1, s6, 24
	slli	a2, a2, 16
	or	t1, a5, a1
	or	t2, a0, a4
	or	s8, s1, a2
	lbu	a0, 0(s0)
	lbu	a1, 1(s0)
	lbu	a2, 2(s0)
	lbu	a4, 3(s0)
	slli	t4, t4, 24
	slli	t5, t5, 16
	slli	t6, t6, 8
	slli	s5, s5, 24
	slli	s4, s4, 16
	slli	a1, a1, 8
	or	t4, t5, t4
	or	s1, t6, t3
	or	t5, s5, s4
	or	t3, a1, a0
	lbu	a1, 8(s0)
	lbu	a3, 9(s0)
	lbu	a0, 10(s0)
	lbu	a5, 11(s0)
	slli	a2, a2, 16
	slli	a4, a4, 24
	slli	a3, a3, 8
	slli	a0, a0, 16
	slli	a5, a5, 24
	or	s5, a4, a2
	or	a1, a1, a3
	or	a5, a5, a0
	lbu	a0, 13(s0)
	lbu	a3, 12(s0)
	lbu	a4, 14(s0)
	lbu	s0, 15(s0)
	slli	a0, a0, 8
	or	t6, a0, a3
	slli	a4, a4, 16
	slli	a3, s0, 24
	or	s4, a3, a4
	slli	a6, a6, 8
	slli	t0, t0, 8
	or	t1, t1, t2
	or	s0, s8, a6
	srli	a3, s8, 16
	or	a6, t4, s1
	or	a2, t5, t0
	or	a0, s5, t3
	or	a1, a1, a5
	or	a5, s0, s7
	slli	a4, s0, 16
	or	s1, a2, a7
	sltu	a5, a5, s0
	srli	a4, a4, 24
	sltu	a2, s1, a2
	add	s1, s1, s3
	add	a5, a5, t1
	add	a2, a2, a6
	srli	a6, s1, 8
	srli	a7, s1, 16
	srli	t0, s1, 24
	sb	s6, 12(sp)
	sb	a3, 13(sp)
	sb	a4, 14(sp)
	sb	s7, 15(sp)
	addi	s0, s1, 1
	sb	s6, 28(sp)
	sb	a3, 29(sp)
	sb	a4, 30(sp)
	sb	s7, 31(sp)
	slli	t1, a5, 16
	srli	t4, a5, 16
	srli	s3, a5, 24
	slli	t2, a2, 16
	srli	t3, a2, 16
	srli	t5, a2, 24
	sb	t0, 20(sp)
	sb	a7, 21(sp)
	sb	a6, 22(sp)
	sb	s1, 23(sp)
	srli	a6, s0, 8
	srli	a7, s0, 16
	srli	a3, s0, 24
	srli	s1, t1, 24
	srli	a4, t2, 24
	sb	a3, 36(sp)
	sb	a7, 37(sp)
	sb	a6, 38(sp)
	sb	s0, 39(sp)
	sb	s3, 8(sp)
	sb	t4, 9(sp)
	sb	s1, 10(sp)
	sb	a5, 11(sp)
	sb	t5, 16(sp)
	sb	t3, 17(sp)
	sb	a4, 18(sp)
	sb	a2, 19(sp)
	sb	s3, 24(sp)
	sb	t4, 25(sp)
	sb	s1, 26(sp)
	sb	a5, 27(sp)
	sb	t5, 32(sp)
	sb	t3, 33(sp)
	sb	a4, 34(sp)
	sb	a2, 35(sp)
	or	a2, s4, t6
	addi	a3, sp, 8
	li	a4, 2
	li	a5, 0
	call	gcm_small.aes_soft.soft.blocks.filled_up.process_filled_up
	addi	a0, sp, 8
	li	a4, 32
	li	a1, 0
	li	a2, 0
	mv	a3, s2
	li	a5, 0
	call	gcm_small.aes_ctr.add_blocks.add_blocks
	lw	ra, 300(sp)                     # 4-byte Folded Reload
	lw	s0, 296(sp)                     # 4-byte Folded Reload
	lw	s1, 292(sp)                     # 4-byte Folded Reload
	lw	s2, 288(sp)                     # 4-byte Folded Reload
	lw	s3, 284(sp)                     # 4-byte Folded Reload
	lw	s4, 280(sp)                     # 4-byte Folded Reload
	lw	s5, 276(sp)                     # 4-byte Folded Reload
	lw	s6, 272(sp)                     # 4-byte Folded Reload
	lw	s7, 268(sp)                     # 4-byte Folded Reload
	lw	s8, 264(sp)                     # 4-byte Folded Reload
	addi	sp, sp, 304
	ret
.Lgcm_small_func_end53:
	.size	gcm_small.aes_ctr.add_in_batches.add_batch.1, .Lgcm_small_func_end53-gcm_small.aes_ctr.add_in_batches.add_batch.1
                                        # -- End function
	.section	.text.gcm_small.aes_ctr.keystream.fill_by_backend.1,"ax",@progbits
	.p2align	1                               # -- Begin function aes_ctr::keystream::fill_by_backend::<#8f445e75de4b0592>
	.type	gcm_small.aes_ctr.keystream.fill_by_backend.1,@function
gcm_small.aes_ctr.keystream.fill_by_backend.1: # @gcm_small.aes_ctr.keystream.fill_by_backend.1
# %bb.0:                                # %start
	addi	sp, sp, -48
	sw	s0, 44(sp)                      # 4-byte Folded Spill
	sw	s1, 40(sp)                      # 4-byte Folded Spill
	sw	s2, 36(sp)                      # 4-byte Folded Spill
	sw	s3, 32(sp)                      # 4-byte Folded Spill
	sw	s4, 28(sp)                      # 4-byte Folded Spill
	sw	s5, 24(sp)                      # 4-byte Folded Spill
	sw	s6, 20(sp)                      # 4-byte Folded Spill
	sw	s7, 16(sp)                      # 4-byte Folded Spill
	sw	s8, 12(sp)                      # 4-byte Folded Spill
	sw	s9, 8(sp)                       # 4-byte Folded Spill
	mv	a3, a6
	lbu	t3, 0(a1)
	lbu	t1, 1(a1)
	lbu	t2, 2(a1)
	lbu	t0, 3(a1)
	lbu	a6, 4(a1)
	lbu	t4, 5(a1)
	lbu	t5, 6(a1)
	lbu	a7, 7(a1)
	lbu	s2, 8(a1)
	lbu	s3, 9(a1)
	lbu	s4, 10(a1)
	lbu	t6, 11(a1)
	lbu	s0, 12(a1)
	lbu	s1, 13(a1)
	lbu	s5, 14(a1)
	lbu	s7, 15(a1)
	xori	a4, a4, 1
	or	s6, a4, a5
	slli	t3, t3, 24
	slli	t1, t1, 16
	slli	t2, t2, 8
	slli	a5, a6, 24
	slli	t4, t4, 16
	slli	t5, t5, 8
	slli	s2, s2, 24
	slli	s3, s3, 16
	slli	s4, s4, 8
	slli	s8, s0, 24
	slli	s9, s1, 16
	slli	s5, s5, 8
	or	t1, t1, t3
	or	a1, t2, t0
	or	a5, a5, t4
	or	s0, s3, s2
	or	s1, s4, t6
	or	a4, s8, s9
	or	t0, t1, a1
	or	a1, a5, t5
	srli	t2, a5, 16
	or	t1, s0, s1
	or	a4, a4, s5
	or	s1, a1, a7
	slli	s0, a1, 16
	or	a5, a4, s7
	sltu	a1, s1, a1
	srli	s0, s0, 24
	sltu	a4, a5, a4
	add	a2, a2, a5
	add	a1, a1, t0
	add	a4, a4, t1
	srli	t0, a2, 8
	srli	t1, a2, 16
	srli	t3, a2, 24
	sb	a6, 4(a3)
	sb	t2, 5(a3)
	sb	s0, 6(a3)
	sb	a7, 7(a3)
	addi	s1, a2, 1
	sb	a6, 20(a3)
	sb	t2, 21(a3)
	sb	s0, 22(a3)
	sb	a7, 23(a3)
	slli	a6, a1, 16
	srli	t4, a1, 16
	srli	t6, a1, 24
	slli	a7, a4, 16
	srli	t2, a4, 16
	srli	t5, a4, 24
	sb	t3, 12(a3)
	sb	t1, 13(a3)
	sb	t0, 14(a3)
	sb	a2, 15(a3)
	srli	t0, s1, 8
	srli	t1, s1, 16
	srli	s0, s1, 24
	srli	a2, a6, 24
	srli	a5, a7, 24
	sb	s0, 28(a3)
	sb	t1, 29(a3)
	sb	t0, 30(a3)
	sb	s1, 31(a3)
	sb	t6, 0(a3)
	sb	t4, 1(a3)
	sb	a2, 2(a3)
	sb	a1, 3(a3)
	sb	t5, 8(a3)
	sb	t2, 9(a3)
	sb	a5, 10(a3)
	sb	a4, 11(a3)
	sb	t6, 16(a3)
	sb	t4, 17(a3)
	sb	a2, 18(a3)
	sb	a1, 19(a3)
	sb	t5, 24(a3)
	sb	t2, 25(a3)
	sb	a5, 26(a3)
	sb	a4, 27(a3)
	lbu	a6, 0(a0)
	lbu	t0, 1(a0)
	lbu	t1, 2(a0)
	lbu	t2, 3(a0)
	lbu	a7, 12(a0)
	lbu	s0, 13(a0)
	lbu	a1, 14(a0)
	lbu	s1, 15(a0)
	lbu	t3, 8(a0)
	lbu	a4, 9(a0)
	lbu	a5, 10(a0)
	lbu	a0, 11(a0)
	slli	t0, t0, 8
	slli	t1, t1, 16
	slli	t2, t2, 24
	slli	s0, s0, 8
	slli	t4, a1, 16
	slli	s1, s1, 24
	slli	t5, a4, 8
	slli	a5, a5, 16
	slli	a1, a0, 24
	or	a4, t0, a6
	or	a0, t2, t1
	or	s0, s0, a7
	or	a2, s1, t4
	or	s1, t5, t3
	or	a1, a1, a5
	or	a0, a0, a4
	or	a2, a2, s0
	or	a1, a1, s1
	bnez	s6, .Lgcm_small_BB54_2
# %bb.1:                                # %then.1.i.i
	li	a4, 1
	j	.Lgcm_small_BB54_3
.Lgcm_small_BB54_2:                               # %else.2.i.i
	li	a4, 2
.Lgcm_small_BB54_3:                               # %then.1.i.i
	li	a5, 0
	lw	s0, 44(sp)                      # 4-byte Folded Reload
	lw	s1, 40(sp)                      # 4-byte Folded Reload
	lw	s2, 36(sp)                      # 4-byte Folded Reload
	lw	s3, 32(sp)                      # 4-byte Folded Reload
	lw	s4, 28(sp)                      # 4-byte Folded Reload
	lw	s5, 24(sp)                      # 4-byte Folded Reload
	lw	s6, 20(sp)                      # 4-byte Folded Reload
	lw	s7, 16(sp)                      # 4-byte Folded Reload
	lw	s8, 12(sp)                      # 4-byte Folded Reload
	lw	s9, 8(sp)                       # 4-byte Folded Reload
	addi	sp, sp, 48
	tail	gcm_small.aes_soft.soft.blocks.filled_up.process_filled_up
.Lgcm_small_func_end54:
	.size	gcm_small.aes_ctr.keystream.fill_by_backend.1, .Lgcm_small_func_end54-gcm_small.aes_ctr.keystream.fill_by_backend.1
                                        # -- End function
	.section	.text.gcm_small.aes_cipher.zeroize.stack.wipe_stack.2032,"ax",@progbits
	.p2align	1                               # -- Begin function aes_cipher::zeroize::stack::wipe_stack::<=2032>
	.type	gcm_small.aes_cipher.zeroize.stack.wipe_stack.2032,@function
gcm_small.aes_cipher.zeroize.stack.wipe_stack.2032: # @gcm_small.aes_cipher.zeroize.stack.wipe_stack.2032
# %bb.0:                                # %start
	addi	sp, sp, -256
	sw	ra, 252(sp)                     # 4-byte Folded Spill
	sw	s0, 248(sp)                     # 4-byte Folded Spill
	addi	sp, sp, -1808
	addi	a0, sp, 24
	li	a2, 2032
	addi	s0, sp, 24
	li	a1, 0
	call	memset
	sw	zero, 16(sp)
	sw	zero, 20(sp)
	#APP
	#NO_APP
	lw	a0, 16(sp)
	lw	a1, 20(sp)
	#APP
	#NO_APP
	seqz	a1, a1
	sltiu	a2, a0, 2032
	and	a1, a1, a2
	beqz	a1, .Lgcm_small_BB55_2
# %bb.1:                                # %then.1
	add	a0, a0, s0
	lbu	a0, 0(a0)
	#APP
	#NO_APP
	lw	zero, 20(sp)
	lw	zero, 16(sp)
	sw	zero, 20(sp)
	sw	a0, 16(sp)
	#APP
	#NO_APP
.Lgcm_small_BB55_2:                               # %common.ret
	addi	sp, sp, 1808
	lw	ra, 252(sp)                     # 4-byte Folded Reload
	lw	s0, 248(sp)                     # 4-byte Folded Reload
	addi	sp, sp, 256
	ret
.Lgcm_small_func_end55:
	.size	gcm_small.aes_cipher.zeroize.stack.wipe_stack.2032, .Lgcm_small_func_end55-gcm_small.aes_cipher.zeroize.stack.wipe_stack.2032
                                        # -- End function
	.section	.text.gcm_small.aes_cipher.zeroize.stack.wipe_stack.1536,"ax",@progbits
	.p2align	1                               # -- Begin function aes_cipher::zeroize::stack::wipe_stack::<=1536>
	.type	gcm_small.aes_cipher.zeroize.stack.wipe_stack.1536,@function
gcm_small.aes_cipher.zeroize.stack.wipe_stack.1536: # @gcm_small.aes_cipher.zeroize.stack.wipe_stack.1536
# %bb.0:                                # %start
	addi	sp, sp, -1568
	sw	ra, 1564(sp)                    # 4-byte Folded Spill
	sw	s0, 1560(sp)                    # 4-byte Folded Spill
	addi	a0, sp, 24
	li	a2, 1536
	addi	s0, sp, 24
	li	a1, 0
	call	memset
	sw	zero, 16(sp)
	sw	zero, 20(sp)
	#APP
	#NO_APP
	lw	a0, 16(sp)
	lw	a1, 20(sp)
	#APP
	#NO_APP
	seqz	a1, a1
	sltiu	a2, a0, 1536
	and	a1, a1, a2
	beqz	a1, .Lgcm_small_BB56_2
# %bb.1:                                # %then.1
	add	a0, a0, s0
	lbu	a0, 0(a0)
	#APP
	#NO_APP
	lw	zero, 20(sp)
	lw	zero, 16(sp)
	sw	zero, 20(sp)
	sw	a0, 16(sp)
	#APP
	#NO_APP
.Lgcm_small_BB56_2:                               # %common.ret
	lw	ra, 1564(sp)                    # 4-byte Folded Reload
	lw	s0, 1560(sp)                    # 4-byte Folded Reload
	addi	sp, sp, 1568
	ret
.Lgcm_small_func_end56:
	.size	gcm_small.aes_cipher.zeroize.stack.wipe_stack.1536, .Lgcm_small_func_end56-gcm_small.aes_cipher.zeroize.stack.wipe_stack.1536
                                        # -- End function
	.section	.text.gcm_small.gcm_c.whole.fotsgure_gcm_seal,"ax",@progbits
	.p2align	1                               # -- Begin function gcm_c::whole::fotsgure_gcm_seal
	.type	gcm_small.gcm_c.whole.fotsgure_gcm_seal,@function
gcm_small.gcm_c.whole.fotsgure_gcm_seal:      # @gcm_small.gcm_c.whole.fotsgure_gcm_seal
# %bb.0:                                # %start
	addi	sp, sp, -96
	sw	ra, 92(sp)                      # 4-byte Folded Spill
	sw	s0, 88(sp)                      # 4-byte Folded Spill
	sw	s1, 84(sp)                      # 4-byte Folded Spill
	sw	s2, 80(sp)                      # 4-byte Folded Spill
	sw	s3, 76(sp)                      # 4-byte Folded Spill
	sw	s4, 72(sp)                      # 4-byte Folded Spill
	sw	s5, 68(sp)                      # 4-byte Folded Spill
	sw	s6, 64(sp)                      # 4-byte Folded Spill
	sw	s7, 60(sp)                      # 4-byte Folded Spill
	sw	s8, 56(sp)                      # 4-byte Folded Spill
	mv	s6, a4
	or	a4, a2, a3
	beqz	a4, .Lgcm_small_BB57_4
# %bb.1:                                # %after.11.i
	mv	s5, a5
	lw	a5, 0(a0)
	addi	s0, a5, -16
	li	s1, 16
	li	a4, 2
	bltu	s1, s0, .Lgcm_small_BB57_5
# %bb.2:                                # %after.11.i
	lui	s1, 16
	addi	s1, s1, 257
	srl	s1, s1, s0
	andi	s1, s1, 1
	beqz	s1, .Lgcm_small_BB57_5
# %bb.3:                                # %join.3
	mv	s2, t5
	mv	s3, t4
	mv	s7, t3
	mv	s8, a7
	mv	s4, a6
	addi	a4, a0, 4
	srli	s1, a5, 31
	slli	a5, a5, 1
	addi	a0, a0, 484
	addi	s0, a5, 56
	sltu	a5, s0, a5
	add	a5, a5, s1
	sw	a4, 16(sp)
	sw	zero, 20(sp)
	sw	s0, 24(sp)
	sw	a5, 28(sp)
	sw	a0, 32(sp)
	sw	zero, 36(sp)
	addi	a0, sp, 16
	addi	a4, sp, 40
	call	gcm_small.gcm.mode.BorrowedGcm.put_pre_counter
	addi	a0, sp, 16
	addi	a1, sp, 40
	li	a2, 16
	li	a3, 0
	mv	a4, s8
	mv	a5, s7
	mv	a6, s3
	call	gcm_small.gcm.gctr.add_gctr
	addi	a0, sp, 16
	addi	a1, sp, 40
	mv	t3, sp
	mv	a2, s6
	mv	a3, s5
	mv	a4, s4
	mv	a5, s8
	mv	a6, s7
	mv	a7, s3
	call	gcm_small.gcm.mode.BorrowedGcm.put_tag
	addi	a0, sp, 40
	call	gcm_small.aes_cipher.zeroize.elements.zeroize_elements.2
	call	gcm_small.aes_cipher.zeroize.stack.wipe_stack.1536
	mv	a1, sp
	li	a2, 16
	mv	a0, s2
	call	memcpy
	li	a4, 0
	j	.Lgcm_small_BB57_5
.Lgcm_small_BB57_4:
	li	a4, 3
.Lgcm_small_BB57_5:                               # %common.ret
	mv	a0, a4
	lw	ra, 92(sp)                      # 4-byte Folded Reload
	lw	s0, 88(sp)                      # 4-byte Folded Reload
	lw	s1, 84(sp)                      # 4-byte Folded Reload
	lw	s2, 80(sp)                      # 4-byte Folded Reload
	lw	s3, 76(sp)                      # 4-byte Folded Reload
	lw	s4, 72(sp)                      # 4-byte Folded Reload
	lw	s5, 68(sp)                      # 4-byte Folded Reload
	lw	s6, 64(sp)                      # 4-byte Folded Reload
	lw	s7, 60(sp)                      # 4-byte Folded Reload
	lw	s8, 56(sp)                      # 4-byte Folded Reload
	addi	sp, sp, 96
	li	a1, 0
	li	a2, 0
	li	a3, 0
	li	a4, 0
	li	a5, 0
	li	a6, 0
	li	a7, 0
	li	t0, 0
	li	t1, 0
	li	t2, 0
	li	t3, 0
	li	t4, 0
	li	t5, 0
	li	t6, 0
	ret
.Lgcm_small_func_end57:
	.size	gcm_small.gcm_c.whole.fotsgure_gcm_seal, .Lgcm_small_func_end57-gcm_small.gcm_c.whole.fotsgure_gcm_seal
                                        # -- End function
	.section	.text.gcm_small.gcm_c.whole_to.copy,"ax",@progbits
	.p2align	1                               # -- Begin function gcm_c::whole_to::copy
	.type	gcm_small.gcm_c.whole_to.copy,@function
gcm_small.gcm_c.whole_to.copy:                # @gcm_small.gcm_c.whole_to.copy
# %bb.0:                                # %start
	mv	a7, a0
	sltu	a0, a3, a0
	neg	a0, a0
	mv	a6, a1
	beq	a0, a2, .Lgcm_small_BB58_3
# %bb.1:                                # %start
	sltu	a0, a0, a2
	bnez	a0, .Lgcm_small_BB58_4
.Lgcm_small_BB58_2:                               # %apart.2.i.i.i.i.i.i
	mv	a0, a3
	mv	a1, a7
	mv	a2, a6
	tail	memmove
.Lgcm_small_BB58_3:
	sub	a0, a3, a7
	sltu	a0, a0, a6
	beqz	a0, .Lgcm_small_BB58_2
.Lgcm_small_BB58_4:                               # %join.7.i.i.i.i.i.i.preheader
	li	a5, 0
	li	a4, 0
	j	.Lgcm_small_BB58_6
.Lgcm_small_BB58_5:                               # %join.7.i.i.i.i.i.i
                                        #   in Loop: Header=BB58_6 Depth=1
	sltu	a0, a4, a2
	beqz	a0, .Lgcm_small_BB58_8
.Lgcm_small_BB58_6:                               # %join.7.i.i.i.i.i.i
                                        # =>This Inner Loop Header: Depth=1
	add	t0, a3, a5
	add	a0, a7, a5
	lbu	a0, 0(a0)
	addi	a5, a5, 1
	seqz	a1, a5
	add	a4, a4, a1
	sb	a0, 0(t0)
	bne	a4, a2, .Lgcm_small_BB58_5
# %bb.7:                                #   in Loop: Header=BB58_6 Depth=1
	sltu	a0, a5, a6
	bnez	a0, .Lgcm_small_BB58_6
.Lgcm_small_BB58_8:                               # %"core::slice::edits::slice+T::copy_from_slice::<i8,20'core::clone::U8Clone{}>.exit"
	ret
.Lgcm_small_func_end58:
	.size	gcm_small.gcm_c.whole_to.copy, .Lgcm_small_func_end58-gcm_small.gcm_c.whole_to.copy
                                        # -- End function
	.section	.text.gcm_small.gcm_siv.course.open_in,"ax",@progbits
	.p2align	1                               # -- Begin function gcm_siv::course::open_in::<#a4ece9b7a9859b66>
	.type	gcm_small.gcm_siv.course.open_in,@function
gcm_small.gcm_siv.course.open_in: # @gcm_small.gcm_siv.course.open_in
# %bb.0:                                # %start
	addi	sp, sp, -560
	sw	ra, 556(sp)                     # 4-byte Folded Spill
	sw	s0, 552(sp)                     # 4-byte Folded Spill
	sw	s1, 548(sp)                     # 4-byte Folded Spill
	sw	s2, 544(sp)                     # 4-byte Folded Spill
	sw	s3, 540(sp)                     # 4-byte Folded Spill
	sw	s4, 536(sp)                     # 4-byte Folded Spill
	sw	s5, 532(sp)                     # 4-byte Folded Spill
	sw	s6, 528(sp)                     # 4-byte Folded Spill
	sw	s7, 524(sp)                     # 4-byte Folded Spill
	sw	s8, 520(sp)                     # 4-byte Folded Spill
	sw	s9, 516(sp)                     # 4-byte Folded Spill
	sw	s10, 512(sp)                    # 4-byte Folded Spill
	sw	s11, 508(sp)                    # 4-byte Folded Spill
	mv	s2, t5
	mv	s3, t4
	mv	s4, t3
	mv	s5, a7
	mv	s6, a6
	mv	s7, a5
	mv	s8, a4
	mv	s1, a3
	mv	s9, a2
	mv	s10, a1
	mv	s0, a0
	addi	s11, sp, 12
	li	a2, 480
	mv	a0, s11
	li	a1, 0
	call	memset
	sw	zero, 8(sp)
	addi	a4, sp, 8
	addi	a5, sp, 492
	mv	a0, s0
	mv	a1, s10
	mv	a2, s9
	mv	a3, s1
	call	gcm_small.gcm_siv.keys.derive_and_prepare
	addi	a0, sp, 8
	addi	a1, sp, 492
	mv	a2, s1
	mv	a3, s8
	mv	a4, s7
	mv	a5, s6
	mv	a6, s5
	mv	a7, s4
	mv	t3, s3
	mv	t4, s2
	call	gcm_small.gcm_siv.message.open
	mv	s0, a0
	sw	zero, 8(sp)
	mv	a0, s11
	call	gcm_small.aes_cipher.zeroize.elements.zeroize_elements.1
	addi	a0, sp, 492
	call	gcm_small.aes_cipher.zeroize.elements.zeroize_elements.2
	call	gcm_small.aes_cipher.zeroize.stack.wipe_stack.2816
	mv	a0, s0
	lw	ra, 556(sp)                     # 4-byte Folded Reload
	lw	s0, 552(sp)                     # 4-byte Folded Reload
	lw	s1, 548(sp)                     # 4-byte Folded Reload
	lw	s2, 544(sp)                     # 4-byte Folded Reload
	lw	s3, 540(sp)                     # 4-byte Folded Reload
	lw	s4, 536(sp)                     # 4-byte Folded Reload
	lw	s5, 532(sp)                     # 4-byte Folded Reload
	lw	s6, 528(sp)                     # 4-byte Folded Reload
	lw	s7, 524(sp)                     # 4-byte Folded Reload
	lw	s8, 520(sp)                     # 4-byte Folded Reload
	lw	s9, 516(sp)                     # 4-byte Folded Reload
	lw	s10, 512(sp)                    # 4-byte Folded Reload
	lw	s11, 508(sp)                    # 4-byte Folded Reload
	addi	sp, sp, 560
	ret
.Lgcm_small_func_end59:
	.size	gcm_small.gcm_siv.course.open_in, .Lgcm_small_func_end59-gcm_small.gcm_siv.course.open_in
                                        # -- End function
	.section	.text.gcm_small.gcm_siv.keys.derive_and_prepare,"ax",@progbits
	.p2align	1                               # -- Begin function gcm_siv::keys::derive_and_prepare::<#a4ece9b7a9859b66>
	.type	gcm_small.gcm_siv.keys.derive_and_prepare,@function
gcm_small.gcm_siv.keys.derive_and_prepare: # @gcm_small.gcm_siv.keys.derive_and_prepare
# %bb.0:                                # %start
	addi	sp, sp, -144
	sw	ra, 140(sp)                     # 4-byte Folded Spill
	sw	s0, 136(sp)                     # 4-byte Folded Spill
	sw	s1, 132(sp)                     # 4-byte Folded Spill
	sw	s2, 128(sp)                     # 4-byte Folded Spill
	sw	s3, 124(sp)                     # 4-byte Folded Spill
	sw	s4, 120(sp)                     # 4-byte Folded Spill
	sw	s5, 116(sp)                     # 4-byte Folded Spill
	sw	s6, 112(sp)                     # 4-byte Folded Spill
	sw	s7, 108(sp)                     # 4-byte Folded Spill
	sw	s8, 104(sp)                     # 4-byte Folded Spill
	mv	s6, a5
	mv	s2, a4
	mv	s1, a3
	mv	s5, a2
	mv	s3, a1
	mv	s0, a0
	addi	a0, sp, 12
	li	a2, 12
	mv	a1, a3
	call	memcpy
	addi	a0, sp, 28
	li	a2, 12
	mv	a1, s1
	call	memcpy
	addi	a0, sp, 44
	li	a2, 12
	mv	a1, s1
	call	memcpy
	addi	a0, sp, 60
	li	a2, 12
	mv	a1, s1
	call	memcpy
	addi	a0, sp, 76
	li	a2, 12
	mv	a1, s1
	call	memcpy
	addi	a0, sp, 92
	li	a2, 12
	mv	a1, s1
	call	memcpy
	li	a0, 1
	li	a1, 2
	li	a2, 3
	li	a6, 4
	li	a4, 5
	slli	a5, s5, 29
	srli	s1, s3, 3
	srli	a3, s5, 3
	sw	zero, 8(sp)
	sw	a0, 24(sp)
	sw	a1, 40(sp)
	sw	a2, 56(sp)
	lbu	a0, 0(s0)
	lbu	a1, 1(s0)
	lbu	a7, 2(s0)
	lbu	a2, 3(s0)
	sw	a6, 72(sp)
	sw	a4, 88(sp)
	or	a5, a5, s1
	addi	a4, a5, 2
	sltu	a5, a4, a5
	add	a5, a5, a3
	slli	a1, a1, 8
	or	a6, a1, a0
	lbu	a1, 8(s0)
	lbu	a3, 9(s0)
	lbu	s1, 10(s0)
	lbu	a0, 11(s0)
	slli	a7, a7, 16
	slli	a2, a2, 24
	slli	a3, a3, 8
	slli	s1, s1, 16
	slli	a0, a0, 24
	or	a2, a2, a7
	or	a7, a3, a1
	or	s1, s1, a0
	lbu	a0, 13(s0)
	lbu	a3, 12(s0)
	lbu	a1, 14(s0)
	lbu	s0, 15(s0)
	slli	a0, a0, 8
	or	a3, a3, a0
	slli	a1, a1, 16
	slli	s0, s0, 24
	or	s0, s0, a1
	or	a0, a2, a6
	addi	s4, sp, 24
	or	a1, s1, a7
	or	a2, s0, a3
	addi	a3, sp, 8
	call	gcm_small.aes_narrow.blocks.process_all_batches
	call	gcm_small.aes_cipher.zeroize.stack.wipe_stack.1024
	lbu	a6, 15(sp)
	lw	a5, 24(sp)
	lw	s1, 28(sp)
	lw	t6, 40(sp)
	lw	t4, 44(sp)
	lw	t3, 56(sp)
	lw	a2, 60(sp)
	lw	t0, 72(sp)
	lw	a7, 76(sp)
	lw	t1, 88(sp)
	lw	t2, 92(sp)
	lw	s8, 8(sp)
	lbu	s7, 12(sp)
	lbu	a4, 13(sp)
	lbu	a1, 14(sp)
	lui	t5, 921600
	xori	s0, s3, 16
	or	s3, s0, s5
	sw	a5, 16(sp)
	sw	s1, 20(sp)
	sw	t6, 24(sp)
	sw	t4, 28(sp)
	sw	t3, 32(sp)
	sw	a2, 36(sp)
	sw	t0, 40(sp)
	sw	a7, 44(sp)
	sw	t1, 48(sp)
	sw	t2, 52(sp)
	slli	a4, a4, 8
	slli	t0, a1, 16
	slli	a6, a6, 24
	slli	a2, s7, 31
	srli	a3, s8, 1
	slli	a7, a5, 31
	slli	s0, s1, 31
	srli	a1, a5, 1
	srli	t1, s8, 9
	srli	t2, s8, 17
	srli	t3, a5, 9
	srli	s5, a5, 17
	srli	a0, s1, 1
	slli	s8, s8, 31
	or	a4, s7, a4
	srli	t4, s1, 9
	srli	t6, s1, 17
	or	a2, a2, a3
	or	s0, s0, a1
	srai	s1, s8, 31
	or	a4, a4, t0
	srli	a2, a2, 24
	srli	s0, s0, 24
	and	s1, s1, t5
	or	a5, a4, a6
	srli	a4, a4, 9
	xor	s1, s1, a0
	sb	s0, 4(s6)
	sb	s5, 5(s6)
	sb	t3, 6(s6)
	sb	a1, 7(s6)
	sb	a2, 12(s6)
	sb	t2, 13(s6)
	sb	t1, 14(s6)
	sb	a3, 15(s6)
	srli	a1, a5, 17
	srli	a5, a5, 1
	srli	s1, s1, 24
	or	a2, a5, a7
	sb	s1, 0(s6)
	sb	t6, 1(s6)
	sb	t4, 2(s6)
	sb	a0, 3(s6)
	srli	a2, a2, 24
	sb	a2, 8(s6)
	sb	a1, 9(s6)
	sb	a4, 10(s6)
	sb	a5, 11(s6)
	addi	s0, s2, 4
	li	a2, 480
	mv	a0, s0
	li	a1, 0
	call	memset
	bnez	s3, .Lgcm_small_BB60_2
# %bb.1:                                # %then.1.i
	li	a2, 16
	li	s1, 16
	j	.Lgcm_small_BB60_3
.Lgcm_small_BB60_2:                               # %else.2.i
	li	a2, 32
	li	s1, 32
.Lgcm_small_BB60_3:                               # %"gcm_siv::keys::set_encryption_key::<#a556ffa628b2ee02>.exit"
	mv	a0, s0
	mv	a1, s4
	li	a3, 0
	call	gcm_small.aes_narrow.word_room.expand_words
	call	gcm_small.aes_cipher.zeroize.stack.wipe_stack.768
	sw	s1, 0(s2)
	addi	a0, sp, 8
	li	a1, 6
	li	a2, 0
	call	gcm_small.aes_cipher.zeroize.elements.zeroize_elements.3
	lw	ra, 140(sp)                     # 4-byte Folded Reload
	lw	s0, 136(sp)                     # 4-byte Folded Reload
	lw	s1, 132(sp)                     # 4-byte Folded Reload
	lw	s2, 128(sp)                     # 4-byte Folded Reload
	lw	s3, 124(sp)                     # 4-byte Folded Reload
	lw	s4, 120(sp)                     # 4-byte Folded Reload
	lw	s5, 116(sp)                     # 4-byte Folded Reload
	lw	s6, 112(sp)                     # 4-byte Folded Reload
	lw	s7, 108(sp)                     # 4-byte Folded Reload
	lw	s8, 104(sp)                     # 4-byte Folded Reload
	addi	sp, sp, 144
	ret
.Lgcm_small_func_end60:
	.size	gcm_small.gcm_siv.keys.derive_and_prepare, .Lgcm_small_func_end60-gcm_small.gcm_siv.keys.derive_and_prepare
                                        # -- End function
	.section	.text.gcm_small.aes_cipher.zeroize.elements.zeroize_elements.3,"ax",@progbits
	.p2align	1                               # -- Begin function aes_cipher::zeroize::elements::zeroize_elements::<#82a118249f09cfc6>
	.type	gcm_small.aes_cipher.zeroize.elements.zeroize_elements.3,@function
gcm_small.aes_cipher.zeroize.elements.zeroize_elements.3: # @gcm_small.aes_cipher.zeroize.elements.zeroize_elements.3
# %bb.0:                                # %start
	addi	sp, sp, -48
	sw	ra, 44(sp)                      # 4-byte Folded Spill
	sw	s0, 40(sp)                      # 4-byte Folded Spill
	sw	s1, 36(sp)                      # 4-byte Folded Spill
	sw	s2, 32(sp)                      # 4-byte Folded Spill
	sw	s3, 28(sp)                      # 4-byte Folded Spill
	sw	s4, 24(sp)                      # 4-byte Folded Spill
	sw	s5, 20(sp)                      # 4-byte Folded Spill
	sw	s6, 16(sp)                      # 4-byte Folded Spill
	sw	s7, 12(sp)                      # 4-byte Folded Spill
	mv	s7, a2
	mv	s2, a1
	sw	zero, 0(sp)
	sw	zero, 4(sp)
	#APP
	#NO_APP
	lw	a1, 4(sp)
	lw	s5, 0(sp)
	#APP
	#NO_APP
	mv	s6, a0
	beq	a1, a2, .Lgcm_small_BB61_2
# %bb.1:                                # %start
	sltu	s3, a1, s7
	j	.Lgcm_small_BB61_3
.Lgcm_small_BB61_2:
	sltu	s3, s5, s2
.Lgcm_small_BB61_3:                               # %start
	li	s4, 0
	slli	s5, s5, 4
	beqz	s3, .Lgcm_small_BB61_5
# %bb.4:                                # %then.1.i8
	add	a0, s6, s5
	lbu	s4, 0(a0)
.Lgcm_small_BB61_5:                               # %"aes_cipher::zeroize::observe::<#aefc49fcc22ee515>.exit12"
	li	s1, 0
	li	s0, 0
	j	.Lgcm_small_BB61_7
.Lgcm_small_BB61_6:                               # %join.6.i
                                        #   in Loop: Header=BB61_7 Depth=1
	sltu	a0, s0, s7
	beqz	a0, .Lgcm_small_BB61_9
.Lgcm_small_BB61_7:                               # %join.6.i
                                        # =>This Inner Loop Header: Depth=1
	slli	a0, s1, 4
	add	a0, a0, s6
	li	a2, 16
	li	a1, 0
	call	memset
	addi	s1, s1, 1
	seqz	a0, s1
	add	s0, s0, a0
	bne	s0, s7, .Lgcm_small_BB61_6
# %bb.8:                                #   in Loop: Header=BB61_7 Depth=1
	sltu	a0, s1, s2
	bnez	a0, .Lgcm_small_BB61_7
.Lgcm_small_BB61_9:                               # %"aes_cipher::zeroize::overwrite::<#8c2be25e1e7027ab>.exit"
	beqz	s3, .Lgcm_small_BB61_11
# %bb.10:                               # %then.1.i
	add	s5, s5, s6
	lbu	a0, 0(s5)
	and	a0, a0, s4
	j	.Lgcm_small_BB61_12
.Lgcm_small_BB61_11:
	li	a0, 0
.Lgcm_small_BB61_12:                              # %"aes_cipher::zeroize::observe::<#aefc49fcc22ee515>.exit"
	#APP
	#NO_APP
	lw	zero, 4(sp)
	lw	zero, 0(sp)
	sw	zero, 4(sp)
	sw	a0, 0(sp)
	#APP
	#NO_APP
	lw	ra, 44(sp)                      # 4-byte Folded Reload
	lw	s0, 40(sp)                      # 4-byte Folded Reload
	lw	s1, 36(sp)                      # 4-byte Folded Reload
	lw	s2, 32(sp)                      # 4-byte Folded Reload
	lw	s3, 28(sp)                      # 4-byte Folded Reload
	lw	s4, 24(sp)                      # 4-byte Folded Reload
	lw	s5, 20(sp)                      # 4-byte Folded Reload
	lw	s6, 16(sp)                      # 4-byte Folded Reload
	lw	s7, 12(sp)                      # 4-byte Folded Reload
	addi	sp, sp, 48
	ret
.Lgcm_small_func_end61:
	.size	gcm_small.aes_cipher.zeroize.elements.zeroize_elements.3, .Lgcm_small_func_end61-gcm_small.aes_cipher.zeroize.elements.zeroize_elements.3
                                        # -- End function
	.section	.text.gcm_small.gcm_siv.message.open,"ax",@progbits
	.p2align	1                               # -- Begin function gcm_siv::message::open::<#bc93ff5f0cc4cd41>
	.type	gcm_small.gcm_siv.message.open,@function
gcm_small.gcm_siv.message.open: # @gcm_small.gcm_siv.message.open
# %bb.0:                                # %start
	addi	sp, sp, -128
	sw	ra, 124(sp)                     # 4-byte Folded Spill
	sw	s0, 120(sp)                     # 4-byte Folded Spill
	sw	s1, 116(sp)                     # 4-byte Folded Spill
	sw	s2, 112(sp)                     # 4-byte Folded Spill
	sw	s3, 108(sp)                     # 4-byte Folded Spill
	sw	s4, 104(sp)                     # 4-byte Folded Spill
	sw	s5, 100(sp)                     # 4-byte Folded Spill
	sw	s6, 96(sp)                      # 4-byte Folded Spill
	sw	s7, 92(sp)                      # 4-byte Folded Spill
	sw	s8, 88(sp)                      # 4-byte Folded Spill
	sw	s9, 84(sp)                      # 4-byte Folded Spill
	sw	s10, 80(sp)                     # 4-byte Folded Spill
	sw	s11, 76(sp)                     # 4-byte Folded Spill
	mv	s0, t4
	mv	s3, t3
	mv	s4, a7
	mv	s2, a6
	sw	a5, 4(sp)                       # 4-byte Folded Spill
	mv	s7, a4
	mv	s8, a3
	mv	s9, a2
	mv	s10, a1
	mv	s11, a0
	lbu	a3, 12(t4)
	lbu	a4, 13(t4)
	lbu	a6, 14(t4)
	lbu	a7, 15(t4)
	lbu	t0, 8(t4)
	lbu	t1, 9(t4)
	lbu	s1, 10(t4)
	lbu	a0, 11(t4)
	sltiu	a1, s4, 17
	seqz	a2, t3
	and	s6, a2, a1
	slli	a4, a4, 8
	or	t2, a4, a3
	lbu	a1, 4(t4)
	lbu	a2, 5(t4)
	lbu	a4, 6(t4)
	lbu	a5, 7(t4)
	slli	t1, t1, 8
	slli	s1, s1, 16
	slli	a0, a0, 24
	slli	a2, a2, 8
	slli	a4, a4, 16
	slli	a5, a5, 24
	or	a3, t1, t0
	or	a0, a0, s1
	or	t0, a2, a1
	or	a4, a4, a5
	lbu	a2, 1(t4)
	lbu	a5, 0(t4)
	lbu	s1, 2(t4)
	lbu	a1, 3(t4)
	slli	a2, a2, 8
	or	a2, a2, a5
	slli	s1, s1, 16
	slli	a1, a1, 24
	or	a1, a1, s1
	ori	a5, a7, 128
	sb	a6, 38(sp)
	sb	a5, 39(sp)
	or	a0, a0, a3
	lw	a3, 0(s11)
	or	a4, a4, t0
	addi	s5, s11, 4
	or	a1, a1, a2
	srli	a2, a3, 31
	slli	a3, a3, 1
	sw	a1, 24(sp)
	sw	a4, 28(sp)
	sw	a0, 32(sp)
	sh	t2, 36(sp)
	addi	a1, a3, 56
	sltu	a0, a1, a3
	add	a2, a2, a0
	sw	s5, 8(sp)
	sw	zero, 12(sp)
	sw	a1, 16(sp)
	sw	a2, 20(sp)
	sw	zero, 40(sp)
	sw	zero, 44(sp)
	beqz	s6, .Lgcm_small_BB62_2
# %bb.1:                                # %then.1.i.i.i
	addi	a0, sp, 8
	addi	a1, sp, 24
	mv	a2, s2
	mv	a3, s4
	mv	a4, s3
	call	gcm_small.aes_ctr.add_in_batches.add_to_one.2
	j	.Lgcm_small_BB62_3
.Lgcm_small_BB62_2:                               # %else.2.i.i.i
	addi	a0, sp, 24
	sw	a0, 40(sp)
	sw	zero, 48(sp)
	sw	zero, 52(sp)
	sw	s2, 56(sp)
	sw	zero, 60(sp)
	sw	s4, 64(sp)
	sw	s3, 68(sp)
	addi	a3, sp, 40
	mv	a0, s5
	call	gcm_small.aes_narrow.borrowed_words.call_to_encrypt.2
	call	gcm_small.aes_cipher.zeroize.stack.wipe_stack.2032
.Lgcm_small_BB62_3:                               # %"gcm_siv::message::process_text::<#a556ffa628b2ee02>.exit"
	addi	t4, sp, 40
	mv	a0, s11
	mv	a1, s10
	mv	a2, s9
	mv	a3, s8
	mv	a4, s7
	lw	a5, 4(sp)                       # 4-byte Folded Reload
	mv	a6, s2
	mv	a7, s4
	mv	t3, s3
	call	gcm_small.gcm_siv.message.put_tag
	addi	a1, sp, 40
	mv	a0, s0
	call	gcm_small.aes_cipher.blocks.difference
	mv	s1, a0
	addi	a0, sp, 40
	li	a1, 1
	li	a2, 0
	call	gcm_small.aes_cipher.zeroize.elements.zeroize_elements.3
	beqz	s1, .Lgcm_small_BB62_7
# %bb.4:                                # %join.3
	lbu	a0, 12(s0)
	lbu	a1, 13(s0)
	lbu	a6, 14(s0)
	lbu	a7, 15(s0)
	lbu	a4, 8(s0)
	lbu	a5, 9(s0)
	lbu	a2, 10(s0)
	lbu	a3, 11(s0)
	slli	a1, a1, 8
	slli	a5, a5, 8
	or	t0, a1, a0
	or	t1, a5, a4
	lbu	a1, 4(s0)
	lbu	a5, 5(s0)
	lbu	a0, 6(s0)
	lbu	a4, 7(s0)
	slli	a2, a2, 16
	slli	a3, a3, 24
	slli	a5, a5, 8
	slli	a0, a0, 16
	slli	a4, a4, 24
	or	a2, a2, a3
	or	a1, a1, a5
	or	a0, a0, a4
	lbu	a3, 1(s0)
	lbu	a4, 0(s0)
	lbu	a5, 2(s0)
	lbu	s0, 3(s0)
	slli	a3, a3, 8
	or	a3, a3, a4
	slli	a5, a5, 16
	slli	s0, s0, 24
	or	a5, a5, s0
	lw	a4, 0(s11)
	ori	s0, a7, 128
	sb	a6, 38(sp)
	sb	s0, 39(sp)
	or	a2, a2, t1
	or	a0, a0, a1
	srli	s0, a4, 31
	slli	a4, a4, 1
	or	a3, a3, a5
	addi	a1, a4, 56
	sltu	a4, a1, a4
	sw	a3, 24(sp)
	sw	a0, 28(sp)
	sw	a2, 32(sp)
	sh	t0, 36(sp)
	add	a2, s0, a4
	sw	s5, 8(sp)
	sw	zero, 12(sp)
	sw	a1, 16(sp)
	sw	a2, 20(sp)
	sw	zero, 40(sp)
	sw	zero, 44(sp)
	beqz	s6, .Lgcm_small_BB62_6
# %bb.5:                                # %then.1.i.i.i30
	addi	a0, sp, 8
	addi	a1, sp, 24
	mv	a2, s2
	mv	a3, s4
	mv	a4, s3
	call	gcm_small.aes_ctr.add_in_batches.add_to_one.2
	j	.Lgcm_small_BB62_7
.Lgcm_small_BB62_6:                               # %else.2.i.i.i25
	addi	a0, sp, 24
	sw	a0, 40(sp)
	sw	zero, 48(sp)
	sw	zero, 52(sp)
	sw	s2, 56(sp)
	sw	zero, 60(sp)
	sw	s4, 64(sp)
	sw	s3, 68(sp)
	addi	a3, sp, 40
	mv	a0, s5
	call	gcm_small.aes_narrow.borrowed_words.call_to_encrypt.2
	call	gcm_small.aes_cipher.zeroize.stack.wipe_stack.2032
.Lgcm_small_BB62_7:                               # %common.ret
	seqz	a0, s1
	lw	ra, 124(sp)                     # 4-byte Folded Reload
	lw	s0, 120(sp)                     # 4-byte Folded Reload
	lw	s1, 116(sp)                     # 4-byte Folded Reload
	lw	s2, 112(sp)                     # 4-byte Folded Reload
	lw	s3, 108(sp)                     # 4-byte Folded Reload
	lw	s4, 104(sp)                     # 4-byte Folded Reload
	lw	s5, 100(sp)                     # 4-byte Folded Reload
	lw	s6, 96(sp)                      # 4-byte Folded Reload
	lw	s7, 92(sp)                      # 4-byte Folded Reload
	lw	s8, 88(sp)                      # 4-byte Folded Reload
	lw	s9, 84(sp)                      # 4-byte Folded Reload
	lw	s10, 80(sp)                     # 4-byte Folded Reload
	lw	s11, 76(sp)                     # 4-byte Folded Reload
	addi	sp, sp, 128
	ret
.Lgcm_small_func_end62:
	.size	gcm_small.gcm_siv.message.open, .Lgcm_small_func_end62-gcm_small.gcm_siv.message.open
                                        # -- End function
	.section	.text.gcm_small.gcm_siv.message.put_tag,"ax",@progbits
	.p2align	1                               # -- Begin function gcm_siv::message::put_tag::<#bc93ff5f0cc4cd41>
	.type	gcm_small.gcm_siv.message.put_tag,@function
gcm_small.gcm_siv.message.put_tag: # @gcm_small.gcm_siv.message.put_tag
# %bb.0:                                # %start
	addi	sp, sp, -128
	sw	ra, 124(sp)                     # 4-byte Folded Spill
	sw	s0, 120(sp)                     # 4-byte Folded Spill
	sw	s1, 116(sp)                     # 4-byte Folded Spill
	sw	s2, 112(sp)                     # 4-byte Folded Spill
	sw	s3, 108(sp)                     # 4-byte Folded Spill
	sw	s4, 104(sp)                     # 4-byte Folded Spill
	sw	s5, 100(sp)                     # 4-byte Folded Spill
	sw	s6, 96(sp)                      # 4-byte Folded Spill
	sw	s7, 92(sp)                      # 4-byte Folded Spill
	sw	s8, 88(sp)                      # 4-byte Folded Spill
	sw	s9, 84(sp)                      # 4-byte Folded Spill
	sw	s10, 80(sp)                     # 4-byte Folded Spill
	sw	s11, 76(sp)                     # 4-byte Folded Spill
	mv	s0, t4
	mv	s5, t3
	mv	s3, a7
	mv	s6, a6
	mv	t3, a5
	mv	s4, a4
	mv	a6, a3
	mv	s1, a2
	mv	s2, a0
	lbu	t0, 0(a1)
	lbu	t2, 1(a1)
	lbu	t4, 2(a1)
	lbu	a7, 3(a1)
	lbu	s7, 4(a1)
	lbu	t6, 5(a1)
	lbu	t5, 6(a1)
	lbu	t1, 7(a1)
	lbu	a2, 8(a1)
	lbu	a3, 9(a1)
	lbu	a0, 10(a1)
	lbu	s8, 11(a1)
	lbu	a5, 12(a1)
	lbu	a4, 13(a1)
	lbu	s9, 14(a1)
	lbu	s10, 15(a1)
	slli	t0, t0, 24
	slli	t2, t2, 16
	slli	t4, t4, 8
	slli	s7, s7, 24
	slli	t6, t6, 16
	slli	t5, t5, 8
	slli	s11, a2, 24
	slli	ra, a3, 16
	slli	a0, a0, 8
	slli	a5, a5, 24
	slli	a4, a4, 16
	slli	s9, s9, 8
	or	t0, t2, t0
	or	a2, t4, a7
	or	a3, s7, t6
	or	a1, ra, s11
	or	a0, a0, s8
	or	a4, a4, a5
	or	s8, t0, a2
	or	a2, a3, t5
	or	a0, a0, a1
	or	a1, a4, s9
	or	s7, a2, t1
	or	s9, a1, s10
	sltu	a2, s7, a2
	sltu	s10, s9, a1
	add	s8, s8, a2
	add	s10, s10, a0
	sw	s9, 48(sp)
	sw	s10, 52(sp)
	sw	s7, 56(sp)
	sw	s8, 60(sp)
	addi	a0, sp, 32
	addi	a1, sp, 48
	li	a2, 0
	li	a3, 0
	li	a4, 0
	li	a5, 0
	mv	a7, s4
	call	gcm_small.gcm.single_blocks.hash_singly.2
	lw	a2, 32(sp)
	lw	a3, 36(sp)
	lw	a4, 40(sp)
	lw	a5, 44(sp)
	addi	a0, sp, 16
	addi	a1, sp, 48
	mv	a6, s6
	mv	a7, s3
	mv	t3, s5
	call	gcm_small.gcm.single_blocks.hash_singly.2
	lw	a0, 16(sp)
	lw	a7, 20(sp)
	lw	a3, 24(sp)
	lw	a6, 28(sp)
	slli	a1, s4, 3
	slli	a5, s3, 3
	srli	a4, s3, 29
	srli	a2, s4, 29
	xor	a1, a1, a0
	xor	a2, a7, a2
	xor	a3, a3, a5
	xor	a4, a6, a4
	mv	a0, sp
	mv	a5, s9
	mv	a6, s10
	mv	a7, s7
	mv	t3, s8
	call	gcm_small.gcm.bitwise.product_bitwise
	lbu	a6, 8(sp)
	lbu	a7, 9(sp)
	lbu	t0, 10(sp)
	lbu	t3, 11(sp)
	lbu	t5, 8(s1)
	lbu	a5, 9(s1)
	lbu	a0, 10(s1)
	lbu	a1, 11(s1)
	lbu	t1, 4(sp)
	lbu	t2, 5(sp)
	lbu	t4, 6(sp)
	lbu	a3, 7(sp)
	xor	t3, t3, a1
	lbu	t6, 4(s1)
	lbu	a2, 5(s1)
	lbu	a4, 6(s1)
	lbu	a1, 7(s1)
	xor	t0, t0, a0
	xor	a7, a7, a5
	xor	a6, a6, t5
	xor	t5, a3, a1
	lbu	s3, 0(sp)
	lbu	a5, 1(sp)
	lbu	a0, 2(sp)
	lbu	a1, 3(sp)
	xor	t4, t4, a4
	xor	t2, t2, a2
	xor	t1, t1, t6
	lbu	a2, 3(s1)
	lbu	a4, 2(s1)
	lbu	a3, 1(s1)
	lbu	s1, 0(s1)
	xor	a1, a1, a2
	xor	a0, a0, a4
	xor	a3, a3, a5
	xor	a2, s3, s1
	lbu	a4, 12(sp)
	lbu	t6, 13(sp)
	lbu	s1, 14(sp)
	lbu	a5, 15(sp)
	sb	a4, 12(s0)
	sb	a2, 0(s0)
	sb	a3, 1(s0)
	sb	a0, 2(s0)
	sb	a1, 3(s0)
	sb	t1, 4(s0)
	sb	t2, 5(s0)
	sb	t4, 6(s0)
	sb	t5, 7(s0)
	sb	a6, 8(s0)
	sb	a7, 9(s0)
	sb	t0, 10(s0)
	sb	t3, 11(s0)
	andi	a0, a5, 127
	sb	t6, 13(s0)
	sb	s1, 14(s0)
	sb	a0, 15(s0)
	lw	a0, 0(s2)
	srli	a2, a0, 31
	slli	a0, a0, 1
	addi	a1, a0, 56
	sltu	a0, a1, a0
	add	a2, a2, a0
	addi	a0, s2, 4
	li	a4, 1
	mv	a3, s0
	li	a5, 0
	call	gcm_small.aes_narrow.blocks.process_all_batches
	lw	ra, 124(sp)                     # 4-byte Folded Reload
	lw	s0, 120(sp)                     # 4-byte Folded Reload
	lw	s1, 116(sp)                     # 4-byte Folded Reload
	lw	s2, 112(sp)                     # 4-byte Folded Reload
	lw	s3, 108(sp)                     # 4-byte Folded Reload
	lw	s4, 104(sp)                     # 4-byte Folded Reload
	lw	s5, 100(sp)                     # 4-byte Folded Reload
	lw	s6, 96(sp)                      # 4-byte Folded Reload
	lw	s7, 92(sp)                      # 4-byte Folded Reload
	lw	s8, 88(sp)                      # 4-byte Folded Reload
	lw	s9, 84(sp)                      # 4-byte Folded Reload
	lw	s10, 80(sp)                     # 4-byte Folded Reload
	lw	s11, 76(sp)                     # 4-byte Folded Reload
	addi	sp, sp, 128
	tail	gcm_small.aes_cipher.zeroize.stack.wipe_stack.1024
.Lgcm_small_func_end63:
	.size	gcm_small.gcm_siv.message.put_tag, .Lgcm_small_func_end63-gcm_small.gcm_siv.message.put_tag
                                        # -- End function
	.section	.text.gcm_small.gcm.single_blocks.hash_singly.2,"ax",@progbits
	.p2align	1                               # -- Begin function gcm::single_blocks::hash_singly::<#4042f4b97f1aa5e1>
	.type	gcm_small.gcm.single_blocks.hash_singly.2,@function
gcm_small.gcm.single_blocks.hash_singly.2: # @gcm_small.gcm.single_blocks.hash_singly.2
# %bb.0:                                # %start
	addi	sp, sp, -128
	sw	ra, 124(sp)                     # 4-byte Folded Spill
	sw	s0, 120(sp)                     # 4-byte Folded Spill
	sw	s1, 116(sp)                     # 4-byte Folded Spill
	sw	s2, 112(sp)                     # 4-byte Folded Spill
	sw	s3, 108(sp)                     # 4-byte Folded Spill
	sw	s4, 104(sp)                     # 4-byte Folded Spill
	sw	s5, 100(sp)                     # 4-byte Folded Spill
	sw	s6, 96(sp)                      # 4-byte Folded Spill
	sw	s7, 92(sp)                      # 4-byte Folded Spill
	sw	s8, 88(sp)                      # 4-byte Folded Spill
	sw	s9, 84(sp)                      # 4-byte Folded Spill
	sw	s10, 80(sp)                     # 4-byte Folded Spill
	sw	s11, 76(sp)                     # 4-byte Folded Spill
	sw	a6, 20(sp)                      # 4-byte Folded Spill
	mv	s4, a5
	mv	s5, a4
	mv	s6, a3
	mv	s8, a2
	slli	a3, t3, 28
	sw	a7, 4(sp)                       # 4-byte Folded Spill
	srli	a2, a7, 4
	or	a2, a2, a3
	srli	s7, t3, 4
	sw	a2, 12(sp)                      # 4-byte Folded Spill
	or	a2, a2, s7
	sw	a0, 8(sp)                       # 4-byte Folded Spill
	sw	a1, 0(sp)                       # 4-byte Folded Spill
	beqz	a2, .Lgcm_small_BB64_6
# %bb.1:                                # %join.5.i.lr.ph
	li	s3, 0
	lw	a0, 0(a1)
	sw	a0, 16(sp)                      # 4-byte Folded Spill
	lw	s9, 4(a1)
	lw	s10, 8(a1)
	lw	s11, 12(a1)
	li	s2, 0
	j	.Lgcm_small_BB64_4
.Lgcm_small_BB64_2:                               # %join.5.i
                                        #   in Loop: Header=BB64_4 Depth=1
	sltu	a0, s2, s7
.Lgcm_small_BB64_3:                               # %join.5.i
                                        #   in Loop: Header=BB64_4 Depth=1
	lw	s8, 40(sp)
	lw	s6, 44(sp)
	lw	s5, 48(sp)
	lw	s4, 52(sp)
	beqz	a0, .Lgcm_small_BB64_6
.Lgcm_small_BB64_4:                               # %join.5.i
                                        # =>This Inner Loop Header: Depth=1
	slli	a0, s3, 4
	lw	a1, 20(sp)                      # 4-byte Folded Reload
	add	a0, a0, a1
	lbu	a6, 12(a0)
	lbu	a2, 13(a0)
	lbu	a3, 14(a0)
	lbu	a4, 15(a0)
	lbu	a5, 8(a0)
	lbu	s0, 9(a0)
	lbu	s1, 10(a0)
	lbu	a1, 11(a0)
	slli	a2, a2, 8
	slli	a3, a3, 16
	slli	a4, a4, 24
	slli	s0, s0, 8
	or	a6, a2, a6
	or	a7, a4, a3
	or	a5, a5, s0
	lbu	a4, 4(a0)
	lbu	s0, 5(a0)
	lbu	a2, 6(a0)
	lbu	a3, 7(a0)
	slli	s1, s1, 16
	slli	a1, a1, 24
	slli	s0, s0, 8
	slli	a2, a2, 16
	slli	a3, a3, 24
	or	a1, a1, s1
	or	a4, a4, s0
	or	a2, a2, a3
	lbu	a3, 1(a0)
	lbu	s1, 0(a0)
	lbu	s0, 2(a0)
	lbu	a0, 3(a0)
	slli	a3, a3, 8
	or	a3, a3, s1
	slli	s0, s0, 16
	slli	a0, a0, 24
	or	a0, a0, s0
	or	s1, a7, a6
	or	a5, a5, a1
	or	a2, a2, a4
	or	a0, a0, a3
	xor	a1, a0, s8
	xor	a2, a2, s6
	xor	a3, a5, s5
	xor	a4, s1, s4
	addi	a0, sp, 40
	lw	a5, 16(sp)                      # 4-byte Folded Reload
	mv	a6, s9
	mv	a7, s10
	mv	t3, s11
	call	gcm_small.gcm.bitwise.product_bitwise
	addi	s3, s3, 1
	seqz	a0, s3
	add	s2, s2, a0
	bne	s2, s7, .Lgcm_small_BB64_2
# %bb.5:                                #   in Loop: Header=BB64_4 Depth=1
	lw	a0, 12(sp)                      # 4-byte Folded Reload
	sltu	a0, s3, a0
	j	.Lgcm_small_BB64_3
.Lgcm_small_BB64_6:                               # %"gcm::single_blocks::hash_whole::<#4042f4b97f1aa5e1>.exit"
	lw	a1, 4(sp)                       # 4-byte Folded Reload
	andi	a2, a1, 15
	beqz	a2, .Lgcm_small_BB64_11
# %bb.7:                                # %join.3
	andi	a1, a1, -16
	lw	a0, 20(sp)                      # 4-byte Folded Reload
	add	a1, a1, a0
	addi	a0, sp, 60
	bgeu	a0, a1, .Lgcm_small_BB64_9
# %bb.8:                                # %join.3
	li	a0, 1
	j	.Lgcm_small_BB64_10
.Lgcm_small_BB64_9:
	sub	a0, a0, a1
	sltu	a0, a0, a2
	xori	a0, a0, 1
.Lgcm_small_BB64_10:                              # %join.3
	sw	zero, 60(sp)
	sw	zero, 64(sp)
	sw	zero, 68(sp)
	sw	zero, 72(sp)
	addi	a0, sp, 60
	call	memcpy
	lw	t0, 64(sp)
	lbu	a1, 68(sp)
	lbu	a2, 69(sp)
	lbu	a3, 70(sp)
	lbu	a4, 71(sp)
	lbu	s1, 60(sp)
	lbu	a5, 61(sp)
	lbu	s0, 62(sp)
	lbu	a0, 63(sp)
	lw	t1, 72(sp)
	slli	a4, a4, 24
	slli	a3, a3, 16
	slli	a2, a2, 8
	slli	s0, s0, 16
	slli	a5, a5, 8
	or	a2, a2, a3
	or	s0, s0, a5
	or	a2, a2, a4
	lw	a3, 0(sp)                       # 4-byte Folded Reload
	lw	a5, 0(a3)
	lw	a6, 4(a3)
	lw	a7, 8(a3)
	lw	t3, 12(a3)
	slli	a0, a0, 24
	or	a0, a0, s0
	or	a3, a2, a1
	or	s1, s1, a0
	sltu	a2, a3, a2
	sltu	a0, s1, a0
	xor	a1, s1, s8
	add	t1, t1, a2
	add	a0, a0, t0
	xor	a2, a0, s6
	xor	a4, t1, s4
	xor	a3, a3, s5
	addi	a0, sp, 24
	call	gcm_small.gcm.bitwise.product_bitwise
	lw	s8, 24(sp)
	lw	s6, 28(sp)
	lw	s5, 32(sp)
	lw	s4, 36(sp)
.Lgcm_small_BB64_11:                              # %common.ret
	lw	a0, 8(sp)                       # 4-byte Folded Reload
	sw	s8, 0(a0)
	sw	s6, 4(a0)
	sw	s5, 8(a0)
	sw	s4, 12(a0)
	lw	ra, 124(sp)                     # 4-byte Folded Reload
	lw	s0, 120(sp)                     # 4-byte Folded Reload
	lw	s1, 116(sp)                     # 4-byte Folded Reload
	lw	s2, 112(sp)                     # 4-byte Folded Reload
	lw	s3, 108(sp)                     # 4-byte Folded Reload
	lw	s4, 104(sp)                     # 4-byte Folded Reload
	lw	s5, 100(sp)                     # 4-byte Folded Reload
	lw	s6, 96(sp)                      # 4-byte Folded Reload
	lw	s7, 92(sp)                      # 4-byte Folded Reload
	lw	s8, 88(sp)                      # 4-byte Folded Reload
	lw	s9, 84(sp)                      # 4-byte Folded Reload
	lw	s10, 80(sp)                     # 4-byte Folded Reload
	lw	s11, 76(sp)                     # 4-byte Folded Reload
	addi	sp, sp, 128
	ret
.Lgcm_small_func_end64:
	.size	gcm_small.gcm.single_blocks.hash_singly.2, .Lgcm_small_func_end64-gcm_small.gcm.single_blocks.hash_singly.2
                                        # -- End function
	.section	.text.gcm_small.aes_ctr.add_in_batches.add_to_one.2,"ax",@progbits
	.p2align	1                               # -- Begin function aes_ctr::add_in_batches::add_to_one::<#3853cb094ce32add>
	.type	gcm_small.aes_ctr.add_in_batches.add_to_one.2,@function
gcm_small.aes_ctr.add_in_batches.add_to_one.2: # @gcm_small.aes_ctr.add_in_batches.add_to_one.2
# %bb.0:                                # %start
	addi	sp, sp, -48
	sw	ra, 44(sp)                      # 4-byte Folded Spill
	sw	s0, 40(sp)                      # 4-byte Folded Spill
	sw	s1, 36(sp)                      # 4-byte Folded Spill
	sw	s2, 32(sp)                      # 4-byte Folded Spill
	sw	s3, 28(sp)                      # 4-byte Folded Spill
	sw	s4, 24(sp)                      # 4-byte Folded Spill
	mv	s2, a4
	mv	s3, a3
	mv	s4, a2
	mv	s1, a0
	lbu	a0, 1(a1)
	lbu	a2, 0(a1)
	lbu	a3, 2(a1)
	lbu	a4, 3(a1)
	slli	a0, a0, 8
	or	a0, a0, a2
	addi	a1, a1, 4
	slli	a3, a3, 16
	slli	a4, a4, 24
	or	a3, a3, a4
	or	s0, a3, a0
	addi	a0, sp, 12
	li	a2, 12
	call	memcpy
	sw	s0, 8(sp)
	lbu	a0, 1(s1)
	lbu	a1, 0(s1)
	lbu	a2, 2(s1)
	lbu	a3, 3(s1)
	slli	a0, a0, 8
	or	a0, a0, a1
	lbu	a1, 8(s1)
	lbu	a4, 9(s1)
	lbu	a5, 10(s1)
	lbu	s0, 11(s1)
	slli	a2, a2, 16
	slli	a3, a3, 24
	slli	a4, a4, 8
	slli	a5, a5, 16
	slli	s0, s0, 24
	or	a2, a2, a3
	or	a1, a1, a4
	or	a5, a5, s0
	lbu	a3, 13(s1)
	lbu	a4, 12(s1)
	lbu	s0, 14(s1)
	lbu	s1, 15(s1)
	slli	a3, a3, 8
	or	a3, a3, a4
	slli	s0, s0, 16
	slli	s1, s1, 24
	or	s0, s0, s1
	or	a0, a0, a2
	or	a1, a1, a5
	or	a2, s0, a3
	addi	a3, sp, 8
	li	a4, 1
	li	a5, 0
	call	gcm_small.aes_narrow.blocks.process_all_batches
	call	gcm_small.aes_cipher.zeroize.stack.wipe_stack.1024
	addi	a0, sp, 8
	li	a1, 0
	li	a2, 0
	mv	a3, s4
	mv	a4, s3
	mv	a5, s2
	call	gcm_small.aes_ctr.add_blocks.add_blocks
	lw	ra, 44(sp)                      # 4-byte Folded Reload
	lw	s0, 40(sp)                      # 4-byte Folded Reload
	lw	s1, 36(sp)                      # 4-byte Folded Reload
	lw	s2, 32(sp)                      # 4-byte Folded Reload
	lw	s3, 28(sp)                      # 4-byte Folded Reload
	lw	s4, 24(sp)                      # 4-byte Folded Reload
	addi	sp, sp, 48
	ret
.Lgcm_small_func_end65:
	.size	gcm_small.aes_ctr.add_in_batches.add_to_one.2, .Lgcm_small_func_end65-gcm_small.aes_ctr.add_in_batches.add_to_one.2
                                        # -- End function
	.section	.text.gcm_small.aes_narrow.borrowed_words.call_to_encrypt.2,"ax",@progbits
	.p2align	1                               # -- Begin function aes_narrow::borrowed_words::call_to_encrypt::<#d0e731d912aff965>
	.type	gcm_small.aes_narrow.borrowed_words.call_to_encrypt.2,@function
gcm_small.aes_narrow.borrowed_words.call_to_encrypt.2: # @gcm_small.aes_narrow.borrowed_words.call_to_encrypt.2
# %bb.0:                                # %start
	addi	sp, sp, -32
	sw	ra, 28(sp)                      # 4-byte Folded Spill
	lw	a5, 24(a3)
	lw	a6, 28(a3)
	lw	t1, 0(a3)
	lw	a7, 8(a3)
	lw	t0, 12(a3)
	lw	a4, 16(a3)
	sw	a0, 8(sp)
	sw	zero, 12(sp)
	sw	a1, 16(sp)
	sw	a2, 20(sp)
	addi	a0, sp, 8
	mv	a1, t1
	mv	a2, a7
	mv	a3, t0
	call	gcm_small.aes_ctr.add_in_batches.add_by_backend.2
	lw	ra, 28(sp)                      # 4-byte Folded Reload
	addi	sp, sp, 32
	ret
.Lgcm_small_func_end66:
	.size	gcm_small.aes_narrow.borrowed_words.call_to_encrypt.2, .Lgcm_small_func_end66-gcm_small.aes_narrow.borrowed_words.call_to_encrypt.2
                                        # -- End function
	.section	.text.gcm_small.aes_ctr.add_in_batches.add_by_backend.2,"ax",@progbits
	.p2align	1                               # -- Begin function aes_ctr::add_in_batches::add_by_backend::<#9f5b6b63b811461e>
	.type	gcm_small.aes_ctr.add_in_batches.add_by_backend.2,@function
gcm_small.aes_ctr.add_in_batches.add_by_backend.2: # @gcm_small.aes_ctr.add_in_batches.add_by_backend.2
# %bb.0:                                # %start
	addi	sp, sp, -336
	sw	ra, 332(sp)                     # 4-byte Folded Spill
	sw	s0, 328(sp)                     # 4-byte Folded Spill
	sw	s1, 324(sp)                     # 4-byte Folded Spill
	sw	s2, 320(sp)                     # 4-byte Folded Spill
	sw	s3, 316(sp)                     # 4-byte Folded Spill
	sw	s4, 312(sp)                     # 4-byte Folded Spill
	sw	s5, 308(sp)                     # 4-byte Folded Spill
	sw	s6, 304(sp)                     # 4-byte Folded Spill
	sw	s7, 300(sp)                     # 4-byte Folded Spill
	sw	s8, 296(sp)                     # 4-byte Folded Spill
	sw	s9, 292(sp)                     # 4-byte Folded Spill
	sw	s10, 288(sp)                    # 4-byte Folded Spill
	sw	s11, 284(sp)                    # 4-byte Folded Spill
	mv	s3, a6
	mv	s4, a5
	mv	s2, a4
	mv	s1, a3
	mv	s5, a2
	mv	s6, a1
	andi	s0, a2, 15
	li	a1, 32
	sw	s6, 24(sp)                      # 4-byte Folded Spill
	sw	a0, 20(sp)                      # 4-byte Folded Spill
	beqz	s0, .Lgcm_small_BB67_3
# %bb.1:                                # %then.1
	sltu	a0, a1, s0
	neg	a0, a0
	sub	a1, a1, s0
	beq	s3, a0, .Lgcm_small_BB67_4
# %bb.2:                                # %then.1
	sltu	a2, s3, a0
	j	.Lgcm_small_BB67_5
.Lgcm_small_BB67_3:
	mv	s7, a0
	li	s8, 0
	li	s10, 0
	j	.Lgcm_small_BB67_8
.Lgcm_small_BB67_4:
	sltu	a2, s4, a1
.Lgcm_small_BB67_5:                               # %then.1
	mv	s10, s3
	mv	s8, s4
	bnez	a2, .Lgcm_small_BB67_7
# %bb.6:                                # %then.1
	mv	s10, a0
	mv	s8, a1
.Lgcm_small_BB67_7:                               # %then.1
	add	a0, s0, s8
	srli	a1, s5, 4
	slli	a2, s1, 28
	srli	s6, s1, 4
	sltu	a3, a0, s0
	or	s7, a1, a2
	addi	a1, a0, 15
	add	a3, a3, s10
	sltu	a0, a1, a0
	srli	a1, a1, 4
	add	a0, a0, a3
	slli	a2, a0, 28
	srli	s9, a0, 4
	or	s11, a1, a2
	addi	a0, sp, 60
	li	a2, 224
	li	a1, 0
	call	memset
	addi	a6, sp, 28
	lw	a0, 20(sp)                      # 4-byte Folded Reload
	lw	a1, 24(sp)                      # 4-byte Folded Reload
	mv	a2, s7
	mv	a3, s6
	mv	a4, s11
	mv	a5, s9
	mv	s7, a0
	mv	s6, a1
	call	gcm_small.aes_ctr.keystream.fill_by_backend.2
	addi	a0, sp, 28
	mv	a1, s0
	li	a2, 0
	mv	a3, s2
	mv	a4, s8
	mv	a5, s10
	call	gcm_small.aes_ctr.add_blocks.add_blocks
.Lgcm_small_BB67_8:                               # %join.3
	sltu	a0, s4, s8
	sub	a1, s3, s10
	sub	a1, a1, a0
	sub	a0, s4, s8
	seqz	a1, a1
	sltiu	a0, a0, 32
	and	a0, a0, a1
	bnez	a0, .Lgcm_small_BB67_10
.Lgcm_small_BB67_9:                               # %join.11
                                        # =>This Inner Loop Header: Depth=1
	add	a0, s8, s5
	add	a1, s10, s1
	addi	s0, s8, 32
	sltu	a2, a0, s8
	srli	a0, a0, 4
	add	a1, a1, a2
	sltu	a2, s0, s8
	add	s10, s10, a2
	slli	a2, a1, 28
	srli	a3, a1, 4
	or	a2, a2, a0
	add	a4, s2, s8
	mv	a0, s7
	mv	a1, s6
	call	gcm_small.aes_ctr.add_in_batches.add_batch.2
	sltu	a0, s4, s0
	sub	a1, s4, s0
	sub	a0, s3, a0
	sub	a0, a0, s10
	seqz	a0, a0
	sltiu	a1, a1, 32
	and	a0, a0, a1
	mv	s8, s0
	beqz	a0, .Lgcm_small_BB67_9
.Lgcm_small_BB67_10:                              # %loop.13.preheader
	beq	s10, s3, .Lgcm_small_BB67_12
# %bb.11:                               # %loop.13.preheader
	sltu	a0, s10, s3
	bnez	a0, .Lgcm_small_BB67_13
	j	.Lgcm_small_BB67_23
.Lgcm_small_BB67_12:
	sltu	a0, s8, s4
	beqz	a0, .Lgcm_small_BB67_23
.Lgcm_small_BB67_13:                              # %join.16.lr.ph
	sw	s4, 16(sp)                      # 4-byte Folded Spill
	sw	s1, 12(sp)                      # 4-byte Folded Spill
	sw	s5, 8(sp)                       # 4-byte Folded Spill
	j	.Lgcm_small_BB67_16
.Lgcm_small_BB67_14:                              # %join.16
                                        #   in Loop: Header=BB67_16 Depth=1
	sltu	a0, s10, s3
	lw	s4, 16(sp)                      # 4-byte Folded Reload
.Lgcm_small_BB67_15:                              # %join.16
                                        #   in Loop: Header=BB67_16 Depth=1
	lw	s5, 8(sp)                       # 4-byte Folded Reload
	mv	s8, s1
	lw	s1, 12(sp)                      # 4-byte Folded Reload
	beqz	a0, .Lgcm_small_BB67_23
.Lgcm_small_BB67_16:                              # %join.16
                                        # =>This Inner Loop Header: Depth=1
	add	a0, s8, s5
	sltu	a3, s4, s8
	sub	s0, s3, s10
	andi	s11, a0, 15
	li	a1, 32
	sltu	a2, a1, s11
	sub	a1, a1, s11
	neg	a2, a2
	sub	s0, s0, a3
	sub	s9, s4, s8
	beq	s0, a2, .Lgcm_small_BB67_18
# %bb.17:                               # %join.16
                                        #   in Loop: Header=BB67_16 Depth=1
	sltu	a3, s0, a2
	j	.Lgcm_small_BB67_19
.Lgcm_small_BB67_18:                              #   in Loop: Header=BB67_16 Depth=1
	sltu	a3, s9, a1
.Lgcm_small_BB67_19:                              # %join.16
                                        #   in Loop: Header=BB67_16 Depth=1
	mv	s4, s3
	mv	s7, s2
	bnez	a3, .Lgcm_small_BB67_21
# %bb.20:                               # %join.16
                                        #   in Loop: Header=BB67_16 Depth=1
	mv	s0, a2
	mv	s9, a1
.Lgcm_small_BB67_21:                              # %join.16
                                        #   in Loop: Header=BB67_16 Depth=1
	sltu	a1, a0, s8
	add	a2, s10, s1
	add	a3, s11, s9
	srli	a0, a0, 4
	add	a1, a1, a2
	sltu	a2, a3, s11
	addi	a4, a3, 15
	add	a2, a2, s0
	sltu	a3, a4, a3
	srli	a4, a4, 4
	add	a2, a2, a3
	slli	a3, a1, 28
	or	s2, a0, a3
	slli	a0, a2, 28
	srli	s5, a2, 4
	or	s6, a4, a0
	srli	s3, a1, 4
	li	a2, 224
	addi	a0, sp, 60
	li	a1, 0
	call	memset
	addi	a6, sp, 28
	lw	a0, 20(sp)                      # 4-byte Folded Reload
	lw	a1, 24(sp)                      # 4-byte Folded Reload
	mv	a2, s2
	mv	a3, s3
	mv	a4, s6
	mv	a5, s5
	call	gcm_small.aes_ctr.keystream.fill_by_backend.2
	add	s1, s9, s8
	add	s10, s10, s0
	sltu	a0, s1, s9
	add	s10, s10, a0
	mv	s2, s7
	add	a3, s7, s8
	addi	a0, sp, 28
	mv	a1, s11
	li	a2, 0
	mv	a4, s9
	mv	a5, s0
	call	gcm_small.aes_ctr.add_blocks.add_blocks
	mv	s3, s4
	bne	s10, s4, .Lgcm_small_BB67_14
# %bb.22:                               #   in Loop: Header=BB67_16 Depth=1
	lw	s4, 16(sp)                      # 4-byte Folded Reload
	sltu	a0, s1, s4
	j	.Lgcm_small_BB67_15
.Lgcm_small_BB67_23:                              # %after.12
	lw	ra, 332(sp)                     # 4-byte Folded Reload
	lw	s0, 328(sp)                     # 4-byte Folded Reload
	lw	s1, 324(sp)                     # 4-byte Folded Reload
	lw	s2, 320(sp)                     # 4-byte Folded Reload
	lw	s3, 316(sp)                     # 4-byte Folded Reload
	lw	s4, 312(sp)                     # 4-byte Folded Reload
	lw	s5, 308(sp)                     # 4-byte Folded Reload
	lw	s6, 304(sp)                     # 4-byte Folded Reload
	lw	s7, 300(sp)                     # 4-byte Folded Reload
	lw	s8, 296(sp)                     # 4-byte Folded Reload
	lw	s9, 292(sp)                     # 4-byte Folded Reload
	lw	s10, 288(sp)                    # 4-byte Folded Reload
	lw	s11, 284(sp)                    # 4-byte Folded Reload
	addi	sp, sp, 336
	ret
.Lgcm_small_func_end67:
	.size	gcm_small.aes_ctr.add_in_batches.add_by_backend.2, .Lgcm_small_func_end67-gcm_small.aes_ctr.add_in_batches.add_by_backend.2
                                        # -- End function
	.section	.text.gcm_small.aes_ctr.add_in_batches.add_batch.2,"ax",@progbits
	.p2align	1                               # -- Begin function aes_ctr::add_in_batches::add_batch::<#9f5b6b63b811461e>
	.type	gcm_small.aes_ctr.add_in_batches.add_batch.2,@function
gcm_small.aes_ctr.add_in_batches.add_batch.2: # @gcm_small.aes_ctr.add_in_batches.add_batch.2
# %bb.0:                                # %start
	addi	sp, sp, -304
	sw	ra, 300(sp)                     # 4-byte Folded Spill
	sw	s0, 296(sp)                     # 4-byte Folded Spill
	sw	s1, 292(sp)                     # 4-byte Folded Spill
	sw	s2, 288(sp)                     # 4-byte Folded Spill
	sw	s3, 284(sp)                     # 4-byte Folded Spill
	mv	s2, a4
	mv	s3, a2
	mv	s0, a1
	mv	s1, a0
	addi	a0, sp, 20
	li	a2, 240
	li	a1, 0
	call	memset
	lbu	a7, 0(s0)
	lbu	a1, 1(s0)
	lbu	a2, 2(s0)
	lbu	a3, 3(s0)
	lbu	a6, 12(s0)
	lbu	t1, 13(s0)
	lbu	a4, 14(s0)
	lbu	a0, 15(s0)
	slli	a1, a1, 8
	slli	a2, a2, 16
	slli	a3, a3, 24
	or	a7, a1, a7
	or	t0, a3, a2
	lbu	a3, 8(s0)
	lbu	a1, 9(s0)
	lbu	a2, 10(s0)
	lbu	a5, 11(s0)
	slli	t1, t1, 8
	slli	a4, a4, 16
	slli	a0, a0, 24
	slli	a1, a1, 8
	slli	a2, a2, 16
	slli	a5, a5, 24
	or	a6, t1, a6
	or	t1, a0, a4
	or	a1, a1, a3
	or	a2, a2, a5
	lbu	a3, 5(s0)
	lbu	a4, 4(s0)
	lbu	a5, 6(s0)
	lbu	a0, 7(s0)
	slli	a3, a3, 8
	or	a3, a3, a4
	slli	a5, a5, 16
	slli	a0, a0, 24
	or	a0, a0, a5
	or	a4, t0, a7
	or	a5, t1, a6
	or	a1, a1, a2
	or	a0, a0, a3
	add	s3, s3, a4
	sw	a0, 260(sp)
	sw	a1, 264(sp)
	sw	a5, 268(sp)
	sw	s3, 4(sp)
	addi	a0, sp, 8
	addi	a1, sp, 260
	li	a2, 12
	call	memcpy
	addi	s3, s3, 1
	lbu	a0, 12(s0)
	lbu	a1, 13(s0)
	lbu	a6, 14(s0)
	lbu	a3, 15(s0)
	sw	s3, 20(sp)
	slli	a1, a1, 8
	or	a7, a1, a0
	lbu	a1, 8(s0)
	lbu	a4, 9(s0)
	lbu	a5, 10(s0)
	lbu	a2, 11(s0)
	slli	a6, a6, 16
	slli	a3, a3, 24
	slli	a4, a4, 8
	slli	a5, a5, 16
	slli	a2, a2, 24
	or	a3, a3, a6
	or	a1, a1, a4
	or	a2, a2, a5
	lbu	a4, 5(s0)
	lbu	a5, 4(s0)
	lbu	a0, 6(s0)
	lbu	s0, 7(s0)
	slli	a4, a4, 8
	or	a4, a4, a5
	slli	a0, a0, 16
	slli	s0, s0, 24
	or	a0, a0, s0
	or	a3, a3, a7
	or	a1, a1, a2
	or	a0, a0, a4
	sw	a0, 260(sp)
	sw	a1, 264(sp)
	sw	a3, 268(sp)
	addi	a0, sp, 24
	addi	a1, sp, 260
	li	a2, 12
	call	memcpy
	lbu	a0, 1(s1)
	lbu	a1, 0(s1)
	lbu	a2, 2(s1)
	lbu	a3, 3(s1)
	slli	a0, a0, 8
	or	a0, a0, a1
	lbu	a1, 8(s1)
	lbu	a4, 9(s1)
	lbu	a5, 10(s1)
	lbu	s0, 11(s1)
	slli	a2, a2, 16
	slli	a3, a3, 24
	slli	a4, a4, 8
	slli	a5, a5, 16
	slli	s0, s0, 24
	or	a2, a2, a3
	or	a1, a1, a4
	or	a5, a5, s0
	lbu	a3, 13(s1)
	lbu	a4, 12(s1)
	lbu	s0, 14(s1)
	lbu	s1, 15(s1)
	slli	a3, a3, 8
	or	a3, a3, a4
	slli	s0, s0, 16
	slli	s1, s1, 24
	or	s0, s0, s1
	or	a0, a0, a2
	or	a1, a1, a5
	or	a2, s0, a3
	addi	a3, sp, 4
	li	a4, 2
	li	a5, 0
	call	gcm_small.aes_soft.soft.blocks.filled_up.process_filled_up
	addi	a0, sp, 4
	li	a4, 32
	li	a1, 0
	li	a2, 0
	mv	a3, s2
	li	a5, 0
	call	gcm_small.aes_ctr.add_blocks.add_blocks
	lw	ra, 300(sp)                     # 4-byte Folded Reload
	lw	s0, 296(sp)                     # 4-byte Folded Reload
	lw	s1, 292(sp)                     # 4-byte Folded Reload
	lw	s2, 288(sp)                     # 4-byte Folded Reload
	lw	s3, 284(sp)                     # 4-byte Folded Reload
	addi	sp, sp, 304
	ret
.Lgcm_small_func_end68:
	.size	gcm_small.aes_ctr.add_in_batches.add_batch.2, .Lgcm_small_func_end68-gcm_small.aes_ctr.add_in_batches.add_batch.2
                                        # -- End function
	.section	.text.gcm_small.aes_ctr.keystream.fill_by_backend.2,"ax",@progbits
	.p2align	1                               # -- Begin function aes_ctr::keystream::fill_by_backend::<#9f5b6b63b811461e>
	.type	gcm_small.aes_ctr.keystream.fill_by_backend.2,@function
gcm_small.aes_ctr.keystream.fill_by_backend.2: # @gcm_small.aes_ctr.keystream.fill_by_backend.2
# %bb.0:                                # %start
	addi	sp, sp, -64
	sw	ra, 60(sp)                      # 4-byte Folded Spill
	sw	s0, 56(sp)                      # 4-byte Folded Spill
	sw	s1, 52(sp)                      # 4-byte Folded Spill
	sw	s2, 48(sp)                      # 4-byte Folded Spill
	sw	s3, 44(sp)                      # 4-byte Folded Spill
	sw	s4, 40(sp)                      # 4-byte Folded Spill
	sw	s5, 36(sp)                      # 4-byte Folded Spill
	mv	s4, a6
	mv	s2, a5
	mv	s3, a4
	mv	s0, a1
	mv	s5, a0
	lbu	a7, 0(a1)
	lbu	a1, 1(a1)
	lbu	a3, 2(s0)
	lbu	a4, 3(s0)
	lbu	a6, 12(s0)
	lbu	t0, 13(s0)
	lbu	t2, 14(s0)
	lbu	a5, 15(s0)
	slli	a1, a1, 8
	slli	a3, a3, 16
	slli	a4, a4, 24
	or	a7, a1, a7
	or	t1, a4, a3
	lbu	a4, 8(s0)
	lbu	a1, 9(s0)
	lbu	a3, 10(s0)
	lbu	a0, 11(s0)
	slli	t0, t0, 8
	slli	t2, t2, 16
	slli	a5, a5, 24
	slli	a1, a1, 8
	slli	a3, a3, 16
	slli	a0, a0, 24
	or	a6, t0, a6
	or	t2, a5, t2
	or	t0, a1, a4
	or	a0, a0, a3
	lbu	a3, 5(s0)
	lbu	a4, 4(s0)
	lbu	a1, 6(s0)
	lbu	a5, 7(s0)
	slli	a3, a3, 8
	or	a3, a3, a4
	slli	a1, a1, 16
	slli	a5, a5, 24
	or	a1, a1, a5
	or	a4, t1, a7
	or	a5, t2, a6
	or	a0, a0, t0
	or	a1, a1, a3
	add	s1, a4, a2
	sw	a1, 12(sp)
	sw	a0, 16(sp)
	sw	a5, 20(sp)
	srli	a0, s1, 24
	srli	a1, s1, 16
	srli	a2, s1, 8
	sb	s1, 0(s4)
	sb	a2, 1(s4)
	sb	a1, 2(s4)
	sb	a0, 3(s4)
	addi	a0, s4, 4
	addi	a1, sp, 12
	li	a2, 12
	call	memcpy
	addi	s1, s1, 1
	lbu	a6, 12(s0)
	lbu	a7, 13(s0)
	lbu	t0, 14(s0)
	lbu	t1, 15(s0)
	lbu	t2, 8(s0)
	lbu	t3, 9(s0)
	lbu	t4, 10(s0)
	lbu	t5, 11(s0)
	lbu	a2, 4(s0)
	lbu	a3, 5(s0)
	lbu	a4, 6(s0)
	lbu	s0, 7(s0)
	srli	a5, s1, 24
	srli	a0, s1, 16
	srli	a1, s1, 8
	sb	s1, 16(s4)
	sb	a1, 17(s4)
	sb	a0, 18(s4)
	sb	a5, 19(s4)
	slli	a7, a7, 8
	or	a0, a7, a6
	slli	t0, t0, 16
	slli	t1, t1, 24
	or	a1, t1, t0
	slli	t3, t3, 8
	or	a5, t3, t2
	slli	t4, t4, 16
	slli	t5, t5, 24
	or	s1, t5, t4
	slli	a3, a3, 8
	or	a2, a2, a3
	slli	a4, a4, 16
	slli	s0, s0, 24
	or	a4, a4, s0
	or	a0, a0, a1
	or	a5, a5, s1
	or	a2, a2, a4
	sw	a2, 12(sp)
	sw	a5, 16(sp)
	sw	a0, 20(sp)
	addi	a0, s4, 20
	addi	a1, sp, 12
	li	a2, 12
	call	memcpy
	xori	a0, s3, 1
	lbu	a1, 0(s5)
	lbu	a2, 1(s5)
	lbu	a3, 2(s5)
	lbu	a4, 3(s5)
	or	a6, a0, s2
	slli	a2, a2, 8
	or	a1, a1, a2
	lbu	a0, 12(s5)
	lbu	a2, 13(s5)
	lbu	s1, 14(s5)
	lbu	s0, 15(s5)
	slli	a3, a3, 16
	slli	a4, a4, 24
	slli	a2, a2, 8
	slli	s1, s1, 16
	slli	s0, s0, 24
	or	a3, a3, a4
	or	a2, a2, a0
	or	s0, s0, s1
	lbu	a0, 9(s5)
	lbu	a4, 8(s5)
	lbu	s1, 10(s5)
	lbu	a5, 11(s5)
	slli	a0, a0, 8
	or	a4, a4, a0
	slli	s1, s1, 16
	slli	a5, a5, 24
	or	a5, a5, s1
	or	a0, a3, a1
	or	a2, a2, s0
	or	a1, a5, a4
	bnez	a6, .Lgcm_small_BB69_2
# %bb.1:                                # %then.1.i.i
	li	a4, 1
	j	.Lgcm_small_BB69_3
.Lgcm_small_BB69_2:                               # %else.2.i.i
	li	a4, 2
.Lgcm_small_BB69_3:                               # %then.1.i.i
	mv	a3, s4
	li	a5, 0
	lw	ra, 60(sp)                      # 4-byte Folded Reload
	lw	s0, 56(sp)                      # 4-byte Folded Reload
	lw	s1, 52(sp)                      # 4-byte Folded Reload
	lw	s2, 48(sp)                      # 4-byte Folded Reload
	lw	s3, 44(sp)                      # 4-byte Folded Reload
	lw	s4, 40(sp)                      # 4-byte Folded Reload
	lw	s5, 36(sp)                      # 4-byte Folded Reload
	addi	sp, sp, 64
	tail	gcm_small.aes_soft.soft.blocks.filled_up.process_filled_up
.Lgcm_small_func_end69:
	.size	gcm_small.aes_ctr.keystream.fill_by_backend.2, .Lgcm_small_func_end69-gcm_small.aes_ctr.keystream.fill_by_backend.2
                                        # -- End function
	.section	.text.gcm_small.aes_cipher.zeroize.stack.wipe_stack.2816,"ax",@progbits
	.p2align	1                               # -- Begin function aes_cipher::zeroize::stack::wipe_stack::<=2816>
	.type	gcm_small.aes_cipher.zeroize.stack.wipe_stack.2816,@function
gcm_small.aes_cipher.zeroize.stack.wipe_stack.2816: # @gcm_small.aes_cipher.zeroize.stack.wipe_stack.2816
# %bb.0:                                # %start
	addi	sp, sp, -2032
	sw	ra, 2028(sp)                    # 4-byte Folded Spill
	sw	s0, 2024(sp)                    # 4-byte Folded Spill
	addi	sp, sp, -816
	li	a2, 11
	slli	a2, a2, 8
	addi	a0, sp, 24
	addi	s0, sp, 24
	li	a1, 0
	call	memset
	sw	zero, 16(sp)
	sw	zero, 20(sp)
	#APP
	#NO_APP
	lw	a1, 20(sp)
	lw	a0, 16(sp)
	#APP
	#NO_APP
	slli	a2, a1, 24
	srli	a3, a0, 8
	srli	a1, a1, 8
	or	a2, a2, a3
	sltiu	a2, a2, 11
	seqz	a1, a1
	and	a1, a1, a2
	beqz	a1, .Lgcm_small_BB70_2
# %bb.1:                                # %then.1
	add	a0, a0, s0
	lbu	a0, 0(a0)
	#APP
	#NO_APP
	lw	zero, 20(sp)
	lw	zero, 16(sp)
	sw	zero, 20(sp)
	sw	a0, 16(sp)
	#APP
	#NO_APP
.Lgcm_small_BB70_2:                               # %common.ret
	addi	sp, sp, 816
	lw	ra, 2028(sp)                    # 4-byte Folded Reload
	lw	s0, 2024(sp)                    # 4-byte Folded Reload
	addi	sp, sp, 2032
	ret
.Lgcm_small_func_end70:
	.size	gcm_small.aes_cipher.zeroize.stack.wipe_stack.2816, .Lgcm_small_func_end70-gcm_small.aes_cipher.zeroize.stack.wipe_stack.2816
                                        # -- End function
	.section	.text.gcm_small.gcm_siv.course.seal_in,"ax",@progbits
	.p2align	1                               # -- Begin function gcm_siv::course::seal_in::<#a4ece9b7a9859b66>
	.type	gcm_small.gcm_siv.course.seal_in,@function
gcm_small.gcm_siv.course.seal_in: # @gcm_small.gcm_siv.course.seal_in
# %bb.0:                                # %start
	addi	sp, sp, -576
	sw	ra, 572(sp)                     # 4-byte Folded Spill
	sw	s0, 568(sp)                     # 4-byte Folded Spill
	sw	s1, 564(sp)                     # 4-byte Folded Spill
	sw	s2, 560(sp)                     # 4-byte Folded Spill
	sw	s3, 556(sp)                     # 4-byte Folded Spill
	sw	s4, 552(sp)                     # 4-byte Folded Spill
	sw	s5, 548(sp)                     # 4-byte Folded Spill
	sw	s6, 544(sp)                     # 4-byte Folded Spill
	sw	s7, 540(sp)                     # 4-byte Folded Spill
	sw	s8, 536(sp)                     # 4-byte Folded Spill
	sw	s9, 532(sp)                     # 4-byte Folded Spill
	sw	s10, 528(sp)                    # 4-byte Folded Spill
	sw	s11, 524(sp)                    # 4-byte Folded Spill
	mv	s3, t5
	mv	s4, t4
	mv	s5, t3
	mv	s6, a7
	mv	s7, a6
	mv	s8, a5
	mv	s1, a4
	mv	s9, a3
	mv	s10, a2
	mv	s0, a1
	mv	s2, a0
	addi	s11, sp, 28
	li	a2, 480
	mv	a0, s11
	li	a1, 0
	call	memset
	sw	zero, 24(sp)
	addi	a4, sp, 24
	addi	a5, sp, 508
	mv	a0, s0
	mv	a1, s10
	mv	a2, s9
	mv	a3, s1
	call	gcm_small.gcm_siv.keys.derive_and_prepare
	addi	a0, sp, 8
	addi	a1, sp, 24
	addi	a2, sp, 508
	mv	a3, s1
	mv	a4, s8
	mv	a5, s7
	mv	a6, s6
	mv	a7, s5
	mv	t3, s4
	mv	t4, s3
	call	gcm_small.gcm_siv.message.seal
	sw	zero, 24(sp)
	mv	a0, s11
	call	gcm_small.aes_cipher.zeroize.elements.zeroize_elements.1
	addi	a0, sp, 508
	call	gcm_small.aes_cipher.zeroize.elements.zeroize_elements.2
	call	gcm_small.aes_cipher.zeroize.stack.wipe_stack.2816
	addi	a1, sp, 8
	li	a2, 16
	mv	a0, s2
	call	memcpy
	lw	ra, 572(sp)                     # 4-byte Folded Reload
	lw	s0, 568(sp)                     # 4-byte Folded Reload
	lw	s1, 564(sp)                     # 4-byte Folded Reload
	lw	s2, 560(sp)                     # 4-byte Folded Reload
	lw	s3, 556(sp)                     # 4-byte Folded Reload
	lw	s4, 552(sp)                     # 4-byte Folded Reload
	lw	s5, 548(sp)                     # 4-byte Folded Reload
	lw	s6, 544(sp)                     # 4-byte Folded Reload
	lw	s7, 540(sp)                     # 4-byte Folded Reload
	lw	s8, 536(sp)                     # 4-byte Folded Reload
	lw	s9, 532(sp)                     # 4-byte Folded Reload
	lw	s10, 528(sp)                    # 4-byte Folded Reload
	lw	s11, 524(sp)                    # 4-byte Folded Reload
	addi	sp, sp, 576
	ret
.Lgcm_small_func_end71:
	.size	gcm_small.gcm_siv.course.seal_in, .Lgcm_small_func_end71-gcm_small.gcm_siv.course.seal_in
                                        # -- End function
	.section	.text.gcm_small.gcm_siv.message.seal,"ax",@progbits
	.p2align	1                               # -- Begin function gcm_siv::message::seal::<#bc93ff5f0cc4cd41>
	.type	gcm_small.gcm_siv.message.seal,@function
gcm_small.gcm_siv.message.seal: # @gcm_small.gcm_siv.message.seal
# %bb.0:                                # %start
	addi	sp, sp, -112
	sw	ra, 108(sp)                     # 4-byte Folded Spill
	sw	s0, 104(sp)                     # 4-byte Folded Spill
	sw	s1, 100(sp)                     # 4-byte Folded Spill
	sw	s2, 96(sp)                      # 4-byte Folded Spill
	sw	s3, 92(sp)                      # 4-byte Folded Spill
	sw	s4, 88(sp)                      # 4-byte Folded Spill
	sw	s5, 84(sp)                      # 4-byte Folded Spill
	sw	s6, 80(sp)                      # 4-byte Folded Spill
	mv	s4, t4
	mv	s5, t3
	mv	s3, a7
	mv	s6, a1
	mv	s2, a0
	mv	t4, sp
	mv	a0, a1
	mv	a1, a2
	mv	a2, a3
	mv	a3, a4
	mv	a4, a5
	mv	a5, a6
	mv	a6, a7
	mv	a7, t3
	mv	t3, s4
	call	gcm_small.gcm_siv.message.put_tag
	lbu	a3, 12(sp)
	lbu	a4, 13(sp)
	lbu	a6, 14(sp)
	lbu	a7, 15(sp)
	lbu	t0, 8(sp)
	lbu	t1, 9(sp)
	lbu	t2, 10(sp)
	lbu	a1, 11(sp)
	sltiu	s0, s5, 17
	seqz	a2, s4
	and	t3, a2, s0
	slli	a4, a4, 8
	or	t4, a4, a3
	lbu	a2, 4(sp)
	lbu	a4, 5(sp)
	lbu	a5, 6(sp)
	lbu	a0, 7(sp)
	slli	t1, t1, 8
	slli	t2, t2, 16
	slli	a1, a1, 24
	slli	a4, a4, 8
	slli	a5, a5, 16
	slli	a0, a0, 24
	or	s0, t1, t0
	or	a1, a1, t2
	or	a2, a2, a4
	or	a0, a0, a5
	lbu	a4, 1(sp)
	lbu	a5, 0(sp)
	lbu	s1, 2(sp)
	lbu	a3, 3(sp)
	slli	a4, a4, 8
	or	a4, a4, a5
	slli	s1, s1, 16
	slli	a3, a3, 24
	or	a3, a3, s1
	ori	a5, a7, 128
	sb	a6, 46(sp)
	sb	a5, 47(sp)
	or	a1, a1, s0
	lw	a5, 0(s6)
	or	a2, a2, a0
	addi	a0, s6, 4
	or	a3, a3, a4
	srli	a4, a5, 31
	slli	a5, a5, 1
	sw	a3, 32(sp)
	sw	a2, 36(sp)
	sw	a1, 40(sp)
	sh	t4, 44(sp)
	addi	a1, a5, 56
	sltu	a2, a1, a5
	add	a2, a2, a4
	sw	a0, 16(sp)
	sw	zero, 20(sp)
	sw	a1, 24(sp)
	sw	a2, 28(sp)
	sw	zero, 48(sp)
	sw	zero, 52(sp)
	beqz	t3, .Lgcm_small_BB72_2
# %bb.1:                                # %then.1.i.i.i
	addi	a0, sp, 16
	addi	a1, sp, 32
	mv	a2, s3
	mv	a3, s5
	mv	a4, s4
	call	gcm_small.aes_ctr.add_in_batches.add_to_one.2
	j	.Lgcm_small_BB72_3
.Lgcm_small_BB72_2:                               # %else.2.i.i.i
	addi	a3, sp, 32
	sw	a3, 48(sp)
	sw	zero, 56(sp)
	sw	zero, 60(sp)
	sw	s3, 64(sp)
	sw	zero, 68(sp)
	sw	s5, 72(sp)
	sw	s4, 76(sp)
	addi	a3, sp, 48
	call	gcm_small.aes_narrow.borrowed_words.call_to_encrypt.2
	call	gcm_small.aes_cipher.zeroize.stack.wipe_stack.2032
.Lgcm_small_BB72_3:                               # %"gcm_siv::message::process_text::<#a556ffa628b2ee02>.exit"
	mv	a1, sp
	li	a2, 16
	mv	a0, s2
	call	memcpy
	lw	ra, 108(sp)                     # 4-byte Folded Reload
	lw	s0, 104(sp)                     # 4-byte Folded Reload
	lw	s1, 100(sp)                     # 4-byte Folded Reload
	lw	s2, 96(sp)                      # 4-byte Folded Reload
	lw	s3, 92(sp)                      # 4-byte Folded Reload
	lw	s4, 88(sp)                      # 4-byte Folded Reload
	lw	s5, 84(sp)                      # 4-byte Folded Reload
	lw	s6, 80(sp)                      # 4-byte Folded Reload
	addi	sp, sp, 112
	ret
.Lgcm_small_func_end72:
	.size	gcm_small.gcm_siv.message.seal, .Lgcm_small_func_end72-gcm_small.gcm_siv.message.seal
                                        # -- End function
	.section	.text.gcm_small.gcm.hash_room.hash_piece,"ax",@progbits
	.p2align	1                               # -- Begin function gcm::hash_room::hash_piece::<#d9ba0fa9ccec4268>
	.type	gcm_small.gcm.hash_room.hash_piece,@function
gcm_small.gcm.hash_room.hash_piece: # @gcm_small.gcm.hash_room.hash_piece
# %bb.0:                                # %start
	addi	sp, sp, -128
	sw	ra, 124(sp)                     # 4-byte Folded Spill
	sw	s0, 120(sp)                     # 4-byte Folded Spill
	sw	s1, 116(sp)                     # 4-byte Folded Spill
	sw	s2, 112(sp)                     # 4-byte Folded Spill
	sw	s3, 108(sp)                     # 4-byte Folded Spill
	sw	s4, 104(sp)                     # 4-byte Folded Spill
	sw	s5, 100(sp)                     # 4-byte Folded Spill
	sw	s6, 96(sp)                      # 4-byte Folded Spill
	sw	s7, 92(sp)                      # 4-byte Folded Spill
	sw	s8, 88(sp)                      # 4-byte Folded Spill
	sw	s9, 84(sp)                      # 4-byte Folded Spill
	sw	s10, 80(sp)                     # 4-byte Folded Spill
	sw	s11, 76(sp)                     # 4-byte Folded Spill
	mv	s2, a2
	mv	s5, a1
	sw	a0, 12(sp)                      # 4-byte Folded Spill
	sltiu	a0, a3, 17
	neg	a1, a4
	xori	a0, a0, 1
	sub	ra, a1, a0
	li	a2, 16
	sub	a2, a2, a3
	beq	a7, ra, .Lgcm_small_BB73_4
# %bb.1:                                # %start
	sltu	a0, a7, ra
	bnez	a0, .Lgcm_small_BB73_5
.Lgcm_small_BB73_2:                               # %join.3
	lbu	a0, 0(s5)
	lbu	s0, 1(s5)
	lbu	t4, 2(s5)
	lbu	t0, 3(s5)
	lbu	t1, 4(s5)
	lbu	t2, 5(s5)
	lbu	t3, 6(s5)
	lbu	a7, 7(s5)
	lbu	s6, 8(s5)
	lbu	t5, 9(s5)
	lbu	t6, 10(s5)
	lbu	s3, 11(s5)
	slli	a0, a0, 24
	slli	s0, s0, 16
	or	s4, s0, a0
	lbu	s0, 12(s5)
	lbu	s8, 13(s5)
	lbu	s7, 14(s5)
	lbu	s10, 15(s5)
	add	a0, s2, a3
	slli	t4, t4, 8
	or	t0, t4, t0
	sltu	a3, a0, a5
	neg	t4, a3
	slli	t1, t1, 24
	slli	t2, t2, 16
	slli	t3, t3, 8
	slli	s6, s6, 24
	slli	t5, t5, 16
	slli	t6, t6, 8
	slli	s11, s0, 24
	slli	s8, s8, 16
	slli	s9, s7, 8
	or	t1, t1, t2
	or	t2, t5, s6
	or	s0, t6, s3
	or	a3, s11, s8
	or	s7, s4, t0
	or	a4, t1, t3
	or	s8, t2, s0
	or	a3, a3, s9
	or	s9, a4, a7
	or	s10, a3, s10
	sltu	a4, s9, a4
	sltu	s0, s10, a3
	beq	t4, ra, .Lgcm_small_BB73_8
# %bb.3:                                # %join.3
	sltu	a3, t4, ra
	j	.Lgcm_small_BB73_9
.Lgcm_small_BB73_4:
	sltu	a0, a6, a2
	beqz	a0, .Lgcm_small_BB73_2
.Lgcm_small_BB73_5:                               # %then.1
	add	a0, s2, a3
	sltu	a1, a0, a5
	neg	a1, a1
	beq	a1, a7, .Lgcm_small_BB73_14
# %bb.6:                                # %then.1
	sltu	a1, a1, a7
	bnez	a1, .Lgcm_small_BB73_15
.Lgcm_small_BB73_7:                               # %apart.2.i.i.i.i.i.i
	mv	a1, a5
	mv	a2, a6
	lw	ra, 124(sp)                     # 4-byte Folded Reload
	lw	s0, 120(sp)                     # 4-byte Folded Reload
	lw	s1, 116(sp)                     # 4-byte Folded Reload
	lw	s2, 112(sp)                     # 4-byte Folded Reload
	lw	s3, 108(sp)                     # 4-byte Folded Reload
	lw	s4, 104(sp)                     # 4-byte Folded Reload
	lw	s5, 100(sp)                     # 4-byte Folded Reload
	lw	s6, 96(sp)                      # 4-byte Folded Reload
	lw	s7, 92(sp)                      # 4-byte Folded Reload
	lw	s8, 88(sp)                      # 4-byte Folded Reload
	lw	s9, 84(sp)                      # 4-byte Folded Reload
	lw	s10, 80(sp)                     # 4-byte Folded Reload
	lw	s11, 76(sp)                     # 4-byte Folded Reload
	addi	sp, sp, 128
	tail	memmove
.Lgcm_small_BB73_8:
	sub	a3, a0, a5
	sltu	a3, a3, a2
.Lgcm_small_BB73_9:                               # %join.3
	add	s7, s7, a4
	add	s8, s8, s0
	add	s3, a5, a2
	sub	s6, a6, a2
	beqz	a3, .Lgcm_small_BB73_19
# %bb.10:                               # %join.7.i.i.i.i.i.i38.preheader
	li	s0, 0
	li	a1, 0
	j	.Lgcm_small_BB73_12
.Lgcm_small_BB73_11:                              # %join.7.i.i.i.i.i.i38
                                        #   in Loop: Header=BB73_12 Depth=1
	sltu	a3, a1, ra
	beqz	a3, .Lgcm_small_BB73_20
.Lgcm_small_BB73_12:                              # %join.7.i.i.i.i.i.i38
                                        # =>This Inner Loop Header: Depth=1
	add	s1, a0, s0
	add	a3, a5, s0
	lbu	a3, 0(a3)
	addi	s0, s0, 1
	seqz	a4, s0
	add	a1, a1, a4
	sb	a3, 0(s1)
	bne	a1, ra, .Lgcm_small_BB73_11
# %bb.13:                               #   in Loop: Header=BB73_12 Depth=1
	sltu	a3, s0, a2
	bnez	a3, .Lgcm_small_BB73_12
	j	.Lgcm_small_BB73_20
.Lgcm_small_BB73_14:
	sub	a1, a0, a5
	sltu	a1, a1, a6
	beqz	a1, .Lgcm_small_BB73_7
.Lgcm_small_BB73_15:                              # %join.7.i.i.i.i.i.i.preheader
	li	a1, 0
	li	s1, 0
	j	.Lgcm_small_BB73_17
.Lgcm_small_BB73_16:                              #   in Loop: Header=BB73_17 Depth=1
	sltu	a3, a1, a6
	beqz	a3, .Lgcm_small_BB73_28
.Lgcm_small_BB73_17:                              # %join.7.i.i.i.i.i.i
                                        # =>This Inner Loop Header: Depth=1
	add	a3, a0, a1
	add	a4, a5, a1
	lbu	a4, 0(a4)
	addi	a1, a1, 1
	seqz	a2, a1
	add	s1, s1, a2
	sb	a4, 0(a3)
	beq	s1, a7, .Lgcm_small_BB73_16
# %bb.18:                               # %join.7.i.i.i.i.i.i
                                        #   in Loop: Header=BB73_17 Depth=1
	sltu	a3, s1, a7
	bnez	a3, .Lgcm_small_BB73_17
	j	.Lgcm_small_BB73_28
.Lgcm_small_BB73_19:                              # %apart.2.i.i.i.i.i.i36
	mv	a1, a5
	call	memmove
.Lgcm_small_BB73_20:                              # %"core::slice::edits::slice+T::copy_from_slice::<i8,20'core::clone::U8Clone{}>.exit45"
	andi	s4, s6, -16
	andi	s6, s6, 15
	lbu	s0, 0(s2)
	lbu	t5, 1(s2)
	lbu	t1, 2(s2)
	lbu	t0, 3(s2)
	lbu	t2, 4(s2)
	lbu	t3, 5(s2)
	lbu	t4, 6(s2)
	lbu	a6, 7(s2)
	lbu	s1, 8(s2)
	lbu	a0, 9(s2)
	lbu	a1, 10(s2)
	lbu	t6, 11(s2)
	lbu	a4, 12(s2)
	lbu	a5, 13(s2)
	lbu	a3, 14(s2)
	lbu	a7, 15(s2)
	lw	a2, 12(sp)                      # 4-byte Folded Reload
	lw	a2, 0(a2)
	slli	s0, s0, 24
	slli	t5, t5, 16
	or	t5, t5, s0
	add	s0, s3, s4
	slli	t1, t1, 8
	slli	t2, t2, 24
	slli	t3, t3, 16
	slli	t4, t4, 8
	slli	s1, s1, 24
	slli	a0, a0, 16
	slli	a1, a1, 8
	slli	ra, a4, 24
	slli	a5, a5, 16
	slli	s11, a3, 8
	or	a3, t1, t0
	or	a4, t2, t3
	or	a0, a0, s1
	or	a1, a1, t6
	lbu	t3, 0(a2)
	lbu	t0, 1(a2)
	lbu	t1, 2(a2)
	lbu	t2, 3(a2)
	or	a5, ra, a5
	or	s1, t5, a3
	or	a3, a4, t4
	or	a4, a0, a1
	lbu	ra, 4(a2)
	lbu	t5, 5(a2)
	lbu	t6, 6(a2)
	lbu	t4, 7(a2)
	or	a1, a5, s11
	or	a5, a3, a6
	or	a0, a1, a7
	sltu	a6, a5, a3
	sltu	a7, a0, a1
	xor	a1, a0, s10
	xor	a3, a5, s9
	add	a6, a6, s1
	lbu	a0, 8(a2)
	lbu	a5, 9(a2)
	lbu	s11, 10(a2)
	lbu	s9, 11(a2)
	slli	t3, t3, 24
	slli	t0, t0, 16
	slli	t1, t1, 8
	add	s10, a4, a7
	or	a7, t0, t3
	or	t0, t1, t2
	lbu	a4, 12(a2)
	lbu	s1, 13(a2)
	lbu	t1, 14(a2)
	lbu	t2, 15(a2)
	slli	ra, ra, 24
	slli	t5, t5, 16
	slli	t6, t6, 8
	slli	a2, a0, 24
	slli	a5, a5, 16
	slli	s11, s11, 8
	slli	a4, a4, 24
	slli	s1, s1, 16
	slli	t1, t1, 8
	or	t3, ra, t5
	or	t5, a5, a2
	or	a5, s11, s9
	or	s1, s1, a4
	xor	a2, s10, s8
	xor	a4, a6, s7
	or	a6, a7, t0
	or	a0, t3, t6
	or	t0, t5, a5
	or	s1, s1, t1
	or	a7, a0, t4
	or	a5, s1, t2
	sltu	t3, a7, a0
	sltu	a0, a5, s1
	add	t3, t3, a6
	add	a6, a0, t0
	addi	a0, sp, 32
	call	gcm_small.gcm.bitwise.product_bitwise
	bgeu	s2, s0, .Lgcm_small_BB73_22
# %bb.21:                               # %"core::slice::edits::slice+T::copy_from_slice::<i8,20'core::clone::U8Clone{}>.exit45"
	li	a0, 1
	j	.Lgcm_small_BB73_23
.Lgcm_small_BB73_22:
	sub	a0, s2, s0
	sltu	a0, a0, s6
	xori	a0, a0, 1
.Lgcm_small_BB73_23:                              # %"core::slice::edits::slice+T::copy_from_slice::<i8,20'core::clone::U8Clone{}>.exit45"
	lw	s7, 32(sp)
	lw	s8, 36(sp)
	lw	s9, 40(sp)
	lw	s10, 44(sp)
	bnez	a0, .Lgcm_small_BB73_26
# %bb.24:                               # %join.7.i.i.i.i.i.i217.preheader
	li	a1, 0
.Lgcm_small_BB73_25:                              # %join.7.i.i.i.i.i.i217
                                        # =>This Inner Loop Header: Depth=1
	add	a2, s2, a0
	add	a3, s0, a0
	addi	a0, a0, 1
	lbu	a3, 0(a3)
	seqz	a4, a0
	add	a1, a1, a4
	sltu	a4, a0, s6
	seqz	a5, a1
	and	a4, a4, a5
	sb	a3, 0(a2)
	bnez	a4, .Lgcm_small_BB73_25
	j	.Lgcm_small_BB73_27
.Lgcm_small_BB73_26:                              # %apart.2.i.i.i.i.i.i215
	mv	a0, s2
	mv	a1, s0
	mv	a2, s6
	call	memmove
.Lgcm_small_BB73_27:                              # %"core::slice::edits::slice+T::copy_from_slice::<i8,20'core::clone::U8Clone{}>.exit224"
	lw	a0, 12(sp)                      # 4-byte Folded Reload
	lw	a0, 0(a0)
	lbu	t0, 0(a0)
	lbu	t1, 1(a0)
	lbu	t2, 2(a0)
	lbu	a7, 3(a0)
	lbu	t3, 4(a0)
	lbu	t5, 5(a0)
	lbu	t4, 6(a0)
	lbu	a6, 7(a0)
	lbu	a4, 8(a0)
	lbu	a1, 9(a0)
	lbu	a2, 10(a0)
	lbu	s2, 11(a0)
	lbu	a5, 12(a0)
	lbu	s0, 13(a0)
	lbu	s1, 14(a0)
	lbu	t6, 15(a0)
	slli	t0, t0, 24
	slli	t1, t1, 16
	slli	t2, t2, 8
	slli	t3, t3, 24
	slli	t5, t5, 16
	slli	t4, t4, 8
	slli	s6, a4, 24
	slli	a1, a1, 16
	slli	a2, a2, 8
	slli	a5, a5, 24
	slli	s0, s0, 16
	slli	s1, s1, 8
	or	a0, t1, t0
	or	a3, t2, a7
	or	a4, t3, t5
	or	a1, a1, s6
	or	a2, a2, s2
	or	a5, a5, s0
	or	a0, a0, a3
	or	a3, a4, t4
	or	a1, a1, a2
	or	a5, a5, s1
	or	a2, a3, a6
	or	a4, a5, t6
	sltu	a3, a2, a3
	sltu	a5, a4, a5
	add	a0, a0, a3
	add	a1, a1, a5
	sw	a4, 48(sp)
	sw	a1, 52(sp)
	sw	a2, 56(sp)
	sw	a0, 60(sp)
	addi	a0, sp, 16
	addi	a1, sp, 48
	mv	a2, s7
	mv	a3, s8
	mv	a4, s9
	mv	a5, s10
	mv	a6, s3
	mv	a7, s4
	li	t3, 0
	call	gcm_small.gcm.single_blocks.hash_singly.1
	lbu	a6, 16(sp)
	lbu	a7, 17(sp)
	lbu	t0, 18(sp)
	lbu	t1, 19(sp)
	lbu	t2, 20(sp)
	lbu	t3, 21(sp)
	lbu	t4, 22(sp)
	lbu	t5, 23(sp)
	lbu	a0, 28(sp)
	lbu	a1, 29(sp)
	lbu	a2, 30(sp)
	lbu	a3, 31(sp)
	lbu	a4, 24(sp)
	lbu	a5, 25(sp)
	lbu	s1, 26(sp)
	lbu	s0, 27(sp)
	sb	a3, 0(s5)
	sb	a2, 1(s5)
	sb	a1, 2(s5)
	sb	a0, 3(s5)
	sb	s0, 4(s5)
	sb	s1, 5(s5)
	sb	a5, 6(s5)
	sb	a4, 7(s5)
	sb	t5, 8(s5)
	sb	t4, 9(s5)
	sb	t3, 10(s5)
	sb	t2, 11(s5)
	sb	t1, 12(s5)
	sb	t0, 13(s5)
	sb	a7, 14(s5)
	sb	a6, 15(s5)
.Lgcm_small_BB73_28:                              # %common.ret
	lw	ra, 124(sp)                     # 4-byte Folded Reload
	lw	s0, 120(sp)                     # 4-byte Folded Reload
	lw	s1, 116(sp)                     # 4-byte Folded Reload
	lw	s2, 112(sp)                     # 4-byte Folded Reload
	lw	s3, 108(sp)                     # 4-byte Folded Reload
	lw	s4, 104(sp)                     # 4-byte Folded Reload
	lw	s5, 100(sp)                     # 4-byte Folded Reload
	lw	s6, 96(sp)                      # 4-byte Folded Reload
	lw	s7, 92(sp)                      # 4-byte Folded Reload
	lw	s8, 88(sp)                      # 4-byte Folded Reload
	lw	s9, 84(sp)                      # 4-byte Folded Reload
	lw	s10, 80(sp)                     # 4-byte Folded Reload
	lw	s11, 76(sp)                     # 4-byte Folded Reload
	addi	sp, sp, 128
	ret
.Lgcm_small_func_end73:
	.size	gcm_small.gcm.hash_room.hash_piece, .Lgcm_small_func_end73-gcm_small.gcm.hash_room.hash_piece
                                        # -- End function
	.section	.text.gcm_small.gcm.mode.BorrowedGcm.enter_phase,"ax",@progbits
	.p2align	1                               # -- Begin function gcm::mode::BorrowedGcm::enter_phase::<#c01aad2b5fbc92b1>
	.type	gcm_small.gcm.mode.BorrowedGcm.enter_phase,@function
gcm_small.gcm.mode.BorrowedGcm.enter_phase: # @gcm_small.gcm.mode.BorrowedGcm.enter_phase
# %bb.0:                                # %start
	addi	sp, sp, -48
	sw	ra, 44(sp)                      # 4-byte Folded Spill
	sw	s0, 40(sp)                      # 4-byte Folded Spill
	sw	s1, 36(sp)                      # 4-byte Folded Spill
	sw	s2, 32(sp)                      # 4-byte Folded Spill
	sw	s3, 28(sp)                      # 4-byte Folded Spill
	sw	s4, 24(sp)                      # 4-byte Folded Spill
	sw	s5, 20(sp)                      # 4-byte Folded Spill
	mv	a6, a1
	lw	s0, 24(a1)
	lw	a5, 28(a1)
	seqz	s1, s0
	sub	a5, a5, s1
	addi	a1, s0, -1
	sltiu	a1, a1, 4
	seqz	a5, a5
	and	a1, a1, a5
	neg	a1, a1
	and	a1, a1, s0
	zext.b	s1, a1
	li	a5, 1
	zext.b	s2, a2
	beq	s1, a5, .Lgcm_small_BB74_2
# %bb.1:                                # %start
	li	a1, 0
	bne	s1, s2, .Lgcm_small_BB74_13
.Lgcm_small_BB74_2:                               # %join.3
	lw	a1, 12(a6)
	lw	a2, 8(a6)
	add	a5, a4, a1
	add	a1, a3, a2
	sltu	a3, a1, a3
	add	a2, a5, a3
	beq	a2, a4, .Lgcm_small_BB74_4
# %bb.3:                                # %join.3
	sltu	a3, a2, a4
.Lgcm_small_BB74_4:                               # %join.3
	neg	a3, a3
	or	a2, a2, a3
	li	a4, 15
	or	a3, a3, a1
	beq	a2, a4, .Lgcm_small_BB74_6
# %bb.5:                                # %join.3
	sltiu	a1, a2, 16
	j	.Lgcm_small_BB74_7
.Lgcm_small_BB74_6:
	sltiu	a1, a3, -31
.Lgcm_small_BB74_7:                               # %join.3
	li	a4, 1
	xori	a1, a1, 1
	bne	s1, a4, .Lgcm_small_BB74_12
# %bb.8:                                # %join.3
	li	a4, 15
	beq	a2, a4, .Lgcm_small_BB74_10
# %bb.9:                                # %join.3
	sltiu	a2, a2, 16
	mv	a5, a1
	bnez	a2, .Lgcm_small_BB74_11
	j	.Lgcm_small_BB74_13
.Lgcm_small_BB74_10:
	sltiu	a2, a3, -31
	mv	a5, a1
	beqz	a2, .Lgcm_small_BB74_13
.Lgcm_small_BB74_11:                              # %then.8
	mv	a1, a0
	mv	a0, sp
	mv	s0, a6
	mv	a2, a6
	call	gcm_small.gcm.mode.BorrowedGcm.hash_so_far
	li	a1, 0
	li	a5, 0
	lbu	a6, 0(sp)
	lbu	a7, 1(sp)
	lbu	t0, 2(sp)
	lbu	t1, 3(sp)
	lbu	t2, 4(sp)
	lbu	t3, 5(sp)
	lbu	t4, 6(sp)
	lbu	t5, 7(sp)
	lbu	t6, 8(sp)
	lbu	s3, 9(sp)
	lbu	s4, 10(sp)
	lbu	s5, 11(sp)
	lbu	a3, 12(sp)
	lbu	a4, 13(sp)
	lbu	s1, 14(sp)
	lbu	a0, 15(sp)
	addi	s2, s2, -3
	seqz	a2, s2
	addi	a2, a2, 2
	sw	a2, 24(s0)
	sw	zero, 28(s0)
	sb	a0, 48(s0)
	sb	s1, 49(s0)
	sb	a4, 50(s0)
	sb	a3, 51(s0)
	sb	s5, 52(s0)
	sb	s4, 53(s0)
	sb	s3, 54(s0)
	sb	t6, 55(s0)
	sb	t5, 56(s0)
	sb	t4, 57(s0)
	sb	t3, 58(s0)
	sb	t2, 59(s0)
	sb	t1, 60(s0)
	sb	t0, 61(s0)
	sb	a7, 62(s0)
	sb	a6, 63(s0)
	j	.Lgcm_small_BB74_13
.Lgcm_small_BB74_12:
	mv	a5, a1
.Lgcm_small_BB74_13:                              # %return.4
	mv	a0, a5
	lw	ra, 44(sp)                      # 4-byte Folded Reload
	lw	s0, 40(sp)                      # 4-byte Folded Reload
	lw	s1, 36(sp)                      # 4-byte Folded Reload
	lw	s2, 32(sp)                      # 4-byte Folded Reload
	lw	s3, 28(sp)                      # 4-byte Folded Reload
	lw	s4, 24(sp)                      # 4-byte Folded Reload
	lw	s5, 20(sp)                      # 4-byte Folded Reload
	addi	sp, sp, 48
	ret
.Lgcm_small_func_end74:
	.size	gcm_small.gcm.mode.BorrowedGcm.enter_phase, .Lgcm_small_func_end74-gcm_small.gcm.mode.BorrowedGcm.enter_phase
                                        # -- End function
	.section	.text.gcm_small.gcm.mode.BorrowedGcm.is_tag_so_far,"ax",@progbits
	.p2align	1                               # -- Begin function gcm::mode::BorrowedGcm::is_tag_so_far::<#c01aad2b5fbc92b1>
	.type	gcm_small.gcm.mode.BorrowedGcm.is_tag_so_far,@function
gcm_small.gcm.mode.BorrowedGcm.is_tag_so_far: # @gcm_small.gcm.mode.BorrowedGcm.is_tag_so_far
# %bb.0:                                # %start
	addi	sp, sp, -32
	sw	ra, 28(sp)                      # 4-byte Folded Spill
	sw	s0, 24(sp)                      # 4-byte Folded Spill
	mv	s0, a2
	addi	a2, sp, 8
	call	gcm_small.gcm.mode.BorrowedGcm.put_tag_so_far
	addi	a1, sp, 8
	mv	a0, s0
	call	gcm_small.aes_cipher.blocks.difference
	seqz	s0, a0
	addi	a0, sp, 8
	call	gcm_small.aes_cipher.zeroize.elements.zeroize_elements.2
	mv	a0, s0
	lw	ra, 28(sp)                      # 4-byte Folded Reload
	lw	s0, 24(sp)                      # 4-byte Folded Reload
	addi	sp, sp, 32
	ret
.Lgcm_small_func_end75:
	.size	gcm_small.gcm.mode.BorrowedGcm.is_tag_so_far, .Lgcm_small_func_end75-gcm_small.gcm.mode.BorrowedGcm.is_tag_so_far
                                        # -- End function
	.section	.text.gcm_small.gcm.mode.BorrowedGcm.is_short_tag_so_far,"ax",@progbits
	.p2align	1                               # -- Begin function gcm::mode::BorrowedGcm::is_short_tag_so_far::<#c01aad2b5fbc92b1>
	.type	gcm_small.gcm.mode.BorrowedGcm.is_short_tag_so_far,@function
gcm_small.gcm.mode.BorrowedGcm.is_short_tag_so_far: # @gcm_small.gcm.mode.BorrowedGcm.is_short_tag_so_far
# %bb.0:                                # %start
	addi	sp, sp, -64
	sw	ra, 60(sp)                      # 4-byte Folded Spill
	sw	s0, 56(sp)                      # 4-byte Folded Spill
	sw	s1, 52(sp)                      # 4-byte Folded Spill
	sw	s2, 48(sp)                      # 4-byte Folded Spill
	sw	s3, 44(sp)                      # 4-byte Folded Spill
	mv	s2, a3
	mv	s3, a2
	addi	a2, sp, 28
	call	gcm_small.gcm.mode.BorrowedGcm.put_tag_so_far
	lbu	a0, 40(sp)
	lbu	a1, 41(sp)
	lbu	a2, 42(sp)
	lbu	a3, 43(sp)
	lbu	a4, 36(sp)
	lbu	a5, 37(sp)
	lbu	s0, 38(sp)
	lbu	s1, 39(sp)
	slli	a1, a1, 8
	slli	a2, a2, 16
	slli	a3, a3, 24
	or	a6, a1, a0
	or	a7, a3, a2
	lbu	a1, 32(sp)
	lbu	a3, 33(sp)
	lbu	a0, 34(sp)
	lbu	a2, 35(sp)
	slli	a5, a5, 8
	slli	s0, s0, 16
	slli	s1, s1, 24
	slli	a3, a3, 8
	slli	a0, a0, 16
	slli	a2, a2, 24
	or	a4, a4, a5
	or	s0, s0, s1
	or	a1, a1, a3
	or	a0, a0, a2
	lbu	a2, 29(sp)
	lbu	a3, 28(sp)
	lbu	a5, 30(sp)
	lbu	s1, 31(sp)
	slli	a2, a2, 8
	or	a2, a2, a3
	slli	a5, a5, 16
	slli	s1, s1, 24
	or	a5, a5, s1
	or	a3, a7, a6
	or	a4, a4, s0
	or	a0, a0, a1
	or	a2, a2, a5
	sw	a2, 12(sp)
	sw	a0, 16(sp)
	sw	a4, 20(sp)
	sw	a3, 24(sp)
	addi	a0, sp, 12
	mv	a1, s3
	mv	a2, s2
	call	memcpy
	addi	a0, sp, 12
	addi	a1, sp, 28
	call	gcm_small.aes_cipher.blocks.difference
	seqz	s0, a0
	addi	a0, sp, 28
	call	gcm_small.aes_cipher.zeroize.elements.zeroize_elements.2
	addi	a0, sp, 12
	call	gcm_small.aes_cipher.zeroize.elements.zeroize_elements.2
	mv	a0, s0
	lw	ra, 60(sp)                      # 4-byte Folded Reload
	lw	s0, 56(sp)                      # 4-byte Folded Reload
	lw	s1, 52(sp)                      # 4-byte Folded Reload
	lw	s2, 48(sp)                      # 4-byte Folded Reload
	lw	s3, 44(sp)                      # 4-byte Folded Reload
	addi	sp, sp, 64
	ret
.Lgcm_small_func_end76:
	.size	gcm_small.gcm.mode.BorrowedGcm.is_short_tag_so_far, .Lgcm_small_func_end76-gcm_small.gcm.mode.BorrowedGcm.is_short_tag_so_far
                                        # -- End function
	.section	.text.gcm_small.fotsgure_gcm_version,"ax",@progbits
	export_gcm_small	fotsgure_gcm_version
	.p2align	1
	.type	gcm_small.fotsgure_gcm_version,@function
gcm_small.fotsgure_gcm_version:                   # @gcm_small.fotsgure_gcm_version
# %bb.0:
	li	a0, 400
	li	a1, 0
	li	a2, 0
	li	a3, 0
	li	a4, 0
	li	a5, 0
	li	a6, 0
	li	a7, 0
	li	t0, 0
	li	t1, 0
	li	t2, 0
	li	t3, 0
	li	t4, 0
	li	t5, 0
	li	t6, 0
	ret
.Lgcm_small_func_end77:
	.size	gcm_small.fotsgure_gcm_version, .Lgcm_small_func_end77-gcm_small.fotsgure_gcm_version
                                        # -- End function
	.section	.text.gcm_small.fotsgure_gcm_set_key,"ax",@progbits
	export_gcm_small	fotsgure_gcm_set_key
	.p2align	1
	.type	gcm_small.fotsgure_gcm_set_key,@function
gcm_small.fotsgure_gcm_set_key:                   # @gcm_small.fotsgure_gcm_set_key
# %bb.0:
	addi	sp, sp, -48
	sw	ra, 44(sp)                      # 4-byte Folded Spill
	sw	s0, 40(sp)                      # 4-byte Folded Spill
	sw	s1, 36(sp)                      # 4-byte Folded Spill
	sw	s2, 32(sp)                      # 4-byte Folded Spill
	sw	s3, 28(sp)                      # 4-byte Folded Spill
	sw	s4, 24(sp)                      # 4-byte Folded Spill
	sw	s5, 20(sp)                      # 4-byte Folded Spill
	mv	s0, a2
	li	a2, 32
	beq	s0, a2, .Lgcm_small_BB78_3
# %bb.1:
	andi	a2, s0, -9
	li	a3, 16
	beq	a2, a3, .Lgcm_small_BB78_3
# %bb.2:                                # %then.1.i.i
	li	a2, 500
	li	a1, 0
	call	memset
	li	a0, 1
	j	.Lgcm_small_BB78_4
.Lgcm_small_BB78_3:                               # %join.3.i.i
	seqz	a2, a1
	slli	a2, a2, 12
	add	s3, a1, a2
	addi	s2, a0, 4
	li	a2, 480
	mv	s4, a0
	mv	a0, s2
	li	a1, 0
	call	memset
	srli	a0, s0, 31
	slli	a1, s0, 1
	addi	s1, a1, 56
	sltu	a1, s1, a1
	add	s5, a0, a1
	mv	a0, s2
	mv	a1, s3
	mv	a2, s0
	li	a3, 0
	call	gcm_small.aes_narrow.word_room.expand_words
	call	gcm_small.aes_cipher.zeroize.stack.wipe_stack.768
	sw	s0, 0(s4)
	sw	s2, 0(sp)
	sw	zero, 4(sp)
	sw	s1, 8(sp)
	sw	s5, 12(sp)
	addi	a1, s4, 484
	mv	a0, sp
	call	gcm_small.gcm.mode.put_subkey
	call	gcm_small.aes_cipher.zeroize.stack.wipe_stack.512
	li	a0, 0
.Lgcm_small_BB78_4:                               # %wide_fotsgure_gcm_set_key.exit
	lw	ra, 44(sp)                      # 4-byte Folded Reload
	lw	s0, 40(sp)                      # 4-byte Folded Reload
	lw	s1, 36(sp)                      # 4-byte Folded Reload
	lw	s2, 32(sp)                      # 4-byte Folded Reload
	lw	s3, 28(sp)                      # 4-byte Folded Reload
	lw	s4, 24(sp)                      # 4-byte Folded Reload
	lw	s5, 20(sp)                      # 4-byte Folded Reload
	addi	sp, sp, 48
	li	a1, 0
	li	a2, 0
	li	a3, 0
	li	a4, 0
	li	a5, 0
	li	a6, 0
	li	a7, 0
	li	t0, 0
	li	t1, 0
	li	t2, 0
	li	t3, 0
	li	t4, 0
	li	t5, 0
	li	t6, 0
	ret
.Lgcm_small_func_end78:
	.size	gcm_small.fotsgure_gcm_set_key, .Lgcm_small_func_end78-gcm_small.fotsgure_gcm_set_key
                                        # -- End function
	.section	.text.gcm_small.fotsgure_gcm_set_key_of,"ax",@progbits
	export_gcm_small	fotsgure_gcm_set_key_of
	.p2align	1
	.type	gcm_small.fotsgure_gcm_set_key_of,@function
gcm_small.fotsgure_gcm_set_key_of:                # @gcm_small.fotsgure_gcm_set_key_of
# %bb.0:
	addi	sp, sp, -32
	sw	ra, 28(sp)                      # 4-byte Folded Spill
	sw	s0, 24(sp)                      # 4-byte Folded Spill
	sw	s1, 20(sp)                      # 4-byte Folded Spill
	sw	s2, 16(sp)                      # 4-byte Folded Spill
	lw	s1, 0(a1)
	li	a2, 32
	beq	s1, a2, .Lgcm_small_BB79_3
# %bb.1:
	andi	a2, s1, -9
	li	a3, 16
	beq	a2, a3, .Lgcm_small_BB79_3
# %bb.2:                                # %then.1.i.i
	addi	s0, a0, 4
	addi	s1, a0, 484
	li	a2, 500
	li	a1, 0
	call	memset
	mv	a0, s0
	call	gcm_small.aes_cipher.zeroize.elements.zeroize_elements.1
	mv	a0, s1
	call	gcm_small.aes_cipher.zeroize.elements.zeroize_elements.2
	li	a0, 2
	j	.Lgcm_small_BB79_4
.Lgcm_small_BB79_3:                               # %join.3.i.i
	sw	s1, 0(a0)
	addi	a1, a1, 4
	addi	s2, a0, 4
	li	a2, 480
	mv	s0, a0
	mv	a0, s2
	call	memmove
	srli	a0, s1, 31
	slli	s1, s1, 1
	addi	a1, s1, 56
	sltu	a2, a1, s1
	add	a0, a0, a2
	sw	s2, 0(sp)
	sw	zero, 4(sp)
	sw	a1, 8(sp)
	sw	a0, 12(sp)
	addi	a1, s0, 484
	mv	a0, sp
	call	gcm_small.gcm.mode.put_subkey
	call	gcm_small.aes_cipher.zeroize.stack.wipe_stack.512
	li	a0, 0
.Lgcm_small_BB79_4:                               # %wide_fotsgure_gcm_set_key_of.exit
	lw	ra, 28(sp)                      # 4-byte Folded Reload
	lw	s0, 24(sp)                      # 4-byte Folded Reload
	lw	s1, 20(sp)                      # 4-byte Folded Reload
	lw	s2, 16(sp)                      # 4-byte Folded Reload
	addi	sp, sp, 32
	li	a1, 0
	li	a2, 0
	li	a3, 0
	li	a4, 0
	li	a5, 0
	li	a6, 0
	li	a7, 0
	li	t0, 0
	li	t1, 0
	li	t2, 0
	li	t3, 0
	li	t4, 0
	li	t5, 0
	li	t6, 0
	ret
.Lgcm_small_func_end79:
	.size	gcm_small.fotsgure_gcm_set_key_of, .Lgcm_small_func_end79-gcm_small.fotsgure_gcm_set_key_of
                                        # -- End function
	.section	.text.gcm_small.fotsgure_gcm_key_length,"ax",@progbits
	export_gcm_small	fotsgure_gcm_key_length
	.p2align	1
	.type	gcm_small.fotsgure_gcm_key_length,@function
gcm_small.fotsgure_gcm_key_length:                # @gcm_small.fotsgure_gcm_key_length
# %bb.0:
	lw	a0, 0(a0)
	andi	a1, a0, -9
	addi	a2, a0, -32
	addi	a1, a1, -16
	seqz	a1, a1
	seqz	a2, a2
	or	a1, a1, a2
	neg	a1, a1
	and	a0, a0, a1
	li	a1, 0
	li	a2, 0
	li	a3, 0
	li	a4, 0
	li	a5, 0
	li	a6, 0
	li	a7, 0
	li	t0, 0
	li	t1, 0
	li	t2, 0
	li	t3, 0
	li	t4, 0
	li	t5, 0
	li	t6, 0
	ret
.Lgcm_small_func_end80:
	.size	gcm_small.fotsgure_gcm_key_length, .Lgcm_small_func_end80-gcm_small.fotsgure_gcm_key_length
                                        # -- End function
	.section	.text.gcm_small.fotsgure_gcm_wipe,"ax",@progbits
	export_gcm_small	fotsgure_gcm_wipe
	.p2align	1
	.type	gcm_small.fotsgure_gcm_wipe,@function
gcm_small.fotsgure_gcm_wipe:                      # @gcm_small.fotsgure_gcm_wipe
# %bb.0:
	addi	sp, sp, -16
	sw	ra, 12(sp)                      # 4-byte Folded Spill
	sw	s0, 8(sp)                       # 4-byte Folded Spill
	sw	s1, 4(sp)                       # 4-byte Folded Spill
	addi	s0, a0, 4
	addi	s1, a0, 484
	li	a2, 500
	li	a1, 0
	call	memset
	mv	a0, s0
	call	gcm_small.aes_cipher.zeroize.elements.zeroize_elements.1
	mv	a0, s1
	lw	ra, 12(sp)                      # 4-byte Folded Reload
	lw	s0, 8(sp)                       # 4-byte Folded Reload
	lw	s1, 4(sp)                       # 4-byte Folded Reload
	addi	sp, sp, 16
	tail	gcm_small.aes_cipher.zeroize.elements.zeroize_elements.2
.Lgcm_small_func_end81:
	.size	gcm_small.fotsgure_gcm_wipe, .Lgcm_small_func_end81-gcm_small.fotsgure_gcm_wipe
                                        # -- End function
	.section	.text.gcm_small.fotsgure_gcm_seal,"ax",@progbits
	export_gcm_small	fotsgure_gcm_seal
	.p2align	1
	.type	gcm_small.fotsgure_gcm_seal,@function
gcm_small.fotsgure_gcm_seal:                      # @gcm_small.fotsgure_gcm_seal
# %bb.0:
	mv	t5, a7
	mv	t3, a6
	mv	a6, a4
	seqz	a7, a1
	seqz	t0, a3
	seqz	a4, a5
	slli	a7, a7, 12
	slli	t0, t0, 12
	slli	t1, a4, 12
	add	a1, a1, a7
	add	a4, a3, t0
	add	a7, a5, t1
	li	a3, 0
	mv	a5, a6
	li	a6, 0
	li	t4, 0
	tail	gcm_small.gcm_c.whole.fotsgure_gcm_seal
.Lgcm_small_func_end82:
	.size	gcm_small.fotsgure_gcm_seal, .Lgcm_small_func_end82-gcm_small.fotsgure_gcm_seal
                                        # -- End function
	.section	.text.gcm_small.fotsgure_gcm_seal_to,"ax",@progbits
	export_gcm_small	fotsgure_gcm_seal_to
	.p2align	1
	.type	gcm_small.fotsgure_gcm_seal_to,@function
gcm_small.fotsgure_gcm_seal_to:                   # @gcm_small.fotsgure_gcm_seal_to
# %bb.0:
	addi	sp, sp, -48
	sw	ra, 44(sp)                      # 4-byte Folded Spill
	sw	s0, 40(sp)                      # 4-byte Folded Spill
	sw	s1, 36(sp)                      # 4-byte Folded Spill
	sw	s2, 32(sp)                      # 4-byte Folded Spill
	sw	s3, 28(sp)                      # 4-byte Folded Spill
	sw	s4, 24(sp)                      # 4-byte Folded Spill
	sw	s5, 20(sp)                      # 4-byte Folded Spill
	sw	s6, 16(sp)                      # 4-byte Folded Spill
	sw	s7, 12(sp)                      # 4-byte Folded Spill
	lw	s1, 48(sp)
	bne	a6, s1, .Lgcm_small_BB83_5
# %bb.1:                                # %join.3.i.i
	beqz	a2, .Lgcm_small_BB83_6
# %bb.2:                                # %after.11.i.i.i
	lw	s1, 0(a0)
	addi	s1, s1, -16
	li	s0, 16
	li	t0, 2
	bltu	s0, s1, .Lgcm_small_BB83_7
# %bb.3:                                # %after.11.i.i.i
	lui	s0, 16
	addi	s0, s0, 257
	srl	s1, s0, s1
	andi	s1, s1, 1
	beqz	s1, .Lgcm_small_BB83_7
# %bb.4:                                # %join.6.i.i
	lw	s2, 52(sp)
	seqz	s1, a1
	slli	s1, s1, 12
	add	s4, a1, s1
	seqz	a1, a3
	slli	a1, a1, 12
	add	s3, a3, a1
	seqz	a1, a5
	slli	a1, a1, 12
	add	a5, a5, a1
	seqz	a1, a7
	slli	a1, a1, 12
	add	s0, a7, a1
	mv	s1, a0
	mv	a0, a5
	mv	a1, a6
	mv	s5, a2
	li	a2, 0
	mv	a3, s0
	mv	s6, a6
	mv	s7, a4
	call	gcm_small.gcm_c.whole_to.copy
	mv	a0, s1
	mv	a1, s4
	mv	a2, s5
	li	a3, 0
	mv	a4, s3
	mv	a5, s7
	li	a6, 0
	mv	a7, s0
	mv	t3, s6
	li	t4, 0
	mv	t5, s2
	lw	ra, 44(sp)                      # 4-byte Folded Reload
	lw	s0, 40(sp)                      # 4-byte Folded Reload
	lw	s1, 36(sp)                      # 4-byte Folded Reload
	lw	s2, 32(sp)                      # 4-byte Folded Reload
	lw	s3, 28(sp)                      # 4-byte Folded Reload
	lw	s4, 24(sp)                      # 4-byte Folded Reload
	lw	s5, 20(sp)                      # 4-byte Folded Reload
	lw	s6, 16(sp)                      # 4-byte Folded Reload
	lw	s7, 12(sp)                      # 4-byte Folded Reload
	addi	sp, sp, 48
	tail	gcm_small.gcm_c.whole.fotsgure_gcm_seal
.Lgcm_small_BB83_5:
	li	t0, 10
	j	.Lgcm_small_BB83_7
.Lgcm_small_BB83_6:
	li	t0, 3
.Lgcm_small_BB83_7:                               # %wide_fotsgure_gcm_seal_to.exit
	mv	a0, t0
	lw	ra, 44(sp)                      # 4-byte Folded Reload
	lw	s0, 40(sp)                      # 4-byte Folded Reload
	lw	s1, 36(sp)                      # 4-byte Folded Reload
	lw	s2, 32(sp)                      # 4-byte Folded Reload
	lw	s3, 28(sp)                      # 4-byte Folded Reload
	lw	s4, 24(sp)                      # 4-byte Folded Reload
	lw	s5, 20(sp)                      # 4-byte Folded Reload
	lw	s6, 16(sp)                      # 4-byte Folded Reload
	lw	s7, 12(sp)                      # 4-byte Folded Reload
	addi	sp, sp, 48
	li	a1, 0
	li	a2, 0
	li	a3, 0
	li	a4, 0
	li	a5, 0
	li	a6, 0
	li	a7, 0
	li	t0, 0
	li	t1, 0
	li	t2, 0
	li	t3, 0
	li	t4, 0
	li	t5, 0
	li	t6, 0
	ret
.Lgcm_small_func_end83:
	.size	gcm_small.fotsgure_gcm_seal_to, .Lgcm_small_func_end83-gcm_small.fotsgure_gcm_seal_to
                                        # -- End function
	.section	.text.gcm_small.fotsgure_gcm_seal_next,"ax",@progbits
	export_gcm_small	fotsgure_gcm_seal_next
	.p2align	1
	.type	gcm_small.fotsgure_gcm_seal_next,@function
gcm_small.fotsgure_gcm_seal_next:                 # @gcm_small.fotsgure_gcm_seal_next
# %bb.0:
	addi	sp, sp, -32
	sw	ra, 28(sp)                      # 4-byte Folded Spill
	sw	s0, 24(sp)                      # 4-byte Folded Spill
	sw	s1, 20(sp)                      # 4-byte Folded Spill
	sw	s2, 16(sp)                      # 4-byte Folded Spill
	sw	s3, 12(sp)                      # 4-byte Folded Spill
	sw	s4, 8(sp)                       # 4-byte Folded Spill
	sw	s5, 4(sp)                       # 4-byte Folded Spill
	sw	s6, 0(sp)                       # 4-byte Folded Spill
	mv	t5, a7
	mv	t3, a6
	mv	a6, a4
	mv	s2, a2
	mv	s1, a1
	lbu	a1, 9(a1)
	lbu	a2, 10(s1)
	lbu	a4, 11(s1)
	lbu	s0, 8(s1)
	slli	a1, a1, 8
	slli	a2, a2, 16
	slli	a4, a4, 24
	or	a7, a1, s0
	or	t0, a4, a2
	lbu	a4, 5(s1)
	lbu	s0, 4(s1)
	lbu	a1, 6(s1)
	lbu	a2, 7(s1)
	slli	a4, a4, 8
	or	a4, a4, s0
	slli	a1, a1, 16
	slli	a2, a2, 24
	or	a1, a1, a2
	or	a2, t0, a7
	or	a1, a1, a4
	and	a2, a2, a1
	li	a1, -1
	bne	a2, a1, .Lgcm_small_BB84_2
# %bb.1:                                # %"gcm::counter::Counter::is_over.exit.i.i"
	lbu	a7, 1(s1)
	lbu	a4, 0(s1)
	lbu	s0, 2(s1)
	lbu	a2, 3(s1)
	slli	a7, a7, 8
	or	a4, a7, a4
	slli	s0, s0, 16
	slli	a2, a2, 24
	or	a2, a2, s0
	or	a2, a2, a4
	beq	a2, a1, .Lgcm_small_BB84_5
.Lgcm_small_BB84_2:                               # %join.3.i.i
	seqz	a1, a3
	slli	a1, a1, 12
	add	a4, a3, a1
	seqz	a1, a5
	slli	a1, a1, 12
	add	a7, a5, a1
	li	a2, 12
	mv	a1, s1
	li	a3, 0
	mv	a5, a6
	li	a6, 0
	li	t4, 0
	call	gcm_small.gcm_c.whole.fotsgure_gcm_seal
	bnez	a0, .Lgcm_small_BB84_10
# %bb.3:                                # %then.4.i.i
	lbu	a7, 0(s1)
	lbu	a6, 1(s1)
	lbu	t0, 2(s1)
	lbu	a0, 3(s1)
	lbu	a4, 8(s1)
	lbu	a5, 9(s1)
	lbu	s0, 10(s1)
	lbu	a1, 11(s1)
	slli	a2, t0, 16
	slli	a3, a0, 24
	slli	a5, a5, 8
	slli	s0, s0, 16
	slli	a1, a1, 24
	or	t1, a3, a2
	or	a3, a5, a4
	or	a1, a1, s0
	lbu	a4, 5(s1)
	lbu	a5, 4(s1)
	lbu	s0, 6(s1)
	lbu	a2, 7(s1)
	slli	a4, a4, 8
	or	a5, a5, a4
	lui	a4, 16
	slli	s0, s0, 16
	slli	a2, a2, 24
	or	a2, a2, s0
	li	t2, -1
	addi	a4, a4, -256
	slli	a6, a6, 8
	or	s0, a6, a7
	slli	a7, a7, 24
	slli	t0, t0, 8
	or	a0, t0, a0
	or	s3, t1, s0
	or	s6, a1, a3
	or	a1, a2, a5
	or	a0, a7, a0
	and	a2, s3, a4
	and	a5, a1, s6
	srli	a7, a1, 24
	srli	t1, a1, 8
	srli	a6, s6, 24
	slli	a2, a2, 8
	or	t6, a0, a2
	srli	t0, s6, 8
	beq	a5, t2, .Lgcm_small_BB84_6
# %bb.4:                                # %"gcm::counter::nonce_after.exit.thread.i.i.i"
	and	t2, t1, a4
	and	t4, a1, a4
	slli	a2, a1, 24
	and	t3, t0, a4
	and	t5, s6, a4
	slli	t4, t4, 8
	or	t4, a2, t4
	slli	a2, s6, 24
	or	a5, t2, a7
	or	a0, t3, a6
	slli	t5, t5, 8
	or	a2, a2, t5
	or	t2, t4, a5
	or	a0, a0, a2
	addi	a0, a0, 1
	seqz	t3, a0
	srli	a5, a0, 8
	srli	t4, a0, 24
	add	t2, t2, t3
	slli	a2, a0, 24
	and	a0, a0, a4
	and	a5, a5, a4
	slli	a0, a0, 8
	or	t3, a5, t4
	srli	a5, t2, 8
	or	a0, a0, a2
	srli	a2, t2, 24
	and	a5, a5, a4
	or	a2, a2, a5
	and	a4, t2, a4
	slli	t2, t2, 24
	slli	a4, a4, 8
	or	a5, t2, a4
	or	a5, a5, a2
	or	a4, a0, t3
	j	.Lgcm_small_BB84_8
.Lgcm_small_BB84_5:
	li	a0, 7
	j	.Lgcm_small_BB84_10
.Lgcm_small_BB84_6:                               # %"gcm::counter::nonce_after.exit.i.i.i"
	beq	s3, t2, .Lgcm_small_BB84_9
# %bb.7:
	li	a5, 0
	li	a4, 0
	addi	t6, t6, 1
.Lgcm_small_BB84_8:                               # %arm.1.i.i.i
	srli	t2, t6, 24
	srli	t4, t6, 8
	srli	s4, t6, 16
	srli	t3, a5, 24
	srli	s5, a5, 16
	srli	s0, a5, 8
	srli	t5, a4, 24
	srli	a0, a4, 16
	sb	t2, 0(s1)
	sb	s4, 1(s1)
	sb	t4, 2(s1)
	sb	t6, 3(s1)
	srli	a2, a4, 8
	sb	a5, 4(s1)
	sb	s0, 5(s1)
	sb	s5, 6(s1)
	sb	t3, 7(s1)
	sb	a4, 8(s1)
	sb	a2, 9(s1)
	sb	a0, 10(s1)
	sb	t5, 11(s1)
.Lgcm_small_BB84_9:                               # %"gcm::counter::Counter::take.exit.i.i"
	li	a0, 0
	srli	a2, s3, 24
	srli	a4, s3, 16
	srli	a5, s3, 8
	srli	a3, a1, 16
	sb	s3, 0(s2)
	sb	a5, 1(s2)
	sb	a4, 2(s2)
	sb	a2, 3(s2)
	srli	a2, s6, 16
	sb	a1, 4(s2)
	sb	t1, 5(s2)
	sb	a3, 6(s2)
	sb	a7, 7(s2)
	sb	s6, 8(s2)
	sb	t0, 9(s2)
	sb	a2, 10(s2)
	sb	a6, 11(s2)
.Lgcm_small_BB84_10:                              # %wide_fotsgure_gcm_seal_next.exit
	lw	ra, 28(sp)                      # 4-byte Folded Reload
	lw	s0, 24(sp)                      # 4-byte Folded Reload
	lw	s1, 20(sp)                      # 4-byte Folded Reload
	lw	s2, 16(sp)                      # 4-byte Folded Reload
	lw	s3, 12(sp)                      # 4-byte Folded Reload
	lw	s4, 8(sp)                       # 4-byte Folded Reload
	lw	s5, 4(sp)                       # 4-byte Folded Reload
	lw	s6, 0(sp)                       # 4-byte Folded Reload
	addi	sp, sp, 32
	li	a1, 0
	li	a2, 0
	li	a3, 0
	li	a4, 0
	li	a5, 0
	li	a6, 0
	li	a7, 0
	li	t0, 0
	li	t1, 0
	li	t2, 0
	li	t3, 0
	li	t4, 0
	li	t5, 0
	li	t6, 0
	ret
.Lgcm_small_func_end84:
	.size	gcm_small.fotsgure_gcm_seal_next, .Lgcm_small_func_end84-gcm_small.fotsgure_gcm_seal_next
                                        # -- End function
	.section	.text.gcm_small.fotsgure_gcm_open,"ax",@progbits
	export_gcm_small	fotsgure_gcm_open
	.p2align	1
	.type	gcm_small.fotsgure_gcm_open,@function
gcm_small.fotsgure_gcm_open:                      # @gcm_small.fotsgure_gcm_open
# %bb.0:
	addi	sp, sp, -80
	sw	ra, 76(sp)                      # 4-byte Folded Spill
	sw	s0, 72(sp)                      # 4-byte Folded Spill
	sw	s1, 68(sp)                      # 4-byte Folded Spill
	sw	s2, 64(sp)                      # 4-byte Folded Spill
	sw	s3, 60(sp)                      # 4-byte Folded Spill
	mv	t1, a5
	lw	a5, 80(sp)
	li	s0, 16
	bne	a5, s0, .Lgcm_small_BB85_6
# %bb.1:                                # %join.3.i.i
	beqz	a2, .Lgcm_small_BB85_7
# %bb.2:                                # %after.11.i.i.i
	mv	s2, a6
	mv	a5, a4
	lw	t0, 0(a0)
	addi	a4, t0, -16
	li	a6, 16
	li	s0, 2
	bltu	a6, a4, .Lgcm_small_BB85_10
# %bb.3:                                # %after.11.i.i.i
	lui	s1, 16
	addi	s1, s1, 257
	srl	a4, s1, a4
	andi	a4, a4, 1
	beqz	a4, .Lgcm_small_BB85_10
# %bb.4:                                # %join.6.i.i
	seqz	a6, a1
	seqz	t3, a3
	seqz	s1, t1
	seqz	a4, a7
	addi	t2, a0, 4
	srli	t4, t0, 31
	slli	t0, t0, 1
	slli	a6, a6, 12
	slli	t3, t3, 12
	slli	s1, s1, 12
	slli	t5, a4, 12
	addi	s0, t0, 56
	add	a1, a1, a6
	add	a4, a3, t3
	add	s3, t1, s1
	add	a7, a7, t5
	sltu	a3, s0, t0
	lbu	a6, 12(a7)
	lbu	t5, 13(a7)
	lbu	t0, 14(a7)
	lbu	t1, 15(a7)
	add	a3, a3, t4
	lbu	t3, 8(a7)
	lbu	s1, 9(a7)
	lbu	t4, 10(a7)
	lbu	t6, 11(a7)
	sw	t2, 0(sp)
	sw	zero, 4(sp)
	sw	s0, 8(sp)
	sw	a3, 12(sp)
	slli	t5, t5, 8
	slli	t0, t0, 16
	slli	t1, t1, 24
	slli	s1, s1, 8
	or	a6, t5, a6
	or	t0, t1, t0
	or	t1, s1, t3
	lbu	t2, 4(a7)
	lbu	s0, 5(a7)
	lbu	s1, 6(a7)
	lbu	a3, 7(a7)
	slli	t4, t4, 16
	slli	t6, t6, 24
	slli	s0, s0, 8
	slli	s1, s1, 16
	slli	a3, a3, 24
	or	t3, t6, t4
	or	t2, s0, t2
	or	t4, a3, s1
	lbu	s1, 1(a7)
	lbu	s0, 0(a7)
	lbu	a3, 2(a7)
	lbu	a7, 3(a7)
	slli	s1, s1, 8
	or	t5, s1, s0
	slli	a3, a3, 16
	slli	a7, a7, 24
	or	a3, a7, a3
	or	s1, t0, a6
	or	s0, t3, t1
	addi	a0, a0, 484
	sw	a0, 16(sp)
	sw	zero, 20(sp)
	or	a0, t4, t2
	or	a3, a3, t5
	sw	a3, 28(sp)
	sw	a0, 32(sp)
	sw	s0, 36(sp)
	sw	s1, 40(sp)
	sw	zero, 44(sp)
	sw	zero, 48(sp)
	sw	zero, 52(sp)
	sw	zero, 56(sp)
	mv	a0, sp
	addi	t5, sp, 28
	addi	t6, sp, 44
	li	a3, 0
	li	a6, 0
	mv	a7, s3
	mv	t3, s2
	li	t4, 0
	call	gcm_small.gcm.mode.BorrowedGcm.compare
	zext.b	a0, a0
	beqz	a0, .Lgcm_small_BB85_8
# %bb.5:
	li	s0, 6
	j	.Lgcm_small_BB85_9
.Lgcm_small_BB85_6:
	li	s0, 4
	j	.Lgcm_small_BB85_10
.Lgcm_small_BB85_7:
	li	s0, 3
	j	.Lgcm_small_BB85_10
.Lgcm_small_BB85_8:                               # %then.1.i.i.i
	mv	a0, sp
	addi	a1, sp, 44
	li	a2, 16
	li	a3, 0
	mv	a4, s3
	mv	a5, s2
	li	a6, 0
	call	gcm_small.gcm.gctr.add_gctr
	li	s0, 0
.Lgcm_small_BB85_9:                               # %"gcm::mode::BorrowedGcm::decrypt::<#c01aad2b5fbc92b1>.exit.i.i"
	addi	a0, sp, 44
	call	gcm_small.aes_cipher.zeroize.elements.zeroize_elements.2
	call	gcm_small.aes_cipher.zeroize.stack.wipe_stack.1536
.Lgcm_small_BB85_10:                              # %wide_fotsgure_gcm_open.exit
	mv	a0, s0
	lw	ra, 76(sp)                      # 4-byte Folded Reload
	lw	s0, 72(sp)                      # 4-byte Folded Reload
	lw	s1, 68(sp)                      # 4-byte Folded Reload
	lw	s2, 64(sp)                      # 4-byte Folded Reload
	lw	s3, 60(sp)                      # 4-byte Folded Reload
	addi	sp, sp, 80
	li	a1, 0
	li	a2, 0
	li	a3, 0
	li	a4, 0
	li	a5, 0
	li	a6, 0
	li	a7, 0
	li	t0, 0
	li	t1, 0
	li	t2, 0
	li	t3, 0
	li	t4, 0
	li	t5, 0
	li	t6, 0
	ret
.Lgcm_small_func_end85:
	.size	gcm_small.fotsgure_gcm_open, .Lgcm_small_func_end85-gcm_small.fotsgure_gcm_open
                                        # -- End function
	.section	.text.gcm_small.fotsgure_gcm_open_to,"ax",@progbits
	export_gcm_small	fotsgure_gcm_open_to
	.p2align	1
	.type	gcm_small.fotsgure_gcm_open_to,@function
gcm_small.fotsgure_gcm_open_to:                   # @gcm_small.fotsgure_gcm_open_to
# %bb.0:
	addi	sp, sp, -80
	sw	ra, 76(sp)                      # 4-byte Folded Spill
	sw	s0, 72(sp)                      # 4-byte Folded Spill
	sw	s1, 68(sp)                      # 4-byte Folded Spill
	sw	s2, 64(sp)                      # 4-byte Folded Spill
	sw	s3, 60(sp)                      # 4-byte Folded Spill
	sw	s4, 56(sp)                      # 4-byte Folded Spill
	mv	s1, a5
	lw	a5, 80(sp)
	bne	a6, a5, .Lgcm_small_BB86_10
# %bb.1:                                # %join.3.i.i
	lw	a5, 88(sp)
	li	s0, 16
	bne	a5, s0, .Lgcm_small_BB86_11
# %bb.2:                                # %join.6.i.i
	beqz	a2, .Lgcm_small_BB86_12
# %bb.3:                                # %after.11.i.i.i
	lw	t3, 0(a0)
	addi	t1, t3, -16
	li	t0, 16
	li	s0, 2
	bltu	t0, t1, .Lgcm_small_BB86_21
# %bb.4:                                # %after.11.i.i.i
	mv	a5, a4
	lui	a4, 16
	addi	a4, a4, 257
	srl	a4, a4, t1
	andi	a4, a4, 1
	beqz	a4, .Lgcm_small_BB86_21
# %bb.5:                                # %join.9.i.i
	lw	t0, 84(sp)
	seqz	t1, a1
	seqz	t2, a3
	seqz	t4, s1
	seqz	a4, a7
	addi	t5, a0, 4
	srli	t6, t3, 31
	slli	t3, t3, 1
	slli	t1, t1, 12
	slli	t2, t2, 12
	slli	t4, t4, 12
	slli	s2, a4, 12
	addi	s0, t3, 56
	add	a1, a1, t1
	add	a4, a3, t2
	add	s4, s1, t4
	add	s2, s2, a7
	sltu	a3, s0, t3
	add	a3, a3, t6
	seqz	s1, t0
	sw	t5, 0(sp)
	sw	zero, 4(sp)
	sw	s0, 8(sp)
	sw	a3, 12(sp)
	slli	s1, s1, 12
	add	t0, t0, s1
	lbu	a7, 12(t0)
	lbu	s1, 13(t0)
	lbu	s0, 14(t0)
	lbu	t2, 15(t0)
	lbu	t1, 8(t0)
	lbu	a3, 9(t0)
	lbu	t3, 10(t0)
	lbu	t4, 11(t0)
	slli	s1, s1, 8
	slli	s0, s0, 16
	slli	t2, t2, 24
	slli	a3, a3, 8
	or	a7, s1, a7
	or	t2, t2, s0
	or	t1, a3, t1
	lbu	t5, 4(t0)
	lbu	a3, 5(t0)
	lbu	s0, 6(t0)
	lbu	s1, 7(t0)
	slli	t3, t3, 16
	slli	t4, t4, 24
	slli	a3, a3, 8
	slli	s0, s0, 16
	slli	s1, s1, 24
	or	t3, t4, t3
	or	t4, a3, t5
	or	t5, s1, s0
	lbu	s1, 1(t0)
	lbu	a3, 0(t0)
	lbu	s0, 2(t0)
	lbu	t0, 3(t0)
	slli	s1, s1, 8
	or	t6, s1, a3
	slli	s0, s0, 16
	slli	t0, t0, 24
	or	s1, t0, s0
	or	s0, t2, a7
	or	a3, t3, t1
	addi	a0, a0, 484
	sw	a0, 16(sp)
	sw	zero, 20(sp)
	or	a0, t5, t4
	or	s1, s1, t6
	sw	s1, 24(sp)
	sw	a0, 28(sp)
	sw	a3, 32(sp)
	sw	s0, 36(sp)
	sw	zero, 40(sp)
	sw	zero, 44(sp)
	sw	zero, 48(sp)
	sw	zero, 52(sp)
	mv	a0, sp
	addi	t5, sp, 24
	addi	t6, sp, 40
	li	a3, 0
	mv	t3, a6
	li	a6, 0
	mv	a7, s4
	mv	s3, t3
	li	t4, 0
	call	gcm_small.gcm.mode.BorrowedGcm.compare
	zext.b	a0, a0
	beqz	a0, .Lgcm_small_BB86_13
# %bb.6:                                # %else.2.i.i.i
	li	s0, 6
	beqz	s3, .Lgcm_small_BB86_20
# %bb.7:                                # %loop.5.preheader.i.i.i.i
	addi	s1, s3, -1
	snez	a0, s3
	addi	a0, a0, -1
	or	a0, a0, s1
	beqz	a0, .Lgcm_small_BB86_9
# %bb.8:                                # %join.8.preheader.i.i.i.i
	mv	a0, s2
	li	a1, 0
	mv	a2, s1
	call	memset
.Lgcm_small_BB86_9:                               # %after.4.i.i.i.i
	add	s1, s1, s2
	sb	zero, 0(s1)
	j	.Lgcm_small_BB86_20
.Lgcm_small_BB86_10:
	li	s0, 10
	j	.Lgcm_small_BB86_21
.Lgcm_small_BB86_11:
	li	s0, 4
	j	.Lgcm_small_BB86_21
.Lgcm_small_BB86_12:
	li	s0, 3
	j	.Lgcm_small_BB86_21
.Lgcm_small_BB86_13:                              # %then.1.i.i.i
	bgeu	s2, s4, .Lgcm_small_BB86_16
# %bb.14:                               # %then.1.i.i.i
	li	a0, 1
	mv	a5, s3
	beqz	a0, .Lgcm_small_BB86_17
.Lgcm_small_BB86_15:                              # %apart.2.i.i.i.i.i.i.i.i.i
	mv	a0, s2
	mv	a1, s4
	mv	a2, a5
	call	memmove
	mv	a5, s3
	j	.Lgcm_small_BB86_19
.Lgcm_small_BB86_16:
	sub	a0, s2, s4
	mv	a5, s3
	sltu	a0, a0, s3
	xori	a0, a0, 1
	bnez	a0, .Lgcm_small_BB86_15
.Lgcm_small_BB86_17:                              # %join.7.i.i.i.i.i.i.i.i.i.preheader
	li	a1, 0
.Lgcm_small_BB86_18:                              # %join.7.i.i.i.i.i.i.i.i.i
                                        # =>This Inner Loop Header: Depth=1
	add	a2, s2, a0
	add	a3, s4, a0
	addi	a0, a0, 1
	lbu	a3, 0(a3)
	seqz	a4, a0
	add	a1, a1, a4
	sltu	a4, a0, a5
	seqz	s1, a1
	and	a4, a4, s1
	sb	a3, 0(a2)
	bnez	a4, .Lgcm_small_BB86_18
.Lgcm_small_BB86_19:                              # %"core::slice::edits::slice+T::copy_from_slice::<i8,20'core::clone::U8Clone{}>.exit.i.i.i"
	mv	a0, sp
	addi	a1, sp, 40
	li	a2, 16
	li	a3, 0
	mv	a4, s2
	li	a6, 0
	call	gcm_small.gcm.gctr.add_gctr
	li	s0, 0
.Lgcm_small_BB86_20:                              # %"gcm::mode::BorrowedGcm::decrypt_to::<#c01aad2b5fbc92b1>.exit.i.i"
	addi	a0, sp, 40
	call	gcm_small.aes_cipher.zeroize.elements.zeroize_elements.2
	call	gcm_small.aes_cipher.zeroize.stack.wipe_stack.1536
.Lgcm_small_BB86_21:                              # %wide_fotsgure_gcm_open_to.exit
	mv	a0, s0
	lw	ra, 76(sp)                      # 4-byte Folded Reload
	lw	s0, 72(sp)                      # 4-byte Folded Reload
	lw	s1, 68(sp)                      # 4-byte Folded Reload
	lw	s2, 64(sp)                      # 4-byte Folded Reload
	lw	s3, 60(sp)                      # 4-byte Folded Reload
	lw	s4, 56(sp)                      # 4-byte Folded Reload
	addi	sp, sp, 80
	li	a1, 0
	li	a2, 0
	li	a3, 0
	li	a4, 0
	li	a5, 0
	li	a6, 0
	li	a7, 0
	li	t0, 0
	li	t1, 0
	li	t2, 0
	li	t3, 0
	li	t4, 0
	li	t5, 0
	li	t6, 0
	ret
.Lgcm_small_func_end86:
	.size	gcm_small.fotsgure_gcm_open_to, .Lgcm_small_func_end86-gcm_small.fotsgure_gcm_open_to
                                        # -- End function
	.section	.text.gcm_small.fotsgure_gcm_begin,"ax",@progbits
	export_gcm_small	fotsgure_gcm_begin
	.p2align	1
	.type	gcm_small.fotsgure_gcm_begin,@function
gcm_small.fotsgure_gcm_begin:                     # @gcm_small.fotsgure_gcm_begin
# %bb.0:
	beqz	a3, .Lgcm_small_BB87_6
# %bb.1:                                # %after.1.i.i
	lw	t0, 0(a0)
	addi	a6, t0, -16
	li	a7, 16
	li	a4, 2
	bltu	a7, a6, .Lgcm_small_BB87_7
# %bb.2:                                # %after.1.i.i
	lui	a5, 16
	addi	a5, a5, 257
	srl	a5, a5, a6
	andi	a5, a5, 1
	beqz	a5, .Lgcm_small_BB87_7
# %bb.3:                                # %join.13.i.i
	addi	sp, sp, -48
	sw	ra, 44(sp)                      # 4-byte Folded Spill
	sw	s0, 40(sp)                      # 4-byte Folded Spill
	sw	s1, 36(sp)                      # 4-byte Folded Spill
	seqz	a4, a2
	addi	a6, a0, 4
	srli	a7, t0, 31
	slli	t0, t0, 1
	addi	a0, a0, 484
	slli	a4, a4, 12
	addi	a5, t0, 56
	sw	a0, 24(sp)
	sw	zero, 28(sp)
	add	a2, a2, a4
	sltu	a0, a5, t0
	add	a0, a0, a7
	sw	a6, 8(sp)
	sw	zero, 12(sp)
	sw	a5, 16(sp)
	sw	a0, 20(sp)
	addi	a4, a1, 32
	addi	a0, sp, 8
	mv	s0, a1
	mv	a1, a2
	mv	a2, a3
	mv	s1, a3
	li	a3, 0
	call	gcm_small.gcm.mode.BorrowedGcm.put_pre_counter
	li	a1, 1
	addi	a0, s0, 48
	sw	zero, 16(s0)
	sw	zero, 20(s0)
	sw	a1, 24(s0)
	sw	zero, 28(s0)
	sw	zero, 0(s0)
	sw	zero, 4(s0)
	sw	zero, 8(s0)
	sw	zero, 12(s0)
	li	a2, 32
	li	a1, 0
	call	memset
	li	a0, 12
	li	a4, 0
	beq	s1, a0, .Lgcm_small_BB87_5
# %bb.4:                                # %then.1.i.i.i.i
	call	gcm_small.aes_cipher.zeroize.stack.wipe_stack.512
	li	a4, 0
.Lgcm_small_BB87_5:
	lw	ra, 44(sp)                      # 4-byte Folded Reload
	lw	s0, 40(sp)                      # 4-byte Folded Reload
	lw	s1, 36(sp)                      # 4-byte Folded Reload
	addi	sp, sp, 48
	mv	a0, a4
	li	a1, 0
	li	a2, 0
	li	a3, 0
	li	a4, 0
	li	a5, 0
	li	a6, 0
	li	a7, 0
	li	t0, 0
	li	t1, 0
	li	t2, 0
	li	t3, 0
	li	t4, 0
	li	t5, 0
	li	t6, 0
	ret
.Lgcm_small_BB87_6:
	li	a4, 3
.Lgcm_small_BB87_7:                               # %wide_fotsgure_gcm_begin.exit
	mv	a0, a4
	li	a1, 0
	li	a2, 0
	li	a3, 0
	li	a4, 0
	li	a5, 0
	li	a6, 0
	li	a7, 0
	li	t0, 0
	li	t1, 0
	li	t2, 0
	li	t3, 0
	li	t4, 0
	li	t5, 0
	li	t6, 0
	ret
.Lgcm_small_func_end87:
	.size	gcm_small.fotsgure_gcm_begin, .Lgcm_small_func_end87-gcm_small.fotsgure_gcm_begin
                                        # -- End function
	.section	.text.gcm_small.fotsgure_gcm_begin_next,"ax",@progbits
	export_gcm_small	fotsgure_gcm_begin_next
	.p2align	1
	.type	gcm_small.fotsgure_gcm_begin_next,@function
gcm_small.fotsgure_gcm_begin_next:                # @gcm_small.fotsgure_gcm_begin_next
# %bb.0:
	addi	sp, sp, -80
	sw	ra, 76(sp)                      # 4-byte Folded Spill
	sw	s0, 72(sp)                      # 4-byte Folded Spill
	sw	s1, 68(sp)                      # 4-byte Folded Spill
	sw	s2, 64(sp)                      # 4-byte Folded Spill
	mv	s2, a3
	lbu	a3, 9(a2)
	lbu	a4, 10(a2)
	lbu	a5, 11(a2)
	lbu	s1, 8(a2)
	slli	a3, a3, 8
	slli	a4, a4, 16
	slli	a5, a5, 24
	or	a6, a3, s1
	or	a4, a4, a5
	lbu	a5, 5(a2)
	lbu	s1, 4(a2)
	lbu	s0, 6(a2)
	lbu	a3, 7(a2)
	slli	a5, a5, 8
	or	a5, a5, s1
	slli	s0, s0, 16
	slli	a3, a3, 24
	or	a3, a3, s0
	or	a6, a4, a6
	or	t0, a3, a5
	and	a4, t0, a6
	li	a3, -1
	bne	a4, a3, .Lgcm_small_BB88_2
# %bb.1:                                # %"gcm::counter::Counter::is_over.exit.i.i"
	lbu	s1, 1(a2)
	lbu	a7, 0(a2)
	lbu	a5, 2(a2)
	lbu	s0, 3(a2)
	slli	s1, s1, 8
	or	s1, s1, a7
	slli	a5, a5, 16
	slli	s0, s0, 24
	or	a5, a5, s0
	or	a5, a5, s1
	beq	a5, a3, .Lgcm_small_BB88_11
.Lgcm_small_BB88_2:                               # %join.3.i.i
	lw	s0, 0(a0)
	addi	s1, s0, -16
	li	a5, 16
	li	a3, 2
	bltu	a5, s1, .Lgcm_small_BB88_10
# %bb.3:                                # %join.3.i.i
	lui	a7, 16
	addi	a5, a7, 257
	srl	a5, a5, s1
	andi	a5, a5, 1
	beqz	a5, .Lgcm_small_BB88_10
# %bb.4:                                # %join.6.i.i
	addi	t2, a4, 1
	addi	t1, a0, 4
	srli	a5, s0, 31
	slli	s0, s0, 1
	addi	t4, a0, 484
	addi	s1, s0, 56
	sltu	s0, s1, s0
	add	t3, a5, s0
	lbu	s0, 0(a2)
	lbu	a3, 1(a2)
	lbu	a4, 2(a2)
	lbu	a5, 3(a2)
	addi	t5, a7, -256
	seqz	a7, t2
	sw	t4, 40(sp)
	sw	zero, 44(sp)
	sw	t1, 24(sp)
	sw	zero, 28(sp)
	sw	s1, 32(sp)
	sw	t3, 36(sp)
	slli	a3, a3, 8
	slli	s1, a4, 16
	slli	a0, a5, 24
	or	a3, a3, s0
	slli	s0, s0, 24
	slli	a4, a4, 8
	or	a0, a0, s1
	or	a5, a5, a4
	or	t1, a0, a3
	and	a0, t1, t5
	slli	a0, a0, 8
	or	a3, s0, a5
	or	t3, a3, a0
	bnez	a7, .Lgcm_small_BB88_6
# %bb.5:                                # %"gcm::counter::nonce_after.exit.thread.i.i.i.i"
	srli	a0, t0, 8
	lui	a7, 16
	srli	s1, t0, 24
	slli	t2, t0, 24
	srli	a5, a6, 8
	srli	a4, a6, 24
	addi	s0, a7, -256
	and	a0, a0, s0
	or	a7, a0, s1
	slli	s1, a6, 24
	and	a5, a5, s0
	or	a4, a4, a5
	and	a5, t0, s0
	slli	a5, a5, 8
	or	a5, t2, a5
	and	a0, a6, s0
	slli	a0, a0, 8
	or	a0, a0, s1
	or	a7, a5, a7
	or	a0, a0, a4
	addi	a0, a0, 1
	seqz	a4, a0
	srli	s1, a0, 8
	srli	a5, a0, 24
	add	a4, a4, a7
	slli	a3, a0, 24
	and	a0, a0, s0
	and	s1, s1, s0
	slli	a0, a0, 8
	or	a5, a5, s1
	srli	s1, a4, 8
	or	a0, a0, a3
	srli	a3, a4, 24
	and	s1, s1, s0
	or	a3, a3, s1
	and	s0, s0, a4
	slli	a4, a4, 24
	slli	s0, s0, 8
	or	a4, a4, s0
	or	s1, a4, a3
	or	s0, a0, a5
	j	.Lgcm_small_BB88_8
.Lgcm_small_BB88_6:                               # %"gcm::counter::nonce_after.exit.i.i.i.i"
	li	a0, -1
	beq	t1, a0, .Lgcm_small_BB88_9
# %bb.7:
	li	s1, 0
	li	s0, 0
	addi	t3, t3, 1
.Lgcm_small_BB88_8:                               # %arm.1.i.i.i.i
	srli	a7, t3, 24
	srli	t2, t3, 8
	srli	a4, t3, 16
	srli	t4, s1, 24
	srli	a0, s1, 16
	srli	a3, s1, 8
	srli	t5, s0, 24
	srli	a5, s0, 16
	sb	a7, 0(a2)
	sb	a4, 1(a2)
	sb	t2, 2(a2)
	sb	t3, 3(a2)
	srli	a4, s0, 8
	sb	s1, 4(a2)
	sb	a3, 5(a2)
	sb	a0, 6(a2)
	sb	t4, 7(a2)
	sb	s0, 8(a2)
	sb	a4, 9(a2)
	sb	a5, 10(a2)
	sb	t5, 11(a2)
.Lgcm_small_BB88_9:                               # %"gcm::mode::BorrowedGcm::begin_next::<#c01aad2b5fbc92b1>.exit.i.i"
	sw	t1, 52(sp)
	sw	t0, 56(sp)
	sw	a6, 60(sp)
	addi	a4, a1, 32
	addi	a0, sp, 24
	mv	s0, a1
	addi	a1, sp, 52
	li	a2, 12
	li	a3, 0
	call	gcm_small.gcm.mode.BorrowedGcm.put_pre_counter
	li	a1, 1
	addi	a0, s0, 48
	sw	zero, 16(s0)
	sw	zero, 20(s0)
	sw	a1, 24(s0)
	sw	zero, 28(s0)
	sw	zero, 0(s0)
	sw	zero, 4(s0)
	sw	zero, 8(s0)
	sw	zero, 12(s0)
	li	a2, 32
	li	a1, 0
	call	memset
	lw	a0, 52(sp)
	lw	a1, 56(sp)
	lw	a2, 60(sp)
	sw	a0, 12(sp)
	sw	a1, 16(sp)
	sw	a2, 20(sp)
	addi	a1, sp, 12
	li	a2, 12
	mv	a0, s2
	call	memcpy
	li	a3, 0
.Lgcm_small_BB88_10:                              # %wide_fotsgure_gcm_begin_next.exit
	mv	a0, a3
	lw	ra, 76(sp)                      # 4-byte Folded Reload
	lw	s0, 72(sp)                      # 4-byte Folded Reload
	lw	s1, 68(sp)                      # 4-byte Folded Reload
	lw	s2, 64(sp)                      # 4-byte Folded Reload
	addi	sp, sp, 80
	li	a1, 0
	li	a2, 0
	li	a3, 0
	li	a4, 0
	li	a5, 0
	li	a6, 0
	li	a7, 0
	li	t0, 0
	li	t1, 0
	li	t2, 0
	li	t3, 0
	li	t4, 0
	li	t5, 0
	li	t6, 0
	ret
.Lgcm_small_BB88_11:
	li	a3, 7
	j	.Lgcm_small_BB88_10
.Lgcm_small_func_end88:
	.size	gcm_small.fotsgure_gcm_begin_next, .Lgcm_small_func_end88-gcm_small.fotsgure_gcm_begin_next
                                        # -- End function
	.section	.text.gcm_small.fotsgure_gcm_additional,"ax",@progbits
	export_gcm_small	fotsgure_gcm_additional
	.p2align	1
	.type	gcm_small.fotsgure_gcm_additional,@function
gcm_small.fotsgure_gcm_additional:                # @gcm_small.fotsgure_gcm_additional
# %bb.0:
	mv	a4, a0
	lw	a5, 0(a0)
	addi	a7, a5, -16
	li	a6, 16
	li	a0, 2
	bltu	a6, a7, .Lgcm_small_BB89_8
# %bb.1:
	addi	sp, sp, -48
	sw	ra, 44(sp)                      # 4-byte Folded Spill
	sw	s0, 40(sp)                      # 4-byte Folded Spill
	sw	s1, 36(sp)                      # 4-byte Folded Spill
	lui	s0, 16
	addi	s0, s0, 257
	srl	s0, s0, a7
	andi	s0, s0, 1
	beqz	s0, .Lgcm_small_BB89_7
# %bb.2:                                # %join.3.i.i
	addi	a6, a4, 4
	srli	s0, a5, 31
	slli	a5, a5, 1
	addi	a7, a4, 484
	addi	a0, a5, 56
	sltu	a5, a0, a5
	add	a5, a5, s0
	lw	a4, 24(a1)
	lw	s0, 28(a1)
	sw	a7, 24(sp)
	sw	zero, 28(sp)
	sw	a6, 8(sp)
	sw	zero, 12(sp)
	sw	a0, 16(sp)
	sw	a5, 20(sp)
	seqz	a0, a4
	addi	a4, a4, -1
	sub	s0, s0, a0
	seqz	a0, s0
	sltiu	a5, a4, 4
	and	a5, a5, a0
	li	a0, 8
	beqz	a5, .Lgcm_small_BB89_7
# %bb.3:                                # %join.3.i.i
	zext.b	a4, a4
	bnez	a4, .Lgcm_small_BB89_7
# %bb.4:                                # %join.3.i.i.i
	lw	a4, 0(a1)
	lw	a0, 4(a1)
	add	a5, a3, a4
	sltu	a5, a5, a3
	add	a0, a0, a5
	snez	s0, a0
	addi	s0, s0, -1
	and	a5, a5, s0
	neg	a5, a5
	or	a0, a0, a5
	srli	a0, a0, 29
	beqz	a0, .Lgcm_small_BB89_6
# %bb.5:
	li	a0, 5
	j	.Lgcm_small_BB89_7
.Lgcm_small_BB89_6:                               # %arm.4.i.i
	seqz	a5, a2
	addi	a0, sp, 24
	andi	a4, a4, 15
	addi	a6, a1, 48
	slli	a5, a5, 12
	add	a5, a5, a2
	addi	a2, a1, 64
	mv	s1, a1
	mv	a1, a6
	mv	s0, a3
	mv	a3, a4
	li	a4, 0
	mv	a6, s0
	li	a7, 0
	call	gcm_small.gcm.hash_room.hash_piece
	call	gcm_small.aes_cipher.zeroize.stack.wipe_stack.512
	li	a0, 0
	lw	a1, 0(s1)
	lw	a2, 4(s1)
	add	s0, s0, a1
	sltu	a1, s0, a1
	add	a1, a1, a2
	sw	s0, 0(s1)
	sw	a1, 4(s1)
.Lgcm_small_BB89_7:
	lw	ra, 44(sp)                      # 4-byte Folded Reload
	lw	s0, 40(sp)                      # 4-byte Folded Reload
	lw	s1, 36(sp)                      # 4-byte Folded Reload
	addi	sp, sp, 48
.Lgcm_small_BB89_8:                               # %wide_fotsgure_gcm_additional.exit
	li	a1, 0
	li	a2, 0
	li	a3, 0
	li	a4, 0
	li	a5, 0
	li	a6, 0
	li	a7, 0
	li	t0, 0
	li	t1, 0
	li	t2, 0
	li	t3, 0
	li	t4, 0
	li	t5, 0
	li	t6, 0
	ret
.Lgcm_small_func_end89:
	.size	gcm_small.fotsgure_gcm_additional, .Lgcm_small_func_end89-gcm_small.fotsgure_gcm_additional
                                        # -- End function
	.section	.text.gcm_small.fotsgure_gcm_encrypt,"ax",@progbits
	export_gcm_small	fotsgure_gcm_encrypt
	.p2align	1
	.type	gcm_small.fotsgure_gcm_encrypt,@function
gcm_small.fotsgure_gcm_encrypt:                   # @gcm_small.fotsgure_gcm_encrypt
# %bb.0:
	addi	sp, sp, -48
	sw	ra, 44(sp)                      # 4-byte Folded Spill
	sw	s0, 40(sp)                      # 4-byte Folded Spill
	sw	s1, 36(sp)                      # 4-byte Folded Spill
	sw	s2, 32(sp)                      # 4-byte Folded Spill
	sw	s3, 28(sp)                      # 4-byte Folded Spill
	mv	s1, a3
	mv	s2, a2
	mv	s0, a1
	mv	a1, a0
	lw	a2, 0(a0)
	addi	a3, a2, -16
	li	a4, 16
	li	a0, 2
	bltu	a4, a3, .Lgcm_small_BB90_7
# %bb.1:
	lui	a4, 16
	addi	a4, a4, 257
	srl	a3, a4, a3
	andi	a3, a3, 1
	beqz	a3, .Lgcm_small_BB90_7
# %bb.2:                                # %join.3.i.i
	addi	a0, a1, 4
	srli	a3, a2, 31
	slli	a2, a2, 1
	addi	a1, a1, 484
	addi	a4, a2, 56
	sltu	a2, a4, a2
	add	a2, a2, a3
	sw	a0, 0(sp)
	sw	zero, 4(sp)
	sw	a4, 8(sp)
	sw	a2, 12(sp)
	sw	a1, 16(sp)
	sw	zero, 20(sp)
	mv	a0, sp
	li	a2, 2
	mv	a1, s0
	mv	a3, s1
	li	a4, 0
	call	gcm_small.gcm.mode.BorrowedGcm.enter_phase
	zext.b	a0, a0
	beqz	a0, .Lgcm_small_BB90_5
# %bb.3:                                # %arm.2.i.i.i
	andi	a1, a1, 1
	bnez	a1, .Lgcm_small_BB90_6
# %bb.4:                                # %arm.2.i.i.i
	li	a0, 8
	j	.Lgcm_small_BB90_7
.Lgcm_small_BB90_5:                               # %arm.1.i.i.i
	seqz	a0, s2
	addi	s3, sp, 16
	lw	a3, 8(s0)
	slli	a0, a0, 12
	add	s2, s2, a0
	lw	a0, 12(s0)
	addi	a1, s0, 32
	addi	a2, a3, 16
	sltu	a3, a2, a3
	add	a3, a3, a0
	mv	a0, sp
	mv	a4, s2
	mv	a5, s1
	li	a6, 0
	call	gcm_small.gcm.gctr.add_gctr
	lw	a3, 8(s0)
	addi	a1, s0, 48
	andi	a3, a3, 15
	addi	a2, s0, 64
	mv	a0, s3
	li	a4, 0
	mv	a5, s2
	mv	a6, s1
	li	a7, 0
	call	gcm_small.gcm.hash_room.hash_piece
	lw	a0, 8(s0)
	lw	a1, 12(s0)
	add	s1, s1, a0
	sltu	a0, s1, a0
	add	a0, a0, a1
	sw	s1, 8(s0)
	sw	a0, 12(s0)
	call	gcm_small.aes_cipher.zeroize.stack.wipe_stack.1536
	li	a0, 0
	j	.Lgcm_small_BB90_7
.Lgcm_small_BB90_6:
	li	a0, 5
.Lgcm_small_BB90_7:                               # %wide_fotsgure_gcm_encrypt.exit
	lw	ra, 44(sp)                      # 4-byte Folded Reload
	lw	s0, 40(sp)                      # 4-byte Folded Reload
	lw	s1, 36(sp)                      # 4-byte Folded Reload
	lw	s2, 32(sp)                      # 4-byte Folded Reload
	lw	s3, 28(sp)                      # 4-byte Folded Reload
	addi	sp, sp, 48
	li	a1, 0
	li	a2, 0
	li	a3, 0
	li	a4, 0
	li	a5, 0
	li	a6, 0
	li	a7, 0
	li	t0, 0
	li	t1, 0
	li	t2, 0
	li	t3, 0
	li	t4, 0
	li	t5, 0
	li	t6, 0
	ret
.Lgcm_small_func_end90:
	.size	gcm_small.fotsgure_gcm_encrypt, .Lgcm_small_func_end90-gcm_small.fotsgure_gcm_encrypt
                                        # -- End function
	.section	.text.gcm_small.fotsgure_gcm_finish,"ax",@progbits
	export_gcm_small	fotsgure_gcm_finish
	.p2align	1
	.type	gcm_small.fotsgure_gcm_finish,@function
gcm_small.fotsgure_gcm_finish:                    # @gcm_small.fotsgure_gcm_finish
# %bb.0:
	addi	sp, sp, -64
	sw	ra, 60(sp)                      # 4-byte Folded Spill
	sw	s0, 56(sp)                      # 4-byte Folded Spill
	sw	s1, 52(sp)                      # 4-byte Folded Spill
	mv	s0, a2
	lw	a3, 0(a0)
	addi	a4, a3, -16
	li	a5, 16
	li	a2, 2
	bltu	a5, a4, .Lgcm_small_BB91_5
# %bb.1:
	lui	a5, 16
	addi	a5, a5, 257
	srl	a4, a5, a4
	andi	a4, a4, 1
	beqz	a4, .Lgcm_small_BB91_5
# %bb.2:                                # %join.3.i.i
	addi	a2, a0, 4
	srli	a4, a3, 31
	slli	a3, a3, 1
	addi	a0, a0, 484
	addi	a5, a3, 56
	sltu	a3, a5, a3
	add	a3, a3, a4
	lw	a4, 24(a1)
	lw	s1, 28(a1)
	sw	a2, 24(sp)
	sw	zero, 28(sp)
	sw	a5, 32(sp)
	sw	a3, 36(sp)
	seqz	a2, a4
	addi	a4, a4, -1
	sub	s1, s1, a2
	sltiu	a2, a4, 2
	seqz	a3, s1
	and	a2, a2, a3
	sw	a0, 40(sp)
	sw	zero, 44(sp)
	beqz	a2, .Lgcm_small_BB91_4
# %bb.3:                                # %arm.4.i.i
	addi	a0, sp, 24
	addi	a2, sp, 8
	mv	s1, a1
	call	gcm_small.gcm.mode.BorrowedGcm.put_tag_so_far
	call	gcm_small.aes_cipher.zeroize.stack.wipe_stack.512
	mv	a0, s1
	call	gcm_small.gcm.message_state.MessageZeroize.zeroize
	addi	a1, sp, 8
	li	a2, 16
	mv	a0, s0
	call	memcpy
	li	a2, 0
	j	.Lgcm_small_BB91_5
.Lgcm_small_BB91_4:
	li	a2, 8
.Lgcm_small_BB91_5:                               # %wide_fotsgure_gcm_finish.exit
	mv	a0, a2
	lw	ra, 60(sp)                      # 4-byte Folded Reload
	lw	s0, 56(sp)                      # 4-byte Folded Reload
	lw	s1, 52(sp)                      # 4-byte Folded Reload
	addi	sp, sp, 64
	li	a1, 0
	li	a2, 0
	li	a3, 0
	li	a4, 0
	li	a5, 0
	li	a6, 0
	li	a7, 0
	li	t0, 0
	li	t1, 0
	li	t2, 0
	li	t3, 0
	li	t4, 0
	li	t5, 0
	li	t6, 0
	ret
.Lgcm_small_func_end91:
	.size	gcm_small.fotsgure_gcm_finish, .Lgcm_small_func_end91-gcm_small.fotsgure_gcm_finish
                                        # -- End function
	.section	.text.gcm_small.fotsgure_gcm_verify,"ax",@progbits
	export_gcm_small	fotsgure_gcm_verify
	.p2align	1
	.type	gcm_small.fotsgure_gcm_verify,@function
gcm_small.fotsgure_gcm_verify:                    # @gcm_small.fotsgure_gcm_verify
# %bb.0:
	addi	sp, sp, -48
	sw	ra, 44(sp)                      # 4-byte Folded Spill
	sw	s0, 40(sp)                      # 4-byte Folded Spill
	sw	s1, 36(sp)                      # 4-byte Folded Spill
	sw	s2, 32(sp)                      # 4-byte Folded Spill
	mv	s1, a3
	mv	s2, a2
	mv	s0, a1
	mv	a1, a0
	lw	a2, 0(a0)
	addi	a3, a2, -16
	li	a4, 16
	li	a0, 2
	bltu	a4, a3, .Lgcm_small_BB92_7
# %bb.1:
	lui	a4, 16
	addi	a4, a4, 257
	srl	a3, a4, a3
	andi	a3, a3, 1
	beqz	a3, .Lgcm_small_BB92_7
# %bb.2:                                # %join.3.i.i
	addi	a0, a1, 4
	srli	a3, a2, 31
	slli	a2, a2, 1
	addi	a1, a1, 484
	addi	a4, a2, 56
	sltu	a2, a4, a2
	add	a2, a2, a3
	sw	a0, 8(sp)
	sw	zero, 12(sp)
	sw	a4, 16(sp)
	sw	a2, 20(sp)
	sw	a1, 24(sp)
	sw	zero, 28(sp)
	addi	a0, sp, 8
	li	a2, 3
	mv	a1, s0
	mv	a3, s1
	li	a4, 0
	call	gcm_small.gcm.mode.BorrowedGcm.enter_phase
	zext.b	a0, a0
	beqz	a0, .Lgcm_small_BB92_5
# %bb.3:                                # %arm.2.i.i.i
	andi	a1, a1, 1
	bnez	a1, .Lgcm_small_BB92_6
# %bb.4:                                # %arm.2.i.i.i
	li	a0, 8
	j	.Lgcm_small_BB92_7
.Lgcm_small_BB92_5:                               # %arm.1.i.i.i
	seqz	a2, s2
	addi	a0, sp, 24
	lw	a3, 8(s0)
	addi	a1, s0, 48
	slli	a2, a2, 12
	add	a5, s2, a2
	andi	a3, a3, 15
	addi	a2, s0, 64
	li	a4, 0
	mv	a6, s1
	li	a7, 0
	call	gcm_small.gcm.hash_room.hash_piece
	lw	a0, 8(s0)
	lw	a1, 12(s0)
	add	s1, s1, a0
	sltu	a0, s1, a0
	add	a0, a0, a1
	sw	s1, 8(s0)
	sw	a0, 12(s0)
	call	gcm_small.aes_cipher.zeroize.stack.wipe_stack.512
	li	a0, 0
	j	.Lgcm_small_BB92_7
.Lgcm_small_BB92_6:
	li	a0, 5
.Lgcm_small_BB92_7:                               # %wide_fotsgure_gcm_verify.exit
	lw	ra, 44(sp)                      # 4-byte Folded Reload
	lw	s0, 40(sp)                      # 4-byte Folded Reload
	lw	s1, 36(sp)                      # 4-byte Folded Reload
	lw	s2, 32(sp)                      # 4-byte Folded Reload
	addi	sp, sp, 48
	li	a1, 0
	li	a2, 0
	li	a3, 0
	li	a4, 0
	li	a5, 0
	li	a6, 0
	li	a7, 0
	li	t0, 0
	li	t1, 0
	li	t2, 0
	li	t3, 0
	li	t4, 0
	li	t5, 0
	li	t6, 0
	ret
.Lgcm_small_func_end92:
	.size	gcm_small.fotsgure_gcm_verify, .Lgcm_small_func_end92-gcm_small.fotsgure_gcm_verify
                                        # -- End function
	.section	.text.gcm_small.fotsgure_gcm_accept,"ax",@progbits
	export_gcm_small	fotsgure_gcm_accept
	.p2align	1
	.type	gcm_small.fotsgure_gcm_accept,@function
gcm_small.fotsgure_gcm_accept:                    # @gcm_small.fotsgure_gcm_accept
# %bb.0:
	li	a4, 16
	bne	a3, a4, .Lgcm_small_BB93_6
# %bb.1:                                # %join.3.i.i
	addi	sp, sp, -64
	sw	ra, 60(sp)                      # 4-byte Folded Spill
	sw	s0, 56(sp)                      # 4-byte Folded Spill
	sw	s1, 52(sp)                      # 4-byte Folded Spill
	lw	s0, 0(a0)
	addi	a5, s0, -16
	li	a3, 2
	bltu	a4, a5, .Lgcm_small_BB93_9
# %bb.2:                                # %join.3.i.i
	lui	a4, 16
	addi	a4, a4, 257
	srl	a4, a4, a5
	andi	a4, a4, 1
	beqz	a4, .Lgcm_small_BB93_9
# %bb.3:                                # %join.6.i.i
	seqz	a4, a2
	addi	a6, a0, 4
	srli	a7, s0, 31
	slli	s0, s0, 1
	lw	t1, 24(a1)
	lw	t0, 28(a1)
	slli	a4, a4, 12
	addi	a5, s0, 56
	add	a2, a2, a4
	sltu	a4, a5, s0
	add	a4, a4, a7
	lbu	a7, 0(a2)
	lbu	s0, 1(a2)
	lbu	s1, 2(a2)
	lbu	t3, 3(a2)
	lbu	t2, 4(a2)
	lbu	a3, 5(a2)
	lbu	t4, 6(a2)
	lbu	t5, 7(a2)
	sw	a6, 24(sp)
	sw	zero, 28(sp)
	sw	a5, 32(sp)
	sw	a4, 36(sp)
	seqz	a4, t1
	sub	a4, t0, a4
	addi	a5, t1, -1
	sltiu	a5, a5, 4
	seqz	a4, a4
	slli	s0, s0, 8
	slli	s1, s1, 16
	slli	t3, t3, 24
	slli	a3, a3, 8
	and	a6, a4, a5
	or	a7, s0, a7
	or	t3, t3, s1
	or	t0, a3, t2
	lbu	s0, 8(a2)
	lbu	a4, 9(a2)
	lbu	a5, 10(a2)
	lbu	a3, 11(a2)
	slli	t4, t4, 16
	slli	t5, t5, 24
	slli	a4, a4, 8
	slli	a5, a5, 16
	slli	a3, a3, 24
	or	s1, t5, t4
	or	t2, a4, s0
	or	a3, a3, a5
	lbu	a5, 13(a2)
	lbu	s0, 12(a2)
	lbu	a4, 14(a2)
	lbu	a2, 15(a2)
	slli	a5, a5, 8
	or	a5, a5, s0
	slli	a4, a4, 16
	slli	a2, a2, 24
	or	a2, a2, a4
	or	a4, t3, a7
	or	s1, s1, t0
	or	a3, a3, t2
	or	a2, a2, a5
	addi	a0, a0, 484
	neg	a5, a6
	and	a5, a5, t1
	li	s0, 3
	sw	a0, 40(sp)
	sw	zero, 44(sp)
	ori	a0, a5, 2
	zext.b	a0, a0
	sw	a4, 8(sp)
	sw	s1, 12(sp)
	sw	a3, 16(sp)
	sw	a2, 20(sp)
	bne	a0, s0, .Lgcm_small_BB93_7
# %bb.4:                                # %join.3.i.i.i
	addi	a0, sp, 24
	addi	a2, sp, 8
	mv	s1, a1
	call	gcm_small.gcm.mode.BorrowedGcm.is_tag_so_far
	mv	s0, a0
	call	gcm_small.aes_cipher.zeroize.stack.wipe_stack.1536
	beqz	s0, .Lgcm_small_BB93_8
# %bb.5:                                # %arm.7.i.i
	li	a3, 0
	li	a0, 4
	sw	zero, 16(s1)
	sw	zero, 20(s1)
	sw	a0, 24(s1)
	sw	zero, 28(s1)
	j	.Lgcm_small_BB93_9
.Lgcm_small_BB93_6:
	li	a0, 4
	li	a1, 0
	li	a2, 0
	li	a3, 0
	li	a4, 0
	li	a5, 0
	li	a6, 0
	li	a7, 0
	li	t0, 0
	li	t1, 0
	li	t2, 0
	li	t3, 0
	li	t4, 0
	li	t5, 0
	li	t6, 0
	ret
.Lgcm_small_BB93_7:
	li	a3, 8
	j	.Lgcm_small_BB93_9
.Lgcm_small_BB93_8:
	li	a3, 6
.Lgcm_small_BB93_9:
	lw	ra, 60(sp)                      # 4-byte Folded Reload
	lw	s0, 56(sp)                      # 4-byte Folded Reload
	lw	s1, 52(sp)                      # 4-byte Folded Reload
	addi	sp, sp, 64
	mv	a0, a3
	li	a1, 0
	li	a2, 0
	li	a3, 0
	li	a4, 0
	li	a5, 0
	li	a6, 0
	li	a7, 0
	li	t0, 0
	li	t1, 0
	li	t2, 0
	li	t3, 0
	li	t4, 0
	li	t5, 0
	li	t6, 0
	ret
.Lgcm_small_func_end93:
	.size	gcm_small.fotsgure_gcm_accept, .Lgcm_small_func_end93-gcm_small.fotsgure_gcm_accept
                                        # -- End function
	.section	.text.gcm_small.fotsgure_gcm_accept_short,"ax",@progbits
	export_gcm_small	fotsgure_gcm_accept_short
	.p2align	1
	.type	gcm_small.fotsgure_gcm_accept_short,@function
gcm_small.fotsgure_gcm_accept_short:              # @gcm_small.fotsgure_gcm_accept_short
# %bb.0:
	addi	sp, sp, -48
	sw	ra, 44(sp)                      # 4-byte Folded Spill
	sw	s0, 40(sp)                      # 4-byte Folded Spill
	sw	s1, 36(sp)                      # 4-byte Folded Spill
	mv	a5, a0
	li	a0, 4
	li	s1, 1
	beq	a2, a0, .Lgcm_small_BB94_3
# %bb.1:
	li	s0, 8
	beq	a2, s0, .Lgcm_small_BB94_3
# %bb.2:                                # %else.5.i.i.i
	andi	s1, a2, -4
	addi	s1, s1, -12
	seqz	s1, s1
.Lgcm_small_BB94_3:                               # %"gcm::tags::is_short_tag.exit.i.i"
	bne	a4, a2, .Lgcm_small_BB94_15
# %bb.4:                                # %"gcm::tags::is_short_tag.exit.i.i"
	beqz	s1, .Lgcm_small_BB94_15
# %bb.5:                                # %join.3.i.i
	lw	a4, 0(a5)
	addi	s1, a4, -16
	li	s0, 16
	li	a0, 2
	bltu	s0, s1, .Lgcm_small_BB94_15
# %bb.6:                                # %join.3.i.i
	lui	s0, 16
	addi	s0, s0, 257
	srl	s1, s0, s1
	andi	s1, s1, 1
	beqz	s1, .Lgcm_small_BB94_15
# %bb.7:                                # %join.6.i.i
	addi	a7, a5, 4
	srli	s1, a4, 31
	slli	a4, a4, 1
	addi	a6, a5, 484
	lw	s0, 24(a1)
	lw	a5, 28(a1)
	addi	a0, a4, 56
	sltu	a4, a0, a4
	add	a4, a4, s1
	li	s1, 3
	sw	a7, 8(sp)
	sw	zero, 12(sp)
	sw	a0, 16(sp)
	sw	a4, 20(sp)
	seqz	a0, s0
	sub	a5, a5, a0
	addi	a0, s0, -1
	sltiu	a0, a0, 4
	seqz	a4, a5
	and	a0, a0, a4
	neg	a0, a0
	and	a0, a0, s0
	ori	a0, a0, 2
	zext.b	a0, a0
	sw	a6, 24(sp)
	sw	zero, 28(sp)
	bne	a0, s1, .Lgcm_small_BB94_14
# %bb.8:                                # %join.3.i.i.i
	li	a0, 4
	beq	a2, a0, .Lgcm_small_BB94_11
# %bb.9:                                # %join.3.i.i.i
	li	a0, 8
	beq	a2, a0, .Lgcm_small_BB94_11
# %bb.10:                               # %"gcm::tags::is_short_tag.exit.i.i.i"
	andi	a0, a2, -4
	li	a4, 12
	bne	a0, a4, .Lgcm_small_BB94_13
.Lgcm_small_BB94_11:                              # %join.7.i.i.i
	seqz	a0, a3
	slli	a0, a0, 12
	add	a4, a3, a0
	addi	a0, sp, 8
	mv	s1, a1
	mv	a3, a2
	mv	a2, a4
	li	a4, 0
	call	gcm_small.gcm.mode.BorrowedGcm.is_short_tag_so_far
	mv	s0, a0
	call	gcm_small.aes_cipher.zeroize.stack.wipe_stack.1536
	beqz	s0, .Lgcm_small_BB94_13
# %bb.12:                               # %arm.7.i.i
	li	a0, 0
	li	a1, 4
	sw	zero, 16(s1)
	sw	zero, 20(s1)
	sw	a1, 24(s1)
	sw	zero, 28(s1)
	j	.Lgcm_small_BB94_15
.Lgcm_small_BB94_13:
	li	a0, 6
	j	.Lgcm_small_BB94_15
.Lgcm_small_BB94_14:
	li	a0, 8
.Lgcm_small_BB94_15:                              # %wide_fotsgure_gcm_accept_short.exit
	lw	ra, 44(sp)                      # 4-byte Folded Reload
	lw	s0, 40(sp)                      # 4-byte Folded Reload
	lw	s1, 36(sp)                      # 4-byte Folded Reload
	addi	sp, sp, 48
	li	a1, 0
	li	a2, 0
	li	a3, 0
	li	a4, 0
	li	a5, 0
	li	a6, 0
	li	a7, 0
	li	t0, 0
	li	t1, 0
	li	t2, 0
	li	t3, 0
	li	t4, 0
	li	t5, 0
	li	t6, 0
	ret
.Lgcm_small_func_end94:
	.size	gcm_small.fotsgure_gcm_accept_short, .Lgcm_small_func_end94-gcm_small.fotsgure_gcm_accept_short
                                        # -- End function
	.section	.text.gcm_small.fotsgure_gcm_decrypt,"ax",@progbits
	export_gcm_small	fotsgure_gcm_decrypt
	.p2align	1
	.type	gcm_small.fotsgure_gcm_decrypt,@function
gcm_small.fotsgure_gcm_decrypt:                   # @gcm_small.fotsgure_gcm_decrypt
# %bb.0:
	mv	a4, a0
	lw	a5, 0(a0)
	addi	a7, a5, -16
	li	a6, 16
	li	a0, 2
	bltu	a6, a7, .Lgcm_small_BB95_14
# %bb.1:
	addi	sp, sp, -48
	sw	ra, 44(sp)                      # 4-byte Folded Spill
	sw	s0, 40(sp)                      # 4-byte Folded Spill
	sw	s1, 36(sp)                      # 4-byte Folded Spill
	lui	s0, 16
	addi	s0, s0, 257
	srl	s0, s0, a7
	andi	s0, s0, 1
	beqz	s0, .Lgcm_small_BB95_13
# %bb.2:                                # %join.3.i.i
	addi	a6, a4, 4
	srli	s0, a5, 31
	slli	a5, a5, 1
	addi	a7, a4, 484
	addi	a0, a5, 56
	sltu	a5, a0, a5
	add	a5, a5, s0
	lw	a4, 24(a1)
	lw	s0, 28(a1)
	sw	a7, 24(sp)
	sw	zero, 28(sp)
	sw	a6, 8(sp)
	sw	zero, 12(sp)
	sw	a0, 16(sp)
	sw	a5, 20(sp)
	seqz	a0, a4
	addi	a4, a4, -1
	sub	s0, s0, a0
	seqz	a0, s0
	sltiu	a5, a4, 4
	and	a5, a5, a0
	li	a0, 8
	beqz	a5, .Lgcm_small_BB95_13
# %bb.3:                                # %join.3.i.i
	zext.b	a4, a4
	li	a5, 3
	bne	a4, a5, .Lgcm_small_BB95_13
# %bb.4:                                # %join.3.i.i.i
	lw	t0, 16(a1)
	lw	a7, 20(a1)
	lw	a6, 8(a1)
	lw	a5, 12(a1)
	add	t1, a3, t0
	sltu	a0, t1, a3
	add	a4, a7, a0
	snez	s0, a4
	addi	s0, s0, -1
	and	a0, a0, s0
	li	t2, 15
	neg	s0, a0
	beq	a5, t2, .Lgcm_small_BB95_6
# %bb.5:                                # %join.3.i.i.i
	sltiu	a0, a5, 15
	or	a4, a4, s0
	beqz	a0, .Lgcm_small_BB95_7
	j	.Lgcm_small_BB95_8
.Lgcm_small_BB95_6:
	sltiu	a0, a6, -32
	or	a4, a4, s0
	bnez	a0, .Lgcm_small_BB95_8
.Lgcm_small_BB95_7:                               # %join.3.i.i.i
	li	a6, -32
	li	a5, 15
.Lgcm_small_BB95_8:                               # %join.3.i.i.i
	beq	a5, a4, .Lgcm_small_BB95_11
# %bb.9:                                # %join.3.i.i.i
	sltu	a0, a5, a4
	bnez	a0, .Lgcm_small_BB95_12
.Lgcm_small_BB95_10:                              # %arm.4.i.i
	seqz	a0, a2
	addi	a6, a1, 32
	slli	a0, a0, 12
	add	a4, a2, a0
	addi	a2, t0, 16
	sltu	a5, a2, t0
	add	a5, a5, a7
	addi	a0, sp, 8
	mv	s1, a1
	mv	a1, a6
	mv	s0, a3
	mv	a3, a5
	mv	a5, s0
	li	a6, 0
	call	gcm_small.gcm.gctr.add_gctr
	lw	a0, 16(s1)
	lw	a1, 20(s1)
	add	s0, s0, a0
	sltu	a0, s0, a0
	add	a0, a0, a1
	sw	s0, 16(s1)
	sw	a0, 20(s1)
	call	gcm_small.aes_cipher.zeroize.stack.wipe_stack.1536
	li	a0, 0
	j	.Lgcm_small_BB95_13
.Lgcm_small_BB95_11:
	or	a0, s0, t1
	sltu	a0, a6, a0
	beqz	a0, .Lgcm_small_BB95_10
.Lgcm_small_BB95_12:
	li	a0, 5
.Lgcm_small_BB95_13:
	lw	ra, 44(sp)                      # 4-byte Folded Reload
	lw	s0, 40(sp)                      # 4-byte Folded Reload
	lw	s1, 36(sp)                      # 4-byte Folded Reload
	addi	sp, sp, 48
.Lgcm_small_BB95_14:                              # %wide_fotsgure_gcm_decrypt.exit
	li	a1, 0
	li	a2, 0
	li	a3, 0
	li	a4, 0
	li	a5, 0
	li	a6, 0
	li	a7, 0
	li	t0, 0
	li	t1, 0
	li	t2, 0
	li	t3, 0
	li	t4, 0
	li	t5, 0
	li	t6, 0
	ret
.Lgcm_small_func_end95:
	.size	gcm_small.fotsgure_gcm_decrypt, .Lgcm_small_func_end95-gcm_small.fotsgure_gcm_decrypt
                                        # -- End function
	.section	.text.gcm_small.fotsgure_gcm_decrypt_unverified,"ax",@progbits
	export_gcm_small	fotsgure_gcm_decrypt_unverified
	.p2align	1
	.type	gcm_small.fotsgure_gcm_decrypt_unverified,@function
gcm_small.fotsgure_gcm_decrypt_unverified:        # @gcm_small.fotsgure_gcm_decrypt_unverified
# %bb.0:
	addi	sp, sp, -48
	sw	ra, 44(sp)                      # 4-byte Folded Spill
	sw	s0, 40(sp)                      # 4-byte Folded Spill
	sw	s1, 36(sp)                      # 4-byte Folded Spill
	sw	s2, 32(sp)                      # 4-byte Folded Spill
	sw	s3, 28(sp)                      # 4-byte Folded Spill
	sw	s4, 24(sp)                      # 4-byte Folded Spill
	mv	s0, a3
	mv	s2, a2
	mv	s1, a1
	mv	a1, a0
	lw	a2, 0(a0)
	addi	a3, a2, -16
	li	a4, 16
	li	a0, 2
	bltu	a4, a3, .Lgcm_small_BB96_7
# %bb.1:
	lui	a4, 16
	addi	a4, a4, 257
	srl	a3, a4, a3
	andi	a3, a3, 1
	beqz	a3, .Lgcm_small_BB96_7
# %bb.2:                                # %join.3.i.i
	addi	a0, a1, 4
	srli	a3, a2, 31
	slli	a2, a2, 1
	addi	a1, a1, 484
	addi	a4, a2, 56
	sltu	a2, a4, a2
	add	a2, a2, a3
	sw	a0, 0(sp)
	sw	zero, 4(sp)
	sw	a4, 8(sp)
	sw	a2, 12(sp)
	sw	a1, 16(sp)
	sw	zero, 20(sp)
	mv	a0, sp
	li	a2, 3
	mv	a1, s1
	mv	a3, s0
	li	a4, 0
	call	gcm_small.gcm.mode.BorrowedGcm.enter_phase
	zext.b	a0, a0
	beqz	a0, .Lgcm_small_BB96_5
# %bb.3:                                # %arm.2.i.i.i
	andi	a1, a1, 1
	bnez	a1, .Lgcm_small_BB96_6
# %bb.4:                                # %arm.2.i.i.i
	li	a0, 8
	j	.Lgcm_small_BB96_7
.Lgcm_small_BB96_5:                               # %arm.1.i.i.i
	seqz	a2, s2
	addi	a0, sp, 16
	lw	a4, 8(s1)
	lw	s4, 12(s1)
	addi	a1, s1, 48
	slli	a2, a2, 12
	add	s2, s2, a2
	addi	s3, a4, 16
	andi	a3, a4, 15
	sltu	a2, s3, a4
	add	s4, s4, a2
	addi	a2, s1, 64
	li	a4, 0
	mv	a5, s2
	mv	a6, s0
	li	a7, 0
	call	gcm_small.gcm.hash_room.hash_piece
	lw	a0, 8(s1)
	lw	a1, 12(s1)
	add	a2, a0, s0
	sltu	a0, a2, a0
	add	a0, a0, a1
	sw	a2, 8(s1)
	sw	a0, 12(s1)
	addi	a1, s1, 32
	mv	a0, sp
	mv	a2, s3
	mv	a3, s4
	mv	a4, s2
	mv	a5, s0
	li	a6, 0
	call	gcm_small.gcm.gctr.add_gctr
	call	gcm_small.aes_cipher.zeroize.stack.wipe_stack.1536
	li	a0, 0
	j	.Lgcm_small_BB96_7
.Lgcm_small_BB96_6:
	li	a0, 5
.Lgcm_small_BB96_7:                               # %wide_fotsgure_gcm_decrypt_unverified.exit
	lw	ra, 44(sp)                      # 4-byte Folded Reload
	lw	s0, 40(sp)                      # 4-byte Folded Reload
	lw	s1, 36(sp)                      # 4-byte Folded Reload
	lw	s2, 32(sp)                      # 4-byte Folded Reload
	lw	s3, 28(sp)                      # 4-byte Folded Reload
	lw	s4, 24(sp)                      # 4-byte Folded Reload
	addi	sp, sp, 48
	li	a1, 0
	li	a2, 0
	li	a3, 0
	li	a4, 0
	li	a5, 0
	li	a6, 0
	li	a7, 0
	li	t0, 0
	li	t1, 0
	li	t2, 0
	li	t3, 0
	li	t4, 0
	li	t5, 0
	li	t6, 0
	ret
.Lgcm_small_func_end96:
	.size	gcm_small.fotsgure_gcm_decrypt_unverified, .Lgcm_small_func_end96-gcm_small.fotsgure_gcm_decrypt_unverified
                                        # -- End function
	.section	.text.gcm_small.fotsgure_gcm_finish_unverified,"ax",@progbits
	export_gcm_small	fotsgure_gcm_finish_unverified
	.p2align	1
	.type	gcm_small.fotsgure_gcm_finish_unverified,@function
gcm_small.fotsgure_gcm_finish_unverified:         # @gcm_small.fotsgure_gcm_finish_unverified
# %bb.0:
	addi	sp, sp, -32
	sw	ra, 28(sp)                      # 4-byte Folded Spill
	sw	s0, 24(sp)                      # 4-byte Folded Spill
	lw	a4, 0(a0)
	addi	a5, a4, -16
	li	s0, 16
	li	a3, 2
	bltu	s0, a5, .Lgcm_small_BB97_5
# %bb.1:
	lui	s0, 16
	addi	s0, s0, 257
	srl	a5, s0, a5
	andi	a5, a5, 1
	beqz	a5, .Lgcm_small_BB97_5
# %bb.2:                                # %join.3.i.i
	addi	a7, a0, 4
	srli	a5, a4, 31
	slli	a4, a4, 1
	addi	a6, a0, 484
	lw	s0, 24(a1)
	lw	a0, 28(a1)
	addi	a3, a4, 56
	sltu	a4, a3, a4
	add	a4, a4, a5
	li	a5, 3
	sw	a7, 0(sp)
	sw	zero, 4(sp)
	sw	a3, 8(sp)
	sw	a4, 12(sp)
	seqz	a3, s0
	sub	a0, a0, a3
	addi	a3, s0, -1
	sltiu	a3, a3, 4
	seqz	a0, a0
	and	a0, a0, a3
	neg	a0, a0
	and	a0, a0, s0
	ori	a0, a0, 2
	zext.b	a0, a0
	sw	a6, 16(sp)
	sw	zero, 20(sp)
	bne	a0, a5, .Lgcm_small_BB97_4
# %bb.3:                                # %arm.4.i.i
	mv	a0, sp
	mv	s0, a1
	call	gcm_small.gcm.mode.BorrowedGcm.put_tag_so_far
	call	gcm_small.aes_cipher.zeroize.stack.wipe_stack.512
	mv	a0, s0
	call	gcm_small.gcm.message_state.MessageZeroize.zeroize
	li	a3, 0
	j	.Lgcm_small_BB97_5
.Lgcm_small_BB97_4:
	li	a3, 8
.Lgcm_small_BB97_5:                               # %wide_fotsgure_gcm_finish_unverified.exit
	mv	a0, a3
	lw	ra, 28(sp)                      # 4-byte Folded Reload
	lw	s0, 24(sp)                      # 4-byte Folded Reload
	addi	sp, sp, 32
	li	a1, 0
	li	a2, 0
	li	a3, 0
	li	a4, 0
	li	a5, 0
	li	a6, 0
	li	a7, 0
	li	t0, 0
	li	t1, 0
	li	t2, 0
	li	t3, 0
	li	t4, 0
	li	t5, 0
	li	t6, 0
	ret
.Lgcm_small_func_end97:
	.size	gcm_small.fotsgure_gcm_finish_unverified, .Lgcm_small_func_end97-gcm_small.fotsgure_gcm_finish_unverified
                                        # -- End function
	.section	.text.gcm_small.fotsgure_gcm_wipe_message,"ax",@progbits
	export_gcm_small	fotsgure_gcm_wipe_message
	.p2align	1
	.type	gcm_small.fotsgure_gcm_wipe_message,@function
gcm_small.fotsgure_gcm_wipe_message:              # @gcm_small.fotsgure_gcm_wipe_message
# %bb.0:
	addi	sp, sp, -16
	sw	ra, 12(sp)                      # 4-byte Folded Spill
	sw	s0, 8(sp)                       # 4-byte Folded Spill
	mv	s0, a0
	li	a2, 80
	li	a1, 0
	call	memset
	mv	a0, s0
	lw	ra, 12(sp)                      # 4-byte Folded Reload
	lw	s0, 8(sp)                       # 4-byte Folded Reload
	addi	sp, sp, 16
	tail	gcm_small.gcm.message_state.MessageZeroize.zeroize
.Lgcm_small_func_end98:
	.size	gcm_small.fotsgure_gcm_wipe_message, .Lgcm_small_func_end98-gcm_small.fotsgure_gcm_wipe_message
                                        # -- End function
	.section	.text.gcm_small.fotsgure_gcm_siv_set_key,"ax",@progbits
	export_gcm_small	fotsgure_gcm_siv_set_key
	.p2align	1
	.type	gcm_small.fotsgure_gcm_siv_set_key,@function
gcm_small.fotsgure_gcm_siv_set_key:               # @gcm_small.fotsgure_gcm_siv_set_key
# %bb.0:
	addi	sp, sp, -32
	sw	ra, 28(sp)                      # 4-byte Folded Spill
	sw	s0, 24(sp)                      # 4-byte Folded Spill
	sw	s1, 20(sp)                      # 4-byte Folded Spill
	sw	s2, 16(sp)                      # 4-byte Folded Spill
	sw	s3, 12(sp)                      # 4-byte Folded Spill
	mv	s0, a2
	li	a2, 16
	beq	s0, a2, .Lgcm_small_BB99_2
# %bb.1:
	li	a2, 32
	bne	s0, a2, .Lgcm_small_BB99_3
.Lgcm_small_BB99_2:                               # %join.3.i.i
	seqz	a2, a1
	slli	a2, a2, 12
	add	s1, a1, a2
	addi	s2, a0, 4
	li	a2, 480
	mv	s3, a0
	mv	a0, s2
	li	a1, 0
	call	memset
	mv	a0, s2
	mv	a1, s1
	mv	a2, s0
	li	a3, 0
	call	gcm_small.aes_narrow.word_room.expand_words
	call	gcm_small.aes_cipher.zeroize.stack.wipe_stack.768
	li	a0, 0
	sw	s0, 0(s3)
	j	.Lgcm_small_BB99_4
.Lgcm_small_BB99_3:                               # %then.1.i.i
	li	a2, 484
	li	a1, 0
	call	memset
	li	a0, 1
.Lgcm_small_BB99_4:                               # %wide_fotsgure_gcm_siv_set_key.exit
	lw	ra, 28(sp)                      # 4-byte Folded Reload
	lw	s0, 24(sp)                      # 4-byte Folded Reload
	lw	s1, 20(sp)                      # 4-byte Folded Reload
	lw	s2, 16(sp)                      # 4-byte Folded Reload
	lw	s3, 12(sp)                      # 4-byte Folded Reload
	addi	sp, sp, 32
	li	a1, 0
	li	a2, 0
	li	a3, 0
	li	a4, 0
	li	a5, 0
	li	a6, 0
	li	a7, 0
	li	t0, 0
	li	t1, 0
	li	t2, 0
	li	t3, 0
	li	t4, 0
	li	t5, 0
	li	t6, 0
	ret
.Lgcm_small_func_end99:
	.size	gcm_small.fotsgure_gcm_siv_set_key, .Lgcm_small_func_end99-gcm_small.fotsgure_gcm_siv_set_key
                                        # -- End function
	.section	.text.gcm_small.fotsgure_gcm_siv_seal,"ax",@progbits
	export_gcm_small	fotsgure_gcm_siv_seal
	.p2align	1
	.type	gcm_small.fotsgure_gcm_siv_seal,@function
gcm_small.fotsgure_gcm_siv_seal:                  # @gcm_small.fotsgure_gcm_siv_seal
# %bb.0:
	addi	sp, sp, -48
	sw	ra, 44(sp)                      # 4-byte Folded Spill
	sw	s0, 40(sp)                      # 4-byte Folded Spill
	sw	s1, 36(sp)                      # 4-byte Folded Spill
	sw	s2, 32(sp)                      # 4-byte Folded Spill
	mv	s2, a6
	mv	t4, a5
	mv	a6, a3
	mv	a3, a2
	lw	a2, 0(a0)
	li	a5, 32
	mv	s0, a1
	beq	a2, a5, .Lgcm_small_BB100_2
# %bb.1:
	li	a1, 16
	bne	a2, a1, .Lgcm_small_BB100_3
.Lgcm_small_BB100_2:                              # %join.3.i.i
	seqz	a1, a4
	seqz	a5, a3
	addi	a0, a0, 4
	srli	s1, a2, 31
	slli	a1, a1, 12
	add	t3, a4, a1
	slli	a1, a2, 1
	slli	a5, a5, 12
	add	a5, a5, a3
	addi	a3, a1, 56
	sltu	a1, a3, a1
	add	a1, a1, s1
	sw	a0, 0(sp)
	sw	zero, 4(sp)
	sw	a3, 8(sp)
	sw	a1, 12(sp)
	addi	a0, sp, 16
	mv	a1, sp
	li	a3, 0
	mv	a4, s0
	li	a7, 0
	li	t5, 0
	call	gcm_small.gcm_siv.course.seal_in
	addi	a1, sp, 16
	li	a2, 16
	mv	a0, s2
	call	memcpy
	li	a0, 0
	j	.Lgcm_small_BB100_4
.Lgcm_small_BB100_3:
	li	a0, 2
.Lgcm_small_BB100_4:                              # %wide_fotsgure_gcm_siv_seal.exit
	lw	ra, 44(sp)                      # 4-byte Folded Reload
	lw	s0, 40(sp)                      # 4-byte Folded Reload
	lw	s1, 36(sp)                      # 4-byte Folded Reload
	lw	s2, 32(sp)                      # 4-byte Folded Reload
	addi	sp, sp, 48
	li	a1, 0
	li	a2, 0
	li	a3, 0
	li	a4, 0
	li	a5, 0
	li	a6, 0
	li	a7, 0
	li	t0, 0
	li	t1, 0
	li	t2, 0
	li	t3, 0
	li	t4, 0
	li	t5, 0
	li	t6, 0
	ret
.Lgcm_small_func_end100:
	.size	gcm_small.fotsgure_gcm_siv_seal, .Lgcm_small_func_end100-gcm_small.fotsgure_gcm_siv_seal
                                        # -- End function
	.section	.text.gcm_small.fotsgure_gcm_siv_seal_to,"ax",@progbits
	export_gcm_small	fotsgure_gcm_siv_seal_to
	.p2align	1
	.type	gcm_small.fotsgure_gcm_siv_seal_to,@function
gcm_small.fotsgure_gcm_siv_seal_to:               # @gcm_small.fotsgure_gcm_siv_seal_to
# %bb.0:
	bne	a5, a7, .Lgcm_small_BB101_6
# %bb.1:                                # %join.3.i.i
	addi	sp, sp, -80
	sw	ra, 76(sp)                      # 4-byte Folded Spill
	sw	s0, 72(sp)                      # 4-byte Folded Spill
	sw	s1, 68(sp)                      # 4-byte Folded Spill
	sw	s2, 64(sp)                      # 4-byte Folded Spill
	sw	s3, 60(sp)                      # 4-byte Folded Spill
	sw	s4, 56(sp)                      # 4-byte Folded Spill
	sw	s5, 52(sp)                      # 4-byte Folded Spill
	sw	s6, 48(sp)                      # 4-byte Folded Spill
	sw	s7, 44(sp)                      # 4-byte Folded Spill
	mv	s7, a5
	mv	s3, a1
	lw	a1, 0(a0)
	li	a5, 32
	beq	a1, a5, .Lgcm_small_BB101_3
# %bb.2:                                # %join.3.i.i
	li	a5, 16
	bne	a1, a5, .Lgcm_small_BB101_13
.Lgcm_small_BB101_3:                              # %join.6.i.i
	seqz	a1, a4
	slli	a1, a1, 12
	add	a1, a1, a4
	seqz	a4, a6
	slli	a4, a4, 12
	add	s6, a6, a4
	bgeu	s6, a1, .Lgcm_small_BB101_7
# %bb.4:                                # %join.6.i.i
	li	a4, 1
	mv	s2, a3
	beqz	a4, .Lgcm_small_BB101_8
.Lgcm_small_BB101_5:                              # %apart.2.i.i.i.i.i.i.i.i
	mv	s4, a0
	mv	a0, s6
	mv	s5, a2
	mv	a2, s7
	call	memmove
	mv	a0, s4
	mv	a2, s5
	j	.Lgcm_small_BB101_10
.Lgcm_small_BB101_6:
	li	a0, 10
	li	a1, 0
	li	a2, 0
	li	a3, 0
	li	a4, 0
	li	a5, 0
	li	a6, 0
	li	a7, 0
	li	t0, 0
	li	t1, 0
	li	t2, 0
	li	t3, 0
	li	t4, 0
	li	t5, 0
	li	t6, 0
	ret
.Lgcm_small_BB101_7:
	sub	a4, s6, a1
	sltu	a4, a4, s7
	xori	a4, a4, 1
	mv	s2, a3
	bnez	a4, .Lgcm_small_BB101_5
.Lgcm_small_BB101_8:                              # %join.7.i.i.i.i.i.i.i.i.preheader
	li	a3, 0
	li	s0, 0
.Lgcm_small_BB101_9:                              # %join.7.i.i.i.i.i.i.i.i
                                        # =>This Inner Loop Header: Depth=1
	add	a6, s6, a3
	add	s1, a1, a3
	addi	a3, a3, 1
	lbu	s1, 0(s1)
	seqz	a4, a3
	add	s0, s0, a4
	sltu	a4, a3, s7
	seqz	a5, s0
	and	a4, a4, a5
	sb	s1, 0(a6)
	bnez	a4, .Lgcm_small_BB101_9
.Lgcm_small_BB101_10:                             # %"core::slice::edits::slice+T::copy_from_slice::<i8,20'core::clone::U8Clone{}>.exit.i.i"
	lw	a3, 0(a0)
	li	a1, 32
	beq	a3, a1, .Lgcm_small_BB101_12
# %bb.11:                               # %"core::slice::edits::slice+T::copy_from_slice::<i8,20'core::clone::U8Clone{}>.exit.i.i"
	li	a1, 16
	bne	a3, a1, .Lgcm_small_BB101_13
.Lgcm_small_BB101_12:                             # %join.3.i.i.i
	seqz	a1, a2
	lw	s4, 80(sp)
	addi	a0, a0, 4
	srli	a4, a3, 31
	slli	s1, a3, 1
	slli	a1, a1, 12
	add	a5, a2, a1
	addi	a1, s1, 56
	sltu	a2, a1, s1
	add	a2, a2, a4
	sw	a0, 8(sp)
	sw	zero, 12(sp)
	sw	a1, 16(sp)
	sw	a2, 20(sp)
	addi	a0, sp, 28
	addi	a1, sp, 8
	mv	a2, a3
	li	a3, 0
	mv	a4, s3
	mv	a6, s2
	li	a7, 0
	mv	t3, s6
	mv	t4, s7
	li	t5, 0
	call	gcm_small.gcm_siv.course.seal_in
	addi	a1, sp, 28
	li	a2, 16
	mv	a0, s4
	call	memcpy
	li	a0, 0
	j	.Lgcm_small_BB101_14
.Lgcm_small_BB101_13:
	li	a0, 2
.Lgcm_small_BB101_14:
	lw	ra, 76(sp)                      # 4-byte Folded Reload
	lw	s0, 72(sp)                      # 4-byte Folded Reload
	lw	s1, 68(sp)                      # 4-byte Folded Reload
	lw	s2, 64(sp)                      # 4-byte Folded Reload
	lw	s3, 60(sp)                      # 4-byte Folded Reload
	lw	s4, 56(sp)                      # 4-byte Folded Reload
	lw	s5, 52(sp)                      # 4-byte Folded Reload
	lw	s6, 48(sp)                      # 4-byte Folded Reload
	lw	s7, 44(sp)                      # 4-byte Folded Reload
	addi	sp, sp, 80
	li	a1, 0
	li	a2, 0
	li	a3, 0
	li	a4, 0
	li	a5, 0
	li	a6, 0
	li	a7, 0
	li	t0, 0
	li	t1, 0
	li	t2, 0
	li	t3, 0
	li	t4, 0
	li	t5, 0
	li	t6, 0
	ret
.Lgcm_small_func_end101:
	.size	gcm_small.fotsgure_gcm_siv_seal_to, .Lgcm_small_func_end101-gcm_small.fotsgure_gcm_siv_seal_to
                                        # -- End function
	.section	.text.gcm_small.fotsgure_gcm_siv_open,"ax",@progbits
	export_gcm_small	fotsgure_gcm_siv_open
	.p2align	1
	.type	gcm_small.fotsgure_gcm_siv_open,@function
gcm_small.fotsgure_gcm_siv_open:                  # @gcm_small.fotsgure_gcm_siv_open
# %bb.0:
	mv	t5, a6
	mv	t3, a5
	mv	a6, a3
	lw	a5, 0(a0)
	li	a3, 32
	mv	t0, a1
	beq	a5, a3, .Lgcm_small_BB102_2
# %bb.1:
	li	a1, 16
	bne	a5, a1, .Lgcm_small_BB102_3
.Lgcm_small_BB102_2:                              # %join.3.i.i
	addi	sp, sp, -32
	sw	ra, 28(sp)                      # 4-byte Folded Spill
	seqz	a1, a4
	seqz	a3, a2
	addi	t1, a0, 4
	srli	a0, a5, 31
	slli	a1, a1, 12
	add	a7, a4, a1
	slli	a1, a5, 1
	slli	a3, a3, 12
	add	a4, a2, a3
	addi	a2, a1, 56
	sltu	a1, a2, a1
	add	a0, a0, a1
	sw	t1, 8(sp)
	sw	zero, 12(sp)
	sw	a2, 16(sp)
	sw	a0, 20(sp)
	addi	a0, sp, 8
	mv	a1, a5
	li	a2, 0
	mv	a3, t0
	mv	a5, a6
	li	a6, 0
	li	t4, 0
	call	gcm_small.gcm_siv.course.open_in
	addi	a0, a0, -1
	andi	a0, a0, 6
	lw	ra, 28(sp)                      # 4-byte Folded Reload
	addi	sp, sp, 32
	li	a1, 0
	li	a2, 0
	li	a3, 0
	li	a4, 0
	li	a5, 0
	li	a6, 0
	li	a7, 0
	li	t0, 0
	li	t1, 0
	li	t2, 0
	li	t3, 0
	li	t4, 0
	li	t5, 0
	li	t6, 0
	ret
.Lgcm_small_BB102_3:
	li	a0, 2
	li	a1, 0
	li	a2, 0
	li	a3, 0
	li	a4, 0
	li	a5, 0
	li	a6, 0
	li	a7, 0
	li	t0, 0
	li	t1, 0
	li	t2, 0
	li	t3, 0
	li	t4, 0
	li	t5, 0
	li	t6, 0
	ret
.Lgcm_small_func_end102:
	.size	gcm_small.fotsgure_gcm_siv_open, .Lgcm_small_func_end102-gcm_small.fotsgure_gcm_siv_open
                                        # -- End function
	.section	.text.gcm_small.fotsgure_gcm_siv_open_to,"ax",@progbits
	export_gcm_small	fotsgure_gcm_siv_open_to
	.p2align	1
	.type	gcm_small.fotsgure_gcm_siv_open_to,@function
gcm_small.fotsgure_gcm_siv_open_to:               # @gcm_small.fotsgure_gcm_siv_open_to
# %bb.0:
	bne	a5, a7, .Lgcm_small_BB103_6
# %bb.1:                                # %join.3.i.i
	addi	sp, sp, -64
	sw	ra, 60(sp)                      # 4-byte Folded Spill
	sw	s0, 56(sp)                      # 4-byte Folded Spill
	sw	s1, 52(sp)                      # 4-byte Folded Spill
	sw	s2, 48(sp)                      # 4-byte Folded Spill
	sw	s3, 44(sp)                      # 4-byte Folded Spill
	sw	s4, 40(sp)                      # 4-byte Folded Spill
	sw	s5, 36(sp)                      # 4-byte Folded Spill
	sw	s6, 32(sp)                      # 4-byte Folded Spill
	sw	s7, 28(sp)                      # 4-byte Folded Spill
	mv	s7, a5
	mv	s3, a1
	lw	a1, 0(a0)
	li	a5, 32
	beq	a1, a5, .Lgcm_small_BB103_3
# %bb.2:                                # %join.3.i.i
	li	a5, 16
	bne	a1, a5, .Lgcm_small_BB103_14
.Lgcm_small_BB103_3:                              # %join.6.i.i
	seqz	a1, a4
	slli	a1, a1, 12
	add	a1, a1, a4
	seqz	a4, a6
	slli	a4, a4, 12
	add	s6, a6, a4
	bgeu	s6, a1, .Lgcm_small_BB103_7
# %bb.4:                                # %join.6.i.i
	li	a4, 1
	mv	s2, a3
	beqz	a4, .Lgcm_small_BB103_8
.Lgcm_small_BB103_5:                              # %apart.2.i.i.i.i.i.i.i.i
	mv	s4, a0
	mv	a0, s6
	mv	s5, a2
	mv	a2, s7
	call	memmove
	mv	a0, s4
	mv	a2, s5
	j	.Lgcm_small_BB103_10
.Lgcm_small_BB103_6:
	li	a0, 10
	li	a1, 0
	li	a2, 0
	li	a3, 0
	li	a4, 0
	li	a5, 0
	li	a6, 0
	li	a7, 0
	li	t0, 0
	li	t1, 0
	li	t2, 0
	li	t3, 0
	li	t4, 0
	li	t5, 0
	li	t6, 0
	ret
.Lgcm_small_BB103_7:
	sub	a4, s6, a1
	sltu	a4, a4, s7
	xori	a4, a4, 1
	mv	s2, a3
	bnez	a4, .Lgcm_small_BB103_5
.Lgcm_small_BB103_8:                              # %join.7.i.i.i.i.i.i.i.i.preheader
	li	a3, 0
	li	s0, 0
.Lgcm_small_BB103_9:                              # %join.7.i.i.i.i.i.i.i.i
                                        # =>This Inner Loop Header: Depth=1
	add	a6, s6, a3
	add	s1, a1, a3
	addi	a3, a3, 1
	lbu	s1, 0(s1)
	seqz	a4, a3
	add	s0, s0, a4
	sltu	a4, a3, s7
	seqz	a5, s0
	and	a4, a4, a5
	sb	s1, 0(a6)
	bnez	a4, .Lgcm_small_BB103_9
.Lgcm_small_BB103_10:                             # %"core::slice::edits::slice+T::copy_from_slice::<i8,20'core::clone::U8Clone{}>.exit.i.i"
	lw	a1, 0(a0)
	li	a3, 32
	beq	a1, a3, .Lgcm_small_BB103_12
# %bb.11:                               # %"core::slice::edits::slice+T::copy_from_slice::<i8,20'core::clone::U8Clone{}>.exit.i.i"
	li	a3, 16
	bne	a1, a3, .Lgcm_small_BB103_16
.Lgcm_small_BB103_12:                             # %join.3.i.i.i
	seqz	a3, a2
	lw	t5, 64(sp)
	addi	a0, a0, 4
	srli	a5, a1, 31
	slli	s1, a1, 1
	slli	a3, a3, 12
	add	a4, a2, a3
	addi	a2, s1, 56
	sltu	a3, a2, s1
	add	a3, a3, a5
	sw	a0, 8(sp)
	sw	zero, 12(sp)
	sw	a2, 16(sp)
	sw	a3, 20(sp)
	addi	a0, sp, 8
	li	a2, 0
	mv	a3, s3
	mv	a5, s2
	li	a6, 0
	mv	a7, s6
	mv	t3, s7
	li	t4, 0
	call	gcm_small.gcm_siv.course.open_in
	beqz	a0, .Lgcm_small_BB103_15
# %bb.13:                               # %"gcm_c::siv::fotsgure_gcm_siv_open.exit.i.i"
	li	a0, 0
	j	.Lgcm_small_BB103_20
.Lgcm_small_BB103_14:
	li	a0, 2
	j	.Lgcm_small_BB103_20
.Lgcm_small_BB103_15:
	li	a0, 6
	bnez	s7, .Lgcm_small_BB103_17
	j	.Lgcm_small_BB103_20
.Lgcm_small_BB103_16:
	li	a0, 2
	beqz	s7, .Lgcm_small_BB103_20
.Lgcm_small_BB103_17:                             # %loop.5.preheader.i.i.i
	addi	s2, s7, -1
	snez	a1, s7
	addi	a1, a1, -1
	or	a1, s2, a1
	beqz	a1, .Lgcm_small_BB103_19
# %bb.18:                               # %join.8.preheader.i.i.i
	mv	s0, a0
	mv	a0, s6
	li	a1, 0
	mv	a2, s2
	call	memset
	mv	a0, s0
.Lgcm_small_BB103_19:                             # %after.4.i.i.i
	add	s2, s2, s6
	sb	zero, 0(s2)
.Lgcm_small_BB103_20:
	lw	ra, 60(sp)                      # 4-byte Folded Reload
	lw	s0, 56(sp)                      # 4-byte Folded Reload
	lw	s1, 52(sp)                      # 4-byte Folded Reload
	lw	s2, 48(sp)                      # 4-byte Folded Reload
	lw	s3, 44(sp)                      # 4-byte Folded Reload
	lw	s4, 40(sp)                      # 4-byte Folded Reload
	lw	s5, 36(sp)                      # 4-byte Folded Reload
	lw	s6, 32(sp)                      # 4-byte Folded Reload
	lw	s7, 28(sp)                      # 4-byte Folded Reload
	addi	sp, sp, 64
	li	a1, 0
	li	a2, 0
	li	a3, 0
	li	a4, 0
	li	a5, 0
	li	a6, 0
	li	a7, 0
	li	t0, 0
	li	t1, 0
	li	t2, 0
	li	t3, 0
	li	t4, 0
	li	t5, 0
	li	t6, 0
	ret
.Lgcm_small_func_end103:
	.size	gcm_small.fotsgure_gcm_siv_open_to, .Lgcm_small_func_end103-gcm_small.fotsgure_gcm_siv_open_to
                                        # -- End function
	.section	.text.gcm_small.fotsgure_gcm_siv_wipe,"ax",@progbits
	export_gcm_small	fotsgure_gcm_siv_wipe
	.p2align	1
	.type	gcm_small.fotsgure_gcm_siv_wipe,@function
gcm_small.fotsgure_gcm_siv_wipe:                  # @gcm_small.fotsgure_gcm_siv_wipe
# %bb.0:
	addi	sp, sp, -16
	sw	ra, 12(sp)                      # 4-byte Folded Spill
	sw	s0, 8(sp)                       # 4-byte Folded Spill
	addi	s0, a0, 4
	li	a2, 484
	li	a1, 0
	call	memset
	mv	a0, s0
	lw	ra, 12(sp)                      # 4-byte Folded Reload
	lw	s0, 8(sp)                       # 4-byte Folded Reload
	addi	sp, sp, 16
	tail	gcm_small.aes_cipher.zeroize.elements.zeroize_elements.1
.Lgcm_small_func_end104:
	.size	gcm_small.fotsgure_gcm_siv_wipe, .Lgcm_small_func_end104-gcm_small.fotsgure_gcm_siv_wipe
                                        # -- End function
	.type	.Lgcm_small_static.0,@object              # @static.0
	.section	.rodata..Lgcm_small_static.0,"a",@progbits
.Lgcm_small_static.0:
	.ascii	"\001\002\004\b\020 @\200\0336"
	.size	.Lgcm_small_static.0, 10

	.ident	"rattle logic=dac8208d650f15bf3e2dc313a14fa4c783a3acf887bdfab66e1714b038d9e11b"
	.section	".note.GNU-stack","",@progbits

	.section	.note.fotsgure,"",%note
	.p2align	2, 0x0
	.long	9, 122, 1
	.asciz	"Fotsgure"
	.p2align	2, 0x0
	.asciz	"fotsgure_gcm 0.4.0, riscv32/gcm_small.s, sources SHA-256 7839658995c36f00d13f13ab6f42fa9360d959953d441bf3a57996a9c2aa56dc"
	.p2align	2, 0x0
