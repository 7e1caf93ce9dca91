# Made by tools/dist from the proved crate gcm_c; BUILD says from what. Don't edit it.
/* A Rust crate defines in_rust; for x86-64, a static library of both builds defines chosen, and choose_*.c calls these names. */
	.macro	export_gcm name
	.ifdef	in_rust
	.globl	gcm.\name
	.hidden	gcm.\name
	.else
	.globl	\name
	.set	\name, gcm.\name
	.endif
	.endm
	.file	"rattle"
	.section	.text.gcm.aes_cipher.zeroize.elements.zeroize_elements.1,"ax",@progbits
	.p2align	1                               # -- Begin function aes_cipher::zeroize::elements::zeroize_elements::<#54a2bb646728b9ee>
	.type	gcm.aes_cipher.zeroize.elements.zeroize_elements.1,@function
gcm.aes_cipher.zeroize.elements.zeroize_elements.1: # @gcm.aes_cipher.zeroize.elements.zeroize_elements.1
# %bb.0:                                # %start
	addi	sp, sp, -32
	sw	ra, 28(sp)                      # 4-byte Folded Spill
	sw	s0, 24(sp)                      # 4-byte Folded Spill
	sw	s1, 20(sp)                      # 4-byte Folded Spill
	sw	zero, 8(sp)
	sw	zero, 12(sp)
	#APP
	#NO_APP
	lw	a1, 8(sp)
	lw	a2, 12(sp)
	#APP
	#NO_APP
	seqz	a2, a2
	sltiu	a3, a1, 120
	and	a2, a2, a3
	beqz	a2, .Lgcm_BB0_2
# %bb.1:                                # %then.1.i
	slli	a1, a1, 2
	add	s0, a0, a1
	lw	s1, 0(s0)
	li	a2, 480
	li	a1, 0
	call	memset
	lw	a0, 0(s0)
	and	a0, a0, s1
	j	.Lgcm_BB0_3
.Lgcm_BB0_2:                                # %"aes_cipher::zeroize::observe::<#94bc162b3f62047f>.exit12"
	li	a2, 480
	li	a1, 0
	call	memset
	li	a0, 0
.Lgcm_BB0_3:                                # %"aes_cipher::zeroize::observe::<#94bc162b3f62047f>.exit"
	zext.b	a0, a0
	#APP
	#NO_APP
	lw	zero, 12(sp)
	lw	zero, 8(sp)
	sw	zero, 12(sp)
	sw	a0, 8(sp)
	#APP
	#NO_APP
	lw	ra, 28(sp)                      # 4-byte Folded Reload
	lw	s0, 24(sp)                      # 4-byte Folded Reload
	lw	s1, 20(sp)                      # 4-byte Folded Reload
	addi	sp, sp, 32
	li	a1, 0
	li	a2, 0
	li	a3, 0
	li	a4, 0
	li	a5, 0
	li	a6, 0
	li	a7, 0
	li	t0, 0
	li	t1, 0
	li	t2, 0
	li	t3, 0
	li	t4, 0
	li	t5, 0
	li	t6, 0
	ret
.Lgcm_func_end0:
	.size	gcm.aes_cipher.zeroize.elements.zeroize_elements.1, .Lgcm_func_end0-gcm.aes_cipher.zeroize.elements.zeroize_elements.1
                                        # -- End function
	.section	.text.gcm.aes_cipher.zeroize.elements.zeroize_elements.2,"ax",@progbits
	.p2align	1                               # -- Begin function aes_cipher::zeroize::elements::zeroize_elements::<#d3d1c9d97fea966e>
	.type	gcm.aes_cipher.zeroize.elements.zeroize_elements.2,@function
gcm.aes_cipher.zeroize.elements.zeroize_elements.2: # @gcm.aes_cipher.zeroize.elements.zeroize_elements.2
# %bb.0:                                # %start
	addi	sp, sp, -16
	sw	ra, 12(sp)                      # 4-byte Folded Spill
	sw	zero, 0(sp)
	sw	zero, 4(sp)
	#APP
	#NO_APP
	lw	zero, 4(sp)
	lw	zero, 0(sp)
	#APP
	#NO_APP
	li	a2, 16
	li	a1, 0
	call	memset
	#APP
	#NO_APP
	lw	zero, 4(sp)
	lw	zero, 0(sp)
	sw	zero, 4(sp)
	sw	zero, 0(sp)
	#APP
	#NO_APP
	lw	ra, 12(sp)                      # 4-byte Folded Reload
	addi	sp, sp, 16
	li	a1, 0
	li	a2, 0
	li	a3, 0
	li	a4, 0
	li	a5, 0
	li	a6, 0
	li	a7, 0
	li	t0, 0
	li	t1, 0
	li	t2, 0
	li	t3, 0
	li	t4, 0
	li	t5, 0
	li	t6, 0
	ret
.Lgcm_func_end1:
	.size	gcm.aes_cipher.zeroize.elements.zeroize_elements.2, .Lgcm_func_end1-gcm.aes_cipher.zeroize.elements.zeroize_elements.2
                                        # -- End function
	.section	.text.gcm.gcm.message_state.MessageZeroize.zeroize,"ax",@progbits
	.p2align	1                               # -- Begin function gcm::message_state::MessageZeroize::zeroize
	.type	gcm.gcm.message_state.MessageZeroize.zeroize,@function
gcm.gcm.message_state.MessageZeroize.zeroize: # @gcm.gcm.message_state.MessageZeroize.zeroize
# %bb.0:                                # %start
	addi	sp, sp, -16
	sw	ra, 12(sp)                      # 4-byte Folded Spill
	sw	s0, 8(sp)                       # 4-byte Folded Spill
	mv	s0, a0
	addi	a0, a0, 32
	sw	zero, 16(s0)
	sw	zero, 20(s0)
	sw	zero, 24(s0)
	sw	zero, 28(s0)
	sw	zero, 0(s0)
	sw	zero, 4(s0)
	sw	zero, 8(s0)
	sw	zero, 12(s0)
	call	gcm.aes_cipher.zeroize.elements.zeroize_elements.3
	addi	a0, s0, 48
	call	gcm.aes_cipher.zeroize.elements.zeroize_elements.3
	addi	a0, s0, 64
	lw	ra, 12(sp)                      # 4-byte Folded Reload
	lw	s0, 8(sp)                       # 4-byte Folded Reload
	addi	sp, sp, 16
	tail	gcm.aes_cipher.zeroize.elements.zeroize_elements.3
.Lgcm_func_end2:
	.size	gcm.gcm.message_state.MessageZeroize.zeroize, .Lgcm_func_end2-gcm.gcm.message_state.MessageZeroize.zeroize
                                        # -- End function
	.section	.text.gcm.aes_cipher.zeroize.elements.zeroize_elements.3,"ax",@progbits
	.p2align	1                               # -- Begin function aes_cipher::zeroize::elements::zeroize_elements::<#3b2097f0eef5a37b>
	.type	gcm.aes_cipher.zeroize.elements.zeroize_elements.3,@function
gcm.aes_cipher.zeroize.elements.zeroize_elements.3: # @gcm.aes_cipher.zeroize.elements.zeroize_elements.3
# %bb.0:                                # %start
	addi	sp, sp, -16
	sw	ra, 12(sp)                      # 4-byte Folded Spill
	sw	zero, 0(sp)
	sw	zero, 4(sp)
	#APP
	#NO_APP
	lw	zero, 4(sp)
	lw	zero, 0(sp)
	#APP
	#NO_APP
	li	a2, 16
	li	a1, 0
	call	memset
	#APP
	#NO_APP
	lw	zero, 4(sp)
	lw	zero, 0(sp)
	sw	zero, 4(sp)
	sw	zero, 0(sp)
	#APP
	#NO_APP
	lw	ra, 12(sp)                      # 4-byte Folded Reload
	addi	sp, sp, 16
	li	a1, 0
	li	a2, 0
	li	a3, 0
	li	a4, 0
	li	a5, 0
	li	a6, 0
	li	a7, 0
	li	t0, 0
	li	t1, 0
	li	t2, 0
	li	t3, 0
	li	t4, 0
	li	t5, 0
	li	t6, 0
	ret
.Lgcm_func_end3:
	.size	gcm.aes_cipher.zeroize.elements.zeroize_elements.3, .Lgcm_func_end3-gcm.aes_cipher.zeroize.elements.zeroize_elements.3
                                        # -- End function
	.section	.text.gcm.aes_narrow.word_room.expand_words,"ax",@progbits
	.p2align	1                               # -- Begin function aes_narrow::word_room::expand_words::<#6af90bfc14753d47>
	.type	gcm.aes_narrow.word_room.expand_words,@function
gcm.aes_narrow.word_room.expand_words: # @gcm.aes_narrow.word_room.expand_words
# %bb.0:                                # %start
	addi	sp, sp, -272
	sw	ra, 268(sp)                     # 4-byte Folded Spill
	sw	s0, 264(sp)                     # 4-byte Folded Spill
	sw	s1, 260(sp)                     # 4-byte Folded Spill
	sw	s2, 256(sp)                     # 4-byte Folded Spill
	sw	s3, 252(sp)                     # 4-byte Folded Spill
	sw	s4, 248(sp)                     # 4-byte Folded Spill
	sw	s5, 244(sp)                     # 4-byte Folded Spill
	sw	s6, 240(sp)                     # 4-byte Folded Spill
	sw	s7, 236(sp)                     # 4-byte Folded Spill
	sw	s8, 232(sp)                     # 4-byte Folded Spill
	sw	s9, 228(sp)                     # 4-byte Folded Spill
	sw	s10, 224(sp)                    # 4-byte Folded Spill
	sw	s11, 220(sp)                    # 4-byte Folded Spill
	sw	a3, 16(sp)                      # 4-byte Folded Spill
	li	a3, 24
	mv	s8, a0
	sw	a0, 184(sp)                     # 4-byte Folded Spill
	sw	a2, 12(sp)                      # 4-byte Folded Spill
	beq	a2, a3, .Lgcm_BB4_4
# %bb.1:                                # %start
	li	a0, 16
	beq	a2, a0, .Lgcm_BB4_2
	j	.Lgcm_BB4_6
.Lgcm_BB4_2:                                # %then.1.i160
	lui	a0, 1036240
	lui	a2, 986895
	lui	a3, 12336
	addi	a0, a0, -772
	sw	a0, 136(sp)                     # 4-byte Folded Spill
	addi	a0, a2, 240
	sw	a0, 132(sp)                     # 4-byte Folded Spill
	addi	a0, a3, 771
	sw	a0, 128(sp)                     # 4-byte Folded Spill
	addi	a0, sp, 188
	call	gcm.aes_planes.soft.word.word32.U32Word.in_every_slot
	li	a0, 0
	li	a3, 0
	lw	t0, 188(sp)
	lw	a6, 192(sp)
	lw	s2, 196(sp)
	lw	t2, 200(sp)
	lw	a2, 204(sp)
	lw	a4, 208(sp)
	lw	s5, 212(sp)
	lw	s7, 216(sp)
	sw	t0, 0(s8)
	sw	a6, 4(s8)
	sw	s2, 8(s8)
	sw	t2, 12(s8)
	sw	a2, 16(s8)
	sw	a4, 20(s8)
	sw	s5, 24(s8)
	sw	s7, 28(s8)
.Lgcm_BB4_3:                                # %join.5.i.i161
                                        # =>This Inner Loop Header: Depth=1
	xor	t3, s5, a4
	xor	a5, s7, a2
	xor	a7, s7, a6
	xor	s0, a2, s2
	xor	t1, s7, s2
	sltiu	a1, a0, 9
	seqz	a4, a3
	mv	s1, a0
	xor	a0, t3, t0
	sw	s0, 148(sp)                     # 4-byte Folded Spill
	xor	t5, a7, s0
	and	a1, a1, a4
	sw	a1, 180(sp)                     # 4-byte Folded Spill
	xor	s9, a0, a2
	xor	a4, t5, t2
	xor	s8, a0, s7
	xor	t6, a0, a6
	addi	a2, s1, 1
	mv	t4, s1
	sw	s1, 168(sp)                     # 4-byte Folded Spill
	sw	a2, 176(sp)                     # 4-byte Folded Spill
	and	t2, s9, t0
	xor	a1, a4, s2
	xor	s2, a4, s5
	sw	t1, 160(sp)                     # 4-byte Folded Spill
	xor	s5, t6, t1
	and	s3, t6, a0
	seqz	a4, a2
	sw	a5, 164(sp)                     # 4-byte Folded Spill
	xor	a2, s2, a5
	xor	s10, a1, t0
	and	s4, a1, t5
	xor	a6, a1, t3
	xor	s11, t2, t1
	add	a3, a3, a4
	sw	a3, 172(sp)                     # 4-byte Folded Spill
	and	ra, a2, a5
	xor	a4, a2, t3
	xor	a3, a2, a6
	sw	a3, 152(sp)                     # 4-byte Folded Spill
	and	t3, a6, t1
	xor	s11, s11, a6
	xor	s2, s2, s4
	xor	s4, s11, s4
	and	a5, s10, s5
	xor	s11, s2, a5
	and	a5, a3, s0
	xor	t3, t3, ra
	xor	ra, a5, ra
	mv	a3, a7
	and	a5, a4, a7
	xor	s0, a4, s3
	xor	s0, s0, a5
	xor	a5, a5, s7
	xor	s2, a2, t0
	and	s1, s2, s8
	xor	s1, s1, a4
	xor	a5, a5, s1
.Lgcm_pcrel_hi0:
	auipc	s1, %pcrel_hi(.Lgcm_static.0)
	addi	s1, s1, %pcrel_lo(.Lgcm_pcrel_hi0)
	add	s1, s1, t4
	mv	t2, t0
	lbu	t0, 0(s1)
	xor	a7, s11, ra
	xor	s0, s0, a3
	mv	s11, a3
	xor	s0, s0, ra
	xor	t4, s4, t3
	xor	a5, a5, t3
	andi	t3, t0, 64
	slli	s3, t3, 8
	slli	t3, t3, 9
	or	a3, t3, s3
	sw	a3, 156(sp)                     # 4-byte Folded Spill
	slli	s1, t0, 31
	srli	s1, s1, 25
	slli	s3, s1, 8
	slli	s1, s1, 9
	or	ra, s1, s3
	slli	s1, t0, 5
	andi	s1, s1, 64
	slli	s3, s1, 8
	slli	s1, s1, 9
	or	a3, s1, s3
	sw	a3, 140(sp)                     # 4-byte Folded Spill
	slli	s1, t0, 4
	andi	s1, s1, 64
	slli	s3, s1, 8
	slli	s1, s1, 9
	or	t1, s1, s3
	slli	s1, t0, 3
	andi	s1, s1, 64
	slli	a3, s1, 8
	slli	s1, s1, 9
	or	s3, s1, a3
	slli	a3, t0, 2
	andi	a3, a3, 64
	slli	s1, a3, 8
	slli	a3, a3, 9
	or	a3, a3, s1
	sw	a3, 144(sp)                     # 4-byte Folded Spill
	slli	a3, t0, 1
	andi	a3, a3, 64
	slli	s1, a3, 8
	slli	a3, a3, 9
	or	s6, a3, s1
	srli	s1, t0, 1
	andi	s1, s1, 64
	slli	t0, s1, 8
	slli	s1, s1, 9
	or	s4, s1, t0
	and	s1, s0, a7
	xor	t0, a5, s0
	xor	t3, s1, t4
	and	t0, t3, t0
	xor	a7, a7, t4
	xor	t3, s1, a5
	and	s7, t3, a7
	xor	t4, s7, t4
	xor	s7, t0, s1
	xor	s1, t0, a5
	and	a5, s7, a5
	xor	t0, a5, t3
	xor	a5, a5, s0
	and	s0, s1, s9
	xor	t1, s0, t1
	and	a3, t0, t4
	xor	a3, a3, a7
	and	s7, s1, t2
	and	a1, a1, a5
	and	a7, a5, t5
	xor	a5, a5, s1
	xor	s1, t4, s1
	and	t0, t4, s8
	and	t3, t4, s2
	and	s2, a5, s10
	and	t5, a5, s5
	xor	a5, a5, a3
	xor	s0, a3, t4
	and	s5, a3, a0
	and	t4, a3, t6
	xor	a3, a1, s7
	xor	s2, s2, a1
	and	a4, a4, s0
	and	s0, s0, s11
	and	t6, s1, a2
	lw	a2, 164(sp)                     # 4-byte Folded Reload
	and	a2, a2, s1
	and	s7, a5, a6
	xor	s1, s1, a5
	lw	a0, 160(sp)                     # 4-byte Folded Reload
	and	a5, a5, a0
	lw	a0, 148(sp)                     # 4-byte Folded Reload
	and	a6, s1, a0
	lw	a0, 152(sp)                     # 4-byte Folded Reload
	and	s1, s1, a0
	xor	a0, a3, t3
	xor	a1, a4, s5
	xor	a0, a0, a4
	xor	a3, s7, a3
	xor	a4, s6, a5
	xor	s1, s1, a1
	xor	t3, s2, a1
	xor	a5, ra, s0
	xor	a3, a3, s0
	xor	s0, a0, t4
	xor	t2, a0, s3
	xor	a0, a6, a2
	xor	a2, a2, a4
	xor	a4, a0, t5
	xor	a0, a0, s0
	xor	a3, a3, s1
	xor	s1, s1, t6
	xor	a5, a5, a0
	lw	a1, 140(sp)                     # 4-byte Folded Reload
	xor	t4, a0, a1
	xor	a1, a4, a7
	xor	a4, t1, a4
	xor	a7, a2, s1
	lw	a0, 156(sp)                     # 4-byte Folded Reload
	xor	a6, s1, a0
	xor	s1, s1, s4
	lw	a0, 168(sp)                     # 4-byte Folded Reload
	slli	a0, a0, 5
	lw	a2, 184(sp)                     # 4-byte Folded Reload
	add	a0, a0, a2
	xor	s0, a3, t0
	xor	a2, t3, a1
	xor	a3, t4, a3
	xor	a4, a4, s0
	xor	s0, a7, s0
	xor	a1, a1, s1
	srli	a7, a5, 14
	slli	t1, a5, 18
	xor	s1, t2, a2
	lw	a5, 144(sp)                     # 4-byte Folded Reload
	xor	t0, a2, a5
	xor	a5, a6, a2
	or	a6, t1, a7
	srli	a7, a3, 14
	slli	a3, a3, 18
	srli	t1, a4, 14
	slli	a4, a4, 18
	slli	t2, a2, 18
	srli	t3, s0, 14
	slli	s0, s0, 18
	or	a7, a3, a7
	srli	a3, a1, 14
	slli	a1, a1, 18
	or	t1, a4, t1
	srli	a4, s1, 14
	slli	s1, s1, 18
	srli	a2, t0, 14
	or	t0, s0, t3
	srli	s0, a5, 14
	slli	a5, a5, 18
	or	s3, a1, a3
	or	t4, s1, a4
	or	t3, t2, a2
	or	t2, a5, s0
	lw	a3, 0(a0)
	lw	t5, 4(a0)
	lw	s0, 8(a0)
	lw	s2, 12(a0)
	not	a2, a6
	lw	a1, 128(sp)                     # 4-byte Folded Reload
	and	a2, a2, a1
	xor	t6, a2, a3
	and	a3, t1, a1
	xor	t1, a3, s0
	lw	s0, 28(a0)
	not	a4, a7
	and	a5, s3, a1
	and	a4, a4, a1
	and	s1, t4, a1
	xor	a5, a5, s0
	xor	t4, a4, t5
	xor	a6, s1, s2
	lw	s1, 16(a0)
	lw	s0, 20(a0)
	lw	a2, 24(a0)
	and	a3, t3, a1
	xor	t3, a3, s1
	not	s1, t0
	and	s1, s1, a1
	xor	t0, s1, s0
	not	s1, t2
	and	s1, s1, a1
	xor	a7, s1, a2
	slli	a2, t6, 2
	lw	a4, 136(sp)                     # 4-byte Folded Reload
	and	a2, a2, a4
	xor	t2, a2, t6
	slli	s1, t1, 2
	and	s1, s1, a4
	xor	s1, s1, t1
	slli	a1, a5, 2
	and	a1, a1, a4
	xor	t1, a1, a5
	slli	a5, t4, 2
	and	a5, a5, a4
	xor	t4, a5, t4
	slli	a5, a6, 2
	and	a5, a5, a4
	xor	a5, a5, a6
	slli	a3, t3, 2
	and	a3, a3, a4
	xor	a3, a3, t3
	slli	s0, t0, 2
	and	s0, s0, a4
	xor	s0, s0, t0
	slli	a1, a7, 2
	and	a1, a1, a4
	xor	a7, a1, a7
	slli	a2, t2, 4
	lw	a1, 132(sp)                     # 4-byte Folded Reload
	and	a2, a2, a1
	xor	t0, a2, t2
	slli	a2, s1, 4
	and	a2, a2, a1
	xor	s2, a2, s1
	slli	s1, t1, 4
	and	s1, s1, a1
	xor	s7, s1, t1
	slli	a4, t4, 4
	and	a4, a4, a1
	xor	a6, a4, t4
	slli	a4, a5, 4
	and	a4, a4, a1
	xor	t2, a4, a5
	slli	a4, a3, 4
	and	s1, a4, a1
	xor	a2, s1, a3
	slli	a3, s0, 4
	and	a4, a3, a1
	xor	a4, a4, s0
	slli	a3, a7, 4
	and	a3, a3, a1
	xor	s5, a3, a7
	sw	t0, 32(a0)
	sw	a6, 36(a0)
	sw	s2, 40(a0)
	sw	t2, 44(a0)
	sw	a2, 48(a0)
	sw	a4, 52(a0)
	sw	s5, 56(a0)
	sw	s7, 60(a0)
	lw	a0, 176(sp)                     # 4-byte Folded Reload
	lw	a3, 172(sp)                     # 4-byte Folded Reload
	lw	a1, 180(sp)                     # 4-byte Folded Reload
	bnez	a1, .Lgcm_BB4_3
	j	.Lgcm_BB4_9
.Lgcm_BB4_4:                                # %then.4.i157
	lui	a0, 1036240
	lui	a2, 986895
	lui	a3, 61681
	lui	a4, 12336
	addi	a0, a0, -772
	sw	a0, 32(sp)                      # 4-byte Folded Spill
	addi	a0, a2, 240
	sw	a0, 28(sp)                      # 4-byte Folded Spill
	addi	a0, a3, -241
	sw	a0, 24(sp)                      # 4-byte Folded Spill
	addi	a0, a4, 771
	sw	a0, 20(sp)                      # 4-byte Folded Spill
	addi	a0, sp, 188
	mv	s0, a1
	call	gcm.aes_planes.soft.word.word32.U32Word.in_every_slot
	lw	s5, 188(sp)
	lw	s2, 192(sp)
	lw	s6, 196(sp)
	lw	s10, 200(sp)
	lw	s4, 204(sp)
	lw	s11, 208(sp)
	lw	s3, 212(sp)
	lw	s9, 216(sp)
	addi	a1, s0, 8
	addi	a0, sp, 188
	call	gcm.aes_planes.soft.word.word32.U32Word.in_every_slot
	li	a1, 0
	li	t3, 0
	lw	t0, 188(sp)
	lw	t1, 192(sp)
	lw	a4, 196(sp)
	lw	t4, 200(sp)
	lw	s1, 204(sp)
	lw	a3, 208(sp)
	lw	a0, 212(sp)
	lw	a2, 216(sp)
	sw	s5, 0(s8)
	mv	s0, s2
	sw	s2, 4(s8)
	sw	s6, 8(s8)
	sw	s10, 12(s8)
	sw	s4, 180(sp)                     # 4-byte Folded Spill
	sw	s4, 16(s8)
	sw	s11, 20(s8)
	sw	s3, 176(sp)                     # 4-byte Folded Spill
	sw	s3, 24(s8)
	sw	s9, 28(s8)
.Lgcm_BB4_5:                                # %join.5.i164.i
                                        # =>This Inner Loop Header: Depth=1
	sw	s0, 124(sp)                     # 4-byte Folded Spill
	sw	s5, 132(sp)                     # 4-byte Folded Spill
	sw	t1, 100(sp)                     # 4-byte Folded Spill
	sw	s10, 136(sp)                    # 4-byte Folded Spill
	sw	t4, 112(sp)                     # 4-byte Folded Spill
	sw	s9, 144(sp)                     # 4-byte Folded Spill
	sw	s6, 148(sp)                     # 4-byte Folded Spill
	sw	a4, 140(sp)                     # 4-byte Folded Spill
	sw	s11, 152(sp)                    # 4-byte Folded Spill
	sw	a0, 116(sp)                     # 4-byte Folded Spill
	sw	a3, 120(sp)                     # 4-byte Folded Spill
	slli	t2, a1, 5
	slli	a6, a1, 6
	slli	s3, a1, 1
.Lgcm_pcrel_hi1:
	auipc	a7, %pcrel_hi(.Lgcm_static.0)
	xor	t5, a0, a3
	xor	t6, a2, t1
	xor	s0, s1, a4
	xor	s2, a2, a4
	mv	ra, a2
	sltiu	a2, a1, 3
	addi	a1, a1, 1
	sw	a1, 168(sp)                     # 4-byte Folded Spill
	seqz	a5, t3
	add	a6, a6, t2
	sw	a6, 156(sp)                     # 4-byte Folded Spill
	addi	a3, a7, %pcrel_lo(.Lgcm_pcrel_hi1)
	sw	s0, 88(sp)                      # 4-byte Folded Spill
	xor	t2, t6, s0
	and	a2, a2, a5
	sw	a2, 172(sp)                     # 4-byte Folded Spill
	seqz	a5, a1
	add	s3, s3, a3
	sw	s3, 160(sp)                     # 4-byte Folded Spill
	xor	a2, t2, t4
	add	a5, a5, t3
	sw	a5, 164(sp)                     # 4-byte Folded Spill
	xor	a6, a2, a4
	xor	a0, a0, a2
	xor	a4, t5, t0
	xor	s6, a4, s1
	sw	s1, 128(sp)                     # 4-byte Folded Spill
	and	a1, s6, t0
	mv	a2, s2
	sw	s2, 92(sp)                      # 4-byte Folded Spill
	xor	a3, a1, s2
	xor	s11, a6, t5
	xor	a3, a3, s11
	and	a5, a6, t2
	xor	a7, a3, a5
	xor	a3, a0, a5
	xor	s9, a4, t1
	xor	s7, s9, s2
	xor	s2, a6, t0
	and	a5, s2, s7
	xor	t3, a3, a5
	xor	s8, ra, s1
	xor	s1, a0, s8
	and	a5, s1, s8
	and	a0, s11, a2
	xor	t4, a0, a5
	xor	s10, s1, s11
	and	a3, s10, s0
	xor	a3, a3, a5
	xor	t5, s1, t5
	and	a5, s9, a4
	xor	a5, t5, a5
	sw	t6, 76(sp)                      # 4-byte Folded Spill
	and	a0, t5, t6
	xor	a5, a5, a0
	mv	a1, ra
	sw	ra, 108(sp)                     # 4-byte Folded Spill
	xor	t1, a4, ra
	mv	a2, t0
	xor	t0, s1, t0
	mv	ra, a2
	and	s0, t0, t1
	xor	s0, t5, s0
	xor	a0, a0, a1
	xor	a0, a0, s0
	xor	s0, t3, a3
	xor	a5, a5, t6
	lbu	s5, 0(s3)
	xor	a2, a5, a3
	xor	a5, a7, t4
	xor	a0, a0, t4
	andi	a7, s5, 64
	slli	t3, a7, 8
	slli	a7, a7, 9
	or	a1, a7, t3
	sw	a1, 96(sp)                      # 4-byte Folded Spill
	slli	a1, s5, 31
	srli	a1, a1, 25
	slli	a7, a1, 8
	slli	a1, a1, 9
	or	a1, a1, a7
	sw	a1, 80(sp)                      # 4-byte Folded Spill
	slli	a1, s5, 5
	andi	a1, a1, 64
	slli	a7, a1, 8
	slli	a1, a1, 9
	or	a1, a1, a7
	sw	a1, 84(sp)                      # 4-byte Folded Spill
	slli	a1, s5, 4
	andi	a1, a1, 64
	slli	a7, a1, 8
	slli	a1, a1, 9
	or	t6, a1, a7
	slli	a1, s5, 3
	andi	a1, a1, 64
	slli	a7, a1, 8
	slli	a1, a1, 9
	or	t3, a1, a7
	slli	a1, s5, 2
	andi	a1, a1, 64
	slli	a7, a1, 8
	slli	a1, a1, 9
	or	a1, a1, a7
	sw	a1, 104(sp)                     # 4-byte Folded Spill
	slli	a1, s5, 1
	andi	a1, a1, 64
	slli	t4, a1, 8
	slli	a1, a1, 9
	or	s4, a1, t4
	srli	a1, s5, 1
	andi	a1, a1, 64
	slli	t4, a1, 8
	slli	a1, a1, 9
	or	t4, a1, t4
	and	a3, a2, s0
	xor	s5, a0, a2
	xor	a1, a3, a5
	and	a1, a1, s5
	xor	s5, s0, a5
	xor	s0, a3, a0
	and	a7, s0, s5
	xor	a5, a7, a5
	xor	a3, a3, a1
	xor	a1, a1, a0
	and	a0, a0, a3
	xor	s0, s0, a0
	xor	a0, a0, a2
	and	a2, a1, s6
	xor	t6, a2, t6
	and	s0, s0, a5
	xor	a3, s0, s5
	and	a7, a5, t1
	and	t0, a5, t0
	and	a2, a0, a6
	and	a6, a0, t2
	xor	a0, a0, a1
	and	s0, a0, s2
	and	t1, a0, s7
	xor	a0, a0, a3
	and	s2, a3, a4
	and	t2, a3, s9
	xor	a3, a3, a5
	xor	a5, a5, a1
	and	a1, a1, ra
	xor	a1, a1, a2
	xor	s3, s0, a2
	and	s0, a3, t5
	lw	a2, 76(sp)                      # 4-byte Folded Reload
	and	a3, a3, a2
	and	t5, a5, s1
	and	s1, a5, s8
	and	s6, a0, s11
	xor	a5, a5, a0
	lw	a2, 92(sp)                      # 4-byte Folded Reload
	and	a0, a0, a2
	lw	a2, 88(sp)                      # 4-byte Folded Reload
	and	s5, a5, a2
	and	a5, a5, s10
	xor	a2, a1, t0
	xor	a4, s0, s2
	xor	a2, a2, s0
	xor	a1, s6, a1
	xor	a0, s4, a0
	xor	a5, a5, a4
	xor	s2, s3, a4
	lw	s0, 80(sp)                      # 4-byte Folded Reload
	xor	s0, s0, a3
	xor	a1, a1, a3
	xor	a3, a2, t2
	xor	t0, a2, t3
	xor	a2, s5, s1
	xor	a0, a0, s1
	xor	s1, a2, t1
	xor	a2, a2, a3
	xor	a1, a1, a5
	xor	a3, a5, t5
	xor	s0, s0, a2
	lw	a4, 84(sp)                      # 4-byte Folded Reload
	xor	a2, a2, a4
	xor	a5, s1, a6
	xor	s1, t6, s1
	xor	a0, a0, a3
	lw	a4, 96(sp)                      # 4-byte Folded Reload
	xor	a6, a3, a4
	xor	a3, a3, t4
	xor	a4, a1, a7
	xor	a1, a1, a2
	xor	s1, s1, a4
	xor	a0, a0, a4
	xor	a2, s2, a5
	xor	a3, a3, a5
	srli	a4, s0, 14
	slli	s0, s0, 18
	or	a4, a4, s0
	srli	a5, a1, 14
	slli	a1, a1, 18
	or	s2, a1, a5
	srli	a5, s1, 14
	slli	s1, s1, 18
	or	a5, a5, s1
	srli	s1, a0, 14
	slli	a0, a0, 18
	or	a7, a0, s1
	srli	s1, a3, 14
	slli	a3, a3, 18
	or	a3, a3, s1
	xor	s1, t0, a2
	srli	s0, s1, 14
	slli	s1, s1, 18
	or	t0, s1, s0
	lw	s1, 104(sp)                     # 4-byte Folded Reload
	xor	s1, s1, a2
	xor	a0, a6, a2
	slli	a2, a2, 18
	srli	s1, s1, 14
	or	a6, a2, s1
	srli	s1, a0, 14
	slli	a0, a0, 18
	or	t2, a0, s1
	not	a4, a4
	lw	t3, 20(sp)                      # 4-byte Folded Reload
	and	a4, t3, a4
	lw	a0, 132(sp)                     # 4-byte Folded Reload
	xor	s6, a4, a0
	and	a5, a5, t3
	lw	a0, 148(sp)                     # 4-byte Folded Reload
	xor	t6, a5, a0
	srli	t5, ra, 4
	mv	s10, ra
	and	a3, a3, t3
	lw	a0, 144(sp)                     # 4-byte Folded Reload
	xor	t4, a3, a0
	lw	t1, 100(sp)                     # 4-byte Folded Reload
	srli	a1, t1, 4
	not	a0, s2
	and	a0, t3, a0
	lw	a2, 124(sp)                     # 4-byte Folded Reload
	xor	a0, a0, a2
	lw	s9, 140(sp)                     # 4-byte Folded Reload
	srli	s0, s9, 4
	and	a2, t0, t3
	lw	a3, 136(sp)                     # 4-byte Folded Reload
	xor	a2, a2, a3
	lw	t0, 112(sp)                     # 4-byte Folded Reload
	srli	a4, t0, 4
	and	a3, a6, t3
	lw	a5, 180(sp)                     # 4-byte Folded Reload
	xor	s2, a3, a5
	lw	s11, 128(sp)                    # 4-byte Folded Reload
	srli	a3, s11, 4
	sw	a3, 96(sp)                      # 4-byte Folded Spill
	lw	a5, 24(sp)                      # 4-byte Folded Reload
	and	t5, t5, a5
	and	s5, a1, a5
	and	s4, s0, a5
	and	ra, a4, a5
	lw	a6, 184(sp)                     # 4-byte Folded Reload
	lw	s3, 156(sp)                     # 4-byte Folded Reload
	add	s3, s3, a6
	not	a1, a7
	and	a1, t3, a1
	not	s0, t2
	lw	a3, 152(sp)                     # 4-byte Folded Reload
	xor	a1, a1, a3
	slli	a4, s6, 2
	and	s0, t3, s0
	lw	a3, 176(sp)                     # 4-byte Folded Reload
	xor	a6, s0, a3
	slli	a3, t6, 2
	lw	t2, 32(sp)                      # 4-byte Folded Reload
	and	a4, a4, t2
	xor	a7, a4, s6
	slli	a4, t4, 2
	and	a3, a3, t2
	xor	s1, a3, t6
	slli	a3, a0, 2
	and	a4, a4, t2
	xor	s6, a4, t4
	slli	a4, a2, 2
	and	a3, a3, t2
	xor	s0, a3, a0
	sw	s0, 176(sp)                     # 4-byte Folded Spill
	slli	a0, s2, 2
	and	a3, a4, t2
	xor	a3, a3, a2
	slli	a2, a1, 2
	and	a0, a0, t2
	and	a2, a2, t2
	xor	a4, a0, s2
	slli	a0, a6, 2
	xor	s8, a2, a1
	sw	a7, 180(sp)                     # 4-byte Folded Spill
	slli	a1, a7, 4
	and	a0, a0, t2
	xor	s7, a0, a6
	srli	a0, a7, 2
	and	a0, a0, t3
	xor	s2, a0, s10
	srli	a2, s1, 2
	mv	s10, s1
	sw	s1, 148(sp)                     # 4-byte Folded Spill
	lw	a6, 28(sp)                      # 4-byte Folded Reload
	and	a0, a1, a6
	sw	a0, 132(sp)                     # 4-byte Folded Spill
	and	a1, a2, t3
	xor	s9, a1, s9
	srli	a1, s0, 2
	and	a1, a1, t3
	xor	a7, a1, t1
	mv	a1, a3
	sw	a3, 156(sp)                     # 4-byte Folded Spill
	srli	a2, a3, 2
	and	a2, a2, t3
	xor	t6, a2, t0
	srli	a3, a4, 2
	sw	a4, 144(sp)                     # 4-byte Folded Spill
	and	a3, a3, t3
	xor	t4, a3, s11
	slli	s1, s0, 4
	and	a2, s1, a6
	sw	a2, 152(sp)                     # 4-byte Folded Spill
	or	s1, a0, t5
	or	s0, a2, s5
	sw	s1, 32(s3)
	slli	s1, s10, 4
	and	a0, s1, a6
	sw	a0, 128(sp)                     # 4-byte Folded Spill
	or	s1, a0, s4
	sw	s0, 36(s3)
	slli	s0, a1, 4
	and	a0, s0, a6
	sw	a0, 140(sp)                     # 4-byte Folded Spill
	or	s0, a0, ra
	sw	s1, 40(s3)
	sw	s8, 136(sp)                     # 4-byte Folded Spill
	srli	s1, s8, 2
	and	s1, s1, t3
	lw	a1, 120(sp)                     # 4-byte Folded Reload
	xor	t0, s1, a1
	srli	a1, a1, 4
	lw	a2, 96(sp)                      # 4-byte Folded Reload
	and	a2, a2, a5
	and	a1, a1, a5
	sw	s0, 44(s3)
	slli	s0, a4, 4
	and	a3, s0, a6
	sw	a3, 112(sp)                     # 4-byte Folded Spill
	slli	s0, s8, 4
	and	a0, s0, a6
	sw	a0, 120(sp)                     # 4-byte Folded Spill
	or	a2, a2, a3
	or	a1, a1, a0
	sw	a2, 48(s3)
	sw	s7, 124(sp)                     # 4-byte Folded Spill
	srli	a2, s7, 2
	and	a2, a2, t3
	lw	s0, 116(sp)                     # 4-byte Folded Reload
	xor	t5, a2, s0
	srli	s0, s0, 4
	and	s0, s0, a5
	slli	a3, s7, 4
	and	a3, a3, a6
	sw	a3, 116(sp)                     # 4-byte Folded Spill
	or	a3, a3, s0
	sw	a1, 52(s3)
	slli	a1, s2, 2
	and	a1, a1, t2
	xor	t1, a1, s2
	slli	a1, s9, 2
	and	a1, a1, t2
	xor	s2, a1, s9
	sw	s6, 104(sp)                     # 4-byte Folded Spill
	srli	a4, s6, 2
	and	a4, a4, t3
	lw	a0, 108(sp)                     # 4-byte Folded Reload
	xor	s0, a4, a0
	slli	a4, s0, 2
	and	a4, a4, t2
	xor	a4, a4, s0
	srli	s0, a0, 4
	and	s0, s0, a5
	slli	s1, s6, 4
	and	s1, s1, a6
	sw	s1, 88(sp)                      # 4-byte Folded Spill
	or	s1, s1, s0
	sw	a3, 56(s3)
	sw	s1, 60(s3)
	slli	a3, a7, 2
	and	a3, a3, t2
	xor	a5, a3, a7
	slli	a3, t6, 2
	and	a3, a3, t2
	xor	s0, a3, t6
	slli	a3, t4, 2
	and	a3, a3, t2
	xor	a2, a3, t4
	slli	a3, t0, 2
	and	a3, a3, t2
	xor	a0, a3, t0
	slli	a3, t5, 2
	and	a3, a3, t2
	xor	a1, a3, t5
	slli	a3, t1, 4
	and	a3, a3, a6
	xor	t1, a3, t1
	slli	a3, s2, 4
	and	a3, a3, a6
	xor	a7, a3, s2
	slli	a3, a4, 4
	and	a3, a3, a6
	xor	a4, a4, a3
	slli	a3, a5, 4
	and	a3, a3, a6
	xor	a5, a5, a3
	slli	a3, s0, 4
	and	a3, a3, a6
	xor	t5, a3, s0
	slli	a3, a2, 4
	and	a3, a3, a6
	xor	t0, a3, a2
	slli	a2, a0, 4
	and	a2, a2, a6
	xor	t6, a2, a0
	slli	a0, a1, 4
	and	a0, a0, a6
	xor	a2, a0, a1
	xor	s10, a4, a7
	xor	s5, a2, t6
	sw	t6, 100(sp)                     # 4-byte Folded Spill
	xor	s9, s5, t1
	xor	a0, s9, t0
	sw	a0, 64(sp)                      # 4-byte Folded Spill
	and	a1, a0, t1
	xor	a1, a1, s10
	xor	s7, a5, a4
	xor	a0, t0, a7
	xor	s6, s7, a0
	sw	a0, 68(sp)                      # 4-byte Folded Spill
	xor	a3, s6, t5
	sw	t5, 92(sp)                      # 4-byte Folded Spill
	xor	s4, a3, a7
	sw	a7, 80(sp)                      # 4-byte Folded Spill
	and	s1, s4, s6
	xor	s8, s4, s5
	xor	s0, s8, s1
	xor	a1, a1, s0
	sw	a1, 60(sp)                      # 4-byte Folded Spill
	xor	s2, a3, a2
	sw	a2, 108(sp)                     # 4-byte Folded Spill
	xor	t4, s2, s1
	sw	a5, 84(sp)                      # 4-byte Folded Spill
	xor	s11, s9, a5
	mv	s1, t1
	sw	t1, 40(sp)                      # 4-byte Folded Spill
	xor	a1, s4, t1
	sw	a1, 52(sp)                      # 4-byte Folded Spill
	xor	s0, s11, s10
	sw	s0, 56(sp)                      # 4-byte Folded Spill
	and	s0, s0, a1
	xor	t1, t4, s0
	sw	t0, 96(sp)                      # 4-byte Folded Spill
	xor	ra, t0, a4
	xor	s2, s2, ra
	and	a1, s2, ra
	and	s0, s8, s10
	xor	t4, s0, a1
	xor	s0, s2, s8
	sw	s0, 72(sp)                      # 4-byte Folded Spill
	and	s0, s0, a0
	xor	a3, s0, a1
	sw	s1, 64(s3)
	sw	a5, 68(s3)
	sw	a7, 72(s3)
	sw	t5, 76(s3)
	sw	t0, 80(s3)
	sw	t6, 84(s3)
	sw	a2, 88(s3)
	mv	a5, a4
	sw	a4, 76(sp)                      # 4-byte Folded Spill
	sw	a4, 92(s3)
	lw	a1, 160(sp)                     # 4-byte Folded Reload
	lbu	t0, 1(a1)
	xor	s0, s2, s5
	and	a0, s11, s9
	xor	a1, s0, a0
	and	a0, s0, s7
	xor	a4, a1, a0
	xor	t5, s9, a5
	xor	s5, s2, s1
	and	a2, s5, t5
	xor	a2, a2, s0
	xor	a0, a0, a5
	xor	a1, a2, a0
	andi	a2, t0, 64
	slli	a0, a2, 8
	slli	a2, a2, 9
	or	a0, a0, a2
	sw	a0, 160(sp)                     # 4-byte Folded Spill
	xor	a7, t1, a3
	xor	a2, a4, s7
	xor	a5, a2, a3
	lw	a0, 60(sp)                      # 4-byte Folded Reload
	xor	t6, a0, t4
	xor	a2, a1, t4
	slli	a3, t0, 31
	srli	a3, a3, 25
	slli	t1, a3, 8
	slli	a3, a3, 9
	or	a0, a3, t1
	sw	a0, 44(sp)                      # 4-byte Folded Spill
	slli	a3, t0, 5
	andi	a3, a3, 64
	slli	t1, a3, 8
	slli	a3, a3, 9
	or	a0, a3, t1
	sw	a0, 48(sp)                      # 4-byte Folded Spill
	slli	a3, t0, 4
	andi	a3, a3, 64
	slli	t1, a3, 8
	slli	a3, a3, 9
	or	a3, a3, t1
	slli	s1, t0, 3
	andi	s1, s1, 64
	slli	t1, s1, 8
	slli	s1, s1, 9
	or	t1, s1, t1
	slli	s1, t0, 2
	andi	s1, s1, 64
	slli	a0, s1, 8
	slli	s1, s1, 9
	or	a0, a0, s1
	sw	a0, 60(sp)                      # 4-byte Folded Spill
	slli	a0, t0, 1
	andi	a0, a0, 64
	slli	s1, a0, 8
	slli	a0, a0, 9
	or	a0, a0, s1
	srli	s1, t0, 1
	andi	s1, s1, 64
	slli	t0, s1, 8
	slli	s1, s1, 9
	or	a1, s1, t0
	sw	a1, 36(sp)                      # 4-byte Folded Spill
	and	s1, a5, a7
	xor	a1, a2, a5
	xor	a4, s1, t6
	and	a1, a1, a4
	xor	a7, a7, t6
	xor	a4, s1, a2
	and	t4, a4, a7
	xor	t4, t4, t6
	xor	s1, s1, a1
	xor	a1, a1, a2
	and	a2, a2, s1
	xor	a4, a4, a2
	xor	a2, a2, a5
	lw	a5, 64(sp)                      # 4-byte Folded Reload
	and	a5, a5, a1
	xor	t6, a5, a3
	and	a4, a4, t4
	xor	a4, a4, a7
	and	a3, t4, t5
	sw	a3, 64(sp)                      # 4-byte Folded Spill
	and	s1, t4, s5
	and	a5, a2, s4
	and	t0, a2, s6
	xor	a2, a2, a1
	lw	a3, 52(sp)                      # 4-byte Folded Reload
	and	s6, a2, a3
	lw	a3, 56(sp)                      # 4-byte Folded Reload
	and	a7, a2, a3
	xor	a2, a2, a4
	and	s4, a4, s9
	and	s5, a4, s11
	xor	a4, a4, t4
	xor	a3, t4, a1
	lw	s9, 40(sp)                      # 4-byte Folded Reload
	and	a1, a1, s9
	xor	a1, a1, a5
	xor	s6, s6, a5
	and	s0, s0, a4
	and	a4, a4, s7
	and	t4, a3, s2
	and	a5, a3, ra
	and	s2, a2, s8
	xor	a3, a3, a2
	and	s7, a2, s10
	lw	a2, 68(sp)                      # 4-byte Folded Reload
	and	t5, a3, a2
	lw	a2, 72(sp)                      # 4-byte Folded Reload
	and	a3, a3, a2
	xor	s1, s1, a1
	xor	a2, s0, s4
	xor	s0, s0, s1
	xor	a1, s2, a1
	xor	a0, a0, s7
	xor	a3, a3, a2
	xor	s2, s6, a2
	lw	s1, 44(sp)                      # 4-byte Folded Reload
	xor	s1, s1, a4
	xor	a1, a1, a4
	xor	a4, s0, s5
	xor	t1, s0, t1
	xor	s0, t5, a5
	xor	a0, a0, a5
	xor	a5, s0, a7
	xor	a4, a4, s0
	xor	a1, a1, a3
	xor	a3, a3, t4
	xor	s1, s1, a4
	lw	a2, 48(sp)                      # 4-byte Folded Reload
	xor	a4, a4, a2
	xor	s0, a5, t0
	xor	a5, t6, a5
	xor	a0, a0, a3
	lw	a2, 160(sp)                     # 4-byte Folded Reload
	xor	t0, a3, a2
	lw	a2, 36(sp)                      # 4-byte Folded Reload
	xor	a3, a3, a2
	lw	a2, 64(sp)                      # 4-byte Folded Reload
	xor	a2, a2, a1
	xor	a1, a1, a4
	xor	a5, a5, a2
	xor	a0, a0, a2
	xor	a2, s2, s0
	xor	a3, a3, s0
	srli	a4, s1, 14
	slli	s1, s1, 18
	or	a4, a4, s1
	srli	s1, a1, 14
	slli	a1, a1, 18
	or	a1, a1, s1
	srli	s1, a5, 14
	slli	a5, a5, 18
	or	a5, a5, s1
	srli	s1, a0, 14
	slli	a0, a0, 18
	or	a7, a0, s1
	srli	s1, a3, 14
	slli	a3, a3, 18
	or	a3, a3, s1
	xor	s1, t1, a2
	srli	s0, s1, 14
	slli	s1, s1, 18
	or	s0, s0, s1
	lw	s1, 60(sp)                      # 4-byte Folded Reload
	xor	s1, s1, a2
	xor	a0, t0, a2
	slli	a2, a2, 18
	srli	s1, s1, 14
	or	a2, a2, s1
	srli	s1, a0, 14
	slli	a0, a0, 18
	or	a0, a0, s1
	not	a4, a4
	and	a4, t3, a4
	lw	s1, 132(sp)                     # 4-byte Folded Reload
	or	a4, a4, s1
	and	a5, a5, t3
	lw	s1, 128(sp)                     # 4-byte Folded Reload
	or	a5, a5, s1
	and	a3, a3, t3
	lw	s1, 88(sp)                      # 4-byte Folded Reload
	or	a3, a3, s1
	lw	s1, 180(sp)                     # 4-byte Folded Reload
	xor	t0, a4, s1
	not	a1, a1
	and	a1, t3, a1
	lw	a4, 152(sp)                     # 4-byte Folded Reload
	or	a1, a1, a4
	lw	a4, 148(sp)                     # 4-byte Folded Reload
	xor	t1, a5, a4
	and	s1, s0, t3
	lw	a5, 140(sp)                     # 4-byte Folded Reload
	or	a5, a5, s1
	and	a2, a2, t3
	lw	a4, 112(sp)                     # 4-byte Folded Reload
	or	a4, a4, a2
	not	s0, a7
	and	s0, t3, s0
	lw	a2, 120(sp)                     # 4-byte Folded Reload
	or	s0, s0, a2
	lw	a2, 104(sp)                     # 4-byte Folded Reload
	xor	a2, a2, a3
	lw	s1, 176(sp)                     # 4-byte Folded Reload
	xor	s1, s1, a1
	lw	a1, 156(sp)                     # 4-byte Folded Reload
	xor	t4, a5, a1
	lw	a1, 144(sp)                     # 4-byte Folded Reload
	xor	a7, a4, a1
	lw	a1, 136(sp)                     # 4-byte Folded Reload
	xor	t5, s0, a1
	not	a0, a0
	and	a0, t3, a0
	lw	a1, 116(sp)                     # 4-byte Folded Reload
	or	a0, a0, a1
	lw	a1, 124(sp)                     # 4-byte Folded Reload
	xor	t6, a0, a1
	slli	a4, t0, 2
	and	a4, a4, t2
	xor	a1, a4, t0
	slli	a5, t1, 2
	and	a5, a5, t2
	xor	a5, a5, t1
	slli	a3, a2, 2
	and	a3, a3, t2
	xor	a2, a2, a3
	slli	a3, s1, 2
	and	a3, a3, t2
	xor	t0, a3, s1
	slli	a3, t4, 2
	and	a3, a3, t2
	xor	t1, a3, t4
	slli	s1, a7, 2
	and	s1, s1, t2
	xor	a7, s1, a7
	slli	s0, t5, 2
	and	s0, s0, t2
	xor	s2, s0, t5
	slli	a0, t6, 2
	and	a0, a0, t2
	xor	s4, a0, t6
	slli	a4, a1, 4
	and	a4, a4, a6
	xor	s5, a4, a1
	srli	a1, a1, 2
	and	a1, a1, t3
	xor	t4, a1, s9
	slli	a4, a5, 4
	and	a4, a4, a6
	xor	s6, a4, a5
	srli	a5, a5, 2
	and	a4, a5, t3
	lw	a0, 80(sp)                      # 4-byte Folded Reload
	xor	t5, a4, a0
	slli	a5, a2, 4
	and	a5, a5, a6
	xor	s9, a5, a2
	srli	a2, a2, 2
	and	a2, a2, t3
	lw	a0, 76(sp)                      # 4-byte Folded Reload
	xor	t6, a2, a0
	slli	a5, t0, 4
	and	a5, a5, a6
	xor	s7, a5, t0
	srli	a5, t0, 2
	and	a5, a5, t3
	lw	a0, 84(sp)                      # 4-byte Folded Reload
	xor	t0, a5, a0
	slli	a3, t1, 4
	and	a3, a3, a6
	xor	s10, a3, t1
	srli	a3, t1, 2
	and	a3, a3, t3
	lw	a0, 92(sp)                      # 4-byte Folded Reload
	xor	t1, a3, a0
	slli	s1, a7, 4
	and	s1, s1, a6
	xor	s8, s1, a7
	srli	s1, a7, 2
	and	s1, s1, t3
	lw	a0, 96(sp)                      # 4-byte Folded Reload
	xor	a7, s1, a0
	slli	s0, s2, 4
	and	s0, s0, a6
	xor	s11, s0, s2
	srli	s0, s2, 2
	and	s0, s0, t3
	lw	a0, 100(sp)                     # 4-byte Folded Reload
	xor	s2, s0, a0
	slli	a0, s4, 4
	and	a0, a0, a6
	xor	ra, a0, s4
	srli	a0, s4, 2
	and	a0, a0, t3
	lw	a1, 108(sp)                     # 4-byte Folded Reload
	xor	t3, a0, a1
	slli	a1, t4, 2
	and	a1, a1, t2
	xor	t4, a1, t4
	slli	a4, t5, 2
	and	a4, a4, t2
	xor	a4, a4, t5
	slli	a2, t6, 2
	and	a2, a2, t2
	xor	a2, a2, t6
	slli	a5, t0, 2
	and	a5, a5, t2
	xor	a5, a5, t0
	slli	a3, t1, 2
	and	a3, a3, t2
	xor	a3, a3, t1
	slli	s1, a7, 2
	and	s1, s1, t2
	xor	s1, s1, a7
	slli	s0, s2, 2
	and	s0, s0, t2
	xor	s0, s0, s2
	slli	a0, t3, 2
	and	a0, a0, t2
	xor	a0, a0, t3
	slli	a1, t4, 4
	and	a1, a1, a6
	xor	t0, a1, t4
	slli	a1, a4, 4
	and	a1, a1, a6
	xor	a4, a4, a1
	slli	a1, a2, 4
	and	a1, a1, a6
	xor	a2, a2, a1
	slli	a1, a5, 4
	and	a1, a1, a6
	xor	t1, a1, a5
	slli	a1, a3, 4
	and	a1, a1, a6
	xor	t4, a1, a3
	slli	a1, s1, 4
	and	a1, a1, a6
	xor	s1, s1, a1
	slli	a1, s0, 4
	and	a1, a1, a6
	xor	a3, a1, s0
	slli	a1, a0, 4
	and	a1, a1, a6
	xor	a0, a0, a1
	sw	s5, 96(s3)
	mv	s0, s7
	sw	s7, 100(s3)
	sw	s6, 104(s3)
	sw	s10, 108(s3)
	sw	s8, 180(sp)                     # 4-byte Folded Spill
	sw	s8, 112(s3)
	sw	s11, 116(s3)
	sw	ra, 176(sp)                     # 4-byte Folded Spill
	sw	ra, 120(s3)
	sw	s9, 124(s3)
	lw	a1, 168(sp)                     # 4-byte Folded Reload
	lw	t3, 164(sp)                     # 4-byte Folded Reload
	lw	a5, 172(sp)                     # 4-byte Folded Reload
	bnez	a5, .Lgcm_BB4_5
	j	.Lgcm_BB4_9
.Lgcm_BB4_6:                                # %else.5.i
	lui	a0, 1036240
	lui	a2, 986895
	lui	a3, 12336
	addi	a0, a0, -772
	sw	a0, 136(sp)                     # 4-byte Folded Spill
	addi	a0, a2, 240
	sw	a0, 140(sp)                     # 4-byte Folded Spill
	addi	a0, a3, 771
	sw	a0, 132(sp)                     # 4-byte Folded Spill
	addi	a0, sp, 188
	mv	s5, a1
	call	gcm.aes_planes.soft.word.word32.U32Word.in_every_slot
	lw	s6, 188(sp)
	lw	s7, 192(sp)
	lw	s2, 196(sp)
	lw	s4, 200(sp)
	lw	s10, 204(sp)
	lw	s11, 208(sp)
	lw	s9, 212(sp)
	lw	a0, 216(sp)
	sw	a0, 180(sp)                     # 4-byte Folded Spill
	addi	a1, s5, 16
	addi	a0, sp, 188
	call	gcm.aes_planes.soft.word.word32.U32Word.in_every_slot
	li	a1, 0
	li	t3, 0
	lw	ra, 188(sp)
	lw	t4, 192(sp)
	lw	s1, 196(sp)
	lw	t2, 200(sp)
	lw	s0, 204(sp)
	lw	a0, 208(sp)
	lw	s3, 212(sp)
	lw	s5, 216(sp)
	sw	s6, 0(s8)
	sw	s7, 4(s8)
	sw	s2, 8(s8)
	sw	s4, 12(s8)
	sw	s10, 16(s8)
	sw	s11, 20(s8)
	sw	s9, 24(s8)
	lw	a2, 180(sp)                     # 4-byte Folded Reload
	sw	a2, 28(s8)
	sw	ra, 32(s8)
	sw	t4, 36(s8)
	sw	s1, 40(s8)
	sw	t2, 44(s8)
	sw	s0, 48(s8)
	sw	a0, 52(s8)
	sw	s3, 56(s8)
	sw	s5, 60(s8)
.Lgcm_BB4_7:                                # %join.5.i348.i
                                        # =>This Inner Loop Header: Depth=1
	xor	t5, s3, a0
	xor	a0, s5, s0
	xor	s6, s5, t4
	xor	a5, s0, s1
	xor	a7, s5, s1
	mv	s7, a1
	sltiu	a1, a1, 5
	seqz	a2, t3
	xor	a4, t5, ra
	sw	a5, 156(sp)                     # 4-byte Folded Spill
	xor	t1, s6, a5
	and	a1, a1, a2
	sw	a1, 180(sp)                     # 4-byte Folded Spill
	xor	s11, a4, s0
	xor	a1, t1, t2
	xor	s10, a4, s5
	xor	t6, a4, t4
	addi	a3, s7, 1
	sw	a3, 176(sp)                     # 4-byte Folded Spill
	and	t2, s11, ra
	xor	s0, a1, s1
	xor	a6, a1, s3
	mv	a2, a7
	sw	a7, 160(sp)                     # 4-byte Folded Spill
	xor	s9, t6, a7
	and	t0, t6, a4
	seqz	s1, a3
	sw	a0, 164(sp)                     # 4-byte Folded Spill
	xor	a3, a6, a0
	xor	s3, s0, ra
	and	s2, s0, t1
	xor	a1, s0, t5
	xor	s4, t2, a7
	add	t3, t3, s1
	sw	t3, 172(sp)                     # 4-byte Folded Spill
	mv	a7, ra
	and	ra, a3, a0
	xor	s1, a3, t5
	xor	t2, a3, a1
	and	t5, a1, a2
	xor	s4, s4, a1
	xor	a6, a6, s2
	xor	s2, s4, s2
	and	a2, s3, s9
	xor	a6, a6, a2
	and	a2, t2, a5
	xor	t5, t5, ra
	xor	ra, a2, ra
	sw	s6, 144(sp)                     # 4-byte Folded Spill
	and	a2, s1, s6
	xor	a5, s1, t0
	xor	a5, a5, a2
	xor	a2, a2, s5
	xor	s4, a3, a7
	and	a0, s4, s10
	xor	a0, a0, s1
	xor	a0, a0, a2
.Lgcm_pcrel_hi2:
	auipc	a2, %pcrel_hi(.Lgcm_static.0)
	addi	a2, a2, %pcrel_lo(.Lgcm_pcrel_hi2)
	add	a2, a2, s7
	lbu	s5, 0(a2)
	xor	t3, a6, ra
	xor	a5, a5, s6
	xor	a5, a5, ra
	xor	t4, s2, t5
	xor	a0, a0, t5
	andi	a6, s5, 64
	slli	t0, a6, 8
	slli	a6, a6, 9
	or	a2, a6, t0
	sw	a2, 168(sp)                     # 4-byte Folded Spill
	slli	a2, s5, 31
	srli	a2, a2, 25
	slli	a6, a2, 8
	slli	a2, a2, 9
	or	t5, a2, a6
	slli	a2, s5, 5
	andi	a2, a2, 64
	slli	a6, a2, 8
	slli	a2, a2, 9
	or	a2, a2, a6
	sw	a2, 152(sp)                     # 4-byte Folded Spill
	slli	a2, s5, 4
	andi	a2, a2, 64
	slli	a6, a2, 8
	slli	a2, a2, 9
	or	s6, a2, a6
	slli	a2, s5, 3
	andi	a2, a2, 64
	slli	a6, a2, 8
	slli	a2, a2, 9
	or	s2, a2, a6
	slli	a2, s5, 2
	andi	a2, a2, 64
	slli	a6, a2, 8
	slli	a2, a2, 9
	or	a2, a2, a6
	sw	a2, 148(sp)                     # 4-byte Folded Spill
	slli	a2, s5, 1
	andi	a2, a2, 64
	slli	a6, a2, 8
	slli	a2, a2, 9
	or	ra, a2, a6
	srli	a2, s5, 1
	andi	a2, a2, 64
	slli	a6, a2, 8
	slli	a2, a2, 9
	or	a6, a2, a6
	and	a2, a5, t3
	xor	s5, a0, a5
	xor	s8, a2, t4
	and	s5, s8, s5
	xor	t3, t3, t4
	xor	s8, a2, a0
	and	t0, s8, t3
	xor	t0, t0, t4
	xor	t4, s5, a2
	xor	a2, s5, a0
	and	a0, t4, a0
	xor	t4, a0, s8
	xor	a0, a0, a5
	and	a5, a2, s11
	xor	s11, a5, s6
	and	a5, t4, t0
	xor	a5, a5, t3
	and	t3, a2, a7
	and	s5, a0, s0
	and	t1, a0, t1
	xor	a0, a0, a2
	xor	a2, t0, a2
	and	t4, t0, s10
	and	s4, t0, s4
	and	a7, a0, s3
	and	s3, a0, s9
	xor	a0, a0, a5
	xor	s0, a5, t0
	and	s6, a5, a4
	and	t0, a5, t6
	xor	a5, s5, t3
	xor	a7, a7, s5
	and	s1, s1, s0
	lw	a4, 144(sp)                     # 4-byte Folded Reload
	and	s0, s0, a4
	and	t3, a2, a3
	lw	a3, 164(sp)                     # 4-byte Folded Reload
	and	a3, a3, a2
	and	s5, a0, a1
	xor	a2, a2, a0
	lw	a1, 160(sp)                     # 4-byte Folded Reload
	and	s8, a0, a1
	lw	a0, 156(sp)                     # 4-byte Folded Reload
	and	t6, a2, a0
	and	a2, a2, t2
	slli	a1, s7, 6
	lw	a0, 184(sp)                     # 4-byte Folded Reload
	add	a1, a1, a0
	xor	a4, a5, s4
	xor	a0, s1, s6
	xor	s1, s1, a4
	xor	a5, s5, a5
	xor	s8, ra, s8
	xor	a2, a2, a0
	xor	s6, a7, a0
	lw	s4, 0(a1)
	lw	a7, 4(a1)
	lw	s5, 8(a1)
	lw	ra, 12(a1)
	xor	s7, t5, s0
	xor	a0, t6, a3
	xor	a4, s1, t0
	xor	a5, a5, s0
	xor	s10, s1, s2
	xor	s8, s8, a3
	xor	s1, a0, s3
	xor	a0, a0, a4
	lw	t6, 16(a1)
	lw	s2, 20(a1)
	lw	t0, 24(a1)
	lw	s3, 28(a1)
	xor	a5, a5, a2
	xor	a2, a2, t3
	xor	a4, s1, t1
	xor	s0, a5, t4
	xor	t2, a0, s7
	lw	a3, 152(sp)                     # 4-byte Folded Reload
	xor	t4, a0, a3
	xor	s1, s11, s1
	xor	t1, s8, a2
	lw	a0, 168(sp)                     # 4-byte Folded Reload
	xor	t3, a2, a0
	xor	a2, a2, a6
	xor	a0, s6, a4
	xor	a5, t4, a5
	xor	s1, s1, s0
	xor	s0, t1, s0
	xor	a2, a2, a4
	srli	a6, t2, 14
	slli	t2, t2, 18
	xor	a4, s10, a0
	lw	a3, 148(sp)                     # 4-byte Folded Reload
	xor	t1, a0, a3
	xor	t3, t3, a0
	or	t4, t2, a6
	srli	a6, a5, 14
	slli	a5, a5, 18
	srli	a3, s1, 14
	slli	s1, s1, 18
	slli	t5, a0, 18
	srli	s7, s0, 14
	slli	s0, s0, 18
	srli	s6, a2, 14
	slli	s8, a2, 18
	not	t4, t4
	or	s9, a5, a6
	or	a6, s1, a3
	srli	s10, a4, 14
	slli	a4, a4, 18
	srli	t1, t1, 14
	or	s0, s0, s7
	srli	s7, t3, 14
	slli	t3, t3, 18
	or	a3, s8, s6
	lw	t2, 132(sp)                     # 4-byte Folded Reload
	and	a5, t2, t4
	not	s1, s9
	and	a0, a6, t2
	or	a4, a4, s10
	or	a2, t5, t1
	not	s0, s0
	or	a6, t3, s7
	and	a3, a3, t2
	xor	a5, a5, s4
	and	s1, t2, s1
	xor	a0, a0, s5
	and	a4, a4, t2
	and	a2, a2, t2
	and	s0, t2, s0
	not	a6, a6
	xor	a3, a3, s3
	slli	t3, a5, 2
	xor	s1, s1, a7
	slli	a7, a0, 2
	xor	a4, a4, ra
	xor	a2, a2, t6
	xor	s0, s0, s2
	and	a6, t2, a6
	slli	s3, a3, 2
	lw	t1, 136(sp)                     # 4-byte Folded Reload
	and	s2, t3, t1
	slli	t3, s1, 2
	and	a7, a7, t1
	slli	t4, a4, 2
	slli	t5, a2, 2
	slli	t6, s0, 2
	xor	a6, a6, t0
	and	t0, s3, t1
	xor	a5, s2, a5
	and	s3, t3, t1
	xor	s2, a7, a0
	and	a7, t4, t1
	and	t5, t5, t1
	and	t3, t6, t1
	slli	t4, a6, 2
	xor	t6, t0, a3
	slli	a0, a5, 4
	xor	s3, s3, s1
	slli	a3, s2, 4
	xor	s4, a7, a4
	xor	s6, t5, a2
	xor	s7, t3, s0
	and	a4, t4, t1
	slli	a7, t6, 4
	lw	t0, 140(sp)                     # 4-byte Folded Reload
	and	a0, a0, t0
	slli	s0, s3, 4
	and	a2, a3, t0
	slli	t3, s4, 4
	slli	t4, s6, 4
	slli	t5, s7, 4
	xor	a3, a4, a6
	and	a6, a7, t0
	xor	s10, a0, a5
	and	a7, s0, t0
	xor	s5, a2, s2
	and	a5, t3, t0
	and	s1, t4, t0
	and	a0, t5, t0
	slli	a2, a3, 4
	xor	s0, a6, t6
	xor	t6, a7, s3
	xor	a4, a5, s4
	sw	a4, 160(sp)                     # 4-byte Folded Spill
	xor	a5, s1, s6
	xor	s6, a0, s7
	and	a0, a2, t0
	xor	t5, s0, s5
	xor	s11, a0, a3
	xor	t4, t6, s0
	xor	a7, a5, s5
	xor	s1, s11, s6
	xor	s2, t4, a7
	sw	a7, 164(sp)                     # 4-byte Folded Spill
	xor	s9, s1, s10
	xor	a2, s2, a4
	xor	a0, s9, a5
	sw	a0, 148(sp)                     # 4-byte Folded Spill
	xor	s8, a2, s5
	xor	t3, a2, s11
	xor	ra, s9, t6
	and	a0, a0, s10
	xor	a3, s8, s10
	sw	a3, 152(sp)                     # 4-byte Folded Spill
	xor	a2, ra, t5
	sw	a2, 156(sp)                     # 4-byte Folded Spill
	and	a4, s8, s2
	xor	s7, s8, s1
	xor	a6, a0, t5
	xor	a0, s7, a4
	xor	a0, a6, a0
	sw	a0, 144(sp)                     # 4-byte Folded Spill
	and	a0, a3, a2
	xor	a4, t3, a4
	xor	s4, a4, a0
	xor	s3, a5, s0
	xor	t3, t3, s3
	and	a4, t3, s3
	and	a0, s7, t5
	xor	a0, a0, a4
	xor	a2, t3, s7
	sw	a2, 168(sp)                     # 4-byte Folded Spill
	and	a6, a2, a7
	xor	a4, a6, a4
	sw	a5, 80(a1)
	sw	s6, 84(a1)
	sw	s11, 88(a1)
	sw	s0, 92(a1)
	xor	a6, t3, s1
	and	a5, ra, s9
	xor	a5, a6, a5
	and	s1, a6, t4
	xor	a5, a5, s1
	xor	s1, s1, s0
	xor	s11, s9, s0
	xor	s6, t3, s10
	and	a3, s6, s11
	xor	a3, a6, a3
	xor	a3, a3, s1
	xor	s1, s4, a4
	xor	a5, a5, t4
	xor	s0, a5, a4
	lw	a5, 144(sp)                     # 4-byte Folded Reload
	xor	a5, a5, a0
	xor	a0, a0, a3
	and	a4, s0, s1
	xor	a7, a0, s0
	xor	a3, a4, a5
	and	a3, a3, a7
	xor	a7, s1, a5
	xor	s1, a4, a0
	and	a2, s1, a7
	xor	a2, a2, a5
	xor	a4, a4, a3
	xor	a3, a3, a0
	and	a0, a0, a4
	xor	s1, s1, a0
	xor	a0, a0, s0
	and	s1, s1, a2
	xor	a4, s1, a7
	sw	t6, 68(a1)
	sw	s5, 72(a1)
	lw	a5, 160(sp)                     # 4-byte Folded Reload
	sw	a5, 76(a1)
	sw	s10, 64(a1)
	lw	a5, 148(sp)                     # 4-byte Folded Reload
	and	a7, a3, a5
	and	t6, a3, s10
	and	s0, a0, s8
	and	s8, a0, s2
	xor	a0, a0, a3
	xor	a3, a3, a2
	and	s2, a2, s11
	and	s4, a2, s6
	lw	a5, 152(sp)                     # 4-byte Folded Reload
	and	a5, a5, a0
	lw	s1, 156(sp)                     # 4-byte Folded Reload
	and	s10, a0, s1
	xor	a0, a0, a4
	xor	a2, a2, a4
	and	s5, a4, s9
	and	s9, a4, ra
	xor	s1, s0, t6
	xor	s6, a5, s0
	and	s0, a2, a6
	and	t4, a2, t4
	and	a6, a3, t3
	and	a4, a3, s3
	and	t6, a0, s7
	xor	a3, a3, a0
	and	t3, a0, t5
	lw	a2, 164(sp)                     # 4-byte Folded Reload
	and	a2, a2, a3
	lw	a0, 168(sp)                     # 4-byte Folded Reload
	and	a3, a3, a0
	xor	a5, s1, s4
	xor	a0, s0, s5
	xor	t5, a5, s0
	xor	s1, t6, s1
	xor	t6, a4, t3
	xor	a2, a2, a4
	xor	a3, a3, a0
	xor	s3, s6, a0
	xor	a4, t5, s9
	xor	s1, s1, t4
	xor	a0, a2, s10
	xor	a2, a2, a4
	xor	s1, s1, a3
	xor	a3, a3, a6
	xor	a4, a0, s8
	xor	a5, s1, s2
	xor	a0, a0, a7
	xor	s0, a2, t4
	xor	a2, a2, s1
	lw	t3, 32(a1)
	lw	a6, 36(a1)
	lw	a7, 40(a1)
	lw	s4, 44(a1)
	xor	s1, t6, a3
	xor	a0, a0, a5
	not	s0, s0
	not	a2, a2
	xor	s5, s1, a5
	srli	s0, s0, 6
	srli	a2, a2, 6
	srli	a0, a0, 6
	and	s1, s0, t2
	and	a2, a2, t2
	and	a0, a0, t2
	xor	t6, s1, t3
	xor	t4, a2, a6
	xor	t3, a0, a7
	lw	s0, 48(a1)
	lw	a7, 52(a1)
	lw	a6, 56(a1)
	lw	a5, 60(a1)
	xor	a0, s3, a4
	xor	a4, a4, a3
	xor	a2, a0, t5
	xor	a3, a3, a0
	srli	a0, a0, 6
	and	a0, a0, t2
	xor	s2, a0, s0
	srli	a4, a4, 6
	and	a4, a4, t2
	xor	t5, a4, a5
	srli	a2, a2, 6
	and	a2, a2, t2
	xor	s3, a2, s4
	not	a5, s5
	srli	a5, a5, 6
	and	a5, a5, t2
	xor	a7, a5, a7
	not	a3, a3
	srli	a3, a3, 6
	and	a3, a3, t2
	xor	t2, a3, a6
	slli	s1, t6, 2
	and	s1, s1, t1
	xor	t6, s1, t6
	slli	s0, t4, 2
	and	s0, s0, t1
	xor	t4, s0, t4
	slli	a0, t3, 2
	and	a0, a0, t1
	xor	a6, a0, t3
	slli	a2, s2, 2
	and	a2, a2, t1
	xor	t3, a2, s2
	slli	a4, t5, 2
	and	a4, a4, t1
	xor	a4, a4, t5
	slli	a5, s3, 2
	and	a5, a5, t1
	xor	a5, a5, s3
	slli	a0, a7, 2
	and	a0, a0, t1
	xor	a0, a0, a7
	slli	a3, t2, 2
	and	a3, a3, t1
	xor	a3, a3, t2
	slli	s1, t6, 4
	and	s1, s1, t0
	xor	ra, s1, t6
	slli	s0, t4, 4
	and	s1, s0, t0
	xor	t4, s1, t4
	slli	s1, a6, 4
	and	s1, s1, t0
	xor	s1, s1, a6
	slli	a2, t3, 4
	and	a2, a2, t0
	xor	s0, a2, t3
	slli	a2, a4, 4
	and	a2, a2, t0
	xor	s5, a2, a4
	slli	a2, a5, 4
	and	a2, a2, t0
	xor	t2, a2, a5
	slli	a2, a0, 4
	and	a2, a2, t0
	xor	a0, a0, a2
	slli	a2, a3, 4
	and	a2, a2, t0
	xor	s3, a2, a3
	sw	ra, 96(a1)
	sw	t4, 100(a1)
	sw	s1, 104(a1)
	sw	t2, 108(a1)
	sw	s0, 112(a1)
	sw	a0, 116(a1)
	sw	s3, 120(a1)
	sw	s5, 124(a1)
	lw	a1, 176(sp)                     # 4-byte Folded Reload
	lw	t3, 172(sp)                     # 4-byte Folded Reload
	lw	a2, 180(sp)                     # 4-byte Folded Reload
	bnez	a2, .Lgcm_BB4_7
# %bb.8:                                # %after.1.i.i
	xor	a2, s3, a0
	xor	a7, s5, s0
	xor	t3, s5, t4
	xor	a6, s0, s1
	xor	t1, s5, s1
	xor	s8, a2, ra
	xor	s4, t3, a6
	xor	t5, s8, s0
	xor	a0, s4, t2
	xor	t2, s8, s5
	xor	s2, s8, t4
	and	a1, t5, ra
	xor	s10, a0, s1
	xor	a4, a0, s3
	xor	t4, s2, t1
	and	s3, s2, s8
	xor	s11, a4, a7
	xor	t6, s10, ra
	and	a5, s10, s4
	xor	s6, s10, a2
	and	a3, s11, a7
	xor	s7, s11, a2
	xor	t0, s11, s6
	and	a2, s6, t1
	xor	s0, t1, s6
	xor	s0, s0, a1
	and	a1, t6, t4
	xor	a4, a4, a5
	xor	a1, a1, a4
	and	a4, t0, a6
	xor	a2, a2, a3
	xor	a4, a4, a3
	xor	s9, s11, ra
	xor	a5, a5, s0
	and	s0, s7, t3
	xor	a3, s7, s3
	xor	a3, a3, s0
	xor	s0, s0, s5
	and	s1, s9, t2
	xor	s1, s7, s1
	xor	a5, a5, a2
	xor	a1, a1, a4
	xor	a3, a3, t3
	xor	s0, s0, s1
	xor	a3, a3, a4
	xor	a2, a2, s0
	xor	a0, a1, a5
	and	a1, a1, a3
	xor	s0, a2, a3
	xor	s1, a1, a5
	and	s0, s0, s1
	xor	s1, a1, a2
	and	a4, s1, a0
	xor	a5, a5, a4
	xor	a1, a1, s0
	xor	s0, s0, a2
	and	a1, a1, a2
	xor	s1, s1, a1
	xor	a1, a1, a3
	and	s1, s1, a5
	xor	a0, a0, s1
	and	t5, s0, t5
	and	a2, s0, ra
	and	a3, a1, s10
	and	s3, a1, s4
	xor	a1, a1, s0
	xor	s0, s0, a5
	and	t2, a5, t2
	and	s4, a5, s9
	and	s1, a1, t6
	and	t4, a1, t4
	xor	a1, a1, a0
	xor	a5, a5, a0
	and	s5, a0, s8
	and	t6, a0, s2
	xor	a2, a2, a3
	xor	s2, s1, a3
	and	s1, a5, s7
	and	s7, a5, t3
	and	t3, s0, s11
	and	a0, s0, a7
	and	a7, a1, s6
	xor	s0, s0, a1
	and	a1, a1, t1
	and	a4, s0, a6
	and	s0, s0, t0
	xor	a5, a2, s4
	xor	a3, s1, s5
	xor	s4, a5, s1
	xor	a2, a7, a2
	xor	a6, a0, a1
	xor	a0, a0, a4
	xor	s0, s0, a3
	xor	a7, s2, a3
	xor	a4, s4, t6
	xor	a5, a0, t4
	xor	a0, a0, a4
	lui	a4, 1048560
	addi	a4, a4, 255
	xor	a2, a2, s7
	xor	a2, a2, s0
	xor	s0, s0, t3
	xor	a3, a5, s3
	xor	a1, a2, t2
	xor	t2, a5, t5
	xor	s1, a0, s7
	xor	a0, a0, a2
	xor	a2, a6, s0
	xor	a4, a4, s0
	xor	a5, a7, a3
	xor	t3, a3, s0
	lw	s3, 184(sp)                     # 4-byte Folded Reload
	lw	a7, 384(s3)
	lw	t0, 388(s3)
	lw	t1, 392(s3)
	lw	a6, 396(s3)
	xor	a3, t2, a1
	xor	a2, a2, a1
	srli	a1, s1, 14
	slli	s1, s1, 18
	or	t2, s1, a1
	srli	a1, a0, 14
	slli	a0, a0, 18
	xor	s1, a5, s4
	xor	t4, a4, a5
	or	a0, a0, a1
	srli	a1, a3, 14
	slli	a3, a3, 18
	or	a1, a1, a3
	srli	a3, a5, 14
	slli	a5, a5, 18
	or	t5, a5, a3
	srli	a4, a2, 14
	slli	a2, a2, 18
	or	t6, a2, a4
	srli	a4, t3, 14
	slli	t3, t3, 18
	not	a5, t2
	not	a2, a0
	or	t2, t3, a4
	srli	s0, s1, 14
	slli	s1, s1, 18
	or	t3, s1, s0
	srli	s1, t4, 14
	slli	t4, t4, 18
	lw	a0, 132(sp)                     # 4-byte Folded Reload
	and	a5, a5, a0
	and	a2, a2, a0
	and	a1, a1, a0
	or	t4, t4, s1
	xor	a5, a7, a5
	xor	s2, t0, a2
	xor	t1, t1, a1
	lw	a3, 400(s3)
	lw	t0, 404(s3)
	lw	a7, 408(s3)
	lw	s0, 412(s3)
	and	a4, t5, a0
	xor	a3, a3, a4
	not	a4, t6
	and	a2, t2, a0
	and	s1, t3, a0
	and	a4, a4, a0
	and	a1, t4, a0
	xor	a2, a2, s0
	slli	s0, a5, 2
	xor	t2, a6, s1
	slli	a6, s2, 2
	xor	t4, t0, a4
	slli	a4, t1, 2
	xor	t3, a7, a1
	slli	a7, a3, 2
	lw	a0, 136(sp)                     # 4-byte Folded Reload
	and	s0, s0, a0
	xor	t6, s0, a5
	slli	t0, a2, 2
	and	s0, a6, a0
	and	a4, a4, a0
	xor	s0, s0, s2
	slli	s1, t2, 2
	and	a1, a7, a0
	xor	a6, a4, t1
	slli	a4, t4, 2
	xor	t5, a1, a3
	slli	a3, t3, 2
	and	a1, t0, a0
	and	s1, s1, a0
	and	a4, a4, a0
	and	a3, a3, a0
	xor	t0, a1, a2
	slli	a2, t6, 4
	xor	s1, s1, t2
	slli	a7, s0, 4
	xor	a1, a4, t4
	slli	a4, a6, 4
	xor	a5, a3, t3
	slli	t1, t5, 4
	lw	a0, 140(sp)                     # 4-byte Folded Reload
	and	a2, a2, a0
	xor	t2, a2, t6
	slli	t3, t0, 4
	and	a2, a7, a0
	and	a4, a4, a0
	xor	a7, a2, s0
	slli	s0, s1, 4
	and	a2, t1, a0
	xor	a6, a4, a6
	slli	a4, a1, 4
	xor	t1, a2, t5
	slli	a3, a5, 4
	and	a2, t3, a0
	and	s0, s0, a0
	and	a4, a4, a0
	and	a3, a3, a0
	xor	a0, a2, t0
	xor	s0, s0, s1
	xor	a1, a1, a4
	xor	a3, a3, a5
	sw	t2, 448(s3)
	sw	a7, 452(s3)
	sw	a6, 456(s3)
	sw	s0, 460(s3)
	sw	t1, 464(s3)
	sw	a1, 468(s3)
	sw	a3, 472(s3)
	sw	a0, 476(s3)
.Lgcm_BB4_9:                                # %"aes_planes::expansion::expand::<#389ec886eeff95cb>.exit"
	li	a0, 0
	lui	a6, 208899
	lui	a7, 61441
	lui	a4, 49392
	lui	a5, 12529
	lw	s1, 12(sp)                      # 4-byte Folded Reload
	srli	s1, s1, 2
	lw	a1, 16(sp)                      # 4-byte Folded Reload
	slli	s0, a1, 30
	srli	t2, a1, 2
	lw	a3, 184(sp)                     # 4-byte Folded Reload
	addi	a1, a3, 60
	addi	a2, a6, 768
	sw	a2, 172(sp)                     # 4-byte Folded Spill
	addi	a2, a7, -256
	sw	a2, 168(sp)                     # 4-byte Folded Spill
	addi	a2, a4, 768
	sw	a2, 164(sp)                     # 4-byte Folded Spill
	addi	a2, a5, -1024
	sw	a2, 160(sp)                     # 4-byte Folded Spill
	or	s0, s0, s1
	addi	a2, s0, 6
	sw	a2, 180(sp)                     # 4-byte Folded Spill
	sltu	a2, a2, s0
	add	t2, t2, a2
	li	a2, 1
	mv	s0, a3
	sw	t2, 176(sp)                     # 4-byte Folded Spill
	j	.Lgcm_BB4_13
.Lgcm_BB4_10:                               # %then.7.i
                                        #   in Loop: Header=BB4_13 Depth=1
	lw	s0, 164(sp)                     # 4-byte Folded Reload
	and	a3, a6, s0
	and	s1, a7, s0
	and	s6, t0, s0
	and	a6, t1, s0
	and	a7, t2, s0
	and	t0, s5, s0
	and	t1, s4, s0
	and	t2, s3, s0
	slli	s0, a3, 4
	add	a3, a3, s0
	slli	s0, s1, 4
	add	s0, s0, s1
	slli	s1, s6, 4
	add	s6, s6, s1
	slli	s1, a6, 4
	add	a6, a6, s1
	slli	s1, a7, 4
	add	a7, a7, s1
	slli	s1, t0, 4
	add	t0, t0, s1
	slli	s1, t1, 4
	add	t1, t1, s1
	slli	s1, t2, 4
	add	t2, t2, s1
	xor	s7, a3, s10
	xor	s4, s0, s11
	xor	t6, s6, t6
	xor	s2, a6, s2
	xor	s3, a7, s9
	xor	s5, t0, a5
	xor	t1, t1, t3
	xor	t5, t2, t5
	srli	a6, s7, 2
	srli	a7, s4, 2
	srli	t0, t6, 2
	srli	t2, s2, 2
	srli	s6, s3, 2
	srli	s8, s5, 2
	srli	s9, t1, 2
	srli	s1, t5, 2
	xor	s0, a6, s7
	xor	a3, a7, s4
	xor	t3, t0, t6
	xor	s10, t2, s2
	xor	a6, s6, s3
	xor	a7, s8, s5
	xor	t0, s9, t1
	xor	t2, s1, t5
	lw	a4, 172(sp)                     # 4-byte Folded Reload
	and	s1, s0, a4
	and	a5, a3, a4
	and	t3, t3, a4
	and	s8, s10, a4
	and	s6, a6, a4
	and	a6, a7, a4
	and	a7, t0, a4
	and	t0, t2, a4
	slli	s0, s1, 2
	add	t2, s0, s1
	slli	a3, a5, 2
	add	a3, a3, a5
	slli	a4, t3, 2
	add	a4, a4, t3
	slli	a5, s8, 2
	add	a5, a5, s8
	slli	s1, s6, 2
	add	s1, s1, s6
	slli	s0, a6, 2
	add	a6, a6, s0
	slli	s0, a7, 2
	add	a7, a7, s0
	slli	s0, t0, 2
	add	t0, t0, s0
	xor	s10, t2, s7
	xor	s11, a3, s4
	xor	t6, a4, t6
	xor	s2, a5, s2
	xor	s9, s1, s3
	xor	a5, a6, s5
	xor	t3, a7, t1
	xor	t5, t0, t5
.Lgcm_BB4_11:                               # %join.8.i
                                        #   in Loop: Header=BB4_13 Depth=1
	lw	s0, 184(sp)                     # 4-byte Folded Reload
	lw	t2, 176(sp)                     # 4-byte Folded Reload
.Lgcm_BB4_12:                               # %join.8.i
                                        #   in Loop: Header=BB4_13 Depth=1
	not	a3, s10
	not	s1, s11
	not	a5, a5
	not	a4, t3
	addi	a2, a2, 1
	sw	a3, -28(a1)
	sw	s1, -24(a1)
	sw	t6, -20(a1)
	sw	s2, -16(a1)
	sw	s9, -12(a1)
	sw	a5, -8(a1)
	sw	a4, -4(a1)
	sw	t5, 0(a1)
	seqz	a3, a2
	add	a0, a0, a3
	addi	a1, a1, 32
	beqz	t4, .Lgcm_BB4_22
.Lgcm_BB4_13:                               # %join.5.i
                                        # =>This Inner Loop Header: Depth=1
	beq	a0, t2, .Lgcm_BB4_15
# %bb.14:                               # %join.5.i
                                        #   in Loop: Header=BB4_13 Depth=1
	sltu	t4, a0, t2
	j	.Lgcm_BB4_16
.Lgcm_BB4_15:                               #   in Loop: Header=BB4_13 Depth=1
	lw	a3, 180(sp)                     # 4-byte Folded Reload
	sltu	t4, a2, a3
.Lgcm_BB4_16:                               # %join.5.i
                                        #   in Loop: Header=BB4_13 Depth=1
	slli	a3, a2, 5
	add	a3, a3, s0
	lw	s10, 0(a3)
	lw	s11, 4(a3)
	lw	t6, 8(a3)
	lw	s2, 12(a3)
	lw	s9, 16(a3)
	lw	a5, 20(a3)
	lw	t3, 24(a3)
	lw	t5, 28(a3)
	beqz	t4, .Lgcm_BB4_12
# %bb.17:                               # %ok.10.i
                                        #   in Loop: Header=BB4_13 Depth=1
	andi	s1, a2, 3
	li	a3, 1
	blt	a3, s1, .Lgcm_BB4_20
# %bb.18:                               # %ok.10.i
                                        #   in Loop: Header=BB4_13 Depth=1
	beqz	s1, .Lgcm_BB4_12
# %bb.19:                               # %then.1.i
                                        #   in Loop: Header=BB4_13 Depth=1
	srli	s3, s10, 4
	srli	s4, s11, 4
	srli	s5, t6, 4
	srli	s6, s2, 4
	srli	s7, s9, 4
	srli	s8, a5, 4
	srli	ra, t3, 4
	srli	s0, t5, 4
	xor	s1, s3, s10
	xor	a6, s4, s11
	xor	s3, s5, t6
	xor	s4, s6, s2
	xor	s5, s7, s9
	xor	s6, s8, a5
	xor	s7, ra, t3
	xor	s8, s0, t5
	lw	a3, 160(sp)                     # 4-byte Folded Reload
	and	s0, s1, a3
	and	a4, a6, a3
	and	ra, s3, a3
	and	s3, s4, a3
	and	s4, s5, a3
	and	s5, s6, a3
	and	s6, s7, a3
	and	s7, s8, a3
	slli	s1, s0, 4
	add	s0, s0, s1
	slli	s1, a4, 4
	add	a3, s1, a4
	slli	s1, ra, 4
	add	ra, ra, s1
	slli	s1, s3, 4
	add	s3, s3, s1
	slli	s1, s4, 4
	add	s4, s4, s1
	slli	s1, s5, 4
	add	s5, s5, s1
	slli	s1, s6, 4
	add	s6, s6, s1
	slli	s1, s7, 4
	add	s7, s7, s1
	xor	s10, s0, s10
	xor	s8, a3, s11
	xor	t6, ra, t6
	xor	s2, s3, s2
	xor	s3, s4, s9
	xor	ra, s5, a5
	xor	t2, s6, t3
	xor	t5, s7, t5
	srli	s4, s10, 2
	srli	s5, s8, 2
	srli	s6, t6, 2
	srli	s7, s2, 2
	srli	s9, s3, 2
	srli	s11, ra, 2
	srli	s1, t2, 2
	srli	s0, t5, 2
	xor	a3, s4, s10
	xor	a5, s5, s8
	xor	s4, s6, t6
	xor	s5, s7, s2
	xor	s6, s9, s3
	xor	s7, s11, ra
	xor	s11, s1, t2
	xor	s9, s0, t5
	lw	a4, 172(sp)                     # 4-byte Folded Reload
	and	a6, a3, a4
	and	a7, a5, a4
	and	t0, s4, a4
	and	t1, s5, a4
	and	s4, s6, a4
	and	s5, s7, a4
	and	s6, s11, a4
	and	s7, s9, a4
	slli	a3, a6, 2
	add	a6, a6, a3
	slli	a5, a7, 2
	add	a5, a5, a7
	slli	s0, t0, 2
	add	t0, t0, s0
	slli	s1, t1, 2
	add	t1, t1, s1
	slli	s1, s4, 2
	add	s1, s1, s4
	slli	s0, s5, 2
	add	s5, s5, s0
	slli	a4, s6, 2
	add	a4, a4, s6
	slli	a3, s7, 2
	add	a3, a3, s7
	xor	s10, a6, s10
	xor	s11, a5, s8
	lw	s0, 184(sp)                     # 4-byte Folded Reload
	xor	t6, t0, t6
	xor	s2, t1, s2
	xor	s9, s1, s3
	xor	a5, s5, ra
	xor	t3, a4, t2
	lw	t2, 176(sp)                     # 4-byte Folded Reload
	xor	t5, a3, t5
	j	.Lgcm_BB4_12
.Lgcm_BB4_20:                               # %ok.10.i
                                        #   in Loop: Header=BB4_13 Depth=1
	li	ra, 2
	srli	s0, s10, 4
	srli	a3, s11, 4
	srli	s8, t6, 4
	srli	s7, s2, 4
	srli	s6, s9, 4
	srli	s5, a5, 4
	srli	s4, t3, 4
	srli	s3, t5, 4
	xor	a6, s0, s10
	xor	a7, a3, s11
	xor	t0, s8, t6
	xor	t1, s7, s2
	xor	t2, s6, s9
	xor	s5, s5, a5
	xor	s4, s4, t3
	xor	s3, s3, t5
	bne	s1, ra, .Lgcm_BB4_10
# %bb.21:                               # %then.4.i
                                        #   in Loop: Header=BB4_13 Depth=1
	lw	s0, 168(sp)                     # 4-byte Folded Reload
	and	a3, a6, s0
	and	s1, a7, s0
	and	s6, t0, s0
	and	a6, t1, s0
	and	a7, t2, s0
	and	t0, s5, s0
	and	t1, s4, s0
	and	t2, s3, s0
	slli	s0, a3, 4
	add	s3, s0, a3
	slli	s0, s1, 4
	add	s4, s0, s1
	slli	s1, s6, 4
	add	s1, s1, s6
	slli	a3, a6, 4
	add	a3, a3, a6
	slli	s0, a7, 4
	add	a7, a7, s0
	slli	s0, t0, 4
	add	t0, t0, s0
	slli	s0, t1, 4
	add	t1, t1, s0
	slli	s0, t2, 4
	add	t2, t2, s0
	xor	s10, s3, s10
	xor	s11, s4, s11
	xor	t6, s1, t6
	xor	s2, a3, s2
	xor	s9, a7, s9
	xor	a5, t0, a5
	xor	t3, t1, t3
	xor	t5, t2, t5
	j	.Lgcm_BB4_11
.Lgcm_BB4_22:                               # %"aes_soft::soft::key_layout::store::<#dfb00681c6d298fe>.exit"
	lw	ra, 268(sp)                     # 4-byte Folded Reload
	lw	s0, 264(sp)                     # 4-byte Folded Reload
	lw	s1, 260(sp)                     # 4-byte Folded Reload
	lw	s2, 256(sp)                     # 4-byte Folded Reload
	lw	s3, 252(sp)                     # 4-byte Folded Reload
	lw	s4, 248(sp)                     # 4-byte Folded Reload
	lw	s5, 244(sp)                     # 4-byte Folded Reload
	lw	s6, 240(sp)                     # 4-byte Folded Reload
	lw	s7, 236(sp)                     # 4-byte Folded Reload
	lw	s8, 232(sp)                     # 4-byte Folded Reload
	lw	s9, 228(sp)                     # 4-byte Folded Reload
	lw	s10, 224(sp)                    # 4-byte Folded Reload
	lw	s11, 220(sp)                    # 4-byte Folded Reload
	addi	sp, sp, 272
	ret
.Lgcm_func_end4:
	.size	gcm.aes_narrow.word_room.expand_words, .Lgcm_func_end4-gcm.aes_narrow.word_room.expand_words
                                        # -- End function
	.section	.text.gcm.aes_planes.soft.word.word32.U32Word.in_every_slot,"ax",@progbits
	.p2align	1                               # -- Begin function aes_planes::soft::word::word32::U32Word::in_every_slot
	.type	gcm.aes_planes.soft.word.word32.U32Word.in_every_slot,@function
gcm.aes_planes.soft.word.word32.U32Word.in_every_slot: # @gcm.aes_planes.soft.word.word32.U32Word.in_every_slot
# %bb.0:                                # %start
	addi	sp, sp, -64
	sw	ra, 60(sp)                      # 4-byte Folded Spill
	sw	s0, 56(sp)                      # 4-byte Folded Spill
	sw	s1, 52(sp)                      # 4-byte Folded Spill
	sw	s2, 48(sp)                      # 4-byte Folded Spill
	sw	s3, 44(sp)                      # 4-byte Folded Spill
	sw	s4, 40(sp)                      # 4-byte Folded Spill
	sw	s5, 36(sp)                      # 4-byte Folded Spill
	sw	s6, 32(sp)                      # 4-byte Folded Spill
	sw	s7, 28(sp)                      # 4-byte Folded Spill
	sw	s8, 24(sp)                      # 4-byte Folded Spill
	sw	s9, 20(sp)                      # 4-byte Folded Spill
	sw	s10, 16(sp)                     # 4-byte Folded Spill
	sw	s11, 12(sp)                     # 4-byte Folded Spill
	lbu	a6, 0(a1)
	lbu	a7, 1(a1)
	lbu	t1, 2(a1)
	lbu	t5, 3(a1)
	lbu	t0, 4(a1)
	lbu	t3, 5(a1)
	lbu	t4, 6(a1)
	lbu	s5, 7(a1)
	lbu	t2, 8(a1)
	lbu	s2, 9(a1)
	lbu	s3, 10(a1)
	lbu	a5, 11(a1)
	lbu	t6, 12(a1)
	lbu	s0, 13(a1)
	lbu	s1, 14(a1)
	lbu	a1, 15(a1)
	lui	s4, 349525
	lui	a3, 209715
	lui	a2, 61681
	addi	s10, s4, 1365
	addi	s8, a3, 819
	addi	s4, a2, -241
	slli	t5, t5, 24
	slli	t1, t1, 16
	slli	a7, a7, 8
	slli	s5, s5, 24
	slli	t4, t4, 16
	slli	t3, t3, 8
	slli	s6, a5, 24
	slli	s3, s3, 16
	slli	s2, s2, 8
	slli	s7, a1, 24
	slli	s9, s1, 16
	slli	s0, s0, 8
	or	a6, a7, a6
	or	a5, t1, t5
	or	a7, t3, t0
	or	a3, t4, s5
	or	s1, s2, t2
	or	a2, s3, s6
	or	s0, s0, t6
	or	a1, s9, s7
	or	a5, a6, a5
	or	a3, a7, a3
	or	a2, a2, s1
	or	a1, a1, s0
	srli	s1, a5, 1
	srli	s0, a3, 1
	srli	a6, a2, 1
	srli	a7, a1, 1
	xor	s1, s1, a5
	xor	s0, s0, a3
	xor	a6, a2, a6
	xor	a7, a1, a7
	and	s1, s1, s10
	and	s0, s0, s10
	and	a4, a6, s10
	and	a6, a7, s10
	slli	a7, s1, 1
	xor	t0, s1, a5
	slli	t1, s0, 1
	xor	t3, s0, a3
	slli	s1, a4, 1
	xor	t2, a4, a2
	slli	a4, a6, 1
	xor	s0, a6, a1
	xor	t4, a7, a5
	xor	a3, t1, a3
	xor	t1, s1, a2
	xor	a1, a1, a4
	srli	a4, t0, 2
	srli	s1, t2, 2
	srli	a5, t4, 2
	srli	a2, t1, 2
	xor	a4, t3, a4
	xor	s1, s1, s0
	xor	a5, a5, a3
	xor	a2, a2, a1
	and	a4, a4, s8
	and	s1, s1, s8
	and	a5, a5, s8
	and	a2, a2, s8
	slli	a7, a4, 2
	xor	t3, a4, t3
	slli	a4, s1, 2
	xor	s0, s0, s1
	slli	s1, a5, 2
	xor	a6, a5, a3
	slli	a3, a2, 2
	xor	t6, a2, a1
	xor	a7, a7, t0
	xor	a4, a4, t2
	srli	a1, t3, 4
	xor	t4, s1, t4
	xor	t5, a3, t1
	srli	a3, a7, 4
	srli	a5, a6, 4
	xor	a1, a1, s0
	srli	s1, t4, 4
	xor	a3, a3, a4
	xor	a5, t6, a5
	and	a1, a1, s4
	xor	s1, t5, s1
	and	a3, a3, s4
	and	a2, a5, s4
	slli	a5, a1, 4
	xor	s2, a1, s0
	and	s1, s1, s4
	slli	t0, a3, 4
	xor	s4, a3, a4
	slli	t2, a2, 4
	xor	s3, a2, t6
	xor	a2, a5, t3
	srli	t1, s2, 24
	srli	t3, s2, 16
	srli	t6, s2, 8
	slli	a5, s1, 4
	xor	s1, s1, t5
	xor	a4, t0, a7
	xor	a1, t2, a6
	srli	a6, a2, 24
	srli	a3, a2, 16
	srli	s0, a2, 8
	srli	a7, s4, 24
	srli	t0, s4, 16
	srli	t2, s4, 8
	srli	t5, s3, 24
	srli	s5, s3, 16
	srli	s6, s3, 8
	xor	a5, a5, t4
	srli	t4, a4, 24
	srli	s7, a4, 16
	srli	s8, a4, 8
	srli	s9, a1, 24
	srli	s10, a1, 16
	srli	s11, a1, 8
	sb	a2, 12(a0)
	sb	s0, 13(a0)
	sb	a3, 14(a0)
	sb	a6, 15(a0)
	srli	a6, s1, 24
	srli	ra, s1, 16
	sb	s4, 20(a0)
	sb	t2, 21(a0)
	sb	t0, 22(a0)
	sb	a7, 23(a0)
	srli	s0, s1, 8
	sb	s3, 24(a0)
	sb	s6, 25(a0)
	sb	s5, 26(a0)
	sb	t5, 27(a0)
	srli	a2, a5, 24
	srli	a3, a5, 16
	sb	a4, 4(a0)
	sb	s8, 5(a0)
	sb	s7, 6(a0)
	sb	t4, 7(a0)
	srli	a4, a5, 8
	sb	a1, 8(a0)
	sb	s11, 9(a0)
	sb	s10, 10(a0)
	sb	s9, 11(a0)
	sb	s1, 16(a0)
	sb	s0, 17(a0)
	sb	ra, 18(a0)
	sb	a6, 19(a0)
	sb	a5, 0(a0)
	sb	a4, 1(a0)
	sb	a3, 2(a0)
	sb	a2, 3(a0)
	sb	s2, 28(a0)
	sb	t6, 29(a0)
	sb	t3, 30(a0)
	sb	t1, 31(a0)
	lw	ra, 60(sp)                      # 4-byte Folded Reload
	lw	s0, 56(sp)                      # 4-byte Folded Reload
	lw	s1, 52(sp)                      # 4-byte Folded Reload
	lw	s2, 48(sp)                      # 4-byte Folded Reload
	lw	s3, 44(sp)                      # 4-byte Folded Reload
	lw	s4, 40(sp)                      # 4-byte Folded Reload
	lw	s5, 36(sp)                      # 4-byte Folded Reload
	lw	s6, 32(sp)                      # 4-byte Folded Reload
	lw	s7, 28(sp)                      # 4-byte Folded Reload
	lw	s8, 24(sp)                      # 4-byte Folded Reload
	lw	s9, 20(sp)                      # 4-byte Folded Reload
	lw	s10, 16(sp)                     # 4-byte Folded Reload
	lw	s11, 12(sp)                     # 4-byte Folded Reload
	addi	sp, sp, 64
	ret
.Lgcm_func_end5:
	.size	gcm.aes_planes.soft.word.word32.U32Word.in_every_slot, .Lgcm_func_end5-gcm.aes_planes.soft.word.word32.U32Word.in_every_slot
                                        # -- End function
	.section	.text.gcm.aes_cipher.zeroize.stack.wipe_stack.768,"ax",@progbits
	.p2align	1                               # -- Begin function aes_cipher::zeroize::stack::wipe_stack::<=768>
	.type	gcm.aes_cipher.zeroize.stack.wipe_stack.768,@function
gcm.aes_cipher.zeroize.stack.wipe_stack.768: # @gcm.aes_cipher.zeroize.stack.wipe_stack.768
# %bb.0:                                # %start
	addi	sp, sp, -784
	sw	ra, 780(sp)                     # 4-byte Folded Spill
	sw	s0, 776(sp)                     # 4-byte Folded Spill
	addi	a0, sp, 8
	li	a2, 768
	addi	s0, sp, 8
	li	a1, 0
	call	memset
	sw	zero, 0(sp)
	sw	zero, 4(sp)
	#APP
	#NO_APP
	lw	a0, 0(sp)
	lw	a1, 4(sp)
	#APP
	#NO_APP
	seqz	a1, a1
	sltiu	a2, a0, 768
	and	a1, a1, a2
	beqz	a1, .Lgcm_BB6_2
# %bb.1:                                # %then.1
	add	a0, a0, s0
	lbu	a0, 0(a0)
	#APP
	#NO_APP
	lw	zero, 4(sp)
	lw	zero, 0(sp)
	sw	zero, 4(sp)
	sw	a0, 0(sp)
	#APP
	#NO_APP
.Lgcm_BB6_2:                                # %common.ret
	lw	ra, 780(sp)                     # 4-byte Folded Reload
	lw	s0, 776(sp)                     # 4-byte Folded Reload
	addi	sp, sp, 784
	ret
.Lgcm_func_end6:
	.size	gcm.aes_cipher.zeroize.stack.wipe_stack.768, .Lgcm_func_end6-gcm.aes_cipher.zeroize.stack.wipe_stack.768
                                        # -- End function
	.section	.text.gcm.gcm.mode.BorrowedGcm.put_pre_counter,"ax",@progbits
	.p2align	1                               # -- Begin function gcm::mode::BorrowedGcm::put_pre_counter::<#c01aad2b5fbc92b1>
	.type	gcm.gcm.mode.BorrowedGcm.put_pre_counter,@function
gcm.gcm.mode.BorrowedGcm.put_pre_counter: # @gcm.gcm.mode.BorrowedGcm.put_pre_counter
# %bb.0:                                # %start
	addi	sp, sp, -112
	sw	ra, 108(sp)                     # 4-byte Folded Spill
	sw	s0, 104(sp)                     # 4-byte Folded Spill
	sw	s1, 100(sp)                     # 4-byte Folded Spill
	sw	s2, 96(sp)                      # 4-byte Folded Spill
	sw	s3, 92(sp)                      # 4-byte Folded Spill
	sw	s4, 88(sp)                      # 4-byte Folded Spill
	sw	s5, 84(sp)                      # 4-byte Folded Spill
	sw	s6, 80(sp)                      # 4-byte Folded Spill
	sw	s7, 76(sp)                      # 4-byte Folded Spill
	sw	s8, 72(sp)                      # 4-byte Folded Spill
	sw	s9, 68(sp)                      # 4-byte Folded Spill
	sw	s10, 64(sp)                     # 4-byte Folded Spill
	mv	s0, a4
	mv	t4, a1
	xori	a1, a2, 12
	or	a1, a1, a3
	bnez	a1, .Lgcm_BB7_2
# %bb.1:                                # %then.1
	lbu	a0, 9(t4)
	lbu	a1, 8(t4)
	lbu	a2, 10(t4)
	lbu	a3, 11(t4)
	slli	a0, a0, 8
	or	a6, a0, a1
	lbu	a1, 4(t4)
	lbu	a4, 5(t4)
	lbu	a5, 6(t4)
	lbu	s1, 7(t4)
	slli	a2, a2, 16
	slli	a3, a3, 24
	slli	a4, a4, 8
	slli	a5, a5, 16
	slli	s1, s1, 24
	or	a2, a2, a3
	or	a1, a1, a4
	or	a5, a5, s1
	lbu	a3, 1(t4)
	lbu	a4, 0(t4)
	lbu	s1, 2(t4)
	lbu	a0, 3(t4)
	slli	a3, a3, 8
	or	a3, a3, a4
	slli	s1, s1, 16
	slli	a0, a0, 24
	or	a0, a0, s1
	or	a2, a2, a6
	or	a1, a1, a5
	or	a0, a0, a3
	sw	a0, 32(sp)
	sw	a1, 36(sp)
	sw	a2, 40(sp)
	sh	zero, 44(sp)
	sb	zero, 46(sp)
	addi	a1, sp, 32
	li	a2, 15
	mv	a0, s0
	call	memcpy
	li	a0, 1
	j	.Lgcm_BB7_3
.Lgcm_BB7_2:                                # %else.2
	mv	s2, a3
	mv	s4, a2
	lw	a1, 16(a0)
	lbu	a7, 0(a1)
	lbu	t0, 1(a1)
	lbu	t2, 2(a1)
	lbu	a6, 3(a1)
	lbu	t6, 4(a1)
	lbu	t3, 5(a1)
	lbu	t5, 6(a1)
	lbu	t1, 7(a1)
	lbu	a4, 8(a1)
	lbu	a2, 9(a1)
	lbu	a3, 10(a1)
	lbu	s3, 11(a1)
	lbu	a5, 12(a1)
	lbu	s1, 13(a1)
	lbu	s5, 14(a1)
	lbu	s6, 15(a1)
	slli	a7, a7, 24
	slli	t0, t0, 16
	slli	t2, t2, 8
	slli	t6, t6, 24
	slli	t3, t3, 16
	slli	t5, t5, 8
	slli	s7, a4, 24
	slli	s8, a2, 16
	slli	s9, a3, 8
	slli	s10, a5, 24
	slli	s1, s1, 16
	slli	s5, s5, 8
	or	a1, t0, a7
	or	a4, t2, a6
	or	a2, t6, t3
	or	a3, s8, s7
	or	a5, s9, s3
	or	s1, s10, s1
	or	a4, a4, a1
	or	a2, a2, t5
	or	a5, a5, a3
	or	s1, s1, s5
	or	a3, a2, t1
	or	a1, s1, s6
	sltu	a2, a3, a2
	sltu	s1, a1, s1
	add	a4, a4, a2
	add	a2, s1, a5
	mv	s1, a0
	addi	a0, sp, 16
	li	a5, 0
	li	a6, 0
	li	a7, 0
	li	t3, 0
	mv	t5, s4
	mv	t6, s2
	call	gcm.gcm.single_blocks.hash_singly.1
	lw	a2, 16(sp)
	lw	a3, 20(sp)
	lw	a4, 24(sp)
	lw	a5, 28(sp)
	lw	a1, 16(s1)
	mv	a0, sp
	li	a6, 0
	li	a7, 0
	mv	t3, s4
	mv	t4, s2
	call	gcm.gcm.tags.hash_lengths
	lbu	a0, 0(sp)
	lbu	a6, 1(sp)
	lbu	a7, 2(sp)
	lbu	t0, 3(sp)
	lbu	t1, 4(sp)
	lbu	t2, 5(sp)
	lbu	t3, 6(sp)
	lbu	t4, 7(sp)
	lbu	t5, 12(sp)
	lbu	a3, 13(sp)
	lbu	a4, 14(sp)
	lbu	a5, 15(sp)
	lbu	t6, 8(sp)
	lbu	a1, 9(sp)
	lbu	a2, 10(sp)
	lbu	s1, 11(sp)
	sb	a5, 0(s0)
	sb	a4, 1(s0)
	sb	a3, 2(s0)
	sb	t5, 3(s0)
	sb	s1, 4(s0)
	sb	a2, 5(s0)
	sb	a1, 6(s0)
	sb	t6, 7(s0)
	sb	t4, 8(s0)
	sb	t3, 9(s0)
	sb	t2, 10(s0)
	sb	t1, 11(s0)
	sb	t0, 12(s0)
	sb	a7, 13(s0)
	sb	a6, 14(s0)
.Lgcm_BB7_3:                                # %join.3
	sb	a0, 15(s0)
	lw	ra, 108(sp)                     # 4-byte Folded Reload
	lw	s0, 104(sp)                     # 4-byte Folded Reload
	lw	s1, 100(sp)                     # 4-byte Folded Reload
	lw	s2, 96(sp)                      # 4-byte Folded Reload
	lw	s3, 92(sp)                      # 4-byte Folded Reload
	lw	s4, 88(sp)                      # 4-byte Folded Reload
	lw	s5, 84(sp)                      # 4-byte Folded Reload
	lw	s6, 80(sp)                      # 4-byte Folded Reload
	lw	s7, 76(sp)                      # 4-byte Folded Reload
	lw	s8, 72(sp)                      # 4-byte Folded Reload
	lw	s9, 68(sp)                      # 4-byte Folded Reload
	lw	s10, 64(sp)                     # 4-byte Folded Reload
	addi	sp, sp, 112
	ret
.Lgcm_func_end7:
	.size	gcm.gcm.mode.BorrowedGcm.put_pre_counter, .Lgcm_func_end7-gcm.gcm.mode.BorrowedGcm.put_pre_counter
                                        # -- End function
	.section	.text.gcm.gcm.single_blocks.hash_singly.1,"ax",@progbits
	.p2align	1                               # -- Begin function gcm::single_blocks::hash_singly::<#165deadc48559e33>
	.type	gcm.gcm.single_blocks.hash_singly.1,@function
gcm.gcm.single_blocks.hash_singly.1: # @gcm.gcm.single_blocks.hash_singly.1
# %bb.0:                                # %start
	addi	sp, sp, -128
	sw	ra, 124(sp)                     # 4-byte Folded Spill
	sw	s0, 120(sp)                     # 4-byte Folded Spill
	sw	s1, 116(sp)                     # 4-byte Folded Spill
	sw	s2, 112(sp)                     # 4-byte Folded Spill
	sw	s3, 108(sp)                     # 4-byte Folded Spill
	sw	s4, 104(sp)                     # 4-byte Folded Spill
	sw	s5, 100(sp)                     # 4-byte Folded Spill
	sw	s6, 96(sp)                      # 4-byte Folded Spill
	sw	s7, 92(sp)                      # 4-byte Folded Spill
	sw	s8, 88(sp)                      # 4-byte Folded Spill
	sw	s9, 84(sp)                      # 4-byte Folded Spill
	sw	s10, 80(sp)                     # 4-byte Folded Spill
	sw	s11, 76(sp)                     # 4-byte Folded Spill
	mv	s9, t4
	mv	s8, t3
	mv	s7, a7
	mv	s4, a6
	mv	s5, a5
	sw	a4, 20(sp)                      # 4-byte Folded Spill
	sw	a3, 16(sp)                      # 4-byte Folded Spill
	sw	a2, 12(sp)                      # 4-byte Folded Spill
	mv	s6, a1
	slli	a1, t6, 28
	sw	t5, 4(sp)                       # 4-byte Folded Spill
	srli	a2, t5, 4
	or	s11, a2, a1
	srli	s2, t6, 4
	or	a1, s11, s2
	sw	a0, 8(sp)                       # 4-byte Folded Spill
	beqz	a1, .Lgcm_BB8_5
# %bb.1:                                # %join.5.i.preheader
	li	s10, 0
	li	s3, 0
	j	.Lgcm_BB8_3
.Lgcm_BB8_2:                                # %join.5.i
                                        #   in Loop: Header=BB8_3 Depth=1
	sltu	a0, s3, s2
	lw	s5, 40(sp)
	lw	s4, 44(sp)
	lw	s7, 48(sp)
	lw	s8, 52(sp)
	beqz	a0, .Lgcm_BB8_5
.Lgcm_BB8_3:                                # %join.5.i
                                        # =>This Inner Loop Header: Depth=1
	slli	a0, s10, 4
	add	a0, a0, s9
	lbu	a7, 12(a0)
	lbu	t0, 13(a0)
	lbu	t1, 14(a0)
	lbu	a6, 15(a0)
	lbu	t3, 8(a0)
	lbu	t5, 9(a0)
	lbu	t4, 10(a0)
	lbu	t2, 11(a0)
	lbu	a1, 4(a0)
	lbu	a2, 5(a0)
	lbu	a3, 6(a0)
	lbu	a4, 7(a0)
	lbu	a5, 0(a0)
	lbu	s0, 1(a0)
	lbu	s1, 2(a0)
	lbu	a0, 3(a0)
	slli	a5, a5, 24
	slli	s0, s0, 16
	slli	s1, s1, 8
	slli	a1, a1, 24
	slli	a2, a2, 16
	slli	a3, a3, 8
	slli	t3, t3, 24
	slli	t5, t5, 16
	slli	t4, t4, 8
	slli	a7, a7, 24
	slli	t0, t0, 16
	slli	t1, t1, 8
	or	a5, a5, s0
	or	a0, a0, s1
	or	a1, a1, a4
	or	a4, t3, t5
	or	s1, t4, t2
	or	s0, a6, a7
	or	a0, a0, a5
	or	a1, a1, a2
	or	a4, a4, s1
	or	a2, s0, t0
	or	a3, a3, a1
	or	a5, a2, t1
	sltu	s1, a3, a1
	sltu	a2, a5, a2
	xor	a1, a5, s5
	add	a0, a0, s1
	add	a2, a2, a4
	xor	a2, a2, s4
	xor	a4, a0, s8
	xor	a3, a3, s7
	addi	a0, sp, 40
	mv	a5, s6
	lw	a6, 12(sp)                      # 4-byte Folded Reload
	lw	a7, 16(sp)                      # 4-byte Folded Reload
	lw	t3, 20(sp)                      # 4-byte Folded Reload
	call	gcm.gcm.bitwise.product_bitwise
	addi	s10, s10, 1
	seqz	a0, s10
	add	s3, s3, a0
	bne	s3, s2, .Lgcm_BB8_2
# %bb.4:                                #   in Loop: Header=BB8_3 Depth=1
	sltu	a0, s10, s11
	lw	s5, 40(sp)
	lw	s4, 44(sp)
	lw	s7, 48(sp)
	lw	s8, 52(sp)
	bnez	a0, .Lgcm_BB8_3
.Lgcm_BB8_5:                                # %"gcm::single_blocks::hash_whole::<#165deadc48559e33>.exit"
	lw	a1, 4(sp)                       # 4-byte Folded Reload
	andi	a2, a1, 15
	beqz	a2, .Lgcm_BB8_10
# %bb.6:                                # %join.3
	andi	a1, a1, -16
	add	a1, a1, s9
	addi	a0, sp, 60
	bgeu	a0, a1, .Lgcm_BB8_8
# %bb.7:                                # %join.3
	li	a0, 1
	j	.Lgcm_BB8_9
.Lgcm_BB8_8:
	sub	a0, a0, a1
	sltu	a0, a0, a2
	xori	a0, a0, 1
.Lgcm_BB8_9:                                # %join.3
	sw	zero, 60(sp)
	sw	zero, 64(sp)
	sw	zero, 68(sp)
	sw	zero, 72(sp)
	addi	a0, sp, 60
	call	memcpy
	lw	a0, 60(sp)
	lbu	a1, 64(sp)
	lbu	a2, 65(sp)
	lbu	a3, 66(sp)
	lbu	a6, 67(sp)
	lw	a5, 68(sp)
	lbu	t2, 72(sp)
	lbu	t1, 73(sp)
	lbu	t0, 74(sp)
	lbu	a7, 75(sp)
	lui	a4, 16
	addi	a4, a4, -256
	srli	t3, a0, 8
	srli	t5, a0, 24
	slli	a1, a1, 24
	slli	a2, a2, 16
	or	t4, a1, a2
	and	a2, a0, a4
	slli	t6, a0, 24
	slli	a3, a3, 8
	slli	t2, t2, 24
	slli	t1, t1, 16
	or	s0, t2, t1
	srli	a1, a5, 8
	and	s1, t3, a4
	or	s1, s1, t5
	srli	a0, a5, 24
	and	a1, a1, a4
	and	a4, a4, a5
	slli	a5, a5, 24
	slli	t0, t0, 8
	slli	a2, a2, 8
	slli	a4, a4, 8
	or	a2, t6, a2
	or	a3, t4, a3
	or	a0, a0, a1
	or	a4, a4, a5
	or	a1, s0, t0
	or	a2, a2, s1
	or	a5, a3, a6
	or	a0, a0, a4
	or	a4, a1, a7
	sltu	a3, a5, a3
	sltu	s1, a4, a1
	xor	a1, a4, s5
	add	a3, a3, a2
	add	a0, a0, s1
	xor	a2, a0, s4
	xor	a4, a3, s8
	xor	a3, a5, s7
	addi	a0, sp, 24
	mv	a5, s6
	lw	a6, 12(sp)                      # 4-byte Folded Reload
	lw	a7, 16(sp)                      # 4-byte Folded Reload
	lw	t3, 20(sp)                      # 4-byte Folded Reload
	call	gcm.gcm.bitwise.product_bitwise
	lw	s5, 24(sp)
	lw	s4, 28(sp)
	lw	s7, 32(sp)
	lw	s8, 36(sp)
.Lgcm_BB8_10:                               # %common.ret
	lw	a0, 8(sp)                       # 4-byte Folded Reload
	sw	s5, 0(a0)
	sw	s4, 4(a0)
	sw	s7, 8(a0)
	sw	s8, 12(a0)
	lw	ra, 124(sp)                     # 4-byte Folded Reload
	lw	s0, 120(sp)                     # 4-byte Folded Reload
	lw	s1, 116(sp)                     # 4-byte Folded Reload
	lw	s2, 112(sp)                     # 4-byte Folded Reload
	lw	s3, 108(sp)                     # 4-byte Folded Reload
	lw	s4, 104(sp)                     # 4-byte Folded Reload
	lw	s5, 100(sp)                     # 4-byte Folded Reload
	lw	s6, 96(sp)                      # 4-byte Folded Reload
	lw	s7, 92(sp)                      # 4-byte Folded Reload
	lw	s8, 88(sp)                      # 4-byte Folded Reload
	lw	s9, 84(sp)                      # 4-byte Folded Reload
	lw	s10, 80(sp)                     # 4-byte Folded Reload
	lw	s11, 76(sp)                     # 4-byte Folded Reload
	addi	sp, sp, 128
	ret
.Lgcm_func_end8:
	.size	gcm.gcm.single_blocks.hash_singly.1, .Lgcm_func_end8-gcm.gcm.single_blocks.hash_singly.1
                                        # -- End function
	.section	.text.gcm.gcm.bitwise.product_bitwise,"ax",@progbits
	.p2align	1                               # -- Begin function gcm::bitwise::product_bitwise
	.type	gcm.gcm.bitwise.product_bitwise,@function
gcm.gcm.bitwise.product_bitwise:        # @gcm.gcm.bitwise.product_bitwise
# %bb.0:                                # %start
	addi	sp, sp, -32
	sw	s0, 28(sp)                      # 4-byte Folded Spill
	sw	s1, 24(sp)                      # 4-byte Folded Spill
	sw	s2, 20(sp)                      # 4-byte Folded Spill
	sw	s3, 16(sp)                      # 4-byte Folded Spill
	sw	s4, 12(sp)                      # 4-byte Folded Spill
	sw	s5, 8(sp)                       # 4-byte Folded Spill
	sw	s6, 4(sp)                       # 4-byte Folded Spill
	sw	s7, 0(sp)                       # 4-byte Folded Spill
	li	t0, 0
	li	t1, 0
	li	t2, 0
	li	t4, 0
	li	t5, 128
.Lgcm_BB9_1:                                # %join.5
                                        # =>This Inner Loop Header: Depth=1
	srai	t6, a4, 31
	srli	s3, a5, 1
	slli	s1, a6, 31
	srli	s2, a6, 1
	slli	s0, a7, 31
	srli	s4, a7, 1
	slli	s5, a5, 31
	and	s6, t6, a5
	or	s3, s3, s1
	slli	s1, t3, 31
	and	s7, t6, a6
	or	a6, s2, s0
	srli	s0, a1, 31
	and	a5, t6, a7
	or	a7, s4, s1
	slli	s1, a2, 1
	srli	a2, a2, 31
	or	s0, s0, s1
	slli	s1, a3, 1
	srli	a3, a3, 31
	or	s1, s1, a2
	slli	a4, a4, 1
	or	a4, a4, a3
	and	a2, t6, t3
	xor	t4, t4, a2
	srli	a2, t3, 1
	xor	t2, t2, a5
	lui	a3, 921600
	addi	t5, t5, -1
	srai	a5, s5, 31
	xor	t1, t1, s7
	xor	t0, t0, s6
	and	a3, a3, a5
	xor	t3, a3, a2
	slli	a1, a1, 1
	mv	a5, s3
	mv	a2, s0
	mv	a3, s1
	bnez	t5, .Lgcm_BB9_1
# %bb.2:                                # %after.1
	sw	t0, 0(a0)
	sw	t1, 4(a0)
	sw	t2, 8(a0)
	sw	t4, 12(a0)
	lw	s0, 28(sp)                      # 4-byte Folded Reload
	lw	s1, 24(sp)                      # 4-byte Folded Reload
	lw	s2, 20(sp)                      # 4-byte Folded Reload
	lw	s3, 16(sp)                      # 4-byte Folded Reload
	lw	s4, 12(sp)                      # 4-byte Folded Reload
	lw	s5, 8(sp)                       # 4-byte Folded Reload
	lw	s6, 4(sp)                       # 4-byte Folded Reload
	lw	s7, 0(sp)                       # 4-byte Folded Reload
	addi	sp, sp, 32
	ret
.Lgcm_func_end9:
	.size	gcm.gcm.bitwise.product_bitwise, .Lgcm_func_end9-gcm.gcm.bitwise.product_bitwise
                                        # -- End function
	.section	.text.gcm.gcm.tags.hash_lengths,"ax",@progbits
	.p2align	1                               # -- Begin function gcm::tags::hash_lengths::<#d9ba0fa9ccec4268>
	.type	gcm.gcm.tags.hash_lengths,@function
gcm.gcm.tags.hash_lengths: # @gcm.gcm.tags.hash_lengths
# %bb.0:                                # %start
	addi	sp, sp, -64
	sw	ra, 60(sp)                      # 4-byte Folded Spill
	sw	s0, 56(sp)                      # 4-byte Folded Spill
	sw	s1, 52(sp)                      # 4-byte Folded Spill
	sw	s2, 48(sp)                      # 4-byte Folded Spill
	sw	s3, 44(sp)                      # 4-byte Folded Spill
	sw	s4, 40(sp)                      # 4-byte Folded Spill
	sw	s5, 36(sp)                      # 4-byte Folded Spill
	sw	s6, 32(sp)                      # 4-byte Folded Spill
	sw	s7, 28(sp)                      # 4-byte Folded Spill
	sw	s8, 24(sp)                      # 4-byte Folded Spill
	mv	s2, a0
	slli	s5, a6, 3
	slli	s7, t3, 3
	srli	t2, a6, 29
	slli	a7, a7, 3
	lui	a6, 4080
	lui	t0, 1044480
	lui	t1, 16
	srli	s4, t3, 29
	slli	t4, t4, 3
	lbu	t3, 0(a1)
	lbu	t5, 1(a1)
	lbu	t6, 2(a1)
	lbu	s3, 3(a1)
	or	s1, a7, t2
	or	a0, t0, a6
	lbu	a7, 4(a1)
	lbu	t2, 5(a1)
	lbu	s6, 6(a1)
	lbu	a6, 7(a1)
	addi	s0, t1, -256
	or	t4, t4, s4
	xor	t1, s7, a2
	xor	t0, s5, a4
	or	a0, a0, s0
	and	a2, s5, a0
	and	a0, s7, a0
	sltu	a2, s5, a2
	sltu	a0, s7, a0
	add	s4, s1, a2
	lbu	a2, 8(a1)
	lbu	s0, 9(a1)
	lbu	s8, 10(a1)
	lbu	s5, 11(a1)
	slli	t3, t3, 24
	slli	t5, t5, 16
	slli	t6, t6, 8
	add	s7, t4, a0
	or	t3, t5, t3
	or	t4, t6, s3
	lbu	a4, 12(a1)
	lbu	a0, 13(a1)
	lbu	s1, 14(a1)
	lbu	t5, 15(a1)
	slli	a7, a7, 24
	slli	t2, t2, 16
	slli	s6, s6, 8
	slli	a2, a2, 24
	slli	s0, s0, 16
	slli	s8, s8, 8
	slli	a4, a4, 24
	slli	a0, a0, 16
	slli	t6, s1, 8
	or	a1, a7, t2
	or	s0, s0, a2
	or	s1, s8, s5
	or	a0, a0, a4
	xor	a2, s7, a3
	xor	a4, s4, a5
	or	t3, t3, t4
	or	a1, a1, s6
	or	s0, s0, s1
	or	a0, a0, t6
	or	a7, a1, a6
	or	a5, a0, t5
	sltu	a1, a7, a1
	sltu	a6, a5, a0
	add	t3, t3, a1
	add	a6, a6, s0
	addi	a0, sp, 8
	mv	a1, t1
	mv	a3, t0
	call	gcm.gcm.bitwise.product_bitwise
	lw	a0, 8(sp)
	lw	a1, 12(sp)
	lw	a2, 16(sp)
	lw	a3, 20(sp)
	sw	a0, 0(s2)
	sw	a1, 4(s2)
	sw	a2, 8(s2)
	sw	a3, 12(s2)
	lw	ra, 60(sp)                      # 4-byte Folded Reload
	lw	s0, 56(sp)                      # 4-byte Folded Reload
	lw	s1, 52(sp)                      # 4-byte Folded Reload
	lw	s2, 48(sp)                      # 4-byte Folded Reload
	lw	s3, 44(sp)                      # 4-byte Folded Reload
	lw	s4, 40(sp)                      # 4-byte Folded Reload
	lw	s5, 36(sp)                      # 4-byte Folded Reload
	lw	s6, 32(sp)                      # 4-byte Folded Reload
	lw	s7, 28(sp)                      # 4-byte Folded Reload
	lw	s8, 24(sp)                      # 4-byte Folded Reload
	addi	sp, sp, 64
	ret
.Lgcm_func_end10:
	.size	gcm.gcm.tags.hash_lengths, .Lgcm_func_end10-gcm.gcm.tags.hash_lengths
                                        # -- End function
	.section	.text.gcm.aes_cipher.zeroize.stack.wipe_stack.512,"ax",@progbits
	.p2align	1                               # -- Begin function aes_cipher::zeroize::stack::wipe_stack::<=512>
	.type	gcm.aes_cipher.zeroize.stack.wipe_stack.512,@function
gcm.aes_cipher.zeroize.stack.wipe_stack.512: # @gcm.aes_cipher.zeroize.stack.wipe_stack.512
# %bb.0:                                # %start
	addi	sp, sp, -528
	sw	ra, 524(sp)                     # 4-byte Folded Spill
	sw	s0, 520(sp)                     # 4-byte Folded Spill
	addi	a0, sp, 8
	li	a2, 512
	addi	s0, sp, 8
	li	a1, 0
	call	memset
	sw	zero, 0(sp)
	sw	zero, 4(sp)
	#APP
	#NO_APP
	lw	a0, 0(sp)
	lw	a1, 4(sp)
	#APP
	#NO_APP
	seqz	a1, a1
	sltiu	a2, a0, 512
	and	a1, a1, a2
	beqz	a1, .Lgcm_BB11_2
# %bb.1:                                # %then.1
	add	a0, a0, s0
	lbu	a0, 0(a0)
	#APP
	#NO_APP
	lw	zero, 4(sp)
	lw	zero, 0(sp)
	sw	zero, 4(sp)
	sw	a0, 0(sp)
	#APP
	#NO_APP
.Lgcm_BB11_2:                               # %common.ret
	lw	ra, 524(sp)                     # 4-byte Folded Reload
	lw	s0, 520(sp)                     # 4-byte Folded Reload
	addi	sp, sp, 528
	ret
.Lgcm_func_end11:
	.size	gcm.aes_cipher.zeroize.stack.wipe_stack.512, .Lgcm_func_end11-gcm.aes_cipher.zeroize.stack.wipe_stack.512
                                        # -- End function
	.section	.text.gcm.gcm.mode.BorrowedGcm.put_tag_so_far,"ax",@progbits
	.p2align	1                               # -- Begin function gcm::mode::BorrowedGcm::put_tag_so_far::<#c01aad2b5fbc92b1>
	.type	gcm.gcm.mode.BorrowedGcm.put_tag_so_far,@function
gcm.gcm.mode.BorrowedGcm.put_tag_so_far: # @gcm.gcm.mode.BorrowedGcm.put_tag_so_far
# %bb.0:                                # %start
	addi	sp, sp, -80
	sw	ra, 76(sp)                      # 4-byte Folded Spill
	sw	s0, 72(sp)                      # 4-byte Folded Spill
	sw	s1, 68(sp)                      # 4-byte Folded Spill
	sw	s2, 64(sp)                      # 4-byte Folded Spill
	sw	s3, 60(sp)                      # 4-byte Folded Spill
	sw	s4, 56(sp)                      # 4-byte Folded Spill
	sw	s5, 52(sp)                      # 4-byte Folded Spill
	sw	s6, 48(sp)                      # 4-byte Folded Spill
	sw	s7, 44(sp)                      # 4-byte Folded Spill
	mv	s0, a2
	mv	s2, a1
	mv	s1, a0
	addi	a1, a1, 32
	li	a2, 16
	mv	a0, s0
	call	memmove
	lbu	a6, 0(s1)
	lbu	a7, 1(s1)
	lbu	a2, 2(s1)
	lbu	a3, 3(s1)
	lbu	a4, 8(s1)
	lbu	a5, 9(s1)
	lbu	a0, 10(s1)
	lbu	a1, 11(s1)
	slli	a7, a7, 8
	slli	a2, a2, 16
	slli	a3, a3, 24
	slli	a5, a5, 8
	slli	a0, a0, 16
	slli	a1, a1, 24
	or	a6, a7, a6
	or	a7, a3, a2
	or	a4, a4, a5
	or	a1, a1, a0
	lbu	a0, 13(s1)
	lbu	a3, 12(s1)
	lbu	a5, 14(s1)
	lbu	a2, 15(s1)
	slli	a0, a0, 8
	or	a3, a3, a0
	slli	a5, a5, 16
	slli	a2, a2, 24
	or	a2, a2, a5
	or	a0, a7, a6
	or	a1, a1, a4
	or	a2, a2, a3
	li	a4, 1
	li	s3, 1
	mv	a3, s0
	li	a5, 0
	call	gcm.aes_narrow.blocks.process_all_batches
	call	gcm.aes_cipher.zeroize.stack.wipe_stack.1024
	lw	a1, 16(s1)
	addi	a0, sp, 24
	mv	a2, s2
	call	gcm.gcm.mode.BorrowedGcm.hash_so_far
	lw	a7, 4(s2)
	lui	a0, 131072
	addi	a0, a0, -1
	bne	a7, a0, .Lgcm_BB12_4
# %bb.1:                                # %start
	beqz	s3, .Lgcm_BB12_5
.Lgcm_BB12_2:                               # %start
	lw	a0, 0(s2)
	lw	t4, 12(s2)
	lw	t3, 8(s2)
	li	a1, 15
	addi	s3, s3, -1
	beq	t4, a1, .Lgcm_BB12_6
.Lgcm_BB12_3:                               # %start
	sltiu	a1, t4, 15
	lw	a2, 24(sp)
	lw	a3, 28(sp)
	lw	a4, 32(sp)
	lw	a5, 36(sp)
	or	a6, s3, a0
	beqz	a1, .Lgcm_BB12_7
	j	.Lgcm_BB12_8
.Lgcm_BB12_4:
	srli	a1, a7, 29
	seqz	s3, a1
	bnez	s3, .Lgcm_BB12_2
.Lgcm_BB12_5:                               # %start
	mv	a7, a0
	lw	a0, 0(s2)
	lw	t4, 12(s2)
	lw	t3, 8(s2)
	li	a1, 15
	addi	s3, s3, -1
	bne	t4, a1, .Lgcm_BB12_3
.Lgcm_BB12_6:
	sltiu	a1, t3, -32
	lw	a2, 24(sp)
	lw	a3, 28(sp)
	lw	a4, 32(sp)
	lw	a5, 36(sp)
	or	a6, s3, a0
	bnez	a1, .Lgcm_BB12_8
.Lgcm_BB12_7:                               # %start
	li	t3, -32
	li	t4, 15
.Lgcm_BB12_8:                               # %start
	lw	a1, 16(s1)
	addi	a0, sp, 8
	call	gcm.gcm.tags.hash_lengths
	lbu	a6, 16(sp)
	lbu	a7, 17(sp)
	lbu	t0, 18(sp)
	lbu	t1, 19(sp)
	lbu	t3, 12(sp)
	lbu	t4, 13(sp)
	lbu	t5, 14(sp)
	lbu	t2, 15(sp)
	lbu	s2, 8(sp)
	lbu	s3, 9(sp)
	lbu	s4, 10(sp)
	lbu	t6, 11(sp)
	lbu	a4, 12(s0)
	lbu	a5, 13(s0)
	lbu	s1, 14(s0)
	lbu	a0, 15(s0)
	lbu	s5, 8(s0)
	lbu	a2, 9(s0)
	lbu	a3, 10(s0)
	lbu	a1, 11(s0)
	xor	s2, a0, s2
	xor	s3, s1, s3
	xor	s4, a5, s4
	xor	t6, a4, t6
	lbu	s6, 4(s0)
	lbu	s1, 5(s0)
	lbu	a5, 6(s0)
	lbu	a4, 7(s0)
	xor	t3, a1, t3
	xor	t4, a3, t4
	xor	t5, a2, t5
	xor	t2, s5, t2
	lbu	s5, 0(s0)
	lbu	s7, 1(s0)
	lbu	a1, 2(s0)
	lbu	a0, 3(s0)
	xor	a6, a4, a6
	xor	a7, a5, a7
	xor	t0, s1, t0
	xor	a4, s6, t1
	lbu	a5, 20(sp)
	lbu	a3, 21(sp)
	lbu	s1, 22(sp)
	lbu	a2, 23(sp)
	xor	a0, a0, a5
	xor	a1, a1, a3
	xor	a3, s7, s1
	xor	a2, s5, a2
	sb	a2, 0(s0)
	sb	a3, 1(s0)
	sb	a1, 2(s0)
	sb	a0, 3(s0)
	sb	a4, 4(s0)
	sb	t0, 5(s0)
	sb	a7, 6(s0)
	sb	a6, 7(s0)
	sb	t2, 8(s0)
	sb	t5, 9(s0)
	sb	t4, 10(s0)
	sb	t3, 11(s0)
	sb	t6, 12(s0)
	sb	s4, 13(s0)
	sb	s3, 14(s0)
	sb	s2, 15(s0)
	lw	ra, 76(sp)                      # 4-byte Folded Reload
	lw	s0, 72(sp)                      # 4-byte Folded Reload
	lw	s1, 68(sp)                      # 4-byte Folded Reload
	lw	s2, 64(sp)                      # 4-byte Folded Reload
	lw	s3, 60(sp)                      # 4-byte Folded Reload
	lw	s4, 56(sp)                      # 4-byte Folded Reload
	lw	s5, 52(sp)                      # 4-byte Folded Reload
	lw	s6, 48(sp)                      # 4-byte Folded Reload
	lw	s7, 44(sp)                      # 4-byte Folded Reload
	addi	sp, sp, 80
	ret
.Lgcm_func_end12:
	.size	gcm.gcm.mode.BorrowedGcm.put_tag_so_far, .Lgcm_func_end12-gcm.gcm.mode.BorrowedGcm.put_tag_so_far
                                        # -- End function
	.section	.text.gcm.aes_narrow.blocks.process_all_batches,"ax",@progbits
	.p2align	1                               # -- Begin function aes_narrow::blocks::process_all_batches::<#f6c900d3ac1e47b9>
	.type	gcm.aes_narrow.blocks.process_all_batches,@function
gcm.aes_narrow.blocks.process_all_batches: # @gcm.aes_narrow.blocks.process_all_batches
# %bb.0:                                # %start
	addi	sp, sp, -48
	sw	ra, 44(sp)                      # 4-byte Folded Spill
	sw	s0, 40(sp)                      # 4-byte Folded Spill
	sw	s1, 36(sp)                      # 4-byte Folded Spill
	sw	s2, 32(sp)                      # 4-byte Folded Spill
	sw	s3, 28(sp)                      # 4-byte Folded Spill
	sw	s4, 24(sp)                      # 4-byte Folded Spill
	sw	s5, 20(sp)                      # 4-byte Folded Spill
	sw	s6, 16(sp)                      # 4-byte Folded Spill
	sw	s7, 12(sp)                      # 4-byte Folded Spill
	mv	s6, a5
	mv	s7, a4
	mv	s2, a3
	mv	s3, a2
	mv	s4, a1
	mv	s5, a0
	li	a0, 0
	li	s0, 0
	j	.Lgcm_BB13_2
.Lgcm_BB13_1:                               # %join.5
                                        #   in Loop: Header=BB13_2 Depth=1
	sltu	a1, s0, s6
	mv	a0, s1
	beqz	a1, .Lgcm_BB13_6
.Lgcm_BB13_2:                               # %join.5
                                        # =>This Inner Loop Header: Depth=1
	sltu	a1, s7, a0
	sub	a2, s6, s0
	sub	a2, a2, a1
	sub	a1, s7, a0
	seqz	a2, a2
	addi	a2, a2, -1
	or	a4, a2, a1
	li	a1, 2
	bltu	a4, a1, .Lgcm_BB13_4
# %bb.3:                                # %join.5
                                        #   in Loop: Header=BB13_2 Depth=1
	li	a4, 2
.Lgcm_BB13_4:                               # %join.5
                                        #   in Loop: Header=BB13_2 Depth=1
	add	s1, a4, a0
	slli	a0, a0, 4
	sltu	a1, s1, a4
	add	s0, s0, a1
	add	a3, s2, a0
	mv	a0, s5
	mv	a1, s4
	mv	a2, s3
	li	a5, 0
	call	gcm.aes_soft.soft.blocks.filled_up.process_filled_up
	bne	s0, s6, .Lgcm_BB13_1
# %bb.5:                                #   in Loop: Header=BB13_2 Depth=1
	sltu	a1, s1, s7
	mv	a0, s1
	bnez	a1, .Lgcm_BB13_2
.Lgcm_BB13_6:                               # %after.1
	lw	ra, 44(sp)                      # 4-byte Folded Reload
	lw	s0, 40(sp)                      # 4-byte Folded Reload
	lw	s1, 36(sp)                      # 4-byte Folded Reload
	lw	s2, 32(sp)                      # 4-byte Folded Reload
	lw	s3, 28(sp)                      # 4-byte Folded Reload
	lw	s4, 24(sp)                      # 4-byte Folded Reload
	lw	s5, 20(sp)                      # 4-byte Folded Reload
	lw	s6, 16(sp)                      # 4-byte Folded Reload
	lw	s7, 12(sp)                      # 4-byte Folded Reload
	addi	sp, sp, 48
	ret
.Lgcm_func_end13:
	.size	gcm.aes_narrow.blocks.process_all_batches, .Lgcm_func_end13-gcm.aes_narrow.blocks.process_all_batches
                                        # -- End function
	.section	.text.gcm.aes_soft.soft.blocks.filled_up.process_filled_up,"ax",@progbits
	.p2align	1                               # -- Begin function aes_soft::soft::blocks::filled_up::process_filled_up::<#f6c900d3ac1e47b9>
	.type	gcm.aes_soft.soft.blocks.filled_up.process_filled_up,@function
gcm.aes_soft.soft.blocks.filled_up.process_filled_up: # @gcm.aes_soft.soft.blocks.filled_up.process_filled_up
# %bb.0:                                # %start
	addi	sp, sp, -160
	sw	ra, 156(sp)                     # 4-byte Folded Spill
	sw	s0, 152(sp)                     # 4-byte Folded Spill
	sw	s1, 148(sp)                     # 4-byte Folded Spill
	sw	s2, 144(sp)                     # 4-byte Folded Spill
	sw	s3, 140(sp)                     # 4-byte Folded Spill
	sw	s4, 136(sp)                     # 4-byte Folded Spill
	sw	s5, 132(sp)                     # 4-byte Folded Spill
	sw	s6, 128(sp)                     # 4-byte Folded Spill
	mv	s3, a5
	mv	s4, a4
	mv	s0, a3
	mv	s6, a2
	mv	s5, a1
	mv	s2, a0
	lbu	a0, 12(a3)
	lbu	a1, 13(a3)
	lbu	a2, 14(a3)
	lbu	a3, 15(a3)
	lbu	a6, 8(s0)
	lbu	a5, 9(s0)
	lbu	s1, 10(s0)
	lbu	a4, 11(s0)
	slli	a1, a1, 8
	slli	a2, a2, 16
	slli	a3, a3, 24
	or	a7, a1, a0
	or	t0, a3, a2
	lbu	a1, 4(s0)
	lbu	a3, 5(s0)
	lbu	a0, 6(s0)
	lbu	a2, 7(s0)
	slli	a5, a5, 8
	slli	s1, s1, 16
	slli	a4, a4, 24
	slli	a3, a3, 8
	slli	a0, a0, 16
	slli	a2, a2, 24
	or	a6, a5, a6
	or	a4, a4, s1
	or	a1, a1, a3
	or	a0, a0, a2
	lbu	a2, 1(s0)
	lbu	a3, 0(s0)
	lbu	s1, 2(s0)
	lbu	a5, 3(s0)
	slli	a2, a2, 8
	or	a2, a2, a3
	slli	s1, s1, 16
	slli	a5, a5, 24
	or	a5, a5, s1
	or	a3, t0, a7
	or	a4, a4, a6
	or	a0, a0, a1
	or	a2, a2, a5
	sw	zero, 80(sp)
	sw	zero, 84(sp)
	sw	zero, 88(sp)
	sw	zero, 92(sp)
	sw	zero, 64(sp)
	sw	zero, 68(sp)
	sw	zero, 72(sp)
	sw	zero, 76(sp)
	sw	zero, 32(sp)
	sw	zero, 36(sp)
	sw	zero, 40(sp)
	sw	zero, 44(sp)
	sw	zero, 48(sp)
	sw	zero, 52(sp)
	sw	zero, 56(sp)
	sw	zero, 60(sp)
	sw	zero, 0(sp)
	sw	zero, 4(sp)
	sw	zero, 8(sp)
	sw	zero, 12(sp)
	sw	zero, 16(sp)
	sw	zero, 20(sp)
	sw	zero, 24(sp)
	sw	zero, 28(sp)
	sw	a2, 96(sp)
	sw	a0, 100(sp)
	sw	a4, 104(sp)
	sw	a3, 108(sp)
	addi	a0, sp, 112
	li	a2, 16
	mv	a1, s0
	call	memcpy
	slli	a0, s6, 29
	srli	a1, s5, 3
	srli	a2, s6, 3
	or	a4, s4, s3
	or	a0, a0, a1
	seqz	a1, a0
	sub	a3, a2, a1
	seqz	s5, a4
	addi	a2, a0, -1
	xori	s4, s4, 1
	beqz	a4, .Lgcm_BB14_2
# %bb.1:                                # %join.8.i
	lbu	t0, 12(s0)
	lbu	a1, 13(s0)
	lbu	a4, 14(s0)
	lbu	a5, 15(s0)
	lbu	a6, 8(s0)
	lbu	a7, 9(s0)
	lbu	t2, 10(s0)
	lbu	a0, 11(s0)
	slli	a1, a1, 8
	slli	a4, a4, 16
	slli	a5, a5, 24
	or	t0, a1, t0
	or	t1, a5, a4
	lbu	a5, 4(s0)
	lbu	a1, 5(s0)
	lbu	a4, 6(s0)
	lbu	s1, 7(s0)
	slli	a7, a7, 8
	slli	t2, t2, 16
	slli	a0, a0, 24
	slli	a1, a1, 8
	slli	a4, a4, 16
	slli	s1, s1, 24
	or	a6, a7, a6
	or	a7, a0, t2
	or	t2, a1, a5
	or	a4, a4, s1
	lbu	a5, 1(s0)
	lbu	s1, 0(s0)
	lbu	a0, 2(s0)
	lbu	a1, 3(s0)
	slli	a5, a5, 8
	or	a5, a5, s1
	slli	a0, a0, 16
	slli	a1, a1, 24
	or	a0, a0, a1
	or	a1, t1, t0
	or	s1, a7, a6
	or	a4, a4, t2
	or	a0, a0, a5
	or	a5, s4, s3
	sw	a0, 96(sp)
	sw	a4, 100(sp)
	sw	s1, 104(sp)
	sw	a1, 108(sp)
	bnez	a5, .Lgcm_BB14_3
.Lgcm_BB14_2:                               # %then.6.i
	lw	a0, 112(sp)
	lw	a1, 116(sp)
	lw	a4, 120(sp)
	lw	a5, 124(sp)
	sw	a0, 48(sp)
	sw	a1, 52(sp)
	sw	a4, 56(sp)
	sw	a5, 60(sp)
	lw	a0, 96(sp)
	lw	a1, 100(sp)
	lw	a4, 104(sp)
	lw	a5, 108(sp)
	sw	a0, 32(sp)
	sw	a1, 36(sp)
	sw	a4, 40(sp)
	sw	a5, 44(sp)
	j	.Lgcm_BB14_4
.Lgcm_BB14_3:                               # %join.8.i.1
	addi	a1, s0, 16
	addi	a0, sp, 112
	mv	s6, a2
	li	a2, 16
	mv	s1, a3
	call	memcpy
	mv	a2, s6
	mv	a3, s1
	lw	a0, 96(sp)
	lw	a1, 100(sp)
	lw	a4, 104(sp)
	lw	a5, 108(sp)
	sw	a0, 32(sp)
	sw	a1, 36(sp)
	sw	a4, 40(sp)
	sw	a5, 44(sp)
	lw	a0, 112(sp)
	lw	a1, 116(sp)
	lw	a4, 120(sp)
	lw	a5, 124(sp)
	sw	a0, 48(sp)
	sw	a1, 52(sp)
	sw	a4, 56(sp)
	sw	a5, 60(sp)
.Lgcm_BB14_4:                               # %"aes_soft::soft::blocks::filled_up::filled_up::<#ee324ebdabaa1892>.exit"
	mv	a0, sp
	addi	a4, sp, 32
	mv	a1, s2
	call	gcm.aes_soft.soft.ciphers.planes.process_outlined
	lw	a0, 16(sp)
	lw	a1, 20(sp)
	lw	a2, 24(sp)
	lw	a3, 28(sp)
	sw	a0, 80(sp)
	sw	a1, 84(sp)
	sw	a2, 88(sp)
	sw	a3, 92(sp)
	lw	a0, 0(sp)
	lw	a1, 4(sp)
	lw	a2, 8(sp)
	lw	a3, 12(sp)
	sw	a0, 64(sp)
	sw	a1, 68(sp)
	sw	a2, 72(sp)
	sw	a3, 76(sp)
	bnez	s5, .Lgcm_BB14_7
# %bb.5:                                # %join.8.i22.peel
	addi	a1, sp, 64
	li	a2, 16
	mv	a0, s0
	call	memcpy
	or	a0, s4, s3
	beqz	a0, .Lgcm_BB14_7
# %bb.6:                                # %join.8.i22.preheader.peel.newph
	addi	a1, sp, 80
	addi	a0, s0, 16
	li	a2, 16
	call	memcpy
.Lgcm_BB14_7:                               # %"aes_soft::soft::blocks::filled_up::copy_first::<#ee324ebdabaa1892>.exit"
	lw	ra, 156(sp)                     # 4-byte Folded Reload
	lw	s0, 152(sp)                     # 4-byte Folded Reload
	lw	s1, 148(sp)                     # 4-byte Folded Reload
	lw	s2, 144(sp)                     # 4-byte Folded Reload
	lw	s3, 140(sp)                     # 4-byte Folded Reload
	lw	s4, 136(sp)                     # 4-byte Folded Reload
	lw	s5, 132(sp)                     # 4-byte Folded Reload
	lw	s6, 128(sp)                     # 4-byte Folded Reload
	addi	sp, sp, 160
	ret
.Lgcm_func_end14:
	.size	gcm.aes_soft.soft.blocks.filled_up.process_filled_up, .Lgcm_func_end14-gcm.aes_soft.soft.blocks.filled_up.process_filled_up
                                        # -- End function
	.section	.text.gcm.aes_soft.soft.ciphers.planes.process_outlined,"ax",@progbits
	.p2align	1                               # -- Begin function aes_soft::soft::ciphers::planes::process_outlined::<#dc651273b304e77a>
	.type	gcm.aes_soft.soft.ciphers.planes.process_outlined,@function
gcm.aes_soft.soft.ciphers.planes.process_outlined: # @gcm.aes_soft.soft.ciphers.planes.process_outlined
# %bb.0:                                # %start
	addi	sp, sp, -160
	sw	ra, 156(sp)                     # 4-byte Folded Spill
	sw	s0, 152(sp)                     # 4-byte Folded Spill
	sw	s1, 148(sp)                     # 4-byte Folded Spill
	sw	s2, 144(sp)                     # 4-byte Folded Spill
	sw	s3, 140(sp)                     # 4-byte Folded Spill
	sw	s4, 136(sp)                     # 4-byte Folded Spill
	sw	s5, 132(sp)                     # 4-byte Folded Spill
	sw	s6, 128(sp)                     # 4-byte Folded Spill
	sw	s7, 124(sp)                     # 4-byte Folded Spill
	sw	s8, 120(sp)                     # 4-byte Folded Spill
	sw	s9, 116(sp)                     # 4-byte Folded Spill
	sw	s10, 112(sp)                    # 4-byte Folded Spill
	sw	s11, 108(sp)                    # 4-byte Folded Spill
	mv	s10, a1
	sw	a0, 24(sp)                      # 4-byte Folded Spill
	lbu	a7, 0(a4)
	lbu	t1, 1(a4)
	lbu	t0, 2(a4)
	lbu	s2, 3(a4)
	lbu	t2, 16(a4)
	lbu	t3, 17(a4)
	lbu	s4, 18(a4)
	lbu	a0, 19(a4)
	lbu	a1, 4(a4)
	lbu	a5, 5(a4)
	lbu	t4, 6(a4)
	lbu	s3, 7(a4)
	lbu	t5, 20(a4)
	lbu	t6, 21(a4)
	lbu	s6, 22(a4)
	lbu	s11, 23(a4)
	slli	t1, t1, 8
	or	a7, t1, a7
	lbu	s8, 8(a4)
	lbu	s0, 9(a4)
	lbu	s5, 10(a4)
	lbu	s7, 11(a4)
	slli	s2, s2, 24
	slli	t0, t0, 16
	slli	a0, a0, 24
	slli	s4, s4, 16
	slli	t3, t3, 8
	slli	a5, a5, 8
	or	t1, t0, s2
	or	t0, t3, t2
	or	t3, s4, a0
	or	t2, a5, a1
	lbu	s9, 24(a4)
	lbu	a0, 25(a4)
	lbu	a1, 26(a4)
	lbu	s1, 27(a4)
	slli	s3, s3, 24
	slli	t4, t4, 16
	slli	s11, s11, 24
	slli	s6, s6, 16
	slli	a5, t6, 8
	slli	s0, s0, 8
	or	t6, t4, s3
	or	t5, a5, t5
	or	s2, s6, s11
	or	a6, s0, s8
	lbu	s0, 12(a4)
	lbu	a5, 13(a4)
	lbu	s6, 14(a4)
	lbu	s8, 15(a4)
	slli	s7, s7, 24
	slli	s5, s5, 16
	slli	s1, s1, 24
	slli	a1, a1, 16
	slli	a0, a0, 8
	or	s4, s5, s7
	or	s3, a0, s9
	or	t4, a1, s1
	lbu	s1, 28(a4)
	lbu	a1, 29(a4)
	lbu	s9, 30(a4)
	lbu	a0, 31(a4)
	slli	a5, a5, 8
	or	s7, a5, s0
	addi	a4, a2, -2
	slli	s8, s8, 24
	slli	s6, s6, 16
	or	s6, s6, s8
	sw	a2, 32(sp)                      # 4-byte Folded Spill
	sltu	a5, a4, a2
	slli	a1, a1, 8
	or	s8, a1, s1
	sw	a4, 28(sp)                      # 4-byte Folded Spill
	srli	a2, a4, 2
	sw	a3, 12(sp)                      # 4-byte Folded Spill
	add	a3, a3, a5
	addi	ra, a3, -1
	slli	a5, a0, 24
	slli	a0, s9, 16
	or	a0, a0, a5
	slli	a3, ra, 30
	or	s5, a2, a3
	lui	a4, 209715
	or	s9, a7, t1
	or	s11, t0, t3
	or	t3, t2, t6
	or	t5, t5, s2
	lw	a7, 0(s10)
	lw	t1, 4(s10)
	lw	t0, 8(s10)
	lw	t2, 12(s10)
	lui	a1, 349525
	addi	a1, a1, 1365
	addi	a5, a4, 819
	or	a6, a6, s4
	or	s0, s3, t4
	or	s3, s7, s6
	or	a0, s8, a0
	srli	s1, s9, 1
	srli	a2, t3, 1
	srli	a4, a6, 1
	srli	a3, s3, 1
	xor	s1, s11, s1
	xor	a2, t5, a2
	xor	a4, a4, s0
	xor	a3, a3, a0
	and	s1, s1, a1
	and	a2, a2, a1
	and	a4, a4, a1
	sw	a1, 16(sp)                      # 4-byte Folded Spill
	and	a1, a1, a3
	xor	t4, s1, s11
	slli	s1, s1, 1
	xor	s2, a2, t5
	slli	a2, a2, 1
	xor	t5, a4, s0
	slli	a4, a4, 1
	xor	a0, a0, a1
	slli	a1, a1, 1
	xor	t6, s1, s9
	xor	a2, a2, t3
	xor	a6, a4, a6
	xor	a1, a1, s3
	srli	a3, t4, 2
	srli	s0, t5, 2
	srli	s1, t6, 2
	srli	a4, a6, 2
	xor	a3, s2, a3
	xor	s0, s0, a0
	xor	s1, s1, a2
	xor	a4, a4, a1
	and	a3, a3, a5
	and	s0, s0, a5
	and	s1, s1, a5
	sw	a5, 20(sp)                      # 4-byte Folded Spill
	and	a4, a4, a5
	xor	a5, a3, s2
	slli	a3, a3, 2
	xor	a0, a0, s0
	slli	s0, s0, 2
	xor	a2, a2, s1
	slli	s1, s1, 2
	xor	a1, a1, a4
	slli	a4, a4, 2
	xor	a3, a3, t4
	xor	s0, s0, t5
	xor	s1, s1, t6
	xor	a4, a4, a6
	lw	a6, 16(s10)
	lw	t3, 20(s10)
	lw	t4, 28(s10)
	sw	s10, 60(sp)                     # 4-byte Folded Spill
	lw	t5, 24(s10)
	xor	t2, t2, a5
	srli	a5, a5, 4
	xor	t4, a0, t4
	xor	a0, a0, a5
	lui	t6, 1036240
	xor	t1, t1, a3
	srli	a3, a3, 4
	xor	a5, s0, t3
	xor	s0, s0, a3
	lui	t3, 986895
	xor	t0, t0, a2
	srli	a2, a2, 4
	xor	t5, a1, t5
	xor	a2, a2, a1
	lui	s2, 789516
	xor	a7, a7, s1
	srli	s1, s1, 4
	xor	a6, a4, a6
	xor	s3, a4, s1
	lui	a1, 61681
	addi	a3, a1, -241
	and	a0, a0, a3
	xor	s4, t4, a0
	slli	a0, a0, 4
	xor	t2, t2, a0
	lui	s1, 259060
	and	a0, s0, a3
	xor	a4, a5, a0
	slli	a0, a0, 4
	xor	s11, t1, a0
	lui	t1, 12336
	addi	a0, t6, -772
	sw	a0, 48(sp)                      # 4-byte Folded Spill
	addi	a0, t3, 240
	sw	a0, 96(sp)                      # 4-byte Folded Spill
	addi	a0, s2, 192
	sw	a0, 56(sp)                      # 4-byte Folded Spill
	addi	a0, s1, -193
	sw	a0, 52(sp)                      # 4-byte Folded Spill
	and	a2, a2, a3
	xor	a1, t5, a2
	slli	a2, a2, 4
	xor	a2, t0, a2
	sw	ra, 8(sp)                       # 4-byte Folded Spill
	srli	s1, ra, 2
	sw	a3, 100(sp)                     # 4-byte Folded Spill
	and	s0, s3, a3
	xor	a5, a6, s0
	slli	s0, s0, 4
	xor	s8, a7, s0
	sw	s5, 36(sp)                      # 4-byte Folded Spill
	or	s0, s5, s1
	addi	a0, t1, 771
	sw	a0, 44(sp)                      # 4-byte Folded Spill
	beqz	s0, .Lgcm_BB15_6
# %bb.1:                                # %join.7.i.preheader
	li	s6, 0
	li	a0, 0
	sw	s1, 40(sp)                      # 4-byte Folded Spill
	j	.Lgcm_BB15_4
.Lgcm_BB15_2:                               # %join.7.i
                                        #   in Loop: Header=BB15_4 Depth=1
	sltu	a0, a0, s1
.Lgcm_BB15_3:                               # %join.7.i
                                        #   in Loop: Header=BB15_4 Depth=1
	sw	a0, 80(sp)                      # 4-byte Folded Spill
	xor	s1, a4, a1
	xor	s10, a5, s4
	xor	s7, s11, s4
	xor	s9, a2, a5
	xor	s3, a2, s4
	xor	a4, s8, s1
	xor	ra, s7, s9
	xor	t3, a4, a5
	xor	a5, ra, t2
	mv	a6, s8
	xor	s8, a4, s4
	xor	s11, a4, s11
	and	a0, t3, a6
	xor	t2, a5, a2
	xor	t1, a5, a1
	xor	s5, s11, s3
	sw	s5, 88(sp)                      # 4-byte Folded Spill
	and	t0, s11, a4
	xor	a5, t1, s10
	xor	t6, t2, a6
	and	a3, t2, ra
	xor	a2, t2, s1
	xor	a0, a0, s3
	and	a1, a5, s10
	xor	s2, a5, s1
	xor	s0, a5, a2
	sw	s0, 92(sp)                      # 4-byte Folded Spill
	xor	a7, a5, a6
	and	t4, a2, s3
	xor	t5, a0, a2
	xor	a0, t1, a3
	xor	t5, t5, a3
	and	s1, t6, s5
	xor	t1, a0, s1
	and	s1, s0, s9
	xor	s5, t4, a1
	xor	a1, a1, s1
	and	s1, s2, s7
	xor	s0, s2, t0
	xor	t0, s0, s1
	xor	t4, s1, s4
	and	a3, a7, s8
	xor	s0, t5, s5
	xor	s1, s2, a3
	xor	a3, t1, a1
	xor	a0, t0, s7
	xor	s1, s1, t4
	xor	s4, a0, a1
	xor	t0, s1, s5
	xor	a0, a3, s0
	and	t4, s4, a3
	xor	a1, t0, s4
	xor	a3, t4, s0
	and	t5, a3, a1
	xor	t1, t4, t0
	and	a1, t1, a0
	xor	s5, a1, s0
	slli	s6, s6, 7
	lw	a1, 60(sp)                      # 4-byte Folded Reload
	add	a1, a1, s6
	sw	a1, 104(sp)                     # 4-byte Folded Spill
	xor	a1, t5, t4
	xor	a3, t5, t0
	and	t3, a3, t3
	and	a1, a1, t0
	xor	s0, s5, a3
	and	t4, a3, a6
	and	t0, s5, s8
	and	a7, s5, a7
	xor	s1, a1, t1
	xor	a1, a1, s4
	and	t1, s0, a5
	and	t5, s0, s10
	and	s1, s1, s5
	xor	a3, a3, a1
	and	a5, a1, t2
	and	t2, a1, ra
	xor	a0, a0, s1
	and	s4, a3, t6
	lw	a1, 88(sp)                      # 4-byte Folded Reload
	and	t6, a3, a1
	xor	a1, a5, t4
	xor	a3, a3, a0
	xor	s1, a0, s5
	and	s5, a0, a4
	and	t4, a0, s11
	xor	s4, s4, a5
	xor	a7, a1, a7
	and	a5, s1, s2
	and	a6, a3, a2
	xor	a2, a3, s0
	and	s1, s1, s7
	and	a3, a3, s3
	and	a4, a2, s9
	xor	a0, a5, s5
	lw	s0, 92(sp)                      # 4-byte Folded Reload
	and	s0, s0, a2
	xor	a7, a7, a5
	xor	a1, a6, a1
	xor	a6, a3, t5
	xor	a2, a4, t5
	xor	s0, s0, a0
	xor	a4, a7, t4
	xor	t4, s4, a0
	xor	a1, a1, s1
	xor	a3, a2, t6
	xor	a4, a4, a2
	xor	a1, a1, s0
	xor	a2, s0, t1
	xor	a5, a3, t2
	xor	a0, a1, t0
	xor	t1, a4, a1
	xor	t5, a4, s1
	xor	a4, a3, t3
	xor	s1, a6, a2
	xor	a3, t4, a5
	xor	t3, a4, a0
	xor	t2, a5, a2
	xor	t4, s1, a0
	srli	a6, t5, 10
	slli	t6, t5, 22
	srli	s0, t5, 2
	slli	a1, t5, 30
	srli	a4, t1, 10
	slli	s1, t1, 22
	srli	a0, t1, 2
	slli	a5, t1, 30
	xor	s3, a3, a2
	xor	s11, a3, a7
	or	a6, t6, a6
	or	t6, a1, s0
	or	s2, s1, a4
	or	a7, a5, a0
	srli	a5, t3, 10
	slli	s1, t3, 22
	srli	s0, t3, 2
	slli	a0, t3, 30
	srli	a1, a3, 10
	slli	a4, a3, 22
	srli	s4, a3, 2
	slli	a2, a3, 30
	srli	s5, t4, 10
	slli	s7, t4, 22
	srli	s8, t4, 2
	slli	s9, t4, 30
	srli	s10, t2, 10
	or	ra, s1, a5
	slli	s1, t2, 22
	or	s6, a0, s0
	srli	s0, t2, 2
	or	a1, a1, a4
	sw	a1, 88(sp)                      # 4-byte Folded Spill
	slli	a4, t2, 30
	lw	a5, 52(sp)                      # 4-byte Folded Reload
	and	t0, a6, a5
	lw	a0, 56(sp)                      # 4-byte Folded Reload
	and	a1, t6, a0
	and	a6, s2, a5
	and	a7, a7, a0
	or	t6, a2, s4
	mv	a2, s11
	sw	s11, 92(sp)                     # 4-byte Folded Spill
	srli	s4, s11, 10
	or	s2, s7, s5
	slli	s11, s11, 22
	or	s5, s9, s8
	srli	s7, a2, 2
	or	s8, s1, s10
	slli	s1, a2, 30
	or	s9, a4, s0
	srli	s0, s3, 10
	or	t0, t0, a1
	slli	a1, s3, 22
	or	s10, a6, a7
	srli	a6, s3, 2
	or	a2, s11, s4
	sw	a2, 68(sp)                      # 4-byte Folded Spill
	slli	a7, s3, 30
	and	a4, ra, a5
	and	a2, s6, a0
	or	s1, s1, s7
	or	s4, a1, s0
	or	s6, a7, a6
	or	a7, a4, a2
	lw	a1, 104(sp)                     # 4-byte Folded Reload
	lw	a6, 32(a1)
	lw	ra, 36(a1)
	lw	s7, 40(a1)
	lw	a2, 44(a1)
	sw	a2, 72(sp)                      # 4-byte Folded Spill
	lw	a2, 88(sp)                      # 4-byte Folded Reload
	and	s11, a2, a5
	and	t6, t6, a0
	and	s2, s2, a5
	and	s5, s5, a0
	and	s0, s8, a5
	and	a2, s9, a0
	or	t6, s11, t6
	or	s2, s2, s5
	or	s11, s0, a2
	xor	s0, t0, t5
	xor	a2, a6, t0
	sw	a2, 88(sp)                      # 4-byte Folded Spill
	lw	s9, 48(a1)
	lw	t5, 52(a1)
	lw	s5, 56(a1)
	lw	s8, 60(a1)
	lw	a1, 68(sp)                      # 4-byte Folded Reload
	and	a1, a1, a5
	and	s1, s1, a0
	and	a5, s4, a5
	and	a2, s6, a0
	xor	a0, s10, t1
	xor	t1, ra, s10
	or	s4, a1, s1
	or	s10, a5, a2
	xor	s1, a7, t3
	xor	a2, t6, a3
	xor	a5, s2, t4
	xor	a4, s11, t2
	srli	t0, s0, 20
	slli	t4, s0, 12
	srli	ra, s0, 12
	xor	t3, t1, s0
	slli	s0, s0, 20
	xor	s7, s7, a7
	srli	a3, a0, 20
	xor	t6, s9, t6
	slli	s9, a0, 12
	xor	t1, s8, s11
	srli	s8, a0, 12
	xor	t5, t5, s2
	slli	a1, a0, 20
	xor	s2, s10, s3
	or	t4, t4, t0
	or	s11, s0, ra
	or	s9, s9, a3
	or	s3, a1, s8
	srli	s8, s1, 20
	slli	a3, s1, 12
	srli	ra, s1, 12
	slli	a1, s1, 20
	xor	a0, s7, a0
	sw	a0, 68(sp)                      # 4-byte Folded Spill
	srli	a6, a2, 20
	xor	s5, s5, s10
	slli	s0, a2, 12
	lw	a0, 72(sp)                      # 4-byte Folded Reload
	xor	s7, a0, s1
	srli	s1, a2, 12
	xor	t0, t5, a2
	slli	a2, a2, 20
	or	t5, a3, s8
	srli	a3, a5, 20
	or	s8, a1, ra
	slli	a1, a5, 12
	or	s10, s0, a6
	srli	s0, a5, 12
	or	ra, a2, s1
	slli	s1, a5, 20
	or	a6, a1, a3
	srli	a3, a4, 20
	or	s0, s0, s1
	slli	s1, a4, 12
	or	s6, s1, a3
	srli	s1, a4, 12
	slli	a3, a4, 20
	or	a1, a3, s1
	lw	a0, 92(sp)                      # 4-byte Folded Reload
	xor	s1, s4, a0
	lw	a0, 88(sp)                      # 4-byte Folded Reload
	xor	a7, a0, a4
	xor	t2, t3, a4
	xor	t3, t6, a4
	lw	a0, 100(sp)                     # 4-byte Folded Reload
	and	t4, t4, a0
	lw	a3, 96(sp)                      # 4-byte Folded Reload
	and	a2, s11, a3
	and	t6, s9, a0
	and	s3, s3, a3
	xor	s5, s5, a5
	srli	a5, s1, 20
	xor	s7, s7, a4
	slli	a4, s1, 12
	or	t4, t4, a2
	srli	a2, s1, 12
	xor	t3, t3, s1
	slli	s1, s1, 20
	or	t6, t6, s3
	srli	s3, s2, 20
	or	s9, a4, a5
	slli	a5, s2, 12
	or	s11, s1, a2
	srli	s1, s2, 12
	xor	t1, t1, s2
	slli	s2, s2, 20
	and	a4, t5, a0
	and	a2, s8, a3
	and	t5, s10, a0
	and	s8, ra, a3
	and	s10, a6, a0
	and	s0, s0, a3
	or	a5, a5, s3
	or	s1, s2, s1
	and	s6, s6, a0
	and	a1, a1, a3
	xor	s2, s7, s4
	or	s3, a4, a2
	and	a4, s9, a0
	and	a2, s11, a3
	or	t5, t5, s8
	or	s0, s10, s0
	and	a5, a5, a0
	and	s1, s1, a3
	or	a0, s6, a1
	xor	s7, a7, t4
	xor	a3, t2, t6
	or	a6, a4, a2
	or	a5, a5, s1
	lw	a1, 68(sp)                      # 4-byte Folded Reload
	xor	a4, a1, s3
	xor	a1, t3, t5
	xor	a2, t1, a0
	xor	a0, t0, s0
	xor	s0, s5, a5
	xor	t0, a1, a2
	xor	s4, a3, a2
	xor	a7, a1, a4
	xor	s1, s2, a6
	xor	s3, a2, a4
	xor	a0, a0, s0
	xor	t4, s4, a7
	xor	s11, a0, s7
	xor	s1, s1, t4
	xor	t5, s11, a1
	xor	s8, s1, a4
	xor	a4, s1, s0
	xor	t6, s11, a2
	xor	t3, s11, a3
	and	s1, t5, s7
	xor	a3, a4, t0
	xor	t1, s8, s7
	xor	t2, t3, s3
	and	a1, s8, t4
	xor	s5, s8, a0
	and	s9, t3, s11
	and	s0, a3, t0
	xor	s10, a3, a0
	xor	a6, a3, s5
	xor	s2, a3, s7
	and	a0, s5, s3
	xor	s1, s1, s3
	xor	a4, a4, a1
	xor	a1, s5, a1
	xor	a1, a1, s1
	and	s1, t1, t2
	xor	a4, a4, s1
	and	s1, a6, a7
	xor	a0, a0, s0
	xor	s0, s0, s1
	and	s1, s10, s4
	xor	a5, s10, s9
	xor	a5, a5, s1
	xor	a2, a2, s1
	and	s1, s2, t6
	xor	a1, a1, a0
	xor	s1, s10, s1
	xor	a4, a4, s0
	xor	a5, a5, s4
	xor	a2, a2, s1
	xor	a5, a5, s0
	xor	a0, a0, a2
	xor	s9, a4, a1
	and	a4, a4, a5
	xor	a2, a0, a5
	xor	s1, a4, a1
	and	a2, a2, s1
	xor	s1, a4, a0
	and	s0, s1, s9
	xor	a1, a1, s0
	xor	a4, a4, a2
	xor	s0, a2, a0
	and	t5, s0, t5
	and	a0, a0, a4
	xor	a4, a1, s0
	and	s7, s0, s7
	and	t6, a1, t6
	and	a2, a1, s2
	xor	s1, s1, a0
	xor	a0, a0, a5
	and	s2, a4, a3
	and	ra, a4, t0
	and	s1, s1, a1
	xor	s0, s0, a0
	and	a3, a0, s8
	and	t0, a0, t4
	xor	s1, s1, s9
	and	a0, s0, t1
	and	t1, s0, t2
	xor	a5, a3, s7
	xor	s0, s0, s1
	xor	a1, a1, s1
	and	t2, s1, s11
	and	t4, s1, t3
	xor	t3, a0, a3
	xor	s7, a5, a2
	and	a3, a1, s10
	and	a0, s0, s5
	xor	a4, a4, s0
	and	s4, a1, s4
	and	s0, s0, s3
	and	s1, a4, a7
	xor	a2, a3, t2
	and	a4, a4, a6
	xor	a7, s7, a3
	xor	a0, a0, a5
	xor	a5, s0, ra
	xor	s1, s1, ra
	xor	a4, a4, a2
	xor	s0, a7, t4
	xor	a1, t3, a2
	xor	a0, a0, s4
	xor	a3, s1, t1
	xor	s1, s1, s0
	xor	a0, a0, a4
	xor	a4, a4, s2
	xor	a2, a3, t0
	xor	s0, a0, t6
	xor	s9, s1, a0
	xor	s10, s1, s4
	xor	a3, a3, t5
	xor	a5, a5, a4
	xor	s1, a1, a2
	xor	s11, a3, s0
	xor	s8, a2, a4
	xor	ra, a5, s0
	srli	t0, s10, 12
	slli	t1, s10, 20
	srli	a0, s10, 4
	slli	a2, s10, 28
	srli	a3, s9, 12
	slli	a5, s9, 20
	srli	s0, s9, 4
	slli	a1, s9, 28
	xor	a4, a4, s1
	sw	a4, 92(sp)                      # 4-byte Folded Spill
	xor	s6, s1, a7
	or	t4, t1, t0
	or	t2, a2, a0
	or	a7, a5, a3
	or	t0, a1, s0
	srli	t1, s11, 12
	slli	t5, s11, 20
	srli	t6, s11, 4
	slli	s2, s11, 28
	srli	s5, s1, 12
	slli	a2, s1, 20
	srli	s3, s1, 4
	slli	s4, s1, 28
	srli	s7, ra, 12
	slli	t3, ra, 20
	srli	a6, ra, 4
	slli	a4, ra, 28
	srli	a0, s8, 12
	or	t5, t5, t1
	slli	a1, s8, 20
	or	t6, s2, t6
	srli	s0, s8, 4
	or	t1, a2, s5
	slli	a2, s8, 28
	lw	a3, 100(sp)                     # 4-byte Folded Reload
	and	t4, t4, a3
	lw	s2, 96(sp)                      # 4-byte Folded Reload
	and	t2, t2, s2
	and	a7, a7, a3
	and	t0, t0, s2
	or	a5, s4, s3
	sw	a5, 72(sp)                      # 4-byte Folded Spill
	srli	s3, s6, 12
	or	a5, t3, s7
	sw	a5, 68(sp)                      # 4-byte Folded Spill
	slli	t3, s6, 20
	or	a6, a4, a6
	srli	s5, s6, 4
	or	a1, a1, a0
	slli	a0, s6, 28
	or	s7, a2, s0
	lw	a5, 92(sp)                      # 4-byte Folded Reload
	srli	a4, a5, 12
	or	a2, t4, t2
	slli	s0, a5, 20
	or	s4, a7, t0
	srli	a7, a5, 4
	or	t2, t3, s3
	slli	t0, a5, 28
	and	t3, t5, a3
	and	s3, t6, s2
	or	t4, a0, s5
	or	t5, s0, a4
	or	t6, t0, a7
	or	t0, t3, s3
	lw	a7, 104(sp)                     # 4-byte Folded Reload
	lw	s5, 64(a7)
	lw	s3, 68(a7)
	lw	t3, 72(a7)
	lw	a0, 76(a7)
	sw	a0, 88(sp)                      # 4-byte Folded Spill
	and	t1, t1, a3
	lw	a0, 72(sp)                      # 4-byte Folded Reload
	and	a5, a0, s2
	lw	a0, 68(sp)                      # 4-byte Folded Reload
	and	a0, a0, a3
	and	a4, a6, s2
	and	s0, a1, a3
	mv	a1, a3
	and	a3, s7, s2
	or	a5, t1, a5
	or	a4, a4, a0
	or	a3, a3, s0
	xor	s0, a2, s10
	xor	t1, s5, a2
	mv	a0, a7
	lw	s7, 80(a7)
	lw	a6, 84(a7)
	lw	a7, 88(a7)
	lw	s5, 92(a0)
	and	t2, t2, a1
	and	t4, t4, s2
	and	a1, t5, a1
	and	a0, t6, s2
	xor	t5, s4, s9
	xor	a2, s3, s4
	or	t2, t2, t4
	or	t4, a1, a0
	xor	a0, t0, s11
	xor	s1, s1, a5
	xor	t6, a4, ra
	xor	a1, a3, s8
	srli	s3, s0, 16
	slli	s8, s0, 16
	srli	s9, t5, 16
	xor	s10, a2, s0
	slli	s0, t5, 16
	xor	s11, t3, t0
	xor	t3, s7, a5
	xor	t0, s5, a3
	xor	a3, a6, a4
	xor	a4, t2, s6
	lw	a2, 92(sp)                      # 4-byte Folded Reload
	xor	a5, t4, a2
	or	a6, s8, s3
	or	s2, s0, s9
	srli	s7, a0, 16
	slli	s9, a0, 16
	srli	s3, s1, 16
	slli	s5, s1, 16
	srli	s6, t6, 16
	slli	ra, t6, 16
	xor	t5, s11, t5
	srli	s8, a1, 16
	xor	t4, a7, t4
	slli	s11, a1, 16
	xor	s0, t1, a1
	xor	t1, s10, a1
	xor	t3, t3, a1
	xor	s4, a3, s1
	lw	a2, 88(sp)                      # 4-byte Folded Reload
	xor	s10, a2, a0
	or	a7, s9, s7
	srli	s7, a4, 16
	slli	s9, a4, 16
	or	s5, s5, s3
	or	s3, ra, s6
	srli	a0, a5, 16
	slli	s1, a5, 16
	or	a2, s11, s8
	xor	s6, s0, a6
	xor	a6, t1, s2
	xor	a4, t3, a4
	xor	s0, t4, t6
	xor	a5, t0, a5
	xor	a3, s10, a1
	or	t1, s9, s7
	or	a0, a0, s1
	xor	s1, t5, a7
	xor	a1, a4, s5
	xor	a2, a2, a5
	xor	a5, s4, s3
	xor	a3, a3, t2
	xor	a0, a0, s0
	xor	t0, a1, a2
	xor	s4, a6, a2
	xor	a7, a1, s1
	xor	a4, a3, t1
	xor	s3, a2, s1
	xor	a3, a5, a0
	xor	t4, s4, a7
	xor	s10, a3, s6
	xor	a4, a4, t4
	xor	t5, s10, a1
	xor	s7, a4, s1
	xor	a4, a4, a0
	xor	t6, s10, a2
	xor	t3, s10, a6
	and	a1, t5, s6
	xor	a0, a4, t0
	xor	t1, s7, s6
	xor	t2, t3, s3
	and	s1, s7, t4
	xor	s5, s7, a3
	and	s8, t3, s10
	and	s0, a0, t0
	xor	s9, a0, a3
	xor	a6, a0, s5
	xor	s2, a0, s6
	and	a3, s5, s3
	xor	a1, a1, s3
	xor	a4, a4, s1
	xor	s1, s5, s1
	xor	a1, a1, s1
	and	s1, t1, t2
	xor	a4, a4, s1
	and	s1, a6, a7
	xor	a3, a3, s0
	xor	s0, s0, s1
	and	s1, s9, s4
	xor	a5, s9, s8
	xor	a5, a5, s1
	xor	a2, a2, s1
	and	s1, s2, t6
	xor	a1, a1, a3
	xor	s1, s9, s1
	xor	a4, a4, s0
	xor	a5, a5, s4
	xor	a2, a2, s1
	xor	a5, a5, s0
	xor	a2, a2, a3
	xor	s8, a4, a1
	and	a4, a4, a5
	xor	s0, a2, a5
	xor	s1, a4, a1
	and	s0, s0, s1
	xor	s1, a4, a2
	and	a3, s1, s8
	xor	a3, a3, a1
	xor	a4, a4, s0
	xor	s0, s0, a2
	and	t5, s0, t5
	and	a2, a2, a4
	xor	a4, a3, s0
	and	s6, s0, s6
	and	t6, a3, t6
	and	a1, a3, s2
	xor	s1, s1, a2
	xor	a2, a2, a5
	and	s2, a4, a0
	and	s11, a4, t0
	and	s1, s1, a3
	xor	s0, s0, a2
	and	a0, a2, s7
	and	t0, a2, t4
	xor	s1, s1, s8
	and	a2, s0, t1
	and	t1, s0, t2
	xor	a5, a0, s6
	xor	s0, s0, s1
	xor	a3, a3, s1
	and	t2, s1, s10
	and	t4, s1, t3
	xor	t3, a2, a0
	xor	s6, a5, a1
	and	a2, a3, s9
	and	a0, s0, s5
	xor	a4, a4, s0
	and	s4, a3, s4
	and	s0, s0, s3
	and	s1, a4, a7
	xor	a1, a2, t2
	and	a4, a4, a6
	xor	a6, s6, a2
	xor	a0, a0, a5
	xor	a5, s0, s11
	xor	s1, s1, s11
	xor	a4, a4, a1
	xor	s0, a6, t4
	xor	a3, t3, a1
	xor	a0, a0, s4
	xor	a2, s1, t1
	xor	s1, s1, s0
	xor	a0, a0, a4
	xor	a4, a4, s2
	xor	a1, a2, t0
	xor	s0, a0, t6
	xor	s6, s1, a0
	xor	s9, s1, s4
	xor	a2, a2, t5
	xor	a5, a5, a4
	xor	s1, a3, a1
	xor	s11, a2, s0
	xor	s10, a1, a4
	xor	s8, a5, s0
	srli	a7, s9, 14
	slli	t0, s9, 18
	srli	s0, s9, 6
	slli	a3, s9, 26
	srli	a2, s6, 14
	slli	a5, s6, 18
	srli	a1, s6, 6
	slli	a0, s6, 26
	xor	a4, a4, s1
	sw	a4, 88(sp)                      # 4-byte Folded Spill
	xor	a4, s1, a6
	sw	a4, 92(sp)                      # 4-byte Folded Spill
	or	t2, t0, a7
	or	t3, a3, s0
	or	a7, a5, a2
	or	t0, a0, a1
	srli	t1, s11, 14
	slli	t4, s11, 18
	srli	t5, s11, 6
	slli	t6, s11, 26
	srli	s4, s1, 14
	slli	s7, s1, 18
	srli	s2, s1, 6
	slli	s3, s1, 26
	srli	s5, s8, 14
	slli	ra, s8, 18
	srli	a6, s8, 6
	slli	a3, s8, 26
	mv	s0, s10
	sw	s10, 72(sp)                     # 4-byte Folded Spill
	srli	a4, s10, 14
	or	t4, t4, t1
	slli	s10, s10, 18
	or	t5, t6, t5
	srli	a5, s0, 6
	or	t1, s7, s4
	slli	s0, s0, 26
	lw	a1, 44(sp)                      # 4-byte Folded Reload
	and	t2, t2, a1
	lw	a0, 48(sp)                      # 4-byte Folded Reload
	and	t3, t3, a0
	and	a7, a7, a1
	and	t0, t0, a0
	or	t6, s3, s2
	lw	a2, 92(sp)                      # 4-byte Folded Reload
	srli	s7, a2, 14
	or	s2, ra, s5
	slli	ra, a2, 18
	or	s3, a3, a6
	srli	a6, a2, 6
	or	s4, s10, a4
	slli	a3, a2, 26
	or	s5, s0, a5
	lw	a2, 88(sp)                      # 4-byte Folded Reload
	srli	a4, a2, 14
	or	t2, t2, t3
	slli	a5, a2, 18
	or	t0, a7, t0
	srli	a7, a2, 6
	or	ra, ra, s7
	slli	s7, a2, 26
	and	s0, t4, a1
	and	a2, t5, a0
	or	t3, a3, a6
	or	t4, a5, a4
	or	t5, s7, a7
	or	s7, s0, a2
	lw	a2, 104(sp)                     # 4-byte Folded Reload
	lw	a3, 96(a2)
	lw	s10, 100(a2)
	lw	a7, 104(a2)
	lw	a4, 108(a2)
	sw	a4, 68(sp)                      # 4-byte Folded Spill
	and	t1, t1, a1
	and	t6, t6, a0
	and	s2, s2, a1
	and	a4, s3, a0
	and	a5, s4, a1
	and	s0, s5, a0
	or	t6, t1, t6
	or	s2, s2, a4
	or	a6, a5, s0
	xor	s0, t2, s9
	xor	t1, a3, t2
	lw	s9, 112(a2)
	lw	s4, 116(a2)
	lw	s3, 120(a2)
	lw	s5, 124(a2)
	and	t2, ra, a1
	and	t3, t3, a0
	and	a1, t4, a1
	and	a4, t5, a0
	xor	a0, t0, s6
	xor	t0, s10, t0
	or	t2, t2, t3
	or	t3, a1, a4
	xor	a1, s7, s11
	xor	a4, t6, s1
	xor	t4, s2, s8
	lw	a2, 72(sp)                      # 4-byte Folded Reload
	xor	a5, a6, a2
	srli	t5, s0, 20
	slli	s6, s0, 12
	srli	s10, s0, 12
	xor	a2, t0, s0
	sw	a2, 64(sp)                      # 4-byte Folded Spill
	slli	s11, s0, 20
	xor	a7, a7, s7
	srli	ra, a0, 20
	xor	s9, s9, t6
	slli	s0, a0, 12
	xor	t6, s5, a6
	srli	a2, a0, 12
	xor	s2, s4, s2
	slli	a3, a0, 20
	lw	s1, 88(sp)                      # 4-byte Folded Reload
	xor	s1, t3, s1
	or	t5, s6, t5
	or	s4, s11, s10
	or	s6, s0, ra
	or	s5, a3, a2
	srli	s8, a1, 20
	slli	a3, a1, 12
	srli	s10, a1, 12
	slli	a2, a1, 20
	xor	a0, a7, a0
	sw	a0, 88(sp)                      # 4-byte Folded Spill
	srli	a6, a4, 20
	xor	t3, s3, t3
	slli	s0, a4, 12
	lw	a0, 68(sp)                      # 4-byte Folded Reload
	xor	s3, a0, a1
	srli	a1, a4, 12
	xor	a0, s2, a4
	sw	a0, 72(sp)                      # 4-byte Folded Spill
	slli	a4, a4, 20
	or	s7, a3, s8
	srli	a3, t4, 20
	or	s8, a2, s10
	slli	a2, t4, 12
	or	a6, s0, a6
	srli	s0, t4, 12
	or	s10, a4, a1
	slli	a4, t4, 20
	or	ra, a2, a3
	srli	a2, a5, 20
	or	a4, a4, s0
	slli	s0, a5, 12
	or	s11, s0, a2
	srli	s0, a5, 12
	slli	a2, a5, 20
	or	t0, a2, s0
	lw	a0, 92(sp)                      # 4-byte Folded Reload
	xor	s0, t2, a0
	xor	t1, t1, a5
	lw	a0, 64(sp)                      # 4-byte Folded Reload
	xor	s2, a0, a5
	xor	s9, s9, a5
	lw	a1, 100(sp)                     # 4-byte Folded Reload
	and	a0, t5, a1
	lw	a2, 96(sp)                      # 4-byte Folded Reload
	and	a3, s4, a2
	and	t5, s6, a1
	and	s6, s5, a2
	xor	t3, t3, t4
	srli	t4, s0, 20
	xor	s3, s3, a5
	slli	a5, s0, 12
	or	s5, a0, a3
	srli	a3, s0, 12
	xor	s4, s9, s0
	slli	s0, s0, 20
	or	t5, t5, s6
	srli	a7, s1, 20
	or	s6, a5, t4
	slli	a0, s1, 12
	or	s9, s0, a3
	srli	s0, s1, 12
	xor	t4, t6, s1
	slli	s1, s1, 20
	and	a5, s7, a1
	and	a3, s8, a2
	and	a6, a6, a1
	and	t6, s10, a2
	and	s7, ra, a1
	and	a4, a4, a2
	or	a7, a0, a7
	or	s0, s0, s1
	and	s8, s11, a1
	and	a0, t0, a2
	xor	s3, s3, t2
	or	t2, a5, a3
	and	a5, s6, a1
	and	s1, s9, a2
	or	a3, a6, t6
	or	a6, s7, a4
	and	a4, a7, a1
	and	s0, s0, a2
	or	a1, s8, a0
	xor	s11, t1, s5
	xor	a2, s2, t5
	or	a5, a5, s1
	or	s0, s0, a4
	lw	a0, 88(sp)                      # 4-byte Folded Reload
	xor	s1, a0, t2
	xor	a3, s4, a3
	xor	a4, t4, a1
	lw	a0, 72(sp)                      # 4-byte Folded Reload
	xor	a1, a0, a6
	xor	s0, t3, s0
	xor	t3, a3, a4
	xor	s4, a2, a4
	xor	t2, a3, s1
	xor	a5, s3, a5
	xor	t4, a4, s1
	xor	a1, a1, s0
	xor	a7, s4, t2
	xor	s5, a1, s11
	xor	a5, a5, a7
	xor	a6, s5, a3
	xor	s8, a5, s1
	xor	s0, s0, a5
	xor	t0, s5, a4
	xor	s2, s5, a2
	and	a5, a6, s11
	xor	s10, s0, t3
	xor	t5, s8, s11
	xor	t6, s2, t4
	and	a2, s8, a7
	xor	s6, s8, a1
	and	s7, s2, s5
	and	a3, s10, t3
	xor	s9, s10, a1
	xor	t1, s10, s6
	xor	s3, s10, s11
	and	a1, s6, t4
	xor	a5, a5, t4
	xor	s0, s0, a2
	xor	a2, s6, a2
	xor	a2, a2, a5
	and	a5, t5, t6
	xor	a5, a5, s0
	and	s0, t1, t2
	xor	a1, a1, a3
	xor	a3, a3, s0
	and	s0, s9, s4
	xor	s1, s9, s7
	xor	s1, s1, s0
	xor	a4, a4, s0
	and	s0, s3, t0
	xor	a2, a2, a1
	xor	s0, s9, s0
	xor	a5, a5, a3
	xor	s1, s1, s4
	xor	a4, a4, s0
	xor	a3, a3, s1
	xor	a1, a1, a4
	xor	a0, a5, a2
	and	a5, a5, a3
	xor	s0, a1, a3
	xor	s1, a5, a2
	and	s0, s0, s1
	xor	s1, a5, a1
	and	a4, s1, a0
	xor	a2, a2, a4
	xor	a5, a5, s0
	xor	s0, s0, a1
	and	a1, a1, a5
	xor	s1, s1, a1
	xor	a1, a1, a3
	and	s1, s1, a2
	xor	a0, a0, s1
	and	a6, s0, a6
	and	s7, s0, s11
	and	a4, a1, s8
	and	a7, a1, a7
	xor	a1, a1, s0
	xor	s0, s0, a2
	and	t0, a2, t0
	and	a5, a2, s3
	and	s1, a1, t5
	and	t5, a1, t6
	xor	a1, a1, a0
	xor	a2, a2, a0
	and	a3, a0, s5
	and	s2, a0, s2
	xor	a0, a4, s7
	xor	s3, s1, a4
	and	t6, s0, s10
	and	s1, s0, t3
	xor	a5, a5, a0
	and	a4, a2, s9
	and	t3, a1, s6
	xor	s0, s0, a1
	and	s6, a2, s4
	and	t4, a1, t4
	and	t2, s0, t2
	xor	a3, a3, a4
	and	s5, s0, t1
	xor	s8, a5, a4
	lw	s10, 104(sp)                    # 4-byte Folded Reload
	lw	s9, 128(s10)
	lw	s7, 132(s10)
	lw	s4, 136(s10)
	lw	t1, 140(s10)
	xor	a0, t3, a0
	xor	a1, t4, s1
	xor	s1, t2, s1
	xor	a2, a3, s5
	xor	s0, s8, s2
	xor	a3, s3, a3
	xor	a0, a0, s6
	xor	a5, s1, t5
	xor	s0, s0, s1
	xor	a0, a0, a2
	xor	a2, a2, t6
	xor	s1, a5, a7
	xor	a4, a0, t0
	xor	t2, s0, a0
	xor	s0, s0, s6
	xor	a5, a5, a6
	xor	a1, a1, a2
	xor	a3, a3, s1
	xor	t4, a5, a4
	xor	t0, s1, a2
	xor	t3, a1, a4
	srli	a4, s0, 8
	slli	s1, s0, 24
	srli	a0, t2, 8
	slli	a1, t2, 24
	xor	t5, a3, a2
	xor	a7, a3, s8
	or	a4, a4, s1
	or	t6, a1, a0
	srli	a1, t4, 8
	slli	a5, t4, 24
	srli	s1, a3, 8
	slli	a2, a3, 24
	srli	a6, t3, 8
	slli	a0, t3, 24
	or	a1, a1, a5
	srli	a5, t0, 8
	or	s5, a2, s1
	slli	s1, t0, 24
	or	s2, a0, a6
	srli	s6, a7, 8
	or	s3, s1, a5
	slli	a5, a7, 24
	xor	s0, s0, a4
	xor	a6, s9, a4
	srli	a4, t5, 8
	xor	a0, t6, t2
	xor	t2, s7, t6
	slli	a2, t5, 24
	or	t6, a5, s6
	or	s7, a2, a4
	xor	s1, a1, t4
	xor	s4, s4, a1
	lw	a4, 144(s10)
	lw	a2, 148(s10)
	lw	t4, 152(s10)
	lw	s6, 156(s10)
	xor	a3, s5, a3
	xor	s5, a4, s5
	xor	s9, s2, t3
	xor	a1, s3, t0
	xor	t3, a2, s2
	srli	a2, s0, 16
	xor	t0, t2, s0
	slli	s0, s0, 16
	xor	t2, s6, s3
	srli	a5, a0, 16
	or	s2, s0, a2
	slli	s0, a0, 16
	xor	a2, s7, t5
	or	s3, s0, a5
	srli	s0, s1, 16
	xor	t5, s4, a0
	slli	a0, s1, 16
	xor	s4, t1, s1
	srli	a5, a3, 16
	xor	t1, t3, a3
	slli	a3, a3, 16
	xor	s1, t4, s7
	srli	a4, s9, 16
	or	s6, a0, s0
	slli	a0, s9, 16
	or	t4, a3, a5
	srli	a5, a1, 16
	or	a4, a4, a0
	slli	a0, a1, 16
	or	t3, a0, a5
	xor	a5, a6, a1
	xor	s8, a5, s2
	xor	a5, t0, a1
	xor	s11, a5, s3
	xor	a5, s5, a1
	xor	a1, s4, a1
	xor	a0, t6, a7
	xor	s1, s1, s9
	srli	a3, a0, 16
	xor	a5, a5, a0
	slli	a0, a0, 16
	or	a0, a0, a3
	srli	a3, a2, 16
	xor	s0, t2, a2
	slli	a2, a2, 16
	or	a3, a3, a2
	xor	a2, t5, s6
	xor	a1, a1, t6
	xor	a5, a5, t4
	xor	a4, t1, a4
	xor	t2, a1, a0
	xor	a1, s1, a3
	xor	s4, s0, t3
	lw	s6, 76(sp)                      # 4-byte Folded Reload
	lw	s1, 40(sp)                      # 4-byte Folded Reload
	lw	a0, 84(sp)                      # 4-byte Folded Reload
	lw	a3, 80(sp)                      # 4-byte Folded Reload
	beqz	a3, .Lgcm_BB15_6
.Lgcm_BB15_4:                               # %join.7.i
                                        # =>This Inner Loop Header: Depth=1
	addi	a3, s6, 1
	seqz	s0, a3
	add	a0, a0, s0
	sw	a0, 84(sp)                      # 4-byte Folded Spill
	sw	a3, 76(sp)                      # 4-byte Folded Spill
	bne	a0, s1, .Lgcm_BB15_2
# %bb.5:                                #   in Loop: Header=BB15_4 Depth=1
	lw	a0, 36(sp)                      # 4-byte Folded Reload
	sltu	a0, a3, a0
	j	.Lgcm_BB15_3
.Lgcm_BB15_6:                               # %after.3.i
	xor	a0, a1, a4
	xor	s3, s4, a5
	xor	t1, s4, s11
	xor	s2, a5, a2
	xor	t4, s4, a2
	xor	a7, a0, s8
	xor	s10, t1, s2
	xor	t3, a7, a5
	xor	a3, s10, t2
	xor	a4, a7, s4
	xor	t2, a7, s11
	and	a5, t3, s8
	xor	s7, a3, a2
	xor	a3, a3, a1
	xor	a1, t2, t4
	sw	a1, 104(sp)                     # 4-byte Folded Spill
	and	t0, t2, a7
	xor	a6, a3, s3
	xor	s5, s7, s8
	and	s0, s7, s10
	xor	t5, s7, a0
	xor	a5, a5, t4
	and	a2, a6, s3
	xor	ra, a6, a0
	xor	s6, a6, t5
	xor	s9, a6, s8
	and	a0, t5, t4
	and	s1, s5, a1
	xor	a5, a5, t5
	xor	a3, a3, s0
	xor	a5, a5, s0
	and	s0, s6, s2
	xor	t6, a3, s1
	and	s1, s9, a4
	xor	a0, a0, a2
	xor	a2, a2, s0
	and	s0, ra, t1
	xor	a3, ra, t0
	xor	a1, a5, a0
	xor	t0, a3, s0
	xor	s11, ra, s1
	xor	s0, s0, s4
	xor	a3, t6, a2
	xor	s1, t0, t1
	xor	s0, s11, s0
	xor	s1, s1, a2
	xor	a0, a0, s0
	xor	s11, a3, a1
	and	a2, s1, a3
	xor	t0, a0, s1
	xor	s0, a2, a1
	xor	a3, a2, a0
	and	s0, s0, t0
	and	a5, a3, s11
	xor	t6, a5, a1
	xor	a2, a2, s0
	xor	s0, s0, a0
	and	a0, a0, a2
	lw	a1, 28(sp)                      # 4-byte Folded Reload
	andi	a1, a1, -4
	xor	t0, a0, a3
	xor	s4, a0, s1
	sw	a1, 80(sp)                      # 4-byte Folded Spill
	slli	s1, a1, 5
	lw	a0, 60(sp)                      # 4-byte Folded Reload
	add	s1, s1, a0
	and	t3, s0, t3
	and	a2, s0, s8
	and	a3, s4, s7
	and	s7, s4, s10
	xor	a1, s4, s0
	xor	s0, t6, s0
	and	s4, t6, a4
	and	s9, t6, s9
	and	s8, s0, a6
	and	s10, s0, s3
	and	a5, t0, t6
	xor	a5, a5, s11
	and	s3, a1, s5
	lw	a0, 104(sp)                     # 4-byte Folded Reload
	and	t0, a1, a0
	xor	a2, a2, a3
	xor	a1, a1, a5
	xor	a0, a5, t6
	and	a6, a5, a7
	and	t2, a5, t2
	xor	a7, s3, a3
	xor	t6, a2, s9
	and	a5, a0, ra
	and	t5, a1, t5
	xor	s0, s0, a1
	and	a0, a0, t1
	and	a1, a1, t4
	and	a3, s0, s2
	xor	a4, a5, a6
	and	s0, s0, s6
	xor	t1, t6, a5
	xor	a2, t5, a2
	xor	a6, a1, s10
	xor	a3, a3, s10
	xor	s0, s0, a4
	xor	a1, t1, t2
	xor	a7, a7, a4
	xor	a2, a2, a0
	xor	a5, a3, t0
	xor	a1, a1, a3
	xor	a2, a2, s0
	xor	a3, s0, s8
	xor	s0, a5, s7
	xor	a4, a2, s4
	xor	t4, a1, a2
	xor	t5, a1, a0
	xor	a5, a5, t3
	xor	a1, a6, a3
	xor	a2, a7, s0
	xor	t6, a5, a4
	xor	t0, s0, a3
	xor	t3, a1, a4
	srli	a7, t5, 10
	slli	s2, t5, 22
	srli	s3, t5, 2
	slli	a1, t5, 30
	srli	a5, t4, 10
	slli	a4, t4, 22
	srli	a0, t4, 2
	slli	s0, t4, 30
	xor	a3, a3, a2
	sw	a3, 92(sp)                      # 4-byte Folded Spill
	xor	s9, a2, t1
	or	s2, s2, a7
	or	t1, a1, s3
	or	s3, a4, a5
	or	a7, s0, a0
	srli	a5, t6, 10
	slli	s0, t6, 22
	srli	s5, t6, 2
	slli	a1, t6, 30
	srli	s7, a2, 10
	slli	a4, a2, 22
	srli	s4, a2, 2
	slli	a0, a2, 30
	srli	s6, t3, 10
	slli	a3, t3, 22
	srli	s8, t3, 2
	or	a5, a5, s0
	sw	a5, 88(sp)                      # 4-byte Folded Spill
	slli	s11, t3, 30
	or	s5, a1, s5
	srli	s10, t0, 10
	or	s7, a4, s7
	slli	ra, t0, 22
	or	s4, a0, s4
	srli	a6, t0, 2
	or	s6, a3, s6
	slli	t2, t0, 30
	lw	a3, 52(sp)                      # 4-byte Folded Reload
	and	s2, s2, a3
	lw	a4, 56(sp)                      # 4-byte Folded Reload
	and	a5, t1, a4
	and	s3, s3, a3
	and	a1, a7, a4
	or	a7, s11, s8
	sw	s9, 104(sp)                     # 4-byte Folded Spill
	srli	s11, s9, 10
	or	t1, ra, s10
	slli	s0, s9, 22
	or	s8, t2, a6
	srli	a6, s9, 2
	or	ra, s2, a5
	slli	a5, s9, 30
	or	s2, s3, a1
	lw	t2, 92(sp)                      # 4-byte Folded Reload
	srli	a1, t2, 10
	or	s3, s0, s11
	slli	s0, t2, 22
	or	s10, a5, a6
	srli	a6, t2, 2
	or	s11, s0, a1
	slli	s0, t2, 30
	lw	a0, 88(sp)                      # 4-byte Folded Reload
	and	s9, a0, a3
	and	s5, s5, a4
	and	s7, s7, a3
	and	a5, s4, a4
	and	a1, s6, a3
	and	a0, a7, a4
	or	a6, s0, a6
	or	s4, s9, s5
	or	s7, s7, a5
	or	s6, a1, a0
	lw	a0, 32(s1)
	lw	s9, 36(s1)
	lw	s5, 40(s1)
	lw	a7, 44(s1)
	and	s0, t1, a3
	and	s8, s8, a4
	and	t1, s3, a3
	and	a5, s10, a4
	and	a1, s11, a3
	and	a4, a6, a4
	or	a3, s0, s8
	lw	s3, 48(s1)
	lw	s8, 52(s1)
	lw	s10, 56(s1)
	lw	s11, 60(s1)
	xor	s1, ra, t5
	xor	t4, s2, t4
	xor	t5, a0, ra
	xor	a0, s9, s2
	or	t1, t1, a5
	or	a1, a1, a4
	xor	a4, s4, t6
	xor	a2, s7, a2
	xor	a5, s6, t3
	xor	s0, a3, t0
	srli	t3, s1, 20
	slli	t6, s1, 12
	srli	s2, s1, 12
	slli	s9, s1, 20
	xor	ra, a0, s1
	srli	s1, t4, 20
	xor	s4, s5, s4
	slli	s5, t4, 12
	xor	s3, s3, s7
	srli	s7, t4, 12
	xor	s6, s8, s6
	slli	a0, t4, 20
	xor	a3, s11, a3
	sw	a3, 84(sp)                      # 4-byte Folded Spill
	xor	t0, a1, t2
	or	t6, t6, t3
	or	s2, s9, s2
	or	s8, s5, s1
	or	s5, a0, s7
	srli	s7, a4, 20
	slli	s1, a4, 12
	srli	t3, a4, 12
	slli	s11, a4, 20
	srli	s9, a2, 20
	xor	a0, s4, t4
	sw	a0, 92(sp)                      # 4-byte Folded Spill
	slli	a0, a2, 12
	xor	t4, a7, a4
	srli	a4, a2, 12
	xor	a3, s6, a2
	sw	a3, 88(sp)                      # 4-byte Folded Spill
	slli	a2, a2, 20
	xor	s4, s10, a1
	srli	s10, a5, 20
	or	s6, s1, s7
	slli	s1, a5, 12
	or	s7, s11, t3
	srli	a1, a5, 12
	or	s9, a0, s9
	slli	a0, a5, 20
	or	s11, a2, a4
	srli	a2, s0, 20
	or	s10, s1, s10
	slli	a4, s0, 12
	or	a7, a0, a1
	srli	a1, s0, 12
	or	t3, a4, a2
	slli	a2, s0, 20
	or	a1, a1, a2
	lw	a0, 104(sp)                     # 4-byte Folded Reload
	xor	a2, t1, a0
	xor	t2, t5, s0
	xor	a6, ra, s0
	xor	t5, s3, s0
	lw	a0, 100(sp)                     # 4-byte Folded Reload
	and	t6, t6, a0
	lw	s1, 96(sp)                      # 4-byte Folded Reload
	and	a4, s2, s1
	and	s3, s8, a0
	and	s5, s5, s1
	xor	s8, t4, s0
	srli	ra, a2, 20
	xor	t4, s4, a5
	slli	a5, a2, 12
	or	s2, t6, a4
	srli	a4, a2, 12
	xor	t5, t5, a2
	slli	a2, a2, 20
	or	s3, s3, s5
	srli	s0, t0, 20
	or	s5, a5, ra
	slli	a5, t0, 12
	or	a2, a2, a4
	srli	a4, t0, 12
	or	a5, a5, s0
	slli	a3, t0, 20
	or	a3, a3, a4
	xor	s4, s8, t1
	and	a4, s6, a0
	and	s0, s7, s1
	or	t6, a4, s0
	and	a4, s9, a0
	and	s0, s11, s1
	or	s6, a4, s0
	and	a4, s10, a0
	and	s0, a7, s1
	or	a7, a4, s0
	and	s0, t3, a0
	and	a4, a1, s1
	or	a4, a4, s0
	and	s0, s5, a0
	and	a1, a2, s1
	mv	a2, a0
	or	a0, s0, a1
	and	a1, a5, a2
	and	s1, s1, a3
	or	s1, s1, a1
	lw	a1, 84(sp)                      # 4-byte Folded Reload
	xor	a1, a1, t0
	lw	a2, 12(sp)                      # 4-byte Folded Reload
	lw	a3, 8(sp)                       # 4-byte Folded Reload
	beq	a3, a2, .Lgcm_BB15_8
# %bb.7:                                # %after.3.i
	sltu	a3, a3, a2
	j	.Lgcm_BB15_9
.Lgcm_BB15_8:
	lw	a2, 80(sp)                      # 4-byte Folded Reload
	addi	a2, a2, 2
	lw	a3, 32(sp)                      # 4-byte Folded Reload
	sltu	a3, a2, a3
.Lgcm_BB15_9:                               # %after.3.i
	xor	s7, t2, s2
	xor	t1, a6, s3
	lw	a2, 92(sp)                      # 4-byte Folded Reload
	xor	s9, a2, t6
	xor	a6, s4, a0
	xor	s10, t5, s6
	lw	a0, 88(sp)                      # 4-byte Folded Reload
	xor	s4, a0, a7
	xor	s3, t4, s1
	xor	s5, a1, a4
	beqz	a3, .Lgcm_BB15_11
# %bb.10:                               # %then.11.i
	xor	s0, s3, s4
	xor	t3, s10, s5
	xor	s4, t1, s5
	xor	a7, s10, s9
	xor	s8, s5, s9
	xor	s6, s0, s7
	xor	s2, s4, a7
	xor	t2, s6, s10
	xor	a0, s2, a6
	xor	t6, s6, t1
	and	a3, t2, s7
	xor	s10, a0, s9
	xor	a0, a0, s3
	xor	a5, t6, s8
	and	a2, t6, s6
	xor	a6, a0, t3
	xor	t5, s10, s7
	and	a4, s10, s2
	xor	s9, s10, s0
	xor	a3, a3, s8
	and	s1, a6, t3
	xor	s11, a6, s0
	xor	t4, a6, s9
	and	s0, s9, s8
	xor	a0, a0, a4
	xor	a4, s9, a4
	xor	a3, a3, a4
	and	a4, t5, a5
	xor	a0, a0, a4
	and	a4, t4, a7
	xor	s0, s0, s1
	xor	a4, a4, s1
	and	s1, s11, s4
	xor	a2, s11, a2
	xor	a2, a2, s1
	xor	s1, s1, s5
	xor	t0, s6, s5
	xor	t1, a6, s7
	and	a1, t1, t0
	xor	a1, s11, a1
	xor	a1, a1, s1
	xor	a0, a0, a4
	xor	a2, a2, s4
	xor	a4, a4, a2
	xor	a3, a3, s0
	xor	s0, s0, a1
	and	a2, a4, a0
	xor	a1, s0, a4
	xor	s1, a2, a3
	and	s1, s1, a1
	xor	s3, a0, a3
	xor	a0, a2, s0
	and	a1, a0, s3
	xor	s5, a1, a3
	xor	a3, s1, a2
	xor	a2, s1, s0
	and	a3, a3, s0
	xor	a1, a3, a0
	xor	ra, a3, a4
	lw	a4, 28(sp)                      # 4-byte Folded Reload
	slli	a4, a4, 5
	lw	a0, 60(sp)                      # 4-byte Folded Reload
	add	a4, a4, a0
	and	t2, a2, t2
	and	s7, a2, s7
	and	s0, ra, s10
	and	s2, ra, s2
	xor	s1, ra, a2
	xor	a2, s5, a2
	and	t0, s5, t0
	and	s10, s5, t1
	and	t1, a2, a6
	and	ra, a2, t3
	and	a1, a1, s5
	xor	a1, a1, s3
	and	t3, s1, t5
	and	a6, s1, a5
	xor	a3, s0, s7
	xor	s1, s1, a1
	xor	a0, a1, s5
	and	t5, a1, s6
	and	t6, a1, t6
	xor	t3, t3, s0
	xor	s3, a3, s10
	and	s0, a0, s11
	and	s5, s1, s9
	xor	a2, a2, s1
	and	a0, a0, s4
	and	s1, s1, s8
	and	a1, a2, a7
	xor	a5, s0, t5
	and	a2, a2, t4
	xor	a7, s3, s0
	xor	a3, s5, a3
	xor	t4, s1, ra
	xor	a1, a1, ra
	xor	a2, a2, a5
	xor	s0, a7, t6
	xor	t3, t3, a5
	xor	a3, a3, a0
	xor	s1, a1, a6
	xor	a1, a1, s0
	xor	a3, a3, a2
	xor	a5, a2, t1
	xor	s0, s1, s2
	xor	a2, a3, t0
	xor	t1, a1, a3
	xor	t5, a1, a0
	xor	s1, s1, t2
	xor	a3, t4, a5
	xor	a1, t3, s0
	xor	t0, s1, a2
	xor	t2, s0, a5
	xor	t3, a3, a2
	srli	t4, t5, 12
	slli	s2, t5, 20
	srli	t6, t5, 4
	slli	s0, t5, 28
	srli	s1, t1, 12
	slli	a2, t1, 20
	srli	a0, t1, 4
	slli	a3, t1, 28
	xor	s9, a1, a5
	xor	s3, a1, a7
	or	a7, s2, t4
	or	s2, s0, t6
	or	t6, a2, s1
	or	t4, a3, a0
	srli	s7, t0, 12
	slli	s1, t0, 20
	srli	s5, t0, 4
	slli	a2, t0, 28
	srli	s0, a1, 12
	slli	a5, a1, 20
	srli	s4, a1, 4
	slli	a0, a1, 28
	srli	s6, t3, 12
	slli	a3, t3, 20
	srli	s8, t3, 4
	or	s7, s1, s7
	slli	s11, t3, 28
	or	s5, a2, s5
	srli	s10, t2, 12
	or	a5, a5, s0
	sw	a5, 104(sp)                     # 4-byte Folded Spill
	slli	s0, t2, 20
	or	s4, a0, s4
	srli	ra, t2, 4
	or	s6, a3, s6
	slli	a0, t2, 28
	lw	a6, 100(sp)                     # 4-byte Folded Reload
	and	a3, a7, a6
	lw	s1, 96(sp)                      # 4-byte Folded Reload
	and	a2, s2, s1
	and	t6, t6, a6
	and	a5, t4, s1
	or	a7, s11, s8
	srli	s8, s3, 12
	or	t4, s0, s10
	slli	s0, s3, 20
	or	s2, a0, ra
	srli	a0, s3, 4
	or	ra, a3, a2
	slli	a3, s3, 28
	or	t6, t6, a5
	mv	s11, s9
	srli	a5, s9, 12
	or	a2, s0, s8
	sw	a2, 92(sp)                      # 4-byte Folded Spill
	slli	a2, s9, 20
	or	s10, a3, a0
	srli	a3, s9, 4
	or	s8, a2, a5
	slli	s9, s9, 28
	and	s7, s7, a6
	and	s5, s5, s1
	lw	a0, 104(sp)                     # 4-byte Folded Reload
	and	a5, a0, a6
	and	a2, s4, s1
	and	s0, s6, a6
	and	a0, a7, s1
	or	s6, s9, a3
	or	s9, s7, s5
	or	s7, a5, a2
	or	s5, s0, a0
	lw	a0, 0(a4)
	lw	a2, 4(a4)
	lw	s4, 8(a4)
	lw	a3, 12(a4)
	sw	a3, 104(sp)                     # 4-byte Folded Spill
	and	a3, t4, a6
	and	s0, s2, s1
	or	a3, a3, s0
	xor	s0, ra, t5
	xor	a5, t6, t1
	xor	t1, a0, ra
	xor	ra, a2, t6
	lw	t5, 16(a4)
	lw	t6, 20(a4)
	lw	s2, 24(a4)
	lw	a7, 28(a4)
	lw	a0, 92(sp)                      # 4-byte Folded Reload
	and	t4, a0, a6
	and	a4, s10, s1
	and	a0, s8, a6
	and	a2, s6, s1
	or	t4, t4, a4
	or	a0, a0, a2
	xor	a4, s9, t0
	xor	a1, s7, a1
	xor	t0, s5, t3
	xor	a2, a3, t2
	srli	t2, s0, 16
	slli	t3, s0, 16
	xor	s6, ra, s0
	srli	s8, a5, 16
	xor	s4, s4, s9
	slli	s10, a5, 16
	xor	t5, t5, s7
	xor	s7, a7, a3
	xor	a3, t6, s5
	xor	s0, t4, s3
	xor	s1, a0, s11
	or	a6, t3, t2
	or	t2, s10, s8
	srli	t3, a4, 16
	slli	t6, a4, 16
	srli	s3, a1, 16
	slli	s5, a1, 16
	srli	s8, t0, 16
	xor	s4, s4, a5
	slli	s11, t0, 16
	xor	s2, s2, a0
	srli	s10, a2, 16
	xor	s9, a3, a1
	slli	ra, a2, 16
	xor	a3, t1, a2
	xor	t1, s6, a2
	xor	t5, t5, a2
	lw	a0, 104(sp)                     # 4-byte Folded Reload
	xor	a4, a4, a0
	or	a7, t6, t3
	srli	a1, s0, 16
	slli	a5, s0, 16
	or	t6, s5, s3
	or	t3, s11, s8
	srli	s3, s1, 16
	slli	a0, s1, 16
	or	s5, ra, s10
	xor	s6, a6, a3
	xor	t1, t2, t1
	xor	s0, t5, s0
	xor	a3, s2, t0
	xor	s1, s7, s1
	xor	a2, a2, a4
	or	a5, a5, a1
	or	a0, a0, s3
	xor	a4, a7, s4
	xor	s0, t6, s0
	xor	a1, s5, s1
	xor	s1, t3, s9
	xor	a2, a2, t4
	xor	a0, a0, a3
	xor	t3, a1, s0
	xor	s4, a1, t1
	xor	t2, s0, a4
	xor	a2, a2, a5
	xor	s5, a1, a4
	xor	a3, s1, a0
	xor	a7, s4, t2
	xor	ra, a3, s6
	xor	a2, a2, a7
	xor	s8, ra, s0
	xor	s7, a2, a4
	xor	a0, a0, a2
	xor	t5, ra, a1
	xor	t4, ra, t1
	and	s0, s8, s6
	xor	a4, a0, t3
	xor	s2, s7, s6
	xor	s3, t4, s5
	and	a2, s7, a7
	xor	t1, s7, a3
	and	t0, t4, ra
	and	a5, a4, t3
	xor	a6, a4, a3
	xor	a3, a4, t1
	sw	a3, 104(sp)                     # 4-byte Folded Spill
	and	s1, t1, s5
	xor	s0, s0, s5
	xor	a0, a0, a2
	xor	a2, t1, a2
	xor	t6, s0, a2
	and	s0, s2, s3
	xor	a0, a0, s0
	and	s0, a3, t2
	xor	s1, s1, a5
	xor	a5, a5, s0
	and	s0, a6, s4
	xor	a3, a6, t0
	xor	a3, a3, s0
	xor	a1, a1, s0
	xor	s9, a4, s6
	and	s0, s9, t5
	xor	s0, a6, s0
	xor	a2, s0, a1
	xor	s0, t6, s1
	xor	a0, a0, a5
	xor	a1, a3, s4
	xor	a1, a1, a5
	xor	s1, s1, a2
	and	a3, a1, a0
	xor	a5, s1, a1
	xor	a2, a3, s0
	and	a2, a2, a5
	xor	t0, a0, s0
	xor	s10, a3, s1
	and	a0, s10, t0
	xor	a0, a0, s0
	xor	a3, a3, a2
	xor	s0, a2, s1
	and	s11, a3, s1
	lw	a2, 32(sp)                      # 4-byte Folded Reload
	slli	a5, a2, 5
	sw	a5, 92(sp)                      # 4-byte Folded Spill
	xor	a2, s11, s10
	xor	a3, s11, a1
	lw	s11, 60(sp)                     # 4-byte Folded Reload
	add	s11, s11, a5
	and	s8, s0, s8
	and	s10, s0, s6
	and	a5, a3, s7
	and	a7, a3, a7
	xor	a3, a3, s0
	xor	s0, s0, a0
	and	t5, a0, t5
	and	s6, a0, s9
	and	s7, s0, a4
	and	t6, s0, t3
	and	a2, a2, a0
	xor	a2, a2, t0
	and	s1, a3, s2
	and	t0, a3, s3
	xor	a1, a5, s10
	xor	a3, a3, a2
	xor	a0, a0, a2
	and	t3, a2, ra
	and	t4, a2, t4
	xor	s2, s1, a5
	xor	s3, a1, s6
	and	a2, a0, a6
	and	a6, a3, t1
	xor	a4, a3, s0
	and	a0, a0, s4
	and	a3, a3, s5
	and	s1, a4, t2
	xor	a5, a2, t3
	lw	s0, 104(sp)                     # 4-byte Folded Reload
	and	s0, s0, a4
	xor	t1, s3, a2
	xor	a1, a6, a1
	xor	a6, a3, t6
	xor	a4, s1, t6
	xor	s0, s0, a5
	xor	s1, t1, t4
	xor	a5, s2, a5
	xor	a1, a1, a0
	xor	a3, a4, t0
	xor	a4, a4, s1
	xor	a1, a1, s0
	xor	s1, s0, s7
	xor	s0, a3, a7
	xor	a2, a1, t5
	xor	t2, a4, a1
	xor	t3, a4, a0
	xor	a4, a3, s8
	xor	a1, a6, s1
	xor	a3, a5, s0
	xor	t5, a4, a2
	xor	t4, s0, s1
	xor	s2, a1, a2
	srli	a7, t3, 14
	slli	a2, t3, 18
	srli	t0, t3, 6
	slli	a4, t3, 26
	srli	a5, t2, 14
	slli	s0, t2, 18
	srli	a1, t2, 6
	slli	a0, t2, 26
	xor	s4, a3, s1
	xor	s1, a3, t1
	sw	s1, 104(sp)                     # 4-byte Folded Spill
	or	t1, a2, a7
	or	t0, a4, t0
	or	s3, s0, a5
	or	a7, a0, a1
	srli	s7, t5, 14
	slli	s0, t5, 18
	srli	s5, t5, 6
	slli	a2, t5, 26
	srli	a4, a3, 14
	slli	a5, a3, 18
	srli	s1, a3, 6
	slli	a0, a3, 26
	srli	s6, s2, 14
	slli	a1, s2, 18
	srli	s8, s2, 6
	or	s7, s0, s7
	slli	t6, s2, 26
	or	s5, a2, s5
	srli	ra, t4, 14
	or	s9, a5, a4
	slli	a5, t4, 18
	or	s10, a0, s1
	srli	s1, t4, 6
	or	s6, a1, s6
	slli	a4, t4, 26
	lw	a0, 44(sp)                      # 4-byte Folded Reload
	and	t1, t1, a0
	lw	s0, 48(sp)                      # 4-byte Folded Reload
	and	a1, t0, s0
	and	a6, s3, a0
	and	a2, a7, s0
	or	a7, t6, s8
	lw	s8, 104(sp)                     # 4-byte Folded Reload
	srli	t6, s8, 14
	or	t0, a5, ra
	slli	a5, s8, 18
	or	s3, a4, s1
	srli	s1, s8, 6
	or	a1, t1, a1
	slli	a4, s8, 26
	or	a6, a6, a2
	srli	a2, s4, 14
	or	t1, a5, t6
	slli	a5, s4, 18
	or	s8, a4, s1
	srli	t6, s4, 6
	or	ra, a5, a2
	slli	s1, s4, 26
	and	s7, s7, a0
	and	a4, s5, s0
	and	s5, s9, a0
	and	a5, s10, s0
	and	s6, s6, a0
	and	a2, a7, s0
	or	s1, s1, t6
	or	t6, s7, a4
	or	s7, s5, a5
	or	s5, s6, a2
	lw	s10, -32(s11)
	lw	s9, -28(s11)
	lw	s6, -24(s11)
	lw	a7, -20(s11)
	and	a5, t0, a0
	and	a2, s3, s0
	and	s3, t1, a0
	and	a4, s8, s0
	and	s8, ra, a0
	and	s0, s0, s1
	or	a2, a2, a5
	lw	a5, -16(s11)
	lw	ra, -12(s11)
	lw	t0, -8(s11)
	lw	s11, -4(s11)
	xor	t3, a1, t3
	xor	t2, a6, t2
	xor	t1, s10, a1
	xor	a1, s9, a6
	or	s3, s3, a4
	or	s8, s8, s0
	xor	s0, t6, t5
	xor	a3, s7, a3
	xor	a0, s5, s2
	xor	a4, a2, t4
	srli	t4, t3, 20
	slli	t5, t3, 12
	srli	s2, t3, 12
	slli	s9, t3, 20
	xor	t3, a1, t3
	srli	s10, t2, 20
	xor	s6, s6, t6
	slli	a1, t2, 12
	xor	s7, a5, s7
	srli	a5, t2, 12
	xor	s5, ra, s5
	slli	ra, t2, 20
	xor	s11, s11, a2
	xor	s1, s8, s4
	or	s4, t5, t4
	or	t4, s9, s2
	or	t5, a1, s10
	or	s2, ra, a5
	srli	s9, s0, 20
	slli	a2, s0, 12
	srli	ra, s0, 12
	slli	a1, s0, 20
	srli	s10, a3, 20
	xor	a5, s6, t2
	sw	a5, 88(sp)                      # 4-byte Folded Spill
	slli	s6, a3, 12
	xor	a7, a7, s0
	srli	s0, a3, 12
	xor	s5, s5, a3
	slli	a3, a3, 20
	xor	t0, t0, s8
	srli	a5, a0, 20
	or	s8, a2, s9
	slli	a2, a0, 12
	or	s9, a1, ra
	srli	ra, a0, 12
	or	s6, s6, s10
	slli	a1, a0, 20
	or	a3, a3, s0
	srli	s0, a4, 20
	or	s10, a2, a5
	slli	a5, a4, 12
	or	a1, a1, ra
	srli	a2, a4, 12
	or	ra, a5, s0
	slli	s0, a4, 20
	or	t2, s0, a2
	xor	t6, t1, a4
	xor	t1, t3, a4
	xor	t3, s7, a4
	xor	a7, a7, a4
	lw	a2, 104(sp)                     # 4-byte Folded Reload
	xor	a4, s3, a2
	lw	a2, 100(sp)                     # 4-byte Folded Reload
	and	a6, s4, a2
	lw	a5, 96(sp)                      # 4-byte Folded Reload
	and	s0, t4, a5
	and	t4, t5, a2
	and	t5, s2, a5
	xor	t0, t0, a0
	srli	s2, a4, 20
	or	a6, a6, s0
	slli	s0, a4, 12
	or	t5, t4, t5
	srli	a0, a4, 12
	xor	t3, t3, a4
	slli	a4, a4, 20
	or	s2, s0, s2
	srli	s0, s1, 20
	or	a0, a0, a4
	slli	a4, s1, 12
	or	t4, a4, s0
	srli	a4, s1, 12
	xor	s4, s11, s1
	slli	s1, s1, 20
	or	s7, s1, a4
	xor	s3, a7, s3
	and	s1, s8, a2
	and	s0, s9, a5
	or	s0, s0, s1
	and	s1, s6, a2
	and	a3, a3, a5
	or	a3, a3, s1
	and	s1, s10, a2
	and	a1, a1, a5
	or	a1, a1, s1
	and	a4, t2, a5
	and	a0, a0, a5
	and	a5, s7, a5
	and	s1, ra, a2
	or	a4, a4, s1
	xor	t2, t6, a6
	lw	t6, 60(sp)                      # 4-byte Folded Reload
	xor	a7, t1, t5
	and	s1, s2, a2
	or	s1, s1, a0
	and	a0, t4, a2
	or	a5, a5, a0
	lw	a0, 88(sp)                      # 4-byte Folded Reload
	xor	s6, a0, s0
	xor	a2, t3, a3
	xor	a0, s5, a1
	lw	a1, 92(sp)                      # 4-byte Folded Reload
	xor	a6, s3, s1
	xor	t0, t0, a5
	xor	s2, s4, a4
	j	.Lgcm_BB15_12
.Lgcm_BB15_11:                              # %else.12.i
	srli	t0, s7, 4
	lui	a7, 61441
	srli	t2, t1, 4
	srli	t3, s9, 4
	srli	t4, a6, 4
	srli	t5, s10, 4
	srli	t6, s4, 4
	srli	s2, s3, 4
	srli	s6, s5, 4
	xor	t0, t0, s7
	addi	a3, a7, -256
	xor	s1, t2, t1
	xor	s0, t3, s9
	xor	a5, t4, a6
	xor	t2, t5, s10
	xor	a1, t6, s4
	xor	t3, s2, s3
	xor	a7, s6, s5
	and	a0, t0, a3
	and	s1, s1, a3
	and	a4, s0, a3
	and	a2, a5, a3
	and	t4, t2, a3
	and	t2, a1, a3
	and	t0, t3, a3
	and	a7, a7, a3
	slli	a1, a0, 4
	or	a0, a0, a1
	slli	a1, s1, 4
	or	a1, a1, s1
	slli	s0, a4, 4
	or	a4, a4, s0
	slli	a5, a2, 4
	or	a2, a2, a5
	slli	a5, t4, 4
	or	a5, a5, t4
	slli	s1, t2, 4
	or	s1, s1, t2
	slli	s0, t0, 4
	or	s0, s0, t0
	slli	a3, a7, 4
	or	a3, a3, a7
	xor	t2, a0, s7
	xor	a7, a1, t1
	xor	s6, a4, s9
	xor	a6, a2, a6
	xor	a2, a5, s10
	xor	a0, s1, s4
	xor	t0, s0, s3
	xor	s2, a3, s5
	lw	a1, 32(sp)                      # 4-byte Folded Reload
	slli	a1, a1, 5
	lw	t6, 60(sp)                      # 4-byte Folded Reload
.Lgcm_BB15_12:                              # %"aes_soft::soft::ciphers::planes::EncryptPlaneCipher::process_planes::<#49ec3a76f5e72ccf>.exit"
	xor	s4, t0, a0
	xor	a3, s2, a2
	xor	t3, s2, a7
	xor	t1, a2, s6
	xor	t5, s2, s6
	add	t6, t6, a1
	xor	a0, s4, t2
	xor	s8, t3, t1
	xor	s5, a0, a2
	xor	a4, s8, a6
	xor	s7, a0, a7
	and	a1, s5, t2
	xor	t4, a4, s6
	xor	a5, a4, t0
	xor	a7, s7, t5
	and	t0, s7, a0
	mv	a4, a3
	sw	a3, 104(sp)                     # 4-byte Folded Spill
	xor	s1, a5, a3
	xor	s3, t4, t2
	and	a3, t4, s8
	xor	s6, t4, s4
	xor	a2, a1, t5
	and	a4, a4, s1
	xor	s4, s1, s4
	xor	a6, s1, s6
	and	a1, s6, t5
	xor	a5, a5, a3
	xor	a3, s6, a3
	xor	s9, a2, a3
	and	a3, s3, a7
	xor	ra, a5, a3
	and	a5, a6, t1
	xor	a1, a1, a4
	xor	a4, a4, a5
	and	a5, s4, t3
	xor	a2, s4, t0
	xor	a2, a2, a5
	xor	a5, a5, s2
	xor	s10, a0, s2
	xor	s11, s1, t2
	and	a3, s11, s10
	xor	a3, s4, a3
	xor	a3, a3, a5
	xor	s2, ra, a4
	xor	a2, a2, t3
	xor	ra, a2, a4
	xor	a4, s9, a1
	xor	a1, a1, a3
	and	a2, ra, s2
	xor	t0, a1, ra
	xor	a3, a2, a4
	and	a3, a3, t0
	xor	s9, s2, a4
	xor	a5, a2, a1
	and	s0, a5, s9
	xor	a4, a4, s0
	xor	a2, a2, a3
	xor	a3, a3, a1
	and	a1, a1, a2
	xor	a5, a5, a1
	lw	a2, 8(t6)
	xor	a1, a1, ra
	and	s0, a3, s5
	lw	t0, 12(t6)
	xor	s2, s0, a2
	and	a5, a5, a4
	xor	a2, a5, s9
	and	s9, a3, t2
	and	s0, a1, t4
	and	t2, a1, s8
	xor	a1, a1, a3
	xor	a3, a3, a4
	and	t4, a4, s10
	and	s5, a4, s11
	and	a5, a1, s3
	and	a7, a1, a7
	xor	a1, a1, a2
	xor	a4, a4, a2
	and	a0, a0, a2
	and	s3, a2, s7
	xor	a2, s0, s9
	xor	s7, a5, s0
	and	s0, a4, s4
	and	a4, a4, t3
	and	t3, a3, s1
	lw	s1, 104(sp)                     # 4-byte Folded Reload
	and	s1, s1, a3
	and	a5, a1, s6
	xor	a3, a3, a1
	and	t5, a1, t5
	and	t1, a3, t1
	and	a6, a3, a6
	lw	a3, 20(t6)
	xor	a1, a2, s5
	xor	a0, a0, s0
	xor	a1, a1, s0
	xor	a2, a2, a5
	lw	s5, 24(t6)
	lw	s4, 28(t6)
	xor	a3, a3, s1
	xor	a3, a3, t5
	xor	s1, t1, s1
	lw	s0, 0(t6)
	xor	a5, a0, a6
	xor	a6, s7, a0
	lw	a0, 4(t6)
	xor	t1, a4, s0
	xor	a2, a2, a4
	xor	a4, a1, s3
	xor	t0, a1, t0
	xor	a1, s1, a7
	xor	a4, a4, s1
	xor	a2, a2, a5
	xor	a5, a5, t3
	xor	s1, a2, t4
	xor	a0, a0, a2
	xor	a2, a1, t2
	xor	t2, s2, a1
	xor	a3, a3, a5
	xor	a7, a5, s5
	xor	a5, a5, s4
	xor	s0, t1, a4
	xor	a0, a0, a4
	lw	a4, 16(t6)
	xor	a1, a6, a2
	xor	a6, t2, s1
	xor	a3, a3, s1
	xor	t1, a5, a2
	srli	a5, s0, 1
	xor	s1, t0, a1
	xor	t0, a1, a4
	xor	a7, a7, a1
	xor	a5, a5, a0
	srli	a1, a6, 1
	lw	a2, 16(sp)                      # 4-byte Folded Reload
	and	a5, a5, a2
	xor	a1, a1, s1
	srli	a4, t0, 1
	xor	t3, a5, a0
	slli	a5, a5, 1
	xor	t2, a5, s0
	srli	a5, a7, 1
	and	a1, a1, a2
	xor	a4, a4, a3
	xor	a5, a5, t1
	and	a4, a4, a2
	and	a5, a5, a2
	xor	s1, s1, a1
	slli	a1, a1, 1
	xor	a2, a1, a6
	srli	a0, t3, 2
	xor	a6, a4, a3
	slli	a4, a4, 1
	xor	s0, a5, t1
	slli	a5, a5, 1
	xor	t0, a4, t0
	srli	a3, t2, 2
	xor	a0, a0, s1
	xor	t5, a5, a7
	xor	a3, a3, a2
	lw	a1, 20(sp)                      # 4-byte Folded Reload
	and	a0, a0, a1
	srli	a4, a6, 2
	and	a3, a3, a1
	xor	t4, a0, s1
	slli	a0, a0, 2
	xor	t3, a0, t3
	srli	a0, t0, 2
	xor	a4, a4, s0
	xor	t1, a3, a2
	slli	a3, a3, 2
	xor	a0, a0, t5
	and	a2, a4, a1
	xor	a7, a3, t2
	srli	a3, t4, 4
	and	a0, a0, a1
	slli	a4, a2, 2
	xor	a1, a2, s0
	srli	a2, t3, 4
	xor	a5, a4, a6
	srli	s0, t1, 4
	xor	t2, a0, t5
	slli	a0, a0, 2
	xor	a0, a0, t0
	srli	s1, a7, 4
	xor	a3, a3, a1
	xor	a4, a5, a2
	xor	s0, t2, s0
	lw	a2, 100(sp)                     # 4-byte Folded Reload
	and	a3, a3, a2
	xor	s1, s1, a0
	and	a4, a4, a2
	and	s0, s0, a2
	and	s1, s1, a2
	xor	a6, a3, a1
	slli	a3, a3, 4
	xor	a3, a3, t4
	xor	t4, a4, a5
	slli	a2, a4, 4
	xor	t0, a2, t3
	xor	a5, s0, t2
	slli	s0, s0, 4
	xor	a2, s1, a0
	slli	s1, s1, 4
	xor	a0, s0, t1
	srli	a1, a5, 8
	xor	s1, s1, a7
	srli	a7, a5, 16
	lw	s0, 24(sp)                      # 4-byte Folded Reload
	sb	a1, 13(s0)
	sb	a5, 12(s0)
	srli	a5, a5, 24
	sb	a7, 14(s0)
	srli	a1, a3, 8
	sb	a5, 15(s0)
	srli	a5, a3, 16
	sb	a1, 21(s0)
	sb	a3, 20(s0)
	srli	a3, a3, 24
	sb	a5, 22(s0)
	srli	a1, t4, 8
	sb	a3, 23(s0)
	srli	a3, t4, 16
	sb	a1, 25(s0)
	sb	t4, 24(s0)
	srli	a4, t4, 24
	sb	a3, 26(s0)
	srli	a1, a0, 8
	sb	a4, 27(s0)
	srli	a3, a0, 16
	sb	a1, 5(s0)
	sb	a0, 4(s0)
	srli	a0, a0, 24
	sb	a3, 6(s0)
	srli	a1, a2, 8
	sb	a0, 7(s0)
	srli	a0, a2, 16
	sb	a1, 9(s0)
	sb	a2, 8(s0)
	srli	a2, a2, 24
	sb	a0, 10(s0)
	srli	a0, t0, 8
	sb	a2, 11(s0)
	srli	a1, t0, 16
	sb	a0, 17(s0)
	sb	t0, 16(s0)
	srli	a0, t0, 24
	sb	a1, 18(s0)
	srli	a1, s1, 8
	sb	a0, 19(s0)
	srli	a0, s1, 16
	sb	a1, 1(s0)
	sb	s1, 0(s0)
	srli	s1, s1, 24
	sb	a0, 2(s0)
	srli	a0, a6, 8
	sb	s1, 3(s0)
	srli	a1, a6, 16
	sb	a0, 29(s0)
	sb	a6, 28(s0)
	srli	a0, a6, 24
	sb	a1, 30(s0)
	sb	a0, 31(s0)
	lw	ra, 156(sp)                     # 4-byte Folded Reload
	lw	s0, 152(sp)                     # 4-byte Folded Reload
	lw	s1, 148(sp)                     # 4-byte Folded Reload
	lw	s2, 144(sp)                     # 4-byte Folded Reload
	lw	s3, 140(sp)                     # 4-byte Folded Reload
	lw	s4, 136(sp)                     # 4-byte Folded Reload
	lw	s5, 132(sp)                     # 4-byte Folded Reload
	lw	s6, 128(sp)                     # 4-byte Folded Reload
	lw	s7, 124(sp)                     # 4-byte Folded Reload
	lw	s8, 120(sp)                     # 4-byte Folded Reload
	lw	s9, 116(sp)                     # 4-byte Folded Reload
	lw	s10, 112(sp)                    # 4-byte Folded Reload
	lw	s11, 108(sp)                    # 4-byte Folded Reload
	addi	sp, sp, 160
	ret
.Lgcm_func_end15:
	.size	gcm.aes_soft.soft.ciphers.planes.process_outlined, .Lgcm_func_end15-gcm.aes_soft.soft.ciphers.planes.process_outlined
                                        # -- End function
	.section	.text.gcm.aes_cipher.zeroize.stack.wipe_stack.1024,"ax",@progbits
	.p2align	1                               # -- Begin function aes_cipher::zeroize::stack::wipe_stack::<=1024>
	.type	gcm.aes_cipher.zeroize.stack.wipe_stack.1024,@function
gcm.aes_cipher.zeroize.stack.wipe_stack.1024: # @gcm.aes_cipher.zeroize.stack.wipe_stack.1024
# %bb.0:                                # %start
	addi	sp, sp, -1056
	sw	ra, 1052(sp)                    # 4-byte Folded Spill
	sw	s0, 1048(sp)                    # 4-byte Folded Spill
	addi	a0, sp, 24
	li	a2, 1024
	addi	s0, sp, 24
	li	a1, 0
	call	memset
	sw	zero, 16(sp)
	sw	zero, 20(sp)
	#APP
	#NO_APP
	lw	a0, 16(sp)
	lw	a1, 20(sp)
	#APP
	#NO_APP
	seqz	a1, a1
	sltiu	a2, a0, 1024
	and	a1, a1, a2
	beqz	a1, .Lgcm_BB16_2
# %bb.1:                                # %then.1
	add	a0, a0, s0
	lbu	a0, 0(a0)
	#APP
	#NO_APP
	lw	zero, 20(sp)
	lw	zero, 16(sp)
	sw	zero, 20(sp)
	sw	a0, 16(sp)
	#APP
	#NO_APP
.Lgcm_BB16_2:                               # %common.ret
	lw	ra, 1052(sp)                    # 4-byte Folded Reload
	lw	s0, 1048(sp)                    # 4-byte Folded Reload
	addi	sp, sp, 1056
	ret
.Lgcm_func_end16:
	.size	gcm.aes_cipher.zeroize.stack.wipe_stack.1024, .Lgcm_func_end16-gcm.aes_cipher.zeroize.stack.wipe_stack.1024
                                        # -- End function
	.section	.text.gcm.gcm.mode.BorrowedGcm.hash_so_far,"ax",@progbits
	.p2align	1                               # -- Begin function gcm::mode::BorrowedGcm::hash_so_far::<#c01aad2b5fbc92b1>
	.type	gcm.gcm.mode.BorrowedGcm.hash_so_far,@function
gcm.gcm.mode.BorrowedGcm.hash_so_far: # @gcm.gcm.mode.BorrowedGcm.hash_so_far
# %bb.0:                                # %start
	addi	sp, sp, -80
	sw	ra, 76(sp)                      # 4-byte Folded Spill
	sw	s0, 72(sp)                      # 4-byte Folded Spill
	sw	s1, 68(sp)                      # 4-byte Folded Spill
	sw	s2, 64(sp)                      # 4-byte Folded Spill
	sw	s3, 60(sp)                      # 4-byte Folded Spill
	sw	s4, 56(sp)                      # 4-byte Folded Spill
	sw	s5, 52(sp)                      # 4-byte Folded Spill
	sw	s6, 48(sp)                      # 4-byte Folded Spill
	sw	s7, 44(sp)                      # 4-byte Folded Spill
	sw	s8, 40(sp)                      # 4-byte Folded Spill
	sw	s9, 36(sp)                      # 4-byte Folded Spill
	sw	s10, 32(sp)                     # 4-byte Folded Spill
	sw	s11, 28(sp)                     # 4-byte Folded Spill
	mv	s2, a0
	lw	t4, 24(a2)
	lw	t3, 28(a2)
	lw	s8, 48(a2)
	lbu	s5, 52(a2)
	lbu	s3, 60(a2)
	lbu	s4, 61(a2)
	lbu	t0, 62(a2)
	lbu	a6, 63(a2)
	lui	t1, 16
	lbu	s6, 53(a2)
	lbu	t2, 54(a2)
	lbu	a7, 55(a2)
	lw	ra, 56(a2)
	lbu	a4, 0(a1)
	lbu	s0, 1(a1)
	lbu	s9, 2(a1)
	lbu	s7, 3(a1)
	lbu	a3, 4(a1)
	lbu	s11, 5(a1)
	lbu	t6, 6(a1)
	lbu	t5, 7(a1)
	seqz	s1, t4
	slli	s5, s5, 24
	slli	s6, s6, 16
	slli	s3, s3, 24
	slli	s4, s4, 16
	slli	a4, a4, 24
	slli	s0, s0, 16
	sub	s10, t3, s1
	or	s5, s5, s6
	or	t3, s3, s4
	or	s3, s0, a4
	lbu	a4, 8(a1)
	lbu	s0, 9(a1)
	lbu	s1, 10(a1)
	lbu	a0, 11(a1)
	slli	s9, s9, 8
	slli	a3, a3, 24
	slli	s11, s11, 16
	slli	a4, a4, 24
	slli	s0, s0, 16
	or	s4, s9, s7
	or	s6, a3, s11
	or	s7, s0, a4
	lbu	s0, 12(a1)
	lbu	a3, 13(a1)
	lbu	s11, 14(a1)
	lbu	s9, 15(a1)
	addi	a1, t1, -256
	addi	a4, t4, -1
	slli	s1, s1, 8
	or	t1, s1, a0
	srli	s1, s8, 8
	slli	s0, s0, 24
	slli	a3, a3, 16
	or	a3, a3, s0
	zext.b	s0, a4
	or	s10, s10, s0
	srli	a0, s8, 24
	and	s1, s1, a1
	or	a0, a0, s1
	and	s1, s8, a1
	slli	s8, s8, 24
	slli	t2, t2, 8
	slli	s1, s1, 8
	or	s8, s8, s1
	srli	a5, ra, 8
	or	s5, s5, t2
	srli	s1, ra, 24
	and	a5, a5, a1
	or	a5, a5, s1
	and	a1, ra, a1
	slli	ra, ra, 24
	slli	a1, a1, 8
	or	a1, ra, a1
	slli	t0, t0, 8
	or	s1, t3, t0
	addi	t4, a2, 64
	slli	t6, t6, 8
	slli	s11, s11, 8
	sltiu	t2, a4, 4
	or	t0, s3, s4
	or	a4, s6, t6
	or	t1, s7, t1
	or	s0, a3, s11
	seqz	t3, s10
	or	t6, s8, a0
	or	a7, s5, a7
	or	s3, a1, a5
	or	a5, s1, a6
	or	a3, a4, t5
	or	a1, s0, s9
	and	a0, t3, t2
	sltu	t3, a7, s5
	sltu	a6, a5, s1
	sltu	a4, a3, a4
	sltu	s1, a1, s0
	addi	a0, a0, -1
	andi	a0, a0, 8
	add	a0, a0, a2
	lw	a0, 0(a0)
	add	t3, t3, t6
	add	a6, a6, s3
	add	a4, a4, t0
	andi	t5, a0, 15
	add	a2, s1, t1
	addi	a0, sp, 8
	li	t6, 0
	call	gcm.gcm.single_blocks.hash_singly.1
	lw	a0, 8(sp)
	lw	a1, 12(sp)
	lw	a2, 16(sp)
	lw	a3, 20(sp)
	sw	a0, 0(s2)
	sw	a1, 4(s2)
	sw	a2, 8(s2)
	sw	a3, 12(s2)
	lw	ra, 76(sp)                      # 4-byte Folded Reload
	lw	s0, 72(sp)                      # 4-byte Folded Reload
	lw	s1, 68(sp)                      # 4-byte Folded Reload
	lw	s2, 64(sp)                      # 4-byte Folded Reload
	lw	s3, 60(sp)                      # 4-byte Folded Reload
	lw	s4, 56(sp)                      # 4-byte Folded Reload
	lw	s5, 52(sp)                      # 4-byte Folded Reload
	lw	s6, 48(sp)                      # 4-byte Folded Reload
	lw	s7, 44(sp)                      # 4-byte Folded Reload
	lw	s8, 40(sp)                      # 4-byte Folded Reload
	lw	s9, 36(sp)                      # 4-byte Folded Reload
	lw	s10, 32(sp)                     # 4-byte Folded Reload
	lw	s11, 28(sp)                     # 4-byte Folded Reload
	addi	sp, sp, 80
	ret
.Lgcm_func_end17:
	.size	gcm.gcm.mode.BorrowedGcm.hash_so_far, .Lgcm_func_end17-gcm.gcm.mode.BorrowedGcm.hash_so_far
                                        # -- End function
	.section	.text.gcm.gcm.mode.put_subkey,"ax",@progbits
	.p2align	1                               # -- Begin function gcm::mode::put_subkey::<#107cc7d9d0728059>
	.type	gcm.gcm.mode.put_subkey,@function
gcm.gcm.mode.put_subkey: # @gcm.gcm.mode.put_subkey
# %bb.0:                                # %start
	addi	sp, sp, -64
	sw	ra, 60(sp)                      # 4-byte Folded Spill
	sw	s0, 56(sp)                      # 4-byte Folded Spill
	sw	s1, 52(sp)                      # 4-byte Folded Spill
	sw	s2, 48(sp)                      # 4-byte Folded Spill
	sw	s3, 44(sp)                      # 4-byte Folded Spill
	sw	s4, 40(sp)                      # 4-byte Folded Spill
	sw	s5, 36(sp)                      # 4-byte Folded Spill
	sw	s6, 32(sp)                      # 4-byte Folded Spill
	sw	s7, 28(sp)                      # 4-byte Folded Spill
	mv	s0, a3
	sw	zero, 12(sp)
	sw	zero, 16(sp)
	sw	zero, 20(sp)
	sw	zero, 24(sp)
	addi	a3, sp, 12
	li	a4, 1
	li	a5, 0
	call	gcm.aes_narrow.blocks.process_all_batches
	call	gcm.aes_cipher.zeroize.stack.wipe_stack.1024
	lw	a2, 12(sp)
	lbu	t6, 16(sp)
	lbu	t3, 17(sp)
	lbu	t4, 18(sp)
	lbu	a6, 19(sp)
	lw	a3, 20(sp)
	lbu	a7, 24(sp)
	lbu	t0, 25(sp)
	lbu	t1, 26(sp)
	lbu	t2, 27(sp)
	lui	a4, 16
	addi	a4, a4, -256
	srli	a0, a2, 8
	srli	s4, a2, 24
	and	t5, a2, a4
	slli	s2, a2, 24
	slli	a5, t6, 24
	slli	s1, t3, 16
	slli	s3, t4, 8
	srli	a2, a3, 8
	slli	a1, a7, 24
	or	s6, a5, s1
	slli	s1, t0, 16
	or	s5, a1, s1
	srli	s7, a3, 24
	and	a0, a0, a4
	and	a2, a2, a4
	and	a4, a4, a3
	slli	a3, a3, 24
	or	a0, a0, s4
	slli	a1, t1, 8
	sb	t6, 4(s0)
	sb	t3, 5(s0)
	sb	t4, 6(s0)
	sb	a6, 7(s0)
	slli	t5, t5, 8
	slli	a4, a4, 8
	or	a5, s2, t5
	or	s1, s6, s3
	or	a2, a2, s7
	or	a3, a3, a4
	or	a1, s5, a1
	or	a0, a0, a5
	or	a4, s1, a6
	or	a2, a2, a3
	or	a3, a1, t2
	sltu	a4, a4, s1
	sltu	a1, a3, a1
	add	a0, a0, a4
	add	a1, a1, a2
	srli	a2, a0, 8
	srli	a3, a0, 16
	srli	a4, a0, 24
	srli	a6, a1, 8
	srli	s1, a1, 16
	srli	a5, a1, 24
	sb	a4, 0(s0)
	sb	a3, 1(s0)
	sb	a2, 2(s0)
	sb	a0, 3(s0)
	sb	a5, 8(s0)
	sb	s1, 9(s0)
	sb	a6, 10(s0)
	sb	a1, 11(s0)
	sb	a7, 12(s0)
	sb	t0, 13(s0)
	sb	t1, 14(s0)
	sb	t2, 15(s0)
	addi	a0, sp, 12
	call	gcm.aes_cipher.zeroize.elements.zeroize_elements.3
	lw	ra, 60(sp)                      # 4-byte Folded Reload
	lw	s0, 56(sp)                      # 4-byte Folded Reload
	lw	s1, 52(sp)                      # 4-byte Folded Reload
	lw	s2, 48(sp)                      # 4-byte Folded Reload
	lw	s3, 44(sp)                      # 4-byte Folded Reload
	lw	s4, 40(sp)                      # 4-byte Folded Reload
	lw	s5, 36(sp)                      # 4-byte Folded Reload
	lw	s6, 32(sp)                      # 4-byte Folded Reload
	lw	s7, 28(sp)                      # 4-byte Folded Reload
	addi	sp, sp, 64
	ret
.Lgcm_func_end18:
	.size	gcm.gcm.mode.put_subkey, .Lgcm_func_end18-gcm.gcm.mode.put_subkey
                                        # -- End function
	.section	.text.gcm.gcm.mode.BorrowedGcm.compare,"ax",@progbits
	.p2align	1                               # -- Begin function gcm::mode::BorrowedGcm::compare::<#c01aad2b5fbc92b1>
	.type	gcm.gcm.mode.BorrowedGcm.compare,@function
gcm.gcm.mode.BorrowedGcm.compare: # @gcm.gcm.mode.BorrowedGcm.compare
# %bb.0:                                # %start
	addi	sp, sp, -64
	sw	ra, 60(sp)                      # 4-byte Folded Spill
	sw	s0, 56(sp)                      # 4-byte Folded Spill
	sw	s1, 52(sp)                      # 4-byte Folded Spill
	sw	s2, 48(sp)                      # 4-byte Folded Spill
	sw	s3, 44(sp)                      # 4-byte Folded Spill
	sw	s4, 40(sp)                      # 4-byte Folded Spill
	sw	s5, 36(sp)                      # 4-byte Folded Spill
	sw	s6, 32(sp)                      # 4-byte Folded Spill
	sw	s7, 28(sp)                      # 4-byte Folded Spill
	sw	s8, 24(sp)                      # 4-byte Folded Spill
	mv	s8, a4
	or	a4, a2, a3
	beqz	a4, .Lgcm_BB19_2
# %bb.1:                                # %else.7
	mv	s2, t5
	mv	s3, t4
	mv	s4, t3
	mv	s5, a7
	mv	s6, a6
	mv	s7, a5
	mv	s1, a0
	mv	a4, t6
	mv	s0, t6
	call	gcm.gcm.mode.BorrowedGcm.put_pre_counter
	addi	t3, sp, 8
	mv	a0, s1
	mv	a1, s0
	mv	a2, s8
	mv	a3, s7
	mv	a4, s6
	mv	a5, s5
	mv	a6, s4
	mv	a7, s3
	call	gcm.gcm.mode.BorrowedGcm.put_tag
	addi	a1, sp, 8
	mv	a0, s2
	call	gcm.aes_cipher.blocks.difference
	snez	s0, a0
	addi	a0, sp, 8
	call	gcm.aes_cipher.zeroize.elements.zeroize_elements.3
	j	.Lgcm_BB19_3
.Lgcm_BB19_2:
	li	s0, 1
.Lgcm_BB19_3:                               # %return.13
	mv	a0, s0
	lw	ra, 60(sp)                      # 4-byte Folded Reload
	lw	s0, 56(sp)                      # 4-byte Folded Reload
	lw	s1, 52(sp)                      # 4-byte Folded Reload
	lw	s2, 48(sp)                      # 4-byte Folded Reload
	lw	s3, 44(sp)                      # 4-byte Folded Reload
	lw	s4, 40(sp)                      # 4-byte Folded Reload
	lw	s5, 36(sp)                      # 4-byte Folded Reload
	lw	s6, 32(sp)                      # 4-byte Folded Reload
	lw	s7, 28(sp)                      # 4-byte Folded Reload
	lw	s8, 24(sp)                      # 4-byte Folded Reload
	addi	sp, sp, 64
	ret
.Lgcm_func_end19:
	.size	gcm.gcm.mode.BorrowedGcm.compare, .Lgcm_func_end19-gcm.gcm.mode.BorrowedGcm.compare
                                        # -- End function
	.section	.text.gcm.gcm.mode.BorrowedGcm.put_tag,"ax",@progbits
	.p2align	1                               # -- Begin function gcm::mode::BorrowedGcm::put_tag::<#c01aad2b5fbc92b1>
	.type	gcm.gcm.mode.BorrowedGcm.put_tag,@function
gcm.gcm.mode.BorrowedGcm.put_tag: # @gcm.gcm.mode.BorrowedGcm.put_tag
# %bb.0:                                # %start
	addi	sp, sp, -112
	sw	ra, 108(sp)                     # 4-byte Folded Spill
	sw	s0, 104(sp)                     # 4-byte Folded Spill
	sw	s1, 100(sp)                     # 4-byte Folded Spill
	sw	s2, 96(sp)                      # 4-byte Folded Spill
	sw	s3, 92(sp)                      # 4-byte Folded Spill
	sw	s4, 88(sp)                      # 4-byte Folded Spill
	sw	s5, 84(sp)                      # 4-byte Folded Spill
	sw	s6, 80(sp)                      # 4-byte Folded Spill
	sw	s7, 76(sp)                      # 4-byte Folded Spill
	sw	s8, 72(sp)                      # 4-byte Folded Spill
	sw	s9, 68(sp)                      # 4-byte Folded Spill
	sw	s10, 64(sp)                     # 4-byte Folded Spill
	sw	s11, 60(sp)                     # 4-byte Folded Spill
	mv	s0, t3
	mv	s3, a7
	mv	s2, a6
	mv	s4, a5
	mv	s6, a4
	mv	s5, a3
	mv	s7, a2
	mv	s1, a0
	li	a2, 16
	mv	a0, t3
	call	memmove
	lbu	a6, 0(s1)
	lbu	a7, 1(s1)
	lbu	a2, 2(s1)
	lbu	a3, 3(s1)
	lbu	a4, 8(s1)
	lbu	a5, 9(s1)
	lbu	a0, 10(s1)
	lbu	a1, 11(s1)
	slli	a7, a7, 8
	slli	a2, a2, 16
	slli	a3, a3, 24
	slli	a5, a5, 8
	slli	a0, a0, 16
	slli	a1, a1, 24
	or	a6, a7, a6
	or	a7, a3, a2
	or	a4, a4, a5
	or	a1, a1, a0
	lbu	a0, 13(s1)
	lbu	a3, 12(s1)
	lbu	a5, 14(s1)
	lbu	a2, 15(s1)
	slli	a0, a0, 8
	or	a3, a3, a0
	slli	a5, a5, 16
	slli	a2, a2, 24
	or	a2, a2, a5
	or	a0, a7, a6
	or	a1, a1, a4
	or	a2, a2, a3
	li	a4, 1
	mv	a3, s0
	li	a5, 0
	call	gcm.aes_narrow.blocks.process_all_batches
	call	gcm.aes_cipher.zeroize.stack.wipe_stack.1024
	lw	a0, 16(s1)
	lbu	a7, 0(a0)
	lbu	t1, 1(a0)
	lbu	t2, 2(a0)
	lbu	a6, 3(a0)
	lbu	t5, 4(a0)
	lbu	t4, 5(a0)
	lbu	t3, 6(a0)
	lbu	t0, 7(a0)
	lbu	a2, 8(a0)
	lbu	a3, 9(a0)
	lbu	a1, 10(a0)
	lbu	t6, 11(a0)
	lbu	a5, 12(a0)
	lbu	a4, 13(a0)
	lbu	s8, 14(a0)
	lbu	s9, 15(a0)
	slli	a7, a7, 24
	slli	t1, t1, 16
	slli	t2, t2, 8
	slli	t5, t5, 24
	slli	t4, t4, 16
	slli	t3, t3, 8
	slli	s10, a2, 24
	slli	s11, a3, 16
	slli	ra, a1, 8
	slli	a5, a5, 24
	slli	a4, a4, 16
	slli	s8, s8, 8
	or	a7, t1, a7
	or	a2, t2, a6
	or	a3, t5, t4
	or	a1, s11, s10
	or	a0, ra, t6
	or	a4, a4, a5
	or	a6, a7, a2
	or	a5, a3, t3
	or	a0, a0, a1
	or	a4, a4, s8
	or	a3, a5, t0
	or	a1, a4, s9
	sltu	a5, a3, a5
	sltu	a2, a1, a4
	add	a4, a5, a6
	add	a2, a2, a0
	addi	a0, sp, 40
	li	a5, 0
	li	a6, 0
	li	a7, 0
	li	t3, 0
	mv	t4, s7
	mv	t5, s5
	mv	t6, s6
	call	gcm.gcm.single_blocks.hash_singly.1
	lw	a0, 16(s1)
	lw	a5, 40(sp)
	lw	a6, 44(sp)
	lw	a7, 48(sp)
	lw	t3, 52(sp)
	slli	s9, s5, 3
	slli	s10, s2, 3
	lbu	t1, 0(a0)
	lbu	t4, 1(a0)
	lbu	t5, 2(a0)
	lbu	t0, 3(a0)
	lbu	s7, 4(a0)
	lbu	s6, 5(a0)
	lbu	t6, 6(a0)
	lbu	t2, 7(a0)
	lbu	a2, 8(a0)
	lbu	a3, 9(a0)
	lbu	a1, 10(a0)
	lbu	s8, 11(a0)
	lbu	s1, 12(a0)
	lbu	a4, 13(a0)
	lbu	s11, 14(a0)
	lbu	ra, 15(a0)
	slli	t1, t1, 24
	slli	t4, t4, 16
	slli	t5, t5, 8
	slli	s7, s7, 24
	slli	s6, s6, 16
	slli	t6, t6, 8
	slli	a2, a2, 24
	slli	a3, a3, 16
	slli	a1, a1, 8
	slli	s1, s1, 24
	slli	a4, a4, 16
	slli	s11, s11, 8
	or	t1, t4, t1
	or	a0, t5, t0
	or	t0, s7, s6
	or	a2, a2, a3
	or	a1, a1, s8
	or	a4, a4, s1
	or	s7, t1, a0
	or	a0, t0, t6
	or	a1, a1, a2
	or	a2, a4, s11
	or	s6, a0, t2
	or	s11, a2, ra
	sltu	a0, s6, a0
	sltu	s8, s11, a2
	add	s7, s7, a0
	add	s8, s8, a1
	addi	a0, sp, 24
	mv	a1, s11
	mv	a2, s8
	mv	a3, s6
	mv	a4, s7
	mv	t4, s4
	mv	t5, s2
	mv	t6, s3
	call	gcm.gcm.single_blocks.hash_singly.1
	lw	a0, 24(sp)
	lw	s1, 28(sp)
	lw	a3, 32(sp)
	lw	a4, 36(sp)
	srli	a5, s5, 29
	srli	a2, s2, 29
	xor	a1, a0, s10
	xor	a2, a2, s1
	xor	a3, a3, s9
	xor	a4, a4, a5
	addi	a0, sp, 8
	mv	a5, s11
	mv	a6, s8
	mv	a7, s6
	mv	t3, s7
	call	gcm.gcm.bitwise.product_bitwise
	lbu	a6, 16(sp)
	lbu	a7, 17(sp)
	lbu	t0, 18(sp)
	lbu	t1, 19(sp)
	lbu	t3, 12(sp)
	lbu	t4, 13(sp)
	lbu	t5, 14(sp)
	lbu	t2, 15(sp)
	lbu	s2, 8(sp)
	lbu	s3, 9(sp)
	lbu	s4, 10(sp)
	lbu	t6, 11(sp)
	lbu	a4, 12(s0)
	lbu	a5, 13(s0)
	lbu	s1, 14(s0)
	lbu	a0, 15(s0)
	lbu	s5, 8(s0)
	lbu	a2, 9(s0)
	lbu	a3, 10(s0)
	lbu	a1, 11(s0)
	xor	s2, a0, s2
	xor	s3, s1, s3
	xor	s4, a5, s4
	xor	t6, a4, t6
	lbu	s6, 4(s0)
	lbu	s1, 5(s0)
	lbu	a5, 6(s0)
	lbu	a4, 7(s0)
	xor	t3, a1, t3
	xor	t4, a3, t4
	xor	t5, a2, t5
	xor	t2, s5, t2
	lbu	s5, 0(s0)
	lbu	s7, 1(s0)
	lbu	a1, 2(s0)
	lbu	a0, 3(s0)
	xor	a6, a4, a6
	xor	a7, a5, a7
	xor	t0, s1, t0
	xor	a4, s6, t1
	lbu	a5, 20(sp)
	lbu	a3, 21(sp)
	lbu	s1, 22(sp)
	lbu	a2, 23(sp)
	xor	a0, a0, a5
	xor	a1, a1, a3
	xor	a3, s7, s1
	xor	a2, s5, a2
	sb	a2, 0(s0)
	sb	a3, 1(s0)
	sb	a1, 2(s0)
	sb	a0, 3(s0)
	sb	a4, 4(s0)
	sb	t0, 5(s0)
	sb	a7, 6(s0)
	sb	a6, 7(s0)
	sb	t2, 8(s0)
	sb	t5, 9(s0)
	sb	t4, 10(s0)
	sb	t3, 11(s0)
	sb	t6, 12(s0)
	sb	s4, 13(s0)
	sb	s3, 14(s0)
	sb	s2, 15(s0)
	lw	ra, 108(sp)                     # 4-byte Folded Reload
	lw	s0, 104(sp)                     # 4-byte Folded Reload
	lw	s1, 100(sp)                     # 4-byte Folded Reload
	lw	s2, 96(sp)                      # 4-byte Folded Reload
	lw	s3, 92(sp)                      # 4-byte Folded Reload
	lw	s4, 88(sp)                      # 4-byte Folded Reload
	lw	s5, 84(sp)                      # 4-byte Folded Reload
	lw	s6, 80(sp)                      # 4-byte Folded Reload
	lw	s7, 76(sp)                      # 4-byte Folded Reload
	lw	s8, 72(sp)                      # 4-byte Folded Reload
	lw	s9, 68(sp)                      # 4-byte Folded Reload
	lw	s10, 64(sp)                     # 4-byte Folded Reload
	lw	s11, 60(sp)                     # 4-byte Folded Reload
	addi	sp, sp, 112
	ret
.Lgcm_func_end20:
	.size	gcm.gcm.mode.BorrowedGcm.put_tag, .Lgcm_func_end20-gcm.gcm.mode.BorrowedGcm.put_tag
                                        # -- End function
	.section	.text.gcm.aes_cipher.blocks.difference,"ax",@progbits
	.p2align	1                               # -- Begin function aes_cipher::blocks::difference
	.type	gcm.aes_cipher.blocks.difference,@function
gcm.aes_cipher.blocks.difference:       # @gcm.aes_cipher.blocks.difference
# %bb.0:                                # %start
	addi	sp, sp, -32
	sw	s0, 28(sp)                      # 4-byte Folded Spill
	sw	s1, 24(sp)                      # 4-byte Folded Spill
	sw	s2, 20(sp)                      # 4-byte Folded Spill
	sw	s3, 16(sp)                      # 4-byte Folded Spill
	sw	s4, 12(sp)                      # 4-byte Folded Spill
	sw	s5, 8(sp)                       # 4-byte Folded Spill
	sw	s6, 4(sp)                       # 4-byte Folded Spill
	lbu	t3, 0(a0)
	lbu	t6, 1(a0)
	lbu	a6, 2(a0)
	lbu	a7, 3(a0)
	lbu	a4, 0(a1)
	lbu	a5, 1(a1)
	lbu	t0, 2(a1)
	lbu	t1, 3(a1)
	lbu	t2, 4(a0)
	lbu	t5, 5(a0)
	lbu	t4, 6(a0)
	lbu	s2, 7(a0)
	lbu	a3, 4(a1)
	lbu	s0, 5(a1)
	lbu	s1, 6(a1)
	lbu	s6, 7(a1)
	xor	t3, a4, t3
	xor	t6, a5, t6
	lbu	a4, 8(a0)
	lbu	s3, 9(a0)
	lbu	s4, 10(a0)
	lbu	s5, 11(a0)
	xor	a6, t0, a6
	xor	a7, t1, a7
	xor	t0, a3, t2
	xor	t1, s0, t5
	lbu	a3, 8(a1)
	lbu	s0, 9(a1)
	lbu	a5, 10(a1)
	lbu	a2, 11(a1)
	xor	t2, s1, t4
	xor	t4, s6, s2
	xor	t5, a3, a4
	lbu	s2, 12(a0)
	lbu	s1, 13(a0)
	lbu	a3, 14(a0)
	lbu	a0, 15(a0)
	xor	s6, s0, s3
	xor	s3, a5, s4
	xor	a2, a2, s5
	lbu	a4, 12(a1)
	lbu	a5, 13(a1)
	lbu	s0, 14(a1)
	lbu	a1, 15(a1)
	xor	a4, a4, s2
	xor	a5, a5, s1
	xor	a3, a3, s0
	xor	s2, a1, a0
	or	a1, t6, t3
	or	s1, a7, a6
	or	s0, t1, t0
	or	a0, t5, t4
	or	a2, a2, a4
	or	a1, a1, s1
	or	a4, t2, s0
	or	a0, s6, a0
	or	a2, a2, a5
	or	a1, a1, a4
	or	a0, s3, a0
	or	a2, a2, a3
	or	a0, a0, a1
	or	a1, s2, a2
	or	a0, a0, a1
	lw	s0, 28(sp)                      # 4-byte Folded Reload
	lw	s1, 24(sp)                      # 4-byte Folded Reload
	lw	s2, 20(sp)                      # 4-byte Folded Reload
	lw	s3, 16(sp)                      # 4-byte Folded Reload
	lw	s4, 12(sp)                      # 4-byte Folded Reload
	lw	s5, 8(sp)                       # 4-byte Folded Reload
	lw	s6, 4(sp)                       # 4-byte Folded Reload
	addi	sp, sp, 32
	ret
.Lgcm_func_end21:
	.size	gcm.aes_cipher.blocks.difference, .Lgcm_func_end21-gcm.aes_cipher.blocks.difference
                                        # -- End function
	.section	.text.gcm.gcm.gctr.add_gctr,"ax",@progbits
	.p2align	1                               # -- Begin function gcm::gctr::add_gctr::<#099a9bc28799ce6c>
	.type	gcm.gcm.gctr.add_gctr,@function
gcm.gcm.gctr.add_gctr: # @gcm.gcm.gctr.add_gctr
# %bb.0:                                # %start
	addi	sp, sp, -144
	sw	ra, 140(sp)                     # 4-byte Folded Spill
	sw	s0, 136(sp)                     # 4-byte Folded Spill
	sw	s1, 132(sp)                     # 4-byte Folded Spill
	sw	s2, 128(sp)                     # 4-byte Folded Spill
	sw	s3, 124(sp)                     # 4-byte Folded Spill
	sw	s4, 120(sp)                     # 4-byte Folded Spill
	sw	s5, 116(sp)                     # 4-byte Folded Spill
	sw	s6, 112(sp)                     # 4-byte Folded Spill
	sw	s7, 108(sp)                     # 4-byte Folded Spill
	sw	s8, 104(sp)                     # 4-byte Folded Spill
	sw	s9, 100(sp)                     # 4-byte Folded Spill
	sw	s10, 96(sp)                     # 4-byte Folded Spill
	sw	s11, 92(sp)                     # 4-byte Folded Spill
	or	s1, a5, a6
	beqz	s1, .Lgcm_BB22_23
# %bb.1:                                # %then.1
	lbu	a7, 12(a1)
	lbu	t0, 13(a1)
	lbu	t1, 14(a1)
	lbu	t2, 15(a1)
	lbu	s1, 8(a1)
	lbu	s0, 9(a1)
	lbu	t3, 10(a1)
	lbu	t4, 11(a1)
	slli	t0, t0, 8
	slli	t1, t1, 16
	slli	t2, t2, 24
	slli	s0, s0, 8
	or	a7, t0, a7
	or	t0, t2, t1
	or	t1, s0, s1
	lbu	t2, 4(a1)
	lbu	t5, 5(a1)
	lbu	s1, 6(a1)
	lbu	s0, 7(a1)
	slli	t3, t3, 16
	slli	t4, t4, 24
	slli	t5, t5, 8
	slli	s1, s1, 16
	slli	s0, s0, 24
	or	t3, t4, t3
	or	t2, t5, t2
	or	t4, s0, s1
	lbu	s1, 1(a1)
	lbu	t5, 0(a1)
	lbu	s0, 2(a1)
	lbu	a1, 3(a1)
	slli	s1, s1, 8
	or	s1, s1, t5
	slli	s0, s0, 16
	slli	a1, a1, 24
	or	a1, a1, s0
	or	a7, t0, a7
	or	t0, t3, t1
	or	s0, t4, t2
	andi	s4, a2, 15
	or	s1, s1, a1
	sltiu	a1, s4, 17
	addi	a1, a1, -1
	sw	s1, 24(sp)
	sw	s0, 28(sp)
	sw	t0, 32(sp)
	sw	a7, 36(sp)
	sw	zero, 40(sp)
	sw	zero, 44(sp)
	beq	a6, a1, .Lgcm_BB22_9
# %bb.2:                                # %then.1
	sltu	a1, a1, a6
	bnez	a1, .Lgcm_BB22_10
.Lgcm_BB22_3:                               # %then.1.i
	sw	a5, 20(sp)                      # 4-byte Folded Spill
	sw	a6, 8(sp)                       # 4-byte Folded Spill
	mv	s5, a4
	lbu	t1, 0(a0)
	lbu	t5, 1(a0)
	lbu	t2, 2(a0)
	lbu	t3, 3(a0)
	lbu	a7, 8(a0)
	lbu	t6, 9(a0)
	lbu	s6, 10(a0)
	lbu	s7, 11(a0)
	lbu	t4, 12(a0)
	lbu	s8, 13(a0)
	lbu	s10, 14(a0)
	lbu	s11, 15(a0)
	srli	a2, a2, 4
	slli	a3, a3, 28
	lw	a5, 24(sp)
	lbu	ra, 28(sp)
	lbu	s3, 29(sp)
	lbu	s2, 30(sp)
	lbu	s9, 31(sp)
	lw	s0, 32(sp)
	lbu	a0, 36(sp)
	lbu	a1, 37(sp)
	or	a6, a2, a3
	lbu	a2, 38(sp)
	lbu	t0, 39(sp)
	slli	t5, t5, 8
	or	t1, t5, t1
	lui	a4, 16
	addi	a4, a4, -256
	slli	t2, t2, 16
	slli	t3, t3, 24
	slli	t6, t6, 8
	slli	s6, s6, 16
	slli	s7, s7, 24
	slli	s8, s8, 8
	slli	s10, s10, 16
	slli	s11, s11, 24
	or	a3, t3, t2
	srli	t2, a5, 8
	or	a7, t6, a7
	srli	t3, a5, 24
	or	t5, s7, s6
	and	t6, a5, a4
	slli	s6, a5, 24
	or	t4, s8, t4
	slli	a5, ra, 24
	or	s7, s11, s10
	slli	s1, s3, 16
	or	s8, a5, s1
	slli	s10, s2, 8
	slli	a0, a0, 24
	slli	a1, a1, 16
	or	s11, a0, a1
	srli	a1, s0, 8
	or	a0, a3, t1
	srli	t1, s0, 24
	and	s1, t2, a4
	and	t2, a1, a4
	and	a4, a4, s0
	slli	s0, s0, 24
	slli	a3, a2, 8
	sb	ra, 80(sp)
	sb	s3, 81(sp)
	sb	s2, 82(sp)
	sb	s9, 83(sp)
	slli	t6, t6, 8
	slli	s2, a4, 8
	or	a1, t5, a7
	or	a2, s7, t4
	or	a7, s1, t3
	or	a5, s6, t6
	or	a4, s8, s10
	or	s1, t2, t1
	or	s0, s0, s2
	or	a3, s11, a3
	or	a7, a5, a7
	or	a5, a4, s9
	or	s0, s0, s1
	or	s1, a3, t0
	sltu	a4, a5, a4
	sltu	a3, s1, a3
	add	a6, a6, s1
	add	a4, a4, a7
	add	a3, a3, s0
	srli	a7, a6, 8
	srli	t0, a6, 16
	srli	t1, a6, 24
	srli	t3, a4, 8
	srli	s1, a4, 16
	srli	s0, a4, 24
	srli	t2, a3, 8
	srli	t4, a3, 16
	srli	a5, a3, 24
	sb	s0, 76(sp)
	sb	s1, 77(sp)
	sb	t3, 78(sp)
	sb	a4, 79(sp)
	sb	a5, 84(sp)
	sb	t4, 85(sp)
	sb	t2, 86(sp)
	sb	a3, 87(sp)
	sb	t1, 88(sp)
	sb	t0, 89(sp)
	sb	a7, 90(sp)
	sb	a6, 91(sp)
	addi	a3, sp, 76
	li	a4, 1
	li	a5, 0
	call	gcm.aes_narrow.blocks.process_all_batches
	call	gcm.aes_cipher.zeroize.stack.wipe_stack.1024
	sw	s4, 16(sp)                      # 4-byte Folded Spill
	beqz	s4, .Lgcm_BB22_11
# %bb.4:                                # %join.8.i72.i.i.preheader
	li	a0, 0
	li	a1, 0
	mv	a5, s5
	lw	s3, 8(sp)                       # 4-byte Folded Reload
	lw	ra, 20(sp)                      # 4-byte Folded Reload
	j	.Lgcm_BB22_6
.Lgcm_BB22_5:                               # %join.8.i72.i.i
                                        #   in Loop: Header=BB22_6 Depth=1
	sltu	a2, a1, s3
	beqz	a2, .Lgcm_BB22_8
.Lgcm_BB22_6:                               # %join.8.i72.i.i
                                        # =>This Inner Loop Header: Depth=1
	add	a2, a0, s4
	addi	a3, sp, 76
	add	a4, a5, a0
	add	a2, a2, a3
	lbu	a3, 0(a4)
	lbu	a2, 0(a2)
	addi	a0, a0, 1
	xor	a2, a2, a3
	seqz	a3, a0
	add	a1, a1, a3
	sb	a2, 0(a4)
	bne	a1, s3, .Lgcm_BB22_5
# %bb.7:                                #   in Loop: Header=BB22_6 Depth=1
	sltu	a2, a0, ra
	bnez	a2, .Lgcm_BB22_6
.Lgcm_BB22_8:
	mv	s4, ra
	mv	s6, s3
	j	.Lgcm_BB22_12
.Lgcm_BB22_9:
	li	a1, 16
	sub	a1, a1, s4
	sltu	a1, a1, a5
	beqz	a1, .Lgcm_BB22_3
.Lgcm_BB22_10:                              # %else.2.i
	addi	a7, sp, 24
	sw	zero, 60(sp)
	sw	a5, 64(sp)
	sw	a6, 68(sp)
	lbu	a5, 0(a0)
	lbu	s1, 1(a0)
	lbu	s0, 2(a0)
	lbu	a1, 3(a0)
	sw	a7, 40(sp)
	sw	a2, 48(sp)
	sw	a3, 52(sp)
	sw	a4, 56(sp)
	slli	s1, s1, 8
	or	a5, a5, s1
	lbu	a2, 8(a0)
	lbu	a3, 9(a0)
	lbu	a4, 10(a0)
	lbu	s1, 11(a0)
	slli	s0, s0, 16
	slli	a1, a1, 24
	slli	a3, a3, 8
	slli	a4, a4, 16
	slli	s1, s1, 24
	or	a1, a1, s0
	or	a2, a2, a3
	or	a4, a4, s1
	lbu	a3, 13(a0)
	lbu	s1, 12(a0)
	lbu	s0, 14(a0)
	lbu	a0, 15(a0)
	slli	a3, a3, 8
	or	a3, a3, s1
	slli	s0, s0, 16
	slli	a0, a0, 24
	or	s0, s0, a0
	or	a0, a1, a5
	or	a1, a4, a2
	or	a2, s0, a3
	addi	a3, sp, 40
	call	gcm.aes_narrow.borrowed_words.call_to_encrypt.1
	call	gcm.aes_cipher.zeroize.stack.wipe_stack.2032
	j	.Lgcm_BB22_23
.Lgcm_BB22_11:
	li	s6, 0
	mv	a5, s5
	lw	s3, 8(sp)                       # 4-byte Folded Reload
	lw	ra, 20(sp)                      # 4-byte Folded Reload
.Lgcm_BB22_12:                              # %join.3.i.i.i
	sltu	a0, ra, s4
	sub	s0, s3, s6
	sub	s8, ra, s4
	sub	s5, s0, a0
	seqz	a0, s5
	sltiu	a1, s8, 16
	and	a0, a0, a1
	bnez	a0, .Lgcm_BB22_15
# %bb.13:                               # %join.8.i.i.i.preheader
	sw	a5, 12(sp)                      # 4-byte Folded Spill
.Lgcm_BB22_14:                              # %join.8.i.i.i
                                        # =>This Inner Loop Header: Depth=1
	mv	a1, s4
	lw	s0, 16(sp)                      # 4-byte Folded Reload
	add	s0, s0, s4
	addi	t4, sp, 76
	addi	s4, s4, 16
	add	a0, a5, a1
	andi	a2, s0, -16
	sltu	a1, s4, a1
	lbu	t1, 8(a0)
	lbu	a6, 9(a0)
	lbu	a7, 10(a0)
	lbu	t0, 11(a0)
	lbu	t6, 4(a0)
	lbu	t2, 5(a0)
	lbu	t3, 6(a0)
	lbu	t5, 7(a0)
	lbu	s11, 0(a0)
	lbu	s9, 1(a0)
	lbu	s7, 2(a0)
	lbu	s10, 3(a0)
	sltu	s0, ra, s4
	sub	s8, ra, s4
	add	t4, t4, a2
	add	s6, s6, a1
	sub	s0, s3, s0
	sltiu	a2, s8, 16
	lbu	s1, 0(t4)
	lbu	a1, 1(t4)
	lbu	a5, 2(t4)
	lbu	a3, 3(t4)
	sub	s5, s0, s6
	seqz	s0, s5
	and	a2, a2, s0
	sw	a2, 20(sp)                      # 4-byte Folded Spill
	xor	s11, s1, s11
	lbu	s1, 4(t4)
	lbu	a2, 5(t4)
	lbu	s0, 6(t4)
	lbu	s2, 7(t4)
	xor	s9, a1, s9
	xor	a5, a5, s7
	xor	s7, a3, s10
	xor	t6, s1, t6
	lbu	a1, 8(t4)
	lbu	a3, 9(t4)
	lbu	a4, 10(t4)
	lbu	s1, 11(t4)
	xor	s10, a2, t2
	xor	t3, s0, t3
	xor	t2, s2, t5
	xor	t1, a1, t1
	lbu	a2, 12(a0)
	lbu	s0, 13(a0)
	lbu	s2, 14(a0)
	lbu	t5, 15(a0)
	xor	a6, a3, a6
	xor	a7, a4, a7
	xor	t0, s1, t0
	lbu	a3, 12(t4)
	lbu	a4, 13(t4)
	lbu	s1, 14(t4)
	lbu	a1, 15(t4)
	xor	a2, a2, a3
	xor	a4, a4, s0
	xor	a3, s1, s2
	xor	a1, a1, t5
	sb	a2, 12(a0)
	sb	a4, 13(a0)
	sb	a3, 14(a0)
	sb	a1, 15(a0)
	sb	t1, 8(a0)
	sb	a6, 9(a0)
	sb	a7, 10(a0)
	sb	t0, 11(a0)
	sb	t6, 4(a0)
	sb	s10, 5(a0)
	sb	t3, 6(a0)
	sb	t2, 7(a0)
	sb	s11, 0(a0)
	sb	s9, 1(a0)
	sb	a5, 2(a0)
	lw	a5, 12(sp)                      # 4-byte Folded Reload
	sb	s7, 3(a0)
	lw	a0, 20(sp)                      # 4-byte Folded Reload
	beqz	a0, .Lgcm_BB22_14
.Lgcm_BB22_15:                              # %after.4.i.i.i
	beq	s6, s3, .Lgcm_BB22_17
# %bb.16:                               # %after.4.i.i.i
	sltu	a0, s6, s3
	bnez	a0, .Lgcm_BB22_18
	j	.Lgcm_BB22_23
.Lgcm_BB22_17:
	sltu	a0, s4, ra
	beqz	a0, .Lgcm_BB22_23
.Lgcm_BB22_18:                              # %then.9.i.i.i
	or	a0, s8, s5
	beqz	a0, .Lgcm_BB22_23
# %bb.19:                               # %join.8.i15.i.i.preheader
	li	a0, 0
	li	s0, 0
	lw	a2, 16(sp)                      # 4-byte Folded Reload
	add	a2, a2, s4
	addi	a3, sp, 76
	andi	a2, a2, -16
	add	a2, a2, a3
	add	a3, a5, s4
	j	.Lgcm_BB22_21
.Lgcm_BB22_20:                              #   in Loop: Header=BB22_21 Depth=1
	sltu	a4, a0, s8
	beqz	a4, .Lgcm_BB22_23
.Lgcm_BB22_21:                              # %join.8.i15.i.i
                                        # =>This Inner Loop Header: Depth=1
	add	a4, a2, a0
	add	a5, a3, a0
	lbu	a4, 0(a4)
	lbu	s1, 0(a5)
	addi	a0, a0, 1
	xor	a4, a4, s1
	seqz	a1, a0
	add	s0, s0, a1
	sb	a4, 0(a5)
	beq	s0, s5, .Lgcm_BB22_20
# %bb.22:                               # %join.8.i15.i.i
                                        #   in Loop: Header=BB22_21 Depth=1
	sltu	a4, s0, s5
	bnez	a4, .Lgcm_BB22_21
.Lgcm_BB22_23:                              # %join.3
	lw	ra, 140(sp)                     # 4-byte Folded Reload
	lw	s0, 136(sp)                     # 4-byte Folded Reload
	lw	s1, 132(sp)                     # 4-byte Folded Reload
	lw	s2, 128(sp)                     # 4-byte Folded Reload
	lw	s3, 124(sp)                     # 4-byte Folded Reload
	lw	s4, 120(sp)                     # 4-byte Folded Reload
	lw	s5, 116(sp)                     # 4-byte Folded Reload
	lw	s6, 112(sp)                     # 4-byte Folded Reload
	lw	s7, 108(sp)                     # 4-byte Folded Reload
	lw	s8, 104(sp)                     # 4-byte Folded Reload
	lw	s9, 100(sp)                     # 4-byte Folded Reload
	lw	s10, 96(sp)                     # 4-byte Folded Reload
	lw	s11, 92(sp)                     # 4-byte Folded Reload
	addi	sp, sp, 144
	ret
.Lgcm_func_end22:
	.size	gcm.gcm.gctr.add_gctr, .Lgcm_func_end22-gcm.gcm.gctr.add_gctr
                                        # -- End function
	.section	.text.gcm.aes_narrow.borrowed_words.call_to_encrypt.1,"ax",@progbits
	.p2align	1                               # -- Begin function aes_narrow::borrowed_words::call_to_encrypt::<#1305835a18aa05db>
	.type	gcm.aes_narrow.borrowed_words.call_to_encrypt.1,@function
gcm.aes_narrow.borrowed_words.call_to_encrypt.1: # @gcm.aes_narrow.borrowed_words.call_to_encrypt.1
# %bb.0:                                # %start
	addi	sp, sp, -432
	sw	ra, 428(sp)                     # 4-byte Folded Spill
	sw	s0, 424(sp)                     # 4-byte Folded Spill
	sw	s1, 420(sp)                     # 4-byte Folded Spill
	sw	s2, 416(sp)                     # 4-byte Folded Spill
	sw	s3, 412(sp)                     # 4-byte Folded Spill
	sw	s4, 408(sp)                     # 4-byte Folded Spill
	sw	s5, 404(sp)                     # 4-byte Folded Spill
	sw	s6, 400(sp)                     # 4-byte Folded Spill
	sw	s7, 396(sp)                     # 4-byte Folded Spill
	sw	s8, 392(sp)                     # 4-byte Folded Spill
	sw	s9, 388(sp)                     # 4-byte Folded Spill
	sw	s10, 384(sp)                    # 4-byte Folded Spill
	sw	s11, 380(sp)                    # 4-byte Folded Spill
	mv	s7, a2
	mv	s8, a1
	mv	s9, a0
	lw	s3, 24(a3)
	lw	s4, 28(a3)
	lw	s2, 8(a3)
	lw	s0, 0(a3)
	lw	s1, 12(a3)
	lw	s5, 16(a3)
	andi	a0, s2, 15
	sw	s9, 104(sp)
	sw	zero, 108(sp)
	sw	a1, 112(sp)
	sw	a2, 116(sp)
	beqz	a0, .Lgcm_BB23_2
# %bb.1:                                # %then.1.i.i
	addi	a0, sp, 104
	mv	a1, s0
	mv	a2, s2
	mv	a3, s1
	li	a4, 0
	li	a5, 0
	mv	a6, s5
	mv	a7, s3
	mv	t3, s4
	call	gcm.aes_ctr.add_in_batches.add_next.1
	mv	t5, a0
	mv	a5, a1
	j	.Lgcm_BB23_3
.Lgcm_BB23_2:
	li	t5, 0
	li	a5, 0
.Lgcm_BB23_3:                               # %join.3.i.i
	sltu	a0, s3, t5
	sub	a1, s4, a5
	sub	a1, a1, a0
	sub	a0, s3, t5
	seqz	a1, a1
	sltiu	a0, a0, 32
	and	a0, a0, a1
	bnez	a0, .Lgcm_BB23_6
# %bb.4:                                # %join.11.lr.ph.i.i
	sw	s3, 40(sp)                      # 4-byte Folded Spill
	sw	s4, 36(sp)                      # 4-byte Folded Spill
	sw	s2, 32(sp)                      # 4-byte Folded Spill
	sw	s0, 28(sp)                      # 4-byte Folded Spill
	sw	s1, 24(sp)                      # 4-byte Folded Spill
	sw	s5, 96(sp)                      # 4-byte Folded Spill
	sw	s7, 20(sp)                      # 4-byte Folded Spill
	sw	s8, 16(sp)                      # 4-byte Folded Spill
	sw	s9, 12(sp)                      # 4-byte Folded Spill
.Lgcm_BB23_5:                               # %join.11.i.i
                                        # =>This Inner Loop Header: Depth=1
	sw	a5, 100(sp)                     # 4-byte Folded Spill
	mv	s6, t5
	add	a0, t5, s2
	add	a1, a5, s1
	sltu	a2, a0, t5
	add	a1, a1, a2
	slli	a1, a1, 28
	srli	a0, a0, 4
	or	s4, a0, a1
	li	a2, 224
	addi	a0, sp, 156
	li	a1, 0
	call	memset
	lbu	t1, 0(s0)
	lbu	t2, 1(s0)
	lbu	t3, 2(s0)
	lbu	a6, 3(s0)
	lbu	a7, 4(s0)
	lbu	t5, 5(s0)
	lbu	t4, 6(s0)
	lbu	t0, 7(s0)
	lbu	s1, 8(s0)
	lbu	a0, 9(s0)
	lbu	a1, 10(s0)
	lbu	s3, 11(s0)
	lbu	a3, 12(s0)
	lbu	a4, 13(s0)
	lbu	a5, 14(s0)
	lbu	t6, 15(s0)
	slli	t1, t1, 24
	slli	t2, t2, 16
	slli	t3, t3, 8
	or	t1, t2, t1
	slli	a2, a7, 24
	slli	t5, t5, 16
	slli	t4, t4, 8
	slli	s0, s1, 24
	slli	a0, a0, 16
	slli	a1, a1, 8
	slli	a3, a3, 24
	slli	a4, a4, 16
	slli	a5, a5, 8
	or	s1, t3, a6
	or	a2, a2, t5
	or	a0, a0, s0
	or	a1, a1, s3
	or	a3, a3, a4
	or	a4, t1, s1
	or	s1, a2, t4
	srli	s0, a2, 16
	or	a0, a0, a1
	or	a3, a3, a5
	or	a1, s1, t0
	slli	a2, s1, 16
	or	a5, a3, t6
	sltu	a1, a1, s1
	srli	s1, a2, 24
	sltu	a2, a5, a3
	add	a5, a5, s4
	add	a3, a4, a1
	add	a2, a2, a0
	srli	a6, a5, 8
	srli	t1, a5, 16
	srli	t2, a5, 24
	sb	a7, 128(sp)
	sb	s0, 129(sp)
	sb	s1, 130(sp)
	sb	t0, 131(sp)
	addi	a0, a5, 1
	sb	a7, 144(sp)
	sb	s0, 145(sp)
	sb	s1, 146(sp)
	sb	t0, 147(sp)
	slli	t0, a3, 16
	srli	t3, a3, 16
	srli	t5, a3, 24
	slli	a4, a2, 16
	srli	a7, a2, 16
	srli	t4, a2, 24
	sb	t2, 136(sp)
	sb	t1, 137(sp)
	sb	a6, 138(sp)
	sb	a5, 139(sp)
	srli	a5, a0, 8
	srli	s0, a0, 16
	srli	s1, a0, 24
	srli	a1, t0, 24
	srli	a4, a4, 24
	sb	s1, 152(sp)
	sb	s0, 153(sp)
	sb	a5, 154(sp)
	sb	a0, 155(sp)
	sb	t5, 124(sp)
	sb	t3, 125(sp)
	sb	a1, 126(sp)
	sb	a3, 127(sp)
	sb	t4, 132(sp)
	sb	a7, 133(sp)
	sb	a4, 134(sp)
	sb	a2, 135(sp)
	sb	t5, 140(sp)
	sb	t3, 141(sp)
	sb	a1, 142(sp)
	sb	a3, 143(sp)
	sb	t4, 148(sp)
	sb	a7, 149(sp)
	sb	a4, 150(sp)
	sb	a2, 151(sp)
	lw	s5, 96(sp)                      # 4-byte Folded Reload
	add	s5, s5, s6
	addi	a3, sp, 124
	li	a4, 2
	mv	a0, s9
	mv	a1, s8
	mv	a2, s7
	li	a5, 0
	call	gcm.aes_soft.soft.blocks.filled_up.process_filled_up
	lbu	t1, 12(s5)
	lbu	a0, 13(s5)
	sw	a0, 92(sp)                      # 4-byte Folded Spill
	lbu	s11, 14(s5)
	lbu	s10, 15(s5)
	lbu	s9, 8(s5)
	lbu	t4, 9(s5)
	lbu	t0, 10(s5)
	lbu	t3, 11(s5)
	lbu	a6, 4(s5)
	lbu	a7, 5(s5)
	lbu	s3, 6(s5)
	lbu	ra, 7(s5)
	lbu	a2, 0(s5)
	lbu	s7, 1(s5)
	lbu	s8, 2(s5)
	lbu	s2, 3(s5)
	lbu	a4, 124(sp)
	lbu	a0, 125(sp)
	lbu	a1, 126(sp)
	lbu	t6, 127(sp)
	lbu	a3, 128(sp)
	lbu	s1, 129(sp)
	lbu	s4, 130(sp)
	lbu	t2, 131(sp)
	addi	t5, s6, 32
	sltu	a5, t5, s6
	lw	s0, 100(sp)                     # 4-byte Folded Reload
	add	s0, s0, a5
	sw	s0, 100(sp)                     # 4-byte Folded Spill
	xor	a2, a2, a4
	sw	a2, 88(sp)                      # 4-byte Folded Spill
	xor	a0, a0, s7
	sw	a0, 84(sp)                      # 4-byte Folded Spill
	lbu	a0, 132(sp)
	lbu	a5, 133(sp)
	lbu	a4, 134(sp)
	lbu	s7, 135(sp)
	xor	a1, a1, s8
	sw	a1, 80(sp)                      # 4-byte Folded Spill
	xor	a1, t6, s2
	sw	a1, 76(sp)                      # 4-byte Folded Spill
	xor	a1, a3, a6
	sw	a1, 68(sp)                      # 4-byte Folded Spill
	xor	a1, s1, a7
	sw	a1, 64(sp)                      # 4-byte Folded Spill
	lbu	a1, 136(sp)
	lbu	a2, 137(sp)
	lbu	a6, 138(sp)
	lbu	a7, 139(sp)
	xor	a3, s4, s3
	sw	a3, 52(sp)                      # 4-byte Folded Spill
	xor	a3, t2, ra
	sw	a3, 48(sp)                      # 4-byte Folded Spill
	xor	s0, a0, s9
	xor	a0, a5, t4
	sw	a0, 44(sp)                      # 4-byte Folded Spill
	lbu	a5, 16(s5)
	lbu	s1, 17(s5)
	lbu	a0, 18(s5)
	lbu	a3, 19(s5)
	xor	ra, a4, t0
	xor	t4, s7, t3
	xor	s7, a1, t1
	lw	a1, 92(sp)                      # 4-byte Folded Reload
	xor	t3, a2, a1
	lbu	a4, 140(sp)
	lbu	a1, 141(sp)
	lbu	t0, 142(sp)
	lbu	t1, 143(sp)
	xor	a6, a6, s11
	xor	a7, a7, s10
	xor	a4, a4, a5
	sw	a4, 92(sp)                      # 4-byte Folded Spill
	xor	a1, a1, s1
	sw	a1, 72(sp)                      # 4-byte Folded Spill
	lbu	a5, 20(s5)
	lbu	s1, 21(s5)
	lbu	s6, 22(s5)
	lbu	s8, 23(s5)
	xor	a0, t0, a0
	sw	a0, 60(sp)                      # 4-byte Folded Spill
	xor	a0, t1, a3
	sw	a0, 56(sp)                      # 4-byte Folded Spill
	lbu	a0, 144(sp)
	lbu	a3, 145(sp)
	lbu	a1, 146(sp)
	lbu	s4, 147(sp)
	xor	a4, a0, a5
	xor	t0, a3, s1
	xor	s6, a1, s6
	xor	t1, s4, s8
	lbu	s1, 24(s5)
	lbu	a1, 25(s5)
	lbu	a5, 26(s5)
	lbu	s8, 27(s5)
	lbu	s9, 148(sp)
	lbu	s2, 149(sp)
	lbu	a0, 150(sp)
	lbu	s10, 151(sp)
	xor	a2, s9, s1
	xor	s9, s2, a1
	xor	s2, a0, a5
	xor	s8, s10, s8
	lbu	a0, 28(s5)
	lbu	a1, 29(s5)
	lbu	a5, 30(s5)
	lbu	s10, 31(s5)
	lbu	s11, 152(sp)
	lbu	t2, 153(sp)
	lbu	s3, 154(sp)
	lbu	t6, 155(sp)
	xor	s11, s11, a0
	xor	a1, t2, a1
	xor	s1, s3, a5
	lw	s4, 36(sp)                      # 4-byte Folded Reload
	lw	s3, 40(sp)                      # 4-byte Folded Reload
	xor	t2, t6, s10
	lw	a5, 100(sp)                     # 4-byte Folded Reload
	sltu	a0, s3, t5
	sub	a3, s4, a5
	sub	a3, a3, a0
	sb	s7, 12(s5)
	lw	s7, 20(sp)                      # 4-byte Folded Reload
	sb	t3, 13(s5)
	sb	a6, 14(s5)
	sb	a7, 15(s5)
	sb	s0, 8(s5)
	lw	a0, 44(sp)                      # 4-byte Folded Reload
	sb	a0, 9(s5)
	sb	ra, 10(s5)
	sb	t4, 11(s5)
	lw	a0, 68(sp)                      # 4-byte Folded Reload
	sb	a0, 4(s5)
	lw	a0, 64(sp)                      # 4-byte Folded Reload
	sb	a0, 5(s5)
	lw	a0, 52(sp)                      # 4-byte Folded Reload
	sb	a0, 6(s5)
	lw	a0, 48(sp)                      # 4-byte Folded Reload
	sb	a0, 7(s5)
	lw	a0, 88(sp)                      # 4-byte Folded Reload
	sb	a0, 0(s5)
	lw	a0, 84(sp)                      # 4-byte Folded Reload
	sb	a0, 1(s5)
	lw	a0, 80(sp)                      # 4-byte Folded Reload
	sb	a0, 2(s5)
	lw	a0, 76(sp)                      # 4-byte Folded Reload
	sb	a0, 3(s5)
	sb	s11, 28(s5)
	sb	a1, 29(s5)
	sb	s1, 30(s5)
	sb	t2, 31(s5)
	sb	a2, 24(s5)
	sb	s9, 25(s5)
	lw	s9, 12(sp)                      # 4-byte Folded Reload
	sb	s2, 26(s5)
	lw	s2, 32(sp)                      # 4-byte Folded Reload
	sb	s8, 27(s5)
	lw	s8, 16(sp)                      # 4-byte Folded Reload
	sb	a4, 20(s5)
	sb	t0, 21(s5)
	sb	s6, 22(s5)
	sb	t1, 23(s5)
	lw	s1, 24(sp)                      # 4-byte Folded Reload
	sub	a0, s3, t5
	sltiu	a0, a0, 32
	seqz	a1, a3
	and	a0, a0, a1
	lw	a1, 92(sp)                      # 4-byte Folded Reload
	sb	a1, 16(s5)
	lw	a1, 72(sp)                      # 4-byte Folded Reload
	sb	a1, 17(s5)
	lw	a1, 60(sp)                      # 4-byte Folded Reload
	sb	a1, 18(s5)
	lw	a1, 56(sp)                      # 4-byte Folded Reload
	sb	a1, 19(s5)
	lw	s5, 96(sp)                      # 4-byte Folded Reload
	lw	s0, 28(sp)                      # 4-byte Folded Reload
	beqz	a0, .Lgcm_BB23_5
.Lgcm_BB23_6:                               # %loop.13.preheader.i.i
	beq	a5, s4, .Lgcm_BB23_8
# %bb.7:                                # %loop.13.preheader.i.i
	sltu	a0, a5, s4
	bnez	a0, .Lgcm_BB23_10
	j	.Lgcm_BB23_12
.Lgcm_BB23_8:
	sltu	a0, t5, s3
	bnez	a0, .Lgcm_BB23_10
	j	.Lgcm_BB23_12
.Lgcm_BB23_9:                               # %join.16.i.i
                                        #   in Loop: Header=BB23_10 Depth=1
	sltu	a0, a5, s4
	beqz	a0, .Lgcm_BB23_12
.Lgcm_BB23_10:                              # %join.16.i.i
                                        # =>This Inner Loop Header: Depth=1
	addi	a0, sp, 104
	mv	a1, s0
	mv	a2, s2
	mv	a3, s1
	mv	a4, t5
	mv	a6, s5
	mv	a7, s3
	mv	t3, s4
	call	gcm.aes_ctr.add_in_batches.add_next.1
	mv	t5, a0
	mv	a5, a1
	bne	a1, s4, .Lgcm_BB23_9
# %bb.11:                               #   in Loop: Header=BB23_10 Depth=1
	sltu	a0, t5, s3
	bnez	a0, .Lgcm_BB23_10
.Lgcm_BB23_12:                              # %"aes_ctr::add_in_batches::AddStreamBlockCipherEncClosure::call::<#5af79e2f176a0632>.exit"
	lw	ra, 428(sp)                     # 4-byte Folded Reload
	lw	s0, 424(sp)                     # 4-byte Folded Reload
	lw	s1, 420(sp)                     # 4-byte Folded Reload
	lw	s2, 416(sp)                     # 4-byte Folded Reload
	lw	s3, 412(sp)                     # 4-byte Folded Reload
	lw	s4, 408(sp)                     # 4-byte Folded Reload
	lw	s5, 404(sp)                     # 4-byte Folded Reload
	lw	s6, 400(sp)                     # 4-byte Folded Reload
	lw	s7, 396(sp)                     # 4-byte Folded Reload
	lw	s8, 392(sp)                     # 4-byte Folded Reload
	lw	s9, 388(sp)                     # 4-byte Folded Reload
	lw	s10, 384(sp)                    # 4-byte Folded Reload
	lw	s11, 380(sp)                    # 4-byte Folded Reload
	addi	sp, sp, 432
	ret
.Lgcm_func_end23:
	.size	gcm.aes_narrow.borrowed_words.call_to_encrypt.1, .Lgcm_func_end23-gcm.aes_narrow.borrowed_words.call_to_encrypt.1
                                        # -- End function
	.section	.text.gcm.aes_ctr.add_in_batches.add_next.1,"ax",@progbits
	.p2align	1                               # -- Begin function aes_ctr::add_in_batches::add_next::<#8f445e75de4b0592>
	.type	gcm.aes_ctr.add_in_batches.add_next.1,@function
gcm.aes_ctr.add_in_batches.add_next.1: # @gcm.aes_ctr.add_in_batches.add_next.1
# %bb.0:                                # %start
	addi	sp, sp, -336
	sw	ra, 332(sp)                     # 4-byte Folded Spill
	sw	s0, 328(sp)                     # 4-byte Folded Spill
	sw	s1, 324(sp)                     # 4-byte Folded Spill
	sw	s2, 320(sp)                     # 4-byte Folded Spill
	sw	s3, 316(sp)                     # 4-byte Folded Spill
	sw	s4, 312(sp)                     # 4-byte Folded Spill
	sw	s5, 308(sp)                     # 4-byte Folded Spill
	sw	s6, 304(sp)                     # 4-byte Folded Spill
	sw	s7, 300(sp)                     # 4-byte Folded Spill
	sw	s8, 296(sp)                     # 4-byte Folded Spill
	sw	s9, 292(sp)                     # 4-byte Folded Spill
	sw	s10, 288(sp)                    # 4-byte Folded Spill
	sw	s11, 284(sp)                    # 4-byte Folded Spill
	mv	s2, t3
	mv	s6, a7
	mv	s5, a6
	mv	s7, a5
	mv	s9, a4
	mv	s1, a1
	mv	s8, a0
	li	a1, 16
	add	a3, a3, a5
	add	a0, a4, a2
	sltu	a5, a7, a4
	sub	s0, t3, s7
	andi	a2, a0, 15
	sub	s10, a1, a2
	sltiu	a1, a2, 17
	addi	a6, s10, 16
	xori	a1, a1, 1
	sltu	a4, a6, s10
	sub	a1, a4, a1
	sltu	a4, a0, s9
	sub	s0, s0, a5
	sub	s4, a7, s9
	beq	s0, a1, .Lgcm_BB24_2
# %bb.1:                                # %start
	sltu	a5, s0, a1
	add	a3, a3, a4
	beqz	a5, .Lgcm_BB24_3
	j	.Lgcm_BB24_4
.Lgcm_BB24_2:
	sltu	a5, s4, a6
	add	a3, a3, a4
	bnez	a5, .Lgcm_BB24_4
.Lgcm_BB24_3:                               # %start
	mv	s0, a1
	mv	s4, a6
.Lgcm_BB24_4:                               # %start
	sw	s0, 24(sp)                      # 4-byte Folded Spill
	sw	s4, 20(sp)                      # 4-byte Folded Spill
	sw	a2, 16(sp)                      # 4-byte Folded Spill
	add	s4, s4, a2
	slli	a3, a3, 28
	srli	a2, a0, 4
	addi	s4, s4, 15
	or	s11, a2, a3
	addi	a0, sp, 60
	li	a2, 224
	li	a1, 0
	call	memset
	lbu	a2, 0(s1)
	lbu	a4, 1(s1)
	lbu	a5, 2(s1)
	lbu	t2, 3(s1)
	lbu	s0, 4(s1)
	lbu	a0, 5(s1)
	lbu	a6, 6(s1)
	lbu	a3, 7(s1)
	lbu	t6, 8(s1)
	lbu	t5, 9(s1)
	lbu	t4, 10(s1)
	lbu	t3, 11(s1)
	lbu	ra, 12(s1)
	lbu	a1, 13(s1)
	lbu	t0, 14(s1)
	lbu	a7, 15(s1)
	slli	a2, a2, 24
	slli	a4, a4, 16
	slli	a5, a5, 8
	slli	s1, s0, 24
	slli	a0, a0, 16
	or	t1, a4, a2
	or	t2, a5, t2
	or	s1, s1, a0
	lbu	a0, 0(s8)
	lbu	a2, 1(s8)
	lbu	a4, 2(s8)
	lbu	a5, 3(s8)
	slli	t6, t6, 24
	slli	t5, t5, 16
	slli	t4, t4, 8
	slli	ra, ra, 24
	slli	a1, a1, 16
	slli	a2, a2, 8
	or	t5, t5, t6
	or	t3, t4, t3
	or	ra, ra, a1
	or	t6, a2, a0
	lbu	t4, 12(s8)
	lbu	a0, 13(s8)
	lbu	a1, 14(s8)
	lbu	a2, 15(s8)
	slli	a4, a4, 16
	slli	a5, a5, 24
	slli	a0, a0, 8
	slli	a1, a1, 16
	slli	a2, a2, 24
	or	a4, a4, a5
	or	s3, a0, t4
	or	a2, a2, a1
	lbu	t4, 9(s8)
	lbu	a1, 8(s8)
	lbu	a5, 10(s8)
	lbu	a0, 11(s8)
	slli	t4, t4, 8
	or	t4, t4, a1
	slli	a5, a5, 16
	slli	a0, a0, 24
	or	s8, a0, a5
	andi	s4, s4, 112
	slli	a6, a6, 8
	slli	t0, t0, 8
	or	t1, t1, t2
	or	a5, s1, a6
	srli	t2, s1, 16
	or	a6, t5, t3
	or	a1, ra, t0
	or	a0, a4, t6
	or	a2, a2, s3
	or	t0, a5, a3
	slli	s1, a5, 16
	or	a4, a1, a7
	sltu	a5, t0, a5
	srli	t3, s1, 24
	sltu	a1, a4, a1
	add	a4, a4, s11
	add	a5, a5, t1
	add	a1, a1, a6
	srli	a6, a4, 8
	srli	a7, a4, 16
	srli	t0, a4, 24
	sb	s0, 32(sp)
	sb	t2, 33(sp)
	sb	t3, 34(sp)
	sb	a3, 35(sp)
	addi	s1, a4, 1
	sb	s0, 48(sp)
	sb	t2, 49(sp)
	sb	t3, 50(sp)
	sb	a3, 51(sp)
	slli	t1, a5, 16
	srli	t5, a5, 16
	srli	s3, a5, 24
	slli	t2, a1, 16
	srli	t3, a1, 16
	srli	t6, a1, 24
	sb	t0, 40(sp)
	sb	a7, 41(sp)
	sb	a6, 42(sp)
	sb	a4, 43(sp)
	srli	a6, s1, 8
	srli	a7, s1, 16
	srli	a3, s1, 24
	srli	a4, t1, 24
	srli	s0, t2, 24
	sb	a3, 56(sp)
	sb	a7, 57(sp)
	sb	a6, 58(sp)
	sb	s1, 59(sp)
	sb	s3, 28(sp)
	sb	t5, 29(sp)
	sb	a4, 30(sp)
	sb	a5, 31(sp)
	sb	t6, 36(sp)
	sb	t3, 37(sp)
	sb	s0, 38(sp)
	sb	a1, 39(sp)
	sb	s3, 44(sp)
	sb	t5, 45(sp)
	sb	a4, 46(sp)
	sb	a5, 47(sp)
	sb	t6, 52(sp)
	sb	t3, 53(sp)
	sb	s0, 54(sp)
	sb	a1, 55(sp)
	or	a1, s8, t4
	addi	a3, sp, 28
	li	s1, 16
	bne	s4, s1, .Lgcm_BB24_6
# %bb.5:                                # %then.1.i.i.i
	li	a4, 1
	j	.Lgcm_BB24_7
.Lgcm_BB24_6:                               # %else.2.i.i.i
	li	a4, 2
.Lgcm_BB24_7:                               # %"aes_ctr::keystream::fill_by_backend::<#8f445e75de4b0592>.exit"
	li	a5, 0
	call	gcm.aes_soft.soft.blocks.filled_up.process_filled_up
	add	s4, s5, s9
	lw	s0, 24(sp)                      # 4-byte Folded Reload
	lw	a1, 20(sp)                      # 4-byte Folded Reload
	lw	t0, 16(sp)                      # 4-byte Folded Reload
	sw	s7, 12(sp)                      # 4-byte Folded Spill
	beqz	t0, .Lgcm_BB24_10
# %bb.8:                                # %then.1.i
	sltu	a0, s1, t0
	neg	a2, a0
	beq	s0, a2, .Lgcm_BB24_11
# %bb.9:                                # %then.1.i
	mv	a0, s2
	sltu	a3, s0, a2
	mv	s5, s0
	mv	s2, a1
	beqz	a3, .Lgcm_BB24_12
	j	.Lgcm_BB24_13
.Lgcm_BB24_10:
	li	s2, 0
	li	s5, 0
	j	.Lgcm_BB24_18
.Lgcm_BB24_11:
	mv	a0, s2
	sltu	a3, a1, s10
	mv	s5, s0
	mv	s2, a1
	bnez	a3, .Lgcm_BB24_13
.Lgcm_BB24_12:                              # %then.1.i
	mv	s5, a2
	mv	s2, s10
.Lgcm_BB24_13:                              # %then.1.i
	xor	a2, s6, s9
	xor	a3, a0, s7
	or	a2, a2, a3
	beqz	a2, .Lgcm_BB24_18
# %bb.14:                               # %join.8.i85.preheader
	li	a2, 0
	li	a3, 0
	j	.Lgcm_BB24_16
.Lgcm_BB24_15:                              # %join.8.i85
                                        #   in Loop: Header=BB24_16 Depth=1
	sltu	a4, a3, s5
	beqz	a4, .Lgcm_BB24_18
.Lgcm_BB24_16:                              # %join.8.i85
                                        # =>This Inner Loop Header: Depth=1
	add	a4, a2, t0
	addi	a5, sp, 28
	add	s1, s4, a2
	add	a4, a4, a5
	lbu	a5, 0(s1)
	lbu	a4, 0(a4)
	addi	a2, a2, 1
	xor	a4, a4, a5
	seqz	a5, a2
	add	a3, a3, a5
	sb	a4, 0(s1)
	bne	a3, s5, .Lgcm_BB24_15
# %bb.17:                               #   in Loop: Header=BB24_16 Depth=1
	sltu	a4, a2, s2
	bnez	a4, .Lgcm_BB24_16
.Lgcm_BB24_18:                              # %join.3.i
	sw	s9, 8(sp)                       # 4-byte Folded Spill
	sltu	a3, a1, s2
	sub	a4, s0, s5
	sub	s6, a1, s2
	sub	s7, a4, a3
	seqz	a3, s7
	sltiu	a5, s6, 16
	and	a3, a3, a5
	bnez	a3, .Lgcm_BB24_20
.Lgcm_BB24_19:                              # %join.8.i
                                        # =>This Inner Loop Header: Depth=1
	mv	a2, s2
	add	a4, s2, t0
	addi	t3, sp, 28
	addi	s2, s2, 16
	add	a3, s4, a2
	andi	s3, a4, -16
	sltu	a0, s2, a2
	lbu	t1, 8(a3)
	lbu	a7, 9(a3)
	lbu	t0, 10(a3)
	lbu	a6, 11(a3)
	lbu	t6, 4(a3)
	lbu	t2, 5(a3)
	lbu	t5, 6(a3)
	lbu	t4, 7(a3)
	lbu	ra, 0(a3)
	lbu	s10, 1(a3)
	lbu	s8, 2(a3)
	lbu	s11, 3(a3)
	lw	a1, 20(sp)                      # 4-byte Folded Reload
	sltu	a4, a1, s2
	sub	s6, a1, s2
	add	t3, t3, s3
	add	s5, s5, a0
	sub	a4, s0, a4
	sltiu	s0, s6, 16
	lbu	s1, 0(t3)
	lbu	a5, 1(t3)
	lbu	a2, 2(t3)
	lbu	a0, 3(t3)
	sub	s7, a4, s5
	seqz	a1, s7
	and	s3, a1, s0
	xor	ra, s1, ra
	lbu	s1, 4(t3)
	lbu	a1, 5(t3)
	lbu	s0, 6(t3)
	lbu	s9, 7(t3)
	xor	a5, a5, s10
	xor	s10, a2, s8
	xor	s8, a0, s11
	xor	t6, s1, t6
	lbu	a0, 8(t3)
	lbu	a2, 9(t3)
	lbu	a4, 10(t3)
	lbu	s1, 11(t3)
	xor	s11, a1, t2
	xor	t5, s0, t5
	xor	t2, s9, t4
	xor	t1, a0, t1
	lbu	a1, 12(a3)
	lbu	s0, 13(a3)
	lbu	s9, 14(a3)
	lbu	t4, 15(a3)
	xor	a7, a2, a7
	xor	t0, a4, t0
	xor	a6, s1, a6
	lbu	a2, 12(t3)
	lbu	a4, 13(t3)
	lbu	s1, 14(t3)
	lbu	a0, 15(t3)
	xor	a1, a1, a2
	xor	a4, a4, s0
	lw	s0, 24(sp)                      # 4-byte Folded Reload
	xor	a2, s1, s9
	xor	a0, a0, t4
	sb	a1, 12(a3)
	sb	a4, 13(a3)
	sb	a2, 14(a3)
	sb	a0, 15(a3)
	sb	t1, 8(a3)
	sb	a7, 9(a3)
	sb	t0, 10(a3)
	lw	t0, 16(sp)                      # 4-byte Folded Reload
	sb	a6, 11(a3)
	sb	t6, 4(a3)
	sb	s11, 5(a3)
	sb	t5, 6(a3)
	sb	t2, 7(a3)
	sb	ra, 0(a3)
	sb	a5, 1(a3)
	sb	s10, 2(a3)
	sb	s8, 3(a3)
	beqz	s3, .Lgcm_BB24_19
.Lgcm_BB24_20:                              # %after.4.i
	beq	s5, s0, .Lgcm_BB24_22
# %bb.21:                               # %after.4.i
	sltu	a1, s5, s0
	lw	a6, 8(sp)                       # 4-byte Folded Reload
	lw	a7, 20(sp)                      # 4-byte Folded Reload
	bnez	a1, .Lgcm_BB24_23
	j	.Lgcm_BB24_28
.Lgcm_BB24_22:
	lw	a7, 20(sp)                      # 4-byte Folded Reload
	sltu	a1, s2, a7
	lw	a6, 8(sp)                       # 4-byte Folded Reload
	beqz	a1, .Lgcm_BB24_28
.Lgcm_BB24_23:                              # %then.9.i
	or	a0, s6, s7
	beqz	a0, .Lgcm_BB24_28
# %bb.24:                               # %join.8.i28.preheader
	li	a1, 0
	li	s0, 0
	add	a0, s2, t0
	addi	a5, sp, 28
	andi	a0, a0, -16
	add	a5, a5, a0
	add	a0, s4, s2
	j	.Lgcm_BB24_26
.Lgcm_BB24_25:                              # %join.8.i28
                                        #   in Loop: Header=BB24_26 Depth=1
	sltu	s1, s0, s7
	beqz	s1, .Lgcm_BB24_28
.Lgcm_BB24_26:                              # %join.8.i28
                                        # =>This Inner Loop Header: Depth=1
	add	a2, a5, a1
	add	a4, a0, a1
	lbu	a2, 0(a2)
	lbu	s1, 0(a4)
	addi	a1, a1, 1
	xor	a2, a2, s1
	seqz	a3, a1
	add	s0, s0, a3
	sb	a2, 0(a4)
	bne	s0, s7, .Lgcm_BB24_25
# %bb.27:                               #   in Loop: Header=BB24_26 Depth=1
	sltu	s1, a1, s6
	bnez	s1, .Lgcm_BB24_26
.Lgcm_BB24_28:                              # %"aes_ctr::add_blocks::add_blocks.exit"
	add	a0, a7, a6
	sltu	a1, a0, a7
	lw	a2, 12(sp)                      # 4-byte Folded Reload
	lw	a3, 24(sp)                      # 4-byte Folded Reload
	add	a2, a2, a3
	add	a1, a1, a2
	lw	ra, 332(sp)                     # 4-byte Folded Reload
	lw	s0, 328(sp)                     # 4-byte Folded Reload
	lw	s1, 324(sp)                     # 4-byte Folded Reload
	lw	s2, 320(sp)                     # 4-byte Folded Reload
	lw	s3, 316(sp)                     # 4-byte Folded Reload
	lw	s4, 312(sp)                     # 4-byte Folded Reload
	lw	s5, 308(sp)                     # 4-byte Folded Reload
	lw	s6, 304(sp)                     # 4-byte Folded Reload
	lw	s7, 300(sp)                     # 4-byte Folded Reload
	lw	s8, 296(sp)                     # 4-byte Folded Reload
	lw	s9, 292(sp)                     # 4-byte Folded Reload
	lw	s10, 288(sp)                    # 4-byte Folded Reload
	lw	s11, 284(sp)                    # 4-byte Folded Reload
	addi	sp, sp, 336
	ret
.Lgcm_func_end24:
	.size	gcm.aes_ctr.add_in_batches.add_next.1, .Lgcm_func_end24-gcm.aes_ctr.add_in_batches.add_next.1
                                        # -- End function
	.section	.text.gcm.aes_cipher.zeroize.stack.wipe_stack.2032,"ax",@progbits
	.p2align	1                               # -- Begin function aes_cipher::zeroize::stack::wipe_stack::<=2032>
	.type	gcm.aes_cipher.zeroize.stack.wipe_stack.2032,@function
gcm.aes_cipher.zeroize.stack.wipe_stack.2032: # @gcm.aes_cipher.zeroize.stack.wipe_stack.2032
# %bb.0:                                # %start
	addi	sp, sp, -256
	sw	ra, 252(sp)                     # 4-byte Folded Spill
	sw	s0, 248(sp)                     # 4-byte Folded Spill
	addi	sp, sp, -1808
	addi	a0, sp, 24
	li	a2, 2032
	addi	s0, sp, 24
	li	a1, 0
	call	memset
	sw	zero, 16(sp)
	sw	zero, 20(sp)
	#APP
	#NO_APP
	lw	a0, 16(sp)
	lw	a1, 20(sp)
	#APP
	#NO_APP
	seqz	a1, a1
	sltiu	a2, a0, 2032
	and	a1, a1, a2
	beqz	a1, .Lgcm_BB25_2
# %bb.1:                                # %then.1
	add	a0, a0, s0
	lbu	a0, 0(a0)
	#APP
	#NO_APP
	lw	zero, 20(sp)
	lw	zero, 16(sp)
	sw	zero, 20(sp)
	sw	a0, 16(sp)
	#APP
	#NO_APP
.Lgcm_BB25_2:                               # %common.ret
	addi	sp, sp, 1808
	lw	ra, 252(sp)                     # 4-byte Folded Reload
	lw	s0, 248(sp)                     # 4-byte Folded Reload
	addi	sp, sp, 256
	ret
.Lgcm_func_end25:
	.size	gcm.aes_cipher.zeroize.stack.wipe_stack.2032, .Lgcm_func_end25-gcm.aes_cipher.zeroize.stack.wipe_stack.2032
                                        # -- End function
	.section	.text.gcm.aes_cipher.zeroize.stack.wipe_stack.1536,"ax",@progbits
	.p2align	1                               # -- Begin function aes_cipher::zeroize::stack::wipe_stack::<=1536>
	.type	gcm.aes_cipher.zeroize.stack.wipe_stack.1536,@function
gcm.aes_cipher.zeroize.stack.wipe_stack.1536: # @gcm.aes_cipher.zeroize.stack.wipe_stack.1536
# %bb.0:                                # %start
	addi	sp, sp, -1568
	sw	ra, 1564(sp)                    # 4-byte Folded Spill
	sw	s0, 1560(sp)                    # 4-byte Folded Spill
	addi	a0, sp, 24
	li	a2, 1536
	addi	s0, sp, 24
	li	a1, 0
	call	memset
	sw	zero, 16(sp)
	sw	zero, 20(sp)
	#APP
	#NO_APP
	lw	a0, 16(sp)
	lw	a1, 20(sp)
	#APP
	#NO_APP
	seqz	a1, a1
	sltiu	a2, a0, 1536
	and	a1, a1, a2
	beqz	a1, .Lgcm_BB26_2
# %bb.1:                                # %then.1
	add	a0, a0, s0
	lbu	a0, 0(a0)
	#APP
	#NO_APP
	lw	zero, 20(sp)
	lw	zero, 16(sp)
	sw	zero, 20(sp)
	sw	a0, 16(sp)
	#APP
	#NO_APP
.Lgcm_BB26_2:                               # %common.ret
	lw	ra, 1564(sp)                    # 4-byte Folded Reload
	lw	s0, 1560(sp)                    # 4-byte Folded Reload
	addi	sp, sp, 1568
	ret
.Lgcm_func_end26:
	.size	gcm.aes_cipher.zeroize.stack.wipe_stack.1536, .Lgcm_func_end26-gcm.aes_cipher.zeroize.stack.wipe_stack.1536
                                        # -- End function
	.section	.text.gcm.gcm_c.whole.fotsgure_gcm_seal,"ax",@progbits
	.p2align	1                               # -- Begin function gcm_c::whole::fotsgure_gcm_seal
	.type	gcm.gcm_c.whole.fotsgure_gcm_seal,@function
gcm.gcm_c.whole.fotsgure_gcm_seal:      # @gcm.gcm_c.whole.fotsgure_gcm_seal
# %bb.0:                                # %start
	addi	sp, sp, -96
	sw	ra, 92(sp)                      # 4-byte Folded Spill
	sw	s0, 88(sp)                      # 4-byte Folded Spill
	sw	s1, 84(sp)                      # 4-byte Folded Spill
	sw	s2, 80(sp)                      # 4-byte Folded Spill
	sw	s3, 76(sp)                      # 4-byte Folded Spill
	sw	s4, 72(sp)                      # 4-byte Folded Spill
	sw	s5, 68(sp)                      # 4-byte Folded Spill
	sw	s6, 64(sp)                      # 4-byte Folded Spill
	sw	s7, 60(sp)                      # 4-byte Folded Spill
	sw	s8, 56(sp)                      # 4-byte Folded Spill
	mv	s6, a4
	or	a4, a2, a3
	beqz	a4, .Lgcm_BB27_4
# %bb.1:                                # %after.11.i
	mv	s5, a5
	lw	a5, 0(a0)
	addi	s0, a5, -16
	li	s1, 16
	li	a4, 2
	bltu	s1, s0, .Lgcm_BB27_5
# %bb.2:                                # %after.11.i
	lui	s1, 16
	addi	s1, s1, 257
	srl	s1, s1, s0
	andi	s1, s1, 1
	beqz	s1, .Lgcm_BB27_5
# %bb.3:                                # %join.3
	mv	s2, t5
	mv	s3, t4
	mv	s7, t3
	mv	s8, a7
	mv	s4, a6
	addi	a4, a0, 4
	srli	s1, a5, 31
	slli	a5, a5, 1
	addi	a0, a0, 484
	addi	s0, a5, 56
	sltu	a5, s0, a5
	add	a5, a5, s1
	sw	a4, 16(sp)
	sw	zero, 20(sp)
	sw	s0, 24(sp)
	sw	a5, 28(sp)
	sw	a0, 32(sp)
	sw	zero, 36(sp)
	addi	a0, sp, 16
	addi	a4, sp, 40
	call	gcm.gcm.mode.BorrowedGcm.put_pre_counter
	addi	a0, sp, 16
	addi	a1, sp, 40
	li	a2, 16
	li	a3, 0
	mv	a4, s8
	mv	a5, s7
	mv	a6, s3
	call	gcm.gcm.gctr.add_gctr
	addi	a0, sp, 16
	addi	a1, sp, 40
	mv	t3, sp
	mv	a2, s6
	mv	a3, s5
	mv	a4, s4
	mv	a5, s8
	mv	a6, s7
	mv	a7, s3
	call	gcm.gcm.mode.BorrowedGcm.put_tag
	addi	a0, sp, 40
	call	gcm.aes_cipher.zeroize.elements.zeroize_elements.3
	call	gcm.aes_cipher.zeroize.stack.wipe_stack.1536
	mv	a1, sp
	li	a2, 16
	mv	a0, s2
	call	memcpy
	li	a4, 0
	j	.Lgcm_BB27_5
.Lgcm_BB27_4:
	li	a4, 3
.Lgcm_BB27_5:                               # %common.ret
	mv	a0, a4
	lw	ra, 92(sp)                      # 4-byte Folded Reload
	lw	s0, 88(sp)                      # 4-byte Folded Reload
	lw	s1, 84(sp)                      # 4-byte Folded Reload
	lw	s2, 80(sp)                      # 4-byte Folded Reload
	lw	s3, 76(sp)                      # 4-byte Folded Reload
	lw	s4, 72(sp)                      # 4-byte Folded Reload
	lw	s5, 68(sp)                      # 4-byte Folded Reload
	lw	s6, 64(sp)                      # 4-byte Folded Reload
	lw	s7, 60(sp)                      # 4-byte Folded Reload
	lw	s8, 56(sp)                      # 4-byte Folded Reload
	addi	sp, sp, 96
	li	a1, 0
	li	a2, 0
	li	a3, 0
	li	a4, 0
	li	a5, 0
	li	a6, 0
	li	a7, 0
	li	t0, 0
	li	t1, 0
	li	t2, 0
	li	t3, 0
	li	t4, 0
	li	t5, 0
	li	t6, 0
	ret
.Lgcm_func_end27:
	.size	gcm.gcm_c.whole.fotsgure_gcm_seal, .Lgcm_func_end27-gcm.gcm_c.whole.fotsgure_gcm_seal
                                        # -- End function
	.section	.text.gcm.gcm_c.whole_to.copy,"ax",@progbits
	.p2align	1                               # -- Begin function gcm_c::whole_to::copy
	.type	gcm.gcm_c.whole_to.copy,@function
gcm.gcm_c.whole_to.copy:                # @gcm.gcm_c.whole_to.copy
# %bb.0:                                # %start
	mv	a7, a0
	sltu	a0, a3, a0
	neg	a0, a0
	mv	a6, a1
	beq	a0, a2, .Lgcm_BB28_3
# %bb.1:                                # %start
	sltu	a0, a0, a2
	bnez	a0, .Lgcm_BB28_4
.Lgcm_BB28_2:                               # %apart.2.i.i.i.i.i.i
	mv	a0, a3
	mv	a1, a7
	mv	a2, a6
	tail	memmove
.Lgcm_BB28_3:
	sub	a0, a3, a7
	sltu	a0, a0, a6
	beqz	a0, .Lgcm_BB28_2
.Lgcm_BB28_4:                               # %join.7.i.i.i.i.i.i.preheader
	li	a5, 0
	li	a4, 0
	j	.Lgcm_BB28_6
.Lgcm_BB28_5:                               # %join.7.i.i.i.i.i.i
                                        #   in Loop: Header=BB28_6 Depth=1
	sltu	a0, a4, a2
	beqz	a0, .Lgcm_BB28_8
.Lgcm_BB28_6:                               # %join.7.i.i.i.i.i.i
                                        # =>This Inner Loop Header: Depth=1
	add	t0, a3, a5
	add	a0, a7, a5
	lbu	a0, 0(a0)
	addi	a5, a5, 1
	seqz	a1, a5
	add	a4, a4, a1
	sb	a0, 0(t0)
	bne	a4, a2, .Lgcm_BB28_5
# %bb.7:                                #   in Loop: Header=BB28_6 Depth=1
	sltu	a0, a5, a6
	bnez	a0, .Lgcm_BB28_6
.Lgcm_BB28_8:                               # %"core::slice::edits::slice+T::copy_from_slice::<i8,20'core::clone::U8Clone{}>.exit"
	ret
.Lgcm_func_end28:
	.size	gcm.gcm_c.whole_to.copy, .Lgcm_func_end28-gcm.gcm_c.whole_to.copy
                                        # -- End function
	.section	.text.gcm.gcm_siv.course.open_in,"ax",@progbits
	.p2align	1                               # -- Begin function gcm_siv::course::open_in::<#a4ece9b7a9859b66>
	.type	gcm.gcm_siv.course.open_in,@function
gcm.gcm_siv.course.open_in: # @gcm.gcm_siv.course.open_in
# %bb.0:                                # %start
	addi	sp, sp, -560
	sw	ra, 556(sp)                     # 4-byte Folded Spill
	sw	s0, 552(sp)                     # 4-byte Folded Spill
	sw	s1, 548(sp)                     # 4-byte Folded Spill
	sw	s2, 544(sp)                     # 4-byte Folded Spill
	sw	s3, 540(sp)                     # 4-byte Folded Spill
	sw	s4, 536(sp)                     # 4-byte Folded Spill
	sw	s5, 532(sp)                     # 4-byte Folded Spill
	sw	s6, 528(sp)                     # 4-byte Folded Spill
	sw	s7, 524(sp)                     # 4-byte Folded Spill
	sw	s8, 520(sp)                     # 4-byte Folded Spill
	sw	s9, 516(sp)                     # 4-byte Folded Spill
	sw	s10, 512(sp)                    # 4-byte Folded Spill
	sw	s11, 508(sp)                    # 4-byte Folded Spill
	mv	s2, t5
	mv	s3, t4
	mv	s4, t3
	mv	s5, a7
	mv	s6, a6
	mv	s7, a5
	mv	s8, a4
	mv	s1, a3
	mv	s9, a2
	mv	s10, a1
	mv	s0, a0
	addi	s11, sp, 12
	li	a2, 480
	mv	a0, s11
	li	a1, 0
	call	memset
	sw	zero, 8(sp)
	addi	a4, sp, 8
	addi	a5, sp, 492
	mv	a0, s0
	mv	a1, s10
	mv	a2, s9
	mv	a3, s1
	call	gcm.gcm_siv.keys.derive_and_prepare
	addi	a0, sp, 8
	addi	a1, sp, 492
	mv	a2, s1
	mv	a3, s8
	mv	a4, s7
	mv	a5, s6
	mv	a6, s5
	mv	a7, s4
	mv	t3, s3
	mv	t4, s2
	call	gcm.gcm_siv.message.open
	mv	s0, a0
	sw	zero, 8(sp)
	mv	a0, s11
	call	gcm.aes_cipher.zeroize.elements.zeroize_elements.1
	addi	a0, sp, 492
	call	gcm.aes_cipher.zeroize.elements.zeroize_elements.2
	call	gcm.aes_cipher.zeroize.stack.wipe_stack.2816
	mv	a0, s0
	lw	ra, 556(sp)                     # 4-byte Folded Reload
	lw	s0, 552(sp)                     # 4-byte Folded Reload
	lw	s1, 548(sp)                     # 4-byte Folded Reload
	lw	s2, 544(sp)                     # 4-byte Folded Reload
	lw	s3, 540(sp)                     # 4-byte Folded Reload
	lw	s4, 536(sp)                     # 4-byte Folded Reload
	lw	s5, 532(sp)                     # 4-byte Folded Reload
	lw	s6, 528(sp)                     # 4-byte Folded Reload
	lw	s7, 524(sp)                     # 4-byte Folded Reload
	lw	s8, 520(sp)                     # 4-byte Folded Reload
	lw	s9, 516(sp)                     # 4-byte Folded Reload
	lw	s10, 512(sp)                    # 4-byte Folded Reload
	lw	s11, 508(sp)                    # 4-byte Folded Reload
	addi	sp, sp, 560
	ret
.Lgcm_func_end29:
	.size	gcm.gcm_siv.course.open_in, .Lgcm_func_end29-gcm.gcm_siv.course.open_in
                                        # -- End function
	.section	.text.gcm.gcm_siv.keys.derive_and_prepare,"ax",@progbits
	.p2align	1                               # -- Begin function gcm_siv::keys::derive_and_prepare::<#a4ece9b7a9859b66>
	.type	gcm.gcm_siv.keys.derive_and_prepare,@function
gcm.gcm_siv.keys.derive_and_prepare: # @gcm.gcm_siv.keys.derive_and_prepare
# %bb.0:                                # %start
	addi	sp, sp, -144
	sw	ra, 140(sp)                     # 4-byte Folded Spill
	sw	s0, 136(sp)                     # 4-byte Folded Spill
	sw	s1, 132(sp)                     # 4-byte Folded Spill
	sw	s2, 128(sp)                     # 4-byte Folded Spill
	sw	s3, 124(sp)                     # 4-byte Folded Spill
	sw	s4, 120(sp)                     # 4-byte Folded Spill
	sw	s5, 116(sp)                     # 4-byte Folded Spill
	sw	s6, 112(sp)                     # 4-byte Folded Spill
	sw	s7, 108(sp)                     # 4-byte Folded Spill
	sw	s8, 104(sp)                     # 4-byte Folded Spill
	mv	s6, a5
	mv	s2, a4
	mv	s1, a3
	mv	s5, a2
	mv	s3, a1
	mv	s0, a0
	addi	a0, sp, 12
	li	a2, 12
	mv	a1, a3
	call	memcpy
	addi	a0, sp, 28
	li	a2, 12
	mv	a1, s1
	call	memcpy
	addi	a0, sp, 44
	li	a2, 12
	mv	a1, s1
	call	memcpy
	addi	a0, sp, 60
	li	a2, 12
	mv	a1, s1
	call	memcpy
	addi	a0, sp, 76
	li	a2, 12
	mv	a1, s1
	call	memcpy
	addi	a0, sp, 92
	li	a2, 12
	mv	a1, s1
	call	memcpy
	li	a0, 1
	li	a1, 2
	li	a2, 3
	li	a6, 4
	li	a4, 5
	slli	a5, s5, 29
	srli	s1, s3, 3
	srli	a3, s5, 3
	sw	zero, 8(sp)
	sw	a0, 24(sp)
	sw	a1, 40(sp)
	sw	a2, 56(sp)
	lbu	a0, 0(s0)
	lbu	a1, 1(s0)
	lbu	a7, 2(s0)
	lbu	a2, 3(s0)
	sw	a6, 72(sp)
	sw	a4, 88(sp)
	or	a5, a5, s1
	addi	a4, a5, 2
	sltu	a5, a4, a5
	add	a5, a5, a3
	slli	a1, a1, 8
	or	a6, a1, a0
	lbu	a1, 8(s0)
	lbu	a3, 9(s0)
	lbu	s1, 10(s0)
	lbu	a0, 11(s0)
	slli	a7, a7, 16
	slli	a2, a2, 24
	slli	a3, a3, 8
	slli	s1, s1, 16
	slli	a0, a0, 24
	or	a2, a2, a7
	or	a7, a3, a1
	or	s1, s1, a0
	lbu	a0, 13(s0)
	lbu	a3, 12(s0)
	lbu	a1, 14(s0)
	lbu	s0, 15(s0)
	slli	a0, a0, 8
	or	a3, a3, a0
	slli	a1, a1, 16
	slli	s0, s0, 24
	or	s0, s0, a1
	or	a0, a2, a6
	addi	s4, sp, 24
	or	a1, s1, a7
	or	a2, s0, a3
	addi	a3, sp, 8
	call	gcm.aes_narrow.blocks.process_all_batches
	call	gcm.aes_cipher.zeroize.stack.wipe_stack.1024
	lbu	a6, 15(sp)
	lw	a5, 24(sp)
	lw	s1, 28(sp)
	lw	t6, 40(sp)
	lw	t4, 44(sp)
	lw	t3, 56(sp)
	lw	a2, 60(sp)
	lw	t0, 72(sp)
	lw	a7, 76(sp)
	lw	t1, 88(sp)
	lw	t2, 92(sp)
	lw	s8, 8(sp)
	lbu	s7, 12(sp)
	lbu	a4, 13(sp)
	lbu	a1, 14(sp)
	lui	t5, 921600
	xori	s0, s3, 16
	or	s3, s0, s5
	sw	a5, 16(sp)
	sw	s1, 20(sp)
	sw	t6, 24(sp)
	sw	t4, 28(sp)
	sw	t3, 32(sp)
	sw	a2, 36(sp)
	sw	t0, 40(sp)
	sw	a7, 44(sp)
	sw	t1, 48(sp)
	sw	t2, 52(sp)
	slli	a4, a4, 8
	slli	t0, a1, 16
	slli	a6, a6, 24
	slli	a2, s7, 31
	srli	a3, s8, 1
	slli	a7, a5, 31
	slli	s0, s1, 31
	srli	a1, a5, 1
	srli	t1, s8, 9
	srli	t2, s8, 17
	srli	t3, a5, 9
	srli	s5, a5, 17
	srli	a0, s1, 1
	slli	s8, s8, 31
	or	a4, s7, a4
	srli	t4, s1, 9
	srli	t6, s1, 17
	or	a2, a2, a3
	or	s0, s0, a1
	srai	s1, s8, 31
	or	a4, a4, t0
	srli	a2, a2, 24
	srli	s0, s0, 24
	and	s1, s1, t5
	or	a5, a4, a6
	srli	a4, a4, 9
	xor	s1, s1, a0
	sb	s0, 4(s6)
	sb	s5, 5(s6)
	sb	t3, 6(s6)
	sb	a1, 7(s6)
	sb	a2, 12(s6)
	sb	t2, 13(s6)
	sb	t1, 14(s6)
	sb	a3, 15(s6)
	srli	a1, a5, 17
	srli	a5, a5, 1
	srli	s1, s1, 24
	or	a2, a5, a7
	sb	s1, 0(s6)
	sb	t6, 1(s6)
	sb	t4, 2(s6)
	sb	a0, 3(s6)
	srli	a2, a2, 24
	sb	a2, 8(s6)
	sb	a1, 9(s6)
	sb	a4, 10(s6)
	sb	a5, 11(s6)
	addi	s0, s2, 4
	li	a2, 480
	mv	a0, s0
	li	a1, 0
	call	memset
	bnez	s3, .Lgcm_BB30_2
# %bb.1:                                # %then.1.i
	li	a2, 16
	li	s1, 16
	j	.Lgcm_BB30_3
.Lgcm_BB30_2:                               # %else.2.i
	li	a2, 32
	li	s1, 32
.Lgcm_BB30_3:                               # %"gcm_siv::keys::set_encryption_key::<#a556ffa628b2ee02>.exit"
	mv	a0, s0
	mv	a1, s4
	li	a3, 0
	call	gcm.aes_narrow.word_room.expand_words
	call	gcm.aes_cipher.zeroize.stack.wipe_stack.768
	sw	s1, 0(s2)
	addi	a0, sp, 8
	li	a1, 6
	li	a2, 0
	call	gcm.aes_cipher.zeroize.elements.zeroize_elements.4
	lw	ra, 140(sp)                     # 4-byte Folded Reload
	lw	s0, 136(sp)                     # 4-byte Folded Reload
	lw	s1, 132(sp)                     # 4-byte Folded Reload
	lw	s2, 128(sp)                     # 4-byte Folded Reload
	lw	s3, 124(sp)                     # 4-byte Folded Reload
	lw	s4, 120(sp)                     # 4-byte Folded Reload
	lw	s5, 116(sp)                     # 4-byte Folded Reload
	lw	s6, 112(sp)                     # 4-byte Folded Reload
	lw	s7, 108(sp)                     # 4-byte Folded Reload
	lw	s8, 104(sp)                     # 4-byte Folded Reload
	addi	sp, sp, 144
	ret
.Lgcm_func_end30:
	.size	gcm.gcm_siv.keys.derive_and_prepare, .Lgcm_func_end30-gcm.gcm_siv.keys.derive_and_prepare
                                        # -- End function
	.section	.text.gcm.aes_cipher.zeroize.elements.zeroize_elements.4,"ax",@progbits
	.p2align	1                               # -- Begin function aes_cipher::zeroize::elements::zeroize_elements::<#82a118249f09cfc6>
	.type	gcm.aes_cipher.zeroize.elements.zeroize_elements.4,@function
gcm.aes_cipher.zeroize.elements.zeroize_elements.4: # @gcm.aes_cipher.zeroize.elements.zeroize_elements.4
# %bb.0:                                # %start
	addi	sp, sp, -48
	sw	ra, 44(sp)                      # 4-byte Folded Spill
	sw	s0, 40(sp)                      # 4-byte Folded Spill
	sw	s1, 36(sp)                      # 4-byte Folded Spill
	sw	s2, 32(sp)                      # 4-byte Folded Spill
	sw	s3, 28(sp)                      # 4-byte Folded Spill
	sw	s4, 24(sp)                      # 4-byte Folded Spill
	sw	s5, 20(sp)                      # 4-byte Folded Spill
	sw	s6, 16(sp)                      # 4-byte Folded Spill
	sw	s7, 12(sp)                      # 4-byte Folded Spill
	mv	s7, a2
	mv	s2, a1
	sw	zero, 0(sp)
	sw	zero, 4(sp)
	#APP
	#NO_APP
	lw	a1, 4(sp)
	lw	s5, 0(sp)
	#APP
	#NO_APP
	mv	s6, a0
	beq	a1, a2, .Lgcm_BB31_2
# %bb.1:                                # %start
	sltu	s3, a1, s7
	li	s4, 0
	slli	s5, s5, 4
	bnez	s3, .Lgcm_BB31_3
	j	.Lgcm_BB31_4
.Lgcm_BB31_2:
	sltu	s3, s5, s2
	li	s4, 0
	slli	s5, s5, 4
	beqz	s3, .Lgcm_BB31_4
.Lgcm_BB31_3:                               # %then.1.i8
	add	a0, s6, s5
	lbu	s4, 0(a0)
.Lgcm_BB31_4:                               # %"aes_cipher::zeroize::observe::<#aefc49fcc22ee515>.exit12"
	li	s1, 0
	li	s0, 0
	j	.Lgcm_BB31_6
.Lgcm_BB31_5:                               # %join.6.i
                                        #   in Loop: Header=BB31_6 Depth=1
	sltu	a0, s0, s7
	beqz	a0, .Lgcm_BB31_8
.Lgcm_BB31_6:                               # %join.6.i
                                        # =>This Inner Loop Header: Depth=1
	slli	a0, s1, 4
	add	a0, a0, s6
	li	a2, 16
	li	a1, 0
	call	memset
	addi	s1, s1, 1
	seqz	a0, s1
	add	s0, s0, a0
	bne	s0, s7, .Lgcm_BB31_5
# %bb.7:                                #   in Loop: Header=BB31_6 Depth=1
	sltu	a0, s1, s2
	bnez	a0, .Lgcm_BB31_6
.Lgcm_BB31_8:                               # %"aes_cipher::zeroize::overwrite::<#8c2be25e1e7027ab>.exit"
	beqz	s3, .Lgcm_BB31_10
# %bb.9:                                # %then.1.i
	add	s5, s5, s6
	lbu	a0, 0(s5)
	and	a0, a0, s4
	j	.Lgcm_BB31_11
.Lgcm_BB31_10:
	li	a0, 0
.Lgcm_BB31_11:                              # %"aes_cipher::zeroize::observe::<#aefc49fcc22ee515>.exit"
	#APP
	#NO_APP
	lw	zero, 4(sp)
	lw	zero, 0(sp)
	sw	zero, 4(sp)
	sw	a0, 0(sp)
	#APP
	#NO_APP
	lw	ra, 44(sp)                      # 4-byte Folded Reload
	lw	s0, 40(sp)                      # 4-byte Folded Reload
	lw	s1, 36(sp)                      # 4-byte Folded Reload
	lw	s2, 32(sp)                      # 4-byte Folded Reload
	lw	s3, 28(sp)                      # 4-byte Folded Reload
	lw	s4, 24(sp)                      # 4-byte Folded Reload
	lw	s5, 20(sp)                      # 4-byte Folded Reload
	lw	s6, 16(sp)                      # 4-byte Folded Reload
	lw	s7, 12(sp)                      # 4-byte Folded Reload
	addi	sp, sp, 48
	ret
.Lgcm_func_end31:
	.size	gcm.aes_cipher.zeroize.elements.zeroize_elements.4, .Lgcm_func_end31-gcm.aes_cipher.zeroize.elements.zeroize_elements.4
                                        # -- End function
	.section	.text.gcm.gcm_siv.message.open,"ax",@progbits
	.p2align	1                               # -- Begin function gcm_siv::message::open::<#bc93ff5f0cc4cd41>
	.type	gcm.gcm_siv.message.open,@function
gcm.gcm_siv.message.open: # @gcm.gcm_siv.message.open
# %bb.0:                                # %start
	addi	sp, sp, -144
	sw	ra, 140(sp)                     # 4-byte Folded Spill
	sw	s0, 136(sp)                     # 4-byte Folded Spill
	sw	s1, 132(sp)                     # 4-byte Folded Spill
	sw	s2, 128(sp)                     # 4-byte Folded Spill
	sw	s3, 124(sp)                     # 4-byte Folded Spill
	sw	s4, 120(sp)                     # 4-byte Folded Spill
	sw	s5, 116(sp)                     # 4-byte Folded Spill
	sw	s6, 112(sp)                     # 4-byte Folded Spill
	sw	s7, 108(sp)                     # 4-byte Folded Spill
	sw	s8, 104(sp)                     # 4-byte Folded Spill
	sw	s9, 100(sp)                     # 4-byte Folded Spill
	sw	s10, 96(sp)                     # 4-byte Folded Spill
	sw	s11, 92(sp)                     # 4-byte Folded Spill
	mv	s1, t4
	mv	s3, t3
	mv	s2, a7
	mv	s11, a6
	mv	s9, a5
	sw	a4, 20(sp)                      # 4-byte Folded Spill
	sw	a3, 16(sp)                      # 4-byte Folded Spill
	sw	a2, 12(sp)                      # 4-byte Folded Spill
	mv	s10, a1
	mv	s4, a0
	lbu	a2, 12(t4)
	lbu	a3, 13(t4)
	lbu	a6, 14(t4)
	lbu	a7, 15(t4)
	lbu	t0, 8(t4)
	lbu	t1, 9(t4)
	lbu	s0, 10(t4)
	lbu	a0, 11(t4)
	sltiu	a1, s2, 17
	seqz	a4, t3
	and	s8, a4, a1
	slli	a3, a3, 8
	or	t2, a3, a2
	lbu	a1, 4(t4)
	lbu	a3, 5(t4)
	lbu	a4, 6(t4)
	lbu	a5, 7(t4)
	slli	t1, t1, 8
	slli	s0, s0, 16
	slli	a0, a0, 24
	slli	a3, a3, 8
	slli	a4, a4, 16
	slli	a5, a5, 24
	or	t0, t1, t0
	or	a0, a0, s0
	or	a1, a1, a3
	or	a4, a4, a5
	lbu	a3, 1(t4)
	lbu	a5, 0(t4)
	lbu	s0, 2(t4)
	lbu	a2, 3(t4)
	slli	a3, a3, 8
	or	a3, a3, a5
	lw	a5, 0(s4)
	slli	s0, s0, 16
	slli	a2, a2, 24
	or	a2, a2, s0
	or	a0, a0, t0
	or	a1, a1, a4
	srli	s6, a5, 31
	slli	a5, a5, 1
	or	a2, a2, a3
	addi	s0, a5, 56
	sltu	a3, s0, a5
	add	s6, s6, a3
	addi	s5, s4, 4
	ori	s7, a7, -128
	sb	a6, 38(sp)
	sb	s7, 39(sp)
	sw	a2, 24(sp)
	sw	a1, 28(sp)
	sw	a0, 32(sp)
	sh	t2, 36(sp)
	sw	zero, 40(sp)
	sw	zero, 44(sp)
	beqz	s8, .Lgcm_BB32_4
# %bb.1:                                # %then.1.i.i.i
	sw	s9, 8(sp)                       # 4-byte Folded Spill
	lw	s9, 24(sp)
	addi	a0, sp, 80
	addi	a1, s1, 4
	li	a2, 11
	call	memcpy
	sw	s9, 76(sp)
	sb	s7, 91(sp)
	addi	a3, sp, 76
	li	a4, 1
	mv	a0, s5
	mv	a1, s0
	mv	a2, s6
	li	a5, 0
	call	gcm.aes_narrow.blocks.process_all_batches
	call	gcm.aes_cipher.zeroize.stack.wipe_stack.1024
	andi	a0, s2, 31
	beqz	a0, .Lgcm_BB32_9
# %bb.2:                                # %then.1.i.i.i
	li	a0, 16
	bne	s2, a0, .Lgcm_BB32_5
# %bb.3:                                # %after.4.i.thread.i.i.i.i
	lbu	t1, 12(s11)
	lbu	t0, 13(s11)
	lbu	a7, 14(s11)
	lbu	a6, 15(s11)
	lbu	t3, 8(s11)
	lbu	t4, 9(s11)
	lbu	t5, 10(s11)
	lbu	t2, 11(s11)
	lbu	s6, 4(s11)
	lbu	s7, 5(s11)
	lbu	s9, 6(s11)
	lbu	t6, 7(s11)
	lbu	a4, 0(s11)
	lbu	a5, 1(s11)
	lbu	s0, 2(s11)
	lbu	ra, 3(s11)
	lbu	a1, 76(sp)
	lbu	a2, 77(sp)
	lbu	a3, 78(sp)
	lbu	a0, 79(sp)
	xor	a1, a1, a4
	xor	a2, a2, a5
	xor	a3, a3, s0
	xor	ra, a0, ra
	lbu	a4, 80(sp)
	lbu	a5, 81(sp)
	lbu	s0, 82(sp)
	lbu	a0, 83(sp)
	xor	s6, a4, s6
	xor	s7, a5, s7
	xor	s9, s0, s9
	xor	t6, a0, t6
	lbu	a0, 84(sp)
	lbu	a4, 85(sp)
	lbu	a5, 86(sp)
	lbu	s0, 87(sp)
	xor	t3, a0, t3
	xor	t4, a4, t4
	xor	t5, a5, t5
	xor	t2, s0, t2
	lbu	a0, 88(sp)
	lbu	a4, 89(sp)
	lbu	a5, 90(sp)
	lbu	s0, 91(sp)
	xor	a0, a0, t1
	xor	a4, a4, t0
	xor	a5, a5, a7
	xor	s0, s0, a6
	sb	a0, 12(s11)
	sb	a4, 13(s11)
	sb	a5, 14(s11)
	sb	s0, 15(s11)
	sb	t3, 8(s11)
	sb	t4, 9(s11)
	sb	t5, 10(s11)
	sb	t2, 11(s11)
	sb	s6, 4(s11)
	sb	s7, 5(s11)
	sb	s9, 6(s11)
	sb	t6, 7(s11)
	sb	a1, 0(s11)
	sb	a2, 1(s11)
	sb	a3, 2(s11)
	sb	ra, 3(s11)
	j	.Lgcm_BB32_9
.Lgcm_BB32_4:                               # %else.2.i.i.i
	addi	a0, sp, 24
	sw	a0, 40(sp)
	sw	zero, 48(sp)
	sw	zero, 52(sp)
	sw	s11, 56(sp)
	sw	zero, 60(sp)
	sw	s2, 64(sp)
	sw	s3, 68(sp)
	addi	a3, sp, 40
	mv	a0, s5
	mv	a1, s0
	mv	a2, s6
	call	gcm.aes_narrow.borrowed_words.call_to_encrypt.2
	call	gcm.aes_cipher.zeroize.stack.wipe_stack.2032
	j	.Lgcm_BB32_10
.Lgcm_BB32_5:                               # %join.8.i10.i.i.i.i.preheader
	li	a0, 0
	li	a1, 0
	j	.Lgcm_BB32_7
.Lgcm_BB32_6:                               # %join.8.i10.i.i.i.i
                                        #   in Loop: Header=BB32_7 Depth=1
	sltu	a2, a1, s3
	beqz	a2, .Lgcm_BB32_9
.Lgcm_BB32_7:                               # %join.8.i10.i.i.i.i
                                        # =>This Inner Loop Header: Depth=1
	addi	a2, sp, 76
	add	a3, s11, a0
	add	a2, a2, a0
	lbu	a4, 0(a3)
	lbu	a2, 0(a2)
	addi	a0, a0, 1
	xor	a2, a2, a4
	seqz	a4, a0
	add	a1, a1, a4
	sb	a2, 0(a3)
	bne	a1, s3, .Lgcm_BB32_6
# %bb.8:                                #   in Loop: Header=BB32_7 Depth=1
	sltu	a2, a0, s2
	bnez	a2, .Lgcm_BB32_7
.Lgcm_BB32_9:                               # %"aes_ctr::add_in_batches::add_to_one::<#3853cb094ce32add>.exit.i.i.i"
	lw	s9, 8(sp)                       # 4-byte Folded Reload
.Lgcm_BB32_10:                              # %"gcm_siv::message::process_text::<#a556ffa628b2ee02>.exit"
	addi	t4, sp, 40
	mv	a0, s4
	mv	a1, s10
	lw	a2, 12(sp)                      # 4-byte Folded Reload
	lw	a3, 16(sp)                      # 4-byte Folded Reload
	lw	a4, 20(sp)                      # 4-byte Folded Reload
	mv	a5, s9
	mv	a6, s11
	mv	a7, s2
	mv	t3, s3
	call	gcm.gcm_siv.message.put_tag
	addi	a1, sp, 40
	mv	a0, s1
	call	gcm.aes_cipher.blocks.difference
	mv	s6, a0
	addi	a0, sp, 40
	li	a1, 1
	li	a2, 0
	call	gcm.aes_cipher.zeroize.elements.zeroize_elements.4
	beqz	s6, .Lgcm_BB32_16
# %bb.11:                               # %join.3
	lbu	a2, 12(s1)
	lbu	a3, 13(s1)
	lbu	a6, 14(s1)
	lbu	a7, 15(s1)
	lbu	t1, 8(s1)
	lbu	a5, 9(s1)
	lbu	s0, 10(s1)
	lbu	a0, 11(s1)
	slli	a3, a3, 8
	or	t0, a3, a2
	lbu	a3, 4(s1)
	lbu	a1, 5(s1)
	lbu	a2, 6(s1)
	lbu	a4, 7(s1)
	slli	a5, a5, 8
	slli	s0, s0, 16
	slli	a0, a0, 24
	slli	a1, a1, 8
	slli	a2, a2, 16
	slli	a4, a4, 24
	or	t1, a5, t1
	or	a0, a0, s0
	or	a1, a1, a3
	or	a2, a2, a4
	lbu	a3, 1(s1)
	lbu	a4, 0(s1)
	lbu	s0, 2(s1)
	lbu	a5, 3(s1)
	slli	a3, a3, 8
	or	a3, a3, a4
	lw	a4, 0(s4)
	slli	s0, s0, 16
	slli	a5, a5, 24
	or	a5, a5, s0
	or	a0, a0, t1
	or	a1, a1, a2
	srli	s7, a4, 31
	slli	a4, a4, 1
	or	a3, a3, a5
	addi	s4, a4, 56
	sltu	a2, s4, a4
	add	s7, s7, a2
	ori	s0, a7, -128
	sb	a6, 38(sp)
	sb	s0, 39(sp)
	sw	a3, 24(sp)
	sw	a1, 28(sp)
	sw	a0, 32(sp)
	sh	t0, 36(sp)
	sw	zero, 40(sp)
	sw	zero, 44(sp)
	beqz	s8, .Lgcm_BB32_15
# %bb.12:                               # %then.1.i.i.i27
	lw	s8, 24(sp)
	addi	a0, sp, 80
	addi	a1, s1, 4
	li	a2, 11
	call	memcpy
	sw	s8, 76(sp)
	sb	s0, 91(sp)
	addi	a3, sp, 76
	li	a4, 1
	mv	a0, s5
	mv	a1, s4
	mv	a2, s7
	li	a5, 0
	call	gcm.aes_narrow.blocks.process_all_batches
	call	gcm.aes_cipher.zeroize.stack.wipe_stack.1024
	andi	a0, s2, 31
	beqz	a0, .Lgcm_BB32_16
# %bb.13:                               # %then.1.i.i.i27
	li	a0, 16
	bne	s2, a0, .Lgcm_BB32_17
# %bb.14:                               # %after.4.i.thread.i.i.i.i32
	lbu	t1, 12(s11)
	lbu	t0, 13(s11)
	lbu	a7, 14(s11)
	lbu	a6, 15(s11)
	lbu	t2, 8(s11)
	lbu	t3, 9(s11)
	lbu	t5, 10(s11)
	lbu	t4, 11(s11)
	lbu	t6, 4(s11)
	lbu	s2, 5(s11)
	lbu	s3, 6(s11)
	lbu	s4, 7(s11)
	lbu	a4, 0(s11)
	lbu	a5, 1(s11)
	lbu	s0, 2(s11)
	lbu	s1, 3(s11)
	lbu	a0, 76(sp)
	lbu	a1, 77(sp)
	lbu	a2, 78(sp)
	lbu	a3, 79(sp)
	xor	s5, a0, a4
	xor	s7, a1, a5
	xor	s8, a2, s0
	xor	s9, a3, s1
	lbu	a4, 80(sp)
	lbu	a5, 81(sp)
	lbu	s0, 82(sp)
	lbu	s1, 83(sp)
	xor	t6, a4, t6
	xor	s2, a5, s2
	xor	s3, s0, s3
	xor	s4, s1, s4
	lbu	a0, 84(sp)
	lbu	a1, 85(sp)
	lbu	a2, 86(sp)
	lbu	a3, 87(sp)
	xor	a0, a0, t2
	xor	a1, a1, t3
	xor	a2, a2, t5
	xor	a3, a3, t4
	lbu	a4, 88(sp)
	lbu	a5, 89(sp)
	lbu	s0, 90(sp)
	lbu	s1, 91(sp)
	xor	a4, a4, t1
	xor	a5, a5, t0
	xor	s0, s0, a7
	xor	s1, s1, a6
	sb	a4, 12(s11)
	sb	a5, 13(s11)
	sb	s0, 14(s11)
	sb	s1, 15(s11)
	sb	a0, 8(s11)
	sb	a1, 9(s11)
	sb	a2, 10(s11)
	sb	a3, 11(s11)
	sb	t6, 4(s11)
	sb	s2, 5(s11)
	sb	s3, 6(s11)
	sb	s4, 7(s11)
	sb	s5, 0(s11)
	sb	s7, 1(s11)
	sb	s8, 2(s11)
	sb	s9, 3(s11)
	j	.Lgcm_BB32_16
.Lgcm_BB32_15:                              # %else.2.i.i.i22
	addi	a0, sp, 24
	sw	a0, 40(sp)
	sw	zero, 48(sp)
	sw	zero, 52(sp)
	sw	s11, 56(sp)
	sw	zero, 60(sp)
	sw	s2, 64(sp)
	sw	s3, 68(sp)
	addi	a3, sp, 40
	mv	a0, s5
	mv	a1, s4
	mv	a2, s7
	call	gcm.aes_narrow.borrowed_words.call_to_encrypt.2
	call	gcm.aes_cipher.zeroize.stack.wipe_stack.2032
.Lgcm_BB32_16:                              # %common.ret
	seqz	a0, s6
	lw	ra, 140(sp)                     # 4-byte Folded Reload
	lw	s0, 136(sp)                     # 4-byte Folded Reload
	lw	s1, 132(sp)                     # 4-byte Folded Reload
	lw	s2, 128(sp)                     # 4-byte Folded Reload
	lw	s3, 124(sp)                     # 4-byte Folded Reload
	lw	s4, 120(sp)                     # 4-byte Folded Reload
	lw	s5, 116(sp)                     # 4-byte Folded Reload
	lw	s6, 112(sp)                     # 4-byte Folded Reload
	lw	s7, 108(sp)                     # 4-byte Folded Reload
	lw	s8, 104(sp)                     # 4-byte Folded Reload
	lw	s9, 100(sp)                     # 4-byte Folded Reload
	lw	s10, 96(sp)                     # 4-byte Folded Reload
	lw	s11, 92(sp)                     # 4-byte Folded Reload
	addi	sp, sp, 144
	ret
.Lgcm_BB32_17:                              # %join.8.i10.i.i.i.i80.preheader
	li	a0, 0
	li	a1, 0
	j	.Lgcm_BB32_19
.Lgcm_BB32_18:                              #   in Loop: Header=BB32_19 Depth=1
	sltu	a2, a0, s2
	beqz	a2, .Lgcm_BB32_16
.Lgcm_BB32_19:                              # %join.8.i10.i.i.i.i80
                                        # =>This Inner Loop Header: Depth=1
	addi	a2, sp, 76
	add	a3, s11, a0
	add	a2, a2, a0
	lbu	a4, 0(a3)
	lbu	a2, 0(a2)
	addi	a0, a0, 1
	xor	a2, a2, a4
	seqz	a4, a0
	add	a1, a1, a4
	sb	a2, 0(a3)
	beq	a1, s3, .Lgcm_BB32_18
# %bb.20:                               # %join.8.i10.i.i.i.i80
                                        #   in Loop: Header=BB32_19 Depth=1
	sltu	a2, a1, s3
	bnez	a2, .Lgcm_BB32_19
	j	.Lgcm_BB32_16
.Lgcm_func_end32:
	.size	gcm.gcm_siv.message.open, .Lgcm_func_end32-gcm.gcm_siv.message.open
                                        # -- End function
	.section	.text.gcm.gcm_siv.message.put_tag,"ax",@progbits
	.p2align	1                               # -- Begin function gcm_siv::message::put_tag::<#bc93ff5f0cc4cd41>
	.type	gcm.gcm_siv.message.put_tag,@function
gcm.gcm_siv.message.put_tag: # @gcm.gcm_siv.message.put_tag
# %bb.0:                                # %start
	addi	sp, sp, -128
	sw	ra, 124(sp)                     # 4-byte Folded Spill
	sw	s0, 120(sp)                     # 4-byte Folded Spill
	sw	s1, 116(sp)                     # 4-byte Folded Spill
	sw	s2, 112(sp)                     # 4-byte Folded Spill
	sw	s3, 108(sp)                     # 4-byte Folded Spill
	sw	s4, 104(sp)                     # 4-byte Folded Spill
	sw	s5, 100(sp)                     # 4-byte Folded Spill
	sw	s6, 96(sp)                      # 4-byte Folded Spill
	sw	s7, 92(sp)                      # 4-byte Folded Spill
	sw	s8, 88(sp)                      # 4-byte Folded Spill
	sw	s9, 84(sp)                      # 4-byte Folded Spill
	sw	s10, 80(sp)                     # 4-byte Folded Spill
	sw	s11, 76(sp)                     # 4-byte Folded Spill
	mv	s0, t4
	mv	s5, t3
	mv	s3, a7
	mv	s6, a6
	mv	t3, a5
	mv	s4, a4
	mv	a6, a3
	mv	s1, a2
	mv	s2, a0
	lbu	t0, 0(a1)
	lbu	t2, 1(a1)
	lbu	t4, 2(a1)
	lbu	a7, 3(a1)
	lbu	s7, 4(a1)
	lbu	t6, 5(a1)
	lbu	t5, 6(a1)
	lbu	t1, 7(a1)
	lbu	a2, 8(a1)
	lbu	a3, 9(a1)
	lbu	a0, 10(a1)
	lbu	s8, 11(a1)
	lbu	a5, 12(a1)
	lbu	a4, 13(a1)
	lbu	s9, 14(a1)
	lbu	s10, 15(a1)
	slli	t0, t0, 24
	slli	t2, t2, 16
	slli	t4, t4, 8
	slli	s7, s7, 24
	slli	t6, t6, 16
	slli	t5, t5, 8
	slli	s11, a2, 24
	slli	ra, a3, 16
	slli	a0, a0, 8
	slli	a5, a5, 24
	slli	a4, a4, 16
	slli	s9, s9, 8
	or	t0, t2, t0
	or	a2, t4, a7
	or	a3, s7, t6
	or	a1, ra, s11
	or	a0, a0, s8
	or	a4, a4, a5
	or	s8, t0, a2
	or	a2, a3, t5
	or	a0, a0, a1
	or	a1, a4, s9
	or	s7, a2, t1
	or	s9, a1, s10
	sltu	a2, s7, a2
	sltu	s10, s9, a1
	add	s8, s8, a2
	add	s10, s10, a0
	sw	s9, 48(sp)
	sw	s10, 52(sp)
	sw	s7, 56(sp)
	sw	s8, 60(sp)
	addi	a0, sp, 32
	addi	a1, sp, 48
	li	a2, 0
	li	a3, 0
	li	a4, 0
	li	a5, 0
	mv	a7, s4
	call	gcm.gcm.single_blocks.hash_singly.2
	lw	a2, 32(sp)
	lw	a3, 36(sp)
	lw	a4, 40(sp)
	lw	a5, 44(sp)
	addi	a0, sp, 16
	addi	a1, sp, 48
	mv	a6, s6
	mv	a7, s3
	mv	t3, s5
	call	gcm.gcm.single_blocks.hash_singly.2
	lw	a0, 16(sp)
	lw	a7, 20(sp)
	lw	a3, 24(sp)
	lw	a6, 28(sp)
	slli	a1, s4, 3
	slli	a5, s3, 3
	srli	a4, s3, 29
	srli	a2, s4, 29
	xor	a1, a1, a0
	xor	a2, a7, a2
	xor	a3, a3, a5
	xor	a4, a6, a4
	mv	a0, sp
	mv	a5, s9
	mv	a6, s10
	mv	a7, s7
	mv	t3, s8
	call	gcm.gcm.bitwise.product_bitwise
	lbu	a6, 8(sp)
	lbu	a7, 9(sp)
	lbu	t0, 10(sp)
	lbu	t3, 11(sp)
	lbu	t5, 8(s1)
	lbu	a5, 9(s1)
	lbu	a0, 10(s1)
	lbu	a1, 11(s1)
	lbu	t1, 4(sp)
	lbu	t2, 5(sp)
	lbu	t4, 6(sp)
	lbu	a3, 7(sp)
	xor	t3, t3, a1
	lbu	t6, 4(s1)
	lbu	a2, 5(s1)
	lbu	a4, 6(s1)
	lbu	a1, 7(s1)
	xor	t0, t0, a0
	xor	a7, a7, a5
	xor	a6, a6, t5
	xor	t5, a3, a1
	lbu	s3, 0(sp)
	lbu	a5, 1(sp)
	lbu	a0, 2(sp)
	lbu	a1, 3(sp)
	xor	t4, t4, a4
	xor	t2, t2, a2
	xor	t1, t1, t6
	lbu	a2, 3(s1)
	lbu	a4, 2(s1)
	lbu	a3, 1(s1)
	lbu	s1, 0(s1)
	xor	a1, a1, a2
	xor	a0, a0, a4
	xor	a3, a3, a5
	xor	a2, s3, s1
	lbu	a4, 12(sp)
	lbu	t6, 13(sp)
	lbu	s1, 14(sp)
	lbu	a5, 15(sp)
	sb	a4, 12(s0)
	sb	a2, 0(s0)
	sb	a3, 1(s0)
	sb	a0, 2(s0)
	sb	a1, 3(s0)
	sb	t1, 4(s0)
	sb	t2, 5(s0)
	sb	t4, 6(s0)
	sb	t5, 7(s0)
	sb	a6, 8(s0)
	sb	a7, 9(s0)
	sb	t0, 10(s0)
	sb	t3, 11(s0)
	andi	a0, a5, 127
	sb	t6, 13(s0)
	sb	s1, 14(s0)
	sb	a0, 15(s0)
	lw	a0, 0(s2)
	srli	a2, a0, 31
	slli	a0, a0, 1
	addi	a1, a0, 56
	sltu	a0, a1, a0
	add	a2, a2, a0
	addi	a0, s2, 4
	li	a4, 1
	mv	a3, s0
	li	a5, 0
	call	gcm.aes_narrow.blocks.process_all_batches
	lw	ra, 124(sp)                     # 4-byte Folded Reload
	lw	s0, 120(sp)                     # 4-byte Folded Reload
	lw	s1, 116(sp)                     # 4-byte Folded Reload
	lw	s2, 112(sp)                     # 4-byte Folded Reload
	lw	s3, 108(sp)                     # 4-byte Folded Reload
	lw	s4, 104(sp)                     # 4-byte Folded Reload
	lw	s5, 100(sp)                     # 4-byte Folded Reload
	lw	s6, 96(sp)                      # 4-byte Folded Reload
	lw	s7, 92(sp)                      # 4-byte Folded Reload
	lw	s8, 88(sp)                      # 4-byte Folded Reload
	lw	s9, 84(sp)                      # 4-byte Folded Reload
	lw	s10, 80(sp)                     # 4-byte Folded Reload
	lw	s11, 76(sp)                     # 4-byte Folded Reload
	addi	sp, sp, 128
	tail	gcm.aes_cipher.zeroize.stack.wipe_stack.1024
.Lgcm_func_end33:
	.size	gcm.gcm_siv.message.put_tag, .Lgcm_func_end33-gcm.gcm_siv.message.put_tag
                                        # -- End function
	.section	.text.gcm.gcm.single_blocks.hash_singly.2,"ax",@progbits
	.p2align	1                               # -- Begin function gcm::single_blocks::hash_singly::<#4042f4b97f1aa5e1>
	.type	gcm.gcm.single_blocks.hash_singly.2,@function
gcm.gcm.single_blocks.hash_singly.2: # @gcm.gcm.single_blocks.hash_singly.2
# %bb.0:                                # %start
	addi	sp, sp, -128
	sw	ra, 124(sp)                     # 4-byte Folded Spill
	sw	s0, 120(sp)                     # 4-byte Folded Spill
	sw	s1, 116(sp)                     # 4-byte Folded Spill
	sw	s2, 112(sp)                     # 4-byte Folded Spill
	sw	s3, 108(sp)                     # 4-byte Folded Spill
	sw	s4, 104(sp)                     # 4-byte Folded Spill
	sw	s5, 100(sp)                     # 4-byte Folded Spill
	sw	s6, 96(sp)                      # 4-byte Folded Spill
	sw	s7, 92(sp)                      # 4-byte Folded Spill
	sw	s8, 88(sp)                      # 4-byte Folded Spill
	sw	s9, 84(sp)                      # 4-byte Folded Spill
	sw	s10, 80(sp)                     # 4-byte Folded Spill
	sw	s11, 76(sp)                     # 4-byte Folded Spill
	sw	a6, 20(sp)                      # 4-byte Folded Spill
	mv	s4, a5
	mv	s5, a4
	mv	s6, a3
	mv	s8, a2
	slli	a3, t3, 28
	sw	a7, 4(sp)                       # 4-byte Folded Spill
	srli	a2, a7, 4
	or	a2, a2, a3
	srli	s7, t3, 4
	sw	a2, 12(sp)                      # 4-byte Folded Spill
	or	a2, a2, s7
	sw	a0, 8(sp)                       # 4-byte Folded Spill
	sw	a1, 0(sp)                       # 4-byte Folded Spill
	beqz	a2, .Lgcm_BB34_5
# %bb.1:                                # %join.5.i.lr.ph
	li	s3, 0
	lw	a0, 0(a1)
	sw	a0, 16(sp)                      # 4-byte Folded Spill
	lw	s9, 4(a1)
	lw	s10, 8(a1)
	lw	s11, 12(a1)
	li	s2, 0
	j	.Lgcm_BB34_3
.Lgcm_BB34_2:                               # %join.5.i
                                        #   in Loop: Header=BB34_3 Depth=1
	sltu	a0, s2, s7
	lw	s8, 40(sp)
	lw	s6, 44(sp)
	lw	s5, 48(sp)
	lw	s4, 52(sp)
	beqz	a0, .Lgcm_BB34_5
.Lgcm_BB34_3:                               # %join.5.i
                                        # =>This Inner Loop Header: Depth=1
	slli	a0, s3, 4
	lw	a1, 20(sp)                      # 4-byte Folded Reload
	add	a0, a0, a1
	lbu	a6, 12(a0)
	lbu	a2, 13(a0)
	lbu	a3, 14(a0)
	lbu	a4, 15(a0)
	lbu	a5, 8(a0)
	lbu	s0, 9(a0)
	lbu	s1, 10(a0)
	lbu	a1, 11(a0)
	slli	a2, a2, 8
	slli	a3, a3, 16
	slli	a4, a4, 24
	slli	s0, s0, 8
	or	a6, a2, a6
	or	a7, a4, a3
	or	a5, a5, s0
	lbu	a4, 4(a0)
	lbu	s0, 5(a0)
	lbu	a2, 6(a0)
	lbu	a3, 7(a0)
	slli	s1, s1, 16
	slli	a1, a1, 24
	slli	s0, s0, 8
	slli	a2, a2, 16
	slli	a3, a3, 24
	or	a1, a1, s1
	or	a4, a4, s0
	or	a2, a2, a3
	lbu	a3, 1(a0)
	lbu	s1, 0(a0)
	lbu	s0, 2(a0)
	lbu	a0, 3(a0)
	slli	a3, a3, 8
	or	a3, a3, s1
	slli	s0, s0, 16
	slli	a0, a0, 24
	or	a0, a0, s0
	or	s1, a7, a6
	or	a5, a5, a1
	or	a2, a2, a4
	or	a0, a0, a3
	xor	a1, a0, s8
	xor	a2, a2, s6
	xor	a3, a5, s5
	xor	a4, s1, s4
	addi	a0, sp, 40
	lw	a5, 16(sp)                      # 4-byte Folded Reload
	mv	a6, s9
	mv	a7, s10
	mv	t3, s11
	call	gcm.gcm.bitwise.product_bitwise
	addi	s3, s3, 1
	seqz	a0, s3
	add	s2, s2, a0
	bne	s2, s7, .Lgcm_BB34_2
# %bb.4:                                #   in Loop: Header=BB34_3 Depth=1
	lw	a0, 12(sp)                      # 4-byte Folded Reload
	sltu	a0, s3, a0
	lw	s8, 40(sp)
	lw	s6, 44(sp)
	lw	s5, 48(sp)
	lw	s4, 52(sp)
	bnez	a0, .Lgcm_BB34_3
.Lgcm_BB34_5:                               # %"gcm::single_blocks::hash_whole::<#4042f4b97f1aa5e1>.exit"
	lw	a1, 4(sp)                       # 4-byte Folded Reload
	andi	a2, a1, 15
	beqz	a2, .Lgcm_BB34_10
# %bb.6:                                # %join.3
	andi	a1, a1, -16
	lw	a0, 20(sp)                      # 4-byte Folded Reload
	add	a1, a1, a0
	addi	a0, sp, 60
	bgeu	a0, a1, .Lgcm_BB34_8
# %bb.7:                                # %join.3
	li	a0, 1
	j	.Lgcm_BB34_9
.Lgcm_BB34_8:
	sub	a0, a0, a1
	sltu	a0, a0, a2
	xori	a0, a0, 1
.Lgcm_BB34_9:                               # %join.3
	sw	zero, 60(sp)
	sw	zero, 64(sp)
	sw	zero, 68(sp)
	sw	zero, 72(sp)
	addi	a0, sp, 60
	call	memcpy
	lw	t0, 64(sp)
	lbu	a1, 68(sp)
	lbu	a2, 69(sp)
	lbu	a3, 70(sp)
	lbu	a4, 71(sp)
	lbu	s1, 60(sp)
	lbu	a5, 61(sp)
	lbu	s0, 62(sp)
	lbu	a0, 63(sp)
	lw	t1, 72(sp)
	slli	a4, a4, 24
	slli	a3, a3, 16
	slli	a2, a2, 8
	slli	s0, s0, 16
	slli	a5, a5, 8
	or	a2, a2, a3
	or	s0, s0, a5
	or	a2, a2, a4
	lw	a3, 0(sp)                       # 4-byte Folded Reload
	lw	a5, 0(a3)
	lw	a6, 4(a3)
	lw	a7, 8(a3)
	lw	t3, 12(a3)
	slli	a0, a0, 24
	or	a0, a0, s0
	or	a3, a2, a1
	or	s1, s1, a0
	sltu	a2, a3, a2
	sltu	a0, s1, a0
	xor	a1, s1, s8
	add	t1, t1, a2
	add	a0, a0, t0
	xor	a2, a0, s6
	xor	a4, t1, s4
	xor	a3, a3, s5
	addi	a0, sp, 24
	call	gcm.gcm.bitwise.product_bitwise
	lw	s8, 24(sp)
	lw	s6, 28(sp)
	lw	s5, 32(sp)
	lw	s4, 36(sp)
.Lgcm_BB34_10:                              # %common.ret
	lw	a0, 8(sp)                       # 4-byte Folded Reload
	sw	s8, 0(a0)
	sw	s6, 4(a0)
	sw	s5, 8(a0)
	sw	s4, 12(a0)
	lw	ra, 124(sp)                     # 4-byte Folded Reload
	lw	s0, 120(sp)                     # 4-byte Folded Reload
	lw	s1, 116(sp)                     # 4-byte Folded Reload
	lw	s2, 112(sp)                     # 4-byte Folded Reload
	lw	s3, 108(sp)                     # 4-byte Folded Reload
	lw	s4, 104(sp)                     # 4-byte Folded Reload
	lw	s5, 100(sp)                     # 4-byte Folded Reload
	lw	s6, 96(sp)                      # 4-byte Folded Reload
	lw	s7, 92(sp)                      # 4-byte Folded Reload
	lw	s8, 88(sp)                      # 4-byte Folded Reload
	lw	s9, 84(sp)                      # 4-byte Folded Reload
	lw	s10, 80(sp)                     # 4-byte Folded Reload
	lw	s11, 76(sp)                     # 4-byte Folded Reload
	addi	sp, sp, 128
	ret
.Lgcm_func_end34:
	.size	gcm.gcm.single_blocks.hash_singly.2, .Lgcm_func_end34-gcm.gcm.single_blocks.hash_singly.2
                                        # -- End function
	.section	.text.gcm.aes_narrow.borrowed_words.call_to_encrypt.2,"ax",@progbits
	.p2align	1                               # -- Begin function aes_narrow::borrowed_words::call_to_encrypt::<#d0e731d912aff965>
	.type	gcm.aes_narrow.borrowed_words.call_to_encrypt.2,@function
gcm.aes_narrow.borrowed_words.call_to_encrypt.2: # @gcm.aes_narrow.borrowed_words.call_to_encrypt.2
# %bb.0:                                # %start
	addi	sp, sp, -432
	sw	ra, 428(sp)                     # 4-byte Folded Spill
	sw	s0, 424(sp)                     # 4-byte Folded Spill
	sw	s1, 420(sp)                     # 4-byte Folded Spill
	sw	s2, 416(sp)                     # 4-byte Folded Spill
	sw	s3, 412(sp)                     # 4-byte Folded Spill
	sw	s4, 408(sp)                     # 4-byte Folded Spill
	sw	s5, 404(sp)                     # 4-byte Folded Spill
	sw	s6, 400(sp)                     # 4-byte Folded Spill
	sw	s7, 396(sp)                     # 4-byte Folded Spill
	sw	s8, 392(sp)                     # 4-byte Folded Spill
	sw	s9, 388(sp)                     # 4-byte Folded Spill
	sw	s10, 384(sp)                    # 4-byte Folded Spill
	sw	s11, 380(sp)                    # 4-byte Folded Spill
	mv	s6, a2
	mv	s7, a1
	mv	s8, a0
	lw	s2, 24(a3)
	lw	a0, 28(a3)
	sw	a0, 100(sp)                     # 4-byte Folded Spill
	lw	s0, 8(a3)
	lw	s9, 0(a3)
	lw	s3, 12(a3)
	lw	s4, 16(a3)
	andi	a0, s0, 15
	sw	s8, 104(sp)
	sw	zero, 108(sp)
	sw	a1, 112(sp)
	sw	a2, 116(sp)
	beqz	a0, .Lgcm_BB35_2
# %bb.1:                                # %then.1.i.i
	addi	a0, sp, 104
	mv	a1, s9
	mv	a2, s0
	mv	a3, s3
	li	a4, 0
	li	a5, 0
	mv	a6, s4
	mv	a7, s2
	lw	t3, 100(sp)                     # 4-byte Folded Reload
	call	gcm.aes_ctr.add_in_batches.add_next.2
	mv	a4, a0
	j	.Lgcm_BB35_3
.Lgcm_BB35_2:
	li	a4, 0
	li	a1, 0
.Lgcm_BB35_3:                               # %join.3.i.i
	sltu	a0, s2, a4
	mv	a2, a1
	lw	a3, 100(sp)                     # 4-byte Folded Reload
	sub	a1, a3, a1
	sub	a1, a1, a0
	sub	a0, s2, a4
	seqz	a1, a1
	sltiu	a0, a0, 32
	and	a0, a0, a1
	bnez	a0, .Lgcm_BB35_8
# %bb.4:                                # %join.11.lr.ph.i.i
	addi	a0, s9, 4
	sw	a0, 12(sp)                      # 4-byte Folded Spill
	mv	t0, a2
	sw	s0, 40(sp)                      # 4-byte Folded Spill
	sw	s9, 36(sp)                      # 4-byte Folded Spill
	sw	s3, 32(sp)                      # 4-byte Folded Spill
	sw	s4, 28(sp)                      # 4-byte Folded Spill
	sw	s6, 24(sp)                      # 4-byte Folded Spill
	sw	s7, 20(sp)                      # 4-byte Folded Spill
	sw	s8, 16(sp)                      # 4-byte Folded Spill
.Lgcm_BB35_5:                               # %join.11.i.i
                                        # =>This Inner Loop Header: Depth=1
	add	a0, a4, s0
	add	a1, t0, s3
	addi	s3, a4, 32
	sltu	a2, a0, a4
	add	a1, a1, a2
	sltu	a2, s3, a4
	add	s11, t0, a2
	srli	a0, a0, 4
	slli	a1, a1, 28
	or	s0, a0, a1
	add	s5, s4, a4
	li	a2, 224
	addi	a0, sp, 156
	li	a1, 0
	call	memset
	lbu	a0, 1(s9)
	lbu	a1, 0(s9)
	lbu	a2, 2(s9)
	lbu	a3, 3(s9)
	slli	a0, a0, 8
	or	a0, a0, a1
	slli	a2, a2, 16
	slli	a3, a3, 24
	or	a2, a2, a3
	or	a0, a0, a2
	add	s0, s0, a0
	sw	s0, 124(sp)
	li	a2, 12
	addi	a0, sp, 128
	lw	s1, 12(sp)                      # 4-byte Folded Reload
	mv	a1, s1
	call	memcpy
	addi	s0, s0, 1
	sw	s0, 140(sp)
	li	a2, 12
	addi	a0, sp, 144
	mv	a1, s1
	call	memcpy
	addi	a3, sp, 124
	li	a4, 2
	mv	a0, s8
	mv	a1, s7
	mv	a2, s6
	li	a5, 0
	call	gcm.aes_soft.soft.blocks.filled_up.process_filled_up
	lbu	a0, 12(s5)
	sw	a0, 84(sp)                      # 4-byte Folded Spill
	lbu	a0, 13(s5)
	sw	a0, 88(sp)                      # 4-byte Folded Spill
	lbu	a0, 14(s5)
	sw	a0, 92(sp)                      # 4-byte Folded Spill
	lbu	a0, 15(s5)
	sw	a0, 96(sp)                      # 4-byte Folded Spill
	lbu	t5, 8(s5)
	lbu	t4, 9(s5)
	lbu	t3, 10(s5)
	lbu	t2, 11(s5)
	lbu	a7, 4(s5)
	lbu	a6, 5(s5)
	lbu	ra, 6(s5)
	lbu	t6, 7(s5)
	lbu	s10, 0(s5)
	lbu	a5, 1(s5)
	lbu	s4, 2(s5)
	lbu	s8, 3(s5)
	lbu	s0, 124(sp)
	lbu	a2, 125(sp)
	lbu	a1, 126(sp)
	lbu	a3, 127(sp)
	lbu	a4, 128(sp)
	lbu	s7, 129(sp)
	lbu	t1, 130(sp)
	lbu	s6, 131(sp)
	sw	s3, 76(sp)                      # 4-byte Folded Spill
	sltu	s9, s2, s3
	mv	t0, s11
	lw	a0, 100(sp)                     # 4-byte Folded Reload
	sub	s1, a0, s11
	sub	a0, s2, s3
	sub	s1, s1, s9
	sltiu	a0, a0, 32
	seqz	s1, s1
	and	a0, a0, s1
	sw	a0, 80(sp)                      # 4-byte Folded Spill
	xor	a0, s0, s10
	sw	a0, 72(sp)                      # 4-byte Folded Spill
	xor	a2, a2, a5
	sw	a2, 68(sp)                      # 4-byte Folded Spill
	lbu	a0, 132(sp)
	lbu	s0, 133(sp)
	lbu	s1, 134(sp)
	lbu	s10, 135(sp)
	xor	a1, a1, s4
	sw	a1, 64(sp)                      # 4-byte Folded Spill
	xor	a1, a3, s8
	sw	a1, 60(sp)                      # 4-byte Folded Spill
	xor	a1, a4, a7
	sw	a1, 56(sp)                      # 4-byte Folded Spill
	xor	a1, s7, a6
	sw	a1, 52(sp)                      # 4-byte Folded Spill
	lbu	a4, 136(sp)
	lbu	a5, 137(sp)
	lbu	a7, 138(sp)
	lbu	a6, 139(sp)
	xor	a1, t1, ra
	sw	a1, 48(sp)                      # 4-byte Folded Spill
	xor	a1, s6, t6
	sw	a1, 44(sp)                      # 4-byte Folded Spill
	xor	s9, a0, t5
	xor	t6, s0, t4
	lbu	a2, 16(s5)
	lbu	a3, 17(s5)
	lbu	s4, 18(s5)
	lbu	s0, 19(s5)
	xor	t5, s1, t3
	xor	t4, s10, t2
	lw	a0, 84(sp)                      # 4-byte Folded Reload
	xor	t2, a4, a0
	lw	a0, 88(sp)                      # 4-byte Folded Reload
	xor	s10, a5, a0
	lbu	s1, 140(sp)
	lbu	a4, 141(sp)
	lbu	a5, 142(sp)
	lbu	a1, 143(sp)
	lw	a0, 92(sp)                      # 4-byte Folded Reload
	xor	a7, a7, a0
	lw	a0, 96(sp)                      # 4-byte Folded Reload
	xor	t1, a6, a0
	xor	a2, a2, s1
	sw	a2, 96(sp)                      # 4-byte Folded Spill
	xor	a3, a3, a4
	sw	a3, 92(sp)                      # 4-byte Folded Spill
	lbu	a4, 20(s5)
	lbu	s1, 21(s5)
	lbu	s3, 22(s5)
	lbu	s6, 23(s5)
	xor	a0, a5, s4
	sw	a0, 88(sp)                      # 4-byte Folded Spill
	xor	ra, a1, s0
	lbu	a5, 144(sp)
	lbu	s0, 145(sp)
	lbu	a0, 146(sp)
	lbu	a1, 147(sp)
	xor	t3, a5, a4
	xor	s0, s0, s1
	xor	s3, a0, s3
	xor	s6, a1, s6
	lbu	a5, 24(s5)
	lbu	s1, 25(s5)
	lbu	a0, 26(s5)
	lbu	a1, 27(s5)
	lbu	s4, 148(sp)
	lbu	s7, 149(sp)
	lbu	s8, 150(sp)
	mv	a6, s2
	lbu	s2, 151(sp)
	xor	a5, s4, a5
	xor	s7, s7, s1
	xor	s4, s8, a0
	xor	s2, s2, a1
	lbu	a4, 28(s5)
	lbu	a3, 29(s5)
	lbu	s1, 30(s5)
	lbu	s8, 31(s5)
	lbu	s11, 152(sp)
	lbu	a0, 153(sp)
	lbu	a1, 154(sp)
	lbu	a2, 155(sp)
	xor	a4, s11, a4
	xor	a0, a0, a3
	xor	a1, a1, s1
	xor	a2, a2, s8
	lw	s8, 16(sp)                      # 4-byte Folded Reload
	sb	t2, 12(s5)
	sb	s10, 13(s5)
	sb	a7, 14(s5)
	sb	t1, 15(s5)
	sb	s9, 8(s5)
	sb	t6, 9(s5)
	sb	t5, 10(s5)
	sb	t4, 11(s5)
	lw	a3, 56(sp)                      # 4-byte Folded Reload
	sb	a3, 4(s5)
	lw	a3, 52(sp)                      # 4-byte Folded Reload
	sb	a3, 5(s5)
	lw	a3, 48(sp)                      # 4-byte Folded Reload
	sb	a3, 6(s5)
	lw	a3, 44(sp)                      # 4-byte Folded Reload
	sb	a3, 7(s5)
	lw	a3, 72(sp)                      # 4-byte Folded Reload
	sb	a3, 0(s5)
	lw	a3, 68(sp)                      # 4-byte Folded Reload
	sb	a3, 1(s5)
	lw	a3, 64(sp)                      # 4-byte Folded Reload
	sb	a3, 2(s5)
	lw	a3, 60(sp)                      # 4-byte Folded Reload
	sb	a3, 3(s5)
	sb	a4, 28(s5)
	lw	a4, 76(sp)                      # 4-byte Folded Reload
	sb	a0, 29(s5)
	sb	a1, 30(s5)
	sb	a2, 31(s5)
	sb	a5, 24(s5)
	sb	s7, 25(s5)
	lw	s7, 20(sp)                      # 4-byte Folded Reload
	sb	s4, 26(s5)
	lw	s4, 28(sp)                      # 4-byte Folded Reload
	sb	s2, 27(s5)
	mv	s2, a6
	sb	t3, 20(s5)
	sb	s0, 21(s5)
	lw	s0, 40(sp)                      # 4-byte Folded Reload
	sb	s3, 22(s5)
	lw	s3, 32(sp)                      # 4-byte Folded Reload
	lw	s9, 36(sp)                      # 4-byte Folded Reload
	sb	s6, 23(s5)
	lw	s6, 24(sp)                      # 4-byte Folded Reload
	lw	a0, 96(sp)                      # 4-byte Folded Reload
	sb	a0, 16(s5)
	lw	a0, 92(sp)                      # 4-byte Folded Reload
	sb	a0, 17(s5)
	lw	a0, 88(sp)                      # 4-byte Folded Reload
	sb	a0, 18(s5)
	sb	ra, 19(s5)
	lw	a0, 80(sp)                      # 4-byte Folded Reload
	beqz	a0, .Lgcm_BB35_5
# %bb.6:                                # %loop.13.preheader.i.i
	mv	a5, t0
	lw	a0, 100(sp)                     # 4-byte Folded Reload
	beq	t0, a0, .Lgcm_BB35_9
.Lgcm_BB35_7:                               # %loop.13.preheader.i.i
	lw	a0, 100(sp)                     # 4-byte Folded Reload
	sltu	a0, a5, a0
	bnez	a0, .Lgcm_BB35_11
	j	.Lgcm_BB35_13
.Lgcm_BB35_8:
	mv	t0, a2
	mv	a5, a2
	lw	a0, 100(sp)                     # 4-byte Folded Reload
	bne	t0, a0, .Lgcm_BB35_7
.Lgcm_BB35_9:
	sltu	a0, a4, s2
	bnez	a0, .Lgcm_BB35_11
	j	.Lgcm_BB35_13
.Lgcm_BB35_10:                              # %join.16.i.i
                                        #   in Loop: Header=BB35_11 Depth=1
	lw	a0, 100(sp)                     # 4-byte Folded Reload
	sltu	a0, a5, a0
	beqz	a0, .Lgcm_BB35_13
.Lgcm_BB35_11:                              # %join.16.i.i
                                        # =>This Inner Loop Header: Depth=1
	addi	a0, sp, 104
	mv	a1, s9
	mv	a2, s0
	mv	a3, s3
	mv	a6, s4
	mv	a7, s2
	lw	s1, 100(sp)                     # 4-byte Folded Reload
	mv	t3, s1
	call	gcm.aes_ctr.add_in_batches.add_next.2
	mv	a4, a0
	mv	a5, a1
	bne	a1, s1, .Lgcm_BB35_10
# %bb.12:                               #   in Loop: Header=BB35_11 Depth=1
	sltu	a0, a4, s2
	bnez	a0, .Lgcm_BB35_11
.Lgcm_BB35_13:                              # %"aes_ctr::add_in_batches::AddStreamBlockCipherEncClosure::call::<#dc401293e4f3bac2>.exit"
	lw	ra, 428(sp)                     # 4-byte Folded Reload
	lw	s0, 424(sp)                     # 4-byte Folded Reload
	lw	s1, 420(sp)                     # 4-byte Folded Reload
	lw	s2, 416(sp)                     # 4-byte Folded Reload
	lw	s3, 412(sp)                     # 4-byte Folded Reload
	lw	s4, 408(sp)                     # 4-byte Folded Reload
	lw	s5, 404(sp)                     # 4-byte Folded Reload
	lw	s6, 400(sp)                     # 4-byte Folded Reload
	lw	s7, 396(sp)                     # 4-byte Folded Reload
	lw	s8, 392(sp)                     # 4-byte Folded Reload
	lw	s9, 388(sp)                     # 4-byte Folded Reload
	lw	s10, 384(sp)                    # 4-byte Folded Reload
	lw	s11, 380(sp)                    # 4-byte Folded Reload
	addi	sp, sp, 432
	ret
.Lgcm_func_end35:
	.size	gcm.aes_narrow.borrowed_words.call_to_encrypt.2, .Lgcm_func_end35-gcm.aes_narrow.borrowed_words.call_to_encrypt.2
                                        # -- End function
	.section	.text.gcm.aes_ctr.add_in_batches.add_next.2,"ax",@progbits
	.p2align	1                               # -- Begin function aes_ctr::add_in_batches::add_next::<#9f5b6b63b811461e>
	.type	gcm.aes_ctr.add_in_batches.add_next.2,@function
gcm.aes_ctr.add_in_batches.add_next.2: # @gcm.aes_ctr.add_in_batches.add_next.2
# %bb.0:                                # %start
	addi	sp, sp, -336
	sw	ra, 332(sp)                     # 4-byte Folded Spill
	sw	s0, 328(sp)                     # 4-byte Folded Spill
	sw	s1, 324(sp)                     # 4-byte Folded Spill
	sw	s2, 320(sp)                     # 4-byte Folded Spill
	sw	s3, 316(sp)                     # 4-byte Folded Spill
	sw	s4, 312(sp)                     # 4-byte Folded Spill
	sw	s5, 308(sp)                     # 4-byte Folded Spill
	sw	s6, 304(sp)                     # 4-byte Folded Spill
	sw	s7, 300(sp)                     # 4-byte Folded Spill
	sw	s8, 296(sp)                     # 4-byte Folded Spill
	sw	s9, 292(sp)                     # 4-byte Folded Spill
	sw	s10, 288(sp)                    # 4-byte Folded Spill
	sw	s11, 284(sp)                    # 4-byte Folded Spill
	mv	s5, t3
	mv	s6, a7
	mv	s3, a6
	mv	s7, a5
	mv	s9, a4
	mv	s8, a1
	mv	s1, a0
	li	s11, 16
	add	a3, a3, a5
	add	a7, a4, a2
	sltu	a5, s6, a4
	sub	s0, t3, s7
	andi	a2, a7, 15
	sub	s10, s11, a2
	sltiu	a1, a2, 17
	addi	a6, s10, 16
	xori	a1, a1, 1
	sltu	a4, a6, s10
	sub	a1, a4, a1
	sltu	a4, a7, s9
	sub	s0, s0, a5
	sub	a0, s6, s9
	beq	s0, a1, .Lgcm_BB36_2
# %bb.1:                                # %start
	sltu	a5, s0, a1
	add	a3, a3, a4
	beqz	a5, .Lgcm_BB36_3
	j	.Lgcm_BB36_4
.Lgcm_BB36_2:
	sltu	a5, a0, a6
	add	a3, a3, a4
	bnez	a5, .Lgcm_BB36_4
.Lgcm_BB36_3:                               # %start
	mv	s0, a1
	mv	a0, a6
.Lgcm_BB36_4:                               # %start
	sw	s0, 24(sp)                      # 4-byte Folded Spill
	sw	a0, 20(sp)                      # 4-byte Folded Spill
	sw	a2, 16(sp)                      # 4-byte Folded Spill
	add	s0, a2, a0
	slli	a3, a3, 28
	srli	a2, a7, 4
	addi	s4, s0, 15
	or	s2, a2, a3
	addi	a0, sp, 60
	li	a2, 224
	li	a1, 0
	call	memset
	lbu	a0, 1(s8)
	lbu	a1, 0(s8)
	lbu	a2, 2(s8)
	lbu	a3, 3(s8)
	slli	a0, a0, 8
	or	a0, a0, a1
	addi	s8, s8, 4
	slli	a2, a2, 16
	slli	a3, a3, 24
	or	a2, a2, a3
	or	a0, a0, a2
	add	s2, s2, a0
	sw	s2, 28(sp)
	addi	a0, sp, 32
	li	a2, 12
	mv	a1, s8
	call	memcpy
	addi	s2, s2, 1
	sw	s2, 44(sp)
	addi	a0, sp, 48
	li	a2, 12
	mv	a1, s8
	call	memcpy
	lbu	a0, 1(s1)
	lbu	a1, 0(s1)
	lbu	a2, 2(s1)
	lbu	a3, 3(s1)
	slli	a0, a0, 8
	or	a0, a0, a1
	lbu	a1, 12(s1)
	lbu	a4, 13(s1)
	lbu	a5, 14(s1)
	lbu	s0, 15(s1)
	slli	a2, a2, 16
	slli	a3, a3, 24
	slli	a4, a4, 8
	slli	a5, a5, 16
	slli	s0, s0, 24
	or	a2, a2, a3
	or	a1, a1, a4
	or	a5, a5, s0
	lbu	a3, 9(s1)
	lbu	a4, 8(s1)
	lbu	s0, 10(s1)
	lbu	s1, 11(s1)
	slli	a3, a3, 8
	or	a3, a3, a4
	slli	s0, s0, 16
	slli	s1, s1, 24
	or	s0, s0, s1
	or	a0, a0, a2
	andi	a4, s4, 112
	or	a2, a5, a1
	or	a1, s0, a3
	addi	a3, sp, 28
	bne	a4, s11, .Lgcm_BB36_6
# %bb.5:                                # %then.1.i.i.i
	li	a4, 1
	j	.Lgcm_BB36_7
.Lgcm_BB36_6:                               # %else.2.i.i.i
	li	a4, 2
.Lgcm_BB36_7:                               # %"aes_ctr::keystream::fill_by_backend::<#9f5b6b63b811461e>.exit"
	li	a5, 0
	call	gcm.aes_soft.soft.blocks.filled_up.process_filled_up
	add	s4, s3, s9
	lw	s0, 24(sp)                      # 4-byte Folded Reload
	lw	a1, 20(sp)                      # 4-byte Folded Reload
	lw	t0, 16(sp)                      # 4-byte Folded Reload
	sw	s7, 12(sp)                      # 4-byte Folded Spill
	beqz	t0, .Lgcm_BB36_10
# %bb.8:                                # %then.1.i
	sltu	a0, s11, t0
	neg	a2, a0
	beq	s0, a2, .Lgcm_BB36_11
# %bb.9:                                # %then.1.i
	sltu	a3, s0, a2
	mv	s3, s0
	mv	s11, a1
	beqz	a3, .Lgcm_BB36_12
	j	.Lgcm_BB36_13
.Lgcm_BB36_10:
	li	s11, 0
	li	s3, 0
	j	.Lgcm_BB36_18
.Lgcm_BB36_11:
	sltu	a3, a1, s10
	mv	s3, s0
	mv	s11, a1
	bnez	a3, .Lgcm_BB36_13
.Lgcm_BB36_12:                              # %then.1.i
	mv	s3, a2
	mv	s11, s10
.Lgcm_BB36_13:                              # %then.1.i
	xor	a2, s6, s9
	xor	a3, s5, s7
	or	a2, a2, a3
	beqz	a2, .Lgcm_BB36_18
# %bb.14:                               # %join.8.i85.preheader
	li	a2, 0
	li	a3, 0
	j	.Lgcm_BB36_16
.Lgcm_BB36_15:                              # %join.8.i85
                                        #   in Loop: Header=BB36_16 Depth=1
	sltu	a4, a3, s3
	beqz	a4, .Lgcm_BB36_18
.Lgcm_BB36_16:                              # %join.8.i85
                                        # =>This Inner Loop Header: Depth=1
	add	a4, a2, t0
	addi	a5, sp, 28
	add	s1, s4, a2
	add	a4, a4, a5
	lbu	a5, 0(s1)
	lbu	a4, 0(a4)
	addi	a2, a2, 1
	xor	a4, a4, a5
	seqz	a5, a2
	add	a3, a3, a5
	sb	a4, 0(s1)
	bne	a3, s3, .Lgcm_BB36_15
# %bb.17:                               #   in Loop: Header=BB36_16 Depth=1
	sltu	a4, a2, s11
	bnez	a4, .Lgcm_BB36_16
.Lgcm_BB36_18:                              # %join.3.i
	sw	s9, 8(sp)                       # 4-byte Folded Spill
	sltu	a3, a1, s11
	sub	a4, s0, s3
	sub	s5, a1, s11
	sub	s7, a4, a3
	seqz	a3, s7
	sltiu	a5, s5, 16
	and	a3, a3, a5
	bnez	a3, .Lgcm_BB36_20
.Lgcm_BB36_19:                              # %join.8.i
                                        # =>This Inner Loop Header: Depth=1
	mv	a2, s11
	add	a4, s11, t0
	addi	t3, sp, 28
	addi	s11, s11, 16
	add	a3, s4, a2
	andi	s2, a4, -16
	sltu	a0, s11, a2
	lbu	t1, 8(a3)
	lbu	a7, 9(a3)
	lbu	t0, 10(a3)
	lbu	a6, 11(a3)
	lbu	t6, 4(a3)
	lbu	t2, 5(a3)
	lbu	t5, 6(a3)
	lbu	t4, 7(a3)
	lbu	ra, 0(a3)
	lbu	s8, 1(a3)
	lbu	s6, 2(a3)
	lbu	s10, 3(a3)
	lw	a1, 20(sp)                      # 4-byte Folded Reload
	sltu	a4, a1, s11
	sub	s5, a1, s11
	add	t3, t3, s2
	add	s3, s3, a0
	sub	a4, s0, a4
	sltiu	s0, s5, 16
	lbu	s1, 0(t3)
	lbu	a5, 1(t3)
	lbu	a2, 2(t3)
	lbu	a0, 3(t3)
	sub	s7, a4, s3
	seqz	a1, s7
	and	s2, a1, s0
	xor	ra, s1, ra
	lbu	s1, 4(t3)
	lbu	a1, 5(t3)
	lbu	s0, 6(t3)
	lbu	s9, 7(t3)
	xor	a5, a5, s8
	xor	s8, a2, s6
	xor	s6, a0, s10
	xor	t6, s1, t6
	lbu	a0, 8(t3)
	lbu	a2, 9(t3)
	lbu	a4, 10(t3)
	lbu	s1, 11(t3)
	xor	s10, a1, t2
	xor	t5, s0, t5
	xor	t2, s9, t4
	xor	t1, a0, t1
	lbu	a1, 12(a3)
	lbu	s0, 13(a3)
	lbu	s9, 14(a3)
	lbu	t4, 15(a3)
	xor	a7, a2, a7
	xor	t0, a4, t0
	xor	a6, s1, a6
	lbu	a2, 12(t3)
	lbu	a4, 13(t3)
	lbu	s1, 14(t3)
	lbu	a0, 15(t3)
	xor	a1, a1, a2
	xor	a4, a4, s0
	lw	s0, 24(sp)                      # 4-byte Folded Reload
	xor	a2, s1, s9
	xor	a0, a0, t4
	sb	a1, 12(a3)
	sb	a4, 13(a3)
	sb	a2, 14(a3)
	sb	a0, 15(a3)
	sb	t1, 8(a3)
	sb	a7, 9(a3)
	sb	t0, 10(a3)
	lw	t0, 16(sp)                      # 4-byte Folded Reload
	sb	a6, 11(a3)
	sb	t6, 4(a3)
	sb	s10, 5(a3)
	sb	t5, 6(a3)
	sb	t2, 7(a3)
	sb	ra, 0(a3)
	sb	a5, 1(a3)
	sb	s8, 2(a3)
	sb	s6, 3(a3)
	beqz	s2, .Lgcm_BB36_19
.Lgcm_BB36_20:                              # %after.4.i
	beq	s3, s0, .Lgcm_BB36_22
# %bb.21:                               # %after.4.i
	sltu	a1, s3, s0
	lw	a6, 8(sp)                       # 4-byte Folded Reload
	lw	a7, 20(sp)                      # 4-byte Folded Reload
	bnez	a1, .Lgcm_BB36_23
	j	.Lgcm_BB36_28
.Lgcm_BB36_22:
	lw	a7, 20(sp)                      # 4-byte Folded Reload
	sltu	a1, s11, a7
	lw	a6, 8(sp)                       # 4-byte Folded Reload
	beqz	a1, .Lgcm_BB36_28
.Lgcm_BB36_23:                              # %then.9.i
	or	a0, s5, s7
	beqz	a0, .Lgcm_BB36_28
# %bb.24:                               # %join.8.i28.preheader
	li	a1, 0
	li	s0, 0
	add	a0, s11, t0
	addi	a5, sp, 28
	andi	a0, a0, -16
	add	a5, a5, a0
	add	a0, s4, s11
	j	.Lgcm_BB36_26
.Lgcm_BB36_25:                              # %join.8.i28
                                        #   in Loop: Header=BB36_26 Depth=1
	sltu	s1, s0, s7
	beqz	s1, .Lgcm_BB36_28
.Lgcm_BB36_26:                              # %join.8.i28
                                        # =>This Inner Loop Header: Depth=1
	add	a2, a5, a1
	add	a4, a0, a1
	lbu	a2, 0(a2)
	lbu	s1, 0(a4)
	addi	a1, a1, 1
	xor	a2, a2, s1
	seqz	a3, a1
	add	s0, s0, a3
	sb	a2, 0(a4)
	bne	s0, s7, .Lgcm_BB36_25
# %bb.27:                               #   in Loop: Header=BB36_26 Depth=1
	sltu	s1, a1, s5
	bnez	s1, .Lgcm_BB36_26
.Lgcm_BB36_28:                              # %"aes_ctr::add_blocks::add_blocks.exit"
	add	a0, a7, a6
	sltu	a1, a0, a7
	lw	a2, 12(sp)                      # 4-byte Folded Reload
	lw	a3, 24(sp)                      # 4-byte Folded Reload
	add	a2, a2, a3
	add	a1, a1, a2
	lw	ra, 332(sp)                     # 4-byte Folded Reload
	lw	s0, 328(sp)                     # 4-byte Folded Reload
	lw	s1, 324(sp)                     # 4-byte Folded Reload
	lw	s2, 320(sp)                     # 4-byte Folded Reload
	lw	s3, 316(sp)                     # 4-byte Folded Reload
	lw	s4, 312(sp)                     # 4-byte Folded Reload
	lw	s5, 308(sp)                     # 4-byte Folded Reload
	lw	s6, 304(sp)                     # 4-byte Folded Reload
	lw	s7, 300(sp)                     # 4-byte Folded Reload
	lw	s8, 296(sp)                     # 4-byte Folded Reload
	lw	s9, 292(sp)                     # 4-byte Folded Reload
	lw	s10, 288(sp)                    # 4-byte Folded Reload
	lw	s11, 284(sp)                    # 4-byte Folded Reload
	addi	sp, sp, 336
	ret
.Lgcm_func_end36:
	.size	gcm.aes_ctr.add_in_batches.add_next.2, .Lgcm_func_end36-gcm.aes_ctr.add_in_batches.add_next.2
                                        # -- End function
	.section	.text.gcm.aes_cipher.zeroize.stack.wipe_stack.2816,"ax",@progbits
	.p2align	1                               # -- Begin function aes_cipher::zeroize::stack::wipe_stack::<=2816>
	.type	gcm.aes_cipher.zeroize.stack.wipe_stack.2816,@function
gcm.aes_cipher.zeroize.stack.wipe_stack.2816: # @gcm.aes_cipher.zeroize.stack.wipe_stack.2816
# %bb.0:                                # %start
	addi	sp, sp, -2032
	sw	ra, 2028(sp)                    # 4-byte Folded Spill
	sw	s0, 2024(sp)                    # 4-byte Folded Spill
	addi	sp, sp, -816
	li	a2, 11
	slli	a2, a2, 8
	addi	a0, sp, 24
	addi	s0, sp, 24
	li	a1, 0
	call	memset
	sw	zero, 16(sp)
	sw	zero, 20(sp)
	#APP
	#NO_APP
	lw	a1, 20(sp)
	lw	a0, 16(sp)
	#APP
	#NO_APP
	slli	a2, a1, 24
	srli	a3, a0, 8
	srli	a1, a1, 8
	or	a2, a2, a3
	sltiu	a2, a2, 11
	seqz	a1, a1
	and	a1, a1, a2
	beqz	a1, .Lgcm_BB37_2
# %bb.1:                                # %then.1
	add	a0, a0, s0
	lbu	a0, 0(a0)
	#APP
	#NO_APP
	lw	zero, 20(sp)
	lw	zero, 16(sp)
	sw	zero, 20(sp)
	sw	a0, 16(sp)
	#APP
	#NO_APP
.Lgcm_BB37_2:                               # %common.ret
	addi	sp, sp, 816
	lw	ra, 2028(sp)                    # 4-byte Folded Reload
	lw	s0, 2024(sp)                    # 4-byte Folded Reload
	addi	sp, sp, 2032
	ret
.Lgcm_func_end37:
	.size	gcm.aes_cipher.zeroize.stack.wipe_stack.2816, .Lgcm_func_end37-gcm.aes_cipher.zeroize.stack.wipe_stack.2816
                                        # -- End function
	.section	.text.gcm.gcm_siv.course.seal_in,"ax",@progbits
	.p2align	1                               # -- Begin function gcm_siv::course::seal_in::<#a4ece9b7a9859b66>
	.type	gcm.gcm_siv.course.seal_in,@function
gcm.gcm_siv.course.seal_in: # @gcm.gcm_siv.course.seal_in
# %bb.0:                                # %start
	addi	sp, sp, -576
	sw	ra, 572(sp)                     # 4-byte Folded Spill
	sw	s0, 568(sp)                     # 4-byte Folded Spill
	sw	s1, 564(sp)                     # 4-byte Folded Spill
	sw	s2, 560(sp)                     # 4-byte Folded Spill
	sw	s3, 556(sp)                     # 4-byte Folded Spill
	sw	s4, 552(sp)                     # 4-byte Folded Spill
	sw	s5, 548(sp)                     # 4-byte Folded Spill
	sw	s6, 544(sp)                     # 4-byte Folded Spill
	sw	s7, 540(sp)                     # 4-byte Folded Spill
	sw	s8, 536(sp)                     # 4-byte Folded Spill
	sw	s9, 532(sp)                     # 4-byte Folded Spill
	sw	s10, 528(sp)                    # 4-byte Folded Spill
	sw	s11, 524(sp)                    # 4-byte Folded Spill
	mv	s3, t5
	mv	s4, t4
	mv	s5, t3
	mv	s6, a7
	mv	s7, a6
	mv	s8, a5
	mv	s1, a4
	mv	s9, a3
	mv	s10, a2
	mv	s0, a1
	mv	s2, a0
	sw	zero, 8(sp)
	sw	zero, 12(sp)
	sw	zero, 16(sp)
	sw	zero, 20(sp)
	addi	s11, sp, 28
	li	a2, 480
	mv	a0, s11
	li	a1, 0
	call	memset
	sw	zero, 24(sp)
	addi	a4, sp, 24
	addi	a5, sp, 508
	mv	a0, s0
	mv	a1, s10
	mv	a2, s9
	mv	a3, s1
	call	gcm.gcm_siv.keys.derive_and_prepare
	addi	a0, sp, 8
	addi	a1, sp, 24
	addi	a2, sp, 508
	mv	a3, s1
	mv	a4, s8
	mv	a5, s7
	mv	a6, s6
	mv	a7, s5
	mv	t3, s4
	mv	t4, s3
	call	gcm.gcm_siv.message.seal
	sw	zero, 24(sp)
	mv	a0, s11
	call	gcm.aes_cipher.zeroize.elements.zeroize_elements.1
	addi	a0, sp, 508
	call	gcm.aes_cipher.zeroize.elements.zeroize_elements.2
	call	gcm.aes_cipher.zeroize.stack.wipe_stack.2816
	addi	a1, sp, 8
	li	a2, 16
	mv	a0, s2
	call	memcpy
	lw	ra, 572(sp)                     # 4-byte Folded Reload
	lw	s0, 568(sp)                     # 4-byte Folded Reload
	lw	s1, 564(sp)                     # 4-byte Folded Reload
	lw	s2, 560(sp)                     # 4-byte Folded Reload
	lw	s3, 556(sp)                     # 4-byte Folded Reload
	lw	s4, 552(sp)                     # 4-byte Folded Reload
	lw	s5, 548(sp)                     # 4-byte Folded Reload
	lw	s6, 544(sp)                     # 4-byte Folded Reload
	lw	s7, 540(sp)                     # 4-byte Folded Reload
	lw	s8, 536(sp)                     # 4-byte Folded Reload
	lw	s9, 532(sp)                     # 4-byte Folded Reload
	lw	s10, 528(sp)                    # 4-byte Folded Reload
	lw	s11, 524(sp)                    # 4-byte Folded Reload
	addi	sp, sp, 576
	ret
.Lgcm_func_end38:
	.size	gcm.gcm_siv.course.seal_in, .Lgcm_func_end38-gcm.gcm_siv.course.seal_in
                                        # -- End function
	.section	.text.gcm.gcm_siv.message.seal,"ax",@progbits
	.p2align	1                               # -- Begin function gcm_siv::message::seal::<#bc93ff5f0cc4cd41>
	.type	gcm.gcm_siv.message.seal,@function
gcm.gcm_siv.message.seal: # @gcm.gcm_siv.message.seal
# %bb.0:                                # %start
	addi	sp, sp, -128
	sw	ra, 124(sp)                     # 4-byte Folded Spill
	sw	s0, 120(sp)                     # 4-byte Folded Spill
	sw	s1, 116(sp)                     # 4-byte Folded Spill
	sw	s2, 112(sp)                     # 4-byte Folded Spill
	sw	s3, 108(sp)                     # 4-byte Folded Spill
	sw	s4, 104(sp)                     # 4-byte Folded Spill
	sw	s5, 100(sp)                     # 4-byte Folded Spill
	sw	s6, 96(sp)                      # 4-byte Folded Spill
	sw	s7, 92(sp)                      # 4-byte Folded Spill
	sw	s8, 88(sp)                      # 4-byte Folded Spill
	sw	s9, 84(sp)                      # 4-byte Folded Spill
	sw	s10, 80(sp)                     # 4-byte Folded Spill
	mv	s8, t4
	mv	s3, t3
	mv	s7, a7
	mv	s4, a1
	mv	s2, a0
	mv	t4, sp
	mv	a0, a1
	mv	a1, a2
	mv	a2, a3
	mv	a3, a4
	mv	a4, a5
	mv	a5, a6
	mv	a6, a7
	mv	a7, t3
	mv	t3, s8
	call	gcm.gcm_siv.message.put_tag
	lbu	a2, 12(sp)
	lbu	a3, 13(sp)
	lbu	a6, 14(sp)
	lbu	a7, 15(sp)
	lbu	t0, 8(sp)
	lbu	t2, 9(sp)
	lbu	s1, 10(sp)
	lbu	a0, 11(sp)
	sltiu	a1, s3, 17
	seqz	a4, s8
	and	t1, a4, a1
	slli	a3, a3, 8
	or	t3, a3, a2
	lbu	a3, 4(sp)
	lbu	a4, 5(sp)
	lbu	a1, 6(sp)
	lbu	a5, 7(sp)
	slli	t2, t2, 8
	slli	s1, s1, 16
	slli	a0, a0, 24
	slli	a4, a4, 8
	slli	a1, a1, 16
	slli	a5, a5, 24
	or	a2, t2, t0
	or	a0, a0, s1
	or	a3, a3, a4
	or	a1, a1, a5
	lbu	a4, 1(sp)
	lbu	a5, 0(sp)
	lbu	s1, 2(sp)
	lbu	s0, 3(sp)
	slli	a4, a4, 8
	or	a4, a4, a5
	lw	a5, 0(s4)
	slli	s1, s1, 16
	slli	s0, s0, 24
	or	s0, s0, s1
	or	a0, a0, a2
	or	a1, a1, a3
	srli	s6, a5, 31
	slli	a5, a5, 1
	or	a4, a4, s0
	addi	s5, a5, 56
	sltu	a2, s5, a5
	add	s6, s6, a2
	addi	s4, s4, 4
	ori	s1, a7, -128
	sb	a6, 30(sp)
	sb	s1, 31(sp)
	sw	a4, 16(sp)
	sw	a1, 20(sp)
	sw	a0, 24(sp)
	sh	t3, 28(sp)
	sw	zero, 32(sp)
	sw	zero, 36(sp)
	beqz	t1, .Lgcm_BB39_4
# %bb.1:                                # %then.1.i.i.i
	lw	s0, 16(sp)
	addi	a0, sp, 68
	addi	a1, sp, 4
	li	a2, 11
	call	memcpy
	sw	s0, 64(sp)
	sb	s1, 79(sp)
	addi	a3, sp, 64
	li	a4, 1
	mv	a0, s4
	mv	a1, s5
	mv	a2, s6
	li	a5, 0
	call	gcm.aes_narrow.blocks.process_all_batches
	call	gcm.aes_cipher.zeroize.stack.wipe_stack.1024
	andi	a0, s3, 31
	beqz	a0, .Lgcm_BB39_5
# %bb.2:                                # %then.1.i.i.i
	li	a0, 16
	bne	s3, a0, .Lgcm_BB39_6
# %bb.3:                                # %after.4.i.thread.i.i.i.i
	lbu	t1, 12(s7)
	lbu	t0, 13(s7)
	lbu	a7, 14(s7)
	lbu	a6, 15(s7)
	lbu	t2, 8(s7)
	lbu	t3, 9(s7)
	lbu	t5, 10(s7)
	lbu	t4, 11(s7)
	lbu	t6, 4(s7)
	lbu	s3, 5(s7)
	lbu	s4, 6(s7)
	lbu	s5, 7(s7)
	lbu	a4, 0(s7)
	lbu	a5, 1(s7)
	lbu	s0, 2(s7)
	lbu	s1, 3(s7)
	lbu	a0, 64(sp)
	lbu	a1, 65(sp)
	lbu	a2, 66(sp)
	lbu	a3, 67(sp)
	xor	s6, a0, a4
	xor	s8, a1, a5
	xor	s9, a2, s0
	xor	s10, a3, s1
	lbu	a4, 68(sp)
	lbu	a5, 69(sp)
	lbu	s0, 70(sp)
	lbu	s1, 71(sp)
	xor	t6, a4, t6
	xor	s3, a5, s3
	xor	s4, s0, s4
	xor	s5, s1, s5
	lbu	a0, 72(sp)
	lbu	a1, 73(sp)
	lbu	a2, 74(sp)
	lbu	a3, 75(sp)
	xor	a0, a0, t2
	xor	a1, a1, t3
	xor	a2, a2, t5
	xor	a3, a3, t4
	lbu	a4, 76(sp)
	lbu	a5, 77(sp)
	lbu	s0, 78(sp)
	lbu	s1, 79(sp)
	xor	a4, a4, t1
	xor	a5, a5, t0
	xor	s0, s0, a7
	xor	s1, s1, a6
	sb	a4, 12(s7)
	sb	a5, 13(s7)
	sb	s0, 14(s7)
	sb	s1, 15(s7)
	sb	a0, 8(s7)
	sb	a1, 9(s7)
	sb	a2, 10(s7)
	sb	a3, 11(s7)
	sb	t6, 4(s7)
	sb	s3, 5(s7)
	sb	s4, 6(s7)
	sb	s5, 7(s7)
	sb	s6, 0(s7)
	sb	s8, 1(s7)
	sb	s9, 2(s7)
	sb	s10, 3(s7)
	j	.Lgcm_BB39_5
.Lgcm_BB39_4:                               # %else.2.i.i.i
	addi	a0, sp, 16
	sw	a0, 32(sp)
	sw	zero, 40(sp)
	sw	zero, 44(sp)
	sw	s7, 48(sp)
	sw	zero, 52(sp)
	sw	s3, 56(sp)
	sw	s8, 60(sp)
	addi	a3, sp, 32
	mv	a0, s4
	mv	a1, s5
	mv	a2, s6
	call	gcm.aes_narrow.borrowed_words.call_to_encrypt.2
	call	gcm.aes_cipher.zeroize.stack.wipe_stack.2032
.Lgcm_BB39_5:                               # %"gcm_siv::message::process_text::<#a556ffa628b2ee02>.exit"
	mv	a1, sp
	li	a2, 16
	mv	a0, s2
	call	memcpy
	lw	ra, 124(sp)                     # 4-byte Folded Reload
	lw	s0, 120(sp)                     # 4-byte Folded Reload
	lw	s1, 116(sp)                     # 4-byte Folded Reload
	lw	s2, 112(sp)                     # 4-byte Folded Reload
	lw	s3, 108(sp)                     # 4-byte Folded Reload
	lw	s4, 104(sp)                     # 4-byte Folded Reload
	lw	s5, 100(sp)                     # 4-byte Folded Reload
	lw	s6, 96(sp)                      # 4-byte Folded Reload
	lw	s7, 92(sp)                      # 4-byte Folded Reload
	lw	s8, 88(sp)                      # 4-byte Folded Reload
	lw	s9, 84(sp)                      # 4-byte Folded Reload
	lw	s10, 80(sp)                     # 4-byte Folded Reload
	addi	sp, sp, 128
	ret
.Lgcm_BB39_6:                               # %join.8.i10.i.i.i.i.preheader
	li	a0, 0
	li	a1, 0
	j	.Lgcm_BB39_8
.Lgcm_BB39_7:                               #   in Loop: Header=BB39_8 Depth=1
	sltu	a2, a0, s3
	beqz	a2, .Lgcm_BB39_5
.Lgcm_BB39_8:                               # %join.8.i10.i.i.i.i
                                        # =>This Inner Loop Header: Depth=1
	addi	a2, sp, 64
	add	a3, s7, a0
	add	a2, a2, a0
	lbu	a4, 0(a3)
	lbu	a2, 0(a2)
	addi	a0, a0, 1
	xor	a2, a2, a4
	seqz	a4, a0
	add	a1, a1, a4
	sb	a2, 0(a3)
	beq	a1, s8, .Lgcm_BB39_7
# %bb.9:                                # %join.8.i10.i.i.i.i
                                        #   in Loop: Header=BB39_8 Depth=1
	sltu	a2, a1, s8
	bnez	a2, .Lgcm_BB39_8
	j	.Lgcm_BB39_5
.Lgcm_func_end39:
	.size	gcm.gcm_siv.message.seal, .Lgcm_func_end39-gcm.gcm_siv.message.seal
                                        # -- End function
	.section	.text.gcm.gcm.hash_room.hash_piece,"ax",@progbits
	.p2align	1                               # -- Begin function gcm::hash_room::hash_piece::<#d9ba0fa9ccec4268>
	.type	gcm.gcm.hash_room.hash_piece,@function
gcm.gcm.hash_room.hash_piece: # @gcm.gcm.hash_room.hash_piece
# %bb.0:                                # %start
	addi	sp, sp, -96
	sw	ra, 92(sp)                      # 4-byte Folded Spill
	sw	s0, 88(sp)                      # 4-byte Folded Spill
	sw	s1, 84(sp)                      # 4-byte Folded Spill
	sw	s2, 80(sp)                      # 4-byte Folded Spill
	sw	s3, 76(sp)                      # 4-byte Folded Spill
	sw	s4, 72(sp)                      # 4-byte Folded Spill
	sw	s5, 68(sp)                      # 4-byte Folded Spill
	sw	s6, 64(sp)                      # 4-byte Folded Spill
	sw	s7, 60(sp)                      # 4-byte Folded Spill
	sw	s8, 56(sp)                      # 4-byte Folded Spill
	sw	s9, 52(sp)                      # 4-byte Folded Spill
	sw	s10, 48(sp)                     # 4-byte Folded Spill
	sw	s11, 44(sp)                     # 4-byte Folded Spill
	mv	s2, a2
	mv	s5, a1
	sw	a0, 4(sp)                       # 4-byte Folded Spill
	sltiu	a0, a3, 17
	neg	a1, a4
	xori	a0, a0, 1
	sub	ra, a1, a0
	li	a2, 16
	sub	a2, a2, a3
	beq	a7, ra, .Lgcm_BB40_5
# %bb.1:                                # %start
	sltu	a0, a7, ra
	bnez	a0, .Lgcm_BB40_6
.Lgcm_BB40_2:                               # %join.3
	lbu	a0, 0(s5)
	lbu	s0, 1(s5)
	lbu	t4, 2(s5)
	lbu	t0, 3(s5)
	lbu	t1, 4(s5)
	lbu	t2, 5(s5)
	lbu	t3, 6(s5)
	lbu	a7, 7(s5)
	lbu	s6, 8(s5)
	lbu	t5, 9(s5)
	lbu	t6, 10(s5)
	lbu	s3, 11(s5)
	slli	a0, a0, 24
	slli	s0, s0, 16
	or	s4, s0, a0
	lbu	s0, 12(s5)
	lbu	s8, 13(s5)
	lbu	s7, 14(s5)
	lbu	s10, 15(s5)
	add	a0, s2, a3
	slli	t4, t4, 8
	or	t0, t4, t0
	sltu	a3, a0, a5
	neg	t4, a3
	slli	t1, t1, 24
	slli	t2, t2, 16
	slli	t3, t3, 8
	slli	s6, s6, 24
	slli	t5, t5, 16
	slli	t6, t6, 8
	slli	s11, s0, 24
	slli	s8, s8, 16
	slli	s9, s7, 8
	or	t1, t1, t2
	or	t2, t5, s6
	or	s0, t6, s3
	or	a3, s11, s8
	or	s7, s4, t0
	or	a4, t1, t3
	or	s8, t2, s0
	or	a3, a3, s9
	or	s9, a4, a7
	or	s10, a3, s10
	sltu	a4, s9, a4
	sltu	s0, s10, a3
	beq	t4, ra, .Lgcm_BB40_9
# %bb.3:                                # %join.3
	sltu	a3, t4, ra
	add	s7, s7, a4
	add	s8, s8, s0
	add	s3, a5, a2
	sub	s6, a6, a2
	bnez	a3, .Lgcm_BB40_10
.Lgcm_BB40_4:                               # %apart.2.i.i.i.i.i.i36
	mv	a1, a5
	call	memmove
	j	.Lgcm_BB40_14
.Lgcm_BB40_5:
	sltu	a0, a6, a2
	beqz	a0, .Lgcm_BB40_2
.Lgcm_BB40_6:                               # %then.1
	add	a0, s2, a3
	sltu	a1, a0, a5
	neg	a1, a1
	beq	a1, a7, .Lgcm_BB40_17
# %bb.7:                                # %then.1
	sltu	a1, a1, a7
	bnez	a1, .Lgcm_BB40_18
.Lgcm_BB40_8:                               # %apart.2.i.i.i.i.i.i
	mv	a1, a5
	mv	a2, a6
	lw	ra, 92(sp)                      # 4-byte Folded Reload
	lw	s0, 88(sp)                      # 4-byte Folded Reload
	lw	s1, 84(sp)                      # 4-byte Folded Reload
	lw	s2, 80(sp)                      # 4-byte Folded Reload
	lw	s3, 76(sp)                      # 4-byte Folded Reload
	lw	s4, 72(sp)                      # 4-byte Folded Reload
	lw	s5, 68(sp)                      # 4-byte Folded Reload
	lw	s6, 64(sp)                      # 4-byte Folded Reload
	lw	s7, 60(sp)                      # 4-byte Folded Reload
	lw	s8, 56(sp)                      # 4-byte Folded Reload
	lw	s9, 52(sp)                      # 4-byte Folded Reload
	lw	s10, 48(sp)                     # 4-byte Folded Reload
	lw	s11, 44(sp)                     # 4-byte Folded Reload
	addi	sp, sp, 96
	tail	memmove
.Lgcm_BB40_9:
	sub	a3, a0, a5
	sltu	a3, a3, a2
	add	s7, s7, a4
	add	s8, s8, s0
	add	s3, a5, a2
	sub	s6, a6, a2
	beqz	a3, .Lgcm_BB40_4
.Lgcm_BB40_10:                              # %join.7.i.i.i.i.i.i38.preheader
	li	s0, 0
	li	a1, 0
	j	.Lgcm_BB40_12
.Lgcm_BB40_11:                              # %join.7.i.i.i.i.i.i38
                                        #   in Loop: Header=BB40_12 Depth=1
	sltu	a3, a1, ra
	beqz	a3, .Lgcm_BB40_14
.Lgcm_BB40_12:                              # %join.7.i.i.i.i.i.i38
                                        # =>This Inner Loop Header: Depth=1
	add	s1, a0, s0
	add	a3, a5, s0
	lbu	a3, 0(a3)
	addi	s0, s0, 1
	seqz	a4, s0
	add	a1, a1, a4
	sb	a3, 0(s1)
	bne	a1, ra, .Lgcm_BB40_11
# %bb.13:                               #   in Loop: Header=BB40_12 Depth=1
	sltu	a3, s0, a2
	bnez	a3, .Lgcm_BB40_12
.Lgcm_BB40_14:                              # %"core::slice::edits::slice+T::copy_from_slice::<i8,20'core::clone::U8Clone{}>.exit45"
	andi	s4, s6, -16
	andi	s6, s6, 15
	lbu	s0, 0(s2)
	lbu	t5, 1(s2)
	lbu	t1, 2(s2)
	lbu	t0, 3(s2)
	lbu	t2, 4(s2)
	lbu	t3, 5(s2)
	lbu	t4, 6(s2)
	lbu	a6, 7(s2)
	lbu	s1, 8(s2)
	lbu	a0, 9(s2)
	lbu	a1, 10(s2)
	lbu	t6, 11(s2)
	lbu	a4, 12(s2)
	lbu	a5, 13(s2)
	lbu	a3, 14(s2)
	lbu	a7, 15(s2)
	lw	a2, 4(sp)                       # 4-byte Folded Reload
	lw	a2, 0(a2)
	slli	s0, s0, 24
	slli	t5, t5, 16
	or	t5, t5, s0
	add	s0, s3, s4
	slli	t1, t1, 8
	slli	t2, t2, 24
	slli	t3, t3, 16
	slli	t4, t4, 8
	slli	s1, s1, 24
	slli	a0, a0, 16
	slli	a1, a1, 8
	slli	ra, a4, 24
	slli	a5, a5, 16
	slli	s11, a3, 8
	or	a3, t1, t0
	or	a4, t2, t3
	or	a0, a0, s1
	or	a1, a1, t6
	lbu	t3, 0(a2)
	lbu	t0, 1(a2)
	lbu	t1, 2(a2)
	lbu	t2, 3(a2)
	or	a5, ra, a5
	or	s1, t5, a3
	or	a3, a4, t4
	or	a4, a0, a1
	lbu	ra, 4(a2)
	lbu	t5, 5(a2)
	lbu	t6, 6(a2)
	lbu	t4, 7(a2)
	or	a1, a5, s11
	or	a5, a3, a6
	or	a0, a1, a7
	sltu	a6, a5, a3
	sltu	a7, a0, a1
	xor	a1, a0, s10
	xor	a3, a5, s9
	add	a6, a6, s1
	lbu	a0, 8(a2)
	lbu	a5, 9(a2)
	lbu	s11, 10(a2)
	lbu	s9, 11(a2)
	slli	t3, t3, 24
	slli	t0, t0, 16
	slli	t1, t1, 8
	add	s10, a4, a7
	or	a7, t0, t3
	or	t0, t1, t2
	lbu	a4, 12(a2)
	lbu	s1, 13(a2)
	lbu	t1, 14(a2)
	lbu	t2, 15(a2)
	slli	ra, ra, 24
	slli	t5, t5, 16
	slli	t6, t6, 8
	slli	a2, a0, 24
	slli	a5, a5, 16
	slli	s11, s11, 8
	slli	a4, a4, 24
	slli	s1, s1, 16
	slli	t1, t1, 8
	or	t3, ra, t5
	or	t5, a5, a2
	or	a5, s11, s9
	or	s1, s1, a4
	xor	a2, s10, s8
	xor	a4, a6, s7
	or	a6, a7, t0
	or	a0, t3, t6
	or	t0, t5, a5
	or	s1, s1, t1
	or	a7, a0, t4
	or	a5, s1, t2
	sltu	t3, a7, a0
	sltu	a0, a5, s1
	add	t3, t3, a6
	add	a6, a0, t0
	addi	a0, sp, 24
	call	gcm.gcm.bitwise.product_bitwise
	bgeu	s2, s0, .Lgcm_BB40_22
# %bb.15:                               # %"core::slice::edits::slice+T::copy_from_slice::<i8,20'core::clone::U8Clone{}>.exit45"
	li	a0, 1
	lw	s7, 24(sp)
	lw	s8, 28(sp)
	lw	s9, 32(sp)
	lw	s10, 36(sp)
	beqz	a0, .Lgcm_BB40_23
.Lgcm_BB40_16:                              # %apart.2.i.i.i.i.i.i215
	mv	a0, s2
	mv	a1, s0
	mv	a2, s6
	call	memmove
	j	.Lgcm_BB40_25
.Lgcm_BB40_17:
	sub	a1, a0, a5
	sltu	a1, a1, a6
	beqz	a1, .Lgcm_BB40_8
.Lgcm_BB40_18:                              # %join.7.i.i.i.i.i.i.preheader
	li	a1, 0
	li	s1, 0
	j	.Lgcm_BB40_20
.Lgcm_BB40_19:                              #   in Loop: Header=BB40_20 Depth=1
	sltu	a3, a1, a6
	beqz	a3, .Lgcm_BB40_26
.Lgcm_BB40_20:                              # %join.7.i.i.i.i.i.i
                                        # =>This Inner Loop Header: Depth=1
	add	a3, a0, a1
	add	a4, a5, a1
	lbu	a4, 0(a4)
	addi	a1, a1, 1
	seqz	a2, a1
	add	s1, s1, a2
	sb	a4, 0(a3)
	beq	s1, a7, .Lgcm_BB40_19
# %bb.21:                               # %join.7.i.i.i.i.i.i
                                        #   in Loop: Header=BB40_20 Depth=1
	sltu	a3, s1, a7
	bnez	a3, .Lgcm_BB40_20
	j	.Lgcm_BB40_26
.Lgcm_BB40_22:
	sub	a0, s2, s0
	sltu	a0, a0, s6
	xori	a0, a0, 1
	lw	s7, 24(sp)
	lw	s8, 28(sp)
	lw	s9, 32(sp)
	lw	s10, 36(sp)
	bnez	a0, .Lgcm_BB40_16
.Lgcm_BB40_23:                              # %join.7.i.i.i.i.i.i217.preheader
	li	a1, 0
.Lgcm_BB40_24:                              # %join.7.i.i.i.i.i.i217
                                        # =>This Inner Loop Header: Depth=1
	add	a2, s2, a0
	add	a3, s0, a0
	addi	a0, a0, 1
	lbu	a3, 0(a3)
	seqz	a4, a0
	add	a1, a1, a4
	sltu	a4, a0, s6
	seqz	a5, a1
	and	a4, a4, a5
	sb	a3, 0(a2)
	bnez	a4, .Lgcm_BB40_24
.Lgcm_BB40_25:                              # %"core::slice::edits::slice+T::copy_from_slice::<i8,20'core::clone::U8Clone{}>.exit224"
	lw	a0, 4(sp)                       # 4-byte Folded Reload
	lw	a0, 0(a0)
	lbu	t0, 0(a0)
	lbu	t1, 1(a0)
	lbu	t2, 2(a0)
	lbu	a7, 3(a0)
	lbu	t3, 4(a0)
	lbu	t5, 5(a0)
	lbu	t4, 6(a0)
	lbu	a6, 7(a0)
	lbu	a4, 8(a0)
	lbu	a1, 9(a0)
	lbu	a2, 10(a0)
	lbu	s2, 11(a0)
	lbu	a5, 12(a0)
	lbu	s0, 13(a0)
	lbu	s1, 14(a0)
	lbu	t6, 15(a0)
	slli	t0, t0, 24
	slli	t1, t1, 16
	slli	t2, t2, 8
	slli	t3, t3, 24
	slli	t5, t5, 16
	slli	t4, t4, 8
	slli	s6, a4, 24
	slli	a1, a1, 16
	slli	a2, a2, 8
	slli	a5, a5, 24
	slli	s0, s0, 16
	slli	s1, s1, 8
	or	a0, t1, t0
	or	a3, t2, a7
	or	a4, t3, t5
	or	a1, a1, s6
	or	a2, a2, s2
	or	a5, a5, s0
	or	a0, a0, a3
	or	a4, a4, t4
	or	a2, a2, a1
	or	a5, a5, s1
	or	a3, a4, a6
	or	a1, a5, t6
	sltu	a4, a3, a4
	sltu	a5, a1, a5
	add	a4, a4, a0
	add	a2, a2, a5
	addi	a0, sp, 8
	mv	a5, s7
	mv	a6, s8
	mv	a7, s9
	mv	t3, s10
	mv	t4, s3
	mv	t5, s4
	li	t6, 0
	call	gcm.gcm.single_blocks.hash_singly.1
	lbu	a6, 8(sp)
	lbu	a7, 9(sp)
	lbu	t0, 10(sp)
	lbu	t1, 11(sp)
	lbu	t2, 12(sp)
	lbu	t3, 13(sp)
	lbu	t4, 14(sp)
	lbu	t5, 15(sp)
	lbu	a0, 20(sp)
	lbu	a1, 21(sp)
	lbu	a2, 22(sp)
	lbu	a3, 23(sp)
	lbu	a4, 16(sp)
	lbu	a5, 17(sp)
	lbu	s1, 18(sp)
	lbu	s0, 19(sp)
	sb	a3, 0(s5)
	sb	a2, 1(s5)
	sb	a1, 2(s5)
	sb	a0, 3(s5)
	sb	s0, 4(s5)
	sb	s1, 5(s5)
	sb	a5, 6(s5)
	sb	a4, 7(s5)
	sb	t5, 8(s5)
	sb	t4, 9(s5)
	sb	t3, 10(s5)
	sb	t2, 11(s5)
	sb	t1, 12(s5)
	sb	t0, 13(s5)
	sb	a7, 14(s5)
	sb	a6, 15(s5)
.Lgcm_BB40_26:                              # %common.ret
	lw	ra, 92(sp)                      # 4-byte Folded Reload
	lw	s0, 88(sp)                      # 4-byte Folded Reload
	lw	s1, 84(sp)                      # 4-byte Folded Reload
	lw	s2, 80(sp)                      # 4-byte Folded Reload
	lw	s3, 76(sp)                      # 4-byte Folded Reload
	lw	s4, 72(sp)                      # 4-byte Folded Reload
	lw	s5, 68(sp)                      # 4-byte Folded Reload
	lw	s6, 64(sp)                      # 4-byte Folded Reload
	lw	s7, 60(sp)                      # 4-byte Folded Reload
	lw	s8, 56(sp)                      # 4-byte Folded Reload
	lw	s9, 52(sp)                      # 4-byte Folded Reload
	lw	s10, 48(sp)                     # 4-byte Folded Reload
	lw	s11, 44(sp)                     # 4-byte Folded Reload
	addi	sp, sp, 96
	ret
.Lgcm_func_end40:
	.size	gcm.gcm.hash_room.hash_piece, .Lgcm_func_end40-gcm.gcm.hash_room.hash_piece
                                        # -- End function
	.section	.text.gcm.gcm.mode.BorrowedGcm.enter_phase,"ax",@progbits
	.p2align	1                               # -- Begin function gcm::mode::BorrowedGcm::enter_phase::<#c01aad2b5fbc92b1>
	.type	gcm.gcm.mode.BorrowedGcm.enter_phase,@function
gcm.gcm.mode.BorrowedGcm.enter_phase: # @gcm.gcm.mode.BorrowedGcm.enter_phase
# %bb.0:                                # %start
	addi	sp, sp, -48
	sw	ra, 44(sp)                      # 4-byte Folded Spill
	sw	s0, 40(sp)                      # 4-byte Folded Spill
	sw	s1, 36(sp)                      # 4-byte Folded Spill
	sw	s2, 32(sp)                      # 4-byte Folded Spill
	sw	s3, 28(sp)                      # 4-byte Folded Spill
	sw	s4, 24(sp)                      # 4-byte Folded Spill
	sw	s5, 20(sp)                      # 4-byte Folded Spill
	mv	a6, a1
	lw	s0, 24(a1)
	lw	a5, 28(a1)
	seqz	s1, s0
	sub	a5, a5, s1
	addi	a1, s0, -1
	sltiu	a1, a1, 4
	seqz	a5, a5
	and	a1, a1, a5
	neg	a1, a1
	and	a1, a1, s0
	zext.b	s1, a1
	li	a5, 1
	zext.b	s2, a2
	beq	s1, a5, .Lgcm_BB41_2
# %bb.1:                                # %start
	li	a1, 0
	bne	s1, s2, .Lgcm_BB41_12
.Lgcm_BB41_2:                               # %join.3
	lw	a1, 12(a6)
	lw	a2, 8(a6)
	add	a5, a4, a1
	add	a1, a3, a2
	sltu	a3, a1, a3
	add	a2, a5, a3
	beq	a2, a4, .Lgcm_BB41_4
# %bb.3:                                # %join.3
	sltu	a3, a2, a4
.Lgcm_BB41_4:                               # %join.3
	neg	a3, a3
	or	a2, a2, a3
	li	a4, 15
	or	a3, a3, a1
	beq	a2, a4, .Lgcm_BB41_7
# %bb.5:                                # %join.3
	sltiu	a1, a2, 16
	li	a4, 1
	xori	a1, a1, 1
	beq	s1, a4, .Lgcm_BB41_8
.Lgcm_BB41_6:
	mv	a5, a1
	j	.Lgcm_BB41_12
.Lgcm_BB41_7:
	sltiu	a1, a3, -31
	li	a4, 1
	xori	a1, a1, 1
	bne	s1, a4, .Lgcm_BB41_6
.Lgcm_BB41_8:                               # %join.3
	li	a4, 15
	beq	a2, a4, .Lgcm_BB41_10
# %bb.9:                                # %join.3
	sltiu	a2, a2, 16
	mv	a5, a1
	bnez	a2, .Lgcm_BB41_11
	j	.Lgcm_BB41_12
.Lgcm_BB41_10:
	sltiu	a2, a3, -31
	mv	a5, a1
	beqz	a2, .Lgcm_BB41_12
.Lgcm_BB41_11:                              # %then.8
	lw	a1, 16(a0)
	mv	a0, sp
	mv	s0, a6
	mv	a2, a6
	call	gcm.gcm.mode.BorrowedGcm.hash_so_far
	li	a1, 0
	li	a5, 0
	lbu	a6, 0(sp)
	lbu	a7, 1(sp)
	lbu	t0, 2(sp)
	lbu	t1, 3(sp)
	lbu	t2, 4(sp)
	lbu	t3, 5(sp)
	lbu	t4, 6(sp)
	lbu	t5, 7(sp)
	lbu	t6, 8(sp)
	lbu	s3, 9(sp)
	lbu	s4, 10(sp)
	lbu	s5, 11(sp)
	lbu	a3, 12(sp)
	lbu	a4, 13(sp)
	lbu	s1, 14(sp)
	lbu	a0, 15(sp)
	addi	s2, s2, -3
	seqz	a2, s2
	addi	a2, a2, 2
	sw	a2, 24(s0)
	sw	zero, 28(s0)
	sb	a0, 48(s0)
	sb	s1, 49(s0)
	sb	a4, 50(s0)
	sb	a3, 51(s0)
	sb	s5, 52(s0)
	sb	s4, 53(s0)
	sb	s3, 54(s0)
	sb	t6, 55(s0)
	sb	t5, 56(s0)
	sb	t4, 57(s0)
	sb	t3, 58(s0)
	sb	t2, 59(s0)
	sb	t1, 60(s0)
	sb	t0, 61(s0)
	sb	a7, 62(s0)
	sb	a6, 63(s0)
.Lgcm_BB41_12:                              # %return.4
	mv	a0, a5
	lw	ra, 44(sp)                      # 4-byte Folded Reload
	lw	s0, 40(sp)                      # 4-byte Folded Reload
	lw	s1, 36(sp)                      # 4-byte Folded Reload
	lw	s2, 32(sp)                      # 4-byte Folded Reload
	lw	s3, 28(sp)                      # 4-byte Folded Reload
	lw	s4, 24(sp)                      # 4-byte Folded Reload
	lw	s5, 20(sp)                      # 4-byte Folded Reload
	addi	sp, sp, 48
	ret
.Lgcm_func_end41:
	.size	gcm.gcm.mode.BorrowedGcm.enter_phase, .Lgcm_func_end41-gcm.gcm.mode.BorrowedGcm.enter_phase
                                        # -- End function
	.section	.text.gcm.gcm.mode.BorrowedGcm.is_tag_so_far,"ax",@progbits
	.p2align	1                               # -- Begin function gcm::mode::BorrowedGcm::is_tag_so_far::<#c01aad2b5fbc92b1>
	.type	gcm.gcm.mode.BorrowedGcm.is_tag_so_far,@function
gcm.gcm.mode.BorrowedGcm.is_tag_so_far: # @gcm.gcm.mode.BorrowedGcm.is_tag_so_far
# %bb.0:                                # %start
	addi	sp, sp, -32
	sw	ra, 28(sp)                      # 4-byte Folded Spill
	sw	s0, 24(sp)                      # 4-byte Folded Spill
	mv	s0, a2
	addi	a2, sp, 8
	call	gcm.gcm.mode.BorrowedGcm.put_tag_so_far
	addi	a1, sp, 8
	mv	a0, s0
	call	gcm.aes_cipher.blocks.difference
	seqz	s0, a0
	addi	a0, sp, 8
	call	gcm.aes_cipher.zeroize.elements.zeroize_elements.3
	mv	a0, s0
	lw	ra, 28(sp)                      # 4-byte Folded Reload
	lw	s0, 24(sp)                      # 4-byte Folded Reload
	addi	sp, sp, 32
	ret
.Lgcm_func_end42:
	.size	gcm.gcm.mode.BorrowedGcm.is_tag_so_far, .Lgcm_func_end42-gcm.gcm.mode.BorrowedGcm.is_tag_so_far
                                        # -- End function
	.section	.text.gcm.gcm.mode.BorrowedGcm.is_short_tag_so_far,"ax",@progbits
	.p2align	1                               # -- Begin function gcm::mode::BorrowedGcm::is_short_tag_so_far::<#c01aad2b5fbc92b1>
	.type	gcm.gcm.mode.BorrowedGcm.is_short_tag_so_far,@function
gcm.gcm.mode.BorrowedGcm.is_short_tag_so_far: # @gcm.gcm.mode.BorrowedGcm.is_short_tag_so_far
# %bb.0:                                # %start
	addi	sp, sp, -64
	sw	ra, 60(sp)                      # 4-byte Folded Spill
	sw	s0, 56(sp)                      # 4-byte Folded Spill
	sw	s1, 52(sp)                      # 4-byte Folded Spill
	sw	s2, 48(sp)                      # 4-byte Folded Spill
	sw	s3, 44(sp)                      # 4-byte Folded Spill
	mv	s2, a3
	mv	s3, a2
	addi	a2, sp, 28
	call	gcm.gcm.mode.BorrowedGcm.put_tag_so_far
	lbu	a0, 40(sp)
	lbu	a1, 41(sp)
	lbu	a2, 42(sp)
	lbu	a3, 43(sp)
	lbu	a4, 36(sp)
	lbu	a5, 37(sp)
	lbu	s0, 38(sp)
	lbu	s1, 39(sp)
	slli	a1, a1, 8
	slli	a2, a2, 16
	slli	a3, a3, 24
	or	a6, a1, a0
	or	a7, a3, a2
	lbu	a1, 32(sp)
	lbu	a3, 33(sp)
	lbu	a0, 34(sp)
	lbu	a2, 35(sp)
	slli	a5, a5, 8
	slli	s0, s0, 16
	slli	s1, s1, 24
	slli	a3, a3, 8
	slli	a0, a0, 16
	slli	a2, a2, 24
	or	a4, a4, a5
	or	s0, s0, s1
	or	a1, a1, a3
	or	a0, a0, a2
	lbu	a2, 29(sp)
	lbu	a3, 28(sp)
	lbu	a5, 30(sp)
	lbu	s1, 31(sp)
	slli	a2, a2, 8
	or	a2, a2, a3
	slli	a5, a5, 16
	slli	s1, s1, 24
	or	a5, a5, s1
	or	a3, a7, a6
	or	a4, a4, s0
	or	a0, a0, a1
	or	a2, a2, a5
	sw	a2, 12(sp)
	sw	a0, 16(sp)
	sw	a4, 20(sp)
	sw	a3, 24(sp)
	addi	a0, sp, 12
	mv	a1, s3
	mv	a2, s2
	call	memcpy
	addi	a0, sp, 12
	addi	a1, sp, 28
	call	gcm.aes_cipher.blocks.difference
	seqz	s0, a0
	addi	a0, sp, 28
	call	gcm.aes_cipher.zeroize.elements.zeroize_elements.3
	addi	a0, sp, 12
	call	gcm.aes_cipher.zeroize.elements.zeroize_elements.3
	mv	a0, s0
	lw	ra, 60(sp)                      # 4-byte Folded Reload
	lw	s0, 56(sp)                      # 4-byte Folded Reload
	lw	s1, 52(sp)                      # 4-byte Folded Reload
	lw	s2, 48(sp)                      # 4-byte Folded Reload
	lw	s3, 44(sp)                      # 4-byte Folded Reload
	addi	sp, sp, 64
	ret
.Lgcm_func_end43:
	.size	gcm.gcm.mode.BorrowedGcm.is_short_tag_so_far, .Lgcm_func_end43-gcm.gcm.mode.BorrowedGcm.is_short_tag_so_far
                                        # -- End function
	.section	.text.gcm.fotsgure_gcm_version,"ax",@progbits
	export_gcm	fotsgure_gcm_version
	.p2align	1
	.type	gcm.fotsgure_gcm_version,@function
gcm.fotsgure_gcm_version:                   # @gcm.fotsgure_gcm_version
# %bb.0:
	li	a0, 400
	li	a1, 0
	li	a2, 0
	li	a3, 0
	li	a4, 0
	li	a5, 0
	li	a6, 0
	li	a7, 0
	li	t0, 0
	li	t1, 0
	li	t2, 0
	li	t3, 0
	li	t4, 0
	li	t5, 0
	li	t6, 0
	ret
.Lgcm_func_end44:
	.size	gcm.fotsgure_gcm_version, .Lgcm_func_end44-gcm.fotsgure_gcm_version
                                        # -- End function
	.section	.text.gcm.fotsgure_gcm_set_key,"ax",@progbits
	export_gcm	fotsgure_gcm_set_key
	.p2align	1
	.type	gcm.fotsgure_gcm_set_key,@function
gcm.fotsgure_gcm_set_key:                   # @gcm.fotsgure_gcm_set_key
# %bb.0:
	addi	sp, sp, -32
	sw	ra, 28(sp)                      # 4-byte Folded Spill
	sw	s0, 24(sp)                      # 4-byte Folded Spill
	sw	s1, 20(sp)                      # 4-byte Folded Spill
	sw	s2, 16(sp)                      # 4-byte Folded Spill
	sw	s3, 12(sp)                      # 4-byte Folded Spill
	sw	s4, 8(sp)                       # 4-byte Folded Spill
	sw	s5, 4(sp)                       # 4-byte Folded Spill
	mv	s0, a2
	li	a2, 32
	beq	s0, a2, .Lgcm_BB45_3
# %bb.1:
	andi	a2, s0, -9
	li	a3, 16
	beq	a2, a3, .Lgcm_BB45_3
# %bb.2:                                # %then.1.i.i
	li	a2, 500
	li	a1, 0
	call	memset
	li	a0, 1
	j	.Lgcm_BB45_4
.Lgcm_BB45_3:                               # %join.3.i.i
	seqz	a2, a1
	slli	a2, a2, 12
	add	s2, a1, a2
	addi	s1, a0, 4
	li	a2, 480
	mv	s5, a0
	mv	a0, s1
	li	a1, 0
	call	memset
	srli	s4, s0, 31
	slli	a0, s0, 1
	addi	s3, a0, 56
	sltu	a0, s3, a0
	add	s4, s4, a0
	mv	a0, s1
	mv	a1, s2
	mv	a2, s0
	li	a3, 0
	call	gcm.aes_narrow.word_room.expand_words
	call	gcm.aes_cipher.zeroize.stack.wipe_stack.768
	sw	s0, 0(s5)
	addi	a3, s5, 484
	mv	a0, s1
	mv	a1, s3
	mv	a2, s4
	call	gcm.gcm.mode.put_subkey
	call	gcm.aes_cipher.zeroize.stack.wipe_stack.512
	li	a0, 0
.Lgcm_BB45_4:                               # %wide_fotsgure_gcm_set_key.exit
	lw	ra, 28(sp)                      # 4-byte Folded Reload
	lw	s0, 24(sp)                      # 4-byte Folded Reload
	lw	s1, 20(sp)                      # 4-byte Folded Reload
	lw	s2, 16(sp)                      # 4-byte Folded Reload
	lw	s3, 12(sp)                      # 4-byte Folded Reload
	lw	s4, 8(sp)                       # 4-byte Folded Reload
	lw	s5, 4(sp)                       # 4-byte Folded Reload
	addi	sp, sp, 32
	li	a1, 0
	li	a2, 0
	li	a3, 0
	li	a4, 0
	li	a5, 0
	li	a6, 0
	li	a7, 0
	li	t0, 0
	li	t1, 0
	li	t2, 0
	li	t3, 0
	li	t4, 0
	li	t5, 0
	li	t6, 0
	ret
.Lgcm_func_end45:
	.size	gcm.fotsgure_gcm_set_key, .Lgcm_func_end45-gcm.fotsgure_gcm_set_key
                                        # -- End function
	.section	.text.gcm.fotsgure_gcm_set_key_of,"ax",@progbits
	export_gcm	fotsgure_gcm_set_key_of
	.p2align	1
	.type	gcm.fotsgure_gcm_set_key_of,@function
gcm.fotsgure_gcm_set_key_of:                # @gcm.fotsgure_gcm_set_key_of
# %bb.0:
	addi	sp, sp, -16
	sw	ra, 12(sp)                      # 4-byte Folded Spill
	sw	s0, 8(sp)                       # 4-byte Folded Spill
	sw	s1, 4(sp)                       # 4-byte Folded Spill
	sw	s2, 0(sp)                       # 4-byte Folded Spill
	lw	s1, 0(a1)
	li	a2, 32
	beq	s1, a2, .Lgcm_BB46_3
# %bb.1:
	andi	a2, s1, -9
	li	a3, 16
	beq	a2, a3, .Lgcm_BB46_3
# %bb.2:                                # %then.1.i.i
	addi	s0, a0, 4
	addi	s1, a0, 484
	li	a2, 500
	li	a1, 0
	call	memset
	mv	a0, s0
	call	gcm.aes_cipher.zeroize.elements.zeroize_elements.1
	mv	a0, s1
	call	gcm.aes_cipher.zeroize.elements.zeroize_elements.2
	li	a0, 2
	lw	ra, 12(sp)                      # 4-byte Folded Reload
	lw	s0, 8(sp)                       # 4-byte Folded Reload
	lw	s1, 4(sp)                       # 4-byte Folded Reload
	lw	s2, 0(sp)                       # 4-byte Folded Reload
	addi	sp, sp, 16
	li	a1, 0
	li	a2, 0
	li	a3, 0
	li	a4, 0
	li	a5, 0
	li	a6, 0
	li	a7, 0
	li	t0, 0
	li	t1, 0
	li	t2, 0
	li	t3, 0
	li	t4, 0
	li	t5, 0
	li	t6, 0
	ret
.Lgcm_BB46_3:                               # %join.3.i.i
	sw	s1, 0(a0)
	addi	a1, a1, 4
	addi	s0, a0, 4
	li	a2, 480
	mv	s2, a0
	mv	a0, s0
	call	memmove
	srli	a2, s1, 31
	slli	s1, s1, 1
	addi	a1, s1, 56
	sltu	a0, a1, s1
	add	a2, a2, a0
	addi	a3, s2, 484
	mv	a0, s0
	call	gcm.gcm.mode.put_subkey
	call	gcm.aes_cipher.zeroize.stack.wipe_stack.512
	li	a0, 0
	lw	ra, 12(sp)                      # 4-byte Folded Reload
	lw	s0, 8(sp)                       # 4-byte Folded Reload
	lw	s1, 4(sp)                       # 4-byte Folded Reload
	lw	s2, 0(sp)                       # 4-byte Folded Reload
	addi	sp, sp, 16
	li	a1, 0
	li	a2, 0
	li	a3, 0
	li	a4, 0
	li	a5, 0
	li	a6, 0
	li	a7, 0
	li	t0, 0
	li	t1, 0
	li	t2, 0
	li	t3, 0
	li	t4, 0
	li	t5, 0
	li	t6, 0
	ret
.Lgcm_func_end46:
	.size	gcm.fotsgure_gcm_set_key_of, .Lgcm_func_end46-gcm.fotsgure_gcm_set_key_of
                                        # -- End function
	.section	.text.gcm.fotsgure_gcm_key_length,"ax",@progbits
	export_gcm	fotsgure_gcm_key_length
	.p2align	1
	.type	gcm.fotsgure_gcm_key_length,@function
gcm.fotsgure_gcm_key_length:                # @gcm.fotsgure_gcm_key_length
# %bb.0:
	lw	a0, 0(a0)
	andi	a1, a0, -9
	addi	a2, a0, -32
	addi	a1, a1, -16
	seqz	a1, a1
	seqz	a2, a2
	or	a1, a1, a2
	neg	a1, a1
	and	a0, a0, a1
	li	a1, 0
	li	a2, 0
	li	a3, 0
	li	a4, 0
	li	a5, 0
	li	a6, 0
	li	a7, 0
	li	t0, 0
	li	t1, 0
	li	t2, 0
	li	t3, 0
	li	t4, 0
	li	t5, 0
	li	t6, 0
	ret
.Lgcm_func_end47:
	.size	gcm.fotsgure_gcm_key_length, .Lgcm_func_end47-gcm.fotsgure_gcm_key_length
                                        # -- End function
	.section	.text.gcm.fotsgure_gcm_wipe,"ax",@progbits
	export_gcm	fotsgure_gcm_wipe
	.p2align	1
	.type	gcm.fotsgure_gcm_wipe,@function
gcm.fotsgure_gcm_wipe:                      # @gcm.fotsgure_gcm_wipe
# %bb.0:
	addi	sp, sp, -16
	sw	ra, 12(sp)                      # 4-byte Folded Spill
	sw	s0, 8(sp)                       # 4-byte Folded Spill
	sw	s1, 4(sp)                       # 4-byte Folded Spill
	addi	s0, a0, 4
	addi	s1, a0, 484
	li	a2, 500
	li	a1, 0
	call	memset
	mv	a0, s0
	call	gcm.aes_cipher.zeroize.elements.zeroize_elements.1
	mv	a0, s1
	lw	ra, 12(sp)                      # 4-byte Folded Reload
	lw	s0, 8(sp)                       # 4-byte Folded Reload
	lw	s1, 4(sp)                       # 4-byte Folded Reload
	addi	sp, sp, 16
	tail	gcm.aes_cipher.zeroize.elements.zeroize_elements.2
.Lgcm_func_end48:
	.size	gcm.fotsgure_gcm_wipe, .Lgcm_func_end48-gcm.fotsgure_gcm_wipe
                                        # -- End function
	.section	.text.gcm.fotsgure_gcm_seal,"ax",@progbits
	export_gcm	fotsgure_gcm_seal
	.p2align	1
	.type	gcm.fotsgure_gcm_seal,@function
gcm.fotsgure_gcm_seal:                      # @gcm.fotsgure_gcm_seal
# %bb.0:
	mv	t5, a7
	mv	t3, a6
	mv	a6, a4
	seqz	a7, a1
	seqz	t0, a3
	seqz	a4, a5
	slli	a7, a7, 12
	slli	t0, t0, 12
	slli	t1, a4, 12
	add	a1, a1, a7
	add	a4, a3, t0
	add	a7, a5, t1
	li	a3, 0
	mv	a5, a6
	li	a6, 0
	li	t4, 0
	tail	gcm.gcm_c.whole.fotsgure_gcm_seal
.Lgcm_func_end49:
	.size	gcm.fotsgure_gcm_seal, .Lgcm_func_end49-gcm.fotsgure_gcm_seal
                                        # -- End function
	.section	.text.gcm.fotsgure_gcm_seal_to,"ax",@progbits
	export_gcm	fotsgure_gcm_seal_to
	.p2align	1
	.type	gcm.fotsgure_gcm_seal_to,@function
gcm.fotsgure_gcm_seal_to:                   # @gcm.fotsgure_gcm_seal_to
# %bb.0:
	addi	sp, sp, -48
	sw	ra, 44(sp)                      # 4-byte Folded Spill
	sw	s0, 40(sp)                      # 4-byte Folded Spill
	sw	s1, 36(sp)                      # 4-byte Folded Spill
	sw	s2, 32(sp)                      # 4-byte Folded Spill
	sw	s3, 28(sp)                      # 4-byte Folded Spill
	sw	s4, 24(sp)                      # 4-byte Folded Spill
	sw	s5, 20(sp)                      # 4-byte Folded Spill
	sw	s6, 16(sp)                      # 4-byte Folded Spill
	sw	s7, 12(sp)                      # 4-byte Folded Spill
	lw	s1, 48(sp)
	bne	a6, s1, .Lgcm_BB50_5
# %bb.1:                                # %join.3.i.i
	beqz	a2, .Lgcm_BB50_6
# %bb.2:                                # %after.11.i.i.i
	lw	s1, 0(a0)
	addi	s1, s1, -16
	li	s0, 16
	li	t0, 2
	bltu	s0, s1, .Lgcm_BB50_7
# %bb.3:                                # %after.11.i.i.i
	lui	s0, 16
	addi	s0, s0, 257
	srl	s1, s0, s1
	andi	s1, s1, 1
	beqz	s1, .Lgcm_BB50_7
# %bb.4:                                # %join.6.i.i
	lw	s2, 52(sp)
	seqz	s1, a1
	slli	s1, s1, 12
	add	s4, a1, s1
	seqz	a1, a3
	slli	a1, a1, 12
	add	s3, a3, a1
	seqz	a1, a5
	slli	a1, a1, 12
	add	a5, a5, a1
	seqz	a1, a7
	slli	a1, a1, 12
	add	s0, a7, a1
	mv	s1, a0
	mv	a0, a5
	mv	a1, a6
	mv	s5, a2
	li	a2, 0
	mv	a3, s0
	mv	s6, a6
	mv	s7, a4
	call	gcm.gcm_c.whole_to.copy
	mv	a0, s1
	mv	a1, s4
	mv	a2, s5
	li	a3, 0
	mv	a4, s3
	mv	a5, s7
	li	a6, 0
	mv	a7, s0
	mv	t3, s6
	li	t4, 0
	mv	t5, s2
	lw	ra, 44(sp)                      # 4-byte Folded Reload
	lw	s0, 40(sp)                      # 4-byte Folded Reload
	lw	s1, 36(sp)                      # 4-byte Folded Reload
	lw	s2, 32(sp)                      # 4-byte Folded Reload
	lw	s3, 28(sp)                      # 4-byte Folded Reload
	lw	s4, 24(sp)                      # 4-byte Folded Reload
	lw	s5, 20(sp)                      # 4-byte Folded Reload
	lw	s6, 16(sp)                      # 4-byte Folded Reload
	lw	s7, 12(sp)                      # 4-byte Folded Reload
	addi	sp, sp, 48
	tail	gcm.gcm_c.whole.fotsgure_gcm_seal
.Lgcm_BB50_5:
	li	t0, 10
	j	.Lgcm_BB50_7
.Lgcm_BB50_6:
	li	t0, 3
.Lgcm_BB50_7:                               # %wide_fotsgure_gcm_seal_to.exit
	mv	a0, t0
	lw	ra, 44(sp)                      # 4-byte Folded Reload
	lw	s0, 40(sp)                      # 4-byte Folded Reload
	lw	s1, 36(sp)                      # 4-byte Folded Reload
	lw	s2, 32(sp)                      # 4-byte Folded Reload
	lw	s3, 28(sp)                      # 4-byte Folded Reload
	lw	s4, 24(sp)                      # 4-byte Folded Reload
	lw	s5, 20(sp)                      # 4-byte Folded Reload
	lw	s6, 16(sp)                      # 4-byte Folded Reload
	lw	s7, 12(sp)                      # 4-byte Folded Reload
	addi	sp, sp, 48
	li	a1, 0
	li	a2, 0
	li	a3, 0
	li	a4, 0
	li	a5, 0
	li	a6, 0
	li	a7, 0
	li	t0, 0
	li	t1, 0
	li	t2, 0
	li	t3, 0
	li	t4, 0
	li	t5, 0
	li	t6, 0
	ret
.Lgcm_func_end50:
	.size	gcm.fotsgure_gcm_seal_to, .Lgcm_func_end50-gcm.fotsgure_gcm_seal_to
                                        # -- End function
	.section	.text.gcm.fotsgure_gcm_seal_next,"ax",@progbits
	export_gcm	fotsgure_gcm_seal_next
	.p2align	1
	.type	gcm.fotsgure_gcm_seal_next,@function
gcm.fotsgure_gcm_seal_next:                 # @gcm.fotsgure_gcm_seal_next
# %bb.0:
	addi	sp, sp, -32
	sw	ra, 28(sp)                      # 4-byte Folded Spill
	sw	s0, 24(sp)                      # 4-byte Folded Spill
	sw	s1, 20(sp)                      # 4-byte Folded Spill
	sw	s2, 16(sp)                      # 4-byte Folded Spill
	sw	s3, 12(sp)                      # 4-byte Folded Spill
	sw	s4, 8(sp)                       # 4-byte Folded Spill
	sw	s5, 4(sp)                       # 4-byte Folded Spill
	mv	t5, a7
	mv	t3, a6
	mv	a6, a4
	lbu	a7, 9(a1)
	lbu	s1, 10(a1)
	lbu	s0, 11(a1)
	lbu	a4, 8(a1)
	slli	a7, a7, 8
	slli	s1, s1, 16
	slli	s0, s0, 24
	or	a7, a7, a4
	or	t0, s0, s1
	lbu	s1, 5(a1)
	lbu	t1, 4(a1)
	lbu	s0, 6(a1)
	lbu	a4, 7(a1)
	slli	s1, s1, 8
	or	s1, s1, t1
	slli	s0, s0, 16
	slli	a4, a4, 24
	or	a4, a4, s0
	or	s0, t0, a7
	or	a4, a4, s1
	and	s0, s0, a4
	li	a7, -1
	bne	s0, a7, .Lgcm_BB51_3
# %bb.1:
	lbu	s1, 1(a1)
	lbu	t0, 0(a1)
	lbu	a4, 2(a1)
	lbu	s0, 3(a1)
	slli	s1, s1, 8
	or	s1, s1, t0
	slli	a4, a4, 16
	slli	s0, s0, 24
	or	a4, a4, s0
	or	a4, a4, s1
	bne	a4, a7, .Lgcm_BB51_3
# %bb.2:
	li	a0, 7
	j	.Lgcm_BB51_10
.Lgcm_BB51_3:                               # %join.3.i.i
	mv	s2, a2
	seqz	a2, a5
	slli	a2, a2, 12
	add	a7, a5, a2
	seqz	a2, a3
	slli	a2, a2, 12
	add	a4, a3, a2
	li	a2, 12
	mv	s1, a1
	li	a3, 0
	mv	a5, a6
	li	a6, 0
	li	t4, 0
	call	gcm.gcm_c.whole.fotsgure_gcm_seal
	bnez	a0, .Lgcm_BB51_10
# %bb.4:                                # %then.4.i.i
	mv	a0, s1
	lbu	a7, 0(s1)
	lbu	a6, 1(s1)
	lbu	t0, 2(s1)
	lbu	a1, 3(s1)
	lbu	a2, 8(s1)
	lbu	a5, 9(s1)
	lbu	s0, 10(s1)
	lbu	a3, 11(s1)
	slli	a4, t0, 16
	slli	s1, a1, 24
	slli	a5, a5, 8
	slli	s0, s0, 16
	slli	a3, a3, 24
	or	t1, s1, a4
	or	t2, a5, a2
	or	t4, a3, s0
	lbu	a2, 5(a0)
	lbu	s1, 4(a0)
	lbu	s0, 6(a0)
	lbu	a4, 7(a0)
	slli	a2, a2, 8
	or	a3, a2, s1
	lui	a2, 16
	slli	s0, s0, 16
	slli	a4, a4, 24
	or	s0, s0, a4
	li	t3, -1
	addi	a2, a2, -256
	slli	a6, a6, 8
	or	a4, a6, a7
	slli	a7, a7, 24
	slli	t0, t0, 8
	or	a5, t0, a1
	or	t5, t1, a4
	or	s5, t4, t2
	or	a3, a3, s0
	or	a5, a7, a5
	and	a4, t5, a2
	and	a1, a3, s5
	srli	a7, a3, 24
	srli	t1, a3, 8
	srli	a6, s5, 24
	slli	a4, a4, 8
	or	t2, a5, a4
	srli	t0, s5, 8
	beq	a1, t3, .Lgcm_BB51_6
# %bb.5:                                # %"gcm::counter::nonce_after.exit.thread.i.i.i"
	and	t3, t1, a2
	and	a4, a3, a2
	slli	a5, a3, 24
	and	t4, t0, a2
	and	t6, s5, a2
	slli	a4, a4, 8
	or	a4, a4, a5
	slli	a5, s5, 24
	or	s0, t3, a7
	or	a1, t4, a6
	slli	t6, t6, 8
	or	a5, a5, t6
	or	t3, a4, s0
	or	a1, a1, a5
	addi	a1, a1, 1
	seqz	a5, a1
	srli	s0, a1, 8
	srli	t4, a1, 24
	add	a5, a5, t3
	slli	a4, a1, 24
	and	a1, a1, a2
	and	s0, s0, a2
	slli	a1, a1, 8
	or	t3, s0, t4
	srli	s0, a5, 8
	or	a1, a1, a4
	srli	a4, a5, 24
	and	s0, s0, a2
	or	a4, a4, s0
	and	a2, a2, a5
	slli	a5, a5, 24
	slli	a2, a2, 8
	or	a2, a2, a5
	or	a5, a2, a4
	or	a2, a1, t3
	mv	s0, s2
	j	.Lgcm_BB51_8
.Lgcm_BB51_6:                               # %"gcm::counter::nonce_after.exit.i.i.i"
	mv	s0, s2
	beq	t5, t3, .Lgcm_BB51_9
# %bb.7:
	li	a5, 0
	li	a2, 0
	addi	t2, t2, 1
.Lgcm_BB51_8:                               # %arm.1.i.i.i
	srli	t3, t2, 24
	srli	t6, t2, 8
	srli	s2, t2, 16
	srli	t4, a5, 24
	srli	s4, a5, 16
	srli	a1, a5, 8
	srli	s3, a2, 24
	srli	a4, a2, 16
	sb	t3, 0(a0)
	sb	s2, 1(a0)
	sb	t6, 2(a0)
	sb	t2, 3(a0)
	srli	s1, a2, 8
	sb	a5, 4(a0)
	sb	a1, 5(a0)
	sb	s4, 6(a0)
	sb	t4, 7(a0)
	sb	a2, 8(a0)
	sb	s1, 9(a0)
	sb	a4, 10(a0)
	sb	s3, 11(a0)
.Lgcm_BB51_9:                               # %"gcm::counter::Counter::take.exit.i.i"
	li	a0, 0
	srli	a1, t5, 24
	srli	a2, t5, 16
	srli	a4, t5, 8
	srli	a5, a3, 16
	sb	t5, 0(s0)
	sb	a4, 1(s0)
	sb	a2, 2(s0)
	sb	a1, 3(s0)
	srli	a1, s5, 16
	sb	a3, 4(s0)
	sb	t1, 5(s0)
	sb	a5, 6(s0)
	sb	a7, 7(s0)
	sb	s5, 8(s0)
	sb	t0, 9(s0)
	sb	a1, 10(s0)
	sb	a6, 11(s0)
.Lgcm_BB51_10:                              # %wide_fotsgure_gcm_seal_next.exit
	lw	ra, 28(sp)                      # 4-byte Folded Reload
	lw	s0, 24(sp)                      # 4-byte Folded Reload
	lw	s1, 20(sp)                      # 4-byte Folded Reload
	lw	s2, 16(sp)                      # 4-byte Folded Reload
	lw	s3, 12(sp)                      # 4-byte Folded Reload
	lw	s4, 8(sp)                       # 4-byte Folded Reload
	lw	s5, 4(sp)                       # 4-byte Folded Reload
	addi	sp, sp, 32
	li	a1, 0
	li	a2, 0
	li	a3, 0
	li	a4, 0
	li	a5, 0
	li	a6, 0
	li	a7, 0
	li	t0, 0
	li	t1, 0
	li	t2, 0
	li	t3, 0
	li	t4, 0
	li	t5, 0
	li	t6, 0
	ret
.Lgcm_func_end51:
	.size	gcm.fotsgure_gcm_seal_next, .Lgcm_func_end51-gcm.fotsgure_gcm_seal_next
                                        # -- End function
	.section	.text.gcm.fotsgure_gcm_open,"ax",@progbits
	export_gcm	fotsgure_gcm_open
	.p2align	1
	.type	gcm.fotsgure_gcm_open,@function
gcm.fotsgure_gcm_open:                      # @gcm.fotsgure_gcm_open
# %bb.0:
	addi	sp, sp, -80
	sw	ra, 76(sp)                      # 4-byte Folded Spill
	sw	s0, 72(sp)                      # 4-byte Folded Spill
	sw	s1, 68(sp)                      # 4-byte Folded Spill
	sw	s2, 64(sp)                      # 4-byte Folded Spill
	sw	s3, 60(sp)                      # 4-byte Folded Spill
	mv	t1, a5
	lw	a5, 80(sp)
	li	s0, 16
	bne	a5, s0, .Lgcm_BB52_6
# %bb.1:                                # %join.3.i.i
	beqz	a2, .Lgcm_BB52_7
# %bb.2:                                # %after.11.i.i.i
	mv	s2, a6
	mv	a5, a4
	lw	t0, 0(a0)
	addi	a4, t0, -16
	li	a6, 16
	li	s0, 2
	bltu	a6, a4, .Lgcm_BB52_10
# %bb.3:                                # %after.11.i.i.i
	lui	s1, 16
	addi	s1, s1, 257
	srl	a4, s1, a4
	andi	a4, a4, 1
	beqz	a4, .Lgcm_BB52_10
# %bb.4:                                # %join.6.i.i
	seqz	a6, a1
	seqz	t3, a3
	seqz	s1, t1
	seqz	a4, a7
	addi	t2, a0, 4
	srli	t4, t0, 31
	slli	t0, t0, 1
	slli	a6, a6, 12
	slli	t3, t3, 12
	slli	s1, s1, 12
	slli	t5, a4, 12
	addi	s0, t0, 56
	add	a1, a1, a6
	add	a4, a3, t3
	add	s3, t1, s1
	add	a7, a7, t5
	sltu	a3, s0, t0
	lbu	a6, 12(a7)
	lbu	t5, 13(a7)
	lbu	t0, 14(a7)
	lbu	t1, 15(a7)
	add	a3, a3, t4
	lbu	t3, 8(a7)
	lbu	s1, 9(a7)
	lbu	t4, 10(a7)
	lbu	t6, 11(a7)
	sw	t2, 0(sp)
	sw	zero, 4(sp)
	sw	s0, 8(sp)
	sw	a3, 12(sp)
	slli	t5, t5, 8
	slli	t0, t0, 16
	slli	t1, t1, 24
	slli	s1, s1, 8
	or	a6, t5, a6
	or	t0, t1, t0
	or	t1, s1, t3
	lbu	t2, 4(a7)
	lbu	s0, 5(a7)
	lbu	s1, 6(a7)
	lbu	a3, 7(a7)
	slli	t4, t4, 16
	slli	t6, t6, 24
	slli	s0, s0, 8
	slli	s1, s1, 16
	slli	a3, a3, 24
	or	t3, t6, t4
	or	t2, s0, t2
	or	t4, a3, s1
	lbu	s1, 1(a7)
	lbu	s0, 0(a7)
	lbu	a3, 2(a7)
	lbu	a7, 3(a7)
	slli	s1, s1, 8
	or	t5, s1, s0
	slli	a3, a3, 16
	slli	a7, a7, 24
	or	a3, a7, a3
	or	s1, t0, a6
	or	s0, t3, t1
	addi	a0, a0, 484
	sw	a0, 16(sp)
	sw	zero, 20(sp)
	or	a0, t4, t2
	or	a3, a3, t5
	sw	a3, 28(sp)
	sw	a0, 32(sp)
	sw	s0, 36(sp)
	sw	s1, 40(sp)
	sw	zero, 44(sp)
	sw	zero, 48(sp)
	sw	zero, 52(sp)
	sw	zero, 56(sp)
	mv	a0, sp
	addi	t5, sp, 28
	addi	t6, sp, 44
	li	a3, 0
	li	a6, 0
	mv	a7, s3
	mv	t3, s2
	li	t4, 0
	call	gcm.gcm.mode.BorrowedGcm.compare
	zext.b	a0, a0
	beqz	a0, .Lgcm_BB52_8
# %bb.5:
	li	s0, 6
	j	.Lgcm_BB52_9
.Lgcm_BB52_6:
	li	s0, 4
	j	.Lgcm_BB52_10
.Lgcm_BB52_7:
	li	s0, 3
	j	.Lgcm_BB52_10
.Lgcm_BB52_8:                               # %then.1.i.i.i
	mv	a0, sp
	addi	a1, sp, 44
	li	a2, 16
	li	a3, 0
	mv	a4, s3
	mv	a5, s2
	li	a6, 0
	call	gcm.gcm.gctr.add_gctr
	li	s0, 0
.Lgcm_BB52_9:                               # %"gcm::mode::BorrowedGcm::decrypt::<#c01aad2b5fbc92b1>.exit.i.i"
	addi	a0, sp, 44
	call	gcm.aes_cipher.zeroize.elements.zeroize_elements.3
	call	gcm.aes_cipher.zeroize.stack.wipe_stack.1536
.Lgcm_BB52_10:                              # %wide_fotsgure_gcm_open.exit
	mv	a0, s0
	lw	ra, 76(sp)                      # 4-byte Folded Reload
	lw	s0, 72(sp)                      # 4-byte Folded Reload
	lw	s1, 68(sp)                      # 4-byte Folded Reload
	lw	s2, 64(sp)                      # 4-byte Folded Reload
	lw	s3, 60(sp)                      # 4-byte Folded Reload
	addi	sp, sp, 80
	li	a1, 0
	li	a2, 0
	li	a3, 0
	li	a4, 0
	li	a5, 0
	li	a6, 0
	li	a7, 0
	li	t0, 0
	li	t1, 0
	li	t2, 0
	li	t3, 0
	li	t4, 0
	li	t5, 0
	li	t6, 0
	ret
.Lgcm_func_end52:
	.size	gcm.fotsgure_gcm_open, .Lgcm_func_end52-gcm.fotsgure_gcm_open
                                        # -- End function
	.section	.text.gcm.fotsgure_gcm_open_to,"ax",@progbits
	export_gcm	fotsgure_gcm_open_to
	.p2align	1
	.type	gcm.fotsgure_gcm_open_to,@function
gcm.fotsgure_gcm_open_to:                   # @gcm.fotsgure_gcm_open_to
# %bb.0:
	addi	sp, sp, -80
	sw	ra, 76(sp)                      # 4-byte Folded Spill
	sw	s0, 72(sp)                      # 4-byte Folded Spill
	sw	s1, 68(sp)                      # 4-byte Folded Spill
	sw	s2, 64(sp)                      # 4-byte Folded Spill
	sw	s3, 60(sp)                      # 4-byte Folded Spill
	sw	s4, 56(sp)                      # 4-byte Folded Spill
	mv	s1, a5
	lw	a5, 80(sp)
	bne	a6, a5, .Lgcm_BB53_10
# %bb.1:                                # %join.3.i.i
	lw	a5, 88(sp)
	li	s0, 16
	bne	a5, s0, .Lgcm_BB53_11
# %bb.2:                                # %join.6.i.i
	beqz	a2, .Lgcm_BB53_12
# %bb.3:                                # %after.11.i.i.i
	lw	t3, 0(a0)
	addi	t1, t3, -16
	li	t0, 16
	li	s0, 2
	bltu	t0, t1, .Lgcm_BB53_21
# %bb.4:                                # %after.11.i.i.i
	mv	a5, a4
	lui	a4, 16
	addi	a4, a4, 257
	srl	a4, a4, t1
	andi	a4, a4, 1
	beqz	a4, .Lgcm_BB53_21
# %bb.5:                                # %join.9.i.i
	lw	t0, 84(sp)
	seqz	t1, a1
	seqz	t2, a3
	seqz	t4, s1
	seqz	a4, a7
	addi	t5, a0, 4
	srli	t6, t3, 31
	slli	t3, t3, 1
	slli	t1, t1, 12
	slli	t2, t2, 12
	slli	t4, t4, 12
	slli	s2, a4, 12
	addi	s0, t3, 56
	add	a1, a1, t1
	add	a4, a3, t2
	add	s4, s1, t4
	add	s2, s2, a7
	sltu	a3, s0, t3
	add	a3, a3, t6
	seqz	s1, t0
	sw	t5, 0(sp)
	sw	zero, 4(sp)
	sw	s0, 8(sp)
	sw	a3, 12(sp)
	slli	s1, s1, 12
	add	t0, t0, s1
	lbu	a7, 12(t0)
	lbu	s1, 13(t0)
	lbu	s0, 14(t0)
	lbu	t2, 15(t0)
	lbu	t1, 8(t0)
	lbu	a3, 9(t0)
	lbu	t3, 10(t0)
	lbu	t4, 11(t0)
	slli	s1, s1, 8
	slli	s0, s0, 16
	slli	t2, t2, 24
	slli	a3, a3, 8
	or	a7, s1, a7
	or	t2, t2, s0
	or	t1, a3, t1
	lbu	t5, 4(t0)
	lbu	a3, 5(t0)
	lbu	s0, 6(t0)
	lbu	s1, 7(t0)
	slli	t3, t3, 16
	slli	t4, t4, 24
	slli	a3, a3, 8
	slli	s0, s0, 16
	slli	s1, s1, 24
	or	t3, t4, t3
	or	t4, a3, t5
	or	t5, s1, s0
	lbu	s1, 1(t0)
	lbu	a3, 0(t0)
	lbu	s0, 2(t0)
	lbu	t0, 3(t0)
	slli	s1, s1, 8
	or	t6, s1, a3
	slli	s0, s0, 16
	slli	t0, t0, 24
	or	s1, t0, s0
	or	s0, t2, a7
	or	a3, t3, t1
	addi	a0, a0, 484
	sw	a0, 16(sp)
	sw	zero, 20(sp)
	or	a0, t5, t4
	or	s1, s1, t6
	sw	s1, 24(sp)
	sw	a0, 28(sp)
	sw	a3, 32(sp)
	sw	s0, 36(sp)
	sw	zero, 40(sp)
	sw	zero, 44(sp)
	sw	zero, 48(sp)
	sw	zero, 52(sp)
	mv	a0, sp
	addi	t5, sp, 24
	addi	t6, sp, 40
	li	a3, 0
	mv	t3, a6
	li	a6, 0
	mv	a7, s4
	mv	s3, t3
	li	t4, 0
	call	gcm.gcm.mode.BorrowedGcm.compare
	zext.b	a0, a0
	beqz	a0, .Lgcm_BB53_13
# %bb.6:                                # %else.2.i.i.i
	li	s0, 6
	beqz	s3, .Lgcm_BB53_20
# %bb.7:                                # %loop.5.preheader.i.i.i.i
	addi	s1, s3, -1
	snez	a0, s3
	addi	a0, a0, -1
	or	a0, a0, s1
	beqz	a0, .Lgcm_BB53_9
# %bb.8:                                # %join.8.preheader.i.i.i.i
	mv	a0, s2
	li	a1, 0
	mv	a2, s1
	call	memset
.Lgcm_BB53_9:                               # %after.4.i.i.i.i
	add	s1, s1, s2
	sb	zero, 0(s1)
	j	.Lgcm_BB53_20
.Lgcm_BB53_10:
	li	s0, 10
	j	.Lgcm_BB53_21
.Lgcm_BB53_11:
	li	s0, 4
	j	.Lgcm_BB53_21
.Lgcm_BB53_12:
	li	s0, 3
	j	.Lgcm_BB53_21
.Lgcm_BB53_13:                              # %then.1.i.i.i
	bgeu	s2, s4, .Lgcm_BB53_16
# %bb.14:                               # %then.1.i.i.i
	li	a0, 1
	mv	a5, s3
	beqz	a0, .Lgcm_BB53_17
.Lgcm_BB53_15:                              # %apart.2.i.i.i.i.i.i.i.i.i
	mv	a0, s2
	mv	a1, s4
	mv	a2, a5
	call	memmove
	mv	a5, s3
	j	.Lgcm_BB53_19
.Lgcm_BB53_16:
	sub	a0, s2, s4
	mv	a5, s3
	sltu	a0, a0, s3
	xori	a0, a0, 1
	bnez	a0, .Lgcm_BB53_15
.Lgcm_BB53_17:                              # %join.7.i.i.i.i.i.i.i.i.i.preheader
	li	a1, 0
.Lgcm_BB53_18:                              # %join.7.i.i.i.i.i.i.i.i.i
                                        # =>This Inner Loop Header: Depth=1
	add	a2, s2, a0
	add	a3, s4, a0
	addi	a0, a0, 1
	lbu	a3, 0(a3)
	seqz	a4, a0
	add	a1, a1, a4
	sltu	a4, a0, a5
	seqz	s1, a1
	and	a4, a4, s1
	sb	a3, 0(a2)
	bnez	a4, .Lgcm_BB53_18
.Lgcm_BB53_19:                              # %"core::slice::edits::slice+T::copy_from_slice::<i8,20'core::clone::U8Clone{}>.exit.i.i.i"
	mv	a0, sp
	addi	a1, sp, 40
	li	a2, 16
	li	a3, 0
	mv	a4, s2
	li	a6, 0
	call	gcm.gcm.gctr.add_gctr
	li	s0, 0
.Lgcm_BB53_20:                              # %"gcm::mode::BorrowedGcm::decrypt_to::<#c01aad2b5fbc92b1>.exit.i.i"
	addi	a0, sp, 40
	call	gcm.aes_cipher.zeroize.elements.zeroize_elements.3
	call	gcm.aes_cipher.zeroize.stack.wipe_stack.1536
.Lgcm_BB53_21:                              # %wide_fotsgure_gcm_open_to.exit
	mv	a0, s0
	lw	ra, 76(sp)                      # 4-byte Folded Reload
	lw	s0, 72(sp)                      # 4-byte Folded Reload
	lw	s1, 68(sp)                      # 4-byte Folded Reload
	lw	s2, 64(sp)                      # 4-byte Folded Reload
	lw	s3, 60(sp)                      # 4-byte Folded Reload
	lw	s4, 56(sp)                      # 4-byte Folded Reload
	addi	sp, sp, 80
	li	a1, 0
	li	a2, 0
	li	a3, 0
	li	a4, 0
	li	a5, 0
	li	a6, 0
	li	a7, 0
	li	t0, 0
	li	t1, 0
	li	t2, 0
	li	t3, 0
	li	t4, 0
	li	t5, 0
	li	t6, 0
	ret
.Lgcm_func_end53:
	.size	gcm.fotsgure_gcm_open_to, .Lgcm_func_end53-gcm.fotsgure_gcm_open_to
                                        # -- End function
	.section	.text.gcm.fotsgure_gcm_begin,"ax",@progbits
	export_gcm	fotsgure_gcm_begin
	.p2align	1
	.type	gcm.fotsgure_gcm_begin,@function
gcm.fotsgure_gcm_begin:                     # @gcm.fotsgure_gcm_begin
# %bb.0:
	beqz	a3, .Lgcm_BB54_6
# %bb.1:                                # %after.1.i.i
	lw	t0, 0(a0)
	addi	a6, t0, -16
	li	a7, 16
	li	a4, 2
	bltu	a7, a6, .Lgcm_BB54_7
# %bb.2:                                # %after.1.i.i
	lui	a5, 16
	addi	a5, a5, 257
	srl	a5, a5, a6
	andi	a5, a5, 1
	beqz	a5, .Lgcm_BB54_7
# %bb.3:                                # %join.13.i.i
	addi	sp, sp, -48
	sw	ra, 44(sp)                      # 4-byte Folded Spill
	sw	s0, 40(sp)                      # 4-byte Folded Spill
	sw	s1, 36(sp)                      # 4-byte Folded Spill
	seqz	a4, a2
	addi	a6, a0, 4
	srli	a7, t0, 31
	slli	t0, t0, 1
	addi	a0, a0, 484
	slli	a4, a4, 12
	addi	a5, t0, 56
	sw	a0, 24(sp)
	sw	zero, 28(sp)
	add	a2, a2, a4
	sltu	a0, a5, t0
	add	a0, a0, a7
	sw	a6, 8(sp)
	sw	zero, 12(sp)
	sw	a5, 16(sp)
	sw	a0, 20(sp)
	addi	a4, a1, 32
	addi	a0, sp, 8
	mv	s0, a1
	mv	a1, a2
	mv	a2, a3
	mv	s1, a3
	li	a3, 0
	call	gcm.gcm.mode.BorrowedGcm.put_pre_counter
	li	a1, 1
	addi	a0, s0, 48
	sw	zero, 16(s0)
	sw	zero, 20(s0)
	sw	a1, 24(s0)
	sw	zero, 28(s0)
	sw	zero, 0(s0)
	sw	zero, 4(s0)
	sw	zero, 8(s0)
	sw	zero, 12(s0)
	li	a2, 32
	li	a1, 0
	call	memset
	li	a0, 12
	li	a4, 0
	beq	s1, a0, .Lgcm_BB54_5
# %bb.4:                                # %then.1.i.i.i.i
	call	gcm.aes_cipher.zeroize.stack.wipe_stack.512
	li	a4, 0
.Lgcm_BB54_5:
	lw	ra, 44(sp)                      # 4-byte Folded Reload
	lw	s0, 40(sp)                      # 4-byte Folded Reload
	lw	s1, 36(sp)                      # 4-byte Folded Reload
	addi	sp, sp, 48
	mv	a0, a4
	li	a1, 0
	li	a2, 0
	li	a3, 0
	li	a4, 0
	li	a5, 0
	li	a6, 0
	li	a7, 0
	li	t0, 0
	li	t1, 0
	li	t2, 0
	li	t3, 0
	li	t4, 0
	li	t5, 0
	li	t6, 0
	ret
.Lgcm_BB54_6:
	li	a4, 3
.Lgcm_BB54_7:                               # %wide_fotsgure_gcm_begin.exit
	mv	a0, a4
	li	a1, 0
	li	a2, 0
	li	a3, 0
	li	a4, 0
	li	a5, 0
	li	a6, 0
	li	a7, 0
	li	t0, 0
	li	t1, 0
	li	t2, 0
	li	t3, 0
	li	t4, 0
	li	t5, 0
	li	t6, 0
	ret
.Lgcm_func_end54:
	.size	gcm.fotsgure_gcm_begin, .Lgcm_func_end54-gcm.fotsgure_gcm_begin
                                        # -- End function
	.section	.text.gcm.fotsgure_gcm_begin_next,"ax",@progbits
	export_gcm	fotsgure_gcm_begin_next
	.p2align	1
	.type	gcm.fotsgure_gcm_begin_next,@function
gcm.fotsgure_gcm_begin_next:                # @gcm.fotsgure_gcm_begin_next
# %bb.0:
	addi	sp, sp, -80
	sw	ra, 76(sp)                      # 4-byte Folded Spill
	sw	s0, 72(sp)                      # 4-byte Folded Spill
	sw	s1, 68(sp)                      # 4-byte Folded Spill
	sw	s2, 64(sp)                      # 4-byte Folded Spill
	mv	s2, a3
	lbu	a6, 0(a2)
	lbu	a7, 1(a2)
	lbu	a5, 2(a2)
	lbu	s1, 3(a2)
	lbu	t0, 8(a2)
	lbu	a3, 9(a2)
	lbu	a4, 10(a2)
	lbu	s0, 11(a2)
	slli	a7, a7, 8
	slli	a5, a5, 16
	slli	s1, s1, 24
	slli	a3, a3, 8
	slli	a4, a4, 16
	slli	s0, s0, 24
	or	a7, a7, a6
	or	t1, s1, a5
	or	a6, a3, t0
	or	a4, a4, s0
	lbu	s1, 5(a2)
	lbu	s0, 4(a2)
	lbu	a5, 6(a2)
	lbu	a3, 7(a2)
	slli	s1, s1, 8
	or	s0, s0, s1
	slli	a5, a5, 16
	slli	a3, a3, 24
	or	a3, a3, a5
	or	a6, a4, a6
	or	t0, a3, s0
	and	a4, t0, a6
	li	a3, -1
	or	t1, t1, a7
	bne	a4, a3, .Lgcm_BB55_3
# %bb.1:
	bne	t1, a3, .Lgcm_BB55_3
# %bb.2:
	li	a3, 7
	j	.Lgcm_BB55_11
.Lgcm_BB55_3:                               # %join.3.i.i
	lw	s1, 0(a0)
	addi	a5, s1, -16
	li	s0, 16
	li	a3, 2
	bltu	s0, a5, .Lgcm_BB55_11
# %bb.4:                                # %join.3.i.i
	lui	a7, 16
	addi	s0, a7, 257
	srl	a5, s0, a5
	andi	a5, a5, 1
	beqz	a5, .Lgcm_BB55_11
# %bb.5:                                # %join.6.i.i
	addi	t3, a4, 1
	addi	t2, a0, 4
	srli	a5, s1, 31
	slli	s1, s1, 1
	addi	t4, a0, 484
	srli	s0, t1, 8
	addi	a3, a7, -256
	srli	a4, t1, 24
	and	s0, s0, a3
	or	a4, a4, s0
	addi	s0, s1, 56
	sltu	s1, s0, s1
	add	a5, a5, s1
	slli	s1, t1, 24
	seqz	a0, t3
	sw	t4, 40(sp)
	sw	zero, 44(sp)
	and	a3, t1, a3
	slli	a3, a3, 8
	or	a3, a3, s1
	sw	t2, 24(sp)
	sw	zero, 28(sp)
	sw	s0, 32(sp)
	sw	a5, 36(sp)
	or	t3, a3, a4
	bnez	a0, .Lgcm_BB55_7
# %bb.6:                                # %"gcm::counter::nonce_after.exit.thread.i.i.i.i"
	srli	a0, t0, 8
	srli	a5, t0, 24
	slli	t2, t0, 24
	srli	s0, a6, 8
	srli	a3, a6, 24
	addi	s1, a7, -256
	and	a0, a0, s1
	or	a7, a0, a5
	slli	a5, a6, 24
	and	s0, s0, s1
	or	a3, a3, s0
	and	s0, t0, s1
	slli	s0, s0, 8
	or	s0, t2, s0
	and	a0, a6, s1
	slli	a0, a0, 8
	or	a0, a0, a5
	or	a7, s0, a7
	or	a0, a0, a3
	addi	a0, a0, 1
	seqz	a3, a0
	srli	s0, a0, 8
	srli	a5, a0, 24
	add	a3, a3, a7
	slli	a4, a0, 24
	and	a0, a0, s1
	and	s0, s0, s1
	slli	a0, a0, 8
	or	a5, a5, s0
	srli	s0, a3, 8
	or	a0, a0, a4
	srli	a4, a3, 24
	and	s0, s0, s1
	or	a4, a4, s0
	and	s1, s1, a3
	slli	a3, a3, 24
	slli	s1, s1, 8
	or	a3, a3, s1
	or	s1, a3, a4
	or	a3, a0, a5
	j	.Lgcm_BB55_9
.Lgcm_BB55_7:                               # %"gcm::counter::nonce_after.exit.i.i.i.i"
	li	a0, -1
	beq	t1, a0, .Lgcm_BB55_10
# %bb.8:
	li	s1, 0
	li	a3, 0
	addi	t3, t3, 1
.Lgcm_BB55_9:                               # %arm.1.i.i.i.i
	srli	a7, t3, 24
	srli	t2, t3, 8
	srli	a5, t3, 16
	srli	t4, s1, 24
	srli	a0, s1, 16
	srli	a4, s1, 8
	srli	t5, a3, 24
	srli	s0, a3, 16
	sb	a7, 0(a2)
	sb	a5, 1(a2)
	sb	t2, 2(a2)
	sb	t3, 3(a2)
	srli	a5, a3, 8
	sb	s1, 4(a2)
	sb	a4, 5(a2)
	sb	a0, 6(a2)
	sb	t4, 7(a2)
	sb	a3, 8(a2)
	sb	a5, 9(a2)
	sb	s0, 10(a2)
	sb	t5, 11(a2)
.Lgcm_BB55_10:                              # %"gcm::mode::BorrowedGcm::begin_next::<#c01aad2b5fbc92b1>.exit.i.i"
	sw	t1, 52(sp)
	sw	t0, 56(sp)
	sw	a6, 60(sp)
	addi	a4, a1, 32
	addi	a0, sp, 24
	mv	s0, a1
	addi	a1, sp, 52
	li	a2, 12
	li	a3, 0
	call	gcm.gcm.mode.BorrowedGcm.put_pre_counter
	li	a1, 1
	addi	a0, s0, 48
	sw	zero, 16(s0)
	sw	zero, 20(s0)
	sw	a1, 24(s0)
	sw	zero, 28(s0)
	sw	zero, 0(s0)
	sw	zero, 4(s0)
	sw	zero, 8(s0)
	sw	zero, 12(s0)
	li	a2, 32
	li	a1, 0
	call	memset
	lw	a0, 52(sp)
	lw	a1, 56(sp)
	lw	a2, 60(sp)
	sw	a0, 12(sp)
	sw	a1, 16(sp)
	sw	a2, 20(sp)
	addi	a1, sp, 12
	li	a2, 12
	mv	a0, s2
	call	memcpy
	li	a3, 0
.Lgcm_BB55_11:                              # %wide_fotsgure_gcm_begin_next.exit
	mv	a0, a3
	lw	ra, 76(sp)                      # 4-byte Folded Reload
	lw	s0, 72(sp)                      # 4-byte Folded Reload
	lw	s1, 68(sp)                      # 4-byte Folded Reload
	lw	s2, 64(sp)                      # 4-byte Folded Reload
	addi	sp, sp, 80
	li	a1, 0
	li	a2, 0
	li	a3, 0
	li	a4, 0
	li	a5, 0
	li	a6, 0
	li	a7, 0
	li	t0, 0
	li	t1, 0
	li	t2, 0
	li	t3, 0
	li	t4, 0
	li	t5, 0
	li	t6, 0
	ret
.Lgcm_func_end55:
	.size	gcm.fotsgure_gcm_begin_next, .Lgcm_func_end55-gcm.fotsgure_gcm_begin_next
                                        # -- End function
	.section	.text.gcm.fotsgure_gcm_additional,"ax",@progbits
	export_gcm	fotsgure_gcm_additional
	.p2align	1
	.type	gcm.fotsgure_gcm_additional,@function
gcm.fotsgure_gcm_additional:                # @gcm.fotsgure_gcm_additional
# %bb.0:
	mv	a4, a0
	lw	a5, 0(a0)
	addi	a7, a5, -16
	li	a6, 16
	li	a0, 2
	bltu	a6, a7, .Lgcm_BB56_8
# %bb.1:
	addi	sp, sp, -48
	sw	ra, 44(sp)                      # 4-byte Folded Spill
	sw	s0, 40(sp)                      # 4-byte Folded Spill
	sw	s1, 36(sp)                      # 4-byte Folded Spill
	lui	s0, 16
	addi	s0, s0, 257
	srl	s0, s0, a7
	andi	s0, s0, 1
	beqz	s0, .Lgcm_BB56_7
# %bb.2:                                # %join.3.i.i
	addi	a6, a4, 4
	srli	s0, a5, 31
	slli	a5, a5, 1
	addi	a7, a4, 484
	addi	a0, a5, 56
	sltu	a5, a0, a5
	add	a5, a5, s0
	lw	a4, 24(a1)
	lw	s0, 28(a1)
	sw	a7, 24(sp)
	sw	zero, 28(sp)
	sw	a6, 8(sp)
	sw	zero, 12(sp)
	sw	a0, 16(sp)
	sw	a5, 20(sp)
	seqz	a0, a4
	addi	a4, a4, -1
	sub	s0, s0, a0
	seqz	a0, s0
	sltiu	a5, a4, 4
	and	a5, a5, a0
	li	a0, 8
	beqz	a5, .Lgcm_BB56_7
# %bb.3:                                # %join.3.i.i
	zext.b	a4, a4
	bnez	a4, .Lgcm_BB56_7
# %bb.4:                                # %join.3.i.i.i
	lw	a4, 0(a1)
	lw	a0, 4(a1)
	add	a5, a3, a4
	sltu	a5, a5, a3
	add	a0, a0, a5
	snez	s0, a0
	addi	s0, s0, -1
	and	a5, a5, s0
	neg	a5, a5
	or	a0, a0, a5
	srli	a0, a0, 29
	beqz	a0, .Lgcm_BB56_6
# %bb.5:
	li	a0, 5
	j	.Lgcm_BB56_7
.Lgcm_BB56_6:                               # %arm.4.i.i
	seqz	a5, a2
	addi	a0, sp, 24
	andi	a4, a4, 15
	addi	a6, a1, 48
	slli	a5, a5, 12
	add	a5, a5, a2
	addi	a2, a1, 64
	mv	s1, a1
	mv	a1, a6
	mv	s0, a3
	mv	a3, a4
	li	a4, 0
	mv	a6, s0
	li	a7, 0
	call	gcm.gcm.hash_room.hash_piece
	call	gcm.aes_cipher.zeroize.stack.wipe_stack.512
	li	a0, 0
	lw	a1, 0(s1)
	lw	a2, 4(s1)
	add	s0, s0, a1
	sltu	a1, s0, a1
	add	a1, a1, a2
	sw	s0, 0(s1)
	sw	a1, 4(s1)
.Lgcm_BB56_7:
	lw	ra, 44(sp)                      # 4-byte Folded Reload
	lw	s0, 40(sp)                      # 4-byte Folded Reload
	lw	s1, 36(sp)                      # 4-byte Folded Reload
	addi	sp, sp, 48
.Lgcm_BB56_8:                               # %wide_fotsgure_gcm_additional.exit
	li	a1, 0
	li	a2, 0
	li	a3, 0
	li	a4, 0
	li	a5, 0
	li	a6, 0
	li	a7, 0
	li	t0, 0
	li	t1, 0
	li	t2, 0
	li	t3, 0
	li	t4, 0
	li	t5, 0
	li	t6, 0
	ret
.Lgcm_func_end56:
	.size	gcm.fotsgure_gcm_additional, .Lgcm_func_end56-gcm.fotsgure_gcm_additional
                                        # -- End function
	.section	.text.gcm.fotsgure_gcm_encrypt,"ax",@progbits
	export_gcm	fotsgure_gcm_encrypt
	.p2align	1
	.type	gcm.fotsgure_gcm_encrypt,@function
gcm.fotsgure_gcm_encrypt:                   # @gcm.fotsgure_gcm_encrypt
# %bb.0:
	addi	sp, sp, -48
	sw	ra, 44(sp)                      # 4-byte Folded Spill
	sw	s0, 40(sp)                      # 4-byte Folded Spill
	sw	s1, 36(sp)                      # 4-byte Folded Spill
	sw	s2, 32(sp)                      # 4-byte Folded Spill
	sw	s3, 28(sp)                      # 4-byte Folded Spill
	mv	s1, a3
	mv	s2, a2
	mv	s0, a1
	mv	a1, a0
	lw	a2, 0(a0)
	addi	a3, a2, -16
	li	a4, 16
	li	a0, 2
	bltu	a4, a3, .Lgcm_BB57_7
# %bb.1:
	lui	a4, 16
	addi	a4, a4, 257
	srl	a3, a4, a3
	andi	a3, a3, 1
	beqz	a3, .Lgcm_BB57_7
# %bb.2:                                # %join.3.i.i
	addi	a0, a1, 4
	srli	a3, a2, 31
	slli	a2, a2, 1
	addi	a1, a1, 484
	addi	a4, a2, 56
	sltu	a2, a4, a2
	add	a2, a2, a3
	sw	a0, 0(sp)
	sw	zero, 4(sp)
	sw	a4, 8(sp)
	sw	a2, 12(sp)
	sw	a1, 16(sp)
	sw	zero, 20(sp)
	mv	a0, sp
	li	a2, 2
	mv	a1, s0
	mv	a3, s1
	li	a4, 0
	call	gcm.gcm.mode.BorrowedGcm.enter_phase
	zext.b	a0, a0
	beqz	a0, .Lgcm_BB57_5
# %bb.3:                                # %arm.2.i.i.i
	andi	a1, a1, 1
	bnez	a1, .Lgcm_BB57_6
# %bb.4:                                # %arm.2.i.i.i
	li	a0, 8
	j	.Lgcm_BB57_7
.Lgcm_BB57_5:                               # %arm.1.i.i.i
	seqz	a0, s2
	addi	s3, sp, 16
	lw	a3, 8(s0)
	slli	a0, a0, 12
	add	s2, s2, a0
	lw	a0, 12(s0)
	addi	a1, s0, 32
	addi	a2, a3, 16
	sltu	a3, a2, a3
	add	a3, a3, a0
	mv	a0, sp
	mv	a4, s2
	mv	a5, s1
	li	a6, 0
	call	gcm.gcm.gctr.add_gctr
	lw	a3, 8(s0)
	addi	a1, s0, 48
	andi	a3, a3, 15
	addi	a2, s0, 64
	mv	a0, s3
	li	a4, 0
	mv	a5, s2
	mv	a6, s1
	li	a7, 0
	call	gcm.gcm.hash_room.hash_piece
	lw	a0, 8(s0)
	lw	a1, 12(s0)
	add	s1, s1, a0
	sltu	a0, s1, a0
	add	a0, a0, a1
	sw	s1, 8(s0)
	sw	a0, 12(s0)
	call	gcm.aes_cipher.zeroize.stack.wipe_stack.1536
	li	a0, 0
	j	.Lgcm_BB57_7
.Lgcm_BB57_6:
	li	a0, 5
.Lgcm_BB57_7:                               # %wide_fotsgure_gcm_encrypt.exit
	lw	ra, 44(sp)                      # 4-byte Folded Reload
	lw	s0, 40(sp)                      # 4-byte Folded Reload
	lw	s1, 36(sp)                      # 4-byte Folded Reload
	lw	s2, 32(sp)                      # 4-byte Folded Reload
	lw	s3, 28(sp)                      # 4-byte Folded Reload
	addi	sp, sp, 48
	li	a1, 0
	li	a2, 0
	li	a3, 0
	li	a4, 0
	li	a5, 0
	li	a6, 0
	li	a7, 0
	li	t0, 0
	li	t1, 0
	li	t2, 0
	li	t3, 0
	li	t4, 0
	li	t5, 0
	li	t6, 0
	ret
.Lgcm_func_end57:
	.size	gcm.fotsgure_gcm_encrypt, .Lgcm_func_end57-gcm.fotsgure_gcm_encrypt
                                        # -- End function
	.section	.text.gcm.fotsgure_gcm_finish,"ax",@progbits
	export_gcm	fotsgure_gcm_finish
	.p2align	1
	.type	gcm.fotsgure_gcm_finish,@function
gcm.fotsgure_gcm_finish:                    # @gcm.fotsgure_gcm_finish
# %bb.0:
	addi	sp, sp, -64
	sw	ra, 60(sp)                      # 4-byte Folded Spill
	sw	s0, 56(sp)                      # 4-byte Folded Spill
	sw	s1, 52(sp)                      # 4-byte Folded Spill
	mv	s0, a2
	lw	a3, 0(a0)
	addi	a4, a3, -16
	li	a5, 16
	li	a2, 2
	bltu	a5, a4, .Lgcm_BB58_4
# %bb.1:
	lui	a5, 16
	addi	a5, a5, 257
	srl	a4, a5, a4
	andi	a4, a4, 1
	beqz	a4, .Lgcm_BB58_4
# %bb.2:                                # %join.3.i.i
	addi	a2, a0, 4
	srli	a4, a3, 31
	slli	a3, a3, 1
	addi	a0, a0, 484
	addi	a5, a3, 56
	sltu	a3, a5, a3
	add	a3, a3, a4
	lw	a4, 24(a1)
	lw	s1, 28(a1)
	sw	a2, 24(sp)
	sw	zero, 28(sp)
	sw	a5, 32(sp)
	sw	a3, 36(sp)
	seqz	a2, a4
	addi	a4, a4, -1
	sub	s1, s1, a2
	sltiu	a2, a4, 2
	seqz	a3, s1
	and	a2, a2, a3
	sw	a0, 40(sp)
	sw	zero, 44(sp)
	beqz	a2, .Lgcm_BB58_5
# %bb.3:                                # %arm.4.i.i
	addi	a0, sp, 24
	addi	a2, sp, 8
	mv	s1, a1
	call	gcm.gcm.mode.BorrowedGcm.put_tag_so_far
	call	gcm.aes_cipher.zeroize.stack.wipe_stack.512
	mv	a0, s1
	call	gcm.gcm.message_state.MessageZeroize.zeroize
	addi	a1, sp, 8
	li	a2, 16
	mv	a0, s0
	call	memcpy
	li	a2, 0
.Lgcm_BB58_4:                               # %wide_fotsgure_gcm_finish.exit
	mv	a0, a2
	lw	ra, 60(sp)                      # 4-byte Folded Reload
	lw	s0, 56(sp)                      # 4-byte Folded Reload
	lw	s1, 52(sp)                      # 4-byte Folded Reload
	addi	sp, sp, 64
	li	a1, 0
	li	a2, 0
	li	a3, 0
	li	a4, 0
	li	a5, 0
	li	a6, 0
	li	a7, 0
	li	t0, 0
	li	t1, 0
	li	t2, 0
	li	t3, 0
	li	t4, 0
	li	t5, 0
	li	t6, 0
	ret
.Lgcm_BB58_5:
	li	a0, 8
	lw	ra, 60(sp)                      # 4-byte Folded Reload
	lw	s0, 56(sp)                      # 4-byte Folded Reload
	lw	s1, 52(sp)                      # 4-byte Folded Reload
	addi	sp, sp, 64
	li	a1, 0
	li	a2, 0
	li	a3, 0
	li	a4, 0
	li	a5, 0
	li	a6, 0
	li	a7, 0
	li	t0, 0
	li	t1, 0
	li	t2, 0
	li	t3, 0
	li	t4, 0
	li	t5, 0
	li	t6, 0
	ret
.Lgcm_func_end58:
	.size	gcm.fotsgure_gcm_finish, .Lgcm_func_end58-gcm.fotsgure_gcm_finish
                                        # -- End function
	.section	.text.gcm.fotsgure_gcm_verify,"ax",@progbits
	export_gcm	fotsgure_gcm_verify
	.p2align	1
	.type	gcm.fotsgure_gcm_verify,@function
gcm.fotsgure_gcm_verify:                    # @gcm.fotsgure_gcm_verify
# %bb.0:
	addi	sp, sp, -48
	sw	ra, 44(sp)                      # 4-byte Folded Spill
	sw	s0, 40(sp)                      # 4-byte Folded Spill
	sw	s1, 36(sp)                      # 4-byte Folded Spill
	sw	s2, 32(sp)                      # 4-byte Folded Spill
	mv	s1, a3
	mv	s2, a2
	mv	s0, a1
	mv	a1, a0
	lw	a2, 0(a0)
	addi	a3, a2, -16
	li	a4, 16
	li	a0, 2
	bltu	a4, a3, .Lgcm_BB59_5
# %bb.1:
	lui	a4, 16
	addi	a4, a4, 257
	srl	a3, a4, a3
	andi	a3, a3, 1
	beqz	a3, .Lgcm_BB59_5
# %bb.2:                                # %join.3.i.i
	addi	a0, a1, 4
	srli	a3, a2, 31
	slli	a2, a2, 1
	addi	a1, a1, 484
	addi	a4, a2, 56
	sltu	a2, a4, a2
	add	a2, a2, a3
	sw	a0, 8(sp)
	sw	zero, 12(sp)
	sw	a4, 16(sp)
	sw	a2, 20(sp)
	sw	a1, 24(sp)
	sw	zero, 28(sp)
	addi	a0, sp, 8
	li	a2, 3
	mv	a1, s0
	mv	a3, s1
	li	a4, 0
	call	gcm.gcm.mode.BorrowedGcm.enter_phase
	zext.b	a0, a0
	beqz	a0, .Lgcm_BB59_6
# %bb.3:                                # %arm.2.i.i.i
	andi	a1, a1, 1
	bnez	a1, .Lgcm_BB59_7
# %bb.4:                                # %arm.2.i.i.i
	li	a0, 8
.Lgcm_BB59_5:                               # %wide_fotsgure_gcm_verify.exit
	lw	ra, 44(sp)                      # 4-byte Folded Reload
	lw	s0, 40(sp)                      # 4-byte Folded Reload
	lw	s1, 36(sp)                      # 4-byte Folded Reload
	lw	s2, 32(sp)                      # 4-byte Folded Reload
	addi	sp, sp, 48
	li	a1, 0
	li	a2, 0
	li	a3, 0
	li	a4, 0
	li	a5, 0
	li	a6, 0
	li	a7, 0
	li	t0, 0
	li	t1, 0
	li	t2, 0
	li	t3, 0
	li	t4, 0
	li	t5, 0
	li	t6, 0
	ret
.Lgcm_BB59_6:                               # %arm.1.i.i.i
	seqz	a2, s2
	addi	a0, sp, 24
	lw	a3, 8(s0)
	addi	a1, s0, 48
	slli	a2, a2, 12
	add	a5, s2, a2
	andi	a3, a3, 15
	addi	a2, s0, 64
	li	a4, 0
	mv	a6, s1
	li	a7, 0
	call	gcm.gcm.hash_room.hash_piece
	lw	a0, 8(s0)
	lw	a1, 12(s0)
	add	s1, s1, a0
	sltu	a0, s1, a0
	add	a0, a0, a1
	sw	s1, 8(s0)
	sw	a0, 12(s0)
	call	gcm.aes_cipher.zeroize.stack.wipe_stack.512
	li	a0, 0
	lw	ra, 44(sp)                      # 4-byte Folded Reload
	lw	s0, 40(sp)                      # 4-byte Folded Reload
	lw	s1, 36(sp)                      # 4-byte Folded Reload
	lw	s2, 32(sp)                      # 4-byte Folded Reload
	addi	sp, sp, 48
	li	a1, 0
	li	a2, 0
	li	a3, 0
	li	a4, 0
	li	a5, 0
	li	a6, 0
	li	a7, 0
	li	t0, 0
	li	t1, 0
	li	t2, 0
	li	t3, 0
	li	t4, 0
	li	t5, 0
	li	t6, 0
	ret
.Lgcm_BB59_7:
	li	a0, 5
	lw	ra, 44(sp)                      # 4-byte Folded Reload
	lw	s0, 40(sp)                      # 4-byte Folded Reload
	lw	s1, 36(sp)                      # 4-byte Folded Reload
	lw	s2, 32(sp)                      # 4-byte Folded Reload
	addi	sp, sp, 48
	li	a1, 0
	li	a2, 0
	li	a3, 0
	li	a4, 0
	li	a5, 0
	li	a6, 0
	li	a7, 0
	li	t0, 0
	li	t1, 0
	li	t2, 0
	li	t3, 0
	li	t4, 0
	li	t5, 0
	li	t6, 0
	ret
.Lgcm_func_end59:
	.size	gcm.fotsgure_gcm_verify, .Lgcm_func_end59-gcm.fotsgure_gcm_verify
                                        # -- End function
	.section	.text.gcm.fotsgure_gcm_accept,"ax",@progbits
	export_gcm	fotsgure_gcm_accept
	.p2align	1
	.type	gcm.fotsgure_gcm_accept,@function
gcm.fotsgure_gcm_accept:                    # @gcm.fotsgure_gcm_accept
# %bb.0:
	li	a4, 16
	bne	a3, a4, .Lgcm_BB60_7
# %bb.1:                                # %join.3.i.i
	addi	sp, sp, -64
	sw	ra, 60(sp)                      # 4-byte Folded Spill
	sw	s0, 56(sp)                      # 4-byte Folded Spill
	sw	s1, 52(sp)                      # 4-byte Folded Spill
	lw	s0, 0(a0)
	addi	a5, s0, -16
	li	a3, 2
	bltu	a4, a5, .Lgcm_BB60_6
# %bb.2:                                # %join.3.i.i
	lui	a4, 16
	addi	a4, a4, 257
	srl	a4, a4, a5
	andi	a4, a4, 1
	beqz	a4, .Lgcm_BB60_6
# %bb.3:                                # %join.6.i.i
	seqz	a4, a2
	addi	a6, a0, 4
	srli	a7, s0, 31
	slli	s0, s0, 1
	lw	t1, 24(a1)
	lw	t0, 28(a1)
	slli	a4, a4, 12
	addi	a5, s0, 56
	add	a2, a2, a4
	sltu	a4, a5, s0
	add	a4, a4, a7
	lbu	a7, 0(a2)
	lbu	s0, 1(a2)
	lbu	s1, 2(a2)
	lbu	t3, 3(a2)
	lbu	t2, 4(a2)
	lbu	a3, 5(a2)
	lbu	t4, 6(a2)
	lbu	t5, 7(a2)
	sw	a6, 24(sp)
	sw	zero, 28(sp)
	sw	a5, 32(sp)
	sw	a4, 36(sp)
	seqz	a4, t1
	sub	a4, t0, a4
	addi	a5, t1, -1
	sltiu	a5, a5, 4
	seqz	a4, a4
	slli	s0, s0, 8
	slli	s1, s1, 16
	slli	t3, t3, 24
	slli	a3, a3, 8
	and	a6, a4, a5
	or	a7, s0, a7
	or	t3, t3, s1
	or	t0, a3, t2
	lbu	s0, 8(a2)
	lbu	a4, 9(a2)
	lbu	a5, 10(a2)
	lbu	a3, 11(a2)
	slli	t4, t4, 16
	slli	t5, t5, 24
	slli	a4, a4, 8
	slli	a5, a5, 16
	slli	a3, a3, 24
	or	s1, t5, t4
	or	t2, a4, s0
	or	a3, a3, a5
	lbu	a5, 13(a2)
	lbu	s0, 12(a2)
	lbu	a4, 14(a2)
	lbu	a2, 15(a2)
	slli	a5, a5, 8
	or	a5, a5, s0
	slli	a4, a4, 16
	slli	a2, a2, 24
	or	a2, a2, a4
	or	a4, t3, a7
	or	s1, s1, t0
	or	a3, a3, t2
	or	a2, a2, a5
	addi	a0, a0, 484
	neg	a5, a6
	and	a5, a5, t1
	li	s0, 3
	sw	a0, 40(sp)
	sw	zero, 44(sp)
	ori	a0, a5, 2
	zext.b	a0, a0
	sw	a4, 8(sp)
	sw	s1, 12(sp)
	sw	a3, 16(sp)
	sw	a2, 20(sp)
	bne	a0, s0, .Lgcm_BB60_8
# %bb.4:                                # %join.3.i.i.i
	addi	a0, sp, 24
	addi	a2, sp, 8
	mv	s1, a1
	call	gcm.gcm.mode.BorrowedGcm.is_tag_so_far
	mv	s0, a0
	call	gcm.aes_cipher.zeroize.stack.wipe_stack.1536
	beqz	s0, .Lgcm_BB60_9
# %bb.5:                                # %arm.7.i.i
	li	a3, 0
	li	a0, 4
	sw	zero, 16(s1)
	sw	zero, 20(s1)
	sw	a0, 24(s1)
	sw	zero, 28(s1)
.Lgcm_BB60_6:
	lw	ra, 60(sp)                      # 4-byte Folded Reload
	lw	s0, 56(sp)                      # 4-byte Folded Reload
	lw	s1, 52(sp)                      # 4-byte Folded Reload
	addi	sp, sp, 64
	mv	a0, a3
	li	a1, 0
	li	a2, 0
	li	a3, 0
	li	a4, 0
	li	a5, 0
	li	a6, 0
	li	a7, 0
	li	t0, 0
	li	t1, 0
	li	t2, 0
	li	t3, 0
	li	t4, 0
	li	t5, 0
	li	t6, 0
	ret
.Lgcm_BB60_7:
	li	a0, 4
	li	a1, 0
	li	a2, 0
	li	a3, 0
	li	a4, 0
	li	a5, 0
	li	a6, 0
	li	a7, 0
	li	t0, 0
	li	t1, 0
	li	t2, 0
	li	t3, 0
	li	t4, 0
	li	t5, 0
	li	t6, 0
	ret
.Lgcm_BB60_8:
	li	a0, 8
	lw	ra, 60(sp)                      # 4-byte Folded Reload
	lw	s0, 56(sp)                      # 4-byte Folded Reload
	lw	s1, 52(sp)                      # 4-byte Folded Reload
	addi	sp, sp, 64
	li	a1, 0
	li	a2, 0
	li	a3, 0
	li	a4, 0
	li	a5, 0
	li	a6, 0
	li	a7, 0
	li	t0, 0
	li	t1, 0
	li	t2, 0
	li	t3, 0
	li	t4, 0
	li	t5, 0
	li	t6, 0
	ret
.Lgcm_BB60_9:
	li	a0, 6
	lw	ra, 60(sp)                      # 4-byte Folded Reload
	lw	s0, 56(sp)                      # 4-byte Folded Reload
	lw	s1, 52(sp)                      # 4-byte Folded Reload
	addi	sp, sp, 64
	li	a1, 0
	li	a2, 0
	li	a3, 0
	li	a4, 0
	li	a5, 0
	li	a6, 0
	li	a7, 0
	li	t0, 0
	li	t1, 0
	li	t2, 0
	li	t3, 0
	li	t4, 0
	li	t5, 0
	li	t6, 0
	ret
.Lgcm_func_end60:
	.size	gcm.fotsgure_gcm_accept, .Lgcm_func_end60-gcm.fotsgure_gcm_accept
                                        # -- End function
	.section	.text.gcm.fotsgure_gcm_accept_short,"ax",@progbits
	export_gcm	fotsgure_gcm_accept_short
	.p2align	1
	.type	gcm.fotsgure_gcm_accept_short,@function
gcm.fotsgure_gcm_accept_short:              # @gcm.fotsgure_gcm_accept_short
# %bb.0:
	addi	sp, sp, -48
	sw	ra, 44(sp)                      # 4-byte Folded Spill
	sw	s0, 40(sp)                      # 4-byte Folded Spill
	sw	s1, 36(sp)                      # 4-byte Folded Spill
	mv	a5, a0
	li	a0, 4
	li	s1, 1
	beq	a2, a0, .Lgcm_BB61_3
# %bb.1:
	li	s0, 8
	beq	a2, s0, .Lgcm_BB61_3
# %bb.2:                                # %else.5.i.i.i
	andi	s1, a2, -4
	addi	s1, s1, -12
	seqz	s1, s1
.Lgcm_BB61_3:                               # %"gcm::tags::is_short_tag.exit.i.i"
	bne	a4, a2, .Lgcm_BB61_13
# %bb.4:                                # %"gcm::tags::is_short_tag.exit.i.i"
	beqz	s1, .Lgcm_BB61_13
# %bb.5:                                # %join.3.i.i
	lw	a4, 0(a5)
	addi	s1, a4, -16
	li	s0, 16
	li	a0, 2
	bltu	s0, s1, .Lgcm_BB61_13
# %bb.6:                                # %join.3.i.i
	lui	s0, 16
	addi	s0, s0, 257
	srl	s1, s0, s1
	andi	s1, s1, 1
	beqz	s1, .Lgcm_BB61_13
# %bb.7:                                # %join.6.i.i
	addi	a7, a5, 4
	srli	s1, a4, 31
	slli	a4, a4, 1
	addi	a6, a5, 484
	lw	s0, 24(a1)
	lw	a5, 28(a1)
	addi	a0, a4, 56
	sltu	a4, a0, a4
	add	a4, a4, s1
	li	s1, 3
	sw	a7, 8(sp)
	sw	zero, 12(sp)
	sw	a0, 16(sp)
	sw	a4, 20(sp)
	seqz	a0, s0
	sub	a5, a5, a0
	addi	a0, s0, -1
	sltiu	a0, a0, 4
	seqz	a4, a5
	and	a0, a0, a4
	neg	a0, a0
	and	a0, a0, s0
	ori	a0, a0, 2
	zext.b	a0, a0
	sw	a6, 24(sp)
	sw	zero, 28(sp)
	bne	a0, s1, .Lgcm_BB61_15
# %bb.8:                                # %join.3.i.i.i
	li	a0, 4
	beq	a2, a0, .Lgcm_BB61_11
# %bb.9:                                # %join.3.i.i.i
	li	a0, 8
	beq	a2, a0, .Lgcm_BB61_11
# %bb.10:                               # %"gcm::tags::is_short_tag.exit.i.i.i"
	andi	a0, a2, -4
	li	a4, 12
	bne	a0, a4, .Lgcm_BB61_14
.Lgcm_BB61_11:                              # %join.7.i.i.i
	seqz	a0, a3
	slli	a0, a0, 12
	add	a4, a3, a0
	addi	a0, sp, 8
	mv	s1, a1
	mv	a3, a2
	mv	a2, a4
	li	a4, 0
	call	gcm.gcm.mode.BorrowedGcm.is_short_tag_so_far
	mv	s0, a0
	call	gcm.aes_cipher.zeroize.stack.wipe_stack.1536
	beqz	s0, .Lgcm_BB61_14
# %bb.12:                               # %arm.7.i.i
	li	a0, 0
	li	a1, 4
	sw	zero, 16(s1)
	sw	zero, 20(s1)
	sw	a1, 24(s1)
	sw	zero, 28(s1)
.Lgcm_BB61_13:                              # %wide_fotsgure_gcm_accept_short.exit
	lw	ra, 44(sp)                      # 4-byte Folded Reload
	lw	s0, 40(sp)                      # 4-byte Folded Reload
	lw	s1, 36(sp)                      # 4-byte Folded Reload
	addi	sp, sp, 48
	li	a1, 0
	li	a2, 0
	li	a3, 0
	li	a4, 0
	li	a5, 0
	li	a6, 0
	li	a7, 0
	li	t0, 0
	li	t1, 0
	li	t2, 0
	li	t3, 0
	li	t4, 0
	li	t5, 0
	li	t6, 0
	ret
.Lgcm_BB61_14:
	li	a0, 6
	lw	ra, 44(sp)                      # 4-byte Folded Reload
	lw	s0, 40(sp)                      # 4-byte Folded Reload
	lw	s1, 36(sp)                      # 4-byte Folded Reload
	addi	sp, sp, 48
	li	a1, 0
	li	a2, 0
	li	a3, 0
	li	a4, 0
	li	a5, 0
	li	a6, 0
	li	a7, 0
	li	t0, 0
	li	t1, 0
	li	t2, 0
	li	t3, 0
	li	t4, 0
	li	t5, 0
	li	t6, 0
	ret
.Lgcm_BB61_15:
	li	a0, 8
	lw	ra, 44(sp)                      # 4-byte Folded Reload
	lw	s0, 40(sp)                      # 4-byte Folded Reload
	lw	s1, 36(sp)                      # 4-byte Folded Reload
	addi	sp, sp, 48
	li	a1, 0
	li	a2, 0
	li	a3, 0
	li	a4, 0
	li	a5, 0
	li	a6, 0
	li	a7, 0
	li	t0, 0
	li	t1, 0
	li	t2, 0
	li	t3, 0
	li	t4, 0
	li	t5, 0
	li	t6, 0
	ret
.Lgcm_func_end61:
	.size	gcm.fotsgure_gcm_accept_short, .Lgcm_func_end61-gcm.fotsgure_gcm_accept_short
                                        # -- End function
	.section	.text.gcm.fotsgure_gcm_decrypt,"ax",@progbits
	export_gcm	fotsgure_gcm_decrypt
	.p2align	1
	.type	gcm.fotsgure_gcm_decrypt,@function
gcm.fotsgure_gcm_decrypt:                   # @gcm.fotsgure_gcm_decrypt
# %bb.0:
	mv	a4, a0
	lw	a5, 0(a0)
	addi	a7, a5, -16
	li	a6, 16
	li	a0, 2
	bltu	a6, a7, .Lgcm_BB62_14
# %bb.1:
	addi	sp, sp, -48
	sw	ra, 44(sp)                      # 4-byte Folded Spill
	sw	s0, 40(sp)                      # 4-byte Folded Spill
	sw	s1, 36(sp)                      # 4-byte Folded Spill
	lui	s0, 16
	addi	s0, s0, 257
	srl	s0, s0, a7
	andi	s0, s0, 1
	beqz	s0, .Lgcm_BB62_13
# %bb.2:                                # %join.3.i.i
	addi	a6, a4, 4
	srli	s0, a5, 31
	slli	a5, a5, 1
	addi	a7, a4, 484
	addi	a0, a5, 56
	sltu	a5, a0, a5
	add	a5, a5, s0
	lw	a4, 24(a1)
	lw	s0, 28(a1)
	sw	a7, 24(sp)
	sw	zero, 28(sp)
	sw	a6, 8(sp)
	sw	zero, 12(sp)
	sw	a0, 16(sp)
	sw	a5, 20(sp)
	seqz	a0, a4
	addi	a4, a4, -1
	sub	s0, s0, a0
	seqz	a0, s0
	sltiu	a5, a4, 4
	and	a5, a5, a0
	li	a0, 8
	beqz	a5, .Lgcm_BB62_13
# %bb.3:                                # %join.3.i.i
	zext.b	a4, a4
	li	a5, 3
	bne	a4, a5, .Lgcm_BB62_13
# %bb.4:                                # %join.3.i.i.i
	lw	t0, 16(a1)
	lw	a7, 20(a1)
	lw	a6, 8(a1)
	lw	a5, 12(a1)
	add	t1, a3, t0
	sltu	a0, t1, a3
	add	a4, a7, a0
	snez	s0, a4
	addi	s0, s0, -1
	and	a0, a0, s0
	li	t2, 15
	neg	s0, a0
	beq	a5, t2, .Lgcm_BB62_6
# %bb.5:                                # %join.3.i.i.i
	sltiu	a0, a5, 15
	or	a4, a4, s0
	beqz	a0, .Lgcm_BB62_7
	j	.Lgcm_BB62_8
.Lgcm_BB62_6:
	sltiu	a0, a6, -32
	or	a4, a4, s0
	bnez	a0, .Lgcm_BB62_8
.Lgcm_BB62_7:                               # %join.3.i.i.i
	li	a6, -32
	li	a5, 15
.Lgcm_BB62_8:                               # %join.3.i.i.i
	beq	a5, a4, .Lgcm_BB62_11
# %bb.9:                                # %join.3.i.i.i
	sltu	a0, a5, a4
	bnez	a0, .Lgcm_BB62_12
.Lgcm_BB62_10:                              # %arm.4.i.i
	seqz	a0, a2
	addi	a6, a1, 32
	slli	a0, a0, 12
	add	a4, a2, a0
	addi	a2, t0, 16
	sltu	a5, a2, t0
	add	a5, a5, a7
	addi	a0, sp, 8
	mv	s1, a1
	mv	a1, a6
	mv	s0, a3
	mv	a3, a5
	mv	a5, s0
	li	a6, 0
	call	gcm.gcm.gctr.add_gctr
	lw	a0, 16(s1)
	lw	a1, 20(s1)
	add	s0, s0, a0
	sltu	a0, s0, a0
	add	a0, a0, a1
	sw	s0, 16(s1)
	sw	a0, 20(s1)
	call	gcm.aes_cipher.zeroize.stack.wipe_stack.1536
	li	a0, 0
	j	.Lgcm_BB62_13
.Lgcm_BB62_11:
	or	a0, s0, t1
	sltu	a0, a6, a0
	beqz	a0, .Lgcm_BB62_10
.Lgcm_BB62_12:
	li	a0, 5
.Lgcm_BB62_13:
	lw	ra, 44(sp)                      # 4-byte Folded Reload
	lw	s0, 40(sp)                      # 4-byte Folded Reload
	lw	s1, 36(sp)                      # 4-byte Folded Reload
	addi	sp, sp, 48
.Lgcm_BB62_14:                              # %wide_fotsgure_gcm_decrypt.exit
	li	a1, 0
	li	a2, 0
	li	a3, 0
	li	a4, 0
	li	a5, 0
	li	a6, 0
	li	a7, 0
	li	t0, 0
	li	t1, 0
	li	t2, 0
	li	t3, 0
	li	t4, 0
	li	t5, 0
	li	t6, 0
	ret
.Lgcm_func_end62:
	.size	gcm.fotsgure_gcm_decrypt, .Lgcm_func_end62-gcm.fotsgure_gcm_decrypt
                                        # -- End function
	.section	.text.gcm.fotsgure_gcm_decrypt_unverified,"ax",@progbits
	export_gcm	fotsgure_gcm_decrypt_unverified
	.p2align	1
	.type	gcm.fotsgure_gcm_decrypt_unverified,@function
gcm.fotsgure_gcm_decrypt_unverified:        # @gcm.fotsgure_gcm_decrypt_unverified
# %bb.0:
	addi	sp, sp, -48
	sw	ra, 44(sp)                      # 4-byte Folded Spill
	sw	s0, 40(sp)                      # 4-byte Folded Spill
	sw	s1, 36(sp)                      # 4-byte Folded Spill
	sw	s2, 32(sp)                      # 4-byte Folded Spill
	sw	s3, 28(sp)                      # 4-byte Folded Spill
	sw	s4, 24(sp)                      # 4-byte Folded Spill
	mv	s0, a3
	mv	s2, a2
	mv	s1, a1
	mv	a1, a0
	lw	a2, 0(a0)
	addi	a3, a2, -16
	li	a4, 16
	li	a0, 2
	bltu	a4, a3, .Lgcm_BB63_7
# %bb.1:
	lui	a4, 16
	addi	a4, a4, 257
	srl	a3, a4, a3
	andi	a3, a3, 1
	beqz	a3, .Lgcm_BB63_7
# %bb.2:                                # %join.3.i.i
	addi	a0, a1, 4
	srli	a3, a2, 31
	slli	a2, a2, 1
	addi	a1, a1, 484
	addi	a4, a2, 56
	sltu	a2, a4, a2
	add	a2, a2, a3
	sw	a0, 0(sp)
	sw	zero, 4(sp)
	sw	a4, 8(sp)
	sw	a2, 12(sp)
	sw	a1, 16(sp)
	sw	zero, 20(sp)
	mv	a0, sp
	li	a2, 3
	mv	a1, s1
	mv	a3, s0
	li	a4, 0
	call	gcm.gcm.mode.BorrowedGcm.enter_phase
	zext.b	a0, a0
	beqz	a0, .Lgcm_BB63_5
# %bb.3:                                # %arm.2.i.i.i
	andi	a1, a1, 1
	bnez	a1, .Lgcm_BB63_6
# %bb.4:                                # %arm.2.i.i.i
	li	a0, 8
	j	.Lgcm_BB63_7
.Lgcm_BB63_5:                               # %arm.1.i.i.i
	seqz	a2, s2
	addi	a0, sp, 16
	lw	a4, 8(s1)
	lw	s4, 12(s1)
	addi	a1, s1, 48
	slli	a2, a2, 12
	add	s2, s2, a2
	addi	s3, a4, 16
	andi	a3, a4, 15
	sltu	a2, s3, a4
	add	s4, s4, a2
	addi	a2, s1, 64
	li	a4, 0
	mv	a5, s2
	mv	a6, s0
	li	a7, 0
	call	gcm.gcm.hash_room.hash_piece
	lw	a0, 8(s1)
	lw	a1, 12(s1)
	add	a2, a0, s0
	sltu	a0, a2, a0
	add	a0, a0, a1
	sw	a2, 8(s1)
	sw	a0, 12(s1)
	addi	a1, s1, 32
	mv	a0, sp
	mv	a2, s3
	mv	a3, s4
	mv	a4, s2
	mv	a5, s0
	li	a6, 0
	call	gcm.gcm.gctr.add_gctr
	call	gcm.aes_cipher.zeroize.stack.wipe_stack.1536
	li	a0, 0
	j	.Lgcm_BB63_7
.Lgcm_BB63_6:
	li	a0, 5
.Lgcm_BB63_7:                               # %wide_fotsgure_gcm_decrypt_unverified.exit
	lw	ra, 44(sp)                      # 4-byte Folded Reload
	lw	s0, 40(sp)                      # 4-byte Folded Reload
	lw	s1, 36(sp)                      # 4-byte Folded Reload
	lw	s2, 32(sp)                      # 4-byte Folded Reload
	lw	s3, 28(sp)                      # 4-byte Folded Reload
	lw	s4, 24(sp)                      # 4-byte Folded Reload
	addi	sp, sp, 48
	li	a1, 0
	li	a2, 0
	li	a3, 0
	li	a4, 0
	li	a5, 0
	li	a6, 0
	li	a7, 0
	li	t0, 0
	li	t1, 0
	li	t2, 0
	li	t3, 0
	li	t4, 0
	li	t5, 0
	li	t6, 0
	ret
.Lgcm_func_end63:
	.size	gcm.fotsgure_gcm_decrypt_unverified, .Lgcm_func_end63-gcm.fotsgure_gcm_decrypt_unverified
                                        # -- End function
	.section	.text.gcm.fotsgure_gcm_finish_unverified,"ax",@progbits
	export_gcm	fotsgure_gcm_finish_unverified
	.p2align	1
	.type	gcm.fotsgure_gcm_finish_unverified,@function
gcm.fotsgure_gcm_finish_unverified:         # @gcm.fotsgure_gcm_finish_unverified
# %bb.0:
	addi	sp, sp, -32
	sw	ra, 28(sp)                      # 4-byte Folded Spill
	sw	s0, 24(sp)                      # 4-byte Folded Spill
	lw	a4, 0(a0)
	addi	a5, a4, -16
	li	s0, 16
	li	a3, 2
	bltu	s0, a5, .Lgcm_BB64_4
# %bb.1:
	lui	s0, 16
	addi	s0, s0, 257
	srl	a5, s0, a5
	andi	a5, a5, 1
	beqz	a5, .Lgcm_BB64_4
# %bb.2:                                # %join.3.i.i
	addi	a7, a0, 4
	srli	a5, a4, 31
	slli	a4, a4, 1
	addi	a6, a0, 484
	lw	s0, 24(a1)
	lw	a0, 28(a1)
	addi	a3, a4, 56
	sltu	a4, a3, a4
	add	a4, a4, a5
	li	a5, 3
	sw	a7, 0(sp)
	sw	zero, 4(sp)
	sw	a3, 8(sp)
	sw	a4, 12(sp)
	seqz	a3, s0
	sub	a0, a0, a3
	addi	a3, s0, -1
	sltiu	a3, a3, 4
	seqz	a0, a0
	and	a0, a0, a3
	neg	a0, a0
	and	a0, a0, s0
	ori	a0, a0, 2
	zext.b	a0, a0
	sw	a6, 16(sp)
	sw	zero, 20(sp)
	bne	a0, a5, .Lgcm_BB64_5
# %bb.3:                                # %arm.4.i.i
	mv	a0, sp
	mv	s0, a1
	call	gcm.gcm.mode.BorrowedGcm.put_tag_so_far
	call	gcm.aes_cipher.zeroize.stack.wipe_stack.512
	mv	a0, s0
	call	gcm.gcm.message_state.MessageZeroize.zeroize
	li	a3, 0
.Lgcm_BB64_4:                               # %wide_fotsgure_gcm_finish_unverified.exit
	mv	a0, a3
	lw	ra, 28(sp)                      # 4-byte Folded Reload
	lw	s0, 24(sp)                      # 4-byte Folded Reload
	addi	sp, sp, 32
	li	a1, 0
	li	a2, 0
	li	a3, 0
	li	a4, 0
	li	a5, 0
	li	a6, 0
	li	a7, 0
	li	t0, 0
	li	t1, 0
	li	t2, 0
	li	t3, 0
	li	t4, 0
	li	t5, 0
	li	t6, 0
	ret
.Lgcm_BB64_5:
	li	a0, 8
	lw	ra, 28(sp)                      # 4-byte Folded Reload
	lw	s0, 24(sp)                      # 4-byte Folded Reload
	addi	sp, sp, 32
	li	a1, 0
	li	a2, 0
	li	a3, 0
	li	a4, 0
	li	a5, 0
	li	a6, 0
	li	a7, 0
	li	t0, 0
	li	t1, 0
	li	t2, 0
	li	t3, 0
	li	t4, 0
	li	t5, 0
	li	t6, 0
	ret
.Lgcm_func_end64:
	.size	gcm.fotsgure_gcm_finish_unverified, .Lgcm_func_end64-gcm.fotsgure_gcm_finish_unverified
                                        # -- End function
	.section	.text.gcm.fotsgure_gcm_wipe_message,"ax",@progbits
	export_gcm	fotsgure_gcm_wipe_message
	.p2align	1
	.type	gcm.fotsgure_gcm_wipe_message,@function
gcm.fotsgure_gcm_wipe_message:              # @gcm.fotsgure_gcm_wipe_message
# %bb.0:
	addi	sp, sp, -16
	sw	ra, 12(sp)                      # 4-byte Folded Spill
	sw	s0, 8(sp)                       # 4-byte Folded Spill
	mv	s0, a0
	li	a2, 80
	li	a1, 0
	call	memset
	mv	a0, s0
	lw	ra, 12(sp)                      # 4-byte Folded Reload
	lw	s0, 8(sp)                       # 4-byte Folded Reload
	addi	sp, sp, 16
	tail	gcm.gcm.message_state.MessageZeroize.zeroize
.Lgcm_func_end65:
	.size	gcm.fotsgure_gcm_wipe_message, .Lgcm_func_end65-gcm.fotsgure_gcm_wipe_message
                                        # -- End function
	.section	.text.gcm.fotsgure_gcm_siv_set_key,"ax",@progbits
	export_gcm	fotsgure_gcm_siv_set_key
	.p2align	1
	.type	gcm.fotsgure_gcm_siv_set_key,@function
gcm.fotsgure_gcm_siv_set_key:               # @gcm.fotsgure_gcm_siv_set_key
# %bb.0:
	addi	sp, sp, -32
	sw	ra, 28(sp)                      # 4-byte Folded Spill
	sw	s0, 24(sp)                      # 4-byte Folded Spill
	sw	s1, 20(sp)                      # 4-byte Folded Spill
	sw	s2, 16(sp)                      # 4-byte Folded Spill
	sw	s3, 12(sp)                      # 4-byte Folded Spill
	mv	s0, a2
	li	a2, 16
	beq	s0, a2, .Lgcm_BB66_2
# %bb.1:
	li	a2, 32
	bne	s0, a2, .Lgcm_BB66_3
.Lgcm_BB66_2:                               # %join.3.i.i
	seqz	a2, a1
	slli	a2, a2, 12
	add	s1, a1, a2
	addi	s2, a0, 4
	li	a2, 480
	mv	s3, a0
	mv	a0, s2
	li	a1, 0
	call	memset
	mv	a0, s2
	mv	a1, s1
	mv	a2, s0
	li	a3, 0
	call	gcm.aes_narrow.word_room.expand_words
	call	gcm.aes_cipher.zeroize.stack.wipe_stack.768
	li	a0, 0
	sw	s0, 0(s3)
	j	.Lgcm_BB66_4
.Lgcm_BB66_3:                               # %then.1.i.i
	li	a2, 484
	li	a1, 0
	call	memset
	li	a0, 1
.Lgcm_BB66_4:                               # %wide_fotsgure_gcm_siv_set_key.exit
	lw	ra, 28(sp)                      # 4-byte Folded Reload
	lw	s0, 24(sp)                      # 4-byte Folded Reload
	lw	s1, 20(sp)                      # 4-byte Folded Reload
	lw	s2, 16(sp)                      # 4-byte Folded Reload
	lw	s3, 12(sp)                      # 4-byte Folded Reload
	addi	sp, sp, 32
	li	a1, 0
	li	a2, 0
	li	a3, 0
	li	a4, 0
	li	a5, 0
	li	a6, 0
	li	a7, 0
	li	t0, 0
	li	t1, 0
	li	t2, 0
	li	t3, 0
	li	t4, 0
	li	t5, 0
	li	t6, 0
	ret
.Lgcm_func_end66:
	.size	gcm.fotsgure_gcm_siv_set_key, .Lgcm_func_end66-gcm.fotsgure_gcm_siv_set_key
                                        # -- End function
	.section	.text.gcm.fotsgure_gcm_siv_seal,"ax",@progbits
	export_gcm	fotsgure_gcm_siv_seal
	.p2align	1
	.type	gcm.fotsgure_gcm_siv_seal,@function
gcm.fotsgure_gcm_siv_seal:                  # @gcm.fotsgure_gcm_siv_seal
# %bb.0:
	addi	sp, sp, -48
	sw	ra, 44(sp)                      # 4-byte Folded Spill
	sw	s0, 40(sp)                      # 4-byte Folded Spill
	sw	s1, 36(sp)                      # 4-byte Folded Spill
	sw	s2, 32(sp)                      # 4-byte Folded Spill
	mv	s2, a6
	mv	t4, a5
	mv	a6, a3
	mv	a3, a2
	lw	a2, 0(a0)
	li	a5, 32
	mv	s0, a1
	beq	a2, a5, .Lgcm_BB67_2
# %bb.1:
	li	a1, 16
	bne	a2, a1, .Lgcm_BB67_3
.Lgcm_BB67_2:                               # %join.3.i.i
	seqz	a1, a4
	seqz	a5, a3
	addi	a0, a0, 4
	srli	s1, a2, 31
	slli	a1, a1, 12
	add	t3, a4, a1
	slli	a1, a2, 1
	slli	a5, a5, 12
	add	a5, a5, a3
	addi	a3, a1, 56
	sltu	a1, a3, a1
	add	a1, a1, s1
	sw	a0, 0(sp)
	sw	zero, 4(sp)
	sw	a3, 8(sp)
	sw	a1, 12(sp)
	addi	a0, sp, 16
	mv	a1, sp
	li	a3, 0
	mv	a4, s0
	li	a7, 0
	li	t5, 0
	call	gcm.gcm_siv.course.seal_in
	addi	a1, sp, 16
	li	a2, 16
	mv	a0, s2
	call	memcpy
	li	a0, 0
	lw	ra, 44(sp)                      # 4-byte Folded Reload
	lw	s0, 40(sp)                      # 4-byte Folded Reload
	lw	s1, 36(sp)                      # 4-byte Folded Reload
	lw	s2, 32(sp)                      # 4-byte Folded Reload
	addi	sp, sp, 48
	li	a1, 0
	li	a2, 0
	li	a3, 0
	li	a4, 0
	li	a5, 0
	li	a6, 0
	li	a7, 0
	li	t0, 0
	li	t1, 0
	li	t2, 0
	li	t3, 0
	li	t4, 0
	li	t5, 0
	li	t6, 0
	ret
.Lgcm_BB67_3:
	li	a0, 2
	lw	ra, 44(sp)                      # 4-byte Folded Reload
	lw	s0, 40(sp)                      # 4-byte Folded Reload
	lw	s1, 36(sp)                      # 4-byte Folded Reload
	lw	s2, 32(sp)                      # 4-byte Folded Reload
	addi	sp, sp, 48
	li	a1, 0
	li	a2, 0
	li	a3, 0
	li	a4, 0
	li	a5, 0
	li	a6, 0
	li	a7, 0
	li	t0, 0
	li	t1, 0
	li	t2, 0
	li	t3, 0
	li	t4, 0
	li	t5, 0
	li	t6, 0
	ret
.Lgcm_func_end67:
	.size	gcm.fotsgure_gcm_siv_seal, .Lgcm_func_end67-gcm.fotsgure_gcm_siv_seal
                                        # -- End function
	.section	.text.gcm.fotsgure_gcm_siv_seal_to,"ax",@progbits
	export_gcm	fotsgure_gcm_siv_seal_to
	.p2align	1
	.type	gcm.fotsgure_gcm_siv_seal_to,@function
gcm.fotsgure_gcm_siv_seal_to:               # @gcm.fotsgure_gcm_siv_seal_to
# %bb.0:
	bne	a5, a7, .Lgcm_BB68_6
# %bb.1:                                # %join.3.i.i
	addi	sp, sp, -80
	sw	ra, 76(sp)                      # 4-byte Folded Spill
	sw	s0, 72(sp)                      # 4-byte Folded Spill
	sw	s1, 68(sp)                      # 4-byte Folded Spill
	sw	s2, 64(sp)                      # 4-byte Folded Spill
	sw	s3, 60(sp)                      # 4-byte Folded Spill
	sw	s4, 56(sp)                      # 4-byte Folded Spill
	sw	s5, 52(sp)                      # 4-byte Folded Spill
	sw	s6, 48(sp)                      # 4-byte Folded Spill
	sw	s7, 44(sp)                      # 4-byte Folded Spill
	mv	s7, a5
	mv	s3, a1
	lw	a1, 0(a0)
	li	a5, 32
	beq	a1, a5, .Lgcm_BB68_3
# %bb.2:                                # %join.3.i.i
	li	a5, 16
	bne	a1, a5, .Lgcm_BB68_13
.Lgcm_BB68_3:                               # %join.6.i.i
	seqz	a1, a4
	slli	a1, a1, 12
	add	a1, a1, a4
	seqz	a4, a6
	slli	a4, a4, 12
	add	s6, a6, a4
	bgeu	s6, a1, .Lgcm_BB68_7
# %bb.4:                                # %join.6.i.i
	li	a4, 1
	mv	s2, a3
	beqz	a4, .Lgcm_BB68_8
.Lgcm_BB68_5:                               # %apart.2.i.i.i.i.i.i.i.i
	mv	s4, a0
	mv	a0, s6
	mv	s5, a2
	mv	a2, s7
	call	memmove
	mv	a0, s4
	mv	a2, s5
	j	.Lgcm_BB68_10
.Lgcm_BB68_6:
	li	a0, 10
	li	a1, 0
	li	a2, 0
	li	a3, 0
	li	a4, 0
	li	a5, 0
	li	a6, 0
	li	a7, 0
	li	t0, 0
	li	t1, 0
	li	t2, 0
	li	t3, 0
	li	t4, 0
	li	t5, 0
	li	t6, 0
	ret
.Lgcm_BB68_7:
	sub	a4, s6, a1
	sltu	a4, a4, s7
	xori	a4, a4, 1
	mv	s2, a3
	bnez	a4, .Lgcm_BB68_5
.Lgcm_BB68_8:                               # %join.7.i.i.i.i.i.i.i.i.preheader
	li	a3, 0
	li	s0, 0
.Lgcm_BB68_9:                               # %join.7.i.i.i.i.i.i.i.i
                                        # =>This Inner Loop Header: Depth=1
	add	a6, s6, a3
	add	s1, a1, a3
	addi	a3, a3, 1
	lbu	s1, 0(s1)
	seqz	a4, a3
	add	s0, s0, a4
	sltu	a4, a3, s7
	seqz	a5, s0
	and	a4, a4, a5
	sb	s1, 0(a6)
	bnez	a4, .Lgcm_BB68_9
.Lgcm_BB68_10:                              # %"core::slice::edits::slice+T::copy_from_slice::<i8,20'core::clone::U8Clone{}>.exit.i.i"
	lw	a3, 0(a0)
	li	a1, 32
	beq	a3, a1, .Lgcm_BB68_12
# %bb.11:                               # %"core::slice::edits::slice+T::copy_from_slice::<i8,20'core::clone::U8Clone{}>.exit.i.i"
	li	a1, 16
	bne	a3, a1, .Lgcm_BB68_13
.Lgcm_BB68_12:                              # %join.3.i.i.i
	seqz	a1, a2
	lw	s4, 80(sp)
	addi	a0, a0, 4
	srli	a4, a3, 31
	slli	s1, a3, 1
	slli	a1, a1, 12
	add	a5, a2, a1
	addi	a1, s1, 56
	sltu	a2, a1, s1
	add	a2, a2, a4
	sw	a0, 8(sp)
	sw	zero, 12(sp)
	sw	a1, 16(sp)
	sw	a2, 20(sp)
	addi	a0, sp, 28
	addi	a1, sp, 8
	mv	a2, a3
	li	a3, 0
	mv	a4, s3
	mv	a6, s2
	li	a7, 0
	mv	t3, s6
	mv	t4, s7
	li	t5, 0
	call	gcm.gcm_siv.course.seal_in
	addi	a1, sp, 28
	li	a2, 16
	mv	a0, s4
	call	memcpy
	li	a0, 0
	j	.Lgcm_BB68_14
.Lgcm_BB68_13:
	li	a0, 2
.Lgcm_BB68_14:
	lw	ra, 76(sp)                      # 4-byte Folded Reload
	lw	s0, 72(sp)                      # 4-byte Folded Reload
	lw	s1, 68(sp)                      # 4-byte Folded Reload
	lw	s2, 64(sp)                      # 4-byte Folded Reload
	lw	s3, 60(sp)                      # 4-byte Folded Reload
	lw	s4, 56(sp)                      # 4-byte Folded Reload
	lw	s5, 52(sp)                      # 4-byte Folded Reload
	lw	s6, 48(sp)                      # 4-byte Folded Reload
	lw	s7, 44(sp)                      # 4-byte Folded Reload
	addi	sp, sp, 80
	li	a1, 0
	li	a2, 0
	li	a3, 0
	li	a4, 0
	li	a5, 0
	li	a6, 0
	li	a7, 0
	li	t0, 0
	li	t1, 0
	li	t2, 0
	li	t3, 0
	li	t4, 0
	li	t5, 0
	li	t6, 0
	ret
.Lgcm_func_end68:
	.size	gcm.fotsgure_gcm_siv_seal_to, .Lgcm_func_end68-gcm.fotsgure_gcm_siv_seal_to
                                        # -- End function
	.section	.text.gcm.fotsgure_gcm_siv_open,"ax",@progbits
	export_gcm	fotsgure_gcm_siv_open
	.p2align	1
	.type	gcm.fotsgure_gcm_siv_open,@function
gcm.fotsgure_gcm_siv_open:                  # @gcm.fotsgure_gcm_siv_open
# %bb.0:
	mv	t5, a6
	mv	t3, a5
	mv	a6, a3
	lw	a5, 0(a0)
	li	a3, 32
	mv	t0, a1
	beq	a5, a3, .Lgcm_BB69_2
# %bb.1:
	li	a1, 16
	bne	a5, a1, .Lgcm_BB69_3
.Lgcm_BB69_2:                               # %join.3.i.i
	addi	sp, sp, -32
	sw	ra, 28(sp)                      # 4-byte Folded Spill
	seqz	a1, a4
	seqz	a3, a2
	addi	t1, a0, 4
	srli	a0, a5, 31
	slli	a1, a1, 12
	add	a7, a4, a1
	slli	a1, a5, 1
	slli	a3, a3, 12
	add	a4, a2, a3
	addi	a2, a1, 56
	sltu	a1, a2, a1
	add	a0, a0, a1
	sw	t1, 8(sp)
	sw	zero, 12(sp)
	sw	a2, 16(sp)
	sw	a0, 20(sp)
	addi	a0, sp, 8
	mv	a1, a5
	li	a2, 0
	mv	a3, t0
	mv	a5, a6
	li	a6, 0
	li	t4, 0
	call	gcm.gcm_siv.course.open_in
	addi	a0, a0, -1
	andi	a0, a0, 6
	lw	ra, 28(sp)                      # 4-byte Folded Reload
	addi	sp, sp, 32
	li	a1, 0
	li	a2, 0
	li	a3, 0
	li	a4, 0
	li	a5, 0
	li	a6, 0
	li	a7, 0
	li	t0, 0
	li	t1, 0
	li	t2, 0
	li	t3, 0
	li	t4, 0
	li	t5, 0
	li	t6, 0
	ret
.Lgcm_BB69_3:
	li	a0, 2
	li	a1, 0
	li	a2, 0
	li	a3, 0
	li	a4, 0
	li	a5, 0
	li	a6, 0
	li	a7, 0
	li	t0, 0
	li	t1, 0
	li	t2, 0
	li	t3, 0
	li	t4, 0
	li	t5, 0
	li	t6, 0
	ret
.Lgcm_func_end69:
	.size	gcm.fotsgure_gcm_siv_open, .Lgcm_func_end69-gcm.fotsgure_gcm_siv_open
                                        # -- End function
	.section	.text.gcm.fotsgure_gcm_siv_open_to,"ax",@progbits
	export_gcm	fotsgure_gcm_siv_open_to
	.p2align	1
	.type	gcm.fotsgure_gcm_siv_open_to,@function
gcm.fotsgure_gcm_siv_open_to:               # @gcm.fotsgure_gcm_siv_open_to
# %bb.0:
	bne	a5, a7, .Lgcm_BB70_6
# %bb.1:                                # %join.3.i.i
	addi	sp, sp, -64
	sw	ra, 60(sp)                      # 4-byte Folded Spill
	sw	s0, 56(sp)                      # 4-byte Folded Spill
	sw	s1, 52(sp)                      # 4-byte Folded Spill
	sw	s2, 48(sp)                      # 4-byte Folded Spill
	sw	s3, 44(sp)                      # 4-byte Folded Spill
	sw	s4, 40(sp)                      # 4-byte Folded Spill
	sw	s5, 36(sp)                      # 4-byte Folded Spill
	sw	s6, 32(sp)                      # 4-byte Folded Spill
	sw	s7, 28(sp)                      # 4-byte Folded Spill
	mv	s7, a5
	mv	s3, a1
	lw	a1, 0(a0)
	li	a5, 32
	beq	a1, a5, .Lgcm_BB70_3
# %bb.2:                                # %join.3.i.i
	li	a5, 16
	bne	a1, a5, .Lgcm_BB70_14
.Lgcm_BB70_3:                               # %join.6.i.i
	seqz	a1, a4
	slli	a1, a1, 12
	add	a1, a1, a4
	seqz	a4, a6
	slli	a4, a4, 12
	add	s6, a6, a4
	bgeu	s6, a1, .Lgcm_BB70_7
# %bb.4:                                # %join.6.i.i
	li	a4, 1
	mv	s2, a3
	beqz	a4, .Lgcm_BB70_8
.Lgcm_BB70_5:                               # %apart.2.i.i.i.i.i.i.i.i
	mv	s4, a0
	mv	a0, s6
	mv	s5, a2
	mv	a2, s7
	call	memmove
	mv	a0, s4
	mv	a2, s5
	j	.Lgcm_BB70_10
.Lgcm_BB70_6:
	li	a0, 10
	li	a1, 0
	li	a2, 0
	li	a3, 0
	li	a4, 0
	li	a5, 0
	li	a6, 0
	li	a7, 0
	li	t0, 0
	li	t1, 0
	li	t2, 0
	li	t3, 0
	li	t4, 0
	li	t5, 0
	li	t6, 0
	ret
.Lgcm_BB70_7:
	sub	a4, s6, a1
	sltu	a4, a4, s7
	xori	a4, a4, 1
	mv	s2, a3
	bnez	a4, .Lgcm_BB70_5
.Lgcm_BB70_8:                               # %join.7.i.i.i.i.i.i.i.i.preheader
	li	a3, 0
	li	s0, 0
.Lgcm_BB70_9:                               # %join.7.i.i.i.i.i.i.i.i
                                        # =>This Inner Loop Header: Depth=1
	add	a6, s6, a3
	add	s1, a1, a3
	addi	a3, a3, 1
	lbu	s1, 0(s1)
	seqz	a4, a3
	add	s0, s0, a4
	sltu	a4, a3, s7
	seqz	a5, s0
	and	a4, a4, a5
	sb	s1, 0(a6)
	bnez	a4, .Lgcm_BB70_9
.Lgcm_BB70_10:                              # %"core::slice::edits::slice+T::copy_from_slice::<i8,20'core::clone::U8Clone{}>.exit.i.i"
	lw	a1, 0(a0)
	li	a3, 32
	beq	a1, a3, .Lgcm_BB70_12
# %bb.11:                               # %"core::slice::edits::slice+T::copy_from_slice::<i8,20'core::clone::U8Clone{}>.exit.i.i"
	li	a3, 16
	bne	a1, a3, .Lgcm_BB70_16
.Lgcm_BB70_12:                              # %join.3.i.i.i
	seqz	a3, a2
	lw	t5, 64(sp)
	addi	a0, a0, 4
	srli	a5, a1, 31
	slli	s1, a1, 1
	slli	a3, a3, 12
	add	a4, a2, a3
	addi	a2, s1, 56
	sltu	a3, a2, s1
	add	a3, a3, a5
	sw	a0, 8(sp)
	sw	zero, 12(sp)
	sw	a2, 16(sp)
	sw	a3, 20(sp)
	addi	a0, sp, 8
	li	a2, 0
	mv	a3, s3
	mv	a5, s2
	li	a6, 0
	mv	a7, s6
	mv	t3, s7
	li	t4, 0
	call	gcm.gcm_siv.course.open_in
	beqz	a0, .Lgcm_BB70_15
# %bb.13:                               # %"gcm_c::siv::fotsgure_gcm_siv_open.exit.i.i"
	li	a0, 0
	j	.Lgcm_BB70_20
.Lgcm_BB70_14:
	li	a0, 2
	j	.Lgcm_BB70_20
.Lgcm_BB70_15:
	li	a0, 6
	bnez	s7, .Lgcm_BB70_17
	j	.Lgcm_BB70_20
.Lgcm_BB70_16:
	li	a0, 2
	beqz	s7, .Lgcm_BB70_20
.Lgcm_BB70_17:                              # %loop.5.preheader.i.i.i
	addi	s2, s7, -1
	snez	a1, s7
	addi	a1, a1, -1
	or	a1, s2, a1
	beqz	a1, .Lgcm_BB70_19
# %bb.18:                               # %join.8.preheader.i.i.i
	mv	s0, a0
	mv	a0, s6
	li	a1, 0
	mv	a2, s2
	call	memset
	mv	a0, s0
.Lgcm_BB70_19:                              # %after.4.i.i.i
	add	s2, s2, s6
	sb	zero, 0(s2)
.Lgcm_BB70_20:
	lw	ra, 60(sp)                      # 4-byte Folded Reload
	lw	s0, 56(sp)                      # 4-byte Folded Reload
	lw	s1, 52(sp)                      # 4-byte Folded Reload
	lw	s2, 48(sp)                      # 4-byte Folded Reload
	lw	s3, 44(sp)                      # 4-byte Folded Reload
	lw	s4, 40(sp)                      # 4-byte Folded Reload
	lw	s5, 36(sp)                      # 4-byte Folded Reload
	lw	s6, 32(sp)                      # 4-byte Folded Reload
	lw	s7, 28(sp)                      # 4-byte Folded Reload
	addi	sp, sp, 64
	li	a1, 0
	li	a2, 0
	li	a3, 0
	li	a4, 0
	li	a5, 0
	li	a6, 0
	li	a7, 0
	li	t0, 0
	li	t1, 0
	li	t2, 0
	li	t3, 0
	li	t4, 0
	li	t5, 0
	li	t6, 0
	ret
.Lgcm_func_end70:
	.size	gcm.fotsgure_gcm_siv_open_to, .Lgcm_func_end70-gcm.fotsgure_gcm_siv_open_to
                                        # -- End function
	.section	.text.gcm.fotsgure_gcm_siv_wipe,"ax",@progbits
	export_gcm	fotsgure_gcm_siv_wipe
	.p2align	1
	.type	gcm.fotsgure_gcm_siv_wipe,@function
gcm.fotsgure_gcm_siv_wipe:                  # @gcm.fotsgure_gcm_siv_wipe
# %bb.0:
	addi	sp, sp, -16
	sw	ra, 12(sp)                      # 4-byte Folded Spill
	sw	s0, 8(sp)                       # 4-byte Folded Spill
	addi	s0, a0, 4
	li	a2, 484
	li	a1, 0
	call	memset
	mv	a0, s0
	lw	ra, 12(sp)                      # 4-byte Folded Reload
	lw	s0, 8(sp)                       # 4-byte Folded Reload
	addi	sp, sp, 16
	tail	gcm.aes_cipher.zeroize.elements.zeroize_elements.1
.Lgcm_func_end71:
	.size	gcm.fotsgure_gcm_siv_wipe, .Lgcm_func_end71-gcm.fotsgure_gcm_siv_wipe
                                        # -- End function
	.type	.Lgcm_static.0,@object              # @static.0
	.section	.rodata..Lgcm_static.0,"a",@progbits
.Lgcm_static.0:
	.ascii	"\001\002\004\b\020 @\200\0336"
	.size	.Lgcm_static.0, 10

	.ident	"rattle logic=dac8208d650f15bf3e2dc313a14fa4c783a3acf887bdfab66e1714b038d9e11b"
	.section	".note.GNU-stack","",@progbits

	.section	.note.fotsgure,"",%note
	.p2align	2, 0x0
	.long	9, 116, 1
	.asciz	"Fotsgure"
	.p2align	2, 0x0
	.asciz	"fotsgure_gcm 0.4.0, riscv32/gcm.s, sources SHA-256 7839658995c36f00d13f13ab6f42fa9360d959953d441bf3a57996a9c2aa56dc"
	.p2align	2, 0x0
