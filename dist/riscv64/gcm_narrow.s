# Made by tools/dist from the proved crate gcm_c; BUILD says from what. Don't edit it.
/* A Rust crate defines in_rust; for x86-64, a static library of both builds defines chosen, and choose_*.c calls these names. */
	.macro	export_gcm_narrow name
	.ifdef	in_rust
	.globl	gcm_narrow.\name
	.hidden	gcm_narrow.\name
	.else
	.ifdef	chosen
	.globl	\name\()_narrow
	.hidden	\name\()_narrow
	.set	\name\()_narrow, gcm_narrow.\name
	.else
	.globl	\name
	.set	\name, gcm_narrow.\name
	.endif
	.endif
	.endm
	.file	"rattle"
	.section	.text.gcm_narrow.aes_cipher.zeroize.elements.zeroize_elements.1,"ax",@progbits
	.p2align	1                               # -- Begin function aes_cipher::zeroize::elements::zeroize_elements::<#dc00545c7fcbb52d>
	.type	gcm_narrow.aes_cipher.zeroize.elements.zeroize_elements.1,@function
gcm_narrow.aes_cipher.zeroize.elements.zeroize_elements.1: # @gcm_narrow.aes_cipher.zeroize.elements.zeroize_elements.1
# %bb.0:                                # %start
	addi	sp, sp, -32
	sd	ra, 24(sp)                      # 8-byte Folded Spill
	sd	s0, 16(sp)                      # 8-byte Folded Spill
	sd	s1, 8(sp)                       # 8-byte Folded Spill
	sd	zero, 0(sp)
	#APP
	#NO_APP
	fence	rw, rw
	ld	a1, 0(sp)
	fence	r, rw
	#APP
	#NO_APP
	li	a2, 120
	bgeu	a1, a2, .Lgcm_narrow_BB0_2
# %bb.1:                                # %then.1.i
	slli	a1, a1, 3
	add	s0, a0, a1
	lbu	s1, 0(s0)
	li	a2, 960
	li	a1, 0
	la	t1, memset
	jalr	t1
	lbu	a0, 0(s0)
	and	a0, a0, s1
	j	.Lgcm_narrow_BB0_3
.Lgcm_narrow_BB0_2:                                # %"aes_cipher::zeroize::observe::<#5fa2a95c26537284>.exit11"
	li	a2, 960
	li	a1, 0
	la	t1, memset
	jalr	t1
	li	a0, 0
.Lgcm_narrow_BB0_3:                                # %"aes_cipher::zeroize::observe::<#5fa2a95c26537284>.exit"
	#APP
	#NO_APP
	mv	a1, sp
	amoswap.d.aqrl	zero, a0, (a1)
	#APP
	#NO_APP
	ld	ra, 24(sp)                      # 8-byte Folded Reload
	ld	s0, 16(sp)                      # 8-byte Folded Reload
	ld	s1, 8(sp)                       # 8-byte Folded Reload
	addi	sp, sp, 32
	li	a1, 0
	li	a2, 0
	li	a3, 0
	li	a4, 0
	li	a5, 0
	li	a6, 0
	li	a7, 0
	li	t0, 0
	li	t1, 0
	li	t2, 0
	li	t3, 0
	li	t4, 0
	li	t5, 0
	li	t6, 0
	ret
.Lgcm_narrow_func_end0:
	.size	gcm_narrow.aes_cipher.zeroize.elements.zeroize_elements.1, .Lgcm_narrow_func_end0-gcm_narrow.aes_cipher.zeroize.elements.zeroize_elements.1
                                        # -- End function
	.section	.text.gcm_narrow.aes_cipher.zeroize.elements.zeroize_elements.2,"ax",@progbits
	.p2align	1                               # -- Begin function aes_cipher::zeroize::elements::zeroize_elements::<#d3d1c9d97fea966e>
	.type	gcm_narrow.aes_cipher.zeroize.elements.zeroize_elements.2,@function
gcm_narrow.aes_cipher.zeroize.elements.zeroize_elements.2: # @gcm_narrow.aes_cipher.zeroize.elements.zeroize_elements.2
# %bb.0:                                # %start
	addi	sp, sp, -48
	sd	ra, 40(sp)                      # 8-byte Folded Spill
	sd	s0, 32(sp)                      # 8-byte Folded Spill
	sd	s1, 24(sp)                      # 8-byte Folded Spill
	sd	zero, 8(sp)
	sd	zero, 16(sp)
	sd	zero, 0(sp)
	#APP
	#NO_APP
	fence	rw, rw
	ld	a1, 0(sp)
	fence	r, rw
	#APP
	#NO_APP
	beqz	a1, .Lgcm_narrow_BB1_2
# %bb.1:                                # %"aes_cipher::zeroize::observe::<#32a0ae3c0a3d48e0>.exit8"
	addi	a1, sp, 8
	li	a2, 16
	la	t1, memcpy
	jalr	t1
	li	a0, 0
	j	.Lgcm_narrow_BB1_3
.Lgcm_narrow_BB1_2:                                # %then.1.i
	lbu	s1, 0(a0)
	addi	a1, sp, 8
	li	a2, 16
	mv	s0, a0
	la	t1, memcpy
	jalr	t1
	lbu	a0, 0(s0)
	and	a0, a0, s1
.Lgcm_narrow_BB1_3:                                # %"aes_cipher::zeroize::observe::<#32a0ae3c0a3d48e0>.exit"
	#APP
	#NO_APP
	mv	a1, sp
	amoswap.d.aqrl	zero, a0, (a1)
	#APP
	#NO_APP
	ld	ra, 40(sp)                      # 8-byte Folded Reload
	ld	s0, 32(sp)                      # 8-byte Folded Reload
	ld	s1, 24(sp)                      # 8-byte Folded Reload
	addi	sp, sp, 48
	li	a1, 0
	li	a2, 0
	li	a3, 0
	li	a4, 0
	li	a5, 0
	li	a6, 0
	li	a7, 0
	li	t0, 0
	li	t1, 0
	li	t2, 0
	li	t3, 0
	li	t4, 0
	li	t5, 0
	li	t6, 0
	ret
.Lgcm_narrow_func_end1:
	.size	gcm_narrow.aes_cipher.zeroize.elements.zeroize_elements.2, .Lgcm_narrow_func_end1-gcm_narrow.aes_cipher.zeroize.elements.zeroize_elements.2
                                        # -- End function
	.section	.text.gcm_narrow.gcm.message_state.MessageZeroize.zeroize,"ax",@progbits
	.p2align	1                               # -- Begin function gcm::message_state::MessageZeroize::zeroize
	.type	gcm_narrow.gcm.message_state.MessageZeroize.zeroize,@function
gcm_narrow.gcm.message_state.MessageZeroize.zeroize: # @gcm_narrow.gcm.message_state.MessageZeroize.zeroize
# %bb.0:                                # %start
	addi	sp, sp, -16
	sd	ra, 8(sp)                       # 8-byte Folded Spill
	sd	s0, 0(sp)                       # 8-byte Folded Spill
	mv	s0, a0
	addi	a0, a0, 32
	sd	zero, 0(s0)
	sd	zero, 8(s0)
	sd	zero, 16(s0)
	sd	zero, 24(s0)
	call	gcm_narrow.aes_cipher.zeroize.elements.zeroize_elements.3
	addi	a0, s0, 48
	call	gcm_narrow.aes_cipher.zeroize.elements.zeroize_elements.3
	addi	a0, s0, 64
	ld	ra, 8(sp)                       # 8-byte Folded Reload
	ld	s0, 0(sp)                       # 8-byte Folded Reload
	addi	sp, sp, 16
	tail	gcm_narrow.aes_cipher.zeroize.elements.zeroize_elements.3
.Lgcm_narrow_func_end2:
	.size	gcm_narrow.gcm.message_state.MessageZeroize.zeroize, .Lgcm_narrow_func_end2-gcm_narrow.gcm.message_state.MessageZeroize.zeroize
                                        # -- End function
	.section	.text.gcm_narrow.aes_cipher.zeroize.elements.zeroize_elements.3,"ax",@progbits
	.p2align	1                               # -- Begin function aes_cipher::zeroize::elements::zeroize_elements::<#3b2097f0eef5a37b>
	.type	gcm_narrow.aes_cipher.zeroize.elements.zeroize_elements.3,@function
gcm_narrow.aes_cipher.zeroize.elements.zeroize_elements.3: # @gcm_narrow.aes_cipher.zeroize.elements.zeroize_elements.3
# %bb.0:                                # %start
	addi	sp, sp, -48
	sd	ra, 40(sp)                      # 8-byte Folded Spill
	sd	s0, 32(sp)                      # 8-byte Folded Spill
	sd	s1, 24(sp)                      # 8-byte Folded Spill
	sd	zero, 8(sp)
	sd	zero, 16(sp)
	sd	zero, 0(sp)
	#APP
	#NO_APP
	fence	rw, rw
	ld	a1, 0(sp)
	fence	r, rw
	#APP
	#NO_APP
	beqz	a1, .Lgcm_narrow_BB3_2
# %bb.1:                                # %"aes_cipher::zeroize::observe::<#ff6ee9ab78975cb2>.exit8"
	addi	a1, sp, 8
	li	a2, 16
	la	t1, memcpy
	jalr	t1
	li	a0, 0
	j	.Lgcm_narrow_BB3_3
.Lgcm_narrow_BB3_2:                                # %then.1.i
	lbu	s1, 0(a0)
	addi	a1, sp, 8
	li	a2, 16
	mv	s0, a0
	la	t1, memcpy
	jalr	t1
	lbu	a0, 0(s0)
	and	a0, a0, s1
.Lgcm_narrow_BB3_3:                                # %"aes_cipher::zeroize::observe::<#ff6ee9ab78975cb2>.exit"
	#APP
	#NO_APP
	mv	a1, sp
	amoswap.d.aqrl	zero, a0, (a1)
	#APP
	#NO_APP
	ld	ra, 40(sp)                      # 8-byte Folded Reload
	ld	s0, 32(sp)                      # 8-byte Folded Reload
	ld	s1, 24(sp)                      # 8-byte Folded Reload
	addi	sp, sp, 48
	li	a1, 0
	li	a2, 0
	li	a3, 0
	li	a4, 0
	li	a5, 0
	li	a6, 0
	li	a7, 0
	li	t0, 0
	li	t1, 0
	li	t2, 0
	li	t3, 0
	li	t4, 0
	li	t5, 0
	li	t6, 0
	ret
.Lgcm_narrow_func_end3:
	.size	gcm_narrow.aes_cipher.zeroize.elements.zeroize_elements.3, .Lgcm_narrow_func_end3-gcm_narrow.aes_cipher.zeroize.elements.zeroize_elements.3
                                        # -- End function
	.section	.rodata.cst8,"aM",@progbits,8
	.p2align	3, 0x0                          # -- Begin function aes_narrow::word_room::expand_words::<#c1bf765664b24187>
.Lgcm_narrow_CPI4_0:
	.quad	-4222189076152336               # 0xfff0fff0fff0fff0
.Lgcm_narrow_CPI4_1:
	.quad	-71777214294589696              # 0xff00ff00ff00ff00
	.section	.text.gcm_narrow.aes_narrow.word_room.expand_words,"ax",@progbits
	.p2align	1
	.type	gcm_narrow.aes_narrow.word_room.expand_words,@function
gcm_narrow.aes_narrow.word_room.expand_words: # @gcm_narrow.aes_narrow.word_room.expand_words
# %bb.0:                                # %start
	addi	sp, sp, -480
	sd	ra, 472(sp)                     # 8-byte Folded Spill
	sd	s0, 464(sp)                     # 8-byte Folded Spill
	sd	s1, 456(sp)                     # 8-byte Folded Spill
	sd	s2, 448(sp)                     # 8-byte Folded Spill
	sd	s3, 440(sp)                     # 8-byte Folded Spill
	sd	s4, 432(sp)                     # 8-byte Folded Spill
	sd	s5, 424(sp)                     # 8-byte Folded Spill
	sd	s6, 416(sp)                     # 8-byte Folded Spill
	sd	s7, 408(sp)                     # 8-byte Folded Spill
	sd	s8, 400(sp)                     # 8-byte Folded Spill
	sd	s9, 392(sp)                     # 8-byte Folded Spill
	sd	s10, 384(sp)                    # 8-byte Folded Spill
	sd	s11, 376(sp)                    # 8-byte Folded Spill
	mv	s10, a0
	lui	t5, 349525
	lui	t6, 209715
	lui	s2, 61681
	lbu	s6, 0(a1)
	lbu	s8, 1(a1)
	lbu	s5, 2(a1)
	lbu	s7, 3(a1)
	lbu	a0, 4(a1)
	lbu	s0, 5(a1)
	lbu	a3, 6(a1)
	lbu	a5, 7(a1)
	lbu	a6, 8(a1)
	lbu	a7, 9(a1)
	lbu	t0, 10(a1)
	lbu	t1, 11(a1)
	lbu	s4, 12(a1)
	lbu	t2, 13(a1)
	lbu	t3, 14(a1)
	lbu	t4, 15(a1)
	addi	a4, t5, 1365
	addi	s3, t6, 819
	addi	t6, s2, -241
	slli	s2, a4, 32
	slli	s1, s3, 32
	add	s2, s2, a4
	slli	a4, t6, 32
	add	s3, s3, s1
	add	t6, t6, a4
	slli	s0, s0, 16
	slli	a4, t2, 24
	slli	s1, s4, 8
	slli	a5, a5, 16
	or	t5, a4, s0
	slli	a4, t4, 24
	or	s9, a0, s1
	slli	s1, t3, 8
	slli	s0, s8, 16
	or	s8, a4, a5
	slli	a5, a7, 24
	or	a3, a3, s1
	slli	s1, a6, 8
	slli	s7, s7, 16
	or	a5, a5, s0
	slli	s0, t1, 24
	or	s1, s6, s1
	slli	a0, t0, 8
	or	s0, s0, s7
	or	a4, s5, a0
	or	a0, s9, t5
	or	a3, a3, s8
	or	a5, a5, s1
	or	a4, a4, s0
	slli	a3, a3, 32
	slli	a4, a4, 32
	or	a0, a0, a3
	or	a3, a5, a4
	srli	a5, a3, 1
	srli	a4, a0, 1
	xor	a5, a5, a3
	xor	a4, a4, a0
	and	a5, a5, s2
	and	a4, a4, s2
	slli	s0, a5, 1
	xor	s8, a5, a3
	slli	s1, a4, 1
	xor	a4, a4, a0
	xor	a3, a3, s0
	xor	t5, s1, a0
	srli	a5, s8, 2
	srli	s1, a4, 2
	srli	s0, a3, 2
	srli	a0, t5, 2
	xor	a5, a5, s8
	xor	s1, s1, a4
	xor	s0, s0, a3
	xor	a0, a0, t5
	and	a5, a5, s3
	and	s1, s1, s3
	and	s0, s0, s3
	and	a0, a0, s3
	slli	s5, a5, 2
	xor	s6, a5, s8
	slli	a5, s1, 2
	xor	s7, s1, a4
	xor	s8, s5, s8
	slli	s1, s0, 2
	xor	s9, s0, a3
	xor	a4, a4, a5
	slli	a5, a0, 2
	xor	a0, a0, t5
	xor	s5, s1, a3
	srli	s1, s6, 4
	xor	a5, a5, t5
	xor	s1, s1, s7
	and	s0, s1, t6
	slli	s1, s0, 4
	xor	a3, s1, s6
	sd	a3, 344(sp)                     # 8-byte Folded Spill
	srli	a3, s8, 4
	xor	a3, a3, a4
	and	a3, a3, t6
	xor	a4, a4, a3
	sd	a4, 328(sp)                     # 8-byte Folded Spill
	slli	a3, a3, 4
	xor	s8, a3, s8
	srli	a3, s9, 4
	xor	a3, a3, a0
	and	a3, a3, t6
	xor	a0, a0, a3
	sd	a0, 336(sp)                     # 8-byte Folded Spill
	slli	a3, a3, 4
	xor	ra, a3, s9
	srli	a0, s5, 4
	xor	a0, a0, a5
	and	a0, a0, t6
	xor	s9, a0, a5
	slli	a0, a0, 4
	xor	s11, a0, s5
	li	a0, 24
	xor	s6, s0, s7
	sd	s10, 16(sp)                     # 8-byte Folded Spill
	sd	a2, 8(sp)                       # 8-byte Folded Spill
	beq	a2, a0, .Lgcm_narrow_BB4_4
# %bb.1:                                # %start
	li	a0, 16
	beq	a2, a0, .Lgcm_narrow_BB4_2
	j	.Lgcm_narrow_BB4_6
.Lgcm_narrow_BB4_2:                                # %then.1.i156
.Lgcm_narrow_pcrel_hi0:
	auipc	a0, %pcrel_hi(.Lgcm_narrow_CPI4_0)
.Lgcm_narrow_pcrel_hi1:
	auipc	a1, %pcrel_hi(.Lgcm_narrow_CPI4_1)
	lui	a5, 240
	li	t1, 15
	sd	s11, 0(s10)
	mv	a2, s8
	sd	s8, 8(s10)
	sd	ra, 16(s10)
	ld	a4, 344(sp)                     # 8-byte Folded Reload
	sd	a4, 24(s10)
	sd	s9, 32(s10)
	ld	s0, 328(sp)                     # 8-byte Folded Reload
	sd	s0, 40(s10)
	ld	s1, 336(sp)                     # 8-byte Folded Reload
	sd	s1, 48(s10)
	sd	s6, 56(s10)
.Lgcm_narrow_pcrel_hi2:
	auipc	a3, %pcrel_hi(.Lgcm_narrow_static.0)
	ld	a0, %pcrel_lo(.Lgcm_narrow_pcrel_hi0)(a0)
	sd	a0, 352(sp)                     # 8-byte Folded Spill
	ld	a0, %pcrel_lo(.Lgcm_narrow_pcrel_hi1)(a1)
	sd	a0, 320(sp)                     # 8-byte Folded Spill
	addi	a5, a5, 15
	slli	t1, t1, 28
	sd	t1, 312(sp)                     # 8-byte Folded Spill
	slli	t5, a5, 32
	add	a5, a5, t5
	sd	a5, 304(sp)                     # 8-byte Folded Spill
	addi	a6, a3, %pcrel_lo(.Lgcm_narrow_pcrel_hi2)
	addi	s5, s10, 64
	mv	a5, s9
	sd	a6, 296(sp)                     # 8-byte Folded Spill
.Lgcm_narrow_BB4_3:                                # %join.5.i.i157
                                        # =>This Inner Loop Header: Depth=1
	sd	a6, 368(sp)                     # 8-byte Folded Spill
	xor	a1, s0, s1
	xor	s3, a5, s6
	xor	s8, a2, s6
	mv	t1, s6
	xor	s6, ra, a5
	xor	t3, ra, t1
	xor	a3, s11, a1
	xor	s7, s8, s6
	xor	s9, a3, a5
	xor	a0, s7, a4
	xor	s4, a3, t1
	xor	t6, a3, a2
	and	a2, s9, s11
	xor	s0, a0, ra
	mv	s2, s11
	xor	s11, a0, s1
	xor	t4, t6, t3
	and	a7, t6, a3
	xor	a0, s11, s3
	xor	t2, s0, s2
	and	s1, s0, s7
	xor	ra, s0, a1
	xor	a2, a2, t3
	and	a5, a0, s3
	xor	a1, a1, a0
	xor	a4, a0, ra
	sd	a4, 360(sp)                     # 8-byte Folded Spill
	xor	s10, a0, s2
	and	t5, ra, t3
	and	t0, t2, t4
	xor	a2, a2, ra
	xor	s11, s11, s1
	xor	a2, a2, s1
	and	s1, a4, s6
	xor	t0, s11, t0
	and	s11, s10, s4
	xor	a4, t5, a5
	xor	a5, a5, s1
	and	s1, a1, s8
	xor	a7, a1, a7
	xor	t5, a2, a4
	xor	a7, a7, s1
	xor	s11, a1, s11
	xor	s1, s1, t1
	xor	t0, t0, a5
	xor	a7, a7, s8
	xor	s1, s11, s1
	xor	t1, a7, a5
	xor	a4, a4, s1
	xor	s11, t0, t5
	and	s1, t1, t0
	xor	a7, a4, t1
	xor	t0, s1, t5
	xor	a5, s1, a4
	and	a7, t0, a7
	and	a2, a5, s11
	xor	a2, a2, t5
	lbu	t0, 0(a6)
	xor	s1, a7, s1
	xor	t5, a7, a4
	and	a4, a4, s1
	xor	a7, a4, a5
	xor	t1, a4, t1
	slli	a5, t0, 61
	srli	a5, a5, 63
	ld	a6, 312(sp)                     # 8-byte Folded Reload
	mul	a5, a5, a6
	and	s1, t5, s9
	xor	s9, s1, a5
	and	a5, a7, a2
	xor	a5, a5, s11
	and	s11, t5, s2
	and	a4, t1, s0
	and	s7, t1, s7
	xor	s0, t1, t5
	xor	s1, a2, t5
	and	a7, a2, s4
	and	t1, a2, s10
	and	t2, s0, t2
	and	t4, s0, t4
	xor	s0, s0, a5
	xor	a2, a2, a5
	and	a3, a3, a5
	and	t5, a5, t6
	xor	a5, a4, s11
	xor	t6, t2, a4
	and	a1, a1, a2
	and	a2, a2, s8
	and	t2, s1, a0
	and	a0, s1, s3
	and	a4, s0, ra
	xor	s1, s1, s0
	and	s4, s0, t3
	and	t3, s1, s6
	ld	s0, 360(sp)                     # 8-byte Folded Reload
	and	s1, s1, s0
	xor	s0, a5, t1
	xor	a3, a3, a1
	xor	a1, a1, s0
	xor	a4, a4, a5
	slli	a5, t0, 58
	srli	a5, a5, 63
	mul	a5, a5, a6
	xor	a5, a5, s4
	xor	s1, s1, a3
	xor	t1, t6, a3
	andi	s0, t0, 1
	mul	s0, s0, a6
	xor	s0, s0, a2
	xor	a2, a2, a4
	slli	a4, t0, 60
	srli	a4, a4, 63
	mul	a4, a4, a6
	xor	a3, a1, t5
	xor	t5, a1, a4
	xor	a4, t3, a0
	xor	a0, a0, a5
	xor	a5, a4, t4
	xor	a3, a3, a4
	xor	t4, a2, s1
	xor	a4, s1, t2
	slli	s1, t0, 62
	srli	s1, s1, 63
	mul	s1, s1, a6
	xor	t6, a3, s0
	xor	t2, a3, s1
	slli	s1, t0, 57
	xor	a1, a5, s7
	xor	t3, s9, a5
	srli	a3, t0, 7
	srli	s1, s1, 63
	mul	a3, a3, a6
	mul	s1, s1, a6
	xor	a5, a0, a4
	xor	s3, a4, s1
	xor	a3, a3, a4
	slli	t0, t0, 59
	srli	a4, t0, 63
	mul	a4, a4, a6
	xor	a0, t4, a7
	xor	a2, t1, a1
	xor	s0, t2, t4
	xor	s1, t3, a0
	xor	t1, a5, a0
	xor	a3, a3, a1
	srli	a5, t6, 28
	slli	t6, t6, 36
	xor	t3, t5, a2
	xor	t4, a2, a4
	xor	t5, s3, a2
	or	a7, t6, a5
	srli	t2, s0, 28
	slli	t0, s0, 36
	srli	s0, s1, 28
	slli	a5, s1, 36
	srli	a0, t1, 28
	slli	t1, t1, 36
	srli	a1, a3, 28
	slli	a3, a3, 36
	or	t2, t0, t2
	or	a5, a5, s0
	srli	s0, t3, 28
	slli	t3, t3, 36
	srli	a4, t4, 28
	slli	t4, t4, 36
	or	t1, t1, a0
	srli	a2, t5, 28
	slli	t5, t5, 36
	or	a3, a3, a1
	or	a6, t3, s0
	or	t3, t4, a4
	or	t0, t5, a2
	ld	s0, -64(s5)
	ld	a2, -56(s5)
	ld	a0, -48(s5)
	ld	s1, -40(s5)
	not	a4, a7
	ld	a1, 304(sp)                     # 8-byte Folded Reload
	and	a4, a4, a1
	xor	t4, a4, s0
	and	a5, a5, a1
	xor	t5, a5, a0
	ld	a5, -8(s5)
	not	s0, t2
	and	a0, a3, a1
	and	s0, s0, a1
	and	a3, a6, a1
	ld	a6, 368(sp)                     # 8-byte Folded Reload
	xor	t2, a0, a5
	xor	t6, s0, a2
	xor	s3, a3, s1
	ld	a5, -32(s5)
	ld	s1, -24(s5)
	ld	a7, -16(s5)
	and	s0, t3, a1
	xor	t3, s0, a5
	not	s0, t1
	and	s0, s0, a1
	xor	t1, s0, s1
	addi	a6, a6, 1
	not	s1, t0
	and	s1, s1, a1
	xor	a7, s1, a7
	slli	a4, t4, 4
	ld	s2, 352(sp)                     # 8-byte Folded Reload
	and	a4, a4, s2
	xor	t0, a4, t4
	slli	a0, t5, 4
	and	a0, a0, s2
	xor	a0, a0, t5
	slli	a1, t2, 4
	and	a1, a1, s2
	xor	t2, a1, t2
	slli	a2, t6, 4
	and	a2, a2, s2
	xor	a2, a2, t6
	slli	a3, s3, 4
	and	a3, a3, s2
	xor	a3, a3, s3
	slli	a5, t3, 4
	and	a5, a5, s2
	xor	a5, a5, t3
	slli	s0, t1, 4
	and	s0, s0, s2
	xor	s0, s0, t1
	slli	s1, a7, 4
	and	s1, s1, s2
	xor	s1, s1, a7
	slli	a4, t0, 8
	ld	a1, 320(sp)                     # 8-byte Folded Reload
	and	a4, a4, a1
	xor	s11, a4, t0
	slli	a4, a0, 8
	and	a4, a4, a1
	xor	ra, a4, a0
	slli	a0, t2, 8
	and	a0, a0, a1
	xor	s6, a0, t2
	slli	a0, a2, 8
	and	a0, a0, a1
	xor	a2, a2, a0
	slli	a0, a3, 8
	and	a0, a0, a1
	xor	a4, a0, a3
	slli	a0, a5, 8
	and	a0, a0, a1
	xor	a5, a5, a0
	slli	a0, s0, 8
	and	a0, a0, a1
	xor	s0, s0, a0
	slli	a0, s1, 8
	and	a0, a0, a1
	xor	s1, s1, a0
	ld	a0, 296(sp)                     # 8-byte Folded Reload
	addi	a0, a0, 10
	sd	s11, 0(s5)
	sd	a2, 8(s5)
	sd	ra, 16(s5)
	sd	a4, 24(s5)
	sd	a5, 32(s5)
	sd	s0, 40(s5)
	sd	s1, 48(s5)
	sd	s6, 56(s5)
	addi	s5, s5, 64
	bne	a6, a0, .Lgcm_narrow_BB4_3
	j	.Lgcm_narrow_BB4_9
.Lgcm_narrow_BB4_4:                                # %then.4.i154
	lui	a0, 4080
	lui	a2, 240
	lbu	a3, 23(a1)
	addi	a0, a0, 255
	addi	a2, a2, 15
	slli	a4, a0, 32
	add	a0, a0, a4
	sd	a0, 56(sp)                      # 8-byte Folded Spill
	slli	t5, a2, 32
	add	a2, a2, t5
	sd	a2, 48(sp)                      # 8-byte Folded Spill
	lbu	a0, 22(a1)
	slli	t4, t4, 16
	slli	a3, a3, 24
	or	t4, a3, t4
	lbu	a3, 21(a1)
	slli	a0, a0, 8
	or	a0, t3, a0
	lbu	a4, 20(a1)
	slli	t2, t2, 16
	slli	a3, a3, 24
	or	a3, a3, t2
	lbu	a5, 19(a1)
	slli	a4, a4, 8
	or	a4, s4, a4
	lbu	s1, 18(a1)
	slli	t1, t1, 16
	slli	a5, a5, 24
	or	a5, a5, t1
	lbu	s0, 16(a1)
	lbu	a1, 17(a1)
	slli	s1, s1, 8
	or	s1, t0, s1
.Lgcm_narrow_pcrel_hi3:
	auipc	s4, %pcrel_hi(.Lgcm_narrow_CPI4_0)
	slli	a7, a7, 16
	slli	a1, a1, 24
	or	a1, a1, a7
	lui	a2, 16
	addi	a2, a2, -1
	slli	s0, s0, 8
	or	s0, a6, s0
	and	a0, a0, a2
	and	a4, a4, a2
	and	s1, s1, a2
	and	a2, a2, s0
	or	a0, a0, t4
	or	a3, a3, a4
	or	a5, a5, s1
	or	a1, a1, a2
	slli	a0, a0, 32
	slli	a3, a3, 32
	slli	a5, a5, 32
	slli	a1, a1, 32
	srli	a3, a3, 32
	srli	a1, a1, 32
	or	a0, a0, a3
	or	a1, a1, a5
	srli	a2, a1, 1
	srli	a3, a0, 1
	xor	a2, a2, a1
	xor	a3, a3, a0
	and	a2, a2, s2
	and	a3, a3, s2
	slli	s1, a2, 1
	xor	a5, a2, a1
	slli	a4, a3, 1
	xor	a3, a3, a0
	xor	s1, s1, a1
	xor	a6, a4, a0
	srli	a0, a5, 2
	srli	a1, a3, 2
	srli	a2, s1, 2
	srli	a4, a6, 2
	xor	a0, a0, a5
	xor	a1, a1, a3
	xor	a2, a2, s1
	xor	a4, a4, a6
	and	a0, a0, s3
	and	a1, a1, s3
	and	a2, a2, s3
	and	a4, a4, s3
	slli	s0, a0, 2
	xor	a7, a0, a5
	slli	a0, a1, 2
	xor	a1, a1, a3
	slli	t1, a2, 2
	xor	t2, a2, s1
	slli	a2, a4, 2
	xor	t3, a4, a6
	xor	t4, s0, a5
	xor	a0, a0, a3
	srli	a3, a7, 4
	xor	t1, t1, s1
	xor	a2, a2, a6
	srli	a5, t4, 4
	srli	a4, t2, 4
	xor	a3, a3, a1
	srli	s1, t1, 4
	xor	a5, a5, a0
	xor	a4, a4, t3
	and	a3, a3, t6
	xor	s1, s1, a2
	and	a5, a5, t6
	and	a4, a4, t6
	and	s1, s1, t6
.Lgcm_narrow_pcrel_hi4:
	auipc	a6, %pcrel_hi(.Lgcm_narrow_CPI4_1)
	xor	t0, a3, a1
	slli	a3, a3, 4
	xor	a7, a3, a7
	li	a1, 15
	sd	s11, 0(s10)
	mv	s3, s8
	sd	s8, 8(s10)
	sd	ra, 16(s10)
	ld	s2, 344(sp)                     # 8-byte Folded Reload
	sd	s2, 24(s10)
	sd	s9, 32(s10)
	ld	s8, 328(sp)                     # 8-byte Folded Reload
	sd	s8, 40(s10)
	ld	s7, 336(sp)                     # 8-byte Folded Reload
	sd	s7, 48(s10)
	sd	s6, 56(s10)
	xor	t5, a5, a0
	slli	a5, a5, 4
	xor	t6, a5, t4
	addi	a0, s10, 128
	sd	a0, 312(sp)                     # 8-byte Folded Spill
	xor	a5, a4, t3
	slli	a4, a4, 4
	xor	s0, a4, t2
.Lgcm_narrow_pcrel_hi5:
	auipc	a0, %pcrel_hi(.Lgcm_narrow_static.0+1)
	ld	a3, %pcrel_lo(.Lgcm_narrow_pcrel_hi3)(s4)
	sd	a3, 40(sp)                      # 8-byte Folded Spill
	ld	a3, %pcrel_lo(.Lgcm_narrow_pcrel_hi4)(a6)
	sd	a3, 32(sp)                      # 8-byte Folded Spill
	slli	a1, a1, 28
	sd	a1, 320(sp)                     # 8-byte Folded Spill
	addi	a1, a0, %pcrel_lo(.Lgcm_narrow_pcrel_hi5)
	xor	a4, s1, a2
	slli	s1, s1, 4
	xor	t2, s1, t1
	addi	a0, s10, 896
	mv	s10, s9
	sd	a0, 24(sp)                      # 8-byte Folded Spill
.Lgcm_narrow_BB4_5:                                # %join.5.i165.i
                                        # =>This Inner Loop Header: Depth=1
	sd	ra, 272(sp)                     # 8-byte Folded Spill
	sd	a7, 232(sp)                     # 8-byte Folded Spill
	sd	s10, 280(sp)                    # 8-byte Folded Spill
	sd	s3, 288(sp)                     # 8-byte Folded Spill
	sd	s7, 336(sp)                     # 8-byte Folded Spill
	sd	t5, 248(sp)                     # 8-byte Folded Spill
	sd	s11, 296(sp)                    # 8-byte Folded Spill
	sd	s8, 328(sp)                     # 8-byte Folded Spill
	sd	s2, 344(sp)                     # 8-byte Folded Spill
	sd	s6, 304(sp)                     # 8-byte Folded Spill
	sd	t6, 352(sp)                     # 8-byte Folded Spill
	sd	s0, 360(sp)                     # 8-byte Folded Spill
	mv	s5, a1
	sd	a1, 368(sp)                     # 8-byte Folded Spill
	xor	t3, t5, a5
	xor	t1, t6, t0
	xor	t4, s0, a4
	xor	a6, s0, t0
	mv	a2, t0
	xor	s9, t2, t3
	xor	t0, t1, t4
	sd	t4, 216(sp)                     # 8-byte Folded Spill
	xor	s6, s9, a4
	mv	s1, a4
	sd	a4, 240(sp)                     # 8-byte Folded Spill
	xor	a4, t0, a7
	mv	a0, a5
	sd	a5, 256(sp)                     # 8-byte Folded Spill
	and	a5, s6, t2
	xor	a1, a4, s0
	xor	a0, a0, a4
	and	a3, a1, t0
	xor	s11, a1, t3
	xor	a5, a5, a6
	xor	a5, a5, s11
	mv	a4, t2
	xor	t2, a5, a3
	xor	s0, a0, a3
	xor	t5, s9, t6
	xor	a3, t5, a6
	sd	a3, 208(sp)                     # 8-byte Folded Spill
	xor	a7, a1, a4
	mv	t6, a4
	and	a3, a7, a3
	xor	s2, s0, a3
	mv	a5, a2
	sd	a2, 224(sp)                     # 8-byte Folded Spill
	xor	s4, s1, a2
	xor	a2, a0, s4
	and	a0, a2, s4
	and	a4, s11, a6
	xor	s8, a4, a0
	xor	a3, a2, s11
	sd	a3, 264(sp)                     # 8-byte Folded Spill
	and	a4, a3, t4
	xor	a0, a0, a4
	xor	t4, a2, t3
	and	a4, t5, s9
	xor	a4, t4, a4
	and	a3, t4, t1
	xor	a4, a4, a3
	xor	t3, s9, a5
	xor	s3, a2, t6
	and	s1, s3, t3
	xor	s1, t4, s1
	xor	a3, a3, a5
	xor	a3, a3, s1
	xor	s2, s2, a0
	xor	a4, a4, t1
	xor	ra, a4, a0
	xor	s1, t2, s8
	xor	a3, a3, s8
	and	a4, ra, s2
	xor	t2, a3, ra
	xor	a0, a4, s1
	and	a0, a0, t2
	xor	s2, s2, s1
	xor	s10, a4, a3
	and	a5, s10, s2
	xor	t2, a5, s1
	xor	a4, a4, a0
	xor	s8, a0, a3
	lbu	s7, -1(s5)
	and	a3, a3, a4
	xor	s10, a3, s10
	xor	ra, a3, ra
	slli	a3, s7, 61
	srli	a3, a3, 63
	ld	s0, 320(sp)                     # 8-byte Folded Reload
	mul	a3, a3, s0
	and	a4, s8, s6
	xor	s6, a4, a3
	and	a3, s10, t2
	xor	a3, a3, s2
	and	t3, t2, t3
	and	s3, t2, s3
	and	a1, ra, a1
	and	s2, ra, t0
	xor	s1, ra, s8
	and	a5, s1, a7
	ld	a0, 208(sp)                     # 8-byte Folded Reload
	and	a7, s1, a0
	xor	s1, s1, a3
	and	s10, a3, s9
	and	t0, a3, t5
	xor	a3, a3, t2
	xor	a4, t2, s8
	and	a0, s8, t6
	sd	t6, 200(sp)                     # 8-byte Folded Spill
	xor	a0, a0, a1
	xor	t2, a5, a1
	and	a5, a3, t4
	and	a3, a3, t1
	and	t1, a4, a2
	and	t5, a4, s4
	and	a1, s1, s11
	xor	a4, a4, s1
	and	t4, s1, a6
	ld	a2, 216(sp)                     # 8-byte Folded Reload
	and	a6, a4, a2
	ld	a2, 264(sp)                     # 8-byte Folded Reload
	and	a4, a4, a2
	xor	a2, a0, s3
	xor	s1, a5, s10
	xor	a2, a2, a5
	xor	a0, a0, a1
	slli	a1, s7, 58
	srli	a1, a1, 63
	mul	a1, a1, s0
	xor	a1, a1, t4
	xor	a4, a4, s1
	xor	t2, t2, s1
	andi	a5, s7, 1
	mul	a5, a5, s0
	xor	a5, a5, a3
	xor	a0, a0, a3
	slli	a3, s7, 60
	srli	a3, a3, 63
	mul	a3, a3, s0
	xor	s1, a2, t0
	xor	t0, a2, a3
	xor	a2, a6, t5
	xor	a1, a1, t5
	xor	a3, a2, a7
	xor	a2, a2, s1
	xor	a0, a0, a4
	xor	a4, a4, t1
	slli	s1, s7, 62
	srli	s1, s1, 63
	mul	s1, s1, s0
	xor	t1, a2, a5
	xor	a2, a2, s1
	xor	t5, a3, s2
	xor	a7, s6, a3
	slli	a3, s7, 57
	srli	a3, a3, 63
	srli	a5, s7, 7
	mul	a5, a5, s0
	mul	a3, a3, s0
	xor	t4, a1, a4
	xor	s4, a4, a3
	xor	a4, a4, a5
	xor	a1, a0, t3
	xor	a6, a2, a0
	srli	s5, t6, 8
	xor	s1, a7, a1
	xor	t4, t4, a1
	ld	a0, 352(sp)                     # 8-byte Folded Reload
	srli	t6, a0, 8
	xor	a3, t2, t5
	xor	t5, a4, t5
	ld	a0, 360(sp)                     # 8-byte Folded Reload
	srli	t3, a0, 8
	slli	s7, s7, 59
	srli	a2, s7, 63
	mul	a2, a2, s0
	xor	t0, t0, a3
	xor	s2, a3, a2
	xor	s3, s4, a3
	srli	a1, t1, 28
	slli	t1, t1, 36
	or	a1, t1, a1
	srli	a4, a6, 28
	slli	a6, a6, 36
	or	a4, a6, a4
	srli	a0, s1, 28
	slli	s1, s1, 36
	or	a0, a0, s1
	srli	s1, t4, 28
	slli	t4, t4, 36
	or	t4, t4, s1
	srli	s0, t5, 28
	slli	t5, t5, 36
	or	s0, t5, s0
	srli	a5, t0, 28
	slli	t0, t0, 36
	or	t5, t0, a5
	srli	a2, s2, 28
	slli	s2, s2, 36
	or	s4, s2, a2
	srli	a3, s3, 28
	slli	s3, s3, 36
	or	s6, s3, a3
	ld	t1, 232(sp)                     # 8-byte Folded Reload
	srli	a6, t1, 8
	not	a1, a1
	ld	s9, 48(sp)                      # 8-byte Folded Reload
	and	a1, s9, a1
	ld	a2, 296(sp)                     # 8-byte Folded Reload
	xor	s7, a1, a2
	ld	t0, 240(sp)                     # 8-byte Folded Reload
	srli	a5, t0, 8
	and	a0, a0, s9
	ld	a1, 272(sp)                     # 8-byte Folded Reload
	xor	s8, a0, a1
	ld	a7, 248(sp)                     # 8-byte Folded Reload
	srli	a2, a7, 8
	and	s0, s0, s9
	ld	a0, 304(sp)                     # 8-byte Folded Reload
	xor	s10, s0, a0
	ld	ra, 256(sp)                     # 8-byte Folded Reload
	srli	a3, ra, 8
	not	a4, a4
	and	a4, s9, a4
	ld	a0, 288(sp)                     # 8-byte Folded Reload
	xor	s11, a4, a0
	ld	t2, 224(sp)                     # 8-byte Folded Reload
	srli	s1, t2, 8
	ld	a0, 56(sp)                      # 8-byte Folded Reload
	and	s3, s5, a0
	and	s2, t6, a0
	and	t3, t3, a0
	and	a1, a6, a0
	sd	a1, 176(sp)                     # 8-byte Folded Spill
	and	a5, a5, a0
	sd	a5, 208(sp)                     # 8-byte Folded Spill
	and	a2, a2, a0
	sd	a2, 192(sp)                     # 8-byte Folded Spill
	and	a3, a3, a0
	sd	a3, 216(sp)                     # 8-byte Folded Spill
	and	a0, a0, s1
	sd	a0, 184(sp)                     # 8-byte Folded Spill
	not	a2, t4
	and	a3, t5, s9
	and	a5, s4, s9
	and	a2, s9, a2
	not	s1, s6
	ld	a0, 344(sp)                     # 8-byte Folded Reload
	xor	t5, a3, a0
	slli	a1, s7, 4
	ld	a0, 280(sp)                     # 8-byte Folded Reload
	xor	s6, a5, a0
	slli	a0, s8, 4
	ld	a3, 328(sp)                     # 8-byte Folded Reload
	xor	t6, a2, a3
	and	s1, s9, s1
	slli	s0, s10, 4
	ld	s4, 40(sp)                      # 8-byte Folded Reload
	and	a1, a1, s4
	ld	a3, 336(sp)                     # 8-byte Folded Reload
	xor	a3, a3, s1
	slli	t4, s11, 4
	and	a0, a0, s4
	xor	a1, a1, s7
	sd	a1, 328(sp)                     # 8-byte Folded Spill
	slli	a5, t5, 4
	xor	a0, a0, s8
	sd	a0, 336(sp)                     # 8-byte Folded Spill
	slli	s1, s6, 4
	and	s0, s0, s4
	xor	a4, s0, s10
	sd	a4, 344(sp)                     # 8-byte Folded Spill
	slli	a2, t6, 4
	and	s0, t4, s4
	and	a5, a5, s4
	and	t4, s1, s4
	and	a2, a2, s4
	xor	s0, s0, s11
	sd	s0, 304(sp)                     # 8-byte Folded Spill
	slli	s1, a3, 4
	xor	a5, a5, t5
	slli	t5, a1, 8
	xor	s6, t4, s6
	slli	s11, a0, 8
	xor	s7, a2, t6
	and	a2, s1, s4
	slli	s8, a4, 8
	xor	a6, a2, a3
	srli	a2, a1, 4
	and	a2, a2, s9
	ld	a1, 200(sp)                     # 8-byte Folded Reload
	xor	s5, a2, a1
	srli	a2, a0, 4
	and	a2, a2, s9
	ld	s1, 360(sp)                     # 8-byte Folded Reload
	xor	s1, s1, a2
	srli	a2, a4, 4
	ld	t4, 32(sp)                      # 8-byte Folded Reload
	and	t6, t5, t4
	sd	t6, 264(sp)                     # 8-byte Folded Spill
	and	a1, a2, s9
	xor	s10, a1, t2
	srli	a1, s0, 4
	and	a1, a1, s9
	ld	a0, 352(sp)                     # 8-byte Folded Reload
	xor	t5, a1, a0
	srli	a2, a5, 4
	mv	a3, a5
	sd	a5, 296(sp)                     # 8-byte Folded Spill
	and	a2, a2, s9
	xor	t2, a2, t1
	srli	a4, s6, 4
	sd	s6, 288(sp)                     # 8-byte Folded Spill
	and	a4, a4, s9
	xor	t1, a4, t0
	srli	a5, s7, 4
	mv	a4, s7
	sd	s7, 280(sp)                     # 8-byte Folded Spill
	and	a5, a5, s9
	xor	s7, a5, a7
	slli	a1, s0, 8
	and	a5, s11, t4
	sd	a5, 248(sp)                     # 8-byte Folded Spill
	and	a1, a1, t4
	sd	a1, 360(sp)                     # 8-byte Folded Spill
	or	a0, t6, s3
	or	a1, a1, s2
	ld	t6, 312(sp)                     # 8-byte Folded Reload
	sd	a0, -64(t6)
	sd	a6, 272(sp)                     # 8-byte Folded Spill
	srli	a0, a6, 4
	and	a0, a0, s9
	xor	s2, a0, ra
	slli	a2, a3, 8
	or	a0, a5, t3
	sd	a1, -56(t6)
	slli	a1, s6, 8
	and	a2, a2, t4
	sd	a2, 352(sp)                     # 8-byte Folded Spill
	ld	a3, 176(sp)                     # 8-byte Folded Reload
	or	a2, a2, a3
	sd	a0, -48(t6)
	slli	a4, a4, 8
	and	a0, s8, t4
	sd	a0, 224(sp)                     # 8-byte Folded Spill
	and	a5, a1, t4
	sd	a5, 232(sp)                     # 8-byte Folded Spill
	and	a3, a4, t4
	sd	a3, 240(sp)                     # 8-byte Folded Spill
	sd	a2, -40(t6)
	slli	a1, a6, 8
	ld	a2, 184(sp)                     # 8-byte Folded Reload
	or	a2, a2, a0
	and	a0, a1, t4
	sd	a0, 256(sp)                     # 8-byte Folded Spill
	ld	a1, 208(sp)                     # 8-byte Folded Reload
	or	a1, a1, a5
	ld	a4, 192(sp)                     # 8-byte Folded Reload
	or	a4, a4, a3
	sd	a1, -32(t6)
	slli	a1, s5, 4
	ld	a5, 216(sp)                     # 8-byte Folded Reload
	or	a5, a5, a0
	sd	a4, -24(t6)
	slli	a4, s1, 4
	and	a1, a1, s4
	xor	a6, a1, s5
	slli	a3, s10, 4
	and	a4, a4, s4
	xor	a7, a4, s1
	slli	s1, t5, 4
	and	a3, a3, s4
	xor	t0, a3, s10
	slli	s0, t2, 4
	sd	a5, -16(t6)
	slli	a5, t1, 4
	sd	a2, -8(t6)
	slli	a2, s7, 4
	and	s1, s1, s4
	and	s0, s0, s4
	and	a5, a5, s4
	and	a2, a2, s4
	xor	s1, s1, t5
	slli	a0, s2, 4
	xor	s0, s0, t2
	slli	a1, a6, 8
	xor	a5, a5, t1
	slli	a4, a7, 8
	xor	a2, a2, s7
	and	a0, a0, s4
	slli	a3, t0, 8
	and	a1, a1, t4
	xor	t1, a0, s2
	slli	a0, s1, 8
	and	a4, a4, t4
	xor	s10, a1, a6
	slli	a1, s0, 8
	xor	a7, a4, a7
	slli	a4, a5, 8
	and	a3, a3, t4
	xor	t3, a3, t0
	slli	a3, a2, 8
	and	a0, a0, t4
	and	a1, a1, t4
	and	a4, a4, t4
	and	a3, a3, t4
	xor	s1, s1, a0
	slli	a0, t1, 8
	xor	t5, a1, s0
	xor	t0, a4, a5
	xor	ra, a3, a2
	and	a0, a0, t4
	mv	s0, a7
	xor	a7, t3, a7
	xor	s2, a0, t1
	xor	s5, s2, ra
	sd	ra, 208(sp)                     # 8-byte Folded Spill
	xor	s7, s5, s10
	xor	a0, s7, t0
	sd	a0, 120(sp)                     # 8-byte Folded Spill
	and	a1, a0, s10
	xor	a1, a1, a7
	mv	a2, s1
	xor	s11, s1, t3
	xor	t2, t0, s0
	xor	a3, s11, t2
	sd	a3, 128(sp)                     # 8-byte Folded Spill
	sd	t2, 144(sp)                     # 8-byte Folded Spill
	xor	s1, a3, t5
	sd	t5, 192(sp)                     # 8-byte Folded Spill
	xor	s8, s1, s0
	mv	t1, s0
	sd	s0, 168(sp)                     # 8-byte Folded Spill
	and	a4, s8, a3
	xor	a0, s8, s5
	xor	a5, a0, a4
	xor	a6, a1, a5
	xor	a3, s1, s2
	mv	s0, s2
	sd	s2, 216(sp)                     # 8-byte Folded Spill
	xor	s2, a3, a4
	xor	a5, s7, a2
	mv	s1, a2
	sd	a2, 184(sp)                     # 8-byte Folded Spill
	xor	a2, s8, s10
	sd	a2, 96(sp)                      # 8-byte Folded Spill
	mv	a1, a7
	sd	a7, 160(sp)                     # 8-byte Folded Spill
	xor	a4, a5, a7
	sd	a4, 104(sp)                     # 8-byte Folded Spill
	mv	a7, a5
	sd	a5, 88(sp)                      # 8-byte Folded Spill
	and	a5, a2, a4
	xor	s2, s2, a5
	xor	a2, t0, t3
	sd	a2, 136(sp)                     # 8-byte Folded Spill
	sd	t0, 200(sp)                     # 8-byte Folded Spill
	xor	s3, a3, a2
	and	a3, s3, a2
	sd	a0, 112(sp)                     # 8-byte Folded Spill
	and	a5, a0, a1
	xor	s6, a5, a3
	xor	a0, s3, a0
	sd	a0, 152(sp)                     # 8-byte Folded Spill
	and	a5, a0, t2
	xor	a0, a5, a3
	xor	t2, s3, s5
	and	a3, a7, s7
	xor	a3, t2, a3
	sd	s11, 80(sp)                     # 8-byte Folded Spill
	and	a1, t2, s11
	xor	a5, a3, a1
	mv	a7, t3
	xor	a3, s7, t3
	sd	a3, 72(sp)                      # 8-byte Folded Spill
	xor	t3, s3, s10
	and	a3, t3, a3
	xor	a3, t2, a3
	xor	a1, a1, a7
	sd	a7, 176(sp)                     # 8-byte Folded Spill
	xor	a1, a1, a3
	xor	s2, s2, a0
	xor	a5, a5, s11
	xor	s11, a5, a0
	xor	a5, a6, s6
	xor	a1, a1, s6
	and	a3, s11, s2
	xor	a6, a1, s11
	xor	a4, a3, a5
	and	a6, a4, a6
	xor	a4, s2, a5
	xor	s5, a3, a1
	and	a2, s5, a4
	xor	s2, a2, a5
	sd	s10, 0(t6)
	mv	a5, s10
	sd	s1, 8(t6)
	sd	t1, 16(t6)
	sd	t5, 24(t6)
	sd	t0, 32(t6)
	sd	ra, 40(t6)
	sd	s0, 48(t6)
	sd	a7, 56(t6)
	xor	a2, a6, a3
	xor	s10, a6, a1
	ld	a3, 368(sp)                     # 8-byte Folded Reload
	lbu	s6, 0(a3)
	and	a1, a1, a2
	xor	a3, a1, s5
	xor	s11, a1, s11
	slli	a1, s6, 61
	srli	a1, a1, 63
	ld	a6, 320(sp)                     # 8-byte Folded Reload
	mul	a1, a1, a6
	ld	a0, 120(sp)                     # 8-byte Folded Reload
	and	a2, s10, a0
	xor	a1, a1, a2
	sd	a1, 64(sp)                      # 8-byte Folded Spill
	and	a1, a3, s2
	xor	a4, a4, a1
	ld	a0, 72(sp)                      # 8-byte Folded Reload
	and	a0, s2, a0
	sd	a0, 120(sp)                     # 8-byte Folded Spill
	and	t3, s2, t3
	and	a3, s11, s8
	ld	a0, 128(sp)                     # 8-byte Folded Reload
	and	ra, s11, a0
	xor	s1, s11, s10
	ld	a1, 96(sp)                      # 8-byte Folded Reload
	and	a1, a1, s1
	ld	a0, 104(sp)                     # 8-byte Folded Reload
	and	t1, s1, a0
	xor	s1, s1, a4
	and	s11, a4, s7
	ld	a0, 88(sp)                      # 8-byte Folded Reload
	and	a7, a4, a0
	xor	a4, a4, s2
	xor	a2, s2, s10
	and	s0, s10, a5
	mv	s8, a5
	xor	s0, s0, a3
	xor	s5, a1, a3
	and	a0, a4, t2
	ld	a3, 80(sp)                      # 8-byte Folded Reload
	and	a3, a3, a4
	and	s2, a2, s3
	ld	a4, 136(sp)                     # 8-byte Folded Reload
	and	a4, a4, a2
	ld	a1, 112(sp)                     # 8-byte Folded Reload
	and	a1, a1, s1
	xor	a2, a2, s1
	ld	a5, 160(sp)                     # 8-byte Folded Reload
	and	s3, s1, a5
	ld	a5, 144(sp)                     # 8-byte Folded Reload
	and	t0, a2, a5
	ld	a5, 152(sp)                     # 8-byte Folded Reload
	and	a2, a2, a5
	xor	a5, s0, t3
	xor	s1, a0, s11
	xor	a0, a0, a5
	xor	t5, a1, s0
	slli	a5, s6, 58
	srli	a5, a5, 63
	mv	a1, a6
	mul	a5, a5, a6
	xor	a5, a5, s3
	xor	a2, a2, s1
	xor	t3, s5, s1
	mv	s5, t6
	andi	s0, s6, 1
	mul	s0, s0, a6
	xor	t6, s0, a3
	xor	s0, t5, a3
	slli	a3, s6, 60
	srli	a3, a3, 63
	mul	a3, a3, a6
	xor	s1, a0, a7
	xor	a7, a0, a3
	xor	a3, t0, a4
	xor	t0, a5, a4
	xor	a5, a3, t1
	xor	a3, a3, s1
	xor	s0, s0, a2
	xor	a2, a2, s2
	slli	s1, s6, 62
	srli	s1, s1, 63
	mul	s1, s1, a6
	xor	t5, a3, t6
	xor	t2, a3, s1
	xor	s1, a5, ra
	ld	a0, 64(sp)                      # 8-byte Folded Reload
	xor	a6, a0, a5
	slli	a0, s6, 57
	srli	a0, a0, 63
	srli	a4, s6, 7
	mul	a4, a4, a1
	mul	a0, a0, a1
	xor	a3, t0, a2
	xor	t0, a2, a0
	xor	a2, a2, a4
	ld	a4, 120(sp)                     # 8-byte Folded Reload
	xor	a4, a4, s0
	xor	a5, t2, s0
	xor	t1, a6, a4
	xor	a3, a3, a4
	xor	a0, t3, s1
	xor	a4, a2, s1
	slli	s6, s6, 59
	srli	a2, s6, 63
	mul	a2, a2, a1
	xor	s1, a7, a0
	xor	t2, a0, a2
	xor	t0, t0, a0
	srli	s0, t5, 28
	slli	t5, t5, 36
	or	a6, t5, s0
	srli	a1, a5, 28
	slli	a5, a5, 36
	or	a7, a5, a1
	srli	a1, t1, 28
	slli	t1, t1, 36
	or	a1, t1, a1
	srli	a5, a3, 28
	slli	a3, a3, 36
	or	a3, a3, a5
	srli	a5, a4, 28
	slli	a4, a4, 36
	or	a4, a4, a5
	srli	a5, s1, 28
	slli	s1, s1, 36
	or	a5, a5, s1
	srli	a2, t2, 28
	slli	t2, t2, 36
	or	a2, t2, a2
	srli	a0, t0, 28
	slli	t0, t0, 36
	or	a0, t0, a0
	not	s1, a6
	and	s1, s9, s1
	ld	s0, 264(sp)                     # 8-byte Folded Reload
	or	s1, s1, s0
	and	a1, a1, s9
	ld	s0, 248(sp)                     # 8-byte Folded Reload
	or	a1, a1, s0
	and	a4, a4, s9
	ld	s0, 224(sp)                     # 8-byte Folded Reload
	or	a4, a4, s0
	ld	s0, 328(sp)                     # 8-byte Folded Reload
	xor	a6, s1, s0
	not	s0, a7
	and	s0, s9, s0
	ld	s1, 360(sp)                     # 8-byte Folded Reload
	or	s0, s0, s1
	ld	s1, 336(sp)                     # 8-byte Folded Reload
	xor	a7, a1, s1
	and	a5, a5, s9
	ld	a1, 352(sp)                     # 8-byte Folded Reload
	or	a5, a5, a1
	and	a2, a2, s9
	ld	a1, 232(sp)                     # 8-byte Folded Reload
	or	a1, a1, a2
	not	a3, a3
	and	a3, s9, a3
	ld	a2, 240(sp)                     # 8-byte Folded Reload
	or	a3, a3, a2
	ld	a2, 344(sp)                     # 8-byte Folded Reload
	xor	a2, a2, a4
	ld	a4, 304(sp)                     # 8-byte Folded Reload
	xor	s0, s0, a4
	ld	a4, 296(sp)                     # 8-byte Folded Reload
	xor	t3, a5, a4
	ld	a4, 288(sp)                     # 8-byte Folded Reload
	xor	t0, a1, a4
	ld	a1, 280(sp)                     # 8-byte Folded Reload
	xor	t1, a3, a1
	not	a0, a0
	and	a0, s9, a0
	ld	a1, 256(sp)                     # 8-byte Folded Reload
	or	a0, a0, a1
	ld	a1, 272(sp)                     # 8-byte Folded Reload
	xor	t2, a0, a1
	slli	s1, a6, 4
	and	s1, s1, s4
	xor	a5, s1, a6
	slli	a1, a7, 4
	and	a1, a1, s4
	xor	a1, a1, a7
	slli	a4, a2, 4
	and	a4, a4, s4
	xor	a4, a4, a2
	slli	a2, s0, 4
	and	a2, a2, s4
	xor	s0, s0, a2
	slli	a2, t3, 4
	and	a2, a2, s4
	xor	a7, a2, t3
	slli	a2, t0, 4
	and	a2, a2, s4
	xor	t0, a2, t0
	slli	a3, t1, 4
	and	a3, a3, s4
	xor	t1, a3, t1
	slli	a0, t2, 4
	and	a0, a0, s4
	xor	t2, a0, t2
	slli	s1, a5, 8
	and	s1, s1, t4
	xor	s11, s1, a5
	srli	a5, a5, 4
	and	a5, a5, s9
	xor	a6, a5, s8
	slli	a5, a1, 8
	and	a5, a5, t4
	xor	ra, a5, a1
	srli	a1, a1, 4
	and	a1, a1, s9
	ld	a0, 168(sp)                     # 8-byte Folded Reload
	xor	t3, a1, a0
	slli	a5, a4, 8
	and	a5, a5, t4
	xor	s6, a5, a4
	srli	a4, a4, 4
	and	a4, a4, s9
	ld	a0, 176(sp)                     # 8-byte Folded Reload
	xor	t6, a4, a0
	slli	a5, s0, 8
	and	a5, a5, t4
	xor	s3, a5, s0
	srli	s0, s0, 4
	and	a5, s0, s9
	ld	a0, 184(sp)                     # 8-byte Folded Reload
	xor	t5, a5, a0
	slli	s1, a7, 8
	and	s1, s1, t4
	xor	s2, s1, a7
	srli	s1, a7, 4
	and	s1, s1, s9
	ld	a0, 192(sp)                     # 8-byte Folded Reload
	xor	a7, s1, a0
	slli	a2, t0, 8
	and	a2, a2, t4
	xor	s10, a2, t0
	srli	a2, t0, 4
	and	a2, a2, s9
	ld	a0, 200(sp)                     # 8-byte Folded Reload
	xor	t0, a2, a0
	slli	a3, t1, 8
	and	a3, a3, t4
	xor	s8, a3, t1
	srli	a3, t1, 4
	and	a3, a3, s9
	ld	a0, 208(sp)                     # 8-byte Folded Reload
	xor	t1, a3, a0
	slli	a0, t2, 8
	and	a0, a0, t4
	xor	s7, a0, t2
	srli	a0, t2, 4
	and	a0, a0, s9
	ld	a1, 216(sp)                     # 8-byte Folded Reload
	xor	t2, a0, a1
	slli	s0, a6, 4
	and	s0, s0, s4
	xor	a6, s0, a6
	slli	a1, t3, 4
	and	a1, a1, s4
	xor	t3, a1, t3
	slli	a4, t6, 4
	and	a4, a4, s4
	xor	a4, a4, t6
	ld	s9, 368(sp)                     # 8-byte Folded Reload
	slli	a5, t5, 4
	and	a5, a5, s4
	xor	a5, a5, t5
	slli	s1, a7, 4
	and	s1, s1, s4
	xor	s1, s1, a7
	slli	a2, t0, 4
	and	a2, a2, s4
	xor	a2, a2, t0
	slli	a3, t1, 4
	and	a3, a3, s4
	xor	a3, a3, t1
	slli	a0, t2, 4
	and	a0, a0, s4
	xor	a0, a0, t2
	slli	s0, a6, 8
	and	s0, s0, t4
	xor	t2, s0, a6
	slli	a1, t3, 8
	and	a1, a1, t4
	xor	s0, a1, t3
	slli	a1, a4, 8
	and	a1, a1, t4
	xor	t0, a1, a4
	slli	a1, a5, 8
	and	a1, a1, t4
	xor	t6, a1, a5
	slli	a1, s1, 8
	and	a1, a1, t4
	xor	a7, a1, s1
	slli	a1, a2, 8
	and	a1, a1, t4
	xor	a4, a1, a2
	slli	a1, a3, 8
	and	a1, a1, t4
	xor	t5, a1, a3
	slli	a1, a0, 8
	and	a1, a1, t4
	xor	a5, a1, a0
	sd	s11, 64(s5)
	sd	s3, 72(s5)
	sd	ra, 80(s5)
	sd	s2, 88(s5)
	sd	s10, 96(s5)
	sd	s8, 104(s5)
	sd	s7, 112(s5)
	sd	s6, 120(s5)
	addi	s5, s5, 192
	addi	a1, s9, 2
	ld	a0, 24(sp)                      # 8-byte Folded Reload
	sd	s5, 312(sp)                     # 8-byte Folded Spill
	bne	s5, a0, .Lgcm_narrow_BB4_5
	j	.Lgcm_narrow_BB4_9
.Lgcm_narrow_BB4_6:                                # %else.5.i
	lbu	a6, 16(a1)
	lbu	a7, 17(a1)
	lbu	t1, 18(a1)
	lbu	t3, 19(a1)
	lbu	s4, 20(a1)
	lbu	s5, 21(a1)
	lbu	s0, 22(a1)
	lbu	a5, 23(a1)
	lbu	t0, 24(a1)
	lbu	t2, 25(a1)
	lbu	t4, 26(a1)
	lbu	t5, 27(a1)
	lbu	a3, 28(a1)
	lbu	a2, 29(a1)
	lbu	a0, 30(a1)
	lbu	a1, 31(a1)
	sd	s11, 0(s10)
	sd	s8, 8(s10)
	sd	ra, 16(s10)
	ld	a4, 344(sp)                     # 8-byte Folded Reload
	sd	a4, 24(s10)
	sd	s9, 32(s10)
	ld	a4, 328(sp)                     # 8-byte Folded Reload
	sd	a4, 40(s10)
	ld	a4, 336(sp)                     # 8-byte Folded Reload
	sd	a4, 48(s10)
	lui	a4, 240
	sd	s6, 56(s10)
	addi	s1, a4, 15
	slli	a4, s1, 32
	add	a4, a4, s1
	sd	a4, 296(sp)                     # 8-byte Folded Spill
	slli	a5, a5, 16
	slli	a1, a1, 24
	or	s6, a1, a5
	slli	a0, a0, 8
	or	a0, a0, s0
	slli	s5, s5, 16
	slli	a2, a2, 24
	or	a2, a2, s5
	slli	a3, a3, 8
	or	a3, s4, a3
	slli	t3, t3, 16
	slli	t5, t5, 24
	or	a5, t5, t3
	slli	t4, t4, 8
	or	s1, t1, t4
.Lgcm_narrow_pcrel_hi6:
	auipc	t1, %pcrel_hi(.Lgcm_narrow_CPI4_0)
	slli	a7, a7, 16
	slli	t2, t2, 24
	or	s0, t2, a7
	lui	a4, 16
	addi	a4, a4, -1
	slli	t0, t0, 8
	or	a1, a6, t0
	and	a0, a0, a4
	and	a3, a3, a4
	and	s1, s1, a4
	and	a1, a1, a4
	or	a0, a0, s6
	or	a2, a2, a3
	or	a5, a5, s1
	or	a1, a1, s0
	slli	a0, a0, 32
	slli	a2, a2, 32
	slli	a5, a5, 32
	slli	a1, a1, 32
	srli	a2, a2, 32
	srli	a1, a1, 32
	or	a0, a0, a2
	or	a1, a1, a5
	srli	a2, a1, 1
	srli	a3, a0, 1
	xor	a2, a2, a1
	xor	a3, a3, a0
	and	a2, a2, s2
	and	a3, a3, s2
	slli	a4, a2, 1
	xor	a2, a2, a1
	slli	a5, a3, 1
	xor	a3, a3, a0
	xor	s1, a4, a1
	xor	a6, a5, a0
	srli	a0, a2, 2
	srli	a5, a3, 2
	srli	a1, s1, 2
	srli	a4, a6, 2
	xor	a0, a0, a2
	xor	a5, a5, a3
	xor	a1, a1, s1
	xor	a4, a4, a6
	and	a0, a0, s3
	and	a5, a5, s3
	and	a1, a1, s3
	and	a4, a4, s3
	slli	s0, a0, 2
	xor	a7, a0, a2
	slli	a0, a5, 2
	xor	t4, a5, a3
	slli	t2, a1, 2
	xor	t0, a1, s1
	slli	a1, a4, 2
	xor	s2, a4, a6
	xor	t3, s0, a2
	xor	a0, a0, a3
	srli	a3, a7, 4
	xor	t2, t2, s1
	xor	s3, a1, a6
	srli	a1, t3, 4
	srli	s1, t0, 4
	xor	a3, a3, t4
	srli	s0, t2, 4
	xor	a1, a1, a0
	xor	s1, s1, s2
	and	a3, a3, t6
	xor	s0, s0, s3
	and	a2, a1, t6
	and	a4, s1, t6
	and	t6, s0, t6
.Lgcm_narrow_pcrel_hi7:
	auipc	a6, %pcrel_hi(.Lgcm_narrow_CPI4_1)
	xor	t5, a3, t4
	slli	a3, a3, 4
	xor	a3, a3, a7
	li	a7, 15
	xor	a1, a2, a0
	slli	a2, a2, 4
	xor	s1, a2, t3
.Lgcm_narrow_pcrel_hi8:
	auipc	a0, %pcrel_hi(.Lgcm_narrow_static.0)
	ld	a2, %pcrel_lo(.Lgcm_narrow_pcrel_hi6)(t1)
	sd	a2, 280(sp)                     # 8-byte Folded Spill
	ld	a2, %pcrel_lo(.Lgcm_narrow_pcrel_hi7)(a6)
	sd	a2, 288(sp)                     # 8-byte Folded Spill
	slli	a7, a7, 28
	sd	a7, 272(sp)                     # 8-byte Folded Spill
	addi	a6, a0, %pcrel_lo(.Lgcm_narrow_pcrel_hi8)
	xor	a2, a4, s2
	slli	a4, a4, 4
	xor	s0, t6, s3
	slli	t6, t6, 4
	xor	a4, a4, t0
	xor	s11, t6, t2
	sd	s0, 96(s10)
	sd	a1, 104(s10)
	sd	a2, 112(s10)
	sd	t5, 120(s10)
	sd	s11, 64(s10)
	sd	s1, 72(s10)
	sd	a4, 80(s10)
	sd	a3, 88(s10)
	addi	s4, s10, 128
	sd	a6, 264(sp)                     # 8-byte Folded Spill
.Lgcm_narrow_BB4_7:                                # %join.5.i352.i
                                        # =>This Inner Loop Header: Depth=1
	sd	a6, 368(sp)                     # 8-byte Folded Spill
	lbu	t3, 0(a6)
	xor	t6, a1, a2
	xor	a5, s0, t5
	xor	s9, s1, t5
	xor	t2, a4, s0
	xor	s6, a4, t5
	xor	a1, s11, t6
	xor	s7, s9, t2
	sd	t2, 312(sp)                     # 8-byte Folded Spill
	xor	s2, a1, s0
	xor	a0, s7, a3
	xor	ra, a1, t5
	xor	s1, s1, a1
	sd	s1, 328(sp)                     # 8-byte Folded Spill
	and	a3, s2, s11
	xor	a4, a4, a0
	xor	s3, a0, a2
	xor	a0, s1, s6
	and	s8, s1, a1
	xor	s1, s3, a5
	mv	s0, a5
	sd	a5, 320(sp)                     # 8-byte Folded Spill
	xor	s5, a4, s11
	and	a2, a4, s7
	xor	a6, a4, t6
	xor	a7, a3, s6
	slli	a5, t3, 61
	and	t4, s1, s0
	xor	t0, s1, t6
	xor	s10, s1, a6
	xor	t1, s1, s11
	and	t6, a6, s6
	mv	a3, s5
	and	s0, s5, a0
	mv	s5, a0
	xor	a7, a7, a6
	xor	a0, s3, a2
	srli	a5, a5, 63
	xor	a7, a7, a2
	and	a2, s10, t2
	xor	a0, a0, s0
	and	s0, t1, ra
	mv	s3, ra
	xor	t6, t6, t4
	xor	t4, a2, t4
	and	a2, t0, s9
	xor	s8, t0, s8
	ld	t2, 272(sp)                     # 8-byte Folded Reload
	mul	a5, a5, t2
	xor	a7, a7, t6
	xor	s8, s8, a2
	xor	s0, t0, s0
	xor	t5, a2, t5
	xor	a0, a0, t4
	xor	a2, s8, s9
	xor	s0, s0, t5
	xor	a2, a2, t4
	xor	s0, s0, t6
	xor	s8, a0, a7
	and	a0, a0, a2
	xor	t4, s0, a2
	xor	t5, a0, a7
	xor	t6, a0, s0
	and	t4, t5, t4
	and	t5, t6, s8
	xor	a0, t4, a0
	xor	ra, t4, s0
	xor	a7, t5, a7
	and	t4, ra, s2
	and	a0, a0, s0
	xor	s2, a0, t6
	xor	a2, a2, a0
	xor	t5, t4, a5
	ld	a0, -128(s4)
	sd	a0, 344(sp)                     # 8-byte Folded Spill
	ld	a0, -120(s4)
	sd	a0, 360(sp)                     # 8-byte Folded Spill
	ld	a0, -112(s4)
	sd	a0, 336(sp)                     # 8-byte Folded Spill
	ld	a0, -104(s4)
	sd	a0, 352(sp)                     # 8-byte Folded Spill
	and	a5, ra, s11
	and	a4, a4, a2
	and	t4, a2, s7
	xor	a2, a2, ra
	xor	s7, a7, ra
	and	ra, a7, s3
	and	a0, a7, t1
	and	s0, s2, a7
	xor	s0, s0, s8
	and	s2, a2, a3
	and	t1, a2, s5
	xor	s11, a4, a5
	xor	a2, a2, s0
	xor	a5, s0, a7
	and	a1, a1, s0
	ld	a3, 328(sp)                     # 8-byte Folded Reload
	and	a7, s0, a3
	xor	s2, s2, a4
	and	a4, a5, t0
	and	a5, a5, s9
	ld	t6, -96(s4)
	ld	t0, -88(s4)
	ld	a3, -80(s4)
	sd	a3, 328(sp)                     # 8-byte Folded Spill
	ld	s8, -72(s4)
	and	s9, s7, s1
	ld	a3, 320(sp)                     # 8-byte Folded Reload
	and	s3, s7, a3
	and	a6, a2, a6
	xor	s1, a2, s7
	and	a2, a2, s6
	andi	s6, t3, 1
	ld	a3, 312(sp)                     # 8-byte Folded Reload
	and	s5, s1, a3
	and	a3, s1, s10
	slli	s1, t3, 62
	xor	a0, s11, a0
	xor	a1, a1, a4
	xor	a0, a0, a4
	slli	a4, t3, 60
	xor	a6, a6, s11
	slli	s0, t3, 58
	srli	s0, s0, 63
	mul	s0, s0, t2
	xor	s7, s0, a2
	slli	s0, t3, 59
	xor	a3, a3, a1
	xor	s2, s2, a1
	slli	a1, t3, 57
	srli	a2, t3, 7
	mul	t3, s6, t2
	srli	s1, s1, 63
	srli	a4, a4, 63
	srli	s0, s0, 63
	srli	a1, a1, 63
	mul	s11, a2, t2
	mul	s1, s1, t2
	mul	a4, a4, t2
	mul	s6, s0, t2
	mul	a1, a1, t2
	xor	t3, t3, a5
	xor	a2, s5, s3
	xor	s0, a0, a7
	xor	a5, a6, a5
	xor	a6, a0, a4
	xor	a7, s7, s3
	xor	a4, a2, t1
	xor	a2, a2, s0
	xor	a5, a5, a3
	xor	a3, a3, s9
	xor	s0, a4, t4
	xor	a0, a5, ra
	xor	t1, a2, t3
	xor	a2, a2, s1
	xor	a4, t5, a4
	xor	s1, a7, a3
	xor	a7, a3, a1
	xor	a1, a3, s11
	xor	a3, s2, s0
	xor	a2, a2, a5
	xor	a4, a4, a0
	xor	a0, a0, s1
	xor	a5, a1, s0
	srli	a1, t1, 28
	slli	t1, t1, 36
	xor	s5, a6, a3
	xor	t3, a3, s6
	xor	s3, a7, a3
	or	a6, t1, a1
	srli	t1, a2, 28
	slli	s2, a2, 36
	srli	a7, a4, 28
	slli	t4, a4, 36
	srli	s6, a0, 28
	slli	a0, a0, 36
	srli	s7, a5, 28
	slli	a5, a5, 36
	not	a1, a6
	or	a2, s2, t1
	or	a3, t4, a7
	srli	s1, s5, 28
	slli	s5, s5, 36
	srli	a4, t3, 28
	slli	t3, t3, 36
	or	a0, a0, s6
	srli	s0, s3, 28
	slli	s3, s3, 36
	or	a5, a5, s7
	ld	s7, 296(sp)                     # 8-byte Folded Reload
	and	a6, s7, a1
	not	a2, a2
	and	a3, a3, s7
	or	s1, s5, s1
	or	a4, t3, a4
	not	a0, a0
	or	s0, s3, s0
	and	a5, a5, s7
	ld	a1, 344(sp)                     # 8-byte Folded Reload
	xor	a1, a6, a1
	and	a7, s7, a2
	ld	a2, 336(sp)                     # 8-byte Folded Reload
	xor	a3, a3, a2
	and	t1, s1, s7
	and	a4, a4, s7
	and	a0, s7, a0
	not	s0, s0
	xor	a5, a5, s8
	slli	a6, a1, 4
	ld	a2, 360(sp)                     # 8-byte Folded Reload
	xor	a2, a7, a2
	slli	a7, a3, 4
	ld	s1, 352(sp)                     # 8-byte Folded Reload
	xor	s1, t1, s1
	xor	a4, a4, t6
	xor	a0, a0, t0
	and	t2, s7, s0
	slli	t0, a5, 4
	ld	s6, 280(sp)                     # 8-byte Folded Reload
	and	a6, a6, s6
	slli	t1, a2, 4
	and	a7, a7, s6
	slli	t3, s1, 4
	slli	t4, a4, 4
	slli	t5, a0, 4
	ld	s0, 328(sp)                     # 8-byte Folded Reload
	xor	s0, t2, s0
	and	t0, t0, s6
	xor	a1, a6, a1
	and	a6, t1, s6
	xor	a3, a7, a3
	and	a7, t3, s6
	and	t1, t4, s6
	and	t3, t5, s6
	slli	t4, s0, 4
	xor	s2, t0, a5
	slli	t0, a1, 8
	xor	a2, a6, a2
	slli	a6, a3, 8
	xor	s1, a7, s1
	xor	a4, t1, a4
	xor	a0, t3, a0
	and	a7, t4, s6
	slli	t1, s2, 8
	ld	s3, 288(sp)                     # 8-byte Folded Reload
	and	t0, t0, s3
	slli	t3, a2, 8
	and	a6, a6, s3
	slli	t4, s1, 8
	slli	t5, a4, 8
	slli	t6, a0, 8
	xor	a7, a7, s0
	and	t1, t1, s3
	xor	t0, t0, a1
	and	t3, t3, s3
	xor	s5, a6, a3
	and	a3, t4, s3
	and	s0, t5, s3
	and	a5, t6, s3
	slli	a1, a7, 8
	xor	t1, t1, s2
	xor	a2, t3, a2
	xor	a6, a3, s1
	sd	a6, 328(sp)                     # 8-byte Folded Spill
	xor	a4, a4, s0
	xor	a0, a0, a5
	and	a1, a1, s3
	xor	s0, t1, s5
	xor	a3, a1, a7
	xor	t3, a4, t1
	sd	a2, 304(sp)                     # 8-byte Folded Spill
	xor	s11, a2, t1
	xor	ra, a4, s5
	sd	a4, 32(s4)
	sd	a0, 40(s4)
	sd	a3, 48(s4)
	sd	t1, 56(s4)
	xor	s1, a3, a0
	xor	s2, s11, ra
	sd	ra, 344(sp)                     # 8-byte Folded Spill
	xor	a7, s1, t0
	xor	a0, s2, a6
	xor	a1, a7, a4
	sd	a1, 312(sp)                     # 8-byte Folded Spill
	xor	t2, a0, s5
	xor	a5, a0, a3
	xor	s10, a7, t1
	xor	s8, a7, a2
	and	a4, a1, t0
	mv	a0, t3
	sd	t3, 352(sp)                     # 8-byte Folded Spill
	xor	a6, a5, t3
	xor	a3, t2, t0
	sd	a3, 320(sp)                     # 8-byte Folded Spill
	sd	s0, 336(sp)                     # 8-byte Folded Spill
	xor	s9, s8, s0
	and	a2, t2, s2
	xor	t6, t2, s1
	and	t3, s8, a7
	and	a0, a6, a0
	xor	t5, a6, s1
	xor	s1, a6, t6
	sd	s1, 360(sp)                     # 8-byte Folded Spill
	xor	t4, a6, t0
	and	a1, t6, s0
	xor	a4, a4, s0
	xor	a5, a5, a2
	xor	a2, t6, a2
	xor	a2, a2, a4
	and	s0, a3, s9
	xor	a5, a5, s0
	and	s0, s1, ra
	xor	a1, a1, a0
	xor	a0, a0, s0
	and	s0, t5, s11
	xor	s1, t5, t3
	xor	ra, s1, s0
	xor	t1, s0, t1
	and	s0, t4, s10
	xor	s1, a2, a1
	xor	a2, t5, s0
	xor	a5, a5, a0
	xor	s0, ra, s11
	xor	a2, a2, t1
	xor	a0, a0, s0
	xor	a1, a1, a2
	xor	t1, a5, s1
	and	a5, a5, a0
	xor	s0, a1, a0
	xor	a2, a5, s1
	and	a2, a2, s0
	xor	s0, a5, a1
	and	a4, s0, t1
	xor	a4, a4, s1
	xor	a5, a5, a2
	xor	a2, a2, a1
	and	a1, a1, a5
	xor	s0, s0, a1
	xor	a0, a0, a1
	and	s0, s0, a4
	xor	a1, s0, t1
	ld	a3, 304(sp)                     # 8-byte Folded Reload
	sd	a3, 8(s4)
	sd	s5, 16(s4)
	ld	a3, 328(sp)                     # 8-byte Folded Reload
	sd	a3, 24(s4)
	sd	t0, 0(s4)
	ld	a3, 312(sp)                     # 8-byte Folded Reload
	and	t1, a2, a3
	and	s1, a2, t0
	and	s0, a0, t2
	and	t2, a0, s2
	xor	a0, a0, a2
	xor	a2, a2, a4
	and	t0, a4, s10
	and	s10, a4, t4
	ld	a5, 320(sp)                     # 8-byte Folded Reload
	and	a5, a5, a0
	and	s2, a0, s9
	xor	a0, a0, a1
	xor	a4, a4, a1
	and	s9, a1, a7
	and	a7, a1, s8
	xor	a1, s0, s1
	xor	s8, a5, s0
	and	a5, a4, t5
	and	s5, a4, s11
	and	t3, a2, a6
	ld	a3, 352(sp)                     # 8-byte Folded Reload
	and	a3, a3, a2
	and	t4, a0, t6
	xor	a2, a2, a0
	ld	a4, 336(sp)                     # 8-byte Folded Reload
	and	a0, a0, a4
	ld	s1, 344(sp)                     # 8-byte Folded Reload
	and	s1, s1, a2
	ld	a4, 360(sp)                     # 8-byte Folded Reload
	and	a2, a2, a4
	xor	s0, a1, s10
	xor	a4, a5, s9
	xor	t5, s0, a5
	xor	a1, t4, a1
	xor	a0, a0, a3
	xor	a3, a3, s1
	xor	a2, a2, a4
	xor	t4, s8, a4
	xor	a4, t5, a7
	xor	a1, a1, s5
	xor	a5, a3, s2
	xor	a3, a3, a4
	xor	a1, a1, a2
	xor	a2, a2, t3
	xor	t3, a5, t2
	xor	a4, a1, t0
	xor	a5, a5, t1
	xor	s0, a3, s5
	xor	a1, a1, a3
	ld	a3, -64(s4)
	ld	t0, -56(s4)
	ld	t1, -48(s4)
	ld	a6, -40(s4)
	xor	a0, a0, a2
	xor	a5, a5, a4
	not	s0, s0
	not	a1, a1
	xor	a7, a0, a4
	srli	s0, s0, 12
	srli	a1, a1, 12
	srli	a5, a5, 12
	and	a4, s0, s7
	and	a0, a1, s7
	and	a1, a5, s7
	xor	s0, a4, a3
	xor	s2, a0, t0
	xor	t6, a1, t1
	ld	a5, -32(s4)
	ld	t1, -24(s4)
	ld	t0, -16(s4)
	ld	a4, -8(s4)
	xor	s1, t4, t3
	xor	a3, t3, a2
	xor	a1, s1, t5
	xor	a2, a2, s1
	srli	s1, s1, 12
	and	a0, s1, s7
	xor	t3, a0, a5
	srli	a3, a3, 12
	and	a3, a3, s7
	xor	t4, a3, a4
	srli	a1, a1, 12
	and	a1, a1, s7
	xor	a6, a1, a6
	not	a5, a7
	srli	a5, a5, 12
	and	a5, a5, s7
	xor	a7, a5, t1
	ld	a0, 368(sp)                     # 8-byte Folded Reload
	addi	a0, a0, 1
	sd	a0, 368(sp)                     # 8-byte Folded Spill
	not	a2, a2
	srli	a2, a2, 12
	and	a2, a2, s7
	xor	t0, a2, t0
	slli	a4, s0, 4
	and	a4, a4, s6
	xor	t1, a4, s0
	slli	s1, s2, 4
	and	s1, s1, s6
	xor	s1, s1, s2
	slli	s0, t6, 4
	and	s0, s0, s6
	xor	s0, s0, t6
	slli	a0, t3, 4
	and	a0, a0, s6
	xor	t3, a0, t3
	slli	a3, t4, 4
	and	a3, a3, s6
	xor	t4, a3, t4
	slli	a1, a6, 4
	and	a1, a1, s6
	xor	a1, a1, a6
	ld	a6, 368(sp)                     # 8-byte Folded Reload
	slli	a5, a7, 4
	and	a5, a5, s6
	xor	a5, a5, a7
	slli	a2, t0, 4
	and	a2, a2, s6
	xor	a2, a2, t0
	slli	a4, t1, 8
	and	a4, a4, s3
	xor	s11, a4, t1
	slli	a4, s1, 8
	and	a4, a4, s3
	xor	s1, s1, a4
	slli	a4, s0, 8
	and	a4, a4, s3
	xor	a4, a4, s0
	slli	a0, t3, 8
	and	a0, a0, s3
	xor	s0, a0, t3
	slli	a3, t4, 8
	and	a3, a3, s3
	xor	t5, a3, t4
	slli	a3, a1, 8
	and	a3, a3, s3
	xor	a3, a3, a1
	slli	a1, a5, 8
	and	a1, a1, s3
	xor	a1, a1, a5
	slli	a5, a2, 8
	and	a5, a5, s3
	xor	a2, a2, a5
	ld	a5, 264(sp)                     # 8-byte Folded Reload
	addi	a5, a5, 6
	sd	s11, 64(s4)
	sd	s1, 72(s4)
	sd	a4, 80(s4)
	sd	a3, 88(s4)
	sd	s0, 96(s4)
	sd	a1, 104(s4)
	sd	a2, 112(s4)
	sd	t5, 120(s4)
	addi	s4, s4, 128
	bne	a6, a5, .Lgcm_narrow_BB4_7
# %bb.8:                                # %after.1.i.i
	xor	a5, a2, a1
	xor	a7, t5, s0
	xor	t3, t5, s1
	xor	a6, s0, a4
	xor	t0, t5, a4
	xor	s10, a5, s11
	xor	t1, t3, a6
	xor	s4, s10, s0
	xor	a0, t1, a3
	xor	t6, s10, t5
	xor	s5, s10, s1
	and	s6, s4, s11
	xor	s9, a0, a4
	xor	a0, a0, a2
	xor	s2, s5, t0
	and	t4, s5, s10
	xor	ra, a0, a7
	xor	s3, s9, s11
	and	a3, s9, t1
	xor	s7, s9, a5
	and	s0, ra, a7
	xor	s8, ra, a5
	xor	t2, ra, s7
	and	a5, s7, t0
	xor	s1, t0, s7
	xor	s1, s6, s1
	and	a1, s3, s2
	xor	a0, a0, a3
	xor	a1, a1, a0
	and	a0, t2, a6
	xor	a5, a5, s0
	xor	s0, s0, a0
	xor	s6, ra, s11
	xor	a3, a3, s1
	and	s1, s8, t3
	xor	a0, s8, t4
	xor	a0, a0, s1
	xor	s1, s1, t5
	and	a4, s6, t6
	xor	a4, s8, a4
	xor	a3, a3, a5
	xor	a1, a1, s0
	xor	a0, a0, t3
	xor	a4, a4, s1
	xor	s0, s0, a0
	xor	a4, a4, a5
	xor	a2, a1, a3
	and	a0, s0, a1
	xor	s1, a4, s0
	xor	a1, a0, a3
	and	a1, a1, s1
	xor	s1, a0, a4
	and	a5, s1, a2
	xor	a3, a3, a5
	xor	a0, a0, a1
	xor	a1, a1, a4
	and	a0, a0, a4
	xor	s1, s1, a0
	xor	a0, a0, s0
	and	s1, s1, a3
	xor	a2, a2, s1
	and	t5, a1, s4
	and	s1, a1, s11
	and	s0, a0, s9
	and	t1, a0, t1
	xor	a0, a0, a1
	xor	a1, a1, a3
	and	t4, a3, t6
	and	s4, a3, s6
	and	a4, a0, s3
	and	t6, a0, s2
	xor	a0, a0, a2
	xor	a3, a3, a2
	and	s6, a2, s10
	and	s2, a2, s5
	xor	s1, s1, s0
	xor	s3, a4, s0
	and	s0, a3, s8
	and	s5, a3, t3
	and	t3, a1, ra
	and	a2, a1, a7
	and	a7, a0, s7
	xor	a1, a1, a0
	and	a0, a0, t0
	and	a5, a1, a6
	and	a1, a1, t2
	xor	a3, s1, s4
	xor	a4, s0, s6
	xor	t2, a3, s0
	xor	a3, a7, s1
	xor	a6, a2, a0
	xor	a2, a2, a5
	xor	a1, a1, a4
	xor	a7, s3, a4
	xor	a5, t2, s2
	xor	s1, a2, t6
	xor	a2, a2, a5
	lui	a5, 983041
	slli	a5, a5, 4
	addi	t0, a5, -1
	xor	a3, a3, s5
	xor	a3, a3, a1
	xor	a1, a1, t3
	xor	a4, s1, t1
	xor	a0, a3, t4
	xor	t3, s1, t5
	xor	s0, a2, s5
	xor	a2, a2, a3
	xor	a5, a6, a1
	xor	t4, a1, t0
	xor	a3, a7, a4
	xor	a4, a4, a1
	ld	s1, 16(sp)                      # 8-byte Folded Reload
	ld	a7, 768(s1)
	ld	t0, 776(s1)
	ld	t1, 784(s1)
	ld	a6, 792(s1)
	xor	a1, t3, a0
	xor	a5, a5, a0
	srli	a0, s0, 28
	slli	s0, s0, 36
	or	t3, s0, a0
	srli	a0, a2, 28
	slli	a2, a2, 36
	xor	s0, a3, t2
	xor	t5, t4, a3
	or	t2, a2, a0
	srli	a2, a1, 28
	slli	a1, a1, 36
	or	t4, a1, a2
	srli	a2, a3, 28
	slli	a3, a3, 36
	or	t6, a3, a2
	srli	a3, a5, 28
	slli	a5, a5, 36
	or	s2, a5, a3
	srli	a5, a4, 28
	slli	a4, a4, 36
	not	a3, t3
	not	a1, t2
	or	t2, a4, a5
	srli	a5, s0, 28
	slli	s0, s0, 36
	or	t3, s0, a5
	srli	a2, t5, 28
	slli	t5, t5, 36
	ld	a0, 296(sp)                     # 8-byte Folded Reload
	and	a3, a3, a0
	and	a1, a1, a0
	and	s0, t4, a0
	or	t4, t5, a2
	xor	s3, a7, a3
	xor	t5, t0, a1
	xor	t1, t1, s0
	ld	a2, 800(s1)
	ld	t0, 808(s1)
	ld	a7, 816(s1)
	ld	a5, 824(s1)
	and	a4, t6, a0
	xor	a2, a2, a4
	not	a4, s2
	and	a3, t2, a0
	and	a1, t3, a0
	and	a4, a4, a0
	and	s0, t4, a0
	xor	a3, a3, a5
	slli	a5, s3, 4
	xor	t2, a6, a1
	slli	a6, t5, 4
	xor	t4, t0, a4
	slli	a0, t1, 4
	xor	s0, a7, s0
	slli	a7, a2, 4
	ld	a1, 280(sp)                     # 8-byte Folded Reload
	and	a5, a5, a1
	xor	t3, a5, s3
	slli	t0, a3, 4
	and	a5, a6, a1
	and	a4, a0, a1
	xor	t6, a5, t5
	slli	a5, t2, 4
	and	a0, a7, a1
	xor	t1, a4, t1
	slli	a4, t4, 4
	xor	a6, a0, a2
	slli	a2, s0, 4
	and	a0, t0, a1
	and	a5, a5, a1
	and	a4, a4, a1
	and	a2, a2, a1
	xor	t5, a0, a3
	slli	a3, t3, 8
	xor	s2, a5, t2
	slli	a7, t6, 8
	xor	a0, a4, t4
	slli	a4, t1, 8
	xor	a5, a2, s0
	slli	s0, a6, 8
	ld	a1, 288(sp)                     # 8-byte Folded Reload
	and	a3, a3, a1
	xor	t0, a3, t3
	slli	t2, t5, 8
	and	a3, a7, a1
	and	a4, a4, a1
	xor	a7, a3, t6
	slli	a3, s2, 8
	and	s0, s0, a1
	xor	t1, a4, t1
	slli	a4, a0, 8
	xor	a6, s0, a6
	slli	a2, a5, 8
	and	s0, t2, a1
	and	a3, a3, a1
	and	a4, a4, a1
	and	a2, a2, a1
	xor	a1, s0, t5
	xor	a3, a3, s2
	xor	a0, a0, a4
	xor	a2, a2, a5
	sd	t0, 896(s1)
	sd	a7, 904(s1)
	sd	t1, 912(s1)
	sd	a3, 920(s1)
	sd	a6, 928(s1)
	sd	a0, 936(s1)
	sd	a2, 944(s1)
	sd	a1, 952(s1)
.Lgcm_narrow_BB4_9:                                # %"aes_planes::expansion::expand::<#1ebeba980f309daf>.exit"
	lui	t3, 61680
	lui	t0, 4080
	lui	a1, 3840
	lui	a2, 983295
	ld	a0, 8(sp)                       # 8-byte Folded Reload
	srli	a7, a0, 2
	li	a3, -6
	ld	a0, 16(sp)                      # 8-byte Folded Reload
	addi	a0, a0, 120
	slli	a4, t3, 32
	add	t3, t3, a4
	slli	a4, t0, 32
	addi	a1, a1, 255
	addi	a2, a2, 15
	sub	a6, a3, a7
	addi	a7, a7, 6
	add	t0, t0, a4
	slli	a1, a1, 16
	slli	a2, a2, 32
	addi	a1, a1, 15
	srli	t1, a2, 12
	slli	t2, a1, 16
	li	a5, 1
	j	.Lgcm_narrow_BB4_12
.Lgcm_narrow_BB4_10:                               # %then.7.i
                                        #   in Loop: Header=BB4_12 Depth=1
	xor	s10, a1, s9
	xor	s11, s1, a4
	xor	s6, s6, t4
	xor	s5, s5, t5
	xor	s4, s4, s7
	xor	s3, s3, a3
	xor	s2, s2, a2
	xor	t6, t6, s8
	and	s1, s10, t2
	and	a1, s11, t2
	and	s6, s6, t2
	and	s5, s5, t2
	and	s4, s4, t2
	and	s3, s3, t2
	and	s2, s2, t2
	and	t6, t6, t2
	slli	s0, s1, 8
	add	s0, s0, s1
	slli	s1, a1, 8
	add	s1, s1, a1
	slli	a1, s6, 8
	add	s6, s6, a1
	slli	a1, s5, 8
	add	s5, s5, a1
	slli	a1, s4, 8
	add	s4, s4, a1
	slli	a1, s3, 8
	add	s3, s3, a1
	slli	a1, s2, 8
	add	s2, s2, a1
	slli	a1, t6, 8
	add	a1, a1, t6
	xor	s9, s0, s9
	xor	s10, s1, a4
	xor	t4, s6, t4
	xor	t5, s5, t5
	xor	t6, s4, s7
	xor	s5, s3, a3
	xor	s6, s2, a2
	xor	s8, a1, s8
	srli	s2, s9, 4
	srli	s3, s10, 4
	srli	s4, t4, 4
	srli	s7, t5, 4
	srli	s11, t6, 4
	srli	ra, s5, 4
	srli	a2, s6, 4
	srli	s0, s8, 4
	xor	s1, s2, s9
	xor	a4, s3, s10
	xor	a1, s4, t4
	xor	a3, s7, t5
	xor	s2, s11, t6
	xor	s3, ra, s5
	xor	s4, a2, s6
	xor	s7, s0, s8
	and	s0, s1, t3
	and	a4, a4, t3
	and	a1, a1, t3
	and	a3, a3, t3
	and	a2, s2, t3
	and	s11, s3, t3
	and	s2, s4, t3
	and	s3, s7, t3
	slli	s1, s0, 4
	add	s4, s1, s0
	slli	s1, a4, 4
	add	s7, s1, a4
	slli	s1, a1, 4
	add	a1, a1, s1
	slli	s1, a3, 4
	add	a3, a3, s1
	slli	s1, a2, 4
	add	a2, a2, s1
	slli	s1, s11, 4
	add	s1, s1, s11
	slli	s0, s2, 4
	add	s0, s0, s2
	slli	a4, s3, 4
	add	s3, s3, a4
	xor	s9, s4, s9
	xor	a4, s7, s10
	xor	t4, a1, t4
	xor	t5, a3, t5
	xor	s7, a2, t6
	xor	a3, s1, s5
	xor	a2, s0, s6
	xor	s8, s3, s8
.Lgcm_narrow_BB4_11:                               # %join.8.i
                                        #   in Loop: Header=BB4_12 Depth=1
	not	a1, s9
	not	a4, a4
	not	a3, a3
	not	a2, a2
	addi	a5, a5, 1
	sd	a1, -56(a0)
	sd	a4, -48(a0)
	sd	t4, -40(a0)
	sd	t5, -32(a0)
	sd	s7, -24(a0)
	sd	a3, -16(a0)
	sd	a2, -8(a0)
	sd	s8, 0(a0)
	add	a1, a6, a5
	li	a2, 1
	addi	a0, a0, 64
	beq	a1, a2, .Lgcm_narrow_BB4_18
.Lgcm_narrow_BB4_12:                               # %join.5.i
                                        # =>This Inner Loop Header: Depth=1
	ld	s9, -56(a0)
	ld	a4, -48(a0)
	ld	t4, -40(a0)
	ld	t5, -32(a0)
	ld	s7, -24(a0)
	ld	a3, -16(a0)
	ld	a2, -8(a0)
	ld	s8, 0(a0)
	bgeu	a5, a7, .Lgcm_narrow_BB4_11
# %bb.13:                               # %ok.10.i
                                        #   in Loop: Header=BB4_12 Depth=1
	andi	s0, a5, 3
	li	a1, 1
	blt	a1, s0, .Lgcm_narrow_BB4_16
# %bb.14:                               # %ok.10.i
                                        #   in Loop: Header=BB4_12 Depth=1
	beqz	s0, .Lgcm_narrow_BB4_11
# %bb.15:                               # %then.1.i
                                        #   in Loop: Header=BB4_12 Depth=1
	srli	t6, s9, 8
	srli	s2, a4, 8
	srli	s3, t4, 8
	srli	s4, t5, 8
	srli	s5, s7, 8
	srli	s6, a3, 8
	srli	s10, a2, 8
	srli	s1, s8, 8
	xor	s0, t6, s9
	xor	a1, s2, a4
	xor	t6, s3, t4
	xor	s2, s4, t5
	xor	s3, s5, s7
	xor	s4, s6, a3
	xor	s5, s10, a2
	xor	s6, s1, s8
	and	s1, s0, t1
	and	a1, a1, t1
	and	s10, t6, t1
	and	t6, s2, t1
	and	s2, s3, t1
	and	s3, s4, t1
	and	s4, s5, t1
	and	s5, s6, t1
	slli	s0, s1, 8
	add	s0, s0, s1
	slli	s1, a1, 8
	add	s1, s1, a1
	slli	a1, s10, 8
	add	s10, s10, a1
	slli	a1, t6, 8
	add	t6, t6, a1
	slli	a1, s2, 8
	add	s2, s2, a1
	slli	a1, s3, 8
	add	s3, s3, a1
	slli	a1, s4, 8
	add	s4, s4, a1
	slli	a1, s5, 8
	add	s5, s5, a1
	xor	s6, s0, s9
	xor	ra, s1, a4
	xor	t4, s10, t4
	xor	t5, t6, t5
	xor	t6, s2, s7
	xor	s10, s3, a3
	xor	s11, s4, a2
	xor	s5, s5, s8
	srli	s2, s6, 4
	srli	s3, ra, 4
	srli	s4, t4, 4
	srli	s7, t5, 4
	srli	s8, t6, 4
	srli	s9, s10, 4
	srli	a2, s11, 4
	srli	s0, s5, 4
	xor	s1, s2, s6
	xor	a4, s3, ra
	xor	a1, s4, t4
	xor	a3, s7, t5
	xor	s2, s8, t6
	xor	s3, s9, s10
	xor	s4, a2, s11
	xor	s7, s0, s5
	and	s0, s1, t3
	and	a4, a4, t3
	and	a1, a1, t3
	and	a3, a3, t3
	and	a2, s2, t3
	and	s8, s3, t3
	and	s2, s4, t3
	and	s3, s7, t3
	slli	s1, s0, 4
	add	s4, s1, s0
	slli	s1, a4, 4
	add	s7, s1, a4
	slli	s1, a1, 4
	add	a1, a1, s1
	slli	s1, a3, 4
	add	a3, a3, s1
	slli	s1, a2, 4
	add	a2, a2, s1
	slli	s1, s8, 4
	add	s1, s1, s8
	slli	s0, s2, 4
	add	s0, s0, s2
	slli	a4, s3, 4
	add	s3, s3, a4
	xor	s9, s4, s6
	xor	a4, s7, ra
	xor	t4, a1, t4
	xor	t5, a3, t5
	xor	s7, a2, t6
	xor	a3, s1, s10
	xor	a2, s0, s11
	xor	s8, s3, s5
	j	.Lgcm_narrow_BB4_11
.Lgcm_narrow_BB4_16:                               # %ok.10.i
                                        #   in Loop: Header=BB4_12 Depth=1
	li	s10, 2
	srli	a1, s9, 8
	srli	s1, a4, 8
	srli	s6, t4, 8
	srli	s5, t5, 8
	srli	s4, s7, 8
	srli	s3, a3, 8
	srli	s2, a2, 8
	srli	t6, s8, 8
	bne	s0, s10, .Lgcm_narrow_BB4_10
# %bb.17:                               # %then.4.i
                                        #   in Loop: Header=BB4_12 Depth=1
	xor	s10, a1, s9
	xor	s11, s1, a4
	xor	s6, s6, t4
	xor	s5, s5, t5
	xor	s4, s4, s7
	xor	s3, s3, a3
	xor	s2, s2, a2
	xor	t6, t6, s8
	and	s1, s10, t0
	and	a1, s11, t0
	and	s6, s6, t0
	and	s5, s5, t0
	and	s4, s4, t0
	and	s3, s3, t0
	and	s2, s2, t0
	and	t6, t6, t0
	slli	s0, s1, 8
	add	s10, s0, s1
	slli	s1, a1, 8
	add	s11, s1, a1
	slli	s1, s6, 8
	add	s6, s6, s1
	slli	s0, s5, 8
	add	s5, s5, s0
	slli	a1, s4, 8
	add	s4, s4, a1
	slli	s1, s3, 8
	add	s1, s1, s3
	slli	s0, s2, 8
	add	s0, s0, s2
	slli	a1, t6, 8
	add	a1, a1, t6
	xor	s9, s10, s9
	xor	a4, s11, a4
	xor	t4, s6, t4
	xor	t5, s5, t5
	xor	s7, s4, s7
	xor	a3, a3, s1
	xor	a2, a2, s0
	xor	s8, a1, s8
	j	.Lgcm_narrow_BB4_11
.Lgcm_narrow_BB4_18:                               # %"aes_soft::soft::key_layout::store::<#22bae2b93930244e>.exit"
	ld	ra, 472(sp)                     # 8-byte Folded Reload
	ld	s0, 464(sp)                     # 8-byte Folded Reload
	ld	s1, 456(sp)                     # 8-byte Folded Reload
	ld	s2, 448(sp)                     # 8-byte Folded Reload
	ld	s3, 440(sp)                     # 8-byte Folded Reload
	ld	s4, 432(sp)                     # 8-byte Folded Reload
	ld	s5, 424(sp)                     # 8-byte Folded Reload
	ld	s6, 416(sp)                     # 8-byte Folded Reload
	ld	s7, 408(sp)                     # 8-byte Folded Reload
	ld	s8, 400(sp)                     # 8-byte Folded Reload
	ld	s9, 392(sp)                     # 8-byte Folded Reload
	ld	s10, 384(sp)                    # 8-byte Folded Reload
	ld	s11, 376(sp)                    # 8-byte Folded Reload
	addi	sp, sp, 480
	ret
.Lgcm_narrow_func_end4:
	.size	gcm_narrow.aes_narrow.word_room.expand_words, .Lgcm_narrow_func_end4-gcm_narrow.aes_narrow.word_room.expand_words
                                        # -- End function
	.section	.text.gcm_narrow.aes_cipher.zeroize.stack.wipe_stack.768,"ax",@progbits
	.p2align	1                               # -- Begin function aes_cipher::zeroize::stack::wipe_stack::<=768>
	.type	gcm_narrow.aes_cipher.zeroize.stack.wipe_stack.768,@function
gcm_narrow.aes_cipher.zeroize.stack.wipe_stack.768: # @gcm_narrow.aes_cipher.zeroize.stack.wipe_stack.768
# %bb.0:                                # %start
	addi	sp, sp, -800
	sd	ra, 792(sp)                     # 8-byte Folded Spill
	sd	s0, 784(sp)                     # 8-byte Folded Spill
	sd	s1, 776(sp)                     # 8-byte Folded Spill
	addi	s0, sp, 8
	addi	a0, sp, 8
	li	a2, 768
	li	s1, 768
	li	a1, 0
	la	t1, memset
	jalr	t1
	sd	zero, 0(sp)
	#APP
	#NO_APP
	fence	rw, rw
	ld	a0, 0(sp)
	fence	r, rw
	#APP
	#NO_APP
	bgeu	a0, s1, .Lgcm_narrow_BB5_2
# %bb.1:                                # %then.1
	add	a0, a0, s0
	lbu	a0, 0(a0)
	#APP
	#NO_APP
	mv	a1, sp
	amoswap.d.aqrl	zero, a0, (a1)
	#APP
	#NO_APP
.Lgcm_narrow_BB5_2:                                # %common.ret
	ld	ra, 792(sp)                     # 8-byte Folded Reload
	ld	s0, 784(sp)                     # 8-byte Folded Reload
	ld	s1, 776(sp)                     # 8-byte Folded Reload
	addi	sp, sp, 800
	ret
.Lgcm_narrow_func_end5:
	.size	gcm_narrow.aes_cipher.zeroize.stack.wipe_stack.768, .Lgcm_narrow_func_end5-gcm_narrow.aes_cipher.zeroize.stack.wipe_stack.768
                                        # -- End function
	.section	.text.gcm_narrow.gcm.mode.BorrowedGcm.put_pre_counter,"ax",@progbits
	.p2align	1                               # -- Begin function gcm::mode::BorrowedGcm::put_pre_counter::<#5079162aaf335e50>
	.type	gcm_narrow.gcm.mode.BorrowedGcm.put_pre_counter,@function
gcm_narrow.gcm.mode.BorrowedGcm.put_pre_counter: # @gcm_narrow.gcm.mode.BorrowedGcm.put_pre_counter
# %bb.0:                                # %start
	addi	sp, sp, -128
	sd	ra, 120(sp)                     # 8-byte Folded Spill
	sd	s0, 112(sp)                     # 8-byte Folded Spill
	sd	s1, 104(sp)                     # 8-byte Folded Spill
	sd	s2, 96(sp)                      # 8-byte Folded Spill
	sd	s3, 88(sp)                      # 8-byte Folded Spill
	sd	s4, 80(sp)                      # 8-byte Folded Spill
	sd	s5, 72(sp)                      # 8-byte Folded Spill
	sd	s6, 64(sp)                      # 8-byte Folded Spill
	sd	s7, 56(sp)                      # 8-byte Folded Spill
	sd	s8, 48(sp)                      # 8-byte Folded Spill
	sd	s9, 40(sp)                      # 8-byte Folded Spill
	sd	s10, 32(sp)                     # 8-byte Folded Spill
	mv	s9, a3
	mv	a4, a1
	li	a1, 12
	bne	a2, a1, .Lgcm_narrow_BB6_2
# %bb.1:                                # %then.1
	lbu	a0, 1(a4)
	lbu	a1, 0(a4)
	lbu	a2, 2(a4)
	lbu	a3, 3(a4)
	slli	a0, a0, 8
	or	a6, a0, a1
	lbu	a1, 4(a4)
	lbu	a5, 5(a4)
	lbu	s1, 6(a4)
	lbu	a0, 7(a4)
	slli	a2, a2, 16
	slli	a3, a3, 24
	slli	a5, a5, 8
	slli	s1, s1, 16
	slli	a0, a0, 24
	or	a2, a2, a3
	or	a1, a1, a5
	or	a0, a0, s1
	lbu	a3, 9(a4)
	lbu	a5, 8(a4)
	lbu	s1, 10(a4)
	lbu	a4, 11(a4)
	slli	a3, a3, 8
	or	a3, a3, a5
	slli	s1, s1, 16
	slli	a4, a4, 24
	or	a4, a4, s1
	or	a2, a2, a6
	or	a0, a0, a1
	or	a3, a3, a4
	slli	a0, a0, 32
	or	a0, a0, a2
	sd	a0, 0(sp)
	sw	a3, 8(sp)
	sh	zero, 12(sp)
	sb	zero, 14(sp)
	mv	a1, sp
	li	a2, 15
	mv	a0, s9
	la	t1, memcpy
	jalr	t1
	li	a0, 1
	j	.Lgcm_narrow_BB6_3
.Lgcm_narrow_BB6_2:                                # %else.2
	mv	s10, a2
	ld	a1, 16(a0)
	li	s6, 255
	lui	s4, 4080
	lbu	a7, 0(a1)
	lbu	t2, 1(a1)
	lbu	t3, 2(a1)
	lbu	a3, 3(a1)
	lbu	s2, 8(a1)
	lbu	t0, 9(a1)
	lbu	t1, 10(a1)
	lbu	a5, 11(a1)
	lbu	a0, 4(a1)
	lbu	t4, 5(a1)
	lbu	t5, 6(a1)
	lbu	a6, 7(a1)
	slli	a0, a0, 32
	slli	a3, a3, 24
	or	t6, a3, a0
	lbu	a0, 12(a1)
	lbu	a3, 13(a1)
	lbu	a2, 14(a1)
	lbu	s3, 15(a1)
	slli	a0, a0, 32
	slli	a5, a5, 24
	or	s8, a5, a0
	lui	a5, 16
	slli	t3, t3, 16
	slli	t2, t2, 8
	or	a1, t2, a7
	or	a1, a1, t3
	slli	s7, s6, 24
	addi	s5, a5, -256
	slli	t5, t5, 48
	slli	t4, t4, 40
	slli	t2, a2, 48
	slli	t3, a3, 40
	slli	t1, t1, 16
	slli	t0, t0, 8
	or	a5, t0, s2
	slli	s2, s2, 56
	slli	a7, a7, 56
	or	a5, a5, t1
	or	a0, a1, t6
	or	a2, a5, s8
	and	a5, a5, s5
	and	a1, a1, s5
	or	a3, a0, t4
	or	s0, a2, t3
	srli	s1, a2, 8
	and	t1, a2, s4
	slli	a5, a5, 40
	or	t0, s2, a5
	srli	a5, a0, 8
	and	t3, a0, s4
	slli	a1, a1, 40
	or	a2, a3, t5
	or	a0, s0, t2
	and	s1, s1, s7
	srli	s0, s0, 24
	slli	t1, t1, 24
	and	a5, a5, s7
	srli	a3, a3, 24
	slli	t3, t3, 24
	or	a7, a7, a1
	and	s0, s0, s4
	srli	a1, a0, 40
	srliw	a0, a0, 24
	and	a3, a3, s4
	or	s0, s0, s1
	srli	s1, a2, 40
	srliw	a2, a2, 24
	and	a1, a1, s5
	slli	a0, a0, 32
	or	a3, a3, a5
	and	a5, s1, s5
	slli	a2, a2, 32
	or	a1, a1, s3
	or	a0, t1, a0
	or	a5, a5, a6
	or	a2, t3, a2
	or	a1, a1, s0
	or	a0, t0, a0
	or	a3, a3, a5
	or	a2, a7, a2
	or	s2, a0, a1
	or	s3, a2, a3
	mv	a0, s2
	mv	a1, s3
	li	a2, 0
	li	a3, 0
	mv	a5, s10
	call	gcm_narrow.gcm.single_blocks.hash_singly.1
	srli	a6, s10, 53
	slli	a3, s10, 59
	slli	a4, s10, 43
	slli	a5, s10, 27
	slli	s1, s10, 11
	slli	s0, s6, 48
	slli	a2, s6, 40
	slli	s6, s6, 32
	and	a7, a4, s0
	srli	s0, s10, 5
	and	a2, a2, a5
	srli	a5, s10, 21
	srli	a4, s10, 37
	and	t3, s1, s6
	zext.b	t0, a6
	and	t1, s0, s7
	and	t2, a5, s4
	and	a4, a4, s5
	srli	s0, a3, 56
	slli	a6, a6, 56
	or	a3, t0, a3
	or	a5, a2, a7
	or	a4, a4, t2
	srli	a2, a2, 24
	srli	s1, t3, 8
	or	a3, a3, t3
	or	a2, a2, s1
	or	a3, a3, a5
	or	a4, a4, a3
	srli	a3, a3, 40
	or	a5, a4, t1
	and	a3, a3, s5
	and	a4, a4, s5
	or	a3, a3, s0
	srliw	s1, a5, 24
	and	a5, a5, s4
	slli	a4, a4, 40
	or	a2, a2, a3
	slli	s1, s1, 32
	slli	a5, a5, 24
	or	a3, a6, a4
	or	a5, a5, s1
	or	a2, a2, a3
	or	a2, a2, a5
	xor	a0, a0, a2
	mv	a2, s2
	mv	a3, s3
	call	gcm_narrow.gcm.bitwise.product_bitwise
	srli	a6, a0, 8
	srli	a7, a0, 16
	srli	t0, a0, 24
	srli	t1, a0, 32
	srli	t2, a0, 40
	srli	t3, a0, 48
	srli	t4, a0, 56
	srli	t5, a1, 8
	srli	a4, a1, 16
	srli	a5, a1, 24
	srli	s1, a1, 32
	srli	s0, a1, 40
	srli	a2, a1, 48
	srli	a3, a1, 56
	sb	a3, 0(s9)
	sb	a2, 1(s9)
	sb	s0, 2(s9)
	sb	s1, 3(s9)
	sb	a5, 4(s9)
	sb	a4, 5(s9)
	sb	t5, 6(s9)
	sb	a1, 7(s9)
	sb	t4, 8(s9)
	sb	t3, 9(s9)
	sb	t2, 10(s9)
	sb	t1, 11(s9)
	sb	t0, 12(s9)
	sb	a7, 13(s9)
	sb	a6, 14(s9)
.Lgcm_narrow_BB6_3:                                # %join.3
	sb	a0, 15(s9)
	ld	ra, 120(sp)                     # 8-byte Folded Reload
	ld	s0, 112(sp)                     # 8-byte Folded Reload
	ld	s1, 104(sp)                     # 8-byte Folded Reload
	ld	s2, 96(sp)                      # 8-byte Folded Reload
	ld	s3, 88(sp)                      # 8-byte Folded Reload
	ld	s4, 80(sp)                      # 8-byte Folded Reload
	ld	s5, 72(sp)                      # 8-byte Folded Reload
	ld	s6, 64(sp)                      # 8-byte Folded Reload
	ld	s7, 56(sp)                      # 8-byte Folded Reload
	ld	s8, 48(sp)                      # 8-byte Folded Reload
	ld	s9, 40(sp)                      # 8-byte Folded Reload
	ld	s10, 32(sp)                     # 8-byte Folded Reload
	addi	sp, sp, 128
	ret
.Lgcm_narrow_func_end6:
	.size	gcm_narrow.gcm.mode.BorrowedGcm.put_pre_counter, .Lgcm_narrow_func_end6-gcm_narrow.gcm.mode.BorrowedGcm.put_pre_counter
                                        # -- End function
	.section	.text.gcm_narrow.gcm.single_blocks.hash_singly.1,"ax",@progbits
	.p2align	1                               # -- Begin function gcm::single_blocks::hash_singly::<#165deadc48559e33>
	.type	gcm_narrow.gcm.single_blocks.hash_singly.1,@function
gcm_narrow.gcm.single_blocks.hash_singly.1: # @gcm_narrow.gcm.single_blocks.hash_singly.1
# %bb.0:                                # %start
	addi	sp, sp, -128
	sd	ra, 120(sp)                     # 8-byte Folded Spill
	sd	s0, 112(sp)                     # 8-byte Folded Spill
	sd	s1, 104(sp)                     # 8-byte Folded Spill
	sd	s2, 96(sp)                      # 8-byte Folded Spill
	sd	s3, 88(sp)                      # 8-byte Folded Spill
	sd	s4, 80(sp)                      # 8-byte Folded Spill
	sd	s5, 72(sp)                      # 8-byte Folded Spill
	sd	s6, 64(sp)                      # 8-byte Folded Spill
	sd	s7, 56(sp)                      # 8-byte Folded Spill
	sd	s8, 48(sp)                      # 8-byte Folded Spill
	sd	s9, 40(sp)                      # 8-byte Folded Spill
	sd	s10, 32(sp)                     # 8-byte Folded Spill
	sd	s11, 24(sp)                     # 8-byte Folded Spill
	mv	s3, a5
	mv	s2, a4
	mv	s4, a1
	srli	a1, a5, 4
	mv	s5, a0
	beqz	a1, .Lgcm_narrow_BB7_5
# %bb.1:                                # %join.5.i.preheader
	slli	a1, a1, 4
	add	s6, s2, a1
	mv	s1, s2
	mv	a0, a2
	mv	a1, a3
.Lgcm_narrow_BB7_2:                                # %join.5.i
                                        # =>This Inner Loop Header: Depth=1
	lbu	t1, 8(s1)
	lbu	t0, 9(s1)
	lbu	a7, 10(s1)
	lbu	s0, 11(s1)
	lbu	a6, 12(s1)
	lbu	a3, 13(s1)
	lbu	t4, 14(s1)
	lbu	a5, 15(s1)
	lbu	t5, 0(s1)
	lbu	t3, 1(s1)
	lbu	t2, 2(s1)
	lbu	a4, 3(s1)
	slli	a7, a7, 16
	slli	s0, s0, 24
	slli	a3, a3, 8
	slli	a2, t4, 16
	slli	a5, a5, 24
	or	t6, s0, a7
	or	a6, a3, a6
	or	a7, a5, a2
	lbu	a2, 4(s1)
	lbu	a3, 5(s1)
	lbu	a5, 6(s1)
	lbu	s0, 7(s1)
	slli	t2, t2, 16
	slli	a4, a4, 24
	or	t2, a4, t2
	lui	s7, 4080
	slli	a3, a3, 8
	or	s8, a3, a2
	slli	a3, a5, 16
	slli	s0, s0, 24
	or	s9, s0, a3
	li	s0, 255
	slli	t0, t0, 8
	or	a4, t0, t1
	or	s10, t6, a4
	lui	a2, 16
	slli	t6, s0, 24
	addi	s11, a2, -256
	slli	t3, t3, 8
	slli	t0, a5, 8
	or	a3, t3, t5
	slli	t5, t5, 56
	slli	t4, t4, 8
	slli	t1, t1, 56
	or	a5, a7, a6
	or	a3, t2, a3
	or	s0, s9, s8
	slli	a4, a5, 32
	slli	a2, s0, 32
	srliw	s0, s0, 24
	and	a6, a3, s11
	srliw	a5, a5, 24
	and	a7, s10, s11
	or	a4, a4, s10
	or	a2, a2, a3
	or	t0, t0, s0
	slli	a6, a6, 40
	or	t2, t4, a5
	slli	a7, a7, 40
	srli	s0, a2, 24
	srli	t4, a2, 8
	srliw	s8, a2, 24
	and	t3, a2, s7
	or	a6, t5, a6
	srli	t5, a4, 24
	srli	s9, a4, 8
	or	a7, t1, a7
	srliw	a5, a4, 24
	and	t1, a4, s7
	and	s0, s0, s7
	and	a2, t4, t6
	slli	s8, s8, 32
	slli	t3, t3, 24
	and	a3, t5, s7
	and	a4, s9, t6
	slli	a5, a5, 32
	slli	t1, t1, 24
	or	a2, a2, s0
	or	s0, t3, s8
	or	a3, a3, a4
	or	a4, t1, a5
	or	a2, a2, t0
	or	a5, a6, s0
	or	a3, a3, t2
	or	a4, a7, a4
	or	a2, a2, a5
	or	a3, a3, a4
	xor	a0, a0, a3
	xor	a1, a1, a2
	mv	a2, s5
	mv	a3, s4
	call	gcm_narrow.gcm.bitwise.product_bitwise
	addi	s1, s1, 16
	bne	s1, s6, .Lgcm_narrow_BB7_2
# %bb.3:                                # %"gcm::single_blocks::hash_whole::<#165deadc48559e33>.exit"
	andi	a2, s3, 15
	beqz	a2, .Lgcm_narrow_BB7_6
.Lgcm_narrow_BB7_4:                                # %join.3
	andi	a3, s3, -16
	add	s2, s2, a3
	sd	zero, 8(sp)
	sd	zero, 16(sp)
	mv	s3, a0
	addi	a0, sp, 8
	mv	s6, a1
	mv	a1, s2
	la	t1, memcpy
	jalr	t1
	ld	a1, 8(sp)
	ld	a0, 16(sp)
	lui	a6, 4080
	li	a3, 255
	lui	a4, 16
	slli	a3, a3, 24
	addi	a4, a4, -256
	srli	a5, a1, 24
	srli	s0, a1, 8
	srli	a7, a1, 40
	srli	a2, a1, 56
	srli	s1, a0, 8
	and	s0, s0, a3
	and	a3, a3, s1
	and	s1, a1, a6
	and	a5, a5, a6
	or	t0, s0, a5
	srliw	s0, a1, 24
	and	a5, a7, a4
	or	a7, a5, a2
	and	a5, a1, a4
	slli	a1, a1, 56
	slli	s1, s1, 24
	slli	s0, s0, 32
	or	s0, s0, s1
	srli	s1, a0, 24
	slli	a5, a5, 40
	or	a1, a1, a5
	srli	a5, a0, 40
	and	s1, s1, a6
	or	a3, a3, s1
	srli	s1, a0, 56
	and	a2, a0, a6
	and	a5, a5, a4
	or	a5, a5, s1
	srliw	s1, a0, 24
	slli	a2, a2, 24
	slli	s1, s1, 32
	or	a2, a2, s1
	and	a4, a4, a0
	slli	a0, a0, 56
	slli	a4, a4, 40
	or	a0, a0, a4
	or	a4, t0, a7
	or	a1, a1, s0
	or	a3, a3, a5
	or	a0, a0, a2
	or	a1, a1, a4
	or	a0, a0, a3
	xor	a0, a0, s3
	xor	a1, a1, s6
	mv	a2, s5
	mv	a3, s4
	ld	ra, 120(sp)                     # 8-byte Folded Reload
	ld	s0, 112(sp)                     # 8-byte Folded Reload
	ld	s1, 104(sp)                     # 8-byte Folded Reload
	ld	s2, 96(sp)                      # 8-byte Folded Reload
	ld	s3, 88(sp)                      # 8-byte Folded Reload
	ld	s4, 80(sp)                      # 8-byte Folded Reload
	ld	s5, 72(sp)                      # 8-byte Folded Reload
	ld	s6, 64(sp)                      # 8-byte Folded Reload
	ld	s7, 56(sp)                      # 8-byte Folded Reload
	ld	s8, 48(sp)                      # 8-byte Folded Reload
	ld	s9, 40(sp)                      # 8-byte Folded Reload
	ld	s10, 32(sp)                     # 8-byte Folded Reload
	ld	s11, 24(sp)                     # 8-byte Folded Reload
	addi	sp, sp, 128
	tail	gcm_narrow.gcm.bitwise.product_bitwise
.Lgcm_narrow_BB7_5:
	mv	a0, a2
	mv	a1, a3
	andi	a2, s3, 15
	bnez	a2, .Lgcm_narrow_BB7_4
.Lgcm_narrow_BB7_6:                                # %common.ret
	ld	ra, 120(sp)                     # 8-byte Folded Reload
	ld	s0, 112(sp)                     # 8-byte Folded Reload
	ld	s1, 104(sp)                     # 8-byte Folded Reload
	ld	s2, 96(sp)                      # 8-byte Folded Reload
	ld	s3, 88(sp)                      # 8-byte Folded Reload
	ld	s4, 80(sp)                      # 8-byte Folded Reload
	ld	s5, 72(sp)                      # 8-byte Folded Reload
	ld	s6, 64(sp)                      # 8-byte Folded Reload
	ld	s7, 56(sp)                      # 8-byte Folded Reload
	ld	s8, 48(sp)                      # 8-byte Folded Reload
	ld	s9, 40(sp)                      # 8-byte Folded Reload
	ld	s10, 32(sp)                     # 8-byte Folded Reload
	ld	s11, 24(sp)                     # 8-byte Folded Reload
	addi	sp, sp, 128
	ret
.Lgcm_narrow_func_end7:
	.size	gcm_narrow.gcm.single_blocks.hash_singly.1, .Lgcm_narrow_func_end7-gcm_narrow.gcm.single_blocks.hash_singly.1
                                        # -- End function
	.section	.text.gcm_narrow.gcm.bitwise.product_bitwise,"ax",@progbits
	.p2align	1                               # -- Begin function gcm::bitwise::product_bitwise
	.type	gcm_narrow.gcm.bitwise.product_bitwise,@function
gcm_narrow.gcm.bitwise.product_bitwise:        # @gcm_narrow.gcm.bitwise.product_bitwise
# %bb.0:                                # %start
	mv	a6, a1
	mv	a5, a0
	li	a0, 0
	li	a1, 0
	li	a4, 128
.Lgcm_narrow_BB8_1:                                # %join.5
                                        # =>This Inner Loop Header: Depth=1
	srai	a7, a6, 63
	srli	t0, a2, 1
	slli	t1, a3, 63
	slli	t2, a2, 63
	and	t3, a7, a2
	or	t0, t0, t1
	srli	a2, a5, 63
	slli	a6, a6, 1
	or	a6, a6, a2
	and	a2, a7, a3
	xor	a1, a1, a2
	srli	a3, a3, 1
	xor	a0, a0, t3
	li	a7, -31
	addiw	a4, a4, -1
	srai	a2, t2, 63
	slli	a7, a7, 56
	and	a2, a2, a7
	xor	a3, a3, a2
	slli	a5, a5, 1
	mv	a2, t0
	bnez	a4, .Lgcm_narrow_BB8_1
# %bb.2:                                # %after.1
	ret
.Lgcm_narrow_func_end8:
	.size	gcm_narrow.gcm.bitwise.product_bitwise, .Lgcm_narrow_func_end8-gcm_narrow.gcm.bitwise.product_bitwise
                                        # -- End function
	.section	.text.gcm_narrow.aes_cipher.zeroize.stack.wipe_stack.512,"ax",@progbits
	.p2align	1                               # -- Begin function aes_cipher::zeroize::stack::wipe_stack::<=512>
	.type	gcm_narrow.aes_cipher.zeroize.stack.wipe_stack.512,@function
gcm_narrow.aes_cipher.zeroize.stack.wipe_stack.512: # @gcm_narrow.aes_cipher.zeroize.stack.wipe_stack.512
# %bb.0:                                # %start
	addi	sp, sp, -544
	sd	ra, 536(sp)                     # 8-byte Folded Spill
	sd	s0, 528(sp)                     # 8-byte Folded Spill
	sd	s1, 520(sp)                     # 8-byte Folded Spill
	addi	s0, sp, 8
	addi	a0, sp, 8
	li	a2, 512
	li	s1, 512
	li	a1, 0
	la	t1, memset
	jalr	t1
	sd	zero, 0(sp)
	#APP
	#NO_APP
	fence	rw, rw
	ld	a0, 0(sp)
	fence	r, rw
	#APP
	#NO_APP
	bgeu	a0, s1, .Lgcm_narrow_BB9_2
# %bb.1:                                # %then.1
	add	a0, a0, s0
	lbu	a0, 0(a0)
	#APP
	#NO_APP
	mv	a1, sp
	amoswap.d.aqrl	zero, a0, (a1)
	#APP
	#NO_APP
.Lgcm_narrow_BB9_2:                                # %common.ret
	ld	ra, 536(sp)                     # 8-byte Folded Reload
	ld	s0, 528(sp)                     # 8-byte Folded Reload
	ld	s1, 520(sp)                     # 8-byte Folded Reload
	addi	sp, sp, 544
	ret
.Lgcm_narrow_func_end9:
	.size	gcm_narrow.aes_cipher.zeroize.stack.wipe_stack.512, .Lgcm_narrow_func_end9-gcm_narrow.aes_cipher.zeroize.stack.wipe_stack.512
                                        # -- End function
	.section	.text.gcm_narrow.gcm.mode.BorrowedGcm.put_tag_so_far,"ax",@progbits
	.p2align	1                               # -- Begin function gcm::mode::BorrowedGcm::put_tag_so_far::<#5079162aaf335e50>
	.type	gcm_narrow.gcm.mode.BorrowedGcm.put_tag_so_far,@function
gcm_narrow.gcm.mode.BorrowedGcm.put_tag_so_far: # @gcm_narrow.gcm.mode.BorrowedGcm.put_tag_so_far
# %bb.0:                                # %start
	addi	sp, sp, -128
	sd	ra, 120(sp)                     # 8-byte Folded Spill
	sd	s0, 112(sp)                     # 8-byte Folded Spill
	sd	s1, 104(sp)                     # 8-byte Folded Spill
	sd	s2, 96(sp)                      # 8-byte Folded Spill
	sd	s3, 88(sp)                      # 8-byte Folded Spill
	sd	s4, 80(sp)                      # 8-byte Folded Spill
	sd	s5, 72(sp)                      # 8-byte Folded Spill
	sd	s6, 64(sp)                      # 8-byte Folded Spill
	sd	s7, 56(sp)                      # 8-byte Folded Spill
	sd	s8, 48(sp)                      # 8-byte Folded Spill
	sd	s9, 40(sp)                      # 8-byte Folded Spill
	sd	s10, 32(sp)                     # 8-byte Folded Spill
	sd	s11, 24(sp)                     # 8-byte Folded Spill
	mv	s5, a2
	mv	s2, a1
	mv	s1, a0
	addi	a1, a1, 32
	li	a2, 16
	mv	a0, s5
	la	t1, memmove
	jalr	t1
	lbu	a0, 0(s1)
	lbu	a1, 1(s1)
	lbu	a2, 2(s1)
	lbu	a3, 3(s1)
	lbu	a6, 4(s1)
	lbu	a7, 5(s1)
	lbu	a4, 6(s1)
	lbu	a5, 7(s1)
	slli	a1, a1, 8
	slli	a2, a2, 16
	slli	a3, a3, 24
	or	t0, a1, a0
	or	t1, a3, a2
	lbu	a1, 8(s1)
	lbu	a3, 9(s1)
	lbu	a0, 10(s1)
	lbu	a2, 11(s1)
	slli	a7, a7, 8
	slli	a4, a4, 16
	slli	a5, a5, 24
	slli	a3, a3, 8
	slli	a0, a0, 16
	slli	a2, a2, 24
	or	a6, a7, a6
	or	a4, a4, a5
	or	a7, a3, a1
	or	a0, a0, a2
	lbu	a2, 13(s1)
	lbu	a3, 12(s1)
	lbu	a5, 14(s1)
	lbu	a1, 15(s1)
	slli	a2, a2, 8
	or	a2, a2, a3
	slli	a5, a5, 16
	slli	a1, a1, 24
	or	a1, a1, a5
	or	a3, t1, t0
	or	a4, a4, a6
	or	a5, a0, a7
	or	a1, a1, a2
	slli	a0, a4, 32
	slli	a1, a1, 32
	or	a0, a0, a3
	or	a1, a1, a5
	li	a3, 1
	li	s3, 1
	mv	a2, s5
	call	gcm_narrow.aes_narrow.blocks.process_all_batches
	call	gcm_narrow.aes_cipher.zeroize.stack.wipe_stack.1024
	ld	s1, 16(s1)
	mv	a0, s1
	mv	a1, s2
	call	gcm_narrow.gcm.mode.BorrowedGcm.hash_so_far
	sd	a0, 8(sp)                       # 8-byte Folded Spill
	ld	a3, 0(s2)
	li	a2, -1
	srli	a2, a2, 3
	sd	a1, 16(sp)                      # 8-byte Folded Spill
	bltu	a3, a2, .Lgcm_narrow_BB10_2
# %bb.1:                                # %start
	mv	a3, a2
.Lgcm_narrow_BB10_2:                               # %start
	ld	a2, 8(s2)
	slli	a4, s3, 36
	addi	a4, a4, -32
	bltu	a2, a4, .Lgcm_narrow_BB10_4
# %bb.3:                                # %start
	mv	a2, a4
.Lgcm_narrow_BB10_4:                               # %start
	srli	t4, a3, 53
	slli	a0, a3, 59
	sd	a0, 0(sp)                       # 8-byte Folded Spill
	slli	t0, a3, 43
	slli	s3, a3, 27
	slli	a7, a3, 11
	slli	t5, a2, 59
	slli	t2, a2, 43
	slli	t3, a2, 27
	slli	s2, a2, 11
	li	a1, 255
	srli	t1, a3, 5
	srli	s4, a3, 21
	srli	s7, a3, 37
	lui	a4, 16
	srli	ra, a2, 5
	lui	s8, 520192
	lbu	t6, 0(s1)
	lbu	s6, 1(s1)
	lbu	s9, 2(s1)
	lbu	s10, 3(s1)
	lbu	a6, 11(s1)
	slli	a5, a1, 48
	slli	a2, a1, 40
	slli	s11, a1, 32
	addi	a4, a4, -256
	and	ra, ra, s8
	or	a0, a0, t4
	and	t0, t0, a5
	and	s8, s3, a2
	and	s3, a7, s11
	and	s0, s7, a4
	and	a7, t2, a5
	and	a2, t3, a2
	and	a5, s2, s11
	or	s2, a0, s0
	lbu	s11, 4(s1)
	lbu	t2, 5(s1)
	lbu	t3, 6(s1)
	lbu	s7, 7(s1)
	slli	a1, a1, 24
	lui	a0, 4080
	and	s0, s4, a0
	and	a3, t1, a1
	or	s4, a3, s3
	or	a3, a5, t5
	or	a0, ra, a2
	srli	a2, a2, 24
	srli	a5, a5, 8
	or	s0, s2, s0
	or	a0, a0, a3
	or	ra, a5, a2
	or	a7, a0, a7
	lbu	a2, 12(s1)
	lbu	s2, 13(s1)
	lbu	s3, 14(s1)
	lbu	t1, 15(s1)
	slli	s11, s11, 32
	slli	s10, s10, 24
	slli	a2, a2, 32
	slli	a6, a6, 24
	or	s10, s10, s11
	or	a6, a6, a2
	lbu	s11, 8(s1)
	lbu	a3, 9(s1)
	lbu	s1, 10(s1)
	slli	s9, s9, 16
	slli	s6, s6, 8
	or	a2, s6, t6
	or	s6, a2, s9
	slli	s1, s1, 16
	slli	a3, a3, 8
	or	a3, a3, s11
	or	a3, a3, s1
	slli	t4, t4, 56
	srli	a2, t5, 56
	or	a5, s0, s4
	and	s0, s0, a4
	slli	s0, s0, 40
	or	t4, t4, s0
	srli	a0, a7, 40
	and	a0, a0, a4
	or	s4, a0, a2
	or	s0, a5, s8
	slli	a7, a7, 32
	srli	a0, a7, 24
	or	a2, a0, ra
	srli	s1, a5, 8
	or	a7, s0, t0
	and	s1, s1, a1
	srli	s0, s0, 24
	lui	ra, 4080
	and	s0, s0, ra
	or	t5, s1, s0
	slli	s11, s11, 56
	or	s1, s6, s10
	or	a0, a3, a6
	and	a3, a3, a4
	or	s8, a2, s4
	srli	s0, a0, 8
	slli	a3, a3, 40
	or	s4, s11, a3
	srli	a3, s1, 8
	and	t0, s0, a1
	and	a6, a3, a1
	ld	a1, 0(sp)                       # 8-byte Folded Reload
	srli	s9, a1, 56
	slli	t3, t3, 48
	slli	t2, t2, 40
	slli	s3, s3, 48
	slli	s2, s2, 40
	slli	t6, t6, 56
	and	a5, a5, ra
	slli	s10, a5, 24
	and	a1, s6, a4
	slli	a1, a1, 40
	or	t6, t6, a1
	srli	a1, a7, 40
	srliw	a2, a7, 24
	or	s0, s1, t2
	or	a3, a0, s2
	lui	a5, 4080
	and	a0, a0, a5
	and	s1, s1, a5
	lui	s6, 4080
	and	a7, a1, a4
	slli	a2, a2, 32
	or	a5, s0, t3
	or	a1, a3, s3
	srli	a3, a3, 24
	slli	t2, a0, 24
	srli	s0, s0, 24
	slli	t3, s1, 24
	or	s2, a7, s9
	or	a7, s10, a2
	ld	a0, 8(sp)                       # 8-byte Folded Reload
	xor	a0, s8, a0
	and	a3, a3, s6
	srli	a2, a1, 40
	srliw	s3, a1, 24
	and	s0, s0, s6
	srli	s1, a5, 40
	srliw	a5, a5, 24
	or	t5, t5, s2
	or	a1, t4, a7
	or	a7, t0, a3
	and	a2, a2, a4
	slli	s3, s3, 32
	or	s0, a6, s0
	and	a4, a4, s1
	slli	a5, a5, 32
	or	a3, a1, t5
	or	a2, a2, t1
	or	s1, t2, s3
	or	a4, a4, s7
	or	a5, t3, a5
	ld	a1, 16(sp)                      # 8-byte Folded Reload
	xor	a1, a1, a3
	or	a2, a7, a2
	or	a3, s4, s1
	or	a4, a4, s0
	or	a5, t6, a5
	or	a2, a2, a3
	or	a3, a5, a4
	call	gcm_narrow.gcm.bitwise.product_bitwise
	srli	a6, a1, 16
	srli	a7, a1, 8
	srli	t0, a0, 56
	srli	t1, a0, 48
	srli	t2, a0, 40
	srli	t3, a0, 32
	lbu	t4, 12(s5)
	lbu	a3, 13(s5)
	lbu	a4, 14(s5)
	lbu	a5, 15(s5)
	srli	s1, a0, 24
	srli	s0, a0, 16
	srli	a2, a0, 8
	xor	t5, a5, a0
	lbu	t6, 8(s5)
	lbu	s2, 9(s5)
	lbu	a5, 10(s5)
	lbu	a0, 11(s5)
	xor	s3, a4, a2
	xor	s4, a3, s0
	xor	t4, t4, s1
	xor	t3, a0, t3
	lbu	s1, 4(s5)
	lbu	s0, 5(s5)
	lbu	a2, 6(s5)
	lbu	s6, 7(s5)
	xor	t2, a5, t2
	xor	t1, s2, t1
	xor	t0, t6, t0
	xor	a7, a2, a7
	lbu	a5, 0(s5)
	lbu	a4, 1(s5)
	lbu	a0, 2(s5)
	lbu	a2, 3(s5)
	xor	s0, s0, a6
	srli	a3, a1, 24
	xor	a3, a3, s1
	srli	s1, a1, 32
	xor	a2, a2, s1
	srli	s1, a1, 40
	xor	a0, a0, s1
	srli	s1, a1, 48
	xor	a4, a4, s1
	xor	s1, s6, a1
	srli	a1, a1, 56
	xor	a1, a1, a5
	sb	a1, 0(s5)
	sb	a4, 1(s5)
	sb	a0, 2(s5)
	sb	a2, 3(s5)
	sb	a3, 4(s5)
	sb	s0, 5(s5)
	sb	a7, 6(s5)
	sb	s1, 7(s5)
	sb	t0, 8(s5)
	sb	t1, 9(s5)
	sb	t2, 10(s5)
	sb	t3, 11(s5)
	sb	t4, 12(s5)
	sb	s4, 13(s5)
	sb	s3, 14(s5)
	sb	t5, 15(s5)
	ld	ra, 120(sp)                     # 8-byte Folded Reload
	ld	s0, 112(sp)                     # 8-byte Folded Reload
	ld	s1, 104(sp)                     # 8-byte Folded Reload
	ld	s2, 96(sp)                      # 8-byte Folded Reload
	ld	s3, 88(sp)                      # 8-byte Folded Reload
	ld	s4, 80(sp)                      # 8-byte Folded Reload
	ld	s5, 72(sp)                      # 8-byte Folded Reload
	ld	s6, 64(sp)                      # 8-byte Folded Reload
	ld	s7, 56(sp)                      # 8-byte Folded Reload
	ld	s8, 48(sp)                      # 8-byte Folded Reload
	ld	s9, 40(sp)                      # 8-byte Folded Reload
	ld	s10, 32(sp)                     # 8-byte Folded Reload
	ld	s11, 24(sp)                     # 8-byte Folded Reload
	addi	sp, sp, 128
	ret
.Lgcm_narrow_func_end10:
	.size	gcm_narrow.gcm.mode.BorrowedGcm.put_tag_so_far, .Lgcm_narrow_func_end10-gcm_narrow.gcm.mode.BorrowedGcm.put_tag_so_far
                                        # -- End function
	.section	.text.gcm_narrow.aes_narrow.blocks.process_all_batches,"ax",@progbits
	.p2align	1                               # -- Begin function aes_narrow::blocks::process_all_batches::<#6ca5080f6f2d303b>
	.type	gcm_narrow.aes_narrow.blocks.process_all_batches,@function
gcm_narrow.aes_narrow.blocks.process_all_batches: # @gcm_narrow.aes_narrow.blocks.process_all_batches
# %bb.0:                                # %start
	addi	sp, sp, -48
	sd	ra, 40(sp)                      # 8-byte Folded Spill
	sd	s0, 32(sp)                      # 8-byte Folded Spill
	sd	s1, 24(sp)                      # 8-byte Folded Spill
	sd	s2, 16(sp)                      # 8-byte Folded Spill
	sd	s3, 8(sp)                       # 8-byte Folded Spill
	sd	s4, 0(sp)                       # 8-byte Folded Spill
	mv	s0, a3
	mv	s2, a2
	mv	s3, a1
	mv	s4, a0
	li	a0, 0
	j	.Lgcm_narrow_BB11_2
.Lgcm_narrow_BB11_1:                               # %join.5
                                        #   in Loop: Header=BB11_2 Depth=1
	add	s1, a3, a0
	slli	a0, a0, 4
	add	a2, s2, a0
	mv	a0, s4
	mv	a1, s3
	call	gcm_narrow.aes_soft.soft.blocks.filled_up.process_filled_up
	mv	a0, s1
	bgeu	s1, s0, .Lgcm_narrow_BB11_4
.Lgcm_narrow_BB11_2:                               # %join.5
                                        # =>This Inner Loop Header: Depth=1
	sub	a3, s0, a0
	li	a1, 4
	bltu	a3, a1, .Lgcm_narrow_BB11_1
# %bb.3:                                # %join.5
                                        #   in Loop: Header=BB11_2 Depth=1
	li	a3, 4
	j	.Lgcm_narrow_BB11_1
.Lgcm_narrow_BB11_4:                               # %after.1
	ld	ra, 40(sp)                      # 8-byte Folded Reload
	ld	s0, 32(sp)                      # 8-byte Folded Reload
	ld	s1, 24(sp)                      # 8-byte Folded Reload
	ld	s2, 16(sp)                      # 8-byte Folded Reload
	ld	s3, 8(sp)                       # 8-byte Folded Reload
	ld	s4, 0(sp)                       # 8-byte Folded Reload
	addi	sp, sp, 48
	ret
.Lgcm_narrow_func_end11:
	.size	gcm_narrow.aes_narrow.blocks.process_all_batches, .Lgcm_narrow_func_end11-gcm_narrow.aes_narrow.blocks.process_all_batches
                                        # -- End function
	.section	.text.gcm_narrow.aes_soft.soft.blocks.filled_up.process_filled_up,"ax",@progbits
	.p2align	1                               # -- Begin function aes_soft::soft::blocks::filled_up::process_filled_up::<#6ca5080f6f2d303b>
	.type	gcm_narrow.aes_soft.soft.blocks.filled_up.process_filled_up,@function
gcm_narrow.aes_soft.soft.blocks.filled_up.process_filled_up: # @gcm_narrow.aes_soft.soft.blocks.filled_up.process_filled_up
# %bb.0:                                # %start
	addi	sp, sp, -304
	sd	ra, 296(sp)                     # 8-byte Folded Spill
	sd	s0, 288(sp)                     # 8-byte Folded Spill
	sd	s1, 280(sp)                     # 8-byte Folded Spill
	sd	s2, 272(sp)                     # 8-byte Folded Spill
	sd	s3, 264(sp)                     # 8-byte Folded Spill
	sd	s4, 256(sp)                     # 8-byte Folded Spill
	mv	s4, a3
	mv	s0, a2
	mv	s3, a1
	mv	s2, a0
	lbu	a0, 8(a2)
	lbu	a1, 9(a2)
	lbu	a2, 10(a2)
	lbu	a3, 11(s0)
	lbu	a6, 12(s0)
	lbu	a5, 13(s0)
	lbu	s1, 14(s0)
	lbu	a4, 15(s0)
	slli	a1, a1, 8
	slli	a2, a2, 16
	slli	a3, a3, 24
	or	a7, a1, a0
	or	t0, a3, a2
	lbu	a1, 0(s0)
	lbu	a3, 1(s0)
	lbu	a0, 2(s0)
	lbu	a2, 3(s0)
	slli	a5, a5, 8
	slli	s1, s1, 16
	slli	a4, a4, 24
	slli	a3, a3, 8
	slli	a0, a0, 16
	slli	a2, a2, 24
	or	a6, a5, a6
	or	a4, a4, s1
	or	a1, a1, a3
	or	a0, a0, a2
	lbu	a2, 5(s0)
	lbu	a3, 4(s0)
	lbu	s1, 6(s0)
	lbu	a5, 7(s0)
	slli	a2, a2, 8
	or	a2, a2, a3
	slli	s1, s1, 16
	slli	a5, a5, 24
	or	a5, a5, s1
	or	a3, t0, a7
	or	a4, a4, a6
	or	a0, a0, a1
	or	a2, a2, a5
	sd	zero, 160(sp)
	sd	zero, 168(sp)
	sd	zero, 176(sp)
	sd	zero, 184(sp)
	sd	zero, 128(sp)
	sd	zero, 136(sp)
	sd	zero, 144(sp)
	sd	zero, 152(sp)
	sd	zero, 64(sp)
	sd	zero, 72(sp)
	sd	zero, 80(sp)
	sd	zero, 88(sp)
	sd	zero, 96(sp)
	sd	zero, 104(sp)
	sd	zero, 112(sp)
	sd	zero, 120(sp)
	sd	zero, 0(sp)
	sd	zero, 8(sp)
	sd	zero, 16(sp)
	sd	zero, 24(sp)
	sd	zero, 32(sp)
	sd	zero, 40(sp)
	sd	zero, 48(sp)
	sd	zero, 56(sp)
	slli	a4, a4, 32
	slli	a2, a2, 32
	or	a3, a3, a4
	or	a0, a0, a2
	sd	a0, 192(sp)
	sd	a3, 200(sp)
	addi	a0, sp, 208
	li	a2, 16
	mv	a1, s0
	la	t1, memcpy
	jalr	t1
	addi	a0, sp, 224
	li	a2, 16
	mv	a1, s0
	la	t1, memcpy
	jalr	t1
	addi	a0, sp, 240
	li	a2, 16
	mv	a1, s0
	la	t1, memcpy
	jalr	t1
	srli	s3, s3, 3
	addi	s3, s3, -1
	beqz	s4, .Lgcm_narrow_BB12_4
# %bb.1:                                # %join.8.i
	lbu	a0, 8(s0)
	lbu	a1, 9(s0)
	lbu	a2, 10(s0)
	lbu	a3, 11(s0)
	lbu	a6, 12(s0)
	lbu	a5, 13(s0)
	lbu	s1, 14(s0)
	lbu	a4, 15(s0)
	slli	a1, a1, 8
	slli	a2, a2, 16
	slli	a3, a3, 24
	or	a7, a1, a0
	or	t0, a3, a2
	lbu	a1, 0(s0)
	lbu	a3, 1(s0)
	lbu	a0, 2(s0)
	lbu	a2, 3(s0)
	slli	a5, a5, 8
	slli	s1, s1, 16
	slli	a4, a4, 24
	slli	a3, a3, 8
	slli	a0, a0, 16
	slli	a2, a2, 24
	or	a6, a5, a6
	or	a4, a4, s1
	or	a1, a1, a3
	or	a0, a0, a2
	lbu	a2, 5(s0)
	lbu	a3, 4(s0)
	lbu	s1, 6(s0)
	lbu	a5, 7(s0)
	slli	a2, a2, 8
	or	a2, a2, a3
	slli	s1, s1, 16
	slli	a5, a5, 24
	or	a5, a5, s1
	or	a3, t0, a7
	or	a4, a4, a6
	or	a0, a0, a1
	or	a2, a2, a5
	slli	a4, a4, 32
	or	a3, a3, a4
	li	a1, 1
	slli	a2, a2, 32
	or	a0, a0, a2
	sd	a0, 192(sp)
	sd	a3, 200(sp)
	beq	s4, a1, .Lgcm_narrow_BB12_4
# %bb.2:                                # %join.8.i.1
	addi	a1, s0, 16
	addi	a0, sp, 208
	li	a2, 16
	la	t1, memcpy
	jalr	t1
	li	a0, 2
	beq	s4, a0, .Lgcm_narrow_BB12_4
# %bb.3:                                # %join.8.i.2
	addi	a1, s0, 32
	addi	a0, sp, 224
	li	a2, 16
	la	t1, memcpy
	jalr	t1
	li	a0, 3
	bne	s4, a0, .Lgcm_narrow_BB12_9
.Lgcm_narrow_BB12_4:                               # %then.6.i
	ld	a0, 224(sp)
	ld	a1, 232(sp)
	ld	a2, 240(sp)
	ld	a3, 248(sp)
	sd	a0, 96(sp)
	sd	a1, 104(sp)
	sd	a2, 112(sp)
	sd	a3, 120(sp)
	ld	a0, 192(sp)
	ld	a1, 200(sp)
	ld	a2, 208(sp)
	ld	a3, 216(sp)
	sd	a0, 64(sp)
	sd	a1, 72(sp)
	sd	a2, 80(sp)
	sd	a3, 88(sp)
.Lgcm_narrow_BB12_5:                               # %"aes_soft::soft::blocks::filled_up::filled_up::<#9d3cec6f18dfbbf4>.exit"
	mv	a0, sp
	addi	a3, sp, 64
	mv	a1, s2
	mv	a2, s3
	call	gcm_narrow.aes_soft.soft.ciphers.planes.process_outlined
	ld	a0, 32(sp)
	ld	a1, 40(sp)
	ld	a2, 48(sp)
	ld	a3, 56(sp)
	sd	a0, 160(sp)
	sd	a1, 168(sp)
	sd	a2, 176(sp)
	sd	a3, 184(sp)
	ld	a0, 0(sp)
	ld	a1, 8(sp)
	ld	a2, 16(sp)
	ld	a3, 24(sp)
	sd	a0, 128(sp)
	sd	a1, 136(sp)
	sd	a2, 144(sp)
	sd	a3, 152(sp)
	beqz	s4, .Lgcm_narrow_BB12_8
# %bb.6:                                # %join.8.i19.preheader
	slli	s2, s4, 4
	add	s2, s2, s0
	addi	s1, sp, 128
.Lgcm_narrow_BB12_7:                               # %join.8.i19
                                        # =>This Inner Loop Header: Depth=1
	li	a2, 16
	mv	a0, s0
	mv	a1, s1
	la	t1, memcpy
	jalr	t1
	addi	s0, s0, 16
	addi	s1, s1, 16
	bne	s0, s2, .Lgcm_narrow_BB12_7
.Lgcm_narrow_BB12_8:                               # %"aes_soft::soft::blocks::filled_up::copy_first::<#9d3cec6f18dfbbf4>.exit"
	ld	ra, 296(sp)                     # 8-byte Folded Reload
	ld	s0, 288(sp)                     # 8-byte Folded Reload
	ld	s1, 280(sp)                     # 8-byte Folded Reload
	ld	s2, 272(sp)                     # 8-byte Folded Reload
	ld	s3, 264(sp)                     # 8-byte Folded Reload
	ld	s4, 256(sp)                     # 8-byte Folded Reload
	addi	sp, sp, 304
	ret
.Lgcm_narrow_BB12_9:                               # %join.8.i.3
	addi	a1, s0, 48
	addi	a0, sp, 240
	li	a2, 16
	la	t1, memcpy
	jalr	t1
	ld	a0, 192(sp)
	ld	a1, 200(sp)
	ld	a2, 208(sp)
	ld	a3, 216(sp)
	sd	a0, 64(sp)
	sd	a1, 72(sp)
	sd	a2, 80(sp)
	sd	a3, 88(sp)
	ld	a0, 224(sp)
	ld	a1, 232(sp)
	ld	a2, 240(sp)
	ld	a3, 248(sp)
	sd	a0, 96(sp)
	sd	a1, 104(sp)
	sd	a2, 112(sp)
	sd	a3, 120(sp)
	j	.Lgcm_narrow_BB12_5
.Lgcm_narrow_func_end12:
	.size	gcm_narrow.aes_soft.soft.blocks.filled_up.process_filled_up, .Lgcm_narrow_func_end12-gcm_narrow.aes_soft.soft.blocks.filled_up.process_filled_up
                                        # -- End function
	.section	.rodata.cst8,"aM",@progbits,8
	.p2align	3, 0x0                          # -- Begin function aes_soft::soft::ciphers::planes::process_outlined::<#efe12dec4453cc9c>
.Lgcm_narrow_CPI13_0:
	.quad	-4222189076152336               # 0xfff0fff0fff0fff0
.Lgcm_narrow_CPI13_1:
	.quad	-71777214294589696              # 0xff00ff00ff00ff00
.Lgcm_narrow_CPI13_2:
	.quad	-1152657617789587456            # 0xf000f000f000f000
	.section	.text.gcm_narrow.aes_soft.soft.ciphers.planes.process_outlined,"ax",@progbits
	.p2align	1
	.type	gcm_narrow.aes_soft.soft.ciphers.planes.process_outlined,@function
gcm_narrow.aes_soft.soft.ciphers.planes.process_outlined: # @gcm_narrow.aes_soft.soft.ciphers.planes.process_outlined
# %bb.0:                                # %start
	addi	sp, sp, -288
	sd	ra, 280(sp)                     # 8-byte Folded Spill
	sd	s0, 272(sp)                     # 8-byte Folded Spill
	sd	s1, 264(sp)                     # 8-byte Folded Spill
	sd	s2, 256(sp)                     # 8-byte Folded Spill
	sd	s3, 248(sp)                     # 8-byte Folded Spill
	sd	s4, 240(sp)                     # 8-byte Folded Spill
	sd	s5, 232(sp)                     # 8-byte Folded Spill
	sd	s6, 224(sp)                     # 8-byte Folded Spill
	sd	s7, 216(sp)                     # 8-byte Folded Spill
	sd	s8, 208(sp)                     # 8-byte Folded Spill
	sd	s9, 200(sp)                     # 8-byte Folded Spill
	sd	s10, 192(sp)                    # 8-byte Folded Spill
	sd	s11, 184(sp)                    # 8-byte Folded Spill
	sd	a2, 40(sp)                      # 8-byte Folded Spill
	sd	a1, 48(sp)                      # 8-byte Folded Spill
	sd	a0, 0(sp)                       # 8-byte Folded Spill
	lui	a6, 349525
	lui	a7, 209715
	lui	t0, 65521
	lui	t2, 61681
	lui	s4, 4080
	lui	s7, 240
	lbu	t1, 0(a3)
	lbu	t4, 1(a3)
	lbu	s2, 2(a3)
	lbu	s3, 3(a3)
	lbu	t3, 4(a3)
	lbu	s5, 5(a3)
	lbu	s11, 6(a3)
	lbu	ra, 7(a3)
	lbu	t5, 8(a3)
	lbu	t6, 9(a3)
	lbu	s6, 10(a3)
	lbu	s8, 11(a3)
	lbu	s9, 12(a3)
	lbu	s10, 13(a3)
	lbu	a1, 14(a3)
	lbu	s0, 15(a3)
	addi	a2, a6, 1365
	addi	a4, a7, 819
	addi	t0, t0, -1
	addi	a5, t2, -241
	addi	s1, s4, 255
	addi	a0, s7, 15
	slli	a6, a2, 32
	slli	a7, a4, 32
	add	a2, a2, a6
	sd	a2, 16(sp)                      # 8-byte Folded Spill
	slli	a2, t0, 32
	add	a4, a4, a7
	sd	a4, 24(sp)                      # 8-byte Folded Spill
	slli	a4, a5, 32
	add	a2, a2, t0
	sd	a2, 80(sp)                      # 8-byte Folded Spill
	slli	s7, s1, 32
	add	a4, a4, a5
	sd	a4, 32(sp)                      # 8-byte Folded Spill
	slli	a2, a0, 32
	add	s1, s1, s7
	sd	s1, 152(sp)                     # 8-byte Folded Spill
	add	a0, a0, a2
	sd	a0, 64(sp)                      # 8-byte Folded Spill
	slli	ra, ra, 16
	slli	s0, s0, 24
	slli	a1, a1, 8
	or	a0, s0, ra
	sd	a0, 112(sp)                     # 8-byte Folded Spill
	or	a0, s11, a1
	sd	a0, 176(sp)                     # 8-byte Folded Spill
	lbu	s11, 20(a3)
	lbu	ra, 21(a3)
	lbu	a6, 22(a3)
	lbu	a4, 23(a3)
	slli	s5, s5, 16
	slli	s10, s10, 24
	slli	s9, s9, 8
	slli	s3, s3, 16
	slli	s8, s8, 24
	slli	s6, s6, 8
	or	a0, s10, s5
	sd	a0, 168(sp)                     # 8-byte Folded Spill
	or	a0, t3, s9
	sd	a0, 144(sp)                     # 8-byte Folded Spill
	or	a0, s8, s3
	sd	a0, 160(sp)                     # 8-byte Folded Spill
	or	a0, s2, s6
	sd	a0, 128(sp)                     # 8-byte Folded Spill
	lbu	a5, 28(a3)
	lbu	s0, 29(a3)
	lbu	s1, 30(a3)
	lbu	a0, 31(a3)
	slli	t4, t4, 16
	slli	t6, t6, 24
	slli	a1, t5, 8
	slli	a4, a4, 16
	slli	a0, a0, 24
	slli	s1, s1, 8
	or	a2, t6, t4
	sd	a2, 136(sp)                     # 8-byte Folded Spill
	or	s4, t1, a1
	or	a0, a0, a4
	sd	a0, 120(sp)                     # 8-byte Folded Spill
	or	s5, a6, s1
	lbu	a0, 16(a3)
	lbu	a1, 17(a3)
	lbu	a2, 18(a3)
	lbu	a4, 19(a3)
	slli	ra, ra, 16
	slli	s0, s0, 24
	or	s1, s0, ra
	sd	s1, 104(sp)                     # 8-byte Folded Spill
	lbu	s1, 27(a3)
	slli	a5, a5, 8
	or	s8, s11, a5
	lbu	a5, 26(a3)
	slli	a4, a4, 16
	slli	s1, s1, 24
	or	s6, s1, a4
	lbu	a4, 25(a3)
	slli	a5, a5, 8
	or	s9, a2, a5
	lbu	a2, 24(a3)
	slli	a1, a1, 16
	slli	a4, a4, 24
	or	s3, a4, a1
	lbu	a1, 39(a3)
	lbu	a4, 47(a3)
	slli	a2, a2, 8
	or	s11, a0, a2
	slli	a1, a1, 16
	slli	a4, a4, 24
	or	s10, a4, a1
	lbu	a0, 46(a3)
	lbu	a1, 38(a3)
	lbu	a2, 37(a3)
	lbu	a4, 45(a3)
	slli	a0, a0, 8
	or	ra, a1, a0
	slli	a2, a2, 16
	slli	a4, a4, 24
	or	s2, a4, a2
	lbu	a0, 44(a3)
	lbu	a1, 36(a3)
	lbu	a2, 35(a3)
	lbu	a5, 43(a3)
	slli	a0, a0, 8
	or	t5, a1, a0
	slli	a2, a2, 16
	slli	a5, a5, 24
	or	s7, a5, a2
	lbu	a0, 42(a3)
	lbu	a1, 34(a3)
	lbu	a2, 33(a3)
	lbu	s0, 41(a3)
	slli	a0, a0, 8
	or	s1, a1, a0
	slli	a2, a2, 16
	slli	s0, s0, 24
	or	t6, s0, a2
	lbu	a2, 40(a3)
	lbu	a4, 32(a3)
	lbu	a1, 55(a3)
	lbu	a0, 63(a3)
	slli	a2, a2, 8
	or	t2, a4, a2
	slli	a1, a1, 16
	slli	a0, a0, 24
	or	t4, a0, a1
	lbu	a1, 62(a3)
	lbu	a4, 54(a3)
	lbu	a0, 53(a3)
	lbu	a2, 61(a3)
	slli	a1, a1, 8
	or	t1, a4, a1
	slli	a0, a0, 16
	slli	a1, a2, 24
	lbu	a2, 60(a3)
	lbu	a4, 52(a3)
	or	t3, a1, a0
	lbu	a0, 51(a3)
	slli	a2, a2, 8
	or	a7, a4, a2
	lbu	a4, 59(a3)
	slli	a0, a0, 16
	lbu	a1, 58(a3)
	lbu	a2, 50(a3)
	slli	a4, a4, 24
	or	t0, a4, a0
	slli	a1, a1, 8
	or	a5, a2, a1
	lbu	a2, 49(a3)
	lbu	a4, 57(a3)
	lbu	a0, 48(a3)
	lbu	a3, 56(a3)
	slli	a2, a2, 16
	slli	a4, a4, 24
	or	a6, a4, a2
	slli	a3, a3, 8
	or	a2, a0, a3
	lui	a3, 16
	addi	a3, a3, -1
	ld	a4, 176(sp)                     # 8-byte Folded Reload
	and	a4, a4, a3
	ld	a0, 144(sp)                     # 8-byte Folded Reload
	and	a0, a0, a3
	ld	a1, 128(sp)                     # 8-byte Folded Reload
	and	a1, a1, a3
	and	s4, s4, a3
	and	s5, s5, a3
	and	s8, s8, a3
	and	s9, s9, a3
	and	s11, s11, a3
	and	ra, ra, a3
	and	t5, t5, a3
	and	s1, s1, a3
	and	t2, t2, a3
	and	t1, t1, a3
	and	a7, a7, a3
	and	a5, a5, a3
	and	a2, a2, a3
	ld	a3, 112(sp)                     # 8-byte Folded Reload
	or	a3, a3, a4
	ld	a4, 168(sp)                     # 8-byte Folded Reload
	or	a0, a0, a4
	ld	a4, 160(sp)                     # 8-byte Folded Reload
	or	a1, a1, a4
	ld	a4, 136(sp)                     # 8-byte Folded Reload
	or	a4, s4, a4
	ld	s0, 120(sp)                     # 8-byte Folded Reload
	or	s4, s5, s0
	ld	s0, 104(sp)                     # 8-byte Folded Reload
	or	s5, s8, s0
	or	s6, s9, s6
	or	s3, s11, s3
	or	s8, ra, s10
	ld	s10, 48(sp)                     # 8-byte Folded Reload
	or	s2, t5, s2
	or	s1, s1, s7
	or	s0, t2, t6
	or	t6, t1, t4
	or	t5, a7, t3
	or	t1, a5, t0
	or	a7, a2, a6
	slli	a3, a3, 32
	slli	a0, a0, 32
	srli	a0, a0, 32
	or	a6, a0, a3
	slli	a1, a1, 32
	slli	a4, a4, 32
	srli	a2, a4, 32
	or	s9, a2, a1
	slli	s4, s4, 32
	slli	s5, s5, 32
	slli	s6, s6, 32
	slli	s3, s3, 32
	slli	s8, s8, 32
	slli	s2, s2, 32
	slli	s1, s1, 32
	slli	s0, s0, 32
	srli	a1, s5, 32
	srli	a3, s3, 32
	srli	a4, s2, 32
	srli	s0, s0, 32
	or	a1, a1, s4
	or	a0, a3, s6
	or	s3, a4, s8
	or	a4, s0, s1
	ld	t2, 0(s10)
	ld	t4, 8(s10)
	ld	t3, 16(s10)
	ld	s2, 24(s10)
	slli	t6, t6, 32
	slli	t5, t5, 32
	srli	s1, t5, 32
	or	s0, s1, t6
	ld	t0, 56(s10)
	slli	t1, t1, 32
	slli	a7, a7, 32
	srli	s1, a7, 32
	or	s1, s1, t1
	srli	a2, s9, 1
	xor	a2, a2, a0
	ld	a5, 16(sp)                      # 8-byte Folded Reload
	and	a2, a2, a5
	xor	a7, a2, a0
	slli	a2, a2, 1
	xor	t1, a2, s9
	srli	a3, a4, 1
	xor	a3, a3, s1
	and	a3, a3, a5
	xor	s1, s1, a3
	slli	a3, a3, 1
	xor	t6, a3, a4
	srli	a4, a6, 1
	xor	a4, a4, a1
	and	a4, a4, a5
	xor	a2, a4, a1
	slli	a4, a4, 1
	xor	a6, a4, a6
	srli	a1, s3, 1
	xor	a1, a1, s0
	and	a1, a1, a5
	xor	s0, s0, a1
	slli	a1, a1, 1
	xor	a1, a1, s3
	srli	a0, a7, 2
	xor	a0, a0, s1
	ld	a3, 24(sp)                      # 8-byte Folded Reload
	and	a0, a0, a3
	xor	s1, s1, a0
	slli	a0, a0, 2
	xor	t5, a0, a7
	srli	a5, a2, 2
	xor	a5, a5, s0
	and	a5, a5, a3
	xor	s0, s0, a5
	slli	a5, a5, 2
	xor	s3, a5, a2
	srli	a5, t1, 2
	xor	a5, t6, a5
	and	a5, a5, a3
	xor	a2, a5, t6
	slli	a5, a5, 2
	xor	t1, a5, t1
	srli	a4, a6, 2
	xor	a4, a4, a1
	and	a4, a4, a3
	xor	a1, a1, a4
	slli	a4, a4, 2
	xor	a7, s2, s1
	srli	s1, s1, 4
	xor	t0, s0, t0
	xor	a4, a4, a6
	xor	t6, s1, s0
	ld	s1, 40(s10)
	ld	a0, 48(s10)
	xor	a6, t4, t5
	srli	a5, t5, 4
	xor	s2, s3, s1
	xor	s1, a5, s3
	ld	a5, 32(s10)
	xor	t3, t3, a2
	srli	a3, a2, 4
	xor	t5, a1, a0
	xor	a1, a1, a3
.Lgcm_narrow_pcrel_hi9:
	auipc	t4, %pcrel_hi(.Lgcm_narrow_CPI13_0)
	xor	t2, t2, t1
	srli	a3, t1, 4
	ld	s0, 32(sp)                      # 8-byte Folded Reload
	and	a2, t6, s0
	xor	t1, a4, a5
	xor	t6, a3, a4
	slli	a3, a2, 4
	xor	s5, a7, a3
.Lgcm_narrow_pcrel_hi10:
	auipc	a4, %pcrel_hi(.Lgcm_narrow_CPI13_1)
	and	a3, s1, s0
	xor	a7, s2, a3
	slli	a3, a3, 4
	xor	s7, a6, a3
.Lgcm_narrow_pcrel_hi11:
	auipc	s1, %pcrel_hi(.Lgcm_narrow_CPI13_2)
	and	a1, a1, s0
	xor	a5, t5, a1
	slli	a1, a1, 4
	xor	a0, t3, a1
	ld	a3, 40(sp)                      # 8-byte Folded Reload
	addi	a3, a3, -2
	ld	a1, %pcrel_lo(.Lgcm_narrow_pcrel_hi9)(t4)
	sd	a1, 56(sp)                      # 8-byte Folded Spill
	ld	a6, %pcrel_lo(.Lgcm_narrow_pcrel_hi10)(a4)
	ld	s1, %pcrel_lo(.Lgcm_narrow_pcrel_hi11)(s1)
	and	a4, t6, s0
	xor	a1, t1, a4
	slli	a4, a4, 4
	xor	t3, t2, a4
	srli	a4, a3, 2
	xor	ra, t0, a2
	sd	a3, 8(sp)                       # 8-byte Folded Spill
	sd	a6, 168(sp)                     # 8-byte Folded Spill
	sd	s1, 72(sp)                      # 8-byte Folded Spill
	beqz	a4, .Lgcm_narrow_BB13_3
# %bb.1:                                # %join.7.i.preheader
	addi	a3, s10, 160
	sd	a3, 176(sp)                     # 8-byte Folded Spill
.Lgcm_narrow_BB13_2:                               # %join.7.i
                                        # =>This Inner Loop Header: Depth=1
	sd	a4, 144(sp)                     # 8-byte Folded Spill
	xor	a2, a7, a5
	xor	t0, a1, ra
	xor	s10, s7, ra
	xor	a7, a0, a1
	xor	t4, a0, ra
	xor	s1, t3, a2
	xor	s2, s10, a7
	xor	s9, s1, a1
	xor	a1, s2, s5
	xor	s4, s1, ra
	xor	s6, s1, s7
	and	s0, s9, t3
	xor	s11, a1, a0
	xor	a1, a1, a5
	xor	t1, s6, t4
	and	s5, s6, s1
	xor	a3, a1, t0
	xor	t2, s11, t3
	and	a0, s11, s2
	xor	a5, s11, a2
	xor	a4, s0, t4
	and	t5, a3, t0
	xor	s0, a3, a2
	xor	s3, a3, a5
	xor	a2, a3, t3
	and	t6, a5, t4
	and	s7, t2, t1
	xor	a4, a4, a5
	xor	a1, a1, a0
	xor	a0, a0, a4
	and	a4, s3, a7
	xor	s7, a1, s7
	and	a1, a2, s4
	xor	t6, t6, t5
	xor	t5, a4, t5
	and	a4, s0, s10
	xor	s5, s0, s5
	xor	a0, a0, t6
	xor	s5, s5, a4
	xor	a1, a1, s0
	xor	ra, a4, ra
	xor	a4, s7, t5
	xor	s5, s5, s10
	xor	a1, a1, ra
	xor	t5, s5, t5
	xor	a1, a1, t6
	xor	t6, a4, a0
	and	a4, t5, a4
	xor	s5, a1, t5
	xor	s7, a4, a0
	xor	ra, a4, a1
	and	s5, s7, s5
	and	s7, ra, t6
	xor	a4, s5, a4
	xor	s8, s5, a1
	xor	a0, s7, a0
	and	s5, s8, s9
	and	a4, a4, a1
	xor	s9, a0, s8
	and	s7, s8, t3
	and	t3, a0, s4
	and	s4, a0, a2
	xor	a2, a4, ra
	xor	a4, a4, t5
	and	t5, s9, a3
	and	t0, s9, t0
	and	a2, a2, a0
	xor	a3, a4, s8
	and	a1, a4, s11
	and	s2, a4, s2
	xor	a2, a2, t6
	and	a4, a3, t2
	and	t1, a3, t1
	xor	t2, a1, s7
	xor	a3, a3, a2
	xor	a0, a0, a2
	and	s1, s1, a2
	and	s6, a2, s6
	xor	t6, a4, a1
	xor	a4, t2, s4
	and	s0, s0, a0
	and	a5, a5, a3
	xor	a1, a3, s9
	and	s4, a0, s10
	and	a3, a3, t4
	and	a2, a1, a7
	xor	s1, s1, s0
	and	a1, a1, s3
	xor	a7, a4, s0
	xor	a5, a5, t2
	xor	t2, a3, t0
	xor	a2, a2, t0
	xor	a1, a1, s1
	xor	s0, a7, s6
	xor	t0, t6, s1
	xor	a5, a5, s4
	xor	a4, a2, t1
	xor	s0, s0, a2
	xor	a2, a5, a1
	xor	a1, a1, t5
	xor	s1, a4, s2
	xor	a5, a2, t3
	xor	t6, s0, a2
	xor	s7, s0, s4
	xor	a0, a4, s5
	xor	a3, t2, a1
	xor	a4, t0, s1
	xor	a6, a0, a5
	xor	s8, s1, a1
	xor	t5, a3, a5
	srli	t0, s7, 20
	slli	t1, s7, 44
	srli	t2, s7, 4
	slli	t3, s7, 60
	srli	a5, t6, 20
	slli	s0, t6, 44
	srli	a2, t6, 4
	slli	s1, t6, 60
	xor	a1, a1, a4
	sd	a1, 160(sp)                     # 8-byte Folded Spill
	xor	a0, a4, a7
	or	a7, t1, t0
	or	t0, t3, t2
	or	t1, s0, a5
	or	t2, s1, a2
	srli	t3, a6, 20
	slli	s2, a6, 44
	srli	t4, a6, 4
	slli	s3, a6, 60
	srli	s4, a4, 20
	slli	s6, a4, 44
	srli	s5, a4, 4
	slli	s9, a4, 60
	srli	s10, t5, 20
	slli	s11, t5, 44
	srli	s1, t5, 4
	slli	s0, t5, 60
	srli	a2, s8, 20
	slli	a5, s8, 44
	or	t3, s2, t3
	srli	ra, s8, 4
	or	s2, s3, t4
	slli	t4, s8, 60
	ld	a3, 80(sp)                      # 8-byte Folded Reload
	and	a7, a7, a3
	ld	a1, 72(sp)                      # 8-byte Folded Reload
	and	t0, t0, a1
	and	t1, t1, a3
	and	t2, t2, a1
	or	s3, s6, s4
	sd	a0, 136(sp)                     # 8-byte Folded Spill
	srli	s6, a0, 20
	or	s4, s9, s5
	slli	s5, a0, 44
	or	s9, s11, s10
	srli	s10, a0, 4
	or	s0, s0, s1
	slli	s11, a0, 60
	or	a2, a2, a5
	ld	a0, 160(sp)                     # 8-byte Folded Reload
	srli	a5, a0, 20
	or	ra, t4, ra
	slli	t4, a0, 44
	or	t0, a7, t0
	srli	s1, a0, 4
	or	a7, t1, t2
	slli	t1, a0, 60
	or	s5, s5, s6
	or	s6, s11, s10
	or	s10, t4, a5
	or	s11, t1, s1
	ld	a0, 176(sp)                     # 8-byte Folded Reload
	ld	a5, -96(a0)
	ld	t1, -88(a0)
	ld	t2, -80(a0)
	ld	t4, -72(a0)
	and	t3, t3, a3
	and	s1, s2, a1
	and	s2, s3, a3
	and	s3, s4, a1
	and	s4, s9, a3
	and	s0, s0, a1
	and	s9, a2, a3
	and	a2, ra, a1
	or	s1, t3, s1
	or	t3, s2, s3
	or	ra, s4, s0
	or	a2, s9, a2
	ld	s2, -64(a0)
	ld	s3, -56(a0)
	ld	s4, -48(a0)
	ld	s9, -40(a0)
	and	s5, s5, a3
	and	s0, s6, a1
	and	s6, s10, a3
	and	s10, s11, a1
	xor	s7, t0, s7
	xor	t6, a7, t6
	xor	a0, a5, t0
	sd	a0, 128(sp)                     # 8-byte Folded Spill
	xor	a5, t1, a7
	or	t1, s5, s0
	or	s5, s6, s10
	xor	a0, s1, a6
	xor	s0, t3, a4
	xor	a4, ra, t5
	xor	a3, a2, s8
	srli	a7, s7, 40
	slli	s6, s7, 24
	srli	s8, s7, 24
	slli	s10, s7, 40
	xor	s7, a5, s7
	srli	a6, t6, 40
	xor	s11, t2, s1
	slli	s1, t6, 24
	xor	t3, s2, t3
	srli	a5, t6, 24
	xor	t2, s9, a2
	slli	s9, t6, 40
	xor	s3, s3, ra
	ld	a1, 136(sp)                     # 8-byte Folded Reload
	xor	a1, t1, a1
	ld	a2, 160(sp)                     # 8-byte Folded Reload
	xor	s2, s5, a2
	or	t5, s6, a7
	or	s6, s10, s8
	or	s8, s1, a6
	or	a7, s9, a5
	srli	s10, a0, 40
	slli	s1, a0, 24
	srli	s9, a0, 24
	slli	a5, a0, 40
	srli	ra, s0, 40
	xor	a2, s11, t6
	sd	a2, 160(sp)                     # 8-byte Folded Spill
	slli	s11, s0, 24
	xor	s4, s4, s5
	srli	s5, s0, 24
	xor	a2, s3, s0
	sd	a2, 136(sp)                     # 8-byte Folded Spill
	slli	s0, s0, 40
	xor	t4, t4, a0
	srli	a0, a4, 40
	or	s3, s1, s10
	slli	s1, a4, 24
	or	s9, a5, s9
	srli	a5, a4, 24
	or	s10, s11, ra
	slli	s11, a4, 40
	or	s5, s0, s5
	srli	s0, a3, 40
	or	ra, s1, a0
	slli	s1, a3, 24
	or	t0, s11, a5
	srli	a0, a3, 24
	or	s11, s1, s0
	slli	s1, a3, 40
	ld	a2, 128(sp)                     # 8-byte Folded Reload
	xor	t6, a2, a3
	xor	s7, s7, a3
	xor	a5, t3, a3
	ld	s0, 152(sp)                     # 8-byte Folded Reload
	and	t3, t5, s0
	ld	a2, 168(sp)                     # 8-byte Folded Reload
	and	t5, s6, a2
	and	s6, s8, s0
	and	a6, a7, a2
	or	s8, s1, a0
	srli	s1, a1, 40
	xor	s4, s4, a4
	slli	a4, a1, 24
	xor	a7, t4, a3
	srli	a0, a1, 24
	xor	t4, a5, a1
	slli	a1, a1, 40
	or	t3, t3, t5
	srli	a3, s2, 40
	or	t5, s6, a6
	slli	a6, s2, 24
	or	s6, a4, s1
	srli	s1, s2, 24
	xor	t2, t2, s2
	slli	s2, s2, 40
	and	s3, s3, s0
	and	a4, s9, a2
	or	s9, a1, a0
	and	s10, s10, s0
	and	s5, s5, a2
	and	ra, ra, s0
	and	a5, t0, a2
	or	a6, a6, a3
	or	t0, s2, s1
	and	s1, s11, s0
	and	a0, s8, a2
	xor	s2, a7, t1
	or	t1, s3, a4
	and	a4, s6, s0
	and	a3, s9, a2
	or	a1, s10, s5
	or	a7, ra, a5
	and	a5, a6, s0
	mv	a6, s0
	and	s0, t0, a2
	or	a0, a0, s1
	xor	s8, t6, t3
	xor	s1, s7, t5
	or	a3, a3, a4
	or	s0, s0, a5
	ld	a2, 160(sp)                     # 8-byte Folded Reload
	xor	a4, a2, t1
	xor	a1, t4, a1
	xor	a2, t2, a0
	ld	a0, 136(sp)                     # 8-byte Folded Reload
	xor	a0, a0, a7
	xor	s0, s4, s0
	xor	t1, a1, a2
	xor	s9, s1, a2
	xor	t0, a1, a4
	xor	a3, s2, a3
	xor	s6, a2, a4
	xor	a0, a0, s0
	xor	s3, s9, t0
	xor	s11, a0, s8
	xor	a3, a3, s3
	xor	t5, s11, a1
	xor	s7, a3, a4
	xor	a4, a3, s0
	xor	t4, s11, a2
	xor	s2, s11, s1
	and	s1, t5, s8
	xor	ra, a4, t1
	xor	t2, s7, s8
	xor	t3, s2, s6
	and	a3, s7, s3
	xor	t6, s7, a0
	and	s4, s2, s11
	and	a1, ra, t1
	xor	s10, ra, a0
	xor	a7, ra, t6
	xor	s5, ra, s8
	and	a0, t6, s6
	and	a5, t2, t3
	xor	s1, s1, s6
	xor	a4, a4, a3
	xor	a3, t6, a3
	xor	a3, a3, s1
	and	s1, a7, t0
	xor	a4, a4, a5
	and	a5, s5, t4
	xor	a0, a0, a1
	xor	a1, a1, s1
	and	s1, s10, s9
	xor	s0, s10, s4
	xor	a3, a3, a0
	xor	s0, s0, s1
	xor	a5, s10, a5
	xor	a2, a2, s1
	xor	a4, a4, a1
	xor	s0, s0, s9
	xor	a2, a2, a5
	xor	a1, a1, s0
	xor	a0, a0, a2
	xor	a2, a4, a3
	and	a4, a4, a1
	xor	a5, a0, a1
	xor	s0, a4, a3
	xor	s1, a4, a0
	and	a5, a5, s0
	and	s0, s1, a2
	xor	a4, a4, a5
	xor	a5, a5, a0
	xor	a3, a3, s0
	and	s4, a5, t5
	and	a0, a0, a4
	xor	s0, a3, a5
	and	t5, a5, s8
	and	t4, a3, t4
	and	a4, a3, s5
	xor	s1, s1, a0
	xor	a0, a0, a1
	and	s5, s0, ra
	and	t1, s0, t1
	and	s1, s1, a3
	xor	a5, a5, a0
	and	a1, a0, s7
	and	s3, a0, s3
	xor	a2, a2, s1
	and	s1, a5, t2
	and	t2, a5, t3
	xor	a0, a1, t5
	xor	a5, a5, a2
	xor	a3, a3, a2
	and	t3, a2, s11
	and	s2, a2, s2
	xor	t5, s1, a1
	xor	s7, a0, a4
	and	s1, a3, s10
	and	a1, a5, t6
	xor	s0, s0, a5
	and	s8, a3, s9
	and	a5, a5, s6
	and	a2, s0, t0
	xor	a4, s1, t3
	and	s0, s0, a7
	xor	a7, s7, s1
	xor	a0, a0, a1
	xor	a1, a5, t1
	xor	a2, a2, t1
	xor	s0, s0, a4
	xor	a5, a7, s2
	xor	a4, t5, a4
	xor	a0, a0, s8
	xor	s1, a2, t2
	xor	a2, a2, a5
	xor	a0, a0, s0
	xor	a5, s0, s5
	xor	s0, s1, s3
	xor	a3, a0, t4
	xor	t6, a2, a0
	xor	s7, a2, s8
	xor	s1, s1, s4
	xor	a1, a1, a5
	xor	t1, a4, s0
	xor	ra, s1, a3
	xor	t5, s0, a5
	xor	s8, a1, a3
	srli	t2, s7, 24
	slli	t3, s7, 40
	srli	a3, s7, 8
	slli	a1, s7, 56
	srli	a4, t6, 24
	slli	s1, t6, 40
	srli	s0, t6, 8
	slli	a0, t6, 56
	xor	a2, t1, a5
	xor	t4, t1, a7
	or	s3, t3, t2
	or	s2, a1, a3
	or	a7, s1, a4
	or	a4, a0, s0
	srli	t2, ra, 24
	slli	s4, ra, 40
	srli	t3, ra, 8
	slli	s5, ra, 56
	srli	s6, t1, 24
	slli	s9, t1, 40
	srli	s10, t1, 8
	slli	s11, t1, 56
	srli	t0, s8, 24
	slli	a3, s8, 40
	srli	s1, s8, 8
	slli	s0, s8, 56
	srli	a1, t5, 24
	slli	a5, t5, 40
	or	a0, s4, t2
	sd	a0, 112(sp)                     # 8-byte Folded Spill
	srli	s4, t5, 8
	sd	t5, 128(sp)                     # 8-byte Folded Spill
	or	a0, s5, t3
	sd	a0, 104(sp)                     # 8-byte Folded Spill
	slli	a0, t5, 56
	mv	t2, a6
	and	s3, s3, a6
	ld	t3, 168(sp)                     # 8-byte Folded Reload
	and	a6, s2, t3
	and	a7, a7, t2
	and	s5, a4, t3
	or	a4, s9, s6
	sd	a4, 96(sp)                      # 8-byte Folded Spill
	sd	t4, 160(sp)                     # 8-byte Folded Spill
	srli	s6, t4, 24
	or	s2, s11, s10
	slli	s9, t4, 40
	or	a3, a3, t0
	srli	a4, t4, 8
	or	s10, s0, s1
	slli	s0, t4, 56
	or	s11, a5, a1
	sd	a2, 136(sp)                     # 8-byte Folded Spill
	srli	a5, a2, 24
	or	s4, a0, s4
	slli	t0, a2, 40
	or	t4, s3, a6
	srli	a0, a2, 8
	or	t5, a7, s5
	slli	a7, a2, 56
	or	s3, s9, s6
	or	a4, a4, s0
	sd	a4, 88(sp)                      # 8-byte Folded Spill
	or	s6, t0, a5
	or	s9, a7, a0
	ld	a2, 176(sp)                     # 8-byte Folded Reload
	ld	a7, -32(a2)
	ld	s5, -24(a2)
	ld	t0, -16(a2)
	ld	a1, -8(a2)
	sd	a1, 120(sp)                     # 8-byte Folded Spill
	mv	a0, t2
	ld	s0, 112(sp)                     # 8-byte Folded Reload
	and	s0, s0, t2
	mv	s1, t3
	ld	a1, 104(sp)                     # 8-byte Folded Reload
	and	t3, a1, t3
	ld	a1, 96(sp)                      # 8-byte Folded Reload
	and	t2, a1, t2
	and	a4, s2, s1
	and	s2, a3, a0
	and	a5, s10, s1
	and	a3, s11, a0
	mv	a1, a0
	and	a0, s4, s1
	or	s0, s0, t3
	or	a4, t2, a4
	or	s11, s2, a5
	or	a6, a3, a0
	ld	s10, 0(a2)
	ld	t2, 8(a2)
	ld	t3, 16(a2)
	ld	s2, 24(a2)
	and	s3, s3, a1
	ld	a5, 88(sp)                      # 8-byte Folded Reload
	and	a5, a5, s1
	and	s4, s6, a1
	and	s6, s9, s1
	xor	a3, t4, s7
	xor	t6, t5, t6
	xor	s7, a7, t4
	xor	a1, s5, t5
	or	a5, s3, a5
	or	s3, s4, s6
	xor	a7, s0, ra
	xor	a2, a4, t1
	xor	s4, s11, s8
	ld	a0, 128(sp)                     # 8-byte Folded Reload
	xor	a0, a6, a0
	srli	t5, a3, 32
	slli	s5, a3, 32
	srli	s6, t6, 32
	slli	s8, t6, 32
	xor	s9, a1, a3
	xor	ra, t0, s0
	xor	s10, s10, a4
	xor	t0, s2, a6
	xor	s0, t2, s11
	ld	a1, 160(sp)                     # 8-byte Folded Reload
	xor	s1, a5, a1
	mv	a6, a5
	ld	a1, 136(sp)                     # 8-byte Folded Reload
	xor	a1, s3, a1
	or	t1, s5, t5
	or	t2, s8, s6
	srli	s5, a7, 32
	slli	a3, a7, 32
	srli	t4, a2, 32
	slli	t5, a2, 32
	srli	s2, s4, 32
	slli	s11, s4, 32
	srli	s6, a0, 32
	xor	t6, ra, t6
	slli	s8, a0, 32
	xor	s7, s7, a0
	xor	s9, s9, a0
	xor	s10, s10, a0
	xor	t3, t3, s3
	xor	s3, s0, a2
	ld	a2, 120(sp)                     # 8-byte Folded Reload
	xor	ra, a2, a7
	or	a7, a3, s5
	srli	a5, s1, 32
	slli	a4, s1, 32
	or	s5, t5, t4
	or	t4, s11, s2
	srli	a3, a1, 32
	slli	a2, a1, 32
	or	s2, s8, s6
	xor	t5, s7, t1
	xor	t2, s9, t2
	xor	s1, s10, s1
	xor	t1, t3, s4
	xor	s0, t0, a1
	xor	a0, ra, a0
	or	a4, a4, a5
	or	a3, a3, a2
	xor	a5, t6, a7
	xor	a1, s1, s5
	xor	a2, s0, s2
	xor	s1, s3, t4
	xor	a0, a0, a6
	xor	a3, t1, a3
	xor	t1, a1, a2
	xor	s9, t2, a2
	xor	t0, a1, a5
	xor	a0, a0, a4
	xor	s6, a2, a5
	xor	s1, s1, a3
	xor	s3, s9, t0
	xor	s11, s1, t5
	xor	a0, a0, s3
	xor	a6, s11, a1
	xor	s7, a0, a5
	xor	a5, a0, a3
	xor	t4, s11, a2
	xor	s2, s11, t2
	and	s10, a6, t5
	xor	ra, a5, t1
	xor	t2, s7, t5
	xor	t3, s2, s6
	and	a3, s7, s3
	xor	t6, s7, s1
	and	s4, s2, s11
	and	a4, ra, t1
	xor	s8, ra, s1
	xor	a7, ra, t6
	xor	s5, ra, t5
	and	s1, t6, s6
	and	a1, t2, t3
	xor	s0, s10, s6
	xor	a5, a5, a3
	xor	a3, t6, a3
	xor	a3, a3, s0
	and	s0, a7, t0
	xor	a1, a1, a5
	and	a5, s5, t4
	xor	s1, s1, a4
	xor	a4, a4, s0
	and	s0, s8, s9
	xor	a0, s8, s4
	xor	a3, a3, s1
	xor	a0, a0, s0
	xor	a5, s8, a5
	xor	a2, a2, s0
	xor	a1, a1, a4
	xor	a0, a0, s9
	xor	a2, a2, a5
	xor	a0, a0, a4
	xor	a2, a2, s1
	xor	s10, a1, a3
	and	a1, a1, a0
	xor	a5, a2, a0
	xor	s0, a1, a3
	xor	s1, a1, a2
	and	a5, a5, s0
	and	s0, s1, s10
	xor	a1, a1, a5
	xor	a5, a5, a2
	xor	a3, a3, s0
	and	s4, a5, a6
	and	a2, a2, a1
	xor	s0, a3, a5
	and	t5, a5, t5
	and	a6, a3, t4
	and	a1, a3, s5
	xor	s1, s1, a2
	xor	a0, a0, a2
	and	t4, s0, ra
	and	s5, s0, t1
	and	s1, s1, a3
	xor	a5, a5, a0
	and	a4, a0, s7
	and	t1, a0, s3
	xor	s1, s1, s10
	and	a0, a5, t2
	and	t2, a5, t3
	xor	a2, a4, t5
	xor	a5, a5, s1
	xor	a3, a3, s1
	and	t3, s1, s11
	and	s2, s1, s2
	xor	t5, a0, a4
	xor	s3, a2, a1
	and	a4, a3, s8
	and	a0, a5, t6
	xor	s0, s0, a5
	and	t6, a3, s9
	and	a5, a5, s6
	and	s1, s0, t0
	xor	a1, a4, t3
	and	s0, s0, a7
	xor	a7, s3, a4
	xor	a0, a0, a2
	xor	t0, a5, s5
	xor	a2, s1, s5
	xor	s0, s0, a1
	xor	s1, a7, s2
	xor	t3, t5, a1
	xor	a0, a0, t6
	xor	a4, a2, t2
	xor	a2, a2, s1
	xor	a0, a0, s0
	xor	s0, s0, t4
	xor	a1, a4, t1
	xor	s1, a0, a6
	xor	s7, a2, a0
	xor	t5, a2, t6
	xor	a3, a4, s4
	xor	a5, t0, s0
	xor	t6, t3, a1
	xor	s8, a3, s1
	xor	a4, a1, s0
	xor	a5, a5, s1
	srli	t0, t5, 28
	slli	t1, t5, 36
	srli	t2, t5, 12
	slli	a1, t5, 52
	srli	a3, s7, 28
	slli	a2, s7, 36
	srli	a0, s7, 12
	slli	s1, s7, 52
	xor	a6, t6, s0
	xor	s0, t6, a7
	or	a7, t1, t0
	or	t0, a1, t2
	or	t1, a2, a3
	or	t2, s1, a0
	srli	t3, s8, 28
	slli	s2, s8, 36
	srli	t4, s8, 12
	slli	s3, s8, 52
	srli	s4, t6, 28
	slli	s5, t6, 36
	srli	s6, t6, 12
	slli	s9, t6, 52
	sd	a5, 160(sp)                     # 8-byte Folded Spill
	srli	s10, a5, 28
	slli	ra, a5, 36
	srli	s11, a5, 12
	slli	a2, a5, 52
	sd	a4, 128(sp)                     # 8-byte Folded Spill
	srli	a1, a4, 28
	slli	a3, a4, 36
	or	t3, s2, t3
	srli	a0, a4, 12
	or	s2, s3, t4
	slli	s1, a4, 52
	ld	a4, 64(sp)                      # 8-byte Folded Reload
	and	a7, a7, a4
	ld	a5, 56(sp)                      # 8-byte Folded Reload
	and	t0, t0, a5
	and	t4, t1, a4
	and	t1, t2, a5
	or	s3, s5, s4
	sd	s0, 112(sp)                     # 8-byte Folded Spill
	srli	s5, s0, 28
	or	s4, s9, s6
	slli	s6, s0, 36
	or	s9, ra, s10
	srli	s10, s0, 12
	or	ra, a2, s11
	slli	s11, s0, 52
	or	a1, a1, a3
	sd	a6, 136(sp)                     # 8-byte Folded Spill
	srli	a3, a6, 28
	or	t2, s1, a0
	slli	a0, a6, 36
	or	t0, a7, t0
	srli	s1, a6, 12
	or	a7, t4, t1
	slli	a2, a6, 52
	or	s5, s6, s5
	or	s6, s11, s10
	or	s10, a0, a3
	or	s11, a2, s1
	ld	a0, 176(sp)                     # 8-byte Folded Reload
	ld	a2, 32(a0)
	ld	a6, 40(a0)
	ld	t1, 48(a0)
	ld	t4, 56(a0)
	and	t3, t3, a4
	and	s1, s2, a5
	and	s2, s3, a4
	and	s4, s4, a5
	and	s3, s9, a4
	and	a3, ra, a5
	and	s9, a1, a4
	and	a1, t2, a5
	or	s1, t3, s1
	or	t2, s2, s4
	or	t3, s3, a3
	or	ra, s9, a1
	ld	s2, 64(a0)
	ld	s3, 72(a0)
	ld	s4, 80(a0)
	ld	s9, 88(a0)
	and	s5, s5, a4
	and	s6, s6, a5
	and	s10, s10, a4
	and	a3, s11, a5
	xor	a1, t0, t5
	xor	t5, a7, s7
	xor	t0, a2, t0
	xor	a7, a6, a7
	or	a5, s5, s6
	sd	a5, 120(sp)                     # 8-byte Folded Spill
	or	s5, s10, a3
	xor	a0, s1, s8
	xor	a2, t2, t6
	ld	a3, 160(sp)                     # 8-byte Folded Reload
	xor	a4, t3, a3
	ld	a3, 128(sp)                     # 8-byte Folded Reload
	xor	a3, ra, a3
	srli	s6, a1, 40
	slli	s8, a1, 24
	srli	s7, a1, 24
	slli	a6, a1, 40
	xor	s10, a7, a1
	srli	a1, t5, 40
	xor	s11, t1, s1
	slli	s1, t5, 24
	xor	t1, s2, t2
	srli	t2, t5, 24
	xor	s0, s9, ra
	sd	s0, 128(sp)                     # 8-byte Folded Spill
	slli	s2, t5, 40
	xor	t3, s3, t3
	ld	s0, 112(sp)                     # 8-byte Folded Reload
	xor	s0, s0, a5
	ld	a5, 136(sp)                     # 8-byte Folded Reload
	xor	s3, s5, a5
	or	s6, s8, s6
	or	s7, a6, s7
	or	s8, s1, a1
	or	s2, s2, t2
	srli	s9, a0, 40
	slli	a5, a0, 24
	srli	a6, a0, 24
	slli	a1, a0, 40
	srli	ra, a2, 40
	xor	s1, s11, t5
	sd	s1, 160(sp)                     # 8-byte Folded Spill
	slli	t5, a2, 24
	xor	s4, s4, s5
	srli	s5, a2, 24
	xor	s1, t3, a2
	sd	s1, 136(sp)                     # 8-byte Folded Spill
	slli	a2, a2, 40
	xor	t3, t4, a0
	srli	a0, a4, 40
	or	t4, a5, s9
	slli	a5, a4, 24
	or	s9, a1, a6
	srli	s1, a4, 24
	or	t5, t5, ra
	slli	a1, a4, 40
	or	s5, a2, s5
	srli	a2, a3, 40
	or	s11, a5, a0
	slli	a5, a3, 24
	or	t6, a1, s1
	srli	a6, a3, 24
	or	ra, a5, a2
	slli	a5, a3, 40
	xor	t2, t0, a3
	xor	s10, s10, a3
	xor	a0, t1, a3
	ld	a2, 152(sp)                     # 8-byte Folded Reload
	and	t1, s6, a2
	ld	s1, 168(sp)                     # 8-byte Folded Reload
	and	a1, s7, s1
	and	s6, s8, a2
	and	s2, s2, s1
	or	s7, a5, a6
	srli	a5, s0, 40
	xor	s4, s4, a4
	slli	a4, s0, 24
	xor	a7, t3, a3
	srli	a3, s0, 24
	xor	t3, a0, s0
	slli	s0, s0, 40
	or	s8, t1, a1
	srli	a6, s3, 40
	or	t1, s6, s2
	slli	s6, s3, 24
	or	s2, a4, a5
	srli	a4, s3, 24
	ld	a0, 128(sp)                     # 8-byte Folded Reload
	xor	t0, a0, s3
	slli	s3, s3, 40
	and	t4, t4, a2
	and	a0, s9, s1
	or	s9, s0, a3
	and	t5, t5, a2
	and	s5, s5, s1
	and	s11, s11, a2
	and	a1, t6, s1
	or	s6, s6, a6
	or	a6, s3, a4
	and	s0, ra, a2
	and	a4, s7, s1
	ld	a3, 120(sp)                     # 8-byte Folded Reload
	xor	t6, a7, a3
	or	t4, t4, a0
	and	a0, s2, a2
	and	a3, s9, s1
	or	a5, t5, s5
	or	a7, s11, a1
	and	a2, s6, a2
	and	s1, a6, s1
	or	a4, a4, s0
	xor	t5, t2, s8
	xor	s0, s10, t1
	or	a0, a0, a3
	or	a2, a2, s1
	ld	a3, 160(sp)                     # 8-byte Folded Reload
	xor	a3, a3, t4
	xor	a5, t3, a5
	xor	a4, t0, a4
	ld	a1, 136(sp)                     # 8-byte Folded Reload
	xor	a1, a1, a7
	xor	s1, s4, a2
	xor	s4, a5, a4
	xor	a6, s0, a4
	xor	t1, a5, a3
	xor	a2, t6, a0
	xor	s6, a4, a3
	xor	a0, a1, s1
	xor	t0, a6, t1
	xor	s11, a0, t5
	xor	a2, a2, t0
	xor	a7, s11, a5
	xor	t4, a2, a3
	xor	a2, a2, s1
	xor	t2, s11, a4
	xor	s10, s11, s0
	and	s8, a7, t5
	xor	ra, a2, s4
	xor	s2, t4, t5
	xor	s5, s10, s6
	and	s0, t4, t0
	xor	t6, t4, a0
	and	t3, s10, s11
	and	a3, ra, s4
	xor	s7, ra, a0
	xor	s3, ra, t6
	xor	s9, ra, t5
	and	a0, t6, s6
	and	s1, s2, s5
	xor	a1, s8, s6
	xor	a2, a2, s0
	xor	s0, t6, s0
	xor	a1, a1, s0
	and	s0, s3, t1
	xor	a2, a2, s1
	and	s1, s9, t2
	xor	a0, a0, a3
	xor	a3, a3, s0
	and	s0, s7, a6
	xor	a5, s7, t3
	xor	a1, a1, a0
	xor	a5, a5, s0
	xor	s1, s7, s1
	xor	a4, a4, s0
	xor	a2, a2, a3
	xor	a5, a5, a6
	xor	a4, a4, s1
	xor	a3, a3, a5
	xor	a0, a0, a4
	xor	t3, a2, a1
	and	a2, a2, a3
	xor	a5, a0, a3
	xor	s1, a2, a1
	xor	s0, a2, a0
	and	a5, a5, s1
	and	a4, s0, t3
	xor	a1, a1, a4
	xor	a2, a2, a5
	xor	a5, a5, a0
	and	a0, a0, a2
	xor	s0, s0, a0
	xor	a0, a0, a3
	and	s0, s0, a1
	xor	a2, s0, t3
	and	a7, a5, a7
	and	a3, a5, t5
	and	a4, a0, t4
	and	t0, a0, t0
	xor	a0, a0, a5
	xor	a5, a5, a1
	and	t3, a1, t2
	and	s9, a1, s9
	and	s0, a0, s2
	and	s2, a0, s5
	xor	a0, a0, a2
	xor	a1, a1, a2
	and	s11, a2, s11
	and	s5, a2, s10
	and	t2, a5, ra
	and	t5, a5, s4
	xor	s1, a4, a3
	xor	t4, s0, a4
	and	a2, a1, s7
	and	s4, a0, t6
	xor	a5, a5, a0
	and	s7, a1, a6
	and	s6, a0, s6
	and	a6, a5, t1
	and	t6, a5, s3
	ld	s10, 176(sp)                    # 8-byte Folded Reload
	ld	ra, 96(s10)
	ld	s8, 104(s10)
	ld	s3, 112(s10)
	ld	t1, 120(s10)
	xor	a0, s1, s9
	xor	s0, a2, s11
	xor	s9, a0, a2
	xor	a2, s4, s1
	xor	s4, s6, t5
	xor	a5, a6, t5
	xor	a3, s0, t6
	xor	a4, s9, s5
	xor	a6, t4, s0
	xor	a2, a2, s7
	xor	a1, a5, s2
	xor	a4, a4, a5
	xor	a2, a2, a3
	xor	a3, a3, t2
	xor	a5, a1, t0
	xor	s1, a2, t3
	xor	t0, a4, a2
	xor	a4, a4, s7
	xor	a1, a1, a7
	xor	s0, s4, a3
	xor	a0, a6, a5
	xor	t3, a1, s1
	xor	a7, a5, a3
	xor	t2, s0, s1
	srli	s1, a4, 16
	slli	a5, a4, 48
	srli	a2, t0, 16
	slli	s0, t0, 48
	xor	t4, a0, a3
	xor	a6, a0, s9
	or	a5, a5, s1
	or	t5, s0, a2
	srli	s1, t3, 16
	slli	a1, t3, 48
	srli	s0, a0, 16
	slli	a3, a0, 48
	srli	t6, t2, 16
	slli	a2, t2, 48
	srli	s2, a7, 16
	or	a1, a1, s1
	slli	s1, a7, 48
	or	s0, s0, a3
	srli	s5, a6, 16
	or	t6, a2, t6
	slli	a2, a6, 48
	or	s2, s1, s2
	srli	s1, t4, 16
	xor	a4, a4, a5
	xor	s4, ra, a5
	slli	a5, t4, 48
	xor	s9, t5, t0
	xor	t0, s8, t5
	or	t5, a2, s5
	or	s7, a5, s1
	xor	a3, a1, t3
	xor	t3, s3, a1
	ld	a2, 128(s10)
	ld	a5, 136(s10)
	ld	s3, 144(s10)
	ld	s5, 152(s10)
	xor	a0, a0, s0
	xor	s6, a2, s0
	xor	s8, t6, t2
	xor	a2, s2, a7
	xor	t6, a5, t6
	srli	a5, a4, 32
	xor	a7, t0, a4
	slli	a4, a4, 32
	xor	t0, s5, s2
	srli	s0, s9, 32
	or	t2, a4, a5
	slli	a5, s9, 32
	xor	a4, s7, t4
	or	s2, a5, s0
	srli	s0, a3, 32
	xor	t4, t3, s9
	slli	s1, a3, 32
	xor	s5, t1, a3
	srli	a5, a0, 32
	xor	t1, t6, a0
	slli	a0, a0, 32
	xor	a3, s3, s7
	srli	a1, s8, 32
	or	s3, s1, s0
	slli	s0, s8, 32
	or	t6, a0, a5
	srli	a5, a2, 32
	or	s9, s0, a1
	slli	a1, a2, 32
	or	a5, a5, a1
	xor	a1, s4, a2
	xor	t3, a1, t2
	xor	a1, a7, a2
	xor	s7, a1, s2
	xor	a1, s6, a2
	xor	a2, s5, a2
	xor	a0, t5, a6
	xor	a3, a3, s8
	srli	s1, a0, 32
	xor	a1, a1, a0
	slli	a0, a0, 32
	or	s1, s1, a0
	srli	a0, a4, 32
	xor	s0, t0, a4
	slli	a4, a4, 32
	or	a4, a4, a0
	xor	a0, t4, s3
	xor	a2, a2, t5
	xor	a1, a1, t6
	xor	a7, t1, s9
	xor	ra, s0, a5
	xor	s5, a2, s1
	xor	a5, a3, a4
	ld	a4, 144(sp)                     # 8-byte Folded Reload
	addi	a4, a4, -1
	addi	s10, s10, 256
	sd	s10, 176(sp)                    # 8-byte Folded Spill
	bnez	a4, .Lgcm_narrow_BB13_2
.Lgcm_narrow_BB13_3:                               # %after.3.i
	xor	a2, a5, a7
	xor	s3, ra, a1
	xor	s4, ra, s7
	xor	s2, a1, a0
	xor	s9, ra, a0
	xor	t5, a2, t3
	xor	s6, s4, s2
	xor	t6, t5, a1
	xor	a1, s6, s5
	xor	s1, t5, ra
	sd	s1, 144(sp)                     # 8-byte Folded Spill
	xor	s5, t5, s7
	and	a3, t6, t3
	xor	t4, a1, a0
	xor	a1, a1, a5
	xor	a0, s5, s9
	sd	a0, 176(sp)                     # 8-byte Folded Spill
	and	s7, s5, t5
	xor	a7, a1, s3
	xor	t2, t4, t3
	and	a5, t4, s6
	xor	s11, t4, a2
	xor	a3, a3, s9
	and	s0, a7, s3
	xor	a6, a7, a2
	xor	t1, a7, s11
	xor	t0, a7, t3
	and	a2, s11, s9
	and	a4, t2, a0
	xor	a3, a3, s11
	xor	a1, a1, a5
	xor	a3, a3, a5
	and	a5, t1, s2
	xor	a1, a1, a4
	and	a4, t0, s1
	xor	s1, a2, s0
	xor	a5, a5, s0
	and	s0, a6, s4
	xor	a0, a6, s7
	xor	a2, a3, s1
	xor	a0, a0, s0
	xor	a3, a6, a4
	xor	a4, s0, ra
	xor	a1, a1, a5
	xor	a0, a0, s4
	xor	a3, a3, a4
	xor	a5, a5, a0
	xor	s1, s1, a3
	xor	s7, a1, a2
	and	a0, a5, a1
	xor	a1, s1, a5
	xor	a4, a0, a2
	xor	s0, a0, s1
	and	a4, a4, a1
	and	a1, s0, s7
	xor	s8, a1, a2
	xor	a2, a4, a0
	xor	a0, a4, s1
	and	a2, a2, s1
	ld	a1, 8(sp)                       # 8-byte Folded Reload
	andi	a1, a1, -4
	sd	a1, 160(sp)                     # 8-byte Folded Spill
	xor	a3, a2, s0
	xor	a2, a2, a5
	slli	s10, a1, 6
	ld	a1, 48(sp)                      # 8-byte Folded Reload
	add	s10, s10, a1
	and	t6, a0, t6
	and	a5, a0, t3
	and	s1, a2, t4
	and	t3, a2, s6
	xor	a2, a2, a0
	xor	a0, s8, a0
	ld	a1, 144(sp)                     # 8-byte Folded Reload
	and	t4, s8, a1
	and	s6, s8, t0
	and	a7, a0, a7
	and	s0, a0, s3
	and	a3, a3, s8
	xor	a3, a3, s7
	and	a4, a2, t2
	ld	a1, 176(sp)                     # 8-byte Folded Reload
	and	t0, a2, a1
	xor	a5, a5, s1
	xor	a2, a2, a3
	xor	a1, a3, s8
	and	t2, a3, t5
	and	t5, a3, s5
	xor	s3, a4, s1
	xor	s5, a5, s6
	and	a3, a1, a6
	and	a6, a2, s11
	xor	a0, a0, a2
	and	a1, a1, s4
	and	a2, a2, s9
	and	s1, a0, s2
	xor	a4, a3, t2
	and	a0, a0, t1
	xor	t1, s5, a3
	xor	a3, a6, a5
	xor	a6, a2, s0
	xor	s0, s0, s1
	xor	a0, a0, a4
	xor	a2, t1, t5
	xor	t2, s3, a4
	xor	a3, a3, a1
	xor	s1, s0, t0
	xor	s0, s0, a2
	xor	a2, a3, a0
	xor	a0, a0, a7
	xor	a3, s1, t3
	xor	a5, a2, t4
	xor	t0, s0, a2
	xor	t4, s0, a1
	xor	a4, s1, t6
	xor	s1, a6, a0
	xor	a1, t2, a3
	xor	t5, a4, a5
	xor	t2, a3, a0
	xor	t6, s1, a5
	srli	a6, t4, 20
	slli	a7, t4, 44
	srli	s0, t4, 4
	slli	a2, t4, 60
	srli	a4, t0, 20
	slli	s1, t0, 44
	srli	a3, t0, 4
	slli	a5, t0, 60
	xor	s3, a1, a0
	xor	a0, a1, t1
	sd	a0, 176(sp)                     # 8-byte Folded Spill
	or	s8, a7, a6
	or	a7, a2, s0
	or	s2, s1, a4
	or	t1, a5, a3
	srli	a5, t5, 20
	slli	s1, t5, 44
	srli	s0, t5, 4
	slli	a2, t5, 60
	srli	s6, a1, 20
	slli	a4, a1, 44
	srli	s4, a1, 4
	slli	a0, a1, 60
	srli	s5, t6, 20
	slli	a3, t6, 44
	srli	s7, t6, 4
	or	a5, a5, s1
	sd	a5, 144(sp)                     # 8-byte Folded Spill
	slli	ra, t6, 60
	or	s9, a2, s0
	srli	s11, t2, 20
	or	s6, a4, s6
	slli	a5, t2, 44
	or	s4, a0, s4
	srli	a6, t2, 4
	or	s5, a3, s5
	slli	t3, t2, 60
	ld	a0, 80(sp)                      # 8-byte Folded Reload
	and	s8, s8, a0
	ld	a4, 72(sp)                      # 8-byte Folded Reload
	and	a2, a7, a4
	and	a7, s2, a0
	and	s1, t1, a4
	or	t1, ra, s7
	ld	a3, 176(sp)                     # 8-byte Folded Reload
	srli	s7, a3, 20
	or	a5, a5, s11
	sd	a5, 136(sp)                     # 8-byte Folded Spill
	slli	s0, a3, 44
	or	s2, t3, a6
	srli	t3, a3, 4
	or	a6, s8, a2
	slli	a5, a3, 60
	or	ra, a7, s1
	srli	a2, s3, 20
	or	a7, s0, s7
	slli	s0, s3, 44
	or	s7, a5, t3
	srli	t3, s3, 4
	or	s11, s0, a2
	slli	s0, s3, 60
	ld	a2, 144(sp)                     # 8-byte Folded Reload
	and	s8, a2, a0
	and	a3, s9, a4
	and	s6, s6, a0
	and	s1, s4, a4
	and	a5, s5, a0
	and	a2, t1, a4
	or	t3, s0, t3
	or	s0, s8, a3
	or	s6, s6, s1
	or	s5, a5, a2
	ld	s9, 64(s10)
	ld	s8, 72(s10)
	ld	s4, 80(s10)
	ld	a2, 88(s10)
	sd	a2, 128(sp)                     # 8-byte Folded Spill
	ld	a5, 136(sp)                     # 8-byte Folded Reload
	and	a5, a5, a0
	and	s1, s2, a4
	and	t1, a7, a0
	and	a2, s7, a4
	and	a3, s11, a0
	and	a4, t3, a4
	or	a5, a5, s1
	ld	s11, 96(s10)
	ld	s2, 104(s10)
	ld	a7, 112(s10)
	ld	s7, 120(s10)
	xor	s1, a6, t4
	xor	t4, ra, t0
	xor	a0, s9, a6
	sd	a0, 144(sp)                     # 8-byte Folded Spill
	xor	a0, s8, ra
	or	s8, t1, a2
	or	s9, a3, a4
	xor	a2, s0, t5
	xor	a1, s6, a1
	xor	a3, s5, t6
	xor	a4, a5, t2
	srli	t1, s1, 40
	slli	t3, s1, 24
	srli	t5, s1, 24
	slli	t6, s1, 40
	xor	t0, a0, s1
	srli	ra, t4, 40
	xor	s4, s4, s0
	slli	a0, t4, 24
	xor	s6, s11, s6
	srli	s11, t4, 24
	xor	s2, s2, s5
	slli	s1, t4, 40
	xor	s10, s7, a5
	xor	s0, s9, s3
	or	s3, t3, t1
	or	t3, t6, t5
	or	t5, a0, ra
	or	t6, s1, s11
	srli	s7, a2, 40
	slli	a5, a2, 24
	srli	ra, a2, 24
	slli	a6, a2, 40
	srli	s11, a1, 40
	xor	s1, s4, t4
	sd	s1, 136(sp)                     # 8-byte Folded Spill
	slli	s1, a1, 24
	ld	a0, 128(sp)                     # 8-byte Folded Reload
	xor	t4, a0, a2
	srli	s4, a1, 24
	xor	a2, s2, a1
	sd	a2, 128(sp)                     # 8-byte Folded Spill
	slli	a1, a1, 40
	xor	a7, a7, s9
	srli	a2, a3, 40
	or	s5, a5, s7
	slli	a5, a3, 24
	or	s7, a6, ra
	srli	a0, a3, 24
	or	s9, s1, s11
	slli	s1, a3, 40
	or	s4, a1, s4
	srli	a1, a4, 40
	or	s11, a5, a2
	slli	a5, a4, 24
	or	ra, s1, a0
	srli	s1, a4, 24
	or	s2, a5, a1
	slli	a5, a4, 40
	or	a6, a5, s1
	ld	a0, 144(sp)                     # 8-byte Folded Reload
	xor	t1, a0, a4
	xor	t0, t0, a4
	xor	s6, s6, a4
	xor	a1, t4, a4
	ld	a0, 176(sp)                     # 8-byte Folded Reload
	xor	a2, s8, a0
	ld	t4, 152(sp)                     # 8-byte Folded Reload
	and	s3, s3, t4
	ld	t2, 168(sp)                     # 8-byte Folded Reload
	and	a0, t3, t2
	and	a5, t5, t4
	and	a4, t6, t2
	xor	a7, a7, a3
	srli	a3, a2, 40
	or	t3, s3, a0
	slli	a0, a2, 24
	or	s3, a5, a4
	srli	a4, a2, 24
	xor	t5, s6, a2
	slli	a2, a2, 40
	or	s6, a0, a3
	srli	a3, s0, 40
	or	a2, a2, a4
	slli	a4, s0, 24
	or	a3, a3, a4
	srli	a4, s0, 24
	xor	t6, s10, s0
	slli	s0, s0, 40
	or	a4, a4, s0
	xor	s8, a1, s8
	and	a0, s5, t4
	and	a1, s7, t2
	or	a0, a0, a1
	and	a1, s9, t4
	and	s1, s4, t2
	or	s1, s1, a1
	and	a1, s11, t4
	and	a5, ra, t2
	or	a5, a5, a1
	and	a1, s2, t4
	and	s0, a6, t2
	or	s0, s0, a1
	xor	s2, t1, t3
	xor	s3, t0, s3
	and	a1, s6, t4
	and	a2, a2, t2
	or	a2, a2, a1
	and	a1, a3, t4
	and	a3, a4, t2
	or	a3, a3, a1
	ld	a1, 136(sp)                     # 8-byte Folded Reload
	xor	s6, a1, a0
	xor	s7, t5, s1
	ld	a0, 128(sp)                     # 8-byte Folded Reload
	xor	t0, a0, a5
	xor	a6, s8, a2
	xor	s4, a7, a3
	ld	a0, 160(sp)                     # 8-byte Folded Reload
	addi	a0, a0, 2
	xor	s9, t6, s0
	ld	s10, 40(sp)                     # 8-byte Folded Reload
	bgeu	a0, s10, .Lgcm_narrow_BB13_5
# %bb.4:                                # %then.11.i
	xor	a0, s4, t0
	xor	t0, s7, s9
	xor	t5, s3, s9
	xor	a7, s7, s6
	xor	t3, s9, s6
	xor	t2, a0, s2
	xor	t4, t5, a7
	xor	t6, t2, s7
	xor	a3, t4, a6
	xor	s3, t2, s3
	and	s0, t6, s2
	xor	s6, a3, s6
	xor	a1, a3, s4
	xor	t1, s3, t3
	xor	s8, a1, t0
	xor	s4, s6, s2
	and	a5, s6, t4
	xor	s5, s6, a0
	xor	s0, s0, t3
	and	a3, s8, t0
	xor	a6, s8, s5
	and	a4, s5, t3
	xor	a1, a1, a5
	xor	a5, s5, a5
	xor	s7, s0, a5
	and	s0, s4, t1
	xor	s0, s0, a1
	and	a1, a6, a7
	xor	a4, a4, a3
	xor	a3, a3, a1
	and	a1, s3, t2
	xor	s11, s8, a0
	xor	a1, s11, a1
	and	a5, s11, t5
	xor	a1, a1, a5
	xor	a2, a5, s9
	xor	s9, t2, s9
	xor	s10, s8, s2
	and	a5, s10, s9
	xor	a5, s11, a5
	xor	a2, a2, a5
	xor	s0, s0, a3
	xor	a1, a1, t5
	xor	a1, a1, a3
	xor	s1, s7, a4
	xor	a2, a2, a4
	and	a4, a1, s0
	xor	a5, a2, a1
	xor	a3, a4, s1
	and	a3, a3, a5
	xor	s0, s0, s1
	xor	a0, a4, a2
	and	a5, a0, s0
	xor	a5, a5, s1
	xor	a4, a4, a3
	xor	a3, a3, a2
	and	a2, a2, a4
	xor	a0, a0, a2
	xor	a1, a1, a2
	and	a0, a0, a5
	xor	a0, a0, s0
	and	t6, a3, t6
	and	s7, a3, s2
	and	a4, a1, s6
	and	t4, a1, t4
	xor	a1, a1, a3
	xor	a3, a3, a5
	and	s2, a5, s9
	and	s1, a5, s10
	and	s6, a3, s8
	and	s8, a3, t0
	and	a2, a1, s4
	and	t0, a1, t1
	xor	s0, a4, s7
	xor	a1, a1, a0
	xor	a5, a5, a0
	and	t1, a0, t2
	and	t2, a0, s3
	xor	s3, a2, a4
	xor	s4, s0, s1
	and	a4, a5, s11
	and	a0, a1, s5
	xor	a3, a3, a1
	and	t5, a5, t5
	and	a1, a1, t3
	and	a2, a3, a7
	xor	s1, a4, t1
	and	a3, a3, a6
	xor	a6, s4, a4
	xor	a0, a0, s0
	xor	a1, a1, s8
	xor	a2, a2, s8
	xor	a3, a3, s1
	xor	s0, a6, t2
	xor	s1, s3, s1
	xor	a0, a0, t5
	xor	a4, a2, t0
	xor	a2, a2, s0
	xor	a0, a0, a3
	xor	a3, a3, s6
	xor	s0, a4, t4
	xor	a5, a0, s2
	xor	s8, a2, a0
	xor	s9, a2, t5
	xor	a4, a4, t6
	xor	a1, a1, a3
	xor	ra, s1, s0
	xor	s11, a4, a5
	xor	s7, s0, a3
	xor	s10, a1, a5
	srli	a7, s9, 24
	slli	a5, s9, 40
	srli	a0, s9, 8
	slli	a1, s9, 56
	srli	a4, s8, 24
	slli	s1, s8, 40
	srli	a2, s8, 8
	slli	s0, s8, 56
	xor	t1, ra, a3
	xor	t3, ra, a6
	or	s4, a5, a7
	or	s3, a1, a0
	or	t2, s1, a4
	or	t4, s0, a2
	srli	a6, s11, 24
	slli	a2, s11, 40
	srli	a7, s11, 8
	slli	a5, s11, 56
	srli	s1, ra, 24
	slli	s0, ra, 40
	srli	a1, ra, 8
	slli	a3, ra, 56
	srli	a0, s10, 24
	slli	a4, s10, 40
	or	a2, a2, a6
	sd	a2, 176(sp)                     # 8-byte Folded Spill
	srli	a2, s10, 8
	or	a5, a5, a7
	sd	a5, 160(sp)                     # 8-byte Folded Spill
	slli	a5, s10, 56
	or	t0, s0, s1
	srli	s0, s7, 24
	or	t5, a3, a1
	slli	a1, s7, 40
	or	t6, a4, a0
	srli	a0, s7, 8
	or	s2, a5, a2
	slli	a2, s7, 56
	ld	a6, 152(sp)                     # 8-byte Folded Reload
	and	s1, s4, a6
	ld	a7, 168(sp)                     # 8-byte Folded Reload
	and	a4, s3, a7
	and	a5, t2, a6
	and	a3, t4, a7
	or	s5, a1, s0
	srli	s0, t3, 24
	or	s6, a2, a0
	slli	a0, t3, 40
	or	a1, s1, a4
	srli	a2, t3, 8
	or	a3, a3, a5
	slli	a4, t3, 56
	or	s3, a0, s0
	srli	a0, t1, 24
	or	s4, a4, a2
	slli	a2, t1, 40
	or	t2, a2, a0
	srli	a0, t1, 8
	slli	a2, t1, 56
	or	t4, a2, a0
	ld	a0, 8(sp)                       # 8-byte Folded Reload
	slli	a0, a0, 6
	ld	a2, 48(sp)                      # 8-byte Folded Reload
	add	a0, a0, a2
	mv	a5, a6
	ld	a2, 176(sp)                     # 8-byte Folded Reload
	and	a6, a2, a6
	mv	a4, a7
	ld	a2, 160(sp)                     # 8-byte Folded Reload
	and	a7, a2, a7
	and	t0, t0, a5
	and	s1, t5, a4
	and	t5, t6, a5
	and	t6, s2, a4
	and	s0, s5, a5
	and	a2, s6, a4
	or	a7, a6, a7
	or	a6, t0, s1
	or	t5, t5, t6
	or	t6, s0, a2
	ld	s0, 0(a0)
	ld	s5, 8(a0)
	ld	t0, 16(a0)
	ld	a2, 24(a0)
	sd	a2, 176(sp)                     # 8-byte Folded Spill
	and	s6, s3, a5
	and	a2, s4, a4
	xor	s1, a1, s9
	xor	s2, a3, s8
	xor	s3, s0, a1
	xor	s0, s5, a3
	or	s4, s6, a2
	ld	s9, 32(a0)
	ld	s6, 40(a0)
	ld	s5, 48(a0)
	ld	s8, 56(a0)
	and	a0, t2, a5
	and	a1, t4, a4
	or	a1, a1, a0
	xor	a3, a7, s11
	xor	a2, a6, ra
	xor	s10, t5, s10
	xor	a0, t6, s7
	srli	t2, s1, 32
	xor	t4, s0, s1
	slli	s7, s1, 32
	xor	a7, t0, a7
	srli	s11, s2, 32
	xor	t0, s9, a6
	slli	a5, s2, 32
	xor	t6, s8, t6
	xor	a4, s6, t5
	xor	s0, s4, t3
	xor	s1, a1, t1
	or	t1, s7, t2
	or	t2, a5, s11
	srli	t3, a3, 32
	slli	t5, a3, 32
	srli	ra, a2, 32
	slli	s6, a2, 32
	xor	a7, a7, s2
	srli	s8, s10, 32
	xor	s5, s5, a1
	slli	s9, s10, 32
	xor	s7, a4, a2
	srli	s11, a0, 32
	ld	a1, 176(sp)                     # 8-byte Folded Reload
	xor	a6, a1, a3
	slli	a2, a0, 32
	xor	a5, s3, a0
	xor	s3, t4, a0
	xor	a4, t0, a0
	or	t0, t5, t3
	srli	t4, s0, 32
	or	t3, s6, ra
	slli	a3, s0, 32
	or	t5, s9, s8
	srli	a1, s1, 32
	or	s2, a2, s11
	slli	a2, s1, 32
	xor	t1, t1, a5
	xor	t2, t2, s3
	xor	a4, a4, s0
	xor	s0, s5, s10
	xor	s1, t6, s1
	xor	a5, a6, a0
	or	a3, a3, t4
	or	a1, a1, a2
	xor	a2, t0, a7
	xor	a4, t3, a4
	xor	a0, s2, s1
	xor	s1, t5, s7
	xor	a5, a5, s4
	xor	a1, a1, s0
	xor	t4, a0, a4
	xor	t5, a0, t2
	xor	t3, a4, a2
	xor	a3, a3, a5
	xor	s2, a0, a2
	xor	a5, s1, a1
	xor	s4, t5, t3
	xor	s7, a5, t1
	xor	a3, a3, s4
	xor	s10, s7, a4
	xor	s9, a3, a2
	xor	a1, a1, a3
	xor	t6, s7, t2
	and	a2, s10, t1
	xor	ra, a1, t4
	xor	s5, s9, t1
	xor	s6, t6, s2
	and	a4, s9, s4
	xor	t2, s9, a5
	and	a3, t6, s7
	and	s1, ra, t4
	xor	s8, ra, a5
	xor	s3, ra, t2
	and	a5, t2, s2
	xor	a2, a2, s2
	xor	a1, a1, a4
	xor	a4, t2, a4
	xor	a2, a2, a4
	and	a4, s5, s6
	xor	a1, a1, a4
	and	a4, s3, t3
	xor	a5, a5, s1
	xor	a4, a4, s1
	and	s1, s8, t5
	xor	a3, s8, a3
	xor	a3, a3, s1
	xor	s1, s1, a0
	xor	a6, s7, a0
	xor	s0, ra, t1
	and	a0, s0, a6
	xor	a0, s8, a0
	xor	a0, a0, s1
	xor	a1, a1, a4
	xor	a3, a3, t5
	xor	a3, a3, a4
	xor	a2, a2, a5
	xor	a5, a5, a0
	and	s1, a3, a1
	xor	a4, a5, a3
	xor	a0, s1, a2
	and	a0, a0, a4
	xor	t0, a1, a2
	xor	a4, s1, a5
	and	a1, a4, t0
	xor	a7, a1, a2
	xor	s1, s1, a0
	xor	a0, a0, a5
	and	a2, s1, a5
	xor	s1, a2, a4
	xor	a2, a2, a3
	ld	a1, 40(sp)                      # 8-byte Folded Reload
	slli	a1, a1, 6
	sd	a1, 176(sp)                     # 8-byte Folded Spill
	and	s10, a0, s10
	and	a4, a0, t1
	and	a5, a2, s9
	and	t1, a2, s4
	xor	a2, a2, a0
	xor	a0, a7, a0
	and	a6, a7, a6
	and	s9, a7, s0
	and	s4, a0, ra
	and	s0, a0, t4
	and	a1, s1, a7
	xor	a1, a1, t0
	and	s1, a2, s5
	and	t0, a2, s6
	xor	a4, a4, a5
	xor	a2, a2, a1
	xor	a3, a1, a7
	and	a7, a1, s7
	and	t4, a1, t6
	xor	t6, s1, a5
	xor	s5, a4, s9
	and	a1, a3, s8
	and	t2, a2, t2
	xor	a0, a0, a2
	and	t5, a3, t5
	and	a2, a2, s2
	and	s1, a0, t3
	xor	a5, a1, a7
	and	a0, a0, s3
	xor	t3, s5, a1
	xor	a4, t2, a4
	xor	a7, a2, s0
	xor	s0, s0, s1
	xor	a0, a0, a5
	xor	s1, t3, t4
	xor	a1, t6, a5
	xor	a4, a4, t5
	xor	a2, s0, t0
	xor	s0, s0, s1
	xor	a4, a4, a0
	xor	a0, a0, s4
	xor	a3, a2, t1
	xor	s1, a4, a6
	xor	t2, s0, a4
	xor	t4, s0, t5
	xor	a4, a2, s10
	xor	a5, a7, a0
	xor	a2, a1, a3
	xor	t0, a4, s1
	xor	t5, a3, a0
	xor	t6, a5, s1
	srli	a6, t4, 28
	slli	a7, t4, 36
	srli	s0, t4, 12
	slli	s1, t4, 52
	srli	a3, t2, 28
	slli	a5, t2, 36
	srli	a1, t2, 12
	slli	a4, t2, 52
	xor	s3, a2, a0
	xor	t1, a2, t3
	or	a6, a7, a6
	or	s2, s1, s0
	or	t3, a5, a3
	or	a7, a4, a1
	srli	a4, t0, 28
	slli	a5, t0, 36
	srli	s1, t0, 12
	slli	a1, t0, 52
	srli	s6, a2, 28
	slli	s0, a2, 36
	srli	s4, a2, 12
	slli	a0, a2, 52
	srli	s5, t6, 28
	slli	a3, t6, 36
	srli	s7, t6, 12
	or	s8, a5, a4
	slli	a5, t6, 52
	or	s9, a1, s1
	srli	ra, t5, 28
	or	s6, s0, s6
	slli	a4, t5, 36
	or	s4, a0, s4
	srli	a1, t5, 12
	or	s11, a3, s5
	slli	s0, t5, 52
	ld	s5, 64(sp)                      # 8-byte Folded Reload
	and	s10, a6, s5
	ld	a0, 56(sp)                      # 8-byte Folded Reload
	and	a3, s2, a0
	and	t3, t3, s5
	and	s1, a7, a0
	or	a6, a5, s7
	srli	a5, t1, 28
	or	a7, a4, ra
	slli	a4, t1, 36
	or	s2, s0, a1
	srli	s0, t1, 12
	or	ra, s10, a3
	slli	a3, t1, 52
	or	s7, t3, s1
	srli	a1, s3, 28
	or	a4, a4, a5
	slli	a5, s3, 36
	or	t3, a3, s0
	srli	s0, s3, 12
	or	a1, a1, a5
	slli	a5, s3, 52
	or	s10, a5, s0
	ld	s0, 48(sp)                      # 8-byte Folded Reload
	ld	a3, 176(sp)                     # 8-byte Folded Reload
	add	s0, s0, a3
	and	s8, s8, s5
	and	s1, s9, a0
	and	s6, s6, s5
	and	s9, s4, a0
	and	a3, s11, s5
	and	a5, a6, a0
	and	a7, a7, s5
	or	s11, s8, s1
	and	s4, a4, s5
	or	s9, s6, s9
	or	s6, a3, a5
	and	s8, a1, s5
	ld	a5, -64(s0)
	ld	a4, -56(s0)
	ld	s5, -48(s0)
	ld	a6, -40(s0)
	and	a3, s2, a0
	and	a1, t3, a0
	and	a0, s10, a0
	or	t3, a7, a3
	xor	a3, ra, t4
	xor	a5, a5, ra
	sd	a5, 160(sp)                     # 8-byte Folded Spill
	ld	ra, -32(s0)
	ld	t4, -24(s0)
	ld	s2, -16(s0)
	ld	s10, -8(s0)
	xor	s0, s7, t2
	xor	t2, a4, s7
	or	a1, s4, a1
	sd	a1, 144(sp)                     # 8-byte Folded Spill
	or	s7, s8, a0
	xor	a0, s11, t0
	xor	a5, s9, a2
	xor	a2, s6, t6
	xor	s1, t3, t5
	srli	t0, a3, 40
	slli	t5, a3, 24
	srli	t6, a3, 24
	xor	t2, t2, a3
	slli	a3, a3, 40
	xor	s5, s5, s11
	srli	a4, s0, 40
	xor	s8, ra, s9
	slli	s9, s0, 24
	xor	t4, t4, s6
	srli	s6, s0, 24
	xor	t3, s10, t3
	slli	s10, s0, 40
	xor	s3, s7, s3
	or	t5, t5, t0
	or	a1, a3, t6
	or	s9, s9, a4
	or	t6, s10, s6
	srli	s10, a0, 40
	slli	a3, a0, 24
	srli	s6, a0, 24
	slli	ra, a0, 40
	xor	a4, s5, s0
	sd	a4, 136(sp)                     # 8-byte Folded Spill
	srli	s0, a5, 40
	xor	s5, a6, a0
	slli	a0, a5, 24
	xor	s2, s2, s7
	srli	s7, a5, 24
	xor	a4, t4, a5
	sd	a4, 128(sp)                     # 8-byte Folded Spill
	slli	a5, a5, 40
	or	t4, a3, s10
	srli	a4, a2, 40
	or	s6, ra, s6
	slli	a3, a2, 24
	or	s10, a0, s0
	srli	s0, a2, 24
	or	ra, a5, s7
	slli	a0, a2, 40
	or	s7, a3, a4
	srli	a4, s1, 40
	or	a6, a0, s0
	slli	s0, s1, 24
	or	t0, s0, a4
	srli	a3, s1, 24
	slli	a4, s1, 40
	or	a7, a4, a3
	ld	a0, 160(sp)                     # 8-byte Folded Reload
	xor	s11, a0, s1
	xor	s4, t2, s1
	xor	s8, s8, s1
	xor	t2, s5, s1
	ld	s0, 144(sp)                     # 8-byte Folded Reload
	xor	a5, s0, t1
	ld	a0, 152(sp)                     # 8-byte Folded Reload
	and	t5, t5, a0
	ld	a3, 168(sp)                     # 8-byte Folded Reload
	and	a4, a1, a3
	and	t1, s9, a0
	and	s1, t6, a3
	xor	s2, s2, a2
	srli	a2, a5, 40
	or	t5, t5, a4
	slli	a4, a5, 24
	or	s9, t1, s1
	srli	s1, a5, 24
	xor	s5, s8, a5
	slli	a5, a5, 40
	or	a2, a2, a4
	srli	a4, s3, 40
	or	t6, a5, s1
	slli	a1, s3, 24
	or	a1, a1, a4
	srli	a4, s3, 24
	xor	t3, t3, s3
	slli	s3, s3, 40
	or	a4, s3, a4
	xor	s3, t2, s0
	mv	a5, a0
	and	s1, t4, a0
	and	a0, s6, a3
	or	t2, s1, a0
	and	s1, s10, a5
	mv	a0, a3
	and	a3, ra, a3
	or	t4, s1, a3
	and	s1, s7, a5
	and	s0, a6, a0
	or	s1, s1, s0
	and	s0, t0, a5
	and	a3, a2, a5
	and	a1, a1, a5
	and	a5, a7, a0
	and	a2, t6, a0
	and	a4, a4, a0
	or	a5, a5, s0
	xor	t1, s11, t5
	xor	a7, s4, s9
	or	a2, a2, a3
	or	a1, a1, a4
	ld	a0, 136(sp)                     # 8-byte Folded Reload
	xor	t2, a0, t2
	xor	s0, s5, t4
	ld	a0, 128(sp)                     # 8-byte Folded Reload
	xor	a0, a0, s1
	xor	a6, s3, a2
	xor	t0, s2, a1
	ld	s10, 176(sp)                    # 8-byte Folded Reload
	xor	s2, t3, a5
	j	.Lgcm_narrow_BB13_6
.Lgcm_narrow_BB13_5:                               # %else.12.i
	srli	t1, s2, 8
	lui	a7, 4080
	srli	t2, s3, 8
	srli	t3, s6, 8
	srli	t4, a6, 8
	srli	t5, s7, 8
	srli	t6, t0, 8
	srli	s5, s4, 8
	slli	s0, a7, 32
	add	a7, a7, s0
	srli	s1, s9, 8
	xor	s0, t1, s2
	xor	a0, t2, s3
	xor	a3, t3, s6
	xor	a2, t4, a6
	xor	a5, t5, s7
	xor	a1, t6, t0
	xor	t2, s5, s4
	xor	t1, s1, s9
	and	s1, s0, a7
	and	a4, a0, a7
	and	a3, a3, a7
	and	a2, a2, a7
	and	a5, a5, a7
	and	a1, a1, a7
	and	t2, t2, a7
	and	a7, t1, a7
	slli	s0, s1, 8
	or	s0, s0, s1
	slli	a0, a4, 8
	or	a0, a0, a4
	slli	a4, a3, 8
	or	a3, a3, a4
	slli	a4, a2, 8
	or	a2, a2, a4
	slli	a4, a5, 8
	or	a4, a4, a5
	slli	a5, a1, 8
	or	a1, a1, a5
	slli	a5, t2, 8
	or	a5, a5, t2
	slli	s1, a7, 8
	or	s1, s1, a7
	xor	t1, s0, s2
	xor	a7, a0, s3
	xor	t2, a3, s6
	xor	a6, a2, a6
	xor	s0, a4, s7
	xor	a0, a1, t0
	xor	t0, a5, s4
	xor	s2, s1, s9
	slli	s10, s10, 6
.Lgcm_narrow_BB13_6:                               # %"aes_soft::soft::ciphers::planes::EncryptPlaneCipher::process_planes::<#42423944b6b1314b>.exit"
	xor	s4, t0, a0
	xor	a1, s2, s0
	xor	t4, s2, a7
	xor	t3, s0, t2
	xor	t5, s2, t2
	ld	s11, 48(sp)                     # 8-byte Folded Reload
	add	s11, s11, s10
	xor	t6, s4, t1
	xor	s7, t4, t3
	xor	s5, t6, s0
	xor	a0, s7, a6
	xor	s6, t6, a7
	and	s1, s5, t1
	xor	ra, a0, t2
	xor	a5, a0, t0
	xor	a7, s6, t5
	and	t0, s6, t6
	sd	a1, 176(sp)                     # 8-byte Folded Spill
	xor	a2, a5, a1
	xor	s3, ra, t1
	and	a3, ra, s7
	xor	s8, ra, s4
	xor	s0, s1, t5
	and	a0, a2, a1
	xor	s4, a2, s4
	xor	a6, a2, s8
	and	s1, s8, t5
	xor	a5, a5, a3
	xor	a3, s8, a3
	xor	t2, s0, a3
	and	s0, s3, a7
	xor	s10, a5, s0
	and	s0, a6, t3
	xor	a4, s1, a0
	xor	a0, a0, s0
	and	s0, s4, t4
	xor	a3, s4, t0
	xor	a3, a3, s0
	xor	s0, s0, s2
	xor	s2, t6, s2
	xor	s9, a2, t1
	and	a5, s9, s2
	xor	a5, s4, a5
	xor	a5, a5, s0
	xor	s0, s10, a0
	xor	a3, a3, t4
	xor	s1, a3, a0
	xor	a3, t2, a4
	xor	a5, a5, a4
	and	a4, s1, s0
	xor	t0, a5, s1
	xor	a0, a4, a3
	and	a0, a0, t0
	xor	s10, s0, a3
	xor	s0, a4, a5
	and	a1, s0, s10
	xor	a1, a1, a3
	xor	a4, a4, a0
	xor	a0, a0, a5
	and	a4, a4, a5
	xor	s0, s0, a4
	ld	a3, 16(s11)
	xor	a4, a4, s1
	and	a5, a0, s5
	ld	t0, 24(s11)
	xor	t2, a5, a3
	and	s0, s0, a1
	xor	a3, s0, s10
	and	a5, a0, t1
	and	s1, a4, ra
	and	t1, a4, s7
	xor	a4, a4, a0
	xor	a0, a0, a1
	and	s2, a1, s2
	and	s5, a1, s9
	and	s0, a4, s3
	and	a7, a4, a7
	xor	a4, a4, a3
	xor	a1, a1, a3
	and	t6, a3, t6
	and	s3, a3, s6
	xor	a5, a5, s1
	xor	s6, s0, s1
	and	s1, a1, s4
	and	a1, a1, t4
	and	t4, a0, a2
	ld	a2, 176(sp)                     # 8-byte Folded Reload
	and	a2, a2, a0
	and	a3, a4, s8
	xor	a0, a0, a4
	and	t5, a4, t5
	and	t3, a0, t3
	and	a6, a0, a6
	ld	a0, 40(s11)
	xor	a4, a5, s5
	xor	s0, s1, t6
	xor	a4, a4, s1
	xor	a3, a3, a5
	ld	s4, 48(s11)
	ld	t6, 56(s11)
	xor	a0, a0, a2
	xor	a0, a0, t5
	xor	a2, t3, a2
	ld	s1, 0(s11)
	xor	a5, s0, a6
	xor	a6, s6, s0
	ld	s0, 8(s11)
	xor	t3, a1, s1
	xor	a1, a1, a3
	xor	a3, a4, s3
	xor	t0, a4, t0
	xor	a4, a2, a7
	xor	a2, a2, a3
	xor	a1, a1, a5
	xor	a3, a5, t4
	xor	a5, a1, s2
	xor	a1, a1, s0
	xor	s0, a4, t1
	xor	s1, t2, a4
	xor	t1, a0, a3
	xor	a7, a3, s4
	xor	a3, a3, t6
	xor	a4, t3, a2
	xor	a1, a1, a2
	ld	a2, 32(s11)
	xor	a0, a6, s0
	xor	a6, s1, a5
	xor	a5, t1, a5
	xor	t1, a3, s0
	srli	s1, a4, 1
	xor	s0, t0, a0
	xor	t0, a0, a2
	xor	a7, a7, a0
	xor	s1, s1, a1
	srli	a0, a6, 1
	ld	a3, 16(sp)                      # 8-byte Folded Reload
	and	s1, s1, a3
	xor	a0, a0, s0
	srli	a2, t0, 1
	xor	t4, s1, a1
	slli	s1, s1, 1
	xor	t2, s1, a4
	srli	s1, a7, 1
	and	a0, a0, a3
	xor	a2, a2, a5
	xor	s1, s1, t1
	and	a2, a2, a3
	and	s1, s1, a3
	xor	s0, s0, a0
	slli	a0, a0, 1
	xor	a3, a0, a6
	srli	a1, t4, 2
	xor	t3, a2, a5
	slli	a2, a2, 1
	xor	a4, s1, t1
	slli	s1, s1, 1
	xor	a6, a2, t0
	srli	a2, t2, 2
	xor	a1, a1, s0
	xor	s1, s1, a7
	xor	a2, a2, a3
	ld	a0, 24(sp)                      # 8-byte Folded Reload
	and	a1, a1, a0
	srli	a5, t3, 2
	and	a2, a2, a0
	xor	t6, a1, s0
	slli	a1, a1, 2
	xor	a7, a1, t4
	srli	a1, a6, 2
	xor	a5, a5, a4
	xor	t4, a2, a3
	slli	a2, a2, 2
	xor	a1, a1, s1
	and	a3, a5, a0
	xor	t0, a2, t2
	srli	a2, t6, 4
	and	a1, a1, a0
	slli	a5, a3, 2
	xor	a0, a3, a4
	srli	a4, a7, 4
	xor	a5, a5, t3
	srli	a3, t4, 4
	xor	s1, s1, a1
	slli	a1, a1, 2
	xor	t1, a1, a6
	srli	a1, t0, 4
	xor	s0, a0, a2
	xor	a4, a4, a5
	xor	a3, a3, s1
	ld	a2, 32(sp)                      # 8-byte Folded Reload
	and	s0, s0, a2
	xor	a1, t1, a1
	and	a4, a4, a2
	and	a3, a3, a2
	xor	t5, s0, a0
	slli	s0, s0, 4
	and	t3, a1, a2
	slli	a1, a4, 4
	xor	s3, a4, a5
	slli	a0, a3, 4
	xor	s1, s1, a3
	xor	t6, s0, t6
	srli	a6, t5, 40
	srli	t2, t5, 24
	xor	s2, a1, a7
	srli	a7, t5, 32
	xor	t4, a0, t4
	srli	a3, t5, 16
	ld	a5, 0(sp)                       # 8-byte Folded Reload
	sb	a3, 53(a5)
	srli	a1, t5, 8
	xor	a3, t3, t1
	slli	t3, t3, 4
	sb	a1, 60(a5)
	srli	a1, s3, 24
	sb	t2, 61(a5)
	srli	a0, s3, 32
	xor	a2, t3, t0
	srli	a4, s3, 16
	sb	a4, 21(a5)
	srli	a4, s3, 8
	sb	a4, 28(a5)
	srli	a4, s3, 40
	sb	a1, 29(a5)
	srli	a1, s3, 48
	sb	a0, 22(a5)
	sb	a1, 23(a5)
	sb	s3, 20(a5)
	srli	s0, s3, 56
	sb	a4, 30(a5)
	srli	a0, s1, 32
	sb	s0, 31(a5)
	srli	a1, s1, 16
	sb	a1, 37(a5)
	srli	a1, s1, 48
	sb	a0, 38(a5)
	srli	a0, s1, 24
	sb	s1, 36(a5)
	sb	a1, 39(a5)
	srli	a1, s1, 8
	sb	a1, 44(a5)
	srli	a1, s1, 56
	srli	s1, s1, 40
	sb	a0, 45(a5)
	srli	a0, t6, 24
	sb	s1, 46(a5)
	srli	a4, t6, 32
	sb	a1, 47(a5)
	srli	a1, t6, 16
	sb	a1, 49(a5)
	srli	a1, t6, 8
	sb	a1, 56(a5)
	srli	a1, t6, 40
	sb	a0, 57(a5)
	srli	a0, t6, 48
	sb	a4, 50(a5)
	sb	a0, 51(a5)
	sb	t6, 48(a5)
	srli	a0, t6, 56
	sb	a1, 58(a5)
	srli	a1, a3, 32
	sb	a0, 59(a5)
	srli	a0, a3, 16
	sb	a0, 5(a5)
	srli	a0, a3, 48
	sb	a1, 6(a5)
	srli	a1, a3, 24
	sb	a3, 4(a5)
	sb	a0, 7(a5)
	srli	a0, a3, 8
	sb	a0, 12(a5)
	srli	a0, a3, 56
	srli	a3, a3, 40
	sb	a1, 13(a5)
	srli	a1, s2, 24
	sb	a3, 14(a5)
	srli	a3, s2, 32
	sb	a0, 15(a5)
	srli	a0, s2, 16
	sb	a0, 17(a5)
	srli	a0, s2, 8
	sb	a0, 24(a5)
	srli	a0, s2, 40
	sb	a1, 25(a5)
	srli	a1, s2, 48
	sb	a3, 18(a5)
	sb	a1, 19(a5)
	sb	s2, 16(a5)
	srli	s0, s2, 56
	sb	a0, 26(a5)
	srli	a0, t4, 32
	sb	s0, 27(a5)
	srli	a1, t4, 16
	sb	a1, 33(a5)
	srli	a1, t4, 48
	sb	a0, 34(a5)
	srli	a0, t4, 24
	sb	t4, 32(a5)
	sb	a1, 35(a5)
	srli	a1, t4, 8
	sb	a1, 40(a5)
	srli	a1, t4, 56
	srli	a3, t4, 40
	sb	a0, 41(a5)
	srli	a0, a2, 24
	sb	a3, 42(a5)
	srli	a3, a2, 32
	sb	a1, 43(a5)
	srli	a1, a2, 16
	sb	a1, 1(a5)
	srli	a1, a2, 8
	sb	a1, 8(a5)
	srli	a1, a2, 40
	sb	a0, 9(a5)
	srli	a0, a2, 48
	sb	a3, 2(a5)
	sb	a0, 3(a5)
	sb	a2, 0(a5)
	srli	a2, a2, 56
	sb	a1, 10(a5)
	sb	a2, 11(a5)
	srli	a0, t5, 48
	sb	a7, 54(a5)
	sb	a0, 55(a5)
	sb	t5, 52(a5)
	srli	a0, t5, 56
	sb	a6, 62(a5)
	sb	a0, 63(a5)
	ld	ra, 280(sp)                     # 8-byte Folded Reload
	ld	s0, 272(sp)                     # 8-byte Folded Reload
	ld	s1, 264(sp)                     # 8-byte Folded Reload
	ld	s2, 256(sp)                     # 8-byte Folded Reload
	ld	s3, 248(sp)                     # 8-byte Folded Reload
	ld	s4, 240(sp)                     # 8-byte Folded Reload
	ld	s5, 232(sp)                     # 8-byte Folded Reload
	ld	s6, 224(sp)                     # 8-byte Folded Reload
	ld	s7, 216(sp)                     # 8-byte Folded Reload
	ld	s8, 208(sp)                     # 8-byte Folded Reload
	ld	s9, 200(sp)                     # 8-byte Folded Reload
	ld	s10, 192(sp)                    # 8-byte Folded Reload
	ld	s11, 184(sp)                    # 8-byte Folded Reload
	addi	sp, sp, 288
	ret
.Lgcm_narrow_func_end13:
	.size	gcm_narrow.aes_soft.soft.ciphers.planes.process_outlined, .Lgcm_narrow_func_end13-gcm_narrow.aes_soft.soft.ciphers.planes.process_outlined
                                        # -- End function
	.section	.text.gcm_narrow.aes_cipher.zeroize.stack.wipe_stack.1024,"ax",@progbits
	.p2align	1                               # -- Begin function aes_cipher::zeroize::stack::wipe_stack::<=1024>
	.type	gcm_narrow.aes_cipher.zeroize.stack.wipe_stack.1024,@function
gcm_narrow.aes_cipher.zeroize.stack.wipe_stack.1024: # @gcm_narrow.aes_cipher.zeroize.stack.wipe_stack.1024
# %bb.0:                                # %start
	addi	sp, sp, -1072
	sd	ra, 1064(sp)                    # 8-byte Folded Spill
	sd	s0, 1056(sp)                    # 8-byte Folded Spill
	sd	s1, 1048(sp)                    # 8-byte Folded Spill
	addi	s0, sp, 24
	addi	a0, sp, 24
	li	a2, 1024
	li	s1, 1024
	li	a1, 0
	la	t1, memset
	jalr	t1
	sd	zero, 16(sp)
	#APP
	#NO_APP
	fence	rw, rw
	ld	a0, 16(sp)
	fence	r, rw
	#APP
	#NO_APP
	bgeu	a0, s1, .Lgcm_narrow_BB14_2
# %bb.1:                                # %then.1
	add	a0, a0, s0
	lbu	a0, 0(a0)
	#APP
	#NO_APP
	addi	a1, sp, 16
	amoswap.d.aqrl	zero, a0, (a1)
	#APP
	#NO_APP
.Lgcm_narrow_BB14_2:                               # %common.ret
	ld	ra, 1064(sp)                    # 8-byte Folded Reload
	ld	s0, 1056(sp)                    # 8-byte Folded Reload
	ld	s1, 1048(sp)                    # 8-byte Folded Reload
	addi	sp, sp, 1072
	ret
.Lgcm_narrow_func_end14:
	.size	gcm_narrow.aes_cipher.zeroize.stack.wipe_stack.1024, .Lgcm_narrow_func_end14-gcm_narrow.aes_cipher.zeroize.stack.wipe_stack.1024
                                        # -- End function
	.section	.text.gcm_narrow.gcm.mode.BorrowedGcm.hash_so_far,"ax",@progbits
	.p2align	1                               # -- Begin function gcm::mode::BorrowedGcm::hash_so_far::<#5079162aaf335e50>
	.type	gcm_narrow.gcm.mode.BorrowedGcm.hash_so_far,@function
gcm_narrow.gcm.mode.BorrowedGcm.hash_so_far: # @gcm_narrow.gcm.mode.BorrowedGcm.hash_so_far
# %bb.0:                                # %start
	addi	sp, sp, -128
	sd	ra, 120(sp)                     # 8-byte Folded Spill
	sd	s0, 112(sp)                     # 8-byte Folded Spill
	sd	s1, 104(sp)                     # 8-byte Folded Spill
	sd	s2, 96(sp)                      # 8-byte Folded Spill
	sd	s3, 88(sp)                      # 8-byte Folded Spill
	sd	s4, 80(sp)                      # 8-byte Folded Spill
	sd	s5, 72(sp)                      # 8-byte Folded Spill
	sd	s6, 64(sp)                      # 8-byte Folded Spill
	sd	s7, 56(sp)                      # 8-byte Folded Spill
	sd	s8, 48(sp)                      # 8-byte Folded Spill
	sd	s9, 40(sp)                      # 8-byte Folded Spill
	sd	s10, 32(sp)                     # 8-byte Folded Spill
	sd	s11, 24(sp)                     # 8-byte Folded Spill
	mv	a7, a1
	ld	a1, 24(a1)
	sd	a1, 8(sp)                       # 8-byte Folded Spill
	ld	a4, 48(a7)
	ld	a3, 56(a7)
	lui	t0, 4080
	li	a5, 255
	lui	t3, 16
	lbu	t2, 0(a0)
	lbu	s2, 1(a0)
	lbu	s4, 2(a0)
	lbu	t4, 3(a0)
	lbu	s9, 8(a0)
	lbu	s6, 9(a0)
	lbu	s7, 10(a0)
	lbu	s8, 11(a0)
	lbu	s10, 4(a0)
	lbu	t5, 5(a0)
	lbu	t6, 6(a0)
	lbu	a1, 7(a0)
	sd	a1, 16(sp)                      # 8-byte Folded Spill
	lbu	s11, 12(a0)
	lbu	s3, 13(a0)
	lbu	s5, 14(a0)
	lbu	t1, 15(a0)
	slli	ra, a5, 24
	addi	a0, t3, -256
	srli	s1, a3, 24
	srli	a5, a3, 8
	srli	s0, a3, 40
	srli	a2, a3, 56
	and	a1, a3, t0
	slli	s10, s10, 32
	slli	t4, t4, 24
	or	t3, t4, s10
	srliw	s10, a3, 24
	slli	s11, s11, 32
	slli	s8, s8, 24
	or	t4, s8, s11
	and	s8, a3, a0
	slli	s11, a3, 56
	and	s1, s1, t0
	and	a5, a5, ra
	or	a6, a5, s1
	srli	s1, a4, 24
	and	s0, s0, a0
	or	a5, s0, a2
	srli	a2, a4, 8
	slli	a1, a1, 24
	slli	s10, s10, 32
	or	a1, a1, s10
	srli	s10, a4, 40
	slli	s8, s8, 40
	or	s0, s11, s8
	srli	a3, a4, 56
	and	s1, s1, t0
	and	a2, a2, ra
	or	s8, a2, s1
	and	a2, a4, t0
	and	s1, s10, a0
	or	s10, s1, a3
	srliw	a3, a4, 24
	slli	a2, a2, 24
	slli	a3, a3, 32
	or	s11, a2, a3
	and	a2, a4, a0
	slli	a4, a4, 56
	slli	a2, a2, 40
	or	a3, a4, a2
	slli	s4, s4, 16
	slli	s2, s2, 8
	or	a2, s2, t2
	or	a2, a2, s4
	slli	s7, s7, 16
	slli	s6, s6, 8
	or	a4, s6, s9
	or	s1, a4, s7
	or	a6, a6, a5
	or	s2, s0, a1
	ld	a1, 8(sp)                       # 8-byte Folded Reload
	addi	a1, a1, -1
	snez	a1, a1
	slli	a1, a1, 3
	add	s4, a7, a1
	addi	a4, a7, 64
	slli	t6, t6, 48
	slli	t5, t5, 40
	slli	s5, s5, 48
	slli	s3, s3, 40
	slli	s9, s9, 56
	slli	t2, t2, 56
	or	a5, s8, s10
	or	a3, a3, s11
	or	s0, a2, t3
	or	a1, s1, t4
	and	t4, s1, a0
	and	a7, a2, a0
	ld	t3, 0(s4)
	or	a2, s2, a6
	or	a3, a3, a5
	or	a5, s0, t5
	or	s1, a1, s3
	srli	a6, a1, 8
	and	s3, a1, t0
	slli	t4, t4, 40
	srli	t5, s0, 8
	and	s2, s0, t0
	slli	a7, a7, 40
	or	s0, a5, t6
	or	a1, s1, s5
	and	a6, a6, ra
	srli	s1, s1, 24
	slli	s3, s3, 24
	or	t4, s9, t4
	and	t5, t5, ra
	srli	a5, a5, 24
	slli	s2, s2, 24
	or	a7, t2, a7
	and	s1, s1, t0
	srli	t2, a1, 40
	srliw	a1, a1, 24
	and	a5, a5, t0
	srli	t0, s0, 40
	srliw	s0, s0, 24
	or	a6, a6, s1
	and	s1, t2, a0
	slli	a1, a1, 32
	or	t2, t5, a5
	and	a0, t0, a0
	slli	t0, s0, 32
	andi	a5, t3, 15
	or	s1, s1, t1
	or	a1, s3, a1
	ld	s0, 16(sp)                      # 8-byte Folded Reload
	or	s0, s0, a0
	or	t0, s2, t0
	or	s1, a6, s1
	or	a0, t4, a1
	or	s0, t2, s0
	or	a1, a7, t0
	or	a0, a0, s1
	or	a1, a1, s0
	ld	ra, 120(sp)                     # 8-byte Folded Reload
	ld	s0, 112(sp)                     # 8-byte Folded Reload
	ld	s1, 104(sp)                     # 8-byte Folded Reload
	ld	s2, 96(sp)                      # 8-byte Folded Reload
	ld	s3, 88(sp)                      # 8-byte Folded Reload
	ld	s4, 80(sp)                      # 8-byte Folded Reload
	ld	s5, 72(sp)                      # 8-byte Folded Reload
	ld	s6, 64(sp)                      # 8-byte Folded Reload
	ld	s7, 56(sp)                      # 8-byte Folded Reload
	ld	s8, 48(sp)                      # 8-byte Folded Reload
	ld	s9, 40(sp)                      # 8-byte Folded Reload
	ld	s10, 32(sp)                     # 8-byte Folded Reload
	ld	s11, 24(sp)                     # 8-byte Folded Reload
	addi	sp, sp, 128
	tail	gcm_narrow.gcm.single_blocks.hash_singly.1
.Lgcm_narrow_func_end15:
	.size	gcm_narrow.gcm.mode.BorrowedGcm.hash_so_far, .Lgcm_narrow_func_end15-gcm_narrow.gcm.mode.BorrowedGcm.hash_so_far
                                        # -- End function
	.section	.text.gcm_narrow.gcm.mode.put_subkey,"ax",@progbits
	.p2align	1                               # -- Begin function gcm::mode::put_subkey::<#f0e9a353bb1559fc>
	.type	gcm_narrow.gcm.mode.put_subkey,@function
gcm_narrow.gcm.mode.put_subkey: # @gcm_narrow.gcm.mode.put_subkey
# %bb.0:                                # %start
	addi	sp, sp, -48
	sd	ra, 40(sp)                      # 8-byte Folded Spill
	sd	s0, 32(sp)                      # 8-byte Folded Spill
	sd	s1, 24(sp)                      # 8-byte Folded Spill
	mv	s0, a2
	sd	zero, 8(sp)
	sd	zero, 16(sp)
	addi	a2, sp, 8
	li	a3, 1
	call	gcm_narrow.aes_narrow.blocks.process_all_batches
	call	gcm_narrow.aes_cipher.zeroize.stack.wipe_stack.1024
	ld	a0, 16(sp)
	ld	a1, 8(sp)
	srli	a6, a0, 56
	srli	a7, a0, 48
	srli	t0, a0, 40
	srli	t1, a0, 32
	srli	t2, a0, 24
	srli	t3, a0, 16
	srli	t4, a0, 8
	srli	t5, a1, 56
	srli	t6, a1, 48
	srli	a3, a1, 40
	srli	a4, a1, 32
	srli	a5, a1, 24
	srli	a2, a1, 16
	srli	s1, a1, 8
	sb	a1, 0(s0)
	sb	s1, 1(s0)
	sb	a2, 2(s0)
	sb	a5, 3(s0)
	sb	a4, 4(s0)
	sb	a3, 5(s0)
	sb	t6, 6(s0)
	sb	t5, 7(s0)
	sb	a0, 8(s0)
	sb	t4, 9(s0)
	sb	t3, 10(s0)
	sb	t2, 11(s0)
	sb	t1, 12(s0)
	sb	t0, 13(s0)
	sb	a7, 14(s0)
	sb	a6, 15(s0)
	addi	a0, sp, 8
	call	gcm_narrow.aes_cipher.zeroize.elements.zeroize_elements.3
	ld	ra, 40(sp)                      # 8-byte Folded Reload
	ld	s0, 32(sp)                      # 8-byte Folded Reload
	ld	s1, 24(sp)                      # 8-byte Folded Reload
	addi	sp, sp, 48
	ret
.Lgcm_narrow_func_end16:
	.size	gcm_narrow.gcm.mode.put_subkey, .Lgcm_narrow_func_end16-gcm_narrow.gcm.mode.put_subkey
                                        # -- End function
	.section	.text.gcm_narrow.gcm.mode.BorrowedGcm.compare,"ax",@progbits
	.p2align	1                               # -- Begin function gcm::mode::BorrowedGcm::compare::<#5079162aaf335e50>
	.type	gcm_narrow.gcm.mode.BorrowedGcm.compare,@function
gcm_narrow.gcm.mode.BorrowedGcm.compare: # @gcm_narrow.gcm.mode.BorrowedGcm.compare
# %bb.0:                                # %start
	addi	sp, sp, -80
	sd	ra, 72(sp)                      # 8-byte Folded Spill
	sd	s0, 64(sp)                      # 8-byte Folded Spill
	sd	s1, 56(sp)                      # 8-byte Folded Spill
	sd	s2, 48(sp)                      # 8-byte Folded Spill
	sd	s3, 40(sp)                      # 8-byte Folded Spill
	sd	s4, 32(sp)                      # 8-byte Folded Spill
	sd	s5, 24(sp)                      # 8-byte Folded Spill
	sd	s6, 16(sp)                      # 8-byte Folded Spill
	mv	t0, a0
	li	a0, -1
	slli	a0, a0, 61
	add	s1, a2, a0
	addi	s0, a0, 1
	li	a0, 1
	bltu	s1, s0, .Lgcm_narrow_BB17_4
# %bb.1:                                # %else.7
	srli	s1, a4, 61
	bnez	s1, .Lgcm_narrow_BB17_4
# %bb.2:                                # %else.7
	li	s1, 1
	slli	s1, s1, 36
	addi	s1, s1, -32
	bltu	s1, a6, .Lgcm_narrow_BB17_4
# %bb.3:                                # %after.1
	mv	s0, t0
	mv	a0, t0
	mv	s5, a3
	mv	a3, t3
	mv	s2, a7
	mv	s3, a6
	mv	s4, a5
	mv	s1, t3
	mv	s6, a4
	call	gcm_narrow.gcm.mode.BorrowedGcm.put_pre_counter
	mv	a6, sp
	mv	a0, s0
	mv	a1, s1
	mv	a2, s5
	mv	a3, s6
	mv	a4, s4
	mv	a5, s3
	call	gcm_narrow.gcm.mode.BorrowedGcm.put_tag
	mv	a1, sp
	mv	a0, s2
	call	gcm_narrow.aes_cipher.blocks.difference
	slli	a0, a0, 32
	srli	a0, a0, 32
	snez	s0, a0
	mv	a0, sp
	call	gcm_narrow.aes_cipher.zeroize.elements.zeroize_elements.3
	mv	a0, s0
.Lgcm_narrow_BB17_4:                               # %return.13
	ld	ra, 72(sp)                      # 8-byte Folded Reload
	ld	s0, 64(sp)                      # 8-byte Folded Reload
	ld	s1, 56(sp)                      # 8-byte Folded Reload
	ld	s2, 48(sp)                      # 8-byte Folded Reload
	ld	s3, 40(sp)                      # 8-byte Folded Reload
	ld	s4, 32(sp)                      # 8-byte Folded Reload
	ld	s5, 24(sp)                      # 8-byte Folded Reload
	ld	s6, 16(sp)                      # 8-byte Folded Reload
	addi	sp, sp, 80
	ret
.Lgcm_narrow_func_end17:
	.size	gcm_narrow.gcm.mode.BorrowedGcm.compare, .Lgcm_narrow_func_end17-gcm_narrow.gcm.mode.BorrowedGcm.compare
                                        # -- End function
	.section	.text.gcm_narrow.gcm.mode.BorrowedGcm.put_tag,"ax",@progbits
	.p2align	1                               # -- Begin function gcm::mode::BorrowedGcm::put_tag::<#5079162aaf335e50>
	.type	gcm_narrow.gcm.mode.BorrowedGcm.put_tag,@function
gcm_narrow.gcm.mode.BorrowedGcm.put_tag: # @gcm_narrow.gcm.mode.BorrowedGcm.put_tag
# %bb.0:                                # %start
	addi	sp, sp, -192
	sd	ra, 184(sp)                     # 8-byte Folded Spill
	sd	s0, 176(sp)                     # 8-byte Folded Spill
	sd	s1, 168(sp)                     # 8-byte Folded Spill
	sd	s2, 160(sp)                     # 8-byte Folded Spill
	sd	s3, 152(sp)                     # 8-byte Folded Spill
	sd	s4, 144(sp)                     # 8-byte Folded Spill
	sd	s5, 136(sp)                     # 8-byte Folded Spill
	sd	s6, 128(sp)                     # 8-byte Folded Spill
	sd	s7, 120(sp)                     # 8-byte Folded Spill
	sd	s8, 112(sp)                     # 8-byte Folded Spill
	sd	s9, 104(sp)                     # 8-byte Folded Spill
	sd	s10, 96(sp)                     # 8-byte Folded Spill
	sd	s11, 88(sp)                     # 8-byte Folded Spill
	mv	s0, a6
	mv	s5, a5
	sd	a4, 80(sp)                      # 8-byte Folded Spill
	mv	s9, a3
	mv	s7, a2
	mv	s1, a0
	li	a2, 16
	mv	a0, a6
	la	t1, memmove
	jalr	t1
	lbu	a0, 0(s1)
	lbu	a1, 1(s1)
	lbu	a2, 2(s1)
	lbu	a3, 3(s1)
	lbu	a6, 4(s1)
	lbu	a7, 5(s1)
	lbu	a4, 6(s1)
	lbu	a5, 7(s1)
	slli	a1, a1, 8
	slli	a2, a2, 16
	slli	a3, a3, 24
	or	t0, a1, a0
	or	t1, a3, a2
	lbu	a1, 8(s1)
	lbu	a3, 9(s1)
	lbu	a0, 10(s1)
	lbu	a2, 11(s1)
	slli	a7, a7, 8
	slli	a4, a4, 16
	slli	a5, a5, 24
	slli	a3, a3, 8
	slli	a0, a0, 16
	slli	a2, a2, 24
	or	a6, a7, a6
	or	a4, a4, a5
	or	a7, a3, a1
	or	a0, a0, a2
	lbu	a2, 13(s1)
	lbu	a3, 12(s1)
	lbu	a5, 14(s1)
	lbu	a1, 15(s1)
	slli	a2, a2, 8
	or	a2, a2, a3
	slli	a5, a5, 16
	slli	a1, a1, 24
	or	a1, a1, a5
	or	a3, t1, t0
	or	a4, a4, a6
	or	a5, a0, a7
	or	a1, a1, a2
	slli	a0, a4, 32
	slli	a1, a1, 32
	or	a0, a0, a3
	or	a1, a1, a5
	li	a3, 1
	mv	a2, s0
	call	gcm_narrow.aes_narrow.blocks.process_all_batches
	call	gcm_narrow.aes_cipher.zeroize.stack.wipe_stack.1024
	ld	a1, 16(s1)
	li	s4, 255
	lbu	a7, 0(a1)
	lbu	t2, 1(a1)
	lbu	t5, 2(a1)
	lbu	a3, 3(a1)
	lbu	a0, 8(a1)
	lbu	t0, 9(a1)
	lbu	t1, 10(a1)
	lbu	s1, 11(a1)
	lbu	a2, 4(a1)
	lbu	t3, 5(a1)
	lbu	a4, 6(a1)
	lbu	a6, 7(a1)
	slli	a2, a2, 32
	slli	a3, a3, 24
	or	t4, a3, a2
	lbu	a2, 12(a1)
	lbu	a3, 13(a1)
	lbu	a5, 14(a1)
	lbu	t6, 15(a1)
	slli	a2, a2, 32
	slli	s1, s1, 24
	or	s2, s1, a2
	lui	s1, 16
	slli	t5, t5, 16
	slli	t2, t2, 8
	or	a1, t2, a7
	or	a1, a1, t5
	slli	s4, s4, 24
	addi	s3, s1, -256
	slli	t2, a4, 48
	slli	t3, t3, 40
	slli	t5, a5, 48
	slli	s6, a3, 40
	slli	t1, t1, 16
	slli	t0, t0, 8
	or	a4, t0, a0
	slli	t0, a0, 56
	slli	a7, a7, 56
	or	a4, a4, t1
	or	a2, a1, t4
	or	a5, a4, s2
	and	a4, a4, s3
	and	a1, a1, s3
	or	a3, a2, t3
	or	a0, a5, s6
	srli	s2, a5, 8
	lui	t4, 4080
	and	t1, a5, t4
	slli	a4, a4, 40
	or	t0, t0, a4
	srli	s1, a2, 8
	and	a2, a2, t4
	slli	t3, a1, 40
	or	a5, a3, t2
	or	a1, a0, t5
	sd	s4, 56(sp)                      # 8-byte Folded Spill
	and	t5, s2, s4
	srli	a0, a0, 24
	slli	t1, t1, 24
	and	s2, s1, s4
	srli	a3, a3, 24
	slli	t2, a2, 24
	or	a7, a7, t3
	and	a0, a0, t4
	srli	a2, a1, 40
	srliw	a1, a1, 24
	and	a3, a3, t4
	or	a0, t5, a0
	srli	s1, a5, 40
	srliw	a5, a5, 24
	and	a2, a2, s3
	slli	a1, a1, 32
	or	a3, s2, a3
	and	a4, s1, s3
	slli	a5, a5, 32
	or	a2, a2, t6
	or	a1, t1, a1
	or	a4, a4, a6
	or	a5, t2, a5
	or	a0, a0, a2
	or	a1, t0, a1
	or	a3, a3, a4
	or	a2, a7, a5
	or	s6, a1, a0
	or	s1, a2, a3
	mv	a0, s6
	sd	s6, 72(sp)                      # 8-byte Folded Spill
	mv	a1, s1
	sd	s1, 64(sp)                      # 8-byte Folded Spill
	li	a2, 0
	li	a3, 0
	mv	a4, s7
	mv	a5, s9
	call	gcm_narrow.gcm.single_blocks.hash_singly.1
	mv	a2, a0
	mv	a3, a1
	srli	s8, s9, 53
	slli	s7, s9, 59
	slli	s4, s9, 43
	slli	a0, s9, 27
	sd	a0, 16(sp)                      # 8-byte Folded Spill
	slli	a0, s9, 11
	sd	a0, 48(sp)                      # 8-byte Folded Spill
	srli	a0, s5, 53
	sd	a0, 32(sp)                      # 8-byte Folded Spill
	slli	a1, s5, 59
	sd	a1, 24(sp)                      # 8-byte Folded Spill
	slli	s2, s5, 43
	slli	s10, s5, 27
	zext.b	s11, s8
	zext.b	a0, a0
	sd	a0, 8(sp)                       # 8-byte Folded Spill
	slli	a0, s5, 11
	sd	a0, 40(sp)                      # 8-byte Folded Spill
	mv	a0, s6
	mv	a1, s1
	ld	a4, 80(sp)                      # 8-byte Folded Reload
	mv	a5, s5
	call	gcm_narrow.gcm.single_blocks.hash_singly.1
	li	a5, 255
	slli	a3, a5, 48
	slli	a5, a5, 40
	li	ra, 255
	slli	ra, ra, 32
	srli	t0, s9, 5
	srli	t1, s9, 21
	srli	t2, s9, 37
	or	a7, s11, s7
	and	a6, s4, a3
	and	t3, s2, a3
	srli	t4, s5, 5
	ld	a2, 16(sp)                      # 8-byte Folded Reload
	and	s11, a2, a5
	and	s9, s10, a5
	srli	t5, s5, 21
	srli	s4, s5, 37
	ld	a2, 24(sp)                      # 8-byte Folded Reload
	ld	a3, 8(sp)                       # 8-byte Folded Reload
	or	s2, a3, a2
	srli	t6, s7, 56
	slli	s8, s8, 56
	srli	s6, a2, 56
	ld	s5, 32(sp)                      # 8-byte Folded Reload
	slli	s5, s5, 56
	ld	a2, 48(sp)                      # 8-byte Folded Reload
	and	a5, a2, ra
	ld	a2, 56(sp)                      # 8-byte Folded Reload
	and	t0, t0, a2
	lui	s1, 4080
	and	s7, t1, s1
	and	a3, t2, s3
	ld	a4, 40(sp)                      # 8-byte Folded Reload
	and	a4, a4, ra
	and	t1, t4, a2
	and	s1, t5, s1
	lui	s10, 4080
	and	a2, s4, s3
	or	a7, a7, a5
	or	a6, s11, a6
	or	t2, a3, s7
	or	t4, s2, a4
	or	t5, s9, t3
	or	t3, a2, s1
	srli	s2, s11, 24
	srli	a5, a5, 8
	srli	a2, s9, 24
	srli	a4, a4, 8
	or	a3, a7, a6
	or	s1, t4, t5
	or	a7, a5, s2
	or	a6, a4, a2
	or	a4, a3, t2
	or	a2, s1, t3
	srli	a3, a3, 40
	srli	t2, s1, 40
	or	a5, a4, t0
	or	s1, a2, t1
	and	a3, a3, s3
	and	a4, a4, s3
	and	t0, t2, s3
	and	a2, a2, s3
	or	a3, a3, t6
	srliw	t1, a5, 24
	and	a5, a5, s10
	slli	a4, a4, 40
	or	t0, t0, s6
	srliw	t2, s1, 24
	and	s1, s1, s10
	slli	a2, a2, 40
	or	a7, a7, a3
	slli	t1, t1, 32
	slli	a5, a5, 24
	or	a4, s8, a4
	or	a3, a6, t0
	slli	t2, t2, 32
	slli	s1, s1, 24
	or	a2, s5, a2
	or	a5, a5, t1
	or	a4, a4, a7
	or	s1, s1, t2
	or	a2, a2, a3
	or	a4, a4, a5
	or	a2, a2, s1
	xor	a0, a0, a2
	xor	a1, a1, a4
	ld	a2, 72(sp)                      # 8-byte Folded Reload
	ld	a3, 64(sp)                      # 8-byte Folded Reload
	call	gcm_narrow.gcm.bitwise.product_bitwise
	srli	a6, a1, 16
	srli	a7, a1, 8
	srli	t0, a0, 56
	srli	t1, a0, 48
	srli	t2, a0, 40
	srli	t3, a0, 32
	lbu	t4, 12(s0)
	lbu	t5, 13(s0)
	lbu	a5, 14(s0)
	lbu	s1, 15(s0)
	srli	a2, a0, 24
	srli	a3, a0, 16
	srli	a4, a0, 8
	xor	t6, s1, a0
	lbu	s2, 8(s0)
	lbu	s3, 9(s0)
	lbu	s1, 10(s0)
	lbu	a0, 11(s0)
	xor	s4, a5, a4
	xor	t5, t5, a3
	xor	t4, t4, a2
	xor	t3, a0, t3
	lbu	a5, 4(s0)
	lbu	a4, 5(s0)
	lbu	a3, 6(s0)
	lbu	s5, 7(s0)
	xor	t2, s1, t2
	xor	t1, s3, t1
	xor	t0, s2, t0
	xor	a7, a3, a7
	lbu	a0, 0(s0)
	lbu	s1, 1(s0)
	lbu	a3, 2(s0)
	lbu	a2, 3(s0)
	xor	a6, a4, a6
	srli	a4, a1, 24
	xor	a4, a4, a5
	srli	a5, a1, 32
	xor	a2, a2, a5
	srli	a5, a1, 40
	xor	a3, a3, a5
	srli	a5, a1, 48
	xor	a5, a5, s1
	xor	s1, s5, a1
	srli	a1, a1, 56
	xor	a0, a0, a1
	sb	a0, 0(s0)
	sb	a5, 1(s0)
	sb	a3, 2(s0)
	sb	a2, 3(s0)
	sb	a4, 4(s0)
	sb	a6, 5(s0)
	sb	a7, 6(s0)
	sb	s1, 7(s0)
	sb	t0, 8(s0)
	sb	t1, 9(s0)
	sb	t2, 10(s0)
	sb	t3, 11(s0)
	sb	t4, 12(s0)
	sb	t5, 13(s0)
	sb	s4, 14(s0)
	sb	t6, 15(s0)
	ld	ra, 184(sp)                     # 8-byte Folded Reload
	ld	s0, 176(sp)                     # 8-byte Folded Reload
	ld	s1, 168(sp)                     # 8-byte Folded Reload
	ld	s2, 160(sp)                     # 8-byte Folded Reload
	ld	s3, 152(sp)                     # 8-byte Folded Reload
	ld	s4, 144(sp)                     # 8-byte Folded Reload
	ld	s5, 136(sp)                     # 8-byte Folded Reload
	ld	s6, 128(sp)                     # 8-byte Folded Reload
	ld	s7, 120(sp)                     # 8-byte Folded Reload
	ld	s8, 112(sp)                     # 8-byte Folded Reload
	ld	s9, 104(sp)                     # 8-byte Folded Reload
	ld	s10, 96(sp)                     # 8-byte Folded Reload
	ld	s11, 88(sp)                     # 8-byte Folded Reload
	addi	sp, sp, 192
	ret
.Lgcm_narrow_func_end18:
	.size	gcm_narrow.gcm.mode.BorrowedGcm.put_tag, .Lgcm_narrow_func_end18-gcm_narrow.gcm.mode.BorrowedGcm.put_tag
                                        # -- End function
	.section	.text.gcm_narrow.aes_cipher.blocks.difference,"ax",@progbits
	.p2align	1                               # -- Begin function aes_cipher::blocks::difference
	.type	gcm_narrow.aes_cipher.blocks.difference,@function
gcm_narrow.aes_cipher.blocks.difference:       # @gcm_narrow.aes_cipher.blocks.difference
# %bb.0:                                # %start
	addi	sp, sp, -64
	sd	s0, 56(sp)                      # 8-byte Folded Spill
	sd	s1, 48(sp)                      # 8-byte Folded Spill
	sd	s2, 40(sp)                      # 8-byte Folded Spill
	sd	s3, 32(sp)                      # 8-byte Folded Spill
	sd	s4, 24(sp)                      # 8-byte Folded Spill
	sd	s5, 16(sp)                      # 8-byte Folded Spill
	sd	s6, 8(sp)                       # 8-byte Folded Spill
	lbu	t3, 0(a0)
	lbu	t6, 1(a0)
	lbu	a6, 2(a0)
	lbu	a7, 3(a0)
	lbu	a4, 0(a1)
	lbu	a5, 1(a1)
	lbu	t0, 2(a1)
	lbu	t1, 3(a1)
	lbu	t2, 4(a0)
	lbu	t5, 5(a0)
	lbu	t4, 6(a0)
	lbu	s2, 7(a0)
	lbu	a3, 4(a1)
	lbu	s0, 5(a1)
	lbu	s1, 6(a1)
	lbu	s6, 7(a1)
	xor	t3, a4, t3
	xor	t6, a5, t6
	lbu	a4, 8(a0)
	lbu	s3, 9(a0)
	lbu	s4, 10(a0)
	lbu	s5, 11(a0)
	xor	a6, t0, a6
	xor	a7, t1, a7
	xor	t0, a3, t2
	xor	t1, s0, t5
	lbu	a3, 8(a1)
	lbu	s0, 9(a1)
	lbu	a5, 10(a1)
	lbu	a2, 11(a1)
	xor	t2, s1, t4
	xor	t4, s6, s2
	xor	t5, a3, a4
	lbu	s2, 12(a0)
	lbu	s1, 13(a0)
	lbu	a3, 14(a0)
	lbu	a0, 15(a0)
	xor	s6, s0, s3
	xor	s3, a5, s4
	xor	a2, a2, s5
	lbu	a4, 12(a1)
	lbu	a5, 13(a1)
	lbu	s0, 14(a1)
	lbu	a1, 15(a1)
	xor	a4, a4, s2
	xor	a5, a5, s1
	xor	a3, a3, s0
	xor	s2, a1, a0
	or	a1, t6, t3
	or	s1, a7, a6
	or	s0, t1, t0
	or	a0, t5, t4
	or	a2, a2, a4
	or	a1, a1, s1
	or	a4, t2, s0
	or	a0, s6, a0
	or	a2, a2, a5
	or	a1, a1, a4
	or	a0, s3, a0
	or	a2, a2, a3
	or	a0, a0, a1
	or	a1, s2, a2
	or	a0, a0, a1
	ld	s0, 56(sp)                      # 8-byte Folded Reload
	ld	s1, 48(sp)                      # 8-byte Folded Reload
	ld	s2, 40(sp)                      # 8-byte Folded Reload
	ld	s3, 32(sp)                      # 8-byte Folded Reload
	ld	s4, 24(sp)                      # 8-byte Folded Reload
	ld	s5, 16(sp)                      # 8-byte Folded Reload
	ld	s6, 8(sp)                       # 8-byte Folded Reload
	addi	sp, sp, 64
	ret
.Lgcm_narrow_func_end19:
	.size	gcm_narrow.aes_cipher.blocks.difference, .Lgcm_narrow_func_end19-gcm_narrow.aes_cipher.blocks.difference
                                        # -- End function
	.section	.text.gcm_narrow.gcm.gctr.add_gctr,"ax",@progbits
	.p2align	1                               # -- Begin function gcm::gctr::add_gctr::<#eff9b1c08cfc449f>
	.type	gcm_narrow.gcm.gctr.add_gctr,@function
gcm_narrow.gcm.gctr.add_gctr: # @gcm_narrow.gcm.gctr.add_gctr
# %bb.0:                                # %start
	beqz	a4, .Lgcm_narrow_BB20_13
# %bb.1:                                # %then.1
	addi	sp, sp, -176
	sd	ra, 168(sp)                     # 8-byte Folded Spill
	sd	s0, 160(sp)                     # 8-byte Folded Spill
	sd	s1, 152(sp)                     # 8-byte Folded Spill
	sd	s2, 144(sp)                     # 8-byte Folded Spill
	sd	s3, 136(sp)                     # 8-byte Folded Spill
	sd	s4, 128(sp)                     # 8-byte Folded Spill
	sd	s5, 120(sp)                     # 8-byte Folded Spill
	sd	s6, 112(sp)                     # 8-byte Folded Spill
	sd	s7, 104(sp)                     # 8-byte Folded Spill
	sd	s8, 96(sp)                      # 8-byte Folded Spill
	sd	s9, 88(sp)                      # 8-byte Folded Spill
	sd	s10, 80(sp)                     # 8-byte Folded Spill
	sd	s11, 72(sp)                     # 8-byte Folded Spill
	lbu	a6, 8(a1)
	lbu	a7, 9(a1)
	lbu	t0, 10(a1)
	lbu	a5, 11(a1)
	lbu	s1, 12(a1)
	lbu	s0, 13(a1)
	lbu	t1, 14(a1)
	lbu	t2, 15(a1)
	slli	a7, a7, 8
	slli	t0, t0, 16
	slli	a5, a5, 24
	slli	s0, s0, 8
	or	a6, a7, a6
	or	a7, a5, t0
	or	t0, s0, s1
	lbu	t3, 0(a1)
	lbu	a5, 1(a1)
	lbu	s0, 2(a1)
	lbu	s1, 3(a1)
	slli	t1, t1, 16
	slli	t2, t2, 24
	slli	a5, a5, 8
	slli	s0, s0, 16
	slli	s1, s1, 24
	or	t1, t2, t1
	or	t2, a5, t3
	or	t3, s1, s0
	lbu	s1, 5(a1)
	lbu	a5, 4(a1)
	lbu	s0, 6(a1)
	lbu	a1, 7(a1)
	slli	s1, s1, 8
	or	a5, a5, s1
	slli	s0, s0, 16
	slli	a1, a1, 24
	or	a1, a1, s0
	or	s1, a7, a6
	or	s0, t1, t0
	or	a6, t3, t2
	or	a1, a1, a5
	andi	s4, a2, 15
	slli	s0, s0, 32
	or	s0, s0, s1
	li	a5, 16
	sub	a5, a5, s4
	slli	a1, a1, 32
	or	a1, a1, a6
	sd	a1, 24(sp)
	sd	s0, 32(sp)
	bgeu	a5, a4, .Lgcm_narrow_BB20_3
# %bb.2:                                # %else.2.i
	addi	a6, sp, 24
	lbu	a7, 0(a0)
	lbu	t0, 1(a0)
	lbu	s0, 2(a0)
	lbu	a1, 3(a0)
	lbu	a5, 4(a0)
	lbu	s1, 5(a0)
	lbu	t1, 6(a0)
	lbu	t2, 7(a0)
	sd	a6, 40(sp)
	sd	a2, 48(sp)
	sd	a3, 56(sp)
	sd	a4, 64(sp)
	slli	t0, t0, 8
	slli	s0, s0, 16
	slli	a1, a1, 24
	slli	s1, s1, 8
	or	a6, t0, a7
	or	a7, a1, s0
	or	a5, a5, s1
	lbu	a3, 8(a0)
	lbu	a4, 9(a0)
	lbu	s1, 10(a0)
	lbu	s0, 11(a0)
	slli	t1, t1, 16
	slli	t2, t2, 24
	slli	a4, a4, 8
	slli	s1, s1, 16
	slli	s0, s0, 24
	or	a2, t2, t1
	or	a3, a3, a4
	or	s0, s0, s1
	lbu	a4, 13(a0)
	lbu	s1, 12(a0)
	lbu	a1, 14(a0)
	lbu	a0, 15(a0)
	slli	a4, a4, 8
	or	a4, a4, s1
	slli	a1, a1, 16
	slli	a0, a0, 24
	or	a0, a0, a1
	or	a1, a7, a6
	or	a2, a2, a5
	or	a3, a3, s0
	or	a0, a0, a4
	slli	a2, a2, 32
	slli	a4, a0, 32
	or	a0, a2, a1
	or	a1, a4, a3
	addi	a2, sp, 40
	call	gcm_narrow.aes_narrow.borrowed_words.call_to_encrypt.1
	call	gcm_narrow.aes_cipher.zeroize.stack.wipe_stack.2032
	j	.Lgcm_narrow_BB20_12
.Lgcm_narrow_BB20_3:                               # %then.1.i
	sd	a4, 16(sp)                      # 8-byte Folded Spill
	sd	a3, 8(sp)                       # 8-byte Folded Spill
	lbu	t0, 0(a0)
	lbu	t4, 1(a0)
	lbu	t5, 2(a0)
	lbu	t6, 3(a0)
	lbu	t1, 4(a0)
	lbu	s5, 5(a0)
	lbu	s6, 6(a0)
	lbu	s7, 7(a0)
	lbu	t2, 8(a0)
	lbu	s8, 9(a0)
	lbu	a3, 10(a0)
	lbu	a4, 11(a0)
	lbu	t3, 12(a0)
	lbu	a5, 13(a0)
	lbu	s0, 14(a0)
	lbu	a1, 15(a0)
	srli	a6, a2, 4
	ld	s1, 24(sp)
	ld	a0, 32(sp)
	lui	a2, 16
	lui	a7, 4080
	addi	a2, a2, -256
	slli	t4, t4, 8
	slli	t5, t5, 16
	slli	t6, t6, 24
	slli	s5, s5, 8
	slli	s6, s6, 16
	slli	s7, s7, 24
	slli	s8, s8, 8
	slli	a3, a3, 16
	slli	a4, a4, 24
	slli	a5, a5, 8
	slli	s11, s0, 16
	slli	ra, a1, 24
	srli	s10, a0, 40
	srli	s9, a0, 56
	srli	s0, a0, 24
	srli	a1, a0, 8
	and	s2, a0, a7
	srliw	s3, a0, 24
	or	t0, t4, t0
	and	t4, a0, a2
	or	t5, t6, t5
	slli	t6, a0, 56
	or	t1, s5, t1
	srli	s5, s1, 56
	or	s6, s7, s6
	srli	s7, s1, 48
	or	t2, s8, t2
	srli	s8, s1, 40
	or	a3, a3, a4
	srli	a4, s1, 32
	or	t3, a5, t3
	srli	a5, s1, 24
	or	s11, ra, s11
	srli	ra, s1, 16
	and	s10, s10, a2
	srli	a2, s1, 8
	sb	s1, 40(sp)
	sb	a2, 41(sp)
	sb	ra, 42(sp)
	sb	a5, 43(sp)
	srli	a2, a0, 16
	and	a7, s0, a7
	sb	a4, 44(sp)
	sb	s8, 45(sp)
	sb	s7, 46(sp)
	sb	s5, 47(sp)
	srliw	a4, a1, 24
	slli	s2, s2, 24
	slli	s3, s3, 32
	slli	t4, t4, 40
	sb	a0, 48(sp)
	sb	a1, 49(sp)
	sb	a2, 50(sp)
	sb	s0, 51(sp)
	or	a0, t5, t0
	or	a1, s6, t1
	or	a2, a3, t2
	or	a3, s11, t3
	or	s1, s10, s9
	slli	a4, a4, 24
	or	s0, s2, s3
	or	a5, t6, t4
	slli	a1, a1, 32
	slli	a3, a3, 32
	or	a4, a4, a7
	or	a5, a5, s0
	or	a0, a0, a1
	or	a1, a3, a2
	or	a4, a4, s1
	or	a4, a4, a5
	add	a4, a4, a6
	srli	a2, a4, 8
	srli	a3, a4, 16
	srli	a5, a4, 24
	sb	a5, 52(sp)
	sb	a3, 53(sp)
	sb	a2, 54(sp)
	sb	a4, 55(sp)
	addi	a2, sp, 40
	li	a3, 1
	addi	s1, sp, 40
	call	gcm_narrow.aes_narrow.blocks.process_all_batches
	call	gcm_narrow.aes_cipher.zeroize.stack.wipe_stack.1024
	beqz	s4, .Lgcm_narrow_BB20_14
# %bb.4:                                # %then.1.i.i.i
	add	a0, s1, s4
	ld	a6, 8(sp)                       # 8-byte Folded Reload
	ld	s2, 16(sp)                      # 8-byte Folded Reload
	add	a1, a6, s2
	mv	a2, a6
.Lgcm_narrow_BB20_5:                               # %join.8.i68.i.i
                                        # =>This Inner Loop Header: Depth=1
	lbu	a3, 0(a0)
	lbu	a4, 0(a2)
	xor	a3, a3, a4
	sb	a3, 0(a2)
	addi	a2, a2, 1
	addi	a0, a0, 1
	bne	a2, a1, .Lgcm_narrow_BB20_5
# %bb.6:
	mv	a1, s2
	sub	s8, s2, s2
	li	a2, 16
	bltu	s8, a2, .Lgcm_narrow_BB20_8
.Lgcm_narrow_BB20_7:                               # %join.8.i.i.i
                                        # =>This Inner Loop Header: Depth=1
	add	a3, s4, a1
	addi	a7, sp, 40
	add	a2, a6, a1
	andi	a3, a3, -16
	lbu	t3, 8(a2)
	lbu	t1, 9(a2)
	lbu	t2, 10(a2)
	lbu	t0, 11(a2)
	lbu	s3, 4(a2)
	lbu	t5, 5(a2)
	lbu	t6, 6(a2)
	lbu	t4, 7(a2)
	lbu	a5, 0(a2)
	lbu	s6, 1(a2)
	lbu	s7, 2(a2)
	lbu	s5, 3(a2)
	add	a3, a3, a7
	lbu	a4, 0(a3)
	lbu	s10, 1(a3)
	lbu	s1, 2(a3)
	lbu	s9, 3(a3)
	xor	a7, a4, a5
	lbu	a5, 4(a3)
	lbu	a4, 5(a3)
	lbu	a0, 6(a3)
	lbu	s0, 7(a3)
	xor	s6, s10, s6
	xor	s7, s1, s7
	xor	s5, s9, s5
	xor	s3, a5, s3
	lbu	s1, 8(a3)
	lbu	a5, 9(a3)
	lbu	s9, 10(a3)
	lbu	s10, 11(a3)
	xor	s11, a4, t5
	xor	t5, a0, t6
	xor	t4, s0, t4
	xor	t3, s1, t3
	lbu	ra, 12(a2)
	lbu	a4, 13(a2)
	lbu	s0, 14(a2)
	lbu	s1, 15(a2)
	xor	t6, a5, t1
	xor	t1, s9, t2
	xor	t0, s10, t0
	lbu	a5, 12(a3)
	lbu	a0, 13(a3)
	lbu	t2, 14(a3)
	lbu	a3, 15(a3)
	xor	a5, a5, ra
	xor	a0, a0, a4
	xor	a4, t2, s0
	xor	a3, a3, s1
	sb	a5, 12(a2)
	sb	a0, 13(a2)
	sb	a4, 14(a2)
	sb	a3, 15(a2)
	sb	t3, 8(a2)
	sb	t6, 9(a2)
	sb	t1, 10(a2)
	sb	t0, 11(a2)
	sb	s3, 4(a2)
	sb	s11, 5(a2)
	sb	t5, 6(a2)
	sb	t4, 7(a2)
	sb	a7, 0(a2)
	sb	s6, 1(a2)
	sb	s7, 2(a2)
	sb	s5, 3(a2)
	addi	s8, s8, -16
	li	a0, 15
	addi	a1, a1, 16
	bltu	a0, s8, .Lgcm_narrow_BB20_7
.Lgcm_narrow_BB20_8:                               # %after.4.i.i.i
	bgeu	a1, s2, .Lgcm_narrow_BB20_12
# %bb.9:                                # %then.9.i.i.i
	beqz	s8, .Lgcm_narrow_BB20_12
# %bb.10:                               # %join.8.i11.i.i.preheader
	add	s4, s4, a1
	addi	a0, sp, 40
	add	s1, a1, s8
	add	a1, a1, a6
	andi	a2, s4, -16
	add	a0, a0, a2
	add	s1, s1, a6
.Lgcm_narrow_BB20_11:                              # %join.8.i11.i.i
                                        # =>This Inner Loop Header: Depth=1
	lbu	a2, 0(a0)
	lbu	a3, 0(a1)
	xor	a2, a2, a3
	sb	a2, 0(a1)
	addi	a1, a1, 1
	addi	a0, a0, 1
	bne	a1, s1, .Lgcm_narrow_BB20_11
.Lgcm_narrow_BB20_12:                              # %"aes_ctr::add_in_batches::add_stream::<#aea96bccc51a1938>.exit"
	ld	ra, 168(sp)                     # 8-byte Folded Reload
	ld	s0, 160(sp)                     # 8-byte Folded Reload
	ld	s1, 152(sp)                     # 8-byte Folded Reload
	ld	s2, 144(sp)                     # 8-byte Folded Reload
	ld	s3, 136(sp)                     # 8-byte Folded Reload
	ld	s4, 128(sp)                     # 8-byte Folded Reload
	ld	s5, 120(sp)                     # 8-byte Folded Reload
	ld	s6, 112(sp)                     # 8-byte Folded Reload
	ld	s7, 104(sp)                     # 8-byte Folded Reload
	ld	s8, 96(sp)                      # 8-byte Folded Reload
	ld	s9, 88(sp)                      # 8-byte Folded Reload
	ld	s10, 80(sp)                     # 8-byte Folded Reload
	ld	s11, 72(sp)                     # 8-byte Folded Reload
	addi	sp, sp, 176
.Lgcm_narrow_BB20_13:                              # %join.3
	ret
.Lgcm_narrow_BB20_14:
	li	a1, 0
	ld	a6, 8(sp)                       # 8-byte Folded Reload
	ld	s2, 16(sp)                      # 8-byte Folded Reload
	mv	s8, s2
	li	a2, 16
	bgeu	s2, a2, .Lgcm_narrow_BB20_7
	j	.Lgcm_narrow_BB20_8
.Lgcm_narrow_func_end20:
	.size	gcm_narrow.gcm.gctr.add_gctr, .Lgcm_narrow_func_end20-gcm_narrow.gcm.gctr.add_gctr
                                        # -- End function
	.section	.text.gcm_narrow.aes_narrow.borrowed_words.call_to_encrypt.1,"ax",@progbits
	.p2align	1                               # -- Begin function aes_narrow::borrowed_words::call_to_encrypt::<#0ed6f19b497d4e5b>
	.type	gcm_narrow.aes_narrow.borrowed_words.call_to_encrypt.1,@function
gcm_narrow.aes_narrow.borrowed_words.call_to_encrypt.1: # @gcm_narrow.aes_narrow.borrowed_words.call_to_encrypt.1
# %bb.0:                                # %start
	addi	sp, sp, -400
	sd	ra, 392(sp)                     # 8-byte Folded Spill
	sd	s0, 384(sp)                     # 8-byte Folded Spill
	sd	s1, 376(sp)                     # 8-byte Folded Spill
	sd	s2, 368(sp)                     # 8-byte Folded Spill
	sd	s3, 360(sp)                     # 8-byte Folded Spill
	sd	s4, 352(sp)                     # 8-byte Folded Spill
	sd	s5, 344(sp)                     # 8-byte Folded Spill
	sd	s6, 336(sp)                     # 8-byte Folded Spill
	sd	s7, 328(sp)                     # 8-byte Folded Spill
	sd	s8, 320(sp)                     # 8-byte Folded Spill
	sd	s9, 312(sp)                     # 8-byte Folded Spill
	sd	s10, 304(sp)                    # 8-byte Folded Spill
	sd	s11, 296(sp)                    # 8-byte Folded Spill
	mv	s4, a1
	mv	s3, a0
	ld	s1, 8(a2)
	ld	s11, 0(a2)
	ld	s0, 16(a2)
	ld	s7, 24(a2)
	andi	a0, s1, 15
	sd	s3, 24(sp)
	sd	a1, 32(sp)
	beqz	a0, .Lgcm_narrow_BB21_5
# %bb.1:                                # %then.1.i.i
	addi	a0, sp, 24
	mv	a1, s11
	mv	a2, s1
	li	a3, 0
	mv	a4, s0
	mv	a5, s7
	call	gcm_narrow.aes_ctr.add_in_batches.add_next.1
	mv	a3, a0
	sub	a0, s7, a0
	li	a1, 64
	bgeu	a0, a1, .Lgcm_narrow_BB21_6
.Lgcm_narrow_BB21_2:                               # %loop.13.preheader.i.i
	bgeu	a3, s7, .Lgcm_narrow_BB21_4
.Lgcm_narrow_BB21_3:                               # %join.16.i.i
                                        # =>This Inner Loop Header: Depth=1
	addi	a0, sp, 24
	mv	a1, s11
	mv	a2, s1
	mv	a4, s0
	mv	a5, s7
	call	gcm_narrow.aes_ctr.add_in_batches.add_next.1
	mv	a3, a0
	bltu	a0, s7, .Lgcm_narrow_BB21_3
.Lgcm_narrow_BB21_4:                               # %"aes_ctr::add_in_batches::AddStreamBlockCipherEncClosure::call::<#87c2378f121e1d6b>.exit"
	ld	ra, 392(sp)                     # 8-byte Folded Reload
	ld	s0, 384(sp)                     # 8-byte Folded Reload
	ld	s1, 376(sp)                     # 8-byte Folded Reload
	ld	s2, 368(sp)                     # 8-byte Folded Reload
	ld	s3, 360(sp)                     # 8-byte Folded Reload
	ld	s4, 352(sp)                     # 8-byte Folded Reload
	ld	s5, 344(sp)                     # 8-byte Folded Reload
	ld	s6, 336(sp)                     # 8-byte Folded Reload
	ld	s7, 328(sp)                     # 8-byte Folded Reload
	ld	s8, 320(sp)                     # 8-byte Folded Reload
	ld	s9, 312(sp)                     # 8-byte Folded Reload
	ld	s10, 304(sp)                    # 8-byte Folded Reload
	ld	s11, 296(sp)                    # 8-byte Folded Reload
	addi	sp, sp, 400
	ret
.Lgcm_narrow_BB21_5:
	li	a3, 0
	li	a1, 64
	bltu	s7, a1, .Lgcm_narrow_BB21_2
.Lgcm_narrow_BB21_6:                               # %join.11.lr.ph.i.i
	neg	s9, a3
	sd	s1, 8(sp)                       # 8-byte Folded Spill
	add	s8, a3, s1
	sd	s0, 16(sp)                      # 8-byte Folded Spill
	add	s0, s0, a3
.Lgcm_narrow_BB21_7:                               # %join.11.i.i
                                        # =>This Inner Loop Header: Depth=1
	srli	s10, s8, 4
	li	a2, 192
	addi	a0, sp, 104
	li	a1, 0
	la	t1, memset
	jalr	t1
	lbu	t1, 0(s11)
	lbu	t2, 1(s11)
	lbu	t3, 2(s11)
	lbu	a4, 3(s11)
	lbu	t0, 8(s11)
	lbu	t4, 9(s11)
	lbu	t5, 10(s11)
	lbu	s1, 11(s11)
	lbu	a5, 4(s11)
	lbu	t6, 5(s11)
	lbu	a1, 6(s11)
	lbu	a7, 7(s11)
	lbu	a2, 12(s11)
	lbu	a3, 13(s11)
	lbu	a0, 14(s11)
	lbu	a6, 15(s11)
	lui	ra, 1044480
	slli	a5, a5, 32
	slli	a4, a4, 24
	or	a5, a5, a4
	lui	s6, 4080
	slli	a2, a2, 32
	slli	s1, s1, 24
	or	a2, a2, s1
	lui	a4, 16
	addi	a4, a4, -256
	slli	s2, a1, 48
	slli	t6, t6, 40
	slli	t3, t3, 16
	slli	t2, t2, 8
	slli	a0, a0, 48
	slli	a1, a3, 40
	slli	t5, t5, 16
	slli	t4, t4, 8
	or	a3, t2, t1
	or	a3, a3, t3
	slli	t2, t1, 56
	or	s1, t4, t0
	or	t3, s1, t5
	or	a5, a5, a3
	or	s1, t3, a2
	and	a3, a3, a4
	srli	t4, a5, 8
	slli	a3, a3, 40
	or	t2, t2, a3
	srli	a2, s1, 8
	and	t5, t4, ra
	and	t4, a2, ra
	slli	ra, t0, 56
	and	a3, t3, a4
	or	a2, a5, t6
	or	a1, a1, s1
	and	a5, a5, s6
	and	s1, s1, s6
	slli	t3, a3, 40
	or	a3, a2, s2
	or	a0, a0, a1
	srli	a2, a2, 24
	slli	t6, a5, 24
	srli	a1, a1, 24
	slli	s2, s1, 24
	or	s1, ra, t3
	and	a2, a2, s6
	srli	ra, a3, 40
	srliw	a3, a3, 24
	and	a1, a1, s6
	srli	s6, a0, 40
	srliw	a0, a0, 24
	or	t5, t5, a2
	srli	t3, t2, 48
	or	a1, t4, a1
	srli	a5, s1, 48
	and	a2, ra, a4
	slli	a3, a3, 32
	and	a4, s6, a4
	slli	a0, a0, 32
	or	a2, a2, a7
	or	a3, t6, a3
	or	a4, a4, a6
	or	a0, s2, a0
	or	a2, t5, a2
	or	a3, t2, a3
	or	a1, a1, a4
	or	s1, s1, a0
	or	a4, a3, a2
	or	a1, a1, s1
	srli	a2, a3, 32
	srli	a3, a3, 40
	srli	a0, s1, 40
	srli	s1, s1, 32
	slli	a6, a4, 48
	srliw	t2, a4, 16
	srliw	t4, a4, 24
	add	s10, s10, a1
	sb	t1, 40(sp)
	sb	t3, 41(sp)
	sb	a3, 42(sp)
	sb	a2, 43(sp)
	sb	t0, 48(sp)
	sb	a5, 49(sp)
	sb	a0, 50(sp)
	sb	s1, 51(sp)
	sb	t1, 56(sp)
	sb	t3, 57(sp)
	sb	a3, 58(sp)
	sb	a2, 59(sp)
	sb	t0, 64(sp)
	sb	a5, 65(sp)
	sb	a0, 66(sp)
	sb	s1, 67(sp)
	sb	t1, 72(sp)
	sb	t3, 73(sp)
	sb	a3, 74(sp)
	sb	a2, 75(sp)
	sb	t0, 80(sp)
	sb	a5, 81(sp)
	sb	a0, 82(sp)
	sb	s1, 83(sp)
	sb	t1, 88(sp)
	sb	t3, 89(sp)
	sb	a3, 90(sp)
	sb	a2, 91(sp)
	sb	t0, 96(sp)
	sb	a5, 97(sp)
	sb	a0, 98(sp)
	sb	s1, 99(sp)
	srli	a0, a6, 56
	srli	a1, s10, 8
	srli	a2, s10, 16
	srli	a3, s10, 24
	addi	a5, s10, 1
	addi	s1, s10, 2
	addi	a4, s10, 3
	sb	t4, 44(sp)
	sb	t2, 45(sp)
	sb	a0, 46(sp)
	sb	a7, 47(sp)
	sb	a3, 52(sp)
	sb	a2, 53(sp)
	sb	a1, 54(sp)
	sb	s10, 55(sp)
	srli	a6, a5, 8
	srli	t0, a5, 16
	srli	t3, a5, 24
	sb	t4, 60(sp)
	sb	t2, 61(sp)
	sb	a0, 62(sp)
	sb	a7, 63(sp)
	srli	t1, s1, 8
	srli	t5, s1, 16
	srli	a1, s1, 24
	sb	t4, 76(sp)
	sb	t2, 77(sp)
	sb	a0, 78(sp)
	sb	a7, 79(sp)
	srli	t6, a4, 8
	srli	a2, a4, 16
	srli	a3, a4, 24
	sb	t4, 92(sp)
	sb	t2, 93(sp)
	sb	a0, 94(sp)
	sb	a7, 95(sp)
	sb	t3, 68(sp)
	sb	t0, 69(sp)
	sb	a6, 70(sp)
	sb	a5, 71(sp)
	sb	a1, 84(sp)
	sb	t5, 85(sp)
	sb	t1, 86(sp)
	sb	s1, 87(sp)
	sb	a3, 100(sp)
	sb	a2, 101(sp)
	sb	t6, 102(sp)
	sb	a4, 103(sp)
	addi	a2, sp, 40
	li	a3, 4
	mv	a0, s3
	mv	a1, s4
	call	gcm_narrow.aes_soft.soft.blocks.filled_up.process_filled_up
	lbu	t6, 12(s0)
	lbu	t5, 13(s0)
	lbu	t4, 14(s0)
	lbu	t3, 15(s0)
	lbu	ra, 8(s0)
	lbu	a1, 9(s0)
	lbu	a2, 10(s0)
	lbu	a3, 11(s0)
	lbu	s2, 4(s0)
	lbu	s6, 5(s0)
	lbu	s10, 6(s0)
	lbu	t2, 7(s0)
	lbu	a6, 0(s0)
	lbu	a7, 1(s0)
	lbu	t0, 2(s0)
	lbu	t1, 3(s0)
	lbu	a0, 40(sp)
	lbu	a4, 41(sp)
	lbu	a5, 42(sp)
	lbu	s1, 43(sp)
	xor	a6, a0, a6
	xor	a7, a4, a7
	xor	t0, a5, t0
	xor	t1, s1, t1
	lbu	a0, 44(sp)
	lbu	a4, 45(sp)
	lbu	a5, 46(sp)
	lbu	s1, 47(sp)
	xor	s2, a0, s2
	xor	s6, a4, s6
	xor	s10, a5, s10
	xor	t2, s1, t2
	lbu	a0, 48(sp)
	lbu	a4, 49(sp)
	lbu	a5, 50(sp)
	lbu	s1, 51(sp)
	xor	a0, a0, ra
	xor	a1, a1, a4
	xor	a2, a2, a5
	xor	a3, a3, s1
	lbu	a4, 52(sp)
	lbu	a5, 53(sp)
	lbu	s1, 54(sp)
	lbu	ra, 55(sp)
	xor	a4, a4, t6
	xor	a5, a5, t5
	xor	s1, s1, t4
	xor	ra, ra, t3
	lbu	t3, 28(s0)
	lbu	t6, 29(s0)
	lbu	t5, 30(s0)
	lbu	t4, 31(s0)
	sb	a4, 12(s0)
	sb	a5, 13(s0)
	sb	s1, 14(s0)
	sb	ra, 15(s0)
	lbu	ra, 24(s0)
	lbu	s1, 25(s0)
	lbu	a5, 26(s0)
	lbu	a4, 27(s0)
	sb	a0, 8(s0)
	sb	a1, 9(s0)
	sb	a2, 10(s0)
	sb	a3, 11(s0)
	lbu	a0, 20(s0)
	lbu	a1, 21(s0)
	lbu	a2, 22(s0)
	lbu	a3, 23(s0)
	sb	s2, 4(s0)
	sb	s6, 5(s0)
	sb	s10, 6(s0)
	sb	t2, 7(s0)
	lbu	t2, 16(s0)
	lbu	s2, 17(s0)
	lbu	s6, 18(s0)
	lbu	s10, 19(s0)
	sb	a6, 0(s0)
	sb	a7, 1(s0)
	sb	t0, 2(s0)
	sb	t1, 3(s0)
	lbu	a6, 56(sp)
	lbu	a7, 57(sp)
	lbu	t0, 58(sp)
	lbu	t1, 59(sp)
	xor	a6, a6, t2
	xor	a7, a7, s2
	xor	t0, t0, s6
	xor	t1, t1, s10
	lbu	t2, 60(sp)
	lbu	s6, 61(sp)
	lbu	s10, 62(sp)
	mv	s5, s4
	lbu	s4, 63(sp)
	xor	s2, t2, a0
	xor	s6, s6, a1
	xor	a2, s10, a2
	xor	s10, s4, a3
	lbu	a0, 64(sp)
	lbu	a3, 65(sp)
	lbu	a1, 66(sp)
	lbu	t2, 67(sp)
	xor	a0, a0, ra
	xor	a3, a3, s1
	xor	a1, a1, a5
	xor	a4, t2, a4
	lbu	a5, 68(sp)
	lbu	s1, 69(sp)
	lbu	t2, 70(sp)
	lbu	s4, 71(sp)
	xor	a5, a5, t3
	xor	s1, s1, t6
	xor	t6, t2, t5
	xor	s4, s4, t4
	lbu	t2, 44(s0)
	lbu	t5, 45(s0)
	lbu	t4, 46(s0)
	lbu	t3, 47(s0)
	sb	a5, 28(s0)
	sb	s1, 29(s0)
	sb	t6, 30(s0)
	sb	s4, 31(s0)
	lbu	s4, 40(s0)
	lbu	s1, 41(s0)
	lbu	a5, 42(s0)
	lbu	ra, 43(s0)
	sb	a0, 24(s0)
	sb	a3, 25(s0)
	sb	a1, 26(s0)
	sb	a4, 27(s0)
	lbu	t6, 36(s0)
	lbu	a1, 37(s0)
	lbu	a3, 38(s0)
	lbu	a4, 39(s0)
	sb	s2, 20(s0)
	sb	s6, 21(s0)
	sb	a2, 22(s0)
	sb	s10, 23(s0)
	lbu	a2, 32(s0)
	lbu	s10, 33(s0)
	lbu	s2, 34(s0)
	lbu	s6, 35(s0)
	sb	a6, 16(s0)
	sb	a7, 17(s0)
	sb	t0, 18(s0)
	sb	t1, 19(s0)
	lbu	a0, 72(sp)
	lbu	a7, 73(sp)
	lbu	t0, 74(sp)
	lbu	t1, 75(sp)
	xor	a6, a0, a2
	xor	a7, a7, s10
	xor	t0, t0, s2
	xor	t1, t1, s6
	lbu	a0, 76(sp)
	lbu	a2, 77(sp)
	lbu	s6, 78(sp)
	lbu	s10, 79(sp)
	xor	s2, a0, t6
	xor	a2, a2, a1
	xor	s6, s6, a3
	xor	t6, s10, a4
	lbu	a0, 80(sp)
	lbu	a1, 81(sp)
	lbu	a4, 82(sp)
	lbu	a3, 83(sp)
	xor	a0, a0, s4
	xor	a1, a1, s1
	xor	a4, a4, a5
	xor	ra, a3, ra
	lbu	a5, 84(sp)
	lbu	s1, 85(sp)
	lbu	a3, 86(sp)
	lbu	s4, 87(sp)
	xor	a5, a5, t2
	xor	s1, s1, t5
	xor	a3, a3, t4
	xor	s4, s4, t3
	lbu	t5, 60(s0)
	lbu	t4, 61(s0)
	lbu	t3, 62(s0)
	lbu	t2, 63(s0)
	sb	a5, 44(s0)
	sb	s1, 45(s0)
	sb	a3, 46(s0)
	sb	s4, 47(s0)
	lbu	s1, 56(s0)
	lbu	a5, 57(s0)
	lbu	s4, 58(s0)
	lbu	s10, 59(s0)
	sb	a0, 40(s0)
	sb	a1, 41(s0)
	sb	a4, 42(s0)
	sb	ra, 43(s0)
	lbu	ra, 52(s0)
	lbu	a3, 53(s0)
	lbu	a4, 54(s0)
	lbu	a1, 55(s0)
	sb	s2, 36(s0)
	sb	a2, 37(s0)
	sb	s6, 38(s0)
	sb	t6, 39(s0)
	lbu	a2, 48(s0)
	lbu	s6, 49(s0)
	lbu	t6, 50(s0)
	lbu	s2, 51(s0)
	sb	a6, 32(s0)
	sb	a7, 33(s0)
	sb	t0, 34(s0)
	sb	t1, 35(s0)
	lbu	a0, 88(sp)
	lbu	a6, 89(sp)
	lbu	a7, 90(sp)
	lbu	t0, 91(sp)
	xor	t1, a0, a2
	xor	s6, a6, s6
	xor	a7, a7, t6
	xor	a6, t0, s2
	lbu	a0, 92(sp)
	lbu	a2, 93(sp)
	lbu	t0, 94(sp)
	lbu	t6, 95(sp)
	xor	s2, a0, ra
	xor	ra, a2, a3
	xor	a3, t0, a4
	xor	t0, t6, a1
	lbu	a4, 96(sp)
	lbu	a0, 97(sp)
	lbu	a1, 98(sp)
	lbu	a2, 99(sp)
	xor	a4, a4, s1
	xor	t6, a0, a5
	xor	s4, a1, s4
	xor	a2, a2, s10
	lbu	a5, 100(sp)
	lbu	s1, 101(sp)
	lbu	a0, 102(sp)
	lbu	a1, 103(sp)
	xor	a5, a5, t5
	xor	s1, s1, t4
	xor	a0, a0, t3
	xor	a1, a1, t2
	sb	a5, 60(s0)
	sb	s1, 61(s0)
	sb	a0, 62(s0)
	sb	a1, 63(s0)
	sb	a4, 56(s0)
	sb	t6, 57(s0)
	sb	s4, 58(s0)
	mv	s4, s5
	sb	a2, 59(s0)
	sb	s2, 52(s0)
	sb	ra, 53(s0)
	sb	a3, 54(s0)
	sb	t0, 55(s0)
	sb	t1, 48(s0)
	sb	s6, 49(s0)
	addi	s9, s9, -64
	addi	s8, s8, 64
	sb	a7, 50(s0)
	li	a0, 63
	sb	a6, 51(s0)
	add	a1, s7, s9
	addi	s0, s0, 64
	bltu	a0, a1, .Lgcm_narrow_BB21_7
# %bb.8:                                # %loop.13.preheader.i.i.loopexit
	neg	a3, s9
	ld	s0, 16(sp)                      # 8-byte Folded Reload
	ld	s1, 8(sp)                       # 8-byte Folded Reload
	bltu	a3, s7, .Lgcm_narrow_BB21_3
	j	.Lgcm_narrow_BB21_4
.Lgcm_narrow_func_end21:
	.size	gcm_narrow.aes_narrow.borrowed_words.call_to_encrypt.1, .Lgcm_narrow_func_end21-gcm_narrow.aes_narrow.borrowed_words.call_to_encrypt.1
                                        # -- End function
	.section	.text.gcm_narrow.aes_ctr.add_in_batches.add_next.1,"ax",@progbits
	.p2align	1                               # -- Begin function aes_ctr::add_in_batches::add_next::<#f6a523fe00b2af53>
	.type	gcm_narrow.aes_ctr.add_in_batches.add_next.1,@function
gcm_narrow.aes_ctr.add_in_batches.add_next.1: # @gcm_narrow.aes_ctr.add_in_batches.add_next.1
# %bb.0:                                # %start
	addi	sp, sp, -384
	sd	ra, 376(sp)                     # 8-byte Folded Spill
	sd	s0, 368(sp)                     # 8-byte Folded Spill
	sd	s1, 360(sp)                     # 8-byte Folded Spill
	sd	s2, 352(sp)                     # 8-byte Folded Spill
	sd	s3, 344(sp)                     # 8-byte Folded Spill
	sd	s4, 336(sp)                     # 8-byte Folded Spill
	sd	s5, 328(sp)                     # 8-byte Folded Spill
	sd	s6, 320(sp)                     # 8-byte Folded Spill
	sd	s7, 312(sp)                     # 8-byte Folded Spill
	sd	s8, 304(sp)                     # 8-byte Folded Spill
	sd	s9, 296(sp)                     # 8-byte Folded Spill
	sd	s10, 288(sp)                    # 8-byte Folded Spill
	sd	s11, 280(sp)                    # 8-byte Folded Spill
	sd	a4, 16(sp)                      # 8-byte Folded Spill
	mv	s7, a3
	mv	s0, a1
	add	a2, a2, a3
	li	a1, 64
	andi	s6, a2, 15
	sub	a1, a1, s6
	sd	a5, 0(sp)                       # 8-byte Folded Spill
	sub	s5, a5, a3
	mv	s1, a0
	bltu	s5, a1, .Lgcm_narrow_BB22_2
# %bb.1:                                # %start
	mv	s5, a1
.Lgcm_narrow_BB22_2:                               # %start
	add	s8, s6, s5
	srli	a2, a2, 4
	sd	a2, 8(sp)                       # 8-byte Folded Spill
	addi	s8, s8, 15
	addi	a0, sp, 88
	li	a2, 192
	li	a1, 0
	la	t1, memset
	jalr	t1
	lbu	s9, 0(s0)
	lbu	t2, 1(s0)
	lbu	t3, 2(s0)
	lbu	s10, 3(s0)
	lbu	a3, 8(s0)
	lbu	t4, 9(s0)
	lbu	t5, 10(s0)
	lbu	t6, 11(s0)
	lbu	a5, 4(s0)
	lbu	a6, 5(s0)
	lbu	a7, 6(s0)
	lbu	ra, 7(s0)
	lbu	s11, 12(s0)
	lbu	t0, 13(s0)
	lbu	t1, 14(s0)
	lbu	a2, 15(s0)
	lbu	s0, 0(s1)
	lbu	a4, 1(s1)
	lbu	a0, 2(s1)
	lbu	a1, 3(s1)
	slli	a5, a5, 32
	slli	s10, s10, 24
	or	s10, s10, a5
	lbu	a5, 4(s1)
	lbu	s2, 5(s1)
	lbu	s3, 6(s1)
	lbu	s4, 7(s1)
	slli	s11, s11, 32
	slli	t6, t6, 24
	slli	a4, a4, 8
	slli	a0, a0, 16
	slli	a1, a1, 24
	slli	s2, s2, 8
	or	t6, t6, s11
	or	s11, a4, s0
	or	a0, a0, a1
	or	s2, s2, a5
	lbu	a5, 8(s1)
	lbu	s0, 9(s1)
	lbu	a4, 10(s1)
	lbu	a1, 11(s1)
	slli	s3, s3, 16
	slli	s4, s4, 24
	slli	s0, s0, 8
	slli	a4, a4, 16
	slli	a1, a1, 24
	or	s3, s4, s3
	or	s4, s0, a5
	or	a1, a1, a4
	lbu	a4, 13(s1)
	lbu	s0, 12(s1)
	lbu	a5, 14(s1)
	lbu	s1, 15(s1)
	slli	a4, a4, 8
	or	a4, a4, s0
	slli	a5, a5, 16
	slli	s1, s1, 24
	or	a5, a5, s1
	slli	t3, t3, 16
	slli	t2, t2, 8
	or	s1, t2, s9
	or	s1, s1, t3
	slli	t5, t5, 16
	slli	t4, t4, 8
	or	s0, t4, a3
	or	s0, s0, t5
	or	t3, a0, s11
	or	a0, s3, s2
	lui	t4, 1044480
	or	t2, a1, s4
	lui	a1, 16
	addi	a1, a1, -256
	or	t5, a5, a4
	slli	s2, s9, 56
	or	a4, s1, s10
	or	a5, s0, t6
	and	s1, s1, a1
	slli	a0, a0, 32
	or	a0, a0, t3
	srli	t3, a4, 8
	slli	s1, s1, 40
	or	t6, s2, s1
	srli	s1, a5, 8
	and	s2, t3, t4
	and	t4, s1, t4
	slli	s1, a3, 56
	and	s0, s0, a1
	slli	s0, s0, 40
	or	s3, s1, s0
	lui	s4, 4080
	andi	t3, s8, 240
	slli	a7, a7, 48
	slli	a6, a6, 40
	slli	t1, t1, 48
	slli	t0, t0, 40
	or	s1, a4, a6
	or	s0, a5, t0
	and	t0, a4, s4
	and	s8, a5, s4
	or	a4, s1, a7
	or	a5, s0, t1
	srli	s1, s1, 24
	srli	s0, s0, 24
	and	s1, s1, s4
	and	s0, s0, s4
	li	a6, 16
	slli	t5, t5, 32
	slli	t0, t0, 24
	slli	s8, s8, 24
	or	a7, s2, s1
	srli	s1, a4, 40
	srliw	a4, a4, 24
	or	t1, t4, s0
	srli	s0, a5, 40
	srliw	a5, a5, 24
	and	s1, s1, a1
	and	t4, s0, a1
	srli	s4, t6, 48
	slli	a4, a4, 32
	or	t0, t0, a4
	srli	s2, s3, 48
	slli	a5, a5, 32
	or	s1, s1, ra
	or	a4, t4, a2
	or	a5, s8, a5
	or	s1, a7, s1
	or	a1, t6, t0
	or	a4, t1, a4
	or	a5, s3, a5
	or	s1, s1, a1
	or	a7, a5, a4
	srli	a4, a1, 32
	srli	a1, a1, 40
	srli	s0, a5, 32
	srli	a5, a5, 40
	slli	t1, s1, 48
	srliw	t0, s1, 16
	srliw	s1, s1, 24
	ld	a2, 8(sp)                       # 8-byte Folded Reload
	add	a7, a7, a2
	sb	s9, 24(sp)
	sb	s4, 25(sp)
	sb	a1, 26(sp)
	sb	a4, 27(sp)
	sb	a3, 32(sp)
	sb	s2, 33(sp)
	sb	a5, 34(sp)
	sb	s0, 35(sp)
	sb	s9, 40(sp)
	sb	s4, 41(sp)
	sb	a1, 42(sp)
	sb	a4, 43(sp)
	sb	a3, 48(sp)
	sb	s2, 49(sp)
	sb	a5, 50(sp)
	sb	s0, 51(sp)
	sb	s9, 56(sp)
	sb	s4, 57(sp)
	sb	a1, 58(sp)
	sb	a4, 59(sp)
	sb	a3, 64(sp)
	sb	s2, 65(sp)
	sb	a5, 66(sp)
	sb	s0, 67(sp)
	sb	s9, 72(sp)
	sb	s4, 73(sp)
	sb	a1, 74(sp)
	sb	a4, 75(sp)
	sb	a3, 80(sp)
	sb	s2, 81(sp)
	sb	a5, 82(sp)
	sb	s0, 83(sp)
	srli	a1, t1, 56
	srli	t1, a7, 8
	srli	a3, a7, 16
	srli	a4, a7, 24
	addi	a5, a7, 1
	addi	s0, a7, 2
	addi	a2, a7, 3
	sb	s1, 28(sp)
	sb	t0, 29(sp)
	sb	a1, 30(sp)
	sb	ra, 31(sp)
	sb	a4, 36(sp)
	sb	a3, 37(sp)
	sb	t1, 38(sp)
	sb	a7, 39(sp)
	srli	a7, a5, 8
	srli	t1, a5, 16
	srli	t6, a5, 24
	sb	s1, 44(sp)
	sb	t0, 45(sp)
	sb	a1, 46(sp)
	sb	ra, 47(sp)
	srli	t4, s0, 8
	srli	s2, s0, 16
	srli	s4, s0, 24
	sb	s1, 60(sp)
	sb	t0, 61(sp)
	sb	a1, 62(sp)
	sb	ra, 63(sp)
	srli	s3, a2, 8
	srli	a4, a2, 16
	srli	a3, a2, 24
	sb	s1, 76(sp)
	sb	t0, 77(sp)
	sb	a1, 78(sp)
	sb	ra, 79(sp)
	sb	t6, 52(sp)
	sb	t1, 53(sp)
	sb	a7, 54(sp)
	sb	a5, 55(sp)
	sb	s4, 68(sp)
	sb	s2, 69(sp)
	sb	t4, 70(sp)
	sb	s0, 71(sp)
	sb	a3, 84(sp)
	sb	a4, 85(sp)
	sb	s3, 86(sp)
	sb	a2, 87(sp)
	or	a1, t5, t2
	addi	a2, sp, 24
	bne	t3, a6, .Lgcm_narrow_BB22_16
# %bb.3:                                # %then.1.i.i.i
	li	a3, 1
	call	gcm_narrow.aes_soft.soft.blocks.filled_up.process_filled_up
	ld	s2, 16(sp)                      # 8-byte Folded Reload
	add	s2, s2, s7
	beqz	s6, .Lgcm_narrow_BB22_17
.Lgcm_narrow_BB22_4:                               # %then.1.i
	li	a0, 16
	sub	a0, a0, s6
	mv	a1, s5
	bltu	s5, a0, .Lgcm_narrow_BB22_6
# %bb.5:                                # %then.1.i
	mv	a1, a0
.Lgcm_narrow_BB22_6:                               # %then.1.i
	ld	a0, 0(sp)                       # 8-byte Folded Reload
	beq	a0, s7, .Lgcm_narrow_BB22_9
# %bb.7:                                # %join.8.i80.lr.ph
	addi	a2, sp, 24
	add	a3, a1, s6
	add	a0, a2, s6
	add	a2, a2, a3
	mv	a3, s2
.Lgcm_narrow_BB22_8:                               # %join.8.i80
                                        # =>This Inner Loop Header: Depth=1
	lbu	a4, 0(a0)
	lbu	a5, 0(a3)
	addi	a0, a0, 1
	xor	a4, a4, a5
	sb	a4, 0(a3)
	addi	a3, a3, 1
	bne	a0, a2, .Lgcm_narrow_BB22_8
.Lgcm_narrow_BB22_9:                               # %join.3.i
	sub	s9, s5, a1
	li	a2, 16
	bltu	s9, a2, .Lgcm_narrow_BB22_11
.Lgcm_narrow_BB22_10:                              # %join.8.i
                                        # =>This Inner Loop Header: Depth=1
	add	a3, s6, a1
	addi	a6, sp, 24
	add	a2, s2, a1
	andi	a3, a3, -16
	lbu	t2, 8(a2)
	lbu	t1, 9(a2)
	lbu	t0, 10(a2)
	lbu	a7, 11(a2)
	lbu	t6, 4(a2)
	lbu	t4, 5(a2)
	lbu	t5, 6(a2)
	lbu	t3, 7(a2)
	lbu	a5, 0(a2)
	lbu	s4, 1(a2)
	lbu	s8, 2(a2)
	lbu	s3, 3(a2)
	add	a3, a3, a6
	lbu	a4, 0(a3)
	lbu	s11, 1(a3)
	lbu	s1, 2(a3)
	lbu	s10, 3(a3)
	xor	a6, a4, a5
	lbu	a5, 4(a3)
	lbu	a4, 5(a3)
	lbu	a0, 6(a3)
	lbu	s0, 7(a3)
	xor	s4, s11, s4
	xor	s8, s1, s8
	xor	s3, s10, s3
	xor	t6, a5, t6
	lbu	s1, 8(a3)
	lbu	a5, 9(a3)
	lbu	s10, 10(a3)
	lbu	s11, 11(a3)
	xor	ra, a4, t4
	xor	t4, a0, t5
	xor	t3, s0, t3
	xor	t2, s1, t2
	lbu	t5, 12(a2)
	lbu	a4, 13(a2)
	lbu	s0, 14(a2)
	lbu	s1, 15(a2)
	xor	t1, a5, t1
	xor	t0, s10, t0
	xor	a7, s11, a7
	lbu	a5, 12(a3)
	lbu	a0, 13(a3)
	lbu	s10, 14(a3)
	lbu	a3, 15(a3)
	xor	a5, a5, t5
	xor	a0, a0, a4
	xor	a4, s10, s0
	xor	a3, a3, s1
	sb	a5, 12(a2)
	sb	a0, 13(a2)
	sb	a4, 14(a2)
	sb	a3, 15(a2)
	sb	t2, 8(a2)
	sb	t1, 9(a2)
	sb	t0, 10(a2)
	sb	a7, 11(a2)
	sb	t6, 4(a2)
	sb	ra, 5(a2)
	sb	t4, 6(a2)
	sb	t3, 7(a2)
	sb	a6, 0(a2)
	sb	s4, 1(a2)
	sb	s8, 2(a2)
	sb	s3, 3(a2)
	addi	s9, s9, -16
	li	a0, 15
	addi	a1, a1, 16
	bltu	a0, s9, .Lgcm_narrow_BB22_10
.Lgcm_narrow_BB22_11:                              # %after.4.i
	bgeu	a1, s5, .Lgcm_narrow_BB22_15
# %bb.12:                               # %then.9.i
	beqz	s9, .Lgcm_narrow_BB22_15
# %bb.13:                               # %join.8.i23.preheader
	add	s6, s6, a1
	addi	a0, sp, 24
	add	a1, a1, s2
	andi	a3, s6, -16
	add	a2, a0, a3
	add	a3, a3, s9
	add	a0, a0, a3
.Lgcm_narrow_BB22_14:                              # %join.8.i23
                                        # =>This Inner Loop Header: Depth=1
	lbu	a3, 0(a2)
	lbu	a4, 0(a1)
	addi	a2, a2, 1
	xor	a3, a3, a4
	sb	a3, 0(a1)
	addi	a1, a1, 1
	bne	a2, a0, .Lgcm_narrow_BB22_14
.Lgcm_narrow_BB22_15:                              # %"aes_ctr::add_blocks::add_blocks.exit"
	add	a0, s5, s7
	ld	ra, 376(sp)                     # 8-byte Folded Reload
	ld	s0, 368(sp)                     # 8-byte Folded Reload
	ld	s1, 360(sp)                     # 8-byte Folded Reload
	ld	s2, 352(sp)                     # 8-byte Folded Reload
	ld	s3, 344(sp)                     # 8-byte Folded Reload
	ld	s4, 336(sp)                     # 8-byte Folded Reload
	ld	s5, 328(sp)                     # 8-byte Folded Reload
	ld	s6, 320(sp)                     # 8-byte Folded Reload
	ld	s7, 312(sp)                     # 8-byte Folded Reload
	ld	s8, 304(sp)                     # 8-byte Folded Reload
	ld	s9, 296(sp)                     # 8-byte Folded Reload
	ld	s10, 288(sp)                    # 8-byte Folded Reload
	ld	s11, 280(sp)                    # 8-byte Folded Reload
	addi	sp, sp, 384
	ret
.Lgcm_narrow_BB22_16:                              # %else.2.i.i.i
	li	a3, 4
	call	gcm_narrow.aes_soft.soft.blocks.filled_up.process_filled_up
	ld	s2, 16(sp)                      # 8-byte Folded Reload
	add	s2, s2, s7
	bnez	s6, .Lgcm_narrow_BB22_4
.Lgcm_narrow_BB22_17:
	li	a1, 0
	mv	s9, s5
	li	a2, 16
	bgeu	s5, a2, .Lgcm_narrow_BB22_10
	j	.Lgcm_narrow_BB22_11
.Lgcm_narrow_func_end22:
	.size	gcm_narrow.aes_ctr.add_in_batches.add_next.1, .Lgcm_narrow_func_end22-gcm_narrow.aes_ctr.add_in_batches.add_next.1
                                        # -- End function
	.section	.text.gcm_narrow.aes_cipher.zeroize.stack.wipe_stack.2032,"ax",@progbits
	.p2align	1                               # -- Begin function aes_cipher::zeroize::stack::wipe_stack::<=2032>
	.type	gcm_narrow.aes_cipher.zeroize.stack.wipe_stack.2032,@function
gcm_narrow.aes_cipher.zeroize.stack.wipe_stack.2032: # @gcm_narrow.aes_cipher.zeroize.stack.wipe_stack.2032
# %bb.0:                                # %start
	addi	sp, sp, -496
	sd	ra, 488(sp)                     # 8-byte Folded Spill
	sd	s0, 480(sp)                     # 8-byte Folded Spill
	sd	s1, 472(sp)                     # 8-byte Folded Spill
	addi	sp, sp, -1584
	addi	s0, sp, 24
	addi	a0, sp, 24
	li	a2, 2032
	li	s1, 2032
	li	a1, 0
	la	t1, memset
	jalr	t1
	sd	zero, 16(sp)
	#APP
	#NO_APP
	fence	rw, rw
	ld	a0, 16(sp)
	fence	r, rw
	#APP
	#NO_APP
	bgeu	a0, s1, .Lgcm_narrow_BB23_2
# %bb.1:                                # %then.1
	add	a0, a0, s0
	lbu	a0, 0(a0)
	#APP
	#NO_APP
	addi	a1, sp, 16
	amoswap.d.aqrl	zero, a0, (a1)
	#APP
	#NO_APP
.Lgcm_narrow_BB23_2:                               # %common.ret
	addi	sp, sp, 1584
	ld	ra, 488(sp)                     # 8-byte Folded Reload
	ld	s0, 480(sp)                     # 8-byte Folded Reload
	ld	s1, 472(sp)                     # 8-byte Folded Reload
	addi	sp, sp, 496
	ret
.Lgcm_narrow_func_end23:
	.size	gcm_narrow.aes_cipher.zeroize.stack.wipe_stack.2032, .Lgcm_narrow_func_end23-gcm_narrow.aes_cipher.zeroize.stack.wipe_stack.2032
                                        # -- End function
	.section	.text.gcm_narrow.aes_cipher.zeroize.stack.wipe_stack.1536,"ax",@progbits
	.p2align	1                               # -- Begin function aes_cipher::zeroize::stack::wipe_stack::<=1536>
	.type	gcm_narrow.aes_cipher.zeroize.stack.wipe_stack.1536,@function
gcm_narrow.aes_cipher.zeroize.stack.wipe_stack.1536: # @gcm_narrow.aes_cipher.zeroize.stack.wipe_stack.1536
# %bb.0:                                # %start
	addi	sp, sp, -1584
	sd	ra, 1576(sp)                    # 8-byte Folded Spill
	sd	s0, 1568(sp)                    # 8-byte Folded Spill
	sd	s1, 1560(sp)                    # 8-byte Folded Spill
	addi	s0, sp, 24
	addi	a0, sp, 24
	li	a2, 1536
	li	s1, 1536
	li	a1, 0
	la	t1, memset
	jalr	t1
	sd	zero, 16(sp)
	#APP
	#NO_APP
	fence	rw, rw
	ld	a0, 16(sp)
	fence	r, rw
	#APP
	#NO_APP
	bgeu	a0, s1, .Lgcm_narrow_BB24_2
# %bb.1:                                # %then.1
	add	a0, a0, s0
	lbu	a0, 0(a0)
	#APP
	#NO_APP
	addi	a1, sp, 16
	amoswap.d.aqrl	zero, a0, (a1)
	#APP
	#NO_APP
.Lgcm_narrow_BB24_2:                               # %common.ret
	ld	ra, 1576(sp)                    # 8-byte Folded Reload
	ld	s0, 1568(sp)                    # 8-byte Folded Reload
	ld	s1, 1560(sp)                    # 8-byte Folded Reload
	addi	sp, sp, 1584
	ret
.Lgcm_narrow_func_end24:
	.size	gcm_narrow.aes_cipher.zeroize.stack.wipe_stack.1536, .Lgcm_narrow_func_end24-gcm_narrow.aes_cipher.zeroize.stack.wipe_stack.1536
                                        # -- End function
	.section	.text.gcm_narrow.gcm_c.whole.fotsgure_gcm_seal,"ax",@progbits
	.p2align	1                               # -- Begin function gcm_c::whole::fotsgure_gcm_seal
	.type	gcm_narrow.gcm_c.whole.fotsgure_gcm_seal,@function
gcm_narrow.gcm_c.whole.fotsgure_gcm_seal:      # @gcm_narrow.gcm_c.whole.fotsgure_gcm_seal
# %bb.0:                                # %start
	addi	sp, sp, -112
	sd	ra, 104(sp)                     # 8-byte Folded Spill
	sd	s0, 96(sp)                      # 8-byte Folded Spill
	sd	s1, 88(sp)                      # 8-byte Folded Spill
	sd	s2, 80(sp)                      # 8-byte Folded Spill
	sd	s3, 72(sp)                      # 8-byte Folded Spill
	sd	s4, 64(sp)                      # 8-byte Folded Spill
	li	s1, -1
	slli	s1, s1, 61
	add	s0, a2, s1
	addi	s1, s1, 1
	bgeu	s0, s1, .Lgcm_narrow_BB25_2
# %bb.1:
	li	a0, 3
	j	.Lgcm_narrow_BB25_7
.Lgcm_narrow_BB25_2:                               # %after.1.i
	mv	t0, a0
	srli	s1, a4, 61
	li	a0, 5
	bnez	s1, .Lgcm_narrow_BB25_7
# %bb.3:                                # %after.1.i
	li	s1, 1
	slli	s1, s1, 36
	addi	s1, s1, -32
	bltu	s1, a6, .Lgcm_narrow_BB25_7
# %bb.4:                                # %after.11.i
	ld	s1, 0(t0)
	li	s0, 32
	li	a0, 2
	bltu	s0, s1, .Lgcm_narrow_BB25_7
# %bb.5:                                # %after.11.i
	lui	s0, 65793
	slli	s0, s0, 4
	srl	s0, s0, s1
	andi	s0, s0, 1
	beqz	s0, .Lgcm_narrow_BB25_7
# %bb.6:                                # %join.3
	addi	a0, t0, 8
	slli	s1, s1, 1
	addi	s0, t0, 968
	addi	s1, s1, 56
	sd	a0, 24(sp)
	sd	s1, 32(sp)
	sd	s0, 40(sp)
	addi	a0, sp, 24
	mv	s3, a3
	addi	a3, sp, 48
	mv	s2, a7
	mv	s1, a6
	mv	s0, a5
	mv	s4, a4
	call	gcm_narrow.gcm.mode.BorrowedGcm.put_pre_counter
	addi	a0, sp, 24
	addi	a1, sp, 48
	li	a2, 16
	mv	a3, s0
	mv	a4, s1
	call	gcm_narrow.gcm.gctr.add_gctr
	addi	a0, sp, 24
	addi	a1, sp, 48
	addi	a6, sp, 8
	mv	a2, s3
	mv	a3, s4
	mv	a4, s0
	mv	a5, s1
	call	gcm_narrow.gcm.mode.BorrowedGcm.put_tag
	addi	a0, sp, 48
	call	gcm_narrow.aes_cipher.zeroize.elements.zeroize_elements.3
	call	gcm_narrow.aes_cipher.zeroize.stack.wipe_stack.1536
	addi	a1, sp, 8
	li	a2, 16
	mv	a0, s2
	la	t1, memcpy
	jalr	t1
	li	a0, 0
.Lgcm_narrow_BB25_7:                               # %common.ret
	ld	ra, 104(sp)                     # 8-byte Folded Reload
	ld	s0, 96(sp)                      # 8-byte Folded Reload
	ld	s1, 88(sp)                      # 8-byte Folded Reload
	ld	s2, 80(sp)                      # 8-byte Folded Reload
	ld	s3, 72(sp)                      # 8-byte Folded Reload
	ld	s4, 64(sp)                      # 8-byte Folded Reload
	addi	sp, sp, 112
	ret
.Lgcm_narrow_func_end25:
	.size	gcm_narrow.gcm_c.whole.fotsgure_gcm_seal, .Lgcm_narrow_func_end25-gcm_narrow.gcm_c.whole.fotsgure_gcm_seal
                                        # -- End function
	.section	.text.gcm_narrow.gcm_c.whole_to.copy,"ax",@progbits
	.p2align	1                               # -- Begin function gcm_c::whole_to::copy
	.type	gcm_narrow.gcm_c.whole_to.copy,@function
gcm_narrow.gcm_c.whole_to.copy:                # @gcm_narrow.gcm_c.whole_to.copy
# %bb.0:                                # %start
	mv	a3, a0
	sub	a0, a2, a0
	mv	a4, a1
	bgeu	a0, a1, .Lgcm_narrow_BB26_4
# %bb.1:                                # %join.7.i.i.i.i.i.i.preheader
	add	a4, a4, a3
.Lgcm_narrow_BB26_2:                               # %join.7.i.i.i.i.i.i
                                        # =>This Inner Loop Header: Depth=1
	lbu	a0, 0(a3)
	addi	a3, a3, 1
	sb	a0, 0(a2)
	addi	a2, a2, 1
	bne	a3, a4, .Lgcm_narrow_BB26_2
# %bb.3:                                # %"core::slice::edits::slice+T::copy_from_slice::<i8,20'core::clone::U8Clone{}>.exit"
	ret
.Lgcm_narrow_BB26_4:                               # %apart.2.i.i.i.i.i.i
	mv	a0, a2
	mv	a1, a3
	mv	a2, a4
	la	t1, memmove
	jr	t1
.Lgcm_narrow_func_end26:
	.size	gcm_narrow.gcm_c.whole_to.copy, .Lgcm_narrow_func_end26-gcm_narrow.gcm_c.whole_to.copy
                                        # -- End function
	.section	.text.gcm_narrow.gcm_siv.course.open_in,"ax",@progbits
	.p2align	1                               # -- Begin function gcm_siv::course::open_in::<#9475832f45469e37>
	.type	gcm_narrow.gcm_siv.course.open_in,@function
gcm_narrow.gcm_siv.course.open_in: # @gcm_narrow.gcm_siv.course.open_in
# %bb.0:                                # %start
	addi	sp, sp, -1072
	sd	ra, 1064(sp)                    # 8-byte Folded Spill
	sd	s0, 1056(sp)                    # 8-byte Folded Spill
	sd	s1, 1048(sp)                    # 8-byte Folded Spill
	sd	s2, 1040(sp)                    # 8-byte Folded Spill
	sd	s3, 1032(sp)                    # 8-byte Folded Spill
	sd	s4, 1024(sp)                    # 8-byte Folded Spill
	sd	s5, 1016(sp)                    # 8-byte Folded Spill
	sd	s6, 1008(sp)                    # 8-byte Folded Spill
	sd	s7, 1000(sp)                    # 8-byte Folded Spill
	sd	s8, 992(sp)                     # 8-byte Folded Spill
	mv	s2, a7
	mv	s3, a6
	mv	s4, a5
	mv	s5, a4
	mv	s6, a3
	mv	s1, a2
	mv	s7, a1
	mv	s0, a0
	addi	s8, sp, 16
	li	a2, 960
	mv	a0, s8
	li	a1, 0
	la	t1, memset
	jalr	t1
	sd	zero, 8(sp)
	addi	a3, sp, 8
	addi	a4, sp, 976
	mv	a0, s0
	mv	a1, s7
	mv	a2, s1
	call	gcm_narrow.gcm_siv.keys.derive_and_prepare
	addi	a0, sp, 8
	addi	a1, sp, 976
	mv	a2, s1
	mv	a3, s6
	mv	a4, s5
	mv	a5, s4
	mv	a6, s3
	mv	a7, s2
	call	gcm_narrow.gcm_siv.message.open
	mv	s0, a0
	sd	zero, 8(sp)
	mv	a0, s8
	call	gcm_narrow.aes_cipher.zeroize.elements.zeroize_elements.1
	addi	a0, sp, 976
	call	gcm_narrow.aes_cipher.zeroize.elements.zeroize_elements.2
	call	gcm_narrow.aes_cipher.zeroize.stack.wipe_stack.2816
	mv	a0, s0
	ld	ra, 1064(sp)                    # 8-byte Folded Reload
	ld	s0, 1056(sp)                    # 8-byte Folded Reload
	ld	s1, 1048(sp)                    # 8-byte Folded Reload
	ld	s2, 1040(sp)                    # 8-byte Folded Reload
	ld	s3, 1032(sp)                    # 8-byte Folded Reload
	ld	s4, 1024(sp)                    # 8-byte Folded Reload
	ld	s5, 1016(sp)                    # 8-byte Folded Reload
	ld	s6, 1008(sp)                    # 8-byte Folded Reload
	ld	s7, 1000(sp)                    # 8-byte Folded Reload
	ld	s8, 992(sp)                     # 8-byte Folded Reload
	addi	sp, sp, 1072
	ret
.Lgcm_narrow_func_end27:
	.size	gcm_narrow.gcm_siv.course.open_in, .Lgcm_narrow_func_end27-gcm_narrow.gcm_siv.course.open_in
                                        # -- End function
	.section	.text.gcm_narrow.gcm_siv.keys.derive_and_prepare,"ax",@progbits
	.p2align	1                               # -- Begin function gcm_siv::keys::derive_and_prepare::<#9475832f45469e37>
	.type	gcm_narrow.gcm_siv.keys.derive_and_prepare,@function
gcm_narrow.gcm_siv.keys.derive_and_prepare: # @gcm_narrow.gcm_siv.keys.derive_and_prepare
# %bb.0:                                # %start
	addi	sp, sp, -160
	sd	ra, 152(sp)                     # 8-byte Folded Spill
	sd	s0, 144(sp)                     # 8-byte Folded Spill
	sd	s1, 136(sp)                     # 8-byte Folded Spill
	sd	s2, 128(sp)                     # 8-byte Folded Spill
	sd	s3, 120(sp)                     # 8-byte Folded Spill
	sd	s4, 112(sp)                     # 8-byte Folded Spill
	sd	s5, 104(sp)                     # 8-byte Folded Spill
	sd	s6, 96(sp)                      # 8-byte Folded Spill
	mv	s5, a4
	mv	s2, a3
	mv	s0, a2
	mv	s4, a1
	mv	s1, a0
	addi	a0, sp, 4
	li	a2, 12
	mv	a1, s0
	la	t1, memcpy
	jalr	t1
	addi	a0, sp, 20
	li	a2, 12
	mv	a1, s0
	la	t1, memcpy
	jalr	t1
	addi	a0, sp, 36
	li	a2, 12
	mv	a1, s0
	la	t1, memcpy
	jalr	t1
	addi	a0, sp, 52
	li	a2, 12
	mv	a1, s0
	la	t1, memcpy
	jalr	t1
	addi	a0, sp, 68
	li	a2, 12
	mv	a1, s0
	la	t1, memcpy
	jalr	t1
	addi	a0, sp, 84
	li	a2, 12
	mv	a1, s0
	la	t1, memcpy
	jalr	t1
	li	a0, 1
	li	a1, 2
	li	a2, 3
	li	a6, 4
	li	a7, 5
	lbu	t0, 0(s1)
	lbu	s0, 1(s1)
	lbu	a3, 2(s1)
	lbu	a4, 3(s1)
	sw	zero, 0(sp)
	sw	a0, 16(sp)
	sw	a1, 32(sp)
	sw	a2, 48(sp)
	lbu	a0, 4(s1)
	lbu	a1, 5(s1)
	lbu	a2, 6(s1)
	lbu	a5, 7(s1)
	sw	a6, 64(sp)
	sw	a7, 80(sp)
	slli	s0, s0, 8
	slli	a3, a3, 16
	slli	a4, a4, 24
	slli	a1, a1, 8
	or	a6, s0, t0
	or	a3, a3, a4
	or	a7, a1, a0
	lbu	a1, 8(s1)
	lbu	a4, 9(s1)
	lbu	s0, 10(s1)
	lbu	a0, 11(s1)
	slli	a2, a2, 16
	slli	a5, a5, 24
	slli	a4, a4, 8
	slli	s0, s0, 16
	slli	a0, a0, 24
	or	a2, a2, a5
	or	a1, a1, a4
	or	a0, a0, s0
	lbu	a4, 13(s1)
	lbu	a5, 12(s1)
	lbu	s0, 14(s1)
	lbu	s1, 15(s1)
	slli	a4, a4, 8
	or	a4, a4, a5
	slli	s0, s0, 16
	slli	s1, s1, 24
	or	s0, s0, s1
	or	a5, a3, a6
	or	a2, a2, a7
	addi	s3, sp, 16
	or	a1, a1, a0
	srli	a3, s4, 3
	addi	a3, a3, 2
	or	a4, a4, s0
	slli	a0, a2, 32
	slli	a4, a4, 32
	or	a0, a0, a5
	or	a1, a1, a4
	mv	a2, sp
	call	gcm_narrow.aes_narrow.blocks.process_all_batches
	call	gcm_narrow.aes_cipher.zeroize.stack.wipe_stack.1024
	lbu	a7, 7(sp)
	lwu	a0, 16(sp)
	lw	a1, 20(sp)
	lw	t4, 32(sp)
	lw	t5, 36(sp)
	lw	s1, 48(sp)
	lw	t6, 52(sp)
	lw	t2, 64(sp)
	lw	t3, 68(sp)
	lw	t0, 80(sp)
	lw	t1, 84(sp)
	lwu	a2, 0(sp)
	lbu	a3, 4(sp)
	lbu	a4, 5(sp)
	lbu	a5, 6(sp)
	li	a6, -31
	slli	a6, a6, 56
	slli	s6, a1, 32
	sw	a0, 8(sp)
	sw	a1, 12(sp)
	sw	t4, 16(sp)
	sw	t5, 20(sp)
	sw	s1, 24(sp)
	sw	t6, 28(sp)
	sw	t2, 32(sp)
	sw	t3, 36(sp)
	sw	t0, 40(sp)
	sw	t1, 44(sp)
	slli	a7, a7, 56
	slli	a5, a5, 48
	slli	a4, a4, 40
	slli	a3, a3, 32
	slli	t2, a0, 63
	srli	t0, a2, 9
	srli	t1, a2, 17
	srli	s1, a0, 9
	srli	s0, a0, 17
	srli	t3, a1, 1
	srli	t4, a1, 9
	srli	t5, a1, 17
	or	a0, s6, a0
	or	a2, a2, a3
	or	a4, a4, a2
	srli	a2, a2, 25
	srli	a3, a0, 1
	srli	a0, a0, 25
	or	a5, a5, a4
	srli	a4, a4, 33
	sb	a0, 4(s5)
	sb	s0, 5(s5)
	sb	s1, 6(s5)
	sb	a3, 7(s5)
	or	a0, a5, a7
	srli	a5, a5, 41
	srli	s1, a0, 49
	srli	s0, a0, 1
	slli	a0, a0, 63
	or	a1, s0, t2
	srai	a0, a0, 63
	sb	a2, 12(s5)
	sb	t1, 13(s5)
	sb	t0, 14(s5)
	sb	s0, 15(s5)
	srli	a1, a1, 56
	and	a0, a0, a6
	xor	a0, a0, a3
	sb	a1, 8(s5)
	sb	s1, 9(s5)
	sb	a5, 10(s5)
	sb	a4, 11(s5)
	srli	a0, a0, 56
	sb	a0, 0(s5)
	sb	t5, 1(s5)
	sb	t4, 2(s5)
	sb	t3, 3(s5)
	addi	s0, s2, 8
	li	a2, 960
	mv	a0, s0
	li	a1, 0
	la	t1, memset
	jalr	t1
	li	s1, 16
	bne	s4, s1, .Lgcm_narrow_BB28_2
# %bb.1:                                # %then.1.i
	li	a2, 16
	j	.Lgcm_narrow_BB28_3
.Lgcm_narrow_BB28_2:                               # %else.2.i
	li	a2, 32
	li	s1, 32
.Lgcm_narrow_BB28_3:                               # %"gcm_siv::keys::set_encryption_key::<#a556ffa628b2ee02>.exit"
	mv	a0, s0
	mv	a1, s3
	call	gcm_narrow.aes_narrow.word_room.expand_words
	call	gcm_narrow.aes_cipher.zeroize.stack.wipe_stack.768
	sd	s1, 0(s2)
	mv	a0, sp
	li	a1, 6
	call	gcm_narrow.aes_cipher.zeroize.elements.zeroize_elements.4
	ld	ra, 152(sp)                     # 8-byte Folded Reload
	ld	s0, 144(sp)                     # 8-byte Folded Reload
	ld	s1, 136(sp)                     # 8-byte Folded Reload
	ld	s2, 128(sp)                     # 8-byte Folded Reload
	ld	s3, 120(sp)                     # 8-byte Folded Reload
	ld	s4, 112(sp)                     # 8-byte Folded Reload
	ld	s5, 104(sp)                     # 8-byte Folded Reload
	ld	s6, 96(sp)                      # 8-byte Folded Reload
	addi	sp, sp, 160
	ret
.Lgcm_narrow_func_end28:
	.size	gcm_narrow.gcm_siv.keys.derive_and_prepare, .Lgcm_narrow_func_end28-gcm_narrow.gcm_siv.keys.derive_and_prepare
                                        # -- End function
	.section	.text.gcm_narrow.aes_cipher.zeroize.elements.zeroize_elements.4,"ax",@progbits
	.p2align	1                               # -- Begin function aes_cipher::zeroize::elements::zeroize_elements::<#82a118249f09cfc6>
	.type	gcm_narrow.aes_cipher.zeroize.elements.zeroize_elements.4,@function
gcm_narrow.aes_cipher.zeroize.elements.zeroize_elements.4: # @gcm_narrow.aes_cipher.zeroize.elements.zeroize_elements.4
# %bb.0:                                # %start
	addi	sp, sp, -96
	sd	ra, 88(sp)                      # 8-byte Folded Spill
	sd	s0, 80(sp)                      # 8-byte Folded Spill
	sd	s1, 72(sp)                      # 8-byte Folded Spill
	sd	s2, 64(sp)                      # 8-byte Folded Spill
	sd	s3, 56(sp)                      # 8-byte Folded Spill
	sd	s4, 48(sp)                      # 8-byte Folded Spill
	sd	s5, 40(sp)                      # 8-byte Folded Spill
	sd	s6, 32(sp)                      # 8-byte Folded Spill
	mv	s4, a1
	mv	s2, a0
	li	s3, 0
	sd	zero, 16(sp)
	sd	zero, 24(sp)
	sd	zero, 8(sp)
	#APP
	#NO_APP
	fence	rw, rw
	ld	s6, 8(sp)
	fence	r, rw
	#APP
	#NO_APP
	slli	s5, s6, 4
	bgeu	s6, a1, .Lgcm_narrow_BB29_2
# %bb.1:                                # %then.1.i6
	add	a0, s2, s5
	lbu	s3, 0(a0)
.Lgcm_narrow_BB29_2:                               # %"aes_cipher::zeroize::observe::<#aefc49fcc22ee515>.exit10"
	slli	s1, s4, 4
	add	s1, s1, s2
	mv	s0, s2
.Lgcm_narrow_BB29_3:                               # %join.6.i
                                        # =>This Inner Loop Header: Depth=1
	addi	a1, sp, 16
	li	a2, 16
	mv	a0, s0
	la	t1, memcpy
	jalr	t1
	addi	s0, s0, 16
	bne	s0, s1, .Lgcm_narrow_BB29_3
# %bb.4:                                # %"aes_cipher::zeroize::overwrite::<#8c2be25e1e7027ab>.exit"
	bgeu	s6, s4, .Lgcm_narrow_BB29_6
# %bb.5:                                # %then.1.i
	add	s2, s2, s5
	lbu	a0, 0(s2)
	and	a0, a0, s3
	j	.Lgcm_narrow_BB29_7
.Lgcm_narrow_BB29_6:
	li	a0, 0
.Lgcm_narrow_BB29_7:                               # %"aes_cipher::zeroize::observe::<#aefc49fcc22ee515>.exit"
	#APP
	#NO_APP
	addi	a1, sp, 8
	amoswap.d.aqrl	zero, a0, (a1)
	#APP
	#NO_APP
	ld	ra, 88(sp)                      # 8-byte Folded Reload
	ld	s0, 80(sp)                      # 8-byte Folded Reload
	ld	s1, 72(sp)                      # 8-byte Folded Reload
	ld	s2, 64(sp)                      # 8-byte Folded Reload
	ld	s3, 56(sp)                      # 8-byte Folded Reload
	ld	s4, 48(sp)                      # 8-byte Folded Reload
	ld	s5, 40(sp)                      # 8-byte Folded Reload
	ld	s6, 32(sp)                      # 8-byte Folded Reload
	addi	sp, sp, 96
	ret
.Lgcm_narrow_func_end29:
	.size	gcm_narrow.aes_cipher.zeroize.elements.zeroize_elements.4, .Lgcm_narrow_func_end29-gcm_narrow.aes_cipher.zeroize.elements.zeroize_elements.4
                                        # -- End function
	.section	.text.gcm_narrow.gcm_siv.message.open,"ax",@progbits
	.p2align	1                               # -- Begin function gcm_siv::message::open::<#bc93ff5f0cc4cd41>
	.type	gcm_narrow.gcm_siv.message.open,@function
gcm_narrow.gcm_siv.message.open: # @gcm_narrow.gcm_siv.message.open
# %bb.0:                                # %start
	addi	sp, sp, -176
	sd	ra, 168(sp)                     # 8-byte Folded Spill
	sd	s0, 160(sp)                     # 8-byte Folded Spill
	sd	s1, 152(sp)                     # 8-byte Folded Spill
	sd	s2, 144(sp)                     # 8-byte Folded Spill
	sd	s3, 136(sp)                     # 8-byte Folded Spill
	sd	s4, 128(sp)                     # 8-byte Folded Spill
	sd	s5, 120(sp)                     # 8-byte Folded Spill
	sd	s6, 112(sp)                     # 8-byte Folded Spill
	sd	s7, 104(sp)                     # 8-byte Folded Spill
	sd	s8, 96(sp)                      # 8-byte Folded Spill
	sd	s9, 88(sp)                      # 8-byte Folded Spill
	sd	s10, 80(sp)                     # 8-byte Folded Spill
	sd	s11, 72(sp)                     # 8-byte Folded Spill
	mv	s1, a7
	mv	s2, a6
	mv	s0, a5
	mv	s5, a4
	mv	s6, a3
	mv	s7, a2
	mv	s8, a1
	mv	s3, a0
	lbu	a2, 12(a7)
	lbu	a3, 13(a7)
	lbu	a6, 14(a7)
	lbu	a7, 15(a7)
	lbu	t1, 8(s1)
	lbu	t2, 9(s1)
	lbu	a0, 10(s1)
	lbu	a1, 11(s1)
	slli	a3, a3, 8
	or	t0, a3, a2
	lbu	a3, 0(s1)
	lbu	a2, 1(s1)
	lbu	a4, 2(s1)
	lbu	a5, 3(s1)
	slli	t2, t2, 8
	slli	a0, a0, 16
	slli	a1, a1, 24
	slli	a2, a2, 8
	slli	a4, a4, 16
	slli	a5, a5, 24
	or	t1, t2, t1
	or	t2, a1, a0
	or	a2, a2, a3
	or	a4, a4, a5
	lbu	a1, 5(s1)
	lbu	a3, 4(s1)
	lbu	a5, 6(s1)
	lbu	a0, 7(s1)
	slli	a1, a1, 8
	or	a1, a1, a3
	slli	a5, a5, 16
	slli	a0, a0, 24
	or	a0, a0, a5
	or	a3, t2, t1
	or	a2, a2, a4
	addi	s4, s3, 8
	or	a0, a0, a1
	ld	a1, 0(s3)
	slli	a0, a0, 32
	or	a0, a0, a2
	li	a2, 16
	ori	s10, a7, -128
	slli	a1, a1, 1
	addi	s9, a1, 56
	sd	a0, 56(sp)
	sw	a3, 64(sp)
	sh	t0, 68(sp)
	sb	a6, 70(sp)
	sb	s10, 71(sp)
	bltu	a2, s2, .Lgcm_narrow_BB30_4
# %bb.1:                                # %then.1.i.i.i
	lw	s11, 56(sp)
	addi	a0, sp, 28
	addi	a1, s1, 4
	li	a2, 11
	la	t1, memcpy
	jalr	t1
	sw	s11, 24(sp)
	sb	s10, 39(sp)
	addi	a2, sp, 24
	li	a3, 1
	mv	a0, s4
	mv	a1, s9
	call	gcm_narrow.aes_narrow.blocks.process_all_batches
	call	gcm_narrow.aes_cipher.zeroize.stack.wipe_stack.1024
	beqz	s2, .Lgcm_narrow_BB30_7
# %bb.2:                                # %then.1.i.i.i
	li	a0, 16
	bne	s2, a0, .Lgcm_narrow_BB30_5
# %bb.3:                                # %after.4.i.thread.i.i.i.i
	lbu	t1, 12(s0)
	lbu	t0, 13(s0)
	lbu	a7, 14(s0)
	lbu	a6, 15(s0)
	lbu	t4, 8(s0)
	lbu	t5, 9(s0)
	lbu	t2, 10(s0)
	lbu	t3, 11(s0)
	lbu	s10, 4(s0)
	lbu	s11, 5(s0)
	lbu	t6, 6(s0)
	lbu	s9, 7(s0)
	lbu	a4, 0(s0)
	lbu	a5, 1(s0)
	lbu	ra, 2(s0)
	lbu	a1, 3(s0)
	lbu	a2, 24(sp)
	lbu	a3, 25(sp)
	lbu	a0, 26(sp)
	sd	s5, 0(sp)                       # 8-byte Folded Spill
	lbu	s5, 27(sp)
	xor	a2, a2, a4
	xor	a3, a3, a5
	xor	ra, a0, ra
	xor	s5, s5, a1
	lbu	a4, 28(sp)
	lbu	a5, 29(sp)
	lbu	a0, 30(sp)
	lbu	a1, 31(sp)
	xor	s10, a4, s10
	xor	s11, a5, s11
	xor	t6, a0, t6
	xor	s9, a1, s9
	lbu	a0, 32(sp)
	lbu	a1, 33(sp)
	lbu	a4, 34(sp)
	lbu	a5, 35(sp)
	xor	t4, a0, t4
	xor	t5, a1, t5
	xor	t2, a4, t2
	xor	t3, a5, t3
	lbu	a0, 36(sp)
	lbu	a1, 37(sp)
	lbu	a4, 38(sp)
	lbu	a5, 39(sp)
	xor	a0, a0, t1
	xor	a1, a1, t0
	xor	a4, a4, a7
	xor	a5, a5, a6
	sb	a0, 12(s0)
	sb	a1, 13(s0)
	sb	a4, 14(s0)
	sb	a5, 15(s0)
	sb	t4, 8(s0)
	sb	t5, 9(s0)
	sb	t2, 10(s0)
	sb	t3, 11(s0)
	sb	s10, 4(s0)
	sb	s11, 5(s0)
	sb	t6, 6(s0)
	sb	s9, 7(s0)
	sb	a2, 0(s0)
	sb	a3, 1(s0)
	sb	ra, 2(s0)
	sb	s5, 3(s0)
	ld	s5, 0(sp)                       # 8-byte Folded Reload
	j	.Lgcm_narrow_BB30_7
.Lgcm_narrow_BB30_4:                               # %else.2.i.i.i
	addi	a0, sp, 56
	sd	a0, 24(sp)
	sd	zero, 32(sp)
	sd	s0, 40(sp)
	sd	s2, 48(sp)
	addi	a2, sp, 24
	mv	a0, s4
	mv	a1, s9
	call	gcm_narrow.aes_narrow.borrowed_words.call_to_encrypt.2
	call	gcm_narrow.aes_cipher.zeroize.stack.wipe_stack.2032
	j	.Lgcm_narrow_BB30_7
.Lgcm_narrow_BB30_5:                               # %join.8.i6.i.i.i.i.preheader
	add	a0, s0, s2
	addi	a1, sp, 24
	mv	a2, s0
.Lgcm_narrow_BB30_6:                               # %join.8.i6.i.i.i.i
                                        # =>This Inner Loop Header: Depth=1
	lbu	a3, 0(a1)
	lbu	a4, 0(a2)
	xor	a3, a3, a4
	sb	a3, 0(a2)
	addi	a2, a2, 1
	addi	a1, a1, 1
	bne	a2, a0, .Lgcm_narrow_BB30_6
.Lgcm_narrow_BB30_7:                               # %"gcm_siv::message::process_text::<#a556ffa628b2ee02>.exit"
	addi	a7, sp, 24
	mv	a0, s3
	mv	a1, s8
	mv	a2, s7
	mv	a3, s6
	mv	a4, s5
	mv	a5, s0
	mv	a6, s2
	call	gcm_narrow.gcm_siv.message.put_tag
	addi	a1, sp, 24
	mv	a0, s1
	call	gcm_narrow.aes_cipher.blocks.difference
	slli	a0, a0, 32
	srli	s5, a0, 32
	addi	a0, sp, 24
	li	a1, 1
	call	gcm_narrow.aes_cipher.zeroize.elements.zeroize_elements.4
	beqz	s5, .Lgcm_narrow_BB30_15
# %bb.8:                                # %join.3
	lbu	a2, 12(s1)
	lbu	a3, 13(s1)
	lbu	a6, 14(s1)
	lbu	a7, 15(s1)
	lbu	t1, 8(s1)
	lbu	t2, 9(s1)
	lbu	a0, 10(s1)
	lbu	a1, 11(s1)
	slli	a3, a3, 8
	or	t0, a3, a2
	lbu	a3, 0(s1)
	lbu	a2, 1(s1)
	lbu	a4, 2(s1)
	lbu	a5, 3(s1)
	slli	t2, t2, 8
	slli	a0, a0, 16
	slli	a1, a1, 24
	slli	a2, a2, 8
	slli	a4, a4, 16
	slli	a5, a5, 24
	or	t1, t2, t1
	or	t2, a1, a0
	or	a2, a2, a3
	or	a4, a4, a5
	lbu	a1, 5(s1)
	lbu	a3, 4(s1)
	lbu	a5, 6(s1)
	lbu	a0, 7(s1)
	slli	a1, a1, 8
	or	a1, a1, a3
	slli	a5, a5, 16
	slli	a0, a0, 24
	or	a0, a0, a5
	or	a3, t2, t1
	or	a2, a2, a4
	or	a0, a0, a1
	ld	a1, 0(s3)
	slli	a0, a0, 32
	or	a0, a0, a2
	li	a2, 16
	ori	s6, a7, -128
	slli	a1, a1, 1
	addi	s3, a1, 56
	sd	a0, 8(sp)
	sw	a3, 16(sp)
	sh	t0, 20(sp)
	sb	a6, 22(sp)
	sb	s6, 23(sp)
	bltu	a2, s2, .Lgcm_narrow_BB30_12
# %bb.9:                                # %then.1.i.i.i20
	lw	s7, 8(sp)
	addi	a0, sp, 60
	addi	a1, s1, 4
	li	a2, 11
	la	t1, memcpy
	jalr	t1
	sw	s7, 56(sp)
	sb	s6, 71(sp)
	addi	a2, sp, 56
	li	a3, 1
	mv	a0, s4
	mv	a1, s3
	call	gcm_narrow.aes_narrow.blocks.process_all_batches
	call	gcm_narrow.aes_cipher.zeroize.stack.wipe_stack.1024
	beqz	s2, .Lgcm_narrow_BB30_15
# %bb.10:                               # %then.1.i.i.i20
	li	a0, 16
	bne	s2, a0, .Lgcm_narrow_BB30_13
# %bb.11:                               # %after.4.i.thread.i.i.i.i24
	lbu	t1, 12(s0)
	lbu	t0, 13(s0)
	lbu	a7, 14(s0)
	lbu	a6, 15(s0)
	lbu	t3, 8(s0)
	lbu	t4, 9(s0)
	lbu	t5, 10(s0)
	lbu	t2, 11(s0)
	lbu	s2, 4(s0)
	lbu	s3, 5(s0)
	lbu	s4, 6(s0)
	lbu	t6, 7(s0)
	lbu	a4, 0(s0)
	lbu	a5, 1(s0)
	lbu	s1, 2(s0)
	lbu	s6, 3(s0)
	lbu	a1, 56(sp)
	lbu	a2, 57(sp)
	lbu	a3, 58(sp)
	lbu	a0, 59(sp)
	xor	s7, a1, a4
	xor	s8, a2, a5
	xor	s9, a3, s1
	xor	s6, a0, s6
	lbu	a4, 60(sp)
	lbu	a5, 61(sp)
	lbu	s1, 62(sp)
	lbu	a0, 63(sp)
	xor	s2, a4, s2
	xor	s3, a5, s3
	xor	s4, s1, s4
	xor	t6, a0, t6
	lbu	a1, 64(sp)
	lbu	a2, 65(sp)
	lbu	a3, 66(sp)
	lbu	a0, 67(sp)
	xor	a1, a1, t3
	xor	a2, a2, t4
	xor	a3, a3, t5
	xor	t2, a0, t2
	lbu	a4, 68(sp)
	lbu	a5, 69(sp)
	lbu	s1, 70(sp)
	lbu	a0, 71(sp)
	xor	a4, a4, t1
	xor	a5, a5, t0
	xor	s1, s1, a7
	xor	a0, a0, a6
	sb	a4, 12(s0)
	sb	a5, 13(s0)
	sb	s1, 14(s0)
	sb	a0, 15(s0)
	sb	a1, 8(s0)
	sb	a2, 9(s0)
	sb	a3, 10(s0)
	sb	t2, 11(s0)
	sb	s2, 4(s0)
	sb	s3, 5(s0)
	sb	s4, 6(s0)
	sb	t6, 7(s0)
	sb	s7, 0(s0)
	sb	s8, 1(s0)
	sb	s9, 2(s0)
	sb	s6, 3(s0)
	j	.Lgcm_narrow_BB30_15
.Lgcm_narrow_BB30_12:                              # %else.2.i.i.i16
	addi	a0, sp, 8
	sd	a0, 24(sp)
	sd	zero, 32(sp)
	sd	s0, 40(sp)
	sd	s2, 48(sp)
	addi	a2, sp, 24
	mv	a0, s4
	mv	a1, s3
	call	gcm_narrow.aes_narrow.borrowed_words.call_to_encrypt.2
	call	gcm_narrow.aes_cipher.zeroize.stack.wipe_stack.2032
	j	.Lgcm_narrow_BB30_15
.Lgcm_narrow_BB30_13:                              # %join.8.i6.i.i.i.i72.preheader
	add	s2, s2, s0
	addi	a0, sp, 56
.Lgcm_narrow_BB30_14:                              # %join.8.i6.i.i.i.i72
                                        # =>This Inner Loop Header: Depth=1
	lbu	a1, 0(a0)
	lbu	a2, 0(s0)
	xor	a1, a1, a2
	sb	a1, 0(s0)
	addi	s0, s0, 1
	addi	a0, a0, 1
	bne	s0, s2, .Lgcm_narrow_BB30_14
.Lgcm_narrow_BB30_15:                              # %common.ret
	seqz	a0, s5
	ld	ra, 168(sp)                     # 8-byte Folded Reload
	ld	s0, 160(sp)                     # 8-byte Folded Reload
	ld	s1, 152(sp)                     # 8-byte Folded Reload
	ld	s2, 144(sp)                     # 8-byte Folded Reload
	ld	s3, 136(sp)                     # 8-byte Folded Reload
	ld	s4, 128(sp)                     # 8-byte Folded Reload
	ld	s5, 120(sp)                     # 8-byte Folded Reload
	ld	s6, 112(sp)                     # 8-byte Folded Reload
	ld	s7, 104(sp)                     # 8-byte Folded Reload
	ld	s8, 96(sp)                      # 8-byte Folded Reload
	ld	s9, 88(sp)                      # 8-byte Folded Reload
	ld	s10, 80(sp)                     # 8-byte Folded Reload
	ld	s11, 72(sp)                     # 8-byte Folded Reload
	addi	sp, sp, 176
	ret
.Lgcm_narrow_func_end30:
	.size	gcm_narrow.gcm_siv.message.open, .Lgcm_narrow_func_end30-gcm_narrow.gcm_siv.message.open
                                        # -- End function
	.section	.text.gcm_narrow.gcm_siv.message.put_tag,"ax",@progbits
	.p2align	1                               # -- Begin function gcm_siv::message::put_tag::<#bc93ff5f0cc4cd41>
	.type	gcm_narrow.gcm_siv.message.put_tag,@function
gcm_narrow.gcm_siv.message.put_tag: # @gcm_narrow.gcm_siv.message.put_tag
# %bb.0:                                # %start
	addi	sp, sp, -144
	sd	ra, 136(sp)                     # 8-byte Folded Spill
	sd	s0, 128(sp)                     # 8-byte Folded Spill
	sd	s1, 120(sp)                     # 8-byte Folded Spill
	sd	s2, 112(sp)                     # 8-byte Folded Spill
	sd	s3, 104(sp)                     # 8-byte Folded Spill
	sd	s4, 96(sp)                      # 8-byte Folded Spill
	sd	s5, 88(sp)                      # 8-byte Folded Spill
	sd	s6, 80(sp)                      # 8-byte Folded Spill
	sd	s7, 72(sp)                      # 8-byte Folded Spill
	sd	s8, 64(sp)                      # 8-byte Folded Spill
	sd	s9, 56(sp)                      # 8-byte Folded Spill
	sd	s10, 48(sp)                     # 8-byte Folded Spill
	sd	s11, 40(sp)                     # 8-byte Folded Spill
	mv	s4, a7
	mv	s5, a6
	sd	a5, 0(sp)                       # 8-byte Folded Spill
	mv	s9, a4
	mv	s3, a2
	sd	a0, 8(sp)                       # 8-byte Folded Spill
	lbu	t3, 0(a1)
	lbu	t2, 1(a1)
	lbu	t4, 2(a1)
	lbu	s1, 3(a1)
	lbu	a4, 8(a1)
	lbu	a7, 9(a1)
	lbu	t0, 10(a1)
	lbu	a2, 11(a1)
	lbu	a5, 4(a1)
	lbu	t5, 5(a1)
	lbu	t6, 6(a1)
	lbu	a6, 7(a1)
	lbu	a0, 12(a1)
	lbu	s6, 13(a1)
	lbu	s7, 14(a1)
	lbu	t1, 15(a1)
	li	s11, 255
	slli	a5, a5, 32
	slli	a1, s1, 24
	or	a1, a1, a5
	lui	s8, 4080
	slli	a0, a0, 32
	slli	a2, a2, 24
	or	a0, a0, a2
	lui	a2, 16
	slli	t4, t4, 16
	slli	t2, t2, 8
	or	a5, t2, t3
	or	a5, a5, t4
	slli	s10, s11, 24
	addi	s2, a2, -256
	slli	t6, t6, 48
	slli	t5, t5, 40
	slli	s7, s7, 48
	slli	s6, s6, 40
	slli	t0, t0, 16
	slli	a7, a7, 8
	or	a2, a7, a4
	slli	a7, a4, 56
	slli	t3, t3, 56
	or	a2, a2, t0
	or	a1, a1, a5
	or	a0, a0, a2
	and	a2, a2, s2
	and	a5, a5, s2
	or	a4, a1, t5
	or	s1, a0, s6
	srli	s0, a0, 8
	and	t0, a0, s8
	slli	a2, a2, 40
	or	a7, a7, a2
	srli	a2, a1, 8
	and	t2, a1, s8
	slli	a5, a5, 40
	or	a0, a4, t6
	or	a1, s1, s7
	and	s0, s0, s10
	srli	s1, s1, 24
	slli	t0, t0, 24
	and	a2, a2, s10
	srli	a4, a4, 24
	slli	t2, t2, 24
	or	t3, t3, a5
	and	s1, s1, s8
	srli	a5, a1, 40
	srliw	a1, a1, 24
	and	a4, a4, s8
	or	s0, s0, s1
	srli	s1, a0, 40
	srliw	a0, a0, 24
	and	a5, a5, s2
	slli	a1, a1, 32
	or	a2, a2, a4
	and	a4, s1, s2
	slli	a0, a0, 32
	or	a5, a5, t1
	or	a1, t0, a1
	or	a4, a4, a6
	or	a0, t2, a0
	or	a5, a5, s0
	or	a1, a7, a1
	or	a2, a2, a4
	or	a0, t3, a0
	or	s6, a1, a5
	or	s7, a0, a2
	sd	s6, 16(sp)
	sd	s7, 24(sp)
	addi	a0, sp, 16
	li	a1, 0
	li	a2, 0
	mv	a4, s9
	call	gcm_narrow.gcm.single_blocks.hash_singly.2
	mv	a2, a0
	mv	a3, a1
	addi	a0, sp, 16
	mv	a1, a2
	mv	a2, a3
	ld	a3, 0(sp)                       # 8-byte Folded Reload
	mv	a4, s5
	call	gcm_narrow.gcm.single_blocks.hash_singly.2
	srli	t2, s9, 53
	srli	t4, s5, 53
	slli	t5, s5, 59
	slli	a6, s5, 43
	slli	a3, s11, 48
	slli	s1, s5, 27
	slli	a4, s11, 40
	slli	s0, s5, 11
	slli	s11, s11, 32
	srli	a5, s5, 5
	srli	t3, s5, 21
	srli	t6, s5, 37
	slli	s5, s9, 59
	slli	a2, s9, 43
	and	t0, a6, a3
	and	t1, a2, a3
	slli	a2, s9, 27
	and	s1, s1, a4
	and	ra, a2, a4
	slli	a3, s9, 11
	and	a2, s0, s11
	and	s11, a3, s11
	srli	s0, s9, 5
	and	a6, a5, s10
	and	a7, s0, s10
	srli	a5, s9, 21
	srli	s0, s9, 37
	and	a4, t3, s8
	and	a3, t6, s2
	or	t3, a3, a4
	zext.b	a3, t2
	and	a4, a5, s8
	and	a5, s0, s2
	or	t6, a5, a4
	zext.b	a5, t4
	or	s9, a5, t5
	srli	t5, t5, 56
	slli	t4, t4, 56
	or	s10, a3, s5
	srli	s5, s5, 56
	slli	t2, t2, 56
	or	s0, s1, t0
	or	t0, ra, t1
	srli	s1, s1, 24
	or	t1, s9, a2
	srli	a2, a2, 8
	srli	a3, ra, 24
	or	a5, s10, s11
	srli	a4, s11, 8
	or	s10, a2, s1
	or	s9, a4, a3
	or	a4, t1, s0
	or	a5, a5, t0
	or	s1, a4, t3
	or	s0, a5, t6
	srli	a4, a4, 40
	srli	a5, a5, 40
	or	a3, s1, a6
	or	a2, s0, a7
	and	a4, a4, s2
	and	s1, s1, s2
	and	a5, a5, s2
	and	s0, s0, s2
	or	a4, a4, t5
	srliw	a6, a3, 24
	and	a3, a3, s8
	slli	s1, s1, 40
	or	a5, a5, s5
	srliw	a7, a2, 24
	and	a2, a2, s8
	slli	s0, s0, 40
	or	a4, s10, a4
	slli	a6, a6, 32
	slli	a3, a3, 24
	or	s1, t4, s1
	or	a5, s9, a5
	slli	a7, a7, 32
	slli	a2, a2, 24
	or	s0, t2, s0
	or	a3, a3, a6
	or	a4, a4, s1
	or	a2, a2, a7
	or	a5, a5, s0
	or	a3, a3, a4
	or	a2, a2, a5
	xor	a0, a0, a2
	xor	a1, a1, a3
	mv	a2, s6
	mv	a3, s7
	call	gcm_narrow.gcm.bitwise.product_bitwise
	srli	t3, a1, 40
	srli	t5, a1, 32
	lbu	a7, 0(s3)
	lbu	t0, 1(s3)
	lbu	t1, 2(s3)
	lbu	t2, 3(s3)
	lbu	t4, 4(s3)
	lbu	t6, 5(s3)
	lbu	s2, 6(s3)
	lbu	a2, 7(s3)
	lbu	a6, 8(s3)
	lbu	a5, 9(s3)
	lbu	a3, 10(s3)
	lbu	s1, 11(s3)
	sb	t5, 12(s4)
	srli	t5, a1, 48
	sb	t3, 13(s4)
	srli	s0, a1, 24
	xor	t3, s0, s1
	srli	s1, a1, 16
	xor	s3, s1, a3
	srli	s1, a1, 8
	xor	s5, s1, a5
	srli	s1, a0, 56
	xor	s6, s1, a2
	srli	s1, a0, 48
	xor	s1, s1, s2
	srli	a4, a0, 40
	xor	a4, a4, t6
	srli	s0, a0, 32
	xor	s0, s0, t4
	srli	a3, a0, 24
	xor	a3, a3, t2
	srli	a5, a0, 16
	xor	a5, a5, t1
	srli	a2, a0, 8
	xor	a2, a2, t0
	xor	a0, a0, a7
	sb	a0, 0(s4)
	sb	a2, 1(s4)
	sb	a5, 2(s4)
	sb	a3, 3(s4)
	sb	s0, 4(s4)
	sb	a4, 5(s4)
	sb	s1, 6(s4)
	sb	s6, 7(s4)
	xor	a0, a1, a6
	sb	a0, 8(s4)
	sb	s5, 9(s4)
	sb	s3, 10(s4)
	sb	t3, 11(s4)
	slli	a1, a1, 1
	srli	a1, a1, 57
	sb	t5, 14(s4)
	sb	a1, 15(s4)
	ld	a0, 8(sp)                       # 8-byte Folded Reload
	ld	a1, 0(a0)
	addi	a0, a0, 8
	slli	a1, a1, 1
	addi	a1, a1, 56
	li	a3, 1
	mv	a2, s4
	call	gcm_narrow.aes_narrow.blocks.process_all_batches
	ld	ra, 136(sp)                     # 8-byte Folded Reload
	ld	s0, 128(sp)                     # 8-byte Folded Reload
	ld	s1, 120(sp)                     # 8-byte Folded Reload
	ld	s2, 112(sp)                     # 8-byte Folded Reload
	ld	s3, 104(sp)                     # 8-byte Folded Reload
	ld	s4, 96(sp)                      # 8-byte Folded Reload
	ld	s5, 88(sp)                      # 8-byte Folded Reload
	ld	s6, 80(sp)                      # 8-byte Folded Reload
	ld	s7, 72(sp)                      # 8-byte Folded Reload
	ld	s8, 64(sp)                      # 8-byte Folded Reload
	ld	s9, 56(sp)                      # 8-byte Folded Reload
	ld	s10, 48(sp)                     # 8-byte Folded Reload
	ld	s11, 40(sp)                     # 8-byte Folded Reload
	addi	sp, sp, 144
	tail	gcm_narrow.aes_cipher.zeroize.stack.wipe_stack.1024
.Lgcm_narrow_func_end31:
	.size	gcm_narrow.gcm_siv.message.put_tag, .Lgcm_narrow_func_end31-gcm_narrow.gcm_siv.message.put_tag
                                        # -- End function
	.section	.text.gcm_narrow.gcm.single_blocks.hash_singly.2,"ax",@progbits
	.p2align	1                               # -- Begin function gcm::single_blocks::hash_singly::<#4042f4b97f1aa5e1>
	.type	gcm_narrow.gcm.single_blocks.hash_singly.2,@function
gcm_narrow.gcm.single_blocks.hash_singly.2: # @gcm_narrow.gcm.single_blocks.hash_singly.2
# %bb.0:                                # %start
	addi	sp, sp, -128
	sd	ra, 120(sp)                     # 8-byte Folded Spill
	sd	s0, 112(sp)                     # 8-byte Folded Spill
	sd	s1, 104(sp)                     # 8-byte Folded Spill
	sd	s2, 96(sp)                      # 8-byte Folded Spill
	sd	s3, 88(sp)                      # 8-byte Folded Spill
	sd	s4, 80(sp)                      # 8-byte Folded Spill
	sd	s5, 72(sp)                      # 8-byte Folded Spill
	sd	s6, 64(sp)                      # 8-byte Folded Spill
	sd	s7, 56(sp)                      # 8-byte Folded Spill
	sd	s8, 48(sp)                      # 8-byte Folded Spill
	sd	s9, 40(sp)                      # 8-byte Folded Spill
	sd	s10, 32(sp)                     # 8-byte Folded Spill
	sd	s11, 24(sp)                     # 8-byte Folded Spill
	mv	s4, a4
	mv	s2, a3
	srli	a3, a4, 4
	mv	s3, a0
	beqz	a3, .Lgcm_narrow_BB32_5
# %bb.1:                                # %join.5.i.lr.ph
	ld	s5, 0(s3)
	ld	s7, 8(s3)
	slli	a3, a3, 4
	add	s6, s2, a3
	mv	s0, s2
	mv	a0, a1
	mv	a1, a2
.Lgcm_narrow_BB32_2:                               # %join.5.i
                                        # =>This Inner Loop Header: Depth=1
	lbu	t6, 4(s0)
	lbu	t0, 5(s0)
	lbu	a7, 6(s0)
	lbu	t5, 7(s0)
	lbu	t2, 0(s0)
	lbu	t3, 1(s0)
	lbu	t4, 2(s0)
	lbu	s8, 3(s0)
	lbu	s1, 8(s0)
	lbu	a2, 9(s0)
	lbu	s9, 10(s0)
	lbu	a4, 11(s0)
	lbu	a3, 12(s0)
	lbu	s10, 13(s0)
	lbu	s11, 14(s0)
	lbu	a5, 15(s0)
	slli	a4, a4, 32
	slli	a3, a3, 24
	or	a6, a3, a4
	lui	a4, 16
	slli	s1, s1, 56
	slli	a2, a2, 48
	or	t1, s1, a2
	li	s1, 255
	slli	s8, s8, 32
	slli	t6, t6, 24
	or	s8, t6, s8
	lui	t6, 4080
	addi	a4, a4, -256
	slli	ra, s1, 24
	slli	s9, s9, 40
	slli	s10, s10, 16
	slli	s11, s11, 8
	slli	t2, t2, 56
	slli	t3, t3, 48
	slli	t4, t4, 40
	slli	t0, t0, 16
	slli	a7, a7, 8
	or	a2, s11, a5
	slli	s11, a5, 56
	or	a3, a7, t5
	slli	t5, t5, 56
	or	a7, t2, t3
	or	a2, a2, s10
	or	a3, a3, t0
	or	s1, a2, a6
	or	a5, a3, s8
	and	t0, a2, a4
	and	a6, a3, a4
	or	a3, s1, s9
	or	a2, a5, t4
	srli	t2, s1, 8
	and	s8, s1, t6
	slli	t0, t0, 40
	srli	t3, a5, 8
	and	t4, a5, t6
	slli	a6, a6, 40
	or	a5, t1, a3
	or	s1, a7, a2
	and	a7, t2, ra
	srli	a3, a3, 24
	slli	s8, s8, 24
	or	t0, s11, t0
	and	t1, t3, ra
	srli	t2, a2, 24
	slli	t4, t4, 24
	or	a6, t5, a6
	srli	t5, a5, 40
	srli	t3, a5, 56
	and	s11, a3, t6
	srliw	a5, a5, 24
	srli	s10, s1, 40
	srli	s9, s1, 56
	and	a2, t2, t6
	srliw	s1, s1, 24
	and	a3, t5, a4
	or	a7, a7, s11
	slli	a5, a5, 32
	and	a4, s10, a4
	or	a2, t1, a2
	slli	s1, s1, 32
	or	a3, a3, t3
	or	a5, s8, a5
	or	a4, a4, s9
	or	s1, t4, s1
	or	a3, a7, a3
	or	a5, t0, a5
	or	a2, a2, a4
	or	a4, a6, s1
	or	a3, a3, a5
	or	a2, a2, a4
	xor	a0, a0, a2
	xor	a1, a1, a3
	mv	a2, s5
	mv	a3, s7
	call	gcm_narrow.gcm.bitwise.product_bitwise
	addi	s0, s0, 16
	bne	s0, s6, .Lgcm_narrow_BB32_2
# %bb.3:                                # %"gcm::single_blocks::hash_whole::<#4042f4b97f1aa5e1>.exit"
	andi	a2, s4, 15
	beqz	a2, .Lgcm_narrow_BB32_6
.Lgcm_narrow_BB32_4:                               # %join.3
	andi	a3, s4, -16
	add	s2, s2, a3
	sd	zero, 8(sp)
	sd	zero, 16(sp)
	mv	s0, a0
	addi	a0, sp, 8
	mv	s1, a1
	mv	a1, s2
	la	t1, memcpy
	jalr	t1
	ld	a0, 8(sp)
	ld	a1, 16(sp)
	ld	a2, 0(s3)
	ld	a3, 8(s3)
	xor	a0, a0, s0
	xor	a1, a1, s1
	ld	ra, 120(sp)                     # 8-byte Folded Reload
	ld	s0, 112(sp)                     # 8-byte Folded Reload
	ld	s1, 104(sp)                     # 8-byte Folded Reload
	ld	s2, 96(sp)                      # 8-byte Folded Reload
	ld	s3, 88(sp)                      # 8-byte Folded Reload
	ld	s4, 80(sp)                      # 8-byte Folded Reload
	ld	s5, 72(sp)                      # 8-byte Folded Reload
	ld	s6, 64(sp)                      # 8-byte Folded Reload
	ld	s7, 56(sp)                      # 8-byte Folded Reload
	ld	s8, 48(sp)                      # 8-byte Folded Reload
	ld	s9, 40(sp)                      # 8-byte Folded Reload
	ld	s10, 32(sp)                     # 8-byte Folded Reload
	ld	s11, 24(sp)                     # 8-byte Folded Reload
	addi	sp, sp, 128
	tail	gcm_narrow.gcm.bitwise.product_bitwise
.Lgcm_narrow_BB32_5:
	mv	a0, a1
	mv	a1, a2
	andi	a2, s4, 15
	bnez	a2, .Lgcm_narrow_BB32_4
.Lgcm_narrow_BB32_6:                               # %common.ret
	ld	ra, 120(sp)                     # 8-byte Folded Reload
	ld	s0, 112(sp)                     # 8-byte Folded Reload
	ld	s1, 104(sp)                     # 8-byte Folded Reload
	ld	s2, 96(sp)                      # 8-byte Folded Reload
	ld	s3, 88(sp)                      # 8-byte Folded Reload
	ld	s4, 80(sp)                      # 8-byte Folded Reload
	ld	s5, 72(sp)                      # 8-byte Folded Reload
	ld	s6, 64(sp)                      # 8-byte Folded Reload
	ld	s7, 56(sp)                      # 8-byte Folded Reload
	ld	s8, 48(sp)                      # 8-byte Folded Reload
	ld	s9, 40(sp)                      # 8-byte Folded Reload
	ld	s10, 32(sp)                     # 8-byte Folded Reload
	ld	s11, 24(sp)                     # 8-byte Folded Reload
	addi	sp, sp, 128
	ret
.Lgcm_narrow_func_end32:
	.size	gcm_narrow.gcm.single_blocks.hash_singly.2, .Lgcm_narrow_func_end32-gcm_narrow.gcm.single_blocks.hash_singly.2
                                        # -- End function
	.section	.text.gcm_narrow.aes_narrow.borrowed_words.call_to_encrypt.2,"ax",@progbits
	.p2align	1                               # -- Begin function aes_narrow::borrowed_words::call_to_encrypt::<#e4d7cacdf4953217>
	.type	gcm_narrow.aes_narrow.borrowed_words.call_to_encrypt.2,@function
gcm_narrow.aes_narrow.borrowed_words.call_to_encrypt.2: # @gcm_narrow.aes_narrow.borrowed_words.call_to_encrypt.2
# %bb.0:                                # %start
	addi	sp, sp, -432
	sd	ra, 424(sp)                     # 8-byte Folded Spill
	sd	s0, 416(sp)                     # 8-byte Folded Spill
	sd	s1, 408(sp)                     # 8-byte Folded Spill
	sd	s2, 400(sp)                     # 8-byte Folded Spill
	sd	s3, 392(sp)                     # 8-byte Folded Spill
	sd	s4, 384(sp)                     # 8-byte Folded Spill
	sd	s5, 376(sp)                     # 8-byte Folded Spill
	sd	s6, 368(sp)                     # 8-byte Folded Spill
	sd	s7, 360(sp)                     # 8-byte Folded Spill
	sd	s8, 352(sp)                     # 8-byte Folded Spill
	sd	s9, 344(sp)                     # 8-byte Folded Spill
	sd	s10, 336(sp)                    # 8-byte Folded Spill
	sd	s11, 328(sp)                    # 8-byte Folded Spill
	mv	s5, a1
	mv	s11, a0
	ld	s0, 8(a2)
	ld	s4, 0(a2)
	ld	s8, 16(a2)
	ld	s1, 24(a2)
	andi	a0, s0, 15
	sd	s11, 40(sp)
	sd	a1, 48(sp)
	beqz	a0, .Lgcm_narrow_BB33_5
# %bb.1:                                # %then.1.i.i
	addi	a0, sp, 40
	mv	a1, s4
	mv	a2, s0
	li	a3, 0
	mv	a4, s8
	mv	a5, s1
	call	gcm_narrow.aes_ctr.add_in_batches.add_next.2
	mv	a3, a0
	sub	s6, s1, a0
	li	a0, 64
	bgeu	s6, a0, .Lgcm_narrow_BB33_6
.Lgcm_narrow_BB33_2:                               # %loop.13.preheader.i.i
	bgeu	a3, s1, .Lgcm_narrow_BB33_4
.Lgcm_narrow_BB33_3:                               # %join.16.i.i
                                        # =>This Inner Loop Header: Depth=1
	addi	a0, sp, 40
	mv	a1, s4
	mv	a2, s0
	mv	a4, s8
	mv	a5, s1
	call	gcm_narrow.aes_ctr.add_in_batches.add_next.2
	mv	a3, a0
	bltu	a0, s1, .Lgcm_narrow_BB33_3
.Lgcm_narrow_BB33_4:                               # %"aes_ctr::add_in_batches::AddStreamBlockCipherEncClosure::call::<#2d7933dc05364aab>.exit"
	ld	ra, 424(sp)                     # 8-byte Folded Reload
	ld	s0, 416(sp)                     # 8-byte Folded Reload
	ld	s1, 408(sp)                     # 8-byte Folded Reload
	ld	s2, 400(sp)                     # 8-byte Folded Reload
	ld	s3, 392(sp)                     # 8-byte Folded Reload
	ld	s4, 384(sp)                     # 8-byte Folded Reload
	ld	s5, 376(sp)                     # 8-byte Folded Reload
	ld	s6, 368(sp)                     # 8-byte Folded Reload
	ld	s7, 360(sp)                     # 8-byte Folded Reload
	ld	s8, 352(sp)                     # 8-byte Folded Reload
	ld	s9, 344(sp)                     # 8-byte Folded Reload
	ld	s10, 336(sp)                    # 8-byte Folded Reload
	ld	s11, 328(sp)                    # 8-byte Folded Reload
	addi	sp, sp, 432
	ret
.Lgcm_narrow_BB33_5:
	li	a3, 0
	mv	s6, s1
	li	a0, 64
	bltu	s1, a0, .Lgcm_narrow_BB33_2
.Lgcm_narrow_BB33_6:                               # %join.11.lr.ph.i.i
	sd	s1, 8(sp)                       # 8-byte Folded Spill
	addi	s2, s4, 4
	sd	s0, 24(sp)                      # 8-byte Folded Spill
	add	s3, a3, s0
	neg	s7, a3
	sd	s8, 16(sp)                      # 8-byte Folded Spill
	add	a3, a3, s8
	addi	s9, a3, 32
	sd	s11, 32(sp)                     # 8-byte Folded Spill
.Lgcm_narrow_BB33_7:                               # %join.11.i.i
                                        # =>This Inner Loop Header: Depth=1
	srli	s10, s3, 4
	li	a2, 240
	addi	a0, sp, 72
	li	a1, 0
	la	t1, memset
	jalr	t1
	lbu	a0, 1(s4)
	lbu	a1, 0(s4)
	lbu	a2, 2(s4)
	lb	a3, 3(s4)
	slli	a0, a0, 8
	or	a0, a0, a1
	slli	a2, a2, 16
	slli	a3, a3, 24
	or	a2, a2, a3
	or	a0, a0, a2
	add	s10, s10, a0
	sw	s10, 56(sp)
	li	a2, 12
	addi	a0, sp, 60
	mv	a1, s2
	la	t1, memmove
	jalr	t1
	lbu	a0, 8(s2)
	lbu	a1, 9(s2)
	lbu	a2, 10(s2)
	lbu	a3, 11(s2)
	lbu	a4, 0(s2)
	lbu	a5, 1(s2)
	lbu	s0, 2(s2)
	lbu	s1, 3(s2)
	slli	a1, a1, 8
	slli	a2, a2, 16
	slli	a3, a3, 24
	slli	a5, a5, 8
	slli	s0, s0, 16
	slli	s1, s1, 24
	or	a0, a0, a1
	or	a2, a2, a3
	or	a4, a4, a5
	or	s0, s0, s1
	lbu	a1, 5(s2)
	lbu	a3, 4(s2)
	lbu	a5, 6(s2)
	lbu	s1, 7(s2)
	slli	a1, a1, 8
	or	a1, a1, a3
	slli	a5, a5, 16
	slli	s1, s1, 24
	or	a5, a5, s1
	or	a0, a0, a2
	or	a4, a4, s0
	addi	a2, s10, 1
	or	a1, a1, a5
	slli	a1, a1, 32
	or	a1, a1, a4
	sd	a1, 312(sp)
	sw	a0, 320(sp)
	sw	a2, 72(sp)
	addi	a1, sp, 312
	li	a2, 12
	addi	a0, sp, 76
	la	t1, memcpy
	jalr	t1
	lbu	a0, 8(s2)
	lbu	a1, 9(s2)
	lbu	a2, 10(s2)
	lbu	a3, 11(s2)
	lbu	a4, 0(s2)
	lbu	a5, 1(s2)
	lbu	s1, 2(s2)
	lbu	s0, 3(s2)
	slli	a1, a1, 8
	slli	a2, a2, 16
	slli	a3, a3, 24
	slli	a5, a5, 8
	slli	s1, s1, 16
	slli	s0, s0, 24
	or	a0, a0, a1
	or	a2, a2, a3
	or	a4, a4, a5
	or	s0, s0, s1
	lbu	a1, 5(s2)
	lbu	a3, 4(s2)
	lbu	a5, 6(s2)
	lbu	s1, 7(s2)
	slli	a1, a1, 8
	or	a1, a1, a3
	slli	a5, a5, 16
	slli	s1, s1, 24
	or	a5, a5, s1
	or	a0, a0, a2
	or	a4, a4, s0
	addi	a2, s10, 2
	or	a1, a1, a5
	slli	a1, a1, 32
	or	a1, a1, a4
	sd	a1, 312(sp)
	sw	a0, 320(sp)
	sw	a2, 88(sp)
	addi	a1, sp, 312
	li	a2, 12
	addi	a0, sp, 92
	la	t1, memcpy
	jalr	t1
	lbu	a0, 8(s2)
	lbu	a1, 9(s2)
	lbu	a2, 10(s2)
	lbu	a3, 11(s2)
	lbu	a4, 0(s2)
	lbu	a5, 1(s2)
	lbu	s1, 2(s2)
	lbu	s0, 3(s2)
	slli	a1, a1, 8
	slli	a2, a2, 16
	slli	a3, a3, 24
	slli	a5, a5, 8
	slli	s1, s1, 16
	slli	s0, s0, 24
	or	a0, a0, a1
	or	a2, a2, a3
	or	a4, a4, a5
	or	s0, s0, s1
	lbu	a1, 5(s2)
	lbu	a3, 4(s2)
	lbu	a5, 6(s2)
	lbu	s1, 7(s2)
	slli	a1, a1, 8
	or	a1, a1, a3
	slli	a5, a5, 16
	slli	s1, s1, 24
	or	a5, a5, s1
	or	a0, a0, a2
	or	a4, a4, s0
	addi	s10, s10, 3
	or	a1, a1, a5
	slli	a1, a1, 32
	or	a1, a1, a4
	sd	a1, 312(sp)
	sw	a0, 320(sp)
	sw	s10, 104(sp)
	addi	a1, sp, 312
	li	a2, 12
	addi	a0, sp, 108
	la	t1, memcpy
	jalr	t1
	addi	a2, sp, 56
	li	a3, 4
	mv	a0, s11
	mv	a1, s5
	call	gcm_narrow.aes_soft.soft.blocks.filled_up.process_filled_up
	lbu	t6, -20(s9)
	lbu	t5, -19(s9)
	lbu	t4, -18(s9)
	lbu	t3, -17(s9)
	lbu	s1, -24(s9)
	lbu	a0, -23(s9)
	lbu	a1, -22(s9)
	lbu	a2, -21(s9)
	lbu	t2, -28(s9)
	lbu	ra, -27(s9)
	lbu	a5, -26(s9)
	lbu	s0, -25(s9)
	lbu	a6, -32(s9)
	lbu	a7, -31(s9)
	lbu	t0, -30(s9)
	lbu	t1, -29(s9)
	lbu	a3, 56(sp)
	lbu	a4, 57(sp)
	lbu	s10, 58(sp)
	mv	s11, s5
	lbu	s5, 59(sp)
	xor	a6, a3, a6
	xor	a7, a4, a7
	xor	t0, s10, t0
	xor	t1, s5, t1
	lbu	a3, 60(sp)
	lbu	a4, 61(sp)
	lbu	s5, 62(sp)
	lbu	s8, 63(sp)
	xor	s10, a3, t2
	xor	ra, a4, ra
	xor	s5, s5, a5
	xor	t2, s8, s0
	lbu	a4, 64(sp)
	lbu	a5, 65(sp)
	lbu	s0, 66(sp)
	lbu	a3, 67(sp)
	xor	s1, s1, a4
	xor	a0, a0, a5
	xor	a1, a1, s0
	xor	a3, a3, a2
	lbu	a2, 68(sp)
	lbu	a4, 69(sp)
	lbu	a5, 70(sp)
	lbu	s0, 71(sp)
	xor	a2, a2, t6
	xor	a4, a4, t5
	xor	a5, a5, t4
	xor	s0, s0, t3
	lbu	t3, -4(s9)
	lbu	t6, -3(s9)
	lbu	t5, -2(s9)
	lbu	t4, -1(s9)
	sb	a2, -20(s9)
	sb	a4, -19(s9)
	sb	a5, -18(s9)
	sb	s0, -17(s9)
	lbu	s8, -8(s9)
	lbu	s0, -7(s9)
	lbu	a5, -6(s9)
	lbu	a4, -5(s9)
	sb	s1, -24(s9)
	sb	a0, -23(s9)
	sb	a1, -22(s9)
	sb	a3, -21(s9)
	lbu	a0, -12(s9)
	lbu	a1, -11(s9)
	lbu	a3, -10(s9)
	lbu	s1, -9(s9)
	sb	s10, -28(s9)
	sb	ra, -27(s9)
	sb	s5, -26(s9)
	sb	t2, -25(s9)
	lbu	ra, -16(s9)
	lbu	t2, -15(s9)
	lbu	s5, -14(s9)
	lbu	s10, -13(s9)
	sb	a6, -32(s9)
	sb	a7, -31(s9)
	sb	t0, -30(s9)
	sb	t1, -29(s9)
	lbu	a2, 72(sp)
	lbu	a7, 73(sp)
	lbu	t0, 74(sp)
	lbu	t1, 75(sp)
	xor	a6, a2, ra
	xor	a7, a7, t2
	xor	t0, t0, s5
	xor	t1, t1, s10
	lbu	a2, 76(sp)
	lbu	t2, 77(sp)
	lbu	s10, 78(sp)
	lbu	ra, 79(sp)
	xor	s5, a2, a0
	xor	a1, t2, a1
	xor	a3, s10, a3
	xor	s10, ra, s1
	lbu	a0, 80(sp)
	lbu	a2, 81(sp)
	lbu	s1, 82(sp)
	lbu	t2, 83(sp)
	xor	a0, a0, s8
	xor	a2, a2, s0
	xor	a5, a5, s1
	xor	a4, t2, a4
	lbu	s1, 84(sp)
	lbu	s0, 85(sp)
	lbu	t2, 86(sp)
	lbu	s8, 87(sp)
	xor	s1, s1, t3
	xor	s0, s0, t6
	xor	t6, t2, t5
	xor	s8, s8, t4
	lbu	t2, 12(s9)
	lbu	t5, 13(s9)
	lbu	t4, 14(s9)
	lbu	t3, 15(s9)
	sb	s1, -4(s9)
	sb	s0, -3(s9)
	sb	t6, -2(s9)
	sb	s8, -1(s9)
	lbu	s1, 8(s9)
	lbu	s0, 9(s9)
	lbu	s8, 10(s9)
	lbu	ra, 11(s9)
	sb	a0, -8(s9)
	sb	a2, -7(s9)
	sb	a5, -6(s9)
	sb	a4, -5(s9)
	lbu	t6, 4(s9)
	lbu	a2, 5(s9)
	lbu	a4, 6(s9)
	lbu	a5, 7(s9)
	sb	s5, -12(s9)
	sb	a1, -11(s9)
	sb	a3, -10(s9)
	sb	s10, -9(s9)
	lbu	a1, 0(s9)
	lbu	a3, 1(s9)
	lbu	s10, 2(s9)
	lbu	s5, 3(s9)
	sb	a6, -16(s9)
	sb	a7, -15(s9)
	sb	t0, -14(s9)
	sb	t1, -13(s9)
	lbu	a0, 88(sp)
	lbu	a7, 89(sp)
	lbu	t0, 90(sp)
	lbu	t1, 91(sp)
	xor	a6, a0, a1
	xor	a7, a7, a3
	xor	t0, t0, s10
	xor	t1, t1, s5
	lbu	a0, 92(sp)
	lbu	a3, 93(sp)
	lbu	a1, 94(sp)
	lbu	s10, 95(sp)
	xor	s5, a0, t6
	xor	a2, a2, a3
	xor	a3, a1, a4
	xor	t6, s10, a5
	lbu	a0, 96(sp)
	lbu	a1, 97(sp)
	lbu	a4, 98(sp)
	lbu	a5, 99(sp)
	xor	s1, s1, a0
	xor	a1, a1, s0
	xor	a0, a4, s8
	xor	ra, a5, ra
	lbu	a5, 100(sp)
	lbu	s0, 101(sp)
	lbu	a4, 102(sp)
	lbu	s8, 103(sp)
	xor	a5, a5, t2
	xor	s0, s0, t5
	xor	a4, a4, t4
	xor	s8, s8, t3
	lbu	t5, 28(s9)
	lbu	t4, 29(s9)
	lbu	t3, 30(s9)
	lbu	t2, 31(s9)
	sb	a5, 12(s9)
	sb	s0, 13(s9)
	sb	a4, 14(s9)
	sb	s8, 15(s9)
	lbu	s0, 24(s9)
	lbu	a5, 25(s9)
	lbu	s10, 26(s9)
	lbu	s8, 27(s9)
	sb	s1, 8(s9)
	sb	a1, 9(s9)
	sb	a0, 10(s9)
	sb	ra, 11(s9)
	lbu	ra, 20(s9)
	lbu	a1, 21(s9)
	lbu	a4, 22(s9)
	lbu	s1, 23(s9)
	sb	s5, 4(s9)
	sb	a2, 5(s9)
	sb	a3, 6(s9)
	sb	t6, 7(s9)
	lbu	a2, 16(s9)
	lbu	a3, 17(s9)
	lbu	s5, 18(s9)
	lbu	t6, 19(s9)
	sb	a6, 0(s9)
	sb	a7, 1(s9)
	sb	t0, 2(s9)
	sb	t1, 3(s9)
	lbu	a0, 104(sp)
	lbu	a6, 105(sp)
	lbu	a7, 106(sp)
	lbu	t0, 107(sp)
	xor	t1, a0, a2
	xor	a2, a6, a3
	xor	a7, a7, s5
	xor	a6, t0, t6
	lbu	a0, 108(sp)
	lbu	a3, 109(sp)
	lbu	t0, 110(sp)
	lbu	t6, 111(sp)
	xor	s5, a0, ra
	xor	ra, a3, a1
	xor	t0, t0, a4
	xor	t6, t6, s1
	lbu	s1, 112(sp)
	lbu	a0, 113(sp)
	lbu	a1, 114(sp)
	lbu	a3, 115(sp)
	xor	s0, s0, s1
	xor	a0, a0, a5
	xor	s10, a1, s10
	xor	a3, a3, s8
	lbu	a5, 116(sp)
	lbu	s1, 117(sp)
	lbu	a4, 118(sp)
	lbu	a1, 119(sp)
	xor	a5, a5, t5
	xor	s1, s1, t4
	xor	a4, a4, t3
	xor	a1, a1, t2
	sb	a5, 28(s9)
	sb	s1, 29(s9)
	sb	a4, 30(s9)
	sb	a1, 31(s9)
	sb	s0, 24(s9)
	sb	a0, 25(s9)
	sb	s10, 26(s9)
	sb	a3, 27(s9)
	sb	s5, 20(s9)
	mv	s5, s11
	ld	s11, 32(sp)                     # 8-byte Folded Reload
	sb	ra, 21(s9)
	sb	t0, 22(s9)
	sb	t6, 23(s9)
	sb	t1, 16(s9)
	sb	a2, 17(s9)
	sb	a7, 18(s9)
	addi	s3, s3, 64
	addi	s6, s6, -64
	addi	s7, s7, -64
	sb	a6, 19(s9)
	li	a0, 63
	addi	s9, s9, 64
	bltu	a0, s6, .Lgcm_narrow_BB33_7
# %bb.8:                                # %loop.13.preheader.i.i.loopexit
	neg	a3, s7
	ld	s0, 24(sp)                      # 8-byte Folded Reload
	ld	s8, 16(sp)                      # 8-byte Folded Reload
	ld	s1, 8(sp)                       # 8-byte Folded Reload
	bltu	a3, s1, .Lgcm_narrow_BB33_3
	j	.Lgcm_narrow_BB33_4
.Lgcm_narrow_func_end33:
	.size	gcm_narrow.aes_narrow.borrowed_words.call_to_encrypt.2, .Lgcm_narrow_func_end33-gcm_narrow.aes_narrow.borrowed_words.call_to_encrypt.2
                                        # -- End function
	.section	.text.gcm_narrow.aes_ctr.add_in_batches.add_next.2,"ax",@progbits
	.p2align	1                               # -- Begin function aes_ctr::add_in_batches::add_next::<#82a70d135fd89031>
	.type	gcm_narrow.aes_ctr.add_in_batches.add_next.2,@function
gcm_narrow.aes_ctr.add_in_batches.add_next.2: # @gcm_narrow.aes_ctr.add_in_batches.add_next.2
# %bb.0:                                # %start
	addi	sp, sp, -368
	sd	ra, 360(sp)                     # 8-byte Folded Spill
	sd	s0, 352(sp)                     # 8-byte Folded Spill
	sd	s1, 344(sp)                     # 8-byte Folded Spill
	sd	s2, 336(sp)                     # 8-byte Folded Spill
	sd	s3, 328(sp)                     # 8-byte Folded Spill
	sd	s4, 320(sp)                     # 8-byte Folded Spill
	sd	s5, 312(sp)                     # 8-byte Folded Spill
	sd	s6, 304(sp)                     # 8-byte Folded Spill
	sd	s7, 296(sp)                     # 8-byte Folded Spill
	sd	s8, 288(sp)                     # 8-byte Folded Spill
	sd	s9, 280(sp)                     # 8-byte Folded Spill
	sd	s10, 272(sp)                    # 8-byte Folded Spill
	sd	s11, 264(sp)                    # 8-byte Folded Spill
	mv	s3, a5
	mv	s2, a4
	mv	s4, a3
	mv	s0, a1
	add	a2, a2, a3
	li	a1, 64
	andi	s6, a2, 15
	sub	a1, a1, s6
	sub	s5, a5, a3
	mv	s1, a0
	bltu	s5, a1, .Lgcm_narrow_BB34_2
# %bb.1:                                # %start
	mv	s5, a1
.Lgcm_narrow_BB34_2:                               # %start
	add	s7, s6, s5
	srli	s8, a2, 4
	addi	s7, s7, 15
	addi	a0, sp, 72
	li	a2, 192
	li	a1, 0
	la	t1, memset
	jalr	t1
	lbu	a0, 1(s0)
	lbu	a1, 0(s0)
	lbu	a2, 2(s0)
	lb	a3, 3(s0)
	slli	a0, a0, 8
	or	a0, a0, a1
	addi	s0, s0, 4
	slli	a2, a2, 16
	slli	a3, a3, 24
	or	a2, a2, a3
	or	a0, a0, a2
	add	s8, s8, a0
	sw	s8, 8(sp)
	addi	a0, sp, 12
	li	a2, 12
	mv	a1, s0
	la	t1, memcpy
	jalr	t1
	addi	a0, s8, 1
	sw	a0, 24(sp)
	addi	a0, sp, 28
	li	a2, 12
	mv	a1, s0
	la	t1, memcpy
	jalr	t1
	addi	a0, s8, 2
	sw	a0, 40(sp)
	addi	a0, sp, 44
	li	a2, 12
	mv	a1, s0
	la	t1, memcpy
	jalr	t1
	addi	s8, s8, 3
	sw	s8, 56(sp)
	addi	a0, sp, 60
	li	a2, 12
	mv	a1, s0
	la	t1, memcpy
	jalr	t1
	lbu	a0, 0(s1)
	lbu	a1, 1(s1)
	lbu	a2, 2(s1)
	lbu	a3, 3(s1)
	lbu	a4, 4(s1)
	lbu	a5, 5(s1)
	lbu	a6, 6(s1)
	lbu	s0, 7(s1)
	slli	a1, a1, 8
	slli	a2, a2, 16
	slli	a3, a3, 24
	slli	a5, a5, 8
	or	a7, a1, a0
	or	t0, a3, a2
	or	a4, a4, a5
	lbu	a1, 8(s1)
	lbu	a3, 9(s1)
	lbu	a5, 10(s1)
	lbu	a0, 11(s1)
	slli	a6, a6, 16
	slli	s0, s0, 24
	slli	a3, a3, 8
	slli	a5, a5, 16
	slli	a0, a0, 24
	or	s0, s0, a6
	or	a1, a1, a3
	or	a0, a0, a5
	lbu	a3, 13(s1)
	lbu	a5, 12(s1)
	lbu	a2, 14(s1)
	lbu	s1, 15(s1)
	slli	a3, a3, 8
	or	a3, a3, a5
	slli	a2, a2, 16
	slli	s1, s1, 24
	or	a2, a2, s1
	or	a5, t0, a7
	or	a4, a4, s0
	or	a1, a1, a0
	andi	s1, s7, 240
	or	a2, a2, a3
	li	a3, 16
	slli	a0, a4, 32
	slli	a2, a2, 32
	or	a0, a0, a5
	or	a1, a1, a2
	addi	a2, sp, 8
	bne	s1, a3, .Lgcm_narrow_BB34_16
# %bb.3:                                # %then.1.i.i.i
	li	a3, 1
	call	gcm_narrow.aes_soft.soft.blocks.filled_up.process_filled_up
	add	s2, s2, s4
	beqz	s6, .Lgcm_narrow_BB34_17
.Lgcm_narrow_BB34_4:                               # %then.1.i
	li	a0, 16
	sub	a0, a0, s6
	mv	a1, s5
	bltu	s5, a0, .Lgcm_narrow_BB34_6
# %bb.5:                                # %then.1.i
	mv	a1, a0
.Lgcm_narrow_BB34_6:                               # %then.1.i
	beq	s3, s4, .Lgcm_narrow_BB34_9
# %bb.7:                                # %join.8.i80.lr.ph
	addi	a2, sp, 8
	add	a3, a1, s6
	add	a0, a2, s6
	add	a2, a2, a3
	mv	a3, s2
.Lgcm_narrow_BB34_8:                               # %join.8.i80
                                        # =>This Inner Loop Header: Depth=1
	lbu	a4, 0(a0)
	lbu	a5, 0(a3)
	addi	a0, a0, 1
	xor	a4, a4, a5
	sb	a4, 0(a3)
	addi	a3, a3, 1
	bne	a0, a2, .Lgcm_narrow_BB34_8
.Lgcm_narrow_BB34_9:                               # %join.3.i
	sub	s9, s5, a1
	li	a2, 16
	bltu	s9, a2, .Lgcm_narrow_BB34_11
.Lgcm_narrow_BB34_10:                              # %join.8.i
                                        # =>This Inner Loop Header: Depth=1
	add	a3, s6, a1
	addi	a6, sp, 8
	add	a2, s2, a1
	andi	a3, a3, -16
	lbu	t2, 8(a2)
	lbu	t1, 9(a2)
	lbu	t0, 10(a2)
	lbu	a7, 11(a2)
	lbu	t6, 4(a2)
	lbu	t4, 5(a2)
	lbu	t5, 6(a2)
	lbu	t3, 7(a2)
	lbu	a5, 0(a2)
	lbu	s7, 1(a2)
	lbu	s8, 2(a2)
	lbu	s3, 3(a2)
	add	a3, a3, a6
	lbu	a4, 0(a3)
	lbu	s11, 1(a3)
	lbu	s1, 2(a3)
	lbu	s10, 3(a3)
	xor	a6, a4, a5
	lbu	a5, 4(a3)
	lbu	a4, 5(a3)
	lbu	a0, 6(a3)
	lbu	s0, 7(a3)
	xor	s7, s11, s7
	xor	s8, s1, s8
	xor	s3, s10, s3
	xor	t6, a5, t6
	lbu	s1, 8(a3)
	lbu	a5, 9(a3)
	lbu	s10, 10(a3)
	lbu	s11, 11(a3)
	xor	ra, a4, t4
	xor	t4, a0, t5
	xor	t3, s0, t3
	xor	t2, s1, t2
	lbu	t5, 12(a2)
	lbu	a4, 13(a2)
	lbu	s0, 14(a2)
	lbu	s1, 15(a2)
	xor	t1, a5, t1
	xor	t0, s10, t0
	xor	a7, s11, a7
	lbu	a5, 12(a3)
	lbu	a0, 13(a3)
	lbu	s10, 14(a3)
	lbu	a3, 15(a3)
	xor	a5, a5, t5
	xor	a0, a0, a4
	xor	a4, s10, s0
	xor	a3, a3, s1
	sb	a5, 12(a2)
	sb	a0, 13(a2)
	sb	a4, 14(a2)
	sb	a3, 15(a2)
	sb	t2, 8(a2)
	sb	t1, 9(a2)
	sb	t0, 10(a2)
	sb	a7, 11(a2)
	sb	t6, 4(a2)
	sb	ra, 5(a2)
	sb	t4, 6(a2)
	sb	t3, 7(a2)
	sb	a6, 0(a2)
	sb	s7, 1(a2)
	sb	s8, 2(a2)
	sb	s3, 3(a2)
	addi	s9, s9, -16
	li	a0, 15
	addi	a1, a1, 16
	bltu	a0, s9, .Lgcm_narrow_BB34_10
.Lgcm_narrow_BB34_11:                              # %after.4.i
	bgeu	a1, s5, .Lgcm_narrow_BB34_15
# %bb.12:                               # %then.9.i
	beqz	s9, .Lgcm_narrow_BB34_15
# %bb.13:                               # %join.8.i23.preheader
	add	s6, s6, a1
	addi	a0, sp, 8
	add	a1, a1, s2
	andi	a3, s6, -16
	add	a2, a0, a3
	add	a3, a3, s9
	add	a0, a0, a3
.Lgcm_narrow_BB34_14:                              # %join.8.i23
                                        # =>This Inner Loop Header: Depth=1
	lbu	a3, 0(a2)
	lbu	a4, 0(a1)
	addi	a2, a2, 1
	xor	a3, a3, a4
	sb	a3, 0(a1)
	addi	a1, a1, 1
	bne	a2, a0, .Lgcm_narrow_BB34_14
.Lgcm_narrow_BB34_15:                              # %"aes_ctr::add_blocks::add_blocks.exit"
	add	a0, s5, s4
	ld	ra, 360(sp)                     # 8-byte Folded Reload
	ld	s0, 352(sp)                     # 8-byte Folded Reload
	ld	s1, 344(sp)                     # 8-byte Folded Reload
	ld	s2, 336(sp)                     # 8-byte Folded Reload
	ld	s3, 328(sp)                     # 8-byte Folded Reload
	ld	s4, 320(sp)                     # 8-byte Folded Reload
	ld	s5, 312(sp)                     # 8-byte Folded Reload
	ld	s6, 304(sp)                     # 8-byte Folded Reload
	ld	s7, 296(sp)                     # 8-byte Folded Reload
	ld	s8, 288(sp)                     # 8-byte Folded Reload
	ld	s9, 280(sp)                     # 8-byte Folded Reload
	ld	s10, 272(sp)                    # 8-byte Folded Reload
	ld	s11, 264(sp)                    # 8-byte Folded Reload
	addi	sp, sp, 368
	ret
.Lgcm_narrow_BB34_16:                              # %else.2.i.i.i
	li	a3, 4
	call	gcm_narrow.aes_soft.soft.blocks.filled_up.process_filled_up
	add	s2, s2, s4
	bnez	s6, .Lgcm_narrow_BB34_4
.Lgcm_narrow_BB34_17:
	li	a1, 0
	mv	s9, s5
	li	a2, 16
	bgeu	s5, a2, .Lgcm_narrow_BB34_10
	j	.Lgcm_narrow_BB34_11
.Lgcm_narrow_func_end34:
	.size	gcm_narrow.aes_ctr.add_in_batches.add_next.2, .Lgcm_narrow_func_end34-gcm_narrow.aes_ctr.add_in_batches.add_next.2
                                        # -- End function
	.section	.text.gcm_narrow.aes_cipher.zeroize.stack.wipe_stack.2816,"ax",@progbits
	.p2align	1                               # -- Begin function aes_cipher::zeroize::stack::wipe_stack::<=2816>
	.type	gcm_narrow.aes_cipher.zeroize.stack.wipe_stack.2816,@function
gcm_narrow.aes_cipher.zeroize.stack.wipe_stack.2816: # @gcm_narrow.aes_cipher.zeroize.stack.wipe_stack.2816
# %bb.0:                                # %start
	addi	sp, sp, -2032
	sd	ra, 2024(sp)                    # 8-byte Folded Spill
	sd	s0, 2016(sp)                    # 8-byte Folded Spill
	sd	s1, 2008(sp)                    # 8-byte Folded Spill
	addi	sp, sp, -832
	li	s1, 11
	slli	a2, s1, 8
	addi	a0, sp, 24
	addi	s0, sp, 24
	li	a1, 0
	la	t1, memset
	jalr	t1
	sd	zero, 16(sp)
	#APP
	#NO_APP
	fence	rw, rw
	ld	a0, 16(sp)
	fence	r, rw
	#APP
	#NO_APP
	srli	a1, a0, 8
	bgeu	a1, s1, .Lgcm_narrow_BB35_2
# %bb.1:                                # %then.1
	add	a0, a0, s0
	lbu	a0, 0(a0)
	#APP
	#NO_APP
	addi	a1, sp, 16
	amoswap.d.aqrl	zero, a0, (a1)
	#APP
	#NO_APP
.Lgcm_narrow_BB35_2:                               # %common.ret
	addi	sp, sp, 832
	ld	ra, 2024(sp)                    # 8-byte Folded Reload
	ld	s0, 2016(sp)                    # 8-byte Folded Reload
	ld	s1, 2008(sp)                    # 8-byte Folded Reload
	addi	sp, sp, 2032
	ret
.Lgcm_narrow_func_end35:
	.size	gcm_narrow.aes_cipher.zeroize.stack.wipe_stack.2816, .Lgcm_narrow_func_end35-gcm_narrow.aes_cipher.zeroize.stack.wipe_stack.2816
                                        # -- End function
	.section	.text.gcm_narrow.gcm_siv.course.seal_in,"ax",@progbits
	.p2align	1                               # -- Begin function gcm_siv::course::seal_in::<#9475832f45469e37>
	.type	gcm_narrow.gcm_siv.course.seal_in,@function
gcm_narrow.gcm_siv.course.seal_in: # @gcm_narrow.gcm_siv.course.seal_in
# %bb.0:                                # %start
	addi	sp, sp, -1088
	sd	ra, 1080(sp)                    # 8-byte Folded Spill
	sd	s0, 1072(sp)                    # 8-byte Folded Spill
	sd	s1, 1064(sp)                    # 8-byte Folded Spill
	sd	s2, 1056(sp)                    # 8-byte Folded Spill
	sd	s3, 1048(sp)                    # 8-byte Folded Spill
	sd	s4, 1040(sp)                    # 8-byte Folded Spill
	sd	s5, 1032(sp)                    # 8-byte Folded Spill
	sd	s6, 1024(sp)                    # 8-byte Folded Spill
	sd	s7, 1016(sp)                    # 8-byte Folded Spill
	sd	s8, 1008(sp)                    # 8-byte Folded Spill
	mv	s2, a7
	mv	s3, a6
	mv	s4, a5
	mv	s5, a4
	mv	s0, a3
	mv	s6, a2
	mv	s1, a1
	mv	s7, a0
	sd	zero, 8(sp)
	sd	zero, 16(sp)
	addi	s8, sp, 32
	li	a2, 960
	mv	a0, s8
	li	a1, 0
	la	t1, memset
	jalr	t1
	sd	zero, 24(sp)
	addi	a3, sp, 24
	addi	a4, sp, 992
	mv	a0, s1
	mv	a1, s6
	mv	a2, s0
	call	gcm_narrow.gcm_siv.keys.derive_and_prepare
	addi	a0, sp, 8
	addi	a1, sp, 24
	addi	a2, sp, 992
	mv	a3, s0
	mv	a4, s5
	mv	a5, s4
	mv	a6, s3
	mv	a7, s2
	call	gcm_narrow.gcm_siv.message.seal
	sd	zero, 24(sp)
	mv	a0, s8
	call	gcm_narrow.aes_cipher.zeroize.elements.zeroize_elements.1
	addi	a0, sp, 992
	call	gcm_narrow.aes_cipher.zeroize.elements.zeroize_elements.2
	call	gcm_narrow.aes_cipher.zeroize.stack.wipe_stack.2816
	addi	a1, sp, 8
	li	a2, 16
	mv	a0, s7
	la	t1, memcpy
	jalr	t1
	ld	ra, 1080(sp)                    # 8-byte Folded Reload
	ld	s0, 1072(sp)                    # 8-byte Folded Reload
	ld	s1, 1064(sp)                    # 8-byte Folded Reload
	ld	s2, 1056(sp)                    # 8-byte Folded Reload
	ld	s3, 1048(sp)                    # 8-byte Folded Reload
	ld	s4, 1040(sp)                    # 8-byte Folded Reload
	ld	s5, 1032(sp)                    # 8-byte Folded Reload
	ld	s6, 1024(sp)                    # 8-byte Folded Reload
	ld	s7, 1016(sp)                    # 8-byte Folded Reload
	ld	s8, 1008(sp)                    # 8-byte Folded Reload
	addi	sp, sp, 1088
	ret
.Lgcm_narrow_func_end36:
	.size	gcm_narrow.gcm_siv.course.seal_in, .Lgcm_narrow_func_end36-gcm_narrow.gcm_siv.course.seal_in
                                        # -- End function
	.section	.text.gcm_narrow.gcm_siv.message.seal,"ax",@progbits
	.p2align	1                               # -- Begin function gcm_siv::message::seal::<#bc93ff5f0cc4cd41>
	.type	gcm_narrow.gcm_siv.message.seal,@function
gcm_narrow.gcm_siv.message.seal: # @gcm_narrow.gcm_siv.message.seal
# %bb.0:                                # %start
	addi	sp, sp, -160
	sd	ra, 152(sp)                     # 8-byte Folded Spill
	sd	s0, 144(sp)                     # 8-byte Folded Spill
	sd	s1, 136(sp)                     # 8-byte Folded Spill
	sd	s2, 128(sp)                     # 8-byte Folded Spill
	sd	s3, 120(sp)                     # 8-byte Folded Spill
	sd	s4, 112(sp)                     # 8-byte Folded Spill
	sd	s5, 104(sp)                     # 8-byte Folded Spill
	sd	s6, 96(sp)                      # 8-byte Folded Spill
	sd	s7, 88(sp)                      # 8-byte Folded Spill
	sd	s8, 80(sp)                      # 8-byte Folded Spill
	sd	s9, 72(sp)                      # 8-byte Folded Spill
	mv	s3, a7
	mv	s1, a6
	mv	s5, a1
	mv	s2, a0
	addi	a7, sp, 8
	mv	a0, a1
	mv	a1, a2
	mv	a2, a3
	mv	a3, a4
	mv	a4, a5
	mv	a5, a6
	mv	a6, s3
	call	gcm_narrow.gcm_siv.message.put_tag
	lbu	a2, 20(sp)
	lbu	a3, 21(sp)
	lbu	a6, 22(sp)
	lbu	a7, 23(sp)
	lbu	t1, 16(sp)
	lbu	a5, 17(sp)
	lbu	a0, 18(sp)
	lbu	a1, 19(sp)
	slli	a3, a3, 8
	or	t0, a3, a2
	lbu	a3, 8(sp)
	lbu	a2, 9(sp)
	lbu	s0, 10(sp)
	lbu	a4, 11(sp)
	slli	a5, a5, 8
	slli	a0, a0, 16
	slli	a1, a1, 24
	slli	a2, a2, 8
	slli	s0, s0, 16
	slli	a4, a4, 24
	or	t1, a5, t1
	or	a0, a0, a1
	or	a2, a2, a3
	or	a4, a4, s0
	lbu	a1, 13(sp)
	lbu	a3, 12(sp)
	lbu	s0, 14(sp)
	lbu	a5, 15(sp)
	slli	a1, a1, 8
	or	a1, a1, a3
	slli	s0, s0, 16
	slli	a5, a5, 24
	or	a5, a5, s0
	or	a0, a0, t1
	or	a2, a2, a4
	or	a1, a1, a5
	addi	s4, s5, 8
	ld	a3, 0(s5)
	slli	a1, a1, 32
	or	a1, a1, a2
	li	a2, 16
	ori	s0, a7, -128
	slli	a3, a3, 1
	addi	s5, a3, 56
	sd	a1, 24(sp)
	sw	a0, 32(sp)
	sh	t0, 36(sp)
	sb	a6, 38(sp)
	sb	s0, 39(sp)
	bltu	a2, s3, .Lgcm_narrow_BB37_4
# %bb.1:                                # %then.1.i.i.i
	lw	s6, 24(sp)
	addi	a0, sp, 44
	addi	a1, sp, 12
	li	a2, 11
	la	t1, memcpy
	jalr	t1
	sw	s6, 40(sp)
	sb	s0, 55(sp)
	addi	a2, sp, 40
	li	a3, 1
	mv	a0, s4
	mv	a1, s5
	call	gcm_narrow.aes_narrow.blocks.process_all_batches
	call	gcm_narrow.aes_cipher.zeroize.stack.wipe_stack.1024
	beqz	s3, .Lgcm_narrow_BB37_7
# %bb.2:                                # %then.1.i.i.i
	li	a0, 16
	bne	s3, a0, .Lgcm_narrow_BB37_5
# %bb.3:                                # %after.4.i.thread.i.i.i.i
	lbu	t1, 12(s1)
	lbu	t0, 13(s1)
	lbu	a7, 14(s1)
	lbu	a6, 15(s1)
	lbu	t3, 8(s1)
	lbu	t4, 9(s1)
	lbu	t5, 10(s1)
	lbu	t2, 11(s1)
	lbu	s3, 4(s1)
	lbu	s4, 5(s1)
	lbu	s5, 6(s1)
	lbu	t6, 7(s1)
	lbu	a4, 0(s1)
	lbu	a5, 1(s1)
	lbu	s0, 2(s1)
	lbu	s6, 3(s1)
	lbu	a1, 40(sp)
	lbu	a2, 41(sp)
	lbu	a3, 42(sp)
	lbu	a0, 43(sp)
	xor	s7, a1, a4
	xor	s8, a2, a5
	xor	s9, a3, s0
	xor	s6, a0, s6
	lbu	a4, 44(sp)
	lbu	a5, 45(sp)
	lbu	s0, 46(sp)
	lbu	a0, 47(sp)
	xor	s3, a4, s3
	xor	s4, a5, s4
	xor	s5, s0, s5
	xor	t6, a0, t6
	lbu	a1, 48(sp)
	lbu	a2, 49(sp)
	lbu	a3, 50(sp)
	lbu	a0, 51(sp)
	xor	a1, a1, t3
	xor	a2, a2, t4
	xor	a3, a3, t5
	xor	t2, a0, t2
	lbu	a4, 52(sp)
	lbu	a5, 53(sp)
	lbu	s0, 54(sp)
	lbu	a0, 55(sp)
	xor	a4, a4, t1
	xor	a5, a5, t0
	xor	s0, s0, a7
	xor	a0, a0, a6
	sb	a4, 12(s1)
	sb	a5, 13(s1)
	sb	s0, 14(s1)
	sb	a0, 15(s1)
	sb	a1, 8(s1)
	sb	a2, 9(s1)
	sb	a3, 10(s1)
	sb	t2, 11(s1)
	sb	s3, 4(s1)
	sb	s4, 5(s1)
	sb	s5, 6(s1)
	sb	t6, 7(s1)
	sb	s7, 0(s1)
	sb	s8, 1(s1)
	sb	s9, 2(s1)
	sb	s6, 3(s1)
	j	.Lgcm_narrow_BB37_7
.Lgcm_narrow_BB37_4:                               # %else.2.i.i.i
	addi	a0, sp, 24
	sd	a0, 40(sp)
	sd	zero, 48(sp)
	sd	s1, 56(sp)
	sd	s3, 64(sp)
	addi	a2, sp, 40
	mv	a0, s4
	mv	a1, s5
	call	gcm_narrow.aes_narrow.borrowed_words.call_to_encrypt.2
	call	gcm_narrow.aes_cipher.zeroize.stack.wipe_stack.2032
	j	.Lgcm_narrow_BB37_7
.Lgcm_narrow_BB37_5:                               # %join.8.i6.i.i.i.i.preheader
	add	s3, s3, s1
	addi	a0, sp, 40
.Lgcm_narrow_BB37_6:                               # %join.8.i6.i.i.i.i
                                        # =>This Inner Loop Header: Depth=1
	lbu	a1, 0(a0)
	lbu	a2, 0(s1)
	xor	a1, a1, a2
	sb	a1, 0(s1)
	addi	s1, s1, 1
	addi	a0, a0, 1
	bne	s1, s3, .Lgcm_narrow_BB37_6
.Lgcm_narrow_BB37_7:                               # %"gcm_siv::message::process_text::<#a556ffa628b2ee02>.exit"
	addi	a1, sp, 8
	li	a2, 16
	mv	a0, s2
	la	t1, memcpy
	jalr	t1
	ld	ra, 152(sp)                     # 8-byte Folded Reload
	ld	s0, 144(sp)                     # 8-byte Folded Reload
	ld	s1, 136(sp)                     # 8-byte Folded Reload
	ld	s2, 128(sp)                     # 8-byte Folded Reload
	ld	s3, 120(sp)                     # 8-byte Folded Reload
	ld	s4, 112(sp)                     # 8-byte Folded Reload
	ld	s5, 104(sp)                     # 8-byte Folded Reload
	ld	s6, 96(sp)                      # 8-byte Folded Reload
	ld	s7, 88(sp)                      # 8-byte Folded Reload
	ld	s8, 80(sp)                      # 8-byte Folded Reload
	ld	s9, 72(sp)                      # 8-byte Folded Reload
	addi	sp, sp, 160
	ret
.Lgcm_narrow_func_end37:
	.size	gcm_narrow.gcm_siv.message.seal, .Lgcm_narrow_func_end37-gcm_narrow.gcm_siv.message.seal
                                        # -- End function
	.section	.text.gcm_narrow.gcm.hash_room.hash_piece,"ax",@progbits
	.p2align	1                               # -- Begin function gcm::hash_room::hash_piece::<#d9ba0fa9ccec4268>
	.type	gcm_narrow.gcm.hash_room.hash_piece,@function
gcm_narrow.gcm.hash_room.hash_piece: # @gcm_narrow.gcm.hash_room.hash_piece
# %bb.0:                                # %start
	addi	sp, sp, -160
	sd	ra, 152(sp)                     # 8-byte Folded Spill
	sd	s0, 144(sp)                     # 8-byte Folded Spill
	sd	s1, 136(sp)                     # 8-byte Folded Spill
	sd	s2, 128(sp)                     # 8-byte Folded Spill
	sd	s3, 120(sp)                     # 8-byte Folded Spill
	sd	s4, 112(sp)                     # 8-byte Folded Spill
	sd	s5, 104(sp)                     # 8-byte Folded Spill
	sd	s6, 96(sp)                      # 8-byte Folded Spill
	sd	s7, 88(sp)                      # 8-byte Folded Spill
	sd	s8, 80(sp)                      # 8-byte Folded Spill
	sd	s9, 72(sp)                      # 8-byte Folded Spill
	sd	s10, 64(sp)                     # 8-byte Folded Spill
	sd	s11, 56(sp)                     # 8-byte Folded Spill
	mv	s1, a4
	mv	s9, a2
	mv	s4, a1
	li	a1, 16
	sub	a2, a1, a3
	bgeu	a5, a2, .Lgcm_narrow_BB38_4
# %bb.1:                                # %then.1
	add	a0, s9, a3
	sub	a1, a0, s1
	bgeu	a1, a5, .Lgcm_narrow_BB38_6
# %bb.2:                                # %join.7.i.i.i.i.i.i.preheader
	add	a5, a5, s1
.Lgcm_narrow_BB38_3:                               # %join.7.i.i.i.i.i.i
                                        # =>This Inner Loop Header: Depth=1
	lbu	a1, 0(s1)
	addi	s1, s1, 1
	sb	a1, 0(a0)
	addi	a0, a0, 1
	bne	s1, a5, .Lgcm_narrow_BB38_3
	j	.Lgcm_narrow_BB38_13
.Lgcm_narrow_BB38_4:                               # %join.3
	mv	s5, a0
	lbu	a0, 0(s4)
	lbu	a4, 1(s4)
	lbu	s0, 2(s4)
	lbu	a1, 3(s4)
	lbu	t0, 8(s4)
	lbu	t1, 9(s4)
	lbu	a6, 10(s4)
	lbu	a7, 11(s4)
	lbu	t2, 4(s4)
	lbu	t6, 5(s4)
	lbu	t3, 6(s4)
	lbu	t4, 7(s4)
	slli	a4, a4, 8
	or	t5, a4, a0
	lbu	s3, 12(s4)
	lbu	s6, 13(s4)
	lbu	s7, 14(s4)
	lbu	a4, 15(s4)
	slli	a1, a1, 24
	slli	s0, s0, 16
	or	s8, s0, a1
	add	s2, s1, a2
	slli	t6, t6, 40
	slli	t2, t2, 32
	or	t2, t2, t6
	add	a0, s9, a3
	slli	t1, t1, 8
	or	t6, t1, t0
	sub	t0, a0, s1
	slli	t4, t4, 56
	slli	t3, t3, 48
	slli	t1, a4, 56
	slli	s7, s7, 48
	slli	s6, s6, 40
	slli	s3, s3, 32
	slli	a7, a7, 24
	slli	a6, a6, 16
	or	a1, a6, a7
	or	s0, s3, s6
	or	a6, t5, s8
	or	a4, t2, t3
	or	a1, t6, a1
	or	s0, s0, s7
	or	a4, a6, a4
	or	a1, a1, s0
	or	a4, a4, t4
	sd	a4, 32(sp)                      # 8-byte Folded Spill
	or	a1, a1, t1
	sd	a1, 24(sp)                      # 8-byte Folded Spill
	sub	a5, a5, a2
	sd	a5, 40(sp)                      # 8-byte Folded Spill
	sd	a3, 0(sp)                       # 8-byte Folded Spill
	mv	a1, s1
	bgeu	t0, a2, .Lgcm_narrow_BB38_7
.Lgcm_narrow_BB38_5:                               # %join.7.i.i.i.i.i.i27
                                        # =>This Inner Loop Header: Depth=1
	lbu	a2, 0(a1)
	addi	a1, a1, 1
	sb	a2, 0(a0)
	addi	a0, a0, 1
	bne	a1, s2, .Lgcm_narrow_BB38_5
	j	.Lgcm_narrow_BB38_8
.Lgcm_narrow_BB38_6:                               # %apart.2.i.i.i.i.i.i
	mv	a1, s1
	mv	a2, a5
	ld	ra, 152(sp)                     # 8-byte Folded Reload
	ld	s0, 144(sp)                     # 8-byte Folded Reload
	ld	s1, 136(sp)                     # 8-byte Folded Reload
	ld	s2, 128(sp)                     # 8-byte Folded Reload
	ld	s3, 120(sp)                     # 8-byte Folded Reload
	ld	s4, 112(sp)                     # 8-byte Folded Reload
	ld	s5, 104(sp)                     # 8-byte Folded Reload
	ld	s6, 96(sp)                      # 8-byte Folded Reload
	ld	s7, 88(sp)                      # 8-byte Folded Reload
	ld	s8, 80(sp)                      # 8-byte Folded Reload
	ld	s9, 72(sp)                      # 8-byte Folded Reload
	ld	s10, 64(sp)                     # 8-byte Folded Reload
	ld	s11, 56(sp)                     # 8-byte Folded Reload
	addi	sp, sp, 160
	la	t1, memmove
	jr	t1
.Lgcm_narrow_BB38_7:                               # %apart.2.i.i.i.i.i.i26
	la	t1, memmove
	jalr	t1
.Lgcm_narrow_BB38_8:                               # %"core::slice::edits::slice+T::copy_from_slice::<i8,20'core::clone::U8Clone{}>.exit34"
	lbu	a6, 0(s9)
	lbu	t0, 1(s9)
	lbu	t2, 2(s9)
	lbu	t4, 3(s9)
	lbu	a7, 8(s9)
	lbu	t1, 9(s9)
	lbu	t3, 10(s9)
	lbu	t5, 11(s9)
	lbu	t6, 4(s9)
	lbu	ra, 5(s9)
	lbu	a1, 6(s9)
	lbu	a2, 7(s9)
	lbu	s10, 12(s9)
	lbu	s3, 13(s9)
	lbu	a4, 14(s9)
	lbu	a5, 15(s9)
	lui	a3, 16
	li	a0, 255
	sd	s5, 48(sp)                      # 8-byte Folded Spill
	ld	s0, 0(s5)
	addi	a3, a3, -256
	slli	s11, a0, 24
	slli	a2, a2, 56
	slli	a1, a1, 48
	slli	ra, ra, 40
	slli	t6, t6, 32
	slli	t4, t4, 24
	slli	t2, t2, 16
	slli	t0, t0, 8
	slli	s8, a5, 56
	slli	a4, a4, 48
	slli	s3, s3, 40
	slli	s10, s10, 32
	slli	t5, t5, 24
	slli	t3, t3, 16
	slli	t1, t1, 8
	or	a6, t0, a6
	or	t4, t2, t4
	lbu	t0, 0(s0)
	lbu	t2, 1(s0)
	lbu	s6, 2(s0)
	lbu	s7, 3(s0)
	or	t6, t6, ra
	or	a7, t1, a7
	or	a5, t3, t5
	or	t1, s10, s3
	lbu	ra, 8(s0)
	lbu	s3, 9(s0)
	lbu	s10, 10(s0)
	lbu	s5, 11(s0)
	or	t5, a6, t4
	or	a1, t6, a1
	or	a5, a7, a5
	or	a4, t1, a4
	lbu	t1, 4(s0)
	lbu	t3, 5(s0)
	lbu	t4, 6(s0)
	lbu	a0, 7(s0)
	sd	a0, 16(sp)                      # 8-byte Folded Spill
	or	a1, t5, a1
	or	a4, a4, a5
	or	a1, a1, a2
	lbu	a2, 12(s0)
	lbu	t5, 13(s0)
	lbu	t6, 14(s0)
	lbu	a0, 15(s0)
	sd	a0, 8(sp)                       # 8-byte Folded Spill
	or	a4, a4, s8
	slli	t1, t1, 32
	slli	s7, s7, 24
	slli	s6, s6, 16
	slli	t2, t2, 8
	slli	a2, a2, 32
	slli	s5, s5, 24
	slli	s10, s10, 16
	slli	s3, s3, 8
	ld	a5, 32(sp)                      # 8-byte Folded Reload
	xor	a5, a5, a1
	ld	a0, 24(sp)                      # 8-byte Folded Reload
	xor	a4, a4, a0
	or	a1, t2, t0
	or	t1, s7, t1
	or	s0, s3, ra
	or	t2, s5, a2
	srli	a2, a4, 40
	srli	s3, a4, 56
	srli	s7, a4, 24
	srli	s8, a4, 8
	srliw	a0, a4, 24
	or	s5, a1, s6
	lui	a7, 4080
	and	s6, a4, a7
	or	a6, s0, s10
	slli	s0, a4, 56
	and	a4, a4, a3
	and	a2, a2, a3
	or	s10, a2, s3
	srli	s3, a5, 40
	and	a2, s7, a7
	and	a1, s8, s11
	or	s7, a1, a2
	srli	s8, a5, 56
	slli	a0, a0, 32
	slli	s6, s6, 24
	or	a0, s6, a0
	srli	s6, a5, 24
	slli	a4, a4, 40
	or	s0, s0, a4
	srli	a4, a5, 8
	and	a2, s3, a3
	or	a2, a2, s8
	srliw	s8, a5, 24
	and	a1, s6, a7
	and	a4, a4, s11
	or	s3, a4, a1
	and	a1, a5, a7
	slli	s8, s8, 32
	slli	a1, a1, 24
	or	s6, a1, s8
	slli	a1, a5, 56
	and	a5, a5, a3
	slli	a5, a5, 40
	or	s8, a1, a5
	or	a1, s7, s10
	sd	a1, 32(sp)                      # 8-byte Folded Spill
	ld	a1, 40(sp)                      # 8-byte Folded Reload
	andi	s7, a1, -16
	andi	s10, a1, 15
	or	a5, s0, a0
	add	s0, s2, s7
	slli	t4, t4, 48
	slli	t3, t3, 40
	slli	t6, t6, 48
	slli	t5, t5, 40
	slli	ra, ra, 56
	slli	t0, t0, 56
	or	a0, s5, t1
	or	a1, a6, t2
	and	t1, a6, a3
	and	a6, s5, a3
	or	t2, a0, t3
	or	a4, a1, t5
	or	t3, s3, a2
	srli	s5, a1, 8
	and	s3, a1, a7
	slli	t1, t1, 40
	or	t5, s8, s6
	srli	a1, a0, 8
	and	a0, a0, a7
	slli	a6, a6, 40
	or	t4, t2, t4
	or	a2, a4, t6
	and	t6, s5, s11
	srli	s6, a4, 24
	slli	s3, s3, 24
	or	t1, ra, t1
	and	s5, a1, s11
	srli	s8, t2, 24
	slli	t2, a0, 24
	or	a6, t0, a6
	ld	a0, 32(sp)                      # 8-byte Folded Reload
	or	a0, a0, a5
	or	a1, t5, t3
	and	a5, s6, a7
	srli	a4, a2, 40
	srliw	a2, a2, 24
	and	t0, s8, a7
	srli	t3, t4, 40
	srliw	t4, t4, 24
	or	t5, t6, a5
	and	a4, a4, a3
	slli	a2, a2, 32
	or	t0, s5, t0
	and	a3, t3, a3
	slli	t4, t4, 32
	ld	a5, 8(sp)                       # 8-byte Folded Reload
	or	a4, a4, a5
	or	a2, s3, a2
	ld	a5, 16(sp)                      # 8-byte Folded Reload
	or	a3, a3, a5
	or	a5, t2, t4
	or	a4, t5, a4
	or	a2, t1, a2
	or	a3, t0, a3
	or	a5, a6, a5
	or	a2, a2, a4
	or	a3, a3, a5
	call	gcm_narrow.gcm.bitwise.product_bitwise
	mv	s11, a0
	sub	a0, s9, s0
	mv	s8, a1
	bgeu	a0, s10, .Lgcm_narrow_BB38_11
# %bb.9:                                # %join.7.i.i.i.i.i.i197.preheader
	add	s10, s10, s7
	ld	a0, 0(sp)                       # 8-byte Folded Reload
	sub	a0, a0, s1
	sub	a0, s10, a0
	addi	a0, a0, 16
.Lgcm_narrow_BB38_10:                              # %join.7.i.i.i.i.i.i197
                                        # =>This Inner Loop Header: Depth=1
	lbu	a1, 0(s0)
	addi	s0, s0, 1
	sb	a1, 0(s9)
	addi	s9, s9, 1
	bne	s0, a0, .Lgcm_narrow_BB38_10
	j	.Lgcm_narrow_BB38_12
.Lgcm_narrow_BB38_11:                              # %apart.2.i.i.i.i.i.i196
	mv	a0, s9
	mv	a1, s0
	mv	a2, s10
	la	t1, memmove
	jalr	t1
.Lgcm_narrow_BB38_12:                              # %"core::slice::edits::slice+T::copy_from_slice::<i8,20'core::clone::U8Clone{}>.exit204"
	ld	a0, 48(sp)                      # 8-byte Folded Reload
	ld	a1, 0(a0)
	li	t1, 255
	lbu	t0, 0(a1)
	lbu	a4, 1(a1)
	lbu	s0, 2(a1)
	lbu	a2, 3(a1)
	lbu	a0, 8(a1)
	lbu	t2, 9(a1)
	lbu	t3, 10(a1)
	lbu	s1, 11(a1)
	lbu	a3, 4(a1)
	lbu	t4, 5(a1)
	lbu	t5, 6(a1)
	lbu	a6, 7(a1)
	slli	a3, a3, 32
	slli	a2, a2, 24
	or	a7, a2, a3
	lbu	a2, 12(a1)
	lbu	s6, 13(a1)
	lbu	a3, 14(a1)
	lbu	t6, 15(a1)
	slli	a2, a2, 32
	slli	s1, s1, 24
	or	s3, s1, a2
	lui	s5, 4080
	slli	s0, s0, 16
	slli	a4, a4, 8
	or	a4, a4, t0
	or	s0, s0, a4
	lui	a4, 16
	slli	s9, t1, 24
	addi	s10, a4, -256
	slli	t5, t5, 48
	slli	t4, t4, 40
	slli	t1, a3, 48
	slli	s6, s6, 40
	slli	t3, t3, 16
	slli	t2, t2, 8
	or	a1, t2, a0
	slli	t2, a0, 56
	slli	t0, t0, 56
	or	a1, a1, t3
	or	a2, s0, a7
	or	a3, a1, s3
	and	a1, a1, s10
	and	a4, s0, s10
	or	s0, a2, t4
	or	a0, a3, s6
	srli	s1, a3, 8
	and	t3, a3, s5
	slli	a1, a1, 40
	or	a7, t2, a1
	srli	a1, a2, 8
	and	a2, a2, s5
	slli	t2, a4, 40
	or	a4, s0, t5
	or	a3, a0, t1
	and	s1, s1, s9
	srli	a0, a0, 24
	slli	t3, t3, 24
	and	t4, a1, s9
	srli	a1, s0, 24
	slli	t1, a2, 24
	or	t0, t0, t2
	and	a0, a0, s5
	srli	s0, a3, 40
	srliw	a3, a3, 24
	and	a1, a1, s5
	srli	a2, a4, 40
	srliw	a4, a4, 24
	or	t2, s1, a0
	and	s1, s0, s10
	slli	a3, a3, 32
	or	a1, t4, a1
	and	a2, a2, s10
	slli	a4, a4, 32
	or	a0, s1, t6
	or	a3, t3, a3
	or	a2, a2, a6
	or	a4, t1, a4
	or	a0, t2, a0
	or	a3, a7, a3
	or	a1, a1, a2
	or	a2, t0, a4
	or	a0, a0, a3
	or	a1, a1, a2
	mv	a2, s11
	mv	a3, s8
	mv	a4, s2
	mv	a5, s7
	call	gcm_narrow.gcm.single_blocks.hash_singly.1
	srli	a6, a0, 8
	srli	a7, a0, 16
	srli	t0, a0, 24
	srli	t1, a0, 32
	srli	t2, a0, 40
	srli	t3, a0, 48
	srli	t4, a0, 56
	srli	t5, a1, 8
	srli	a4, a1, 16
	srli	a5, a1, 24
	srli	s1, a1, 32
	srli	s0, a1, 40
	srli	a2, a1, 48
	srli	a3, a1, 56
	sb	a3, 0(s4)
	sb	a2, 1(s4)
	sb	s0, 2(s4)
	sb	s1, 3(s4)
	sb	a5, 4(s4)
	sb	a4, 5(s4)
	sb	t5, 6(s4)
	sb	a1, 7(s4)
	sb	t4, 8(s4)
	sb	t3, 9(s4)
	sb	t2, 10(s4)
	sb	t1, 11(s4)
	sb	t0, 12(s4)
	sb	a7, 13(s4)
	sb	a6, 14(s4)
	sb	a0, 15(s4)
.Lgcm_narrow_BB38_13:                              # %common.ret
	ld	ra, 152(sp)                     # 8-byte Folded Reload
	ld	s0, 144(sp)                     # 8-byte Folded Reload
	ld	s1, 136(sp)                     # 8-byte Folded Reload
	ld	s2, 128(sp)                     # 8-byte Folded Reload
	ld	s3, 120(sp)                     # 8-byte Folded Reload
	ld	s4, 112(sp)                     # 8-byte Folded Reload
	ld	s5, 104(sp)                     # 8-byte Folded Reload
	ld	s6, 96(sp)                      # 8-byte Folded Reload
	ld	s7, 88(sp)                      # 8-byte Folded Reload
	ld	s8, 80(sp)                      # 8-byte Folded Reload
	ld	s9, 72(sp)                      # 8-byte Folded Reload
	ld	s10, 64(sp)                     # 8-byte Folded Reload
	ld	s11, 56(sp)                     # 8-byte Folded Reload
	addi	sp, sp, 160
	ret
.Lgcm_narrow_func_end38:
	.size	gcm_narrow.gcm.hash_room.hash_piece, .Lgcm_narrow_func_end38-gcm_narrow.gcm.hash_room.hash_piece
                                        # -- End function
	.section	.text.gcm_narrow.gcm.mode.BorrowedGcm.enter_phase,"ax",@progbits
	.p2align	1                               # -- Begin function gcm::mode::BorrowedGcm::enter_phase::<#5079162aaf335e50>
	.type	gcm_narrow.gcm.mode.BorrowedGcm.enter_phase,@function
gcm_narrow.gcm.mode.BorrowedGcm.enter_phase: # @gcm_narrow.gcm.mode.BorrowedGcm.enter_phase
# %bb.0:                                # %start
	addi	sp, sp, -48
	sd	ra, 40(sp)                      # 8-byte Folded Spill
	sd	s0, 32(sp)                      # 8-byte Folded Spill
	sd	s1, 24(sp)                      # 8-byte Folded Spill
	sd	s2, 16(sp)                      # 8-byte Folded Spill
	sd	s3, 8(sp)                       # 8-byte Folded Spill
	sd	s4, 0(sp)                       # 8-byte Folded Spill
	mv	a5, a1
	mv	a6, a0
	ld	a0, 24(a1)
	sltiu	a1, a0, 5
	neg	a1, a1
	and	a0, a0, a1
	zext.b	s0, a0
	li	a0, 1
	zext.b	s1, a2
	beq	s0, a0, .Lgcm_narrow_BB39_2
# %bb.1:                                # %start
	li	a1, 0
	bne	s0, s1, .Lgcm_narrow_BB39_5
.Lgcm_narrow_BB39_2:                               # %join.3
	ld	a0, 8(a5)
	li	a4, 1
	slli	a1, a4, 36
	add	a0, a0, a3
	sltu	a2, a0, a3
	neg	a2, a2
	or	a2, a2, a0
	addi	a3, a1, -32
	sltu	a1, a3, a2
	mv	a0, a1
	bne	s0, a4, .Lgcm_narrow_BB39_5
# %bb.3:                                # %join.3
	bltu	a3, a2, .Lgcm_narrow_BB39_5
# %bb.4:                                # %then.8
	ld	a0, 16(a6)
	mv	s0, a5
	mv	a1, a5
	call	gcm_narrow.gcm.mode.BorrowedGcm.hash_so_far
	mv	a2, a0
	mv	a3, a1
	li	a1, 0
	li	a0, 0
	srli	a6, a2, 8
	srli	a7, a2, 16
	srli	t0, a2, 24
	srli	t1, a2, 32
	srli	t2, a2, 40
	srli	t3, a2, 48
	srli	t4, a2, 56
	srli	t5, a3, 8
	srli	t6, a3, 16
	srli	s2, a3, 24
	srli	s3, a3, 32
	srli	s4, a3, 40
	srli	a4, a3, 48
	srli	a5, a3, 56
	sd	s1, 24(s0)
	sb	a5, 48(s0)
	sb	a4, 49(s0)
	sb	s4, 50(s0)
	sb	s3, 51(s0)
	sb	s2, 52(s0)
	sb	t6, 53(s0)
	sb	t5, 54(s0)
	sb	a3, 55(s0)
	sb	t4, 56(s0)
	sb	t3, 57(s0)
	sb	t2, 58(s0)
	sb	t1, 59(s0)
	sb	t0, 60(s0)
	sb	a7, 61(s0)
	sb	a6, 62(s0)
	sb	a2, 63(s0)
.Lgcm_narrow_BB39_5:                               # %return.4
	ld	ra, 40(sp)                      # 8-byte Folded Reload
	ld	s0, 32(sp)                      # 8-byte Folded Reload
	ld	s1, 24(sp)                      # 8-byte Folded Reload
	ld	s2, 16(sp)                      # 8-byte Folded Reload
	ld	s3, 8(sp)                       # 8-byte Folded Reload
	ld	s4, 0(sp)                       # 8-byte Folded Reload
	addi	sp, sp, 48
	ret
.Lgcm_narrow_func_end39:
	.size	gcm_narrow.gcm.mode.BorrowedGcm.enter_phase, .Lgcm_narrow_func_end39-gcm_narrow.gcm.mode.BorrowedGcm.enter_phase
                                        # -- End function
	.section	.text.gcm_narrow.gcm.mode.BorrowedGcm.is_tag_so_far,"ax",@progbits
	.p2align	1                               # -- Begin function gcm::mode::BorrowedGcm::is_tag_so_far::<#5079162aaf335e50>
	.type	gcm_narrow.gcm.mode.BorrowedGcm.is_tag_so_far,@function
gcm_narrow.gcm.mode.BorrowedGcm.is_tag_so_far: # @gcm_narrow.gcm.mode.BorrowedGcm.is_tag_so_far
# %bb.0:                                # %start
	addi	sp, sp, -32
	sd	ra, 24(sp)                      # 8-byte Folded Spill
	sd	s0, 16(sp)                      # 8-byte Folded Spill
	mv	s0, a2
	mv	a2, sp
	call	gcm_narrow.gcm.mode.BorrowedGcm.put_tag_so_far
	mv	a1, sp
	mv	a0, s0
	call	gcm_narrow.aes_cipher.blocks.difference
	slli	a0, a0, 32
	srli	a0, a0, 32
	seqz	s0, a0
	mv	a0, sp
	call	gcm_narrow.aes_cipher.zeroize.elements.zeroize_elements.3
	mv	a0, s0
	ld	ra, 24(sp)                      # 8-byte Folded Reload
	ld	s0, 16(sp)                      # 8-byte Folded Reload
	addi	sp, sp, 32
	ret
.Lgcm_narrow_func_end40:
	.size	gcm_narrow.gcm.mode.BorrowedGcm.is_tag_so_far, .Lgcm_narrow_func_end40-gcm_narrow.gcm.mode.BorrowedGcm.is_tag_so_far
                                        # -- End function
	.section	.text.gcm_narrow.gcm.mode.BorrowedGcm.is_short_tag_so_far,"ax",@progbits
	.p2align	1                               # -- Begin function gcm::mode::BorrowedGcm::is_short_tag_so_far::<#5079162aaf335e50>
	.type	gcm_narrow.gcm.mode.BorrowedGcm.is_short_tag_so_far,@function
gcm_narrow.gcm.mode.BorrowedGcm.is_short_tag_so_far: # @gcm_narrow.gcm.mode.BorrowedGcm.is_short_tag_so_far
# %bb.0:                                # %start
	addi	sp, sp, -80
	sd	ra, 72(sp)                      # 8-byte Folded Spill
	sd	s0, 64(sp)                      # 8-byte Folded Spill
	sd	s1, 56(sp)                      # 8-byte Folded Spill
	sd	s2, 48(sp)                      # 8-byte Folded Spill
	sd	s3, 40(sp)                      # 8-byte Folded Spill
	mv	s2, a3
	mv	s3, a2
	addi	a2, sp, 24
	call	gcm_narrow.gcm.mode.BorrowedGcm.put_tag_so_far
	lbu	a0, 32(sp)
	lbu	a1, 33(sp)
	lbu	a2, 34(sp)
	lbu	a3, 35(sp)
	lbu	a4, 36(sp)
	lbu	a5, 37(sp)
	lbu	s0, 38(sp)
	lbu	s1, 39(sp)
	slli	a1, a1, 8
	slli	a2, a2, 16
	slli	a3, a3, 24
	or	a6, a1, a0
	or	a7, a3, a2
	lbu	a1, 24(sp)
	lbu	a3, 25(sp)
	lbu	a0, 26(sp)
	lbu	a2, 27(sp)
	slli	a5, a5, 8
	slli	s0, s0, 16
	slli	s1, s1, 24
	slli	a3, a3, 8
	slli	a0, a0, 16
	slli	a2, a2, 24
	or	a4, a4, a5
	or	s0, s0, s1
	or	a1, a1, a3
	or	a0, a0, a2
	lbu	a2, 29(sp)
	lbu	a3, 28(sp)
	lbu	a5, 30(sp)
	lbu	s1, 31(sp)
	slli	a2, a2, 8
	or	a2, a2, a3
	slli	a5, a5, 16
	slli	s1, s1, 24
	or	a5, a5, s1
	or	a3, a7, a6
	or	a4, a4, s0
	or	a0, a0, a1
	or	a2, a2, a5
	slli	a4, a4, 32
	slli	a2, a2, 32
	or	a3, a3, a4
	or	a0, a0, a2
	sd	a0, 8(sp)
	sd	a3, 16(sp)
	addi	a0, sp, 8
	mv	a1, s3
	mv	a2, s2
	la	t1, memcpy
	jalr	t1
	addi	a0, sp, 8
	addi	a1, sp, 24
	call	gcm_narrow.aes_cipher.blocks.difference
	slli	a0, a0, 32
	srli	a0, a0, 32
	seqz	s0, a0
	addi	a0, sp, 24
	call	gcm_narrow.aes_cipher.zeroize.elements.zeroize_elements.3
	addi	a0, sp, 8
	call	gcm_narrow.aes_cipher.zeroize.elements.zeroize_elements.3
	mv	a0, s0
	ld	ra, 72(sp)                      # 8-byte Folded Reload
	ld	s0, 64(sp)                      # 8-byte Folded Reload
	ld	s1, 56(sp)                      # 8-byte Folded Reload
	ld	s2, 48(sp)                      # 8-byte Folded Reload
	ld	s3, 40(sp)                      # 8-byte Folded Reload
	addi	sp, sp, 80
	ret
.Lgcm_narrow_func_end41:
	.size	gcm_narrow.gcm.mode.BorrowedGcm.is_short_tag_so_far, .Lgcm_narrow_func_end41-gcm_narrow.gcm.mode.BorrowedGcm.is_short_tag_so_far
                                        # -- End function
	.section	.text.gcm_narrow.fotsgure_gcm_key_length,"ax",@progbits
	export_gcm_narrow	fotsgure_gcm_key_length
	.p2align	1
	.type	gcm_narrow.fotsgure_gcm_key_length,@function
gcm_narrow.fotsgure_gcm_key_length:                # @gcm_narrow.fotsgure_gcm_key_length
# %bb.0:                                # %start
	ld	a1, 0(a0)
	li	a2, 32
	li	a0, 0
	bltu	a2, a1, .Lgcm_narrow_BB42_3
# %bb.1:                                # %start
	lui	a2, 65793
	slli	a2, a2, 4
	srl	a2, a2, a1
	andi	a2, a2, 1
	beqz	a2, .Lgcm_narrow_BB42_3
# %bb.2:                                # %then.1.i.i
	mv	a0, a1
.Lgcm_narrow_BB42_3:                               # %"gcm_c::kept::fotsgure_gcm_key_length.exit"
	li	a1, 0
	li	a2, 0
	li	a3, 0
	li	a4, 0
	li	a5, 0
	li	a6, 0
	li	a7, 0
	li	t0, 0
	li	t1, 0
	li	t2, 0
	li	t3, 0
	li	t4, 0
	li	t5, 0
	li	t6, 0
	ret
.Lgcm_narrow_func_end42:
	.size	gcm_narrow.fotsgure_gcm_key_length, .Lgcm_narrow_func_end42-gcm_narrow.fotsgure_gcm_key_length
                                        # -- End function
	.section	.text.gcm_narrow.fotsgure_gcm_siv_wipe,"ax",@progbits
	export_gcm_narrow	fotsgure_gcm_siv_wipe
	.p2align	1
	.type	gcm_narrow.fotsgure_gcm_siv_wipe,@function
gcm_narrow.fotsgure_gcm_siv_wipe:                  # @gcm_narrow.fotsgure_gcm_siv_wipe
# %bb.0:                                # %start
	addi	sp, sp, -16
	sd	ra, 8(sp)                       # 8-byte Folded Spill
	sd	s0, 0(sp)                       # 8-byte Folded Spill
	addi	s0, a0, 8
	li	a2, 968
	li	a1, 0
	la	t1, memset
	jalr	t1
	mv	a0, s0
	ld	ra, 8(sp)                       # 8-byte Folded Reload
	ld	s0, 0(sp)                       # 8-byte Folded Reload
	addi	sp, sp, 16
	tail	gcm_narrow.aes_cipher.zeroize.elements.zeroize_elements.1
.Lgcm_narrow_func_end43:
	.size	gcm_narrow.fotsgure_gcm_siv_wipe, .Lgcm_narrow_func_end43-gcm_narrow.fotsgure_gcm_siv_wipe
                                        # -- End function
	.section	.text.gcm_narrow.fotsgure_gcm_version,"ax",@progbits
	export_gcm_narrow	fotsgure_gcm_version
	.p2align	1
	.type	gcm_narrow.fotsgure_gcm_version,@function
gcm_narrow.fotsgure_gcm_version:                   # @gcm_narrow.fotsgure_gcm_version
# %bb.0:                                # %start
	li	a0, 400
	li	a1, 0
	li	a2, 0
	li	a3, 0
	li	a4, 0
	li	a5, 0
	li	a6, 0
	li	a7, 0
	li	t0, 0
	li	t1, 0
	li	t2, 0
	li	t3, 0
	li	t4, 0
	li	t5, 0
	li	t6, 0
	ret
.Lgcm_narrow_func_end44:
	.size	gcm_narrow.fotsgure_gcm_version, .Lgcm_narrow_func_end44-gcm_narrow.fotsgure_gcm_version
                                        # -- End function
	.section	.text.gcm_narrow.fotsgure_gcm_wipe,"ax",@progbits
	export_gcm_narrow	fotsgure_gcm_wipe
	.p2align	1
	.type	gcm_narrow.fotsgure_gcm_wipe,@function
gcm_narrow.fotsgure_gcm_wipe:                      # @gcm_narrow.fotsgure_gcm_wipe
# %bb.0:                                # %start
	addi	sp, sp, -32
	sd	ra, 24(sp)                      # 8-byte Folded Spill
	sd	s0, 16(sp)                      # 8-byte Folded Spill
	sd	s1, 8(sp)                       # 8-byte Folded Spill
	addi	s0, a0, 8
	addi	s1, a0, 968
	li	a2, 984
	li	a1, 0
	la	t1, memset
	jalr	t1
	mv	a0, s0
	call	gcm_narrow.aes_cipher.zeroize.elements.zeroize_elements.1
	mv	a0, s1
	ld	ra, 24(sp)                      # 8-byte Folded Reload
	ld	s0, 16(sp)                      # 8-byte Folded Reload
	ld	s1, 8(sp)                       # 8-byte Folded Reload
	addi	sp, sp, 32
	tail	gcm_narrow.aes_cipher.zeroize.elements.zeroize_elements.2
.Lgcm_narrow_func_end45:
	.size	gcm_narrow.fotsgure_gcm_wipe, .Lgcm_narrow_func_end45-gcm_narrow.fotsgure_gcm_wipe
                                        # -- End function
	.section	.text.gcm_narrow.fotsgure_gcm_wipe_message,"ax",@progbits
	export_gcm_narrow	fotsgure_gcm_wipe_message
	.p2align	1
	.type	gcm_narrow.fotsgure_gcm_wipe_message,@function
gcm_narrow.fotsgure_gcm_wipe_message:              # @gcm_narrow.fotsgure_gcm_wipe_message
# %bb.0:                                # %start
	addi	sp, sp, -16
	sd	ra, 8(sp)                       # 8-byte Folded Spill
	sd	s0, 0(sp)                       # 8-byte Folded Spill
	mv	s0, a0
	li	a2, 80
	li	a1, 0
	la	t1, memset
	jalr	t1
	mv	a0, s0
	ld	ra, 8(sp)                       # 8-byte Folded Reload
	ld	s0, 0(sp)                       # 8-byte Folded Reload
	addi	sp, sp, 16
	tail	gcm_narrow.gcm.message_state.MessageZeroize.zeroize
.Lgcm_narrow_func_end46:
	.size	gcm_narrow.fotsgure_gcm_wipe_message, .Lgcm_narrow_func_end46-gcm_narrow.fotsgure_gcm_wipe_message
                                        # -- End function
	.section	.text.gcm_narrow.fotsgure_gcm_siv_set_key,"ax",@progbits
	export_gcm_narrow	fotsgure_gcm_siv_set_key
	.p2align	1
	.type	gcm_narrow.fotsgure_gcm_siv_set_key,@function
gcm_narrow.fotsgure_gcm_siv_set_key:               # @gcm_narrow.fotsgure_gcm_siv_set_key
# %bb.0:                                # %start
	addi	sp, sp, -48
	sd	ra, 40(sp)                      # 8-byte Folded Spill
	sd	s0, 32(sp)                      # 8-byte Folded Spill
	sd	s1, 24(sp)                      # 8-byte Folded Spill
	sd	s2, 16(sp)                      # 8-byte Folded Spill
	sd	s3, 8(sp)                       # 8-byte Folded Spill
	mv	s0, a2
	li	a2, 16
	beq	s0, a2, .Lgcm_narrow_BB47_2
# %bb.1:                                # %start
	li	a2, 32
	bne	s0, a2, .Lgcm_narrow_BB47_3
.Lgcm_narrow_BB47_2:                               # %join.3.i
	seqz	a2, a1
	slli	a2, a2, 12
	add	s1, a1, a2
	addi	s2, a0, 8
	li	a2, 960
	mv	s3, a0
	mv	a0, s2
	li	a1, 0
	la	t1, memset
	jalr	t1
	mv	a0, s2
	mv	a1, s1
	mv	a2, s0
	call	gcm_narrow.aes_narrow.word_room.expand_words
	call	gcm_narrow.aes_cipher.zeroize.stack.wipe_stack.768
	li	a0, 0
	sd	s0, 0(s3)
	j	.Lgcm_narrow_BB47_4
.Lgcm_narrow_BB47_3:                               # %then.1.i
	li	a2, 968
	li	a1, 0
	la	t1, memset
	jalr	t1
	li	a0, 1
.Lgcm_narrow_BB47_4:                               # %"gcm_c::siv_kept::fotsgure_gcm_siv_set_key.exit"
	ld	ra, 40(sp)                      # 8-byte Folded Reload
	ld	s0, 32(sp)                      # 8-byte Folded Reload
	ld	s1, 24(sp)                      # 8-byte Folded Reload
	ld	s2, 16(sp)                      # 8-byte Folded Reload
	ld	s3, 8(sp)                       # 8-byte Folded Reload
	addi	sp, sp, 48
	li	a1, 0
	li	a2, 0
	li	a3, 0
	li	a4, 0
	li	a5, 0
	li	a6, 0
	li	a7, 0
	li	t0, 0
	li	t1, 0
	li	t2, 0
	li	t3, 0
	li	t4, 0
	li	t5, 0
	li	t6, 0
	ret
.Lgcm_narrow_func_end47:
	.size	gcm_narrow.fotsgure_gcm_siv_set_key, .Lgcm_narrow_func_end47-gcm_narrow.fotsgure_gcm_siv_set_key
                                        # -- End function
	.section	.text.gcm_narrow.fotsgure_gcm_begin,"ax",@progbits
	export_gcm_narrow	fotsgure_gcm_begin
	.p2align	1
	.type	gcm_narrow.fotsgure_gcm_begin,@function
gcm_narrow.fotsgure_gcm_begin:                     # @gcm_narrow.fotsgure_gcm_begin
# %bb.0:                                # %start
	li	a4, -1
	slli	a4, a4, 61
	add	a5, a3, a4
	addi	a4, a4, 1
	bgeu	a5, a4, .Lgcm_narrow_BB48_3
# %bb.1:
	li	a4, 3
.Lgcm_narrow_BB48_2:                               # %"gcm_c::pieces::fotsgure_gcm_begin.exit"
	mv	a0, a4
	li	a1, 0
	li	a2, 0
	li	a3, 0
	li	a4, 0
	li	a5, 0
	li	a6, 0
	li	a7, 0
	li	t0, 0
	li	t1, 0
	li	t2, 0
	li	t3, 0
	li	t4, 0
	li	t5, 0
	li	t6, 0
	ret
.Lgcm_narrow_BB48_3:                               # %after.1.i
	ld	a7, 0(a0)
	li	a6, 32
	li	a4, 2
	bltu	a6, a7, .Lgcm_narrow_BB48_2
# %bb.4:                                # %after.1.i
	lui	a5, 65793
	slli	a5, a5, 4
	srl	a5, a5, a7
	andi	a5, a5, 1
	beqz	a5, .Lgcm_narrow_BB48_2
# %bb.5:                                # %join.13.i
	addi	sp, sp, -48
	sd	ra, 40(sp)                      # 8-byte Folded Spill
	sd	s0, 32(sp)                      # 8-byte Folded Spill
	sd	s1, 24(sp)                      # 8-byte Folded Spill
	seqz	a4, a2
	slli	a4, a4, 12
	add	a2, a2, a4
	addi	a4, a0, 8
	slli	a7, a7, 1
	addi	a0, a0, 968
	addi	a5, a7, 56
	sd	a4, 0(sp)
	sd	a5, 8(sp)
	sd	a0, 16(sp)
	addi	a4, a1, 32
	mv	a0, sp
	mv	s0, a1
	mv	a1, a2
	mv	a2, a3
	mv	s1, a3
	mv	a3, a4
	call	gcm_narrow.gcm.mode.BorrowedGcm.put_pre_counter
	li	a0, 1
	sd	zero, 0(s0)
	sd	zero, 8(s0)
	sd	zero, 16(s0)
	sd	a0, 24(s0)
	addi	a0, s0, 48
	li	a2, 32
	li	a1, 0
	la	t1, memset
	jalr	t1
	li	a0, 12
	li	a4, 0
	beq	s1, a0, .Lgcm_narrow_BB48_7
# %bb.6:                                # %then.1.i.i.i
	call	gcm_narrow.aes_cipher.zeroize.stack.wipe_stack.512
	li	a4, 0
.Lgcm_narrow_BB48_7:
	ld	ra, 40(sp)                      # 8-byte Folded Reload
	ld	s0, 32(sp)                      # 8-byte Folded Reload
	ld	s1, 24(sp)                      # 8-byte Folded Reload
	addi	sp, sp, 48
	mv	a0, a4
	li	a1, 0
	li	a2, 0
	li	a3, 0
	li	a4, 0
	li	a5, 0
	li	a6, 0
	li	a7, 0
	li	t0, 0
	li	t1, 0
	li	t2, 0
	li	t3, 0
	li	t4, 0
	li	t5, 0
	li	t6, 0
	ret
.Lgcm_narrow_func_end48:
	.size	gcm_narrow.fotsgure_gcm_begin, .Lgcm_narrow_func_end48-gcm_narrow.fotsgure_gcm_begin
                                        # -- End function
	.section	.text.gcm_narrow.fotsgure_gcm_begin_next,"ax",@progbits
	export_gcm_narrow	fotsgure_gcm_begin_next
	.p2align	1
	.type	gcm_narrow.fotsgure_gcm_begin_next,@function
gcm_narrow.fotsgure_gcm_begin_next:                # @gcm_narrow.fotsgure_gcm_begin_next
# %bb.0:                                # %start
	addi	sp, sp, -80
	sd	ra, 72(sp)                      # 8-byte Folded Spill
	sd	s0, 64(sp)                      # 8-byte Folded Spill
	sd	s1, 56(sp)                      # 8-byte Folded Spill
	sd	s2, 48(sp)                      # 8-byte Folded Spill
	mv	s2, a3
	lbu	a6, 0(a2)
	lbu	a7, 1(a2)
	lbu	a5, 2(a2)
	lbu	s0, 3(a2)
	lbu	t0, 4(a2)
	lbu	a3, 5(a2)
	lbu	a4, 6(a2)
	lbu	s1, 7(a2)
	slli	a7, a7, 8
	slli	a5, a5, 16
	slli	s0, s0, 24
	slli	a3, a3, 8
	slli	a4, a4, 16
	slli	s1, s1, 24
	or	a6, a7, a6
	or	a7, s0, a5
	or	t0, a3, t0
	or	a4, a4, s1
	lbu	s1, 9(a2)
	lbu	s0, 8(a2)
	lbu	a5, 10(a2)
	lbu	a3, 11(a2)
	slli	s1, s1, 8
	or	s0, s0, s1
	slli	a5, a5, 16
	slli	a3, a3, 24
	or	a3, a3, a5
	or	a4, a4, t0
	or	a3, a3, s0
	slli	a3, a3, 32
	or	a4, a4, a3
	li	a3, -1
	or	a7, a7, a6
	bne	a4, a3, .Lgcm_narrow_BB49_3
# %bb.1:                                # %start
	sext.w	a5, a7
	bne	a5, a3, .Lgcm_narrow_BB49_3
# %bb.2:
	li	a3, 7
	j	.Lgcm_narrow_BB49_11
.Lgcm_narrow_BB49_3:                               # %join.3.i
	ld	s0, 0(a0)
	li	a5, 32
	li	a3, 2
	bltu	a5, s0, .Lgcm_narrow_BB49_11
# %bb.4:                                # %join.3.i
	lui	a5, 65793
	slli	a5, a5, 4
	srl	a5, a5, s0
	andi	a5, a5, 1
	beqz	a5, .Lgcm_narrow_BB49_11
# %bb.5:                                # %join.6.i
	addi	a3, a0, 8
	slli	s0, s0, 1
	addi	a0, a0, 968
	srli	a5, a7, 8
	lui	a6, 16
	srliw	s1, a7, 24
	addi	s0, s0, 56
	sd	a3, 8(sp)
	sd	s0, 16(sp)
	sd	a0, 24(sp)
	slli	a0, a7, 24
	addi	a3, a6, -256
	and	a5, a5, a3
	or	a5, a5, s1
	and	s1, a7, a3
	slli	s1, s1, 8
	or	a0, a0, s1
	li	s0, -1
	or	t5, a0, a5
	beq	a4, s0, .Lgcm_narrow_BB49_7
# %bb.6:                                # %"gcm::counter::nonce_after.exit.thread.i.i.i"
	srli	t1, a4, 24
	lui	t0, 4080
	srli	t2, a4, 8
	li	a6, 255
	srli	s1, a4, 40
	srli	a5, a4, 56
	and	s0, a4, a3
	and	s1, s1, a3
	or	t3, s1, a5
	slli	s1, a4, 56
	slli	s0, s0, 40
	or	t4, s1, s0
	srliw	s1, a4, 24
	and	a5, t1, t0
	slli	a6, a6, 24
	and	s0, t2, a6
	or	a5, a5, s0
	and	s0, a4, t0
	slli	s1, s1, 32
	slli	s0, s0, 24
	or	s0, s0, s1
	or	a5, a5, t3
	or	s1, t4, s0
	or	a5, a5, s1
	addi	s0, a5, 1
	srli	s1, s0, 40
	srli	a0, s0, 56
	srli	a5, s0, 8
	and	a6, a5, a6
	srli	a5, s0, 24
	and	s1, s1, a3
	or	t1, s1, a0
	srliw	s1, s0, 24
	and	a5, a5, t0
	and	a0, s0, t0
	and	a3, a3, s0
	slli	s0, s0, 56
	slli	s1, s1, 32
	slli	a0, a0, 24
	slli	a3, a3, 40
	or	a5, a6, a5
	or	a0, a0, s1
	or	a3, a3, s0
	or	a5, a5, t1
	or	a0, a0, a3
	or	a3, a0, a5
	j	.Lgcm_narrow_BB49_9
.Lgcm_narrow_BB49_7:                               # %"gcm::counter::nonce_after.exit.i.i.i"
	sext.w	a0, a7
	beq	a0, s0, .Lgcm_narrow_BB49_10
# %bb.8:
	li	a3, 0
	addi	t5, t5, 1
.Lgcm_narrow_BB49_9:                               # %arm.1.i.i.i
	srli	t0, t5, 24
	srli	t1, t5, 8
	srli	s1, t5, 16
	srli	a6, a3, 56
	srli	s0, a3, 48
	srli	a0, a3, 40
	srli	a5, a3, 32
	srli	t2, a3, 24
	sb	t0, 0(a2)
	sb	s1, 1(a2)
	sb	t1, 2(a2)
	sb	t5, 3(a2)
	srli	s1, a3, 16
	sb	a5, 8(a2)
	sb	a0, 9(a2)
	sb	s0, 10(a2)
	sb	a6, 11(a2)
	srli	a0, a3, 8
	sb	a3, 4(a2)
	sb	a0, 5(a2)
	sb	s1, 6(a2)
	sb	t2, 7(a2)
.Lgcm_narrow_BB49_10:                              # %"gcm::mode::BorrowedGcm::begin_next::<#5079162aaf335e50>.exit.i"
	srli	a0, a4, 32
	sw	a7, 36(sp)
	sw	a4, 40(sp)
	sw	a0, 44(sp)
	addi	a3, a1, 32
	addi	a0, sp, 8
	mv	s0, a1
	addi	a1, sp, 36
	li	a2, 12
	call	gcm_narrow.gcm.mode.BorrowedGcm.put_pre_counter
	li	a0, 1
	sd	zero, 0(s0)
	sd	zero, 8(s0)
	sd	zero, 16(s0)
	sd	a0, 24(s0)
	addi	a0, s0, 48
	li	a2, 32
	li	a1, 0
	la	t1, memset
	jalr	t1
	addi	a1, sp, 36
	li	a2, 12
	mv	a0, s2
	la	t1, memcpy
	jalr	t1
	li	a3, 0
.Lgcm_narrow_BB49_11:                              # %"gcm_c::counter::fotsgure_gcm_begin_next.exit"
	mv	a0, a3
	ld	ra, 72(sp)                      # 8-byte Folded Reload
	ld	s0, 64(sp)                      # 8-byte Folded Reload
	ld	s1, 56(sp)                      # 8-byte Folded Reload
	ld	s2, 48(sp)                      # 8-byte Folded Reload
	addi	sp, sp, 80
	li	a1, 0
	li	a2, 0
	li	a3, 0
	li	a4, 0
	li	a5, 0
	li	a6, 0
	li	a7, 0
	li	t0, 0
	li	t1, 0
	li	t2, 0
	li	t3, 0
	li	t4, 0
	li	t5, 0
	li	t6, 0
	ret
.Lgcm_narrow_func_end49:
	.size	gcm_narrow.fotsgure_gcm_begin_next, .Lgcm_narrow_func_end49-gcm_narrow.fotsgure_gcm_begin_next
                                        # -- End function
	.section	.text.gcm_narrow.fotsgure_gcm_finish,"ax",@progbits
	export_gcm_narrow	fotsgure_gcm_finish
	.p2align	1
	.type	gcm_narrow.fotsgure_gcm_finish,@function
gcm_narrow.fotsgure_gcm_finish:                    # @gcm_narrow.fotsgure_gcm_finish
# %bb.0:                                # %start
	mv	a3, a0
	ld	a4, 0(a0)
	li	a5, 32
	li	a0, 2
	bltu	a5, a4, .Lgcm_narrow_BB50_6
# %bb.1:                                # %start
	lui	a5, 65793
	slli	a5, a5, 4
	srl	a5, a5, a4
	andi	a5, a5, 1
	beqz	a5, .Lgcm_narrow_BB50_6
# %bb.2:                                # %join.3.i
	addi	sp, sp, -64
	sd	ra, 56(sp)                      # 8-byte Folded Spill
	sd	s0, 48(sp)                      # 8-byte Folded Spill
	sd	s1, 40(sp)                      # 8-byte Folded Spill
	addi	a0, a3, 8
	slli	a4, a4, 1
	addi	a5, a3, 968
	ld	a3, 24(a1)
	addi	a4, a4, 56
	sd	a0, 16(sp)
	sd	a4, 24(sp)
	sd	a5, 32(sp)
	li	a4, 4
	li	a0, 8
	bltu	a4, a3, .Lgcm_narrow_BB50_5
# %bb.3:                                # %join.3.i
	addi	a3, a3, -1
	li	a4, 1
	bltu	a4, a3, .Lgcm_narrow_BB50_5
# %bb.4:                                # %arm.4.i
	addi	a0, sp, 16
	mv	s0, a2
	mv	a2, sp
	mv	s1, a1
	call	gcm_narrow.gcm.mode.BorrowedGcm.put_tag_so_far
	call	gcm_narrow.aes_cipher.zeroize.stack.wipe_stack.512
	mv	a0, s1
	call	gcm_narrow.gcm.message_state.MessageZeroize.zeroize
	mv	a1, sp
	li	a2, 16
	mv	a0, s0
	la	t1, memcpy
	jalr	t1
	li	a0, 0
.Lgcm_narrow_BB50_5:
	ld	ra, 56(sp)                      # 8-byte Folded Reload
	ld	s0, 48(sp)                      # 8-byte Folded Reload
	ld	s1, 40(sp)                      # 8-byte Folded Reload
	addi	sp, sp, 64
.Lgcm_narrow_BB50_6:                               # %"gcm_c::pieces::encrypting::fotsgure_gcm_finish.exit"
	li	a1, 0
	li	a2, 0
	li	a3, 0
	li	a4, 0
	li	a5, 0
	li	a6, 0
	li	a7, 0
	li	t0, 0
	li	t1, 0
	li	t2, 0
	li	t3, 0
	li	t4, 0
	li	t5, 0
	li	t6, 0
	ret
.Lgcm_narrow_func_end50:
	.size	gcm_narrow.fotsgure_gcm_finish, .Lgcm_narrow_func_end50-gcm_narrow.fotsgure_gcm_finish
                                        # -- End function
	.section	.text.gcm_narrow.fotsgure_gcm_finish_unverified,"ax",@progbits
	export_gcm_narrow	fotsgure_gcm_finish_unverified
	.p2align	1
	.type	gcm_narrow.fotsgure_gcm_finish_unverified,@function
gcm_narrow.fotsgure_gcm_finish_unverified:         # @gcm_narrow.fotsgure_gcm_finish_unverified
# %bb.0:                                # %start
	ld	a4, 0(a0)
	li	a5, 32
	li	a3, 2
	bltu	a5, a4, .Lgcm_narrow_BB51_6
# %bb.1:                                # %start
	lui	a5, 65793
	slli	a5, a5, 4
	srl	a5, a5, a4
	andi	a5, a5, 1
	beqz	a5, .Lgcm_narrow_BB51_6
# %bb.2:                                # %join.3.i
	addi	sp, sp, -48
	sd	ra, 40(sp)                      # 8-byte Folded Spill
	sd	s0, 32(sp)                      # 8-byte Folded Spill
	ld	a3, 24(a1)
	addi	a5, a0, 8
	slli	a4, a4, 1
	addi	a0, a0, 968
	sltiu	s0, a3, 5
	neg	s0, s0
	and	a3, a3, s0
	li	s0, 3
	addi	a4, a4, 56
	ori	a3, a3, 2
	zext.b	a3, a3
	sd	a5, 8(sp)
	sd	a4, 16(sp)
	sd	a0, 24(sp)
	bne	a3, s0, .Lgcm_narrow_BB51_4
# %bb.3:                                # %arm.4.i
	addi	a0, sp, 8
	mv	s0, a1
	call	gcm_narrow.gcm.mode.BorrowedGcm.put_tag_so_far
	call	gcm_narrow.aes_cipher.zeroize.stack.wipe_stack.512
	mv	a0, s0
	call	gcm_narrow.gcm.message_state.MessageZeroize.zeroize
	li	a3, 0
	j	.Lgcm_narrow_BB51_5
.Lgcm_narrow_BB51_4:
	li	a3, 8
.Lgcm_narrow_BB51_5:
	ld	ra, 40(sp)                      # 8-byte Folded Reload
	ld	s0, 32(sp)                      # 8-byte Folded Reload
	addi	sp, sp, 48
.Lgcm_narrow_BB51_6:                               # %"gcm_c::pieces::decrypting::fotsgure_gcm_finish_unverified.exit"
	mv	a0, a3
	li	a1, 0
	li	a2, 0
	li	a3, 0
	li	a4, 0
	li	a5, 0
	li	a6, 0
	li	a7, 0
	li	t0, 0
	li	t1, 0
	li	t2, 0
	li	t3, 0
	li	t4, 0
	li	t5, 0
	li	t6, 0
	ret
.Lgcm_narrow_func_end51:
	.size	gcm_narrow.fotsgure_gcm_finish_unverified, .Lgcm_narrow_func_end51-gcm_narrow.fotsgure_gcm_finish_unverified
                                        # -- End function
	.section	.text.gcm_narrow.fotsgure_gcm_set_key,"ax",@progbits
	export_gcm_narrow	fotsgure_gcm_set_key
	.p2align	1
	.type	gcm_narrow.fotsgure_gcm_set_key,@function
gcm_narrow.fotsgure_gcm_set_key:                   # @gcm_narrow.fotsgure_gcm_set_key
# %bb.0:                                # %start
	addi	sp, sp, -48
	sd	ra, 40(sp)                      # 8-byte Folded Spill
	sd	s0, 32(sp)                      # 8-byte Folded Spill
	sd	s1, 24(sp)                      # 8-byte Folded Spill
	sd	s2, 16(sp)                      # 8-byte Folded Spill
	sd	s3, 8(sp)                       # 8-byte Folded Spill
	sd	s4, 0(sp)                       # 8-byte Folded Spill
	mv	s0, a2
	li	a2, 32
	bltu	a2, s0, .Lgcm_narrow_BB52_3
# %bb.1:                                # %start
	lui	a2, 65793
	slli	a2, a2, 4
	srl	a2, a2, s0
	andi	a2, a2, 1
	beqz	a2, .Lgcm_narrow_BB52_3
# %bb.2:                                # %join.3.i
	seqz	a2, a1
	slli	a2, a2, 12
	add	s2, a1, a2
	addi	s1, a0, 8
	li	a2, 960
	mv	s4, a0
	mv	a0, s1
	li	a1, 0
	la	t1, memset
	jalr	t1
	slli	a0, s0, 1
	addi	s3, a0, 56
	mv	a0, s1
	mv	a1, s2
	mv	a2, s0
	call	gcm_narrow.aes_narrow.word_room.expand_words
	call	gcm_narrow.aes_cipher.zeroize.stack.wipe_stack.768
	sd	s0, 0(s4)
	addi	a2, s4, 968
	mv	a0, s1
	mv	a1, s3
	call	gcm_narrow.gcm.mode.put_subkey
	call	gcm_narrow.aes_cipher.zeroize.stack.wipe_stack.512
	li	a0, 0
	j	.Lgcm_narrow_BB52_4
.Lgcm_narrow_BB52_3:                               # %then.1.i
	li	a2, 984
	li	a1, 0
	la	t1, memset
	jalr	t1
	li	a0, 1
.Lgcm_narrow_BB52_4:                               # %"gcm_c::kept::fotsgure_gcm_set_key.exit"
	ld	ra, 40(sp)                      # 8-byte Folded Reload
	ld	s0, 32(sp)                      # 8-byte Folded Reload
	ld	s1, 24(sp)                      # 8-byte Folded Reload
	ld	s2, 16(sp)                      # 8-byte Folded Reload
	ld	s3, 8(sp)                       # 8-byte Folded Reload
	ld	s4, 0(sp)                       # 8-byte Folded Reload
	addi	sp, sp, 48
	li	a1, 0
	li	a2, 0
	li	a3, 0
	li	a4, 0
	li	a5, 0
	li	a6, 0
	li	a7, 0
	li	t0, 0
	li	t1, 0
	li	t2, 0
	li	t3, 0
	li	t4, 0
	li	t5, 0
	li	t6, 0
	ret
.Lgcm_narrow_func_end52:
	.size	gcm_narrow.fotsgure_gcm_set_key, .Lgcm_narrow_func_end52-gcm_narrow.fotsgure_gcm_set_key
                                        # -- End function
	.section	.text.gcm_narrow.fotsgure_gcm_set_key_of,"ax",@progbits
	export_gcm_narrow	fotsgure_gcm_set_key_of
	.p2align	1
	.type	gcm_narrow.fotsgure_gcm_set_key_of,@function
gcm_narrow.fotsgure_gcm_set_key_of:                # @gcm_narrow.fotsgure_gcm_set_key_of
# %bb.0:                                # %start
	addi	sp, sp, -32
	sd	ra, 24(sp)                      # 8-byte Folded Spill
	sd	s0, 16(sp)                      # 8-byte Folded Spill
	sd	s1, 8(sp)                       # 8-byte Folded Spill
	sd	s2, 0(sp)                       # 8-byte Folded Spill
	ld	s1, 0(a1)
	li	a2, 32
	bltu	a2, s1, .Lgcm_narrow_BB53_3
# %bb.1:                                # %start
	lui	a2, 65793
	slli	a2, a2, 4
	srl	a2, a2, s1
	andi	a2, a2, 1
	beqz	a2, .Lgcm_narrow_BB53_3
# %bb.2:                                # %join.3.i
	sd	s1, 0(a0)
	addi	a1, a1, 8
	addi	s0, a0, 8
	li	a2, 960
	mv	s2, a0
	mv	a0, s0
	la	t1, memmove
	jalr	t1
	slli	s1, s1, 1
	addi	a1, s1, 56
	addi	a2, s2, 968
	mv	a0, s0
	call	gcm_narrow.gcm.mode.put_subkey
	call	gcm_narrow.aes_cipher.zeroize.stack.wipe_stack.512
	li	a0, 0
	ld	ra, 24(sp)                      # 8-byte Folded Reload
	ld	s0, 16(sp)                      # 8-byte Folded Reload
	ld	s1, 8(sp)                       # 8-byte Folded Reload
	ld	s2, 0(sp)                       # 8-byte Folded Reload
	addi	sp, sp, 32
	li	a1, 0
	li	a2, 0
	li	a3, 0
	li	a4, 0
	li	a5, 0
	li	a6, 0
	li	a7, 0
	li	t0, 0
	li	t1, 0
	li	t2, 0
	li	t3, 0
	li	t4, 0
	li	t5, 0
	li	t6, 0
	ret
.Lgcm_narrow_BB53_3:                               # %then.1.i
	addi	s0, a0, 8
	addi	s1, a0, 968
	li	a2, 984
	li	a1, 0
	la	t1, memset
	jalr	t1
	mv	a0, s0
	call	gcm_narrow.aes_cipher.zeroize.elements.zeroize_elements.1
	mv	a0, s1
	call	gcm_narrow.aes_cipher.zeroize.elements.zeroize_elements.2
	li	a0, 2
	ld	ra, 24(sp)                      # 8-byte Folded Reload
	ld	s0, 16(sp)                      # 8-byte Folded Reload
	ld	s1, 8(sp)                       # 8-byte Folded Reload
	ld	s2, 0(sp)                       # 8-byte Folded Reload
	addi	sp, sp, 32
	li	a1, 0
	li	a2, 0
	li	a3, 0
	li	a4, 0
	li	a5, 0
	li	a6, 0
	li	a7, 0
	li	t0, 0
	li	t1, 0
	li	t2, 0
	li	t3, 0
	li	t4, 0
	li	t5, 0
	li	t6, 0
	ret
.Lgcm_narrow_func_end53:
	.size	gcm_narrow.fotsgure_gcm_set_key_of, .Lgcm_narrow_func_end53-gcm_narrow.fotsgure_gcm_set_key_of
                                        # -- End function
	.section	.text.gcm_narrow.fotsgure_gcm_open,"ax",@progbits
	export_gcm_narrow	fotsgure_gcm_open
	.p2align	1
	.type	gcm_narrow.fotsgure_gcm_open,@function
gcm_narrow.fotsgure_gcm_open:                      # @gcm_narrow.fotsgure_gcm_open
# %bb.0:                                # %start
	addi	sp, sp, -96
	sd	ra, 88(sp)                      # 8-byte Folded Spill
	sd	s0, 80(sp)                      # 8-byte Folded Spill
	sd	s1, 72(sp)                      # 8-byte Folded Spill
	sd	s2, 64(sp)                      # 8-byte Folded Spill
	ld	s1, 96(sp)
	li	s0, 16
	bne	s1, s0, .Lgcm_narrow_BB54_3
# %bb.1:                                # %join.3.i
	li	s1, -1
	slli	s1, s1, 61
	add	s0, a2, s1
	addi	s1, s1, 1
	bgeu	s0, s1, .Lgcm_narrow_BB54_5
# %bb.2:
	li	s0, 3
	j	.Lgcm_narrow_BB54_4
.Lgcm_narrow_BB54_3:
	li	s0, 4
.Lgcm_narrow_BB54_4:                               # %"gcm_c::whole::fotsgure_gcm_open.exit"
	mv	a0, s0
	ld	ra, 88(sp)                      # 8-byte Folded Reload
	ld	s0, 80(sp)                      # 8-byte Folded Reload
	ld	s1, 72(sp)                      # 8-byte Folded Reload
	ld	s2, 64(sp)                      # 8-byte Folded Reload
	addi	sp, sp, 96
	li	a1, 0
	li	a2, 0
	li	a3, 0
	li	a4, 0
	li	a5, 0
	li	a6, 0
	li	a7, 0
	li	t0, 0
	li	t1, 0
	li	t2, 0
	li	t3, 0
	li	t4, 0
	li	t5, 0
	li	t6, 0
	ret
.Lgcm_narrow_BB54_5:                               # %after.1.i.i
	srli	s1, a4, 61
	li	s0, 5
	bnez	s1, .Lgcm_narrow_BB54_4
# %bb.6:                                # %after.1.i.i
	li	s1, 1
	slli	s1, s1, 36
	addi	s1, s1, -32
	bltu	s1, a6, .Lgcm_narrow_BB54_4
# %bb.7:                                # %after.11.i.i
	ld	t2, 0(a0)
	li	s1, 32
	li	s0, 2
	bltu	s1, t2, .Lgcm_narrow_BB54_4
# %bb.8:                                # %after.11.i.i
	lui	s1, 65793
	slli	s1, s1, 4
	srl	s1, s1, t2
	andi	s1, s1, 1
	beqz	s1, .Lgcm_narrow_BB54_4
# %bb.9:                                # %join.6.i
	seqz	t0, a1
	seqz	t1, a3
	seqz	t3, a5
	seqz	s1, a7
	addi	t4, a0, 8
	slli	t2, t2, 1
	addi	a0, a0, 968
	slli	t0, t0, 12
	slli	t1, t1, 12
	slli	t3, t3, 12
	slli	s1, s1, 12
	addi	s0, t2, 56
	add	a1, a1, t0
	add	a3, a3, t1
	add	s2, a5, t3
	add	a7, a7, s1
	sd	t4, 8(sp)
	sd	s0, 16(sp)
	sd	a0, 24(sp)
	lbu	t0, 8(a7)
	lbu	a5, 9(a7)
	lbu	s1, 10(a7)
	lbu	s0, 11(a7)
	lbu	t1, 12(a7)
	lbu	a0, 13(a7)
	lbu	t2, 14(a7)
	lbu	t3, 15(a7)
	slli	a5, a5, 8
	slli	s1, s1, 16
	slli	s0, s0, 24
	slli	a0, a0, 8
	or	t0, a5, t0
	or	t4, s0, s1
	or	t1, a0, t1
	lbu	s1, 0(a7)
	lbu	a5, 1(a7)
	lbu	a0, 2(a7)
	lbu	s0, 3(a7)
	slli	t2, t2, 16
	slli	t3, t3, 24
	slli	a5, a5, 8
	slli	a0, a0, 16
	slli	s0, s0, 24
	or	t2, t3, t2
	or	t3, a5, s1
	or	t5, s0, a0
	lbu	s1, 5(a7)
	lbu	s0, 4(a7)
	lbu	a5, 6(a7)
	lbu	a0, 7(a7)
	slli	s1, s1, 8
	or	a7, s1, s0
	slli	a5, a5, 16
	slli	a0, a0, 24
	or	a0, a0, a5
	or	a5, t4, t0
	or	s1, t2, t1
	or	s0, t5, t3
	or	a0, a0, a7
	slli	s1, s1, 32
	slli	a0, a0, 32
	or	a5, a5, s1
	or	a0, a0, s0
	sd	a0, 32(sp)
	sd	a5, 40(sp)
	sd	zero, 48(sp)
	sd	zero, 56(sp)
	addi	a0, sp, 8
	addi	a7, sp, 32
	addi	t3, sp, 48
	mv	a5, s2
	mv	s1, a6
	call	gcm_narrow.gcm.mode.BorrowedGcm.compare
	zext.b	a0, a0
	beqz	a0, .Lgcm_narrow_BB54_11
# %bb.10:
	li	s0, 6
	j	.Lgcm_narrow_BB54_12
.Lgcm_narrow_BB54_11:                              # %then.1.i.i
	addi	a0, sp, 8
	addi	a1, sp, 48
	li	a2, 16
	mv	a3, s2
	mv	a4, s1
	call	gcm_narrow.gcm.gctr.add_gctr
	li	s0, 0
.Lgcm_narrow_BB54_12:                              # %"gcm::mode::BorrowedGcm::decrypt::<#5079162aaf335e50>.exit.i"
	addi	a0, sp, 48
	call	gcm_narrow.aes_cipher.zeroize.elements.zeroize_elements.3
	call	gcm_narrow.aes_cipher.zeroize.stack.wipe_stack.1536
	j	.Lgcm_narrow_BB54_4
.Lgcm_narrow_func_end54:
	.size	gcm_narrow.fotsgure_gcm_open, .Lgcm_narrow_func_end54-gcm_narrow.fotsgure_gcm_open
                                        # -- End function
	.section	.text.gcm_narrow.fotsgure_gcm_open_to,"ax",@progbits
	export_gcm_narrow	fotsgure_gcm_open_to
	.p2align	1
	.type	gcm_narrow.fotsgure_gcm_open_to,@function
gcm_narrow.fotsgure_gcm_open_to:                   # @gcm_narrow.fotsgure_gcm_open_to
# %bb.0:                                # %start
	addi	sp, sp, -112
	sd	ra, 104(sp)                     # 8-byte Folded Spill
	sd	s0, 96(sp)                      # 8-byte Folded Spill
	sd	s1, 88(sp)                      # 8-byte Folded Spill
	sd	s2, 80(sp)                      # 8-byte Folded Spill
	sd	s3, 72(sp)                      # 8-byte Folded Spill
	sd	s4, 64(sp)                      # 8-byte Folded Spill
	ld	s1, 112(sp)
	bne	a6, s1, .Lgcm_narrow_BB55_4
# %bb.1:                                # %join.3.i
	ld	s1, 128(sp)
	li	s0, 16
	bne	s1, s0, .Lgcm_narrow_BB55_5
# %bb.2:                                # %join.6.i
	li	s1, -1
	slli	s1, s1, 61
	add	s0, a2, s1
	addi	s1, s1, 1
	bgeu	s0, s1, .Lgcm_narrow_BB55_7
# %bb.3:
	li	s1, 3
	j	.Lgcm_narrow_BB55_6
.Lgcm_narrow_BB55_4:
	li	s1, 10
	j	.Lgcm_narrow_BB55_6
.Lgcm_narrow_BB55_5:
	li	s1, 4
.Lgcm_narrow_BB55_6:                               # %"gcm_c::whole_to::fotsgure_gcm_open_to.exit"
	mv	a0, s1
	ld	ra, 104(sp)                     # 8-byte Folded Reload
	ld	s0, 96(sp)                      # 8-byte Folded Reload
	ld	s1, 88(sp)                      # 8-byte Folded Reload
	ld	s2, 80(sp)                      # 8-byte Folded Reload
	ld	s3, 72(sp)                      # 8-byte Folded Reload
	ld	s4, 64(sp)                      # 8-byte Folded Reload
	addi	sp, sp, 112
	li	a1, 0
	li	a2, 0
	li	a3, 0
	li	a4, 0
	li	a5, 0
	li	a6, 0
	li	a7, 0
	li	t0, 0
	li	t1, 0
	li	t2, 0
	li	t3, 0
	li	t4, 0
	li	t5, 0
	li	t6, 0
	ret
.Lgcm_narrow_BB55_7:                               # %after.1.i.i
	srli	s0, a4, 61
	li	s1, 5
	bnez	s0, .Lgcm_narrow_BB55_6
# %bb.8:                                # %after.1.i.i
	li	s0, 1
	slli	s0, s0, 36
	addi	s0, s0, -32
	bltu	s0, a6, .Lgcm_narrow_BB55_6
# %bb.9:                                # %after.11.i.i
	ld	t3, 0(a0)
	li	s0, 32
	li	s1, 2
	bltu	s0, t3, .Lgcm_narrow_BB55_6
# %bb.10:                               # %after.11.i.i
	lui	s0, 65793
	slli	s0, s0, 4
	srl	s0, s0, t3
	andi	s0, s0, 1
	beqz	s0, .Lgcm_narrow_BB55_6
# %bb.11:                               # %join.9.i
	ld	t0, 120(sp)
	seqz	t1, a1
	seqz	t2, a3
	seqz	s1, a7
	addi	t4, a0, 8
	slli	t3, t3, 1
	addi	a0, a0, 968
	slli	t1, t1, 12
	slli	t2, t2, 12
	slli	s1, s1, 12
	addi	s0, t3, 56
	add	a1, a1, t1
	add	a3, a3, t2
	add	s2, a7, s1
	sd	t4, 8(sp)
	sd	s0, 16(sp)
	sd	a0, 24(sp)
	seqz	a0, t0
	slli	a0, a0, 12
	add	a0, a0, t0
	lbu	a7, 8(a0)
	lbu	t2, 9(a0)
	lbu	s1, 10(a0)
	lbu	t0, 11(a0)
	lbu	t1, 12(a0)
	lbu	s0, 13(a0)
	lbu	t3, 14(a0)
	lbu	t4, 15(a0)
	slli	t2, t2, 8
	slli	s1, s1, 16
	slli	t0, t0, 24
	slli	s0, s0, 8
	or	a7, t2, a7
	or	t2, t0, s1
	or	t0, s0, t1
	lbu	t1, 0(a0)
	lbu	s1, 1(a0)
	lbu	s0, 2(a0)
	lbu	t5, 3(a0)
	slli	t3, t3, 16
	slli	t4, t4, 24
	slli	s1, s1, 8
	slli	s0, s0, 16
	slli	t5, t5, 24
	or	t3, t4, t3
	or	t1, s1, t1
	or	t4, t5, s0
	lbu	s1, 5(a0)
	lbu	s0, 4(a0)
	lbu	t5, 6(a0)
	lbu	a0, 7(a0)
	slli	s1, s1, 8
	or	t6, s1, s0
	slli	t5, t5, 16
	slli	a0, a0, 24
	or	t5, a0, t5
	seqz	s4, a5
	slli	s4, s4, 12
	or	a7, t2, a7
	mv	s3, a5
	add	s1, a5, s4
	or	a5, t3, t0
	or	a0, t4, t1
	or	s0, t5, t6
	slli	a5, a5, 32
	slli	s0, s0, 32
	or	a5, a5, a7
	or	a0, a0, s0
	sd	a0, 32(sp)
	sd	a5, 40(sp)
	sd	zero, 48(sp)
	sd	zero, 56(sp)
	addi	a0, sp, 8
	addi	a7, sp, 32
	addi	t3, sp, 48
	mv	a5, s1
	mv	s0, a6
	call	gcm_narrow.gcm.mode.BorrowedGcm.compare
	zext.b	a0, a0
	beqz	a0, .Lgcm_narrow_BB55_16
# %bb.12:                               # %else.2.i.i
	li	s1, 6
	beqz	s0, .Lgcm_narrow_BB55_21
# %bb.13:                               # %loop.5.preheader.i.i.i
	addi	s0, s0, -1
	beqz	s0, .Lgcm_narrow_BB55_15
# %bb.14:                               # %join.8.preheader.i.i.i
	mv	a0, s2
	li	a1, 0
	mv	a2, s0
	la	t1, memset
	jalr	t1
.Lgcm_narrow_BB55_15:                              # %after.4.i.i.i
	add	s0, s0, s2
	sb	zero, 0(s0)
	j	.Lgcm_narrow_BB55_21
.Lgcm_narrow_BB55_16:                              # %then.1.i.i
	sub	a0, s2, s1
	mv	a4, s0
	bgeu	a0, s0, .Lgcm_narrow_BB55_19
# %bb.17:                               # %join.7.i.i.i.i.i.i.i.i.preheader
	add	s4, s4, a4
	add	s3, s3, s4
	mv	a0, s2
.Lgcm_narrow_BB55_18:                              # %join.7.i.i.i.i.i.i.i.i
                                        # =>This Inner Loop Header: Depth=1
	lbu	a1, 0(s1)
	addi	s1, s1, 1
	sb	a1, 0(a0)
	addi	a0, a0, 1
	bne	s1, s3, .Lgcm_narrow_BB55_18
	j	.Lgcm_narrow_BB55_20
.Lgcm_narrow_BB55_19:                              # %apart.2.i.i.i.i.i.i.i.i
	mv	a0, s2
	mv	a1, s1
	mv	a2, a4
	la	t1, memmove
	jalr	t1
	mv	a4, s0
.Lgcm_narrow_BB55_20:                              # %"core::slice::edits::slice+T::copy_from_slice::<i8,20'core::clone::U8Clone{}>.exit.i.i"
	addi	a0, sp, 8
	addi	a1, sp, 48
	li	a2, 16
	mv	a3, s2
	call	gcm_narrow.gcm.gctr.add_gctr
	li	s1, 0
.Lgcm_narrow_BB55_21:                              # %"gcm::mode::BorrowedGcm::decrypt_to::<#5079162aaf335e50>.exit.i"
	addi	a0, sp, 48
	call	gcm_narrow.aes_cipher.zeroize.elements.zeroize_elements.3
	call	gcm_narrow.aes_cipher.zeroize.stack.wipe_stack.1536
	j	.Lgcm_narrow_BB55_6
.Lgcm_narrow_func_end55:
	.size	gcm_narrow.fotsgure_gcm_open_to, .Lgcm_narrow_func_end55-gcm_narrow.fotsgure_gcm_open_to
                                        # -- End function
	.section	.text.gcm_narrow.fotsgure_gcm_seal,"ax",@progbits
	export_gcm_narrow	fotsgure_gcm_seal
	.p2align	1
	.type	gcm_narrow.fotsgure_gcm_seal,@function
gcm_narrow.fotsgure_gcm_seal:                      # @gcm_narrow.fotsgure_gcm_seal
# %bb.0:                                # %start
	addi	sp, sp, -16
	sd	ra, 8(sp)                       # 8-byte Folded Spill
	seqz	t0, a1
	slli	t0, t0, 12
	add	a1, a1, t0
	seqz	t0, a3
	slli	t0, t0, 12
	add	a3, a3, t0
	seqz	t0, a5
	slli	t0, t0, 12
	add	a5, a5, t0
	call	gcm_narrow.gcm_c.whole.fotsgure_gcm_seal
	slli	a0, a0, 32
	srli	a0, a0, 32
	ld	ra, 8(sp)                       # 8-byte Folded Reload
	addi	sp, sp, 16
	li	a1, 0
	li	a2, 0
	li	a3, 0
	li	a4, 0
	li	a5, 0
	li	a6, 0
	li	a7, 0
	li	t0, 0
	li	t1, 0
	li	t2, 0
	li	t3, 0
	li	t4, 0
	li	t5, 0
	li	t6, 0
	ret
.Lgcm_narrow_func_end56:
	.size	gcm_narrow.fotsgure_gcm_seal, .Lgcm_narrow_func_end56-gcm_narrow.fotsgure_gcm_seal
                                        # -- End function
	.section	.text.gcm_narrow.fotsgure_gcm_seal_next,"ax",@progbits
	export_gcm_narrow	fotsgure_gcm_seal_next
	.p2align	1
	.type	gcm_narrow.fotsgure_gcm_seal_next,@function
gcm_narrow.fotsgure_gcm_seal_next:                 # @gcm_narrow.fotsgure_gcm_seal_next
# %bb.0:                                # %start
	addi	sp, sp, -32
	sd	ra, 24(sp)                      # 8-byte Folded Spill
	sd	s0, 16(sp)                      # 8-byte Folded Spill
	sd	s1, 8(sp)                       # 8-byte Folded Spill
	sd	s2, 0(sp)                       # 8-byte Folded Spill
	lbu	t0, 5(a1)
	lbu	t1, 6(a1)
	lbu	s1, 7(a1)
	lbu	s0, 4(a1)
	slli	t0, t0, 8
	slli	t1, t1, 16
	slli	s1, s1, 24
	or	t0, t0, s0
	or	t1, s1, t1
	lbu	t2, 9(a1)
	lbu	t3, 8(a1)
	lbu	s0, 10(a1)
	lbu	s1, 11(a1)
	slli	t2, t2, 8
	or	t2, t2, t3
	slli	s0, s0, 16
	slli	s1, s1, 24
	or	s0, s0, s1
	or	s1, t1, t0
	or	s0, s0, t2
	slli	s0, s0, 32
	or	s1, s1, s0
	li	t0, -1
	bne	s1, t0, .Lgcm_narrow_BB57_4
# %bb.1:                                # %start
	lbu	t2, 1(a1)
	lbu	t1, 0(a1)
	lbu	t3, 2(a1)
	lbu	s1, 3(a1)
	slliw	s0, t2, 8
	or	t1, s0, t1
	slliw	s0, t3, 16
	slliw	s1, s1, 24
	or	s0, s0, s1
	or	s1, s0, t1
	bne	s1, t0, .Lgcm_narrow_BB57_4
# %bb.2:
	li	a0, 7
.Lgcm_narrow_BB57_3:                               # %"gcm_c::counter::fotsgure_gcm_seal_next.exit"
	ld	ra, 24(sp)                      # 8-byte Folded Reload
	ld	s0, 16(sp)                      # 8-byte Folded Reload
	ld	s1, 8(sp)                       # 8-byte Folded Reload
	ld	s2, 0(sp)                       # 8-byte Folded Reload
	addi	sp, sp, 32
	li	a1, 0
	li	a2, 0
	li	a3, 0
	li	a4, 0
	li	a5, 0
	li	a6, 0
	li	a7, 0
	li	t0, 0
	li	t1, 0
	li	t2, 0
	li	t3, 0
	li	t4, 0
	li	t5, 0
	li	t6, 0
	ret
.Lgcm_narrow_BB57_4:                               # %join.3.i
	mv	s2, a2
	seqz	a2, a5
	slli	a2, a2, 12
	add	a5, a5, a2
	seqz	a2, a3
	slli	a2, a2, 12
	add	a3, a3, a2
	li	a2, 12
	mv	s1, a1
	call	gcm_narrow.gcm_c.whole.fotsgure_gcm_seal
	slli	a0, a0, 32
	srli	a0, a0, 32
	bnez	a0, .Lgcm_narrow_BB57_3
# %bb.5:                                # %then.4.i
	mv	a0, s1
	lbu	a7, 0(s1)
	lbu	a6, 1(s1)
	lbu	t0, 2(s1)
	lbu	a4, 3(s1)
	lbu	a5, 4(s1)
	lbu	s1, 5(s1)
	lbu	s0, 6(a0)
	lbu	a1, 7(a0)
	slliw	a2, t0, 16
	slliw	a3, a4, 24
	slli	s1, s1, 8
	slli	s0, s0, 16
	slli	a1, a1, 24
	or	a2, a2, a3
	or	t1, s1, a5
	or	s0, s0, a1
	lbu	a1, 9(a0)
	lbu	a3, 8(a0)
	lbu	a5, 10(a0)
	lbu	s1, 11(a0)
	slli	a1, a1, 8
	or	a1, a1, a3
	slli	a5, a5, 16
	slli	s1, s1, 24
	or	s1, s1, a5
	slli	t0, t0, 8
	or	a4, t0, a4
	lui	a5, 16
	slliw	a3, a6, 8
	or	a3, a3, a7
	or	t3, a2, a3
	li	t2, -1
	addi	a5, a5, -256
	slli	a7, a7, 24
	or	a2, s0, t1
	or	a1, a1, s1
	or	a4, a7, a4
	slli	a1, a1, 32
	and	a3, t3, a5
	or	a2, a2, a1
	slli	a3, a3, 8
	or	t6, a4, a3
	srli	a7, a2, 56
	srli	t1, a2, 40
	srli	a6, a2, 24
	srli	t0, a2, 8
	beq	a2, t2, .Lgcm_narrow_BB57_7
# %bb.6:                                # %"gcm::counter::nonce_after.exit.thread.i.i"
	lui	t4, 4080
	li	t2, 255
	srliw	s1, a2, 24
	and	s0, a2, a5
	slli	a3, a2, 56
	and	a1, a6, t4
	slli	t2, t2, 24
	slli	s0, s0, 40
	or	a3, a3, s0
	and	s0, t0, t2
	or	a1, a1, s0
	and	s0, a2, t4
	slli	s1, s1, 32
	slli	s0, s0, 24
	or	s0, s0, s1
	and	s1, t1, a5
	or	s1, s1, a7
	or	a1, a1, s1
	or	a3, a3, s0
	or	a1, a1, a3
	addi	a3, a1, 1
	srli	s0, a3, 40
	srli	s1, a3, 56
	srli	a1, a3, 8
	and	t2, a1, t2
	srli	a1, a3, 24
	and	s0, s0, a5
	or	t5, s0, s1
	srliw	s1, a3, 24
	and	a1, a1, t4
	and	s0, a3, t4
	and	a5, a5, a3
	slli	a3, a3, 56
	slli	s1, s1, 32
	slli	s0, s0, 24
	slli	a5, a5, 40
	or	a1, t2, a1
	or	s0, s0, s1
	or	a3, a3, a5
	or	a1, a1, t5
	or	a3, a3, s0
	or	a5, a3, a1
	mv	s0, s2
	j	.Lgcm_narrow_BB57_9
.Lgcm_narrow_BB57_7:                               # %"gcm::counter::nonce_after.exit.i.i"
	mv	s0, s2
	beq	t3, t2, .Lgcm_narrow_BB57_10
# %bb.8:
	li	a5, 0
	addi	t6, t6, 1
.Lgcm_narrow_BB57_9:                               # %arm.1.i.i
	srli	t4, t6, 24
	srli	t5, t6, 8
	srli	a4, t6, 16
	srli	t2, a5, 56
	srli	s1, a5, 48
	srli	a1, a5, 40
	srli	a3, a5, 32
	srli	s2, a5, 24
	sb	t4, 0(a0)
	sb	a4, 1(a0)
	sb	t5, 2(a0)
	sb	t6, 3(a0)
	srli	a4, a5, 16
	sb	a3, 8(a0)
	sb	a1, 9(a0)
	sb	s1, 10(a0)
	sb	t2, 11(a0)
	srli	a1, a5, 8
	sb	a5, 4(a0)
	sb	a1, 5(a0)
	sb	a4, 6(a0)
	sb	s2, 7(a0)
.Lgcm_narrow_BB57_10:                              # %"gcm::counter::Counter::take.exit.i"
	li	a0, 0
	srli	a1, t3, 24
	srli	a3, t3, 16
	srli	a4, t3, 8
	srli	a5, a2, 48
	srli	s1, a2, 32
	sb	t3, 0(s0)
	sb	a4, 1(s0)
	sb	a3, 2(s0)
	sb	a1, 3(s0)
	srli	a1, a2, 16
	sb	s1, 8(s0)
	sb	t1, 9(s0)
	sb	a5, 10(s0)
	sb	a7, 11(s0)
	sb	a2, 4(s0)
	sb	t0, 5(s0)
	sb	a1, 6(s0)
	sb	a6, 7(s0)
	ld	ra, 24(sp)                      # 8-byte Folded Reload
	ld	s0, 16(sp)                      # 8-byte Folded Reload
	ld	s1, 8(sp)                       # 8-byte Folded Reload
	ld	s2, 0(sp)                       # 8-byte Folded Reload
	addi	sp, sp, 32
	li	a1, 0
	li	a2, 0
	li	a3, 0
	li	a4, 0
	li	a5, 0
	li	a6, 0
	li	a7, 0
	li	t0, 0
	li	t1, 0
	li	t2, 0
	li	t3, 0
	li	t4, 0
	li	t5, 0
	li	t6, 0
	ret
.Lgcm_narrow_func_end57:
	.size	gcm_narrow.fotsgure_gcm_seal_next, .Lgcm_narrow_func_end57-gcm_narrow.fotsgure_gcm_seal_next
                                        # -- End function
	.section	.text.gcm_narrow.fotsgure_gcm_seal_to,"ax",@progbits
	export_gcm_narrow	fotsgure_gcm_seal_to
	.p2align	1
	.type	gcm_narrow.fotsgure_gcm_seal_to,@function
gcm_narrow.fotsgure_gcm_seal_to:                   # @gcm_narrow.fotsgure_gcm_seal_to
# %bb.0:                                # %start
	addi	sp, sp, -80
	sd	ra, 72(sp)                      # 8-byte Folded Spill
	sd	s0, 64(sp)                      # 8-byte Folded Spill
	sd	s1, 56(sp)                      # 8-byte Folded Spill
	sd	s2, 48(sp)                      # 8-byte Folded Spill
	sd	s3, 40(sp)                      # 8-byte Folded Spill
	sd	s4, 32(sp)                      # 8-byte Folded Spill
	sd	s5, 24(sp)                      # 8-byte Folded Spill
	sd	s6, 16(sp)                      # 8-byte Folded Spill
	sd	s7, 8(sp)                       # 8-byte Folded Spill
	ld	s1, 80(sp)
	bne	a6, s1, .Lgcm_narrow_BB58_3
# %bb.1:                                # %join.3.i
	li	s1, -1
	slli	s1, s1, 61
	add	s0, a2, s1
	addi	s1, s1, 1
	bgeu	s0, s1, .Lgcm_narrow_BB58_5
# %bb.2:
	li	t0, 3
	j	.Lgcm_narrow_BB58_4
.Lgcm_narrow_BB58_3:
	li	t0, 10
.Lgcm_narrow_BB58_4:                               # %"gcm_c::whole_to::fotsgure_gcm_seal_to.exit"
	mv	a0, t0
	ld	ra, 72(sp)                      # 8-byte Folded Reload
	ld	s0, 64(sp)                      # 8-byte Folded Reload
	ld	s1, 56(sp)                      # 8-byte Folded Reload
	ld	s2, 48(sp)                      # 8-byte Folded Reload
	ld	s3, 40(sp)                      # 8-byte Folded Reload
	ld	s4, 32(sp)                      # 8-byte Folded Reload
	ld	s5, 24(sp)                      # 8-byte Folded Reload
	ld	s6, 16(sp)                      # 8-byte Folded Reload
	ld	s7, 8(sp)                       # 8-byte Folded Reload
	addi	sp, sp, 80
	li	a1, 0
	li	a2, 0
	li	a3, 0
	li	a4, 0
	li	a5, 0
	li	a6, 0
	li	a7, 0
	li	t0, 0
	li	t1, 0
	li	t2, 0
	li	t3, 0
	li	t4, 0
	li	t5, 0
	li	t6, 0
	ret
.Lgcm_narrow_BB58_5:                               # %after.1.i.i
	srli	s1, a4, 61
	li	t0, 5
	bnez	s1, .Lgcm_narrow_BB58_4
# %bb.6:                                # %after.1.i.i
	li	s1, 1
	slli	s1, s1, 36
	addi	s1, s1, -32
	bltu	s1, a6, .Lgcm_narrow_BB58_4
# %bb.7:                                # %after.11.i.i
	ld	s1, 0(a0)
	li	s0, 32
	li	t0, 2
	bltu	s0, s1, .Lgcm_narrow_BB58_4
# %bb.8:                                # %after.11.i.i
	lui	s0, 65793
	slli	s0, s0, 4
	srl	s1, s0, s1
	andi	s1, s1, 1
	beqz	s1, .Lgcm_narrow_BB58_4
# %bb.9:                                # %join.6.i
	ld	s2, 88(sp)
	seqz	s1, a1
	slli	s1, s1, 12
	add	s3, a1, s1
	seqz	a1, a3
	slli	a1, a1, 12
	add	s4, a3, a1
	seqz	a1, a5
	slli	a1, a1, 12
	add	a5, a5, a1
	seqz	a1, a7
	slli	a1, a1, 12
	add	s1, a7, a1
	mv	s0, a0
	mv	a0, a5
	mv	a1, a6
	mv	s5, a2
	mv	a2, s1
	mv	s6, a6
	mv	s7, a4
	call	gcm_narrow.gcm_c.whole_to.copy
	mv	a0, s0
	mv	a1, s3
	mv	a2, s5
	mv	a3, s4
	mv	a4, s7
	mv	a5, s1
	mv	a6, s6
	mv	a7, s2
	call	gcm_narrow.gcm_c.whole.fotsgure_gcm_seal
	slli	a0, a0, 32
	srli	t0, a0, 32
	j	.Lgcm_narrow_BB58_4
.Lgcm_narrow_func_end58:
	.size	gcm_narrow.fotsgure_gcm_seal_to, .Lgcm_narrow_func_end58-gcm_narrow.fotsgure_gcm_seal_to
                                        # -- End function
	.section	.text.gcm_narrow.fotsgure_gcm_siv_open,"ax",@progbits
	export_gcm_narrow	fotsgure_gcm_siv_open
	.p2align	1
	.type	gcm_narrow.fotsgure_gcm_siv_open,@function
gcm_narrow.fotsgure_gcm_siv_open:                  # @gcm_narrow.fotsgure_gcm_siv_open
# %bb.0:                                # %start
	mv	a7, a6
	mv	a6, a5
	mv	t1, a1
	li	a5, 1
	slli	a5, a5, 36
	li	a1, 5
	bltu	a5, a3, .Lgcm_narrow_BB59_5
# %bb.1:                                # %start
	bltu	a5, a6, .Lgcm_narrow_BB59_5
# %bb.2:                                # %after.1.i.i
	ld	a1, 0(a0)
	li	a5, 32
	beq	a1, a5, .Lgcm_narrow_BB59_4
# %bb.3:                                # %after.1.i.i
	li	a5, 16
	bne	a1, a5, .Lgcm_narrow_BB59_6
.Lgcm_narrow_BB59_4:                               # %join.3.i
	addi	sp, sp, -32
	sd	ra, 24(sp)                      # 8-byte Folded Spill
	seqz	a5, a2
	slli	a5, a5, 12
	add	t0, a2, a5
	seqz	a2, a4
	addi	a0, a0, 8
	slli	a2, a2, 12
	add	a5, a4, a2
	slli	a2, a1, 1
	addi	a2, a2, 56
	sd	a0, 8(sp)
	sd	a2, 16(sp)
	addi	a0, sp, 8
	mv	a2, t1
	mv	a4, a3
	mv	a3, t0
	call	gcm_narrow.gcm_siv.course.open_in
	addi	a0, a0, -1
	andi	a1, a0, 6
	ld	ra, 24(sp)                      # 8-byte Folded Reload
	addi	sp, sp, 32
.Lgcm_narrow_BB59_5:                               # %"gcm_c::siv::fotsgure_gcm_siv_open.exit"
	mv	a0, a1
	li	a1, 0
	li	a2, 0
	li	a3, 0
	li	a4, 0
	li	a5, 0
	li	a6, 0
	li	a7, 0
	li	t0, 0
	li	t1, 0
	li	t2, 0
	li	t3, 0
	li	t4, 0
	li	t5, 0
	li	t6, 0
	ret
.Lgcm_narrow_BB59_6:
	li	a0, 2
	li	a1, 0
	li	a2, 0
	li	a3, 0
	li	a4, 0
	li	a5, 0
	li	a6, 0
	li	a7, 0
	li	t0, 0
	li	t1, 0
	li	t2, 0
	li	t3, 0
	li	t4, 0
	li	t5, 0
	li	t6, 0
	ret
.Lgcm_narrow_func_end59:
	.size	gcm_narrow.fotsgure_gcm_siv_open, .Lgcm_narrow_func_end59-gcm_narrow.fotsgure_gcm_siv_open
                                        # -- End function
	.section	.text.gcm_narrow.fotsgure_gcm_siv_open_to,"ax",@progbits
	export_gcm_narrow	fotsgure_gcm_siv_open_to
	.p2align	1
	.type	gcm_narrow.fotsgure_gcm_siv_open_to,@function
gcm_narrow.fotsgure_gcm_siv_open_to:               # @gcm_narrow.fotsgure_gcm_siv_open_to
# %bb.0:                                # %start
	addi	sp, sp, -80
	sd	ra, 72(sp)                      # 8-byte Folded Spill
	sd	s0, 64(sp)                      # 8-byte Folded Spill
	sd	s1, 56(sp)                      # 8-byte Folded Spill
	sd	s2, 48(sp)                      # 8-byte Folded Spill
	sd	s3, 40(sp)                      # 8-byte Folded Spill
	sd	s4, 32(sp)                      # 8-byte Folded Spill
	sd	s5, 24(sp)                      # 8-byte Folded Spill
	bne	a5, a7, .Lgcm_narrow_BB60_9
# %bb.1:                                # %join.3.i
	li	s0, 1
	slli	s0, s0, 36
	li	s1, 5
	bltu	s0, a3, .Lgcm_narrow_BB60_10
# %bb.2:                                # %join.3.i
	bltu	s0, a5, .Lgcm_narrow_BB60_10
# %bb.3:                                # %after.1.i.i
	ld	s1, 0(a0)
	li	s0, 32
	beq	s1, s0, .Lgcm_narrow_BB60_5
# %bb.4:                                # %after.1.i.i
	li	s0, 16
	bne	s1, s0, .Lgcm_narrow_BB60_15
.Lgcm_narrow_BB60_5:                               # %join.6.i
	seqz	s0, a4
	seqz	s1, a6
	slli	a7, s0, 12
	slli	s5, s1, 12
	add	s1, a4, a7
	add	s5, s5, a6
	mv	s3, a1
	mv	s2, a3
	sub	s0, s5, s1
	bgeu	s0, a5, .Lgcm_narrow_BB60_11
# %bb.6:                                # %join.7.i.i.i.i.i.i.i.preheader
	mv	s4, a5
	add	a5, a5, a7
	add	a4, a4, a5
	mv	a1, s5
.Lgcm_narrow_BB60_7:                               # %join.7.i.i.i.i.i.i.i
                                        # =>This Inner Loop Header: Depth=1
	lbu	a3, 0(s1)
	addi	s1, s1, 1
	sb	a3, 0(a1)
	addi	a1, a1, 1
	bne	s1, a4, .Lgcm_narrow_BB60_7
# %bb.8:                                # %after.1.i.i.i
	ld	a1, 0(a0)
	li	a3, 32
	bne	a1, a3, .Lgcm_narrow_BB60_12
	j	.Lgcm_narrow_BB60_13
.Lgcm_narrow_BB60_9:
	li	s1, 10
.Lgcm_narrow_BB60_10:                              # %"gcm_c::siv_to::fotsgure_gcm_siv_open_to.exit"
	mv	a0, s1
	ld	ra, 72(sp)                      # 8-byte Folded Reload
	ld	s0, 64(sp)                      # 8-byte Folded Reload
	ld	s1, 56(sp)                      # 8-byte Folded Reload
	ld	s2, 48(sp)                      # 8-byte Folded Reload
	ld	s3, 40(sp)                      # 8-byte Folded Reload
	ld	s4, 32(sp)                      # 8-byte Folded Reload
	ld	s5, 24(sp)                      # 8-byte Folded Reload
	addi	sp, sp, 80
	li	a1, 0
	li	a2, 0
	li	a3, 0
	li	a4, 0
	li	a5, 0
	li	a6, 0
	li	a7, 0
	li	t0, 0
	li	t1, 0
	li	t2, 0
	li	t3, 0
	li	t4, 0
	li	t5, 0
	li	t6, 0
	ret
.Lgcm_narrow_BB60_11:                              # %apart.2.i.i.i.i.i.i.i
	mv	s0, a0
	mv	a0, s5
	mv	a1, s1
	mv	s4, a5
	mv	s1, a2
	mv	a2, a5
	la	t1, memmove
	jalr	t1
	mv	a0, s0
	mv	a2, s1
	ld	a1, 0(s0)
	li	a3, 32
	beq	a1, a3, .Lgcm_narrow_BB60_13
.Lgcm_narrow_BB60_12:                              # %after.1.i.i.i
	li	a3, 16
	bne	a1, a3, .Lgcm_narrow_BB60_17
.Lgcm_narrow_BB60_13:                              # %join.3.i.i
	seqz	a3, a2
	ld	a7, 80(sp)
	addi	a0, a0, 8
	slli	a3, a3, 12
	add	a3, a3, a2
	slli	a2, a1, 1
	addi	a2, a2, 56
	sd	a0, 8(sp)
	sd	a2, 16(sp)
	addi	a0, sp, 8
	mv	a2, s3
	mv	a4, s2
	mv	a5, s5
	mv	a6, s4
	call	gcm_narrow.gcm_siv.course.open_in
	beqz	a0, .Lgcm_narrow_BB60_16
# %bb.14:                               # %"gcm_c::siv::fotsgure_gcm_siv_open.exit.i"
	li	s1, 0
	j	.Lgcm_narrow_BB60_10
.Lgcm_narrow_BB60_15:
	li	s1, 2
	j	.Lgcm_narrow_BB60_10
.Lgcm_narrow_BB60_16:
	li	s1, 6
	bnez	s4, .Lgcm_narrow_BB60_18
	j	.Lgcm_narrow_BB60_10
.Lgcm_narrow_BB60_17:
	li	s1, 2
	beqz	s4, .Lgcm_narrow_BB60_10
.Lgcm_narrow_BB60_18:                              # %loop.5.preheader.i.i
	addi	s0, s4, -1
	beqz	s0, .Lgcm_narrow_BB60_20
# %bb.19:                               # %join.8.preheader.i.i
	mv	a0, s5
	li	a1, 0
	mv	a2, s0
	la	t1, memset
	jalr	t1
.Lgcm_narrow_BB60_20:                              # %after.4.i.i
	add	s0, s0, s5
	sb	zero, 0(s0)
	j	.Lgcm_narrow_BB60_10
.Lgcm_narrow_func_end60:
	.size	gcm_narrow.fotsgure_gcm_siv_open_to, .Lgcm_narrow_func_end60-gcm_narrow.fotsgure_gcm_siv_open_to
                                        # -- End function
	.section	.text.gcm_narrow.fotsgure_gcm_siv_seal,"ax",@progbits
	export_gcm_narrow	fotsgure_gcm_siv_seal
	.p2align	1
	.type	gcm_narrow.fotsgure_gcm_siv_seal,@function
gcm_narrow.fotsgure_gcm_siv_seal:                  # @gcm_narrow.fotsgure_gcm_siv_seal
# %bb.0:                                # %start
	addi	sp, sp, -48
	sd	ra, 40(sp)                      # 8-byte Folded Spill
	sd	s0, 32(sp)                      # 8-byte Folded Spill
	mv	a7, a5
	mv	a5, a3
	mv	a3, a2
	li	s0, 1
	slli	s0, s0, 36
	li	a2, 5
	bltu	s0, a5, .Lgcm_narrow_BB61_5
# %bb.1:                                # %start
	bltu	s0, a7, .Lgcm_narrow_BB61_5
# %bb.2:                                # %after.1.i.i
	ld	a2, 0(a0)
	li	s0, 32
	beq	a2, s0, .Lgcm_narrow_BB61_4
# %bb.3:                                # %after.1.i.i
	li	s0, 16
	bne	a2, s0, .Lgcm_narrow_BB61_6
.Lgcm_narrow_BB61_4:                               # %join.3.i
	seqz	s0, a3
	slli	t0, s0, 12
	add	t0, t0, a3
	seqz	a3, a4
	addi	a0, a0, 8
	slli	a3, a3, 12
	add	t1, a4, a3
	slli	a3, a2, 1
	addi	a3, a3, 56
	sd	a0, 0(sp)
	sd	a3, 8(sp)
	addi	a0, sp, 16
	mv	a3, a1
	mv	a1, sp
	mv	a4, t0
	mv	s0, a6
	mv	a6, t1
	call	gcm_narrow.gcm_siv.course.seal_in
	addi	a1, sp, 16
	li	a2, 16
	mv	a0, s0
	la	t1, memcpy
	jalr	t1
	li	a2, 0
.Lgcm_narrow_BB61_5:                               # %"gcm_c::siv::fotsgure_gcm_siv_seal.exit"
	mv	a0, a2
	ld	ra, 40(sp)                      # 8-byte Folded Reload
	ld	s0, 32(sp)                      # 8-byte Folded Reload
	addi	sp, sp, 48
	li	a1, 0
	li	a2, 0
	li	a3, 0
	li	a4, 0
	li	a5, 0
	li	a6, 0
	li	a7, 0
	li	t0, 0
	li	t1, 0
	li	t2, 0
	li	t3, 0
	li	t4, 0
	li	t5, 0
	li	t6, 0
	ret
.Lgcm_narrow_BB61_6:
	li	a0, 2
	ld	ra, 40(sp)                      # 8-byte Folded Reload
	ld	s0, 32(sp)                      # 8-byte Folded Reload
	addi	sp, sp, 48
	li	a1, 0
	li	a2, 0
	li	a3, 0
	li	a4, 0
	li	a5, 0
	li	a6, 0
	li	a7, 0
	li	t0, 0
	li	t1, 0
	li	t2, 0
	li	t3, 0
	li	t4, 0
	li	t5, 0
	li	t6, 0
	ret
.Lgcm_narrow_func_end61:
	.size	gcm_narrow.fotsgure_gcm_siv_seal, .Lgcm_narrow_func_end61-gcm_narrow.fotsgure_gcm_siv_seal
                                        # -- End function
	.section	.text.gcm_narrow.fotsgure_gcm_siv_seal_to,"ax",@progbits
	export_gcm_narrow	fotsgure_gcm_siv_seal_to
	.p2align	1
	.type	gcm_narrow.fotsgure_gcm_siv_seal_to,@function
gcm_narrow.fotsgure_gcm_siv_seal_to:               # @gcm_narrow.fotsgure_gcm_siv_seal_to
# %bb.0:                                # %start
	addi	sp, sp, -96
	sd	ra, 88(sp)                      # 8-byte Folded Spill
	sd	s0, 80(sp)                      # 8-byte Folded Spill
	sd	s1, 72(sp)                      # 8-byte Folded Spill
	sd	s2, 64(sp)                      # 8-byte Folded Spill
	sd	s3, 56(sp)                      # 8-byte Folded Spill
	sd	s4, 48(sp)                      # 8-byte Folded Spill
	sd	s5, 40(sp)                      # 8-byte Folded Spill
	bne	a5, a7, .Lgcm_narrow_BB62_9
# %bb.1:                                # %join.3.i
	li	s0, 1
	slli	s0, s0, 36
	li	s1, 5
	bltu	s0, a3, .Lgcm_narrow_BB62_14
# %bb.2:                                # %join.3.i
	bltu	s0, a5, .Lgcm_narrow_BB62_14
# %bb.3:                                # %after.1.i.i
	ld	s1, 0(a0)
	li	s0, 32
	beq	s1, s0, .Lgcm_narrow_BB62_5
# %bb.4:                                # %after.1.i.i
	li	s0, 16
	bne	s1, s0, .Lgcm_narrow_BB62_13
.Lgcm_narrow_BB62_5:                               # %join.6.i
	seqz	s0, a4
	seqz	s1, a6
	slli	a7, s0, 12
	slli	s5, s1, 12
	add	s1, a4, a7
	add	s5, s5, a6
	mv	s4, a1
	mv	s2, a3
	sub	s0, s5, s1
	bgeu	s0, a5, .Lgcm_narrow_BB62_10
# %bb.6:                                # %join.7.i.i.i.i.i.i.i.preheader
	mv	s3, a5
	add	a5, a5, a7
	add	a4, a4, a5
	mv	a1, s5
.Lgcm_narrow_BB62_7:                               # %join.7.i.i.i.i.i.i.i
                                        # =>This Inner Loop Header: Depth=1
	lbu	a3, 0(s1)
	addi	s1, s1, 1
	sb	a3, 0(a1)
	addi	a1, a1, 1
	bne	s1, a4, .Lgcm_narrow_BB62_7
# %bb.8:                                # %after.1.i.i.i
	ld	a3, 0(a0)
	li	a1, 32
	bne	a3, a1, .Lgcm_narrow_BB62_11
	j	.Lgcm_narrow_BB62_12
.Lgcm_narrow_BB62_9:
	li	s1, 10
	j	.Lgcm_narrow_BB62_14
.Lgcm_narrow_BB62_10:                              # %apart.2.i.i.i.i.i.i.i
	mv	s0, a0
	mv	a0, s5
	mv	a1, s1
	mv	s3, a5
	mv	s1, a2
	mv	a2, a5
	la	t1, memmove
	jalr	t1
	mv	a0, s0
	mv	a2, s1
	ld	a3, 0(s0)
	li	a1, 32
	beq	a3, a1, .Lgcm_narrow_BB62_12
.Lgcm_narrow_BB62_11:                              # %after.1.i.i.i
	li	a1, 16
	bne	a3, a1, .Lgcm_narrow_BB62_13
.Lgcm_narrow_BB62_12:                              # %join.3.i.i
	seqz	a1, a2
	ld	s1, 96(sp)
	addi	a0, a0, 8
	slli	a1, a1, 12
	add	a4, a2, a1
	slli	a1, a3, 1
	addi	a1, a1, 56
	sd	a0, 8(sp)
	sd	a1, 16(sp)
	addi	a0, sp, 24
	addi	a1, sp, 8
	mv	a2, a3
	mv	a3, s4
	mv	a5, s2
	mv	a6, s5
	mv	a7, s3
	call	gcm_narrow.gcm_siv.course.seal_in
	addi	a1, sp, 24
	li	a2, 16
	mv	a0, s1
	la	t1, memcpy
	jalr	t1
	li	s1, 0
	j	.Lgcm_narrow_BB62_14
.Lgcm_narrow_BB62_13:
	li	s1, 2
.Lgcm_narrow_BB62_14:                              # %"gcm_c::siv_to::fotsgure_gcm_siv_seal_to.exit"
	mv	a0, s1
	ld	ra, 88(sp)                      # 8-byte Folded Reload
	ld	s0, 80(sp)                      # 8-byte Folded Reload
	ld	s1, 72(sp)                      # 8-byte Folded Reload
	ld	s2, 64(sp)                      # 8-byte Folded Reload
	ld	s3, 56(sp)                      # 8-byte Folded Reload
	ld	s4, 48(sp)                      # 8-byte Folded Reload
	ld	s5, 40(sp)                      # 8-byte Folded Reload
	addi	sp, sp, 96
	li	a1, 0
	li	a2, 0
	li	a3, 0
	li	a4, 0
	li	a5, 0
	li	a6, 0
	li	a7, 0
	li	t0, 0
	li	t1, 0
	li	t2, 0
	li	t3, 0
	li	t4, 0
	li	t5, 0
	li	t6, 0
	ret
.Lgcm_narrow_func_end62:
	.size	gcm_narrow.fotsgure_gcm_siv_seal_to, .Lgcm_narrow_func_end62-gcm_narrow.fotsgure_gcm_siv_seal_to
                                        # -- End function
	.section	.text.gcm_narrow.fotsgure_gcm_additional,"ax",@progbits
	export_gcm_narrow	fotsgure_gcm_additional
	.p2align	1
	.type	gcm_narrow.fotsgure_gcm_additional,@function
gcm_narrow.fotsgure_gcm_additional:                # @gcm_narrow.fotsgure_gcm_additional
# %bb.0:                                # %start
	addi	sp, sp, -48
	sd	ra, 40(sp)                      # 8-byte Folded Spill
	sd	s0, 32(sp)                      # 8-byte Folded Spill
	sd	s1, 24(sp)                      # 8-byte Folded Spill
	mv	a4, a0
	ld	a5, 0(a0)
	li	s0, 32
	li	a0, 2
	bltu	s0, a5, .Lgcm_narrow_BB63_5
# %bb.1:                                # %start
	lui	s0, 65793
	slli	s0, s0, 4
	srl	s0, s0, a5
	andi	s0, s0, 1
	beqz	s0, .Lgcm_narrow_BB63_5
# %bb.2:                                # %join.3.i
	addi	a0, a4, 8
	slli	a5, a5, 1
	addi	a4, a4, 968
	ld	s0, 24(a1)
	addi	a5, a5, 56
	li	a6, 1
	sd	a0, 0(sp)
	sd	a5, 8(sp)
	sd	a4, 16(sp)
	bne	s0, a6, .Lgcm_narrow_BB63_6
# %bb.3:                                # %join.3.i.i
	ld	a5, 0(a1)
	add	a0, a3, a5
	sltu	a4, a0, a3
	neg	a4, a4
	or	a0, a0, a4
	srli	a0, a0, 61
	beqz	a0, .Lgcm_narrow_BB63_7
# %bb.4:
	li	a0, 5
.Lgcm_narrow_BB63_5:                               # %"gcm_c::pieces::fotsgure_gcm_additional.exit"
	ld	ra, 40(sp)                      # 8-byte Folded Reload
	ld	s0, 32(sp)                      # 8-byte Folded Reload
	ld	s1, 24(sp)                      # 8-byte Folded Reload
	addi	sp, sp, 48
	li	a1, 0
	li	a2, 0
	li	a3, 0
	li	a4, 0
	li	a5, 0
	li	a6, 0
	li	a7, 0
	li	t0, 0
	li	t1, 0
	li	t2, 0
	li	t3, 0
	li	t4, 0
	li	t5, 0
	li	t6, 0
	ret
.Lgcm_narrow_BB63_6:
	li	a0, 8
	ld	ra, 40(sp)                      # 8-byte Folded Reload
	ld	s0, 32(sp)                      # 8-byte Folded Reload
	ld	s1, 24(sp)                      # 8-byte Folded Reload
	addi	sp, sp, 48
	li	a1, 0
	li	a2, 0
	li	a3, 0
	li	a4, 0
	li	a5, 0
	li	a6, 0
	li	a7, 0
	li	t0, 0
	li	t1, 0
	li	t2, 0
	li	t3, 0
	li	t4, 0
	li	t5, 0
	li	t6, 0
	ret
.Lgcm_narrow_BB63_7:                               # %arm.4.i
	seqz	a4, a2
	addi	a0, sp, 16
	andi	a5, a5, 15
	addi	a6, a1, 48
	slli	a4, a4, 12
	add	a4, a4, a2
	addi	a2, a1, 64
	mv	s1, a1
	mv	a1, a6
	mv	s0, a3
	mv	a3, a5
	mv	a5, s0
	call	gcm_narrow.gcm.hash_room.hash_piece
	call	gcm_narrow.aes_cipher.zeroize.stack.wipe_stack.512
	li	a0, 0
	ld	a1, 0(s1)
	add	a1, a1, s0
	sd	a1, 0(s1)
	ld	ra, 40(sp)                      # 8-byte Folded Reload
	ld	s0, 32(sp)                      # 8-byte Folded Reload
	ld	s1, 24(sp)                      # 8-byte Folded Reload
	addi	sp, sp, 48
	li	a1, 0
	li	a2, 0
	li	a3, 0
	li	a4, 0
	li	a5, 0
	li	a6, 0
	li	a7, 0
	li	t0, 0
	li	t1, 0
	li	t2, 0
	li	t3, 0
	li	t4, 0
	li	t5, 0
	li	t6, 0
	ret
.Lgcm_narrow_func_end63:
	.size	gcm_narrow.fotsgure_gcm_additional, .Lgcm_narrow_func_end63-gcm_narrow.fotsgure_gcm_additional
                                        # -- End function
	.section	.text.gcm_narrow.fotsgure_gcm_decrypt,"ax",@progbits
	export_gcm_narrow	fotsgure_gcm_decrypt
	.p2align	1
	.type	gcm_narrow.fotsgure_gcm_decrypt,@function
gcm_narrow.fotsgure_gcm_decrypt:                   # @gcm_narrow.fotsgure_gcm_decrypt
# %bb.0:                                # %start
	addi	sp, sp, -48
	sd	ra, 40(sp)                      # 8-byte Folded Spill
	sd	s0, 32(sp)                      # 8-byte Folded Spill
	sd	s1, 24(sp)                      # 8-byte Folded Spill
	mv	a4, a0
	ld	a5, 0(a0)
	li	s0, 32
	li	a0, 2
	bltu	s0, a5, .Lgcm_narrow_BB64_7
# %bb.1:                                # %start
	lui	s0, 65793
	slli	s0, s0, 4
	srl	s0, s0, a5
	andi	s0, s0, 1
	beqz	s0, .Lgcm_narrow_BB64_7
# %bb.2:                                # %join.3.i
	addi	a0, a4, 8
	slli	a5, a5, 1
	addi	a4, a4, 968
	ld	s0, 24(a1)
	addi	a5, a5, 56
	li	a6, 4
	sd	a0, 0(sp)
	sd	a5, 8(sp)
	sd	a4, 16(sp)
	bne	s0, a6, .Lgcm_narrow_BB64_8
# %bb.3:                                # %join.3.i.i
	ld	a6, 16(a1)
	ld	a4, 8(a1)
	li	a5, 1
	slli	a7, a5, 36
	add	a0, a3, a6
	sltu	s0, a0, a3
	neg	a5, s0
	addi	s0, a7, -32
	or	a5, a5, a0
	bltu	a4, s0, .Lgcm_narrow_BB64_5
# %bb.4:                                # %join.3.i.i
	mv	a4, s0
.Lgcm_narrow_BB64_5:                               # %join.3.i.i
	bgeu	a4, a5, .Lgcm_narrow_BB64_9
# %bb.6:
	li	a0, 5
.Lgcm_narrow_BB64_7:                               # %"gcm_c::pieces::decrypting::fotsgure_gcm_decrypt.exit"
	ld	ra, 40(sp)                      # 8-byte Folded Reload
	ld	s0, 32(sp)                      # 8-byte Folded Reload
	ld	s1, 24(sp)                      # 8-byte Folded Reload
	addi	sp, sp, 48
	li	a1, 0
	li	a2, 0
	li	a3, 0
	li	a4, 0
	li	a5, 0
	li	a6, 0
	li	a7, 0
	li	t0, 0
	li	t1, 0
	li	t2, 0
	li	t3, 0
	li	t4, 0
	li	t5, 0
	li	t6, 0
	ret
.Lgcm_narrow_BB64_8:
	li	a0, 8
	ld	ra, 40(sp)                      # 8-byte Folded Reload
	ld	s0, 32(sp)                      # 8-byte Folded Reload
	ld	s1, 24(sp)                      # 8-byte Folded Reload
	addi	sp, sp, 48
	li	a1, 0
	li	a2, 0
	li	a3, 0
	li	a4, 0
	li	a5, 0
	li	a6, 0
	li	a7, 0
	li	t0, 0
	li	t1, 0
	li	t2, 0
	li	t3, 0
	li	t4, 0
	li	t5, 0
	li	t6, 0
	ret
.Lgcm_narrow_BB64_9:                               # %arm.4.i
	seqz	a0, a2
	slli	a0, a0, 12
	add	a4, a2, a0
	addi	a5, a1, 32
	addi	a2, a6, 16
	mv	a0, sp
	mv	s1, a1
	mv	a1, a5
	mv	s0, a3
	mv	a3, a4
	mv	a4, s0
	call	gcm_narrow.gcm.gctr.add_gctr
	ld	a0, 16(s1)
	add	a0, a0, s0
	sd	a0, 16(s1)
	call	gcm_narrow.aes_cipher.zeroize.stack.wipe_stack.1536
	li	a0, 0
	ld	ra, 40(sp)                      # 8-byte Folded Reload
	ld	s0, 32(sp)                      # 8-byte Folded Reload
	ld	s1, 24(sp)                      # 8-byte Folded Reload
	addi	sp, sp, 48
	li	a1, 0
	li	a2, 0
	li	a3, 0
	li	a4, 0
	li	a5, 0
	li	a6, 0
	li	a7, 0
	li	t0, 0
	li	t1, 0
	li	t2, 0
	li	t3, 0
	li	t4, 0
	li	t5, 0
	li	t6, 0
	ret
.Lgcm_narrow_func_end64:
	.size	gcm_narrow.fotsgure_gcm_decrypt, .Lgcm_narrow_func_end64-gcm_narrow.fotsgure_gcm_decrypt
                                        # -- End function
	.section	.text.gcm_narrow.fotsgure_gcm_decrypt_unverified,"ax",@progbits
	export_gcm_narrow	fotsgure_gcm_decrypt_unverified
	.p2align	1
	.type	gcm_narrow.fotsgure_gcm_decrypt_unverified,@function
gcm_narrow.fotsgure_gcm_decrypt_unverified:        # @gcm_narrow.fotsgure_gcm_decrypt_unverified
# %bb.0:                                # %start
	addi	sp, sp, -64
	sd	ra, 56(sp)                      # 8-byte Folded Spill
	sd	s0, 48(sp)                      # 8-byte Folded Spill
	sd	s1, 40(sp)                      # 8-byte Folded Spill
	sd	s2, 32(sp)                      # 8-byte Folded Spill
	sd	s3, 24(sp)                      # 8-byte Folded Spill
	mv	s0, a3
	mv	s2, a2
	mv	s1, a1
	mv	a1, a0
	ld	a2, 0(a0)
	li	a3, 32
	li	a0, 2
	bltu	a3, a2, .Lgcm_narrow_BB65_7
# %bb.1:                                # %start
	lui	a3, 65793
	slli	a3, a3, 4
	srl	a3, a3, a2
	andi	a3, a3, 1
	beqz	a3, .Lgcm_narrow_BB65_7
# %bb.2:                                # %join.3.i
	addi	a0, a1, 8
	slli	a2, a2, 1
	addi	a1, a1, 968
	addi	a2, a2, 56
	sd	a0, 0(sp)
	sd	a2, 8(sp)
	sd	a1, 16(sp)
	mv	a0, sp
	li	a2, 3
	mv	a1, s1
	mv	a3, s0
	call	gcm_narrow.gcm.mode.BorrowedGcm.enter_phase
	zext.b	a0, a0
	beqz	a0, .Lgcm_narrow_BB65_5
# %bb.3:                                # %arm.2.i.i
	andi	a1, a1, 1
	bnez	a1, .Lgcm_narrow_BB65_6
# %bb.4:                                # %arm.2.i.i
	li	a0, 8
	j	.Lgcm_narrow_BB65_7
.Lgcm_narrow_BB65_5:                               # %arm.1.i.i
	seqz	a2, s2
	addi	a0, sp, 16
	ld	a3, 8(s1)
	addi	a1, s1, 48
	slli	a2, a2, 12
	add	s2, s2, a2
	addi	s3, a3, 16
	andi	a3, a3, 15
	addi	a2, s1, 64
	mv	a4, s2
	mv	a5, s0
	call	gcm_narrow.gcm.hash_room.hash_piece
	ld	a0, 8(s1)
	add	a0, a0, s0
	sd	a0, 8(s1)
	addi	a1, s1, 32
	mv	a0, sp
	mv	a2, s3
	mv	a3, s2
	mv	a4, s0
	call	gcm_narrow.gcm.gctr.add_gctr
	call	gcm_narrow.aes_cipher.zeroize.stack.wipe_stack.1536
	li	a0, 0
	j	.Lgcm_narrow_BB65_7
.Lgcm_narrow_BB65_6:
	li	a0, 5
.Lgcm_narrow_BB65_7:                               # %"gcm_c::pieces::decrypting::fotsgure_gcm_decrypt_unverified.exit"
	ld	ra, 56(sp)                      # 8-byte Folded Reload
	ld	s0, 48(sp)                      # 8-byte Folded Reload
	ld	s1, 40(sp)                      # 8-byte Folded Reload
	ld	s2, 32(sp)                      # 8-byte Folded Reload
	ld	s3, 24(sp)                      # 8-byte Folded Reload
	addi	sp, sp, 64
	li	a1, 0
	li	a2, 0
	li	a3, 0
	li	a4, 0
	li	a5, 0
	li	a6, 0
	li	a7, 0
	li	t0, 0
	li	t1, 0
	li	t2, 0
	li	t3, 0
	li	t4, 0
	li	t5, 0
	li	t6, 0
	ret
.Lgcm_narrow_func_end65:
	.size	gcm_narrow.fotsgure_gcm_decrypt_unverified, .Lgcm_narrow_func_end65-gcm_narrow.fotsgure_gcm_decrypt_unverified
                                        # -- End function
	.section	.text.gcm_narrow.fotsgure_gcm_encrypt,"ax",@progbits
	export_gcm_narrow	fotsgure_gcm_encrypt
	.p2align	1
	.type	gcm_narrow.fotsgure_gcm_encrypt,@function
gcm_narrow.fotsgure_gcm_encrypt:                   # @gcm_narrow.fotsgure_gcm_encrypt
# %bb.0:                                # %start
	addi	sp, sp, -64
	sd	ra, 56(sp)                      # 8-byte Folded Spill
	sd	s0, 48(sp)                      # 8-byte Folded Spill
	sd	s1, 40(sp)                      # 8-byte Folded Spill
	sd	s2, 32(sp)                      # 8-byte Folded Spill
	sd	s3, 24(sp)                      # 8-byte Folded Spill
	mv	s0, a3
	mv	s2, a2
	mv	s1, a1
	mv	a1, a0
	ld	a2, 0(a0)
	li	a3, 32
	li	a0, 2
	bltu	a3, a2, .Lgcm_narrow_BB66_7
# %bb.1:                                # %start
	lui	a3, 65793
	slli	a3, a3, 4
	srl	a3, a3, a2
	andi	a3, a3, 1
	beqz	a3, .Lgcm_narrow_BB66_7
# %bb.2:                                # %join.3.i
	addi	a0, a1, 8
	slli	a2, a2, 1
	addi	a1, a1, 968
	addi	a2, a2, 56
	sd	a0, 0(sp)
	sd	a2, 8(sp)
	sd	a1, 16(sp)
	mv	a0, sp
	li	a2, 2
	mv	a1, s1
	mv	a3, s0
	call	gcm_narrow.gcm.mode.BorrowedGcm.enter_phase
	zext.b	a0, a0
	beqz	a0, .Lgcm_narrow_BB66_5
# %bb.3:                                # %arm.2.i.i
	andi	a1, a1, 1
	bnez	a1, .Lgcm_narrow_BB66_6
# %bb.4:                                # %arm.2.i.i
	li	a0, 8
	j	.Lgcm_narrow_BB66_7
.Lgcm_narrow_BB66_5:                               # %arm.1.i.i
	seqz	a0, s2
	ld	a2, 8(s1)
	slli	a0, a0, 12
	add	s2, s2, a0
	addi	s3, sp, 16
	addi	a1, s1, 32
	addi	a2, a2, 16
	mv	a0, sp
	mv	a3, s2
	mv	a4, s0
	call	gcm_narrow.gcm.gctr.add_gctr
	ld	a3, 8(s1)
	addi	a1, s1, 48
	andi	a3, a3, 15
	addi	a2, s1, 64
	mv	a0, s3
	mv	a4, s2
	mv	a5, s0
	call	gcm_narrow.gcm.hash_room.hash_piece
	ld	a0, 8(s1)
	add	a0, a0, s0
	sd	a0, 8(s1)
	call	gcm_narrow.aes_cipher.zeroize.stack.wipe_stack.1536
	li	a0, 0
	j	.Lgcm_narrow_BB66_7
.Lgcm_narrow_BB66_6:
	li	a0, 5
.Lgcm_narrow_BB66_7:                               # %"gcm_c::pieces::encrypting::fotsgure_gcm_encrypt.exit"
	ld	ra, 56(sp)                      # 8-byte Folded Reload
	ld	s0, 48(sp)                      # 8-byte Folded Reload
	ld	s1, 40(sp)                      # 8-byte Folded Reload
	ld	s2, 32(sp)                      # 8-byte Folded Reload
	ld	s3, 24(sp)                      # 8-byte Folded Reload
	addi	sp, sp, 64
	li	a1, 0
	li	a2, 0
	li	a3, 0
	li	a4, 0
	li	a5, 0
	li	a6, 0
	li	a7, 0
	li	t0, 0
	li	t1, 0
	li	t2, 0
	li	t3, 0
	li	t4, 0
	li	t5, 0
	li	t6, 0
	ret
.Lgcm_narrow_func_end66:
	.size	gcm_narrow.fotsgure_gcm_encrypt, .Lgcm_narrow_func_end66-gcm_narrow.fotsgure_gcm_encrypt
                                        # -- End function
	.section	.text.gcm_narrow.fotsgure_gcm_verify,"ax",@progbits
	export_gcm_narrow	fotsgure_gcm_verify
	.p2align	1
	.type	gcm_narrow.fotsgure_gcm_verify,@function
gcm_narrow.fotsgure_gcm_verify:                    # @gcm_narrow.fotsgure_gcm_verify
# %bb.0:                                # %start
	addi	sp, sp, -64
	sd	ra, 56(sp)                      # 8-byte Folded Spill
	sd	s0, 48(sp)                      # 8-byte Folded Spill
	sd	s1, 40(sp)                      # 8-byte Folded Spill
	sd	s2, 32(sp)                      # 8-byte Folded Spill
	mv	s0, a3
	mv	s2, a2
	mv	s1, a1
	mv	a1, a0
	ld	a2, 0(a0)
	li	a3, 32
	li	a0, 2
	bltu	a3, a2, .Lgcm_narrow_BB67_5
# %bb.1:                                # %start
	lui	a3, 65793
	slli	a3, a3, 4
	srl	a3, a3, a2
	andi	a3, a3, 1
	beqz	a3, .Lgcm_narrow_BB67_5
# %bb.2:                                # %join.3.i
	addi	a0, a1, 8
	slli	a2, a2, 1
	addi	a1, a1, 968
	addi	a2, a2, 56
	sd	a0, 8(sp)
	sd	a2, 16(sp)
	sd	a1, 24(sp)
	addi	a0, sp, 8
	li	a2, 3
	mv	a1, s1
	mv	a3, s0
	call	gcm_narrow.gcm.mode.BorrowedGcm.enter_phase
	zext.b	a0, a0
	beqz	a0, .Lgcm_narrow_BB67_6
# %bb.3:                                # %arm.2.i.i
	andi	a1, a1, 1
	bnez	a1, .Lgcm_narrow_BB67_7
# %bb.4:                                # %arm.2.i.i
	li	a0, 8
.Lgcm_narrow_BB67_5:                               # %"gcm_c::pieces::decrypting::fotsgure_gcm_verify.exit"
	ld	ra, 56(sp)                      # 8-byte Folded Reload
	ld	s0, 48(sp)                      # 8-byte Folded Reload
	ld	s1, 40(sp)                      # 8-byte Folded Reload
	ld	s2, 32(sp)                      # 8-byte Folded Reload
	addi	sp, sp, 64
	li	a1, 0
	li	a2, 0
	li	a3, 0
	li	a4, 0
	li	a5, 0
	li	a6, 0
	li	a7, 0
	li	t0, 0
	li	t1, 0
	li	t2, 0
	li	t3, 0
	li	t4, 0
	li	t5, 0
	li	t6, 0
	ret
.Lgcm_narrow_BB67_6:                               # %arm.1.i.i
	seqz	a2, s2
	addi	a0, sp, 24
	ld	a3, 8(s1)
	addi	a1, s1, 48
	slli	a2, a2, 12
	add	a4, s2, a2
	andi	a3, a3, 15
	addi	a2, s1, 64
	mv	a5, s0
	call	gcm_narrow.gcm.hash_room.hash_piece
	ld	a0, 8(s1)
	add	a0, a0, s0
	sd	a0, 8(s1)
	call	gcm_narrow.aes_cipher.zeroize.stack.wipe_stack.512
	li	a0, 0
	ld	ra, 56(sp)                      # 8-byte Folded Reload
	ld	s0, 48(sp)                      # 8-byte Folded Reload
	ld	s1, 40(sp)                      # 8-byte Folded Reload
	ld	s2, 32(sp)                      # 8-byte Folded Reload
	addi	sp, sp, 64
	li	a1, 0
	li	a2, 0
	li	a3, 0
	li	a4, 0
	li	a5, 0
	li	a6, 0
	li	a7, 0
	li	t0, 0
	li	t1, 0
	li	t2, 0
	li	t3, 0
	li	t4, 0
	li	t5, 0
	li	t6, 0
	ret
.Lgcm_narrow_BB67_7:
	li	a0, 5
	ld	ra, 56(sp)                      # 8-byte Folded Reload
	ld	s0, 48(sp)                      # 8-byte Folded Reload
	ld	s1, 40(sp)                      # 8-byte Folded Reload
	ld	s2, 32(sp)                      # 8-byte Folded Reload
	addi	sp, sp, 64
	li	a1, 0
	li	a2, 0
	li	a3, 0
	li	a4, 0
	li	a5, 0
	li	a6, 0
	li	a7, 0
	li	t0, 0
	li	t1, 0
	li	t2, 0
	li	t3, 0
	li	t4, 0
	li	t5, 0
	li	t6, 0
	ret
.Lgcm_narrow_func_end67:
	.size	gcm_narrow.fotsgure_gcm_verify, .Lgcm_narrow_func_end67-gcm_narrow.fotsgure_gcm_verify
                                        # -- End function
	.section	.text.gcm_narrow.fotsgure_gcm_accept,"ax",@progbits
	export_gcm_narrow	fotsgure_gcm_accept
	.p2align	1
	.type	gcm_narrow.fotsgure_gcm_accept,@function
gcm_narrow.fotsgure_gcm_accept:                    # @gcm_narrow.fotsgure_gcm_accept
# %bb.0:                                # %start
	li	a5, 16
	bne	a3, a5, .Lgcm_narrow_BB68_6
# %bb.1:                                # %join.3.i
	mv	a4, a0
	ld	a5, 0(a0)
	li	a3, 32
	li	a0, 2
	bltu	a3, a5, .Lgcm_narrow_BB68_7
# %bb.2:                                # %join.3.i
	lui	a3, 65793
	slli	a3, a3, 4
	srl	a3, a3, a5
	andi	a3, a3, 1
	beqz	a3, .Lgcm_narrow_BB68_7
# %bb.3:                                # %join.6.i
	addi	sp, sp, -64
	sd	ra, 56(sp)                      # 8-byte Folded Spill
	sd	s0, 48(sp)                      # 8-byte Folded Spill
	sd	s1, 40(sp)                      # 8-byte Folded Spill
	seqz	a0, a2
	addi	a3, a4, 8
	slli	a5, a5, 1
	addi	a4, a4, 968
	ld	s1, 24(a1)
	slli	a0, a0, 12
	addi	a5, a5, 56
	add	a0, a0, a2
	sd	a3, 16(sp)
	sd	a5, 24(sp)
	sd	a4, 32(sp)
	lbu	a6, 0(a0)
	lbu	a3, 1(a0)
	lbu	a4, 2(a0)
	lbu	a5, 3(a0)
	lbu	t1, 4(a0)
	lbu	a2, 5(a0)
	lbu	a7, 6(a0)
	lbu	t0, 7(a0)
	sltiu	s0, s1, 5
	neg	s0, s0
	and	t2, s0, s1
	slli	a3, a3, 8
	slli	a4, a4, 16
	slli	a5, a5, 24
	slli	a2, a2, 8
	or	a6, a3, a6
	or	t3, a5, a4
	or	t1, a2, t1
	lbu	a5, 8(a0)
	lbu	s1, 9(a0)
	lbu	s0, 10(a0)
	lbu	a3, 11(a0)
	slli	a7, a7, 16
	slli	t0, t0, 24
	slli	s1, s1, 8
	slli	s0, s0, 16
	slli	a3, a3, 24
	or	a2, t0, a7
	or	a5, a5, s1
	or	a3, a3, s0
	lbu	s1, 13(a0)
	lbu	s0, 12(a0)
	lbu	a4, 14(a0)
	lbu	a0, 15(a0)
	slli	s1, s1, 8
	or	s0, s0, s1
	slli	a4, a4, 16
	slli	a0, a0, 24
	or	a0, a0, a4
	or	a4, t3, a6
	or	a2, a2, t1
	or	a3, a3, a5
	or	a0, a0, s0
	slli	a2, a2, 32
	or	a2, a2, a4
	li	a4, 3
	ori	a5, t2, 2
	zext.b	a5, a5
	slli	a0, a0, 32
	or	a0, a0, a3
	sd	a2, 0(sp)
	sd	a0, 8(sp)
	bne	a5, a4, .Lgcm_narrow_BB68_8
# %bb.4:                                # %join.3.i.i
	addi	a0, sp, 16
	mv	a2, sp
	mv	s1, a1
	call	gcm_narrow.gcm.mode.BorrowedGcm.is_tag_so_far
	mv	s0, a0
	call	gcm_narrow.aes_cipher.zeroize.stack.wipe_stack.1536
	beqz	s0, .Lgcm_narrow_BB68_9
# %bb.5:                                # %arm.7.i
	li	a0, 0
	li	a1, 4
	sd	zero, 16(s1)
	sd	a1, 24(s1)
	ld	ra, 56(sp)                      # 8-byte Folded Reload
	ld	s0, 48(sp)                      # 8-byte Folded Reload
	ld	s1, 40(sp)                      # 8-byte Folded Reload
	addi	sp, sp, 64
	li	a1, 0
	li	a2, 0
	li	a3, 0
	li	a4, 0
	li	a5, 0
	li	a6, 0
	li	a7, 0
	li	t0, 0
	li	t1, 0
	li	t2, 0
	li	t3, 0
	li	t4, 0
	li	t5, 0
	li	t6, 0
	ret
.Lgcm_narrow_BB68_6:
	li	a0, 4
.Lgcm_narrow_BB68_7:                               # %"gcm_c::pieces::decrypting::fotsgure_gcm_accept.exit"
	li	a1, 0
	li	a2, 0
	li	a3, 0
	li	a4, 0
	li	a5, 0
	li	a6, 0
	li	a7, 0
	li	t0, 0
	li	t1, 0
	li	t2, 0
	li	t3, 0
	li	t4, 0
	li	t5, 0
	li	t6, 0
	ret
.Lgcm_narrow_BB68_8:
	li	a0, 8
	ld	ra, 56(sp)                      # 8-byte Folded Reload
	ld	s0, 48(sp)                      # 8-byte Folded Reload
	ld	s1, 40(sp)                      # 8-byte Folded Reload
	addi	sp, sp, 64
	li	a1, 0
	li	a2, 0
	li	a3, 0
	li	a4, 0
	li	a5, 0
	li	a6, 0
	li	a7, 0
	li	t0, 0
	li	t1, 0
	li	t2, 0
	li	t3, 0
	li	t4, 0
	li	t5, 0
	li	t6, 0
	ret
.Lgcm_narrow_BB68_9:
	li	a0, 6
	ld	ra, 56(sp)                      # 8-byte Folded Reload
	ld	s0, 48(sp)                      # 8-byte Folded Reload
	ld	s1, 40(sp)                      # 8-byte Folded Reload
	addi	sp, sp, 64
	li	a1, 0
	li	a2, 0
	li	a3, 0
	li	a4, 0
	li	a5, 0
	li	a6, 0
	li	a7, 0
	li	t0, 0
	li	t1, 0
	li	t2, 0
	li	t3, 0
	li	t4, 0
	li	t5, 0
	li	t6, 0
	ret
.Lgcm_narrow_func_end68:
	.size	gcm_narrow.fotsgure_gcm_accept, .Lgcm_narrow_func_end68-gcm_narrow.fotsgure_gcm_accept
                                        # -- End function
	.section	.text.gcm_narrow.fotsgure_gcm_accept_short,"ax",@progbits
	export_gcm_narrow	fotsgure_gcm_accept_short
	.p2align	1
	.type	gcm_narrow.fotsgure_gcm_accept_short,@function
gcm_narrow.fotsgure_gcm_accept_short:              # @gcm_narrow.fotsgure_gcm_accept_short
# %bb.0:                                # %start
	mv	a5, a0
	li	a0, 4
	bne	a4, a2, .Lgcm_narrow_BB69_10
# %bb.1:                                # %start
	addi	sp, sp, -48
	sd	ra, 40(sp)                      # 8-byte Folded Spill
	sd	s0, 32(sp)                      # 8-byte Folded Spill
	sd	s1, 24(sp)                      # 8-byte Folded Spill
	addi	a4, a2, -4
	andi	s1, a2, -4
	andi	a4, a4, -5
	addi	s1, s1, -12
	seqz	a4, a4
	seqz	s1, s1
	or	a4, a4, s1
	beqz	a4, .Lgcm_narrow_BB69_9
# %bb.2:                                # %join.3.i
	ld	a4, 0(a5)
	li	s1, 32
	li	a0, 2
	bltu	s1, a4, .Lgcm_narrow_BB69_9
# %bb.3:                                # %join.3.i
	lui	s1, 65793
	slli	s1, s1, 4
	srl	s1, s1, a4
	andi	s1, s1, 1
	beqz	s1, .Lgcm_narrow_BB69_9
# %bb.4:                                # %join.6.i
	ld	a0, 24(a1)
	addi	s1, a5, 8
	slli	a4, a4, 1
	addi	a5, a5, 968
	sltiu	s0, a0, 5
	neg	s0, s0
	and	a0, a0, s0
	li	s0, 3
	addi	a4, a4, 56
	ori	a0, a0, 2
	zext.b	a0, a0
	sd	s1, 0(sp)
	sd	a4, 8(sp)
	sd	a5, 16(sp)
	bne	a0, s0, .Lgcm_narrow_BB69_7
# %bb.5:                                # %join.7.i.i
	seqz	a0, a3
	slli	a0, a0, 12
	add	a4, a3, a0
	mv	a0, sp
	mv	s1, a1
	mv	a3, a2
	mv	a2, a4
	call	gcm_narrow.gcm.mode.BorrowedGcm.is_short_tag_so_far
	mv	s0, a0
	call	gcm_narrow.aes_cipher.zeroize.stack.wipe_stack.1536
	beqz	s0, .Lgcm_narrow_BB69_8
# %bb.6:                                # %arm.7.i
	li	a0, 0
	li	a1, 4
	sd	zero, 16(s1)
	sd	a1, 24(s1)
	j	.Lgcm_narrow_BB69_9
.Lgcm_narrow_BB69_7:
	li	a0, 8
	j	.Lgcm_narrow_BB69_9
.Lgcm_narrow_BB69_8:
	li	a0, 6
.Lgcm_narrow_BB69_9:
	ld	ra, 40(sp)                      # 8-byte Folded Reload
	ld	s0, 32(sp)                      # 8-byte Folded Reload
	ld	s1, 24(sp)                      # 8-byte Folded Reload
	addi	sp, sp, 48
.Lgcm_narrow_BB69_10:                              # %"gcm_c::pieces::decrypting::fotsgure_gcm_accept_short.exit"
	li	a1, 0
	li	a2, 0
	li	a3, 0
	li	a4, 0
	li	a5, 0
	li	a6, 0
	li	a7, 0
	li	t0, 0
	li	t1, 0
	li	t2, 0
	li	t3, 0
	li	t4, 0
	li	t5, 0
	li	t6, 0
	ret
.Lgcm_narrow_func_end69:
	.size	gcm_narrow.fotsgure_gcm_accept_short, .Lgcm_narrow_func_end69-gcm_narrow.fotsgure_gcm_accept_short
                                        # -- End function
	.type	.Lgcm_narrow_static.0,@object              # @static.0
	.section	.rodata..Lgcm_narrow_static.0,"a",@progbits
.Lgcm_narrow_static.0:
	.ascii	"\001\002\004\b\020 @\200\0336"
	.size	.Lgcm_narrow_static.0, 10

	.ident	"rattle logic=dac8208d650f15bf3e2dc313a14fa4c783a3acf887bdfab66e1714b038d9e11b"
	.section	".note.GNU-stack","",@progbits

	.section	.note.fotsgure,"a",%note
	.p2align	2, 0x0
	.long	9, 123, 1
	.asciz	"Fotsgure"
	.p2align	2, 0x0
	.asciz	"fotsgure_gcm 0.4.0, riscv64/gcm_narrow.s, sources SHA-256 7839658995c36f00d13f13ab6f42fa9360d959953d441bf3a57996a9c2aa56dc"
	.p2align	2, 0x0
