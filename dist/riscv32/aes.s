# Made by tools/dist from the proved crate aes_c; BUILD says from what. Don't edit it.
/* A Rust crate defines in_rust; for x86-64, a static library of both builds defines chosen, and choose_*.c calls these names. */
	.macro	export_aes name
	.ifdef	in_rust
	.globl	aes.\name
	.hidden	aes.\name
	.else
	.globl	\name
	.set	\name, aes.\name
	.endif
	.endm
	.file	"rattle"
	.section	.text.aes.aes_narrow.word_room.expand_words,"ax",@progbits
	.p2align	1                               # -- Begin function aes_narrow::word_room::expand_words::<#6af90bfc14753d47>
	.type	aes.aes_narrow.word_room.expand_words,@function
aes.aes_narrow.word_room.expand_words: # @aes.aes_narrow.word_room.expand_words
# %bb.0:                                # %start
	addi	sp, sp, -272
	sw	ra, 268(sp)                     # 4-byte Folded Spill
	sw	s0, 264(sp)                     # 4-byte Folded Spill
	sw	s1, 260(sp)                     # 4-byte Folded Spill
	sw	s2, 256(sp)                     # 4-byte Folded Spill
	sw	s3, 252(sp)                     # 4-byte Folded Spill
	sw	s4, 248(sp)                     # 4-byte Folded Spill
	sw	s5, 244(sp)                     # 4-byte Folded Spill
	sw	s6, 240(sp)                     # 4-byte Folded Spill
	sw	s7, 236(sp)                     # 4-byte Folded Spill
	sw	s8, 232(sp)                     # 4-byte Folded Spill
	sw	s9, 228(sp)                     # 4-byte Folded Spill
	sw	s10, 224(sp)                    # 4-byte Folded Spill
	sw	s11, 220(sp)                    # 4-byte Folded Spill
	sw	a3, 16(sp)                      # 4-byte Folded Spill
	li	a3, 24
	mv	s8, a0
	sw	a0, 184(sp)                     # 4-byte Folded Spill
	sw	a2, 12(sp)                      # 4-byte Folded Spill
	beq	a2, a3, .Laes_BB0_4
# %bb.1:                                # %start
	li	a0, 16
	beq	a2, a0, .Laes_BB0_2
	j	.Laes_BB0_6
.Laes_BB0_2:                                # %then.1.i160
	lui	a0, 1036240
	lui	a2, 986895
	lui	a3, 12336
	addi	a0, a0, -772
	sw	a0, 136(sp)                     # 4-byte Folded Spill
	addi	a0, a2, 240
	sw	a0, 132(sp)                     # 4-byte Folded Spill
	addi	a0, a3, 771
	sw	a0, 128(sp)                     # 4-byte Folded Spill
	addi	a0, sp, 188
	call	aes.aes_planes.soft.word.word32.U32Word.in_every_slot
	li	a0, 0
	li	a3, 0
	lw	t0, 188(sp)
	lw	a6, 192(sp)
	lw	s2, 196(sp)
	lw	t2, 200(sp)
	lw	a2, 204(sp)
	lw	a4, 208(sp)
	lw	s5, 212(sp)
	lw	s7, 216(sp)
	sw	t0, 0(s8)
	sw	a6, 4(s8)
	sw	s2, 8(s8)
	sw	t2, 12(s8)
	sw	a2, 16(s8)
	sw	a4, 20(s8)
	sw	s5, 24(s8)
	sw	s7, 28(s8)
.Laes_BB0_3:                                # %join.5.i.i161
                                        # =>This Inner Loop Header: Depth=1
	xor	t3, s5, a4
	xor	a5, s7, a2
	xor	a7, s7, a6
	xor	s0, a2, s2
	xor	t1, s7, s2
	sltiu	a1, a0, 9
	seqz	a4, a3
	mv	s1, a0
	xor	a0, t3, t0
	sw	s0, 148(sp)                     # 4-byte Folded Spill
	xor	t5, a7, s0
	and	a1, a1, a4
	sw	a1, 180(sp)                     # 4-byte Folded Spill
	xor	s9, a0, a2
	xor	a4, t5, t2
	xor	s8, a0, s7
	xor	t6, a0, a6
	addi	a2, s1, 1
	mv	t4, s1
	sw	s1, 168(sp)                     # 4-byte Folded Spill
	sw	a2, 176(sp)                     # 4-byte Folded Spill
	and	t2, s9, t0
	xor	a1, a4, s2
	xor	s2, a4, s5
	sw	t1, 160(sp)                     # 4-byte Folded Spill
	xor	s5, t6, t1
	and	s3, t6, a0
	seqz	a4, a2
	sw	a5, 164(sp)                     # 4-byte Folded Spill
	xor	a2, s2, a5
	xor	s10, a1, t0
	and	s4, a1, t5
	xor	a6, a1, t3
	xor	s11, t2, t1
	add	a3, a3, a4
	sw	a3, 172(sp)                     # 4-byte Folded Spill
	and	ra, a2, a5
	xor	a4, a2, t3
	xor	a3, a2, a6
	sw	a3, 152(sp)                     # 4-byte Folded Spill
	and	t3, a6, t1
	xor	s11, s11, a6
	xor	s2, s2, s4
	xor	s4, s11, s4
	and	a5, s10, s5
	xor	s11, s2, a5
	and	a5, a3, s0
	xor	t3, t3, ra
	xor	ra, a5, ra
	mv	a3, a7
	and	a5, a4, a7
	xor	s0, a4, s3
	xor	s0, s0, a5
	xor	a5, a5, s7
	xor	s2, a2, t0
	and	s1, s2, s8
	xor	s1, s1, a4
	xor	a5, a5, s1
.Laes_pcrel_hi0:
	auipc	s1, %pcrel_hi(.Laes_static.0)
	addi	s1, s1, %pcrel_lo(.Laes_pcrel_hi0)
	add	s1, s1, t4
	mv	t2, t0
	lbu	t0, 0(s1)
	xor	a7, s11, ra
	xor	s0, s0, a3
	mv	s11, a3
	xor	s0, s0, ra
	xor	t4, s4, t3
	xor	a5, a5, t3
	andi	t3, t0, 64
	slli	s3, t3, 8
	slli	t3, t3, 9
	or	a3, t3, s3
	sw	a3, 156(sp)                     # 4-byte Folded Spill
	slli	s1, t0, 31
	srli	s1, s1, 25
	slli	s3, s1, 8
	slli	s1, s1, 9
	or	ra, s1, s3
	slli	s1, t0, 5
	andi	s1, s1, 64
	slli	s3, s1, 8
	slli	s1, s1, 9
	or	a3, s1, s3
	sw	a3, 140(sp)                     # 4-byte Folded Spill
	slli	s1, t0, 4
	andi	s1, s1, 64
	slli	s3, s1, 8
	slli	s1, s1, 9
	or	t1, s1, s3
	slli	s1, t0, 3
	andi	s1, s1, 64
	slli	a3, s1, 8
	slli	s1, s1, 9
	or	s3, s1, a3
	slli	a3, t0, 2
	andi	a3, a3, 64
	slli	s1, a3, 8
	slli	a3, a3, 9
	or	a3, a3, s1
	sw	a3, 144(sp)                     # 4-byte Folded Spill
	slli	a3, t0, 1
	andi	a3, a3, 64
	slli	s1, a3, 8
	slli	a3, a3, 9
	or	s6, a3, s1
	srli	s1, t0, 1
	andi	s1, s1, 64
	slli	t0, s1, 8
	slli	s1, s1, 9
	or	s4, s1, t0
	and	s1, s0, a7
	xor	t0, a5, s0
	xor	t3, s1, t4
	and	t0, t3, t0
	xor	a7, a7, t4
	xor	t3, s1, a5
	and	s7, t3, a7
	xor	t4, s7, t4
	xor	s7, t0, s1
	xor	s1, t0, a5
	and	a5, s7, a5
	xor	t0, a5, t3
	xor	a5, a5, s0
	and	s0, s1, s9
	xor	t1, s0, t1
	and	a3, t0, t4
	xor	a3, a3, a7
	and	s7, s1, t2
	and	a1, a1, a5
	and	a7, a5, t5
	xor	a5, a5, s1
	xor	s1, t4, s1
	and	t0, t4, s8
	and	t3, t4, s2
	and	s2, a5, s10
	and	t5, a5, s5
	xor	a5, a5, a3
	xor	s0, a3, t4
	and	s5, a3, a0
	and	t4, a3, t6
	xor	a3, a1, s7
	xor	s2, s2, a1
	and	a4, a4, s0
	and	s0, s0, s11
	and	t6, s1, a2
	lw	a2, 164(sp)                     # 4-byte Folded Reload
	and	a2, a2, s1
	and	s7, a5, a6
	xor	s1, s1, a5
	lw	a0, 160(sp)                     # 4-byte Folded Reload
	and	a5, a5, a0
	lw	a0, 148(sp)                     # 4-byte Folded Reload
	and	a6, s1, a0
	lw	a0, 152(sp)                     # 4-byte Folded Reload
	and	s1, s1, a0
	xor	a0, a3, t3
	xor	a1, a4, s5
	xor	a0, a0, a4
	xor	a3, s7, a3
	xor	a4, s6, a5
	xor	s1, s1, a1
	xor	t3, s2, a1
	xor	a5, ra, s0
	xor	a3, a3, s0
	xor	s0, a0, t4
	xor	t2, a0, s3
	xor	a0, a6, a2
	xor	a2, a2, a4
	xor	a4, a0, t5
	xor	a0, a0, s0
	xor	a3, a3, s1
	xor	s1, s1, t6
	xor	a5, a5, a0
	lw	a1, 140(sp)                     # 4-byte Folded Reload
	xor	t4, a0, a1
	xor	a1, a4, a7
	xor	a4, t1, a4
	xor	a7, a2, s1
	lw	a0, 156(sp)                     # 4-byte Folded Reload
	xor	a6, s1, a0
	xor	s1, s1, s4
	lw	a0, 168(sp)                     # 4-byte Folded Reload
	slli	a0, a0, 5
	lw	a2, 184(sp)                     # 4-byte Folded Reload
	add	a0, a0, a2
	xor	s0, a3, t0
	xor	a2, t3, a1
	xor	a3, t4, a3
	xor	a4, a4, s0
	xor	s0, a7, s0
	xor	a1, a1, s1
	srli	a7, a5, 14
	slli	t1, a5, 18
	xor	s1, t2, a2
	lw	a5, 144(sp)                     # 4-byte Folded Reload
	xor	t0, a2, a5
	xor	a5, a6, a2
	or	a6, t1, a7
	srli	a7, a3, 14
	slli	a3, a3, 18
	srli	t1, a4, 14
	slli	a4, a4, 18
	slli	t2, a2, 18
	srli	t3, s0, 14
	slli	s0, s0, 18
	or	a7, a3, a7
	srli	a3, a1, 14
	slli	a1, a1, 18
	or	t1, a4, t1
	srli	a4, s1, 14
	slli	s1, s1, 18
	srli	a2, t0, 14
	or	t0, s0, t3
	srli	s0, a5, 14
	slli	a5, a5, 18
	or	s3, a1, a3
	or	t4, s1, a4
	or	t3, t2, a2
	or	t2, a5, s0
	lw	a3, 0(a0)
	lw	t5, 4(a0)
	lw	s0, 8(a0)
	lw	s2, 12(a0)
	not	a2, a6
	lw	a1, 128(sp)                     # 4-byte Folded Reload
	and	a2, a2, a1
	xor	t6, a2, a3
	and	a3, t1, a1
	xor	t1, a3, s0
	lw	s0, 28(a0)
	not	a4, a7
	and	a5, s3, a1
	and	a4, a4, a1
	and	s1, t4, a1
	xor	a5, a5, s0
	xor	t4, a4, t5
	xor	a6, s1, s2
	lw	s1, 16(a0)
	lw	s0, 20(a0)
	lw	a2, 24(a0)
	and	a3, t3, a1
	xor	t3, a3, s1
	not	s1, t0
	and	s1, s1, a1
	xor	t0, s1, s0
	not	s1, t2
	and	s1, s1, a1
	xor	a7, s1, a2
	slli	a2, t6, 2
	lw	a4, 136(sp)                     # 4-byte Folded Reload
	and	a2, a2, a4
	xor	t2, a2, t6
	slli	s1, t1, 2
	and	s1, s1, a4
	xor	s1, s1, t1
	slli	a1, a5, 2
	and	a1, a1, a4
	xor	t1, a1, a5
	slli	a5, t4, 2
	and	a5, a5, a4
	xor	t4, a5, t4
	slli	a5, a6, 2
	and	a5, a5, a4
	xor	a5, a5, a6
	slli	a3, t3, 2
	and	a3, a3, a4
	xor	a3, a3, t3
	slli	s0, t0, 2
	and	s0, s0, a4
	xor	s0, s0, t0
	slli	a1, a7, 2
	and	a1, a1, a4
	xor	a7, a1, a7
	slli	a2, t2, 4
	lw	a1, 132(sp)                     # 4-byte Folded Reload
	and	a2, a2, a1
	xor	t0, a2, t2
	slli	a2, s1, 4
	and	a2, a2, a1
	xor	s2, a2, s1
	slli	s1, t1, 4
	and	s1, s1, a1
	xor	s7, s1, t1
	slli	a4, t4, 4
	and	a4, a4, a1
	xor	a6, a4, t4
	slli	a4, a5, 4
	and	a4, a4, a1
	xor	t2, a4, a5
	slli	a4, a3, 4
	and	s1, a4, a1
	xor	a2, s1, a3
	slli	a3, s0, 4
	and	a4, a3, a1
	xor	a4, a4, s0
	slli	a3, a7, 4
	and	a3, a3, a1
	xor	s5, a3, a7
	sw	t0, 32(a0)
	sw	a6, 36(a0)
	sw	s2, 40(a0)
	sw	t2, 44(a0)
	sw	a2, 48(a0)
	sw	a4, 52(a0)
	sw	s5, 56(a0)
	sw	s7, 60(a0)
	lw	a0, 176(sp)                     # 4-byte Folded Reload
	lw	a3, 172(sp)                     # 4-byte Folded Reload
	lw	a1, 180(sp)                     # 4-byte Folded Reload
	bnez	a1, .Laes_BB0_3
	j	.Laes_BB0_9
.Laes_BB0_4:                                # %then.4.i157
	lui	a0, 1036240
	lui	a2, 986895
	lui	a3, 61681
	lui	a4, 12336
	addi	a0, a0, -772
	sw	a0, 32(sp)                      # 4-byte Folded Spill
	addi	a0, a2, 240
	sw	a0, 28(sp)                      # 4-byte Folded Spill
	addi	a0, a3, -241
	sw	a0, 24(sp)                      # 4-byte Folded Spill
	addi	a0, a4, 771
	sw	a0, 20(sp)                      # 4-byte Folded Spill
	addi	a0, sp, 188
	mv	s0, a1
	call	aes.aes_planes.soft.word.word32.U32Word.in_every_slot
	lw	s5, 188(sp)
	lw	s2, 192(sp)
	lw	s6, 196(sp)
	lw	s10, 200(sp)
	lw	s4, 204(sp)
	lw	s11, 208(sp)
	lw	s3, 212(sp)
	lw	s9, 216(sp)
	addi	a1, s0, 8
	addi	a0, sp, 188
	call	aes.aes_planes.soft.word.word32.U32Word.in_every_slot
	li	a1, 0
	li	t3, 0
	lw	t0, 188(sp)
	lw	t1, 192(sp)
	lw	a4, 196(sp)
	lw	t4, 200(sp)
	lw	s1, 204(sp)
	lw	a3, 208(sp)
	lw	a0, 212(sp)
	lw	a2, 216(sp)
	sw	s5, 0(s8)
	mv	s0, s2
	sw	s2, 4(s8)
	sw	s6, 8(s8)
	sw	s10, 12(s8)
	sw	s4, 180(sp)                     # 4-byte Folded Spill
	sw	s4, 16(s8)
	sw	s11, 20(s8)
	sw	s3, 176(sp)                     # 4-byte Folded Spill
	sw	s3, 24(s8)
	sw	s9, 28(s8)
.Laes_BB0_5:                                # %join.5.i164.i
                                        # =>This Inner Loop Header: Depth=1
	sw	s0, 124(sp)                     # 4-byte Folded Spill
	sw	s5, 132(sp)                     # 4-byte Folded Spill
	sw	t1, 100(sp)                     # 4-byte Folded Spill
	sw	s10, 136(sp)                    # 4-byte Folded Spill
	sw	t4, 112(sp)                     # 4-byte Folded Spill
	sw	s9, 144(sp)                     # 4-byte Folded Spill
	sw	s6, 148(sp)                     # 4-byte Folded Spill
	sw	a4, 140(sp)                     # 4-byte Folded Spill
	sw	s11, 152(sp)                    # 4-byte Folded Spill
	sw	a0, 116(sp)                     # 4-byte Folded Spill
	sw	a3, 120(sp)                     # 4-byte Folded Spill
	slli	t2, a1, 5
	slli	a6, a1, 6
	slli	s3, a1, 1
.Laes_pcrel_hi1:
	auipc	a7, %pcrel_hi(.Laes_static.0)
	xor	t5, a0, a3
	xor	t6, a2, t1
	xor	s0, s1, a4
	xor	s2, a2, a4
	mv	ra, a2
	sltiu	a2, a1, 3
	addi	a1, a1, 1
	sw	a1, 168(sp)                     # 4-byte Folded Spill
	seqz	a5, t3
	add	a6, a6, t2
	sw	a6, 156(sp)                     # 4-byte Folded Spill
	addi	a3, a7, %pcrel_lo(.Laes_pcrel_hi1)
	sw	s0, 88(sp)                      # 4-byte Folded Spill
	xor	t2, t6, s0
	and	a2, a2, a5
	sw	a2, 172(sp)                     # 4-byte Folded Spill
	seqz	a5, a1
	add	s3, s3, a3
	sw	s3, 160(sp)                     # 4-byte Folded Spill
	xor	a2, t2, t4
	add	a5, a5, t3
	sw	a5, 164(sp)                     # 4-byte Folded Spill
	xor	a6, a2, a4
	xor	a0, a0, a2
	xor	a4, t5, t0
	xor	s6, a4, s1
	sw	s1, 128(sp)                     # 4-byte Folded Spill
	and	a1, s6, t0
	mv	a2, s2
	sw	s2, 92(sp)                      # 4-byte Folded Spill
	xor	a3, a1, s2
	xor	s11, a6, t5
	xor	a3, a3, s11
	and	a5, a6, t2
	xor	a7, a3, a5
	xor	a3, a0, a5
	xor	s9, a4, t1
	xor	s7, s9, s2
	xor	s2, a6, t0
	and	a5, s2, s7
	xor	t3, a3, a5
	xor	s8, ra, s1
	xor	s1, a0, s8
	and	a5, s1, s8
	and	a0, s11, a2
	xor	t4, a0, a5
	xor	s10, s1, s11
	and	a3, s10, s0
	xor	a3, a3, a5
	xor	t5, s1, t5
	and	a5, s9, a4
	xor	a5, t5, a5
	sw	t6, 76(sp)                      # 4-byte Folded Spill
	and	a0, t5, t6
	xor	a5, a5, a0
	mv	a1, ra
	sw	ra, 108(sp)                     # 4-byte Folded Spill
	xor	t1, a4, ra
	mv	a2, t0
	xor	t0, s1, t0
	mv	ra, a2
	and	s0, t0, t1
	xor	s0, t5, s0
	xor	a0, a0, a1
	xor	a0, a0, s0
	xor	s0, t3, a3
	xor	a5, a5, t6
	lbu	s5, 0(s3)
	xor	a2, a5, a3
	xor	a5, a7, t4
	xor	a0, a0, t4
	andi	a7, s5, 64
	slli	t3, a7, 8
	slli	a7, a7, 9
	or	a1, a7, t3
	sw	a1, 96(sp)                      # 4-byte Folded Spill
	slli	a1, s5, 31
	srli	a1, a1, 25
	slli	a7, a1, 8
	slli	a1, a1, 9
	or	a1, a1, a7
	sw	a1, 80(sp)                      # 4-byte Folded Spill
	slli	a1, s5, 5
	andi	a1, a1, 64
	slli	a7, a1, 8
	slli	a1, a1, 9
	or	a1, a1, a7
	sw	a1, 84(sp)                      # 4-byte Folded Spill
	slli	a1, s5, 4
	andi	a1, a1, 64
	slli	a7, a1, 8
	slli	a1, a1, 9
	or	t6, a1, a7
	slli	a1, s5, 3
	andi	a1, a1, 64
	slli	a7, a1, 8
	slli	a1, a1, 9
	or	t3, a1, a7
	slli	a1, s5, 2
	andi	a1, a1, 64
	slli	a7, a1, 8
	slli	a1, a1, 9
	or	a1, a1, a7
	sw	a1, 104(sp)                     # 4-byte Folded Spill
	slli	a1, s5, 1
	andi	a1, a1, 64
	slli	t4, a1, 8
	slli	a1, a1, 9
	or	s4, a1, t4
	srli	a1, s5, 1
	andi	a1, a1, 64
	slli	t4, a1, 8
	slli	a1, a1, 9
	or	t4, a1, t4
	and	a3, a2, s0
	xor	s5, a0, a2
	xor	a1, a3, a5
	and	a1, a1, s5
	xor	s5, s0, a5
	xor	s0, a3, a0
	and	a7, s0, s5
	xor	a5, a7, a5
	xor	a3, a3, a1
	xor	a1, a1, a0
	and	a0, a0, a3
	xor	s0, s0, a0
	xor	a0, a0, a2
	and	a2, a1, s6
	xor	t6, a2, t6
	and	s0, s0, a5
	xor	a3, s0, s5
	and	a7, a5, t1
	and	t0, a5, t0
	and	a2, a0, a6
	and	a6, a0, t2
	xor	a0, a0, a1
	and	s0, a0, s2
	and	t1, a0, s7
	xor	a0, a0, a3
	and	s2, a3, a4
	and	t2, a3, s9
	xor	a3, a3, a5
	xor	a5, a5, a1
	and	a1, a1, ra
	xor	a1, a1, a2
	xor	s3, s0, a2
	and	s0, a3, t5
	lw	a2, 76(sp)                      # 4-byte Folded Reload
	and	a3, a3, a2
	and	t5, a5, s1
	and	s1, a5, s8
	and	s6, a0, s11
	xor	a5, a5, a0
	lw	a2, 92(sp)                      # 4-byte Folded Reload
	and	a0, a0, a2
	lw	a2, 88(sp)                      # 4-byte Folded Reload
	and	s5, a5, a2
	and	a5, a5, s10
	xor	a2, a1, t0
	xor	a4, s0, s2
	xor	a2, a2, s0
	xor	a1, s6, a1
	xor	a0, s4, a0
	xor	a5, a5, a4
	xor	s2, s3, a4
	lw	s0, 80(sp)                      # 4-byte Folded Reload
	xor	s0, s0, a3
	xor	a1, a1, a3
	xor	a3, a2, t2
	xor	t0, a2, t3
	xor	a2, s5, s1
	xor	a0, a0, s1
	xor	s1, a2, t1
	xor	a2, a2, a3
	xor	a1, a1, a5
	xor	a3, a5, t5
	xor	s0, s0, a2
	lw	a4, 84(sp)                      # 4-byte Folded Reload
	xor	a2, a2, a4
	xor	a5, s1, a6
	xor	s1, t6, s1
	xor	a0, a0, a3
	lw	a4, 96(sp)                      # 4-byte Folded Reload
	xor	a6, a3, a4
	xor	a3, a3, t4
	xor	a4, a1, a7
	xor	a1, a1, a2
	xor	s1, s1, a4
	xor	a0, a0, a4
	xor	a2, s2, a5
	xor	a3, a3, a5
	srli	a4, s0, 14
	slli	s0, s0, 18
	or	a4, a4, s0
	srli	a5, a1, 14
	slli	a1, a1, 18
	or	s2, a1, a5
	srli	a5, s1, 14
	slli	s1, s1, 18
	or	a5, a5, s1
	srli	s1, a0, 14
	slli	a0, a0, 18
	or	a7, a0, s1
	srli	s1, a3, 14
	slli	a3, a3, 18
	or	a3, a3, s1
	xor	s1, t0, a2
	srli	s0, s1, 14
	slli	s1, s1, 18
	or	t0, s1, s0
	lw	s1, 104(sp)                     # 4-byte Folded Reload
	xor	s1, s1, a2
	xor	a0, a6, a2
	slli	a2, a2, 18
	srli	s1, s1, 14
	or	a6, a2, s1
	srli	s1, a0, 14
	slli	a0, a0, 18
	or	t2, a0, s1
	not	a4, a4
	lw	t3, 20(sp)                      # 4-byte Folded Reload
	and	a4, t3, a4
	lw	a0, 132(sp)                     # 4-byte Folded Reload
	xor	s6, a4, a0
	and	a5, a5, t3
	lw	a0, 148(sp)                     # 4-byte Folded Reload
	xor	t6, a5, a0
	srli	t5, ra, 4
	mv	s10, ra
	and	a3, a3, t3
	lw	a0, 144(sp)                     # 4-byte Folded Reload
	xor	t4, a3, a0
	lw	t1, 100(sp)                     # 4-byte Folded Reload
	srli	a1, t1, 4
	not	a0, s2
	and	a0, t3, a0
	lw	a2, 124(sp)                     # 4-byte Folded Reload
	xor	a0, a0, a2
	lw	s9, 140(sp)                     # 4-byte Folded Reload
	srli	s0, s9, 4
	and	a2, t0, t3
	lw	a3, 136(sp)                     # 4-byte Folded Reload
	xor	a2, a2, a3
	lw	t0, 112(sp)                     # 4-byte Folded Reload
	srli	a4, t0, 4
	and	a3, a6, t3
	lw	a5, 180(sp)                     # 4-byte Folded Reload
	xor	s2, a3, a5
	lw	s11, 128(sp)                    # 4-byte Folded Reload
	srli	a3, s11, 4
	sw	a3, 96(sp)                      # 4-byte Folded Spill
	lw	a5, 24(sp)                      # 4-byte Folded Reload
	and	t5, t5, a5
	and	s5, a1, a5
	and	s4, s0, a5
	and	ra, a4, a5
	lw	a6, 184(sp)                     # 4-byte Folded Reload
	lw	s3, 156(sp)                     # 4-byte Folded Reload
	add	s3, s3, a6
	not	a1, a7
	and	a1, t3, a1
	not	s0, t2
	lw	a3, 152(sp)                     # 4-byte Folded Reload
	xor	a1, a1, a3
	slli	a4, s6, 2
	and	s0, t3, s0
	lw	a3, 176(sp)                     # 4-byte Folded Reload
	xor	a6, s0, a3
	slli	a3, t6, 2
	lw	t2, 32(sp)                      # 4-byte Folded Reload
	and	a4, a4, t2
	xor	a7, a4, s6
	slli	a4, t4, 2
	and	a3, a3, t2
	xor	s1, a3, t6
	slli	a3, a0, 2
	and	a4, a4, t2
	xor	s6, a4, t4
	slli	a4, a2, 2
	and	a3, a3, t2
	xor	s0, a3, a0
	sw	s0, 176(sp)                     # 4-byte Folded Spill
	slli	a0, s2, 2
	and	a3, a4, t2
	xor	a3, a3, a2
	slli	a2, a1, 2
	and	a0, a0, t2
	and	a2, a2, t2
	xor	a4, a0, s2
	slli	a0, a6, 2
	xor	s8, a2, a1
	sw	a7, 180(sp)                     # 4-byte Folded Spill
	slli	a1, a7, 4
	and	a0, a0, t2
	xor	s7, a0, a6
	srli	a0, a7, 2
	and	a0, a0, t3
	xor	s2, a0, s10
	srli	a2, s1, 2
	mv	s10, s1
	sw	s1, 148(sp)                     # 4-byte Folded Spill
	lw	a6, 28(sp)                      # 4-byte Folded Reload
	and	a0, a1, a6
	sw	a0, 132(sp)                     # 4-byte Folded Spill
	and	a1, a2, t3
	xor	s9, a1, s9
	srli	a1, s0, 2
	and	a1, a1, t3
	xor	a7, a1, t1
	mv	a1, a3
	sw	a3, 156(sp)                     # 4-byte Folded Spill
	srli	a2, a3, 2
	and	a2, a2, t3
	xor	t6, a2, t0
	srli	a3, a4, 2
	sw	a4, 144(sp)                     # 4-byte Folded Spill
	and	a3, a3, t3
	xor	t4, a3, s11
	slli	s1, s0, 4
	and	a2, s1, a6
	sw	a2, 152(sp)                     # 4-byte Folded Spill
	or	s1, a0, t5
	or	s0, a2, s5
	sw	s1, 32(s3)
	slli	s1, s10, 4
	and	a0, s1, a6
	sw	a0, 128(sp)                     # 4-byte Folded Spill
	or	s1, a0, s4
	sw	s0, 36(s3)
	slli	s0, a1, 4
	and	a0, s0, a6
	sw	a0, 140(sp)                     # 4-byte Folded Spill
	or	s0, a0, ra
	sw	s1, 40(s3)
	sw	s8, 136(sp)                     # 4-byte Folded Spill
	srli	s1, s8, 2
	and	s1, s1, t3
	lw	a1, 120(sp)                     # 4-byte Folded Reload
	xor	t0, s1, a1
	srli	a1, a1, 4
	lw	a2, 96(sp)                      # 4-byte Folded Reload
	and	a2, a2, a5
	and	a1, a1, a5
	sw	s0, 44(s3)
	slli	s0, a4, 4
	and	a3, s0, a6
	sw	a3, 112(sp)                     # 4-byte Folded Spill
	slli	s0, s8, 4
	and	a0, s0, a6
	sw	a0, 120(sp)                     # 4-byte Folded Spill
	or	a2, a2, a3
	or	a1, a1, a0
	sw	a2, 48(s3)
	sw	s7, 124(sp)                     # 4-byte Folded Spill
	srli	a2, s7, 2
	and	a2, a2, t3
	lw	s0, 116(sp)                     # 4-byte Folded Reload
	xor	t5, a2, s0
	srli	s0, s0, 4
	and	s0, s0, a5
	slli	a3, s7, 4
	and	a3, a3, a6
	sw	a3, 116(sp)                     # 4-byte Folded Spill
	or	a3, a3, s0
	sw	a1, 52(s3)
	slli	a1, s2, 2
	and	a1, a1, t2
	xor	t1, a1, s2
	slli	a1, s9, 2
	and	a1, a1, t2
	xor	s2, a1, s9
	sw	s6, 104(sp)                     # 4-byte Folded Spill
	srli	a4, s6, 2
	and	a4, a4, t3
	lw	a0, 108(sp)                     # 4-byte Folded Reload
	xor	s0, a4, a0
	slli	a4, s0, 2
	and	a4, a4, t2
	xor	a4, a4, s0
	srli	s0, a0, 4
	and	s0, s0, a5
	slli	s1, s6, 4
	and	s1, s1, a6
	sw	s1, 88(sp)                      # 4-byte Folded Spill
	or	s1, s1, s0
	sw	a3, 56(s3)
	sw	s1, 60(s3)
	slli	a3, a7, 2
	and	a3, a3, t2
	xor	a5, a3, a7
	slli	a3, t6, 2
	and	a3, a3, t2
	xor	s0, a3, t6
	slli	a3, t4, 2
	and	a3, a3, t2
	xor	a2, a3, t4
	slli	a3, t0, 2
	and	a3, a3, t2
	xor	a0, a3, t0
	slli	a3, t5, 2
	and	a3, a3, t2
	xor	a1, a3, t5
	slli	a3, t1, 4
	and	a3, a3, a6
	xor	t1, a3, t1
	slli	a3, s2, 4
	and	a3, a3, a6
	xor	a7, a3, s2
	slli	a3, a4, 4
	and	a3, a3, a6
	xor	a4, a4, a3
	slli	a3, a5, 4
	and	a3, a3, a6
	xor	a5, a5, a3
	slli	a3, s0, 4
	and	a3, a3, a6
	xor	t5, a3, s0
	slli	a3, a2, 4
	and	a3, a3, a6
	xor	t0, a3, a2
	slli	a2, a0, 4
	and	a2, a2, a6
	xor	t6, a2, a0
	slli	a0, a1, 4
	and	a0, a0, a6
	xor	a2, a0, a1
	xor	s10, a4, a7
	xor	s5, a2, t6
	sw	t6, 100(sp)                     # 4-byte Folded Spill
	xor	s9, s5, t1
	xor	a0, s9, t0
	sw	a0, 64(sp)                      # 4-byte Folded Spill
	and	a1, a0, t1
	xor	a1, a1, s10
	xor	s7, a5, a4
	xor	a0, t0, a7
	xor	s6, s7, a0
	sw	a0, 68(sp)                      # 4-byte Folded Spill
	xor	a3, s6, t5
	sw	t5, 92(sp)                      # 4-byte Folded Spill
	xor	s4, a3, a7
	sw	a7, 80(sp)                      # 4-byte Folded Spill
	and	s1, s4, s6
	xor	s8, s4, s5
	xor	s0, s8, s1
	xor	a1, a1, s0
	sw	a1, 60(sp)                      # 4-byte Folded Spill
	xor	s2, a3, a2
	sw	a2, 108(sp)                     # 4-byte Folded Spill
	xor	t4, s2, s1
	sw	a5, 84(sp)                      # 4-byte Folded Spill
	xor	s11, s9, a5
	mv	s1, t1
	sw	t1, 40(sp)                      # 4-byte Folded Spill
	xor	a1, s4, t1
	sw	a1, 52(sp)                      # 4-byte Folded Spill
	xor	s0, s11, s10
	sw	s0, 56(sp)                      # 4-byte Folded Spill
	and	s0, s0, a1
	xor	t1, t4, s0
	sw	t0, 96(sp)                      # 4-byte Folded Spill
	xor	ra, t0, a4
	xor	s2, s2, ra
	and	a1, s2, ra
	and	s0, s8, s10
	xor	t4, s0, a1
	xor	s0, s2, s8
	sw	s0, 72(sp)                      # 4-byte Folded Spill
	and	s0, s0, a0
	xor	a3, s0, a1
	sw	s1, 64(s3)
	sw	a5, 68(s3)
	sw	a7, 72(s3)
	sw	t5, 76(s3)
	sw	t0, 80(s3)
	sw	t6, 84(s3)
	sw	a2, 88(s3)
	mv	a5, a4
	sw	a4, 76(sp)                      # 4-byte Folded Spill
	sw	a4, 92(s3)
	lw	a1, 160(sp)                     # 4-byte Folded Reload
	lbu	t0, 1(a1)
	xor	s0, s2, s5
	and	a0, s11, s9
	xor	a1, s0, a0
	and	a0, s0, s7
	xor	a4, a1, a0
	xor	t5, s9, a5
	xor	s5, s2, s1
	and	a2, s5, t5
	xor	a2, a2, s0
	xor	a0, a0, a5
	xor	a1, a2, a0
	andi	a2, t0, 64
	slli	a0, a2, 8
	slli	a2, a2, 9
	or	a0, a0, a2
	sw	a0, 160(sp)                     # 4-byte Folded Spill
	xor	a7, t1, a3
	xor	a2, a4, s7
	xor	a5, a2, a3
	lw	a0, 60(sp)                      # 4-byte Folded Reload
	xor	t6, a0, t4
	xor	a2, a1, t4
	slli	a3, t0, 31
	srli	a3, a3, 25
	slli	t1, a3, 8
	slli	a3, a3, 9
	or	a0, a3, t1
	sw	a0, 44(sp)                      # 4-byte Folded Spill
	slli	a3, t0, 5
	andi	a3, a3, 64
	slli	t1, a3, 8
	slli	a3, a3, 9
	or	a0, a3, t1
	sw	a0, 48(sp)                      # 4-byte Folded Spill
	slli	a3, t0, 4
	andi	a3, a3, 64
	slli	t1, a3, 8
	slli	a3, a3, 9
	or	a3, a3, t1
	slli	s1, t0, 3
	andi	s1, s1, 64
	slli	t1, s1, 8
	slli	s1, s1, 9
	or	t1, s1, t1
	slli	s1, t0, 2
	andi	s1, s1, 64
	slli	a0, s1, 8
	slli	s1, s1, 9
	or	a0, a0, s1
	sw	a0, 60(sp)                      # 4-byte Folded Spill
	slli	a0, t0, 1
	andi	a0, a0, 64
	slli	s1, a0, 8
	slli	a0, a0, 9
	or	a0, a0, s1
	srli	s1, t0, 1
	andi	s1, s1, 64
	slli	t0, s1, 8
	slli	s1, s1, 9
	or	a1, s1, t0
	sw	a1, 36(sp)                      # 4-byte Folded Spill
	and	s1, a5, a7
	xor	a1, a2, a5
	xor	a4, s1, t6
	and	a1, a1, a4
	xor	a7, a7, t6
	xor	a4, s1, a2
	and	t4, a4, a7
	xor	t4, t4, t6
	xor	s1, s1, a1
	xor	a1, a1, a2
	and	a2, a2, s1
	xor	a4, a4, a2
	xor	a2, a2, a5
	lw	a5, 64(sp)                      # 4-byte Folded Reload
	and	a5, a5, a1
	xor	t6, a5, a3
	and	a4, a4, t4
	xor	a4, a4, a7
	and	a3, t4, t5
	sw	a3, 64(sp)                      # 4-byte Folded Spill
	and	s1, t4, s5
	and	a5, a2, s4
	and	t0, a2, s6
	xor	a2, a2, a1
	lw	a3, 52(sp)                      # 4-byte Folded Reload
	and	s6, a2, a3
	lw	a3, 56(sp)                      # 4-byte Folded Reload
	and	a7, a2, a3
	xor	a2, a2, a4
	and	s4, a4, s9
	and	s5, a4, s11
	xor	a4, a4, t4
	xor	a3, t4, a1
	lw	s9, 40(sp)                      # 4-byte Folded Reload
	and	a1, a1, s9
	xor	a1, a1, a5
	xor	s6, s6, a5
	and	s0, s0, a4
	and	a4, a4, s7
	and	t4, a3, s2
	and	a5, a3, ra
	and	s2, a2, s8
	xor	a3, a3, a2
	and	s7, a2, s10
	lw	a2, 68(sp)                      # 4-byte Folded Reload
	and	t5, a3, a2
	lw	a2, 72(sp)                      # 4-byte Folded Reload
	and	a3, a3, a2
	xor	s1, s1, a1
	xor	a2, s0, s4
	xor	s0, s0, s1
	xor	a1, s2, a1
	xor	a0, a0, s7
	xor	a3, a3, a2
	xor	s2, s6, a2
	lw	s1, 44(sp)                      # 4-byte Folded Reload
	xor	s1, s1, a4
	xor	a1, a1, a4
	xor	a4, s0, s5
	xor	t1, s0, t1
	xor	s0, t5, a5
	xor	a0, a0, a5
	xor	a5, s0, a7
	xor	a4, a4, s0
	xor	a1, a1, a3
	xor	a3, a3, t4
	xor	s1, s1, a4
	lw	a2, 48(sp)                      # 4-byte Folded Reload
	xor	a4, a4, a2
	xor	s0, a5, t0
	xor	a5, t6, a5
	xor	a0, a0, a3
	lw	a2, 160(sp)                     # 4-byte Folded Reload
	xor	t0, a3, a2
	lw	a2, 36(sp)                      # 4-byte Folded Reload
	xor	a3, a3, a2
	lw	a2, 64(sp)                      # 4-byte Folded Reload
	xor	a2, a2, a1
	xor	a1, a1, a4
	xor	a5, a5, a2
	xor	a0, a0, a2
	xor	a2, s2, s0
	xor	a3, a3, s0
	srli	a4, s1, 14
	slli	s1, s1, 18
	or	a4, a4, s1
	srli	s1, a1, 14
	slli	a1, a1, 18
	or	a1, a1, s1
	srli	s1, a5, 14
	slli	a5, a5, 18
	or	a5, a5, s1
	srli	s1, a0, 14
	slli	a0, a0, 18
	or	a7, a0, s1
	srli	s1, a3, 14
	slli	a3, a3, 18
	or	a3, a3, s1
	xor	s1, t1, a2
	srli	s0, s1, 14
	slli	s1, s1, 18
	or	s0, s0, s1
	lw	s1, 60(sp)                      # 4-byte Folded Reload
	xor	s1, s1, a2
	xor	a0, t0, a2
	slli	a2, a2, 18
	srli	s1, s1, 14
	or	a2, a2, s1
	srli	s1, a0, 14
	slli	a0, a0, 18
	or	a0, a0, s1
	not	a4, a4
	and	a4, t3, a4
	lw	s1, 132(sp)                     # 4-byte Folded Reload
	or	a4, a4, s1
	and	a5, a5, t3
	lw	s1, 128(sp)                     # 4-byte Folded Reload
	or	a5, a5, s1
	and	a3, a3, t3
	lw	s1, 88(sp)                      # 4-byte Folded Reload
	or	a3, a3, s1
	lw	s1, 180(sp)                     # 4-byte Folded Reload
	xor	t0, a4, s1
	not	a1, a1
	and	a1, t3, a1
	lw	a4, 152(sp)                     # 4-byte Folded Reload
	or	a1, a1, a4
	lw	a4, 148(sp)                     # 4-byte Folded Reload
	xor	t1, a5, a4
	and	s1, s0, t3
	lw	a5, 140(sp)                     # 4-byte Folded Reload
	or	a5, a5, s1
	and	a2, a2, t3
	lw	a4, 112(sp)                     # 4-byte Folded Reload
	or	a4, a4, a2
	not	s0, a7
	and	s0, t3, s0
	lw	a2, 120(sp)                     # 4-byte Folded Reload
	or	s0, s0, a2
	lw	a2, 104(sp)                     # 4-byte Folded Reload
	xor	a2, a2, a3
	lw	s1, 176(sp)                     # 4-byte Folded Reload
	xor	s1, s1, a1
	lw	a1, 156(sp)                     # 4-byte Folded Reload
	xor	t4, a5, a1
	lw	a1, 144(sp)                     # 4-byte Folded Reload
	xor	a7, a4, a1
	lw	a1, 136(sp)                     # 4-byte Folded Reload
	xor	t5, s0, a1
	not	a0, a0
	and	a0, t3, a0
	lw	a1, 116(sp)                     # 4-byte Folded Reload
	or	a0, a0, a1
	lw	a1, 124(sp)                     # 4-byte Folded Reload
	xor	t6, a0, a1
	slli	a4, t0, 2
	and	a4, a4, t2
	xor	a1, a4, t0
	slli	a5, t1, 2
	and	a5, a5, t2
	xor	a5, a5, t1
	slli	a3, a2, 2
	and	a3, a3, t2
	xor	a2, a2, a3
	slli	a3, s1, 2
	and	a3, a3, t2
	xor	t0, a3, s1
	slli	a3, t4, 2
	and	a3, a3, t2
	xor	t1, a3, t4
	slli	s1, a7, 2
	and	s1, s1, t2
	xor	a7, s1, a7
	slli	s0, t5, 2
	and	s0, s0, t2
	xor	s2, s0, t5
	slli	a0, t6, 2
	and	a0, a0, t2
	xor	s4, a0, t6
	slli	a4, a1, 4
	and	a4, a4, a6
	xor	s5, a4, a1
	srli	a1, a1, 2
	and	a1, a1, t3
	xor	t4, a1, s9
	slli	a4, a5, 4
	and	a4, a4, a6
	xor	s6, a4, a5
	srli	a5, a5, 2
	and	a4, a5, t3
	lw	a0, 80(sp)                      # 4-byte Folded Reload
	xor	t5, a4, a0
	slli	a5, a2, 4
	and	a5, a5, a6
	xor	s9, a5, a2
	srli	a2, a2, 2
	and	a2, a2, t3
	lw	a0, 76(sp)                      # 4-byte Folded Reload
	xor	t6, a2, a0
	slli	a5, t0, 4
	and	a5, a5, a6
	xor	s7, a5, t0
	srli	a5, t0, 2
	and	a5, a5, t3
	lw	a0, 84(sp)                      # 4-byte Folded Reload
	xor	t0, a5, a0
	slli	a3, t1, 4
	and	a3, a3, a6
	xor	s10, a3, t1
	srli	a3, t1, 2
	and	a3, a3, t3
	lw	a0, 92(sp)                      # 4-byte Folded Reload
	xor	t1, a3, a0
	slli	s1, a7, 4
	and	s1, s1, a6
	xor	s8, s1, a7
	srli	s1, a7, 2
	and	s1, s1, t3
	lw	a0, 96(sp)                      # 4-byte Folded Reload
	xor	a7, s1, a0
	slli	s0, s2, 4
	and	s0, s0, a6
	xor	s11, s0, s2
	srli	s0, s2, 2
	and	s0, s0, t3
	lw	a0, 100(sp)                     # 4-byte Folded Reload
	xor	s2, s0, a0
	slli	a0, s4, 4
	and	a0, a0, a6
	xor	ra, a0, s4
	srli	a0, s4, 2
	and	a0, a0, t3
	lw	a1, 108(sp)                     # 4-byte Folded Reload
	xor	t3, a0, a1
	slli	a1, t4, 2
	and	a1, a1, t2
	xor	t4, a1, t4
	slli	a4, t5, 2
	and	a4, a4, t2
	xor	a4, a4, t5
	slli	a2, t6, 2
	and	a2, a2, t2
	xor	a2, a2, t6
	slli	a5, t0, 2
	and	a5, a5, t2
	xor	a5, a5, t0
	slli	a3, t1, 2
	and	a3, a3, t2
	xor	a3, a3, t1
	slli	s1, a7, 2
	and	s1, s1, t2
	xor	s1, s1, a7
	slli	s0, s2, 2
	and	s0, s0, t2
	xor	s0, s0, s2
	slli	a0, t3, 2
	and	a0, a0, t2
	xor	a0, a0, t3
	slli	a1, t4, 4
	and	a1, a1, a6
	xor	t0, a1, t4
	slli	a1, a4, 4
	and	a1, a1, a6
	xor	a4, a4, a1
	slli	a1, a2, 4
	and	a1, a1, a6
	xor	a2, a2, a1
	slli	a1, a5, 4
	and	a1, a1, a6
	xor	t1, a1, a5
	slli	a1, a3, 4
	and	a1, a1, a6
	xor	t4, a1, a3
	slli	a1, s1, 4
	and	a1, a1, a6
	xor	s1, s1, a1
	slli	a1, s0, 4
	and	a1, a1, a6
	xor	a3, a1, s0
	slli	a1, a0, 4
	and	a1, a1, a6
	xor	a0, a0, a1
	sw	s5, 96(s3)
	mv	s0, s7
	sw	s7, 100(s3)
	sw	s6, 104(s3)
	sw	s10, 108(s3)
	sw	s8, 180(sp)                     # 4-byte Folded Spill
	sw	s8, 112(s3)
	sw	s11, 116(s3)
	sw	ra, 176(sp)                     # 4-byte Folded Spill
	sw	ra, 120(s3)
	sw	s9, 124(s3)
	lw	a1, 168(sp)                     # 4-byte Folded Reload
	lw	t3, 164(sp)                     # 4-byte Folded Reload
	lw	a5, 172(sp)                     # 4-byte Folded Reload
	bnez	a5, .Laes_BB0_5
	j	.Laes_BB0_9
.Laes_BB0_6:                                # %else.5.i
	lui	a0, 1036240
	lui	a2, 986895
	lui	a3, 12336
	addi	a0, a0, -772
	sw	a0, 136(sp)                     # 4-byte Folded Spill
	addi	a0, a2, 240
	sw	a0, 140(sp)                     # 4-byte Folded Spill
	addi	a0, a3, 771
	sw	a0, 132(sp)                     # 4-byte Folded Spill
	addi	a0, sp, 188
	mv	s5, a1
	call	aes.aes_planes.soft.word.word32.U32Word.in_every_slot
	lw	s6, 188(sp)
	lw	s7, 192(sp)
	lw	s2, 196(sp)
	lw	s4, 200(sp)
	lw	s10, 204(sp)
	lw	s11, 208(sp)
	lw	s9, 212(sp)
	lw	a0, 216(sp)
	sw	a0, 180(sp)                     # 4-byte Folded Spill
	addi	a1, s5, 16
	addi	a0, sp, 188
	call	aes.aes_planes.soft.word.word32.U32Word.in_every_slot
	li	a1, 0
	li	t3, 0
	lw	ra, 188(sp)
	lw	t4, 192(sp)
	lw	s1, 196(sp)
	lw	t2, 200(sp)
	lw	s0, 204(sp)
	lw	a0, 208(sp)
	lw	s3, 212(sp)
	lw	s5, 216(sp)
	sw	s6, 0(s8)
	sw	s7, 4(s8)
	sw	s2, 8(s8)
	sw	s4, 12(s8)
	sw	s10, 16(s8)
	sw	s11, 20(s8)
	sw	s9, 24(s8)
	lw	a2, 180(sp)                     # 4-byte Folded Reload
	sw	a2, 28(s8)
	sw	ra, 32(s8)
	sw	t4, 36(s8)
	sw	s1, 40(s8)
	sw	t2, 44(s8)
	sw	s0, 48(s8)
	sw	a0, 52(s8)
	sw	s3, 56(s8)
	sw	s5, 60(s8)
.Laes_BB0_7:                                # %join.5.i348.i
                                        # =>This Inner Loop Header: Depth=1
	xor	t5, s3, a0
	xor	a0, s5, s0
	xor	s6, s5, t4
	xor	a5, s0, s1
	xor	a7, s5, s1
	mv	s7, a1
	sltiu	a1, a1, 5
	seqz	a2, t3
	xor	a4, t5, ra
	sw	a5, 156(sp)                     # 4-byte Folded Spill
	xor	t1, s6, a5
	and	a1, a1, a2
	sw	a1, 180(sp)                     # 4-byte Folded Spill
	xor	s11, a4, s0
	xor	a1, t1, t2
	xor	s10, a4, s5
	xor	t6, a4, t4
	addi	a3, s7, 1
	sw	a3, 176(sp)                     # 4-byte Folded Spill
	and	t2, s11, ra
	xor	s0, a1, s1
	xor	a6, a1, s3
	mv	a2, a7
	sw	a7, 160(sp)                     # 4-byte Folded Spill
	xor	s9, t6, a7
	and	t0, t6, a4
	seqz	s1, a3
	sw	a0, 164(sp)                     # 4-byte Folded Spill
	xor	a3, a6, a0
	xor	s3, s0, ra
	and	s2, s0, t1
	xor	a1, s0, t5
	xor	s4, t2, a7
	add	t3, t3, s1
	sw	t3, 172(sp)                     # 4-byte Folded Spill
	mv	a7, ra
	and	ra, a3, a0
	xor	s1, a3, t5
	xor	t2, a3, a1
	and	t5, a1, a2
	xor	s4, s4, a1
	xor	a6, a6, s2
	xor	s2, s4, s2
	and	a2, s3, s9
	xor	a6, a6, a2
	and	a2, t2, a5
	xor	t5, t5, ra
	xor	ra, a2, ra
	sw	s6, 144(sp)                     # 4-byte Folded Spill
	and	a2, s1, s6
	xor	a5, s1, t0
	xor	a5, a5, a2
	xor	a2, a2, s5
	xor	s4, a3, a7
	and	a0, s4, s10
	xor	a0, a0, s1
	xor	a0, a0, a2
.Laes_pcrel_hi2:
	auipc	a2, %pcrel_hi(.Laes_static.0)
	addi	a2, a2, %pcrel_lo(.Laes_pcrel_hi2)
	add	a2, a2, s7
	lbu	s5, 0(a2)
	xor	t3, a6, ra
	xor	a5, a5, s6
	xor	a5, a5, ra
	xor	t4, s2, t5
	xor	a0, a0, t5
	andi	a6, s5, 64
	slli	t0, a6, 8
	slli	a6, a6, 9
	or	a2, a6, t0
	sw	a2, 168(sp)                     # 4-byte Folded Spill
	slli	a2, s5, 31
	srli	a2, a2, 25
	slli	a6, a2, 8
	slli	a2, a2, 9
	or	t5, a2, a6
	slli	a2, s5, 5
	andi	a2, a2, 64
	slli	a6, a2, 8
	slli	a2, a2, 9
	or	a2, a2, a6
	sw	a2, 152(sp)                     # 4-byte Folded Spill
	slli	a2, s5, 4
	andi	a2, a2, 64
	slli	a6, a2, 8
	slli	a2, a2, 9
	or	s6, a2, a6
	slli	a2, s5, 3
	andi	a2, a2, 64
	slli	a6, a2, 8
	slli	a2, a2, 9
	or	s2, a2, a6
	slli	a2, s5, 2
	andi	a2, a2, 64
	slli	a6, a2, 8
	slli	a2, a2, 9
	or	a2, a2, a6
	sw	a2, 148(sp)                     # 4-byte Folded Spill
	slli	a2, s5, 1
	andi	a2, a2, 64
	slli	a6, a2, 8
	slli	a2, a2, 9
	or	ra, a2, a6
	srli	a2, s5, 1
	andi	a2, a2, 64
	slli	a6, a2, 8
	slli	a2, a2, 9
	or	a6, a2, a6
	and	a2, a5, t3
	xor	s5, a0, a5
	xor	s8, a2, t4
	and	s5, s8, s5
	xor	t3, t3, t4
	xor	s8, a2, a0
	and	t0, s8, t3
	xor	t0, t0, t4
	xor	t4, s5, a2
	xor	a2, s5, a0
	and	a0, t4, a0
	xor	t4, a0, s8
	xor	a0, a0, a5
	and	a5, a2, s11
	xor	s11, a5, s6
	and	a5, t4, t0
	xor	a5, a5, t3
	and	t3, a2, a7
	and	s5, a0, s0
	and	t1, a0, t1
	xor	a0, a0, a2
	xor	a2, t0, a2
	and	t4, t0, s10
	and	s4, t0, s4
	and	a7, a0, s3
	and	s3, a0, s9
	xor	a0, a0, a5
	xor	s0, a5, t0
	and	s6, a5, a4
	and	t0, a5, t6
	xor	a5, s5, t3
	xor	a7, a7, s5
	and	s1, s1, s0
	lw	a4, 144(sp)                     # 4-byte Folded Reload
	and	s0, s0, a4
	and	t3, a2, a3
	lw	a3, 164(sp)                     # 4-byte Folded Reload
	and	a3, a3, a2
	and	s5, a0, a1
	xor	a2, a2, a0
	lw	a1, 160(sp)                     # 4-byte Folded Reload
	and	s8, a0, a1
	lw	a0, 156(sp)                     # 4-byte Folded Reload
	and	t6, a2, a0
	and	a2, a2, t2
	slli	a1, s7, 6
	lw	a0, 184(sp)                     # 4-byte Folded Reload
	add	a1, a1, a0
	xor	a4, a5, s4
	xor	a0, s1, s6
	xor	s1, s1, a4
	xor	a5, s5, a5
	xor	s8, ra, s8
	xor	a2, a2, a0
	xor	s6, a7, a0
	lw	s4, 0(a1)
	lw	a7, 4(a1)
	lw	s5, 8(a1)
	lw	ra, 12(a1)
	xor	s7, t5, s0
	xor	a0, t6, a3
	xor	a4, s1, t0
	xor	a5, a5, s0
	xor	s10, s1, s2
	xor	s8, s8, a3
	xor	s1, a0, s3
	xor	a0, a0, a4
	lw	t6, 16(a1)
	lw	s2, 20(a1)
	lw	t0, 24(a1)
	lw	s3, 28(a1)
	xor	a5, a5, a2
	xor	a2, a2, t3
	xor	a4, s1, t1
	xor	s0, a5, t4
	xor	t2, a0, s7
	lw	a3, 152(sp)                     # 4-byte Folded Reload
	xor	t4, a0, a3
	xor	s1, s11, s1
	xor	t1, s8, a2
	lw	a0, 168(sp)                     # 4-byte Folded Reload
	xor	t3, a2, a0
	xor	a2, a2, a6
	xor	a0, s6, a4
	xor	a5, t4, a5
	xor	s1, s1, s0
	xor	s0, t1, s0
	xor	a2, a2, a4
	srli	a6, t2, 14
	slli	t2, t2, 18
	xor	a4, s10, a0
	lw	a3, 148(sp)                     # 4-byte Folded Reload
	xor	t1, a0, a3
	xor	t3, t3, a0
	or	t4, t2, a6
	srli	a6, a5, 14
	slli	a5, a5, 18
	srli	a3, s1, 14
	slli	s1, s1, 18
	slli	t5, a0, 18
	srli	s7, s0, 14
	slli	s0, s0, 18
	srli	s6, a2, 14
	slli	s8, a2, 18
	not	t4, t4
	or	s9, a5, a6
	or	a6, s1, a3
	srli	s10, a4, 14
	slli	a4, a4, 18
	srli	t1, t1, 14
	or	s0, s0, s7
	srli	s7, t3, 14
	slli	t3, t3, 18
	or	a3, s8, s6
	lw	t2, 132(sp)                     # 4-byte Folded Reload
	and	a5, t2, t4
	not	s1, s9
	and	a0, a6, t2
	or	a4, a4, s10
	or	a2, t5, t1
	not	s0, s0
	or	a6, t3, s7
	and	a3, a3, t2
	xor	a5, a5, s4
	and	s1, t2, s1
	xor	a0, a0, s5
	and	a4, a4, t2
	and	a2, a2, t2
	and	s0, t2, s0
	not	a6, a6
	xor	a3, a3, s3
	slli	t3, a5, 2
	xor	s1, s1, a7
	slli	a7, a0, 2
	xor	a4, a4, ra
	xor	a2, a2, t6
	xor	s0, s0, s2
	and	a6, t2, a6
	slli	s3, a3, 2
	lw	t1, 136(sp)                     # 4-byte Folded Reload
	and	s2, t3, t1
	slli	t3, s1, 2
	and	a7, a7, t1
	slli	t4, a4, 2
	slli	t5, a2, 2
	slli	t6, s0, 2
	xor	a6, a6, t0
	and	t0, s3, t1
	xor	a5, s2, a5
	and	s3, t3, t1
	xor	s2, a7, a0
	and	a7, t4, t1
	and	t5, t5, t1
	and	t3, t6, t1
	slli	t4, a6, 2
	xor	t6, t0, a3
	slli	a0, a5, 4
	xor	s3, s3, s1
	slli	a3, s2, 4
	xor	s4, a7, a4
	xor	s6, t5, a2
	xor	s7, t3, s0
	and	a4, t4, t1
	slli	a7, t6, 4
	lw	t0, 140(sp)                     # 4-byte Folded Reload
	and	a0, a0, t0
	slli	s0, s3, 4
	and	a2, a3, t0
	slli	t3, s4, 4
	slli	t4, s6, 4
	slli	t5, s7, 4
	xor	a3, a4, a6
	and	a6, a7, t0
	xor	s10, a0, a5
	and	a7, s0, t0
	xor	s5, a2, s2
	and	a5, t3, t0
	and	s1, t4, t0
	and	a0, t5, t0
	slli	a2, a3, 4
	xor	s0, a6, t6
	xor	t6, a7, s3
	xor	a4, a5, s4
	sw	a4, 160(sp)                     # 4-byte Folded Spill
	xor	a5, s1, s6
	xor	s6, a0, s7
	and	a0, a2, t0
	xor	t5, s0, s5
	xor	s11, a0, a3
	xor	t4, t6, s0
	xor	a7, a5, s5
	xor	s1, s11, s6
	xor	s2, t4, a7
	sw	a7, 164(sp)                     # 4-byte Folded Spill
	xor	s9, s1, s10
	xor	a2, s2, a4
	xor	a0, s9, a5
	sw	a0, 148(sp)                     # 4-byte Folded Spill
	xor	s8, a2, s5
	xor	t3, a2, s11
	xor	ra, s9, t6
	and	a0, a0, s10
	xor	a3, s8, s10
	sw	a3, 152(sp)                     # 4-byte Folded Spill
	xor	a2, ra, t5
	sw	a2, 156(sp)                     # 4-byte Folded Spill
	and	a4, s8, s2
	xor	s7, s8, s1
	xor	a6, a0, t5
	xor	a0, s7, a4
	xor	a0, a6, a0
	sw	a0, 144(sp)                     # 4-byte Folded Spill
	and	a0, a3, a2
	xor	a4, t3, a4
	xor	s4, a4, a0
	xor	s3, a5, s0
	xor	t3, t3, s3
	and	a4, t3, s3
	and	a0, s7, t5
	xor	a0, a0, a4
	xor	a2, t3, s7
	sw	a2, 168(sp)                     # 4-byte Folded Spill
	and	a6, a2, a7
	xor	a4, a6, a4
	sw	a5, 80(a1)
	sw	s6, 84(a1)
	sw	s11, 88(a1)
	sw	s0, 92(a1)
	xor	a6, t3, s1
	and	a5, ra, s9
	xor	a5, a6, a5
	and	s1, a6, t4
	xor	a5, a5, s1
	xor	s1, s1, s0
	xor	s11, s9, s0
	xor	s6, t3, s10
	and	a3, s6, s11
	xor	a3, a6, a3
	xor	a3, a3, s1
	xor	s1, s4, a4
	xor	a5, a5, t4
	xor	s0, a5, a4
	lw	a5, 144(sp)                     # 4-byte Folded Reload
	xor	a5, a5, a0
	xor	a0, a0, a3
	and	a4, s0, s1
	xor	a7, a0, s0
	xor	a3, a4, a5
	and	a3, a3, a7
	xor	a7, s1, a5
	xor	s1, a4, a0
	and	a2, s1, a7
	xor	a2, a2, a5
	xor	a4, a4, a3
	xor	a3, a3, a0
	and	a0, a0, a4
	xor	s1, s1, a0
	xor	a0, a0, s0
	and	s1, s1, a2
	xor	a4, s1, a7
	sw	t6, 68(a1)
	sw	s5, 72(a1)
	lw	a5, 160(sp)                     # 4-byte Folded Reload
	sw	a5, 76(a1)
	sw	s10, 64(a1)
	lw	a5, 148(sp)                     # 4-byte Folded Reload
	and	a7, a3, a5
	and	t6, a3, s10
	and	s0, a0, s8
	and	s8, a0, s2
	xor	a0, a0, a3
	xor	a3, a3, a2
	and	s2, a2, s11
	and	s4, a2, s6
	lw	a5, 152(sp)                     # 4-byte Folded Reload
	and	a5, a5, a0
	lw	s1, 156(sp)                     # 4-byte Folded Reload
	and	s10, a0, s1
	xor	a0, a0, a4
	xor	a2, a2, a4
	and	s5, a4, s9
	and	s9, a4, ra
	xor	s1, s0, t6
	xor	s6, a5, s0
	and	s0, a2, a6
	and	t4, a2, t4
	and	a6, a3, t3
	and	a4, a3, s3
	and	t6, a0, s7
	xor	a3, a3, a0
	and	t3, a0, t5
	lw	a2, 164(sp)                     # 4-byte Folded Reload
	and	a2, a2, a3
	lw	a0, 168(sp)                     # 4-byte Folded Reload
	and	a3, a3, a0
	xor	a5, s1, s4
	xor	a0, s0, s5
	xor	t5, a5, s0
	xor	s1, t6, s1
	xor	t6, a4, t3
	xor	a2, a2, a4
	xor	a3, a3, a0
	xor	s3, s6, a0
	xor	a4, t5, s9
	xor	s1, s1, t4
	xor	a0, a2, s10
	xor	a2, a2, a4
	xor	s1, s1, a3
	xor	a3, a3, a6
	xor	a4, a0, s8
	xor	a5, s1, s2
	xor	a0, a0, a7
	xor	s0, a2, t4
	xor	a2, a2, s1
	lw	t3, 32(a1)
	lw	a6, 36(a1)
	lw	a7, 40(a1)
	lw	s4, 44(a1)
	xor	s1, t6, a3
	xor	a0, a0, a5
	not	s0, s0
	not	a2, a2
	xor	s5, s1, a5
	srli	s0, s0, 6
	srli	a2, a2, 6
	srli	a0, a0, 6
	and	s1, s0, t2
	and	a2, a2, t2
	and	a0, a0, t2
	xor	t6, s1, t3
	xor	t4, a2, a6
	xor	t3, a0, a7
	lw	s0, 48(a1)
	lw	a7, 52(a1)
	lw	a6, 56(a1)
	lw	a5, 60(a1)
	xor	a0, s3, a4
	xor	a4, a4, a3
	xor	a2, a0, t5
	xor	a3, a3, a0
	srli	a0, a0, 6
	and	a0, a0, t2
	xor	s2, a0, s0
	srli	a4, a4, 6
	and	a4, a4, t2
	xor	t5, a4, a5
	srli	a2, a2, 6
	and	a2, a2, t2
	xor	s3, a2, s4
	not	a5, s5
	srli	a5, a5, 6
	and	a5, a5, t2
	xor	a7, a5, a7
	not	a3, a3
	srli	a3, a3, 6
	and	a3, a3, t2
	xor	t2, a3, a6
	slli	s1, t6, 2
	and	s1, s1, t1
	xor	t6, s1, t6
	slli	s0, t4, 2
	and	s0, s0, t1
	xor	t4, s0, t4
	slli	a0, t3, 2
	and	a0, a0, t1
	xor	a6, a0, t3
	slli	a2, s2, 2
	and	a2, a2, t1
	xor	t3, a2, s2
	slli	a4, t5, 2
	and	a4, a4, t1
	xor	a4, a4, t5
	slli	a5, s3, 2
	and	a5, a5, t1
	xor	a5, a5, s3
	slli	a0, a7, 2
	and	a0, a0, t1
	xor	a0, a0, a7
	slli	a3, t2, 2
	and	a3, a3, t1
	xor	a3, a3, t2
	slli	s1, t6, 4
	and	s1, s1, t0
	xor	ra, s1, t6
	slli	s0, t4, 4
	and	s1, s0, t0
	xor	t4, s1, t4
	slli	s1, a6, 4
	and	s1, s1, t0
	xor	s1, s1, a6
	slli	a2, t3, 4
	and	a2, a2, t0
	xor	s0, a2, t3
	slli	a2, a4, 4
	and	a2, a2, t0
	xor	s5, a2, a4
	slli	a2, a5, 4
	and	a2, a2, t0
	xor	t2, a2, a5
	slli	a2, a0, 4
	and	a2, a2, t0
	xor	a0, a0, a2
	slli	a2, a3, 4
	and	a2, a2, t0
	xor	s3, a2, a3
	sw	ra, 96(a1)
	sw	t4, 100(a1)
	sw	s1, 104(a1)
	sw	t2, 108(a1)
	sw	s0, 112(a1)
	sw	a0, 116(a1)
	sw	s3, 120(a1)
	sw	s5, 124(a1)
	lw	a1, 176(sp)                     # 4-byte Folded Reload
	lw	t3, 172(sp)                     # 4-byte Folded Reload
	lw	a2, 180(sp)                     # 4-byte Folded Reload
	bnez	a2, .Laes_BB0_7
# %bb.8:                                # %after.1.i.i
	xor	a2, s3, a0
	xor	a7, s5, s0
	xor	t3, s5, t4
	xor	a6, s0, s1
	xor	t1, s5, s1
	xor	s8, a2, ra
	xor	s4, t3, a6
	xor	t5, s8, s0
	xor	a0, s4, t2
	xor	t2, s8, s5
	xor	s2, s8, t4
	and	a1, t5, ra
	xor	s10, a0, s1
	xor	a4, a0, s3
	xor	t4, s2, t1
	and	s3, s2, s8
	xor	s11, a4, a7
	xor	t6, s10, ra
	and	a5, s10, s4
	xor	s6, s10, a2
	and	a3, s11, a7
	xor	s7, s11, a2
	xor	t0, s11, s6
	and	a2, s6, t1
	xor	s0, t1, s6
	xor	s0, s0, a1
	and	a1, t6, t4
	xor	a4, a4, a5
	xor	a1, a1, a4
	and	a4, t0, a6
	xor	a2, a2, a3
	xor	a4, a4, a3
	xor	s9, s11, ra
	xor	a5, a5, s0
	and	s0, s7, t3
	xor	a3, s7, s3
	xor	a3, a3, s0
	xor	s0, s0, s5
	and	s1, s9, t2
	xor	s1, s7, s1
	xor	a5, a5, a2
	xor	a1, a1, a4
	xor	a3, a3, t3
	xor	s0, s0, s1
	xor	a3, a3, a4
	xor	a2, a2, s0
	xor	a0, a1, a5
	and	a1, a1, a3
	xor	s0, a2, a3
	xor	s1, a1, a5
	and	s0, s0, s1
	xor	s1, a1, a2
	and	a4, s1, a0
	xor	a5, a5, a4
	xor	a1, a1, s0
	xor	s0, s0, a2
	and	a1, a1, a2
	xor	s1, s1, a1
	xor	a1, a1, a3
	and	s1, s1, a5
	xor	a0, a0, s1
	and	t5, s0, t5
	and	a2, s0, ra
	and	a3, a1, s10
	and	s3, a1, s4
	xor	a1, a1, s0
	xor	s0, s0, a5
	and	t2, a5, t2
	and	s4, a5, s9
	and	s1, a1, t6
	and	t4, a1, t4
	xor	a1, a1, a0
	xor	a5, a5, a0
	and	s5, a0, s8
	and	t6, a0, s2
	xor	a2, a2, a3
	xor	s2, s1, a3
	and	s1, a5, s7
	and	s7, a5, t3
	and	t3, s0, s11
	and	a0, s0, a7
	and	a7, a1, s6
	xor	s0, s0, a1
	and	a1, a1, t1
	and	a4, s0, a6
	and	s0, s0, t0
	xor	a5, a2, s4
	xor	a3, s1, s5
	xor	s4, a5, s1
	xor	a2, a7, a2
	xor	a6, a0, a1
	xor	a0, a0, a4
	xor	s0, s0, a3
	xor	a7, s2, a3
	xor	a4, s4, t6
	xor	a5, a0, t4
	xor	a0, a0, a4
	lui	a4, 1048560
	addi	a4, a4, 255
	xor	a2, a2, s7
	xor	a2, a2, s0
	xor	s0, s0, t3
	xor	a3, a5, s3
	xor	a1, a2, t2
	xor	t2, a5, t5
	xor	s1, a0, s7
	xor	a0, a0, a2
	xor	a2, a6, s0
	xor	a4, a4, s0
	xor	a5, a7, a3
	xor	t3, a3, s0
	lw	s3, 184(sp)                     # 4-byte Folded Reload
	lw	a7, 384(s3)
	lw	t0, 388(s3)
	lw	t1, 392(s3)
	lw	a6, 396(s3)
	xor	a3, t2, a1
	xor	a2, a2, a1
	srli	a1, s1, 14
	slli	s1, s1, 18
	or	t2, s1, a1
	srli	a1, a0, 14
	slli	a0, a0, 18
	xor	s1, a5, s4
	xor	t4, a4, a5
	or	a0, a0, a1
	srli	a1, a3, 14
	slli	a3, a3, 18
	or	a1, a1, a3
	srli	a3, a5, 14
	slli	a5, a5, 18
	or	t5, a5, a3
	srli	a4, a2, 14
	slli	a2, a2, 18
	or	t6, a2, a4
	srli	a4, t3, 14
	slli	t3, t3, 18
	not	a5, t2
	not	a2, a0
	or	t2, t3, a4
	srli	s0, s1, 14
	slli	s1, s1, 18
	or	t3, s1, s0
	srli	s1, t4, 14
	slli	t4, t4, 18
	lw	a0, 132(sp)                     # 4-byte Folded Reload
	and	a5, a5, a0
	and	a2, a2, a0
	and	a1, a1, a0
	or	t4, t4, s1
	xor	a5, a7, a5
	xor	s2, t0, a2
	xor	t1, t1, a1
	lw	a3, 400(s3)
	lw	t0, 404(s3)
	lw	a7, 408(s3)
	lw	s0, 412(s3)
	and	a4, t5, a0
	xor	a3, a3, a4
	not	a4, t6
	and	a2, t2, a0
	and	s1, t3, a0
	and	a4, a4, a0
	and	a1, t4, a0
	xor	a2, a2, s0
	slli	s0, a5, 2
	xor	t2, a6, s1
	slli	a6, s2, 2
	xor	t4, t0, a4
	slli	a4, t1, 2
	xor	t3, a7, a1
	slli	a7, a3, 2
	lw	a0, 136(sp)                     # 4-byte Folded Reload
	and	s0, s0, a0
	xor	t6, s0, a5
	slli	t0, a2, 2
	and	s0, a6, a0
	and	a4, a4, a0
	xor	s0, s0, s2
	slli	s1, t2, 2
	and	a1, a7, a0
	xor	a6, a4, t1
	slli	a4, t4, 2
	xor	t5, a1, a3
	slli	a3, t3, 2
	and	a1, t0, a0
	and	s1, s1, a0
	and	a4, a4, a0
	and	a3, a3, a0
	xor	t0, a1, a2
	slli	a2, t6, 4
	xor	s1, s1, t2
	slli	a7, s0, 4
	xor	a1, a4, t4
	slli	a4, a6, 4
	xor	a5, a3, t3
	slli	t1, t5, 4
	lw	a0, 140(sp)                     # 4-byte Folded Reload
	and	a2, a2, a0
	xor	t2, a2, t6
	slli	t3, t0, 4
	and	a2, a7, a0
	and	a4, a4, a0
	xor	a7, a2, s0
	slli	s0, s1, 4
	and	a2, t1, a0
	xor	a6, a4, a6
	slli	a4, a1, 4
	xor	t1, a2, t5
	slli	a3, a5, 4
	and	a2, t3, a0
	and	s0, s0, a0
	and	a4, a4, a0
	and	a3, a3, a0
	xor	a0, a2, t0
	xor	s0, s0, s1
	xor	a1, a1, a4
	xor	a3, a3, a5
	sw	t2, 448(s3)
	sw	a7, 452(s3)
	sw	a6, 456(s3)
	sw	s0, 460(s3)
	sw	t1, 464(s3)
	sw	a1, 468(s3)
	sw	a3, 472(s3)
	sw	a0, 476(s3)
.Laes_BB0_9:                                # %"aes_planes::expansion::expand::<#389ec886eeff95cb>.exit"
	li	a0, 0
	lui	a6, 208899
	lui	a7, 61441
	lui	a4, 49392
	lui	a5, 12529
	lw	s1, 12(sp)                      # 4-byte Folded Reload
	srli	s1, s1, 2
	lw	a1, 16(sp)                      # 4-byte Folded Reload
	slli	s0, a1, 30
	srli	t2, a1, 2
	lw	a3, 184(sp)                     # 4-byte Folded Reload
	addi	a1, a3, 60
	addi	a2, a6, 768
	sw	a2, 172(sp)                     # 4-byte Folded Spill
	addi	a2, a7, -256
	sw	a2, 168(sp)                     # 4-byte Folded Spill
	addi	a2, a4, 768
	sw	a2, 164(sp)                     # 4-byte Folded Spill
	addi	a2, a5, -1024
	sw	a2, 160(sp)                     # 4-byte Folded Spill
	or	s0, s0, s1
	addi	a2, s0, 6
	sw	a2, 180(sp)                     # 4-byte Folded Spill
	sltu	a2, a2, s0
	add	t2, t2, a2
	li	a2, 1
	mv	s0, a3
	sw	t2, 176(sp)                     # 4-byte Folded Spill
	j	.Laes_BB0_13
.Laes_BB0_10:                               # %then.7.i
                                        #   in Loop: Header=BB0_13 Depth=1
	lw	s0, 164(sp)                     # 4-byte Folded Reload
	and	a3, a6, s0
	and	s1, a7, s0
	and	s6, t0, s0
	and	a6, t1, s0
	and	a7, t2, s0
	and	t0, s5, s0
	and	t1, s4, s0
	and	t2, s3, s0
	slli	s0, a3, 4
	add	a3, a3, s0
	slli	s0, s1, 4
	add	s0, s0, s1
	slli	s1, s6, 4
	add	s6, s6, s1
	slli	s1, a6, 4
	add	a6, a6, s1
	slli	s1, a7, 4
	add	a7, a7, s1
	slli	s1, t0, 4
	add	t0, t0, s1
	slli	s1, t1, 4
	add	t1, t1, s1
	slli	s1, t2, 4
	add	t2, t2, s1
	xor	s7, a3, s10
	xor	s4, s0, s11
	xor	t6, s6, t6
	xor	s2, a6, s2
	xor	s3, a7, s9
	xor	s5, t0, a5
	xor	t1, t1, t3
	xor	t5, t2, t5
	srli	a6, s7, 2
	srli	a7, s4, 2
	srli	t0, t6, 2
	srli	t2, s2, 2
	srli	s6, s3, 2
	srli	s8, s5, 2
	srli	s9, t1, 2
	srli	s1, t5, 2
	xor	s0, a6, s7
	xor	a3, a7, s4
	xor	t3, t0, t6
	xor	s10, t2, s2
	xor	a6, s6, s3
	xor	a7, s8, s5
	xor	t0, s9, t1
	xor	t2, s1, t5
	lw	a4, 172(sp)                     # 4-byte Folded Reload
	and	s1, s0, a4
	and	a5, a3, a4
	and	t3, t3, a4
	and	s8, s10, a4
	and	s6, a6, a4
	and	a6, a7, a4
	and	a7, t0, a4
	and	t0, t2, a4
	slli	s0, s1, 2
	add	t2, s0, s1
	slli	a3, a5, 2
	add	a3, a3, a5
	slli	a4, t3, 2
	add	a4, a4, t3
	slli	a5, s8, 2
	add	a5, a5, s8
	slli	s1, s6, 2
	add	s1, s1, s6
	slli	s0, a6, 2
	add	a6, a6, s0
	slli	s0, a7, 2
	add	a7, a7, s0
	slli	s0, t0, 2
	add	t0, t0, s0
	xor	s10, t2, s7
	xor	s11, a3, s4
	xor	t6, a4, t6
	xor	s2, a5, s2
	xor	s9, s1, s3
	xor	a5, a6, s5
	xor	t3, a7, t1
	xor	t5, t0, t5
.Laes_BB0_11:                               # %join.8.i
                                        #   in Loop: Header=BB0_13 Depth=1
	lw	s0, 184(sp)                     # 4-byte Folded Reload
	lw	t2, 176(sp)                     # 4-byte Folded Reload
.Laes_BB0_12:                               # %join.8.i
                                        #   in Loop: Header=BB0_13 Depth=1
	not	a3, s10
	not	s1, s11
	not	a5, a5
	not	a4, t3
	addi	a2, a2, 1
	sw	a3, -28(a1)
	sw	s1, -24(a1)
	sw	t6, -20(a1)
	sw	s2, -16(a1)
	sw	s9, -12(a1)
	sw	a5, -8(a1)
	sw	a4, -4(a1)
	sw	t5, 0(a1)
	seqz	a3, a2
	add	a0, a0, a3
	addi	a1, a1, 32
	beqz	t4, .Laes_BB0_22
.Laes_BB0_13:                               # %join.5.i
                                        # =>This Inner Loop Header: Depth=1
	beq	a0, t2, .Laes_BB0_15
# %bb.14:                               # %join.5.i
                                        #   in Loop: Header=BB0_13 Depth=1
	sltu	t4, a0, t2
	j	.Laes_BB0_16
.Laes_BB0_15:                               #   in Loop: Header=BB0_13 Depth=1
	lw	a3, 180(sp)                     # 4-byte Folded Reload
	sltu	t4, a2, a3
.Laes_BB0_16:                               # %join.5.i
                                        #   in Loop: Header=BB0_13 Depth=1
	slli	a3, a2, 5
	add	a3, a3, s0
	lw	s10, 0(a3)
	lw	s11, 4(a3)
	lw	t6, 8(a3)
	lw	s2, 12(a3)
	lw	s9, 16(a3)
	lw	a5, 20(a3)
	lw	t3, 24(a3)
	lw	t5, 28(a3)
	beqz	t4, .Laes_BB0_12
# %bb.17:                               # %ok.10.i
                                        #   in Loop: Header=BB0_13 Depth=1
	andi	s1, a2, 3
	li	a3, 1
	blt	a3, s1, .Laes_BB0_20
# %bb.18:                               # %ok.10.i
                                        #   in Loop: Header=BB0_13 Depth=1
	beqz	s1, .Laes_BB0_12
# %bb.19:                               # %then.1.i
                                        #   in Loop: Header=BB0_13 Depth=1
	srli	s3, s10, 4
	srli	s4, s11, 4
	srli	s5, t6, 4
	srli	s6, s2, 4
	srli	s7, s9, 4
	srli	s8, a5, 4
	srli	ra, t3, 4
	srli	s0, t5, 4
	xor	s1, s3, s10
	xor	a6, s4, s11
	xor	s3, s5, t6
	xor	s4, s6, s2
	xor	s5, s7, s9
	xor	s6, s8, a5
	xor	s7, ra, t3
	xor	s8, s0, t5
	lw	a3, 160(sp)                     # 4-byte Folded Reload
	and	s0, s1, a3
	and	a4, a6, a3
	and	ra, s3, a3
	and	s3, s4, a3
	and	s4, s5, a3
	and	s5, s6, a3
	and	s6, s7, a3
	and	s7, s8, a3
	slli	s1, s0, 4
	add	s0, s0, s1
	slli	s1, a4, 4
	add	a3, s1, a4
	slli	s1, ra, 4
	add	ra, ra, s1
	slli	s1, s3, 4
	add	s3, s3, s1
	slli	s1, s4, 4
	add	s4, s4, s1
	slli	s1, s5, 4
	add	s5, s5, s1
	slli	s1, s6, 4
	add	s6, s6, s1
	slli	s1, s7, 4
	add	s7, s7, s1
	xor	s10, s0, s10
	xor	s8, a3, s11
	xor	t6, ra, t6
	xor	s2, s3, s2
	xor	s3, s4, s9
	xor	ra, s5, a5
	xor	t2, s6, t3
	xor	t5, s7, t5
	srli	s4, s10, 2
	srli	s5, s8, 2
	srli	s6, t6, 2
	srli	s7, s2, 2
	srli	s9, s3, 2
	srli	s11, ra, 2
	srli	s1, t2, 2
	srli	s0, t5, 2
	xor	a3, s4, s10
	xor	a5, s5, s8
	xor	s4, s6, t6
	xor	s5, s7, s2
	xor	s6, s9, s3
	xor	s7, s11, ra
	xor	s11, s1, t2
	xor	s9, s0, t5
	lw	a4, 172(sp)                     # 4-byte Folded Reload
	and	a6, a3, a4
	and	a7, a5, a4
	and	t0, s4, a4
	and	t1, s5, a4
	and	s4, s6, a4
	and	s5, s7, a4
	and	s6, s11, a4
	and	s7, s9, a4
	slli	a3, a6, 2
	add	a6, a6, a3
	slli	a5, a7, 2
	add	a5, a5, a7
	slli	s0, t0, 2
	add	t0, t0, s0
	slli	s1, t1, 2
	add	t1, t1, s1
	slli	s1, s4, 2
	add	s1, s1, s4
	slli	s0, s5, 2
	add	s5, s5, s0
	slli	a4, s6, 2
	add	a4, a4, s6
	slli	a3, s7, 2
	add	a3, a3, s7
	xor	s10, a6, s10
	xor	s11, a5, s8
	lw	s0, 184(sp)                     # 4-byte Folded Reload
	xor	t6, t0, t6
	xor	s2, t1, s2
	xor	s9, s1, s3
	xor	a5, s5, ra
	xor	t3, a4, t2
	lw	t2, 176(sp)                     # 4-byte Folded Reload
	xor	t5, a3, t5
	j	.Laes_BB0_12
.Laes_BB0_20:                               # %ok.10.i
                                        #   in Loop: Header=BB0_13 Depth=1
	li	ra, 2
	srli	s0, s10, 4
	srli	a3, s11, 4
	srli	s8, t6, 4
	srli	s7, s2, 4
	srli	s6, s9, 4
	srli	s5, a5, 4
	srli	s4, t3, 4
	srli	s3, t5, 4
	xor	a6, s0, s10
	xor	a7, a3, s11
	xor	t0, s8, t6
	xor	t1, s7, s2
	xor	t2, s6, s9
	xor	s5, s5, a5
	xor	s4, s4, t3
	xor	s3, s3, t5
	bne	s1, ra, .Laes_BB0_10
# %bb.21:                               # %then.4.i
                                        #   in Loop: Header=BB0_13 Depth=1
	lw	s0, 168(sp)                     # 4-byte Folded Reload
	and	a3, a6, s0
	and	s1, a7, s0
	and	s6, t0, s0
	and	a6, t1, s0
	and	a7, t2, s0
	and	t0, s5, s0
	and	t1, s4, s0
	and	t2, s3, s0
	slli	s0, a3, 4
	add	s3, s0, a3
	slli	s0, s1, 4
	add	s4, s0, s1
	slli	s1, s6, 4
	add	s1, s1, s6
	slli	a3, a6, 4
	add	a3, a3, a6
	slli	s0, a7, 4
	add	a7, a7, s0
	slli	s0, t0, 4
	add	t0, t0, s0
	slli	s0, t1, 4
	add	t1, t1, s0
	slli	s0, t2, 4
	add	t2, t2, s0
	xor	s10, s3, s10
	xor	s11, s4, s11
	xor	t6, s1, t6
	xor	s2, a3, s2
	xor	s9, a7, s9
	xor	a5, t0, a5
	xor	t3, t1, t3
	xor	t5, t2, t5
	j	.Laes_BB0_11
.Laes_BB0_22:                               # %"aes_soft::soft::key_layout::store::<#dfb00681c6d298fe>.exit"
	lw	ra, 268(sp)                     # 4-byte Folded Reload
	lw	s0, 264(sp)                     # 4-byte Folded Reload
	lw	s1, 260(sp)                     # 4-byte Folded Reload
	lw	s2, 256(sp)                     # 4-byte Folded Reload
	lw	s3, 252(sp)                     # 4-byte Folded Reload
	lw	s4, 248(sp)                     # 4-byte Folded Reload
	lw	s5, 244(sp)                     # 4-byte Folded Reload
	lw	s6, 240(sp)                     # 4-byte Folded Reload
	lw	s7, 236(sp)                     # 4-byte Folded Reload
	lw	s8, 232(sp)                     # 4-byte Folded Reload
	lw	s9, 228(sp)                     # 4-byte Folded Reload
	lw	s10, 224(sp)                    # 4-byte Folded Reload
	lw	s11, 220(sp)                    # 4-byte Folded Reload
	addi	sp, sp, 272
	ret
.Laes_func_end0:
	.size	aes.aes_narrow.word_room.expand_words, .Laes_func_end0-aes.aes_narrow.word_room.expand_words
                                        # -- End function
	.section	.text.aes.aes_planes.soft.word.word32.U32Word.in_every_slot,"ax",@progbits
	.p2align	1                               # -- Begin function aes_planes::soft::word::word32::U32Word::in_every_slot
	.type	aes.aes_planes.soft.word.word32.U32Word.in_every_slot,@function
aes.aes_planes.soft.word.word32.U32Word.in_every_slot: # @aes.aes_planes.soft.word.word32.U32Word.in_every_slot
# %bb.0:                                # %start
	addi	sp, sp, -64
	sw	ra, 60(sp)                      # 4-byte Folded Spill
	sw	s0, 56(sp)                      # 4-byte Folded Spill
	sw	s1, 52(sp)                      # 4-byte Folded Spill
	sw	s2, 48(sp)                      # 4-byte Folded Spill
	sw	s3, 44(sp)                      # 4-byte Folded Spill
	sw	s4, 40(sp)                      # 4-byte Folded Spill
	sw	s5, 36(sp)                      # 4-byte Folded Spill
	sw	s6, 32(sp)                      # 4-byte Folded Spill
	sw	s7, 28(sp)                      # 4-byte Folded Spill
	sw	s8, 24(sp)                      # 4-byte Folded Spill
	sw	s9, 20(sp)                      # 4-byte Folded Spill
	sw	s10, 16(sp)                     # 4-byte Folded Spill
	sw	s11, 12(sp)                     # 4-byte Folded Spill
	lbu	a6, 0(a1)
	lbu	a7, 1(a1)
	lbu	t1, 2(a1)
	lbu	t5, 3(a1)
	lbu	t0, 4(a1)
	lbu	t3, 5(a1)
	lbu	t4, 6(a1)
	lbu	s5, 7(a1)
	lbu	t2, 8(a1)
	lbu	s2, 9(a1)
	lbu	s3, 10(a1)
	lbu	a5, 11(a1)
	lbu	t6, 12(a1)
	lbu	s0, 13(a1)
	lbu	s1, 14(a1)
	lbu	a1, 15(a1)
	lui	s4, 349525
	lui	a3, 209715
	lui	a2, 61681
	addi	s10, s4, 1365
	addi	s8, a3, 819
	addi	s4, a2, -241
	slli	t5, t5, 24
	slli	t1, t1, 16
	slli	a7, a7, 8
	slli	s5, s5, 24
	slli	t4, t4, 16
	slli	t3, t3, 8
	slli	s6, a5, 24
	slli	s3, s3, 16
	slli	s2, s2, 8
	slli	s7, a1, 24
	slli	s9, s1, 16
	slli	s0, s0, 8
	or	a6, a7, a6
	or	a5, t1, t5
	or	a7, t3, t0
	or	a3, t4, s5
	or	s1, s2, t2
	or	a2, s3, s6
	or	s0, s0, t6
	or	a1, s9, s7
	or	a5, a6, a5
	or	a3, a7, a3
	or	a2, a2, s1
	or	a1, a1, s0
	srli	s1, a5, 1
	srli	s0, a3, 1
	srli	a6, a2, 1
	srli	a7, a1, 1
	xor	s1, s1, a5
	xor	s0, s0, a3
	xor	a6, a2, a6
	xor	a7, a1, a7
	and	s1, s1, s10
	and	s0, s0, s10
	and	a4, a6, s10
	and	a6, a7, s10
	slli	a7, s1, 1
	xor	t0, s1, a5
	slli	t1, s0, 1
	xor	t3, s0, a3
	slli	s1, a4, 1
	xor	t2, a4, a2
	slli	a4, a6, 1
	xor	s0, a6, a1
	xor	t4, a7, a5
	xor	a3, t1, a3
	xor	t1, s1, a2
	xor	a1, a1, a4
	srli	a4, t0, 2
	srli	s1, t2, 2
	srli	a5, t4, 2
	srli	a2, t1, 2
	xor	a4, t3, a4
	xor	s1, s1, s0
	xor	a5, a5, a3
	xor	a2, a2, a1
	and	a4, a4, s8
	and	s1, s1, s8
	and	a5, a5, s8
	and	a2, a2, s8
	slli	a7, a4, 2
	xor	t3, a4, t3
	slli	a4, s1, 2
	xor	s0, s0, s1
	slli	s1, a5, 2
	xor	a6, a5, a3
	slli	a3, a2, 2
	xor	t6, a2, a1
	xor	a7, a7, t0
	xor	a4, a4, t2
	srli	a1, t3, 4
	xor	t4, s1, t4
	xor	t5, a3, t1
	srli	a3, a7, 4
	srli	a5, a6, 4
	xor	a1, a1, s0
	srli	s1, t4, 4
	xor	a3, a3, a4
	xor	a5, t6, a5
	and	a1, a1, s4
	xor	s1, t5, s1
	and	a3, a3, s4
	and	a2, a5, s4
	slli	a5, a1, 4
	xor	s2, a1, s0
	and	s1, s1, s4
	slli	t0, a3, 4
	xor	s4, a3, a4
	slli	t2, a2, 4
	xor	s3, a2, t6
	xor	a2, a5, t3
	srli	t1, s2, 24
	srli	t3, s2, 16
	srli	t6, s2, 8
	slli	a5, s1, 4
	xor	s1, s1, t5
	xor	a4, t0, a7
	xor	a1, t2, a6
	srli	a6, a2, 24
	srli	a3, a2, 16
	srli	s0, a2, 8
	srli	a7, s4, 24
	srli	t0, s4, 16
	srli	t2, s4, 8
	srli	t5, s3, 24
	srli	s5, s3, 16
	srli	s6, s3, 8
	xor	a5, a5, t4
	srli	t4, a4, 24
	srli	s7, a4, 16
	srli	s8, a4, 8
	srli	s9, a1, 24
	srli	s10, a1, 16
	srli	s11, a1, 8
	sb	a2, 12(a0)
	sb	s0, 13(a0)
	sb	a3, 14(a0)
	sb	a6, 15(a0)
	srli	a6, s1, 24
	srli	ra, s1, 16
	sb	s4, 20(a0)
	sb	t2, 21(a0)
	sb	t0, 22(a0)
	sb	a7, 23(a0)
	srli	s0, s1, 8
	sb	s3, 24(a0)
	sb	s6, 25(a0)
	sb	s5, 26(a0)
	sb	t5, 27(a0)
	srli	a2, a5, 24
	srli	a3, a5, 16
	sb	a4, 4(a0)
	sb	s8, 5(a0)
	sb	s7, 6(a0)
	sb	t4, 7(a0)
	srli	a4, a5, 8
	sb	a1, 8(a0)
	sb	s11, 9(a0)
	sb	s10, 10(a0)
	sb	s9, 11(a0)
	sb	s1, 16(a0)
	sb	s0, 17(a0)
	sb	ra, 18(a0)
	sb	a6, 19(a0)
	sb	a5, 0(a0)
	sb	a4, 1(a0)
	sb	a3, 2(a0)
	sb	a2, 3(a0)
	sb	s2, 28(a0)
	sb	t6, 29(a0)
	sb	t3, 30(a0)
	sb	t1, 31(a0)
	lw	ra, 60(sp)                      # 4-byte Folded Reload
	lw	s0, 56(sp)                      # 4-byte Folded Reload
	lw	s1, 52(sp)                      # 4-byte Folded Reload
	lw	s2, 48(sp)                      # 4-byte Folded Reload
	lw	s3, 44(sp)                      # 4-byte Folded Reload
	lw	s4, 40(sp)                      # 4-byte Folded Reload
	lw	s5, 36(sp)                      # 4-byte Folded Reload
	lw	s6, 32(sp)                      # 4-byte Folded Reload
	lw	s7, 28(sp)                      # 4-byte Folded Reload
	lw	s8, 24(sp)                      # 4-byte Folded Reload
	lw	s9, 20(sp)                      # 4-byte Folded Reload
	lw	s10, 16(sp)                     # 4-byte Folded Reload
	lw	s11, 12(sp)                     # 4-byte Folded Reload
	addi	sp, sp, 64
	ret
.Laes_func_end1:
	.size	aes.aes_planes.soft.word.word32.U32Word.in_every_slot, .Laes_func_end1-aes.aes_planes.soft.word.word32.U32Word.in_every_slot
                                        # -- End function
	.section	.text.aes.aes_cipher.zeroize.stack.wipe_stack.768,"ax",@progbits
	.p2align	1                               # -- Begin function aes_cipher::zeroize::stack::wipe_stack::<=768>
	.type	aes.aes_cipher.zeroize.stack.wipe_stack.768,@function
aes.aes_cipher.zeroize.stack.wipe_stack.768: # @aes.aes_cipher.zeroize.stack.wipe_stack.768
# %bb.0:                                # %start
	addi	sp, sp, -784
	sw	ra, 780(sp)                     # 4-byte Folded Spill
	sw	s0, 776(sp)                     # 4-byte Folded Spill
	addi	a0, sp, 8
	li	a2, 768
	addi	s0, sp, 8
	li	a1, 0
	call	memset
	sw	zero, 0(sp)
	sw	zero, 4(sp)
	#APP
	#NO_APP
	lw	a0, 0(sp)
	lw	a1, 4(sp)
	#APP
	#NO_APP
	seqz	a1, a1
	sltiu	a2, a0, 768
	and	a1, a1, a2
	beqz	a1, .Laes_BB2_2
# %bb.1:                                # %then.1
	add	a0, a0, s0
	lbu	a0, 0(a0)
	#APP
	#NO_APP
	lw	zero, 4(sp)
	lw	zero, 0(sp)
	sw	zero, 4(sp)
	sw	a0, 0(sp)
	#APP
	#NO_APP
.Laes_BB2_2:                                # %common.ret
	lw	ra, 780(sp)                     # 4-byte Folded Reload
	lw	s0, 776(sp)                     # 4-byte Folded Reload
	addi	sp, sp, 784
	ret
.Laes_func_end2:
	.size	aes.aes_cipher.zeroize.stack.wipe_stack.768, .Laes_func_end2-aes.aes_cipher.zeroize.stack.wipe_stack.768
                                        # -- End function
	.section	.text.aes.aes_ctr.add_in_batches.add_keystream,"ax",@progbits
	.p2align	1                               # -- Begin function aes_ctr::add_in_batches::add_keystream::<#4f733d09d7f6c6b4>
	.type	aes.aes_ctr.add_in_batches.add_keystream,@function
aes.aes_ctr.add_in_batches.add_keystream: # @aes.aes_ctr.add_in_batches.add_keystream
# %bb.0:                                # %start
	addi	sp, sp, -144
	sw	ra, 140(sp)                     # 4-byte Folded Spill
	sw	s0, 136(sp)                     # 4-byte Folded Spill
	sw	s1, 132(sp)                     # 4-byte Folded Spill
	sw	s2, 128(sp)                     # 4-byte Folded Spill
	sw	s3, 124(sp)                     # 4-byte Folded Spill
	sw	s4, 120(sp)                     # 4-byte Folded Spill
	sw	s5, 116(sp)                     # 4-byte Folded Spill
	sw	s6, 112(sp)                     # 4-byte Folded Spill
	sw	s7, 108(sp)                     # 4-byte Folded Spill
	sw	s8, 104(sp)                     # 4-byte Folded Spill
	sw	s9, 100(sp)                     # 4-byte Folded Spill
	sw	s10, 96(sp)                     # 4-byte Folded Spill
	sw	s11, 92(sp)                     # 4-byte Folded Spill
	mv	s5, a6
	mv	s11, a5
	mv	s3, a4
	lbu	a6, 12(a1)
	lbu	a7, 13(a1)
	lbu	s1, 14(a1)
	lbu	s0, 15(a1)
	lbu	a4, 8(a1)
	lbu	a5, 9(a1)
	lbu	t0, 10(a1)
	lbu	t1, 11(a1)
	slli	a7, a7, 8
	slli	s1, s1, 16
	slli	s0, s0, 24
	slli	a5, a5, 8
	or	a6, a7, a6
	or	t2, s0, s1
	or	a7, a5, a4
	lbu	a5, 4(a1)
	lbu	s1, 5(a1)
	lbu	a4, 6(a1)
	lbu	s0, 7(a1)
	slli	t0, t0, 16
	slli	t1, t1, 24
	slli	s1, s1, 8
	slli	a4, a4, 16
	slli	s0, s0, 24
	or	t0, t1, t0
	or	t1, s1, a5
	or	a4, a4, s0
	lbu	s1, 1(a1)
	lbu	s0, 0(a1)
	lbu	a5, 2(a1)
	lbu	a1, 3(a1)
	slli	s1, s1, 8
	or	s0, s0, s1
	slli	a5, a5, 16
	slli	a1, a1, 24
	or	a1, a1, a5
	or	a6, t2, a6
	or	s1, t0, a7
	or	a4, a4, t1
	andi	a5, a2, 15
	or	s0, s0, a1
	sltiu	a1, a5, 17
	addi	a1, a1, -1
	sw	s0, 24(sp)
	sw	a4, 28(sp)
	sw	s1, 32(sp)
	sw	a6, 36(sp)
	sw	zero, 40(sp)
	sw	zero, 44(sp)
	beq	s5, a1, .Laes_BB3_11
# %bb.1:                                # %start
	sltu	a1, a1, s5
	bnez	a1, .Laes_BB3_12
.Laes_BB3_2:                                # %then.1.i
	sw	a5, 16(sp)                      # 4-byte Folded Spill
	lbu	s1, 0(a0)
	lbu	s0, 1(a0)
	lbu	t1, 2(a0)
	lbu	t2, 3(a0)
	lbu	a6, 8(a0)
	lbu	t3, 9(a0)
	lbu	t4, 10(a0)
	lbu	a1, 11(a0)
	lbu	a5, 12(a0)
	lbu	a4, 13(a0)
	lbu	t0, 14(a0)
	lbu	t5, 15(a0)
	srli	a2, a2, 4
	slli	a0, a3, 28
	srli	a7, a3, 4
	or	s7, a2, a0
	slli	a2, s0, 8
	or	t6, a2, s1
	lw	s9, 24(sp)
	lbu	a0, 28(sp)
	lbu	a2, 29(sp)
	lbu	s6, 30(sp)
	slli	t1, t1, 16
	slli	t2, t2, 24
	slli	t3, t3, 8
	slli	t4, t4, 16
	slli	a1, a1, 24
	slli	a4, a4, 8
	or	s8, t2, t1
	or	t1, t3, a6
	or	a1, a1, t4
	or	t2, a4, a5
	lbu	a6, 31(sp)
	lw	a5, 32(sp)
	lbu	a3, 36(sp)
	lbu	a4, 37(sp)
	slli	t0, t0, 16
	slli	t5, t5, 24
	slli	a0, a0, 24
	slli	a2, a2, 16
	or	t5, t5, t0
	or	t0, a0, a2
	lbu	t3, 38(sp)
	lbu	t4, 39(sp)
	slli	a3, a3, 24
	slli	a4, a4, 16
	or	s10, a3, a4
	lui	a0, 16
	addi	a4, a0, -256
	or	a0, s8, t6
	srli	s1, s9, 8
	or	a1, a1, t1
	srli	s0, s9, 24
	or	a2, t5, t2
	and	a3, s9, a4
	slli	s9, s9, 24
	slli	s6, s6, 8
	and	s1, s1, a4
	or	t1, s1, s0
	srli	s1, a5, 8
	slli	a3, a3, 8
	or	t2, s9, a3
	srli	s0, a5, 24
	and	s1, s1, a4
	and	a4, a4, a5
	slli	a5, a5, 24
	slli	t3, t3, 8
	slli	a4, a4, 8
	or	a3, t0, s6
	or	s1, s1, s0
	or	a4, a4, a5
	or	s0, s10, t3
	or	t0, t2, t1
	or	a6, a3, a6
	or	a4, a4, s1
	or	a5, s0, t4
	sltu	t1, a6, a3
	sltu	a3, a5, s0
	add	a4, a4, a7
	add	a5, a5, s7
	add	a3, a3, a4
	sltu	s1, a5, s7
	add	a3, a3, s1
	add	t0, t0, t1
	beq	a3, a7, .Laes_BB3_4
# %bb.3:                                # %then.1.i
	sltu	s1, a3, a7
.Laes_BB3_4:                                # %then.1.i
	add	s1, s1, a6
	srli	a7, a3, 8
	srli	t5, a3, 16
	srli	s6, a3, 24
	srli	t1, a5, 8
	srli	t2, a5, 16
	srli	t3, a5, 24
	srli	t4, s1, 8
	srli	t6, s1, 16
	srli	a4, s1, 24
	sltu	s0, s1, a6
	sb	s6, 84(sp)
	sb	t5, 85(sp)
	sb	a7, 86(sp)
	sb	a3, 87(sp)
	add	t0, t0, s0
	sb	a4, 80(sp)
	sb	t6, 81(sp)
	sb	t4, 82(sp)
	sb	s1, 83(sp)
	srli	a3, t0, 8
	srli	a4, t0, 16
	srli	s1, t0, 24
	sb	s1, 76(sp)
	sb	a4, 77(sp)
	sb	a3, 78(sp)
	sb	t0, 79(sp)
	sb	t3, 88(sp)
	sb	t2, 89(sp)
	sb	t1, 90(sp)
	sb	a5, 91(sp)
	addi	a3, sp, 76
	li	a4, 1
	li	a5, 0
	call	aes.aes_narrow.blocks.process_all_batches.1
	call	aes.aes_cipher.zeroize.stack.wipe_stack.1024
	li	s2, 0
	lw	s1, 16(sp)                      # 4-byte Folded Reload
	beqz	s1, .Laes_BB3_13
# %bb.5:                                # %then.1.i
	or	a2, s11, s5
	mv	s4, s2
	beqz	a2, .Laes_BB3_14
# %bb.6:                                # %join.8.i72.i.i.preheader
	li	a0, 0
	li	a1, 0
	j	.Laes_BB3_8
.Laes_BB3_7:                                # %join.8.i72.i.i
                                        #   in Loop: Header=BB3_8 Depth=1
	sltu	a2, a1, s5
	beqz	a2, .Laes_BB3_10
.Laes_BB3_8:                                # %join.8.i72.i.i
                                        # =>This Inner Loop Header: Depth=1
	add	a2, a0, s1
	addi	a3, sp, 76
	add	a4, s3, a0
	add	a2, a2, a3
	lbu	a3, 0(a4)
	lbu	a2, 0(a2)
	addi	a0, a0, 1
	xor	a2, a2, a3
	seqz	a3, a0
	add	a1, a1, a3
	sb	a2, 0(a4)
	bne	a1, s5, .Laes_BB3_7
# %bb.9:                                #   in Loop: Header=BB3_8 Depth=1
	sltu	a2, a0, s11
	bnez	a2, .Laes_BB3_8
.Laes_BB3_10:
	mv	s2, s11
	mv	s4, s5
	j	.Laes_BB3_14
.Laes_BB3_11:
	li	a1, 16
	sub	a1, a1, a5
	sltu	a1, a1, s11
	beqz	a1, .Laes_BB3_2
.Laes_BB3_12:                               # %else.2.i
	addi	a1, sp, 24
	sw	zero, 60(sp)
	sw	s11, 64(sp)
	sw	s5, 68(sp)
	lbu	a4, 0(a0)
	lbu	a5, 1(a0)
	lbu	s1, 2(a0)
	lbu	s0, 3(a0)
	sw	a1, 40(sp)
	sw	a2, 48(sp)
	sw	a3, 52(sp)
	sw	s3, 56(sp)
	slli	a5, a5, 8
	or	a4, a4, a5
	lbu	a1, 8(a0)
	lbu	a2, 9(a0)
	lbu	a3, 10(a0)
	lbu	a5, 11(a0)
	slli	s1, s1, 16
	slli	s0, s0, 24
	slli	a2, a2, 8
	slli	a3, a3, 16
	slli	a5, a5, 24
	or	s0, s0, s1
	or	a1, a1, a2
	or	a3, a3, a5
	lbu	a2, 13(a0)
	lbu	a5, 12(a0)
	lbu	s1, 14(a0)
	lbu	a0, 15(a0)
	slli	a2, a2, 8
	or	a2, a2, a5
	slli	s1, s1, 16
	slli	a0, a0, 24
	or	s1, s1, a0
	or	a0, s0, a4
	or	a1, a1, a3
	or	a2, a2, s1
	addi	a3, sp, 40
	call	aes.aes_narrow.borrowed_words.call_to_encrypt
	call	aes.aes_cipher.zeroize.stack.wipe_stack.2032
	j	.Laes_BB3_24
.Laes_BB3_13:
	mv	s4, s2
.Laes_BB3_14:                               # %join.3.i.i.i
	sltu	a3, s11, s2
	sub	a4, s5, s4
	sw	s11, 12(sp)                     # 4-byte Folded Spill
	sub	s8, s11, s2
	sub	s6, a4, a3
	seqz	a3, s6
	sltiu	a5, s8, 16
	and	a3, a3, a5
	bnez	a3, .Laes_BB3_16
.Laes_BB3_15:                               # %join.8.i.i.i
                                        # =>This Inner Loop Header: Depth=1
	mv	a2, s2
	add	a4, s2, s1
	addi	t3, sp, 76
	addi	s2, s2, 16
	add	a3, s3, a2
	andi	a0, a4, -16
	sltu	s6, s2, a2
	lbu	t1, 8(a3)
	lbu	t0, 9(a3)
	lbu	a7, 10(a3)
	lbu	a6, 11(a3)
	lbu	t6, 4(a3)
	lbu	t2, 5(a3)
	lbu	t5, 6(a3)
	lbu	t4, 7(a3)
	lbu	s11, 0(a3)
	lbu	s9, 1(a3)
	lbu	s7, 2(a3)
	lbu	s10, 3(a3)
	lw	a1, 12(sp)                      # 4-byte Folded Reload
	sltu	a4, a1, s2
	sub	s8, a1, s2
	add	t3, t3, a0
	add	s4, s4, s6
	sub	a4, s5, a4
	sltiu	s0, s8, 16
	lbu	s1, 0(t3)
	lbu	a5, 1(t3)
	lbu	a2, 2(t3)
	lbu	a0, 3(t3)
	sub	s6, a4, s4
	seqz	a4, s6
	and	a4, a4, s0
	sw	a4, 20(sp)                      # 4-byte Folded Spill
	xor	s11, s1, s11
	lbu	s1, 4(t3)
	lbu	a4, 5(t3)
	lbu	s0, 6(t3)
	mv	ra, s5
	mv	s5, s3
	lbu	s3, 7(t3)
	xor	a5, a5, s9
	xor	s9, a2, s7
	xor	s7, a0, s10
	xor	t6, s1, t6
	lbu	a0, 8(t3)
	lbu	a2, 9(t3)
	lbu	a1, 10(t3)
	lbu	s1, 11(t3)
	xor	s10, a4, t2
	xor	t5, s0, t5
	xor	t2, s3, t4
	xor	t1, a0, t1
	lbu	a4, 12(a3)
	lbu	s0, 13(a3)
	lbu	s3, 14(a3)
	lbu	t4, 15(a3)
	xor	t0, a2, t0
	xor	a7, a1, a7
	xor	a6, s1, a6
	lbu	a1, 12(t3)
	lbu	a2, 13(t3)
	lbu	s1, 14(t3)
	lbu	a0, 15(t3)
	xor	a1, a1, a4
	xor	a2, a2, s0
	xor	a4, s1, s3
	mv	s3, s5
	mv	s5, ra
	xor	a0, a0, t4
	sb	a1, 12(a3)
	sb	a2, 13(a3)
	sb	a4, 14(a3)
	sb	a0, 15(a3)
	sb	t1, 8(a3)
	sb	t0, 9(a3)
	sb	a7, 10(a3)
	sb	a6, 11(a3)
	lw	s1, 16(sp)                      # 4-byte Folded Reload
	sb	t6, 4(a3)
	sb	s10, 5(a3)
	sb	t5, 6(a3)
	sb	t2, 7(a3)
	sb	s11, 0(a3)
	sb	a5, 1(a3)
	sb	s9, 2(a3)
	sb	s7, 3(a3)
	lw	a0, 20(sp)                      # 4-byte Folded Reload
	beqz	a0, .Laes_BB3_15
.Laes_BB3_16:                               # %after.4.i.i.i
	beq	s4, s5, .Laes_BB3_18
# %bb.17:                               # %after.4.i.i.i
	sltu	a1, s4, s5
	bnez	a1, .Laes_BB3_19
	j	.Laes_BB3_24
.Laes_BB3_18:
	lw	a0, 12(sp)                      # 4-byte Folded Reload
	sltu	a1, s2, a0
	beqz	a1, .Laes_BB3_24
.Laes_BB3_19:                               # %then.9.i.i.i
	or	a0, s8, s6
	beqz	a0, .Laes_BB3_24
# %bb.20:                               # %join.8.i15.i.i.preheader
	li	a1, 0
	li	s0, 0
	add	a0, s2, s1
	addi	a5, sp, 76
	andi	a0, a0, -16
	add	a5, a5, a0
	add	a0, s3, s2
	j	.Laes_BB3_22
.Laes_BB3_21:                               #   in Loop: Header=BB3_22 Depth=1
	sltu	s1, a1, s8
	beqz	s1, .Laes_BB3_24
.Laes_BB3_22:                               # %join.8.i15.i.i
                                        # =>This Inner Loop Header: Depth=1
	add	a2, a5, a1
	add	a4, a0, a1
	lbu	a2, 0(a2)
	lbu	s1, 0(a4)
	addi	a1, a1, 1
	xor	a2, a2, s1
	seqz	a3, a1
	add	s0, s0, a3
	sb	a2, 0(a4)
	beq	s0, s6, .Laes_BB3_21
# %bb.23:                               # %join.8.i15.i.i
                                        #   in Loop: Header=BB3_22 Depth=1
	sltu	s1, s0, s6
	bnez	s1, .Laes_BB3_22
.Laes_BB3_24:                               # %"aes_ctr::add_in_batches::add_stream::<#72982bb057555e7c>.exit"
	lw	ra, 140(sp)                     # 4-byte Folded Reload
	lw	s0, 136(sp)                     # 4-byte Folded Reload
	lw	s1, 132(sp)                     # 4-byte Folded Reload
	lw	s2, 128(sp)                     # 4-byte Folded Reload
	lw	s3, 124(sp)                     # 4-byte Folded Reload
	lw	s4, 120(sp)                     # 4-byte Folded Reload
	lw	s5, 116(sp)                     # 4-byte Folded Reload
	lw	s6, 112(sp)                     # 4-byte Folded Reload
	lw	s7, 108(sp)                     # 4-byte Folded Reload
	lw	s8, 104(sp)                     # 4-byte Folded Reload
	lw	s9, 100(sp)                     # 4-byte Folded Reload
	lw	s10, 96(sp)                     # 4-byte Folded Reload
	lw	s11, 92(sp)                     # 4-byte Folded Reload
	addi	sp, sp, 144
	ret
.Laes_func_end3:
	.size	aes.aes_ctr.add_in_batches.add_keystream, .Laes_func_end3-aes.aes_ctr.add_in_batches.add_keystream
                                        # -- End function
	.section	.text.aes.aes_narrow.blocks.process_all_batches.1,"ax",@progbits
	.p2align	1                               # -- Begin function aes_narrow::blocks::process_all_batches::<#1a21aa7f601e7603>
	.type	aes.aes_narrow.blocks.process_all_batches.1,@function
aes.aes_narrow.blocks.process_all_batches.1: # @aes.aes_narrow.blocks.process_all_batches.1
# %bb.0:                                # %start
	addi	sp, sp, -48
	sw	ra, 44(sp)                      # 4-byte Folded Spill
	sw	s0, 40(sp)                      # 4-byte Folded Spill
	sw	s1, 36(sp)                      # 4-byte Folded Spill
	sw	s2, 32(sp)                      # 4-byte Folded Spill
	sw	s3, 28(sp)                      # 4-byte Folded Spill
	sw	s4, 24(sp)                      # 4-byte Folded Spill
	sw	s5, 20(sp)                      # 4-byte Folded Spill
	sw	s6, 16(sp)                      # 4-byte Folded Spill
	sw	s7, 12(sp)                      # 4-byte Folded Spill
	mv	s4, a1
	or	a1, a4, a5
	beqz	a1, .Laes_BB4_7
# %bb.1:                                # %join.5.preheader
	mv	s6, a5
	mv	s7, a4
	mv	s2, a3
	mv	s3, a2
	mv	s5, a0
	li	a0, 0
	li	s0, 0
	j	.Laes_BB4_3
.Laes_BB4_2:                                # %join.5
                                        #   in Loop: Header=BB4_3 Depth=1
	sltu	a1, s0, s6
	mv	a0, s1
	beqz	a1, .Laes_BB4_7
.Laes_BB4_3:                                # %join.5
                                        # =>This Inner Loop Header: Depth=1
	sltu	a1, s7, a0
	sub	a2, s6, s0
	sub	a2, a2, a1
	sub	a1, s7, a0
	seqz	a2, a2
	addi	a2, a2, -1
	or	a4, a2, a1
	li	a1, 2
	bltu	a4, a1, .Laes_BB4_5
# %bb.4:                                # %join.5
                                        #   in Loop: Header=BB4_3 Depth=1
	li	a4, 2
.Laes_BB4_5:                                # %join.5
                                        #   in Loop: Header=BB4_3 Depth=1
	add	s1, a4, a0
	slli	a0, a0, 4
	sltu	a1, s1, a4
	add	s0, s0, a1
	add	a3, s2, a0
	mv	a0, s5
	mv	a1, s4
	mv	a2, s3
	li	a5, 0
	call	aes.aes_soft.soft.blocks.filled_up.process_filled_up.1
	bne	s0, s6, .Laes_BB4_2
# %bb.6:                                #   in Loop: Header=BB4_3 Depth=1
	sltu	a1, s1, s7
	mv	a0, s1
	bnez	a1, .Laes_BB4_3
.Laes_BB4_7:                                # %after.1
	lw	ra, 44(sp)                      # 4-byte Folded Reload
	lw	s0, 40(sp)                      # 4-byte Folded Reload
	lw	s1, 36(sp)                      # 4-byte Folded Reload
	lw	s2, 32(sp)                      # 4-byte Folded Reload
	lw	s3, 28(sp)                      # 4-byte Folded Reload
	lw	s4, 24(sp)                      # 4-byte Folded Reload
	lw	s5, 20(sp)                      # 4-byte Folded Reload
	lw	s6, 16(sp)                      # 4-byte Folded Reload
	lw	s7, 12(sp)                      # 4-byte Folded Reload
	addi	sp, sp, 48
	ret
.Laes_func_end4:
	.size	aes.aes_narrow.blocks.process_all_batches.1, .Laes_func_end4-aes.aes_narrow.blocks.process_all_batches.1
                                        # -- End function
	.section	.text.aes.aes_soft.soft.blocks.filled_up.process_filled_up.1,"ax",@progbits
	.p2align	1                               # -- Begin function aes_soft::soft::blocks::filled_up::process_filled_up::<#1a21aa7f601e7603>
	.type	aes.aes_soft.soft.blocks.filled_up.process_filled_up.1,@function
aes.aes_soft.soft.blocks.filled_up.process_filled_up.1: # @aes.aes_soft.soft.blocks.filled_up.process_filled_up.1
# %bb.0:                                # %start
	addi	sp, sp, -160
	sw	ra, 156(sp)                     # 4-byte Folded Spill
	sw	s0, 152(sp)                     # 4-byte Folded Spill
	sw	s1, 148(sp)                     # 4-byte Folded Spill
	sw	s2, 144(sp)                     # 4-byte Folded Spill
	sw	s3, 140(sp)                     # 4-byte Folded Spill
	sw	s4, 136(sp)                     # 4-byte Folded Spill
	sw	s5, 132(sp)                     # 4-byte Folded Spill
	sw	s6, 128(sp)                     # 4-byte Folded Spill
	mv	s3, a5
	mv	s4, a4
	mv	s0, a3
	mv	s6, a2
	mv	s5, a1
	mv	s2, a0
	lbu	a0, 12(a3)
	lbu	a1, 13(a3)
	lbu	a2, 14(a3)
	lbu	a3, 15(a3)
	lbu	a6, 8(s0)
	lbu	a5, 9(s0)
	lbu	s1, 10(s0)
	lbu	a4, 11(s0)
	slli	a1, a1, 8
	slli	a2, a2, 16
	slli	a3, a3, 24
	or	a7, a1, a0
	or	t0, a3, a2
	lbu	a1, 4(s0)
	lbu	a3, 5(s0)
	lbu	a0, 6(s0)
	lbu	a2, 7(s0)
	slli	a5, a5, 8
	slli	s1, s1, 16
	slli	a4, a4, 24
	slli	a3, a3, 8
	slli	a0, a0, 16
	slli	a2, a2, 24
	or	a6, a5, a6
	or	a4, a4, s1
	or	a1, a1, a3
	or	a0, a0, a2
	lbu	a2, 1(s0)
	lbu	a3, 0(s0)
	lbu	s1, 2(s0)
	lbu	a5, 3(s0)
	slli	a2, a2, 8
	or	a2, a2, a3
	slli	s1, s1, 16
	slli	a5, a5, 24
	or	a5, a5, s1
	or	a3, t0, a7
	or	a4, a4, a6
	or	a0, a0, a1
	or	a2, a2, a5
	sw	zero, 80(sp)
	sw	zero, 84(sp)
	sw	zero, 88(sp)
	sw	zero, 92(sp)
	sw	zero, 64(sp)
	sw	zero, 68(sp)
	sw	zero, 72(sp)
	sw	zero, 76(sp)
	sw	zero, 32(sp)
	sw	zero, 36(sp)
	sw	zero, 40(sp)
	sw	zero, 44(sp)
	sw	zero, 48(sp)
	sw	zero, 52(sp)
	sw	zero, 56(sp)
	sw	zero, 60(sp)
	sw	zero, 0(sp)
	sw	zero, 4(sp)
	sw	zero, 8(sp)
	sw	zero, 12(sp)
	sw	zero, 16(sp)
	sw	zero, 20(sp)
	sw	zero, 24(sp)
	sw	zero, 28(sp)
	sw	a2, 96(sp)
	sw	a0, 100(sp)
	sw	a4, 104(sp)
	sw	a3, 108(sp)
	addi	a0, sp, 112
	li	a2, 16
	mv	a1, s0
	call	memcpy
	slli	a0, s6, 29
	srli	a1, s5, 3
	srli	a2, s6, 3
	or	a4, s4, s3
	or	a0, a0, a1
	seqz	a1, a0
	sub	a3, a2, a1
	seqz	s5, a4
	addi	a2, a0, -1
	xori	s4, s4, 1
	beqz	a4, .Laes_BB5_2
# %bb.1:                                # %join.8.i
	lbu	t0, 12(s0)
	lbu	a1, 13(s0)
	lbu	a4, 14(s0)
	lbu	a5, 15(s0)
	lbu	a6, 8(s0)
	lbu	a7, 9(s0)
	lbu	t2, 10(s0)
	lbu	a0, 11(s0)
	slli	a1, a1, 8
	slli	a4, a4, 16
	slli	a5, a5, 24
	or	t0, a1, t0
	or	t1, a5, a4
	lbu	a5, 4(s0)
	lbu	a1, 5(s0)
	lbu	a4, 6(s0)
	lbu	s1, 7(s0)
	slli	a7, a7, 8
	slli	t2, t2, 16
	slli	a0, a0, 24
	slli	a1, a1, 8
	slli	a4, a4, 16
	slli	s1, s1, 24
	or	a6, a7, a6
	or	a7, a0, t2
	or	t2, a1, a5
	or	a4, a4, s1
	lbu	a5, 1(s0)
	lbu	s1, 0(s0)
	lbu	a0, 2(s0)
	lbu	a1, 3(s0)
	slli	a5, a5, 8
	or	a5, a5, s1
	slli	a0, a0, 16
	slli	a1, a1, 24
	or	a0, a0, a1
	or	a1, t1, t0
	or	s1, a7, a6
	or	a4, a4, t2
	or	a0, a0, a5
	or	a5, s4, s3
	sw	a0, 96(sp)
	sw	a4, 100(sp)
	sw	s1, 104(sp)
	sw	a1, 108(sp)
	bnez	a5, .Laes_BB5_3
.Laes_BB5_2:                                # %then.6.i
	lw	a0, 112(sp)
	lw	a1, 116(sp)
	lw	a4, 120(sp)
	lw	a5, 124(sp)
	sw	a0, 48(sp)
	sw	a1, 52(sp)
	sw	a4, 56(sp)
	sw	a5, 60(sp)
	lw	a0, 96(sp)
	lw	a1, 100(sp)
	lw	a4, 104(sp)
	lw	a5, 108(sp)
	sw	a0, 32(sp)
	sw	a1, 36(sp)
	sw	a4, 40(sp)
	sw	a5, 44(sp)
	j	.Laes_BB5_4
.Laes_BB5_3:                                # %join.8.i.1
	addi	a1, s0, 16
	addi	a0, sp, 112
	mv	s6, a2
	li	a2, 16
	mv	s1, a3
	call	memcpy
	mv	a2, s6
	mv	a3, s1
	lw	a0, 96(sp)
	lw	a1, 100(sp)
	lw	a4, 104(sp)
	lw	a5, 108(sp)
	sw	a0, 32(sp)
	sw	a1, 36(sp)
	sw	a4, 40(sp)
	sw	a5, 44(sp)
	lw	a0, 112(sp)
	lw	a1, 116(sp)
	lw	a4, 120(sp)
	lw	a5, 124(sp)
	sw	a0, 48(sp)
	sw	a1, 52(sp)
	sw	a4, 56(sp)
	sw	a5, 60(sp)
.Laes_BB5_4:                                # %"aes_soft::soft::blocks::filled_up::filled_up::<#7d3b633001169d8c>.exit"
	mv	a0, sp
	addi	a4, sp, 32
	mv	a1, s2
	call	aes.aes_soft.soft.ciphers.planes.process_outlined.1
	lw	a0, 16(sp)
	lw	a1, 20(sp)
	lw	a2, 24(sp)
	lw	a3, 28(sp)
	sw	a0, 80(sp)
	sw	a1, 84(sp)
	sw	a2, 88(sp)
	sw	a3, 92(sp)
	lw	a0, 0(sp)
	lw	a1, 4(sp)
	lw	a2, 8(sp)
	lw	a3, 12(sp)
	sw	a0, 64(sp)
	sw	a1, 68(sp)
	sw	a2, 72(sp)
	sw	a3, 76(sp)
	bnez	s5, .Laes_BB5_7
# %bb.5:                                # %join.8.i22.peel
	addi	a1, sp, 64
	li	a2, 16
	mv	a0, s0
	call	memcpy
	or	a0, s4, s3
	beqz	a0, .Laes_BB5_7
# %bb.6:                                # %join.8.i22.preheader.peel.newph
	addi	a1, sp, 80
	addi	a0, s0, 16
	li	a2, 16
	call	memcpy
.Laes_BB5_7:                                # %"aes_soft::soft::blocks::filled_up::copy_first::<#7d3b633001169d8c>.exit"
	lw	ra, 156(sp)                     # 4-byte Folded Reload
	lw	s0, 152(sp)                     # 4-byte Folded Reload
	lw	s1, 148(sp)                     # 4-byte Folded Reload
	lw	s2, 144(sp)                     # 4-byte Folded Reload
	lw	s3, 140(sp)                     # 4-byte Folded Reload
	lw	s4, 136(sp)                     # 4-byte Folded Reload
	lw	s5, 132(sp)                     # 4-byte Folded Reload
	lw	s6, 128(sp)                     # 4-byte Folded Reload
	addi	sp, sp, 160
	ret
.Laes_func_end5:
	.size	aes.aes_soft.soft.blocks.filled_up.process_filled_up.1, .Laes_func_end5-aes.aes_soft.soft.blocks.filled_up.process_filled_up.1
                                        # -- End function
	.section	.text.aes.aes_soft.soft.ciphers.planes.process_outlined.1,"ax",@progbits
	.p2align	1                               # -- Begin function aes_soft::soft::ciphers::planes::process_outlined::<#18f5f0e5023a24e4>
	.type	aes.aes_soft.soft.ciphers.planes.process_outlined.1,@function
aes.aes_soft.soft.ciphers.planes.process_outlined.1: # @aes.aes_soft.soft.ciphers.planes.process_outlined.1
# %bb.0:                                # %start
	addi	sp, sp, -160
	sw	ra, 156(sp)                     # 4-byte Folded Spill
	sw	s0, 152(sp)                     # 4-byte Folded Spill
	sw	s1, 148(sp)                     # 4-byte Folded Spill
	sw	s2, 144(sp)                     # 4-byte Folded Spill
	sw	s3, 140(sp)                     # 4-byte Folded Spill
	sw	s4, 136(sp)                     # 4-byte Folded Spill
	sw	s5, 132(sp)                     # 4-byte Folded Spill
	sw	s6, 128(sp)                     # 4-byte Folded Spill
	sw	s7, 124(sp)                     # 4-byte Folded Spill
	sw	s8, 120(sp)                     # 4-byte Folded Spill
	sw	s9, 116(sp)                     # 4-byte Folded Spill
	sw	s10, 112(sp)                    # 4-byte Folded Spill
	sw	s11, 108(sp)                    # 4-byte Folded Spill
	mv	s10, a1
	sw	a0, 24(sp)                      # 4-byte Folded Spill
	lbu	a7, 0(a4)
	lbu	t1, 1(a4)
	lbu	t0, 2(a4)
	lbu	s2, 3(a4)
	lbu	t2, 16(a4)
	lbu	t3, 17(a4)
	lbu	s4, 18(a4)
	lbu	a0, 19(a4)
	lbu	a1, 4(a4)
	lbu	a5, 5(a4)
	lbu	t4, 6(a4)
	lbu	s3, 7(a4)
	lbu	t5, 20(a4)
	lbu	t6, 21(a4)
	lbu	s6, 22(a4)
	lbu	s11, 23(a4)
	slli	t1, t1, 8
	or	a7, t1, a7
	lbu	s8, 8(a4)
	lbu	s0, 9(a4)
	lbu	s5, 10(a4)
	lbu	s7, 11(a4)
	slli	s2, s2, 24
	slli	t0, t0, 16
	slli	a0, a0, 24
	slli	s4, s4, 16
	slli	t3, t3, 8
	slli	a5, a5, 8
	or	t1, t0, s2
	or	t0, t3, t2
	or	t3, s4, a0
	or	t2, a5, a1
	lbu	s9, 24(a4)
	lbu	a0, 25(a4)
	lbu	a1, 26(a4)
	lbu	s1, 27(a4)
	slli	s3, s3, 24
	slli	t4, t4, 16
	slli	s11, s11, 24
	slli	s6, s6, 16
	slli	a5, t6, 8
	slli	s0, s0, 8
	or	t6, t4, s3
	or	t5, a5, t5
	or	s2, s6, s11
	or	a6, s0, s8
	lbu	s0, 12(a4)
	lbu	a5, 13(a4)
	lbu	s6, 14(a4)
	lbu	s8, 15(a4)
	slli	s7, s7, 24
	slli	s5, s5, 16
	slli	s1, s1, 24
	slli	a1, a1, 16
	slli	a0, a0, 8
	or	s4, s5, s7
	or	s3, a0, s9
	or	t4, a1, s1
	lbu	s1, 28(a4)
	lbu	a1, 29(a4)
	lbu	s9, 30(a4)
	lbu	a0, 31(a4)
	slli	a5, a5, 8
	or	s7, a5, s0
	addi	a4, a2, -2
	slli	s8, s8, 24
	slli	s6, s6, 16
	or	s6, s6, s8
	sw	a2, 32(sp)                      # 4-byte Folded Spill
	sltu	a5, a4, a2
	slli	a1, a1, 8
	or	s8, a1, s1
	sw	a4, 28(sp)                      # 4-byte Folded Spill
	srli	a2, a4, 2
	sw	a3, 12(sp)                      # 4-byte Folded Spill
	add	a3, a3, a5
	addi	ra, a3, -1
	slli	a5, a0, 24
	slli	a0, s9, 16
	or	a0, a0, a5
	slli	a3, ra, 30
	or	s5, a2, a3
	lui	a4, 209715
	or	s9, a7, t1
	or	s11, t0, t3
	or	t3, t2, t6
	or	t5, t5, s2
	lw	a7, 0(s10)
	lw	t1, 4(s10)
	lw	t0, 8(s10)
	lw	t2, 12(s10)
	lui	a1, 349525
	addi	a1, a1, 1365
	addi	a5, a4, 819
	or	a6, a6, s4
	or	s0, s3, t4
	or	s3, s7, s6
	or	a0, s8, a0
	srli	s1, s9, 1
	srli	a2, t3, 1
	srli	a4, a6, 1
	srli	a3, s3, 1
	xor	s1, s11, s1
	xor	a2, t5, a2
	xor	a4, a4, s0
	xor	a3, a3, a0
	and	s1, s1, a1
	and	a2, a2, a1
	and	a4, a4, a1
	sw	a1, 16(sp)                      # 4-byte Folded Spill
	and	a1, a1, a3
	xor	t4, s1, s11
	slli	s1, s1, 1
	xor	s2, a2, t5
	slli	a2, a2, 1
	xor	t5, a4, s0
	slli	a4, a4, 1
	xor	a0, a0, a1
	slli	a1, a1, 1
	xor	t6, s1, s9
	xor	a2, a2, t3
	xor	a6, a4, a6
	xor	a1, a1, s3
	srli	a3, t4, 2
	srli	s0, t5, 2
	srli	s1, t6, 2
	srli	a4, a6, 2
	xor	a3, s2, a3
	xor	s0, s0, a0
	xor	s1, s1, a2
	xor	a4, a4, a1
	and	a3, a3, a5
	and	s0, s0, a5
	and	s1, s1, a5
	sw	a5, 20(sp)                      # 4-byte Folded Spill
	and	a4, a4, a5
	xor	a5, a3, s2
	slli	a3, a3, 2
	xor	a0, a0, s0
	slli	s0, s0, 2
	xor	a2, a2, s1
	slli	s1, s1, 2
	xor	a1, a1, a4
	slli	a4, a4, 2
	xor	a3, a3, t4
	xor	s0, s0, t5
	xor	s1, s1, t6
	xor	a4, a4, a6
	lw	a6, 16(s10)
	lw	t3, 20(s10)
	lw	t4, 28(s10)
	sw	s10, 60(sp)                     # 4-byte Folded Spill
	lw	t5, 24(s10)
	xor	t2, t2, a5
	srli	a5, a5, 4
	xor	t4, a0, t4
	xor	a0, a0, a5
	lui	t6, 1036240
	xor	t1, t1, a3
	srli	a3, a3, 4
	xor	a5, s0, t3
	xor	s0, s0, a3
	lui	t3, 986895
	xor	t0, t0, a2
	srli	a2, a2, 4
	xor	t5, a1, t5
	xor	a2, a2, a1
	lui	s2, 789516
	xor	a7, a7, s1
	srli	s1, s1, 4
	xor	a6, a4, a6
	xor	s3, a4, s1
	lui	a1, 61681
	addi	a3, a1, -241
	and	a0, a0, a3
	xor	s4, t4, a0
	slli	a0, a0, 4
	xor	t2, t2, a0
	lui	s1, 259060
	and	a0, s0, a3
	xor	a4, a5, a0
	slli	a0, a0, 4
	xor	s11, t1, a0
	lui	t1, 12336
	addi	a0, t6, -772
	sw	a0, 48(sp)                      # 4-byte Folded Spill
	addi	a0, t3, 240
	sw	a0, 96(sp)                      # 4-byte Folded Spill
	addi	a0, s2, 192
	sw	a0, 56(sp)                      # 4-byte Folded Spill
	addi	a0, s1, -193
	sw	a0, 52(sp)                      # 4-byte Folded Spill
	and	a2, a2, a3
	xor	a1, t5, a2
	slli	a2, a2, 4
	xor	a2, t0, a2
	sw	ra, 8(sp)                       # 4-byte Folded Spill
	srli	s1, ra, 2
	sw	a3, 100(sp)                     # 4-byte Folded Spill
	and	s0, s3, a3
	xor	a5, a6, s0
	slli	s0, s0, 4
	xor	s8, a7, s0
	sw	s5, 36(sp)                      # 4-byte Folded Spill
	or	s0, s5, s1
	addi	a0, t1, 771
	sw	a0, 44(sp)                      # 4-byte Folded Spill
	beqz	s0, .Laes_BB6_6
# %bb.1:                                # %join.7.i.preheader
	li	s6, 0
	li	a0, 0
	sw	s1, 40(sp)                      # 4-byte Folded Spill
	j	.Laes_BB6_4
.Laes_BB6_2:                                # %join.7.i
                                        #   in Loop: Header=BB6_4 Depth=1
	sltu	a0, a0, s1
.Laes_BB6_3:                                # %join.7.i
                                        #   in Loop: Header=BB6_4 Depth=1
	sw	a0, 80(sp)                      # 4-byte Folded Spill
	xor	s1, a4, a1
	xor	s10, a5, s4
	xor	s7, s11, s4
	xor	s9, a2, a5
	xor	s3, a2, s4
	xor	a4, s8, s1
	xor	ra, s7, s9
	xor	t3, a4, a5
	xor	a5, ra, t2
	mv	a6, s8
	xor	s8, a4, s4
	xor	s11, a4, s11
	and	a0, t3, a6
	xor	t2, a5, a2
	xor	t1, a5, a1
	xor	s5, s11, s3
	sw	s5, 88(sp)                      # 4-byte Folded Spill
	and	t0, s11, a4
	xor	a5, t1, s10
	xor	t6, t2, a6
	and	a3, t2, ra
	xor	a2, t2, s1
	xor	a0, a0, s3
	and	a1, a5, s10
	xor	s2, a5, s1
	xor	s0, a5, a2
	sw	s0, 92(sp)                      # 4-byte Folded Spill
	xor	a7, a5, a6
	and	t4, a2, s3
	xor	t5, a0, a2
	xor	a0, t1, a3
	xor	t5, t5, a3
	and	s1, t6, s5
	xor	t1, a0, s1
	and	s1, s0, s9
	xor	s5, t4, a1
	xor	a1, a1, s1
	and	s1, s2, s7
	xor	s0, s2, t0
	xor	t0, s0, s1
	xor	t4, s1, s4
	and	a3, a7, s8
	xor	s0, t5, s5
	xor	s1, s2, a3
	xor	a3, t1, a1
	xor	a0, t0, s7
	xor	s1, s1, t4
	xor	s4, a0, a1
	xor	t0, s1, s5
	xor	a0, a3, s0
	and	t4, s4, a3
	xor	a1, t0, s4
	xor	a3, t4, s0
	and	t5, a3, a1
	xor	t1, t4, t0
	and	a1, t1, a0
	xor	s5, a1, s0
	slli	s6, s6, 7
	lw	a1, 60(sp)                      # 4-byte Folded Reload
	add	a1, a1, s6
	sw	a1, 104(sp)                     # 4-byte Folded Spill
	xor	a1, t5, t4
	xor	a3, t5, t0
	and	t3, a3, t3
	and	a1, a1, t0
	xor	s0, s5, a3
	and	t4, a3, a6
	and	t0, s5, s8
	and	a7, s5, a7
	xor	s1, a1, t1
	xor	a1, a1, s4
	and	t1, s0, a5
	and	t5, s0, s10
	and	s1, s1, s5
	xor	a3, a3, a1
	and	a5, a1, t2
	and	t2, a1, ra
	xor	a0, a0, s1
	and	s4, a3, t6
	lw	a1, 88(sp)                      # 4-byte Folded Reload
	and	t6, a3, a1
	xor	a1, a5, t4
	xor	a3, a3, a0
	xor	s1, a0, s5
	and	s5, a0, a4
	and	t4, a0, s11
	xor	s4, s4, a5
	xor	a7, a1, a7
	and	a5, s1, s2
	and	a6, a3, a2
	xor	a2, a3, s0
	and	s1, s1, s7
	and	a3, a3, s3
	and	a4, a2, s9
	xor	a0, a5, s5
	lw	s0, 92(sp)                      # 4-byte Folded Reload
	and	s0, s0, a2
	xor	a7, a7, a5
	xor	a1, a6, a1
	xor	a6, a3, t5
	xor	a2, a4, t5
	xor	s0, s0, a0
	xor	a4, a7, t4
	xor	t4, s4, a0
	xor	a1, a1, s1
	xor	a3, a2, t6
	xor	a4, a4, a2
	xor	a1, a1, s0
	xor	a2, s0, t1
	xor	a5, a3, t2
	xor	a0, a1, t0
	xor	t1, a4, a1
	xor	t5, a4, s1
	xor	a4, a3, t3
	xor	s1, a6, a2
	xor	a3, t4, a5
	xor	t3, a4, a0
	xor	t2, a5, a2
	xor	t4, s1, a0
	srli	a6, t5, 10
	slli	t6, t5, 22
	srli	s0, t5, 2
	slli	a1, t5, 30
	srli	a4, t1, 10
	slli	s1, t1, 22
	srli	a0, t1, 2
	slli	a5, t1, 30
	xor	s3, a3, a2
	xor	s11, a3, a7
	or	a6, t6, a6
	or	t6, a1, s0
	or	s2, s1, a4
	or	a7, a5, a0
	srli	a5, t3, 10
	slli	s1, t3, 22
	srli	s0, t3, 2
	slli	a0, t3, 30
	srli	a1, a3, 10
	slli	a4, a3, 22
	srli	s4, a3, 2
	slli	a2, a3, 30
	srli	s5, t4, 10
	slli	s7, t4, 22
	srli	s8, t4, 2
	slli	s9, t4, 30
	srli	s10, t2, 10
	or	ra, s1, a5
	slli	s1, t2, 22
	or	s6, a0, s0
	srli	s0, t2, 2
	or	a1, a1, a4
	sw	a1, 88(sp)                      # 4-byte Folded Spill
	slli	a4, t2, 30
	lw	a5, 52(sp)                      # 4-byte Folded Reload
	and	t0, a6, a5
	lw	a0, 56(sp)                      # 4-byte Folded Reload
	and	a1, t6, a0
	and	a6, s2, a5
	and	a7, a7, a0
	or	t6, a2, s4
	mv	a2, s11
	sw	s11, 92(sp)                     # 4-byte Folded Spill
	srli	s4, s11, 10
	or	s2, s7, s5
	slli	s11, s11, 22
	or	s5, s9, s8
	srli	s7, a2, 2
	or	s8, s1, s10
	slli	s1, a2, 30
	or	s9, a4, s0
	srli	s0, s3, 10
	or	t0, t0, a1
	slli	a1, s3, 22
	or	s10, a6, a7
	srli	a6, s3, 2
	or	a2, s11, s4
	sw	a2, 68(sp)                      # 4-byte Folded Spill
	slli	a7, s3, 30
	and	a4, ra, a5
	and	a2, s6, a0
	or	s1, s1, s7
	or	s4, a1, s0
	or	s6, a7, a6
	or	a7, a4, a2
	lw	a1, 104(sp)                     # 4-byte Folded Reload
	lw	a6, 32(a1)
	lw	ra, 36(a1)
	lw	s7, 40(a1)
	lw	a2, 44(a1)
	sw	a2, 72(sp)                      # 4-byte Folded Spill
	lw	a2, 88(sp)                      # 4-byte Folded Reload
	and	s11, a2, a5
	and	t6, t6, a0
	and	s2, s2, a5
	and	s5, s5, a0
	and	s0, s8, a5
	and	a2, s9, a0
	or	t6, s11, t6
	or	s2, s2, s5
	or	s11, s0, a2
	xor	s0, t0, t5
	xor	a2, a6, t0
	sw	a2, 88(sp)                      # 4-byte Folded Spill
	lw	s9, 48(a1)
	lw	t5, 52(a1)
	lw	s5, 56(a1)
	lw	s8, 60(a1)
	lw	a1, 68(sp)                      # 4-byte Folded Reload
	and	a1, a1, a5
	and	s1, s1, a0
	and	a5, s4, a5
	and	a2, s6, a0
	xor	a0, s10, t1
	xor	t1, ra, s10
	or	s4, a1, s1
	or	s10, a5, a2
	xor	s1, a7, t3
	xor	a2, t6, a3
	xor	a5, s2, t4
	xor	a4, s11, t2
	srli	t0, s0, 20
	slli	t4, s0, 12
	srli	ra, s0, 12
	xor	t3, t1, s0
	slli	s0, s0, 20
	xor	s7, s7, a7
	srli	a3, a0, 20
	xor	t6, s9, t6
	slli	s9, a0, 12
	xor	t1, s8, s11
	srli	s8, a0, 12
	xor	t5, t5, s2
	slli	a1, a0, 20
	xor	s2, s10, s3
	or	t4, t4, t0
	or	s11, s0, ra
	or	s9, s9, a3
	or	s3, a1, s8
	srli	s8, s1, 20
	slli	a3, s1, 12
	srli	ra, s1, 12
	slli	a1, s1, 20
	xor	a0, s7, a0
	sw	a0, 68(sp)                      # 4-byte Folded Spill
	srli	a6, a2, 20
	xor	s5, s5, s10
	slli	s0, a2, 12
	lw	a0, 72(sp)                      # 4-byte Folded Reload
	xor	s7, a0, s1
	srli	s1, a2, 12
	xor	t0, t5, a2
	slli	a2, a2, 20
	or	t5, a3, s8
	srli	a3, a5, 20
	or	s8, a1, ra
	slli	a1, a5, 12
	or	s10, s0, a6
	srli	s0, a5, 12
	or	ra, a2, s1
	slli	s1, a5, 20
	or	a6, a1, a3
	srli	a3, a4, 20
	or	s0, s0, s1
	slli	s1, a4, 12
	or	s6, s1, a3
	srli	s1, a4, 12
	slli	a3, a4, 20
	or	a1, a3, s1
	lw	a0, 92(sp)                      # 4-byte Folded Reload
	xor	s1, s4, a0
	lw	a0, 88(sp)                      # 4-byte Folded Reload
	xor	a7, a0, a4
	xor	t2, t3, a4
	xor	t3, t6, a4
	lw	a0, 100(sp)                     # 4-byte Folded Reload
	and	t4, t4, a0
	lw	a3, 96(sp)                      # 4-byte Folded Reload
	and	a2, s11, a3
	and	t6, s9, a0
	and	s3, s3, a3
	xor	s5, s5, a5
	srli	a5, s1, 20
	xor	s7, s7, a4
	slli	a4, s1, 12
	or	t4, t4, a2
	srli	a2, s1, 12
	xor	t3, t3, s1
	slli	s1, s1, 20
	or	t6, t6, s3
	srli	s3, s2, 20
	or	s9, a4, a5
	slli	a5, s2, 12
	or	s11, s1, a2
	srli	s1, s2, 12
	xor	t1, t1, s2
	slli	s2, s2, 20
	and	a4, t5, a0
	and	a2, s8, a3
	and	t5, s10, a0
	and	s8, ra, a3
	and	s10, a6, a0
	and	s0, s0, a3
	or	a5, a5, s3
	or	s1, s2, s1
	and	s6, s6, a0
	and	a1, a1, a3
	xor	s2, s7, s4
	or	s3, a4, a2
	and	a4, s9, a0
	and	a2, s11, a3
	or	t5, t5, s8
	or	s0, s10, s0
	and	a5, a5, a0
	and	s1, s1, a3
	or	a0, s6, a1
	xor	s7, a7, t4
	xor	a3, t2, t6
	or	a6, a4, a2
	or	a5, a5, s1
	lw	a1, 68(sp)                      # 4-byte Folded Reload
	xor	a4, a1, s3
	xor	a1, t3, t5
	xor	a2, t1, a0
	xor	a0, t0, s0
	xor	s0, s5, a5
	xor	t0, a1, a2
	xor	s4, a3, a2
	xor	a7, a1, a4
	xor	s1, s2, a6
	xor	s3, a2, a4
	xor	a0, a0, s0
	xor	t4, s4, a7
	xor	s11, a0, s7
	xor	s1, s1, t4
	xor	t5, s11, a1
	xor	s8, s1, a4
	xor	a4, s1, s0
	xor	t6, s11, a2
	xor	t3, s11, a3
	and	s1, t5, s7
	xor	a3, a4, t0
	xor	t1, s8, s7
	xor	t2, t3, s3
	and	a1, s8, t4
	xor	s5, s8, a0
	and	s9, t3, s11
	and	s0, a3, t0
	xor	s10, a3, a0
	xor	a6, a3, s5
	xor	s2, a3, s7
	and	a0, s5, s3
	xor	s1, s1, s3
	xor	a4, a4, a1
	xor	a1, s5, a1
	xor	a1, a1, s1
	and	s1, t1, t2
	xor	a4, a4, s1
	and	s1, a6, a7
	xor	a0, a0, s0
	xor	s0, s0, s1
	and	s1, s10, s4
	xor	a5, s10, s9
	xor	a5, a5, s1
	xor	a2, a2, s1
	and	s1, s2, t6
	xor	a1, a1, a0
	xor	s1, s10, s1
	xor	a4, a4, s0
	xor	a5, a5, s4
	xor	a2, a2, s1
	xor	a5, a5, s0
	xor	a0, a0, a2
	xor	s9, a4, a1
	and	a4, a4, a5
	xor	a2, a0, a5
	xor	s1, a4, a1
	and	a2, a2, s1
	xor	s1, a4, a0
	and	s0, s1, s9
	xor	a1, a1, s0
	xor	a4, a4, a2
	xor	s0, a2, a0
	and	t5, s0, t5
	and	a0, a0, a4
	xor	a4, a1, s0
	and	s7, s0, s7
	and	t6, a1, t6
	and	a2, a1, s2
	xor	s1, s1, a0
	xor	a0, a0, a5
	and	s2, a4, a3
	and	ra, a4, t0
	and	s1, s1, a1
	xor	s0, s0, a0
	and	a3, a0, s8
	and	t0, a0, t4
	xor	s1, s1, s9
	and	a0, s0, t1
	and	t1, s0, t2
	xor	a5, a3, s7
	xor	s0, s0, s1
	xor	a1, a1, s1
	and	t2, s1, s11
	and	t4, s1, t3
	xor	t3, a0, a3
	xor	s7, a5, a2
	and	a3, a1, s10
	and	a0, s0, s5
	xor	a4, a4, s0
	and	s4, a1, s4
	and	s0, s0, s3
	and	s1, a4, a7
	xor	a2, a3, t2
	and	a4, a4, a6
	xor	a7, s7, a3
	xor	a0, a0, a5
	xor	a5, s0, ra
	xor	s1, s1, ra
	xor	a4, a4, a2
	xor	s0, a7, t4
	xor	a1, t3, a2
	xor	a0, a0, s4
	xor	a3, s1, t1
	xor	s1, s1, s0
	xor	a0, a0, a4
	xor	a4, a4, s2
	xor	a2, a3, t0
	xor	s0, a0, t6
	xor	s9, s1, a0
	xor	s10, s1, s4
	xor	a3, a3, t5
	xor	a5, a5, a4
	xor	s1, a1, a2
	xor	s11, a3, s0
	xor	s8, a2, a4
	xor	ra, a5, s0
	srli	t0, s10, 12
	slli	t1, s10, 20
	srli	a0, s10, 4
	slli	a2, s10, 28
	srli	a3, s9, 12
	slli	a5, s9, 20
	srli	s0, s9, 4
	slli	a1, s9, 28
	xor	a4, a4, s1
	sw	a4, 92(sp)                      # 4-byte Folded Spill
	xor	s6, s1, a7
	or	t4, t1, t0
	or	t2, a2, a0
	or	a7, a5, a3
	or	t0, a1, s0
	srli	t1, s11, 12
	slli	t5, s11, 20
	srli	t6, s11, 4
	slli	s2, s11, 28
	srli	s5, s1, 12
	slli	a2, s1, 20
	srli	s3, s1, 4
	slli	s4, s1, 28
	srli	s7, ra, 12
	slli	t3, ra, 20
	srli	a6, ra, 4
	slli	a4, ra, 28
	srli	a0, s8, 12
	or	t5, t5, t1
	slli	a1, s8, 20
	or	t6, s2, t6
	srli	s0, s8, 4
	or	t1, a2, s5
	slli	a2, s8, 28
	lw	a3, 100(sp)                     # 4-byte Folded Reload
	and	t4, t4, a3
	lw	s2, 96(sp)                      # 4-byte Folded Reload
	and	t2, t2, s2
	and	a7, a7, a3
	and	t0, t0, s2
	or	a5, s4, s3
	sw	a5, 72(sp)                      # 4-byte Folded Spill
	srli	s3, s6, 12
	or	a5, t3, s7
	sw	a5, 68(sp)                      # 4-byte Folded Spill
	slli	t3, s6, 20
	or	a6, a4, a6
	srli	s5, s6, 4
	or	a1, a1, a0
	slli	a0, s6, 28
	or	s7, a2, s0
	lw	a5, 92(sp)                      # 4-byte Folded Reload
	srli	a4, a5, 12
	or	a2, t4, t2
	slli	s0, a5, 20
	or	s4, a7, t0
	srli	a7, a5, 4
	or	t2, t3, s3
	slli	t0, a5, 28
	and	t3, t5, a3
	and	s3, t6, s2
	or	t4, a0, s5
	or	t5, s0, a4
	or	t6, t0, a7
	or	t0, t3, s3
	lw	a7, 104(sp)                     # 4-byte Folded Reload
	lw	s5, 64(a7)
	lw	s3, 68(a7)
	lw	t3, 72(a7)
	lw	a0, 76(a7)
	sw	a0, 88(sp)                      # 4-byte Folded Spill
	and	t1, t1, a3
	lw	a0, 72(sp)                      # 4-byte Folded Reload
	and	a5, a0, s2
	lw	a0, 68(sp)                      # 4-byte Folded Reload
	and	a0, a0, a3
	and	a4, a6, s2
	and	s0, a1, a3
	mv	a1, a3
	and	a3, s7, s2
	or	a5, t1, a5
	or	a4, a4, a0
	or	a3, a3, s0
	xor	s0, a2, s10
	xor	t1, s5, a2
	mv	a0, a7
	lw	s7, 80(a7)
	lw	a6, 84(a7)
	lw	a7, 88(a7)
	lw	s5, 92(a0)
	and	t2, t2, a1
	and	t4, t4, s2
	and	a1, t5, a1
	and	a0, t6, s2
	xor	t5, s4, s9
	xor	a2, s3, s4
	or	t2, t2, t4
	or	t4, a1, a0
	xor	a0, t0, s11
	xor	s1, s1, a5
	xor	t6, a4, ra
	xor	a1, a3, s8
	srli	s3, s0, 16
	slli	s8, s0, 16
	srli	s9, t5, 16
	xor	s10, a2, s0
	slli	s0, t5, 16
	xor	s11, t3, t0
	xor	t3, s7, a5
	xor	t0, s5, a3
	xor	a3, a6, a4
	xor	a4, t2, s6
	lw	a2, 92(sp)                      # 4-byte Folded Reload
	xor	a5, t4, a2
	or	a6, s8, s3
	or	s2, s0, s9
	srli	s7, a0, 16
	slli	s9, a0, 16
	srli	s3, s1, 16
	slli	s5, s1, 16
	srli	s6, t6, 16
	slli	ra, t6, 16
	xor	t5, s11, t5
	srli	s8, a1, 16
	xor	t4, a7, t4
	slli	s11, a1, 16
	xor	s0, t1, a1
	xor	t1, s10, a1
	xor	t3, t3, a1
	xor	s4, a3, s1
	lw	a2, 88(sp)                      # 4-byte Folded Reload
	xor	s10, a2, a0
	or	a7, s9, s7
	srli	s7, a4, 16
	slli	s9, a4, 16
	or	s5, s5, s3
	or	s3, ra, s6
	srli	a0, a5, 16
	slli	s1, a5, 16
	or	a2, s11, s8
	xor	s6, s0, a6
	xor	a6, t1, s2
	xor	a4, t3, a4
	xor	s0, t4, t6
	xor	a5, t0, a5
	xor	a3, s10, a1
	or	t1, s9, s7
	or	a0, a0, s1
	xor	s1, t5, a7
	xor	a1, a4, s5
	xor	a2, a2, a5
	xor	a5, s4, s3
	xor	a3, a3, t2
	xor	a0, a0, s0
	xor	t0, a1, a2
	xor	s4, a6, a2
	xor	a7, a1, s1
	xor	a4, a3, t1
	xor	s3, a2, s1
	xor	a3, a5, a0
	xor	t4, s4, a7
	xor	s10, a3, s6
	xor	a4, a4, t4
	xor	t5, s10, a1
	xor	s7, a4, s1
	xor	a4, a4, a0
	xor	t6, s10, a2
	xor	t3, s10, a6
	and	a1, t5, s6
	xor	a0, a4, t0
	xor	t1, s7, s6
	xor	t2, t3, s3
	and	s1, s7, t4
	xor	s5, s7, a3
	and	s8, t3, s10
	and	s0, a0, t0
	xor	s9, a0, a3
	xor	a6, a0, s5
	xor	s2, a0, s6
	and	a3, s5, s3
	xor	a1, a1, s3
	xor	a4, a4, s1
	xor	s1, s5, s1
	xor	a1, a1, s1
	and	s1, t1, t2
	xor	a4, a4, s1
	and	s1, a6, a7
	xor	a3, a3, s0
	xor	s0, s0, s1
	and	s1, s9, s4
	xor	a5, s9, s8
	xor	a5, a5, s1
	xor	a2, a2, s1
	and	s1, s2, t6
	xor	a1, a1, a3
	xor	s1, s9, s1
	xor	a4, a4, s0
	xor	a5, a5, s4
	xor	a2, a2, s1
	xor	a5, a5, s0
	xor	a2, a2, a3
	xor	s8, a4, a1
	and	a4, a4, a5
	xor	s0, a2, a5
	xor	s1, a4, a1
	and	s0, s0, s1
	xor	s1, a4, a2
	and	a3, s1, s8
	xor	a3, a3, a1
	xor	a4, a4, s0
	xor	s0, s0, a2
	and	t5, s0, t5
	and	a2, a2, a4
	xor	a4, a3, s0
	and	s6, s0, s6
	and	t6, a3, t6
	and	a1, a3, s2
	xor	s1, s1, a2
	xor	a2, a2, a5
	and	s2, a4, a0
	and	s11, a4, t0
	and	s1, s1, a3
	xor	s0, s0, a2
	and	a0, a2, s7
	and	t0, a2, t4
	xor	s1, s1, s8
	and	a2, s0, t1
	and	t1, s0, t2
	xor	a5, a0, s6
	xor	s0, s0, s1
	xor	a3, a3, s1
	and	t2, s1, s10
	and	t4, s1, t3
	xor	t3, a2, a0
	xor	s6, a5, a1
	and	a2, a3, s9
	and	a0, s0, s5
	xor	a4, a4, s0
	and	s4, a3, s4
	and	s0, s0, s3
	and	s1, a4, a7
	xor	a1, a2, t2
	and	a4, a4, a6
	xor	a6, s6, a2
	xor	a0, a0, a5
	xor	a5, s0, s11
	xor	s1, s1, s11
	xor	a4, a4, a1
	xor	s0, a6, t4
	xor	a3, t3, a1
	xor	a0, a0, s4
	xor	a2, s1, t1
	xor	s1, s1, s0
	xor	a0, a0, a4
	xor	a4, a4, s2
	xor	a1, a2, t0
	xor	s0, a0, t6
	xor	s6, s1, a0
	xor	s9, s1, s4
	xor	a2, a2, t5
	xor	a5, a5, a4
	xor	s1, a3, a1
	xor	s11, a2, s0
	xor	s10, a1, a4
	xor	s8, a5, s0
	srli	a7, s9, 14
	slli	t0, s9, 18
	srli	s0, s9, 6
	slli	a3, s9, 26
	srli	a2, s6, 14
	slli	a5, s6, 18
	srli	a1, s6, 6
	slli	a0, s6, 26
	xor	a4, a4, s1
	sw	a4, 88(sp)                      # 4-byte Folded Spill
	xor	a4, s1, a6
	sw	a4, 92(sp)                      # 4-byte Folded Spill
	or	t2, t0, a7
	or	t3, a3, s0
	or	a7, a5, a2
	or	t0, a0, a1
	srli	t1, s11, 14
	slli	t4, s11, 18
	srli	t5, s11, 6
	slli	t6, s11, 26
	srli	s4, s1, 14
	slli	s7, s1, 18
	srli	s2, s1, 6
	slli	s3, s1, 26
	srli	s5, s8, 14
	slli	ra, s8, 18
	srli	a6, s8, 6
	slli	a3, s8, 26
	mv	s0, s10
	sw	s10, 72(sp)                     # 4-byte Folded Spill
	srli	a4, s10, 14
	or	t4, t4, t1
	slli	s10, s10, 18
	or	t5, t6, t5
	srli	a5, s0, 6
	or	t1, s7, s4
	slli	s0, s0, 26
	lw	a1, 44(sp)                      # 4-byte Folded Reload
	and	t2, t2, a1
	lw	a0, 48(sp)                      # 4-byte Folded Reload
	and	t3, t3, a0
	and	a7, a7, a1
	and	t0, t0, a0
	or	t6, s3, s2
	lw	a2, 92(sp)                      # 4-byte Folded Reload
	srli	s7, a2, 14
	or	s2, ra, s5
	slli	ra, a2, 18
	or	s3, a3, a6
	srli	a6, a2, 6
	or	s4, s10, a4
	slli	a3, a2, 26
	or	s5, s0, a5
	lw	a2, 88(sp)                      # 4-byte Folded Reload
	srli	a4, a2, 14
	or	t2, t2, t3
	slli	a5, a2, 18
	or	t0, a7, t0
	srli	a7, a2, 6
	or	ra, ra, s7
	slli	s7, a2, 26
	and	s0, t4, a1
	and	a2, t5, a0
	or	t3, a3, a6
	or	t4, a5, a4
	or	t5, s7, a7
	or	s7, s0, a2
	lw	a2, 104(sp)                     # 4-byte Folded Reload
	lw	a3, 96(a2)
	lw	s10, 100(a2)
	lw	a7, 104(a2)
	lw	a4, 108(a2)
	sw	a4, 68(sp)                      # 4-byte Folded Spill
	and	t1, t1, a1
	and	t6, t6, a0
	and	s2, s2, a1
	and	a4, s3, a0
	and	a5, s4, a1
	and	s0, s5, a0
	or	t6, t1, t6
	or	s2, s2, a4
	or	a6, a5, s0
	xor	s0, t2, s9
	xor	t1, a3, t2
	lw	s9, 112(a2)
	lw	s4, 116(a2)
	lw	s3, 120(a2)
	lw	s5, 124(a2)
	and	t2, ra, a1
	and	t3, t3, a0
	and	a1, t4, a1
	and	a4, t5, a0
	xor	a0, t0, s6
	xor	t0, s10, t0
	or	t2, t2, t3
	or	t3, a1, a4
	xor	a1, s7, s11
	xor	a4, t6, s1
	xor	t4, s2, s8
	lw	a2, 72(sp)                      # 4-byte Folded Reload
	xor	a5, a6, a2
	srli	t5, s0, 20
	slli	s6, s0, 12
	srli	s10, s0, 12
	xor	a2, t0, s0
	sw	a2, 64(sp)                      # 4-byte Folded Spill
	slli	s11, s0, 20
	xor	a7, a7, s7
	srli	ra, a0, 20
	xor	s9, s9, t6
	slli	s0, a0, 12
	xor	t6, s5, a6
	srli	a2, a0, 12
	xor	s2, s4, s2
	slli	a3, a0, 20
	lw	s1, 88(sp)                      # 4-byte Folded Reload
	xor	s1, t3, s1
	or	t5, s6, t5
	or	s4, s11, s10
	or	s6, s0, ra
	or	s5, a3, a2
	srli	s8, a1, 20
	slli	a3, a1, 12
	srli	s10, a1, 12
	slli	a2, a1, 20
	xor	a0, a7, a0
	sw	a0, 88(sp)                      # 4-byte Folded Spill
	srli	a6, a4, 20
	xor	t3, s3, t3
	slli	s0, a4, 12
	lw	a0, 68(sp)                      # 4-byte Folded Reload
	xor	s3, a0, a1
	srli	a1, a4, 12
	xor	a0, s2, a4
	sw	a0, 72(sp)                      # 4-byte Folded Spill
	slli	a4, a4, 20
	or	s7, a3, s8
	srli	a3, t4, 20
	or	s8, a2, s10
	slli	a2, t4, 12
	or	a6, s0, a6
	srli	s0, t4, 12
	or	s10, a4, a1
	slli	a4, t4, 20
	or	ra, a2, a3
	srli	a2, a5, 20
	or	a4, a4, s0
	slli	s0, a5, 12
	or	s11, s0, a2
	srli	s0, a5, 12
	slli	a2, a5, 20
	or	t0, a2, s0
	lw	a0, 92(sp)                      # 4-byte Folded Reload
	xor	s0, t2, a0
	xor	t1, t1, a5
	lw	a0, 64(sp)                      # 4-byte Folded Reload
	xor	s2, a0, a5
	xor	s9, s9, a5
	lw	a1, 100(sp)                     # 4-byte Folded Reload
	and	a0, t5, a1
	lw	a2, 96(sp)                      # 4-byte Folded Reload
	and	a3, s4, a2
	and	t5, s6, a1
	and	s6, s5, a2
	xor	t3, t3, t4
	srli	t4, s0, 20
	xor	s3, s3, a5
	slli	a5, s0, 12
	or	s5, a0, a3
	srli	a3, s0, 12
	xor	s4, s9, s0
	slli	s0, s0, 20
	or	t5, t5, s6
	srli	a7, s1, 20
	or	s6, a5, t4
	slli	a0, s1, 12
	or	s9, s0, a3
	srli	s0, s1, 12
	xor	t4, t6, s1
	slli	s1, s1, 20
	and	a5, s7, a1
	and	a3, s8, a2
	and	a6, a6, a1
	and	t6, s10, a2
	and	s7, ra, a1
	and	a4, a4, a2
	or	a7, a0, a7
	or	s0, s0, s1
	and	s8, s11, a1
	and	a0, t0, a2
	xor	s3, s3, t2
	or	t2, a5, a3
	and	a5, s6, a1
	and	s1, s9, a2
	or	a3, a6, t6
	or	a6, s7, a4
	and	a4, a7, a1
	and	s0, s0, a2
	or	a1, s8, a0
	xor	s11, t1, s5
	xor	a2, s2, t5
	or	a5, a5, s1
	or	s0, s0, a4
	lw	a0, 88(sp)                      # 4-byte Folded Reload
	xor	s1, a0, t2
	xor	a3, s4, a3
	xor	a4, t4, a1
	lw	a0, 72(sp)                      # 4-byte Folded Reload
	xor	a1, a0, a6
	xor	s0, t3, s0
	xor	t3, a3, a4
	xor	s4, a2, a4
	xor	t2, a3, s1
	xor	a5, s3, a5
	xor	t4, a4, s1
	xor	a1, a1, s0
	xor	a7, s4, t2
	xor	s5, a1, s11
	xor	a5, a5, a7
	xor	a6, s5, a3
	xor	s8, a5, s1
	xor	s0, s0, a5
	xor	t0, s5, a4
	xor	s2, s5, a2
	and	a5, a6, s11
	xor	s10, s0, t3
	xor	t5, s8, s11
	xor	t6, s2, t4
	and	a2, s8, a7
	xor	s6, s8, a1
	and	s7, s2, s5
	and	a3, s10, t3
	xor	s9, s10, a1
	xor	t1, s10, s6
	xor	s3, s10, s11
	and	a1, s6, t4
	xor	a5, a5, t4
	xor	s0, s0, a2
	xor	a2, s6, a2
	xor	a2, a2, a5
	and	a5, t5, t6
	xor	a5, a5, s0
	and	s0, t1, t2
	xor	a1, a1, a3
	xor	a3, a3, s0
	and	s0, s9, s4
	xor	s1, s9, s7
	xor	s1, s1, s0
	xor	a4, a4, s0
	and	s0, s3, t0
	xor	a2, a2, a1
	xor	s0, s9, s0
	xor	a5, a5, a3
	xor	s1, s1, s4
	xor	a4, a4, s0
	xor	a3, a3, s1
	xor	a1, a1, a4
	xor	a0, a5, a2
	and	a5, a5, a3
	xor	s0, a1, a3
	xor	s1, a5, a2
	and	s0, s0, s1
	xor	s1, a5, a1
	and	a4, s1, a0
	xor	a2, a2, a4
	xor	a5, a5, s0
	xor	s0, s0, a1
	and	a1, a1, a5
	xor	s1, s1, a1
	xor	a1, a1, a3
	and	s1, s1, a2
	xor	a0, a0, s1
	and	a6, s0, a6
	and	s7, s0, s11
	and	a4, a1, s8
	and	a7, a1, a7
	xor	a1, a1, s0
	xor	s0, s0, a2
	and	t0, a2, t0
	and	a5, a2, s3
	and	s1, a1, t5
	and	t5, a1, t6
	xor	a1, a1, a0
	xor	a2, a2, a0
	and	a3, a0, s5
	and	s2, a0, s2
	xor	a0, a4, s7
	xor	s3, s1, a4
	and	t6, s0, s10
	and	s1, s0, t3
	xor	a5, a5, a0
	and	a4, a2, s9
	and	t3, a1, s6
	xor	s0, s0, a1
	and	s6, a2, s4
	and	t4, a1, t4
	and	t2, s0, t2
	xor	a3, a3, a4
	and	s5, s0, t1
	xor	s8, a5, a4
	lw	s10, 104(sp)                    # 4-byte Folded Reload
	lw	s9, 128(s10)
	lw	s7, 132(s10)
	lw	s4, 136(s10)
	lw	t1, 140(s10)
	xor	a0, t3, a0
	xor	a1, t4, s1
	xor	s1, t2, s1
	xor	a2, a3, s5
	xor	s0, s8, s2
	xor	a3, s3, a3
	xor	a0, a0, s6
	xor	a5, s1, t5
	xor	s0, s0, s1
	xor	a0, a0, a2
	xor	a2, a2, t6
	xor	s1, a5, a7
	xor	a4, a0, t0
	xor	t2, s0, a0
	xor	s0, s0, s6
	xor	a5, a5, a6
	xor	a1, a1, a2
	xor	a3, a3, s1
	xor	t4, a5, a4
	xor	t0, s1, a2
	xor	t3, a1, a4
	srli	a4, s0, 8
	slli	s1, s0, 24
	srli	a0, t2, 8
	slli	a1, t2, 24
	xor	t5, a3, a2
	xor	a7, a3, s8
	or	a4, a4, s1
	or	t6, a1, a0
	srli	a1, t4, 8
	slli	a5, t4, 24
	srli	s1, a3, 8
	slli	a2, a3, 24
	srli	a6, t3, 8
	slli	a0, t3, 24
	or	a1, a1, a5
	srli	a5, t0, 8
	or	s5, a2, s1
	slli	s1, t0, 24
	or	s2, a0, a6
	srli	s6, a7, 8
	or	s3, s1, a5
	slli	a5, a7, 24
	xor	s0, s0, a4
	xor	a6, s9, a4
	srli	a4, t5, 8
	xor	a0, t6, t2
	xor	t2, s7, t6
	slli	a2, t5, 24
	or	t6, a5, s6
	or	s7, a2, a4
	xor	s1, a1, t4
	xor	s4, s4, a1
	lw	a4, 144(s10)
	lw	a2, 148(s10)
	lw	t4, 152(s10)
	lw	s6, 156(s10)
	xor	a3, s5, a3
	xor	s5, a4, s5
	xor	s9, s2, t3
	xor	a1, s3, t0
	xor	t3, a2, s2
	srli	a2, s0, 16
	xor	t0, t2, s0
	slli	s0, s0, 16
	xor	t2, s6, s3
	srli	a5, a0, 16
	or	s2, s0, a2
	slli	s0, a0, 16
	xor	a2, s7, t5
	or	s3, s0, a5
	srli	s0, s1, 16
	xor	t5, s4, a0
	slli	a0, s1, 16
	xor	s4, t1, s1
	srli	a5, a3, 16
	xor	t1, t3, a3
	slli	a3, a3, 16
	xor	s1, t4, s7
	srli	a4, s9, 16
	or	s6, a0, s0
	slli	a0, s9, 16
	or	t4, a3, a5
	srli	a5, a1, 16
	or	a4, a4, a0
	slli	a0, a1, 16
	or	t3, a0, a5
	xor	a5, a6, a1
	xor	s8, a5, s2
	xor	a5, t0, a1
	xor	s11, a5, s3
	xor	a5, s5, a1
	xor	a1, s4, a1
	xor	a0, t6, a7
	xor	s1, s1, s9
	srli	a3, a0, 16
	xor	a5, a5, a0
	slli	a0, a0, 16
	or	a0, a0, a3
	srli	a3, a2, 16
	xor	s0, t2, a2
	slli	a2, a2, 16
	or	a3, a3, a2
	xor	a2, t5, s6
	xor	a1, a1, t6
	xor	a5, a5, t4
	xor	a4, t1, a4
	xor	t2, a1, a0
	xor	a1, s1, a3
	xor	s4, s0, t3
	lw	s6, 76(sp)                      # 4-byte Folded Reload
	lw	s1, 40(sp)                      # 4-byte Folded Reload
	lw	a0, 84(sp)                      # 4-byte Folded Reload
	lw	a3, 80(sp)                      # 4-byte Folded Reload
	beqz	a3, .Laes_BB6_6
.Laes_BB6_4:                                # %join.7.i
                                        # =>This Inner Loop Header: Depth=1
	addi	a3, s6, 1
	seqz	s0, a3
	add	a0, a0, s0
	sw	a0, 84(sp)                      # 4-byte Folded Spill
	sw	a3, 76(sp)                      # 4-byte Folded Spill
	bne	a0, s1, .Laes_BB6_2
# %bb.5:                                #   in Loop: Header=BB6_4 Depth=1
	lw	a0, 36(sp)                      # 4-byte Folded Reload
	sltu	a0, a3, a0
	j	.Laes_BB6_3
.Laes_BB6_6:                                # %after.3.i
	xor	a0, a1, a4
	xor	s3, s4, a5
	xor	t1, s4, s11
	xor	s2, a5, a2
	xor	t4, s4, a2
	xor	a7, a0, s8
	xor	s10, t1, s2
	xor	t3, a7, a5
	xor	a3, s10, t2
	xor	a4, a7, s4
	xor	t2, a7, s11
	and	a5, t3, s8
	xor	s7, a3, a2
	xor	a3, a3, a1
	xor	a1, t2, t4
	sw	a1, 104(sp)                     # 4-byte Folded Spill
	and	t0, t2, a7
	xor	a6, a3, s3
	xor	s5, s7, s8
	and	s0, s7, s10
	xor	t5, s7, a0
	xor	a5, a5, t4
	and	a2, a6, s3
	xor	ra, a6, a0
	xor	s6, a6, t5
	xor	s9, a6, s8
	and	a0, t5, t4
	and	s1, s5, a1
	xor	a5, a5, t5
	xor	a3, a3, s0
	xor	a5, a5, s0
	and	s0, s6, s2
	xor	t6, a3, s1
	and	s1, s9, a4
	xor	a0, a0, a2
	xor	a2, a2, s0
	and	s0, ra, t1
	xor	a3, ra, t0
	xor	a1, a5, a0
	xor	t0, a3, s0
	xor	s11, ra, s1
	xor	s0, s0, s4
	xor	a3, t6, a2
	xor	s1, t0, t1
	xor	s0, s11, s0
	xor	s1, s1, a2
	xor	a0, a0, s0
	xor	s11, a3, a1
	and	a2, s1, a3
	xor	t0, a0, s1
	xor	s0, a2, a1
	xor	a3, a2, a0
	and	s0, s0, t0
	and	a5, a3, s11
	xor	t6, a5, a1
	xor	a2, a2, s0
	xor	s0, s0, a0
	and	a0, a0, a2
	lw	a1, 28(sp)                      # 4-byte Folded Reload
	andi	a1, a1, -4
	xor	t0, a0, a3
	xor	s4, a0, s1
	sw	a1, 80(sp)                      # 4-byte Folded Spill
	slli	s1, a1, 5
	lw	a0, 60(sp)                      # 4-byte Folded Reload
	add	s1, s1, a0
	and	t3, s0, t3
	and	a2, s0, s8
	and	a3, s4, s7
	and	s7, s4, s10
	xor	a1, s4, s0
	xor	s0, t6, s0
	and	s4, t6, a4
	and	s9, t6, s9
	and	s8, s0, a6
	and	s10, s0, s3
	and	a5, t0, t6
	xor	a5, a5, s11
	and	s3, a1, s5
	lw	a0, 104(sp)                     # 4-byte Folded Reload
	and	t0, a1, a0
	xor	a2, a2, a3
	xor	a1, a1, a5
	xor	a0, a5, t6
	and	a6, a5, a7
	and	t2, a5, t2
	xor	a7, s3, a3
	xor	t6, a2, s9
	and	a5, a0, ra
	and	t5, a1, t5
	xor	s0, s0, a1
	and	a0, a0, t1
	and	a1, a1, t4
	and	a3, s0, s2
	xor	a4, a5, a6
	and	s0, s0, s6
	xor	t1, t6, a5
	xor	a2, t5, a2
	xor	a6, a1, s10
	xor	a3, a3, s10
	xor	s0, s0, a4
	xor	a1, t1, t2
	xor	a7, a7, a4
	xor	a2, a2, a0
	xor	a5, a3, t0
	xor	a1, a1, a3
	xor	a2, a2, s0
	xor	a3, s0, s8
	xor	s0, a5, s7
	xor	a4, a2, s4
	xor	t4, a1, a2
	xor	t5, a1, a0
	xor	a5, a5, t3
	xor	a1, a6, a3
	xor	a2, a7, s0
	xor	t6, a5, a4
	xor	t0, s0, a3
	xor	t3, a1, a4
	srli	a7, t5, 10
	slli	s2, t5, 22
	srli	s3, t5, 2
	slli	a1, t5, 30
	srli	a5, t4, 10
	slli	a4, t4, 22
	srli	a0, t4, 2
	slli	s0, t4, 30
	xor	a3, a3, a2
	sw	a3, 92(sp)                      # 4-byte Folded Spill
	xor	s9, a2, t1
	or	s2, s2, a7
	or	t1, a1, s3
	or	s3, a4, a5
	or	a7, s0, a0
	srli	a5, t6, 10
	slli	s0, t6, 22
	srli	s5, t6, 2
	slli	a1, t6, 30
	srli	s7, a2, 10
	slli	a4, a2, 22
	srli	s4, a2, 2
	slli	a0, a2, 30
	srli	s6, t3, 10
	slli	a3, t3, 22
	srli	s8, t3, 2
	or	a5, a5, s0
	sw	a5, 88(sp)                      # 4-byte Folded Spill
	slli	s11, t3, 30
	or	s5, a1, s5
	srli	s10, t0, 10
	or	s7, a4, s7
	slli	ra, t0, 22
	or	s4, a0, s4
	srli	a6, t0, 2
	or	s6, a3, s6
	slli	t2, t0, 30
	lw	a3, 52(sp)                      # 4-byte Folded Reload
	and	s2, s2, a3
	lw	a4, 56(sp)                      # 4-byte Folded Reload
	and	a5, t1, a4
	and	s3, s3, a3
	and	a1, a7, a4
	or	a7, s11, s8
	sw	s9, 104(sp)                     # 4-byte Folded Spill
	srli	s11, s9, 10
	or	t1, ra, s10
	slli	s0, s9, 22
	or	s8, t2, a6
	srli	a6, s9, 2
	or	ra, s2, a5
	slli	a5, s9, 30
	or	s2, s3, a1
	lw	t2, 92(sp)                      # 4-byte Folded Reload
	srli	a1, t2, 10
	or	s3, s0, s11
	slli	s0, t2, 22
	or	s10, a5, a6
	srli	a6, t2, 2
	or	s11, s0, a1
	slli	s0, t2, 30
	lw	a0, 88(sp)                      # 4-byte Folded Reload
	and	s9, a0, a3
	and	s5, s5, a4
	and	s7, s7, a3
	and	a5, s4, a4
	and	a1, s6, a3
	and	a0, a7, a4
	or	a6, s0, a6
	or	s4, s9, s5
	or	s7, s7, a5
	or	s6, a1, a0
	lw	a0, 32(s1)
	lw	s9, 36(s1)
	lw	s5, 40(s1)
	lw	a7, 44(s1)
	and	s0, t1, a3
	and	s8, s8, a4
	and	t1, s3, a3
	and	a5, s10, a4
	and	a1, s11, a3
	and	a4, a6, a4
	or	a3, s0, s8
	lw	s3, 48(s1)
	lw	s8, 52(s1)
	lw	s10, 56(s1)
	lw	s11, 60(s1)
	xor	s1, ra, t5
	xor	t4, s2, t4
	xor	t5, a0, ra
	xor	a0, s9, s2
	or	t1, t1, a5
	or	a1, a1, a4
	xor	a4, s4, t6
	xor	a2, s7, a2
	xor	a5, s6, t3
	xor	s0, a3, t0
	srli	t3, s1, 20
	slli	t6, s1, 12
	srli	s2, s1, 12
	slli	s9, s1, 20
	xor	ra, a0, s1
	srli	s1, t4, 20
	xor	s4, s5, s4
	slli	s5, t4, 12
	xor	s3, s3, s7
	srli	s7, t4, 12
	xor	s6, s8, s6
	slli	a0, t4, 20
	xor	a3, s11, a3
	sw	a3, 84(sp)                      # 4-byte Folded Spill
	xor	t0, a1, t2
	or	t6, t6, t3
	or	s2, s9, s2
	or	s8, s5, s1
	or	s5, a0, s7
	srli	s7, a4, 20
	slli	s1, a4, 12
	srli	t3, a4, 12
	slli	s11, a4, 20
	srli	s9, a2, 20
	xor	a0, s4, t4
	sw	a0, 92(sp)                      # 4-byte Folded Spill
	slli	a0, a2, 12
	xor	t4, a7, a4
	srli	a4, a2, 12
	xor	a3, s6, a2
	sw	a3, 88(sp)                      # 4-byte Folded Spill
	slli	a2, a2, 20
	xor	s4, s10, a1
	srli	s10, a5, 20
	or	s6, s1, s7
	slli	s1, a5, 12
	or	s7, s11, t3
	srli	a1, a5, 12
	or	s9, a0, s9
	slli	a0, a5, 20
	or	s11, a2, a4
	srli	a2, s0, 20
	or	s10, s1, s10
	slli	a4, s0, 12
	or	a7, a0, a1
	srli	a1, s0, 12
	or	t3, a4, a2
	slli	a2, s0, 20
	or	a1, a1, a2
	lw	a0, 104(sp)                     # 4-byte Folded Reload
	xor	a2, t1, a0
	xor	t2, t5, s0
	xor	a6, ra, s0
	xor	t5, s3, s0
	lw	a0, 100(sp)                     # 4-byte Folded Reload
	and	t6, t6, a0
	lw	s1, 96(sp)                      # 4-byte Folded Reload
	and	a4, s2, s1
	and	s3, s8, a0
	and	s5, s5, s1
	xor	s8, t4, s0
	srli	ra, a2, 20
	xor	t4, s4, a5
	slli	a5, a2, 12
	or	s2, t6, a4
	srli	a4, a2, 12
	xor	t5, t5, a2
	slli	a2, a2, 20
	or	s3, s3, s5
	srli	s0, t0, 20
	or	s5, a5, ra
	slli	a5, t0, 12
	or	a2, a2, a4
	srli	a4, t0, 12
	or	a5, a5, s0
	slli	a3, t0, 20
	or	a3, a3, a4
	xor	s4, s8, t1
	and	a4, s6, a0
	and	s0, s7, s1
	or	t6, a4, s0
	and	a4, s9, a0
	and	s0, s11, s1
	or	s6, a4, s0
	and	a4, s10, a0
	and	s0, a7, s1
	or	a7, a4, s0
	and	s0, t3, a0
	and	a4, a1, s1
	or	a4, a4, s0
	and	s0, s5, a0
	and	a1, a2, s1
	mv	a2, a0
	or	a0, s0, a1
	and	a1, a5, a2
	and	s1, s1, a3
	or	s1, s1, a1
	lw	a1, 84(sp)                      # 4-byte Folded Reload
	xor	a1, a1, t0
	lw	a2, 12(sp)                      # 4-byte Folded Reload
	lw	a3, 8(sp)                       # 4-byte Folded Reload
	beq	a3, a2, .Laes_BB6_8
# %bb.7:                                # %after.3.i
	sltu	a3, a3, a2
	j	.Laes_BB6_9
.Laes_BB6_8:
	lw	a2, 80(sp)                      # 4-byte Folded Reload
	addi	a2, a2, 2
	lw	a3, 32(sp)                      # 4-byte Folded Reload
	sltu	a3, a2, a3
.Laes_BB6_9:                                # %after.3.i
	xor	s7, t2, s2
	xor	t1, a6, s3
	lw	a2, 92(sp)                      # 4-byte Folded Reload
	xor	s9, a2, t6
	xor	a6, s4, a0
	xor	s10, t5, s6
	lw	a0, 88(sp)                      # 4-byte Folded Reload
	xor	s4, a0, a7
	xor	s3, t4, s1
	xor	s5, a1, a4
	beqz	a3, .Laes_BB6_11
# %bb.10:                               # %then.11.i
	xor	s0, s3, s4
	xor	t3, s10, s5
	xor	s4, t1, s5
	xor	a7, s10, s9
	xor	s8, s5, s9
	xor	s6, s0, s7
	xor	s2, s4, a7
	xor	t2, s6, s10
	xor	a0, s2, a6
	xor	t6, s6, t1
	and	a3, t2, s7
	xor	s10, a0, s9
	xor	a0, a0, s3
	xor	a5, t6, s8
	and	a2, t6, s6
	xor	a6, a0, t3
	xor	t5, s10, s7
	and	a4, s10, s2
	xor	s9, s10, s0
	xor	a3, a3, s8
	and	s1, a6, t3
	xor	s11, a6, s0
	xor	t4, a6, s9
	and	s0, s9, s8
	xor	a0, a0, a4
	xor	a4, s9, a4
	xor	a3, a3, a4
	and	a4, t5, a5
	xor	a0, a0, a4
	and	a4, t4, a7
	xor	s0, s0, s1
	xor	a4, a4, s1
	and	s1, s11, s4
	xor	a2, s11, a2
	xor	a2, a2, s1
	xor	s1, s1, s5
	xor	t0, s6, s5
	xor	t1, a6, s7
	and	a1, t1, t0
	xor	a1, s11, a1
	xor	a1, a1, s1
	xor	a0, a0, a4
	xor	a2, a2, s4
	xor	a4, a4, a2
	xor	a3, a3, s0
	xor	s0, s0, a1
	and	a2, a4, a0
	xor	a1, s0, a4
	xor	s1, a2, a3
	and	s1, s1, a1
	xor	s3, a0, a3
	xor	a0, a2, s0
	and	a1, a0, s3
	xor	s5, a1, a3
	xor	a3, s1, a2
	xor	a2, s1, s0
	and	a3, a3, s0
	xor	a1, a3, a0
	xor	ra, a3, a4
	lw	a4, 28(sp)                      # 4-byte Folded Reload
	slli	a4, a4, 5
	lw	a0, 60(sp)                      # 4-byte Folded Reload
	add	a4, a4, a0
	and	t2, a2, t2
	and	s7, a2, s7
	and	s0, ra, s10
	and	s2, ra, s2
	xor	s1, ra, a2
	xor	a2, s5, a2
	and	t0, s5, t0
	and	s10, s5, t1
	and	t1, a2, a6
	and	ra, a2, t3
	and	a1, a1, s5
	xor	a1, a1, s3
	and	t3, s1, t5
	and	a6, s1, a5
	xor	a3, s0, s7
	xor	s1, s1, a1
	xor	a0, a1, s5
	and	t5, a1, s6
	and	t6, a1, t6
	xor	t3, t3, s0
	xor	s3, a3, s10
	and	s0, a0, s11
	and	s5, s1, s9
	xor	a2, a2, s1
	and	a0, a0, s4
	and	s1, s1, s8
	and	a1, a2, a7
	xor	a5, s0, t5
	and	a2, a2, t4
	xor	a7, s3, s0
	xor	a3, s5, a3
	xor	t4, s1, ra
	xor	a1, a1, ra
	xor	a2, a2, a5
	xor	s0, a7, t6
	xor	t3, t3, a5
	xor	a3, a3, a0
	xor	s1, a1, a6
	xor	a1, a1, s0
	xor	a3, a3, a2
	xor	a5, a2, t1
	xor	s0, s1, s2
	xor	a2, a3, t0
	xor	t1, a1, a3
	xor	t5, a1, a0
	xor	s1, s1, t2
	xor	a3, t4, a5
	xor	a1, t3, s0
	xor	t0, s1, a2
	xor	t2, s0, a5
	xor	t3, a3, a2
	srli	t4, t5, 12
	slli	s2, t5, 20
	srli	t6, t5, 4
	slli	s0, t5, 28
	srli	s1, t1, 12
	slli	a2, t1, 20
	srli	a0, t1, 4
	slli	a3, t1, 28
	xor	s9, a1, a5
	xor	s3, a1, a7
	or	a7, s2, t4
	or	s2, s0, t6
	or	t6, a2, s1
	or	t4, a3, a0
	srli	s7, t0, 12
	slli	s1, t0, 20
	srli	s5, t0, 4
	slli	a2, t0, 28
	srli	s0, a1, 12
	slli	a5, a1, 20
	srli	s4, a1, 4
	slli	a0, a1, 28
	srli	s6, t3, 12
	slli	a3, t3, 20
	srli	s8, t3, 4
	or	s7, s1, s7
	slli	s11, t3, 28
	or	s5, a2, s5
	srli	s10, t2, 12
	or	a5, a5, s0
	sw	a5, 104(sp)                     # 4-byte Folded Spill
	slli	s0, t2, 20
	or	s4, a0, s4
	srli	ra, t2, 4
	or	s6, a3, s6
	slli	a0, t2, 28
	lw	a6, 100(sp)                     # 4-byte Folded Reload
	and	a3, a7, a6
	lw	s1, 96(sp)                      # 4-byte Folded Reload
	and	a2, s2, s1
	and	t6, t6, a6
	and	a5, t4, s1
	or	a7, s11, s8
	srli	s8, s3, 12
	or	t4, s0, s10
	slli	s0, s3, 20
	or	s2, a0, ra
	srli	a0, s3, 4
	or	ra, a3, a2
	slli	a3, s3, 28
	or	t6, t6, a5
	mv	s11, s9
	srli	a5, s9, 12
	or	a2, s0, s8
	sw	a2, 92(sp)                      # 4-byte Folded Spill
	slli	a2, s9, 20
	or	s10, a3, a0
	srli	a3, s9, 4
	or	s8, a2, a5
	slli	s9, s9, 28
	and	s7, s7, a6
	and	s5, s5, s1
	lw	a0, 104(sp)                     # 4-byte Folded Reload
	and	a5, a0, a6
	and	a2, s4, s1
	and	s0, s6, a6
	and	a0, a7, s1
	or	s6, s9, a3
	or	s9, s7, s5
	or	s7, a5, a2
	or	s5, s0, a0
	lw	a0, 0(a4)
	lw	a2, 4(a4)
	lw	s4, 8(a4)
	lw	a3, 12(a4)
	sw	a3, 104(sp)                     # 4-byte Folded Spill
	and	a3, t4, a6
	and	s0, s2, s1
	or	a3, a3, s0
	xor	s0, ra, t5
	xor	a5, t6, t1
	xor	t1, a0, ra
	xor	ra, a2, t6
	lw	t5, 16(a4)
	lw	t6, 20(a4)
	lw	s2, 24(a4)
	lw	a7, 28(a4)
	lw	a0, 92(sp)                      # 4-byte Folded Reload
	and	t4, a0, a6
	and	a4, s10, s1
	and	a0, s8, a6
	and	a2, s6, s1
	or	t4, t4, a4
	or	a0, a0, a2
	xor	a4, s9, t0
	xor	a1, s7, a1
	xor	t0, s5, t3
	xor	a2, a3, t2
	srli	t2, s0, 16
	slli	t3, s0, 16
	xor	s6, ra, s0
	srli	s8, a5, 16
	xor	s4, s4, s9
	slli	s10, a5, 16
	xor	t5, t5, s7
	xor	s7, a7, a3
	xor	a3, t6, s5
	xor	s0, t4, s3
	xor	s1, a0, s11
	or	a6, t3, t2
	or	t2, s10, s8
	srli	t3, a4, 16
	slli	t6, a4, 16
	srli	s3, a1, 16
	slli	s5, a1, 16
	srli	s8, t0, 16
	xor	s4, s4, a5
	slli	s11, t0, 16
	xor	s2, s2, a0
	srli	s10, a2, 16
	xor	s9, a3, a1
	slli	ra, a2, 16
	xor	a3, t1, a2
	xor	t1, s6, a2
	xor	t5, t5, a2
	lw	a0, 104(sp)                     # 4-byte Folded Reload
	xor	a4, a4, a0
	or	a7, t6, t3
	srli	a1, s0, 16
	slli	a5, s0, 16
	or	t6, s5, s3
	or	t3, s11, s8
	srli	s3, s1, 16
	slli	a0, s1, 16
	or	s5, ra, s10
	xor	s6, a6, a3
	xor	t1, t2, t1
	xor	s0, t5, s0
	xor	a3, s2, t0
	xor	s1, s7, s1
	xor	a2, a2, a4
	or	a5, a5, a1
	or	a0, a0, s3
	xor	a4, a7, s4
	xor	s0, t6, s0
	xor	a1, s5, s1
	xor	s1, t3, s9
	xor	a2, a2, t4
	xor	a0, a0, a3
	xor	t3, a1, s0
	xor	s4, a1, t1
	xor	t2, s0, a4
	xor	a2, a2, a5
	xor	s5, a1, a4
	xor	a3, s1, a0
	xor	a7, s4, t2
	xor	ra, a3, s6
	xor	a2, a2, a7
	xor	s8, ra, s0
	xor	s7, a2, a4
	xor	a0, a0, a2
	xor	t5, ra, a1
	xor	t4, ra, t1
	and	s0, s8, s6
	xor	a4, a0, t3
	xor	s2, s7, s6
	xor	s3, t4, s5
	and	a2, s7, a7
	xor	t1, s7, a3
	and	t0, t4, ra
	and	a5, a4, t3
	xor	a6, a4, a3
	xor	a3, a4, t1
	sw	a3, 104(sp)                     # 4-byte Folded Spill
	and	s1, t1, s5
	xor	s0, s0, s5
	xor	a0, a0, a2
	xor	a2, t1, a2
	xor	t6, s0, a2
	and	s0, s2, s3
	xor	a0, a0, s0
	and	s0, a3, t2
	xor	s1, s1, a5
	xor	a5, a5, s0
	and	s0, a6, s4
	xor	a3, a6, t0
	xor	a3, a3, s0
	xor	a1, a1, s0
	xor	s9, a4, s6
	and	s0, s9, t5
	xor	s0, a6, s0
	xor	a2, s0, a1
	xor	s0, t6, s1
	xor	a0, a0, a5
	xor	a1, a3, s4
	xor	a1, a1, a5
	xor	s1, s1, a2
	and	a3, a1, a0
	xor	a5, s1, a1
	xor	a2, a3, s0
	and	a2, a2, a5
	xor	t0, a0, s0
	xor	s10, a3, s1
	and	a0, s10, t0
	xor	a0, a0, s0
	xor	a3, a3, a2
	xor	s0, a2, s1
	and	s11, a3, s1
	lw	a2, 32(sp)                      # 4-byte Folded Reload
	slli	a5, a2, 5
	sw	a5, 92(sp)                      # 4-byte Folded Spill
	xor	a2, s11, s10
	xor	a3, s11, a1
	lw	s11, 60(sp)                     # 4-byte Folded Reload
	add	s11, s11, a5
	and	s8, s0, s8
	and	s10, s0, s6
	and	a5, a3, s7
	and	a7, a3, a7
	xor	a3, a3, s0
	xor	s0, s0, a0
	and	t5, a0, t5
	and	s6, a0, s9
	and	s7, s0, a4
	and	t6, s0, t3
	and	a2, a2, a0
	xor	a2, a2, t0
	and	s1, a3, s2
	and	t0, a3, s3
	xor	a1, a5, s10
	xor	a3, a3, a2
	xor	a0, a0, a2
	and	t3, a2, ra
	and	t4, a2, t4
	xor	s2, s1, a5
	xor	s3, a1, s6
	and	a2, a0, a6
	and	a6, a3, t1
	xor	a4, a3, s0
	and	a0, a0, s4
	and	a3, a3, s5
	and	s1, a4, t2
	xor	a5, a2, t3
	lw	s0, 104(sp)                     # 4-byte Folded Reload
	and	s0, s0, a4
	xor	t1, s3, a2
	xor	a1, a6, a1
	xor	a6, a3, t6
	xor	a4, s1, t6
	xor	s0, s0, a5
	xor	s1, t1, t4
	xor	a5, s2, a5
	xor	a1, a1, a0
	xor	a3, a4, t0
	xor	a4, a4, s1
	xor	a1, a1, s0
	xor	s1, s0, s7
	xor	s0, a3, a7
	xor	a2, a1, t5
	xor	t2, a4, a1
	xor	t3, a4, a0
	xor	a4, a3, s8
	xor	a1, a6, s1
	xor	a3, a5, s0
	xor	t5, a4, a2
	xor	t4, s0, s1
	xor	s2, a1, a2
	srli	a7, t3, 14
	slli	a2, t3, 18
	srli	t0, t3, 6
	slli	a4, t3, 26
	srli	a5, t2, 14
	slli	s0, t2, 18
	srli	a1, t2, 6
	slli	a0, t2, 26
	xor	s4, a3, s1
	xor	s1, a3, t1
	sw	s1, 104(sp)                     # 4-byte Folded Spill
	or	t1, a2, a7
	or	t0, a4, t0
	or	s3, s0, a5
	or	a7, a0, a1
	srli	s7, t5, 14
	slli	s0, t5, 18
	srli	s5, t5, 6
	slli	a2, t5, 26
	srli	a4, a3, 14
	slli	a5, a3, 18
	srli	s1, a3, 6
	slli	a0, a3, 26
	srli	s6, s2, 14
	slli	a1, s2, 18
	srli	s8, s2, 6
	or	s7, s0, s7
	slli	t6, s2, 26
	or	s5, a2, s5
	srli	ra, t4, 14
	or	s9, a5, a4
	slli	a5, t4, 18
	or	s10, a0, s1
	srli	s1, t4, 6
	or	s6, a1, s6
	slli	a4, t4, 26
	lw	a0, 44(sp)                      # 4-byte Folded Reload
	and	t1, t1, a0
	lw	s0, 48(sp)                      # 4-byte Folded Reload
	and	a1, t0, s0
	and	a6, s3, a0
	and	a2, a7, s0
	or	a7, t6, s8
	lw	s8, 104(sp)                     # 4-byte Folded Reload
	srli	t6, s8, 14
	or	t0, a5, ra
	slli	a5, s8, 18
	or	s3, a4, s1
	srli	s1, s8, 6
	or	a1, t1, a1
	slli	a4, s8, 26
	or	a6, a6, a2
	srli	a2, s4, 14
	or	t1, a5, t6
	slli	a5, s4, 18
	or	s8, a4, s1
	srli	t6, s4, 6
	or	ra, a5, a2
	slli	s1, s4, 26
	and	s7, s7, a0
	and	a4, s5, s0
	and	s5, s9, a0
	and	a5, s10, s0
	and	s6, s6, a0
	and	a2, a7, s0
	or	s1, s1, t6
	or	t6, s7, a4
	or	s7, s5, a5
	or	s5, s6, a2
	lw	s10, -32(s11)
	lw	s9, -28(s11)
	lw	s6, -24(s11)
	lw	a7, -20(s11)
	and	a5, t0, a0
	and	a2, s3, s0
	and	s3, t1, a0
	and	a4, s8, s0
	and	s8, ra, a0
	and	s0, s0, s1
	or	a2, a2, a5
	lw	a5, -16(s11)
	lw	ra, -12(s11)
	lw	t0, -8(s11)
	lw	s11, -4(s11)
	xor	t3, a1, t3
	xor	t2, a6, t2
	xor	t1, s10, a1
	xor	a1, s9, a6
	or	s3, s3, a4
	or	s8, s8, s0
	xor	s0, t6, t5
	xor	a3, s7, a3
	xor	a0, s5, s2
	xor	a4, a2, t4
	srli	t4, t3, 20
	slli	t5, t3, 12
	srli	s2, t3, 12
	slli	s9, t3, 20
	xor	t3, a1, t3
	srli	s10, t2, 20
	xor	s6, s6, t6
	slli	a1, t2, 12
	xor	s7, a5, s7
	srli	a5, t2, 12
	xor	s5, ra, s5
	slli	ra, t2, 20
	xor	s11, s11, a2
	xor	s1, s8, s4
	or	s4, t5, t4
	or	t4, s9, s2
	or	t5, a1, s10
	or	s2, ra, a5
	srli	s9, s0, 20
	slli	a2, s0, 12
	srli	ra, s0, 12
	slli	a1, s0, 20
	srli	s10, a3, 20
	xor	a5, s6, t2
	sw	a5, 88(sp)                      # 4-byte Folded Spill
	slli	s6, a3, 12
	xor	a7, a7, s0
	srli	s0, a3, 12
	xor	s5, s5, a3
	slli	a3, a3, 20
	xor	t0, t0, s8
	srli	a5, a0, 20
	or	s8, a2, s9
	slli	a2, a0, 12
	or	s9, a1, ra
	srli	ra, a0, 12
	or	s6, s6, s10
	slli	a1, a0, 20
	or	a3, a3, s0
	srli	s0, a4, 20
	or	s10, a2, a5
	slli	a5, a4, 12
	or	a1, a1, ra
	srli	a2, a4, 12
	or	ra, a5, s0
	slli	s0, a4, 20
	or	t2, s0, a2
	xor	t6, t1, a4
	xor	t1, t3, a4
	xor	t3, s7, a4
	xor	a7, a7, a4
	lw	a2, 104(sp)                     # 4-byte Folded Reload
	xor	a4, s3, a2
	lw	a2, 100(sp)                     # 4-byte Folded Reload
	and	a6, s4, a2
	lw	a5, 96(sp)                      # 4-byte Folded Reload
	and	s0, t4, a5
	and	t4, t5, a2
	and	t5, s2, a5
	xor	t0, t0, a0
	srli	s2, a4, 20
	or	a6, a6, s0
	slli	s0, a4, 12
	or	t5, t4, t5
	srli	a0, a4, 12
	xor	t3, t3, a4
	slli	a4, a4, 20
	or	s2, s0, s2
	srli	s0, s1, 20
	or	a0, a0, a4
	slli	a4, s1, 12
	or	t4, a4, s0
	srli	a4, s1, 12
	xor	s4, s11, s1
	slli	s1, s1, 20
	or	s7, s1, a4
	xor	s3, a7, s3
	and	s1, s8, a2
	and	s0, s9, a5
	or	s0, s0, s1
	and	s1, s6, a2
	and	a3, a3, a5
	or	a3, a3, s1
	and	s1, s10, a2
	and	a1, a1, a5
	or	a1, a1, s1
	and	a4, t2, a5
	and	a0, a0, a5
	and	a5, s7, a5
	and	s1, ra, a2
	or	a4, a4, s1
	xor	t2, t6, a6
	lw	t6, 60(sp)                      # 4-byte Folded Reload
	xor	a7, t1, t5
	and	s1, s2, a2
	or	s1, s1, a0
	and	a0, t4, a2
	or	a5, a5, a0
	lw	a0, 88(sp)                      # 4-byte Folded Reload
	xor	s6, a0, s0
	xor	a2, t3, a3
	xor	a0, s5, a1
	lw	a1, 92(sp)                      # 4-byte Folded Reload
	xor	a6, s3, s1
	xor	t0, t0, a5
	xor	s2, s4, a4
	j	.Laes_BB6_12
.Laes_BB6_11:                               # %else.12.i
	srli	t0, s7, 4
	lui	a7, 61441
	srli	t2, t1, 4
	srli	t3, s9, 4
	srli	t4, a6, 4
	srli	t5, s10, 4
	srli	t6, s4, 4
	srli	s2, s3, 4
	srli	s6, s5, 4
	xor	t0, t0, s7
	addi	a3, a7, -256
	xor	s1, t2, t1
	xor	s0, t3, s9
	xor	a5, t4, a6
	xor	t2, t5, s10
	xor	a1, t6, s4
	xor	t3, s2, s3
	xor	a7, s6, s5
	and	a0, t0, a3
	and	s1, s1, a3
	and	a4, s0, a3
	and	a2, a5, a3
	and	t4, t2, a3
	and	t2, a1, a3
	and	t0, t3, a3
	and	a7, a7, a3
	slli	a1, a0, 4
	or	a0, a0, a1
	slli	a1, s1, 4
	or	a1, a1, s1
	slli	s0, a4, 4
	or	a4, a4, s0
	slli	a5, a2, 4
	or	a2, a2, a5
	slli	a5, t4, 4
	or	a5, a5, t4
	slli	s1, t2, 4
	or	s1, s1, t2
	slli	s0, t0, 4
	or	s0, s0, t0
	slli	a3, a7, 4
	or	a3, a3, a7
	xor	t2, a0, s7
	xor	a7, a1, t1
	xor	s6, a4, s9
	xor	a6, a2, a6
	xor	a2, a5, s10
	xor	a0, s1, s4
	xor	t0, s0, s3
	xor	s2, a3, s5
	lw	a1, 32(sp)                      # 4-byte Folded Reload
	slli	a1, a1, 5
	lw	t6, 60(sp)                      # 4-byte Folded Reload
.Laes_BB6_12:                               # %"aes_soft::soft::ciphers::planes::EncryptPlaneCipher::process_planes::<#42add9d049d0c5fd>.exit"
	xor	s4, t0, a0
	xor	a3, s2, a2
	xor	t3, s2, a7
	xor	t1, a2, s6
	xor	t5, s2, s6
	add	t6, t6, a1
	xor	a0, s4, t2
	xor	s8, t3, t1
	xor	s5, a0, a2
	xor	a4, s8, a6
	xor	s7, a0, a7
	and	a1, s5, t2
	xor	t4, a4, s6
	xor	a5, a4, t0
	xor	a7, s7, t5
	and	t0, s7, a0
	mv	a4, a3
	sw	a3, 104(sp)                     # 4-byte Folded Spill
	xor	s1, a5, a3
	xor	s3, t4, t2
	and	a3, t4, s8
	xor	s6, t4, s4
	xor	a2, a1, t5
	and	a4, a4, s1
	xor	s4, s1, s4
	xor	a6, s1, s6
	and	a1, s6, t5
	xor	a5, a5, a3
	xor	a3, s6, a3
	xor	s9, a2, a3
	and	a3, s3, a7
	xor	ra, a5, a3
	and	a5, a6, t1
	xor	a1, a1, a4
	xor	a4, a4, a5
	and	a5, s4, t3
	xor	a2, s4, t0
	xor	a2, a2, a5
	xor	a5, a5, s2
	xor	s10, a0, s2
	xor	s11, s1, t2
	and	a3, s11, s10
	xor	a3, s4, a3
	xor	a3, a3, a5
	xor	s2, ra, a4
	xor	a2, a2, t3
	xor	ra, a2, a4
	xor	a4, s9, a1
	xor	a1, a1, a3
	and	a2, ra, s2
	xor	t0, a1, ra
	xor	a3, a2, a4
	and	a3, a3, t0
	xor	s9, s2, a4
	xor	a5, a2, a1
	and	s0, a5, s9
	xor	a4, a4, s0
	xor	a2, a2, a3
	xor	a3, a3, a1
	and	a1, a1, a2
	xor	a5, a5, a1
	lw	a2, 8(t6)
	xor	a1, a1, ra
	and	s0, a3, s5
	lw	t0, 12(t6)
	xor	s2, s0, a2
	and	a5, a5, a4
	xor	a2, a5, s9
	and	s9, a3, t2
	and	s0, a1, t4
	and	t2, a1, s8
	xor	a1, a1, a3
	xor	a3, a3, a4
	and	t4, a4, s10
	and	s5, a4, s11
	and	a5, a1, s3
	and	a7, a1, a7
	xor	a1, a1, a2
	xor	a4, a4, a2
	and	a0, a0, a2
	and	s3, a2, s7
	xor	a2, s0, s9
	xor	s7, a5, s0
	and	s0, a4, s4
	and	a4, a4, t3
	and	t3, a3, s1
	lw	s1, 104(sp)                     # 4-byte Folded Reload
	and	s1, s1, a3
	and	a5, a1, s6
	xor	a3, a3, a1
	and	t5, a1, t5
	and	t1, a3, t1
	and	a6, a3, a6
	lw	a3, 20(t6)
	xor	a1, a2, s5
	xor	a0, a0, s0
	xor	a1, a1, s0
	xor	a2, a2, a5
	lw	s5, 24(t6)
	lw	s4, 28(t6)
	xor	a3, a3, s1
	xor	a3, a3, t5
	xor	s1, t1, s1
	lw	s0, 0(t6)
	xor	a5, a0, a6
	xor	a6, s7, a0
	lw	a0, 4(t6)
	xor	t1, a4, s0
	xor	a2, a2, a4
	xor	a4, a1, s3
	xor	t0, a1, t0
	xor	a1, s1, a7
	xor	a4, a4, s1
	xor	a2, a2, a5
	xor	a5, a5, t3
	xor	s1, a2, t4
	xor	a0, a0, a2
	xor	a2, a1, t2
	xor	t2, s2, a1
	xor	a3, a3, a5
	xor	a7, a5, s5
	xor	a5, a5, s4
	xor	s0, t1, a4
	xor	a0, a0, a4
	lw	a4, 16(t6)
	xor	a1, a6, a2
	xor	a6, t2, s1
	xor	a3, a3, s1
	xor	t1, a5, a2
	srli	a5, s0, 1
	xor	s1, t0, a1
	xor	t0, a1, a4
	xor	a7, a7, a1
	xor	a5, a5, a0
	srli	a1, a6, 1
	lw	a2, 16(sp)                      # 4-byte Folded Reload
	and	a5, a5, a2
	xor	a1, a1, s1
	srli	a4, t0, 1
	xor	t3, a5, a0
	slli	a5, a5, 1
	xor	t2, a5, s0
	srli	a5, a7, 1
	and	a1, a1, a2
	xor	a4, a4, a3
	xor	a5, a5, t1
	and	a4, a4, a2
	and	a5, a5, a2
	xor	s1, s1, a1
	slli	a1, a1, 1
	xor	a2, a1, a6
	srli	a0, t3, 2
	xor	a6, a4, a3
	slli	a4, a4, 1
	xor	s0, a5, t1
	slli	a5, a5, 1
	xor	t0, a4, t0
	srli	a3, t2, 2
	xor	a0, a0, s1
	xor	t5, a5, a7
	xor	a3, a3, a2
	lw	a1, 20(sp)                      # 4-byte Folded Reload
	and	a0, a0, a1
	srli	a4, a6, 2
	and	a3, a3, a1
	xor	t4, a0, s1
	slli	a0, a0, 2
	xor	t3, a0, t3
	srli	a0, t0, 2
	xor	a4, a4, s0
	xor	t1, a3, a2
	slli	a3, a3, 2
	xor	a0, a0, t5
	and	a2, a4, a1
	xor	a7, a3, t2
	srli	a3, t4, 4
	and	a0, a0, a1
	slli	a4, a2, 2
	xor	a1, a2, s0
	srli	a2, t3, 4
	xor	a5, a4, a6
	srli	s0, t1, 4
	xor	t2, a0, t5
	slli	a0, a0, 2
	xor	a0, a0, t0
	srli	s1, a7, 4
	xor	a3, a3, a1
	xor	a4, a5, a2
	xor	s0, t2, s0
	lw	a2, 100(sp)                     # 4-byte Folded Reload
	and	a3, a3, a2
	xor	s1, s1, a0
	and	a4, a4, a2
	and	s0, s0, a2
	and	s1, s1, a2
	xor	a6, a3, a1
	slli	a3, a3, 4
	xor	a3, a3, t4
	xor	t4, a4, a5
	slli	a2, a4, 4
	xor	t0, a2, t3
	xor	a5, s0, t2
	slli	s0, s0, 4
	xor	a2, s1, a0
	slli	s1, s1, 4
	xor	a0, s0, t1
	srli	a1, a5, 8
	xor	s1, s1, a7
	srli	a7, a5, 16
	lw	s0, 24(sp)                      # 4-byte Folded Reload
	sb	a1, 13(s0)
	sb	a5, 12(s0)
	srli	a5, a5, 24
	sb	a7, 14(s0)
	srli	a1, a3, 8
	sb	a5, 15(s0)
	srli	a5, a3, 16
	sb	a1, 21(s0)
	sb	a3, 20(s0)
	srli	a3, a3, 24
	sb	a5, 22(s0)
	srli	a1, t4, 8
	sb	a3, 23(s0)
	srli	a3, t4, 16
	sb	a1, 25(s0)
	sb	t4, 24(s0)
	srli	a4, t4, 24
	sb	a3, 26(s0)
	srli	a1, a0, 8
	sb	a4, 27(s0)
	srli	a3, a0, 16
	sb	a1, 5(s0)
	sb	a0, 4(s0)
	srli	a0, a0, 24
	sb	a3, 6(s0)
	srli	a1, a2, 8
	sb	a0, 7(s0)
	srli	a0, a2, 16
	sb	a1, 9(s0)
	sb	a2, 8(s0)
	srli	a2, a2, 24
	sb	a0, 10(s0)
	srli	a0, t0, 8
	sb	a2, 11(s0)
	srli	a1, t0, 16
	sb	a0, 17(s0)
	sb	t0, 16(s0)
	srli	a0, t0, 24
	sb	a1, 18(s0)
	srli	a1, s1, 8
	sb	a0, 19(s0)
	srli	a0, s1, 16
	sb	a1, 1(s0)
	sb	s1, 0(s0)
	srli	s1, s1, 24
	sb	a0, 2(s0)
	srli	a0, a6, 8
	sb	s1, 3(s0)
	srli	a1, a6, 16
	sb	a0, 29(s0)
	sb	a6, 28(s0)
	srli	a0, a6, 24
	sb	a1, 30(s0)
	sb	a0, 31(s0)
	lw	ra, 156(sp)                     # 4-byte Folded Reload
	lw	s0, 152(sp)                     # 4-byte Folded Reload
	lw	s1, 148(sp)                     # 4-byte Folded Reload
	lw	s2, 144(sp)                     # 4-byte Folded Reload
	lw	s3, 140(sp)                     # 4-byte Folded Reload
	lw	s4, 136(sp)                     # 4-byte Folded Reload
	lw	s5, 132(sp)                     # 4-byte Folded Reload
	lw	s6, 128(sp)                     # 4-byte Folded Reload
	lw	s7, 124(sp)                     # 4-byte Folded Reload
	lw	s8, 120(sp)                     # 4-byte Folded Reload
	lw	s9, 116(sp)                     # 4-byte Folded Reload
	lw	s10, 112(sp)                    # 4-byte Folded Reload
	lw	s11, 108(sp)                    # 4-byte Folded Reload
	addi	sp, sp, 160
	ret
.Laes_func_end6:
	.size	aes.aes_soft.soft.ciphers.planes.process_outlined.1, .Laes_func_end6-aes.aes_soft.soft.ciphers.planes.process_outlined.1
                                        # -- End function
	.section	.text.aes.aes_cipher.zeroize.stack.wipe_stack.1024,"ax",@progbits
	.p2align	1                               # -- Begin function aes_cipher::zeroize::stack::wipe_stack::<=1024>
	.type	aes.aes_cipher.zeroize.stack.wipe_stack.1024,@function
aes.aes_cipher.zeroize.stack.wipe_stack.1024: # @aes.aes_cipher.zeroize.stack.wipe_stack.1024
# %bb.0:                                # %start
	addi	sp, sp, -1056
	sw	ra, 1052(sp)                    # 4-byte Folded Spill
	sw	s0, 1048(sp)                    # 4-byte Folded Spill
	addi	a0, sp, 24
	li	a2, 1024
	addi	s0, sp, 24
	li	a1, 0
	call	memset
	sw	zero, 16(sp)
	sw	zero, 20(sp)
	#APP
	#NO_APP
	lw	a0, 16(sp)
	lw	a1, 20(sp)
	#APP
	#NO_APP
	seqz	a1, a1
	sltiu	a2, a0, 1024
	and	a1, a1, a2
	beqz	a1, .Laes_BB7_2
# %bb.1:                                # %then.1
	add	a0, a0, s0
	lbu	a0, 0(a0)
	#APP
	#NO_APP
	lw	zero, 20(sp)
	lw	zero, 16(sp)
	sw	zero, 20(sp)
	sw	a0, 16(sp)
	#APP
	#NO_APP
.Laes_BB7_2:                                # %common.ret
	lw	ra, 1052(sp)                    # 4-byte Folded Reload
	lw	s0, 1048(sp)                    # 4-byte Folded Reload
	addi	sp, sp, 1056
	ret
.Laes_func_end7:
	.size	aes.aes_cipher.zeroize.stack.wipe_stack.1024, .Laes_func_end7-aes.aes_cipher.zeroize.stack.wipe_stack.1024
                                        # -- End function
	.section	.text.aes.aes_narrow.borrowed_words.call_to_encrypt,"ax",@progbits
	.p2align	1                               # -- Begin function aes_narrow::borrowed_words::call_to_encrypt::<#b6a72634b88802f3>
	.type	aes.aes_narrow.borrowed_words.call_to_encrypt,@function
aes.aes_narrow.borrowed_words.call_to_encrypt: # @aes.aes_narrow.borrowed_words.call_to_encrypt
# %bb.0:                                # %start
	addi	sp, sp, -416
	sw	ra, 412(sp)                     # 4-byte Folded Spill
	sw	s0, 408(sp)                     # 4-byte Folded Spill
	sw	s1, 404(sp)                     # 4-byte Folded Spill
	sw	s2, 400(sp)                     # 4-byte Folded Spill
	sw	s3, 396(sp)                     # 4-byte Folded Spill
	sw	s4, 392(sp)                     # 4-byte Folded Spill
	sw	s5, 388(sp)                     # 4-byte Folded Spill
	sw	s6, 384(sp)                     # 4-byte Folded Spill
	sw	s7, 380(sp)                     # 4-byte Folded Spill
	sw	s8, 376(sp)                     # 4-byte Folded Spill
	sw	s9, 372(sp)                     # 4-byte Folded Spill
	sw	s10, 368(sp)                    # 4-byte Folded Spill
	sw	s11, 364(sp)                    # 4-byte Folded Spill
	lw	s11, 24(a3)
	lw	s2, 28(a3)
	lw	s1, 8(a3)
	lw	s0, 0(a3)
	lw	s3, 12(a3)
	lw	s5, 16(a3)
	andi	a3, s1, 15
	sw	a0, 28(sp)                      # 4-byte Folded Spill
	sw	a0, 88(sp)
	sw	zero, 92(sp)
	sw	a1, 32(sp)                      # 4-byte Folded Spill
	sw	a1, 96(sp)
	sw	a2, 36(sp)                      # 4-byte Folded Spill
	sw	a2, 100(sp)
	beqz	a3, .Laes_BB8_2
# %bb.1:                                # %then.1.i.i
	addi	a0, sp, 88
	mv	a1, s0
	mv	a2, s1
	mv	a3, s3
	li	a4, 0
	li	a5, 0
	mv	a6, s5
	mv	a7, s11
	mv	t3, s2
	call	aes.aes_ctr.add_in_batches.add_next
	mv	s6, a0
	mv	s9, a1
	j	.Laes_BB8_3
.Laes_BB8_2:
	li	s6, 0
	li	s9, 0
.Laes_BB8_3:                                # %join.3.i.i
	sltu	a0, s11, s6
	sub	a1, s2, s9
	sub	a1, a1, a0
	sub	a0, s11, s6
	seqz	a1, a1
	sltiu	a0, a0, 32
	and	a0, a0, a1
	bnez	a0, .Laes_BB8_8
# %bb.4:                                # %join.11.lr.ph.i.i
	sw	s11, 24(sp)                     # 4-byte Folded Spill
	sw	s2, 20(sp)                      # 4-byte Folded Spill
	sw	s1, 16(sp)                      # 4-byte Folded Spill
	sw	s0, 12(sp)                      # 4-byte Folded Spill
	sw	s3, 8(sp)                       # 4-byte Folded Spill
	sw	s5, 84(sp)                      # 4-byte Folded Spill
	j	.Laes_BB8_6
.Laes_BB8_5:                                # %join.11.i.i
                                        #   in Loop: Header=BB8_6 Depth=1
	add	a0, a0, a4
	srli	t0, a1, 8
	srli	s0, a1, 16
	srli	a2, a1, 24
	srli	a7, a5, 8
	srli	t1, a5, 16
	srli	s1, a5, 24
	addi	a3, a5, 1
	srli	t2, a0, 8
	srli	t3, a0, 16
	srli	t4, a0, 24
	sltu	a4, a0, a4
	sb	a2, 116(sp)
	sb	s0, 117(sp)
	sb	t0, 118(sp)
	sb	a1, 119(sp)
	sb	s1, 120(sp)
	sb	t1, 121(sp)
	sb	a7, 122(sp)
	sb	a5, 123(sp)
	seqz	a2, a3
	srli	a5, a3, 8
	srli	s1, a3, 16
	srli	s0, a3, 24
	add	a4, a4, a6
	sb	t4, 112(sp)
	sb	t3, 113(sp)
	sb	t2, 114(sp)
	sb	a0, 115(sp)
	add	a1, a1, a2
	sb	s0, 136(sp)
	sb	s1, 137(sp)
	sb	a5, 138(sp)
	sb	a3, 139(sp)
	srli	a7, a4, 8
	srli	a5, a4, 16
	srli	s1, a4, 24
	or	a3, a3, a1
	srli	a6, a1, 8
	srli	s0, a1, 16
	srli	a2, a1, 24
	sb	s1, 108(sp)
	sb	a5, 109(sp)
	sb	a7, 110(sp)
	sb	a4, 111(sp)
	seqz	a3, a3
	sb	a2, 132(sp)
	sb	s0, 133(sp)
	sb	a6, 134(sp)
	sb	a1, 135(sp)
	add	a3, a3, a0
	sltu	a0, a3, a0
	srli	a1, a3, 8
	srli	a2, a3, 16
	srli	a5, a3, 24
	add	a0, a0, a4
	sb	a5, 128(sp)
	sb	a2, 129(sp)
	sb	a1, 130(sp)
	sb	a3, 131(sp)
	srli	a1, a0, 8
	srli	a2, a0, 16
	srli	a3, a0, 24
	sb	a3, 124(sp)
	sb	a2, 125(sp)
	sb	a1, 126(sp)
	sb	a0, 127(sp)
	lw	s5, 84(sp)                      # 4-byte Folded Reload
	add	s5, s5, s6
	addi	a3, sp, 108
	li	a4, 2
	lw	a0, 28(sp)                      # 4-byte Folded Reload
	lw	a1, 32(sp)                      # 4-byte Folded Reload
	lw	a2, 36(sp)                      # 4-byte Folded Reload
	li	a5, 0
	call	aes.aes_soft.soft.blocks.filled_up.process_filled_up.1
	lbu	a0, 12(s5)
	sw	a0, 80(sp)                      # 4-byte Folded Spill
	lbu	s11, 13(s5)
	lbu	s10, 14(s5)
	lbu	s2, 15(s5)
	lbu	t5, 8(s5)
	lbu	t4, 9(s5)
	lbu	s4, 10(s5)
	lbu	t3, 11(s5)
	lbu	t0, 4(s5)
	lbu	a7, 5(s5)
	lbu	t6, 6(s5)
	lbu	ra, 7(s5)
	lbu	a2, 0(s5)
	lbu	a1, 1(s5)
	lbu	t1, 2(s5)
	lbu	a6, 3(s5)
	lbu	s7, 108(sp)
	lbu	a0, 109(sp)
	lbu	a4, 110(sp)
	lbu	s0, 111(sp)
	lbu	a3, 112(sp)
	lbu	s3, 113(sp)
	lbu	t2, 114(sp)
	lbu	s1, 115(sp)
	addi	s8, s6, 32
	sltu	a5, s8, s6
	add	s9, s9, a5
	xor	a2, s7, a2
	sw	a2, 76(sp)                      # 4-byte Folded Spill
	xor	a0, a0, a1
	sw	a0, 72(sp)                      # 4-byte Folded Spill
	lbu	a0, 116(sp)
	lbu	a5, 117(sp)
	lbu	a2, 118(sp)
	lbu	s7, 119(sp)
	xor	a1, a4, t1
	sw	a1, 68(sp)                      # 4-byte Folded Spill
	xor	a1, s0, a6
	sw	a1, 64(sp)                      # 4-byte Folded Spill
	xor	a1, a3, t0
	sw	a1, 56(sp)                      # 4-byte Folded Spill
	xor	a1, s3, a7
	sw	a1, 52(sp)                      # 4-byte Folded Spill
	lbu	s0, 120(sp)
	lbu	a1, 121(sp)
	lbu	a7, 122(sp)
	lbu	a6, 123(sp)
	xor	s3, t2, t6
	xor	a3, s1, ra
	sw	a3, 40(sp)                      # 4-byte Folded Spill
	xor	t5, a0, t5
	xor	t6, a5, t4
	lbu	a5, 16(s5)
	lbu	a0, 17(s5)
	lbu	t0, 18(s5)
	lbu	ra, 19(s5)
	xor	t4, a2, s4
	xor	t3, s7, t3
	lw	a2, 80(sp)                      # 4-byte Folded Reload
	xor	t1, s0, a2
	xor	s7, a1, s11
	lbu	a1, 124(sp)
	lbu	a2, 125(sp)
	lbu	a4, 126(sp)
	lbu	s1, 127(sp)
	xor	a7, a7, s10
	mv	s0, s9
	xor	s9, a6, s2
	xor	a1, a1, a5
	sw	a1, 80(sp)                      # 4-byte Folded Spill
	xor	a0, a0, a2
	sw	a0, 60(sp)                      # 4-byte Folded Spill
	lbu	a0, 20(s5)
	lbu	a1, 21(s5)
	lbu	a2, 22(s5)
	lbu	a5, 23(s5)
	xor	a3, a4, t0
	sw	a3, 48(sp)                      # 4-byte Folded Spill
	xor	a3, s1, ra
	sw	a3, 44(sp)                      # 4-byte Folded Spill
	lbu	a4, 128(sp)
	lbu	s1, 129(sp)
	lbu	ra, 130(sp)
	lbu	s4, 131(sp)
	xor	t2, a4, a0
	xor	t0, s1, a1
	xor	ra, ra, a2
	xor	s4, s4, a5
	lbu	a5, 24(s5)
	lbu	s1, 25(s5)
	lbu	a2, 26(s5)
	lbu	a4, 27(s5)
	lbu	a0, 132(sp)
	lbu	a1, 133(sp)
	lbu	s10, 134(sp)
	lbu	s6, 135(sp)
	xor	a3, a0, a5
	xor	a6, a1, s1
	xor	s10, s10, a2
	xor	s6, s6, a4
	lbu	a5, 28(s5)
	lbu	s1, 29(s5)
	lbu	a2, 30(s5)
	lbu	a4, 31(s5)
	lbu	s2, 136(sp)
	lbu	a0, 137(sp)
	lbu	a1, 138(sp)
	lbu	s11, 139(sp)
	xor	a5, s2, a5
	xor	a0, a0, s1
	xor	a1, a1, a2
	xor	a2, s11, a4
	lw	s11, 24(sp)                     # 4-byte Folded Reload
	sltu	a4, s11, s8
	lw	s2, 20(sp)                      # 4-byte Folded Reload
	sub	s1, s2, s0
	sub	s1, s1, a4
	sb	t1, 12(s5)
	sb	s7, 13(s5)
	sb	a7, 14(s5)
	sb	s9, 15(s5)
	mv	s9, s0
	sb	t5, 8(s5)
	sb	t6, 9(s5)
	sb	t4, 10(s5)
	sb	t3, 11(s5)
	lw	a4, 56(sp)                      # 4-byte Folded Reload
	sb	a4, 4(s5)
	lw	a4, 52(sp)                      # 4-byte Folded Reload
	sb	a4, 5(s5)
	sb	s3, 6(s5)
	lw	a4, 40(sp)                      # 4-byte Folded Reload
	sb	a4, 7(s5)
	lw	a4, 76(sp)                      # 4-byte Folded Reload
	sb	a4, 0(s5)
	lw	a4, 72(sp)                      # 4-byte Folded Reload
	sb	a4, 1(s5)
	lw	a4, 68(sp)                      # 4-byte Folded Reload
	sb	a4, 2(s5)
	lw	a4, 64(sp)                      # 4-byte Folded Reload
	sb	a4, 3(s5)
	sb	a5, 28(s5)
	sb	a0, 29(s5)
	sb	a1, 30(s5)
	sb	a2, 31(s5)
	sb	a3, 24(s5)
	sb	a6, 25(s5)
	sb	s10, 26(s5)
	sb	s6, 27(s5)
	sb	t2, 20(s5)
	sb	t0, 21(s5)
	sb	ra, 22(s5)
	sb	s4, 23(s5)
	sub	a0, s11, s8
	sltiu	a0, a0, 32
	seqz	a1, s1
	and	a0, a0, a1
	lw	a1, 80(sp)                      # 4-byte Folded Reload
	sb	a1, 16(s5)
	lw	a1, 60(sp)                      # 4-byte Folded Reload
	sb	a1, 17(s5)
	lw	a1, 48(sp)                      # 4-byte Folded Reload
	sb	a1, 18(s5)
	lw	a1, 44(sp)                      # 4-byte Folded Reload
	sb	a1, 19(s5)
	lw	s5, 84(sp)                      # 4-byte Folded Reload
	mv	s6, s8
	lw	s1, 16(sp)                      # 4-byte Folded Reload
	lw	s0, 12(sp)                      # 4-byte Folded Reload
	lw	s3, 8(sp)                       # 4-byte Folded Reload
	bnez	a0, .Laes_BB8_9
.Laes_BB8_6:                                # %join.11.i.i
                                        # =>This Inner Loop Header: Depth=1
	add	a0, s6, s1
	add	a1, s9, s3
	sltu	a2, a0, s6
	add	a1, a1, a2
	srli	s3, a1, 4
	slli	a1, a1, 28
	srli	a0, a0, 4
	or	s4, a0, a1
	li	a2, 224
	addi	a0, sp, 140
	li	a1, 0
	call	memset
	lbu	a0, 0(s0)
	lbu	a1, 1(s0)
	lbu	t0, 2(s0)
	lbu	a7, 3(s0)
	lbu	t1, 4(s0)
	lbu	t2, 5(s0)
	lbu	t3, 6(s0)
	lbu	a6, 7(s0)
	lbu	s1, 8(s0)
	lbu	a3, 9(s0)
	lbu	a2, 10(s0)
	lbu	t5, 11(s0)
	slli	a0, a0, 24
	slli	a1, a1, 16
	or	t6, a1, a0
	lbu	a1, 12(s0)
	lbu	a5, 13(s0)
	lbu	a0, 14(s0)
	lbu	t4, 15(s0)
	slli	t0, t0, 8
	slli	t1, t1, 24
	slli	t2, t2, 16
	slli	t3, t3, 8
	slli	s1, s1, 24
	slli	a3, a3, 16
	slli	a2, a2, 8
	slli	a1, a1, 24
	slli	a5, a5, 16
	slli	s0, a0, 8
	or	a4, t0, a7
	or	a0, t1, t2
	or	a3, a3, s1
	or	a2, a2, t5
	or	a1, a1, a5
	or	s1, t6, a4
	or	a0, a0, t3
	or	a2, a2, a3
	or	a1, a1, s0
	or	a4, a0, a6
	or	a5, a1, t4
	add	a2, a2, s3
	sltu	a3, a4, a0
	sltu	a1, a5, a1
	add	a5, a5, s4
	sltu	a0, a5, s4
	add	a1, a1, a2
	add	a1, a1, a0
	add	a6, s1, a3
	beq	a1, s3, .Laes_BB8_5
# %bb.7:                                # %join.11.i.i
                                        #   in Loop: Header=BB8_6 Depth=1
	sltu	a0, a1, s3
	j	.Laes_BB8_5
.Laes_BB8_8:
	mv	s8, s6
.Laes_BB8_9:                                # %loop.13.preheader.i.i
	beq	s9, s2, .Laes_BB8_11
# %bb.10:                               # %loop.13.preheader.i.i
	sltu	a0, s9, s2
	bnez	a0, .Laes_BB8_13
	j	.Laes_BB8_15
.Laes_BB8_11:
	sltu	a0, s8, s11
	bnez	a0, .Laes_BB8_13
	j	.Laes_BB8_15
.Laes_BB8_12:                               # %join.16.i.i
                                        #   in Loop: Header=BB8_13 Depth=1
	sltu	a0, s9, s2
	beqz	a0, .Laes_BB8_15
.Laes_BB8_13:                               # %join.16.i.i
                                        # =>This Inner Loop Header: Depth=1
	addi	a0, sp, 88
	mv	a1, s0
	mv	a2, s1
	mv	a3, s3
	mv	a4, s8
	mv	a5, s9
	mv	a6, s5
	mv	a7, s11
	mv	t3, s2
	call	aes.aes_ctr.add_in_batches.add_next
	mv	s8, a0
	mv	s9, a1
	bne	a1, s2, .Laes_BB8_12
# %bb.14:                               #   in Loop: Header=BB8_13 Depth=1
	sltu	a0, s8, s11
	bnez	a0, .Laes_BB8_13
.Laes_BB8_15:                               # %"aes_ctr::add_in_batches::AddStreamBlockCipherEncClosure::call::<#b3b189439790eae9>.exit"
	lw	ra, 412(sp)                     # 4-byte Folded Reload
	lw	s0, 408(sp)                     # 4-byte Folded Reload
	lw	s1, 404(sp)                     # 4-byte Folded Reload
	lw	s2, 400(sp)                     # 4-byte Folded Reload
	lw	s3, 396(sp)                     # 4-byte Folded Reload
	lw	s4, 392(sp)                     # 4-byte Folded Reload
	lw	s5, 388(sp)                     # 4-byte Folded Reload
	lw	s6, 384(sp)                     # 4-byte Folded Reload
	lw	s7, 380(sp)                     # 4-byte Folded Reload
	lw	s8, 376(sp)                     # 4-byte Folded Reload
	lw	s9, 372(sp)                     # 4-byte Folded Reload
	lw	s10, 368(sp)                    # 4-byte Folded Reload
	lw	s11, 364(sp)                    # 4-byte Folded Reload
	addi	sp, sp, 416
	ret
.Laes_func_end8:
	.size	aes.aes_narrow.borrowed_words.call_to_encrypt, .Laes_func_end8-aes.aes_narrow.borrowed_words.call_to_encrypt
                                        # -- End function
	.section	.text.aes.aes_ctr.add_in_batches.add_next,"ax",@progbits
	.p2align	1                               # -- Begin function aes_ctr::add_in_batches::add_next::<#a8e061590e9ece31>
	.type	aes.aes_ctr.add_in_batches.add_next,@function
aes.aes_ctr.add_in_batches.add_next: # @aes.aes_ctr.add_in_batches.add_next
# %bb.0:                                # %start
	addi	sp, sp, -352
	sw	ra, 348(sp)                     # 4-byte Folded Spill
	sw	s0, 344(sp)                     # 4-byte Folded Spill
	sw	s1, 340(sp)                     # 4-byte Folded Spill
	sw	s2, 336(sp)                     # 4-byte Folded Spill
	sw	s3, 332(sp)                     # 4-byte Folded Spill
	sw	s4, 328(sp)                     # 4-byte Folded Spill
	sw	s5, 324(sp)                     # 4-byte Folded Spill
	sw	s6, 320(sp)                     # 4-byte Folded Spill
	sw	s7, 316(sp)                     # 4-byte Folded Spill
	sw	s8, 312(sp)                     # 4-byte Folded Spill
	sw	s9, 308(sp)                     # 4-byte Folded Spill
	sw	s10, 304(sp)                    # 4-byte Folded Spill
	sw	s11, 300(sp)                    # 4-byte Folded Spill
	mv	s3, t3
	sw	a6, 24(sp)                      # 4-byte Folded Spill
	mv	s7, a5
	mv	s9, a4
	mv	s1, a1
	mv	s8, a0
	li	a1, 16
	add	t0, a5, a3
	add	a2, a2, a4
	sltu	a5, a7, a4
	sub	s0, t3, s7
	andi	a0, a2, 15
	sub	a3, a1, a0
	sltiu	a1, a0, 17
	addi	a6, a3, 16
	xori	a1, a1, 1
	sw	a3, 4(sp)                       # 4-byte Folded Spill
	sltu	a4, a6, a3
	sub	a1, a4, a1
	sltu	a3, a2, s9
	sub	s0, s0, a5
	sw	a7, 8(sp)                       # 4-byte Folded Spill
	sub	a4, a7, s9
	beq	s0, a1, .Laes_BB9_2
# %bb.1:                                # %start
	sltu	a5, s0, a1
	add	a3, a3, t0
	beqz	a5, .Laes_BB9_3
	j	.Laes_BB9_4
.Laes_BB9_2:
	sltu	a5, a4, a6
	add	a3, a3, t0
	bnez	a5, .Laes_BB9_4
.Laes_BB9_3:                                # %start
	mv	s0, a1
	mv	a4, a6
.Laes_BB9_4:                                # %start
	sw	s0, 40(sp)                      # 4-byte Folded Spill
	sw	a4, 36(sp)                      # 4-byte Folded Spill
	sw	a0, 32(sp)                      # 4-byte Folded Spill
	add	a0, a0, a4
	srli	s2, a3, 4
	slli	a3, a3, 28
	srli	a2, a2, 4
	slli	a1, a0, 24
	andi	a0, a0, 15
	or	s5, a2, a3
	srli	a1, a1, 28
	snez	s4, a0
	add	s4, s4, a1
	sltu	a0, s4, a1
	sw	a0, 20(sp)                      # 4-byte Folded Spill
	addi	a0, sp, 76
	li	a2, 224
	li	a1, 0
	call	memset
	lbu	t0, 0(s1)
	lbu	t1, 1(s1)
	lbu	t2, 2(s1)
	lbu	a7, 3(s1)
	lbu	t3, 4(s1)
	lbu	t4, 5(s1)
	lbu	t5, 6(s1)
	lbu	a6, 7(s1)
	lbu	a3, 8(s1)
	lbu	a0, 9(s1)
	lbu	a1, 10(s1)
	lbu	ra, 11(s1)
	lbu	a4, 12(s1)
	lbu	a5, 13(s1)
	lbu	s0, 14(s1)
	lbu	t6, 15(s1)
	slli	t0, t0, 24
	slli	t1, t1, 16
	slli	t2, t2, 8
	slli	t3, t3, 24
	slli	t4, t4, 16
	slli	t5, t5, 8
	slli	a3, a3, 24
	slli	a0, a0, 16
	slli	a1, a1, 8
	slli	a4, a4, 24
	slli	a5, a5, 16
	slli	s0, s0, 8
	or	t0, t1, t0
	or	a2, t2, a7
	or	s1, t3, t4
	or	a0, a0, a3
	or	a1, a1, ra
	or	a4, a4, a5
	or	a3, t0, a2
	or	a5, s1, t5
	or	a0, a0, a1
	or	a4, a4, s0
	or	a7, a5, a6
	or	a1, a4, t6
	add	s1, s2, a0
	sltu	a6, a7, a5
	sltu	a5, a1, a4
	add	s11, s5, a1
	sltu	a0, s11, s5
	add	a1, s1, a5
	add	t1, a1, a0
	add	a3, a3, a6
	sw	a3, 16(sp)                      # 4-byte Folded Spill
	beq	t1, s2, .Laes_BB9_6
# %bb.5:                                # %start
	sltu	a0, t1, s2
.Laes_BB9_6:                                # %start
	add	a2, a7, a0
	srli	t0, t1, 8
	srli	t2, t1, 16
	srli	a4, t1, 24
	srli	a0, s11, 8
	sw	a0, 12(sp)                      # 4-byte Folded Spill
	srli	a1, s11, 16
	srli	t3, s11, 24
	addi	a5, s11, 1
	xori	s5, s4, 1
	lbu	t5, 0(s8)
	lbu	s2, 1(s8)
	lbu	s4, 2(s8)
	lbu	ra, 3(s8)
	lbu	t6, 12(s8)
	lbu	s1, 13(s8)
	lbu	s0, 14(s8)
	lbu	t4, 15(s8)
	lbu	a3, 8(s8)
	lbu	s10, 9(s8)
	lbu	s6, 10(s8)
	lbu	s8, 11(s8)
	srli	a6, a2, 8
	srli	a0, a2, 16
	sb	a4, 52(sp)
	srli	a4, a2, 24
	sltu	a7, a2, a7
	sb	t2, 53(sp)
	sb	t0, 54(sp)
	sb	t1, 55(sp)
	sb	t3, 56(sp)
	sb	a1, 57(sp)
	lw	a1, 12(sp)                      # 4-byte Folded Reload
	sb	a1, 58(sp)
	sb	s11, 59(sp)
	seqz	t3, a5
	srli	t2, a5, 8
	lw	a1, 20(sp)                      # 4-byte Folded Reload
	or	t0, s5, a1
	srli	s5, a5, 16
	lw	a1, 16(sp)                      # 4-byte Folded Reload
	add	a7, a7, a1
	srli	a1, a5, 24
	sb	a4, 48(sp)
	sb	a0, 49(sp)
	sb	a6, 50(sp)
	sb	a2, 51(sp)
	add	t1, t1, t3
	sb	a1, 72(sp)
	sb	s5, 73(sp)
	sb	t2, 74(sp)
	sb	a5, 75(sp)
	srli	t2, a7, 8
	srli	a1, a7, 16
	srli	a4, a7, 24
	or	a5, a5, t1
	srli	a6, t1, 8
	srli	t3, t1, 16
	srli	a0, t1, 24
	sb	a4, 44(sp)
	sb	a1, 45(sp)
	sb	t2, 46(sp)
	sb	a7, 47(sp)
	seqz	a1, a5
	sb	a0, 68(sp)
	sb	t3, 69(sp)
	sb	a6, 70(sp)
	sb	t1, 71(sp)
	slli	s2, s2, 8
	slli	s4, s4, 16
	slli	ra, ra, 24
	slli	s1, s1, 8
	slli	s0, s0, 16
	slli	t4, t4, 24
	slli	s10, s10, 8
	slli	s6, s6, 16
	slli	s8, s8, 24
	add	a1, a1, a2
	or	t2, s2, t5
	or	a0, ra, s4
	or	t3, s1, t6
	or	s1, t4, s0
	or	a6, s10, a3
	or	t1, s8, s6
	sltu	a3, a1, a2
	srli	s0, a1, 8
	srli	a4, a1, 16
	srli	a5, a1, 24
	or	a0, a0, t2
	or	a2, s1, t3
	add	a3, a3, a7
	sb	a5, 64(sp)
	sb	a4, 65(sp)
	sb	s0, 66(sp)
	sb	a1, 67(sp)
	srli	a1, a3, 8
	srli	a4, a3, 16
	srli	a5, a3, 24
	sb	a5, 60(sp)
	sb	a4, 61(sp)
	sb	a1, 62(sp)
	sb	a3, 63(sp)
	or	a1, t1, a6
	addi	a3, sp, 44
	bnez	t0, .Laes_BB9_8
# %bb.7:                                # %then.1.i.i.i
	li	a4, 1
	j	.Laes_BB9_9
.Laes_BB9_8:                                # %else.2.i.i.i
	li	a4, 2
.Laes_BB9_9:                                # %"aes_ctr::keystream::fill_by_backend::<#a8e061590e9ece31>.exit"
	li	a5, 0
	call	aes.aes_soft.soft.blocks.filled_up.process_filled_up.1
	lw	s0, 40(sp)                      # 4-byte Folded Reload
	lw	a0, 24(sp)                      # 4-byte Folded Reload
	add	s4, a0, s9
	lw	a1, 36(sp)                      # 4-byte Folded Reload
	lw	t0, 32(sp)                      # 4-byte Folded Reload
	sw	s7, 28(sp)                      # 4-byte Folded Spill
	beqz	t0, .Laes_BB9_12
# %bb.10:                               # %then.1.i
	li	a0, 16
	sltu	a0, a0, t0
	neg	a2, a0
	beq	s0, a2, .Laes_BB9_13
# %bb.11:                               # %then.1.i
	mv	a0, s3
	sltu	a3, s0, a2
	mv	s2, s0
	mv	s3, a1
	beqz	a3, .Laes_BB9_14
	j	.Laes_BB9_15
.Laes_BB9_12:
	li	s3, 0
	li	s2, 0
	j	.Laes_BB9_20
.Laes_BB9_13:
	mv	a0, s3
	lw	a3, 4(sp)                       # 4-byte Folded Reload
	sltu	a3, a1, a3
	mv	s2, s0
	mv	s3, a1
	bnez	a3, .Laes_BB9_15
.Laes_BB9_14:                               # %then.1.i
	mv	s2, a2
	lw	s3, 4(sp)                       # 4-byte Folded Reload
.Laes_BB9_15:                               # %then.1.i
	lw	a2, 8(sp)                       # 4-byte Folded Reload
	xor	a2, a2, s9
	xor	a3, a0, s7
	or	a2, a2, a3
	beqz	a2, .Laes_BB9_20
# %bb.16:                               # %join.8.i85.preheader
	li	a2, 0
	li	a3, 0
	j	.Laes_BB9_18
.Laes_BB9_17:                               # %join.8.i85
                                        #   in Loop: Header=BB9_18 Depth=1
	sltu	a4, a3, s2
	beqz	a4, .Laes_BB9_20
.Laes_BB9_18:                               # %join.8.i85
                                        # =>This Inner Loop Header: Depth=1
	add	a4, a2, t0
	addi	a5, sp, 44
	add	s1, s4, a2
	add	a4, a4, a5
	lbu	a5, 0(s1)
	lbu	a4, 0(a4)
	addi	a2, a2, 1
	xor	a4, a4, a5
	seqz	a5, a2
	add	a3, a3, a5
	sb	a4, 0(s1)
	bne	a3, s2, .Laes_BB9_17
# %bb.19:                               #   in Loop: Header=BB9_18 Depth=1
	sltu	a4, a2, s3
	bnez	a4, .Laes_BB9_18
.Laes_BB9_20:                               # %join.3.i
	sw	s9, 24(sp)                      # 4-byte Folded Spill
	sltu	a3, a1, s3
	sub	a4, s0, s2
	sub	ra, a1, s3
	sub	s7, a4, a3
	seqz	a3, s7
	sltiu	a5, ra, 16
	and	a3, a3, a5
	bnez	a3, .Laes_BB9_22
.Laes_BB9_21:                               # %join.8.i
                                        # =>This Inner Loop Header: Depth=1
	mv	a2, s3
	add	a4, s3, t0
	addi	t3, sp, 44
	addi	s3, s3, 16
	add	a3, s4, a2
	andi	s6, a4, -16
	sltu	a0, s3, a2
	lbu	t1, 8(a3)
	lbu	a7, 9(a3)
	lbu	t0, 10(a3)
	lbu	a6, 11(a3)
	lbu	t6, 4(a3)
	lbu	t2, 5(a3)
	lbu	t5, 6(a3)
	lbu	t4, 7(a3)
	lbu	s11, 0(a3)
	lbu	s8, 1(a3)
	lbu	s5, 2(a3)
	lbu	s10, 3(a3)
	lw	a1, 36(sp)                      # 4-byte Folded Reload
	sltu	a4, a1, s3
	sub	ra, a1, s3
	add	t3, t3, s6
	add	s2, s2, a0
	sub	a4, s0, a4
	sltiu	s0, ra, 16
	lbu	s1, 0(t3)
	lbu	a5, 1(t3)
	lbu	a2, 2(t3)
	lbu	a0, 3(t3)
	sub	s7, a4, s2
	seqz	a1, s7
	and	s6, a1, s0
	xor	s11, s1, s11
	lbu	s1, 4(t3)
	lbu	a1, 5(t3)
	lbu	s0, 6(t3)
	lbu	s9, 7(t3)
	xor	a5, a5, s8
	xor	s8, a2, s5
	xor	s5, a0, s10
	xor	t6, s1, t6
	lbu	a0, 8(t3)
	lbu	a2, 9(t3)
	lbu	a4, 10(t3)
	lbu	s1, 11(t3)
	xor	s10, a1, t2
	xor	t5, s0, t5
	xor	t2, s9, t4
	xor	t1, a0, t1
	lbu	a1, 12(a3)
	lbu	s0, 13(a3)
	lbu	s9, 14(a3)
	lbu	t4, 15(a3)
	xor	a7, a2, a7
	xor	t0, a4, t0
	xor	a6, s1, a6
	lbu	a2, 12(t3)
	lbu	a4, 13(t3)
	lbu	s1, 14(t3)
	lbu	a0, 15(t3)
	xor	a1, a1, a2
	xor	a4, a4, s0
	lw	s0, 40(sp)                      # 4-byte Folded Reload
	xor	a2, s1, s9
	xor	a0, a0, t4
	sb	a1, 12(a3)
	sb	a4, 13(a3)
	sb	a2, 14(a3)
	sb	a0, 15(a3)
	sb	t1, 8(a3)
	sb	a7, 9(a3)
	sb	t0, 10(a3)
	lw	t0, 32(sp)                      # 4-byte Folded Reload
	sb	a6, 11(a3)
	sb	t6, 4(a3)
	sb	s10, 5(a3)
	sb	t5, 6(a3)
	sb	t2, 7(a3)
	sb	s11, 0(a3)
	sb	a5, 1(a3)
	sb	s8, 2(a3)
	sb	s5, 3(a3)
	beqz	s6, .Laes_BB9_21
.Laes_BB9_22:                               # %after.4.i
	beq	s2, s0, .Laes_BB9_24
# %bb.23:                               # %after.4.i
	sltu	a1, s2, s0
	lw	a6, 24(sp)                      # 4-byte Folded Reload
	lw	a7, 36(sp)                      # 4-byte Folded Reload
	bnez	a1, .Laes_BB9_25
	j	.Laes_BB9_30
.Laes_BB9_24:
	lw	a7, 36(sp)                      # 4-byte Folded Reload
	sltu	a1, s3, a7
	lw	a6, 24(sp)                      # 4-byte Folded Reload
	beqz	a1, .Laes_BB9_30
.Laes_BB9_25:                               # %then.9.i
	or	a0, ra, s7
	beqz	a0, .Laes_BB9_30
# %bb.26:                               # %join.8.i28.preheader
	li	a1, 0
	li	s0, 0
	add	a0, s3, t0
	addi	a5, sp, 44
	andi	a0, a0, -16
	add	a5, a5, a0
	add	a0, s4, s3
	j	.Laes_BB9_28
.Laes_BB9_27:                               # %join.8.i28
                                        #   in Loop: Header=BB9_28 Depth=1
	sltu	s1, s0, s7
	beqz	s1, .Laes_BB9_30
.Laes_BB9_28:                               # %join.8.i28
                                        # =>This Inner Loop Header: Depth=1
	add	a2, a5, a1
	add	a4, a0, a1
	lbu	a2, 0(a2)
	lbu	s1, 0(a4)
	addi	a1, a1, 1
	xor	a2, a2, s1
	seqz	a3, a1
	add	s0, s0, a3
	sb	a2, 0(a4)
	bne	s0, s7, .Laes_BB9_27
# %bb.29:                               #   in Loop: Header=BB9_28 Depth=1
	sltu	s1, a1, ra
	bnez	s1, .Laes_BB9_28
.Laes_BB9_30:                               # %"aes_ctr::add_blocks::add_blocks.exit"
	add	a0, a7, a6
	sltu	a1, a0, a7
	lw	a2, 28(sp)                      # 4-byte Folded Reload
	lw	a3, 40(sp)                      # 4-byte Folded Reload
	add	a2, a2, a3
	add	a1, a1, a2
	lw	ra, 348(sp)                     # 4-byte Folded Reload
	lw	s0, 344(sp)                     # 4-byte Folded Reload
	lw	s1, 340(sp)                     # 4-byte Folded Reload
	lw	s2, 336(sp)                     # 4-byte Folded Reload
	lw	s3, 332(sp)                     # 4-byte Folded Reload
	lw	s4, 328(sp)                     # 4-byte Folded Reload
	lw	s5, 324(sp)                     # 4-byte Folded Reload
	lw	s6, 320(sp)                     # 4-byte Folded Reload
	lw	s7, 316(sp)                     # 4-byte Folded Reload
	lw	s8, 312(sp)                     # 4-byte Folded Reload
	lw	s9, 308(sp)                     # 4-byte Folded Reload
	lw	s10, 304(sp)                    # 4-byte Folded Reload
	lw	s11, 300(sp)                    # 4-byte Folded Reload
	addi	sp, sp, 352
	ret
.Laes_func_end9:
	.size	aes.aes_ctr.add_in_batches.add_next, .Laes_func_end9-aes.aes_ctr.add_in_batches.add_next
                                        # -- End function
	.section	.text.aes.aes_cipher.zeroize.stack.wipe_stack.2032,"ax",@progbits
	.p2align	1                               # -- Begin function aes_cipher::zeroize::stack::wipe_stack::<=2032>
	.type	aes.aes_cipher.zeroize.stack.wipe_stack.2032,@function
aes.aes_cipher.zeroize.stack.wipe_stack.2032: # @aes.aes_cipher.zeroize.stack.wipe_stack.2032
# %bb.0:                                # %start
	addi	sp, sp, -256
	sw	ra, 252(sp)                     # 4-byte Folded Spill
	sw	s0, 248(sp)                     # 4-byte Folded Spill
	addi	sp, sp, -1808
	addi	a0, sp, 24
	li	a2, 2032
	addi	s0, sp, 24
	li	a1, 0
	call	memset
	sw	zero, 16(sp)
	sw	zero, 20(sp)
	#APP
	#NO_APP
	lw	a0, 16(sp)
	lw	a1, 20(sp)
	#APP
	#NO_APP
	seqz	a1, a1
	sltiu	a2, a0, 2032
	and	a1, a1, a2
	beqz	a1, .Laes_BB10_2
# %bb.1:                                # %then.1
	add	a0, a0, s0
	lbu	a0, 0(a0)
	#APP
	#NO_APP
	lw	zero, 20(sp)
	lw	zero, 16(sp)
	sw	zero, 20(sp)
	sw	a0, 16(sp)
	#APP
	#NO_APP
.Laes_BB10_2:                               # %common.ret
	addi	sp, sp, 1808
	lw	ra, 252(sp)                     # 4-byte Folded Reload
	lw	s0, 248(sp)                     # 4-byte Folded Reload
	addi	sp, sp, 256
	ret
.Laes_func_end10:
	.size	aes.aes_cipher.zeroize.stack.wipe_stack.2032, .Laes_func_end10-aes.aes_cipher.zeroize.stack.wipe_stack.2032
                                        # -- End function
	.section	.text.aes.aes_cipher.zeroize.elements.zeroize_elements.1,"ax",@progbits
	.p2align	1                               # -- Begin function aes_cipher::zeroize::elements::zeroize_elements::<#54a2bb646728b9ee>
	.type	aes.aes_cipher.zeroize.elements.zeroize_elements.1,@function
aes.aes_cipher.zeroize.elements.zeroize_elements.1: # @aes.aes_cipher.zeroize.elements.zeroize_elements.1
# %bb.0:                                # %start
	addi	sp, sp, -32
	sw	ra, 28(sp)                      # 4-byte Folded Spill
	sw	s0, 24(sp)                      # 4-byte Folded Spill
	sw	s1, 20(sp)                      # 4-byte Folded Spill
	sw	zero, 8(sp)
	sw	zero, 12(sp)
	#APP
	#NO_APP
	lw	a1, 8(sp)
	lw	a2, 12(sp)
	#APP
	#NO_APP
	seqz	a2, a2
	sltiu	a3, a1, 120
	and	a2, a2, a3
	beqz	a2, .Laes_BB11_2
# %bb.1:                                # %then.1.i
	slli	a1, a1, 2
	add	s0, a0, a1
	lw	s1, 0(s0)
	li	a2, 480
	li	a1, 0
	call	memset
	lw	a0, 0(s0)
	and	a0, a0, s1
	j	.Laes_BB11_3
.Laes_BB11_2:                               # %"aes_cipher::zeroize::observe::<#94bc162b3f62047f>.exit12"
	li	a2, 480
	li	a1, 0
	call	memset
	li	a0, 0
.Laes_BB11_3:                               # %"aes_cipher::zeroize::observe::<#94bc162b3f62047f>.exit"
	zext.b	a0, a0
	#APP
	#NO_APP
	lw	zero, 12(sp)
	lw	zero, 8(sp)
	sw	zero, 12(sp)
	sw	a0, 8(sp)
	#APP
	#NO_APP
	lw	ra, 28(sp)                      # 4-byte Folded Reload
	lw	s0, 24(sp)                      # 4-byte Folded Reload
	lw	s1, 20(sp)                      # 4-byte Folded Reload
	addi	sp, sp, 32
	li	a1, 0
	li	a2, 0
	li	a3, 0
	li	a4, 0
	li	a5, 0
	li	a6, 0
	li	a7, 0
	li	t0, 0
	li	t1, 0
	li	t2, 0
	li	t3, 0
	li	t4, 0
	li	t5, 0
	li	t6, 0
	ret
.Laes_func_end11:
	.size	aes.aes_cipher.zeroize.elements.zeroize_elements.1, .Laes_func_end11-aes.aes_cipher.zeroize.elements.zeroize_elements.1
                                        # -- End function
	.section	.text.aes.cmac.tags.tag,"ax",@progbits
	.p2align	1                               # -- Begin function cmac::tags::tag::<#4f733d09d7f6c6b4>
	.type	aes.cmac.tags.tag,@function
aes.cmac.tags.tag: # @aes.cmac.tags.tag
# %bb.0:                                # %start
	addi	sp, sp, -112
	sw	ra, 108(sp)                     # 4-byte Folded Spill
	sw	s0, 104(sp)                     # 4-byte Folded Spill
	sw	s1, 100(sp)                     # 4-byte Folded Spill
	sw	s2, 96(sp)                      # 4-byte Folded Spill
	sw	s3, 92(sp)                      # 4-byte Folded Spill
	sw	s4, 88(sp)                      # 4-byte Folded Spill
	sw	s5, 84(sp)                      # 4-byte Folded Spill
	sw	s6, 80(sp)                      # 4-byte Folded Spill
	sw	s7, 76(sp)                      # 4-byte Folded Spill
	sw	s8, 72(sp)                      # 4-byte Folded Spill
	sw	s9, 68(sp)                      # 4-byte Folded Spill
	sw	s10, 64(sp)                     # 4-byte Folded Spill
	sw	s11, 60(sp)                     # 4-byte Folded Spill
	mv	s5, a2
	mv	s4, a1
	sw	a0, 0(sp)                       # 4-byte Folded Spill
	sw	a4, 8(sp)                       # 4-byte Folded Spill
	or	a0, a3, a4
	snez	a1, a0
	sw	a3, 4(sp)                       # 4-byte Folded Spill
	sub	a0, a3, a1
	andi	s6, a0, -16
	sw	zero, 12(sp)
	sw	zero, 16(sp)
	sw	zero, 20(sp)
	sw	zero, 24(sp)
	beqz	s6, .Laes_BB12_7
# %bb.1:                                # %join.5.lr.ph.i
	li	s10, 0
	li	s7, 0
	lw	a2, 4(sp)                       # 4-byte Folded Reload
	sltu	a1, a2, a1
	srli	a0, a0, 4
	lw	a2, 8(sp)                       # 4-byte Folded Reload
	sub	a1, a2, a1
	slli	a2, a1, 28
	or	s8, a0, a2
	srli	s9, a1, 4
	j	.Laes_BB12_3
.Laes_BB12_2:                               # %join.5.i
                                        #   in Loop: Header=BB12_3 Depth=1
	sltu	a0, s7, s9
	beqz	a0, .Laes_BB12_7
.Laes_BB12_3:                               # %join.5.i
                                        # =>This Inner Loop Header: Depth=1
	srli	a1, s10, 28
	slli	a2, s7, 4
	slli	a0, s10, 4
	or	a1, a1, a2
	addi	a2, a0, 16
	sltu	a3, a2, a0
	add	a1, a1, a3
	seqz	a1, a1
	sltu	a3, a2, s6
	and	a1, a1, a3
	bnez	a1, .Laes_BB12_5
# %bb.4:                                # %join.5.i
                                        #   in Loop: Header=BB12_3 Depth=1
	mv	a2, s6
.Laes_BB12_5:                               # %join.5.i
                                        #   in Loop: Header=BB12_3 Depth=1
	add	a1, s5, a0
	sub	a2, a2, a0
	sw	zero, 44(sp)
	sw	zero, 48(sp)
	sw	zero, 52(sp)
	sw	zero, 56(sp)
	addi	a0, sp, 44
	call	memcpy
	lbu	a6, 16(sp)
	lbu	a7, 17(sp)
	lbu	t0, 18(sp)
	lbu	t1, 19(sp)
	lbu	t2, 20(sp)
	lbu	t3, 21(sp)
	lbu	t4, 22(sp)
	lbu	t5, 23(sp)
	lbu	t6, 24(sp)
	lbu	s11, 25(sp)
	lbu	ra, 26(sp)
	lbu	a4, 27(sp)
	lbu	a5, 56(sp)
	lbu	s0, 57(sp)
	lbu	a0, 58(sp)
	lbu	a1, 59(sp)
	lbu	a2, 52(sp)
	lbu	a3, 53(sp)
	lbu	s2, 54(sp)
	lbu	s3, 55(sp)
	xor	a1, a1, a4
	xor	ra, a0, ra
	xor	s11, s0, s11
	xor	t6, a5, t6
	lbu	s0, 48(sp)
	lbu	a0, 49(sp)
	lbu	a4, 50(sp)
	lbu	a5, 51(sp)
	xor	t5, s3, t5
	xor	t4, s2, t4
	xor	t3, a3, t3
	xor	t2, a2, t2
	lbu	s2, 12(sp)
	lbu	s3, 13(sp)
	lbu	s1, 14(sp)
	lbu	a3, 15(sp)
	xor	t1, a5, t1
	xor	t0, a4, t0
	xor	a7, a0, a7
	xor	s0, s0, a6
	lbu	a5, 47(sp)
	lbu	a4, 46(sp)
	lbu	a0, 45(sp)
	lbu	a2, 44(sp)
	xor	a3, a3, a5
	xor	a4, a4, s1
	xor	a0, a0, s3
	xor	a2, a2, s2
	sb	a2, 12(sp)
	sb	a0, 13(sp)
	sb	a4, 14(sp)
	sb	a3, 15(sp)
	sb	s0, 16(sp)
	sb	a7, 17(sp)
	sb	t0, 18(sp)
	sb	t1, 19(sp)
	sb	t2, 20(sp)
	sb	t3, 21(sp)
	sb	t4, 22(sp)
	sb	t5, 23(sp)
	lbu	a0, 0(s4)
	lbu	a2, 1(s4)
	lbu	a3, 2(s4)
	lbu	a4, 3(s4)
	sb	t6, 24(sp)
	sb	s11, 25(sp)
	sb	ra, 26(sp)
	sb	a1, 27(sp)
	lbu	a1, 8(s4)
	lbu	a5, 9(s4)
	lbu	s1, 10(s4)
	lbu	s0, 11(s4)
	slli	a2, a2, 8
	slli	a3, a3, 16
	slli	a4, a4, 24
	slli	a5, a5, 8
	slli	s1, s1, 16
	slli	s0, s0, 24
	or	a0, a0, a2
	or	a3, a3, a4
	or	a1, a1, a5
	or	s0, s0, s1
	lbu	a2, 13(s4)
	lbu	a4, 12(s4)
	lbu	a5, 14(s4)
	lbu	s1, 15(s4)
	slli	a2, a2, 8
	or	a2, a2, a4
	slli	a5, a5, 16
	slli	s1, s1, 24
	or	a5, a5, s1
	or	a0, a0, a3
	or	a1, a1, s0
	or	a2, a2, a5
	addi	a3, sp, 12
	li	a4, 1
	li	a5, 0
	call	aes.aes_narrow.blocks.process_all_batches.1
	call	aes.aes_cipher.zeroize.stack.wipe_stack.1024
	addi	s10, s10, 1
	seqz	a0, s10
	add	s7, s7, a0
	bne	s7, s9, .Laes_BB12_2
# %bb.6:                                #   in Loop: Header=BB12_3 Depth=1
	sltu	a0, s10, s8
	bnez	a0, .Laes_BB12_3
.Laes_BB12_7:                               # %"cmac::chaining::chain::<#4f733d09d7f6c6b4>.exit"
	add	a3, s5, s6
	lw	a0, 4(sp)                       # 4-byte Folded Reload
	sub	a4, a0, s6
	sltu	a0, a0, s6
	lw	a5, 8(sp)                       # 4-byte Folded Reload
	sub	a5, a5, a0
	addi	a0, sp, 28
	addi	a2, sp, 12
	mv	a1, s4
	call	aes.cmac.tags.tag_at_end
	addi	a1, sp, 28
	li	a2, 16
	lw	a0, 0(sp)                       # 4-byte Folded Reload
	call	memcpy
	lw	ra, 108(sp)                     # 4-byte Folded Reload
	lw	s0, 104(sp)                     # 4-byte Folded Reload
	lw	s1, 100(sp)                     # 4-byte Folded Reload
	lw	s2, 96(sp)                      # 4-byte Folded Reload
	lw	s3, 92(sp)                      # 4-byte Folded Reload
	lw	s4, 88(sp)                      # 4-byte Folded Reload
	lw	s5, 84(sp)                      # 4-byte Folded Reload
	lw	s6, 80(sp)                      # 4-byte Folded Reload
	lw	s7, 76(sp)                      # 4-byte Folded Reload
	lw	s8, 72(sp)                      # 4-byte Folded Reload
	lw	s9, 68(sp)                      # 4-byte Folded Reload
	lw	s10, 64(sp)                     # 4-byte Folded Reload
	lw	s11, 60(sp)                     # 4-byte Folded Reload
	addi	sp, sp, 112
	ret
.Laes_func_end12:
	.size	aes.cmac.tags.tag, .Laes_func_end12-aes.cmac.tags.tag
                                        # -- End function
	.section	.text.aes.cmac.tags.tag_at_end,"ax",@progbits
	.p2align	1                               # -- Begin function cmac::tags::tag_at_end::<#4f733d09d7f6c6b4>
	.type	aes.cmac.tags.tag_at_end,@function
aes.cmac.tags.tag_at_end: # @aes.cmac.tags.tag_at_end
# %bb.0:                                # %start
	addi	sp, sp, -96
	sw	ra, 92(sp)                      # 4-byte Folded Spill
	sw	s0, 88(sp)                      # 4-byte Folded Spill
	sw	s1, 84(sp)                      # 4-byte Folded Spill
	sw	s2, 80(sp)                      # 4-byte Folded Spill
	sw	s3, 76(sp)                      # 4-byte Folded Spill
	sw	s4, 72(sp)                      # 4-byte Folded Spill
	sw	s5, 68(sp)                      # 4-byte Folded Spill
	sw	s6, 64(sp)                      # 4-byte Folded Spill
	sw	s7, 60(sp)                      # 4-byte Folded Spill
	sw	s8, 56(sp)                      # 4-byte Folded Spill
	sw	s9, 52(sp)                      # 4-byte Folded Spill
	sw	s10, 48(sp)                     # 4-byte Folded Spill
	sw	s11, 44(sp)                     # 4-byte Folded Spill
	mv	s4, a5
	mv	s3, a4
	mv	s5, a3
	mv	s8, a2
	mv	s1, a1
	mv	s2, a0
	lbu	a6, 0(a1)
	lbu	a1, 1(a1)
	lbu	a2, 2(s1)
	lbu	a3, 3(s1)
	lbu	a4, 8(s1)
	lbu	a5, 9(s1)
	lbu	s0, 10(s1)
	lbu	a0, 11(s1)
	slli	a1, a1, 8
	slli	a2, a2, 16
	slli	a3, a3, 24
	slli	a5, a5, 8
	slli	s0, s0, 16
	slli	a0, a0, 24
	or	a6, a1, a6
	or	a2, a2, a3
	or	a4, a4, a5
	or	s0, s0, a0
	lbu	a0, 13(s1)
	lbu	a3, 12(s1)
	lbu	a5, 14(s1)
	lbu	a1, 15(s1)
	slli	a0, a0, 8
	or	a3, a3, a0
	slli	a5, a5, 16
	slli	a1, a1, 24
	or	a5, a5, a1
	or	a0, a2, a6
	or	a1, s0, a4
	or	a2, a5, a3
	sw	zero, 28(sp)
	sw	zero, 32(sp)
	sw	zero, 36(sp)
	sw	zero, 40(sp)
	addi	a3, sp, 28
	li	a4, 1
	li	a5, 0
	call	aes.aes_narrow.blocks.process_all_batches.1
	call	aes.aes_cipher.zeroize.stack.wipe_stack.1024
	lw	a1, 28(sp)
	lbu	a7, 32(sp)
	lbu	t0, 33(sp)
	lbu	t1, 34(sp)
	lbu	a6, 35(sp)
	lw	a5, 36(sp)
	lbu	s0, 40(sp)
	lbu	t2, 41(sp)
	lui	a2, 16
	addi	a2, a2, -256
	srli	a3, a1, 8
	srli	a4, a1, 24
	and	a0, a1, a2
	slli	a1, a1, 24
	slli	a7, a7, 24
	slli	t0, t0, 16
	slli	t1, t1, 8
	and	a3, a3, a2
	or	t3, a3, a4
	srli	a4, a5, 8
	slli	a0, a0, 8
	or	t4, a1, a0
	srli	a1, a5, 24
	or	a3, a7, t0
	and	a4, a4, a2
	or	a3, a3, t1
	or	t0, a4, a1
	lbu	a4, 42(sp)
	lbu	t1, 43(sp)
	and	a2, a2, a5
	slli	a5, a5, 24
	slli	s0, s0, 24
	slli	t2, t2, 16
	slli	a4, a4, 8
	slli	a2, a2, 8
	or	a1, s0, t2
	srli	a7, a7, 31
	srli	s0, s0, 31
	or	a2, a2, a5
	or	a1, a1, a4
	or	a4, t4, t3
	or	a5, a3, a6
	or	a2, a2, t0
	or	a0, a1, t1
	sltu	a3, a5, a3
	sltu	a1, a0, a1
	slli	a5, a5, 1
	slli	a0, a0, 1
	add	a3, a3, a4
	add	a1, a1, a2
	slli	a2, a3, 1
	srli	a4, a1, 31
	slli	a1, a1, 1
	srai	a3, a3, 31
	or	s7, a2, a7
	or	s11, a5, a4
	or	s9, a1, s0
	andi	a1, a3, 135
	xor	s6, a0, a1
	sw	zero, 28(sp)
	sw	zero, 32(sp)
	sw	zero, 36(sp)
	sw	zero, 40(sp)
	addi	a0, sp, 28
	addi	s10, sp, 28
	mv	a1, s5
	mv	a2, s3
	call	memcpy
	xori	a0, s3, 16
	or	a0, a0, s4
	bnez	a0, .Laes_BB13_2
# %bb.1:                                # %then.1.i
	srli	s3, s6, 24
	slli	t6, s9, 16
	srli	s4, s9, 16
	srli	s5, s9, 24
	slli	t2, s11, 16
	srli	t3, s11, 16
	srli	t4, s11, 24
	slli	a0, s7, 16
	srli	a1, s7, 16
	srli	a2, s7, 24
	lbu	a3, 28(sp)
	lbu	a4, 29(sp)
	lbu	a5, 30(sp)
	lbu	s0, 31(sp)
	srli	a0, a0, 24
	xor	a6, a3, a2
	xor	a7, a4, a1
	xor	t0, a5, a0
	xor	t1, s0, s7
	lbu	a0, 32(sp)
	lbu	a1, 33(sp)
	lbu	a2, 34(sp)
	lbu	a3, 35(sp)
	srli	a4, t2, 24
	xor	t2, a0, t4
	xor	t3, a1, t3
	xor	t4, a2, a4
	xor	t5, a3, s11
	lbu	a0, 36(sp)
	lbu	a1, 37(sp)
	lbu	a2, 38(sp)
	lbu	a5, 39(sp)
	srli	a4, t6, 24
	xor	t6, a0, s5
	xor	s4, a1, s4
	xor	s11, a2, a4
	xor	s5, a5, s9
	lbu	a0, 40(sp)
	lbu	a1, 41(sp)
	lbu	a2, 42(sp)
	lbu	a3, 43(sp)
	xor	s3, a0, s3
	srli	s0, s6, 16
	xor	s0, s0, a1
	slli	a1, s6, 16
	srli	a1, a1, 24
	xor	a5, a2, a1
	xor	a2, a3, s6
	j	.Laes_BB13_3
.Laes_BB13_2:                               # %else.2.i
	srli	a6, s6, 31
	slli	a2, s9, 1
	srli	a3, s9, 31
	slli	a4, s11, 1
	srli	a5, s11, 31
	slli	s0, s7, 1
	slli	s9, s9, 17
	slli	s11, s11, 17
	slli	a0, s7, 17
	slli	ra, s6, 1
	add	s3, s3, s10
	li	a7, 128
	or	s5, a2, a6
	or	t5, a4, a3
	or	t1, s0, a5
	srli	s9, s9, 24
	srli	s4, a2, 16
	srli	t6, a2, 24
	srli	t4, s11, 24
	srli	t3, a4, 16
	srli	t2, a4, 24
	srli	t0, a0, 24
	srli	a2, s0, 16
	srli	s0, s0, 24
	srli	s10, ra, 24
	sb	a7, 0(s3)
	lbu	a3, 28(sp)
	lbu	a5, 29(sp)
	lbu	a4, 30(sp)
	lbu	a0, 31(sp)
	xor	a6, a3, s0
	xor	a7, a5, a2
	xor	t0, a4, t0
	xor	t1, a0, t1
	lbu	a0, 32(sp)
	lbu	a2, 33(sp)
	lbu	a3, 34(sp)
	lbu	a4, 35(sp)
	xor	t2, a0, t2
	xor	t3, a2, t3
	xor	t4, a3, t4
	xor	t5, a4, t5
	lbu	a0, 36(sp)
	lbu	a2, 37(sp)
	lbu	a3, 38(sp)
	lbu	a5, 39(sp)
	xor	t6, a0, t6
	xor	s4, a2, s4
	xor	s11, a3, s9
	xor	s5, a5, s5
	lbu	a0, 40(sp)
	lbu	a2, 41(sp)
	lbu	a3, 42(sp)
	lbu	a4, 43(sp)
	xor	s3, a0, s10
	srai	s0, s7, 31
	andi	s0, s0, 135
	xor	a1, ra, s0
	srli	s0, ra, 16
	xor	s0, s0, a2
	slli	s6, s6, 17
	srli	a5, s6, 24
	xor	a5, a5, a3
	xor	a2, a4, a1
.Laes_BB13_3:                               # %"cmac::tags::last_block::<#4f733d09d7f6c6b4>.exit"
	lbu	a1, 15(s8)
	lbu	a3, 14(s8)
	lbu	a4, 13(s8)
	lbu	a0, 12(s8)
	xor	s6, a1, a2
	xor	s7, a3, a5
	xor	s9, a4, s0
	xor	s3, a0, s3
	lbu	a2, 11(s8)
	lbu	a5, 10(s8)
	lbu	s0, 9(s8)
	lbu	a1, 8(s8)
	xor	s5, a2, s5
	xor	s10, a5, s11
	xor	s4, s0, s4
	xor	t6, a1, t6
	lbu	a3, 7(s8)
	lbu	a4, 6(s8)
	lbu	a0, 5(s8)
	lbu	a2, 4(s8)
	xor	t5, a3, t5
	xor	a4, a4, t4
	xor	a0, a0, t3
	xor	a2, a2, t2
	lbu	a5, 3(s8)
	lbu	s0, 2(s8)
	lbu	a1, 1(s8)
	lbu	a3, 0(s8)
	xor	a5, a5, t1
	xor	s0, s0, t0
	xor	a1, a1, a7
	xor	a3, a3, a6
	sb	a3, 12(sp)
	sb	a1, 13(sp)
	sb	s0, 14(sp)
	sb	a5, 15(sp)
	sb	a2, 16(sp)
	sb	a0, 17(sp)
	sb	a4, 18(sp)
	sb	t5, 19(sp)
	sb	t6, 20(sp)
	sb	s4, 21(sp)
	sb	s10, 22(sp)
	sb	s5, 23(sp)
	sb	s3, 24(sp)
	lbu	a0, 1(s1)
	lbu	a1, 0(s1)
	lbu	a2, 2(s1)
	lbu	a3, 3(s1)
	slli	a0, a0, 8
	sb	s9, 25(sp)
	sb	s7, 26(sp)
	sb	s6, 27(sp)
	or	a0, a0, a1
	lbu	a1, 8(s1)
	lbu	a4, 9(s1)
	lbu	a5, 10(s1)
	lbu	s0, 11(s1)
	slli	a2, a2, 16
	slli	a3, a3, 24
	slli	a4, a4, 8
	slli	a5, a5, 16
	slli	s0, s0, 24
	or	a2, a2, a3
	or	a1, a1, a4
	or	a5, a5, s0
	lbu	a3, 13(s1)
	lbu	a4, 12(s1)
	lbu	s0, 14(s1)
	lbu	s1, 15(s1)
	slli	a3, a3, 8
	or	a3, a3, a4
	slli	s0, s0, 16
	slli	s1, s1, 24
	or	s0, s0, s1
	or	a0, a0, a2
	or	a1, a1, a5
	or	a2, s0, a3
	addi	a3, sp, 12
	li	a4, 1
	li	a5, 0
	call	aes.aes_narrow.blocks.process_all_batches.1
	call	aes.aes_cipher.zeroize.stack.wipe_stack.1024
	addi	a1, sp, 12
	li	a2, 16
	mv	a0, s2
	call	memcpy
	lw	ra, 92(sp)                      # 4-byte Folded Reload
	lw	s0, 88(sp)                      # 4-byte Folded Reload
	lw	s1, 84(sp)                      # 4-byte Folded Reload
	lw	s2, 80(sp)                      # 4-byte Folded Reload
	lw	s3, 76(sp)                      # 4-byte Folded Reload
	lw	s4, 72(sp)                      # 4-byte Folded Reload
	lw	s5, 68(sp)                      # 4-byte Folded Reload
	lw	s6, 64(sp)                      # 4-byte Folded Reload
	lw	s7, 60(sp)                      # 4-byte Folded Reload
	lw	s8, 56(sp)                      # 4-byte Folded Reload
	lw	s9, 52(sp)                      # 4-byte Folded Reload
	lw	s10, 48(sp)                     # 4-byte Folded Reload
	lw	s11, 44(sp)                     # 4-byte Folded Reload
	addi	sp, sp, 96
	ret
.Laes_func_end13:
	.size	aes.cmac.tags.tag_at_end, .Laes_func_end13-aes.cmac.tags.tag_at_end
                                        # -- End function
	.section	.text.aes.cmac.pieces.MessageZeroize.zeroize,"ax",@progbits
	.p2align	1                               # -- Begin function cmac::pieces::MessageZeroize::zeroize
	.type	aes.cmac.pieces.MessageZeroize.zeroize,@function
aes.cmac.pieces.MessageZeroize.zeroize: # @aes.cmac.pieces.MessageZeroize.zeroize
# %bb.0:                                # %start
	addi	sp, sp, -16
	sw	ra, 12(sp)                      # 4-byte Folded Spill
	sw	s0, 8(sp)                       # 4-byte Folded Spill
	mv	s0, a0
	addi	a0, a0, 16
	sw	zero, 0(s0)
	sw	zero, 4(s0)
	sw	zero, 8(s0)
	sw	zero, 12(s0)
	call	aes.aes_cipher.zeroize.elements.zeroize_elements.2
	addi	a0, s0, 32
	lw	ra, 12(sp)                      # 4-byte Folded Reload
	lw	s0, 8(sp)                       # 4-byte Folded Reload
	addi	sp, sp, 16
	tail	aes.aes_cipher.zeroize.elements.zeroize_elements.2
.Laes_func_end14:
	.size	aes.cmac.pieces.MessageZeroize.zeroize, .Laes_func_end14-aes.cmac.pieces.MessageZeroize.zeroize
                                        # -- End function
	.section	.text.aes.aes_cipher.zeroize.elements.zeroize_elements.2,"ax",@progbits
	.p2align	1                               # -- Begin function aes_cipher::zeroize::elements::zeroize_elements::<#331496ca003a3905>
	.type	aes.aes_cipher.zeroize.elements.zeroize_elements.2,@function
aes.aes_cipher.zeroize.elements.zeroize_elements.2: # @aes.aes_cipher.zeroize.elements.zeroize_elements.2
# %bb.0:                                # %start
	addi	sp, sp, -16
	sw	ra, 12(sp)                      # 4-byte Folded Spill
	sw	zero, 0(sp)
	sw	zero, 4(sp)
	#APP
	#NO_APP
	lw	zero, 4(sp)
	lw	zero, 0(sp)
	#APP
	#NO_APP
	li	a2, 16
	li	a1, 0
	call	memset
	#APP
	#NO_APP
	lw	zero, 4(sp)
	lw	zero, 0(sp)
	sw	zero, 4(sp)
	sw	zero, 0(sp)
	#APP
	#NO_APP
	lw	ra, 12(sp)                      # 4-byte Folded Reload
	addi	sp, sp, 16
	li	a1, 0
	li	a2, 0
	li	a3, 0
	li	a4, 0
	li	a5, 0
	li	a6, 0
	li	a7, 0
	li	t0, 0
	li	t1, 0
	li	t2, 0
	li	t3, 0
	li	t4, 0
	li	t5, 0
	li	t6, 0
	ret
.Laes_func_end15:
	.size	aes.aes_cipher.zeroize.elements.zeroize_elements.2, .Laes_func_end15-aes.aes_cipher.zeroize.elements.zeroize_elements.2
                                        # -- End function
	.section	.text.aes.cmac.chain_in_pieces.ChainInPieces.extend,"ax",@progbits
	.p2align	1                               # -- Begin function cmac::chain_in_pieces::ChainInPieces::extend::<#4f733d09d7f6c6b4>
	.type	aes.cmac.chain_in_pieces.ChainInPieces.extend,@function
aes.cmac.chain_in_pieces.ChainInPieces.extend: # @aes.cmac.chain_in_pieces.ChainInPieces.extend
# %bb.0:                                # %start
	addi	sp, sp, -96
	sw	ra, 92(sp)                      # 4-byte Folded Spill
	sw	s0, 88(sp)                      # 4-byte Folded Spill
	sw	s1, 84(sp)                      # 4-byte Folded Spill
	sw	s2, 80(sp)                      # 4-byte Folded Spill
	sw	s3, 76(sp)                      # 4-byte Folded Spill
	sw	s4, 72(sp)                      # 4-byte Folded Spill
	sw	s5, 68(sp)                      # 4-byte Folded Spill
	sw	s6, 64(sp)                      # 4-byte Folded Spill
	sw	s7, 60(sp)                      # 4-byte Folded Spill
	sw	s8, 56(sp)                      # 4-byte Folded Spill
	sw	s9, 52(sp)                      # 4-byte Folded Spill
	sw	s10, 48(sp)                     # 4-byte Folded Spill
	sw	s11, 44(sp)                     # 4-byte Folded Spill
	mv	s0, a0
	lw	a0, 4(a0)
	lw	a5, 0(s0)
	seqz	a0, a0
	addi	a0, a0, -1
	or	a5, a5, a0
	li	a0, 16
	mv	s4, a1
	bltu	a5, a0, .Laes_BB16_2
# %bb.1:                                # %start
	li	a5, 16
.Laes_BB16_2:                               # %start
	sltiu	a1, a5, 17
	addi	t0, a1, -1
	sub	a6, a0, a5
	beq	a4, t0, .Laes_BB16_7
# %bb.3:                                # %start
	sltu	a0, t0, a4
	bnez	a0, .Laes_BB16_8
.Laes_BB16_4:                               # %then.1
	add	s2, a5, a3
	add	a0, s0, a5
	addi	a0, a0, 24
	sltu	a1, a0, a2
	neg	a1, a1
	sltu	s5, s2, a5
	beq	a1, a4, .Laes_BB16_11
# %bb.5:                                # %then.1
	sltu	a1, a1, a4
	add	s5, s5, a4
	bnez	a1, .Laes_BB16_12
.Laes_BB16_6:                               # %apart.2.i.i.i.i.i.i
	mv	a1, a2
	mv	a2, a3
	j	.Laes_BB16_33
.Laes_BB16_7:
	sltu	a0, a6, a3
	beqz	a0, .Laes_BB16_4
.Laes_BB16_8:                               # %join.3
	sltu	a7, a3, a6
	addi	a0, s0, 24
	add	a0, a0, a5
	sltu	a5, a0, a2
	neg	a5, a5
	sub	a4, a4, t0
	beq	a5, t0, .Laes_BB16_16
# %bb.9:                                # %join.3
	sltu	a5, a5, t0
	add	a1, a2, a6
	sw	a1, 24(sp)                      # 4-byte Folded Spill
	sub	s3, a4, a7
	sub	s5, a3, a6
	bnez	a5, .Laes_BB16_17
.Laes_BB16_10:                              # %apart.2.i.i.i.i.i.i37
	mv	a1, a2
	mv	a2, a6
	call	memmove
	j	.Laes_BB16_21
.Laes_BB16_11:
	sub	a1, a0, a2
	sltu	a1, a1, a3
	add	s5, s5, a4
	beqz	a1, .Laes_BB16_6
.Laes_BB16_12:                              # %join.7.i.i.i.i.i.i.preheader
	li	s1, 0
	li	a7, 0
	j	.Laes_BB16_14
.Laes_BB16_13:                              #   in Loop: Header=BB16_14 Depth=1
	sltu	a1, s1, a3
	beqz	a1, .Laes_BB16_34
.Laes_BB16_14:                              # %join.7.i.i.i.i.i.i
                                        # =>This Inner Loop Header: Depth=1
	add	a6, a0, s1
	add	a1, a2, s1
	lbu	a1, 0(a1)
	addi	s1, s1, 1
	seqz	a5, s1
	add	a7, a7, a5
	sb	a1, 0(a6)
	beq	a7, a4, .Laes_BB16_13
# %bb.15:                               # %join.7.i.i.i.i.i.i
                                        #   in Loop: Header=BB16_14 Depth=1
	sltu	a1, a7, a4
	bnez	a1, .Laes_BB16_14
	j	.Laes_BB16_34
.Laes_BB16_16:
	sub	a5, a0, a2
	sltu	a5, a5, a6
	add	a1, a2, a6
	sw	a1, 24(sp)                      # 4-byte Folded Spill
	sub	s3, a4, a7
	sub	s5, a3, a6
	beqz	a5, .Laes_BB16_10
.Laes_BB16_17:                              # %join.7.i.i.i.i.i.i39.preheader
	li	a5, 0
	li	s1, 0
	j	.Laes_BB16_19
.Laes_BB16_18:                              # %join.7.i.i.i.i.i.i39
                                        #   in Loop: Header=BB16_19 Depth=1
	sltu	a3, s1, t0
	beqz	a3, .Laes_BB16_21
.Laes_BB16_19:                              # %join.7.i.i.i.i.i.i39
                                        # =>This Inner Loop Header: Depth=1
	add	a1, a0, a5
	add	a3, a2, a5
	lbu	a3, 0(a3)
	addi	a5, a5, 1
	seqz	a4, a5
	add	s1, s1, a4
	sb	a3, 0(a1)
	bne	s1, t0, .Laes_BB16_18
# %bb.20:                               #   in Loop: Header=BB16_19 Depth=1
	sltu	a3, a5, a6
	bnez	a3, .Laes_BB16_19
.Laes_BB16_21:                              # %"core::slice::edits::slice+T::copy_from_slice::<i8,20'core::clone::U8Clone{}>.exit46"
	seqz	a0, s5
	addi	s2, s5, -1
	lbu	a6, 28(s0)
	lbu	a7, 29(s0)
	lbu	t0, 30(s0)
	lbu	t1, 31(s0)
	lbu	t2, 32(s0)
	lbu	t3, 33(s0)
	lbu	t4, 34(s0)
	lbu	t5, 35(s0)
	lbu	t6, 36(s0)
	lbu	s6, 37(s0)
	lbu	s10, 38(s0)
	lbu	s11, 39(s0)
	lbu	a1, 20(s0)
	lbu	a2, 21(s0)
	lbu	a3, 22(s0)
	lbu	a4, 23(s0)
	sub	s9, s3, a0
	andi	s8, s2, -16
	sw	s5, 16(sp)                      # 4-byte Folded Spill
	sltu	a5, s5, s8
	sub	s5, a0, a5
	lbu	s3, 16(s0)
	lbu	a5, 17(s0)
	lbu	s1, 18(s0)
	lbu	a0, 19(s0)
	xor	s11, s11, a4
	xor	s10, s10, a3
	xor	s6, s6, a2
	xor	t6, t6, a1
	lbu	ra, 12(s0)
	lbu	a3, 13(s0)
	lbu	a2, 14(s0)
	lbu	a1, 15(s0)
	xor	t5, t5, a0
	xor	t4, t4, s1
	xor	t3, t3, a5
	xor	t2, t2, s3
	lbu	s3, 24(s0)
	lbu	a5, 25(s0)
	lbu	a0, 26(s0)
	lbu	a4, 27(s0)
	xor	t1, t1, a1
	xor	t0, t0, a2
	xor	a7, a7, a3
	xor	a6, a6, ra
	lbu	a2, 11(s0)
	lbu	a3, 10(s0)
	lbu	s1, 9(s0)
	lbu	a1, 8(s0)
	xor	a2, a2, a4
	xor	a0, a0, a3
	xor	a5, a5, s1
	xor	a1, s3, a1
	sb	a1, 8(s0)
	sb	a5, 9(s0)
	sb	a0, 10(s0)
	sb	a2, 11(s0)
	sb	a6, 12(s0)
	sb	a7, 13(s0)
	sb	t0, 14(s0)
	sb	t1, 15(s0)
	sb	t2, 16(s0)
	sb	t3, 17(s0)
	sb	t4, 18(s0)
	sb	t5, 19(s0)
	sb	t6, 20(s0)
	sb	s6, 21(s0)
	sb	s10, 22(s0)
	sb	s11, 23(s0)
	lbu	a6, 0(s4)
	lbu	a1, 1(s4)
	lbu	a2, 2(s4)
	lbu	a3, 3(s4)
	lbu	a4, 8(s4)
	lbu	a5, 9(s4)
	lbu	s1, 10(s4)
	lbu	a0, 11(s4)
	slli	a1, a1, 8
	slli	a2, a2, 16
	slli	a3, a3, 24
	slli	a5, a5, 8
	slli	s1, s1, 16
	slli	a0, a0, 24
	or	a6, a1, a6
	or	a2, a2, a3
	or	a4, a4, a5
	or	s1, s1, a0
	lbu	a0, 13(s4)
	lbu	a3, 12(s4)
	lbu	a5, 14(s4)
	lbu	a1, 15(s4)
	slli	a0, a0, 8
	or	a3, a3, a0
	slli	a5, a5, 16
	slli	a1, a1, 24
	or	a5, a5, a1
	or	a0, a2, a6
	or	a1, s1, a4
	lw	a2, 24(sp)                      # 4-byte Folded Reload
	add	a2, a2, s8
	sw	a2, 12(sp)                      # 4-byte Folded Spill
	or	a2, a5, a3
	addi	a3, s0, 8
	li	a4, 1
	li	a5, 0
	call	aes.aes_narrow.blocks.process_all_batches.1
	call	aes.aes_cipher.zeroize.stack.wipe_stack.1024
	or	a0, s8, s9
	beqz	a0, .Laes_BB16_30
# %bb.22:                               # %join.5.i.preheader
	li	s10, 0
	li	s11, 0
	slli	a0, s9, 28
	srli	a1, s2, 4
	or	a0, a0, a1
	sw	a0, 20(sp)                      # 4-byte Folded Spill
	srli	s2, s9, 4
	j	.Laes_BB16_24
.Laes_BB16_23:                              # %join.5.i
                                        #   in Loop: Header=BB16_24 Depth=1
	sltu	a0, s11, s2
	beqz	a0, .Laes_BB16_30
.Laes_BB16_24:                              # %join.5.i
                                        # =>This Inner Loop Header: Depth=1
	srli	a1, s10, 28
	slli	a2, s11, 4
	slli	a0, s10, 4
	or	a1, a1, a2
	addi	a2, a0, 16
	sltu	a3, a2, a0
	add	a1, a1, a3
	beq	a1, s9, .Laes_BB16_26
# %bb.25:                               # %join.5.i
                                        #   in Loop: Header=BB16_24 Depth=1
	sltu	a1, a1, s9
	beqz	a1, .Laes_BB16_27
	j	.Laes_BB16_28
.Laes_BB16_26:                              #   in Loop: Header=BB16_24 Depth=1
	sltu	a1, a2, s8
	bnez	a1, .Laes_BB16_28
.Laes_BB16_27:                              # %join.5.i
                                        #   in Loop: Header=BB16_24 Depth=1
	mv	a2, s8
.Laes_BB16_28:                              # %join.5.i
                                        #   in Loop: Header=BB16_24 Depth=1
	lw	a1, 24(sp)                      # 4-byte Folded Reload
	add	a1, a1, a0
	sub	a2, a2, a0
	sw	zero, 28(sp)
	sw	zero, 32(sp)
	sw	zero, 36(sp)
	sw	zero, 40(sp)
	addi	a0, sp, 28
	call	memcpy
	lbu	a6, 12(s0)
	lbu	a7, 13(s0)
	lbu	t0, 14(s0)
	lbu	t1, 15(s0)
	lbu	t2, 16(s0)
	lbu	t3, 17(s0)
	lbu	t4, 18(s0)
	lbu	t5, 19(s0)
	lbu	t6, 20(s0)
	lbu	ra, 21(s0)
	lbu	a3, 22(s0)
	lbu	a4, 23(s0)
	lbu	a5, 40(sp)
	lbu	s1, 41(sp)
	lbu	a0, 42(sp)
	lbu	a1, 43(sp)
	lbu	a2, 36(sp)
	lbu	s6, 37(sp)
	lbu	s7, 38(sp)
	lbu	s3, 39(sp)
	xor	a1, a1, a4
	xor	a0, a0, a3
	xor	ra, s1, ra
	xor	t6, a5, t6
	lbu	a5, 32(sp)
	lbu	s1, 33(sp)
	lbu	a3, 34(sp)
	lbu	a4, 35(sp)
	xor	t5, s3, t5
	xor	t4, s7, t4
	xor	t3, s6, t3
	xor	t2, a2, t2
	lbu	s3, 8(s0)
	lbu	s6, 9(s0)
	lbu	s7, 10(s0)
	lbu	a2, 11(s0)
	xor	t1, a4, t1
	xor	t0, a3, t0
	xor	a7, s1, a7
	xor	a6, a5, a6
	lbu	a4, 31(sp)
	lbu	a3, 30(sp)
	lbu	s1, 29(sp)
	lbu	a5, 28(sp)
	xor	a2, a2, a4
	xor	a3, a3, s7
	xor	a4, s1, s6
	xor	a5, a5, s3
	sb	a5, 8(s0)
	sb	a4, 9(s0)
	sb	a3, 10(s0)
	sb	a2, 11(s0)
	sb	a6, 12(s0)
	sb	a7, 13(s0)
	sb	t0, 14(s0)
	sb	t1, 15(s0)
	sb	t2, 16(s0)
	sb	t3, 17(s0)
	sb	t4, 18(s0)
	sb	t5, 19(s0)
	sb	t6, 20(s0)
	sb	ra, 21(s0)
	sb	a0, 22(s0)
	sb	a1, 23(s0)
	lbu	a6, 0(s4)
	lbu	a1, 1(s4)
	lbu	a2, 2(s4)
	lbu	a3, 3(s4)
	lbu	a4, 8(s4)
	lbu	a5, 9(s4)
	lbu	s1, 10(s4)
	lbu	a0, 11(s4)
	slli	a1, a1, 8
	slli	a2, a2, 16
	slli	a3, a3, 24
	slli	a5, a5, 8
	slli	s1, s1, 16
	slli	a0, a0, 24
	or	a6, a1, a6
	or	a2, a2, a3
	or	a4, a4, a5
	or	s1, s1, a0
	lbu	a0, 13(s4)
	lbu	a3, 12(s4)
	lbu	a5, 14(s4)
	lbu	a1, 15(s4)
	slli	a0, a0, 8
	or	a3, a3, a0
	slli	a5, a5, 16
	slli	a1, a1, 24
	or	a5, a5, a1
	or	a0, a2, a6
	or	a1, s1, a4
	or	a2, a5, a3
	li	a4, 1
	addi	a3, s0, 8
	li	a5, 0
	call	aes.aes_narrow.blocks.process_all_batches.1
	call	aes.aes_cipher.zeroize.stack.wipe_stack.1024
	addi	s10, s10, 1
	seqz	a0, s10
	add	s11, s11, a0
	bne	s11, s2, .Laes_BB16_23
# %bb.29:                               #   in Loop: Header=BB16_24 Depth=1
	lw	a0, 20(sp)                      # 4-byte Folded Reload
	sltu	a0, s10, a0
	bnez	a0, .Laes_BB16_24
.Laes_BB16_30:                              # %"cmac::chaining::chain::<#4f733d09d7f6c6b4>.exit"
	addi	a0, s0, 24
	lw	a1, 12(sp)                      # 4-byte Folded Reload
	sltu	a2, a0, a1
	neg	a3, a2
	lw	a2, 16(sp)                      # 4-byte Folded Reload
	sub	s2, a2, s8
	beq	a3, s5, .Laes_BB16_35
# %bb.31:                               # %"cmac::chaining::chain::<#4f733d09d7f6c6b4>.exit"
	sltu	a2, a3, s5
	bnez	a2, .Laes_BB16_36
.Laes_BB16_32:                              # %apart.2.i.i.i.i.i.i179
	mv	a2, s2
.Laes_BB16_33:                              # %common.ret
	call	memmove
.Laes_BB16_34:                              # %common.ret
	sw	s2, 0(s0)
	sw	s5, 4(s0)
	lw	ra, 92(sp)                      # 4-byte Folded Reload
	lw	s0, 88(sp)                      # 4-byte Folded Reload
	lw	s1, 84(sp)                      # 4-byte Folded Reload
	lw	s2, 80(sp)                      # 4-byte Folded Reload
	lw	s3, 76(sp)                      # 4-byte Folded Reload
	lw	s4, 72(sp)                      # 4-byte Folded Reload
	lw	s5, 68(sp)                      # 4-byte Folded Reload
	lw	s6, 64(sp)                      # 4-byte Folded Reload
	lw	s7, 60(sp)                      # 4-byte Folded Reload
	lw	s8, 56(sp)                      # 4-byte Folded Reload
	lw	s9, 52(sp)                      # 4-byte Folded Reload
	lw	s10, 48(sp)                     # 4-byte Folded Reload
	lw	s11, 44(sp)                     # 4-byte Folded Reload
	addi	sp, sp, 96
	ret
.Laes_BB16_35:
	sub	a2, a0, a1
	sltu	a2, a2, s2
	beqz	a2, .Laes_BB16_32
.Laes_BB16_36:                              # %join.7.i.i.i.i.i.i181.preheader
	li	a5, 0
	li	s1, 0
	j	.Laes_BB16_38
.Laes_BB16_37:                              #   in Loop: Header=BB16_38 Depth=1
	sltu	a2, a5, s2
	beqz	a2, .Laes_BB16_34
.Laes_BB16_38:                              # %join.7.i.i.i.i.i.i181
                                        # =>This Inner Loop Header: Depth=1
	add	a2, a0, a5
	add	a3, a1, a5
	lbu	a3, 0(a3)
	addi	a5, a5, 1
	seqz	a4, a5
	add	s1, s1, a4
	sb	a3, 0(a2)
	beq	s1, s5, .Laes_BB16_37
# %bb.39:                               # %join.7.i.i.i.i.i.i181
                                        #   in Loop: Header=BB16_38 Depth=1
	sltu	a2, s1, s5
	bnez	a2, .Laes_BB16_38
	j	.Laes_BB16_34
.Laes_func_end16:
	.size	aes.cmac.chain_in_pieces.ChainInPieces.extend, .Laes_func_end16-aes.cmac.chain_in_pieces.ChainInPieces.extend
                                        # -- End function
	.section	.text.aes.key_wrap.wrapping.wrap,"ax",@progbits
	.p2align	1                               # -- Begin function key_wrap::wrapping::wrap::<#4f733d09d7f6c6b4>
	.type	aes.key_wrap.wrapping.wrap,@function
aes.key_wrap.wrapping.wrap: # @aes.key_wrap.wrapping.wrap
# %bb.0:                                # %start
	addi	sp, sp, -32
	sw	ra, 28(sp)                      # 4-byte Folded Spill
	sw	s0, 24(sp)                      # 4-byte Folded Spill
	sw	s1, 20(sp)                      # 4-byte Folded Spill
	sw	s2, 16(sp)                      # 4-byte Folded Spill
	sw	s3, 12(sp)                      # 4-byte Folded Spill
	sw	s4, 8(sp)                       # 4-byte Folded Spill
	sltiu	s1, a2, 2
	seqz	s0, a3
	and	s0, s0, s1
	li	s1, 1
	bnez	s0, .Laes_BB17_11
# %bb.1:                                # %start
	addi	a7, a2, 1
	seqz	s0, a7
	add	s0, s0, a3
	xor	a7, a5, a7
	xor	s0, a6, s0
	or	s0, a7, s0
	bnez	s0, .Laes_BB17_11
# %bb.2:                                # %arm.12
	addi	s4, a4, 8
	seqz	a7, a5
	li	s1, 166
	srli	t0, a2, 29
	slli	s0, a3, 3
	sb	s1, 4(a4)
	sb	s1, 5(a4)
	sb	s1, 6(a4)
	sb	s1, 7(a4)
	sb	s1, 0(a4)
	sb	s1, 1(a4)
	sb	s1, 2(a4)
	sb	s1, 3(a4)
	or	s1, s0, t0
	sltu	s0, s4, a1
	neg	s0, s0
	slli	t0, a2, 3
	beq	s0, s1, .Laes_BB17_5
# %bb.3:                                # %arm.12
	sltu	s1, s0, s1
	sub	s2, a6, a7
	addi	s3, a5, -1
	bnez	s1, .Laes_BB17_6
.Laes_BB17_4:                               # %apart.2.i.i.i.i.i.i
	mv	s0, a0
	mv	a0, s4
	mv	a2, t0
	mv	s1, a4
	call	memmove
	mv	a0, s0
	mv	a4, s1
	j	.Laes_BB17_10
.Laes_BB17_5:
	sub	s1, s4, a1
	sltu	s1, s1, t0
	sub	s2, a6, a7
	addi	s3, a5, -1
	beqz	s1, .Laes_BB17_4
.Laes_BB17_6:                               # %join.7.i.i.i.i.i.i.preheader
	li	a7, 0
	li	a6, 0
	j	.Laes_BB17_8
.Laes_BB17_7:                               # %join.7.i.i.i.i.i.i
                                        #   in Loop: Header=BB17_8 Depth=1
	sltu	s0, a6, a3
	beqz	s0, .Laes_BB17_10
.Laes_BB17_8:                               # %join.7.i.i.i.i.i.i
                                        # =>This Inner Loop Header: Depth=1
	slli	s1, a7, 3
	addi	a7, a7, 1
	add	a5, s4, s1
	add	s1, s1, a1
	seqz	s0, a7
	lbu	t0, 0(s1)
	lbu	t1, 1(s1)
	lbu	t2, 2(s1)
	lbu	t3, 3(s1)
	add	a6, a6, s0
	lbu	s0, 4(s1)
	lbu	t4, 5(s1)
	lbu	t5, 6(s1)
	lbu	s1, 7(s1)
	sb	s0, 4(a5)
	sb	t4, 5(a5)
	sb	t5, 6(a5)
	sb	s1, 7(a5)
	sb	t0, 0(a5)
	sb	t1, 1(a5)
	sb	t2, 2(a5)
	sb	t3, 3(a5)
	bne	a6, a3, .Laes_BB17_7
# %bb.9:                                #   in Loop: Header=BB17_8 Depth=1
	sltu	s0, a7, a2
	bnez	s0, .Laes_BB17_8
.Laes_BB17_10:                              # %"core::slice::edits::slice+T::copy_from_slice::<#76f67ba6cf9709da>.exit"
	mv	a1, a4
	mv	a2, s4
	mv	a3, s3
	mv	a4, s2
	call	aes.key_wrap.steps.wrap_in_place
	li	s1, 0
.Laes_BB17_11:                              # %return.10
	mv	a0, s1
	lw	ra, 28(sp)                      # 4-byte Folded Reload
	lw	s0, 24(sp)                      # 4-byte Folded Reload
	lw	s1, 20(sp)                      # 4-byte Folded Reload
	lw	s2, 16(sp)                      # 4-byte Folded Reload
	lw	s3, 12(sp)                      # 4-byte Folded Reload
	lw	s4, 8(sp)                       # 4-byte Folded Reload
	addi	sp, sp, 32
	ret
.Laes_func_end17:
	.size	aes.key_wrap.wrapping.wrap, .Laes_func_end17-aes.key_wrap.wrapping.wrap
                                        # -- End function
	.section	.text.aes.key_wrap.steps.wrap_in_place,"ax",@progbits
	.p2align	1                               # -- Begin function key_wrap::steps::wrap_in_place::<#4f733d09d7f6c6b4>
	.type	aes.key_wrap.steps.wrap_in_place,@function
aes.key_wrap.steps.wrap_in_place: # @aes.key_wrap.steps.wrap_in_place
# %bb.0:                                # %start
	addi	sp, sp, -80
	sw	ra, 76(sp)                      # 4-byte Folded Spill
	sw	s0, 72(sp)                      # 4-byte Folded Spill
	sw	s1, 68(sp)                      # 4-byte Folded Spill
	sw	s2, 64(sp)                      # 4-byte Folded Spill
	sw	s3, 60(sp)                      # 4-byte Folded Spill
	sw	s4, 56(sp)                      # 4-byte Folded Spill
	sw	s5, 52(sp)                      # 4-byte Folded Spill
	sw	s6, 48(sp)                      # 4-byte Folded Spill
	sw	s7, 44(sp)                      # 4-byte Folded Spill
	sw	s8, 40(sp)                      # 4-byte Folded Spill
	sw	s9, 36(sp)                      # 4-byte Folded Spill
	sw	s10, 32(sp)                     # 4-byte Folded Spill
	sw	s11, 28(sp)                     # 4-byte Folded Spill
	mv	s1, a1
	sw	a3, 4(sp)                       # 4-byte Folded Spill
	or	a1, a3, a4
	beqz	a1, .Laes_BB18_25
# %bb.1:                                # %join.5.preheader
	mv	s4, a4
	mv	s3, a2
	mv	s2, a0
	li	s5, 0
	li	s6, 0
	lbu	a0, 5(s1)
	lbu	a1, 6(s1)
	lbu	a2, 7(s1)
	lbu	a3, 4(s1)
	slli	a0, a0, 8
	slli	a1, a1, 16
	slli	a2, a2, 24
	or	a0, a0, a3
	or	a1, a1, a2
	lbu	a2, 1(s1)
	lbu	a3, 0(s1)
	lbu	a4, 2(s1)
	lbu	a5, 3(s1)
	slli	a2, a2, 8
	or	a2, a2, a3
	slli	a4, a4, 16
	slli	a5, a5, 24
	or	a4, a4, a5
	or	t2, a1, a0
	or	t4, a4, a2
	j	.Laes_BB18_3
.Laes_BB18_2:                               # %join.5.i
                                        #   in Loop: Header=BB18_3 Depth=1
	sltu	a0, s6, s4
	beqz	a0, .Laes_BB18_5
.Laes_BB18_3:                               # %join.5.i
                                        # =>This Inner Loop Header: Depth=1
	slli	a6, s5, 3
	addi	s5, s5, 1
	lbu	a7, 0(s2)
	lbu	a1, 1(s2)
	lbu	a2, 2(s2)
	lbu	a5, 3(s2)
	lbu	s0, 8(s2)
	lbu	a0, 9(s2)
	lbu	t0, 10(s2)
	lbu	t1, 11(s2)
	seqz	a3, s5
	add	s6, s6, a3
	slli	a1, a1, 8
	slli	a2, a2, 16
	slli	a5, a5, 24
	slli	a0, a0, 8
	or	t3, a1, a7
	or	a4, a5, a2
	or	a7, a0, s0
	lbu	a0, 12(s2)
	lbu	a5, 13(s2)
	lbu	a3, 14(s2)
	lbu	a1, 15(s2)
	add	s0, s3, a6
	slli	t0, t0, 16
	slli	t1, t1, 24
	slli	a5, a5, 8
	slli	a3, a3, 16
	slli	a1, a1, 24
	or	t1, t1, t0
	or	t0, a5, a0
	or	a2, a1, a3
	or	a0, a4, t3
	lbu	a6, 0(s0)
	lbu	a4, 1(s0)
	lbu	a5, 2(s0)
	lbu	a3, 3(s0)
	or	a1, t1, a7
	or	a2, a2, t0
	slli	a4, a4, 8
	slli	a5, a5, 16
	slli	a3, a3, 24
	or	a6, a4, a6
	or	a7, a3, a5
	lbu	a5, 5(s0)
	lbu	t0, 4(s0)
	lbu	a3, 6(s0)
	lbu	a4, 7(s0)
	slli	a5, a5, 8
	or	a5, a5, t0
	slli	a3, a3, 16
	slli	a4, a4, 24
	or	a3, a3, a4
	or	a4, a7, a6
	or	a3, a3, a5
	sw	t4, 8(sp)
	sw	t2, 12(sp)
	sw	a4, 16(sp)
	sw	a3, 20(sp)
	addi	a3, sp, 8
	li	a4, 1
	li	a5, 0
	call	aes.aes_narrow.blocks.process_all_batches.1
	call	aes.aes_cipher.zeroize.stack.wipe_stack.1024
	lw	t2, 8(sp)
	lw	t3, 12(sp)
	lw	t0, 16(sp)
	lw	t1, 20(sp)
	srli	a4, s6, 8
	lui	a6, 16
	srli	a5, s6, 24
	slli	a7, s6, 24
	srli	a0, s5, 8
	srli	a1, s5, 24
	slli	t4, s5, 24
	addi	a3, a6, -256
	and	a4, a4, a3
	and	a2, s6, a3
	and	a0, a0, a3
	and	a3, s5, a3
	or	a6, a4, a5
	slli	a2, a2, 8
	or	t5, a0, a1
	slli	a3, a3, 8
	srli	a1, t3, 24
	srli	a5, t3, 16
	srli	a4, t3, 8
	srli	t6, t2, 24
	srli	s7, t2, 16
	srli	a0, t2, 8
	srli	s8, t1, 16
	or	a7, a7, a2
	srli	a2, t1, 24
	or	t4, t4, a3
	srli	a3, t1, 8
	sb	t3, 4(s1)
	sb	a4, 5(s1)
	sb	a5, 6(s1)
	sb	a1, 7(s1)
	srli	a1, t0, 16
	sb	t2, 0(s1)
	sb	a0, 1(s1)
	sb	s7, 2(s1)
	sb	t6, 3(s1)
	srli	a0, t0, 24
	sb	t1, 4(s0)
	sb	a3, 5(s0)
	sb	s8, 6(s0)
	sb	a2, 7(s0)
	srli	a2, t0, 8
	sb	t0, 0(s0)
	sb	a2, 1(s0)
	sb	a1, 2(s0)
	sb	a0, 3(s0)
	or	a6, a7, a6
	or	a7, t4, t5
	lbu	a2, 1(s1)
	lbu	a3, 0(s1)
	lbu	a4, 2(s1)
	lbu	a5, 3(s1)
	slli	a2, a2, 8
	or	a2, a2, a3
	lbu	a3, 4(s1)
	lbu	s0, 5(s1)
	lbu	a0, 6(s1)
	lbu	a1, 7(s1)
	slli	a4, a4, 16
	slli	a5, a5, 24
	or	a4, a4, a5
	slli	s0, s0, 8
	slli	a0, a0, 16
	slli	a1, a1, 24
	or	a3, a3, s0
	or	a0, a0, a1
	or	a2, a2, a4
	or	a0, a0, a3
	xor	t2, a0, a7
	xor	t4, a2, a6
	srli	a0, t4, 16
	srli	a1, t4, 24
	srli	a2, t4, 8
	srli	a3, t2, 16
	srli	a4, t2, 24
	srli	a5, t2, 8
	sb	t4, 0(s1)
	sb	a2, 1(s1)
	sb	a0, 2(s1)
	sb	a1, 3(s1)
	sb	t2, 4(s1)
	sb	a5, 5(s1)
	sb	a3, 6(s1)
	sb	a4, 7(s1)
	bne	s6, s4, .Laes_BB18_2
# %bb.4:                                #   in Loop: Header=BB18_3 Depth=1
	lw	a0, 4(sp)                       # 4-byte Folded Reload
	sltu	a0, s5, a0
	bnez	a0, .Laes_BB18_3
.Laes_BB18_5:                               # %"key_wrap::steps::wrap_turn::<#4f733d09d7f6c6b4>.exit.loopexit"
	li	s5, 0
	li	s6, 0
	lw	s7, 4(sp)                       # 4-byte Folded Reload
	addi	s7, s7, 1
	seqz	s8, s7
	add	s8, s8, s4
	j	.Laes_BB18_7
.Laes_BB18_6:                               # %join.5.i.1
                                        #   in Loop: Header=BB18_7 Depth=1
	sltu	a0, s6, s4
	beqz	a0, .Laes_BB18_9
.Laes_BB18_7:                               # %join.5.i.1
                                        # =>This Inner Loop Header: Depth=1
	slli	a7, s5, 3
	add	s9, s7, s5
	add	s10, s8, s6
	lbu	t0, 0(s2)
	lbu	a1, 1(s2)
	lbu	a2, 2(s2)
	lbu	a3, 3(s2)
	lbu	a4, 8(s2)
	lbu	a5, 9(s2)
	lbu	a6, 10(s2)
	lbu	t1, 11(s2)
	sltu	s0, s9, s7
	add	s10, s10, s0
	slli	a1, a1, 8
	slli	a2, a2, 16
	slli	a3, a3, 24
	slli	a5, a5, 8
	or	t3, a1, t0
	or	t5, a3, a2
	or	t0, a5, a4
	lbu	a3, 12(s2)
	lbu	a5, 13(s2)
	lbu	a4, 14(s2)
	lbu	a0, 15(s2)
	add	s0, s3, a7
	slli	a6, a6, 16
	slli	t1, t1, 24
	slli	a5, a5, 8
	slli	a4, a4, 16
	slli	a0, a0, 24
	or	a1, t1, a6
	or	a7, a5, a3
	or	a2, a0, a4
	or	a0, t5, t3
	lbu	a6, 0(s0)
	lbu	a3, 1(s0)
	lbu	a5, 2(s0)
	lbu	a4, 3(s0)
	or	a1, a1, t0
	or	a2, a2, a7
	slli	a3, a3, 8
	slli	a5, a5, 16
	slli	a4, a4, 24
	or	a6, a3, a6
	or	a7, a4, a5
	lbu	a5, 5(s0)
	lbu	t0, 4(s0)
	lbu	a4, 6(s0)
	lbu	a3, 7(s0)
	slli	a5, a5, 8
	or	a5, a5, t0
	slli	a4, a4, 16
	slli	a3, a3, 24
	or	a3, a3, a4
	or	a4, a7, a6
	or	a3, a3, a5
	sw	t4, 8(sp)
	sw	t2, 12(sp)
	sw	a4, 16(sp)
	sw	a3, 20(sp)
	addi	a3, sp, 8
	li	a4, 1
	li	a5, 0
	call	aes.aes_narrow.blocks.process_all_batches.1
	call	aes.aes_cipher.zeroize.stack.wipe_stack.1024
	lw	t6, 8(sp)
	lw	s11, 12(sp)
	lw	t3, 16(sp)
	lw	t5, 20(sp)
	srli	t1, s10, 8
	lui	a6, 16
	srli	t0, s10, 24
	slli	a7, s10, 24
	srli	a5, s9, 8
	srli	t4, s9, 24
	slli	t2, s9, 24
	addi	s5, s5, 1
	addi	a0, a6, -256
	seqz	a4, s5
	and	a1, t1, a0
	and	a2, s10, a0
	and	a5, a5, a0
	and	a0, s9, a0
	add	s6, s6, a4
	or	a6, a1, t0
	slli	a2, a2, 8
	or	t0, a5, t4
	slli	a0, a0, 8
	srli	a5, s11, 24
	srli	a3, s11, 16
	srli	a1, s11, 8
	srli	t1, t6, 24
	srli	t4, t6, 16
	srli	a4, t6, 8
	srli	s9, t5, 16
	or	a7, a7, a2
	srli	a2, t5, 24
	or	t2, t2, a0
	srli	a0, t5, 8
	sb	s11, 4(s1)
	sb	a1, 5(s1)
	sb	a3, 6(s1)
	sb	a5, 7(s1)
	srli	a1, t3, 16
	sb	t6, 0(s1)
	sb	a4, 1(s1)
	sb	t4, 2(s1)
	sb	t1, 3(s1)
	srli	a3, t3, 24
	sb	t5, 4(s0)
	sb	a0, 5(s0)
	sb	s9, 6(s0)
	sb	a2, 7(s0)
	srli	a0, t3, 8
	sb	t3, 0(s0)
	sb	a0, 1(s0)
	sb	a1, 2(s0)
	sb	a3, 3(s0)
	or	a6, a7, a6
	or	a7, t2, t0
	lbu	a2, 5(s1)
	lbu	a3, 4(s1)
	lbu	a4, 6(s1)
	lbu	a5, 7(s1)
	slli	a2, a2, 8
	or	a2, a2, a3
	lbu	a3, 0(s1)
	lbu	s0, 1(s1)
	lbu	a0, 2(s1)
	lbu	a1, 3(s1)
	slli	a4, a4, 16
	slli	a5, a5, 24
	or	a4, a4, a5
	slli	s0, s0, 8
	slli	a0, a0, 16
	slli	a1, a1, 24
	or	a3, a3, s0
	or	a0, a0, a1
	or	a2, a2, a4
	or	a0, a0, a3
	xor	t4, a0, a6
	xor	t2, a2, a7
	srli	a0, t4, 16
	srli	a1, t4, 24
	srli	a2, t4, 8
	srli	a3, t2, 16
	srli	a4, t2, 24
	srli	a5, t2, 8
	sb	t4, 0(s1)
	sb	a2, 1(s1)
	sb	a0, 2(s1)
	sb	a1, 3(s1)
	sb	t2, 4(s1)
	sb	a5, 5(s1)
	sb	a3, 6(s1)
	sb	a4, 7(s1)
	bne	s6, s4, .Laes_BB18_6
# %bb.8:                                #   in Loop: Header=BB18_7 Depth=1
	lw	a0, 4(sp)                       # 4-byte Folded Reload
	sltu	a0, s5, a0
	bnez	a0, .Laes_BB18_7
.Laes_BB18_9:                               # %"key_wrap::steps::wrap_turn::<#4f733d09d7f6c6b4>.exit.loopexit.1"
	li	s5, 0
	li	s6, 0
	lw	s8, 4(sp)                       # 4-byte Folded Reload
	srli	a0, s8, 31
	slli	a1, s4, 1
	slli	s8, s8, 1
	sw	a1, 0(sp)                       # 4-byte Folded Spill
	or	s9, a1, a0
	addi	s10, s8, 1
	j	.Laes_BB18_11
.Laes_BB18_10:                              # %join.5.i.2
                                        #   in Loop: Header=BB18_11 Depth=1
	sltu	a0, s6, s4
	beqz	a0, .Laes_BB18_13
.Laes_BB18_11:                              # %join.5.i.2
                                        # =>This Inner Loop Header: Depth=1
	slli	a7, s5, 3
	add	s11, s10, s5
	add	s7, s9, s6
	lbu	t0, 0(s2)
	lbu	a1, 1(s2)
	lbu	a2, 2(s2)
	lbu	a3, 3(s2)
	lbu	a4, 8(s2)
	lbu	a5, 9(s2)
	lbu	a6, 10(s2)
	lbu	t1, 11(s2)
	sltu	s0, s11, s10
	add	s7, s7, s0
	slli	a1, a1, 8
	slli	a2, a2, 16
	slli	a3, a3, 24
	slli	a5, a5, 8
	or	t3, a1, t0
	or	t5, a3, a2
	or	t0, a5, a4
	lbu	a3, 12(s2)
	lbu	a5, 13(s2)
	lbu	a4, 14(s2)
	lbu	a0, 15(s2)
	add	s0, s3, a7
	slli	a6, a6, 16
	slli	t1, t1, 24
	slli	a5, a5, 8
	slli	a4, a4, 16
	slli	a0, a0, 24
	or	a1, t1, a6
	or	a7, a5, a3
	or	a2, a0, a4
	or	a0, t5, t3
	lbu	a6, 0(s0)
	lbu	a3, 1(s0)
	lbu	a5, 2(s0)
	lbu	a4, 3(s0)
	or	a1, a1, t0
	or	a2, a2, a7
	slli	a3, a3, 8
	slli	a5, a5, 16
	slli	a4, a4, 24
	or	a6, a3, a6
	or	a7, a4, a5
	lbu	a5, 5(s0)
	lbu	t0, 4(s0)
	lbu	a4, 6(s0)
	lbu	a3, 7(s0)
	slli	a5, a5, 8
	or	a5, a5, t0
	slli	a4, a4, 16
	slli	a3, a3, 24
	or	a3, a3, a4
	or	a4, a7, a6
	or	a3, a3, a5
	sw	t4, 8(sp)
	sw	t2, 12(sp)
	sw	a4, 16(sp)
	sw	a3, 20(sp)
	addi	a3, sp, 8
	li	a4, 1
	li	a5, 0
	call	aes.aes_narrow.blocks.process_all_batches.1
	call	aes.aes_cipher.zeroize.stack.wipe_stack.1024
	lw	t6, 8(sp)
	lw	ra, 12(sp)
	lw	t3, 16(sp)
	lw	t5, 20(sp)
	srli	t1, s7, 8
	lui	a6, 16
	srli	t0, s7, 24
	slli	a7, s7, 24
	srli	a5, s11, 8
	srli	t4, s11, 24
	slli	t2, s11, 24
	addi	s5, s5, 1
	addi	a0, a6, -256
	seqz	a4, s5
	and	a1, t1, a0
	and	a2, s7, a0
	and	a5, a5, a0
	and	a0, s11, a0
	add	s6, s6, a4
	or	a6, a1, t0
	slli	a2, a2, 8
	or	t0, a5, t4
	slli	a0, a0, 8
	srli	a5, ra, 24
	srli	a3, ra, 16
	srli	a1, ra, 8
	srli	t1, t6, 24
	srli	t4, t6, 16
	srli	a4, t6, 8
	srli	s7, t5, 16
	or	a7, a7, a2
	srli	a2, t5, 24
	or	t2, t2, a0
	srli	a0, t5, 8
	sb	ra, 4(s1)
	sb	a1, 5(s1)
	sb	a3, 6(s1)
	sb	a5, 7(s1)
	srli	a1, t3, 16
	sb	t6, 0(s1)
	sb	a4, 1(s1)
	sb	t4, 2(s1)
	sb	t1, 3(s1)
	srli	a3, t3, 24
	sb	t5, 4(s0)
	sb	a0, 5(s0)
	sb	s7, 6(s0)
	sb	a2, 7(s0)
	srli	a0, t3, 8
	sb	t3, 0(s0)
	sb	a0, 1(s0)
	sb	a1, 2(s0)
	sb	a3, 3(s0)
	or	a6, a7, a6
	or	a7, t2, t0
	lbu	a2, 5(s1)
	lbu	a3, 4(s1)
	lbu	a4, 6(s1)
	lbu	a5, 7(s1)
	slli	a2, a2, 8
	or	a2, a2, a3
	lbu	a3, 0(s1)
	lbu	s0, 1(s1)
	lbu	a0, 2(s1)
	lbu	a1, 3(s1)
	slli	a4, a4, 16
	slli	a5, a5, 24
	or	a4, a4, a5
	slli	s0, s0, 8
	slli	a0, a0, 16
	slli	a1, a1, 24
	or	a3, a3, s0
	or	a0, a0, a1
	or	a2, a2, a4
	or	a0, a0, a3
	xor	t4, a0, a6
	xor	t2, a2, a7
	srli	a0, t4, 16
	srli	a1, t4, 24
	srli	a2, t4, 8
	srli	a3, t2, 16
	srli	a4, t2, 24
	srli	a5, t2, 8
	sb	t4, 0(s1)
	sb	a2, 1(s1)
	sb	a0, 2(s1)
	sb	a1, 3(s1)
	sb	t2, 4(s1)
	sb	a5, 5(s1)
	sb	a3, 6(s1)
	sb	a4, 7(s1)
	bne	s6, s4, .Laes_BB18_10
# %bb.12:                               #   in Loop: Header=BB18_11 Depth=1
	lw	a0, 4(sp)                       # 4-byte Folded Reload
	sltu	a0, s5, a0
	bnez	a0, .Laes_BB18_11
.Laes_BB18_13:                              # %"key_wrap::steps::wrap_turn::<#4f733d09d7f6c6b4>.exit.loopexit.2"
	li	s5, 0
	li	s6, 0
	li	a0, 3
	lw	a1, 0(sp)                       # 4-byte Folded Reload
	add	a1, a1, s4
	lw	a2, 4(sp)                       # 4-byte Folded Reload
	add	s7, s8, a2
	mulhu	a0, a2, a0
	addi	s7, s7, 1
	add	a0, a0, a1
	seqz	s8, s7
	add	s8, s8, a0
	j	.Laes_BB18_15
.Laes_BB18_14:                              # %join.5.i.3
                                        #   in Loop: Header=BB18_15 Depth=1
	sltu	a0, s6, s4
	beqz	a0, .Laes_BB18_17
.Laes_BB18_15:                              # %join.5.i.3
                                        # =>This Inner Loop Header: Depth=1
	slli	a7, s5, 3
	add	s9, s7, s5
	add	s10, s8, s6
	lbu	t0, 0(s2)
	lbu	a1, 1(s2)
	lbu	a2, 2(s2)
	lbu	a3, 3(s2)
	lbu	a4, 8(s2)
	lbu	a5, 9(s2)
	lbu	a6, 10(s2)
	lbu	t1, 11(s2)
	sltu	s0, s9, s7
	add	s10, s10, s0
	slli	a1, a1, 8
	slli	a2, a2, 16
	slli	a3, a3, 24
	slli	a5, a5, 8
	or	t3, a1, t0
	or	t5, a3, a2
	or	t0, a5, a4
	lbu	a3, 12(s2)
	lbu	a5, 13(s2)
	lbu	a4, 14(s2)
	lbu	a0, 15(s2)
	add	s0, s3, a7
	slli	a6, a6, 16
	slli	t1, t1, 24
	slli	a5, a5, 8
	slli	a4, a4, 16
	slli	a0, a0, 24
	or	a1, t1, a6
	or	a7, a5, a3
	or	a2, a0, a4
	or	a0, t5, t3
	lbu	a6, 0(s0)
	lbu	a3, 1(s0)
	lbu	a5, 2(s0)
	lbu	a4, 3(s0)
	or	a1, a1, t0
	or	a2, a2, a7
	slli	a3, a3, 8
	slli	a5, a5, 16
	slli	a4, a4, 24
	or	a6, a3, a6
	or	a7, a4, a5
	lbu	a5, 5(s0)
	lbu	t0, 4(s0)
	lbu	a4, 6(s0)
	lbu	a3, 7(s0)
	slli	a5, a5, 8
	or	a5, a5, t0
	slli	a4, a4, 16
	slli	a3, a3, 24
	or	a3, a3, a4
	or	a4, a7, a6
	or	a3, a3, a5
	sw	t4, 8(sp)
	sw	t2, 12(sp)
	sw	a4, 16(sp)
	sw	a3, 20(sp)
	addi	a3, sp, 8
	li	a4, 1
	li	a5, 0
	call	aes.aes_narrow.blocks.process_all_batches.1
	call	aes.aes_cipher.zeroize.stack.wipe_stack.1024
	lw	t6, 8(sp)
	lw	s11, 12(sp)
	lw	t3, 16(sp)
	lw	t5, 20(sp)
	srli	t1, s10, 8
	lui	a6, 16
	srli	t0, s10, 24
	slli	a7, s10, 24
	srli	a5, s9, 8
	srli	t4, s9, 24
	slli	t2, s9, 24
	addi	s5, s5, 1
	addi	a0, a6, -256
	seqz	a4, s5
	and	a1, t1, a0
	and	a2, s10, a0
	and	a5, a5, a0
	and	a0, s9, a0
	add	s6, s6, a4
	or	a6, a1, t0
	slli	a2, a2, 8
	or	t0, a5, t4
	slli	a0, a0, 8
	srli	a5, s11, 24
	srli	a3, s11, 16
	srli	a1, s11, 8
	srli	t1, t6, 24
	srli	t4, t6, 16
	srli	a4, t6, 8
	srli	s9, t5, 16
	or	a7, a7, a2
	srli	a2, t5, 24
	or	t2, t2, a0
	srli	a0, t5, 8
	sb	s11, 4(s1)
	sb	a1, 5(s1)
	sb	a3, 6(s1)
	sb	a5, 7(s1)
	srli	a1, t3, 16
	sb	t6, 0(s1)
	sb	a4, 1(s1)
	sb	t4, 2(s1)
	sb	t1, 3(s1)
	srli	a3, t3, 24
	sb	t5, 4(s0)
	sb	a0, 5(s0)
	sb	s9, 6(s0)
	sb	a2, 7(s0)
	srli	a0, t3, 8
	sb	t3, 0(s0)
	sb	a0, 1(s0)
	sb	a1, 2(s0)
	sb	a3, 3(s0)
	or	a6, a7, a6
	or	a7, t2, t0
	lbu	a2, 5(s1)
	lbu	a3, 4(s1)
	lbu	a4, 6(s1)
	lbu	a5, 7(s1)
	slli	a2, a2, 8
	or	a2, a2, a3
	lbu	a3, 0(s1)
	lbu	s0, 1(s1)
	lbu	a0, 2(s1)
	lbu	a1, 3(s1)
	slli	a4, a4, 16
	slli	a5, a5, 24
	or	a4, a4, a5
	slli	s0, s0, 8
	slli	a0, a0, 16
	slli	a1, a1, 24
	or	a3, a3, s0
	or	a0, a0, a1
	or	a2, a2, a4
	or	a0, a0, a3
	xor	t4, a0, a6
	xor	t2, a2, a7
	srli	a0, t4, 16
	srli	a1, t4, 24
	srli	a2, t4, 8
	srli	a3, t2, 16
	srli	a4, t2, 24
	srli	a5, t2, 8
	sb	t4, 0(s1)
	sb	a2, 1(s1)
	sb	a0, 2(s1)
	sb	a1, 3(s1)
	sb	t2, 4(s1)
	sb	a5, 5(s1)
	sb	a3, 6(s1)
	sb	a4, 7(s1)
	bne	s6, s4, .Laes_BB18_14
# %bb.16:                               #   in Loop: Header=BB18_15 Depth=1
	lw	a0, 4(sp)                       # 4-byte Folded Reload
	sltu	a0, s5, a0
	bnez	a0, .Laes_BB18_15
.Laes_BB18_17:                              # %"key_wrap::steps::wrap_turn::<#4f733d09d7f6c6b4>.exit.loopexit.3"
	li	s5, 0
	li	s6, 0
	lw	s8, 4(sp)                       # 4-byte Folded Reload
	srli	a0, s8, 30
	slli	a1, s4, 2
	slli	s8, s8, 2
	sw	a1, 0(sp)                       # 4-byte Folded Spill
	or	s9, a1, a0
	addi	s10, s8, 1
	j	.Laes_BB18_19
.Laes_BB18_18:                              # %join.5.i.4
                                        #   in Loop: Header=BB18_19 Depth=1
	sltu	a0, s6, s4
	beqz	a0, .Laes_BB18_21
.Laes_BB18_19:                              # %join.5.i.4
                                        # =>This Inner Loop Header: Depth=1
	slli	a7, s5, 3
	add	s11, s10, s5
	add	s7, s9, s6
	lbu	t0, 0(s2)
	lbu	a1, 1(s2)
	lbu	a2, 2(s2)
	lbu	a3, 3(s2)
	lbu	a4, 8(s2)
	lbu	a5, 9(s2)
	lbu	a6, 10(s2)
	lbu	t1, 11(s2)
	sltu	s0, s11, s10
	add	s7, s7, s0
	slli	a1, a1, 8
	slli	a2, a2, 16
	slli	a3, a3, 24
	slli	a5, a5, 8
	or	t3, a1, t0
	or	t5, a3, a2
	or	t0, a5, a4
	lbu	a3, 12(s2)
	lbu	a5, 13(s2)
	lbu	a4, 14(s2)
	lbu	a0, 15(s2)
	add	s0, s3, a7
	slli	a6, a6, 16
	slli	t1, t1, 24
	slli	a5, a5, 8
	slli	a4, a4, 16
	slli	a0, a0, 24
	or	a1, t1, a6
	or	a7, a5, a3
	or	a2, a0, a4
	or	a0, t5, t3
	lbu	a6, 0(s0)
	lbu	a3, 1(s0)
	lbu	a5, 2(s0)
	lbu	a4, 3(s0)
	or	a1, a1, t0
	or	a2, a2, a7
	slli	a3, a3, 8
	slli	a5, a5, 16
	slli	a4, a4, 24
	or	a6, a3, a6
	or	a7, a4, a5
	lbu	a5, 5(s0)
	lbu	t0, 4(s0)
	lbu	a4, 6(s0)
	lbu	a3, 7(s0)
	slli	a5, a5, 8
	or	a5, a5, t0
	slli	a4, a4, 16
	slli	a3, a3, 24
	or	a3, a3, a4
	or	a4, a7, a6
	or	a3, a3, a5
	sw	t4, 8(sp)
	sw	t2, 12(sp)
	sw	a4, 16(sp)
	sw	a3, 20(sp)
	addi	a3, sp, 8
	li	a4, 1
	li	a5, 0
	call	aes.aes_narrow.blocks.process_all_batches.1
	call	aes.aes_cipher.zeroize.stack.wipe_stack.1024
	lw	t6, 8(sp)
	lw	ra, 12(sp)
	lw	t3, 16(sp)
	lw	t5, 20(sp)
	srli	t1, s7, 8
	lui	a6, 16
	srli	t0, s7, 24
	slli	a7, s7, 24
	srli	a5, s11, 8
	srli	t4, s11, 24
	slli	t2, s11, 24
	addi	s5, s5, 1
	addi	a0, a6, -256
	seqz	a4, s5
	and	a1, t1, a0
	and	a2, s7, a0
	and	a5, a5, a0
	and	a0, s11, a0
	add	s6, s6, a4
	or	a6, a1, t0
	slli	a2, a2, 8
	or	t0, a5, t4
	slli	a0, a0, 8
	srli	a5, ra, 24
	srli	a3, ra, 16
	srli	a1, ra, 8
	srli	t1, t6, 24
	srli	t4, t6, 16
	srli	a4, t6, 8
	srli	s7, t5, 16
	or	a7, a7, a2
	srli	a2, t5, 24
	or	t2, t2, a0
	srli	a0, t5, 8
	sb	ra, 4(s1)
	sb	a1, 5(s1)
	sb	a3, 6(s1)
	sb	a5, 7(s1)
	srli	a1, t3, 16
	sb	t6, 0(s1)
	sb	a4, 1(s1)
	sb	t4, 2(s1)
	sb	t1, 3(s1)
	srli	a3, t3, 24
	sb	t5, 4(s0)
	sb	a0, 5(s0)
	sb	s7, 6(s0)
	sb	a2, 7(s0)
	srli	a0, t3, 8
	sb	t3, 0(s0)
	sb	a0, 1(s0)
	sb	a1, 2(s0)
	sb	a3, 3(s0)
	or	a6, a7, a6
	or	a7, t2, t0
	lbu	a2, 5(s1)
	lbu	a3, 4(s1)
	lbu	a4, 6(s1)
	lbu	a5, 7(s1)
	slli	a2, a2, 8
	or	a2, a2, a3
	lbu	a3, 0(s1)
	lbu	s0, 1(s1)
	lbu	a0, 2(s1)
	lbu	a1, 3(s1)
	slli	a4, a4, 16
	slli	a5, a5, 24
	or	a4, a4, a5
	slli	s0, s0, 8
	slli	a0, a0, 16
	slli	a1, a1, 24
	or	a3, a3, s0
	or	a0, a0, a1
	or	a2, a2, a4
	or	a0, a0, a3
	xor	t4, a0, a6
	xor	t2, a2, a7
	srli	a0, t4, 16
	srli	a1, t4, 24
	srli	a2, t4, 8
	srli	a3, t2, 16
	srli	a4, t2, 24
	srli	a5, t2, 8
	sb	t4, 0(s1)
	sb	a2, 1(s1)
	sb	a0, 2(s1)
	sb	a1, 3(s1)
	sb	t2, 4(s1)
	sb	a5, 5(s1)
	sb	a3, 6(s1)
	sb	a4, 7(s1)
	bne	s6, s4, .Laes_BB18_18
# %bb.20:                               #   in Loop: Header=BB18_19 Depth=1
	lw	a0, 4(sp)                       # 4-byte Folded Reload
	sltu	a0, s5, a0
	bnez	a0, .Laes_BB18_19
.Laes_BB18_21:                              # %"key_wrap::steps::wrap_turn::<#4f733d09d7f6c6b4>.exit.loopexit.4"
	li	s5, 0
	li	s6, 0
	li	a0, 5
	lw	a1, 0(sp)                       # 4-byte Folded Reload
	add	a1, a1, s4
	lw	a2, 4(sp)                       # 4-byte Folded Reload
	add	s7, s8, a2
	mulhu	a0, a2, a0
	addi	s7, s7, 1
	add	a0, a0, a1
	seqz	s8, s7
	add	s8, s8, a0
	j	.Laes_BB18_23
.Laes_BB18_22:                              # %join.5.i.5
                                        #   in Loop: Header=BB18_23 Depth=1
	sltu	a0, s6, s4
	beqz	a0, .Laes_BB18_25
.Laes_BB18_23:                              # %join.5.i.5
                                        # =>This Inner Loop Header: Depth=1
	slli	a7, s5, 3
	add	s9, s7, s5
	add	s10, s8, s6
	lbu	t0, 0(s2)
	lbu	a1, 1(s2)
	lbu	a2, 2(s2)
	lbu	a3, 3(s2)
	lbu	a4, 8(s2)
	lbu	a5, 9(s2)
	lbu	a6, 10(s2)
	lbu	t1, 11(s2)
	sltu	s0, s9, s7
	add	s10, s10, s0
	slli	a1, a1, 8
	slli	a2, a2, 16
	slli	a3, a3, 24
	slli	a5, a5, 8
	or	t3, a1, t0
	or	t5, a3, a2
	or	t0, a5, a4
	lbu	a3, 12(s2)
	lbu	a5, 13(s2)
	lbu	a4, 14(s2)
	lbu	a0, 15(s2)
	add	s0, s3, a7
	slli	a6, a6, 16
	slli	t1, t1, 24
	slli	a5, a5, 8
	slli	a4, a4, 16
	slli	a0, a0, 24
	or	a1, t1, a6
	or	a7, a5, a3
	or	a2, a0, a4
	or	a0, t5, t3
	lbu	a6, 0(s0)
	lbu	a3, 1(s0)
	lbu	a5, 2(s0)
	lbu	a4, 3(s0)
	or	a1, a1, t0
	or	a2, a2, a7
	slli	a3, a3, 8
	slli	a5, a5, 16
	slli	a4, a4, 24
	or	a6, a3, a6
	or	a7, a4, a5
	lbu	a5, 5(s0)
	lbu	t0, 4(s0)
	lbu	a4, 6(s0)
	lbu	a3, 7(s0)
	slli	a5, a5, 8
	or	a5, a5, t0
	slli	a4, a4, 16
	slli	a3, a3, 24
	or	a3, a3, a4
	or	a4, a7, a6
	or	a3, a3, a5
	sw	t4, 8(sp)
	sw	t2, 12(sp)
	sw	a4, 16(sp)
	sw	a3, 20(sp)
	addi	a3, sp, 8
	li	a4, 1
	li	a5, 0
	call	aes.aes_narrow.blocks.process_all_batches.1
	call	aes.aes_cipher.zeroize.stack.wipe_stack.1024
	lw	t6, 8(sp)
	lw	s11, 12(sp)
	lw	t3, 16(sp)
	lw	t5, 20(sp)
	srli	t1, s10, 8
	lui	a6, 16
	srli	t0, s10, 24
	slli	a7, s10, 24
	srli	a5, s9, 8
	srli	t4, s9, 24
	slli	t2, s9, 24
	addi	s5, s5, 1
	addi	a0, a6, -256
	seqz	a4, s5
	and	a1, t1, a0
	and	a2, s10, a0
	and	a5, a5, a0
	and	a0, s9, a0
	add	s6, s6, a4
	or	a6, a1, t0
	slli	a2, a2, 8
	or	t0, a5, t4
	slli	a0, a0, 8
	srli	a5, s11, 24
	srli	a3, s11, 16
	srli	a1, s11, 8
	srli	t1, t6, 24
	srli	t4, t6, 16
	srli	a4, t6, 8
	srli	s9, t5, 16
	or	a7, a7, a2
	srli	a2, t5, 24
	or	t2, t2, a0
	srli	a0, t5, 8
	sb	s11, 4(s1)
	sb	a1, 5(s1)
	sb	a3, 6(s1)
	sb	a5, 7(s1)
	srli	a1, t3, 16
	sb	t6, 0(s1)
	sb	a4, 1(s1)
	sb	t4, 2(s1)
	sb	t1, 3(s1)
	srli	a3, t3, 24
	sb	t5, 4(s0)
	sb	a0, 5(s0)
	sb	s9, 6(s0)
	sb	a2, 7(s0)
	srli	a0, t3, 8
	sb	t3, 0(s0)
	sb	a0, 1(s0)
	sb	a1, 2(s0)
	sb	a3, 3(s0)
	or	a6, a7, a6
	or	a7, t2, t0
	lbu	a2, 5(s1)
	lbu	a3, 4(s1)
	lbu	a4, 6(s1)
	lbu	a5, 7(s1)
	slli	a2, a2, 8
	or	a2, a2, a3
	lbu	a3, 0(s1)
	lbu	s0, 1(s1)
	lbu	a0, 2(s1)
	lbu	a1, 3(s1)
	slli	a4, a4, 16
	slli	a5, a5, 24
	or	a4, a4, a5
	slli	s0, s0, 8
	slli	a0, a0, 16
	slli	a1, a1, 24
	or	a3, a3, s0
	or	a0, a0, a1
	or	a2, a2, a4
	or	a0, a0, a3
	xor	t4, a0, a6
	xor	t2, a2, a7
	srli	a0, t4, 16
	srli	a1, t4, 24
	srli	a2, t4, 8
	srli	a3, t2, 16
	srli	a4, t2, 24
	srli	a5, t2, 8
	sb	t4, 0(s1)
	sb	a2, 1(s1)
	sb	a0, 2(s1)
	sb	a1, 3(s1)
	sb	t2, 4(s1)
	sb	a5, 5(s1)
	sb	a3, 6(s1)
	sb	a4, 7(s1)
	bne	s6, s4, .Laes_BB18_22
# %bb.24:                               #   in Loop: Header=BB18_23 Depth=1
	lw	a0, 4(sp)                       # 4-byte Folded Reload
	sltu	a0, s5, a0
	bnez	a0, .Laes_BB18_23
.Laes_BB18_25:                              # %after.1
	lw	ra, 76(sp)                      # 4-byte Folded Reload
	lw	s0, 72(sp)                      # 4-byte Folded Reload
	lw	s1, 68(sp)                      # 4-byte Folded Reload
	lw	s2, 64(sp)                      # 4-byte Folded Reload
	lw	s3, 60(sp)                      # 4-byte Folded Reload
	lw	s4, 56(sp)                      # 4-byte Folded Reload
	lw	s5, 52(sp)                      # 4-byte Folded Reload
	lw	s6, 48(sp)                      # 4-byte Folded Reload
	lw	s7, 44(sp)                      # 4-byte Folded Reload
	lw	s8, 40(sp)                      # 4-byte Folded Reload
	lw	s9, 36(sp)                      # 4-byte Folded Reload
	lw	s10, 32(sp)                     # 4-byte Folded Reload
	lw	s11, 28(sp)                     # 4-byte Folded Reload
	addi	sp, sp, 80
	ret
.Laes_func_end18:
	.size	aes.key_wrap.steps.wrap_in_place, .Laes_func_end18-aes.key_wrap.steps.wrap_in_place
                                        # -- End function
	.section	.text.aes.aes_cipher.zeroize.stack.wipe_stack.512,"ax",@progbits
	.p2align	1                               # -- Begin function aes_cipher::zeroize::stack::wipe_stack::<=512>
	.type	aes.aes_cipher.zeroize.stack.wipe_stack.512,@function
aes.aes_cipher.zeroize.stack.wipe_stack.512: # @aes.aes_cipher.zeroize.stack.wipe_stack.512
# %bb.0:                                # %start
	addi	sp, sp, -528
	sw	ra, 524(sp)                     # 4-byte Folded Spill
	sw	s0, 520(sp)                     # 4-byte Folded Spill
	addi	a0, sp, 8
	li	a2, 512
	addi	s0, sp, 8
	li	a1, 0
	call	memset
	sw	zero, 0(sp)
	sw	zero, 4(sp)
	#APP
	#NO_APP
	lw	a0, 0(sp)
	lw	a1, 4(sp)
	#APP
	#NO_APP
	seqz	a1, a1
	sltiu	a2, a0, 512
	and	a1, a1, a2
	beqz	a1, .Laes_BB19_2
# %bb.1:                                # %then.1
	add	a0, a0, s0
	lbu	a0, 0(a0)
	#APP
	#NO_APP
	lw	zero, 4(sp)
	lw	zero, 0(sp)
	sw	zero, 4(sp)
	sw	a0, 0(sp)
	#APP
	#NO_APP
.Laes_BB19_2:                               # %common.ret
	lw	ra, 524(sp)                     # 4-byte Folded Reload
	lw	s0, 520(sp)                     # 4-byte Folded Reload
	addi	sp, sp, 528
	li	a1, 0
	li	a2, 0
	li	a3, 0
	li	a4, 0
	li	a5, 0
	li	a6, 0
	li	a7, 0
	li	t0, 0
	li	t1, 0
	li	t2, 0
	li	t3, 0
	li	t4, 0
	li	t5, 0
	li	t6, 0
	ret
.Laes_func_end19:
	.size	aes.aes_cipher.zeroize.stack.wipe_stack.512, .Laes_func_end19-aes.aes_cipher.zeroize.stack.wipe_stack.512
                                        # -- End function
	.section	.text.aes.key_wrap.padded.wrap_padded,"ax",@progbits
	.p2align	1                               # -- Begin function key_wrap::padded::wrap_padded::<#4f733d09d7f6c6b4>
	.type	aes.key_wrap.padded.wrap_padded,@function
aes.key_wrap.padded.wrap_padded: # @aes.key_wrap.padded.wrap_padded
# %bb.0:                                # %start
	addi	sp, sp, -80
	sw	ra, 76(sp)                      # 4-byte Folded Spill
	sw	s0, 72(sp)                      # 4-byte Folded Spill
	sw	s1, 68(sp)                      # 4-byte Folded Spill
	sw	s2, 64(sp)                      # 4-byte Folded Spill
	sw	s3, 60(sp)                      # 4-byte Folded Spill
	sw	s4, 56(sp)                      # 4-byte Folded Spill
	sw	s5, 52(sp)                      # 4-byte Folded Spill
	sw	s6, 48(sp)                      # 4-byte Folded Spill
	sw	s7, 44(sp)                      # 4-byte Folded Spill
	sw	s8, 40(sp)                      # 4-byte Folded Spill
	sw	s9, 36(sp)                      # 4-byte Folded Spill
	sw	s10, 32(sp)                     # 4-byte Folded Spill
	sw	s11, 28(sp)                     # 4-byte Folded Spill
	mv	s4, a1
	mv	s2, a0
	or	a1, a2, a3
	li	a0, 1
	beqz	a1, .Laes_BB20_12
# %bb.1:                                # %"key_wrap::padded::fits.exit"
	mv	s7, a3
	mv	s11, a2
	srli	a1, a2, 3
	andi	a2, a2, 7
	seqz	a2, a2
	sub	a3, a1, a2
	sltu	a1, a1, a2
	addi	a2, a3, 2
	sltu	a3, a2, a3
	sub	a3, a3, a1
	xor	a1, a6, a3
	xor	a2, a2, a5
	or	a1, a1, a2
	bnez	a1, .Laes_BB20_12
# %bb.2:                                # %arm.5
	mv	s3, a4
	addi	s5, a4, 8
	seqz	a2, a5
	addi	s6, a5, -1
	lui	a3, 681366
	srli	a0, s11, 8
	srli	a1, s11, 24
	srli	a4, s11, 16
	sub	s10, a6, a2
	addi	a2, a3, -1626
	sb	a1, 4(s3)
	sb	a4, 5(s3)
	sb	a0, 6(s3)
	sb	s11, 7(s3)
	or	a2, s7, a2
	or	a5, s6, s10
	srli	a3, a2, 8
	srli	a4, a2, 24
	srli	s1, a2, 16
	sb	a4, 0(s3)
	sb	s1, 1(s3)
	sb	a3, 2(s3)
	sb	a2, 3(s3)
	beqz	a5, .Laes_BB20_11
# %bb.3:                                # %join.5.i.preheader
	li	s8, 0
	li	s9, 0
	lui	a5, 16
	addi	a5, a5, -256
	and	a3, a3, a5
	or	a3, a3, a4
	and	a0, a0, a5
	or	a0, a0, a1
	slli	a1, a2, 24
	and	a2, a2, a5
	slli	a2, a2, 8
	or	a1, a1, a2
	slli	a2, s11, 24
	and	a4, s11, a5
	slli	a4, a4, 8
	or	a2, a2, a4
	or	a1, a1, a3
	sw	a1, 4(sp)                       # 4-byte Folded Spill
	or	a0, a0, a2
	sw	a0, 0(sp)                       # 4-byte Folded Spill
	j	.Laes_BB20_5
.Laes_BB20_4:                               # %join.5.i
                                        #   in Loop: Header=BB20_5 Depth=1
	sltu	a0, s9, s10
	beqz	a0, .Laes_BB20_9
.Laes_BB20_5:                               # %join.5.i
                                        # =>This Inner Loop Header: Depth=1
	srli	a0, s8, 29
	slli	a1, s9, 3
	slli	s1, s8, 3
	or	a0, a0, a1
	sltu	a1, s11, s1
	sub	a0, s7, a0
	sub	a0, a0, a1
	sub	a1, s11, s1
	seqz	a0, a0
	addi	a0, a0, -1
	or	a2, a0, a1
	li	a0, 8
	bltu	a2, a0, .Laes_BB20_7
# %bb.6:                                # %join.5.i
                                        #   in Loop: Header=BB20_5 Depth=1
	li	a2, 8
.Laes_BB20_7:                               # %join.5.i
                                        #   in Loop: Header=BB20_5 Depth=1
	add	a1, s4, s1
	sw	zero, 8(sp)
	sw	zero, 12(sp)
	addi	a0, sp, 8
	call	memcpy
	lw	a0, 8(sp)
	lw	a1, 12(sp)
	add	s1, s1, s5
	addi	s8, s8, 1
	seqz	a2, s8
	add	s9, s9, a2
	srli	a2, a1, 24
	srli	a3, a1, 16
	srli	a4, a1, 8
	srli	a5, a0, 24
	srli	s0, a0, 16
	sb	a1, 4(s1)
	sb	a4, 5(s1)
	sb	a3, 6(s1)
	sb	a2, 7(s1)
	srli	a1, a0, 8
	sb	a0, 0(s1)
	sb	a1, 1(s1)
	sb	s0, 2(s1)
	sb	a5, 3(s1)
	bne	s9, s10, .Laes_BB20_4
# %bb.8:                                #   in Loop: Header=BB20_5 Depth=1
	sltu	a0, s8, s6
	bnez	a0, .Laes_BB20_5
.Laes_BB20_9:                               # %"key_wrap::padded::fill.exit"
	xori	a0, s6, 1
	or	a0, a0, s10
	bnez	a0, .Laes_BB20_11
# %bb.10:                               # %then.1.i
	lbu	a0, 8(s3)
	lbu	a1, 9(s3)
	lbu	t0, 10(s3)
	lbu	a3, 11(s3)
	lbu	a7, 12(s3)
	lbu	a5, 13(s3)
	lbu	s1, 14(s3)
	lbu	s0, 15(s3)
	slli	a1, a1, 8
	or	a6, a1, a0
	lbu	a1, 0(s2)
	lbu	a0, 1(s2)
	lbu	a4, 2(s2)
	lbu	a2, 3(s2)
	slli	t0, t0, 16
	slli	a3, a3, 24
	slli	a5, a5, 8
	slli	s1, s1, 16
	slli	s0, s0, 24
	slli	a0, a0, 8
	or	t0, a3, t0
	or	a7, a5, a7
	or	s0, s0, s1
	or	t1, a0, a1
	lbu	a1, 8(s2)
	lbu	s1, 9(s2)
	lbu	a3, 10(s2)
	lbu	a5, 11(s2)
	slli	a4, a4, 16
	slli	a2, a2, 24
	slli	s1, s1, 8
	slli	a3, a3, 16
	slli	a5, a5, 24
	or	a2, a2, a4
	or	a1, a1, s1
	or	a3, a3, a5
	lbu	a4, 13(s2)
	lbu	a5, 12(s2)
	lbu	s1, 14(s2)
	lbu	a0, 15(s2)
	slli	a4, a4, 8
	or	a4, a4, a5
	slli	s1, s1, 16
	slli	a0, a0, 24
	or	s1, s1, a0
	or	a5, t0, a6
	or	s0, s0, a7
	or	a0, a2, t1
	or	a1, a1, a3
	lw	a2, 4(sp)                       # 4-byte Folded Reload
	sw	a2, 8(sp)
	lw	a2, 0(sp)                       # 4-byte Folded Reload
	sw	a2, 12(sp)
	sw	a5, 16(sp)
	sw	s0, 20(sp)
	or	a2, s1, a4
	addi	a3, sp, 8
	li	a4, 1
	li	a5, 0
	call	aes.aes_narrow.blocks.process_all_batches.1
	call	aes.aes_cipher.zeroize.stack.wipe_stack.1024
	li	a0, 0
	lw	a1, 12(sp)
	lw	a2, 8(sp)
	lw	a3, 16(sp)
	lw	a4, 20(sp)
	srli	a7, a1, 24
	srli	t2, a1, 16
	srli	s0, a1, 8
	srli	a6, a2, 24
	srli	t0, a2, 16
	srli	a5, a2, 8
	srli	t1, a4, 24
	srli	t3, a4, 16
	srli	s1, a4, 8
	sb	a1, 4(s3)
	sb	s0, 5(s3)
	sb	t2, 6(s3)
	sb	a7, 7(s3)
	srli	a1, a3, 24
	sb	a2, 0(s3)
	sb	a5, 1(s3)
	sb	t0, 2(s3)
	sb	a6, 3(s3)
	srli	a2, a3, 16
	sb	a4, 12(s3)
	sb	s1, 13(s3)
	sb	t3, 14(s3)
	sb	t1, 15(s3)
	srli	a4, a3, 8
	sb	a3, 8(s3)
	sb	a4, 9(s3)
	sb	a2, 10(s3)
	sb	a1, 11(s3)
	j	.Laes_BB20_12
.Laes_BB20_11:                              # %else.2.i
	mv	a0, s2
	mv	a1, s3
	mv	a2, s5
	mv	a3, s6
	mv	a4, s10
	call	aes.key_wrap.steps.wrap_in_place
	li	a0, 0
.Laes_BB20_12:                              # %return.4
	lw	ra, 76(sp)                      # 4-byte Folded Reload
	lw	s0, 72(sp)                      # 4-byte Folded Reload
	lw	s1, 68(sp)                      # 4-byte Folded Reload
	lw	s2, 64(sp)                      # 4-byte Folded Reload
	lw	s3, 60(sp)                      # 4-byte Folded Reload
	lw	s4, 56(sp)                      # 4-byte Folded Reload
	lw	s5, 52(sp)                      # 4-byte Folded Reload
	lw	s6, 48(sp)                      # 4-byte Folded Reload
	lw	s7, 44(sp)                      # 4-byte Folded Reload
	lw	s8, 40(sp)                      # 4-byte Folded Reload
	lw	s9, 36(sp)                      # 4-byte Folded Reload
	lw	s10, 32(sp)                     # 4-byte Folded Reload
	lw	s11, 28(sp)                     # 4-byte Folded Reload
	addi	sp, sp, 80
	ret
.Laes_func_end20:
	.size	aes.key_wrap.padded.wrap_padded, .Laes_func_end20-aes.key_wrap.padded.wrap_padded
                                        # -- End function
	.section	.text.aes.aes_narrow.borrowed_words.call_to_decrypt,"ax",@progbits
	.p2align	1                               # -- Begin function aes_narrow::borrowed_words::call_to_decrypt::<#a8a74a144d92a363>
	.type	aes.aes_narrow.borrowed_words.call_to_decrypt,@function
aes.aes_narrow.borrowed_words.call_to_decrypt: # @aes.aes_narrow.borrowed_words.call_to_decrypt
# %bb.0:                                # %start
	addi	sp, sp, -1120
	sw	ra, 1116(sp)                    # 4-byte Folded Spill
	sw	s0, 1112(sp)                    # 4-byte Folded Spill
	sw	s1, 1108(sp)                    # 4-byte Folded Spill
	sw	s2, 1104(sp)                    # 4-byte Folded Spill
	sw	s3, 1100(sp)                    # 4-byte Folded Spill
	sw	s4, 1096(sp)                    # 4-byte Folded Spill
	sw	s5, 1092(sp)                    # 4-byte Folded Spill
	sw	s6, 1088(sp)                    # 4-byte Folded Spill
	sw	s7, 1084(sp)                    # 4-byte Folded Spill
	sw	s8, 1080(sp)                    # 4-byte Folded Spill
	sw	s9, 1076(sp)                    # 4-byte Folded Spill
	sw	s10, 1072(sp)                   # 4-byte Folded Spill
	sw	s11, 1068(sp)                   # 4-byte Folded Spill
	mv	s7, a3
	mv	s3, a1
	lw	a1, 24(a3)
	lw	a3, 28(a3)
	sw	a1, 24(sp)                      # 4-byte Folded Spill
	or	a1, a1, a3
	beqz	a1, .Laes_BB21_18
# %bb.1:                                # %join.5.lr.ph.i.i
	mv	s2, a2
	mv	s4, a0
	li	s10, 0
	lw	a0, 16(s7)
	sw	a0, 4(sp)                       # 4-byte Folded Spill
	li	a4, 0
	sw	a3, 12(sp)                      # 4-byte Folded Spill
	sw	a2, 20(sp)                      # 4-byte Folded Spill
	sw	s3, 16(sp)                      # 4-byte Folded Spill
	sw	s4, 8(sp)                       # 4-byte Folded Spill
	j	.Laes_BB21_3
.Laes_BB21_2:                               # %"cbc::decryption::unchain_part::<#c3f6a2486d05430b>.exit.loopexit.i.i"
                                        #   in Loop: Header=BB21_3 Depth=1
	sltu	a0, a4, a3
	lw	s2, 20(sp)                      # 4-byte Folded Reload
	lw	s3, 16(sp)                      # 4-byte Folded Reload
	lw	s4, 8(sp)                       # 4-byte Folded Reload
	lw	s10, 28(sp)                     # 4-byte Folded Reload
	beqz	a0, .Laes_BB21_18
.Laes_BB21_3:                               # %join.5.i.i
                                        # =>This Loop Header: Depth=1
                                        #     Child Loop BB21_9 Depth 2
                                        #     Child Loop BB21_13 Depth 2
                                        #     Child Loop BB21_15 Depth 2
	lw	a2, 24(sp)                      # 4-byte Folded Reload
	sltu	a0, a2, s10
	sub	a1, a3, a4
	sub	s6, a2, s10
	sub	a1, a1, a0
	seqz	s9, a1
	addi	a0, s9, -1
	or	s5, a0, s6
	li	a0, 64
	bltu	s5, a0, .Laes_BB21_5
# %bb.4:                                # %join.5.i.i
                                        #   in Loop: Header=BB21_3 Depth=1
	li	s5, 64
.Laes_BB21_5:                               # %join.5.i.i
                                        #   in Loop: Header=BB21_3 Depth=1
	sw	a4, 32(sp)                      # 4-byte Folded Spill
	slli	s11, s10, 4
	lw	a0, 4(sp)                       # 4-byte Folded Reload
	add	s11, s11, a0
	addi	a0, sp, 44
	slli	s1, s5, 4
	bgeu	a0, s11, .Laes_BB21_7
# %bb.6:                                # %join.5.i.i
                                        #   in Loop: Header=BB21_3 Depth=1
	li	s0, 1
	j	.Laes_BB21_8
.Laes_BB21_7:                               #   in Loop: Header=BB21_3 Depth=1
	sub	a0, a0, s11
	sltu	a0, a0, s1
	xori	s0, a0, 1
.Laes_BB21_8:                               # %join.5.i.i
                                        #   in Loop: Header=BB21_3 Depth=1
	addi	a0, sp, 44
	li	a2, 1024
	li	a1, 0
	call	memset
	addi	a0, sp, 44
	mv	a1, s11
	mv	a2, s1
	call	memcpy
	sltiu	a0, s6, 2
	li	s1, 0
	li	s0, 0
	and	a0, s9, a0
	bnez	a0, .Laes_BB21_10
.Laes_BB21_9:                               # %join.5.i.i.i.i
                                        #   Parent Loop BB21_3 Depth=1
                                        # =>  This Inner Loop Header: Depth=2
	mv	a0, s1
	addi	s1, s1, 2
	slli	a3, a0, 4
	sltu	a0, s1, a0
	add	s0, s0, a0
	add	a3, a3, s11
	li	a4, 2
	mv	a0, s4
	mv	a1, s3
	mv	a2, s2
	li	a5, 0
	call	aes.aes_soft.soft.blocks.filled_up.process_filled_up.2
	sltu	a0, s5, s1
	sub	a1, s5, s1
	add	a0, a0, s0
	seqz	a0, a0
	sltiu	a1, a1, 2
	and	a0, a0, a1
	beqz	a0, .Laes_BB21_9
.Laes_BB21_10:                              # %loop.7.preheader.i.i.i.i
                                        #   in Loop: Header=BB21_3 Depth=1
	beqz	s0, .Laes_BB21_12
# %bb.11:                               # %loop.7.preheader.i.i.i.i
                                        #   in Loop: Header=BB21_3 Depth=1
	li	a0, 1
	beqz	a0, .Laes_BB21_13
	j	.Laes_BB21_14
.Laes_BB21_12:                              #   in Loop: Header=BB21_3 Depth=1
	sltu	a0, s1, s5
	xori	a0, a0, 1
	bnez	a0, .Laes_BB21_14
.Laes_BB21_13:                              # %join.10.i.i.i.i
                                        #   Parent Loop BB21_3 Depth=1
                                        # =>  This Inner Loop Header: Depth=2
	slli	a3, s1, 4
	add	a3, a3, s11
	li	a4, 1
	mv	a0, s4
	mv	a1, s3
	mv	a2, s2
	li	a5, 0
	call	aes.aes_soft.soft.blocks.filled_up.process_filled_up.2
	addi	s1, s1, 1
	seqz	a0, s1
	add	s0, s0, a0
	sltu	a0, s1, s5
	seqz	a1, s0
	and	a0, a0, a1
	bnez	a0, .Laes_BB21_13
.Laes_BB21_14:                              # %join.7.lr.ph.i.i.i
                                        #   in Loop: Header=BB21_3 Depth=1
	mv	a0, s5
	li	s5, 0
	li	s8, 0
	lbu	a6, 0(s7)
	lbu	a7, 1(s7)
	lbu	t0, 2(s7)
	lbu	t1, 3(s7)
	lbu	t2, 4(s7)
	lbu	t3, 5(s7)
	lbu	t4, 6(s7)
	lbu	t5, 7(s7)
	lbu	t6, 8(s7)
	lbu	ra, 9(s7)
	lbu	s2, 10(s7)
	sw	s11, 36(sp)                     # 4-byte Folded Spill
	lbu	s11, 11(s7)
	lbu	a4, 12(s7)
	lbu	a5, 13(s7)
	lbu	s1, 14(s7)
	lbu	s9, 15(s7)
	add	s10, s10, a0
	sw	s10, 28(sp)                     # 4-byte Folded Spill
	sw	a0, 40(sp)                      # 4-byte Folded Spill
	sltu	s0, s10, a0
	lw	a0, 32(sp)                      # 4-byte Folded Reload
	add	a0, a0, s0
	sw	a0, 32(sp)                      # 4-byte Folded Spill
.Laes_BB21_15:                              # %join.7.i.i.i
                                        #   Parent Loop BB21_3 Depth=1
                                        # =>  This Inner Loop Header: Depth=2
	slli	s10, s5, 4
	addi	s6, sp, 44
	addi	s5, s5, 1
	lw	s0, 36(sp)                      # 4-byte Folded Reload
	add	s0, s0, s10
	add	s10, s10, s6
	seqz	a1, s5
	lw	a0, 40(sp)                      # 4-byte Folded Reload
	sltu	a2, s5, a0
	add	s8, s8, a1
	seqz	a1, s8
	and	s6, a1, a2
	lbu	a1, 15(s0)
	lbu	a2, 14(s0)
	lbu	s3, 13(s0)
	lbu	s4, 12(s0)
	xor	s9, a1, s9
	xor	a2, a2, s1
	xor	s3, s3, a5
	xor	s4, s4, a4
	lbu	s1, 11(s0)
	lbu	a3, 10(s0)
	lbu	a1, 9(s0)
	lbu	a5, 8(s0)
	xor	s11, s1, s11
	xor	s2, a3, s2
	xor	ra, a1, ra
	xor	t6, a5, t6
	lbu	a0, 7(s0)
	lbu	a4, 6(s0)
	lbu	s1, 5(s0)
	lbu	a3, 4(s0)
	xor	t5, a0, t5
	xor	t4, a4, t4
	xor	s1, s1, t3
	xor	a3, a3, t2
	lbu	a1, 3(s0)
	lbu	a5, 2(s0)
	lbu	a0, 1(s0)
	lbu	a4, 0(s0)
	xor	a1, a1, t1
	xor	a5, a5, t0
	xor	a0, a0, a7
	xor	a4, a4, a6
	sb	a4, 0(s0)
	sb	a0, 1(s0)
	sb	a5, 2(s0)
	sb	a1, 3(s0)
	sb	a3, 4(s0)
	sb	s1, 5(s0)
	sb	t4, 6(s0)
	sb	t5, 7(s0)
	sb	t6, 8(s0)
	sb	ra, 9(s0)
	sb	s2, 10(s0)
	sb	s11, 11(s0)
	sb	s4, 12(s0)
	sb	s3, 13(s0)
	sb	a2, 14(s0)
	sb	s9, 15(s0)
	lbu	a6, 0(s10)
	lbu	a7, 1(s10)
	lbu	t0, 2(s10)
	lbu	t1, 3(s10)
	lbu	t2, 4(s10)
	lbu	t3, 5(s10)
	lbu	t4, 6(s10)
	lbu	t5, 7(s10)
	lbu	t6, 8(s10)
	lbu	ra, 9(s10)
	lbu	s2, 10(s10)
	lbu	s11, 11(s10)
	lbu	a4, 12(s10)
	lbu	a5, 13(s10)
	lbu	s1, 14(s10)
	lbu	s9, 15(s10)
	sb	a6, 0(s7)
	sb	a7, 1(s7)
	sb	t0, 2(s7)
	sb	t1, 3(s7)
	sb	t2, 4(s7)
	sb	t3, 5(s7)
	sb	t4, 6(s7)
	sb	t5, 7(s7)
	sb	t6, 8(s7)
	sb	ra, 9(s7)
	sb	s2, 10(s7)
	sb	s11, 11(s7)
	sb	a4, 12(s7)
	sb	a5, 13(s7)
	sb	s1, 14(s7)
	sb	s9, 15(s7)
	bnez	s6, .Laes_BB21_15
# %bb.16:                               # %"cbc::decryption::unchain_part::<#c3f6a2486d05430b>.exit.loopexit.i.i"
                                        #   in Loop: Header=BB21_3 Depth=1
	lw	a3, 12(sp)                      # 4-byte Folded Reload
	lw	a4, 32(sp)                      # 4-byte Folded Reload
	bne	a4, a3, .Laes_BB21_2
# %bb.17:                               #   in Loop: Header=BB21_3 Depth=1
	lw	a0, 24(sp)                      # 4-byte Folded Reload
	lw	s10, 28(sp)                     # 4-byte Folded Reload
	sltu	a0, s10, a0
	lw	s2, 20(sp)                      # 4-byte Folded Reload
	lw	s3, 16(sp)                      # 4-byte Folded Reload
	lw	s4, 8(sp)                       # 4-byte Folded Reload
	bnez	a0, .Laes_BB21_3
.Laes_BB21_18:                              # %"cbc::decryption::ChainBlockCipherDecClosure::call::<#c3f6a2486d05430b>.exit"
	lw	ra, 1116(sp)                    # 4-byte Folded Reload
	lw	s0, 1112(sp)                    # 4-byte Folded Reload
	lw	s1, 1108(sp)                    # 4-byte Folded Reload
	lw	s2, 1104(sp)                    # 4-byte Folded Reload
	lw	s3, 1100(sp)                    # 4-byte Folded Reload
	lw	s4, 1096(sp)                    # 4-byte Folded Reload
	lw	s5, 1092(sp)                    # 4-byte Folded Reload
	lw	s6, 1088(sp)                    # 4-byte Folded Reload
	lw	s7, 1084(sp)                    # 4-byte Folded Reload
	lw	s8, 1080(sp)                    # 4-byte Folded Reload
	lw	s9, 1076(sp)                    # 4-byte Folded Reload
	lw	s10, 1072(sp)                   # 4-byte Folded Reload
	lw	s11, 1068(sp)                   # 4-byte Folded Reload
	addi	sp, sp, 1120
	ret
.Laes_func_end21:
	.size	aes.aes_narrow.borrowed_words.call_to_decrypt, .Laes_func_end21-aes.aes_narrow.borrowed_words.call_to_decrypt
                                        # -- End function
	.section	.text.aes.aes_soft.soft.blocks.filled_up.process_filled_up.2,"ax",@progbits
	.p2align	1                               # -- Begin function aes_soft::soft::blocks::filled_up::process_filled_up::<#a3dcb71d05bd149b>
	.type	aes.aes_soft.soft.blocks.filled_up.process_filled_up.2,@function
aes.aes_soft.soft.blocks.filled_up.process_filled_up.2: # @aes.aes_soft.soft.blocks.filled_up.process_filled_up.2
# %bb.0:                                # %start
	addi	sp, sp, -160
	sw	ra, 156(sp)                     # 4-byte Folded Spill
	sw	s0, 152(sp)                     # 4-byte Folded Spill
	sw	s1, 148(sp)                     # 4-byte Folded Spill
	sw	s2, 144(sp)                     # 4-byte Folded Spill
	sw	s3, 140(sp)                     # 4-byte Folded Spill
	sw	s4, 136(sp)                     # 4-byte Folded Spill
	sw	s5, 132(sp)                     # 4-byte Folded Spill
	sw	s6, 128(sp)                     # 4-byte Folded Spill
	mv	s3, a5
	mv	s4, a4
	mv	s0, a3
	mv	s6, a2
	mv	s5, a1
	mv	s2, a0
	lbu	a0, 12(a3)
	lbu	a1, 13(a3)
	lbu	a2, 14(a3)
	lbu	a3, 15(a3)
	lbu	a6, 8(s0)
	lbu	a5, 9(s0)
	lbu	s1, 10(s0)
	lbu	a4, 11(s0)
	slli	a1, a1, 8
	slli	a2, a2, 16
	slli	a3, a3, 24
	or	a7, a1, a0
	or	t0, a3, a2
	lbu	a1, 4(s0)
	lbu	a3, 5(s0)
	lbu	a0, 6(s0)
	lbu	a2, 7(s0)
	slli	a5, a5, 8
	slli	s1, s1, 16
	slli	a4, a4, 24
	slli	a3, a3, 8
	slli	a0, a0, 16
	slli	a2, a2, 24
	or	a6, a5, a6
	or	a4, a4, s1
	or	a1, a1, a3
	or	a0, a0, a2
	lbu	a2, 1(s0)
	lbu	a3, 0(s0)
	lbu	s1, 2(s0)
	lbu	a5, 3(s0)
	slli	a2, a2, 8
	or	a2, a2, a3
	slli	s1, s1, 16
	slli	a5, a5, 24
	or	a5, a5, s1
	or	a3, t0, a7
	or	a4, a4, a6
	or	a0, a0, a1
	or	a2, a2, a5
	sw	zero, 80(sp)
	sw	zero, 84(sp)
	sw	zero, 88(sp)
	sw	zero, 92(sp)
	sw	zero, 64(sp)
	sw	zero, 68(sp)
	sw	zero, 72(sp)
	sw	zero, 76(sp)
	sw	zero, 32(sp)
	sw	zero, 36(sp)
	sw	zero, 40(sp)
	sw	zero, 44(sp)
	sw	zero, 48(sp)
	sw	zero, 52(sp)
	sw	zero, 56(sp)
	sw	zero, 60(sp)
	sw	zero, 0(sp)
	sw	zero, 4(sp)
	sw	zero, 8(sp)
	sw	zero, 12(sp)
	sw	zero, 16(sp)
	sw	zero, 20(sp)
	sw	zero, 24(sp)
	sw	zero, 28(sp)
	sw	a2, 96(sp)
	sw	a0, 100(sp)
	sw	a4, 104(sp)
	sw	a3, 108(sp)
	addi	a0, sp, 112
	li	a2, 16
	mv	a1, s0
	call	memcpy
	slli	a0, s6, 29
	srli	a1, s5, 3
	srli	a2, s6, 3
	or	a4, s4, s3
	or	a0, a0, a1
	seqz	a1, a0
	sub	a3, a2, a1
	seqz	s5, a4
	addi	a2, a0, -1
	xori	s4, s4, 1
	beqz	a4, .Laes_BB22_2
# %bb.1:                                # %join.8.i
	lbu	t0, 12(s0)
	lbu	a1, 13(s0)
	lbu	a4, 14(s0)
	lbu	a5, 15(s0)
	lbu	a6, 8(s0)
	lbu	a7, 9(s0)
	lbu	t2, 10(s0)
	lbu	a0, 11(s0)
	slli	a1, a1, 8
	slli	a4, a4, 16
	slli	a5, a5, 24
	or	t0, a1, t0
	or	t1, a5, a4
	lbu	a5, 4(s0)
	lbu	a1, 5(s0)
	lbu	a4, 6(s0)
	lbu	s1, 7(s0)
	slli	a7, a7, 8
	slli	t2, t2, 16
	slli	a0, a0, 24
	slli	a1, a1, 8
	slli	a4, a4, 16
	slli	s1, s1, 24
	or	a6, a7, a6
	or	a7, a0, t2
	or	t2, a1, a5
	or	a4, a4, s1
	lbu	a5, 1(s0)
	lbu	s1, 0(s0)
	lbu	a0, 2(s0)
	lbu	a1, 3(s0)
	slli	a5, a5, 8
	or	a5, a5, s1
	slli	a0, a0, 16
	slli	a1, a1, 24
	or	a0, a0, a1
	or	a1, t1, t0
	or	s1, a7, a6
	or	a4, a4, t2
	or	a0, a0, a5
	or	a5, s4, s3
	sw	a0, 96(sp)
	sw	a4, 100(sp)
	sw	s1, 104(sp)
	sw	a1, 108(sp)
	bnez	a5, .Laes_BB22_3
.Laes_BB22_2:                               # %then.6.i
	lw	a0, 112(sp)
	lw	a1, 116(sp)
	lw	a4, 120(sp)
	lw	a5, 124(sp)
	sw	a0, 48(sp)
	sw	a1, 52(sp)
	sw	a4, 56(sp)
	sw	a5, 60(sp)
	lw	a0, 96(sp)
	lw	a1, 100(sp)
	lw	a4, 104(sp)
	lw	a5, 108(sp)
	sw	a0, 32(sp)
	sw	a1, 36(sp)
	sw	a4, 40(sp)
	sw	a5, 44(sp)
	j	.Laes_BB22_4
.Laes_BB22_3:                               # %join.8.i.1
	addi	a1, s0, 16
	addi	a0, sp, 112
	mv	s6, a2
	li	a2, 16
	mv	s1, a3
	call	memcpy
	mv	a2, s6
	mv	a3, s1
	lw	a0, 96(sp)
	lw	a1, 100(sp)
	lw	a4, 104(sp)
	lw	a5, 108(sp)
	sw	a0, 32(sp)
	sw	a1, 36(sp)
	sw	a4, 40(sp)
	sw	a5, 44(sp)
	lw	a0, 112(sp)
	lw	a1, 116(sp)
	lw	a4, 120(sp)
	lw	a5, 124(sp)
	sw	a0, 48(sp)
	sw	a1, 52(sp)
	sw	a4, 56(sp)
	sw	a5, 60(sp)
.Laes_BB22_4:                               # %"aes_soft::soft::blocks::filled_up::filled_up::<#7d3b633001169d8c>.exit"
	mv	a0, sp
	addi	a4, sp, 32
	mv	a1, s2
	call	aes.aes_soft.soft.ciphers.planes.process_outlined.2
	lw	a0, 16(sp)
	lw	a1, 20(sp)
	lw	a2, 24(sp)
	lw	a3, 28(sp)
	sw	a0, 80(sp)
	sw	a1, 84(sp)
	sw	a2, 88(sp)
	sw	a3, 92(sp)
	lw	a0, 0(sp)
	lw	a1, 4(sp)
	lw	a2, 8(sp)
	lw	a3, 12(sp)
	sw	a0, 64(sp)
	sw	a1, 68(sp)
	sw	a2, 72(sp)
	sw	a3, 76(sp)
	bnez	s5, .Laes_BB22_7
# %bb.5:                                # %join.8.i22.peel
	addi	a1, sp, 64
	li	a2, 16
	mv	a0, s0
	call	memcpy
	or	a0, s4, s3
	beqz	a0, .Laes_BB22_7
# %bb.6:                                # %join.8.i22.preheader.peel.newph
	addi	a1, sp, 80
	addi	a0, s0, 16
	li	a2, 16
	call	memcpy
.Laes_BB22_7:                               # %"aes_soft::soft::blocks::filled_up::copy_first::<#7d3b633001169d8c>.exit"
	lw	ra, 156(sp)                     # 4-byte Folded Reload
	lw	s0, 152(sp)                     # 4-byte Folded Reload
	lw	s1, 148(sp)                     # 4-byte Folded Reload
	lw	s2, 144(sp)                     # 4-byte Folded Reload
	lw	s3, 140(sp)                     # 4-byte Folded Reload
	lw	s4, 136(sp)                     # 4-byte Folded Reload
	lw	s5, 132(sp)                     # 4-byte Folded Reload
	lw	s6, 128(sp)                     # 4-byte Folded Reload
	addi	sp, sp, 160
	ret
.Laes_func_end22:
	.size	aes.aes_soft.soft.blocks.filled_up.process_filled_up.2, .Laes_func_end22-aes.aes_soft.soft.blocks.filled_up.process_filled_up.2
                                        # -- End function
	.section	.text.aes.aes_soft.soft.ciphers.planes.process_outlined.2,"ax",@progbits
	.p2align	1                               # -- Begin function aes_soft::soft::ciphers::planes::process_outlined::<#4da0d9798c91611c>
	.type	aes.aes_soft.soft.ciphers.planes.process_outlined.2,@function
aes.aes_soft.soft.ciphers.planes.process_outlined.2: # @aes.aes_soft.soft.ciphers.planes.process_outlined.2
# %bb.0:                                # %start
	addi	sp, sp, -144
	sw	ra, 140(sp)                     # 4-byte Folded Spill
	sw	s0, 136(sp)                     # 4-byte Folded Spill
	sw	s1, 132(sp)                     # 4-byte Folded Spill
	sw	s2, 128(sp)                     # 4-byte Folded Spill
	sw	s3, 124(sp)                     # 4-byte Folded Spill
	sw	s4, 120(sp)                     # 4-byte Folded Spill
	sw	s5, 116(sp)                     # 4-byte Folded Spill
	sw	s6, 112(sp)                     # 4-byte Folded Spill
	sw	s7, 108(sp)                     # 4-byte Folded Spill
	sw	s8, 104(sp)                     # 4-byte Folded Spill
	sw	s9, 100(sp)                     # 4-byte Folded Spill
	sw	s10, 96(sp)                     # 4-byte Folded Spill
	sw	s11, 92(sp)                     # 4-byte Folded Spill
	sw	a3, 88(sp)                      # 4-byte Folded Spill
	mv	a6, a2
	mv	t0, a1
	sw	a0, 24(sp)                      # 4-byte Folded Spill
	lui	s4, 61681
	lbu	a7, 0(a4)
	lbu	t1, 1(a4)
	lbu	t2, 2(a4)
	lbu	s1, 3(a4)
	lbu	t4, 16(a4)
	lbu	t3, 17(a4)
	lbu	a1, 18(a4)
	lbu	a5, 19(a4)
	lbu	t5, 4(a4)
	lbu	t6, 5(a4)
	lbu	s2, 6(a4)
	lbu	s9, 7(a4)
	lbu	s3, 20(a4)
	lbu	s5, 21(a4)
	lbu	s6, 22(a4)
	lbu	a0, 23(a4)
	lbu	s7, 8(a4)
	lbu	s11, 9(a4)
	lbu	ra, 10(a4)
	lbu	s8, 11(a4)
	slli	s1, s1, 24
	slli	t2, t2, 16
	slli	t1, t1, 8
	slli	a5, a5, 24
	slli	a1, a1, 16
	slli	s0, t3, 8
	or	a3, t1, a7
	sw	a3, 80(sp)                      # 4-byte Folded Spill
	or	t3, t2, s1
	or	t2, s0, t4
	or	t4, a1, a5
	lbu	a5, 24(a4)
	lbu	s0, 25(a4)
	lbu	a3, 26(a4)
	lbu	a1, 27(a4)
	slli	s9, s9, 24
	slli	s2, s2, 16
	slli	t6, t6, 8
	slli	a0, a0, 24
	slli	s6, s6, 16
	slli	s5, s5, 8
	or	t5, t6, t5
	or	s2, s2, s9
	or	t1, s5, s3
	or	s3, s6, a0
	lbu	s5, 12(a4)
	lbu	s9, 13(a4)
	lbu	s10, 14(a4)
	lbu	a7, 15(a4)
	slli	a0, s8, 24
	slli	ra, ra, 16
	slli	s11, s11, 8
	slli	s1, s0, 8
	or	s8, s11, s7
	or	s0, ra, a0
	or	s6, s1, a5
	lbu	s11, 28(a4)
	lbu	a5, 29(a4)
	lbu	s1, 30(a4)
	lbu	a0, 31(a4)
	slli	a1, a1, 24
	slli	a3, a3, 16
	or	t6, a3, a1
	slli	s7, a2, 5
	lui	a1, 349525
	addi	a1, a1, 1365
	lui	a2, 209715
	addi	a2, a2, 819
	addi	s4, s4, -241
	sw	t0, 52(sp)                      # 4-byte Folded Spill
	add	t0, t0, s7
	slli	a7, a7, 24
	slli	s10, s10, 16
	slli	s9, s9, 8
	slli	a0, a0, 24
	slli	s1, s1, 16
	slli	a5, a5, 8
	or	a3, s9, s5
	or	a4, s10, a7
	or	s10, a5, s11
	or	s11, s1, a0
	lw	a0, 0(t0)
	sw	a0, 76(sp)                      # 4-byte Folded Spill
	lw	a7, 4(t0)
	lw	s5, 8(t0)
	lw	s9, 12(t0)
	lw	a0, 80(sp)                      # 4-byte Folded Reload
	or	s7, a0, t3
	or	s1, t2, t4
	or	t4, t5, s2
	or	s2, t1, s3
	lw	ra, 16(t0)
	lw	t2, 20(t0)
	lw	t1, 24(t0)
	sw	t0, 72(sp)                      # 4-byte Folded Spill
	lw	t3, 28(t0)
	or	t5, s8, s0
	or	s3, s6, t6
	or	t6, a3, a4
	or	a4, s10, s11
	srli	s0, s7, 1
	srli	a3, t4, 1
	srli	a0, t5, 1
	srli	a5, t6, 1
	xor	s0, s0, s1
	xor	a3, s2, a3
	xor	a0, s3, a0
	xor	a5, a5, a4
	and	s0, s0, a1
	and	a3, a3, a1
	and	a0, a0, a1
	sw	a1, 16(sp)                      # 4-byte Folded Spill
	and	a1, a1, a5
	xor	s6, s0, s1
	slli	s0, s0, 1
	xor	s8, a3, s2
	slli	a3, a3, 1
	xor	s2, a0, s3
	slli	a0, a0, 1
	xor	s10, a1, a4
	slli	a1, a1, 1
	xor	s3, s0, s7
	xor	a3, a3, t4
	xor	t4, a0, t5
	xor	a1, a1, t6
	srli	s0, s6, 2
	srli	a5, s2, 2
	srli	a0, s3, 2
	srli	s1, t4, 2
	xor	s0, s8, s0
	xor	a5, s10, a5
	xor	a0, a0, a3
	xor	s1, s1, a1
	and	s0, s0, a2
	and	a5, a5, a2
	and	a0, a0, a2
	sw	a2, 20(sp)                      # 4-byte Folded Spill
	and	s1, s1, a2
	mv	a2, a6
	xor	a4, s0, s8
	slli	s0, s0, 2
	xor	t5, a5, s10
	slli	a5, a5, 2
	xor	s8, a0, a3
	slli	t6, a0, 2
	xor	s10, s1, a1
	slli	s1, s1, 2
	xor	s0, s0, s6
	xor	a5, a5, s2
	srli	s6, a4, 4
	xor	s2, s9, a4
	xor	t3, t5, t3
	xor	a0, t6, s3
	xor	s1, s1, t4
	srli	a4, s0, 4
	srli	a3, s8, 4
	xor	a1, t5, s6
	xor	t4, a7, s0
	xor	t0, s5, s8
	xor	t2, a5, t2
	xor	t1, s10, t1
	srli	s0, a0, 4
	xor	a4, a4, a5
	xor	a3, s10, a3
	and	a1, a1, s4
	lw	a5, 76(sp)                      # 4-byte Folded Reload
	xor	a6, a5, a0
	xor	a7, s1, ra
	xor	s0, s0, s1
	and	a4, a4, s4
	and	a3, a3, s4
	slli	s1, a1, 4
	xor	a0, t3, a1
	sw	s4, 84(sp)                      # 4-byte Folded Spill
	and	s0, s0, s4
	slli	a1, a4, 4
	slli	a5, a3, 4
	xor	s1, s2, s1
	xor	s8, t2, a4
	xor	a3, t1, a3
	slli	a4, s0, 4
	xor	a1, t4, a1
	xor	a5, t0, a5
	xor	s0, a7, s0
	xor	t2, a3, a0
	xor	a7, s8, s1
	xor	a4, a6, a4
	xor	s6, a5, s8
	xor	s9, s0, a3
	xor	s5, a1, a3
	xor	t3, s0, a0
	xor	ra, s0, s1
	xor	t4, a5, a1
	xor	a1, a1, a4
	xor	t5, a7, s5
	xor	t6, s6, a0
	xor	a6, t3, a3
	xor	t1, ra, t4
	xor	s2, ra, a4
	xor	a4, a4, s1
	xor	t0, a6, s1
	xor	a7, a1, ra
	and	a0, s2, s9
	xor	s3, a1, s9
	xor	s5, a4, s5
	or	a3, a7, t5
	xor	s10, a3, a0
	and	a0, s3, t6
	xor	s1, a0, a4
	xor	a5, a4, t2
	xor	a0, a5, t1
	and	a0, a0, ra
	and	a4, t0, t1
	xor	a4, a4, a0
	and	a3, a5, t2
	xor	a3, a3, a0
	xor	s11, s9, s6
	xor	s6, a1, t2
	and	a1, a6, t3
	xor	a1, t4, a1
	xor	a1, a1, a5
	and	a0, s6, s11
	xor	s1, s1, a0
	xor	a0, a0, a1
	and	a1, a7, t5
	xor	a1, a1, s8
	xor	s8, s3, s8
	and	s0, s8, s5
	xor	a1, a1, s0
	xor	s0, s10, a4
	xor	s10, a0, a4
	xor	s1, s1, a3
	xor	a1, a1, ra
	xor	a1, a1, a3
	and	s7, s10, s0
	and	a4, s1, s0
	xor	s0, s0, a1
	not	a4, a4
	xor	a3, s7, s1
	and	a3, a3, s0
	and	a4, a4, s0
	xor	s0, s10, s1
	xor	a0, a1, s7
	and	a0, a0, s0
	xor	a0, a0, s1
	and	s1, s0, s10
	xor	s0, s7, s0
	and	s1, s1, a1
	xor	s0, s0, s1
	xor	a1, a1, a3
	xor	a4, a4, s7
	and	s5, a0, s5
	and	s7, a0, s8
	xor	s1, s0, a0
	xor	a0, a0, a1
	and	s9, s0, s9
	and	s8, a1, t6
	and	a3, a1, s3
	and	t6, s0, s2
	xor	s0, s0, a4
	and	t3, a4, t3
	xor	a1, a1, a4
	and	s2, a4, a6
	and	s10, s1, a7
	and	a4, s1, t5
	and	t5, a1, s11
	and	s3, a1, s6
	xor	s1, a5, t4
	and	t4, a0, ra
	and	s1, s1, a0
	and	s6, s0, a5
	xor	a0, a0, s0
	and	s0, s0, t2
	lui	a6, 1036240
	and	t2, a0, t1
	and	a5, a0, t0
	lui	a7, 986895
	xor	a0, s8, t3
	xor	a1, s1, s5
	xor	t3, s1, s9
	xor	t0, t4, a3
	xor	a3, a3, a0
	xor	s5, a0, s9
	lui	t1, 12336
	xor	s1, t6, s2
	xor	t2, t2, t6
	xor	a0, a4, s1
	xor	s11, a1, a0
	mv	a1, a2
	addi	a2, a2, -2
	xor	t4, t5, s8
	xor	a0, t5, s7
	xor	ra, s0, s3
	xor	s2, a0, s1
	xor	s9, a0, s0
	mv	t6, a1
	sltu	a1, a2, a1
	xor	s3, a4, s7
	xor	t5, a5, a4
	xor	a5, a5, s6
	xor	s1, s5, s6
	srli	s8, a2, 2
	xor	s0, t3, s10
	xor	a0, a3, s10
	xor	a4, t2, s0
	xor	s0, s0, a5
	xor	s6, a0, a5
	andi	a0, a2, -4
	sw	a0, 80(sp)                      # 4-byte Folded Spill
	lw	a0, 88(sp)                      # 4-byte Folded Reload
	add	a1, a1, a0
	addi	a1, a1, -1
	xor	s9, s9, a3
	slli	a5, a1, 30
	xor	s10, s1, ra
	beq	a1, a0, .Laes_BB23_2
# %bb.1:                                # %start
	sltu	s1, a1, a0
	j	.Laes_BB23_3
.Laes_BB23_2:
	lw	a0, 80(sp)                      # 4-byte Folded Reload
	addi	a0, a0, 2
	sltu	s1, a0, t6
.Laes_BB23_3:                               # %start
	addi	t2, a6, -772
	addi	t3, a7, 240
	addi	a3, t1, 771
	or	a0, s8, a5
	sw	a0, 48(sp)                      # 4-byte Folded Spill
	srli	a1, a1, 2
	sw	a1, 44(sp)                      # 4-byte Folded Spill
	xor	s2, s2, s0
	xor	a7, t4, s0
	xor	a6, s3, s0
	xor	t4, s6, s11
	xor	s3, t5, a4
	xor	t5, s9, a4
	xor	t0, t0, ra
	xor	t1, s10, s11
	sw	a3, 36(sp)                      # 4-byte Folded Spill
	sw	t2, 40(sp)                      # 4-byte Folded Spill
	sw	t3, 88(sp)                      # 4-byte Folded Spill
	beqz	s1, .Laes_BB23_5
# %bb.4:                                # %then.3.i
	lw	a0, 72(sp)                      # 4-byte Folded Reload
	lw	s1, -32(a0)
	lw	a5, -28(a0)
	lw	a1, -24(a0)
	lw	s0, -20(a0)
	lw	t3, -16(a0)
	lw	a4, -12(a0)
	sw	a2, 76(sp)                      # 4-byte Folded Spill
	lw	t6, -8(a0)
	lw	a0, -4(a0)
	xor	a2, s1, t0
	xor	s1, a5, s3
	xor	a1, a1, s2
	xor	s0, s0, t5
	xor	t3, t3, a7
	xor	t5, a4, t4
	xor	s2, t6, t1
	xor	s5, a0, a6
	srli	a0, a2, 14
	sw	a0, 72(sp)                      # 4-byte Folded Spill
	slli	a6, a2, 18
	srli	a7, a2, 6
	slli	a4, a2, 26
	srli	s4, s1, 14
	slli	a0, s1, 18
	srli	a5, s1, 6
	sw	a5, 68(sp)                      # 4-byte Folded Spill
	slli	s7, s1, 26
	srli	s8, a1, 14
	slli	s9, a1, 18
	srli	s11, a1, 6
	slli	s6, a1, 26
	srli	s10, s0, 14
	slli	s3, s0, 18
	srli	ra, s0, 6
	slli	t6, s0, 26
	srli	t4, t3, 14
	slli	t0, t3, 18
	srli	t1, t3, 6
	lw	a5, 72(sp)                      # 4-byte Folded Reload
	or	a5, a6, a5
	slli	a6, t3, 26
	or	a4, a4, a7
	sw	a4, 72(sp)                      # 4-byte Folded Spill
	srli	a7, t5, 14
	or	s4, a0, s4
	slli	a4, t5, 18
	lw	a0, 68(sp)                      # 4-byte Folded Reload
	or	s7, s7, a0
	srli	a0, t5, 6
	or	s8, s9, s8
	slli	s9, t5, 26
	or	s6, s6, s11
	srli	s11, s2, 14
	or	s3, s3, s10
	slli	s10, s2, 18
	or	t6, t6, ra
	srli	ra, s2, 6
	or	t0, t0, t4
	slli	t4, s2, 26
	or	a6, a6, t1
	srli	t1, s5, 14
	or	a7, a4, a7
	slli	a4, s5, 18
	or	s9, s9, a0
	srli	a0, s5, 6
	or	s10, s10, s11
	slli	s11, s5, 26
	or	t4, t4, ra
	or	ra, a4, t1
	or	s11, s11, a0
	and	t1, a5, a3
	lw	a0, 72(sp)                      # 4-byte Folded Reload
	and	a0, a0, t2
	and	a4, s4, a3
	and	s7, s7, t2
	and	s8, s8, a3
	and	s6, s6, t2
	and	s3, s3, a3
	and	t6, t6, t2
	and	t0, t0, a3
	and	a6, a6, t2
	and	a7, a7, a3
	and	s9, s9, t2
	and	s10, s10, a3
	and	t4, t4, t2
	and	ra, ra, a3
	and	s11, s11, t2
	or	a0, t1, a0
	or	a4, a4, s7
	or	t1, s8, s6
	or	t6, s3, t6
	or	a6, t0, a6
	or	a7, a7, s9
	or	t0, s10, t4
	or	t4, ra, s11
	xor	s10, a0, a2
	xor	s9, a4, s1
	xor	a4, t1, a1
	xor	t1, t6, s0
	xor	t6, a6, t3
	xor	a7, a7, t5
	xor	t0, t0, s2
	xor	a0, t4, s5
	xor	s8, a0, a2
	xor	a2, s10, s1
	xor	s1, s9, a1
	xor	s0, s0, a4
	xor	a1, t1, t3
	xor	t2, t6, t5
	xor	s3, a7, s2
	xor	a6, t0, s5
	xor	s7, a2, a0
	xor	s6, s0, a0
	xor	s5, a1, a0
	xor	a5, a6, s3
	xor	a1, s3, s10
	xor	a2, a6, a4
	xor	a3, s3, t1
	xor	a4, t6, s1
	mv	t3, s1
	xor	s1, a6, a7
	xor	a0, a0, t2
	xor	a7, a5, s9
	xor	t6, a2, s8
	xor	t4, a3, s7
	xor	a5, a5, a4
	xor	t5, s1, s6
	xor	s1, s5, t0
	srli	s0, a1, 20
	slli	t0, a1, 12
	srli	a2, a1, 12
	slli	s9, a1, 20
	srli	t1, a0, 20
	slli	s10, a0, 12
	srli	s11, a0, 12
	slli	ra, a0, 20
	xor	a1, a1, s8
	sw	a1, 72(sp)                      # 4-byte Folded Spill
	xor	a0, a6, a0
	sw	a0, 68(sp)                      # 4-byte Folded Spill
	or	t0, t0, s0
	or	s2, s9, a2
	srli	a3, a7, 20
	slli	a1, a7, 12
	srli	s9, a7, 12
	slli	s0, a7, 20
	srli	a2, t6, 20
	slli	a6, t6, 12
	srli	a4, t6, 12
	or	s10, s10, t1
	slli	t1, t6, 20
	or	s11, ra, s11
	srli	ra, t4, 20
	xor	a0, s7, a7
	sw	a0, 64(sp)                      # 4-byte Folded Spill
	slli	s7, t4, 12
	xor	s8, t3, t6
	srli	a0, t4, 12
	xor	s6, s6, t4
	slli	t4, t4, 20
	or	t3, a1, a3
	srli	a3, a5, 20
	or	s9, s0, s9
	slli	s0, a5, 12
	or	a6, a6, a2
	srli	a2, a5, 12
	xor	t6, s5, a5
	slli	a5, a5, 20
	or	t1, t1, a4
	srli	a4, t5, 20
	or	s7, s7, ra
	slli	ra, t5, 12
	or	t4, t4, a0
	srli	a0, t5, 12
	xor	a7, t2, t5
	slli	t5, t5, 20
	or	a3, a3, s0
	srli	s0, s1, 20
	or	a1, a5, a2
	slli	a5, s1, 12
	or	ra, ra, a4
	srli	a4, s1, 12
	xor	s3, s3, s1
	slli	s1, s1, 20
	lw	s4, 84(sp)                      # 4-byte Folded Reload
	and	t0, t0, s4
	lw	a2, 88(sp)                      # 4-byte Folded Reload
	and	s2, s2, a2
	or	t5, t5, a0
	or	a5, a5, s0
	or	a4, a4, s1
	and	s10, s10, s4
	and	s11, s11, a2
	or	t0, t0, s2
	and	s2, t3, s4
	and	s9, s9, a2
	and	a6, a6, s4
	and	s0, t1, a2
	and	t1, s7, s4
	and	t4, t4, a2
	and	s7, a3, s4
	and	t2, a1, a2
	and	ra, ra, s4
	and	a1, t5, a2
	and	a5, a5, s4
	and	a4, a4, a2
	or	a0, s10, s11
	or	a3, s2, s9
	or	s0, a6, s0
	or	s1, t1, t4
	or	a2, s7, t2
	or	a1, ra, a1
	or	a4, a4, a5
	lw	a5, 72(sp)                      # 4-byte Folded Reload
	xor	a6, a5, t0
	lw	a5, 68(sp)                      # 4-byte Folded Reload
	xor	a0, a0, a5
	lw	a5, 64(sp)                      # 4-byte Folded Reload
	xor	a3, a3, a5
	xor	s0, s8, s0
	xor	s1, s6, s1
	xor	a2, t6, a2
	xor	t1, a7, a1
	xor	a4, s3, a4
	xor	a5, a3, a6
	xor	s7, a4, a0
	xor	a1, t1, s0
	xor	t6, a2, a4
	xor	t4, t1, s1
	xor	t5, a4, a3
	xor	s9, a2, a0
	xor	a7, a2, s1
	xor	s0, s0, a3
	xor	a3, s1, a6
	xor	a2, s7, a5
	sw	a2, 68(sp)                      # 4-byte Folded Spill
	xor	s8, t4, t5
	xor	t2, a1, a0
	xor	s3, s9, a4
	xor	s11, a7, a5
	xor	a1, t6, a1
	sw	a1, 64(sp)                      # 4-byte Folded Spill
	xor	s5, a7, s0
	xor	s10, a7, a6
	xor	s2, t6, a5
	xor	ra, a3, t5
	xor	t4, a3, s7
	xor	s1, s3, s1
	sw	s1, 72(sp)                      # 4-byte Folded Spill
	and	a1, a1, a2
	and	t0, s3, s9
	and	t3, s11, s8
	or	a6, s11, s8
	and	a0, s10, t6
	and	a2, s2, t2
	xor	t5, s2, t1
	and	s6, t4, s7
	xor	a4, a0, a6
	xor	a0, s5, t4
	xor	a5, s0, t4
	xor	a2, a2, a3
	and	a3, s1, s5
	and	a0, a0, a7
	xor	t1, t3, t1
	and	s0, t5, ra
	xor	s1, a5, t0
	mv	t3, a5
	xor	a3, a3, a0
	xor	a5, a0, s6
	xor	a0, a2, a1
	xor	a1, a1, s1
	xor	a2, t1, s0
	xor	a4, a4, a3
	xor	t0, a0, a5
	xor	a3, a3, a1
	xor	a1, a2, a7
	and	a2, a3, a4
	xor	a0, a3, t0
	xor	a5, a5, a1
	and	s0, t0, a4
	xor	s1, a2, t0
	and	a3, a3, a5
	xor	a4, a4, a5
	xor	a1, a2, a5
	and	a6, a3, a0
	and	a1, a1, a0
	xor	a0, a0, a2
	and	s1, s1, a4
	and	s0, s0, a4
	xor	a2, a2, a4
	lw	a4, 76(sp)                      # 4-byte Folded Reload
	slli	a4, a4, 5
	lw	a3, 52(sp)                      # 4-byte Folded Reload
	add	a4, a4, a3
	xor	a1, a1, t0
	xor	a3, a0, a6
	xor	a5, a5, s1
	xor	a2, a2, s0
	and	a0, a1, ra
	sw	a0, 76(sp)                      # 4-byte Folded Spill
	xor	a0, a3, a1
	xor	s1, a1, a5
	and	s6, a3, t6
	and	s0, a5, t2
	and	t6, a5, s2
	and	s2, a1, t5
	and	t5, a3, s10
	xor	a3, a3, a2
	and	s9, a2, s9
	xor	a5, a5, a2
	and	a1, a2, s3
	lw	a6, 0(a4)
	lw	a2, 4(a4)
	sw	a2, 60(sp)                      # 4-byte Folded Spill
	lw	t2, 8(a4)
	lw	ra, 12(a4)
	and	t1, a0, s11
	and	s3, s1, a7
	and	t0, s1, t3
	and	a2, a0, s8
	and	t4, a3, t4
	lw	a0, 64(sp)                      # 4-byte Folded Reload
	and	s8, a5, a0
	lw	a0, 68(sp)                      # 4-byte Folded Reload
	and	s11, a5, a0
	xor	a5, a3, s1
	and	a3, a3, s7
	lw	a0, 16(a4)
	lw	s1, 20(a4)
	sw	s1, 68(sp)                      # 4-byte Folded Spill
	lw	t3, 24(a4)
	lw	a7, 28(a4)
	xor	a4, a1, t5
	xor	s9, s9, s0
	xor	a6, a6, t6
	xor	s10, s0, a0
	xor	a7, s2, a7
	lw	a1, 76(sp)                      # 4-byte Folded Reload
	xor	a1, a1, a2
	xor	s0, t0, s6
	xor	s7, s8, s2
	and	a0, a5, s5
	lw	s1, 72(sp)                      # 4-byte Folded Reload
	and	s1, s1, a5
	xor	t0, a4, t0
	xor	t6, s9, t6
	xor	s11, s11, a3
	xor	a6, a6, s3
	lw	a5, 60(sp)                      # 4-byte Folded Reload
	xor	s3, a2, a5
	xor	a3, a3, ra
	xor	s10, s10, s8
	xor	s9, s9, t4
	xor	s2, a7, a2
	xor	a2, s0, t1
	xor	ra, a0, t5
	xor	s0, s1, t4
	xor	s5, a6, s11
	xor	a6, s3, s1
	xor	s3, a3, s7
	lw	s1, 68(sp)                      # 4-byte Folded Reload
	xor	s1, s1, a1
	xor	a5, t0, t1
	xor	t4, a1, t3
	xor	a0, t0, s6
	xor	t0, s9, s11
	xor	a1, ra, a2
	xor	a3, s0, a2
	xor	t1, a2, t2
	xor	a4, a4, s0
	xor	s6, s3, t6
	xor	s3, s1, a5
	xor	s1, t6, s0
	xor	s0, t4, a0
	srli	t4, s5, 12
	slli	a5, s5, 20
	srli	a0, s5, 4
	slli	a2, s5, 28
	xor	a6, a6, a1
	xor	a4, t1, a4
	xor	t3, s6, a1
	xor	s10, s10, a3
	xor	t6, s3, s1
	xor	t5, s0, t0
	xor	s2, s2, a3
	or	a5, a5, t4
	or	a0, a0, a2
	xor	t1, a4, s7
	and	a7, a5, s4
	lw	t2, 88(sp)                      # 4-byte Folded Reload
	and	t0, a0, t2
	srli	t4, a6, 12
	slli	a0, a6, 20
	srli	s3, a6, 4
	slli	a3, a6, 28
	srli	a1, t3, 12
	slli	ra, t3, 20
	srli	a5, t3, 4
	slli	s1, t3, 28
	srli	a2, s10, 12
	sw	a2, 76(sp)                      # 4-byte Folded Spill
	slli	a2, s10, 20
	srli	s0, s10, 4
	sw	s0, 72(sp)                      # 4-byte Folded Spill
	slli	s0, s10, 28
	sw	s0, 68(sp)                      # 4-byte Folded Spill
	srli	s0, t6, 12
	sw	s0, 64(sp)                      # 4-byte Folded Spill
	slli	s0, t6, 20
	sw	s0, 60(sp)                      # 4-byte Folded Spill
	srli	s0, t6, 4
	sw	s0, 56(sp)                      # 4-byte Folded Spill
	slli	a4, t6, 28
	sw	a4, 12(sp)                      # 4-byte Folded Spill
	srli	s8, t5, 12
	or	a4, a7, t0
	sw	a4, 28(sp)                      # 4-byte Folded Spill
	slli	s7, t5, 20
	or	a0, a0, t4
	sw	a0, 32(sp)                      # 4-byte Folded Spill
	srli	s6, t5, 4
	or	s9, a3, s3
	slli	s0, t5, 28
	or	s11, ra, a1
	srli	ra, s2, 12
	or	s3, s1, a5
	slli	s1, s2, 20
	lw	a0, 76(sp)                      # 4-byte Folded Reload
	or	t4, a2, a0
	srli	a0, s2, 4
	lw	a1, 72(sp)                      # 4-byte Folded Reload
	lw	a2, 68(sp)                      # 4-byte Folded Reload
	or	a4, a2, a1
	slli	t0, s2, 28
	lw	a1, 64(sp)                      # 4-byte Folded Reload
	lw	a5, 60(sp)                      # 4-byte Folded Reload
	or	a7, a5, a1
	srli	a3, t1, 12
	lw	a1, 56(sp)                      # 4-byte Folded Reload
	lw	a2, 12(sp)                      # 4-byte Folded Reload
	or	a1, a1, a2
	slli	a2, t1, 20
	or	s7, s7, s8
	srli	s8, t1, 4
	or	s6, s0, s6
	slli	s0, t1, 28
	or	s1, s1, ra
	or	a0, t0, a0
	lw	a5, 32(sp)                      # 4-byte Folded Reload
	and	t0, a5, s4
	and	s9, s9, t2
	or	ra, a2, a3
	or	s8, s0, s8
	and	s11, s11, s4
	and	s3, s3, t2
	and	t4, t4, s4
	and	s0, a4, t2
	and	a5, a7, s4
	and	a1, a1, t2
	and	a2, s7, s4
	and	a3, s6, t2
	and	s1, s1, s4
	and	a0, a0, t2
	lw	a4, 28(sp)                      # 4-byte Folded Reload
	xor	a7, a4, s5
	or	t0, t0, s9
	and	s6, ra, s4
	and	s7, s8, t2
	or	s3, s11, s3
	or	s0, t4, s0
	or	t4, a5, a1
	or	s8, a2, a3
	or	a0, a0, s1
	xor	a3, a7, a6
	or	a5, s6, s7
	xor	s6, t0, a6
	xor	s1, s3, t3
	xor	s0, s0, s10
	xor	a6, t4, t6
	xor	s3, s8, t5
	xor	a0, a0, s2
	xor	a5, a5, t1
	xor	s7, a0, s5
	xor	a2, a3, a0
	xor	t2, s6, t1
	xor	a4, a0, t3
	xor	a3, a0, s10
	xor	s5, s0, t6
	xor	t5, a6, t5
	xor	t0, s3, s2
	xor	t6, a4, a5
	xor	s4, a3, s1
	xor	a3, t0, t5
	xor	a4, t5, a7
	xor	a7, a5, s7
	xor	a5, a2, s1
	mv	t3, a2
	xor	s1, t2, s0
	xor	a2, a6, t0
	xor	s0, s5, a0
	xor	a0, a3, s6
	xor	a7, a7, t0
	xor	s11, a5, t5
	xor	a6, s1, a3
	xor	t1, t6, a2
	xor	t4, s3, s4
	srli	s2, a4, 16
	slli	s3, a4, 16
	srli	s6, s0, 16
	slli	s8, s0, 16
	xor	s7, s7, a4
	xor	s9, s0, t0
	or	s2, s3, s2
	srli	s3, a0, 16
	slli	s10, a0, 16
	srli	s1, a7, 16
	slli	a4, a7, 16
	srli	s0, s11, 16
	slli	a5, s11, 16
	srli	a1, a6, 16
	slli	ra, a6, 16
	srli	a2, t1, 16
	slli	t0, t1, 16
	or	s6, s8, s6
	srli	s8, t4, 16
	xor	a0, t3, a0
	slli	a3, t4, 16
	xor	a7, t2, a7
	xor	t6, t6, s11
	xor	a6, s4, a6
	xor	t1, s5, t1
	xor	t4, t5, t4
	or	t5, s10, s3
	or	a4, a4, s1
	or	a5, a5, s0
	or	a1, ra, a1
	or	a2, t0, a2
	or	t0, a3, s8
	xor	s11, s7, s2
	xor	s1, s6, s9
	xor	a0, a0, t5
	xor	a4, a7, a4
	xor	a5, t6, a5
	xor	a3, a6, a1
	xor	ra, t1, a2
	xor	a1, t4, t0
	xor	s0, a0, s11
	xor	s2, a1, s1
	xor	a2, ra, a4
	xor	s10, a3, a1
	xor	a7, ra, a5
	xor	t0, a0, a1
	xor	s3, a3, s1
	xor	a6, a3, a5
	xor	t1, a0, a4
	xor	t5, a5, s11
	xor	s5, s0, s2
	xor	s7, a7, t0
	xor	t3, a2, s1
	xor	s9, s3, a1
	xor	s8, a6, s0
	xor	t2, s10, a2
	xor	t6, a6, t1
	xor	s6, a6, s11
	xor	t4, s10, s0
	xor	t0, t0, t5
	xor	s0, t5, s2
	xor	s11, s9, a5
	and	a2, t2, s5
	and	a7, s9, s3
	and	a5, s8, s7
	or	a1, s8, s7
	and	a0, s6, s10
	and	a3, t4, t3
	xor	s1, t4, ra
	and	a4, s0, s2
	xor	a0, a0, a1
	xor	a1, t6, s0
	xor	t1, s0, t1
	xor	t5, a3, t5
	and	a3, s11, t6
	and	a1, a1, a6
	xor	ra, a5, ra
	and	a5, s1, t0
	xor	a7, t1, a7
	xor	a3, a3, a1
	xor	a1, a1, a4
	xor	a4, t5, a2
	xor	a2, a7, a2
	xor	a5, ra, a5
	xor	a7, a0, a3
	xor	a4, a4, a1
	xor	a2, a2, a3
	xor	a3, a5, a6
	and	a5, a2, a7
	xor	a0, a2, a4
	xor	a1, a1, a3
	and	t5, a4, a7
	xor	ra, a5, a4
	and	a2, a2, a1
	xor	a3, a1, a7
	xor	a7, a5, a1
	and	a2, a2, a0
	and	a7, a7, a0
	xor	a0, a0, a5
	and	ra, ra, a3
	and	t5, t5, a3
	xor	a3, a3, a5
	xor	a4, a7, a4
	xor	a2, a2, a0
	xor	a1, ra, a1
	xor	a3, a3, t5
	and	a7, a4, t0
	xor	a5, a2, a4
	and	t0, a4, s1
	xor	a4, a4, a1
	and	s10, a2, s10
	and	t5, a1, t3
	and	s1, a1, t4
	and	ra, a2, s6
	xor	a2, a2, a3
	and	t4, a3, s3
	xor	a1, a1, a3
	and	s3, a3, s9
	and	s6, a5, s8
	and	s9, a5, s7
	and	s8, a1, t2
	and	s7, a1, s5
	and	a6, a4, a6
	and	a1, a4, t1
	and	t1, a2, s0
	xor	a4, a4, a2
	and	a2, a2, s2
	and	a0, a4, t6
	and	a4, a4, s11
	xor	s0, t4, t5
	xor	a3, a1, a7
	xor	a7, a1, s10
	xor	a6, a6, s1
	xor	s11, s0, s1
	xor	s0, s0, s10
	xor	a5, s3, ra
	xor	t6, a0, ra
	xor	a1, s9, a5
	xor	a1, a1, a3
	xor	t4, s8, t5
	xor	a3, s8, t0
	xor	a0, s7, a2
	xor	s3, a3, a5
	xor	s7, a3, a2
	xor	s2, s9, t0
	xor	t5, a4, s9
	xor	a4, a4, t1
	xor	s1, s0, t1
	xor	a3, a7, s6
	xor	a5, s11, s6
	xor	a2, t6, a3
	xor	a3, a3, a4
	xor	a4, a4, a5
	xor	s0, s7, s11
	xor	t6, a6, a0
	xor	a0, a0, s1
	xor	t0, s3, a3
	xor	a7, t4, a3
	xor	a6, s2, a3
	xor	s6, t5, a2
	xor	t5, s0, a2
	xor	t4, a4, a1
	lw	a4, 52(sp)                      # 4-byte Folded Reload
	xor	t1, a0, a1
	j	.Laes_BB23_6
.Laes_BB23_5:                               # %else.4.i
	srli	a0, t0, 4
	lui	t6, 61441
	srli	s6, s3, 4
	srli	s7, s2, 4
	srli	s8, t5, 4
	srli	s9, a7, 4
	srli	s10, t4, 4
	srli	s11, t1, 4
	srli	a1, a6, 4
	xor	ra, a0, t0
	addi	a2, t6, -256
	xor	a3, s6, s3
	xor	a4, s7, s2
	xor	a5, s8, t5
	xor	s1, s9, a7
	xor	s0, s10, t4
	xor	t6, s11, t1
	xor	s6, a1, a6
	and	a1, ra, a2
	and	a3, a3, a2
	and	a4, a4, a2
	and	a5, a5, a2
	and	s1, s1, a2
	and	s0, s0, a2
	and	t6, t6, a2
	and	s7, s6, a2
	slli	a0, a1, 4
	or	s6, a0, a1
	slli	a1, a3, 4
	or	a1, a1, a3
	slli	a3, a4, 4
	or	a3, a3, a4
	slli	a4, a5, 4
	or	a4, a4, a5
	slli	a5, s1, 4
	or	s1, s1, a5
	slli	a5, s0, 4
	or	a5, a5, s0
	slli	s0, t6, 4
	or	a0, s0, t6
	slli	a2, s7, 4
	or	a2, a2, s7
	xor	t6, s6, t0
	xor	s6, a1, s3
	xor	t0, a3, s2
	xor	t5, a4, t5
	xor	a7, s1, a7
	xor	t4, a5, t4
	xor	t1, a0, t1
	xor	a6, a2, a6
	lw	a4, 52(sp)                      # 4-byte Folded Reload
.Laes_BB23_6:                               # %join.5.i
	lui	a0, 789516
	lui	a2, 259060
	lw	a3, 80(sp)                      # 4-byte Folded Reload
	slli	a3, a3, 5
	addi	a0, a0, 192
	addi	s5, a2, -193
	add	a3, a3, a4
	lw	t2, 32(a3)
	lw	a4, 36(a3)
	lw	a5, 40(a3)
	lw	s0, 44(a3)
	lw	s1, 48(a3)
	lw	a1, 52(a3)
	lw	a2, 56(a3)
	lw	a3, 60(a3)
	xor	s3, t2, t6
	xor	s2, a4, s6
	xor	a5, a5, t0
	xor	s0, s0, t5
	xor	s1, s1, a7
	xor	t4, a1, t4
	xor	t5, a2, t1
	xor	s4, a3, a6
	srli	a7, s3, 10
	slli	a1, s3, 22
	srli	t3, s3, 2
	slli	a3, s3, 30
	srli	a2, s2, 10
	slli	s10, s2, 22
	srli	a4, s2, 2
	sw	a4, 76(sp)                      # 4-byte Folded Spill
	slli	a4, s2, 30
	srli	s8, a5, 10
	slli	s11, a5, 22
	srli	s9, a5, 2
	slli	ra, a5, 30
	srli	t6, s0, 10
	slli	t1, s0, 22
	srli	s7, s0, 2
	slli	s6, s0, 30
	srli	t0, s1, 10
	slli	a6, s1, 22
	or	t2, a1, a7
	srli	a7, s1, 2
	or	t3, a3, t3
	slli	a3, s1, 30
	or	a2, s10, a2
	sw	a2, 80(sp)                      # 4-byte Folded Spill
	srli	s10, t4, 10
	lw	a1, 76(sp)                      # 4-byte Folded Reload
	or	a1, a1, a4
	sw	a1, 76(sp)                      # 4-byte Folded Spill
	slli	a2, t4, 22
	or	s8, s11, s8
	srli	s11, t4, 2
	or	s9, ra, s9
	slli	ra, t4, 30
	or	t1, t1, t6
	srli	t6, t5, 10
	or	s6, s6, s7
	slli	s7, t5, 22
	or	a6, a6, t0
	srli	t0, t5, 2
	or	a7, a3, a7
	slli	a3, t5, 30
	or	s10, a2, s10
	srli	a2, s4, 10
	or	s11, ra, s11
	slli	ra, s4, 22
	or	t6, s7, t6
	srli	s7, s4, 2
	or	t0, a3, t0
	slli	a3, s4, 30
	or	ra, ra, a2
	or	a3, a3, s7
	and	s7, t2, s5
	and	a2, t3, a0
	lw	a1, 80(sp)                      # 4-byte Folded Reload
	and	t2, a1, s5
	lw	a1, 76(sp)                      # 4-byte Folded Reload
	and	t3, a1, a0
	and	s8, s8, s5
	and	s9, s9, a0
	and	t1, t1, s5
	and	s6, s6, a0
	and	a6, a6, s5
	and	a7, a7, a0
	and	s10, s10, s5
	and	s11, s11, a0
	and	t6, t6, s5
	and	t0, t0, a0
	sw	s5, 28(sp)                      # 4-byte Folded Spill
	and	ra, ra, s5
	sw	a0, 32(sp)                      # 4-byte Folded Spill
	and	a3, a3, a0
	or	a2, s7, a2
	or	t2, t2, t3
	or	t3, s8, s9
	or	t1, t1, s6
	or	a6, a6, a7
	or	a7, s10, s11
	or	t0, t6, t0
	or	t6, ra, a3
	xor	s10, a2, s3
	xor	t2, t2, s2
	xor	a3, t3, a5
	xor	t1, t1, s0
	xor	t3, a6, s1
	xor	a7, a7, t4
	xor	t0, t0, t5
	xor	a2, t6, s4
	xor	s8, a2, s3
	xor	a0, s10, s2
	xor	t6, t2, a5
	xor	s0, s0, a3
	xor	a4, t1, s1
	xor	s3, t3, t4
	xor	t5, a7, t5
	xor	s9, t0, s4
	xor	s7, a0, a2
	xor	s6, s0, a2
	xor	s5, a4, a2
	xor	a4, s9, t5
	xor	a1, t5, s10
	xor	s0, s9, a3
	xor	s1, t5, t1
	xor	a5, t3, t6
	xor	a3, s9, a7
	xor	a0, a2, s3
	xor	a7, a4, t2
	xor	t1, s0, s8
	xor	s1, s1, s7
	xor	a5, a5, a4
	xor	a4, a3, s6
	xor	a3, s5, t0
	srli	a2, a1, 20
	slli	t0, a1, 12
	srli	s0, a1, 12
	slli	s10, a1, 20
	srli	t3, a0, 20
	slli	s11, a0, 12
	srli	ra, a0, 12
	slli	t2, a0, 20
	xor	a1, a1, s8
	sw	a1, 80(sp)                      # 4-byte Folded Spill
	xor	a0, s9, a0
	sw	a0, 76(sp)                      # 4-byte Folded Spill
	or	t0, t0, a2
	or	t4, s10, s0
	srli	a0, a7, 20
	slli	a1, a7, 12
	srli	s10, a7, 12
	slli	a2, a7, 20
	srli	s0, t1, 20
	slli	a6, t1, 12
	or	t3, s11, t3
	srli	s11, t1, 12
	or	t2, t2, ra
	slli	ra, t1, 20
	xor	s9, s7, a7
	srli	s7, s1, 20
	xor	s8, t6, t1
	slli	t6, s1, 12
	or	s4, a1, a0
	srli	a1, s1, 12
	xor	s6, s6, s1
	slli	s1, s1, 20
	or	s10, a2, s10
	srli	a2, a5, 20
	or	a6, a6, s0
	slli	s0, a5, 12
	or	s11, ra, s11
	srli	ra, a5, 12
	xor	t1, s5, a5
	slli	a5, a5, 20
	or	t6, t6, s7
	srli	s7, a4, 20
	or	s2, s1, a1
	slli	s1, a4, 12
	or	a0, s0, a2
	srli	s0, a4, 12
	xor	a7, s3, a4
	slli	a4, a4, 20
	or	ra, a5, ra
	srli	a5, a3, 20
	or	s7, s1, s7
	slli	s1, a3, 12
	or	a4, a4, s0
	srli	s0, a3, 12
	xor	t5, t5, a3
	slli	a3, a3, 20
	lw	a2, 84(sp)                      # 4-byte Folded Reload
	and	t0, t0, a2
	lw	a1, 88(sp)                      # 4-byte Folded Reload
	and	t4, t4, a1
	or	a5, a5, s1
	or	a3, a3, s0
	and	t3, t3, a2
	and	t2, t2, a1
	or	t0, t0, t4
	and	t4, s4, a2
	and	s10, s10, a1
	and	a6, a6, a2
	and	s11, s11, a1
	and	t6, t6, a2
	and	s2, s2, a1
	and	s3, a0, a2
	and	ra, ra, a1
	and	s7, s7, a2
	and	a4, a4, a1
	and	a5, a5, a2
	and	a3, a3, a1
	or	s0, t3, t2
	or	a0, t4, s10
	or	s1, a6, s11
	or	a1, t6, s2
	or	a2, s3, ra
	or	a4, s7, a4
	or	a3, a3, a5
	lw	a5, 80(sp)                      # 4-byte Folded Reload
	xor	t0, a5, t0
	lw	a5, 76(sp)                      # 4-byte Folded Reload
	xor	s0, s0, a5
	xor	a0, s9, a0
	xor	s1, s8, s1
	xor	a1, s6, a1
	xor	a2, t1, a2
	xor	s11, a7, a4
	xor	a3, t5, a3
	xor	a5, a0, t0
	xor	s6, a3, s0
	xor	a4, s11, s1
	xor	s10, a2, a3
	xor	a7, s11, a1
	xor	t1, a3, a0
	xor	s7, a2, s0
	xor	a6, a2, a1
	xor	s1, s1, a0
	xor	a0, a1, t0
	xor	s3, s6, a5
	xor	s9, a7, t1
	xor	t6, a4, s0
	xor	t3, s7, a3
	xor	t2, a6, a5
	xor	s4, s10, a4
	xor	t5, a6, s1
	xor	s8, a6, t0
	xor	a7, s10, a5
	xor	t4, a0, t1
	xor	s0, a0, s6
	xor	s2, t3, a1
	and	a3, s4, s3
	and	a5, t3, s7
	and	a4, t2, s9
	or	t1, t2, s9
	and	a1, s8, s10
	and	a2, a7, t6
	xor	ra, a7, s11
	xor	a1, a1, t1
	and	t1, s0, s6
	xor	a2, a2, a0
	xor	a0, t5, s0
	xor	t0, s1, s0
	xor	s11, a4, s11
	and	s1, s2, t5
	and	a0, a0, a6
	xor	s1, s1, a0
	xor	a0, a0, t1
	and	a4, ra, t4
	xor	a5, t0, a5
	xor	a2, a2, a3
	xor	a3, a3, a5
	xor	a5, s11, a4
	xor	a1, a1, s1
	xor	a4, a2, a0
	xor	a3, a3, s1
	xor	a2, a5, a6
	and	a5, a3, a1
	xor	s1, a3, a4
	xor	a0, a0, a2
	and	t1, a4, a1
	and	a3, a3, a0
	xor	a1, a1, a0
	xor	a2, a5, a0
	and	s11, a3, s1
	and	a3, a2, s1
	xor	s1, s1, a5
	xor	a2, a5, a4
	and	a2, a2, a1
	and	t1, t1, a1
	xor	a1, a1, a5
	xor	a3, a3, a4
	xor	a4, s1, s11
	xor	a2, a2, a0
	xor	a1, a1, t1
	and	t1, a3, t4
	xor	a5, a4, a3
	and	t4, a3, ra
	xor	a3, a3, a2
	and	s10, a4, s10
	and	t6, a2, t6
	and	s1, a2, a7
	and	s8, a4, s8
	xor	a4, a4, a1
	and	a7, a1, s7
	xor	a2, a2, a1
	and	t3, a1, t3
	and	t2, a5, t2
	and	s11, a5, s9
	and	s9, a2, s4
	and	s7, a2, s3
	and	a6, a3, a6
	and	a2, a3, t0
	and	t0, a4, s0
	xor	a3, a3, a4
	and	a4, a4, s6
	and	a0, a3, t5
	and	a3, a3, s2
	xor	s0, a7, t6
	xor	a1, a2, t1
	xor	a7, a2, s10
	xor	a6, a6, s1
	xor	s1, s1, s0
	xor	s0, s0, s10
	xor	a5, t3, s8
	xor	t3, a0, s8
	xor	a2, s11, a5
	xor	s10, a1, a2
	xor	t1, s9, t6
	xor	a2, s9, t4
	xor	a0, s7, a4
	xor	t6, a2, a5
	xor	s6, a2, a4
	xor	t4, s11, t4
	xor	t5, a3, s11
	xor	a1, a3, t0
	xor	s0, s0, t0
	xor	a4, a7, t2
	xor	a5, s1, t2
	xor	a2, t3, a4
	xor	a3, a1, a4
	xor	a7, a5, a1
	xor	s1, s6, s1
	xor	a6, a6, a0
	xor	a0, a0, s0
	xor	t0, t6, a3
	xor	s8, t1, a3
	xor	s6, t4, a3
	xor	t3, t5, a2
	xor	t2, s1, a2
	lw	a2, 48(sp)                      # 4-byte Folded Reload
	lw	a3, 44(sp)                      # 4-byte Folded Reload
	or	a1, a2, a3
	xor	a7, a7, s10
	xor	t1, a0, s10
	bnez	a1, .Laes_BB23_7
	j	.Laes_BB23_12
.Laes_BB23_7:                               # %join.10.i.preheader
	li	a0, 0
	li	a4, 0
	j	.Laes_BB23_10
.Laes_BB23_8:                               # %join.10.i
                                        #   in Loop: Header=BB23_10 Depth=1
	sltu	a1, a4, a3
.Laes_BB23_9:                               # %join.10.i
                                        #   in Loop: Header=BB23_10 Depth=1
	sw	a1, 72(sp)                      # 4-byte Folded Spill
	lw	s7, 52(sp)                      # 4-byte Folded Reload
	sub	a0, a2, a0
	slli	a0, a0, 7
	add	s7, s7, a0
	lw	a0, 0(s7)
	lw	a1, 4(s7)
	lw	a4, 8(s7)
	lw	a5, 12(s7)
	lw	s0, 16(s7)
	lw	s1, 20(s7)
	lw	a2, 24(s7)
	lw	a3, 28(s7)
	xor	a0, a0, a6
	xor	a1, a1, t3
	xor	a4, a4, t0
	xor	a5, a5, t2
	xor	s0, s0, s8
	xor	s1, s1, a7
	xor	a2, a2, t1
	xor	a3, a3, s6
	srli	a6, a0, 8
	slli	a7, a0, 24
	srli	t0, a1, 8
	slli	t1, a1, 24
	srli	t2, a4, 8
	slli	t3, a4, 24
	srli	t4, a5, 8
	slli	t5, a5, 24
	srli	t6, s0, 8
	slli	s6, s0, 24
	srli	s8, s1, 8
	slli	s9, s1, 24
	srli	s10, a2, 8
	slli	s11, a2, 24
	srli	ra, a3, 8
	slli	s2, a3, 24
	or	a6, a7, a6
	or	a7, t1, t0
	or	t0, t3, t2
	or	t1, t5, t4
	or	t2, s6, t6
	or	t3, s9, s8
	or	t4, s11, s10
	or	t5, s2, ra
	xor	t6, a6, a0
	xor	s2, a7, a1
	xor	s6, t0, a4
	xor	s8, t1, a5
	xor	s9, t2, s0
	xor	t3, t3, s1
	xor	s10, t4, a2
	xor	t5, t5, a3
	xor	t2, t5, a0
	xor	a0, t6, a1
	xor	a6, s2, a4
	xor	a1, s6, a5
	xor	a4, s8, s0
	xor	a7, s9, s1
	xor	s11, t3, a2
	xor	s1, s10, a3
	xor	t4, a0, t5
	xor	t1, a1, t5
	xor	t0, a4, t5
	xor	a0, s1, s11
	xor	a4, s11, t6
	xor	a1, s1, s6
	xor	a3, s11, s8
	xor	s0, s9, a6
	xor	a2, s1, t3
	xor	a5, t5, a7
	xor	t3, a0, s2
	xor	a1, a1, t2
	xor	ra, a3, t4
	xor	s3, s0, a0
	xor	a0, a2, t1
	xor	a2, t0, s10
	srli	t5, a4, 16
	slli	t6, a4, 16
	srli	s2, a5, 16
	slli	s6, a5, 16
	xor	t2, a4, t2
	xor	s8, s1, a5
	or	t5, t6, t5
	srli	t6, t3, 16
	slli	s9, t3, 16
	srli	s10, a1, 16
	slli	a4, a1, 16
	srli	a5, ra, 16
	slli	a3, ra, 16
	srli	s1, s3, 16
	slli	s0, s3, 16
	or	s2, s6, s2
	srli	s6, a0, 16
	xor	t3, t4, t3
	slli	t4, a0, 16
	xor	a6, a6, a1
	srli	a1, a2, 16
	xor	t1, t1, ra
	slli	ra, a2, 16
	xor	t0, t0, s3
	xor	a7, a7, a0
	xor	s3, s11, a2
	or	a0, s9, t6
	or	a4, a4, s10
	or	a3, a3, a5
	or	s0, s0, s1
	or	t6, t4, s6
	or	t4, ra, a1
	xor	s1, t5, t2
	xor	a2, s8, s2
	xor	a0, t3, a0
	xor	a5, a6, a4
	xor	a3, t1, a3
	xor	a1, t0, s0
	xor	t5, a7, t6
	xor	s0, s3, t4
	xor	a4, a0, s1
	xor	s11, s0, a2
	xor	a7, t5, a5
	xor	t3, a1, s0
	xor	a6, t5, a3
	xor	t1, s0, a0
	xor	ra, a1, a2
	xor	a1, a1, a3
	xor	t4, a5, a0
	xor	a0, a3, s1
	xor	s8, s11, a4
	xor	t2, a6, t1
	xor	a6, a7, a2
	xor	s2, ra, s0
	xor	s3, a1, a4
	xor	s9, t3, a7
	xor	s10, a1, t4
	xor	a7, a1, s1
	xor	t0, t3, a4
	xor	t1, a0, t1
	xor	s5, a0, s11
	xor	s6, s2, a3
	and	a3, s9, s8
	and	t6, s2, ra
	or	a2, s3, t2
	and	s0, a7, t3
	and	a4, t0, a6
	and	a5, s5, s11
	xor	a2, a2, s0
	xor	s0, s10, s5
	xor	a4, a4, a0
	and	a0, s6, s10
	and	s0, s0, a1
	xor	a0, a0, s0
	xor	a5, a5, s0
	and	s0, s3, t2
	xor	s4, s0, t5
	xor	s0, t0, t5
	xor	t4, t4, s5
	xor	t5, t4, t6
	xor	a4, a4, a3
	xor	a3, t5, a3
	and	s1, s0, t1
	xor	s1, s4, s1
	xor	a2, a2, a0
	xor	a4, a4, a5
	xor	a3, a3, a0
	xor	t5, s1, a1
	and	s1, a3, a2
	xor	a0, a3, a4
	xor	a5, t5, a5
	and	t5, a4, a2
	and	a3, a3, a5
	xor	a2, a2, a5
	and	t6, a3, a0
	xor	a3, s1, a5
	and	a3, a3, a0
	xor	s4, s1, a0
	xor	a0, s1, a4
	and	a0, a0, a2
	and	t5, t5, a2
	xor	a2, a2, s1
	xor	a3, a3, a4
	xor	a4, s4, t6
	xor	s1, a0, a5
	xor	a2, a2, t5
	and	t1, a3, t1
	xor	a5, a4, a3
	xor	a0, a3, s1
	and	t5, a4, t3
	and	t6, s1, a6
	and	t0, s1, t0
	and	s4, a3, s0
	and	a6, a4, a7
	xor	a4, a4, a2
	and	a3, a2, ra
	xor	s1, s1, a2
	and	s2, a2, s2
	and	t3, a5, s3
	and	a2, a5, t2
	lw	a5, -16(s7)
	lw	t2, -12(s7)
	lw	a7, -8(s7)
	lw	ra, -4(s7)
	and	s3, a0, a1
	and	s0, a0, t4
	and	t4, a4, s5
	and	a1, s1, s9
	and	s5, s1, s8
	xor	a0, a0, a4
	xor	a3, a3, t6
	and	s11, a4, s11
	xor	s8, t6, a5
	and	t6, a0, s10
	and	a0, a0, s6
	sw	s7, 80(sp)                      # 4-byte Folded Spill
	lw	s1, -32(s7)
	lw	s6, -28(s7)
	lw	s9, -24(s7)
	lw	s10, -20(s7)
	xor	s2, s2, a6
	xor	s1, s1, t0
	xor	ra, s4, ra
	xor	a5, a2, t1
	xor	t1, s1, s3
	xor	s1, s0, t5
	xor	s3, a1, s4
	xor	s0, s2, s0
	xor	t0, a3, t0
	xor	a4, s5, s11
	xor	s4, a2, s6
	xor	s5, s11, s10
	xor	s10, s8, a1
	xor	s11, a3, t4
	xor	s8, ra, a2
	xor	a2, s1, t3
	xor	s1, t6, a6
	xor	a1, a0, t4
	xor	t4, t1, a4
	xor	a6, s4, a0
	xor	t1, s5, s3
	xor	a3, a5, t2
	xor	a0, s0, t3
	xor	a5, a5, a7
	xor	s0, s0, t5
	xor	a7, s11, a4
	xor	s1, s1, a2
	xor	a4, a1, a2
	xor	t2, a2, s9
	xor	a2, a1, s2
	xor	t1, t1, t0
	xor	t3, a3, a0
	xor	t0, t0, a1
	xor	a5, a5, s0
	sw	t4, 64(sp)                      # 4-byte Folded Spill
	srli	s0, t4, 14
	slli	a1, t4, 18
	srli	a3, t4, 6
	slli	a0, t4, 26
	xor	a6, a6, s1
	xor	a2, t2, a2
	xor	s1, t1, s1
	xor	t1, s10, a4
	xor	s9, t3, t0
	xor	a5, a5, a7
	xor	s6, s8, a4
	or	a1, a1, s0
	or	s0, a0, a3
	xor	a4, a2, s3
	lw	a0, 36(sp)                      # 4-byte Folded Reload
	and	t2, a1, a0
	lw	s10, 40(sp)                     # 4-byte Folded Reload
	and	t3, s0, s10
	srli	t4, a6, 14
	slli	t5, a6, 18
	srli	s7, a6, 6
	slli	t0, a6, 26
	srli	t6, s1, 14
	slli	s4, s1, 18
	srli	s2, s1, 6
	slli	s5, s1, 26
	srli	a2, t1, 14
	slli	ra, t1, 18
	srli	s3, t1, 6
	slli	s8, t1, 26
	srli	s0, s9, 14
	slli	a7, s9, 18
	srli	s11, s9, 6
	or	t2, t2, t3
	slli	a1, s9, 26
	or	t3, t5, t4
	srli	t4, a5, 14
	or	s7, t0, s7
	slli	t5, a5, 18
	or	t0, s4, t6
	srli	s4, a5, 6
	or	t6, s5, s2
	slli	s5, a5, 26
	or	s2, ra, a2
	srli	a2, s6, 14
	or	s3, s8, s3
	slli	ra, s6, 18
	or	s8, a7, s0
	srli	a7, s6, 6
	or	s11, a1, s11
	slli	s0, s6, 26
	or	t4, t5, t4
	srli	a1, a4, 14
	or	t5, s5, s4
	slli	s5, a4, 18
	or	s4, ra, a2
	srli	a2, a4, 6
	or	a3, s0, a7
	slli	s0, a4, 26
	and	t3, t3, a0
	and	a7, s7, s10
	or	s5, s5, a1
	or	ra, s0, a2
	and	t0, t0, a0
	and	t6, t6, s10
	and	s2, s2, a0
	and	s3, s3, s10
	and	s8, s8, a0
	and	s11, s11, s10
	and	s7, t4, a0
	and	a2, t5, s10
	and	s0, s4, a0
	and	a1, a3, s10
	lw	a3, 64(sp)                      # 4-byte Folded Reload
	xor	t2, t2, a3
	or	a7, t3, a7
	and	t3, s5, a0
	and	t4, ra, s10
	or	t0, t0, t6
	or	t5, s2, s3
	or	t6, s8, s11
	or	s3, s7, a2
	or	s2, s0, a1
	xor	s4, t2, a6
	or	s0, t3, t4
	xor	t3, a7, a6
	xor	a1, t0, s1
	xor	a0, t5, t1
	xor	t4, t6, s9
	xor	t0, s3, a5
	xor	a2, s2, s6
	xor	s0, s0, a4
	xor	a6, a2, a3
	xor	s8, s4, a2
	xor	s7, t3, a4
	xor	s1, s1, a2
	xor	a3, a2, t1
	xor	s9, a0, s9
	xor	a7, t4, a5
	xor	ra, t0, s6
	xor	s11, s1, s0
	xor	s10, a3, a1
	xor	a4, ra, a7
	xor	s1, a7, t2
	xor	a3, s0, a6
	xor	a1, s8, a1
	xor	a0, s7, a0
	xor	s0, t4, ra
	xor	a5, s9, a2
	xor	s4, a4, t3
	xor	a3, a3, ra
	xor	a1, a1, a7
	xor	a4, a4, a0
	xor	s0, s11, s0
	xor	s5, t0, s10
	srli	t0, s1, 20
	slli	t1, s1, 12
	srli	t5, s1, 12
	slli	t4, s1, 20
	srli	t2, a5, 20
	slli	t3, a5, 12
	srli	t6, a5, 12
	slli	s2, a5, 20
	xor	a0, a6, s1
	sw	a0, 64(sp)                      # 4-byte Folded Spill
	xor	s3, a5, ra
	or	t1, t1, t0
	or	t4, t4, t5
	srli	ra, s4, 20
	slli	a5, s4, 12
	srli	s1, s4, 12
	slli	a0, s4, 20
	srli	t5, a3, 20
	or	t2, t3, t2
	slli	t3, a3, 12
	or	t6, s2, t6
	srli	s2, a3, 12
	xor	t0, s8, s4
	slli	a2, a3, 20
	xor	s4, s7, a3
	srli	a3, a1, 20
	or	s6, a5, ra
	slli	a5, a1, 12
	or	ra, a0, s1
	srli	s1, a1, 12
	xor	s8, s11, a1
	slli	a1, a1, 20
	or	t3, t3, t5
	srli	a0, a4, 20
	or	t5, a2, s2
	slli	a2, a4, 12
	or	s11, a5, a3
	srli	a5, a4, 12
	xor	s2, s10, a4
	slli	a4, a4, 20
	or	s10, a1, s1
	srli	s1, s0, 20
	or	s7, a2, a0
	slli	a2, s0, 12
	or	a6, a4, a5
	srli	a5, s0, 12
	xor	s9, s9, s0
	slli	s0, s0, 20
	or	a0, a2, s1
	srli	s1, s5, 20
	or	a5, a5, s0
	slli	s0, s5, 12
	or	s0, s0, s1
	srli	s1, s5, 12
	xor	a7, a7, s5
	slli	s5, s5, 20
	lw	a2, 84(sp)                      # 4-byte Folded Reload
	and	a3, t1, a2
	lw	a4, 88(sp)                      # 4-byte Folded Reload
	and	a1, t4, a4
	or	t4, s5, s1
	and	t1, t2, a2
	and	t6, t6, a4
	or	t2, a3, a1
	and	s5, s6, a2
	and	s6, ra, a4
	and	t3, t3, a2
	and	ra, t5, a4
	and	t5, s11, a2
	and	s11, s10, a4
	and	s10, s7, a2
	and	a6, a6, a4
	and	s7, a0, a2
	and	a5, a5, a4
	and	s0, s0, a2
	and	a1, t4, a4
	or	a3, t1, t6
	or	a0, s5, s6
	or	s1, t3, ra
	or	t1, t5, s11
	or	a4, s10, a6
	or	t4, s7, a5
	or	t3, s0, a1
	lw	a1, 64(sp)                      # 4-byte Folded Reload
	xor	s5, a1, t2
	xor	a2, s3, a3
	xor	a0, t0, a0
	xor	s1, s4, s1
	xor	a1, s8, t1
	xor	s0, s2, a4
	xor	t1, s9, t4
	xor	a4, a7, t3
	xor	a3, a0, s5
	xor	s11, a4, a2
	xor	a7, t1, s1
	xor	t3, s0, a4
	xor	a6, t1, a1
	xor	t0, a0, a4
	xor	ra, s0, a2
	xor	s0, s0, a1
	xor	a0, a0, s1
	xor	a5, a1, s5
	xor	s8, a3, s11
	xor	t5, a6, t0
	xor	a6, a7, a2
	xor	t2, ra, a4
	xor	t6, s0, a3
	xor	s9, t3, a7
	xor	s10, s0, a0
	xor	a7, s0, s5
	xor	s3, t3, a3
	xor	t0, t0, a5
	xor	s2, a5, s11
	xor	s6, t2, a1
	and	a1, s9, s8
	and	s4, t2, ra
	or	a2, t6, t5
	and	s1, a7, t3
	and	a3, s3, a6
	and	a4, s2, s11
	xor	s1, s1, a2
	xor	a2, s10, s2
	xor	a3, a3, a5
	and	a5, s6, s10
	and	a2, a2, s0
	xor	a5, a5, a2
	xor	a4, a4, a2
	and	a2, t6, t5
	xor	a2, a2, t1
	xor	s5, s3, t1
	xor	t4, s2, a0
	xor	a0, t4, s4
	xor	a3, a3, a1
	xor	a0, a0, a1
	and	a1, s5, t0
	xor	a1, a1, a2
	xor	s1, s1, a5
	xor	a3, a3, a4
	xor	a2, a0, a5
	xor	a1, a1, s0
	and	a5, a2, s1
	xor	t1, a2, a3
	xor	a0, a1, a4
	and	a4, a3, s1
	and	a2, a2, a0
	xor	s1, s1, a0
	and	s4, a2, t1
	xor	a1, a5, a0
	and	a1, a1, t1
	xor	t1, a5, t1
	xor	a2, a5, a3
	and	a2, a2, s1
	and	a4, a4, s1
	xor	a5, a5, s1
	xor	a3, a3, a1
	xor	s1, t1, s4
	xor	a2, a2, a0
	xor	a4, a4, a5
	and	t1, a3, t0
	xor	a1, s1, a3
	xor	a0, a3, a2
	and	t0, s1, t3
	and	a5, a2, a6
	and	s3, a2, s3
	and	s4, a3, s5
	and	t3, s1, a7
	xor	s1, s1, a4
	and	ra, a4, ra
	xor	a2, a2, a4
	and	s5, a4, t2
	and	t2, a1, t6
	and	s7, a1, t5
	lw	a1, 80(sp)                      # 4-byte Folded Reload
	lw	a3, -48(a1)
	lw	a7, -44(a1)
	lw	a6, -40(a1)
	lw	t5, -36(a1)
	and	t6, a0, s0
	and	s0, a0, t4
	and	t4, s1, s2
	and	a4, a2, s9
	and	s2, a2, s8
	xor	a0, a0, s1
	xor	ra, ra, a5
	and	s1, s1, s11
	xor	s9, a5, a3
	and	s8, a0, s10
	and	a0, a0, s6
	lw	a5, -64(a1)
	lw	s6, -60(a1)
	lw	s10, -56(a1)
	lw	s11, -52(a1)
	xor	s5, s5, t3
	xor	a5, a5, s3
	xor	a2, s4, t5
	xor	a3, s7, t1
	xor	t1, a5, t6
	xor	t6, s0, t0
	xor	t5, a4, s4
	xor	s0, s5, s0
	xor	s3, ra, s3
	xor	a5, s2, s1
	xor	s2, s7, s6
	xor	s1, s1, s11
	xor	s4, s9, a4
	xor	s11, ra, t4
	xor	s9, a2, s7
	xor	a2, t6, t2
	xor	a4, s8, t3
	xor	a1, a0, t4
	xor	s6, t1, a5
	xor	t1, s2, a0
	xor	s1, s1, t5
	xor	a7, a3, a7
	xor	a0, s0, t2
	xor	a3, a3, a6
	xor	s0, s0, t0
	xor	a6, s11, a5
	xor	a4, a4, a2
	xor	a5, a1, a2
	xor	t0, a2, s10
	xor	t4, a1, s5
	xor	s1, s1, s3
	xor	t2, a7, a0
	xor	t3, s3, a1
	xor	t6, a3, s0
	srli	s0, s6, 12
	slli	a0, s6, 20
	srli	a1, s6, 4
	slli	a2, s6, 28
	xor	a7, t1, a4
	xor	a3, t0, t4
	xor	a4, a4, s1
	xor	s1, s4, a5
	xor	s8, t2, t3
	xor	t1, t6, a6
	xor	s7, s9, a5
	or	a0, a0, s0
	or	a1, a1, a2
	xor	a3, a3, t5
	lw	a5, 84(sp)                      # 4-byte Folded Reload
	and	t2, a0, a5
	lw	a0, 88(sp)                      # 4-byte Folded Reload
	and	t3, a1, a0
	srli	t4, a7, 12
	slli	t5, a7, 20
	srli	a6, a7, 4
	slli	t0, a7, 28
	srli	t6, a4, 12
	slli	s4, a4, 20
	srli	s2, a4, 4
	slli	s5, a4, 28
	srli	s10, s1, 12
	slli	ra, s1, 20
	srli	s3, s1, 4
	slli	s9, s1, 28
	srli	s0, s8, 12
	slli	a1, s8, 20
	srli	s11, s8, 4
	or	t2, t2, t3
	slli	a0, s8, 28
	or	t3, t5, t4
	srli	t4, t1, 12
	or	a6, t0, a6
	slli	t5, t1, 20
	or	t0, s4, t6
	srli	s4, t1, 4
	or	t6, s5, s2
	slli	s5, t1, 28
	or	s2, ra, s10
	srli	s10, s7, 12
	or	s3, s9, s3
	slli	ra, s7, 20
	or	s9, a1, s0
	srli	s0, s7, 4
	or	s11, a0, s11
	slli	a1, s7, 28
	or	t4, t5, t4
	srli	a0, a3, 12
	or	t5, s5, s4
	slli	s5, a3, 20
	or	s4, ra, s10
	srli	a2, a3, 4
	or	s10, a1, s0
	slli	s0, a3, 28
	mv	a1, a5
	and	t3, t3, a5
	lw	a5, 88(sp)                      # 4-byte Folded Reload
	and	a6, a6, a5
	or	s5, s5, a0
	or	ra, s0, a2
	and	t0, t0, a1
	and	t6, t6, a5
	and	s2, s2, a1
	and	s3, s3, a5
	and	s9, s9, a1
	mv	a0, a1
	and	s11, s11, a5
	and	a1, t4, a1
	and	a2, t5, a5
	and	s4, s4, a0
	and	s0, s10, a5
	xor	t2, t2, s6
	or	a6, t3, a6
	and	t3, s5, a0
	and	t4, ra, a5
	or	t0, t0, t6
	or	t5, s2, s3
	or	t6, s9, s11
	or	s3, a1, a2
	or	s2, s4, s0
	xor	s4, t2, a7
	or	s0, t3, t4
	xor	t3, a6, a7
	xor	a1, t0, a4
	xor	a0, t5, s1
	xor	t6, t6, s8
	xor	t5, s3, t1
	xor	a2, s2, s7
	xor	s0, s0, a3
	xor	s2, a2, s6
	xor	t0, s4, a2
	xor	a7, t3, a3
	xor	a4, a4, a2
	xor	a3, a2, s1
	xor	a6, a0, s8
	xor	t4, t6, t1
	xor	s1, t5, s7
	xor	s3, a4, s0
	xor	t1, a3, a1
	xor	a3, s1, t4
	xor	a5, t4, t2
	xor	a4, s0, s2
	xor	a1, t0, a1
	xor	s0, a7, a0
	xor	a0, t6, s1
	xor	a2, a6, a2
	xor	t2, a3, t3
	xor	a4, a4, s1
	xor	s8, a1, t4
	xor	s9, s0, a3
	xor	s11, s3, a0
	xor	a3, t5, t1
	srli	t3, a5, 16
	slli	t5, a5, 16
	srli	t6, a2, 16
	slli	s4, a2, 16
	xor	s2, s2, a5
	xor	s5, a2, s1
	or	t3, t5, t3
	srli	t5, t2, 16
	slli	s6, t2, 16
	srli	s10, a4, 16
	slli	a5, a4, 16
	srli	ra, s8, 16
	slli	a1, s8, 16
	srli	s0, s9, 16
	slli	s1, s9, 16
	or	t6, s4, t6
	srli	s4, s11, 16
	xor	t0, t0, t2
	slli	a2, s11, 16
	xor	a7, a7, a4
	srli	a4, a3, 16
	xor	t2, s3, s8
	slli	a0, a3, 16
	xor	t1, t1, s9
	xor	a6, a6, s11
	xor	t4, t4, a3
	or	a3, s6, t5
	or	a5, a5, s10
	or	a1, a1, ra
	or	s0, s0, s1
	or	a2, a2, s4
	or	a0, a0, a4
	xor	t3, s2, t3
	xor	a4, t6, s5
	xor	a3, t0, a3
	xor	a5, a7, a5
	xor	a1, t2, a1
	xor	s0, t1, s0
	xor	t1, a6, a2
	xor	a0, t4, a0
	xor	s1, a3, t3
	xor	s11, a0, a4
	xor	a2, t1, a5
	xor	t2, s0, a0
	xor	a6, t1, a1
	xor	t0, a3, a0
	xor	ra, s0, a4
	xor	s5, s0, a1
	xor	a3, a3, a5
	xor	a5, a1, t3
	xor	s8, s1, s11
	xor	t5, a6, t0
	xor	a6, a2, a4
	xor	s2, ra, a0
	xor	t6, s5, s1
	xor	s9, t2, a2
	xor	s10, s5, a3
	xor	a7, s5, t3
	xor	s3, t2, s1
	xor	t0, t0, a5
	xor	t3, a5, s11
	xor	s6, s2, a1
	and	a1, s9, s8
	and	t4, s2, ra
	or	a0, t6, t5
	and	a4, a7, t2
	and	s1, s3, a6
	and	a2, t3, s11
	xor	a4, a4, a0
	xor	a0, s10, t3
	xor	a5, a5, s1
	and	s1, s6, s10
	and	a0, a0, s5
	xor	s1, s1, a0
	xor	a2, a2, a0
	and	a0, t6, t5
	xor	a0, a0, t1
	xor	s4, s3, t1
	xor	t1, t3, a3
	xor	a3, t1, t4
	xor	a5, a5, a1
	xor	a1, a1, a3
	and	a3, s4, t0
	xor	a0, a0, a3
	xor	a4, a4, s1
	xor	a5, a5, a2
	xor	s1, s1, a1
	xor	a0, a0, s5
	and	s0, s1, a4
	xor	a3, s1, a5
	xor	a1, a0, a2
	and	a2, a5, a4
	and	s1, s1, a1
	xor	a4, a4, a1
	and	t4, s1, a3
	xor	a0, s0, a1
	and	a0, a0, a3
	xor	s1, s0, a3
	xor	a3, s0, a5
	and	a3, a3, a4
	and	a2, a2, a4
	xor	a4, a4, s0
	xor	a0, a0, a5
	xor	a5, s1, t4
	xor	a3, a3, a1
	xor	a4, a4, a2
	and	t4, a0, t0
	xor	s0, a5, a0
	xor	s1, a0, a3
	and	t0, a5, t2
	and	s7, a3, a6
	and	a1, a3, s3
	and	s4, a0, s4
	and	s3, a5, a7
	xor	a5, a5, a4
	and	ra, a4, ra
	xor	a3, a3, a4
	and	s2, a4, s2
	and	t2, s0, t6
	and	s0, s0, t5
	lw	a0, 80(sp)                      # 4-byte Folded Reload
	lw	a2, -80(a0)
	lw	a7, -76(a0)
	lw	a6, -72(a0)
	lw	t5, -68(a0)
	and	t6, s1, s5
	and	a4, s1, t1
	and	t1, a5, t3
	and	t3, a3, s9
	and	s5, a3, s8
	xor	s1, s1, a5
	xor	ra, ra, s7
	and	a5, a5, s11
	xor	s8, s7, a2
	lw	a2, -96(a0)
	lw	s11, -92(a0)
	lw	s9, -88(a0)
	lw	s7, -84(a0)
	xor	a0, s2, s3
	xor	s2, a2, a1
	xor	t5, s4, t5
	xor	a2, s0, t4
	and	t4, s1, s10
	and	s1, s1, s6
	xor	s6, a4, t0
	xor	s4, t3, s4
	xor	a4, a4, a0
	xor	a1, ra, a1
	xor	a3, s5, a5
	xor	t6, s2, t6
	xor	s2, s0, s11
	xor	s7, a5, s7
	xor	t3, s8, t3
	xor	s5, ra, t1
	xor	t5, t5, s0
	xor	s0, s6, t2
	xor	t4, t4, s3
	xor	a5, s1, t1
	xor	s3, t6, a3
	xor	t1, s2, s1
	xor	t6, s7, s4
	xor	a7, a2, a7
	xor	s1, a4, t2
	xor	t2, a2, a6
	xor	a4, a4, t0
	xor	a6, s5, a3
	xor	a3, t4, s0
	xor	a2, a5, s0
	xor	t0, s0, s9
	xor	s2, a5, a0
	xor	s0, t6, a1
	xor	t4, a7, s1
	xor	a5, a5, a1
	xor	t6, t2, a4
	sw	s3, 80(sp)                      # 4-byte Folded Spill
	srli	t2, s3, 10
	slli	s1, s3, 22
	srli	a0, s3, 2
	slli	a1, s3, 30
	xor	a7, t1, a3
	xor	a4, t0, s2
	xor	t0, s0, a3
	xor	s6, t3, a2
	xor	s8, t4, a5
	xor	a3, t6, a6
	xor	s0, t5, a2
	or	s1, s1, t2
	or	a2, a1, a0
	xor	a5, a4, s4
	lw	a1, 28(sp)                      # 4-byte Folded Reload
	and	t4, s1, a1
	lw	a0, 32(sp)                      # 4-byte Folded Reload
	and	t5, a2, a0
	srli	a2, a7, 10
	slli	t2, a7, 22
	srli	t1, a7, 2
	slli	t3, a7, 30
	srli	t6, t0, 10
	slli	s3, t0, 22
	srli	s2, t0, 2
	slli	s5, t0, 30
	srli	s4, s6, 10
	slli	s7, s6, 22
	srli	s9, s6, 2
	slli	s10, s6, 30
	srli	s11, s8, 10
	slli	ra, s8, 22
	srli	a6, s8, 2
	slli	s1, s8, 30
	or	a4, t4, t5
	sw	a4, 60(sp)                      # 4-byte Folded Spill
	sw	a3, 64(sp)                      # 4-byte Folded Spill
	srli	t5, a3, 10
	or	t4, t2, a2
	slli	a4, a3, 22
	or	t1, t3, t1
	srli	t3, a3, 2
	or	t2, s3, t6
	slli	s3, a3, 30
	or	t6, s5, s2
	sw	s0, 56(sp)                      # 4-byte Folded Spill
	srli	s5, s0, 10
	or	s2, s7, s4
	slli	s7, s0, 22
	or	s4, s10, s9
	srli	s10, s0, 2
	or	s9, ra, s11
	slli	a2, s0, 30
	or	s11, s1, a6
	srli	ra, a5, 10
	or	t5, a4, t5
	slli	a4, a5, 22
	or	t3, s3, t3
	srli	a3, a5, 2
	or	s3, s7, s5
	slli	s1, a5, 30
	or	s10, a2, s10
	and	a6, t4, a1
	and	t1, t1, a0
	or	s7, a4, ra
	or	s5, s1, a3
	and	t2, t2, a1
	and	t6, t6, a0
	and	s2, s2, a1
	and	ra, s4, a0
	and	s4, s9, a1
	and	s9, s11, a0
	and	s11, t5, a1
	and	a4, t3, a0
	and	s1, s3, a1
	and	a2, s10, a0
	lw	a3, 80(sp)                      # 4-byte Folded Reload
	lw	s0, 60(sp)                      # 4-byte Folded Reload
	xor	t3, s0, a3
	or	a6, a6, t1
	and	t1, s7, a1
	and	t4, s5, a0
	or	t2, t2, t6
	or	t5, s2, ra
	or	t6, s4, s9
	or	s2, s11, a4
	or	s3, s1, a2
	xor	s4, t3, a7
	or	s1, t1, t4
	xor	t1, a6, a7
	xor	a1, t2, t0
	xor	t5, t5, s6
	xor	t4, t6, s8
	lw	a2, 64(sp)                      # 4-byte Folded Reload
	xor	t2, s2, a2
	lw	a0, 56(sp)                      # 4-byte Folded Reload
	xor	a4, s3, a0
	xor	s1, s1, a5
	xor	a6, a4, a3
	xor	s7, s4, a4
	xor	s9, t1, a5
	xor	s0, a4, t0
	xor	a3, a4, s6
	xor	a7, t5, s8
	xor	t0, t4, a2
	xor	s11, t2, a0
	xor	s10, s0, s1
	xor	s8, a3, a1
	xor	a2, s11, t0
	xor	a3, t0, t3
	xor	s1, s1, a6
	xor	a1, s7, a1
	xor	a0, s9, t5
	xor	s0, t4, s11
	xor	a5, a7, a4
	xor	s4, a2, t1
	xor	s1, s1, s11
	xor	a1, a1, t0
	xor	a0, a0, a2
	xor	s0, s10, s0
	xor	ra, t2, s8
	srli	a2, a3, 20
	slli	t1, a3, 12
	srli	t5, a3, 12
	slli	t4, a3, 20
	srli	t2, a5, 20
	slli	t3, a5, 12
	srli	t6, a5, 12
	slli	s2, a5, 20
	xor	a3, a6, a3
	sw	a3, 80(sp)                      # 4-byte Folded Spill
	xor	a3, a5, s11
	sw	a3, 64(sp)                      # 4-byte Folded Spill
	or	s5, t1, a2
	or	t1, t4, t5
	srli	a4, s4, 20
	slli	a3, s4, 12
	srli	t5, s4, 12
	slli	s11, s4, 20
	srli	t4, s1, 20
	slli	a5, s1, 12
	or	t2, t3, t2
	srli	t3, s1, 12
	or	t6, s2, t6
	slli	a2, s1, 20
	xor	s3, s7, s4
	srli	s2, a1, 20
	xor	s4, s9, s1
	slli	s1, a1, 12
	or	s7, a3, a4
	srli	a4, a1, 12
	xor	s6, s10, a1
	slli	a1, a1, 20
	or	t5, s11, t5
	srli	a3, a0, 20
	or	t4, a5, t4
	slli	a5, a0, 12
	or	t3, a2, t3
	srli	a2, a0, 12
	xor	s9, s8, a0
	slli	a0, a0, 20
	or	s2, s1, s2
	srli	s1, s0, 20
	or	s10, a1, a4
	slli	a4, s0, 12
	or	s11, a5, a3
	srli	a5, s0, 12
	xor	s8, a7, s0
	slli	s0, s0, 20
	or	a7, a0, a2
	srli	a2, ra, 20
	or	a6, a4, s1
	slli	s1, ra, 12
	or	a0, s0, a5
	srli	s0, ra, 12
	xor	t0, t0, ra
	slli	ra, ra, 20
	lw	a4, 84(sp)                      # 4-byte Folded Reload
	and	a1, s5, a4
	lw	a5, 88(sp)                      # 4-byte Folded Reload
	and	a3, t1, a5
	or	t1, s1, a2
	or	ra, ra, s0
	and	s5, t2, a4
	and	t6, t6, a5
	or	t2, a1, a3
	and	s7, s7, a4
	and	t5, t5, a5
	and	t4, t4, a4
	and	s1, t3, a5
	and	t3, s2, a4
	and	s10, s10, a5
	and	s2, s11, a4
	and	s11, a7, a5
	and	a6, a6, a4
	and	a7, a0, a5
	and	s0, t1, a4
	and	a2, ra, a5
	or	a1, s5, t6
	or	a3, s7, t5
	or	s1, t4, s1
	or	a0, t3, s10
	or	t1, s2, s11
	or	a4, a6, a7
	or	t3, s0, a2
	lw	a2, 80(sp)                      # 4-byte Folded Reload
	xor	t4, a2, t2
	lw	a2, 64(sp)                      # 4-byte Folded Reload
	xor	a1, a1, a2
	xor	a3, s3, a3
	xor	s1, s4, s1
	xor	a0, s6, a0
	xor	a2, s9, t1
	xor	t6, s8, a4
	xor	a4, t0, t3
	xor	a5, a3, t4
	xor	s9, a4, a1
	xor	a6, t6, s1
	xor	t5, a2, a4
	xor	a7, t6, a0
	xor	t0, a3, a4
	xor	s10, a2, a1
	xor	a2, a2, a0
	xor	a3, a3, s1
	xor	s0, a0, t4
	xor	s7, a5, s9
	xor	t2, a7, t0
	xor	a7, a6, a1
	xor	t3, s10, a4
	xor	s2, a2, a5
	xor	s8, t5, a6
	xor	a6, a2, a3
	xor	s11, a2, t4
	xor	s3, t5, a5
	xor	t0, t0, s0
	xor	s5, s0, s9
	xor	s6, t3, a0
	and	a0, s8, s7
	and	s4, t3, s10
	and	a4, s2, t2
	or	a5, s2, t2
	and	a1, s11, t5
	and	s1, s3, a7
	xor	t4, s3, t6
	xor	ra, a1, a5
	and	a5, s5, s9
	xor	s0, s0, s1
	xor	s1, a6, s5
	xor	t1, s5, a3
	xor	a3, a4, t6
	and	a4, s6, a6
	and	s1, s1, a2
	xor	a4, a4, s1
	xor	a5, a5, s1
	and	s1, t4, t0
	xor	a1, t1, s4
	xor	s0, s0, a0
	xor	a0, a0, a1
	xor	a3, a3, s1
	xor	a1, ra, a4
	xor	s0, s0, a5
	xor	a4, a4, a0
	xor	a3, a3, a2
	and	a0, a4, a1
	xor	s1, a4, s0
	xor	a3, a3, a5
	and	t6, s0, a1
	and	a4, a4, a3
	xor	a1, a1, a3
	xor	a5, a0, a3
	and	s4, a4, s1
	and	ra, a5, s1
	xor	s1, s1, a0
	xor	a4, a0, s0
	and	a4, a4, a1
	and	a5, t6, a1
	xor	a0, a0, a1
	xor	s0, ra, s0
	xor	s1, s1, s4
	xor	a3, a3, a4
	xor	a0, a0, a5
	and	t0, s0, t0
	xor	a5, s1, s0
	and	t4, s0, t4
	xor	s0, s0, a3
	and	t5, s1, t5
	and	a7, a3, a7
	and	a4, a3, s3
	and	s4, s1, s11
	xor	s1, s1, a0
	and	t6, a0, s10
	xor	a3, a3, a0
	and	t3, a0, t3
	and	s2, a5, s2
	and	s10, a5, t2
	and	s8, a3, s8
	and	t2, a3, s7
	and	s3, s0, a2
	and	a3, s0, t1
	and	t1, s1, s5
	xor	s0, s0, s1
	and	s1, s1, s9
	and	a1, s0, a6
	and	s0, s0, s6
	xor	a2, t6, a7
	xor	a0, a3, t0
	xor	t0, a3, t5
	xor	a6, s3, a4
	xor	a4, a4, a2
	xor	a2, a2, t5
	xor	a5, t3, s4
	xor	t3, a1, s4
	xor	a3, s10, a5
	xor	a0, a0, a3
	xor	a7, s8, a7
	xor	a3, s8, t4
	xor	a1, t2, s1
	xor	t5, a3, a5
	xor	t6, a3, s1
	xor	t4, s10, t4
	xor	t2, s0, s10
	xor	s0, s0, t1
	xor	a2, a2, t1
	xor	a5, t0, s2
	xor	s1, a4, s2
	xor	a3, t3, a5
	xor	a5, a5, s0
	xor	s0, s0, s1
	xor	a4, t6, a4
	xor	a6, a6, a1
	xor	a1, a1, a2
	lw	a2, 48(sp)                      # 4-byte Folded Reload
	xor	t0, t5, a5
	xor	s8, a7, a5
	xor	s6, t4, a5
	xor	t3, t2, a3
	xor	t2, a4, a3
	xor	a7, s0, a0
	xor	t1, a1, a0
	lw	a0, 68(sp)                      # 4-byte Folded Reload
	lw	a3, 44(sp)                      # 4-byte Folded Reload
	lw	a4, 76(sp)                      # 4-byte Folded Reload
	lw	a1, 72(sp)                      # 4-byte Folded Reload
	beqz	a1, .Laes_BB23_12
.Laes_BB23_10:                              # %join.10.i
                                        # =>This Inner Loop Header: Depth=1
	addi	a5, a0, 1
	seqz	a1, a5
	add	a4, a4, a1
	sw	a4, 76(sp)                      # 4-byte Folded Spill
	sw	a5, 68(sp)                      # 4-byte Folded Spill
	beq	a4, a3, .Laes_BB23_11
	j	.Laes_BB23_8
.Laes_BB23_11:                              #   in Loop: Header=BB23_10 Depth=1
	sltu	a1, a5, a2
	j	.Laes_BB23_9
.Laes_BB23_12:                              # %"aes_soft::soft::ciphers::planes::DecryptPlaneCipher::process_planes::<#42add9d049d0c5fd>.exit"
	lw	s0, 52(sp)                      # 4-byte Folded Reload
	lw	a0, 0(s0)
	lw	a1, 4(s0)
	lw	a2, 8(s0)
	lw	a3, 12(s0)
	xor	a6, a0, a6
	xor	t3, a1, t3
	xor	t0, a2, t0
	xor	a3, a3, t2
	lw	a4, 16(s0)
	lw	a5, 20(s0)
	lw	s1, 24(s0)
	lw	s0, 28(s0)
	xor	t2, a4, s8
	xor	a5, a5, a7
	xor	a7, s1, t1
	xor	s0, s0, s6
	srli	a0, a6, 1
	srli	a2, t0, 1
	srli	a4, t2, 1
	srli	s1, a7, 1
	xor	a1, t3, a0
	xor	a2, a2, a3
	xor	a4, a4, a5
	xor	s1, s1, s0
	lw	a0, 16(sp)                      # 4-byte Folded Reload
	and	a1, a1, a0
	and	a2, a2, a0
	and	a4, a4, a0
	and	s1, s1, a0
	xor	t1, a1, t3
	slli	a0, a1, 1
	xor	t4, a2, a3
	slli	a2, a2, 1
	xor	t3, a4, a5
	slli	a4, a4, 1
	xor	s0, s0, s1
	slli	s1, s1, 1
	xor	a6, a0, a6
	xor	a0, a2, t0
	xor	t0, a4, t2
	xor	a4, s1, a7
	srli	a1, t1, 2
	srli	a5, t3, 2
	srli	s1, a6, 2
	srli	a2, t0, 2
	xor	a3, t4, a1
	xor	a5, a5, s0
	xor	s1, s1, a0
	xor	a2, a2, a4
	lw	a1, 20(sp)                      # 4-byte Folded Reload
	and	a3, a3, a1
	and	a5, a5, a1
	and	s1, s1, a1
	and	a2, a2, a1
	xor	t2, a3, t4
	slli	a1, a3, 2
	xor	t6, a5, s0
	slli	a5, a5, 2
	xor	a7, s1, a0
	slli	t4, s1, 2
	xor	t5, a2, a4
	slli	s1, a2, 2
	xor	t1, a1, t1
	xor	t3, a5, t3
	srli	a1, t2, 4
	xor	s0, t4, a6
	xor	a5, s1, t0
	srli	a0, t1, 4
	srli	s1, a7, 4
	xor	a1, t6, a1
	srli	a2, s0, 4
	xor	a3, t3, a0
	xor	s1, t5, s1
	lw	a0, 84(sp)                      # 4-byte Folded Reload
	and	a1, a1, a0
	xor	a2, a2, a5
	and	a3, a3, a0
	and	s1, s1, a0
	and	a2, a2, a0
	xor	a6, a1, t6
	slli	a1, a1, 4
	xor	a4, a1, t2
	xor	t2, a3, t3
	slli	a0, a3, 4
	xor	t0, a0, t1
	xor	a1, s1, t5
	slli	a3, s1, 4
	xor	a0, a2, a5
	slli	a2, a2, 4
	xor	a5, a3, a7
	srli	a3, a1, 8
	xor	a2, a2, s0
	srli	a7, a1, 16
	lw	s0, 24(sp)                      # 4-byte Folded Reload
	sb	a3, 13(s0)
	sb	a1, 12(s0)
	srli	a1, a1, 24
	sb	a7, 14(s0)
	srli	a3, a4, 8
	sb	a1, 15(s0)
	srli	a1, a4, 16
	sb	a3, 21(s0)
	sb	a4, 20(s0)
	srli	s1, a4, 24
	sb	a1, 22(s0)
	srli	a1, t2, 8
	sb	s1, 23(s0)
	srli	a3, t2, 16
	sb	a1, 25(s0)
	sb	t2, 24(s0)
	srli	a4, t2, 24
	sb	a3, 26(s0)
	srli	a1, a5, 8
	sb	a4, 27(s0)
	srli	a3, a5, 16
	sb	a1, 5(s0)
	sb	a5, 4(s0)
	srli	a5, a5, 24
	sb	a3, 6(s0)
	srli	a1, a0, 8
	sb	a5, 7(s0)
	srli	a3, a0, 16
	sb	a1, 9(s0)
	sb	a0, 8(s0)
	srli	a0, a0, 24
	sb	a3, 10(s0)
	srli	a1, t0, 8
	sb	a0, 11(s0)
	srli	a0, t0, 16
	sb	a1, 17(s0)
	sb	t0, 16(s0)
	srli	a1, t0, 24
	sb	a0, 18(s0)
	srli	a0, a2, 8
	sb	a1, 19(s0)
	srli	a1, a2, 16
	sb	a0, 1(s0)
	sb	a2, 0(s0)
	srli	a2, a2, 24
	sb	a1, 2(s0)
	srli	a0, a6, 8
	sb	a2, 3(s0)
	srli	a1, a6, 16
	sb	a0, 29(s0)
	sb	a6, 28(s0)
	srli	a0, a6, 24
	sb	a1, 30(s0)
	sb	a0, 31(s0)
	lw	ra, 140(sp)                     # 4-byte Folded Reload
	lw	s0, 136(sp)                     # 4-byte Folded Reload
	lw	s1, 132(sp)                     # 4-byte Folded Reload
	lw	s2, 128(sp)                     # 4-byte Folded Reload
	lw	s3, 124(sp)                     # 4-byte Folded Reload
	lw	s4, 120(sp)                     # 4-byte Folded Reload
	lw	s5, 116(sp)                     # 4-byte Folded Reload
	lw	s6, 112(sp)                     # 4-byte Folded Reload
	lw	s7, 108(sp)                     # 4-byte Folded Reload
	lw	s8, 104(sp)                     # 4-byte Folded Reload
	lw	s9, 100(sp)                     # 4-byte Folded Reload
	lw	s10, 96(sp)                     # 4-byte Folded Reload
	lw	s11, 92(sp)                     # 4-byte Folded Reload
	addi	sp, sp, 144
	ret
.Laes_func_end23:
	.size	aes.aes_soft.soft.ciphers.planes.process_outlined.2, .Laes_func_end23-aes.aes_soft.soft.ciphers.planes.process_outlined.2
                                        # -- End function
	.section	.text.aes.aes_narrow.blocks.process_all_batches.2,"ax",@progbits
	.p2align	1                               # -- Begin function aes_narrow::blocks::process_all_batches::<#a3dcb71d05bd149b>
	.type	aes.aes_narrow.blocks.process_all_batches.2,@function
aes.aes_narrow.blocks.process_all_batches.2: # @aes.aes_narrow.blocks.process_all_batches.2
# %bb.0:                                # %start
	addi	sp, sp, -48
	sw	ra, 44(sp)                      # 4-byte Folded Spill
	sw	s0, 40(sp)                      # 4-byte Folded Spill
	sw	s1, 36(sp)                      # 4-byte Folded Spill
	sw	s2, 32(sp)                      # 4-byte Folded Spill
	sw	s3, 28(sp)                      # 4-byte Folded Spill
	sw	s4, 24(sp)                      # 4-byte Folded Spill
	sw	s5, 20(sp)                      # 4-byte Folded Spill
	sw	s6, 16(sp)                      # 4-byte Folded Spill
	sw	s7, 12(sp)                      # 4-byte Folded Spill
	mv	s4, a1
	or	a1, a4, a5
	beqz	a1, .Laes_BB24_7
# %bb.1:                                # %join.5.preheader
	mv	s6, a5
	mv	s7, a4
	mv	s2, a3
	mv	s3, a2
	mv	s5, a0
	li	a0, 0
	li	s0, 0
	j	.Laes_BB24_3
.Laes_BB24_2:                               # %join.5
                                        #   in Loop: Header=BB24_3 Depth=1
	sltu	a1, s0, s6
	mv	a0, s1
	beqz	a1, .Laes_BB24_7
.Laes_BB24_3:                               # %join.5
                                        # =>This Inner Loop Header: Depth=1
	sltu	a1, s7, a0
	sub	a2, s6, s0
	sub	a2, a2, a1
	sub	a1, s7, a0
	seqz	a2, a2
	addi	a2, a2, -1
	or	a4, a2, a1
	li	a1, 2
	bltu	a4, a1, .Laes_BB24_5
# %bb.4:                                # %join.5
                                        #   in Loop: Header=BB24_3 Depth=1
	li	a4, 2
.Laes_BB24_5:                               # %join.5
                                        #   in Loop: Header=BB24_3 Depth=1
	add	s1, a4, a0
	slli	a0, a0, 4
	sltu	a1, s1, a4
	add	s0, s0, a1
	add	a3, s2, a0
	mv	a0, s5
	mv	a1, s4
	mv	a2, s3
	li	a5, 0
	call	aes.aes_soft.soft.blocks.filled_up.process_filled_up.2
	bne	s0, s6, .Laes_BB24_2
# %bb.6:                                #   in Loop: Header=BB24_3 Depth=1
	sltu	a1, s1, s7
	mv	a0, s1
	bnez	a1, .Laes_BB24_3
.Laes_BB24_7:                               # %after.1
	lw	ra, 44(sp)                      # 4-byte Folded Reload
	lw	s0, 40(sp)                      # 4-byte Folded Reload
	lw	s1, 36(sp)                      # 4-byte Folded Reload
	lw	s2, 32(sp)                      # 4-byte Folded Reload
	lw	s3, 28(sp)                      # 4-byte Folded Reload
	lw	s4, 24(sp)                      # 4-byte Folded Reload
	lw	s5, 20(sp)                      # 4-byte Folded Reload
	lw	s6, 16(sp)                      # 4-byte Folded Reload
	lw	s7, 12(sp)                      # 4-byte Folded Reload
	addi	sp, sp, 48
	ret
.Laes_func_end24:
	.size	aes.aes_narrow.blocks.process_all_batches.2, .Laes_func_end24-aes.aes_narrow.blocks.process_all_batches.2
                                        # -- End function
	.section	.text.aes.key_wrap.wrapping.unwrap,"ax",@progbits
	.p2align	1                               # -- Begin function key_wrap::wrapping::unwrap::<#10c636071cb6e37c>
	.type	aes.key_wrap.wrapping.unwrap,@function
aes.key_wrap.wrapping.unwrap: # @aes.key_wrap.wrapping.unwrap
# %bb.0:                                # %start
	addi	sp, sp, -48
	sw	ra, 44(sp)                      # 4-byte Folded Spill
	sw	s0, 40(sp)                      # 4-byte Folded Spill
	sw	s1, 36(sp)                      # 4-byte Folded Spill
	sw	s2, 32(sp)                      # 4-byte Folded Spill
	sw	s3, 28(sp)                      # 4-byte Folded Spill
	sw	s4, 24(sp)                      # 4-byte Folded Spill
	sw	s5, 20(sp)                      # 4-byte Folded Spill
	mv	s3, a5
	mv	s5, a4
	li	s4, 0
	sltiu	a4, a5, 2
	seqz	a5, a6
	and	a5, a5, a4
	li	a4, 1
	bnez	a5, .Laes_BB25_17
# %bb.1:                                # %start
	mv	s2, a6
	addi	a5, s3, 1
	seqz	s1, a5
	add	s1, s1, a6
	xor	a5, a5, a2
	xor	s1, s1, a3
	or	a5, a5, s1
	bnez	a5, .Laes_BB25_17
# %bb.2:                                # %after.1
	addi	a6, a1, 8
	seqz	a4, a2
	addi	a7, a2, -1
	sub	t0, a3, a4
	srli	a2, a7, 29
	sltu	s1, s5, a6
	slli	a4, t0, 3
	or	a4, a4, a2
	neg	s1, s1
	slli	a2, a7, 3
	beq	s1, a4, .Laes_BB25_5
# %bb.3:                                # %after.1
	sltu	s1, s1, a4
	bnez	s1, .Laes_BB25_6
.Laes_BB25_4:                               # %apart.2.i.i.i.i.i.i.i.i
	mv	s4, a0
	mv	a0, s5
	mv	s1, a1
	mv	a1, a6
	call	memmove
	mv	a1, s1
	mv	a0, s4
	j	.Laes_BB25_10
.Laes_BB25_5:
	sub	a4, s5, a6
	sltu	s1, a4, a2
	beqz	s1, .Laes_BB25_4
.Laes_BB25_6:                               # %join.7.i.i.i.i.i.i.i.i.preheader
	li	s0, 0
	li	t1, 0
	j	.Laes_BB25_8
.Laes_BB25_7:                               # %join.7.i.i.i.i.i.i.i.i
                                        #   in Loop: Header=BB25_8 Depth=1
	sltu	a4, t1, t0
	beqz	a4, .Laes_BB25_10
.Laes_BB25_8:                               # %join.7.i.i.i.i.i.i.i.i
                                        # =>This Inner Loop Header: Depth=1
	slli	a2, s0, 3
	addi	s0, s0, 1
	add	a4, s5, a2
	add	a2, a2, a6
	seqz	s1, s0
	lbu	t4, 0(a2)
	lbu	t5, 1(a2)
	lbu	t2, 2(a2)
	lbu	t3, 3(a2)
	add	t1, t1, s1
	lbu	s1, 4(a2)
	lbu	a3, 5(a2)
	lbu	a5, 6(a2)
	lbu	a2, 7(a2)
	sb	s1, 4(a4)
	sb	a3, 5(a4)
	sb	a5, 6(a4)
	sb	a2, 7(a4)
	sb	t4, 0(a4)
	sb	t5, 1(a4)
	sb	t2, 2(a4)
	sb	t3, 3(a4)
	bne	t1, t0, .Laes_BB25_7
# %bb.9:                                #   in Loop: Header=BB25_8 Depth=1
	sltu	a4, s0, a7
	bnez	a4, .Laes_BB25_8
.Laes_BB25_10:                              # %"key_wrap::wrapping::unwrap_all::<#10c636071cb6e37c>.exit"
	lbu	a2, 1(a1)
	lbu	a3, 2(a1)
	lbu	a4, 3(a1)
	lbu	a5, 0(a1)
	slli	a2, a2, 8
	slli	a3, a3, 16
	slli	a4, a4, 24
	or	a2, a2, a5
	or	a3, a3, a4
	lbu	a4, 5(a1)
	lbu	a5, 4(a1)
	lbu	s1, 6(a1)
	lbu	a1, 7(a1)
	slli	a4, a4, 8
	or	a4, a4, a5
	slli	s1, s1, 16
	slli	a1, a1, 24
	or	a1, a1, s1
	or	a2, a2, a3
	or	a1, a1, a4
	sw	a2, 0(sp)
	sw	a1, 4(sp)
	mv	a1, sp
	mv	a2, s5
	mv	a3, s3
	mv	a4, s2
	call	aes.key_wrap.steps.unwrap_in_place
	lw	a0, 0(sp)
	lw	a1, 4(sp)
	lui	a2, 682602
	addi	a2, a2, 1702
	sw	a0, 0(sp)
	sw	a1, 4(sp)
	sw	a2, 8(sp)
	sw	a2, 12(sp)
.Laes_pcrel_hi3:
	auipc	a1, %pcrel_hi(.Laes_static.2)
	addi	a1, a1, %pcrel_lo(.Laes_pcrel_hi3)
	mv	a0, sp
	call	aes.aes_cipher.blocks.difference
	beqz	a0, .Laes_BB25_16
# %bb.11:                               # %loop.5.preheader.i
	seqz	a0, s3
	sub	a0, s2, a0
	addi	s3, s3, -1
	li	s4, 1
	mv	a2, s3
	bnez	a0, .Laes_BB25_13
# %bb.12:                               # %loop.5.preheader.i
	li	a2, 1
.Laes_BB25_13:                              # %loop.5.preheader.i
	bnez	a0, .Laes_BB25_15
# %bb.14:
	seqz	a2, s3
	add	a2, a2, s3
.Laes_BB25_15:                              # %loop.5.preheader.i
	slli	a2, a2, 3
	mv	a0, s5
	li	a1, 0
	call	memset
	slli	s3, s3, 3
	add	s3, s3, s5
	sb	zero, 4(s3)
	sb	zero, 5(s3)
	sb	zero, 6(s3)
	sb	zero, 7(s3)
	sb	zero, 0(s3)
	sb	zero, 1(s3)
	sb	zero, 2(s3)
	sb	zero, 3(s3)
	li	a4, 1
	j	.Laes_BB25_17
.Laes_BB25_16:
	li	s4, 0
	li	a4, 0
.Laes_BB25_17:                              # %return.10
	mv	a0, a4
	mv	a1, s4
	lw	ra, 44(sp)                      # 4-byte Folded Reload
	lw	s0, 40(sp)                      # 4-byte Folded Reload
	lw	s1, 36(sp)                      # 4-byte Folded Reload
	lw	s2, 32(sp)                      # 4-byte Folded Reload
	lw	s3, 28(sp)                      # 4-byte Folded Reload
	lw	s4, 24(sp)                      # 4-byte Folded Reload
	lw	s5, 20(sp)                      # 4-byte Folded Reload
	addi	sp, sp, 48
	ret
.Laes_func_end25:
	.size	aes.key_wrap.wrapping.unwrap, .Laes_func_end25-aes.key_wrap.wrapping.unwrap
                                        # -- End function
	.section	.text.aes.key_wrap.steps.unwrap_in_place,"ax",@progbits
	.p2align	1                               # -- Begin function key_wrap::steps::unwrap_in_place::<#10c636071cb6e37c>
	.type	aes.key_wrap.steps.unwrap_in_place,@function
aes.key_wrap.steps.unwrap_in_place: # @aes.key_wrap.steps.unwrap_in_place
# %bb.0:                                # %start
	addi	sp, sp, -80
	sw	ra, 76(sp)                      # 4-byte Folded Spill
	sw	s0, 72(sp)                      # 4-byte Folded Spill
	sw	s1, 68(sp)                      # 4-byte Folded Spill
	sw	s2, 64(sp)                      # 4-byte Folded Spill
	sw	s3, 60(sp)                      # 4-byte Folded Spill
	sw	s4, 56(sp)                      # 4-byte Folded Spill
	sw	s5, 52(sp)                      # 4-byte Folded Spill
	sw	s6, 48(sp)                      # 4-byte Folded Spill
	sw	s7, 44(sp)                      # 4-byte Folded Spill
	sw	s8, 40(sp)                      # 4-byte Folded Spill
	sw	s9, 36(sp)                      # 4-byte Folded Spill
	sw	s10, 32(sp)                     # 4-byte Folded Spill
	sw	s11, 28(sp)                     # 4-byte Folded Spill
	mv	s0, a1
	or	a1, a3, a4
	beqz	a1, .Laes_BB26_25
# %bb.1:                                # %join.5.preheader
	mv	s3, a4
	mv	s4, a3
	mv	s2, a2
	mv	s11, a0
	li	s5, 0
	li	s7, 0
	li	a0, 5
	slli	s6, a4, 2
	slli	s8, a3, 2
	mulhu	a0, a3, a0
	add	a1, s6, a4
	add	s9, s8, a3
	add	a0, a0, a1
	addi	s9, s9, 1
	seqz	s10, s9
	add	s10, s10, a0
	j	.Laes_BB26_3
.Laes_BB26_2:                               # %join.5.i
                                        #   in Loop: Header=BB26_3 Depth=1
	sltu	a0, s7, s3
	beqz	a0, .Laes_BB26_5
.Laes_BB26_3:                               # %join.5.i
                                        # =>This Inner Loop Header: Depth=1
	not	a6, s7
	not	t1, s5
	lbu	a7, 4(s0)
	lbu	t2, 5(s0)
	lbu	t3, 6(s0)
	lbu	t4, 7(s0)
	lbu	t0, 0(s0)
	lbu	t5, 1(s0)
	lbu	t6, 2(s0)
	lbu	ra, 3(s0)
	lui	s1, 16
	add	t1, t1, s4
	add	a6, a6, s3
	addi	a3, s1, -256
	sltu	s1, t1, s4
	slli	a4, t1, 3
	add	t1, t1, s9
	add	a6, a6, s1
	add	s1, s2, a4
	sltu	a4, t1, s9
	srli	a5, t1, 8
	srli	a1, t1, 24
	add	a6, a6, s10
	add	a4, a4, a6
	slli	a6, t1, 24
	and	a0, t1, a3
	slli	t2, t2, 8
	slli	t3, t3, 16
	slli	t4, t4, 24
	slli	t5, t5, 8
	slli	t6, t6, 16
	slli	ra, ra, 24
	and	a5, a5, a3
	slli	t1, a0, 8
	or	a7, t2, a7
	or	t2, t4, t3
	or	a2, t5, t0
	or	a0, ra, t6
	or	a1, a1, a5
	or	a5, a6, t1
	or	a6, t2, a7
	or	a7, a0, a2
	srli	a2, a4, 8
	srli	a0, a4, 24
	slli	t0, a4, 24
	and	a4, a4, a3
	or	a1, a1, a5
	and	a3, a3, a2
	slli	a4, a4, 8
	xor	ra, a1, a6
	or	a0, a0, a3
	or	a1, t0, a4
	srli	a3, ra, 16
	srli	a4, ra, 24
	srli	a5, ra, 8
	or	a0, a0, a1
	sb	ra, 4(s0)
	sb	a5, 5(s0)
	sb	a3, 6(s0)
	sb	a4, 7(s0)
	xor	a3, a0, a7
	srli	a0, a3, 16
	srli	a1, a3, 24
	srli	a4, a3, 8
	sb	a3, 0(s0)
	sb	a4, 1(s0)
	sb	a0, 2(s0)
	sb	a1, 3(s0)
	lbu	a6, 0(s1)
	lbu	a7, 1(s1)
	lbu	t1, 2(s1)
	lbu	t3, 3(s1)
	lbu	t0, 4(s1)
	lbu	a1, 5(s1)
	lbu	a0, 6(s1)
	lbu	a4, 7(s1)
	lbu	t2, 0(s11)
	lbu	t4, 1(s11)
	lbu	t5, 2(s11)
	lbu	t6, 3(s11)
	slli	a7, a7, 8
	slli	t1, t1, 16
	slli	t3, t3, 24
	slli	a1, a1, 8
	slli	a0, a0, 16
	slli	a4, a4, 24
	or	a6, a7, a6
	or	a7, t3, t1
	or	t0, a1, t0
	or	t1, a4, a0
	lbu	a4, 8(s11)
	lbu	a1, 9(s11)
	lbu	a0, 10(s11)
	lbu	a5, 11(s11)
	slli	t4, t4, 8
	slli	t5, t5, 16
	slli	t6, t6, 24
	slli	a1, a1, 8
	slli	a0, a0, 16
	slli	a5, a5, 24
	or	t2, t4, t2
	or	t3, t6, t5
	or	t4, a1, a4
	or	t5, a5, a0
	lbu	a0, 13(s11)
	lbu	a4, 12(s11)
	lbu	a1, 14(s11)
	lbu	a2, 15(s11)
	slli	a0, a0, 8
	or	t6, a0, a4
	slli	a1, a1, 16
	slli	a2, a2, 24
	or	a2, a2, a1
	or	a5, a7, a6
	or	a4, t1, t0
	or	a0, t3, t2
	or	a1, t5, t4
	sw	a3, 8(sp)
	sw	ra, 12(sp)
	sw	a5, 16(sp)
	sw	a4, 20(sp)
	or	a2, a2, t6
	addi	a3, sp, 8
	li	a4, 1
	li	a5, 0
	call	aes.aes_narrow.blocks.process_all_batches.2
	call	aes.aes_cipher.zeroize.stack.wipe_stack.1024
	lw	a0, 12(sp)
	lw	a1, 8(sp)
	lw	a2, 16(sp)
	lw	a3, 20(sp)
	srli	a6, a0, 24
	srli	t1, a0, 16
	srli	a4, a0, 8
	srli	a7, a1, 24
	srli	t0, a1, 16
	srli	a5, a1, 8
	srli	t2, a3, 16
	srli	t3, a3, 24
	srli	t4, a3, 8
	srli	t5, a2, 16
	sb	a0, 4(s0)
	sb	a4, 5(s0)
	sb	t1, 6(s0)
	sb	a6, 7(s0)
	srli	a0, a2, 24
	sb	a1, 0(s0)
	sb	a5, 1(s0)
	sb	t0, 2(s0)
	sb	a7, 3(s0)
	srli	a1, a2, 8
	sb	a3, 4(s1)
	sb	t4, 5(s1)
	sb	t2, 6(s1)
	sb	t3, 7(s1)
	sb	a2, 0(s1)
	sb	a1, 1(s1)
	sb	t5, 2(s1)
	sb	a0, 3(s1)
	addi	a0, sp, 8
	call	aes.aes_cipher.zeroize.elements.zeroize_elements.3
	addi	s5, s5, 1
	seqz	a0, s5
	add	s7, s7, a0
	bne	s7, s3, .Laes_BB26_2
# %bb.4:                                #   in Loop: Header=BB26_3 Depth=1
	sltu	a0, s5, s4
	bnez	a0, .Laes_BB26_3
.Laes_BB26_5:                               # %"key_wrap::steps::unwrap_turn::<#10c636071cb6e37c>.exit.loopexit"
	li	s5, 0
	li	s7, 0
	srli	a0, s4, 30
	or	s6, s6, a0
	addi	s8, s8, 1
	j	.Laes_BB26_7
.Laes_BB26_6:                               # %join.5.i.1
                                        #   in Loop: Header=BB26_7 Depth=1
	sltu	a0, s7, s3
	beqz	a0, .Laes_BB26_9
.Laes_BB26_7:                               # %join.5.i.1
                                        # =>This Inner Loop Header: Depth=1
	not	a6, s7
	not	t1, s5
	lbu	a7, 4(s0)
	lbu	t2, 5(s0)
	lbu	t3, 6(s0)
	lbu	t4, 7(s0)
	lbu	t0, 0(s0)
	lbu	t5, 1(s0)
	lbu	t6, 2(s0)
	lbu	s9, 3(s0)
	lui	s1, 16
	add	t1, t1, s4
	add	a6, a6, s3
	addi	a3, s1, -256
	sltu	a4, t1, s4
	slli	s1, t1, 3
	add	a6, a6, s6
	add	t1, t1, s8
	add	s1, s1, s2
	add	a4, a4, a6
	sltu	a5, t1, s8
	srli	a1, t1, 8
	srli	a6, t1, 24
	add	a4, a4, a5
	slli	s10, t1, 24
	and	a0, t1, a3
	slli	t2, t2, 8
	slli	t3, t3, 16
	slli	t4, t4, 24
	slli	t5, t5, 8
	slli	t6, t6, 16
	slli	s9, s9, 24
	and	ra, a1, a3
	slli	t1, a0, 8
	or	a7, t2, a7
	or	t4, t4, t3
	or	t3, t5, t0
	or	a1, s9, t6
	srli	a2, a4, 8
	srli	t0, a4, 24
	slli	t2, a4, 24
	and	a4, a4, a3
	or	a0, ra, a6
	or	a5, s10, t1
	or	a6, t4, a7
	or	a1, a1, t3
	and	a2, a2, a3
	slli	a4, a4, 8
	or	a0, a0, a5
	or	a3, a2, t0
	or	a4, t2, a4
	xor	s9, a0, a6
	or	a3, a3, a4
	srli	a0, s9, 16
	srli	a4, s9, 24
	srli	a5, s9, 8
	xor	s10, a3, a1
	sb	s9, 4(s0)
	sb	a5, 5(s0)
	sb	a0, 6(s0)
	sb	a4, 7(s0)
	srli	a0, s10, 16
	srli	a1, s10, 24
	srli	a4, s10, 8
	sb	s10, 0(s0)
	sb	a4, 1(s0)
	sb	a0, 2(s0)
	sb	a1, 3(s0)
	lbu	a6, 0(s1)
	lbu	a7, 1(s1)
	lbu	t1, 2(s1)
	lbu	t3, 3(s1)
	lbu	t0, 4(s1)
	lbu	a1, 5(s1)
	lbu	a0, 6(s1)
	lbu	a4, 7(s1)
	lbu	t2, 0(s11)
	lbu	t4, 1(s11)
	lbu	t5, 2(s11)
	lbu	t6, 3(s11)
	slli	a7, a7, 8
	slli	t1, t1, 16
	slli	t3, t3, 24
	slli	a1, a1, 8
	slli	a0, a0, 16
	slli	a4, a4, 24
	or	a6, a7, a6
	or	a7, t3, t1
	or	t0, a1, t0
	or	t1, a4, a0
	lbu	a4, 8(s11)
	lbu	a1, 9(s11)
	lbu	a0, 10(s11)
	lbu	a5, 11(s11)
	slli	t4, t4, 8
	slli	t5, t5, 16
	slli	t6, t6, 24
	slli	a1, a1, 8
	slli	a0, a0, 16
	slli	a5, a5, 24
	or	t2, t4, t2
	or	t3, t6, t5
	or	t4, a1, a4
	or	t5, a5, a0
	lbu	a0, 13(s11)
	lbu	a4, 12(s11)
	lbu	a1, 14(s11)
	lbu	a5, 15(s11)
	slli	a0, a0, 8
	or	a4, a4, a0
	slli	a1, a1, 16
	slli	a5, a5, 24
	or	a5, a5, a1
	or	a2, a7, a6
	or	a3, t1, t0
	or	a0, t3, t2
	or	a1, t5, t4
	sw	s10, 8(sp)
	sw	s9, 12(sp)
	sw	a2, 16(sp)
	sw	a3, 20(sp)
	or	a2, a5, a4
	addi	a3, sp, 8
	li	a4, 1
	li	a5, 0
	call	aes.aes_narrow.blocks.process_all_batches.2
	call	aes.aes_cipher.zeroize.stack.wipe_stack.1024
	lw	a0, 12(sp)
	lw	a1, 8(sp)
	lw	a2, 16(sp)
	lw	a3, 20(sp)
	srli	a6, a0, 24
	srli	t1, a0, 16
	srli	a4, a0, 8
	srli	a7, a1, 24
	srli	t0, a1, 16
	srli	a5, a1, 8
	srli	t2, a3, 16
	srli	t3, a3, 24
	srli	t4, a3, 8
	srli	t5, a2, 16
	sb	a0, 4(s0)
	sb	a4, 5(s0)
	sb	t1, 6(s0)
	sb	a6, 7(s0)
	srli	a0, a2, 24
	sb	a1, 0(s0)
	sb	a5, 1(s0)
	sb	t0, 2(s0)
	sb	a7, 3(s0)
	srli	a1, a2, 8
	sb	a3, 4(s1)
	sb	t4, 5(s1)
	sb	t2, 6(s1)
	sb	t3, 7(s1)
	sb	a2, 0(s1)
	sb	a1, 1(s1)
	sb	t5, 2(s1)
	sb	a0, 3(s1)
	addi	a0, sp, 8
	call	aes.aes_cipher.zeroize.elements.zeroize_elements.3
	addi	s5, s5, 1
	seqz	a0, s5
	add	s7, s7, a0
	bne	s7, s3, .Laes_BB26_6
# %bb.8:                                #   in Loop: Header=BB26_7 Depth=1
	sltu	a0, s5, s4
	bnez	a0, .Laes_BB26_7
.Laes_BB26_9:                               # %"key_wrap::steps::unwrap_turn::<#10c636071cb6e37c>.exit.loopexit.1"
	li	s6, 0
	li	s7, 0
	li	a0, 3
	slli	s5, s3, 1
	slli	s8, s4, 1
	mulhu	a0, s4, a0
	add	a1, s5, s3
	add	s9, s8, s4
	add	a0, a0, a1
	addi	s9, s9, 1
	seqz	s10, s9
	add	s10, s10, a0
	j	.Laes_BB26_11
.Laes_BB26_10:                              # %join.5.i.2
                                        #   in Loop: Header=BB26_11 Depth=1
	sltu	a0, s7, s3
	beqz	a0, .Laes_BB26_13
.Laes_BB26_11:                              # %join.5.i.2
                                        # =>This Inner Loop Header: Depth=1
	not	a6, s7
	not	t1, s6
	lbu	a7, 4(s0)
	lbu	t2, 5(s0)
	lbu	t3, 6(s0)
	lbu	t4, 7(s0)
	lbu	t0, 0(s0)
	lbu	t5, 1(s0)
	lbu	t6, 2(s0)
	lbu	ra, 3(s0)
	lui	s1, 16
	add	t1, t1, s4
	add	a6, a6, s3
	addi	a3, s1, -256
	sltu	s1, t1, s4
	slli	a4, t1, 3
	add	t1, t1, s9
	add	a6, a6, s1
	add	s1, s2, a4
	sltu	a4, t1, s9
	srli	a5, t1, 8
	srli	a1, t1, 24
	add	a6, a6, s10
	add	a4, a4, a6
	slli	a6, t1, 24
	and	a0, t1, a3
	slli	t2, t2, 8
	slli	t3, t3, 16
	slli	t4, t4, 24
	slli	t5, t5, 8
	slli	t6, t6, 16
	slli	ra, ra, 24
	and	a5, a5, a3
	slli	t1, a0, 8
	or	a7, t2, a7
	or	t2, t4, t3
	or	a2, t5, t0
	or	a0, ra, t6
	or	a1, a1, a5
	or	a5, a6, t1
	or	a6, t2, a7
	or	a7, a0, a2
	srli	a2, a4, 8
	srli	a0, a4, 24
	slli	t0, a4, 24
	and	a4, a4, a3
	or	a1, a1, a5
	and	a3, a3, a2
	slli	a4, a4, 8
	xor	ra, a1, a6
	or	a0, a0, a3
	or	a1, t0, a4
	srli	a3, ra, 16
	srli	a4, ra, 24
	srli	a5, ra, 8
	or	a0, a0, a1
	sb	ra, 4(s0)
	sb	a5, 5(s0)
	sb	a3, 6(s0)
	sb	a4, 7(s0)
	xor	a3, a0, a7
	srli	a0, a3, 16
	srli	a1, a3, 24
	srli	a4, a3, 8
	sb	a3, 0(s0)
	sb	a4, 1(s0)
	sb	a0, 2(s0)
	sb	a1, 3(s0)
	lbu	a6, 0(s1)
	lbu	a7, 1(s1)
	lbu	t1, 2(s1)
	lbu	t3, 3(s1)
	lbu	t0, 4(s1)
	lbu	a1, 5(s1)
	lbu	a0, 6(s1)
	lbu	a4, 7(s1)
	lbu	t2, 0(s11)
	lbu	t4, 1(s11)
	lbu	t5, 2(s11)
	lbu	t6, 3(s11)
	slli	a7, a7, 8
	slli	t1, t1, 16
	slli	t3, t3, 24
	slli	a1, a1, 8
	slli	a0, a0, 16
	slli	a4, a4, 24
	or	a6, a7, a6
	or	a7, t3, t1
	or	t0, a1, t0
	or	t1, a4, a0
	lbu	a4, 8(s11)
	lbu	a1, 9(s11)
	lbu	a0, 10(s11)
	lbu	a5, 11(s11)
	slli	t4, t4, 8
	slli	t5, t5, 16
	slli	t6, t6, 24
	slli	a1, a1, 8
	slli	a0, a0, 16
	slli	a5, a5, 24
	or	t2, t4, t2
	or	t3, t6, t5
	or	t4, a1, a4
	or	t5, a5, a0
	lbu	a0, 13(s11)
	lbu	a4, 12(s11)
	lbu	a1, 14(s11)
	lbu	a2, 15(s11)
	slli	a0, a0, 8
	or	t6, a0, a4
	slli	a1, a1, 16
	slli	a2, a2, 24
	or	a2, a2, a1
	or	a5, a7, a6
	or	a4, t1, t0
	or	a0, t3, t2
	or	a1, t5, t4
	sw	a3, 8(sp)
	sw	ra, 12(sp)
	sw	a5, 16(sp)
	sw	a4, 20(sp)
	or	a2, a2, t6
	addi	a3, sp, 8
	li	a4, 1
	li	a5, 0
	call	aes.aes_narrow.blocks.process_all_batches.2
	call	aes.aes_cipher.zeroize.stack.wipe_stack.1024
	lw	a0, 12(sp)
	lw	a1, 8(sp)
	lw	a2, 16(sp)
	lw	a3, 20(sp)
	srli	a6, a0, 24
	srli	t1, a0, 16
	srli	a4, a0, 8
	srli	a7, a1, 24
	srli	t0, a1, 16
	srli	a5, a1, 8
	srli	t2, a3, 16
	srli	t3, a3, 24
	srli	t4, a3, 8
	srli	t5, a2, 16
	sb	a0, 4(s0)
	sb	a4, 5(s0)
	sb	t1, 6(s0)
	sb	a6, 7(s0)
	srli	a0, a2, 24
	sb	a1, 0(s0)
	sb	a5, 1(s0)
	sb	t0, 2(s0)
	sb	a7, 3(s0)
	srli	a1, a2, 8
	sb	a3, 4(s1)
	sb	t4, 5(s1)
	sb	t2, 6(s1)
	sb	t3, 7(s1)
	sb	a2, 0(s1)
	sb	a1, 1(s1)
	sb	t5, 2(s1)
	sb	a0, 3(s1)
	addi	a0, sp, 8
	call	aes.aes_cipher.zeroize.elements.zeroize_elements.3
	addi	s6, s6, 1
	seqz	a0, s6
	add	s7, s7, a0
	bne	s7, s3, .Laes_BB26_10
# %bb.12:                               #   in Loop: Header=BB26_11 Depth=1
	sltu	a0, s6, s4
	bnez	a0, .Laes_BB26_11
.Laes_BB26_13:                              # %"key_wrap::steps::unwrap_turn::<#10c636071cb6e37c>.exit.loopexit.2"
	li	s6, 0
	li	s7, 0
	srli	a0, s4, 31
	or	s5, s5, a0
	addi	s8, s8, 1
	j	.Laes_BB26_15
.Laes_BB26_14:                              # %join.5.i.3
                                        #   in Loop: Header=BB26_15 Depth=1
	sltu	a0, s7, s3
	beqz	a0, .Laes_BB26_17
.Laes_BB26_15:                              # %join.5.i.3
                                        # =>This Inner Loop Header: Depth=1
	not	a6, s7
	not	t1, s6
	lbu	a7, 4(s0)
	lbu	t2, 5(s0)
	lbu	t3, 6(s0)
	lbu	t4, 7(s0)
	lbu	t0, 0(s0)
	lbu	t5, 1(s0)
	lbu	t6, 2(s0)
	lbu	s9, 3(s0)
	lui	s1, 16
	add	t1, t1, s4
	add	a6, a6, s3
	addi	a3, s1, -256
	sltu	a4, t1, s4
	slli	s1, t1, 3
	add	a6, a6, s5
	add	t1, t1, s8
	add	s1, s1, s2
	add	a4, a4, a6
	sltu	a5, t1, s8
	srli	a1, t1, 8
	srli	a6, t1, 24
	add	a4, a4, a5
	slli	s10, t1, 24
	and	a0, t1, a3
	slli	t2, t2, 8
	slli	t3, t3, 16
	slli	t4, t4, 24
	slli	t5, t5, 8
	slli	t6, t6, 16
	slli	s9, s9, 24
	and	ra, a1, a3
	slli	t1, a0, 8
	or	a7, t2, a7
	or	t4, t4, t3
	or	t3, t5, t0
	or	a1, s9, t6
	srli	a2, a4, 8
	srli	t0, a4, 24
	slli	t2, a4, 24
	and	a4, a4, a3
	or	a0, ra, a6
	or	a5, s10, t1
	or	a6, t4, a7
	or	a1, a1, t3
	and	a2, a2, a3
	slli	a4, a4, 8
	or	a0, a0, a5
	or	a3, a2, t0
	or	a4, t2, a4
	xor	s9, a0, a6
	or	a3, a3, a4
	srli	a0, s9, 16
	srli	a4, s9, 24
	srli	a5, s9, 8
	xor	s10, a3, a1
	sb	s9, 4(s0)
	sb	a5, 5(s0)
	sb	a0, 6(s0)
	sb	a4, 7(s0)
	srli	a0, s10, 16
	srli	a1, s10, 24
	srli	a4, s10, 8
	sb	s10, 0(s0)
	sb	a4, 1(s0)
	sb	a0, 2(s0)
	sb	a1, 3(s0)
	lbu	a6, 0(s1)
	lbu	a7, 1(s1)
	lbu	t1, 2(s1)
	lbu	t3, 3(s1)
	lbu	t0, 4(s1)
	lbu	a1, 5(s1)
	lbu	a0, 6(s1)
	lbu	a4, 7(s1)
	lbu	t2, 0(s11)
	lbu	t4, 1(s11)
	lbu	t5, 2(s11)
	lbu	t6, 3(s11)
	slli	a7, a7, 8
	slli	t1, t1, 16
	slli	t3, t3, 24
	slli	a1, a1, 8
	slli	a0, a0, 16
	slli	a4, a4, 24
	or	a6, a7, a6
	or	a7, t3, t1
	or	t0, a1, t0
	or	t1, a4, a0
	lbu	a4, 8(s11)
	lbu	a1, 9(s11)
	lbu	a0, 10(s11)
	lbu	a5, 11(s11)
	slli	t4, t4, 8
	slli	t5, t5, 16
	slli	t6, t6, 24
	slli	a1, a1, 8
	slli	a0, a0, 16
	slli	a5, a5, 24
	or	t2, t4, t2
	or	t3, t6, t5
	or	t4, a1, a4
	or	t5, a5, a0
	lbu	a0, 13(s11)
	lbu	a4, 12(s11)
	lbu	a1, 14(s11)
	lbu	a5, 15(s11)
	slli	a0, a0, 8
	or	a4, a4, a0
	slli	a1, a1, 16
	slli	a5, a5, 24
	or	a5, a5, a1
	or	a2, a7, a6
	or	a3, t1, t0
	or	a0, t3, t2
	or	a1, t5, t4
	sw	s10, 8(sp)
	sw	s9, 12(sp)
	sw	a2, 16(sp)
	sw	a3, 20(sp)
	or	a2, a5, a4
	addi	a3, sp, 8
	li	a4, 1
	li	a5, 0
	call	aes.aes_narrow.blocks.process_all_batches.2
	call	aes.aes_cipher.zeroize.stack.wipe_stack.1024
	lw	a0, 12(sp)
	lw	a1, 8(sp)
	lw	a2, 16(sp)
	lw	a3, 20(sp)
	srli	a6, a0, 24
	srli	t1, a0, 16
	srli	a4, a0, 8
	srli	a7, a1, 24
	srli	t0, a1, 16
	srli	a5, a1, 8
	srli	t2, a3, 16
	srli	t3, a3, 24
	srli	t4, a3, 8
	srli	t5, a2, 16
	sb	a0, 4(s0)
	sb	a4, 5(s0)
	sb	t1, 6(s0)
	sb	a6, 7(s0)
	srli	a0, a2, 24
	sb	a1, 0(s0)
	sb	a5, 1(s0)
	sb	t0, 2(s0)
	sb	a7, 3(s0)
	srli	a1, a2, 8
	sb	a3, 4(s1)
	sb	t4, 5(s1)
	sb	t2, 6(s1)
	sb	t3, 7(s1)
	sb	a2, 0(s1)
	sb	a1, 1(s1)
	sb	t5, 2(s1)
	sb	a0, 3(s1)
	addi	a0, sp, 8
	call	aes.aes_cipher.zeroize.elements.zeroize_elements.3
	addi	s6, s6, 1
	seqz	a0, s6
	add	s7, s7, a0
	bne	s7, s3, .Laes_BB26_14
# %bb.16:                               #   in Loop: Header=BB26_15 Depth=1
	sltu	a0, s6, s4
	bnez	a0, .Laes_BB26_15
.Laes_BB26_17:                              # %"key_wrap::steps::unwrap_turn::<#10c636071cb6e37c>.exit.loopexit.3"
	li	s5, 0
	li	s6, 0
	addi	s7, s4, 1
	seqz	s8, s7
	add	s8, s8, s3
	j	.Laes_BB26_19
.Laes_BB26_18:                              # %join.5.i.4
                                        #   in Loop: Header=BB26_19 Depth=1
	sltu	a0, s6, s3
	beqz	a0, .Laes_BB26_21
.Laes_BB26_19:                              # %join.5.i.4
                                        # =>This Inner Loop Header: Depth=1
	not	a6, s6
	not	t1, s5
	lbu	a7, 4(s0)
	lbu	t2, 5(s0)
	lbu	t3, 6(s0)
	lbu	t4, 7(s0)
	lbu	t0, 0(s0)
	lbu	t5, 1(s0)
	lbu	t6, 2(s0)
	lbu	s9, 3(s0)
	lui	s1, 16
	add	t1, t1, s4
	add	a6, a6, s3
	addi	a3, s1, -256
	sltu	s1, t1, s4
	slli	a4, t1, 3
	add	t1, t1, s7
	add	a6, a6, s1
	add	s1, s2, a4
	sltu	a4, t1, s7
	srli	a5, t1, 8
	srli	s10, t1, 24
	add	a6, a6, s8
	add	a4, a4, a6
	slli	a6, t1, 24
	and	a0, t1, a3
	slli	t2, t2, 8
	slli	t3, t3, 16
	slli	t4, t4, 24
	slli	t5, t5, 8
	slli	t6, t6, 16
	slli	s9, s9, 24
	and	a5, a5, a3
	slli	t1, a0, 8
	or	a7, t2, a7
	or	a2, t4, t3
	or	a0, t5, t0
	or	a1, s9, t6
	or	t0, a5, s10
	or	a5, a6, t1
	or	a7, a2, a7
	or	a6, a1, a0
	srli	a1, a4, 8
	srli	a0, a4, 24
	slli	a2, a4, 24
	and	a4, a4, a3
	or	a5, a5, t0
	and	a1, a1, a3
	slli	a3, a4, 8
	xor	s9, a5, a7
	or	a0, a0, a1
	or	a2, a2, a3
	srli	a1, s9, 16
	srli	a3, s9, 24
	srli	a5, s9, 8
	or	a0, a0, a2
	sb	s9, 4(s0)
	sb	a5, 5(s0)
	sb	a1, 6(s0)
	sb	a3, 7(s0)
	xor	s10, a0, a6
	srli	a0, s10, 16
	srli	a1, s10, 24
	srli	a2, s10, 8
	sb	s10, 0(s0)
	sb	a2, 1(s0)
	sb	a0, 2(s0)
	sb	a1, 3(s0)
	lbu	a6, 0(s1)
	lbu	a7, 1(s1)
	lbu	t1, 2(s1)
	lbu	t3, 3(s1)
	lbu	t0, 4(s1)
	lbu	a1, 5(s1)
	lbu	a0, 6(s1)
	lbu	a2, 7(s1)
	lbu	t2, 0(s11)
	lbu	t4, 1(s11)
	lbu	t5, 2(s11)
	lbu	t6, 3(s11)
	slli	a7, a7, 8
	slli	t1, t1, 16
	slli	t3, t3, 24
	slli	a1, a1, 8
	slli	a0, a0, 16
	slli	a2, a2, 24
	or	a6, a7, a6
	or	a7, t3, t1
	or	t0, a1, t0
	or	t1, a2, a0
	lbu	a2, 8(s11)
	lbu	a1, 9(s11)
	lbu	a0, 10(s11)
	lbu	a5, 11(s11)
	slli	t4, t4, 8
	slli	t5, t5, 16
	slli	t6, t6, 24
	slli	a1, a1, 8
	slli	a0, a0, 16
	slli	a5, a5, 24
	or	t2, t4, t2
	or	t3, t6, t5
	or	t4, a1, a2
	or	t5, a5, a0
	lbu	a0, 13(s11)
	lbu	a2, 12(s11)
	lbu	a1, 14(s11)
	lbu	a4, 15(s11)
	slli	a0, a0, 8
	or	a2, a2, a0
	slli	a1, a1, 16
	slli	a4, a4, 24
	or	a4, a4, a1
	or	a5, a7, a6
	or	a3, t1, t0
	or	a0, t3, t2
	or	a1, t5, t4
	sw	s10, 8(sp)
	sw	s9, 12(sp)
	sw	a5, 16(sp)
	sw	a3, 20(sp)
	or	a2, a2, a4
	addi	a3, sp, 8
	li	a4, 1
	li	a5, 0
	call	aes.aes_narrow.blocks.process_all_batches.2
	call	aes.aes_cipher.zeroize.stack.wipe_stack.1024
	lw	a0, 12(sp)
	lw	a1, 8(sp)
	lw	a2, 16(sp)
	lw	a3, 20(sp)
	srli	a6, a0, 24
	srli	t1, a0, 16
	srli	a4, a0, 8
	srli	a7, a1, 24
	srli	t0, a1, 16
	srli	a5, a1, 8
	srli	t2, a3, 16
	srli	t3, a3, 24
	srli	t4, a3, 8
	srli	t5, a2, 16
	sb	a0, 4(s0)
	sb	a4, 5(s0)
	sb	t1, 6(s0)
	sb	a6, 7(s0)
	srli	a0, a2, 24
	sb	a1, 0(s0)
	sb	a5, 1(s0)
	sb	t0, 2(s0)
	sb	a7, 3(s0)
	srli	a1, a2, 8
	sb	a3, 4(s1)
	sb	t4, 5(s1)
	sb	t2, 6(s1)
	sb	t3, 7(s1)
	sb	a2, 0(s1)
	sb	a1, 1(s1)
	sb	t5, 2(s1)
	sb	a0, 3(s1)
	addi	a0, sp, 8
	call	aes.aes_cipher.zeroize.elements.zeroize_elements.3
	addi	s5, s5, 1
	seqz	a0, s5
	add	s6, s6, a0
	bne	s6, s3, .Laes_BB26_18
# %bb.20:                               #   in Loop: Header=BB26_19 Depth=1
	sltu	a0, s5, s4
	bnez	a0, .Laes_BB26_19
.Laes_BB26_21:                              # %join.5.i.5.preheader
	li	s5, 0
	li	s6, 0
	j	.Laes_BB26_23
.Laes_BB26_22:                              # %join.5.i.5
                                        #   in Loop: Header=BB26_23 Depth=1
	sltu	a0, s6, s3
	beqz	a0, .Laes_BB26_25
.Laes_BB26_23:                              # %join.5.i.5
                                        # =>This Inner Loop Header: Depth=1
	not	t3, s5
	sltu	a2, s4, s5
	sub	a3, s3, s6
	sub	a4, s4, s5
	lbu	a6, 4(s0)
	lbu	t0, 5(s0)
	lbu	t1, 6(s0)
	lbu	t2, 7(s0)
	lbu	a7, 0(s0)
	lbu	t4, 1(s0)
	lbu	t5, 2(s0)
	lbu	t6, 3(s0)
	lui	s1, 16
	add	t3, t3, s4
	sub	a3, a3, a2
	addi	a2, s1, -256
	srli	s1, a4, 8
	srli	a5, a4, 24
	srli	a1, a3, 8
	and	s1, s1, a2
	or	s7, s1, a5
	srli	s1, a3, 24
	and	a1, a1, a2
	or	s8, a1, s1
	slli	a0, a4, 24
	slli	t3, t3, 3
	and	a4, a4, a2
	and	a2, a2, a3
	slli	a3, a3, 24
	add	s1, s2, t3
	slli	a2, a2, 8
	slli	a4, a4, 8
	slli	t0, t0, 8
	slli	t1, t1, 16
	slli	t2, t2, 24
	slli	t4, t4, 8
	slli	t5, t5, 16
	slli	t6, t6, 24
	or	a2, a2, a3
	or	a0, a0, a4
	or	a3, t0, a6
	or	a4, t2, t1
	or	a5, t4, a7
	or	a1, t6, t5
	or	a2, a2, s8
	or	a0, a0, s7
	or	a3, a3, a4
	or	a1, a1, a5
	xor	a6, a2, a1
	xor	a7, a0, a3
	srli	a0, a7, 16
	srli	a1, a7, 24
	srli	a4, a7, 8
	srli	a5, a6, 16
	srli	a2, a6, 24
	srli	a3, a6, 8
	sb	a7, 4(s0)
	sb	a4, 5(s0)
	sb	a0, 6(s0)
	sb	a1, 7(s0)
	sb	a6, 0(s0)
	sb	a3, 1(s0)
	sb	a5, 2(s0)
	sb	a2, 3(s0)
	lbu	t0, 0(s1)
	lbu	t1, 1(s1)
	lbu	t4, 2(s1)
	lbu	t5, 3(s1)
	lbu	t3, 4(s1)
	lbu	a5, 5(s1)
	lbu	a0, 6(s1)
	lbu	a1, 7(s1)
	lbu	t2, 0(s11)
	lbu	t6, 1(s11)
	lbu	a2, 2(s11)
	lbu	a3, 3(s11)
	slli	t1, t1, 8
	slli	t4, t4, 16
	slli	t5, t5, 24
	slli	a5, a5, 8
	slli	a0, a0, 16
	slli	a1, a1, 24
	or	t0, t1, t0
	or	t1, t5, t4
	or	t3, a5, t3
	or	t4, a1, a0
	lbu	a1, 8(s11)
	lbu	a5, 9(s11)
	lbu	a0, 10(s11)
	lbu	a4, 11(s11)
	slli	t6, t6, 8
	slli	a2, a2, 16
	slli	a3, a3, 24
	slli	a5, a5, 8
	slli	a0, a0, 16
	slli	a4, a4, 24
	or	t2, t6, t2
	or	t6, a3, a2
	or	t5, a5, a1
	or	s7, a4, a0
	lbu	a0, 13(s11)
	lbu	a3, 12(s11)
	lbu	a5, 14(s11)
	lbu	a1, 15(s11)
	slli	a0, a0, 8
	or	a3, a3, a0
	slli	a5, a5, 16
	slli	a1, a1, 24
	or	a5, a5, a1
	or	a2, t1, t0
	or	a4, t4, t3
	or	a0, t6, t2
	or	a1, s7, t5
	sw	a6, 8(sp)
	sw	a7, 12(sp)
	sw	a2, 16(sp)
	sw	a4, 20(sp)
	or	a2, a5, a3
	addi	a3, sp, 8
	li	a4, 1
	li	a5, 0
	call	aes.aes_narrow.blocks.process_all_batches.2
	call	aes.aes_cipher.zeroize.stack.wipe_stack.1024
	lw	a0, 12(sp)
	lw	a1, 8(sp)
	lw	a2, 16(sp)
	lw	a3, 20(sp)
	srli	a6, a0, 24
	srli	t1, a0, 16
	srli	a4, a0, 8
	srli	a7, a1, 24
	srli	t0, a1, 16
	srli	a5, a1, 8
	srli	t2, a3, 16
	srli	t3, a3, 24
	srli	t4, a3, 8
	srli	t5, a2, 16
	sb	a0, 4(s0)
	sb	a4, 5(s0)
	sb	t1, 6(s0)
	sb	a6, 7(s0)
	srli	a0, a2, 24
	sb	a1, 0(s0)
	sb	a5, 1(s0)
	sb	t0, 2(s0)
	sb	a7, 3(s0)
	srli	a1, a2, 8
	sb	a3, 4(s1)
	sb	t4, 5(s1)
	sb	t2, 6(s1)
	sb	t3, 7(s1)
	sb	a2, 0(s1)
	sb	a1, 1(s1)
	sb	t5, 2(s1)
	sb	a0, 3(s1)
	addi	a0, sp, 8
	call	aes.aes_cipher.zeroize.elements.zeroize_elements.3
	addi	s5, s5, 1
	seqz	a0, s5
	add	s6, s6, a0
	bne	s6, s3, .Laes_BB26_22
# %bb.24:                               #   in Loop: Header=BB26_23 Depth=1
	sltu	a0, s5, s4
	bnez	a0, .Laes_BB26_23
.Laes_BB26_25:                              # %after.1
	lw	ra, 76(sp)                      # 4-byte Folded Reload
	lw	s0, 72(sp)                      # 4-byte Folded Reload
	lw	s1, 68(sp)                      # 4-byte Folded Reload
	lw	s2, 64(sp)                      # 4-byte Folded Reload
	lw	s3, 60(sp)                      # 4-byte Folded Reload
	lw	s4, 56(sp)                      # 4-byte Folded Reload
	lw	s5, 52(sp)                      # 4-byte Folded Reload
	lw	s6, 48(sp)                      # 4-byte Folded Reload
	lw	s7, 44(sp)                      # 4-byte Folded Reload
	lw	s8, 40(sp)                      # 4-byte Folded Reload
	lw	s9, 36(sp)                      # 4-byte Folded Reload
	lw	s10, 32(sp)                     # 4-byte Folded Reload
	lw	s11, 28(sp)                     # 4-byte Folded Reload
	addi	sp, sp, 80
	ret
.Laes_func_end26:
	.size	aes.key_wrap.steps.unwrap_in_place, .Laes_func_end26-aes.key_wrap.steps.unwrap_in_place
                                        # -- End function
	.section	.text.aes.aes_cipher.zeroize.elements.zeroize_elements.3,"ax",@progbits
	.p2align	1                               # -- Begin function aes_cipher::zeroize::elements::zeroize_elements::<#51e2d7e6a2c2e10f>
	.type	aes.aes_cipher.zeroize.elements.zeroize_elements.3,@function
aes.aes_cipher.zeroize.elements.zeroize_elements.3: # @aes.aes_cipher.zeroize.elements.zeroize_elements.3
# %bb.0:                                # %start
	addi	sp, sp, -16
	sw	ra, 12(sp)                      # 4-byte Folded Spill
	sw	zero, 0(sp)
	sw	zero, 4(sp)
	#APP
	#NO_APP
	lw	zero, 4(sp)
	lw	zero, 0(sp)
	#APP
	#NO_APP
	li	a2, 16
	li	a1, 0
	call	memset
	#APP
	#NO_APP
	lw	zero, 4(sp)
	lw	zero, 0(sp)
	sw	zero, 4(sp)
	sw	zero, 0(sp)
	#APP
	#NO_APP
	lw	ra, 12(sp)                      # 4-byte Folded Reload
	addi	sp, sp, 16
	ret
.Laes_func_end27:
	.size	aes.aes_cipher.zeroize.elements.zeroize_elements.3, .Laes_func_end27-aes.aes_cipher.zeroize.elements.zeroize_elements.3
                                        # -- End function
	.section	.text.aes.aes_cipher.blocks.difference,"ax",@progbits
	.p2align	1                               # -- Begin function aes_cipher::blocks::difference
	.type	aes.aes_cipher.blocks.difference,@function
aes.aes_cipher.blocks.difference:       # @aes.aes_cipher.blocks.difference
# %bb.0:                                # %start
	addi	sp, sp, -32
	sw	s0, 28(sp)                      # 4-byte Folded Spill
	sw	s1, 24(sp)                      # 4-byte Folded Spill
	sw	s2, 20(sp)                      # 4-byte Folded Spill
	sw	s3, 16(sp)                      # 4-byte Folded Spill
	sw	s4, 12(sp)                      # 4-byte Folded Spill
	sw	s5, 8(sp)                       # 4-byte Folded Spill
	sw	s6, 4(sp)                       # 4-byte Folded Spill
	lbu	t3, 0(a0)
	lbu	t6, 1(a0)
	lbu	a6, 2(a0)
	lbu	a7, 3(a0)
	lbu	a4, 0(a1)
	lbu	a5, 1(a1)
	lbu	t0, 2(a1)
	lbu	t1, 3(a1)
	lbu	t2, 4(a0)
	lbu	t5, 5(a0)
	lbu	t4, 6(a0)
	lbu	s2, 7(a0)
	lbu	a3, 4(a1)
	lbu	s0, 5(a1)
	lbu	s1, 6(a1)
	lbu	s6, 7(a1)
	xor	t3, a4, t3
	xor	t6, a5, t6
	lbu	a4, 8(a0)
	lbu	s3, 9(a0)
	lbu	s4, 10(a0)
	lbu	s5, 11(a0)
	xor	a6, t0, a6
	xor	a7, t1, a7
	xor	t0, a3, t2
	xor	t1, s0, t5
	lbu	a3, 8(a1)
	lbu	s0, 9(a1)
	lbu	a5, 10(a1)
	lbu	a2, 11(a1)
	xor	t2, s1, t4
	xor	t4, s6, s2
	xor	t5, a3, a4
	lbu	s2, 12(a0)
	lbu	s1, 13(a0)
	lbu	a3, 14(a0)
	lbu	a0, 15(a0)
	xor	s6, s0, s3
	xor	s3, a5, s4
	xor	a2, a2, s5
	lbu	a4, 12(a1)
	lbu	a5, 13(a1)
	lbu	s0, 14(a1)
	lbu	a1, 15(a1)
	xor	a4, a4, s2
	xor	a5, a5, s1
	xor	a3, a3, s0
	xor	s2, a1, a0
	or	a1, t6, t3
	or	s1, a7, a6
	or	s0, t1, t0
	or	a0, t5, t4
	or	a2, a2, a4
	or	a1, a1, s1
	or	a4, t2, s0
	or	a0, s6, a0
	or	a2, a2, a5
	or	a1, a1, a4
	or	a0, s3, a0
	or	a2, a2, a3
	or	a0, a0, a1
	or	a1, s2, a2
	or	a0, a0, a1
	lw	s0, 28(sp)                      # 4-byte Folded Reload
	lw	s1, 24(sp)                      # 4-byte Folded Reload
	lw	s2, 20(sp)                      # 4-byte Folded Reload
	lw	s3, 16(sp)                      # 4-byte Folded Reload
	lw	s4, 12(sp)                      # 4-byte Folded Reload
	lw	s5, 8(sp)                       # 4-byte Folded Reload
	lw	s6, 4(sp)                       # 4-byte Folded Reload
	addi	sp, sp, 32
	ret
.Laes_func_end28:
	.size	aes.aes_cipher.blocks.difference, .Laes_func_end28-aes.aes_cipher.blocks.difference
                                        # -- End function
	.section	.text.aes.key_wrap.padded.unwrap_padded,"ax",@progbits
	.p2align	1                               # -- Begin function key_wrap::padded::unwrap_padded::<#10c636071cb6e37c>
	.type	aes.key_wrap.padded.unwrap_padded,@function
aes.key_wrap.padded.unwrap_padded: # @aes.key_wrap.padded.unwrap_padded
# %bb.0:                                # %start
	addi	sp, sp, -64
	sw	ra, 60(sp)                      # 4-byte Folded Spill
	sw	s0, 56(sp)                      # 4-byte Folded Spill
	sw	s1, 52(sp)                      # 4-byte Folded Spill
	sw	s2, 48(sp)                      # 4-byte Folded Spill
	sw	s3, 44(sp)                      # 4-byte Folded Spill
	sw	s4, 40(sp)                      # 4-byte Folded Spill
	sw	s5, 36(sp)                      # 4-byte Folded Spill
	sw	s6, 32(sp)                      # 4-byte Folded Spill
	sw	s7, 28(sp)                      # 4-byte Folded Spill
	mv	s7, a5
	mv	s4, a1
	seqz	a1, a6
	addi	s6, a6, -1
	sub	a1, a7, a1
	srli	a5, s6, 29
	or	a1, a1, a5
	mv	s5, a0
	bnez	a1, .Laes_BB29_5
# %bb.1:                                # %start
	mv	s3, a7
	mv	s2, a6
	addi	a0, a6, 1
	seqz	a1, a0
	add	a1, a1, a7
	xor	a0, a0, a3
	xor	a1, a1, a4
	or	a0, a0, a1
	bnez	a0, .Laes_BB29_5
# %bb.2:                                # %after.1
	addi	a1, a2, 8
	seqz	a5, a3
	addi	a6, a3, -1
	sub	a7, a4, a5
	srli	a3, a6, 29
	sltu	s0, s7, a1
	slli	a5, a7, 3
	or	a5, a5, a3
	neg	s0, s0
	slli	a3, a6, 3
	beq	s0, a5, .Laes_BB29_6
# %bb.3:                                # %after.1
	sltu	a5, s0, a5
	bnez	a5, .Laes_BB29_7
.Laes_BB29_4:                               # %apart.2.i.i.i.i.i.i.i
	mv	a0, s7
	mv	s0, a2
	mv	a2, a3
	call	memmove
	mv	a2, s0
	j	.Laes_BB29_11
.Laes_BB29_5:                               # %join.5
	li	a0, 1
	sb	zero, 6(s5)
	sb	zero, 7(s5)
	sb	a0, 0(s5)
	sb	zero, 1(s5)
	j	.Laes_BB29_16
.Laes_BB29_6:
	sub	a5, s7, a1
	sltu	a5, a5, a3
	beqz	a5, .Laes_BB29_4
.Laes_BB29_7:                               # %join.7.i.i.i.i.i.i.i.preheader
	li	a0, 0
	li	t0, 0
	j	.Laes_BB29_9
.Laes_BB29_8:                               # %join.7.i.i.i.i.i.i.i
                                        #   in Loop: Header=BB29_9 Depth=1
	sltu	s0, t0, a7
	beqz	s0, .Laes_BB29_11
.Laes_BB29_9:                               # %join.7.i.i.i.i.i.i.i
                                        # =>This Inner Loop Header: Depth=1
	slli	s1, a0, 3
	addi	a0, a0, 1
	add	a3, s7, s1
	add	s1, s1, a1
	seqz	a5, a0
	lbu	t4, 0(s1)
	lbu	t3, 1(s1)
	lbu	t1, 2(s1)
	lbu	t2, 3(s1)
	add	t0, t0, a5
	lbu	a5, 4(s1)
	lbu	a4, 5(s1)
	lbu	s0, 6(s1)
	lbu	s1, 7(s1)
	sb	a5, 4(a3)
	sb	a4, 5(a3)
	sb	s0, 6(a3)
	sb	s1, 7(a3)
	sb	t4, 0(a3)
	sb	t3, 1(a3)
	sb	t1, 2(a3)
	sb	t2, 3(a3)
	bne	t0, a7, .Laes_BB29_8
# %bb.10:                               #   in Loop: Header=BB29_9 Depth=1
	sltu	s0, a0, a6
	bnez	s0, .Laes_BB29_9
.Laes_BB29_11:                              # %"key_wrap::wrapping::copy_apart.exit"
	lbu	a0, 1(a2)
	lbu	a1, 2(a2)
	lbu	a3, 3(a2)
	lbu	a4, 0(a2)
	slli	a0, a0, 8
	slli	a1, a1, 16
	slli	a3, a3, 24
	or	a0, a0, a4
	or	a1, a1, a3
	lbu	a3, 5(a2)
	lbu	a4, 4(a2)
	lbu	a5, 6(a2)
	lbu	a2, 7(a2)
	slli	a3, a3, 8
	or	a3, a3, a4
	slli	a5, a5, 16
	slli	a2, a2, 24
	or	a5, a5, a2
	or	t3, a1, a0
	xori	a0, s2, 1
	or	a0, a0, s3
	or	t4, a5, a3
	sw	t3, 0(sp)
	sw	t4, 4(sp)
	bnez	a0, .Laes_BB29_13
# %bb.12:                               # %"key_wrap::steps::unwrap_string::<#10c636071cb6e37c>.exit.thread"
	lbu	a0, 0(s7)
	lbu	a1, 1(s7)
	lbu	a7, 2(s7)
	lbu	t1, 3(s7)
	lbu	a6, 4(s7)
	lbu	t2, 5(s7)
	lbu	s1, 6(s7)
	lbu	a4, 7(s7)
	slli	a1, a1, 8
	or	t0, a1, a0
	lbu	a1, 0(s4)
	lbu	a0, 1(s4)
	lbu	a5, 2(s4)
	lbu	s0, 3(s4)
	slli	a7, a7, 16
	slli	t1, t1, 24
	slli	t2, t2, 8
	slli	s1, s1, 16
	slli	a4, a4, 24
	slli	a0, a0, 8
	or	a7, t1, a7
	or	a6, t2, a6
	or	t2, a4, s1
	or	t1, a0, a1
	lbu	a1, 8(s4)
	lbu	s1, 9(s4)
	lbu	a0, 10(s4)
	lbu	a4, 11(s4)
	slli	a5, a5, 16
	slli	s0, s0, 24
	slli	s1, s1, 8
	slli	a0, a0, 16
	slli	a4, a4, 24
	or	a5, a5, s0
	or	a1, a1, s1
	or	a4, a4, a0
	lbu	a0, 13(s4)
	lbu	s1, 12(s4)
	lbu	s0, 14(s4)
	lbu	a2, 15(s4)
	slli	a0, a0, 8
	or	s1, s1, a0
	slli	s0, s0, 16
	slli	a2, a2, 24
	or	a2, a2, s0
	or	s0, a7, t0
	or	a3, t2, a6
	or	a0, a5, t1
	or	a1, a1, a4
	sw	t3, 8(sp)
	sw	t4, 12(sp)
	sw	s0, 16(sp)
	sw	a3, 20(sp)
	or	a2, a2, s1
	addi	a3, sp, 8
	li	a4, 1
	li	a5, 0
	call	aes.aes_narrow.blocks.process_all_batches.2
	call	aes.aes_cipher.zeroize.stack.wipe_stack.1024
	lw	a0, 20(sp)
	lw	s4, 8(sp)
	lw	s0, 12(sp)
	lw	a1, 16(sp)
	srli	a2, a0, 24
	srli	a3, a0, 16
	srli	a4, a0, 8
	srli	a5, a1, 24
	srli	s1, a1, 16
	sb	a0, 4(s7)
	sb	a4, 5(s7)
	sb	a3, 6(s7)
	sb	a2, 7(s7)
	srli	a0, a1, 8
	sb	a1, 0(s7)
	sb	a0, 1(s7)
	sb	s1, 2(s7)
	sb	a5, 3(s7)
	addi	a0, sp, 8
	call	aes.aes_cipher.zeroize.elements.zeroize_elements.3
	mv	a0, s4
	mv	a1, s0
	mv	a2, s7
	mv	a3, s2
	mv	a4, s3
	call	aes.key_wrap.padded.difference
	or	a0, a0, a1
	bnez	a0, .Laes_BB29_15
	j	.Laes_BB29_18
.Laes_BB29_13:                              # %"key_wrap::steps::unwrap_string::<#10c636071cb6e37c>.exit"
	mv	a1, sp
	mv	a0, s4
	mv	a2, s7
	mv	a3, s2
	mv	a4, s3
	call	aes.key_wrap.steps.unwrap_in_place
	lw	a0, 0(sp)
	lw	s0, 4(sp)
	mv	a1, s0
	mv	a2, s7
	mv	a3, s2
	mv	a4, s3
	call	aes.key_wrap.padded.difference
	or	a0, a0, a1
	beqz	a0, .Laes_BB29_18
# %bb.14:                               # %join.8.i.preheader
	slli	a2, s2, 3
	addi	a2, a2, -8
	mv	a0, s7
	li	a1, 0
	call	memset
.Laes_BB29_15:                              # %"core::slice::edits::slice+T::fill::<#1e8902aced0720be>.exit"
	slli	s6, s6, 3
	add	s6, s6, s7
	li	a0, 1
	sb	zero, 4(s6)
	sb	zero, 5(s6)
	sb	zero, 6(s6)
	sb	zero, 7(s6)
	sb	zero, 0(s6)
	sb	zero, 1(s6)
	sb	zero, 2(s6)
	sb	zero, 3(s6)
	sb	zero, 6(s5)
	sb	zero, 7(s5)
	sb	a0, 0(s5)
	sb	a0, 1(s5)
.Laes_BB29_16:                              # %common.ret
	sb	zero, 4(s5)
	sb	zero, 5(s5)
.Laes_BB29_17:                              # %common.ret
	lw	ra, 60(sp)                      # 4-byte Folded Reload
	lw	s0, 56(sp)                      # 4-byte Folded Reload
	lw	s1, 52(sp)                      # 4-byte Folded Reload
	lw	s2, 48(sp)                      # 4-byte Folded Reload
	lw	s3, 44(sp)                      # 4-byte Folded Reload
	lw	s4, 40(sp)                      # 4-byte Folded Reload
	lw	s5, 36(sp)                      # 4-byte Folded Reload
	lw	s6, 32(sp)                      # 4-byte Folded Reload
	lw	s7, 28(sp)                      # 4-byte Folded Reload
	addi	sp, sp, 64
	ret
.Laes_BB29_18:                              # %join.16
	srli	a0, s0, 24
	srli	a1, s0, 8
	srli	a2, s0, 16
	sb	a1, 6(s5)
	sb	s0, 7(s5)
	sb	zero, 0(s5)
	sb	zero, 1(s5)
	sb	a0, 4(s5)
	sb	a2, 5(s5)
	j	.Laes_BB29_17
.Laes_func_end29:
	.size	aes.key_wrap.padded.unwrap_padded, .Laes_func_end29-aes.key_wrap.padded.unwrap_padded
                                        # -- End function
	.section	.text.aes.key_wrap.padded.difference,"ax",@progbits
	.p2align	1                               # -- Begin function key_wrap::padded::difference
	.type	aes.key_wrap.padded.difference,@function
aes.key_wrap.padded.difference:         # @aes.key_wrap.padded.difference
# %bb.0:                                # %start
	addi	sp, sp, -48
	sw	ra, 44(sp)                      # 4-byte Folded Spill
	sw	s0, 40(sp)                      # 4-byte Folded Spill
	sw	s1, 36(sp)                      # 4-byte Folded Spill
	sw	s2, 32(sp)                      # 4-byte Folded Spill
	sw	s3, 28(sp)                      # 4-byte Folded Spill
	sw	s4, 24(sp)                      # 4-byte Folded Spill
	sw	s5, 20(sp)                      # 4-byte Folded Spill
	sw	s6, 16(sp)                      # 4-byte Folded Spill
	sw	s7, 12(sp)                      # 4-byte Folded Spill
	sw	s8, 8(sp)                       # 4-byte Folded Spill
	srli	a5, a0, 8
	lui	a6, 16
	srli	s0, a0, 24
	srli	s1, a3, 29
	slli	a4, a4, 3
	or	a7, a4, s1
	srli	s1, a1, 8
	addi	a4, a6, -256
	and	a5, a5, a4
	or	a5, a5, s0
	srli	s0, a1, 24
	and	s1, s1, a4
	or	s0, s0, s1
	slli	s1, a0, 24
	and	a0, a0, a4
	slli	a0, a0, 8
	or	a0, a0, s1
	and	a4, a4, a1
	slli	a1, a1, 24
	slli	a3, a3, 3
	add	s1, a2, a3
	slli	a4, a4, 8
	or	a1, a1, a4
	lbu	s5, -1(s1)
	or	s2, a0, a5
	or	a1, a1, s0
	sltu	a0, a3, a1
	sub	s4, a3, a1
	sub	s3, a7, a0
	andi	s0, s4, 7
	li	a0, 0
	mv	a1, s0
	call	aes.key_wrap.padded.mask_below
	lbu	s6, -2(s1)
	and	s5, a0, s5
	li	a0, 1
	mv	a1, s0
	call	aes.key_wrap.padded.mask_below
	lbu	s7, -3(s1)
	and	a0, a0, s6
	or	s5, a0, s5
	li	a0, 2
	mv	a1, s0
	call	aes.key_wrap.padded.mask_below
	lbu	s6, -4(s1)
	and	s7, a0, s7
	li	a0, 3
	mv	a1, s0
	call	aes.key_wrap.padded.mask_below
	lbu	s8, -5(s1)
	and	a0, a0, s6
	or	a0, s7, a0
	or	s5, s5, a0
	li	a0, 4
	mv	a1, s0
	call	aes.key_wrap.padded.mask_below
	lbu	s6, -6(s1)
	and	s7, a0, s8
	li	a0, 5
	mv	a1, s0
	call	aes.key_wrap.padded.mask_below
	lbu	s8, -7(s1)
	and	a0, a0, s6
	or	s6, s7, a0
	li	a0, 6
	mv	a1, s0
	call	aes.key_wrap.padded.mask_below
	lbu	s1, -8(s1)
	and	a0, a0, s8
	or	a0, s6, a0
	or	s5, s5, a0
	li	a0, 7
	mv	a1, s0
	call	aes.key_wrap.padded.mask_below
	and	a0, a0, s1
	lui	a2, 367210
	srli	a3, s4, 3
	or	a0, s5, a0
	slli	a4, s3, 29
	srli	a1, s3, 3
	addi	a2, a2, 1626
	add	a2, a2, s2
	or	a2, a2, a3
	or	a2, a2, a4
	zext.b	a0, a0
	or	a0, a0, a2
	lw	ra, 44(sp)                      # 4-byte Folded Reload
	lw	s0, 40(sp)                      # 4-byte Folded Reload
	lw	s1, 36(sp)                      # 4-byte Folded Reload
	lw	s2, 32(sp)                      # 4-byte Folded Reload
	lw	s3, 28(sp)                      # 4-byte Folded Reload
	lw	s4, 24(sp)                      # 4-byte Folded Reload
	lw	s5, 20(sp)                      # 4-byte Folded Reload
	lw	s6, 16(sp)                      # 4-byte Folded Reload
	lw	s7, 12(sp)                      # 4-byte Folded Reload
	lw	s8, 8(sp)                       # 4-byte Folded Reload
	addi	sp, sp, 48
	ret
.Laes_func_end30:
	.size	aes.key_wrap.padded.difference, .Laes_func_end30-aes.key_wrap.padded.difference
                                        # -- End function
	.section	.text.aes.key_wrap.padded.mask_below,"ax",@progbits
	.p2align	1                               # -- Begin function key_wrap::padded::mask_below
	.type	aes.key_wrap.padded.mask_below,@function
aes.key_wrap.padded.mask_below:         # @aes.key_wrap.padded.mask_below
# %bb.0:                                # %start
	sub	a0, a0, a1
	srli	a0, a0, 24
	ret
.Laes_func_end31:
	.size	aes.key_wrap.padded.mask_below, .Laes_func_end31-aes.key_wrap.padded.mask_below
                                        # -- End function
	.section	.text.aes.aes_c.single_rounds.inverse_mixed,"ax",@progbits
	.p2align	1                               # -- Begin function aes_c::single_rounds::inverse_mixed
	.type	aes.aes_c.single_rounds.inverse_mixed,@function
aes.aes_c.single_rounds.inverse_mixed:  # @aes.aes_c.single_rounds.inverse_mixed
# %bb.0:                                # %start
	addi	sp, sp, -96
	sw	ra, 92(sp)                      # 4-byte Folded Spill
	sw	s0, 88(sp)                      # 4-byte Folded Spill
	sw	s1, 84(sp)                      # 4-byte Folded Spill
	sw	s2, 80(sp)                      # 4-byte Folded Spill
	sw	s3, 76(sp)                      # 4-byte Folded Spill
	sw	s4, 72(sp)                      # 4-byte Folded Spill
	sw	s5, 68(sp)                      # 4-byte Folded Spill
	sw	s6, 64(sp)                      # 4-byte Folded Spill
	sw	s7, 60(sp)                      # 4-byte Folded Spill
	sw	s8, 56(sp)                      # 4-byte Folded Spill
	sw	s9, 52(sp)                      # 4-byte Folded Spill
	sw	s10, 48(sp)                     # 4-byte Folded Spill
	sw	s11, 44(sp)                     # 4-byte Folded Spill
	mv	s4, a0
	addi	a0, sp, 12
	mv	a1, s4
	call	aes.aes_planes.soft.word.word32.U32Word.in_every_slot
	lw	t2, 12(sp)
	lw	t3, 16(sp)
	lw	t4, 20(sp)
	lw	t5, 24(sp)
	lw	t6, 28(sp)
	lw	s2, 32(sp)
	lw	a6, 36(sp)
	lw	a7, 40(sp)
	lui	a0, 699051
	lui	t0, 209715
	lui	a1, 61681
	addi	s3, a0, -1366
	addi	t1, t0, 819
	addi	t0, a1, -241
	srli	s5, t2, 8
	slli	s9, t2, 24
	srli	s6, t3, 8
	slli	s10, t3, 24
	srli	s7, t4, 8
	slli	s11, t4, 24
	srli	s8, t5, 8
	slli	s0, t5, 24
	srli	ra, t6, 8
	slli	a3, t6, 24
	srli	s1, s2, 8
	slli	a0, s2, 24
	srli	a2, a6, 8
	slli	a4, a6, 24
	or	s5, s9, s5
	srli	a1, a7, 8
	or	s6, s10, s6
	slli	a5, a7, 24
	or	s7, s11, s7
	or	s0, s0, s8
	or	a3, a3, ra
	or	a0, a0, s1
	or	a2, a2, a4
	or	a1, a1, a5
	xor	s9, s5, t2
	xor	s6, s6, t3
	xor	s1, s7, t4
	xor	s0, s0, t5
	xor	a3, a3, t6
	xor	s10, a0, s2
	xor	s5, a2, a6
	xor	a1, a1, a7
	xor	t2, a1, t2
	xor	s7, s9, t3
	xor	t3, s6, t4
	xor	s8, s1, t5
	xor	t5, s0, t6
	xor	t4, a3, s2
	xor	a4, s10, a6
	xor	a5, s5, a7
	xor	a6, s7, a1
	xor	a7, s8, a1
	xor	t5, t5, a1
	xor	a2, a5, a4
	xor	a0, a4, s9
	xor	s1, s1, a5
	xor	s0, s0, a4
	xor	a3, a3, t3
	xor	t6, a5, s10
	xor	s7, a1, t4
	xor	s2, a2, s6
	xor	s1, s1, t2
	xor	s6, s0, a6
	xor	a2, a2, a3
	xor	t6, t6, a7
	xor	a1, t5, s5
	srli	a3, a0, 16
	slli	s0, a0, 16
	srli	s5, s7, 16
	slli	s8, s7, 16
	xor	t2, a0, t2
	or	s9, s0, a3
	srli	s0, s2, 16
	slli	a0, s2, 16
	srli	s10, s1, 16
	slli	a3, s1, 16
	or	s5, s8, s5
	srli	s8, s6, 16
	xor	t3, t3, s1
	slli	s1, s6, 16
	or	s11, a0, s0
	srli	s0, a2, 16
	xor	t5, t5, a2
	slli	a2, a2, 16
	or	a3, a3, s10
	srli	a0, t6, 16
	or	s8, s1, s8
	slli	s1, t6, 16
	or	a2, a2, s0
	srli	s0, a1, 16
	xor	a4, a4, a1
	slli	a1, a1, 16
	or	a0, a0, s1
	or	a1, a1, s0
	xor	t2, s9, t2
	xor	a5, s5, a5
	xor	t3, t3, a3
	xor	t5, t5, a2
	xor	s5, a4, a1
	srli	a4, t2, 1
	xor	s0, s11, a6
	xor	s1, s8, a7
	xor	a0, a0, t4
	xor	a5, a5, s7
	xor	a4, a4, s0
	srli	a3, t3, 1
	xor	s1, s1, s6
	srli	a2, t5, 1
	xor	a0, a0, t6
	srli	a1, s5, 1
	xor	a4, a4, s2
	xor	a3, a3, s1
	xor	a0, a0, a2
	xor	a1, a1, a5
	slli	a4, a4, 1
	slli	a3, a3, 1
	slli	a0, a0, 1
	slli	a1, a1, 1
	and	a2, a4, s3
	and	a3, a3, s3
	and	a0, a0, s3
	and	a1, a1, s3
	xor	a2, a2, t2
	xor	a3, a3, t3
	xor	a0, a0, t5
	xor	a1, a1, s5
	srli	a4, a2, 2
	srli	a5, a0, 2
	xor	a4, a4, a3
	xor	a5, a5, a1
	and	a4, a4, t1
	and	a5, a5, t1
	slli	s1, a4, 2
	xor	a3, a3, a4
	slli	a4, a5, 2
	xor	a1, a1, a5
	xor	a2, a2, s1
	xor	a0, a0, a4
	srli	a4, a3, 4
	srli	a5, a2, 4
	xor	a4, a4, a1
	xor	a5, a5, a0
	and	a4, a4, t0
	and	a5, a5, t0
	slli	s1, a4, 4
	xor	a1, a1, a4
	slli	a4, a5, 4
	xor	a0, a0, a5
	xor	a3, a3, s1
	srli	a6, a1, 8
	srli	t0, a1, 16
	srli	a7, a1, 24
	xor	a2, a2, a4
	srli	a4, a3, 8
	srli	a5, a3, 16
	srli	s0, a3, 24
	srli	s1, a0, 8
	srli	t1, a0, 16
	srli	t2, a0, 24
	srli	t3, a2, 8
	srli	t4, a2, 16
	srli	t5, a2, 24
	sb	a3, 4(s4)
	sb	a4, 5(s4)
	sb	a5, 6(s4)
	sb	s0, 7(s4)
	sb	a0, 8(s4)
	sb	s1, 9(s4)
	sb	t1, 10(s4)
	sb	t2, 11(s4)
	sb	a2, 0(s4)
	sb	t3, 1(s4)
	sb	t4, 2(s4)
	sb	t5, 3(s4)
	sb	a1, 12(s4)
	sb	a6, 13(s4)
	sb	t0, 14(s4)
	sb	a7, 15(s4)
	lw	ra, 92(sp)                      # 4-byte Folded Reload
	lw	s0, 88(sp)                      # 4-byte Folded Reload
	lw	s1, 84(sp)                      # 4-byte Folded Reload
	lw	s2, 80(sp)                      # 4-byte Folded Reload
	lw	s3, 76(sp)                      # 4-byte Folded Reload
	lw	s4, 72(sp)                      # 4-byte Folded Reload
	lw	s5, 68(sp)                      # 4-byte Folded Reload
	lw	s6, 64(sp)                      # 4-byte Folded Reload
	lw	s7, 60(sp)                      # 4-byte Folded Reload
	lw	s8, 56(sp)                      # 4-byte Folded Reload
	lw	s9, 52(sp)                      # 4-byte Folded Reload
	lw	s10, 48(sp)                     # 4-byte Folded Reload
	lw	s11, 44(sp)                     # 4-byte Folded Reload
	addi	sp, sp, 96
	ret
.Laes_func_end32:
	.size	aes.aes_c.single_rounds.inverse_mixed, .Laes_func_end32-aes.aes_c.single_rounds.inverse_mixed
                                        # -- End function
	.section	.text.aes.aes_c.single_rounds.inverse_round,"ax",@progbits
	.p2align	1                               # -- Begin function aes_c::single_rounds::inverse_round
	.type	aes.aes_c.single_rounds.inverse_round,@function
aes.aes_c.single_rounds.inverse_round:  # @aes.aes_c.single_rounds.inverse_round
# %bb.0:                                # %start
	addi	sp, sp, -96
	sw	ra, 92(sp)                      # 4-byte Folded Spill
	sw	s0, 88(sp)                      # 4-byte Folded Spill
	sw	s1, 84(sp)                      # 4-byte Folded Spill
	sw	s2, 80(sp)                      # 4-byte Folded Spill
	sw	s3, 76(sp)                      # 4-byte Folded Spill
	sw	s4, 72(sp)                      # 4-byte Folded Spill
	sw	s5, 68(sp)                      # 4-byte Folded Spill
	sw	s6, 64(sp)                      # 4-byte Folded Spill
	sw	s7, 60(sp)                      # 4-byte Folded Spill
	sw	s8, 56(sp)                      # 4-byte Folded Spill
	sw	s9, 52(sp)                      # 4-byte Folded Spill
	sw	s10, 48(sp)                     # 4-byte Folded Spill
	sw	s11, 44(sp)                     # 4-byte Folded Spill
	sw	a1, 8(sp)                       # 4-byte Folded Spill
	mv	s7, a0
	addi	a0, sp, 12
	mv	a1, s7
	call	aes.aes_planes.soft.word.word32.U32Word.in_every_slot
	lw	a0, 12(sp)
	lw	a3, 16(sp)
	lw	a4, 20(sp)
	lw	a5, 24(sp)
	lw	a1, 28(sp)
	lw	a2, 32(sp)
	lw	s1, 36(sp)
	lw	s0, 40(sp)
	not	a6, a0
	not	s8, a2
	not	a7, s1
	xor	a0, a0, a3
	xor	s3, s1, a3
	xor	t4, s0, a1
	xor	ra, a1, a5
	xor	s9, a4, a3
	xor	s11, s0, a7
	xor	a4, a4, s8
	xor	t0, a1, a7
	xor	a2, a5, s8
	xor	a1, t4, a7
	sw	a1, 4(sp)                       # 4-byte Folded Spill
	xor	t5, ra, a0
	and	s4, t4, s1
	not	s5, s9
	xor	t3, ra, a6
	xor	s1, a5, a6
	xor	t1, s11, a0
	xor	s2, a2, s3
	xor	t6, s0, a4
	xor	a1, a1, a5
	sw	a1, 0(sp)                       # 4-byte Folded Spill
	xor	t2, t0, a4
	xor	s6, ra, s5
	and	a2, t0, t3
	xor	s10, t0, a0
	xor	s3, s3, s1
	xor	a7, s11, s1
	xor	a0, s4, s5
	and	a4, t1, t2
	and	s0, s2, t5
	or	a3, s2, t5
	and	s4, a1, s6
	xor	a2, a2, a3
	and	a3, s10, t6
	xor	s1, s1, a3
	xor	a6, s10, s8
	xor	s8, s0, s8
	and	s0, a7, s11
	xor	s9, a7, s9
	xor	a0, a0, a7
	and	s9, s9, ra
	xor	s4, s9, s4
	xor	s0, s9, s0
	and	s9, a6, s3
	xor	a0, a0, a4
	xor	a4, a4, s1
	xor	s1, s8, s9
	xor	s8, a2, s4
	xor	a4, a4, s0
	xor	a2, a0, s4
	xor	s4, s1, ra
	and	s1, a2, s8
	xor	a0, a2, a4
	xor	s0, s4, s0
	and	s4, a4, s8
	and	s9, s0, a2
	xor	a2, s0, s8
	xor	s8, s1, s0
	and	a3, s9, a0
	and	a1, s8, a0
	xor	s9, s1, a0
	xor	a0, s1, a4
	and	a0, a0, a2
	and	s8, s4, a2
	xor	s1, s1, a2
	xor	a1, a1, a4
	xor	s4, s9, a3
	lui	a2, 12529
	xor	a0, a0, s0
	lui	a3, 208899
	addi	a4, a2, -1024
	addi	s9, a3, 768
	xor	s5, a7, s5
	xor	s0, s1, s8
	and	s3, a1, s3
	xor	s1, s4, a1
	and	s8, a1, a6
	xor	a1, a1, a0
	and	a6, s4, t0
	and	a3, a0, t6
	and	t0, a0, s10
	and	t3, s4, t3
	xor	a2, s4, s0
	and	t4, s0, t4
	xor	a0, a0, s0
	lw	a5, 4(sp)                       # 4-byte Folded Reload
	and	s4, s0, a5
	and	t5, s1, t5
	and	t6, a1, ra
	and	s0, a1, s5
	and	s1, s1, s2
	and	s2, a2, a7
	and	a5, a0, t2
	and	t1, a0, t1
	xor	a1, a1, a2
	xor	t2, s4, t3
	xor	a0, t4, a3
	and	s5, a2, s11
	xor	t4, s1, s8
	xor	s4, s0, a6
	xor	a2, a5, s8
	and	a7, a1, s6
	xor	s8, a5, a3
	xor	t6, t6, t0
	lw	a3, 0(sp)                       # 4-byte Folded Reload
	and	a1, a1, a3
	xor	a3, a0, t0
	xor	t0, s0, s3
	xor	s3, s1, t2
	xor	s0, t1, s5
	xor	a6, a0, a6
	xor	a0, s4, t5
	xor	a7, a7, t3
	xor	a5, a1, s2
	xor	s4, a1, s1
	xor	t1, a2, t2
	xor	a1, t0, s3
	xor	t3, a3, t5
	xor	t0, a2, s5
	xor	t2, t6, s0
	xor	a2, a6, s2
	xor	s1, a7, a0
	xor	a0, a0, a5
	xor	a5, t3, a5
	xor	a3, t0, a3
	xor	a2, a2, s0
	srli	s0, t2, 4
	xor	t3, t1, a0
	xor	t1, s8, a0
	xor	s6, t4, a0
	xor	a7, a5, a1
	xor	s3, s4, s1
	xor	s2, a3, s1
	xor	t0, a2, a1
	xor	a1, s0, t2
	and	a1, a1, a4
	srli	a2, s3, 4
	srli	a3, t3, 4
	srli	a5, s2, 4
	srli	s0, t1, 4
	srli	s1, a7, 4
	srli	a0, t0, 4
	srli	t4, s6, 4
	slli	t5, a1, 4
	xor	a2, a2, s3
	xor	a3, a3, t3
	xor	a5, a5, s2
	xor	s0, s0, t1
	xor	s1, s1, a7
	xor	a0, a0, t0
	xor	t4, t4, s6
	or	a1, t5, a1
	and	a2, a2, a4
	and	a3, a3, a4
	and	a5, a5, a4
	and	s0, s0, a4
	and	s1, s1, a4
	and	a0, a0, a4
	and	a4, t4, a4
	xor	s4, a1, t2
	slli	a1, a2, 4
	slli	t4, a3, 4
	slli	t5, a5, 4
	slli	t6, s0, 4
	slli	s5, s1, 4
	slli	s8, a0, 4
	slli	s10, a4, 4
	or	a1, a1, a2
	or	a2, t4, a3
	or	a5, t5, a5
	or	s0, t6, s0
	or	s1, s5, s1
	or	a0, s8, a0
	or	a3, s10, a4
	srli	a4, s4, 2
	xor	s5, a1, s3
	xor	a6, a2, t3
	xor	s10, a5, s2
	xor	t4, s0, t1
	xor	t5, s1, a7
	xor	t6, a0, t0
	xor	s8, a3, s6
	xor	a1, a4, s4
	and	a3, a1, s9
	srli	s11, s5, 2
	srli	ra, a6, 2
	srli	s0, s10, 2
	srli	s1, t4, 2
	srli	a0, t5, 2
	srli	a5, t6, 2
	slli	a1, a3, 2
	or	a2, a1, a3
	srli	a3, s8, 2
	xor	a4, s11, s5
	xor	s11, ra, a6
	xor	s0, s0, s10
	xor	s1, s1, t4
	xor	ra, a0, t5
	xor	a5, a5, t6
	xor	a3, a3, s8
	and	a0, a4, s9
	and	a1, s11, s9
	and	s0, s0, s9
	and	s1, s1, s9
	and	s11, ra, s9
	and	a5, a5, s9
	and	a3, a3, s9
	xor	s4, a2, s4
	slli	a4, a0, 2
	or	a0, a0, a4
	slli	a2, a1, 2
	or	a1, a1, a2
	slli	a2, s0, 2
	or	s9, a2, s0
	slli	a2, s1, 2
	or	s1, s1, a2
	slli	a2, s11, 2
	or	a4, a2, s11
	slli	a2, a5, 2
	or	a5, a5, a2
	slli	a2, a3, 2
	or	s0, a2, a3
	xor	s5, a0, s5
	xor	a6, a1, a6
	slli	t2, t2, 24
	slli	s3, s3, 24
	slli	t3, t3, 24
	slli	s2, s2, 24
	slli	t1, t1, 24
	slli	a7, a7, 24
	slli	t0, t0, 24
	slli	s6, s6, 24
	xor	a0, s9, s10
	srli	a1, s4, 8
	xor	s1, s1, t4
	xor	a4, a4, t5
	xor	t6, a5, t6
	xor	s8, s0, s8
	or	t2, t2, a1
	srli	a3, s5, 8
	srli	a2, a6, 8
	srli	a1, a0, 8
	srli	t4, s1, 8
	srli	t5, a4, 8
	or	s3, s3, a3
	srli	a5, t6, 8
	or	t3, t3, a2
	srli	s0, s8, 8
	xor	s9, t2, s4
	or	t2, s2, a1
	or	t1, t1, t4
	or	a7, a7, t5
	or	t0, t0, a5
	or	t4, s6, s0
	xor	s2, s5, s9
	xor	t5, s3, s5
	xor	a5, t3, a6
	xor	s0, t2, a0
	xor	a3, t1, s1
	xor	a2, a7, a4
	xor	t1, t0, t6
	xor	a1, t4, s8
	xor	t3, a1, s4
	xor	t0, s2, a1
	xor	t2, t5, a6
	xor	a0, a0, a1
	xor	s1, s1, s0
	xor	a6, a3, a4
	xor	s5, a2, t6
	xor	t6, t1, s8
	xor	a7, a0, a5
	xor	t4, s1, a1
	xor	a0, t6, s5
	xor	s1, s5, s9
	xor	a5, a5, t3
	xor	s0, t0, s0
	xor	a3, t2, a3
	xor	a2, a2, t6
	xor	s4, a6, a1
	xor	t5, a0, t5
	xor	a5, a5, t6
	xor	s3, s0, s5
	xor	a0, a0, a3
	xor	s2, a7, a2
	xor	a2, t1, t4
	srli	t1, s1, 16
	slli	s0, s1, 16
	srli	a1, s4, 16
	slli	a3, s4, 16
	xor	t3, t3, s1
	or	t1, s0, t1
	srli	s1, t5, 16
	slli	s0, t5, 16
	srli	a4, a5, 16
	or	s6, a3, a1
	slli	a3, a5, 16
	xor	a5, t2, a5
	srli	a1, s3, 16
	or	s8, s0, s1
	slli	s1, s3, 16
	or	a3, a3, a4
	srli	a4, a0, 16
	xor	s0, t4, a0
	slli	a0, a0, 16
	or	t2, s1, a1
	srli	a1, s2, 16
	or	a4, a4, a0
	slli	a0, s2, 16
	or	s9, a0, a1
	srli	a1, a2, 16
	xor	s1, s5, a2
	slli	a2, a2, 16
	or	a1, a1, a2
	xor	t3, t3, t1
	xor	a0, s6, s4
	xor	s4, a5, a3
	xor	s5, s0, a4
	lui	t4, 699051
	xor	s6, s1, a1
	lui	t1, 209715
	xor	a1, s8, t0
	lui	t0, 61681
	xor	a3, t2, a7
	srli	s1, t3, 1
	xor	s0, s9, a6
	xor	a5, a0, t6
	xor	a1, a1, s1
	xor	a3, a3, s3
	lw	a0, 8(sp)                       # 4-byte Folded Reload
	lbu	a7, 4(a0)
	lbu	a6, 5(a0)
	lbu	t2, 6(a0)
	lbu	t6, 7(a0)
	addi	s1, t4, -1366
	xor	s0, s0, s2
	srli	a2, s4, 1
	xor	a1, a1, t5
	srli	a4, s5, 1
	xor	a2, a2, a3
	srli	a3, s6, 1
	xor	a4, a4, s0
	xor	a3, a3, a5
	slli	a1, a1, 1
	slli	a2, a2, 1
	slli	a4, a4, 1
	slli	a3, a3, 1
	and	a1, a1, s1
	and	a2, a2, s1
	and	a4, a4, s1
	and	s1, s1, a3
	xor	s0, a1, t3
	lbu	t4, 8(a0)
	lbu	t3, 9(a0)
	lbu	t5, 10(a0)
	lbu	s2, 11(a0)
	addi	a3, t1, 819
	addi	t0, t0, -241
	xor	a2, a2, s4
	xor	a4, a4, s5
	xor	a5, s1, s6
	srli	a1, s0, 2
	srli	s1, a4, 2
	xor	a1, a1, a2
	xor	s1, s1, a5
	and	a1, a1, a3
	and	a3, a3, s1
	slli	s1, a1, 2
	xor	a1, a1, a2
	slli	a2, a3, 2
	xor	a3, a3, a5
	xor	s3, s1, s0
	xor	a2, a2, a4
	srli	a4, a1, 4
	srli	a5, s3, 4
	xor	a4, a4, a3
	xor	a5, a5, a2
	and	a4, a4, t0
	and	a5, a5, t0
	slli	s1, a4, 4
	xor	a3, a3, a4
	xor	a1, a1, s1
	lbu	t1, 12(a0)
	lbu	t0, 13(a0)
	lbu	s5, 14(a0)
	lbu	a4, 15(a0)
	xor	s0, a5, a2
	slli	a5, a5, 4
	xor	s6, a5, s3
	srli	a5, a3, 24
	xor	s3, a5, a4
	srli	a2, a3, 8
	xor	s4, a3, t1
	srli	a3, a3, 16
	xor	t1, a3, s5
	srli	a3, a1, 16
	xor	t0, a2, t0
	srli	a2, s0, 24
	xor	s2, a2, s2
	srli	a4, s0, 16
	xor	t5, a4, t5
	srli	a5, a1, 24
	xor	t4, s0, t4
	srli	s0, s0, 8
	xor	t3, s0, t3
	xor	t6, a5, t6
	xor	t2, a3, t2
	lbu	a2, 0(a0)
	lbu	a4, 1(a0)
	lbu	a3, 2(a0)
	lbu	s0, 3(a0)
	xor	a5, a1, a7
	srli	a1, a1, 8
	xor	a1, a1, a6
	srli	a0, s6, 24
	xor	a0, a0, s0
	srli	s1, s6, 16
	xor	a3, a3, s1
	xor	a2, s6, a2
	srli	s1, s6, 8
	xor	a4, a4, s1
	sb	a5, 4(s7)
	sb	a1, 5(s7)
	sb	t2, 6(s7)
	sb	t6, 7(s7)
	sb	t4, 8(s7)
	sb	t3, 9(s7)
	sb	t5, 10(s7)
	sb	s2, 11(s7)
	sb	a2, 0(s7)
	sb	a4, 1(s7)
	sb	a3, 2(s7)
	sb	a0, 3(s7)
	sb	s4, 12(s7)
	sb	t0, 13(s7)
	sb	t1, 14(s7)
	sb	s3, 15(s7)
	lw	ra, 92(sp)                      # 4-byte Folded Reload
	lw	s0, 88(sp)                      # 4-byte Folded Reload
	lw	s1, 84(sp)                      # 4-byte Folded Reload
	lw	s2, 80(sp)                      # 4-byte Folded Reload
	lw	s3, 76(sp)                      # 4-byte Folded Reload
	lw	s4, 72(sp)                      # 4-byte Folded Reload
	lw	s5, 68(sp)                      # 4-byte Folded Reload
	lw	s6, 64(sp)                      # 4-byte Folded Reload
	lw	s7, 60(sp)                      # 4-byte Folded Reload
	lw	s8, 56(sp)                      # 4-byte Folded Reload
	lw	s9, 52(sp)                      # 4-byte Folded Reload
	lw	s10, 48(sp)                     # 4-byte Folded Reload
	lw	s11, 44(sp)                     # 4-byte Folded Reload
	addi	sp, sp, 96
	ret
.Laes_func_end33:
	.size	aes.aes_c.single_rounds.inverse_round, .Laes_func_end33-aes.aes_c.single_rounds.inverse_round
                                        # -- End function
	.section	.text.aes.aes_c.single_rounds.inverse_rounds,"ax",@progbits
	.p2align	1                               # -- Begin function aes_c::single_rounds::inverse_rounds
	.type	aes.aes_c.single_rounds.inverse_rounds,@function
aes.aes_c.single_rounds.inverse_rounds: # @aes.aes_c.single_rounds.inverse_rounds
# %bb.0:                                # %start
	addi	sp, sp, -96
	sw	ra, 92(sp)                      # 4-byte Folded Spill
	sw	s0, 88(sp)                      # 4-byte Folded Spill
	sw	s1, 84(sp)                      # 4-byte Folded Spill
	sw	s2, 80(sp)                      # 4-byte Folded Spill
	sw	s3, 76(sp)                      # 4-byte Folded Spill
	sw	s4, 72(sp)                      # 4-byte Folded Spill
	sw	s5, 68(sp)                      # 4-byte Folded Spill
	sw	s6, 64(sp)                      # 4-byte Folded Spill
	sw	s7, 60(sp)                      # 4-byte Folded Spill
	sw	s8, 56(sp)                      # 4-byte Folded Spill
	sw	s9, 52(sp)                      # 4-byte Folded Spill
	sw	s10, 48(sp)                     # 4-byte Folded Spill
	sw	s11, 44(sp)                     # 4-byte Folded Spill
	sw	a1, 4(sp)                       # 4-byte Folded Spill
	mv	s11, a0
	li	a4, 0
	li	a3, 0
	lui	a6, 349525
	lui	a5, 209715
	lui	s1, 208899
	lui	s0, 61681
	lui	a2, 12529
	addi	a0, a6, 1365
	sw	a0, 20(sp)                      # 4-byte Folded Spill
	addi	a0, a5, 819
	sw	a0, 40(sp)                      # 4-byte Folded Spill
	addi	a0, s1, 768
	sw	a0, 12(sp)                      # 4-byte Folded Spill
	addi	a0, s0, -241
	sw	a0, 36(sp)                      # 4-byte Folded Spill
	addi	a0, a2, -1024
	sw	a0, 8(sp)                       # 4-byte Folded Spill
	sw	s11, 16(sp)                     # 4-byte Folded Spill
.Laes_BB34_1:                               # %join.5.i.i
                                        # =>This Inner Loop Header: Depth=1
	addi	a1, a4, 2
	sw	a1, 28(sp)                      # 4-byte Folded Spill
	slli	a0, a4, 4
	sltiu	a2, a4, 6
	seqz	a5, a3
	sltu	s1, a1, a4
	add	a4, s11, a0
	and	a2, a2, a5
	sw	a2, 32(sp)                      # 4-byte Folded Spill
	add	a3, a3, s1
	sw	a3, 24(sp)                      # 4-byte Folded Spill
	lbu	t5, 0(a4)
	lbu	s2, 1(a4)
	lbu	s1, 2(a4)
	lbu	s0, 3(a4)
	lbu	t6, 16(a4)
	lbu	s3, 17(a4)
	lbu	a5, 18(a4)
	lbu	a2, 19(a4)
	lbu	s4, 4(a4)
	lbu	s5, 5(a4)
	lbu	s6, 6(a4)
	lbu	s7, 7(a4)
	lbu	s8, 20(a4)
	lbu	s9, 21(a4)
	lbu	s10, 22(a4)
	lbu	s11, 23(a4)
	lbu	ra, 8(a4)
	lbu	a6, 9(a4)
	lbu	a7, 10(a4)
	lbu	a0, 11(a4)
	lbu	a1, 24(a4)
	lbu	t2, 25(a4)
	lbu	t0, 26(a4)
	lbu	t1, 27(a4)
	slli	s0, s0, 24
	slli	s1, s1, 16
	slli	s2, s2, 8
	slli	a2, a2, 24
	slli	a5, a5, 16
	slli	s3, s3, 8
	or	t5, s2, t5
	or	s2, s1, s0
	or	t6, s3, t6
	or	s3, a5, a2
	lbu	a5, 12(a4)
	lbu	s0, 13(a4)
	lbu	s1, 14(a4)
	lbu	a2, 15(a4)
	slli	s7, s7, 24
	slli	s6, s6, 16
	slli	s5, s5, 8
	slli	s11, s11, 24
	slli	s10, s10, 16
	slli	s9, s9, 8
	or	s4, s5, s4
	or	s5, s6, s7
	or	s6, s9, s8
	or	s7, s10, s11
	lbu	s8, 28(a4)
	lbu	s9, 29(a4)
	lbu	s10, 30(a4)
	lbu	s11, 31(a4)
	slli	a0, a0, 24
	slli	a7, a7, 16
	slli	a6, a6, 8
	slli	t1, t1, 24
	slli	t0, t0, 16
	slli	t2, t2, 8
	slli	a2, a2, 24
	slli	s1, s1, 16
	slli	s0, s0, 8
	slli	s11, s11, 24
	slli	s10, s10, 16
	slli	s9, s9, 8
	or	a6, a6, ra
	or	a7, a7, a0
	or	t2, t2, a1
	or	t1, t0, t1
	or	ra, s0, a5
	or	a2, a2, s1
	or	s1, s9, s8
	or	s0, s10, s11
	or	t0, t5, s2
	or	t6, t6, s3
	or	t5, s4, s5
	or	a5, s6, s7
	or	a6, a6, a7
	or	t1, t2, t1
	or	a7, ra, a2
	or	s0, s0, s1
	srli	s1, t0, 1
	srli	a2, t5, 1
	srli	a0, a6, 1
	srli	a1, a7, 1
	xor	s1, t6, s1
	xor	a2, a2, a5
	xor	a0, t1, a0
	xor	a1, a1, s0
	lw	a3, 20(sp)                      # 4-byte Folded Reload
	and	s1, s1, a3
	and	a2, a2, a3
	and	a0, a0, a3
	and	a1, a1, a3
	slli	t2, s1, 1
	xor	t6, s1, t6
	slli	s1, a2, 1
	xor	s2, a2, a5
	slli	a5, a0, 1
	xor	t1, a0, t1
	slli	a0, a1, 1
	xor	t3, a1, s0
	xor	t0, t2, t0
	xor	s1, s1, t5
	xor	a6, a5, a6
	xor	a7, a0, a7
	srli	s0, t6, 2
	srli	a5, t1, 2
	srli	a2, t0, 2
	srli	a0, a6, 2
	xor	s0, s2, s0
	xor	a5, t3, a5
	xor	a2, a2, s1
	xor	a1, a7, a0
	lw	a0, 40(sp)                      # 4-byte Folded Reload
	and	s0, s0, a0
	and	a5, a5, a0
	and	a2, a2, a0
	and	a1, a1, a0
	slli	t2, s0, 2
	xor	t5, s0, s2
	slli	s0, a5, 2
	xor	s4, a5, t3
	slli	a5, a2, 2
	xor	s2, a2, s1
	slli	s1, a1, 2
	xor	s3, a1, a7
	xor	a7, t2, t6
	xor	t1, s0, t1
	srli	a2, t5, 4
	xor	t0, a5, t0
	xor	s1, s1, a6
	srli	a5, a7, 4
	srli	a0, s2, 4
	xor	a2, s4, a2
	srli	a1, t0, 4
	xor	a5, t1, a5
	xor	s0, s3, a0
	lw	a0, 36(sp)                      # 4-byte Folded Reload
	and	a2, a2, a0
	xor	a1, a1, s1
	and	a5, a5, a0
	and	s0, s0, a0
	slli	a6, a2, 4
	xor	s4, a2, s4
	and	a1, a1, a0
	slli	t6, a5, 4
	slli	t2, s0, 4
	xor	a0, s0, s3
	xor	a2, a6, t5
	xor	t1, t1, a5
	slli	a6, a1, 4
	xor	a1, a1, s1
	xor	s1, t6, a7
	xor	a5, t2, s2
	not	t1, t1
	not	a7, a0
	xor	s0, a6, t0
	xor	s9, s4, a7
	xor	t0, a5, t1
	xor	a6, a1, a7
	xor	t2, a2, t1
	xor	s10, s1, a0
	xor	s7, a1, s4
	xor	a1, a1, a2
	xor	s11, s1, a5
	not	a5, s0
	xor	s0, s0, s1
	xor	t6, t2, s10
	xor	s5, t0, s4
	xor	s8, s7, a7
	xor	s3, a6, t0
	and	s1, s7, a0
	not	s6, s11
	xor	s4, s0, s9
	xor	t5, s8, a2
	xor	a7, s0, a1
	xor	s2, a1, s6
	xor	t0, a1, a5
	xor	t2, s0, a6
	xor	a2, a2, a5
	xor	ra, s1, s6
	and	s1, s4, s3
	and	s0, a7, t6
	or	a0, a7, t6
	and	a5, t0, a6
	xor	s10, a2, s10
	xor	t3, a0, a5
	and	a5, t2, s5
	xor	a5, a5, a2
	xor	a2, a2, s9
	xor	s0, s0, t1
	xor	t1, t2, t1
	xor	ra, ra, a2
	xor	t4, a5, s1
	xor	ra, ra, s1
	and	a0, t1, s10
	xor	a0, a0, s0
	and	s0, t5, s2
	xor	a5, a2, s11
	and	a5, a5, a1
	xor	s0, s0, a5
	and	s1, a2, s9
	xor	a5, a5, s1
	xor	s11, a0, a1
	xor	t3, t3, s0
	xor	t4, t4, a5
	xor	s0, ra, s0
	xor	s11, s11, a5
	and	s1, s0, t3
	xor	a0, s0, t4
	and	s0, s0, s11
	and	s0, s0, a0
	xor	a5, s11, s1
	and	ra, a5, a0
	xor	a0, a0, s1
	xor	a0, a0, s0
	xor	s0, s11, t3
	and	a5, t4, t3
	and	t3, a5, s0
	xor	a5, s1, t4
	xor	s1, s1, s0
	and	a5, a5, s0
	xor	s1, s1, t3
	xor	s0, ra, t4
	xor	a5, a5, s11
	lw	s11, 16(sp)                     # 4-byte Folded Reload
	and	a6, a0, a6
	and	t0, a0, t0
	xor	t3, s1, a0
	and	t4, s1, s7
	and	s7, s1, s8
	and	s8, s0, s10
	xor	a0, a0, s0
	and	t1, s0, t1
	xor	s0, s0, a5
	and	s5, a5, s5
	and	t2, a5, t2
	xor	a5, a5, s1
	and	a7, a0, a7
	and	a0, a0, t6
	and	s1, a5, s3
	and	t6, a5, s4
	xor	a5, a2, s6
	and	s6, t3, a2
	and	s3, t3, s9
	and	s4, s0, a1
	and	a5, a5, s0
	xor	s0, t3, s0
	and	t3, s0, s2
	and	s9, s0, t5
	xor	a1, t4, s5
	xor	t4, a5, s8
	xor	t5, a5, a6
	xor	a5, a6, s6
	xor	a6, s4, t2
	xor	s4, a1, t2
	xor	s2, a1, a5
	xor	a5, s7, t0
	xor	t2, s1, s5
	xor	s1, s1, t1
	xor	t1, a0, t1
	xor	t0, t3, t0
	xor	t3, a0, a5
	xor	a1, t6, s3
	xor	a2, t5, a7
	xor	s0, s9, s6
	xor	t5, s9, a0
	xor	t6, s1, a5
	xor	a0, t4, t3
	xor	a7, s4, a7
	xor	s1, s1, s3
	xor	a6, a6, a1
	xor	a1, s2, a1
	xor	a5, t0, a2
	xor	a2, a2, s0
	xor	s0, a7, s0
	xor	s1, s1, s4
	xor	a7, a1, a0
	srli	a1, a6, 4
	xor	t0, t6, a2
	xor	t2, t2, a2
	xor	t1, t1, a2
	xor	t3, s0, a0
	xor	t5, t5, a5
	xor	t4, s1, a5
	xor	a1, a1, a6
	srli	s1, a7, 4
	lw	a0, 8(sp)                       # 4-byte Folded Reload
	and	a1, a1, a0
	srli	s0, t5, 4
	srli	s4, t0, 4
	srli	a5, t4, 4
	srli	a2, t2, 4
	srli	t6, t3, 4
	xor	s1, s1, a7
	srli	s2, t1, 4
	slli	s3, a1, 4
	xor	s0, s0, t5
	xor	s4, s4, t0
	xor	a5, a5, t4
	xor	a2, a2, t2
	xor	t6, t6, t3
	and	s1, s1, a0
	xor	s2, s2, t1
	add	s3, s3, a1
	and	s0, s0, a0
	and	a1, s4, a0
	and	a5, a5, a0
	and	a2, a2, a0
	and	s4, t6, a0
	slli	t6, s1, 4
	and	s2, s2, a0
	xor	a6, s3, a6
	slli	s3, s0, 4
	add	t6, t6, s1
	slli	s1, a1, 4
	add	s3, s3, s0
	slli	s0, a5, 4
	add	a0, s1, a1
	slli	s1, a2, 4
	add	a5, a5, s0
	slli	s0, s4, 4
	add	a2, a2, s1
	slli	s1, s2, 4
	add	a1, s0, s4
	xor	a7, t6, a7
	add	s1, s1, s2
	srli	s0, a6, 2
	xor	t5, s3, t5
	xor	t0, a0, t0
	xor	t6, a5, t4
	xor	t4, a2, t2
	xor	t2, a1, t3
	xor	t1, s1, t1
	xor	s0, s0, a6
	srli	a1, a7, 2
	lw	a0, 12(sp)                      # 4-byte Folded Reload
	and	a2, s0, a0
	srli	s4, t5, 2
	srli	s0, t0, 2
	srli	a5, t6, 2
	srli	s1, t4, 2
	srli	t3, t2, 2
	xor	s5, a1, a7
	srli	s2, t1, 2
	slli	s3, a2, 2
	xor	a1, s4, t5
	xor	s4, s0, t0
	xor	a5, a5, t6
	xor	s1, s1, t4
	xor	t3, t3, t2
	and	s0, s5, a0
	xor	s2, s2, t1
	add	s3, s3, a2
	and	a1, a1, a0
	and	a2, s4, a0
	and	a5, a5, a0
	and	s1, s1, a0
	and	s7, t3, a0
	slli	t3, s0, 2
	and	s2, s2, a0
	xor	a6, s3, a6
	slli	s3, a1, 2
	add	t3, t3, s0
	slli	a0, a2, 2
	add	s3, s3, a1
	slli	a1, a5, 2
	add	s4, a0, a2
	slli	a2, s1, 2
	add	s5, a1, a5
	slli	a5, s7, 2
	add	s6, a2, s1
	slli	s1, s2, 2
	add	s7, s7, a5
	xor	s8, t3, a7
	add	s2, s2, s1
	srli	a7, a6, 8
	slli	t3, a6, 24
	xor	a2, s3, t5
	xor	a5, s4, t0
	xor	s4, s5, t6
	xor	s1, s6, t4
	xor	a1, s7, t2
	xor	s0, s2, t1
	or	a7, t3, a7
	srli	t0, s8, 8
	slli	t1, s8, 24
	srli	t2, a2, 8
	slli	t3, a2, 24
	srli	t4, a5, 8
	slli	t5, a5, 24
	srli	t6, s4, 8
	slli	s2, s4, 24
	or	t0, t1, t0
	srli	t1, s1, 8
	or	t2, t3, t2
	slli	t3, s1, 24
	or	t4, t5, t4
	srli	t5, a1, 8
	or	t6, s2, t6
	slli	s2, a1, 24
	or	t1, t3, t1
	srli	t3, s0, 8
	or	t5, s2, t5
	slli	s2, s0, 24
	xor	a7, a7, a6
	or	t3, s2, t3
	xor	t0, t0, s8
	xor	s2, a2, a7
	xor	t2, t2, a2
	xor	s3, t4, a5
	xor	t4, t6, s4
	xor	t1, t1, s1
	xor	a2, t5, a1
	xor	a0, t3, s0
	xor	s0, t0, s0
	xor	a6, a0, a6
	xor	t3, s2, a0
	xor	t5, t2, a5
	xor	s4, a0, s4
	xor	s1, t4, s1
	xor	t6, t1, a1
	xor	s6, a2, s8
	xor	s2, s3, s0
	xor	s5, s0, a2
	xor	s4, s4, s3
	xor	s3, s1, a0
	xor	a1, s0, s6
	xor	s1, s6, a7
	xor	a2, a6, s2
	xor	a7, t3, t4
	xor	t1, t5, t1
	xor	a0, t6, a0
	xor	a5, a1, t2
	xor	a7, a7, s6
	xor	a1, t1, a1
	xor	t1, s5, s4
	xor	t0, s3, t0
	srli	t2, s1, 16
	xor	a6, a6, s1
	slli	s1, s1, 16
	or	t2, s1, t2
	srli	s1, a2, 16
	xor	t4, t5, a2
	slli	a2, a2, 16
	or	t5, a2, s1
	srli	s1, a0, 16
	xor	s2, s0, a0
	slli	a0, a0, 16
	or	s5, a0, s1
	srli	s1, a5, 16
	xor	t3, t3, a5
	slli	a5, a5, 16
	or	s7, a5, s1
	srli	s1, a7, 16
	xor	s4, s4, a7
	slli	a7, a7, 16
	or	a7, a7, s1
	srli	a0, a1, 16
	xor	s3, s3, a1
	slli	a1, a1, 16
	or	s8, a1, a0
	srli	a1, t1, 16
	xor	t6, t6, t1
	slli	t1, t1, 16
	or	t1, t1, a1
	srli	s0, t0, 16
	xor	s6, s6, t0
	slli	t0, t0, 16
	or	s0, t0, s0
	xor	a2, a6, t2
	xor	a5, t4, t5
	xor	a6, s2, s5
	xor	a1, t3, s7
	xor	s1, s4, a7
	xor	a7, s3, s8
	xor	t1, t6, t1
	xor	t0, s6, s0
	srli	s0, a2, 1
	srli	a0, a5, 1
	xor	s0, s0, a1
	xor	a0, a0, s1
	and	s0, s0, a3
	xor	t3, s0, a1
	slli	s0, s0, 1
	xor	t2, s0, a2
	srli	s0, a7, 1
	and	a0, a0, a3
	xor	s1, s1, a0
	slli	a0, a0, 1
	xor	a0, a0, a5
	srli	a5, t0, 1
	xor	s0, s0, t1
	xor	a5, a5, a6
	and	s0, s0, a3
	and	a5, a5, a3
	xor	t1, s0, t1
	slli	s0, s0, 1
	xor	a2, a5, a6
	slli	a5, a5, 1
	xor	a6, s0, a7
	srli	a1, t3, 2
	xor	a5, a5, t0
	srli	s0, t2, 2
	xor	a1, a1, s1
	lw	a3, 40(sp)                      # 4-byte Folded Reload
	and	a1, a1, a3
	xor	t4, a1, s1
	slli	a1, a1, 2
	xor	a7, a1, t3
	srli	a1, t1, 2
	xor	s0, s0, a0
	and	s0, s0, a3
	xor	t0, s0, a0
	slli	s0, s0, 2
	xor	t2, s0, t2
	srli	a0, a6, 2
	xor	a1, a1, a2
	xor	a0, a0, a5
	and	a1, a1, a3
	and	a0, a0, a3
	xor	s0, a1, a2
	slli	a1, a1, 2
	xor	a1, a1, t1
	srli	s1, t4, 4
	xor	a5, a5, a0
	slli	a0, a0, 2
	xor	a0, a0, a6
	srli	a6, a7, 4
	xor	s1, s1, s0
	lw	a3, 36(sp)                      # 4-byte Folded Reload
	and	a2, s1, a3
	xor	t1, a2, s0
	slli	a2, a2, 4
	xor	a2, a2, t4
	srli	t3, t0, 4
	xor	s1, a1, a6
	and	s1, s1, a3
	xor	a1, a1, s1
	slli	s1, s1, 4
	xor	a6, s1, a7
	srli	s0, t2, 4
	xor	s1, a5, t3
	xor	s0, s0, a0
	and	s1, s1, a3
	and	s0, s0, a3
	xor	a5, a5, s1
	slli	s1, s1, 4
	xor	a0, a0, s0
	slli	s0, s0, 4
	xor	s1, s1, t0
	srli	a7, a5, 8
	xor	t2, s0, t2
	srli	t0, a5, 16
	sb	a7, 13(a4)
	sb	a5, 12(a4)
	srli	a5, a5, 24
	sb	t0, 14(a4)
	srli	s0, a2, 8
	sb	a5, 15(a4)
	srli	a5, a2, 16
	sb	s0, 21(a4)
	sb	a2, 20(a4)
	srli	a2, a2, 24
	sb	a5, 22(a4)
	srli	a5, a1, 8
	sb	a2, 23(a4)
	srli	a2, a1, 16
	sb	a5, 25(a4)
	sb	a1, 24(a4)
	srli	a1, a1, 24
	sb	a2, 26(a4)
	srli	a2, s1, 8
	sb	a1, 27(a4)
	srli	a1, s1, 16
	sb	a2, 5(a4)
	sb	s1, 4(a4)
	srli	s1, s1, 24
	sb	a1, 6(a4)
	srli	a1, a0, 8
	sb	s1, 7(a4)
	srli	a2, a0, 16
	sb	a1, 9(a4)
	sb	a0, 8(a4)
	srli	a0, a0, 24
	sb	a2, 10(a4)
	srli	a1, a6, 8
	sb	a0, 11(a4)
	srli	a0, a6, 16
	sb	a1, 17(a4)
	sb	a6, 16(a4)
	srli	a1, a6, 24
	sb	a0, 18(a4)
	srli	a0, t2, 8
	sb	a1, 19(a4)
	srli	a1, t2, 16
	sb	a0, 1(a4)
	sb	t2, 0(a4)
	srli	a0, t2, 24
	sb	a1, 2(a4)
	srli	a1, t1, 8
	sb	a0, 3(a4)
	srli	a0, t1, 16
	sb	a1, 29(a4)
	sb	t1, 28(a4)
	srli	a1, t1, 24
	sb	a0, 30(a4)
	sb	a1, 31(a4)
	lw	a4, 28(sp)                      # 4-byte Folded Reload
	lw	a3, 24(sp)                      # 4-byte Folded Reload
	lw	a0, 32(sp)                      # 4-byte Folded Reload
	bnez	a0, .Laes_BB34_1
# %bb.2:                                # %join.5.i2.i.preheader
	li	a3, 0
	li	t3, 0
	lw	s10, 4(sp)                      # 4-byte Folded Reload
.Laes_BB34_3:                               # %join.5.i2.i
                                        # =>This Inner Loop Header: Depth=1
	slli	a4, a3, 4
	sltiu	a0, a3, 7
	addi	a3, a3, 1
	seqz	a1, t3
	add	a5, s11, a4
	add	a4, a4, s10
	seqz	t6, a3
	and	a6, a1, a0
	lbu	a7, 4(a5)
	lbu	t0, 5(a5)
	lbu	t1, 6(a5)
	lbu	t2, 7(a5)
	lbu	t4, 12(a5)
	lbu	t5, 13(a5)
	lbu	s2, 14(a5)
	lbu	a2, 15(a5)
	lbu	s6, 12(a4)
	lbu	s7, 13(a4)
	lbu	s1, 14(a4)
	lbu	a1, 15(a4)
	lbu	s3, 8(a5)
	lbu	s4, 9(a5)
	lbu	s5, 10(a5)
	lbu	s0, 11(a5)
	add	t3, t3, t6
	xor	t6, a1, a2
	lbu	s8, 8(a4)
	lbu	a1, 9(a4)
	lbu	a0, 10(a4)
	lbu	a2, 11(a4)
	xor	s2, s1, s2
	xor	t5, s7, t5
	xor	t4, s6, t4
	xor	s6, a2, s0
	lbu	s7, 4(a4)
	lbu	s1, 5(a4)
	lbu	a2, 6(a4)
	lbu	s0, 7(a4)
	xor	s5, a0, s5
	xor	s4, a1, s4
	xor	s3, s8, s3
	xor	t2, s0, t2
	lbu	s8, 0(a5)
	lbu	s9, 1(a5)
	lbu	s0, 2(a5)
	lbu	a1, 3(a5)
	xor	t1, a2, t1
	xor	t0, s1, t0
	xor	a7, s7, a7
	lbu	s1, 3(a4)
	lbu	a2, 2(a4)
	lbu	a0, 1(a4)
	lbu	a4, 0(a4)
	xor	a1, a1, s1
	xor	a2, a2, s0
	xor	a0, a0, s9
	xor	a4, a4, s8
	sb	a4, 0(a5)
	sb	a0, 1(a5)
	sb	a2, 2(a5)
	sb	a1, 3(a5)
	sb	a7, 4(a5)
	sb	t0, 5(a5)
	sb	t1, 6(a5)
	sb	t2, 7(a5)
	sb	s3, 8(a5)
	sb	s4, 9(a5)
	sb	s5, 10(a5)
	sb	s6, 11(a5)
	sb	t4, 12(a5)
	sb	t5, 13(a5)
	sb	s2, 14(a5)
	sb	t6, 15(a5)
	bnez	a6, .Laes_BB34_3
# %bb.4:                                # %"aes_soft::soft::hazmat::par::equiv_inv_cipher_round_par::<#e817d94f9a7b6ba6>.exit"
	lw	ra, 92(sp)                      # 4-byte Folded Reload
	lw	s0, 88(sp)                      # 4-byte Folded Reload
	lw	s1, 84(sp)                      # 4-byte Folded Reload
	lw	s2, 80(sp)                      # 4-byte Folded Reload
	lw	s3, 76(sp)                      # 4-byte Folded Reload
	lw	s4, 72(sp)                      # 4-byte Folded Reload
	lw	s5, 68(sp)                      # 4-byte Folded Reload
	lw	s6, 64(sp)                      # 4-byte Folded Reload
	lw	s7, 60(sp)                      # 4-byte Folded Reload
	lw	s8, 56(sp)                      # 4-byte Folded Reload
	lw	s9, 52(sp)                      # 4-byte Folded Reload
	lw	s10, 48(sp)                     # 4-byte Folded Reload
	lw	s11, 44(sp)                     # 4-byte Folded Reload
	addi	sp, sp, 96
	ret
.Laes_func_end34:
	.size	aes.aes_c.single_rounds.inverse_rounds, .Laes_func_end34-aes.aes_c.single_rounds.inverse_rounds
                                        # -- End function
	.section	.text.aes.cmac.pieces.Message.is_tag_so_far,"ax",@progbits
	.p2align	1                               # -- Begin function cmac::pieces::Message::is_tag_so_far::<#4f733d09d7f6c6b4>
	.type	aes.cmac.pieces.Message.is_tag_so_far,@function
aes.cmac.pieces.Message.is_tag_so_far: # @aes.cmac.pieces.Message.is_tag_so_far
# %bb.0:                                # %start
	addi	sp, sp, -64
	sw	ra, 60(sp)                      # 4-byte Folded Spill
	sw	s0, 56(sp)                      # 4-byte Folded Spill
	sw	s1, 52(sp)                      # 4-byte Folded Spill
	sw	s2, 48(sp)                      # 4-byte Folded Spill
	sw	s3, 44(sp)                      # 4-byte Folded Spill
	mv	s2, a3
	mv	s3, a2
	lw	a2, 12(a0)
	lw	a3, 8(a0)
	seqz	a2, a2
	addi	a2, a2, -1
	or	a4, a2, a3
	li	a2, 16
	bltu	a4, a2, .Laes_BB35_2
# %bb.1:                                # %start
	li	a4, 16
.Laes_BB35_2:                               # %start
	addi	a2, a0, 16
	addi	a3, a0, 32
	addi	a0, sp, 12
	li	a5, 0
	call	aes.cmac.tags.tag_at_end
	lbu	a0, 24(sp)
	lbu	a1, 25(sp)
	lbu	a2, 26(sp)
	lbu	a3, 27(sp)
	lbu	a4, 20(sp)
	lbu	a5, 21(sp)
	lbu	s0, 22(sp)
	lbu	s1, 23(sp)
	slli	a1, a1, 8
	slli	a2, a2, 16
	slli	a3, a3, 24
	or	a6, a1, a0
	or	a7, a3, a2
	lbu	a1, 16(sp)
	lbu	a3, 17(sp)
	lbu	a0, 18(sp)
	lbu	a2, 19(sp)
	slli	a5, a5, 8
	slli	s0, s0, 16
	slli	s1, s1, 24
	slli	a3, a3, 8
	slli	a0, a0, 16
	slli	a2, a2, 24
	or	a4, a4, a5
	or	s0, s0, s1
	or	a1, a1, a3
	or	a0, a0, a2
	lbu	a2, 13(sp)
	lbu	a3, 12(sp)
	lbu	a5, 14(sp)
	lbu	s1, 15(sp)
	slli	a2, a2, 8
	or	a2, a2, a3
	slli	a5, a5, 16
	slli	s1, s1, 24
	or	a5, a5, s1
	or	a3, a7, a6
	or	a4, a4, s0
	or	a0, a0, a1
	or	a2, a2, a5
	sw	a2, 28(sp)
	sw	a0, 32(sp)
	sw	a4, 36(sp)
	sw	a3, 40(sp)
	addi	a0, sp, 28
	mv	a1, s3
	mv	a2, s2
	call	memcpy
	addi	a0, sp, 28
	addi	a1, sp, 12
	call	aes.aes_cipher.blocks.difference
	seqz	a0, a0
	lw	ra, 60(sp)                      # 4-byte Folded Reload
	lw	s0, 56(sp)                      # 4-byte Folded Reload
	lw	s1, 52(sp)                      # 4-byte Folded Reload
	lw	s2, 48(sp)                      # 4-byte Folded Reload
	lw	s3, 44(sp)                      # 4-byte Folded Reload
	addi	sp, sp, 64
	ret
.Laes_func_end35:
	.size	aes.cmac.pieces.Message.is_tag_so_far, .Laes_func_end35-aes.cmac.pieces.Message.is_tag_so_far
                                        # -- End function
	.section	.text.aes.cmac.tags.is_tag_start,"ax",@progbits
	.p2align	1                               # -- Begin function cmac::tags::is_tag_start::<#4f733d09d7f6c6b4>
	.type	aes.cmac.tags.is_tag_start,@function
aes.cmac.tags.is_tag_start: # @aes.cmac.tags.is_tag_start
# %bb.0:                                # %start
	addi	sp, sp, -48
	sw	ra, 44(sp)                      # 4-byte Folded Spill
	sw	s0, 40(sp)                      # 4-byte Folded Spill
	sw	s1, 36(sp)                      # 4-byte Folded Spill
	mv	s0, a5
	mv	s1, a4
	mv	a4, a3
	mv	a3, a2
	mv	a2, a1
	mv	a1, a0
	sw	zero, 4(sp)
	sw	zero, 8(sp)
	sw	zero, 12(sp)
	sw	zero, 16(sp)
	addi	a0, sp, 4
	call	aes.cmac.tags.tag
	lw	a0, 4(sp)
	lw	a1, 8(sp)
	lw	a2, 12(sp)
	lw	a3, 16(sp)
	sw	a0, 20(sp)
	sw	a1, 24(sp)
	sw	a2, 28(sp)
	sw	a3, 32(sp)
	addi	a0, sp, 20
	mv	a1, s1
	mv	a2, s0
	call	memcpy
	addi	a0, sp, 20
	addi	a1, sp, 4
	call	aes.aes_cipher.blocks.difference
	seqz	a0, a0
	lw	ra, 44(sp)                      # 4-byte Folded Reload
	lw	s0, 40(sp)                      # 4-byte Folded Reload
	lw	s1, 36(sp)                      # 4-byte Folded Reload
	addi	sp, sp, 48
	ret
.Laes_func_end36:
	.size	aes.cmac.tags.is_tag_start, .Laes_func_end36-aes.cmac.tags.is_tag_start
                                        # -- End function
	.section	.text.aes.aes_c.single_rounds.mixed,"ax",@progbits
	.p2align	1                               # -- Begin function aes_c::single_rounds::mixed
	.type	aes.aes_c.single_rounds.mixed,@function
aes.aes_c.single_rounds.mixed:          # @aes.aes_c.single_rounds.mixed
# %bb.0:                                # %start
	addi	sp, sp, -96
	sw	ra, 92(sp)                      # 4-byte Folded Spill
	sw	s0, 88(sp)                      # 4-byte Folded Spill
	sw	s1, 84(sp)                      # 4-byte Folded Spill
	sw	s2, 80(sp)                      # 4-byte Folded Spill
	sw	s3, 76(sp)                      # 4-byte Folded Spill
	sw	s4, 72(sp)                      # 4-byte Folded Spill
	sw	s5, 68(sp)                      # 4-byte Folded Spill
	sw	s6, 64(sp)                      # 4-byte Folded Spill
	sw	s7, 60(sp)                      # 4-byte Folded Spill
	sw	s8, 56(sp)                      # 4-byte Folded Spill
	sw	s9, 52(sp)                      # 4-byte Folded Spill
	sw	s10, 48(sp)                     # 4-byte Folded Spill
	sw	s11, 44(sp)                     # 4-byte Folded Spill
	mv	s0, a0
	addi	a0, sp, 12
	mv	a1, s0
	call	aes.aes_planes.soft.word.word32.U32Word.in_every_slot
	lw	t1, 12(sp)
	lw	t2, 16(sp)
	lw	t3, 20(sp)
	lw	t4, 24(sp)
	lw	t5, 28(sp)
	lw	t6, 32(sp)
	lw	a6, 36(sp)
	lw	a7, 40(sp)
	lui	a1, 699051
	lui	a0, 209715
	lui	a2, 61681
	addi	s3, a1, -1366
	addi	s2, a0, 819
	addi	t0, a2, -241
	srli	s4, t1, 8
	slli	s9, t1, 24
	srli	s5, t2, 8
	slli	s10, t2, 24
	srli	s6, t3, 8
	slli	s7, t3, 24
	srli	s8, t4, 8
	slli	s11, t4, 24
	srli	ra, t5, 8
	slli	s1, t5, 24
	srli	a0, t6, 8
	slli	a1, t6, 24
	srli	a3, a6, 8
	slli	a5, a6, 24
	or	s4, s9, s4
	srli	s9, a7, 8
	or	s5, s10, s5
	slli	a4, a7, 24
	or	a2, s7, s6
	or	s6, s11, s8
	or	s1, s1, ra
	or	s7, a1, a0
	or	s10, a5, a3
	or	s8, a4, s9
	xor	s9, s4, t1
	xor	a5, s5, t2
	xor	a0, a2, t3
	xor	a1, s6, t4
	xor	t1, s1, t5
	xor	a3, s7, t6
	xor	a6, s10, a6
	xor	a4, s8, a7
	srli	a7, s9, 16
	slli	t2, s9, 16
	srli	t3, a5, 16
	slli	t4, a5, 16
	srli	t5, a0, 16
	slli	t6, a0, 16
	xor	s11, a2, a5
	srli	a5, a1, 16
	xor	ra, a1, s1
	slli	a1, a1, 16
	or	t2, t2, a7
	srli	s1, t1, 16
	or	a7, t4, t3
	slli	a2, t1, 16
	or	t3, t6, t5
	srli	t4, a3, 16
	xor	t5, s10, a3
	slli	a3, a3, 16
	or	t6, a1, a5
	srli	a5, a6, 16
	or	a2, a2, s1
	slli	s1, a6, 16
	or	t4, a3, t4
	srli	a1, a4, 16
	or	a5, a5, s1
	slli	s1, a4, 16
	xor	a3, s4, a4
	or	a1, a1, s1
	xor	s1, ra, a4
	xor	s4, t2, a3
	xor	t2, s11, t3
	xor	t3, s1, a2
	xor	t5, t5, a5
	xor	s1, a7, s9
	xor	a0, t6, a0
	xor	a3, t4, s7
	xor	a7, a1, s8
	srli	t4, s4, 1
	xor	s1, s1, s5
	srli	t6, t2, 1
	xor	a0, a0, s6
	srli	a1, t3, 1
	xor	a3, a3, t1
	srli	a2, t5, 1
	xor	a5, a7, a6
	xor	s1, s1, t4
	xor	a0, a0, t6
	xor	a1, a1, a3
	xor	a2, a2, a5
	xor	s1, s1, a4
	xor	a0, a0, a4
	slli	a1, a1, 1
	slli	a2, a2, 1
	slli	s1, s1, 1
	slli	a0, a0, 1
	and	a1, a1, s3
	and	a2, a2, s3
	and	a3, s1, s3
	and	a0, a0, s3
	xor	a1, a1, t3
	xor	a2, a2, t5
	xor	a3, a3, s4
	xor	a0, a0, t2
	srli	a4, a1, 2
	srli	a5, a3, 2
	xor	a4, a4, a2
	xor	a5, a5, a0
	and	a4, a4, s2
	and	a5, a5, s2
	slli	s1, a4, 2
	xor	a2, a2, a4
	slli	a4, a5, 2
	xor	a0, a0, a5
	xor	a1, a1, s1
	xor	a3, a3, a4
	srli	a4, a0, 4
	srli	a5, a3, 4
	xor	a4, a4, a2
	xor	a5, a5, a1
	and	a4, a4, t0
	and	a5, a5, t0
	slli	s1, a4, 4
	xor	a2, a2, a4
	slli	a4, a5, 4
	xor	a1, a1, a5
	xor	a0, a0, s1
	srli	a7, a2, 8
	srli	t0, a2, 16
	srli	a6, a2, 24
	xor	a3, a3, a4
	srli	a4, a0, 8
	srli	a5, a0, 16
	srli	s1, a0, 24
	srli	t1, a1, 8
	srli	t2, a1, 16
	srli	t3, a1, 24
	srli	t4, a3, 8
	srli	t5, a3, 16
	srli	t6, a3, 24
	sb	a0, 4(s0)
	sb	a4, 5(s0)
	sb	a5, 6(s0)
	sb	s1, 7(s0)
	sb	a1, 8(s0)
	sb	t1, 9(s0)
	sb	t2, 10(s0)
	sb	t3, 11(s0)
	sb	a3, 0(s0)
	sb	t4, 1(s0)
	sb	t5, 2(s0)
	sb	t6, 3(s0)
	sb	a2, 12(s0)
	sb	a7, 13(s0)
	sb	t0, 14(s0)
	sb	a6, 15(s0)
	lw	ra, 92(sp)                      # 4-byte Folded Reload
	lw	s0, 88(sp)                      # 4-byte Folded Reload
	lw	s1, 84(sp)                      # 4-byte Folded Reload
	lw	s2, 80(sp)                      # 4-byte Folded Reload
	lw	s3, 76(sp)                      # 4-byte Folded Reload
	lw	s4, 72(sp)                      # 4-byte Folded Reload
	lw	s5, 68(sp)                      # 4-byte Folded Reload
	lw	s6, 64(sp)                      # 4-byte Folded Reload
	lw	s7, 60(sp)                      # 4-byte Folded Reload
	lw	s8, 56(sp)                      # 4-byte Folded Reload
	lw	s9, 52(sp)                      # 4-byte Folded Reload
	lw	s10, 48(sp)                     # 4-byte Folded Reload
	lw	s11, 44(sp)                     # 4-byte Folded Reload
	addi	sp, sp, 96
	ret
.Laes_func_end37:
	.size	aes.aes_c.single_rounds.mixed, .Laes_func_end37-aes.aes_c.single_rounds.mixed
                                        # -- End function
	.section	.text.aes.aes_c.single_rounds.round,"ax",@progbits
	.p2align	1                               # -- Begin function aes_c::single_rounds::round
	.type	aes.aes_c.single_rounds.round,@function
aes.aes_c.single_rounds.round:          # @aes.aes_c.single_rounds.round
# %bb.0:                                # %start
	addi	sp, sp, -96
	sw	ra, 92(sp)                      # 4-byte Folded Spill
	sw	s0, 88(sp)                      # 4-byte Folded Spill
	sw	s1, 84(sp)                      # 4-byte Folded Spill
	sw	s2, 80(sp)                      # 4-byte Folded Spill
	sw	s3, 76(sp)                      # 4-byte Folded Spill
	sw	s4, 72(sp)                      # 4-byte Folded Spill
	sw	s5, 68(sp)                      # 4-byte Folded Spill
	sw	s6, 64(sp)                      # 4-byte Folded Spill
	sw	s7, 60(sp)                      # 4-byte Folded Spill
	sw	s8, 56(sp)                      # 4-byte Folded Spill
	sw	s9, 52(sp)                      # 4-byte Folded Spill
	sw	s10, 48(sp)                     # 4-byte Folded Spill
	sw	s11, 44(sp)                     # 4-byte Folded Spill
	mv	s6, a1
	mv	s8, a0
	addi	a0, sp, 12
	mv	a1, s8
	call	aes.aes_planes.soft.word.word32.U32Word.in_every_slot
	lw	a1, 28(sp)
	lw	a2, 32(sp)
	lw	a3, 36(sp)
	lw	a0, 40(sp)
	lw	ra, 12(sp)
	lw	s1, 16(sp)
	lw	s0, 20(sp)
	lw	a4, 24(sp)
	xor	a2, a2, a3
	xor	a7, a0, a1
	xor	s2, a0, s1
	xor	t5, a1, s0
	xor	s3, a0, s0
	xor	t1, a2, ra
	xor	t4, s2, t5
	xor	t3, t1, a1
	xor	a1, t4, a4
	xor	t0, t1, a0
	xor	t2, t1, s1
	and	s1, t3, ra
	xor	s9, a1, s0
	xor	s10, a1, a3
	xor	a1, t2, s3
	sw	a1, 8(sp)                       # 4-byte Folded Spill
	and	s7, t2, t1
	xor	a4, s10, a7
	xor	t6, s9, ra
	and	s0, s9, t4
	xor	s4, s9, a2
	xor	s1, s1, s3
	and	a3, a4, a7
	xor	s11, a4, a2
	xor	a5, a4, s4
	sw	a5, 4(sp)                       # 4-byte Folded Spill
	xor	s5, a4, ra
	and	a2, s4, s3
	and	a1, t6, a1
	xor	s1, s1, s4
	xor	s10, s10, s0
	xor	s0, s0, s1
	and	s1, a5, t5
	xor	s10, s10, a1
	and	a1, s5, t0
	xor	a2, a2, a3
	xor	a3, a3, s1
	and	s1, s11, s2
	xor	s7, s11, s7
	xor	s0, s0, a2
	xor	s7, s7, s1
	xor	a1, s11, a1
	xor	a0, a0, s1
	xor	s1, s10, a3
	xor	s7, s7, s2
	xor	a1, a1, a0
	xor	a0, s7, a3
	xor	a1, a1, a2
	xor	s7, s1, s0
	and	a2, a0, s1
	xor	s1, a1, a0
	xor	a3, a2, s0
	xor	s10, a2, a1
	and	a3, a3, s1
	and	s1, s10, s7
	xor	a6, s1, s0
	xor	a2, a2, a3
	xor	s0, a3, a1
	and	a1, a1, a2
	lui	a2, 49392
	xor	s10, a1, s10
	xor	a1, a1, a0
	lui	a0, 208899
	addi	a3, a2, 768
	addi	a0, a0, 768
	and	t3, s0, t3
	and	ra, s0, ra
	and	a2, a1, s9
	and	t4, a1, t4
	xor	a1, a1, s0
	xor	s0, a6, s0
	and	t0, a6, t0
	and	s5, a6, s5
	and	s9, s0, a4
	and	a4, s0, a7
	and	a5, s10, a6
	xor	a5, a5, s7
	and	a7, a1, t6
	lw	s1, 8(sp)                       # 4-byte Folded Reload
	and	t6, a1, s1
	xor	s7, a2, ra
	xor	a1, a1, a5
	xor	s1, a5, a6
	and	a6, a5, t1
	and	t2, a5, t2
	xor	a7, a7, a2
	xor	s5, s7, s5
	and	a5, s1, s11
	and	s4, a1, s4
	xor	a2, a1, s0
	and	s10, s1, s2
	and	s2, a1, s3
	and	s1, a2, t5
	xor	a1, a5, a6
	lw	s0, 4(sp)                       # 4-byte Folded Reload
	and	s0, s0, a2
	xor	t1, s5, a5
	xor	a5, s4, s7
	xor	a6, a4, s2
	xor	a2, s1, a4
	xor	s0, s0, a1
	xor	a4, t1, t2
	xor	a7, a7, a1
	xor	a5, a5, s10
	xor	a1, a2, t6
	xor	a2, a2, a4
	xor	a5, a5, s0
	xor	s0, s0, s9
	xor	a4, a1, t4
	xor	s1, a5, t0
	xor	a1, a1, t3
	xor	t0, a2, s10
	xor	a2, a2, a5
	xor	a5, a6, s0
	xor	s4, a7, a4
	xor	t5, a1, s1
	xor	a6, a4, s0
	not	s5, t0
	not	s3, a2
	xor	a5, a5, s1
	xor	a7, s4, t1
	not	t0, a5
	xor	a1, s0, s4
	srli	a2, s5, 4
	srli	a5, s3, 4
	srli	s1, t5, 4
	srli	s0, s4, 4
	srli	t2, a6, 4
	not	t1, a1
	xor	a1, a2, s5
	xor	a2, a5, s3
	xor	a5, s1, t5
	srli	s1, a7, 4
	xor	s0, s0, s4
	srli	a4, t0, 4
	xor	t2, t2, a6
	and	a1, a1, a3
	and	a2, a2, a3
	and	a5, a5, a3
	xor	t6, s1, a7
	and	s0, s0, a3
	xor	t4, a4, t0
	srli	t3, t1, 4
	and	a4, t2, a3
	slli	t2, a1, 4
	xor	s2, s5, a1
	slli	s9, a2, 4
	xor	a2, s3, a2
	slli	s10, a5, 4
	and	s1, t6, a3
	slli	t6, s0, 4
	and	a1, t4, a3
	xor	t3, t3, t1
	slli	t4, a4, 4
	xor	s7, t2, s2
	xor	s9, s9, a2
	or	a5, s10, a5
	slli	a2, s1, 4
	or	s0, t6, s0
	slli	t2, a1, 4
	xor	a1, t0, a1
	and	a3, t3, a3
	or	a4, t4, a4
	xor	s10, a5, t5
	or	a2, a2, s1
	xor	t3, s0, s4
	xor	t2, t2, a1
	slli	a1, a3, 4
	xor	a3, t1, a3
	xor	t4, a4, a6
	srli	a4, s7, 2
	srli	s0, s9, 2
	xor	t6, a2, a7
	xor	s2, a1, a3
	xor	a1, a4, s7
	xor	a2, s0, s9
	srli	a3, s10, 2
	srli	a4, t3, 2
	srli	s0, t2, 2
	srli	s11, t4, 2
	and	s1, a1, a0
	and	a2, a2, a0
	xor	a3, a3, s10
	srli	a5, t6, 2
	xor	a4, a4, t3
	xor	s0, s0, t2
	slli	a1, s1, 2
	or	ra, a1, s1
	slli	s1, a2, 2
	or	a2, a2, s1
	srli	s1, s2, 2
	xor	a1, s11, t4
	and	a3, a3, a0
	xor	a5, a5, t6
	and	a4, a4, a0
	and	s0, s0, a0
	xor	s1, s1, s2
	and	a1, a1, a0
	and	a5, a5, a0
	and	a0, a0, s1
	xor	s7, ra, s7
	xor	ra, a2, s9
	slli	a2, a3, 2
	or	a2, a2, a3
	slli	a3, a4, 2
	or	s11, a3, a4
	slli	a4, s0, 2
	or	a4, a4, s0
	slli	s0, a1, 2
	or	s9, s0, a1
	xor	s0, a2, s10
	slli	a2, a5, 2
	or	s10, a2, a5
	slli	s5, s5, 24
	slli	s3, s3, 24
	slli	t5, t5, 24
	slli	s4, s4, 24
	slli	a5, a6, 24
	slli	a3, a7, 24
	slli	t0, t0, 24
	slli	t1, t1, 24
	xor	s11, s11, t3
	slli	a2, a0, 2
	xor	t2, a4, t2
	or	a0, a0, a2
	xor	s9, s9, t4
	srli	s1, s7, 8
	srli	a1, ra, 8
	xor	t3, s10, t6
	xor	s2, a0, s2
	or	t6, s5, s1
	or	a7, s3, a1
	srli	a1, s0, 8
	srli	s1, s11, 8
	srli	a4, t2, 8
	srli	a2, s9, 8
	or	a1, t5, a1
	srli	a0, t3, 8
	or	s4, s4, s1
	or	a6, t0, a4
	srli	a4, s2, 8
	or	t4, a5, a2
	xor	t0, t6, s7
	xor	a2, a7, ra
	or	s3, a3, a0
	or	s10, t1, a4
	xor	t5, a1, s0
	xor	s5, s4, s11
	xor	a0, a6, t2
	xor	a4, t4, s9
	srli	t1, t0, 16
	slli	s0, t0, 16
	srli	a3, a2, 16
	slli	s1, a2, 16
	xor	s7, a1, a2
	xor	s9, s10, s2
	or	s0, s0, t1
	or	s2, s1, a3
	srli	s1, t5, 16
	slli	a2, t5, 16
	srli	a1, s5, 16
	slli	a3, s5, 16
	or	a2, a2, s1
	srli	a5, a0, 16
	xor	t2, s10, a0
	slli	a0, a0, 16
	or	a1, a1, a3
	srli	a3, a4, 16
	or	s11, a0, a5
	slli	a0, a4, 16
	or	s10, a0, a3
	xor	a0, s3, t3
	xor	s1, t6, a4
	xor	a3, s4, a4
	xor	t1, s1, s0
	srli	s1, a0, 16
	xor	a3, a3, a0
	slli	a0, a0, 16
	xor	s0, s2, a7
	srli	a5, s9, 16
	or	a0, a0, s1
	slli	s1, s9, 16
	or	a5, a5, s1
	xor	s2, a2, s7
	xor	s1, a3, a1
	xor	a7, a4, s3
	xor	s0, s0, a4
	lui	t3, 699051
	xor	a1, s11, s5
	lui	t6, 209715
	xor	a2, s10, t4
	lui	t4, 61681
	xor	a4, t2, a5
	srli	a3, t1, 1
	xor	a3, a3, s0
	xor	a0, a0, t5
	xor	a1, a1, a6
	xor	s0, a2, s9
	lbu	t5, 4(s6)
	lbu	a6, 5(s6)
	lbu	t2, 6(s6)
	lbu	s3, 7(s6)
	addi	a2, t3, -1366
	xor	a3, a3, t0
	srli	a5, s2, 1
	xor	a0, a0, a5
	srli	a5, s1, 1
	xor	a1, a1, a5
	srli	a5, a4, 1
	slli	a3, a3, 1
	xor	a0, a0, a7
	slli	a1, a1, 1
	xor	a5, a5, s0
	and	a3, a3, a2
	and	a1, a1, a2
	xor	a3, a3, t1
	xor	a1, a1, s1
	lbu	t0, 8(s6)
	lbu	a7, 9(s6)
	lbu	t1, 10(s6)
	lbu	t3, 11(s6)
	addi	s1, t6, 819
	addi	s0, t4, -241
	slli	a0, a0, 1
	slli	a5, a5, 1
	and	a0, a0, a2
	and	a2, a2, a5
	xor	a0, a0, s2
	xor	a2, a2, a4
	srli	a4, a3, 2
	srli	a5, a1, 2
	xor	a4, a4, a0
	xor	a5, a5, a2
	and	a4, a4, s1
	and	a5, a5, s1
	slli	s1, a4, 2
	xor	a0, a0, a4
	slli	a4, a5, 2
	xor	a2, a2, a5
	xor	a3, a3, s1
	xor	a1, a1, a4
	srli	a4, a0, 4
	srli	a5, a3, 4
	xor	a4, a4, a2
	xor	a5, a5, a1
	and	a4, a4, s0
	and	a5, a5, s0
	slli	s1, a4, 4
	xor	a2, a2, a4
	xor	a0, a0, s1
	lbu	a4, 12(s6)
	lbu	t4, 13(s6)
	lbu	s2, 14(s6)
	lbu	s1, 15(s6)
	xor	a1, a1, a5
	slli	a5, a5, 4
	xor	s0, a5, a3
	srli	a3, a2, 24
	xor	t6, a3, s1
	srli	s1, a2, 8
	xor	s4, a2, a4
	srli	a2, a2, 16
	xor	s2, a2, s2
	srli	a2, a0, 8
	xor	t4, s1, t4
	srli	a3, a0, 16
	xor	s5, a0, t5
	srli	a0, a0, 24
	xor	t5, a0, s3
	srli	a4, a1, 16
	xor	t2, a3, t2
	srli	s1, a1, 24
	xor	s3, a2, a6
	xor	a6, s1, t3
	xor	t1, a4, t1
	lbu	a0, 0(s6)
	lbu	a2, 1(s6)
	lbu	s1, 2(s6)
	lbu	a3, 3(s6)
	xor	a4, a1, t0
	srli	a1, a1, 8
	xor	a1, a1, a7
	srli	a5, s0, 24
	xor	a3, a3, a5
	srli	a5, s0, 16
	xor	a5, a5, s1
	xor	a0, a0, s0
	srli	s0, s0, 8
	xor	a2, a2, s0
	sb	s5, 4(s8)
	sb	s3, 5(s8)
	sb	t2, 6(s8)
	sb	t5, 7(s8)
	sb	a4, 8(s8)
	sb	a1, 9(s8)
	sb	t1, 10(s8)
	sb	a6, 11(s8)
	sb	a0, 0(s8)
	sb	a2, 1(s8)
	sb	a5, 2(s8)
	sb	a3, 3(s8)
	sb	s4, 12(s8)
	sb	t4, 13(s8)
	sb	s2, 14(s8)
	sb	t6, 15(s8)
	lw	ra, 92(sp)                      # 4-byte Folded Reload
	lw	s0, 88(sp)                      # 4-byte Folded Reload
	lw	s1, 84(sp)                      # 4-byte Folded Reload
	lw	s2, 80(sp)                      # 4-byte Folded Reload
	lw	s3, 76(sp)                      # 4-byte Folded Reload
	lw	s4, 72(sp)                      # 4-byte Folded Reload
	lw	s5, 68(sp)                      # 4-byte Folded Reload
	lw	s6, 64(sp)                      # 4-byte Folded Reload
	lw	s7, 60(sp)                      # 4-byte Folded Reload
	lw	s8, 56(sp)                      # 4-byte Folded Reload
	lw	s9, 52(sp)                      # 4-byte Folded Reload
	lw	s10, 48(sp)                     # 4-byte Folded Reload
	lw	s11, 44(sp)                     # 4-byte Folded Reload
	addi	sp, sp, 96
	ret
.Laes_func_end38:
	.size	aes.aes_c.single_rounds.round, .Laes_func_end38-aes.aes_c.single_rounds.round
                                        # -- End function
	.section	.text.aes.aes_c.single_rounds.rounds,"ax",@progbits
	.p2align	1                               # -- Begin function aes_c::single_rounds::rounds
	.type	aes.aes_c.single_rounds.rounds,@function
aes.aes_c.single_rounds.rounds:         # @aes.aes_c.single_rounds.rounds
# %bb.0:                                # %start
	addi	sp, sp, -96
	sw	ra, 92(sp)                      # 4-byte Folded Spill
	sw	s0, 88(sp)                      # 4-byte Folded Spill
	sw	s1, 84(sp)                      # 4-byte Folded Spill
	sw	s2, 80(sp)                      # 4-byte Folded Spill
	sw	s3, 76(sp)                      # 4-byte Folded Spill
	sw	s4, 72(sp)                      # 4-byte Folded Spill
	sw	s5, 68(sp)                      # 4-byte Folded Spill
	sw	s6, 64(sp)                      # 4-byte Folded Spill
	sw	s7, 60(sp)                      # 4-byte Folded Spill
	sw	s8, 56(sp)                      # 4-byte Folded Spill
	sw	s9, 52(sp)                      # 4-byte Folded Spill
	sw	s10, 48(sp)                     # 4-byte Folded Spill
	sw	s11, 44(sp)                     # 4-byte Folded Spill
	sw	a1, 4(sp)                       # 4-byte Folded Spill
	mv	s11, a0
	li	a4, 0
	li	a3, 0
	lui	a6, 349525
	lui	a5, 209715
	lui	s1, 208899
	lui	s0, 61681
	lui	a2, 49392
	addi	a0, a6, 1365
	sw	a0, 40(sp)                      # 4-byte Folded Spill
	addi	a0, a5, 819
	sw	a0, 16(sp)                      # 4-byte Folded Spill
	addi	a0, s1, 768
	sw	a0, 12(sp)                      # 4-byte Folded Spill
	addi	a0, s0, -241
	sw	a0, 36(sp)                      # 4-byte Folded Spill
	addi	a0, a2, 768
	sw	a0, 8(sp)                       # 4-byte Folded Spill
	sw	s11, 20(sp)                     # 4-byte Folded Spill
.Laes_BB39_1:                               # %join.5.i.i
                                        # =>This Inner Loop Header: Depth=1
	addi	a1, a4, 2
	sw	a1, 28(sp)                      # 4-byte Folded Spill
	slli	a0, a4, 4
	sltiu	a2, a4, 6
	seqz	a5, a3
	sltu	s1, a1, a4
	add	a4, s11, a0
	and	a2, a2, a5
	sw	a2, 32(sp)                      # 4-byte Folded Spill
	add	a3, a3, s1
	sw	a3, 24(sp)                      # 4-byte Folded Spill
	lbu	t5, 0(a4)
	lbu	s2, 1(a4)
	lbu	s1, 2(a4)
	lbu	s0, 3(a4)
	lbu	t6, 16(a4)
	lbu	s3, 17(a4)
	lbu	a5, 18(a4)
	lbu	a2, 19(a4)
	lbu	s4, 4(a4)
	lbu	s5, 5(a4)
	lbu	s6, 6(a4)
	lbu	s7, 7(a4)
	lbu	s8, 20(a4)
	lbu	s9, 21(a4)
	lbu	s10, 22(a4)
	lbu	s11, 23(a4)
	lbu	ra, 8(a4)
	lbu	a6, 9(a4)
	lbu	a7, 10(a4)
	lbu	a0, 11(a4)
	lbu	a1, 24(a4)
	lbu	t2, 25(a4)
	lbu	t0, 26(a4)
	lbu	t1, 27(a4)
	slli	s0, s0, 24
	slli	s1, s1, 16
	slli	s2, s2, 8
	slli	a2, a2, 24
	slli	a5, a5, 16
	slli	s3, s3, 8
	or	t5, s2, t5
	or	s2, s1, s0
	or	t6, s3, t6
	or	s3, a5, a2
	lbu	a5, 12(a4)
	lbu	s0, 13(a4)
	lbu	s1, 14(a4)
	lbu	a2, 15(a4)
	slli	s7, s7, 24
	slli	s6, s6, 16
	slli	s5, s5, 8
	slli	s11, s11, 24
	slli	s10, s10, 16
	slli	s9, s9, 8
	or	s4, s5, s4
	or	s5, s6, s7
	or	s6, s9, s8
	or	s7, s10, s11
	lbu	s8, 28(a4)
	lbu	s9, 29(a4)
	lbu	s10, 30(a4)
	lbu	s11, 31(a4)
	slli	a0, a0, 24
	slli	a7, a7, 16
	slli	a6, a6, 8
	slli	t1, t1, 24
	slli	t0, t0, 16
	slli	t2, t2, 8
	slli	a2, a2, 24
	slli	s1, s1, 16
	slli	s0, s0, 8
	slli	s11, s11, 24
	slli	s10, s10, 16
	slli	s9, s9, 8
	or	a6, a6, ra
	or	a7, a7, a0
	or	t2, t2, a1
	or	t1, t0, t1
	or	ra, s0, a5
	or	a2, a2, s1
	or	s1, s9, s8
	or	s0, s10, s11
	or	t0, t5, s2
	or	t6, t6, s3
	or	t5, s4, s5
	or	a5, s6, s7
	or	a6, a6, a7
	or	t1, t2, t1
	or	a7, ra, a2
	or	s0, s0, s1
	srli	s1, t0, 1
	srli	a2, t5, 1
	srli	a0, a6, 1
	srli	a1, a7, 1
	xor	s1, t6, s1
	xor	a2, a2, a5
	xor	a0, t1, a0
	xor	a1, a1, s0
	lw	a3, 40(sp)                      # 4-byte Folded Reload
	and	s1, s1, a3
	and	a2, a2, a3
	and	a0, a0, a3
	and	a1, a1, a3
	slli	t2, s1, 1
	xor	t6, s1, t6
	slli	s1, a2, 1
	xor	s2, a2, a5
	slli	a5, a0, 1
	xor	t1, a0, t1
	slli	a0, a1, 1
	xor	a1, a1, s0
	xor	t0, t2, t0
	xor	s1, s1, t5
	xor	a6, a5, a6
	xor	a7, a0, a7
	srli	s0, t6, 2
	srli	a5, t1, 2
	srli	a2, t0, 2
	srli	a0, a6, 2
	xor	s0, s2, s0
	xor	a5, a5, a1
	xor	a2, a2, s1
	xor	a0, a7, a0
	lw	a3, 16(sp)                      # 4-byte Folded Reload
	and	s0, s0, a3
	and	a5, a5, a3
	and	a2, a2, a3
	and	a0, a0, a3
	slli	t2, s0, 2
	xor	t5, s0, s2
	slli	s0, a5, 2
	xor	s4, a5, a1
	slli	a5, a2, 2
	xor	s2, a2, s1
	slli	s1, a0, 2
	xor	s3, a0, a7
	xor	a7, t2, t6
	xor	s0, s0, t1
	srli	a2, t5, 4
	xor	t0, a5, t0
	xor	t3, s1, a6
	srli	a5, a7, 4
	srli	a0, s2, 4
	xor	a2, s4, a2
	srli	a1, t0, 4
	xor	a5, a5, s0
	xor	s1, s3, a0
	lw	a0, 36(sp)                      # 4-byte Folded Reload
	and	a2, a2, a0
	xor	a1, t3, a1
	and	a5, a5, a0
	and	s1, s1, a0
	slli	a6, a2, 4
	xor	a2, a2, s4
	and	a1, a1, a0
	slli	t1, a5, 4
	xor	t2, a5, s0
	slli	s0, s1, 4
	xor	s8, s1, s3
	xor	a6, a6, t5
	slli	a5, a1, 4
	xor	a1, a1, t3
	xor	s1, t1, a7
	xor	s0, s0, s2
	xor	a0, t2, s8
	xor	a5, a5, t0
	xor	t6, a1, a2
	xor	s5, s1, a2
	xor	t5, s0, a1
	xor	s4, s0, a2
	xor	a7, a5, a0
	xor	s6, s5, t5
	xor	t0, a7, a1
	xor	a1, a6, s6
	xor	s7, a7, a2
	xor	s3, a7, s1
	and	a6, t0, a5
	xor	s10, a1, s0
	xor	a1, a1, s8
	xor	t2, s3, s4
	and	s8, s3, a7
	xor	s11, a1, t6
	xor	s9, s10, a5
	and	s0, s10, s6
	xor	t1, s10, a0
	xor	a6, a6, s4
	and	s1, s11, t6
	xor	a0, s11, a0
	xor	s2, s11, t1
	and	ra, t1, s4
	xor	a6, a6, t1
	xor	a1, a1, s0
	xor	a6, a6, s0
	and	s0, s9, t2
	xor	t3, a1, s0
	and	s0, s2, t5
	xor	ra, ra, s1
	xor	s0, s0, s1
	and	s1, a0, s5
	xor	a1, a0, s8
	xor	a1, a1, s1
	xor	a2, a2, s1
	xor	s8, s11, a5
	and	s1, s8, s7
	xor	s1, s1, a0
	xor	a2, a2, s1
	xor	s1, a6, ra
	xor	a6, t3, s0
	xor	a1, a1, s5
	xor	a1, a1, s0
	xor	a2, a2, ra
	and	ra, a1, a6
	xor	t3, a2, a1
	xor	s0, ra, s1
	and	s0, s0, t3
	xor	a6, a6, s1
	xor	t3, ra, a2
	and	t4, t3, a6
	xor	s1, t4, s1
	xor	t4, s0, ra
	xor	s0, s0, a2
	and	a2, t4, a2
	xor	t3, a2, t3
	xor	a1, a1, a2
	and	a2, t3, s1
	xor	a2, a2, a6
	and	a6, s0, t0
	and	t0, s0, a5
	and	a5, a1, s10
	and	t3, a1, s6
	xor	a1, a1, s0
	xor	s0, s0, s1
	and	t4, s1, s7
	and	s6, s1, s8
	and	s7, a1, s9
	and	t2, a1, t2
	xor	a1, a1, a2
	xor	s1, s1, a2
	and	a7, a2, a7
	and	s3, a2, s3
	xor	a2, a5, t0
	xor	s7, s7, a5
	and	a0, a0, s1
	and	s5, s1, s5
	and	t0, s0, s11
	lw	s11, 20(sp)                     # 4-byte Folded Reload
	and	a5, s0, t6
	xor	t6, a2, s6
	and	t1, a1, t1
	xor	s0, s0, a1
	and	s4, a1, s4
	and	s1, s0, t5
	xor	a1, a0, a7
	and	s0, s0, s2
	xor	t5, t6, a0
	xor	a2, t1, a2
	xor	a7, a5, s4
	xor	a5, a5, s1
	xor	s0, s0, a1
	xor	s1, t5, s3
	xor	t1, s7, a1
	xor	a2, a2, s5
	xor	a1, a5, t2
	xor	a5, a5, s1
	xor	a2, a2, s0
	xor	s1, s0, t0
	xor	s0, a1, t3
	xor	a0, a2, t4
	xor	a1, a1, a6
	xor	a6, a5, s5
	xor	t0, a5, a2
	xor	a5, a7, s1
	xor	a2, t1, s0
	xor	t1, a1, a0
	xor	a7, s0, s1
	not	s0, a6
	not	a1, t0
	xor	a0, a0, a5
	xor	a6, a2, t5
	not	t0, a0
	xor	s1, s1, a2
	srli	a5, s0, 4
	srli	a0, a1, 4
	srli	t2, t1, 4
	srli	t3, a2, 4
	srli	t4, a7, 4
	not	t5, s1
	xor	a5, a5, s0
	xor	s2, a0, a1
	xor	s3, t2, t1
	srli	t2, a6, 4
	xor	t3, t3, a2
	srli	t6, t0, 4
	xor	t4, t4, a7
	lw	a0, 8(sp)                       # 4-byte Folded Reload
	and	a5, a5, a0
	and	s1, s2, a0
	and	s7, s3, a0
	xor	t2, t2, a6
	and	t3, t3, a0
	xor	t6, t6, t0
	srli	s2, t5, 4
	and	t4, t4, a0
	slli	s3, a5, 4
	xor	s4, s0, a5
	slli	s5, s1, 4
	xor	s6, a1, s1
	slli	a1, s7, 4
	and	a5, t2, a0
	slli	s8, t3, 4
	and	s0, t6, a0
	xor	t2, s2, t5
	slli	t6, t4, 4
	xor	s2, s3, s4
	xor	s3, s5, s6
	add	s4, a1, s7
	slli	s1, a5, 4
	add	t3, t3, s8
	slli	s5, s0, 4
	xor	s0, t0, s0
	and	a1, t2, a0
	add	t4, t4, t6
	xor	t0, s4, t1
	add	a5, a5, s1
	xor	t2, t3, a2
	xor	t1, s5, s0
	slli	s1, a1, 4
	xor	a1, t5, a1
	xor	t3, t4, a7
	srli	a0, s2, 2
	srli	a2, s3, 2
	xor	a7, a5, a6
	xor	a6, s1, a1
	xor	s0, a0, s2
	xor	a2, a2, s3
	srli	s1, t0, 2
	srli	a1, t2, 2
	srli	a5, t1, 2
	srli	t6, t3, 2
	lw	a0, 12(sp)                      # 4-byte Folded Reload
	and	s6, s0, a0
	and	a2, a2, a0
	xor	s1, s1, t0
	srli	t4, a7, 2
	xor	a1, a1, t2
	xor	a5, a5, t1
	srli	t5, a6, 2
	xor	s0, t6, t3
	slli	t6, s6, 2
	slli	s4, a2, 2
	and	s1, s1, a0
	xor	t4, t4, a7
	and	a1, a1, a0
	and	a5, a5, a0
	xor	t5, t5, a6
	and	s0, s0, a0
	add	s6, s6, t6
	add	s4, s4, a2
	slli	t6, s1, 2
	and	a2, t4, a0
	slli	t4, a1, 2
	slli	s5, a5, 2
	and	a0, t5, a0
	xor	t5, s6, s2
	slli	s2, s0, 2
	xor	s3, s4, s3
	add	t6, t6, s1
	slli	s1, a2, 2
	add	s4, t4, a1
	add	a5, a5, s5
	slli	t4, a0, 2
	add	s0, s0, s2
	xor	s6, t6, t0
	add	t0, s1, a2
	xor	s1, s4, t2
	xor	a5, a5, t1
	add	t4, t4, a0
	xor	s0, s0, t3
	srli	t1, t5, 8
	slli	t2, t5, 24
	srli	t3, s3, 8
	slli	a1, s3, 24
	xor	a7, t0, a7
	xor	a0, t4, a6
	or	a6, t2, t1
	or	t0, a1, t3
	srli	t1, s6, 8
	slli	a1, s6, 24
	srli	t2, s1, 8
	slli	t3, s1, 24
	srli	t4, a5, 8
	slli	t6, a5, 24
	srli	s2, s0, 8
	slli	s4, s0, 24
	or	s7, a1, t1
	srli	t1, a7, 8
	slli	s5, a7, 24
	or	t2, t3, t2
	or	t3, t6, t4
	srli	t4, a0, 8
	slli	t6, a0, 24
	or	s2, s4, s2
	xor	t5, a6, t5
	xor	a1, t0, s3
	or	t1, s5, t1
	or	t4, t6, t4
	xor	a2, s7, s6
	xor	s1, t2, s1
	xor	a5, t3, a5
	xor	s0, s2, s0
	srli	t6, t5, 16
	slli	s3, t5, 16
	srli	s4, a1, 16
	xor	s5, s7, a1
	slli	a1, a1, 16
	xor	s6, t4, a0
	or	t6, s3, t6
	or	s3, a1, s4
	srli	a1, a2, 16
	slli	a0, a2, 16
	or	s4, a0, a1
	srli	a1, s1, 16
	xor	t3, s1, t3
	slli	s1, s1, 16
	or	s7, s1, a1
	srli	s1, a5, 16
	xor	t4, t4, a5
	slli	a5, a5, 16
	or	s8, a5, s1
	srli	s1, s0, 16
	xor	a0, a6, s0
	xor	a1, t0, s0
	xor	a2, a2, s0
	xor	a5, t2, s0
	slli	s0, s0, 16
	or	a6, s0, s1
	xor	t2, a0, t6
	xor	a1, a1, s3
	xor	s1, t1, a7
	xor	a7, a2, t1
	srli	s0, s1, 16
	xor	a5, a5, s1
	slli	s1, s1, 16
	or	t0, s1, s0
	srli	s1, s6, 16
	xor	a2, s2, s6
	slli	s6, s6, 16
	or	s1, s6, s1
	xor	a1, a1, t5
	xor	s0, s5, s4
	xor	t1, a5, s7
	xor	t5, t3, s8
	xor	a6, a6, a2
	xor	a2, a7, t0
	srli	a5, t2, 1
	xor	a7, t4, s1
	xor	a5, a5, a1
	srli	s1, s0, 1
	lw	a0, 40(sp)                      # 4-byte Folded Reload
	and	a5, a5, a0
	xor	t3, a5, a1
	slli	a5, a5, 1
	xor	t0, a5, t2
	srli	a5, t1, 1
	xor	s1, s1, a2
	xor	a5, a5, t5
	and	s1, s1, a0
	xor	a2, a2, s1
	slli	s1, s1, 1
	xor	s0, s0, s1
	srli	s1, a7, 1
	and	a5, a5, a0
	xor	s1, s1, a6
	xor	t2, a5, t5
	slli	a5, a5, 1
	and	s1, s1, a0
	xor	t1, a5, t1
	srli	a1, t3, 2
	xor	a5, s1, a6
	slli	s1, s1, 1
	xor	s1, s1, a7
	srli	a0, t0, 2
	xor	a1, a1, a2
	and	a1, a1, a3
	xor	t4, a1, a2
	slli	a1, a1, 2
	xor	a6, a1, t3
	srli	a1, t2, 2
	xor	a0, a0, s0
	and	a0, a0, a3
	xor	t3, a0, s0
	slli	a0, a0, 2
	xor	a7, a0, t0
	srli	a0, t1, 2
	xor	a1, a1, a5
	xor	a0, a0, s1
	and	a1, a1, a3
	and	a0, a0, a3
	xor	a5, a5, a1
	slli	a1, a1, 2
	xor	a1, a1, t2
	srli	a2, t4, 4
	xor	s1, s1, a0
	slli	a0, a0, 2
	xor	s0, a0, t1
	srli	a0, a6, 4
	xor	a2, a2, a5
	lw	a3, 36(sp)                      # 4-byte Folded Reload
	and	a2, a2, a3
	xor	t0, a2, a5
	slli	a2, a2, 4
	xor	a2, a2, t4
	srli	t1, t3, 4
	xor	a0, a0, a1
	and	a0, a0, a3
	xor	a1, a1, a0
	slli	a0, a0, 4
	xor	a6, a0, a6
	srli	a5, a7, 4
	xor	a0, t1, s1
	xor	a5, a5, s0
	and	a0, a0, a3
	and	a5, a5, a3
	xor	s1, s1, a0
	slli	a0, a0, 4
	xor	s0, s0, a5
	slli	a5, a5, 4
	xor	a0, a0, t3
	srli	t1, s1, 8
	xor	t2, a5, a7
	srli	a7, s1, 16
	sb	t1, 13(a4)
	sb	s1, 12(a4)
	srli	s1, s1, 24
	sb	a7, 14(a4)
	srli	a5, a2, 8
	sb	s1, 15(a4)
	srli	s1, a2, 16
	sb	a5, 21(a4)
	sb	a2, 20(a4)
	srli	a2, a2, 24
	sb	s1, 22(a4)
	srli	a5, a1, 8
	sb	a2, 23(a4)
	srli	a2, a1, 16
	sb	a5, 25(a4)
	sb	a1, 24(a4)
	srli	a1, a1, 24
	sb	a2, 26(a4)
	srli	a2, a0, 8
	sb	a1, 27(a4)
	srli	a1, a0, 16
	sb	a2, 5(a4)
	sb	a0, 4(a4)
	srli	a0, a0, 24
	sb	a1, 6(a4)
	srli	a1, s0, 8
	sb	a0, 7(a4)
	srli	a0, s0, 16
	sb	a1, 9(a4)
	sb	s0, 8(a4)
	srli	s0, s0, 24
	sb	a0, 10(a4)
	srli	a0, a6, 8
	sb	s0, 11(a4)
	srli	a1, a6, 16
	sb	a0, 17(a4)
	sb	a6, 16(a4)
	srli	a0, a6, 24
	sb	a1, 18(a4)
	srli	a1, t2, 8
	sb	a0, 19(a4)
	srli	a0, t2, 16
	sb	a1, 1(a4)
	sb	t2, 0(a4)
	srli	a1, t2, 24
	sb	a0, 2(a4)
	srli	a0, t0, 8
	sb	a1, 3(a4)
	srli	a1, t0, 16
	sb	a0, 29(a4)
	sb	t0, 28(a4)
	srli	a0, t0, 24
	sb	a1, 30(a4)
	sb	a0, 31(a4)
	lw	a4, 28(sp)                      # 4-byte Folded Reload
	lw	a3, 24(sp)                      # 4-byte Folded Reload
	lw	a0, 32(sp)                      # 4-byte Folded Reload
	bnez	a0, .Laes_BB39_1
# %bb.2:                                # %join.5.i.i.i.preheader
	li	a3, 0
	li	t3, 0
	lw	s10, 4(sp)                      # 4-byte Folded Reload
.Laes_BB39_3:                               # %join.5.i.i.i
                                        # =>This Inner Loop Header: Depth=1
	slli	a4, a3, 4
	sltiu	a0, a3, 7
	addi	a3, a3, 1
	seqz	a1, t3
	add	a5, s11, a4
	add	a4, a4, s10
	seqz	t6, a3
	and	a6, a1, a0
	lbu	a7, 4(a5)
	lbu	t0, 5(a5)
	lbu	t1, 6(a5)
	lbu	t2, 7(a5)
	lbu	t4, 12(a5)
	lbu	t5, 13(a5)
	lbu	s2, 14(a5)
	lbu	a2, 15(a5)
	lbu	s6, 12(a4)
	lbu	s7, 13(a4)
	lbu	s1, 14(a4)
	lbu	a1, 15(a4)
	lbu	s3, 8(a5)
	lbu	s4, 9(a5)
	lbu	s5, 10(a5)
	lbu	s0, 11(a5)
	add	t3, t3, t6
	xor	t6, a1, a2
	lbu	s8, 8(a4)
	lbu	a1, 9(a4)
	lbu	a0, 10(a4)
	lbu	a2, 11(a4)
	xor	s2, s1, s2
	xor	t5, s7, t5
	xor	t4, s6, t4
	xor	s6, a2, s0
	lbu	s7, 4(a4)
	lbu	s1, 5(a4)
	lbu	a2, 6(a4)
	lbu	s0, 7(a4)
	xor	s5, a0, s5
	xor	s4, a1, s4
	xor	s3, s8, s3
	xor	t2, s0, t2
	lbu	s8, 0(a5)
	lbu	s9, 1(a5)
	lbu	s0, 2(a5)
	lbu	a1, 3(a5)
	xor	t1, a2, t1
	xor	t0, s1, t0
	xor	a7, s7, a7
	lbu	s1, 3(a4)
	lbu	a2, 2(a4)
	lbu	a0, 1(a4)
	lbu	a4, 0(a4)
	xor	a1, a1, s1
	xor	a2, a2, s0
	xor	a0, a0, s9
	xor	a4, a4, s8
	sb	a4, 0(a5)
	sb	a0, 1(a5)
	sb	a2, 2(a5)
	sb	a1, 3(a5)
	sb	a7, 4(a5)
	sb	t0, 5(a5)
	sb	t1, 6(a5)
	sb	t2, 7(a5)
	sb	s3, 8(a5)
	sb	s4, 9(a5)
	sb	s5, 10(a5)
	sb	s6, 11(a5)
	sb	t4, 12(a5)
	sb	t5, 13(a5)
	sb	s2, 14(a5)
	sb	t6, 15(a5)
	bnez	a6, .Laes_BB39_3
# %bb.4:                                # %"aes_soft::soft::hazmat::par::cipher_round_par::<#e817d94f9a7b6ba6>.exit"
	lw	ra, 92(sp)                      # 4-byte Folded Reload
	lw	s0, 88(sp)                      # 4-byte Folded Reload
	lw	s1, 84(sp)                      # 4-byte Folded Reload
	lw	s2, 80(sp)                      # 4-byte Folded Reload
	lw	s3, 76(sp)                      # 4-byte Folded Reload
	lw	s4, 72(sp)                      # 4-byte Folded Reload
	lw	s5, 68(sp)                      # 4-byte Folded Reload
	lw	s6, 64(sp)                      # 4-byte Folded Reload
	lw	s7, 60(sp)                      # 4-byte Folded Reload
	lw	s8, 56(sp)                      # 4-byte Folded Reload
	lw	s9, 52(sp)                      # 4-byte Folded Reload
	lw	s10, 48(sp)                     # 4-byte Folded Reload
	lw	s11, 44(sp)                     # 4-byte Folded Reload
	addi	sp, sp, 96
	ret
.Laes_func_end39:
	.size	aes.aes_c.single_rounds.rounds, .Laes_func_end39-aes.aes_c.single_rounds.rounds
                                        # -- End function
	.section	.text.aes.ccm.mode.decrypt,"ax",@progbits
	.p2align	1                               # -- Begin function ccm::mode::decrypt::<#4f733d09d7f6c6b4>
	.type	aes.ccm.mode.decrypt,@function
aes.ccm.mode.decrypt: # @aes.ccm.mode.decrypt
# %bb.0:                                # %start
	addi	sp, sp, -112
	sw	ra, 108(sp)                     # 4-byte Folded Spill
	sw	s0, 104(sp)                     # 4-byte Folded Spill
	sw	s1, 100(sp)                     # 4-byte Folded Spill
	sw	s2, 96(sp)                      # 4-byte Folded Spill
	sw	s3, 92(sp)                      # 4-byte Folded Spill
	sw	s4, 88(sp)                      # 4-byte Folded Spill
	sw	s5, 84(sp)                      # 4-byte Folded Spill
	sw	s6, 80(sp)                      # 4-byte Folded Spill
	sw	s7, 76(sp)                      # 4-byte Folded Spill
	sw	s8, 72(sp)                      # 4-byte Folded Spill
	sw	s9, 68(sp)                      # 4-byte Folded Spill
	sw	s10, 64(sp)                     # 4-byte Folded Spill
	sw	s11, 60(sp)                     # 4-byte Folded Spill
	lw	s2, 112(sp)
	lw	s3, 116(sp)
	addi	s0, s2, -4
	sltu	s1, s0, s2
	add	s1, s1, s3
	addi	s1, s1, -1
	seqz	s1, s1
	sltiu	s0, s0, 13
	and	s0, s0, s1
	li	s1, 0
	beqz	s0, .Laes_BB40_8
# %bb.1:                                # %start
	andi	s0, s2, 1
	bnez	s0, .Laes_BB40_8
# %bb.2:                                # %after.1.i
	addi	s1, a3, -14
	sltu	s0, s1, a3
	add	s0, s0, a4
	snez	s0, s0
	sltiu	s1, s1, -7
	or	s0, s0, s1
	beqz	s0, .Laes_BB40_4
# %bb.3:
	li	s1, 1
	j	.Laes_BB40_8
.Laes_BB40_4:                               # %after.15.i
	xori	s1, a3, 7
	or	s1, s1, a4
	beqz	s1, .Laes_BB40_11
# %bb.5:                                # %"ccm::formatting::check.exit"
	slli	s1, a3, 3
	xori	s1, s1, 120
	addi	t1, s1, -32
	srl	t0, t5, s1
	bltz	t1, .Laes_BB40_10
# %bb.6:                                # %"ccm::formatting::check.exit"
	srai	s0, t1, 31
	and	s0, s0, t0
	or	s0, t0, s0
	beqz	s0, .Laes_BB40_11
.Laes_BB40_7:
	li	s1, 2
.Laes_BB40_8:                               # %arm.1
	li	a1, 1
	sb	a1, 0(a0)
	sb	zero, 1(a0)
	sb	s1, 2(a0)
.Laes_BB40_9:                               # %common.ret
	lw	ra, 108(sp)                     # 4-byte Folded Reload
	lw	s0, 104(sp)                     # 4-byte Folded Reload
	lw	s1, 100(sp)                     # 4-byte Folded Reload
	lw	s2, 96(sp)                      # 4-byte Folded Reload
	lw	s3, 92(sp)                      # 4-byte Folded Reload
	lw	s4, 88(sp)                      # 4-byte Folded Reload
	lw	s5, 84(sp)                      # 4-byte Folded Reload
	lw	s6, 80(sp)                      # 4-byte Folded Reload
	lw	s7, 76(sp)                      # 4-byte Folded Reload
	lw	s8, 72(sp)                      # 4-byte Folded Reload
	lw	s9, 68(sp)                      # 4-byte Folded Reload
	lw	s10, 64(sp)                     # 4-byte Folded Reload
	lw	s11, 60(sp)                     # 4-byte Folded Reload
	addi	sp, sp, 112
	ret
.Laes_BB40_10:
	srl	t2, t4, s1
	slli	s0, t5, 1
	not	s1, s1
	sll	s0, s0, s1
	or	s1, t2, s0
	srai	s0, t1, 31
	and	s0, s0, t0
	or	s0, s0, s1
	bnez	s0, .Laes_BB40_7
.Laes_BB40_11:                              # %join.4
	sw	a0, 24(sp)                      # 4-byte Folded Spill
	li	a0, 14
	sw	zero, 28(sp)
	sw	zero, 32(sp)
	sw	zero, 36(sp)
	sh	zero, 40(sp)
	sub	s0, a0, a3
	sb	zero, 42(sp)
	addi	a0, sp, 28
	mv	s1, a1
	mv	a1, a2
	mv	s4, a2
	mv	a2, a3
	mv	s8, t5
	mv	s9, t4
	mv	s10, t3
	mv	s11, a3
	sw	t6, 20(sp)                      # 4-byte Folded Spill
	sw	a7, 16(sp)                      # 4-byte Folded Spill
	mv	s6, a6
	mv	s7, a5
	mv	s5, a4
	call	memcpy
	sw	s0, 4(sp)                       # 4-byte Folded Spill
	sb	s0, 44(sp)
	addi	a0, sp, 45
	addi	a1, sp, 28
	li	a2, 15
	call	memcpy
	addi	a1, sp, 44
	li	a2, 16
	mv	a0, s1
	li	a3, 0
	mv	a4, s10
	mv	a5, s9
	mv	a6, s8
	call	aes.aes_ctr.add_in_batches.add_keystream
	sw	zero, 28(sp)
	sw	zero, 32(sp)
	sw	zero, 36(sp)
	sw	zero, 40(sp)
	addi	a0, sp, 28
	sw	a0, 0(sp)
	sw	s1, 12(sp)                      # 4-byte Folded Spill
	mv	a0, s1
	sw	s4, 8(sp)                       # 4-byte Folded Spill
	mv	a1, s4
	mv	s1, s11
	mv	a2, s11
	mv	a3, s5
	mv	a4, s2
	mv	a5, s3
	mv	a6, s7
	mv	a7, s6
	lw	t3, 16(sp)                      # 4-byte Folded Reload
	mv	s4, s10
	mv	t4, s10
	mv	s3, s9
	mv	t5, s9
	mv	s0, s8
	mv	t6, s8
	call	aes.ccm.message.put_tag
	lw	a0, 28(sp)
	lw	a1, 32(sp)
	lw	a2, 36(sp)
	lw	a3, 40(sp)
	sw	a0, 44(sp)
	sw	a1, 48(sp)
	sw	a2, 52(sp)
	sw	a3, 56(sp)
	addi	a0, sp, 44
	lw	a1, 20(sp)                      # 4-byte Folded Reload
	mv	a2, s2
	call	memcpy
	addi	a0, sp, 44
	addi	a1, sp, 28
	call	aes.aes_cipher.blocks.difference
	beqz	a0, .Laes_BB40_13
# %bb.12:                               # %join.7
	sw	zero, 28(sp)
	sw	zero, 32(sp)
	sw	zero, 36(sp)
	sh	zero, 40(sp)
	sb	zero, 42(sp)
	addi	a0, sp, 28
	lw	a1, 8(sp)                       # 4-byte Folded Reload
	mv	a2, s1
	call	memcpy
	lw	a0, 4(sp)                       # 4-byte Folded Reload
	sb	a0, 44(sp)
	addi	a0, sp, 45
	addi	a1, sp, 28
	li	a2, 15
	call	memcpy
	addi	a1, sp, 44
	li	a2, 16
	lw	a0, 12(sp)                      # 4-byte Folded Reload
	li	a3, 0
	mv	a4, s4
	mv	a5, s3
	mv	a6, s0
	call	aes.aes_ctr.add_in_batches.add_keystream
	li	a0, 1
	lw	a1, 24(sp)                      # 4-byte Folded Reload
	sb	a0, 0(a1)
	sb	a0, 1(a1)
	sb	zero, 2(a1)
	j	.Laes_BB40_9
.Laes_BB40_13:                              # %then.5
	lw	a0, 24(sp)                      # 4-byte Folded Reload
	sb	zero, 0(a0)
	sb	zero, 1(a0)
	sb	zero, 2(a0)
	j	.Laes_BB40_9
.Laes_func_end40:
	.size	aes.ccm.mode.decrypt, .Laes_func_end40-aes.ccm.mode.decrypt
                                        # -- End function
	.section	.text.aes.ccm.message.put_tag,"ax",@progbits
	.p2align	1                               # -- Begin function ccm::message::put_tag::<#4f733d09d7f6c6b4>
	.type	aes.ccm.message.put_tag,@function
aes.ccm.message.put_tag: # @aes.ccm.message.put_tag
# %bb.0:                                # %start
	addi	sp, sp, -144
	sw	ra, 140(sp)                     # 4-byte Folded Spill
	sw	s0, 136(sp)                     # 4-byte Folded Spill
	sw	s1, 132(sp)                     # 4-byte Folded Spill
	sw	s2, 128(sp)                     # 4-byte Folded Spill
	sw	s3, 124(sp)                     # 4-byte Folded Spill
	sw	s4, 120(sp)                     # 4-byte Folded Spill
	sw	s5, 116(sp)                     # 4-byte Folded Spill
	sw	s6, 112(sp)                     # 4-byte Folded Spill
	sw	s7, 108(sp)                     # 4-byte Folded Spill
	sw	s8, 104(sp)                     # 4-byte Folded Spill
	sw	s9, 100(sp)                     # 4-byte Folded Spill
	sw	s10, 96(sp)                     # 4-byte Folded Spill
	sw	s11, 92(sp)                     # 4-byte Folded Spill
	sw	t4, 20(sp)                      # 4-byte Folded Spill
	mv	s5, t3
	mv	s8, a7
	mv	s9, a6
	mv	s0, a2
	mv	a6, a1
	mv	s7, a0
	srli	a0, t6, 8
	lui	a1, 16
	srli	a2, t6, 24
	slli	a3, t6, 24
	srli	s1, t5, 8
	addi	a1, a1, -256
	and	a0, a0, a1
	or	a0, a0, a2
	srli	a2, t5, 24
	and	s1, s1, a1
	or	a2, a2, s1
	sw	t6, 24(sp)                      # 4-byte Folded Spill
	and	s1, t6, a1
	slli	s1, s1, 8
	or	a3, a3, s1
	slli	s1, t5, 24
	sw	t5, 28(sp)                      # 4-byte Folded Spill
	and	a1, t5, a1
	slli	a1, a1, 8
	or	a1, a1, s1
	sw	zero, 32(sp)
	sw	zero, 36(sp)
	sw	zero, 40(sp)
	sw	zero, 44(sp)
	or	a0, a0, a3
	li	a3, 1
	or	a1, a1, a2
	sw	a0, 48(sp)
	sw	a1, 52(sp)
	addi	a0, a4, -2
	bltu	a3, a4, .Laes_BB41_2
# %bb.1:                                # %start
	sltiu	a1, a4, 2
	sub	a1, a5, a1
	sltu	a1, a5, a1
	j	.Laes_BB41_3
.Laes_BB41_2:
	sltu	a1, a4, a0
.Laes_BB41_3:                               # %start
	lw	s10, 144(sp)
	addi	a1, a1, -1
	and	a0, a0, a1
	slli	a0, a0, 2
	andi	a0, a0, 248
	or	s2, s8, s5
	sub	a0, a0, s0
	beqz	s2, .Laes_BB41_5
# %bb.4:                                # %start
	li	a1, 78
	j	.Laes_BB41_6
.Laes_BB41_5:
	li	a1, 14
.Laes_BB41_6:                               # %start
	add	s1, a1, a0
	sw	zero, 60(sp)
	sw	zero, 64(sp)
	sw	zero, 68(sp)
	sh	zero, 72(sp)
	sb	zero, 74(sp)
	addi	a0, sp, 60
	sw	a6, 4(sp)                       # 4-byte Folded Spill
	mv	a1, a6
	mv	a2, s0
	call	memcpy
	sb	s1, 76(sp)
	addi	s1, sp, 77
	addi	a1, sp, 60
	li	a2, 15
	li	s3, 15
	mv	a0, s1
	call	memcpy
	add	a0, s1, s0
	addi	a1, sp, 48
	add	a1, a1, s0
	addi	a1, a1, -7
	sw	s0, 8(sp)                       # 4-byte Folded Spill
	sub	a2, s3, s0
	call	memcpy
	lbu	a0, 76(sp)
	lbu	a1, 77(sp)
	lbu	a2, 78(sp)
	lbu	a3, 79(sp)
	lbu	a4, 80(sp)
	lbu	a5, 81(sp)
	lbu	s1, 82(sp)
	lbu	a6, 83(sp)
	lbu	a7, 84(sp)
	lbu	t0, 85(sp)
	lbu	t1, 86(sp)
	lbu	t2, 87(sp)
	lbu	t3, 88(sp)
	lbu	t4, 89(sp)
	lbu	t5, 90(sp)
	lbu	t6, 91(sp)
	sb	a0, 0(s10)
	sb	a1, 1(s10)
	sb	a2, 2(s10)
	sb	a3, 3(s10)
	sb	a4, 4(s10)
	sb	a5, 5(s10)
	sb	s1, 6(s10)
	sb	a6, 7(s10)
	sb	a7, 8(s10)
	sb	t0, 9(s10)
	sb	t1, 10(s10)
	sb	t2, 11(s10)
	sb	t3, 12(s10)
	sb	t4, 13(s10)
	sb	t5, 14(s10)
	sb	t6, 15(s10)
	lbu	a6, 0(s7)
	lbu	t0, 1(s7)
	lbu	t1, 2(s7)
	lbu	t2, 3(s7)
	lbu	a7, 8(s7)
	lbu	a5, 9(s7)
	lbu	s1, 10(s7)
	lbu	a0, 11(s7)
	lbu	t3, 12(s7)
	lbu	a1, 13(s7)
	lbu	a2, 14(s7)
	lbu	a3, 15(s7)
	slli	t0, t0, 8
	slli	t1, t1, 16
	slli	t2, t2, 24
	slli	t4, a5, 8
	slli	t5, s1, 16
	slli	a5, a0, 24
	slli	a1, a1, 8
	slli	t6, a2, 16
	slli	a3, a3, 24
	or	a4, t0, a6
	or	a0, t2, t1
	or	s1, t4, a7
	or	a5, a5, t5
	or	a2, a1, t3
	or	a3, a3, t6
	or	a0, a0, a4
	or	a1, a5, s1
	or	a2, a2, a3
	li	a4, 1
	mv	a3, s10
	li	a5, 0
	call	aes.aes_narrow.blocks.process_all_batches.1
	call	aes.aes_cipher.zeroize.stack.wipe_stack.1024
	beqz	s2, .Laes_BB41_28
# %bb.7:                                # %join.3.i
	sw	zero, 60(sp)
	sw	zero, 64(sp)
	sw	zero, 68(sp)
	sw	zero, 72(sp)
	srli	a0, s8, 8
	lui	a1, 16
	srli	a3, s5, 8
	slli	a4, s5, 24
	addi	a2, a1, -256
	or	a4, a4, a0
	seqz	a1, a3
	and	a3, s8, a2
	sltiu	a4, a4, 255
	slli	a3, a3, 8
	and	a4, a4, a1
	slli	a1, s8, 24
	or	a1, a1, a3
	beqz	a4, .Laes_BB41_10
# %bb.8:                                # %then.1.i.i
	addi	a0, sp, 82
	addi	a2, sp, 60
	sltu	a3, a2, a0
	sub	a2, a2, a0
	sltiu	a0, a2, 2
	xori	a0, a0, 1
	or	a0, a0, a3
	srli	a1, a1, 16
	bnez	a0, .Laes_BB41_11
# %bb.9:                                # %join.7.i.i.i.i.i.i.preheader.i.i
	zext.b	a0, s8
	sb	a1, 60(sp)
	sb	a0, 61(sp)
	j	.Laes_BB41_12
.Laes_BB41_10:                              # %join.3.i.i
	and	a0, a0, a2
	srli	a2, s8, 24
	or	a0, a0, a2
	li	a2, -257
	or	a0, a0, a1
	srli	a1, a0, 16
	sh	a2, 60(sp)
	sh	a0, 62(sp)
	sh	a1, 64(sp)
	li	a0, 6
	j	.Laes_BB41_13
.Laes_BB41_11:                              # %apart.2.i.i.i.i.i.i.i.i
	sh	a1, 60(sp)
.Laes_BB41_12:                              # %"ccm::formatting::put_length.exit.i"
	li	a0, 2
.Laes_BB41_13:                              # %"ccm::formatting::put_length.exit.i"
	li	a1, 16
	sltiu	s1, a0, 17
	sub	s0, a1, a0
	addi	s2, s1, -1
	sltu	s6, s0, s8
	sltu	s4, s2, s5
	mv	a1, s6
	beq	s2, s5, .Laes_BB41_15
# %bb.14:                               # %"ccm::formatting::put_length.exit.i"
	mv	a1, s4
.Laes_BB41_15:                              # %"ccm::formatting::put_length.exit.i"
	sw	s4, 16(sp)                      # 4-byte Folded Spill
	mv	a2, s2
	bnez	a1, .Laes_BB41_17
# %bb.16:                               # %"ccm::formatting::put_length.exit.i"
	mv	a2, s5
	mv	s0, s8
.Laes_BB41_17:                              # %"ccm::formatting::put_length.exit.i"
	sw	a2, 12(sp)                      # 4-byte Folded Spill
	addi	a1, sp, 60
	add	a0, a0, a1
	mv	s4, s9
	mv	a1, s9
	mv	a2, s0
	call	memcpy
	lbu	a6, 64(sp)
	lbu	a7, 65(sp)
	lbu	t0, 66(sp)
	lbu	t1, 67(sp)
	lbu	t2, 68(sp)
	lbu	t3, 69(sp)
	lbu	t4, 70(sp)
	lbu	t5, 71(sp)
	lbu	t6, 72(sp)
	lbu	ra, 73(sp)
	lbu	a3, 74(sp)
	lbu	a4, 75(sp)
	lbu	a5, 12(s10)
	lbu	s1, 13(s10)
	lbu	a0, 14(s10)
	lbu	a1, 15(s10)
	lbu	a2, 8(s10)
	lbu	s11, 9(s10)
	lbu	s3, 10(s10)
	lbu	s9, 11(s10)
	xor	a1, a1, a4
	xor	a0, a0, a3
	xor	ra, s1, ra
	xor	t6, a5, t6
	lbu	a5, 4(s10)
	lbu	s1, 5(s10)
	lbu	a3, 6(s10)
	lbu	a4, 7(s10)
	xor	t5, s9, t5
	xor	t4, s3, t4
	xor	t3, s11, t3
	xor	t2, a2, t2
	lbu	s3, 60(sp)
	lbu	s9, 61(sp)
	lbu	s11, 62(sp)
	lbu	a2, 63(sp)
	xor	t1, a4, t1
	xor	t0, a3, t0
	xor	a7, s1, a7
	xor	a6, a5, a6
	lbu	a4, 3(s10)
	lbu	a3, 2(s10)
	lbu	s1, 1(s10)
	lbu	a5, 0(s10)
	xor	a2, a2, a4
	xor	a3, a3, s11
	xor	a4, s1, s9
	xor	a5, a5, s3
	sb	a5, 0(s10)
	sb	a4, 1(s10)
	sb	a3, 2(s10)
	sb	a2, 3(s10)
	sb	a6, 4(s10)
	sb	a7, 5(s10)
	sb	t0, 6(s10)
	sb	t1, 7(s10)
	sb	t2, 8(s10)
	sb	t3, 9(s10)
	sb	t4, 10(s10)
	sb	t5, 11(s10)
	sb	t6, 12(s10)
	sb	ra, 13(s10)
	sb	a0, 14(s10)
	sb	a1, 15(s10)
	lbu	a6, 0(s7)
	lbu	a1, 1(s7)
	lbu	a2, 2(s7)
	lbu	a3, 3(s7)
	lbu	a4, 8(s7)
	lbu	a5, 9(s7)
	lbu	s1, 10(s7)
	lbu	a0, 11(s7)
	slli	a1, a1, 8
	slli	a2, a2, 16
	slli	a3, a3, 24
	slli	a5, a5, 8
	slli	s1, s1, 16
	slli	a0, a0, 24
	or	a6, a1, a6
	or	a2, a2, a3
	or	a4, a4, a5
	or	s1, s1, a0
	lbu	a0, 13(s7)
	lbu	a3, 12(s7)
	lbu	a5, 14(s7)
	lbu	a1, 15(s7)
	slli	a0, a0, 8
	or	a3, a3, a0
	slli	a5, a5, 16
	slli	a1, a1, 24
	or	a5, a5, a1
	or	a0, a2, a6
	or	a1, s1, a4
	or	a2, a5, a3
	li	a4, 1
	mv	a3, s10
	li	a5, 0
	call	aes.aes_narrow.blocks.process_all_batches.1
	call	aes.aes_cipher.zeroize.stack.wipe_stack.1024
	beq	s5, s2, .Laes_BB41_19
# %bb.18:                               # %"ccm::formatting::put_length.exit.i"
	lw	s6, 16(sp)                      # 4-byte Folded Reload
.Laes_BB41_19:                              # %"ccm::formatting::put_length.exit.i"
	beqz	s6, .Laes_BB41_28
# %bb.20:                               # %join.5.i.i.preheader
	li	s11, 0
	li	s3, 0
	sltu	a0, s8, s0
	lw	a1, 12(sp)                      # 4-byte Folded Reload
	sub	s1, s5, a1
	sub	s8, s8, s0
	add	s0, s0, s4
	sw	s0, 16(sp)                      # 4-byte Folded Spill
	sub	s6, s1, a0
	srli	a0, s8, 4
	andi	a1, s8, 15
	slli	a2, s6, 28
	snez	s9, a1
	or	a0, a0, a2
	add	s9, s9, a0
	srli	s2, s6, 4
	sw	s9, 12(sp)                      # 4-byte Folded Spill
	sltu	a0, s9, a0
	add	s2, s2, a0
	j	.Laes_BB41_22
.Laes_BB41_21:                              # %join.5.i.i
                                        #   in Loop: Header=BB41_22 Depth=1
	sltu	a0, s3, s2
	beqz	a0, .Laes_BB41_28
.Laes_BB41_22:                              # %join.5.i.i
                                        # =>This Inner Loop Header: Depth=1
	srli	a1, s11, 28
	slli	a2, s3, 4
	slli	a0, s11, 4
	or	a1, a1, a2
	addi	a2, a0, 16
	sltu	a3, a2, a0
	add	a1, a1, a3
	beq	a1, s6, .Laes_BB41_27
# %bb.23:                               # %join.5.i.i
                                        #   in Loop: Header=BB41_22 Depth=1
	sltu	a1, a1, s6
	bnez	a1, .Laes_BB41_25
.Laes_BB41_24:                              # %join.5.i.i
                                        #   in Loop: Header=BB41_22 Depth=1
	mv	a2, s8
.Laes_BB41_25:                              # %join.5.i.i
                                        #   in Loop: Header=BB41_22 Depth=1
	lw	a1, 16(sp)                      # 4-byte Folded Reload
	add	a1, a1, a0
	sub	a2, a2, a0
	sw	zero, 76(sp)
	sw	zero, 80(sp)
	sw	zero, 84(sp)
	sw	zero, 88(sp)
	addi	a0, sp, 76
	call	memcpy
	lbu	a6, 4(s10)
	lbu	a7, 5(s10)
	lbu	t0, 6(s10)
	lbu	t1, 7(s10)
	lbu	t2, 8(s10)
	lbu	t3, 9(s10)
	lbu	t4, 10(s10)
	lbu	t5, 11(s10)
	lbu	t6, 12(s10)
	lbu	ra, 13(s10)
	lbu	a3, 14(s10)
	lbu	a4, 15(s10)
	lbu	a5, 88(sp)
	lbu	s1, 89(sp)
	lbu	a0, 90(sp)
	lbu	a1, 91(sp)
	lbu	a2, 84(sp)
	lbu	s9, 85(sp)
	lbu	s5, 86(sp)
	lbu	s4, 87(sp)
	xor	a1, a1, a4
	xor	a0, a0, a3
	xor	ra, s1, ra
	xor	t6, a5, t6
	lbu	a5, 80(sp)
	lbu	s1, 81(sp)
	lbu	a3, 82(sp)
	lbu	a4, 83(sp)
	xor	t5, s4, t5
	xor	t4, s5, t4
	xor	t3, s9, t3
	xor	t2, a2, t2
	lbu	s4, 0(s10)
	lbu	s5, 1(s10)
	lbu	a2, 2(s10)
	lbu	s0, 3(s10)
	xor	t1, a4, t1
	xor	t0, a3, t0
	xor	a7, s1, a7
	xor	a6, a5, a6
	lbu	a4, 79(sp)
	lbu	a3, 78(sp)
	lbu	s1, 77(sp)
	lbu	a5, 76(sp)
	xor	a4, a4, s0
	xor	a2, a2, a3
	xor	a3, s1, s5
	xor	a5, a5, s4
	sb	a5, 0(s10)
	sb	a3, 1(s10)
	sb	a2, 2(s10)
	sb	a4, 3(s10)
	sb	a6, 4(s10)
	sb	a7, 5(s10)
	sb	t0, 6(s10)
	sb	t1, 7(s10)
	sb	t2, 8(s10)
	sb	t3, 9(s10)
	sb	t4, 10(s10)
	sb	t5, 11(s10)
	sb	t6, 12(s10)
	sb	ra, 13(s10)
	sb	a0, 14(s10)
	sb	a1, 15(s10)
	lbu	a0, 0(s7)
	lbu	a1, 1(s7)
	lbu	a2, 2(s7)
	lbu	a3, 3(s7)
	lbu	a4, 8(s7)
	lbu	a5, 9(s7)
	lbu	s1, 10(s7)
	lbu	s0, 11(s7)
	slli	a1, a1, 8
	slli	a2, a2, 16
	slli	a3, a3, 24
	slli	a5, a5, 8
	slli	s1, s1, 16
	slli	s0, s0, 24
	or	a0, a0, a1
	or	a2, a2, a3
	or	a4, a4, a5
	or	a1, s0, s1
	lbu	a3, 13(s7)
	lbu	a5, 12(s7)
	lbu	s1, 14(s7)
	lbu	s0, 15(s7)
	slli	a3, a3, 8
	or	a3, a3, a5
	slli	s1, s1, 16
	slli	s0, s0, 24
	or	s0, s0, s1
	or	a0, a0, a2
	or	a1, a1, a4
	or	a2, s0, a3
	li	a4, 1
	mv	a3, s10
	li	a5, 0
	call	aes.aes_narrow.blocks.process_all_batches.1
	call	aes.aes_cipher.zeroize.stack.wipe_stack.1024
	addi	s11, s11, 1
	seqz	a0, s11
	add	s3, s3, a0
	bne	s3, s2, .Laes_BB41_21
# %bb.26:                               #   in Loop: Header=BB41_22 Depth=1
	lw	a0, 12(sp)                      # 4-byte Folded Reload
	sltu	a0, s11, a0
	bnez	a0, .Laes_BB41_22
	j	.Laes_BB41_28
.Laes_BB41_27:                              #   in Loop: Header=BB41_22 Depth=1
	sltu	a1, a2, s8
	beqz	a1, .Laes_BB41_24
	j	.Laes_BB41_25
.Laes_BB41_28:                              # %"ccm::message::chain_additional::<#4f733d09d7f6c6b4>.exit"
	lw	a4, 24(sp)                      # 4-byte Folded Reload
	lw	a0, 28(sp)                      # 4-byte Folded Reload
	or	a0, a0, a4
	beqz	a0, .Laes_BB41_37
# %bb.29:                               # %join.5.i.preheader
	li	s4, 0
	li	s3, 0
	lw	a1, 28(sp)                      # 4-byte Folded Reload
	addi	a0, a1, 15
	sltu	a1, a0, a1
	srli	a0, a0, 4
	add	a1, a1, a4
	slli	a2, a1, 28
	or	s8, a0, a2
	srli	s2, a1, 4
	j	.Laes_BB41_31
.Laes_BB41_30:                              # %join.5.i
                                        #   in Loop: Header=BB41_31 Depth=1
	sltu	a0, s3, s2
	lw	a4, 24(sp)                      # 4-byte Folded Reload
	beqz	a0, .Laes_BB41_37
.Laes_BB41_31:                              # %join.5.i
                                        # =>This Inner Loop Header: Depth=1
	srli	a1, s4, 28
	slli	a2, s3, 4
	slli	a0, s4, 4
	or	a1, a1, a2
	addi	a2, a0, 16
	sltu	a3, a2, a0
	add	a1, a1, a3
	beq	a1, a4, .Laes_BB41_36
# %bb.32:                               # %join.5.i
                                        #   in Loop: Header=BB41_31 Depth=1
	sltu	a1, a1, a4
	bnez	a1, .Laes_BB41_34
.Laes_BB41_33:                              # %join.5.i
                                        #   in Loop: Header=BB41_31 Depth=1
	lw	a2, 28(sp)                      # 4-byte Folded Reload
.Laes_BB41_34:                              # %join.5.i
                                        #   in Loop: Header=BB41_31 Depth=1
	lw	a1, 20(sp)                      # 4-byte Folded Reload
	add	a1, a1, a0
	sub	a2, a2, a0
	sw	zero, 76(sp)
	sw	zero, 80(sp)
	sw	zero, 84(sp)
	sw	zero, 88(sp)
	addi	a0, sp, 76
	call	memcpy
	lbu	a6, 4(s10)
	lbu	a7, 5(s10)
	lbu	t0, 6(s10)
	lbu	t1, 7(s10)
	lbu	t2, 8(s10)
	lbu	t3, 9(s10)
	lbu	t4, 10(s10)
	lbu	t5, 11(s10)
	lbu	t6, 12(s10)
	lbu	s5, 13(s10)
	lbu	s6, 14(s10)
	lbu	s9, 15(s10)
	lbu	a4, 88(sp)
	lbu	a5, 89(sp)
	lbu	s0, 90(sp)
	lbu	s1, 91(sp)
	lbu	a0, 84(sp)
	lbu	a1, 85(sp)
	lbu	a2, 86(sp)
	lbu	a3, 87(sp)
	xor	s9, s1, s9
	xor	s6, s0, s6
	xor	s5, a5, s5
	xor	t6, a4, t6
	lbu	s1, 80(sp)
	lbu	s0, 81(sp)
	lbu	a5, 82(sp)
	lbu	a4, 83(sp)
	xor	t5, a3, t5
	xor	t4, a2, t4
	xor	t3, a1, t3
	xor	t2, a0, t2
	lbu	s11, 0(s10)
	lbu	a2, 1(s10)
	lbu	a1, 2(s10)
	lbu	a0, 3(s10)
	xor	t1, a4, t1
	xor	t0, a5, t0
	xor	a7, s0, a7
	xor	s1, s1, a6
	lbu	a4, 79(sp)
	lbu	a5, 78(sp)
	lbu	a3, 77(sp)
	lbu	s0, 76(sp)
	xor	a0, a0, a4
	xor	a1, a1, a5
	xor	a2, a2, a3
	xor	a3, s0, s11
	sb	a3, 0(s10)
	sb	a2, 1(s10)
	sb	a1, 2(s10)
	sb	a0, 3(s10)
	sb	s1, 4(s10)
	sb	a7, 5(s10)
	sb	t0, 6(s10)
	sb	t1, 7(s10)
	sb	t2, 8(s10)
	sb	t3, 9(s10)
	sb	t4, 10(s10)
	sb	t5, 11(s10)
	sb	t6, 12(s10)
	sb	s5, 13(s10)
	sb	s6, 14(s10)
	sb	s9, 15(s10)
	lbu	a0, 0(s7)
	lbu	a1, 1(s7)
	lbu	a2, 2(s7)
	lbu	a3, 3(s7)
	lbu	a4, 8(s7)
	lbu	a5, 9(s7)
	lbu	s1, 10(s7)
	lbu	s0, 11(s7)
	slli	a1, a1, 8
	slli	a2, a2, 16
	slli	a3, a3, 24
	slli	a5, a5, 8
	slli	s1, s1, 16
	slli	s0, s0, 24
	or	a0, a0, a1
	or	a2, a2, a3
	or	a4, a4, a5
	or	a1, s0, s1
	lbu	a3, 13(s7)
	lbu	a5, 12(s7)
	lbu	s1, 14(s7)
	lbu	s0, 15(s7)
	slli	a3, a3, 8
	or	a3, a3, a5
	slli	s1, s1, 16
	slli	s0, s0, 24
	or	s0, s0, s1
	or	a0, a0, a2
	or	a1, a1, a4
	or	a2, s0, a3
	li	a4, 1
	mv	a3, s10
	li	a5, 0
	call	aes.aes_narrow.blocks.process_all_batches.1
	call	aes.aes_cipher.zeroize.stack.wipe_stack.1024
	addi	s4, s4, 1
	seqz	a0, s4
	add	s3, s3, a0
	bne	s3, s2, .Laes_BB41_30
# %bb.35:                               #   in Loop: Header=BB41_31 Depth=1
	sltu	a0, s4, s8
	lw	a4, 24(sp)                      # 4-byte Folded Reload
	bnez	a0, .Laes_BB41_31
	j	.Laes_BB41_37
.Laes_BB41_36:                              #   in Loop: Header=BB41_31 Depth=1
	lw	a1, 28(sp)                      # 4-byte Folded Reload
	sltu	a1, a2, a1
	beqz	a1, .Laes_BB41_33
	j	.Laes_BB41_34
.Laes_BB41_37:                              # %"cmac::chaining::chain::<#4f733d09d7f6c6b4>.exit"
	li	a0, 14
	sb	zero, 90(sp)
	lw	a2, 8(sp)                       # 4-byte Folded Reload
	sub	s2, a0, a2
	sw	zero, 76(sp)
	sw	zero, 80(sp)
	sw	zero, 84(sp)
	sh	zero, 88(sp)
	addi	a0, sp, 76
	lw	a1, 4(sp)                       # 4-byte Folded Reload
	call	memcpy
	lbu	a0, 76(sp)
	lbu	a1, 77(sp)
	lbu	a2, 78(sp)
	lbu	s3, 79(sp)
	lbu	s4, 80(sp)
	lbu	s5, 81(sp)
	lbu	s1, 82(sp)
	lbu	a7, 83(sp)
	lbu	t0, 84(sp)
	lbu	t1, 85(sp)
	lbu	t2, 86(sp)
	lbu	t3, 87(sp)
	lbu	t4, 88(sp)
	lbu	t5, 89(sp)
	lbu	a6, 90(sp)
	lbu	t6, 0(s7)
	lbu	s6, 1(s7)
	lbu	s8, 2(s7)
	lbu	a4, 3(s7)
	sb	s2, 32(sp)
	sb	a0, 33(sp)
	sb	a1, 34(sp)
	sb	a2, 35(sp)
	lbu	s2, 8(s7)
	lbu	a1, 9(s7)
	lbu	a2, 10(s7)
	lbu	a5, 11(s7)
	sb	s3, 36(sp)
	sb	s4, 37(sp)
	sb	s5, 38(sp)
	sb	s1, 39(sp)
	lbu	s3, 12(s7)
	lbu	s0, 13(s7)
	lbu	a0, 14(s7)
	lbu	a3, 15(s7)
	sb	a7, 40(sp)
	sb	t0, 41(sp)
	sb	t1, 42(sp)
	sb	t2, 43(sp)
	sb	t3, 44(sp)
	sb	t4, 45(sp)
	sb	t5, 46(sp)
	sb	a6, 47(sp)
	slli	s6, s6, 8
	slli	s8, s8, 16
	slli	a4, a4, 24
	slli	a1, a1, 8
	slli	a2, a2, 16
	slli	a5, a5, 24
	slli	s0, s0, 8
	slli	a0, a0, 16
	slli	a3, a3, 24
	or	s1, s6, t6
	or	a4, a4, s8
	or	a1, a1, s2
	or	a2, a2, a5
	or	a5, s0, s3
	or	a3, a3, a0
	or	a0, a4, s1
	or	a1, a1, a2
	or	a2, a3, a5
	addi	a3, sp, 32
	li	a4, 1
	li	a5, 0
	call	aes.aes_narrow.blocks.process_all_batches.1
	call	aes.aes_cipher.zeroize.stack.wipe_stack.1024
	lbu	a6, 4(s10)
	lbu	a7, 5(s10)
	lbu	t0, 6(s10)
	lbu	t1, 7(s10)
	lbu	t2, 8(s10)
	lbu	t3, 9(s10)
	lbu	t4, 10(s10)
	lbu	t5, 11(s10)
	lbu	t6, 12(s10)
	lbu	s2, 13(s10)
	lbu	s3, 14(s10)
	lbu	s4, 15(s10)
	lbu	a4, 44(sp)
	lbu	a5, 45(sp)
	lbu	s1, 46(sp)
	lbu	s0, 47(sp)
	lbu	a0, 40(sp)
	lbu	a1, 41(sp)
	lbu	a2, 42(sp)
	lbu	a3, 43(sp)
	xor	s4, s0, s4
	xor	s3, s1, s3
	xor	s2, a5, s2
	xor	t6, a4, t6
	lbu	s0, 36(sp)
	lbu	s1, 37(sp)
	lbu	a5, 38(sp)
	lbu	a4, 39(sp)
	xor	t5, a3, t5
	xor	t4, a2, t4
	xor	t3, a1, t3
	xor	t2, a0, t2
	lbu	s5, 0(s10)
	lbu	a2, 1(s10)
	lbu	a1, 2(s10)
	lbu	a0, 3(s10)
	xor	t1, a4, t1
	xor	t0, a5, t0
	xor	a7, s1, a7
	xor	s0, s0, a6
	lbu	a4, 35(sp)
	lbu	a5, 34(sp)
	lbu	a3, 33(sp)
	lbu	s1, 32(sp)
	xor	a0, a0, a4
	xor	a1, a1, a5
	xor	a2, a2, a3
	xor	a3, s1, s5
	sb	a3, 0(s10)
	sb	a2, 1(s10)
	sb	a1, 2(s10)
	sb	a0, 3(s10)
	sb	s0, 4(s10)
	sb	a7, 5(s10)
	sb	t0, 6(s10)
	sb	t1, 7(s10)
	sb	t2, 8(s10)
	sb	t3, 9(s10)
	sb	t4, 10(s10)
	sb	t5, 11(s10)
	sb	t6, 12(s10)
	sb	s2, 13(s10)
	sb	s3, 14(s10)
	sb	s4, 15(s10)
	lw	ra, 140(sp)                     # 4-byte Folded Reload
	lw	s0, 136(sp)                     # 4-byte Folded Reload
	lw	s1, 132(sp)                     # 4-byte Folded Reload
	lw	s2, 128(sp)                     # 4-byte Folded Reload
	lw	s3, 124(sp)                     # 4-byte Folded Reload
	lw	s4, 120(sp)                     # 4-byte Folded Reload
	lw	s5, 116(sp)                     # 4-byte Folded Reload
	lw	s6, 112(sp)                     # 4-byte Folded Reload
	lw	s7, 108(sp)                     # 4-byte Folded Reload
	lw	s8, 104(sp)                     # 4-byte Folded Reload
	lw	s9, 100(sp)                     # 4-byte Folded Reload
	lw	s10, 96(sp)                     # 4-byte Folded Reload
	lw	s11, 92(sp)                     # 4-byte Folded Reload
	addi	sp, sp, 144
	ret
.Laes_func_end41:
	.size	aes.ccm.message.put_tag, .Laes_func_end41-aes.ccm.message.put_tag
                                        # -- End function
	.section	.text.aes.ccm.mode.encrypt,"ax",@progbits
	.p2align	1                               # -- Begin function ccm::mode::encrypt::<#4f733d09d7f6c6b4>
	.type	aes.ccm.mode.encrypt,@function
aes.ccm.mode.encrypt: # @aes.ccm.mode.encrypt
# %bb.0:                                # %start
	addi	sp, sp, -96
	sw	ra, 92(sp)                      # 4-byte Folded Spill
	sw	s0, 88(sp)                      # 4-byte Folded Spill
	sw	s1, 84(sp)                      # 4-byte Folded Spill
	sw	s2, 80(sp)                      # 4-byte Folded Spill
	sw	s3, 76(sp)                      # 4-byte Folded Spill
	sw	s4, 72(sp)                      # 4-byte Folded Spill
	sw	s5, 68(sp)                      # 4-byte Folded Spill
	sw	s6, 64(sp)                      # 4-byte Folded Spill
	sw	s7, 60(sp)                      # 4-byte Folded Spill
	sw	s8, 56(sp)                      # 4-byte Folded Spill
	mv	t0, a6
	mv	t1, a5
	mv	a6, a4
	lw	a5, 96(sp)
	addi	a4, t6, -4
	sltu	s1, a4, t6
	add	s1, s1, a5
	addi	s1, s1, -1
	seqz	s1, s1
	sltiu	a4, a4, 13
	and	s1, s1, a4
	li	a4, 0
	beqz	s1, .Laes_BB42_4
# %bb.1:                                # %start
	andi	s1, t6, 1
	bnez	s1, .Laes_BB42_4
# %bb.2:                                # %after.1.i
	addi	a4, a2, -14
	sltu	s1, a4, a2
	add	s1, s1, a3
	snez	s1, s1
	sltiu	a4, a4, -7
	or	a4, a4, s1
	beqz	a4, .Laes_BB42_5
# %bb.3:
	li	a4, 1
.Laes_BB42_4:                               # %"ccm::formatting::check.exit.thread"
	li	a0, 1
	j	.Laes_BB42_14
.Laes_BB42_5:                               # %after.15.i
	xori	a4, a2, 7
	or	a4, a4, a3
	bnez	a4, .Laes_BB42_7
# %bb.6:
	mv	s2, t5
	mv	s4, a7
	mv	s5, t3
	mv	s6, t4
	li	s8, 0
	j	.Laes_BB42_10
.Laes_BB42_7:                               # %"ccm::formatting::check.exit"
	slli	a4, a2, 3
	xori	s1, a4, 120
	addi	s0, s1, -32
	srl	a4, t4, s1
	bltz	s0, .Laes_BB42_11
# %bb.8:                                # %"ccm::formatting::check.exit"
	mv	s1, a4
	srai	s0, s0, 31
	and	a4, a4, s0
	or	a4, a4, s1
	snez	s8, a4
	bnez	a4, .Laes_BB42_12
.Laes_BB42_9:
	mv	s2, t5
	mv	s4, a7
	mv	s5, t3
	mv	s6, t4
.Laes_BB42_10:                              # %arm.1
	sw	zero, 8(sp)
	sw	zero, 12(sp)
	sw	zero, 16(sp)
	sw	zero, 20(sp)
	addi	a4, sp, 8
	sw	a4, 0(sp)
	mv	s3, a0
	mv	s7, a1
	mv	s1, a2
	mv	a4, t6
	mv	a7, t1
	mv	t3, t0
	mv	t4, s4
	mv	t5, s5
	mv	s0, t6
	mv	t6, s6
	call	aes.ccm.message.put_tag
	addi	a1, sp, 8
	mv	a0, s2
	mv	a2, s0
	call	memcpy
	li	a0, 14
	sw	zero, 40(sp)
	sw	zero, 44(sp)
	sw	zero, 48(sp)
	sh	zero, 52(sp)
	sub	s0, a0, s1
	sb	zero, 54(sp)
	addi	a0, sp, 40
	mv	a1, s7
	mv	a2, s1
	call	memcpy
	sb	s0, 24(sp)
	addi	a0, sp, 25
	addi	a1, sp, 40
	li	a2, 15
	call	memcpy
	addi	a1, sp, 24
	li	a2, 16
	mv	a0, s3
	li	a3, 0
	mv	a4, s4
	mv	a5, s5
	mv	a6, s6
	call	aes.aes_ctr.add_in_batches.add_keystream
	li	a4, 0
	j	.Laes_BB42_13
.Laes_BB42_11:
	srl	t2, t3, s1
	slli	s2, t4, 1
	not	s1, s1
	sll	s1, s2, s1
	or	s1, t2, s1
	srai	s0, s0, 31
	and	a4, a4, s0
	or	a4, a4, s1
	snez	s8, a4
	beqz	a4, .Laes_BB42_9
.Laes_BB42_12:
	li	a4, 2
.Laes_BB42_13:                              # %return.5
	mv	a0, s8
.Laes_BB42_14:                              # %return.5
	mv	a1, a4
	lw	ra, 92(sp)                      # 4-byte Folded Reload
	lw	s0, 88(sp)                      # 4-byte Folded Reload
	lw	s1, 84(sp)                      # 4-byte Folded Reload
	lw	s2, 80(sp)                      # 4-byte Folded Reload
	lw	s3, 76(sp)                      # 4-byte Folded Reload
	lw	s4, 72(sp)                      # 4-byte Folded Reload
	lw	s5, 68(sp)                      # 4-byte Folded Reload
	lw	s6, 64(sp)                      # 4-byte Folded Reload
	lw	s7, 60(sp)                      # 4-byte Folded Reload
	lw	s8, 56(sp)                      # 4-byte Folded Reload
	addi	sp, sp, 96
	ret
.Laes_func_end42:
	.size	aes.ccm.mode.encrypt, .Laes_func_end42-aes.ccm.mode.encrypt
                                        # -- End function
	.section	.text.aes.fotsgure_aes_version,"ax",@progbits
	export_aes	fotsgure_aes_version
	.p2align	1
	.type	aes.fotsgure_aes_version,@function
aes.fotsgure_aes_version:                   # @aes.fotsgure_aes_version
# %bb.0:
	li	a0, 400
	li	a1, 0
	li	a2, 0
	li	a3, 0
	li	a4, 0
	li	a5, 0
	li	a6, 0
	li	a7, 0
	li	t0, 0
	li	t1, 0
	li	t2, 0
	li	t3, 0
	li	t4, 0
	li	t5, 0
	li	t6, 0
	ret
.Laes_func_end43:
	.size	aes.fotsgure_aes_version, .Laes_func_end43-aes.fotsgure_aes_version
                                        # -- End function
	.section	.text.aes.fotsgure_aes_set_key,"ax",@progbits
	export_aes	fotsgure_aes_set_key
	.p2align	1
	.type	aes.fotsgure_aes_set_key,@function
aes.fotsgure_aes_set_key:                   # @aes.fotsgure_aes_set_key
# %bb.0:
	addi	sp, sp, -32
	sw	ra, 28(sp)                      # 4-byte Folded Spill
	sw	s0, 24(sp)                      # 4-byte Folded Spill
	sw	s1, 20(sp)                      # 4-byte Folded Spill
	sw	s2, 16(sp)                      # 4-byte Folded Spill
	sw	s3, 12(sp)                      # 4-byte Folded Spill
	mv	s0, a2
	li	a2, 32
	beq	s0, a2, .Laes_BB44_3
# %bb.1:
	andi	a2, s0, -9
	li	a3, 16
	beq	a2, a3, .Laes_BB44_3
# %bb.2:                                # %then.1.i.i
	li	a2, 484
	li	a1, 0
	call	memset
	li	a0, 1
	j	.Laes_BB44_4
.Laes_BB44_3:                               # %join.3.i.i
	seqz	a2, a1
	slli	a2, a2, 12
	add	s1, a1, a2
	addi	s2, a0, 4
	li	a2, 480
	mv	s3, a0
	mv	a0, s2
	li	a1, 0
	call	memset
	mv	a0, s2
	mv	a1, s1
	mv	a2, s0
	li	a3, 0
	call	aes.aes_narrow.word_room.expand_words
	call	aes.aes_cipher.zeroize.stack.wipe_stack.768
	li	a0, 0
	sw	s0, 0(s3)
.Laes_BB44_4:                               # %wide_fotsgure_aes_set_key.exit
	lw	ra, 28(sp)                      # 4-byte Folded Reload
	lw	s0, 24(sp)                      # 4-byte Folded Reload
	lw	s1, 20(sp)                      # 4-byte Folded Reload
	lw	s2, 16(sp)                      # 4-byte Folded Reload
	lw	s3, 12(sp)                      # 4-byte Folded Reload
	addi	sp, sp, 32
	li	a1, 0
	li	a2, 0
	li	a3, 0
	li	a4, 0
	li	a5, 0
	li	a6, 0
	li	a7, 0
	li	t0, 0
	li	t1, 0
	li	t2, 0
	li	t3, 0
	li	t4, 0
	li	t5, 0
	li	t6, 0
	ret
.Laes_func_end44:
	.size	aes.fotsgure_aes_set_key, .Laes_func_end44-aes.fotsgure_aes_set_key
                                        # -- End function
	.section	.text.aes.fotsgure_aes_key_length,"ax",@progbits
	export_aes	fotsgure_aes_key_length
	.p2align	1
	.type	aes.fotsgure_aes_key_length,@function
aes.fotsgure_aes_key_length:                # @aes.fotsgure_aes_key_length
# %bb.0:
	lw	a0, 0(a0)
	andi	a1, a0, -9
	addi	a2, a0, -32
	addi	a1, a1, -16
	seqz	a1, a1
	seqz	a2, a2
	or	a1, a1, a2
	neg	a1, a1
	and	a0, a0, a1
	li	a1, 0
	li	a2, 0
	li	a3, 0
	li	a4, 0
	li	a5, 0
	li	a6, 0
	li	a7, 0
	li	t0, 0
	li	t1, 0
	li	t2, 0
	li	t3, 0
	li	t4, 0
	li	t5, 0
	li	t6, 0
	ret
.Laes_func_end45:
	.size	aes.fotsgure_aes_key_length, .Laes_func_end45-aes.fotsgure_aes_key_length
                                        # -- End function
	.section	.text.aes.fotsgure_aes_wipe,"ax",@progbits
	export_aes	fotsgure_aes_wipe
	.p2align	1
	.type	aes.fotsgure_aes_wipe,@function
aes.fotsgure_aes_wipe:                      # @aes.fotsgure_aes_wipe
# %bb.0:
	addi	sp, sp, -16
	sw	ra, 12(sp)                      # 4-byte Folded Spill
	sw	s0, 8(sp)                       # 4-byte Folded Spill
	addi	s0, a0, 4
	li	a2, 484
	li	a1, 0
	call	memset
	mv	a0, s0
	lw	ra, 12(sp)                      # 4-byte Folded Reload
	lw	s0, 8(sp)                       # 4-byte Folded Reload
	addi	sp, sp, 16
	tail	aes.aes_cipher.zeroize.elements.zeroize_elements.1
.Laes_func_end46:
	.size	aes.fotsgure_aes_wipe, .Laes_func_end46-aes.fotsgure_aes_wipe
                                        # -- End function
	.section	.text.aes.fotsgure_aes_encrypt_blocks,"ax",@progbits
	export_aes	fotsgure_aes_encrypt_blocks
	.p2align	1
	.type	aes.fotsgure_aes_encrypt_blocks,@function
aes.fotsgure_aes_encrypt_blocks:            # @aes.fotsgure_aes_encrypt_blocks
# %bb.0:
	mv	a4, a2
	lw	a2, 0(a0)
	li	a3, 32
	beq	a2, a3, .Laes_BB47_3
# %bb.1:
	andi	a3, a2, -9
	li	a5, 16
	beq	a3, a5, .Laes_BB47_3
# %bb.2:
	li	a0, 2
	li	a1, 0
	li	a2, 0
	li	a3, 0
	li	a4, 0
	li	a5, 0
	li	a6, 0
	li	a7, 0
	li	t0, 0
	li	t1, 0
	li	t2, 0
	li	t3, 0
	li	t4, 0
	li	t5, 0
	li	t6, 0
	ret
.Laes_BB47_3:                               # %join.3.i.i
	addi	sp, sp, -16
	sw	ra, 12(sp)                      # 4-byte Folded Spill
	seqz	a3, a1
	addi	a0, a0, 4
	srli	a5, a2, 31
	slli	a2, a2, 1
	slli	a3, a3, 12
	add	a3, a3, a1
	addi	a1, a2, 56
	sltu	a2, a1, a2
	add	a2, a2, a5
	li	a5, 0
	call	aes.aes_narrow.blocks.process_all_batches.1
	call	aes.aes_cipher.zeroize.stack.wipe_stack.1024
	li	a0, 0
	lw	ra, 12(sp)                      # 4-byte Folded Reload
	addi	sp, sp, 16
	li	a1, 0
	li	a2, 0
	li	a3, 0
	li	a4, 0
	li	a5, 0
	li	a6, 0
	li	a7, 0
	li	t0, 0
	li	t1, 0
	li	t2, 0
	li	t3, 0
	li	t4, 0
	li	t5, 0
	li	t6, 0
	ret
.Laes_func_end47:
	.size	aes.fotsgure_aes_encrypt_blocks, .Laes_func_end47-aes.fotsgure_aes_encrypt_blocks
                                        # -- End function
	.section	.text.aes.fotsgure_aes_decrypt_blocks,"ax",@progbits
	export_aes	fotsgure_aes_decrypt_blocks
	.p2align	1
	.type	aes.fotsgure_aes_decrypt_blocks,@function
aes.fotsgure_aes_decrypt_blocks:            # @aes.fotsgure_aes_decrypt_blocks
# %bb.0:
	mv	a4, a2
	lw	a2, 0(a0)
	li	a3, 32
	beq	a2, a3, .Laes_BB48_3
# %bb.1:
	andi	a3, a2, -9
	li	a5, 16
	beq	a3, a5, .Laes_BB48_3
# %bb.2:
	li	a0, 2
	li	a1, 0
	li	a2, 0
	li	a3, 0
	li	a4, 0
	li	a5, 0
	li	a6, 0
	li	a7, 0
	li	t0, 0
	li	t1, 0
	li	t2, 0
	li	t3, 0
	li	t4, 0
	li	t5, 0
	li	t6, 0
	ret
.Laes_BB48_3:                               # %join.3.i.i
	addi	sp, sp, -16
	sw	ra, 12(sp)                      # 4-byte Folded Spill
	seqz	a3, a1
	addi	a0, a0, 4
	srli	a5, a2, 31
	slli	a2, a2, 1
	slli	a3, a3, 12
	add	a3, a3, a1
	addi	a1, a2, 56
	sltu	a2, a1, a2
	add	a2, a2, a5
	li	a5, 0
	call	aes.aes_narrow.blocks.process_all_batches.2
	call	aes.aes_cipher.zeroize.stack.wipe_stack.1024
	li	a0, 0
	lw	ra, 12(sp)                      # 4-byte Folded Reload
	addi	sp, sp, 16
	li	a1, 0
	li	a2, 0
	li	a3, 0
	li	a4, 0
	li	a5, 0
	li	a6, 0
	li	a7, 0
	li	t0, 0
	li	t1, 0
	li	t2, 0
	li	t3, 0
	li	t4, 0
	li	t5, 0
	li	t6, 0
	ret
.Laes_func_end48:
	.size	aes.fotsgure_aes_decrypt_blocks, .Laes_func_end48-aes.fotsgure_aes_decrypt_blocks
                                        # -- End function
	.section	.text.aes.fotsgure_aes_encrypt_blocks_to,"ax",@progbits
	export_aes	fotsgure_aes_encrypt_blocks_to
	.p2align	1
	.type	aes.fotsgure_aes_encrypt_blocks_to,@function
aes.fotsgure_aes_encrypt_blocks_to:         # @aes.fotsgure_aes_encrypt_blocks_to
# %bb.0:
	bne	a2, a4, .Laes_BB49_6
# %bb.1:                                # %join.3.i.i
	addi	sp, sp, -32
	sw	ra, 28(sp)                      # 4-byte Folded Spill
	sw	s0, 24(sp)                      # 4-byte Folded Spill
	sw	s1, 20(sp)                      # 4-byte Folded Spill
	sw	s2, 16(sp)                      # 4-byte Folded Spill
	sw	s3, 12(sp)                      # 4-byte Folded Spill
	sw	s4, 8(sp)                       # 4-byte Folded Spill
	sw	s5, 4(sp)                       # 4-byte Folded Spill
	mv	s3, a2
	mv	s2, a0
	lw	a2, 0(a0)
	addi	a2, a2, -16
	li	a4, 16
	li	a0, 2
	bltu	a4, a2, .Laes_BB49_11
# %bb.2:                                # %join.3.i.i
	lui	a4, 16
	addi	a4, a4, 257
	srl	a2, a4, a2
	andi	a2, a2, 1
	beqz	a2, .Laes_BB49_11
# %bb.3:                                # %join.6.i.i
	seqz	a0, a1
	seqz	a2, a3
	slli	a0, a0, 12
	slli	a2, a2, 12
	add	s5, a1, a0
	add	s4, a3, a2
	srli	a0, s3, 28
	sltu	a1, s4, s5
	neg	a1, a1
	slli	a2, s3, 4
	beq	a1, a0, .Laes_BB49_7
# %bb.4:                                # %join.6.i.i
	sltu	a0, a1, a0
	bnez	a0, .Laes_BB49_8
.Laes_BB49_5:                               # %apart.2.i.i.i.i.i.i.i.i
	mv	a0, s4
	mv	a1, s5
	call	memmove
	j	.Laes_BB49_10
.Laes_BB49_6:
	li	a0, 3
	li	a1, 0
	li	a2, 0
	li	a3, 0
	li	a4, 0
	li	a5, 0
	li	a6, 0
	li	a7, 0
	li	t0, 0
	li	t1, 0
	li	t2, 0
	li	t3, 0
	li	t4, 0
	li	t5, 0
	li	t6, 0
	ret
.Laes_BB49_7:
	sub	a0, s4, s5
	sltu	a0, a0, a2
	beqz	a0, .Laes_BB49_5
.Laes_BB49_8:                               # %join.7.i.i.i.i.i.i.i.i.preheader
	li	s1, 0
	li	s0, 0
.Laes_BB49_9:                               # %join.7.i.i.i.i.i.i.i.i
                                        # =>This Inner Loop Header: Depth=1
	slli	a1, s1, 4
	add	a0, s4, a1
	add	a1, a1, s5
	li	a2, 16
	call	memmove
	addi	s1, s1, 1
	seqz	a0, s1
	add	s0, s0, a0
	sltu	a0, s1, s3
	seqz	a1, s0
	and	a0, a0, a1
	bnez	a0, .Laes_BB49_9
.Laes_BB49_10:                              # %"core::slice::edits::slice+T::copy_from_slice::<#b9e87c6de6ee7501>.exit.i.i"
	lw	a1, 0(s2)
	addi	a0, s2, 4
	srli	a2, a1, 31
	slli	a3, a1, 1
	addi	a1, a3, 56
	sltu	a3, a1, a3
	add	a2, a2, a3
	mv	a3, s4
	mv	a4, s3
	li	a5, 0
	call	aes.aes_narrow.blocks.process_all_batches.1
	call	aes.aes_cipher.zeroize.stack.wipe_stack.1024
	li	a0, 0
.Laes_BB49_11:
	lw	ra, 28(sp)                      # 4-byte Folded Reload
	lw	s0, 24(sp)                      # 4-byte Folded Reload
	lw	s1, 20(sp)                      # 4-byte Folded Reload
	lw	s2, 16(sp)                      # 4-byte Folded Reload
	lw	s3, 12(sp)                      # 4-byte Folded Reload
	lw	s4, 8(sp)                       # 4-byte Folded Reload
	lw	s5, 4(sp)                       # 4-byte Folded Reload
	addi	sp, sp, 32
	li	a1, 0
	li	a2, 0
	li	a3, 0
	li	a4, 0
	li	a5, 0
	li	a6, 0
	li	a7, 0
	li	t0, 0
	li	t1, 0
	li	t2, 0
	li	t3, 0
	li	t4, 0
	li	t5, 0
	li	t6, 0
	ret
.Laes_func_end49:
	.size	aes.fotsgure_aes_encrypt_blocks_to, .Laes_func_end49-aes.fotsgure_aes_encrypt_blocks_to
                                        # -- End function
	.section	.text.aes.fotsgure_aes_decrypt_blocks_to,"ax",@progbits
	export_aes	fotsgure_aes_decrypt_blocks_to
	.p2align	1
	.type	aes.fotsgure_aes_decrypt_blocks_to,@function
aes.fotsgure_aes_decrypt_blocks_to:         # @aes.fotsgure_aes_decrypt_blocks_to
# %bb.0:
	bne	a2, a4, .Laes_BB50_6
# %bb.1:                                # %join.3.i.i
	addi	sp, sp, -32
	sw	ra, 28(sp)                      # 4-byte Folded Spill
	sw	s0, 24(sp)                      # 4-byte Folded Spill
	sw	s1, 20(sp)                      # 4-byte Folded Spill
	sw	s2, 16(sp)                      # 4-byte Folded Spill
	sw	s3, 12(sp)                      # 4-byte Folded Spill
	sw	s4, 8(sp)                       # 4-byte Folded Spill
	sw	s5, 4(sp)                       # 4-byte Folded Spill
	mv	s3, a2
	mv	s2, a0
	lw	a2, 0(a0)
	addi	a2, a2, -16
	li	a4, 16
	li	a0, 2
	bltu	a4, a2, .Laes_BB50_11
# %bb.2:                                # %join.3.i.i
	lui	a4, 16
	addi	a4, a4, 257
	srl	a2, a4, a2
	andi	a2, a2, 1
	beqz	a2, .Laes_BB50_11
# %bb.3:                                # %join.6.i.i
	seqz	a0, a1
	seqz	a2, a3
	slli	a0, a0, 12
	slli	a2, a2, 12
	add	s5, a1, a0
	add	s4, a3, a2
	srli	a0, s3, 28
	sltu	a1, s4, s5
	neg	a1, a1
	slli	a2, s3, 4
	beq	a1, a0, .Laes_BB50_7
# %bb.4:                                # %join.6.i.i
	sltu	a0, a1, a0
	bnez	a0, .Laes_BB50_8
.Laes_BB50_5:                               # %apart.2.i.i.i.i.i.i.i.i
	mv	a0, s4
	mv	a1, s5
	call	memmove
	j	.Laes_BB50_10
.Laes_BB50_6:
	li	a0, 3
	li	a1, 0
	li	a2, 0
	li	a3, 0
	li	a4, 0
	li	a5, 0
	li	a6, 0
	li	a7, 0
	li	t0, 0
	li	t1, 0
	li	t2, 0
	li	t3, 0
	li	t4, 0
	li	t5, 0
	li	t6, 0
	ret
.Laes_BB50_7:
	sub	a0, s4, s5
	sltu	a0, a0, a2
	beqz	a0, .Laes_BB50_5
.Laes_BB50_8:                               # %join.7.i.i.i.i.i.i.i.i.preheader
	li	s1, 0
	li	s0, 0
.Laes_BB50_9:                               # %join.7.i.i.i.i.i.i.i.i
                                        # =>This Inner Loop Header: Depth=1
	slli	a1, s1, 4
	add	a0, s4, a1
	add	a1, a1, s5
	li	a2, 16
	call	memmove
	addi	s1, s1, 1
	seqz	a0, s1
	add	s0, s0, a0
	sltu	a0, s1, s3
	seqz	a1, s0
	and	a0, a0, a1
	bnez	a0, .Laes_BB50_9
.Laes_BB50_10:                              # %"core::slice::edits::slice+T::copy_from_slice::<#b9e87c6de6ee7501>.exit.i.i"
	lw	a1, 0(s2)
	addi	a0, s2, 4
	srli	a2, a1, 31
	slli	a3, a1, 1
	addi	a1, a3, 56
	sltu	a3, a1, a3
	add	a2, a2, a3
	mv	a3, s4
	mv	a4, s3
	li	a5, 0
	call	aes.aes_narrow.blocks.process_all_batches.2
	call	aes.aes_cipher.zeroize.stack.wipe_stack.1024
	li	a0, 0
.Laes_BB50_11:
	lw	ra, 28(sp)                      # 4-byte Folded Reload
	lw	s0, 24(sp)                      # 4-byte Folded Reload
	lw	s1, 20(sp)                      # 4-byte Folded Reload
	lw	s2, 16(sp)                      # 4-byte Folded Reload
	lw	s3, 12(sp)                      # 4-byte Folded Reload
	lw	s4, 8(sp)                       # 4-byte Folded Reload
	lw	s5, 4(sp)                       # 4-byte Folded Reload
	addi	sp, sp, 32
	li	a1, 0
	li	a2, 0
	li	a3, 0
	li	a4, 0
	li	a5, 0
	li	a6, 0
	li	a7, 0
	li	t0, 0
	li	t1, 0
	li	t2, 0
	li	t3, 0
	li	t4, 0
	li	t5, 0
	li	t6, 0
	ret
.Laes_func_end50:
	.size	aes.fotsgure_aes_decrypt_blocks_to, .Laes_func_end50-aes.fotsgure_aes_decrypt_blocks_to
                                        # -- End function
	.section	.text.aes.fotsgure_aes_add_keystream,"ax",@progbits
	export_aes	fotsgure_aes_add_keystream
	.p2align	1
	.type	aes.fotsgure_aes_add_keystream,@function
aes.fotsgure_aes_add_keystream:             # @aes.fotsgure_aes_add_keystream
# %bb.0:
	addi	sp, sp, -32
	sw	ra, 28(sp)                      # 4-byte Folded Spill
	sw	s0, 24(sp)                      # 4-byte Folded Spill
	sw	s1, 20(sp)                      # 4-byte Folded Spill
	mv	s0, a3
	mv	t0, a2
	lw	a2, 16(a1)
	lw	a3, 20(a1)
	not	a5, a2
	addi	s1, a3, 1
	sltu	a5, a5, s0
	seqz	s1, s1
	and	s1, s1, a5
	beqz	s1, .Laes_BB51_3
# %bb.1:
	li	a0, 4
.Laes_BB51_2:                               # %wide_fotsgure_aes_add_keystream.exit
	lw	ra, 28(sp)                      # 4-byte Folded Reload
	lw	s0, 24(sp)                      # 4-byte Folded Reload
	lw	s1, 20(sp)                      # 4-byte Folded Reload
	addi	sp, sp, 32
	li	a1, 0
	li	a2, 0
	li	a3, 0
	li	a4, 0
	li	a5, 0
	li	a6, 0
	li	a7, 0
	li	t0, 0
	li	t1, 0
	li	t2, 0
	li	t3, 0
	li	t4, 0
	li	t5, 0
	li	t6, 0
	ret
.Laes_BB51_3:                               # %join.3.i.i.i
	mv	a5, a0
	lw	s1, 0(a0)
	addi	a6, s1, -16
	li	a7, 16
	li	a0, 2
	bltu	a7, a6, .Laes_BB51_2
# %bb.4:                                # %join.3.i.i.i
	lui	a4, 16
	addi	a4, a4, 257
	srl	a4, a4, a6
	andi	a4, a4, 1
	beqz	a4, .Laes_BB51_2
# %bb.5:                                # %then.1.i.i
	seqz	a0, t0
	addi	a6, a5, 4
	srli	a5, s1, 31
	slli	s1, s1, 1
	slli	a0, a0, 12
	add	a4, t0, a0
	addi	a0, s1, 56
	sltu	s1, a0, s1
	add	a5, a5, s1
	sw	a6, 0(sp)
	sw	zero, 4(sp)
	sw	a0, 8(sp)
	sw	a5, 12(sp)
	mv	a0, sp
	mv	s1, a1
	mv	a5, s0
	li	a6, 0
	call	aes.aes_ctr.add_in_batches.add_keystream
	li	a0, 0
	lw	a1, 16(s1)
	lw	a2, 20(s1)
	add	s0, s0, a1
	sltu	a1, s0, a1
	add	a1, a1, a2
	sw	s0, 16(s1)
	sw	a1, 20(s1)
	lw	ra, 28(sp)                      # 4-byte Folded Reload
	lw	s0, 24(sp)                      # 4-byte Folded Reload
	lw	s1, 20(sp)                      # 4-byte Folded Reload
	addi	sp, sp, 32
	li	a1, 0
	li	a2, 0
	li	a3, 0
	li	a4, 0
	li	a5, 0
	li	a6, 0
	li	a7, 0
	li	t0, 0
	li	t1, 0
	li	t2, 0
	li	t3, 0
	li	t4, 0
	li	t5, 0
	li	t6, 0
	ret
.Laes_func_end51:
	.size	aes.fotsgure_aes_add_keystream, .Laes_func_end51-aes.fotsgure_aes_add_keystream
                                        # -- End function
	.section	.text.aes.fotsgure_aes_add_keystream_to,"ax",@progbits
	export_aes	fotsgure_aes_add_keystream_to
	.p2align	1
	.type	aes.fotsgure_aes_add_keystream_to,@function
aes.fotsgure_aes_add_keystream_to:          # @aes.fotsgure_aes_add_keystream_to
# %bb.0:
	bne	a3, a5, .Laes_BB52_7
# %bb.1:                                # %join.3.i.i
	addi	sp, sp, -48
	sw	ra, 44(sp)                      # 4-byte Folded Spill
	sw	s0, 40(sp)                      # 4-byte Folded Spill
	sw	s1, 36(sp)                      # 4-byte Folded Spill
	sw	s2, 32(sp)                      # 4-byte Folded Spill
	sw	s3, 28(sp)                      # 4-byte Folded Spill
	sw	s4, 24(sp)                      # 4-byte Folded Spill
	lw	a5, 16(a1)
	lw	s1, 20(a1)
	not	a5, a5
	addi	s1, s1, 1
	sltu	a5, a5, a3
	seqz	s1, s1
	and	a5, a5, s1
	bnez	a5, .Laes_BB52_12
# %bb.2:                                # %join.3.i.i.i
	lw	s1, 0(a0)
	addi	s1, s1, -16
	li	s0, 16
	li	a5, 2
	bltu	s0, s1, .Laes_BB52_13
# %bb.3:                                # %join.3.i.i.i
	lui	s0, 16
	addi	s0, s0, 257
	srl	s1, s0, s1
	andi	s1, s1, 1
	beqz	s1, .Laes_BB52_13
# %bb.4:                                # %join.6.i.i
	seqz	a5, a2
	slli	a5, a5, 12
	add	a6, a2, a5
	seqz	a5, a4
	slli	a5, a5, 12
	add	s4, a4, a5
	bgeu	s4, a6, .Laes_BB52_8
# %bb.5:                                # %join.6.i.i
	li	a4, 1
	beqz	a4, .Laes_BB52_9
.Laes_BB52_6:                               # %apart.2.i.i.i.i.i.i.i.i
	mv	s2, a0
	mv	a0, s4
	mv	s3, a1
	mv	a1, a6
	mv	a2, a3
	mv	s0, a3
	call	memmove
	mv	a0, s2
	mv	a3, s0
	mv	a1, s3
	j	.Laes_BB52_11
.Laes_BB52_7:
	li	a0, 3
	li	a1, 0
	li	a2, 0
	li	a3, 0
	li	a4, 0
	li	a5, 0
	li	a6, 0
	li	a7, 0
	li	t0, 0
	li	t1, 0
	li	t2, 0
	li	t3, 0
	li	t4, 0
	li	t5, 0
	li	t6, 0
	ret
.Laes_BB52_8:
	sub	a4, s4, a6
	sltu	a4, a4, a3
	xori	a4, a4, 1
	bnez	a4, .Laes_BB52_6
.Laes_BB52_9:                               # %join.7.i.i.i.i.i.i.i.i.preheader
	li	s1, 0
.Laes_BB52_10:                              # %join.7.i.i.i.i.i.i.i.i
                                        # =>This Inner Loop Header: Depth=1
	add	a7, s4, a4
	add	a2, a6, a4
	addi	a4, a4, 1
	lbu	a2, 0(a2)
	seqz	a5, a4
	add	s1, s1, a5
	sltu	a5, a4, a3
	seqz	s0, s1
	and	a5, a5, s0
	sb	a2, 0(a7)
	bnez	a5, .Laes_BB52_10
.Laes_BB52_11:                              # %"core::slice::edits::slice+T::copy_from_slice::<i8,20'core::clone::U8Clone{}>.exit.i.i"
	lw	a2, 16(a1)
	lw	s1, 20(a1)
	not	a5, a2
	addi	a4, s1, 1
	sltu	a5, a5, a3
	seqz	a4, a4
	and	a4, a4, a5
	beqz	a4, .Laes_BB52_14
.Laes_BB52_12:
	li	a5, 4
.Laes_BB52_13:
	lw	ra, 44(sp)                      # 4-byte Folded Reload
	lw	s0, 40(sp)                      # 4-byte Folded Reload
	lw	s1, 36(sp)                      # 4-byte Folded Reload
	lw	s2, 32(sp)                      # 4-byte Folded Reload
	lw	s3, 28(sp)                      # 4-byte Folded Reload
	lw	s4, 24(sp)                      # 4-byte Folded Reload
	addi	sp, sp, 48
	mv	a0, a5
	li	a1, 0
	li	a2, 0
	li	a3, 0
	li	a4, 0
	li	a5, 0
	li	a6, 0
	li	a7, 0
	li	t0, 0
	li	t1, 0
	li	t2, 0
	li	t3, 0
	li	t4, 0
	li	t5, 0
	li	t6, 0
	ret
.Laes_BB52_14:                              # %join.3.i.i.i.i
	lw	s0, 0(a0)
	addi	a6, s0, -16
	li	a4, 16
	li	a5, 2
	bltu	a4, a6, .Laes_BB52_13
# %bb.15:                               # %join.3.i.i.i.i
	lui	a4, 16
	addi	a4, a4, 257
	srl	a4, a4, a6
	andi	a4, a4, 1
	beqz	a4, .Laes_BB52_13
# %bb.16:                               # %then.1.i.i.i
	addi	a0, a0, 4
	srli	a4, s0, 31
	slli	s0, s0, 1
	addi	a5, s0, 56
	sltu	s0, a5, s0
	add	a4, a4, s0
	sw	a0, 8(sp)
	sw	zero, 12(sp)
	sw	a5, 16(sp)
	sw	a4, 20(sp)
	addi	a0, sp, 8
	mv	s0, a1
	mv	s2, a3
	mv	a3, s1
	mv	a4, s4
	mv	a5, s2
	li	a6, 0
	call	aes.aes_ctr.add_in_batches.add_keystream
	li	a5, 0
	lw	a0, 16(s0)
	lw	a1, 20(s0)
	add	s2, s2, a0
	sltu	a0, s2, a0
	add	a0, a0, a1
	sw	s2, 16(s0)
	sw	a0, 20(s0)
	j	.Laes_BB52_13
.Laes_func_end52:
	.size	aes.fotsgure_aes_add_keystream_to, .Laes_func_end52-aes.fotsgure_aes_add_keystream_to
                                        # -- End function
	.section	.text.aes.fotsgure_aes_cbc_encrypt,"ax",@progbits
	export_aes	fotsgure_aes_cbc_encrypt
	.p2align	1
	.type	aes.fotsgure_aes_cbc_encrypt,@function
aes.fotsgure_aes_cbc_encrypt:               # @aes.fotsgure_aes_cbc_encrypt
# %bb.0:
	addi	sp, sp, -80
	sw	ra, 76(sp)                      # 4-byte Folded Spill
	sw	s0, 72(sp)                      # 4-byte Folded Spill
	sw	s1, 68(sp)                      # 4-byte Folded Spill
	sw	s2, 64(sp)                      # 4-byte Folded Spill
	sw	s3, 60(sp)                      # 4-byte Folded Spill
	sw	s4, 56(sp)                      # 4-byte Folded Spill
	sw	s5, 52(sp)                      # 4-byte Folded Spill
	sw	s6, 48(sp)                      # 4-byte Folded Spill
	sw	s7, 44(sp)                      # 4-byte Folded Spill
	sw	s8, 40(sp)                      # 4-byte Folded Spill
	sw	s9, 36(sp)                      # 4-byte Folded Spill
	sw	s10, 32(sp)                     # 4-byte Folded Spill
	sw	s11, 28(sp)                     # 4-byte Folded Spill
	mv	s3, a3
	lw	a3, 0(a0)
	li	a4, 32
	beq	a3, a4, .Laes_BB53_3
# %bb.1:
	andi	a5, a3, -9
	li	a4, 16
	beq	a5, a4, .Laes_BB53_3
# %bb.2:
	li	a0, 2
	j	.Laes_BB53_7
.Laes_BB53_3:                               # %join.3.i.i
	lbu	t0, 12(a1)
	lbu	a4, 13(a1)
	lbu	a5, 14(a1)
	lbu	s1, 15(a1)
	lbu	a6, 8(a1)
	lbu	a7, 9(a1)
	lbu	t2, 10(a1)
	lbu	t3, 11(a1)
	slli	a4, a4, 8
	slli	a5, a5, 16
	slli	s1, s1, 24
	or	t0, a4, t0
	or	t1, s1, a5
	lbu	s1, 4(a1)
	lbu	a4, 5(a1)
	lbu	a5, 6(a1)
	lbu	s0, 7(a1)
	slli	a7, a7, 8
	slli	t2, t2, 16
	slli	t3, t3, 24
	slli	a4, a4, 8
	slli	a5, a5, 16
	slli	s0, s0, 24
	or	a6, a7, a6
	or	a7, t3, t2
	or	t2, a4, s1
	or	t3, s0, a5
	lbu	s1, 1(a1)
	lbu	s0, 0(a1)
	lbu	a5, 2(a1)
	sw	a1, 8(sp)                       # 4-byte Folded Spill
	lbu	a4, 3(a1)
	slli	s1, s1, 8
	or	s0, s0, s1
	slli	a1, a5, 16
	slli	a4, a4, 24
	or	a1, a1, a4
	or	a4, t1, t0
	or	s1, a7, a6
	or	a5, t3, t2
	or	a1, a1, s0
	sw	a1, 12(sp)
	sw	a5, 16(sp)
	sw	s1, 20(sp)
	sw	a4, 24(sp)
	beqz	s3, .Laes_BB53_6
# %bb.4:                                # %join.5.lr.ph.i.i.i
	li	s2, 0
	li	s8, 0
	seqz	s5, a2
	srli	s4, a3, 31
	slli	s0, a3, 1
	lbu	a6, 12(sp)
	lbu	a7, 13(sp)
	lbu	t0, 14(sp)
	lbu	t1, 15(sp)
	lbu	t2, 16(sp)
	lbu	t3, 17(sp)
	lbu	t4, 18(sp)
	lbu	t5, 19(sp)
	lbu	t6, 20(sp)
	lbu	s9, 21(sp)
	lbu	s10, 22(sp)
	lbu	s11, 23(sp)
	lbu	ra, 24(sp)
	lbu	a3, 25(sp)
	lbu	a4, 26(sp)
	lbu	a5, 27(sp)
	slli	s5, s5, 12
	add	s7, a2, s5
	addi	s6, s0, 56
	sltu	a2, s6, s0
	add	s4, s4, a2
	addi	s5, a0, 4
.Laes_BB53_5:                               # %join.5.i.i.i
                                        # =>This Inner Loop Header: Depth=1
	slli	s0, s2, 4
	add	s0, s0, s7
	lbu	a0, 15(s0)
	lbu	a2, 14(s0)
	lbu	s1, 13(s0)
	lbu	a1, 12(s0)
	xor	a0, a0, a5
	xor	a2, a2, a4
	xor	a3, a3, s1
	xor	ra, a1, ra
	lbu	a4, 11(s0)
	lbu	a5, 10(s0)
	lbu	s1, 9(s0)
	lbu	a1, 8(s0)
	xor	s11, a4, s11
	xor	s10, a5, s10
	xor	s9, s1, s9
	xor	t6, a1, t6
	lbu	a4, 7(s0)
	lbu	a5, 6(s0)
	lbu	s1, 5(s0)
	lbu	a1, 4(s0)
	xor	t5, a4, t5
	xor	t4, a5, t4
	xor	t3, s1, t3
	xor	t2, a1, t2
	lbu	a4, 3(s0)
	lbu	a5, 2(s0)
	lbu	s1, 1(s0)
	lbu	a1, 0(s0)
	xor	a4, a4, t1
	xor	a5, a5, t0
	xor	s1, s1, a7
	xor	a1, a1, a6
	sb	a1, 12(sp)
	sb	s1, 13(sp)
	sb	a5, 14(sp)
	sb	a4, 15(sp)
	sb	t2, 16(sp)
	sb	t3, 17(sp)
	sb	t4, 18(sp)
	sb	t5, 19(sp)
	sb	t6, 20(sp)
	sb	s9, 21(sp)
	sb	s10, 22(sp)
	sb	s11, 23(sp)
	sb	ra, 24(sp)
	sb	a3, 25(sp)
	sb	a2, 26(sp)
	sb	a0, 27(sp)
	addi	a3, sp, 12
	li	a4, 1
	mv	a0, s5
	mv	a1, s6
	mv	a2, s4
	li	a5, 0
	call	aes.aes_narrow.blocks.process_all_batches.1
	call	aes.aes_cipher.zeroize.stack.wipe_stack.1024
	lbu	a6, 12(sp)
	lbu	a7, 13(sp)
	lbu	t0, 14(sp)
	lbu	t1, 15(sp)
	lbu	t2, 16(sp)
	lbu	t3, 17(sp)
	lbu	t4, 18(sp)
	lbu	t5, 19(sp)
	lbu	t6, 20(sp)
	lbu	s9, 21(sp)
	lbu	s10, 22(sp)
	lbu	s11, 23(sp)
	addi	s2, s2, 1
	seqz	a0, s2
	sltu	a1, s2, s3
	add	s8, s8, a0
	seqz	a0, s8
	and	a0, a0, a1
	lbu	ra, 24(sp)
	lbu	a3, 25(sp)
	lbu	a4, 26(sp)
	lbu	a5, 27(sp)
	sb	a6, 0(s0)
	sb	a7, 1(s0)
	sb	t0, 2(s0)
	sb	t1, 3(s0)
	sb	t2, 4(s0)
	sb	t3, 5(s0)
	sb	t4, 6(s0)
	sb	t5, 7(s0)
	sb	t6, 8(s0)
	sb	s9, 9(s0)
	sb	s10, 10(s0)
	sb	s11, 11(s0)
	sb	ra, 12(s0)
	sb	a3, 13(s0)
	sb	a4, 14(s0)
	sb	a5, 15(s0)
	bnez	a0, .Laes_BB53_5
.Laes_BB53_6:                               # %"cbc::chain::Cbc::encrypt_blocks::<#4f733d09d7f6c6b4>.exit.i.i"
	addi	a1, sp, 12
	li	a2, 16
	lw	a0, 8(sp)                       # 4-byte Folded Reload
	call	memcpy
	li	a0, 0
.Laes_BB53_7:                               # %wide_fotsgure_aes_cbc_encrypt.exit
	lw	ra, 76(sp)                      # 4-byte Folded Reload
	lw	s0, 72(sp)                      # 4-byte Folded Reload
	lw	s1, 68(sp)                      # 4-byte Folded Reload
	lw	s2, 64(sp)                      # 4-byte Folded Reload
	lw	s3, 60(sp)                      # 4-byte Folded Reload
	lw	s4, 56(sp)                      # 4-byte Folded Reload
	lw	s5, 52(sp)                      # 4-byte Folded Reload
	lw	s6, 48(sp)                      # 4-byte Folded Reload
	lw	s7, 44(sp)                      # 4-byte Folded Reload
	lw	s8, 40(sp)                      # 4-byte Folded Reload
	lw	s9, 36(sp)                      # 4-byte Folded Reload
	lw	s10, 32(sp)                     # 4-byte Folded Reload
	lw	s11, 28(sp)                     # 4-byte Folded Reload
	addi	sp, sp, 80
	li	a1, 0
	li	a2, 0
	li	a3, 0
	li	a4, 0
	li	a5, 0
	li	a6, 0
	li	a7, 0
	li	t0, 0
	li	t1, 0
	li	t2, 0
	li	t3, 0
	li	t4, 0
	li	t5, 0
	li	t6, 0
	ret
.Laes_func_end53:
	.size	aes.fotsgure_aes_cbc_encrypt, .Laes_func_end53-aes.fotsgure_aes_cbc_encrypt
                                        # -- End function
	.section	.text.aes.fotsgure_aes_cbc_decrypt,"ax",@progbits
	export_aes	fotsgure_aes_cbc_decrypt
	.p2align	1
	.type	aes.fotsgure_aes_cbc_decrypt,@function
aes.fotsgure_aes_cbc_decrypt:               # @aes.fotsgure_aes_cbc_decrypt
# %bb.0:
	addi	sp, sp, -48
	sw	ra, 44(sp)                      # 4-byte Folded Spill
	sw	s0, 40(sp)                      # 4-byte Folded Spill
	sw	s1, 36(sp)                      # 4-byte Folded Spill
	sw	s2, 32(sp)                      # 4-byte Folded Spill
	lw	a4, 0(a0)
	li	a5, 32
	beq	a4, a5, .Laes_BB54_3
# %bb.1:
	andi	a5, a4, -9
	li	s0, 16
	beq	a5, s0, .Laes_BB54_3
# %bb.2:
	li	a0, 2
	lw	ra, 44(sp)                      # 4-byte Folded Reload
	lw	s0, 40(sp)                      # 4-byte Folded Reload
	lw	s1, 36(sp)                      # 4-byte Folded Reload
	lw	s2, 32(sp)                      # 4-byte Folded Reload
	addi	sp, sp, 48
	li	a1, 0
	li	a2, 0
	li	a3, 0
	li	a4, 0
	li	a5, 0
	li	a6, 0
	li	a7, 0
	li	t0, 0
	li	t1, 0
	li	t2, 0
	li	t3, 0
	li	t4, 0
	li	t5, 0
	li	t6, 0
	ret
.Laes_BB54_3:                               # %join.3.i.i
	seqz	a6, a2
	srli	a7, a4, 31
	slli	a4, a4, 1
	lbu	t0, 12(a1)
	lbu	t1, 13(a1)
	lbu	t6, 14(a1)
	lbu	s0, 15(a1)
	lbu	t2, 8(a1)
	lbu	t3, 9(a1)
	lbu	t4, 10(a1)
	lbu	t5, 11(a1)
	slli	a5, a6, 12
	addi	a6, a4, 56
	add	s2, a2, a5
	sltu	a2, a6, a4
	add	a2, a2, a7
	slli	t1, t1, 8
	slli	t6, t6, 16
	slli	s0, s0, 24
	or	a7, t1, t0
	or	t0, s0, t6
	lbu	a5, 4(a1)
	lbu	s1, 5(a1)
	lbu	a4, 6(a1)
	lbu	s0, 7(a1)
	slli	t3, t3, 8
	slli	t4, t4, 16
	slli	t5, t5, 24
	slli	s1, s1, 8
	slli	a4, a4, 16
	slli	s0, s0, 24
	or	t1, t3, t2
	or	t2, t5, t4
	or	t3, s1, a5
	or	t4, s0, a4
	lbu	s1, 1(a1)
	lbu	s0, 0(a1)
	lbu	a5, 2(a1)
	lbu	a4, 3(a1)
	slli	s1, s1, 8
	or	s0, s0, s1
	slli	a5, a5, 16
	slli	a4, a4, 24
	or	a4, a4, a5
	or	a7, t0, a7
	or	s1, t2, t1
	or	a5, t4, t3
	or	a4, a4, s0
	addi	a0, a0, 4
	sw	a4, 0(sp)
	sw	a5, 4(sp)
	sw	s1, 8(sp)
	sw	a7, 12(sp)
	sw	s2, 16(sp)
	sw	zero, 20(sp)
	sw	a3, 24(sp)
	sw	zero, 28(sp)
	mv	a3, sp
	mv	s0, a1
	mv	a1, a6
	call	aes.aes_narrow.borrowed_words.call_to_decrypt
	call	aes.aes_cipher.zeroize.stack.wipe_stack.2032
	mv	a1, sp
	li	a2, 16
	mv	a0, s0
	call	memcpy
	li	a0, 0
	lw	ra, 44(sp)                      # 4-byte Folded Reload
	lw	s0, 40(sp)                      # 4-byte Folded Reload
	lw	s1, 36(sp)                      # 4-byte Folded Reload
	lw	s2, 32(sp)                      # 4-byte Folded Reload
	addi	sp, sp, 48
	li	a1, 0
	li	a2, 0
	li	a3, 0
	li	a4, 0
	li	a5, 0
	li	a6, 0
	li	a7, 0
	li	t0, 0
	li	t1, 0
	li	t2, 0
	li	t3, 0
	li	t4, 0
	li	t5, 0
	li	t6, 0
	ret
.Laes_func_end54:
	.size	aes.fotsgure_aes_cbc_decrypt, .Laes_func_end54-aes.fotsgure_aes_cbc_decrypt
                                        # -- End function
	.section	.text.aes.fotsgure_aes_wrap,"ax",@progbits
	export_aes	fotsgure_aes_wrap
	.p2align	1
	.type	aes.fotsgure_aes_wrap,@function
aes.fotsgure_aes_wrap:                      # @aes.fotsgure_aes_wrap
# %bb.0:
	mv	a6, a4
	lw	a5, 0(a0)
	li	a4, 32
	beq	a5, a4, .Laes_BB55_3
# %bb.1:
	andi	a7, a5, -9
	li	a4, 16
	beq	a7, a4, .Laes_BB55_3
# %bb.2:
	li	a0, 2
	li	a1, 0
	li	a2, 0
	li	a3, 0
	li	a4, 0
	li	a5, 0
	li	a6, 0
	li	a7, 0
	li	t0, 0
	li	t1, 0
	li	t2, 0
	li	t3, 0
	li	t4, 0
	li	t5, 0
	li	t6, 0
	ret
.Laes_BB55_3:                               # %join.3.i.i
	addi	sp, sp, -32
	sw	ra, 28(sp)                      # 4-byte Folded Spill
	sw	s0, 24(sp)                      # 4-byte Folded Spill
	seqz	a4, a3
	seqz	a7, a1
	addi	t0, a0, 4
	slli	a4, a4, 12
	add	a4, a4, a3
	srli	a3, a5, 31
	slli	a5, a5, 1
	slli	a7, a7, 12
	add	a1, a1, a7
	addi	a0, a5, 56
	sltu	a5, a0, a5
	add	a3, a3, a5
	sw	t0, 8(sp)
	sw	zero, 12(sp)
	sw	a0, 16(sp)
	sw	a3, 20(sp)
	addi	a0, sp, 8
	li	a3, 0
	mv	a5, a6
	li	a6, 0
	call	aes.key_wrap.wrapping.wrap
	zext.b	s0, a0
	call	aes.aes_cipher.zeroize.stack.wipe_stack.512
	neg	a0, s0
	andi	a0, a0, 5
	lw	ra, 28(sp)                      # 4-byte Folded Reload
	lw	s0, 24(sp)                      # 4-byte Folded Reload
	addi	sp, sp, 32
	li	a1, 0
	li	a2, 0
	li	a3, 0
	li	a4, 0
	li	a5, 0
	li	a6, 0
	li	a7, 0
	li	t0, 0
	li	t1, 0
	li	t2, 0
	li	t3, 0
	li	t4, 0
	li	t5, 0
	li	t6, 0
	ret
.Laes_func_end55:
	.size	aes.fotsgure_aes_wrap, .Laes_func_end55-aes.fotsgure_aes_wrap
                                        # -- End function
	.section	.text.aes.fotsgure_aes_unwrap,"ax",@progbits
	export_aes	fotsgure_aes_unwrap
	.p2align	1
	.type	aes.fotsgure_aes_unwrap,@function
aes.fotsgure_aes_unwrap:                    # @aes.fotsgure_aes_unwrap
# %bb.0:
	mv	a6, a4
	lw	a5, 0(a0)
	li	a4, 32
	beq	a5, a4, .Laes_BB56_3
# %bb.1:
	andi	a7, a5, -9
	li	a4, 16
	beq	a7, a4, .Laes_BB56_3
# %bb.2:
	li	a0, 2
	li	a1, 0
	li	a2, 0
	li	a3, 0
	li	a4, 0
	li	a5, 0
	li	a6, 0
	li	a7, 0
	li	t0, 0
	li	t1, 0
	li	t2, 0
	li	t3, 0
	li	t4, 0
	li	t5, 0
	li	t6, 0
	ret
.Laes_BB56_3:                               # %join.3.i.i
	addi	sp, sp, -32
	sw	ra, 28(sp)                      # 4-byte Folded Spill
	sw	s0, 24(sp)                      # 4-byte Folded Spill
	sw	s1, 20(sp)                      # 4-byte Folded Spill
	seqz	a4, a3
	seqz	a7, a1
	addi	t0, a0, 4
	slli	a4, a4, 12
	add	a4, a4, a3
	srli	a3, a5, 31
	slli	a5, a5, 1
	slli	a7, a7, 12
	add	a1, a1, a7
	addi	a0, a5, 56
	sltu	a5, a0, a5
	add	a3, a3, a5
	sw	t0, 0(sp)
	sw	zero, 4(sp)
	sw	a0, 8(sp)
	sw	a3, 12(sp)
	mv	a0, sp
	li	a3, 0
	mv	a5, a6
	li	a6, 0
	call	aes.key_wrap.wrapping.unwrap
	zext.b	s0, a1
	zext.b	s1, a0
	call	aes.aes_cipher.zeroize.stack.wipe_stack.512
	seqz	a0, s1
	snez	a1, s0
	addi	a1, a1, 5
	addi	a0, a0, -1
	and	a0, a0, a1
	lw	ra, 28(sp)                      # 4-byte Folded Reload
	lw	s0, 24(sp)                      # 4-byte Folded Reload
	lw	s1, 20(sp)                      # 4-byte Folded Reload
	addi	sp, sp, 32
	li	a1, 0
	li	a2, 0
	li	a3, 0
	li	a4, 0
	li	a5, 0
	li	a6, 0
	li	a7, 0
	li	t0, 0
	li	t1, 0
	li	t2, 0
	li	t3, 0
	li	t4, 0
	li	t5, 0
	li	t6, 0
	ret
.Laes_func_end56:
	.size	aes.fotsgure_aes_unwrap, .Laes_func_end56-aes.fotsgure_aes_unwrap
                                        # -- End function
	.section	.text.aes.fotsgure_aes_wrap_padded,"ax",@progbits
	export_aes	fotsgure_aes_wrap_padded
	.p2align	1
	.type	aes.fotsgure_aes_wrap_padded,@function
aes.fotsgure_aes_wrap_padded:               # @aes.fotsgure_aes_wrap_padded
# %bb.0:
	mv	a6, a4
	lw	a5, 0(a0)
	li	a4, 32
	beq	a5, a4, .Laes_BB57_3
# %bb.1:
	andi	a7, a5, -9
	li	a4, 16
	beq	a7, a4, .Laes_BB57_3
# %bb.2:
	li	a0, 2
	li	a1, 0
	li	a2, 0
	li	a3, 0
	li	a4, 0
	li	a5, 0
	li	a6, 0
	li	a7, 0
	li	t0, 0
	li	t1, 0
	li	t2, 0
	li	t3, 0
	li	t4, 0
	li	t5, 0
	li	t6, 0
	ret
.Laes_BB57_3:                               # %join.3.i.i
	addi	sp, sp, -32
	sw	ra, 28(sp)                      # 4-byte Folded Spill
	sw	s0, 24(sp)                      # 4-byte Folded Spill
	seqz	a4, a3
	seqz	a7, a1
	addi	t0, a0, 4
	slli	a4, a4, 12
	add	a4, a4, a3
	srli	a3, a5, 31
	slli	a5, a5, 1
	slli	a7, a7, 12
	add	a1, a1, a7
	addi	a0, a5, 56
	sltu	a5, a0, a5
	add	a3, a3, a5
	sw	t0, 8(sp)
	sw	zero, 12(sp)
	sw	a0, 16(sp)
	sw	a3, 20(sp)
	addi	a0, sp, 8
	li	a3, 0
	mv	a5, a6
	li	a6, 0
	call	aes.key_wrap.padded.wrap_padded
	zext.b	s0, a0
	call	aes.aes_cipher.zeroize.stack.wipe_stack.512
	neg	a0, s0
	andi	a0, a0, 5
	lw	ra, 28(sp)                      # 4-byte Folded Reload
	lw	s0, 24(sp)                      # 4-byte Folded Reload
	addi	sp, sp, 32
	li	a1, 0
	li	a2, 0
	li	a3, 0
	li	a4, 0
	li	a5, 0
	li	a6, 0
	li	a7, 0
	li	t0, 0
	li	t1, 0
	li	t2, 0
	li	t3, 0
	li	t4, 0
	li	t5, 0
	li	t6, 0
	ret
.Laes_func_end57:
	.size	aes.fotsgure_aes_wrap_padded, .Laes_func_end57-aes.fotsgure_aes_wrap_padded
                                        # -- End function
	.section	.text.aes.fotsgure_aes_unwrap_padded,"ax",@progbits
	export_aes	fotsgure_aes_unwrap_padded
	.p2align	1
	.type	aes.fotsgure_aes_unwrap_padded,@function
aes.fotsgure_aes_unwrap_padded:             # @aes.fotsgure_aes_unwrap_padded
# %bb.0:
	addi	sp, sp, -48
	sw	ra, 44(sp)                      # 4-byte Folded Spill
	sw	s0, 40(sp)                      # 4-byte Folded Spill
	sw	s1, 36(sp)                      # 4-byte Folded Spill
	sw	s2, 32(sp)                      # 4-byte Folded Spill
	mv	s2, a5
	mv	a6, a4
	mv	a4, a2
	lw	a2, 0(a0)
	li	a5, 32
	sw	zero, 24(sp)
	sw	zero, 28(sp)
	beq	a2, a5, .Laes_BB58_3
# %bb.1:
	andi	a5, a2, -9
	li	s0, 16
	beq	a5, s0, .Laes_BB58_3
# %bb.2:
	li	a1, 0
	li	a0, 2
	j	.Laes_BB58_6
.Laes_BB58_3:                               # %join.3.i.i
	seqz	a5, a3
	seqz	s0, a1
	addi	a0, a0, 4
	slli	a5, a5, 12
	add	a5, a5, a3
	srli	a3, a2, 31
	slli	s1, a2, 1
	slli	a2, s0, 12
	add	a2, a2, a1
	addi	a1, s1, 56
	sltu	s1, a1, s1
	add	a3, a3, s1
	sw	a0, 8(sp)
	sw	zero, 12(sp)
	sw	a1, 16(sp)
	sw	a3, 20(sp)
	addi	a0, sp, 24
	addi	a1, sp, 8
	mv	a3, a4
	li	a4, 0
	li	a7, 0
	call	aes.key_wrap.padded.unwrap_padded
	call	aes.aes_cipher.zeroize.stack.wipe_stack.512
	lbu	a0, 24(sp)
	beqz	a0, .Laes_BB58_5
# %bb.4:                                # %arm.5.i.i
	li	a1, 0
	lbu	a0, 25(sp)
	snez	a0, a0
	addi	a0, a0, 5
	j	.Laes_BB58_6
.Laes_BB58_5:                               # %arm.4.i.i
	lw	a1, 28(sp)
.Laes_BB58_6:                               # %wide_fotsgure_aes_unwrap_padded.exit
	sw	a1, 0(s2)
	lw	ra, 44(sp)                      # 4-byte Folded Reload
	lw	s0, 40(sp)                      # 4-byte Folded Reload
	lw	s1, 36(sp)                      # 4-byte Folded Reload
	lw	s2, 32(sp)                      # 4-byte Folded Reload
	addi	sp, sp, 48
	li	a1, 0
	li	a2, 0
	li	a3, 0
	li	a4, 0
	li	a5, 0
	li	a6, 0
	li	a7, 0
	li	t0, 0
	li	t1, 0
	li	t2, 0
	li	t3, 0
	li	t4, 0
	li	t5, 0
	li	t6, 0
	ret
.Laes_func_end58:
	.size	aes.fotsgure_aes_unwrap_padded, .Laes_func_end58-aes.fotsgure_aes_unwrap_padded
                                        # -- End function
	.section	.text.aes.fotsgure_aes_cmac,"ax",@progbits
	export_aes	fotsgure_aes_cmac
	.p2align	1
	.type	aes.fotsgure_aes_cmac,@function
aes.fotsgure_aes_cmac:                      # @aes.fotsgure_aes_cmac
# %bb.0:
	addi	sp, sp, -48
	sw	ra, 44(sp)                      # 4-byte Folded Spill
	sw	s0, 40(sp)                      # 4-byte Folded Spill
	sw	s1, 36(sp)                      # 4-byte Folded Spill
	mv	s1, a3
	mv	a3, a2
	lw	a2, 0(a0)
	li	a4, 32
	sw	zero, 20(sp)
	sw	zero, 24(sp)
	sw	zero, 28(sp)
	sw	zero, 32(sp)
	beq	a2, a4, .Laes_BB59_3
# %bb.1:
	andi	a4, a2, -9
	li	a5, 16
	beq	a4, a5, .Laes_BB59_3
# %bb.2:
	li	a0, 2
	lw	ra, 44(sp)                      # 4-byte Folded Reload
	lw	s0, 40(sp)                      # 4-byte Folded Reload
	lw	s1, 36(sp)                      # 4-byte Folded Reload
	addi	sp, sp, 48
	li	a1, 0
	li	a2, 0
	li	a3, 0
	li	a4, 0
	li	a5, 0
	li	a6, 0
	li	a7, 0
	li	t0, 0
	li	t1, 0
	li	t2, 0
	li	t3, 0
	li	t4, 0
	li	t5, 0
	li	t6, 0
	ret
.Laes_BB59_3:                               # %join.3.i.i
	seqz	a4, a1
	addi	a0, a0, 4
	srli	a5, a2, 31
	slli	s0, a2, 1
	slli	a2, a4, 12
	add	a2, a2, a1
	addi	a1, s0, 56
	sltu	a4, a1, s0
	add	a4, a4, a5
	sw	a0, 0(sp)
	sw	zero, 4(sp)
	sw	a1, 8(sp)
	sw	a4, 12(sp)
	addi	a0, sp, 20
	mv	a1, sp
	li	a4, 0
	call	aes.cmac.tags.tag
	addi	a1, sp, 20
	li	a2, 16
	mv	a0, s1
	call	memcpy
	call	aes.aes_cipher.zeroize.stack.wipe_stack.768
	li	a0, 0
	lw	ra, 44(sp)                      # 4-byte Folded Reload
	lw	s0, 40(sp)                      # 4-byte Folded Reload
	lw	s1, 36(sp)                      # 4-byte Folded Reload
	addi	sp, sp, 48
	li	a1, 0
	li	a2, 0
	li	a3, 0
	li	a4, 0
	li	a5, 0
	li	a6, 0
	li	a7, 0
	li	t0, 0
	li	t1, 0
	li	t2, 0
	li	t3, 0
	li	t4, 0
	li	t5, 0
	li	t6, 0
	ret
.Laes_func_end59:
	.size	aes.fotsgure_aes_cmac, .Laes_func_end59-aes.fotsgure_aes_cmac
                                        # -- End function
	.section	.text.aes.fotsgure_aes_cmac_verify,"ax",@progbits
	export_aes	fotsgure_aes_cmac_verify
	.p2align	1
	.type	aes.fotsgure_aes_cmac_verify,@function
aes.fotsgure_aes_cmac_verify:               # @aes.fotsgure_aes_cmac_verify
# %bb.0:
	addi	sp, sp, -32
	sw	ra, 28(sp)                      # 4-byte Folded Spill
	sw	s0, 24(sp)                      # 4-byte Folded Spill
	mv	a6, a4
	lw	a4, 0(a0)
	li	s0, 32
	beq	a4, s0, .Laes_BB60_3
# %bb.1:
	andi	s0, a4, -9
	li	a5, 16
	beq	s0, a5, .Laes_BB60_3
# %bb.2:
	li	a0, 2
	lw	ra, 28(sp)                      # 4-byte Folded Reload
	lw	s0, 24(sp)                      # 4-byte Folded Reload
	addi	sp, sp, 32
	li	a1, 0
	li	a2, 0
	li	a3, 0
	li	a4, 0
	li	a5, 0
	li	a6, 0
	li	a7, 0
	li	t0, 0
	li	t1, 0
	li	t2, 0
	li	t3, 0
	li	t4, 0
	li	t5, 0
	li	t6, 0
	ret
.Laes_BB60_3:                               # %join.3.i.i
	addi	a5, a6, -4
	li	s0, 12
	bltu	s0, a5, .Laes_BB60_5
# %bb.4:                                # %join.6.i.i
	seqz	a5, a1
	seqz	s0, a3
	addi	a7, a0, 4
	slli	a5, a5, 12
	add	a1, a1, a5
	srli	a5, a4, 31
	slli	a0, a4, 1
	slli	a4, s0, 12
	add	a4, a4, a3
	addi	a3, a0, 56
	sltu	a0, a3, a0
	add	a0, a0, a5
	sw	a7, 8(sp)
	sw	zero, 12(sp)
	sw	a3, 16(sp)
	sw	a0, 20(sp)
	addi	a0, sp, 8
	li	a3, 0
	mv	a5, a6
	li	a6, 0
	call	aes.cmac.tags.is_tag_start
	mv	s0, a0
	call	aes.aes_cipher.zeroize.stack.wipe_stack.768
	addi	a0, s0, -1
	andi	a0, a0, 6
	lw	ra, 28(sp)                      # 4-byte Folded Reload
	lw	s0, 24(sp)                      # 4-byte Folded Reload
	addi	sp, sp, 32
	li	a1, 0
	li	a2, 0
	li	a3, 0
	li	a4, 0
	li	a5, 0
	li	a6, 0
	li	a7, 0
	li	t0, 0
	li	t1, 0
	li	t2, 0
	li	t3, 0
	li	t4, 0
	li	t5, 0
	li	t6, 0
	ret
.Laes_BB60_5:
	li	a0, 7
	lw	ra, 28(sp)                      # 4-byte Folded Reload
	lw	s0, 24(sp)                      # 4-byte Folded Reload
	addi	sp, sp, 32
	li	a1, 0
	li	a2, 0
	li	a3, 0
	li	a4, 0
	li	a5, 0
	li	a6, 0
	li	a7, 0
	li	t0, 0
	li	t1, 0
	li	t2, 0
	li	t3, 0
	li	t4, 0
	li	t5, 0
	li	t6, 0
	ret
.Laes_func_end60:
	.size	aes.fotsgure_aes_cmac_verify, .Laes_func_end60-aes.fotsgure_aes_cmac_verify
                                        # -- End function
	.section	.text.aes.fotsgure_aes_cmac_begin,"ax",@progbits
	export_aes	fotsgure_aes_cmac_begin
	.p2align	1
	.type	aes.fotsgure_aes_cmac_begin,@function
aes.fotsgure_aes_cmac_begin:                # @aes.fotsgure_aes_cmac_begin
# %bb.0:
	addi	sp, sp, -16
	sw	ra, 12(sp)                      # 4-byte Folded Spill
	sw	s0, 8(sp)                       # 4-byte Folded Spill
	mv	s0, a1
	lw	a1, 0(a0)
	addi	a1, a1, -16
	li	a2, 16
	li	a0, 2
	bltu	a2, a1, .Laes_BB61_3
# %bb.1:
	lui	a2, 16
	addi	a2, a2, 257
	srl	a1, a2, a1
	andi	a1, a1, 1
	beqz	a1, .Laes_BB61_3
# %bb.2:                                # %join.3.i.i
	addi	a0, s0, 8
	li	a2, 40
	li	a1, 0
	call	memset
	li	a0, 0
	li	a1, 1
	sw	a1, 0(s0)
	sw	zero, 4(s0)
.Laes_BB61_3:                               # %wide_fotsgure_aes_cmac_begin.exit
	lw	ra, 12(sp)                      # 4-byte Folded Reload
	lw	s0, 8(sp)                       # 4-byte Folded Reload
	addi	sp, sp, 16
	li	a1, 0
	li	a2, 0
	li	a3, 0
	li	a4, 0
	li	a5, 0
	li	a6, 0
	li	a7, 0
	li	t0, 0
	li	t1, 0
	li	t2, 0
	li	t3, 0
	li	t4, 0
	li	t5, 0
	li	t6, 0
	ret
.Laes_func_end61:
	.size	aes.fotsgure_aes_cmac_begin, .Laes_func_end61-aes.fotsgure_aes_cmac_begin
                                        # -- End function
	.section	.text.aes.fotsgure_aes_cmac_update,"ax",@progbits
	export_aes	fotsgure_aes_cmac_update
	.p2align	1
	.type	aes.fotsgure_aes_cmac_update,@function
aes.fotsgure_aes_cmac_update:               # @aes.fotsgure_aes_cmac_update
# %bb.0:
	addi	sp, sp, -32
	sw	ra, 28(sp)                      # 4-byte Folded Spill
	sw	s0, 24(sp)                      # 4-byte Folded Spill
	lw	a4, 0(a0)
	li	a5, 32
	beq	a4, a5, .Laes_BB62_3
# %bb.1:
	andi	a5, a4, -9
	li	s0, 16
	beq	a5, s0, .Laes_BB62_3
# %bb.2:
	li	a0, 2
	lw	ra, 28(sp)                      # 4-byte Folded Reload
	lw	s0, 24(sp)                      # 4-byte Folded Reload
	addi	sp, sp, 32
	li	a1, 0
	li	a2, 0
	li	a3, 0
	li	a4, 0
	li	a5, 0
	li	a6, 0
	li	a7, 0
	li	t0, 0
	li	t1, 0
	li	t2, 0
	li	t3, 0
	li	t4, 0
	li	t5, 0
	li	t6, 0
	ret
.Laes_BB62_3:                               # %join.3.i.i
	srli	a6, a4, 31
	slli	a4, a4, 1
	lw	s0, 0(a1)
	lw	a7, 4(a1)
	addi	a5, a4, 56
	sltu	a4, a5, a4
	add	a4, a4, a6
	xori	s0, s0, 1
	or	s0, s0, a7
	addi	a0, a0, 4
	sw	a0, 8(sp)
	sw	zero, 12(sp)
	sw	a5, 16(sp)
	sw	a4, 20(sp)
	bnez	s0, .Laes_BB62_5
# %bb.4:                                # %join.3.i.i.i
	seqz	a0, a2
	slli	a0, a0, 12
	add	a2, a2, a0
	addi	a0, a1, 8
	addi	a1, sp, 8
	li	a4, 0
	call	aes.cmac.chain_in_pieces.ChainInPieces.extend
	call	aes.aes_cipher.zeroize.stack.wipe_stack.768
	mv	a0, s0
	lw	ra, 28(sp)                      # 4-byte Folded Reload
	lw	s0, 24(sp)                      # 4-byte Folded Reload
	addi	sp, sp, 32
	li	a1, 0
	li	a2, 0
	li	a3, 0
	li	a4, 0
	li	a5, 0
	li	a6, 0
	li	a7, 0
	li	t0, 0
	li	t1, 0
	li	t2, 0
	li	t3, 0
	li	t4, 0
	li	t5, 0
	li	t6, 0
	ret
.Laes_BB62_5:
	li	s0, 10
	call	aes.aes_cipher.zeroize.stack.wipe_stack.768
	mv	a0, s0
	lw	ra, 28(sp)                      # 4-byte Folded Reload
	lw	s0, 24(sp)                      # 4-byte Folded Reload
	addi	sp, sp, 32
	li	a1, 0
	li	a2, 0
	li	a3, 0
	li	a4, 0
	li	a5, 0
	li	a6, 0
	li	a7, 0
	li	t0, 0
	li	t1, 0
	li	t2, 0
	li	t3, 0
	li	t4, 0
	li	t5, 0
	li	t6, 0
	ret
.Laes_func_end62:
	.size	aes.fotsgure_aes_cmac_update, .Laes_func_end62-aes.fotsgure_aes_cmac_update
                                        # -- End function
	.section	.text.aes.fotsgure_aes_cmac_finish,"ax",@progbits
	export_aes	fotsgure_aes_cmac_finish
	.p2align	1
	.type	aes.fotsgure_aes_cmac_finish,@function
aes.fotsgure_aes_cmac_finish:               # @aes.fotsgure_aes_cmac_finish
# %bb.0:
	lw	a3, 0(a0)
	li	a4, 32
	beq	a3, a4, .Laes_BB63_3
# %bb.1:
	andi	a4, a3, -9
	li	a5, 16
	beq	a4, a5, .Laes_BB63_3
# %bb.2:
	li	a0, 2
	li	a1, 0
	li	a2, 0
	li	a3, 0
	li	a4, 0
	li	a5, 0
	li	a6, 0
	li	a7, 0
	li	t0, 0
	li	t1, 0
	li	t2, 0
	li	t3, 0
	li	t4, 0
	li	t5, 0
	li	t6, 0
	ret
.Laes_BB63_3:                               # %join.3.i.i
	addi	sp, sp, -48
	sw	ra, 44(sp)                      # 4-byte Folded Spill
	sw	s0, 40(sp)                      # 4-byte Folded Spill
	sw	s1, 36(sp)                      # 4-byte Folded Spill
	srli	a4, a3, 31
	slli	a3, a3, 1
	lw	a5, 0(a1)
	lw	s1, 4(a1)
	addi	s0, a3, 56
	sltu	a3, s0, a3
	add	a3, a3, a4
	xori	a4, a5, 1
	or	a4, a4, s1
	addi	a0, a0, 4
	sw	a0, 0(sp)
	sw	zero, 4(sp)
	sw	s0, 8(sp)
	sw	a3, 12(sp)
	bnez	a4, .Laes_BB63_7
# %bb.4:                                # %arm.4.i.i
	mv	s0, a2
	lw	a0, 12(a1)
	lw	a2, 8(a1)
	seqz	a0, a0
	addi	a0, a0, -1
	or	a4, a0, a2
	li	a0, 16
	bltu	a4, a0, .Laes_BB63_6
# %bb.5:                                # %arm.4.i.i
	li	a4, 16
.Laes_BB63_6:                               # %arm.4.i.i
	addi	a2, a1, 16
	addi	a3, a1, 32
	addi	a0, sp, 20
	mv	s1, a1
	mv	a1, sp
	li	a5, 0
	call	aes.cmac.tags.tag_at_end
	mv	a0, s1
	call	aes.cmac.pieces.MessageZeroize.zeroize
	call	aes.aes_cipher.zeroize.stack.wipe_stack.768
	addi	a1, sp, 20
	li	a2, 16
	mv	a0, s0
	call	memcpy
	li	a0, 0
	lw	ra, 44(sp)                      # 4-byte Folded Reload
	lw	s0, 40(sp)                      # 4-byte Folded Reload
	lw	s1, 36(sp)                      # 4-byte Folded Reload
	addi	sp, sp, 48
	li	a1, 0
	li	a2, 0
	li	a3, 0
	li	a4, 0
	li	a5, 0
	li	a6, 0
	li	a7, 0
	li	t0, 0
	li	t1, 0
	li	t2, 0
	li	t3, 0
	li	t4, 0
	li	t5, 0
	li	t6, 0
	ret
.Laes_BB63_7:                               # %"cmac::pieces::Message::finish::<#4f733d09d7f6c6b4>.exit.i.i"
	call	aes.aes_cipher.zeroize.stack.wipe_stack.768
	li	a0, 10
	lw	ra, 44(sp)                      # 4-byte Folded Reload
	lw	s0, 40(sp)                      # 4-byte Folded Reload
	lw	s1, 36(sp)                      # 4-byte Folded Reload
	addi	sp, sp, 48
	li	a1, 0
	li	a2, 0
	li	a3, 0
	li	a4, 0
	li	a5, 0
	li	a6, 0
	li	a7, 0
	li	t0, 0
	li	t1, 0
	li	t2, 0
	li	t3, 0
	li	t4, 0
	li	t5, 0
	li	t6, 0
	ret
.Laes_func_end63:
	.size	aes.fotsgure_aes_cmac_finish, .Laes_func_end63-aes.fotsgure_aes_cmac_finish
                                        # -- End function
	.section	.text.aes.fotsgure_aes_cmac_accept,"ax",@progbits
	export_aes	fotsgure_aes_cmac_accept
	.p2align	1
	.type	aes.fotsgure_aes_cmac_accept,@function
aes.fotsgure_aes_cmac_accept:               # @aes.fotsgure_aes_cmac_accept
# %bb.0:
	addi	sp, sp, -32
	sw	ra, 28(sp)                      # 4-byte Folded Spill
	sw	s0, 24(sp)                      # 4-byte Folded Spill
	lw	a4, 0(a0)
	li	a5, 32
	beq	a4, a5, .Laes_BB64_3
# %bb.1:
	andi	a5, a4, -9
	li	s0, 16
	beq	a5, s0, .Laes_BB64_3
# %bb.2:
	li	a0, 2
	lw	ra, 28(sp)                      # 4-byte Folded Reload
	lw	s0, 24(sp)                      # 4-byte Folded Reload
	addi	sp, sp, 32
	li	a1, 0
	li	a2, 0
	li	a3, 0
	li	a4, 0
	li	a5, 0
	li	a6, 0
	li	a7, 0
	li	t0, 0
	li	t1, 0
	li	t2, 0
	li	t3, 0
	li	t4, 0
	li	t5, 0
	li	t6, 0
	ret
.Laes_BB64_3:                               # %join.3.i.i
	addi	a5, a3, -4
	li	s0, 12
	bltu	s0, a5, .Laes_BB64_7
# %bb.4:                                # %join.6.i.i
	srli	a6, a4, 31
	slli	a4, a4, 1
	lw	s0, 0(a1)
	lw	a7, 4(a1)
	addi	a5, a4, 56
	sltu	a4, a5, a4
	add	a4, a4, a6
	xori	s0, s0, 1
	or	s0, s0, a7
	addi	a0, a0, 4
	sw	a0, 8(sp)
	sw	zero, 12(sp)
	sw	a5, 16(sp)
	sw	a4, 20(sp)
	bnez	s0, .Laes_BB64_8
# %bb.5:                                # %join.3.i.i.i
	seqz	a0, a2
	slli	a0, a0, 12
	add	a2, a2, a0
	mv	a0, a1
	addi	a1, sp, 8
	mv	s0, a0
	li	a4, 0
	call	aes.cmac.pieces.Message.is_tag_so_far
	beqz	a0, .Laes_BB64_9
# %bb.6:                                # %join.7.i.i.i
	mv	a0, s0
	call	aes.cmac.pieces.MessageZeroize.zeroize
	call	aes.aes_cipher.zeroize.stack.wipe_stack.768
	li	a0, 0
	lw	ra, 28(sp)                      # 4-byte Folded Reload
	lw	s0, 24(sp)                      # 4-byte Folded Reload
	addi	sp, sp, 32
	li	a1, 0
	li	a2, 0
	li	a3, 0
	li	a4, 0
	li	a5, 0
	li	a6, 0
	li	a7, 0
	li	t0, 0
	li	t1, 0
	li	t2, 0
	li	t3, 0
	li	t4, 0
	li	t5, 0
	li	t6, 0
	ret
.Laes_BB64_7:
	li	a0, 7
	lw	ra, 28(sp)                      # 4-byte Folded Reload
	lw	s0, 24(sp)                      # 4-byte Folded Reload
	addi	sp, sp, 32
	li	a1, 0
	li	a2, 0
	li	a3, 0
	li	a4, 0
	li	a5, 0
	li	a6, 0
	li	a7, 0
	li	t0, 0
	li	t1, 0
	li	t2, 0
	li	t3, 0
	li	t4, 0
	li	t5, 0
	li	t6, 0
	ret
.Laes_BB64_8:
	li	s0, 10
	call	aes.aes_cipher.zeroize.stack.wipe_stack.768
	mv	a0, s0
	lw	ra, 28(sp)                      # 4-byte Folded Reload
	lw	s0, 24(sp)                      # 4-byte Folded Reload
	addi	sp, sp, 32
	li	a1, 0
	li	a2, 0
	li	a3, 0
	li	a4, 0
	li	a5, 0
	li	a6, 0
	li	a7, 0
	li	t0, 0
	li	t1, 0
	li	t2, 0
	li	t3, 0
	li	t4, 0
	li	t5, 0
	li	t6, 0
	ret
.Laes_BB64_9:
	li	s0, 6
	call	aes.aes_cipher.zeroize.stack.wipe_stack.768
	mv	a0, s0
	lw	ra, 28(sp)                      # 4-byte Folded Reload
	lw	s0, 24(sp)                      # 4-byte Folded Reload
	addi	sp, sp, 32
	li	a1, 0
	li	a2, 0
	li	a3, 0
	li	a4, 0
	li	a5, 0
	li	a6, 0
	li	a7, 0
	li	t0, 0
	li	t1, 0
	li	t2, 0
	li	t3, 0
	li	t4, 0
	li	t5, 0
	li	t6, 0
	ret
.Laes_func_end64:
	.size	aes.fotsgure_aes_cmac_accept, .Laes_func_end64-aes.fotsgure_aes_cmac_accept
                                        # -- End function
	.section	.text.aes.fotsgure_aes_cmac_wipe,"ax",@progbits
	export_aes	fotsgure_aes_cmac_wipe
	.p2align	1
	.type	aes.fotsgure_aes_cmac_wipe,@function
aes.fotsgure_aes_cmac_wipe:                 # @aes.fotsgure_aes_cmac_wipe
# %bb.0:
	addi	sp, sp, -16
	sw	ra, 12(sp)                      # 4-byte Folded Spill
	sw	s0, 8(sp)                       # 4-byte Folded Spill
	mv	s0, a0
	li	a2, 48
	li	a1, 0
	call	memset
	mv	a0, s0
	lw	ra, 12(sp)                      # 4-byte Folded Reload
	lw	s0, 8(sp)                       # 4-byte Folded Reload
	addi	sp, sp, 16
	tail	aes.cmac.pieces.MessageZeroize.zeroize
.Laes_func_end65:
	.size	aes.fotsgure_aes_cmac_wipe, .Laes_func_end65-aes.fotsgure_aes_cmac_wipe
                                        # -- End function
	.section	.text.aes.fotsgure_aes_ccm_seal,"ax",@progbits
	export_aes	fotsgure_aes_ccm_seal
	.p2align	1
	.type	aes.fotsgure_aes_ccm_seal,@function
aes.fotsgure_aes_ccm_seal:                  # @aes.fotsgure_aes_ccm_seal
# %bb.0:
	addi	sp, sp, -48
	sw	ra, 44(sp)                      # 4-byte Folded Spill
	sw	s0, 40(sp)                      # 4-byte Folded Spill
	sw	s1, 36(sp)                      # 4-byte Folded Spill
	mv	t3, a6
	mv	a6, a4
	lw	s0, 0(a0)
	li	a4, 32
	beq	s0, a4, .Laes_BB66_3
# %bb.1:
	andi	t0, s0, -9
	li	a4, 16
	beq	t0, a4, .Laes_BB66_3
# %bb.2:
	li	a0, 2
	lw	ra, 44(sp)                      # 4-byte Folded Reload
	lw	s0, 40(sp)                      # 4-byte Folded Reload
	lw	s1, 36(sp)                      # 4-byte Folded Reload
	addi	sp, sp, 48
	li	a1, 0
	li	a2, 0
	li	a3, 0
	li	a4, 0
	li	a5, 0
	li	a6, 0
	li	a7, 0
	li	t0, 0
	li	t1, 0
	li	t2, 0
	li	t3, 0
	li	t4, 0
	li	t5, 0
	li	t6, 0
	ret
.Laes_BB66_3:                               # %join.3.i.i
	lw	t6, 48(sp)
	seqz	a4, a7
	seqz	t0, a5
	slli	a4, a4, 12
	add	t5, a7, a4
	seqz	a4, a3
	slli	a7, t0, 12
	add	a7, a7, a5
	seqz	a5, a1
	addi	a0, a0, 4
	slli	a4, a4, 12
	add	a4, a4, a3
	srli	a3, s0, 31
	slli	s0, s0, 1
	slli	a5, a5, 12
	add	a1, a1, a5
	addi	a5, s0, 56
	sltu	s0, a5, s0
	add	a3, a3, s0
	sw	a0, 16(sp)
	sw	zero, 20(sp)
	sw	a5, 24(sp)
	sw	a3, 28(sp)
	addi	a0, sp, 16
	sw	zero, 0(sp)
	li	a3, 0
	mv	a5, a6
	li	a6, 0
	li	t4, 0
	call	aes.ccm.mode.encrypt
	mv	s0, a1
	zext.b	s1, a0
	call	aes.aes_cipher.zeroize.stack.wipe_stack.1024
	beqz	s1, .Laes_BB66_5
# %bb.4:                                # %arm.5.i.i
	zext.b	a0, s0
	addi	a0, a0, 7
	lw	ra, 44(sp)                      # 4-byte Folded Reload
	lw	s0, 40(sp)                      # 4-byte Folded Reload
	lw	s1, 36(sp)                      # 4-byte Folded Reload
	addi	sp, sp, 48
	li	a1, 0
	li	a2, 0
	li	a3, 0
	li	a4, 0
	li	a5, 0
	li	a6, 0
	li	a7, 0
	li	t0, 0
	li	t1, 0
	li	t2, 0
	li	t3, 0
	li	t4, 0
	li	t5, 0
	li	t6, 0
	ret
.Laes_BB66_5:
	li	a0, 0
	lw	ra, 44(sp)                      # 4-byte Folded Reload
	lw	s0, 40(sp)                      # 4-byte Folded Reload
	lw	s1, 36(sp)                      # 4-byte Folded Reload
	addi	sp, sp, 48
	li	a1, 0
	li	a2, 0
	li	a3, 0
	li	a4, 0
	li	a5, 0
	li	a6, 0
	li	a7, 0
	li	t0, 0
	li	t1, 0
	li	t2, 0
	li	t3, 0
	li	t4, 0
	li	t5, 0
	li	t6, 0
	ret
.Laes_func_end66:
	.size	aes.fotsgure_aes_ccm_seal, .Laes_func_end66-aes.fotsgure_aes_ccm_seal
                                        # -- End function
	.section	.text.aes.fotsgure_aes_ccm_open,"ax",@progbits
	export_aes	fotsgure_aes_ccm_open
	.p2align	1
	.type	aes.fotsgure_aes_ccm_open,@function
aes.fotsgure_aes_ccm_open:                  # @aes.fotsgure_aes_ccm_open
# %bb.0:
	mv	t4, a6
	mv	a6, a4
	mv	t0, a2
	lw	a2, 0(a0)
	li	a4, 32
	beq	a2, a4, .Laes_BB67_3
# %bb.1:
	andi	t1, a2, -9
	li	a4, 16
	beq	t1, a4, .Laes_BB67_3
# %bb.2:
	li	a0, 2
	li	a1, 0
	li	a2, 0
	li	a3, 0
	li	a4, 0
	li	a5, 0
	li	a6, 0
	li	a7, 0
	li	t0, 0
	li	t1, 0
	li	t2, 0
	li	t3, 0
	li	t4, 0
	li	t5, 0
	li	t6, 0
	ret
.Laes_BB67_3:                               # %join.3.i.i
	addi	sp, sp, -32
	sw	ra, 28(sp)                      # 4-byte Folded Spill
	lw	t1, 32(sp)
	seqz	a4, a7
	seqz	t2, a5
	slli	a4, a4, 12
	add	t6, a7, a4
	seqz	a7, a3
	slli	t2, t2, 12
	add	t3, a5, t2
	seqz	a4, a1
	addi	t2, a0, 4
	slli	a5, a7, 12
	add	a5, a5, a3
	srli	a3, a2, 31
	slli	a0, a2, 1
	slli	a2, a4, 12
	add	a2, a2, a1
	addi	a1, a0, 56
	sltu	a0, a1, a0
	add	a0, a0, a3
	sw	t2, 8(sp)
	sw	zero, 12(sp)
	sw	a1, 16(sp)
	sw	a0, 20(sp)
	addi	a0, sp, 25
	addi	a1, sp, 8
	sw	t1, 0(sp)
	sw	zero, 4(sp)
	mv	a3, t0
	li	a4, 0
	li	a7, 0
	li	t5, 0
	call	aes.ccm.mode.decrypt
	call	aes.aes_cipher.zeroize.stack.wipe_stack.1024
	lbu	a0, 25(sp)
	beqz	a0, .Laes_BB67_6
# %bb.4:                                # %arm.5.i.i
	lbu	a0, 26(sp)
	beqz	a0, .Laes_BB67_7
# %bb.5:
	li	a0, 6
.Laes_BB67_6:
	lw	ra, 28(sp)                      # 4-byte Folded Reload
	addi	sp, sp, 32
	li	a1, 0
	li	a2, 0
	li	a3, 0
	li	a4, 0
	li	a5, 0
	li	a6, 0
	li	a7, 0
	li	t0, 0
	li	t1, 0
	li	t2, 0
	li	t3, 0
	li	t4, 0
	li	t5, 0
	li	t6, 0
	ret
.Laes_BB67_7:                               # %arm.8.i.i
	lbu	a0, 27(sp)
	addi	a0, a0, 7
	lw	ra, 28(sp)                      # 4-byte Folded Reload
	addi	sp, sp, 32
	li	a1, 0
	li	a2, 0
	li	a3, 0
	li	a4, 0
	li	a5, 0
	li	a6, 0
	li	a7, 0
	li	t0, 0
	li	t1, 0
	li	t2, 0
	li	t3, 0
	li	t4, 0
	li	t5, 0
	li	t6, 0
	ret
.Laes_func_end67:
	.size	aes.fotsgure_aes_ccm_open, .Laes_func_end67-aes.fotsgure_aes_ccm_open
                                        # -- End function
	.section	.text.aes.fotsgure_aes_cipher_round,"ax",@progbits
	export_aes	fotsgure_aes_cipher_round
	.p2align	1
	.type	aes.fotsgure_aes_cipher_round,@function
aes.fotsgure_aes_cipher_round:              # @aes.fotsgure_aes_cipher_round
# %bb.0:
	addi	sp, sp, -16
	sw	ra, 12(sp)                      # 4-byte Folded Spill
	call	aes.aes_c.single_rounds.round
	lw	ra, 12(sp)                      # 4-byte Folded Reload
	addi	sp, sp, 16
	tail	aes.aes_cipher.zeroize.stack.wipe_stack.512
.Laes_func_end68:
	.size	aes.fotsgure_aes_cipher_round, .Laes_func_end68-aes.fotsgure_aes_cipher_round
                                        # -- End function
	.section	.text.aes.fotsgure_aes_equiv_inv_cipher_round,"ax",@progbits
	export_aes	fotsgure_aes_equiv_inv_cipher_round
	.p2align	1
	.type	aes.fotsgure_aes_equiv_inv_cipher_round,@function
aes.fotsgure_aes_equiv_inv_cipher_round:    # @aes.fotsgure_aes_equiv_inv_cipher_round
# %bb.0:
	addi	sp, sp, -16
	sw	ra, 12(sp)                      # 4-byte Folded Spill
	call	aes.aes_c.single_rounds.inverse_round
	lw	ra, 12(sp)                      # 4-byte Folded Reload
	addi	sp, sp, 16
	tail	aes.aes_cipher.zeroize.stack.wipe_stack.512
.Laes_func_end69:
	.size	aes.fotsgure_aes_equiv_inv_cipher_round, .Laes_func_end69-aes.fotsgure_aes_equiv_inv_cipher_round
                                        # -- End function
	.section	.text.aes.fotsgure_aes_cipher_round_par,"ax",@progbits
	export_aes	fotsgure_aes_cipher_round_par
	.p2align	1
	.type	aes.fotsgure_aes_cipher_round_par,@function
aes.fotsgure_aes_cipher_round_par:          # @aes.fotsgure_aes_cipher_round_par
# %bb.0:
	addi	sp, sp, -16
	sw	ra, 12(sp)                      # 4-byte Folded Spill
	call	aes.aes_c.single_rounds.rounds
	lw	ra, 12(sp)                      # 4-byte Folded Reload
	addi	sp, sp, 16
	tail	aes.aes_cipher.zeroize.stack.wipe_stack.512
.Laes_func_end70:
	.size	aes.fotsgure_aes_cipher_round_par, .Laes_func_end70-aes.fotsgure_aes_cipher_round_par
                                        # -- End function
	.section	.text.aes.fotsgure_aes_equiv_inv_cipher_round_par,"ax",@progbits
	export_aes	fotsgure_aes_equiv_inv_cipher_round_par
	.p2align	1
	.type	aes.fotsgure_aes_equiv_inv_cipher_round_par,@function
aes.fotsgure_aes_equiv_inv_cipher_round_par: # @aes.fotsgure_aes_equiv_inv_cipher_round_par
# %bb.0:
	addi	sp, sp, -16
	sw	ra, 12(sp)                      # 4-byte Folded Spill
	call	aes.aes_c.single_rounds.inverse_rounds
	lw	ra, 12(sp)                      # 4-byte Folded Reload
	addi	sp, sp, 16
	tail	aes.aes_cipher.zeroize.stack.wipe_stack.512
.Laes_func_end71:
	.size	aes.fotsgure_aes_equiv_inv_cipher_round_par, .Laes_func_end71-aes.fotsgure_aes_equiv_inv_cipher_round_par
                                        # -- End function
	.section	.text.aes.fotsgure_aes_mix_columns,"ax",@progbits
	export_aes	fotsgure_aes_mix_columns
	.p2align	1
	.type	aes.fotsgure_aes_mix_columns,@function
aes.fotsgure_aes_mix_columns:               # @aes.fotsgure_aes_mix_columns
# %bb.0:
	addi	sp, sp, -16
	sw	ra, 12(sp)                      # 4-byte Folded Spill
	call	aes.aes_c.single_rounds.mixed
	lw	ra, 12(sp)                      # 4-byte Folded Reload
	addi	sp, sp, 16
	tail	aes.aes_cipher.zeroize.stack.wipe_stack.512
.Laes_func_end72:
	.size	aes.fotsgure_aes_mix_columns, .Laes_func_end72-aes.fotsgure_aes_mix_columns
                                        # -- End function
	.section	.text.aes.fotsgure_aes_inv_mix_columns,"ax",@progbits
	export_aes	fotsgure_aes_inv_mix_columns
	.p2align	1
	.type	aes.fotsgure_aes_inv_mix_columns,@function
aes.fotsgure_aes_inv_mix_columns:           # @aes.fotsgure_aes_inv_mix_columns
# %bb.0:
	addi	sp, sp, -16
	sw	ra, 12(sp)                      # 4-byte Folded Spill
	call	aes.aes_c.single_rounds.inverse_mixed
	lw	ra, 12(sp)                      # 4-byte Folded Reload
	addi	sp, sp, 16
	tail	aes.aes_cipher.zeroize.stack.wipe_stack.512
.Laes_func_end73:
	.size	aes.fotsgure_aes_inv_mix_columns, .Laes_func_end73-aes.fotsgure_aes_inv_mix_columns
                                        # -- End function
	.section	.text.aes.fotsgure_aes_encrypt_blocks_with,"ax",@progbits
	export_aes	fotsgure_aes_encrypt_blocks_with
	.p2align	1
	.type	aes.fotsgure_aes_encrypt_blocks_with,@function
aes.fotsgure_aes_encrypt_blocks_with:       # @aes.fotsgure_aes_encrypt_blocks_with
# %bb.0:
	addi	sp, sp, -528
	sw	ra, 524(sp)                     # 4-byte Folded Spill
	sw	s0, 520(sp)                     # 4-byte Folded Spill
	sw	s1, 516(sp)                     # 4-byte Folded Spill
	sw	s2, 512(sp)                     # 4-byte Folded Spill
	sw	s3, 508(sp)                     # 4-byte Folded Spill
	sw	s4, 504(sp)                     # 4-byte Folded Spill
	sw	s5, 500(sp)                     # 4-byte Folded Spill
	sw	s6, 496(sp)                     # 4-byte Folded Spill
	mv	s4, a3
	li	a3, 32
	beq	a1, a3, .Laes_BB74_3
# %bb.1:
	andi	a3, a1, -9
	li	a4, 16
	beq	a3, a4, .Laes_BB74_3
# %bb.2:
	li	a0, 1
	j	.Laes_BB74_4
.Laes_BB74_3:                               # %join.3.i.i
	seqz	a3, a2
	seqz	a4, a0
	addi	s2, sp, 16
	srli	s5, a1, 31
	slli	a3, a3, 12
	add	s3, a2, a3
	slli	a2, a1, 1
	slli	a4, a4, 12
	add	s6, a0, a4
	addi	s0, a2, 56
	sltu	a0, s0, a2
	add	s5, s5, a0
	addi	a0, sp, 12
	li	a2, 484
	mv	s1, a1
	li	a1, 0
	call	memset
	mv	a0, s2
	mv	a1, s6
	mv	a2, s1
	li	a3, 0
	call	aes.aes_narrow.word_room.expand_words
	call	aes.aes_cipher.zeroize.stack.wipe_stack.768
	sw	s1, 12(sp)
	mv	a0, s2
	mv	a1, s0
	mv	a2, s5
	mv	a3, s3
	mv	a4, s4
	li	a5, 0
	call	aes.aes_narrow.blocks.process_all_batches.1
	call	aes.aes_cipher.zeroize.stack.wipe_stack.1024
	sw	zero, 12(sp)
	mv	a0, s2
	call	aes.aes_cipher.zeroize.elements.zeroize_elements.1
	li	a0, 0
.Laes_BB74_4:                               # %wide_fotsgure_aes_encrypt_blocks_with.exit
	lw	ra, 524(sp)                     # 4-byte Folded Reload
	lw	s0, 520(sp)                     # 4-byte Folded Reload
	lw	s1, 516(sp)                     # 4-byte Folded Reload
	lw	s2, 512(sp)                     # 4-byte Folded Reload
	lw	s3, 508(sp)                     # 4-byte Folded Reload
	lw	s4, 504(sp)                     # 4-byte Folded Reload
	lw	s5, 500(sp)                     # 4-byte Folded Reload
	lw	s6, 496(sp)                     # 4-byte Folded Reload
	addi	sp, sp, 528
	li	a1, 0
	li	a2, 0
	li	a3, 0
	li	a4, 0
	li	a5, 0
	li	a6, 0
	li	a7, 0
	li	t0, 0
	li	t1, 0
	li	t2, 0
	li	t3, 0
	li	t4, 0
	li	t5, 0
	li	t6, 0
	ret
.Laes_func_end74:
	.size	aes.fotsgure_aes_encrypt_blocks_with, .Laes_func_end74-aes.fotsgure_aes_encrypt_blocks_with
                                        # -- End function
	.section	.text.aes.fotsgure_aes_decrypt_blocks_with,"ax",@progbits
	export_aes	fotsgure_aes_decrypt_blocks_with
	.p2align	1
	.type	aes.fotsgure_aes_decrypt_blocks_with,@function
aes.fotsgure_aes_decrypt_blocks_with:       # @aes.fotsgure_aes_decrypt_blocks_with
# %bb.0:
	addi	sp, sp, -512
	sw	ra, 508(sp)                     # 4-byte Folded Spill
	sw	s0, 504(sp)                     # 4-byte Folded Spill
	sw	s1, 500(sp)                     # 4-byte Folded Spill
	sw	s2, 496(sp)                     # 4-byte Folded Spill
	sw	s3, 492(sp)                     # 4-byte Folded Spill
	sw	s4, 488(sp)                     # 4-byte Folded Spill
	sw	s5, 484(sp)                     # 4-byte Folded Spill
	mv	s3, a3
	mv	s4, a2
	mv	s1, a1
	li	s5, 32
	sw	zero, 0(sp)
	beq	a1, s5, .Laes_BB75_3
# %bb.1:
	andi	a1, s1, -9
	li	a2, 16
	beq	a1, a2, .Laes_BB75_3
# %bb.2:
	li	s0, 1
	j	.Laes_BB75_8
.Laes_BB75_3:                               # %join.3.i.i
	addi	s2, sp, 4
	seqz	a1, a0
	slli	a1, a1, 12
	add	s0, a0, a1
	addi	a0, sp, 36
	li	a2, 448
	li	a1, 0
	call	memset
	mv	a0, s2
	mv	a1, s0
	mv	a2, s1
	li	a3, 0
	call	aes.aes_narrow.word_room.expand_words
	call	aes.aes_cipher.zeroize.stack.wipe_stack.768
	sw	s1, 0(sp)
	beq	s1, s5, .Laes_BB75_6
# %bb.4:                                # %join.3.i.i
	andi	a0, s1, 48
	li	a1, 16
	beq	a0, a1, .Laes_BB75_6
# %bb.5:
	li	s0, 2
	j	.Laes_BB75_7
.Laes_BB75_6:                               # %join.3.i15.i.i
	seqz	a0, s4
	srli	a2, s1, 31
	slli	s1, s1, 1
	slli	a0, a0, 12
	add	a3, s4, a0
	addi	a1, s1, 56
	sltu	a0, a1, s1
	add	a2, a2, a0
	mv	a0, s2
	mv	a4, s3
	li	a5, 0
	call	aes.aes_narrow.blocks.process_all_batches.2
	call	aes.aes_cipher.zeroize.stack.wipe_stack.1024
	li	s0, 0
.Laes_BB75_7:                               # %"aes_c::blocks::fotsgure_aes_decrypt_blocks.exit.i.i"
	sw	zero, 0(sp)
	mv	a0, s2
	call	aes.aes_cipher.zeroize.elements.zeroize_elements.1
.Laes_BB75_8:                               # %wide_fotsgure_aes_decrypt_blocks_with.exit
	mv	a0, s0
	lw	ra, 508(sp)                     # 4-byte Folded Reload
	lw	s0, 504(sp)                     # 4-byte Folded Reload
	lw	s1, 500(sp)                     # 4-byte Folded Reload
	lw	s2, 496(sp)                     # 4-byte Folded Reload
	lw	s3, 492(sp)                     # 4-byte Folded Reload
	lw	s4, 488(sp)                     # 4-byte Folded Reload
	lw	s5, 484(sp)                     # 4-byte Folded Reload
	addi	sp, sp, 512
	li	a1, 0
	li	a2, 0
	li	a3, 0
	li	a4, 0
	li	a5, 0
	li	a6, 0
	li	a7, 0
	li	t0, 0
	li	t1, 0
	li	t2, 0
	li	t3, 0
	li	t4, 0
	li	t5, 0
	li	t6, 0
	ret
.Laes_func_end75:
	.size	aes.fotsgure_aes_decrypt_blocks_with, .Laes_func_end75-aes.fotsgure_aes_decrypt_blocks_with
                                        # -- End function
	.section	.text.aes.fotsgure_aes_add_keystream_with,"ax",@progbits
	export_aes	fotsgure_aes_add_keystream_with
	.p2align	1
	.type	aes.fotsgure_aes_add_keystream_with,@function
aes.fotsgure_aes_add_keystream_with:        # @aes.fotsgure_aes_add_keystream_with
# %bb.0:
	addi	sp, sp, -544
	sw	ra, 540(sp)                     # 4-byte Folded Spill
	sw	s0, 536(sp)                     # 4-byte Folded Spill
	sw	s1, 532(sp)                     # 4-byte Folded Spill
	sw	s2, 528(sp)                     # 4-byte Folded Spill
	sw	s3, 524(sp)                     # 4-byte Folded Spill
	sw	s4, 520(sp)                     # 4-byte Folded Spill
	sw	s5, 516(sp)                     # 4-byte Folded Spill
	sw	s6, 512(sp)                     # 4-byte Folded Spill
	sw	s7, 508(sp)                     # 4-byte Folded Spill
	li	a5, 32
	beq	a1, a5, .Laes_BB76_3
# %bb.1:
	andi	a5, a1, -9
	li	s1, 16
	beq	a5, s1, .Laes_BB76_3
# %bb.2:
	li	a0, 1
	j	.Laes_BB76_6
.Laes_BB76_3:                               # %join.3.i.i
	lw	a5, 16(a2)
	lw	s1, 20(a2)
	not	a5, a5
	addi	s1, s1, 1
	sltu	a5, a5, a4
	seqz	s1, s1
	and	a5, a5, s1
	beqz	a5, .Laes_BB76_5
# %bb.4:
	li	a0, 4
	j	.Laes_BB76_6
.Laes_BB76_5:                               # %join.6.i.i
	seqz	a5, a0
	seqz	s1, a3
	addi	s2, sp, 28
	srli	s0, a1, 31
	slli	a5, a5, 12
	add	s4, a0, a5
	slli	a0, a1, 1
	slli	s1, s1, 12
	add	s3, a3, s1
	addi	s6, a0, 56
	sltu	a0, s6, a0
	add	s7, s0, a0
	addi	a0, sp, 24
	mv	s0, a2
	li	a2, 484
	mv	s1, a1
	li	a1, 0
	mv	s5, a4
	call	memset
	mv	a0, s2
	mv	a1, s4
	mv	a2, s1
	li	a3, 0
	call	aes.aes_narrow.word_room.expand_words
	call	aes.aes_cipher.zeroize.stack.wipe_stack.768
	sw	s1, 24(sp)
	lw	a2, 16(s0)
	lw	a3, 20(s0)
	sw	s2, 8(sp)
	sw	zero, 12(sp)
	sw	s6, 16(sp)
	sw	s7, 20(sp)
	addi	a0, sp, 8
	mv	a1, s0
	mv	a4, s3
	mv	a5, s5
	li	a6, 0
	call	aes.aes_ctr.add_in_batches.add_keystream
	lw	a0, 16(s0)
	lw	a1, 20(s0)
	add	s5, s5, a0
	sltu	a0, s5, a0
	add	a0, a0, a1
	sw	s5, 16(s0)
	sw	a0, 20(s0)
	sw	zero, 24(sp)
	mv	a0, s2
	call	aes.aes_cipher.zeroize.elements.zeroize_elements.1
	li	a0, 0
.Laes_BB76_6:                               # %wide_fotsgure_aes_add_keystream_with.exit
	lw	ra, 540(sp)                     # 4-byte Folded Reload
	lw	s0, 536(sp)                     # 4-byte Folded Reload
	lw	s1, 532(sp)                     # 4-byte Folded Reload
	lw	s2, 528(sp)                     # 4-byte Folded Reload
	lw	s3, 524(sp)                     # 4-byte Folded Reload
	lw	s4, 520(sp)                     # 4-byte Folded Reload
	lw	s5, 516(sp)                     # 4-byte Folded Reload
	lw	s6, 512(sp)                     # 4-byte Folded Reload
	lw	s7, 508(sp)                     # 4-byte Folded Reload
	addi	sp, sp, 544
	li	a1, 0
	li	a2, 0
	li	a3, 0
	li	a4, 0
	li	a5, 0
	li	a6, 0
	li	a7, 0
	li	t0, 0
	li	t1, 0
	li	t2, 0
	li	t3, 0
	li	t4, 0
	li	t5, 0
	li	t6, 0
	ret
.Laes_func_end76:
	.size	aes.fotsgure_aes_add_keystream_with, .Laes_func_end76-aes.fotsgure_aes_add_keystream_with
                                        # -- End function
	.type	.Laes_static.0,@object              # @static.0
	.section	.rodata..Laes_static.0,"a",@progbits
.Laes_static.0:
	.ascii	"\001\002\004\b\020 @\200\0336"
	.size	.Laes_static.0, 10

	.type	.Laes_static.2,@object              # @static.2
	.section	.rodata.cst16,"aM",@progbits,16
.Laes_static.2:
	.zero	16,166
	.size	.Laes_static.2, 16

	.ident	"rattle logic=dac8208d650f15bf3e2dc313a14fa4c783a3acf887bdfab66e1714b038d9e11b"
	.section	".note.GNU-stack","",@progbits

	.section	.note.fotsgure,"",%note
	.p2align	2, 0x0
	.long	9, 116, 1
	.asciz	"Fotsgure"
	.p2align	2, 0x0
	.asciz	"fotsgure_aes 0.4.0, riscv32/aes.s, sources SHA-256 f3fecc818c73814a93835f06896045f67fddc8c102490795e0e19679064b46a4"
	.p2align	2, 0x0
