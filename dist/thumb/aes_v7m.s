@ Made by tools/dist from the proved crate aes_c; BUILD says from what. Don't edit it.
/* A Rust crate defines in_rust; for x86-64, a static library of both builds defines chosen, and choose_*.c calls these names. */
	.macro	export_aes_v7m name
	.ifdef	in_rust
	.globl	aes_v7m.\name
	.hidden	aes_v7m.\name
	.else
	.globl	\name
	.set	\name, aes_v7m.\name
	.endif
	.endm
	.syntax	unified
	.file	"rattle"
	.section	.text.aes_v7m.aes_narrow.word_room.expand_words,"ax",%progbits
	.p2align	2                               @ -- Begin function aes_narrow::word_room::expand_words::<#6af90bfc14753d47>
	.type	aes_v7m.aes_narrow.word_room.expand_words,%function
	.code	16
	.thumb_func
aes_v7m.aes_narrow.word_room.expand_words: @ @aes_v7m.aes_narrow.word_room.expand_words
	.fnstart
@ %bb.0:                                @ %start
	.save	{r4, r5, r6, r7, r8, r9, r10, r11, lr}
	push.w	{r4, r5, r6, r7, r8, r9, r10, r11, lr}
	.pad	#212
	sub	sp, #212
	cmp	r2, #24
	mov	r7, r0
	str	r0, [sp, #176]                  @ 4-byte Spill
	add	r0, sp, #180
	str	r3, [sp, #8]                    @ 4-byte Spill
	str	r2, [sp, #4]                    @ 4-byte Spill
	beq.w	.Laes_v7m_BB0_4
@ %bb.1:                                @ %start
	cmp	r2, #16
	bne.w	.Laes_v7m_BB0_6
@ %bb.2:                                @ %then.1.i160
	bl	aes_v7m.aes_planes.soft.word.word32.U32Word.in_every_slot
	ldrd	r11, r0, [sp, #180]
	ldrd	r8, lr, [sp, #188]
	ldrd	r4, r12, [sp, #196]
	ldrd	r3, r9, [sp, #204]
	adds	r1, r7, #4
	mov	r10, r0
	stm.w	r1, {r0, r8, lr}
	movs	r0, #0
	movs	r2, #0
	str.w	r11, [r7]
	strd	r4, r12, [r7, #16]
	strd	r3, r9, [r7, #24]
	str	r0, [sp, #164]                  @ 4-byte Spill
	.p2align	2
.Laes_v7m_BB0_3:                                @ %join.5.i.i161
                                        @ =>This Inner Loop Header: Depth=1
	eor.w	r1, r9, r10
	eor.w	r5, r4, r8
	str	r1, [sp, #108]                  @ 4-byte Spill
	eors	r1, r5
	eor.w	r0, r1, lr
	eor.w	r7, r9, r4
	str	r1, [sp, #172]                  @ 4-byte Spill
	eor.w	r1, r0, r3
	str	r2, [sp, #160]                  @ 4-byte Spill
	eor.w	r2, r3, r12
	eor.w	r12, r0, r8
	eor.w	r0, r1, r7
	str	r7, [sp, #152]                  @ 4-byte Spill
	eor.w	r3, r9, r8
	and.w	r8, r0, r7
	eor.w	r7, r12, r2
	str	r4, [sp, #124]                  @ 4-byte Spill
	eor.w	r4, r0, r7
	str	r4, [sp, #148]                  @ 4-byte Spill
	ands	r4, r5
	and.w	r6, r7, r3
	eor.w	r4, r4, r8
	eor.w	lr, r6, r8
	eor.w	r8, r2, r11
	str	r0, [sp, #168]                  @ 4-byte Spill
	eor.w	r0, r8, r10
	str	r5, [sp, #144]                  @ 4-byte Spill
	mov	r5, r7
	str	r7, [sp, #140]                  @ 4-byte Spill
	eor.w	r7, r12, r11
	eor.w	r6, r0, r3
	str	r6, [sp, #132]                  @ 4-byte Spill
	ands	r6, r7
	eors	r1, r6
	ldr	r6, [sp, #124]                  @ 4-byte Reload
	str	r7, [sp, #128]                  @ 4-byte Spill
	eor.w	r6, r6, r8
	and.w	r7, r6, r11
	str	r3, [sp, #156]                  @ 4-byte Spill
	eors	r7, r3
	ldr	r3, [sp, #172]                  @ 4-byte Reload
	str	r6, [sp, #124]                  @ 4-byte Spill
	and.w	r6, r12, r3
	ldr	r3, [sp, #168]                  @ 4-byte Reload
	str.w	r12, [sp, #136]                 @ 4-byte Spill
	ldr.w	r12, [sp, #108]                 @ 4-byte Reload
	eors	r7, r5
	eor.w	r10, r3, r2
	and.w	r2, r0, r8
	eor.w	r5, r7, r6
	eor.w	r2, r2, r10
	and.w	r7, r10, r12
	eors	r2, r7
	eors	r1, r6
	eor.w	r2, r2, r12
	str	r0, [sp, #112]                  @ 4-byte Spill
	eors	r1, r4
	eors	r2, r4
	eor.w	r4, r8, r9
	eor.w	r0, r3, r11
	str	r4, [sp, #116]                  @ 4-byte Spill
	ands	r4, r0
	eor.w	r4, r4, r10
	eors	r4, r7
	eor.w	r4, r4, r9
	str	r0, [sp, #120]                  @ 4-byte Spill
	eor.w	r7, r5, lr
	eor.w	r4, r4, lr
	and.w	r0, r2, r1
	eor.w	r5, r0, r7
	eor.w	r6, r4, r2
	ands	r5, r6
	eors	r1, r7
	eor.w	r6, r0, r4
	and.w	r3, r6, r1
	eor.w	lr, r3, r7
	eor.w	r3, r5, r0
	ands	r3, r4
	eor.w	r0, r5, r4
	eor.w	r4, r3, r6
	and.w	r4, r4, lr
	eor.w	r5, r4, r1
	eor.w	r1, r3, r2
	eor.w	r3, r5, lr
	and.w	r2, r3, r12
	str	r2, [sp, #108]                  @ 4-byte Spill
	ldr	r2, [sp, #112]                  @ 4-byte Reload
	eor.w	r6, r1, r0
	ands	r2, r5
	str	r2, [sp, #112]                  @ 4-byte Spill
	ldr	r2, [sp, #128]                  @ 4-byte Reload
	and.w	r7, r3, r10
	and.w	r10, r5, r8
	and.w	r8, r6, r2
	ldr	r2, [sp, #132]                  @ 4-byte Reload
	and.w	r4, r0, r11
	and.w	r9, r6, r2
	ldr	r2, [sp, #124]                  @ 4-byte Reload
	eors	r5, r6
	ands	r2, r0
	str	r2, [sp, #132]                  @ 4-byte Spill
	ldr	r2, [sp, #168]                  @ 4-byte Reload
	eor.w	r0, r0, lr
	and.w	r12, r0, r2
	ldr	r2, [sp, #152]                  @ 4-byte Reload
	ldr	r3, [sp, #148]                  @ 4-byte Reload
	and.w	r11, r0, r2
	ldr	r2, [sp, #144]                  @ 4-byte Reload
	eors	r0, r5
	ands	r2, r0
	ands	r3, r0
	ldr	r0, [sp, #116]                  @ 4-byte Reload
	ldr	r6, [sp, #172]                  @ 4-byte Reload
	and.w	r0, r0, lr
	str	r0, [sp, #152]                  @ 4-byte Spill
	ldr	r0, [sp, #120]                  @ 4-byte Reload
	eor.w	r2, r2, r11
	and.w	lr, lr, r0
	ldr	r0, [sp, #136]                  @ 4-byte Reload
	str.w	r11, [sp, #168]                 @ 4-byte Spill
	ands	r0, r1
	eors	r4, r0
	ands	r1, r6
	eor.w	r6, r4, lr
	str	r1, [sp, #148]                  @ 4-byte Spill
	eor.w	r1, r8, r0
	eor.w	r8, r6, r7
	ldr	r6, [sp, #112]                  @ 4-byte Reload
	eor.w	r0, r7, r10
	eor.w	r7, r8, r6
	eor.w	lr, r2, r9
	eors	r7, r2
	eor.w	r2, r0, r3
	eors	r0, r1
	str	r0, [sp, #172]                  @ 4-byte Spill
	ldr	r0, [sp, #140]                  @ 4-byte Reload
	ldr	r6, [sp, #108]                  @ 4-byte Reload
	ands	r0, r5
	eors	r0, r4
	eors	r0, r6
	eor.w	r3, r0, r2
	ldr	r0, [sp, #156]                  @ 4-byte Reload
	eor.w	r1, r2, r12
	ldr.w	r10, [sp, #164]                 @ 4-byte Reload
	and.w	r12, r5, r0
	movw	r0, :lower16:.Laes_v7m_static.0
	movt	r0, :upper16:.Laes_v7m_static.0
	ldrb.w	r4, [r0, r10]
	movs	r2, #64
	and.w	r0, r2, r4, lsl #6
	orr.w	r0, r0, r0, lsl #1
	eor.w	r0, r7, r0, lsl #8
	eor.w	r9, r0, r6
	and.w	r0, r2, r4, lsl #5
	orr.w	r0, r0, r0, lsl #1
	and.w	r6, r2, r4, lsl #3
	eor.w	r0, r7, r0, lsl #8
	ldr	r5, [sp, #152]                  @ 4-byte Reload
	orr.w	r6, r6, r6, lsl #1
	eors	r0, r3
	eor.w	r11, r8, r6, lsl #8
	and.w	r6, r2, r4, lsl #1
	eor.w	r7, r3, r5
	str	r0, [sp, #156]                  @ 4-byte Spill
	and.w	r0, r2, r4, lsl #4
	ldr	r3, [sp, #132]                  @ 4-byte Reload
	orr.w	r6, r6, r6, lsl #1
	orr.w	r0, r0, r0, lsl #1
	eor.w	r6, r12, r6, lsl #8
	ldr	r5, [sp, #168]                  @ 4-byte Reload
	eor.w	r3, r3, r0, lsl #8
	ldr	r0, [sp, #148]                  @ 4-byte Reload
	eors	r6, r1
	eor.w	r3, r3, lr
	eor.w	r12, r6, r5
	ldr	r5, [sp, #176]                  @ 4-byte Reload
	eor.w	r0, r0, lr
	lsl.w	lr, r10, #5
	eor.w	r8, r3, r7
	and.w	r3, r2, r4, lsl #2
	add.w	r6, r5, r10, lsl #5
	ldr.w	lr, [r5, lr]
	ldr	r5, [sp, #172]                  @ 4-byte Reload
	eor.w	r12, r12, r7
	orr.w	r7, r3, r3, lsl #1
	and.w	r2, r2, r4, lsr #1
	and	r3, r4, #64
	orr.w	r4, r3, r3, lsl #1
	orr.w	r2, r2, r2, lsl #1
	eors	r5, r0
	eor.w	r4, r1, r4, lsl #8
	eor.w	r1, r1, r2, lsl #8
	eor.w	r3, r11, r5
	eor.w	r7, r5, r7, lsl #8
	eors	r4, r5
	eors	r0, r1
	mov.w	r5, #50529027
	str	r0, [sp, #168]                  @ 4-byte Spill
	bic.w	r0, r5, r9, ror #14
	eor.w	r1, r0, lr
	mov.w	r0, #-50529028
	and.w	r2, r0, r1, lsl #2
	eors	r1, r2
	mov.w	r2, #-252645136
	str	r4, [sp, #164]                  @ 4-byte Spill
	and.w	r4, r2, r1, lsl #4
	eor.w	r11, r4, r1
	ldr	r4, [sp, #156]                  @ 4-byte Reload
	ldr	r1, [r6, #4]
	bic.w	r4, r5, r4, ror #14
	eors	r1, r4
	and.w	r4, r0, r1, lsl #2
	eors	r1, r4
	and.w	r4, r2, r1, lsl #4
	eors	r1, r4
	str	r1, [sp, #172]                  @ 4-byte Spill
	ldr	r1, [r6, #8]
	and.w	r4, r5, r8, ror #14
	eors	r1, r4
	and.w	r4, r0, r1, lsl #2
	eors	r1, r4
	and.w	r4, r2, r1, lsl #4
	eor.w	r8, r4, r1
	ldr	r1, [r6, #12]
	and.w	r3, r5, r3, ror #14
	eors	r1, r3
	and.w	r3, r0, r1, lsl #2
	eors	r1, r3
	and.w	r3, r2, r1, lsl #4
	eor.w	lr, r3, r1
	ldr	r1, [r6, #16]
	and.w	r3, r5, r7, ror #14
	eors	r1, r3
	and.w	r3, r0, r1, lsl #2
	eors	r1, r3
	and.w	r3, r2, r1, lsl #4
	eor.w	r4, r3, r1
	ldr	r1, [r6, #20]
	bic.w	r3, r5, r12, ror #14
	eors	r1, r3
	and.w	r3, r0, r1, lsl #2
	eors	r1, r3
	and.w	r3, r2, r1, lsl #4
	eor.w	r12, r3, r1
	ldr	r1, [sp, #164]                  @ 4-byte Reload
	ldr	r3, [r6, #24]
	bic.w	r7, r5, r1, ror #14
	eors	r3, r7
	and.w	r7, r0, r3, lsl #2
	eors	r3, r7
	and.w	r7, r2, r3, lsl #4
	ldr	r1, [sp, #168]                  @ 4-byte Reload
	eors	r3, r7
	ldr	r7, [r6, #28]
	and.w	r5, r5, r1, ror #14
	eors	r7, r5
	and.w	r0, r0, r7, lsl #2
	eors	r0, r7
	ldr	r1, [sp, #160]                  @ 4-byte Reload
	and.w	r2, r2, r0, lsl #4
	eor.w	r9, r2, r0
	adds.w	r0, r10, #1
	str	r0, [sp, #164]                  @ 4-byte Spill
	adc	r2, r1, #0
	subs.w	r0, r10, #9
	sbcs	r0, r1, #0
	ldr	r0, [sp, #172]                  @ 4-byte Reload
	add.w	r1, r6, #36
	mov	r10, r0
	str.w	r11, [r6, #32]
	stm.w	r1, {r0, r8, lr}
	strd	r4, r12, [r6, #48]
	strd	r3, r9, [r6, #56]
	blo.w	.Laes_v7m_BB0_3
	b.w	.Laes_v7m_BB0_9
	.p2align	2
.Laes_v7m_BB0_4:                                @ %then.4.i157
	mov	r4, r1
	bl	aes_v7m.aes_planes.soft.word.word32.U32Word.in_every_slot
	ldrd	r8, r0, [sp, #180]
	ldrd	r9, r5, [sp, #188]
	str	r0, [sp, #124]                  @ 4-byte Spill
	ldr	r0, [sp, #204]
	ldrd	r6, r11, [sp, #196]
	str	r0, [sp, #148]                  @ 4-byte Spill
	ldr	r0, [sp, #208]
	add.w	r1, r4, #8
	str	r0, [sp, #144]                  @ 4-byte Spill
	add	r0, sp, #180
	bl	aes_v7m.aes_planes.soft.word.word32.U32Word.in_every_slot
	ldr	r0, [sp, #180]
	ldrd	r10, r12, [sp, #204]
	str	r0, [sp, #172]                  @ 4-byte Spill
	ldr	r0, [sp, #184]
	str	r5, [sp, #132]                  @ 4-byte Spill
	str	r0, [sp, #164]                  @ 4-byte Spill
	ldr	r0, [sp, #188]
	str	r5, [r7, #12]
	str	r0, [sp, #160]                  @ 4-byte Spill
	ldr	r0, [sp, #192]
	movs	r5, #0
	str	r0, [sp, #116]                  @ 4-byte Spill
	ldr	r0, [sp, #196]
	movs	r2, #0
	str	r0, [sp, #156]                  @ 4-byte Spill
	ldr	r0, [sp, #200]
	str.w	r8, [sp, #120]                  @ 4-byte Spill
	str	r0, [sp, #112]                  @ 4-byte Spill
	ldr	r0, [sp, #124]                  @ 4-byte Reload
	str.w	r8, [r7]
	str	r0, [r7, #4]
	ldr	r0, [sp, #148]                  @ 4-byte Reload
	str.w	r9, [sp, #128]                  @ 4-byte Spill
	str	r0, [r7, #24]
	ldr	r0, [sp, #144]                  @ 4-byte Reload
	str.w	r9, [r7, #8]
	str	r6, [sp, #140]                  @ 4-byte Spill
	str	r6, [r7, #16]
	str.w	r11, [sp, #136]                 @ 4-byte Spill
	str.w	r11, [r7, #20]
	str	r0, [r7, #28]
	.p2align	2
.Laes_v7m_BB0_5:                                @ %join.5.i164.i
                                        @ =>This Inner Loop Header: Depth=1
	ldr.w	r8, [sp, #164]                  @ 4-byte Reload
	ldrd	r4, r7, [sp, #156]              @ 8-byte Folded Reload
	eor.w	r1, r12, r8
	eor.w	r9, r4, r7
	ldr	r0, [sp, #116]                  @ 4-byte Reload
	str	r1, [sp, #52]                   @ 4-byte Spill
	eor.w	r1, r1, r9
	eors	r0, r1
	str	r5, [sp, #152]                  @ 4-byte Spill
	eor.w	r5, r0, r7
	eor.w	lr, r0, r10
	ldr	r0, [sp, #112]                  @ 4-byte Reload
	str	r1, [sp, #168]                  @ 4-byte Spill
	eor.w	r1, r12, r4
	str.w	r10, [sp, #76]                  @ 4-byte Spill
	eor.w	r10, r10, r0
	eor.w	r0, lr, r1
	str	r2, [sp, #88]                   @ 4-byte Spill
	str	r1, [sp, #104]                  @ 4-byte Spill
	and.w	r2, r0, r1
	eor.w	r1, r5, r10
	str	r7, [sp, #160]                  @ 4-byte Spill
	eor.w	r3, r0, r1
	eor.w	r7, r7, r12
	str	r3, [sp, #100]                  @ 4-byte Spill
	and.w	r3, r3, r9
	and.w	r6, r1, r7
	str	r0, [sp, #44]                   @ 4-byte Spill
	eor.w	r11, r3, r2
	eor.w	r0, r6, r2
	ldr	r2, [sp, #172]                  @ 4-byte Reload
	str.w	r9, [sp, #92]                   @ 4-byte Spill
	eor.w	r9, r10, r2
	str.w	r8, [sp, #164]                  @ 4-byte Spill
	eor.w	r8, r8, r9
	mov	r3, r1
	str	r1, [sp, #96]                   @ 4-byte Spill
	str	r0, [sp, #48]                   @ 4-byte Spill
	eor.w	r1, r5, r2
	eor.w	r0, r8, r7
	str	r4, [sp, #156]                  @ 4-byte Spill
	and.w	r6, r1, r0
	eor.w	r4, r4, r9
	str	r0, [sp, #68]                   @ 4-byte Spill
	eor.w	lr, lr, r6
	and.w	r6, r4, r2
	ldr	r0, [sp, #168]                  @ 4-byte Reload
	eors	r6, r7
	str	r4, [sp, #84]                   @ 4-byte Spill
	eors	r6, r3
	and.w	r4, r5, r0
	str	r7, [sp, #108]                  @ 4-byte Spill
	eor.w	r7, r6, r4
	ldr	r6, [sp, #44]                   @ 4-byte Reload
	str	r5, [sp, #80]                   @ 4-byte Spill
	eor.w	r4, r4, lr
	ldr	r5, [sp, #52]                   @ 4-byte Reload
	str	r1, [sp, #64]                   @ 4-byte Spill
	eor.w	r1, r6, r10
	eor.w	lr, r4, r11
	and.w	r4, r8, r9
	eors	r4, r1
	and.w	r0, r1, r5
	eors	r4, r0
	eors	r4, r5
	str	r2, [sp, #172]                  @ 4-byte Spill
	eor.w	r3, r4, r11
	eor.w	r4, r9, r12
	eors	r2, r6
	mov	r10, r6
	and.w	r6, r2, r4
	eors	r6, r1
	str	r2, [sp, #60]                   @ 4-byte Spill
	eors	r0, r6
	ldr	r2, [sp, #48]                   @ 4-byte Reload
	eor.w	r0, r0, r12
	eor.w	r6, r7, r2
	eor.w	r7, r0, r2
	and.w	r0, r3, lr
	str.w	r12, [sp, #72]                  @ 4-byte Spill
	eor.w	r12, r0, r6
	eor.w	r11, r7, r3
	and.w	r12, r12, r11
	eor.w	r11, lr, r6
	eor.w	r2, r0, r7
	str	r4, [sp, #56]                   @ 4-byte Spill
	and.w	r4, r2, r11
	eors	r6, r4
	eor.w	r4, r12, r0
	eor.w	r0, r12, r7
	ands	r7, r4
	eors	r2, r7
	ands	r2, r6
	eor.w	r2, r2, r11
	eors	r3, r7
	eor.w	r7, r2, r6
	and.w	r12, r7, r1
	and.w	r1, r7, r5
	str	r1, [sp, #52]                   @ 4-byte Spill
	ldr	r1, [sp, #64]                   @ 4-byte Reload
	eor.w	r5, r3, r0
	and.w	lr, r5, r1
	ldr	r1, [sp, #68]                   @ 4-byte Reload
	eor.w	r7, r6, r0
	and.w	r11, r2, r8
	eor.w	r8, r2, r5
	ands	r5, r1
	and.w	r1, r7, r10
	str	r1, [sp, #68]                   @ 4-byte Spill
	ldr	r1, [sp, #104]                  @ 4-byte Reload
	and.w	r9, r9, r2
	and.w	r2, r7, r1
	ldr	r1, [sp, #92]                   @ 4-byte Reload
	ldr	r4, [sp, #100]                  @ 4-byte Reload
	eor.w	r7, r7, r8
	ands	r1, r7
	ands	r7, r4
	ldr	r4, [sp, #56]                   @ 4-byte Reload
	str	r2, [sp, #104]                  @ 4-byte Spill
	ands	r4, r6
	str	r4, [sp, #100]                  @ 4-byte Spill
	ldr	r4, [sp, #60]                   @ 4-byte Reload
	eors	r1, r2
	ands	r6, r4
	ldr	r4, [sp, #80]                   @ 4-byte Reload
	ldr	r2, [sp, #96]                   @ 4-byte Reload
	and.w	r10, r3, r4
	ldr	r4, [sp, #168]                  @ 4-byte Reload
	and.w	r2, r2, r8
	ands	r3, r4
	str	r3, [sp, #168]                  @ 4-byte Spill
	ldr	r3, [sp, #84]                   @ 4-byte Reload
	eor.w	r4, r12, r9
	ands	r3, r0
	str	r3, [sp, #92]                   @ 4-byte Spill
	ldr	r3, [sp, #172]                  @ 4-byte Reload
	eors	r5, r1
	ands	r0, r3
	eor.w	r0, r0, r10
	eors	r6, r0
	eor.w	r6, r6, r12
	eor.w	r3, r6, r11
	eors	r0, r2
	ldr	r2, [sp, #68]                   @ 4-byte Reload
	eors	r1, r3
	eor.w	r3, r4, r7
	ldr	r7, [sp, #52]                   @ 4-byte Reload
	eor.w	r12, r3, r2
	ldr	r2, [sp, #108]                  @ 4-byte Reload
	eors	r0, r7
	eors	r0, r3
	and.w	r8, r8, r2
	ldr	r2, [sp, #152]                  @ 4-byte Reload
	movw	r3, :lower16:.Laes_v7m_static.0
	movt	r3, :upper16:.Laes_v7m_static.0
	ldrb.w	r2, [r3, r2, lsl #1]
	eor.w	lr, lr, r10
	mov.w	r10, #64
	and.w	r3, r10, r2, lsl #6
	orr.w	r3, r3, r3, lsl #1
	eor.w	r3, r1, r3, lsl #8
	eor.w	r9, r3, r7
	and.w	r3, r10, r2, lsl #5
	orr.w	r3, r3, r3, lsl #1
	eor.w	r1, r1, r3, lsl #8
	ldr	r3, [sp, #100]                  @ 4-byte Reload
	eor.w	r4, r4, lr
	eors	r3, r0
	eor.w	lr, r1, r0
	and.w	r0, r10, r2, lsl #4
	ldr	r1, [sp, #92]                   @ 4-byte Reload
	orr.w	r0, r0, r0, lsl #1
	eor.w	r0, r1, r0, lsl #8
	ldr	r1, [sp, #168]                  @ 4-byte Reload
	eors	r0, r5
	eor.w	r7, r5, r1
	and.w	r1, r10, r2, lsl #3
	and.w	r5, r10, r2, lsl #1
	orr.w	r1, r1, r1, lsl #1
	orr.w	r5, r5, r5, lsl #1
	eor.w	r1, r6, r1, lsl #8
	eor.w	r5, r8, r5, lsl #8
	ldr	r6, [sp, #104]                  @ 4-byte Reload
	eor.w	r5, r5, r12
	eors	r5, r6
	eors	r0, r3
	eor.w	r8, r5, r3
	and.w	r6, r10, r2, lsl #2
	and	r3, r2, #64
	and.w	r2, r10, r2, lsr #1
	orr.w	r3, r3, r3, lsl #1
	orr.w	r2, r2, r2, lsl #1
	eor.w	r5, r4, r7
	orr.w	r6, r6, r6, lsl #1
	eor.w	r3, r12, r3, lsl #8
	eor.w	r2, r12, r2, lsl #8
	eor.w	r4, r1, r5
	eor.w	r1, r5, r6, lsl #8
	eor.w	r11, r3, r5
	eor.w	r12, r2, r7
	mov.w	r5, #50529027
	ldr	r2, [sp, #120]                  @ 4-byte Reload
	bic.w	r3, r5, r9, ror #14
	eors	r3, r2
	mov.w	r2, #-50529028
	and.w	r7, r2, r3, lsl #2
	eor.w	r6, r7, r3
	ldr	r7, [sp, #124]                  @ 4-byte Reload
	bic.w	r3, r5, lr, ror #14
	eors	r3, r7
	and.w	r7, r2, r3, lsl #2
	eors	r7, r3
	ldr	r3, [sp, #128]                  @ 4-byte Reload
	and.w	r0, r5, r0, ror #14
	eors	r0, r3
	and.w	r3, r2, r0, lsl #2
	eor.w	r9, r3, r0
	ldr	r3, [sp, #132]                  @ 4-byte Reload
	and.w	r0, r5, r4, ror #14
	eors	r0, r3
	and.w	r3, r2, r0, lsl #2
	eor.w	r4, r3, r0
	and.w	r0, r5, r1, ror #14
	ldr	r1, [sp, #140]                  @ 4-byte Reload
	str.w	r9, [sp, #104]                  @ 4-byte Spill
	eors	r0, r1
	and.w	r1, r2, r0, lsl #2
	eor.w	r10, r1, r0
	ldr	r1, [sp, #136]                  @ 4-byte Reload
	bic.w	r0, r5, r8, ror #14
	eors	r0, r1
	and.w	r1, r2, r0, lsl #2
	eor.w	r8, r1, r0
	ldr	r1, [sp, #148]                  @ 4-byte Reload
	bic.w	r0, r5, r11, ror #14
	eors	r0, r1
	and.w	r1, r2, r0, lsl #2
	eor.w	lr, r1, r0
	ldr	r1, [sp, #144]                  @ 4-byte Reload
	and.w	r0, r5, r12, ror #14
	eors	r0, r1
	and.w	r1, r2, r0, lsl #2
	eor.w	r3, r1, r0
	ldr	r1, [sp, #172]                  @ 4-byte Reload
	and.w	r0, r5, r6, lsr #2
	eors	r0, r1
	and.w	r1, r2, r0, lsl #2
	eors	r0, r1
	mov.w	r12, #-252645136
	and.w	r1, r12, r0, lsl #4
	eors	r0, r1
	ldr.w	r11, [sp, #164]                 @ 4-byte Reload
	str	r0, [sp, #124]                  @ 4-byte Spill
	and.w	r0, r5, r7, lsr #2
	eor.w	r0, r0, r11
	and.w	r1, r2, r0, lsl #2
	eors	r0, r1
	and.w	r1, r12, r0, lsl #4
	eors	r0, r1
	str	r0, [sp, #128]                  @ 4-byte Spill
	and.w	r0, r5, r9, lsr #2
	ldr.w	r9, [sp, #160]                  @ 4-byte Reload
	str	r7, [sp, #100]                  @ 4-byte Spill
	eor.w	r0, r0, r9
	and.w	r1, r2, r0, lsl #2
	eors	r0, r1
	and.w	r1, r12, r0, lsl #4
	eors	r0, r1
	ldr	r7, [sp, #116]                  @ 4-byte Reload
	str	r0, [sp, #132]                  @ 4-byte Spill
	and.w	r0, r5, r4, lsr #2
	eors	r0, r7
	and.w	r1, r2, r0, lsl #2
	eors	r0, r1
	and.w	r1, r12, r0, lsl #4
	str	r6, [sp, #96]                   @ 4-byte Spill
	eors	r0, r1
	ldr	r6, [sp, #156]                  @ 4-byte Reload
	str	r0, [sp, #140]                  @ 4-byte Spill
	and.w	r0, r5, r10, lsr #2
	eors	r0, r6
	and.w	r1, r2, r0, lsl #2
	eors	r0, r1
	and.w	r1, r12, r0, lsl #4
	eors	r0, r1
	str.w	r8, [sp, #92]                   @ 4-byte Spill
	str	r0, [sp, #136]                  @ 4-byte Spill
	and.w	r0, r5, r8, lsr #2
	ldr.w	r8, [sp, #112]                  @ 4-byte Reload
	str	r4, [sp, #108]                  @ 4-byte Spill
	eor.w	r0, r0, r8
	and.w	r1, r2, r0, lsl #2
	eors	r0, r1
	and.w	r1, r12, r0, lsl #4
	eors	r0, r1
	ldr	r4, [sp, #76]                   @ 4-byte Reload
	str	r0, [sp, #144]                  @ 4-byte Spill
	and.w	r0, r5, lr, lsr #2
	eors	r0, r4
	and.w	r1, r2, r0, lsl #2
	eors	r0, r1
	and.w	r1, r12, r0, lsl #4
	eors	r0, r1
	str	r0, [sp, #148]                  @ 4-byte Spill
	and.w	r0, r5, r3, lsr #2
	mov	r5, r3
	str	r3, [sp, #84]                   @ 4-byte Spill
	ldr	r3, [sp, #72]                   @ 4-byte Reload
	str.w	r10, [sp, #120]                 @ 4-byte Spill
	eors	r0, r3
	and.w	r1, r2, r0, lsl #2
	eors	r0, r1
	and.w	r1, r12, r0, lsl #4
	eors	r0, r1
	ldr	r1, [sp, #172]                  @ 4-byte Reload
	str	r0, [sp, #168]                  @ 4-byte Spill
	mov.w	r0, #252645135
	mov	r10, lr
	str.w	lr, [sp, #80]                   @ 4-byte Spill
	and.w	r2, r0, r1, lsr #4
	and.w	r12, r0, r11, lsr #4
	and.w	lr, r0, r9, lsr #4
	and.w	r7, r0, r7, lsr #4
	and.w	r6, r0, r6, lsr #4
	and.w	r11, r0, r8, lsr #4
	and.w	r1, r0, r4, lsr #4
	and.w	r3, r0, r3, lsr #4
	ldr	r0, [sp, #152]                  @ 4-byte Reload
	ldr	r4, [sp, #176]                  @ 4-byte Reload
	add.w	r0, r0, r0, lsl #1
	add.w	r9, r4, r0, lsl #5
	ldr	r0, [sp, #96]                   @ 4-byte Reload
	mov.w	r4, #-252645136
	and.w	r0, r4, r0, lsl #4
	str	r0, [sp, #64]                   @ 4-byte Spill
	add	r0, r2
	str.w	r0, [r9, #32]
	ldr	r0, [sp, #100]                  @ 4-byte Reload
	and.w	r0, r4, r0, lsl #4
	str	r0, [sp, #68]                   @ 4-byte Spill
	add	r0, r12
	str.w	r0, [r9, #36]
	ldr	r0, [sp, #104]                  @ 4-byte Reload
	and.w	r0, r4, r0, lsl #4
	str	r0, [sp, #72]                   @ 4-byte Spill
	add	r0, lr
	str.w	r0, [r9, #40]
	ldr	r0, [sp, #108]                  @ 4-byte Reload
	and.w	r0, r4, r0, lsl #4
	str	r0, [sp, #76]                   @ 4-byte Spill
	add	r0, r7
	str.w	r0, [r9, #44]
	ldr	r0, [sp, #120]                  @ 4-byte Reload
	ldr	r7, [sp, #128]                  @ 4-byte Reload
	and.w	r0, r4, r0, lsl #4
	str	r0, [sp, #112]                  @ 4-byte Spill
	add	r0, r6
	str.w	r0, [r9, #48]
	ldr	r0, [sp, #92]                   @ 4-byte Reload
	and.w	r0, r4, r0, lsl #4
	str	r0, [sp, #116]                  @ 4-byte Spill
	add	r0, r11
	str.w	r0, [r9, #52]
	and.w	r0, r4, r10, lsl #4
	str	r0, [sp, #156]                  @ 4-byte Spill
	add	r0, r1
	str.w	r0, [r9, #56]
	and.w	r0, r4, r5, lsl #4
	ldr.w	r11, [sp, #168]                 @ 4-byte Reload
	ldrd	r1, r6, [sp, #132]              @ 8-byte Folded Reload
	str	r0, [sp, #160]                  @ 4-byte Spill
	add	r0, r3
	str.w	r0, [r9, #60]
	eor.w	r3, r7, r11
	eor.w	lr, r6, r1
	ldr	r0, [sp, #140]                  @ 4-byte Reload
	str	r3, [sp, #12]                   @ 4-byte Spill
	eor.w	r3, r3, lr
	str	r3, [sp, #172]                  @ 4-byte Spill
	eors	r0, r3
	ldr	r3, [sp, #148]                  @ 4-byte Reload
	eor.w	r10, r0, r1
	eor.w	r4, r0, r3
	ldr	r0, [sp, #144]                  @ 4-byte Reload
	str	r4, [sp, #40]                   @ 4-byte Spill
	eor.w	r8, r3, r0
	eor.w	r3, r6, r11
	eor.w	r0, r4, r3
	eor.w	r4, r10, r8
	str	r3, [sp, #56]                   @ 4-byte Spill
	and.w	r2, r0, r3
	eor.w	r3, r0, r4
	str	r3, [sp, #52]                   @ 4-byte Spill
	and.w	r3, r3, lr
	eor.w	r1, r1, r11
	eor.w	r5, r3, r2
	and.w	r3, r4, r1
	eor.w	r11, r3, r2
	ldr	r2, [sp, #124]                  @ 4-byte Reload
	str.w	lr, [sp, #48]                   @ 4-byte Spill
	eor.w	lr, r8, r2
	eor.w	r12, lr, r7
	str	r0, [sp, #164]                  @ 4-byte Spill
	eor.w	r3, r10, r2
	eor.w	r0, r12, r1
	str	r0, [sp, #32]                   @ 4-byte Spill
	and.w	r7, r3, r0
	ldr	r0, [sp, #40]                   @ 4-byte Reload
	str	r4, [sp, #44]                   @ 4-byte Spill
	eors	r0, r7
	eor.w	r7, lr, r6
	str	r7, [sp, #40]                   @ 4-byte Spill
	ands	r7, r2
	mov	r6, r2
	ldr	r2, [sp, #172]                  @ 4-byte Reload
	eors	r7, r1
	eors	r7, r4
	and.w	r2, r2, r10
	eor.w	r4, r7, r2
	ldr	r7, [sp, #164]                  @ 4-byte Reload
	str.w	r10, [sp, #36]                  @ 4-byte Spill
	eors	r2, r0
	ldr.w	r10, [sp, #12]                  @ 4-byte Reload
	str	r3, [sp, #28]                   @ 4-byte Spill
	eor.w	r3, r7, r8
	eor.w	r8, r2, r5
	and.w	r2, r12, lr
	str.w	r12, [sp, #16]                  @ 4-byte Spill
	eors	r2, r3
	and.w	r12, r3, r10
	str	r1, [sp, #60]                   @ 4-byte Spill
	eor.w	r2, r2, r12
	ldr	r1, [sp, #168]                  @ 4-byte Reload
	eor.w	r2, r2, r10
	eors	r5, r2
	eor.w	r0, lr, r1
	eor.w	r2, r7, r6
	str	r2, [sp, #24]                   @ 4-byte Spill
	ands	r2, r0
	eors	r2, r3
	str	r0, [sp, #20]                   @ 4-byte Spill
	eor.w	r0, r2, r12
	eors	r0, r1
	eor.w	r2, r4, r11
	eor.w	r4, r0, r11
	and.w	r6, r5, r8
	eor.w	r0, r6, r2
	eor.w	r7, r4, r5
	ands	r7, r0
	eor.w	r12, r8, r2
	eor.w	r1, r6, r4
	and.w	r0, r1, r12
	eors	r6, r7
	eors	r0, r2
	eor.w	r2, r7, r4
	ands	r4, r6
	eors	r1, r4
	ands	r1, r0
	eor.w	r1, r1, r12
	eors	r5, r4
	eor.w	r4, r1, r0
	and.w	r8, r4, r3
	and.w	r3, r4, r10
	str	r3, [sp, #12]                   @ 4-byte Spill
	ldr	r3, [sp, #16]                   @ 4-byte Reload
	eor.w	r7, r5, r2
	and.w	r10, r1, lr
	ands	r3, r1
	eor.w	lr, r1, r7
	ldr	r1, [sp, #28]                   @ 4-byte Reload
	str	r3, [sp, #16]                   @ 4-byte Spill
	and.w	r4, r7, r1
	ldr	r1, [sp, #32]                   @ 4-byte Reload
	eor.w	r3, r0, r2
	and.w	r12, r7, r1
	ldr	r1, [sp, #164]                  @ 4-byte Reload
	ands	r1, r3
	str	r1, [sp, #32]                   @ 4-byte Spill
	ldr	r1, [sp, #56]                   @ 4-byte Reload
	and.w	r7, r3, r1
	ldr	r1, [sp, #48]                   @ 4-byte Reload
	eor.w	r3, r3, lr
	and.w	r6, r3, r1
	ldr	r1, [sp, #52]                   @ 4-byte Reload
	str	r7, [sp, #164]                  @ 4-byte Spill
	and.w	r11, r3, r1
	ldr	r1, [sp, #20]                   @ 4-byte Reload
	ands	r1, r0
	str	r1, [sp, #56]                   @ 4-byte Spill
	ldr	r1, [sp, #24]                   @ 4-byte Reload
	ands	r0, r1
	ldr	r1, [sp, #36]                   @ 4-byte Reload
	and.w	r3, r5, r1
	ldr	r1, [sp, #172]                  @ 4-byte Reload
	eors	r4, r3
	ands	r1, r5
	str	r1, [sp, #52]                   @ 4-byte Spill
	ldr	r1, [sp, #40]                   @ 4-byte Reload
	ldr	r5, [sp, #16]                   @ 4-byte Reload
	ands	r1, r2
	str	r1, [sp, #48]                   @ 4-byte Spill
	ldr	r1, [sp, #124]                  @ 4-byte Reload
	ands	r2, r1
	eors	r2, r3
	eors	r0, r2
	eor.w	r3, r8, r10
	eor.w	r8, r8, r0
	eor.w	r0, r6, r7
	eor.w	r5, r5, r8
	eor.w	r12, r12, r0
	eor.w	r7, r5, r0
	eor.w	r0, r3, r11
	eors	r3, r4
	str	r3, [sp, #172]                  @ 4-byte Spill
	ldr	r3, [sp, #44]                   @ 4-byte Reload
	ldr	r6, [sp, #12]                   @ 4-byte Reload
	and.w	r3, r3, lr
	eors	r2, r3
	eors	r2, r6
	eor.w	r10, r2, r0
	ldr	r2, [sp, #32]                   @ 4-byte Reload
	movw	r3, :lower16:.Laes_v7m_static.0
	eors	r0, r2
	ldr	r2, [sp, #152]                  @ 4-byte Reload
	movt	r3, :upper16:.Laes_v7m_static.0
	add.w	r2, r3, r2, lsl #1
	ldr	r3, [sp, #128]                  @ 4-byte Reload
	str.w	r1, [r9, #64]
	str.w	r3, [r9, #68]
	ldr	r3, [sp, #132]                  @ 4-byte Reload
	movs	r4, #64
	str.w	r3, [r9, #72]
	ldr	r3, [sp, #140]                  @ 4-byte Reload
	ldr	r1, [sp, #60]                   @ 4-byte Reload
	str.w	r3, [r9, #76]
	ldr	r3, [sp, #136]                  @ 4-byte Reload
	and.w	lr, lr, r1
	str.w	r3, [r9, #80]
	ldr	r3, [sp, #144]                  @ 4-byte Reload
	str.w	r3, [r9, #84]
	ldr	r3, [sp, #148]                  @ 4-byte Reload
	str.w	r3, [r9, #88]
	ldr	r3, [sp, #168]                  @ 4-byte Reload
	str.w	r3, [r9, #92]
	ldrb	r5, [r2, #1]
	ldr	r3, [sp, #164]                  @ 4-byte Reload
	and.w	r2, r4, r5, lsl #6
	orr.w	r2, r2, r2, lsl #1
	eor.w	r2, r7, r2, lsl #8
	eor.w	r1, r2, r6
	and.w	r2, r4, r5, lsl #5
	str	r1, [sp, #60]                   @ 4-byte Spill
	orr.w	r2, r2, r2, lsl #1
	ldr	r1, [sp, #56]                   @ 4-byte Reload
	eor.w	r2, r7, r2, lsl #8
	eor.w	r7, r10, r1
	eor.w	r10, r10, r2
	and.w	r2, r4, r5, lsl #4
	ldr	r1, [sp, #48]                   @ 4-byte Reload
	orr.w	r2, r2, r2, lsl #1
	eor.w	r2, r1, r2, lsl #8
	ldr	r1, [sp, #52]                   @ 4-byte Reload
	and.w	r6, r4, r5, lsl #3
	orr.w	r6, r6, r6, lsl #1
	eor.w	r1, r1, r12
	eor.w	r2, r2, r12
	eor.w	r12, r8, r6, lsl #8
	and.w	r6, r4, r5, lsl #1
	orr.w	r6, r6, r6, lsl #1
	eor.w	r6, lr, r6, lsl #8
	eors	r6, r0
	eor.w	r11, r2, r7
	ldr	r2, [sp, #172]                  @ 4-byte Reload
	eors	r6, r3
	eor.w	lr, r6, r7
	eor.w	r6, r2, r1
	and.w	r7, r4, r5, lsl #2
	and.w	r2, r4, r5, lsr #1
	and	r5, r5, #64
	orr.w	r5, r5, r5, lsl #1
	orr.w	r2, r2, r2, lsl #1
	eor.w	r5, r0, r5, lsl #8
	eor.w	r0, r0, r2, lsl #8
	eors	r0, r1
	orr.w	r7, r7, r7, lsl #1
	str	r0, [sp, #172]                  @ 4-byte Spill
	ldr	r0, [sp, #60]                   @ 4-byte Reload
	eor.w	r4, r12, r6
	eor.w	r7, r6, r7, lsl #8
	eor.w	r8, r5, r6
	mov.w	r6, #50529027
	ldr	r1, [sp, #64]                   @ 4-byte Reload
	bic.w	r0, r6, r0, ror #14
	add	r0, r1
	ldr	r1, [sp, #96]                   @ 4-byte Reload
	mov.w	r12, #-50529028
	eors	r0, r1
	and.w	r1, r12, r0, lsl #2
	ldr	r2, [sp, #68]                   @ 4-byte Reload
	eors	r1, r0
	bic.w	r0, r6, r10, ror #14
	add	r0, r2
	ldr	r2, [sp, #100]                  @ 4-byte Reload
	ldr	r3, [sp, #72]                   @ 4-byte Reload
	eors	r0, r2
	and.w	r2, r12, r0, lsl #2
	eors	r0, r2
	and.w	r2, r6, r11, ror #14
	add	r2, r3
	ldr	r3, [sp, #104]                  @ 4-byte Reload
	mov	r11, r6
	eors	r2, r3
	and.w	r3, r12, r2, lsl #2
	eor.w	r5, r3, r2
	ldr	r3, [sp, #76]                   @ 4-byte Reload
	and.w	r2, r6, r4, ror #14
	add	r2, r3
	ldr	r3, [sp, #108]                  @ 4-byte Reload
	ldr	r4, [sp, #156]                  @ 4-byte Reload
	eors	r2, r3
	and.w	r3, r12, r2, lsl #2
	eor.w	r6, r3, r2
	ldr	r3, [sp, #112]                  @ 4-byte Reload
	and.w	r2, r11, r7, ror #14
	add	r2, r3
	ldr	r3, [sp, #120]                  @ 4-byte Reload
	ldr	r7, [sp, #116]                  @ 4-byte Reload
	eors	r2, r3
	and.w	r3, r12, r2, lsl #2
	eors	r3, r2
	bic.w	r2, r11, lr, ror #14
	add	r2, r7
	ldr	r7, [sp, #92]                   @ 4-byte Reload
	mov.w	lr, #-252645136
	eors	r2, r7
	and.w	r7, r12, r2, lsl #2
	eors	r2, r7
	bic.w	r7, r11, r8, ror #14
	add	r7, r4
	ldr	r4, [sp, #80]                   @ 4-byte Reload
	eors	r7, r4
	and.w	r4, r12, r7, lsl #2
	eor.w	r8, r4, r7
	ldr	r7, [sp, #172]                  @ 4-byte Reload
	ldr	r4, [sp, #160]                  @ 4-byte Reload
	and.w	r7, r11, r7, ror #14
	add	r7, r4
	ldr	r4, [sp, #84]                   @ 4-byte Reload
	eors	r7, r4
	and.w	r4, r12, r7, lsl #2
	eors	r7, r4
	and.w	r4, lr, r1, lsl #4
	eors	r4, r1
	str	r4, [sp, #120]                  @ 4-byte Spill
	ldr	r4, [sp, #124]                  @ 4-byte Reload
	and.w	r1, r11, r1, lsr #2
	eors	r1, r4
	and.w	r4, r12, r1, lsl #2
	eors	r1, r4
	and.w	r4, lr, r1, lsl #4
	eors	r1, r4
	str	r1, [sp, #172]                  @ 4-byte Spill
	and.w	r1, lr, r0, lsl #4
	eors	r1, r0
	str	r1, [sp, #124]                  @ 4-byte Spill
	ldr	r1, [sp, #128]                  @ 4-byte Reload
	and.w	r0, r11, r0, lsr #2
	eors	r0, r1
	and.w	r1, r12, r0, lsl #2
	eors	r0, r1
	and.w	r1, lr, r0, lsl #4
	eors	r0, r1
	str	r0, [sp, #164]                  @ 4-byte Spill
	and.w	r0, lr, r5, lsl #4
	eors	r0, r5
	ldr	r1, [sp, #132]                  @ 4-byte Reload
	str	r0, [sp, #128]                  @ 4-byte Spill
	and.w	r0, r11, r5, lsr #2
	eors	r0, r1
	and.w	r1, r12, r0, lsl #2
	eors	r0, r1
	and.w	r1, lr, r0, lsl #4
	eors	r0, r1
	str	r0, [sp, #160]                  @ 4-byte Spill
	and.w	r0, lr, r6, lsl #4
	eors	r0, r6
	ldr	r1, [sp, #140]                  @ 4-byte Reload
	str	r0, [sp, #132]                  @ 4-byte Spill
	and.w	r0, r11, r6, lsr #2
	eors	r0, r1
	and.w	r1, r12, r0, lsl #2
	eors	r0, r1
	and.w	r1, lr, r0, lsl #4
	eors	r0, r1
	str	r0, [sp, #116]                  @ 4-byte Spill
	and.w	r0, lr, r3, lsl #4
	ldr	r1, [sp, #136]                  @ 4-byte Reload
	eor.w	r6, r0, r3
	and.w	r0, r11, r3, lsr #2
	eors	r0, r1
	and.w	r1, r12, r0, lsl #2
	eors	r0, r1
	and.w	r1, lr, r0, lsl #4
	eors	r0, r1
	str	r0, [sp, #156]                  @ 4-byte Spill
	and.w	r0, lr, r2, lsl #4
	ldr	r1, [sp, #144]                  @ 4-byte Reload
	mov	r4, lr
	eor.w	lr, r0, r2
	and.w	r0, r11, r2, lsr #2
	eors	r0, r1
	and.w	r1, r12, r0, lsl #2
	eors	r0, r1
	and.w	r1, r4, r0, lsl #4
	eors	r0, r1
	str	r0, [sp, #112]                  @ 4-byte Spill
	and.w	r0, r4, r8, lsl #4
	ldr	r1, [sp, #148]                  @ 4-byte Reload
	eor.w	r3, r0, r8
	and.w	r0, r11, r8, lsr #2
	eors	r0, r1
	and.w	r1, r12, r0, lsl #2
	eors	r0, r1
	and.w	r1, r4, r0, lsl #4
	eor.w	r10, r1, r0
	and.w	r0, r4, r7, lsl #4
	ldr	r1, [sp, #168]                  @ 4-byte Reload
	mov	r2, r4
	eor.w	r4, r0, r7
	and.w	r0, r11, r7, lsr #2
	eors	r0, r1
	and.w	r1, r12, r0, lsl #2
	eors	r0, r1
	and.w	r1, r2, r0, lsl #4
	eor.w	r12, r1, r0
	ldr	r1, [sp, #152]                  @ 4-byte Reload
	ldr	r0, [sp, #88]                   @ 4-byte Reload
	adds	r5, r1, #1
	adc	r2, r0, #0
	subs	r1, #3
	sbcs	r0, r0, #0
	ldr	r0, [sp, #120]                  @ 4-byte Reload
	str	r6, [sp, #140]                  @ 4-byte Spill
	str.w	r0, [r9, #96]
	ldr	r0, [sp, #124]                  @ 4-byte Reload
	str.w	r6, [r9, #112]
	str.w	r0, [r9, #100]
	ldr	r0, [sp, #128]                  @ 4-byte Reload
	str.w	lr, [sp, #136]                  @ 4-byte Spill
	str.w	r0, [r9, #104]
	ldr	r0, [sp, #132]                  @ 4-byte Reload
	str.w	lr, [r9, #116]
	str.w	r0, [r9, #108]
	str	r3, [sp, #148]                  @ 4-byte Spill
	str.w	r3, [r9, #120]
	str	r4, [sp, #144]                  @ 4-byte Spill
	str.w	r4, [r9, #124]
	blo.w	.Laes_v7m_BB0_5
	b.w	.Laes_v7m_BB0_9
	.p2align	2
.Laes_v7m_BB0_6:                                @ %else.5.i
	mov	r5, r1
	bl	aes_v7m.aes_planes.soft.word.word32.U32Word.in_every_slot
	ldrd	r11, r0, [sp, #196]
	ldrd	r6, r4, [sp, #180]
	str	r0, [sp, #168]                  @ 4-byte Spill
	ldrd	r9, r0, [sp, #204]
	ldrd	r10, r8, [sp, #188]
	str	r0, [sp, #172]                  @ 4-byte Spill
	add.w	r1, r5, #16
	add	r0, sp, #180
	bl	aes_v7m.aes_planes.soft.word.word32.U32Word.in_every_slot
	str	r4, [r7, #4]
	ldr	r4, [sp, #168]                  @ 4-byte Reload
	ldrd	r1, r0, [sp, #180]
	ldr	r3, [sp, #192]
	ldr.w	lr, [sp, #188]
	ldr	r2, [sp, #196]
	str	r4, [r7, #20]
	ldr	r4, [sp, #172]                  @ 4-byte Reload
	str	r6, [r7]
	ldr.w	r12, [sp, #200]
	str.w	r11, [r7, #16]
	mov	r11, r3
	mov	r3, r0
	ldr	r0, [sp, #204]
	ldr	r6, [sp, #208]
	str.w	r10, [r7, #8]
	str.w	r8, [r7, #12]
	str	r4, [r7, #28]
	mov	r4, r3
	strd	r3, lr, [r7, #36]
	mov	r8, r2
	mov.w	r10, #0
	movs	r3, #0
	str.w	r9, [r7, #24]
	str	r1, [sp, #164]                  @ 4-byte Spill
	str	r1, [r7, #32]
	str.w	r11, [r7, #44]
	strd	r2, r12, [r7, #48]
	strd	r0, r6, [r7, #56]
	.p2align	2
.Laes_v7m_BB0_7:                                @ %join.5.i348.i
                                        @ =>This Inner Loop Header: Depth=1
	strd	r3, r10, [sp, #156]             @ 8-byte Folded Spill
	eor.w	r5, r6, r8
	mov	r10, r6
	eor.w	r1, r6, r4
	eor.w	r6, r8, lr
	str	r1, [sp, #168]                  @ 4-byte Spill
	eors	r1, r6
	eor.w	r2, r1, r11
	eor.w	r9, r0, r12
	eor.w	r3, r2, lr
	eors	r0, r2
	str	r1, [sp, #172]                  @ 4-byte Spill
	eor.w	r1, r0, r5
	eor.w	r2, r3, r9
	str	r5, [sp, #152]                  @ 4-byte Spill
	str	r0, [sp, #120]                  @ 4-byte Spill
	and.w	r0, r1, r5
	mov	r5, r3
	eor.w	r3, r1, r2
	str	r6, [sp, #140]                  @ 4-byte Spill
	eor.w	r12, r10, lr
	ands	r6, r3
	ldr.w	lr, [sp, #164]                  @ 4-byte Reload
	eor.w	r11, r6, r0
	and.w	r6, r2, r12
	eors	r0, r6
	eor.w	r6, r9, lr
	str	r3, [sp, #144]                  @ 4-byte Spill
	eor.w	r3, r6, r4
	str	r1, [sp, #100]                  @ 4-byte Spill
	str	r0, [sp, #104]                  @ 4-byte Spill
	eor.w	r1, r5, lr
	eor.w	r0, r3, r12
	str	r0, [sp, #128]                  @ 4-byte Spill
	and.w	r4, r1, r0
	ldr	r0, [sp, #120]                  @ 4-byte Reload
	str	r1, [sp, #124]                  @ 4-byte Spill
	eor.w	r7, r0, r4
	eor.w	r0, r6, r8
	str	r0, [sp, #120]                  @ 4-byte Spill
	and.w	r4, r0, lr
	ldr	r0, [sp, #172]                  @ 4-byte Reload
	eor.w	r4, r4, r12
	eors	r4, r2
	ands	r0, r5
	eors	r4, r0
	eors	r0, r7
	ldr	r7, [sp, #100]                  @ 4-byte Reload
	str	r3, [sp, #108]                  @ 4-byte Spill
	and.w	r1, r3, r6
	ldr	r3, [sp, #168]                  @ 4-byte Reload
	str	r2, [sp, #136]                  @ 4-byte Spill
	eor.w	r2, r7, r9
	eors	r1, r2
	and.w	r9, r2, r3
	eor.w	r1, r1, r9
	str	r5, [sp, #132]                  @ 4-byte Spill
	eors	r1, r3
	eor.w	r5, r6, r10
	eor.w	r3, r7, lr
	str	r3, [sp, #116]                  @ 4-byte Spill
	ands	r3, r5
	eors	r3, r2
	eor.w	r3, r3, r9
	eor.w	r8, r3, r10
	ldr	r3, [sp, #104]                  @ 4-byte Reload
	eor.w	r0, r0, r11
	eor.w	r1, r1, r11
	str.w	r12, [sp, #148]                 @ 4-byte Spill
	eor.w	r9, r4, r3
	eor.w	r3, r3, r8
	and.w	r12, r1, r0
	eor.w	r8, r12, r9
	eor.w	r4, r3, r1
	and.w	r4, r4, r8
	eor.w	r11, r0, r9
	eor.w	r8, r12, r3
	and.w	r0, r8, r11
	eor.w	r12, r12, r4
	eor.w	r9, r9, r0
	eor.w	r0, r4, r3
	and.w	r3, r3, r12
	eor.w	r4, r3, r8
	and.w	r4, r4, r9
	eor.w	r4, r4, r11
	eor.w	r12, r3, r1
	ldr	r1, [sp, #168]                  @ 4-byte Reload
	eor.w	r3, r4, r9
	ands	r1, r3
	str	r1, [sp, #104]                  @ 4-byte Spill
	ldr	r1, [sp, #108]                  @ 4-byte Reload
	and.w	r8, r4, r6
	ands	r1, r4
	str	r1, [sp, #108]                  @ 4-byte Spill
	ldr	r1, [sp, #124]                  @ 4-byte Reload
	eor.w	r6, r12, r0
	str	r5, [sp, #112]                  @ 4-byte Spill
	and.w	r5, r3, r2
	eor.w	r2, r4, r6
	and.w	r4, r6, r1
	ldr	r1, [sp, #128]                  @ 4-byte Reload
	ldr	r3, [sp, #152]                  @ 4-byte Reload
	and.w	r11, r6, r1
	ldr	r1, [sp, #120]                  @ 4-byte Reload
	and.w	r6, r0, lr
	ands	r1, r0
	eor.w	r0, r0, r9
	str	r1, [sp, #168]                  @ 4-byte Spill
	and.w	r1, r0, r7
	str	r1, [sp, #128]                  @ 4-byte Spill
	and.w	r1, r0, r3
	ldr	r3, [sp, #140]                  @ 4-byte Reload
	ldr	r7, [sp, #144]                  @ 4-byte Reload
	eors	r0, r2
	and.w	lr, r0, r3
	ands	r0, r7
	str	r0, [sp, #152]                  @ 4-byte Spill
	ldr	r0, [sp, #112]                  @ 4-byte Reload
	ldr	r7, [sp, #132]                  @ 4-byte Reload
	and.w	r0, r0, r9
	and.w	r10, r12, r7
	ldr	r7, [sp, #172]                  @ 4-byte Reload
	str	r0, [sp, #144]                  @ 4-byte Spill
	ldr	r0, [sp, #116]                  @ 4-byte Reload
	and.w	r3, r12, r7
	and.w	r0, r0, r9
	str	r3, [sp, #140]                  @ 4-byte Spill
	eor.w	r3, r4, r10
	eor.w	r4, r10, r6
	eors	r0, r4
	str	r1, [sp, #164]                  @ 4-byte Spill
	eor.w	r9, r0, r5
	eor.w	r0, lr, r1
	ldr	r1, [sp, #108]                  @ 4-byte Reload
	eor.w	r6, r0, r11
	eor.w	r7, r9, r1
	eor.w	r12, r7, r0
	ldr	r0, [sp, #152]                  @ 4-byte Reload
	eor.w	r8, r8, r5
	ldr	r1, [sp, #128]                  @ 4-byte Reload
	eor.w	r7, r8, r0
	eor.w	r0, r3, r8
	eor.w	r8, r7, r1
	ldr	r1, [sp, #148]                  @ 4-byte Reload
	str	r0, [sp, #172]                  @ 4-byte Spill
	ldr	r0, [sp, #136]                  @ 4-byte Reload
	ldr.w	lr, [sp, #160]                  @ 4-byte Reload
	and.w	r10, r2, r1
	movw	r1, :lower16:.Laes_v7m_static.0
	ands	r0, r2
	movt	r1, :upper16:.Laes_v7m_static.0
	eors	r0, r4
	ldrb.w	r4, [r1, lr]
	movs	r1, #64
	and.w	r2, r1, r4, lsl #6
	ldr	r3, [sp, #104]                  @ 4-byte Reload
	orr.w	r2, r2, r2, lsl #1
	eor.w	r2, r12, r2, lsl #8
	eor.w	r11, r2, r3
	and.w	r2, r1, r4, lsl #5
	eors	r0, r3
	orr.w	r2, r2, r2, lsl #1
	ldr	r3, [sp, #144]                  @ 4-byte Reload
	eors	r0, r7
	eor.w	r2, r12, r2, lsl #8
	eor.w	r7, r0, r3
	eor.w	r12, r2, r0
	and.w	r0, r1, r4, lsl #4
	ldr	r2, [sp, #168]                  @ 4-byte Reload
	orr.w	r0, r0, r0, lsl #1
	eor.w	r0, r2, r0, lsl #8
	ldr	r2, [sp, #140]                  @ 4-byte Reload
	and.w	r5, r1, r4, lsl #1
	and.w	r3, r1, r4, lsl #3
	orr.w	r5, r5, r5, lsl #1
	eors	r2, r6
	eors	r0, r6
	orr.w	r3, r3, r3, lsl #1
	eor.w	r6, r10, r5, lsl #8
	ldr	r5, [sp, #164]                  @ 4-byte Reload
	ldr.w	r10, [sp, #176]                 @ 4-byte Reload
	eor.w	r9, r9, r3, lsl #8
	mov	r3, lr
	eor.w	r6, r6, r8
	eors	r6, r5
	add.w	r5, r10, r3, lsl #6
	ldr	r3, [sp, #172]                  @ 4-byte Reload
	str.w	lr, [sp, #152]                  @ 4-byte Spill
	lsl.w	lr, lr, #6
	ldr.w	lr, [r10, lr]
	eor.w	r10, r3, r2
	and.w	r3, r1, r4, lsl #2
	and.w	r1, r1, r4, lsr #1
	and	r4, r4, #64
	orr.w	r4, r4, r4, lsl #1
	orr.w	r3, r3, r3, lsl #1
	orr.w	r1, r1, r1, lsl #1
	eor.w	r4, r8, r4, lsl #8
	eors	r0, r7
	eors	r7, r6
	eor.w	r6, r9, r10
	eor.w	r3, r10, r3, lsl #8
	eor.w	r10, r10, r4
	eor.w	r1, r8, r1, lsl #8
	mov.w	r4, #50529027
	eor.w	r8, r1, r2
	bic.w	r1, r4, r11, ror #14
	eor.w	r1, r1, lr
	mov.w	lr, #-50529028
	and.w	r2, lr, r1, lsl #2
	eors	r1, r2
	mov.w	r11, #-252645136
	and.w	r2, r11, r1, lsl #4
	eors	r1, r2
	str	r1, [sp, #140]                  @ 4-byte Spill
	ldr	r1, [r5, #4]
	bic.w	r2, r4, r12, ror #14
	eors	r1, r2
	and.w	r2, lr, r1, lsl #2
	eors	r1, r2
	and.w	r2, r11, r1, lsl #4
	eors	r1, r2
	ldr	r2, [r5, #8]
	and.w	r0, r4, r0, ror #14
	eors	r0, r2
	and.w	r2, lr, r0, lsl #2
	eors	r0, r2
	and.w	r2, r11, r0, lsl #4
	eor.w	r9, r2, r0
	ldr	r2, [r5, #12]
	and.w	r6, r4, r6, ror #14
	eors	r2, r6
	and.w	r6, lr, r2, lsl #2
	eors	r2, r6
	and.w	r6, r11, r2, lsl #4
	eors	r2, r6
	ldr	r6, [r5, #16]
	and.w	r3, r4, r3, ror #14
	eors	r3, r6
	and.w	r6, lr, r3, lsl #2
	eors	r3, r6
	and.w	r6, r11, r3, lsl #4
	eor.w	r12, r6, r3
	ldr	r3, [r5, #20]
	bic.w	r7, r4, r7, ror #14
	eors	r3, r7
	and.w	r7, lr, r3, lsl #2
	eors	r3, r7
	and.w	r7, r11, r3, lsl #4
	eors	r7, r3
	ldr	r3, [r5, #24]
	bic.w	r6, r4, r10, ror #14
	eors	r3, r6
	and.w	r6, lr, r3, lsl #2
	eors	r3, r6
	and.w	r6, r11, r3, lsl #4
	eor.w	r0, r6, r3
	ldr	r6, [r5, #28]
	and.w	r4, r4, r8, ror #14
	eors	r6, r4
	and.w	r4, lr, r6, lsl #2
	eors	r6, r4
	and.w	r4, r11, r6, lsl #4
	eor.w	r10, r4, r6
	eor.w	r3, r0, r7
	str	r3, [sp, #160]                  @ 4-byte Spill
	eor.w	r3, r1, r10
	eor.w	r8, r12, r9
	eor.w	r6, r3, r8
	str	r1, [sp, #120]                  @ 4-byte Spill
	strd	r9, r2, [r5, #72]
	strd	r7, r0, [r5, #84]
	mov	r7, r12
	eors	r2, r6
	ldr	r1, [sp, #160]                  @ 4-byte Reload
	eor.w	lr, r2, r0
	eor.w	r12, r2, r9
	eor.w	r0, r7, r10
	str	r3, [sp, #164]                  @ 4-byte Spill
	eor.w	r2, lr, r0
	eor.w	r3, r12, r1
	str	r0, [sp, #144]                  @ 4-byte Spill
	and.w	r11, r2, r0
	eor.w	r0, r2, r3
	eor.w	r4, r10, r9
	str	r2, [sp, #168]                  @ 4-byte Spill
	and.w	r2, r0, r8
	eor.w	r9, r2, r11
	and.w	r2, r3, r4
	str	r0, [sp, #136]                  @ 4-byte Spill
	eor.w	r0, r2, r11
	ldr.w	r11, [sp, #140]                 @ 4-byte Reload
	str	r0, [sp, #100]                  @ 4-byte Spill
	ldr	r0, [sp, #120]                  @ 4-byte Reload
	str.w	r8, [sp, #132]                  @ 4-byte Spill
	eor.w	r8, r1, r11
	eor.w	r1, r8, r0
	str	r6, [sp, #172]                  @ 4-byte Spill
	str	r0, [r5, #68]
	eor.w	r6, r12, r11
	eor.w	r0, r1, r4
	mov	r2, r12
	str.w	r12, [sp, #124]                 @ 4-byte Spill
	mov	r12, r1
	str	r1, [sp, #104]                  @ 4-byte Spill
	str	r0, [sp, #120]                  @ 4-byte Spill
	and.w	r1, r6, r0
	eor.w	r0, r8, r7
	str	r6, [sp, #116]                  @ 4-byte Spill
	str	r0, [sp, #112]                  @ 4-byte Spill
	and.w	r6, r0, r11
	ldr	r0, [sp, #172]                  @ 4-byte Reload
	str	r4, [sp, #148]                  @ 4-byte Spill
	eor.w	lr, lr, r1
	eors	r6, r4
	and.w	r1, r2, r0
	ldr	r4, [sp, #168]                  @ 4-byte Reload
	ldr	r0, [sp, #160]                  @ 4-byte Reload
	eors	r6, r3
	ldr	r2, [sp, #164]                  @ 4-byte Reload
	str	r7, [r5, #80]
	eors	r6, r1
	eor.w	lr, lr, r1
	eor.w	r1, r4, r0
	and.w	r7, r12, r8
	eors	r7, r1
	and.w	r0, r1, r2
	eors	r7, r0
	eors	r7, r2
	str	r3, [sp, #128]                  @ 4-byte Spill
	eor.w	r3, r7, r9
	eor.w	r7, r8, r10
	eor.w	r2, r4, r11
	eor.w	lr, lr, r9
	and.w	r9, r2, r7
	str	r7, [sp, #108]                  @ 4-byte Spill
	eor.w	r7, r1, r9
	str	r2, [sp, #160]                  @ 4-byte Spill
	eors	r0, r7
	ldr	r2, [sp, #100]                  @ 4-byte Reload
	eor.w	r0, r0, r10
	eors	r6, r2
	eor.w	r7, r0, r2
	and.w	r0, r3, lr
	eor.w	r12, r0, r6
	eor.w	r4, r7, r3
	and.w	r4, r4, r12
	eor.w	r12, lr, r6
	eor.w	lr, r0, r7
	and.w	r2, lr, r12
	str.w	r10, [r5, #92]
	eor.w	r10, r2, r6
	eor.w	r2, r4, r0
	ands	r2, r7
	eor.w	r0, r4, r7
	eor.w	r7, r2, lr
	and.w	r7, r7, r10
	eor.w	r7, r7, r12
	eors	r3, r2
	eor.w	r2, r7, r10
	and.w	lr, r2, r1
	ldr	r1, [sp, #164]                  @ 4-byte Reload
	eor.w	r4, r3, r0
	ands	r1, r2
	ldr	r2, [sp, #116]                  @ 4-byte Reload
	str	r1, [sp, #164]                  @ 4-byte Spill
	and.w	r9, r4, r2
	ldr	r2, [sp, #120]                  @ 4-byte Reload
	and.w	r1, r7, r8
	ands	r2, r4
	str	r2, [sp, #116]                  @ 4-byte Spill
	ldr	r2, [sp, #112]                  @ 4-byte Reload
	str	r1, [sp, #100]                  @ 4-byte Spill
	ldr	r1, [sp, #104]                  @ 4-byte Reload
	ands	r2, r0
	ands	r1, r7
	str	r2, [sp, #120]                  @ 4-byte Spill
	ldr	r2, [sp, #168]                  @ 4-byte Reload
	str	r1, [sp, #104]                  @ 4-byte Spill
	eor.w	r1, r7, r4
	and.w	r7, r0, r11
	eor.w	r0, r0, r10
	ands	r2, r0
	str	r2, [sp, #168]                  @ 4-byte Spill
	ldr	r2, [sp, #144]                  @ 4-byte Reload
	ldr	r6, [sp, #136]                  @ 4-byte Reload
	and.w	r8, r0, r2
	ldr	r2, [sp, #132]                  @ 4-byte Reload
	eors	r0, r1
	ands	r2, r0
	and.w	r12, r0, r6
	ldr	r0, [sp, #108]                  @ 4-byte Reload
	ldr	r4, [sp, #172]                  @ 4-byte Reload
	and.w	r0, r0, r10
	str	r0, [sp, #144]                  @ 4-byte Spill
	ldr	r0, [sp, #160]                  @ 4-byte Reload
	str.w	r11, [r5, #64]
	and.w	r10, r10, r0
	ldr	r0, [sp, #124]                  @ 4-byte Reload
	and.w	r11, r3, r4
	ands	r0, r3
	eors	r7, r0
	eor.w	r3, r9, r0
	ldr	r0, [sp, #100]                  @ 4-byte Reload
	eor.w	r6, r7, r10
	ldr	r4, [sp, #104]                  @ 4-byte Reload
	eor.w	r10, r6, lr
	eor.w	r0, r0, lr
	eor.w	r2, r2, r8
	eor.w	r4, r4, r10
	ldr	r6, [sp, #116]                  @ 4-byte Reload
	eor.w	lr, r4, r2
	eor.w	r4, r0, r12
	eor.w	r9, r3, r0
	ldr	r0, [sp, #128]                  @ 4-byte Reload
	eors	r6, r2
	ands	r0, r1
	ldr	r2, [sp, #164]                  @ 4-byte Reload
	eors	r0, r7
	ldr	r3, [sp, #168]                  @ 4-byte Reload
	eors	r0, r2
	eors	r0, r4
	eors	r3, r4
	ldr	r4, [sp, #120]                  @ 4-byte Reload
	ldr	r7, [sp, #148]                  @ 4-byte Reload
	eor.w	r12, r6, r11
	eors	r6, r4
	ands	r1, r7
	ldr	r4, [sp, #144]                  @ 4-byte Reload
	eor.w	r7, lr, r2
	eor.w	r2, r8, r1
	eors	r4, r0
	eors	r2, r3
	eors	r6, r4
	eor.w	r8, r2, r4
	ldr	r2, [r5, #32]
	mvns	r7, r7
	mov.w	r4, #50529027
	and.w	r7, r4, r7, lsr #6
	ldr	r1, [sp, #156]                  @ 4-byte Reload
	eors	r2, r7
	mov.w	r11, #-50529028
	and.w	r7, r11, r2, lsl #2
	str	r1, [sp, #172]                  @ 4-byte Spill
	eors	r2, r7
	mov.w	r1, #-252645136
	eor.w	r0, r0, lr
	and.w	r7, r1, r2, lsl #4
	eors	r7, r2
	ldr	r2, [r5, #36]
	mvns	r0, r0
	and.w	r0, r4, r0, lsr #6
	eors	r0, r2
	and.w	r2, r11, r0, lsl #2
	eors	r0, r2
	and.w	r2, r1, r0, lsl #4
	eors	r0, r2
	str	r0, [sp, #168]                  @ 4-byte Spill
	ldr	r0, [r5, #40]
	and.w	r2, r4, r6, lsr #6
	eors	r0, r2
	and.w	r2, r11, r0, lsl #2
	eors	r0, r2
	and.w	r2, r1, r0, lsl #4
	mov	r6, r1
	eor.w	r1, r9, r12
	eor.w	lr, r2, r0
	ldr	r0, [r5, #44]
	eor.w	r2, r1, r10
	and.w	r2, r4, r2, lsr #6
	eors	r0, r2
	and.w	r2, r11, r0, lsl #2
	eors	r0, r2
	and.w	r2, r6, r0, lsl #4
	eor.w	r10, r2, r0
	ldr	r0, [r5, #48]
	mov	r9, r7
	eor.w	r7, r12, r3
	eors	r3, r1
	and.w	r1, r4, r1, lsr #6
	eors	r0, r1
	and.w	r1, r11, r0, lsl #2
	eors	r0, r1
	and.w	r1, r6, r0, lsl #4
	eor.w	r2, r1, r0
	ldr	r0, [r5, #52]
	mvn.w	r1, r8
	and.w	r1, r4, r1, lsr #6
	eors	r0, r1
	and.w	r1, r11, r0, lsl #2
	eors	r0, r1
	and.w	r1, r6, r0, lsl #4
	eor.w	r12, r1, r0
	ldr	r0, [r5, #56]
	mvns	r1, r3
	and.w	r1, r4, r1, lsr #6
	eors	r0, r1
	and.w	r1, r11, r0, lsl #2
	eors	r0, r1
	and.w	r1, r6, r0, lsl #4
	eors	r0, r1
	ldr	r1, [r5, #60]
	and.w	r3, r4, r7, lsr #6
	eors	r1, r3
	and.w	r3, r11, r1, lsl #2
	eors	r1, r3
	and.w	r3, r6, r1, lsl #4
	eor.w	r6, r3, r1
	ldr	r1, [sp, #152]                  @ 4-byte Reload
	ldr	r4, [sp, #172]                  @ 4-byte Reload
	mov	r11, r10
	ldr	r7, [sp, #168]                  @ 4-byte Reload
	adds.w	r10, r1, #1
	adc	r3, r4, #0
	subs	r1, #5
	sbcs	r1, r4, #0
	mov	r4, r7
	mov	r8, r2
	str.w	r9, [sp, #164]                  @ 4-byte Spill
	str.w	r9, [r5, #96]
	strd	r7, lr, [r5, #100]
	str.w	r11, [r5, #108]
	strd	r2, r12, [r5, #112]
	strd	r0, r6, [r5, #120]
	blo.w	.Laes_v7m_BB0_7
@ %bb.8:                                @ %after.1.i.i
	eor.w	r1, r6, r4
	eor.w	r2, r8, lr
	str	r1, [sp, #116]                  @ 4-byte Spill
	eors	r1, r2
	eor.w	r3, r1, r11
	eor.w	r10, r0, r12
	eor.w	r12, r6, r8
	eor.w	r11, r3, r0
	eor.w	r3, r3, lr
	eor.w	r5, r11, r12
	eor.w	r7, r3, r10
	ldr.w	r9, [sp, #164]                  @ 4-byte Reload
	str	r1, [sp, #172]                  @ 4-byte Spill
	eor.w	r1, r6, lr
	str	r6, [sp, #112]                  @ 4-byte Spill
	mov	r6, r3
	eor.w	r3, r5, r7
	str.w	r8, [sp, #128]                  @ 4-byte Spill
	str	r5, [sp, #160]                  @ 4-byte Spill
	and.w	r0, r5, r12
	str	r3, [sp, #148]                  @ 4-byte Spill
	ands	r3, r2
	and.w	r5, r7, r1
	eor.w	lr, r10, r9
	str.w	r12, [sp, #152]                 @ 4-byte Spill
	eor.w	r8, r3, r0
	eors	r5, r0
	eor.w	r12, lr, r4
	ldr	r0, [sp, #128]                  @ 4-byte Reload
	str	r2, [sp, #144]                  @ 4-byte Spill
	eor.w	r4, r6, r9
	eor.w	r2, r12, r1
	mov	r3, r6
	str	r6, [sp, #136]                  @ 4-byte Spill
	and.w	r6, r4, r2
	eor.w	r0, r0, lr
	str	r2, [sp, #168]                  @ 4-byte Spill
	eor.w	r2, r11, r6
	str	r0, [sp, #128]                  @ 4-byte Spill
	and.w	r6, r0, r9
	ldr	r0, [sp, #172]                  @ 4-byte Reload
	str	r1, [sp, #156]                  @ 4-byte Spill
	eors	r6, r1
	and.w	r1, r3, r0
	ldr	r0, [sp, #160]                  @ 4-byte Reload
	str	r7, [sp, #140]                  @ 4-byte Spill
	eors	r6, r7
	ldr	r7, [sp, #116]                  @ 4-byte Reload
	eor.w	r11, r6, r1
	eors	r1, r2
	eor.w	r2, r0, r10
	and.w	r6, r12, lr
	mov	r10, r12
	eors	r6, r2
	and.w	r12, r2, r7
	str	r4, [sp, #132]                  @ 4-byte Spill
	eor.w	r6, r6, r12
	ldr	r4, [sp, #112]                  @ 4-byte Reload
	eors	r6, r7
	eor.w	r3, r6, r8
	eor.w	r6, lr, r4
	eor.w	r0, r0, r9
	str	r6, [sp, #120]                  @ 4-byte Spill
	ands	r6, r0
	eors	r6, r2
	str	r0, [sp, #124]                  @ 4-byte Spill
	eor.w	r0, r6, r12
	eor.w	r1, r1, r8
	eors	r0, r4
	eor.w	r8, r11, r5
	eors	r0, r5
	and.w	r6, r3, r1
	eor.w	r12, r6, r8
	eor.w	r4, r0, r3
	and.w	r4, r4, r12
	eor.w	r12, r1, r8
	eor.w	r11, r6, r0
	and.w	r1, r11, r12
	eor.w	r1, r1, r8
	eor.w	r8, r4, r6
	eor.w	r6, r4, r0
	and.w	r0, r0, r8
	eor.w	r4, r0, r11
	ands	r4, r1
	eor.w	r4, r4, r12
	eors	r3, r0
	eor.w	r0, r4, r1
	and.w	r8, r0, r2
	ands	r0, r7
	str	r0, [sp, #116]                  @ 4-byte Spill
	and.w	r0, r4, lr
	str	r0, [sp, #108]                  @ 4-byte Spill
	and.w	r0, r4, r10
	str	r0, [sp, #112]                  @ 4-byte Spill
	ldr	r0, [sp, #132]                  @ 4-byte Reload
	eor.w	r5, r3, r6
	and.w	r7, r5, r0
	ldr	r0, [sp, #168]                  @ 4-byte Reload
	and.w	r12, r6, r9
	and.w	r11, r5, r0
	ldr	r0, [sp, #128]                  @ 4-byte Reload
	eor.w	lr, r4, r5
	ands	r0, r6
	str	r0, [sp, #168]                  @ 4-byte Spill
	ldr	r0, [sp, #160]                  @ 4-byte Reload
	eors	r6, r1
	and.w	r10, r6, r0
	ldr	r0, [sp, #152]                  @ 4-byte Reload
	and.w	r5, r6, r0
	ldr	r0, [sp, #144]                  @ 4-byte Reload
	eor.w	r6, r6, lr
	and.w	r2, r6, r0
	ldr	r0, [sp, #148]                  @ 4-byte Reload
	and.w	r4, r6, r0
	ldr	r0, [sp, #120]                  @ 4-byte Reload
	ldr	r6, [sp, #172]                  @ 4-byte Reload
	ands	r0, r1
	str	r0, [sp, #164]                  @ 4-byte Spill
	ldr	r0, [sp, #124]                  @ 4-byte Reload
	ands	r1, r0
	ldr	r0, [sp, #136]                  @ 4-byte Reload
	ands	r0, r3
	eor.w	r9, r7, r0
	eor.w	r12, r12, r0
	ldr	r0, [sp, #108]                  @ 4-byte Reload
	ands	r3, r6
	eor.w	r1, r1, r12
	ldr	r6, [sp, #112]                  @ 4-byte Reload
	eor.w	r0, r0, r8
	eor.w	r8, r8, r1
	eor.w	r1, r2, r5
	eor.w	r6, r6, r8
	eor.w	r2, r1, r11
	eor.w	r11, r6, r1
	eor.w	r1, r0, r4
	eor.w	r9, r9, r0
	ldr	r0, [sp, #140]                  @ 4-byte Reload
	ldr	r6, [sp, #116]                  @ 4-byte Reload
	and.w	r4, lr, r0
	ldr	r0, [sp, #168]                  @ 4-byte Reload
	eor.w	r7, r1, r10
	eor.w	r10, r2, r3
	eors	r2, r0
	ldr	r0, [sp, #156]                  @ 4-byte Reload
	eor.w	r4, r4, r12
	eors	r4, r6
	and.w	r3, lr, r0
	ldr	r0, [sp, #164]                  @ 4-byte Reload
	eors	r4, r1
	eors	r3, r5
	ldr	r5, [sp, #176]                  @ 4-byte Reload
	eors	r0, r4
	eors	r3, r7
	eor.w	r1, r11, r6
	eors	r2, r0
	eor.w	r6, r3, r0
	ldr.w	r0, [r5, #384]
	mov.w	r3, #50529027
	bic.w	r1, r3, r1, ror #14
	eors	r0, r1
	mov.w	r12, #-50529028
	and.w	r1, r12, r0, lsl #2
	eors	r0, r1
	mov.w	lr, #-252645136
	and.w	r1, lr, r0, lsl #4
	eors	r0, r1
	eor.w	r4, r4, r11
	str	r0, [sp, #172]                  @ 4-byte Spill
	ldr.w	r0, [r5, #388]
	bic.w	r1, r3, r4, ror #14
	eors	r0, r1
	and.w	r1, r12, r0, lsl #2
	eors	r0, r1
	and.w	r1, lr, r0, lsl #4
	eors	r0, r1
	str	r0, [sp, #168]                  @ 4-byte Spill
	ldr.w	r0, [r5, #392]
	and.w	r1, r3, r2, ror #14
	eors	r0, r1
	and.w	r1, r12, r0, lsl #2
	eors	r0, r1
	and.w	r1, lr, r0, lsl #4
	eor.w	r11, r1, r0
	eor.w	r1, r9, r10
	ldr.w	r0, [r5, #396]
	eor.w	r2, r1, r8
	and.w	r2, r3, r2, ror #14
	eors	r0, r2
	and.w	r2, r12, r0, lsl #2
	eors	r0, r2
	and.w	r2, lr, r0, lsl #4
	eors	r0, r2
	ldr.w	r2, [r5, #400]
	eor.w	r4, r10, r7
	eors	r7, r1
	and.w	r1, r3, r1, ror #14
	eors	r1, r2
	and.w	r2, r12, r1, lsl #2
	eors	r1, r2
	and.w	r2, lr, r1, lsl #4
	eors	r1, r2
	ldr.w	r2, [r5, #404]
	bic.w	r6, r3, r6, ror #14
	eors	r2, r6
	and.w	r6, r12, r2, lsl #2
	eors	r2, r6
	and.w	r6, lr, r2, lsl #4
	eor	r7, r7, #12583104
	eors	r2, r6
	ldr.w	r6, [r5, #408]
	eor	r7, r7, #3221225472
	and.w	r7, r3, r7, ror #14
	eors	r7, r6
	and.w	r6, r12, r7, lsl #2
	eors	r7, r6
	and.w	r6, lr, r7, lsl #4
	eors	r7, r6
	ldr.w	r6, [r5, #412]
	and.w	r3, r3, r4, ror #14
	eors	r3, r6
	and.w	r6, r12, r3, lsl #2
	eors	r3, r6
	and.w	r6, lr, r3, lsl #4
	eors	r3, r6
	ldr	r6, [sp, #172]                  @ 4-byte Reload
	add.w	r12, r5, #460
	str.w	r6, [r5, #448]
	ldr	r6, [sp, #168]                  @ 4-byte Reload
	stm.w	r12, {r0, r1, r2, r7}
	strd	r6, r11, [r5, #452]
	str.w	r3, [r5, #476]
.Laes_v7m_BB0_9:                                @ %"aes_planes::expansion::expand::<#389ec886eeff95cb>.exit"
	ldr	r0, [sp, #4]                    @ 4-byte Reload
	ldr	r1, [sp, #8]                    @ 4-byte Reload
	lsrs	r0, r0, #2
	orr.w	r0, r0, r1, lsl #30
	ldr	r2, [sp, #176]                  @ 4-byte Reload
	lsrs	r1, r1, #2
	adds	r0, #6
	str	r0, [sp, #168]                  @ 4-byte Spill
	adc	r0, r1, #0
	add.w	r7, r2, #60
	movs	r6, #0
	movs	r5, #1
	str	r0, [sp, #164]                  @ 4-byte Spill
	b	.Laes_v7m_BB0_12
	.p2align	2
.Laes_v7m_BB0_10:                               @ %join.8.i
                                        @   in Loop: Header=BB0_12 Depth=1
	eors	r0, r1
.Laes_v7m_BB0_11:                               @ %join.8.i
                                        @   in Loop: Header=BB0_12 Depth=1
	mvns	r1, r4
	mvn.w	r2, r12
	mvn.w	r4, lr
	sub.w	r12, r7, #28
	strd	r10, r9, [r7, #-16]
	strd	r2, r4, [r7, #-8]
	str	r0, [r7], #32
	ldr	r0, [sp, #172]                  @ 4-byte Reload
	adds	r5, #1
	ldr	r2, [sp, #176]                  @ 4-byte Reload
	adc	r6, r6, #0
	cmp	r0, #0
	mvn.w	r3, r3
	stm.w	r12, {r1, r3, r11}
	beq.w	.Laes_v7m_BB0_20
.Laes_v7m_BB0_12:                               @ %join.5.i
                                        @ =>This Inner Loop Header: Depth=1
	lsls	r0, r5, #5
	add.w	r1, r2, r5, lsl #5
	ldr	r4, [r2, r0]
	ldrd	r3, r11, [r1, #4]
	ldrd	r10, r9, [r1, #12]
	ldrd	r12, lr, [r1, #20]
	ldr	r0, [r1, #28]
	ldr	r1, [sp, #168]                  @ 4-byte Reload
	subs	r1, r5, r1
	ldr	r1, [sp, #164]                  @ 4-byte Reload
	sbcs.w	r1, r6, r1
	mov.w	r1, #0
	it	lo
	movlo	r1, #1
	str	r1, [sp, #172]                  @ 4-byte Spill
	bhs	.Laes_v7m_BB0_11
@ %bb.13:                               @ %ok.10.i
                                        @   in Loop: Header=BB0_12 Depth=1
	and	r8, r5, #3
.Laes_v7m_CPI0_0:
	tbb	[pc, r8]
@ %bb.14:
.Laes_v7m_JTI0_0:
	.byte	(.Laes_v7m_BB0_16-(.Laes_v7m_CPI0_0+4))/2
	.byte	(.Laes_v7m_BB0_17-(.Laes_v7m_CPI0_0+4))/2
	.byte	(.Laes_v7m_BB0_15-(.Laes_v7m_CPI0_0+4))/2
	.byte	(.Laes_v7m_BB0_18-(.Laes_v7m_CPI0_0+4))/2
	.p2align	1
	.p2align	2
.Laes_v7m_BB0_15:                               @ %then.4.i
                                        @   in Loop: Header=BB0_12 Depth=1
	eor.w	r1, r4, r4, lsr #4
	and	r1, r1, #251662080
	add.w	r1, r1, r1, lsl #4
	eors	r4, r1
	eor.w	r1, r3, r3, lsr #4
	and	r1, r1, #251662080
	add.w	r1, r1, r1, lsl #4
	eors	r3, r1
	eor.w	r1, r11, r11, lsr #4
	and	r1, r1, #251662080
	add.w	r1, r1, r1, lsl #4
	eor.w	r11, r11, r1
	eor.w	r1, r10, r10, lsr #4
	and	r1, r1, #251662080
	add.w	r1, r1, r1, lsl #4
	eor.w	r10, r10, r1
	eor.w	r1, r9, r9, lsr #4
	and	r1, r1, #251662080
	add.w	r1, r1, r1, lsl #4
	eor.w	r9, r9, r1
	eor.w	r1, r12, r12, lsr #4
	and	r1, r1, #251662080
	add.w	r1, r1, r1, lsl #4
	eor.w	r12, r12, r1
	eor.w	r1, lr, lr, lsr #4
	and	r1, r1, #251662080
	add.w	r1, r1, r1, lsl #4
	eor.w	lr, lr, r1
	eor.w	r1, r0, r0, lsr #4
	and	r1, r1, #251662080
	add.w	r1, r1, r1, lsl #4
	b	.Laes_v7m_BB0_10
	.p2align	2
.Laes_v7m_BB0_16:                               @ %ok.10.i
                                        @   in Loop: Header=BB0_12 Depth=1
	b	.Laes_v7m_BB0_11
	.p2align	2
.Laes_v7m_BB0_17:                               @ %then.1.i
                                        @   in Loop: Header=BB0_12 Depth=1
	movw	r2, #3072
	eor.w	r1, r4, r4, lsr #4
	movt	r2, #783
	b	.Laes_v7m_BB0_19
	.p2align	2
.Laes_v7m_BB0_18:                               @ %then.7.i
                                        @   in Loop: Header=BB0_12 Depth=1
	movw	r2, #768
	eor.w	r1, r4, r4, lsr #4
	movt	r2, #3087
.Laes_v7m_BB0_19:                               @ %join.8.i
                                        @   in Loop: Header=BB0_12 Depth=1
	ands	r1, r2
	add.w	r1, r1, r1, lsl #4
	eor.w	r8, r1, r4
	eor.w	r1, r3, r3, lsr #4
	ands	r1, r2
	add.w	r1, r1, r1, lsl #4
	eors	r3, r1
	eor.w	r1, r11, r11, lsr #4
	ands	r1, r2
	add.w	r1, r1, r1, lsl #4
	eor.w	r11, r11, r1
	eor.w	r1, r10, r10, lsr #4
	ands	r1, r2
	add.w	r1, r1, r1, lsl #4
	eor.w	r10, r10, r1
	eor.w	r1, r9, r9, lsr #4
	ands	r1, r2
	add.w	r1, r1, r1, lsl #4
	eor.w	r9, r9, r1
	eor.w	r1, r12, r12, lsr #4
	ands	r1, r2
	add.w	r1, r1, r1, lsl #4
	eor.w	r12, r12, r1
	eor.w	r1, lr, lr, lsr #4
	ands	r1, r2
	add.w	r1, r1, r1, lsl #4
	eor.w	lr, lr, r1
	eor.w	r1, r0, r0, lsr #4
	ands	r1, r2
	add.w	r1, r1, r1, lsl #4
	eors	r0, r1
	eor.w	r1, r8, r8, lsr #2
	and	r1, r1, #855651072
	add.w	r1, r1, r1, lsl #2
	eor.w	r4, r1, r8
	eor.w	r1, r3, r3, lsr #2
	and	r1, r1, #855651072
	add.w	r1, r1, r1, lsl #2
	eors	r3, r1
	eor.w	r1, r11, r11, lsr #2
	and	r1, r1, #855651072
	add.w	r1, r1, r1, lsl #2
	eor.w	r11, r11, r1
	eor.w	r1, r10, r10, lsr #2
	and	r1, r1, #855651072
	add.w	r1, r1, r1, lsl #2
	eor.w	r10, r10, r1
	eor.w	r1, r9, r9, lsr #2
	and	r1, r1, #855651072
	add.w	r1, r1, r1, lsl #2
	eor.w	r9, r9, r1
	eor.w	r1, r12, r12, lsr #2
	and	r1, r1, #855651072
	add.w	r1, r1, r1, lsl #2
	eor.w	r12, r12, r1
	eor.w	r1, lr, lr, lsr #2
	and	r1, r1, #855651072
	add.w	r1, r1, r1, lsl #2
	eor.w	lr, lr, r1
	eor.w	r1, r0, r0, lsr #2
	and	r1, r1, #855651072
	add.w	r1, r1, r1, lsl #2
	b	.Laes_v7m_BB0_10
	.p2align	2
.Laes_v7m_BB0_20:                               @ %"aes_soft::soft::key_layout::store::<#dfb00681c6d298fe>.exit"
	add	sp, #212
	pop.w	{r4, r5, r6, r7, r8, r9, r10, r11, pc}
.Laes_v7m_func_end0:
	.size	aes_v7m.aes_narrow.word_room.expand_words, .Laes_v7m_func_end0-aes_v7m.aes_narrow.word_room.expand_words
	.cantunwind
	.fnend
                                        @ -- End function
	.section	.text.aes_v7m.aes_planes.soft.word.word32.U32Word.in_every_slot,"ax",%progbits
	.p2align	2                               @ -- Begin function aes_planes::soft::word::word32::U32Word::in_every_slot
	.type	aes_v7m.aes_planes.soft.word.word32.U32Word.in_every_slot,%function
	.code	16
	.thumb_func
aes_v7m.aes_planes.soft.word.word32.U32Word.in_every_slot: @ @aes_v7m.aes_planes.soft.word.word32.U32Word.in_every_slot
	.fnstart
@ %bb.0:                                @ %start
	.save	{r4, r5, r6, r7, r8, r9, lr}
	push.w	{r4, r5, r6, r7, r8, r9, lr}
	ldr	r2, [r1]
	ldr	r3, [r1, #4]
	ldr.w	r12, [r1, #8]
	ldr.w	lr, [r1, #12]
	eor.w	r1, r2, r2, lsr #1
	bic	r1, r1, #-1431655766
	eor.w	r4, r2, r1, lsl #1
	eor.w	r8, r1, r2
	eor.w	r2, r3, r3, lsr #1
	bic	r2, r2, #-1431655766
	eor.w	r5, r3, r2, lsl #1
	eor.w	r9, r2, r3
	eor.w	r3, r12, r12, lsr #1
	eor.w	r1, lr, lr, lsr #1
	bic	r3, r3, #-1431655766
	bic	r1, r1, #-1431655766
	eor.w	r2, r5, r4, lsr #2
	eor.w	r6, r12, r3, lsl #1
	eor.w	r7, lr, r1, lsl #1
	bic	r2, r2, #-858993460
	eor.w	r3, r3, r12
	eor.w	r12, r2, r5
	eor.w	r5, r7, r6, lsr #2
	eor.w	r1, r1, lr
	bic	r5, r5, #-858993460
	eor.w	lr, r5, r7
	eor.w	r7, r1, r3, lsr #2
	eor.w	r4, r4, r2, lsl #2
	eor.w	r6, r6, r5, lsl #2
	eor.w	r5, r9, r8, lsr #2
	bic	r7, r7, #-858993460
	bic	r5, r5, #-858993460
	eor.w	r3, r3, r7, lsl #2
	eors	r1, r7
	eor.w	r7, r6, r4, lsr #4
	eor.w	r2, r8, r5, lsl #2
	bic	r7, r7, #-252645136
	eor.w	r4, r4, r7, lsl #4
	eor.w	r8, r7, r6
	eor.w	r7, r3, r2, lsr #4
	eor.w	r5, r5, r9
	bic	r7, r7, #-252645136
	eor.w	r2, r2, r7, lsl #4
	eor.w	r9, r7, r3
	eor.w	r7, lr, r12, lsr #4
	eor.w	r3, r1, r5, lsr #4
	bic	r7, r7, #-252645136
	bic	r3, r3, #-252645136
	eor.w	r6, r12, r7, lsl #4
	eor.w	r7, r7, lr
	eor.w	r5, r5, r3, lsl #4
	eors	r1, r3
	str	r4, [r0]
	str	r2, [r0, #4]
	str	r6, [r0, #8]
	str	r5, [r0, #12]
	str.w	r8, [r0, #16]
	str.w	r9, [r0, #20]
	str	r7, [r0, #24]
	str	r1, [r0, #28]
	pop.w	{r4, r5, r6, r7, r8, r9, pc}
.Laes_v7m_func_end1:
	.size	aes_v7m.aes_planes.soft.word.word32.U32Word.in_every_slot, .Laes_v7m_func_end1-aes_v7m.aes_planes.soft.word.word32.U32Word.in_every_slot
	.cantunwind
	.fnend
                                        @ -- End function
	.section	.text.aes_v7m.aes_cipher.zeroize.stack.wipe_stack.768,"ax",%progbits
	.p2align	2                               @ -- Begin function aes_cipher::zeroize::stack::wipe_stack::<=768>
	.type	aes_v7m.aes_cipher.zeroize.stack.wipe_stack.768,%function
	.code	16
	.thumb_func
aes_v7m.aes_cipher.zeroize.stack.wipe_stack.768: @ @aes_v7m.aes_cipher.zeroize.stack.wipe_stack.768
	.fnstart
@ %bb.0:                                @ %start
	.save	{r4, r5, r7, lr}
	push	{r4, r5, r7, lr}
	.pad	#776
	sub.w	sp, sp, #776
	add	r4, sp, #8
	mov	r0, r4
	movs	r1, #0
	mov.w	r2, #768
	movs	r5, #0
	bl	memset
	strd	r5, r5, [sp]
	@APP
	@NO_APP
	mov	r0, sp
	ldrd	r1, r2, [r0]
	@APP
	@NO_APP
	subs.w	r3, r1, #768
	sbcs	r2, r2, #0
	itt	hs
	addhs.w	sp, sp, #776
	pophs	{r4, r5, r7, pc}
.Laes_v7m_BB2_1:                                @ %then.1
	ldrb	r1, [r4, r1]
	@APP
	@NO_APP
	ldrd	r2, r3, [r0]
	strd	r1, r5, [r0]
	@APP
	@NO_APP
	add.w	sp, sp, #776
	pop	{r4, r5, r7, pc}
.Laes_v7m_func_end2:
	.size	aes_v7m.aes_cipher.zeroize.stack.wipe_stack.768, .Laes_v7m_func_end2-aes_v7m.aes_cipher.zeroize.stack.wipe_stack.768
	.cantunwind
	.fnend
                                        @ -- End function
	.section	.text.aes_v7m.aes_ctr.add_in_batches.add_keystream,"ax",%progbits
	.p2align	2                               @ -- Begin function aes_ctr::add_in_batches::add_keystream::<#4f733d09d7f6c6b4>
	.type	aes_v7m.aes_ctr.add_in_batches.add_keystream,%function
	.code	16
	.thumb_func
aes_v7m.aes_ctr.add_in_batches.add_keystream: @ @aes_v7m.aes_ctr.add_in_batches.add_keystream
	.fnstart
@ %bb.0:                                @ %start
	.save	{r4, r5, r6, r7, r8, r9, r10, r11, lr}
	push.w	{r4, r5, r6, r7, r8, r9, r10, r11, lr}
	.pad	#132
	sub	sp, #132
	ldr	r7, [r1]
	ldr	r6, [r1, #4]
	ldr	r5, [r1, #12]
	ldr	r1, [r1, #8]
	ldrd	r9, r8, [sp, #176]
	and	r4, r2, #15
	strd	r1, r5, [sp, #72]
	rsb.w	r1, r4, #16
	ldr.w	r11, [sp, #168]
	strd	r7, r6, [sp, #64]
	movs	r6, #0
	subs.w	r1, r1, r9
	sbcs.w	r1, r6, r8
	str	r6, [sp, #84]
	str	r6, [sp, #80]
	bhs	.Laes_v7m_BB3_2
@ %bb.1:                                @ %else.2.i
	add	r1, sp, #64
	str	r1, [sp, #80]
	add	r1, sp, #88
	stm.w	r1, {r2, r3, r11}
	ldr	r1, [r0]
	ldr	r2, [r0, #8]
	ldr	r3, [r0, #12]
	add	r7, sp, #80
	mov	r0, r1
	strd	r6, r9, [sp, #100]
	str.w	r8, [sp, #108]
	str	r7, [sp]
	bl	aes_v7m.aes_narrow.borrowed_words.call_to_encrypt
	bl	aes_v7m.aes_cipher.zeroize.stack.wipe_stack.2032
	add	sp, #132
	pop.w	{r4, r5, r6, r7, r8, r9, r10, r11, pc}
	.p2align	2
.Laes_v7m_BB3_2:                                @ %then.1.i
	ldr	r7, [sp, #76]
	lsrs	r1, r2, #4
	orr.w	r1, r1, r3, lsl #28
	rev	r7, r7
	adds	r7, r7, r1
	ldr	r1, [sp, #72]
	lsr.w	r2, r3, #4
	ldrd	r3, r5, [sp, #64]
	rev	r1, r1
	rev	r5, r5
	adcs	r1, r2
	rev	r3, r3
	adcs	r2, r5, #0
	adc	r3, r3, #0
	lsrs	r5, r3, #24
	strb.w	r5, [sp, #116]
	lsrs	r5, r3, #16
	strb.w	r5, [sp, #117]
	lsrs	r5, r3, #8
	strb.w	r3, [sp, #119]
	lsrs	r3, r2, #24
	strb.w	r3, [sp, #120]
	lsrs	r3, r2, #16
	strb.w	r3, [sp, #121]
	lsrs	r3, r2, #8
	strb.w	r2, [sp, #123]
	lsrs	r2, r1, #24
	strb.w	r2, [sp, #124]
	lsrs	r2, r1, #16
	strb.w	r2, [sp, #125]
	lsrs	r2, r1, #8
	strb.w	r1, [sp, #127]
	lsrs	r1, r7, #24
	strb.w	r1, [sp, #128]
	lsrs	r1, r7, #16
	strb.w	r1, [sp, #129]
	lsrs	r1, r7, #8
	strb.w	r1, [sp, #130]
	ldr	r1, [r0]
	strb.w	r3, [sp, #122]
	strb.w	r2, [sp, #126]
	ldr	r2, [r0, #8]
	ldr	r3, [r0, #12]
	movs	r0, #1
	strb.w	r7, [sp, #131]
	strd	r0, r6, [sp, #8]
	add	r7, sp, #116
	mov	r0, r1
	strb.w	r5, [sp, #118]
	str	r7, [sp]
	str	r4, [sp, #20]                   @ 4-byte Spill
	bl	aes_v7m.aes_narrow.blocks.process_all_batches.1
	bl	aes_v7m.aes_cipher.zeroize.stack.wipe_stack.1024
	ldr.w	lr, [sp, #20]                   @ 4-byte Reload
	cmp.w	lr, #0
	beq	.Laes_v7m_BB3_6
@ %bb.3:                                @ %then.1.i
	orrs.w	r0, r9, r8
	mov.w	r10, #0
	beq	.Laes_v7m_BB3_13
@ %bb.4:                                @ %join.8.i72.i.i.preheader
	subs.w	r0, r9, #1
	sbc	r1, r8, #0
	subs	r0, #3
	sbcs	r0, r1, #0
	and	r12, r9, #3
	bhs	.Laes_v7m_BB3_7
@ %bb.5:
	movs	r1, #0
	b	.Laes_v7m_BB3_10
	.p2align	2
.Laes_v7m_BB3_6:
	mov.w	r10, #0
	b	.Laes_v7m_BB3_13
	.p2align	2
.Laes_v7m_BB3_7:                                @ %join.8.i72.i.i.preheader.new
	bic	r10, r9, #3
	movs	r1, #0
	movs	r3, #0
	add	r0, sp, #116
	.p2align	2
.Laes_v7m_BB3_8:                                @ %join.8.i72.i.i
                                        @ =>This Inner Loop Header: Depth=1
	orr	r6, r1, #1
	add.w	r5, r6, lr
	ldrb	r5, [r0, r5]
	ldrb.w	r4, [r11, r6]
	add.w	r7, r1, lr
	eors	r5, r4
	strb.w	r5, [r11, r6]
	orr	r6, r1, #2
	add.w	r5, r6, lr
	ldrb	r7, [r0, r7]
	ldrb.w	r2, [r11, r1]
	ldrb	r5, [r0, r5]
	ldrb.w	r4, [r11, r6]
	eors	r2, r7
	eor.w	r7, r4, r5
	strb.w	r7, [r11, r6]
	orr	r7, r1, #3
	add.w	r6, r7, lr
	ldrb	r6, [r0, r6]
	ldrb.w	r5, [r11, r7]
	strb.w	r2, [r11, r1]
	adds	r1, #4
	eor.w	r2, r5, r6
	adc	r3, r3, #0
	eor.w	r6, r1, r10
	orrs	r6, r3
	strb.w	r2, [r11, r7]
	bne	.Laes_v7m_BB3_8
@ %bb.9:                                @ %join.3.i.i.i.loopexit.unr-lcssa
	cmp.w	r12, #0
	mov	r6, r9
	mov	r10, r8
	beq	.Laes_v7m_BB3_13
.Laes_v7m_BB3_10:                               @ %join.8.i72.i.i.epil.preheader
	add.w	r0, r1, lr
	add	r2, sp, #116
	ldrb	r0, [r2, r0]
	ldrb.w	r2, [r11, r1]
	cmp.w	r12, #1
	eor.w	r0, r0, r2
	mov	r6, r9
	mov	r10, r8
	strb.w	r0, [r11, r1]
	beq	.Laes_v7m_BB3_13
@ %bb.11:                               @ %join.8.i72.i.i.epil.1
	adds	r0, r1, #1
	add.w	r2, r0, lr
	add	r3, sp, #116
	ldrb	r2, [r3, r2]
	ldrb.w	r3, [r11, r0]
	cmp.w	r12, #2
	eor.w	r2, r2, r3
	mov	r6, r9
	mov	r10, r8
	strb.w	r2, [r11, r0]
	beq	.Laes_v7m_BB3_13
@ %bb.12:                               @ %join.8.i72.i.i.epil.2
	adds	r0, r1, #2
	add.w	r1, r0, lr
	add	r2, sp, #116
	ldrb	r1, [r2, r1]
	ldrb.w	r2, [r11, r0]
	mov	r6, r9
	eors	r1, r2
	mov	r10, r8
	strb.w	r1, [r11, r0]
.Laes_v7m_BB3_13:                               @ %join.3.i.i.i
	subs.w	r3, r9, r6
	sbc.w	r2, r8, r10
	subs.w	r1, r3, #16
	sbcs	r1, r2, #0
	blo.w	.Laes_v7m_BB3_15
	.p2align	2
.Laes_v7m_BB3_14:                               @ %join.8.i.i.i
                                        @ =>This Inner Loop Header: Depth=1
	add.w	r1, r6, lr
	bic	r1, r1, #15
	add	r0, sp, #116
	str	r1, [sp, #60]                   @ 4-byte Spill
	adds	r3, r0, r1
	add.w	r1, r11, r6
	ldrb	r5, [r1, #1]
	ldrb	r4, [r1, #2]
	ldrb.w	r12, [r3, #1]
	ldrb	r7, [r3, #2]
	ldrb	r0, [r1, #10]
	eor.w	r5, r5, r12
	eors	r7, r4
	str	r0, [sp, #40]                   @ 4-byte Spill
	ldrb	r0, [r1, #3]
	ldrb	r2, [r1, #4]
	str	r5, [sp, #56]                   @ 4-byte Spill
	ldrb	r5, [r3, #3]
	str	r7, [sp, #52]                   @ 4-byte Spill
	ldrb	r7, [r3, #4]
	eors	r0, r5
	eors	r2, r7
	ldrb.w	r8, [r1, #6]
	ldrb.w	r9, [r1, #5]
	str	r0, [sp, #48]                   @ 4-byte Spill
	ldrb	r0, [r3, #5]
	str	r2, [sp, #44]                   @ 4-byte Spill
	ldrb	r2, [r3, #6]
	eor.w	r0, r0, r9
	eor.w	r2, r2, r8
	ldrb.w	r11, [r1, #8]
	ldrb.w	lr, [r1, #7]
	str	r0, [sp, #36]                   @ 4-byte Spill
	ldrb	r0, [r3, #7]
	str	r2, [sp, #32]                   @ 4-byte Spill
	ldrb	r2, [r3, #8]
	eor.w	r0, r0, lr
	eor.w	r2, r2, r11
	str	r0, [sp, #28]                   @ 4-byte Spill
	ldrb	r0, [r1, #9]
	str	r2, [sp, #24]                   @ 4-byte Spill
	ldrb	r2, [r3, #9]
	ldrb	r7, [r3, #10]
	eor.w	r9, r2, r0
	ldr	r0, [sp, #40]                   @ 4-byte Reload
	ldrb	r4, [r1, #11]
	eor.w	r12, r7, r0
	ldrb	r0, [r3, #11]
	ldrb	r7, [r1, #12]
	eors	r0, r4
	strb	r0, [r1, #11]
	ldr	r0, [sp, #24]                   @ 4-byte Reload
	ldrb	r2, [r3, #12]
	strb	r0, [r1, #8]
	ldr	r0, [sp, #28]                   @ 4-byte Reload
	ldrb	r4, [r1, #14]
	ldrb.w	r8, [r3, #14]
	eors	r2, r7
	ldrb	r7, [r1, #13]
	ldrb.w	lr, [r3, #13]
	ldr	r5, [sp, #60]                   @ 4-byte Reload
	strb	r0, [r1, #7]
	ldr	r0, [sp, #32]                   @ 4-byte Reload
	eor.w	r8, r8, r4
	add	r4, sp, #116
	eor.w	lr, lr, r7
	ldrb	r7, [r4, r5]
	ldr	r5, [sp, #168]
	strb	r0, [r1, #6]
	ldr	r0, [sp, #36]                   @ 4-byte Reload
	ldrb	r3, [r3, #15]
	ldrb	r4, [r1, #15]
	ldrb.w	r11, [r5, r6]
	strb	r0, [r1, #5]
	ldr	r0, [sp, #44]                   @ 4-byte Reload
	eors	r3, r4
	eor.w	r4, r7, r11
	ldr.w	r11, [sp, #168]
	strb	r0, [r1, #4]
	ldr	r0, [sp, #48]                   @ 4-byte Reload
	strb.w	r9, [r1, #9]
	ldr.w	r9, [sp, #176]
	strb.w	r4, [r11, r6]
	strb.w	r8, [r1, #14]
	ldr.w	r8, [sp, #180]
	adds	r6, #16
	strb	r0, [r1, #3]
	ldr	r0, [sp, #52]                   @ 4-byte Reload
	strb	r3, [r1, #15]
	adc	r10, r10, #0
	subs.w	r3, r9, r6
	strb	r2, [r1, #12]
	strb	r0, [r1, #2]
	sbc.w	r2, r8, r10
	rsbs.w	r0, r3, #15
	mov.w	r0, #0
	sbcs	r0, r2
	strb.w	lr, [r1, #13]
	ldr.w	lr, [sp, #20]                   @ 4-byte Reload
	ldr	r0, [sp, #56]                   @ 4-byte Reload
	strb.w	r12, [r1, #10]
	strb	r0, [r1, #1]
	blo.w	.Laes_v7m_BB3_14
.Laes_v7m_BB3_15:                               @ %after.4.i.i.i
	subs.w	r0, r6, r9
	sbcs.w	r0, r10, r8
	bhs	.Laes_v7m_BB3_24
@ %bb.16:                               @ %then.9.i.i.i
	orrs.w	r0, r3, r2
	beq	.Laes_v7m_BB3_24
@ %bb.17:                               @ %join.8.i15.i.i.preheader
	add.w	r0, r6, lr
	bic	r0, r0, #15
	add	r1, sp, #116
	subs	r7, r3, #4
	add	r1, r0
	add.w	r0, r11, r6
	sbcs	r2, r2, #0
	and	r12, r3, #3
	bhs	.Laes_v7m_BB3_19
@ %bb.18:
	movs	r3, #0
	b	.Laes_v7m_BB3_22
	.p2align	2
.Laes_v7m_BB3_19:                               @ %join.8.i15.i.i.preheader.new
	and	r7, r3, #12
	movs	r3, #0
	movs	r6, #0
	.p2align	2
.Laes_v7m_BB3_20:                               @ %join.8.i15.i.i
                                        @ =>This Inner Loop Header: Depth=1
	ldrb	r5, [r1, r3]
	ldrb	r4, [r0, r3]
	eors	r5, r4
	strb	r5, [r0, r3]
	orr	r5, r3, #1
	ldrb	r4, [r1, r5]
	ldrb	r2, [r0, r5]
	eors	r2, r4
	strb	r2, [r0, r5]
	orr	r2, r3, #2
	ldrb	r5, [r1, r2]
	ldrb	r4, [r0, r2]
	eors	r5, r4
	strb	r5, [r0, r2]
	orr	r2, r3, #3
	ldrb	r5, [r1, r2]
	ldrb	r4, [r0, r2]
	adds	r3, #4
	eor.w	r5, r5, r4
	adc	r6, r6, #0
	eor.w	r4, r3, r7
	orrs	r4, r6
	strb	r5, [r0, r2]
	bne	.Laes_v7m_BB3_20
@ %bb.21:                               @ %"aes_ctr::add_in_batches::add_to_one::<#72982bb057555e7c>.exit.i.loopexit.unr-lcssa"
	cmp.w	r12, #0
	beq	.Laes_v7m_BB3_24
.Laes_v7m_BB3_22:                               @ %join.8.i15.i.i.epil.preheader
	ldrb	r2, [r1, r3]
	ldrb	r7, [r0, r3]
	cmp.w	r12, #1
	eor.w	r2, r2, r7
	strb	r2, [r0, r3]
	beq	.Laes_v7m_BB3_24
@ %bb.23:                               @ %join.8.i15.i.i.epil.1
	adds	r2, r3, #1
	ldrb	r7, [r1, r2]
	ldrb	r6, [r0, r2]
	cmp.w	r12, #2
	eor.w	r7, r7, r6
	strb	r7, [r0, r2]
	bne	.Laes_v7m_BB3_25
.Laes_v7m_BB3_24:                               @ %"aes_ctr::add_in_batches::add_stream::<#72982bb057555e7c>.exit"
	add	sp, #132
	pop.w	{r4, r5, r6, r7, r8, r9, r10, r11, pc}
	.p2align	2
.Laes_v7m_BB3_25:                               @ %join.8.i15.i.i.epil.2
	adds	r2, r3, #2
	ldrb	r1, [r1, r2]
	ldrb	r3, [r0, r2]
	eors	r1, r3
	strb	r1, [r0, r2]
	add	sp, #132
	pop.w	{r4, r5, r6, r7, r8, r9, r10, r11, pc}
.Laes_v7m_func_end3:
	.size	aes_v7m.aes_ctr.add_in_batches.add_keystream, .Laes_v7m_func_end3-aes_v7m.aes_ctr.add_in_batches.add_keystream
	.cantunwind
	.fnend
                                        @ -- End function
	.section	.text.aes_v7m.aes_narrow.blocks.process_all_batches.1,"ax",%progbits
	.p2align	2                               @ -- Begin function aes_narrow::blocks::process_all_batches::<#1a21aa7f601e7603>
	.type	aes_v7m.aes_narrow.blocks.process_all_batches.1,%function
	.code	16
	.thumb_func
aes_v7m.aes_narrow.blocks.process_all_batches.1: @ @aes_v7m.aes_narrow.blocks.process_all_batches.1
	.fnstart
@ %bb.0:                                @ %start
	.save	{r4, r5, r6, r7, r8, r9, r10, r11, lr}
	push.w	{r4, r5, r6, r7, r8, r9, r10, r11, lr}
	.pad	#20
	sub	sp, #20
	ldrd	r4, r11, [sp, #64]
	orrs.w	r1, r4, r11
	beq	.Laes_v7m_BB4_3
@ %bb.1:                                @ %join.5.preheader
	mov	r8, r3
	mov	r5, r2
	mov	r6, r0
	mov.w	r10, #0
	mov.w	r9, #0
	movs	r7, #0
	.p2align	2
.Laes_v7m_BB4_2:                                @ %join.5
                                        @ =>This Inner Loop Header: Depth=1
	subs.w	r1, r4, r9
	sbc.w	r0, r11, r7
	cmp	r1, #2
	mov.w	r2, #2
	it	hs
	movhs	r1, r2
	cmp	r0, #0
	ldr	r0, [sp, #56]
	it	ne
	movne	r1, r2
	add.w	r0, r0, r9, lsl #4
	adds.w	r9, r9, r1
	str	r0, [sp]
	mov	r0, r6
	mov	r2, r5
	mov	r3, r8
	adc	r7, r7, #0
	strd	r1, r10, [sp, #8]
	bl	aes_v7m.aes_soft.soft.blocks.filled_up.process_filled_up.1
	subs.w	r0, r9, r4
	sbcs.w	r0, r7, r11
	blo	.Laes_v7m_BB4_2
.Laes_v7m_BB4_3:                                @ %after.1
	add	sp, #20
	pop.w	{r4, r5, r6, r7, r8, r9, r10, r11, pc}
.Laes_v7m_func_end4:
	.size	aes_v7m.aes_narrow.blocks.process_all_batches.1, .Laes_v7m_func_end4-aes_v7m.aes_narrow.blocks.process_all_batches.1
	.cantunwind
	.fnend
                                        @ -- End function
	.section	.text.aes_v7m.aes_soft.soft.blocks.filled_up.process_filled_up.1,"ax",%progbits
	.p2align	2                               @ -- Begin function aes_soft::soft::blocks::filled_up::process_filled_up::<#1a21aa7f601e7603>
	.type	aes_v7m.aes_soft.soft.blocks.filled_up.process_filled_up.1,%function
	.code	16
	.thumb_func
aes_v7m.aes_soft.soft.blocks.filled_up.process_filled_up.1: @ @aes_v7m.aes_soft.soft.blocks.filled_up.process_filled_up.1
	.fnstart
@ %bb.0:                                @ %start
	.save	{r4, r5, r6, r7, r8, r9, r10, r11, lr}
	push.w	{r4, r5, r6, r7, r8, r9, r10, r11, lr}
	.pad	#132
	sub	sp, #132
	ldr.w	r11, [sp, #168]
	mov	r12, r0
	movs	r0, #0
	strd	r0, r0, [sp, #92]
	strd	r0, r0, [sp, #84]
	strd	r0, r0, [sp, #76]
	strd	r0, r0, [sp, #68]
	strd	r0, r0, [sp, #36]
	strd	r0, r0, [sp, #44]
	strd	r0, r0, [sp, #52]
	strd	r0, r0, [sp, #60]
	strd	r0, r0, [sp, #4]
	strd	r0, r0, [sp, #12]
	strd	r0, r0, [sp, #20]
	strd	r0, r0, [sp, #28]
	ldr.w	r0, [r11]
	ldr.w	r4, [r11, #12]
	add	r1, sp, #100
	ldr.w	r6, [r11, #4]
	ldr.w	r7, [r11, #8]
	stm	r1!, {r0, r6, r7}
	strd	r4, r0, [sp, #112]
	lsrs	r0, r2, #3
	ldrd	r9, r8, [sp, #176]
	orr.w	r0, r0, r3, lsl #29
	lsrs	r3, r3, #3
	subs	r2, r0, #1
	sbc	r3, r3, #0
	orrs.w	r0, r9, r8
	clz	r0, r0
	lsr.w	r10, r0, #5
	strd	r6, r7, [sp, #120]
	str	r4, [sp, #128]
	beq	.Laes_v7m_BB5_2
@ %bb.1:                                @ %join.8.i
	ldr.w	r1, [r11, #4]
	add.w	lr, sp, #104
	ldr.w	r0, [r11]
	ldr.w	r7, [r11, #12]
	ldr.w	r6, [r11, #8]
	stm.w	lr, {r1, r6, r7}
	eor	r1, r9, #1
	orrs.w	r1, r1, r8
	str	r0, [sp, #100]
	bne	.Laes_v7m_BB5_3
.Laes_v7m_BB5_2:                                @ %then.6.i
	add	r0, sp, #100
	ldm	r0!, {r1, r4, r5, r6}
	add	r7, sp, #36
	stm	r7!, {r1, r4, r5, r6}
	ldm.w	r0, {r1, r4, r5, r6}
	stm	r7!, {r1, r4, r5, r6}
	b	.Laes_v7m_BB5_4
	.p2align	2
.Laes_v7m_BB5_3:                                @ %join.8.i.1
	ldr.w	r0, [r11, #16]
	add.w	lr, sp, #116
	ldr.w	r1, [r11, #20]
	ldr.w	r7, [r11, #28]
	ldr.w	r6, [r11, #24]
	stm.w	lr, {r0, r1, r6, r7}
	add	r0, sp, #100
	ldm	r0!, {r4, r5, r6, r7}
	add	r1, sp, #36
	stm	r1!, {r4, r5, r6, r7}
	ldm.w	r0, {r4, r5, r6, r7}
	stm	r1!, {r4, r5, r6, r7}
.Laes_v7m_BB5_4:                                @ %"aes_soft::soft::blocks::filled_up::filled_up::<#7d3b633001169d8c>.exit"
	add	r4, sp, #4
	add	r7, sp, #36
	mov	r0, r4
	mov	r1, r12
	str	r7, [sp]
	bl	aes_v7m.aes_soft.soft.ciphers.planes.process_outlined.1
	ldm	r4!, {r1, r2, r3, r7}
	add	r0, sp, #68
	stm	r0!, {r1, r2, r3, r7}
	ldm.w	r4, {r1, r2, r3, r7}
	cmp.w	r10, #0
	stm	r0!, {r1, r2, r3, r7}
	bne	.Laes_v7m_BB5_7
@ %bb.5:                                @ %join.8.i22
	add	r3, sp, #68
	ldm	r3, {r0, r1, r3}
	ldr	r2, [sp, #80]
	str.w	r1, [r11, #4]
	eor	r1, r9, #1
	orrs.w	r1, r1, r8
	str.w	r2, [r11, #12]
	str.w	r3, [r11, #8]
	str.w	r0, [r11]
	beq	.Laes_v7m_BB5_7
@ %bb.6:                                @ %join.8.i22.1
	add	r3, sp, #84
	ldr	r2, [sp, #96]
	ldm	r3, {r0, r1, r3}
	str.w	r2, [r11, #28]
	str.w	r3, [r11, #24]
	str.w	r1, [r11, #20]
	str.w	r0, [r11, #16]
.Laes_v7m_BB5_7:                                @ %"aes_soft::soft::blocks::filled_up::copy_first::<#7d3b633001169d8c>.exit"
	add	sp, #132
	pop.w	{r4, r5, r6, r7, r8, r9, r10, r11, pc}
.Laes_v7m_func_end5:
	.size	aes_v7m.aes_soft.soft.blocks.filled_up.process_filled_up.1, .Laes_v7m_func_end5-aes_v7m.aes_soft.soft.blocks.filled_up.process_filled_up.1
	.cantunwind
	.fnend
                                        @ -- End function
	.section	.text.aes_v7m.aes_soft.soft.ciphers.planes.process_outlined.1,"ax",%progbits
	.p2align	2                               @ -- Begin function aes_soft::soft::ciphers::planes::process_outlined::<#18f5f0e5023a24e4>
	.type	aes_v7m.aes_soft.soft.ciphers.planes.process_outlined.1,%function
	.code	16
	.thumb_func
aes_v7m.aes_soft.soft.ciphers.planes.process_outlined.1: @ @aes_v7m.aes_soft.soft.ciphers.planes.process_outlined.1
	.fnstart
@ %bb.0:                                @ %start
	.save	{r4, r5, r6, r7, r8, r9, r10, r11, lr}
	push.w	{r4, r5, r6, r7, r8, r9, r10, r11, lr}
	.pad	#112
	sub	sp, #112
	mov	r8, r1
	ldr	r1, [sp, #148]
	str	r0, [sp, #4]                    @ 4-byte Spill
	ldr	r0, [r1, #16]
	ldr	r7, [r1]
	strd	r3, r2, [sp, #12]               @ 8-byte Folded Spill
	ldr	r2, [r1, #20]
	ldr	r6, [r1, #4]
	eor.w	r3, r0, r7, lsr #1
	ldr.w	r12, [r1, #24]
	ldr	r5, [r1, #8]
	ldr	r4, [r1, #12]
	ldr	r1, [r1, #28]
	bic	r3, r3, #-1431655766
	eor.w	r7, r7, r3, lsl #1
	eor.w	lr, r3, r0
	eor.w	r3, r2, r6, lsr #1
	bic	r3, r3, #-1431655766
	eor.w	r0, r1, r4, lsr #1
	eor.w	r6, r6, r3, lsl #1
	eors	r3, r2
	eor.w	r2, r12, r5, lsr #1
	bic	r0, r0, #-1431655766
	bic	r2, r2, #-1431655766
	eor.w	r4, r4, r0, lsl #1
	eors	r1, r0
	eor.w	r0, r6, r7, lsr #2
	eor.w	r5, r5, r2, lsl #1
	bic	r0, r0, #-858993460
	eor.w	r7, r7, r0, lsl #2
	eor.w	r10, r0, r6
	eor.w	r0, r4, r5, lsr #2
	bic	r0, r0, #-858993460
	eor.w	r2, r2, r12
	eor.w	r12, r5, r0, lsl #2
	eor.w	r6, r0, r4
	eor.w	r0, r3, lr, lsr #2
	bic	r4, r0, #-858993460
	eor.w	r9, r4, r3
	eor.w	r3, r1, r2, lsr #2
	bic	r3, r3, #-858993460
	eor.w	r0, lr, r4, lsl #2
	eor.w	lr, r3, r1
	eor.w	r1, r12, r7, lsr #4
	bic	r5, r1, #-252645136
	ldr.w	r1, [r8]
	eor.w	r11, r2, r3, lsl #2
	eor.w	r1, r1, r5, lsl #4
	eors	r1, r7
	eor.w	r2, r11, r0, lsr #4
	str	r1, [sp, #96]                   @ 4-byte Spill
	ldr.w	r1, [r8, #4]
	bic	r7, r2, #-252645136
	eor.w	r1, r1, r7, lsl #4
	eors	r0, r1
	str	r0, [sp, #108]                  @ 4-byte Spill
	eor.w	r0, r6, r10, lsr #4
	ldr.w	r1, [r8, #8]
	bic	r0, r0, #-252645136
	eor.w	r1, r1, r0, lsl #4
	eor.w	r4, r1, r10
	eor.w	r1, lr, r9, lsr #4
	ldr.w	r2, [r8, #12]
	bic	r10, r1, #-252645136
	mov	r3, r6
	eor.w	r1, r2, r10, lsl #4
	ldr.w	r6, [r8, #16]
	eor.w	r1, r1, r9
	str	r1, [sp, #100]                  @ 4-byte Spill
	eor.w	r1, r12, r6
	ldr.w	r6, [r8, #20]
	eor.w	r12, r1, r5
	ldr.w	r5, [r8, #24]
	eor.w	r1, r11, r6
	eor.w	r11, r1, r7
	ldr	r1, [sp, #16]                   @ 4-byte Reload
	eor.w	r6, r3, r5
	ldr.w	r5, [r8, #28]
	eor.w	r9, r6, r0
	ldr	r0, [sp, #12]                   @ 4-byte Reload
	subs	r6, r1, #2
	eor.w	r1, lr, r5
	sbc	r3, r0, #0
	lsrs	r5, r6, #2
	orr.w	r5, r5, r3, lsl #30
	mov	r0, r5
	orrs.w	r5, r5, r3, lsr #2
	eor.w	r10, r10, r1
	str.w	r8, [sp, #28]                   @ 4-byte Spill
	str	r6, [sp, #8]                    @ 4-byte Spill
	str	r3, [sp]                        @ 4-byte Spill
	beq.w	.Laes_v7m_BB6_3
@ %bb.1:                                @ %join.7.i.preheader
	lsrs	r3, r3, #2
	ldr	r1, [sp, #108]                  @ 4-byte Reload
	ldrd	lr, r2, [sp, #96]               @ 8-byte Folded Reload
	str	r3, [sp, #20]                   @ 4-byte Spill
	movs	r3, #0
	movs	r5, #0
	str	r3, [sp, #104]                  @ 4-byte Spill
	str	r0, [sp, #24]                   @ 4-byte Spill
	.p2align	2
.Laes_v7m_BB6_2:                                @ %join.7.i
                                        @ =>This Inner Loop Header: Depth=1
	str	r5, [sp, #80]                   @ 4-byte Spill
	eor.w	r0, r1, r10
	eor.w	r5, r4, r12
	str	r0, [sp, #40]                   @ 4-byte Spill
	eors	r0, r5
	eors	r2, r0
	eor.w	r8, r11, r9
	eor.w	r6, r12, r10
	eor.w	r11, r2, r4
	eor.w	r9, r9, r2
	mov	r7, r1
	str	r0, [sp, #108]                  @ 4-byte Spill
	eor.w	r1, r9, r6
	eor.w	r0, r11, r8
	str	r1, [sp, #100]                  @ 4-byte Spill
	and.w	r2, r1, r6
	eors	r1, r0
	eor.w	r4, r4, r10
	and.w	r3, r1, r5
	str.w	r12, [sp, #92]                  @ 4-byte Spill
	str	r5, [sp, #72]                   @ 4-byte Spill
	mov	r12, r10
	eor.w	r5, r3, r2
	and.w	r3, r0, r4
	eor.w	r10, lr, r8
	strd	r6, r4, [sp, #84]               @ 8-byte Folded Spill
	eor.w	r6, r3, r2
	eor.w	r2, r10, r7
	str	r1, [sp, #76]                   @ 4-byte Spill
	eor.w	r7, r11, lr
	eor.w	r1, r2, r4
	str	r1, [sp, #60]                   @ 4-byte Spill
	and.w	r3, r7, r1
	ldr	r1, [sp, #92]                   @ 4-byte Reload
	str	r7, [sp, #56]                   @ 4-byte Spill
	eor.w	r1, r1, r10
	eor.w	r7, r9, r3
	and.w	r3, r1, lr
	eors	r3, r4
	str	r0, [sp, #68]                   @ 4-byte Spill
	eors	r3, r0
	ldr	r0, [sp, #108]                  @ 4-byte Reload
	str	r1, [sp, #92]                   @ 4-byte Spill
	and.w	r1, r11, r0
	eors	r3, r1
	eors	r1, r7
	ldr	r7, [sp, #100]                  @ 4-byte Reload
	str.w	lr, [sp, #96]                   @ 4-byte Spill
	eor.w	r0, r7, r8
	eor.w	r8, r1, r5
	mov	r1, lr
	ldr.w	lr, [sp, #40]                   @ 4-byte Reload
	and.w	r4, r2, r10
	str.w	r11, [sp, #64]                  @ 4-byte Spill
	eors	r4, r0
	and.w	r11, r0, lr
	eor.w	r4, r4, r11
	eor.w	r4, r4, lr
	str	r2, [sp, #44]                   @ 4-byte Spill
	eor.w	r9, r4, r5
	eor.w	r4, r10, r12
	eor.w	r2, r7, r1
	and.w	r5, r2, r4
	eors	r5, r0
	eor.w	r5, r5, r11
	eor.w	r5, r5, r12
	str	r2, [sp, #52]                   @ 4-byte Spill
	eors	r3, r6
	eors	r5, r6
	and.w	r2, r9, r8
	str	r4, [sp, #48]                   @ 4-byte Spill
	eor.w	r12, r2, r3
	eor.w	r4, r5, r9
	and.w	r4, r4, r12
	eor.w	r12, r8, r3
	eor.w	r1, r2, r5
	and.w	r7, r1, r12
	eors	r3, r7
	eor.w	r7, r4, r2
	eor.w	r2, r4, r5
	and.w	r4, r7, r5
	eors	r1, r4
	ands	r1, r3
	eor.w	r5, r1, r12
	eor.w	r7, r5, r3
	and.w	r8, r7, r0
	and.w	r0, r5, r10
	str	r0, [sp, #40]                   @ 4-byte Spill
	ldr	r0, [sp, #44]                   @ 4-byte Reload
	eor.w	r1, r4, r9
	ands	r0, r5
	str	r0, [sp, #44]                   @ 4-byte Spill
	ldr	r0, [sp, #56]                   @ 4-byte Reload
	eor.w	r4, r1, r2
	and.w	r11, r7, lr
	eor.w	lr, r5, r4
	and.w	r5, r4, r0
	ldr	r0, [sp, #60]                   @ 4-byte Reload
	and.w	r7, r4, r0
	ldr	r0, [sp, #92]                   @ 4-byte Reload
	ands	r0, r2
	str	r0, [sp, #92]                   @ 4-byte Spill
	ldr	r0, [sp, #96]                   @ 4-byte Reload
	and.w	r4, r2, r0
	ldr	r0, [sp, #100]                  @ 4-byte Reload
	eors	r2, r3
	ands	r0, r2
	str	r0, [sp, #100]                  @ 4-byte Spill
	ldr	r0, [sp, #84]                   @ 4-byte Reload
	and.w	r6, r2, r0
	ldr	r0, [sp, #72]                   @ 4-byte Reload
	eor.w	r2, r2, lr
	and.w	r12, r2, r0
	ldr	r0, [sp, #76]                   @ 4-byte Reload
	and.w	r9, r2, r0
	ldr	r0, [sp, #48]                   @ 4-byte Reload
	ldr	r2, [sp, #108]                  @ 4-byte Reload
	and.w	r10, r3, r0
	ldr	r0, [sp, #52]                   @ 4-byte Reload
	ands	r3, r0
	ldr	r0, [sp, #64]                   @ 4-byte Reload
	ands	r0, r1
	ands	r1, r2
	ldr	r2, [sp, #40]                   @ 4-byte Reload
	eors	r5, r0
	eors	r0, r4
	eor.w	r4, r8, r2
	eors	r3, r0
	ldr	r2, [sp, #44]                   @ 4-byte Reload
	eor.w	r8, r8, r3
	eor.w	r3, r12, r6
	eor.w	r2, r2, r8
	eor.w	r12, r3, r7
	eors	r3, r2
	eor.w	r2, r4, r9
	eors	r5, r4
	ldr	r4, [sp, #68]                   @ 4-byte Reload
	eor.w	r7, r12, r1
	and.w	r4, r4, lr
	eors	r0, r4
	eor.w	r0, r0, r11
	eors	r0, r2
	eor.w	r1, r0, r10
	eor.w	r10, r3, r0
	ldr	r0, [sp, #100]                  @ 4-byte Reload
	str	r7, [sp, #84]                   @ 4-byte Spill
	eor.w	r4, r2, r0
	eor.w	r0, r3, r11
	ldr	r2, [sp, #92]                   @ 4-byte Reload
	ldr	r3, [sp, #88]                   @ 4-byte Reload
	eors	r5, r7
	eor.w	r2, r2, r12
	and.w	r7, lr, r3
	eor.w	r12, r2, r1
	eor.w	r2, r7, r6
	eors	r2, r4
	eor.w	r3, r2, r1
	mov.w	r1, #1061109567
	mov.w	r6, #-1061109568
	and.w	r2, r1, r0, ror #10
	and.w	r7, r6, r0, ror #2
	eor.w	r11, r5, r8
	add.w	r8, r2, r7
	and.w	r2, r1, r10, ror #10
	and.w	r7, r6, r10, ror #2
	add.w	lr, r2, r7
	and.w	r2, r1, r12, ror #10
	and.w	r7, r6, r12, ror #2
	add.w	r9, r2, r7
	and.w	r2, r1, r11, ror #10
	and.w	r7, r6, r11, ror #2
	add	r2, r7
	str	r2, [sp, #100]                  @ 4-byte Spill
	and.w	r2, r1, r5, ror #10
	and.w	r7, r6, r5, ror #2
	add	r2, r7
	str	r2, [sp, #92]                   @ 4-byte Spill
	and.w	r2, r1, r3, ror #10
	and.w	r7, r6, r3, ror #2
	add	r2, r7
	str	r2, [sp, #96]                   @ 4-byte Spill
	ldr	r2, [sp, #84]                   @ 4-byte Reload
	str	r3, [sp, #108]                  @ 4-byte Spill
	eors	r2, r4
	eors	r4, r5
	and.w	r7, r1, r4, ror #10
	and.w	r3, r6, r4, ror #2
	add	r3, r7
	str	r3, [sp, #44]                   @ 4-byte Spill
	and.w	r1, r1, r2, ror #10
	and.w	r3, r6, r2, ror #2
	add	r1, r3
	str	r1, [sp, #48]                   @ 4-byte Spill
	eor.w	r1, r8, r0
	mov.w	r3, #252645135
	mov.w	r6, #-252645136
	str	r1, [sp, #72]                   @ 4-byte Spill
	and.w	r0, r3, r1, ror #20
	and.w	r1, r6, r1, ror #12
	str.w	r8, [sp, #76]                   @ 4-byte Spill
	add	r0, r1
	eor.w	r8, lr, r10
	str	r0, [sp, #52]                   @ 4-byte Spill
	and.w	r0, r3, r8, ror #20
	and.w	r1, r6, r8, ror #12
	add.w	r10, r0, r1
	eor.w	r1, r9, r12
	str	r1, [sp, #84]                   @ 4-byte Spill
	and.w	r0, r3, r1, ror #20
	and.w	r1, r6, r1, ror #12
	add	r0, r1
	str	r0, [sp, #56]                   @ 4-byte Spill
	ldr	r0, [sp, #100]                  @ 4-byte Reload
	str.w	lr, [sp, #60]                   @ 4-byte Spill
	eor.w	lr, r0, r11
	and.w	r0, r3, lr, ror #20
	and.w	r1, r6, lr, ror #12
	add	r0, r1
	str	r0, [sp, #88]                   @ 4-byte Spill
	ldr	r0, [sp, #92]                   @ 4-byte Reload
	ldr.w	r11, [sp, #44]                  @ 4-byte Reload
	eors	r5, r0
	and.w	r0, r3, r5, ror #20
	and.w	r1, r6, r5, ror #12
	add	r0, r1
	str	r0, [sp, #40]                   @ 4-byte Spill
	ldr	r0, [sp, #96]                   @ 4-byte Reload
	ldr	r1, [sp, #108]                  @ 4-byte Reload
	str.w	r9, [sp, #64]                   @ 4-byte Spill
	eor.w	r12, r0, r1
	and.w	r1, r3, r12, ror #20
	and.w	r7, r6, r12, ror #12
	ldr.w	r9, [sp, #48]                   @ 4-byte Reload
	adds	r0, r1, r7
	eor.w	r1, r11, r4
	and.w	r4, r3, r1, ror #20
	and.w	r7, r6, r1, ror #12
	eor.w	r2, r2, r9
	str	r0, [sp, #68]                   @ 4-byte Spill
	adds	r0, r4, r7
	and.w	r4, r3, r2, ror #20
	and.w	r7, r6, r2, ror #12
	ldr	r3, [sp, #28]                   @ 4-byte Reload
	ldr	r6, [sp, #104]                  @ 4-byte Reload
	str	r0, [sp, #36]                   @ 4-byte Spill
	add.w	r0, r3, r6, lsl #7
	add	r4, r7
	ldr	r3, [r0, #32]
	str	r4, [sp, #32]                   @ 4-byte Spill
	ldr	r4, [sp, #52]                   @ 4-byte Reload
	ldr	r7, [r0, #36]
	eors	r3, r4
	ldr	r4, [sp, #76]                   @ 4-byte Reload
	eor.w	r7, r7, r10
	eors	r3, r4
	str	r3, [sp, #76]                   @ 4-byte Spill
	ldr	r3, [sp, #60]                   @ 4-byte Reload
	ldr.w	r10, [r0, #40]
	eors	r7, r3
	ldr	r3, [sp, #72]                   @ 4-byte Reload
	str	r0, [sp, #108]                  @ 4-byte Spill
	eor.w	r4, r7, r3
	ldr	r3, [sp, #56]                   @ 4-byte Reload
	ldr	r7, [r0, #48]
	eor.w	r6, r10, r3
	ldr	r3, [sp, #64]                   @ 4-byte Reload
	eors	r6, r3
	ldr	r3, [sp, #40]                   @ 4-byte Reload
	eor.w	r10, r6, r8
	eors	r7, r3
	ldr	r3, [sp, #92]                   @ 4-byte Reload
	ldr	r6, [r0, #56]
	eors	r7, r3
	ldr	r3, [sp, #36]                   @ 4-byte Reload
	eors	r7, r2
	eor.w	r8, r7, lr
	eor.w	r7, r6, r3
	eor.w	r7, r7, r11
	ldr	r6, [r0, #60]
	eor.w	r3, r7, r12
	ldr	r7, [sp, #32]                   @ 4-byte Reload
	eor.w	lr, r4, r2
	eors	r7, r6
	eor.w	r7, r7, r9
	ldr	r6, [r0, #52]
	eors	r7, r1
	ldr	r1, [sp, #68]                   @ 4-byte Reload
	eor.w	r4, lr, r7
	eors	r1, r6
	ldr	r6, [sp, #96]                   @ 4-byte Reload
	eor.w	r9, r8, r7
	eors	r1, r6
	eors	r1, r5
	ldr	r5, [r0, #44]
	ldr	r0, [sp, #76]                   @ 4-byte Reload
	eor.w	r11, r1, r3
	eor.w	r6, r0, r2
	ldr	r0, [sp, #88]                   @ 4-byte Reload
	str	r4, [sp, #36]                   @ 4-byte Spill
	eor.w	r1, r5, r0
	ldr	r0, [sp, #84]                   @ 4-byte Reload
	str.w	r9, [sp, #88]                   @ 4-byte Spill
	eors	r1, r0
	ldr	r0, [sp, #100]                  @ 4-byte Reload
	eors	r1, r2
	eor.w	r2, r8, r10
	eors	r1, r0
	eor.w	r0, r4, r2
	eors	r1, r0
	eor.w	r5, r1, r3
	eor.w	r12, r1, r10
	str	r0, [sp, #100]                  @ 4-byte Spill
	eor.w	r0, r5, r9
	eor.w	r3, r12, r11
	mov	r4, r2
	str	r0, [sp, #96]                   @ 4-byte Spill
	and.w	r9, r9, r0
	eors	r0, r3
	str	r2, [sp, #76]                   @ 4-byte Spill
	eor.w	r2, r7, r10
	and.w	r1, r0, r4
	str.w	r8, [sp, #56]                   @ 4-byte Spill
	eor.w	r8, r1, r9
	and.w	r1, r3, r2
	eor.w	r10, r1, r9
	eor.w	r9, r11, r6
	mov	r4, r3
	str	r3, [sp, #72]                   @ 4-byte Spill
	eor.w	r3, r9, lr
	str	r0, [sp, #84]                   @ 4-byte Spill
	eor.w	r1, r12, r6
	eor.w	r0, r3, r2
	mov	lr, r6
	str	r0, [sp, #64]                   @ 4-byte Spill
	and.w	r6, r1, r0
	ldr	r0, [sp, #56]                   @ 4-byte Reload
	eors	r5, r6
	eor.w	r0, r0, r9
	str	r0, [sp, #56]                   @ 4-byte Spill
	and.w	r6, r0, lr
	ldr	r0, [sp, #100]                  @ 4-byte Reload
	eors	r6, r2
	str	r1, [sp, #60]                   @ 4-byte Spill
	eor.w	r1, r6, r4
	and.w	r6, r12, r0
	eor.w	r4, r1, r6
	ldr	r1, [sp, #96]                   @ 4-byte Reload
	eors	r6, r5
	eor.w	r5, r1, r11
	ldr.w	r11, [sp, #36]                  @ 4-byte Reload
	str	r2, [sp, #92]                   @ 4-byte Spill
	eor.w	r2, r6, r8
	and.w	r6, r3, r9
	eors	r6, r5
	and.w	r0, r5, r11
	eors	r6, r0
	eor.w	r6, r6, r11
	str.w	r12, [sp, #68]                  @ 4-byte Spill
	str	r3, [sp, #40]                   @ 4-byte Spill
	eor.w	r12, r6, r8
	eor.w	r6, r9, r7
	eor.w	r3, r1, lr
	and.w	r8, r3, r6
	str	r6, [sp, #48]                   @ 4-byte Spill
	eor.w	r6, r5, r8
	eors	r0, r6
	eors	r0, r7
	str	r3, [sp, #52]                   @ 4-byte Spill
	eor.w	r7, r4, r10
	eor.w	r3, r0, r10
	and.w	r0, r12, r2
	eor.w	r6, r0, r7
	eor.w	r4, r3, r12
	ands	r6, r4
	eors	r2, r7
	eor.w	r4, r0, r3
	and.w	r1, r4, r2
	eors	r7, r1
	eor.w	r1, r6, r0
	ands	r1, r3
	eor.w	r0, r6, r3
	eor.w	r3, r1, r4
	ands	r3, r7
	eors	r2, r3
	eor.w	r12, r12, r1
	eor.w	r1, r2, r7
	ands	r5, r1
	and.w	r1, r1, r11
	str	r1, [sp, #36]                   @ 4-byte Spill
	ldr	r1, [sp, #40]                   @ 4-byte Reload
	eor.w	r3, r12, r0
	ands	r1, r2
	str	r1, [sp, #40]                   @ 4-byte Spill
	ldr	r1, [sp, #60]                   @ 4-byte Reload
	str.w	lr, [sp, #44]                   @ 4-byte Spill
	and.w	lr, r3, r1
	ldr	r1, [sp, #64]                   @ 4-byte Reload
	and.w	r6, r2, r9
	and.w	r11, r3, r1
	ldr	r1, [sp, #56]                   @ 4-byte Reload
	eors	r2, r3
	ands	r1, r0
	str	r1, [sp, #64]                   @ 4-byte Spill
	ldr	r1, [sp, #44]                   @ 4-byte Reload
	eor.w	r9, r7, r0
	and.w	r3, r0, r1
	ldr	r0, [sp, #96]                   @ 4-byte Reload
	ldr	r4, [sp, #100]                  @ 4-byte Reload
	and.w	r0, r0, r9
	str	r0, [sp, #96]                   @ 4-byte Spill
	ldr	r0, [sp, #88]                   @ 4-byte Reload
	and.w	r10, r9, r0
	ldr	r0, [sp, #76]                   @ 4-byte Reload
	eor.w	r9, r9, r2
	and.w	r1, r9, r0
	ldr	r0, [sp, #84]                   @ 4-byte Reload
	eor.w	r1, r1, r10
	and.w	r9, r9, r0
	ldr	r0, [sp, #48]                   @ 4-byte Reload
	eor.w	r11, r11, r1
	and.w	r8, r7, r0
	ldr	r0, [sp, #52]                   @ 4-byte Reload
	ands	r7, r0
	ldr	r0, [sp, #68]                   @ 4-byte Reload
	and.w	r0, r0, r12
	eor.w	lr, lr, r0
	eors	r0, r3
	and.w	r12, r12, r4
	eor.w	r3, r5, r6
	eor.w	r6, r0, r7
	ldr	r4, [sp, #40]                   @ 4-byte Reload
	ldr	r7, [sp, #72]                   @ 4-byte Reload
	eors	r5, r6
	eor.w	r6, r5, r4
	and.w	r4, r2, r7
	eors	r0, r4
	ldr	r4, [sp, #36]                   @ 4-byte Reload
	eors	r1, r6
	eor.w	r6, r3, r9
	eors	r0, r4
	ldr	r7, [sp, #96]                   @ 4-byte Reload
	eors	r0, r6
	eor.w	r3, r3, lr
	eor.w	lr, r6, r7
	eor.w	r7, r0, r8
	eor.w	r9, r1, r0
	ldr	r0, [sp, #64]                   @ 4-byte Reload
	eors	r1, r4
	eor.w	r4, r11, r0
	ldr	r0, [sp, #92]                   @ 4-byte Reload
	eor.w	r12, r12, r11
	ands	r2, r0
	eor.w	r2, r2, r10
	eor.w	r2, r2, lr
	eor.w	r3, r3, r12
	eor.w	r6, r2, r7
	mov.w	r0, #252645135
	mov.w	r2, #-252645136
	eor.w	r11, r3, r5
	eor.w	r8, r4, r7
	and.w	r5, r0, r1, ror #12
	and.w	r7, r2, r1, ror #4
	add.w	r10, r5, r7
	and.w	r7, r0, r9, ror #12
	and.w	r5, r2, r9, ror #4
	adds	r4, r7, r5
	and.w	r5, r0, r8, ror #12
	and.w	r7, r2, r8, ror #4
	str	r4, [sp, #76]                   @ 4-byte Spill
	adds	r4, r5, r7
	and.w	r5, r0, r11, ror #12
	and.w	r7, r2, r11, ror #4
	str	r4, [sp, #84]                   @ 4-byte Spill
	adds	r4, r5, r7
	str	r4, [sp, #92]                   @ 4-byte Spill
	and.w	r5, r0, r3, ror #12
	and.w	r7, r2, r3, ror #4
	mov.w	r4, #-252645136
	str.w	r11, [sp, #100]                 @ 4-byte Spill
	add.w	r11, r5, r7
	and.w	r7, r0, r6, ror #12
	and.w	r5, r4, r6, ror #4
	adds	r2, r7, r5
	eor.w	r7, r12, lr
	eor.w	r12, r3, lr
	str	r2, [sp, #88]                   @ 4-byte Spill
	and.w	r5, r0, r12, ror #12
	and.w	r2, r4, r12, ror #4
	add.w	lr, r5, r2
	and.w	r2, r0, r7, ror #12
	ldr	r0, [sp, #108]                  @ 4-byte Reload
	and.w	r5, r4, r7, ror #4
	add	r5, r2
	ldr	r2, [r0, #64]
	eor.w	r1, r1, r10
	eor.w	r2, r2, r1, ror #16
	eor.w	r2, r2, r10
	ldr	r4, [sp, #76]                   @ 4-byte Reload
	str	r2, [sp, #72]                   @ 4-byte Spill
	ldr	r2, [r0, #68]
	str	r6, [sp, #96]                   @ 4-byte Spill
	eor.w	r6, r4, r9
	eor.w	r2, r2, r6, ror #16
	eors	r2, r4
	eor.w	r10, r2, r1
	ldr	r2, [sp, #84]                   @ 4-byte Reload
	ldr	r1, [r0, #72]
	eor.w	r4, r2, r8
	eor.w	r1, r1, r4, ror #16
	eors	r1, r2
	ldr	r2, [r0, #80]
	eor.w	r9, r11, r3
	ldr	r3, [r0, #88]
	eor.w	r2, r2, r9, ror #16
	eor.w	r12, r12, lr
	eor.w	r8, r2, r11
	eor.w	r3, r3, r12, ror #16
	ldr	r2, [r0, #92]
	eor.w	lr, lr, r3
	eor.w	r3, r5, r7
	eor.w	r2, r2, r3, ror #16
	eors	r1, r6
	mov	r6, r0
	eors	r2, r5
	ldr	r7, [sp, #88]                   @ 4-byte Reload
	ldr	r0, [sp, #96]                   @ 4-byte Reload
	eor.w	r11, r2, r12
	ldr	r2, [r6, #84]
	eors	r0, r7
	eor.w	lr, lr, r0
	eor.w	r0, r2, r0, ror #16
	eors	r0, r7
	ldr	r5, [sp, #92]                   @ 4-byte Reload
	ldr	r2, [sp, #100]                  @ 4-byte Reload
	ldr	r7, [sp, #72]                   @ 4-byte Reload
	eor.w	r0, r0, r9
	ldr.w	r9, [r6, #76]
	eors	r2, r5
	eors	r7, r3
	str	r7, [sp, #96]                   @ 4-byte Spill
	eor.w	r6, r10, r3
	eor.w	r7, r8, r3
	eor.w	r10, r0, lr
	eor.w	r0, r9, r2, ror #16
	eor.w	r8, r7, r2
	eors	r0, r4
	eor.w	r2, r6, r11
	eors	r0, r3
	eor.w	r9, r8, r1
	str	r2, [sp, #44]                   @ 4-byte Spill
	eors	r0, r5
	eor.w	r2, r2, r9
	eors	r0, r2
	eor.w	r12, r8, r11
	eor.w	r5, r0, lr
	eor.w	r4, r0, r1
	eor.w	r3, r11, r1
	eor.w	r0, r5, r12
	strd	r12, r3, [sp, #88]              @ 8-byte Folded Spill
	and.w	lr, r0, r12
	eor.w	r12, r4, r10
	str	r0, [sp, #36]                   @ 4-byte Spill
	eor.w	r0, r0, r12
	and.w	r1, r0, r9
	ldr	r7, [sp, #96]                   @ 4-byte Reload
	str.w	r9, [sp, #76]                   @ 4-byte Spill
	eor.w	r9, r1, lr
	and.w	r1, r12, r3
	str	r0, [sp, #84]                   @ 4-byte Spill
	eor.w	r0, r1, lr
	eor.w	lr, r10, r7
	str	r2, [sp, #100]                  @ 4-byte Spill
	eor.w	r2, lr, r6
	str	r0, [sp, #40]                   @ 4-byte Spill
	eor.w	r1, r4, r7
	eor.w	r0, r2, r3
	str	r0, [sp, #64]                   @ 4-byte Spill
	and.w	r6, r1, r0
	eor.w	r0, lr, r8
	eors	r5, r6
	str	r0, [sp, #56]                   @ 4-byte Spill
	mov	r6, r7
	ands	r7, r0
	ldr	r0, [sp, #100]                  @ 4-byte Reload
	eors	r7, r3
	ldr	r3, [sp, #36]                   @ 4-byte Reload
	eor.w	r7, r7, r12
	ands	r0, r4
	str.w	r12, [sp, #72]                  @ 4-byte Spill
	eor.w	r12, r7, r0
	eors	r0, r5
	eor.w	r5, r3, r10
	ldr.w	r10, [sp, #44]                  @ 4-byte Reload
	and.w	r7, r2, lr
	eor.w	r8, r0, r9
	eors	r7, r5
	and.w	r0, r5, r10
	eors	r7, r0
	eor.w	r7, r7, r10
	str	r4, [sp, #68]                   @ 4-byte Spill
	str	r1, [sp, #60]                   @ 4-byte Spill
	mov	r1, r2
	eor.w	r2, r7, r9
	eor.w	r4, lr, r11
	eor.w	r7, r3, r6
	and.w	r6, r7, r4
	eors	r6, r5
	mov	r9, r3
	eors	r0, r6
	ldr	r3, [sp, #40]                   @ 4-byte Reload
	eor.w	r0, r0, r11
	str	r4, [sp, #48]                   @ 4-byte Spill
	eor.w	r4, r12, r3
	eor.w	r6, r0, r3
	and.w	r0, r2, r8
	str	r7, [sp, #52]                   @ 4-byte Spill
	eor.w	r12, r0, r4
	eor.w	r7, r6, r2
	and.w	r7, r7, r12
	eor.w	r12, r8, r4
	eor.w	r8, r0, r6
	and.w	r3, r8, r12
	eor.w	r11, r3, r4
	eor.w	r3, r7, r0
	ands	r3, r6
	eor.w	r4, r3, r8
	and.w	r4, r4, r11
	eor.w	r0, r7, r6
	eor.w	r7, r4, r12
	eors	r2, r3
	eor.w	r3, r7, r11
	ands	r5, r3
	and.w	r8, r3, r10
	and.w	r3, r7, lr
	str	r3, [sp, #40]                   @ 4-byte Spill
	ldr	r3, [sp, #60]                   @ 4-byte Reload
	ands	r1, r7
	eor.w	r6, r2, r0
	str	r1, [sp, #44]                   @ 4-byte Spill
	eor.w	r1, r7, r6
	and.w	r7, r6, r3
	ldr	r3, [sp, #64]                   @ 4-byte Reload
	ldr	r4, [sp, #84]                   @ 4-byte Reload
	and.w	lr, r6, r3
	ldr	r3, [sp, #56]                   @ 4-byte Reload
	ldr	r6, [sp, #88]                   @ 4-byte Reload
	ands	r3, r0
	str	r3, [sp, #64]                   @ 4-byte Spill
	ldr	r3, [sp, #96]                   @ 4-byte Reload
	ands	r3, r0
	eor.w	r0, r0, r11
	and.w	r10, r0, r6
	ldr	r6, [sp, #76]                   @ 4-byte Reload
	and.w	r9, r9, r0
	eors	r0, r1
	ands	r6, r0
	and.w	r12, r0, r4
	ldr	r0, [sp, #48]                   @ 4-byte Reload
	ldr	r4, [sp, #100]                  @ 4-byte Reload
	and.w	r0, r0, r11
	str	r0, [sp, #96]                   @ 4-byte Spill
	ldr	r0, [sp, #52]                   @ 4-byte Reload
	and.w	r11, r11, r0
	ldr	r0, [sp, #68]                   @ 4-byte Reload
	ands	r0, r2
	ands	r2, r4
	str	r2, [sp, #88]                   @ 4-byte Spill
	eor.w	r2, r7, r0
	eors	r0, r3
	ldr	r3, [sp, #40]                   @ 4-byte Reload
	eor.w	r7, r5, r3
	eors	r2, r7
	eor.w	r3, r0, r11
	str	r2, [sp, #100]                  @ 4-byte Spill
	ldr	r2, [sp, #72]                   @ 4-byte Reload
	eor.w	r4, r3, r5
	eor.w	r5, r6, r10
	ldr	r6, [sp, #44]                   @ 4-byte Reload
	ands	r2, r1
	eors	r6, r4
	eors	r0, r2
	eor.w	r3, r5, lr
	eors	r6, r5
	eor.w	r5, r7, r12
	eor.w	r0, r0, r8
	eors	r0, r5
	eor.w	r7, r5, r9
	ldr	r5, [sp, #96]                   @ 4-byte Reload
	mov	r2, r8
	eors	r5, r0
	eor.w	r8, r6, r0
	ldr	r0, [sp, #88]                   @ 4-byte Reload
	eor.w	r9, r6, r2
	eor.w	r11, r3, r0
	ldr	r0, [sp, #64]                   @ 4-byte Reload
	mov.w	r6, #50529027
	eors	r3, r0
	ldr	r0, [sp, #92]                   @ 4-byte Reload
	eor.w	lr, r3, r5
	ands	r1, r0
	eor.w	r1, r1, r10
	eors	r1, r7
	eor.w	r0, r1, r5
	str	r0, [sp, #84]                   @ 4-byte Spill
	mov.w	r0, #-50529028
	and.w	r1, r6, r9, ror #14
	and.w	r3, r0, r9, ror #6
	add.w	r12, r1, r3
	and.w	r1, r6, r8, ror #14
	and.w	r3, r0, r8, ror #6
	add	r1, r3
	str	r1, [sp, #92]                   @ 4-byte Spill
	and.w	r1, r6, lr, ror #14
	and.w	r3, r0, lr, ror #6
	add	r1, r3
	str	r1, [sp, #96]                   @ 4-byte Spill
	ldr	r1, [sp, #100]                  @ 4-byte Reload
	str.w	r12, [sp, #64]                  @ 4-byte Spill
	eor.w	r5, r1, r11
	eor.w	r1, r5, r4
	and.w	r3, r6, r1, ror #14
	and.w	r2, r0, r1, ror #6
	add.w	r10, r3, r2
	and.w	r2, r6, r5, ror #14
	and.w	r3, r0, r5, ror #6
	add	r2, r3
	ldr	r3, [sp, #84]                   @ 4-byte Reload
	str	r2, [sp, #88]                   @ 4-byte Spill
	and.w	r2, r6, r3, ror #14
	and.w	r3, r0, r3, ror #6
	add	r2, r3
	eor.w	r3, r11, r7
	eors	r7, r5
	str	r2, [sp, #100]                  @ 4-byte Spill
	and.w	r2, r6, r7, ror #14
	and.w	r4, r0, r7, ror #6
	add	r2, r4
	str	r2, [sp, #40]                   @ 4-byte Spill
	and.w	r2, r6, r3, ror #14
	and.w	r0, r0, r3, ror #6
	add	r0, r2
	str	r0, [sp, #48]                   @ 4-byte Spill
	eor.w	r11, r12, r9
	mov.w	r0, #252645135
	mov.w	r9, #-252645136
	and.w	r4, r0, r11, ror #20
	and.w	r2, r9, r11, ror #12
	add	r2, r4
	str	r2, [sp, #56]                   @ 4-byte Spill
	ldr	r2, [sp, #92]                   @ 4-byte Reload
	eor.w	r1, r1, r10
	eor.w	r2, r2, r8
	and.w	r4, r0, r2, ror #20
	and.w	r6, r9, r2, ror #12
	add	r6, r4
	str	r6, [sp, #52]                   @ 4-byte Spill
	ldr	r6, [sp, #96]                   @ 4-byte Reload
	str.w	r10, [sp, #76]                  @ 4-byte Spill
	eor.w	r6, r6, lr
	and.w	r12, r0, r6, ror #20
	and.w	r4, r9, r6, ror #12
	str	r6, [sp, #68]                   @ 4-byte Spill
	add.w	r6, r12, r4
	str	r6, [sp, #60]                   @ 4-byte Spill
	and.w	r6, r0, r1, ror #20
	and.w	r4, r9, r1, ror #12
	add	r6, r4
	str	r6, [sp, #72]                   @ 4-byte Spill
	ldr	r6, [sp, #88]                   @ 4-byte Reload
	ldr.w	r10, [sp, #40]                  @ 4-byte Reload
	eor.w	r4, r6, r5
	and.w	r6, r0, r4, ror #20
	and.w	r5, r9, r4, ror #12
	add	r6, r5
	str	r6, [sp, #44]                   @ 4-byte Spill
	ldr	r6, [sp, #100]                  @ 4-byte Reload
	ldr	r5, [sp, #84]                   @ 4-byte Reload
	mov.w	r8, #-252645136
	eors	r5, r6
	and.w	r12, r0, r5, ror #20
	and.w	r6, r9, r5, ror #12
	add	r6, r12
	eor.w	r12, r10, r7
	str	r6, [sp, #84]                   @ 4-byte Spill
	and.w	r6, r9, r12, ror #12
	ldr.w	r9, [sp, #48]                   @ 4-byte Reload
	and.w	r7, r0, r12, ror #20
	eor.w	r3, r3, r9
	add	r7, r6
	and.w	lr, r0, r3, ror #20
	and.w	r6, r8, r3, ror #12
	ldr	r0, [sp, #108]                  @ 4-byte Reload
	str	r7, [sp, #36]                   @ 4-byte Spill
	add.w	r7, lr, r6
	ldr.w	r8, [r0, #96]
	str	r7, [sp, #32]                   @ 4-byte Spill
	ldr	r7, [sp, #56]                   @ 4-byte Reload
	eor.w	r6, r8, r7
	ldr	r7, [sp, #64]                   @ 4-byte Reload
	ldr.w	r8, [r0, #100]
	eors	r7, r6
	str	r7, [sp, #64]                   @ 4-byte Spill
	ldr	r7, [sp, #52]                   @ 4-byte Reload
	ldr	r6, [sp, #92]                   @ 4-byte Reload
	eor.w	r7, r7, r8
	eors	r7, r6
	ldr.w	r8, [r0, #104]
	ldr	r6, [sp, #60]                   @ 4-byte Reload
	eor.w	lr, r7, r11
	eor.w	r7, r8, r6
	ldr	r6, [sp, #96]                   @ 4-byte Reload
	ldr.w	r8, [r0, #112]
	eors	r7, r6
	ldr	r6, [sp, #44]                   @ 4-byte Reload
	eors	r2, r7
	eor.w	r7, r8, r6
	ldr	r6, [sp, #88]                   @ 4-byte Reload
	ldr.w	r11, [r0, #120]
	eors	r7, r6
	eors	r7, r3
	eor.w	r8, r7, r1
	ldr	r1, [sp, #36]                   @ 4-byte Reload
	ldr	r7, [r0, #124]
	eor.w	r1, r1, r11
	eor.w	r1, r1, r10
	eors	r5, r1
	ldr	r1, [sp, #32]                   @ 4-byte Reload
	eor.w	r11, lr, r3
	eors	r1, r7
	eor.w	r1, r1, r9
	ldr	r7, [r0, #116]
	ldr.w	r9, [r0, #108]
	ldr	r0, [sp, #64]                   @ 4-byte Reload
	eor.w	r10, r1, r12
	ldr	r1, [sp, #84]                   @ 4-byte Reload
	eors	r0, r3
	str	r0, [sp, #92]                   @ 4-byte Spill
	ldr	r0, [sp, #100]                  @ 4-byte Reload
	eors	r7, r1
	eors	r0, r7
	eors	r0, r4
	eor.w	r12, r0, r5
	ldr	r0, [sp, #72]                   @ 4-byte Reload
	ldr	r1, [sp, #68]                   @ 4-byte Reload
	eor.w	r0, r0, r9
	eors	r0, r1
	ldr	r1, [sp, #76]                   @ 4-byte Reload
	eor.w	r6, r11, r10
	eor.w	r9, r8, r2
	eors	r0, r3
	str	r6, [sp, #40]                   @ 4-byte Spill
	eor.w	r6, r6, r9
	eors	r0, r1
	eors	r0, r6
	eor.w	r4, r8, r10
	eor.w	lr, r0, r2
	eors	r5, r0
	str	r6, [sp, #100]                  @ 4-byte Spill
	eor.w	r6, r10, r2
	eor.w	r1, r5, r4
	eor.w	r3, lr, r12
	strd	r4, r6, [sp, #84]               @ 8-byte Folded Spill
	and.w	r0, r1, r4
	eor.w	r2, r1, r3
	ldr	r4, [sp, #92]                   @ 4-byte Reload
	str	r2, [sp, #76]                   @ 4-byte Spill
	and.w	r2, r2, r9
	str.w	r9, [sp, #72]                   @ 4-byte Spill
	str.w	r12, [sp, #48]                  @ 4-byte Spill
	eor.w	r9, r2, r0
	and.w	r2, r3, r6
	eor.w	r12, r12, r4
	eors	r0, r2
	eor.w	r2, r12, r11
	str	r1, [sp, #96]                   @ 4-byte Spill
	str	r0, [sp, #36]                   @ 4-byte Spill
	eor.w	r1, lr, r4
	eor.w	r0, r2, r6
	mov	r11, r4
	str	r0, [sp, #60]                   @ 4-byte Spill
	and.w	r4, r1, r0
	eor.w	r0, r12, r8
	eors	r4, r5
	str	r0, [sp, #52]                   @ 4-byte Spill
	and.w	r5, r0, r11
	ldr	r0, [sp, #100]                  @ 4-byte Reload
	eors	r5, r6
	str	r1, [sp, #56]                   @ 4-byte Spill
	eor.w	r8, r5, r3
	and.w	r5, lr, r0
	ldr	r0, [sp, #96]                   @ 4-byte Reload
	ldr	r1, [sp, #48]                   @ 4-byte Reload
	eor.w	r6, r8, r5
	ldr.w	r8, [sp, #40]                   @ 4-byte Reload
	eors	r4, r5
	eor.w	r5, r0, r1
	and.w	r7, r2, r12
	str.w	lr, [sp, #64]                   @ 4-byte Spill
	eor.w	lr, r4, r9
	eors	r7, r5
	and.w	r4, r5, r8
	eors	r7, r4
	str	r3, [sp, #68]                   @ 4-byte Spill
	eor.w	r7, r7, r8
	eor.w	r3, r12, r10
	eor.w	r0, r0, r11
	eor.w	r9, r9, r7
	and.w	r7, r0, r3
	eors	r7, r5
	str	r0, [sp, #48]                   @ 4-byte Spill
	eors	r4, r7
	ldr	r0, [sp, #36]                   @ 4-byte Reload
	eor.w	r1, r4, r10
	eor.w	r7, r6, r0
	eor.w	r4, r1, r0
	and.w	r0, r9, lr
	eor.w	r1, r0, r7
	eor.w	r6, r4, r9
	ands	r6, r1
	eor.w	lr, lr, r7
	eor.w	r1, r0, r4
	and.w	r11, r1, lr
	eor.w	r7, r7, r11
	eor.w	r11, r6, r0
	eor.w	r0, r6, r4
	and.w	r4, r4, r11
	eors	r1, r4
	ands	r1, r7
	eor.w	r1, r1, lr
	eor.w	r6, r1, r7
	str	r3, [sp, #44]                   @ 4-byte Spill
	eor.w	r3, r4, r9
	and.w	r10, r6, r5
	and.w	r6, r6, r8
	str	r6, [sp, #40]                   @ 4-byte Spill
	eor.w	r6, r3, r0
	and.w	r11, r1, r12
	ands	r2, r1
	eor.w	r4, r1, r6
	ldr	r1, [sp, #56]                   @ 4-byte Reload
	str	r2, [sp, #36]                   @ 4-byte Spill
	and.w	lr, r6, r1
	ldr	r1, [sp, #60]                   @ 4-byte Reload
	ldr	r2, [sp, #76]                   @ 4-byte Reload
	and.w	r9, r6, r1
	ldr	r1, [sp, #52]                   @ 4-byte Reload
	ldr	r5, [sp, #100]                  @ 4-byte Reload
	and.w	r12, r0, r1
	ldr	r1, [sp, #92]                   @ 4-byte Reload
	and.w	r6, r0, r1
	ldr	r1, [sp, #96]                   @ 4-byte Reload
	eors	r0, r7
	ands	r1, r0
	str	r1, [sp, #96]                   @ 4-byte Spill
	ldr	r1, [sp, #84]                   @ 4-byte Reload
	and.w	r8, r0, r1
	ldr	r1, [sp, #72]                   @ 4-byte Reload
	eors	r0, r4
	ands	r1, r0
	ands	r2, r0
	ldr	r0, [sp, #44]                   @ 4-byte Reload
	eor.w	r1, r1, r8
	ands	r0, r7
	str	r0, [sp, #92]                   @ 4-byte Spill
	ldr	r0, [sp, #48]                   @ 4-byte Reload
	ands	r7, r0
	ldr	r0, [sp, #64]                   @ 4-byte Reload
	ands	r0, r3
	ands	r3, r5
	eor.w	lr, lr, r0
	eors	r0, r6
	str	r3, [sp, #100]                  @ 4-byte Spill
	eors	r7, r0
	ldr	r3, [sp, #36]                   @ 4-byte Reload
	eor.w	r5, r7, r10
	eors	r3, r5
	eor.w	r7, r1, r9
	eors	r1, r3
	ldr	r3, [sp, #68]                   @ 4-byte Reload
	eor.w	r6, r10, r11
	eors	r2, r6
	eor.w	lr, lr, r6
	and.w	r6, r4, r3
	ldr	r3, [sp, #40]                   @ 4-byte Reload
	eors	r0, r6
	ldr	r6, [sp, #96]                   @ 4-byte Reload
	eors	r0, r3
	eors	r0, r2
	eors	r6, r2
	ldr	r2, [sp, #92]                   @ 4-byte Reload
	eor.w	r11, r1, r0
	eors	r2, r0
	ldr	r0, [sp, #100]                  @ 4-byte Reload
	eor.w	r10, r1, r3
	eor.w	r3, r7, r0
	eor.w	r1, lr, r3
	eor.w	lr, r1, r5
	ldr	r5, [sp, #88]                   @ 4-byte Reload
	eor.w	r0, r7, r12
	ands	r4, r5
	eor.w	r5, r0, r2
	eor.w	r0, r4, r8
	eors	r0, r6
	eor.w	r8, r0, r2
	ldr	r0, [sp, #108]                  @ 4-byte Reload
	eor.w	r7, r3, r6
	ldrd	r2, r4, [r0, #128]
	eor.w	r3, r10, r10, ror #8
	eor.w	r2, r2, r3, ror #16
	eor.w	r9, r1, r6
	eor.w	r2, r2, r10, ror #8
	ldr.w	r6, [r0, #136]
	str	r2, [sp, #96]                   @ 4-byte Spill
	eor.w	r2, r5, r5, ror #8
	eor.w	r12, r11, r11, ror #8
	eor.w	r6, r6, r2, ror #16
	eor.w	r4, r4, r12, ror #16
	eor.w	r5, r6, r5, ror #8
	ldr.w	r6, [r0, #140]
	eor.w	r4, r4, r11, ror #8
	eor.w	r11, lr, lr, ror #8
	eors	r3, r4
	eor.w	r4, r5, r12
	eor.w	r5, r6, r11, ror #16
	eors	r2, r5
	ldr.w	r5, [r0, #144]
	str	r3, [sp, #92]                   @ 4-byte Spill
	eor.w	r3, r7, r7, ror #8
	eor.w	r6, r1, r1, ror #8
	eors	r2, r3
	eor.w	r5, r5, r6, ror #16
	eor.w	r2, r2, lr, ror #8
	eor.w	r1, r5, r1, ror #8
	ldr.w	r5, [r0, #148]
	str	r2, [sp, #100]                  @ 4-byte Spill
	eors	r1, r3
	eor.w	r2, r8, r8, ror #8
	eor.w	r12, r1, r11
	eor.w	r1, r5, r2, ror #16
	str	r7, [sp, #88]                   @ 4-byte Spill
	eor.w	r1, r1, r8, ror #8
	ldr.w	r7, [r0, #152]
	eor.w	r11, r1, r6
	eor.w	r6, r9, r9, ror #8
	eor.w	r7, r7, r6, ror #16
	eor.w	r7, r7, r9, ror #8
	eor.w	r9, r7, r2
	ldr.w	r7, [r0, #156]
	ldr	r0, [sp, #96]                   @ 4-byte Reload
	ldr.w	r10, [sp, #24]                  @ 4-byte Reload
	eor.w	lr, r0, r3
	ldr	r0, [sp, #92]                   @ 4-byte Reload
	ldr	r5, [sp, #80]                   @ 4-byte Reload
	eor.w	r1, r0, r3
	eor.w	r3, r7, r3, ror #16
	ldr	r7, [sp, #104]                  @ 4-byte Reload
	ldr	r0, [sp, #88]                   @ 4-byte Reload
	adds	r7, #1
	adc	r5, r5, #0
	str	r7, [sp, #104]                  @ 4-byte Spill
	subs.w	r7, r7, r10
	ldr	r7, [sp, #20]                   @ 4-byte Reload
	eor.w	r3, r3, r0, ror #8
	ldr	r2, [sp, #100]                  @ 4-byte Reload
	sbcs.w	r7, r5, r7
	eor.w	r10, r3, r6
	blo.w	.Laes_v7m_BB6_2
	b	.Laes_v7m_BB6_4
	.p2align	2
.Laes_v7m_BB6_3:
	ldr	r1, [sp, #108]                  @ 4-byte Reload
	ldrd	lr, r2, [sp, #96]               @ 8-byte Folded Reload
.Laes_v7m_BB6_4:                                @ %after.3.i
	strd	r12, lr, [sp, #92]              @ 8-byte Folded Spill
	eor.w	r0, r10, r1
	eor.w	lr, r12, r4
	str	r0, [sp, #52]                   @ 4-byte Spill
	eor.w	r0, r0, lr
	eors	r2, r0
	eor.w	r11, r11, r9
	eor.w	r6, r10, r12
	eor.w	r8, r2, r4
	eor.w	r12, r2, r9
	str	r0, [sp, #108]                  @ 4-byte Spill
	eor.w	r0, r12, r6
	eor.w	r7, r8, r11
	eor.w	r2, r0, r7
	str	r2, [sp, #84]                   @ 4-byte Spill
	and.w	r3, r2, lr
	ldr	r2, [sp, #96]                   @ 4-byte Reload
	eor.w	r4, r4, r10
	and.w	r9, r0, r6
	str.w	lr, [sp, #80]                   @ 4-byte Spill
	str	r6, [sp, #88]                   @ 4-byte Spill
	eor.w	r6, r3, r9
	and.w	r3, r7, r4
	eor.w	lr, r11, r2
	eor.w	r9, r9, r3
	eor.w	r3, lr, r1
	str	r0, [sp, #104]                  @ 4-byte Spill
	eor.w	r1, r8, r2
	eor.w	r0, r3, r4
	str	r1, [sp, #64]                   @ 4-byte Spill
	and.w	r5, r1, r0
	ldr	r1, [sp, #92]                   @ 4-byte Reload
	str	r0, [sp, #68]                   @ 4-byte Spill
	eor.w	r1, r1, lr
	eor.w	r0, r12, r5
	str	r1, [sp, #92]                   @ 4-byte Spill
	and.w	r5, r1, r2
	ldr	r1, [sp, #108]                  @ 4-byte Reload
	eors	r5, r4
	eors	r5, r7
	and.w	r1, r1, r8
	mov	r12, r2
	eor.w	r2, r5, r1
	ldr	r5, [sp, #104]                  @ 4-byte Reload
	str.w	r8, [sp, #72]                   @ 4-byte Spill
	ldr.w	r8, [sp, #52]                   @ 4-byte Reload
	str	r7, [sp, #76]                   @ 4-byte Spill
	str	r2, [sp, #48]                   @ 4-byte Spill
	eor.w	r2, r5, r11
	and.w	r7, r3, lr
	eors	r1, r0
	eors	r7, r2
	and.w	r0, r2, r8
	eors	r7, r0
	eor.w	r7, r7, r8
	str	r4, [sp, #100]                  @ 4-byte Spill
	eors	r1, r6
	mov	r11, r3
	eor.w	r4, r7, r6
	eor.w	r6, lr, r10
	eor.w	r3, r5, r12
	and.w	r7, r3, r6
	eors	r7, r2
	str	r3, [sp, #60]                   @ 4-byte Spill
	eors	r0, r7
	ldr	r3, [sp, #48]                   @ 4-byte Reload
	eor.w	r0, r0, r10
	eor.w	r7, r3, r9
	eor.w	r5, r0, r9
	and.w	r0, r4, r1
	str	r6, [sp, #56]                   @ 4-byte Spill
	eor.w	r12, r0, r7
	eor.w	r6, r5, r4
	and.w	r6, r6, r12
	eor.w	r12, r1, r7
	eor.w	r1, r0, r5
	and.w	r3, r1, r12
	eors	r7, r3
	eor.w	r3, r6, r0
	ands	r3, r5
	eors	r1, r3
	ands	r1, r7
	eor.w	r0, r6, r5
	eor.w	r6, r1, r12
	eor.w	r1, r6, r7
	and.w	r5, r1, r2
	and.w	r1, r1, r8
	str	r1, [sp, #52]                   @ 4-byte Spill
	and.w	r1, r6, lr
	eors	r4, r3
	str	r1, [sp, #44]                   @ 4-byte Spill
	and.w	r1, r6, r11
	ldr	r3, [sp, #64]                   @ 4-byte Reload
	str	r1, [sp, #48]                   @ 4-byte Spill
	eor.w	r1, r4, r0
	and.w	lr, r1, r3
	ldr	r3, [sp, #68]                   @ 4-byte Reload
	eor.w	r2, r6, r1
	and.w	r11, r1, r3
	ldr	r1, [sp, #92]                   @ 4-byte Reload
	ldr	r3, [sp, #104]                  @ 4-byte Reload
	ands	r1, r0
	str	r1, [sp, #92]                   @ 4-byte Spill
	ldr	r1, [sp, #96]                   @ 4-byte Reload
	ldr	r6, [sp, #84]                   @ 4-byte Reload
	ands	r1, r0
	eors	r0, r7
	ands	r3, r0
	str	r3, [sp, #104]                  @ 4-byte Spill
	ldr	r3, [sp, #88]                   @ 4-byte Reload
	and.w	r8, r0, r3
	ldr	r3, [sp, #80]                   @ 4-byte Reload
	eors	r0, r2
	ands	r3, r0
	and.w	r12, r0, r6
	ldr	r0, [sp, #56]                   @ 4-byte Reload
	ldr	r6, [sp, #108]                  @ 4-byte Reload
	ands	r0, r7
	str	r0, [sp, #96]                   @ 4-byte Spill
	ldr	r0, [sp, #60]                   @ 4-byte Reload
	and.w	r10, r4, r6
	ands	r7, r0
	ldr	r0, [sp, #72]                   @ 4-byte Reload
	ldr	r6, [sp, #48]                   @ 4-byte Reload
	ands	r0, r4
	eor.w	r9, lr, r0
	eors	r0, r1
	ldr	r1, [sp, #44]                   @ 4-byte Reload
	eors	r7, r0
	eor.w	r4, r7, r5
	eors	r1, r5
	eor.w	r3, r3, r8
	eor.w	r5, r4, r6
	eor.w	r7, r3, r11
	eors	r5, r3
	eor.w	r3, r1, r12
	eor.w	r12, r9, r1
	ldr	r1, [sp, #76]                   @ 4-byte Reload
	ldr	r6, [sp, #52]                   @ 4-byte Reload
	ands	r1, r2
	eors	r0, r1
	ldr	r1, [sp, #104]                  @ 4-byte Reload
	eors	r0, r6
	eor.w	lr, r3, r1
	ldr	r1, [sp, #96]                   @ 4-byte Reload
	eors	r0, r3
	eors	r1, r0
	eor.w	r3, r5, r0
	ldr	r0, [sp, #92]                   @ 4-byte Reload
	eor.w	r9, r7, r10
	eors	r0, r7
	ldr	r7, [sp, #100]                  @ 4-byte Reload
	eor.w	r10, r0, r1
	ands	r2, r7
	eor.w	r0, r2, r8
	eor.w	r0, r0, lr
	eors	r5, r6
	eor.w	r8, r0, r1
	mov.w	r6, #1061109567
	mov.w	r1, #-1061109568
	and.w	r0, r6, r5, ror #10
	and.w	r2, r1, r5, ror #2
	add	r0, r2
	str	r0, [sp, #104]                  @ 4-byte Spill
	and.w	r0, r6, r3, ror #10
	and.w	r2, r1, r3, ror #2
	add	r0, r2
	str	r0, [sp, #108]                  @ 4-byte Spill
	ldr	r0, [sp, #8]                    @ 4-byte Reload
	ldr	r2, [sp, #16]                   @ 4-byte Reload
	bic	r0, r0, #3
	str	r0, [sp, #84]                   @ 4-byte Spill
	adds	r0, #2
	str	r3, [sp, #88]                   @ 4-byte Spill
	subs	r0, r0, r2
	ldr	r3, [sp, #12]                   @ 4-byte Reload
	ldr	r7, [sp]                        @ 4-byte Reload
	eor.w	r0, r12, r9
	eor.w	r12, r0, r4
	sbcs.w	r4, r7, r3
	and.w	r4, r6, r10, ror #10
	and.w	r3, r1, r10, ror #2
	str.w	r10, [sp, #60]                  @ 4-byte Spill
	add.w	r10, r4, r3
	and.w	r3, r6, r12, ror #10
	and.w	r4, r1, r12, ror #2
	add.w	r2, r3, r4
	and.w	r3, r6, r0, ror #10
	and.w	r4, r1, r0, ror #2
	str	r2, [sp, #96]                   @ 4-byte Spill
	add.w	r2, r3, r4
	and.w	r3, r6, r8, ror #10
	and.w	r4, r1, r8, ror #2
	str.w	r8, [sp, #72]                   @ 4-byte Spill
	add.w	r8, r3, r4
	eor.w	r3, r9, lr
	eor.w	lr, lr, r0
	and.w	r4, r6, lr, ror #10
	and.w	r7, r1, lr, ror #2
	str	r2, [sp, #92]                   @ 4-byte Spill
	add.w	r2, r4, r7
	and.w	r7, r6, r3, ror #10
	and.w	r1, r1, r3, ror #2
	add.w	r11, r7, r1
	ldr	r1, [sp, #104]                  @ 4-byte Reload
	str	r2, [sp, #100]                  @ 4-byte Spill
	eor.w	r9, r1, r5
	mov.w	r2, #252645135
	mov.w	r1, #-252645136
	and.w	r7, r2, r9, ror #20
	and.w	r6, r1, r9, ror #12
	add.w	r4, r7, r6
	str	r4, [sp, #64]                   @ 4-byte Spill
	ldr	r4, [sp, #88]                   @ 4-byte Reload
	ldr	r5, [sp, #108]                  @ 4-byte Reload
	str.w	r10, [sp, #68]                  @ 4-byte Spill
	eor.w	r6, r5, r4
	and.w	r7, r2, r6, ror #20
	and.w	r5, r1, r6, ror #12
	add.w	r4, r7, r5
	str	r4, [sp, #56]                   @ 4-byte Spill
	ldr	r4, [sp, #60]                   @ 4-byte Reload
	str.w	r8, [sp, #76]                   @ 4-byte Spill
	eor.w	r7, r10, r4
	and.w	r4, r2, r7, ror #20
	and.w	r5, r1, r7, ror #12
	add	r4, r5
	str	r4, [sp, #52]                   @ 4-byte Spill
	ldr	r4, [sp, #96]                   @ 4-byte Reload
	str.w	r11, [sp, #80]                  @ 4-byte Spill
	eor.w	r10, r4, r12
	and.w	r5, r2, r10, ror #20
	and.w	r4, r1, r10, ror #12
	add	r5, r4
	str	r5, [sp, #48]                   @ 4-byte Spill
	ldr	r5, [sp, #92]                   @ 4-byte Reload
	eor.w	r5, r5, r0
	and.w	r0, r2, r5, ror #20
	and.w	r4, r1, r5, ror #12
	add	r0, r4
	str	r0, [sp, #60]                   @ 4-byte Spill
	ldr	r0, [sp, #72]                   @ 4-byte Reload
	eor.w	r12, r8, r0
	and.w	r8, r2, r12, ror #20
	and.w	r4, r1, r12, ror #12
	add.w	r0, r8, r4
	str	r0, [sp, #88]                   @ 4-byte Spill
	ldr	r0, [sp, #100]                  @ 4-byte Reload
	eor.w	r8, r0, lr
	and.w	r4, r2, r8, ror #20
	and.w	r0, r1, r8, ror #12
	add	r0, r4
	str	r0, [sp, #72]                   @ 4-byte Spill
	eor.w	r4, r11, r3
	ldr	r0, [sp, #28]                   @ 4-byte Reload
	ldr	r3, [sp, #84]                   @ 4-byte Reload
	and.w	lr, r2, r4, ror #20
	add.w	r3, r0, r3, lsl #5
	and.w	r0, r1, r4, ror #12
	add	r0, lr
	ldr	r1, [r3, #32]
	str	r0, [sp, #84]                   @ 4-byte Spill
	ldr	r0, [sp, #64]                   @ 4-byte Reload
	ldr	r2, [sp, #104]                  @ 4-byte Reload
	eor.w	r0, r0, r1
	ldr	r1, [r3, #36]
	eor.w	lr, r0, r2
	ldr	r0, [sp, #56]                   @ 4-byte Reload
	ldr.w	r11, [r3, #40]
	eor.w	r1, r1, r0
	ldr	r0, [sp, #108]                  @ 4-byte Reload
	eor.w	r1, r1, r0
	ldr	r0, [sp, #52]                   @ 4-byte Reload
	eor.w	r2, r1, r9
	ldr	r1, [sp, #68]                   @ 4-byte Reload
	eor.w	r0, r0, r11
	eor.w	r0, r0, r1
	ldr	r1, [r3, #44]
	eor.w	r6, r6, r0
	ldr	r0, [sp, #48]                   @ 4-byte Reload
	eor.w	r11, r2, r4
	eor.w	r0, r0, r1
	eor.w	r0, r0, r7
	ldr	r7, [sp, #96]                   @ 4-byte Reload
	eor.w	r0, r0, r4
	ldr	r1, [r3, #48]
	eor.w	r9, r0, r7
	ldr	r0, [sp, #60]                   @ 4-byte Reload
	eor.w	r7, lr, r4
	eor.w	r0, r0, r1
	ldr	r1, [sp, #92]                   @ 4-byte Reload
	eor.w	r1, r1, r0
	eor.w	r1, r1, r4
	ldr	r4, [r3, #52]
	ldr	r0, [sp, #88]                   @ 4-byte Reload
	eor.w	lr, r1, r10
	eor.w	r1, r4, r0
	ldr	r0, [sp, #76]                   @ 4-byte Reload
	ldr	r4, [r3, #56]
	eor.w	r1, r1, r0
	ldr	r0, [sp, #72]                   @ 4-byte Reload
	eor.w	r1, r1, r5
	eor.w	r5, r4, r0
	ldr	r0, [sp, #100]                  @ 4-byte Reload
	ldr	r3, [r3, #60]
	eor.w	r5, r5, r0
	ldr	r0, [sp, #84]                   @ 4-byte Reload
	eor.w	r5, r5, r12
	eor.w	r3, r3, r0
	ldr	r0, [sp, #80]                   @ 4-byte Reload
	eor.w	r3, r3, r0
	eor.w	r12, r3, r8
	bhs.w	.Laes_v7m_BB6_6
@ %bb.5:                                @ %then.11.i
	eor.w	r0, r11, r12
	eor.w	r2, lr, r6
	eor.w	r3, r0, r2
	eor.w	r8, r5, r1
	eor.w	r1, r3, r9
	eor.w	r9, r1, r5
	eor.w	r5, r1, r6
	eor.w	r1, lr, r12
	str	r7, [sp, #96]                   @ 4-byte Spill
	str	r0, [sp, #100]                  @ 4-byte Spill
	eor.w	r0, r9, r1
	eor.w	r7, r5, r8
	str	r1, [sp, #88]                   @ 4-byte Spill
	str	r0, [sp, #104]                  @ 4-byte Spill
	ands	r1, r0
	eors	r0, r7
	str	r3, [sp, #108]                  @ 4-byte Spill
	eor.w	r3, r12, r6
	and.w	r6, r0, r2
	eor.w	r4, r6, r1
	and.w	r6, r7, r3
	eor.w	r10, r6, r1
	ldr	r1, [sp, #96]                   @ 4-byte Reload
	str	r2, [sp, #80]                   @ 4-byte Spill
	eor.w	r6, r8, r1
	eor.w	r11, r11, r6
	str	r0, [sp, #84]                   @ 4-byte Spill
	eor.w	r2, r5, r1
	eor.w	r0, r11, r3
	str	r0, [sp, #68]                   @ 4-byte Spill
	ands	r0, r2
	eor.w	r9, r9, r0
	eor.w	r0, r6, lr
	str	r2, [sp, #64]                   @ 4-byte Spill
	str	r0, [sp, #60]                   @ 4-byte Spill
	and.w	r2, r0, r1
	ldr	r0, [sp, #108]                  @ 4-byte Reload
	eors	r2, r3
	str	r3, [sp, #92]                   @ 4-byte Spill
	str	r7, [sp, #76]                   @ 4-byte Spill
	eors	r2, r7
	and.w	r7, r5, r0
	ldr	r3, [sp, #104]                  @ 4-byte Reload
	eor.w	r0, r9, r7
	eor.w	lr, r3, r8
	eor.w	r8, r0, r4
	ldr	r0, [sp, #100]                  @ 4-byte Reload
	str	r5, [sp, #72]                   @ 4-byte Spill
	eor.w	r5, r2, r7
	and.w	r2, r11, r6
	eor.w	r2, r2, lr
	and.w	r7, lr, r0
	eors	r2, r7
	eors	r2, r0
	eor.w	r0, r2, r4
	eor.w	r4, r6, r12
	eor.w	r2, r3, r1
	str.w	r11, [sp, #48]                  @ 4-byte Spill
	and.w	r11, r2, r4
	str	r2, [sp, #56]                   @ 4-byte Spill
	eor.w	r2, lr, r11
	eors	r2, r7
	eor.w	r2, r2, r12
	str	r4, [sp, #52]                   @ 4-byte Spill
	eor.w	r4, r5, r10
	eor.w	r2, r2, r10
	and.w	r7, r0, r8
	eor.w	r9, r7, r4
	eor.w	r5, r2, r0
	eor.w	r11, r8, r4
	eor.w	r1, r7, r2
	and.w	r5, r5, r9
	and.w	r3, r1, r11
	eor.w	r10, r3, r4
	eor.w	r3, r5, r7
	eor.w	r9, r5, r2
	ands	r2, r3
	eors	r1, r2
	and.w	r1, r1, r10
	eor.w	r3, r1, r11
	eor.w	r1, r2, r0
	ldr	r2, [sp, #100]                  @ 4-byte Reload
	eor.w	r0, r3, r10
	and.w	r4, r0, lr
	and.w	r11, r0, r2
	and.w	r0, r3, r6
	str	r0, [sp, #44]                   @ 4-byte Spill
	ldr	r0, [sp, #48]                   @ 4-byte Reload
	ldr	r2, [sp, #64]                   @ 4-byte Reload
	ands	r0, r3
	str	r0, [sp, #48]                   @ 4-byte Spill
	eor.w	r0, r1, r9
	and.w	lr, r0, r2
	ldr	r2, [sp, #68]                   @ 4-byte Reload
	eor.w	r12, r3, r0
	and.w	r5, r0, r2
	ldr	r0, [sp, #60]                   @ 4-byte Reload
	ldr	r2, [sp, #104]                  @ 4-byte Reload
	and.w	r0, r0, r9
	str	r0, [sp, #100]                  @ 4-byte Spill
	ldr	r0, [sp, #96]                   @ 4-byte Reload
	ldr	r6, [sp, #52]                   @ 4-byte Reload
	and.w	r0, r0, r9
	eor.w	r9, r9, r10
	and.w	r2, r2, r9
	str	r2, [sp, #104]                  @ 4-byte Spill
	ldr	r2, [sp, #88]                   @ 4-byte Reload
	and.w	r6, r6, r10
	and.w	r7, r9, r2
	ldr	r2, [sp, #80]                   @ 4-byte Reload
	ldr	r3, [sp, #84]                   @ 4-byte Reload
	str	r6, [sp, #96]                   @ 4-byte Spill
	ldr	r6, [sp, #56]                   @ 4-byte Reload
	eor.w	r9, r9, r12
	and.w	r2, r2, r9
	and.w	r3, r3, r9
	and.w	r9, r10, r6
	ldr	r6, [sp, #72]                   @ 4-byte Reload
	and.w	r10, r1, r6
	ldr	r6, [sp, #108]                  @ 4-byte Reload
	eor.w	r0, r0, r10
	and.w	r8, r1, r6
	ldr	r1, [sp, #44]                   @ 4-byte Reload
	eor.w	lr, lr, r10
	eor.w	r6, r4, r1
	eor.w	r1, r0, r9
	eor.w	r9, r1, r4
	eor.w	r1, r2, r7
	ldr	r2, [sp, #48]                   @ 4-byte Reload
	eors	r5, r1
	eor.w	r2, r2, r9
	eors	r1, r2
	eor.w	r2, r6, r3
	eor.w	r3, lr, r6
	str	r3, [sp, #108]                  @ 4-byte Spill
	ldr	r3, [sp, #76]                   @ 4-byte Reload
	eor.w	r10, r5, r8
	and.w	r3, r3, r12
	eors	r0, r3
	eor.w	r0, r0, r11
	eor.w	r3, r0, r2
	ldr	r0, [sp, #104]                  @ 4-byte Reload
	eor.w	lr, r1, r3
	eors	r2, r0
	ldr	r0, [sp, #96]                   @ 4-byte Reload
	str.w	lr, [sp, #88]                   @ 4-byte Spill
	eor.w	r4, r3, r0
	ldr	r0, [sp, #100]                  @ 4-byte Reload
	eor.w	r3, r1, r11
	eor.w	r1, r5, r0
	ldr	r0, [sp, #92]                   @ 4-byte Reload
	eor.w	r6, r1, r4
	and.w	r5, r12, r0
	eor.w	r1, r5, r7
	eors	r1, r2
	eor.w	r12, r1, r4
	mov.w	r1, #252645135
	mov.w	r0, #-252645136
	and.w	r5, r1, r3, ror #12
	and.w	r7, r0, r3, ror #4
	add.w	r11, r5, r7
	and.w	r7, r1, lr, ror #12
	and.w	r5, r0, lr, ror #4
	add.w	lr, r7, r5
	and.w	r5, r1, r6, ror #12
	and.w	r4, r0, r6, ror #4
	add	r4, r5
	str	r4, [sp, #92]                   @ 4-byte Spill
	ldr	r4, [sp, #108]                  @ 4-byte Reload
	str.w	r12, [sp, #100]                 @ 4-byte Spill
	eor.w	r5, r4, r10
	eor.w	r4, r5, r9
	and.w	r8, r1, r4, ror #12
	and.w	r7, r0, r4, ror #4
	str	r4, [sp, #108]                  @ 4-byte Spill
	add.w	r4, r8, r7
	str	r4, [sp, #104]                  @ 4-byte Spill
	and.w	r7, r1, r5, ror #12
	and.w	r4, r0, r5, ror #4
	add.w	r9, r7, r4
	and.w	r7, r1, r12, ror #12
	and.w	r4, r0, r12, ror #4
	add	r7, r4
	eor.w	r12, r5, r2
	str	r7, [sp, #96]                   @ 4-byte Spill
	eor.w	r4, r10, r2
	and.w	r7, r1, r12, ror #12
	mov	r2, r1
	and.w	r1, r0, r12, ror #4
	add.w	r8, r7, r1
	and.w	r1, r2, r4, ror #12
	and.w	r7, r0, r4, ror #4
	add.w	r10, r1, r7
	ldr	r7, [sp, #8]                    @ 4-byte Reload
	ldr	r0, [sp, #28]                   @ 4-byte Reload
	lsls	r1, r7, #5
	ldr	r1, [r0, r1]
	eor.w	r2, r11, r3
	eor.w	r1, r1, r2, ror #16
	eor.w	r1, r1, r11
	str	r1, [sp, #84]                   @ 4-byte Spill
	add.w	r1, r0, r7, lsl #5
	ldr	r0, [sp, #88]                   @ 4-byte Reload
	ldr	r7, [r1, #4]
	eor.w	r3, lr, r0
	eor.w	r7, r7, r3, ror #16
	eor.w	r7, r7, lr
	ldr	r0, [sp, #92]                   @ 4-byte Reload
	eor.w	r11, r7, r2
	ldr	r2, [r1, #8]
	eors	r6, r0
	eor.w	r2, r2, r6, ror #16
	eors	r2, r0
	eors	r3, r2
	ldr	r2, [r1, #16]
	eor.w	r7, r9, r5
	eor.w	r2, r2, r7, ror #16
	eor.w	r9, r9, r2
	ldr	r2, [r1, #24]
	eor.w	r0, r8, r12
	eor.w	r2, r2, r0, ror #16
	ldr	r5, [r1, #28]
	eor.w	lr, r2, r8
	eor.w	r2, r10, r4
	eor.w	r4, r5, r2, ror #16
	eor.w	r4, r4, r10
	eor.w	r5, r4, r0
	ldrd	r4, r0, [sp, #96]               @ 8-byte Folded Reload
	ldr.w	r12, [r1, #20]
	eors	r0, r4
	eor.w	r10, lr, r0
	eor.w	r0, r12, r0, ror #16
	eors	r0, r4
	eor.w	lr, r0, r7
	ldrd	r12, r0, [sp, #104]             @ 8-byte Folded Reload
	ldr	r4, [sp, #84]                   @ 4-byte Reload
	ldr	r1, [r1, #12]
	eor.w	r0, r0, r12
	eor.w	r8, r4, r2
	eor.w	r4, r9, r2
	eor.w	r9, r4, r0
	eor.w	r0, r1, r0, ror #16
	eor.w	r7, r11, r2
	eors	r0, r6
	eor.w	r1, r5, r7
	eors	r0, r2
	eor.w	r2, r9, r3
	str	r1, [sp, #52]                   @ 4-byte Spill
	eor.w	r0, r0, r12
	eors	r1, r2
	eors	r0, r1
	eor.w	r11, lr, r10
	eor.w	lr, r5, r9
	eor.w	r4, r0, r10
	str	r1, [sp, #108]                  @ 4-byte Spill
	eor.w	r12, r0, r3
	eor.w	r6, r5, r3
	eor.w	r1, r4, lr
	strd	lr, r6, [sp, #96]               @ 8-byte Folded Spill
	and.w	r10, r1, lr
	eor.w	lr, r12, r11
	eor.w	r0, r1, lr
	str	r7, [sp, #76]                   @ 4-byte Spill
	str	r2, [sp, #88]                   @ 4-byte Spill
	ands	r2, r0
	str	r0, [sp, #92]                   @ 4-byte Spill
	eor.w	r3, r2, r10
	and.w	r2, lr, r6
	ldr	r0, [sp, #76]                   @ 4-byte Reload
	eor.w	r7, r2, r10
	eor.w	r10, r11, r8
	eor.w	r2, r10, r0
	str	r1, [sp, #104]                  @ 4-byte Spill
	eor.w	r1, r12, r8
	eor.w	r0, r2, r6
	str	r1, [sp, #72]                   @ 4-byte Spill
	str	r0, [sp, #76]                   @ 4-byte Spill
	ands	r0, r1
	eor.w	r1, r10, r9
	str	r1, [sp, #68]                   @ 4-byte Spill
	and.w	r1, r1, r8
	eors	r1, r6
	ldr	r6, [sp, #108]                  @ 4-byte Reload
	eors	r0, r4
	eor.w	r1, r1, lr
	and.w	r4, r12, r6
	ldr	r6, [sp, #104]                  @ 4-byte Reload
	eors	r1, r4
	ldr.w	r9, [sp, #52]                   @ 4-byte Reload
	str	r1, [sp, #48]                   @ 4-byte Spill
	eors	r0, r4
	eor.w	r1, r6, r11
	and.w	r4, r2, r10
	str.w	lr, [sp, #84]                   @ 4-byte Spill
	eor.w	lr, r0, r3
	eors	r4, r1
	and.w	r0, r1, r9
	eors	r4, r0
	eor.w	r4, r4, r9
	str.w	r12, [sp, #80]                  @ 4-byte Spill
	eor.w	r12, r4, r3
	eor.w	r4, r10, r5
	eor.w	r3, r6, r8
	and.w	r11, r3, r4
	str	r4, [sp, #60]                   @ 4-byte Spill
	eor.w	r4, r1, r11
	str	r3, [sp, #64]                   @ 4-byte Spill
	eors	r0, r4
	ldr	r3, [sp, #48]                   @ 4-byte Reload
	eors	r0, r5
	eor.w	r4, r3, r7
	eor.w	r3, r0, r7
	and.w	r0, r12, lr
	eor.w	r5, r0, r4
	eor.w	r6, r3, r12
	ands	r6, r5
	eor.w	lr, lr, r4
	eor.w	r5, r0, r3
	and.w	r7, r5, lr
	eors	r4, r7
	eor.w	r7, r6, r0
	eor.w	r0, r6, r3
	ands	r3, r7
	eors	r5, r3
	ands	r5, r4
	eor.w	r5, r5, lr
	eor.w	r7, r5, r4
	str.w	r8, [sp, #56]                   @ 4-byte Spill
	and.w	r8, r7, r1
	and.w	r1, r7, r9
	eor.w	r3, r3, r12
	str	r1, [sp, #52]                   @ 4-byte Spill
	and.w	r1, r5, r2
	ldr	r2, [sp, #72]                   @ 4-byte Reload
	eor.w	r6, r3, r0
	and.w	r11, r5, r10
	str	r1, [sp, #48]                   @ 4-byte Spill
	eor.w	r1, r5, r6
	and.w	r5, r6, r2
	ldr	r2, [sp, #76]                   @ 4-byte Reload
	ldr	r7, [sp, #104]                  @ 4-byte Reload
	ands	r6, r2
	ldr	r2, [sp, #68]                   @ 4-byte Reload
	ands	r2, r0
	str	r2, [sp, #76]                   @ 4-byte Spill
	ldr	r2, [sp, #56]                   @ 4-byte Reload
	ands	r2, r0
	eors	r0, r4
	and.w	r10, r0, r7
	ldr	r7, [sp, #96]                   @ 4-byte Reload
	and.w	r9, r0, r7
	ldr	r7, [sp, #88]                   @ 4-byte Reload
	eors	r0, r1
	and.w	r12, r0, r7
	ldr	r7, [sp, #92]                   @ 4-byte Reload
	and.w	lr, r0, r7
	ldr	r0, [sp, #60]                   @ 4-byte Reload
	ldr	r7, [sp, #108]                  @ 4-byte Reload
	ands	r0, r4
	str	r0, [sp, #104]                  @ 4-byte Spill
	ldr	r0, [sp, #64]                   @ 4-byte Reload
	ands	r7, r3
	ands	r4, r0
	ldr	r0, [sp, #80]                   @ 4-byte Reload
	ands	r0, r3
	eor.w	r3, r5, r0
	eors	r2, r0
	eor.w	r5, r8, r11
	eor.w	r0, r2, r4
	eor.w	r4, r12, r9
	eor.w	r12, r3, r5
	ldr	r3, [sp, #84]                   @ 4-byte Reload
	eor.w	r11, r0, r8
	eor.w	r0, r4, r6
	ldr	r6, [sp, #48]                   @ 4-byte Reload
	ands	r3, r1
	eors	r2, r3
	ldr	r3, [sp, #52]                   @ 4-byte Reload
	eor.w	r6, r6, r11
	eors	r6, r4
	eor.w	r4, r5, lr
	eors	r2, r3
	eors	r2, r4
	eor.w	r5, r4, r10
	ldr	r4, [sp, #104]                  @ 4-byte Reload
	eor.w	r10, r6, r2
	eors	r4, r2
	ldr	r2, [sp, #76]                   @ 4-byte Reload
	eor.w	lr, r0, r7
	eors	r0, r2
	ldr	r2, [sp, #100]                  @ 4-byte Reload
	eor.w	r8, r0, r4
	ands	r1, r2
	eor.w	r0, r1, r9
	eors	r6, r3
	eors	r0, r5
	mov.w	r9, #50529027
	mov.w	r3, #-50529028
	eor.w	r7, r0, r4
	and.w	r0, r9, r6, ror #14
	and.w	r1, r3, r6, ror #6
	adds	r2, r0, r1
	and.w	r0, r9, r10, ror #14
	and.w	r1, r3, r10, ror #6
	add	r0, r1
	str	r0, [sp, #96]                   @ 4-byte Spill
	and.w	r0, r9, r8, ror #14
	and.w	r1, r3, r8, ror #6
	eor.w	r4, r12, lr
	add	r0, r1
	eor.w	r12, r4, r11
	str	r0, [sp, #100]                  @ 4-byte Spill
	and.w	r0, r9, r12, ror #14
	and.w	r1, r3, r12, ror #6
	add	r0, r1
	str	r0, [sp, #88]                   @ 4-byte Spill
	and.w	r0, r9, r4, ror #14
	and.w	r1, r3, r4, ror #6
	add	r0, r1
	str	r0, [sp, #104]                  @ 4-byte Spill
	and.w	r0, r9, r7, ror #14
	and.w	r1, r3, r7, ror #6
	add	r0, r1
	eor.w	r1, r4, r5
	str	r7, [sp, #84]                   @ 4-byte Spill
	eor.w	lr, lr, r5
	and.w	r5, r9, r1, ror #14
	and.w	r7, r3, r1, ror #6
	add	r7, r5
	and.w	r5, r9, lr, ror #14
	and.w	r3, r3, lr, ror #6
	str	r0, [sp, #108]                  @ 4-byte Spill
	adds	r0, r5, r3
	str	r2, [sp, #72]                   @ 4-byte Spill
	str	r0, [sp, #92]                   @ 4-byte Spill
	eors	r2, r6
	mov.w	r11, #252645135
	mov.w	r0, #-252645136
	and.w	r3, r11, r2, ror #20
	and.w	r5, r0, r2, ror #12
	str	r2, [sp, #60]                   @ 4-byte Spill
	adds	r2, r3, r5
	ldr	r3, [sp, #96]                   @ 4-byte Reload
	str	r2, [sp, #44]                   @ 4-byte Spill
	eor.w	r9, r3, r10
	and.w	r6, r11, r9, ror #20
	and.w	r5, r0, r9, ror #12
	adds	r2, r6, r5
	ldr	r3, [sp, #100]                  @ 4-byte Reload
	str	r2, [sp, #48]                   @ 4-byte Spill
	ldr	r2, [sp, #88]                   @ 4-byte Reload
	eor.w	r3, r3, r8
	and.w	r5, r11, r3, ror #20
	and.w	r6, r0, r3, ror #12
	eor.w	r12, r12, r2
	add.w	r10, r5, r6
	and.w	r6, r11, r12, ror #20
	and.w	r5, r0, r12, ror #12
	add	r5, r6
	str	r5, [sp, #52]                   @ 4-byte Spill
	ldr	r5, [sp, #104]                  @ 4-byte Reload
	mov	r2, r11
	eor.w	r11, r5, r4
	and.w	r4, r2, r11, ror #20
	and.w	r5, r0, r11, ror #12
	add.w	r8, r4, r5
	ldr	r4, [sp, #108]                  @ 4-byte Reload
	ldr	r5, [sp, #84]                   @ 4-byte Reload
	str	r7, [sp, #76]                   @ 4-byte Spill
	eors	r4, r5
	and.w	r5, r2, r4, ror #20
	and.w	r6, r0, r4, ror #12
	str	r4, [sp, #80]                   @ 4-byte Spill
	adds	r4, r5, r6
	str	r4, [sp, #64]                   @ 4-byte Spill
	eor.w	r4, r7, r1
	and.w	r1, r2, r4, ror #20
	and.w	r5, r0, r4, ror #12
	add	r1, r5
	str	r1, [sp, #68]                   @ 4-byte Spill
	ldr	r1, [sp, #92]                   @ 4-byte Reload
	str	r4, [sp, #84]                   @ 4-byte Spill
	eor.w	r1, r1, lr
	and.w	r6, r0, r1, ror #12
	ldr.w	lr, [sp, #16]                   @ 4-byte Reload
	ldr	r0, [sp, #28]                   @ 4-byte Reload
	and.w	r5, r2, r1, ror #20
	add.w	r0, r0, lr, lsl #5
	adds	r4, r5, r6
	ldr	r2, [r0, #-32]
	str	r4, [sp, #56]                   @ 4-byte Spill
	ldr	r4, [sp, #44]                   @ 4-byte Reload
	ldr	r5, [r0, #-28]
	eors	r2, r4
	ldr	r4, [sp, #72]                   @ 4-byte Reload
	ldr	r6, [r0, #-24]
	eors	r2, r4
	ldr	r4, [sp, #48]                   @ 4-byte Reload
	eor.w	r6, r6, r10
	eors	r5, r4
	ldr	r4, [sp, #96]                   @ 4-byte Reload
	ldr	r7, [r0, #-20]
	eors	r5, r4
	ldr	r4, [sp, #60]                   @ 4-byte Reload
	eors	r5, r4
	ldr	r4, [sp, #100]                  @ 4-byte Reload
	eors	r6, r4
	ldr	r4, [sp, #52]                   @ 4-byte Reload
	eor.w	r10, r6, r9
	eors	r7, r4
	eors	r3, r7
	ldr	r7, [r0, #-16]
	ldr	r6, [sp, #88]                   @ 4-byte Reload
	eors	r3, r1
	ldr	r4, [sp, #104]                  @ 4-byte Reload
	eors	r6, r3
	eor.w	r3, r7, r8
	eors	r3, r4
	eor.w	r8, r2, r1
	eor.w	r7, r5, r1
	eors	r1, r3
	ldr	r2, [r0, #-12]
	eor.w	r3, r1, r12
	ldr	r1, [sp, #64]                   @ 4-byte Reload
	ldr	r5, [r0, #-8]
	eors	r1, r2
	ldr	r2, [sp, #108]                  @ 4-byte Reload
	ldr	r0, [r0, #-4]
	eors	r1, r2
	eor.w	r2, r1, r11
	ldr	r1, [sp, #68]                   @ 4-byte Reload
	mov	r11, r6
	ldr	r6, [sp, #76]                   @ 4-byte Reload
	eors	r1, r5
	eors	r1, r6
	ldr	r6, [sp, #80]                   @ 4-byte Reload
	eor.w	r5, r1, r6
	ldr	r1, [sp, #56]                   @ 4-byte Reload
	eors	r0, r1
	ldr	r1, [sp, #92]                   @ 4-byte Reload
	eors	r0, r1
	ldr	r1, [sp, #84]                   @ 4-byte Reload
	eor.w	r4, r0, r1
	lsl.w	r0, lr, #5
	b	.Laes_v7m_BB6_7
	.p2align	2
.Laes_v7m_BB6_6:                                @ %else.12.i
	eor.w	r3, r7, r7, lsr #4
	eor.w	r0, r6, r6, lsr #4
	and	r3, r3, #251662080
	and	r0, r0, #251662080
	orr.w	r3, r3, r3, lsl #4
	orr.w	r0, r0, r0, lsl #4
	eor.w	r8, r3, r7
	eor.w	r3, r11, r11, lsr #4
	eor.w	r10, r0, r6
	eor.w	r0, r9, r9, lsr #4
	and	r3, r3, #251662080
	and	r0, r0, #251662080
	orr.w	r3, r3, r3, lsl #4
	orr.w	r0, r0, r0, lsl #4
	eor.w	r7, r3, r11
	eor.w	r11, r0, r9
	eor.w	r0, lr, lr, lsr #4
	and	r0, r0, #251662080
	orr.w	r0, r0, r0, lsl #4
	eor.w	r3, r0, lr
	eor.w	r0, r1, r1, lsr #4
	and	r0, r0, #251662080
	orr.w	r0, r0, r0, lsl #4
	eor.w	r2, r0, r1
	eor.w	r0, r5, r5, lsr #4
	and	r0, r0, #251662080
	orr.w	r0, r0, r0, lsl #4
	eors	r5, r0
	eor.w	r0, r12, r12, lsr #4
	and	r0, r0, #251662080
	orr.w	r0, r0, r0, lsl #4
	eor.w	r4, r0, r12
	ldr	r0, [sp, #16]                   @ 4-byte Reload
	lsls	r0, r0, #5
.Laes_v7m_BB6_7:                                @ %"aes_soft::soft::ciphers::planes::EncryptPlaneCipher::process_planes::<#42add9d049d0c5fd>.exit"
	mov	r9, r7
	eor.w	r1, r4, r7
	eor.w	r7, r3, r10
	str	r1, [sp, #100]                  @ 4-byte Spill
	eors	r1, r7
	str	r0, [sp, #96]                   @ 4-byte Spill
	eor.w	r0, r1, r11
	eor.w	r6, r4, r3
	eor.w	r11, r0, r5
	eors	r2, r5
	str	r1, [sp, #108]                  @ 4-byte Spill
	eor.w	r1, r0, r10
	eor.w	r0, r11, r6
	str	r3, [sp, #60]                   @ 4-byte Spill
	str	r6, [sp, #88]                   @ 4-byte Spill
	eor.w	r3, r4, r10
	and.w	r10, r0, r6
	eor.w	r6, r1, r2
	str	r0, [sp, #104]                  @ 4-byte Spill
	eors	r0, r6
	str	r7, [sp, #80]                   @ 4-byte Spill
	and.w	r5, r0, r7
	and.w	r7, r6, r3
	str	r0, [sp, #84]                   @ 4-byte Spill
	eor.w	lr, r5, r10
	eor.w	r0, r7, r10
	eor.w	r10, r2, r8
	eor.w	r5, r10, r9
	eor.w	r9, r1, r8
	eor.w	r7, r5, r3
	str	r7, [sp, #68]                   @ 4-byte Spill
	and.w	r7, r7, r9
	str.w	r9, [sp, #64]                   @ 4-byte Spill
	eor.w	r9, r11, r7
	ldr	r7, [sp, #60]                   @ 4-byte Reload
	str	r3, [sp, #92]                   @ 4-byte Spill
	eor.w	r7, r7, r10
	str	r7, [sp, #60]                   @ 4-byte Spill
	and.w	r7, r7, r8
	eors	r7, r3
	ldr	r3, [sp, #108]                  @ 4-byte Reload
	eors	r7, r6
	ands	r3, r1
	eor.w	r12, r7, r3
	ldr	r7, [sp, #104]                  @ 4-byte Reload
	eor.w	r3, r3, r9
	str	r1, [sp, #72]                   @ 4-byte Spill
	str	r5, [sp, #48]                   @ 4-byte Spill
	eor.w	r1, r7, r2
	eor.w	r2, r3, lr
	and.w	r3, r5, r10
	ldr	r5, [sp, #100]                  @ 4-byte Reload
	eors	r3, r1
	and.w	r11, r1, r5
	eor.w	r3, r3, r11
	eors	r3, r5
	str	r6, [sp, #76]                   @ 4-byte Spill
	eor.w	r5, r3, lr
	eor.w	r6, r10, r4
	eor.w	r3, r7, r8
	str	r3, [sp, #56]                   @ 4-byte Spill
	ands	r3, r6
	eors	r3, r1
	eor.w	r3, r3, r11
	eor.w	r9, r3, r4
	eor.w	lr, r12, r0
	eor.w	r0, r0, r9
	and.w	r3, r5, r2
	eor.w	r9, r3, lr
	eor.w	r7, r0, r5
	and.w	r7, r7, r9
	eor.w	r9, r2, lr
	eor.w	r2, r3, r0
	str	r6, [sp, #52]                   @ 4-byte Spill
	and.w	r6, r2, r9
	eor.w	lr, lr, r6
	eor.w	r6, r7, r3
	eor.w	r3, r7, r0
	ands	r0, r6
	eors	r2, r0
	and.w	r2, r2, lr
	eor.w	r2, r2, r9
	eor.w	r12, r0, r5
	ldr	r0, [sp, #100]                  @ 4-byte Reload
	eor.w	r5, r2, lr
	ands	r0, r5
	str	r0, [sp, #44]                   @ 4-byte Spill
	and.w	r0, r2, r10
	str	r0, [sp, #40]                   @ 4-byte Spill
	ldr	r0, [sp, #48]                   @ 4-byte Reload
	eor.w	r7, r12, r3
	ands	r0, r2
	str	r0, [sp, #48]                   @ 4-byte Spill
	ldr	r0, [sp, #64]                   @ 4-byte Reload
	eor.w	r10, r2, r7
	and.w	r11, r7, r0
	ldr	r0, [sp, #68]                   @ 4-byte Reload
	and.w	r9, r5, r1
	ands	r7, r0
	ldr	r0, [sp, #60]                   @ 4-byte Reload
	and.w	r5, r3, r8
	ands	r0, r3
	str	r0, [sp, #100]                  @ 4-byte Spill
	ldr	r0, [sp, #104]                  @ 4-byte Reload
	eor.w	r3, r3, lr
	ands	r0, r3
	str	r0, [sp, #68]                   @ 4-byte Spill
	ldr	r0, [sp, #88]                   @ 4-byte Reload
	ldr	r4, [sp, #108]                  @ 4-byte Reload
	and.w	r2, r3, r0
	ldr	r0, [sp, #80]                   @ 4-byte Reload
	eor.w	r3, r3, r10
	and.w	r6, r3, r0
	ldr	r0, [sp, #84]                   @ 4-byte Reload
	str	r2, [sp, #104]                  @ 4-byte Spill
	ands	r3, r0
	ldr	r0, [sp, #52]                   @ 4-byte Reload
	and.w	r0, r0, lr
	str	r0, [sp, #88]                   @ 4-byte Spill
	ldr	r0, [sp, #56]                   @ 4-byte Reload
	and.w	r1, lr, r0
	ldr	r0, [sp, #72]                   @ 4-byte Reload
	and.w	lr, r12, r4
	and.w	r0, r0, r12
	eors	r5, r0
	eor.w	r12, r11, r0
	ldr	r0, [sp, #40]                   @ 4-byte Reload
	eors	r1, r5
	ldr	r4, [sp, #48]                   @ 4-byte Reload
	eor.w	r8, r1, r9
	eor.w	r0, r0, r9
	eor.w	r1, r6, r2
	eor.w	r6, r8, r4
	eor.w	r2, r1, r7
	eor.w	r7, r6, r1
	eor.w	r1, r0, r3
	eor.w	r12, r12, r0
	ldr	r0, [sp, #76]                   @ 4-byte Reload
	ldr	r4, [sp, #44]                   @ 4-byte Reload
	and.w	r3, r10, r0
	eors	r3, r5
	ldr	r0, [sp, #68]                   @ 4-byte Reload
	eors	r3, r4
	eors	r3, r1
	eors	r1, r0
	ldr	r0, [sp, #92]                   @ 4-byte Reload
	ldr	r5, [sp, #96]                   @ 4-byte Reload
	and.w	r9, r10, r0
	ldr	r0, [sp, #28]                   @ 4-byte Reload
	adds	r6, r0, r5
	ldr.w	r10, [r0, r5]
	ldr	r5, [r6, #4]
	ldr	r0, [sp, #88]                   @ 4-byte Reload
	eor.w	r4, r4, r10
	eors	r0, r3
	eors	r3, r5
	eor.w	r10, r3, r7
	ldr	r3, [r6, #8]
	ldr	r5, [sp, #100]                  @ 4-byte Reload
	eor.w	r11, r4, r7
	eors	r3, r5
	eor.w	r7, r2, lr
	eors	r2, r3
	ldr	r3, [r6, #20]
	ldr	r5, [sp, #104]                  @ 4-byte Reload
	eor.w	r3, r3, r9
	ldr	r4, [r6, #12]
	eors	r3, r5
	eors	r3, r1
	eor.w	lr, r8, r4
	eor.w	r4, r12, r7
	ldr.w	r12, [r6, #16]
	eor.w	r8, r3, r0
	ldrd	r3, r6, [r6, #24]
	eors	r2, r0
	eors	r3, r1
	eors	r1, r6
	eor.w	r5, lr, r4
	eors	r1, r7
	eor.w	r7, r10, r11, lsr #1
	eor.w	r0, r4, r12
	eors	r3, r4
	bic	r7, r7, #-1431655766
	eor.w	r4, r5, r2, lsr #1
	eor.w	r6, r11, r7, lsl #1
	eor.w	r12, r7, r10
	bic	r4, r4, #-1431655766
	eor.w	r7, r1, r3, lsr #1
	eor.w	r2, r2, r4, lsl #1
	eors	r5, r4
	eor.w	r4, r8, r0, lsr #1
	bic	r7, r7, #-1431655766
	bic	r4, r4, #-1431655766
	eor.w	r3, r3, r7, lsl #1
	eors	r1, r7
	eor.w	r7, r2, r6, lsr #2
	eor.w	r0, r0, r4, lsl #1
	bic	r7, r7, #-858993460
	eor.w	r6, r6, r7, lsl #2
	eor.w	lr, r7, r2
	eor.w	r7, r3, r0, lsr #2
	bic	r7, r7, #-858993460
	eor.w	r0, r0, r7, lsl #2
	eors	r3, r7
	eor.w	r7, r5, r12, lsr #2
	eor.w	r4, r4, r8
	bic	r7, r7, #-858993460
	eor.w	r2, r12, r7, lsl #2
	eors	r7, r5
	eor.w	r5, r1, r4, lsr #2
	bic	r5, r5, #-858993460
	eor.w	r4, r4, r5, lsl #2
	eors	r1, r5
	eor.w	r5, r0, r6, lsr #4
	bic	r5, r5, #-252645136
	eor.w	r6, r6, r5, lsl #4
	eor.w	r12, r5, r0
	eor.w	r5, r4, r2, lsr #4
	bic	r5, r5, #-252645136
	eor.w	r2, r2, r5, lsl #4
	eors	r5, r4
	eor.w	r4, r3, lr, lsr #4
	bic	r4, r4, #-252645136
	eor.w	r0, lr, r4, lsl #4
	eors	r3, r4
	eor.w	r4, r1, r7, lsr #4
	bic	r4, r4, #-252645136
	eor.w	r7, r7, r4, lsl #4
	eors	r1, r4
	ldr	r4, [sp, #4]                    @ 4-byte Reload
	str	r6, [r4]
	str	r0, [r4, #4]
	str.w	r12, [r4, #8]
	str	r3, [r4, #12]
	str	r2, [r4, #16]
	str	r7, [r4, #20]
	str	r5, [r4, #24]
	str	r1, [r4, #28]
	add	sp, #112
	pop.w	{r4, r5, r6, r7, r8, r9, r10, r11, pc}
.Laes_v7m_func_end6:
	.size	aes_v7m.aes_soft.soft.ciphers.planes.process_outlined.1, .Laes_v7m_func_end6-aes_v7m.aes_soft.soft.ciphers.planes.process_outlined.1
	.cantunwind
	.fnend
                                        @ -- End function
	.section	.text.aes_v7m.aes_cipher.zeroize.stack.wipe_stack.1024,"ax",%progbits
	.p2align	2                               @ -- Begin function aes_cipher::zeroize::stack::wipe_stack::<=1024>
	.type	aes_v7m.aes_cipher.zeroize.stack.wipe_stack.1024,%function
	.code	16
	.thumb_func
aes_v7m.aes_cipher.zeroize.stack.wipe_stack.1024: @ @aes_v7m.aes_cipher.zeroize.stack.wipe_stack.1024
	.fnstart
@ %bb.0:                                @ %start
	.save	{r4, r5, r7, lr}
	push	{r4, r5, r7, lr}
	.pad	#1032
	sub.w	sp, sp, #1032
	add	r4, sp, #8
	mov	r0, r4
	movs	r1, #0
	mov.w	r2, #1024
	movs	r5, #0
	bl	memset
	strd	r5, r5, [sp]
	@APP
	@NO_APP
	mov	r0, sp
	ldrd	r1, r2, [r0]
	@APP
	@NO_APP
	subs.w	r3, r1, #1024
	sbcs	r2, r2, #0
	itt	hs
	addhs.w	sp, sp, #1032
	pophs	{r4, r5, r7, pc}
.Laes_v7m_BB7_1:                                @ %then.1
	ldrb	r1, [r4, r1]
	@APP
	@NO_APP
	ldrd	r2, r3, [r0]
	strd	r1, r5, [r0]
	@APP
	@NO_APP
	add.w	sp, sp, #1032
	pop	{r4, r5, r7, pc}
.Laes_v7m_func_end7:
	.size	aes_v7m.aes_cipher.zeroize.stack.wipe_stack.1024, .Laes_v7m_func_end7-aes_v7m.aes_cipher.zeroize.stack.wipe_stack.1024
	.cantunwind
	.fnend
                                        @ -- End function
	.section	.text.aes_v7m.aes_narrow.borrowed_words.call_to_encrypt,"ax",%progbits
	.p2align	2                               @ -- Begin function aes_narrow::borrowed_words::call_to_encrypt::<#b6a72634b88802f3>
	.type	aes_v7m.aes_narrow.borrowed_words.call_to_encrypt,%function
	.code	16
	.thumb_func
aes_v7m.aes_narrow.borrowed_words.call_to_encrypt: @ @aes_v7m.aes_narrow.borrowed_words.call_to_encrypt
	.fnstart
@ %bb.0:                                @ %start
	.save	{r4, r5, r6, r7, r8, r9, r10, r11, lr}
	push.w	{r4, r5, r6, r7, r8, r9, r10, r11, lr}
	.pad	#380
	sub	sp, #380
	ldr	r1, [sp, #416]
	mov	r9, r3
	add.w	r7, r1, #8
	ldm	r7, {r4, r5, r7}
	ldr	r6, [r1]
	ldrd	r8, r10, [r1, #24]
	mov	r11, r2
	str	r0, [sp, #48]                   @ 4-byte Spill
	str	r0, [sp, #104]
	movs	r0, #0
	lsls	r1, r4, #28
	str	r0, [sp, #108]
	str	r3, [sp, #116]
	str	r2, [sp, #112]
	beq	.Laes_v7m_BB8_2
@ %bb.1:                                @ %then.1.i.i
	strd	r0, r0, [sp]
	add	r0, sp, #104
	mov	r1, r6
	mov	r2, r4
	mov	r3, r5
	strd	r8, r10, [sp, #16]
	str	r7, [sp, #8]
	bl	aes_v7m.aes_ctr.add_in_batches.add_next
	b	.Laes_v7m_BB8_3
	.p2align	2
.Laes_v7m_BB8_2:
	movs	r1, #0
.Laes_v7m_BB8_3:                                @ %join.3.i.i
	subs.w	r3, r8, r0
	mov	lr, r1
	sbc.w	r1, r10, r1
	subs	r3, #32
	sbcs	r1, r1, #0
	strd	r10, r8, [sp, #52]              @ 8-byte Folded Spill
	blo.w	.Laes_v7m_BB8_6
@ %bb.4:                                @ %join.11.lr.ph.i.i
	add	r1, sp, #124
	adds	r1, #32
	mov	r10, lr
	str	r1, [sp, #24]                   @ 4-byte Spill
	str	r6, [sp, #44]                   @ 4-byte Spill
	strd	r5, r4, [sp, #36]               @ 8-byte Folded Spill
	str	r7, [sp, #96]                   @ 4-byte Spill
	strd	r11, r9, [sp, #28]              @ 8-byte Folded Spill
	.p2align	2
.Laes_v7m_BB8_5:                                @ %join.11.i.i
                                        @ =>This Inner Loop Header: Depth=1
	str	r0, [sp, #100]                  @ 4-byte Spill
	adds	r0, r0, r4
	adc.w	r1, r10, r5
	lsrs	r0, r0, #4
	orr.w	r4, r0, r1, lsl #28
	ldr	r0, [sp, #24]                   @ 4-byte Reload
	lsrs	r5, r1, #4
	movs	r1, #0
	movs	r2, #224
	str.w	r10, [sp, #92]                  @ 4-byte Spill
	mov.w	r8, #0
	bl	memset
	ldr	r0, [r6, #12]
	ldr	r1, [r6]
	ldr	r3, [r6, #8]
	ldr	r2, [r6, #4]
	rev	r0, r0
	adds	r0, r0, r4
	rev	r6, r1
	rev	r1, r3
	rev	r2, r2
	adcs	r1, r5
	adcs	r2, r2, #0
	adc	r3, r6, #0
	lsrs	r6, r3, #24
	strb.w	r6, [sp, #124]
	lsrs	r6, r3, #16
	strb.w	r6, [sp, #125]
	lsrs	r6, r3, #8
	strb.w	r6, [sp, #126]
	lsrs	r6, r2, #24
	strb.w	r6, [sp, #128]
	lsrs	r6, r2, #16
	strb.w	r6, [sp, #129]
	lsrs	r6, r2, #8
	strb.w	r6, [sp, #130]
	lsrs	r6, r1, #24
	strb.w	r6, [sp, #132]
	lsrs	r6, r1, #16
	strb.w	r6, [sp, #133]
	lsrs	r6, r1, #8
	strb.w	r6, [sp, #134]
	lsrs	r6, r0, #24
	strb.w	r6, [sp, #136]
	lsrs	r6, r0, #16
	strb.w	r6, [sp, #137]
	lsrs	r6, r0, #8
	strb.w	r0, [sp, #139]
	adds	r0, #1
	strb.w	r1, [sp, #135]
	adcs	r1, r1, #0
	strb.w	r2, [sp, #131]
	adcs	r2, r2, #0
	strb.w	r3, [sp, #127]
	adc	r3, r3, #0
	strb.w	r6, [sp, #138]
	lsrs	r6, r3, #24
	strb.w	r6, [sp, #140]
	lsrs	r6, r3, #16
	strb.w	r6, [sp, #141]
	lsrs	r6, r3, #8
	strb.w	r3, [sp, #143]
	lsrs	r3, r2, #24
	strb.w	r3, [sp, #144]
	lsrs	r3, r2, #16
	strb.w	r3, [sp, #145]
	lsrs	r3, r2, #8
	strb.w	r2, [sp, #147]
	lsrs	r2, r1, #24
	strb.w	r2, [sp, #148]
	lsrs	r2, r1, #16
	strb.w	r2, [sp, #149]
	lsrs	r2, r1, #8
	strb.w	r1, [sp, #151]
	lsrs	r1, r0, #24
	strb.w	r1, [sp, #152]
	lsrs	r1, r0, #16
	strb.w	r1, [sp, #153]
	lsrs	r1, r0, #8
	strb.w	r0, [sp, #155]
	ldr	r0, [sp, #100]                  @ 4-byte Reload
	strb.w	r3, [sp, #146]
	adds	r5, r7, r0
	movs	r0, #2
	strd	r0, r8, [sp, #8]
	ldr	r0, [sp, #48]                   @ 4-byte Reload
	strb.w	r2, [sp, #150]
	strb.w	r1, [sp, #154]
	mov	r2, r11
	mov	r3, r9
	add	r1, sp, #124
	strb.w	r6, [sp, #142]
	str	r1, [sp]
	bl	aes_v7m.aes_soft.soft.blocks.filled_up.process_filled_up.1
	ldrb.w	lr, [r5, #1]
	ldrb.w	r1, [sp, #125]
	ldrb	r7, [r5, #2]
	ldrb.w	r11, [sp, #126]
	eor.w	r1, r1, lr
	ldrb.w	r10, [r5, #3]
	str	r1, [sp, #88]                   @ 4-byte Spill
	ldrb.w	r1, [sp, #127]
	eor.w	r7, r7, r11
	ldrb	r0, [r5, #4]
	str	r7, [sp, #84]                   @ 4-byte Spill
	ldrb.w	r7, [sp, #128]
	eor.w	r1, r1, r10
	ldrb	r4, [r5, #6]
	ldrb	r3, [r5, #5]
	str	r1, [sp, #80]                   @ 4-byte Spill
	ldrb.w	r1, [sp, #129]
	eors	r0, r7
	ldrb.w	r7, [sp, #130]
	ldrb	r2, [r5, #8]
	ldrb	r6, [r5, #7]
	str	r0, [sp, #76]                   @ 4-byte Spill
	eor.w	r0, r1, r3
	ldrb.w	r1, [sp, #131]
	eor.w	r11, r7, r4
	ldrb.w	r7, [sp, #132]
	ldrb.w	r9, [r5, #10]
	ldrb.w	r12, [r5, #9]
	eor.w	r10, r1, r6
	ldrb.w	r1, [sp, #133]
	eor.w	r6, r7, r2
	ldrb.w	r7, [sp, #134]
	ldrb.w	r8, [r5, #12]
	str	r0, [sp, #72]                   @ 4-byte Spill
	eor.w	r4, r1, r12
	ldrb	r1, [r5, #11]
	eor.w	r7, r7, r9
	ldrb.w	r0, [sp, #135]
	ldrb.w	r9, [sp, #136]
	eor.w	lr, r0, r1
	eor.w	r9, r9, r8
	ldrb	r2, [r5, #14]
	ldrb.w	r8, [r5, #13]
	ldrb.w	r0, [sp, #137]
	ldrb.w	r1, [sp, #138]
	eor.w	r8, r8, r0
	eor.w	r12, r1, r2
	ldrd	r0, r1, [sp, #96]               @ 8-byte Folded Reload
	ldrb	r2, [r5, #15]
	ldrb	r3, [r0, r1]
	ldrb.w	r0, [sp, #139]
	ldrb.w	r1, [sp, #124]
	eors	r0, r2
	strb	r0, [r5, #15]
	ldr	r0, [sp, #72]                   @ 4-byte Reload
	eors	r1, r3
	strb	r0, [r5, #5]
	ldr	r0, [sp, #76]                   @ 4-byte Reload
	ldrd	r2, r3, [sp, #96]               @ 8-byte Folded Reload
	strb	r0, [r5, #4]
	ldr	r0, [sp, #80]                   @ 4-byte Reload
	strb	r1, [r2, r3]
	ldr	r1, [sp, #100]                  @ 4-byte Reload
	strb	r0, [r5, #3]
	ldr	r0, [sp, #84]                   @ 4-byte Reload
	adds	r1, #32
	strb	r0, [r5, #2]
	ldr	r0, [sp, #88]                   @ 4-byte Reload
	str	r1, [sp, #100]                  @ 4-byte Spill
	ldr	r3, [sp, #92]                   @ 4-byte Reload
	ldr	r1, [sp, #100]                  @ 4-byte Reload
	ldr	r2, [sp, #56]                   @ 4-byte Reload
	strb	r0, [r5, #1]
	ldrb	r0, [r5, #27]
	adc	r3, r3, #0
	subs	r1, r2, r1
	ldr	r2, [sp, #52]                   @ 4-byte Reload
	str	r0, [sp, #88]                   @ 4-byte Spill
	ldrb	r0, [r5, #26]
	strb	r7, [r5, #10]
	sbc.w	r7, r2, r3
	rsbs.w	r1, r1, #31
	str	r0, [sp, #84]                   @ 4-byte Spill
	ldrb	r0, [r5, #25]
	mov.w	r1, #0
	sbcs	r1, r7
	str	r0, [sp, #80]                   @ 4-byte Spill
	ldrb	r0, [r5, #16]
	ldrb.w	r1, [sp, #140]
	strb	r6, [r5, #8]
	ldrb	r6, [r5, #17]
	ldrb.w	r7, [sp, #141]
	eor.w	r0, r0, r1
	strb.w	r12, [r5, #14]
	ldrb.w	r12, [r5, #18]
	str	r0, [sp, #92]                   @ 4-byte Spill
	ldrb.w	r0, [sp, #142]
	strb.w	r10, [r5, #7]
	mov	r10, r3
	ldrb	r3, [r5, #19]
	eor.w	r1, r7, r6
	ldrb.w	r6, [sp, #143]
	strb	r4, [r5, #9]
	ldrb	r4, [r5, #20]
	eor.w	r0, r0, r12
	ldrb.w	r2, [sp, #144]
	strb.w	r9, [r5, #12]
	ldrb.w	r9, [r5, #21]
	str	r0, [sp, #72]                   @ 4-byte Spill
	eor.w	r0, r6, r3
	ldrb.w	r3, [sp, #145]
	str	r0, [sp, #68]                   @ 4-byte Spill
	eor.w	r0, r2, r4
	str	r0, [sp, #64]                   @ 4-byte Spill
	eor.w	r0, r3, r9
	strb.w	r8, [r5, #13]
	strb.w	r11, [r5, #6]
	ldrb.w	r11, [r5, #23]
	ldrb.w	r8, [r5, #22]
	ldrb.w	r4, [sp, #146]
	str	r0, [sp, #60]                   @ 4-byte Spill
	ldrb.w	r2, [sp, #147]
	ldrb.w	r3, [sp, #149]
	ldr	r0, [sp, #80]                   @ 4-byte Reload
	strb.w	lr, [r5, #11]
	ldrb.w	lr, [r5, #24]
	eor.w	r9, r4, r8
	ldrb.w	r4, [sp, #148]
	eor.w	r11, r11, r2
	ldrb.w	r2, [sp, #150]
	eor.w	r7, r3, r0
	ldr	r0, [sp, #84]                   @ 4-byte Reload
	eor.w	r8, r4, lr
	ldrb.w	r4, [sp, #151]
	eor.w	r6, r2, r0
	ldr	r0, [sp, #88]                   @ 4-byte Reload
	str	r1, [sp, #76]                   @ 4-byte Spill
	ldrb	r3, [r5, #29]
	eor.w	r4, r4, r0
	ldrb	r2, [r5, #28]
	ldrb.w	r0, [sp, #152]
	ldrb.w	r1, [sp, #153]
	eor.w	lr, r0, r2
	eor.w	r12, r1, r3
	ldrb	r2, [r5, #31]
	ldrb.w	r1, [sp, #155]
	ldrb	r3, [r5, #30]
	eor.w	r1, r1, r2
	strb	r1, [r5, #31]
	ldr	r1, [sp, #60]                   @ 4-byte Reload
	ldrb.w	r0, [sp, #154]
	strb	r1, [r5, #21]
	ldr	r1, [sp, #64]                   @ 4-byte Reload
	eor.w	r0, r0, r3
	strb	r1, [r5, #20]
	ldr	r1, [sp, #68]                   @ 4-byte Reload
	strb	r0, [r5, #30]
	strb	r1, [r5, #19]
	ldr	r1, [sp, #72]                   @ 4-byte Reload
	strb.w	r12, [r5, #29]
	strb	r1, [r5, #18]
	ldr	r1, [sp, #76]                   @ 4-byte Reload
	ldr	r0, [sp, #100]                  @ 4-byte Reload
	strb	r1, [r5, #17]
	ldr	r1, [sp, #92]                   @ 4-byte Reload
	strb.w	lr, [r5, #28]
	strb	r4, [r5, #27]
	ldr	r4, [sp, #40]                   @ 4-byte Reload
	strb	r6, [r5, #26]
	ldr	r6, [sp, #44]                   @ 4-byte Reload
	strb	r7, [r5, #25]
	ldr	r7, [sp, #96]                   @ 4-byte Reload
	strb.w	r8, [r5, #24]
	strb.w	r11, [r5, #23]
	ldr.w	r11, [sp, #28]                  @ 4-byte Reload
	strb.w	r9, [r5, #22]
	ldr.w	r9, [sp, #32]                   @ 4-byte Reload
	strb	r1, [r5, #16]
	ldr	r5, [sp, #36]                   @ 4-byte Reload
	blo.w	.Laes_v7m_BB8_5
	b	.Laes_v7m_BB8_7
	.p2align	2
.Laes_v7m_BB8_6:
	mov	r10, lr
.Laes_v7m_BB8_7:                                @ %loop.13.preheader.i.i
	ldr.w	r8, [sp, #56]                   @ 4-byte Reload
	ldr.w	r9, [sp, #52]                   @ 4-byte Reload
	subs.w	r1, r0, r8
	sbcs.w	r1, r10, r9
	mov	r1, r10
	bhs	.Laes_v7m_BB8_9
	.p2align	2
.Laes_v7m_BB8_8:                                @ %join.16.i.i
                                        @ =>This Inner Loop Header: Depth=1
	strd	r0, r1, [sp]
	add	r0, sp, #104
	mov	r1, r6
	mov	r2, r4
	mov	r3, r5
	strd	r8, r9, [sp, #16]
	str	r7, [sp, #8]
	bl	aes_v7m.aes_ctr.add_in_batches.add_next
	subs.w	r2, r0, r8
	sbcs.w	r2, r1, r9
	blo	.Laes_v7m_BB8_8
.Laes_v7m_BB8_9:                                @ %"aes_ctr::add_in_batches::AddStreamBlockCipherEncClosure::call::<#b3b189439790eae9>.exit"
	add	sp, #380
	pop.w	{r4, r5, r6, r7, r8, r9, r10, r11, pc}
.Laes_v7m_func_end8:
	.size	aes_v7m.aes_narrow.borrowed_words.call_to_encrypt, .Laes_v7m_func_end8-aes_v7m.aes_narrow.borrowed_words.call_to_encrypt
	.cantunwind
	.fnend
                                        @ -- End function
	.section	.text.aes_v7m.aes_ctr.add_in_batches.add_next,"ax",%progbits
	.p2align	2                               @ -- Begin function aes_ctr::add_in_batches::add_next::<#a8e061590e9ece31>
	.type	aes_v7m.aes_ctr.add_in_batches.add_next,%function
	.code	16
	.thumb_func
aes_v7m.aes_ctr.add_in_batches.add_next: @ @aes_v7m.aes_ctr.add_in_batches.add_next
	.fnstart
@ %bb.0:                                @ %start
	.save	{r4, r5, r6, r7, r8, r9, r10, r11, lr}
	push.w	{r4, r5, r6, r7, r8, r9, r10, r11, lr}
	.pad	#332
	sub	sp, #332
	ldrd	r10, r11, [sp, #368]
	mov	r9, r0
	ldrd	r6, r12, [sp, #384]
	adds.w	r0, r10, r2
	and	r4, r0, #15
	mov	r5, r1
	adc.w	r1, r11, r3
	rsb.w	r7, r4, #32
	subs.w	r2, r6, r10
	sbc.w	r3, r12, r11
	subs	r6, r2, r7
	sbcs	r6, r3, #0
	it	lo
	movlo	r7, r2
	mov.w	r2, #0
	it	lo
	movlo	r2, #1
	cmp	r2, #0
	it	ne
	movne	r2, r3
	strd	r4, r2, [sp, #20]               @ 8-byte Folded Spill
	adds	r2, r7, r4
	uxtb	r3, r2
	lsls	r2, r2, #28
	lsr.w	r4, r3, #4
	mov.w	r2, #1
	lsr.w	r0, r0, #4
	add.w	r8, sp, #76
	str	r7, [sp, #28]                   @ 4-byte Spill
	it	ne
	addne.w	r4, r2, r3, lsr #4
	orr.w	r6, r0, r1, lsl #28
	lsrs	r7, r1, #4
	add.w	r0, r8, #32
	movs	r1, #0
	movs	r2, #224
	bl	memset
	ldr	r0, [r5, #12]
	ldr	r2, [r5, #4]
	ldr	r3, [r5, #8]
	rev	r0, r0
	ldr	r1, [r5]
	adds	r0, r0, r6
	rev	r6, r2
	rev	r2, r3
	adcs	r2, r7
	rev	r1, r1
	adcs	r3, r6, #0
	adc	r5, r1, #0
	lsrs	r1, r5, #24
	strb.w	r1, [sp, #76]
	lsrs	r1, r5, #16
	strb.w	r1, [sp, #77]
	lsrs	r1, r5, #8
	strb.w	r1, [sp, #78]
	lsrs	r1, r3, #24
	strb.w	r1, [sp, #80]
	lsrs	r1, r3, #16
	strb.w	r1, [sp, #81]
	lsrs	r1, r3, #8
	strb.w	r1, [sp, #82]
	lsrs	r1, r2, #24
	strb.w	r1, [sp, #84]
	lsrs	r1, r2, #16
	strb.w	r1, [sp, #85]
	lsrs	r1, r2, #8
	strb.w	r1, [sp, #86]
	lsrs	r1, r0, #24
	strb.w	r1, [sp, #88]
	lsrs	r1, r0, #16
	strb.w	r1, [sp, #89]
	lsrs	r1, r0, #8
	strb.w	r1, [sp, #90]
	adds	r1, r0, #1
	strb.w	r0, [sp, #91]
	adcs	r0, r2, #0
	strb.w	r2, [sp, #87]
	adcs	r2, r3, #0
	strb.w	r3, [sp, #83]
	adc	r3, r5, #0
	lsrs	r7, r3, #24
	strb.w	r7, [sp, #92]
	lsrs	r7, r3, #16
	strb.w	r7, [sp, #93]
	lsrs	r7, r3, #8
	strb.w	r3, [sp, #95]
	lsrs	r3, r2, #24
	strb.w	r3, [sp, #96]
	lsrs	r3, r2, #16
	strb.w	r3, [sp, #97]
	lsrs	r3, r2, #8
	strb.w	r2, [sp, #99]
	lsrs	r2, r0, #24
	strb.w	r2, [sp, #100]
	lsrs	r2, r0, #16
	strb.w	r2, [sp, #101]
	lsrs	r2, r0, #8
	strb.w	r0, [sp, #103]
	lsrs	r0, r1, #24
	strb.w	r0, [sp, #104]
	lsrs	r0, r1, #16
	strb.w	r0, [sp, #105]
	lsrs	r0, r1, #8
	strb.w	r3, [sp, #98]
	strb.w	r2, [sp, #102]
	strb.w	r0, [sp, #106]
	ldr.w	r0, [r9]
	ldr.w	r2, [r9, #8]
	ldr.w	r3, [r9, #12]
	cmp	r4, #1
	strb.w	r5, [sp, #79]
	strb.w	r7, [sp, #94]
	strb.w	r1, [sp, #107]
	bne	.Laes_v7m_BB9_2
@ %bb.1:                                @ %then.1.i.i.i
	movs	r1, #0
	movs	r7, #1
	strd	r7, r1, [sp, #8]
	b	.Laes_v7m_BB9_3
	.p2align	2
.Laes_v7m_BB9_2:                                @ %else.2.i.i.i
	movs	r1, #2
	movs	r7, #0
	strd	r1, r7, [sp, #8]
.Laes_v7m_BB9_3:                                @ %"aes_ctr::keystream::fill_by_backend::<#a8e061590e9ece31>.exit"
	str.w	r8, [sp]
	bl	aes_v7m.aes_soft.soft.blocks.filled_up.process_filled_up.1
	ldr	r0, [sp, #376]
	ldr	r4, [sp, #20]                   @ 4-byte Reload
	mov	r7, r8
	ldrd	r9, r8, [sp, #24]               @ 8-byte Folded Reload
	add	r0, r10
	mov.w	r2, #0
	str	r0, [sp, #72]                   @ 4-byte Spill
	cbz	r4, .Laes_v7m_BB9_7
@ %bb.4:                                @ %then.1.i
	rsb.w	lr, r4, #16
	subs.w	r0, r8, lr
	sbcs	r0, r9, #0
	ldr	r0, [sp, #384]
	ldr	r1, [sp, #388]
	itt	lo
	movlo	r2, #1
	movlo	lr, r8
	cmp	r2, #0
	eor.w	r0, r0, r10
	eor.w	r1, r1, r11
	it	ne
	movne	r2, r9
	orrs	r0, r1
	beq	.Laes_v7m_BB9_14
@ %bb.5:                                @ %join.8.i85.preheader
	subs.w	r0, lr, #4
	sbcs	r0, r2, #0
	and	r3, lr, #3
	bhs	.Laes_v7m_BB9_8
@ %bb.6:
	movs	r5, #0
	b	.Laes_v7m_BB9_11
	.p2align	2
.Laes_v7m_BB9_7:
	mov.w	lr, #0
	b	.Laes_v7m_BB9_14
	.p2align	2
.Laes_v7m_BB9_8:                                @ %join.8.i85.preheader.new
	ldr	r0, [sp, #72]                   @ 4-byte Reload
	and	r10, lr, #28
	movs	r5, #0
	mov	r12, r4
	mov	r11, r7
	movs	r7, #0
	str	r3, [sp, #68]                   @ 4-byte Spill
	.p2align	2
.Laes_v7m_BB9_9:                                @ %join.8.i85
                                        @ =>This Inner Loop Header: Depth=1
	orr	r6, r5, #1
	add.w	r4, r6, r12
	ldrb.w	r4, [r11, r4]
	ldrb	r3, [r0, r6]
	ldr	r0, [sp, #72]                   @ 4-byte Reload
	eors	r3, r4
	ldr	r4, [sp, #72]                   @ 4-byte Reload
	add.w	r1, r5, r12
	strb	r3, [r4, r6]
	orr	r3, r5, #2
	ldr	r6, [sp, #72]                   @ 4-byte Reload
	add.w	r4, r3, r12
	ldrb.w	r1, [r11, r1]
	ldrb	r0, [r0, r5]
	ldrb.w	r4, [r11, r4]
	ldrb	r6, [r6, r3]
	eors	r0, r1
	eor.w	r1, r6, r4
	ldr	r4, [sp, #72]                   @ 4-byte Reload
	ldr	r6, [sp, #72]                   @ 4-byte Reload
	strb	r1, [r4, r3]
	orr	r1, r5, #3
	ldr	r4, [sp, #72]                   @ 4-byte Reload
	add.w	r3, r1, r12
	ldrb.w	r3, [r11, r3]
	ldrb	r4, [r4, r1]
	strb	r0, [r6, r5]
	adds	r5, #4
	eor.w	r0, r4, r3
	adc	r7, r7, #0
	eor.w	r3, r5, r10
	orrs	r3, r7
	ldr	r3, [sp, #72]                   @ 4-byte Reload
	strb	r0, [r3, r1]
	ldr	r0, [sp, #72]                   @ 4-byte Reload
	bne	.Laes_v7m_BB9_9
@ %bb.10:                               @ %join.3.i.loopexit.unr-lcssa
	ldr	r3, [sp, #68]                   @ 4-byte Reload
	mov	r7, r11
	ldrd	r10, r11, [sp, #368]
	mov	r4, r12
	cbz	r3, .Laes_v7m_BB9_14
.Laes_v7m_BB9_11:                               @ %join.8.i85.epil.preheader
	ldr	r6, [sp, #72]                   @ 4-byte Reload
	adds	r0, r5, r4
	ldrb	r0, [r7, r0]
	ldrb	r1, [r6, r5]
	cmp	r3, #1
	eor.w	r0, r0, r1
	strb	r0, [r6, r5]
	beq	.Laes_v7m_BB9_14
@ %bb.12:                               @ %join.8.i85.epil.1
	add.w	r12, r5, #1
	add.w	r1, r12, r4
	ldrb	r1, [r7, r1]
	mov	r0, r3
	ldrb.w	r3, [r6, r12]
	cmp	r0, #2
	eor.w	r1, r1, r3
	strb.w	r1, [r6, r12]
	beq	.Laes_v7m_BB9_14
@ %bb.13:                               @ %join.8.i85.epil.2
	adds	r0, r5, #2
	adds	r1, r0, r4
	ldrb	r1, [r7, r1]
	ldrb	r3, [r6, r0]
	eors	r1, r3
	strb	r1, [r6, r0]
.Laes_v7m_BB9_14:                               @ %join.3.i
	subs.w	r6, r8, lr
	sbc.w	r5, r9, r2
	subs.w	r0, r6, #16
	sbcs	r0, r5, #0
	blo.w	.Laes_v7m_BB9_17
	.p2align	2
.Laes_v7m_BB9_15:                               @ %join.8.i
                                        @ =>This Inner Loop Header: Depth=1
	add.w	r0, lr, r4
	ldr.w	r8, [sp, #72]                   @ 4-byte Reload
	bic	r0, r0, #15
	adds	r6, r7, r0
	add.w	r3, r8, lr
	str	r0, [sp, #64]                   @ 4-byte Spill
	ldrb	r0, [r3, #10]
	ldrb	r1, [r3, #1]
	ldrb	r5, [r6, #1]
	str	r0, [sp, #44]                   @ 4-byte Spill
	ldrb	r4, [r3, #2]
	ldrb	r0, [r6, #2]
	eors	r1, r5
	ldrb	r7, [r3, #3]
	str	r1, [sp, #60]                   @ 4-byte Spill
	ldrb	r1, [r6, #3]
	str	r2, [sp, #68]                   @ 4-byte Spill
	ldrb	r2, [r3, #4]
	eors	r0, r4
	ldrb	r4, [r6, #4]
	ldrb.w	r9, [r3, #5]
	str	r0, [sp, #56]                   @ 4-byte Spill
	eor.w	r0, r1, r7
	ldrb	r1, [r6, #5]
	ldrb.w	r12, [r3, #6]
	str	r0, [sp, #52]                   @ 4-byte Spill
	eor.w	r0, r4, r2
	ldrb	r4, [r6, #6]
	ldrb.w	r10, [r3, #7]
	str	r0, [sp, #48]                   @ 4-byte Spill
	eor.w	r0, r1, r9
	ldrb	r1, [r6, #7]
	ldrb.w	r11, [r3, #8]
	str	r0, [sp, #40]                   @ 4-byte Spill
	eor.w	r0, r4, r12
	ldrb	r4, [r6, #8]
	str	r0, [sp, #36]                   @ 4-byte Spill
	eor.w	r0, r1, r10
	str	r0, [sp, #32]                   @ 4-byte Spill
	ldrb	r5, [r3, #9]
	eor.w	r11, r11, r4
	ldrb	r4, [r6, #9]
	ldrb	r1, [r6, #10]
	ldr	r0, [sp, #44]                   @ 4-byte Reload
	eor.w	r10, r4, r5
	eor.w	r9, r1, r0
	ldrb	r5, [r3, #12]
	ldrb	r2, [r3, #11]
	ldrb	r0, [r6, #11]
	ldrb	r1, [r6, #12]
	eor.w	r7, r0, r2
	eor.w	r4, r1, r5
	ldrb	r2, [r3, #14]
	ldrb	r1, [r6, #14]
	ldrb	r5, [r3, #13]
	ldrb	r0, [r6, #13]
	eors	r1, r2
	ldr	r2, [sp, #64]                   @ 4-byte Reload
	eor.w	r12, r0, r5
	add	r0, sp, #76
	ldrb	r2, [r0, r2]
	ldrb.w	r0, [r8, lr]
	ldrb	r5, [r6, #15]
	eors	r0, r2
	strb.w	r0, [r8, lr]
	ldr	r0, [sp, #32]                   @ 4-byte Reload
	ldrb	r6, [r3, #15]
	strb	r0, [r3, #7]
	ldr	r0, [sp, #36]                   @ 4-byte Reload
	ldr	r2, [sp, #68]                   @ 4-byte Reload
	strb	r0, [r3, #6]
	ldr	r0, [sp, #40]                   @ 4-byte Reload
	ldr.w	r8, [sp, #28]                   @ 4-byte Reload
	strb	r0, [r3, #5]
	ldr	r0, [sp, #48]                   @ 4-byte Reload
	strb.w	r9, [r3, #10]
	strb	r0, [r3, #4]
	ldr	r0, [sp, #52]                   @ 4-byte Reload
	ldr.w	r9, [sp, #24]                   @ 4-byte Reload
	adds.w	lr, lr, #16
	strb	r0, [r3, #3]
	ldr	r0, [sp, #56]                   @ 4-byte Reload
	eor.w	r5, r5, r6
	adc	r2, r2, #0
	subs.w	r6, r8, lr
	strb	r5, [r3, #15]
	strb	r0, [r3, #2]
	sbc.w	r5, r9, r2
	rsbs.w	r0, r6, #15
	mov.w	r0, #0
	sbcs	r0, r5
	strb	r4, [r3, #12]
	ldr	r4, [sp, #20]                   @ 4-byte Reload
	ldr	r0, [sp, #60]                   @ 4-byte Reload
	strb	r7, [r3, #11]
	add	r7, sp, #76
	strb	r1, [r3, #14]
	strb.w	r12, [r3, #13]
	strb.w	r10, [r3, #9]
	strb.w	r11, [r3, #8]
	strb	r0, [r3, #1]
	blo.w	.Laes_v7m_BB9_15
@ %bb.16:
	ldrd	r10, r11, [sp, #368]
.Laes_v7m_BB9_17:                               @ %after.4.i
	subs.w	r0, lr, r8
	sbcs.w	r0, r2, r9
	bhs	.Laes_v7m_BB9_27
@ %bb.18:                               @ %then.9.i
	orrs.w	r0, r6, r5
	beq	.Laes_v7m_BB9_27
@ %bb.19:                               @ %join.8.i28.preheader
	add.w	r0, lr, r4
	bic	r0, r0, #15
	adds	r1, r7, r0
	ldr	r0, [sp, #72]                   @ 4-byte Reload
	subs	r2, r6, #4
	add	r0, lr
	sbcs	r2, r5, #0
	and	r12, r6, #3
	bhs	.Laes_v7m_BB9_21
@ %bb.20:
	movs	r3, #0
	b	.Laes_v7m_BB9_24
	.p2align	2
.Laes_v7m_BB9_21:                               @ %join.8.i28.preheader.new
	and	r7, r6, #12
	movs	r3, #0
	movs	r6, #0
	.p2align	2
.Laes_v7m_BB9_22:                               @ %join.8.i28
                                        @ =>This Inner Loop Header: Depth=1
	ldrb	r5, [r1, r3]
	ldrb	r4, [r0, r3]
	eors	r5, r4
	strb	r5, [r0, r3]
	orr	r5, r3, #1
	ldrb	r4, [r1, r5]
	ldrb	r2, [r0, r5]
	eors	r2, r4
	strb	r2, [r0, r5]
	orr	r2, r3, #2
	ldrb	r5, [r1, r2]
	ldrb	r4, [r0, r2]
	eors	r5, r4
	strb	r5, [r0, r2]
	orr	r2, r3, #3
	ldrb	r5, [r1, r2]
	ldrb	r4, [r0, r2]
	adds	r3, #4
	eor.w	r5, r5, r4
	adc	r6, r6, #0
	eor.w	r4, r3, r7
	orrs	r4, r6
	strb	r5, [r0, r2]
	bne	.Laes_v7m_BB9_22
@ %bb.23:                               @ %"aes_ctr::add_blocks::add_blocks.exit.loopexit.unr-lcssa"
	cmp.w	r12, #0
	beq	.Laes_v7m_BB9_27
.Laes_v7m_BB9_24:                               @ %join.8.i28.epil.preheader
	ldrb	r2, [r1, r3]
	ldrb	r7, [r0, r3]
	cmp.w	r12, #1
	eor.w	r2, r2, r7
	strb	r2, [r0, r3]
	beq	.Laes_v7m_BB9_27
@ %bb.25:                               @ %join.8.i28.epil.1
	adds	r2, r3, #1
	ldrb	r7, [r1, r2]
	ldrb	r6, [r0, r2]
	cmp.w	r12, #2
	eor.w	r7, r7, r6
	strb	r7, [r0, r2]
	beq	.Laes_v7m_BB9_27
@ %bb.26:                               @ %join.8.i28.epil.2
	adds	r2, r3, #2
	ldrb	r1, [r1, r2]
	ldrb	r3, [r0, r2]
	eors	r1, r3
	strb	r1, [r0, r2]
.Laes_v7m_BB9_27:                               @ %"aes_ctr::add_blocks::add_blocks.exit"
	adds.w	r0, r8, r10
	adc.w	r1, r9, r11
	add	sp, #332
	pop.w	{r4, r5, r6, r7, r8, r9, r10, r11, pc}
.Laes_v7m_func_end9:
	.size	aes_v7m.aes_ctr.add_in_batches.add_next, .Laes_v7m_func_end9-aes_v7m.aes_ctr.add_in_batches.add_next
	.cantunwind
	.fnend
                                        @ -- End function
	.section	.text.aes_v7m.aes_cipher.zeroize.stack.wipe_stack.2032,"ax",%progbits
	.p2align	2                               @ -- Begin function aes_cipher::zeroize::stack::wipe_stack::<=2032>
	.type	aes_v7m.aes_cipher.zeroize.stack.wipe_stack.2032,%function
	.code	16
	.thumb_func
aes_v7m.aes_cipher.zeroize.stack.wipe_stack.2032: @ @aes_v7m.aes_cipher.zeroize.stack.wipe_stack.2032
	.fnstart
@ %bb.0:                                @ %start
	.save	{r4, r5, r7, lr}
	push	{r4, r5, r7, lr}
	.pad	#2040
	sub.w	sp, sp, #2040
	add	r4, sp, #8
	mov	r0, r4
	movs	r1, #0
	mov.w	r2, #2032
	movs	r5, #0
	bl	memset
	strd	r5, r5, [sp]
	@APP
	@NO_APP
	mov	r0, sp
	ldrd	r1, r2, [r0]
	@APP
	@NO_APP
	subs.w	r3, r1, #2032
	sbcs	r2, r2, #0
	itt	hs
	addhs.w	sp, sp, #2040
	pophs	{r4, r5, r7, pc}
.Laes_v7m_BB10_1:                               @ %then.1
	ldrb	r1, [r4, r1]
	@APP
	@NO_APP
	ldrd	r2, r3, [r0]
	strd	r1, r5, [r0]
	@APP
	@NO_APP
	add.w	sp, sp, #2040
	pop	{r4, r5, r7, pc}
.Laes_v7m_func_end10:
	.size	aes_v7m.aes_cipher.zeroize.stack.wipe_stack.2032, .Laes_v7m_func_end10-aes_v7m.aes_cipher.zeroize.stack.wipe_stack.2032
	.cantunwind
	.fnend
                                        @ -- End function
	.section	.text.aes_v7m.aes_cipher.zeroize.elements.zeroize_elements.1,"ax",%progbits
	.p2align	2                               @ -- Begin function aes_cipher::zeroize::elements::zeroize_elements::<#54a2bb646728b9ee>
	.type	aes_v7m.aes_cipher.zeroize.elements.zeroize_elements.1,%function
	.code	16
	.thumb_func
aes_v7m.aes_cipher.zeroize.elements.zeroize_elements.1: @ @aes_v7m.aes_cipher.zeroize.elements.zeroize_elements.1
	.fnstart
@ %bb.0:                                @ %start
	.save	{r4, r5, r6, r7, lr}
	push	{r4, r5, r6, r7, lr}
	.pad	#12
	sub	sp, #12
	movs	r1, #0
	strd	r1, r1, [sp]
	@APP
	@NO_APP
	mov	r5, sp
	ldrd	r6, r1, [r5]
	@APP
	@NO_APP
	subs.w	r2, r6, #120
	sbcs	r1, r1, #0
	bhs	.Laes_v7m_BB11_2
@ %bb.1:                                @ %then.1.i
	ldr.w	r7, [r0, r6, lsl #2]
	movs	r1, #0
	mov.w	r2, #480
	mov	r4, r0
	bl	memset
	ldr.w	r0, [r4, r6, lsl #2]
	and.w	r4, r7, r0
	b	.Laes_v7m_BB11_3
	.p2align	2
.Laes_v7m_BB11_2:                               @ %"aes_cipher::zeroize::observe::<#94bc162b3f62047f>.exit12"
	movs	r1, #0
	mov.w	r2, #480
	movs	r4, #0
	bl	memset
.Laes_v7m_BB11_3:                               @ %"aes_cipher::zeroize::observe::<#94bc162b3f62047f>.exit"
	@APP
	@NO_APP
	ldrd	r1, r2, [r5]
	uxtb	r0, r4
	movs	r1, #0
	strd	r0, r1, [r5]
	@APP
	@NO_APP
	add	sp, #12
	b	.Laes_v7m_return_6099
.Laes_v7m_return_6099:
	movs	r1, #0
	movs	r2, #0
	movs	r3, #0
	mov	r12, r1
	mov	lr, r1
	pop	{r4, r5, r6, r7, pc}
.Laes_v7m_func_end11:
	.size	aes_v7m.aes_cipher.zeroize.elements.zeroize_elements.1, .Laes_v7m_func_end11-aes_v7m.aes_cipher.zeroize.elements.zeroize_elements.1
	.cantunwind
	.fnend
                                        @ -- End function
	.section	.text.aes_v7m.cmac.tags.tag,"ax",%progbits
	.p2align	2                               @ -- Begin function cmac::tags::tag::<#4f733d09d7f6c6b4>
	.type	aes_v7m.cmac.tags.tag,%function
	.code	16
	.thumb_func
aes_v7m.cmac.tags.tag: @ @aes_v7m.cmac.tags.tag
	.fnstart
@ %bb.0:                                @ %start
	.save	{r4, r5, r6, r7, r8, r9, r10, lr}
	push.w	{r4, r5, r6, r7, r8, r9, r10, lr}
	.pad	#40
	sub	sp, #40
	ldrd	r10, r8, [sp, #72]
	mov	r4, r0
	orrs.w	r0, r10, r8
	it	ne
	movne	r0, #1
	sub.w	r0, r10, r0
	add.w	r9, sp, #8
	mov	r5, r1
	bic	r7, r0, #15
	movs	r3, #0
	mov	r0, r1
	mov	r1, r9
	mov	r6, r2
	strd	r3, r3, [sp, #16]
	strd	r3, r3, [sp, #8]
	strd	r7, r3, [sp]
	bl	aes_v7m.cmac.chaining.chain
	adds	r3, r6, r7
	subs.w	r7, r10, r7
	sbc	r6, r8, #0
	add	r0, sp, #24
	mov	r1, r5
	mov	r2, r9
	strd	r7, r6, [sp]
	bl	aes_v7m.cmac.tags.tag_at_end
	add	r3, sp, #24
	ldr	r2, [sp, #36]
	ldm	r3, {r0, r1, r3}
	str	r2, [r4, #12]
	str	r3, [r4, #8]
	str	r1, [r4, #4]
	str	r0, [r4]
	add	sp, #40
	pop.w	{r4, r5, r6, r7, r8, r9, r10, pc}
.Laes_v7m_func_end12:
	.size	aes_v7m.cmac.tags.tag, .Laes_v7m_func_end12-aes_v7m.cmac.tags.tag
	.cantunwind
	.fnend
                                        @ -- End function
	.section	.text.aes_v7m.cmac.chaining.chain,"ax",%progbits
	.p2align	2                               @ -- Begin function cmac::chaining::chain::<#4f733d09d7f6c6b4>
	.type	aes_v7m.cmac.chaining.chain,%function
	.code	16
	.thumb_func
aes_v7m.cmac.chaining.chain: @ @aes_v7m.cmac.chaining.chain
	.fnstart
@ %bb.0:                                @ %start
	.save	{r4, r5, r6, r7, r8, r9, r10, r11, lr}
	push.w	{r4, r5, r6, r7, r8, r9, r10, r11, lr}
	.pad	#92
	sub	sp, #92
	ldrd	r6, r4, [sp, #128]
	mov	r5, r1
	lsrs	r1, r6, #4
	orr.w	r1, r1, r4, lsl #28
	lsr.w	r12, r4, #4
	adds.w	lr, r1, #1
	adc	r7, r12, #0
	lsls	r3, r6, #28
	itt	eq
	moveq	lr, r1
	moveq	r7, r12
	orrs.w	r1, r6, r4
	beq.w	.Laes_v7m_BB13_3
@ %bb.1:                                @ %join.5.lr.ph
	mov.w	r10, #0
	mov.w	r8, #0
	movs	r1, #0
	add	r3, sp, #20
	str	r2, [sp, #32]                   @ 4-byte Spill
	stm.w	r3, {r0, r7, lr}                @ 12-byte Folded Spill
	.p2align	2
.Laes_v7m_BB13_2:                               @ %join.5
                                        @ =>This Inner Loop Header: Depth=1
	str	r1, [sp, #72]                   @ 4-byte Spill
	lsls	r0, r1, #4
	movs	r1, #16
	orr.w	r0, r0, r8, lsr #28
	adds.w	r3, r1, r8, lsl #4
	adc	r0, r0, #0
	subs	r1, r3, r6
	sbcs	r0, r4
	it	hs
	movhs	r3, r6
	add.w	r1, r2, r8, lsl #4
	sub.w	r2, r3, r8, lsl #4
	add	r0, sp, #76
	strd	r10, r10, [sp, #84]
	strd	r10, r10, [sp, #76]
	bl	memcpy
	ldrb	r0, [r5, #4]
	ldrb.w	lr, [r5, #15]
	str	r0, [sp, #68]                   @ 4-byte Spill
	ldrb	r0, [r5, #5]
	ldrb	r3, [r5, #13]
	str	r0, [sp, #64]                   @ 4-byte Spill
	ldrb	r0, [r5, #6]
	ldrb	r7, [r5, #14]
	str	r0, [sp, #56]                   @ 4-byte Spill
	ldrb.w	r0, [sp, #91]
	ldrb.w	r1, [sp, #90]
	eor.w	r0, r0, lr
	str	r0, [sp, #60]                   @ 4-byte Spill
	ldrb.w	r0, [sp, #89]
	ldrb	r2, [r5, #11]
	eors	r0, r3
	eors	r1, r7
	str	r0, [sp, #48]                   @ 4-byte Spill
	ldrb.w	r0, [sp, #87]
	ldrb	r6, [r5, #12]
	str	r1, [sp, #52]                   @ 4-byte Spill
	ldrb.w	r1, [sp, #88]
	eors	r0, r2
	ldrb.w	r11, [r5, #9]
	eors	r1, r6
	str	r0, [sp, #40]                   @ 4-byte Spill
	ldrb.w	r0, [sp, #85]
	ldrb.w	r12, [r5, #10]
	str	r1, [sp, #44]                   @ 4-byte Spill
	ldrb.w	r1, [sp, #86]
	ldrb.w	r9, [r5, #7]
	eor.w	lr, r0, r11
	ldrb.w	r0, [sp, #83]
	eor.w	r1, r1, r12
	ldrb.w	r10, [r5, #8]
	str	r1, [sp, #36]                   @ 4-byte Spill
	ldrb.w	r1, [sp, #84]
	ldrb.w	r6, [sp, #82]
	eor.w	r3, r0, r9
	ldr	r0, [sp, #56]                   @ 4-byte Reload
	eor.w	r12, r1, r10
	ldrb.w	r7, [sp, #81]
	eors	r6, r0
	ldrb.w	r0, [sp, #80]
	ldr	r1, [sp, #64]                   @ 4-byte Reload
	ldr	r2, [sp, #68]                   @ 4-byte Reload
	eors	r7, r1
	ldrb	r1, [r5, #3]
	eors	r2, r0
	ldrb.w	r0, [sp, #79]
	ldrb	r4, [r5, #2]
	eors	r0, r1
	strb	r0, [r5, #3]
	ldr	r0, [sp, #36]                   @ 4-byte Reload
	ldrb.w	r9, [sp, #78]
	strb	r0, [r5, #10]
	ldr	r0, [sp, #40]                   @ 4-byte Reload
	eor.w	r9, r9, r4
	strb	r0, [r5, #11]
	ldr	r0, [sp, #44]                   @ 4-byte Reload
	ldrb	r1, [r5]
	strb	r0, [r5, #12]
	ldr	r0, [sp, #48]                   @ 4-byte Reload
	ldrb.w	r10, [r5, #1]
	strb	r0, [r5, #13]
	ldr	r0, [sp, #52]                   @ 4-byte Reload
	ldrb.w	r11, [sp, #77]
	ldrb.w	r4, [sp, #76]
	strb	r0, [r5, #14]
	ldr	r0, [sp, #60]                   @ 4-byte Reload
	eor.w	r10, r10, r11
	eors	r1, r4
	strb.w	r9, [r5, #2]
	ldr.w	r9, [sp, #20]                   @ 4-byte Reload
	strb	r1, [r5]
	strb.w	r10, [r5, #1]
	strb	r2, [r5, #4]
	strb	r7, [r5, #5]
	strb	r6, [r5, #6]
	strb	r3, [r5, #7]
	strb.w	r12, [r5, #8]
	strb.w	lr, [r5, #9]
	strb	r0, [r5, #15]
	ldr.w	r0, [r9]
	ldr.w	r2, [r9, #8]
	ldr.w	r3, [r9, #12]
	movs	r1, #1
	movs	r7, #0
	mov.w	r10, #0
	strd	r1, r7, [sp, #8]
	str	r5, [sp]
	bl	aes_v7m.aes_narrow.blocks.process_all_batches.1
	bl	aes_v7m.aes_cipher.zeroize.stack.wipe_stack.1024
	ldr	r1, [sp, #72]                   @ 4-byte Reload
	ldrd	r7, lr, [sp, #24]               @ 8-byte Folded Reload
	adds.w	r8, r8, #1
	ldrd	r6, r4, [sp, #128]
	ldr	r2, [sp, #32]                   @ 4-byte Reload
	adc	r1, r1, #0
	subs.w	r0, r8, lr
	sbcs.w	r0, r1, r7
	blo.w	.Laes_v7m_BB13_2
.Laes_v7m_BB13_3:                               @ %after.1
	add	sp, #92
	pop.w	{r4, r5, r6, r7, r8, r9, r10, r11, pc}
.Laes_v7m_func_end13:
	.size	aes_v7m.cmac.chaining.chain, .Laes_v7m_func_end13-aes_v7m.cmac.chaining.chain
	.cantunwind
	.fnend
                                        @ -- End function
	.section	.text.aes_v7m.cmac.tags.tag_at_end,"ax",%progbits
	.p2align	2                               @ -- Begin function cmac::tags::tag_at_end::<#4f733d09d7f6c6b4>
	.type	aes_v7m.cmac.tags.tag_at_end,%function
	.code	16
	.thumb_func
aes_v7m.cmac.tags.tag_at_end: @ @aes_v7m.cmac.tags.tag_at_end
	.fnstart
@ %bb.0:                                @ %start
	.save	{r4, r5, r6, r7, r8, r9, r10, r11, lr}
	push.w	{r4, r5, r6, r7, r8, r9, r10, r11, lr}
	.pad	#108
	sub	sp, #108
	str	r3, [sp, #64]                   @ 4-byte Spill
	mov	r8, r2
	str	r0, [sp, #72]                   @ 4-byte Spill
	ldr	r0, [r1]
	ldr	r2, [r1, #8]
	str	r1, [sp, #68]                   @ 4-byte Spill
	ldr	r3, [r1, #12]
	movs	r7, #0
	movs	r1, #1
	strd	r1, r7, [sp, #8]
	add	r1, sp, #92
	strd	r7, r7, [sp, #100]
	strd	r7, r7, [sp, #92]
	str	r1, [sp]
	bl	aes_v7m.aes_narrow.blocks.process_all_batches.1
	bl	aes_v7m.aes_cipher.zeroize.stack.wipe_stack.1024
	ldrb.w	r1, [sp, #93]
	ldrb.w	r0, [sp, #92]
	ldrb.w	r2, [sp, #94]
	lsls	r1, r1, #16
	ldrb.w	r5, [sp, #101]
	lsl.w	lr, r0, #24
	orr.w	r0, r1, r0, lsl #24
	ldrb.w	r3, [sp, #95]
	orr.w	r0, r0, r2, lsl #8
	ldrb.w	r2, [sp, #100]
	ldrb.w	r4, [sp, #102]
	lsls	r5, r5, #16
	ldrb.w	r12, [sp, #103]
	add	r0, r3
	ldr	r1, [sp, #96]
	lsls	r3, r2, #24
	orr.w	r2, r5, r2, lsl #24
	orr.w	r2, r2, r4, lsl #8
	ldr	r4, [sp, #104]
	rev	r1, r1
	add	r2, r12
	lsls	r0, r0, #1
	rev	r4, r4
	lsls	r5, r1, #1
	orr.w	r9, r0, r1, lsr #31
	lsls	r0, r2, #1
	movs	r6, #135
	orr.w	r11, r5, r3, lsr #31
	orr.w	r5, r0, r4, lsr #31
	and.w	r0, r6, lr, asr #31
	eor.w	r10, r0, r4, lsl #1
	ldr	r4, [sp, #144]
	strd	r7, r7, [sp, #92]
	strd	r7, r7, [sp, #100]
	add	r7, sp, #92
	ldr	r1, [sp, #64]                   @ 4-byte Reload
	mov	r0, r7
	mov	r2, r4
	bl	memcpy
	ldr	r2, [sp, #148]
	eor	r0, r4, #16
	orrs	r0, r2
	bne	.Laes_v7m_BB14_2
@ %bb.1:                                @ %then.1.i
	uxth.w	r0, r10
	ldrb.w	r3, [sp, #92]
	ldrb.w	r4, [sp, #94]
	str	r0, [sp, #28]                   @ 4-byte Spill
	uxth	r0, r5
	uxth.w	r2, r9
	ldrb.w	r7, [sp, #93]
	str	r0, [sp, #36]                   @ 4-byte Spill
	ldrb.w	r0, [sp, #95]
	ldrb.w	r12, [sp, #97]
	ldrb.w	r1, [sp, #98]
	eor.w	r2, r4, r2, lsr #8
	eor.w	r3, r3, r9, lsr #24
	uxth.w	r6, r11
	str	r2, [sp, #56]                   @ 4-byte Spill
	ldrb.w	r2, [sp, #99]
	str	r3, [sp, #64]                   @ 4-byte Spill
	eor.w	r3, r7, r9, lsr #16
	str	r3, [sp, #60]                   @ 4-byte Spill
	eor.w	r0, r0, r9
	eor.w	r1, r1, r6, lsr #8
	eor.w	r3, r12, r11, lsr #16
	str	r0, [sp, #52]                   @ 4-byte Spill
	ldrb.w	r0, [sp, #100]
	str	r1, [sp, #44]                   @ 4-byte Spill
	ldrb.w	r1, [sp, #102]
	str	r3, [sp, #48]                   @ 4-byte Spill
	eor.w	r2, r2, r11
	ldr	r3, [sp, #36]                   @ 4-byte Reload
	str	r2, [sp, #40]                   @ 4-byte Spill
	ldrb.w	r2, [sp, #101]
	eor.w	r7, r1, r3, lsr #8
	ldrb.w	r1, [sp, #103]
	eor.w	r0, r0, r5, lsr #24
	str	r0, [sp, #36]                   @ 4-byte Spill
	eor.w	r0, r2, r5, lsr #16
	ldrb.w	lr, [sp, #96]
	str	r0, [sp, #32]                   @ 4-byte Spill
	eor.w	r12, r1, r5
	ldrb.w	r0, [sp, #106]
	ldrb.w	r1, [sp, #104]
	ldr	r2, [sp, #28]                   @ 4-byte Reload
	eor.w	r6, lr, r11, lsr #24
	eor.w	r11, r0, r2, lsr #8
	eor.w	r9, r1, r10, lsr #24
	ldrb.w	r0, [sp, #105]
	ldrb.w	r1, [sp, #107]
	eor.w	lr, r0, r10, lsr #16
	eor.w	r4, r1, r10
	b	.Laes_v7m_BB14_3
	.p2align	2
.Laes_v7m_BB14_2:                               @ %else.2.i
	ubfx	r3, r5, #7, #8
	mov	r1, r4
	str	r3, [sp, #36]                   @ 4-byte Spill
	movs	r3, #128
	lsl.w	r0, r11, #1
	strb	r3, [r7, r1]
	orr.w	r2, r0, r5, lsr #31
	ldrb.w	r3, [sp, #92]
	lsls	r4, r5, #1
	str	r2, [sp, #40]                   @ 4-byte Spill
	lsl.w	r2, r9, #1
	ubfx	r5, r9, #7, #8
	and.w	r6, r6, r9, asr #31
	ldrb.w	r7, [sp, #93]
	ldrb.w	r9, [sp, #94]
	eor.w	r3, r3, r2, lsr #24
	orr.w	lr, r2, r11, lsr #31
	ldrb.w	r1, [sp, #95]
	str	r3, [sp, #64]                   @ 4-byte Spill
	eor.w	r2, r7, r2, lsr #16
	eor.w	r3, r9, r5
	ldrb.w	r12, [sp, #96]
	str	r2, [sp, #60]                   @ 4-byte Spill
	ldrb.w	r2, [sp, #97]
	str	r3, [sp, #56]                   @ 4-byte Spill
	ldrb.w	r3, [sp, #98]
	ubfx	r11, r11, #7, #8
	eor.w	r1, r1, lr
	str	r1, [sp, #52]                   @ 4-byte Spill
	ldrb.w	r1, [sp, #99]
	eor.w	r5, r12, r0, lsr #24
	eor.w	r0, r2, r0, lsr #16
	eor.w	r2, r3, r11
	ldr	r3, [sp, #40]                   @ 4-byte Reload
	str	r0, [sp, #48]                   @ 4-byte Spill
	ldrb.w	r0, [sp, #100]
	eors	r1, r3
	str	r2, [sp, #44]                   @ 4-byte Spill
	ldrb.w	r2, [sp, #102]
	str	r1, [sp, #40]                   @ 4-byte Spill
	ldrb.w	r1, [sp, #101]
	ldr	r3, [sp, #36]                   @ 4-byte Reload
	eor.w	r0, r0, r4, lsr #24
	eor.w	r7, r2, r3
	ldrb.w	r2, [sp, #103]
	str	r0, [sp, #36]                   @ 4-byte Spill
	eor.w	r0, r1, r4, lsr #16
	str	r0, [sp, #32]                   @ 4-byte Spill
	orr.w	r0, r4, r10, lsr #31
	eor.w	r12, r2, r0
	ldrb.w	r2, [sp, #105]
	lsl.w	r0, r10, #1
	ldrb.w	r1, [sp, #104]
	eor.w	lr, r2, r0, lsr #16
	ldrb.w	r2, [sp, #106]
	ldrb.w	r4, [sp, #107]
	eor.w	r9, r1, r0, lsr #24
	eor.w	r0, r6, r10, lsl #1
	ubfx	r1, r10, #7, #8
	mov	r6, r5
	eor.w	r11, r2, r1
	eors	r4, r0
.Laes_v7m_BB14_3:                               @ %"cmac::tags::last_block::<#4f733d09d7f6c6b4>.exit"
	ldrb.w	r0, [r8, #15]
	ldrb.w	r1, [r8, #14]
	eors	r0, r4
	str	r0, [sp, #28]                   @ 4-byte Spill
	eor.w	r0, r1, r11
	str	r0, [sp, #24]                   @ 4-byte Spill
	ldrb.w	r0, [r8, #13]
	ldrb.w	r3, [r8, #10]
	eor.w	r0, r0, lr
	ldrb.w	r1, [r8, #12]
	str	r0, [sp, #20]                   @ 4-byte Spill
	eor.w	r11, r3, r7
	ldrb.w	r7, [r8, #9]
	ldr	r0, [sp, #32]                   @ 4-byte Reload
	eor.w	r10, r1, r9
	ldrb.w	r2, [r8, #11]
	ldrb.w	r4, [r8, #8]
	eor.w	lr, r7, r0
	ldr	r0, [sp, #36]                   @ 4-byte Reload
	ldrb.w	r5, [r8, #7]
	ldr	r1, [sp, #40]                   @ 4-byte Reload
	eor.w	r9, r2, r12
	eors	r4, r0
	ldrb.w	r0, [r8, #6]
	eors	r5, r1
	ldr	r1, [sp, #44]                   @ 4-byte Reload
	ldrb.w	r2, [r8, #4]
	eor.w	r12, r0, r1
	ldrb.w	r1, [r8, #5]
	ldr	r0, [sp, #48]                   @ 4-byte Reload
	eors	r2, r6
	ldrb.w	r3, [r8, #3]
	ldr	r6, [sp, #52]                   @ 4-byte Reload
	eors	r1, r0
	ldrb.w	r0, [r8, #2]
	eors	r3, r6
	ldr	r6, [sp, #56]                   @ 4-byte Reload
	ldr	r7, [sp, #60]                   @ 4-byte Reload
	eors	r0, r6
	strb.w	r0, [sp, #78]
	ldr	r0, [sp, #20]                   @ 4-byte Reload
	ldrb.w	r6, [r8, #1]
	strb.w	r1, [sp, #81]
	strb.w	r0, [sp, #89]
	ldr	r0, [sp, #24]                   @ 4-byte Reload
	ldr	r1, [sp, #68]                   @ 4-byte Reload
	ldrb.w	r8, [r8]
	eors	r6, r7
	ldr	r7, [sp, #64]                   @ 4-byte Reload
	strb.w	r3, [sp, #79]
	strb.w	r2, [sp, #80]
	strb.w	r0, [sp, #90]
	ldr	r0, [r1]
	ldr	r2, [r1, #8]
	ldr	r3, [r1, #12]
	ldr	r1, [sp, #28]                   @ 4-byte Reload
	eor.w	r7, r7, r8
	strb.w	r7, [sp, #76]
	strb.w	r1, [sp, #91]
	movs	r1, #0
	movs	r7, #1
	strd	r7, r1, [sp, #8]
	add	r1, sp, #76
	strb.w	r6, [sp, #77]
	strb.w	r12, [sp, #82]
	strb.w	r5, [sp, #83]
	strb.w	r4, [sp, #84]
	strb.w	lr, [sp, #85]
	strb.w	r11, [sp, #86]
	strb.w	r9, [sp, #87]
	strb.w	r10, [sp, #88]
	str	r1, [sp]
	bl	aes_v7m.aes_narrow.blocks.process_all_batches.1
	bl	aes_v7m.aes_cipher.zeroize.stack.wipe_stack.1024
	ldr	r2, [sp, #88]
	ldrd	r1, r3, [sp, #80]
	ldrd	r7, r0, [sp, #72]               @ 4-byte Reload
	str	r2, [r7, #12]
	str	r3, [r7, #8]
	str	r1, [r7, #4]
	str	r0, [r7]
	add	sp, #108
	pop.w	{r4, r5, r6, r7, r8, r9, r10, r11, pc}
.Laes_v7m_func_end14:
	.size	aes_v7m.cmac.tags.tag_at_end, .Laes_v7m_func_end14-aes_v7m.cmac.tags.tag_at_end
	.cantunwind
	.fnend
                                        @ -- End function
	.section	.text.aes_v7m.cmac.pieces.MessageZeroize.zeroize,"ax",%progbits
	.p2align	2                               @ -- Begin function cmac::pieces::MessageZeroize::zeroize
	.type	aes_v7m.cmac.pieces.MessageZeroize.zeroize,%function
	.code	16
	.thumb_func
aes_v7m.cmac.pieces.MessageZeroize.zeroize: @ @aes_v7m.cmac.pieces.MessageZeroize.zeroize
	.fnstart
@ %bb.0:                                @ %start
	.save	{r4, lr}
	push	{r4, lr}
	mov	r4, r0
	adds	r0, #16
	movs	r1, #0
	strd	r1, r1, [r4]
	strd	r1, r1, [r4, #8]
	bl	aes_v7m.aes_cipher.zeroize.elements.zeroize_elements.2
	add.w	r0, r4, #32
	pop.w	{r4, lr}
	b	aes_v7m.aes_cipher.zeroize.elements.zeroize_elements.2
.Laes_v7m_func_end15:
	.size	aes_v7m.cmac.pieces.MessageZeroize.zeroize, .Laes_v7m_func_end15-aes_v7m.cmac.pieces.MessageZeroize.zeroize
	.cantunwind
	.fnend
                                        @ -- End function
	.section	.text.aes_v7m.aes_cipher.zeroize.elements.zeroize_elements.2,"ax",%progbits
	.p2align	2                               @ -- Begin function aes_cipher::zeroize::elements::zeroize_elements::<#331496ca003a3905>
	.type	aes_v7m.aes_cipher.zeroize.elements.zeroize_elements.2,%function
	.code	16
	.thumb_func
aes_v7m.aes_cipher.zeroize.elements.zeroize_elements.2: @ @aes_v7m.aes_cipher.zeroize.elements.zeroize_elements.2
	.fnstart
@ %bb.0:                                @ %start
	.pad	#8
	sub	sp, #8
	movs	r1, #0
	strd	r1, r1, [sp]
	@APP
	@NO_APP
	mov	r12, sp
	ldrd	r3, r2, [r12]
	@APP
	@NO_APP
	str	r1, [r0, #12]
	str	r1, [r0, #8]
	str	r1, [r0, #4]
	str	r1, [r0]
	@APP
	@NO_APP
	ldrd	r0, r2, [r12]
	strd	r1, r1, [r12]
	@APP
	@NO_APP
	add	sp, #8
	b	.Laes_v7m_return_6652
.Laes_v7m_return_6652:
	movs	r1, #0
	movs	r2, #0
	movs	r3, #0
	mov	r12, r1
	bx	lr
.Laes_v7m_func_end16:
	.size	aes_v7m.aes_cipher.zeroize.elements.zeroize_elements.2, .Laes_v7m_func_end16-aes_v7m.aes_cipher.zeroize.elements.zeroize_elements.2
	.cantunwind
	.fnend
                                        @ -- End function
	.section	.text.aes_v7m.cmac.chain_in_pieces.ChainInPieces.extend,"ax",%progbits
	.p2align	2                               @ -- Begin function cmac::chain_in_pieces::ChainInPieces::extend::<#4f733d09d7f6c6b4>
	.type	aes_v7m.cmac.chain_in_pieces.ChainInPieces.extend,%function
	.code	16
	.thumb_func
aes_v7m.cmac.chain_in_pieces.ChainInPieces.extend: @ @aes_v7m.cmac.chain_in_pieces.ChainInPieces.extend
	.fnstart
@ %bb.0:                                @ %start
	.save	{r4, r5, r6, r7, r8, r9, r10, r11, lr}
	push.w	{r4, r5, r6, r7, r8, r9, r10, r11, lr}
	.pad	#28
	sub	sp, #28
	mov	lr, r0
	ldrd	r8, r0, [r0]
	ldr	r5, [sp, #64]
	cmp.w	r8, #16
	mov.w	r3, #16
	it	hs
	movhs	r8, r3
	cmp	r0, #0
	ldr	r6, [sp, #68]
	it	ne
	movne	r8, r3
	movs	r7, #0
	rsbs.w	r3, r8, #16
	sbc	r4, r7, #0
	subs	r0, r3, r5
	sbcs.w	r0, r4, r6
	bhs	.Laes_v7m_BB17_9
@ %bb.1:                                @ %join.3
	add.w	r11, lr, #24
	subs	r5, r5, r3
	add.w	r0, r11, r8
	str	r1, [sp, #24]                   @ 4-byte Spill
	sbc.w	r9, r6, r4
	subs	r1, r0, r2
	sbc	r7, r7, #0
	subs	r1, r1, r3
	sbcs.w	r1, r7, r4
	add.w	r6, r2, r3
	bhs	.Laes_v7m_BB17_12
@ %bb.2:                                @ %join.7.i.i.i.i.i.i39.preheader
	movs	r1, #0
	subs.w	r7, r8, #13
	sbc	r4, r1, #0
	subs	r7, #3
	sbcs	r7, r4, #0
	and	r12, r3, #3
	blo	.Laes_v7m_BB17_6
@ %bb.3:                                @ %join.7.i.i.i.i.i.i39.preheader.new
	str.w	r9, [sp, #20]                   @ 4-byte Spill
	mov	r10, r6
	mov	r9, r5
	and	r3, r3, #28
	movs	r7, #0
	.p2align	2
.Laes_v7m_BB17_4:                               @ %join.7.i.i.i.i.i.i39
                                        @ =>This Inner Loop Header: Depth=1
	ldrb	r4, [r2, r1]
	strb	r4, [r0, r1]
	orr	r4, r1, #1
	ldrb	r5, [r2, r4]
	strb	r5, [r0, r4]
	orr	r5, r1, #2
	ldrb	r4, [r2, r5]
	strb	r4, [r0, r5]
	orr	r5, r1, #3
	adds	r1, #4
	ldrb	r4, [r2, r5]
	adc	r7, r7, #0
	eor.w	r6, r1, r3
	orrs	r6, r7
	strb	r4, [r0, r5]
	bne	.Laes_v7m_BB17_4
@ %bb.5:                                @ %"core::slice::edits::slice+T::copy_from_slice::<i8,20'core::clone::U8Clone{}>.exit46.loopexit.unr-lcssa"
	mov	r5, r9
	ldr.w	r9, [sp, #20]                   @ 4-byte Reload
	cmp.w	r12, #0
	mov	r6, r10
	beq	.Laes_v7m_BB17_13
.Laes_v7m_BB17_6:                               @ %join.7.i.i.i.i.i.i39.epil.preheader
	ldrb	r3, [r2, r1]
	cmp.w	r12, #1
	strb	r3, [r0, r1]
	beq	.Laes_v7m_BB17_13
@ %bb.7:                                @ %join.7.i.i.i.i.i.i39.epil.1
	adds	r3, r1, #1
	ldrb	r7, [r2, r3]
	cmp.w	r12, #2
	strb	r7, [r0, r3]
	beq	.Laes_v7m_BB17_13
@ %bb.8:                                @ %join.7.i.i.i.i.i.i39.epil.2
	adds	r1, #2
	ldrb	r2, [r2, r1]
	strb	r2, [r0, r1]
	b	.Laes_v7m_BB17_13
	.p2align	2
.Laes_v7m_BB17_9:                               @ %then.1
	add.w	r0, lr, r8
	adds.w	r9, r8, r5
	add.w	r0, r0, #24
	adc	r10, r6, #0
	subs	r1, r0, r2
	sbc	r3, r7, #0
	subs	r1, r1, r5
	sbcs.w	r1, r3, r6
	bhs	.Laes_v7m_BB17_16
@ %bb.10:                               @ %join.7.i.i.i.i.i.i.preheader
	subs	r1, r5, #4
	sbcs	r1, r6, #0
	and	r12, r5, #3
	bhs	.Laes_v7m_BB17_20
@ %bb.11:
	movs	r3, #0
	b	.Laes_v7m_BB17_23
	.p2align	2
.Laes_v7m_BB17_12:                              @ %apart.2.i.i.i.i.i.i37
	mov	r1, r2
	mov	r2, r3
	mov	r4, lr
	bl	memmove
	mov	lr, r4
.Laes_v7m_BB17_13:                              @ %"core::slice::edits::slice+T::copy_from_slice::<i8,20'core::clone::U8Clone{}>.exit46"
	subs	r0, r5, #1
	bic	r10, r0, #15
	strd	r5, r6, [sp, #8]                @ 8-byte Folded Spill
	sbc	r4, r9, #0
	add.w	r7, r6, r10
	subs.w	r0, r5, r10
	ldr	r6, [sp, #24]                   @ 4-byte Reload
	sbc.w	r5, r9, r4
	add.w	r9, lr, #8
	str	r0, [sp, #16]                   @ 4-byte Spill
	mov.w	r12, #0
	movs	r3, #16
	mov	r0, r6
	mov	r1, r9
	mov	r2, r11
	str.w	lr, [sp, #20]                   @ 4-byte Spill
	strd	r3, r12, [sp]
	bl	aes_v7m.cmac.chaining.chain
	mov	r1, r9
	ldrd	r2, r9, [sp, #12]               @ 8-byte Folded Reload
	mov	r0, r6
	strd	r10, r4, [sp]
	bl	aes_v7m.cmac.chaining.chain
	subs.w	r0, r11, r7
	mov.w	r1, #0
	sbc	r1, r1, #0
	subs.w	r0, r0, r9
	sbcs.w	r0, r1, r5
	str	r5, [sp, #24]                   @ 4-byte Spill
	bhs	.Laes_v7m_BB17_19
@ %bb.14:                               @ %join.7.i.i.i.i.i.i60.preheader
	ldr	r0, [sp, #64]
	ldr	r1, [sp, #68]
	adds.w	r0, r0, r8
	adc	r1, r1, #0
	subs.w	r0, r0, r10
	sbcs	r1, r4
	subs	r0, #17
	sbc	r1, r1, #0
	subs	r0, #3
	sbcs	r0, r1, #0
	ldr	r0, [sp, #8]                    @ 4-byte Reload
	and	r12, r0, #3
	bhs	.Laes_v7m_BB17_26
@ %bb.15:
	ldrd	lr, r10, [sp, #20]              @ 8-byte Folded Reload
	movs	r1, #0
	b	.Laes_v7m_BB17_29
	.p2align	2
.Laes_v7m_BB17_16:                              @ %apart.2.i.i.i.i.i.i
	mov	r1, r2
	mov	r2, r5
	mov	r5, lr
	bl	memmove
.Laes_v7m_BB17_17:                              @ %common.ret
	mov	lr, r5
.Laes_v7m_BB17_18:                              @ %common.ret
	strd	r9, r10, [lr]
	add	sp, #28
	pop.w	{r4, r5, r6, r7, r8, r9, r10, r11, pc}
	.p2align	2
.Laes_v7m_BB17_19:                              @ %apart.2.i.i.i.i.i.i58
	mov	r0, r11
	mov	r1, r7
	mov	r2, r9
	bl	memmove
	ldrd	lr, r10, [sp, #20]              @ 8-byte Folded Reload
	strd	r9, r10, [lr]
	add	sp, #28
	pop.w	{r4, r5, r6, r7, r8, r9, r10, r11, pc}
	.p2align	2
.Laes_v7m_BB17_20:                              @ %join.7.i.i.i.i.i.i.preheader.new
	mov	r8, r9
	bic	r7, r5, #3
	movs	r3, #0
	movs	r6, #0
	.p2align	2
.Laes_v7m_BB17_21:                              @ %join.7.i.i.i.i.i.i
                                        @ =>This Inner Loop Header: Depth=1
	ldrb	r5, [r2, r3]
	strb	r5, [r0, r3]
	orr	r5, r3, #1
	ldrb	r4, [r2, r5]
	strb	r4, [r0, r5]
	orr	r5, r3, #2
	ldrb	r4, [r2, r5]
	strb	r4, [r0, r5]
	orr	r5, r3, #3
	adds	r3, #4
	ldrb	r4, [r2, r5]
	adc	r6, r6, #0
	eor.w	r1, r3, r7
	orrs	r1, r6
	strb	r4, [r0, r5]
	bne	.Laes_v7m_BB17_21
@ %bb.22:                               @ %common.ret.loopexit72.unr-lcssa
	cmp.w	r12, #0
	mov	r9, r8
	beq	.Laes_v7m_BB17_18
.Laes_v7m_BB17_23:                              @ %join.7.i.i.i.i.i.i.epil.preheader
	ldrb	r7, [r2, r3]
	cmp.w	r12, #1
	strb	r7, [r0, r3]
	beq	.Laes_v7m_BB17_18
@ %bb.24:                               @ %join.7.i.i.i.i.i.i.epil.1
	adds	r7, r3, #1
	ldrb	r6, [r2, r7]
	mov	r5, lr
	cmp.w	r12, #2
	strb	r6, [r0, r7]
	beq	.Laes_v7m_BB17_17
@ %bb.25:                               @ %join.7.i.i.i.i.i.i.epil.2
	adds	r1, r3, #2
	ldrb	r2, [r2, r1]
	strb	r2, [r0, r1]
	b	.Laes_v7m_BB17_17
	.p2align	2
.Laes_v7m_BB17_26:                              @ %join.7.i.i.i.i.i.i60.preheader.new
	ldr.w	r10, [sp, #24]                  @ 4-byte Reload
	ldr.w	r8, [sp, #20]                   @ 4-byte Reload
	subs.w	lr, r9, r12
	sbc	r3, r10, #0
	movs	r1, #0
	movs	r5, #0
	.p2align	2
.Laes_v7m_BB17_27:                              @ %join.7.i.i.i.i.i.i60
                                        @ =>This Inner Loop Header: Depth=1
	ldrb	r6, [r7, r1]
	strb.w	r6, [r11, r1]
	orr	r6, r1, #1
	ldrb	r4, [r7, r6]
	strb.w	r4, [r11, r6]
	orr	r6, r1, #2
	ldrb	r4, [r7, r6]
	strb.w	r4, [r11, r6]
	orr	r6, r1, #3
	adds	r1, #4
	adc	r5, r5, #0
	ldrb	r4, [r7, r6]
	eor.w	r0, r1, lr
	eor.w	r2, r5, r3
	orrs	r0, r2
	strb.w	r4, [r11, r6]
	bne	.Laes_v7m_BB17_27
@ %bb.28:                               @ %common.ret.loopexit.unr-lcssa
	cmp.w	r12, #0
	mov	lr, r8
	beq	.Laes_v7m_BB17_18
.Laes_v7m_BB17_29:                              @ %join.7.i.i.i.i.i.i60.epil.preheader
	ldrb	r2, [r7, r1]
	cmp.w	r12, #1
	strb.w	r2, [r11, r1]
	beq	.Laes_v7m_BB17_18
@ %bb.30:                               @ %join.7.i.i.i.i.i.i60.epil.1
	adds	r2, r1, #1
	ldrb	r3, [r7, r2]
	cmp.w	r12, #2
	strb.w	r3, [r11, r2]
	beq.w	.Laes_v7m_BB17_18
@ %bb.31:                               @ %join.7.i.i.i.i.i.i60.epil.2
	adds	r0, r1, #2
	ldrb	r1, [r7, r0]
	strb.w	r1, [r11, r0]
	strd	r9, r10, [lr]
	add	sp, #28
	pop.w	{r4, r5, r6, r7, r8, r9, r10, r11, pc}
.Laes_v7m_func_end17:
	.size	aes_v7m.cmac.chain_in_pieces.ChainInPieces.extend, .Laes_v7m_func_end17-aes_v7m.cmac.chain_in_pieces.ChainInPieces.extend
	.cantunwind
	.fnend
                                        @ -- End function
	.section	.text.aes_v7m.key_wrap.wrapping.wrap,"ax",%progbits
	.p2align	2                               @ -- Begin function key_wrap::wrapping::wrap::<#4f733d09d7f6c6b4>
	.type	aes_v7m.key_wrap.wrapping.wrap,%function
	.code	16
	.thumb_func
aes_v7m.key_wrap.wrapping.wrap: @ @aes_v7m.key_wrap.wrapping.wrap
	.fnstart
@ %bb.0:                                @ %start
	.save	{r4, r5, r6, r7, r8, r9, r10, r11, lr}
	push.w	{r4, r5, r6, r7, r8, r9, r10, r11, lr}
	.pad	#12
	sub	sp, #12
	adds	r4, r2, #1
	adc	r6, r3, #0
	subs	r7, r2, #2
	sbcs	r7, r3, #0
	mov.w	r5, #1
	blo.w	.Laes_v7m_BB18_13
@ %bb.1:                                @ %start
	ldrd	r7, r12, [sp, #56]
	eors	r4, r7
	eor.w	r6, r6, r12
	orrs	r6, r4
	bne.w	.Laes_v7m_BB18_13
@ %bb.2:                                @ %arm.12
	ldr.w	r10, [sp, #48]
	subs.w	r8, r7, #1
	add.w	r11, r10, #8
	sbc	r9, r12, #0
	subs.w	r7, r11, r1
	mov.w	r4, #0
	sbc	r4, r4, #0
	subs.w	r7, r7, r2, lsl #3
	lsl.w	r7, r3, #3
	orr.w	r7, r7, r2, lsr #29
	mov.w	r6, #-1499027802
	sbcs.w	r7, r4, r7
	str.w	r6, [r10, #4]
	str.w	r6, [r10]
	bhs	.Laes_v7m_BB18_5
@ %bb.3:                                @ %join.7.i.i.i.i.i.i.preheader
	subs	r7, r2, #4
	sbcs	r3, r3, #0
	and	r12, r2, #3
	bhs	.Laes_v7m_BB18_6
@ %bb.4:
	movs	r2, #0
	b	.Laes_v7m_BB18_9
	.p2align	2
.Laes_v7m_BB18_5:                               @ %apart.2.i.i.i.i.i.i
	lsls	r2, r2, #3
	mov	r6, r0
	mov	r0, r11
	bl	memmove
	mov	r0, r6
	b	.Laes_v7m_BB18_12
	.p2align	2
.Laes_v7m_BB18_6:                               @ %join.7.i.i.i.i.i.i.preheader.new
	bic	lr, r2, #3
	movs	r2, #0
	movs	r3, #0
	.p2align	2
.Laes_v7m_BB18_7:                               @ %join.7.i.i.i.i.i.i
                                        @ =>This Inner Loop Header: Depth=1
	add.w	r4, r1, r2, lsl #3
	ldr.w	r6, [r1, r2, lsl #3]
	ldr	r4, [r4, #4]
	add.w	r7, r11, r2, lsl #3
	str.w	r6, [r11, r2, lsl #3]
	str	r4, [r7, #4]
	orr	r4, r2, #1
	add.w	r7, r1, r4, lsl #3
	ldr.w	r5, [r1, r4, lsl #3]
	ldr	r7, [r7, #4]
	add.w	r6, r11, r4, lsl #3
	str.w	r5, [r11, r4, lsl #3]
	orr	r4, r2, #2
	str	r7, [r6, #4]
	add.w	r6, r1, r4, lsl #3
	ldr.w	r7, [r1, r4, lsl #3]
	ldr	r6, [r6, #4]
	add.w	r5, r11, r4, lsl #3
	str.w	r7, [r11, r4, lsl #3]
	str	r6, [r5, #4]
	orr	r4, r2, #3
	ldr.w	r7, [r1, r4, lsl #3]
	add.w	r6, r1, r4, lsl #3
	adds	r2, #4
	add.w	r5, r11, r4, lsl #3
	ldr	r6, [r6, #4]
	str.w	r7, [r11, r4, lsl #3]
	adc	r3, r3, #0
	eor.w	r4, r2, lr
	orrs	r4, r3
	str	r6, [r5, #4]
	bne	.Laes_v7m_BB18_7
@ %bb.8:                                @ %"core::slice::edits::slice+T::copy_from_slice::<#76f67ba6cf9709da>.exit.loopexit.unr-lcssa"
	cmp.w	r12, #0
	beq	.Laes_v7m_BB18_12
.Laes_v7m_BB18_9:                               @ %join.7.i.i.i.i.i.i.epil.preheader
	add.w	r7, r1, r2, lsl #3
	ldr.w	r6, [r1, r2, lsl #3]
	ldr	r7, [r7, #4]
	add.w	r3, r11, r2, lsl #3
	cmp.w	r12, #1
	str.w	r6, [r11, r2, lsl #3]
	str	r7, [r3, #4]
	beq	.Laes_v7m_BB18_12
@ %bb.10:                               @ %join.7.i.i.i.i.i.i.epil.1
	adds	r3, r2, #1
	add.w	r6, r1, r3, lsl #3
	ldr.w	r5, [r1, r3, lsl #3]
	ldr	r6, [r6, #4]
	add.w	r7, r11, r3, lsl #3
	cmp.w	r12, #2
	str.w	r5, [r11, r3, lsl #3]
	str	r6, [r7, #4]
	beq	.Laes_v7m_BB18_12
@ %bb.11:                               @ %join.7.i.i.i.i.i.i.epil.2
	adds	r2, #2
	add.w	r7, r1, r2, lsl #3
	ldr.w	r1, [r1, r2, lsl #3]
	ldr	r7, [r7, #4]
	add.w	r3, r11, r2, lsl #3
	str.w	r1, [r11, r2, lsl #3]
	str	r7, [r3, #4]
.Laes_v7m_BB18_12:                              @ %"core::slice::edits::slice+T::copy_from_slice::<#76f67ba6cf9709da>.exit"
	mov	r1, r10
	mov	r2, r11
	strd	r8, r9, [sp]
	bl	aes_v7m.key_wrap.steps.wrap_in_place
	movs	r5, #0
.Laes_v7m_BB18_13:                              @ %return.10
	mov	r0, r5
	add	sp, #12
	pop.w	{r4, r5, r6, r7, r8, r9, r10, r11, pc}
.Laes_v7m_func_end18:
	.size	aes_v7m.key_wrap.wrapping.wrap, .Laes_v7m_func_end18-aes_v7m.key_wrap.wrapping.wrap
	.cantunwind
	.fnend
                                        @ -- End function
	.section	.text.aes_v7m.key_wrap.steps.wrap_in_place,"ax",%progbits
	.p2align	2                               @ -- Begin function key_wrap::steps::wrap_in_place::<#4f733d09d7f6c6b4>
	.type	aes_v7m.key_wrap.steps.wrap_in_place,%function
	.code	16
	.thumb_func
aes_v7m.key_wrap.steps.wrap_in_place: @ @aes_v7m.key_wrap.steps.wrap_in_place
	.fnstart
@ %bb.0:                                @ %start
	.save	{r4, r5, r6, r7, r8, r9, r10, r11, lr}
	push.w	{r4, r5, r6, r7, r8, r9, r10, r11, lr}
	.pad	#52
	sub	sp, #52
	mov	r8, r2
	ldrd	r3, r2, [sp, #88]
	mov	r5, r1
	orrs.w	r1, r3, r2
	beq.w	.Laes_v7m_BB19_13
@ %bb.1:                                @ %join.5.preheader
	ldr	r1, [r5]
	ldr	r7, [r5, #4]
	mov	r11, r0
	mov.w	r10, #0
	movs	r4, #0
	.p2align	2
.Laes_v7m_BB19_2:                               @ %join.5.i
                                        @ =>This Inner Loop Header: Depth=1
	mov	r6, r10
	add.w	r9, r8, r10, lsl #3
	ldr.w	r0, [r11]
	ldr.w	r2, [r11, #8]
	ldr.w	r3, [r11, #12]
	ldr.w	r12, [r8, r6, lsl #3]
	ldr.w	lr, [r9, #4]
	str	r7, [sp, #36]
	str	r1, [sp, #32]
	movs	r1, #1
	movs	r7, #0
	adds.w	r10, r10, #1
	strd	r1, r7, [sp, #8]
	add	r1, sp, #32
	adc	r4, r4, #0
	str.w	lr, [sp, #44]
	str.w	r12, [sp, #40]
	str	r1, [sp]
	bl	aes_v7m.aes_narrow.blocks.process_all_batches.1
	bl	aes_v7m.aes_cipher.zeroize.stack.wipe_stack.1024
	add	r3, sp, #32
	ldm	r3, {r0, r1, r2, r3}
	str	r1, [r5, #4]
	str	r0, [r5]
	str.w	r2, [r8, r6, lsl #3]
	str.w	r3, [r9, #4]
	ldr	r1, [r5, #4]
	ldr	r0, [r5]
	rev.w	r3, r10
	rev	r2, r4
	eor.w	r7, r1, r3
	ldr	r3, [sp, #88]
	eor.w	r1, r0, r2
	ldr	r2, [sp, #92]
	subs.w	r0, r10, r3
	sbcs.w	r0, r4, r2
	str	r1, [r5]
	str	r7, [r5, #4]
	blo	.Laes_v7m_BB19_2
@ %bb.3:                                @ %"key_wrap::steps::wrap_turn::<#4f733d09d7f6c6b4>.exit.loopexit"
	adds	r0, r3, #1
	str	r0, [sp, #24]                   @ 4-byte Spill
	adc	r0, r2, #0
	mov.w	r9, #0
	movs	r4, #0
	str	r0, [sp, #20]                   @ 4-byte Spill
	.p2align	2
.Laes_v7m_BB19_4:                               @ %join.5.i.1
                                        @ =>This Inner Loop Header: Depth=1
	str	r1, [sp, #32]
	ldr.w	r1, [r8, r9, lsl #3]
	add.w	r6, r8, r9, lsl #3
	ldr	r0, [sp, #24]                   @ 4-byte Reload
	ldr	r3, [r6, #4]
	str	r1, [sp, #40]
	ldr	r1, [sp, #20]                   @ 4-byte Reload
	adds.w	r0, r0, r9
	str	r0, [sp, #28]                   @ 4-byte Spill
	ldr.w	r0, [r11]
	ldr.w	r2, [r11, #8]
	str	r7, [sp, #36]
	str	r3, [sp, #44]
	ldr.w	r3, [r11, #12]
	adc.w	r10, r1, r4
	movs	r1, #1
	movs	r7, #0
	strd	r1, r7, [sp, #8]
	add	r1, sp, #32
	str	r1, [sp]
	bl	aes_v7m.aes_narrow.blocks.process_all_batches.1
	bl	aes_v7m.aes_cipher.zeroize.stack.wipe_stack.1024
	add	r3, sp, #32
	ldm	r3, {r0, r1, r2, r3}
	str	r1, [r5, #4]
	str	r0, [r5]
	str.w	r2, [r8, r9, lsl #3]
	str	r3, [r6, #4]
	ldr	r3, [sp, #28]                   @ 4-byte Reload
	ldr	r1, [r5, #4]
	ldr	r0, [r5]
	rev	r3, r3
	rev.w	r2, r10
	eor.w	r7, r1, r3
	ldr	r3, [sp, #88]
	eor.w	r1, r0, r2
	ldr	r2, [sp, #92]
	adds.w	r9, r9, #1
	adc	r4, r4, #0
	subs.w	r0, r9, r3
	sbcs.w	r0, r4, r2
	str	r1, [r5]
	str	r7, [r5, #4]
	blo	.Laes_v7m_BB19_4
@ %bb.5:                                @ %"key_wrap::steps::wrap_turn::<#4f733d09d7f6c6b4>.exit.loopexit.1"
	lsls	r0, r2, #1
	orr.w	r0, r0, r3, lsr #31
	str	r0, [sp, #24]                   @ 4-byte Spill
	lsls	r0, r3, #1
	adds	r0, #1
	mov.w	r10, #0
	movs	r4, #0
	str	r0, [sp, #20]                   @ 4-byte Spill
	.p2align	2
.Laes_v7m_BB19_6:                               @ %join.5.i.2
                                        @ =>This Inner Loop Header: Depth=1
	str	r1, [sp, #32]
	ldr.w	r1, [r8, r10, lsl #3]
	add.w	r9, r8, r10, lsl #3
	ldr	r0, [sp, #20]                   @ 4-byte Reload
	ldr.w	r3, [r9, #4]
	str	r1, [sp, #40]
	ldr	r1, [sp, #24]                   @ 4-byte Reload
	adds.w	r0, r0, r10
	str	r0, [sp, #28]                   @ 4-byte Spill
	ldr.w	r0, [r11]
	ldr.w	r2, [r11, #8]
	str	r7, [sp, #36]
	str	r3, [sp, #44]
	ldr.w	r3, [r11, #12]
	adc.w	r7, r1, r4
	movs	r6, #1
	movs	r1, #0
	strd	r6, r1, [sp, #8]
	add	r1, sp, #32
	str	r1, [sp]
	bl	aes_v7m.aes_narrow.blocks.process_all_batches.1
	bl	aes_v7m.aes_cipher.zeroize.stack.wipe_stack.1024
	add	r3, sp, #32
	ldm	r3, {r0, r1, r2, r3}
	str	r1, [r5, #4]
	str	r0, [r5]
	str.w	r2, [r8, r10, lsl #3]
	str.w	r3, [r9, #4]
	ldr	r3, [sp, #28]                   @ 4-byte Reload
	ldr	r1, [r5, #4]
	ldr	r0, [r5]
	rev	r3, r3
	rev	r2, r7
	eor.w	r7, r1, r3
	ldr	r3, [sp, #88]
	eor.w	r1, r0, r2
	ldr	r2, [sp, #92]
	adds.w	r10, r10, #1
	adc	r4, r4, #0
	subs.w	r0, r10, r3
	sbcs.w	r0, r4, r2
	str	r1, [r5]
	str	r7, [r5, #4]
	blo	.Laes_v7m_BB19_6
@ %bb.7:                                @ %"key_wrap::steps::wrap_turn::<#4f733d09d7f6c6b4>.exit.loopexit.2"
	add.w	r2, r2, r2, lsl #1
	movs	r0, #3
	umlal	r6, r2, r3, r0
	movs	r4, #0
	mov.w	r9, #0
	str	r2, [sp, #20]                   @ 4-byte Spill
	.p2align	2
.Laes_v7m_BB19_8:                               @ %join.5.i.3
                                        @ =>This Inner Loop Header: Depth=1
	str	r1, [sp, #32]
	ldr.w	r1, [r8, r4, lsl #3]
	add.w	r10, r8, r4, lsl #3
	str	r1, [sp, #40]
	ldr	r1, [sp, #20]                   @ 4-byte Reload
	adds	r0, r6, r4
	ldr.w	r3, [r10, #4]
	adc.w	r1, r1, r9
	str	r0, [sp, #28]                   @ 4-byte Spill
	ldr.w	r0, [r11]
	ldr.w	r2, [r11, #8]
	str	r7, [sp, #36]
	str	r3, [sp, #44]
	ldr.w	r3, [r11, #12]
	str	r1, [sp, #24]                   @ 4-byte Spill
	movs	r1, #1
	mov	r7, r6
	movs	r6, #0
	strd	r1, r6, [sp, #8]
	add	r1, sp, #32
	mov	r6, r7
	str	r1, [sp]
	bl	aes_v7m.aes_narrow.blocks.process_all_batches.1
	bl	aes_v7m.aes_cipher.zeroize.stack.wipe_stack.1024
	add	r3, sp, #32
	ldm	r3, {r0, r1, r2, r3}
	str	r1, [r5, #4]
	str	r0, [r5]
	str.w	r2, [r8, r4, lsl #3]
	str.w	r3, [r10, #4]
	ldr	r3, [sp, #28]                   @ 4-byte Reload
	ldr	r1, [r5, #4]
	ldr	r2, [sp, #24]                   @ 4-byte Reload
	ldr	r0, [r5]
	rev	r3, r3
	rev	r2, r2
	eor.w	r7, r1, r3
	ldr	r3, [sp, #88]
	eor.w	r1, r0, r2
	ldr	r2, [sp, #92]
	adds	r4, #1
	adc	r9, r9, #0
	subs	r0, r4, r3
	sbcs.w	r0, r9, r2
	str	r1, [r5]
	str	r7, [r5, #4]
	blo	.Laes_v7m_BB19_8
@ %bb.9:                                @ %"key_wrap::steps::wrap_turn::<#4f733d09d7f6c6b4>.exit.loopexit.3"
	lsls	r0, r2, #2
	orr.w	r0, r0, r3, lsr #30
	str	r0, [sp, #24]                   @ 4-byte Spill
	lsls	r0, r3, #2
	adds	r0, #1
	movs	r4, #0
	mov.w	r10, #0
	str	r0, [sp, #20]                   @ 4-byte Spill
	.p2align	2
.Laes_v7m_BB19_10:                              @ %join.5.i.4
                                        @ =>This Inner Loop Header: Depth=1
	str	r1, [sp, #32]
	ldr.w	r1, [r8, r4, lsl #3]
	add.w	r9, r8, r4, lsl #3
	ldr	r0, [sp, #20]                   @ 4-byte Reload
	ldr.w	r3, [r9, #4]
	str	r1, [sp, #40]
	ldr	r1, [sp, #24]                   @ 4-byte Reload
	adds	r0, r0, r4
	str	r0, [sp, #28]                   @ 4-byte Spill
	ldr.w	r0, [r11]
	ldr.w	r2, [r11, #8]
	str	r7, [sp, #36]
	str	r3, [sp, #44]
	ldr.w	r3, [r11, #12]
	adc.w	r7, r1, r10
	movs	r6, #1
	movs	r1, #0
	strd	r6, r1, [sp, #8]
	add	r1, sp, #32
	str	r1, [sp]
	bl	aes_v7m.aes_narrow.blocks.process_all_batches.1
	bl	aes_v7m.aes_cipher.zeroize.stack.wipe_stack.1024
	add	r3, sp, #32
	ldm	r3, {r0, r1, r2, r3}
	str	r1, [r5, #4]
	str	r0, [r5]
	str.w	r2, [r8, r4, lsl #3]
	str.w	r3, [r9, #4]
	ldr	r3, [sp, #28]                   @ 4-byte Reload
	ldr	r1, [r5, #4]
	ldr	r0, [r5]
	rev	r3, r3
	rev	r2, r7
	eor.w	r7, r1, r3
	ldr	r3, [sp, #88]
	eor.w	r1, r0, r2
	ldr	r2, [sp, #92]
	adds	r4, #1
	adc	r10, r10, #0
	subs	r0, r4, r3
	sbcs.w	r0, r10, r2
	str	r1, [r5]
	str	r7, [r5, #4]
	blo	.Laes_v7m_BB19_10
@ %bb.11:                               @ %"key_wrap::steps::wrap_turn::<#4f733d09d7f6c6b4>.exit.loopexit.4"
	add.w	r2, r2, r2, lsl #2
	movs	r0, #5
	umlal	r6, r2, r3, r0
	movs	r4, #0
	mov.w	r9, #0
	str	r2, [sp, #20]                   @ 4-byte Spill
	.p2align	2
.Laes_v7m_BB19_12:                              @ %join.5.i.5
                                        @ =>This Inner Loop Header: Depth=1
	str	r1, [sp, #32]
	ldr.w	r1, [r8, r4, lsl #3]
	add.w	r10, r8, r4, lsl #3
	str	r1, [sp, #40]
	ldr	r1, [sp, #20]                   @ 4-byte Reload
	adds	r0, r6, r4
	ldr.w	r3, [r10, #4]
	adc.w	r1, r1, r9
	str	r0, [sp, #28]                   @ 4-byte Spill
	ldr.w	r0, [r11]
	ldr.w	r2, [r11, #8]
	str	r7, [sp, #36]
	str	r3, [sp, #44]
	ldr.w	r3, [r11, #12]
	str	r1, [sp, #24]                   @ 4-byte Spill
	movs	r1, #1
	mov	r7, r6
	movs	r6, #0
	strd	r1, r6, [sp, #8]
	add	r1, sp, #32
	mov	r6, r7
	str	r1, [sp]
	bl	aes_v7m.aes_narrow.blocks.process_all_batches.1
	bl	aes_v7m.aes_cipher.zeroize.stack.wipe_stack.1024
	add	r3, sp, #32
	ldm	r3, {r0, r1, r2, r3}
	str	r1, [r5, #4]
	str	r0, [r5]
	str.w	r2, [r8, r4, lsl #3]
	str.w	r3, [r10, #4]
	ldr	r2, [sp, #24]                   @ 4-byte Reload
	ldr	r3, [sp, #28]                   @ 4-byte Reload
	ldr	r0, [r5]
	ldr	r1, [r5, #4]
	rev	r2, r2
	rev	r3, r3
	eor.w	r7, r1, r3
	eor.w	r1, r0, r2
	ldr	r0, [sp, #88]
	adds	r4, #1
	adc	r9, r9, #0
	subs	r0, r4, r0
	ldr	r0, [sp, #92]
	str	r1, [r5]
	sbcs.w	r0, r9, r0
	str	r7, [r5, #4]
	blo	.Laes_v7m_BB19_12
.Laes_v7m_BB19_13:                              @ %after.1
	add	sp, #52
	pop.w	{r4, r5, r6, r7, r8, r9, r10, r11, pc}
.Laes_v7m_func_end19:
	.size	aes_v7m.key_wrap.steps.wrap_in_place, .Laes_v7m_func_end19-aes_v7m.key_wrap.steps.wrap_in_place
	.cantunwind
	.fnend
                                        @ -- End function
	.section	.text.aes_v7m.aes_cipher.zeroize.stack.wipe_stack.512,"ax",%progbits
	.p2align	2                               @ -- Begin function aes_cipher::zeroize::stack::wipe_stack::<=512>
	.type	aes_v7m.aes_cipher.zeroize.stack.wipe_stack.512,%function
	.code	16
	.thumb_func
aes_v7m.aes_cipher.zeroize.stack.wipe_stack.512: @ @aes_v7m.aes_cipher.zeroize.stack.wipe_stack.512
	.fnstart
@ %bb.0:                                @ %start
	.save	{r4, r5, r7, lr}
	push	{r4, r5, r7, lr}
	.pad	#520
	sub.w	sp, sp, #520
	add	r4, sp, #8
	mov	r0, r4
	movs	r1, #0
	mov.w	r2, #512
	movs	r5, #0
	bl	memset
	strd	r5, r5, [sp]
	@APP
	@NO_APP
	mov	r0, sp
	ldrd	r1, r2, [r0]
	@APP
	@NO_APP
	subs.w	r3, r1, #512
	sbcs	r2, r2, #0
	itt	hs
	addhs.w	sp, sp, #520
	pophs	{r4, r5, r7, pc}
.Laes_v7m_BB20_1:                               @ %then.1
	ldrb	r1, [r4, r1]
	@APP
	@NO_APP
	ldrd	r2, r3, [r0]
	strd	r1, r5, [r0]
	@APP
	@NO_APP
	add.w	sp, sp, #520
	b	.Laes_v7m_return_7491
.Laes_v7m_return_7491:
	movs	r1, #0
	movs	r2, #0
	movs	r3, #0
	mov	r12, r1
	mov	lr, r1
	pop	{r4, r5, r7, pc}
.Laes_v7m_func_end20:
	.size	aes_v7m.aes_cipher.zeroize.stack.wipe_stack.512, .Laes_v7m_func_end20-aes_v7m.aes_cipher.zeroize.stack.wipe_stack.512
	.cantunwind
	.fnend
                                        @ -- End function
	.section	.text.aes_v7m.key_wrap.padded.wrap_padded,"ax",%progbits
	.p2align	2                               @ -- Begin function key_wrap::padded::wrap_padded::<#4f733d09d7f6c6b4>
	.type	aes_v7m.key_wrap.padded.wrap_padded,%function
	.code	16
	.thumb_func
aes_v7m.key_wrap.padded.wrap_padded: @ @aes_v7m.key_wrap.padded.wrap_padded
	.fnstart
@ %bb.0:                                @ %start
	.save	{r4, r5, r6, r7, r8, r9, r10, r11, lr}
	push.w	{r4, r5, r6, r7, r8, r9, r10, r11, lr}
	.pad	#76
	sub	sp, #76
	orrs.w	r7, r2, r3
	beq	.Laes_v7m_BB21_5
@ %bb.1:                                @ %"key_wrap::padded::fits.exit"
	lsls	r7, r2, #29
	mov.w	r7, #2
	ldrd	lr, r12, [sp, #120]
	it	eq
	moveq	r7, #1
	add.w	r7, r7, r2, lsr #3
	eor.w	r7, r7, lr
	orrs.w	r7, r7, r12
	bne	.Laes_v7m_BB21_5
@ %bb.2:                                @ %arm.5
	movw	r7, #22950
	ldr.w	r11, [sp, #112]
	subs.w	r9, lr, #1
	movt	r7, #42585
	sbc	r5, r12, #0
	orrs	r7, r3
	add.w	r8, r11, #8
	rev	r7, r7
	rev	r6, r2
	orrs.w	r4, r9, r5
	str.w	r6, [r11, #4]
	str.w	r7, [r11]
	beq.w	.Laes_v7m_BB21_14
@ %bb.3:                                @ %join.5.i.preheader
	strd	r2, r1, [sp, #48]               @ 8-byte Folded Spill
	subs.w	r2, lr, #2
	sbc	r1, r12, #0
	and	r4, r9, #3
	subs	r2, #3
	str	r4, [sp, #32]                   @ 4-byte Spill
	sbcs	r1, r1, #0
	mov.w	r4, #0
	str.w	r8, [sp, #36]                   @ 4-byte Spill
	str	r0, [sp, #28]                   @ 4-byte Spill
	strd	r6, r7, [sp, #20]               @ 8-byte Folded Spill
	str	r5, [sp, #44]                   @ 4-byte Spill
	bhs	.Laes_v7m_BB21_6
@ %bb.4:
	ldrd	r6, r5, [sp, #48]               @ 8-byte Folded Reload
	ldr	r7, [sp, #32]                   @ 4-byte Reload
	mov.w	r8, #0
	mov.w	r10, #0
	b	.Laes_v7m_BB21_9
	.p2align	2
.Laes_v7m_BB21_5:
	movs	r0, #1
	add	sp, #76
	pop.w	{r4, r5, r6, r7, r8, r9, r10, r11, pc}
	.p2align	2
.Laes_v7m_BB21_6:                               @ %join.5.i.preheader.new
	ldr.w	r11, [sp, #36]                  @ 4-byte Reload
	bic	r0, r9, #3
	mov.w	r8, #0
	mov.w	r10, #0
	str.w	r9, [sp, #16]                   @ 4-byte Spill
	str	r0, [sp, #40]                   @ 4-byte Spill
	.p2align	2
.Laes_v7m_BB21_7:                               @ %join.5.i
                                        @ =>This Inner Loop Header: Depth=1
	lsl.w	r0, r10, #3
	orr.w	r6, r0, r8, lsr #29
	ldr	r0, [sp, #52]                   @ 4-byte Reload
	mov.w	r9, #8
	add.w	r1, r0, r8, lsl #3
	ldr	r0, [sp, #48]                   @ 4-byte Reload
	movs	r5, #0
	subs.w	r2, r0, r8, lsl #3
	sbc.w	r0, r3, r6
	cmp	r2, #8
	it	hs
	movhs	r2, r9
	cmp	r0, #0
	add	r0, sp, #56
	it	ne
	movne	r2, r9
	strd	r5, r5, [sp, #56]
	mov	r4, r3
	bl	memcpy
	ldrd	r0, r1, [sp, #56]
	add.w	r2, r11, r8, lsl #3
	str.w	r0, [r11, r8, lsl #3]
	ldr	r0, [sp, #52]                   @ 4-byte Reload
	orr.w	r7, r9, r8, lsl #3
	str	r1, [r2, #4]
	adds	r1, r0, r7
	ldr	r0, [sp, #48]                   @ 4-byte Reload
	subs	r2, r0, r7
	sbc.w	r0, r4, r6
	cmp	r2, #8
	it	hs
	movhs	r2, r9
	cmp	r0, #0
	add	r0, sp, #56
	it	ne
	movne	r2, r9
	strd	r5, r5, [sp, #56]
	bl	memcpy
	ldrd	r0, r1, [sp, #56]
	add.w	r2, r11, r7
	str.w	r0, [r11, r7]
	movs	r0, #16
	orr.w	r7, r0, r8, lsl #3
	ldr	r0, [sp, #52]                   @ 4-byte Reload
	str	r1, [r2, #4]
	adds	r1, r0, r7
	ldr	r0, [sp, #48]                   @ 4-byte Reload
	subs	r2, r0, r7
	sbc.w	r0, r4, r6
	cmp	r2, #8
	it	hs
	movhs	r2, r9
	cmp	r0, #0
	add	r0, sp, #56
	it	ne
	movne	r2, r9
	strd	r5, r5, [sp, #56]
	bl	memcpy
	ldrd	r0, r1, [sp, #56]
	add.w	r2, r11, r7
	str.w	r0, [r11, r7]
	movs	r0, #24
	orr.w	r7, r0, r8, lsl #3
	ldr	r0, [sp, #52]                   @ 4-byte Reload
	str	r1, [r2, #4]
	adds	r1, r0, r7
	ldr	r0, [sp, #48]                   @ 4-byte Reload
	subs	r2, r0, r7
	sbc.w	r0, r4, r6
	cmp	r2, #8
	it	hs
	movhs	r2, r9
	cmp	r0, #0
	add	r0, sp, #56
	it	ne
	movne	r2, r9
	strd	r5, r5, [sp, #56]
	bl	memcpy
	adds.w	r8, r8, #4
	ldr	r0, [sp, #40]                   @ 4-byte Reload
	ldr	r1, [sp, #44]                   @ 4-byte Reload
	adc	r10, r10, #0
	eor.w	r0, r0, r8
	eor.w	r1, r1, r10
	orrs	r0, r1
	ldrd	r0, r1, [sp, #56]
	ldrd	r6, r5, [sp, #48]               @ 8-byte Folded Reload
	mov	r3, r4
	add.w	r2, r11, r7
	str.w	r0, [r11, r7]
	str	r1, [r2, #4]
	bne.w	.Laes_v7m_BB21_7
@ %bb.8:                                @ %"key_wrap::padded::fill.exit.unr-lcssa"
	ldr	r7, [sp, #32]                   @ 4-byte Reload
	ldr.w	r11, [sp, #112]
	ldr.w	r9, [sp, #16]                   @ 4-byte Reload
	cmp	r7, #0
	mov.w	r4, #0
	beq	.Laes_v7m_BB21_12
.Laes_v7m_BB21_9:                               @ %join.5.i.epil.preheader
	lsl.w	r0, r10, #3
	orr.w	r0, r0, r8, lsr #29
	subs.w	r2, r6, r8, lsl #3
	str	r0, [sp, #40]                   @ 4-byte Spill
	sbc.w	r0, r3, r0
	cmp	r2, #8
	add.w	r1, r5, r8, lsl #3
	mov.w	r10, #8
	it	hs
	movhs	r2, r10
	cmp	r0, #0
	add	r0, sp, #56
	it	ne
	movne	r2, r10
	strd	r4, r4, [sp, #56]
	mov	r4, r3
	bl	memcpy
	ldr	r3, [sp, #36]                   @ 4-byte Reload
	ldrd	r0, r1, [sp, #56]
	add.w	r2, r3, r8, lsl #3
	cmp	r7, #1
	str.w	r0, [r3, r8, lsl #3]
	str	r1, [r2, #4]
	beq	.Laes_v7m_BB21_12
@ %bb.10:                               @ %join.5.i.epil.1
	ldr	r0, [sp, #40]                   @ 4-byte Reload
	adds.w	r7, r10, r8, lsl #3
	adc	r0, r0, #0
	subs	r2, r6, r7
	sbc.w	r0, r4, r0
	cmp	r2, #8
	it	hs
	movhs	r2, r10
	adds	r1, r5, r7
	cmp	r0, #0
	it	ne
	movne	r2, r10
	mov.w	r10, #0
	add	r0, sp, #56
	strd	r10, r10, [sp, #56]
	bl	memcpy
	ldrd	r0, r1, [sp, #56]
	ldr	r3, [sp, #36]                   @ 4-byte Reload
	str	r0, [r3, r7]
	ldr	r0, [sp, #32]                   @ 4-byte Reload
	adds	r2, r3, r7
	cmp	r0, #2
	str	r1, [r2, #4]
	beq	.Laes_v7m_BB21_12
@ %bb.11:                               @ %join.5.i.epil.2
	movs	r0, #16
	adds.w	r7, r0, r8, lsl #3
	ldr	r0, [sp, #40]                   @ 4-byte Reload
	add.w	r1, r5, r7
	adc	r0, r0, #0
	subs	r2, r6, r7
	sbc.w	r0, r4, r0
	cmp	r2, #8
	mov.w	r3, #8
	it	hs
	movhs	r2, r3
	cmp	r0, #0
	add	r0, sp, #56
	it	ne
	movne	r2, r3
	strd	r10, r10, [sp, #56]
	bl	memcpy
	ldr	r3, [sp, #36]                   @ 4-byte Reload
	ldrd	r0, r1, [sp, #56]
	adds	r2, r3, r7
	str	r0, [r3, r7]
	str	r1, [r2, #4]
.Laes_v7m_BB21_12:                              @ %"key_wrap::padded::fill.exit"
	ldr	r5, [sp, #44]                   @ 4-byte Reload
	eor	r0, r9, #1
	orrs	r0, r5
	ldr	r0, [sp, #28]                   @ 4-byte Reload
	ldrd	r3, r2, [sp, #20]               @ 8-byte Folded Reload
	ldr.w	r8, [sp, #36]                   @ 4-byte Reload
	bne	.Laes_v7m_BB21_14
@ %bb.13:                               @ %then.1.i
	ldr.w	r1, [r11, #12]
	ldr.w	r7, [r11, #8]
	str	r1, [sp, #68]
	ldr	r1, [r0]
	strd	r2, r3, [sp, #56]
	ldr	r2, [r0, #8]
	ldr	r3, [r0, #12]
	movs	r5, #0
	movs	r0, #1
	str	r7, [sp, #64]
	strd	r0, r5, [sp, #8]
	add	r7, sp, #56
	mov	r0, r1
	str	r7, [sp]
	bl	aes_v7m.aes_narrow.blocks.process_all_batches.1
	bl	aes_v7m.aes_cipher.zeroize.stack.wipe_stack.1024
	add	r7, sp, #56
	ldm	r7, {r1, r2, r3, r7}
	mov	r0, r5
	str.w	r2, [r11, #4]
	str.w	r1, [r11]
	str.w	r7, [r11, #12]
	str.w	r3, [r11, #8]
	add	sp, #76
	pop.w	{r4, r5, r6, r7, r8, r9, r10, r11, pc}
	.p2align	2
.Laes_v7m_BB21_14:                              @ %else.2.i
	mov	r1, r11
	mov	r2, r8
	strd	r9, r5, [sp]
	bl	aes_v7m.key_wrap.steps.wrap_in_place
	movs	r0, #0
	add	sp, #76
	pop.w	{r4, r5, r6, r7, r8, r9, r10, r11, pc}
.Laes_v7m_func_end21:
	.size	aes_v7m.key_wrap.padded.wrap_padded, .Laes_v7m_func_end21-aes_v7m.key_wrap.padded.wrap_padded
	.cantunwind
	.fnend
                                        @ -- End function
	.section	.text.aes_v7m.aes_narrow.borrowed_words.call_to_decrypt,"ax",%progbits
	.p2align	2                               @ -- Begin function aes_narrow::borrowed_words::call_to_decrypt::<#a8a74a144d92a363>
	.type	aes_v7m.aes_narrow.borrowed_words.call_to_decrypt,%function
	.code	16
	.thumb_func
aes_v7m.aes_narrow.borrowed_words.call_to_decrypt: @ @aes_v7m.aes_narrow.borrowed_words.call_to_decrypt
	.fnstart
@ %bb.0:                                @ %start
	.save	{r4, r5, r6, r7, r8, r9, r10, r11, lr}
	push.w	{r4, r5, r6, r7, r8, r9, r10, r11, lr}
	.pad	#1148
	subw	sp, sp, #1148
	ldr.w	r10, [sp, #1184]
	str	r0, [sp, #36]                   @ 4-byte Spill
	ldrd	r7, r6, [r10, #24]
	orrs.w	r1, r7, r6
	beq.w	.Laes_v7m_BB22_11
@ %bb.1:                                @ %join.5.lr.ph.i.i
	ldr.w	r0, [r10, #16]
	mov	r9, r3
	str	r0, [sp, #16]                   @ 4-byte Spill
	movs	r1, #0
	movs	r5, #0
	add	r0, sp, #20
	str	r3, [sp, #32]                   @ 4-byte Spill
	stm	r0!, {r2, r6, r7}               @ 12-byte Folded Spill
	.p2align	2
.Laes_v7m_BB22_2:                               @ %join.5.i.i
                                        @ =>This Loop Header: Depth=1
                                        @     Child Loop BB22_4 Depth 2
                                        @     Child Loop BB22_6 Depth 2
                                        @     Child Loop BB22_8 Depth 2
	subs	r4, r7, r1
	mov.w	r7, #64
	mov	r0, r1
	sbc.w	r8, r6, r5
	cmp	r4, #64
	mov.w	r1, #64
	it	lo
	movlo	r7, r4
	cmp.w	r8, #0
	it	ne
	movne	r7, r1
	ldr	r1, [sp, #16]                   @ 4-byte Reload
	mov.w	r2, #1024
	add.w	r11, r1, r0, lsl #4
	adds	r0, r0, r7
	str	r0, [sp, #40]                   @ 4-byte Spill
	adc	r5, r5, #0
	lsls	r0, r7, #4
	add	r1, sp, #124
	str	r5, [sp, #44]                   @ 4-byte Spill
	str	r0, [sp, #120]                  @ 4-byte Spill
	subs.w	r5, r1, r11
	mov.w	r0, #0
	sbc	r6, r0, #0
	mov	r0, r1
	movs	r1, #0
	bl	memset
	subs.w	r0, r5, r7, lsl #4
	sbcs.w	r0, r6, r7, lsr #28
	ldr	r2, [sp, #120]                  @ 4-byte Reload
	add	r0, sp, #124
	mov	r1, r11
	str	r7, [sp, #48]                   @ 4-byte Spill
	bl	memcpy
	subs	r0, r4, #2
	ldr	r7, [sp, #36]                   @ 4-byte Reload
	sbcs	r0, r8, #0
	str.w	r11, [sp, #52]                  @ 4-byte Spill
	blo.w	.Laes_v7m_BB22_10
@ %bb.3:                                @ %join.5.i.i.i.i.preheader
                                        @   in Loop: Header=BB22_2 Depth=1
	ldr.w	r8, [sp, #48]                   @ 4-byte Reload
	ldr.w	r11, [sp, #20]                  @ 4-byte Reload
	movs	r6, #0
	movs	r5, #0
	movs	r4, #0
	.p2align	2
.Laes_v7m_BB22_4:                               @ %join.5.i.i.i.i
                                        @   Parent Loop BB22_2 Depth=1
                                        @ =>  This Inner Loop Header: Depth=2
	ldr	r0, [sp, #52]                   @ 4-byte Reload
	mov	r2, r11
	add.w	r1, r0, r5, lsl #4
	movs	r0, #2
	adds	r5, #2
	strd	r0, r6, [sp, #8]
	mov	r0, r7
	mov	r3, r9
	adc	r4, r4, #0
	str	r1, [sp]
	bl	aes_v7m.aes_soft.soft.blocks.filled_up.process_filled_up.2
	subs.w	r0, r8, r5
	sbc.w	r1, r6, r4
	rsbs.w	r0, r0, #1
	sbcs.w	r0, r6, r1
	blo	.Laes_v7m_BB22_4
@ %bb.5:                                @ %loop.7.preheader.i.i.i.i
                                        @   in Loop: Header=BB22_2 Depth=1
	subs.w	r0, r5, r8
	ldr	r6, [sp, #52]                   @ 4-byte Reload
	sbcs	r0, r4, #0
	bhs	.Laes_v7m_BB22_7
	.p2align	2
.Laes_v7m_BB22_6:                               @ %join.10.i.i.i.i
                                        @   Parent Loop BB22_2 Depth=1
                                        @ =>  This Inner Loop Header: Depth=2
	movs	r0, #0
	movs	r2, #1
	add.w	r1, r6, r5, lsl #4
	strd	r2, r0, [sp, #8]
	mov	r0, r7
	mov	r2, r11
	mov	r3, r9
	str	r1, [sp]
	bl	aes_v7m.aes_soft.soft.blocks.filled_up.process_filled_up.2
	adds	r5, #1
	adc	r4, r4, #0
	subs.w	r0, r5, r8
	sbcs	r0, r4, #0
	blo	.Laes_v7m_BB22_6
.Laes_v7m_BB22_7:                               @ %join.7.lr.ph.i.i.i
                                        @   in Loop: Header=BB22_2 Depth=1
	ldrb.w	r0, [r10]
	ldrb.w	r3, [r10, #9]
	str	r0, [sp, #104]                  @ 4-byte Spill
	ldrb.w	r0, [r10, #1]
	ldrb.w	r12, [r10, #10]
	str	r0, [sp, #100]                  @ 4-byte Spill
	ldrb.w	r0, [r10, #2]
	ldrb.w	r8, [r10, #11]
	str	r0, [sp, #92]                   @ 4-byte Spill
	ldrb.w	r0, [r10, #3]
	ldrb.w	r7, [r10, #12]
	str	r0, [sp, #80]                   @ 4-byte Spill
	ldrb.w	r0, [r10, #4]
	ldrb.w	r6, [r10, #13]
	str	r0, [sp, #96]                   @ 4-byte Spill
	ldrb.w	r0, [r10, #5]
	ldrb.w	r11, [r10, #14]
	str	r0, [sp, #116]                  @ 4-byte Spill
	ldrb.w	r0, [r10, #6]
	ldrb.w	lr, [r10, #15]
	str	r0, [sp, #112]                  @ 4-byte Spill
	ldrb.w	r0, [r10, #7]
	str	r3, [sp, #88]                   @ 4-byte Spill
	str	r0, [sp, #120]                  @ 4-byte Spill
	ldrb.w	r0, [r10, #8]
	movs	r2, #0
	movs	r3, #0
	str	r0, [sp, #84]                   @ 4-byte Spill
	.p2align	2
.Laes_v7m_BB22_8:                               @ %join.7.i.i.i
                                        @   Parent Loop BB22_2 Depth=1
                                        @ =>  This Inner Loop Header: Depth=2
	str	r3, [sp, #76]                   @ 4-byte Spill
	ldr	r3, [sp, #52]                   @ 4-byte Reload
	ldr	r5, [sp, #88]                   @ 4-byte Reload
	add.w	r4, r3, r2, lsl #4
	ldrb	r0, [r4, #15]
	ldrb	r1, [r4, #14]
	eor.w	r0, r0, lr
	str	r0, [sp, #72]                   @ 4-byte Spill
	ldrb	r0, [r4, #13]
	eor.w	r11, r11, r1
	ldrb	r1, [r4, #12]
	eors	r0, r6
	str	r0, [sp, #68]                   @ 4-byte Spill
	eor.w	r0, r1, r7
	ldrb	r1, [r4, #11]
	ldrb	r7, [r4, #10]
	str	r0, [sp, #64]                   @ 4-byte Spill
	eor.w	r0, r1, r8
	str	r0, [sp, #60]                   @ 4-byte Spill
	eor.w	r0, r7, r12
	str	r0, [sp, #56]                   @ 4-byte Spill
	ldrb	r0, [r4, #9]
	ldrb	r1, [r4, #8]
	eors	r0, r5
	str	r0, [sp, #88]                   @ 4-byte Spill
	ldr	r0, [sp, #84]                   @ 4-byte Reload
	ldrb	r7, [r4, #7]
	eors	r0, r1
	str	r0, [sp, #84]                   @ 4-byte Spill
	ldr	r0, [sp, #120]                  @ 4-byte Reload
	ldrb	r5, [r4, #6]
	eors	r7, r0
	ldr	r0, [sp, #112]                  @ 4-byte Reload
	ldr	r1, [sp, #116]                  @ 4-byte Reload
	eors	r5, r0
	ldrb	r0, [r4, #5]
	ldrb.w	r8, [r4, #4]
	eors	r0, r1
	strb	r0, [r4, #5]
	ldr	r0, [sp, #84]                   @ 4-byte Reload
	ldr	r1, [sp, #96]                   @ 4-byte Reload
	strb	r0, [r4, #8]
	ldr	r0, [sp, #88]                   @ 4-byte Reload
	eor.w	r8, r8, r1
	strb	r0, [r4, #9]
	ldr	r0, [sp, #56]                   @ 4-byte Reload
	ldrb	r6, [r4, #3]
	strb	r0, [r4, #10]
	ldr	r0, [sp, #60]                   @ 4-byte Reload
	ldr	r1, [sp, #80]                   @ 4-byte Reload
	strb	r0, [r4, #11]
	ldr	r0, [sp, #64]                   @ 4-byte Reload
	ldrb.w	r9, [r4, #2]
	eors	r6, r1
	ldr	r1, [sp, #92]                   @ 4-byte Reload
	strb	r0, [r4, #12]
	ldr	r0, [sp, #68]                   @ 4-byte Reload
	eor.w	r9, r9, r1
	ldrb.w	lr, [r4, #1]
	ldr	r1, [sp, #100]                  @ 4-byte Reload
	mov	r12, r10
	lsl.w	r10, r2, #4
	strb	r0, [r4, #13]
	ldr	r0, [sp, #72]                   @ 4-byte Reload
	str	r2, [sp, #108]                  @ 4-byte Spill
	ldrb.w	r2, [r3, r10]
	eor.w	lr, lr, r1
	ldr	r1, [sp, #104]                  @ 4-byte Reload
	strb	r0, [r4, #15]
	ldr	r0, [sp, #108]                  @ 4-byte Reload
	eors	r2, r1
	add	r1, sp, #124
	strb.w	r2, [r3, r10]
	strb.w	lr, [r4, #1]
	strb.w	r9, [r4, #2]
	strb	r6, [r4, #3]
	strb.w	r8, [r4, #4]
	strb	r5, [r4, #6]
	strb	r7, [r4, #7]
	strb.w	r11, [r4, #14]
	add.w	r0, r1, r0, lsl #4
	ldrb	r7, [r0, #5]
	ldrb.w	r3, [r1, r10]
	str	r7, [sp, #116]                  @ 4-byte Spill
	ldrb	r7, [r0, #6]
	mov	r10, r12
	str	r7, [sp, #112]                  @ 4-byte Spill
	ldrb	r7, [r0, #7]
	ldrb	r2, [r0, #1]
	str	r7, [sp, #120]                  @ 4-byte Spill
	ldrb	r7, [r0, #10]
	ldrb	r1, [r0, #2]
	ldrb.w	r9, [r0, #3]
	ldrb.w	r12, [r0, #4]
	ldrb	r4, [r0, #8]
	ldrb	r5, [r0, #9]
	str	r7, [sp, #72]                   @ 4-byte Spill
	ldrb.w	r8, [r0, #11]
	ldrb	r7, [r0, #12]
	ldrb	r6, [r0, #13]
	ldrb.w	r11, [r0, #14]
	ldrb.w	lr, [r0, #15]
	ldr	r0, [sp, #116]                  @ 4-byte Reload
	str	r2, [sp, #100]                  @ 4-byte Spill
	strb.w	r0, [r10, #5]
	ldr	r0, [sp, #112]                  @ 4-byte Reload
	strb.w	r2, [r10, #1]
	strb.w	r0, [r10, #6]
	ldr	r0, [sp, #120]                  @ 4-byte Reload
	ldr	r2, [sp, #108]                  @ 4-byte Reload
	str	r3, [sp, #104]                  @ 4-byte Spill
	strb.w	r3, [r10]
	ldr	r3, [sp, #76]                   @ 4-byte Reload
	strb.w	r0, [r10, #7]
	ldr	r0, [sp, #48]                   @ 4-byte Reload
	adds	r2, #1
	str.w	r12, [sp, #96]                  @ 4-byte Spill
	strb.w	r12, [r10, #4]
	ldr.w	r12, [sp, #72]                  @ 4-byte Reload
	adc	r3, r3, #0
	subs	r0, r2, r0
	sbcs	r0, r3, #0
	str	r1, [sp, #92]                   @ 4-byte Spill
	strb.w	r1, [r10, #2]
	str.w	r9, [sp, #80]                   @ 4-byte Spill
	strb.w	r9, [r10, #3]
	str	r4, [sp, #84]                   @ 4-byte Spill
	strb.w	r4, [r10, #8]
	str	r5, [sp, #88]                   @ 4-byte Spill
	strb.w	r5, [r10, #9]
	strb.w	r12, [r10, #10]
	strb.w	r8, [r10, #11]
	strb.w	r7, [r10, #12]
	strb.w	r6, [r10, #13]
	strb.w	r11, [r10, #14]
	strb.w	lr, [r10, #15]
	blo.w	.Laes_v7m_BB22_8
@ %bb.9:                                @ %"cbc::decryption::unchain_part::<#c3f6a2486d05430b>.exit.loopexit.i.i"
                                        @   in Loop: Header=BB22_2 Depth=1
	ldr	r7, [sp, #28]                   @ 4-byte Reload
	ldr	r1, [sp, #40]                   @ 4-byte Reload
	ldr	r6, [sp, #24]                   @ 4-byte Reload
	ldr	r5, [sp, #44]                   @ 4-byte Reload
	subs	r0, r1, r7
	ldr.w	r9, [sp, #32]                   @ 4-byte Reload
	sbcs.w	r0, r5, r6
	blo.w	.Laes_v7m_BB22_2
	b	.Laes_v7m_BB22_11
	.p2align	2
.Laes_v7m_BB22_10:                              @   in Loop: Header=BB22_2 Depth=1
	ldr.w	r8, [sp, #48]                   @ 4-byte Reload
	ldr.w	r11, [sp, #20]                  @ 4-byte Reload
	movs	r5, #0
	movs	r4, #0
	subs.w	r0, r5, r8
	ldr	r6, [sp, #52]                   @ 4-byte Reload
	sbcs	r0, r4, #0
	blo.w	.Laes_v7m_BB22_6
	b	.Laes_v7m_BB22_7
	.p2align	2
.Laes_v7m_BB22_11:                              @ %"cbc::decryption::ChainBlockCipherDecClosure::call::<#c3f6a2486d05430b>.exit"
	addw	sp, sp, #1148
	pop.w	{r4, r5, r6, r7, r8, r9, r10, r11, pc}
.Laes_v7m_func_end22:
	.size	aes_v7m.aes_narrow.borrowed_words.call_to_decrypt, .Laes_v7m_func_end22-aes_v7m.aes_narrow.borrowed_words.call_to_decrypt
	.cantunwind
	.fnend
                                        @ -- End function
	.section	.text.aes_v7m.aes_soft.soft.blocks.filled_up.process_filled_up.2,"ax",%progbits
	.p2align	2                               @ -- Begin function aes_soft::soft::blocks::filled_up::process_filled_up::<#a3dcb71d05bd149b>
	.type	aes_v7m.aes_soft.soft.blocks.filled_up.process_filled_up.2,%function
	.code	16
	.thumb_func
aes_v7m.aes_soft.soft.blocks.filled_up.process_filled_up.2: @ @aes_v7m.aes_soft.soft.blocks.filled_up.process_filled_up.2
	.fnstart
@ %bb.0:                                @ %start
	.save	{r4, r5, r6, r7, r8, r9, r10, r11, lr}
	push.w	{r4, r5, r6, r7, r8, r9, r10, r11, lr}
	.pad	#132
	sub	sp, #132
	ldr.w	r11, [sp, #168]
	mov	r12, r0
	movs	r0, #0
	strd	r0, r0, [sp, #92]
	strd	r0, r0, [sp, #84]
	strd	r0, r0, [sp, #76]
	strd	r0, r0, [sp, #68]
	strd	r0, r0, [sp, #36]
	strd	r0, r0, [sp, #44]
	strd	r0, r0, [sp, #52]
	strd	r0, r0, [sp, #60]
	strd	r0, r0, [sp, #4]
	strd	r0, r0, [sp, #12]
	strd	r0, r0, [sp, #20]
	strd	r0, r0, [sp, #28]
	ldr.w	r0, [r11]
	ldr.w	r4, [r11, #12]
	add	r1, sp, #100
	ldr.w	r6, [r11, #4]
	ldr.w	r7, [r11, #8]
	stm	r1!, {r0, r6, r7}
	strd	r4, r0, [sp, #112]
	lsrs	r0, r2, #3
	ldrd	r9, r8, [sp, #176]
	orr.w	r0, r0, r3, lsl #29
	lsrs	r3, r3, #3
	subs	r2, r0, #1
	sbc	r3, r3, #0
	orrs.w	r0, r9, r8
	clz	r0, r0
	lsr.w	r10, r0, #5
	strd	r6, r7, [sp, #120]
	str	r4, [sp, #128]
	beq	.Laes_v7m_BB23_2
@ %bb.1:                                @ %join.8.i
	ldr.w	r1, [r11, #4]
	add.w	lr, sp, #104
	ldr.w	r0, [r11]
	ldr.w	r7, [r11, #12]
	ldr.w	r6, [r11, #8]
	stm.w	lr, {r1, r6, r7}
	eor	r1, r9, #1
	orrs.w	r1, r1, r8
	str	r0, [sp, #100]
	bne	.Laes_v7m_BB23_3
.Laes_v7m_BB23_2:                               @ %then.6.i
	add	r0, sp, #100
	ldm	r0!, {r1, r4, r5, r6}
	add	r7, sp, #36
	stm	r7!, {r1, r4, r5, r6}
	ldm.w	r0, {r1, r4, r5, r6}
	stm	r7!, {r1, r4, r5, r6}
	b	.Laes_v7m_BB23_4
	.p2align	2
.Laes_v7m_BB23_3:                               @ %join.8.i.1
	ldr.w	r0, [r11, #16]
	add.w	lr, sp, #116
	ldr.w	r1, [r11, #20]
	ldr.w	r7, [r11, #28]
	ldr.w	r6, [r11, #24]
	stm.w	lr, {r0, r1, r6, r7}
	add	r0, sp, #100
	ldm	r0!, {r4, r5, r6, r7}
	add	r1, sp, #36
	stm	r1!, {r4, r5, r6, r7}
	ldm.w	r0, {r4, r5, r6, r7}
	stm	r1!, {r4, r5, r6, r7}
.Laes_v7m_BB23_4:                               @ %"aes_soft::soft::blocks::filled_up::filled_up::<#7d3b633001169d8c>.exit"
	add	r4, sp, #4
	add	r7, sp, #36
	mov	r0, r4
	mov	r1, r12
	str	r7, [sp]
	bl	aes_v7m.aes_soft.soft.ciphers.planes.process_outlined.2
	ldm	r4!, {r1, r2, r3, r7}
	add	r0, sp, #68
	stm	r0!, {r1, r2, r3, r7}
	ldm.w	r4, {r1, r2, r3, r7}
	cmp.w	r10, #0
	stm	r0!, {r1, r2, r3, r7}
	bne	.Laes_v7m_BB23_7
@ %bb.5:                                @ %join.8.i22
	add	r3, sp, #68
	ldm	r3, {r0, r1, r3}
	ldr	r2, [sp, #80]
	str.w	r1, [r11, #4]
	eor	r1, r9, #1
	orrs.w	r1, r1, r8
	str.w	r2, [r11, #12]
	str.w	r3, [r11, #8]
	str.w	r0, [r11]
	beq	.Laes_v7m_BB23_7
@ %bb.6:                                @ %join.8.i22.1
	add	r3, sp, #84
	ldr	r2, [sp, #96]
	ldm	r3, {r0, r1, r3}
	str.w	r2, [r11, #28]
	str.w	r3, [r11, #24]
	str.w	r1, [r11, #20]
	str.w	r0, [r11, #16]
.Laes_v7m_BB23_7:                               @ %"aes_soft::soft::blocks::filled_up::copy_first::<#7d3b633001169d8c>.exit"
	add	sp, #132
	pop.w	{r4, r5, r6, r7, r8, r9, r10, r11, pc}
.Laes_v7m_func_end23:
	.size	aes_v7m.aes_soft.soft.blocks.filled_up.process_filled_up.2, .Laes_v7m_func_end23-aes_v7m.aes_soft.soft.blocks.filled_up.process_filled_up.2
	.cantunwind
	.fnend
                                        @ -- End function
	.section	.text.aes_v7m.aes_soft.soft.ciphers.planes.process_outlined.2,"ax",%progbits
	.p2align	2                               @ -- Begin function aes_soft::soft::ciphers::planes::process_outlined::<#4da0d9798c91611c>
	.type	aes_v7m.aes_soft.soft.ciphers.planes.process_outlined.2,%function
	.code	16
	.thumb_func
aes_v7m.aes_soft.soft.ciphers.planes.process_outlined.2: @ @aes_v7m.aes_soft.soft.ciphers.planes.process_outlined.2
	.fnstart
@ %bb.0:                                @ %start
	.save	{r4, r5, r6, r7, r8, r9, r10, r11, lr}
	push.w	{r4, r5, r6, r7, r8, r9, r10, r11, lr}
	.pad	#108
	sub	sp, #108
	mov	r11, r1
	ldr	r1, [sp, #144]
	str	r0, [sp, #4]                    @ 4-byte Spill
	ldr	r0, [r1, #16]
	ldr	r6, [r1]
	ldr	r7, [r1, #20]
	ldr.w	r12, [r1, #24]
	ldr	r5, [r1, #4]
	ldr	r4, [r1, #8]
	ldr.w	r9, [r1, #12]
	ldr.w	lr, [r1, #28]
	eor.w	r1, r0, r6, lsr #1
	bic	r1, r1, #-1431655766
	eor.w	r8, r1, r0
	eor.w	r0, r7, r5, lsr #1
	bic	r0, r0, #-1431655766
	eor.w	r5, r5, r0, lsl #1
	eor.w	r10, r0, r7
	eor.w	r0, r12, r4, lsr #1
	eor.w	r6, r6, r1, lsl #1
	bic	r0, r0, #-1431655766
	eor.w	r1, lr, r9, lsr #1
	eor.w	r4, r4, r0, lsl #1
	eor.w	r12, r12, r0
	bic	r1, r1, #-1431655766
	eor.w	r0, r5, r6, lsr #2
	eor.w	r7, r9, r1, lsl #1
	bic	r0, r0, #-858993460
	eor.w	r6, r6, r0, lsl #2
	eors	r5, r0
	eor.w	r0, r7, r4, lsr #2
	bic	r0, r0, #-858993460
	eor.w	r4, r4, r0, lsl #2
	eors	r0, r7
	str	r0, [sp, #100]                  @ 4-byte Spill
	eor.w	r0, r10, r8, lsr #2
	eor.w	r1, r1, lr
	bic	r0, r0, #-858993460
	eor.w	r7, r8, r0, lsl #2
	eor.w	r8, r0, r10
	eor.w	r0, r1, r12, lsr #2
	bic	r0, r0, #-858993460
	eor.w	r10, r12, r0, lsl #2
	eor.w	r9, r0, r1
	eor.w	r0, r4, r6, lsr #4
	bic	r12, r0, #-252645136
	lsls	r0, r2, #5
	ldr.w	r0, [r11, r0]
	subs	r1, r2, #2
	eor.w	r0, r0, r12, lsl #4
	eor.w	r0, r0, r6
	str	r0, [sp, #60]                   @ 4-byte Spill
	sbc	r0, r3, #0
	str	r0, [sp, #76]                   @ 4-byte Spill
	bic	r0, r1, #3
	str	r0, [sp, #84]                   @ 4-byte Spill
	adds	r0, #2
	subs	r0, r0, r2
	str.w	r11, [sp, #16]                  @ 4-byte Spill
	add.w	r2, r11, r2, lsl #5
	ldr.w	r11, [sp, #100]                 @ 4-byte Reload
	str	r3, [sp, #80]                   @ 4-byte Spill
	str	r1, [sp, #88]                   @ 4-byte Spill
	eor.w	r0, r10, r7, lsr #4
	ldr	r1, [r2, #4]
	eor.w	r3, r11, r5, lsr #4
	ldr	r6, [r2, #8]
	bic	r0, r0, #-252645136
	bic	r3, r3, #-252645136
	eor.w	r1, r1, r0, lsl #4
	eor.w	r6, r6, r3, lsl #4
	eor.w	lr, r1, r7
	eor.w	r1, r6, r5
	eor.w	r5, r9, r8, lsr #4
	ldr	r6, [r2, #12]
	bic	r5, r5, #-252645136
	str	r4, [sp, #104]                  @ 4-byte Spill
	eor.w	r6, r6, r5, lsl #4
	ldr	r4, [r2, #16]
	eor.w	r7, r6, r8
	ldr	r6, [sp, #104]                  @ 4-byte Reload
	str	r1, [sp, #56]                   @ 4-byte Spill
	eor.w	r4, r4, r6
	ldr	r6, [r2, #20]
	eor.w	r8, r4, r12
	eor.w	r4, r10, r6
	ldr	r6, [r2, #24]
	eor.w	r0, r0, r4
	ldr	r4, [r2, #28]
	eor.w	r6, r6, r11
	str	r0, [sp, #92]                   @ 4-byte Spill
	eor.w	r3, r3, r6
	eor.w	r6, r9, r4
	eor.w	r0, r1, lr
	ldr	r1, [sp, #60]                   @ 4-byte Reload
	eor.w	r10, r6, r5
	eor.w	r12, r3, r10
	eor.w	r6, r8, r7
	eor.w	r11, r1, r7
	str	r2, [sp]                        @ 4-byte Spill
	eor.w	r4, r6, r0
	eor.w	r2, r11, r12
	str	r0, [sp, #104]                  @ 4-byte Spill
	eor.w	r5, r2, r4
	eor.w	r0, r8, r10
	and.w	r9, r5, r6
	eor.w	r5, r0, r3
	str	r0, [sp, #96]                   @ 4-byte Spill
	eor.w	r0, r5, r7
	str	r4, [sp, #64]                   @ 4-byte Spill
	and.w	r4, r4, r0
	str	r0, [sp, #68]                   @ 4-byte Spill
	eor.w	r0, r9, r4
	and.w	r4, r2, r12
	str	r0, [sp, #32]                   @ 4-byte Spill
	eor.w	r0, r9, r4
	str	r0, [sp, #36]                   @ 4-byte Spill
	mov	r0, lr
	str	r5, [sp, #100]                  @ 4-byte Spill
	mov	r5, r2
	str	r2, [sp, #48]                   @ 4-byte Spill
	eor.w	r4, r8, r3
	eor.w	r2, lr, r3
	eor.w	r3, r1, r0
	ldr	r0, [sp, #92]                   @ 4-byte Reload
	mov	lr, r1
	eor.w	r1, r0, r7
	eor.w	r7, r1, r2
	eor.w	r1, r6, lr
	eor.w	lr, r3, r6
	orr.w	r8, lr, r7
	and.w	r9, r1, r4
	str	r1, [sp, #60]                   @ 4-byte Spill
	eor.w	r1, r8, r9
	str	r1, [sp, #28]                   @ 4-byte Spill
	ldr	r1, [sp, #56]                   @ 4-byte Reload
	str	r7, [sp, #24]                   @ 4-byte Spill
	eor.w	r8, r1, r0
	eor.w	r0, r8, r10
	eor.w	r1, r11, r2
	eor.w	r2, r3, r4
	str	r0, [sp, #44]                   @ 4-byte Spill
	str	r1, [sp, #20]                   @ 4-byte Spill
	and.w	r9, r2, r0
	eor.w	r1, r3, r12
	eor.w	r0, r4, r8
	str	r1, [sp, #56]                   @ 4-byte Spill
	str	r0, [sp, #52]                   @ 4-byte Spill
	and.w	r3, r1, r0
	ldrd	r1, r0, [sp, #96]               @ 8-byte Folded Reload
	eor.w	r9, r9, r11
	and.w	r7, r0, r1
	ldr	r1, [sp, #104]                  @ 4-byte Reload
	eor.w	r8, r9, r3
	eor.w	r7, r7, r1
	eor.w	r7, r7, r5
	ldrd	r1, r0, [sp, #28]               @ 8-byte Folded Reload
	eor.w	r3, r3, r7
	eor.w	r7, r1, r0
	eor.w	r3, r3, r0
	ldr	r0, [sp, #92]                   @ 4-byte Reload
	str.w	r12, [sp, #72]                  @ 4-byte Spill
	ldr.w	r10, [sp, #24]                  @ 4-byte Reload
	ldr.w	r12, [sp, #20]                  @ 4-byte Reload
	eor.w	r1, r2, r0
	and.w	r9, lr, r10
	str	r1, [sp, #32]                   @ 4-byte Spill
	and.w	r11, r1, r12
	ldr	r1, [sp, #36]                   @ 4-byte Reload
	eor.w	r5, r9, r11
	eor.w	r0, r0, r5
	eor.w	r8, r8, r1
	eor.w	r0, r0, r6
	eor.w	r5, r3, r8
	eor.w	r0, r0, r1
	and.w	r9, r3, r7
	and.w	r3, r3, r5
	and.w	r3, r3, r0
	str	r2, [sp, #40]                   @ 4-byte Spill
	eor.w	r2, r0, r9
	eor.w	r3, r3, r9
	and.w	r11, r2, r5
	eor.w	r3, r3, r5
	eor.w	r5, r9, r8
	eor.w	r2, r0, r7
	and.w	r5, r5, r2
	eor.w	r0, r0, r5
	eor.w	r5, r11, r8
	eor.w	r1, r3, r5
	and.w	lr, lr, r1
	and.w	r10, r10, r1
	and.w	r1, r5, r12
	str	r1, [sp, #92]                   @ 4-byte Spill
	ldr	r1, [sp, #32]                   @ 4-byte Reload
	and.w	r7, r7, r8
	and.w	r8, r5, r1
	ldr	r1, [sp, #44]                   @ 4-byte Reload
	bic.w	r2, r2, r7
	and.w	r11, r0, r1
	ldr	r1, [sp, #40]                   @ 4-byte Reload
	eor.w	r7, r2, r9
	and.w	r1, r1, r0
	str	r1, [sp, #44]                   @ 4-byte Spill
	ldr	r1, [sp, #60]                   @ 4-byte Reload
	eor.w	r5, r5, r0
	and.w	r2, r3, r1
	ldr	r1, [sp, #96]                   @ 4-byte Reload
	and.w	r12, r3, r4
	and.w	r1, r1, r7
	str	r1, [sp, #40]                   @ 4-byte Spill
	ldr	r1, [sp, #100]                  @ 4-byte Reload
	eor.w	r3, r3, r7
	eor.w	r0, r0, r7
	and.w	r7, r7, r1
	ldr	r1, [sp, #52]                   @ 4-byte Reload
	ldr	r4, [sp, #56]                   @ 4-byte Reload
	and.w	r1, r1, r0
	and.w	r0, r0, r4
	str	r0, [sp, #60]                   @ 4-byte Spill
	and.w	r0, r5, r6
	str	r0, [sp, #56]                   @ 4-byte Spill
	ldr	r4, [sp, #48]                   @ 4-byte Reload
	ldr	r0, [sp, #104]                  @ 4-byte Reload
	ldr	r6, [sp, #64]                   @ 4-byte Reload
	eor.w	r0, r0, r4
	and.w	r0, r0, r5
	eor.w	r5, r5, r3
	and.w	r6, r6, r5
	eor.w	r6, r6, r2
	eor.w	r7, r7, r2
	ldr	r2, [sp, #68]                   @ 4-byte Reload
	and.w	r9, r3, r4
	and.w	r5, r5, r2
	eor.w	r2, r0, r12
	str.w	lr, [sp, #28]                   @ 4-byte Spill
	eor.w	r2, r2, lr
	eor.w	lr, r5, r9
	eor.w	r4, r10, r8
	eor.w	r8, r8, r1
	eor.w	r6, r6, r2
	eor.w	r1, r1, r11
	eor.w	r2, r2, lr
	str.w	r12, [sp, #36]                  @ 4-byte Spill
	mov	r12, r11
	eor.w	r11, r8, r7
	eor.w	r1, r1, r2
	eor.w	r11, r11, r2
	str	r1, [sp, #100]                  @ 4-byte Spill
	eor.w	r1, r4, r2
	ldr	r2, [sp, #92]                   @ 4-byte Reload
	str	r1, [sp, #96]                   @ 4-byte Spill
	eor.w	r0, r0, r2
	eor.w	r2, r5, r10
	eor.w	r0, r0, r10
	ldr	r5, [sp, #72]                   @ 4-byte Reload
	ldr	r1, [sp, #40]                   @ 4-byte Reload
	eor.w	r4, r0, r7
	ldr	r0, [sp, #44]                   @ 4-byte Reload
	ldr	r7, [sp, #56]                   @ 4-byte Reload
	and.w	r3, r3, r5
	ldr	r5, [sp, #60]                   @ 4-byte Reload
	eor.w	r1, r1, r12
	eor.w	r10, r7, r0
	ldr	r7, [sp, #28]                   @ 4-byte Reload
	eor.w	r0, r0, r1
	eor.w	r5, r5, r3
	eor.w	r3, r3, r8
	eor.w	r7, r7, r0
	eor.w	r3, r3, r0
	eor.w	r0, r2, r6
	ldr	r2, [sp, #36]                   @ 4-byte Reload
	eor.w	r7, r7, lr
	eor.w	r1, r1, r2
	eor.w	r2, r1, r9
	eor.w	r2, r2, r5
	eor.w	r3, r3, r6
	eor.w	r7, r7, r4
	eor.w	r4, r4, r2
	ldrd	r6, r2, [sp, #76]               @ 8-byte Folded Reload
	eor.w	r1, r10, r5
	sbcs.w	r2, r6, r2
	ldr	r2, [sp, #88]                   @ 4-byte Reload
	lsr.w	r2, r2, #2
	orr.w	r2, r2, r6, lsl #30
	str	r2, [sp, #12]                   @ 4-byte Spill
	lsr.w	r2, r6, #2
	str	r2, [sp, #8]                    @ 4-byte Spill
	bhs.w	.Laes_v7m_BB24_2
@ %bb.1:                                @ %then.3.i
	ldr	r5, [sp]                        @ 4-byte Reload
	sub.w	lr, r5, #32
	ldm.w	lr, {r2, r6, lr}
	ldrd	r10, r9, [r5, #-20]
	eors	r1, r2
	ldr	r2, [r5, #-12]
	eor.w	r8, r6, r0
	ldr	r0, [sp, #100]                  @ 4-byte Reload
	ldrd	r6, r5, [r5, #-8]
	eor.w	r9, r9, r0
	eor.w	r0, r2, r7
	ldr	r2, [sp, #96]                   @ 4-byte Reload
	eor.w	r12, r10, r3
	eor.w	r3, r6, r4
	eors	r5, r2
	mov.w	r2, #50529027
	mov.w	r4, #-50529028
	and.w	r7, r2, r1, ror #14
	and.w	r6, r4, r1, ror #6
	eor.w	lr, lr, r11
	mov	r11, r1
	adds	r1, r7, r6
	and.w	r6, r2, r8, ror #14
	and.w	r7, r4, r8, ror #6
	str	r1, [sp, #76]                   @ 4-byte Spill
	adds	r1, r6, r7
	and.w	r7, r2, lr, ror #14
	and.w	r6, r4, lr, ror #6
	str	r1, [sp, #104]                  @ 4-byte Spill
	adds	r1, r7, r6
	strd	r12, r1, [sp, #92]              @ 8-byte Folded Spill
	and.w	r7, r2, r12, ror #14
	and.w	r12, r4, r12, ror #6
	add.w	r1, r7, r12
	and.w	r7, r2, r9, ror #14
	and.w	r6, r4, r9, ror #6
	add.w	r12, r7, r6
	and.w	r6, r2, r0, ror #14
	and.w	r7, r4, r0, ror #6
	add	r6, r7
	and.w	r7, r2, r3, ror #14
	and.w	r10, r4, r3, ror #6
	and.w	r2, r2, r5, ror #14
	and.w	r4, r4, r5, ror #6
	str	r1, [sp, #100]                  @ 4-byte Spill
	add	r4, r2
	ldr	r1, [sp, #104]                  @ 4-byte Reload
	ldr	r2, [sp, #96]                   @ 4-byte Reload
	add	r7, r10
	eor.w	r1, r1, r8
	eor.w	r10, r2, lr
	eor.w	r12, r12, r9
	eor.w	r2, r6, r0
	eor.w	r6, r7, r3
	eor.w	r7, r1, lr
	eor.w	r0, r0, r12
	eors	r3, r2
	eor.w	lr, r6, r5
	str	r0, [sp, #96]                   @ 4-byte Spill
	eor.w	r0, lr, r3
	str	r2, [sp, #68]                   @ 4-byte Spill
	eor.w	r2, r0, r1
	eor.w	r1, r12, r7
	eors	r0, r1
	str	r0, [sp, #104]                  @ 4-byte Spill
	ldr	r0, [sp, #76]                   @ 4-byte Reload
	eors	r4, r5
	eor.w	r1, r0, r11
	eor.w	r0, r1, r8
	str	r7, [sp, #80]                   @ 4-byte Spill
	mov	r5, r11
	str	r0, [sp, #44]                   @ 4-byte Spill
	eor.w	r11, r3, r1
	mov	r0, r3
	str	r3, [sp, #52]                   @ 4-byte Spill
	mov.w	r7, #252645135
	mov.w	r3, #-252645136
	str	r6, [sp, #72]                   @ 4-byte Spill
	and.w	r12, r7, r11, ror #20
	and.w	r6, r3, r11, ror #12
	add.w	r1, r12, r6
	str	r2, [sp, #60]                   @ 4-byte Spill
	and.w	r6, r7, r2, ror #20
	and.w	r2, r3, r2, ror #12
	str	r1, [sp, #76]                   @ 4-byte Spill
	adds	r1, r6, r2
	str	r1, [sp, #56]                   @ 4-byte Spill
	ldr	r1, [sp, #92]                   @ 4-byte Reload
	ldr	r2, [sp, #100]                  @ 4-byte Reload
	eors	r5, r4
	eor.w	r6, r2, r1
	eor.w	r2, lr, r10
	eor.w	r8, r2, r5
	eor.w	r12, r10, r1
	mov	r1, lr
	str.w	lr, [sp, #48]                   @ 4-byte Spill
	and.w	r10, r7, r8, ror #20
	and.w	lr, r3, r8, ror #12
	add.w	r2, r10, lr
	str	r2, [sp, #100]                  @ 4-byte Spill
	ldr	r2, [sp, #44]                   @ 4-byte Reload
	str	r5, [sp, #64]                   @ 4-byte Spill
	eor.w	lr, r2, r4
	eor.w	r5, r6, r9
	eors	r6, r0
	eor.w	r9, r6, lr
	and.w	r6, r7, r9, ror #20
	and.w	r10, r3, r9, ror #12
	add.w	r0, r6, r10
	str	r0, [sp, #92]                   @ 4-byte Spill
	ldr	r0, [sp, #104]                  @ 4-byte Reload
	eors	r5, r4
	and.w	r6, r7, r0, ror #20
	and.w	r10, r3, r0, ror #12
	add.w	r0, r6, r10
	str	r0, [sp, #44]                   @ 4-byte Spill
	ldr	r0, [sp, #68]                   @ 4-byte Reload
	eor.w	r6, r12, r4
	eors	r0, r1
	eor.w	r2, r0, r6
	and.w	r12, r7, r2, ror #20
	and.w	r10, r3, r2, ror #12
	add.w	r0, r12, r10
	str	r0, [sp, #68]                   @ 4-byte Spill
	ldr	r0, [sp, #72]                   @ 4-byte Reload
	eor.w	r1, r5, r0
	and.w	r12, r7, r1, ror #20
	and.w	r10, r3, r1, ror #12
	add	r10, r12
	ldr.w	r12, [sp, #96]                  @ 4-byte Reload
	eor.w	r0, r4, r12
	and.w	r4, r7, r0, ror #20
	and.w	r7, r3, r0, ror #12
	ldr	r3, [sp, #76]                   @ 4-byte Reload
	add	r7, r4
	eor.w	r4, r11, r3
	ldr	r3, [sp, #64]                   @ 4-byte Reload
	eors	r3, r4
	str	r3, [sp, #64]                   @ 4-byte Spill
	ldr	r3, [sp, #56]                   @ 4-byte Reload
	eor.w	r4, lr, r3
	ldr	r3, [sp, #60]                   @ 4-byte Reload
	eor.w	lr, r4, r3
	ldr	r3, [sp, #80]                   @ 4-byte Reload
	ldr	r4, [sp, #100]                  @ 4-byte Reload
	eors	r4, r3
	ldr	r3, [sp, #92]                   @ 4-byte Reload
	eor.w	r4, r4, r8
	eors	r3, r6
	eor.w	r8, r3, r9
	ldr	r3, [sp, #44]                   @ 4-byte Reload
	str	r4, [sp, #56]                   @ 4-byte Spill
	eors	r3, r5
	ldr	r5, [sp, #104]                  @ 4-byte Reload
	eors	r5, r3
	ldr	r3, [sp, #68]                   @ 4-byte Reload
	eor.w	r3, r3, r12
	eors	r2, r3
	str	r2, [sp, #104]                  @ 4-byte Spill
	ldr	r2, [sp, #52]                   @ 4-byte Reload
	eor.w	r3, r5, r8
	eor.w	r2, r2, r10
	eor.w	r6, r2, r1
	ldr	r1, [sp, #48]                   @ 4-byte Reload
	str	r3, [sp, #80]                   @ 4-byte Spill
	eors	r1, r7
	eor.w	r12, r1, r0
	eor.w	r0, r4, lr
	ldr	r4, [sp, #64]                   @ 4-byte Reload
	eor.w	r10, r6, r12
	eor.w	r9, r8, r4
	eor.w	r2, r3, r0
	eor.w	r7, r9, r10
	str	r0, [sp, #92]                   @ 4-byte Spill
	eor.w	r0, r2, r7
	and.w	r1, r0, r3
	eor.w	r0, r5, r12
	eor.w	r11, r0, r6
	str	r0, [sp, #100]                  @ 4-byte Spill
	eor.w	r0, r11, r8
	str	r0, [sp, #76]                   @ 4-byte Spill
	ands	r0, r2
	str	r2, [sp, #72]                   @ 4-byte Spill
	eors	r0, r1
	and.w	r2, r7, r10
	str	r0, [sp, #32]                   @ 4-byte Spill
	eor.w	r0, r1, r2
	str	r0, [sp, #40]                   @ 4-byte Spill
	ldr	r0, [sp, #104]                  @ 4-byte Reload
	str.w	r12, [sp, #52]                  @ 4-byte Spill
	eor.w	r12, r5, r6
	eor.w	r1, r6, lr
	mov	r5, r4
	eor.w	lr, lr, r4
	eor.w	r4, r0, r8
	str	r7, [sp, #96]                   @ 4-byte Spill
	eor.w	r7, r4, r1
	eor.w	r4, r3, r5
	eor.w	r8, r3, lr
	ldr	r2, [sp, #56]                   @ 4-byte Reload
	orr.w	r3, r8, r7
	and.w	r6, r4, r12
	eors	r6, r3
	eor.w	r3, r0, r2
	ldr	r0, [sp, #52]                   @ 4-byte Reload
	str	r4, [sp, #60]                   @ 4-byte Spill
	eor.w	r2, r3, r0
	eor.w	r4, r12, lr
	str	r2, [sp, #44]                   @ 4-byte Spill
	eor.w	r5, r9, r1
	and.w	r1, r4, r2
	eor.w	r0, r10, lr
	eor.w	r2, r12, r3
	eor.w	r1, r1, r9
	str	r0, [sp, #56]                   @ 4-byte Spill
	ands	r0, r2
	str	r2, [sp, #52]                   @ 4-byte Spill
	eor.w	r2, r1, r0
	ldr	r1, [sp, #100]                  @ 4-byte Reload
	ldr	r3, [sp, #92]                   @ 4-byte Reload
	and.w	r1, r1, r11
	eors	r1, r3
	ldr	r3, [sp, #96]                   @ 4-byte Reload
	str.w	r12, [sp, #36]                  @ 4-byte Spill
	eors	r1, r3
	eors	r0, r1
	ldr	r1, [sp, #32]                   @ 4-byte Reload
	str.w	r11, [sp, #48]                  @ 4-byte Spill
	eor.w	r12, r6, r1
	eor.w	r3, r0, r1
	ldr	r1, [sp, #104]                  @ 4-byte Reload
	and.w	r0, r8, r7
	eor.w	r9, r4, r1
	and.w	r6, r9, r5
	eors	r0, r6
	mov	r11, r7
	eor.w	r6, r0, r1
	ldr	r7, [sp, #40]                   @ 4-byte Reload
	ldr	r1, [sp, #80]                   @ 4-byte Reload
	eor.w	r0, r2, r7
	eor.w	r2, r6, r1
	eor.w	r6, r2, r7
	str.w	r10, [sp, #68]                  @ 4-byte Spill
	and.w	r10, r3, r12
	eor.w	r2, r3, r0
	ands	r3, r6
	ands	r3, r2
	eor.w	r7, r10, r6
	eor.w	r3, r3, r10
	ands	r7, r2
	eor.w	lr, r3, r2
	eor.w	r2, r10, r0
	eor.w	r1, r6, r12
	ands	r2, r1
	eor.w	r3, r2, r6
	eor.w	r2, r7, r0
	and.w	r0, r0, r12
	ands	r0, r1
	str	r4, [sp, #28]                   @ 4-byte Spill
	mov	r4, r5
	eor.w	r0, r0, r10
	eors	r0, r1
	and.w	r1, r2, r4
	str	r1, [sp, #64]                   @ 4-byte Spill
	and.w	r1, r2, r9
	eor.w	r6, lr, r2
	str	r1, [sp, #104]                  @ 4-byte Spill
	eor.w	r1, r2, r3
	ldr	r2, [sp, #36]                   @ 4-byte Reload
	and.w	r7, r6, r8
	and.w	r12, lr, r2
	ldr	r2, [sp, #44]                   @ 4-byte Reload
	str	r7, [sp, #40]                   @ 4-byte Spill
	ands	r2, r3
	str	r2, [sp, #44]                   @ 4-byte Spill
	ldr	r2, [sp, #28]                   @ 4-byte Reload
	ldr	r7, [sp, #100]                  @ 4-byte Reload
	ands	r2, r3
	ands	r7, r0
	str	r2, [sp, #36]                   @ 4-byte Spill
	ldr	r2, [sp, #60]                   @ 4-byte Reload
	str	r7, [sp, #100]                  @ 4-byte Spill
	ldr	r7, [sp, #48]                   @ 4-byte Reload
	and.w	r4, lr, r2
	eor.w	r2, lr, r0
	eors	r3, r0
	ands	r0, r7
	ldr	r7, [sp, #52]                   @ 4-byte Reload
	and.w	r5, r6, r11
	ands	r7, r3
	str	r7, [sp, #60]                   @ 4-byte Spill
	ldr	r7, [sp, #56]                   @ 4-byte Reload
	eor.w	r10, r0, r4
	ands	r3, r7
	str	r3, [sp, #56]                   @ 4-byte Spill
	ldr	r3, [sp, #80]                   @ 4-byte Reload
	ldr	r0, [sp, #76]                   @ 4-byte Reload
	and.w	lr, r1, r3
	ldrd	r3, r6, [sp, #92]               @ 8-byte Folded Reload
	str	r5, [sp, #32]                   @ 4-byte Spill
	eor.w	r7, r6, r3
	and.w	r3, r1, r7
	ldr	r7, [sp, #72]                   @ 4-byte Reload
	eors	r1, r2
	ands	r7, r1
	eor.w	r5, r7, r4
	str	r5, [sp, #92]                   @ 4-byte Spill
	and.w	r7, r1, r0
	and.w	r5, r2, r6
	ldr	r6, [sp, #88]                   @ 4-byte Reload
	ldr	r0, [sp, #16]                   @ 4-byte Reload
	ldr	r4, [sp, #68]                   @ 4-byte Reload
	lsls	r1, r6, #5
	ands	r2, r4
	add.w	r4, r0, r6, lsl #5
	ldr	r1, [r0, r1]
	ldr	r0, [r4, #4]
	ldr.w	r8, [sp, #32]                   @ 4-byte Reload
	eor.w	r1, r1, lr
	eor.w	r0, r0, r8
	eors	r0, r7
	ldr.w	r11, [sp, #40]                  @ 4-byte Reload
	str	r0, [sp, #76]                   @ 4-byte Spill
	ldr	r0, [sp, #56]                   @ 4-byte Reload
	str	r1, [sp, #96]                   @ 4-byte Spill
	eor.w	r1, r3, r12
	str.w	r12, [sp, #24]                  @ 4-byte Spill
	eor.w	r12, r1, r11
	ldr	r1, [r4, #8]
	eors	r0, r2
	str	r5, [sp, #80]                   @ 4-byte Spill
	eor.w	lr, r7, r5
	eor.w	r9, r10, r3
	ldr	r5, [r4, #12]
	str	r0, [sp, #88]                   @ 4-byte Spill
	ldr	r0, [sp, #104]                  @ 4-byte Reload
	ldr	r3, [sp, #60]                   @ 4-byte Reload
	eor.w	r1, r1, r12
	eor.w	r1, r1, lr
	eors	r2, r5
	eor.w	r5, r3, r0
	ldr	r0, [sp, #92]                   @ 4-byte Reload
	eor.w	r1, r1, r10
	eor.w	r10, r1, r5
	eors	r2, r5
	eor.w	r5, r0, r12
	ldr	r0, [sp, #44]                   @ 4-byte Reload
	ldr	r1, [sp, #100]                  @ 4-byte Reload
	ldr	r6, [sp, #96]                   @ 4-byte Reload
	eor.w	r7, r1, r0
	ldr	r1, [sp, #36]                   @ 4-byte Reload
	eors	r6, r1
	str	r6, [sp, #92]                   @ 4-byte Spill
	ldr	r6, [sp, #76]                   @ 4-byte Reload
	eors	r1, r7
	eors	r6, r5
	str	r6, [sp, #96]                   @ 4-byte Spill
	eors	r2, r1
	ldr	r6, [r4, #16]
	eors	r2, r5
	str	r2, [sp, #100]                  @ 4-byte Spill
	eor.w	r2, r0, r6
	eor.w	r5, r2, r3
	ldr	r2, [sp, #64]                   @ 4-byte Reload
	ldr	r6, [r4, #20]
	eor.w	r2, r2, r8
	eors	r6, r2
	eor.w	r6, r6, r9
	eor.w	r0, lr, r12
	ldr.w	r12, [r4, #24]
	eor.w	r6, r6, r11
	eors	r6, r1
	eor.w	r2, r2, r12
	ldr	r1, [sp, #24]                   @ 4-byte Reload
	eor.w	r2, r2, r9
	eors	r2, r1
	eor.w	r1, r2, r7
	ldr	r7, [sp, #80]                   @ 4-byte Reload
	ldr	r3, [r4, #28]
	ldrd	r4, r2, [sp, #88]               @ 8-byte Folded Reload
	eors	r1, r7
	eors	r2, r4
	eors	r4, r1
	ldr	r1, [sp, #104]                  @ 4-byte Reload
	mov.w	r9, #-252645136
	eors	r1, r3
	eor.w	r1, r1, r8
	mov.w	r8, #252645135
	eor.w	r12, r5, r0
	eors	r0, r1
	and.w	r1, r8, r2, ror #12
	and.w	r3, r9, r2, ror #4
	add	r1, r3
	ldr	r3, [sp, #96]                   @ 4-byte Reload
	str	r1, [sp, #104]                  @ 4-byte Spill
	and.w	r1, r8, r3, ror #12
	and.w	r3, r9, r3, ror #4
	add	r1, r3
	and.w	r3, r8, r10, ror #12
	and.w	r5, r9, r10, ror #4
	str	r1, [sp, #88]                   @ 4-byte Spill
	adds	r1, r3, r5
	str	r1, [sp, #80]                   @ 4-byte Spill
	ldr	r1, [sp, #100]                  @ 4-byte Reload
	eor.w	r6, r6, lr
	and.w	r5, r8, r1, ror #12
	and.w	r7, r9, r1, ror #4
	adds	r1, r5, r7
	and.w	r5, r8, r12, ror #12
	and.w	r7, r9, r12, ror #4
	str	r1, [sp, #92]                   @ 4-byte Spill
	add.w	r11, r5, r7
	and.w	r7, r8, r6, ror #12
	and.w	r1, r9, r6, ror #4
	add.w	lr, r7, r1
	and.w	r7, r8, r4, ror #12
	mov.w	r1, #252645135
	and.w	r3, r9, r4, ror #4
	mov.w	r8, #-252645136
	add	r7, r3
	and.w	r3, r1, r0, ror #12
	and.w	r8, r8, r0, ror #4
	add.w	r1, r3, r8
	ldr	r3, [sp, #96]                   @ 4-byte Reload
	ldr	r5, [sp, #88]                   @ 4-byte Reload
	str.w	r12, [sp, #68]                  @ 4-byte Spill
	eor.w	r8, r5, r3
	ldr	r5, [sp, #80]                   @ 4-byte Reload
	eor.w	r11, r11, r12
	eor.w	r9, r5, r10
	eor.w	r5, lr, r6
	eor.w	r12, r7, r4
	str	r5, [sp, #76]                   @ 4-byte Spill
	eor.w	r7, r1, r0
	eor.w	r10, r10, r8
	eor.w	r1, r11, r6
	eors	r4, r5
	eor.w	r5, r12, r0
	str	r1, [sp, #88]                   @ 4-byte Spill
	eor.w	r1, r5, r4
	eor.w	r6, r10, r11
	ldr	r0, [sp, #104]                  @ 4-byte Reload
	eor.w	r8, r8, r1
	eor.w	r11, r6, r1
	ldr	r1, [sp, #100]                  @ 4-byte Reload
	eor.w	r6, r0, r2
	str.w	r10, [sp, #72]                  @ 4-byte Spill
	eors	r2, r7
	eor.w	r10, r6, r3
	eor.w	r3, r7, r1
	eors	r6, r4
	str.w	r12, [sp, #80]                  @ 4-byte Spill
	eor.w	r12, r3, r9
	eor.w	r9, r9, r2
	eor.w	r2, r2, r6, ror #16
	eors	r2, r6
	ldr	r0, [sp, #92]                   @ 4-byte Reload
	str	r2, [sp, #92]                   @ 4-byte Spill
	ldr	r2, [sp, #68]                   @ 4-byte Reload
	eors	r0, r1
	eors	r2, r7
	eor.w	r1, r10, r7
	eor.w	r10, r2, r0
	ldr	r2, [sp, #76]                   @ 4-byte Reload
	eors	r0, r1
	eor.w	r1, r1, r8, ror #16
	eor.w	r3, r12, r2
	ldr	r2, [sp, #80]                   @ 4-byte Reload
	eor.w	r8, r8, r1
	ldr	r1, [sp, #72]                   @ 4-byte Reload
	eor.w	r6, r9, r5
	eors	r0, r4
	eor.w	r9, r2, r10
	ldr	r2, [sp, #88]                   @ 4-byte Reload
	eor.w	r1, r1, r6, ror #16
	eors	r3, r5
	eors	r6, r1
	eor.w	r1, r12, r0, ror #16
	eor.w	lr, r2, r7
	eor.w	r7, r1, r0
	eor.w	r0, r10, r11, ror #16
	eor.w	r1, r2, r3, ror #16
	eor.w	r10, r0, r11
	eor.w	r0, r1, r3
	str	r0, [sp, #96]                   @ 4-byte Spill
	eor.w	r12, r10, r7
	eor.w	r0, r8, r6
	eor.w	r1, r4, r9, ror #16
	eor.w	r2, lr, lr, ror #16
	str	r0, [sp, #104]                  @ 4-byte Spill
	eor.w	r4, r12, r0
	ldr	r0, [sp, #92]                   @ 4-byte Reload
	eor.w	r1, r1, r9
	eor.w	r9, r2, r5
	eor.w	r11, r1, r9
	str.w	r9, [sp, #52]                   @ 4-byte Spill
	eor.w	r5, r7, r0
	eor.w	r9, r9, r10
	str.w	r8, [sp, #60]                   @ 4-byte Spill
	str	r6, [sp, #72]                   @ 4-byte Spill
	eor.w	r6, r5, r11
	eor.w	r8, r9, r1
	eor.w	r3, r4, r6
	eor.w	r0, r8, r7
	str	r4, [sp, #76]                   @ 4-byte Spill
	and.w	r3, r3, r12
	ands	r4, r0
	str	r0, [sp, #80]                   @ 4-byte Spill
	eor.w	r0, r3, r4
	and.w	r4, r6, r11
	str	r0, [sp, #44]                   @ 4-byte Spill
	eor.w	r0, r3, r4
	str	r0, [sp, #48]                   @ 4-byte Spill
	ldr	r0, [sp, #60]                   @ 4-byte Reload
	eor.w	r4, r10, r1
	eor.w	r2, r0, r1
	ldr	r1, [sp, #92]                   @ 4-byte Reload
	str.w	r12, [sp, #100]                 @ 4-byte Spill
	eor.w	lr, r0, r1
	ldr	r0, [sp, #96]                   @ 4-byte Reload
	eor.w	r1, r1, r12
	eor.w	r3, r0, r7
	eor.w	r10, r3, r2
	eor.w	r7, r12, lr
	str	r1, [sp, #92]                   @ 4-byte Spill
	str	r7, [sp, #40]                   @ 4-byte Spill
	orr.w	r12, r7, r10
	mov	r7, r4
	ands	r4, r1
	ldr	r1, [sp, #72]                   @ 4-byte Reload
	eor.w	r4, r4, r12
	eor.w	r3, r0, r1
	ldr	r0, [sp, #52]                   @ 4-byte Reload
	eor.w	r12, r7, lr
	eor.w	r1, r3, r0
	eor.w	r0, r2, r5
	str	r1, [sp, #60]                   @ 4-byte Spill
	str	r0, [sp, #32]                   @ 4-byte Spill
	and.w	r2, r12, r1
	eor.w	r0, lr, r11
	eor.w	r1, r7, r3
	eors	r2, r5
	str	r0, [sp, #72]                   @ 4-byte Spill
	ands	r0, r1
	str.w	r11, [sp, #88]                  @ 4-byte Spill
	str	r1, [sp, #52]                   @ 4-byte Spill
	mov	r11, r7
	eor.w	r1, r2, r0
	and.w	r2, r8, r9
	ldr	r7, [sp, #104]                  @ 4-byte Reload
	eors	r2, r6
	eors	r2, r7
	ldr	r3, [sp, #44]                   @ 4-byte Reload
	eors	r0, r2
	eor.w	r2, r4, r3
	eors	r0, r3
	ldr	r3, [sp, #40]                   @ 4-byte Reload
	str	r6, [sp, #68]                   @ 4-byte Spill
	ldr	r6, [sp, #96]                   @ 4-byte Reload
	mov	lr, r10
	and.w	r4, r3, r10
	ldr.w	r10, [sp, #32]                  @ 4-byte Reload
	str.w	r9, [sp, #56]                   @ 4-byte Spill
	mov	r9, r12
	eor.w	r12, r12, r6
	and.w	r5, r12, r10
	eors	r5, r4
	ldr	r4, [sp, #48]                   @ 4-byte Reload
	eors	r5, r6
	eor.w	r6, r1, r4
	ldr	r1, [sp, #100]                  @ 4-byte Reload
	str.w	r8, [sp, #64]                   @ 4-byte Spill
	eors	r1, r5
	eor.w	r5, r1, r4
	and.w	r4, r0, r2
	eor.w	r1, r0, r6
	ands	r0, r5
	ands	r0, r1
	eor.w	r7, r4, r5
	eors	r0, r4
	and.w	r8, r7, r1
	eors	r1, r0
	eor.w	r0, r4, r6
	eor.w	r7, r5, r2
	ands	r2, r6
	ands	r0, r7
	ands	r2, r7
	eors	r0, r5
	eor.w	r5, r8, r6
	eors	r2, r4
	eors	r7, r2
	and.w	r2, r5, r10
	str	r2, [sp, #48]                   @ 4-byte Spill
	ldr	r2, [sp, #60]                   @ 4-byte Reload
	eor.w	r8, r1, r5
	ands	r2, r0
	str	r2, [sp, #32]                   @ 4-byte Spill
	and.w	r2, r0, r9
	and.w	r3, r3, r8
	str	r2, [sp, #60]                   @ 4-byte Spill
	ldr	r2, [sp, #92]                   @ 4-byte Reload
	str	r3, [sp, #44]                   @ 4-byte Spill
	and.w	r3, r8, lr
	str	r3, [sp, #36]                   @ 4-byte Spill
	and.w	r3, r1, r11
	and.w	r11, r1, r2
	eor.w	r8, r1, r7
	ldr	r1, [sp, #56]                   @ 4-byte Reload
	eor.w	r4, r5, r0
	ands	r1, r7
	str	r1, [sp, #56]                   @ 4-byte Spill
	ldr	r1, [sp, #64]                   @ 4-byte Reload
	eors	r0, r7
	ands	r7, r1
	ldr	r1, [sp, #52]                   @ 4-byte Reload
	ldr	r2, [sp, #72]                   @ 4-byte Reload
	ands	r1, r0
	ands	r0, r2
	str	r0, [sp, #92]                   @ 4-byte Spill
	ldr	r0, [sp, #100]                  @ 4-byte Reload
	ldr	r6, [sp, #68]                   @ 4-byte Reload
	ands	r0, r4
	str	r0, [sp, #72]                   @ 4-byte Spill
	ldr	r0, [sp, #104]                  @ 4-byte Reload
	ldr	r2, [sp, #76]                   @ 4-byte Reload
	eors	r0, r6
	and.w	r9, r4, r0
	eor.w	r0, r8, r4
	and.w	r4, r0, r2
	ldr	r2, [sp, #80]                   @ 4-byte Reload
	ldr.w	lr, [sp, #44]                   @ 4-byte Reload
	and.w	r10, r5, r12
	eor.w	r5, r4, r11
	and.w	r12, r0, r2
	eor.w	r4, r9, r3
	ldr	r2, [sp, #36]                   @ 4-byte Reload
	eor.w	r0, r4, lr
	str	r3, [sp, #40]                   @ 4-byte Spill
	eor.w	r11, r11, r7
	and.w	r3, r8, r6
	eor.w	r7, r2, r10
	eor.w	r4, r1, r10
	eor.w	r10, r5, r0
	ldr	r5, [sp, #32]                   @ 4-byte Reload
	str	r3, [sp, #80]                   @ 4-byte Spill
	eor.w	r3, r3, r12
	eors	r1, r5
	eors	r0, r3
	eor.w	r6, r4, r11
	eors	r6, r0
	eors	r1, r0
	eors	r0, r7
	str	r0, [sp, #96]                   @ 4-byte Spill
	ldr	r0, [sp, #56]                   @ 4-byte Reload
	str	r1, [sp, #100]                  @ 4-byte Spill
	eor.w	r1, r0, r5
	ldr	r0, [sp, #48]                   @ 4-byte Reload
	str	r6, [sp, #104]                  @ 4-byte Spill
	eor.w	r0, r0, r9
	mov	r6, r2
	eors	r0, r6
	eor.w	r6, r0, r11
	ldr	r0, [sp, #60]                   @ 4-byte Reload
	ldr	r7, [sp, #72]                   @ 4-byte Reload
	eor.w	r2, r2, r12
	eors	r7, r0
	eors	r0, r1
	eor.w	r5, r0, lr
	eor.w	r9, r5, r3
	ldr	r3, [sp, #88]                   @ 4-byte Reload
	eor.w	r12, r2, r10
	and.w	r5, r8, r3
	ldr	r3, [sp, #92]                   @ 4-byte Reload
	eor.w	r8, r9, r6
	eors	r3, r5
	eors	r5, r4
	eors	r0, r5
	eor.w	r10, r10, r0
	ldr	r0, [sp, #40]                   @ 4-byte Reload
	eor.w	lr, r7, r3
	eors	r1, r0
	ldr	r0, [sp, #80]                   @ 4-byte Reload
	eors	r1, r0
	eor.w	r2, r1, r3
	eor.w	r11, r2, r6
	b	.Laes_v7m_BB24_3
	.p2align	2
.Laes_v7m_BB24_2:                               @ %else.4.i
	eor.w	r2, r1, r1, lsr #4
	and	r2, r2, #251662080
	add.w	r2, r2, r2, lsl #4
	eor.w	lr, r2, r1
	eor.w	r1, r0, r0, lsr #4
	and	r1, r1, #251662080
	add.w	r1, r1, r1, lsl #4
	eor.w	r12, r1, r0
	eor.w	r0, r11, r11, lsr #4
	and	r0, r0, #251662080
	add.w	r0, r0, r0, lsl #4
	eor.w	r0, r0, r11
	ldr.w	r11, [sp, #100]                 @ 4-byte Reload
	str	r0, [sp, #104]                  @ 4-byte Spill
	eor.w	r0, r3, r3, lsr #4
	eor.w	r1, r11, r11, lsr #4
	and	r0, r0, #251662080
	and	r1, r1, #251662080
	add.w	r0, r0, r0, lsl #4
	add.w	r1, r1, r1, lsl #4
	eor.w	r10, r0, r3
	eor.w	r0, r1, r11
	eor.w	r2, r4, r4, lsr #4
	str	r0, [sp, #100]                  @ 4-byte Spill
	and	r2, r2, #251662080
	ldr	r0, [sp, #96]                   @ 4-byte Reload
	add.w	r2, r2, r2, lsl #4
	eor.w	r1, r7, r7, lsr #4
	eor.w	r11, r2, r4
	eor.w	r2, r0, r0, lsr #4
	and	r1, r1, #251662080
	and	r2, r2, #251662080
	add.w	r1, r1, r1, lsl #4
	add.w	r2, r2, r2, lsl #4
	eor.w	r8, r1, r7
	eors	r0, r2
	str	r0, [sp, #96]                   @ 4-byte Spill
.Laes_v7m_BB24_3:                               @ %join.5.i
	ldr	r0, [sp, #16]                   @ 4-byte Reload
	ldr	r1, [sp, #84]                   @ 4-byte Reload
	add.w	r2, r0, r1, lsl #5
	add.w	r7, r2, #32
	ldm	r7, {r3, r6, r7}
	ldrd	r5, r9, [r2, #44]
	ldr	r1, [r2, #52]
	ldrd	r0, r2, [r2, #56]
	eor.w	r4, r3, lr
	ldr	r3, [sp, #104]                  @ 4-byte Reload
	eor.w	lr, r6, r12
	eor.w	r12, r1, r8
	eor.w	r1, r0, r11
	ldr	r0, [sp, #96]                   @ 4-byte Reload
	eors	r7, r3
	ldr	r3, [sp, #100]                  @ 4-byte Reload
	eor.w	r10, r10, r5
	eor.w	r5, r2, r0
	mov.w	r2, #1061109567
	mov.w	r0, #-1061109568
	eor.w	r6, r9, r3
	and.w	r8, r2, r4, ror #10
	and.w	r3, r0, r4, ror #2
	add	r3, r8
	str	r4, [sp, #84]                   @ 4-byte Spill
	str	r3, [sp, #92]                   @ 4-byte Spill
	and.w	r3, r2, lr, ror #10
	and.w	r4, r0, lr, ror #2
	add	r3, r4
	str	r3, [sp, #104]                  @ 4-byte Spill
	and.w	r4, r2, r7, ror #10
	and.w	r3, r0, r7, ror #2
	add	r3, r4
	str	r3, [sp, #96]                   @ 4-byte Spill
	and.w	r4, r2, r10, ror #10
	and.w	r3, r0, r10, ror #2
	add	r3, r4
	str	r3, [sp, #100]                  @ 4-byte Spill
	and.w	r3, r2, r6, ror #10
	and.w	r4, r0, r6, ror #2
	add.w	r9, r3, r4
	and.w	r4, r2, r12, ror #10
	and.w	r8, r0, r12, ror #2
	add	r8, r4
	and.w	r4, r2, r1, ror #10
	and.w	r11, r0, r1, ror #2
	and.w	r2, r2, r5, ror #10
	and.w	r0, r0, r5, ror #2
	add	r2, r0
	ldr	r0, [sp, #104]                  @ 4-byte Reload
	add	r4, r11
	eor.w	r3, r0, lr
	ldr	r0, [sp, #96]                   @ 4-byte Reload
	eor.w	r9, r9, r6
	str	r6, [sp, #76]                   @ 4-byte Spill
	eor.w	r11, r0, r7
	eor.w	r0, r8, r12
	eor.w	r6, r4, r1
	eor.w	r4, r2, r5
	eor.w	r2, r9, r12
	eor.w	r8, r3, r7
	str	r2, [sp, #96]                   @ 4-byte Spill
	eor.w	r7, r0, r1
	eor.w	r2, r6, r5
	str	r0, [sp, #72]                   @ 4-byte Spill
	eor.w	r1, r2, r7
	eor.w	r0, r9, r8
	eors	r0, r1
	str	r6, [sp, #80]                   @ 4-byte Spill
	str	r0, [sp, #104]                  @ 4-byte Spill
	ldr	r6, [sp, #84]                   @ 4-byte Reload
	ldr	r0, [sp, #92]                   @ 4-byte Reload
	mov	r5, r7
	eors	r0, r6
	str.w	r8, [sp, #88]                   @ 4-byte Spill
	mov	r7, r2
	str	r2, [sp, #48]                   @ 4-byte Spill
	eor.w	r2, r1, r3
	eor.w	r8, r0, lr
	eor.w	r1, r5, r0
	mov.w	lr, #252645135
	mov.w	r12, #-252645136
	and.w	r0, lr, r1, ror #20
	and.w	r3, r12, r1, ror #12
	add	r0, r3
	str	r0, [sp, #92]                   @ 4-byte Spill
	and.w	r0, lr, r2, ror #20
	and.w	r3, r12, r2, ror #12
	add	r0, r3
	str	r0, [sp, #64]                   @ 4-byte Spill
	ldr	r0, [sp, #100]                  @ 4-byte Reload
	strd	r1, r5, [sp, #56]               @ 8-byte Folded Spill
	eor.w	r1, r4, r6
	eor.w	r3, r7, r11
	eor.w	r0, r0, r10
	eor.w	r10, r10, r11
	eor.w	r11, r3, r1
	and.w	r3, lr, r11, ror #20
	and.w	r9, r12, r11, ror #12
	str	r1, [sp, #84]                   @ 4-byte Spill
	add.w	r1, r3, r9
	str	r1, [sp, #100]                  @ 4-byte Spill
	ldr	r1, [sp, #76]                   @ 4-byte Reload
	eor.w	r8, r8, r4
	eor.w	r6, r0, r1
	eors	r0, r5
	str	r2, [sp, #68]                   @ 4-byte Spill
	eor.w	r2, r0, r8
	and.w	r1, lr, r2, ror #20
	and.w	r5, r12, r2, ror #12
	adds	r0, r1, r5
	str	r0, [sp, #52]                   @ 4-byte Spill
	ldr	r0, [sp, #104]                  @ 4-byte Reload
	eor.w	r3, r10, r4
	and.w	r1, lr, r0, ror #20
	and.w	r5, r12, r0, ror #12
	adds	r0, r1, r5
	str	r0, [sp, #44]                   @ 4-byte Spill
	ldr	r0, [sp, #72]                   @ 4-byte Reload
	eor.w	r1, r6, r4
	eor.w	r5, r7, r0
	eors	r5, r3
	and.w	r10, lr, r5, ror #20
	and.w	r9, r12, r5, ror #12
	add.w	r0, r10, r9
	str	r0, [sp, #40]                   @ 4-byte Spill
	ldr	r0, [sp, #80]                   @ 4-byte Reload
	ldr.w	r10, [sp, #96]                  @ 4-byte Reload
	eors	r0, r1
	and.w	r9, lr, r0, ror #20
	and.w	r7, r12, r0, ror #12
	eor.w	r4, r4, r10
	add	r9, r7
	and.w	lr, lr, r4, ror #20
	and.w	r7, r12, r4, ror #12
	add.w	r12, lr, r7
	ldr	r7, [sp, #92]                   @ 4-byte Reload
	ldr	r6, [sp, #56]                   @ 4-byte Reload
	eors	r7, r6
	ldr	r6, [sp, #84]                   @ 4-byte Reload
	eors	r7, r6
	str	r7, [sp, #92]                   @ 4-byte Spill
	ldr	r7, [sp, #64]                   @ 4-byte Reload
	ldr	r6, [sp, #68]                   @ 4-byte Reload
	eor.w	r7, r7, r8
	eor.w	r8, r7, r6
	ldr	r7, [sp, #88]                   @ 4-byte Reload
	ldr	r6, [sp, #100]                  @ 4-byte Reload
	str.w	r8, [sp, #72]                   @ 4-byte Spill
	eors	r7, r6
	ldr	r6, [sp, #52]                   @ 4-byte Reload
	eor.w	r7, r7, r11
	eors	r3, r6
	eors	r3, r2
	ldr	r2, [sp, #44]                   @ 4-byte Reload
	str	r7, [sp, #76]                   @ 4-byte Spill
	eors	r1, r2
	ldr	r2, [sp, #104]                  @ 4-byte Reload
	eor.w	r6, r1, r2
	ldr	r1, [sp, #40]                   @ 4-byte Reload
	eor.w	r2, r10, r1
	eor.w	r1, r2, r5
	str	r1, [sp, #52]                   @ 4-byte Spill
	ldr	r1, [sp, #60]                   @ 4-byte Reload
	eor.w	r2, r1, r9
	eor.w	r5, r2, r0
	ldr	r0, [sp, #48]                   @ 4-byte Reload
	mov	r9, r6
	eor.w	r0, r0, r12
	eor.w	r2, r0, r4
	eor.w	r12, r6, r3
	eor.w	r0, r7, r8
	str	r0, [sp, #104]                  @ 4-byte Spill
	eor.w	r4, r12, r0
	ldr	r0, [sp, #92]                   @ 4-byte Reload
	eor.w	lr, r5, r2
	str	r2, [sp, #60]                   @ 4-byte Spill
	eor.w	r7, r3, r0
	eors	r2, r6
	eor.w	r11, r7, lr
	eor.w	r10, r2, r5
	eor.w	r0, r4, r11
	str	r2, [sp, #96]                   @ 4-byte Spill
	eor.w	r2, r10, r3
	and.w	r0, r0, r12
	str	r2, [sp, #84]                   @ 4-byte Spill
	ands	r2, r4
	and.w	r6, r11, lr
	eors	r2, r0
	eors	r0, r6
	str	r4, [sp, #80]                   @ 4-byte Spill
	str	r0, [sp, #48]                   @ 4-byte Spill
	eor.w	r1, r9, r5
	ldr	r0, [sp, #72]                   @ 4-byte Reload
	ldr	r4, [sp, #92]                   @ 4-byte Reload
	ldr.w	r9, [sp, #52]                   @ 4-byte Reload
	str	r2, [sp, #44]                   @ 4-byte Spill
	mov	r8, lr
	str.w	lr, [sp, #88]                   @ 4-byte Spill
	eor.w	r2, r5, r0
	eor.w	lr, r0, r4
	eor.w	r3, r3, r9
	eor.w	r5, r3, r2
	eor.w	r3, r12, r4
	eor.w	r6, r12, lr
	str	r3, [sp, #92]                   @ 4-byte Spill
	orr.w	r4, r6, r5
	ands	r3, r1
	eors	r3, r4
	str	r3, [sp, #40]                   @ 4-byte Spill
	ldr	r3, [sp, #76]                   @ 4-byte Reload
	ldr	r0, [sp, #60]                   @ 4-byte Reload
	eor.w	r3, r3, r9
	eor.w	r4, r3, r0
	eor.w	r0, r1, lr
	str.w	r12, [sp, #100]                 @ 4-byte Spill
	mov	r12, r5
	str	r1, [sp, #56]                   @ 4-byte Spill
	str	r4, [sp, #60]                   @ 4-byte Spill
	eor.w	r5, r7, r2
	and.w	r2, r0, r4
	mov	r4, r0
	eor.w	r0, r8, lr
	eors	r1, r3
	str	r0, [sp, #76]                   @ 4-byte Spill
	str	r1, [sp, #72]                   @ 4-byte Spill
	ands	r0, r1
	ldr	r1, [sp, #96]                   @ 4-byte Reload
	ldr	r3, [sp, #104]                  @ 4-byte Reload
	and.w	r1, r1, r10
	eors	r1, r3
	eors	r2, r7
	eor.w	r1, r1, r11
	eor.w	lr, r2, r0
	eors	r0, r1
	ldrd	r1, r2, [sp, #40]               @ 8-byte Folded Reload
	str.w	r11, [sp, #68]                  @ 4-byte Spill
	eor.w	r11, r4, r9
	eors	r1, r2
	eors	r0, r2
	and.w	r2, r6, r12
	and.w	r7, r11, r5
	eors	r7, r2
	ldr	r2, [sp, #100]                  @ 4-byte Reload
	eor.w	r7, r7, r9
	ldr	r3, [sp, #48]                   @ 4-byte Reload
	eors	r2, r7
	str.w	r10, [sp, #64]                  @ 4-byte Spill
	mov	r10, r12
	mov	r12, r5
	eor.w	r5, lr, r3
	eor.w	r7, r2, r3
	and.w	r8, r0, r1
	eor.w	r2, r0, r5
	ands	r0, r7
	ands	r0, r2
	eor.w	r3, r8, r7
	eor.w	r0, r0, r8
	and.w	lr, r3, r2
	eors	r2, r0
	eor.w	r0, r8, r5
	eor.w	r9, r7, r1
	and.w	r0, r0, r9
	eors	r0, r7
	eor.w	r7, lr, r5
	eor.w	r3, r2, r7
	ands	r6, r3
	and.w	r10, r10, r3
	ands	r1, r5
	and.w	r3, r7, r12
	and.w	r1, r1, r9
	str	r3, [sp, #52]                   @ 4-byte Spill
	ldr	r3, [sp, #56]                   @ 4-byte Reload
	eor.w	r1, r1, r8
	eor.w	r1, r1, r9
	and.w	r9, r7, r11
	and.w	r11, r2, r3
	ldr	r3, [sp, #60]                   @ 4-byte Reload
	eor.w	r8, r2, r1
	ands	r3, r0
	str	r3, [sp, #44]                   @ 4-byte Spill
	and.w	r3, r0, r4
	str	r3, [sp, #60]                   @ 4-byte Spill
	ldr	r3, [sp, #92]                   @ 4-byte Reload
	eors	r7, r0
	and.w	r12, r2, r3
	ldr	r2, [sp, #96]                   @ 4-byte Reload
	eors	r0, r1
	ands	r2, r1
	str	r2, [sp, #48]                   @ 4-byte Spill
	ldr	r2, [sp, #64]                   @ 4-byte Reload
	ldr	r3, [sp, #76]                   @ 4-byte Reload
	ands	r2, r1
	ldr	r1, [sp, #72]                   @ 4-byte Reload
	ldr	r5, [sp, #68]                   @ 4-byte Reload
	ands	r1, r0
	ands	r0, r3
	str	r0, [sp, #92]                   @ 4-byte Spill
	ldr	r0, [sp, #100]                  @ 4-byte Reload
	ldr	r3, [sp, #80]                   @ 4-byte Reload
	ands	r0, r7
	str	r0, [sp, #76]                   @ 4-byte Spill
	ldr	r0, [sp, #104]                  @ 4-byte Reload
	str.w	r11, [sp, #56]                  @ 4-byte Spill
	eors	r0, r5
	and.w	r4, r7, r0
	eor.w	r0, r8, r7
	and.w	r7, r0, r3
	eor.w	lr, r7, r12
	eor.w	r7, r2, r12
	ldr	r2, [sp, #84]                   @ 4-byte Reload
	eor.w	r3, r4, r11
	ands	r2, r0
	eor.w	r0, r3, r6
	and.w	r11, r8, r5
	eor.w	r5, r10, r9
	eor.w	r12, r1, r9
	eor.w	r9, lr, r0
	ldr.w	lr, [sp, #44]                   @ 4-byte Reload
	str	r6, [sp, #40]                   @ 4-byte Spill
	eor.w	r3, r1, lr
	eor.w	r1, r2, r11
	eors	r0, r1
	eors	r3, r0
	str	r3, [sp, #104]                  @ 4-byte Spill
	ldr	r3, [sp, #52]                   @ 4-byte Reload
	eor.w	r6, r12, r7
	eors	r6, r0
	eors	r0, r5
	eors	r3, r4
	str	r0, [sp, #100]                  @ 4-byte Spill
	ldr	r0, [sp, #48]                   @ 4-byte Reload
	eor.w	r3, r3, r10
	str	r6, [sp, #96]                   @ 4-byte Spill
	eors	r3, r7
	ldr	r7, [sp, #60]                   @ 4-byte Reload
	ldr	r6, [sp, #76]                   @ 4-byte Reload
	eor.w	r0, r0, lr
	eor.w	r4, r6, r7
	eor.w	r5, r0, r7
	ldr	r7, [sp, #40]                   @ 4-byte Reload
	eor.w	r2, r2, r10
	eor.w	r6, r5, r7
	ldr	r7, [sp, #88]                   @ 4-byte Reload
	eors	r1, r6
	and.w	r6, r8, r7
	ldr	r7, [sp, #92]                   @ 4-byte Reload
	eor.w	r10, r2, r9
	ldr	r2, [sp, #56]                   @ 4-byte Reload
	eors	r7, r6
	eor.w	r6, r6, r12
	eors	r6, r5
	eors	r0, r2
	eor.w	lr, r6, r9
	eor.w	r0, r0, r11
	eor.w	r9, r1, r3
	ldrd	r1, r2, [sp, #8]                @ 8-byte Folded Reload
	eors	r0, r7
	eor.w	r5, r4, r7
	orrs.w	r7, r2, r1
	eor.w	r11, r0, r3
	beq.w	.Laes_v7m_BB24_6
@ %bb.4:                                @ %join.10.i.preheader
	ldr.w	r8, [sp, #104]                  @ 4-byte Reload
	movs	r3, #0
	movs	r6, #0
	.p2align	2
.Laes_v7m_BB24_5:                               @ %join.10.i
                                        @ =>This Inner Loop Header: Depth=1
	ldr	r1, [sp, #16]                   @ 4-byte Reload
	subs	r0, r2, r3
	strd	r6, r3, [sp, #76]               @ 8-byte Folded Spill
	lsls	r3, r0, #7
	add.w	r0, r1, r0, lsl #7
	ldr	r4, [r1, r3]
	ldrd	r3, r7, [r0, #4]
	ldrd	r2, r1, [r0, #12]
	ldr	r6, [r0, #20]
	eors	r4, r5
	ldr	r5, [r0, #24]
	str	r0, [sp, #104]                  @ 4-byte Spill
	eor.w	r12, r3, r10
	mov	r3, r9
	ldr.w	r9, [r0, #28]
	ldr	r0, [sp, #96]                   @ 4-byte Reload
	eor.w	r1, r1, r8
	eor.w	r10, r7, r0
	eor.w	r0, r2, lr
	str	r0, [sp, #96]                   @ 4-byte Spill
	ldr	r0, [sp, #100]                  @ 4-byte Reload
	eors	r6, r3
	eor.w	r5, r5, r11
	eor.w	r2, r1, r1, ror #8
	str	r1, [sp, #92]                   @ 4-byte Spill
	eor.w	r11, r9, r0
	eor.w	r7, r12, r12, ror #8
	eor.w	r1, r6, r6, ror #8
	eor.w	r0, r5, r5, ror #8
	eors	r6, r2
	eor.w	r3, r7, r10
	str	r6, [sp, #100]                  @ 4-byte Spill
	eors	r5, r1
	eor.w	r6, r0, r11
	str	r0, [sp, #88]                   @ 4-byte Spill
	eor.w	r0, r6, r5
	eors	r2, r3
	eor.w	r8, r2, r0
	eor.w	r2, r4, r4, ror #8
	str	r3, [sp, #72]                   @ 4-byte Spill
	eor.w	r3, r11, r11, ror #8
	eor.w	r12, r12, r2
	eors	r2, r5
	eors	r4, r3
	eor.w	r2, r2, r2, ror #16
	eor.w	r9, r0, r7
	eor.w	r0, r10, r10, ror #8
	eor.w	r10, r2, r4
	ldr	r2, [sp, #96]                   @ 4-byte Reload
	str	r1, [sp, #84]                   @ 4-byte Spill
	eor.w	r7, r6, r0
	eor.w	r1, r0, r2
	ldr	r0, [sp, #92]                   @ 4-byte Reload
	eor.w	r2, r2, r2, ror #8
	eor.w	lr, r7, r4
	eor.w	r4, r12, r3
	eor.w	r12, r2, r0
	eors	r2, r5
	eor.w	r0, r2, r4
	eor.w	r2, r4, r9, ror #16
	eor.w	r11, r2, r9
	ldr	r2, [sp, #84]                   @ 4-byte Reload
	eors	r1, r3
	eors	r2, r6
	eor.w	r9, r2, r1
	ldr	r2, [sp, #88]                   @ 4-byte Reload
	eor.w	r4, r12, r3
	eor.w	r12, r4, r2
	ldr	r2, [sp, #100]                  @ 4-byte Reload
	eor.w	r1, r1, r0, ror #16
	eors	r1, r0
	eor.w	r0, r4, r8, ror #16
	ldr	r7, [sp, #72]                   @ 4-byte Reload
	eor.w	r4, r0, r8
	eor.w	r0, r2, r9, ror #16
	eors	r3, r2
	eor.w	r0, r0, r9
	eor.w	r7, r7, lr, ror #16
	str	r0, [sp, #96]                   @ 4-byte Spill
	eor.w	r0, r5, r12, ror #16
	eor.w	r2, r6, r3, ror #16
	eor.w	r7, r7, lr
	eor.w	r0, r0, r12
	eor.w	lr, r2, r3
	eor.w	r9, r0, lr
	eor.w	r2, r4, r1
	eor.w	r3, r7, r11
	eor.w	r8, r1, r10
	eor.w	r12, r2, r3
	eor.w	r5, r8, r9
	mov	r6, r4
	str	r3, [sp, #100]                  @ 4-byte Spill
	eor.w	r3, r12, r5
	str.w	r10, [sp, #60]                  @ 4-byte Spill
	and.w	r10, r3, r2
	eor.w	r3, r6, lr
	mov	r4, r11
	eor.w	r11, r3, r0
	str	r3, [sp, #92]                   @ 4-byte Spill
	eor.w	r3, r11, r1
	str	r7, [sp, #56]                   @ 4-byte Spill
	mov	r7, r6
	and.w	r6, r3, r12
	str	r3, [sp, #84]                   @ 4-byte Spill
	eor.w	r3, r10, r6
	and.w	r6, r5, r9
	str	r3, [sp, #36]                   @ 4-byte Spill
	eor.w	r3, r10, r6
	str	r3, [sp, #64]                   @ 4-byte Spill
	ldr	r3, [sp, #60]                   @ 4-byte Reload
	eor.w	r6, r7, r0
	mov	r7, r4
	str.w	r12, [sp, #72]                  @ 4-byte Spill
	eor.w	r12, r7, r3
	ldr	r7, [sp, #96]                   @ 4-byte Reload
	eors	r4, r0
	eors	r1, r7
	eor.w	r10, r1, r4
	str	r2, [sp, #28]                   @ 4-byte Spill
	eor.w	r1, r2, r3
	eor.w	r2, r2, r12
	ldr	r0, [sp, #56]                   @ 4-byte Reload
	str	r2, [sp, #32]                   @ 4-byte Spill
	orr.w	r2, r2, r10
	mov	r3, r6
	ands	r6, r1
	str	r1, [sp, #60]                   @ 4-byte Spill
	eor.w	r1, r6, r2
	eor.w	r6, r7, r0
	eor.w	r0, r6, lr
	eor.w	lr, r3, r12
	str	r0, [sp, #44]                   @ 4-byte Spill
	and.w	r2, lr, r0
	eor.w	r0, r9, r12
	eors	r6, r3
	eor.w	r2, r2, r8
	str	r0, [sp, #56]                   @ 4-byte Spill
	ands	r0, r6
	str	r6, [sp, #52]                   @ 4-byte Spill
	eor.w	r6, r2, r0
	ldr	r2, [sp, #92]                   @ 4-byte Reload
	str	r5, [sp, #88]                   @ 4-byte Spill
	eor.w	r5, r8, r4
	ldr	r4, [sp, #100]                  @ 4-byte Reload
	str	r3, [sp, #40]                   @ 4-byte Spill
	and.w	r2, r2, r11
	ldr	r3, [sp, #88]                   @ 4-byte Reload
	eors	r2, r4
	eors	r2, r3
	ldr	r3, [sp, #36]                   @ 4-byte Reload
	eors	r0, r2
	eor.w	r2, r1, r3
	eor.w	r1, r0, r3
	ldr	r3, [sp, #32]                   @ 4-byte Reload
	eor.w	r8, lr, r7
	and.w	r0, r3, r10
	and.w	r4, r8, r5
	str.w	r11, [sp, #48]                  @ 4-byte Spill
	mov	r11, lr
	mov	lr, r5
	eors	r0, r4
	ldr	r5, [sp, #28]                   @ 4-byte Reload
	eors	r7, r0
	ldr	r4, [sp, #64]                   @ 4-byte Reload
	eors	r7, r5
	eor.w	r0, r6, r4
	eors	r4, r7
	and.w	r12, r1, r2
	eor.w	r6, r1, r0
	ands	r1, r4
	ands	r1, r6
	eor.w	r7, r12, r4
	eor.w	r1, r1, r12
	str.w	r9, [sp, #68]                   @ 4-byte Spill
	ands	r7, r6
	eors	r1, r6
	eor.w	r6, r12, r0
	eor.w	r9, r4, r2
	and.w	r6, r6, r9
	eors	r6, r4
	eor.w	r4, r7, r0
	ands	r0, r2
	and.w	r2, r4, lr
	str	r2, [sp, #64]                   @ 4-byte Spill
	and.w	r2, r4, r8
	str	r2, [sp, #36]                   @ 4-byte Spill
	ldr	r2, [sp, #40]                   @ 4-byte Reload
	and.w	r0, r0, r9
	and.w	r8, r1, r2
	ldr	r2, [sp, #44]                   @ 4-byte Reload
	eor.w	r0, r0, r12
	ands	r2, r6
	str	r2, [sp, #44]                   @ 4-byte Spill
	and.w	r2, r6, r11
	str	r2, [sp, #40]                   @ 4-byte Spill
	ldr	r2, [sp, #60]                   @ 4-byte Reload
	eor.w	r0, r0, r9
	and.w	lr, r1, r2
	ldr	r2, [sp, #92]                   @ 4-byte Reload
	eor.w	r7, r1, r4
	ands	r2, r0
	str	r2, [sp, #92]                   @ 4-byte Spill
	ldr	r2, [sp, #48]                   @ 4-byte Reload
	ands	r3, r7
	str	r3, [sp, #96]                   @ 4-byte Spill
	eor.w	r3, r4, r6
	eors	r1, r0
	eors	r6, r0
	ands	r0, r2
	ldr	r2, [sp, #52]                   @ 4-byte Reload
	ldr	r4, [sp, #88]                   @ 4-byte Reload
	ands	r2, r6
	str	r2, [sp, #60]                   @ 4-byte Spill
	ldr	r2, [sp, #56]                   @ 4-byte Reload
	and.w	r12, r3, r5
	ands	r2, r6
	str	r2, [sp, #56]                   @ 4-byte Spill
	ldr	r2, [sp, #100]                  @ 4-byte Reload
	eor.w	r5, r1, r3
	eor.w	r6, r4, r2
	ldr	r2, [sp, #72]                   @ 4-byte Reload
	and.w	r9, r3, r6
	and.w	r3, r5, r2
	eor.w	r2, r3, lr
	eor.w	r3, r0, lr
	ldr	r0, [sp, #84]                   @ 4-byte Reload
	str	r2, [sp, #100]                  @ 4-byte Spill
	and.w	r2, r5, r0
	ldr	r5, [sp, #104]                  @ 4-byte Reload
	ldr	r0, [sp, #68]                   @ 4-byte Reload
	and.w	r6, r1, r4
	ldr	r4, [r5, #-32]
	and.w	r11, r1, r0
	ldr	r0, [r5, #-28]
	and.w	r10, r10, r7
	eor.w	r7, r4, r12
	ldr	r4, [sp, #96]                   @ 4-byte Reload
	eor.w	r0, r0, r10
	eor.w	r1, r9, r8
	eor.w	lr, r0, r2
	eor.w	r12, r2, r6
	ldr	r2, [r5, #-24]
	eors	r4, r1
	str.w	r8, [sp, #32]                   @ 4-byte Spill
	mov	r8, r10
	eor.w	r10, r3, r9
	eors	r2, r4
	ldr	r0, [sp, #56]                   @ 4-byte Reload
	ldr.w	r9, [sp, #36]                   @ 4-byte Reload
	ldr	r1, [sp, #60]                   @ 4-byte Reload
	eor.w	r2, r2, r12
	str	r6, [sp, #88]                   @ 4-byte Spill
	eor.w	r6, r2, r3
	eor.w	r0, r0, r11
	eor.w	r2, r1, r9
	ldr	r3, [r5, #-20]
	str	r0, [sp, #72]                   @ 4-byte Spill
	eor.w	r0, r6, r2
	str	r0, [sp, #84]                   @ 4-byte Spill
	ldr	r0, [sp, #100]                  @ 4-byte Reload
	eor.w	r3, r3, r11
	eor.w	r11, r3, r2
	eor.w	r3, r0, r4
	ldr	r0, [sp, #44]                   @ 4-byte Reload
	ldr	r2, [sp, #92]                   @ 4-byte Reload
	eor.w	r4, r4, r12
	eor.w	r6, r2, r0
	ldr	r2, [sp, #40]                   @ 4-byte Reload
	eors	r7, r2
	str	r7, [sp, #68]                   @ 4-byte Spill
	eor.w	r7, r6, r2
	eor.w	r2, lr, r3
	eor.w	lr, r11, r7
	ldr	r11, [r5, #-16]
	eor.w	r3, r3, lr
	str	r3, [sp, #100]                  @ 4-byte Spill
	eor.w	r3, r0, r11
	eor.w	r0, r3, r1
	ldr	r3, [sp, #64]                   @ 4-byte Reload
	ldr	r11, [r5, #-12]
	eor.w	r3, r3, r8
	str	r2, [sp, #92]                   @ 4-byte Spill
	mov	r2, r5
	str	r0, [sp, #60]                   @ 4-byte Spill
	eor.w	r5, r3, r11
	ldr	r0, [sp, #96]                   @ 4-byte Reload
	eor.w	r5, r5, r10
	eors	r5, r0
	eors	r5, r7
	ldr	r7, [r2, #-8]
	ldr	r0, [sp, #32]                   @ 4-byte Reload
	eors	r3, r7
	eor.w	r3, r3, r10
	eor.w	r1, r5, r12
	eor.w	r7, r3, r0
	ldrd	r0, r5, [sp, #68]               @ 8-byte Folded Reload
	ldr	r3, [r2, #-4]
	eor.w	r11, r0, r5
	ldr	r0, [sp, #60]                   @ 4-byte Reload
	ldr	r2, [sp, #88]                   @ 4-byte Reload
	eor.w	r10, r0, r4
	eor.w	r0, r7, r6
	eors	r0, r2
	eors	r5, r0
	eor.w	r0, r9, r3
	eor.w	r0, r0, r8
	eor.w	r7, r0, r4
	mov.w	r0, #50529027
	mov.w	r4, #-50529028
	and.w	r3, r0, r11, ror #14
	and.w	r2, r4, r11, ror #6
	ldr.w	r8, [sp, #92]                   @ 4-byte Reload
	add	r2, r3
	str	r2, [sp, #68]                   @ 4-byte Spill
	and.w	r2, r0, r8, ror #14
	and.w	r3, r4, r8, ror #6
	ldr	r6, [sp, #84]                   @ 4-byte Reload
	add	r2, r3
	str	r2, [sp, #96]                   @ 4-byte Spill
	and.w	r3, r0, r6, ror #14
	and.w	r2, r4, r6, ror #6
	add.w	r9, r3, r2
	ldr	r2, [sp, #100]                  @ 4-byte Reload
	and.w	r3, r4, r10, ror #6
	and.w	lr, r0, r2, ror #14
	and.w	r2, r4, r2, ror #6
	add	r2, lr
	str	r2, [sp, #88]                   @ 4-byte Spill
	and.w	r2, r0, r10, ror #14
	add.w	r12, r2, r3
	and.w	r3, r0, r1, ror #14
	and.w	r2, r4, r1, ror #6
	add	r2, r3
	and.w	r3, r0, r5, ror #14
	and.w	lr, r4, r5, ror #6
	add	lr, r3
	ldr	r3, [sp, #96]                   @ 4-byte Reload
	and.w	r0, r0, r7, ror #14
	and.w	r4, r4, r7, ror #6
	add	r0, r4
	eor.w	r3, r3, r8
	eors	r2, r1
	eor.w	r4, lr, r5
	eor.w	r8, r9, r6
	eor.w	r12, r12, r10
	str	r4, [sp, #64]                   @ 4-byte Spill
	eors	r6, r3
	eors	r5, r2
	eors	r4, r7
	str	r2, [sp, #56]                   @ 4-byte Spill
	eor.w	r9, r0, r7
	eor.w	r0, r12, r1
	eor.w	r1, r4, r5
	eor.w	r2, r6, r12
	str	r0, [sp, #84]                   @ 4-byte Spill
	eor.w	r0, r1, r3
	eors	r1, r2
	str	r1, [sp, #96]                   @ 4-byte Spill
	ldr	r1, [sp, #68]                   @ 4-byte Reload
	ldr	r2, [sp, #92]                   @ 4-byte Reload
	eor.w	r1, r1, r11
	str.w	r10, [sp, #60]                  @ 4-byte Spill
	eor.w	r10, r5, r1
	mov	r12, r5
	str	r5, [sp, #48]                   @ 4-byte Spill
	mov.w	r5, #252645135
	mov.w	lr, #-252645136
	eors	r2, r1
	and.w	r1, r5, r10, ror #20
	and.w	r3, lr, r10, ror #12
	add	r1, r3
	str	r1, [sp, #92]                   @ 4-byte Spill
	and.w	r1, r5, r0, ror #20
	and.w	r3, lr, r0, ror #12
	str	r0, [sp, #52]                   @ 4-byte Spill
	adds	r0, r1, r3
	ldr	r1, [sp, #100]                  @ 4-byte Reload
	str	r2, [sp, #40]                   @ 4-byte Spill
	eor.w	r2, r9, r11
	eor.w	r3, r9, r1
	str	r0, [sp, #68]                   @ 4-byte Spill
	ldr	r0, [sp, #88]                   @ 4-byte Reload
	eor.w	r7, r3, r8
	eor.w	r3, r8, r2
	eors	r3, r4
	str	r6, [sp, #72]                   @ 4-byte Spill
	eors	r0, r1
	mov	r1, r4
	str	r4, [sp, #44]                   @ 4-byte Spill
	and.w	r4, r5, r3, ror #20
	and.w	r6, lr, r3, ror #12
	str	r2, [sp, #88]                   @ 4-byte Spill
	adds	r2, r4, r6
	str	r2, [sp, #100]                  @ 4-byte Spill
	ldr	r2, [sp, #40]                   @ 4-byte Reload
	str	r7, [sp, #32]                   @ 4-byte Spill
	eor.w	r6, r2, r9
	ldr	r2, [sp, #60]                   @ 4-byte Reload
	eor.w	r4, r9, r2
	eors	r4, r0
	eors	r0, r6
	eor.w	r2, r0, r12
	and.w	r11, r5, r2, ror #20
	and.w	r8, lr, r2, ror #12
	add.w	r0, r11, r8
	str	r0, [sp, #40]                   @ 4-byte Spill
	ldr	r0, [sp, #96]                   @ 4-byte Reload
	str	r4, [sp, #28]                   @ 4-byte Spill
	and.w	r11, r5, r0, ror #20
	and.w	r8, lr, r0, ror #12
	add.w	r0, r11, r8
	str	r0, [sp, #36]                   @ 4-byte Spill
	ldr	r0, [sp, #56]                   @ 4-byte Reload
	eors	r7, r0
	eors	r7, r1
	and.w	r11, r5, r7, ror #20
	and.w	r8, lr, r7, ror #12
	add.w	r0, r11, r8
	str	r0, [sp, #56]                   @ 4-byte Spill
	ldr	r0, [sp, #64]                   @ 4-byte Reload
	eor.w	r1, r0, r4
	and.w	r11, r5, r1, ror #20
	and.w	r8, lr, r1, ror #12
	add	r8, r11
	ldr.w	r11, [sp, #84]                  @ 4-byte Reload
	eor.w	r0, r11, r9
	and.w	r12, r5, r0, ror #20
	and.w	r5, lr, r0, ror #12
	add	r12, r5
	ldrd	r4, r5, [sp, #88]               @ 8-byte Folded Reload
	eor.w	r0, r0, r12
	eors	r5, r4
	eor.w	r5, r5, r10
	str	r5, [sp, #60]                   @ 4-byte Spill
	ldr	r5, [sp, #68]                   @ 4-byte Reload
	eors	r6, r5
	ldr	r5, [sp, #52]                   @ 4-byte Reload
	eor.w	r9, r6, r5
	ldr	r6, [sp, #72]                   @ 4-byte Reload
	ldr	r5, [sp, #100]                  @ 4-byte Reload
	eors	r6, r5
	eor.w	r10, r6, r3
	ldr	r3, [sp, #40]                   @ 4-byte Reload
	ldr	r6, [sp, #32]                   @ 4-byte Reload
	str.w	r10, [sp, #52]                  @ 4-byte Spill
	eors	r3, r6
	eor.w	r5, r3, r2
	ldr	r2, [sp, #36]                   @ 4-byte Reload
	ldr	r3, [sp, #28]                   @ 4-byte Reload
	eors	r2, r3
	ldr	r3, [sp, #96]                   @ 4-byte Reload
	eors	r3, r2
	ldr	r2, [sp, #56]                   @ 4-byte Reload
	eor.w	r12, r3, r5
	eor.w	r6, r11, r2
	eor.w	r2, r6, r7
	str	r2, [sp, #96]                   @ 4-byte Spill
	ldr	r2, [sp, #48]                   @ 4-byte Reload
	eor.w	r7, r2, r8
	eor.w	r4, r7, r1
	ldr	r1, [sp, #44]                   @ 4-byte Reload
	eor.w	r7, r0, r1
	eor.w	r0, r9, r10
	ldr.w	r10, [sp, #60]                  @ 4-byte Reload
	eor.w	lr, r4, r7
	eor.w	r8, r5, r10
	eor.w	r6, r12, r0
	eor.w	r2, r8, lr
	str	r0, [sp, #100]                  @ 4-byte Spill
	eor.w	r1, r6, r2
	eor.w	r0, r3, r7
	and.w	r11, r1, r12
	eor.w	r1, r0, r4
	str	r0, [sp, #84]                   @ 4-byte Spill
	eor.w	r0, r1, r5
	str	r1, [sp, #92]                   @ 4-byte Spill
	and.w	r1, r0, r6
	str	r6, [sp, #68]                   @ 4-byte Spill
	str	r0, [sp, #72]                   @ 4-byte Spill
	eor.w	r0, r11, r1
	and.w	r6, r2, lr
	str	r0, [sp, #32]                   @ 4-byte Spill
	eor.w	r0, r11, r6
	str	r0, [sp, #36]                   @ 4-byte Spill
	ldr	r0, [sp, #96]                   @ 4-byte Reload
	str	r2, [sp, #88]                   @ 4-byte Spill
	eor.w	r6, r3, r4
	eor.w	r1, r9, r4
	eor.w	r4, r9, r10
	eor.w	r2, r0, r5
	eor.w	r5, r2, r1
	eor.w	r10, r10, r12
	eor.w	r9, r12, r4
	orr.w	r3, r9, r5
	mov	r2, r6
	and.w	r6, r6, r10
	mov	r11, r12
	eor.w	r12, r6, r3
	ldr	r3, [sp, #52]                   @ 4-byte Reload
	str.w	r10, [sp, #56]                  @ 4-byte Spill
	eor.w	r6, r0, r3
	eor.w	r0, r6, r7
	eor.w	r7, r1, r8
	eor.w	r1, r4, lr
	eor.w	r3, r2, r6
	eor.w	r10, r2, r4
	str	r1, [sp, #52]                   @ 4-byte Spill
	str	r3, [sp, #48]                   @ 4-byte Spill
	and.w	r4, r3, r1
	ldr	r3, [sp, #92]                   @ 4-byte Reload
	ldr	r1, [sp, #84]                   @ 4-byte Reload
	str	r0, [sp, #44]                   @ 4-byte Spill
	and.w	r6, r3, r1
	ldr	r1, [sp, #88]                   @ 4-byte Reload
	ldr	r3, [sp, #100]                  @ 4-byte Reload
	eors	r6, r1
	eors	r6, r3
	ldr	r3, [sp, #96]                   @ 4-byte Reload
	and.w	r0, r0, r10
	ldr	r1, [sp, #32]                   @ 4-byte Reload
	eor.w	r0, r0, r8
	eors	r6, r4
	eor.w	r8, r10, r3
	eors	r0, r4
	eor.w	r4, r12, r1
	eors	r1, r6
	and.w	r12, r9, r5
	and.w	r6, r8, r7
	str.w	lr, [sp, #64]                   @ 4-byte Spill
	mov	lr, r5
	eor.w	r5, r12, r6
	eors	r5, r3
	ldr	r3, [sp, #36]                   @ 4-byte Reload
	eor.w	r5, r5, r11
	eors	r0, r3
	eors	r5, r3
	and.w	r12, r1, r4
	eor.w	r6, r1, r0
	ands	r1, r5
	ands	r1, r6
	eor.w	r3, r12, r5
	eor.w	r1, r1, r12
	str	r2, [sp, #40]                   @ 4-byte Spill
	mov	r2, r9
	and.w	r9, r3, r6
	eors	r1, r6
	eor.w	r6, r12, r0
	eor.w	r3, r5, r4
	ands	r6, r3
	eor.w	r9, r9, r0
	eors	r5, r6
	eor.w	r6, r1, r9
	ands	r2, r6
	str	r2, [sp, #96]                   @ 4-byte Spill
	and.w	r2, r9, r7
	str	r2, [sp, #60]                   @ 4-byte Spill
	and.w	r2, r9, r8
	str	r2, [sp, #36]                   @ 4-byte Spill
	ldr	r2, [sp, #40]                   @ 4-byte Reload
	and.w	r6, r6, lr
	and.w	lr, r1, r2
	ldr	r2, [sp, #44]                   @ 4-byte Reload
	ands	r0, r4
	ands	r2, r5
	str	r2, [sp, #44]                   @ 4-byte Spill
	and.w	r2, r5, r10
	str	r2, [sp, #40]                   @ 4-byte Spill
	ldr	r2, [sp, #56]                   @ 4-byte Reload
	ands	r0, r3
	eor.w	r0, r0, r12
	and.w	r4, r1, r2
	ldr	r2, [sp, #84]                   @ 4-byte Reload
	eors	r0, r3
	ands	r2, r0
	str	r2, [sp, #84]                   @ 4-byte Spill
	ldr	r2, [sp, #92]                   @ 4-byte Reload
	eor.w	r3, r9, r5
	eors	r1, r0
	eors	r5, r0
	ands	r0, r2
	ldr	r2, [sp, #48]                   @ 4-byte Reload
	and.w	r8, r3, r11
	ands	r2, r5
	str	r2, [sp, #56]                   @ 4-byte Spill
	ldr	r2, [sp, #52]                   @ 4-byte Reload
	str.w	lr, [sp, #32]                   @ 4-byte Spill
	and.w	r10, r5, r2
	ldr	r2, [sp, #100]                  @ 4-byte Reload
	ldr	r5, [sp, #88]                   @ 4-byte Reload
	eor.w	r7, r2, r5
	ldr	r2, [sp, #68]                   @ 4-byte Reload
	and.w	r12, r3, r7
	eor.w	r7, r1, r3
	and.w	r3, r7, r2
	eor.w	r2, r3, r4
	eor.w	r3, r0, r4
	ldr	r0, [sp, #72]                   @ 4-byte Reload
	str	r2, [sp, #100]                  @ 4-byte Spill
	and.w	r11, r7, r0
	ldr	r7, [sp, #104]                  @ 4-byte Reload
	and.w	r0, r1, r5
	ldr	r2, [sp, #64]                   @ 4-byte Reload
	ldr	r5, [r7, #-60]
	ldr	r4, [r7, #-64]
	ands	r1, r2
	ldr	r2, [sp, #96]                   @ 4-byte Reload
	eors	r5, r6
	str	r0, [sp, #88]                   @ 4-byte Spill
	eor.w	r9, r4, r8
	eor.w	r4, r12, lr
	eor.w	lr, r5, r11
	eor.w	r5, r11, r0
	ldr	r0, [r7, #-56]
	eor.w	r8, r4, r2
	eor.w	r2, r3, r12
	eor.w	r0, r0, r8
	str	r2, [sp, #68]                   @ 4-byte Spill
	eors	r0, r5
	eor.w	r2, r10, r1
	eors	r3, r0
	ldr	r0, [r7, #-52]
	str	r2, [sp, #72]                   @ 4-byte Spill
	ldr.w	r11, [sp, #36]                  @ 4-byte Reload
	ldr	r2, [sp, #56]                   @ 4-byte Reload
	eors	r0, r1
	eor.w	r1, r2, r11
	eor.w	r12, r0, r1
	ldr	r0, [sp, #100]                  @ 4-byte Reload
	eors	r3, r1
	str	r3, [sp, #64]                   @ 4-byte Spill
	eor.w	r1, r0, r8
	ldr	r0, [sp, #44]                   @ 4-byte Reload
	ldr	r3, [sp, #84]                   @ 4-byte Reload
	eor.w	r10, r3, r0
	ldr	r3, [sp, #40]                   @ 4-byte Reload
	eor.w	r4, r9, r3
	eor.w	r3, r3, r10
	eor.w	r12, r12, r3
	ldr	r9, [r7, #-48]
	str	r4, [sp, #84]                   @ 4-byte Spill
	eor.w	r4, lr, r1
	eor.w	r1, r1, r12
	str	r1, [sp, #100]                  @ 4-byte Spill
	eor.w	r1, r0, r9
	eor.w	r9, r1, r2
	ldr	r1, [sp, #60]                   @ 4-byte Reload
	str	r4, [sp, #92]                   @ 4-byte Spill
	ldr	r2, [r7, #-44]
	ldr	r4, [r7, #-40]
	eor.w	r0, r6, r1
	ldr	r1, [sp, #68]                   @ 4-byte Reload
	eors	r2, r0
	eors	r0, r4
	eors	r2, r1
	eors	r0, r1
	ldr	r1, [sp, #32]                   @ 4-byte Reload
	ldr.w	lr, [sp, #96]                   @ 4-byte Reload
	eors	r0, r1
	ldr	r1, [sp, #88]                   @ 4-byte Reload
	eor.w	r2, r2, lr
	eor.w	r0, r0, r10
	eors	r3, r2
	eors	r0, r1
	ldr	r1, [r7, #-36]
	eor.w	r2, r5, r8
	eors	r5, r3
	ldr	r3, [sp, #72]                   @ 4-byte Reload
	ldr	r7, [sp, #84]                   @ 4-byte Reload
	eor.w	r1, r1, r11
	eors	r7, r3
	eors	r1, r6
	mov.w	r8, #252645135
	mov.w	r12, #-252645136
	eor.w	r9, r9, r2
	eors	r0, r3
	eors	r2, r1
	and.w	r1, r8, r7, ror #12
	and.w	r3, r12, r7, ror #4
	ldr.w	lr, [sp, #92]                   @ 4-byte Reload
	add	r1, r3
	ldr.w	r10, [sp, #64]                  @ 4-byte Reload
	str	r1, [sp, #96]                   @ 4-byte Spill
	and.w	r1, r8, lr, ror #12
	and.w	r3, r12, lr, ror #4
	add	r1, r3
	and.w	r3, r8, r10, ror #12
	and.w	r4, r12, r10, ror #4
	str	r1, [sp, #84]                   @ 4-byte Spill
	adds	r1, r3, r4
	str	r1, [sp, #72]                   @ 4-byte Spill
	ldr	r1, [sp, #100]                  @ 4-byte Reload
	and.w	r3, r12, r0, ror #4
	and.w	r4, r8, r1, ror #12
	and.w	r6, r12, r1, ror #4
	adds	r1, r4, r6
	and.w	r4, r8, r9, ror #12
	and.w	r6, r12, r9, ror #4
	str	r1, [sp, #88]                   @ 4-byte Spill
	add.w	r11, r4, r6
	and.w	r6, r8, r5, ror #12
	and.w	r1, r12, r5, ror #4
	add	r6, r1
	and.w	r1, r8, r0, ror #12
	mov.w	r4, #-252645136
	add.w	r12, r1, r3
	and.w	r1, r8, r2, ror #12
	and.w	r8, r4, r2, ror #4
	add.w	r3, r1, r8
	ldr	r1, [sp, #84]                   @ 4-byte Reload
	ldr	r4, [sp, #72]                   @ 4-byte Reload
	eor.w	r1, r1, lr
	eor.w	lr, r11, r9
	eor.w	r8, r4, r10
	eor.w	r11, r6, r5
	eor.w	r4, r12, r0
	eor.w	r6, r3, r2
	eor.w	r3, lr, r5
	eor.w	r10, r10, r1
	str	r3, [sp, #84]                   @ 4-byte Spill
	eor.w	r5, r11, r0
	eor.w	r3, r4, r2
	eor.w	r0, r3, r5
	eor.w	r2, r10, lr
	str.w	r11, [sp, #68]                  @ 4-byte Spill
	eor.w	r11, r0, r1
	eor.w	lr, r2, r0
	ldr	r0, [sp, #96]                   @ 4-byte Reload
	ldr	r1, [sp, #92]                   @ 4-byte Reload
	eors	r0, r7
	eors	r7, r6
	eor.w	r12, r0, r1
	eors	r0, r5
	str	r4, [sp, #72]                   @ 4-byte Spill
	ldr	r2, [sp, #100]                  @ 4-byte Reload
	ldr	r4, [sp, #88]                   @ 4-byte Reload
	eor.w	r1, r8, r7
	eor.w	r7, r7, r0, ror #16
	eors	r0, r7
	eors	r4, r2
	str	r0, [sp, #96]                   @ 4-byte Spill
	eor.w	r0, r12, r6
	eor.w	r7, r6, r9
	eors	r2, r6
	eors	r7, r4
	eors	r4, r0
	eor.w	r0, r0, r11, ror #16
	eor.w	r2, r2, r8
	eor.w	r8, r0, r11
	eor.w	r0, r1, r3
	eor.w	r1, r10, r0, ror #16
	eor.w	r12, r1, r0
	ldr	r1, [sp, #68]                   @ 4-byte Reload
	eor.w	r0, r4, r5
	eors	r1, r2
	eor.w	r2, r2, r0, ror #16
	eors	r0, r2
	ldr	r2, [sp, #72]                   @ 4-byte Reload
	eors	r1, r3
	eor.w	r4, r2, r7
	ldr	r2, [sp, #84]                   @ 4-byte Reload
	eor.w	r7, r7, lr, ror #16
	eors	r6, r2
	eor.w	r11, r7, lr
	eor.w	r7, r2, r1, ror #16
	eor.w	r2, r6, r6, ror #16
	eors	r1, r7
	eors	r3, r2
	eor.w	r9, r11, r0
	eor.w	r2, r8, r12
	str.w	r12, [sp, #64]                  @ 4-byte Spill
	str	r1, [sp, #72]                   @ 4-byte Spill
	eor.w	r1, r5, r4, ror #16
	str	r2, [sp, #100]                  @ 4-byte Spill
	eor.w	r12, r9, r2
	ldr	r2, [sp, #96]                   @ 4-byte Reload
	eors	r1, r4
	eor.w	lr, r1, r3
	eor.w	r4, r0, r2
	eor.w	r10, r11, r3
	str.w	r8, [sp, #60]                   @ 4-byte Spill
	eor.w	r7, r4, lr
	eor.w	r8, r10, r1
	str	r3, [sp, #48]                   @ 4-byte Spill
	eor.w	r2, r12, r7
	eor.w	r3, r8, r0
	and.w	r2, r2, r9
	str	r3, [sp, #92]                   @ 4-byte Spill
	and.w	r3, r3, r12
	eors	r3, r2
	str	r3, [sp, #20]                   @ 4-byte Spill
	and.w	r3, r7, lr
	eors	r2, r3
	str	r2, [sp, #28]                   @ 4-byte Spill
	ldr	r2, [sp, #60]                   @ 4-byte Reload
	ldr	r5, [sp, #96]                   @ 4-byte Reload
	ldr	r6, [sp, #72]                   @ 4-byte Reload
	str.w	r12, [sp, #88]                  @ 4-byte Spill
	eor.w	r12, r2, r1
	eors	r2, r5
	eors	r0, r6
	eor.w	r3, r11, r1
	eor.w	r11, r0, r12
	str.w	r9, [sp, #24]                   @ 4-byte Spill
	eor.w	r5, r5, r9
	eor.w	r9, r9, r2
	str	r5, [sp, #68]                   @ 4-byte Spill
	orr.w	r0, r9, r11
	ands	r5, r3
	eors	r0, r5
	str	r0, [sp, #96]                   @ 4-byte Spill
	ldr	r0, [sp, #64]                   @ 4-byte Reload
	ldr	r1, [sp, #48]                   @ 4-byte Reload
	eors	r0, r6
	mov	r5, r3
	eors	r1, r0
	str	r3, [sp, #44]                   @ 4-byte Spill
	eors	r3, r2
	eor.w	r2, r2, lr
	eors	r0, r5
	str	r2, [sp, #64]                   @ 4-byte Spill
	str	r0, [sp, #60]                   @ 4-byte Spill
	ands	r0, r2
	and.w	r2, r8, r10
	ldr	r5, [sp, #100]                  @ 4-byte Reload
	str	r1, [sp, #48]                   @ 4-byte Spill
	ands	r1, r3
	eors	r2, r7
	eors	r1, r4
	eors	r2, r5
	str	r7, [sp, #56]                   @ 4-byte Spill
	eors	r1, r0
	eors	r0, r2
	ldr	r2, [sp, #20]                   @ 4-byte Reload
	ldr	r7, [sp, #96]                   @ 4-byte Reload
	str.w	r10, [sp, #40]                  @ 4-byte Spill
	eor.w	r12, r12, r4
	eor.w	r4, r7, r2
	eors	r0, r2
	and.w	r2, r9, r11
	mov	r10, r11
	eor.w	r11, r3, r6
	and.w	r5, r11, r12
	eors	r2, r5
	ldr	r7, [sp, #24]                   @ 4-byte Reload
	str	r3, [sp, #36]                   @ 4-byte Spill
	eors	r2, r6
	ldr	r3, [sp, #28]                   @ 4-byte Reload
	eors	r2, r7
	eors	r1, r3
	eor.w	r6, r2, r3
	str.w	r12, [sp, #32]                  @ 4-byte Spill
	and.w	r12, r0, r4
	eor.w	r2, r0, r1
	ands	r0, r6
	ands	r0, r2
	eor.w	r5, r12, r6
	eor.w	r0, r0, r12
	str.w	r8, [sp, #52]                   @ 4-byte Spill
	str.w	lr, [sp, #84]                   @ 4-byte Spill
	and.w	lr, r5, r2
	eors	r2, r0
	eor.w	r0, r12, r1
	eor.w	r8, r6, r4
	and.w	r0, r0, r8
	eor.w	r5, lr, r1
	eors	r0, r6
	eor.w	r6, r2, r5
	and.w	r3, r6, r9
	str	r3, [sp, #96]                   @ 4-byte Spill
	ldr	r3, [sp, #32]                   @ 4-byte Reload
	ands	r1, r4
	ands	r3, r5
	str	r3, [sp, #72]                   @ 4-byte Spill
	ldr	r3, [sp, #44]                   @ 4-byte Reload
	and.w	r1, r1, r8
	eor.w	r1, r1, r12
	and.w	r12, r2, r3
	ldr	r3, [sp, #48]                   @ 4-byte Reload
	eor.w	r1, r1, r8
	ands	r3, r0
	str	r3, [sp, #48]                   @ 4-byte Spill
	ldr	r3, [sp, #36]                   @ 4-byte Reload
	eor.w	r4, r2, r1
	ands	r3, r0
	str	r3, [sp, #44]                   @ 4-byte Spill
	ldr	r3, [sp, #68]                   @ 4-byte Reload
	and.w	r11, r11, r5
	and.w	r8, r2, r3
	ldr	r2, [sp, #40]                   @ 4-byte Reload
	eors	r5, r0
	ands	r2, r1
	str	r2, [sp, #68]                   @ 4-byte Spill
	ldr	r2, [sp, #52]                   @ 4-byte Reload
	eors	r0, r1
	ands	r1, r2
	ldr	r2, [sp, #60]                   @ 4-byte Reload
	ldr	r3, [sp, #56]                   @ 4-byte Reload
	ands	r2, r0
	str	r2, [sp, #60]                   @ 4-byte Spill
	ldr	r2, [sp, #64]                   @ 4-byte Reload
	and.w	r10, r10, r6
	ands	r0, r2
	str	r0, [sp, #64]                   @ 4-byte Spill
	ldr	r0, [sp, #100]                  @ 4-byte Reload
	and.w	r6, r5, r7
	eors	r0, r3
	and.w	lr, r5, r0
	ldr	r0, [sp, #88]                   @ 4-byte Reload
	eors	r5, r4
	and.w	r7, r5, r0
	eor.w	r9, r7, r8
	eor.w	r7, r1, r8
	ldr	r0, [sp, #92]                   @ 4-byte Reload
	ldr	r1, [sp, #104]                  @ 4-byte Reload
	and.w	r8, r5, r0
	ldr	r5, [r1, #-96]
	and.w	r2, r4, r3
	ldr	r0, [sp, #84]                   @ 4-byte Reload
	eor.w	r3, r5, r6
	ldr	r5, [r1, #-92]
	str	r3, [sp, #92]                   @ 4-byte Spill
	ldr	r3, [sp, #96]                   @ 4-byte Reload
	ands	r0, r4
	eor.w	r4, lr, r12
	eor.w	r5, r5, r10
	eors	r4, r3
	eor.w	r3, r5, r8
	ldr	r5, [r1, #-88]
	str	r2, [sp, #100]                  @ 4-byte Spill
	eor.w	r8, r8, r2
	eor.w	r2, r4, r5
	eor.w	r2, r2, r8
	str.w	r12, [sp, #32]                  @ 4-byte Spill
	str	r3, [sp, #88]                   @ 4-byte Spill
	eor.w	r12, r2, r7
	ldr	r5, [r1, #-84]
	ldr	r2, [sp, #64]                   @ 4-byte Reload
	ldr	r3, [sp, #60]                   @ 4-byte Reload
	eor.w	lr, lr, r7
	eor.w	r7, r2, r0
	eor.w	r2, r0, r5
	eor.w	r0, r3, r11
	eor.w	r5, r12, r0
	eor.w	r12, r2, r0
	ldr	r0, [sp, #48]                   @ 4-byte Reload
	ldr	r6, [sp, #68]                   @ 4-byte Reload
	str.w	r11, [sp, #28]                  @ 4-byte Spill
	eor.w	r2, r9, r4
	eor.w	r11, r6, r0
	ldr.w	r9, [sp, #44]                   @ 4-byte Reload
	ldr	r6, [sp, #92]                   @ 4-byte Reload
	eor.w	r4, r4, r8
	eor.w	r6, r6, r9
	str	r6, [sp, #92]                   @ 4-byte Spill
	ldr	r6, [sp, #88]                   @ 4-byte Reload
	eor.w	r9, r9, r11
	eors	r6, r2
	str	r6, [sp, #56]                   @ 4-byte Spill
	eor.w	r6, r12, r9
	ldr	r12, [r1, #-80]
	eors	r2, r6
	str	r2, [sp, #52]                   @ 4-byte Spill
	eor.w	r0, r0, r12
	ldr	r2, [sp, #72]                   @ 4-byte Reload
	eor.w	r12, r0, r3
	ldr	r0, [r1, #-76]
	eor.w	r6, r10, r2
	eors	r0, r6
	ldr	r2, [sp, #96]                   @ 4-byte Reload
	eor.w	r0, r0, lr
	eors	r0, r2
	ldr	r2, [r1, #-72]
	eor.w	r0, r0, r9
	eor.w	r8, r8, r0
	eors	r2, r6
	ldr	r0, [sp, #32]                   @ 4-byte Reload
	eor.w	r2, r2, lr
	eors	r2, r0
	ldr	r6, [r1, #-68]
	ldr	r1, [sp, #100]                  @ 4-byte Reload
	eor.w	r2, r2, r11
	eors	r1, r2
	eor.w	lr, r1, r7
	ldr	r1, [sp, #28]                   @ 4-byte Reload
	ldr	r0, [sp, #92]                   @ 4-byte Reload
	eors	r1, r6
	eor.w	r1, r1, r10
	eors	r0, r7
	eor.w	r12, r12, r4
	eor.w	r7, r1, r4
	mov.w	r6, #1061109567
	mov.w	r4, #-1061109568
	ldr	r3, [sp, #56]                   @ 4-byte Reload
	and.w	r1, r6, r0, ror #10
	and.w	r2, r4, r0, ror #2
	str	r0, [sp, #84]                   @ 4-byte Spill
	adds	r0, r1, r2
	and.w	r2, r6, r3, ror #10
	and.w	r1, r4, r3, ror #2
	ldr.w	r10, [sp, #52]                  @ 4-byte Reload
	str	r0, [sp, #88]                   @ 4-byte Spill
	adds	r0, r2, r1
	and.w	r2, r6, r5, ror #10
	and.w	r1, r4, r5, ror #2
	add.w	r9, r2, r1
	and.w	r2, r6, r10, ror #10
	and.w	r1, r4, r10, ror #2
	str	r0, [sp, #104]                  @ 4-byte Spill
	adds	r0, r2, r1
	and.w	r1, r6, r12, ror #10
	and.w	r2, r4, r12, ror #2
	add	r1, r2
	and.w	r2, r6, r8, ror #10
	and.w	r11, r4, r8, ror #2
	str	r0, [sp, #100]                  @ 4-byte Spill
	mov	r0, r12
	str.w	r12, [sp, #68]                  @ 4-byte Spill
	add	r11, r2
	and.w	r2, r6, lr, ror #10
	and.w	r12, r4, lr, ror #2
	and.w	r6, r6, r7, ror #10
	and.w	r4, r4, r7, ror #2
	add	r6, r4
	ldr	r4, [sp, #104]                  @ 4-byte Reload
	add	r2, r12
	eors	r4, r3
	eor.w	r12, r9, r5
	eor.w	r9, r1, r0
	eor.w	r11, r11, r8
	eor.w	r0, r2, lr
	eors	r5, r4
	eor.w	r1, r9, r8
	eor.w	lr, lr, r11
	eor.w	r8, r0, r7
	str	r0, [sp, #72]                   @ 4-byte Spill
	str	r1, [sp, #96]                   @ 4-byte Spill
	eor.w	r0, r8, lr
	eor.w	r1, r5, r9
	eors	r4, r0
	eors	r0, r1
	str	r0, [sp, #104]                  @ 4-byte Spill
	ldrd	r1, r0, [sp, #84]               @ 8-byte Folded Reload
	str.w	r11, [sp, #64]                  @ 4-byte Spill
	eors	r0, r1
	eors	r6, r7
	str	r5, [sp, #92]                   @ 4-byte Spill
	eor.w	r11, lr, r0
	mov.w	r7, #252645135
	mov.w	r5, #-252645136
	eor.w	r9, r0, r3
	and.w	r0, r7, r11, ror #20
	and.w	r2, r5, r11, ror #12
	add	r0, r2
	str	r0, [sp, #88]                   @ 4-byte Spill
	and.w	r0, r7, r4, ror #20
	and.w	r2, r5, r4, ror #12
	add	r0, r2
	str	r0, [sp, #56]                   @ 4-byte Spill
	ldr	r0, [sp, #100]                  @ 4-byte Reload
	eor.w	r3, r6, r10
	eor.w	r2, r0, r10
	eor.w	r0, r6, r1
	eor.w	r1, r3, r12
	eor.w	r3, r12, r0
	eor.w	r12, r3, r8
	and.w	r3, r7, r12, ror #20
	and.w	r10, r5, r12, ror #12
	str	r0, [sp, #84]                   @ 4-byte Spill
	add.w	r0, r3, r10
	str	r0, [sp, #100]                  @ 4-byte Spill
	ldr	r0, [sp, #68]                   @ 4-byte Reload
	str	r4, [sp, #60]                   @ 4-byte Spill
	eor.w	r9, r9, r6
	eor.w	r4, r6, r0
	eor.w	r0, r4, r2
	eor.w	r2, r2, r9
	eor.w	r2, r2, lr
	str.w	lr, [sp, #48]                   @ 4-byte Spill
	mov	lr, r7
	and.w	r4, r7, r2, ror #20
	and.w	r7, r5, r2, ror #12
	adds	r3, r4, r7
	str	r3, [sp, #52]                   @ 4-byte Spill
	ldr	r3, [sp, #104]                  @ 4-byte Reload
	str	r0, [sp, #28]                   @ 4-byte Spill
	and.w	r7, lr, r3, ror #20
	and.w	r4, r5, r3, ror #12
	adds	r0, r7, r4
	str	r0, [sp, #44]                   @ 4-byte Spill
	ldr	r0, [sp, #64]                   @ 4-byte Reload
	ldr	r3, [sp, #96]                   @ 4-byte Reload
	eor.w	r7, r1, r0
	eor.w	r7, r7, r8
	and.w	r10, lr, r7, ror #20
	and.w	r4, r5, r7, ror #12
	add.w	r0, r10, r4
	str	r0, [sp, #64]                   @ 4-byte Spill
	ldr	r0, [sp, #72]                   @ 4-byte Reload
	ldr.w	r10, [sp, #28]                  @ 4-byte Reload
	str	r1, [sp, #40]                   @ 4-byte Spill
	eor.w	r0, r0, r10
	and.w	r4, lr, r0, ror #20
	and.w	r5, r5, r0, ror #12
	adds	r1, r4, r5
	str	r1, [sp, #36]                   @ 4-byte Spill
	eors	r6, r3
	mov.w	r1, #-252645136
	and.w	r4, lr, r6, ror #20
	and.w	r5, r1, r6, ror #12
	adds	r1, r4, r5
	str	r1, [sp, #32]                   @ 4-byte Spill
	ldrd	r1, r5, [sp, #84]               @ 8-byte Folded Reload
	eor.w	r4, r1, r5
	ldr	r1, [sp, #56]                   @ 4-byte Reload
	ldr	r5, [sp, #60]                   @ 4-byte Reload
	eor.w	r1, r1, r9
	eor.w	r11, r11, r4
	eor.w	lr, r1, r5
	ldr	r1, [sp, #92]                   @ 4-byte Reload
	ldr	r4, [sp, #100]                  @ 4-byte Reload
	str.w	lr, [sp, #72]                   @ 4-byte Spill
	eors	r1, r4
	eor.w	r5, r1, r12
	ldr	r1, [sp, #52]                   @ 4-byte Reload
	ldr	r4, [sp, #40]                   @ 4-byte Reload
	str	r5, [sp, #68]                   @ 4-byte Spill
	eors	r1, r4
	eor.w	r9, r1, r2
	ldr	r1, [sp, #44]                   @ 4-byte Reload
	ldr	r2, [sp, #104]                  @ 4-byte Reload
	eor.w	r1, r1, r10
	eor.w	r10, r1, r2
	ldr	r1, [sp, #64]                   @ 4-byte Reload
	ldr	r2, [sp, #36]                   @ 4-byte Reload
	eors	r1, r3
	eors	r1, r7
	str	r1, [sp, #44]                   @ 4-byte Spill
	ldr	r1, [sp, #48]                   @ 4-byte Reload
	eor.w	r4, r10, r9
	eors	r1, r2
	eors	r1, r0
	ldr	r0, [sp, #32]                   @ 4-byte Reload
	mov	r12, r11
	eors	r0, r6
	eor.w	r2, r0, r8
	eor.w	r8, r1, r2
	eor.w	r0, lr, r5
	eor.w	lr, r9, r11
	str	r2, [sp, #64]                   @ 4-byte Spill
	eor.w	r5, r4, r0
	eor.w	r11, lr, r8
	eor.w	r2, r2, r10
	eor.w	r3, r5, r11
	str	r2, [sp, #100]                  @ 4-byte Spill
	eors	r2, r1
	and.w	r7, r3, r4
	eor.w	r3, r2, r9
	str	r3, [sp, #88]                   @ 4-byte Spill
	ands	r3, r5
	str	r2, [sp, #96]                   @ 4-byte Spill
	eor.w	r2, r7, r3
	str	r2, [sp, #36]                   @ 4-byte Spill
	and.w	r6, r11, r8
	ldr	r2, [sp, #72]                   @ 4-byte Reload
	str	r0, [sp, #104]                  @ 4-byte Spill
	eor.w	r0, r7, r6
	str	r0, [sp, #40]                   @ 4-byte Spill
	eor.w	r0, r10, r1
	eor.w	r10, r2, r1
	ldr	r1, [sp, #44]                   @ 4-byte Reload
	eor.w	r3, r2, r12
	eor.w	r6, r1, r9
	str	r5, [sp, #84]                   @ 4-byte Spill
	mov	r5, r8
	str.w	r8, [sp, #92]                   @ 4-byte Spill
	eor.w	r9, r6, r10
	mov	r8, r4
	eor.w	r6, r4, r12
	eors	r4, r3
	ldr	r2, [sp, #68]                   @ 4-byte Reload
	orr.w	r12, r4, r9
	and.w	r7, r6, r0
	str	r6, [sp, #72]                   @ 4-byte Spill
	eor.w	r6, r7, r12
	eor.w	r7, r1, r2
	eor.w	r2, r10, lr
	str	r2, [sp, #32]                   @ 4-byte Spill
	eor.w	r10, r0, r3
	eor.w	r2, r3, r5
	eor.w	r3, r0, r7
	str	r0, [sp, #52]                   @ 4-byte Spill
	mov	r12, r1
	ldr	r1, [sp, #64]                   @ 4-byte Reload
	str	r2, [sp, #68]                   @ 4-byte Spill
	str	r3, [sp, #64]                   @ 4-byte Spill
	and.w	r0, r3, r2
	ldrd	r3, r2, [sp, #96]               @ 8-byte Folded Reload
	eors	r1, r7
	ands	r2, r3
	ldr	r5, [sp, #104]                  @ 4-byte Reload
	str	r1, [sp, #56]                   @ 4-byte Spill
	and.w	r1, r1, r10
	eor.w	r2, r2, r11
	eor.w	r1, r1, lr
	eors	r2, r5
	ldr	r3, [sp, #36]                   @ 4-byte Reload
	ldr.w	lr, [sp, #32]                   @ 4-byte Reload
	eors	r1, r0
	eors	r0, r2
	eor.w	r5, r10, r12
	eor.w	r2, r6, r3
	eor.w	r7, r0, r3
	and.w	r0, r4, r9
	and.w	r6, r5, lr
	eors	r0, r6
	ldr	r3, [sp, #40]                   @ 4-byte Reload
	eor.w	r6, r0, r12
	eor.w	r0, r1, r3
	eor.w	r1, r6, r8
	eor.w	r6, r1, r3
	and.w	r12, r7, r2
	eor.w	r1, r7, r0
	ands	r7, r6
	ands	r7, r1
	eor.w	r3, r12, r6
	eor.w	r7, r7, r12
	str.w	r11, [sp, #60]                  @ 4-byte Spill
	mov	r11, r4
	mov	r4, r9
	and.w	r9, r3, r1
	eors	r1, r7
	eor.w	r7, r12, r0
	eor.w	r3, r6, r2
	ands	r7, r3
	eors	r7, r6
	eor.w	r6, r9, r0
	ands	r0, r2
	ands	r0, r3
	eor.w	r0, r0, r12
	eors	r3, r0
	and.w	r0, r6, lr
	str	r0, [sp, #44]                   @ 4-byte Spill
	ldr	r0, [sp, #52]                   @ 4-byte Reload
	str.w	r10, [sp, #48]                  @ 4-byte Spill
	and.w	r12, r1, r0
	ldr	r0, [sp, #56]                   @ 4-byte Reload
	eor.w	r9, r1, r6
	ands	r0, r7
	str	r0, [sp, #40]                   @ 4-byte Spill
	ldr	r0, [sp, #48]                   @ 4-byte Reload
	and.w	r10, r9, r4
	ands	r0, r7
	str	r0, [sp, #56]                   @ 4-byte Spill
	ldr	r0, [sp, #72]                   @ 4-byte Reload
	and.w	r11, r11, r9
	and.w	r4, r1, r0
	ldr	r0, [sp, #100]                  @ 4-byte Reload
	and.w	lr, r6, r5
	ands	r0, r3
	str	r0, [sp, #48]                   @ 4-byte Spill
	ldr	r0, [sp, #96]                   @ 4-byte Reload
	eors	r6, r7
	eor.w	r9, r1, r3
	eors	r7, r3
	ands	r3, r0
	ldr	r0, [sp, #64]                   @ 4-byte Reload
	ldr	r5, [sp, #60]                   @ 4-byte Reload
	and.w	r1, r7, r0
	ldr	r0, [sp, #68]                   @ 4-byte Reload
	str.w	r12, [sp, #52]                  @ 4-byte Spill
	ands	r0, r7
	str	r0, [sp, #72]                   @ 4-byte Spill
	and.w	r0, r6, r8
	str	r0, [sp, #68]                   @ 4-byte Spill
	ldr	r0, [sp, #104]                  @ 4-byte Reload
	str.w	r11, [sp, #36]                  @ 4-byte Spill
	eor.w	r7, r0, r5
	ldr	r0, [sp, #84]                   @ 4-byte Reload
	ands	r7, r6
	eor.w	r6, r6, r9
	and.w	r8, r6, r0
	ldr	r0, [sp, #88]                   @ 4-byte Reload
	eor.w	r8, r8, r4
	eors	r4, r3
	and.w	r2, r6, r0
	eor.w	r3, r7, r12
	ldr	r6, [sp, #40]                   @ 4-byte Reload
	eor.w	r0, r3, r11
	and.w	r5, r5, r9
	eor.w	r3, r10, lr
	eor.w	lr, lr, r1
	eor.w	r12, r8, r0
	eor.w	r8, r1, r6
	eor.w	r1, r2, r5
	eors	r0, r1
	eor.w	r11, lr, r4
	str	r5, [sp, #104]                  @ 4-byte Spill
	eor.w	r5, r11, r0
	eor.w	r8, r8, r0
	eors	r0, r3
	ldr	r3, [sp, #44]                   @ 4-byte Reload
	str	r0, [sp, #100]                  @ 4-byte Spill
	eors	r3, r7
	ldr	r0, [sp, #48]                   @ 4-byte Reload
	eor.w	r3, r3, r10
	eor.w	r7, r3, r4
	ldr	r3, [sp, #56]                   @ 4-byte Reload
	ldr	r4, [sp, #68]                   @ 4-byte Reload
	eors	r0, r6
	eor.w	r11, r4, r3
	eor.w	r4, r0, r3
	ldr	r3, [sp, #36]                   @ 4-byte Reload
	str	r5, [sp, #96]                   @ 4-byte Spill
	eor.w	r5, r4, r3
	ldr	r3, [sp, #92]                   @ 4-byte Reload
	eors	r1, r5
	and.w	r5, r9, r3
	ldr	r3, [sp, #72]                   @ 4-byte Reload
	eor.w	r6, lr, r5
	eors	r3, r5
	ldr	r5, [sp, #52]                   @ 4-byte Reload
	eor.w	r2, r2, r10
	eors	r0, r5
	ldr	r5, [sp, #104]                  @ 4-byte Reload
	eors	r6, r4
	eors	r0, r5
	eor.w	r5, r11, r3
	eors	r0, r3
	ldr	r3, [sp, #80]                   @ 4-byte Reload
	eor.w	r10, r2, r12
	ldr	r2, [sp, #12]                   @ 4-byte Reload
	eor.w	lr, r6, r12
	ldr	r6, [sp, #76]                   @ 4-byte Reload
	adds	r3, #1
	eor.w	r9, r1, r7
	adc	r6, r6, #0
	subs	r1, r3, r2
	ldr	r1, [sp, #8]                    @ 4-byte Reload
	eor.w	r11, r0, r7
	sbcs.w	r1, r6, r1
	blo.w	.Laes_v7m_BB24_5
	b	.Laes_v7m_BB24_7
	.p2align	2
.Laes_v7m_BB24_6:
	ldr.w	r8, [sp, #104]                  @ 4-byte Reload
.Laes_v7m_BB24_7:                               @ %"aes_soft::soft::ciphers::planes::DecryptPlaneCipher::process_planes::<#42add9d049d0c5fd>.exit"
	ldr	r4, [sp, #16]                   @ 4-byte Reload
	ldrd	r0, r1, [r4]
	ldr	r2, [r4, #8]
	eor.w	r12, r0, r5
	ldr	r0, [sp, #96]                   @ 4-byte Reload
	ldr	r3, [r4, #12]
	eors	r2, r0
	ldr	r7, [r4, #16]
	ldr	r6, [r4, #20]
	ldrd	r5, r4, [r4, #24]
	ldr	r0, [sp, #100]                  @ 4-byte Reload
	eor.w	r1, r1, r10
	eors	r4, r0
	eor.w	r0, r1, r12, lsr #1
	eor.w	r3, r3, lr
	bic	r0, r0, #-1431655766
	eor.w	lr, r0, r1
	eor.w	r1, r3, r2, lsr #1
	eor.w	r7, r7, r8
	eor.w	r6, r6, r9
	bic	r1, r1, #-1431655766
	eor.w	r2, r2, r1, lsl #1
	eors	r1, r3
	eor.w	r3, r6, r7, lsr #1
	eor.w	r5, r5, r11
	bic	r3, r3, #-1431655766
	eor.w	r7, r7, r3, lsl #1
	eors	r3, r6
	eor.w	r6, r4, r5, lsr #1
	eor.w	r12, r12, r0, lsl #1
	bic	r6, r6, #-1431655766
	eor.w	r5, r5, r6, lsl #1
	eors	r6, r4
	eor.w	r4, r2, r12, lsr #2
	bic	r4, r4, #-858993460
	eor.w	r0, r12, r4, lsl #2
	eor.w	r12, r4, r2
	eor.w	r4, r5, r7, lsr #2
	bic	r4, r4, #-858993460
	eor.w	r7, r7, r4, lsl #2
	eors	r5, r4
	eor.w	r4, r1, lr, lsr #2
	bic	r4, r4, #-858993460
	eor.w	r2, lr, r4, lsl #2
	eors	r1, r4
	eor.w	r4, r6, r3, lsr #2
	bic	r4, r4, #-858993460
	eor.w	r3, r3, r4, lsl #2
	eors	r6, r4
	eor.w	r4, r7, r0, lsr #4
	bic	r4, r4, #-252645136
	eor.w	r0, r0, r4, lsl #4
	eors	r7, r4
	eor.w	r4, r3, r2, lsr #4
	bic	r4, r4, #-252645136
	eor.w	r2, r2, r4, lsl #4
	eor.w	lr, r4, r3
	eor.w	r4, r5, r12, lsr #4
	bic	r4, r4, #-252645136
	eor.w	r3, r12, r4, lsl #4
	eors	r5, r4
	eor.w	r4, r6, r1, lsr #4
	bic	r4, r4, #-252645136
	eor.w	r1, r1, r4, lsl #4
	eors	r6, r4
	ldr	r4, [sp, #4]                    @ 4-byte Reload
	str	r0, [r4]
	str	r3, [r4, #4]
	str	r7, [r4, #8]
	str	r5, [r4, #12]
	str	r2, [r4, #16]
	str	r1, [r4, #20]
	str.w	lr, [r4, #24]
	str	r6, [r4, #28]
	add	sp, #108
	pop.w	{r4, r5, r6, r7, r8, r9, r10, r11, pc}
.Laes_v7m_func_end24:
	.size	aes_v7m.aes_soft.soft.ciphers.planes.process_outlined.2, .Laes_v7m_func_end24-aes_v7m.aes_soft.soft.ciphers.planes.process_outlined.2
	.cantunwind
	.fnend
                                        @ -- End function
	.section	.text.aes_v7m.aes_narrow.blocks.process_all_batches.2,"ax",%progbits
	.p2align	2                               @ -- Begin function aes_narrow::blocks::process_all_batches::<#a3dcb71d05bd149b>
	.type	aes_v7m.aes_narrow.blocks.process_all_batches.2,%function
	.code	16
	.thumb_func
aes_v7m.aes_narrow.blocks.process_all_batches.2: @ @aes_v7m.aes_narrow.blocks.process_all_batches.2
	.fnstart
@ %bb.0:                                @ %start
	.save	{r4, r5, r6, r7, r8, r9, r10, r11, lr}
	push.w	{r4, r5, r6, r7, r8, r9, r10, r11, lr}
	.pad	#20
	sub	sp, #20
	ldrd	r4, r11, [sp, #64]
	orrs.w	r1, r4, r11
	beq	.Laes_v7m_BB25_3
@ %bb.1:                                @ %join.5.preheader
	mov	r8, r3
	mov	r5, r2
	mov	r6, r0
	mov.w	r10, #0
	mov.w	r9, #0
	movs	r7, #0
	.p2align	2
.Laes_v7m_BB25_2:                               @ %join.5
                                        @ =>This Inner Loop Header: Depth=1
	subs.w	r1, r4, r9
	sbc.w	r0, r11, r7
	cmp	r1, #2
	mov.w	r2, #2
	it	hs
	movhs	r1, r2
	cmp	r0, #0
	ldr	r0, [sp, #56]
	it	ne
	movne	r1, r2
	add.w	r0, r0, r9, lsl #4
	adds.w	r9, r9, r1
	str	r0, [sp]
	mov	r0, r6
	mov	r2, r5
	mov	r3, r8
	adc	r7, r7, #0
	strd	r1, r10, [sp, #8]
	bl	aes_v7m.aes_soft.soft.blocks.filled_up.process_filled_up.2
	subs.w	r0, r9, r4
	sbcs.w	r0, r7, r11
	blo	.Laes_v7m_BB25_2
.Laes_v7m_BB25_3:                               @ %after.1
	add	sp, #20
	pop.w	{r4, r5, r6, r7, r8, r9, r10, r11, pc}
.Laes_v7m_func_end25:
	.size	aes_v7m.aes_narrow.blocks.process_all_batches.2, .Laes_v7m_func_end25-aes_v7m.aes_narrow.blocks.process_all_batches.2
	.cantunwind
	.fnend
                                        @ -- End function
	.section	.text.aes_v7m.key_wrap.wrapping.unwrap,"ax",%progbits
	.p2align	2                               @ -- Begin function key_wrap::wrapping::unwrap::<#10c636071cb6e37c>
	.type	aes_v7m.key_wrap.wrapping.unwrap,%function
	.code	16
	.thumb_func
aes_v7m.key_wrap.wrapping.unwrap: @ @aes_v7m.key_wrap.wrapping.unwrap
	.fnstart
@ %bb.0:                                @ %start
	.save	{r4, r5, r6, r7, r8, r9, r10, r11, lr}
	push.w	{r4, r5, r6, r7, r8, r9, r10, r11, lr}
	.pad	#36
	sub	sp, #36
	ldrd	r9, r10, [sp, #80]
	movs	r5, #0
	adds.w	r7, r9, #1
	adc	r4, r10, #0
	subs.w	r6, r9, #2
	sbcs	r6, r10, #0
	mov.w	r6, #1
	blo.w	.Laes_v7m_BB26_14
@ %bb.1:                                @ %start
	eors	r7, r2
	eors	r4, r3
	orrs	r7, r4
	bne.w	.Laes_v7m_BB26_14
@ %bb.2:                                @ %after.1
	subs	r2, #1
	ldr.w	r11, [sp, #72]
	sbc	lr, r3, #0
	mov	r8, r1
	adds	r1, #8
	lsl.w	r3, lr, #3
	orr.w	r12, r3, r2, lsr #29
	subs.w	r7, r11, r1
	mov.w	r3, #0
	sbc	r3, r3, #0
	subs.w	r7, r7, r2, lsl #3
	sbcs.w	r3, r3, r12
	bhs	.Laes_v7m_BB26_5
@ %bb.3:                                @ %join.7.i.i.i.i.i.i.i.i.preheader
	cmp	r2, #1
	mov.w	r7, #1
	mov.w	r3, #1
	it	hi
	movhi	r7, r2
	cmp.w	lr, #0
	ite	ne
	movne	r3, r2
	moveq	r3, r7
	subs	r2, #4
	sbcs	r2, lr, #0
	and	r4, r3, #3
	bhs	.Laes_v7m_BB26_6
@ %bb.4:
	movs	r3, #0
	b	.Laes_v7m_BB26_9
	.p2align	2
.Laes_v7m_BB26_5:                               @ %apart.2.i.i.i.i.i.i.i.i
	lsls	r2, r2, #3
	mov	r5, r0
	mov	r0, r11
	bl	memmove
	mov	r0, r5
	b	.Laes_v7m_BB26_12
	.p2align	2
.Laes_v7m_BB26_6:                               @ %join.7.i.i.i.i.i.i.i.i.preheader.new
	bic	r10, r3, #3
	movs	r3, #0
	movs	r7, #0
	str	r4, [sp, #12]                   @ 4-byte Spill
	.p2align	2
.Laes_v7m_BB26_7:                               @ %join.7.i.i.i.i.i.i.i.i
                                        @ =>This Inner Loop Header: Depth=1
	add.w	r2, r1, r3, lsl #3
	ldr.w	r4, [r1, r3, lsl #3]
	ldr	r2, [r2, #4]
	add.w	r5, r11, r3, lsl #3
	str.w	r4, [r11, r3, lsl #3]
	str	r2, [r5, #4]
	orr	r2, r3, #1
	add.w	r5, r1, r2, lsl #3
	ldr.w	r12, [r1, r2, lsl #3]
	ldr	r5, [r5, #4]
	add.w	r4, r11, r2, lsl #3
	str.w	r12, [r11, r2, lsl #3]
	orr	r2, r3, #2
	str	r5, [r4, #4]
	add.w	r4, r1, r2, lsl #3
	ldr.w	r6, [r1, r2, lsl #3]
	ldr	r4, [r4, #4]
	add.w	r5, r11, r2, lsl #3
	str.w	r6, [r11, r2, lsl #3]
	str	r4, [r5, #4]
	orr	r2, r3, #3
	ldr.w	r4, [r1, r2, lsl #3]
	adds	r3, #4
	add.w	r5, r1, r2, lsl #3
	adc	r7, r7, #0
	add.w	r6, r11, r2, lsl #3
	ldr	r5, [r5, #4]
	str.w	r4, [r11, r2, lsl #3]
	eor.w	r2, r3, r10
	eor.w	r4, r7, lr
	orrs	r2, r4
	str	r5, [r6, #4]
	bne	.Laes_v7m_BB26_7
@ %bb.8:                                @ %"key_wrap::wrapping::unwrap_all::<#10c636071cb6e37c>.exit.loopexit.unr-lcssa"
	ldr	r4, [sp, #12]                   @ 4-byte Reload
	ldr.w	r10, [sp, #84]
	cbz	r4, .Laes_v7m_BB26_12
.Laes_v7m_BB26_9:                               @ %join.7.i.i.i.i.i.i.i.i.epil.preheader
	add.w	r7, r1, r3, lsl #3
	ldr.w	r6, [r1, r3, lsl #3]
	ldr	r7, [r7, #4]
	add.w	r2, r11, r3, lsl #3
	cmp	r4, #1
	str.w	r6, [r11, r3, lsl #3]
	str	r7, [r2, #4]
	beq	.Laes_v7m_BB26_12
@ %bb.10:                               @ %join.7.i.i.i.i.i.i.i.i.epil.1
	adds	r2, r3, #1
	add.w	r6, r1, r2, lsl #3
	ldr.w	r5, [r1, r2, lsl #3]
	ldr	r6, [r6, #4]
	add.w	r7, r11, r2, lsl #3
	cmp	r4, #2
	str.w	r5, [r11, r2, lsl #3]
	str	r6, [r7, #4]
	beq	.Laes_v7m_BB26_12
@ %bb.11:                               @ %join.7.i.i.i.i.i.i.i.i.epil.2
	adds	r2, r3, #2
	add.w	r7, r1, r2, lsl #3
	ldr.w	r1, [r1, r2, lsl #3]
	ldr	r7, [r7, #4]
	add.w	r3, r11, r2, lsl #3
	str.w	r1, [r11, r2, lsl #3]
	str	r7, [r3, #4]
.Laes_v7m_BB26_12:                              @ %"key_wrap::wrapping::unwrap_all::<#10c636071cb6e37c>.exit"
	ldr.w	r1, [r8, #4]
	ldr.w	r2, [r8]
	strd	r9, r10, [sp]
	strd	r2, r1, [sp, #16]
	add	r1, sp, #16
	mov	r2, r11
	bl	aes_v7m.key_wrap.steps.unwrap_in_place
	ldrd	r1, r0, [sp, #16]
	strd	r1, r0, [sp, #16]
	mov.w	r0, #-1499027802
	movw	r1, :lower16:.Laes_v7m_static.2
	strd	r0, r0, [sp, #24]
	movt	r1, :upper16:.Laes_v7m_static.2
	add	r0, sp, #16
	bl	aes_v7m.aes_cipher.blocks.difference
	mov.w	r5, #0
	cbz	r0, .Laes_v7m_BB26_15
@ %bb.13:                               @ %loop.5.preheader.i
	subs.w	r4, r9, #1
	sbc	r0, r10, #0
	cmp	r4, #1
	mov.w	r1, #1
	it	hi
	movhi	r1, r4
	cmp	r0, #0
	mov.w	r0, #1
	ite	ne
	movne	r0, r4
	moveq	r0, r1
	lsls	r2, r0, #3
	mov	r0, r11
	movs	r1, #0
	movs	r6, #1
	bl	memset
	add.w	r0, r11, r4, lsl #3
	str.w	r5, [r11, r4, lsl #3]
	str	r5, [r0, #4]
	movs	r5, #1
.Laes_v7m_BB26_14:                              @ %return.10
	mov	r0, r6
	mov	r1, r5
	add	sp, #36
	pop.w	{r4, r5, r6, r7, r8, r9, r10, r11, pc}
	.p2align	2
.Laes_v7m_BB26_15:
	movs	r6, #0
	mov	r0, r6
	mov	r1, r5
	add	sp, #36
	pop.w	{r4, r5, r6, r7, r8, r9, r10, r11, pc}
.Laes_v7m_func_end26:
	.size	aes_v7m.key_wrap.wrapping.unwrap, .Laes_v7m_func_end26-aes_v7m.key_wrap.wrapping.unwrap
	.cantunwind
	.fnend
                                        @ -- End function
	.section	.text.aes_v7m.key_wrap.steps.unwrap_in_place,"ax",%progbits
	.p2align	2                               @ -- Begin function key_wrap::steps::unwrap_in_place::<#10c636071cb6e37c>
	.type	aes_v7m.key_wrap.steps.unwrap_in_place,%function
	.code	16
	.thumb_func
aes_v7m.key_wrap.steps.unwrap_in_place: @ @aes_v7m.key_wrap.steps.unwrap_in_place
	.fnstart
@ %bb.0:                                @ %start
	.save	{r4, r5, r6, r7, r8, r9, r10, r11, lr}
	push.w	{r4, r5, r6, r7, r8, r9, r10, r11, lr}
	.pad	#52
	sub	sp, #52
	mov	r10, r2
	ldrd	r3, r2, [sp, #88]
	mov	r5, r1
	orrs.w	r1, r3, r2
	beq.w	.Laes_v7m_BB27_13
@ %bb.1:                                @ %join.5.preheader
	mov	r9, r0
	add.w	r1, r2, r2, lsl #2
	movs	r0, #5
	movs	r7, #1
	umlal	r7, r1, r3, r0
	strd	r7, r1, [sp, #24]               @ 8-byte Folded Spill
	mov.w	r11, #0
	movs	r7, #0
	.p2align	2
.Laes_v7m_BB27_2:                               @ %join.5.i
                                        @ =>This Inner Loop Header: Depth=1
	mvn.w	r1, r11
	mvns	r0, r7
	adds	r4, r3, r1
	ldr	r1, [sp, #24]                   @ 4-byte Reload
	adcs	r0, r2
	ldr	r2, [sp, #28]                   @ 4-byte Reload
	adds	r1, r1, r4
	adcs	r0, r2
	ldr	r2, [r5]
	ldr	r3, [r5, #4]
	rev	r0, r0
	rev	r1, r1
	eors	r0, r2
	eors	r1, r3
	add.w	r8, r10, r4, lsl #3
	str	r1, [r5, #4]
	str	r0, [r5]
	ldr.w	r6, [r10, r4, lsl #3]
	ldr.w	r2, [r8, #4]
	strd	r0, r1, [sp, #32]
	str	r2, [sp, #44]
	ldr.w	r0, [r9]
	ldr.w	r2, [r9, #8]
	ldr.w	r3, [r9, #12]
	str	r6, [sp, #40]
	movs	r1, #1
	movs	r6, #0
	strd	r1, r6, [sp, #8]
	add	r6, sp, #32
	str	r6, [sp]
	bl	aes_v7m.aes_narrow.blocks.process_all_batches.2
	bl	aes_v7m.aes_cipher.zeroize.stack.wipe_stack.1024
	add	r3, sp, #32
	ldm	r3, {r0, r1, r2, r3}
	str	r1, [r5, #4]
	str	r0, [r5]
	mov	r0, r6
	str.w	r2, [r10, r4, lsl #3]
	str.w	r3, [r8, #4]
	bl	aes_v7m.aes_cipher.zeroize.elements.zeroize_elements.3
	ldrd	r3, r2, [sp, #88]
	adds.w	r11, r11, #1
	adc	r7, r7, #0
	subs.w	r0, r11, r3
	sbcs.w	r0, r7, r2
	blo	.Laes_v7m_BB27_2
@ %bb.3:                                @ %"key_wrap::steps::unwrap_turn::<#10c636071cb6e37c>.exit.loopexit"
	lsls	r0, r2, #2
	orr.w	r0, r0, r3, lsr #30
	str	r0, [sp, #24]                   @ 4-byte Spill
	lsls	r0, r3, #2
	adds	r0, #1
	mov.w	r11, #0
	mov.w	r8, #0
	str	r0, [sp, #20]                   @ 4-byte Spill
	.p2align	2
.Laes_v7m_BB27_4:                               @ %join.5.i.1
                                        @ =>This Inner Loop Header: Depth=1
	mvn.w	r1, r11
	mvn.w	r0, r8
	adds	r4, r3, r1
	ldr	r1, [sp, #20]                   @ 4-byte Reload
	adcs	r0, r2
	ldr	r2, [sp, #24]                   @ 4-byte Reload
	adds	r1, r1, r4
	adcs	r0, r2
	ldr	r2, [r5]
	ldr	r3, [r5, #4]
	rev	r0, r0
	rev	r1, r1
	eors	r0, r2
	eors	r1, r3
	add.w	r7, r10, r4, lsl #3
	str	r1, [r5, #4]
	str	r0, [r5]
	ldr	r2, [r7, #4]
	ldr.w	r6, [r10, r4, lsl #3]
	strd	r0, r1, [sp, #32]
	str	r2, [sp, #44]
	ldr.w	r0, [r9]
	ldr.w	r2, [r9, #8]
	ldr.w	r3, [r9, #12]
	movs	r1, #1
	str	r6, [sp, #40]
	add	r6, sp, #32
	mov.w	r12, #1
	str	r1, [sp, #28]                   @ 4-byte Spill
	movs	r1, #0
	strd	r12, r1, [sp, #8]
	str	r6, [sp]
	bl	aes_v7m.aes_narrow.blocks.process_all_batches.2
	bl	aes_v7m.aes_cipher.zeroize.stack.wipe_stack.1024
	add	r3, sp, #32
	ldm	r3, {r0, r1, r2, r3}
	str	r1, [r5, #4]
	str	r0, [r5]
	mov	r0, r6
	str.w	r2, [r10, r4, lsl #3]
	str	r3, [r7, #4]
	bl	aes_v7m.aes_cipher.zeroize.elements.zeroize_elements.3
	ldrd	r3, r2, [sp, #88]
	adds.w	r11, r11, #1
	adc	r8, r8, #0
	subs.w	r0, r11, r3
	sbcs.w	r0, r8, r2
	blo	.Laes_v7m_BB27_4
@ %bb.5:                                @ %"key_wrap::steps::unwrap_turn::<#10c636071cb6e37c>.exit.loopexit.1"
	ldr	r1, [sp, #28]                   @ 4-byte Reload
	add.w	r7, r2, r2, lsl #1
	movs	r0, #3
	umlal	r1, r7, r3, r0
	strd	r7, r1, [sp, #24]               @ 8-byte Folded Spill
	mov.w	r11, #0
	movs	r7, #0
	str.w	r9, [sp, #16]                   @ 4-byte Spill
	.p2align	2
.Laes_v7m_BB27_6:                               @ %join.5.i.2
                                        @ =>This Inner Loop Header: Depth=1
	mvn.w	r1, r11
	mvns	r0, r7
	adds	r4, r3, r1
	ldr	r1, [sp, #28]                   @ 4-byte Reload
	adcs	r0, r2
	ldr	r2, [sp, #24]                   @ 4-byte Reload
	adds	r1, r1, r4
	adcs	r0, r2
	ldr	r2, [r5]
	ldr	r3, [r5, #4]
	rev	r0, r0
	rev	r1, r1
	eors	r0, r2
	eors	r1, r3
	add.w	r8, r10, r4, lsl #3
	str	r1, [r5, #4]
	str	r0, [r5]
	ldr.w	r6, [r10, r4, lsl #3]
	ldr.w	r2, [r8, #4]
	strd	r0, r1, [sp, #32]
	str	r2, [sp, #44]
	ldr.w	r0, [r9]
	ldr.w	r2, [r9, #8]
	ldr.w	r3, [r9, #12]
	str	r6, [sp, #40]
	add	r6, sp, #32
	mov	r9, r10
	mov	r10, r6
	movs	r1, #1
	movs	r6, #0
	strd	r1, r6, [sp, #8]
	str.w	r10, [sp]
	bl	aes_v7m.aes_narrow.blocks.process_all_batches.2
	bl	aes_v7m.aes_cipher.zeroize.stack.wipe_stack.1024
	add	r3, sp, #32
	ldm	r3, {r0, r1, r2, r3}
	str	r1, [r5, #4]
	str	r0, [r5]
	str.w	r2, [r9, r4, lsl #3]
	mov	r0, r10
	mov	r10, r9
	ldr.w	r9, [sp, #16]                   @ 4-byte Reload
	str.w	r3, [r8, #4]
	bl	aes_v7m.aes_cipher.zeroize.elements.zeroize_elements.3
	ldrd	r3, r2, [sp, #88]
	adds.w	r11, r11, #1
	adc	r7, r7, #0
	subs.w	r0, r11, r3
	sbcs.w	r0, r7, r2
	blo	.Laes_v7m_BB27_6
@ %bb.7:                                @ %"key_wrap::steps::unwrap_turn::<#10c636071cb6e37c>.exit.loopexit.2"
	lsls	r0, r2, #1
	orr.w	r0, r0, r3, lsr #31
	str	r0, [sp, #24]                   @ 4-byte Spill
	lsls	r0, r3, #1
	adds	r0, #1
	mov.w	r11, #0
	movs	r7, #0
	str	r0, [sp, #20]                   @ 4-byte Spill
	.p2align	2
.Laes_v7m_BB27_8:                               @ %join.5.i.3
                                        @ =>This Inner Loop Header: Depth=1
	mvn.w	r1, r11
	mvns	r0, r7
	adds	r4, r3, r1
	ldr	r1, [sp, #20]                   @ 4-byte Reload
	adcs	r0, r2
	ldr	r2, [sp, #24]                   @ 4-byte Reload
	adds	r1, r1, r4
	adcs	r0, r2
	ldr	r2, [r5]
	ldr	r3, [r5, #4]
	rev	r0, r0
	rev	r1, r1
	eors	r0, r2
	eors	r1, r3
	add.w	r6, r10, r4, lsl #3
	str	r1, [r5, #4]
	str	r0, [r5]
	ldr	r2, [r6, #4]
	ldr.w	r12, [r10, r4, lsl #3]
	strd	r0, r1, [sp, #32]
	str	r2, [sp, #44]
	ldr.w	r0, [r9]
	ldr.w	r2, [r9, #8]
	ldr.w	r3, [r9, #12]
	str	r6, [sp, #28]                   @ 4-byte Spill
	add.w	r8, sp, #32
	movs	r1, #1
	movs	r6, #0
	str.w	r12, [sp, #40]
	strd	r1, r6, [sp, #8]
	str.w	r8, [sp]
	bl	aes_v7m.aes_narrow.blocks.process_all_batches.2
	bl	aes_v7m.aes_cipher.zeroize.stack.wipe_stack.1024
	add	r3, sp, #32
	ldm	r3, {r0, r1, r2, r3}
	str	r1, [r5, #4]
	str	r0, [r5]
	ldr	r0, [sp, #28]                   @ 4-byte Reload
	str.w	r2, [r10, r4, lsl #3]
	str	r3, [r0, #4]
	mov	r0, r8
	bl	aes_v7m.aes_cipher.zeroize.elements.zeroize_elements.3
	ldrd	r3, r2, [sp, #88]
	adds.w	r11, r11, #1
	adc	r7, r7, #0
	subs.w	r0, r11, r3
	sbcs.w	r0, r7, r2
	blo	.Laes_v7m_BB27_8
@ %bb.9:                                @ %"key_wrap::steps::unwrap_turn::<#10c636071cb6e37c>.exit.loopexit.3"
	adds	r0, r3, #1
	str	r0, [sp, #24]                   @ 4-byte Spill
	adc	r0, r2, #0
	mov.w	r11, #0
	movs	r7, #0
	str	r0, [sp, #20]                   @ 4-byte Spill
	.p2align	2
.Laes_v7m_BB27_10:                              @ %join.5.i.4
                                        @ =>This Inner Loop Header: Depth=1
	mvn.w	r1, r11
	mvns	r0, r7
	adds	r4, r3, r1
	ldr	r1, [sp, #24]                   @ 4-byte Reload
	adcs	r0, r2
	ldr	r2, [sp, #20]                   @ 4-byte Reload
	adds	r1, r1, r4
	adcs	r0, r2
	ldr	r2, [r5]
	ldr	r3, [r5, #4]
	rev	r0, r0
	rev	r1, r1
	eors	r0, r2
	eors	r1, r3
	add.w	r6, r10, r4, lsl #3
	str	r1, [r5, #4]
	str	r0, [r5]
	ldr	r2, [r6, #4]
	ldr.w	r12, [r10, r4, lsl #3]
	strd	r0, r1, [sp, #32]
	str	r2, [sp, #44]
	ldr.w	r0, [r9]
	ldr.w	r2, [r9, #8]
	ldr.w	r3, [r9, #12]
	str	r6, [sp, #28]                   @ 4-byte Spill
	add.w	r8, sp, #32
	movs	r1, #1
	movs	r6, #0
	str.w	r12, [sp, #40]
	strd	r1, r6, [sp, #8]
	str.w	r8, [sp]
	bl	aes_v7m.aes_narrow.blocks.process_all_batches.2
	bl	aes_v7m.aes_cipher.zeroize.stack.wipe_stack.1024
	add	r3, sp, #32
	ldm	r3, {r0, r1, r2, r3}
	str	r1, [r5, #4]
	str	r0, [r5]
	ldr	r0, [sp, #28]                   @ 4-byte Reload
	str.w	r2, [r10, r4, lsl #3]
	str	r3, [r0, #4]
	mov	r0, r8
	bl	aes_v7m.aes_cipher.zeroize.elements.zeroize_elements.3
	ldrd	r3, r2, [sp, #88]
	adds.w	r11, r11, #1
	adc	r7, r7, #0
	subs.w	r0, r11, r3
	sbcs.w	r0, r7, r2
	blo	.Laes_v7m_BB27_10
@ %bb.11:                               @ %join.5.i.5.preheader
	mov.w	r8, #0
	movs	r7, #0
	movs	r4, #0
	.p2align	2
.Laes_v7m_BB27_12:                              @ %join.5.i.5
                                        @ =>This Inner Loop Header: Depth=1
	mvns	r0, r7
	adds	r6, r3, r0
	subs	r0, r3, r7
	sbc.w	r1, r2, r4
	ldr	r2, [r5]
	ldr	r3, [r5, #4]
	rev	r0, r0
	rev	r1, r1
	eors	r1, r2
	eors	r0, r3
	add.w	r11, r10, r6, lsl #3
	str	r0, [r5, #4]
	str	r1, [r5]
	ldr.w	r2, [r11, #4]
	ldr.w	r12, [r10, r6, lsl #3]
	strd	r1, r0, [sp, #32]
	str	r2, [sp, #44]
	ldr.w	r0, [r9]
	ldr.w	r2, [r9, #8]
	ldr.w	r3, [r9, #12]
	movs	r1, #1
	strd	r1, r8, [sp, #8]
	add	r1, sp, #32
	str.w	r12, [sp, #40]
	str	r1, [sp]
	bl	aes_v7m.aes_narrow.blocks.process_all_batches.2
	bl	aes_v7m.aes_cipher.zeroize.stack.wipe_stack.1024
	add	r3, sp, #32
	ldm	r3, {r0, r1, r2, r3}
	str	r1, [r5, #4]
	str	r0, [r5]
	add	r0, sp, #32
	str.w	r2, [r10, r6, lsl #3]
	str.w	r3, [r11, #4]
	bl	aes_v7m.aes_cipher.zeroize.elements.zeroize_elements.3
	ldrd	r3, r2, [sp, #88]
	adds	r7, #1
	adc	r4, r4, #0
	subs	r0, r7, r3
	sbcs.w	r0, r4, r2
	blo	.Laes_v7m_BB27_12
.Laes_v7m_BB27_13:                              @ %after.1
	add	sp, #52
	pop.w	{r4, r5, r6, r7, r8, r9, r10, r11, pc}
.Laes_v7m_func_end27:
	.size	aes_v7m.key_wrap.steps.unwrap_in_place, .Laes_v7m_func_end27-aes_v7m.key_wrap.steps.unwrap_in_place
	.cantunwind
	.fnend
                                        @ -- End function
	.section	.text.aes_v7m.aes_cipher.zeroize.elements.zeroize_elements.3,"ax",%progbits
	.p2align	2                               @ -- Begin function aes_cipher::zeroize::elements::zeroize_elements::<#51e2d7e6a2c2e10f>
	.type	aes_v7m.aes_cipher.zeroize.elements.zeroize_elements.3,%function
	.code	16
	.thumb_func
aes_v7m.aes_cipher.zeroize.elements.zeroize_elements.3: @ @aes_v7m.aes_cipher.zeroize.elements.zeroize_elements.3
	.fnstart
@ %bb.0:                                @ %start
	.pad	#8
	sub	sp, #8
	movs	r1, #0
	strd	r1, r1, [sp]
	@APP
	@NO_APP
	mov	r12, sp
	ldrd	r3, r2, [r12]
	@APP
	@NO_APP
	str	r1, [r0, #12]
	str	r1, [r0, #8]
	str	r1, [r0, #4]
	str	r1, [r0]
	@APP
	@NO_APP
	ldrd	r0, r2, [r12]
	strd	r1, r1, [r12]
	@APP
	@NO_APP
	add	sp, #8
	bx	lr
.Laes_v7m_func_end28:
	.size	aes_v7m.aes_cipher.zeroize.elements.zeroize_elements.3, .Laes_v7m_func_end28-aes_v7m.aes_cipher.zeroize.elements.zeroize_elements.3
	.cantunwind
	.fnend
                                        @ -- End function
	.section	.text.aes_v7m.aes_cipher.blocks.difference,"ax",%progbits
	.p2align	2                               @ -- Begin function aes_cipher::blocks::difference
	.type	aes_v7m.aes_cipher.blocks.difference,%function
	.code	16
	.thumb_func
aes_v7m.aes_cipher.blocks.difference:       @ @aes_v7m.aes_cipher.blocks.difference
	.fnstart
@ %bb.0:                                @ %start
	.save	{r4, r5, r6, r7, lr}
	push	{r4, r5, r6, r7, lr}
	ldrb	r2, [r0]
	ldrb	r3, [r0, #1]
	ldrb	r4, [r1]
	ldrb	r5, [r1, #1]
	ldrb.w	r12, [r0, #2]
	ldrb	r6, [r1, #2]
	ldrb.w	lr, [r0, #3]
	ldrb	r7, [r1, #3]
	eors	r2, r4
	eors	r3, r5
	orrs	r2, r3
	eor.w	r3, r6, r12
	orrs	r2, r3
	eor.w	r3, r7, lr
	ldrb	r7, [r0, #4]
	ldrb	r6, [r1, #4]
	orrs	r2, r3
	eor.w	r3, r6, r7
	ldrb	r7, [r0, #5]
	ldrb	r6, [r1, #5]
	orrs	r2, r3
	eor.w	r3, r6, r7
	ldrb	r7, [r0, #6]
	ldrb	r6, [r1, #6]
	orrs	r2, r3
	eor.w	r3, r6, r7
	ldrb	r7, [r0, #7]
	ldrb	r6, [r1, #7]
	orrs	r2, r3
	eor.w	r3, r6, r7
	ldrb	r7, [r0, #8]
	ldrb	r6, [r1, #8]
	orrs	r2, r3
	eor.w	r3, r6, r7
	ldrb	r7, [r0, #9]
	ldrb	r6, [r1, #9]
	orrs	r2, r3
	eor.w	r3, r6, r7
	ldrb	r7, [r0, #10]
	ldrb	r6, [r1, #10]
	orrs	r2, r3
	eor.w	r3, r6, r7
	ldrb	r7, [r0, #11]
	ldrb	r6, [r1, #11]
	orrs	r2, r3
	eor.w	r3, r6, r7
	ldrb	r7, [r0, #12]
	ldrb	r6, [r1, #12]
	orrs	r2, r3
	eor.w	r3, r6, r7
	ldrb	r7, [r0, #13]
	ldrb	r6, [r1, #13]
	orrs	r2, r3
	eor.w	r3, r6, r7
	ldrb	r7, [r0, #14]
	ldrb	r6, [r1, #14]
	ldrb	r0, [r0, #15]
	ldrb	r1, [r1, #15]
	orrs	r2, r3
	eor.w	r3, r6, r7
	orrs	r2, r3
	eors	r0, r1
	orrs	r0, r2
	pop	{r4, r5, r6, r7, pc}
.Laes_v7m_func_end29:
	.size	aes_v7m.aes_cipher.blocks.difference, .Laes_v7m_func_end29-aes_v7m.aes_cipher.blocks.difference
	.cantunwind
	.fnend
                                        @ -- End function
	.section	.text.aes_v7m.key_wrap.padded.unwrap_padded,"ax",%progbits
	.p2align	2                               @ -- Begin function key_wrap::padded::unwrap_padded::<#10c636071cb6e37c>
	.type	aes_v7m.key_wrap.padded.unwrap_padded,%function
	.code	16
	.thumb_func
aes_v7m.key_wrap.padded.unwrap_padded: @ @aes_v7m.key_wrap.padded.unwrap_padded
	.fnstart
@ %bb.0:                                @ %start
	.save	{r4, r5, r6, r7, r8, r9, r10, r11, lr}
	push.w	{r4, r5, r6, r7, r8, r9, r10, r11, lr}
	.pad	#52
	sub	sp, #52
	mov	r9, r1
	ldrd	r5, r1, [sp, #104]
	mov	r10, r0
	subs.w	r8, r5, #1
	sbc	r3, r1, #0
	orr.w	r7, r3, r8, lsr #29
	adds	r3, r5, #1
	adc	r6, r1, #0
	cmp	r7, #0
	itttt	eq
	ldrdeq	r0, r7, [sp, #88]
	eoreq	r3, r0
	eoreq	r6, r7
	orrseq.w	r3, r3, r6
	beq	.Laes_v7m_BB30_2
@ %bb.1:                                @ %join.5
	movs	r0, #1
	strh.w	r0, [r10]
	movs	r0, #0
	str.w	r0, [r10, #4]
	add	sp, #52
	pop.w	{r4, r5, r6, r7, r8, r9, r10, r11, pc}
	.p2align	2
.Laes_v7m_BB30_2:                               @ %after.1
	subs	r0, #1
	ldr.w	r11, [sp, #96]
	sbc	lr, r7, #0
	add.w	r1, r2, #8
	lsl.w	r7, lr, #3
	orr.w	r12, r7, r0, lsr #29
	subs.w	r4, r11, r1
	mov.w	r7, #0
	sbc	r7, r7, #0
	subs.w	r4, r4, r0, lsl #3
	sbcs.w	r7, r7, r12
	bhs	.Laes_v7m_BB30_5
@ %bb.3:                                @ %join.7.i.i.i.i.i.i.i.preheader
	cmp	r0, #1
	mov.w	r4, #1
	mov.w	r7, #1
	it	hi
	movhi	r4, r0
	cmp.w	lr, #0
	ite	ne
	movne	r7, r0
	moveq	r7, r4
	subs	r0, #4
	sbcs	r0, lr, #0
	and	r4, r7, #3
	bhs	.Laes_v7m_BB30_6
@ %bb.4:
	movs	r7, #0
	b	.Laes_v7m_BB30_9
	.p2align	2
.Laes_v7m_BB30_5:                               @ %apart.2.i.i.i.i.i.i.i
	lsls	r6, r0, #3
	mov	r0, r11
	mov	r7, r2
	mov	r2, r6
	bl	memmove
	mov	r2, r7
	b	.Laes_v7m_BB30_12
	.p2align	2
.Laes_v7m_BB30_6:                               @ %join.7.i.i.i.i.i.i.i.preheader.new
	strd	r4, r8, [sp, #16]               @ 8-byte Folded Spill
	bic	r8, r7, #3
	movs	r7, #0
	movs	r4, #0
	.p2align	2
.Laes_v7m_BB30_7:                               @ %join.7.i.i.i.i.i.i.i
                                        @ =>This Inner Loop Header: Depth=1
	add.w	r0, r1, r7, lsl #3
	ldr.w	r12, [r1, r7, lsl #3]
	ldr	r0, [r0, #4]
	add.w	r6, r11, r7, lsl #3
	str.w	r12, [r11, r7, lsl #3]
	str	r0, [r6, #4]
	orr	r0, r7, #1
	add.w	r5, r1, r0, lsl #3
	ldr.w	r3, [r1, r0, lsl #3]
	ldr	r5, [r5, #4]
	add.w	r6, r11, r0, lsl #3
	str.w	r3, [r11, r0, lsl #3]
	orr	r0, r7, #2
	str	r5, [r6, #4]
	add.w	r6, r1, r0, lsl #3
	ldr.w	r5, [r1, r0, lsl #3]
	ldr	r6, [r6, #4]
	add.w	r3, r11, r0, lsl #3
	str.w	r5, [r11, r0, lsl #3]
	str	r6, [r3, #4]
	orr	r0, r7, #3
	ldr.w	r5, [r1, r0, lsl #3]
	adds	r7, #4
	add.w	r6, r1, r0, lsl #3
	adc	r4, r4, #0
	add.w	r3, r11, r0, lsl #3
	ldr	r6, [r6, #4]
	str.w	r5, [r11, r0, lsl #3]
	eor.w	r0, r7, r8
	eor.w	r5, r4, lr
	orrs	r0, r5
	str	r6, [r3, #4]
	bne	.Laes_v7m_BB30_7
@ %bb.8:                                @ %"key_wrap::wrapping::copy_apart.exit.loopexit.unr-lcssa"
	ldr	r4, [sp, #16]                   @ 4-byte Reload
	ldr.w	r8, [sp, #20]                   @ 4-byte Reload
	ldr	r5, [sp, #104]
	cbz	r4, .Laes_v7m_BB30_12
.Laes_v7m_BB30_9:                               @ %join.7.i.i.i.i.i.i.i.epil.preheader
	add.w	r3, r1, r7, lsl #3
	ldr.w	r6, [r1, r7, lsl #3]
	ldr	r3, [r3, #4]
	add.w	r0, r11, r7, lsl #3
	cmp	r4, #1
	str.w	r6, [r11, r7, lsl #3]
	str	r3, [r0, #4]
	beq	.Laes_v7m_BB30_12
@ %bb.10:                               @ %join.7.i.i.i.i.i.i.i.epil.1
	adds	r0, r7, #1
	add.w	r6, r1, r0, lsl #3
	ldr.w	r3, [r1, r0, lsl #3]
	ldr	r6, [r6, #4]
	add.w	r12, r11, r0, lsl #3
	cmp	r4, #2
	str.w	r3, [r11, r0, lsl #3]
	str.w	r6, [r12, #4]
	beq	.Laes_v7m_BB30_12
@ %bb.11:                               @ %join.7.i.i.i.i.i.i.i.epil.2
	adds	r0, r7, #2
	add.w	r7, r1, r0, lsl #3
	ldr.w	r1, [r1, r0, lsl #3]
	ldr	r7, [r7, #4]
	add.w	r3, r11, r0, lsl #3
	str.w	r1, [r11, r0, lsl #3]
	str	r7, [r3, #4]
.Laes_v7m_BB30_12:                              @ %"key_wrap::wrapping::copy_apart.exit"
	ldr	r4, [sp, #108]
	ldr	r0, [r2, #4]
	ldr	r2, [r2]
	eor	r1, r5, #1
	orrs	r1, r4
	str	r0, [sp, #28]
	str	r2, [sp, #24]
	bne	.Laes_v7m_BB30_14
@ %bb.13:                               @ %"key_wrap::steps::unwrap_string::<#10c636071cb6e37c>.exit.thread"
	ldr.w	r3, [r11, #4]
	ldr.w	r1, [r11]
	strd	r2, r0, [sp, #32]
	str	r3, [sp, #44]
	ldr.w	r0, [r9]
	ldr.w	r2, [r9, #8]
	ldr.w	r3, [r9, #12]
	str	r1, [sp, #40]
	movs	r1, #0
	movs	r7, #1
	mov	r9, r4
	add	r4, sp, #32
	strd	r7, r1, [sp, #8]
	str	r4, [sp]
	bl	aes_v7m.aes_narrow.blocks.process_all_batches.2
	bl	aes_v7m.aes_cipher.zeroize.stack.wipe_stack.1024
	ldrd	r1, r0, [sp, #40]
	ldrd	r7, r6, [sp, #32]
	str.w	r0, [r11, #4]
	mov	r0, r4
	str.w	r1, [r11]
	bl	aes_v7m.aes_cipher.zeroize.elements.zeroize_elements.3
	mov	r0, r7
	mov	r1, r6
	mov	r2, r11
	strd	r5, r9, [sp]
	bl	aes_v7m.key_wrap.padded.difference
	orrs	r0, r1
	bne	.Laes_v7m_BB30_16
	b	.Laes_v7m_BB30_17
	.p2align	2
.Laes_v7m_BB30_14:                              @ %"key_wrap::steps::unwrap_string::<#10c636071cb6e37c>.exit"
	add	r1, sp, #24
	mov	r0, r9
	mov	r2, r11
	strd	r5, r4, [sp]
	bl	aes_v7m.key_wrap.steps.unwrap_in_place
	ldrd	r0, r6, [sp, #24]
	mov	r2, r11
	mov	r1, r6
	strd	r5, r4, [sp]
	bl	aes_v7m.key_wrap.padded.difference
	orrs	r0, r1
	beq	.Laes_v7m_BB30_17
@ %bb.15:                               @ %join.8.i.preheader
	mvn	r0, #7
	add.w	r2, r0, r5, lsl #3
	mov	r0, r11
	movs	r1, #0
	bl	memset
.Laes_v7m_BB30_16:                              @ %"core::slice::edits::slice+T::fill::<#1e8902aced0720be>.exit"
	add.w	r0, r11, r8, lsl #3
	movs	r1, #0
	str	r1, [r0, #4]
	movw	r0, #257
	str.w	r1, [r11, r8, lsl #3]
	strh.w	r0, [r10]
	str.w	r1, [r10, #4]
	add	sp, #52
	pop.w	{r4, r5, r6, r7, r8, r9, r10, r11, pc}
	.p2align	2
.Laes_v7m_BB30_17:                              @ %join.16
	movs	r1, #0
	rev	r0, r6
	strh.w	r1, [r10]
	str.w	r0, [r10, #4]
	add	sp, #52
	pop.w	{r4, r5, r6, r7, r8, r9, r10, r11, pc}
.Laes_v7m_func_end30:
	.size	aes_v7m.key_wrap.padded.unwrap_padded, .Laes_v7m_func_end30-aes_v7m.key_wrap.padded.unwrap_padded
	.cantunwind
	.fnend
                                        @ -- End function
	.section	.text.aes_v7m.key_wrap.padded.difference,"ax",%progbits
	.p2align	2                               @ -- Begin function key_wrap::padded::difference
	.type	aes_v7m.key_wrap.padded.difference,%function
	.code	16
	.thumb_func
aes_v7m.key_wrap.padded.difference:         @ @aes_v7m.key_wrap.padded.difference
	.fnstart
@ %bb.0:                                @ %start
	.save	{r4, r5, r6, r7, r8, r9, r10, lr}
	push.w	{r4, r5, r6, r7, r8, r9, r10, lr}
	ldrd	r3, r7, [sp, #32]
	rev.w	r8, r0
	rev	r0, r1
	lsls	r1, r7, #3
	rsbs	r9, r0, r3, lsl #3
	orr.w	r1, r1, r3, lsr #29
	add.w	r5, r2, r3, lsl #3
	and	r4, r9, #7
	sbc	r10, r1, #0
	ldrb	r6, [r5, #-1]
	movs	r0, #0
	mov	r1, r4
	bl	aes_v7m.key_wrap.padded.mask_below
	ldrb	r7, [r5, #-2]
	ands	r6, r0
	movs	r0, #1
	mov	r1, r4
	bl	aes_v7m.key_wrap.padded.mask_below
	ands	r0, r7
	ldrb	r7, [r5, #-3]
	orrs	r6, r0
	movs	r0, #2
	mov	r1, r4
	bl	aes_v7m.key_wrap.padded.mask_below
	ands	r0, r7
	ldrb	r7, [r5, #-4]
	orrs	r6, r0
	movs	r0, #3
	mov	r1, r4
	bl	aes_v7m.key_wrap.padded.mask_below
	ands	r0, r7
	ldrb	r7, [r5, #-5]
	orrs	r6, r0
	movs	r0, #4
	mov	r1, r4
	bl	aes_v7m.key_wrap.padded.mask_below
	ands	r0, r7
	ldrb	r7, [r5, #-6]
	orrs	r6, r0
	movs	r0, #5
	mov	r1, r4
	bl	aes_v7m.key_wrap.padded.mask_below
	ands	r0, r7
	ldrb	r7, [r5, #-7]
	orrs	r6, r0
	movs	r0, #6
	mov	r1, r4
	bl	aes_v7m.key_wrap.padded.mask_below
	ands	r0, r7
	ldrb	r5, [r5, #-8]
	orrs	r6, r0
	movs	r0, #7
	mov	r1, r4
	bl	aes_v7m.key_wrap.padded.mask_below
	movw	r1, #42586
	ands	r0, r5
	movt	r1, #22950
	lsr.w	r3, r9, #3
	orrs	r0, r6
	add.w	r2, r8, r1
	orr.w	r3, r3, r10, lsl #29
	orrs	r2, r3
	uxtb	r0, r0
	lsr.w	r1, r10, #3
	orrs	r0, r2
	pop.w	{r4, r5, r6, r7, r8, r9, r10, pc}
.Laes_v7m_func_end31:
	.size	aes_v7m.key_wrap.padded.difference, .Laes_v7m_func_end31-aes_v7m.key_wrap.padded.difference
	.cantunwind
	.fnend
                                        @ -- End function
	.section	.text.aes_v7m.key_wrap.padded.mask_below,"ax",%progbits
	.p2align	2                               @ -- Begin function key_wrap::padded::mask_below
	.type	aes_v7m.key_wrap.padded.mask_below,%function
	.code	16
	.thumb_func
aes_v7m.key_wrap.padded.mask_below:         @ @aes_v7m.key_wrap.padded.mask_below
	.fnstart
@ %bb.0:                                @ %start
	subs	r0, r0, r1
	lsrs	r0, r0, #24
	bx	lr
.Laes_v7m_func_end32:
	.size	aes_v7m.key_wrap.padded.mask_below, .Laes_v7m_func_end32-aes_v7m.key_wrap.padded.mask_below
	.cantunwind
	.fnend
                                        @ -- End function
	.section	.text.aes_v7m.aes_c.single_rounds.inverse_mixed,"ax",%progbits
	.p2align	2                               @ -- Begin function aes_c::single_rounds::inverse_mixed
	.type	aes_v7m.aes_c.single_rounds.inverse_mixed,%function
	.code	16
	.thumb_func
aes_v7m.aes_c.single_rounds.inverse_mixed:  @ @aes_v7m.aes_c.single_rounds.inverse_mixed
	.fnstart
@ %bb.0:                                @ %start
	.save	{r4, r5, r6, r7, r8, r9, r10, r11, lr}
	push.w	{r4, r5, r6, r7, r8, r9, r10, r11, lr}
	.pad	#52
	sub	sp, #52
	mov	r1, r0
	str	r0, [sp, #16]                   @ 4-byte Spill
	add	r0, sp, #20
	bl	aes_v7m.aes_planes.soft.word.word32.U32Word.in_every_slot
	add	r4, sp, #40
	ldrd	r12, r11, [sp, #20]
	ldr	r1, [sp, #36]
	ldm	r4, {r0, r2, r4}
	ldr	r5, [sp, #28]
	str	r1, [sp, #4]                    @ 4-byte Spill
	eor.w	r3, r11, r11, ror #8
	eor.w	r1, r1, r1, ror #8
	eor.w	r6, r0, r0, ror #8
	eor.w	r10, r2, r2, ror #8
	str	r6, [sp, #8]                    @ 4-byte Spill
	eor.w	lr, r3, r5
	eors	r0, r1
	eors	r6, r2
	eor.w	r8, r10, r4
	str	r0, [sp, #12]                   @ 4-byte Spill
	eor.w	r0, r8, r6
	eor.w	r1, r1, lr
	eor.w	r9, r0, r3
	eors	r0, r1
	eor.w	r1, r12, r12, ror #8
	eor.w	r3, r5, r5, ror #8
	eor.w	r5, r4, r4, ror #8
	eor.w	r7, r5, r12
	eor.w	r2, r1, r11
	eors	r1, r6
	eor.w	r4, r8, r3
	eors	r4, r7
	eor.w	r1, r1, r1, ror #16
	eor.w	r11, r1, r7
	eor.w	r1, lr, r4, ror #16
	ldr	r7, [sp, #32]
	eor.w	r12, r1, r4
	ldr	r1, [sp, #4]                    @ 4-byte Reload
	eor.w	lr, r3, r7
	eor.w	r3, r7, r7, ror #8
	eor.w	r7, r3, r1
	eors	r7, r5
	eor.w	r4, r7, r10
	eor.w	r7, r7, r0, ror #16
	eors	r0, r7
	eor.w	r7, r2, r5
	eors	r3, r6
	eor.w	r6, r6, r4, ror #16
	ldr	r1, [sp, #8]                    @ 4-byte Reload
	eors	r3, r7
	eors	r6, r4
	ror.w	r4, r9, #16
	eor.w	r4, r4, r11, lsr #1
	eor.w	r2, r8, r1
	ror.w	r1, r3, #16
	eors	r7, r4
	eor.w	r4, lr, r5
	eor.w	r1, r1, r12, lsr #1
	eors	r2, r4
	eors	r1, r4
	ldr	r4, [sp, #12]                   @ 4-byte Reload
	eors	r1, r3
	eor.w	r3, r5, r4
	ror.w	r5, r2, #16
	eor.w	r5, r5, r0, lsr #1
	eors	r5, r4
	mov.w	lr, #-1431655766
	eors	r2, r5
	and.w	r2, lr, r2, lsl #1
	eors	r0, r2
	ror.w	r2, r3, #16
	eor.w	r7, r7, r9
	eor.w	r2, r2, r6, lsr #1
	and.w	r7, lr, r7, lsl #1
	and.w	r1, lr, r1, lsl #1
	eor.w	r2, r2, r8
	eor.w	r7, r7, r11
	eor.w	r1, r1, r12
	eors	r2, r3
	and.w	r2, lr, r2, lsl #1
	eor.w	r3, r1, r7, lsr #2
	eors	r2, r6
	bic	r3, r3, #-858993460
	eor.w	r7, r7, r3, lsl #2
	eors	r1, r3
	eor.w	r3, r2, r0, lsr #2
	bic	r3, r3, #-858993460
	eor.w	r0, r0, r3, lsl #2
	eors	r2, r3
	eor.w	r3, r0, r7, lsr #4
	bic	r3, r3, #-252645136
	eor.w	r7, r7, r3, lsl #4
	eors	r0, r3
	eor.w	r3, r2, r1, lsr #4
	bic	r3, r3, #-252645136
	eor.w	r1, r1, r3, lsl #4
	eors	r2, r3
	ldr	r3, [sp, #16]                   @ 4-byte Reload
	str	r7, [r3]
	str	r1, [r3, #4]
	str	r0, [r3, #8]
	str	r2, [r3, #12]
	add	sp, #52
	pop.w	{r4, r5, r6, r7, r8, r9, r10, r11, pc}
.Laes_v7m_func_end33:
	.size	aes_v7m.aes_c.single_rounds.inverse_mixed, .Laes_v7m_func_end33-aes_v7m.aes_c.single_rounds.inverse_mixed
	.cantunwind
	.fnend
                                        @ -- End function
	.section	.text.aes_v7m.aes_c.single_rounds.inverse_round,"ax",%progbits
	.p2align	2                               @ -- Begin function aes_c::single_rounds::inverse_round
	.type	aes_v7m.aes_c.single_rounds.inverse_round,%function
	.code	16
	.thumb_func
aes_v7m.aes_c.single_rounds.inverse_round:  @ @aes_v7m.aes_c.single_rounds.inverse_round
	.fnstart
@ %bb.0:                                @ %start
	.save	{r4, r5, r6, r7, r8, r9, r10, r11, lr}
	push.w	{r4, r5, r6, r7, r8, r9, r10, r11, lr}
	.pad	#116
	sub	sp, #116
	str	r1, [sp, #68]                   @ 4-byte Spill
	mov	r1, r0
	str	r0, [sp, #72]                   @ 4-byte Spill
	add	r0, sp, #84
	bl	aes_v7m.aes_planes.soft.word.word32.U32Word.in_every_slot
	ldr	r1, [sp, #84]
	ldr	r2, [sp, #108]
	ldrd	r7, r0, [sp, #96]
	str	r1, [sp, #48]                   @ 4-byte Spill
	ldrd	r9, r5, [sp, #88]
	ldr	r3, [sp, #112]
	mvn.w	lr, r1
	mvns	r1, r2
	str	r2, [sp, #76]                   @ 4-byte Spill
	eor.w	r2, r0, r1
	str	r5, [sp, #40]                   @ 4-byte Spill
	str	r3, [sp, #44]                   @ 4-byte Spill
	eor.w	r4, r3, r1
	str	r2, [sp, #80]                   @ 4-byte Spill
	eor.w	r2, r3, r0
	eor.w	r3, r0, r7
	eor.w	r0, r5, r9
	eor.w	r5, r7, lr
	eor.w	r10, r4, r5
	eor.w	r12, r2, r1
	mvn.w	r11, r0
	eor.w	r0, r0, r10
	str	r2, [sp, #20]                   @ 4-byte Spill
	and.w	r8, r0, r3
	eor.w	r2, r12, r7
	eor.w	r0, r3, r11
	and.w	r1, r2, r0
	str	r2, [sp, #60]                   @ 4-byte Spill
	str	r0, [sp, #56]                   @ 4-byte Spill
	eor.w	r0, r8, r1
	and.w	r2, r10, r4
	str	r0, [sp, #8]                    @ 4-byte Spill
	ldr	r1, [sp, #104]
	eor.w	r0, r8, r2
	str	r0, [sp, #12]                   @ 4-byte Spill
	ldr	r0, [sp, #48]                   @ 4-byte Reload
	ldr	r2, [sp, #76]                   @ 4-byte Reload
	str.w	r12, [sp, #52]                  @ 4-byte Spill
	mvn.w	r12, r1
	eor.w	r1, r9, r0
	eor.w	r0, r7, r12
	eor.w	r7, r2, r9
	eor.w	r6, r0, r7
	eor.w	r2, r3, r1
	str	r6, [sp, #4]                    @ 4-byte Spill
	eor.w	r0, r3, lr
	orr.w	lr, r6, r2
	ldr	r6, [sp, #80]                   @ 4-byte Reload
	mov	r8, r3
	str	r0, [sp, #48]                   @ 4-byte Spill
	str	r3, [sp, #24]                   @ 4-byte Spill
	and.w	r3, r6, r0
	ldr	r0, [sp, #40]                   @ 4-byte Reload
	str	r2, [sp]                        @ 4-byte Spill
	eor.w	r2, r0, r12
	ldr	r0, [sp, #44]                   @ 4-byte Reload
	eor.w	lr, lr, r3
	eor.w	r3, r0, r2
	eor.w	r0, r6, r1
	str	r4, [sp, #64]                   @ 4-byte Spill
	str	r3, [sp, #28]                   @ 4-byte Spill
	eor.w	r9, r7, r5
	and.w	r7, r0, r3
	mov	r3, r0
	str	r0, [sp, #16]                   @ 4-byte Spill
	eors	r1, r4
	ldr	r4, [sp, #20]                   @ 4-byte Reload
	ldr	r0, [sp, #76]                   @ 4-byte Reload
	eors	r2, r6
	ands	r0, r4
	eor.w	r0, r0, r11
	eors	r5, r7
	str	r1, [sp, #44]                   @ 4-byte Spill
	ands	r1, r2
	eor.w	r0, r0, r10
	str.w	r11, [sp, #32]                  @ 4-byte Spill
	eor.w	r7, r5, r1
	eors	r0, r1
	ldr	r1, [sp, #8]                    @ 4-byte Reload
	ldrd	r6, r11, [sp]                   @ 8-byte Folded Reload
	str.w	r10, [sp, #36]                  @ 4-byte Spill
	eor.w	r10, r3, r12
	eor.w	r5, lr, r1
	eors	r0, r1
	and.w	r1, r11, r6
	and.w	r3, r10, r9
	eors	r1, r3
	str	r2, [sp, #40]                   @ 4-byte Spill
	eor.w	r1, r1, r12
	ldr	r2, [sp, #12]                   @ 4-byte Reload
	eor.w	r1, r1, r8
	eors	r7, r2
	eors	r2, r1
	and.w	lr, r0, r5
	eor.w	r1, r0, r7
	ands	r0, r2
	ands	r0, r1
	eor.w	r3, lr, r2
	eor.w	r0, r0, lr
	and.w	r12, r3, r1
	eors	r1, r0
	eor.w	r0, lr, r7
	eor.w	r3, r2, r5
	ands	r0, r3
	ands	r5, r7
	eors	r0, r2
	eor.w	r2, r12, r7
	ands	r5, r3
	eor.w	r12, r1, r2
	eor.w	r7, lr, r5
	and.w	r6, r6, r12
	and.w	r11, r11, r12
	eor.w	r5, r7, r3
	and.w	r3, r2, r9
	and.w	r12, r2, r10
	eor.w	lr, r2, r0
	ldr	r2, [sp, #80]                   @ 4-byte Reload
	str	r3, [sp, #12]                   @ 4-byte Spill
	and.w	r3, r1, r2
	ldr	r2, [sp, #28]                   @ 4-byte Reload
	eor.w	r8, r1, r5
	ands	r2, r0
	str	r2, [sp, #4]                    @ 4-byte Spill
	ldr	r2, [sp, #16]                   @ 4-byte Reload
	ldr	r7, [sp, #40]                   @ 4-byte Reload
	ands	r2, r0
	str	r2, [sp, #28]                   @ 4-byte Spill
	ldr	r2, [sp, #48]                   @ 4-byte Reload
	eors	r0, r5
	ands	r2, r1
	and.w	r1, r5, r4
	str	r1, [sp, #48]                   @ 4-byte Spill
	ldr	r1, [sp, #52]                   @ 4-byte Reload
	str	r3, [sp, #8]                    @ 4-byte Spill
	ands	r1, r5
	and.w	r5, r0, r7
	ldr	r7, [sp, #44]                   @ 4-byte Reload
	eor.w	r9, r11, r12
	ands	r0, r7
	str	r0, [sp, #52]                   @ 4-byte Spill
	ldr	r0, [sp, #24]                   @ 4-byte Reload
	eor.w	r12, r12, r5
	and.w	r0, r0, lr
	str	r0, [sp, #44]                   @ 4-byte Spill
	ldrd	r0, r4, [sp, #32]               @ 8-byte Folded Reload
	str	r6, [sp]                        @ 4-byte Spill
	eors	r0, r4
	and.w	r7, lr, r0
	ldr	r0, [sp, #56]                   @ 4-byte Reload
	eor.w	lr, lr, r8
	and.w	r10, lr, r0
	ldr	r0, [sp, #60]                   @ 4-byte Reload
	eor.w	r10, r10, r2
	eors	r2, r1
	eor.w	r1, r7, r3
	and.w	lr, lr, r0
	eor.w	r0, r1, r6
	and.w	r3, r8, r4
	ldr	r1, [sp, #4]                    @ 4-byte Reload
	str	r3, [sp, #60]                   @ 4-byte Spill
	eor.w	r3, r3, lr
	eor.w	r4, r10, r0
	eors	r5, r1
	eors	r0, r3
	eors	r5, r0
	eor.w	r6, r12, r2
	str	r5, [sp, #76]                   @ 4-byte Spill
	ldr	r5, [sp, #12]                   @ 4-byte Reload
	eor.w	r10, r6, r0
	eor.w	r0, r0, r9
	str	r0, [sp, #80]                   @ 4-byte Spill
	ldr	r0, [sp, #48]                   @ 4-byte Reload
	eors	r7, r5
	eor.w	r7, r7, r11
	eors	r0, r1
	eors	r7, r2
	ldr	r2, [sp, #28]                   @ 4-byte Reload
	ldr	r1, [sp, #44]                   @ 4-byte Reload
	eor.w	r9, lr, r11
	eor.w	lr, r1, r2
	ldr	r1, [sp]                        @ 4-byte Reload
	eors	r2, r0
	ldr	r5, [sp, #64]                   @ 4-byte Reload
	eor.w	r6, r2, r1
	eor.w	r1, r6, r3
	and.w	r6, r8, r5
	ldr	r5, [sp, #52]                   @ 4-byte Reload
	eor.w	r3, r12, r6
	eors	r5, r6
	ldr	r6, [sp, #8]                    @ 4-byte Reload
	eors	r3, r2
	eors	r0, r6
	ldr	r6, [sp, #60]                   @ 4-byte Reload
	eor.w	r2, r1, r7
	eors	r0, r6
	eors	r0, r5
	eor.w	r1, r9, r4
	eors	r4, r3
	eor.w	r3, lr, r5
	eor.w	r5, r0, r7
	movw	r0, #3072
	eor.w	r7, r3, r3, lsr #4
	movt	r0, #783
	ands	r7, r0
	orr.w	r7, r7, r7, lsl #4
	eor.w	r12, r7, r3
	eor.w	r3, r1, r1, lsr #4
	ands	r3, r0
	orr.w	r3, r3, r3, lsl #4
	eors	r3, r1
	eor.w	r1, r10, r10, lsr #4
	ands	r1, r0
	orr.w	r1, r1, r1, lsl #4
	eor.w	r7, r1, r10
	eor.w	r1, r4, r4, lsr #4
	ands	r1, r0
	orr.w	r1, r1, r1, lsl #4
	eor.w	r6, r1, r4
	ldr	r4, [sp, #76]                   @ 4-byte Reload
	eor.w	r1, r4, r4, lsr #4
	ands	r1, r0
	orr.w	r1, r1, r1, lsl #4
	eor.w	lr, r1, r4
	eor.w	r4, r2, r2, lsr #4
	ands	r4, r0
	orr.w	r4, r4, r4, lsl #4
	eors	r4, r2
	eor.w	r2, r5, r5, lsr #4
	ands	r2, r0
	ldr	r1, [sp, #80]                   @ 4-byte Reload
	orr.w	r2, r2, r2, lsl #4
	eors	r5, r2
	eor.w	r2, r1, r1, lsr #4
	ands	r0, r2
	orr.w	r0, r0, r0, lsl #4
	eor.w	r11, r0, r1
	eor.w	r0, r12, r12, lsr #2
	and	r0, r0, #855651072
	orr.w	r0, r0, r0, lsl #2
	eor.w	r8, r0, r12
	eor.w	r0, r3, r3, lsr #2
	and	r0, r0, #855651072
	orr.w	r0, r0, r0, lsl #2
	eor.w	r10, r0, r3
	eor.w	r0, r7, r7, lsr #2
	and	r0, r0, #855651072
	orr.w	r0, r0, r0, lsl #2
	eor.w	r12, r0, r7
	eor.w	r0, r6, r6, lsr #2
	and	r0, r0, #855651072
	orr.w	r0, r0, r0, lsl #2
	eor.w	r3, r0, r6
	eor.w	r0, lr, lr, lsr #2
	and	r0, r0, #855651072
	eor.w	r1, r5, r5, lsr #2
	orr.w	r0, r0, r0, lsl #2
	and	r1, r1, #855651072
	eor.w	r2, r0, lr
	eor.w	r0, r4, r4, lsr #2
	orr.w	r1, r1, r1, lsl #2
	and	r0, r0, #855651072
	eor.w	r6, r1, r5
	eor.w	r1, r11, r11, lsr #2
	orr.w	r0, r0, r0, lsl #2
	and	r1, r1, #855651072
	eors	r0, r4
	orr.w	r1, r1, r1, lsl #2
	str	r2, [sp, #80]                   @ 4-byte Spill
	eor.w	r5, r1, r11
	eor.w	r7, r10, r10, ror #8
	eor.w	r1, r2, r2, ror #8
	eor.w	r2, r0, r0, ror #8
	eor.w	lr, r6, r6, ror #8
	eor.w	r4, r7, r12
	eors	r0, r1
	eors	r6, r2
	eor.w	r11, lr, r5
	str	r0, [sp, #76]                   @ 4-byte Spill
	eor.w	r0, r11, r6
	eors	r1, r4
	str	r2, [sp, #64]                   @ 4-byte Spill
	eor.w	r9, r0, r7
	eor.w	r2, r1, r0
	eor.w	r0, r12, r12, ror #8
	eor.w	r12, r8, r8, ror #8
	eor.w	r5, r5, r5, ror #8
	eor.w	r1, r10, r12
	eor.w	r8, r8, r5
	str	r1, [sp, #60]                   @ 4-byte Spill
	mov	r1, r3
	eors	r3, r5
	eor.w	r10, r3, r0
	eor.w	r3, r6, r12
	eor.w	r0, r0, r8
	eor.w	r7, r8, r3, ror #16
	eor.w	r0, r0, r11
	eors	r3, r7
	eor.w	r7, r4, r0, ror #16
	eor.w	r12, r7, r0
	eor.w	r0, r1, r1, ror #8
	ldr	r1, [sp, #80]                   @ 4-byte Reload
	ldr.w	r8, [sp, #76]                   @ 4-byte Reload
	eor.w	r7, r0, r1
	eors	r7, r5
	ldr	r1, [sp, #60]                   @ 4-byte Reload
	eor.w	r4, lr, r7
	eor.w	r7, r7, r2, ror #16
	eor.w	lr, r7, r2
	eor.w	r7, r1, r5
	eors	r0, r7
	eors	r0, r6
	eor.w	r6, r6, r4, ror #16
	eors	r6, r4
	ror.w	r4, r9, #16
	ldr	r1, [sp, #64]                   @ 4-byte Reload
	eor.w	r4, r4, r3, lsr #1
	eors	r7, r4
	eor.w	r2, r10, r1
	ror.w	r4, r0, #16
	eor.w	r7, r7, r9
	mov.w	r9, #-1431655766
	eor.w	r2, r2, r11
	eor.w	r5, r5, r8
	and.w	r7, r9, r7, lsl #1
	eor.w	r4, r4, r12, lsr #1
	eors	r3, r7
	ror.w	r7, r2, #16
	eor.w	r4, r4, r10
	ror.w	r1, r5, #16
	eors	r0, r4
	eor.w	r7, r7, lr, lsr #1
	eor.w	r1, r1, r6, lsr #1
	and.w	r0, r9, r0, lsl #1
	eor.w	r7, r7, r8
	eors	r1, r5
	eor.w	r0, r0, r12
	eors	r2, r7
	eor.w	r1, r1, r11
	and.w	r2, r9, r2, lsl #1
	and.w	r1, r9, r1, lsl #1
	eor.w	r7, r0, r3, lsr #2
	eor.w	r2, r2, lr
	eors	r1, r6
	bic	r7, r7, #-858993460
	eor.w	r3, r3, r7, lsl #2
	eors	r7, r0
	eor.w	r0, r1, r2, lsr #2
	bic	r0, r0, #-858993460
	eor.w	r2, r2, r0, lsl #2
	eors	r1, r0
	eor.w	r0, r2, r3, lsr #4
	bic	r6, r0, #-252645136
	eor.w	r12, r3, r6, lsl #4
	eors	r6, r2
	eor.w	r2, r1, r7, lsr #4
	ldr	r0, [sp, #68]                   @ 4-byte Reload
	bic	r2, r2, #-252645136
	eor.w	r3, r2, r1
	ldrb	r1, [r0, #11]
	eor.w	r5, r7, r2, lsl #4
	ldrb	r2, [r0, #10]
	ldrb.w	r8, [r0, #9]
	eor.w	r1, r1, r6, lsr #24
	ldrb	r4, [r0, #8]
	str	r1, [sp, #80]                   @ 4-byte Spill
	eor.w	r1, r2, r6, lsr #16
	str	r1, [sp, #76]                   @ 4-byte Spill
	eor.w	r1, r8, r6, lsr #8
	ldrb.w	r9, [r0, #4]
	ldrb.w	r10, [r0, #5]
	ldrb.w	r11, [r0, #6]
	ldrb	r7, [r0, #7]
	str	r1, [sp, #64]                   @ 4-byte Spill
	eor.w	r1, r6, r4
	ldrb	r4, [r0, #15]
	ldrb.w	lr, [r0, #13]
	str	r1, [sp, #60]                   @ 4-byte Spill
	eor.w	r8, r7, r5, lsr #24
	eor.w	r11, r11, r5, lsr #16
	eor.w	r10, r10, r5, lsr #8
	eor.w	r5, r5, r9
	ldrb	r7, [r0, #14]
	eor.w	r9, r4, r3, lsr #24
	ldrb	r4, [r0, #12]
	ldrb	r1, [r0, #2]
	eor.w	r7, r7, r3, lsr #16
	eor.w	r6, lr, r3, lsr #8
	eor.w	lr, r3, r4
	ldrb	r4, [r0, #3]
	eor.w	r3, r1, r12, lsr #16
	ldrb	r2, [r0, #1]
	ldrb	r1, [r0]
	eor.w	r4, r4, r12, lsr #24
	eor.w	r0, r2, r12, lsr #8
	eor.w	r1, r1, r12
	ldr.w	r12, [sp, #72]                  @ 4-byte Reload
	strb.w	r0, [r12, #1]
	ldr	r0, [sp, #60]                   @ 4-byte Reload
	strb.w	r1, [r12]
	strb.w	r0, [r12, #8]
	ldr	r0, [sp, #64]                   @ 4-byte Reload
	strb.w	r3, [r12, #2]
	strb.w	r0, [r12, #9]
	ldr	r0, [sp, #76]                   @ 4-byte Reload
	strb.w	r4, [r12, #3]
	strb.w	r0, [r12, #10]
	ldr	r0, [sp, #80]                   @ 4-byte Reload
	strb.w	r5, [r12, #4]
	strb.w	r10, [r12, #5]
	strb.w	r11, [r12, #6]
	strb.w	r8, [r12, #7]
	strb.w	r0, [r12, #11]
	strb.w	lr, [r12, #12]
	strb.w	r6, [r12, #13]
	strb.w	r7, [r12, #14]
	strb.w	r9, [r12, #15]
	add	sp, #116
	pop.w	{r4, r5, r6, r7, r8, r9, r10, r11, pc}
.Laes_v7m_func_end34:
	.size	aes_v7m.aes_c.single_rounds.inverse_round, .Laes_v7m_func_end34-aes_v7m.aes_c.single_rounds.inverse_round
	.cantunwind
	.fnend
                                        @ -- End function
	.section	.text.aes_v7m.aes_c.single_rounds.inverse_rounds,"ax",%progbits
	.p2align	2                               @ -- Begin function aes_c::single_rounds::inverse_rounds
	.type	aes_v7m.aes_c.single_rounds.inverse_rounds,%function
	.code	16
	.thumb_func
aes_v7m.aes_c.single_rounds.inverse_rounds: @ @aes_v7m.aes_c.single_rounds.inverse_rounds
	.fnstart
@ %bb.0:                                @ %start
	.save	{r4, r5, r6, r7, r8, r9, r10, r11, lr}
	push.w	{r4, r5, r6, r7, r8, r9, r10, r11, lr}
	.pad	#104
	sub	sp, #104
	movs	r7, #0
	movs	r6, #0
	str	r1, [sp]                        @ 4-byte Spill
	str	r0, [sp, #100]                  @ 4-byte Spill
	.p2align	2
.Laes_v7m_BB35_1:                               @ %join.5.i.i
                                        @ =>This Inner Loop Header: Depth=1
	lsls	r1, r7, #4
	add.w	r3, r0, r7, lsl #4
	strd	r6, r7, [sp, #84]               @ 8-byte Folded Spill
	ldr	r0, [r0, r1]
	ldr	r7, [r3, #16]
	str	r1, [sp, #76]                   @ 4-byte Spill
	str	r3, [sp, #80]                   @ 4-byte Spill
	ldr	r1, [r3, #4]
	ldr	r2, [r3, #8]
	ldr.w	r12, [r3, #12]
	ldr	r6, [r3, #20]
	ldr	r5, [r3, #24]
	ldr	r4, [r3, #28]
	eor.w	r3, r7, r0, lsr #1
	bic	r3, r3, #-1431655766
	eor.w	lr, r3, r7
	eor.w	r7, r6, r1, lsr #1
	bic	r7, r7, #-1431655766
	eor.w	r1, r1, r7, lsl #1
	eors	r7, r6
	eor.w	r6, r5, r2, lsr #1
	bic	r6, r6, #-1431655766
	eor.w	r2, r2, r6, lsl #1
	eors	r6, r5
	eor.w	r5, r4, r12, lsr #1
	eor.w	r0, r0, r3, lsl #1
	bic	r5, r5, #-1431655766
	eor.w	r3, r12, r5, lsl #1
	eors	r5, r4
	eor.w	r4, r1, r0, lsr #2
	bic	r4, r4, #-858993460
	eor.w	r0, r0, r4, lsl #2
	eor.w	r12, r4, r1
	eor.w	r4, r3, r2, lsr #2
	bic	r4, r4, #-858993460
	eor.w	r2, r2, r4, lsl #2
	eors	r3, r4
	eor.w	r4, r7, lr, lsr #2
	bic	r4, r4, #-858993460
	eor.w	r1, lr, r4, lsl #2
	eors	r4, r7
	eor.w	r7, r5, r6, lsr #2
	bic	r7, r7, #-858993460
	eor.w	r6, r6, r7, lsl #2
	eors	r5, r7
	eor.w	r7, r2, r0, lsr #4
	bic	r7, r7, #-252645136
	eor.w	r8, r0, r7, lsl #4
	eor.w	r0, r6, r1, lsr #4
	bic	r0, r0, #-252645136
	eor.w	r9, r1, r0, lsl #4
	eor.w	r1, r3, r12, lsr #4
	bic	r1, r1, #-252645136
	eors	r7, r2
	eor.w	r2, r12, r1, lsl #4
	eors	r3, r1
	eor.w	r1, r5, r4, lsr #4
	bic	r1, r1, #-252645136
	eor.w	r12, r4, r1, lsl #4
	eors	r5, r1
	eors	r0, r6
	mvns	r1, r3
	str	r0, [sp, #56]                   @ 4-byte Spill
	eor.w	r0, r7, r1
	mvn.w	r6, r8
	str.w	r8, [sp, #40]                   @ 4-byte Spill
	eor.w	r4, r5, r1
	str	r0, [sp, #92]                   @ 4-byte Spill
	eor.w	r0, r7, r5
	eor.w	r8, r12, r6
	str	r0, [sp, #96]                   @ 4-byte Spill
	eors	r0, r1
	eor.w	r1, r9, r2
	eor.w	r10, r8, r4
	str	r2, [sp, #48]                   @ 4-byte Spill
	eor.w	lr, r7, r12
	mvns	r2, r1
	eor.w	r1, r1, r10
	str	r5, [sp, #52]                   @ 4-byte Spill
	str	r0, [sp, #60]                   @ 4-byte Spill
	mov	r5, r9
	mov	r9, r4
	and.w	r4, r1, lr
	eor.w	r0, r0, r12
	eor.w	r1, lr, r2
	str	r1, [sp, #64]                   @ 4-byte Spill
	ands	r1, r0
	str	r0, [sp, #68]                   @ 4-byte Spill
	eor.w	r0, r4, r1
	str	r0, [sp, #20]                   @ 4-byte Spill
	and.w	r0, r10, r9
	eors	r0, r4
	str	r0, [sp, #24]                   @ 4-byte Spill
	ldr	r0, [sp, #56]                   @ 4-byte Reload
	str	r3, [sp, #28]                   @ 4-byte Spill
	mvns	r3, r0
	ldr	r0, [sp, #40]                   @ 4-byte Reload
	str	r2, [sp, #16]                   @ 4-byte Spill
	mov	r1, r5
	eor.w	r2, r0, r5
	ldr	r5, [sp, #28]                   @ 4-byte Reload
	eor.w	r0, r12, r3
	eor.w	r7, r1, r5
	eors	r0, r7
	eor.w	r1, r2, lr
	str	r0, [sp, #8]                    @ 4-byte Spill
	str	r1, [sp, #12]                   @ 4-byte Spill
	orrs	r1, r0
	ldr	r0, [sp, #92]                   @ 4-byte Reload
	eor.w	r4, lr, r6
	str	r4, [sp, #56]                   @ 4-byte Spill
	ands	r4, r0
	eor.w	r11, r1, r4
	ldr	r1, [sp, #48]                   @ 4-byte Reload
	eor.w	r12, r2, r0
	eor.w	r4, r1, r3
	ldr	r1, [sp, #52]                   @ 4-byte Reload
	str.w	r10, [sp, #44]                  @ 4-byte Spill
	eor.w	r6, r4, r1
	eor.w	r1, r8, r7
	str	r1, [sp, #4]                    @ 4-byte Spill
	and.w	r7, r12, r6
	eor.w	r1, r2, r9
	eor.w	r2, r0, r4
	str	r6, [sp, #40]                   @ 4-byte Spill
	eor.w	r6, r7, r8
	ldr	r0, [sp, #96]                   @ 4-byte Reload
	and.w	r7, r1, r2
	str	r1, [sp, #52]                   @ 4-byte Spill
	eor.w	r1, r6, r7
	ldr	r6, [sp, #16]                   @ 4-byte Reload
	ands	r0, r5
	eors	r0, r6
	str.w	r12, [sp, #32]                  @ 4-byte Spill
	str	r2, [sp, #48]                   @ 4-byte Spill
	eor.w	r0, r0, r10
	ldr	r2, [sp, #20]                   @ 4-byte Reload
	ldrd	r8, r10, [sp, #8]               @ 8-byte Folded Reload
	eor.w	r5, r12, r3
	ldr.w	r12, [sp, #4]                   @ 4-byte Reload
	eors	r0, r7
	eor.w	r11, r11, r2
	eors	r0, r2
	and.w	r2, r10, r8
	and.w	r7, r5, r12
	eors	r2, r7
	eors	r2, r3
	ldr	r3, [sp, #24]                   @ 4-byte Reload
	eor.w	r2, r2, lr
	eors	r1, r3
	eor.w	r7, r2, r3
	eor.w	r2, r0, r1
	and.w	r3, r0, r11
	ands	r0, r2
	ands	r0, r7
	eor.w	r4, r7, r3
	eors	r0, r3
	str.w	r9, [sp, #72]                   @ 4-byte Spill
	str.w	lr, [sp, #36]                   @ 4-byte Spill
	and.w	lr, r4, r2
	eors	r2, r0
	eor.w	r0, r3, r1
	eor.w	r9, r7, r11
	and.w	r0, r0, r9
	eors	r0, r7
	eor.w	r7, lr, r1
	and.w	r1, r1, r11
	eor.w	r4, r2, r7
	and.w	r1, r1, r9
	and.w	r10, r10, r4
	and.w	r4, r4, r8
	eors	r1, r3
	str	r4, [sp, #24]                   @ 4-byte Spill
	eor.w	r4, r1, r9
	and.w	r1, r7, r12
	str	r1, [sp, #28]                   @ 4-byte Spill
	ldr	r1, [sp, #92]                   @ 4-byte Reload
	eor.w	r11, r4, r2
	and.w	r8, r2, r1
	ldr	r1, [sp, #40]                   @ 4-byte Reload
	ldr	r3, [sp, #48]                   @ 4-byte Reload
	and.w	r9, r0, r1
	ldr	r1, [sp, #32]                   @ 4-byte Reload
	and.w	lr, r7, r5
	ands	r1, r0
	str	r1, [sp, #92]                   @ 4-byte Spill
	ldr	r1, [sp, #56]                   @ 4-byte Reload
	eors	r7, r0
	ands	r1, r2
	ldr	r2, [sp, #96]                   @ 4-byte Reload
	eors	r0, r4
	ands	r2, r4
	str	r2, [sp, #56]                   @ 4-byte Spill
	ldr	r2, [sp, #60]                   @ 4-byte Reload
	ldr	r5, [sp, #44]                   @ 4-byte Reload
	ands	r4, r2
	and.w	r2, r0, r3
	ldr	r3, [sp, #52]                   @ 4-byte Reload
	eors	r6, r5
	ands	r0, r3
	str	r0, [sp, #60]                   @ 4-byte Spill
	ldr	r0, [sp, #36]                   @ 4-byte Reload
	and.w	r3, r7, r6
	ands	r0, r7
	str	r0, [sp, #52]                   @ 4-byte Spill
	ldr	r0, [sp, #64]                   @ 4-byte Reload
	eor.w	r6, r11, r7
	and.w	r7, r6, r0
	ldr	r0, [sp, #68]                   @ 4-byte Reload
	str.w	r8, [sp, #20]                   @ 4-byte Spill
	eors	r7, r1
	eor.w	r12, r4, r1
	ands	r6, r0
	eor.w	r1, r3, r8
	and.w	r8, r11, r5
	ldr	r4, [sp, #24]                   @ 4-byte Reload
	eor.w	r0, r1, r10
	eor.w	r1, r6, r8
	str.w	r10, [sp, #12]                  @ 4-byte Spill
	eor.w	r10, r4, lr
	eor.w	lr, lr, r2
	eors	r7, r0
	eor.w	r2, r2, r9
	eors	r0, r1
	eors	r2, r0
	str	r2, [sp, #96]                   @ 4-byte Spill
	ldr	r2, [sp, #28]                   @ 4-byte Reload
	eor.w	r5, lr, r12
	eors	r5, r0
	eor.w	r10, r10, r0
	ldr	r0, [sp, #56]                   @ 4-byte Reload
	eors	r3, r2
	eors	r3, r4
	eor.w	r0, r0, r9
	eor.w	r9, r6, r4
	eor.w	r2, r3, r12
	ldr	r3, [sp, #92]                   @ 4-byte Reload
	ldr	r6, [sp, #52]                   @ 4-byte Reload
	ldr	r4, [sp, #12]                   @ 4-byte Reload
	eor.w	r12, r6, r3
	eors	r3, r0
	eors	r4, r3
	eors	r1, r4
	ldr	r4, [sp, #72]                   @ 4-byte Reload
	ldr	r6, [sp, #60]                   @ 4-byte Reload
	and.w	r4, r4, r11
	eors	r6, r4
	eor.w	r4, r4, lr
	eors	r3, r4
	eor.w	r4, r9, r7
	eors	r3, r7
	ldr	r7, [sp, #20]                   @ 4-byte Reload
	eors	r1, r2
	eors	r0, r7
	eor.w	r0, r0, r8
	eor.w	r7, r12, r6
	eors	r0, r6
	movw	r6, #3072
	eors	r0, r2
	eor.w	r2, r7, r7, lsr #4
	movt	r6, #783
	ands	r2, r6
	add.w	r2, r2, r2, lsl #4
	eor.w	r12, r2, r7
	eor.w	r2, r4, r4, lsr #4
	ands	r2, r6
	add.w	r2, r2, r2, lsl #4
	eor.w	lr, r2, r4
	eor.w	r2, r5, r5, lsr #4
	ands	r2, r6
	add.w	r2, r2, r2, lsl #4
	eor.w	r7, r2, r5
	eor.w	r2, r3, r3, lsr #4
	ands	r2, r6
	add.w	r2, r2, r2, lsl #4
	eor.w	r5, r2, r3
	ldr	r3, [sp, #96]                   @ 4-byte Reload
	eor.w	r2, r3, r3, lsr #4
	ands	r2, r6
	add.w	r2, r2, r2, lsl #4
	eors	r2, r3
	eor.w	r3, r1, r1, lsr #4
	ands	r3, r6
	add.w	r3, r3, r3, lsl #4
	eor.w	r4, r3, r1
	eor.w	r1, r0, r0, lsr #4
	ands	r1, r6
	add.w	r1, r1, r1, lsl #4
	eors	r0, r1
	eor.w	r1, r10, r10, lsr #4
	ands	r1, r6
	add.w	r1, r1, r1, lsl #4
	eor.w	r6, r1, r10
	eor.w	r1, r12, r12, lsr #2
	and	r1, r1, #855651072
	orr.w	r1, r1, r1, lsl #2
	eor.w	r12, r12, r1
	eor.w	r1, lr, lr, lsr #2
	and	r1, r1, #855651072
	orr.w	r1, r1, r1, lsl #2
	eor.w	r9, r1, lr
	eor.w	r1, r7, r7, lsr #2
	and	r1, r1, #855651072
	orr.w	r1, r1, r1, lsl #2
	eor.w	r11, r1, r7
	eor.w	r1, r5, r5, lsr #2
	and	r1, r1, #855651072
	orr.w	r1, r1, r1, lsl #2
	eors	r5, r1
	eor.w	r1, r2, r2, lsr #2
	and	r1, r1, #855651072
	orr.w	r1, r1, r1, lsl #2
	eor.w	r3, r1, r2
	eor.w	r2, r0, r0, lsr #2
	eor.w	r1, r4, r4, lsr #2
	and	r2, r2, #855651072
	and	r1, r1, #855651072
	orr.w	r2, r2, r2, lsl #2
	orr.w	r1, r1, r1, lsl #2
	eors	r2, r0
	eor.w	r0, r6, r6, lsr #2
	eors	r1, r4
	and	r0, r0, #855651072
	orr.w	r0, r0, r0, lsl #2
	eor.w	r7, r1, r1, ror #8
	eors	r6, r0
	str	r7, [sp, #72]                   @ 4-byte Spill
	eor.w	r0, r2, r2, ror #8
	eor.w	r4, r7, r2
	eor.w	r7, r9, r9, ror #8
	str	r3, [sp, #96]                   @ 4-byte Spill
	eor.w	r3, r3, r3, ror #8
	eor.w	r10, r7, r11
	eor.w	r2, r0, r6
	str	r0, [sp, #68]                   @ 4-byte Spill
	eors	r1, r3
	eor.w	r0, r2, r4
	eor.w	r3, r3, r10
	eors	r7, r0
	eor.w	lr, r3, r0
	eor.w	r6, r6, r6, ror #8
	eor.w	r0, r12, r12, ror #8
	str	r1, [sp, #92]                   @ 4-byte Spill
	eor.w	r11, r11, r11, ror #8
	eor.w	r1, r6, r12
	eor.w	r9, r9, r0
	eors	r0, r4
	eor.w	r8, r6, r5
	eor.w	r3, r1, r11
	eor.w	r1, r1, r0, ror #16
	eor.w	r8, r8, r11
	eor.w	r11, r1, r0
	eor.w	r9, r9, r6
	ldr	r0, [sp, #96]                   @ 4-byte Reload
	eor.w	r1, r5, r5, ror #8
	eor.w	r5, r9, r7, ror #16
	eors	r0, r1
	eor.w	r1, r1, r9
	eor.w	r12, r5, r7
	eor.w	r5, r3, r2
	ldr	r3, [sp, #72]                   @ 4-byte Reload
	eor.w	r7, r10, r5, ror #16
	eors	r1, r4
	eors	r5, r7
	eor.w	r7, r2, r3
	eor.w	r3, r8, r1, ror #16
	eor.w	r7, r7, r8
	eor.w	r8, r3, r1
	eor.w	r1, r0, r6
	ldr	r0, [sp, #68]                   @ 4-byte Reload
	str.w	r12, [sp, #96]                  @ 4-byte Spill
	eor.w	r3, r1, r0
	ldr	r0, [sp, #92]                   @ 4-byte Reload
	eor.w	r1, r1, lr, ror #16
	eors	r6, r0
	eor.w	r0, r0, r7, ror #16
	eors	r7, r0
	eor.w	r0, r4, r3, ror #16
	eor.w	r2, r2, r6, ror #16
	eors	r0, r3
	eor.w	r3, r2, r6
	eor.w	r2, r12, r11, lsr #1
	eor.w	r1, r1, lr
	bic	r10, r2, #-1431655766
	eor.w	r2, r8, r5, lsr #1
	bic	r12, r2, #-1431655766
	eor.w	r2, r7, r1, lsr #1
	bic	lr, r2, #-1431655766
	eor.w	r2, r3, r0, lsr #1
	eor.w	r6, r11, r10, lsl #1
	eor.w	r11, r5, r12, lsl #1
	bic	r2, r2, #-1431655766
	eor.w	r1, r1, lr, lsl #1
	eor.w	r5, r0, r2, lsl #1
	eor.w	r0, r11, r6, lsr #2
	str	r3, [sp, #68]                   @ 4-byte Spill
	bic	r3, r0, #-858993460
	eor.w	r0, r5, r1, lsr #2
	bic	r0, r0, #-858993460
	str	r7, [sp, #92]                   @ 4-byte Spill
	eor.w	r7, r6, r3, lsl #2
	eor.w	r9, r1, r0, lsl #2
	eor.w	r1, r9, r7, lsr #4
	str.w	r8, [sp, #72]                   @ 4-byte Spill
	bic	r1, r1, #-252645136
	ldr	r4, [sp, #100]                  @ 4-byte Reload
	ldr.w	r8, [sp, #76]                   @ 4-byte Reload
	eor.w	r7, r7, r1, lsl #4
	str.w	r7, [r4, r8]
	ldr	r4, [sp, #96]                   @ 4-byte Reload
	ldr	r6, [sp, #92]                   @ 4-byte Reload
	eor.w	r7, r10, r4
	ldr	r4, [sp, #72]                   @ 4-byte Reload
	eor.w	r8, r3, r11
	eor.w	r4, r4, r12
	eor.w	r12, lr, r6
	ldr	r6, [sp, #68]                   @ 4-byte Reload
	eor.w	lr, r0, r5
	eor.w	r5, r4, r7, lsr #2
	eors	r2, r6
	bic	r5, r5, #-858993460
	eor.w	r7, r7, r5, lsl #2
	eors	r5, r4
	eor.w	r4, r2, r12, lsr #2
	bic	r4, r4, #-858993460
	eor.w	r3, r12, r4, lsl #2
	eor.w	r6, r3, r7, lsr #4
	bic	r6, r6, #-252645136
	eor.w	r12, r6, r3
	eor.w	r3, lr, r8, lsr #4
	eors	r2, r4
	bic	r4, r3, #-252645136
	eor.w	r7, r7, r6, lsl #4
	eor.w	r3, r8, r4, lsl #4
	eor.w	r6, r4, lr
	eor.w	r4, r2, r5, lsr #4
	bic	r4, r4, #-252645136
	eor.w	r5, r5, r4, lsl #4
	eors	r2, r4
	ldr	r4, [sp, #80]                   @ 4-byte Reload
	eor.w	r1, r1, r9
	str	r3, [r4, #4]
	ldr	r3, [sp, #88]                   @ 4-byte Reload
	str	r1, [r4, #8]
	ldr	r1, [sp, #84]                   @ 4-byte Reload
	str	r7, [r4, #16]
	adds	r7, r3, #2
	ldr	r0, [sp, #100]                  @ 4-byte Reload
	str	r6, [r4, #12]
	adc	r6, r1, #0
	subs	r3, #6
	sbcs	r1, r1, #0
	str	r5, [r4, #20]
	str.w	r12, [r4, #24]
	str	r2, [r4, #28]
	blo.w	.Laes_v7m_BB35_1
@ %bb.2:                                @ %join.5.i2.i.preheader
	movs	r1, #0
	movs	r7, #0
	.p2align	2
.Laes_v7m_BB35_3:                               @ %join.5.i2.i
                                        @ =>This Inner Loop Header: Depth=1
	mov	r8, r1
	lsls	r5, r1, #4
	ldr	r1, [sp]                        @ 4-byte Reload
	str	r7, [sp, #64]                   @ 4-byte Spill
	add.w	r7, r1, r8, lsl #4
	ldrb	r3, [r7, #1]
	ldrb	r2, [r0, r5]
	str	r3, [sp, #96]                   @ 4-byte Spill
	ldrb	r3, [r7, #2]
	ldrb	r1, [r1, r5]
	str	r3, [sp, #92]                   @ 4-byte Spill
	ldrb	r3, [r7, #3]
	add.w	r12, r0, r8, lsl #4
	str	r3, [sp, #88]                   @ 4-byte Spill
	ldrb	r3, [r7, #4]
	eors	r1, r2
	str	r3, [sp, #84]                   @ 4-byte Spill
	ldrb	r3, [r7, #5]
	ldrb.w	r10, [r7, #15]
	str	r3, [sp, #80]                   @ 4-byte Spill
	ldrb	r3, [r7, #6]
	ldrb.w	r11, [r12, #15]
	str	r3, [sp, #76]                   @ 4-byte Spill
	ldrb	r3, [r7, #7]
	ldrb	r6, [r7, #9]
	str	r3, [sp, #68]                   @ 4-byte Spill
	ldrb	r3, [r7, #8]
	ldrb.w	lr, [r7, #11]
	str	r3, [sp, #60]                   @ 4-byte Spill
	ldrb	r3, [r7, #10]
	ldrb	r2, [r7, #12]
	ldrb.w	r9, [r7, #13]
	ldrb	r4, [r7, #14]
	strb	r1, [r0, r5]
	ldrb.w	r1, [r12, #14]
	eor.w	r0, r10, r11
	ldrb.w	r5, [r12, #13]
	str	r0, [sp, #72]                   @ 4-byte Spill
	eor.w	r0, r4, r1
	str	r0, [sp, #56]                   @ 4-byte Spill
	eor.w	r0, r9, r5
	ldrb.w	r5, [r12, #12]
	ldrb.w	r7, [r12, #11]
	str	r0, [sp, #52]                   @ 4-byte Spill
	eor.w	r0, r2, r5
	str	r0, [sp, #48]                   @ 4-byte Spill
	eor.w	r0, lr, r7
	ldrb.w	r7, [r12, #9]
	str	r0, [sp, #44]                   @ 4-byte Spill
	eor.w	r9, r6, r7
	ldrb.w	r6, [r12, #8]
	ldr	r0, [sp, #60]                   @ 4-byte Reload
	ldrb.w	r4, [r12, #7]
	eors	r6, r0
	ldr	r0, [sp, #68]                   @ 4-byte Reload
	ldrb.w	r5, [r12, #10]
	eors	r4, r0
	ldrb.w	r1, [r12, #6]
	ldr	r0, [sp, #76]                   @ 4-byte Reload
	eor.w	r10, r3, r5
	ldrb.w	r5, [r12, #5]
	eor.w	lr, r0, r1
	ldr	r0, [sp, #80]                   @ 4-byte Reload
	ldr	r2, [sp, #84]                   @ 4-byte Reload
	eors	r5, r0
	ldrb.w	r0, [r12, #4]
	ldrb.w	r1, [r12, #3]
	eors	r0, r2
	ldr	r2, [sp, #88]                   @ 4-byte Reload
	ldr	r7, [sp, #92]                   @ 4-byte Reload
	eor.w	r3, r2, r1
	ldrb.w	r1, [r12, #2]
	ldrb.w	r2, [r12, #1]
	eors	r1, r7
	strb.w	r1, [r12, #2]
	ldr	r1, [sp, #44]                   @ 4-byte Reload
	ldr.w	r11, [sp, #96]                  @ 4-byte Reload
	strb.w	r1, [r12, #11]
	ldr	r1, [sp, #48]                   @ 4-byte Reload
	eor.w	r2, r2, r11
	strb.w	r1, [r12, #12]
	ldr	r1, [sp, #52]                   @ 4-byte Reload
	strb.w	r2, [r12, #1]
	strb.w	r1, [r12, #13]
	ldr	r1, [sp, #56]                   @ 4-byte Reload
	ldr	r2, [sp, #64]                   @ 4-byte Reload
	strb.w	r1, [r12, #14]
	adds.w	r1, r8, #1
	strb.w	r3, [r12, #3]
	adc	r7, r2, #0
	subs.w	r3, r8, #7
	sbcs	r2, r2, #0
	strb.w	r0, [r12, #4]
	ldr	r0, [sp, #100]                  @ 4-byte Reload
	ldr	r2, [sp, #72]                   @ 4-byte Reload
	strb.w	r5, [r12, #5]
	strb.w	lr, [r12, #6]
	strb.w	r4, [r12, #7]
	strb.w	r6, [r12, #8]
	strb.w	r9, [r12, #9]
	strb.w	r10, [r12, #10]
	strb.w	r2, [r12, #15]
	blo.w	.Laes_v7m_BB35_3
@ %bb.4:                                @ %"aes_soft::soft::hazmat::par::equiv_inv_cipher_round_par::<#e817d94f9a7b6ba6>.exit"
	add	sp, #104
	pop.w	{r4, r5, r6, r7, r8, r9, r10, r11, pc}
.Laes_v7m_func_end35:
	.size	aes_v7m.aes_c.single_rounds.inverse_rounds, .Laes_v7m_func_end35-aes_v7m.aes_c.single_rounds.inverse_rounds
	.cantunwind
	.fnend
                                        @ -- End function
	.section	.text.aes_v7m.cmac.pieces.Message.is_tag_so_far,"ax",%progbits
	.p2align	2                               @ -- Begin function cmac::pieces::Message::is_tag_so_far::<#4f733d09d7f6c6b4>
	.type	aes_v7m.cmac.pieces.Message.is_tag_so_far,%function
	.code	16
	.thumb_func
aes_v7m.cmac.pieces.Message.is_tag_so_far: @ @aes_v7m.cmac.pieces.Message.is_tag_so_far
	.fnstart
@ %bb.0:                                @ %start
	.save	{r4, r5, r6, r7, r8, lr}
	push.w	{r4, r5, r6, r7, r8, lr}
	.pad	#40
	sub	sp, #40
	mov	r4, r2
	ldrd	r7, r2, [r0, #8]
	movs	r3, #16
	cmp	r7, #16
	it	hs
	movhs	r7, r3
	add	r6, sp, #8
	ldr.w	r8, [sp, #64]
	cmp	r2, #0
	it	ne
	movne	r7, r3
	add.w	r2, r0, #16
	add.w	r3, r0, #32
	movs	r5, #0
	mov	r0, r6
	strd	r7, r5, [sp]
	bl	aes_v7m.cmac.tags.tag_at_end
	ldr	r2, [sp, #20]
	add	r3, sp, #8
	ldm	r3, {r0, r1, r3}
	str	r2, [sp, #36]
	add	r2, sp, #24
	add	r7, sp, #24
	stm	r2!, {r0, r1, r3}
	mov	r0, r7
	mov	r1, r4
	mov	r2, r8
	bl	memcpy
	mov	r0, r7
	mov	r1, r6
	bl	aes_v7m.aes_cipher.blocks.difference
	clz	r0, r0
	lsrs	r0, r0, #5
	add	sp, #40
	pop.w	{r4, r5, r6, r7, r8, pc}
.Laes_v7m_func_end36:
	.size	aes_v7m.cmac.pieces.Message.is_tag_so_far, .Laes_v7m_func_end36-aes_v7m.cmac.pieces.Message.is_tag_so_far
	.cantunwind
	.fnend
                                        @ -- End function
	.section	.text.aes_v7m.cmac.tags.is_tag_start,"ax",%progbits
	.p2align	2                               @ -- Begin function cmac::tags::is_tag_start::<#4f733d09d7f6c6b4>
	.type	aes_v7m.cmac.tags.is_tag_start,%function
	.code	16
	.thumb_func
aes_v7m.cmac.tags.is_tag_start: @ @aes_v7m.cmac.tags.is_tag_start
	.fnstart
@ %bb.0:                                @ %start
	.save	{r4, r5, r6, r7, lr}
	push	{r4, r5, r6, r7, lr}
	.pad	#44
	sub	sp, #44
	add	r6, sp, #12
	mov	r12, r2
	mov	r2, r1
	ldr	r4, [sp, #64]
	ldr	r5, [sp, #72]
	mov	r1, r0
	mov	r0, r6
	strd	r12, r3, [sp]
	bl	aes_v7m.cmac.tags.tag
	ldr	r2, [sp, #24]
	add	r3, sp, #12
	ldm	r3, {r0, r1, r3}
	str	r2, [sp, #40]
	add	r2, sp, #28
	add	r7, sp, #28
	stm	r2!, {r0, r1, r3}
	mov	r0, r7
	mov	r1, r4
	mov	r2, r5
	bl	memcpy
	mov	r0, r7
	mov	r1, r6
	bl	aes_v7m.aes_cipher.blocks.difference
	clz	r0, r0
	lsrs	r0, r0, #5
	add	sp, #44
	pop	{r4, r5, r6, r7, pc}
.Laes_v7m_func_end37:
	.size	aes_v7m.cmac.tags.is_tag_start, .Laes_v7m_func_end37-aes_v7m.cmac.tags.is_tag_start
	.cantunwind
	.fnend
                                        @ -- End function
	.section	.text.aes_v7m.aes_c.single_rounds.mixed,"ax",%progbits
	.p2align	2                               @ -- Begin function aes_c::single_rounds::mixed
	.type	aes_v7m.aes_c.single_rounds.mixed,%function
	.code	16
	.thumb_func
aes_v7m.aes_c.single_rounds.mixed:          @ @aes_v7m.aes_c.single_rounds.mixed
	.fnstart
@ %bb.0:                                @ %start
	.save	{r4, r5, r6, r7, r8, r9, r10, r11, lr}
	push.w	{r4, r5, r6, r7, r8, r9, r10, r11, lr}
	.pad	#36
	sub	sp, #36
	mov	r4, r0
	add	r0, sp, #4
	mov	r1, r4
	bl	aes_v7m.aes_planes.soft.word.word32.U32Word.in_every_slot
	ldrd	r0, r10, [sp, #4]
	ldrd	r1, r8, [sp, #12]
	ldr	r6, [sp, #20]
	eor.w	r2, r0, r0, ror #8
	ldr.w	r12, [sp, #32]
	eor.w	r5, r8, r8, ror #8
	eor.w	lr, r6, r6, ror #8
	ror.w	r3, r2, #16
	ror.w	r9, r1, #8
	eor.w	r1, r1, r1, ror #8
	eor.w	r3, r3, r0, ror #8
	eor.w	r0, r5, lr, ror #16
	eor.w	r7, r10, r10, ror #8
	eor.w	r11, r0, r6, ror #8
	eor.w	r0, r12, r12, ror #8
	eor.w	r6, r9, r1, ror #16
	eors	r6, r7
	ror.w	r7, r7, #16
	eors	r3, r0
	eor.w	r7, r7, r3, lsr #1
	eors	r2, r7
	ror.w	r5, r5, #16
	eor.w	r2, r2, r10, ror #8
	eor.w	r5, r5, r6, lsr #1
	eors	r2, r0
	mov.w	r9, #-1431655766
	eors	r1, r5
	and.w	r2, r9, r2, lsl #1
	ldr	r5, [sp, #28]
	eor.w	r1, r1, r8, ror #8
	eor.w	r10, r2, r3
	ldr	r2, [sp, #24]
	eors	r1, r0
	ror.w	r7, r5, #8
	and.w	r1, r9, r1, lsl #1
	eor.w	r5, r5, r5, ror #8
	eors	r1, r6
	eor.w	r6, r2, r2, ror #8
	eor.w	r7, r7, r5, ror #16
	eors	r7, r6
	ror.w	r6, r6, #16
	eor.w	r3, r11, r0
	eor.w	r6, r6, r3, lsr #1
	ror.w	r0, r0, #16
	eor.w	r2, r6, r2, ror #8
	eor.w	r0, r0, r7, lsr #1
	eor.w	r2, r2, lr
	eor.w	r0, r0, r12, ror #8
	and.w	r2, r9, r2, lsl #1
	eors	r0, r5
	eors	r2, r3
	and.w	r0, r9, r0, lsl #1
	eor.w	r3, r1, r10, lsr #2
	eors	r0, r7
	bic	r3, r3, #-858993460
	eor.w	r7, r10, r3, lsl #2
	eors	r1, r3
	eor.w	r3, r0, r2, lsr #2
	bic	r3, r3, #-858993460
	eor.w	r2, r2, r3, lsl #2
	eors	r0, r3
	eor.w	r3, r2, r7, lsr #4
	bic	r3, r3, #-252645136
	eor.w	r7, r7, r3, lsl #4
	eors	r2, r3
	eor.w	r3, r0, r1, lsr #4
	bic	r3, r3, #-252645136
	eor.w	r1, r1, r3, lsl #4
	eors	r0, r3
	str	r7, [r4]
	str	r1, [r4, #4]
	str	r2, [r4, #8]
	str	r0, [r4, #12]
	add	sp, #36
	pop.w	{r4, r5, r6, r7, r8, r9, r10, r11, pc}
.Laes_v7m_func_end38:
	.size	aes_v7m.aes_c.single_rounds.mixed, .Laes_v7m_func_end38-aes_v7m.aes_c.single_rounds.mixed
	.cantunwind
	.fnend
                                        @ -- End function
	.section	.text.aes_v7m.aes_c.single_rounds.round,"ax",%progbits
	.p2align	2                               @ -- Begin function aes_c::single_rounds::round
	.type	aes_v7m.aes_c.single_rounds.round,%function
	.code	16
	.thumb_func
aes_v7m.aes_c.single_rounds.round:          @ @aes_v7m.aes_c.single_rounds.round
	.fnstart
@ %bb.0:                                @ %start
	.save	{r4, r5, r6, r7, r8, r9, r10, r11, lr}
	push.w	{r4, r5, r6, r7, r8, r9, r10, r11, lr}
	.pad	#100
	sub	sp, #100
	str	r1, [sp, #56]                   @ 4-byte Spill
	mov	r1, r0
	str	r0, [sp, #52]                   @ 4-byte Spill
	add	r0, sp, #68
	bl	aes_v7m.aes_planes.soft.word.word32.U32Word.in_every_slot
	ldrd	r10, r1, [sp, #72]
	ldrd	r2, r9, [sp, #80]
	add.w	r8, sp, #88
	ldm.w	r8, {r3, r6, r8}
	eor.w	r0, r8, r10
	eor.w	r12, r9, r1
	str	r0, [sp, #4]                    @ 4-byte Spill
	eor.w	r0, r0, r12
	eors	r2, r0
	eor.w	lr, r6, r3
	eor.w	r7, r8, r9
	eor.w	r3, r2, r6
	str	r0, [sp, #64]                   @ 4-byte Spill
	eor.w	r4, r2, r1
	eor.w	r5, r8, r1
	eor.w	r0, r3, r7
	strd	r7, r5, [sp, #44]               @ 8-byte Folded Spill
	and.w	r2, r0, r7
	eor.w	r7, r4, lr
	ldr.w	r11, [sp, #68]
	str	r0, [sp, #60]                   @ 4-byte Spill
	eors	r0, r7
	str.w	r12, [sp, #36]                  @ 4-byte Spill
	mov	r6, r4
	and.w	r1, r0, r12
	and.w	r4, r7, r5
	eor.w	r12, lr, r11
	str	r0, [sp, #40]                   @ 4-byte Spill
	eor.w	r0, r1, r2
	eors	r4, r2
	eor.w	r2, r12, r10
	str	r0, [sp, #12]                   @ 4-byte Spill
	mov	r1, r7
	str	r7, [sp, #32]                   @ 4-byte Spill
	eor.w	r0, r6, r11
	eor.w	r7, r2, r5
	str	r0, [sp, #20]                   @ 4-byte Spill
	and.w	r10, r0, r7
	eor.w	r0, r12, r9
	str	r7, [sp, #24]                   @ 4-byte Spill
	str	r0, [sp, #16]                   @ 4-byte Spill
	and.w	r7, r0, r11
	ldr	r0, [sp, #64]                   @ 4-byte Reload
	eor.w	r10, r10, r3
	eors	r7, r5
	and.w	r3, r6, r0
	ldr	r0, [sp, #60]                   @ 4-byte Reload
	str	r6, [sp, #28]                   @ 4-byte Spill
	eors	r7, r1
	ldr	r1, [sp, #12]                   @ 4-byte Reload
	ldr	r6, [sp, #4]                    @ 4-byte Reload
	eor.w	r9, r7, r3
	eor.w	r3, r3, r10
	eor.w	lr, lr, r0
	and.w	r5, r2, r12
	eor.w	r10, r3, r1
	eor.w	r5, r5, lr
	and.w	r3, lr, r6
	eors	r5, r3
	eors	r5, r6
	eors	r5, r1
	eor.w	r7, r12, r8
	eor.w	r1, r0, r11
	str	r1, [sp, #12]                   @ 4-byte Spill
	ands	r1, r7
	eor.w	r1, r1, lr
	eors	r1, r3
	eor.w	r0, r1, r8
	eor.w	r1, r9, r4
	eor.w	r3, r0, r4
	and.w	r0, r5, r10
	str	r7, [sp, #8]                    @ 4-byte Spill
	eor.w	r4, r0, r1
	eor.w	r7, r3, r5
	ands	r4, r7
	eor.w	r10, r10, r1
	eor.w	r7, r0, r3
	and.w	r9, r7, r10
	eor.w	r1, r1, r9
	eor.w	r9, r4, r0
	eor.w	r0, r4, r3
	and.w	r3, r3, r9
	eor.w	r4, r3, r7
	ands	r4, r1
	eor.w	r7, r4, r10
	eor.w	r4, r7, r1
	and.w	r9, r4, r6
	and.w	r6, r7, r12
	eors	r3, r5
	str	r6, [sp]                        @ 4-byte Spill
	ldr	r6, [sp, #24]                   @ 4-byte Reload
	and.w	r8, r4, lr
	eor.w	r4, r3, r0
	and.w	r10, r4, r6
	ldr	r6, [sp, #16]                   @ 4-byte Reload
	ands	r2, r7
	str	r2, [sp, #4]                    @ 4-byte Spill
	eor.w	r2, r7, r4
	ldr	r7, [sp, #20]                   @ 4-byte Reload
	ands	r6, r0
	str	r6, [sp, #24]                   @ 4-byte Spill
	ldr	r6, [sp, #60]                   @ 4-byte Reload
	ands	r7, r4
	and.w	r5, r0, r11
	eors	r0, r1
	ldr	r4, [sp, #44]                   @ 4-byte Reload
	ands	r6, r0
	str	r6, [sp, #60]                   @ 4-byte Spill
	and.w	r11, r0, r4
	ldr	r6, [sp, #36]                   @ 4-byte Reload
	ldr	r4, [sp, #40]                   @ 4-byte Reload
	eors	r0, r2
	and.w	r12, r0, r6
	and.w	lr, r0, r4
	ldr	r0, [sp, #8]                    @ 4-byte Reload
	ldr	r6, [sp, #64]                   @ 4-byte Reload
	ands	r0, r1
	str	r0, [sp, #44]                   @ 4-byte Spill
	ldr	r0, [sp, #12]                   @ 4-byte Reload
	ands	r6, r3
	ands	r1, r0
	ldr	r0, [sp, #28]                   @ 4-byte Reload
	ands	r0, r3
	ldr	r3, [sp]                        @ 4-byte Reload
	eors	r7, r0
	eors	r0, r5
	eor.w	r5, r8, r3
	eors	r1, r0
	ldr	r3, [sp, #4]                    @ 4-byte Reload
	eor.w	r8, r8, r1
	eor.w	r1, r12, r11
	eor.w	r3, r3, r8
	eor.w	r4, r1, r10
	eor.w	r10, r3, r1
	ldr	r1, [sp, #32]                   @ 4-byte Reload
	eor.w	r3, r5, lr
	eor.w	r12, r7, r5
	and.w	r5, r2, r1
	eors	r0, r5
	eor.w	r0, r0, r9
	eor.w	r7, r4, r6
	ldr	r6, [sp, #24]                   @ 4-byte Reload
	eor.w	r5, r0, r3
	ldr	r0, [sp, #60]                   @ 4-byte Reload
	ldr	r1, [sp, #44]                   @ 4-byte Reload
	eors	r4, r6
	ldr	r6, [sp, #48]                   @ 4-byte Reload
	eors	r0, r3
	eors	r1, r5
	eor.w	r3, r12, r7
	eor.w	lr, r3, r8
	ands	r2, r6
	eor.w	r8, r4, r1
	eor.w	r4, r10, r9
	eor.w	r12, r7, r0
	mvns	r7, r4
	eor.w	r4, r10, r5
	eor.w	r2, r2, r11
	mvns	r5, r4
	eors	r2, r0
	movw	r4, #768
	eors	r1, r2
	eor.w	r2, r7, r7, lsr #4
	movt	r4, #3087
	ands	r2, r4
	eor.w	r6, r7, r2, lsl #4
	eor.w	r7, r6, r2
	eor.w	r2, r5, r5, lsr #4
	ands	r2, r4
	eor.w	r5, r5, r2, lsl #4
	eor.w	r9, r5, r2
	eor.w	r2, r3, r3, lsr #4
	ands	r2, r4
	mvns	r1, r1
	orr.w	r2, r2, r2, lsl #4
	eors	r0, r3
	eor.w	r6, lr, lr, lsr #4
	eors	r3, r2
	eor.w	r2, r1, r1, lsr #4
	ands	r6, r4
	ands	r2, r4
	mvns	r0, r0
	orr.w	r6, r6, r6, lsl #4
	eor.w	r1, r1, r2, lsl #4
	eor.w	r5, r8, r8, lsr #4
	eor.w	r6, r6, lr
	eor.w	lr, r1, r2
	eor.w	r1, r0, r0, lsr #4
	ands	r5, r4
	ands	r1, r4
	orr.w	r5, r5, r5, lsl #4
	eor.w	r0, r0, r1, lsl #4
	eor.w	r5, r5, r8
	eor.w	r8, r0, r1
	eor.w	r0, r12, r12, lsr #4
	ands	r0, r4
	orr.w	r0, r0, r0, lsl #4
	eor.w	r10, r0, r12
	eor.w	r0, r7, r7, lsr #2
	and	r0, r0, #855651072
	orr.w	r0, r0, r0, lsl #2
	eor.w	r1, r0, r7
	eor.w	r0, r9, r9, lsr #2
	and	r0, r0, #855651072
	orr.w	r0, r0, r0, lsl #2
	eor.w	r9, r9, r0
	eor.w	r0, r5, r5, lsr #2
	and	r0, r0, #855651072
	orr.w	r0, r0, r0, lsl #2
	eor.w	r2, r0, r5
	eor.w	r0, r6, r6, lsr #2
	and	r0, r0, #855651072
	orr.w	r0, r0, r0, lsl #2
	eor.w	r11, r0, r6
	eor.w	r0, r3, r3, lsr #2
	and	r0, r0, #855651072
	orr.w	r0, r0, r0, lsl #2
	eor.w	r7, r0, r3
	eor.w	r0, lr, lr, lsr #2
	and	r0, r0, #855651072
	orr.w	r0, r0, r0, lsl #2
	eor.w	lr, lr, r0
	eor.w	r0, r8, r8, lsr #2
	and	r0, r0, #855651072
	orr.w	r0, r0, r0, lsl #2
	eor.w	r8, r8, r0
	eor.w	r0, r10, r10, lsr #2
	and	r0, r0, #855651072
	orr.w	r0, r0, r0, lsl #2
	ror.w	r4, r1, #8
	eor.w	r3, r1, r1, ror #8
	eor.w	r1, r2, r2, ror #8
	eor.w	r10, r10, r0
	ror.w	r0, r1, #16
	eor.w	r5, r9, r9, ror #8
	eor.w	r0, r0, r2, ror #8
	eor.w	r2, r10, r10, ror #8
	eor.w	r4, r4, r3, ror #16
	eors	r0, r5
	ror.w	r5, r5, #16
	eors	r4, r2
	eor.w	r5, r5, r4, lsr #1
	eor.w	r5, r5, r9, ror #8
	eors	r5, r2
	ror.w	r6, r7, #8
	eors	r3, r5
	mov.w	r12, #-1431655766
	eor.w	r7, r7, r7, ror #8
	and.w	r3, r12, r3, lsl #1
	eor.w	r6, r6, r7, ror #16
	eors	r3, r4
	eor.w	r4, r11, r11, ror #8
	eors	r6, r2
	eors	r6, r4
	ror.w	r4, r4, #16
	eor.w	r4, r4, r0, lsr #1
	eors	r1, r4
	ror.w	r9, r8, #8
	eor.w	r8, r8, r8, ror #8
	eors	r1, r2
	eor.w	r4, lr, lr, ror #8
	eor.w	r5, r9, r8, ror #16
	eor.w	r1, r1, r11, ror #8
	eors	r5, r4
	ror.w	r4, r4, #16
	ror.w	r2, r2, #16
	and.w	r1, r12, r1, lsl #1
	eors	r0, r1
	eor.w	r1, r4, r6, lsr #1
	eor.w	r2, r2, r5, lsr #1
	eors	r1, r7
	eor.w	r2, r2, r10, ror #8
	eor.w	r1, r1, lr, ror #8
	eor.w	r2, r2, r8
	and.w	r1, r12, r1, lsl #1
	and.w	r2, r12, r2, lsl #1
	eor.w	r7, r0, r3, lsr #2
	eors	r1, r6
	eors	r2, r5
	bic	r7, r7, #-858993460
	eor.w	r3, r3, r7, lsl #2
	eors	r7, r0
	eor.w	r0, r2, r1, lsr #2
	bic	r0, r0, #-858993460
	eor.w	r1, r1, r0, lsl #2
	ldr.w	lr, [sp, #56]                   @ 4-byte Reload
	eor.w	r6, r0, r2
	eor.w	r0, r1, r3, lsr #4
	bic	r2, r0, #-252645136
	ldrb.w	r0, [lr, #9]
	eor.w	r3, r3, r2, lsl #4
	eors	r2, r1
	eor.w	r1, r6, r7, lsr #4
	bic	r1, r1, #-252645136
	str	r0, [sp, #40]                   @ 4-byte Spill
	ldrb.w	r0, [lr, #14]
	eors	r6, r1
	ldrb.w	r8, [lr, #13]
	ldrb.w	r4, [lr, #12]
	eor.w	r0, r0, r6, lsr #16
	eor.w	r5, r7, r1, lsl #4
	ldrb.w	r7, [lr, #7]
	str	r0, [sp, #64]                   @ 4-byte Spill
	eor.w	r0, r8, r6, lsr #8
	ldrb.w	r10, [lr, #4]
	ldrb.w	r9, [lr, #5]
	ldrb.w	r1, [lr, #6]
	ldrb.w	r12, [lr, #15]
	str	r0, [sp, #60]                   @ 4-byte Spill
	eor.w	r0, r6, r4
	str	r0, [sp, #48]                   @ 4-byte Spill
	eor.w	r0, r7, r5, lsr #24
	eor.w	r11, r12, r6, lsr #24
	ldrb.w	r4, [lr, #11]
	str	r0, [sp, #44]                   @ 4-byte Spill
	eor.w	r7, r1, r5, lsr #16
	eor.w	r6, r9, r5, lsr #8
	eor.w	r10, r10, r5
	ldrb.w	r5, [lr, #10]
	ldrb.w	r0, [lr, #8]
	ldr	r1, [sp, #40]                   @ 4-byte Reload
	eor.w	r8, r4, r2, lsr #24
	eor.w	r5, r5, r2, lsr #16
	eor.w	r9, r1, r2, lsr #8
	eor.w	r4, r2, r0
	ldrb.w	r2, [lr, #3]
	ldrb.w	r0, [lr, #2]
	eor.w	r12, r2, r3, lsr #24
	eor.w	r2, r0, r3, lsr #16
	ldrb.w	r0, [lr, #1]
	ldrb.w	r1, [lr]
	eor.w	r0, r0, r3, lsr #8
	eors	r1, r3
	ldr	r3, [sp, #52]                   @ 4-byte Reload
	strb	r0, [r3, #1]
	ldr	r0, [sp, #44]                   @ 4-byte Reload
	strb	r1, [r3]
	strb	r0, [r3, #7]
	ldr	r0, [sp, #48]                   @ 4-byte Reload
	strb	r2, [r3, #2]
	strb	r0, [r3, #12]
	ldr	r0, [sp, #60]                   @ 4-byte Reload
	strb.w	r12, [r3, #3]
	strb	r0, [r3, #13]
	ldr	r0, [sp, #64]                   @ 4-byte Reload
	strb.w	r10, [r3, #4]
	strb	r6, [r3, #5]
	strb	r7, [r3, #6]
	strb	r4, [r3, #8]
	strb.w	r9, [r3, #9]
	strb	r5, [r3, #10]
	strb.w	r8, [r3, #11]
	strb	r0, [r3, #14]
	strb.w	r11, [r3, #15]
	add	sp, #100
	pop.w	{r4, r5, r6, r7, r8, r9, r10, r11, pc}
.Laes_v7m_func_end39:
	.size	aes_v7m.aes_c.single_rounds.round, .Laes_v7m_func_end39-aes_v7m.aes_c.single_rounds.round
	.cantunwind
	.fnend
                                        @ -- End function
	.section	.text.aes_v7m.aes_c.single_rounds.rounds,"ax",%progbits
	.p2align	2                               @ -- Begin function aes_c::single_rounds::rounds
	.type	aes_v7m.aes_c.single_rounds.rounds,%function
	.code	16
	.thumb_func
aes_v7m.aes_c.single_rounds.rounds:         @ @aes_v7m.aes_c.single_rounds.rounds
	.fnstart
@ %bb.0:                                @ %start
	.save	{r4, r5, r6, r7, r8, r9, r10, r11, lr}
	push.w	{r4, r5, r6, r7, r8, r9, r10, r11, lr}
	.pad	#88
	sub	sp, #88
	movs	r7, #0
	movs	r6, #0
	str	r1, [sp]                        @ 4-byte Spill
	str	r0, [sp, #84]                   @ 4-byte Spill
	.p2align	2
.Laes_v7m_BB40_1:                               @ %join.5.i.i
                                        @ =>This Inner Loop Header: Depth=1
	lsls	r1, r7, #4
	add.w	r3, r0, r7, lsl #4
	strd	r6, r7, [sp, #72]               @ 8-byte Folded Spill
	ldr	r0, [r0, r1]
	ldr	r7, [r3, #16]
	str	r1, [sp, #64]                   @ 4-byte Spill
	str	r3, [sp, #68]                   @ 4-byte Spill
	ldr	r1, [r3, #4]
	ldr	r2, [r3, #8]
	ldr.w	r12, [r3, #12]
	ldr	r6, [r3, #20]
	ldr	r5, [r3, #24]
	ldr	r4, [r3, #28]
	eor.w	r3, r7, r0, lsr #1
	bic	r3, r3, #-1431655766
	eor.w	lr, r3, r7
	eor.w	r7, r6, r1, lsr #1
	bic	r7, r7, #-1431655766
	eor.w	r1, r1, r7, lsl #1
	eors	r7, r6
	eor.w	r6, r5, r2, lsr #1
	bic	r6, r6, #-1431655766
	eor.w	r2, r2, r6, lsl #1
	eors	r6, r5
	eor.w	r5, r4, r12, lsr #1
	eor.w	r0, r0, r3, lsl #1
	bic	r5, r5, #-1431655766
	eor.w	r3, r12, r5, lsl #1
	eors	r5, r4
	eor.w	r4, r1, r0, lsr #2
	bic	r4, r4, #-858993460
	eor.w	r0, r0, r4, lsl #2
	eor.w	r12, r4, r1
	eor.w	r4, r3, r2, lsr #2
	bic	r4, r4, #-858993460
	eor.w	r2, r2, r4, lsl #2
	eor.w	r8, r4, r3
	eor.w	r4, r7, lr, lsr #2
	bic	r4, r4, #-858993460
	eor.w	r1, lr, r4, lsl #2
	eors	r4, r7
	eor.w	r7, r5, r6, lsr #2
	bic	r7, r7, #-858993460
	eor.w	r6, r6, r7, lsl #2
	eors	r5, r7
	eor.w	r7, r2, r0, lsr #4
	bic	r3, r7, #-252645136
	eor.w	r7, r0, r3, lsl #4
	eor.w	r0, r6, r1, lsr #4
	bic	r0, r0, #-252645136
	eor.w	r10, r3, r2
	eor.w	r11, r1, r0, lsl #4
	eor.w	r2, r0, r6
	eor.w	r0, r8, r12, lsr #4
	bic	r0, r0, #-252645136
	eor.w	r3, r12, r0, lsl #4
	eor.w	r6, r0, r8
	eor.w	r0, r5, r4, lsr #4
	bic	r0, r0, #-252645136
	eor.w	r9, r0, r5
	eor.w	r4, r4, r0, lsl #4
	eor.w	r0, r11, r9
	eor.w	r12, r3, r10
	str	r0, [sp, #8]                    @ 4-byte Spill
	eor.w	r0, r0, r12
	eors	r4, r0
	eor.w	r5, r2, r6
	eor.w	r8, r4, r6
	eor.w	lr, r4, r3
	eor.w	r2, r3, r9
	eor.w	r3, r10, r9
	str	r0, [sp, #80]                   @ 4-byte Spill
	eor.w	r0, r8, r3
	eor.w	r4, lr, r5
	str	r3, [sp, #56]                   @ 4-byte Spill
	str	r0, [sp, #4]                    @ 4-byte Spill
	ands	r3, r0
	eors	r0, r4
	and.w	r6, r0, r12
	str.w	r12, [sp, #48]                  @ 4-byte Spill
	str	r0, [sp, #52]                   @ 4-byte Spill
	eor.w	r0, r6, r3
	and.w	r6, r4, r2
	eor.w	r12, r7, r5
	eors	r6, r3
	eor.w	r3, r12, r11
	str	r0, [sp, #24]                   @ 4-byte Spill
	eor.w	r1, lr, r7
	mov	r0, r2
	str	r2, [sp, #60]                   @ 4-byte Spill
	eors	r2, r3
	str	r1, [sp, #32]                   @ 4-byte Spill
	mov	r11, r7
	and.w	r7, r1, r2
	eor.w	r1, r12, r10
	eor.w	r8, r8, r7
	and.w	r7, r1, r11
	eors	r7, r0
	ldr	r0, [sp, #80]                   @ 4-byte Reload
	str	r2, [sp, #36]                   @ 4-byte Spill
	eors	r7, r4
	and.w	r2, lr, r0
	str.w	lr, [sp, #40]                   @ 4-byte Spill
	eor.w	lr, r7, r2
	eor.w	r7, r8, r2
	ldr.w	r8, [sp, #4]                    @ 4-byte Reload
	ldr.w	r10, [sp, #8]                   @ 4-byte Reload
	eor.w	r2, r8, r5
	and.w	r5, r3, r12
	eors	r5, r2
	and.w	r0, r2, r10
	str	r1, [sp, #28]                   @ 4-byte Spill
	ldr	r1, [sp, #24]                   @ 4-byte Reload
	eors	r5, r0
	str	r4, [sp, #44]                   @ 4-byte Spill
	mov	r4, r12
	eor.w	r5, r5, r10
	eors	r7, r1
	eor.w	r12, r5, r1
	eor.w	r1, r4, r9
	eor.w	r5, r8, r11
	str.w	r11, [sp, #16]                  @ 4-byte Spill
	and.w	r11, r5, r1
	str	r5, [sp, #24]                   @ 4-byte Spill
	eor.w	r5, r2, r11
	eors	r0, r5
	eor.w	r0, r0, r9
	str	r1, [sp, #20]                   @ 4-byte Spill
	eor.w	r1, lr, r6
	eor.w	r5, r0, r6
	and.w	r0, r12, r7
	eor.w	lr, r0, r1
	eor.w	r6, r5, r12
	and.w	r6, r6, lr
	eor.w	lr, r7, r1
	eor.w	r7, r0, r5
	str	r3, [sp, #12]                   @ 4-byte Spill
	mov	r3, r4
	and.w	r4, r7, lr
	eors	r1, r4
	eor.w	r4, r6, r0
	ands	r4, r5
	eor.w	r0, r6, r5
	eor.w	r5, r4, r7
	ands	r5, r1
	eor.w	r6, r5, lr
	eor.w	r12, r12, r4
	eor.w	r4, r6, r1
	and.w	lr, r4, r2
	and.w	r2, r4, r10
	str	r2, [sp, #8]                    @ 4-byte Spill
	ldr	r2, [sp, #12]                   @ 4-byte Reload
	and.w	r11, r6, r3
	ldr	r3, [sp, #32]                   @ 4-byte Reload
	ands	r2, r6
	eor.w	r4, r12, r0
	str	r2, [sp, #12]                   @ 4-byte Spill
	eor.w	r2, r6, r4
	and.w	r6, r4, r3
	ldr	r3, [sp, #36]                   @ 4-byte Reload
	and.w	r7, r4, r3
	ldr	r3, [sp, #28]                   @ 4-byte Reload
	ldr	r4, [sp, #80]                   @ 4-byte Reload
	ands	r3, r0
	str	r3, [sp, #36]                   @ 4-byte Spill
	ldr	r3, [sp, #16]                   @ 4-byte Reload
	and.w	r5, r0, r3
	ldr	r3, [sp, #56]                   @ 4-byte Reload
	eors	r0, r1
	and.w	r9, r0, r3
	ldr	r3, [sp, #48]                   @ 4-byte Reload
	and.w	r10, r0, r8
	eors	r0, r2
	and.w	r8, r0, r3
	ldr	r3, [sp, #52]                   @ 4-byte Reload
	ands	r3, r0
	ldr	r0, [sp, #20]                   @ 4-byte Reload
	ands	r0, r1
	str	r0, [sp, #56]                   @ 4-byte Spill
	ldr	r0, [sp, #24]                   @ 4-byte Reload
	ands	r1, r0
	ldr	r0, [sp, #40]                   @ 4-byte Reload
	and.w	r0, r0, r12
	eors	r6, r0
	eors	r0, r5
	and.w	r12, r12, r4
	eors	r1, r0
	ldr	r4, [sp, #12]                   @ 4-byte Reload
	eor.w	r5, lr, r11
	eor.w	lr, lr, r1
	eor.w	r1, r8, r9
	eor.w	r4, r4, lr
	eors	r7, r1
	eor.w	r11, r4, r1
	eor.w	r1, r5, r3
	ldr	r3, [sp, #44]                   @ 4-byte Reload
	eor.w	r8, r6, r5
	and.w	r5, r2, r3
	ldr	r4, [sp, #8]                    @ 4-byte Reload
	eors	r0, r5
	eors	r0, r4
	eors	r0, r1
	eor.w	r5, r1, r10
	ldr	r1, [sp, #36]                   @ 4-byte Reload
	eor.w	r6, r7, r12
	eors	r7, r1
	ldr	r1, [sp, #60]                   @ 4-byte Reload
	ands	r2, r1
	ldr	r1, [sp, #56]                   @ 4-byte Reload
	eor.w	r2, r2, r9
	eor.w	r3, r0, r1
	eor.w	r1, r8, r6
	eors	r2, r5
	eor.w	r12, r1, lr
	eors	r7, r3
	eor.w	lr, r6, r5
	eor.w	r6, r11, r4
	eors	r2, r3
	eor.w	r3, r5, r1
	mvns	r6, r6
	mvn.w	r10, r3
	movw	r3, #768
	eor.w	r4, r6, r6, lsr #4
	movt	r3, #3087
	eor.w	r0, r0, r11
	ands	r4, r3
	mvns	r0, r0
	eor.w	r5, r6, r4, lsl #4
	eor.w	r8, r5, r4
	eor.w	r4, r0, r0, lsr #4
	ands	r4, r3
	eor.w	r0, r0, r4, lsl #4
	eor.w	r9, r0, r4
	eor.w	r0, r7, r7, lsr #4
	ands	r0, r3
	add.w	r0, r0, r0, lsl #4
	eor.w	r6, r0, r7
	eor.w	r0, r12, r12, lsr #4
	ands	r0, r3
	add.w	r0, r0, r0, lsl #4
	eor.w	r5, r0, r12
	eor.w	r0, r1, r1, lsr #4
	ands	r0, r3
	mvns	r2, r2
	add.w	r0, r0, r0, lsl #4
	eor.w	r4, r0, r1
	eor.w	r0, r2, r2, lsr #4
	ands	r0, r3
	eor.w	r1, r2, r0, lsl #4
	eors	r0, r1
	eor.w	r1, r10, r10, lsr #4
	ands	r1, r3
	eor.w	r2, r10, r1, lsl #4
	eors	r1, r2
	eor.w	r2, lr, lr, lsr #4
	ands	r2, r3
	add.w	r2, r2, r2, lsl #4
	eor.w	r7, r2, lr
	eor.w	r2, r8, r8, lsr #2
	and	r2, r2, #855651072
	orr.w	r2, r2, r2, lsl #2
	eor.w	r12, r2, r8
	eor.w	r2, r6, r6, lsr #2
	and	r2, r2, #855651072
	orr.w	r2, r2, r2, lsl #2
	eor.w	r8, r2, r6
	eor.w	r2, r5, r5, lsr #2
	and	r2, r2, #855651072
	orr.w	r2, r2, r2, lsl #2
	eor.w	lr, r2, r5
	eor.w	r2, r4, r4, lsr #2
	and	r2, r2, #855651072
	orr.w	r2, r2, r2, lsl #2
	eor.w	r3, r9, r9, lsr #2
	eor.w	r6, r2, r4
	eor.w	r2, r0, r0, lsr #2
	and	r3, r3, #855651072
	and	r2, r2, #855651072
	orr.w	r3, r3, r3, lsl #2
	orr.w	r2, r2, r2, lsl #2
	eor.w	r3, r3, r9
	eor.w	r9, r2, r0
	eor.w	r2, r1, r1, lsr #2
	and	r2, r2, #855651072
	orr.w	r2, r2, r2, lsl #2
	eor.w	r5, r2, r1
	eor.w	r1, r7, r7, lsr #2
	and	r1, r1, #855651072
	orr.w	r1, r1, r1, lsl #2
	eor.w	r10, r1, r7
	ror.w	r4, r3, #8
	eor.w	r3, r3, r3, ror #8
	eor.w	r0, r10, r10, ror #8
	eor.w	r4, r4, r3, ror #16
	ror.w	r2, r12, #8
	eor.w	r7, r12, r12, ror #8
	eors	r4, r0
	eor.w	r2, r2, r7, ror #16
	eor.w	r1, r4, r7
	ror.w	r4, r8, #8
	eor.w	r7, r8, r8, ror #8
	eor.w	r4, r4, r7, ror #16
	eor.w	r12, r4, r3
	eor.w	r4, lr, lr, ror #8
	eor.w	r7, r7, r4, ror #16
	eors	r7, r0
	eor.w	r3, r7, lr, ror #8
	ror.w	r7, r6, #8
	eor.w	r6, r6, r6, ror #8
	eor.w	r7, r7, r6, ror #16
	eors	r7, r0
	eor.w	lr, r7, r4
	eor.w	r4, r9, r9, ror #8
	eor.w	r6, r6, r4, ror #16
	eor.w	r7, r6, r9, ror #8
	ror.w	r6, r5, #8
	eor.w	r5, r5, r5, ror #8
	eors	r2, r0
	ror.w	r0, r0, #16
	eor.w	r6, r6, r5, ror #16
	eor.w	r0, r0, r10, ror #8
	eors	r6, r4
	eor.w	r4, r0, r5
	eor.w	r0, r1, r2, lsr #1
	str	r1, [sp, #80]                   @ 4-byte Spill
	bic	r0, r0, #-1431655766
	eor.w	r1, r3, r12, lsr #1
	str	r0, [sp, #52]                   @ 4-byte Spill
	eor.w	r0, r2, r0, lsl #1
	bic	r10, r1, #-1431655766
	eor.w	r1, r7, lr, lsr #1
	eor.w	r2, r4, r6, lsr #1
	eor.w	r11, r12, r10, lsl #1
	bic	r12, r1, #-1431655766
	bic	r2, r2, #-1431655766
	str	r7, [sp, #56]                   @ 4-byte Spill
	eor.w	r5, lr, r12, lsl #1
	eor.w	r7, r6, r2, lsl #1
	str	r3, [sp, #60]                   @ 4-byte Spill
	eor.w	r3, r11, r0, lsr #2
	eor.w	r1, r7, r5, lsr #2
	bic	r3, r3, #-858993460
	bic	r6, r1, #-858993460
	eor.w	r0, r0, r3, lsl #2
	eor.w	r9, r5, r6, lsl #2
	eor.w	r5, r9, r0, lsr #4
	bic	r5, r5, #-252645136
	ldr.w	lr, [sp, #84]                   @ 4-byte Reload
	ldr.w	r8, [sp, #64]                   @ 4-byte Reload
	eor.w	r0, r0, r5, lsl #4
	str.w	r0, [lr, r8]
	ldr	r0, [sp, #80]                   @ 4-byte Reload
	ldr	r1, [sp, #52]                   @ 4-byte Reload
	str	r4, [sp, #48]                   @ 4-byte Spill
	eors	r0, r1
	ldr	r4, [sp, #60]                   @ 4-byte Reload
	ldr	r1, [sp, #56]                   @ 4-byte Reload
	eor.w	r4, r4, r10
	eor.w	r12, r12, r1
	ldr	r1, [sp, #48]                   @ 4-byte Reload
	eor.w	r8, r6, r7
	eor.w	r6, r4, r0, lsr #2
	eors	r2, r1
	bic	r6, r6, #-858993460
	eor.w	r7, r0, r6, lsl #2
	eors	r6, r4
	eor.w	r4, r2, r12, lsr #2
	bic	r4, r4, #-858993460
	eor.w	lr, r3, r11
	eor.w	r3, r12, r4, lsl #2
	eor.w	r12, r5, r9
	eor.w	r5, r3, r7, lsr #4
	bic	r5, r5, #-252645136
	eor.w	r1, r7, r5, lsl #4
	eor.w	r9, r5, r3
	eor.w	r5, r8, lr, lsr #4
	eors	r2, r4
	bic	r5, r5, #-252645136
	eor.w	r4, lr, r5, lsl #4
	eor.w	r7, r5, r8
	eor.w	r5, r2, r6, lsr #4
	bic	r5, r5, #-252645136
	ldr	r3, [sp, #68]                   @ 4-byte Reload
	eor.w	r6, r6, r5, lsl #4
	eors	r2, r5
	ldr	r5, [sp, #76]                   @ 4-byte Reload
	str	r1, [r3, #16]
	ldr	r1, [sp, #72]                   @ 4-byte Reload
	str	r7, [r3, #12]
	adds	r7, r5, #2
	ldr	r0, [sp, #84]                   @ 4-byte Reload
	str	r4, [r3, #4]
	str.w	r12, [r3, #8]
	str	r6, [r3, #20]
	str.w	r9, [r3, #24]
	mov	r4, r3
	adc	r6, r1, #0
	subs	r3, r5, #6
	sbcs	r1, r1, #0
	str	r2, [r4, #28]
	blo.w	.Laes_v7m_BB40_1
@ %bb.2:                                @ %join.5.i.i.i.preheader
	movs	r1, #0
	movs	r7, #0
	.p2align	2
.Laes_v7m_BB40_3:                               @ %join.5.i.i.i
                                        @ =>This Inner Loop Header: Depth=1
	mov	r8, r1
	lsls	r5, r1, #4
	ldr	r1, [sp]                        @ 4-byte Reload
	str	r7, [sp, #48]                   @ 4-byte Spill
	add.w	r7, r1, r8, lsl #4
	ldrb	r3, [r7, #1]
	ldrb	r2, [r0, r5]
	str	r3, [sp, #80]                   @ 4-byte Spill
	ldrb	r3, [r7, #2]
	ldrb	r1, [r1, r5]
	str	r3, [sp, #76]                   @ 4-byte Spill
	ldrb	r3, [r7, #3]
	add.w	r12, r0, r8, lsl #4
	str	r3, [sp, #72]                   @ 4-byte Spill
	ldrb	r3, [r7, #4]
	eors	r1, r2
	str	r3, [sp, #68]                   @ 4-byte Spill
	ldrb	r3, [r7, #5]
	ldrb.w	r10, [r7, #15]
	str	r3, [sp, #64]                   @ 4-byte Spill
	ldrb	r3, [r7, #6]
	ldrb.w	r11, [r12, #15]
	str	r3, [sp, #60]                   @ 4-byte Spill
	ldrb	r3, [r7, #7]
	ldrb	r6, [r7, #9]
	str	r3, [sp, #52]                   @ 4-byte Spill
	ldrb	r3, [r7, #8]
	ldrb.w	lr, [r7, #11]
	str	r3, [sp, #44]                   @ 4-byte Spill
	ldrb	r3, [r7, #10]
	ldrb	r2, [r7, #12]
	ldrb.w	r9, [r7, #13]
	ldrb	r4, [r7, #14]
	strb	r1, [r0, r5]
	ldrb.w	r1, [r12, #14]
	eor.w	r0, r10, r11
	ldrb.w	r5, [r12, #13]
	str	r0, [sp, #56]                   @ 4-byte Spill
	eor.w	r0, r4, r1
	str	r0, [sp, #40]                   @ 4-byte Spill
	eor.w	r0, r9, r5
	ldrb.w	r5, [r12, #12]
	ldrb.w	r7, [r12, #11]
	str	r0, [sp, #36]                   @ 4-byte Spill
	eor.w	r0, r2, r5
	str	r0, [sp, #32]                   @ 4-byte Spill
	eor.w	r0, lr, r7
	ldrb.w	r7, [r12, #9]
	str	r0, [sp, #28]                   @ 4-byte Spill
	eor.w	r9, r6, r7
	ldrb.w	r6, [r12, #8]
	ldr	r0, [sp, #44]                   @ 4-byte Reload
	ldrb.w	r4, [r12, #7]
	eors	r6, r0
	ldr	r0, [sp, #52]                   @ 4-byte Reload
	ldrb.w	r5, [r12, #10]
	eors	r4, r0
	ldrb.w	r1, [r12, #6]
	ldr	r0, [sp, #60]                   @ 4-byte Reload
	eor.w	r10, r3, r5
	ldrb.w	r5, [r12, #5]
	eor.w	lr, r0, r1
	ldr	r0, [sp, #64]                   @ 4-byte Reload
	ldr	r2, [sp, #68]                   @ 4-byte Reload
	eors	r5, r0
	ldrb.w	r0, [r12, #4]
	ldrb.w	r1, [r12, #3]
	eors	r0, r2
	ldr	r2, [sp, #72]                   @ 4-byte Reload
	ldr	r7, [sp, #76]                   @ 4-byte Reload
	eor.w	r3, r2, r1
	ldrb.w	r1, [r12, #2]
	ldrb.w	r2, [r12, #1]
	eors	r1, r7
	strb.w	r1, [r12, #2]
	ldr	r1, [sp, #28]                   @ 4-byte Reload
	ldr.w	r11, [sp, #80]                  @ 4-byte Reload
	strb.w	r1, [r12, #11]
	ldr	r1, [sp, #32]                   @ 4-byte Reload
	eor.w	r2, r2, r11
	strb.w	r1, [r12, #12]
	ldr	r1, [sp, #36]                   @ 4-byte Reload
	strb.w	r2, [r12, #1]
	strb.w	r1, [r12, #13]
	ldr	r1, [sp, #40]                   @ 4-byte Reload
	ldr	r2, [sp, #48]                   @ 4-byte Reload
	strb.w	r1, [r12, #14]
	adds.w	r1, r8, #1
	strb.w	r3, [r12, #3]
	adc	r7, r2, #0
	subs.w	r3, r8, #7
	sbcs	r2, r2, #0
	strb.w	r0, [r12, #4]
	ldr	r0, [sp, #84]                   @ 4-byte Reload
	ldr	r2, [sp, #56]                   @ 4-byte Reload
	strb.w	r5, [r12, #5]
	strb.w	lr, [r12, #6]
	strb.w	r4, [r12, #7]
	strb.w	r6, [r12, #8]
	strb.w	r9, [r12, #9]
	strb.w	r10, [r12, #10]
	strb.w	r2, [r12, #15]
	blo.w	.Laes_v7m_BB40_3
@ %bb.4:                                @ %"aes_soft::soft::hazmat::par::cipher_round_par::<#e817d94f9a7b6ba6>.exit"
	add	sp, #88
	pop.w	{r4, r5, r6, r7, r8, r9, r10, r11, pc}
.Laes_v7m_func_end40:
	.size	aes_v7m.aes_c.single_rounds.rounds, .Laes_v7m_func_end40-aes_v7m.aes_c.single_rounds.rounds
	.cantunwind
	.fnend
                                        @ -- End function
	.section	.text.aes_v7m.ccm.mode.decrypt,"ax",%progbits
	.p2align	2                               @ -- Begin function ccm::mode::decrypt::<#4f733d09d7f6c6b4>
	.type	aes_v7m.ccm.mode.decrypt,%function
	.code	16
	.thumb_func
aes_v7m.ccm.mode.decrypt: @ @aes_v7m.ccm.mode.decrypt
	.fnstart
@ %bb.0:                                @ %start
	.save	{r4, r5, r6, r7, r8, r9, r10, r11, lr}
	push.w	{r4, r5, r6, r7, r8, r9, r10, r11, lr}
	.pad	#92
	sub	sp, #92
	ldrd	r5, r8, [sp, #176]
	subs	r3, r5, #4
	sbc	r7, r8, #0
	rsbs.w	r3, r3, #12
	mov.w	r3, #0
	sbcs.w	r7, r3, r7
	blo	.Laes_v7m_BB41_7
@ %bb.1:                                @ %start
	ands	r7, r5, #1
	bne	.Laes_v7m_BB41_7
@ %bb.2:                                @ %after.1.i
	ldrd	r10, r4, [sp, #128]
	mvn	r6, #6
	subs.w	r3, r10, #14
	sbc	r7, r4, #0
	subs	r3, r3, r6
	sbcs	r3, r7, #-1
	bhs	.Laes_v7m_BB41_4
@ %bb.3:
	movs	r3, #1
	b	.Laes_v7m_BB41_7
	.p2align	2
.Laes_v7m_BB41_4:                               @ %after.15.i
	ldrd	r9, r12, [sp, #160]
	eor	r3, r10, #7
	orrs	r3, r4
	beq	.Laes_v7m_BB41_8
@ %bb.5:                                @ %"ccm::formatting::check.exit"
	movs	r3, #120
	eor.w	r3, r3, r10, lsl #3
	rsb.w	r6, r3, #32
	lsr.w	r7, r9, r3
	lsl.w	r6, r12, r6
	orrs	r7, r6
	subs.w	r6, r3, #32
	lsr.w	r3, r12, r3
	it	pl
	lsrpl.w	r7, r12, r6
	it	pl
	movpl	r3, #0
	orrs	r3, r7
	beq	.Laes_v7m_BB41_8
@ %bb.6:
	movs	r3, #2
.Laes_v7m_BB41_7:                               @ %arm.1
	movs	r1, #1
	strh	r1, [r0]
	strb	r3, [r0, #2]
	add	sp, #92
	pop.w	{r4, r5, r6, r7, r8, r9, r10, r11, pc}
	.p2align	2
.Laes_v7m_BB41_8:                               @ %join.4
	str	r0, [sp, #56]                   @ 4-byte Spill
	movs	r0, #0
	strd	r0, r0, [sp, #60]
	str	r0, [sp, #68]
	str.w	r0, [sp, #71]
	add	r0, sp, #60
	mov	r7, r1
	mov	r1, r2
	mov	r6, r2
	mov	r2, r10
	rsb.w	r11, r10, #14
	mov	r4, r12
	bl	memcpy
	add	r2, sp, #60
	ldm	r2, {r0, r1, r2}
	ldr.w	r3, [sp, #71]
	str.w	r11, [sp, #48]                  @ 4-byte Spill
	strb.w	r11, [sp, #76]
	mov	r11, r4
	ldr	r4, [sp, #152]
	str.w	r0, [sp, #77]
	str.w	r1, [sp, #81]
	str.w	r2, [sp, #85]
	str	r3, [sp, #88]
	add	r1, sp, #76
	mov	r0, r7
	movs	r2, #16
	movs	r3, #0
	strd	r9, r11, [sp, #8]
	str	r4, [sp]
	bl	aes_v7m.aes_ctr.add_in_batches.add_keystream
	ldr	r0, [sp, #144]
	str.w	r9, [sp, #32]
	str	r0, [sp, #16]
	ldr	r0, [sp, #148]
	mov	r9, r4
	strd	r0, r9, [sp, #20]
	str	r7, [sp, #52]                   @ 4-byte Spill
	mov	r0, r7
	mov	r7, r6
	mov	r1, r6
	ldrd	r3, r6, [sp, #132]
	add	r4, sp, #60
	mov	r2, r10
	str.w	r11, [sp, #36]
	str	r4, [sp, #40]
	strd	r5, r8, [sp]
	str	r6, [sp, #8]
	bl	aes_v7m.ccm.message.put_tag
	ldr	r2, [sp, #72]
	add	r3, sp, #60
	ldm	r3, {r0, r1, r3}
	str	r2, [sp, #88]
	add	r2, sp, #76
	stm	r2!, {r0, r1, r3}
	add	r6, sp, #76
	ldr	r1, [sp, #168]
	mov	r0, r6
	mov	r2, r5
	bl	memcpy
	mov	r0, r6
	mov	r1, r4
	bl	aes_v7m.aes_cipher.blocks.difference
	cbz	r0, .Laes_v7m_BB41_10
@ %bb.9:                                @ %join.7
	movs	r5, #0
	add	r0, sp, #60
	mov	r1, r7
	mov	r2, r10
	strd	r5, r5, [sp, #60]
	str	r5, [sp, #68]
	str.w	r5, [sp, #71]
	bl	memcpy
	ldr	r0, [sp, #48]                   @ 4-byte Reload
	add	r2, sp, #60
	strb.w	r0, [sp, #76]
	ldm	r2, {r0, r1, r2}
	str.w	r1, [sp, #81]
	str.w	r0, [sp, #77]
	ldrd	r1, r0, [sp, #160]
	ldr.w	r3, [sp, #71]
	strd	r1, r0, [sp, #8]
	ldr	r0, [sp, #52]                   @ 4-byte Reload
	str.w	r2, [sp, #85]
	str	r3, [sp, #88]
	add	r1, sp, #76
	movs	r2, #16
	movs	r3, #0
	str.w	r9, [sp]
	bl	aes_v7m.aes_ctr.add_in_batches.add_keystream
	ldr	r1, [sp, #56]                   @ 4-byte Reload
	movw	r0, #257
	strh	r0, [r1]
	strb	r5, [r1, #2]
	add	sp, #92
	pop.w	{r4, r5, r6, r7, r8, r9, r10, r11, pc}
	.p2align	2
.Laes_v7m_BB41_10:                              @ %then.5
	ldr	r0, [sp, #56]                   @ 4-byte Reload
	movs	r1, #0
	strh	r1, [r0]
	strb	r1, [r0, #2]
	add	sp, #92
	pop.w	{r4, r5, r6, r7, r8, r9, r10, r11, pc}
.Laes_v7m_func_end41:
	.size	aes_v7m.ccm.mode.decrypt, .Laes_v7m_func_end41-aes_v7m.ccm.mode.decrypt
	.cantunwind
	.fnend
                                        @ -- End function
	.section	.text.aes_v7m.ccm.message.put_tag,"ax",%progbits
	.p2align	2                               @ -- Begin function ccm::message::put_tag::<#4f733d09d7f6c6b4>
	.type	aes_v7m.ccm.message.put_tag,%function
	.code	16
	.thumb_func
aes_v7m.ccm.message.put_tag: @ @aes_v7m.ccm.message.put_tag
	.fnstart
@ %bb.0:                                @ %start
	.save	{r4, r5, r6, r7, r8, r9, r10, r11, lr}
	push.w	{r4, r5, r6, r7, r8, r9, r10, r11, lr}
	.pad	#100
	sub	sp, #100
	mov	r6, r2
	ldrd	r3, r2, [sp, #168]
	mov	r10, r0
	ldrd	r0, r12, [sp, #136]
	rev	r2, r2
	rev	r3, r3
	strd	r2, r3, [sp, #56]
	subs	r2, r0, #2
	mov.w	r4, #0
	sbcs	r0, r12, #0
	adc	r0, r4, #0
	ldrd	r7, r5, [sp, #152]
	strd	r4, r4, [sp, #48]
	strd	r4, r4, [sp, #40]
	teq.w	r0, #1
	it	ne
	movne	r2, #0
	and	r0, r2, #62
	movs	r2, #78
	rsb	r0, r6, r0, lsl #2
	orrs.w	r8, r7, r5
	it	eq
	moveq	r2, #14
	ldr.w	r9, [sp, #176]
	add.w	r11, r2, r0
	add	r0, sp, #68
	mov	r2, r6
	strd	r4, r4, [sp, #68]
	str	r4, [sp, #76]
	str.w	r4, [sp, #79]
	str	r1, [sp, #36]                   @ 4-byte Spill
	bl	memcpy
	add	r3, sp, #68
	ldm	r3, {r1, r2, r3}
	strb.w	r11, [sp, #84]
	add.w	r11, sp, #84
	str.w	r1, [sp, #85]
	add	r1, sp, #56
	add.w	r0, r11, #1
	ldr.w	r7, [sp, #79]
	add	r1, r6
	str.w	r2, [sp, #89]
	add	r0, r6
	subs	r1, #7
	rsb.w	r2, r6, #15
	str.w	r3, [sp, #93]
	str	r7, [sp, #96]
	bl	memcpy
	ldr	r0, [sp, #84]
	ldr	r1, [sp, #88]
	ldr	r2, [sp, #92]
	ldr	r3, [sp, #96]
	str.w	r0, [r9]
	str.w	r1, [r9, #4]
	str.w	r2, [r9, #8]
	str.w	r3, [r9, #12]
	ldr.w	r0, [r10]
	ldr.w	r2, [r10, #8]
	ldr.w	r3, [r10, #12]
	movs	r5, #1
	strd	r5, r4, [sp, #8]
	str.w	r9, [sp]
	bl	aes_v7m.aes_narrow.blocks.process_all_batches.1
	bl	aes_v7m.aes_cipher.zeroize.stack.wipe_stack.1024
	ldr	r2, [sp, #160]
	cmp.w	r8, #0
	beq	.Laes_v7m_BB42_8
@ %bb.1:                                @ %join.3.i
	ldr.w	r8, [sp, #152]
	ldr.w	r12, [sp, #156]
	lsr.w	r0, r8, #8
	orr.w	r0, r0, r12, lsl #24
	rsbs.w	r0, r0, #254
	ldr	r1, [sp, #144]
	sbcs.w	r0, r4, r12, lsr #8
	rev.w	r0, r8
	strd	r4, r4, [sp, #92]
	strd	r4, r4, [sp, #84]
	blo	.Laes_v7m_BB42_4
@ %bb.2:                                @ %then.1.i.i
	add	r2, sp, #68
	adds	r2, #6
	subs.w	r2, r11, r2
	mov.w	r3, #0
	sbc	r7, r3, #0
	rsbs.w	r2, r2, #1
	sbcs.w	r2, r3, r7
	lsr.w	r2, r0, #16
	mov	r5, r11
	blo	.Laes_v7m_BB42_5
@ %bb.3:                                @ %join.7.i.i.i.i.i.i.preheader.i.i
	lsrs	r0, r0, #24
	strb.w	r2, [sp, #84]
	strb.w	r0, [sp, #85]
	b	.Laes_v7m_BB42_6
	.p2align	2
.Laes_v7m_BB42_4:                               @ %join.3.i.i
	mov	r5, r11
	movw	r2, #65279
	str.w	r0, [sp, #86]
	movs	r0, #6
	strh.w	r2, [sp, #84]
	b	.Laes_v7m_BB42_7
	.p2align	2
.Laes_v7m_BB42_5:                               @ %apart.2.i.i.i.i.i.i.i.i
	strh.w	r2, [sp, #84]
.Laes_v7m_BB42_6:                               @ %"ccm::formatting::put_length.exit.i"
	movs	r0, #2
.Laes_v7m_BB42_7:                               @ %"ccm::formatting::put_length.exit.i"
	rsb.w	r2, r0, #16
	subs.w	r3, r2, r8
	mov.w	r3, #0
	sbcs.w	r3, r3, r12
	mov	r3, r12
	ite	lo
	movlo	r3, #0
	movhs	r2, r8
	subs.w	r8, r8, r2
	add	r0, r5
	add.w	r11, r1, r2
	sbc.w	r7, r12, r3
	bl	memcpy
	movs	r3, #16
	mov	r0, r10
	mov	r1, r9
	mov	r2, r5
	movs	r5, #0
	strd	r3, r5, [sp]
	bl	aes_v7m.cmac.chaining.chain
	mov	r0, r10
	mov	r1, r9
	mov	r2, r11
	strd	r8, r7, [sp]
	bl	aes_v7m.cmac.chaining.chain
	ldr	r2, [sp, #160]
	movs	r5, #1
.Laes_v7m_BB42_8:                               @ %"ccm::message::chain_additional::<#4f733d09d7f6c6b4>.exit"
	ldrd	r3, r7, [sp, #168]
	mov	r0, r10
	mov	r1, r9
	strd	r3, r7, [sp]
	bl	aes_v7m.cmac.chaining.chain
	ldr	r1, [sp, #36]                   @ 4-byte Reload
	add	r0, sp, #84
	mov	r2, r6
	rsb.w	r7, r6, #14
	str.w	r4, [sp, #95]
	str	r4, [sp, #92]
	strd	r4, r4, [sp, #84]
	bl	memcpy
	add	r2, sp, #84
	ldm	r2, {r0, r1, r2}
	ldrh.w	r3, [sp, #96]
	ldrb.w	r6, [sp, #98]
	str.w	r0, [sp, #41]
	str.w	r2, [sp, #49]
	strh.w	r3, [sp, #53]
	ldr.w	r0, [r10]
	ldr.w	r2, [r10, #8]
	ldr.w	r3, [r10, #12]
	str.w	r1, [sp, #45]
	add	r1, sp, #40
	strb.w	r7, [sp, #40]
	strb.w	r6, [sp, #55]
	strd	r5, r4, [sp, #8]
	str	r1, [sp]
	bl	aes_v7m.aes_narrow.blocks.process_all_batches.1
	bl	aes_v7m.aes_cipher.zeroize.stack.wipe_stack.1024
	ldrb.w	r0, [r9, #4]
	ldrb.w	r4, [r9, #14]
	str	r0, [sp, #36]                   @ 4-byte Spill
	ldrb.w	r0, [sp, #54]
	ldrb.w	r1, [r9, #12]
	eors	r0, r4
	ldrb.w	lr, [r9, #15]
	ldrb.w	r5, [sp, #55]
	str	r0, [sp, #28]                   @ 4-byte Spill
	ldrb.w	r0, [sp, #52]
	ldrb.w	r7, [r9, #10]
	eor.w	r5, r5, lr
	eors	r0, r1
	ldrb.w	r1, [sp, #50]
	ldrb.w	r6, [r9, #13]
	str	r5, [sp, #32]                   @ 4-byte Spill
	ldrb.w	r5, [sp, #53]
	ldrb.w	r12, [r9, #8]
	eors	r7, r1
	ldrb.w	r1, [sp, #48]
	ldrb.w	r2, [r9, #11]
	eors	r6, r5
	ldrb.w	r5, [sp, #51]
	ldrb.w	r10, [r9, #6]
	eor.w	lr, r1, r12
	ldrb.w	r1, [sp, #46]
	str	r0, [sp, #20]                   @ 4-byte Spill
	eor.w	r0, r5, r2
	ldrb.w	r3, [r9, #9]
	str	r0, [sp, #16]                   @ 4-byte Spill
	ldrb.w	r5, [sp, #49]
	eor.w	r12, r1, r10
	ldrb.w	r1, [sp, #44]
	ldr	r0, [sp, #36]                   @ 4-byte Reload
	str	r6, [sp, #24]                   @ 4-byte Spill
	eor.w	r6, r5, r3
	eor.w	r3, r1, r0
	ldrb.w	r0, [r9, #3]
	ldrb.w	r4, [sp, #43]
	ldrb.w	r11, [r9, #7]
	eor.w	r2, r4, r0
	ldrb.w	r4, [r9, #1]
	ldrb.w	r0, [sp, #41]
	ldrb.w	r5, [sp, #47]
	eors	r0, r4
	strb.w	r0, [r9, #1]
	ldr	r0, [sp, #16]                   @ 4-byte Reload
	ldrb.w	r8, [r9, #5]
	strb.w	r0, [r9, #11]
	ldr	r0, [sp, #20]                   @ 4-byte Reload
	eor.w	r11, r11, r5
	ldrb.w	r5, [sp, #45]
	strb.w	r0, [r9, #12]
	ldr	r0, [sp, #24]                   @ 4-byte Reload
	eor.w	r8, r8, r5
	ldrb.w	r5, [r9, #2]
	ldrb.w	r10, [sp, #42]
	strb.w	r0, [r9, #13]
	ldr	r0, [sp, #28]                   @ 4-byte Reload
	eor.w	r10, r10, r5
	ldrb.w	r5, [r9]
	ldrb.w	r1, [sp, #40]
	strb.w	r0, [r9, #14]
	ldr	r0, [sp, #32]                   @ 4-byte Reload
	eors	r1, r5
	strb.w	r1, [r9]
	strb.w	r10, [r9, #2]
	strb.w	r2, [r9, #3]
	strb.w	r3, [r9, #4]
	strb.w	r8, [r9, #5]
	strb.w	r12, [r9, #6]
	strb.w	r11, [r9, #7]
	strb.w	lr, [r9, #8]
	strb.w	r6, [r9, #9]
	strb.w	r7, [r9, #10]
	strb.w	r0, [r9, #15]
	add	sp, #100
	pop.w	{r4, r5, r6, r7, r8, r9, r10, r11, pc}
.Laes_v7m_func_end42:
	.size	aes_v7m.ccm.message.put_tag, .Laes_v7m_func_end42-aes_v7m.ccm.message.put_tag
	.cantunwind
	.fnend
                                        @ -- End function
	.section	.text.aes_v7m.ccm.mode.encrypt,"ax",%progbits
	.p2align	2                               @ -- Begin function ccm::mode::encrypt::<#4f733d09d7f6c6b4>
	.type	aes_v7m.ccm.mode.encrypt,%function
	.code	16
	.thumb_func
aes_v7m.ccm.mode.encrypt: @ @aes_v7m.ccm.mode.encrypt
	.fnstart
@ %bb.0:                                @ %start
	.save	{r4, r5, r6, r7, r8, r9, r10, r11, lr}
	push.w	{r4, r5, r6, r7, r8, r9, r10, r11, lr}
	.pad	#92
	sub	sp, #92
	ldrd	r5, lr, [sp, #168]
	mov.w	r8, #0
	subs	r6, r5, #4
	sbc	r4, lr, #0
	rsbs.w	r6, r6, #12
	sbcs.w	r4, r8, r4
	blo	.Laes_v7m_BB43_4
@ %bb.1:                                @ %start
	ands	r4, r5, #1
	bne	.Laes_v7m_BB43_4
@ %bb.2:                                @ %after.1.i
	subs.w	r6, r2, #14
	mvn	r7, #6
	sbc	r4, r3, #0
	subs	r7, r6, r7
	sbcs	r7, r4, #-1
	bhs	.Laes_v7m_BB43_5
@ %bb.3:
	mov.w	r8, #1
.Laes_v7m_BB43_4:                               @ %"ccm::formatting::check.exit.thread"
	movs	r4, #1
	mov	r0, r4
	mov	r1, r8
	add	sp, #92
	pop.w	{r4, r5, r6, r7, r8, r9, r10, r11, pc}
	.p2align	2
.Laes_v7m_BB43_5:                               @ %after.15.i
	ldrd	r11, r10, [sp, #152]
	eor	r7, r2, #7
	orrs	r7, r3
	mov.w	r4, #0
	beq	.Laes_v7m_BB43_8
@ %bb.6:                                @ %"ccm::formatting::check.exit"
	movs	r4, #120
	eor.w	r4, r4, r2, lsl #3
	rsb.w	r7, r4, #32
	lsr.w	r6, r11, r4
	lsl.w	r7, r10, r7
	orrs	r6, r7
	subs.w	r7, r4, #32
	lsr.w	r4, r10, r4
	it	pl
	lsrpl.w	r6, r10, r7
	it	pl
	movpl	r4, #0
	orrs	r4, r6
	it	ne
	movne	r4, #1
	beq	.Laes_v7m_BB43_8
@ %bb.7:
	mov.w	r8, #2
	mov	r0, r4
	mov	r1, r8
	add	sp, #92
	pop.w	{r4, r5, r6, r7, r8, r9, r10, r11, pc}
	.p2align	2
.Laes_v7m_BB43_8:                               @ %arm.1
	ldr	r6, [sp, #144]
	ldrd	r7, r12, [sp, #136]
	str	r6, [sp, #24]
	ldr	r6, [sp, #128]
	add.w	r9, sp, #44
	strd	r11, r10, [sp, #32]
	str.w	r9, [sp, #40]
	strd	r7, r12, [sp, #16]
	strd	r5, lr, [sp]
	mov	r10, r0
	mov	r11, r4
	mov	r4, r1
	mov	r7, r2
	str	r6, [sp, #8]
	bl	aes_v7m.ccm.message.put_tag
	ldr	r0, [sp, #160]
	mov	r1, r9
	mov	r2, r5
	bl	memcpy
	add	r0, sp, #76
	mov	r1, r4
	mov	r2, r7
	rsb.w	r5, r7, #14
	strd	r8, r8, [sp, #76]
	str.w	r8, [sp, #84]
	str.w	r8, [sp, #87]
	bl	memcpy
	add	r2, sp, #76
	ldm	r2, {r0, r1, r2}
	ldr.w	r3, [sp, #87]
	str.w	r0, [sp, #61]
	str.w	r1, [sp, #65]
	ldrd	r0, r1, [sp, #152]
	ldr	r7, [sp, #144]
	str.w	r2, [sp, #69]
	str	r3, [sp, #72]
	strd	r0, r1, [sp, #8]
	add	r1, sp, #60
	mov	r0, r10
	movs	r2, #16
	movs	r3, #0
	strb.w	r5, [sp, #60]
	str	r7, [sp]
	bl	aes_v7m.aes_ctr.add_in_batches.add_keystream
	mov	r4, r11
	mov	r0, r4
	mov	r1, r8
	add	sp, #92
	pop.w	{r4, r5, r6, r7, r8, r9, r10, r11, pc}
.Laes_v7m_func_end43:
	.size	aes_v7m.ccm.mode.encrypt, .Laes_v7m_func_end43-aes_v7m.ccm.mode.encrypt
	.cantunwind
	.fnend
                                        @ -- End function
	.section	.text.aes_v7m.fotsgure_aes_version,"ax",%progbits
	export_aes_v7m	fotsgure_aes_version
	.p2align	2
	.type	aes_v7m.fotsgure_aes_version,%function
	.code	16
	.thumb_func
aes_v7m.fotsgure_aes_version:                   @ @aes_v7m.fotsgure_aes_version
	.fnstart
@ %bb.0:
	mov.w	r0, #400
	b	.Laes_v7m_return_14955
.Laes_v7m_return_14955:
	movs	r1, #0
	movs	r2, #0
	movs	r3, #0
	mov	r12, r1
	bx	lr
.Laes_v7m_func_end44:
	.size	aes_v7m.fotsgure_aes_version, .Laes_v7m_func_end44-aes_v7m.fotsgure_aes_version
	.cantunwind
	.fnend
                                        @ -- End function
	.section	.text.aes_v7m.fotsgure_aes_set_key,"ax",%progbits
	export_aes_v7m	fotsgure_aes_set_key
	.p2align	2
	.type	aes_v7m.fotsgure_aes_set_key,%function
	.code	16
	.thumb_func
aes_v7m.fotsgure_aes_set_key:                   @ @aes_v7m.fotsgure_aes_set_key
	.fnstart
@ %bb.0:
	.save	{r4, r5, r6, r7, r8, lr}
	push.w	{r4, r5, r6, r7, r8, lr}
	mov	r4, r2
	cmp	r2, #32
	beq	.Laes_v7m_BB45_3
@ %bb.1:
	bic	r2, r4, #8
	cmp	r2, #16
	beq	.Laes_v7m_BB45_3
@ %bb.2:                                @ %then.1.i.i
	movs	r1, #0
	mov.w	r2, #484
	bl	memset
	movs	r0, #1
	b	.Laes_v7m_return_14990
	.p2align	2
.Laes_v7m_BB45_3:                               @ %join.3.i.i
	cmp	r1, #0
	it	eq
	addeq.w	r1, r1, #4096
	add.w	r8, r0, #4
	mov	r6, r0
	mov	r0, r8
	mov	r7, r1
	movs	r1, #0
	mov.w	r2, #480
	movs	r5, #0
	bl	memset
	mov	r0, r8
	mov	r1, r7
	mov	r2, r4
	movs	r3, #0
	bl	aes_v7m.aes_narrow.word_room.expand_words
	bl	aes_v7m.aes_cipher.zeroize.stack.wipe_stack.768
	mov	r0, r5
	str	r4, [r6]
	b	.Laes_v7m_return_14990
.Laes_v7m_return_14990:
	movs	r1, #0
	movs	r2, #0
	movs	r3, #0
	mov	r12, r1
	mov	lr, r1
	pop.w	{r4, r5, r6, r7, r8, pc}
.Laes_v7m_func_end45:
	.size	aes_v7m.fotsgure_aes_set_key, .Laes_v7m_func_end45-aes_v7m.fotsgure_aes_set_key
	.cantunwind
	.fnend
                                        @ -- End function
	.section	.text.aes_v7m.fotsgure_aes_key_length,"ax",%progbits
	export_aes_v7m	fotsgure_aes_key_length
	.p2align	2
	.type	aes_v7m.fotsgure_aes_key_length,%function
	.code	16
	.thumb_func
aes_v7m.fotsgure_aes_key_length:                @ @aes_v7m.fotsgure_aes_key_length
	.fnstart
@ %bb.0:
	ldr	r1, [r0]
	bic	r0, r1, #8
	cmp	r0, #16
	mov	r0, r1
	it	ne
	movne	r0, #0
	cmp	r1, #32
	it	eq
	moveq	r0, r1
	b	.Laes_v7m_return_15043
.Laes_v7m_return_15043:
	movs	r1, #0
	movs	r2, #0
	movs	r3, #0
	mov	r12, r1
	bx	lr
.Laes_v7m_func_end46:
	.size	aes_v7m.fotsgure_aes_key_length, .Laes_v7m_func_end46-aes_v7m.fotsgure_aes_key_length
	.cantunwind
	.fnend
                                        @ -- End function
	.section	.text.aes_v7m.fotsgure_aes_wipe,"ax",%progbits
	export_aes_v7m	fotsgure_aes_wipe
	.p2align	2
	.type	aes_v7m.fotsgure_aes_wipe,%function
	.code	16
	.thumb_func
aes_v7m.fotsgure_aes_wipe:                      @ @aes_v7m.fotsgure_aes_wipe
	.fnstart
@ %bb.0:
	.save	{r4, lr}
	push	{r4, lr}
	movs	r1, #0
	mov.w	r2, #484
	adds	r4, r0, #4
	bl	memset
	mov	r0, r4
	pop.w	{r4, lr}
	b	aes_v7m.aes_cipher.zeroize.elements.zeroize_elements.1
.Laes_v7m_func_end47:
	.size	aes_v7m.fotsgure_aes_wipe, .Laes_v7m_func_end47-aes_v7m.fotsgure_aes_wipe
	.cantunwind
	.fnend
                                        @ -- End function
	.section	.text.aes_v7m.fotsgure_aes_encrypt_blocks,"ax",%progbits
	export_aes_v7m	fotsgure_aes_encrypt_blocks
	.p2align	2
	.type	aes_v7m.fotsgure_aes_encrypt_blocks,%function
	.code	16
	.thumb_func
aes_v7m.fotsgure_aes_encrypt_blocks:            @ @aes_v7m.fotsgure_aes_encrypt_blocks
	.fnstart
@ %bb.0:
	.save	{r4, lr}
	push	{r4, lr}
	.pad	#16
	sub	sp, #16
	ldr	r3, [r0]
	cmp	r3, #32
	beq	.Laes_v7m_BB48_3
@ %bb.1:
	bic	r4, r3, #8
	cmp	r4, #16
	beq	.Laes_v7m_BB48_3
@ %bb.2:
	movs	r4, #2
	mov	r0, r4
	add	sp, #16
	b	.Laes_v7m_return_15102
	.p2align	2
.Laes_v7m_BB48_3:                               @ %join.3.i.i
	cmp	r1, #0
	mov.w	r4, #56
	it	eq
	addeq.w	r1, r1, #4096
	lsr.w	lr, r3, #31
	adds.w	r12, r4, r3, lsl #1
	mov.w	r4, #0
	add.w	r0, r0, #4
	adc	r3, lr, #0
	strd	r2, r4, [sp, #8]
	mov	r2, r12
	str	r1, [sp]
	bl	aes_v7m.aes_narrow.blocks.process_all_batches.1
	bl	aes_v7m.aes_cipher.zeroize.stack.wipe_stack.1024
	mov	r0, r4
	add	sp, #16
	b	.Laes_v7m_return_15102
.Laes_v7m_return_15102:
	movs	r1, #0
	movs	r2, #0
	movs	r3, #0
	mov	r12, r1
	mov	lr, r1
	pop	{r4, pc}
.Laes_v7m_func_end48:
	.size	aes_v7m.fotsgure_aes_encrypt_blocks, .Laes_v7m_func_end48-aes_v7m.fotsgure_aes_encrypt_blocks
	.cantunwind
	.fnend
                                        @ -- End function
	.section	.text.aes_v7m.fotsgure_aes_decrypt_blocks,"ax",%progbits
	export_aes_v7m	fotsgure_aes_decrypt_blocks
	.p2align	2
	.type	aes_v7m.fotsgure_aes_decrypt_blocks,%function
	.code	16
	.thumb_func
aes_v7m.fotsgure_aes_decrypt_blocks:            @ @aes_v7m.fotsgure_aes_decrypt_blocks
	.fnstart
@ %bb.0:
	.save	{r4, lr}
	push	{r4, lr}
	.pad	#16
	sub	sp, #16
	ldr	r3, [r0]
	cmp	r3, #32
	beq	.Laes_v7m_BB49_3
@ %bb.1:
	bic	r4, r3, #8
	cmp	r4, #16
	beq	.Laes_v7m_BB49_3
@ %bb.2:
	movs	r4, #2
	mov	r0, r4
	add	sp, #16
	b	.Laes_v7m_return_15158
	.p2align	2
.Laes_v7m_BB49_3:                               @ %join.3.i.i
	cmp	r1, #0
	mov.w	r4, #56
	it	eq
	addeq.w	r1, r1, #4096
	lsr.w	lr, r3, #31
	adds.w	r12, r4, r3, lsl #1
	mov.w	r4, #0
	add.w	r0, r0, #4
	adc	r3, lr, #0
	strd	r2, r4, [sp, #8]
	mov	r2, r12
	str	r1, [sp]
	bl	aes_v7m.aes_narrow.blocks.process_all_batches.2
	bl	aes_v7m.aes_cipher.zeroize.stack.wipe_stack.1024
	mov	r0, r4
	add	sp, #16
	b	.Laes_v7m_return_15158
.Laes_v7m_return_15158:
	movs	r1, #0
	movs	r2, #0
	movs	r3, #0
	mov	r12, r1
	mov	lr, r1
	pop	{r4, pc}
.Laes_v7m_func_end49:
	.size	aes_v7m.fotsgure_aes_decrypt_blocks, .Laes_v7m_func_end49-aes_v7m.fotsgure_aes_decrypt_blocks
	.cantunwind
	.fnend
                                        @ -- End function
	.section	.text.aes_v7m.fotsgure_aes_encrypt_blocks_to,"ax",%progbits
	export_aes_v7m	fotsgure_aes_encrypt_blocks_to
	.p2align	2
	.type	aes_v7m.fotsgure_aes_encrypt_blocks_to,%function
	.code	16
	.thumb_func
aes_v7m.fotsgure_aes_encrypt_blocks_to:         @ @aes_v7m.fotsgure_aes_encrypt_blocks_to
	.fnstart
@ %bb.0:
	.save	{r4, r5, r6, r7, r8, r9, r10, r11, lr}
	push.w	{r4, r5, r6, r7, r8, r9, r10, r11, lr}
	.pad	#20
	sub	sp, #20
	mov	r8, r3
	ldr	r3, [sp, #56]
	cmp	r1, #0
	it	eq
	addeq.w	r1, r1, #4096
	cmp.w	r8, #0
	it	eq
	addeq.w	r8, r8, #4096
	cmp	r2, r3
	bne	.Laes_v7m_BB50_6
@ %bb.1:                                @ %join.3.i.i
	ldr	r3, [r0]
	movs	r5, #2
	subs	r3, #16
	cmp	r3, #16
	bhi	.Laes_v7m_BB50_7
@ %bb.2:                                @ %join.3.i.i
	movs	r6, #1
	lsl.w	r3, r6, r3
	movw	r6, #257
	movt	r6, #1
	tst	r3, r6
	beq	.Laes_v7m_BB50_7
@ %bb.3:                                @ %join.6.i.i
	subs.w	r3, r8, r1
	mov.w	r6, #0
	sbc	r6, r6, #0
	subs.w	r3, r3, r2, lsl #4
	sbcs.w	r3, r6, r2, lsr #28
	bhs	.Laes_v7m_BB50_8
@ %bb.4:                                @ %join.7.i.i.i.i.i.i.i.i.preheader
	cmp	r2, #1
	mov	r3, r2
	it	ls
	movls	r3, #1
	cmp	r2, #4
	and	r12, r3, #3
	bhs	.Laes_v7m_BB50_9
@ %bb.5:
	movs	r5, #0
	b	.Laes_v7m_BB50_12
	.p2align	2
.Laes_v7m_BB50_6:
	movs	r5, #3
.Laes_v7m_BB50_7:                               @ %wide_fotsgure_aes_encrypt_blocks_to.exit
	mov	r0, r5
	add	sp, #20
	b	.Laes_v7m_return_15250
	.p2align	2
.Laes_v7m_BB50_8:                               @ %apart.2.i.i.i.i.i.i.i.i
	lsls	r3, r2, #4
	mov	r5, r0
	mov	r0, r8
	mov	r6, r2
	mov	r2, r3
	bl	memmove
	mov	r0, r5
	mov	r2, r6
	b	.Laes_v7m_BB50_15
	.p2align	2
.Laes_v7m_BB50_9:                               @ %join.7.i.i.i.i.i.i.i.i.preheader.new
	bic	lr, r3, #3
	movs	r5, #0
	movs	r3, #0
	.p2align	2
.Laes_v7m_BB50_10:                              @ %join.7.i.i.i.i.i.i.i.i
                                        @ =>This Inner Loop Header: Depth=1
	add.w	r4, r1, r5, lsl #4
	lsls	r6, r5, #4
	ldr.w	r9, [r4, #4]
	ldr.w	r10, [r4, #8]
	ldr	r4, [r4, #12]
	add.w	r7, r8, r5, lsl #4
	ldr.w	r11, [r1, r6]
	str	r4, [r7, #12]
	orr	r4, r5, #1
	str.w	r11, [r8, r6]
	str.w	r10, [r7, #8]
	str.w	r9, [r7, #4]
	lsls	r6, r4, #4
	add.w	r7, r8, r4, lsl #4
	add.w	r4, r1, r4, lsl #4
	ldr.w	r9, [r4, #4]
	ldr.w	r10, [r4, #8]
	ldr	r4, [r4, #12]
	ldr.w	r11, [r1, r6]
	str	r4, [r7, #12]
	orr	r4, r5, #2
	str.w	r11, [r8, r6]
	str.w	r10, [r7, #8]
	str.w	r9, [r7, #4]
	lsls	r6, r4, #4
	add.w	r7, r8, r4, lsl #4
	add.w	r4, r1, r4, lsl #4
	ldr.w	r9, [r4, #4]
	ldr.w	r10, [r4, #8]
	ldr	r4, [r4, #12]
	ldr.w	r11, [r1, r6]
	str	r4, [r7, #12]
	orr	r4, r5, #3
	str.w	r11, [r8, r6]
	str.w	r10, [r7, #8]
	str.w	r9, [r7, #4]
	lsls	r6, r4, #4
	add.w	r7, r8, r4, lsl #4
	add.w	r4, r1, r4, lsl #4
	ldr.w	r9, [r4, #4]
	ldr.w	r10, [r4, #8]
	ldr	r4, [r4, #12]
	adds	r5, #4
	ldr.w	r11, [r1, r6]
	str	r4, [r7, #12]
	adc	r3, r3, #0
	eor.w	r4, r5, lr
	orrs	r4, r3
	str.w	r11, [r8, r6]
	str.w	r10, [r7, #8]
	str.w	r9, [r7, #4]
	bne	.Laes_v7m_BB50_10
@ %bb.11:                               @ %"core::slice::edits::slice+T::copy_from_slice::<#b9e87c6de6ee7501>.exit.i.i.loopexit.unr-lcssa"
	cmp.w	r12, #0
	beq	.Laes_v7m_BB50_15
.Laes_v7m_BB50_12:                              @ %join.7.i.i.i.i.i.i.i.i.epil.preheader
	lsls	r3, r5, #4
	add.w	r6, r1, r5, lsl #4
	ldr.w	lr, [r6, #4]
	ldr.w	r9, [r6, #8]
	ldr	r4, [r1, r3]
	ldr	r6, [r6, #12]
	add.w	r7, r8, r5, lsl #4
	cmp.w	r12, #1
	str.w	r4, [r8, r3]
	str	r6, [r7, #12]
	str.w	r9, [r7, #8]
	str.w	lr, [r7, #4]
	beq	.Laes_v7m_BB50_15
@ %bb.13:                               @ %join.7.i.i.i.i.i.i.i.i.epil.1
	adds	r3, r5, #1
	lsls	r7, r3, #4
	add.w	r6, r8, r3, lsl #4
	add.w	r3, r1, r3, lsl #4
	ldr.w	lr, [r3, #4]
	ldr.w	r9, [r3, #8]
	ldr	r4, [r1, r7]
	ldr	r3, [r3, #12]
	cmp.w	r12, #2
	str.w	r4, [r8, r7]
	str	r3, [r6, #12]
	str.w	r9, [r6, #8]
	str.w	lr, [r6, #4]
	beq	.Laes_v7m_BB50_15
@ %bb.14:                               @ %join.7.i.i.i.i.i.i.i.i.epil.2
	adds	r3, r5, #2
	lsls	r7, r3, #4
	add.w	r6, r8, r3, lsl #4
	add.w	r3, r1, r3, lsl #4
	ldr	r5, [r3, #4]
	ldr	r4, [r3, #8]
	ldr	r1, [r1, r7]
	ldr	r3, [r3, #12]
	str.w	r1, [r8, r7]
	str	r3, [r6, #12]
	str	r4, [r6, #8]
	str	r5, [r6, #4]
.Laes_v7m_BB50_15:                              @ %"core::slice::edits::slice+T::copy_from_slice::<#b9e87c6de6ee7501>.exit.i.i"
	ldr	r1, [r0], #4
	movs	r7, #56
	lsrs	r3, r1, #31
	adds.w	r1, r7, r1, lsl #1
	mov.w	r5, #0
	adc	r3, r3, #0
	strd	r2, r5, [sp, #8]
	mov	r2, r1
	str.w	r8, [sp]
	bl	aes_v7m.aes_narrow.blocks.process_all_batches.1
	bl	aes_v7m.aes_cipher.zeroize.stack.wipe_stack.1024
	mov	r0, r5
	add	sp, #20
	b	.Laes_v7m_return_15250
.Laes_v7m_return_15250:
	movs	r1, #0
	movs	r2, #0
	movs	r3, #0
	mov	r12, r1
	mov	lr, r1
	pop.w	{r4, r5, r6, r7, r8, r9, r10, r11, pc}
.Laes_v7m_func_end50:
	.size	aes_v7m.fotsgure_aes_encrypt_blocks_to, .Laes_v7m_func_end50-aes_v7m.fotsgure_aes_encrypt_blocks_to
	.cantunwind
	.fnend
                                        @ -- End function
	.section	.text.aes_v7m.fotsgure_aes_decrypt_blocks_to,"ax",%progbits
	export_aes_v7m	fotsgure_aes_decrypt_blocks_to
	.p2align	2
	.type	aes_v7m.fotsgure_aes_decrypt_blocks_to,%function
	.code	16
	.thumb_func
aes_v7m.fotsgure_aes_decrypt_blocks_to:         @ @aes_v7m.fotsgure_aes_decrypt_blocks_to
	.fnstart
@ %bb.0:
	.save	{r4, r5, r6, r7, r8, r9, r10, r11, lr}
	push.w	{r4, r5, r6, r7, r8, r9, r10, r11, lr}
	.pad	#20
	sub	sp, #20
	mov	r8, r3
	ldr	r3, [sp, #56]
	cmp	r1, #0
	it	eq
	addeq.w	r1, r1, #4096
	cmp.w	r8, #0
	it	eq
	addeq.w	r8, r8, #4096
	cmp	r2, r3
	bne	.Laes_v7m_BB51_6
@ %bb.1:                                @ %join.3.i.i
	ldr	r3, [r0]
	movs	r5, #2
	subs	r3, #16
	cmp	r3, #16
	bhi	.Laes_v7m_BB51_7
@ %bb.2:                                @ %join.3.i.i
	movs	r6, #1
	lsl.w	r3, r6, r3
	movw	r6, #257
	movt	r6, #1
	tst	r3, r6
	beq	.Laes_v7m_BB51_7
@ %bb.3:                                @ %join.6.i.i
	subs.w	r3, r8, r1
	mov.w	r6, #0
	sbc	r6, r6, #0
	subs.w	r3, r3, r2, lsl #4
	sbcs.w	r3, r6, r2, lsr #28
	bhs	.Laes_v7m_BB51_8
@ %bb.4:                                @ %join.7.i.i.i.i.i.i.i.i.preheader
	cmp	r2, #1
	mov	r3, r2
	it	ls
	movls	r3, #1
	cmp	r2, #4
	and	r12, r3, #3
	bhs	.Laes_v7m_BB51_9
@ %bb.5:
	movs	r5, #0
	b	.Laes_v7m_BB51_12
	.p2align	2
.Laes_v7m_BB51_6:
	movs	r5, #3
.Laes_v7m_BB51_7:                               @ %wide_fotsgure_aes_decrypt_blocks_to.exit
	mov	r0, r5
	add	sp, #20
	b	.Laes_v7m_return_15454
	.p2align	2
.Laes_v7m_BB51_8:                               @ %apart.2.i.i.i.i.i.i.i.i
	lsls	r3, r2, #4
	mov	r5, r0
	mov	r0, r8
	mov	r6, r2
	mov	r2, r3
	bl	memmove
	mov	r0, r5
	mov	r2, r6
	b	.Laes_v7m_BB51_15
	.p2align	2
.Laes_v7m_BB51_9:                               @ %join.7.i.i.i.i.i.i.i.i.preheader.new
	bic	lr, r3, #3
	movs	r5, #0
	movs	r3, #0
	.p2align	2
.Laes_v7m_BB51_10:                              @ %join.7.i.i.i.i.i.i.i.i
                                        @ =>This Inner Loop Header: Depth=1
	add.w	r4, r1, r5, lsl #4
	lsls	r6, r5, #4
	ldr.w	r9, [r4, #4]
	ldr.w	r10, [r4, #8]
	ldr	r4, [r4, #12]
	add.w	r7, r8, r5, lsl #4
	ldr.w	r11, [r1, r6]
	str	r4, [r7, #12]
	orr	r4, r5, #1
	str.w	r11, [r8, r6]
	str.w	r10, [r7, #8]
	str.w	r9, [r7, #4]
	lsls	r6, r4, #4
	add.w	r7, r8, r4, lsl #4
	add.w	r4, r1, r4, lsl #4
	ldr.w	r9, [r4, #4]
	ldr.w	r10, [r4, #8]
	ldr	r4, [r4, #12]
	ldr.w	r11, [r1, r6]
	str	r4, [r7, #12]
	orr	r4, r5, #2
	str.w	r11, [r8, r6]
	str.w	r10, [r7, #8]
	str.w	r9, [r7, #4]
	lsls	r6, r4, #4
	add.w	r7, r8, r4, lsl #4
	add.w	r4, r1, r4, lsl #4
	ldr.w	r9, [r4, #4]
	ldr.w	r10, [r4, #8]
	ldr	r4, [r4, #12]
	ldr.w	r11, [r1, r6]
	str	r4, [r7, #12]
	orr	r4, r5, #3
	str.w	r11, [r8, r6]
	str.w	r10, [r7, #8]
	str.w	r9, [r7, #4]
	lsls	r6, r4, #4
	add.w	r7, r8, r4, lsl #4
	add.w	r4, r1, r4, lsl #4
	ldr.w	r9, [r4, #4]
	ldr.w	r10, [r4, #8]
	ldr	r4, [r4, #12]
	adds	r5, #4
	ldr.w	r11, [r1, r6]
	str	r4, [r7, #12]
	adc	r3, r3, #0
	eor.w	r4, r5, lr
	orrs	r4, r3
	str.w	r11, [r8, r6]
	str.w	r10, [r7, #8]
	str.w	r9, [r7, #4]
	bne	.Laes_v7m_BB51_10
@ %bb.11:                               @ %"core::slice::edits::slice+T::copy_from_slice::<#b9e87c6de6ee7501>.exit.i.i.loopexit.unr-lcssa"
	cmp.w	r12, #0
	beq	.Laes_v7m_BB51_15
.Laes_v7m_BB51_12:                              @ %join.7.i.i.i.i.i.i.i.i.epil.preheader
	lsls	r3, r5, #4
	add.w	r6, r1, r5, lsl #4
	ldr.w	lr, [r6, #4]
	ldr.w	r9, [r6, #8]
	ldr	r4, [r1, r3]
	ldr	r6, [r6, #12]
	add.w	r7, r8, r5, lsl #4
	cmp.w	r12, #1
	str.w	r4, [r8, r3]
	str	r6, [r7, #12]
	str.w	r9, [r7, #8]
	str.w	lr, [r7, #4]
	beq	.Laes_v7m_BB51_15
@ %bb.13:                               @ %join.7.i.i.i.i.i.i.i.i.epil.1
	adds	r3, r5, #1
	lsls	r7, r3, #4
	add.w	r6, r8, r3, lsl #4
	add.w	r3, r1, r3, lsl #4
	ldr.w	lr, [r3, #4]
	ldr.w	r9, [r3, #8]
	ldr	r4, [r1, r7]
	ldr	r3, [r3, #12]
	cmp.w	r12, #2
	str.w	r4, [r8, r7]
	str	r3, [r6, #12]
	str.w	r9, [r6, #8]
	str.w	lr, [r6, #4]
	beq	.Laes_v7m_BB51_15
@ %bb.14:                               @ %join.7.i.i.i.i.i.i.i.i.epil.2
	adds	r3, r5, #2
	lsls	r7, r3, #4
	add.w	r6, r8, r3, lsl #4
	add.w	r3, r1, r3, lsl #4
	ldr	r5, [r3, #4]
	ldr	r4, [r3, #8]
	ldr	r1, [r1, r7]
	ldr	r3, [r3, #12]
	str.w	r1, [r8, r7]
	str	r3, [r6, #12]
	str	r4, [r6, #8]
	str	r5, [r6, #4]
.Laes_v7m_BB51_15:                              @ %"core::slice::edits::slice+T::copy_from_slice::<#b9e87c6de6ee7501>.exit.i.i"
	ldr	r1, [r0], #4
	movs	r7, #56
	lsrs	r3, r1, #31
	adds.w	r1, r7, r1, lsl #1
	mov.w	r5, #0
	adc	r3, r3, #0
	strd	r2, r5, [sp, #8]
	mov	r2, r1
	str.w	r8, [sp]
	bl	aes_v7m.aes_narrow.blocks.process_all_batches.2
	bl	aes_v7m.aes_cipher.zeroize.stack.wipe_stack.1024
	mov	r0, r5
	add	sp, #20
	b	.Laes_v7m_return_15454
.Laes_v7m_return_15454:
	movs	r1, #0
	movs	r2, #0
	movs	r3, #0
	mov	r12, r1
	mov	lr, r1
	pop.w	{r4, r5, r6, r7, r8, r9, r10, r11, pc}
.Laes_v7m_func_end51:
	.size	aes_v7m.fotsgure_aes_decrypt_blocks_to, .Laes_v7m_func_end51-aes_v7m.fotsgure_aes_decrypt_blocks_to
	.cantunwind
	.fnend
                                        @ -- End function
	.section	.text.aes_v7m.fotsgure_aes_add_keystream,"ax",%progbits
	export_aes_v7m	fotsgure_aes_add_keystream
	.p2align	2
	.type	aes_v7m.fotsgure_aes_add_keystream,%function
	.code	16
	.thumb_func
aes_v7m.fotsgure_aes_add_keystream:             @ @aes_v7m.fotsgure_aes_add_keystream
	.fnstart
@ %bb.0:
	.save	{r4, r5, r6, r7, lr}
	push	{r4, r5, r6, r7, lr}
	.pad	#36
	sub	sp, #36
	mov	r12, r2
	cmp	r2, #0
	ldrd	r2, lr, [r1, #16]
	it	eq
	addeq.w	r12, r12, #4096
	adds	r4, r2, r3
	adcs	r4, lr, #0
	mov.w	r4, #0
	adcs	r4, r4, #0
	beq	.Laes_v7m_BB52_3
@ %bb.1:
	movs	r4, #4
.Laes_v7m_BB52_2:                               @ %wide_fotsgure_aes_add_keystream.exit
	mov	r0, r4
	add	sp, #36
	b	.Laes_v7m_return_15626
	.p2align	2
.Laes_v7m_BB52_3:                               @ %join.3.i.i.i
	ldr	r5, [r0]
	movs	r4, #2
	sub.w	r6, r5, #16
	cmp	r6, #16
	bhi	.Laes_v7m_BB52_2
@ %bb.4:                                @ %join.3.i.i.i
	movs	r7, #1
	lsl.w	r6, r7, r6
	movw	r7, #257
	movt	r7, #1
	tst	r6, r7
	beq	.Laes_v7m_BB52_2
@ %bb.5:                                @ %then.1.i.i
	movs	r6, #56
	adds	r0, #4
	lsrs	r4, r5, #31
	adds.w	r5, r6, r5, lsl #1
	adc	r6, r4, #0
	str	r0, [sp, #16]
	movs	r4, #0
	add	r0, sp, #20
	stm	r0!, {r4, r5, r6}
	strd	r3, r4, [sp, #8]
	add	r0, sp, #16
	mov	r6, r3
	mov	r3, lr
	mov	r5, r1
	str.w	r12, [sp]
	bl	aes_v7m.aes_ctr.add_in_batches.add_keystream
	ldrd	r0, r1, [r5, #16]
	adds	r0, r0, r6
	adc	r1, r1, #0
	strd	r0, r1, [r5, #16]
	mov	r0, r4
	add	sp, #36
	b	.Laes_v7m_return_15626
.Laes_v7m_return_15626:
	movs	r1, #0
	movs	r2, #0
	movs	r3, #0
	mov	r12, r1
	mov	lr, r1
	pop	{r4, r5, r6, r7, pc}
.Laes_v7m_func_end52:
	.size	aes_v7m.fotsgure_aes_add_keystream, .Laes_v7m_func_end52-aes_v7m.fotsgure_aes_add_keystream
	.cantunwind
	.fnend
                                        @ -- End function
	.section	.text.aes_v7m.fotsgure_aes_add_keystream_to,"ax",%progbits
	export_aes_v7m	fotsgure_aes_add_keystream_to
	.p2align	2
	.type	aes_v7m.fotsgure_aes_add_keystream_to,%function
	.code	16
	.thumb_func
aes_v7m.fotsgure_aes_add_keystream_to:          @ @aes_v7m.fotsgure_aes_add_keystream_to
	.fnstart
@ %bb.0:
	.save	{r4, r5, r6, r7, r8, r9, r10, lr}
	push.w	{r4, r5, r6, r7, r8, r9, r10, lr}
	.pad	#32
	sub	sp, #32
	ldrd	r9, r7, [sp, #64]
	cmp	r2, #0
	it	eq
	addeq.w	r2, r2, #4096
	cmp.w	r9, #0
	it	eq
	addeq.w	r9, r9, #4096
	cmp	r3, r7
	bne	.Laes_v7m_BB53_4
@ %bb.1:                                @ %join.3.i.i
	ldrd	r7, r6, [r1, #16]
	adds	r7, r7, r3
	adcs	r7, r6, #0
	mov.w	r7, #0
	adcs	r7, r7, #0
	beq	.Laes_v7m_BB53_5
@ %bb.2:
	movs	r5, #4
.Laes_v7m_BB53_3:                               @ %wide_fotsgure_aes_add_keystream_to.exit
	mov	r0, r5
	add	sp, #32
	b	.Laes_v7m_return_15711
	.p2align	2
.Laes_v7m_BB53_4:
	movs	r5, #3
	mov	r0, r5
	add	sp, #32
	b	.Laes_v7m_return_15711
	.p2align	2
.Laes_v7m_BB53_5:                               @ %join.3.i.i.i
	ldr	r7, [r0]
	movs	r5, #2
	subs	r7, #16
	cmp	r7, #16
	bhi	.Laes_v7m_BB53_3
@ %bb.6:                                @ %join.3.i.i.i
	movs	r6, #1
	movw	r8, #257
	lsl.w	r7, r6, r7
	movt	r8, #1
	tst.w	r7, r8
	beq	.Laes_v7m_BB53_3
@ %bb.7:                                @ %join.6.i.i
	subs.w	r7, r9, r2
	mov.w	r6, #0
	sbc	r6, r6, #0
	subs	r7, r7, r3
	sbcs	r7, r6, #0
	bhs	.Laes_v7m_BB53_10
@ %bb.8:                                @ %join.7.i.i.i.i.i.i.i.i.preheader
	cmp	r3, #4
	and	r12, r3, #3
	bhs	.Laes_v7m_BB53_11
@ %bb.9:
	movs	r6, #0
	b	.Laes_v7m_BB53_14
	.p2align	2
.Laes_v7m_BB53_10:                              @ %apart.2.i.i.i.i.i.i.i.i
	mov	r5, r0
	mov	r0, r9
	mov	r6, r1
	mov	r1, r2
	mov	r2, r3
	mov	r7, r3
	bl	memmove
	mov	r0, r5
	mov	r3, r7
	mov	r1, r6
	b	.Laes_v7m_BB53_17
	.p2align	2
.Laes_v7m_BB53_11:                              @ %join.7.i.i.i.i.i.i.i.i.preheader.new
	bic	lr, r3, #3
	movs	r6, #0
	movs	r5, #0
	.p2align	2
.Laes_v7m_BB53_12:                              @ %join.7.i.i.i.i.i.i.i.i
                                        @ =>This Inner Loop Header: Depth=1
	ldrb	r7, [r2, r6]
	strb.w	r7, [r9, r6]
	orr	r7, r6, #1
	ldrb	r4, [r2, r7]
	strb.w	r4, [r9, r7]
	orr	r4, r6, #2
	ldrb	r7, [r2, r4]
	strb.w	r7, [r9, r4]
	orr	r4, r6, #3
	adds	r6, #4
	ldrb.w	r10, [r2, r4]
	adc	r5, r5, #0
	eor.w	r7, r6, lr
	orrs	r7, r5
	strb.w	r10, [r9, r4]
	bne	.Laes_v7m_BB53_12
@ %bb.13:                               @ %"core::slice::edits::slice+T::copy_from_slice::<i8,20'core::clone::U8Clone{}>.exit.i.i.loopexit.unr-lcssa"
	cmp.w	r12, #0
	beq	.Laes_v7m_BB53_17
.Laes_v7m_BB53_14:                              @ %join.7.i.i.i.i.i.i.i.i.epil.preheader
	ldrb	r7, [r2, r6]
	cmp.w	r12, #1
	strb.w	r7, [r9, r6]
	beq	.Laes_v7m_BB53_17
@ %bb.15:                               @ %join.7.i.i.i.i.i.i.i.i.epil.1
	adds	r7, r6, #1
	ldrb	r5, [r2, r7]
	cmp.w	r12, #2
	strb.w	r5, [r9, r7]
	beq	.Laes_v7m_BB53_17
@ %bb.16:                               @ %join.7.i.i.i.i.i.i.i.i.epil.2
	adds	r7, r6, #2
	ldrb	r2, [r2, r7]
	strb.w	r2, [r9, r7]
.Laes_v7m_BB53_17:                              @ %"core::slice::edits::slice+T::copy_from_slice::<i8,20'core::clone::U8Clone{}>.exit.i.i"
	ldrd	r2, r12, [r1, #16]
	adds	r7, r2, r3
	adcs	r7, r12, #0
	mov.w	r7, #0
	adcs	r7, r7, #0
	beq	.Laes_v7m_BB53_19
@ %bb.18:
	movs	r5, #4
	mov	r0, r5
	add	sp, #32
	b	.Laes_v7m_return_15711
	.p2align	2
.Laes_v7m_BB53_19:                              @ %join.3.i.i.i.i
	ldr	r7, [r0]
	movs	r5, #2
	sub.w	r6, r7, #16
	cmp	r6, #16
	bhi.w	.Laes_v7m_BB53_3
@ %bb.20:                               @ %join.3.i.i.i.i
	movs	r4, #1
	lsl.w	r6, r4, r6
	tst.w	r6, r8
	beq.w	.Laes_v7m_BB53_3
@ %bb.21:                               @ %then.1.i.i.i
	movs	r5, #56
	adds	r0, #4
	lsrs	r6, r7, #31
	adds.w	r7, r5, r7, lsl #1
	mov.w	r5, #0
	adc	r6, r6, #0
	str	r0, [sp, #16]
	strd	r3, r5, [sp, #8]
	add	r0, sp, #16
	mov	r4, r3
	mov	r3, r12
	strd	r5, r7, [sp, #20]
	str	r6, [sp, #28]
	mov	r6, r1
	str.w	r9, [sp]
	bl	aes_v7m.aes_ctr.add_in_batches.add_keystream
	ldrd	r0, r1, [r6, #16]
	adds	r0, r0, r4
	adc	r1, r1, #0
	strd	r0, r1, [r6, #16]
	mov	r0, r5
	add	sp, #32
	b	.Laes_v7m_return_15711
.Laes_v7m_return_15711:
	movs	r1, #0
	movs	r2, #0
	movs	r3, #0
	mov	r12, r1
	mov	lr, r1
	pop.w	{r4, r5, r6, r7, r8, r9, r10, pc}
.Laes_v7m_func_end53:
	.size	aes_v7m.fotsgure_aes_add_keystream_to, .Laes_v7m_func_end53-aes_v7m.fotsgure_aes_add_keystream_to
	.cantunwind
	.fnend
                                        @ -- End function
	.section	.text.aes_v7m.fotsgure_aes_cbc_encrypt,"ax",%progbits
	export_aes_v7m	fotsgure_aes_cbc_encrypt
	.p2align	2
	.type	aes_v7m.fotsgure_aes_cbc_encrypt,%function
	.code	16
	.thumb_func
aes_v7m.fotsgure_aes_cbc_encrypt:               @ @aes_v7m.fotsgure_aes_cbc_encrypt
	.fnstart
@ %bb.0:
	.save	{r4, r5, r6, r7, r8, r9, r10, r11, lr}
	push.w	{r4, r5, r6, r7, r8, r9, r10, r11, lr}
	.pad	#124
	sub	sp, #124
	ldr	r7, [r0]
	cmp	r2, #0
	it	eq
	addeq.w	r2, r2, #4096
	cmp	r7, #32
	str	r2, [sp, #36]                   @ 4-byte Spill
	str	r3, [sp, #40]                   @ 4-byte Spill
	beq	.Laes_v7m_BB54_3
@ %bb.1:
	bic	r2, r7, #8
	cmp	r2, #16
	beq	.Laes_v7m_BB54_3
@ %bb.2:
	movs	r0, #2
	add	sp, #124
	b	.Laes_v7m_return_15889
	.p2align	2
.Laes_v7m_BB54_3:                               @ %join.3.i.i
	movs	r3, #56
	lsrs	r2, r7, #31
	adds.w	r3, r3, r7, lsl #1
	adc	r2, r2, #0
	str	r3, [sp, #28]                   @ 4-byte Spill
	str	r2, [sp, #32]                   @ 4-byte Spill
	ldr	r6, [r1]
	ldr	r2, [r1, #4]
	ldr	r3, [r1, #12]
	str	r1, [sp, #20]                   @ 4-byte Spill
	ldr	r7, [r1, #8]
	ldr	r1, [sp, #40]                   @ 4-byte Reload
	str	r3, [sp, #120]
	cmp	r1, #0
	strd	r2, r7, [sp, #112]
	str	r6, [sp, #108]
	beq.w	.Laes_v7m_BB54_6
@ %bb.4:                                @ %join.5.lr.ph.i.i.i
	adds	r0, #4
	str	r0, [sp, #24]                   @ 4-byte Spill
	ldrb.w	r0, [sp, #108]
	ldrb.w	r12, [sp, #116]
	str	r0, [sp, #84]                   @ 4-byte Spill
	ldrb.w	r0, [sp, #109]
	ldrb.w	r8, [sp, #117]
	str	r0, [sp, #100]                  @ 4-byte Spill
	ldrb.w	r0, [sp, #110]
	ldrb.w	lr, [sp, #118]
	str	r0, [sp, #92]                   @ 4-byte Spill
	ldrb.w	r0, [sp, #111]
	ldrb.w	r11, [sp, #119]
	str	r0, [sp, #96]                   @ 4-byte Spill
	ldrb.w	r0, [sp, #112]
	ldrb.w	r4, [sp, #120]
	str	r0, [sp, #104]                  @ 4-byte Spill
	ldrb.w	r0, [sp, #113]
	ldrb.w	r10, [sp, #121]
	str	r0, [sp, #88]                   @ 4-byte Spill
	ldrb.w	r0, [sp, #114]
	ldrb.w	r3, [sp, #122]
	str	r0, [sp, #76]                   @ 4-byte Spill
	ldrb.w	r0, [sp, #115]
	ldrb.w	r7, [sp, #123]
	movs	r2, #0
	movs	r5, #0
	str	r0, [sp, #80]                   @ 4-byte Spill
	.p2align	2
.Laes_v7m_BB54_5:                               @ %join.5.i.i.i
                                        @ =>This Inner Loop Header: Depth=1
	str	r5, [sp, #72]                   @ 4-byte Spill
	ldr	r5, [sp, #36]                   @ 4-byte Reload
	add.w	r9, r5, r2, lsl #4
	ldrb.w	r0, [r9, #15]
	ldrb.w	r1, [r9, #14]
	eors	r0, r7
	str	r0, [sp, #68]                   @ 4-byte Spill
	eor.w	r0, r1, r3
	str	r0, [sp, #64]                   @ 4-byte Spill
	ldrb.w	r0, [r9, #13]
	ldrb.w	r1, [r9, #12]
	eor.w	r0, r0, r10
	str	r0, [sp, #60]                   @ 4-byte Spill
	eor.w	r0, r1, r4
	str	r0, [sp, #56]                   @ 4-byte Spill
	ldrb.w	r0, [r9, #11]
	ldrb.w	r1, [r9, #10]
	eor.w	r0, r0, r11
	ldrb.w	r7, [r9, #9]
	str	r0, [sp, #52]                   @ 4-byte Spill
	eor.w	r0, r1, lr
	str	r0, [sp, #48]                   @ 4-byte Spill
	eor.w	r0, r7, r8
	ldrb.w	r7, [r9, #7]
	ldr	r1, [sp, #80]                   @ 4-byte Reload
	str	r0, [sp, #44]                   @ 4-byte Spill
	ldrb.w	r0, [r9, #6]
	eors	r7, r1
	ldr	r1, [sp, #76]                   @ 4-byte Reload
	ldrb.w	r6, [r9, #8]
	eor.w	lr, r0, r1
	ldrb.w	r1, [r9, #5]
	ldr	r0, [sp, #88]                   @ 4-byte Reload
	eor.w	r3, r6, r12
	ldrb.w	r4, [r9, #4]
	eor.w	r12, r1, r0
	ldr	r0, [sp, #104]                  @ 4-byte Reload
	ldrb.w	r10, [r9, #2]
	eor.w	r8, r4, r0
	ldrb.w	r4, [r9, #3]
	ldr	r0, [sp, #96]                   @ 4-byte Reload
	mov	r6, r2
	eors	r4, r0
	ldr	r0, [sp, #92]                   @ 4-byte Reload
	ldrb.w	r1, [r9, #1]
	eor.w	r11, r10, r0
	lsls	r0, r2, #4
	str	r0, [sp, #96]                   @ 4-byte Spill
	ldrb	r0, [r5, r0]
	ldr	r2, [sp, #84]                   @ 4-byte Reload
	ldr.w	r10, [sp, #100]                 @ 4-byte Reload
	eors	r0, r2
	strb.w	r0, [sp, #108]
	ldr	r0, [sp, #44]                   @ 4-byte Reload
	eor.w	r1, r1, r10
	strb.w	r0, [sp, #117]
	ldr	r0, [sp, #48]                   @ 4-byte Reload
	strb.w	r1, [sp, #109]
	strb.w	r0, [sp, #118]
	ldr	r0, [sp, #52]                   @ 4-byte Reload
	movs	r1, #0
	strb.w	r0, [sp, #119]
	ldr	r0, [sp, #56]                   @ 4-byte Reload
	ldr	r2, [sp, #28]                   @ 4-byte Reload
	strb.w	r0, [sp, #120]
	ldr	r0, [sp, #60]                   @ 4-byte Reload
	strb.w	r3, [sp, #116]
	strb.w	r0, [sp, #121]
	ldr	r0, [sp, #64]                   @ 4-byte Reload
	ldr	r3, [sp, #32]                   @ 4-byte Reload
	strb.w	r0, [sp, #122]
	ldr	r0, [sp, #68]                   @ 4-byte Reload
	strb.w	r11, [sp, #110]
	strb.w	r0, [sp, #123]
	movs	r0, #1
	strd	r0, r1, [sp, #8]
	ldr	r0, [sp, #24]                   @ 4-byte Reload
	add	r1, sp, #108
	strb.w	r4, [sp, #111]
	strb.w	r8, [sp, #112]
	strb.w	r12, [sp, #113]
	strb.w	lr, [sp, #114]
	strb.w	r7, [sp, #115]
	str	r1, [sp]
	bl	aes_v7m.aes_narrow.blocks.process_all_batches.1
	bl	aes_v7m.aes_cipher.zeroize.stack.wipe_stack.1024
	ldrb.w	r7, [sp, #116]
	ldrb.w	r1, [sp, #112]
	ldrb.w	r0, [sp, #109]
	str	r7, [sp, #68]                   @ 4-byte Spill
	ldrb.w	r7, [sp, #117]
	str	r1, [sp, #104]                  @ 4-byte Spill
	ldrb.w	r4, [sp, #108]
	str	r7, [sp, #64]                   @ 4-byte Spill
	ldr	r7, [sp, #96]                   @ 4-byte Reload
	str	r0, [sp, #100]                  @ 4-byte Spill
	strb.w	r0, [r9, #1]
	ldr	r0, [sp, #104]                  @ 4-byte Reload
	ldrb.w	r2, [sp, #110]
	ldrb.w	r10, [sp, #114]
	ldrb.w	r3, [sp, #111]
	ldrb.w	r8, [sp, #115]
	ldrb.w	r12, [sp, #120]
	strb	r4, [r5, r7]
	ldr	r5, [sp, #72]                   @ 4-byte Reload
	strb.w	r0, [r9, #4]
	ldr	r0, [sp, #40]                   @ 4-byte Reload
	str	r4, [sp, #84]                   @ 4-byte Spill
	mov	r4, r10
	str	r2, [sp, #92]                   @ 4-byte Spill
	strb.w	r2, [r9, #2]
	adds	r2, r6, #1
	ldrb.w	r1, [sp, #113]
	ldrb.w	lr, [sp, #118]
	ldrb.w	r11, [sp, #119]
	ldrb.w	r10, [sp, #121]
	str	r3, [sp, #96]                   @ 4-byte Spill
	strb.w	r3, [r9, #3]
	str	r4, [sp, #76]                   @ 4-byte Spill
	strb.w	r4, [r9, #6]
	str.w	r8, [sp, #80]                   @ 4-byte Spill
	strb.w	r8, [r9, #7]
	ldr.w	r8, [sp, #64]                   @ 4-byte Reload
	mov	r4, r12
	ldr.w	r12, [sp, #68]                  @ 4-byte Reload
	ldrb.w	r3, [sp, #122]
	adc	r5, r5, #0
	subs	r0, r2, r0
	ldrb.w	r7, [sp, #123]
	sbcs	r0, r5, #0
	str	r1, [sp, #88]                   @ 4-byte Spill
	strb.w	r1, [r9, #5]
	strb.w	r12, [r9, #8]
	strb.w	r8, [r9, #9]
	strb.w	lr, [r9, #10]
	strb.w	r11, [r9, #11]
	strb.w	r4, [r9, #12]
	strb.w	r10, [r9, #13]
	strb.w	r3, [r9, #14]
	strb.w	r7, [r9, #15]
	blo.w	.Laes_v7m_BB54_5
.Laes_v7m_BB54_6:                               @ %"cbc::chain::Cbc::encrypt_blocks::<#4f733d09d7f6c6b4>.exit.i.i"
	add	r3, sp, #108
	ldr	r2, [sp, #120]
	ldm	r3, {r0, r1, r3}
	ldr	r7, [sp, #20]                   @ 4-byte Reload
	str	r2, [r7, #12]
	str	r3, [r7, #8]
	str	r1, [r7, #4]
	str	r0, [r7]
	movs	r0, #0
	add	sp, #124
	b	.Laes_v7m_return_15889
.Laes_v7m_return_15889:
	movs	r1, #0
	movs	r2, #0
	movs	r3, #0
	mov	r12, r1
	mov	lr, r1
	pop.w	{r4, r5, r6, r7, r8, r9, r10, r11, pc}
.Laes_v7m_func_end54:
	.size	aes_v7m.fotsgure_aes_cbc_encrypt, .Laes_v7m_func_end54-aes_v7m.fotsgure_aes_cbc_encrypt
	.cantunwind
	.fnend
                                        @ -- End function
	.section	.text.aes_v7m.fotsgure_aes_cbc_decrypt,"ax",%progbits
	export_aes_v7m	fotsgure_aes_cbc_decrypt
	.p2align	2
	.type	aes_v7m.fotsgure_aes_cbc_decrypt,%function
	.code	16
	.thumb_func
aes_v7m.fotsgure_aes_cbc_decrypt:               @ @aes_v7m.fotsgure_aes_cbc_decrypt
	.fnstart
@ %bb.0:
	.save	{r4, r5, r6, r7, lr}
	push	{r4, r5, r6, r7, lr}
	.pad	#44
	sub	sp, #44
	ldr.w	r12, [r0]
	cmp.w	r12, #32
	beq	.Laes_v7m_BB55_3
@ %bb.1:
	bic	r4, r12, #8
	cmp	r4, #16
	beq	.Laes_v7m_BB55_3
@ %bb.2:
	movs	r4, #2
	mov	r0, r4
	add	sp, #44
	b	.Laes_v7m_return_16130
	.p2align	2
.Laes_v7m_BB55_3:                               @ %join.3.i.i
	cmp	r2, #0
	mov.w	r4, #56
	it	eq
	addeq.w	r2, r2, #4096
	lsr.w	lr, r12, #31
	adds.w	r12, r4, r12, lsl #1
	ldr	r4, [r1]
	ldr	r5, [r1, #4]
	ldr	r6, [r1, #12]
	adc	lr, lr, #0
	ldr	r7, [r1, #8]
	str	r4, [sp, #8]
	movs	r4, #0
	adds	r0, #4
	str	r5, [sp, #12]
	strd	r6, r2, [sp, #20]
	strd	r4, r3, [sp, #28]
	add	r5, sp, #8
	mov	r2, r12
	mov	r3, lr
	str	r7, [sp, #16]
	str	r4, [sp, #36]
	str	r5, [sp]
	mov	r5, r1
	bl	aes_v7m.aes_narrow.borrowed_words.call_to_decrypt
	bl	aes_v7m.aes_cipher.zeroize.stack.wipe_stack.2032
	add	r3, sp, #8
	ldr	r2, [sp, #20]
	ldm	r3, {r0, r1, r3}
	str	r2, [r5, #12]
	str	r3, [r5, #8]
	str	r1, [r5, #4]
	str	r0, [r5]
	mov	r0, r4
	add	sp, #44
	b	.Laes_v7m_return_16130
.Laes_v7m_return_16130:
	movs	r1, #0
	movs	r2, #0
	movs	r3, #0
	mov	r12, r1
	mov	lr, r1
	pop	{r4, r5, r6, r7, pc}
.Laes_v7m_func_end55:
	.size	aes_v7m.fotsgure_aes_cbc_decrypt, .Laes_v7m_func_end55-aes_v7m.fotsgure_aes_cbc_decrypt
	.cantunwind
	.fnend
                                        @ -- End function
	.section	.text.aes_v7m.fotsgure_aes_wrap,"ax",%progbits
	export_aes_v7m	fotsgure_aes_wrap
	.p2align	2
	.type	aes_v7m.fotsgure_aes_wrap,%function
	.code	16
	.thumb_func
aes_v7m.fotsgure_aes_wrap:                      @ @aes_v7m.fotsgure_aes_wrap
	.fnstart
@ %bb.0:
	.save	{r4, r5, r7, lr}
	push	{r4, r5, r7, lr}
	.pad	#32
	sub	sp, #32
	ldr.w	r12, [r0]
	cmp.w	r12, #32
	beq	.Laes_v7m_BB56_3
@ %bb.1:
	bic	lr, r12, #8
	cmp.w	lr, #16
	beq	.Laes_v7m_BB56_3
@ %bb.2:
	movs	r0, #2
	add	sp, #32
	b	.Laes_v7m_return_16204
	.p2align	2
.Laes_v7m_BB56_3:                               @ %join.3.i.i
	cmp	r3, #0
	ldr.w	lr, [sp, #48]
	it	eq
	addeq.w	r3, r3, #4096
	cmp	r1, #0
	add.w	r0, r0, #4
	mov.w	r5, #56
	it	eq
	addeq.w	r1, r1, #4096
	lsr.w	r4, r12, #31
	adds.w	r5, r5, r12, lsl #1
	str	r0, [sp, #16]
	mov.w	r0, #0
	adc	r4, r4, #0
	strd	r0, r5, [sp, #20]
	strd	lr, r0, [sp, #8]
	add	r0, sp, #16
	mov	r5, r3
	movs	r3, #0
	str	r4, [sp, #28]
	str	r5, [sp]
	bl	aes_v7m.key_wrap.wrapping.wrap
	uxtb	r4, r0
	bl	aes_v7m.aes_cipher.zeroize.stack.wipe_stack.512
	mov	r0, r4
	cmp	r4, #0
	it	ne
	movne	r0, #5
	add	sp, #32
	b	.Laes_v7m_return_16204
.Laes_v7m_return_16204:
	movs	r1, #0
	movs	r2, #0
	movs	r3, #0
	mov	r12, r1
	mov	lr, r1
	pop	{r4, r5, r7, pc}
.Laes_v7m_func_end56:
	.size	aes_v7m.fotsgure_aes_wrap, .Laes_v7m_func_end56-aes_v7m.fotsgure_aes_wrap
	.cantunwind
	.fnend
                                        @ -- End function
	.section	.text.aes_v7m.fotsgure_aes_unwrap,"ax",%progbits
	export_aes_v7m	fotsgure_aes_unwrap
	.p2align	2
	.type	aes_v7m.fotsgure_aes_unwrap,%function
	.code	16
	.thumb_func
aes_v7m.fotsgure_aes_unwrap:                    @ @aes_v7m.fotsgure_aes_unwrap
	.fnstart
@ %bb.0:
	.save	{r4, r5, r7, lr}
	push	{r4, r5, r7, lr}
	.pad	#32
	sub	sp, #32
	ldr.w	r12, [r0]
	cmp.w	r12, #32
	beq	.Laes_v7m_BB57_3
@ %bb.1:
	bic	r4, r12, #8
	cmp	r4, #16
	beq	.Laes_v7m_BB57_3
@ %bb.2:
	movs	r0, #2
	add	sp, #32
	b	.Laes_v7m_return_16272
	.p2align	2
.Laes_v7m_BB57_3:                               @ %join.3.i.i
	cmp	r3, #0
	ldr.w	lr, [sp, #48]
	it	eq
	addeq.w	r3, r3, #4096
	cmp	r1, #0
	add.w	r0, r0, #4
	mov.w	r5, #56
	it	eq
	addeq.w	r1, r1, #4096
	lsr.w	r4, r12, #31
	adds.w	r5, r5, r12, lsl #1
	str	r0, [sp, #16]
	mov.w	r0, #0
	adc	r4, r4, #0
	strd	r0, r5, [sp, #20]
	strd	lr, r0, [sp, #8]
	add	r0, sp, #16
	mov	r5, r3
	movs	r3, #0
	str	r4, [sp, #28]
	str	r5, [sp]
	bl	aes_v7m.key_wrap.wrapping.unwrap
	mov	r4, r1
	uxtb	r5, r0
	bl	aes_v7m.aes_cipher.zeroize.stack.wipe_stack.512
	lsls	r0, r4, #24
	mov.w	r0, #6
	it	eq
	moveq	r0, #5
	cmp	r5, #0
	it	eq
	moveq	r0, r5
	add	sp, #32
	b	.Laes_v7m_return_16272
.Laes_v7m_return_16272:
	movs	r1, #0
	movs	r2, #0
	movs	r3, #0
	mov	r12, r1
	mov	lr, r1
	pop	{r4, r5, r7, pc}
.Laes_v7m_func_end57:
	.size	aes_v7m.fotsgure_aes_unwrap, .Laes_v7m_func_end57-aes_v7m.fotsgure_aes_unwrap
	.cantunwind
	.fnend
                                        @ -- End function
	.section	.text.aes_v7m.fotsgure_aes_wrap_padded,"ax",%progbits
	export_aes_v7m	fotsgure_aes_wrap_padded
	.p2align	2
	.type	aes_v7m.fotsgure_aes_wrap_padded,%function
	.code	16
	.thumb_func
aes_v7m.fotsgure_aes_wrap_padded:               @ @aes_v7m.fotsgure_aes_wrap_padded
	.fnstart
@ %bb.0:
	.save	{r4, r5, r7, lr}
	push	{r4, r5, r7, lr}
	.pad	#32
	sub	sp, #32
	ldr.w	r12, [r0]
	cmp.w	r12, #32
	beq	.Laes_v7m_BB58_3
@ %bb.1:
	bic	lr, r12, #8
	cmp.w	lr, #16
	beq	.Laes_v7m_BB58_3
@ %bb.2:
	movs	r0, #2
	add	sp, #32
	b	.Laes_v7m_return_16344
	.p2align	2
.Laes_v7m_BB58_3:                               @ %join.3.i.i
	cmp	r3, #0
	ldr.w	lr, [sp, #48]
	it	eq
	addeq.w	r3, r3, #4096
	cmp	r1, #0
	add.w	r0, r0, #4
	mov.w	r5, #56
	it	eq
	addeq.w	r1, r1, #4096
	lsr.w	r4, r12, #31
	adds.w	r5, r5, r12, lsl #1
	str	r0, [sp, #16]
	mov.w	r0, #0
	adc	r4, r4, #0
	strd	r0, r5, [sp, #20]
	strd	lr, r0, [sp, #8]
	add	r0, sp, #16
	mov	r5, r3
	movs	r3, #0
	str	r4, [sp, #28]
	str	r5, [sp]
	bl	aes_v7m.key_wrap.padded.wrap_padded
	uxtb	r4, r0
	bl	aes_v7m.aes_cipher.zeroize.stack.wipe_stack.512
	mov	r0, r4
	cmp	r4, #0
	it	ne
	movne	r0, #5
	add	sp, #32
	b	.Laes_v7m_return_16344
.Laes_v7m_return_16344:
	movs	r1, #0
	movs	r2, #0
	movs	r3, #0
	mov	r12, r1
	mov	lr, r1
	pop	{r4, r5, r7, pc}
.Laes_v7m_func_end58:
	.size	aes_v7m.fotsgure_aes_wrap_padded, .Laes_v7m_func_end58-aes_v7m.fotsgure_aes_wrap_padded
	.cantunwind
	.fnend
                                        @ -- End function
	.section	.text.aes_v7m.fotsgure_aes_unwrap_padded,"ax",%progbits
	export_aes_v7m	fotsgure_aes_unwrap_padded
	.p2align	2
	.type	aes_v7m.fotsgure_aes_unwrap_padded,%function
	.code	16
	.thumb_func
aes_v7m.fotsgure_aes_unwrap_padded:             @ @aes_v7m.fotsgure_aes_unwrap_padded
	.fnstart
@ %bb.0:
	.save	{r4, r5, r6, r7, r8, lr}
	push.w	{r4, r5, r6, r7, r8, lr}
	.pad	#48
	sub	sp, #48
	ldr	r5, [r0]
	ldr.w	r8, [sp, #76]
	movs	r4, #0
	cmp	r5, #32
	str	r4, [sp, #44]
	str	r4, [sp, #40]
	beq	.Laes_v7m_BB59_3
@ %bb.1:
	bic	r6, r5, #8
	cmp	r6, #16
	beq	.Laes_v7m_BB59_3
@ %bb.2:
	movs	r0, #2
	str.w	r4, [r8]
	add	sp, #48
	b	.Laes_v7m_return_16417
	.p2align	2
.Laes_v7m_BB59_3:                               @ %join.3.i.i
	ldr.w	r12, [sp, #72]
	cmp	r3, #0
	it	eq
	addeq.w	r3, r3, #4096
	cmp	r1, #0
	mov.w	r6, #56
	it	eq
	addeq.w	r1, r1, #4096
	adds	r0, #4
	lsrs	r7, r5, #31
	adds.w	r6, r6, r5, lsl #1
	add.w	lr, sp, #24
	strd	r12, r4, [sp, #16]
	add.w	r12, sp, #24
	adc	r7, r7, #0
	stm.w	lr, {r0, r4, r6, r7}
	strd	r2, r4, [sp]
	add	r0, sp, #40
	mov	r2, r1
	mov	r1, r12
	str	r3, [sp, #8]
	bl	aes_v7m.key_wrap.padded.unwrap_padded
	bl	aes_v7m.aes_cipher.zeroize.stack.wipe_stack.512
	ldrb.w	r0, [sp, #40]
	cbz	r0, .Laes_v7m_BB59_5
@ %bb.4:                                @ %arm.5.i.i
	ldrb.w	r0, [sp, #41]
	movs	r4, #0
	cmp	r0, #0
	mov.w	r0, #6
	it	eq
	moveq	r0, #5
	str.w	r4, [r8]
	add	sp, #48
	b	.Laes_v7m_return_16417
	.p2align	2
.Laes_v7m_BB59_5:                               @ %arm.4.i.i
	ldr	r4, [sp, #44]
	movs	r0, #0
	str.w	r4, [r8]
	add	sp, #48
	b	.Laes_v7m_return_16417
.Laes_v7m_return_16417:
	movs	r1, #0
	movs	r2, #0
	movs	r3, #0
	mov	r12, r1
	mov	lr, r1
	pop.w	{r4, r5, r6, r7, r8, pc}
.Laes_v7m_func_end59:
	.size	aes_v7m.fotsgure_aes_unwrap_padded, .Laes_v7m_func_end59-aes_v7m.fotsgure_aes_unwrap_padded
	.cantunwind
	.fnend
                                        @ -- End function
	.section	.text.aes_v7m.fotsgure_aes_cmac,"ax",%progbits
	export_aes_v7m	fotsgure_aes_cmac
	.p2align	2
	.type	aes_v7m.fotsgure_aes_cmac,%function
	.code	16
	.thumb_func
aes_v7m.fotsgure_aes_cmac:                      @ @aes_v7m.fotsgure_aes_cmac
	.fnstart
@ %bb.0:
	.save	{r4, r5, r7, lr}
	push	{r4, r5, r7, lr}
	.pad	#40
	sub	sp, #40
	ldr	r5, [r0]
	mov	r4, r3
	mov	r12, r2
	cmp	r5, #32
	mov	r2, r1
	beq	.Laes_v7m_BB60_3
@ %bb.1:
	bic	r1, r5, #8
	cmp	r1, #16
	beq	.Laes_v7m_BB60_3
@ %bb.2:
	movs	r5, #2
	mov	r0, r5
	add	sp, #40
	b	.Laes_v7m_return_16501
	.p2align	2
.Laes_v7m_BB60_3:                               @ %join.3.i.i
	cmp	r2, #0
	mov.w	r3, #56
	it	eq
	addeq.w	r2, r2, #4096
	lsrs	r1, r5, #31
	adds.w	r3, r3, r5, lsl #1
	add.w	r0, r0, #4
	adc	r1, r1, #0
	str	r0, [sp, #8]
	movs	r5, #0
	str	r1, [sp, #20]
	add	r0, sp, #24
	add	r1, sp, #8
	strd	r5, r3, [sp, #12]
	strd	r12, r5, [sp]
	bl	aes_v7m.cmac.tags.tag
	add	r3, sp, #24
	ldr	r2, [sp, #36]
	ldm	r3, {r0, r1, r3}
	str	r2, [r4, #12]
	str	r3, [r4, #8]
	str	r1, [r4, #4]
	str	r0, [r4]
	bl	aes_v7m.aes_cipher.zeroize.stack.wipe_stack.768
	mov	r0, r5
	add	sp, #40
	b	.Laes_v7m_return_16501
.Laes_v7m_return_16501:
	movs	r1, #0
	movs	r2, #0
	movs	r3, #0
	mov	r12, r1
	mov	lr, r1
	pop	{r4, r5, r7, pc}
.Laes_v7m_func_end60:
	.size	aes_v7m.fotsgure_aes_cmac, .Laes_v7m_func_end60-aes_v7m.fotsgure_aes_cmac
	.cantunwind
	.fnend
                                        @ -- End function
	.section	.text.aes_v7m.fotsgure_aes_cmac_verify,"ax",%progbits
	export_aes_v7m	fotsgure_aes_cmac_verify
	.p2align	2
	.type	aes_v7m.fotsgure_aes_cmac_verify,%function
	.code	16
	.thumb_func
aes_v7m.fotsgure_aes_cmac_verify:               @ @aes_v7m.fotsgure_aes_cmac_verify
	.fnstart
@ %bb.0:
	.save	{r4, r5, r7, lr}
	push	{r4, r5, r7, lr}
	.pad	#32
	sub	sp, #32
	cmp	r1, #0
	it	eq
	addeq.w	r1, r1, #4096
	ldr.w	lr, [r0]
	cmp	r3, #0
	it	eq
	addeq.w	r3, r3, #4096
	cmp.w	lr, #32
	beq	.Laes_v7m_BB61_3
@ %bb.1:
	bic	r4, lr, #8
	cmp	r4, #16
	beq	.Laes_v7m_BB61_3
@ %bb.2:
	movs	r0, #2
	add	sp, #32
	b	.Laes_v7m_return_16572
	.p2align	2
.Laes_v7m_BB61_3:                               @ %join.3.i.i
	ldr.w	r12, [sp, #48]
	sub.w	r4, r12, #4
	cmp	r4, #12
	bhi	.Laes_v7m_BB61_5
@ %bb.4:                                @ %join.6.i.i
	adds	r0, #4
	movs	r5, #56
	lsr.w	r4, lr, #31
	adds.w	r5, r5, lr, lsl #1
	str	r0, [sp, #16]
	mov.w	r0, #0
	adc	r4, r4, #0
	strd	r0, r5, [sp, #20]
	strd	r12, r0, [sp, #8]
	add	r0, sp, #16
	mov	r5, r3
	movs	r3, #0
	str	r4, [sp, #28]
	str	r5, [sp]
	bl	aes_v7m.cmac.tags.is_tag_start
	mov	r4, r0
	bl	aes_v7m.aes_cipher.zeroize.stack.wipe_stack.768
	movs	r0, #6
	cmp	r4, #0
	it	ne
	movne	r0, #0
	add	sp, #32
	b	.Laes_v7m_return_16572
	.p2align	2
.Laes_v7m_BB61_5:
	movs	r0, #7
	add	sp, #32
	b	.Laes_v7m_return_16572
.Laes_v7m_return_16572:
	movs	r1, #0
	movs	r2, #0
	movs	r3, #0
	mov	r12, r1
	mov	lr, r1
	pop	{r4, r5, r7, pc}
.Laes_v7m_func_end61:
	.size	aes_v7m.fotsgure_aes_cmac_verify, .Laes_v7m_func_end61-aes_v7m.fotsgure_aes_cmac_verify
	.cantunwind
	.fnend
                                        @ -- End function
	.section	.text.aes_v7m.fotsgure_aes_cmac_begin,"ax",%progbits
	export_aes_v7m	fotsgure_aes_cmac_begin
	.p2align	2
	.type	aes_v7m.fotsgure_aes_cmac_begin,%function
	.code	16
	.thumb_func
aes_v7m.fotsgure_aes_cmac_begin:                @ @aes_v7m.fotsgure_aes_cmac_begin
	.fnstart
@ %bb.0:
	.save	{r4, r5, r6, lr}
	push	{r4, r5, r6, lr}
	ldr	r0, [r0]
	movs	r5, #2
	subs	r0, #16
	cmp	r0, #16
	bhi	.Laes_v7m_BB62_3
@ %bb.1:
	mov	r4, r1
	movs	r6, #1
	movw	r1, #257
	lsl.w	r0, r6, r0
	movt	r1, #1
	tst	r0, r1
	beq	.Laes_v7m_BB62_3
@ %bb.2:                                @ %join.3.i.i
	add.w	r0, r4, #8
	movs	r1, #0
	movs	r2, #40
	movs	r5, #0
	bl	memset
	strd	r6, r5, [r4]
.Laes_v7m_BB62_3:                               @ %wide_fotsgure_aes_cmac_begin.exit
	mov	r0, r5
	b	.Laes_v7m_return_16653
.Laes_v7m_return_16653:
	movs	r1, #0
	movs	r2, #0
	movs	r3, #0
	mov	r12, r1
	mov	lr, r1
	pop	{r4, r5, r6, pc}
.Laes_v7m_func_end62:
	.size	aes_v7m.fotsgure_aes_cmac_begin, .Laes_v7m_func_end62-aes_v7m.fotsgure_aes_cmac_begin
	.cantunwind
	.fnend
                                        @ -- End function
	.section	.text.aes_v7m.fotsgure_aes_cmac_update,"ax",%progbits
	export_aes_v7m	fotsgure_aes_cmac_update
	.p2align	2
	.type	aes_v7m.fotsgure_aes_cmac_update,%function
	.code	16
	.thumb_func
aes_v7m.fotsgure_aes_cmac_update:               @ @aes_v7m.fotsgure_aes_cmac_update
	.fnstart
@ %bb.0:
	.save	{r4, lr}
	push	{r4, lr}
	.pad	#24
	sub	sp, #24
	ldr.w	r12, [r0]
	cmp	r2, #0
	it	eq
	addeq.w	r2, r2, #4096
	cmp.w	r12, #32
	beq	.Laes_v7m_BB63_3
@ %bb.1:
	bic	r4, r12, #8
	cmp	r4, #16
	beq	.Laes_v7m_BB63_3
@ %bb.2:
	movs	r4, #2
	mov	r0, r4
	add	sp, #24
	b	.Laes_v7m_return_16693
	.p2align	2
.Laes_v7m_BB63_3:                               @ %join.3.i.i
	add.w	lr, r0, #4
	movs	r0, #56
	adds.w	r0, r0, r12, lsl #1
	str.w	lr, [sp, #8]
	str	r0, [sp, #16]
	ldrd	r0, lr, [r1]
	lsr.w	r4, r12, #31
	eor	r0, r0, #1
	adc	r12, r4, #0
	movs	r4, #0
	orrs.w	r0, r0, lr
	str	r4, [sp, #12]
	str.w	r12, [sp, #20]
	bne	.Laes_v7m_BB63_5
@ %bb.4:                                @ %join.3.i.i.i
	add.w	r0, r1, #8
	add	r1, sp, #8
	strd	r3, r4, [sp]
	bl	aes_v7m.cmac.chain_in_pieces.ChainInPieces.extend
	bl	aes_v7m.aes_cipher.zeroize.stack.wipe_stack.768
	mov	r0, r4
	add	sp, #24
	b	.Laes_v7m_return_16693
	.p2align	2
.Laes_v7m_BB63_5:
	movs	r4, #10
	bl	aes_v7m.aes_cipher.zeroize.stack.wipe_stack.768
	mov	r0, r4
	add	sp, #24
	b	.Laes_v7m_return_16693
.Laes_v7m_return_16693:
	movs	r1, #0
	movs	r2, #0
	movs	r3, #0
	mov	r12, r1
	mov	lr, r1
	pop	{r4, pc}
.Laes_v7m_func_end63:
	.size	aes_v7m.fotsgure_aes_cmac_update, .Laes_v7m_func_end63-aes_v7m.fotsgure_aes_cmac_update
	.cantunwind
	.fnend
                                        @ -- End function
	.section	.text.aes_v7m.fotsgure_aes_cmac_finish,"ax",%progbits
	export_aes_v7m	fotsgure_aes_cmac_finish
	.p2align	2
	.type	aes_v7m.fotsgure_aes_cmac_finish,%function
	.code	16
	.thumb_func
aes_v7m.fotsgure_aes_cmac_finish:               @ @aes_v7m.fotsgure_aes_cmac_finish
	.fnstart
@ %bb.0:
	.save	{r4, r5, r6, r7, lr}
	push	{r4, r5, r6, r7, lr}
	.pad	#44
	sub	sp, #44
	ldr	r3, [r0]
	cmp	r3, #32
	beq	.Laes_v7m_BB64_3
@ %bb.1:
	bic	r5, r3, #8
	cmp	r5, #16
	beq	.Laes_v7m_BB64_3
@ %bb.2:
	movs	r4, #2
	mov	r0, r4
	add	sp, #44
	b	.Laes_v7m_return_16762
	.p2align	2
.Laes_v7m_BB64_3:                               @ %join.3.i.i
	movs	r4, #56
	adds	r0, #4
	lsrs	r5, r3, #31
	adds.w	r3, r4, r3, lsl #1
	str	r0, [sp, #8]
	str	r3, [sp, #16]
	ldrd	r0, r3, [r1]
	adc	r5, r5, #0
	eor	r0, r0, #1
	movs	r4, #0
	orrs	r0, r3
	str	r4, [sp, #12]
	str	r5, [sp, #20]
	bne	.Laes_v7m_BB64_5
@ %bb.4:                                @ %arm.4.i.i
	ldrd	r6, r0, [r1, #8]
	movs	r3, #16
	cmp	r6, #16
	it	hs
	movhs	r6, r3
	add.w	r12, r1, #16
	add.w	lr, sp, #8
	cmp	r0, #0
	it	ne
	movne	r6, r3
	add.w	r3, r1, #32
	add	r0, sp, #28
	mov	r5, r1
	mov	r1, lr
	mov	r7, r2
	mov	r2, r12
	strd	r6, r4, [sp]
	bl	aes_v7m.cmac.tags.tag_at_end
	mov	r0, r5
	bl	aes_v7m.cmac.pieces.MessageZeroize.zeroize
	bl	aes_v7m.aes_cipher.zeroize.stack.wipe_stack.768
	add	r3, sp, #28
	ldr	r2, [sp, #40]
	ldm	r3, {r0, r1, r3}
	str	r2, [r7, #12]
	str	r3, [r7, #8]
	str	r1, [r7, #4]
	str	r0, [r7]
	mov	r0, r4
	add	sp, #44
	b	.Laes_v7m_return_16762
	.p2align	2
.Laes_v7m_BB64_5:                               @ %"cmac::pieces::Message::finish::<#4f733d09d7f6c6b4>.exit.i.i"
	bl	aes_v7m.aes_cipher.zeroize.stack.wipe_stack.768
	movs	r4, #10
	mov	r0, r4
	add	sp, #44
	b	.Laes_v7m_return_16762
.Laes_v7m_return_16762:
	movs	r1, #0
	movs	r2, #0
	movs	r3, #0
	mov	r12, r1
	mov	lr, r1
	pop	{r4, r5, r6, r7, pc}
.Laes_v7m_func_end64:
	.size	aes_v7m.fotsgure_aes_cmac_finish, .Laes_v7m_func_end64-aes_v7m.fotsgure_aes_cmac_finish
	.cantunwind
	.fnend
                                        @ -- End function
	.section	.text.aes_v7m.fotsgure_aes_cmac_accept,"ax",%progbits
	export_aes_v7m	fotsgure_aes_cmac_accept
	.p2align	2
	.type	aes_v7m.fotsgure_aes_cmac_accept,%function
	.code	16
	.thumb_func
aes_v7m.fotsgure_aes_cmac_accept:               @ @aes_v7m.fotsgure_aes_cmac_accept
	.fnstart
@ %bb.0:
	.save	{r4, r5, r7, lr}
	push	{r4, r5, r7, lr}
	.pad	#24
	sub	sp, #24
	ldr	r5, [r0]
	cmp	r2, #0
	it	eq
	addeq.w	r2, r2, #4096
	cmp	r5, #32
	beq	.Laes_v7m_BB65_3
@ %bb.1:
	bic	r4, r5, #8
	cmp	r4, #16
	beq	.Laes_v7m_BB65_3
@ %bb.2:
	movs	r0, #2
	add	sp, #24
	b	.Laes_v7m_return_16856
	.p2align	2
.Laes_v7m_BB65_3:                               @ %join.3.i.i
	subs	r4, r3, #4
	cmp	r4, #12
	bhi	.Laes_v7m_BB65_7
@ %bb.4:                                @ %join.6.i.i
	add.w	r12, r0, #4
	movs	r0, #56
	lsrs	r4, r5, #31
	adds.w	r0, r0, r5, lsl #1
	adc	r5, r4, #0
	str	r0, [sp, #16]
	ldrd	r0, r4, [r1]
	mov.w	lr, #0
	eor	r0, r0, #1
	orrs	r0, r4
	str.w	r12, [sp, #8]
	str.w	lr, [sp, #12]
	str	r5, [sp, #20]
	bne	.Laes_v7m_BB65_8
@ %bb.5:                                @ %join.3.i.i.i
	add.w	r12, sp, #8
	mov	r5, r1
	mov	r0, r1
	mov	r1, r12
	strd	r3, lr, [sp]
	bl	aes_v7m.cmac.pieces.Message.is_tag_so_far
	cbz	r0, .Laes_v7m_BB65_9
@ %bb.6:                                @ %join.7.i.i.i
	mov	r0, r5
	bl	aes_v7m.cmac.pieces.MessageZeroize.zeroize
	movs	r4, #0
	bl	aes_v7m.aes_cipher.zeroize.stack.wipe_stack.768
	mov	r0, r4
	add	sp, #24
	b	.Laes_v7m_return_16856
	.p2align	2
.Laes_v7m_BB65_7:
	movs	r0, #7
	add	sp, #24
	b	.Laes_v7m_return_16856
	.p2align	2
.Laes_v7m_BB65_8:
	movs	r4, #10
	bl	aes_v7m.aes_cipher.zeroize.stack.wipe_stack.768
	mov	r0, r4
	add	sp, #24
	b	.Laes_v7m_return_16856
	.p2align	2
.Laes_v7m_BB65_9:
	movs	r4, #6
	bl	aes_v7m.aes_cipher.zeroize.stack.wipe_stack.768
	mov	r0, r4
	add	sp, #24
	b	.Laes_v7m_return_16856
.Laes_v7m_return_16856:
	movs	r1, #0
	movs	r2, #0
	movs	r3, #0
	mov	r12, r1
	mov	lr, r1
	pop	{r4, r5, r7, pc}
.Laes_v7m_func_end65:
	.size	aes_v7m.fotsgure_aes_cmac_accept, .Laes_v7m_func_end65-aes_v7m.fotsgure_aes_cmac_accept
	.cantunwind
	.fnend
                                        @ -- End function
	.section	.text.aes_v7m.fotsgure_aes_cmac_wipe,"ax",%progbits
	export_aes_v7m	fotsgure_aes_cmac_wipe
	.p2align	2
	.type	aes_v7m.fotsgure_aes_cmac_wipe,%function
	.code	16
	.thumb_func
aes_v7m.fotsgure_aes_cmac_wipe:                 @ @aes_v7m.fotsgure_aes_cmac_wipe
	.fnstart
@ %bb.0:
	.save	{r4, lr}
	push	{r4, lr}
	movs	r1, #0
	movs	r2, #48
	mov	r4, r0
	bl	memset
	mov	r0, r4
	pop.w	{r4, lr}
	b	aes_v7m.cmac.pieces.MessageZeroize.zeroize
.Laes_v7m_func_end66:
	.size	aes_v7m.fotsgure_aes_cmac_wipe, .Laes_v7m_func_end66-aes_v7m.fotsgure_aes_cmac_wipe
	.cantunwind
	.fnend
                                        @ -- End function
	.section	.text.aes_v7m.fotsgure_aes_ccm_seal,"ax",%progbits
	export_aes_v7m	fotsgure_aes_ccm_seal
	.p2align	2
	.type	aes_v7m.fotsgure_aes_ccm_seal,%function
	.code	16
	.thumb_func
aes_v7m.fotsgure_aes_ccm_seal:                  @ @aes_v7m.fotsgure_aes_ccm_seal
	.fnstart
@ %bb.0:
	.save	{r4, r5, r6, r7, r8, r9, lr}
	push.w	{r4, r5, r6, r7, r8, r9, lr}
	.pad	#68
	sub	sp, #68
	ldr	r4, [r0]
	cmp	r4, #32
	beq	.Laes_v7m_BB67_3
@ %bb.1:
	bic	r6, r4, #8
	cmp	r6, #16
	beq	.Laes_v7m_BB67_3
@ %bb.2:
	movs	r0, #2
	add	sp, #68
	b	.Laes_v7m_return_16970
	.p2align	2
.Laes_v7m_BB67_3:                               @ %join.3.i.i
	ldrd	r9, r5, [sp, #104]
	ldrd	lr, r12, [sp, #96]
	cmp	r5, #0
	it	eq
	addeq.w	r5, r5, #4096
	cmp.w	r12, #0
	it	eq
	addeq.w	r12, r12, #4096
	cmp	r3, #0
	it	eq
	addeq.w	r3, r3, #4096
	cmp	r1, #0
	mov.w	r7, #56
	ldr.w	r8, [sp, #112]
	it	eq
	addeq.w	r1, r1, #4096
	adds	r0, #4
	lsrs	r6, r4, #31
	adds.w	r4, r7, r4, lsl #1
	adc	r6, r6, #0
	str	r0, [sp, #48]
	movs	r0, #0
	add	r7, sp, #52
	stm	r7!, {r0, r4, r6}
	strd	r8, r0, [sp, #40]
	strd	r9, r0, [sp, #24]
	mov	r6, r0
	strd	r0, r12, [sp, #12]
	add	r0, sp, #48
	mov	r7, r3
	movs	r3, #0
	str	r5, [sp, #32]
	str.w	lr, [sp, #8]
	str	r7, [sp]
	bl	aes_v7m.ccm.mode.encrypt
	mov	r5, r0
	mov	r4, r1
	bl	aes_v7m.aes_cipher.zeroize.stack.wipe_stack.1024
	lsls	r0, r5, #24
	itee	eq
	moveq	r0, r6
	uxtbne	r0, r4
	addne	r0, #7
	add	sp, #68
	b	.Laes_v7m_return_16970
.Laes_v7m_return_16970:
	movs	r1, #0
	movs	r2, #0
	movs	r3, #0
	mov	r12, r1
	mov	lr, r1
	pop.w	{r4, r5, r6, r7, r8, r9, pc}
.Laes_v7m_func_end67:
	.size	aes_v7m.fotsgure_aes_ccm_seal, .Laes_v7m_func_end67-aes_v7m.fotsgure_aes_ccm_seal
	.cantunwind
	.fnend
                                        @ -- End function
	.section	.text.aes_v7m.fotsgure_aes_ccm_open,"ax",%progbits
	export_aes_v7m	fotsgure_aes_ccm_open
	.p2align	2
	.type	aes_v7m.fotsgure_aes_ccm_open,%function
	.code	16
	.thumb_func
aes_v7m.fotsgure_aes_ccm_open:                  @ @aes_v7m.fotsgure_aes_ccm_open
	.fnstart
@ %bb.0:
	.save	{r4, r5, r6, r7, r8, r9, lr}
	push.w	{r4, r5, r6, r7, r8, r9, lr}
	.pad	#76
	sub	sp, #76
	ldr.w	lr, [r0]
	cmp.w	lr, #32
	beq	.Laes_v7m_BB68_3
@ %bb.1:
	bic	r6, lr, #8
	cmp	r6, #16
	beq	.Laes_v7m_BB68_3
@ %bb.2:
	movs	r0, #2
	add	sp, #76
	b	.Laes_v7m_return_17053
	.p2align	2
.Laes_v7m_BB68_3:                               @ %join.3.i.i
	ldrd	r7, r4, [sp, #112]
	ldrd	r8, r12, [sp, #104]
	cmp	r4, #0
	it	eq
	addeq.w	r4, r4, #4096
	cmp.w	r12, #0
	it	eq
	addeq.w	r12, r12, #4096
	cmp	r3, #0
	ldr.w	r9, [sp, #120]
	it	eq
	addeq.w	r3, r3, #4096
	cmp	r1, #0
	add.w	r0, r0, #4
	mov.w	r6, #56
	it	eq
	addeq.w	r1, r1, #4096
	lsr.w	r5, lr, #31
	adds.w	r6, r6, lr, lsl #1
	str	r0, [sp, #56]
	mov.w	r0, #0
	str.w	r12, [sp, #24]
	add.w	r12, sp, #56
	adc	r5, r5, #0
	strd	r0, r6, [sp, #60]
	strd	r9, r0, [sp, #48]
	strd	r7, r0, [sp, #32]
	str	r4, [sp, #40]
	strd	r8, r0, [sp, #16]
	str	r2, [sp]
	mov	r4, r0
	str	r0, [sp, #4]
	add.w	r0, sp, #73
	mov	r2, r1
	mov	r1, r12
	str	r5, [sp, #68]
	str	r3, [sp, #8]
	bl	aes_v7m.ccm.mode.decrypt
	bl	aes_v7m.aes_cipher.zeroize.stack.wipe_stack.1024
	ldrb.w	r0, [sp, #73]
	cbz	r0, .Laes_v7m_BB68_5
@ %bb.4:                                @ %arm.5.i.i
	ldrb.w	r0, [sp, #74]
	cmp	r0, #0
	itee	ne
	movne	r0, #6
	ldrbeq.w	r0, [sp, #75]
	addeq	r0, #7
	add	sp, #76
	b	.Laes_v7m_return_17053
	.p2align	2
.Laes_v7m_BB68_5:
	mov	r0, r4
	add	sp, #76
	b	.Laes_v7m_return_17053
.Laes_v7m_return_17053:
	movs	r1, #0
	movs	r2, #0
	movs	r3, #0
	mov	r12, r1
	mov	lr, r1
	pop.w	{r4, r5, r6, r7, r8, r9, pc}
.Laes_v7m_func_end68:
	.size	aes_v7m.fotsgure_aes_ccm_open, .Laes_v7m_func_end68-aes_v7m.fotsgure_aes_ccm_open
	.cantunwind
	.fnend
                                        @ -- End function
	.section	.text.aes_v7m.fotsgure_aes_cipher_round,"ax",%progbits
	export_aes_v7m	fotsgure_aes_cipher_round
	.p2align	2
	.type	aes_v7m.fotsgure_aes_cipher_round,%function
	.code	16
	.thumb_func
aes_v7m.fotsgure_aes_cipher_round:              @ @aes_v7m.fotsgure_aes_cipher_round
	.fnstart
@ %bb.0:
	.save	{r7, lr}
	push	{r7, lr}
	bl	aes_v7m.aes_c.single_rounds.round
	pop.w	{r7, lr}
	b	aes_v7m.aes_cipher.zeroize.stack.wipe_stack.512
.Laes_v7m_func_end69:
	.size	aes_v7m.fotsgure_aes_cipher_round, .Laes_v7m_func_end69-aes_v7m.fotsgure_aes_cipher_round
	.cantunwind
	.fnend
                                        @ -- End function
	.section	.text.aes_v7m.fotsgure_aes_equiv_inv_cipher_round,"ax",%progbits
	export_aes_v7m	fotsgure_aes_equiv_inv_cipher_round
	.p2align	2
	.type	aes_v7m.fotsgure_aes_equiv_inv_cipher_round,%function
	.code	16
	.thumb_func
aes_v7m.fotsgure_aes_equiv_inv_cipher_round:    @ @aes_v7m.fotsgure_aes_equiv_inv_cipher_round
	.fnstart
@ %bb.0:
	.save	{r7, lr}
	push	{r7, lr}
	bl	aes_v7m.aes_c.single_rounds.inverse_round
	pop.w	{r7, lr}
	b	aes_v7m.aes_cipher.zeroize.stack.wipe_stack.512
.Laes_v7m_func_end70:
	.size	aes_v7m.fotsgure_aes_equiv_inv_cipher_round, .Laes_v7m_func_end70-aes_v7m.fotsgure_aes_equiv_inv_cipher_round
	.cantunwind
	.fnend
                                        @ -- End function
	.section	.text.aes_v7m.fotsgure_aes_cipher_round_par,"ax",%progbits
	export_aes_v7m	fotsgure_aes_cipher_round_par
	.p2align	2
	.type	aes_v7m.fotsgure_aes_cipher_round_par,%function
	.code	16
	.thumb_func
aes_v7m.fotsgure_aes_cipher_round_par:          @ @aes_v7m.fotsgure_aes_cipher_round_par
	.fnstart
@ %bb.0:
	.save	{r7, lr}
	push	{r7, lr}
	bl	aes_v7m.aes_c.single_rounds.rounds
	pop.w	{r7, lr}
	b	aes_v7m.aes_cipher.zeroize.stack.wipe_stack.512
.Laes_v7m_func_end71:
	.size	aes_v7m.fotsgure_aes_cipher_round_par, .Laes_v7m_func_end71-aes_v7m.fotsgure_aes_cipher_round_par
	.cantunwind
	.fnend
                                        @ -- End function
	.section	.text.aes_v7m.fotsgure_aes_equiv_inv_cipher_round_par,"ax",%progbits
	export_aes_v7m	fotsgure_aes_equiv_inv_cipher_round_par
	.p2align	2
	.type	aes_v7m.fotsgure_aes_equiv_inv_cipher_round_par,%function
	.code	16
	.thumb_func
aes_v7m.fotsgure_aes_equiv_inv_cipher_round_par: @ @aes_v7m.fotsgure_aes_equiv_inv_cipher_round_par
	.fnstart
@ %bb.0:
	.save	{r7, lr}
	push	{r7, lr}
	bl	aes_v7m.aes_c.single_rounds.inverse_rounds
	pop.w	{r7, lr}
	b	aes_v7m.aes_cipher.zeroize.stack.wipe_stack.512
.Laes_v7m_func_end72:
	.size	aes_v7m.fotsgure_aes_equiv_inv_cipher_round_par, .Laes_v7m_func_end72-aes_v7m.fotsgure_aes_equiv_inv_cipher_round_par
	.cantunwind
	.fnend
                                        @ -- End function
	.section	.text.aes_v7m.fotsgure_aes_mix_columns,"ax",%progbits
	export_aes_v7m	fotsgure_aes_mix_columns
	.p2align	2
	.type	aes_v7m.fotsgure_aes_mix_columns,%function
	.code	16
	.thumb_func
aes_v7m.fotsgure_aes_mix_columns:               @ @aes_v7m.fotsgure_aes_mix_columns
	.fnstart
@ %bb.0:
	.save	{r7, lr}
	push	{r7, lr}
	bl	aes_v7m.aes_c.single_rounds.mixed
	pop.w	{r7, lr}
	b	aes_v7m.aes_cipher.zeroize.stack.wipe_stack.512
.Laes_v7m_func_end73:
	.size	aes_v7m.fotsgure_aes_mix_columns, .Laes_v7m_func_end73-aes_v7m.fotsgure_aes_mix_columns
	.cantunwind
	.fnend
                                        @ -- End function
	.section	.text.aes_v7m.fotsgure_aes_inv_mix_columns,"ax",%progbits
	export_aes_v7m	fotsgure_aes_inv_mix_columns
	.p2align	2
	.type	aes_v7m.fotsgure_aes_inv_mix_columns,%function
	.code	16
	.thumb_func
aes_v7m.fotsgure_aes_inv_mix_columns:           @ @aes_v7m.fotsgure_aes_inv_mix_columns
	.fnstart
@ %bb.0:
	.save	{r7, lr}
	push	{r7, lr}
	bl	aes_v7m.aes_c.single_rounds.inverse_mixed
	pop.w	{r7, lr}
	b	aes_v7m.aes_cipher.zeroize.stack.wipe_stack.512
.Laes_v7m_func_end74:
	.size	aes_v7m.fotsgure_aes_inv_mix_columns, .Laes_v7m_func_end74-aes_v7m.fotsgure_aes_inv_mix_columns
	.cantunwind
	.fnend
                                        @ -- End function
	.section	.text.aes_v7m.fotsgure_aes_encrypt_blocks_with,"ax",%progbits
	export_aes_v7m	fotsgure_aes_encrypt_blocks_with
	.p2align	2
	.type	aes_v7m.fotsgure_aes_encrypt_blocks_with,%function
	.code	16
	.thumb_func
aes_v7m.fotsgure_aes_encrypt_blocks_with:       @ @aes_v7m.fotsgure_aes_encrypt_blocks_with
	.fnstart
@ %bb.0:
	.save	{r4, r5, r6, r7, r8, r9, r10, r11, lr}
	push.w	{r4, r5, r6, r7, r8, r9, r10, r11, lr}
	.pad	#500
	sub	sp, #500
	mov	r10, r3
	cmp	r1, #32
	beq	.Laes_v7m_BB75_3
@ %bb.1:
	bic	r3, r1, #8
	cmp	r3, #16
	beq	.Laes_v7m_BB75_3
@ %bb.2:
	movs	r6, #1
	mov	r0, r6
	add	sp, #500
	b	.Laes_v7m_return_17261
	.p2align	2
.Laes_v7m_BB75_3:                               @ %join.3.i.i
	cmp	r2, #0
	it	eq
	addeq.w	r2, r2, #4096
	cmp	r0, #0
	mov.w	r6, #56
	it	eq
	addeq.w	r0, r0, #4096
	add	r3, sp, #16
	lsrs	r7, r1, #31
	adds.w	r9, r6, r1, lsl #1
	adc	r8, r7, #0
	mov	r7, r0
	mov	r0, r3
	mov	r4, r1
	movs	r1, #0
	mov	r11, r2
	mov.w	r2, #484
	adds	r5, r3, #4
	movs	r6, #0
	bl	memset
	mov	r0, r5
	mov	r1, r7
	mov	r2, r4
	movs	r3, #0
	bl	aes_v7m.aes_narrow.word_room.expand_words
	bl	aes_v7m.aes_cipher.zeroize.stack.wipe_stack.768
	mov	r0, r5
	mov	r2, r9
	mov	r3, r8
	str	r4, [sp, #16]
	strd	r10, r6, [sp, #8]
	str.w	r11, [sp]
	bl	aes_v7m.aes_narrow.blocks.process_all_batches.1
	bl	aes_v7m.aes_cipher.zeroize.stack.wipe_stack.1024
	mov	r0, r5
	str	r6, [sp, #16]
	bl	aes_v7m.aes_cipher.zeroize.elements.zeroize_elements.1
	mov	r0, r6
	add	sp, #500
	b	.Laes_v7m_return_17261
.Laes_v7m_return_17261:
	movs	r1, #0
	movs	r2, #0
	movs	r3, #0
	mov	r12, r1
	mov	lr, r1
	pop.w	{r4, r5, r6, r7, r8, r9, r10, r11, pc}
.Laes_v7m_func_end75:
	.size	aes_v7m.fotsgure_aes_encrypt_blocks_with, .Laes_v7m_func_end75-aes_v7m.fotsgure_aes_encrypt_blocks_with
	.cantunwind
	.fnend
                                        @ -- End function
	.section	.text.aes_v7m.fotsgure_aes_decrypt_blocks_with,"ax",%progbits
	export_aes_v7m	fotsgure_aes_decrypt_blocks_with
	.p2align	2
	.type	aes_v7m.fotsgure_aes_decrypt_blocks_with,%function
	.code	16
	.thumb_func
aes_v7m.fotsgure_aes_decrypt_blocks_with:       @ @aes_v7m.fotsgure_aes_decrypt_blocks_with
	.fnstart
@ %bb.0:
	.save	{r4, r5, r6, r7, r8, r9, lr}
	push.w	{r4, r5, r6, r7, r8, r9, lr}
	.pad	#500
	sub	sp, #500
	mov	r5, r2
	mov	r7, r1
	cmp	r2, #0
	mov	r8, r3
	it	eq
	addeq.w	r5, r5, #4096
	movs	r1, #0
	cmp	r7, #32
	str	r1, [sp, #16]
	beq	.Laes_v7m_BB76_3
@ %bb.1:
	bic	r1, r7, #8
	cmp	r1, #16
	beq	.Laes_v7m_BB76_3
@ %bb.2:
	movs	r6, #1
	mov	r0, r6
	add	sp, #500
	b	.Laes_v7m_return_17347
	.p2align	2
.Laes_v7m_BB76_3:                               @ %join.3.i.i
	add	r1, sp, #16
	add.w	r9, r1, #4
	cmp	r0, #0
	it	eq
	addeq.w	r0, r0, #4096
	adds	r1, #36
	mov	r4, r0
	mov	r0, r1
	movs	r1, #0
	mov.w	r2, #448
	movs	r6, #0
	bl	memset
	mov	r0, r9
	mov	r1, r4
	mov	r2, r7
	movs	r3, #0
	bl	aes_v7m.aes_narrow.word_room.expand_words
	bl	aes_v7m.aes_cipher.zeroize.stack.wipe_stack.768
	cmp	r7, #32
	str	r7, [sp, #16]
	beq	.Laes_v7m_BB76_6
@ %bb.4:                                @ %join.3.i.i
	and	r0, r7, #48
	cmp	r0, #16
	beq	.Laes_v7m_BB76_6
@ %bb.5:
	movs	r6, #2
	b	.Laes_v7m_BB76_7
	.p2align	2
.Laes_v7m_BB76_6:                               @ %join.3.i15.i.i
	movs	r1, #56
	lsrs	r0, r7, #31
	adds.w	r2, r1, r7, lsl #1
	adc	r3, r0, #0
	mov	r0, r9
	strd	r8, r6, [sp, #8]
	str	r5, [sp]
	bl	aes_v7m.aes_narrow.blocks.process_all_batches.2
	bl	aes_v7m.aes_cipher.zeroize.stack.wipe_stack.1024
.Laes_v7m_BB76_7:                               @ %"aes_c::blocks::fotsgure_aes_decrypt_blocks.exit.i.i"
	movs	r0, #0
	str	r0, [sp, #16]
	mov	r0, r9
	bl	aes_v7m.aes_cipher.zeroize.elements.zeroize_elements.1
	mov	r0, r6
	add	sp, #500
	b	.Laes_v7m_return_17347
.Laes_v7m_return_17347:
	movs	r1, #0
	movs	r2, #0
	movs	r3, #0
	mov	r12, r1
	mov	lr, r1
	pop.w	{r4, r5, r6, r7, r8, r9, pc}
.Laes_v7m_func_end76:
	.size	aes_v7m.fotsgure_aes_decrypt_blocks_with, .Laes_v7m_func_end76-aes_v7m.fotsgure_aes_decrypt_blocks_with
	.cantunwind
	.fnend
                                        @ -- End function
	.section	.text.aes_v7m.fotsgure_aes_add_keystream_with,"ax",%progbits
	export_aes_v7m	fotsgure_aes_add_keystream_with
	.p2align	2
	.type	aes_v7m.fotsgure_aes_add_keystream_with,%function
	.code	16
	.thumb_func
aes_v7m.fotsgure_aes_add_keystream_with:        @ @aes_v7m.fotsgure_aes_add_keystream_with
	.fnstart
@ %bb.0:
	.save	{r4, r5, r6, r7, r8, r9, r10, r11, lr}
	push.w	{r4, r5, r6, r7, r8, r9, r10, r11, lr}
	.pad	#524
	sub.w	sp, sp, #524
	cmp	r0, #0
	it	eq
	addeq.w	r0, r0, #4096
	cmp	r3, #0
	it	eq
	addeq.w	r3, r3, #4096
	cmp	r1, #32
	beq	.Laes_v7m_BB77_3
@ %bb.1:
	bic	r7, r1, #8
	cmp	r7, #16
	beq	.Laes_v7m_BB77_3
@ %bb.2:
	movs	r4, #1
	mov	r0, r4
	add.w	sp, sp, #524
	b	.Laes_v7m_return_17438
	.p2align	2
.Laes_v7m_BB77_3:                               @ %join.3.i.i
	ldr.w	r9, [sp, #560]
	ldrd	r7, r6, [r2, #16]
	movs	r4, #0
	adds.w	r7, r7, r9
	adcs	r7, r6, #0
	adcs	r7, r4, #0
	beq	.Laes_v7m_BB77_5
@ %bb.4:
	movs	r4, #4
	mov	r0, r4
	add.w	sp, sp, #524
	b	.Laes_v7m_return_17438
	.p2align	2
.Laes_v7m_BB77_5:                               @ %join.6.i.i
	movs	r5, #56
	add	r6, sp, #40
	lsrs	r7, r1, #31
	adds.w	r10, r5, r1, lsl #1
	add.w	r8, r6, #4
	adc	r11, r7, #0
	mov	r7, r0
	mov	r0, r6
	mov	r5, r1
	movs	r1, #0
	mov	r6, r2
	mov.w	r2, #484
	str	r3, [sp, #20]                   @ 4-byte Spill
	bl	memset
	mov	r0, r8
	mov	r1, r7
	mov	r2, r5
	movs	r3, #0
	bl	aes_v7m.aes_narrow.word_room.expand_words
	bl	aes_v7m.aes_cipher.zeroize.stack.wipe_stack.768
	ldrd	r2, r3, [r6, #16]
	ldr	r7, [sp, #20]                   @ 4-byte Reload
	add	r0, sp, #24
	mov	r1, r6
	strd	r8, r4, [sp, #24]
	strd	r11, r5, [sp, #36]
	str.w	r10, [sp, #32]
	strd	r9, r4, [sp, #8]
	str	r7, [sp]
	bl	aes_v7m.aes_ctr.add_in_batches.add_keystream
	ldrd	r0, r1, [r6, #16]
	str	r4, [sp, #40]
	adds.w	r0, r0, r9
	adc	r1, r1, #0
	strd	r0, r1, [r6, #16]
	mov	r0, r8
	bl	aes_v7m.aes_cipher.zeroize.elements.zeroize_elements.1
	mov	r0, r4
	add.w	sp, sp, #524
	b	.Laes_v7m_return_17438
.Laes_v7m_return_17438:
	movs	r1, #0
	movs	r2, #0
	movs	r3, #0
	mov	r12, r1
	mov	lr, r1
	pop.w	{r4, r5, r6, r7, r8, r9, r10, r11, pc}
.Laes_v7m_func_end77:
	.size	aes_v7m.fotsgure_aes_add_keystream_with, .Laes_v7m_func_end77-aes_v7m.fotsgure_aes_add_keystream_with
	.cantunwind
	.fnend
                                        @ -- End function
	.type	.Laes_v7m_static.0,%object              @ @static.0
	.section	.rodata..Laes_v7m_static.0,"a",%progbits
.Laes_v7m_static.0:
	.ascii	"\001\002\004\b\020 @\200\0336"
	.size	.Laes_v7m_static.0, 10

	.type	.Laes_v7m_static.2,%object              @ @static.2
	.section	.rodata.cst16,"aM",%progbits,16
.Laes_v7m_static.2:
	.zero	16,166
	.size	.Laes_v7m_static.2, 16

	.ident	"rattle logic=dac8208d650f15bf3e2dc313a14fa4c783a3acf887bdfab66e1714b038d9e11b"
	.section	".note.GNU-stack","",%progbits

	.section	.note.fotsgure,"",%note
	.p2align	2, 0x0
	.long	9, 118, 1
	.asciz	"Fotsgure"
	.p2align	2, 0x0
	.asciz	"fotsgure_aes 0.4.0, thumb/aes_v7m.s, sources SHA-256 f3fecc818c73814a93835f06896045f67fddc8c102490795e0e19679064b46a4"
	.p2align	2, 0x0
