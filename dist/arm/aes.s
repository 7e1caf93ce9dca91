@ Made by tools/dist from the proved crate aes_c; BUILD says from what. Don't edit it.
/* A Rust crate defines in_rust; for x86-64, a static library of both builds defines chosen, and choose_*.c calls these names. */
	.macro	export_aes name
	.ifdef	in_rust
	.globl	aes.\name
	.hidden	aes.\name
	.else
	.globl	\name
	.set	\name, aes.\name
	.endif
	.endm
	.syntax	unified
	.file	"rattle"
	.section	.text.aes.aes_narrow.word_room.expand_words,"ax",%progbits
	.p2align	2                               @ -- Begin function aes_narrow::word_room::expand_words::<#6af90bfc14753d47>
	.type	aes.aes_narrow.word_room.expand_words,%function
	.code	32
aes.aes_narrow.word_room.expand_words: @ @aes.aes_narrow.word_room.expand_words
	.fnstart
@ %bb.0:                                @ %start
	.save	{r4, r5, r6, r7, r8, r9, r10, r11, lr}
	push	{r4, r5, r6, r7, r8, r9, r10, r11, lr}
	.pad	#236
	sub	sp, sp, #236
	mov	r8, r0
	str	r0, [sp, #188]                  @ 4-byte Spill
	add	r0, sp, #204
	cmp	r2, #24
	str	r3, [sp, #8]                    @ 4-byte Spill
	str	r2, [sp, #4]                    @ 4-byte Spill
	beq	.Laes_BB0_5
@ %bb.1:                                @ %start
	cmp	r2, #16
	bne	.Laes_BB0_8
@ %bb.2:                                @ %then.1.i160
	bl	aes.aes_planes.soft.word.word32.U32Word.in_every_slot
	ldr	r7, [sp, #204]
	ldr	r9, [sp, #208]
	ldr	r1, [sp, #216]
	ldr	r2, [sp, #220]
	ldr	r0, [sp, #224]
	ldr	r11, [sp, #228]
	ldr	r3, [sp, #232]
	ldr	r6, [sp, #212]
	str	r7, [sp, #200]                  @ 4-byte Spill
	stm	r8, {r7, r9}
	mov	r7, #0
	str	r3, [sp, #176]                  @ 4-byte Spill
	str	r3, [r8, #28]
	mov	r3, #0
	str	r6, [sp, #172]                  @ 4-byte Spill
	str	r6, [r8, #8]
	str	r1, [r8, #12]
	str	r2, [r8, #16]
	str	r0, [r8, #20]
	str	r11, [r8, #24]
	str	r3, [sp, #196]                  @ 4-byte Spill
.Laes_BB0_3:                                @ %join.5.i.i161
                                        @ =>This Inner Loop Header: Depth=1
	ldr	r6, [sp, #172]                  @ 4-byte Reload
	eor	r4, r11, r0
	ldr	r8, [sp, #176]                  @ 4-byte Reload
	mov	lr, r9
	eor	r10, r2, r6
	str	r2, [sp, #132]                  @ 4-byte Spill
	eor	r5, r8, r9
	eor	r2, r8, r2
	eor	r3, r5, r10
	str	r3, [sp, #192]                  @ 4-byte Spill
	eor	r1, r3, r1
	str	r7, [sp, #168]                  @ 4-byte Spill
	eor	r3, r1, r6
	eor	r1, r1, r11
	eor	r12, r3, r4
	eor	r7, r1, r2
	mov	r9, r6
	ldr	r6, [sp, #200]                  @ 4-byte Reload
	str	r1, [sp, #136]                  @ 4-byte Spill
	eor	r1, r7, r12
	str	r1, [sp, #144]                  @ 4-byte Spill
	and	r1, r1, r10
	str	r10, [sp, #148]                 @ 4-byte Spill
	eor	r10, r4, r6
	str	r2, [sp, #128]                  @ 4-byte Spill
	eor	lr, r10, lr
	and	r2, r7, r2
	str	r3, [sp, #180]                  @ 4-byte Spill
	eor	r3, r1, r2
	eor	r11, r7, r4
	and	r1, lr, r10
	mov	r0, r5
	str	r5, [sp, #140]                  @ 4-byte Spill
	eor	r1, r11, r1
	and	r5, r11, r5
	mov	r4, r3
	eor	r1, r1, r5
	str	r12, [sp, #184]                 @ 4-byte Spill
	eor	r1, r1, r0
	eor	r0, r8, r9
	eor	r1, r1, r3
	and	r3, r12, r0
	eor	r12, r3, r2
	eor	r2, r7, r6
	eor	r3, r10, r8
	str	r3, [sp, #172]                  @ 4-byte Spill
	and	r3, r2, r3
	str	r2, [sp, #156]                  @ 4-byte Spill
	ldr	r9, [sp, #180]                  @ 4-byte Reload
	eor	r3, r11, r3
	ldr	r2, [sp, #192]                  @ 4-byte Reload
	eor	r3, r3, r5
	str	lr, [sp, #152]                  @ 4-byte Spill
	eor	r3, r3, r8
	and	r5, r9, r2
	eor	r2, lr, r0
	mov	lr, r0
	str	r0, [sp, #164]                  @ 4-byte Spill
	eor	r0, r9, r6
	str	r0, [sp, #160]                  @ 4-byte Spill
	str	r2, [sp, #176]                  @ 4-byte Spill
	and	r0, r0, r2
	ldr	r2, [sp, #136]                  @ 4-byte Reload
	eor	r3, r3, r12
	str	r6, [sp, #200]                  @ 4-byte Spill
	eor	r8, r3, r1
	eor	r0, r2, r0
	ldr	r2, [sp, #132]                  @ 4-byte Reload
	eor	r0, r0, r5
	eor	r2, r10, r2
	str	r2, [sp, #120]                  @ 4-byte Spill
	and	r2, r2, r6
	ldr	r6, [sp, #184]                  @ 4-byte Reload
	eor	r2, r2, lr
	eor	r9, r0, r4
	eor	r2, r2, r6
	and	r0, r1, r9
	eor	r2, r2, r5
	eor	r2, r2, r12
	eor	r5, r0, r2
	and	r5, r5, r8
	eor	r8, r5, r3
	eor	r5, r5, r0
	and	r5, r5, r3
	eor	r0, r0, r3
	eor	lr, r5, r1
	eor	r1, r9, r2
	and	r3, r0, r1
	eor	r0, r5, r0
	eor	r6, r3, r2
	eor	r12, lr, r8
	and	r0, r0, r6
	ldr	r3, [sp, #144]                  @ 4-byte Reload
	eor	r9, r0, r1
	eor	r0, r6, r8
	eor	r2, r9, r12
	and	r4, r9, r10
	eor	r10, r9, r6
	eor	r1, r2, r0
	and	r5, r10, r11
	and	r3, r1, r3
	eor	r4, r5, r4
	str	r5, [sp, #112]                  @ 4-byte Spill
	eor	r5, r4, r3
	and	r3, r0, r7
	eor	r11, r5, r3
	str	r12, [sp, #132]                 @ 4-byte Spill
	str	r2, [sp, #124]                  @ 4-byte Spill
	str	r4, [sp, #144]                  @ 4-byte Spill
	str	r11, [sp, #136]                 @ 4-byte Spill
	ldr	r3, .Laes_CPI0_4
	ldr	r4, [sp, #196]                  @ 4-byte Reload
.Laes_PC0_0:
	add	r3, pc, r3
	ldrb	r7, [r3, r4]
	mov	r3, #64
	and	r3, r3, r7, lsr #1
	orr	r3, r3, r3, lsl #1
	eor	r11, r11, r3, lsl #8
	ldr	r3, [sp, #148]                  @ 4-byte Reload
	and	r1, r1, r3
	ldr	r3, [sp, #128]                  @ 4-byte Reload
	and	r0, r0, r3
	str	r0, [sp, #148]                  @ 4-byte Spill
	eor	r1, r1, r0
	ldr	r0, [sp, #176]                  @ 4-byte Reload
	str	r1, [sp, #104]                  @ 4-byte Spill
	movw	r3, #771
	and	r0, r12, r0
	movt	r3, #771
	eor	r12, r1, r0
	ldr	r1, [sp, #192]                  @ 4-byte Reload
	and	r1, lr, r1
	eor	r1, r12, r1
	str	r1, [sp, #128]                  @ 4-byte Spill
	eor	r1, r11, r1
	and	r1, r3, r1, ror #14
	ldr	r3, [sp, #188]                  @ 4-byte Reload
	ldr	r4, [r3, r4, lsl #5]!
	str	r4, [sp, #116]                  @ 4-byte Spill
	movw	r4, #64764
	ldr	r11, [r3, #28]
	movt	r4, #64764
	eor	r1, r1, r11
	movw	r11, #771
	movt	r11, #771
	and	r4, r4, r1, lsl #2
	eor	r1, r4, r1
	movw	r4, #61680
	movt	r4, #61680
	and	r4, r4, r1, lsl #4
	eor	r1, r4, r1
	str	r1, [sp, #176]                  @ 4-byte Spill
	str	r1, [r3, #60]
	ldr	r1, [sp, #184]                  @ 4-byte Reload
	and	r1, r2, r1
	ldr	r2, [sp, #200]                  @ 4-byte Reload
	and	r4, r8, r2
	ldr	r2, [sp, #180]                  @ 4-byte Reload
	and	r2, lr, r2
	str	r2, [sp, #108]                  @ 4-byte Spill
	eor	r4, r2, r4
	ldr	r2, [sp, #140]                  @ 4-byte Reload
	eor	r1, r1, r4
	movw	lr, #61680
	and	r10, r10, r2
	movt	lr, #61680
	eor	r1, r1, r10
	eor	r2, r1, r5
	ldr	r1, [sp, #172]                  @ 4-byte Reload
	and	r1, r6, r1
	eor	r5, r2, r1
	ldr	r1, [sp, #120]                  @ 4-byte Reload
	str	r5, [sp, #140]                  @ 4-byte Spill
	and	r0, r8, r1
	mov	r1, #64
	and	r1, r1, r7, lsl #4
	orr	r1, r1, r1, lsl #1
	eor	r1, r0, r1, lsl #8
	eor	r0, r1, r12
	ldr	r1, [r3, #12]
	eor	r0, r0, r5
	movw	r12, #64764
	str	r1, [sp, #192]                  @ 4-byte Spill
	movt	r12, #64764
	and	r8, r11, r0, ror #14
	ldr	r0, [r3, #8]
	ldr	r1, [r3, #16]
	eor	r0, r8, r0
	str	r1, [sp, #184]                  @ 4-byte Spill
	mov	r8, #64
	ldr	r5, [r3, #4]
	and	r1, r12, r0, lsl #2
	eor	r0, r1, r0
	and	r1, lr, r0, lsl #4
	eor	r0, r1, r0
	str	r0, [sp, #172]                  @ 4-byte Spill
	str	r0, [r3, #40]
	ldr	r0, [sp, #156]                  @ 4-byte Reload
	ldr	r1, [sp, #112]                  @ 4-byte Reload
	and	r0, r6, r0
	ldr	r6, [sp, #136]                  @ 4-byte Reload
	eor	r0, r4, r0
	ldr	r4, [sp, #132]                  @ 4-byte Reload
	eor	r1, r0, r1
	ldr	r0, [sp, #152]                  @ 4-byte Reload
	str	r1, [sp, #180]                  @ 4-byte Spill
	and	r0, r9, r0
	eor	r0, r1, r0
	ldr	r1, [sp, #104]                  @ 4-byte Reload
	eor	r0, r0, r1
	and	r1, r8, r7, lsl #5
	orr	r1, r1, r1, lsl #1
	eor	r1, r0, r1, lsl #8
	eor	r1, r1, r2
	bic	r1, r11, r1, ror #14
	eor	r1, r1, r5
	mov	r5, r12
	and	r2, r12, r1, lsl #2
	eor	r1, r2, r1
	and	r2, lr, r1, lsl #4
	eor	r9, r2, r1
	and	r1, r8, r7, lsl #6
	str	r9, [r3, #36]
	orr	r1, r1, r1, lsl #1
	eor	r0, r0, r1, lsl #8
	ldr	r1, [sp, #116]                  @ 4-byte Reload
	eor	r0, r0, r10
	bic	r0, r11, r0, ror #14
	eor	r0, r0, r1
	and	r1, r12, r0, lsl #2
	mov	r12, r11
	eor	r0, r1, r0
	and	r1, lr, r0, lsl #4
	eor	r0, r1, r0
	ldr	r1, [sp, #160]                  @ 4-byte Reload
	str	r0, [sp, #200]                  @ 4-byte Spill
	and	r1, r4, r1
	ldr	r4, [sp, #108]                  @ 4-byte Reload
	str	r0, [r3, #32]
	and	r0, r7, #64
	eor	r1, r1, r4
	ldr	r4, [sp, #144]                  @ 4-byte Reload
	orr	r0, r0, r0, lsl #1
	eor	r1, r1, r4
	ldr	r4, [sp, #128]                  @ 4-byte Reload
	eor	r0, r6, r0, lsl #8
	eor	r4, r1, r4
	ldr	r1, [r3, #24]
	eor	r0, r0, r4
	bic	r0, r11, r0, ror #14
	eor	r0, r0, r1
	and	r1, r5, r0, lsl #2
	eor	r0, r1, r0
	and	r1, lr, r0, lsl #4
	eor	r11, r1, r0
	ldr	r0, [sp, #164]                  @ 4-byte Reload
	ldr	r1, [sp, #124]                  @ 4-byte Reload
	str	r11, [r3, #56]
	and	r0, r1, r0
	and	r1, r8, r7, lsl #1
	orr	r1, r1, r1, lsl #1
	eor	r0, r0, r1, lsl #8
	ldr	r1, [sp, #148]                  @ 4-byte Reload
	eor	r0, r0, r6
	ldr	r6, [sp, #184]                  @ 4-byte Reload
	eor	r0, r0, r1
	ldr	r1, [sp, #140]                  @ 4-byte Reload
	eor	r0, r0, r1
	ldr	r1, [r3, #20]
	bic	r0, r12, r0, ror #14
	eor	r0, r0, r1
	and	r1, r5, r0, lsl #2
	eor	r0, r1, r0
	and	r1, lr, r0, lsl #4
	eor	r0, r1, r0
	and	r1, r8, r7, lsl #2
	str	r0, [r3, #52]
	orr	r1, r1, r1, lsl #1
	eor	r1, r4, r1, lsl #8
	and	r1, r12, r1, ror #14
	eor	r1, r1, r6
	and	r6, r5, r1, lsl #2
	eor	r1, r6, r1
	and	r6, lr, r1, lsl #4
	eor	r2, r6, r1
	and	r1, r8, r7, lsl #3
	ldr	r7, [sp, #180]                  @ 4-byte Reload
	orr	r1, r1, r1, lsl #1
	ldr	r6, [sp, #196]                  @ 4-byte Reload
	str	r2, [r3, #48]
	eor	r1, r7, r1, lsl #8
	ldr	r7, [sp, #192]                  @ 4-byte Reload
	eor	r1, r1, r4
	ldr	r4, [sp, #168]                  @ 4-byte Reload
	and	r1, r12, r1, ror #14
	eor	r1, r1, r7
	and	r7, r5, r1, lsl #2
	eor	r1, r7, r1
	and	r7, lr, r1, lsl #4
	eor	r1, r7, r1
	str	r1, [r3, #44]
	adds	r3, r6, #1
	str	r3, [sp, #196]                  @ 4-byte Spill
	adc	r7, r4, #0
	subs	r6, r6, #9
	sbcs	r6, r4, #0
	blo	.Laes_BB0_3
	b	.Laes_BB0_11
	.p2align	2
@ %bb.4:
.Laes_CPI0_4:
	.long	.Laes_static.0-(.Laes_PC0_0+8)
	.p2align	2
.Laes_BB0_5:                                @ %then.4.i157
	mov	r4, r1
	bl	aes.aes_planes.soft.word.word32.U32Word.in_every_slot
	ldr	r0, [sp, #204]
	add	r1, r4, #8
	str	r0, [sp, #148]                  @ 4-byte Spill
	ldr	r0, [sp, #216]
	str	r0, [sp, #124]                  @ 4-byte Spill
	ldr	r0, [sp, #220]
	str	r0, [sp, #128]                  @ 4-byte Spill
	ldr	r0, [sp, #224]
	str	r0, [sp, #140]                  @ 4-byte Spill
	ldr	r0, [sp, #228]
	str	r0, [sp, #136]                  @ 4-byte Spill
	ldr	r0, [sp, #232]
	str	r0, [sp, #132]                  @ 4-byte Spill
	add	r0, sp, #204
	ldr	r7, [sp, #208]
	ldr	r11, [sp, #212]
	bl	aes.aes_planes.soft.word.word32.U32Word.in_every_slot
	ldr	r0, [sp, #204]
	mov	r1, #0
	str	r0, [sp, #200]                  @ 4-byte Spill
	ldr	r0, [sp, #208]
	str	r0, [sp, #196]                  @ 4-byte Spill
	ldr	r0, [sp, #148]                  @ 4-byte Reload
	str	r0, [r8]
	ldr	r0, [sp, #124]                  @ 4-byte Reload
	str	r0, [r8, #12]
	ldr	r0, [sp, #128]                  @ 4-byte Reload
	str	r0, [r8, #16]
	ldr	r0, [sp, #140]                  @ 4-byte Reload
	ldr	r2, [sp, #216]
	str	r0, [r8, #20]
	ldr	r0, [sp, #136]                  @ 4-byte Reload
	ldr	lr, [sp, #232]
	ldr	r4, [sp, #228]
	ldr	r9, [sp, #224]
	ldr	r6, [sp, #220]
	ldr	r10, [sp, #212]
	str	r0, [r8, #24]
	ldr	r0, [sp, #132]                  @ 4-byte Reload
	str	r0, [r8, #28]
	mov	r0, #0
	str	r7, [sp, #120]                  @ 4-byte Spill
	str	r7, [r8, #4]
	mov	r7, r2
	str	r11, [sp, #116]                 @ 4-byte Spill
	str	r11, [r8, #8]
.Laes_BB0_6:                                @ %join.5.i164.i
                                        @ =>This Inner Loop Header: Depth=1
	ldr	r11, [sp, #196]                 @ 4-byte Reload
	eor	r5, r6, r10
	str	r0, [sp, #192]                  @ 4-byte Spill
	eor	r8, lr, r11
	str	r4, [sp, #92]                   @ 4-byte Spill
	eor	r2, r8, r5
	str	r1, [sp, #112]                  @ 4-byte Spill
	eor	r0, r2, r7
	str	r2, [sp, #184]                  @ 4-byte Spill
	eor	r1, r0, r10
	eor	r0, r0, r4
	eor	r2, r4, r9
	eor	r4, lr, r6
	str	r9, [sp, #164]                  @ 4-byte Spill
	eor	r9, r1, r2
	eor	r3, r0, r4
	str	r7, [sp, #96]                   @ 4-byte Spill
	mov	r7, lr
	str	r0, [sp, #160]                  @ 4-byte Spill
	eor	r0, r3, r9
	str	r4, [sp, #88]                   @ 4-byte Spill
	and	lr, r3, r4
	ldr	r4, [sp, #200]                  @ 4-byte Reload
	str	r5, [sp, #64]                   @ 4-byte Spill
	and	r5, r0, r5
	eor	r12, r5, lr
	eor	r5, r2, r4
	str	r0, [sp, #108]                  @ 4-byte Spill
	eor	r0, r5, r11
	str	r1, [sp, #172]                  @ 4-byte Spill
	eor	r1, r3, r2
	str	r11, [sp, #196]                 @ 4-byte Spill
	and	r11, r0, r5
	eor	r2, r1, r11
	and	r11, r1, r8
	eor	r2, r2, r11
	str	r0, [sp, #180]                  @ 4-byte Spill
	eor	r0, r7, r10
	eor	r2, r2, r8
	str	r8, [sp, #80]                   @ 4-byte Spill
	eor	r8, r2, r12
	str	r12, [sp, #68]                  @ 4-byte Spill
	and	r12, r9, r0
	str	r9, [sp, #176]                  @ 4-byte Spill
	eor	r9, r12, lr
	eor	r12, r3, r4
	eor	r2, r5, r7
	str	r0, [sp, #168]                  @ 4-byte Spill
	mov	r0, r7
	str	r7, [sp, #144]                  @ 4-byte Spill
	and	r7, r12, r2
	eor	r7, r1, r7
	str	r10, [sp, #152]                 @ 4-byte Spill
	eor	r7, r7, r11
	mov	r10, r6
	eor	r7, r7, r0
	str	r6, [sp, #156]                  @ 4-byte Spill
	ldr	r6, [sp, #172]                  @ 4-byte Reload
	eor	r7, r7, r9
	ldr	r0, [sp, #184]                  @ 4-byte Reload
	str	r2, [sp, #76]                   @ 4-byte Spill
	and	r2, r6, r0
	ldr	lr, [sp, #168]                  @ 4-byte Reload
	ldr	r0, [sp, #180]                  @ 4-byte Reload
	str	r1, [sp, #84]                   @ 4-byte Spill
	eor	r1, r0, lr
	eor	r0, r6, r4
	str	r0, [sp, #100]                  @ 4-byte Spill
	and	r11, r0, r1
	ldr	r0, [sp, #160]                  @ 4-byte Reload
	str	r4, [sp, #200]                  @ 4-byte Spill
	eor	r6, r0, r11
	ldr	r0, [sp, #68]                   @ 4-byte Reload
	eor	r6, r6, r2
	str	r12, [sp, #104]                 @ 4-byte Spill
	eor	r11, r6, r0
	eor	r0, r5, r10
	and	r4, r0, r4
	str	r0, [sp, #56]                   @ 4-byte Spill
	ldr	r0, [sp, #176]                  @ 4-byte Reload
	eor	r4, r4, lr
	and	r6, r8, r11
	eor	r12, r7, r8
	eor	r4, r4, r0
	str	r3, [sp, #72]                   @ 4-byte Spill
	eor	r0, r4, r2
	str	r1, [sp, #60]                   @ 4-byte Spill
	eor	r4, r0, r9
	eor	r0, r6, r4
	eor	r2, r11, r4
	and	r3, r0, r12
	eor	r0, r3, r7
	eor	r3, r3, r6
	eor	r6, r6, r7
	and	r12, r3, r7
	and	r7, r6, r2
	eor	r3, r12, r8
	eor	lr, r7, r4
	eor	r7, r12, r6
	and	r7, r7, lr
	eor	r9, r3, r0
	eor	r12, r7, r2
	mov	r8, r0
	eor	r0, r12, r9
	eor	r4, lr, r8
	str	r0, [sp, #160]                  @ 4-byte Spill
	eor	r6, r0, r4
	ldr	r0, [sp, #108]                  @ 4-byte Reload
	eor	r1, r12, lr
	and	r5, r12, r5
	str	r9, [sp, #68]                   @ 4-byte Spill
	and	r7, r6, r0
	ldr	r0, [sp, #84]                   @ 4-byte Reload
	str	r1, [sp, #44]                   @ 4-byte Spill
	and	r0, r1, r0
	str	r0, [sp, #52]                   @ 4-byte Spill
	eor	r0, r0, r5
	str	r0, [sp, #84]                   @ 4-byte Spill
	eor	r11, r0, r7
	ldr	r0, [sp, #72]                   @ 4-byte Reload
	and	r5, r4, r0
	eor	r1, r11, r5
	str	r1, [sp, #72]                   @ 4-byte Spill
	ldr	r0, .Laes_CPI0_5
	ldr	r2, [sp, #192]                  @ 4-byte Reload
.Laes_PC0_1:
	add	r0, pc, r0
	ldrb	r5, [r0, r2, lsl #1]!
	str	r0, [sp, #108]                  @ 4-byte Spill
	mov	r0, #64
	and	r7, r0, r5, lsr #1
	orr	r7, r7, r7, lsl #1
	eor	r0, r1, r7, lsl #8
	ldr	r1, [sp, #64]                   @ 4-byte Reload
	and	r6, r6, r1
	ldr	r1, [sp, #88]                   @ 4-byte Reload
	and	r1, r4, r1
	str	r1, [sp, #88]                   @ 4-byte Spill
	eor	r6, r6, r1
	ldr	r1, [sp, #60]                   @ 4-byte Reload
	str	r6, [sp, #48]                   @ 4-byte Spill
	and	r4, r9, r1
	ldr	r1, [sp, #184]                  @ 4-byte Reload
	eor	r6, r6, r4
	and	r4, r3, r1
	eor	r1, r6, r4
	str	r1, [sp, #60]                   @ 4-byte Spill
	eor	r0, r0, r1
	movw	r1, #771
	movt	r1, #771
	and	r0, r1, r0, ror #14
	ldr	r1, [sp, #132]                  @ 4-byte Reload
	eor	r0, r0, r1
	movw	r1, #64764
	movt	r1, #64764
	and	r4, r1, r0, lsl #2
	eor	r1, r4, r0
	movw	r0, #61680
	movt	r0, #61680
	str	r1, [sp, #184]                  @ 4-byte Spill
	and	r1, r0, r1, lsl #4
	ldr	r0, [sp, #144]                  @ 4-byte Reload
	movw	r4, #3855
	str	r1, [sp, #132]                  @ 4-byte Spill
	movt	r4, #3855
	and	r0, r4, r0, lsr #4
	add	r4, r2, r2, lsl #1
	orr	r0, r1, r0
	ldr	r1, [sp, #188]                  @ 4-byte Reload
	ldr	r2, [sp, #80]                   @ 4-byte Reload
	add	r10, r1, r4, lsl #5
	ldr	r1, [sp, #160]                  @ 4-byte Reload
	ldr	r4, [sp, #200]                  @ 4-byte Reload
	str	r0, [r10, #60]
	ldr	r0, [sp, #176]                  @ 4-byte Reload
	and	r9, r1, r0
	ldr	r1, [sp, #172]                  @ 4-byte Reload
	and	r0, r8, r4
	and	r1, r3, r1
	ldr	r3, [sp, #44]                   @ 4-byte Reload
	str	r1, [sp, #172]                  @ 4-byte Spill
	eor	r1, r1, r0
	eor	r0, r9, r1
	and	r9, r3, r2
	ldr	r2, [sp, #76]                   @ 4-byte Reload
	eor	r0, r0, r9
	eor	r0, r0, r11
	and	r3, lr, r2
	ldr	r2, [sp, #56]                   @ 4-byte Reload
	eor	r11, r0, r3
	str	r11, [sp, #76]                  @ 4-byte Spill
	and	r3, r8, r2
	mov	r2, #64
	and	r7, r2, r5, lsl #4
	ldr	r2, [sp, #116]                  @ 4-byte Reload
	movw	r8, #3855
	orr	r7, r7, r7, lsl #1
	movt	r8, #3855
	eor	r3, r3, r7, lsl #8
	movw	r7, #771
	eor	r3, r3, r6
	movt	r7, #771
	eor	r3, r3, r11
	movw	r11, #64764
	movt	r11, #64764
	and	r3, r7, r3, ror #14
	eor	r3, r3, r2
	and	r6, r11, r3, lsl #2
	eor	r2, r6, r3
	movw	r3, #61680
	movt	r3, #61680
	str	r2, [sp, #176]                  @ 4-byte Spill
	and	r6, r3, r2, lsl #4
	ldr	r2, [sp, #152]                  @ 4-byte Reload
	str	r6, [sp, #116]                  @ 4-byte Spill
	and	r3, r8, r2, lsr #4
	ldr	r2, [sp, #104]                  @ 4-byte Reload
	orr	r3, r6, r3
	str	r3, [r10, #40]
	and	r3, lr, r2
	ldr	r2, [sp, #52]                   @ 4-byte Reload
	eor	r1, r1, r3
	mov	r6, r10
	eor	r3, r1, r2
	ldr	r1, [sp, #180]                  @ 4-byte Reload
	str	r3, [sp, #80]                   @ 4-byte Spill
	movw	r10, #61680
	and	r2, r12, r1
	mov	r12, #64
	eor	r2, r3, r2
	and	r3, r12, r5, lsl #5
	ldr	r1, [sp, #48]                   @ 4-byte Reload
	movt	r10, #61680
	orr	r3, r3, r3, lsl #1
	eor	r2, r2, r1
	ldr	r1, [sp, #72]                   @ 4-byte Reload
	eor	r3, r2, r3, lsl #8
	eor	r0, r3, r0
	ldr	r3, [sp, #120]                  @ 4-byte Reload
	bic	r0, r7, r0, ror #14
	eor	r0, r0, r3
	and	r3, r11, r0, lsl #2
	eor	r0, r3, r0
	str	r0, [sp, #180]                  @ 4-byte Spill
	and	r3, r10, r0, lsl #4
	ldr	r0, [sp, #196]                  @ 4-byte Reload
	str	r3, [sp, #120]                  @ 4-byte Spill
	and	r0, r8, r0, lsr #4
	orr	r0, r3, r0
	str	r0, [r6, #36]
	and	r0, r12, r5, lsl #6
	ldr	r3, [sp, #68]                   @ 4-byte Reload
	orr	r0, r0, r0, lsl #1
	eor	r0, r2, r0, lsl #8
	ldr	r2, [sp, #148]                  @ 4-byte Reload
	eor	r0, r0, r9
	ldr	r9, [sp, #92]                   @ 4-byte Reload
	bic	r0, r7, r0, ror #14
	eor	r0, r0, r2
	and	r2, r11, r0, lsl #2
	eor	r0, r2, r0
	str	r0, [sp, #148]                  @ 4-byte Spill
	and	r2, r10, r0, lsl #4
	and	r0, r8, r4, lsr #4
	orr	r0, r2, r0
	str	r0, [r6, #32]
	and	r0, r5, #64
	str	r2, [sp, #104]                  @ 4-byte Spill
	mov	r4, r6
	orr	r0, r0, r0, lsl #1
	eor	r2, r1, r0, lsl #8
	ldr	r0, [sp, #100]                  @ 4-byte Reload
	and	r0, r3, r0
	ldr	r3, [sp, #172]                  @ 4-byte Reload
	eor	r0, r0, r3
	ldr	r3, [sp, #84]                   @ 4-byte Reload
	eor	r0, r0, r3
	ldr	r3, [sp, #60]                   @ 4-byte Reload
	eor	r0, r0, r3
	ldr	r3, [sp, #136]                  @ 4-byte Reload
	eor	r2, r2, r0
	bic	r2, r7, r2, ror #14
	eor	r2, r2, r3
	and	r3, r11, r2, lsl #2
	eor	r2, r3, r2
	str	r2, [sp, #172]                  @ 4-byte Spill
	and	r3, r10, r2, lsl #4
	and	r2, r8, r9, lsr #4
	orr	r2, r3, r2
	str	r3, [sp, #136]                  @ 4-byte Spill
	str	r2, [r6, #56]
	ldr	r2, [sp, #168]                  @ 4-byte Reload
	ldr	r3, [sp, #160]                  @ 4-byte Reload
	and	r2, r3, r2
	and	r3, r12, r5, lsl #1
	orr	r3, r3, r3, lsl #1
	eor	r2, r2, r3, lsl #8
	ldr	r3, [sp, #140]                  @ 4-byte Reload
	eor	r2, r2, r1
	ldr	r1, [sp, #88]                   @ 4-byte Reload
	eor	r2, r2, r1
	ldr	r1, [sp, #76]                   @ 4-byte Reload
	eor	r2, r2, r1
	ldr	r1, [sp, #80]                   @ 4-byte Reload
	bic	r2, r7, r2, ror #14
	eor	r2, r2, r3
	and	r3, r11, r2, lsl #2
	eor	r2, r3, r2
	str	r2, [sp, #168]                  @ 4-byte Spill
	and	r3, r10, r2, lsl #4
	ldr	r2, [sp, #164]                  @ 4-byte Reload
	str	r3, [sp, #100]                  @ 4-byte Spill
	and	r2, r8, r2, lsr #4
	orr	r2, r3, r2
	str	r2, [r6, #52]
	and	r2, r12, r5, lsl #2
	ldr	r3, [sp, #128]                  @ 4-byte Reload
	orr	r2, r2, r2, lsl #1
	eor	r2, r0, r2, lsl #8
	and	r2, r7, r2, ror #14
	eor	r2, r2, r3
	and	r3, r11, r2, lsl #2
	eor	r2, r3, r2
	str	r2, [sp, #160]                  @ 4-byte Spill
	and	r3, r10, r2, lsl #4
	ldr	r2, [sp, #156]                  @ 4-byte Reload
	str	r3, [sp, #128]                  @ 4-byte Spill
	and	r2, r8, r2, lsr #4
	orr	r2, r3, r2
	str	r2, [r6, #48]
	and	r2, r12, r5, lsl #3
	ldr	r12, [sp, #96]                  @ 4-byte Reload
	mov	r6, r10
	mov	r3, r11
	orr	r2, r2, r2, lsl #1
	eor	r1, r1, r2, lsl #8
	mov	r2, r4
	eor	r0, r1, r0
	ldr	r1, [sp, #124]                  @ 4-byte Reload
	str	r2, [sp, #64]                   @ 4-byte Spill
	and	r0, r7, r0, ror #14
	eor	r0, r0, r1
	and	r1, r11, r0, lsl #2
	eor	r0, r1, r0
	str	r0, [sp, #88]                   @ 4-byte Spill
	and	r1, r10, r0, lsl #4
	mov	r10, r0
	and	r0, r8, r12, lsr #4
	str	r1, [sp, #124]                  @ 4-byte Spill
	orr	r0, r1, r0
	str	r0, [r4, #44]
	ldr	r0, [sp, #184]                  @ 4-byte Reload
	ldr	r1, [sp, #144]                  @ 4-byte Reload
	and	r0, r7, r0, lsr #2
	eor	r0, r0, r1
	and	r1, r11, r0, lsl #2
	eor	r0, r1, r0
	and	r1, r6, r0, lsl #4
	eor	r11, r1, r0
	ldr	r0, [sp, #176]                  @ 4-byte Reload
	ldr	r1, [sp, #152]                  @ 4-byte Reload
	str	r11, [r4, #92]
	and	r0, r7, r0, lsr #2
	str	r11, [sp, #76]                  @ 4-byte Spill
	eor	r0, r0, r1
	and	r1, r3, r0, lsl #2
	eor	r0, r1, r0
	and	r1, r6, r0, lsl #4
	eor	r0, r1, r0
	str	r0, [sp, #152]                  @ 4-byte Spill
	str	r0, [r4, #72]
	ldr	r0, [sp, #180]                  @ 4-byte Reload
	ldr	r1, [sp, #196]                  @ 4-byte Reload
	and	r0, r7, r0, lsr #2
	eor	r0, r0, r1
	and	r1, r3, r0, lsl #2
	eor	r0, r1, r0
	and	r1, r6, r0, lsl #4
	eor	r8, r1, r0
	ldr	r0, [sp, #148]                  @ 4-byte Reload
	ldr	r1, [sp, #200]                  @ 4-byte Reload
	str	r8, [r4, #68]
	and	r0, r7, r0, lsr #2
	str	r8, [sp, #80]                   @ 4-byte Spill
	eor	r0, r0, r1
	and	r1, r3, r0, lsl #2
	eor	r0, r1, r0
	and	r1, r6, r0, lsl #4
	eor	lr, r1, r0
	ldr	r0, [sp, #172]                  @ 4-byte Reload
	str	lr, [r4, #64]
	str	lr, [sp, #200]                  @ 4-byte Spill
	and	r0, r7, r0, lsr #2
	eor	r0, r0, r9
	and	r1, r3, r0, lsl #2
	eor	r0, r1, r0
	and	r1, r6, r0, lsl #4
	eor	r9, r1, r0
	ldr	r0, [sp, #168]                  @ 4-byte Reload
	ldr	r1, [sp, #164]                  @ 4-byte Reload
	str	r9, [r4, #88]
	and	r0, r7, r0, lsr #2
	str	r9, [sp, #84]                   @ 4-byte Spill
	eor	r0, r0, r1
	and	r1, r3, r0, lsl #2
	eor	r0, r1, r0
	and	r1, r6, r0, lsl #4
	eor	r4, r1, r0
	ldr	r0, [sp, #160]                  @ 4-byte Reload
	ldr	r1, [sp, #156]                  @ 4-byte Reload
	str	r4, [r2, #84]
	and	r0, r7, r0, lsr #2
	str	r4, [sp, #92]                   @ 4-byte Spill
	eor	r0, r0, r1
	and	r1, r3, r0, lsl #2
	eor	r0, r1, r0
	and	r1, r6, r0, lsl #4
	eor	r5, r1, r0
	and	r0, r7, r10, lsr #2
	eor	r0, r0, r12
	str	r5, [r2, #80]
	str	r5, [sp, #164]                  @ 4-byte Spill
	and	r1, r3, r0, lsl #2
	eor	r0, r1, r0
	and	r1, r6, r0, lsl #4
	eor	r6, r1, r0
	eor	r0, r9, r4
	str	r6, [r2, #76]
	eor	r2, r0, lr
	eor	r1, r2, r8
	str	r2, [sp, #140]                  @ 4-byte Spill
	and	lr, r1, r2
	ldr	r2, [sp, #152]                  @ 4-byte Reload
	str	r1, [sp, #196]                  @ 4-byte Spill
	mov	r1, r5
	eor	r4, r8, r11
	eor	r5, r5, r2
	eor	r7, r4, r5
	str	r7, [sp, #144]                  @ 4-byte Spill
	eor	r7, r7, r6
	eor	r1, r1, r11
	eor	r3, r7, r9
	str	r6, [sp, #96]                   @ 4-byte Spill
	eor	r10, r3, r1
	str	r3, [sp, #156]                  @ 4-byte Spill
	eor	r6, r10, r0
	eor	r12, r7, r2
	eor	r3, r6, lr
	and	lr, r6, r4
	eor	r3, r3, lr
	str	r4, [sp, #56]                   @ 4-byte Spill
	eor	r8, r3, r4
	eor	r4, r12, r0
	mov	r3, r2
	eor	r2, r10, r4
	str	r2, [sp, #52]                   @ 4-byte Spill
	and	r0, r2, r5
	and	r2, r10, r1
	str	r5, [sp, #24]                   @ 4-byte Spill
	eor	r5, r0, r2
	ldr	r0, [sp, #140]                  @ 4-byte Reload
	str	r1, [sp, #28]                   @ 4-byte Spill
	eor	r9, r8, r5
	eor	r7, r0, r11
	ldr	r0, [sp, #200]                  @ 4-byte Reload
	str	r7, [sp, #48]                   @ 4-byte Spill
	eor	r1, r10, r0
	str	r1, [sp, #60]                   @ 4-byte Spill
	and	r7, r1, r7
	str	r6, [sp, #44]                   @ 4-byte Spill
	eor	r7, r6, r7
	str	r4, [sp, #16]                   @ 4-byte Spill
	eor	r1, r7, lr
	eor	lr, r11, r3
	and	r7, r4, lr
	mov	r3, r4
	eor	r6, r7, r2
	ldr	r2, [sp, #144]                  @ 4-byte Reload
	eor	r8, r1, r11
	eor	r1, r12, r0
	and	r4, r12, r2
	ldr	r2, [sp, #196]                  @ 4-byte Reload
	str	r1, [sp, #68]                   @ 4-byte Spill
	eor	r7, r8, r6
	eor	r2, r2, lr
	str	r12, [sp, #32]                  @ 4-byte Spill
	and	r11, r1, r2
	ldr	r1, [sp, #156]                  @ 4-byte Reload
	eor	r8, r7, r9
	str	r2, [sp, #12]                   @ 4-byte Spill
	eor	r1, r1, r11
	ldr	r11, [sp, #140]                 @ 4-byte Reload
	eor	r1, r1, r4
	str	lr, [sp, #72]                   @ 4-byte Spill
	eor	r12, r1, r5
	ldr	r5, [sp, #164]                  @ 4-byte Reload
	and	r1, r9, r12
	eor	r5, r11, r5
	str	r5, [sp, #36]                   @ 4-byte Spill
	and	r5, r5, r0
	eor	r5, r5, lr
	eor	r5, r5, r3
	eor	r0, r5, r4
	eor	r0, r0, r6
	eor	r3, r1, r0
	and	r5, r3, r8
	eor	r3, r5, r7
	eor	r5, r5, r1
	and	r8, r5, r7
	eor	r5, r12, r0
	eor	r1, r1, r7
	eor	r9, r8, r9
	and	r7, r1, r5
	eor	r1, r8, r1
	eor	r0, r7, r0
	eor	r2, r9, r3
	and	r1, r1, r0
	eor	r7, r0, r3
	eor	r8, r1, r5
	and	r6, r7, r10
	eor	r1, r8, r2
	str	r1, [sp, #156]                  @ 4-byte Spill
	eor	r5, r1, r7
	ldr	r1, [sp, #52]                   @ 4-byte Reload
	and	lr, r8, r11
	eor	r11, r8, r0
	and	r12, r5, r1
	ldr	r1, [sp, #44]                   @ 4-byte Reload
	str	r2, [sp, #40]                   @ 4-byte Spill
	and	r1, r11, r1
	str	r1, [sp, #20]                   @ 4-byte Spill
	eor	r1, r1, lr
	str	r1, [sp, #52]                   @ 4-byte Spill
	eor	lr, r1, r12
	ldr	r1, [sp, #108]                  @ 4-byte Reload
	eor	r4, lr, r6
	str	r4, [sp, #44]                   @ 4-byte Spill
	ldrb	r6, [r1, #1]
	mov	r1, #64
	and	r1, r1, r6, lsr #1
	orr	r1, r1, r1, lsl #1
	eor	r1, r4, r1, lsl #8
	ldr	r4, [sp, #24]                   @ 4-byte Reload
	and	r5, r5, r4
	ldr	r4, [sp, #28]                   @ 4-byte Reload
	and	r7, r7, r4
	ldr	r4, [sp, #12]                   @ 4-byte Reload
	eor	r12, r5, r7
	str	r7, [sp, #140]                  @ 4-byte Spill
	and	r5, r2, r4
	ldr	r2, [sp, #144]                  @ 4-byte Reload
	eor	r7, r12, r5
	ldr	r4, [sp, #64]                   @ 4-byte Reload
	and	r5, r9, r2
	eor	r2, r7, r5
	str	r2, [sp, #108]                  @ 4-byte Spill
	eor	r1, r1, r2
	movw	r2, #771
	ldr	r5, [sp, #132]                  @ 4-byte Reload
	movt	r2, #771
	and	r1, r2, r1, ror #14
	movw	r2, #64764
	orr	r1, r1, r5
	ldr	r5, [sp, #184]                  @ 4-byte Reload
	movt	r2, #64764
	eor	r1, r1, r5
	and	r5, r2, r1, lsl #2
	ldr	r2, [sp, #16]                   @ 4-byte Reload
	eor	r5, r5, r1
	movw	r1, #61680
	movt	r1, #61680
	str	r5, [sp, #184]                  @ 4-byte Spill
	and	r1, r1, r5, lsl #4
	eor	r1, r1, r5
	str	r1, [sp, #132]                  @ 4-byte Spill
	str	r1, [r4, #124]
	ldr	r1, [sp, #156]                  @ 4-byte Reload
	and	r5, r1, r2
	ldr	r1, [sp, #200]                  @ 4-byte Reload
	ldr	r2, [sp, #32]                   @ 4-byte Reload
	and	r1, r3, r1
	and	r2, r9, r2
	str	r2, [sp, #32]                   @ 4-byte Spill
	eor	r1, r2, r1
	ldr	r2, [sp, #56]                   @ 4-byte Reload
	eor	r10, r5, r1
	ldr	r5, [sp, #48]                   @ 4-byte Reload
	and	r11, r11, r2
	movw	r9, #64764
	eor	r2, r10, r11
	and	r5, r0, r5
	eor	r2, r2, lr
	movw	lr, #771
	eor	r10, r2, r5
	ldr	r5, [sp, #36]                   @ 4-byte Reload
	movt	lr, #771
	movt	r9, #64764
	and	r3, r3, r5
	mov	r5, #64
	and	r5, r5, r6, lsl #4
	orr	r5, r5, r5, lsl #1
	eor	r3, r3, r5, lsl #8
	ldr	r5, [sp, #116]                  @ 4-byte Reload
	eor	r3, r3, r7
	eor	r3, r3, r10
	and	r3, lr, r3, ror #14
	orr	r3, r3, r5
	ldr	r5, [sp, #176]                  @ 4-byte Reload
	eor	r3, r3, r5
	and	r5, r9, r3, lsl #2
	eor	r7, r5, r3
	movw	r5, #61680
	movt	r5, #61680
	str	r7, [sp, #176]                  @ 4-byte Spill
	and	r3, r5, r7, lsl #4
	eor	r3, r3, r7
	str	r3, [sp, #116]                  @ 4-byte Spill
	str	r3, [r4, #104]
	mov	r3, r4
	ldr	r4, [sp, #60]                   @ 4-byte Reload
	mov	r7, #64
	and	r0, r0, r4
	ldr	r4, [sp, #44]                   @ 4-byte Reload
	eor	r0, r1, r0
	ldr	r1, [sp, #20]                   @ 4-byte Reload
	eor	r1, r0, r1
	ldr	r0, [sp, #196]                  @ 4-byte Reload
	str	r1, [sp, #144]                  @ 4-byte Spill
	and	r0, r8, r0
	mov	r8, #64
	eor	r0, r1, r0
	and	r1, r7, r6, lsl #5
	eor	r0, r0, r12
	mov	r12, r9
	orr	r1, r1, r1, lsl #1
	eor	r1, r0, r1, lsl #8
	eor	r1, r1, r2
	ldr	r2, [sp, #120]                  @ 4-byte Reload
	bic	r1, lr, r1, ror #14
	orr	r1, r1, r2
	ldr	r2, [sp, #180]                  @ 4-byte Reload
	eor	r1, r1, r2
	and	r2, r9, r1, lsl #2
	eor	r9, r2, r1
	ldr	r2, [sp, #40]                   @ 4-byte Reload
	and	r1, r5, r9, lsl #4
	eor	r1, r1, r9
	str	r1, [sp, #120]                  @ 4-byte Spill
	str	r1, [r3, #100]
	and	r1, r7, r6, lsl #6
	orr	r1, r1, r1, lsl #1
	eor	r0, r0, r1, lsl #8
	ldr	r1, [sp, #104]                  @ 4-byte Reload
	eor	r0, r0, r11
	mov	r11, r5
	bic	r0, lr, r0, ror #14
	orr	r0, r0, r1
	ldr	r1, [sp, #148]                  @ 4-byte Reload
	eor	r0, r0, r1
	and	r1, r12, r0, lsl #2
	eor	r0, r1, r0
	str	r0, [sp, #180]                  @ 4-byte Spill
	and	r1, r5, r0, lsl #4
	eor	r0, r1, r0
	str	r0, [sp, #148]                  @ 4-byte Spill
	str	r0, [r3, #96]
	and	r1, r6, #64
	ldr	r0, [sp, #68]                   @ 4-byte Reload
	orr	r1, r1, r1, lsl #1
	and	r2, r2, r0
	ldr	r0, [sp, #32]                   @ 4-byte Reload
	eor	r1, r4, r1, lsl #8
	eor	r2, r2, r0
	ldr	r0, [sp, #52]                   @ 4-byte Reload
	eor	r2, r2, r0
	ldr	r0, [sp, #108]                  @ 4-byte Reload
	eor	r7, r2, r0
	ldr	r0, [sp, #136]                  @ 4-byte Reload
	eor	r1, r1, r7
	bic	r1, lr, r1, ror #14
	orr	r1, r1, r0
	ldr	r0, [sp, #172]                  @ 4-byte Reload
	eor	r1, r1, r0
	and	r2, r12, r1, lsl #2
	eor	r2, r2, r1
	and	r1, r5, r2, lsl #4
	and	r5, r8, r6, lsl #1
	eor	r0, r1, r2
	str	r0, [sp, #136]                  @ 4-byte Spill
	str	r0, [r3, #120]
	orr	r5, r5, r5, lsl #1
	ldr	r0, [sp, #72]                   @ 4-byte Reload
	ldr	r1, [sp, #156]                  @ 4-byte Reload
	and	r1, r1, r0
	ldr	r0, [sp, #140]                  @ 4-byte Reload
	eor	r1, r1, r5, lsl #8
	eor	r1, r1, r4
	mov	r4, #64
	eor	r1, r1, r0
	ldr	r0, [sp, #100]                  @ 4-byte Reload
	eor	r1, r1, r10
	bic	r1, lr, r1, ror #14
	orr	r1, r1, r0
	ldr	r0, [sp, #168]                  @ 4-byte Reload
	eor	r1, r1, r0
	and	r5, r12, r1, lsl #2
	eor	r5, r5, r1
	and	r1, r11, r5, lsl #4
	eor	r0, r1, r5
	and	r1, r8, r6, lsl #2
	str	r0, [sp, #140]                  @ 4-byte Spill
	orr	r1, r1, r1, lsl #1
	str	r0, [r3, #116]
	ldr	r0, [sp, #128]                  @ 4-byte Reload
	eor	r1, r7, r1, lsl #8
	and	r1, lr, r1, ror #14
	orr	r1, r1, r0
	ldr	r0, [sp, #160]                  @ 4-byte Reload
	eor	r1, r1, r0
	and	r0, r12, r1, lsl #2
	eor	r1, r0, r1
	and	r0, r11, r1, lsl #4
	eor	r0, r0, r1
	str	r0, [sp, #128]                  @ 4-byte Spill
	str	r0, [r3, #112]
	and	r0, r4, r6, lsl #3
	ldr	r4, [sp, #144]                  @ 4-byte Reload
	orr	r0, r0, r0, lsl #1
	eor	r0, r4, r0, lsl #8
	ldr	r4, [sp, #88]                   @ 4-byte Reload
	eor	r0, r0, r7
	ldr	r7, [sp, #124]                  @ 4-byte Reload
	and	r0, lr, r0, ror #14
	orr	r0, r0, r7
	eor	r0, r0, r4
	and	r7, r12, r0, lsl #2
	eor	r7, r7, r0
	and	r0, r11, r7, lsl #4
	eor	r0, r0, r7
	str	r0, [r3, #108]
	ldr	r3, [sp, #80]                   @ 4-byte Reload
	str	r0, [sp, #124]                  @ 4-byte Spill
	and	r0, lr, r9, lsr #2
	eor	r0, r0, r3
	and	r3, r12, r0, lsl #2
	eor	r0, r3, r0
	and	r3, r11, r0, lsl #4
	eor	r0, r3, r0
	str	r0, [sp, #196]                  @ 4-byte Spill
	and	r0, lr, r2, lsr #2
	ldr	r2, [sp, #84]                   @ 4-byte Reload
	mov	r3, lr
	eor	r0, r0, r2
	and	r2, r12, r0, lsl #2
	eor	r0, r2, r0
	and	r2, r11, r0, lsl #4
	eor	r4, r2, r0
	ldr	r2, [sp, #92]                   @ 4-byte Reload
	and	r0, lr, r5, lsr #2
	eor	r0, r0, r2
	and	r2, r12, r0, lsl #2
	eor	r0, r2, r0
	and	r2, r11, r0, lsl #4
	eor	r9, r2, r0
	ldr	r0, [sp, #184]                  @ 4-byte Reload
	ldr	r2, [sp, #76]                   @ 4-byte Reload
	and	r0, lr, r0, lsr #2
	eor	r0, r0, r2
	and	r2, r12, r0, lsl #2
	eor	r0, r2, r0
	and	r2, r11, r0, lsl #4
	eor	lr, r2, r0
	ldr	r0, [sp, #176]                  @ 4-byte Reload
	ldr	r2, [sp, #152]                  @ 4-byte Reload
	and	r0, r3, r0, lsr #2
	eor	r0, r0, r2
	and	r2, r12, r0, lsl #2
	eor	r0, r2, r0
	and	r2, r11, r0, lsl #4
	eor	r10, r2, r0
	ldr	r0, [sp, #180]                  @ 4-byte Reload
	ldr	r2, [sp, #200]                  @ 4-byte Reload
	and	r0, r3, r0, lsr #2
	eor	r0, r0, r2
	and	r2, r12, r0, lsl #2
	eor	r0, r2, r0
	and	r2, r11, r0, lsl #4
	eor	r0, r2, r0
	str	r0, [sp, #200]                  @ 4-byte Spill
	and	r0, r3, r1, lsr #2
	ldr	r1, [sp, #164]                  @ 4-byte Reload
	ldr	r2, [sp, #192]                  @ 4-byte Reload
	eor	r0, r0, r1
	and	r1, r12, r0, lsl #2
	eor	r0, r1, r0
	and	r1, r11, r0, lsl #4
	eor	r6, r1, r0
	ldr	r1, [sp, #96]                   @ 4-byte Reload
	and	r0, r3, r7, lsr #2
	ldr	r3, [sp, #112]                  @ 4-byte Reload
	eor	r0, r0, r1
	and	r1, r12, r0, lsl #2
	eor	r0, r1, r0
	and	r1, r11, r0, lsl #4
	eor	r7, r1, r0
	adds	r0, r2, #1
	adc	r1, r3, #0
	subs	r2, r2, #3
	sbcs	r2, r3, #0
	blo	.Laes_BB0_6
	b	.Laes_BB0_11
	.p2align	2
@ %bb.7:
.Laes_CPI0_5:
	.long	.Laes_static.0-(.Laes_PC0_1+8)
	.p2align	2
.Laes_BB0_8:                                @ %else.5.i
	mov	r7, r1
	bl	aes.aes_planes.soft.word.word32.U32Word.in_every_slot
	ldr	r0, [sp, #204]
	add	r1, r7, #16
	str	r0, [sp, #192]                  @ 4-byte Spill
	mov	r6, r8
	ldr	r0, [sp, #208]
	str	r0, [sp, #184]                  @ 4-byte Spill
	ldr	r0, [sp, #212]
	str	r0, [sp, #180]                  @ 4-byte Spill
	ldr	r0, [sp, #216]
	str	r0, [sp, #176]                  @ 4-byte Spill
	ldr	r0, [sp, #228]
	str	r0, [sp, #164]                  @ 4-byte Spill
	ldr	r0, [sp, #232]
	str	r0, [sp, #160]                  @ 4-byte Spill
	add	r0, sp, #204
	ldr	r10, [sp, #220]
	ldr	r5, [sp, #224]
	bl	aes.aes_planes.soft.word.word32.U32Word.in_every_slot
	ldr	r0, [sp, #204]
	ldr	r1, [sp, #220]
	str	r0, [sp, #200]                  @ 4-byte Spill
	str	r0, [r6, #32]
	add	r0, r6, #48
	ldr	r8, [sp, #224]
	ldr	r9, [sp, #228]
	stm	r0, {r1, r8, r9}
	ldr	r0, [sp, #192]                  @ 4-byte Reload
	str	r0, [r6]
	ldr	r0, [sp, #184]                  @ 4-byte Reload
	str	r0, [r6, #4]
	ldr	r0, [sp, #180]                  @ 4-byte Reload
	str	r0, [r6, #8]
	ldr	r0, [sp, #176]                  @ 4-byte Reload
	ldr	r12, [sp, #208]
	ldr	r11, [sp, #216]
	str	r0, [r6, #12]
	ldr	r0, [sp, #164]                  @ 4-byte Reload
	str	r0, [r6, #24]
	ldr	r0, [sp, #160]                  @ 4-byte Reload
	ldr	r4, [sp, #212]
	ldr	r7, [sp, #232]
	str	r1, [sp, #196]                  @ 4-byte Spill
	mov	r1, #0
	str	r0, [r6, #28]
	mov	r0, #0
	str	r12, [r6, #36]
	str	r4, [sp, #168]                  @ 4-byte Spill
	str	r4, [r6, #40]
	str	r11, [r6, #44]
	str	r7, [sp, #172]                  @ 4-byte Spill
	str	r7, [r6, #60]
	str	r10, [r6, #16]
	str	r5, [r6, #20]
.Laes_BB0_9:                                @ %join.5.i348.i
                                        @ =>This Inner Loop Header: Depth=1
	str	r0, [sp, #192]                  @ 4-byte Spill
	eor	r3, r9, r8
	ldr	r5, [sp, #172]                  @ 4-byte Reload
	ldr	r0, [sp, #196]                  @ 4-byte Reload
	ldr	r10, [sp, #168]                 @ 4-byte Reload
	eor	lr, r5, r12
	str	r1, [sp, #164]                  @ 4-byte Spill
	eor	r6, r5, r0
	eor	r2, r0, r10
	str	r2, [sp, #160]                  @ 4-byte Spill
	eor	r1, lr, r2
	str	r1, [sp, #184]                  @ 4-byte Spill
	eor	r1, r1, r11
	str	r6, [sp, #148]                  @ 4-byte Spill
	eor	r4, r1, r10
	eor	r1, r1, r9
	eor	r9, r1, r6
	str	r4, [sp, #180]                  @ 4-byte Spill
	eor	r4, r4, r3
	str	r1, [sp, #132]                  @ 4-byte Spill
	eor	r0, r9, r4
	str	r4, [sp, #176]                  @ 4-byte Spill
	and	r1, r0, r2
	ldr	r2, [sp, #200]                  @ 4-byte Reload
	and	r6, r9, r6
	str	r0, [sp, #144]                  @ 4-byte Spill
	eor	r4, r3, r2
	eor	r8, r9, r3
	eor	r11, r4, r12
	eor	r7, r1, r6
	and	r0, r11, r4
	mov	r1, lr
	str	lr, [sp, #140]                  @ 4-byte Spill
	eor	r0, r8, r0
	and	lr, r8, lr
	ldr	r12, [sp, #176]                 @ 4-byte Reload
	eor	r0, r0, lr
	eor	r3, r5, r10
	eor	r0, r0, r1
	str	r7, [sp, #128]                  @ 4-byte Spill
	eor	r7, r0, r7
	and	r0, r12, r3
	eor	r10, r0, r6
	eor	r1, r4, r5
	mov	r0, r2
	str	r2, [sp, #200]                  @ 4-byte Spill
	eor	r2, r9, r2
	str	r1, [sp, #136]                  @ 4-byte Spill
	and	r6, r2, r1
	str	r2, [sp, #156]                  @ 4-byte Spill
	eor	r6, r8, r6
	ldr	r2, [sp, #180]                  @ 4-byte Reload
	eor	r6, r6, lr
	str	r11, [sp, #152]                 @ 4-byte Spill
	eor	r6, r6, r5
	eor	r5, r2, r0
	eor	lr, r6, r10
	eor	r6, r11, r3
	eor	r1, lr, r7
	str	r1, [sp, #120]                  @ 4-byte Spill
	ldr	r1, [sp, #184]                  @ 4-byte Reload
	and	r11, r5, r6
	str	r5, [sp, #172]                  @ 4-byte Spill
	and	r1, r2, r1
	ldr	r2, [sp, #132]                  @ 4-byte Reload
	str	r6, [sp, #124]                  @ 4-byte Spill
	eor	r5, r2, r11
	ldr	r2, [sp, #128]                  @ 4-byte Reload
	eor	r5, r5, r1
	str	r3, [sp, #168]                  @ 4-byte Spill
	eor	r11, r5, r2
	ldr	r2, [sp, #196]                  @ 4-byte Reload
	and	r5, r7, r11
	eor	r2, r4, r2
	str	r2, [sp, #196]                  @ 4-byte Spill
	and	r2, r2, r0
	eor	r2, r2, r3
	eor	r2, r2, r12
	eor	r0, r2, r1
	ldr	r2, [sp, #120]                  @ 4-byte Reload
	eor	r0, r0, r10
	eor	r1, r5, r0
	eor	r12, r11, r0
	and	r2, r1, r2
	eor	r10, r2, lr
	eor	r2, r2, r5
	eor	r5, r5, lr
	and	r6, r2, lr
	and	r2, r5, r12
	eor	r1, r6, r7
	eor	lr, r2, r0
	eor	r2, r6, r5
	and	r2, r2, lr
	eor	r3, r1, r10
	eor	r12, r2, r12
	eor	r2, lr, r10
	eor	r11, r12, r3
	ldr	r0, [sp, #144]                  @ 4-byte Reload
	eor	r5, r11, r2
	and	r4, r12, r4
	and	r6, r5, r0
	eor	r0, r12, lr
	str	r0, [sp, #104]                  @ 4-byte Spill
	and	r0, r0, r8
	str	r0, [sp, #112]                  @ 4-byte Spill
	eor	r0, r0, r4
	and	r4, r2, r9
	eor	r8, r0, r6
	str	r0, [sp, #144]                  @ 4-byte Spill
	eor	r6, r8, r4
	str	r1, [sp, #100]                  @ 4-byte Spill
	mov	r0, #64
	str	r3, [sp, #128]                  @ 4-byte Spill
	mov	r9, #64
	str	r11, [sp, #120]                 @ 4-byte Spill
	str	r6, [sp, #132]                  @ 4-byte Spill
	ldr	r4, .Laes_CPI0_2
	ldr	r1, [sp, #192]                  @ 4-byte Reload
.Laes_PC0_2:
	add	r4, pc, r4
	ldrb	r7, [r4, r1]
	and	r4, r0, r7, lsr #1
	ldr	r0, [sp, #160]                  @ 4-byte Reload
	and	r5, r5, r0
	ldr	r0, [sp, #148]                  @ 4-byte Reload
	orr	r4, r4, r4, lsl #1
	and	r0, r2, r0
	ldr	r2, [sp, #124]                  @ 4-byte Reload
	str	r0, [sp, #148]                  @ 4-byte Spill
	eor	r0, r5, r0
	and	r2, r3, r2
	str	r0, [sp, #108]                  @ 4-byte Spill
	eor	r5, r0, r2
	ldr	r0, [sp, #184]                  @ 4-byte Reload
	ldr	r3, [sp, #100]                  @ 4-byte Reload
	eor	r4, r6, r4, lsl #8
	ldr	r6, [sp, #188]                  @ 4-byte Reload
	and	r2, r3, r0
	eor	r0, r5, r2
	str	r0, [sp, #124]                  @ 4-byte Spill
	eor	r2, r4, r0
	movw	r0, #771
	movt	r0, #771
	and	r2, r0, r2, ror #14
	ldr	r0, [r6, r1, lsl #6]!
	str	r0, [sp, #116]                  @ 4-byte Spill
	movw	r0, #64764
	ldr	r4, [r6, #28]
	movt	r0, #64764
	ldr	r1, [sp, #180]                  @ 4-byte Reload
	eor	r2, r2, r4
	and	r1, r3, r1
	ldr	r3, [sp, #104]                  @ 4-byte Reload
	and	r4, r0, r2, lsl #2
	movw	r0, #61680
	eor	r2, r4, r2
	movt	r0, #61680
	and	r4, r0, r2, lsl #4
	eor	r0, r4, r2
	str	r0, [sp, #160]                  @ 4-byte Spill
	str	r0, [r6, #92]
	and	r4, r9, r7, lsl #4
	ldr	r0, [sp, #176]                  @ 4-byte Reload
	str	r1, [sp, #176]                  @ 4-byte Spill
	orr	r4, r4, r4, lsl #1
	and	r2, r11, r0
	ldr	r0, [sp, #200]                  @ 4-byte Reload
	ldr	r9, [r6, #4]
	and	r0, r10, r0
	eor	r1, r1, r0
	eor	r0, r2, r1
	ldr	r2, [sp, #140]                  @ 4-byte Reload
	and	r11, r3, r2
	eor	r0, r0, r11
	eor	r2, r0, r8
	ldr	r0, [sp, #136]                  @ 4-byte Reload
	movw	r8, #61680
	and	r0, lr, r0
	movt	r8, #61680
	eor	r3, r2, r0
	ldr	r0, [sp, #196]                  @ 4-byte Reload
	str	r3, [sp, #140]                  @ 4-byte Spill
	and	r0, r10, r0
	eor	r0, r0, r4, lsl #8
	movw	r4, #771
	eor	r0, r0, r5
	ldr	r5, [r6, #8]
	eor	r0, r0, r3
	movt	r4, #771
	ldr	r3, [r6, #12]
	and	r0, r4, r0, ror #14
	str	r3, [sp, #184]                  @ 4-byte Spill
	ldr	r3, [r6, #16]
	eor	r0, r0, r5
	str	r3, [sp, #180]                  @ 4-byte Spill
	movw	r3, #64764
	movt	r3, #64764
	and	r5, r3, r0, lsl #2
	eor	r0, r5, r0
	and	r5, r8, r0, lsl #4
	eor	r0, r5, r0
	str	r0, [sp, #196]                  @ 4-byte Spill
	str	r0, [r6, #72]
	ldr	r0, [sp, #156]                  @ 4-byte Reload
	ldr	r5, [sp, #132]                  @ 4-byte Reload
	and	r0, lr, r0
	mov	lr, #64
	eor	r0, r1, r0
	ldr	r1, [sp, #112]                  @ 4-byte Reload
	eor	r10, r0, r1
	ldr	r0, [sp, #152]                  @ 4-byte Reload
	ldr	r1, [sp, #108]                  @ 4-byte Reload
	and	r0, r12, r0
	mov	r12, #64
	eor	r0, r10, r0
	eor	r0, r0, r1
	and	r1, r12, r7, lsl #5
	orr	r1, r1, r1, lsl #1
	eor	r1, r0, r1, lsl #8
	eor	r1, r1, r2
	mov	r2, r3
	bic	r1, r4, r1, ror #14
	eor	r1, r1, r9
	mov	r9, r8
	and	r3, r3, r1, lsl #2
	eor	r1, r3, r1
	and	r3, r8, r1, lsl #4
	eor	r3, r3, r1
	and	r1, r12, r7, lsl #6
	mov	r12, r2
	str	r3, [r6, #68]
	orr	r1, r1, r1, lsl #1
	eor	r0, r0, r1, lsl #8
	ldr	r1, [sp, #116]                  @ 4-byte Reload
	eor	r0, r0, r11
	bic	r0, r4, r0, ror #14
	eor	r0, r0, r1
	and	r1, r2, r0, lsl #2
	ldr	r2, [sp, #128]                  @ 4-byte Reload
	eor	r0, r1, r0
	and	r1, r8, r0, lsl #4
	eor	r0, r1, r0
	ldr	r1, [sp, #172]                  @ 4-byte Reload
	str	r0, [sp, #200]                  @ 4-byte Spill
	and	r1, r2, r1
	ldr	r2, [sp, #176]                  @ 4-byte Reload
	str	r0, [r6, #64]
	and	r0, r7, #64
	eor	r1, r1, r2
	ldr	r2, [sp, #144]                  @ 4-byte Reload
	orr	r0, r0, r0, lsl #1
	eor	r1, r1, r2
	ldr	r2, [sp, #124]                  @ 4-byte Reload
	eor	r0, r5, r0, lsl #8
	eor	r11, r1, r2
	ldr	r1, [r6, #24]
	eor	r0, r0, r11
	ldr	r2, [sp, #120]                  @ 4-byte Reload
	bic	r0, r4, r0, ror #14
	eor	r0, r0, r1
	and	r1, r12, r0, lsl #2
	eor	r0, r1, r0
	and	r1, r8, r0, lsl #4
	eor	r0, r1, r0
	ldr	r1, [sp, #168]                  @ 4-byte Reload
	str	r0, [r6, #88]
	and	r1, r2, r1
	and	r2, lr, r7, lsl #1
	orr	r2, r2, r2, lsl #1
	eor	r1, r1, r2, lsl #8
	ldr	r2, [sp, #148]                  @ 4-byte Reload
	eor	r1, r1, r5
	mov	r5, #64
	eor	r1, r1, r2
	ldr	r2, [sp, #140]                  @ 4-byte Reload
	eor	r1, r1, r2
	ldr	r2, [r6, #20]
	bic	r1, r4, r1, ror #14
	eor	r1, r1, r2
	and	r2, r12, r1, lsl #2
	eor	r1, r2, r1
	and	r2, r8, r1, lsl #4
	eor	r1, r2, r1
	and	r2, lr, r7, lsl #2
	mov	lr, r4
	and	r7, r5, r7, lsl #3
	orr	r2, r2, r2, lsl #1
	str	r1, [r6, #84]
	orr	r7, r7, r7, lsl #1
	eor	r2, r11, r2, lsl #8
	eor	r7, r10, r7, lsl #8
	and	r2, r4, r2, ror #14
	ldr	r4, [sp, #180]                  @ 4-byte Reload
	eor	r7, r7, r11
	eor	r2, r2, r4
	and	r7, lr, r7, ror #14
	and	r4, r12, r2, lsl #2
	eor	r2, r4, r2
	and	r4, r8, r2, lsl #4
	eor	r8, r4, r2
	ldr	r2, [sp, #184]                  @ 4-byte Reload
	eor	r4, r0, r1
	ldr	r1, [sp, #200]                  @ 4-byte Reload
	eor	r7, r7, r2
	str	r8, [r6, #80]
	eor	r11, r4, r1
	str	r8, [sp, #140]                  @ 4-byte Spill
	and	r5, r12, r7, lsl #2
	eor	r1, r11, r3
	eor	r7, r5, r7
	str	r1, [sp, #184]                  @ 4-byte Spill
	str	r11, [sp, #120]                 @ 4-byte Spill
	and	r5, r9, r7, lsl #4
	and	r9, r1, r11
	ldr	r1, [sp, #160]                  @ 4-byte Reload
	eor	r12, r5, r7
	str	r12, [r6, #76]
	eor	r2, r3, r1
	ldr	r3, [sp, #196]                  @ 4-byte Reload
	str	r2, [sp, #168]                  @ 4-byte Spill
	eor	lr, r8, r3
	str	lr, [sp, #172]                  @ 4-byte Spill
	eor	r5, r2, lr
	str	r5, [sp, #180]                  @ 4-byte Spill
	eor	r7, r5, r12
	eor	r5, r7, r0
	eor	r0, r8, r1
	eor	r12, r5, r0
	str	r5, [sp, #124]                  @ 4-byte Spill
	eor	r8, r12, r4
	str	r0, [sp, #148]                  @ 4-byte Spill
	eor	r10, r8, r9
	and	r9, r8, r2
	eor	r5, r10, r9
	str	r8, [sp, #132]                  @ 4-byte Spill
	eor	r10, r5, r2
	eor	r2, r7, r3
	str	r2, [sp, #176]                  @ 4-byte Spill
	eor	r2, r2, r4
	eor	r4, r12, r2
	mov	r3, r12
	and	r7, r4, lr
	ldr	lr, [sp, #200]                  @ 4-byte Reload
	str	r4, [sp, #136]                  @ 4-byte Spill
	and	r4, r3, r0
	mov	r12, r2
	mov	r0, r3
	str	r3, [sp, #144]                  @ 4-byte Spill
	eor	r3, r11, r1
	eor	r2, r0, lr
	str	r3, [sp, #152]                  @ 4-byte Spill
	and	r3, r2, r3
	str	r2, [sp, #156]                  @ 4-byte Spill
	eor	r3, r8, r3
	ldr	r2, [sp, #196]                  @ 4-byte Reload
	eor	r0, r3, r9
	eor	r5, r7, r4
	eor	r0, r0, r1
	eor	r1, r1, r2
	and	r3, r12, r1
	eor	r10, r10, r5
	eor	r8, r3, r4
	ldr	r3, [sp, #176]                  @ 4-byte Reload
	eor	r0, r0, r8
	ldr	r9, [sp, #120]                  @ 4-byte Reload
	eor	r2, r0, r10
	str	r2, [sp, #112]                  @ 4-byte Spill
	ldr	r2, [sp, #180]                  @ 4-byte Reload
	str	r12, [sp, #128]                 @ 4-byte Spill
	and	r4, r3, r2
	ldr	r2, [sp, #184]                  @ 4-byte Reload
	eor	r3, r3, lr
	str	r3, [sp, #196]                  @ 4-byte Spill
	eor	r7, r2, r1
	ldr	r2, [sp, #124]                  @ 4-byte Reload
	and	r11, r3, r7
	ldr	r3, [sp, #140]                  @ 4-byte Reload
	eor	r2, r2, r11
	str	r1, [sp, #160]                  @ 4-byte Spill
	eor	r2, r2, r4
	eor	r3, r9, r3
	eor	r11, r2, r5
	and	r5, r3, lr
	eor	r5, r5, r1
	and	r2, r10, r11
	eor	r5, r5, r12
	ldr	r1, [sp, #112]                  @ 4-byte Reload
	eor	r5, r5, r4
	str	r3, [sp, #140]                  @ 4-byte Spill
	eor	r12, r5, r8
	str	r7, [sp, #116]                  @ 4-byte Spill
	eor	r3, r2, r12
	eor	r11, r11, r12
	and	r3, r3, r1
	ldr	r4, [sp, #132]                  @ 4-byte Reload
	eor	r8, r3, r0
	eor	r3, r3, r2
	and	lr, r3, r0
	eor	r0, r2, r0
	and	r2, r0, r11
	eor	r0, lr, r0
	eor	r7, r2, r12
	eor	r5, lr, r10
	and	r0, r0, r7
	eor	r3, r5, r8
	eor	r12, r0, r11
	eor	r0, r7, r8
	eor	r1, r12, r3
	str	r1, [sp, #104]                  @ 4-byte Spill
	eor	r11, r1, r0
	ldr	r1, [sp, #136]                  @ 4-byte Reload
	and	lr, r12, r9
	ldr	r9, [r6, #48]
	and	r2, r11, r1
	eor	r1, r12, r7
	str	r1, [sp, #108]                  @ 4-byte Spill
	and	r1, r1, r4
	eor	lr, r1, lr
	str	r1, [sp, #124]                  @ 4-byte Spill
	ldr	r1, [sp, #144]                  @ 4-byte Reload
	eor	r2, lr, r2
	str	r2, [sp, #100]                  @ 4-byte Spill
	and	r1, r0, r1
	ldr	r4, [sp, #148]                  @ 4-byte Reload
	eor	r2, r2, r1
	ldr	r1, [sp, #172]                  @ 4-byte Reload
	and	r0, r0, r4
	str	r0, [sp, #144]                  @ 4-byte Spill
	and	r1, r11, r1
	str	r2, [sp, #136]                  @ 4-byte Spill
	eor	r1, r1, r0
	ldr	r0, [sp, #116]                  @ 4-byte Reload
	str	r1, [sp, #120]                  @ 4-byte Spill
	and	r0, r3, r0
	ldr	r11, [r6, #60]
	eor	r4, r1, r0
	ldr	r0, [sp, #180]                  @ 4-byte Reload
	str	r4, [sp, #96]                   @ 4-byte Spill
	and	r1, r5, r0
	movw	r0, #771
	eor	r1, r4, r1
	movt	r0, #771
	eor	r2, r1, r2
	movw	r4, #61680
	movt	r4, #61680
	ldr	r10, [sp, #140]                 @ 4-byte Reload
	and	r2, r0, r2, lsr #6
	ldr	r0, [r6, #36]
	str	r0, [sp, #116]                  @ 4-byte Spill
	eor	r2, r2, r11
	ldr	r0, [r6, #40]
	movw	r11, #64764
	str	r0, [sp, #92]                   @ 4-byte Spill
	movt	r11, #64764
	ldr	r0, [r6, #44]
	str	r0, [sp, #148]                  @ 4-byte Spill
	ldr	r0, [r6, #52]
	str	r0, [sp, #132]                  @ 4-byte Spill
	ldr	r0, [r6, #56]
	str	r0, [sp, #180]                  @ 4-byte Spill
	and	r0, r11, r2, lsl #2
	eor	r0, r0, r2
	and	r2, r4, r0, lsl #4
	eor	r0, r2, r0
	ldr	r2, [r6, #32]
	str	r2, [sp, #112]                  @ 4-byte Spill
	ldr	r2, [sp, #176]                  @ 4-byte Reload
	str	r0, [sp, #172]                  @ 4-byte Spill
	str	r0, [r6, #124]
	and	r2, r5, r2
	ldr	r0, [sp, #196]                  @ 4-byte Reload
	ldr	r5, [sp, #96]                   @ 4-byte Reload
	and	r0, r3, r0
	eor	r0, r0, r2
	eor	r0, r0, lr
	movw	lr, #771
	eor	r0, r0, r1
	str	r0, [sp, #176]                  @ 4-byte Spill
	movt	lr, #771
	and	r0, lr, r0, lsr #6
	eor	r0, r0, r9
	mov	r9, r11
	and	r1, r11, r0, lsl #2
	ldr	r11, [sp, #104]                 @ 4-byte Reload
	eor	r0, r1, r0
	and	r1, r4, r0, lsl #4
	and	r4, r8, r10
	eor	r0, r1, r0
	ldr	r1, [sp, #200]                  @ 4-byte Reload
	str	r0, [sp, #196]                  @ 4-byte Spill
	eor	r4, r5, r4
	and	r1, r8, r1
	str	r0, [r6, #112]
	ldr	r0, [sp, #128]                  @ 4-byte Reload
	eor	r3, r2, r1
	ldr	r1, [sp, #168]                  @ 4-byte Reload
	movw	r8, #61680
	ldr	r2, [sp, #108]                  @ 4-byte Reload
	and	r0, r11, r0
	eor	r0, r0, r3
	ldr	r5, [sp, #92]                   @ 4-byte Reload
	and	r1, r2, r1
	ldr	r2, [sp, #100]                  @ 4-byte Reload
	eor	r0, r0, r1
	movt	r8, #61680
	eor	r0, r0, r2
	ldr	r2, [sp, #152]                  @ 4-byte Reload
	and	r2, r7, r2
	eor	r2, r0, r2
	eor	r4, r4, r2
	and	r4, lr, r4, lsr #6
	eor	r4, r4, r5
	and	r5, r9, r4, lsl #2
	eor	r4, r5, r4
	and	r5, r8, r4, lsl #4
	eor	r4, r5, r4
	str	r4, [sp, #168]                  @ 4-byte Spill
	str	r4, [r6, #104]
	ldr	r4, [sp, #156]                  @ 4-byte Reload
	ldr	r5, [sp, #120]                  @ 4-byte Reload
	and	r4, r7, r4
	eor	r3, r3, r4
	ldr	r4, [sp, #124]                  @ 4-byte Reload
	eor	r7, r3, r4
	ldr	r3, [sp, #184]                  @ 4-byte Reload
	and	r3, r12, r3
	eor	r3, r7, r3
	eor	r3, r3, r5
	ldr	r5, [sp, #116]                  @ 4-byte Reload
	eor	r0, r3, r0
	mvn	r0, r0
	and	r0, lr, r0, lsr #6
	eor	r0, r0, r5
	and	r5, r9, r0, lsl #2
	eor	r0, r5, r0
	and	r5, r8, r0, lsl #4
	eor	r12, r5, r0
	eor	r0, r3, r1
	ldr	r1, [sp, #112]                  @ 4-byte Reload
	mov	r5, r8
	mvn	r0, r0
	ldr	r3, [sp, #136]                  @ 4-byte Reload
	and	r0, lr, r0, lsr #6
	str	r12, [r6, #100]
	eor	r0, r0, r1
	and	r1, r9, r0, lsl #2
	eor	r0, r1, r0
	and	r1, r8, r0, lsl #4
	eor	r0, r1, r0
	str	r0, [sp, #200]                  @ 4-byte Spill
	str	r0, [r6, #96]
	ldr	r0, [sp, #160]                  @ 4-byte Reload
	ldr	r1, [sp, #144]                  @ 4-byte Reload
	and	r0, r11, r0
	eor	r0, r1, r0
	ldr	r1, [sp, #132]                  @ 4-byte Reload
	eor	r0, r0, r3
	eor	r0, r0, r2
	ldr	r2, [sp, #176]                  @ 4-byte Reload
	mvn	r0, r0
	and	r0, lr, r0, lsr #6
	eor	r0, r0, r1
	and	r1, r9, r0, lsl #2
	eor	r0, r1, r0
	and	r1, r8, r0, lsl #4
	eor	r8, r1, r0
	eor	r0, r2, r7
	ldr	r1, [sp, #148]                  @ 4-byte Reload
	and	r0, lr, r0, lsr #6
	ldr	r7, [sp, #192]                  @ 4-byte Reload
	eor	r0, r0, r1
	str	r8, [r6, #116]
	and	r1, r9, r0, lsl #2
	eor	r0, r1, r0
	and	r1, r5, r0, lsl #4
	eor	r11, r1, r0
	eor	r0, r3, r2
	ldr	r1, [sp, #180]                  @ 4-byte Reload
	mvn	r0, r0
	str	r11, [r6, #108]
	and	r0, lr, r0, lsr #6
	eor	r0, r0, r1
	and	r1, r9, r0, lsl #2
	eor	r0, r1, r0
	and	r1, r5, r0, lsl #4
	eor	r9, r1, r0
	str	r9, [r6, #120]
	ldr	r6, [sp, #164]                  @ 4-byte Reload
	adds	r0, r7, #1
	adc	r1, r6, #0
	subs	r7, r7, #5
	sbcs	r7, r6, #0
	blo	.Laes_BB0_9
@ %bb.10:                               @ %after.1.i.i
	ldr	r4, [sp, #172]                  @ 4-byte Reload
	eor	r1, r9, r8
	ldr	r10, [sp, #196]                 @ 4-byte Reload
	ldr	r7, [sp, #168]                  @ 4-byte Reload
	eor	lr, r4, r12
	eor	r5, r4, r10
	ldr	r8, [sp, #200]                  @ 4-byte Reload
	eor	r2, r10, r7
	str	r2, [sp, #152]                  @ 4-byte Spill
	eor	r0, lr, r2
	str	r0, [sp, #192]                  @ 4-byte Spill
	eor	r0, r0, r11
	str	r5, [sp, #148]                  @ 4-byte Spill
	eor	r3, r0, r7
	eor	r0, r0, r9
	eor	r11, r3, r1
	str	r3, [sp, #184]                  @ 4-byte Spill
	eor	r3, r0, r5
	str	r0, [sp, #136]                  @ 4-byte Spill
	eor	r0, r3, r11
	and	r6, r3, r5
	and	r2, r0, r2
	str	r0, [sp, #156]                  @ 4-byte Spill
	eor	r0, r2, r6
	eor	r2, r1, r8
	eor	r9, r3, r1
	eor	r1, r4, r7
	eor	r12, r2, r12
	and	r7, r11, r1
	and	r5, r12, r2
	str	r11, [sp, #120]                 @ 4-byte Spill
	eor	r11, r7, r6
	str	r3, [sp, #164]                  @ 4-byte Spill
	eor	r3, r3, r8
	eor	r6, r2, r4
	str	r0, [sp, #128]                  @ 4-byte Spill
	eor	r5, r9, r5
	and	r0, r9, lr
	str	r6, [sp, #176]                  @ 4-byte Spill
	and	r6, r3, r6
	eor	r5, r5, r0
	eor	r6, r9, r6
	str	r3, [sp, #140]                  @ 4-byte Spill
	eor	r3, r6, r0
	str	lr, [sp, #144]                  @ 4-byte Spill
	eor	r5, r5, lr
	ldr	lr, [sp, #128]                  @ 4-byte Reload
	eor	r3, r3, r4
	ldr	r4, [sp, #192]                  @ 4-byte Reload
	ldr	r7, [sp, #184]                  @ 4-byte Reload
	eor	r5, r5, lr
	eor	r3, r3, r11
	str	r1, [sp, #168]                  @ 4-byte Spill
	eor	r0, r3, r5
	str	r0, [sp, #172]                  @ 4-byte Spill
	and	r6, r7, r4
	eor	r4, r12, r1
	mov	r0, r1
	eor	r1, r7, r8
	mov	r7, r10
	str	r1, [sp, #180]                  @ 4-byte Spill
	and	r10, r1, r4
	ldr	r1, [sp, #136]                  @ 4-byte Reload
	str	r4, [sp, #160]                  @ 4-byte Spill
	eor	r4, r1, r10
	eor	r1, r2, r7
	and	r7, r1, r8
	str	r12, [sp, #132]                 @ 4-byte Spill
	ldr	r12, [sp, #120]                 @ 4-byte Reload
	eor	r7, r7, r0
	eor	r4, r4, r6
	ldr	r0, [sp, #172]                  @ 4-byte Reload
	eor	r7, r7, r12
	eor	lr, r4, lr
	eor	r6, r7, r6
	and	r4, r5, lr
	eor	r6, r6, r11
	str	r1, [sp, #196]                  @ 4-byte Spill
	eor	r7, r4, r6
	and	r7, r7, r0
	eor	r10, r7, r3
	eor	r7, r7, r4
	and	r7, r7, r3
	eor	r3, r4, r3
	eor	r11, r7, r5
	eor	r5, lr, r6
	and	r0, r3, r5
	eor	r3, r7, r3
	eor	r8, r0, r6
	eor	r1, r11, r10
	and	r3, r3, r8
	ldr	r7, [sp, #156]                  @ 4-byte Reload
	eor	r6, r3, r5
	eor	r3, r8, r10
	eor	r4, r6, r1
	str	r1, [sp, #128]                  @ 4-byte Spill
	eor	r1, r4, r3
	mov	r0, r10
	str	r10, [sp, #172]                 @ 4-byte Spill
	and	r10, r1, r7
	eor	r7, r6, r8
	and	r2, r6, r2
	and	r9, r7, r9
	and	lr, r4, r12
	eor	r2, r9, r2
	str	r2, [sp, #156]                  @ 4-byte Spill
	eor	r5, r2, r10
	ldr	r2, [sp, #200]                  @ 4-byte Reload
	str	r11, [sp, #124]                 @ 4-byte Spill
	and	r10, r0, r2
	ldr	r0, [sp, #184]                  @ 4-byte Reload
	str	r4, [sp, #136]                  @ 4-byte Spill
	and	r0, r11, r0
	str	r0, [sp, #184]                  @ 4-byte Spill
	eor	r10, r0, r10
	ldr	r0, [sp, #144]                  @ 4-byte Reload
	eor	lr, lr, r10
	ldr	r12, [sp, #188]                 @ 4-byte Reload
	and	r2, r7, r0
	ldr	r0, [sp, #152]                  @ 4-byte Reload
	eor	r7, lr, r2
	eor	r11, r7, r5
	and	r7, r1, r0
	ldr	r0, [sp, #148]                  @ 4-byte Reload
	ldr	lr, [r12, #384]
	and	r0, r3, r0
	str	r0, [sp, #144]                  @ 4-byte Spill
	eor	r7, r7, r0
	ldr	r0, [sp, #140]                  @ 4-byte Reload
	and	r4, r8, r0
	ldr	r0, [sp, #132]                  @ 4-byte Reload
	eor	r4, r10, r4
	movw	r10, #771
	eor	r4, r4, r9
	and	r1, r6, r0
	eor	r1, r4, r1
	ldr	r0, [r12, #388]
	eor	r1, r1, r7
	movt	r10, #771
	eor	r6, r1, r11
	movw	r9, #64764
	str	r4, [sp, #148]                  @ 4-byte Spill
	movt	r9, #64764
	bic	r6, r10, r6, ror #14
	ldr	r4, [r12, #392]
	eor	r0, r0, r6
	str	r4, [sp, #152]                  @ 4-byte Spill
	ldr	r4, [r12, #396]
	and	r6, r9, r0, lsl #2
	str	r4, [sp, #200]                  @ 4-byte Spill
	eor	r0, r6, r0
	movw	r4, #61680
	movt	r4, #61680
	and	r6, r4, r0, lsl #4
	eor	r0, r6, r0
	str	r0, [r12, #452]
	eor	r0, r1, r2
	ldr	r2, [sp, #124]                  @ 4-byte Reload
	bic	r0, r10, r0, ror #14
	eor	r0, lr, r0
	and	r1, r9, r0, lsl #2
	eor	r0, r1, r0
	and	r1, r4, r0, lsl #4
	eor	r0, r1, r0
	str	r0, [r12, #448]
	ldr	r0, [sp, #164]                  @ 4-byte Reload
	and	r0, r3, r0
	ldr	r3, [r12, #412]
	eor	r6, r5, r0
	ldr	r5, [sp, #128]                  @ 4-byte Reload
	ldr	r0, [sp, #160]                  @ 4-byte Reload
	and	r0, r5, r0
	eor	r1, r7, r0
	ldr	r0, [sp, #192]                  @ 4-byte Reload
	ldr	r7, [sp, #136]                  @ 4-byte Reload
	and	r0, r2, r0
	eor	r0, r1, r0
	eor	r2, r0, r6
	and	r2, r10, r2, ror #14
	eor	r2, r3, r2
	and	r3, r9, r2, lsl #2
	eor	r2, r3, r2
	and	r3, r4, r2, lsl #4
	eor	r2, r3, r2
	ldr	r3, [sp, #168]                  @ 4-byte Reload
	str	r2, [r12, #476]
	ldr	r2, [sp, #176]                  @ 4-byte Reload
	and	r3, r7, r3
	ldr	r7, [sp, #144]                  @ 4-byte Reload
	and	r2, r8, r2
	eor	r3, r7, r3
	eor	r2, r11, r2
	eor	r3, r3, r6
	ldr	r7, [r12, #404]
	eor	r3, r3, r2
	bic	r3, r10, r3, ror #14
	eor	r3, r7, r3
	and	r7, r9, r3, lsl #2
	eor	r3, r7, r3
	and	r7, r4, r3, lsl #4
	eor	r3, r7, r3
	str	r3, [r12, #468]
	ldr	r3, [sp, #180]                  @ 4-byte Reload
	ldr	r7, [sp, #184]                  @ 4-byte Reload
	and	r3, r5, r3
	eor	r3, r3, r7
	ldr	r7, [sp, #156]                  @ 4-byte Reload
	eor	r3, r3, r7
	ldr	r7, [r12, #400]
	eor	r0, r3, r0
	and	r3, r10, r0, ror #14
	eor	r3, r7, r3
	and	r7, r9, r3, lsl #2
	eor	r3, r7, r3
	and	r7, r4, r3, lsl #4
	eor	r3, r7, r3
	str	r3, [r12, #464]
	ldr	r3, [sp, #196]                  @ 4-byte Reload
	ldr	r7, [sp, #172]                  @ 4-byte Reload
	and	r3, r7, r3
	eor	r1, r1, r3
	eor	r1, r1, r2
	ldr	r2, [sp, #152]                  @ 4-byte Reload
	and	r1, r10, r1, ror #14
	eor	r1, r2, r1
	and	r2, r9, r1, lsl #2
	eor	r1, r2, r1
	and	r2, r4, r1, lsl #4
	eor	r1, r2, r1
	str	r1, [r12, #456]
	ldr	r1, [sp, #148]                  @ 4-byte Reload
	ldr	r2, [sp, #200]                  @ 4-byte Reload
	eor	r1, r0, r1
	eor	r0, r6, r0
	and	r1, r10, r1, ror #14
	eor	r1, r2, r1
	and	r2, r9, r1, lsl #2
	eor	r1, r2, r1
	and	r2, r4, r1, lsl #4
	eor	r1, r2, r1
	str	r1, [r12, #460]
	mvn	r1, #65280
	eor	r0, r0, r1
	ldr	r1, [r12, #408]
	and	r0, r10, r0, ror #14
	eor	r0, r1, r0
	and	r1, r9, r0, lsl #2
	eor	r0, r1, r0
	and	r1, r4, r0, lsl #4
	eor	r0, r1, r0
	str	r0, [r12, #472]
.Laes_BB0_11:                               @ %"aes_planes::expansion::expand::<#389ec886eeff95cb>.exit"
	ldr	r0, [sp, #4]                    @ 4-byte Reload
	mov	lr, #0
	ldr	r1, [sp, #8]                    @ 4-byte Reload
	mov	r7, #1
	ldr	r10, [sp, #188]                 @ 4-byte Reload
	lsr	r0, r0, #2
	orr	r0, r0, r1, lsl #30
	add	r2, r10, #60
	adds	r0, r0, #6
	lsr	r1, r1, #2
	str	r0, [sp, #184]                  @ 4-byte Spill
	adc	r0, r1, #0
	str	r0, [sp, #180]                  @ 4-byte Spill
	b	.Laes_BB0_14
.Laes_BB0_12:                               @ %then.4.i
                                        @   in Loop: Header=BB0_14 Depth=1
	movw	r1, #3840
	eor	r0, r6, r6, lsr #4
	movt	r1, #3840
	and	r0, r0, r1
	ldr	r4, [sp, #192]                  @ 4-byte Reload
	add	r0, r0, r0, lsl #4
	eor	r6, r0, r6
	eor	r0, r9, r9, lsr #4
	and	r0, r0, r1
	add	r0, r0, r0, lsl #4
	eor	r9, r0, r9
	eor	r0, r8, r8, lsr #4
	and	r0, r0, r1
	add	r0, r0, r0, lsl #4
	eor	r8, r0, r8
	eor	r0, r4, r4, lsr #4
	and	r0, r0, r1
	add	r0, r0, r0, lsl #4
	eor	r4, r0, r4
	str	r4, [sp, #192]                  @ 4-byte Spill
	ldr	r4, [sp, #196]                  @ 4-byte Reload
	eor	r0, r4, r4, lsr #4
	and	r0, r0, r1
	add	r0, r0, r0, lsl #4
	eor	r4, r0, r4
	str	r4, [sp, #196]                  @ 4-byte Spill
	ldr	r4, [sp, #200]                  @ 4-byte Reload
	eor	r0, r4, r4, lsr #4
	and	r0, r0, r1
	add	r0, r0, r0, lsl #4
	eor	r4, r0, r4
	eor	r0, r3, r3, lsr #4
	and	r0, r0, r1
	str	r4, [sp, #200]                  @ 4-byte Spill
	add	r0, r0, r0, lsl #4
	eor	r3, r0, r3
	eor	r0, r5, r5, lsr #4
	and	r0, r0, r1
	add	r0, r0, r0, lsl #4
	eor	r5, r0, r5
.Laes_BB0_13:                               @ %join.8.i
                                        @   in Loop: Header=BB0_14 Depth=1
	mvn	r4, r3
	mov	r3, r6
	mvn	r6, r5
	mvn	r0, r9
	str	r6, [r2, #-28]
	mvn	r1, r8
	ldr	r6, [sp, #200]                  @ 4-byte Reload
	adds	r7, r7, #1
	str	r6, [r2, #-20]
	adc	lr, lr, #0
	ldr	r6, [sp, #196]                  @ 4-byte Reload
	cmp	r12, #0
	str	r6, [r2, #-16]
	ldr	r6, [sp, #192]                  @ 4-byte Reload
	str	r4, [r2, #-24]
	str	r6, [r2, #-12]
	str	r1, [r2, #-8]
	stmda	r2, {r0, r3}
	add	r2, r2, #32
	beq	.Laes_BB0_20
.Laes_BB0_14:                               @ %join.5.i
                                        @ =>This Inner Loop Header: Depth=1
	ldr	r0, [sp, #184]                  @ 4-byte Reload
	mov	r6, r10
	ldr	r5, [r6, r7, lsl #5]!
	mov	r12, #0
	subs	r0, r7, r0
	ldr	r0, [sp, #180]                  @ 4-byte Reload
	ldr	r3, [r6, #4]
	sbcs	r0, lr, r0
	ldr	r8, [r6, #20]
	ldr	r0, [r6, #8]
	movwlo	r12, #1
	str	r0, [sp, #200]                  @ 4-byte Spill
	ldr	r0, [r6, #12]
	str	r0, [sp, #196]                  @ 4-byte Spill
	ldr	r0, [r6, #16]
	ldr	r9, [r6, #24]
	ldr	r6, [r6, #28]
	str	r0, [sp, #192]                  @ 4-byte Spill
	bhs	.Laes_BB0_13
@ %bb.15:                               @ %ok.10.i
                                        @   in Loop: Header=BB0_14 Depth=1
	mov	r1, r10
	and	r10, r7, #3
	adr	r11, .Laes_JTI0_0
	ldr	r0, [r11, r10, lsl #2]
	mov	r10, r1
	add	pc, r11, r0
@ %bb.16:
	.p2align	2
.Laes_JTI0_0:
	.long	.Laes_BB0_13-.Laes_JTI0_0
	.long	.Laes_BB0_17-.Laes_JTI0_0
	.long	.Laes_BB0_12-.Laes_JTI0_0
	.long	.Laes_BB0_18-.Laes_JTI0_0
.Laes_BB0_17:                               @ %then.1.i
                                        @   in Loop: Header=BB0_14 Depth=1
	movw	r4, #3072
	eor	r0, r6, r6, lsr #4
	movt	r4, #783
	and	r0, r0, r4
	movw	r11, #13056
	add	r0, r0, r0, lsl #4
	movt	r11, #13056
	eor	r0, r0, r6
	eor	r6, r0, r0, lsr #2
	and	r6, r6, r11
	add	r6, r6, r6, lsl #2
	eor	r6, r6, r0
	eor	r0, r9, r9, lsr #4
	and	r0, r0, r4
	add	r0, r0, r0, lsl #4
	eor	r0, r0, r9
	eor	r1, r0, r0, lsr #2
	and	r1, r1, r11
	add	r1, r1, r1, lsl #2
	eor	r9, r1, r0
	eor	r0, r8, r8, lsr #4
	and	r0, r0, r4
	add	r0, r0, r0, lsl #4
	eor	r0, r0, r8
	eor	r1, r0, r0, lsr #2
	and	r1, r1, r11
	add	r1, r1, r1, lsl #2
	eor	r8, r1, r0
	ldr	r1, [sp, #192]                  @ 4-byte Reload
	eor	r0, r1, r1, lsr #4
	and	r0, r0, r4
	add	r0, r0, r0, lsl #4
	eor	r0, r0, r1
	eor	r1, r0, r0, lsr #2
	and	r1, r1, r11
	add	r1, r1, r1, lsl #2
	eor	r0, r1, r0
	ldr	r1, [sp, #196]                  @ 4-byte Reload
	str	r0, [sp, #192]                  @ 4-byte Spill
	eor	r0, r1, r1, lsr #4
	and	r0, r0, r4
	add	r0, r0, r0, lsl #4
	eor	r0, r0, r1
	eor	r1, r0, r0, lsr #2
	and	r1, r1, r11
	add	r1, r1, r1, lsl #2
	eor	r0, r1, r0
	ldr	r1, [sp, #200]                  @ 4-byte Reload
	str	r0, [sp, #196]                  @ 4-byte Spill
	eor	r0, r1, r1, lsr #4
	and	r0, r0, r4
	add	r0, r0, r0, lsl #4
	eor	r0, r0, r1
	eor	r1, r0, r0, lsr #2
	and	r1, r1, r11
	add	r1, r1, r1, lsl #2
	eor	r0, r1, r0
	str	r0, [sp, #200]                  @ 4-byte Spill
	eor	r0, r3, r3, lsr #4
	and	r0, r0, r4
	add	r0, r0, r0, lsl #4
	eor	r0, r0, r3
	eor	r1, r0, r0, lsr #2
	and	r1, r1, r11
	add	r1, r1, r1, lsl #2
	eor	r3, r1, r0
	eor	r0, r5, r5, lsr #4
	and	r0, r0, r4
	add	r0, r0, r0, lsl #4
	eor	r0, r0, r5
	eor	r1, r0, r0, lsr #2
	and	r1, r1, r11
	b	.Laes_BB0_19
.Laes_BB0_18:                               @ %then.7.i
                                        @   in Loop: Header=BB0_14 Depth=1
	movw	r4, #768
	eor	r0, r6, r6, lsr #4
	movt	r4, #3087
	and	r0, r0, r4
	add	r0, r0, r0, lsl #4
	eor	r0, r0, r6
	movw	r6, #13056
	movt	r6, #13056
	eor	r1, r0, r0, lsr #2
	and	r1, r1, r6
	add	r1, r1, r1, lsl #2
	eor	r11, r1, r0
	eor	r0, r9, r9, lsr #4
	and	r0, r0, r4
	add	r0, r0, r0, lsl #4
	eor	r0, r0, r9
	eor	r1, r0, r0, lsr #2
	and	r1, r1, r6
	add	r1, r1, r1, lsl #2
	eor	r9, r1, r0
	eor	r0, r8, r8, lsr #4
	and	r0, r0, r4
	add	r0, r0, r0, lsl #4
	eor	r0, r0, r8
	eor	r1, r0, r0, lsr #2
	and	r1, r1, r6
	add	r1, r1, r1, lsl #2
	eor	r8, r1, r0
	ldr	r1, [sp, #192]                  @ 4-byte Reload
	eor	r0, r1, r1, lsr #4
	and	r0, r0, r4
	add	r0, r0, r0, lsl #4
	eor	r0, r0, r1
	eor	r1, r0, r0, lsr #2
	and	r1, r1, r6
	add	r1, r1, r1, lsl #2
	eor	r0, r1, r0
	ldr	r1, [sp, #196]                  @ 4-byte Reload
	str	r0, [sp, #192]                  @ 4-byte Spill
	eor	r0, r1, r1, lsr #4
	and	r0, r0, r4
	add	r0, r0, r0, lsl #4
	eor	r0, r0, r1
	eor	r1, r0, r0, lsr #2
	and	r1, r1, r6
	add	r1, r1, r1, lsl #2
	eor	r0, r1, r0
	ldr	r1, [sp, #200]                  @ 4-byte Reload
	str	r0, [sp, #196]                  @ 4-byte Spill
	eor	r0, r1, r1, lsr #4
	and	r0, r0, r4
	add	r0, r0, r0, lsl #4
	eor	r0, r0, r1
	eor	r1, r0, r0, lsr #2
	and	r1, r1, r6
	add	r1, r1, r1, lsl #2
	eor	r0, r1, r0
	str	r0, [sp, #200]                  @ 4-byte Spill
	eor	r0, r3, r3, lsr #4
	and	r0, r0, r4
	add	r0, r0, r0, lsl #4
	eor	r0, r0, r3
	eor	r1, r0, r0, lsr #2
	and	r1, r1, r6
	add	r1, r1, r1, lsl #2
	eor	r3, r1, r0
	eor	r0, r5, r5, lsr #4
	and	r0, r0, r4
	add	r0, r0, r0, lsl #4
	eor	r0, r0, r5
	eor	r1, r0, r0, lsr #2
	and	r1, r1, r6
	mov	r6, r11
.Laes_BB0_19:                               @ %join.8.i
                                        @   in Loop: Header=BB0_14 Depth=1
	add	r1, r1, r1, lsl #2
	eor	r5, r1, r0
	b	.Laes_BB0_13
.Laes_BB0_20:                               @ %"aes_soft::soft::key_layout::store::<#dfb00681c6d298fe>.exit"
	add	sp, sp, #236
	pop	{r4, r5, r6, r7, r8, r9, r10, r11, pc}
	.p2align	2
@ %bb.21:
.Laes_CPI0_2:
	.long	.Laes_static.0-(.Laes_PC0_2+8)
.Laes_func_end0:
	.size	aes.aes_narrow.word_room.expand_words, .Laes_func_end0-aes.aes_narrow.word_room.expand_words
	.cantunwind
	.fnend
                                        @ -- End function
	.section	.text.aes.aes_planes.soft.word.word32.U32Word.in_every_slot,"ax",%progbits
	.p2align	2                               @ -- Begin function aes_planes::soft::word::word32::U32Word::in_every_slot
	.type	aes.aes_planes.soft.word.word32.U32Word.in_every_slot,%function
	.code	32
aes.aes_planes.soft.word.word32.U32Word.in_every_slot: @ @aes.aes_planes.soft.word.word32.U32Word.in_every_slot
	.fnstart
@ %bb.0:                                @ %start
	.save	{r4, r5, r6, r7, r8, r9, r10, r11, lr}
	push	{r4, r5, r6, r7, r8, r9, r10, r11, lr}
	.pad	#16
	sub	sp, sp, #16
	ldr	r4, [r1]
	movw	r10, #21845
	ldr	r5, [r1, #4]
	movt	r10, #21845
	mov	r3, r0
	ldr	r12, [r1, #8]
	eor	r2, r4, r4, lsr #1
	ldr	r8, [r1, #12]
	and	r11, r2, r10
	eor	r2, r5, r5, lsr #1
	eor	r0, r11, r4
	and	r2, r2, r10
	eor	r7, r2, r5
	str	r0, [sp, #12]                   @ 4-byte Spill
	eor	r6, r7, r0, lsr #2
	movw	r0, #13107
	movt	r0, #13107
	eor	r2, r5, r2, lsl #1
	and	r0, r6, r0
	eor	r6, r12, r12, lsr #1
	eor	r1, r0, r7
	and	r7, r6, r10
	eor	r6, r8, r8, lsr #1
	str	r0, [sp, #4]                    @ 4-byte Spill
	eor	r0, r7, r12
	and	r6, r6, r10
	eor	r10, r6, r8
	str	r0, [sp]                        @ 4-byte Spill
	eor	lr, r10, r0, lsr #2
	movw	r0, #13107
	movt	r0, #13107
	and	r9, lr, r0
	eor	r0, r9, r10
	str	r1, [sp, #8]                    @ 4-byte Spill
	eor	r10, r0, r1, lsr #4
	movw	r1, #3855
	eor	lr, r4, r11, lsl #1
	movt	r1, #3855
	and	r10, r10, r1
	eor	r7, r12, r7, lsl #1
	eor	r0, r10, r0
	eor	r1, r8, r6, lsl #1
	str	r0, [r3, #28]
	movw	r0, #13107
	eor	r4, r2, lr, lsr #2
	movt	r0, #13107
	eor	r6, r1, r7, lsr #2
	and	r4, r4, r0
	and	r6, r6, r0
	eor	r11, r4, r2
	eor	r1, r6, r1
	movw	r12, #3855
	eor	r5, r1, r11, lsr #4
	movt	r12, #3855
	and	r5, r5, r12
	ldr	r0, [sp, #12]                   @ 4-byte Reload
	eor	r1, r5, r1
	str	r1, [r3, #24]
	ldr	r1, [sp, #4]                    @ 4-byte Reload
	eor	r7, r7, r6, lsl #2
	eor	r1, r0, r1, lsl #2
	ldr	r0, [sp]                        @ 4-byte Reload
	eor	r2, r0, r9, lsl #2
	eor	r0, r2, r1, lsr #4
	and	r0, r0, r12
	eor	r2, r0, r2
	str	r2, [r3, #20]
	eor	r2, lr, r4, lsl #2
	eor	r0, r1, r0, lsl #4
	str	r0, [r3, #4]
	eor	r6, r7, r2, lsr #4
	and	r6, r6, r12
	eor	r7, r6, r7
	str	r7, [r3, #16]
	ldr	r7, [sp, #8]                    @ 4-byte Reload
	eor	r0, r2, r6, lsl #4
	str	r0, [r3]
	eor	r7, r7, r10, lsl #4
	str	r7, [r3, #12]
	eor	r7, r11, r5, lsl #4
	str	r7, [r3, #8]
	add	sp, sp, #16
	pop	{r4, r5, r6, r7, r8, r9, r10, r11, pc}
.Laes_func_end1:
	.size	aes.aes_planes.soft.word.word32.U32Word.in_every_slot, .Laes_func_end1-aes.aes_planes.soft.word.word32.U32Word.in_every_slot
	.cantunwind
	.fnend
                                        @ -- End function
	.section	.text.aes.aes_cipher.zeroize.stack.wipe_stack.768,"ax",%progbits
	.p2align	2                               @ -- Begin function aes_cipher::zeroize::stack::wipe_stack::<=768>
	.type	aes.aes_cipher.zeroize.stack.wipe_stack.768,%function
	.code	32
aes.aes_cipher.zeroize.stack.wipe_stack.768: @ @aes.aes_cipher.zeroize.stack.wipe_stack.768
	.fnstart
@ %bb.0:                                @ %start
	.save	{r4, r5, r6, r7, r8, lr}
	push	{r4, r5, r6, r7, r8, lr}
	.pad	#776
	sub	sp, sp, #776
	add	r4, sp, #8
	mov	r1, #0
	mov	r2, #768
	mov	r7, #0
	mov	r0, r4
	bl	memset
	str	r7, [sp, #4]
	str	r7, [sp]
	@APP
	@NO_APP
	ldrd	r0, r1, [sp]
	@APP
	@NO_APP
	subs	r2, r0, #768
	sbcs	r2, r1, #0
	bhs	.Laes_BB2_2
@ %bb.1:                                @ %then.1
	ldrb	r6, [r4, r0]
	@APP
	@NO_APP
	ldrd	r0, r1, [sp]
	strd	r6, r7, [sp]
	@APP
	@NO_APP
	add	sp, sp, #776
	pop	{r4, r5, r6, r7, r8, pc}
.Laes_BB2_2:                                @ %common.ret
	add	sp, sp, #776
	pop	{r4, r5, r6, r7, r8, pc}
.Laes_func_end2:
	.size	aes.aes_cipher.zeroize.stack.wipe_stack.768, .Laes_func_end2-aes.aes_cipher.zeroize.stack.wipe_stack.768
	.cantunwind
	.fnend
                                        @ -- End function
	.section	.text.aes.aes_ctr.add_in_batches.add_keystream,"ax",%progbits
	.p2align	2                               @ -- Begin function aes_ctr::add_in_batches::add_keystream::<#4f733d09d7f6c6b4>
	.type	aes.aes_ctr.add_in_batches.add_keystream,%function
	.code	32
aes.aes_ctr.add_in_batches.add_keystream: @ @aes.aes_ctr.add_in_batches.add_keystream
	.fnstart
@ %bb.0:                                @ %start
	.save	{r4, r5, r6, r7, r8, r9, r10, r11, lr}
	push	{r4, r5, r6, r7, r8, r9, r10, r11, lr}
	.pad	#188
	sub	sp, sp, #188
	mov	r8, r2
	mov	r9, r3
	ldr	r2, [r1]
	and	r11, r8, #15
	ldr	r3, [r1, #4]
	ldr	r7, [r1, #8]
	ldr	r1, [r1, #12]
	str	r1, [sp, #132]
	add	r1, sp, #120
	stm	r1, {r2, r3, r7}
	mov	r1, #0
	ldr	r6, [sp, #236]
	ldr	r5, [sp, #232]
	ldr	r4, [sp, #224]
	str	r1, [sp, #140]
	str	r1, [sp, #136]
	rsb	r1, r11, #16
	subs	r1, r1, r5
	rscs	r1, r6, #0
	bhs	.Laes_BB3_2
@ %bb.1:                                @ %else.2.i
	add	r7, sp, #136
	ldr	r2, [r0, #8]
	add	r1, r7, #8
	ldr	r3, [r0, #12]
	str	r4, [sp, #152]
	str	r5, [r1, #16]
	strd	r8, r9, [r1]
	str	r6, [r1, #20]
	add	r1, sp, #120
	str	r1, [sp, #136]
	mov	r1, #0
	str	r1, [sp, #156]
	ldr	r1, [r0]
	str	r7, [sp]
	mov	r0, r1
	bl	aes.aes_narrow.borrowed_words.call_to_encrypt
	bl	aes.aes_cipher.zeroize.stack.wipe_stack.2032
	add	sp, sp, #188
	pop	{r4, r5, r6, r7, r8, r9, r10, r11, pc}
.Laes_BB3_2:                                @ %then.1.i
	lsr	r1, r8, #4
	orr	r7, r1, r9, lsl #28
	mov	r1, r0
	ldr	r8, [sp, #128]
	ldr	r2, [r1, #8]
	ldr	r3, [r1, #12]
	ldr	r1, [sp, #132]
	ldr	lr, [sp, #124]
	rev	r1, r1
	ldr	r12, [sp, #120]
	adds	r1, r7, r1
	strb	r1, [sp, #187]
	ldr	r0, [r0]
	lsr	r7, r1, #8
	strb	r7, [sp, #186]
	lsr	r7, r1, #16
	lsr	r1, r1, #24
	strb	r7, [sp, #185]
	strb	r1, [sp, #184]
	rev	r1, r8
	lsr	r7, r9, #4
	adcs	r1, r7, r1
	strb	r1, [sp, #183]
	mov	r8, #1
	lsr	r7, r1, #8
	str	r8, [sp, #8]
	strb	r7, [sp, #182]
	lsr	r7, r1, #16
	lsr	r1, r1, #24
	strb	r7, [sp, #181]
	strb	r1, [sp, #180]
	rev	r1, lr
	adcs	r1, r1, #0
	strb	r1, [sp, #179]
	add	r8, sp, #172
	str	r8, [sp]
	lsr	r7, r1, #8
	strb	r7, [sp, #178]
	lsr	r7, r1, #16
	lsr	r1, r1, #24
	strb	r7, [sp, #177]
	strb	r1, [sp, #176]
	rev	r1, r12
	adc	r1, r1, #0
	strb	r1, [sp, #175]
	lsr	r7, r1, #8
	strb	r7, [sp, #174]
	lsr	r7, r1, #16
	strb	r7, [sp, #173]
	mov	r7, #0
	lsr	r1, r1, #24
	str	r7, [sp, #12]
	strb	r1, [sp, #172]
	bl	aes.aes_narrow.blocks.process_all_batches.1
	bl	aes.aes_cipher.zeroize.stack.wipe_stack.1024
	cmp	r11, #0
	beq	.Laes_BB3_7
@ %bb.3:                                @ %then.1.i
	mov	r10, #0
	orrs	r0, r5, r6
	beq	.Laes_BB3_8
@ %bb.4:                                @ %join.8.i72.i.i.preheader
	mov	r0, #0
	mov	r1, #0
.Laes_BB3_5:                                @ %join.8.i72.i.i
                                        @ =>This Inner Loop Header: Depth=1
	add	r3, r1, r11
	ldrb	r2, [r4, r1]
	ldrb	r3, [r8, r3]
	eor	r2, r2, r3
	strb	r2, [r4, r1]
	adds	r1, r1, #1
	adc	r0, r0, #0
	subs	r2, r1, r5
	sbcs	r2, r0, r6
	blo	.Laes_BB3_5
@ %bb.6:
	mov	r7, r5
	mov	r10, r6
	b	.Laes_BB3_8
.Laes_BB3_7:
	mov	r10, #0
.Laes_BB3_8:                                @ %join.3.i.i.i
	subs	r1, r5, r7
	sbc	r2, r6, r10
	subs	r3, r1, #16
	sbcs	r3, r2, #0
	blo	.Laes_BB3_11
@ %bb.9:                                @ %join.8.i.i.i.preheader
	str	r11, [sp, #16]                  @ 4-byte Spill
.Laes_BB3_10:                               @ %join.8.i.i.i
                                        @ =>This Inner Loop Header: Depth=1
	add	r3, r7, r11
	mov	r1, r4
	bic	r3, r3, #15
	ldrb	r2, [r1, r7]!
	str	r7, [sp, #116]                  @ 4-byte Spill
	add	r9, r8, r3
	ldrb	r7, [r8, r3]
	mov	r3, r5
	ldrb	r6, [r9, #12]
	ldrb	r12, [r1, #15]
	mov	r11, r8
	eor	r0, r7, r2
	str	r0, [sp, #56]                   @ 4-byte Spill
	ldrb	r0, [r1, #1]
	mov	r2, r4
	str	r0, [sp, #112]                  @ 4-byte Spill
	ldrb	r0, [r1, #2]
	str	r0, [sp, #108]                  @ 4-byte Spill
	ldrb	r0, [r1, #3]
	str	r0, [sp, #100]                  @ 4-byte Spill
	ldrb	r0, [r1, #4]
	str	r0, [sp, #92]                   @ 4-byte Spill
	ldrb	r0, [r9, #1]
	str	r0, [sp, #104]                  @ 4-byte Spill
	ldrb	r0, [r9, #2]
	str	r0, [sp, #96]                   @ 4-byte Spill
	ldrb	r0, [r9, #3]
	str	r0, [sp, #88]                   @ 4-byte Spill
	ldrb	r0, [r9, #4]
	str	r0, [sp, #84]                   @ 4-byte Spill
	ldrb	r0, [r1, #5]
	str	r0, [sp, #80]                   @ 4-byte Spill
	ldrb	r0, [r9, #5]
	str	r0, [sp, #76]                   @ 4-byte Spill
	ldrb	r0, [r1, #6]
	str	r0, [sp, #72]                   @ 4-byte Spill
	ldrb	r0, [r9, #6]
	str	r0, [sp, #68]                   @ 4-byte Spill
	ldrb	r0, [r1, #7]
	str	r0, [sp, #64]                   @ 4-byte Spill
	ldrb	r0, [r9, #7]
	str	r0, [sp, #60]                   @ 4-byte Spill
	ldrb	r0, [r1, #8]
	str	r0, [sp, #52]                   @ 4-byte Spill
	ldrb	r0, [r9, #8]
	str	r0, [sp, #48]                   @ 4-byte Spill
	ldrb	r0, [r1, #9]
	str	r0, [sp, #44]                   @ 4-byte Spill
	ldrb	r0, [r9, #9]
	str	r0, [sp, #40]                   @ 4-byte Spill
	ldrb	r0, [r1, #10]
	str	r0, [sp, #36]                   @ 4-byte Spill
	ldrb	r0, [r9, #10]
	str	r0, [sp, #32]                   @ 4-byte Spill
	ldrb	r0, [r1, #11]
	str	r0, [sp, #28]                   @ 4-byte Spill
	ldrb	r0, [r9, #11]
	str	r0, [sp, #24]                   @ 4-byte Spill
	ldrb	r0, [r1, #12]
	str	r0, [sp, #20]                   @ 4-byte Spill
	ldrb	r4, [r1, #13]
	ldrb	r0, [r9, #13]
	ldr	r7, [sp, #56]                   @ 4-byte Reload
	eor	r0, r0, r4
	strb	r0, [r1, #13]
	ldr	r0, [sp, #20]                   @ 4-byte Reload
	mov	r4, r2
	ldr	r2, [sp, #24]                   @ 4-byte Reload
	eor	r0, r6, r0
	strb	r0, [r1, #12]
	ldr	r0, [sp, #28]                   @ 4-byte Reload
	ldrb	r5, [r9, #15]
	eor	r0, r2, r0
	strb	r0, [r1, #11]
	ldr	r0, [sp, #36]                   @ 4-byte Reload
	eor	r5, r5, r12
	ldr	r2, [sp, #32]                   @ 4-byte Reload
	strb	r7, [r1]
	eor	r0, r2, r0
	strb	r0, [r1, #10]
	ldr	r0, [sp, #44]                   @ 4-byte Reload
	ldr	r2, [sp, #40]                   @ 4-byte Reload
	ldr	r7, [sp, #116]                  @ 4-byte Reload
	eor	r0, r2, r0
	strb	r0, [r1, #9]
	ldr	r0, [sp, #52]                   @ 4-byte Reload
	adds	r7, r7, #16
	ldr	r2, [sp, #48]                   @ 4-byte Reload
	adc	r10, r10, #0
	ldrb	r8, [r1, #14]
	eor	r0, r2, r0
	strb	r0, [r1, #8]
	ldr	r0, [sp, #64]                   @ 4-byte Reload
	ldr	r2, [sp, #60]                   @ 4-byte Reload
	ldrb	lr, [r9, #14]
	eor	r0, r2, r0
	strb	r0, [r1, #7]
	ldr	r0, [sp, #72]                   @ 4-byte Reload
	ldr	r2, [sp, #68]                   @ 4-byte Reload
	ldr	r6, [sp, #236]
	eor	r0, r2, r0
	strb	r0, [r1, #6]
	ldr	r0, [sp, #80]                   @ 4-byte Reload
	ldr	r2, [sp, #76]                   @ 4-byte Reload
	strb	r5, [r1, #15]
	eor	r5, lr, r8
	eor	r0, r2, r0
	strb	r0, [r1, #5]
	ldr	r0, [sp, #92]                   @ 4-byte Reload
	mov	r8, r11
	ldr	r2, [sp, #84]                   @ 4-byte Reload
	strb	r5, [r1, #14]
	mov	r5, r3
	eor	r0, r2, r0
	strb	r0, [r1, #4]
	ldr	r0, [sp, #100]                  @ 4-byte Reload
	ldr	r2, [sp, #88]                   @ 4-byte Reload
	ldr	r11, [sp, #16]                  @ 4-byte Reload
	eor	r0, r2, r0
	strb	r0, [r1, #3]
	ldr	r0, [sp, #108]                  @ 4-byte Reload
	ldr	r2, [sp, #96]                   @ 4-byte Reload
	eor	r0, r2, r0
	strb	r0, [r1, #2]
	ldr	r0, [sp, #112]                  @ 4-byte Reload
	ldr	r2, [sp, #104]                  @ 4-byte Reload
	eor	r0, r2, r0
	strb	r0, [r1, #1]
	subs	r1, r3, r7
	sbc	r2, r6, r10
	rsbs	r0, r1, #15
	rscs	r0, r2, #0
	blo	.Laes_BB3_10
.Laes_BB3_11:                               @ %after.4.i.i.i
	subs	r0, r7, r5
	sbcs	r0, r10, r6
	bhs	.Laes_BB3_15
@ %bb.12:                               @ %then.9.i.i.i
	orrs	r0, r1, r2
	beq	.Laes_BB3_15
@ %bb.13:                               @ %join.8.i15.i.i.preheader
	add	r3, r7, r11
	add	r0, r4, r7
	bic	r3, r3, #15
	mov	r7, #0
	add	r3, r8, r3
	mov	r6, #0
.Laes_BB3_14:                               @ %join.8.i15.i.i
                                        @ =>This Inner Loop Header: Depth=1
	ldrb	r5, [r3, r6]
	ldrb	r4, [r0, r6]
	eor	r5, r4, r5
	strb	r5, [r0, r6]
	adds	r6, r6, #1
	adc	r7, r7, #0
	subs	r5, r6, r1
	sbcs	r5, r7, r2
	blo	.Laes_BB3_14
.Laes_BB3_15:                               @ %"aes_ctr::add_in_batches::add_stream::<#72982bb057555e7c>.exit"
	add	sp, sp, #188
	pop	{r4, r5, r6, r7, r8, r9, r10, r11, pc}
.Laes_func_end3:
	.size	aes.aes_ctr.add_in_batches.add_keystream, .Laes_func_end3-aes.aes_ctr.add_in_batches.add_keystream
	.cantunwind
	.fnend
                                        @ -- End function
	.section	.text.aes.aes_narrow.blocks.process_all_batches.1,"ax",%progbits
	.p2align	2                               @ -- Begin function aes_narrow::blocks::process_all_batches::<#1a21aa7f601e7603>
	.type	aes.aes_narrow.blocks.process_all_batches.1,%function
	.code	32
aes.aes_narrow.blocks.process_all_batches.1: @ @aes.aes_narrow.blocks.process_all_batches.1
	.fnstart
@ %bb.0:                                @ %start
	.save	{r4, r5, r6, r7, r8, r9, r10, r11, lr}
	push	{r4, r5, r6, r7, r8, r9, r10, r11, lr}
	.pad	#20
	sub	sp, sp, #20
	ldr	r7, [sp, #68]
	mov	r6, r0
	ldr	r4, [sp, #64]
	orrs	r0, r4, r7
	beq	.Laes_BB4_3
@ %bb.1:                                @ %join.5.preheader
	mov	r8, r3
	mov	r11, r2
	mov	r5, #0
	mov	r9, #0
.Laes_BB4_2:                                @ %join.5
                                        @ =>This Inner Loop Header: Depth=1
	ldr	r0, [sp, #56]
	subs	r10, r4, r5
	mov	r1, #2
	mov	r2, r11
	add	r0, r0, r5, lsl #4
	str	r0, [sp]
	sbc	r0, r7, r9
	cmp	r10, #2
	movhs	r10, r1
	cmp	r0, #0
	movne	r10, r1
	mov	r0, #0
	str	r10, [sp, #8]
	mov	r3, r8
	str	r0, [sp, #12]
	mov	r0, r6
	bl	aes.aes_soft.soft.blocks.filled_up.process_filled_up.1
	adds	r5, r10, r5
	adc	r9, r9, #0
	subs	r0, r5, r4
	sbcs	r0, r9, r7
	blo	.Laes_BB4_2
.Laes_BB4_3:                                @ %after.1
	add	sp, sp, #20
	pop	{r4, r5, r6, r7, r8, r9, r10, r11, pc}
.Laes_func_end4:
	.size	aes.aes_narrow.blocks.process_all_batches.1, .Laes_func_end4-aes.aes_narrow.blocks.process_all_batches.1
	.cantunwind
	.fnend
                                        @ -- End function
	.section	.text.aes.aes_soft.soft.blocks.filled_up.process_filled_up.1,"ax",%progbits
	.p2align	2                               @ -- Begin function aes_soft::soft::blocks::filled_up::process_filled_up::<#1a21aa7f601e7603>
	.type	aes.aes_soft.soft.blocks.filled_up.process_filled_up.1,%function
	.code	32
aes.aes_soft.soft.blocks.filled_up.process_filled_up.1: @ @aes.aes_soft.soft.blocks.filled_up.process_filled_up.1
	.fnstart
@ %bb.0:                                @ %start
	.save	{r4, r5, r6, r7, r8, r9, r10, r11, lr}
	push	{r4, r5, r6, r7, r8, r9, r10, r11, lr}
	.pad	#140
	sub	sp, sp, #140
	ldr	r11, [sp, #176]
	mov	r12, r0
	mov	r0, #0
	ldr	r8, [sp, #188]
	str	r0, [sp, #100]
	str	r0, [sp, #96]
	str	r0, [sp, #92]
	str	r0, [sp, #88]
	str	r0, [sp, #84]
	str	r0, [sp, #80]
	str	r0, [sp, #76]
	str	r0, [sp, #72]
	str	r0, [sp, #40]
	str	r0, [sp, #44]
	str	r0, [sp, #48]
	str	r0, [sp, #52]
	str	r0, [sp, #56]
	str	r0, [sp, #60]
	str	r0, [sp, #64]
	str	r0, [sp, #68]
	str	r0, [sp, #8]
	str	r0, [sp, #12]
	str	r0, [sp, #16]
	str	r0, [sp, #20]
	str	r0, [sp, #24]
	str	r0, [sp, #28]
	str	r0, [sp, #32]
	str	r0, [sp, #36]
	ldr	r0, [r11]
	str	r0, [sp, #104]
	str	r0, [sp, #120]
	lsr	r0, r2, #3
	orr	r0, r0, r3, lsl #29
	ldr	r9, [sp, #184]
	lsr	r3, r3, #3
	subs	r2, r0, #1
	sbc	r3, r3, #0
	orrs	r0, r9, r8
	clz	r0, r0
	ldr	r7, [r11, #4]
	ldr	r6, [r11, #8]
	ldr	r4, [r11, #12]
	lsr	r10, r0, #5
	str	r4, [sp, #116]
	str	r6, [sp, #112]
	str	r7, [sp, #108]
	str	r7, [sp, #124]
	str	r6, [sp, #128]
	str	r4, [sp, #132]
	beq	.Laes_BB5_2
@ %bb.1:                                @ %join.8.i
	ldr	r0, [r11]
	add	lr, sp, #104
	ldr	r6, [r11, #12]
	ldr	r1, [r11, #4]
	ldr	r7, [r11, #8]
	stm	lr, {r0, r1, r7}
	eor	r0, r9, #1
	orrs	r0, r0, r8
	str	r6, [sp, #116]
	bne	.Laes_BB5_3
.Laes_BB5_2:                                @ %then.6.i
	add	r0, sp, #104
	add	r4, sp, #40
	ldm	r0!, {r1, r5, r6, r7}
	stm	r4!, {r1, r5, r6, r7}
	ldm	r0, {r1, r5, r6, r7}
	stm	r4, {r1, r5, r6, r7}
	b	.Laes_BB5_4
.Laes_BB5_3:                                @ %join.8.i.1
	ldr	r0, [r11, #16]
	add	lr, sp, #120
	ldr	r6, [r11, #28]
	ldr	r1, [r11, #20]
	ldr	r7, [r11, #24]
	stm	lr, {r0, r1, r7}
	add	r0, sp, #104
	add	r1, sp, #40
	str	r6, [sp, #132]
	ldm	r0!, {r4, r5, r6, r7}
	stm	r1!, {r4, r5, r6, r7}
	ldm	r0, {r4, r5, r6, r7}
	stm	r1, {r4, r5, r6, r7}
.Laes_BB5_4:                                @ %"aes_soft::soft::blocks::filled_up::filled_up::<#7d3b633001169d8c>.exit"
	add	r4, sp, #8
	add	r0, sp, #40
	str	r0, [sp]
	mov	r1, r12
	mov	r0, r4
	bl	aes.aes_soft.soft.ciphers.planes.process_outlined.1
	ldm	r4!, {r1, r2, r3, r7}
	add	r0, sp, #72
	cmp	r10, #0
	stm	r0!, {r1, r2, r3, r7}
	ldm	r4, {r1, r2, r3, r7}
	stm	r0, {r1, r2, r3, r7}
	bne	.Laes_BB5_7
@ %bb.5:                                @ %join.8.i22
	add	r3, sp, #72
	ldm	r3, {r0, r1, r2, r3}
	str	r0, [r11]
	eor	r0, r9, #1
	orrs	r0, r0, r8
	str	r3, [r11, #12]
	str	r2, [r11, #8]
	str	r1, [r11, #4]
	beq	.Laes_BB5_7
@ %bb.6:                                @ %join.8.i22.1
	add	r3, sp, #88
	ldm	r3, {r0, r1, r2, r3}
	str	r3, [r11, #28]
	str	r2, [r11, #24]
	str	r1, [r11, #20]
	str	r0, [r11, #16]
.Laes_BB5_7:                                @ %"aes_soft::soft::blocks::filled_up::copy_first::<#7d3b633001169d8c>.exit"
	add	sp, sp, #140
	pop	{r4, r5, r6, r7, r8, r9, r10, r11, pc}
.Laes_func_end5:
	.size	aes.aes_soft.soft.blocks.filled_up.process_filled_up.1, .Laes_func_end5-aes.aes_soft.soft.blocks.filled_up.process_filled_up.1
	.cantunwind
	.fnend
                                        @ -- End function
	.section	.text.aes.aes_soft.soft.ciphers.planes.process_outlined.1,"ax",%progbits
	.p2align	2                               @ -- Begin function aes_soft::soft::ciphers::planes::process_outlined::<#18f5f0e5023a24e4>
	.type	aes.aes_soft.soft.ciphers.planes.process_outlined.1,%function
	.code	32
aes.aes_soft.soft.ciphers.planes.process_outlined.1: @ @aes.aes_soft.soft.ciphers.planes.process_outlined.1
	.fnstart
@ %bb.0:                                @ %start
	.save	{r4, r5, r6, r7, r8, r9, r10, r11, lr}
	push	{r4, r5, r6, r7, r8, r9, r10, r11, lr}
	.pad	#124
	sub	sp, sp, #124
	ldr	r7, [sp, #160]
	movw	r11, #21845
	str	r0, [sp, #4]                    @ 4-byte Spill
	mov	r12, r1
	movt	r11, #21845
	str	r3, [sp, #12]                   @ 4-byte Spill
	ldr	r9, [r7]
	movw	r8, #13107
	ldr	r0, [r7, #16]
	movt	r8, #13107
	ldr	r10, [r7, #4]
	eor	r1, r0, r9, lsr #1
	ldr	r5, [r7, #8]
	and	r6, r1, r11
	str	r2, [sp, #16]                   @ 4-byte Spill
	eor	r3, r6, r0
	ldr	r0, [r7, #20]
	str	r3, [sp, #116]                  @ 4-byte Spill
	eor	r4, r0, r10, lsr #1
	ldr	r2, [r7, #12]
	and	r1, r4, r11
	str	r5, [sp, #92]                   @ 4-byte Spill
	eor	r0, r1, r0
	str	r2, [sp, #88]                   @ 4-byte Spill
	eor	r4, r0, r3, lsr #2
	eor	r1, r10, r1, lsl #1
	and	r3, r4, r8
	str	r3, [sp, #108]                  @ 4-byte Spill
	eor	lr, r3, r0
	ldr	r0, [r7, #24]
	ldr	r7, [r7, #28]
	eor	r3, r0, r5, lsr #1
	str	lr, [sp, #120]                  @ 4-byte Spill
	eor	r4, r7, r2, lsr #1
	and	r3, r3, r11
	and	r4, r4, r11
	eor	r0, r3, r0
	eor	r7, r4, r7
	str	r0, [sp, #96]                   @ 4-byte Spill
	eor	r5, r7, r0, lsr #2
	movw	r11, #3855
	and	r5, r5, r8
	movt	r11, #3855
	eor	r0, r5, r7
	str	r12, [sp, #28]                  @ 4-byte Spill
	eor	r7, r0, lr, lsr #4
	ldr	lr, [r12, #28]
	and	r2, r7, r11
	str	r2, [sp, #112]                  @ 4-byte Spill
	eor	r0, r0, lr
	eor	r0, r0, r2
	str	r0, [sp, #104]                  @ 4-byte Spill
	eor	r0, r9, r6, lsl #1
	ldr	r6, [r12, #24]
	eor	r2, r1, r0, lsr #2
	and	r2, r2, r8
	eor	r7, r2, r1
	ldr	r1, [sp, #92]                   @ 4-byte Reload
	str	r7, [sp, #100]                  @ 4-byte Spill
	eor	r0, r0, r2, lsl #2
	eor	r1, r1, r3, lsl #1
	ldr	r3, [sp, #88]                   @ 4-byte Reload
	eor	r3, r3, r4, lsl #1
	eor	r4, r3, r1, lsr #2
	and	r4, r4, r8
	eor	r3, r4, r3
	eor	r7, r3, r7, lsr #4
	eor	r3, r3, r6
	and	lr, r7, r11
	ldr	r6, [sp, #108]                  @ 4-byte Reload
	eor	r9, r3, lr
	ldr	r3, [sp, #116]                  @ 4-byte Reload
	ldr	r7, [r12, #20]
	eor	r1, r1, r4, lsl #2
	eor	r10, r3, r6, lsl #2
	ldr	r3, [sp, #96]                   @ 4-byte Reload
	eor	r2, r1, r0, lsr #4
	eor	r6, r3, r5, lsl #2
	ldr	r3, [sp, #112]                  @ 4-byte Reload
	eor	r5, r6, r10, lsr #4
	eor	r7, r6, r7
	and	r5, r5, r11
	eor	r6, r7, r5
	and	r7, r2, r11
	ldr	r2, [r12, #16]
	ldr	r11, [r12]
	eor	r1, r1, r2
	ldr	r2, [r12, #12]
	str	r6, [sp, #108]                  @ 4-byte Spill
	eor	r4, r1, r7
	eor	r2, r2, r3, lsl #4
	ldr	r3, [sp, #120]                  @ 4-byte Reload
	ldr	r6, [r12, #4]
	ldr	r1, [r12, #8]
	eor	r8, r2, r3
	eor	r3, r11, r7, lsl #4
	eor	r5, r6, r5, lsl #4
	eor	r6, r3, r0
	ldr	r2, [sp, #100]                  @ 4-byte Reload
	ldr	r0, [sp, #16]                   @ 4-byte Reload
	eor	r1, r1, lr, lsl #4
	eor	lr, r1, r2
	eor	r10, r5, r10
	subs	r1, r0, #2
	ldr	r0, [sp, #12]                   @ 4-byte Reload
	str	r1, [sp, #8]                    @ 4-byte Spill
	sbc	r3, r0, #0
	lsr	r0, r1, #2
	str	r3, [sp]                        @ 4-byte Spill
	orr	r7, r0, r3, lsl #30
	orrs	r0, r7, r3, lsr #2
	beq	.Laes_BB6_3
@ %bb.1:                                @ %join.7.i.preheader
	lsr	r0, r3, #2
	ldr	r3, [sp, #108]                  @ 4-byte Reload
	str	r0, [sp, #20]                   @ 4-byte Spill
	mov	r1, #0
	mov	r0, #0
	str	r7, [sp, #24]                   @ 4-byte Spill
	str	r0, [sp, #116]                  @ 4-byte Spill
.Laes_BB6_2:                                @ %join.7.i
                                        @ =>This Inner Loop Header: Depth=1
	str	r1, [sp, #92]                   @ 4-byte Spill
	eor	r1, lr, r4
	mov	r11, lr
	ldr	lr, [sp, #104]                  @ 4-byte Reload
	eor	r3, r3, r9
	mov	r5, r4
	eor	r2, r10, lr
	str	r4, [sp, #96]                   @ 4-byte Spill
	eor	r0, r2, r1
	str	r0, [sp, #112]                  @ 4-byte Spill
	eor	r0, r0, r8
	eor	r8, r6, r3
	eor	r7, r0, r11
	eor	r0, r0, r9
	eor	r4, r7, r3
	str	r7, [sp, #120]                  @ 4-byte Spill
	eor	r7, r5, lr
	str	r0, [sp, #88]                   @ 4-byte Spill
	eor	r5, r0, r7
	str	r1, [sp, #76]                   @ 4-byte Spill
	eor	r0, r5, r4
	str	r0, [sp, #60]                   @ 4-byte Spill
	and	r1, r0, r1
	eor	r0, r8, r10
	and	r9, r5, r7
	eor	r10, r5, r3
	str	r4, [sp, #108]                  @ 4-byte Spill
	eor	r4, r1, r9
	and	r1, r0, r8
	and	r3, r10, r2
	eor	r1, r10, r1
	str	r2, [sp, #64]                   @ 4-byte Spill
	eor	r1, r1, r3
	str	r4, [sp, #56]                   @ 4-byte Spill
	eor	r1, r1, r2
	eor	r2, r8, lr
	eor	r12, r1, r4
	eor	r1, r5, r6
	str	r5, [sp, #32]                   @ 4-byte Spill
	and	r5, r1, r2
	ldr	r4, [sp, #108]                  @ 4-byte Reload
	eor	r5, r10, r5
	eor	r11, r11, lr
	eor	r3, r5, r3
	str	r7, [sp, #72]                   @ 4-byte Spill
	and	r7, r4, r11
	eor	r7, r7, r9
	eor	r3, r3, lr
	eor	r3, r3, r7
	str	r1, [sp, #84]                   @ 4-byte Spill
	eor	r1, r3, r12
	str	r2, [sp, #52]                   @ 4-byte Spill
	str	r1, [sp, #48]                   @ 4-byte Spill
	ldr	r1, [sp, #112]                  @ 4-byte Reload
	ldr	r2, [sp, #120]                  @ 4-byte Reload
	str	r0, [sp, #80]                   @ 4-byte Spill
	eor	r0, r0, r11
	and	r5, r2, r1
	eor	r1, r2, r6
	str	r0, [sp, #104]                  @ 4-byte Spill
	and	lr, r1, r0
	ldr	r0, [sp, #88]                   @ 4-byte Reload
	str	r1, [sp, #68]                   @ 4-byte Spill
	eor	r2, r0, lr
	ldr	r0, [sp, #56]                   @ 4-byte Reload
	eor	r2, r2, r5
	str	r6, [sp, #100]                  @ 4-byte Spill
	eor	r9, r2, r0
	ldr	r0, [sp, #96]                   @ 4-byte Reload
	and	r2, r12, r9
	eor	r0, r8, r0
	str	r0, [sp, #96]                   @ 4-byte Spill
	and	r1, r0, r6
	ldr	r0, [sp, #48]                   @ 4-byte Reload
	eor	r1, r1, r11
	eor	r1, r1, r4
	eor	r1, r1, r5
	eor	r1, r1, r7
	eor	r7, r2, r1
	and	r7, r7, r0
	eor	r0, r7, r3
	eor	r7, r7, r2
	and	lr, r7, r3
	eor	r2, r2, r3
	eor	r7, lr, r12
	eor	r12, r9, r1
	and	r3, r2, r12
	eor	r4, r7, r0
	eor	r3, r3, r1
	eor	r1, lr, r2
	and	r1, r1, r3
	ldr	r2, [sp, #60]                   @ 4-byte Reload
	eor	r5, r1, r12
	eor	r12, r3, r0
	eor	r1, r5, r4
	str	r4, [sp, #44]                   @ 4-byte Spill
	eor	r6, r1, r12
	eor	r4, r5, r3
	str	r5, [sp, #56]                   @ 4-byte Spill
	and	r2, r6, r2
	str	r6, [sp, #36]                   @ 4-byte Spill
	and	r6, r5, r8
	and	r5, r4, r10
	str	r5, [sp, #48]                   @ 4-byte Spill
	eor	r9, r5, r6
	ldr	r6, [sp, #108]                  @ 4-byte Reload
	ldr	r5, [sp, #100]                  @ 4-byte Reload
	eor	r2, r9, r2
	and	lr, r1, r6
	str	r0, [sp, #88]                   @ 4-byte Spill
	and	r6, r0, r5
	ldr	r0, [sp, #120]                  @ 4-byte Reload
	movw	r10, #16191
	and	r5, r7, r0
	movt	r10, #16191
	eor	r0, r5, r6
	ldr	r6, [sp, #64]                   @ 4-byte Reload
	str	r0, [sp, #40]                   @ 4-byte Spill
	eor	r0, lr, r0
	and	r6, r4, r6
	str	r6, [sp, #100]                  @ 4-byte Spill
	eor	r0, r0, r6
	movw	r4, #3855
	eor	r6, r0, r2
	ldr	r0, [sp, #52]                   @ 4-byte Reload
	str	r6, [sp, #64]                   @ 4-byte Spill
	movt	r4, #3855
	and	r0, r3, r0
	eor	r6, r6, r0
	ldr	r0, [sp, #32]                   @ 4-byte Reload
	str	r6, [sp, #108]                  @ 4-byte Spill
	and	r0, r12, r0
	eor	r8, r2, r0
	and	r0, r1, r11
	ldr	r1, [sp, #72]                   @ 4-byte Reload
	ldr	r2, [sp, #44]                   @ 4-byte Reload
	and	r11, r12, r1
	movw	r1, #49344
	eor	r0, r0, r11
	movt	r1, #49344
	eor	r0, r0, r8
	str	r8, [sp, #32]                   @ 4-byte Spill
	eor	r0, r0, r6
	and	r1, r1, r0, ror #2
	and	r6, r10, r0, ror #10
	orr	r6, r6, r1
	ldr	r1, [sp, #116]                  @ 4-byte Reload
	eor	r12, r6, r0
	movw	r0, #61680
	movt	r0, #61680
	and	r0, r0, r12, ror #12
	and	r4, r4, r12, ror #20
	orr	r0, r4, r0
	ldr	r4, [sp, #28]                   @ 4-byte Reload
	add	lr, r4, r1, lsl #7
	ldr	r1, [sp, #76]                   @ 4-byte Reload
	str	lr, [sp, #120]                  @ 4-byte Spill
	ldr	r4, [lr, #52]
	eor	r0, r4, r0
	ldr	r4, [sp, #36]                   @ 4-byte Reload
	eor	r6, r0, r6
	ldr	r0, [sp, #68]                   @ 4-byte Reload
	and	r4, r4, r1
	ldr	r1, [sp, #104]                  @ 4-byte Reload
	and	r0, r2, r0
	eor	r11, r4, r11
	and	r2, r2, r1
	ldr	r1, [sp, #112]                  @ 4-byte Reload
	eor	r0, r0, r5
	eor	r4, r11, r2
	and	r2, r7, r1
	eor	r0, r0, r9
	eor	r9, r4, r2
	movw	r1, #16191
	eor	r10, r0, r9
	str	r4, [sp, #60]                   @ 4-byte Spill
	movw	r4, #49344
	movt	r1, #16191
	movt	r4, #49344
	and	r2, r4, r10, ror #2
	and	r7, r1, r10, ror #10
	orr	r0, r7, r2
	eor	r2, r10, r8
	str	r0, [sp, #72]                   @ 4-byte Spill
	eor	r0, r0, r10
	eor	r7, r6, r0
	and	r5, r1, r2, ror #10
	and	r6, r4, r2, ror #2
	movw	r1, #61680
	orr	r6, r5, r6
	str	r0, [sp, #68]                   @ 4-byte Spill
	eor	r0, r6, r2
	movt	r1, #61680
	ldr	r2, [sp, #40]                   @ 4-byte Reload
	movw	r8, #3855
	and	r5, r1, r0, ror #12
	ldr	r1, [sp, #84]                   @ 4-byte Reload
	movt	r8, #3855
	and	r4, r8, r0, ror #20
	and	r1, r3, r1
	orr	r5, r4, r5
	eor	r1, r2, r1
	ldr	r2, [sp, #48]                   @ 4-byte Reload
	ldr	r4, [lr, #56]
	eor	r3, r1, r2
	ldr	r1, [sp, #80]                   @ 4-byte Reload
	ldr	r2, [sp, #56]                   @ 4-byte Reload
	eor	r5, r4, r5
	eor	r6, r5, r6
	str	r0, [sp, #44]                   @ 4-byte Spill
	and	r1, r2, r1
	eor	r0, r6, r12
	eor	r1, r3, r1
	movw	r2, #49344
	eor	r5, r1, r11
	ldr	r1, [sp, #100]                  @ 4-byte Reload
	str	r0, [sp, #76]                   @ 4-byte Spill
	eor	r0, r7, r0
	eor	r1, r5, r1
	movw	r7, #16191
	movt	r7, #16191
	str	r3, [sp, #84]                   @ 4-byte Spill
	movt	r2, #49344
	and	r6, r7, r1, ror #10
	and	r3, r2, r1, ror #2
	movw	r11, #61680
	orr	r6, r6, r3
	movt	r11, #61680
	eor	r3, r6, r1
	ldr	r7, [lr, #40]
	str	r7, [sp, #80]                   @ 4-byte Spill
	and	r1, r11, r3, ror #12
	and	r4, r8, r3, ror #20
	orr	r1, r4, r1
	ldr	r4, [lr, #32]
	ldr	r7, [lr, #44]
	eor	r1, r4, r1
	ldr	r12, [lr, #36]
	eor	r4, r1, r6
	ldr	r1, [sp, #32]                   @ 4-byte Reload
	movw	lr, #16191
	str	r7, [sp, #56]                   @ 4-byte Spill
	eor	r1, r9, r1
	movt	lr, #16191
	str	r0, [sp, #52]                   @ 4-byte Spill
	and	r6, r2, r1, ror #2
	and	r7, lr, r1, ror #10
	orr	r7, r7, r6
	eor	r1, r7, r1
	eor	r4, r4, r1
	str	r4, [sp, #104]                  @ 4-byte Spill
	eor	r9, r0, r4
	ldr	r0, [sp, #64]                   @ 4-byte Reload
	str	r9, [sp, #100]                  @ 4-byte Spill
	eor	r4, r5, r0
	and	r5, r2, r4, ror #2
	and	r6, lr, r4, ror #10
	orr	r5, r6, r5
	mov	lr, r8
	eor	r4, r5, r4
	mov	r2, r11
	and	r6, r11, r4, ror #12
	and	r8, r8, r4, ror #20
	orr	r6, r8, r6
	eor	r6, r12, r6
	eor	r6, r6, r5
	and	r5, r11, r1, ror #12
	eor	r3, r6, r3
	ldr	r11, [sp, #120]                 @ 4-byte Reload
	eor	r3, r3, r1
	eor	r6, r9, r3
	str	r6, [sp, #112]                  @ 4-byte Spill
	and	r0, r6, r9
	and	r6, lr, r1, ror #20
	orr	r5, r6, r5
	ldr	r6, [r11, #60]
	str	r0, [sp, #48]                   @ 4-byte Spill
	movw	r9, #49344
	eor	r5, r6, r5
	ldr	r0, [sp, #44]                   @ 4-byte Reload
	eor	r5, r5, r7
	movt	r9, #49344
	eor	r8, r5, r0
	ldr	r5, [sp, #88]                   @ 4-byte Reload
	eor	r12, r3, r8
	ldr	r3, [sp, #96]                   @ 4-byte Reload
	ldr	r0, [sp, #60]                   @ 4-byte Reload
	and	r3, r5, r3
	ldr	r5, [sp, #108]                  @ 4-byte Reload
	eor	r3, r0, r3
	movw	r0, #16191
	eor	r3, r3, r5
	movt	r0, #16191
	str	r12, [sp, #64]                  @ 4-byte Spill
	and	r6, r0, r3, ror #10
	and	r5, r9, r3, ror #2
	orr	r5, r6, r5
	ldr	r0, [sp, #80]                   @ 4-byte Reload
	eor	r3, r5, r3
	and	r6, r2, r3, ror #12
	and	r7, lr, r3, ror #20
	orr	r6, r7, r6
	eor	r6, r0, r6
	ldr	r0, [sp, #68]                   @ 4-byte Reload
	eor	r5, r6, r5
	ldr	r6, [r11, #48]
	eor	r5, r5, r4
	str	r5, [sp, #60]                   @ 4-byte Spill
	and	r4, r2, r0, ror #12
	and	r7, lr, r0, ror #20
	orr	r7, r7, r4
	ldr	r0, [sp, #72]                   @ 4-byte Reload
	eor	r7, r6, r7
	movw	r4, #16191
	eor	r7, r7, r0
	ldr	r0, [sp, #84]                   @ 4-byte Reload
	movt	r4, #16191
	eor	r7, r7, r1
	eor	r0, r10, r0
	mov	r10, r5
	and	r6, r9, r0, ror #2
	and	r4, r4, r0, ror #10
	orr	r9, r4, r6
	eor	r4, r9, r0
	eor	r6, r7, r4
	str	r6, [sp, #96]                   @ 4-byte Spill
	and	r7, r2, r4, ror #12
	and	r4, lr, r4, ror #20
	orr	r7, r4, r7
	ldr	r4, [sp, #56]                   @ 4-byte Reload
	eor	r5, r6, r5
	str	r5, [sp, #80]                   @ 4-byte Spill
	eor	r7, r4, r7
	eor	r0, r12, r5
	eor	r3, r7, r3
	str	r0, [sp, #108]                  @ 4-byte Spill
	eor	r1, r3, r1
	eor	r3, r6, r8
	eor	r1, r1, r9
	ldr	r7, [sp, #48]                   @ 4-byte Reload
	eor	r2, r1, r0
	ldr	r0, [sp, #76]                   @ 4-byte Reload
	eor	r9, r2, r10
	str	r3, [sp, #72]                   @ 4-byte Spill
	eor	r1, r2, r0
	ldr	r0, [sp, #52]                   @ 4-byte Reload
	str	r1, [sp, #84]                   @ 4-byte Spill
	eor	r1, r1, r3
	eor	r6, r1, r0
	str	r1, [sp, #56]                   @ 4-byte Spill
	eor	r7, r6, r7
	and	lr, r6, r12
	eor	r7, r7, lr
	str	r6, [sp, #44]                   @ 4-byte Spill
	eor	r7, r7, r12
	eor	r12, r9, r0
	eor	r2, r1, r12
	and	r0, r1, r3
	and	r4, r2, r5
	str	r2, [sp, #52]                   @ 4-byte Spill
	eor	r4, r4, r0
	ldr	r2, [sp, #100]                  @ 4-byte Reload
	eor	r10, r7, r4
	ldr	r7, [sp, #104]                  @ 4-byte Reload
	eor	r5, r2, r8
	str	r5, [sp, #76]                   @ 4-byte Spill
	eor	r3, r1, r7
	ldr	r1, [sp, #60]                   @ 4-byte Reload
	and	r11, r3, r5
	str	r3, [sp, #88]                   @ 4-byte Spill
	eor	r5, r6, r11
	str	r9, [sp, #48]                   @ 4-byte Spill
	eor	r5, r5, lr
	eor	r5, r5, r8
	eor	r8, r8, r1
	and	r6, r12, r8
	ldr	r1, [sp, #108]                  @ 4-byte Reload
	eor	lr, r6, r0
	eor	r0, r9, r7
	eor	r6, r5, lr
	and	r5, r9, r1
	ldr	r1, [sp, #112]                  @ 4-byte Reload
	eor	r11, r6, r10
	str	r0, [sp, #60]                   @ 4-byte Spill
	eor	r1, r1, r8
	str	r1, [sp, #68]                   @ 4-byte Spill
	and	r3, r0, r1
	ldr	r0, [sp, #84]                   @ 4-byte Reload
	eor	r3, r0, r3
	ldr	r0, [sp, #96]                   @ 4-byte Reload
	eor	r3, r3, r5
	eor	r1, r2, r0
	str	r1, [sp, #96]                   @ 4-byte Spill
	and	r1, r1, r7
	eor	r3, r3, r4
	eor	r1, r1, r8
	and	r4, r10, r3
	eor	r1, r1, r12
	eor	r1, r1, r5
	eor	r0, r1, lr
	eor	r1, r4, r0
	eor	r3, r3, r0
	and	r1, r1, r11
	eor	r2, r1, r6
	eor	r1, r1, r4
	eor	r4, r4, r6
	and	r1, r1, r6
	and	r6, r4, r3
	eor	r9, r1, r10
	eor	lr, r6, r0
	eor	r1, r1, r4
	and	r1, r1, lr
	eor	r11, r9, r2
	eor	r7, r1, r3
	eor	r4, lr, r2
	eor	r1, r7, r11
	ldr	r0, [sp, #52]                   @ 4-byte Reload
	eor	r3, r1, r4
	str	r3, [sp, #40]                   @ 4-byte Spill
	and	r6, r3, r0
	ldr	r0, [sp, #100]                  @ 4-byte Reload
	ldr	r3, [sp, #44]                   @ 4-byte Reload
	and	r12, r1, r12
	and	r5, r7, r0
	eor	r0, r7, lr
	and	r3, r0, r3
	str	r3, [sp, #100]                  @ 4-byte Spill
	eor	r5, r3, r5
	ldr	r3, [sp, #104]                  @ 4-byte Reload
	str	r2, [sp, #84]                   @ 4-byte Spill
	eor	r10, r5, r6
	and	r2, r2, r3
	ldr	r3, [sp, #48]                   @ 4-byte Reload
	ldr	r6, [sp, #64]                   @ 4-byte Reload
	and	r3, r9, r3
	eor	r2, r3, r2
	str	r2, [sp, #52]                   @ 4-byte Spill
	eor	r2, r12, r2
	and	r0, r0, r6
	str	r0, [sp, #104]                  @ 4-byte Spill
	eor	r0, r2, r0
	eor	r2, r0, r10
	ldr	r0, [sp, #76]                   @ 4-byte Reload
	str	r2, [sp, #64]                   @ 4-byte Spill
	and	r0, lr, r0
	ldr	r12, [sp, #120]                 @ 4-byte Reload
	eor	r2, r2, r0
	ldr	r0, [sp, #56]                   @ 4-byte Reload
	str	r2, [sp, #76]                   @ 4-byte Spill
	and	r0, r4, r0
	eor	r6, r10, r0
	and	r0, r1, r8
	ldr	r1, [sp, #72]                   @ 4-byte Reload
	movw	r10, #3855
	movt	r10, #3855
	str	r6, [sp, #48]                   @ 4-byte Spill
	and	r1, r4, r1
	eor	r0, r0, r1
	eor	r0, r0, r6
	eor	r0, r0, r2
	movw	r2, #61680
	movt	r2, #61680
	and	r2, r2, r0, ror #4
	and	r4, r10, r0, ror #12
	orr	r2, r4, r2
	ldr	r4, [r12, #84]
	eor	r0, r2, r0
	eor	r4, r4, r0, ror #16
	eor	r6, r4, r2
	ldr	r2, [sp, #60]                   @ 4-byte Reload
	and	r4, r11, r2
	ldr	r2, [sp, #80]                   @ 4-byte Reload
	eor	r3, r4, r3
	eor	r4, r3, r5
	ldr	r3, [sp, #40]                   @ 4-byte Reload
	and	r3, r3, r2
	eor	r2, r3, r1
	ldr	r1, [sp, #68]                   @ 4-byte Reload
	and	r1, r11, r1
	mov	r11, r10
	eor	r3, r2, r1
	ldr	r1, [sp, #108]                  @ 4-byte Reload
	str	r3, [sp, #60]                   @ 4-byte Spill
	and	r1, r9, r1
	eor	r9, r3, r1
	movw	r3, #61680
	eor	r8, r4, r9
	movt	r3, #61680
	and	r5, r10, r8, ror #12
	and	r4, r3, r8, ror #4
	orr	r1, r5, r4
	ldr	r4, [sp, #48]                   @ 4-byte Reload
	str	r1, [sp, #108]                  @ 4-byte Spill
	eor	r1, r1, r8
	eor	r5, r8, r4
	str	r1, [sp, #80]                   @ 4-byte Spill
	eor	r1, r6, r1
	mov	r10, r3
	and	r6, r3, r5, ror #4
	and	r3, r11, r5, ror #12
	orr	r3, r3, r6
	eor	r11, r3, r5
	ldr	r5, [r12, #88]
	eor	r5, r5, r11, ror #16
	eor	r3, r5, r3
	eor	r0, r3, r0
	str	r0, [sp, #72]                   @ 4-byte Spill
	eor	r1, r1, r0
	ldr	r0, [sp, #88]                   @ 4-byte Reload
	ldr	r3, [sp, #52]                   @ 4-byte Reload
	and	r0, lr, r0
	str	r1, [sp, #56]                   @ 4-byte Spill
	eor	r0, r3, r0
	ldr	r3, [sp, #100]                  @ 4-byte Reload
	eor	r6, r0, r3
	ldr	r0, [sp, #112]                  @ 4-byte Reload
	str	r6, [sp, #88]                   @ 4-byte Spill
	and	r3, r7, r0
	ldr	r0, [sp, #104]                  @ 4-byte Reload
	eor	r3, r6, r3
	eor	r2, r3, r2
	eor	r3, r2, r0
	movw	r0, #3855
	movt	r0, #3855
	and	r7, r10, r3, ror #4
	and	r6, r0, r3, ror #12
	orr	r7, r6, r7
	ldr	r6, [r12, #64]
	eor	r3, r7, r3
	eor	r6, r6, r3, ror #16
	eor	r6, r6, r7
	eor	r7, r9, r4
	and	r5, r10, r7, ror #4
	and	r4, r0, r7, ror #12
	orr	r5, r4, r5
	eor	r7, r5, r7
	eor	r6, r6, r7
	str	r6, [sp, #104]                  @ 4-byte Spill
	eor	lr, r1, r6
	ldr	r1, [sp, #64]                   @ 4-byte Reload
	str	lr, [sp, #100]                  @ 4-byte Spill
	eor	r2, r2, r1
	mov	r1, r10
	and	r6, r10, r2, ror #4
	and	r4, r0, r2, ror #12
	orr	r6, r4, r6
	ldr	r4, [r12, #68]
	eor	r2, r6, r2
	mov	r10, r0
	mov	r0, r12
	eor	r4, r4, r2, ror #16
	eor	r6, r4, r6
	eor	r3, r6, r3
	eor	r3, r3, r7
	eor	r6, lr, r3
	str	r6, [sp, #112]                  @ 4-byte Spill
	and	r12, r6, lr
	ldr	r6, [r0, #92]
	eor	r6, r6, r7, ror #16
	eor	r6, r6, r5
	eor	lr, r6, r11
	ldr	r6, [sp, #84]                   @ 4-byte Reload
	eor	r9, r3, lr
	ldr	r3, [sp, #96]                   @ 4-byte Reload
	mov	r11, r10
	str	r9, [sp, #68]                   @ 4-byte Spill
	and	r3, r6, r3
	ldr	r6, [sp, #60]                   @ 4-byte Reload
	eor	r3, r6, r3
	ldr	r6, [sp, #76]                   @ 4-byte Reload
	eor	r3, r3, r6
	mov	r6, r0
	and	r4, r1, r3, ror #4
	and	r5, r10, r3, ror #12
	orr	r4, r5, r4
	ldr	r5, [r0, #72]
	eor	r3, r4, r3
	eor	r5, r5, r3, ror #16
	eor	r4, r5, r4
	eor	r10, r4, r2
	ldr	r4, [r0, #80]
	ldr	r0, [sp, #80]                   @ 4-byte Reload
	eor	r4, r4, r0, ror #16
	ldr	r0, [sp, #108]                  @ 4-byte Reload
	eor	r4, r4, r0
	ldr	r0, [sp, #88]                   @ 4-byte Reload
	eor	r4, r4, r7
	eor	r0, r8, r0
	and	r1, r1, r0, ror #4
	and	r5, r11, r0, ror #12
	orr	r5, r5, r1
	eor	r0, r5, r0
	eor	r2, r4, r0
	ldr	r4, [r6, #76]
	eor	r11, r2, r10
	str	r2, [sp, #96]                   @ 4-byte Spill
	eor	r0, r4, r0, ror #16
	eor	r1, r9, r11
	eor	r0, r0, r3
	str	r1, [sp, #108]                  @ 4-byte Spill
	eor	r0, r0, r7
	eor	r7, r2, lr
	eor	r0, r0, r5
	ldr	r5, [sp, #56]                   @ 4-byte Reload
	eor	r0, r0, r1
	ldr	r1, [sp, #72]                   @ 4-byte Reload
	str	r7, [sp, #72]                   @ 4-byte Spill
	eor	r1, r0, r1
	str	r1, [sp, #88]                   @ 4-byte Spill
	eor	r1, r1, r7
	str	r11, [sp, #80]                  @ 4-byte Spill
	eor	r3, r1, r5
	and	r2, r1, r7
	eor	r6, r3, r12
	and	r8, r3, r9
	eor	r6, r6, r8
	ldr	r7, [sp, #104]                  @ 4-byte Reload
	eor	r4, r6, r9
	eor	r9, r0, r10
	eor	r12, r9, r5
	str	r1, [sp, #60]                   @ 4-byte Spill
	eor	r0, r1, r12
	str	r0, [sp, #52]                   @ 4-byte Spill
	and	r6, r0, r11
	ldr	r0, [sp, #100]                  @ 4-byte Reload
	eor	r11, r1, r7
	str	r11, [sp, #84]                  @ 4-byte Spill
	eor	r5, r0, lr
	str	r5, [sp, #56]                   @ 4-byte Spill
	and	r11, r11, r5
	eor	r6, r6, r2
	eor	r1, r3, r11
	str	r9, [sp, #48]                   @ 4-byte Spill
	eor	r1, r1, r8
	eor	r4, r4, r6
	eor	r1, r1, lr
	eor	lr, lr, r10
	and	r5, r12, lr
	eor	r8, r5, r2
	ldr	r2, [sp, #108]                  @ 4-byte Reload
	eor	r5, r9, r7
	eor	r1, r1, r8
	and	r10, r9, r2
	ldr	r2, [sp, #112]                  @ 4-byte Reload
	mov	r9, r7
	eor	r11, r1, r4
	eor	r2, r2, lr
	str	r2, [sp, #76]                   @ 4-byte Spill
	and	r7, r5, r2
	ldr	r2, [sp, #88]                   @ 4-byte Reload
	str	r5, [sp, #64]                   @ 4-byte Spill
	eor	r7, r2, r7
	ldr	r2, [sp, #96]                   @ 4-byte Reload
	eor	r7, r7, r10
	eor	r2, r0, r2
	str	r2, [sp, #96]                   @ 4-byte Spill
	and	r2, r2, r9
	eor	r6, r7, r6
	eor	r2, r2, lr
	and	r7, r4, r6
	eor	r2, r2, r12
	eor	r2, r2, r10
	eor	r0, r2, r8
	eor	r2, r7, r0
	and	r2, r2, r11
	eor	r5, r2, r1
	eor	r2, r2, r7
	and	r10, r2, r1
	str	r5, [sp, #88]                   @ 4-byte Spill
	eor	r2, r10, r4
	eor	r4, r6, r0
	eor	r6, r7, r1
	eor	r11, r2, r5
	and	r1, r6, r4
	eor	r9, r1, r0
	eor	r0, r10, r6
	and	r0, r0, r9
	eor	r1, r9, r5
	eor	r0, r0, r4
	ldr	r4, [sp, #52]                   @ 4-byte Reload
	eor	r7, r0, r11
	mov	r6, r5
	eor	r5, r7, r1
	str	r0, [sp, #40]                   @ 4-byte Spill
	and	r10, r5, r4
	ldr	r4, [sp, #100]                  @ 4-byte Reload
	str	r5, [sp, #44]                   @ 4-byte Spill
	and	r8, r0, r4
	eor	r0, r0, r9
	and	r5, r0, r3
	ldr	r4, [sp, #104]                  @ 4-byte Reload
	str	r5, [sp, #100]                  @ 4-byte Spill
	eor	r5, r5, r8
	eor	r8, r5, r10
	and	r10, r6, r4
	ldr	r6, [sp, #48]                   @ 4-byte Reload
	and	r3, r7, r12
	movw	r12, #61680
	and	r4, r2, r6
	movt	r12, #61680
	eor	r6, r4, r10
	str	r6, [sp, #48]                   @ 4-byte Spill
	eor	r3, r3, r6
	ldr	r6, [sp, #68]                   @ 4-byte Reload
	and	r0, r0, r6
	str	r0, [sp, #52]                   @ 4-byte Spill
	eor	r0, r3, r0
	movw	r6, #3855
	eor	r3, r0, r8
	ldr	r0, [sp, #56]                   @ 4-byte Reload
	str	r3, [sp, #68]                   @ 4-byte Spill
	movt	r6, #3855
	and	r0, r9, r0
	eor	r3, r3, r0
	ldr	r0, [sp, #60]                   @ 4-byte Reload
	str	r3, [sp, #104]                  @ 4-byte Spill
	and	r0, r1, r0
	eor	r10, r8, r0
	and	r0, r7, lr
	ldr	r7, [sp, #72]                   @ 4-byte Reload
	ldr	lr, [sp, #120]                  @ 4-byte Reload
	and	r1, r1, r7
	movw	r7, #771
	eor	r0, r0, r1
	movt	r7, #771
	eor	r0, r0, r10
	eor	r0, r0, r3
	movw	r3, #64764
	movt	r3, #64764
	and	r3, r3, r0, ror #6
	and	r7, r7, r0, ror #14
	orr	r3, r7, r3
	eor	r7, r3, r0
	and	r0, r12, r7, ror #12
	and	r6, r6, r7, ror #20
	orr	r0, r6, r0
	ldr	r6, [lr, #116]
	eor	r0, r6, r0
	eor	r0, r0, r3
	ldr	r3, [sp, #64]                   @ 4-byte Reload
	and	r3, r11, r3
	eor	r3, r3, r4
	ldr	r4, [sp, #44]                   @ 4-byte Reload
	eor	r3, r3, r5
	ldr	r5, [sp, #80]                   @ 4-byte Reload
	and	r6, r4, r5
	movw	r4, #64764
	eor	r6, r6, r1
	ldr	r1, [sp, #76]                   @ 4-byte Reload
	movt	r4, #64764
	and	r1, r11, r1
	eor	r5, r6, r1
	ldr	r1, [sp, #108]                  @ 4-byte Reload
	str	r5, [sp, #64]                   @ 4-byte Spill
	and	r1, r2, r1
	eor	r11, r5, r1
	eor	r8, r3, r11
	movw	r3, #771
	movt	r3, #771
	and	r1, r4, r8, ror #6
	and	r5, r3, r8, ror #14
	orr	r1, r5, r1
	str	r1, [sp, #76]                   @ 4-byte Spill
	eor	r1, r1, r8
	str	r1, [sp, #72]                   @ 4-byte Spill
	eor	r2, r0, r1
	eor	r1, r8, r10
	and	r5, r4, r1, ror #6
	and	r0, r3, r1, ror #14
	orr	r0, r0, r5
	movw	r3, #3855
	eor	r1, r0, r1
	str	r1, [sp, #44]                   @ 4-byte Spill
	mov	r4, r12
	movt	r3, #3855
	and	r5, r12, r1, ror #12
	and	r12, r3, r1, ror #20
	ldr	r1, [lr, #120]
	orr	r5, r12, r5
	movw	r12, #771
	mov	r3, lr
	eor	r1, r1, r5
	movt	r12, #771
	eor	r0, r1, r0
	ldr	r1, [sp, #48]                   @ 4-byte Reload
	eor	r0, r0, r7
	str	r0, [sp, #80]                   @ 4-byte Spill
	eor	r7, r2, r0
	ldr	r0, [sp, #84]                   @ 4-byte Reload
	ldr	r2, [sp, #40]                   @ 4-byte Reload
	movw	r5, #3855
	and	r0, r9, r0
	movw	r9, #64764
	eor	r0, r1, r0
	ldr	r1, [sp, #100]                  @ 4-byte Reload
	movt	r9, #64764
	movt	r5, #3855
	eor	r1, r0, r1
	ldr	r0, [sp, #112]                  @ 4-byte Reload
	str	r1, [sp, #56]                   @ 4-byte Spill
	and	r0, r2, r0
	str	r7, [sp, #60]                   @ 4-byte Spill
	eor	r0, r1, r0
	eor	r1, r0, r6
	ldr	r0, [sp, #52]                   @ 4-byte Reload
	eor	r0, r1, r0
	and	r2, r9, r0, ror #6
	and	r6, r12, r0, ror #14
	orr	r2, r6, r2
	eor	r6, r2, r0
	and	r0, r4, r6, ror #12
	and	r5, r5, r6, ror #20
	orr	r0, r5, r0
	ldr	r5, [lr, #96]
	eor	r0, r5, r0
	eor	r2, r0, r2
	eor	r0, r11, r10
	movw	r11, #61680
	movw	r10, #3855
	and	r5, r9, r0, ror #6
	and	r4, r12, r0, ror #14
	orr	r4, r4, r5
	movt	r11, #61680
	eor	r0, r4, r0
	movt	r10, #3855
	eor	r2, r2, r0
	str	r2, [sp, #108]                  @ 4-byte Spill
	eor	lr, r7, r2
	ldr	r2, [sp, #68]                   @ 4-byte Reload
	str	lr, [sp, #100]                  @ 4-byte Spill
	eor	r1, r1, r2
	and	r2, r9, r1, ror #6
	and	r5, r12, r1, ror #14
	orr	r2, r5, r2
	mov	r9, r12
	eor	r5, r2, r1
	and	r1, r11, r5, ror #12
	and	r7, r10, r5, ror #20
	orr	r1, r7, r1
	ldr	r7, [r3, #100]
	eor	r1, r7, r1
	ldr	r7, [sp, #44]                   @ 4-byte Reload
	eor	r1, r1, r2
	eor	r1, r1, r6
	and	r6, r10, r0, ror #20
	eor	r2, r1, r0
	eor	r1, lr, r2
	str	r1, [sp, #112]                  @ 4-byte Spill
	and	r1, r1, lr
	str	r1, [sp, #52]                   @ 4-byte Spill
	and	r1, r11, r0, ror #12
	mov	lr, r10
	orr	r1, r6, r1
	ldr	r6, [r3, #124]
	eor	r1, r6, r1
	eor	r1, r1, r4
	eor	r12, r1, r7
	ldr	r7, [sp, #88]                   @ 4-byte Reload
	eor	r10, r2, r12
	ldr	r2, [sp, #96]                   @ 4-byte Reload
	ldr	r1, [sp, #64]                   @ 4-byte Reload
	and	r2, r7, r2
	str	r10, [sp, #84]                  @ 4-byte Spill
	eor	r2, r1, r2
	ldr	r1, [sp, #104]                  @ 4-byte Reload
	eor	r2, r2, r1
	movw	r1, #64764
	movt	r1, #64764
	and	r4, r1, r2, ror #6
	and	r6, r9, r2, ror #14
	orr	r4, r6, r4
	ldr	r1, [sp, #72]                   @ 4-byte Reload
	eor	r2, r4, r2
	mov	r9, lr
	and	r6, r11, r2, ror #12
	and	r7, lr, r2, ror #20
	orr	r6, r7, r6
	ldr	r7, [r3, #104]
	eor	r6, r7, r6
	eor	r4, r6, r4
	eor	lr, r4, r5
	and	r4, r11, r1, ror #12
	and	r5, r9, r1, ror #20
	mov	r1, r3
	orr	r4, r5, r4
	ldr	r5, [r3, #112]
	ldr	r3, [sp, #76]                   @ 4-byte Reload
	eor	r4, r5, r4
	movw	r5, #64764
	eor	r4, r4, r3
	ldr	r3, [sp, #56]                   @ 4-byte Reload
	movt	r5, #64764
	eor	r4, r4, r0
	eor	r3, r8, r3
	and	r7, r5, r3, ror #6
	movw	r5, #771
	movt	r5, #771
	and	r6, r5, r3, ror #14
	orr	r8, r6, r7
	eor	r3, r8, r3
	eor	r5, r4, r3
	str	r5, [sp, #76]                   @ 4-byte Spill
	and	r4, r11, r3, ror #12
	and	r3, r9, r3, ror #20
	orr	r3, r3, r4
	ldr	r4, [r1, #108]
	eor	r7, r5, lr
	ldr	r1, [sp, #80]                   @ 4-byte Reload
	eor	r3, r4, r3
	eor	r6, r10, r7
	eor	r2, r3, r2
	str	r6, [sp, #104]                  @ 4-byte Spill
	eor	r0, r2, r0
	ldr	r3, [sp, #60]                   @ 4-byte Reload
	eor	r0, r0, r8
	str	r7, [sp, #68]                   @ 4-byte Spill
	eor	r0, r0, r6
	eor	r6, r5, r12
	eor	r2, r0, r1
	str	r2, [sp, #40]                   @ 4-byte Spill
	eor	r9, r2, r6
	ldr	r2, [sp, #52]                   @ 4-byte Reload
	eor	r5, r9, r3
	eor	r0, r0, lr
	eor	r4, r5, r2
	eor	r2, r0, r3
	eor	r1, r9, r2
	and	r8, r5, r10
	str	r0, [sp, #96]                   @ 4-byte Spill
	and	r0, r1, r7
	and	r7, r9, r6
	str	r6, [sp, #64]                   @ 4-byte Spill
	ldr	r6, [sp, #100]                  @ 4-byte Reload
	eor	r4, r4, r8
	ldr	r3, [sp, #108]                  @ 4-byte Reload
	eor	r11, r0, r7
	eor	r4, r4, r10
	str	r1, [sp, #52]                   @ 4-byte Spill
	eor	r1, r6, r12
	eor	r0, r9, r3
	eor	r10, r4, r11
	and	r4, r0, r1
	eor	r4, r5, r4
	str	r5, [sp, #48]                   @ 4-byte Spill
	eor	r5, r4, r8
	str	r0, [sp, #88]                   @ 4-byte Spill
	eor	r0, r5, r12
	eor	r5, r12, lr
	str	r1, [sp, #80]                   @ 4-byte Spill
	and	r1, r2, r5
	eor	r12, r1, r7
	mov	lr, r2
	eor	r7, r0, r12
	str	r2, [sp, #60]                   @ 4-byte Spill
	eor	r0, r7, r10
	str	r0, [sp, #36]                   @ 4-byte Spill
	ldr	r0, [sp, #104]                  @ 4-byte Reload
	mov	r1, r5
	ldr	r2, [sp, #96]                   @ 4-byte Reload
	str	r5, [sp, #72]                   @ 4-byte Spill
	and	r8, r2, r0
	ldr	r0, [sp, #112]                  @ 4-byte Reload
	eor	r4, r0, r5
	eor	r0, r2, r3
	str	r0, [sp, #56]                   @ 4-byte Spill
	and	r5, r0, r4
	ldr	r0, [sp, #40]                   @ 4-byte Reload
	str	r4, [sp, #44]                   @ 4-byte Spill
	eor	r2, r0, r5
	eor	r2, r2, r8
	eor	r11, r2, r11
	ldr	r2, [sp, #76]                   @ 4-byte Reload
	and	r0, r10, r11
	eor	r2, r6, r2
	str	r2, [sp, #76]                   @ 4-byte Spill
	and	r2, r2, r3
	ldr	r3, [sp, #36]                   @ 4-byte Reload
	eor	r2, r2, r1
	eor	r2, r2, lr
	eor	r2, r2, r8
	eor	r1, r2, r12
	eor	r2, r0, r1
	and	r2, r2, r3
	eor	r3, r2, r7
	eor	r2, r2, r0
	and	r12, r2, r7
	str	r3, [sp, #40]                   @ 4-byte Spill
	eor	lr, r12, r10
	mov	r2, r3
	eor	r5, lr, r3
	eor	r3, r11, r1
	eor	r0, r0, r7
	and	r6, r0, r3
	eor	r0, r12, r0
	eor	r8, r6, r1
	ldr	r1, [sp, #52]                   @ 4-byte Reload
	and	r0, r0, r8
	eor	r10, r0, r3
	eor	r3, r8, r2
	eor	r4, r10, r5
	ldr	r2, [sp, #48]                   @ 4-byte Reload
	eor	r0, r4, r3
	eor	r6, r10, r8
	and	r12, r0, r1
	ldr	r1, [sp, #100]                  @ 4-byte Reload
	and	r2, r6, r2
	str	r2, [sp, #100]                  @ 4-byte Spill
	and	r1, r10, r1
	and	r7, r3, r9
	eor	r2, r2, r1
	str	r6, [sp, #36]                   @ 4-byte Spill
	eor	r1, r2, r12
	str	r1, [sp, #32]                   @ 4-byte Spill
	eor	r9, r1, r7
	ldr	r1, [sp, #68]                   @ 4-byte Reload
	ldr	r6, [sp, #120]                  @ 4-byte Reload
	and	r7, r0, r1
	ldr	r0, [sp, #64]                   @ 4-byte Reload
	ldr	r1, [sp, #44]                   @ 4-byte Reload
	and	r0, r3, r0
	str	r0, [sp, #48]                   @ 4-byte Spill
	eor	r0, r7, r0
	and	r3, r5, r1
	eor	r1, r0, r3
	str	r0, [sp, #68]                   @ 4-byte Spill
	ldr	r0, [sp, #104]                  @ 4-byte Reload
	str	r1, [sp, #52]                   @ 4-byte Spill
	and	r3, lr, r0
	ldr	r11, [r6, #156]
	eor	r7, r1, r3
	eor	r1, r7, r9
	eor	r3, r1, r1, ror #8
	eor	r0, r11, r3, ror #16
	eor	r0, r0, r1, ror #8
	ldr	r1, [sp, #56]                   @ 4-byte Reload
	and	r1, r5, r1
	ldr	r5, [sp, #96]                   @ 4-byte Reload
	and	r5, lr, r5
	mov	lr, r6
	eor	r1, r1, r5
	ldr	r6, [r6, #148]
	eor	r1, r1, r2
	ldr	r2, [sp, #108]                  @ 4-byte Reload
	eor	r12, r1, r7
	eor	r1, r12, r9
	str	r1, [sp, #96]                   @ 4-byte Spill
	eor	r1, r1, r1, ror #8
	str	r1, [sp, #64]                   @ 4-byte Spill
	eor	r0, r0, r1
	ldr	r1, [sp, #40]                   @ 4-byte Reload
	str	r0, [sp, #104]                  @ 4-byte Spill
	ldr	r0, [sp, #60]                   @ 4-byte Reload
	and	r7, r1, r2
	eor	r5, r5, r7
	ldr	r7, [sp, #84]                   @ 4-byte Reload
	ldr	r2, [sp, #36]                   @ 4-byte Reload
	and	r0, r4, r0
	eor	r0, r0, r5
	and	r2, r2, r7
	str	r2, [sp, #60]                   @ 4-byte Spill
	eor	r0, r0, r2
	ldr	r2, [sp, #32]                   @ 4-byte Reload
	ldr	r7, [sp, #72]                   @ 4-byte Reload
	eor	r11, r0, r2
	ldr	r0, [sp, #80]                   @ 4-byte Reload
	ldr	r2, [sp, #48]                   @ 4-byte Reload
	and	r4, r4, r7
	and	r0, r8, r0
	eor	r4, r4, r2
	eor	r0, r11, r0
	eor	r4, r4, r9
	eor	r4, r4, r0
	eor	r9, r4, r4, ror #8
	eor	r6, r6, r9, ror #16
	eor	r6, r6, r4, ror #8
	eor	r4, r12, r12, ror #8
	eor	r2, r6, r4
	ldr	r6, [sp, #76]                   @ 4-byte Reload
	str	r2, [sp, #108]                  @ 4-byte Spill
	and	r6, r1, r6
	ldr	r1, [sp, #52]                   @ 4-byte Reload
	eor	r6, r1, r6
	eor	r0, r6, r0
	ldr	r6, [lr, #136]
	eor	r1, r0, r0, ror #8
	str	r1, [sp, #84]                   @ 4-byte Spill
	eor	r6, r6, r1, ror #16
	ldr	r1, [sp, #68]                   @ 4-byte Reload
	eor	r0, r6, r0, ror #8
	ldr	r6, [sp, #88]                   @ 4-byte Reload
	and	r2, r8, r6
	eor	r2, r5, r2
	ldr	r5, [sp, #100]                  @ 4-byte Reload
	eor	r2, r2, r5
	ldr	r5, [sp, #112]                  @ 4-byte Reload
	and	r6, r10, r5
	mov	r5, lr
	eor	r6, r2, r6
	eor	r10, r6, r1
	ldr	r1, [sp, #60]                   @ 4-byte Reload
	eor	r6, r10, r11
	eor	r7, r6, r6, ror #8
	eor	r11, r0, r7
	ldr	r0, [lr, #132]
	eor	r0, r0, r7, ror #16
	mov	lr, r11
	eor	r0, r0, r6, ror #8
	eor	r6, r10, r1
	ldr	r1, [sp, #64]                   @ 4-byte Reload
	eor	r7, r6, r6, ror #8
	eor	r0, r0, r7
	eor	r10, r0, r3
	ldr	r0, [r5, #152]
	eor	r0, r0, r1, ror #16
	ldr	r1, [sp, #96]                   @ 4-byte Reload
	eor	r0, r0, r1, ror #8
	eor	r1, r12, r2
	eor	r9, r0, r9
	ldr	r0, [r5, #128]
	eor	r2, r1, r1, ror #8
	eor	r0, r0, r7, ror #16
	ldr	r7, [sp, #24]                   @ 4-byte Reload
	eor	r0, r0, r6, ror #8
	eor	r6, r0, r3
	ldr	r0, [r5, #144]
	eor	r0, r0, r4, ror #16
	eor	r0, r0, r12, ror #8
	eor	r0, r0, r3
	eor	r4, r0, r2
	ldr	r0, [r5, #140]
	eor	r0, r0, r2, ror #16
	ldr	r2, [sp, #84]                   @ 4-byte Reload
	eor	r0, r0, r2
	eor	r0, r0, r3
	ldr	r3, [sp, #108]                  @ 4-byte Reload
	eor	r8, r0, r1, ror #8
	ldr	r0, [sp, #116]                  @ 4-byte Reload
	ldr	r1, [sp, #92]                   @ 4-byte Reload
	adds	r0, r0, #1
	str	r0, [sp, #116]                  @ 4-byte Spill
	adc	r1, r1, #0
	subs	r0, r0, r7
	ldr	r0, [sp, #20]                   @ 4-byte Reload
	sbcs	r0, r1, r0
	blo	.Laes_BB6_2
	b	.Laes_BB6_4
.Laes_BB6_3:
	ldr	r3, [sp, #108]                  @ 4-byte Reload
.Laes_BB6_4:                                @ %after.3.i
	ldr	r5, [sp, #104]                  @ 4-byte Reload
	eor	r2, r4, lr
	eor	r7, r9, r3
	mov	r11, lr
	eor	r12, r5, r10
	eor	r3, r5, r4
	eor	r0, r12, r2
	str	r0, [sp, #116]                  @ 4-byte Spill
	eor	r0, r0, r8
	mov	r8, r10
	eor	r1, r0, lr
	eor	r0, r0, r9
	eor	lr, r1, r7
	str	r0, [sp, #120]                  @ 4-byte Spill
	eor	r0, r0, r3
	str	r1, [sp, #112]                  @ 4-byte Spill
	eor	r1, r0, lr
	and	r9, r0, r3
	and	r10, r1, r2
	str	r2, [sp, #76]                   @ 4-byte Spill
	eor	r2, r10, r9
	eor	r10, r7, r6
	eor	r8, r10, r8
	str	r4, [sp, #96]                   @ 4-byte Spill
	str	r1, [sp, #68]                   @ 4-byte Spill
	mov	r1, r0
	and	r4, r8, r10
	eor	r7, r1, r7
	str	r0, [sp, #56]                   @ 4-byte Spill
	mov	r0, r6
	eor	r4, r7, r4
	and	r6, r7, r12
	eor	r4, r4, r6
	eor	r11, r5, r11
	eor	r4, r4, r12
	str	r3, [sp, #108]                  @ 4-byte Spill
	and	r3, lr, r11
	str	r2, [sp, #64]                   @ 4-byte Spill
	eor	r4, r4, r2
	eor	r9, r3, r9
	eor	r3, r1, r0
	eor	r2, r10, r5
	str	r3, [sp, #92]                   @ 4-byte Spill
	and	r3, r3, r2
	eor	r3, r7, r3
	str	r12, [sp, #84]                  @ 4-byte Spill
	eor	r3, r3, r6
	mov	r12, lr
	eor	r3, r3, r5
	str	lr, [sp, #52]                   @ 4-byte Spill
	mov	lr, r0
	ldr	r0, [sp, #116]                  @ 4-byte Reload
	ldr	r5, [sp, #112]                  @ 4-byte Reload
	eor	r6, r3, r9
	str	r8, [sp, #88]                   @ 4-byte Spill
	and	r1, r5, r0
	eor	r0, r8, r11
	eor	r3, r5, lr
	str	r0, [sp, #44]                   @ 4-byte Spill
	mov	r8, r11
	str	r11, [sp, #72]                  @ 4-byte Spill
	and	r11, r3, r0
	ldr	r0, [sp, #120]                  @ 4-byte Reload
	str	r3, [sp, #48]                   @ 4-byte Spill
	mov	r5, lr
	eor	r3, r0, r11
	ldr	r0, [sp, #64]                   @ 4-byte Reload
	eor	r3, r3, r1
	str	lr, [sp, #100]                  @ 4-byte Spill
	eor	r11, r3, r0
	ldr	r0, [sp, #96]                   @ 4-byte Reload
	and	lr, r4, r11
	str	r2, [sp, #80]                   @ 4-byte Spill
	eor	r3, r10, r0
	eor	r2, r6, r4
	and	r5, r3, r5
	str	r3, [sp, #104]                  @ 4-byte Spill
	eor	r5, r5, r8
	eor	r3, lr, r6
	eor	r5, r5, r12
	movw	r8, #16191
	eor	r0, r5, r1
	ldr	r1, [sp, #68]                   @ 4-byte Reload
	eor	r5, r0, r9
	movt	r8, #16191
	eor	r0, lr, r5
	and	r0, r0, r2
	eor	r2, r0, r6
	eor	r0, r0, lr
	and	r12, r0, r6
	eor	r0, r11, r5
	and	r6, r3, r0
	eor	r3, r12, r3
	eor	r6, r6, r5
	eor	r9, r12, r4
	and	r3, r3, r6
	eor	r4, r9, r2
	eor	r5, r3, r0
	eor	r0, r6, r2
	eor	r11, r5, r4
	str	r2, [sp, #120]                  @ 4-byte Spill
	eor	r3, r11, r0
	eor	r2, r5, r6
	and	lr, r3, r1
	str	r2, [sp, #40]                   @ 4-byte Spill
	and	r2, r2, r7
	and	r1, r5, r10
	eor	r7, r2, r1
	ldr	r1, [sp, #56]                   @ 4-byte Reload
	str	r2, [sp, #60]                   @ 4-byte Spill
	movw	r12, #3855
	and	r2, r0, r1
	ldr	r1, [sp, #48]                   @ 4-byte Reload
	str	r5, [sp, #64]                   @ 4-byte Spill
	eor	r5, r7, lr
	str	r5, [sp, #36]                   @ 4-byte Spill
	eor	r10, r5, r2
	and	r5, r4, r1
	ldr	r1, [sp, #112]                  @ 4-byte Reload
	movw	lr, #61680
	movt	r12, #3855
	and	r1, r9, r1
	str	r1, [sp, #24]                   @ 4-byte Spill
	eor	r5, r5, r1
	ldr	r1, [sp, #76]                   @ 4-byte Reload
	eor	r5, r5, r7
	movt	lr, #61680
	and	r3, r3, r1
	ldr	r1, [sp, #108]                  @ 4-byte Reload
	and	r0, r0, r1
	str	r0, [sp, #32]                   @ 4-byte Spill
	eor	r1, r3, r0
	ldr	r0, [sp, #44]                   @ 4-byte Reload
	str	r1, [sp, #48]                   @ 4-byte Spill
	and	r0, r4, r0
	eor	r1, r1, r0
	ldr	r0, [sp, #116]                  @ 4-byte Reload
	str	r1, [sp, #56]                   @ 4-byte Spill
	and	r0, r9, r0
	movw	r9, #49344
	eor	r0, r1, r0
	movt	r9, #49344
	eor	r1, r5, r0
	eor	r0, r0, r10
	eor	r3, r1, r10
	str	r1, [sp, #116]                  @ 4-byte Spill
	and	r4, r9, r3, ror #2
	and	r5, r8, r3, ror #10
	orr	r1, r5, r4
	and	r4, r8, r0, ror #10
	eor	r2, r1, r3
	and	r3, r9, r0, ror #2
	orr	r4, r4, r3
	str	r1, [sp, #96]                   @ 4-byte Spill
	eor	r1, r4, r0
	str	r1, [sp, #76]                   @ 4-byte Spill
	str	r2, [sp, #68]                   @ 4-byte Spill
	and	r0, lr, r1, ror #12
	and	r5, r12, r1, ror #20
	orr	r5, r5, r0
	ldr	r0, [sp, #8]                    @ 4-byte Reload
	ldr	r3, [sp, #84]                   @ 4-byte Reload
	bic	r1, r0, #3
	ldr	r0, [sp, #28]                   @ 4-byte Reload
	str	r1, [sp, #108]                  @ 4-byte Spill
	add	r0, r0, r1, lsl #5
	ldr	r7, [r0, #60]
	eor	r5, r7, r5
	eor	r4, r5, r4
	eor	r1, r4, r2
	str	r1, [sp, #112]                  @ 4-byte Spill
	ldr	r1, [sp, #52]                   @ 4-byte Reload
	ldr	r2, [sp, #100]                  @ 4-byte Reload
	and	r4, r11, r1
	ldr	r1, [sp, #120]                  @ 4-byte Reload
	and	r5, r1, r2
	ldr	r1, [sp, #24]                   @ 4-byte Reload
	ldr	r2, [sp, #40]                   @ 4-byte Reload
	eor	r1, r1, r5
	and	r2, r2, r3
	eor	r4, r4, r1
	str	r2, [sp, #52]                   @ 4-byte Spill
	eor	r4, r4, r2
	ldr	r2, [sp, #36]                   @ 4-byte Reload
	ldr	r3, [sp, #80]                   @ 4-byte Reload
	eor	r4, r4, r2
	ldr	r2, [sp, #72]                   @ 4-byte Reload
	and	r5, r6, r3
	eor	r3, r4, r5
	and	r5, r11, r2
	ldr	r2, [sp, #32]                   @ 4-byte Reload
	eor	r5, r5, r2
	eor	r2, r5, r10
	mov	r10, r3
	eor	r2, r2, r3
	and	r5, r9, r2, ror #2
	and	r7, r8, r2, ror #10
	orr	r7, r7, r5
	eor	r3, r7, r2
	str	r3, [sp, #80]                   @ 4-byte Spill
	and	r2, lr, r3, ror #12
	and	r5, r12, r3, ror #20
	orr	r2, r5, r2
	ldr	r5, [r0, #52]
	ldr	r3, [sp, #116]                  @ 4-byte Reload
	eor	r2, r5, r2
	eor	r2, r2, r7
	and	r7, r9, r3, ror #2
	and	r5, r8, r3, ror #10
	orr	r5, r5, r7
	str	r5, [sp, #84]                   @ 4-byte Spill
	eor	r3, r5, r3
	str	r3, [sp, #44]                   @ 4-byte Spill
	eor	r2, r2, r3
	str	r2, [sp, #100]                  @ 4-byte Spill
	ldr	r2, [sp, #92]                   @ 4-byte Reload
	and	r2, r6, r2
	eor	r1, r1, r2
	ldr	r2, [sp, #60]                   @ 4-byte Reload
	eor	r3, r1, r2
	ldr	r1, [sp, #88]                   @ 4-byte Reload
	ldr	r2, [sp, #64]                   @ 4-byte Reload
	str	r3, [sp, #72]                   @ 4-byte Spill
	and	r1, r2, r1
	ldr	r2, [sp, #48]                   @ 4-byte Reload
	eor	r1, r3, r1
	ldr	r3, [r0, #36]
	eor	r11, r1, r2
	ldr	r2, [sp, #120]                  @ 4-byte Reload
	eor	r1, r11, r4
	and	r7, r9, r1, ror #2
	and	r6, r8, r1, ror #10
	orr	r6, r6, r7
	eor	r7, r6, r1
	ldr	r1, [sp, #104]                  @ 4-byte Reload
	and	r1, r2, r1
	ldr	r2, [sp, #56]                   @ 4-byte Reload
	eor	r1, r2, r1
	eor	r1, r1, r10
	and	r4, r9, r1, ror #2
	and	r5, r8, r1, ror #10
	orr	r5, r5, r4
	eor	r10, r5, r1
	and	r4, lr, r10, ror #12
	and	r1, r12, r10, ror #20
	orr	r2, r1, r4
	ldr	r1, [r0, #32]
	str	r1, [sp, #104]                  @ 4-byte Spill
	ldr	r1, [r0, #40]
	ldr	r4, [r0, #44]
	eor	r1, r1, r2
	and	r2, r12, r7, ror #20
	eor	r1, r1, r5
	ldr	r5, [sp, #76]                   @ 4-byte Reload
	eor	r1, r1, r7
	str	r1, [sp, #120]                  @ 4-byte Spill
	and	r1, lr, r7, ror #12
	str	r4, [sp, #88]                   @ 4-byte Spill
	orr	r1, r2, r1
	ldr	r2, [sp, #52]                   @ 4-byte Reload
	eor	r1, r3, r1
	ldr	r4, [sp, #104]                  @ 4-byte Reload
	eor	r2, r11, r2
	eor	r1, r1, r6
	and	r3, r9, r2, ror #2
	and	r7, r8, r2, ror #10
	orr	r3, r7, r3
	eor	r7, r3, r2
	ldr	r2, [sp, #68]                   @ 4-byte Reload
	eor	r1, r1, r7
	eor	r1, r1, r5
	str	r1, [sp, #92]                   @ 4-byte Spill
	and	r1, lr, r2, ror #12
	and	r2, r12, r2, ror #20
	orr	r1, r2, r1
	ldr	r2, [r0, #56]
	ldr	r0, [r0, #48]
	eor	r1, r2, r1
	ldr	r2, [sp, #96]                   @ 4-byte Reload
	eor	r1, r1, r2
	ldr	r2, [sp, #80]                   @ 4-byte Reload
	eor	r11, r1, r2
	and	r1, lr, r7, ror #12
	and	r7, r12, r7, ror #20
	orr	r1, r7, r1
	eor	r1, r4, r1
	eor	r1, r1, r3
	ldr	r3, [sp, #44]                   @ 4-byte Reload
	eor	r1, r1, r5
	str	r1, [sp, #104]                  @ 4-byte Spill
	and	r1, lr, r3, ror #12
	and	r3, r12, r3, ror #20
	orr	r1, r3, r1
	ldr	r3, [sp, #72]                   @ 4-byte Reload
	eor	r0, r0, r1
	ldr	r1, [sp, #84]                   @ 4-byte Reload
	eor	r0, r0, r1
	ldr	r1, [sp, #116]                  @ 4-byte Reload
	eor	r0, r0, r5
	eor	r1, r1, r3
	and	r3, r9, r1, ror #2
	and	r6, r8, r1, ror #10
	orr	r3, r6, r3
	eor	r1, r3, r1
	eor	r6, r0, r1
	and	r0, lr, r1, ror #12
	and	r1, r12, r1, ror #20
	orr	r0, r1, r0
	ldr	r1, [sp, #88]                   @ 4-byte Reload
	eor	r0, r1, r0
	eor	r0, r0, r10
	eor	r0, r0, r5
	ldr	r5, [sp, #16]                   @ 4-byte Reload
	eor	r1, r0, r3
	ldr	r0, [sp, #108]                  @ 4-byte Reload
	ldr	r3, [sp]                        @ 4-byte Reload
	orr	r0, r0, #2
	subs	r0, r0, r5
	ldr	r0, [sp, #12]                   @ 4-byte Reload
	sbcs	r0, r3, r0
	bhs	.Laes_BB6_6
@ %bb.5:                                @ %then.11.i
	ldr	r10, [sp, #120]                 @ 4-byte Reload
	mov	r2, r6
	ldr	r3, [sp, #112]                  @ 4-byte Reload
	ldr	r8, [sp, #92]                   @ 4-byte Reload
	eor	r7, r6, r10
	eor	r2, r2, r3
	str	r6, [sp, #60]                   @ 4-byte Spill
	eor	r5, r8, r3
	ldr	r9, [sp, #104]                  @ 4-byte Reload
	eor	r0, r5, r7
	str	r0, [sp, #116]                  @ 4-byte Spill
	eor	r0, r0, r1
	ldr	r1, [sp, #100]                  @ 4-byte Reload
	eor	r6, r0, r10
	eor	r0, r0, r11
	eor	r1, r11, r1
	str	r6, [sp, #108]                  @ 4-byte Spill
	eor	r12, r6, r1
	eor	r6, r0, r2
	str	r0, [sp, #100]                  @ 4-byte Spill
	eor	r0, r6, r12
	str	r0, [sp, #68]                   @ 4-byte Spill
	and	r4, r0, r7
	eor	r0, r1, r9
	and	lr, r6, r2
	str	r2, [sp, #84]                   @ 4-byte Spill
	eor	r2, r0, r8
	str	r7, [sp, #88]                   @ 4-byte Spill
	eor	r11, r4, lr
	eor	r4, r6, r1
	and	r7, r2, r0
	eor	r7, r4, r7
	and	r8, r4, r5
	eor	r1, r7, r8
	str	r5, [sp, #80]                   @ 4-byte Spill
	eor	r1, r1, r5
	eor	r5, r6, r9
	str	r6, [sp, #72]                   @ 4-byte Spill
	eor	r6, r0, r3
	str	r6, [sp, #64]                   @ 4-byte Spill
	and	r6, r5, r6
	eor	r7, r3, r10
	eor	r6, r4, r6
	eor	r6, r6, r8
	and	r10, r12, r7
	eor	lr, r10, lr
	eor	r6, r6, r3
	eor	r1, r1, r11
	eor	r6, r6, lr
	eor	r3, r6, r1
	str	r4, [sp, #56]                   @ 4-byte Spill
	str	r3, [sp, #48]                   @ 4-byte Spill
	ldr	r3, [sp, #116]                  @ 4-byte Reload
	ldr	r4, [sp, #108]                  @ 4-byte Reload
	str	r2, [sp, #96]                   @ 4-byte Spill
	eor	r2, r2, r7
	and	r8, r4, r3
	eor	r3, r4, r9
	str	r2, [sp, #92]                   @ 4-byte Spill
	and	r10, r3, r2
	ldr	r2, [sp, #100]                  @ 4-byte Reload
	str	r3, [sp, #76]                   @ 4-byte Spill
	eor	r3, r2, r10
	ldr	r2, [sp, #60]                   @ 4-byte Reload
	eor	r3, r3, r8
	str	r12, [sp, #44]                  @ 4-byte Spill
	mov	r12, r9
	eor	r9, r3, r11
	eor	r3, r0, r2
	str	r5, [sp, #120]                  @ 4-byte Spill
	and	r5, r3, r12
	ldr	r11, [sp, #44]                  @ 4-byte Reload
	eor	r5, r5, r7
	str	r7, [sp, #52]                   @ 4-byte Spill
	eor	r5, r5, r11
	and	r4, r1, r9
	eor	r5, r5, r8
	ldr	r2, [sp, #48]                   @ 4-byte Reload
	eor	r7, r5, lr
	str	r3, [sp, #112]                  @ 4-byte Spill
	eor	r5, r4, r7
	and	r5, r5, r2
	ldr	r2, [sp, #68]                   @ 4-byte Reload
	eor	r3, r5, r6
	eor	r5, r5, r4
	and	lr, r5, r6
	eor	r5, r9, r7
	eor	r6, r4, r6
	eor	r8, lr, r1
	and	r1, r6, r5
	eor	r10, r8, r3
	eor	r1, r1, r7
	eor	r7, lr, r6
	and	r7, r7, r1
	eor	r6, r1, r3
	eor	r7, r7, r5
	str	r7, [sp, #60]                   @ 4-byte Spill
	eor	r5, r7, r10
	and	r0, r7, r0
	eor	r4, r5, r6
	eor	r7, r7, r1
	and	r9, r4, r2
	ldr	r2, [sp, #56]                   @ 4-byte Reload
	str	r4, [sp, #48]                   @ 4-byte Spill
	and	r2, r7, r2
	str	r2, [sp, #68]                   @ 4-byte Spill
	eor	lr, r2, r0
	ldr	r0, [sp, #108]                  @ 4-byte Reload
	eor	r4, lr, r9
	and	r9, r3, r12
	and	r12, r8, r0
	and	r2, r5, r11
	eor	r0, r12, r9
	str	r0, [sp, #56]                   @ 4-byte Spill
	eor	r0, r2, r0
	ldr	r2, [sp, #80]                   @ 4-byte Reload
	str	r3, [sp, #100]                  @ 4-byte Spill
	and	r2, r7, r2
	str	r2, [sp, #108]                  @ 4-byte Spill
	eor	r0, r0, r2
	ldr	r3, [sp, #84]                   @ 4-byte Reload
	eor	r2, r0, r4
	ldr	r0, [sp, #64]                   @ 4-byte Reload
	str	r2, [sp, #80]                   @ 4-byte Spill
	and	r0, r1, r0
	eor	r2, r2, r0
	ldr	r0, [sp, #72]                   @ 4-byte Reload
	str	r2, [sp, #104]                  @ 4-byte Spill
	and	r0, r6, r0
	eor	r11, r4, r0
	ldr	r0, [sp, #52]                   @ 4-byte Reload
	and	r0, r5, r0
	and	r5, r6, r3
	eor	r0, r0, r5
	eor	r0, r0, r11
	eor	r0, r0, r2
	movw	r2, #61680
	movt	r2, #61680
	and	r6, r2, r0, ror #4
	movw	r2, #3855
	movt	r2, #3855
	and	r7, r2, r0, ror #12
	orr	r3, r7, r6
	ldr	r7, [sp, #28]                   @ 4-byte Reload
	eor	r6, r3, r0
	ldr	r0, [sp, #8]                    @ 4-byte Reload
	ldr	r2, [sp, #88]                   @ 4-byte Reload
	ldr	r0, [r7, r0, lsl #5]!
	str	r0, [sp, #64]                   @ 4-byte Spill
	ldr	r0, [r7, #20]
	eor	r0, r0, r6, ror #16
	eor	r3, r0, r3
	ldr	r0, [sp, #76]                   @ 4-byte Reload
	and	r0, r10, r0
	eor	r0, r0, r12
	eor	r12, r0, lr
	ldr	r0, [sp, #48]                   @ 4-byte Reload
	and	r4, r0, r2
	ldr	r2, [sp, #56]                   @ 4-byte Reload
	eor	lr, r4, r5
	ldr	r5, [sp, #92]                   @ 4-byte Reload
	and	r5, r10, r5
	eor	r0, lr, r5
	ldr	r5, [sp, #116]                  @ 4-byte Reload
	str	r0, [sp, #76]                   @ 4-byte Spill
	and	r4, r8, r5
	movw	r8, #3855
	eor	r9, r0, r4
	movt	r8, #3855
	eor	r0, r12, r9
	movw	r12, #61680
	movt	r12, #61680
	and	r4, r12, r0, ror #4
	and	r5, r8, r0, ror #12
	orr	r4, r5, r4
	str	r4, [sp, #92]                   @ 4-byte Spill
	eor	r4, r4, r0
	str	r4, [sp, #84]                   @ 4-byte Spill
	eor	r3, r3, r4
	eor	r4, r0, r11
	and	r5, r12, r4, ror #4
	and	r10, r8, r4, ror #12
	orr	r5, r10, r5
	eor	r10, r5, r4
	ldr	r4, [r7, #24]
	eor	r4, r4, r10, ror #16
	eor	r4, r4, r5
	eor	r4, r4, r6
	str	r4, [sp, #116]                  @ 4-byte Spill
	eor	r6, r3, r4
	ldr	r3, [sp, #120]                  @ 4-byte Reload
	str	r6, [sp, #72]                   @ 4-byte Spill
	and	r1, r1, r3
	ldr	r3, [sp, #60]                   @ 4-byte Reload
	eor	r1, r2, r1
	ldr	r2, [sp, #68]                   @ 4-byte Reload
	eor	r2, r1, r2
	ldr	r1, [sp, #96]                   @ 4-byte Reload
	str	r2, [sp, #68]                   @ 4-byte Spill
	and	r3, r3, r1
	ldr	r1, [sp, #108]                  @ 4-byte Reload
	eor	r3, r2, r3
	eor	r3, r3, lr
	eor	r2, r3, r1
	mov	r1, r12
	and	r5, r12, r2, ror #4
	and	r4, r8, r2, ror #12
	orr	r5, r4, r5
	mov	r12, r8
	eor	r4, r5, r2
	ldr	r2, [sp, #64]                   @ 4-byte Reload
	mov	r8, r1
	eor	r2, r2, r4, ror #16
	eor	lr, r2, r5
	eor	r2, r9, r11
	and	r5, r1, r2, ror #4
	and	r1, r12, r2, ror #12
	orr	r5, r1, r5
	eor	r2, r5, r2
	eor	r1, lr, r2
	str	r1, [sp, #108]                  @ 4-byte Spill
	eor	lr, r6, r1
	ldr	r1, [sp, #80]                   @ 4-byte Reload
	str	lr, [sp, #60]                   @ 4-byte Spill
	eor	r1, r3, r1
	and	r3, r8, r1, ror #4
	and	r6, r12, r1, ror #12
	orr	r3, r6, r3
	ldr	r6, [r7, #12]
	eor	r11, r3, r1
	ldmib	r7, {r1, r9}
	mov	r8, r12
	eor	r1, r1, r11, ror #16
	str	r6, [sp, #64]                   @ 4-byte Spill
	eor	r1, r1, r3
	ldr	r3, [r7, #28]
	eor	r1, r1, r4
	ldr	r6, [r7, #16]
	eor	r4, r1, r2
	eor	r3, r3, r2, ror #16
	eor	r1, lr, r4
	str	r1, [sp, #120]                  @ 4-byte Spill
	and	r1, r1, lr
	eor	r3, r3, r5
	str	r1, [sp, #96]                   @ 4-byte Spill
	eor	r3, r3, r10
	ldr	r1, [sp, #112]                  @ 4-byte Reload
	eor	r12, r3, r4
	ldr	r7, [sp, #100]                  @ 4-byte Reload
	movw	lr, #61680
	movt	lr, #61680
	mov	r10, r8
	and	r4, r7, r1
	ldr	r1, [sp, #76]                   @ 4-byte Reload
	str	r12, [sp, #88]                  @ 4-byte Spill
	eor	r4, r1, r4
	ldr	r1, [sp, #104]                  @ 4-byte Reload
	eor	r4, r4, r1
	ldr	r1, [sp, #84]                   @ 4-byte Reload
	and	r5, lr, r4, ror #4
	and	r7, r8, r4, ror #12
	orr	r5, r7, r5
	eor	r4, r5, r4
	eor	r7, r9, r4, ror #16
	eor	r7, r7, r5
	eor	r8, r7, r11
	eor	r7, r6, r1, ror #16
	ldr	r1, [sp, #92]                   @ 4-byte Reload
	eor	r7, r7, r1
	ldr	r1, [sp, #68]                   @ 4-byte Reload
	eor	r7, r7, r2
	eor	r0, r0, r1
	and	r6, lr, r0, ror #4
	and	r1, r10, r0, ror #12
	orr	r1, r1, r6
	eor	r6, r1, r0
	eor	r10, r7, r6
	ldr	r7, [sp, #64]                   @ 4-byte Reload
	eor	r11, r10, r8
	str	r11, [sp, #80]                  @ 4-byte Spill
	eor	r7, r7, r6, ror #16
	eor	r0, r12, r11
	eor	r7, r7, r4
	str	r0, [sp, #112]                  @ 4-byte Spill
	eor	r2, r7, r2
	ldr	r7, [sp, #96]                   @ 4-byte Reload
	eor	r1, r2, r1
	eor	r1, r1, r0
	ldr	r0, [sp, #116]                  @ 4-byte Reload
	eor	r2, r1, r0
	eor	r0, r3, r10
	str	r2, [sp, #116]                  @ 4-byte Spill
	eor	r9, r2, r0
	mov	r2, r0
	str	r0, [sp, #64]                   @ 4-byte Spill
	ldr	r0, [sp, #72]                   @ 4-byte Reload
	eor	r1, r1, r8
	str	r1, [sp, #100]                  @ 4-byte Spill
	eor	lr, r9, r0
	eor	r0, r1, r0
	eor	r6, lr, r7
	and	r5, lr, r12
	eor	r6, r6, r5
	eor	r1, r9, r0
	eor	r12, r6, r12
	str	r1, [sp, #72]                   @ 4-byte Spill
	and	r1, r1, r11
	and	r6, r9, r2
	eor	r11, r1, r6
	ldr	r1, [sp, #108]                  @ 4-byte Reload
	eor	r7, r12, r11
	ldr	r12, [sp, #60]                  @ 4-byte Reload
	str	r0, [sp, #104]                  @ 4-byte Spill
	eor	r4, r9, r1
	eor	r0, r12, r3
	str	r4, [sp, #96]                   @ 4-byte Spill
	and	r4, r4, r0
	str	r0, [sp, #84]                   @ 4-byte Spill
	eor	r4, lr, r4
	str	lr, [sp, #52]                   @ 4-byte Spill
	eor	r0, r4, r5
	eor	r5, r3, r8
	ldr	r8, [sp, #104]                  @ 4-byte Reload
	eor	r0, r0, r3
	str	r5, [sp, #76]                   @ 4-byte Spill
	and	r3, r8, r5
	eor	lr, r3, r6
	ldr	r6, [sp, #100]                  @ 4-byte Reload
	eor	r4, r0, lr
	eor	r0, r4, r7
	str	r0, [sp, #68]                   @ 4-byte Spill
	ldr	r0, [sp, #112]                  @ 4-byte Reload
	and	r3, r6, r0
	ldr	r0, [sp, #120]                  @ 4-byte Reload
	eor	r2, r0, r5
	eor	r0, r6, r1
	str	r0, [sp, #40]                   @ 4-byte Spill
	and	r6, r0, r2
	ldr	r0, [sp, #116]                  @ 4-byte Reload
	str	r2, [sp, #56]                   @ 4-byte Spill
	mov	r2, r12
	eor	r6, r0, r6
	eor	r0, r12, r10
	str	r0, [sp, #92]                   @ 4-byte Spill
	and	r0, r0, r1
	eor	r0, r0, r5
	eor	r6, r6, r3
	eor	r0, r0, r8
	eor	r6, r6, r11
	eor	r0, r0, r3
	and	r11, r7, r6
	eor	r3, r0, lr
	ldr	r1, [sp, #68]                   @ 4-byte Reload
	eor	r0, r11, r3
	and	r0, r0, r1
	eor	r1, r0, r4
	eor	r0, r0, r11
	and	r5, r0, r4
	str	r1, [sp, #116]                  @ 4-byte Spill
	eor	r12, r5, r7
	mov	r0, r1
	eor	lr, r12, r1
	eor	r1, r6, r3
	eor	r4, r11, r4
	and	r6, r4, r1
	eor	r10, r6, r3
	eor	r3, r5, r4
	and	r3, r3, r10
	eor	r4, r10, r0
	eor	r3, r3, r1
	ldr	r0, [sp, #72]                   @ 4-byte Reload
	eor	r6, r3, lr
	and	r5, r3, r2
	eor	r8, r6, r4
	ldr	r2, [sp, #52]                   @ 4-byte Reload
	and	r1, r8, r0
	eor	r0, r3, r10
	str	r0, [sp, #48]                   @ 4-byte Spill
	and	r0, r0, r2
	eor	r7, r0, r5
	str	r0, [sp, #72]                   @ 4-byte Spill
	eor	r0, r7, r1
	and	r1, r4, r9
	str	r3, [sp, #68]                   @ 4-byte Spill
	eor	r3, r0, r1
	str	r0, [sp, #44]                   @ 4-byte Spill
	movw	r5, #771
	ldr	r0, [sp, #40]                   @ 4-byte Reload
	movt	r5, #771
	and	r2, lr, r0
	ldr	r0, [sp, #100]                  @ 4-byte Reload
	and	r9, r12, r0
	ldr	r0, [sp, #80]                   @ 4-byte Reload
	eor	r2, r2, r9
	eor	r2, r2, r7
	and	r7, r8, r0
	ldr	r0, [sp, #64]                   @ 4-byte Reload
	and	r4, r4, r0
	ldr	r0, [sp, #56]                   @ 4-byte Reload
	eor	r1, r7, r4
	str	r1, [sp, #52]                   @ 4-byte Spill
	and	r0, lr, r0
	movw	lr, #64764
	eor	r1, r1, r0
	ldr	r0, [sp, #112]                  @ 4-byte Reload
	movt	lr, #64764
	str	r1, [sp, #60]                   @ 4-byte Spill
	and	r0, r12, r0
	eor	r0, r1, r0
	eor	r8, r2, r0
	eor	r0, r0, r3
	eor	r2, r8, r3
	str	r8, [sp, #64]                   @ 4-byte Spill
	and	r12, lr, r2, ror #6
	and	r7, r5, r2, ror #14
	orr	r7, r7, r12
	str	r7, [sp, #112]                  @ 4-byte Spill
	eor	r1, r7, r2
	and	r2, lr, r0, ror #6
	and	r7, r5, r0, ror #14
	mov	lr, r5
	orr	r2, r7, r2
	movw	r7, #3855
	eor	r11, r2, r0
	movw	r0, #61680
	movt	r0, #61680
	movt	r7, #3855
	and	r0, r0, r11, ror #12
	and	r7, r7, r11, ror #20
	orr	r0, r7, r0
	ldr	r7, [sp, #16]                   @ 4-byte Reload
	ldr	r5, [sp, #28]                   @ 4-byte Reload
	str	r1, [sp, #80]                   @ 4-byte Spill
	add	r12, r5, r7, lsl #5
	ldr	r7, [r12, #-4]
	eor	r0, r7, r0
	eor	r0, r0, r2
	ldr	r2, [sp, #108]                  @ 4-byte Reload
	eor	r0, r0, r1
	ldr	r1, [sp, #116]                  @ 4-byte Reload
	str	r0, [sp, #100]                  @ 4-byte Spill
	ldr	r0, [sp, #104]                  @ 4-byte Reload
	and	r2, r1, r2
	eor	r7, r9, r2
	ldr	r1, [sp, #48]                   @ 4-byte Reload
	and	r0, r6, r0
	movw	r9, #64764
	eor	r2, r0, r7
	ldr	r0, [sp, #88]                   @ 4-byte Reload
	movt	r9, #64764
	and	r0, r1, r0
	str	r0, [sp, #56]                   @ 4-byte Spill
	eor	r2, r2, r0
	ldr	r0, [sp, #44]                   @ 4-byte Reload
	ldr	r1, [sp, #76]                   @ 4-byte Reload
	eor	r0, r2, r0
	ldr	r2, [sp, #84]                   @ 4-byte Reload
	and	r2, r10, r2
	eor	r5, r0, r2
	and	r2, r6, r1
	eor	r2, r2, r4
	eor	r1, r2, r3
	eor	r1, r1, r5
	and	r2, r9, r1, ror #6
	and	r3, lr, r1, ror #14
	orr	r3, r3, r2
	movw	r2, #61680
	eor	r6, r3, r1
	movt	r2, #61680
	str	r6, [sp, #88]                   @ 4-byte Spill
	and	r1, r2, r6, ror #12
	movw	r2, #3855
	movt	r2, #3855
	and	r4, r2, r6, ror #20
	orr	r1, r4, r1
	ldr	r4, [r12, #-12]
	eor	r1, r4, r1
	and	r4, lr, r8, ror #14
	eor	r1, r1, r3
	and	r3, r9, r8, ror #6
	orr	r2, r4, r3
	mov	r9, lr
	eor	lr, r2, r8
	str	r2, [sp, #104]                  @ 4-byte Spill
	eor	r1, r1, lr
	str	r1, [sp, #108]                  @ 4-byte Spill
	ldr	r1, [sp, #96]                   @ 4-byte Reload
	ldr	r2, [sp, #72]                   @ 4-byte Reload
	and	r1, r10, r1
	ldr	r8, [r12, #-24]
	eor	r1, r7, r1
	eor	r3, r1, r2
	ldr	r1, [sp, #120]                  @ 4-byte Reload
	ldr	r2, [sp, #68]                   @ 4-byte Reload
	str	r3, [sp, #96]                   @ 4-byte Spill
	and	r4, r2, r1
	ldr	r1, [sp, #52]                   @ 4-byte Reload
	eor	r4, r3, r4
	ldr	r2, [sp, #116]                  @ 4-byte Reload
	eor	r6, r4, r1
	movw	r1, #64764
	eor	r0, r6, r0
	movt	r1, #64764
	movw	r3, #3855
	and	r4, r1, r0, ror #6
	and	r7, r9, r0, ror #14
	orr	r7, r7, r4
	ldr	r4, [sp, #92]                   @ 4-byte Reload
	movt	r3, #3855
	eor	r0, r7, r0
	and	r4, r2, r4
	ldr	r2, [sp, #60]                   @ 4-byte Reload
	eor	r4, r2, r4
	movw	r2, #61680
	eor	r4, r4, r5
	movt	r2, #61680
	and	r5, r1, r4, ror #6
	and	r1, r9, r4, ror #14
	orr	r1, r1, r5
	eor	r9, r1, r4
	and	r4, r2, r9, ror #12
	and	r5, r3, r9, ror #20
	orr	r10, r5, r4
	ldr	r2, [r12, #-32]
	eor	r5, r8, r10
	str	r2, [sp, #116]                  @ 4-byte Spill
	eor	r1, r5, r1
	ldr	r2, [r12, #-28]
	eor	r8, r1, r0
	movw	r1, #61680
	movt	r1, #61680
	ldr	r4, [r12, #-20]
	and	r1, r1, r0, ror #12
	and	r0, r3, r0, ror #20
	orr	r0, r0, r1
	ldr	r1, [sp, #56]                   @ 4-byte Reload
	eor	r0, r2, r0
	movw	r2, #64764
	str	r4, [sp, #120]                  @ 4-byte Spill
	eor	r1, r6, r1
	ldr	r4, [sp, #80]                   @ 4-byte Reload
	mov	r10, r3
	movt	r2, #64764
	movw	r3, #771
	eor	r0, r0, r7
	movw	r7, #61680
	movt	r3, #771
	and	r5, r3, r1, ror #14
	and	r2, r2, r1, ror #6
	movt	r7, #61680
	orr	r2, r5, r2
	and	r5, r7, r4, ror #12
	and	r6, r10, r4, ror #20
	ldr	r4, [sp, #112]                  @ 4-byte Reload
	orr	r5, r6, r5
	ldr	r6, [r12, #-8]
	eor	r1, r2, r1
	ldr	r3, [sp, #88]                   @ 4-byte Reload
	eor	r5, r6, r5
	eor	r0, r0, r1
	eor	r5, r5, r4
	mov	r6, r7
	eor	r4, r5, r3
	and	r5, r7, r1, ror #12
	and	r1, r10, r1, ror #20
	ldr	r3, [sp, #116]                  @ 4-byte Reload
	orr	r1, r1, r5
	mov	r7, r10
	eor	r1, r3, r1
	ldr	r3, [sp, #96]                   @ 4-byte Reload
	eor	r1, r1, r2
	and	r2, r7, lr, ror #20
	eor	r5, r1, r11
	and	r1, r6, lr, ror #12
	orr	r1, r2, r1
	ldr	r2, [r12, #-16]
	mov	r10, r6
	movw	r6, #771
	eor	r1, r2, r1
	ldr	r2, [sp, #104]                  @ 4-byte Reload
	movt	r6, #771
	eor	r0, r0, r11
	eor	r1, r1, r2
	ldr	r2, [sp, #64]                   @ 4-byte Reload
	eor	r1, r1, r11
	mov	r12, r5
	eor	r2, r2, r3
	movw	r3, #64764
	movt	r3, #64764
	and	r3, r3, r2, ror #6
	and	r6, r6, r2, ror #14
	orr	r3, r6, r3
	eor	r2, r3, r2
	eor	lr, r1, r2
	and	r1, r10, r2, ror #12
	and	r2, r7, r2, ror #20
	orr	r1, r2, r1
	ldr	r2, [sp, #120]                  @ 4-byte Reload
	ldr	r10, [sp, #100]                 @ 4-byte Reload
	eor	r1, r2, r1
	ldr	r2, [sp, #16]                   @ 4-byte Reload
	eor	r1, r1, r9
	eor	r1, r1, r11
	eor	r1, r1, r3
	lsl	r2, r2, #5
	b	.Laes_BB6_7
.Laes_BB6_6:                                @ %else.12.i
	ldr	r7, [sp, #112]                  @ 4-byte Reload
	movw	r3, #3840
	movt	r3, #3840
	ldr	r2, [sp, #100]                  @ 4-byte Reload
	eor	r0, r7, r7, lsr #4
	and	r0, r0, r3
	orr	r0, r0, r0, lsl #4
	eor	r10, r0, r7
	eor	r0, r11, r11, lsr #4
	and	r0, r0, r3
	ldr	r7, [sp, #104]                  @ 4-byte Reload
	orr	r0, r0, r0, lsl #4
	eor	r4, r0, r11
	eor	r0, r2, r2, lsr #4
	and	r0, r0, r3
	orr	r0, r0, r0, lsl #4
	eor	r0, r0, r2
	str	r0, [sp, #108]                  @ 4-byte Spill
	eor	r0, r6, r6, lsr #4
	ldr	r2, [sp, #120]                  @ 4-byte Reload
	and	r0, r0, r3
	orr	r0, r0, r0, lsl #4
	eor	lr, r0, r6
	eor	r0, r1, r1, lsr #4
	and	r0, r0, r3
	orr	r0, r0, r0, lsl #4
	eor	r1, r0, r1
	eor	r0, r2, r2, lsr #4
	and	r0, r0, r3
	orr	r0, r0, r0, lsl #4
	eor	r8, r0, r2
	ldr	r2, [sp, #92]                   @ 4-byte Reload
	eor	r0, r2, r2, lsr #4
	and	r0, r0, r3
	orr	r0, r0, r0, lsl #4
	eor	r0, r0, r2
	eor	r2, r7, r7, lsr #4
	and	r2, r2, r3
	orr	r2, r2, r2, lsl #4
	eor	r12, r2, r7
	lsl	r2, r5, #5
.Laes_BB6_7:                                @ %"aes_soft::soft::ciphers::planes::EncryptPlaneCipher::process_planes::<#42add9d049d0c5fd>.exit"
	eor	r6, lr, r8
	mov	r3, r10
	eor	r10, r10, r0
	str	r2, [sp, #112]                  @ 4-byte Spill
	eor	r2, r10, r6
	str	r2, [sp, #120]                  @ 4-byte Spill
	eor	r1, r2, r1
	ldr	r2, [sp, #108]                  @ 4-byte Reload
	eor	r5, r1, r8
	eor	r1, r1, r4
	eor	r7, r4, r2
	eor	r4, r3, lr
	str	r5, [sp, #116]                  @ 4-byte Spill
	eor	r5, r5, r7
	eor	r2, r1, r4
	eor	r11, r7, r12
	str	lr, [sp, #72]                   @ 4-byte Spill
	eor	lr, r11, r0
	str	r1, [sp, #80]                   @ 4-byte Spill
	eor	r1, r2, r5
	str	r1, [sp, #92]                   @ 4-byte Spill
	and	r1, r1, r6
	str	r6, [sp, #76]                   @ 4-byte Spill
	and	r6, r2, r4
	str	r4, [sp, #68]                   @ 4-byte Spill
	eor	r4, r2, r7
	and	r0, lr, r11
	eor	r9, r1, r6
	eor	r0, r4, r0
	mov	r1, r10
	str	r10, [sp, #84]                  @ 4-byte Spill
	and	r10, r4, r10
	eor	r0, r0, r10
	str	r8, [sp, #104]                  @ 4-byte Spill
	eor	r0, r0, r1
	str	r2, [sp, #108]                  @ 4-byte Spill
	eor	r1, r0, r9
	ldr	r0, [sp, #104]                  @ 4-byte Reload
	mov	r7, r5
	str	r5, [sp, #40]                   @ 4-byte Spill
	eor	r0, r3, r0
	str	r4, [sp, #64]                   @ 4-byte Spill
	and	r8, r5, r0
	eor	r5, r2, r12
	eor	r2, r11, r3
	str	r2, [sp, #100]                  @ 4-byte Spill
	and	r2, r5, r2
	str	r5, [sp, #60]                   @ 4-byte Spill
	eor	r2, r4, r2
	ldr	r4, [sp, #116]                  @ 4-byte Reload
	eor	r2, r2, r10
	eor	r5, lr, r0
	eor	r2, r2, r3
	ldr	r3, [sp, #120]                  @ 4-byte Reload
	str	r5, [sp, #88]                   @ 4-byte Spill
	eor	r6, r8, r6
	and	r10, r4, r3
	eor	r3, r4, r12
	str	r3, [sp, #96]                   @ 4-byte Spill
	and	r5, r3, r5
	ldr	r3, [sp, #80]                   @ 4-byte Reload
	eor	r2, r2, r6
	eor	r8, r2, r1
	str	r0, [sp, #104]                  @ 4-byte Spill
	eor	r5, r3, r5
	ldr	r3, [sp, #72]                   @ 4-byte Reload
	eor	r5, r5, r10
	str	lr, [sp, #48]                   @ 4-byte Spill
	eor	r3, r11, r3
	eor	r9, r5, r9
	and	r4, r3, r12
	and	r5, r1, r9
	eor	r4, r4, r0
	str	r3, [sp, #80]                   @ 4-byte Spill
	eor	r4, r4, r7
	eor	r4, r4, r10
	eor	r10, r4, r6
	eor	r4, r5, r10
	and	r4, r4, r8
	eor	r8, r4, r2
	eor	r4, r4, r5
	and	r0, r4, r2
	eor	r5, r5, r2
	eor	r6, r0, r1
	eor	r1, r9, r10
	and	r2, r5, r1
	eor	r0, r0, r5
	eor	r2, r2, r10
	eor	r3, r6, r8
	and	r0, r0, r2
	str	r3, [sp, #44]                   @ 4-byte Spill
	eor	r1, r0, r1
	ldr	r0, [sp, #76]                   @ 4-byte Reload
	eor	lr, r1, r3
	eor	r3, r2, r8
	ldr	r4, [sp, #68]                   @ 4-byte Reload
	eor	r5, lr, r3
	str	r3, [sp, #72]                   @ 4-byte Spill
	and	r0, r5, r0
	and	r3, r3, r4
	str	r3, [sp, #76]                   @ 4-byte Spill
	eor	r10, r0, r3
	ldr	r0, [sp, #116]                  @ 4-byte Reload
	ldr	r3, [sp, #60]                   @ 4-byte Reload
	and	r12, r8, r12
	and	r0, r6, r0
	str	r6, [sp, #56]                   @ 4-byte Spill
	str	r0, [sp, #68]                   @ 4-byte Spill
	eor	r0, r0, r12
	and	r3, r2, r3
	ldr	r6, [sp, #48]                   @ 4-byte Reload
	ldr	r4, [sp, #64]                   @ 4-byte Reload
	eor	r12, r0, r3
	eor	r3, r1, r2
	and	r9, r1, r6
	and	r7, r3, r4
	and	r1, r1, r11
	ldr	r6, [sp, #92]                   @ 4-byte Reload
	eor	r4, r12, r7
	eor	r1, r7, r1
	ldr	r7, [sp, #40]                   @ 4-byte Reload
	and	r5, r5, r6
	ldr	r12, [sp, #28]                  @ 4-byte Reload
	eor	r6, r1, r5
	and	r5, lr, r7
	eor	r0, r5, r0
	ldr	r5, [sp, #112]                  @ 4-byte Reload
	ldr	r7, [sp, #84]                   @ 4-byte Reload
	str	r4, [sp, #64]                   @ 4-byte Spill
	eor	r4, r4, r9
	ldr	r5, [r12, r5]!
	and	r3, r3, r7
	eor	r0, r0, r3
	eor	r4, r4, r10
	ldmib	r12, {r7, r9}
	eor	r3, r3, r5
	eor	r0, r0, r6
	eor	r7, r0, r7
	eor	r3, r3, r4
	eor	r7, r7, r4
	movw	r4, #21845
	str	r3, [sp, #116]                  @ 4-byte Spill
	eor	r3, r7, r3, lsr #1
	movt	r4, #21845
	and	r3, r3, r4
	eor	r11, r3, r7
	str	r3, [sp, #112]                  @ 4-byte Spill
	ldr	r3, [sp, #100]                  @ 4-byte Reload
	ldr	r5, [sp, #44]                   @ 4-byte Reload
	and	r2, r2, r3
	str	lr, [sp, #52]                   @ 4-byte Spill
	eor	r4, r0, r2
	ldr	r0, [sp, #88]                   @ 4-byte Reload
	ldr	r2, [sp, #80]                   @ 4-byte Reload
	mov	lr, r6
	and	r0, r5, r0
	ldr	r6, [r12, #12]
	and	r2, r8, r2
	eor	r0, r10, r0
	eor	r2, r2, r9
	str	r6, [sp, #60]                   @ 4-byte Spill
	eor	r2, r2, r0
	ldr	r6, [r12, #16]
	eor	r3, r2, r4
	ldr	r2, [sp, #96]                   @ 4-byte Reload
	str	r6, [sp, #92]                   @ 4-byte Spill
	and	r2, r5, r2
	ldr	r5, [sp, #68]                   @ 4-byte Reload
	str	r11, [sp, #84]                  @ 4-byte Spill
	eor	r2, r2, r5
	ldr	r5, [sp, #56]                   @ 4-byte Reload
	eor	r1, r2, r1
	ldr	r2, [sp, #120]                  @ 4-byte Reload
	str	r3, [sp, #100]                  @ 4-byte Spill
	and	r2, r5, r2
	movw	r5, #21845
	eor	r7, r0, r2
	ldr	r0, [sp, #64]                   @ 4-byte Reload
	eor	r6, r1, r7
	ldr	r1, [sp, #60]                   @ 4-byte Reload
	movt	r5, #21845
	eor	r0, r0, r1
	eor	r0, r0, r6
	eor	r1, r0, r3, lsr #1
	ldr	r3, [sp, #52]                   @ 4-byte Reload
	and	r9, r1, r5
	eor	r0, r9, r0
	eor	r1, r0, r11, lsr #2
	movw	r11, #13107
	movt	r11, #13107
	and	r2, r1, r11
	eor	r8, r2, r0
	ldr	r0, [sp, #108]                  @ 4-byte Reload
	ldr	r1, [sp, #72]                   @ 4-byte Reload
	and	r1, r1, r0
	eor	r0, lr, r1
	ldr	r1, [sp, #104]                  @ 4-byte Reload
	and	r1, r3, r1
	ldr	r3, [r12, #20]
	eor	r1, r3, r1
	ldr	r3, [sp, #76]                   @ 4-byte Reload
	eor	r1, r1, r3
	eor	r1, r1, r0
	eor	r3, r1, r4
	ldr	r1, [sp, #92]                   @ 4-byte Reload
	eor	lr, r6, r1
	mov	r1, r5
	eor	r4, r3, lr, lsr #1
	and	r10, r4, r5
	ldr	r5, [r12, #24]
	eor	r3, r10, r3
	ldr	r4, [sp, #4]                    @ 4-byte Reload
	eor	r5, r0, r5
	eor	r6, r5, r6
	ldr	r5, [r12, #28]
	movw	r12, #3855
	eor	r0, r0, r5
	movt	r12, #3855
	eor	r0, r0, r7
	eor	r7, r0, r6, lsr #1
	and	r7, r7, r1
	eor	r0, r7, r0
	eor	r5, r0, r3, lsr #2
	and	r5, r5, r11
	eor	r0, r5, r0
	eor	r1, r0, r8, lsr #4
	and	r1, r1, r12
	eor	r0, r1, r0
	str	r0, [r4, #28]
	ldr	r0, [sp, #84]                   @ 4-byte Reload
	eor	r1, r8, r1, lsl #4
	str	r1, [r4, #20]
	eor	r1, lr, r10, lsl #1
	eor	r0, r0, r2, lsl #2
	eor	r2, r3, r5, lsl #2
	eor	r3, r2, r0, lsr #4
	and	r3, r3, r12
	eor	r2, r3, r2
	str	r2, [r4, #24]
	eor	r0, r0, r3, lsl #4
	str	r0, [r4, #16]
	eor	r0, r6, r7, lsl #1
	ldr	r7, [sp, #112]                  @ 4-byte Reload
	ldr	r3, [sp, #116]                  @ 4-byte Reload
	eor	r2, r0, r1, lsr #2
	and	r2, r2, r11
	eor	r3, r3, r7, lsl #1
	ldr	r7, [sp, #100]                  @ 4-byte Reload
	eor	r0, r2, r0
	eor	r1, r1, r2, lsl #2
	eor	r7, r7, r9, lsl #1
	eor	r6, r7, r3, lsr #2
	and	r6, r6, r11
	eor	r7, r6, r7
	eor	r5, r0, r7, lsr #4
	and	r5, r5, r12
	eor	r0, r5, r0
	str	r0, [r4, #12]
	eor	r0, r3, r6, lsl #2
	eor	r2, r1, r0, lsr #4
	and	r2, r2, r12
	eor	r1, r2, r1
	str	r1, [r4, #8]
	eor	r1, r7, r5, lsl #4
	eor	r0, r0, r2, lsl #4
	str	r1, [r4, #4]
	str	r0, [r4]
	add	sp, sp, #124
	pop	{r4, r5, r6, r7, r8, r9, r10, r11, pc}
.Laes_func_end6:
	.size	aes.aes_soft.soft.ciphers.planes.process_outlined.1, .Laes_func_end6-aes.aes_soft.soft.ciphers.planes.process_outlined.1
	.cantunwind
	.fnend
                                        @ -- End function
	.section	.text.aes.aes_cipher.zeroize.stack.wipe_stack.1024,"ax",%progbits
	.p2align	2                               @ -- Begin function aes_cipher::zeroize::stack::wipe_stack::<=1024>
	.type	aes.aes_cipher.zeroize.stack.wipe_stack.1024,%function
	.code	32
aes.aes_cipher.zeroize.stack.wipe_stack.1024: @ @aes.aes_cipher.zeroize.stack.wipe_stack.1024
	.fnstart
@ %bb.0:                                @ %start
	.save	{r4, r5, r6, r7, r8, lr}
	push	{r4, r5, r6, r7, r8, lr}
	.pad	#8
	sub	sp, sp, #8
	.pad	#1024
	sub	sp, sp, #1024
	add	r4, sp, #8
	mov	r1, #0
	mov	r2, #1024
	mov	r7, #0
	mov	r0, r4
	bl	memset
	str	r7, [sp, #4]
	str	r7, [sp]
	@APP
	@NO_APP
	ldrd	r0, r1, [sp]
	@APP
	@NO_APP
	subs	r2, r0, #1024
	sbcs	r2, r1, #0
	bhs	.Laes_BB7_2
@ %bb.1:                                @ %then.1
	ldrb	r6, [r4, r0]
	@APP
	@NO_APP
	ldrd	r0, r1, [sp]
	strd	r6, r7, [sp]
	@APP
	@NO_APP
.Laes_BB7_2:                                @ %common.ret
	add	sp, sp, #8
	add	sp, sp, #1024
	pop	{r4, r5, r6, r7, r8, pc}
.Laes_func_end7:
	.size	aes.aes_cipher.zeroize.stack.wipe_stack.1024, .Laes_func_end7-aes.aes_cipher.zeroize.stack.wipe_stack.1024
	.cantunwind
	.fnend
                                        @ -- End function
	.section	.text.aes.aes_narrow.borrowed_words.call_to_encrypt,"ax",%progbits
	.p2align	2                               @ -- Begin function aes_narrow::borrowed_words::call_to_encrypt::<#b6a72634b88802f3>
	.type	aes.aes_narrow.borrowed_words.call_to_encrypt,%function
	.code	32
aes.aes_narrow.borrowed_words.call_to_encrypt: @ @aes.aes_narrow.borrowed_words.call_to_encrypt
	.fnstart
@ %bb.0:                                @ %start
	.save	{r4, r5, r6, r7, r8, r9, r10, r11, lr}
	push	{r4, r5, r6, r7, r8, r9, r10, r11, lr}
	.pad	#428
	sub	sp, sp, #428
	str	r0, [sp, #64]                   @ 4-byte Spill
	mov	r6, #0
	str	r0, [sp, #152]
	mov	r10, r3
	ldr	r0, [sp, #464]
	str	r3, [sp, #164]
	add	r9, r0, #8
	str	r2, [sp, #68]                   @ 4-byte Spill
	ldrd	r4, r5, [r0, #24]
	ldm	r9, {r1, r8, r9}
	ldr	r11, [r0]
	tst	r1, #15
	mov	r7, r1
	str	r2, [sp, #160]
	str	r6, [sp, #156]
	beq	.Laes_BB8_2
@ %bb.1:                                @ %then.1.i.i
	mov	r0, #0
	mov	r1, r11
	str	r0, [sp]
	mov	r2, r7
	stmib	sp, {r0, r9}
	add	r0, sp, #152
	mov	r3, r8
	strd	r4, r5, [sp, #16]
	bl	aes.aes_ctr.add_in_batches.add_next
	mov	r6, r0
	b	.Laes_BB8_3
.Laes_BB8_2:
	mov	r1, #0
.Laes_BB8_3:                                @ %join.3.i.i
	subs	r0, r4, r6
	mov	r2, r1
	sbc	r1, r5, r1
	subs	r0, r0, #32
	sbcs	r0, r1, #0
	blo	.Laes_BB8_9
@ %bb.4:                                @ %join.11.lr.ph.i.i
	add	r0, sp, #168
	str	r10, [sp, #32]                  @ 4-byte Spill
	mov	r10, r2
	add	r0, r0, #32
	str	r0, [sp, #36]                   @ 4-byte Spill
	str	r4, [sp, #60]                   @ 4-byte Spill
	str	r5, [sp, #56]                   @ 4-byte Spill
	str	r11, [sp, #52]                  @ 4-byte Spill
	str	r7, [sp, #48]                   @ 4-byte Spill
	str	r8, [sp, #44]                   @ 4-byte Spill
	str	r9, [sp, #40]                   @ 4-byte Spill
.Laes_BB8_5:                                @ %join.11.i.i
                                        @ =>This Inner Loop Header: Depth=1
	ldr	r0, [sp, #36]                   @ 4-byte Reload
	mov	r1, #0
	mov	r2, #224
	str	r6, [sp, #148]                  @ 4-byte Spill
	bl	memset
	adds	r0, r6, r7
	ldr	r5, [r11, #12]
	adc	r1, r10, r8
	ldr	r3, [r11, #4]
	lsr	r0, r0, #4
	ldr	r4, [r11, #8]
	orr	r0, r0, r1, lsl #28
	rev	r5, r5
	ldr	r2, [r11]
	adds	r5, r0, r5
	lsr	r0, r1, #4
	rev	r1, r3
	rev	r3, r4
	rev	r2, r2
	adcs	r3, r0, r3
	lsr	r4, r5, #8
	adcs	r1, r1, #0
	strb	r4, [sp, #182]
	adc	r0, r2, #0
	adds	r2, r5, #1
	lsr	r4, r5, #16
	strb	r5, [sp, #183]
	lsr	r5, r5, #24
	strb	r2, [sp, #199]
	strb	r5, [sp, #180]
	lsr	r5, r2, #8
	strb	r5, [sp, #198]
	lsr	r5, r2, #16
	lsr	r2, r2, #24
	strb	r5, [sp, #197]
	strb	r2, [sp, #196]
	adcs	r2, r3, #0
	lsr	r5, r3, #8
	strb	r3, [sp, #179]
	strb	r5, [sp, #178]
	lsr	r5, r3, #16
	lsr	r3, r3, #24
	strb	r2, [sp, #195]
	strb	r3, [sp, #176]
	lsr	r3, r2, #8
	strb	r3, [sp, #194]
	lsr	r3, r2, #16
	lsr	r2, r2, #24
	strb	r3, [sp, #193]
	strb	r2, [sp, #192]
	adcs	r2, r1, #0
	lsr	r3, r1, #8
	strb	r1, [sp, #175]
	strb	r3, [sp, #174]
	lsr	r3, r1, #16
	lsr	r1, r1, #24
	strb	r0, [sp, #171]
	strb	r1, [sp, #172]
	lsr	r1, r2, #8
	strb	r1, [sp, #190]
	lsr	r1, r2, #16
	strb	r1, [sp, #189]
	lsr	r1, r2, #24
	strb	r1, [sp, #188]
	lsr	r1, r0, #8
	strb	r1, [sp, #170]
	lsr	r1, r0, #16
	strb	r1, [sp, #169]
	lsr	r1, r0, #24
	adc	r0, r0, #0
	strb	r1, [sp, #168]
	strb	r0, [sp, #187]
	mov	r8, #2
	lsr	r1, r0, #8
	str	r8, [sp, #8]
	strb	r1, [sp, #186]
	lsr	r1, r0, #16
	lsr	r0, r0, #24
	strb	r2, [sp, #191]
	strb	r0, [sp, #184]
	mov	r0, #0
	str	r0, [sp, #12]
	add	r0, sp, #168
	strb	r3, [sp, #173]
	str	r0, [sp]
	ldr	r0, [sp, #64]                   @ 4-byte Reload
	ldr	r2, [sp, #68]                   @ 4-byte Reload
	ldr	r3, [sp, #32]                   @ 4-byte Reload
	str	r10, [sp, #144]                 @ 4-byte Spill
	strb	r4, [sp, #181]
	strb	r5, [sp, #177]
	strb	r1, [sp, #185]
	bl	aes.aes_soft.soft.blocks.filled_up.process_filled_up.1
	mov	r0, r9
	ldrb	r4, [sp, #168]
	ldrb	r1, [r0, r6]!
	ldrb	r3, [sp, #181]
	ldrb	r2, [r0, #1]
	eor	r12, r4, r1
	str	r2, [sp, #140]                  @ 4-byte Spill
	ldrb	r2, [r0, #2]
	str	r2, [sp, #136]                  @ 4-byte Spill
	ldrb	r2, [r0, #3]
	str	r2, [sp, #132]                  @ 4-byte Spill
	ldrb	r2, [r0, #4]
	str	r2, [sp, #128]                  @ 4-byte Spill
	ldrb	r2, [r0, #5]
	str	r2, [sp, #124]                  @ 4-byte Spill
	ldrb	r2, [r0, #6]
	str	r2, [sp, #120]                  @ 4-byte Spill
	ldrb	r2, [r0, #7]
	str	r2, [sp, #112]                  @ 4-byte Spill
	ldrb	r2, [r0, #8]
	str	r2, [sp, #104]                  @ 4-byte Spill
	ldrb	r2, [r0, #9]
	str	r2, [sp, #96]                   @ 4-byte Spill
	ldrb	r2, [r0, #10]
	str	r2, [sp, #88]                   @ 4-byte Spill
	ldrb	r2, [r0, #11]
	str	r2, [sp, #80]                   @ 4-byte Spill
	ldrb	r2, [r0, #12]
	ldrb	r1, [sp, #172]
	str	r2, [sp, #72]                   @ 4-byte Spill
	ldrb	r2, [sp, #169]
	str	r1, [sp, #92]                   @ 4-byte Spill
	ldrb	r1, [sp, #173]
	str	r2, [sp, #116]                  @ 4-byte Spill
	ldrb	r2, [sp, #170]
	str	r1, [sp, #84]                   @ 4-byte Spill
	ldrb	r1, [sp, #174]
	str	r2, [sp, #108]                  @ 4-byte Spill
	ldrb	r2, [sp, #171]
	str	r1, [sp, #76]                   @ 4-byte Spill
	ldrb	r6, [r0, #15]
	ldrb	r1, [sp, #183]
	str	r2, [sp, #100]                  @ 4-byte Spill
	ldrb	lr, [r0, #14]
	eor	r1, r1, r6
	ldrb	r2, [sp, #182]
	ldrb	r5, [r0, #13]
	strb	r1, [r0, #15]
	eor	r1, r2, lr
	strb	r1, [r0, #14]
	eor	r1, r3, r5
	strb	r1, [r0, #13]
	ldrb	r7, [sp, #180]
	ldr	r1, [sp, #72]                   @ 4-byte Reload
	ldrb	r9, [sp, #179]
	eor	r1, r7, r1
	strb	r1, [r0, #12]
	ldr	r1, [sp, #80]                   @ 4-byte Reload
	ldrb	r10, [sp, #178]
	eor	r1, r9, r1
	strb	r1, [r0, #11]
	ldr	r1, [sp, #88]                   @ 4-byte Reload
	ldrb	r11, [sp, #177]
	eor	r1, r10, r1
	strb	r1, [r0, #10]
	ldr	r1, [sp, #96]                   @ 4-byte Reload
	ldrb	r4, [sp, #176]
	eor	r1, r11, r1
	strb	r1, [r0, #9]
	ldr	r1, [sp, #104]                  @ 4-byte Reload
	ldrb	r8, [sp, #175]
	eor	r1, r4, r1
	strb	r1, [r0, #8]
	ldr	r1, [sp, #112]                  @ 4-byte Reload
	ldr	r2, [sp, #76]                   @ 4-byte Reload
	eor	r1, r8, r1
	strb	r1, [r0, #7]
	ldr	r1, [sp, #120]                  @ 4-byte Reload
	ldrb	r4, [sp, #199]
	eor	r1, r2, r1
	strb	r1, [r0, #6]
	ldr	r1, [sp, #124]                  @ 4-byte Reload
	ldr	r2, [sp, #84]                   @ 4-byte Reload
	ldrb	r7, [r0, #30]
	eor	r1, r2, r1
	strb	r1, [r0, #5]
	ldr	r1, [sp, #128]                  @ 4-byte Reload
	ldr	r2, [sp, #92]                   @ 4-byte Reload
	ldrb	r8, [r0, #29]
	eor	r1, r2, r1
	strb	r1, [r0, #4]
	ldr	r1, [sp, #132]                  @ 4-byte Reload
	ldr	r2, [sp, #100]                  @ 4-byte Reload
	ldrb	r11, [r0, #28]
	eor	r1, r2, r1
	strb	r1, [r0, #3]
	ldr	r1, [sp, #136]                  @ 4-byte Reload
	ldr	r2, [sp, #108]                  @ 4-byte Reload
	ldrb	r3, [sp, #196]
	eor	r1, r2, r1
	strb	r1, [r0, #2]
	ldr	r1, [sp, #140]                  @ 4-byte Reload
	ldr	r2, [sp, #116]                  @ 4-byte Reload
	strb	r12, [r0]
	eor	r1, r2, r1
	strb	r1, [r0, #1]
	ldrb	r1, [r0, #16]
	str	r1, [sp, #140]                  @ 4-byte Spill
	ldrb	r1, [r0, #17]
	str	r1, [sp, #136]                  @ 4-byte Spill
	ldrb	r1, [r0, #18]
	str	r1, [sp, #132]                  @ 4-byte Spill
	ldrb	r1, [r0, #19]
	str	r1, [sp, #128]                  @ 4-byte Spill
	ldrb	r1, [r0, #20]
	str	r1, [sp, #124]                  @ 4-byte Spill
	ldrb	r1, [r0, #21]
	str	r1, [sp, #120]                  @ 4-byte Spill
	ldrb	r1, [r0, #22]
	str	r1, [sp, #116]                  @ 4-byte Spill
	ldrb	r1, [r0, #23]
	str	r1, [sp, #108]                  @ 4-byte Spill
	ldrb	r1, [r0, #24]
	str	r1, [sp, #100]                  @ 4-byte Spill
	ldrb	r1, [r0, #25]
	str	r1, [sp, #92]                   @ 4-byte Spill
	ldrb	r1, [r0, #26]
	str	r1, [sp, #84]                   @ 4-byte Spill
	ldrb	r1, [r0, #27]
	str	r1, [sp, #76]                   @ 4-byte Spill
	ldrb	r1, [sp, #184]
	str	r1, [sp, #112]                  @ 4-byte Spill
	ldrb	r1, [sp, #185]
	str	r1, [sp, #104]                  @ 4-byte Spill
	ldrb	r1, [sp, #186]
	str	r1, [sp, #96]                   @ 4-byte Spill
	ldrb	r1, [sp, #187]
	str	r1, [sp, #88]                   @ 4-byte Spill
	ldrb	r1, [sp, #188]
	ldrb	r2, [r0, #31]
	str	r1, [sp, #80]                   @ 4-byte Spill
	ldrb	r1, [sp, #189]
	eor	r4, r4, r2
	str	r1, [sp, #72]                   @ 4-byte Spill
	ldrb	r1, [sp, #198]
	ldrb	r2, [sp, #197]
	eor	r1, r1, r7
	strb	r1, [r0, #30]
	eor	r1, r2, r8
	strb	r1, [r0, #29]
	eor	r1, r3, r11
	strb	r1, [r0, #28]
	ldrb	r12, [sp, #195]
	ldr	r1, [sp, #76]                   @ 4-byte Reload
	ldrb	lr, [sp, #194]
	eor	r1, r12, r1
	strb	r1, [r0, #27]
	ldr	r1, [sp, #84]                   @ 4-byte Reload
	ldrb	r5, [sp, #193]
	eor	r1, lr, r1
	strb	r1, [r0, #26]
	ldr	r1, [sp, #92]                   @ 4-byte Reload
	ldrb	r6, [sp, #192]
	eor	r1, r5, r1
	strb	r1, [r0, #25]
	ldr	r1, [sp, #100]                  @ 4-byte Reload
	ldrb	r9, [sp, #191]
	eor	r1, r6, r1
	strb	r1, [r0, #24]
	ldr	r1, [sp, #108]                  @ 4-byte Reload
	ldrb	r10, [sp, #190]
	eor	r1, r9, r1
	strb	r1, [r0, #23]
	ldr	r1, [sp, #116]                  @ 4-byte Reload
	ldr	r2, [sp, #72]                   @ 4-byte Reload
	eor	r1, r10, r1
	strb	r1, [r0, #22]
	ldr	r1, [sp, #120]                  @ 4-byte Reload
	ldr	r6, [sp, #148]                  @ 4-byte Reload
	eor	r1, r2, r1
	strb	r1, [r0, #21]
	ldr	r1, [sp, #124]                  @ 4-byte Reload
	adds	r6, r6, #32
	ldr	r2, [sp, #80]                   @ 4-byte Reload
	strb	r4, [r0, #31]
	eor	r1, r2, r1
	strb	r1, [r0, #20]
	ldr	r1, [sp, #128]                  @ 4-byte Reload
	ldr	r2, [sp, #88]                   @ 4-byte Reload
	ldr	r4, [sp, #60]                   @ 4-byte Reload
	eor	r1, r2, r1
	strb	r1, [r0, #19]
	ldr	r1, [sp, #132]                  @ 4-byte Reload
	ldr	r2, [sp, #96]                   @ 4-byte Reload
	ldr	r7, [sp, #48]                   @ 4-byte Reload
	eor	r1, r2, r1
	strb	r1, [r0, #18]
	ldr	r1, [sp, #136]                  @ 4-byte Reload
	ldr	r2, [sp, #104]                  @ 4-byte Reload
	ldr	r8, [sp, #44]                   @ 4-byte Reload
	eor	r1, r2, r1
	strb	r1, [r0, #17]
	ldr	r1, [sp, #140]                  @ 4-byte Reload
	ldr	r2, [sp, #112]                  @ 4-byte Reload
	ldr	r5, [sp, #56]                   @ 4-byte Reload
	eor	r1, r2, r1
	strb	r1, [r0, #16]
	ldr	r1, [sp, #144]                  @ 4-byte Reload
	ldr	r11, [sp, #52]                  @ 4-byte Reload
	adc	r1, r1, #0
	ldr	r9, [sp, #40]                   @ 4-byte Reload
	subs	r0, r4, r6
	mov	r10, r1
	sbc	r1, r5, r1
	rsbs	r0, r0, #31
	rscs	r0, r1, #0
	blo	.Laes_BB8_5
@ %bb.6:                                @ %loop.13.preheader.i.i
	subs	r0, r6, r4
	mov	r1, r10
	sbcs	r0, r10, r5
	bhs	.Laes_BB8_8
.Laes_BB8_7:                                @ %join.16.i.i
                                        @ =>This Inner Loop Header: Depth=1
	add	r0, sp, #152
	stmib	sp, {r1, r9}
	mov	r1, r11
	mov	r2, r7
	mov	r3, r8
	strd	r4, r5, [sp, #16]
	str	r6, [sp]
	bl	aes.aes_ctr.add_in_batches.add_next
	mov	r6, r0
	subs	r0, r0, r4
	sbcs	r0, r1, r5
	blo	.Laes_BB8_7
.Laes_BB8_8:                                @ %"aes_ctr::add_in_batches::AddStreamBlockCipherEncClosure::call::<#b3b189439790eae9>.exit"
	add	sp, sp, #428
	pop	{r4, r5, r6, r7, r8, r9, r10, r11, pc}
.Laes_BB8_9:
	mov	r10, r2
	subs	r0, r6, r4
	mov	r1, r10
	sbcs	r0, r10, r5
	blo	.Laes_BB8_7
	b	.Laes_BB8_8
.Laes_func_end8:
	.size	aes.aes_narrow.borrowed_words.call_to_encrypt, .Laes_func_end8-aes.aes_narrow.borrowed_words.call_to_encrypt
	.cantunwind
	.fnend
                                        @ -- End function
	.section	.text.aes.aes_ctr.add_in_batches.add_next,"ax",%progbits
	.p2align	2                               @ -- Begin function aes_ctr::add_in_batches::add_next::<#a8e061590e9ece31>
	.type	aes.aes_ctr.add_in_batches.add_next,%function
	.code	32
aes.aes_ctr.add_in_batches.add_next: @ @aes.aes_ctr.add_in_batches.add_next
	.fnstart
@ %bb.0:                                @ %start
	.save	{r4, r5, r6, r7, r8, r9, r10, r11, lr}
	push	{r4, r5, r6, r7, r8, r9, r10, r11, lr}
	.pad	#388
	sub	sp, sp, #388
	add	r10, sp, #128
	mov	r11, r0
	add	r0, r10, #32
	mov	r6, r2
	mov	r7, r1
	mov	r1, #0
	mov	r2, #224
	mov	r4, r3
	bl	memset
	ldr	r5, [sp, #424]
	mov	r8, #1
	ldr	r12, [sp, #428]
	adds	r0, r5, r6
	ldr	r3, [r7]
	adc	r1, r12, r4
	ldr	r6, [r7, #4]
	ldr	r4, [r7, #8]
	lsr	r2, r0, #4
	ldr	r7, [r7, #12]
	orr	r2, r2, r1, lsl #28
	lsr	r1, r1, #4
	ldr	r9, [sp, #440]
	rev	r7, r7
	adds	r2, r2, r7
	rev	r7, r4
	adcs	r7, r1, r7
	strb	r2, [sp, #143]
	lsr	r1, r2, #24
	strb	r7, [sp, #139]
	strb	r1, [sp, #140]
	lsr	r1, r2, #16
	strb	r1, [sp, #141]
	lsr	r1, r2, #8
	strb	r1, [sp, #142]
	rev	r1, r3
	rev	r3, r6
	lsr	r6, r7, #24
	adcs	r3, r3, #0
	strb	r6, [sp, #136]
	adc	r1, r1, #0
	adds	r2, r2, #1
	lsr	r6, r7, #16
	strb	r2, [sp, #159]
	strb	r6, [sp, #137]
	lsr	r6, r7, #8
	strb	r6, [sp, #138]
	lsr	r6, r2, #24
	strb	r6, [sp, #156]
	lsr	r6, r2, #16
	lsr	r2, r2, #8
	adcs	r7, r7, #0
	strb	r2, [sp, #158]
	lsr	r2, r3, #24
	strb	r2, [sp, #132]
	lsr	r2, r3, #16
	strb	r2, [sp, #133]
	lsr	r2, r3, #8
	strb	r2, [sp, #134]
	adcs	r2, r3, #0
	strb	r3, [sp, #135]
	lsr	r3, r7, #24
	strb	r3, [sp, #152]
	lsr	r3, r7, #16
	strb	r3, [sp, #153]
	lsr	r3, r7, #8
	strb	r3, [sp, #154]
	lsr	r3, r2, #24
	strb	r3, [sp, #148]
	lsr	r3, r2, #16
	strb	r2, [sp, #151]
	lsr	r2, r2, #8
	strb	r2, [sp, #150]
	lsr	r2, r1, #24
	strb	r2, [sp, #128]
	lsr	r2, r1, #16
	strb	r2, [sp, #129]
	lsr	r2, r1, #8
	strb	r1, [sp, #131]
	adc	r1, r1, #0
	strb	r2, [sp, #130]
	mov	r4, #0
	lsr	r2, r1, #24
	strb	r7, [sp, #155]
	strb	r6, [sp, #157]
	and	r7, r0, #15
	strb	r2, [sp, #144]
	lsr	r2, r1, #16
	strb	r1, [sp, #147]
	lsr	r1, r1, #8
	ldr	r6, [sp, #444]
	strb	r3, [sp, #149]
	rsb	r3, r7, #32
	strb	r1, [sp, #146]
	subs	r1, r9, r5
	strb	r2, [sp, #145]
	sbc	r2, r6, r12
	subs	r0, r1, r3
	str	r7, [sp, #24]                   @ 4-byte Spill
	sbcs	r0, r2, #0
	movlo	r3, r1
	add	r0, r3, r7
	movwlo	r4, #1
	tst	r0, #15
	uxtb	r1, r0
	str	r3, [sp, #32]                   @ 4-byte Spill
	lsr	r7, r1, #4
	ldr	r0, [r11]
	addne	r7, r8, r1, lsr #4
	cmp	r4, #0
	movne	r4, r2
	ldr	r2, [r11, #8]
	ldr	r3, [r11, #12]
	cmp	r7, #1
	movne	r8, #2
	mov	r1, #0
	str	r4, [sp, #28]                   @ 4-byte Spill
	str	r8, [sp, #8]
	ldr	r4, [sp, #432]
	str	r1, [sp, #12]
	str	r10, [sp]
	bl	aes.aes_soft.soft.blocks.filled_up.process_filled_up.1
	ldr	r0, [sp, #424]
	ldr	r8, [sp, #24]                   @ 4-byte Reload
	ldr	r11, [sp, #32]                  @ 4-byte Reload
	add	r5, r4, r0
	ldr	lr, [sp, #28]                   @ 4-byte Reload
	cmp	r8, #0
	beq	.Laes_BB9_4
@ %bb.1:                                @ %then.1.i
	ldr	r1, [sp, #428]
	eor	r0, r9, r0
	rsb	r12, r8, #16
	eor	r1, r6, r1
	orr	r3, r0, r1
	subs	r0, r11, r12
	sbcs	r0, lr, #0
	mov	r1, #0
	movlo	r12, r11
	movwlo	r1, #1
	cmp	r1, #0
	mov	r0, #0
	movne	r1, lr
	cmp	r3, #0
	beq	.Laes_BB9_5
@ %bb.2:                                @ %join.8.i85.preheader
	mov	r3, #0
.Laes_BB9_3:                                @ %join.8.i85
                                        @ =>This Inner Loop Header: Depth=1
	add	r6, r3, r8
	ldrb	r7, [r5, r3]
	ldrb	r6, [r10, r6]
	eor	r7, r7, r6
	strb	r7, [r5, r3]
	adds	r3, r3, #1
	adc	r0, r0, #0
	subs	r7, r3, r12
	sbcs	r7, r0, r1
	blo	.Laes_BB9_3
	b	.Laes_BB9_5
.Laes_BB9_4:
	mov	r12, #0
	mov	r1, #0
.Laes_BB9_5:                                @ %join.3.i
	subs	r3, r11, r12
	sbc	r4, lr, r1
	subs	r0, r3, #16
	sbcs	r0, r4, #0
	blo	.Laes_BB9_7
.Laes_BB9_6:                                @ %join.8.i
                                        @ =>This Inner Loop Header: Depth=1
	add	r7, r12, r8
	mov	r3, r5
	bic	r7, r7, #15
	ldrb	r0, [r3, r12]!
	mov	r4, r10
	adds	r12, r12, #16
	ldrb	r6, [r10, r7]
	ldrb	lr, [r3, #15]
	ldrb	r8, [r3, #14]
	eor	r0, r6, r0
	str	r0, [sp, #68]                   @ 4-byte Spill
	ldrb	r0, [r3, #1]
	str	r0, [sp, #124]                  @ 4-byte Spill
	ldrb	r0, [r3, #2]
	str	r0, [sp, #120]                  @ 4-byte Spill
	ldrb	r0, [r3, #3]
	str	r0, [sp, #112]                  @ 4-byte Spill
	ldrb	r0, [r3, #4]
	str	r0, [sp, #104]                  @ 4-byte Spill
	add	r0, r10, r7
	ldrb	r10, [r3, #13]
	ldrb	r2, [r0, #1]
	str	r2, [sp, #116]                  @ 4-byte Spill
	ldrb	r2, [r0, #2]
	str	r2, [sp, #108]                  @ 4-byte Spill
	ldrb	r2, [r0, #3]
	str	r2, [sp, #100]                  @ 4-byte Spill
	ldrb	r2, [r0, #4]
	str	r2, [sp, #96]                   @ 4-byte Spill
	ldrb	r2, [r3, #5]
	str	r2, [sp, #92]                   @ 4-byte Spill
	ldrb	r2, [r0, #5]
	str	r2, [sp, #88]                   @ 4-byte Spill
	ldrb	r2, [r3, #6]
	str	r2, [sp, #84]                   @ 4-byte Spill
	ldrb	r2, [r0, #6]
	str	r2, [sp, #80]                   @ 4-byte Spill
	ldrb	r2, [r3, #7]
	str	r2, [sp, #76]                   @ 4-byte Spill
	ldrb	r2, [r0, #7]
	str	r2, [sp, #72]                   @ 4-byte Spill
	ldrb	r2, [r3, #8]
	str	r2, [sp, #64]                   @ 4-byte Spill
	ldrb	r2, [r0, #8]
	str	r2, [sp, #60]                   @ 4-byte Spill
	ldrb	r2, [r3, #9]
	str	r2, [sp, #56]                   @ 4-byte Spill
	ldrb	r2, [r0, #9]
	str	r2, [sp, #52]                   @ 4-byte Spill
	ldrb	r2, [r3, #10]
	str	r2, [sp, #48]                   @ 4-byte Spill
	ldrb	r2, [r0, #10]
	str	r2, [sp, #44]                   @ 4-byte Spill
	ldrb	r2, [r3, #11]
	str	r2, [sp, #40]                   @ 4-byte Spill
	ldrb	r2, [r0, #11]
	str	r2, [sp, #36]                   @ 4-byte Spill
	mov	r2, r1
	mov	r1, r5
	ldrb	r11, [r0, #12]
	ldrb	r9, [r0, #13]
	ldrb	r5, [r0, #14]
	ldrb	r0, [r0, #15]
	ldrb	r6, [r3, #12]
	eor	r0, r0, lr
	strb	r0, [r3, #15]
	eor	r0, r5, r8
	strb	r0, [r3, #14]
	eor	r0, r9, r10
	strb	r0, [r3, #13]
	eor	r0, r11, r6
	mov	r5, r1
	mov	r1, r2
	strb	r0, [r3, #12]
	ldr	r0, [sp, #40]                   @ 4-byte Reload
	adc	r1, r1, #0
	ldr	r2, [sp, #36]                   @ 4-byte Reload
	mov	r10, r4
	ldr	r11, [sp, #32]                  @ 4-byte Reload
	eor	r0, r2, r0
	strb	r0, [r3, #11]
	ldr	r0, [sp, #48]                   @ 4-byte Reload
	ldr	r2, [sp, #44]                   @ 4-byte Reload
	ldr	r7, [sp, #68]                   @ 4-byte Reload
	eor	r0, r2, r0
	strb	r0, [r3, #10]
	ldr	r0, [sp, #56]                   @ 4-byte Reload
	ldr	r2, [sp, #52]                   @ 4-byte Reload
	ldr	lr, [sp, #28]                   @ 4-byte Reload
	eor	r0, r2, r0
	strb	r0, [r3, #9]
	ldr	r0, [sp, #64]                   @ 4-byte Reload
	ldr	r2, [sp, #60]                   @ 4-byte Reload
	strb	r7, [r3]
	eor	r0, r2, r0
	strb	r0, [r3, #8]
	ldr	r0, [sp, #76]                   @ 4-byte Reload
	ldr	r2, [sp, #72]                   @ 4-byte Reload
	ldr	r8, [sp, #24]                   @ 4-byte Reload
	eor	r0, r2, r0
	strb	r0, [r3, #7]
	ldr	r0, [sp, #84]                   @ 4-byte Reload
	ldr	r2, [sp, #80]                   @ 4-byte Reload
	eor	r0, r2, r0
	strb	r0, [r3, #6]
	ldr	r0, [sp, #92]                   @ 4-byte Reload
	ldr	r2, [sp, #88]                   @ 4-byte Reload
	eor	r0, r2, r0
	strb	r0, [r3, #5]
	ldr	r0, [sp, #104]                  @ 4-byte Reload
	ldr	r2, [sp, #96]                   @ 4-byte Reload
	eor	r0, r2, r0
	strb	r0, [r3, #4]
	ldr	r0, [sp, #112]                  @ 4-byte Reload
	ldr	r2, [sp, #100]                  @ 4-byte Reload
	eor	r0, r2, r0
	strb	r0, [r3, #3]
	ldr	r0, [sp, #120]                  @ 4-byte Reload
	ldr	r2, [sp, #108]                  @ 4-byte Reload
	eor	r0, r2, r0
	strb	r0, [r3, #2]
	ldr	r0, [sp, #124]                  @ 4-byte Reload
	ldr	r2, [sp, #116]                  @ 4-byte Reload
	eor	r0, r2, r0
	strb	r0, [r3, #1]
	subs	r3, r11, r12
	sbc	r4, lr, r1
	rsbs	r0, r3, #15
	rscs	r0, r4, #0
	blo	.Laes_BB9_6
.Laes_BB9_7:                                @ %after.4.i
	subs	r0, r12, r11
	sbcs	r0, r1, lr
	bhs	.Laes_BB9_11
@ %bb.8:                                @ %then.9.i
	orrs	r0, r3, r4
	beq	.Laes_BB9_11
@ %bb.9:                                @ %join.8.i28.preheader
	add	r1, r12, r8
	add	r0, r5, r12
	bic	r1, r1, #15
	mov	r2, #0
	add	r1, r10, r1
	mov	r7, #0
.Laes_BB9_10:                               @ %join.8.i28
                                        @ =>This Inner Loop Header: Depth=1
	ldrb	r6, [r1, r7]
	ldrb	r5, [r0, r7]
	eor	r6, r5, r6
	strb	r6, [r0, r7]
	adds	r7, r7, #1
	adc	r2, r2, #0
	subs	r6, r7, r3
	sbcs	r6, r2, r4
	blo	.Laes_BB9_10
.Laes_BB9_11:                               @ %"aes_ctr::add_blocks::add_blocks.exit"
	ldr	r0, [sp, #424]
	ldr	r1, [sp, #428]
	adds	r0, r11, r0
	adc	r1, lr, r1
	add	sp, sp, #388
	pop	{r4, r5, r6, r7, r8, r9, r10, r11, pc}
.Laes_func_end9:
	.size	aes.aes_ctr.add_in_batches.add_next, .Laes_func_end9-aes.aes_ctr.add_in_batches.add_next
	.cantunwind
	.fnend
                                        @ -- End function
	.section	.text.aes.aes_cipher.zeroize.stack.wipe_stack.2032,"ax",%progbits
	.p2align	2                               @ -- Begin function aes_cipher::zeroize::stack::wipe_stack::<=2032>
	.type	aes.aes_cipher.zeroize.stack.wipe_stack.2032,%function
	.code	32
aes.aes_cipher.zeroize.stack.wipe_stack.2032: @ @aes.aes_cipher.zeroize.stack.wipe_stack.2032
	.fnstart
@ %bb.0:                                @ %start
	.save	{r4, r5, r6, r7, r8, lr}
	push	{r4, r5, r6, r7, r8, lr}
	.pad	#1016
	sub	sp, sp, #1016
	.pad	#1024
	sub	sp, sp, #1024
	add	r4, sp, #8
	mov	r1, #0
	mov	r2, #2032
	mov	r7, #0
	mov	r0, r4
	bl	memset
	str	r7, [sp, #4]
	str	r7, [sp]
	@APP
	@NO_APP
	ldrd	r0, r1, [sp]
	@APP
	@NO_APP
	subs	r2, r0, #2032
	sbcs	r2, r1, #0
	bhs	.Laes_BB10_2
@ %bb.1:                                @ %then.1
	ldrb	r6, [r4, r0]
	@APP
	@NO_APP
	ldrd	r0, r1, [sp]
	strd	r6, r7, [sp]
	@APP
	@NO_APP
.Laes_BB10_2:                               @ %common.ret
	add	sp, sp, #1016
	add	sp, sp, #1024
	pop	{r4, r5, r6, r7, r8, pc}
.Laes_func_end10:
	.size	aes.aes_cipher.zeroize.stack.wipe_stack.2032, .Laes_func_end10-aes.aes_cipher.zeroize.stack.wipe_stack.2032
	.cantunwind
	.fnend
                                        @ -- End function
	.section	.text.aes.aes_cipher.zeroize.elements.zeroize_elements.1,"ax",%progbits
	.p2align	2                               @ -- Begin function aes_cipher::zeroize::elements::zeroize_elements::<#54a2bb646728b9ee>
	.type	aes.aes_cipher.zeroize.elements.zeroize_elements.1,%function
	.code	32
aes.aes_cipher.zeroize.elements.zeroize_elements.1: @ @aes.aes_cipher.zeroize.elements.zeroize_elements.1
	.fnstart
@ %bb.0:                                @ %start
	.save	{r4, r5, r6, r7, r11, lr}
	push	{r4, r5, r6, r7, r11, lr}
	.pad	#8
	sub	sp, sp, #8
	mov	r4, #0
	str	r4, [sp, #4]
	str	r4, [sp]
	@APP
	@NO_APP
	ldrd	r6, r7, [sp]
	@APP
	@NO_APP
	subs	r1, r6, #120
	sbcs	r1, r7, #0
	bhs	.Laes_BB11_2
@ %bb.1:                                @ %then.1.i
	ldr	r5, [r0, r6, lsl #2]
	mov	r1, #0
	mov	r2, #480
	mov	r4, r0
	bl	memset
	ldr	r0, [r4, r6, lsl #2]
	and	r4, r5, r0
	b	.Laes_BB11_3
.Laes_BB11_2:                               @ %"aes_cipher::zeroize::observe::<#94bc162b3f62047f>.exit12"
	mov	r1, #0
	mov	r2, #480
	bl	memset
.Laes_BB11_3:                               @ %"aes_cipher::zeroize::observe::<#94bc162b3f62047f>.exit"
	uxtb	r0, r4
	@APP
	@NO_APP
	mov	r1, #0
	ldrd	r2, r3, [sp]
	strd	r0, r1, [sp]
	@APP
	@NO_APP
	add	sp, sp, #8
	mov	r1, #0
	mov	r2, #0
	mov	r3, #0
	mov	r12, #0
	mov	lr, r1
	pop	{r4, r5, r6, r7, r11, pc}
.Laes_func_end11:
	.size	aes.aes_cipher.zeroize.elements.zeroize_elements.1, .Laes_func_end11-aes.aes_cipher.zeroize.elements.zeroize_elements.1
	.cantunwind
	.fnend
                                        @ -- End function
	.section	.text.aes.cmac.tags.tag,"ax",%progbits
	.p2align	2                               @ -- Begin function cmac::tags::tag::<#4f733d09d7f6c6b4>
	.type	aes.cmac.tags.tag,%function
	.code	32
aes.cmac.tags.tag: @ @aes.cmac.tags.tag
	.fnstart
@ %bb.0:                                @ %start
	.save	{r4, r5, r6, r7, r8, r9, r10, lr}
	push	{r4, r5, r6, r7, r8, r9, r10, lr}
	.pad	#40
	sub	sp, sp, #40
	ldr	r8, [sp, #76]
	mov	r4, r0
	ldr	r10, [sp, #72]
	mov	r0, #0
	str	r0, [sp, #20]
	add	r9, sp, #8
	str	r0, [sp, #16]
	mov	r5, r1
	str	r0, [sp, #12]
	mov	r6, r2
	str	r0, [sp, #8]
	str	r0, [sp, #4]
	orrs	r0, r10, r8
	movwne	r0, #1
	sub	r0, r10, r0
	bic	r7, r0, #15
	mov	r0, r1
	mov	r1, r9
	str	r7, [sp]
	bl	aes.cmac.chaining.chain
	subs	r0, r10, r7
	add	r3, r6, r7
	sbc	r1, r8, #0
	mov	r2, r9
	strd	r0, r1, [sp]
	add	r0, sp, #24
	mov	r1, r5
	bl	aes.cmac.tags.tag_at_end
	add	r3, sp, #24
	ldm	r3, {r0, r1, r2, r3}
	str	r3, [r4, #12]
	str	r2, [r4, #8]
	str	r1, [r4, #4]
	str	r0, [r4]
	add	sp, sp, #40
	pop	{r4, r5, r6, r7, r8, r9, r10, pc}
.Laes_func_end12:
	.size	aes.cmac.tags.tag, .Laes_func_end12-aes.cmac.tags.tag
	.cantunwind
	.fnend
                                        @ -- End function
	.section	.text.aes.cmac.chaining.chain,"ax",%progbits
	.p2align	2                               @ -- Begin function cmac::chaining::chain::<#4f733d09d7f6c6b4>
	.type	aes.cmac.chaining.chain,%function
	.code	32
aes.cmac.chaining.chain: @ @aes.cmac.chaining.chain
	.fnstart
@ %bb.0:                                @ %start
	.save	{r4, r5, r6, r7, r8, r9, r10, r11, lr}
	push	{r4, r5, r6, r7, r8, r9, r10, r11, lr}
	.pad	#140
	sub	sp, sp, #140
	ldr	r7, [sp, #176]
	mov	r3, r2
	ldr	r6, [sp, #180]
	mov	r5, r1
	str	r0, [sp, #36]                   @ 4-byte Spill
	lsr	r0, r7, #4
	orr	r0, r0, r6, lsl #28
	lsr	r1, r6, #4
	adds	r2, r0, #1
	adc	r4, r1, #0
	tst	r7, #15
	moveq	r2, r0
	moveq	r4, r1
	orrs	r0, r7, r6
	beq	.Laes_BB13_3
@ %bb.1:                                @ %join.5.lr.ph
	ldr	r0, [sp, #36]                   @ 4-byte Reload
	mov	r9, #0
	mov	r11, #0
	str	r3, [sp, #32]                   @ 4-byte Spill
	add	r0, r0, #8
	str	r0, [sp, #20]                   @ 4-byte Spill
	str	r2, [sp, #28]                   @ 4-byte Spill
	str	r4, [sp, #24]                   @ 4-byte Spill
.Laes_BB13_2:                               @ %join.5
                                        @ =>This Inner Loop Header: Depth=1
	mov	r0, #0
	mov	r1, #16
	str	r0, [sp, #132]
	adds	r1, r1, r9, lsl #4
	str	r0, [sp, #128]
	str	r0, [sp, #124]
	str	r0, [sp, #120]
	lsl	r0, r11, #4
	orr	r0, r0, r9, lsr #28
	adc	r0, r0, #0
	subs	r2, r1, r7
	sbcs	r0, r0, r6
	movhs	r1, r7
	sub	r2, r1, r9, lsl #4
	add	r1, r3, r9, lsl #4
	add	r0, sp, #120
	bl	memcpy
	ldrb	r0, [r5, #15]
	ldrb	r1, [sp, #135]
	ldrb	r7, [r5, #12]
	eor	r6, r1, r0
	ldrb	r0, [r5]
	str	r0, [sp, #116]                  @ 4-byte Spill
	ldrb	r0, [r5, #1]
	str	r0, [sp, #112]                  @ 4-byte Spill
	ldrb	r0, [r5, #2]
	str	r0, [sp, #108]                  @ 4-byte Spill
	ldrb	r0, [r5, #3]
	str	r0, [sp, #104]                  @ 4-byte Spill
	ldrb	r0, [r5, #4]
	str	r0, [sp, #100]                  @ 4-byte Spill
	ldrb	r0, [r5, #5]
	str	r0, [sp, #96]                   @ 4-byte Spill
	ldrb	r0, [r5, #6]
	str	r0, [sp, #88]                   @ 4-byte Spill
	ldrb	r0, [r5, #7]
	str	r0, [sp, #80]                   @ 4-byte Spill
	ldrb	r0, [r5, #8]
	str	r0, [sp, #72]                   @ 4-byte Spill
	ldrb	r0, [r5, #9]
	str	r0, [sp, #64]                   @ 4-byte Spill
	ldrb	r0, [r5, #10]
	str	r0, [sp, #56]                   @ 4-byte Spill
	ldrb	r0, [r5, #11]
	str	r0, [sp, #48]                   @ 4-byte Spill
	ldrb	r0, [sp, #120]
	str	r0, [sp, #92]                   @ 4-byte Spill
	ldrb	r0, [sp, #121]
	str	r0, [sp, #84]                   @ 4-byte Spill
	ldrb	r0, [sp, #122]
	str	r0, [sp, #76]                   @ 4-byte Spill
	ldrb	r0, [sp, #123]
	str	r0, [sp, #68]                   @ 4-byte Spill
	ldrb	r0, [sp, #124]
	str	r0, [sp, #60]                   @ 4-byte Spill
	ldrb	r0, [sp, #125]
	str	r0, [sp, #52]                   @ 4-byte Spill
	ldrb	r0, [sp, #126]
	str	r0, [sp, #44]                   @ 4-byte Spill
	ldrb	r0, [sp, #127]
	str	r0, [sp, #40]                   @ 4-byte Spill
	ldrb	r0, [sp, #132]
	ldrb	r1, [sp, #131]
	eor	r0, r0, r7
	strb	r0, [r5, #12]
	ldr	r0, [sp, #48]                   @ 4-byte Reload
	ldrb	r2, [sp, #130]
	eor	r0, r1, r0
	strb	r0, [r5, #11]
	ldr	r0, [sp, #56]                   @ 4-byte Reload
	ldrb	r3, [sp, #129]
	eor	r0, r2, r0
	strb	r0, [r5, #10]
	ldr	r0, [sp, #64]                   @ 4-byte Reload
	ldrb	r4, [sp, #128]
	eor	r0, r3, r0
	strb	r0, [r5, #9]
	ldr	r0, [sp, #72]                   @ 4-byte Reload
	ldr	r1, [sp, #40]                   @ 4-byte Reload
	eor	r0, r4, r0
	strb	r0, [r5, #8]
	ldr	r0, [sp, #80]                   @ 4-byte Reload
	mov	r4, #1
	ldrb	r12, [r5, #14]
	eor	r0, r1, r0
	strb	r0, [r5, #7]
	ldr	r0, [sp, #88]                   @ 4-byte Reload
	ldr	r1, [sp, #44]                   @ 4-byte Reload
	ldrb	r8, [sp, #134]
	eor	r0, r1, r0
	strb	r0, [r5, #6]
	ldr	r0, [sp, #96]                   @ 4-byte Reload
	ldr	r1, [sp, #52]                   @ 4-byte Reload
	ldrb	lr, [r5, #13]
	eor	r0, r1, r0
	strb	r0, [r5, #5]
	ldr	r0, [sp, #100]                  @ 4-byte Reload
	ldr	r1, [sp, #60]                   @ 4-byte Reload
	ldrb	r10, [sp, #133]
	eor	r0, r1, r0
	strb	r0, [r5, #4]
	ldr	r0, [sp, #104]                  @ 4-byte Reload
	ldr	r1, [sp, #68]                   @ 4-byte Reload
	strb	r6, [r5, #15]
	eor	r6, r8, r12
	eor	r0, r1, r0
	strb	r0, [r5, #3]
	ldr	r0, [sp, #108]                  @ 4-byte Reload
	ldr	r1, [sp, #76]                   @ 4-byte Reload
	strb	r6, [r5, #14]
	eor	r6, r10, lr
	eor	r0, r1, r0
	strb	r0, [r5, #2]
	ldr	r0, [sp, #112]                  @ 4-byte Reload
	ldr	r1, [sp, #84]                   @ 4-byte Reload
	strb	r6, [r5, #13]
	eor	r0, r1, r0
	strb	r0, [r5, #1]
	ldr	r0, [sp, #116]                  @ 4-byte Reload
	ldr	r1, [sp, #92]                   @ 4-byte Reload
	eor	r0, r1, r0
	strb	r0, [r5]
	ldr	r0, [sp, #20]                   @ 4-byte Reload
	mov	r1, #0
	ldr	r2, [r0]
	ldr	r3, [r0, #4]
	ldr	r0, [sp, #36]                   @ 4-byte Reload
	ldr	r0, [r0]
	str	r4, [sp, #8]
	str	r1, [sp, #12]
	str	r5, [sp]
	bl	aes.aes_narrow.blocks.process_all_batches.1
	adds	r9, r9, #1
	adc	r11, r11, #0
	bl	aes.aes_cipher.zeroize.stack.wipe_stack.1024
	ldr	r2, [sp, #28]                   @ 4-byte Reload
	ldr	r6, [sp, #180]
	ldr	r7, [sp, #176]
	subs	r0, r9, r2
	ldr	r3, [sp, #32]                   @ 4-byte Reload
	ldr	r4, [sp, #24]                   @ 4-byte Reload
	sbcs	r0, r11, r4
	blo	.Laes_BB13_2
.Laes_BB13_3:                               @ %after.1
	add	sp, sp, #140
	pop	{r4, r5, r6, r7, r8, r9, r10, r11, pc}
.Laes_func_end13:
	.size	aes.cmac.chaining.chain, .Laes_func_end13-aes.cmac.chaining.chain
	.cantunwind
	.fnend
                                        @ -- End function
	.section	.text.aes.cmac.tags.tag_at_end,"ax",%progbits
	.p2align	2                               @ -- Begin function cmac::tags::tag_at_end::<#4f733d09d7f6c6b4>
	.type	aes.cmac.tags.tag_at_end,%function
	.code	32
aes.cmac.tags.tag_at_end: @ @aes.cmac.tags.tag_at_end
	.fnstart
@ %bb.0:                                @ %start
	.save	{r4, r5, r6, r7, r8, r9, r10, r11, lr}
	push	{r4, r5, r6, r7, r8, r9, r10, r11, lr}
	.pad	#116
	sub	sp, sp, #116
	str	r0, [sp, #60]                   @ 4-byte Spill
	mov	r0, r1
	mov	r6, r2
	ldr	r2, [r0, #8]!
	str	r3, [sp, #48]                   @ 4-byte Spill
	mov	r5, #0
	str	r0, [sp, #52]                   @ 4-byte Spill
	mov	r4, #1
	ldr	r0, [r1]
	ldr	r3, [r1, #12]
	str	r1, [sp, #56]                   @ 4-byte Spill
	add	r1, sp, #96
	str	r5, [sp, #108]
	str	r5, [sp, #104]
	str	r5, [sp, #100]
	str	r5, [sp, #96]
	strd	r4, r5, [sp, #8]
	str	r1, [sp]
	bl	aes.aes_narrow.blocks.process_all_batches.1
	bl	aes.aes_cipher.zeroize.stack.wipe_stack.1024
	ldrb	r0, [sp, #107]
	str	r0, [sp, #44]                   @ 4-byte Spill
	ldrb	r0, [sp, #106]
	str	r0, [sp, #40]                   @ 4-byte Spill
	ldrb	r0, [sp, #105]
	ldr	r4, [sp, #152]
	str	r0, [sp, #36]                   @ 4-byte Spill
	ldrb	r0, [sp, #98]
	ldr	r1, [sp, #48]                   @ 4-byte Reload
	mov	r2, r4
	str	r0, [sp, #32]                   @ 4-byte Spill
	add	r0, sp, #80
	str	r5, [sp, #80]
	str	r5, [sp, #84]
	str	r5, [sp, #88]
	str	r5, [sp, #92]
	ldr	r10, [sp, #108]
	ldrb	r11, [sp, #96]
	ldrb	r5, [sp, #97]
	ldrb	r8, [sp, #99]
	ldr	r7, [sp, #100]
	ldrb	r9, [sp, #104]
	bl	memcpy
	rev	r2, r7
	lsl	r0, r9, #24
	rev	r3, r10
	lsl	r1, r2, #1
	orr	r7, r1, r0, lsr #31
	lsl	r0, r11, #24
	mov	r1, #135
	and	r0, r1, r0, asr #31
	eor	r1, r0, r3, lsl #1
	lsl	r0, r5, #16
	ldr	r5, [sp, #32]                   @ 4-byte Reload
	orr	r0, r0, r11, lsl #24
	orr	r0, r0, r5, lsl #8
	ldr	r5, [sp, #40]                   @ 4-byte Reload
	orr	r0, r0, r8
	lsl	r0, r0, #1
	orr	r0, r0, r2, lsr #31
	ldr	r2, [sp, #36]                   @ 4-byte Reload
	lsl	r2, r2, #16
	orr	r2, r2, r9, lsl #24
	orr	r2, r2, r5, lsl #8
	ldr	r5, [sp, #44]                   @ 4-byte Reload
	orr	r2, r2, r5
	ldr	r5, [sp, #156]
	lsl	r2, r2, #1
	orr	r3, r2, r3, lsr #31
	eor	r2, r4, #16
	orrs	r2, r2, r5
	bne	.Laes_BB14_2
@ %bb.1:                                @ %then.1.i
	ldrb	r2, [sp, #95]
	ldrb	r5, [sp, #82]
	eor	r8, r2, r1
	ldrb	r2, [sp, #93]
	eor	r4, r2, r1, lsr #16
	ldrb	r2, [sp, #92]
	eor	r10, r2, r1, lsr #24
	ldrb	r2, [sp, #94]
	uxth	r1, r1
	eor	r1, r2, r1, lsr #8
	str	r1, [sp, #44]                   @ 4-byte Spill
	ldrb	r1, [sp, #91]
	ldrb	r2, [sp, #90]
	eor	r1, r1, r3
	str	r1, [sp, #24]                   @ 4-byte Spill
	ldrb	r1, [sp, #89]
	eor	r1, r1, r3, lsr #16
	str	r1, [sp, #48]                   @ 4-byte Spill
	ldrb	r1, [sp, #88]
	eor	r1, r1, r3, lsr #24
	str	r1, [sp, #40]                   @ 4-byte Spill
	uxth	r1, r3
	ldrb	r3, [sp, #81]
	eor	r1, r2, r1, lsr #8
	str	r1, [sp, #36]                   @ 4-byte Spill
	ldrb	r1, [sp, #87]
	eor	r3, r3, r0, lsr #16
	ldrb	r2, [sp, #86]
	eor	r12, r1, r7
	ldrb	r1, [sp, #85]
	eor	r1, r1, r7, lsr #16
	str	r1, [sp, #32]                   @ 4-byte Spill
	ldrb	r1, [sp, #84]
	eor	r1, r1, r7, lsr #24
	str	r1, [sp, #28]                   @ 4-byte Spill
	uxth	r1, r7
	ldrb	r7, [sp, #83]
	eor	r9, r2, r1, lsr #8
	ldrb	r1, [sp, #80]
	eor	r7, r7, r0
	eor	lr, r1, r0, lsr #24
	uxth	r0, r0
	eor	r11, r5, r0, lsr #8
	b	.Laes_BB14_3
.Laes_BB14_2:                               @ %else.2.i
	add	r5, sp, #80
	mov	r2, #128
	mov	r8, #135
	strb	r2, [r5, r4]
	ubfx	r2, r1, #7, #8
	ldrb	r5, [sp, #94]
	eor	r2, r5, r2
	ldrb	r5, [sp, #93]
	str	r2, [sp, #44]                   @ 4-byte Spill
	lsl	r2, r1, #1
	eor	r5, r5, r2, lsr #16
	str	r5, [sp, #20]                   @ 4-byte Spill
	ldrb	r5, [sp, #92]
	eor	r2, r5, r2, lsr #24
	str	r2, [sp, #16]                   @ 4-byte Spill
	ubfx	r2, r3, #7, #8
	ldrb	r5, [sp, #90]
	eor	r2, r5, r2
	ldrb	r5, [sp, #89]
	str	r2, [sp, #36]                   @ 4-byte Spill
	lsl	r2, r3, #1
	eor	r5, r5, r2, lsr #16
	str	r5, [sp, #48]                   @ 4-byte Spill
	ldrb	r5, [sp, #88]
	eor	r5, r5, r2, lsr #24
	str	r5, [sp, #40]                   @ 4-byte Spill
	ldrb	r5, [sp, #91]
	orr	r2, r2, r1, lsr #31
	eor	r2, r5, r2
	str	r2, [sp, #24]                   @ 4-byte Spill
	ubfx	r2, r7, #7, #8
	ldrb	r5, [sp, #86]
	ldrb	r4, [sp, #85]
	eor	r9, r5, r2
	lsl	r5, r7, #1
	eor	r2, r4, r5, lsr #16
	ldrb	r4, [sp, #84]
	str	r2, [sp, #32]                   @ 4-byte Spill
	orr	r3, r5, r3, lsr #31
	eor	r2, r4, r5, lsr #24
	ldrb	r5, [sp, #87]
	str	r2, [sp, #28]                   @ 4-byte Spill
	eor	r12, r5, r3
	ubfx	r3, r0, #7, #8
	ldrb	r2, [sp, #82]
	ldrb	r4, [sp, #81]
	eor	r11, r2, r3
	lsl	r2, r0, #1
	and	r0, r8, r0, asr #31
	ldrb	r10, [sp, #83]
	eor	r0, r0, r1, lsl #1
	ldrb	r1, [sp, #95]
	ldrb	r5, [sp, #80]
	eor	r3, r4, r2, lsr #16
	eor	r8, r1, r0
	orr	r0, r2, r7, lsr #31
	eor	r7, r10, r0
	ldr	r10, [sp, #16]                  @ 4-byte Reload
	ldr	r4, [sp, #20]                   @ 4-byte Reload
	eor	lr, r5, r2, lsr #24
.Laes_BB14_3:                               @ %"cmac::tags::last_block::<#4f733d09d7f6c6b4>.exit"
	ldrb	r0, [r6, #15]
	ldr	r1, [sp, #44]                   @ 4-byte Reload
	eor	r0, r0, r8
	strb	r0, [sp, #79]
	ldrb	r0, [r6, #14]
	ldrb	r2, [r6, #2]
	eor	r0, r0, r1
	strb	r0, [sp, #78]
	ldrb	r0, [r6, #13]
	eor	r2, r2, r11
	ldr	r1, [sp, #24]                   @ 4-byte Reload
	eor	r0, r0, r4
	strb	r0, [sp, #77]
	ldrb	r0, [r6, #12]
	mov	r4, #1
	strb	r2, [sp, #66]
	eor	r0, r0, r10
	strb	r0, [sp, #76]
	ldrb	r0, [r6, #11]
	eor	r0, r0, r1
	strb	r0, [sp, #75]
	ldrb	r0, [r6, #10]
	ldr	r1, [sp, #36]                   @ 4-byte Reload
	eor	r0, r0, r1
	strb	r0, [sp, #74]
	ldrb	r0, [r6, #9]
	ldr	r1, [sp, #48]                   @ 4-byte Reload
	eor	r0, r0, r1
	strb	r0, [sp, #73]
	ldrb	r0, [r6, #8]
	ldr	r1, [sp, #40]                   @ 4-byte Reload
	eor	r0, r0, r1
	strb	r0, [sp, #72]
	ldrb	r0, [r6, #7]
	ldr	r1, [sp, #32]                   @ 4-byte Reload
	eor	r0, r0, r12
	strb	r0, [sp, #71]
	ldrb	r0, [r6, #6]
	eor	r0, r0, r9
	strb	r0, [sp, #70]
	ldrb	r0, [r6, #5]
	eor	r0, r0, r1
	strb	r0, [sp, #69]
	ldrb	r0, [r6, #4]
	ldr	r1, [sp, #28]                   @ 4-byte Reload
	eor	r0, r0, r1
	strb	r0, [sp, #68]
	ldrb	r0, [r6]
	ldrb	r1, [r6, #1]
	eor	r0, r0, lr
	strb	r0, [sp, #64]
	ldr	r0, [sp, #52]                   @ 4-byte Reload
	eor	r1, r1, r3
	ldrb	r6, [r6, #3]
	strb	r1, [sp, #65]
	mov	r1, #0
	ldr	r2, [r0]
	eor	r7, r6, r7
	ldr	r3, [r0, #4]
	ldr	r0, [sp, #56]                   @ 4-byte Reload
	strb	r7, [sp, #67]
	ldr	r0, [r0]
	str	r4, [sp, #8]
	str	r1, [sp, #12]
	add	r1, sp, #64
	str	r1, [sp]
	bl	aes.aes_narrow.blocks.process_all_batches.1
	bl	aes.aes_cipher.zeroize.stack.wipe_stack.1024
	add	r3, sp, #64
	ldr	r7, [sp, #60]                   @ 4-byte Reload
	ldm	r3, {r0, r1, r2, r3}
	str	r3, [r7, #12]
	str	r2, [r7, #8]
	str	r1, [r7, #4]
	str	r0, [r7]
	add	sp, sp, #116
	pop	{r4, r5, r6, r7, r8, r9, r10, r11, pc}
.Laes_func_end14:
	.size	aes.cmac.tags.tag_at_end, .Laes_func_end14-aes.cmac.tags.tag_at_end
	.cantunwind
	.fnend
                                        @ -- End function
	.section	.text.aes.cmac.pieces.MessageZeroize.zeroize,"ax",%progbits
	.p2align	2                               @ -- Begin function cmac::pieces::MessageZeroize::zeroize
	.type	aes.cmac.pieces.MessageZeroize.zeroize,%function
	.code	32
aes.cmac.pieces.MessageZeroize.zeroize: @ @aes.cmac.pieces.MessageZeroize.zeroize
	.fnstart
@ %bb.0:                                @ %start
	.save	{r4, lr}
	push	{r4, lr}
	mov	r4, r0
	mov	r0, #0
	str	r0, [r4]
	str	r0, [r4, #4]
	str	r0, [r4, #8]
	str	r0, [r4, #12]
	add	r0, r4, #16
	bl	aes.aes_cipher.zeroize.elements.zeroize_elements.2
	add	r0, r4, #32
	pop	{r4, lr}
	b	aes.aes_cipher.zeroize.elements.zeroize_elements.2
.Laes_func_end15:
	.size	aes.cmac.pieces.MessageZeroize.zeroize, .Laes_func_end15-aes.cmac.pieces.MessageZeroize.zeroize
	.cantunwind
	.fnend
                                        @ -- End function
	.section	.text.aes.aes_cipher.zeroize.elements.zeroize_elements.2,"ax",%progbits
	.p2align	2                               @ -- Begin function aes_cipher::zeroize::elements::zeroize_elements::<#331496ca003a3905>
	.type	aes.aes_cipher.zeroize.elements.zeroize_elements.2,%function
	.code	32
aes.aes_cipher.zeroize.elements.zeroize_elements.2: @ @aes.aes_cipher.zeroize.elements.zeroize_elements.2
	.fnstart
@ %bb.0:                                @ %start
	.save	{r4, r5, r11, lr}
	push	{r4, r5, r11, lr}
	.pad	#8
	sub	sp, sp, #8
	mov	r2, #0
	str	r2, [sp, #4]
	str	r2, [sp]
	@APP
	@NO_APP
	ldrd	r4, r5, [sp]
	@APP
	@NO_APP
	str	r2, [r0, #12]
	str	r2, [r0, #8]
	str	r2, [r0, #4]
	str	r2, [r0]
	mov	r3, r2
	@APP
	@NO_APP
	ldrd	r0, r1, [sp]
	strd	r2, r3, [sp]
	@APP
	@NO_APP
	add	sp, sp, #8
	mov	r1, #0
	mov	r2, #0
	mov	r3, #0
	mov	r12, #0
	mov	lr, r1
	pop	{r4, r5, r11, pc}
.Laes_func_end16:
	.size	aes.aes_cipher.zeroize.elements.zeroize_elements.2, .Laes_func_end16-aes.aes_cipher.zeroize.elements.zeroize_elements.2
	.cantunwind
	.fnend
                                        @ -- End function
	.section	.text.aes.cmac.chain_in_pieces.ChainInPieces.extend,"ax",%progbits
	.p2align	2                               @ -- Begin function cmac::chain_in_pieces::ChainInPieces::extend::<#4f733d09d7f6c6b4>
	.type	aes.cmac.chain_in_pieces.ChainInPieces.extend,%function
	.code	32
aes.cmac.chain_in_pieces.ChainInPieces.extend: @ @aes.cmac.chain_in_pieces.ChainInPieces.extend
	.fnstart
@ %bb.0:                                @ %start
	.save	{r4, r5, r6, r7, r8, r9, r10, r11, lr}
	push	{r4, r5, r6, r7, r8, r9, r10, r11, lr}
	.pad	#20
	sub	sp, sp, #20
	mov	r10, r1
	mov	r8, r0
	ldrd	r0, r1, [r0]
	mov	r3, #16
	ldr	r5, [sp, #60]
	mov	r4, #0
	cmp	r0, #16
	ldr	r7, [sp, #56]
	movhs	r0, r3
	cmp	r1, #0
	movne	r0, r3
	rsbs	r3, r0, #16
	sbc	r1, r4, #0
	subs	r6, r3, r7
	sbcs	r6, r1, r5
	bhs	.Laes_BB17_4
@ %bb.1:                                @ %join.3
	subs	r7, r7, r3
	str	r7, [sp, #16]                   @ 4-byte Spill
	sbc	r9, r5, r1
	add	r5, r8, #24
	add	r7, r2, r3
	add	r0, r5, r0
	str	r7, [sp, #8]                    @ 4-byte Spill
	subs	r7, r0, r2
	sbc	r4, r4, #0
	subs	r7, r7, r3
	sbcs	r7, r4, r1
	bhs	.Laes_BB17_8
@ %bb.2:                                @ %join.7.i.i.i.i.i.i39.preheader
	mov	r7, #0
	mov	r4, #0
.Laes_BB17_3:                               @ %join.7.i.i.i.i.i.i39
                                        @ =>This Inner Loop Header: Depth=1
	ldrb	r6, [r2, r4]
	strb	r6, [r0, r4]
	adds	r4, r4, #1
	adc	r7, r7, #0
	subs	r6, r4, r3
	sbcs	r6, r7, r1
	blo	.Laes_BB17_3
	b	.Laes_BB17_9
.Laes_BB17_4:                               @ %then.1
	adds	r6, r0, r7
	add	r0, r8, r0
	add	r0, r0, #24
	adc	r9, r5, #0
	subs	r1, r0, r2
	sbc	r3, r4, #0
	subs	r1, r1, r7
	sbcs	r1, r3, r5
	bhs	.Laes_BB17_13
@ %bb.5:                                @ %join.7.i.i.i.i.i.i.preheader
	mov	r1, #0
	mov	r3, #0
.Laes_BB17_6:                               @ %join.7.i.i.i.i.i.i
                                        @ =>This Inner Loop Header: Depth=1
	ldrb	r4, [r2, r3]
	strb	r4, [r0, r3]
	adds	r3, r3, #1
	adc	r1, r1, #0
	subs	r4, r3, r7
	sbcs	r4, r1, r5
	blo	.Laes_BB17_6
@ %bb.7:                                @ %common.ret
	stm	r8, {r6, r9}
	add	sp, sp, #20
	pop	{r4, r5, r6, r7, r8, r9, r10, r11, pc}
.Laes_BB17_8:                               @ %apart.2.i.i.i.i.i.i37
	mov	r1, r2
	mov	r2, r3
	bl	memmove
.Laes_BB17_9:                               @ %"core::slice::edits::slice+T::copy_from_slice::<i8,20'core::clone::U8Clone{}>.exit46"
	add	r6, r8, #8
	mov	r0, #16
	mov	r11, #0
	stm	sp, {r0, r11}
	mov	r0, r10
	mov	r1, r6
	mov	r2, r5
	str	r8, [sp, #12]                   @ 4-byte Spill
	bl	aes.cmac.chaining.chain
	ldr	r8, [sp, #16]                   @ 4-byte Reload
	mov	r1, r6
	subs	r0, r8, #1
	bic	r4, r0, #15
	mov	r0, r10
	ldr	r10, [sp, #8]                   @ 4-byte Reload
	sbc	r7, r9, #0
	stm	sp, {r4, r7}
	mov	r2, r10
	bl	aes.cmac.chaining.chain
	subs	r6, r8, r4
	add	r1, r10, r4
	sbc	r9, r9, r7
	subs	r0, r5, r1
	sbc	r2, r11, #0
	subs	r0, r0, r6
	sbcs	r0, r2, r9
	bhs	.Laes_BB17_14
@ %bb.10:                               @ %join.7.i.i.i.i.i.i60.preheader
	mov	r0, #0
.Laes_BB17_11:                              @ %join.7.i.i.i.i.i.i60
                                        @ =>This Inner Loop Header: Depth=1
	ldrb	r2, [r1, r0]
	strb	r2, [r5, r0]
	adds	r0, r0, #1
	adc	r11, r11, #0
	subs	r2, r0, r6
	sbcs	r2, r11, r9
	blo	.Laes_BB17_11
@ %bb.12:
	ldr	r8, [sp, #12]                   @ 4-byte Reload
	stm	r8, {r6, r9}
	add	sp, sp, #20
	pop	{r4, r5, r6, r7, r8, r9, r10, r11, pc}
.Laes_BB17_13:                              @ %apart.2.i.i.i.i.i.i
	mov	r1, r2
	mov	r2, r7
	bl	memmove
	stm	r8, {r6, r9}
	add	sp, sp, #20
	pop	{r4, r5, r6, r7, r8, r9, r10, r11, pc}
.Laes_BB17_14:                              @ %apart.2.i.i.i.i.i.i58
	mov	r0, r5
	mov	r2, r6
	bl	memmove
	ldr	r8, [sp, #12]                   @ 4-byte Reload
	stm	r8, {r6, r9}
	add	sp, sp, #20
	pop	{r4, r5, r6, r7, r8, r9, r10, r11, pc}
.Laes_func_end17:
	.size	aes.cmac.chain_in_pieces.ChainInPieces.extend, .Laes_func_end17-aes.cmac.chain_in_pieces.ChainInPieces.extend
	.cantunwind
	.fnend
                                        @ -- End function
	.section	.text.aes.key_wrap.wrapping.wrap,"ax",%progbits
	.p2align	2                               @ -- Begin function key_wrap::wrapping::wrap::<#4f733d09d7f6c6b4>
	.type	aes.key_wrap.wrapping.wrap,%function
	.code	32
aes.key_wrap.wrapping.wrap: @ @aes.key_wrap.wrapping.wrap
	.fnstart
@ %bb.0:                                @ %start
	.save	{r4, r5, r6, r7, r8, r9, r10, r11, lr}
	push	{r4, r5, r6, r7, r8, r9, r10, r11, lr}
	.pad	#12
	sub	sp, sp, #12
	adds	r4, r2, #1
	mov	r5, #1
	adc	r7, r3, #0
	subs	r6, r2, #2
	sbcs	r6, r3, #0
	blo	.Laes_BB18_7
@ %bb.1:                                @ %start
	ldr	r12, [sp, #60]
	ldr	r6, [sp, #56]
	eor	r7, r12, r7
	eor	r4, r6, r4
	orrs	r7, r4, r7
	bne	.Laes_BB18_7
@ %bb.2:                                @ %arm.12
	ldr	r10, [sp, #48]
	movw	r7, #42662
	movt	r7, #42662
	subs	r8, r6, #1
	add	r11, r10, #8
	sbc	r9, r12, #0
	str	r7, [r10, #4]
	subs	r4, r11, r1
	str	r7, [r10]
	lsl	r7, r3, #3
	orr	r12, r7, r2, lsr #29
	mov	r6, #0
	sbc	r7, r6, #0
	subs	r4, r4, r2, lsl #3
	sbcs	r7, r7, r12
	bhs	.Laes_BB18_5
@ %bb.3:                                @ %join.7.i.i.i.i.i.i.preheader
	mov	r7, #0
.Laes_BB18_4:                               @ %join.7.i.i.i.i.i.i
                                        @ =>This Inner Loop Header: Depth=1
	mov	r4, r1
	ldr	r5, [r4, r7, lsl #3]!
	ldr	r12, [r4, #4]
	mov	r4, r11
	str	r5, [r4, r7, lsl #3]!
	adds	r7, r7, #1
	adc	r6, r6, #0
	subs	r5, r7, r2
	sbcs	r5, r6, r3
	str	r12, [r4, #4]
	blo	.Laes_BB18_4
	b	.Laes_BB18_6
.Laes_BB18_5:                               @ %apart.2.i.i.i.i.i.i
	mov	r6, r0
	lsl	r2, r2, #3
	mov	r0, r11
	bl	memmove
	mov	r0, r6
.Laes_BB18_6:                               @ %"core::slice::edits::slice+T::copy_from_slice::<#76f67ba6cf9709da>.exit"
	mov	r1, r10
	mov	r2, r11
	strd	r8, r9, [sp]
	bl	aes.key_wrap.steps.wrap_in_place
	mov	r5, #0
.Laes_BB18_7:                               @ %return.10
	mov	r0, r5
	add	sp, sp, #12
	pop	{r4, r5, r6, r7, r8, r9, r10, r11, pc}
.Laes_func_end18:
	.size	aes.key_wrap.wrapping.wrap, .Laes_func_end18-aes.key_wrap.wrapping.wrap
	.cantunwind
	.fnend
                                        @ -- End function
	.section	.text.aes.key_wrap.steps.wrap_in_place,"ax",%progbits
	.p2align	2                               @ -- Begin function key_wrap::steps::wrap_in_place::<#4f733d09d7f6c6b4>
	.type	aes.key_wrap.steps.wrap_in_place,%function
	.code	32
aes.key_wrap.steps.wrap_in_place: @ @aes.key_wrap.steps.wrap_in_place
	.fnstart
@ %bb.0:                                @ %start
	.save	{r4, r5, r6, r7, r8, r9, r10, r11, lr}
	push	{r4, r5, r6, r7, r8, r9, r10, r11, lr}
	.pad	#68
	sub	sp, sp, #68
	mov	r9, r1
	ldr	r1, [sp, #108]
	ldr	r3, [sp, #104]
	orrs	r1, r3, r1
	beq	.Laes_BB19_13
@ %bb.1:                                @ %join.5.preheader
	ldr	r4, [r9]
	add	lr, sp, #48
	ldr	r7, [r9, #4]
	add	r1, lr, #8
	mov	r6, #0
	mov	r11, #0
	str	r1, [sp, #44]                   @ 4-byte Spill
	add	r1, r0, #8
	str	r1, [sp, #32]                   @ 4-byte Spill
	str	r2, [sp, #40]                   @ 4-byte Spill
	str	r0, [sp, #36]                   @ 4-byte Spill
.Laes_BB19_2:                               @ %join.5.i
                                        @ =>This Inner Loop Header: Depth=1
	ldr	r0, [sp, #32]                   @ 4-byte Reload
	ldr	r5, [sp, #40]                   @ 4-byte Reload
	ldr	r8, [sp, #44]                   @ 4-byte Reload
	ldr	r2, [r0]
	ldr	r3, [r0, #4]
	ldr	r0, [sp, #36]                   @ 4-byte Reload
	ldr	r10, [r5, r6, lsl #3]!
	str	r4, [sp, #48]
	mov	r4, #1
	ldr	r0, [r0]
	ldr	r1, [r5, #4]
	str	r10, [r8]
	str	r1, [r8, #4]
	mov	r1, #0
	str	r4, [sp, #8]
	str	r7, [sp, #52]
	str	r1, [sp, #12]
	str	lr, [sp]
	bl	aes.aes_narrow.blocks.process_all_batches.1
	bl	aes.aes_cipher.zeroize.stack.wipe_stack.1024
	ldr	r0, [sp, #48]
	adds	r6, r6, #1
	ldr	r1, [sp, #52]
	adc	r11, r11, #0
	str	r1, [r9, #4]
	add	lr, sp, #48
	str	r0, [r9]
	ldrd	r0, r1, [r8]
	str	r0, [r5]
	rev	r0, r11
	str	r1, [r5, #4]
	ldr	r1, [r9]
	ldr	r12, [sp, #104]
	ldr	r2, [r9, #4]
	eor	r4, r1, r0
	rev	r0, r6
	ldr	r3, [sp, #108]
	eor	r7, r2, r0
	subs	r0, r6, r12
	sbcs	r0, r11, r3
	str	r4, [r9]
	ldr	r0, [sp, #36]                   @ 4-byte Reload
	str	r7, [r9, #4]
	blo	.Laes_BB19_2
@ %bb.3:                                @ %"key_wrap::steps::wrap_turn::<#4f733d09d7f6c6b4>.exit.loopexit"
	adds	r1, r12, #1
	ldr	r12, [sp, #44]                  @ 4-byte Reload
	ldr	r8, [sp, #32]                   @ 4-byte Reload
	mov	r10, #0
	mov	r5, #0
	mov	r6, r0
	str	r1, [sp, #28]                   @ 4-byte Spill
	adc	r1, r3, #0
	str	r1, [sp, #24]                   @ 4-byte Spill
.Laes_BB19_4:                               @ %join.5.i.1
                                        @ =>This Inner Loop Header: Depth=1
	ldr	r0, [r6]
	ldr	r6, [sp, #40]                   @ 4-byte Reload
	ldr	r2, [r8]
	ldr	r3, [r8, #4]
	ldr	r1, [r6, r10, lsl #3]!
	str	r7, [sp, #52]
	ldr	r11, [r6, #4]
	stm	r12, {r1, r11}
	mov	r11, #1
	mov	r1, #0
	str	r11, [sp, #8]
	str	r4, [sp, #48]
	str	r1, [sp, #12]
	str	lr, [sp]
	bl	aes.aes_narrow.blocks.process_all_batches.1
	bl	aes.aes_cipher.zeroize.stack.wipe_stack.1024
	ldr	r12, [sp, #44]                  @ 4-byte Reload
	add	lr, sp, #48
	ldr	r0, [sp, #48]
	ldr	r1, [sp, #52]
	str	r1, [r9, #4]
	str	r0, [r9]
	ldrd	r0, r1, [r12]
	str	r0, [r6]
	ldr	r0, [sp, #28]                   @ 4-byte Reload
	str	r1, [r6, #4]
	ldr	r1, [sp, #24]                   @ 4-byte Reload
	adds	r0, r0, r10
	ldr	r2, [r9]
	rev	r0, r0
	adc	r1, r1, r5
	ldr	r7, [r9, #4]
	rev	r1, r1
	adds	r10, r10, #1
	eor	r4, r2, r1
	ldr	r3, [sp, #104]
	ldr	r6, [sp, #36]                   @ 4-byte Reload
	eor	r7, r7, r0
	ldr	r1, [sp, #108]
	adc	r5, r5, #0
	subs	r0, r10, r3
	str	r4, [r9]
	sbcs	r0, r5, r1
	str	r7, [r9, #4]
	blo	.Laes_BB19_4
@ %bb.5:                                @ %"key_wrap::steps::wrap_turn::<#4f733d09d7f6c6b4>.exit.loopexit.1"
	orr	r0, r11, r3, lsl #1
	str	r0, [sp, #24]                   @ 4-byte Spill
	lsl	r0, r1, #1
	mov	r10, #0
	mov	r11, #0
	orr	r0, r0, r3, lsr #31
	str	r0, [sp, #20]                   @ 4-byte Spill
.Laes_BB19_6:                               @ %join.5.i.2
                                        @ =>This Inner Loop Header: Depth=1
	ldr	r6, [sp, #40]                   @ 4-byte Reload
	ldr	r0, [sp, #36]                   @ 4-byte Reload
	ldr	r2, [r8]
	ldr	r1, [r6, r10, lsl #3]!
	ldr	r3, [r8, #4]
	ldr	r0, [r0]
	ldr	r5, [r6, #4]
	stm	r12, {r1, r5}
	mov	r1, #1
	str	r7, [sp, #52]
	mov	r7, #1
	str	r1, [sp, #28]                   @ 4-byte Spill
	mov	r1, #0
	str	r7, [sp, #8]
	str	r4, [sp, #48]
	str	r1, [sp, #12]
	str	lr, [sp]
	bl	aes.aes_narrow.blocks.process_all_batches.1
	bl	aes.aes_cipher.zeroize.stack.wipe_stack.1024
	ldr	r12, [sp, #44]                  @ 4-byte Reload
	add	lr, sp, #48
	ldr	r0, [sp, #48]
	ldr	r1, [sp, #52]
	str	r1, [r9, #4]
	str	r0, [r9]
	ldrd	r0, r1, [r12]
	str	r0, [r6]
	ldr	r0, [sp, #24]                   @ 4-byte Reload
	str	r1, [r6, #4]
	ldr	r1, [sp, #20]                   @ 4-byte Reload
	adds	r0, r0, r10
	ldr	r2, [r9]
	rev	r0, r0
	adc	r1, r1, r11
	ldr	r3, [r9, #4]
	rev	r1, r1
	adds	r10, r10, #1
	eor	r4, r2, r1
	ldr	r5, [sp, #104]
	ldr	r1, [sp, #108]
	eor	r7, r3, r0
	adc	r11, r11, #0
	subs	r0, r10, r5
	sbcs	r0, r11, r1
	str	r4, [r9]
	str	r7, [r9, #4]
	blo	.Laes_BB19_6
@ %bb.7:                                @ %"key_wrap::steps::wrap_turn::<#4f733d09d7f6c6b4>.exit.loopexit.2"
	add	r2, r1, r1, lsl #1
	ldr	r1, [sp, #28]                   @ 4-byte Reload
	mov	r0, #3
	mov	r10, #0
	umlal	r1, r2, r5, r0
	mov	r6, #0
	str	r2, [sp, #24]                   @ 4-byte Spill
	str	r1, [sp, #28]                   @ 4-byte Spill
.Laes_BB19_8:                               @ %join.5.i.3
                                        @ =>This Inner Loop Header: Depth=1
	ldr	r2, [r8]
	ldr	r3, [r8, #4]
	ldr	r8, [sp, #40]                   @ 4-byte Reload
	ldr	r0, [sp, #36]                   @ 4-byte Reload
	str	r7, [sp, #52]
	ldr	r1, [r8, r10, lsl #3]!
	ldr	r0, [r0]
	ldr	r11, [r8, #4]
	stm	r12, {r1, r11}
	mov	r11, #1
	mov	r1, #0
	str	r11, [sp, #8]
	str	r4, [sp, #48]
	str	r1, [sp, #12]
	str	lr, [sp]
	bl	aes.aes_narrow.blocks.process_all_batches.1
	bl	aes.aes_cipher.zeroize.stack.wipe_stack.1024
	ldr	r12, [sp, #44]                  @ 4-byte Reload
	add	lr, sp, #48
	ldr	r0, [sp, #48]
	ldr	r1, [sp, #52]
	str	r1, [r9, #4]
	str	r0, [r9]
	ldrd	r0, r1, [r12]
	str	r0, [r8]
	ldr	r0, [sp, #28]                   @ 4-byte Reload
	str	r1, [r8, #4]
	ldr	r1, [sp, #24]                   @ 4-byte Reload
	adds	r0, r0, r10
	ldr	r2, [r9]
	rev	r0, r0
	adc	r1, r1, r6
	ldr	r3, [r9, #4]
	rev	r1, r1
	adds	r10, r10, #1
	eor	r4, r2, r1
	ldr	r5, [sp, #104]
	ldr	r8, [sp, #32]                   @ 4-byte Reload
	eor	r7, r3, r0
	ldr	r1, [sp, #108]
	adc	r6, r6, #0
	subs	r0, r10, r5
	str	r4, [r9]
	sbcs	r0, r6, r1
	str	r7, [r9, #4]
	blo	.Laes_BB19_8
@ %bb.9:                                @ %"key_wrap::steps::wrap_turn::<#4f733d09d7f6c6b4>.exit.loopexit.3"
	orr	r0, r11, r5, lsl #2
	ldr	r11, [sp, #36]                  @ 4-byte Reload
	str	r0, [sp, #24]                   @ 4-byte Spill
	lsl	r0, r1, #2
	mov	r10, #0
	mov	r6, #0
	orr	r0, r0, r5, lsr #30
	str	r0, [sp, #20]                   @ 4-byte Spill
.Laes_BB19_10:                              @ %join.5.i.4
                                        @ =>This Inner Loop Header: Depth=1
	ldr	r5, [sp, #40]                   @ 4-byte Reload
	ldr	r2, [r8]
	ldr	r3, [r8, #4]
	ldr	r8, [r5, r10, lsl #3]!
	ldr	r0, [r11]
	ldr	r1, [r5, #4]
	str	r8, [r12]
	str	r1, [r12, #4]
	mov	r1, #1
	str	r7, [sp, #52]
	mov	r7, #1
	str	r1, [sp, #28]                   @ 4-byte Spill
	mov	r1, #0
	str	r7, [sp, #8]
	ldr	r8, [sp, #32]                   @ 4-byte Reload
	str	r4, [sp, #48]
	str	r1, [sp, #12]
	str	lr, [sp]
	bl	aes.aes_narrow.blocks.process_all_batches.1
	bl	aes.aes_cipher.zeroize.stack.wipe_stack.1024
	ldr	r12, [sp, #44]                  @ 4-byte Reload
	add	lr, sp, #48
	ldr	r0, [sp, #48]
	ldr	r1, [sp, #52]
	str	r1, [r9, #4]
	str	r0, [r9]
	ldrd	r0, r1, [r12]
	str	r0, [r5]
	ldr	r0, [sp, #24]                   @ 4-byte Reload
	str	r1, [r5, #4]
	ldr	r1, [sp, #20]                   @ 4-byte Reload
	adds	r0, r0, r10
	ldr	r2, [r9]
	rev	r0, r0
	adc	r1, r1, r6
	ldr	r7, [r9, #4]
	rev	r1, r1
	adds	r10, r10, #1
	eor	r4, r2, r1
	ldr	r3, [sp, #104]
	ldr	r1, [sp, #108]
	eor	r7, r7, r0
	adc	r6, r6, #0
	subs	r0, r10, r3
	sbcs	r0, r6, r1
	str	r4, [r9]
	str	r7, [r9, #4]
	blo	.Laes_BB19_10
@ %bb.11:                               @ %"key_wrap::steps::wrap_turn::<#4f733d09d7f6c6b4>.exit.loopexit.4"
	add	r2, r1, r1, lsl #2
	ldr	r1, [sp, #28]                   @ 4-byte Reload
	mov	r0, #5
	mov	r10, #0
	umlal	r1, r2, r3, r0
	mov	r6, #0
	str	r2, [sp, #24]                   @ 4-byte Spill
	str	r1, [sp, #28]                   @ 4-byte Spill
.Laes_BB19_12:                              @ %join.5.i.5
                                        @ =>This Inner Loop Header: Depth=1
	ldr	r5, [sp, #40]                   @ 4-byte Reload
	mov	r1, r11
	ldr	r2, [r8]
	ldr	r3, [r8, #4]
	ldr	r12, [r5, r10, lsl #3]!
	ldr	r8, [sp, #44]                   @ 4-byte Reload
	ldr	r0, [r11]
	ldr	r11, [r5, #4]
	str	r12, [r8]
	str	r11, [r8, #4]
	mov	r11, r1
	str	r4, [sp, #48]
	mov	r4, #1
	mov	r1, #0
	str	r4, [sp, #8]
	ldr	r8, [sp, #32]                   @ 4-byte Reload
	str	r7, [sp, #52]
	str	r1, [sp, #12]
	str	lr, [sp]
	bl	aes.aes_narrow.blocks.process_all_batches.1
	bl	aes.aes_cipher.zeroize.stack.wipe_stack.1024
	ldr	r0, [sp, #48]
	add	lr, sp, #48
	str	r0, [r9]
	ldr	r0, [sp, #44]                   @ 4-byte Reload
	ldr	r1, [sp, #52]
	str	r1, [r9, #4]
	ldrd	r0, r1, [r0]
	str	r0, [r5]
	ldr	r0, [sp, #28]                   @ 4-byte Reload
	str	r1, [r5, #4]
	adds	r0, r0, r10
	ldr	r3, [r9, #4]
	ldr	r1, [sp, #24]                   @ 4-byte Reload
	rev	r0, r0
	eor	r7, r3, r0
	ldr	r0, [sp, #104]
	adc	r1, r1, r6
	adds	r10, r10, #1
	ldr	r2, [r9]
	rev	r1, r1
	adc	r6, r6, #0
	subs	r0, r10, r0
	ldr	r0, [sp, #108]
	eor	r4, r2, r1
	str	r4, [r9]
	sbcs	r0, r6, r0
	str	r7, [r9, #4]
	blo	.Laes_BB19_12
.Laes_BB19_13:                              @ %after.1
	add	sp, sp, #68
	pop	{r4, r5, r6, r7, r8, r9, r10, r11, pc}
.Laes_func_end19:
	.size	aes.key_wrap.steps.wrap_in_place, .Laes_func_end19-aes.key_wrap.steps.wrap_in_place
	.cantunwind
	.fnend
                                        @ -- End function
	.section	.text.aes.aes_cipher.zeroize.stack.wipe_stack.512,"ax",%progbits
	.p2align	2                               @ -- Begin function aes_cipher::zeroize::stack::wipe_stack::<=512>
	.type	aes.aes_cipher.zeroize.stack.wipe_stack.512,%function
	.code	32
aes.aes_cipher.zeroize.stack.wipe_stack.512: @ @aes.aes_cipher.zeroize.stack.wipe_stack.512
	.fnstart
@ %bb.0:                                @ %start
	.save	{r4, r5, r6, r7, r8, lr}
	push	{r4, r5, r6, r7, r8, lr}
	.pad	#520
	sub	sp, sp, #520
	add	r4, sp, #8
	mov	r1, #0
	mov	r2, #512
	mov	r7, #0
	mov	r0, r4
	bl	memset
	str	r7, [sp, #4]
	str	r7, [sp]
	@APP
	@NO_APP
	ldrd	r0, r1, [sp]
	@APP
	@NO_APP
	subs	r2, r0, #512
	sbcs	r2, r1, #0
	bhs	.Laes_BB20_2
@ %bb.1:                                @ %then.1
	ldrb	r6, [r4, r0]
	@APP
	@NO_APP
	ldrd	r0, r1, [sp]
	strd	r6, r7, [sp]
	@APP
	@NO_APP
	add	sp, sp, #520
	mov	r1, #0
	mov	r2, #0
	mov	r3, #0
	mov	r12, #0
	mov	lr, r1
	pop	{r4, r5, r6, r7, r8, pc}
.Laes_BB20_2:                               @ %common.ret
	add	sp, sp, #520
	mov	r1, #0
	mov	r2, #0
	mov	r3, #0
	mov	r12, #0
	mov	lr, r1
	pop	{r4, r5, r6, r7, r8, pc}
.Laes_func_end20:
	.size	aes.aes_cipher.zeroize.stack.wipe_stack.512, .Laes_func_end20-aes.aes_cipher.zeroize.stack.wipe_stack.512
	.cantunwind
	.fnend
                                        @ -- End function
	.section	.text.aes.key_wrap.padded.wrap_padded,"ax",%progbits
	.p2align	2                               @ -- Begin function key_wrap::padded::wrap_padded::<#4f733d09d7f6c6b4>
	.type	aes.key_wrap.padded.wrap_padded,%function
	.code	32
aes.key_wrap.padded.wrap_padded: @ @aes.key_wrap.padded.wrap_padded
	.fnstart
@ %bb.0:                                @ %start
	.save	{r4, r5, r6, r7, r8, r9, r10, r11, lr}
	push	{r4, r5, r6, r7, r8, r9, r10, r11, lr}
	.pad	#52
	sub	sp, sp, #52
	mov	r7, r1
	mov	r11, #1
	orrs	r1, r2, r3
	beq	.Laes_BB21_7
@ %bb.1:                                @ %"key_wrap::padded::fits.exit"
	mov	r9, r2
	mov	r6, #2
	tst	r9, #7
	ldr	r1, [sp, #100]
	movweq	r6, #1
	ldr	r2, [sp, #96]
	add	r6, r6, r9, lsr #3
	eor	r6, r2, r6
	orrs	r6, r6, r1
	bne	.Laes_BB21_7
@ %bb.2:                                @ %arm.5
	movw	r6, #22950
	ldr	r10, [sp, #88]
	movt	r6, #42585
	subs	r2, r2, #1
	orr	r6, r3, r6
	sbc	r5, r1, #0
	rev	r4, r6
	rev	r12, r9
	add	r6, r10, #8
	orrs	r1, r2, r5
	str	r12, [r10, #4]
	str	r4, [r10]
	beq	.Laes_BB21_8
@ %bb.3:                                @ %join.5.i.preheader
	mov	r10, #0
	mov	r11, #0
	str	r4, [sp, #16]                   @ 4-byte Spill
	str	r12, [sp, #20]                  @ 4-byte Spill
	str	r0, [sp, #24]                   @ 4-byte Spill
	str	r2, [sp, #28]                   @ 4-byte Spill
.Laes_BB21_4:                               @ %join.5.i
                                        @ =>This Inner Loop Header: Depth=1
	mov	r0, #0
	subs	r2, r9, r10, lsl #3
	str	r0, [sp, #32]
	mov	r1, #8
	str	r0, [sp, #36]
	lsl	r0, r11, #3
	orr	r0, r0, r10, lsr #29
	add	r8, sp, #32
	sbc	r0, r3, r0
	cmp	r2, #8
	movhs	r2, r1
	cmp	r0, #0
	movne	r2, r1
	add	r1, r7, r10, lsl #3
	mov	r0, r8
	mov	r4, r3
	bl	memcpy
	ldr	r0, [sp, #32]
	mov	r2, r6
	ldr	r1, [sp, #36]
	mov	r3, r4
	str	r0, [r2, r10, lsl #3]!
	adds	r10, r10, #1
	adc	r11, r11, #0
	str	r1, [r2, #4]
	ldr	r2, [sp, #28]                   @ 4-byte Reload
	subs	r0, r10, r2
	sbcs	r0, r11, r5
	blo	.Laes_BB21_4
@ %bb.5:                                @ %"key_wrap::padded::fill.exit"
	eor	r0, r2, #1
	ldr	r10, [sp, #88]
	orrs	r0, r0, r5
	ldr	r3, [sp, #20]                   @ 4-byte Reload
	ldr	r0, [sp, #24]                   @ 4-byte Reload
	ldr	r1, [sp, #16]                   @ 4-byte Reload
	bne	.Laes_BB21_8
@ %bb.6:                                @ %then.1.i
	str	r1, [sp, #32]
	mov	r7, r8
	ldr	r1, [r6]
	mov	r11, #0
	ldr	r2, [r6, #4]
	mov	r8, #1
	str	r1, [sp, #40]
	ldr	r1, [r0]
	str	r2, [sp, #44]
	str	r3, [sp, #36]
	ldr	r2, [r0, #8]
	ldr	r3, [r0, #12]
	mov	r0, r1
	str	r8, [sp, #8]
	str	r11, [sp, #12]
	str	r7, [sp]
	bl	aes.aes_narrow.blocks.process_all_batches.1
	bl	aes.aes_cipher.zeroize.stack.wipe_stack.1024
	add	r3, sp, #32
	ldm	r3, {r0, r1, r2, r3}
	str	r1, [r10, #4]
	str	r0, [r10]
	str	r3, [r6, #4]
	str	r2, [r6]
.Laes_BB21_7:                               @ %return.4
	mov	r0, r11
	add	sp, sp, #52
	pop	{r4, r5, r6, r7, r8, r9, r10, r11, pc}
.Laes_BB21_8:                               @ %else.2.i
	stm	sp, {r2, r5}
	mov	r1, r10
	mov	r2, r6
	bl	aes.key_wrap.steps.wrap_in_place
	mov	r11, #0
	mov	r0, r11
	add	sp, sp, #52
	pop	{r4, r5, r6, r7, r8, r9, r10, r11, pc}
.Laes_func_end21:
	.size	aes.key_wrap.padded.wrap_padded, .Laes_func_end21-aes.key_wrap.padded.wrap_padded
	.cantunwind
	.fnend
                                        @ -- End function
	.section	.text.aes.aes_narrow.borrowed_words.call_to_decrypt,"ax",%progbits
	.p2align	2                               @ -- Begin function aes_narrow::borrowed_words::call_to_decrypt::<#a8a74a144d92a363>
	.type	aes.aes_narrow.borrowed_words.call_to_decrypt,%function
	.code	32
aes.aes_narrow.borrowed_words.call_to_decrypt: @ @aes.aes_narrow.borrowed_words.call_to_decrypt
	.fnstart
@ %bb.0:                                @ %start
	.save	{r4, r5, r6, r7, r8, r9, r10, r11, lr}
	push	{r4, r5, r6, r7, r8, r9, r10, r11, lr}
	.pad	#100
	sub	sp, sp, #100
	.pad	#1024
	sub	sp, sp, #1024
	ldr	r1, [sp, #1160]
	mov	r7, r0
	ldr	r5, [r1, #24]
	ldr	r9, [r1, #28]
	orrs	r0, r5, r9
	beq	.Laes_BB22_10
@ %bb.1:                                @ %join.5.lr.ph.i.i
	ldr	r0, [r1, #16]
	mov	r8, r3
	mov	r10, r2
	mov	r4, #0
	mov	r6, #0
	str	r0, [sp, #24]                   @ 4-byte Spill
	str	r9, [sp, #28]                   @ 4-byte Spill
	str	r3, [sp, #44]                   @ 4-byte Spill
	str	r2, [sp, #40]                   @ 4-byte Spill
	str	r7, [sp, #36]                   @ 4-byte Spill
	str	r5, [sp, #32]                   @ 4-byte Spill
.Laes_BB22_2:                               @ %join.5.i.i
                                        @ =>This Loop Header: Depth=1
                                        @     Child Loop BB22_4 Depth 2
                                        @     Child Loop BB22_6 Depth 2
                                        @     Child Loop BB22_8 Depth 2
	add	r11, sp, #96
	mov	r1, #0
	mov	r2, #1024
	mov	r0, r11
	bl	memset
	subs	r5, r5, r4
	mov	r1, #64
	sbc	r9, r9, r6
	cmp	r5, #64
	movlo	r1, r5
	mov	r0, #64
	cmp	r9, #0
	movne	r1, r0
	adds	r0, r1, r4
	str	r0, [sp, #48]                   @ 4-byte Spill
	adc	r6, r6, #0
	ldr	r0, [sp, #24]                   @ 4-byte Reload
	lsl	r2, r1, #4
	str	r6, [sp, #52]                   @ 4-byte Spill
	add	r4, r0, r4, lsl #4
	subs	r0, r11, r4
	mov	r11, r1
	mov	r1, #0
	sbc	r1, r1, #0
	subs	r0, r0, r11, lsl #4
	sbcs	r0, r1, r11, lsr #28
	mov	r1, r4
	add	r0, sp, #96
	bl	memcpy
	subs	r0, r5, #2
	mov	r6, r4
	mov	r4, #0
	mov	r5, #0
	sbcs	r0, r9, #0
	blo	.Laes_BB22_6
@ %bb.3:                                @ %join.5.i.i.i.i.preheader
                                        @   in Loop: Header=BB22_2 Depth=1
	mov	r9, #0
.Laes_BB22_4:                               @ %join.5.i.i.i.i
                                        @   Parent Loop BB22_2 Depth=1
                                        @ =>  This Inner Loop Header: Depth=2
	mov	r0, r6
	mov	r6, #2
	str	r6, [sp, #8]
	mov	r6, r0
	add	r0, r0, r4, lsl #4
	str	r0, [sp]
	mov	r0, r7
	mov	r2, r10
	mov	r3, r8
	str	r9, [sp, #12]
	bl	aes.aes_soft.soft.blocks.filled_up.process_filled_up.2
	adds	r4, r4, #2
	adc	r5, r5, #0
	subs	r0, r11, r4
	rsc	r1, r5, #0
	rsbs	r0, r0, #1
	rscs	r0, r1, #0
	blo	.Laes_BB22_4
	b	.Laes_BB22_6
.Laes_BB22_5:                               @ %join.10.i.i.i.i
                                        @   in Loop: Header=BB22_6 Depth=2
	mov	r1, #0
	mov	r0, #1
	strd	r0, r1, [sp, #8]
	add	r0, r6, r4, lsl #4
	str	r0, [sp]
	mov	r0, r7
	mov	r2, r10
	mov	r3, r8
	bl	aes.aes_soft.soft.blocks.filled_up.process_filled_up.2
	adds	r4, r4, #1
	adc	r5, r5, #0
.Laes_BB22_6:                               @ %join.10.i.i.i.i
                                        @   Parent Loop BB22_2 Depth=1
                                        @ =>  This Inner Loop Header: Depth=2
	subs	r0, r4, r11
	sbcs	r0, r5, #0
	blo	.Laes_BB22_5
@ %bb.7:                                @ %join.7.lr.ph.i.i.i
                                        @   in Loop: Header=BB22_2 Depth=1
	ldr	r3, [sp, #1160]
	mov	lr, #0
	str	r6, [sp, #60]                   @ 4-byte Spill
	str	r11, [sp, #56]                  @ 4-byte Spill
	ldrb	r0, [r3, #14]
	str	r0, [sp, #72]                   @ 4-byte Spill
	ldrb	r0, [r3, #13]
	str	r0, [sp, #80]                   @ 4-byte Spill
	ldrb	r0, [r3, #12]
	ldrb	r1, [r3, #7]
	str	r0, [sp, #84]                   @ 4-byte Spill
	str	r1, [sp, #92]                   @ 4-byte Spill
	ldrb	r1, [r3, #4]
	ldrb	r7, [r3, #15]
	ldrb	r12, [r3, #11]
	ldrb	r8, [r3, #10]
	ldrb	r9, [r3, #9]
	ldrb	r10, [r3, #8]
	ldrb	r0, [r3, #6]
	ldrb	r11, [r3, #5]
	ldrb	r2, [r3]
	ldrb	r5, [r3, #1]
	ldrb	r6, [r3, #2]
	str	r1, [sp, #88]                   @ 4-byte Spill
	ldrb	r1, [r3, #3]
	str	r1, [sp, #76]                   @ 4-byte Spill
	mov	r1, #0
.Laes_BB22_8:                               @ %join.7.i.i.i
                                        @   Parent Loop BB22_2 Depth=1
                                        @ =>  This Inner Loop Header: Depth=2
	ldr	r3, [sp, #60]                   @ 4-byte Reload
	str	r5, [sp, #68]                   @ 4-byte Spill
	mov	r5, r12
	str	r6, [sp, #64]                   @ 4-byte Spill
	ldrb	r12, [r3, r1, lsl #4]!
	ldr	r4, [sp, #1160]
	eor	r2, r12, r2
	strb	r2, [r3]
	ldrb	r2, [r3, #15]
	ldrb	r6, [r3, #3]
	eor	r2, r2, r7
	strb	r2, [r3, #15]
	ldrb	r2, [r3, #14]
	ldr	r7, [sp, #72]                   @ 4-byte Reload
	eor	r2, r2, r7
	strb	r2, [r3, #14]
	ldrb	r2, [r3, #13]
	ldr	r7, [sp, #80]                   @ 4-byte Reload
	eor	r2, r2, r7
	strb	r2, [r3, #13]
	ldrb	r2, [r3, #12]
	ldr	r7, [sp, #84]                   @ 4-byte Reload
	eor	r2, r2, r7
	strb	r2, [r3, #12]
	ldrb	r2, [r3, #11]
	ldr	r7, [sp, #92]                   @ 4-byte Reload
	eor	r2, r2, r5
	strb	r2, [r3, #11]
	ldrb	r2, [r3, #10]
	ldrb	r5, [r3, #4]
	eor	r2, r2, r8
	strb	r2, [r3, #10]
	ldrb	r2, [r3, #9]
	eor	r2, r2, r9
	strb	r2, [r3, #9]
	ldrb	r2, [r3, #8]
	eor	r2, r2, r10
	strb	r2, [r3, #8]
	ldrb	r2, [r3, #7]
	eor	r2, r2, r7
	strb	r2, [r3, #7]
	ldrb	r2, [r3, #6]
	ldrb	r7, [r3, #2]
	eor	r2, r2, r0
	ldr	r0, [sp, #88]                   @ 4-byte Reload
	strb	r2, [r3, #6]
	eor	r5, r5, r0
	ldr	r0, [sp, #76]                   @ 4-byte Reload
	ldrb	r2, [r3, #5]
	eor	r6, r6, r0
	ldr	r0, [sp, #64]                   @ 4-byte Reload
	eor	r2, r2, r11
	strb	r2, [r3, #5]
	eor	r7, r7, r0
	ldrb	r2, [r3, #1]
	ldr	r0, [sp, #68]                   @ 4-byte Reload
	strb	r5, [r3, #4]
	eor	r2, r2, r0
	add	r0, sp, #96
	strb	r2, [r3, #1]
	add	r2, r0, r1, lsl #4
	strb	r6, [r3, #3]
	strb	r7, [r3, #2]
	ldrb	r0, [r2, #14]
	str	r0, [sp, #72]                   @ 4-byte Spill
	strb	r0, [r4, #14]
	ldrb	r0, [r2, #13]
	ldrb	r3, [r2, #7]
	str	r0, [sp, #80]                   @ 4-byte Spill
	strb	r0, [r4, #13]
	ldrb	r0, [r2, #12]
	ldrb	r7, [r2, #15]
	ldrb	r12, [r2, #11]
	ldrb	r8, [r2, #10]
	ldrb	r9, [r2, #9]
	ldrb	r10, [r2, #8]
	ldrb	r11, [r2, #5]
	ldrb	r5, [r2, #1]
	ldrb	r6, [r2, #2]
	str	r0, [sp, #84]                   @ 4-byte Spill
	strb	r0, [r4, #12]
	ldrb	r0, [r2, #6]
	str	r3, [sp, #92]                   @ 4-byte Spill
	strb	r3, [r4, #7]
	ldrb	r3, [r2, #3]
	ldrb	r2, [r2, #4]
	str	r2, [sp, #88]                   @ 4-byte Spill
	strb	r2, [r4, #4]
	add	r2, sp, #96
	str	r3, [sp, #76]                   @ 4-byte Spill
	ldrb	r2, [r2, r1, lsl #4]
	adds	r1, r1, #1
	strb	r3, [r4, #3]
	ldr	r3, [sp, #56]                   @ 4-byte Reload
	adc	lr, lr, #0
	strb	r7, [r4, #15]
	subs	r3, r1, r3
	strb	r12, [r4, #11]
	sbcs	r3, lr, #0
	strb	r8, [r4, #10]
	strb	r9, [r4, #9]
	strb	r10, [r4, #8]
	strb	r0, [r4, #6]
	strb	r11, [r4, #5]
	strb	r6, [r4, #2]
	strb	r5, [r4, #1]
	strb	r2, [r4]
	blo	.Laes_BB22_8
@ %bb.9:                                @ %"cbc::decryption::unchain_part::<#c3f6a2486d05430b>.exit.loopexit.i.i"
                                        @   in Loop: Header=BB22_2 Depth=1
	ldr	r5, [sp, #32]                   @ 4-byte Reload
	ldr	r4, [sp, #48]                   @ 4-byte Reload
	ldr	r9, [sp, #28]                   @ 4-byte Reload
	ldr	r6, [sp, #52]                   @ 4-byte Reload
	subs	r0, r4, r5
	ldr	r8, [sp, #44]                   @ 4-byte Reload
	ldr	r10, [sp, #40]                  @ 4-byte Reload
	sbcs	r0, r6, r9
	ldr	r7, [sp, #36]                   @ 4-byte Reload
	blo	.Laes_BB22_2
.Laes_BB22_10:                              @ %"cbc::decryption::ChainBlockCipherDecClosure::call::<#c3f6a2486d05430b>.exit"
	add	sp, sp, #100
	add	sp, sp, #1024
	pop	{r4, r5, r6, r7, r8, r9, r10, r11, pc}
.Laes_func_end22:
	.size	aes.aes_narrow.borrowed_words.call_to_decrypt, .Laes_func_end22-aes.aes_narrow.borrowed_words.call_to_decrypt
	.cantunwind
	.fnend
                                        @ -- End function
	.section	.text.aes.aes_soft.soft.blocks.filled_up.process_filled_up.2,"ax",%progbits
	.p2align	2                               @ -- Begin function aes_soft::soft::blocks::filled_up::process_filled_up::<#a3dcb71d05bd149b>
	.type	aes.aes_soft.soft.blocks.filled_up.process_filled_up.2,%function
	.code	32
aes.aes_soft.soft.blocks.filled_up.process_filled_up.2: @ @aes.aes_soft.soft.blocks.filled_up.process_filled_up.2
	.fnstart
@ %bb.0:                                @ %start
	.save	{r4, r5, r6, r7, r8, r9, r10, r11, lr}
	push	{r4, r5, r6, r7, r8, r9, r10, r11, lr}
	.pad	#140
	sub	sp, sp, #140
	ldr	r11, [sp, #176]
	mov	r12, r0
	mov	r0, #0
	ldr	r8, [sp, #188]
	str	r0, [sp, #100]
	str	r0, [sp, #96]
	str	r0, [sp, #92]
	str	r0, [sp, #88]
	str	r0, [sp, #84]
	str	r0, [sp, #80]
	str	r0, [sp, #76]
	str	r0, [sp, #72]
	str	r0, [sp, #40]
	str	r0, [sp, #44]
	str	r0, [sp, #48]
	str	r0, [sp, #52]
	str	r0, [sp, #56]
	str	r0, [sp, #60]
	str	r0, [sp, #64]
	str	r0, [sp, #68]
	str	r0, [sp, #8]
	str	r0, [sp, #12]
	str	r0, [sp, #16]
	str	r0, [sp, #20]
	str	r0, [sp, #24]
	str	r0, [sp, #28]
	str	r0, [sp, #32]
	str	r0, [sp, #36]
	ldr	r0, [r11]
	str	r0, [sp, #104]
	str	r0, [sp, #120]
	lsr	r0, r2, #3
	orr	r0, r0, r3, lsl #29
	ldr	r9, [sp, #184]
	lsr	r3, r3, #3
	subs	r2, r0, #1
	sbc	r3, r3, #0
	orrs	r0, r9, r8
	clz	r0, r0
	ldr	r7, [r11, #4]
	ldr	r6, [r11, #8]
	ldr	r4, [r11, #12]
	lsr	r10, r0, #5
	str	r4, [sp, #116]
	str	r6, [sp, #112]
	str	r7, [sp, #108]
	str	r7, [sp, #124]
	str	r6, [sp, #128]
	str	r4, [sp, #132]
	beq	.Laes_BB23_2
@ %bb.1:                                @ %join.8.i
	ldr	r0, [r11]
	add	lr, sp, #104
	ldr	r6, [r11, #12]
	ldr	r1, [r11, #4]
	ldr	r7, [r11, #8]
	stm	lr, {r0, r1, r7}
	eor	r0, r9, #1
	orrs	r0, r0, r8
	str	r6, [sp, #116]
	bne	.Laes_BB23_3
.Laes_BB23_2:                               @ %then.6.i
	add	r0, sp, #104
	add	r4, sp, #40
	ldm	r0!, {r1, r5, r6, r7}
	stm	r4!, {r1, r5, r6, r7}
	ldm	r0, {r1, r5, r6, r7}
	stm	r4, {r1, r5, r6, r7}
	b	.Laes_BB23_4
.Laes_BB23_3:                               @ %join.8.i.1
	ldr	r0, [r11, #16]
	add	lr, sp, #120
	ldr	r6, [r11, #28]
	ldr	r1, [r11, #20]
	ldr	r7, [r11, #24]
	stm	lr, {r0, r1, r7}
	add	r0, sp, #104
	add	r1, sp, #40
	str	r6, [sp, #132]
	ldm	r0!, {r4, r5, r6, r7}
	stm	r1!, {r4, r5, r6, r7}
	ldm	r0, {r4, r5, r6, r7}
	stm	r1, {r4, r5, r6, r7}
.Laes_BB23_4:                               @ %"aes_soft::soft::blocks::filled_up::filled_up::<#7d3b633001169d8c>.exit"
	add	r4, sp, #8
	add	r0, sp, #40
	str	r0, [sp]
	mov	r1, r12
	mov	r0, r4
	bl	aes.aes_soft.soft.ciphers.planes.process_outlined.2
	ldm	r4!, {r1, r2, r3, r7}
	add	r0, sp, #72
	cmp	r10, #0
	stm	r0!, {r1, r2, r3, r7}
	ldm	r4, {r1, r2, r3, r7}
	stm	r0, {r1, r2, r3, r7}
	bne	.Laes_BB23_7
@ %bb.5:                                @ %join.8.i22
	add	r3, sp, #72
	ldm	r3, {r0, r1, r2, r3}
	str	r0, [r11]
	eor	r0, r9, #1
	orrs	r0, r0, r8
	str	r3, [r11, #12]
	str	r2, [r11, #8]
	str	r1, [r11, #4]
	beq	.Laes_BB23_7
@ %bb.6:                                @ %join.8.i22.1
	add	r3, sp, #88
	ldm	r3, {r0, r1, r2, r3}
	str	r3, [r11, #28]
	str	r2, [r11, #24]
	str	r1, [r11, #20]
	str	r0, [r11, #16]
.Laes_BB23_7:                               @ %"aes_soft::soft::blocks::filled_up::copy_first::<#7d3b633001169d8c>.exit"
	add	sp, sp, #140
	pop	{r4, r5, r6, r7, r8, r9, r10, r11, pc}
.Laes_func_end23:
	.size	aes.aes_soft.soft.blocks.filled_up.process_filled_up.2, .Laes_func_end23-aes.aes_soft.soft.blocks.filled_up.process_filled_up.2
	.cantunwind
	.fnend
                                        @ -- End function
	.section	.text.aes.aes_soft.soft.ciphers.planes.process_outlined.2,"ax",%progbits
	.p2align	2                               @ -- Begin function aes_soft::soft::ciphers::planes::process_outlined::<#4da0d9798c91611c>
	.type	aes.aes_soft.soft.ciphers.planes.process_outlined.2,%function
	.code	32
aes.aes_soft.soft.ciphers.planes.process_outlined.2: @ @aes.aes_soft.soft.ciphers.planes.process_outlined.2
	.fnstart
@ %bb.0:                                @ %start
	.save	{r4, r5, r6, r7, r8, r9, r10, r11, lr}
	push	{r4, r5, r6, r7, r8, r9, r10, r11, lr}
	.pad	#148
	sub	sp, sp, #148
	str	r0, [sp, #8]                    @ 4-byte Spill
	mov	r11, r1
	ldr	r0, [sp, #184]
	movw	r4, #21845
	str	r3, [sp, #124]                  @ 4-byte Spill
	movt	r4, #21845
	str	r2, [sp, #144]                  @ 4-byte Spill
	movw	r5, #13107
	ldr	r3, [r0]
	movt	r5, #13107
	ldr	r1, [r0, #16]
	ldr	r7, [r0, #4]
	eor	r2, r1, r3, lsr #1
	ldr	lr, [r0, #20]
	and	r10, r2, r4
	str	r1, [sp, #136]                  @ 4-byte Spill
	ldr	r6, [r0, #8]
	eor	r1, r3, r10, lsl #1
	eor	r3, lr, r7, lsr #1
	and	r9, r3, r4
	ldr	r8, [r0, #24]
	str	r1, [sp, #140]                  @ 4-byte Spill
	eor	lr, r9, lr
	eor	r3, r7, r9, lsl #1
	ldr	r12, [r0, #12]
	eor	r7, r3, r1, lsr #2
	str	r11, [sp, #20]                  @ 4-byte Spill
	and	r1, r7, r5
	str	r1, [sp, #132]                  @ 4-byte Spill
	eor	r2, r1, r3
	eor	r3, r8, r6, lsr #1
	and	r7, r3, r4
	str	r2, [sp, #128]                  @ 4-byte Spill
	eor	r1, r6, r7, lsl #1
	ldr	r6, [r0, #28]
	str	r1, [sp, #116]                  @ 4-byte Spill
	eor	r0, r6, r12, lsr #1
	and	r0, r0, r4
	eor	r3, r12, r0, lsl #1
	eor	r4, r3, r1, lsr #2
	and	r1, r4, r5
	str	r1, [sp, #108]                  @ 4-byte Spill
	eor	r3, r1, r3
	movw	r1, #3855
	eor	r12, r3, r2, lsr #4
	movt	r1, #3855
	and	r2, r12, r1
	ldr	r1, [sp, #144]                  @ 4-byte Reload
	mov	r12, r11
	str	r2, [sp, #120]                  @ 4-byte Spill
	ldr	r1, [r12, r1, lsl #5]!
	str	r1, [sp, #112]                  @ 4-byte Spill
	ldr	r11, [r12, #24]
	ldr	r1, [sp, #136]                  @ 4-byte Reload
	eor	r3, r3, r11
	str	r12, [sp, #56]                  @ 4-byte Spill
	eor	r11, r3, r2
	eor	r3, r10, r1
	ldr	r10, [r12, #4]
	eor	r2, lr, r3, lsr #2
	ldr	r1, [r12, #8]
	and	r9, r2, r5
	str	r1, [sp, #104]                  @ 4-byte Spill
	ldr	r1, [r12, #12]
	eor	r2, r3, r9, lsl #2
	eor	r3, r7, r8
	eor	r8, r0, r6
	movw	r0, #3855
	eor	r4, r8, r3, lsr #2
	movt	r0, #3855
	and	r6, r4, r5
	eor	r3, r3, r6, lsl #2
	eor	r4, r3, r2, lsr #4
	and	r0, r4, r0
	ldr	r4, [r12, #16]
	eor	r7, r10, r0, lsl #4
	eor	r10, r6, r8
	eor	r2, r7, r2
	ldr	r7, [r12, #20]
	movw	r8, #3855
	eor	r5, r2, r11
	eor	r3, r3, r7
	movt	r8, #3855
	eor	r3, r3, r0
	eor	r0, r9, lr
	str	r3, [sp, #96]                   @ 4-byte Spill
	eor	r7, r10, r0, lsr #4
	str	r5, [sp, #100]                  @ 4-byte Spill
	and	lr, r7, r8
	eor	r1, r1, lr, lsl #4
	eor	r6, r1, r0
	ldr	r1, [sp, #132]                  @ 4-byte Reload
	eor	r0, r3, r6
	ldr	r3, [sp, #108]                  @ 4-byte Reload
	eor	r7, r0, r5
	ldr	r0, [sp, #140]                  @ 4-byte Reload
	str	r7, [sp, #136]                  @ 4-byte Spill
	eor	r0, r0, r1, lsl #2
	ldr	r1, [sp, #116]                  @ 4-byte Reload
	eor	r1, r1, r3, lsl #2
	eor	r5, r1, r0, lsr #4
	eor	r1, r1, r4
	and	r5, r5, r8
	eor	r4, r1, r5
	ldr	r1, [sp, #112]                  @ 4-byte Reload
	eor	r3, r4, r6
	eor	r9, r4, r11
	eor	r1, r1, r5, lsl #4
	str	r3, [sp, #132]                  @ 4-byte Spill
	eor	r1, r1, r0
	str	r9, [sp, #84]                   @ 4-byte Spill
	eor	r8, r1, r2
	eor	r0, r3, r1
	eor	r5, r8, r3
	str	r5, [sp, #140]                  @ 4-byte Spill
	orr	r5, r5, r7
	and	r7, r0, r9
	str	r0, [sp, #116]                  @ 4-byte Spill
	eor	r0, r5, r7
	str	r0, [sp, #108]                  @ 4-byte Spill
	ldr	r0, [sp, #120]                  @ 4-byte Reload
	ldr	r5, [sp, #104]                  @ 4-byte Reload
	eor	r5, r5, r0, lsl #4
	ldr	r0, [sp, #128]                  @ 4-byte Reload
	eor	r7, r5, r0
	eor	r0, r7, r2
	ldr	r2, [r12, #28]
	eor	r12, r1, r6
	str	r0, [sp, #128]                  @ 4-byte Spill
	eor	r2, r10, r2
	eor	r0, r3, r0
	eor	lr, r2, lr
	str	r0, [sp, #112]                  @ 4-byte Spill
	eor	r10, r11, lr
	str	r10, [sp, #92]                  @ 4-byte Spill
	eor	r5, r12, r10
	eor	r2, r5, r0
	and	r1, r2, r3
	eor	r2, r4, lr
	eor	r4, r2, r11
	str	r2, [sp, #60]                   @ 4-byte Spill
	eor	r3, r4, r6
	str	r3, [sp, #120]                  @ 4-byte Spill
	and	r3, r3, r0
	ldr	r2, [sp, #108]                  @ 4-byte Reload
	eor	r0, r1, r3
	mov	r6, r4
	eor	r3, r2, r0
	ldr	r2, [sp, #96]                   @ 4-byte Reload
	str	r4, [sp, #76]                   @ 4-byte Spill
	and	r4, r5, r10
	eor	r11, r1, r4
	eor	r4, r7, r2
	str	r0, [sp, #80]                   @ 4-byte Spill
	eor	r0, r9, r4
	mov	r1, r9
	eor	r9, r8, r10
	eor	r8, r8, r1
	str	r0, [sp, #108]                  @ 4-byte Spill
	and	r7, r9, r0
	eor	r0, r4, lr
	and	r1, r8, r0
	str	r0, [sp, #72]                   @ 4-byte Spill
	eor	r1, r1, r12
	ldr	r0, [sp, #140]                  @ 4-byte Reload
	eor	r1, r1, r7
	ldr	r4, [sp, #136]                  @ 4-byte Reload
	eor	lr, r1, r11
	ldr	r1, [sp, #100]                  @ 4-byte Reload
	and	r0, r0, r4
	eor	r4, r8, r2
	eor	r1, r12, r1
	str	r4, [sp, #100]                  @ 4-byte Spill
	and	r4, r4, r1
	str	r8, [sp, #104]                  @ 4-byte Spill
	eor	r0, r0, r4
	ldr	r8, [sp, #60]                   @ 4-byte Reload
	eor	r0, r0, r2
	ldr	r2, [sp, #128]                  @ 4-byte Reload
	and	r4, r6, r8
	str	r1, [sp, #88]                   @ 4-byte Spill
	ldr	r1, [sp, #132]                  @ 4-byte Reload
	eor	r4, r2, r4
	eor	r4, r4, r5
	ldr	r2, [sp, #80]                   @ 4-byte Reload
	eor	r0, r0, r1
	eor	r7, r4, r7
	eor	r11, r0, r11
	eor	r7, r7, r2
	and	r10, lr, r3
	eor	r0, r11, r3
	bic	r1, r0, r10
	and	r4, r7, r3
	eor	r10, r1, r4
	eor	r1, r4, lr
	and	r0, r0, r1
	and	r6, r10, r8
	eor	r12, r0, r11
	ldr	r2, [sp, #92]                   @ 4-byte Reload
	eor	r0, r12, r10
	str	r0, [sp, #80]                   @ 4-byte Spill
	and	r1, r0, r9
	eor	r0, r7, lr
	and	r3, r0, r7
	and	r3, r3, r11
	eor	r3, r4, r3
	eor	r4, r11, r4
	eor	r7, r3, r0
	ldr	r3, [sp, #72]                   @ 4-byte Reload
	eor	r9, r7, r10
	and	r0, r4, r0
	and	r3, r12, r3
	str	r3, [sp, #92]                   @ 4-byte Spill
	eor	r6, r3, r6
	ldr	r3, [sp, #84]                   @ 4-byte Reload
	and	r2, r9, r2
	str	r2, [sp, #64]                   @ 4-byte Spill
	and	r3, r7, r3
	eor	r1, r2, r1
	and	r2, r9, r5
	eor	r8, r6, r3
	str	r6, [sp, #72]                   @ 4-byte Spill
	eor	r6, r8, r2
	eor	r8, r6, r1
	eor	r6, r0, lr
	ldr	r0, [sp, #136]                  @ 4-byte Reload
	eor	r11, r7, r6
	str	r1, [sp, #96]                   @ 4-byte Spill
	eor	r1, r6, r12
	and	r4, r11, r0
	ldr	r0, [sp, #128]                  @ 4-byte Reload
	str	r2, [sp, #68]                   @ 4-byte Spill
	eor	r0, r5, r0
	str	r1, [sp, #84]                   @ 4-byte Spill
	and	r5, r1, r0
	ldr	r0, [sp, #88]                   @ 4-byte Reload
	eor	r3, r5, r3
	and	r0, r6, r0
	eor	r0, r5, r0
	eor	r5, r9, r1
	eor	r2, r0, r4
	ldr	r0, [sp, #76]                   @ 4-byte Reload
	ldr	r1, [sp, #80]                   @ 4-byte Reload
	and	r10, r10, r0
	ldr	r0, [sp, #116]                  @ 4-byte Reload
	and	r0, r7, r0
	eor	r10, r0, r10
	eor	lr, r2, r10
	eor	r2, r8, lr
	str	r2, [sp, #136]                  @ 4-byte Spill
	ldr	r2, [sp, #140]                  @ 4-byte Reload
	and	r11, r11, r2
	ldr	r2, [sp, #112]                  @ 4-byte Reload
	eor	r3, r3, r11
	and	r7, r5, r2
	ldr	r2, [sp, #108]                  @ 4-byte Reload
	eor	r0, r7, r0
	and	r7, r1, r2
	ldr	r2, [sp, #100]                  @ 4-byte Reload
	ldr	r1, [sp, #64]                   @ 4-byte Reload
	eor	r0, r0, r3
	and	r6, r6, r2
	ldr	r2, [sp, #104]                  @ 4-byte Reload
	eor	r9, r7, r6
	eor	r8, r9, r1
	and	r1, r12, r2
	ldr	r2, [sp, #72]                   @ 4-byte Reload
	eor	r12, r2, r1
	eor	r2, r8, r12
	eor	r2, r2, r0
	str	r2, [sp, #116]                  @ 4-byte Spill
	ldr	r2, [sp, #120]                  @ 4-byte Reload
	and	r2, r5, r2
	eor	r5, r2, r4
	eor	r0, r5, r0
	str	r0, [sp, #128]                  @ 4-byte Spill
	ldr	r0, [sp, #68]                   @ 4-byte Reload
	eor	r0, r2, r0
	eor	r2, r12, r11
	eor	r2, r2, r0
	eor	r0, r0, r3
	eor	r8, r2, lr
	ldr	r2, [sp, #92]                   @ 4-byte Reload
	eor	r3, r4, r6
	ldr	r4, [sp, #124]                  @ 4-byte Reload
	eor	r7, r7, r2
	eor	r3, r3, r0
	eor	r5, r7, r0
	eor	r7, r9, r10
	eor	r12, r7, r0
	ldr	r0, [sp, #132]                  @ 4-byte Reload
	ldr	r2, [sp, #84]                   @ 4-byte Reload
	movw	r10, #771
	movt	r10, #771
	and	r0, r2, r0
	ldr	r2, [sp, #144]                  @ 4-byte Reload
	eor	r0, r0, r1
	ldr	r1, [sp, #96]                   @ 4-byte Reload
	subs	r6, r2, #2
	eor	r9, r0, r1
	sbc	r1, r4, #0
	lsr	r7, r6, #2
	bic	lr, r6, #3
	orr	r7, r7, r1, lsl #30
	str	r7, [sp, #16]                   @ 4-byte Spill
	lsr	r7, r1, #2
	movw	r0, #64764
	str	r7, [sp, #12]                   @ 4-byte Spill
	orr	r7, lr, #2
	subs	r7, r7, r2
	movt	r0, #64764
	sbcs	r1, r1, r4
	bhs	.Laes_BB24_2
@ %bb.1:                                @ %then.3.i
	str	r12, [sp, #108]                 @ 4-byte Spill
	ldr	r12, [sp, #56]                  @ 4-byte Reload
	str	r6, [sp, #112]                  @ 4-byte Spill
	str	lr, [sp, #120]                  @ 4-byte Spill
	ldr	r1, [r12, #-4]
	ldr	r7, [r12, #-28]
	eor	r11, r1, r3
	ldr	r4, [r12, #-20]
	str	r5, [sp, #140]                  @ 4-byte Spill
	mov	r5, r10
	and	r1, r0, r11, ror #6
	and	r3, r10, r11, ror #14
	orr	r1, r3, r1
	ldr	r3, [r12, #-24]
	eor	r2, r1, r11
	ldr	r1, [r12, #-32]
	str	r3, [sp, #100]                  @ 4-byte Spill
	eor	r3, r1, r9
	str	r3, [sp, #144]                  @ 4-byte Spill
	and	r1, r0, r3, ror #6
	and	r6, r10, r3, ror #14
	orr	r1, r6, r1
	ldr	r6, [sp, #128]                  @ 4-byte Reload
	eor	r1, r1, r3
	str	r1, [sp, #124]                  @ 4-byte Spill
	eor	lr, r7, r6
	mov	r3, r2
	eor	r1, r1, lr
	eor	r9, r1, r2
	ldr	r1, [sp, #116]                  @ 4-byte Reload
	str	r9, [sp, #128]                  @ 4-byte Spill
	eor	r6, r4, r1
	and	r1, r0, r6, ror #6
	and	r4, r10, r6, ror #14
	orr	r1, r4, r1
	eor	r10, r1, r6
	ldr	r1, [r12, #-12]
	str	r10, [sp, #104]                 @ 4-byte Spill
	eor	r1, r1, r8
	str	r1, [sp, #132]                  @ 4-byte Spill
	and	r7, r5, r1, ror #14
	and	r2, r0, r1, ror #6
	orr	r2, r7, r2
	ldr	r5, [sp, #136]                  @ 4-byte Reload
	eor	r4, r2, r1
	ldr	r2, [r12, #-8]
	movw	r1, #61680
	str	r4, [sp, #116]                  @ 4-byte Spill
	eor	r5, r2, r5
	movt	r1, #61680
	eor	r7, r4, r5
	movw	r4, #3855
	eor	r2, r7, r10
	movt	r4, #3855
	eor	r2, r2, r9
	str	r7, [sp, #92]                   @ 4-byte Spill
	and	r8, r1, r2, ror #12
	and	r10, r4, r2, ror #20
	ldr	r4, [sp, #108]                  @ 4-byte Reload
	orr	r8, r10, r8
	ldr	r1, [sp, #100]                  @ 4-byte Reload
	eor	r10, r1, r4
	movw	r1, #771
	movt	r1, #771
	and	r9, r0, r10, ror #6
	and	r4, r1, r10, ror #14
	orr	r4, r4, r9
	eor	r4, r4, r10
	str	r4, [sp, #108]                  @ 4-byte Spill
	eor	r4, r4, r6
	and	r6, r1, r5, ror #14
	eor	r4, r4, r3
	str	r4, [sp, #100]                  @ 4-byte Spill
	eor	r4, r4, r8
	movw	r8, #3855
	eor	r9, r4, r2
	and	r4, r0, r5, ror #6
	orr	r4, r6, r4
	movt	r8, #3855
	eor	r2, r4, r5
	str	r2, [sp, #136]                  @ 4-byte Spill
	eor	r11, r2, r11
	ldr	r5, [r12, #-16]
	ldr	r2, [sp, #140]                  @ 4-byte Reload
	eor	r4, r11, r7
	str	r9, [sp, #76]                   @ 4-byte Spill
	eor	r5, r5, r2
	mov	r2, r1
	and	r2, r2, lr, ror #14
	and	r12, r0, r5, ror #6
	and	r0, r0, lr, ror #6
	and	r6, r1, r5, ror #14
	orr	r2, r2, r0
	orr	r6, r6, r12
	eor	r2, r2, lr
	eor	r1, r6, r5
	eor	r12, r2, r10
	eor	r7, r1, r12
	movw	r10, #61680
	eor	r7, r7, r4
	str	r1, [sp, #88]                   @ 4-byte Spill
	ldr	r1, [sp, #104]                  @ 4-byte Reload
	movt	r10, #61680
	and	r6, r10, r7, ror #12
	and	r0, r8, r7, ror #20
	orr	r0, r0, r6
	eor	r6, r1, r5
	eor	lr, r6, r3
	eor	r0, lr, r0
	eor	r6, r0, r7
	eor	r0, r4, r2
	mov	r7, r10
	eor	r1, r6, r9
	and	r2, r10, r0, ror #12
	and	r4, r8, r0, ror #20
	orr	r2, r4, r2
	ldr	r4, [sp, #128]                  @ 4-byte Reload
	mov	r9, r7
	str	r1, [sp, #140]                  @ 4-byte Spill
	eor	r2, r4, r2
	str	r6, [sp, #80]                   @ 4-byte Spill
	eor	r5, r2, r0
	ldr	r0, [sp, #108]                  @ 4-byte Reload
	eor	r2, r11, r0
	ldr	r0, [sp, #144]                  @ 4-byte Reload
	eor	r10, r3, r0
	eor	r2, r2, r10
	and	r4, r7, r2, ror #12
	and	r7, r8, r2, ror #20
	orr	r4, r7, r4
	eor	r7, r12, r4
	mov	r4, r9
	eor	r0, r7, r2
	str	r0, [sp, #96]                   @ 4-byte Spill
	eor	r0, r0, r5
	str	r0, [sp, #128]                  @ 4-byte Spill
	eor	r12, r1, r0
	ldr	r1, [sp, #132]                  @ 4-byte Reload
	ldr	r0, [sp, #88]                   @ 4-byte Reload
	str	r12, [sp, #108]                 @ 4-byte Spill
	eor	r0, r0, r1
	str	r0, [sp, #88]                   @ 4-byte Spill
	eor	r1, r3, r0
	and	r2, r9, r1, ror #12
	and	r3, r8, r1, ror #20
	orr	r2, r3, r2
	eor	r2, r11, r2
	eor	r9, r2, r1
	ldr	r1, [sp, #136]                  @ 4-byte Reload
	eor	r7, r6, r9
	ldr	r6, [sp, #92]                   @ 4-byte Reload
	eor	r1, lr, r1
	str	r7, [sp, #144]                  @ 4-byte Spill
	str	r9, [sp, #84]                   @ 4-byte Spill
	and	r3, r8, r1, ror #20
	and	r2, r4, r1, ror #12
	orr	r2, r3, r2
	ldr	r8, [sp, #76]                   @ 4-byte Reload
	eor	r2, r6, r2
	eor	r3, r2, r1
	eor	r1, r7, r3
	str	r1, [sp, #132]                  @ 4-byte Spill
	eor	r2, r1, r8
	ldr	r1, [sp, #124]                  @ 4-byte Reload
	str	r2, [sp, #104]                  @ 4-byte Spill
	and	lr, r2, r12
	eor	r1, r6, r1
	movw	r2, #3855
	movt	r2, #3855
	eor	r0, r3, r9
	and	r6, r4, r1, ror #12
	and	r7, r2, r1, ror #20
	orr	r6, r7, r6
	str	r0, [sp, #136]                  @ 4-byte Spill
	eor	r1, r1, r6
	eor	r2, r1, r10
	ldr	r1, [sp, #116]                  @ 4-byte Reload
	eor	r9, r8, r2
	eor	r7, r11, r1
	ldr	r1, [sp, #100]                  @ 4-byte Reload
	eor	r0, r9, r0
	str	r0, [sp, #60]                   @ 4-byte Spill
	eor	r7, r7, r1
	movw	r1, #3855
	movt	r1, #3855
	eor	r6, r12, r0
	and	r10, r1, r7, ror #20
	and	r11, r4, r7, ror #12
	ldr	r1, [sp, #88]                   @ 4-byte Reload
	orr	r4, r10, r11
	ldr	r0, [sp, #140]                  @ 4-byte Reload
	eor	r11, r3, r5
	eor	r4, r1, r4
	eor	r4, r4, r7
	eor	r7, r5, r2
	eor	r12, r4, r8
	and	r6, r6, r0
	eor	r1, r12, r11
	eor	r5, r0, r7
	eor	r2, r0, r2
	mov	r12, r0
	ldr	r0, [sp, #80]                   @ 4-byte Reload
	orr	r8, r5, r1
	str	r2, [sp, #92]                   @ 4-byte Spill
	eor	lr, r6, lr
	eor	r10, r0, r3
	str	lr, [sp, #124]                  @ 4-byte Spill
	and	r2, r2, r10
	eor	r0, r9, r11
	eor	r2, r2, r8
	str	r1, [sp, #88]                   @ 4-byte Spill
	eor	r8, r2, lr
	eor	lr, r10, r7
	eor	r2, lr, r4
	and	r3, r5, r1
	and	r1, r2, r0
	str	r0, [sp, #116]                  @ 4-byte Spill
	ldr	r0, [sp, #136]                  @ 4-byte Reload
	eor	r1, r3, r1
	ldr	r11, [sp, #60]                  @ 4-byte Reload
	eor	r1, r1, r4
	eor	r7, r0, r7
	str	r2, [sp, #80]                   @ 4-byte Spill
	and	r3, r11, r0
	ldr	r0, [sp, #96]                   @ 4-byte Reload
	eor	r2, r6, r3
	str	r7, [sp, #100]                  @ 4-byte Spill
	eor	r4, r4, r0
	ldr	r3, [sp, #132]                  @ 4-byte Reload
	eor	r0, r10, r4
	str	r0, [sp, #44]                   @ 4-byte Spill
	and	r7, r0, r7
	ldr	r0, [sp, #144]                  @ 4-byte Reload
	eor	r1, r1, r12
	str	lr, [sp, #76]                   @ 4-byte Spill
	and	r6, r3, r0
	ldr	r0, [sp, #128]                  @ 4-byte Reload
	eor	r1, r1, r2
	str	r5, [sp, #68]                   @ 4-byte Spill
	eor	r6, r0, r6
	ldr	r0, [sp, #124]                  @ 4-byte Reload
	eor	r6, r6, r11
	eor	r12, r1, r8
	eor	r6, r6, r7
	eor	r6, r6, r0
	ldr	r0, [sp, #84]                   @ 4-byte Reload
	and	r3, r6, r8
	eor	r0, r4, r0
	str	r0, [sp, #72]                   @ 4-byte Spill
	and	r4, lr, r0
	eor	r4, r4, r9
	eor	r4, r4, r7
	eor	r7, r3, r1
	eor	r2, r4, r2
	eor	r4, r3, r2
	and	r4, r4, r12
	eor	r0, r4, r1
	eor	r4, r6, r2
	and	r7, r7, r4
	and	r1, r1, r6
	eor	r7, r7, r2
	and	r2, r2, r8
	and	r2, r2, r12
	and	r1, r1, r4
	eor	lr, r7, r0
	str	r0, [sp, #124]                  @ 4-byte Spill
	eor	r2, r3, r2
	eor	r0, r3, r1
	eor	r6, r0, r4
	eor	r9, r2, r12
	eor	r2, r6, r9
	ldr	r0, [sp, #104]                  @ 4-byte Reload
	eor	r1, r2, lr
	str	r1, [sp, #28]                   @ 4-byte Spill
	and	r1, r1, r0
	and	r0, r2, r11
	eor	r5, r1, r0
	str	r0, [sp, #104]                  @ 4-byte Spill
	ldr	r0, [sp, #68]                   @ 4-byte Reload
	mov	r4, r7
	str	r1, [sp, #64]                   @ 4-byte Spill
	eor	r1, r6, r7
	str	r1, [sp]                        @ 4-byte Spill
	and	r1, r1, r0
	ldr	r0, [sp, #128]                  @ 4-byte Reload
	str	r2, [sp, #32]                   @ 4-byte Spill
	eor	r0, r11, r0
	ldr	r12, [sp, #20]                  @ 4-byte Reload
	ldr	r2, [sp, #112]                  @ 4-byte Reload
	movw	r11, #3855
	str	r7, [sp, #52]                   @ 4-byte Spill
	and	r7, lr, r0
	and	r0, r6, r10
	str	r0, [sp, #96]                   @ 4-byte Spill
	eor	r0, r7, r0
	str	r7, [sp, #68]                   @ 4-byte Spill
	eor	r3, r0, r1
	ldr	r0, [r12, r2, lsl #5]!
	str	r0, [sp, #40]                   @ 4-byte Spill
	movt	r11, #3855
	ldr	r0, [r12, #4]
	str	r0, [sp, #36]                   @ 4-byte Spill
	ldr	r0, [r12, #12]
	str	r0, [sp, #4]                    @ 4-byte Spill
	ldr	r0, [r12, #16]
	str	r0, [sp, #128]                  @ 4-byte Spill
	ldr	r0, [sp, #92]                   @ 4-byte Reload
	ldr	r7, [r12, #8]
	and	r6, r6, r0
	ldr	r0, [sp, #132]                  @ 4-byte Reload
	eor	r7, r3, r7
	str	r1, [sp, #84]                   @ 4-byte Spill
	eor	r7, r7, r5
	mov	r1, r5
	str	r5, [sp, #48]                   @ 4-byte Spill
	and	r5, r9, r0
	eor	r0, r5, r6
	str	lr, [sp, #56]                   @ 4-byte Spill
	str	r0, [sp, #60]                   @ 4-byte Spill
	eor	lr, r7, r0
	ldr	r0, [sp, #124]                  @ 4-byte Reload
	eor	r2, r9, r0
	ldr	r0, [sp, #44]                   @ 4-byte Reload
	str	r2, [sp, #24]                   @ 4-byte Spill
	and	r0, r2, r0
	ldr	r2, [sp, #80]                   @ 4-byte Reload
	str	r0, [sp, #92]                   @ 4-byte Spill
	and	r5, r4, r2
	movw	r4, #61680
	eor	r2, r0, r5
	movt	r4, #61680
	eor	r0, lr, r2
	str	r0, [sp, #132]                  @ 4-byte Spill
	and	lr, r4, r0, ror #4
	and	r10, r11, r0, ror #12
	orr	r7, r10, lr
	eor	r10, r7, r0
	eor	r0, r1, r3
	ldr	r7, [sp, #88]                   @ 4-byte Reload
	ldr	r1, [sp]                        @ 4-byte Reload
	str	r0, [sp, #80]                   @ 4-byte Spill
	and	lr, r1, r7
	ldr	r7, [r12, #28]
	ldr	r1, [sp, #32]                   @ 4-byte Reload
	eor	r7, r5, r7
	str	r10, [sp, #112]                 @ 4-byte Spill
	eor	r7, r7, lr
	eor	r0, r7, r0
	str	r0, [sp, #88]                   @ 4-byte Spill
	and	r5, r4, r0, ror #4
	and	r7, r11, r0, ror #12
	orr	r5, r7, r5
	eor	r8, r5, r0
	ldr	r5, [sp, #108]                  @ 4-byte Reload
	ldr	r0, [sp, #28]                   @ 4-byte Reload
	str	r8, [sp, #44]                   @ 4-byte Spill
	and	r5, r0, r5
	ldr	r0, [sp, #136]                  @ 4-byte Reload
	eor	r5, r5, r6
	and	r4, r1, r0
	ldr	r0, [sp, #4]                    @ 4-byte Reload
	eor	r5, r5, r3
	eor	r1, r4, r0
	ldr	r0, [sp, #72]                   @ 4-byte Reload
	eor	r6, r1, r2
	ldr	r1, [sp, #144]                  @ 4-byte Reload
	ldr	r2, [sp, #124]                  @ 4-byte Reload
	and	r1, r9, r1
	and	r0, r2, r0
	str	r0, [sp, #136]                  @ 4-byte Spill
	eor	r1, r1, r0
	ldr	r0, [sp, #76]                   @ 4-byte Reload
	str	r1, [sp, #72]                   @ 4-byte Spill
	and	r7, r2, r0
	mov	r0, r8
	eor	r1, r1, r7
	eor	r6, r6, r1
	eor	r2, r6, r5
	eor	r6, r8, r2
	eor	r3, r6, r10
	str	r3, [sp, #108]                  @ 4-byte Spill
	ldr	r3, [sp, #36]                   @ 4-byte Reload
	eor	r6, lr, r3
	ldr	r3, [sp, #64]                   @ 4-byte Reload
	eor	r6, r6, r3
	ldr	r3, [sp, #24]                   @ 4-byte Reload
	eor	r9, r6, r5
	ldr	r5, [sp, #100]                  @ 4-byte Reload
	mov	r6, r11
	and	r5, r3, r5
	ldr	r3, [sp, #56]                   @ 4-byte Reload
	eor	r8, r5, r4
	ldr	r4, [sp, #140]                  @ 4-byte Reload
	movw	r5, #61680
	and	r4, r3, r4
	ldr	r3, [sp, #40]                   @ 4-byte Reload
	movt	r5, #61680
	eor	r4, r3, r4
	eor	r4, r4, r7
	eor	r10, r4, r8
	and	r7, r5, r10, ror #4
	and	r4, r11, r10, ror #12
	orr	r4, r4, r7
	and	r7, r11, r2, ror #12
	eor	r4, r4, r10
	str	r4, [sp, #144]                  @ 4-byte Spill
	eor	r4, r4, r9
	eor	r3, r4, r0
	and	r4, r5, r2, ror #4
	orr	r4, r7, r4
	str	r3, [sp, #140]                  @ 4-byte Spill
	eor	r0, r4, r2
	str	r0, [sp, #124]                  @ 4-byte Spill
	eor	r7, r3, r0
	ldr	r0, [sp, #68]                   @ 4-byte Reload
	ldr	r2, [sp, #60]                   @ 4-byte Reload
	ldr	r3, [r12, #20]
	eor	r4, r2, r0
	ldr	r2, [sp, #116]                  @ 4-byte Reload
	ldr	r0, [sp, #52]                   @ 4-byte Reload
	and	r2, r0, r2
	ldr	r0, [sp, #84]                   @ 4-byte Reload
	eor	r2, lr, r2
	mov	lr, r5
	eor	r3, r2, r3
	eor	r3, r3, r4
	eor	r3, r3, r0
	ldr	r0, [sp, #48]                   @ 4-byte Reload
	eor	r1, r3, r1
	eor	r1, r1, r0
	ldr	r0, [r12, #24]
	mov	r12, r6
	eor	r0, r2, r0
	ldr	r2, [sp, #96]                   @ 4-byte Reload
	eor	r0, r0, r4
	and	r3, r5, r1, ror #4
	eor	r0, r0, r2
	ldr	r2, [sp, #72]                   @ 4-byte Reload
	and	r11, r11, r1, ror #12
	eor	r0, r0, r2
	ldr	r2, [sp, #104]                  @ 4-byte Reload
	orr	r3, r11, r3
	eor	r0, r0, r2
	eor	r3, r3, r1
	eor	r0, r0, r8
	eor	r4, r3, r0
	eor	r2, r7, r4
	ldr	r7, [sp, #108]                  @ 4-byte Reload
	eor	r5, r7, r2, ror #16
	eor	r3, r7, r3
	eor	r11, r5, r2
	and	r7, r6, r0, ror #12
	and	r5, lr, r0, ror #4
	mov	r2, lr
	orr	r7, r7, r5
	ldr	r6, [sp, #136]                  @ 4-byte Reload
	eor	r0, r7, r0
	ldr	r7, [sp, #88]                   @ 4-byte Reload
	eor	lr, r0, r7
	ldr	r7, [sp, #128]                  @ 4-byte Reload
	eor	r3, r3, lr
	eor	r7, r6, r7
	ldr	r6, [sp, #92]                   @ 4-byte Reload
	eor	r7, r7, r6
	ldr	r6, [sp, #80]                   @ 4-byte Reload
	eor	r7, r7, r6
	and	r6, r12, r7, ror #12
	and	r5, r2, r7, ror #4
	orr	r5, r6, r5
	ldr	r12, [sp, #44]                  @ 4-byte Reload
	eor	r5, r5, r7
	eor	r1, r5, r1
	str	r1, [sp, #116]                  @ 4-byte Spill
	eor	r6, r1, r3, ror #16
	eor	r1, r6, r3
	str	r1, [sp, #136]                  @ 4-byte Spill
	eor	r1, r1, r11
	str	r1, [sp, #128]                  @ 4-byte Spill
	ldr	r1, [sp, #124]                  @ 4-byte Reload
	eor	r6, r12, r7
	eor	r6, r6, r1
	and	r1, r2, r9, ror #4
	eor	r0, r0, r6
	eor	r7, r4, r0, ror #16
	eor	r8, r7, r0
	movw	r0, #3855
	movt	r0, #3855
	and	r3, r0, r9, ror #12
	orr	r1, r3, r1
	eor	r7, lr, r4
	eor	r1, r1, r9
	ldr	r0, [sp, #140]                  @ 4-byte Reload
	eor	r3, r7, r1
	eor	r2, r0, r3, ror #16
	eor	r2, r2, r3
	ldr	r3, [sp, #128]                  @ 4-byte Reload
	eor	r0, r2, r8
	str	r0, [sp, #104]                  @ 4-byte Spill
	eor	r9, r3, r0
	ldr	r0, [sp, #132]                  @ 4-byte Reload
	str	r9, [sp, #80]                   @ 4-byte Spill
	eor	r1, r1, r0
	ldr	r0, [sp, #144]                  @ 4-byte Reload
	eor	r3, r1, r5
	eor	r3, r3, r7
	eor	r4, r4, r0
	eor	r5, r6, r3, ror #16
	eor	r3, r5, r3
	eor	r5, r12, r10
	eor	r6, r5, r4, ror #16
	eor	r7, r3, r11
	eor	r0, r6, r4
	eor	r6, r2, r0
	mov	r4, r7
	eor	r7, r7, r6
	str	r6, [sp, #92]                   @ 4-byte Spill
	orr	r10, r7, r9
	str	r7, [sp, #144]                  @ 4-byte Spill
	eor	r7, r3, r8
	eor	r6, r4, r0
	mov	r9, r4
	and	r4, r6, r7
	eor	r4, r4, r10
	str	r4, [sp, #108]                  @ 4-byte Spill
	ldr	r4, [sp, #112]                  @ 4-byte Reload
	str	r7, [sp, #128]                  @ 4-byte Spill
	eor	r5, r4, r5
	str	r9, [sp, #132]                  @ 4-byte Spill
	eor	r5, r5, lr
	str	r6, [sp, #100]                  @ 4-byte Spill
	eor	r1, r1, r5, ror #16
	eor	r1, r1, r5
	eor	r2, r2, r1
	str	r2, [sp, #140]                  @ 4-byte Spill
	eor	r5, r9, r2
	ldr	r2, [sp, #116]                  @ 4-byte Reload
	str	r5, [sp, #124]                  @ 4-byte Spill
	eor	r2, r2, r12
	eor	r2, r2, r2, ror #16
	eor	lr, r2, lr
	ldr	r2, [sp, #108]                  @ 4-byte Reload
	eor	r10, r3, lr
	str	r10, [sp, #96]                  @ 4-byte Spill
	eor	r12, r10, r8
	str	r12, [sp, #76]                  @ 4-byte Spill
	eor	r3, r12, r11
	str	r3, [sp, #112]                  @ 4-byte Spill
	and	r7, r3, r5
	eor	r3, r8, lr
	eor	r8, r11, r0
	str	r3, [sp, #88]                   @ 4-byte Spill
	eor	r0, r8, r3
	str	r0, [sp, #64]                   @ 4-byte Spill
	eor	r0, r5, r0
	mov	r5, r3
	and	r9, r0, r9
	eor	r0, r9, r7
	eor	r4, r2, r0
	ldr	r2, [sp, #136]                  @ 4-byte Reload
	str	r4, [sp, #72]                   @ 4-byte Spill
	eor	r11, r2, r1
	ldr	r1, [sp, #128]                  @ 4-byte Reload
	ldr	r2, [sp, #92]                   @ 4-byte Reload
	eor	r7, r1, r11
	str	r7, [sp, #116]                  @ 4-byte Spill
	eor	r6, r2, r3
	str	r6, [sp, #108]                  @ 4-byte Spill
	and	r3, r7, r6
	and	r7, r12, r10
	ldr	r12, [sp, #64]                  @ 4-byte Reload
	ldr	r6, [sp, #140]                  @ 4-byte Reload
	eor	r7, r12, r7
	ldr	r10, [sp, #80]                  @ 4-byte Reload
	eor	r7, r7, r6
	eor	r6, r11, lr
	eor	r7, r7, r3
	str	r6, [sp, #84]                   @ 4-byte Spill
	eor	r0, r7, r0
	and	r7, r0, r4
	str	r7, [sp, #68]                   @ 4-byte Spill
	eor	r7, r1, r2
	and	r2, r12, r5
	and	r1, r7, r6
	eor	r2, r9, r2
	eor	r1, r1, r8
	ldr	r9, [sp, #136]                  @ 4-byte Reload
	eor	r1, r1, r3
	str	r7, [sp, #92]                   @ 4-byte Spill
	eor	r3, r1, r2
	ldr	r1, [sp, #144]                  @ 4-byte Reload
	ldr	r6, [sp, #68]                   @ 4-byte Reload
	eor	lr, r0, r3
	and	r4, r1, r10
	ldr	r1, [sp, #104]                  @ 4-byte Reload
	eor	r11, r1, r8
	eor	r1, r7, r9
	and	r7, r1, r11
	str	r1, [sp, #104]                  @ 4-byte Spill
	eor	r7, r4, r7
	ldr	r1, [sp, #132]                  @ 4-byte Reload
	eor	r7, r7, r9
	ldr	r4, [sp, #72]                   @ 4-byte Reload
	eor	r7, r7, r1
	ldr	r1, [sp, #100]                  @ 4-byte Reload
	eor	r7, r7, r2
	and	r2, r3, r4
	eor	r5, r7, r4
	and	r0, r7, r0
	and	r2, r2, r5
	and	r0, r0, lr
	eor	r2, r6, r2
	eor	r0, r6, r0
	eor	r8, r2, r5
	ldr	r2, [sp, #76]                   @ 4-byte Reload
	eor	r0, r0, lr
	and	r1, r0, r1
	and	r2, r8, r2
	eor	r9, r2, r1
	eor	r2, r6, r7
	and	r2, r2, lr
	str	r1, [sp, #136]                  @ 4-byte Spill
	mov	r1, r6
	eor	r6, r2, r3
	eor	r3, r1, r3
	ldr	r1, [sp, #140]                  @ 4-byte Reload
	and	r3, r3, r5
	eor	r2, r0, r6
	eor	r3, r3, r7
	eor	r5, r1, r12
	eor	r7, r6, r3
	and	r1, r6, r11
	and	r5, r7, r5
	and	r4, r2, r10
	eor	r1, r5, r1
	str	r9, [sp, #100]                  @ 4-byte Spill
	eor	r1, r1, r4
	str	r2, [sp, #76]                   @ 4-byte Spill
	eor	r9, r1, r9
	ldr	r1, [sp, #128]                  @ 4-byte Reload
	mov	r2, r12
	mov	r12, r7
	and	lr, r0, r1
	ldr	r1, [sp, #84]                   @ 4-byte Reload
	eor	r7, r0, r8
	ldr	r0, [sp, #96]                   @ 4-byte Reload
	and	r1, r3, r1
	str	r1, [sp, #128]                  @ 4-byte Spill
	and	r0, r8, r0
	str	r5, [sp, #72]                   @ 4-byte Spill
	eor	r0, r0, r1
	ldr	r1, [sp, #88]                   @ 4-byte Reload
	ldr	r5, [sp, #108]                  @ 4-byte Reload
	eor	r11, r0, lr
	and	r10, r7, r1
	eor	r1, r8, r3
	str	r4, [sp, #80]                   @ 4-byte Spill
	and	r4, r7, r2
	and	r5, r1, r5
	eor	r11, r11, r4
	eor	r2, r5, r10
	str	r2, [sp, #108]                  @ 4-byte Spill
	eor	r5, r11, r2
	ldr	r2, [sp, #76]                   @ 4-byte Reload
	eor	r5, r5, r9
	str	r5, [sp, #140]                  @ 4-byte Spill
	eor	r5, r7, r12
	ldr	r7, [sp, #112]                  @ 4-byte Reload
	and	r7, r5, r7
	eor	r11, r7, r4
	ldr	r4, [sp, #144]                  @ 4-byte Reload
	and	r4, r2, r4
	ldr	r2, [sp, #92]                   @ 4-byte Reload
	and	r8, r3, r2
	ldr	r2, [sp, #72]                   @ 4-byte Reload
	eor	r0, r0, r8
	eor	r3, r0, r4
	eor	r2, r2, lr
	eor	r3, r3, r11
	eor	r2, r2, r4
	eor	r9, r3, r9
	ldr	r3, [sp, #124]                  @ 4-byte Reload
	ldr	r4, [sp, #136]                  @ 4-byte Reload
	and	r3, r5, r3
	ldr	lr, [sp, #120]                  @ 4-byte Reload
	eor	r3, r3, r4
	ldr	r4, [sp, #116]                  @ 4-byte Reload
	eor	r3, r3, r2
	and	r1, r1, r4
	ldr	r4, [sp, #104]                  @ 4-byte Reload
	and	r4, r6, r4
	eor	r5, r1, r4
	eor	r6, r5, r10
	eor	r0, r6, r0
	ldr	r6, [sp, #80]                   @ 4-byte Reload
	eor	r0, r0, r3
	str	r0, [sp, #136]                  @ 4-byte Spill
	eor	r0, r7, r6
	eor	r10, r0, r3
	eor	r0, r11, r2
	eor	r2, r6, r4
	eor	r4, r2, r0
	ldr	r2, [sp, #128]                  @ 4-byte Reload
	eor	r1, r1, r2
	eor	r1, r1, r0
	str	r1, [sp, #144]                  @ 4-byte Spill
	ldr	r1, [sp, #100]                  @ 4-byte Reload
	eor	r1, r5, r1
	eor	r0, r1, r0
	str	r0, [sp, #124]                  @ 4-byte Spill
	ldr	r0, [sp, #132]                  @ 4-byte Reload
	ldr	r1, [sp, #108]                  @ 4-byte Reload
	and	r0, r12, r0
	eor	r0, r0, r8
	mov	r8, r9
	eor	r0, r0, r1
	b	.Laes_BB24_3
.Laes_BB24_2:                               @ %else.4.i
	movw	r7, #3840
	eor	r1, r3, r3, lsr #4
	movt	r7, #3840
	and	r1, r1, r7
	ldr	r0, [sp, #136]                  @ 4-byte Reload
	add	r1, r1, r1, lsl #4
	eor	r4, r1, r3
	eor	r1, r0, r0, lsr #4
	and	r1, r1, r7
	add	r1, r1, r1, lsl #4
	eor	r0, r1, r0
	eor	r1, r8, r8, lsr #4
	and	r1, r1, r7
	str	r0, [sp, #140]                  @ 4-byte Spill
	add	r1, r1, r1, lsl #4
	eor	r8, r1, r8
	eor	r1, r5, r5, lsr #4
	and	r1, r1, r7
	add	r1, r1, r1, lsl #4
	eor	r0, r1, r5
	str	r0, [sp, #144]                  @ 4-byte Spill
	ldr	r0, [sp, #116]                  @ 4-byte Reload
	eor	r1, r0, r0, lsr #4
	and	r1, r1, r7
	add	r1, r1, r1, lsl #4
	eor	r0, r1, r0
	eor	r1, r12, r12, lsr #4
	and	r1, r1, r7
	str	r0, [sp, #136]                  @ 4-byte Spill
	add	r1, r1, r1, lsl #4
	eor	r0, r1, r12
	str	r0, [sp, #124]                  @ 4-byte Spill
	ldr	r0, [sp, #128]                  @ 4-byte Reload
	eor	r1, r0, r0, lsr #4
	and	r1, r1, r7
	add	r1, r1, r1, lsl #4
	eor	r10, r1, r0
	eor	r1, r9, r9, lsr #4
	and	r1, r1, r7
	add	r1, r1, r1, lsl #4
	eor	r0, r1, r9
.Laes_BB24_3:                               @ %join.5.i
	ldr	r1, [sp, #20]                   @ 4-byte Reload
	movw	r3, #49344
	movw	r6, #16191
	movt	r3, #49344
	add	r1, r1, lr, lsl #5
	movt	r6, #16191
	add	lr, r1, #32
	ldr	r2, [r1, #60]
	ldr	r12, [r1, #44]
	eor	r9, r2, r4
	and	r2, r3, r9, ror #2
	and	r4, r6, r9, ror #10
	orr	r2, r4, r2
	ldm	lr, {r4, r5, lr}
	eor	r7, r2, r9
	eor	r2, r4, r0
	str	r2, [sp, #132]                  @ 4-byte Spill
	str	r7, [sp, #96]                   @ 4-byte Spill
	and	r0, r3, r2, ror #2
	and	r4, r6, r2, ror #10
	orr	r0, r4, r0
	eor	r2, r0, r2
	eor	r0, r5, r10
	eor	r4, r2, r0
	str	r2, [sp, #116]                  @ 4-byte Spill
	ldr	r2, [sp, #136]                  @ 4-byte Reload
	eor	r11, r4, r7
	ldr	r7, [sp, #140]                  @ 4-byte Reload
	eor	r10, r12, r2
	mov	r2, r3
	movw	r12, #61680
	str	r11, [sp, #104]                 @ 4-byte Spill
	and	r5, r3, r10, ror #2
	and	r4, r6, r10, ror #10
	orr	r5, r4, r5
	movt	r12, #61680
	eor	r4, r5, r10
	ldr	r5, [r1, #52]
	str	r4, [sp, #136]                  @ 4-byte Spill
	eor	r3, r5, r8
	str	r3, [sp, #128]                  @ 4-byte Spill
	and	r5, r2, r3, ror #2
	and	r2, r6, r3, ror #10
	orr	r2, r2, r5
	eor	r6, r2, r3
	ldr	r2, [r1, #56]
	str	r6, [sp, #112]                  @ 4-byte Spill
	eor	r2, r2, r7
	movw	r7, #3855
	eor	r3, r6, r2
	movt	r7, #3855
	eor	r5, r3, r4
	movw	r4, #49344
	eor	r6, r5, r11
	movt	r4, #49344
	ldr	r1, [r1, #48]
	and	r8, r7, r6, ror #20
	ldr	r7, [sp, #124]                  @ 4-byte Reload
	and	r5, r12, r6, ror #12
	str	r3, [sp, #140]                  @ 4-byte Spill
	eor	lr, lr, r7
	orr	r5, r8, r5
	and	r8, r4, lr, ror #2
	movw	r4, #16191
	movt	r4, #16191
	and	r11, r4, lr, ror #10
	orr	r7, r11, r8
	ldr	r4, [sp, #96]                   @ 4-byte Reload
	eor	r8, r7, lr
	movw	r11, #16191
	eor	r7, r8, r10
	movt	r11, #16191
	eor	r7, r7, r4
	str	r7, [sp, #108]                  @ 4-byte Spill
	eor	r5, r7, r5
	movw	r7, #49344
	eor	r10, r5, r6
	movt	r7, #49344
	and	r5, r7, r2, ror #2
	and	r6, r11, r2, ror #10
	orr	r5, r6, r5
	str	r10, [sp, #84]                  @ 4-byte Spill
	eor	r2, r5, r2
	str	r2, [sp, #120]                  @ 4-byte Spill
	eor	r6, r2, r9
	ldr	r2, [sp, #144]                  @ 4-byte Reload
	eor	r9, r6, r3
	and	r5, r11, r0, ror #10
	eor	r1, r1, r2
	and	r2, r7, r1, ror #2
	and	r3, r11, r1, ror #10
	orr	r2, r3, r2
	and	r3, r7, r0, ror #2
	orr	r3, r5, r3
	eor	r2, r2, r1
	eor	r0, r3, r0
	movw	r7, #3855
	eor	lr, r0, lr
	movt	r7, #3855
	eor	r3, r2, lr
	eor	r0, r9, r0
	eor	r3, r3, r9
	and	r11, r7, r3, ror #20
	ldr	r7, [sp, #136]                  @ 4-byte Reload
	and	r5, r12, r3, ror #12
	eor	r1, r7, r1
	orr	r5, r11, r5
	mov	r7, r4
	eor	r4, r1, r4
	eor	r5, r4, r5
	movw	r11, #3855
	eor	r3, r5, r3
	movt	r11, #3855
	eor	r1, r3, r10
	str	r1, [sp, #144]                  @ 4-byte Spill
	mov	r1, r3
	str	r3, [sp, #92]                   @ 4-byte Spill
	and	r3, r12, r0, ror #12
	and	r5, r11, r0, ror #20
	orr	r3, r5, r3
	ldr	r5, [sp, #104]                  @ 4-byte Reload
	eor	r3, r5, r3
	eor	r5, r6, r8
	eor	r10, r3, r0
	ldr	r0, [sp, #132]                  @ 4-byte Reload
	mov	r3, r7
	eor	r8, r7, r0
	eor	r5, r5, r8
	and	r7, r12, r5, ror #12
	and	r0, r11, r5, ror #20
	orr	r0, r0, r7
	eor	r0, lr, r0
	ldr	lr, [sp, #144]                  @ 4-byte Reload
	eor	r0, r0, r5
	str	r0, [sp, #104]                  @ 4-byte Spill
	eor	r0, r0, r10
	str	r0, [sp, #136]                  @ 4-byte Spill
	eor	r9, lr, r0
	ldr	r0, [sp, #128]                  @ 4-byte Reload
	str	r9, [sp, #124]                  @ 4-byte Spill
	eor	r0, r2, r0
	str	r0, [sp, #100]                  @ 4-byte Spill
	eor	r0, r3, r0
	and	r2, r12, r0, ror #12
	and	r7, r11, r0, ror #20
	orr	r2, r7, r2
	ldr	r7, [sp, #140]                  @ 4-byte Reload
	eor	r2, r6, r2
	eor	r5, r2, r0
	ldr	r0, [sp, #120]                  @ 4-byte Reload
	eor	r3, r1, r5
	str	r3, [sp, #128]                  @ 4-byte Spill
	eor	r0, r4, r0
	str	r5, [sp, #96]                   @ 4-byte Spill
	and	r1, r12, r0, ror #12
	and	r2, r11, r0, ror #20
	orr	r1, r2, r1
	eor	r1, r7, r1
	eor	r2, r1, r0
	eor	r0, r3, r2
	ldr	r3, [sp, #84]                   @ 4-byte Reload
	str	r0, [sp, #132]                  @ 4-byte Spill
	eor	r4, r2, r5
	eor	r0, r0, r3
	str	r0, [sp, #120]                  @ 4-byte Spill
	and	r1, r0, r9
	ldr	r0, [sp, #116]                  @ 4-byte Reload
	str	r4, [sp, #76]                   @ 4-byte Spill
	eor	r0, r7, r0
	and	r7, r12, r0, ror #12
	and	r5, r11, r0, ror #20
	orr	r7, r5, r7
	eor	r0, r0, r7
	eor	r11, r0, r8
	eor	r0, r3, r11
	str	r0, [sp, #88]                   @ 4-byte Spill
	eor	r0, r0, r4
	str	r0, [sp, #140]                  @ 4-byte Spill
	eor	r7, r9, r0
	ldr	r0, [sp, #112]                  @ 4-byte Reload
	and	r9, r7, lr
	eor	r6, r6, r0
	ldr	r0, [sp, #108]                  @ 4-byte Reload
	eor	r8, r9, r1
	str	r8, [sp, #72]                   @ 4-byte Spill
	eor	r6, r6, r0
	movw	r0, #3855
	movt	r0, #3855
	and	r7, r12, r6, ror #12
	and	r12, r0, r6, ror #20
	ldr	r0, [sp, #100]                  @ 4-byte Reload
	orr	r7, r12, r7
	eor	r7, r0, r7
	eor	r0, r2, r10
	eor	r7, r7, r6
	str	r0, [sp, #68]                   @ 4-byte Spill
	eor	r6, r7, r3
	eor	r10, r10, r11
	eor	r5, r6, r0
	mov	r0, lr
	eor	r1, r0, r11
	ldr	r0, [sp, #92]                   @ 4-byte Reload
	eor	lr, lr, r10
	str	r1, [sp, #112]                  @ 4-byte Spill
	eor	r3, r0, r2
	ldr	r0, [sp, #140]                  @ 4-byte Reload
	orr	r12, lr, r5
	and	r1, r1, r3
	and	r2, r0, r4
	ldr	r0, [sp, #104]                  @ 4-byte Reload
	eor	r1, r1, r12
	str	r5, [sp, #84]                   @ 4-byte Spill
	eor	r6, r7, r0
	eor	r1, r1, r8
	eor	r8, r9, r2
	eor	r2, r4, r10
	eor	r0, r3, r6
	str	r2, [sp, #92]                   @ 4-byte Spill
	and	r12, r0, r2
	ldr	r2, [sp, #96]                   @ 4-byte Reload
	str	r0, [sp, #116]                  @ 4-byte Spill
	eor	r0, r3, r10
	eor	r9, r6, r2
	str	r3, [sp, #80]                   @ 4-byte Spill
	mov	r6, r0
	and	r3, r0, r9
	str	r0, [sp, #108]                  @ 4-byte Spill
	and	r0, lr, r5
	ldr	r2, [sp, #88]                   @ 4-byte Reload
	eor	r6, r6, r7
	ldr	r5, [sp, #68]                   @ 4-byte Reload
	eor	r3, r3, r2
	str	r6, [sp, #104]                  @ 4-byte Spill
	eor	r5, r2, r5
	str	r5, [sp, #88]                   @ 4-byte Spill
	and	r5, r6, r5
	ldr	r2, [sp, #144]                  @ 4-byte Reload
	eor	r0, r0, r5
	eor	r3, r3, r12
	eor	r0, r0, r7
	eor	r11, r3, r8
	eor	r0, r0, r2
	and	r3, r11, r1
	eor	r4, r0, r8
	ldr	r2, [sp, #128]                  @ 4-byte Reload
	eor	r5, r4, r1
	ldr	r7, [sp, #136]                  @ 4-byte Reload
	and	r0, r3, r5
	ldr	r3, [sp, #132]                  @ 4-byte Reload
	ldr	r6, [sp, #140]                  @ 4-byte Reload
	and	r3, r3, r2
	ldr	r2, [sp, #72]                   @ 4-byte Reload
	eor	r3, r7, r3
	str	lr, [sp, #100]                  @ 4-byte Spill
	eor	r3, r3, r6
	eor	r3, r3, r12
	eor	r3, r3, r2
	and	r12, r3, r1
	eor	r7, r3, r11
	and	r3, r4, r3
	eor	r0, r12, r0
	and	r3, r3, r7
	eor	r8, r0, r5
	eor	r3, r12, r3
	ldr	r0, [sp, #76]                   @ 4-byte Reload
	eor	lr, r3, r7
	eor	r3, r12, r11
	and	r3, r3, r5
	ldr	r1, [sp, #92]                   @ 4-byte Reload
	eor	r10, r3, r4
	eor	r2, lr, r8
	eor	r3, r8, r10
	and	r0, r2, r0
	and	r5, r3, r1
	str	r0, [sp, #72]                   @ 4-byte Spill
	eor	r1, r5, r0
	and	r0, r2, r6
	str	r2, [sp, #64]                   @ 4-byte Spill
	and	r9, r10, r9
	ldr	r2, [sp, #128]                  @ 4-byte Reload
	str	r9, [sp, #92]                   @ 4-byte Spill
	and	r5, r8, r2
	str	r1, [sp, #96]                   @ 4-byte Spill
	eor	r2, r5, r9
	ldr	r5, [sp, #80]                   @ 4-byte Reload
	str	r2, [sp, #128]                  @ 4-byte Spill
	and	r9, lr, r5
	str	r0, [sp, #76]                   @ 4-byte Spill
	eor	r6, r2, r9
	eor	r2, r12, r4
	eor	r6, r6, r0
	str	r3, [sp, #68]                   @ 4-byte Spill
	eor	r0, r6, r1
	and	r1, r2, r7
	eor	r6, r1, r11
	ldr	r2, [sp, #84]                   @ 4-byte Reload
	eor	r3, lr, r6
	ldr	r7, [sp, #88]                   @ 4-byte Reload
	and	r11, r3, r2
	ldr	r2, [sp, #136]                  @ 4-byte Reload
	ldr	r1, [sp, #140]                  @ 4-byte Reload
	and	r5, r6, r7
	str	r0, [sp, #80]                   @ 4-byte Spill
	eor	r0, r6, r10
	ldr	r7, [sp, #112]                  @ 4-byte Reload
	eor	r2, r1, r2
	and	r2, r0, r2
	mov	r1, r0
	str	r0, [sp, #84]                   @ 4-byte Spill
	and	r0, lr, r7
	ldr	r7, [sp, #132]                  @ 4-byte Reload
	eor	r5, r2, r5
	eor	r5, r5, r11
	eor	r2, r2, r9
	and	r4, r8, r7
	eor	r7, r4, r0
	str	r7, [sp, #132]                  @ 4-byte Spill
	eor	r12, r5, r7
	ldr	r7, [sp, #80]                   @ 4-byte Reload
	ldr	r4, [sp, #108]                  @ 4-byte Reload
	eor	r7, r7, r12
	str	r7, [sp, #140]                  @ 4-byte Spill
	ldr	r7, [sp, #100]                  @ 4-byte Reload
	and	lr, r10, r4
	and	r8, r3, r7
	ldr	r3, [sp, #72]                   @ 4-byte Reload
	eor	r9, r2, r8
	ldr	r2, [sp, #64]                   @ 4-byte Reload
	eor	r5, r2, r1
	ldr	r1, [sp, #124]                  @ 4-byte Reload
	ldr	r2, [sp, #68]                   @ 4-byte Reload
	and	r7, r5, r1
	ldr	r1, [sp, #116]                  @ 4-byte Reload
	eor	r0, r7, r0
	and	r2, r2, r1
	ldr	r1, [sp, #104]                  @ 4-byte Reload
	eor	r0, r0, r9
	and	r6, r6, r1
	eor	r1, r2, r6
	eor	r6, r11, r6
	eor	r7, r1, r3
	ldr	r3, [sp, #128]                  @ 4-byte Reload
	eor	r3, r3, lr
	eor	r7, r7, r3
	eor	r10, r7, r0
	ldr	r7, [sp, #120]                  @ 4-byte Reload
	str	r10, [sp, #124]                 @ 4-byte Spill
	and	r5, r5, r7
	eor	r7, r5, r11
	eor	r0, r7, r0
	str	r0, [sp, #136]                  @ 4-byte Spill
	ldr	r0, [sp, #76]                   @ 4-byte Reload
	eor	r5, r5, r0
	eor	r0, r3, r8
	eor	r0, r0, r5
	eor	r3, r5, r9
	eor	r8, r0, r12
	ldr	r0, [sp, #92]                   @ 4-byte Reload
	eor	r12, r6, r3
	eor	r2, r2, r0
	ldr	r0, [sp, #132]                  @ 4-byte Reload
	eor	r5, r2, r3
	str	r5, [sp, #128]                  @ 4-byte Spill
	eor	r1, r1, r0
	ldr	r0, [sp, #144]                  @ 4-byte Reload
	eor	r11, r1, r3
	ldr	r1, [sp, #84]                   @ 4-byte Reload
	and	r1, r1, r0
	ldr	r0, [sp, #96]                   @ 4-byte Reload
	eor	r1, r1, lr
	eor	lr, r1, r0
	ldr	r1, [sp, #16]                   @ 4-byte Reload
	ldr	r0, [sp, #12]                   @ 4-byte Reload
	orrs	r2, r1, r0
	beq	.Laes_BB24_6
@ %bb.4:                                @ %join.10.i.preheader
	ldr	r3, [sp, #136]                  @ 4-byte Reload
	mov	r2, #0
	mov	r4, #0
	mov	r6, r8
.Laes_BB24_5:                               @ %join.10.i
                                        @ =>This Inner Loop Header: Depth=1
	str	r2, [sp, #112]                  @ 4-byte Spill
	sub	r2, r1, r4
	ldr	r1, [sp, #20]                   @ 4-byte Reload
	ldr	r0, [sp, #140]                  @ 4-byte Reload
	str	r4, [sp, #108]                  @ 4-byte Spill
	ldr	r5, [r1, r2, lsl #7]!
	ldr	r2, [r1, #24]
	eor	r5, r5, lr
	ldr	r7, [r1, #4]
	eor	r4, r2, r0
	ldr	r2, [r1, #20]
	eor	r7, r7, r3
	eor	r3, r5, r5, ror #8
	eor	r0, r2, r6
	str	r0, [sp, #104]                  @ 4-byte Spill
	eor	r2, r4, r4, ror #8
	str	r2, [sp, #140]                  @ 4-byte Spill
	eor	r0, r0, r0, ror #8
	str	r0, [sp, #116]                  @ 4-byte Spill
	eor	r9, r0, r4
	ldr	r0, [r1, #28]
	eor	r10, r7, r7, ror #8
	eor	r7, r3, r7
	eor	r0, r0, r12
	mov	r12, r1
	eor	r2, r2, r0
	str	r3, [sp, #120]                  @ 4-byte Spill
	eor	r8, r2, r9
	eor	r0, r0, r0, ror #8
	eor	r1, r8, r10
	eor	lr, r7, r0
	eor	r6, r0, r5
	mov	r5, r12
	eor	r7, lr, r1, ror #16
	str	r2, [sp, #64]                   @ 4-byte Spill
	eor	r4, r7, r1
	ldr	r1, [r12, #8]
	str	r6, [sp, #92]                   @ 4-byte Spill
	eor	r1, r1, r11
	mov	r11, r2
	eor	r12, r10, r1
	str	r4, [sp, #132]                  @ 4-byte Spill
	eor	r3, r1, r1, ror #8
	str	r5, [sp, #144]                  @ 4-byte Spill
	eor	r7, r2, r3
	eor	r7, r7, r6
	eor	r2, r12, r7, ror #16
	eor	r1, r2, r7
	str	r1, [sp, #96]                   @ 4-byte Spill
	eor	r6, r1, r4
	ldr	r2, [r5, #12]
	ldr	r1, [sp, #124]                  @ 4-byte Reload
	str	r6, [sp, #136]                  @ 4-byte Spill
	eor	r2, r2, r1
	eor	r1, r2, r2, ror #8
	eor	r2, r3, r2
	eor	r7, r9, r1
	eor	r2, r2, r0
	eor	r7, r7, lr
	str	r2, [sp, #88]                   @ 4-byte Spill
	ldr	r3, [sp, #128]                  @ 4-byte Reload
	eor	r2, r2, r7, ror #16
	eor	r4, r2, r7
	ldr	r2, [r5, #16]
	str	r4, [sp, #72]                   @ 4-byte Spill
	eor	r2, r2, r3
	eor	r1, r1, r2
	eor	r3, r2, r2, ror #8
	eor	r2, r1, r0
	eor	r7, r3, r12
	eor	r7, r7, r8
	eor	r1, r2, r7, ror #16
	eor	r12, r1, r7
	ldr	r1, [sp, #104]                  @ 4-byte Reload
	eor	r7, r12, r4
	str	r7, [sp, #124]                  @ 4-byte Spill
	eor	r1, r3, r1
	str	r1, [sp, #128]                  @ 4-byte Spill
	eor	r0, r0, r1
	ldr	r1, [sp, #120]                  @ 4-byte Reload
	eor	r6, r7, r6
	str	r6, [sp, #80]                   @ 4-byte Spill
	eor	r3, r11, r0, ror #16
	eor	r8, r3, r0
	ldr	r0, [sp, #140]                  @ 4-byte Reload
	eor	r11, r12, r8
	str	r11, [sp, #100]                 @ 4-byte Spill
	eor	r2, r2, r0
	eor	r3, r9, r2, ror #16
	eor	r2, r3, r2
	eor	r3, r9, r1
	ldr	r1, [sp, #92]                   @ 4-byte Reload
	eor	r10, r11, r2
	eor	r3, r3, r3, ror #16
	eor	r0, r10, r4
	eor	r9, r3, r1
	str	r0, [sp, #84]                   @ 4-byte Spill
	eor	r1, r4, r9
	and	r5, r0, r6
	ldr	r0, [sp, #116]                  @ 4-byte Reload
	eor	lr, r2, r8
	ldr	r4, [sp, #64]                   @ 4-byte Reload
	str	r1, [sp, #120]                  @ 4-byte Spill
	eor	r1, r1, lr
	eor	r4, r4, r0
	ldr	r0, [sp, #88]                   @ 4-byte Reload
	eor	r6, r6, r1
	str	r1, [sp, #140]                  @ 4-byte Spill
	eor	r4, r4, r0
	ldr	r0, [sp, #128]                  @ 4-byte Reload
	and	r1, r6, r7
	str	r1, [sp, #68]                   @ 4-byte Spill
	eor	r7, r0, r4, ror #16
	eor	r5, r1, r5
	ldr	r1, [sp, #132]                  @ 4-byte Reload
	eor	r4, r7, r4
	ldr	r0, [sp, #96]                   @ 4-byte Reload
	eor	r3, r1, r9
	str	r10, [sp, #104]                 @ 4-byte Spill
	eor	r7, r4, r0
	eor	r0, r12, r2
	eor	r1, lr, r3
	eor	r6, r0, r7
	str	r0, [sp, #116]                  @ 4-byte Spill
	and	r12, r6, r1
	ldr	r0, [sp, #136]                  @ 4-byte Reload
	str	r1, [sp, #76]                   @ 4-byte Spill
	str	r6, [sp, #96]                   @ 4-byte Spill
	and	r6, r10, r11
	ldr	r1, [sp, #140]                  @ 4-byte Reload
	eor	r6, r0, r6
	eor	r0, r7, r8
	str	r0, [sp, #92]                   @ 4-byte Spill
	eor	r6, r6, r1
	str	lr, [sp, #60]                   @ 4-byte Spill
	eor	r6, r6, r12
	str	r5, [sp, #56]                   @ 4-byte Spill
	eor	r10, r6, r5
	ldr	r6, [sp, #116]                  @ 4-byte Reload
	eor	r7, r6, r3
	str	r7, [sp, #128]                  @ 4-byte Spill
	and	r0, r7, r0
	ldr	r7, [sp, #120]                  @ 4-byte Reload
	eor	r0, r0, r7
	and	r7, r1, lr
	ldr	r1, [sp, #68]                   @ 4-byte Reload
	eor	r0, r0, r12
	eor	r1, r1, r7
	str	r1, [sp, #68]                   @ 4-byte Spill
	eor	r8, r0, r1
	ldr	r1, [sp, #132]                  @ 4-byte Reload
	ldr	r0, [sp, #72]                   @ 4-byte Reload
	eor	r7, r10, r8
	eor	lr, r2, r1
	ldr	r2, [sp, #124]                  @ 4-byte Reload
	eor	r5, r4, r0
	eor	r0, r5, lr
	eor	r12, r2, r3
	eor	r1, r2, r9
	orr	r11, r12, r0
	and	r3, r1, r6
	str	r1, [sp, #52]                   @ 4-byte Spill
	eor	r1, r3, r11
	ldr	r3, [sp, #56]                   @ 4-byte Reload
	str	r0, [sp, #48]                   @ 4-byte Spill
	and	r11, r12, r0
	eor	r9, r1, r3
	ldr	r3, [sp, #128]                  @ 4-byte Reload
	ldr	r0, [sp, #120]                  @ 4-byte Reload
	and	r1, r10, r9
	eor	r3, r3, r4
	str	r3, [sp, #64]                   @ 4-byte Spill
	eor	r6, r0, lr
	ldr	r0, [sp, #68]                   @ 4-byte Reload
	and	r5, r3, r6
	str	r6, [sp, #88]                   @ 4-byte Spill
	eor	r5, r11, r5
	eor	r5, r5, r4
	eor	r5, r5, r2
	eor	r5, r5, r0
	ldr	r0, [sp, #140]                  @ 4-byte Reload
	and	r4, r5, r10
	eor	r6, r1, r5
	and	r4, r4, r7
	and	r6, r6, r7
	eor	r4, r1, r4
	eor	r2, r5, r9
	eor	r7, r4, r7
	eor	r4, r1, r8
	and	r4, r4, r2
	eor	r6, r6, r8
	eor	lr, r4, r5
	ldr	r4, [sp, #136]                  @ 4-byte Reload
	eor	r10, r6, lr
	eor	r11, r7, r6
	eor	r4, r0, r4
	ldr	r0, [sp, #116]                  @ 4-byte Reload
	str	r6, [sp, #132]                  @ 4-byte Spill
	and	r6, r10, r4
	and	r4, r7, r0
	and	r0, r8, r9
	and	r0, r0, r2
	and	r3, r11, r12
	eor	r0, r1, r0
	str	r4, [sp, #116]                  @ 4-byte Spill
	eor	r9, r0, r2
	ldr	r0, [sp, #80]                   @ 4-byte Reload
	eor	r2, r7, r9
	eor	r4, r6, r4
	eor	r1, r2, r10
	eor	r4, r4, r3
	str	r3, [sp, #72]                   @ 4-byte Spill
	and	r3, r1, r0
	ldr	r0, [sp, #52]                   @ 4-byte Reload
	str	r6, [sp, #68]                   @ 4-byte Spill
	and	r0, r7, r0
	str	r0, [sp, #52]                   @ 4-byte Spill
	eor	r3, r3, r0
	mov	r0, r4
	eor	r6, r3, r4
	ldr	r3, [sp, #84]                   @ 4-byte Reload
	str	r4, [sp, #56]                   @ 4-byte Spill
	and	r4, r1, r3
	ldr	r3, [sp, #144]                  @ 4-byte Reload
	ldr	r1, [sp, #48]                   @ 4-byte Reload
	str	r6, [sp, #44]                   @ 4-byte Spill
	and	r8, r11, r1
	ldr	r7, [r3, #-28]
	ldr	r1, [sp, #60]                   @ 4-byte Reload
	eor	r11, r9, lr
	eor	r7, r8, r7
	str	r8, [sp, #32]                   @ 4-byte Spill
	and	r5, r2, r1
	ldr	r1, [sp, #76]                   @ 4-byte Reload
	eor	r7, r7, r4
	str	r5, [sp, #36]                   @ 4-byte Spill
	eor	r6, r7, r6
	and	r7, r11, r1
	ldr	r1, [sp, #124]                  @ 4-byte Reload
	eor	r12, r7, r5
	ldr	r7, [r3, #-32]
	and	r5, r10, r1
	ldr	r1, [sp, #128]                  @ 4-byte Reload
	eor	r5, r7, r5
	mov	r10, r3
	and	r7, lr, r1
	movw	r3, #64764
	eor	r5, r5, r7
	str	r12, [sp, #60]                  @ 4-byte Spill
	eor	r1, r5, r12
	movw	r12, #771
	movt	r3, #64764
	movt	r12, #771
	and	r5, r3, r1, ror #6
	and	r3, r12, r1, ror #14
	orr	r3, r3, r5
	str	r1, [sp, #128]                  @ 4-byte Spill
	eor	r1, r3, r1
	str	r1, [sp, #124]                  @ 4-byte Spill
	eor	r5, r1, r6
	ldr	r1, [sp, #140]                  @ 4-byte Reload
	str	r6, [sp, #120]                  @ 4-byte Spill
	and	r1, r2, r1
	str	r1, [sp, #48]                   @ 4-byte Spill
	eor	r1, r4, r1
	str	r1, [sp, #40]                   @ 4-byte Spill
	eor	r3, r1, r0
	ldr	r0, [sp, #132]                  @ 4-byte Reload
	ldr	r1, [sp, #64]                   @ 4-byte Reload
	ldr	r2, [r10, #-4]
	and	r4, r0, r1
	str	r3, [sp, #84]                   @ 4-byte Spill
	eor	r2, r4, r2
	mov	r1, r10
	eor	r2, r2, r8
	mov	r8, r12
	eor	r0, r2, r3
	movw	r2, #64764
	movt	r2, #64764
	str	r0, [sp, #64]                   @ 4-byte Spill
	and	r10, r2, r0, ror #6
	and	r3, r12, r0, ror #14
	orr	r3, r3, r10
	ldr	r2, [sp, #96]                   @ 4-byte Reload
	eor	r0, r3, r0
	str	r0, [sp, #136]                  @ 4-byte Spill
	eor	r5, r5, r0
	and	r0, r11, r2
	str	r0, [sp, #80]                   @ 4-byte Spill
	eor	r10, r0, r4
	ldr	r3, [r1, #-20]
	movw	r11, #64764
	ldr	r0, [sp, #36]                   @ 4-byte Reload
	movt	r11, #64764
	ldr	r2, [sp, #92]                   @ 4-byte Reload
	eor	r3, r0, r3
	str	r5, [sp, #140]                  @ 4-byte Spill
	and	r0, lr, r2
	ldr	r2, [sp, #100]                  @ 4-byte Reload
	eor	r3, r3, r10
	str	r0, [sp, #76]                   @ 4-byte Spill
	and	r6, r9, r2
	ldr	r2, [sp, #104]                  @ 4-byte Reload
	eor	r6, r6, r0
	ldr	r0, [sp, #44]                   @ 4-byte Reload
	eor	lr, r6, r7
	eor	r3, r3, lr
	eor	r12, r3, r0
	and	r3, r11, r12, ror #6
	and	r7, r8, r12, ror #14
	orr	r3, r7, r3
	ldr	r7, [sp, #40]                   @ 4-byte Reload
	eor	r0, r3, r12
	str	r0, [sp, #92]                   @ 4-byte Spill
	eor	r0, r5, r0
	str	r0, [sp, #100]                  @ 4-byte Spill
	and	r0, r9, r2
	ldr	r2, [sp, #52]                   @ 4-byte Reload
	ldr	r3, [sp, #132]                  @ 4-byte Reload
	mov	r5, r1
	eor	r9, r0, r2
	ldr	r2, [sp, #88]                   @ 4-byte Reload
	ldr	r0, [sp, #68]                   @ 4-byte Reload
	and	r4, r3, r2
	ldr	r2, [sp, #32]                   @ 4-byte Reload
	ldr	r1, [r1, #-12]
	eor	r0, r9, r0
	eor	r4, r2, r4
	ldr	r2, [sp, #72]                   @ 4-byte Reload
	eor	r1, r4, r1
	eor	r1, r1, r0
	eor	r1, r1, r2
	ldr	r2, [sp, #116]                  @ 4-byte Reload
	eor	r1, r1, lr
	eor	lr, r1, r7
	and	r1, r11, lr, ror #6
	and	r3, r8, lr, ror #14
	orr	r1, r3, r1
	ldr	r3, [r5, #-8]
	eor	r8, r1, lr
	movw	r11, #3855
	eor	r3, r4, r3
	mov	r1, r5
	eor	r0, r3, r0
	movt	r11, #3855
	eor	r0, r0, r2
	ldr	r2, [sp, #48]                   @ 4-byte Reload
	eor	r0, r0, r6
	eor	r0, r0, r2
	ldr	r2, [sp, #60]                   @ 4-byte Reload
	eor	r4, r0, r2
	ldr	r2, [sp, #100]                  @ 4-byte Reload
	eor	r0, r8, r4
	str	r0, [sp, #132]                  @ 4-byte Spill
	eor	r6, r2, r0
	movw	r0, #61680
	movt	r0, #61680
	mov	r2, r1
	and	r3, r0, r6, ror #12
	and	r5, r11, r6, ror #20
	orr	r5, r5, r3
	ldr	r3, [r1, #-24]
	ldr	r0, [sp, #56]                   @ 4-byte Reload
	eor	r3, r0, r3
	movw	r0, #64764
	eor	r3, r3, r7
	movt	r0, #64764
	eor	r3, r3, r9
	movw	r9, #771
	eor	r3, r3, r10
	movt	r9, #771
	ldr	r10, [sp, #136]                 @ 4-byte Reload
	and	r7, r0, r3, ror #6
	and	r0, r9, r3, ror #14
	orr	r0, r0, r7
	eor	r7, r10, r12
	eor	r0, r0, r3
	str	r0, [sp, #96]                   @ 4-byte Spill
	eor	r7, r7, r0
	eor	r5, r7, r5
	eor	r1, r7, r8
	eor	r0, r5, r6
	str	r0, [sp, #116]                  @ 4-byte Spill
	movw	r0, #64764
	and	r6, r9, r4, ror #14
	movt	r0, #64764
	and	r7, r0, r4, ror #6
	orr	r7, r6, r7
	movw	r5, #61680
	eor	r4, r7, r4
	ldr	r7, [sp, #64]                   @ 4-byte Reload
	movt	r5, #61680
	mov	r8, r11
	eor	r12, r4, r7
	str	r12, [sp, #72]                  @ 4-byte Spill
	eor	r1, r1, r12
	and	r7, r5, r1, ror #12
	and	r6, r11, r1, ror #20
	orr	r5, r6, r7
	ldr	r7, [r2, #-16]
	ldr	r2, [sp, #76]                   @ 4-byte Reload
	eor	r7, r2, r7
	ldr	r2, [sp, #80]                   @ 4-byte Reload
	eor	r7, r7, r2
	ldr	r2, [sp, #84]                   @ 4-byte Reload
	eor	r6, r7, r2
	mov	r2, r0
	and	r7, r0, r6, ror #6
	and	r0, r9, r6, ror #14
	orr	r0, r0, r7
	eor	r11, r0, r6
	eor	r0, r11, lr
	ldr	lr, [sp, #116]                  @ 4-byte Reload
	eor	r7, r0, r5
	str	r0, [sp, #84]                   @ 4-byte Spill
	eor	r0, r7, r1
	str	r0, [sp, #100]                  @ 4-byte Spill
	eor	r9, r0, lr
	ldr	r0, [sp, #92]                   @ 4-byte Reload
	eor	r7, r10, r6
	movw	r10, #61680
	eor	r6, r7, r0
	movt	r10, #61680
	eor	r7, r4, r6
	ldr	r0, [sp, #132]                  @ 4-byte Reload
	movw	r1, #771
	and	r4, r10, r7, ror #12
	and	r5, r8, r7, ror #20
	orr	r5, r5, r4
	movt	r1, #771
	eor	r5, r0, r5
	eor	r7, r5, r7
	eor	r5, r12, r0
	ldr	r0, [sp, #120]                  @ 4-byte Reload
	mov	r12, r10
	and	r4, r2, r0, ror #6
	and	r1, r1, r0, ror #14
	orr	r1, r1, r4
	ldr	r2, [sp, #140]                  @ 4-byte Reload
	eor	r0, r1, r0
	eor	r1, r5, r0
	and	r4, r10, r1, ror #12
	and	r10, r8, r1, ror #20
	orr	r4, r10, r4
	eor	r10, r0, r3
	eor	r4, r2, r4
	eor	r2, r10, r11
	eor	r2, r2, r5
	eor	r4, r4, r1
	eor	r1, r4, r7
	str	r1, [sp, #80]                   @ 4-byte Spill
	and	r3, r12, r2, ror #12
	and	r5, r8, r2, ror #20
	orr	r3, r5, r3
	eor	r1, r9, r1
	eor	r3, r6, r3
	str	r1, [sp, #140]                  @ 4-byte Spill
	eor	r9, r3, r2
	ldr	r2, [sp, #124]                  @ 4-byte Reload
	ldr	r3, [sp, #132]                  @ 4-byte Reload
	mov	r1, r8
	eor	r8, r9, lr
	ldr	r0, [sp, #128]                  @ 4-byte Reload
	eor	r2, r3, r2
	ldr	lr, [sp, #136]                  @ 4-byte Reload
	mov	r11, r1
	and	r3, r12, r2, ror #12
	and	r5, r1, r2, ror #20
	orr	r3, r5, r3
	eor	r6, lr, r0
	eor	r3, r6, r3
	eor	r3, r3, r2
	ldr	r2, [sp, #140]                  @ 4-byte Reload
	eor	r0, r4, r3
	str	r0, [sp, #68]                   @ 4-byte Spill
	eor	r0, r8, r0
	str	r0, [sp, #132]                  @ 4-byte Spill
	orr	r12, r0, r2
	eor	r2, r9, r7
	eor	r0, r8, r3
	str	r0, [sp, #92]                   @ 4-byte Spill
	and	r1, r0, r2
	str	r2, [sp, #120]                  @ 4-byte Spill
	eor	r0, r1, r12
	str	r0, [sp, #60]                   @ 4-byte Spill
	ldr	r0, [sp, #96]                   @ 4-byte Reload
	movw	r12, #61680
	ldr	r2, [sp, #72]                   @ 4-byte Reload
	movt	r12, #61680
	eor	r0, r0, r6
	eor	r0, r0, r2
	and	r6, r12, r0, ror #12
	and	r1, r11, r0, ror #20
	orr	r1, r1, r6
	mov	r6, r8
	eor	r1, r10, r1
	str	r6, [sp, #104]                  @ 4-byte Spill
	eor	r0, r1, r0
	str	r0, [sp, #96]                   @ 4-byte Spill
	eor	r0, r4, r0
	str	r0, [sp, #128]                  @ 4-byte Spill
	eor	r10, r8, r0
	ldr	r0, [sp, #84]                   @ 4-byte Reload
	str	r10, [sp, #88]                  @ 4-byte Spill
	eor	r0, r0, lr
	ldr	lr, [sp, #68]                   @ 4-byte Reload
	and	r1, r12, r0, ror #12
	and	r4, r11, r0, ror #20
	orr	r1, r4, r1
	eor	r0, r0, r1
	ldr	r1, [sp, #116]                  @ 4-byte Reload
	eor	r2, r0, r2
	str	r2, [sp, #64]                   @ 4-byte Spill
	eor	r0, r9, r2
	str	r0, [sp, #136]                  @ 4-byte Spill
	eor	r0, r0, r7
	eor	r7, r7, r2
	eor	r11, r1, r3
	str	r0, [sp, #124]                  @ 4-byte Spill
	eor	r8, r11, r7
	eor	r0, r0, r1
	eor	r2, r10, r8
	str	r0, [sp, #84]                   @ 4-byte Spill
	and	r0, r0, r10
	and	r2, r2, r6
	eor	r1, r2, r0
	ldr	r0, [sp, #60]                   @ 4-byte Reload
	str	r1, [sp, #56]                   @ 4-byte Spill
	and	r4, r8, r7
	eor	r10, r0, r1
	ldr	r0, [sp, #132]                  @ 4-byte Reload
	ldr	r1, [sp, #140]                  @ 4-byte Reload
	eor	r4, r2, r4
	ldr	r3, [sp, #100]                  @ 4-byte Reload
	and	r2, r0, r1
	ldr	r0, [sp, #80]                   @ 4-byte Reload
	str	r7, [sp, #76]                   @ 4-byte Spill
	eor	r5, r0, r11
	ldr	r0, [sp, #120]                  @ 4-byte Reload
	str	r5, [sp, #116]                  @ 4-byte Spill
	eor	r9, r0, lr
	str	r9, [sp, #72]                   @ 4-byte Spill
	eor	r1, r9, r3
	str	r1, [sp, #60]                   @ 4-byte Spill
	and	r5, r1, r5
	ldr	r1, [sp, #96]                   @ 4-byte Reload
	eor	r2, r2, r5
	eor	r2, r2, r3
	eor	r2, r2, r6
	eor	r6, r3, r1
	eor	r3, r0, r6
	eor	r1, lr, r7
	str	r1, [sp, #96]                   @ 4-byte Spill
	and	lr, r3, r1
	ldr	r1, [sp, #136]                  @ 4-byte Reload
	eor	r2, r2, r4
	ldr	r0, [sp, #124]                  @ 4-byte Reload
	eor	r12, r2, r10
	str	r3, [sp, #36]                   @ 4-byte Spill
	and	r5, r0, r1
	ldr	r0, [sp, #128]                  @ 4-byte Reload
	eor	r5, r8, r5
	eor	r5, r5, r0
	ldr	r0, [sp, #56]                   @ 4-byte Reload
	eor	r5, r5, lr
	eor	r3, r5, r0
	ldr	r0, [sp, #64]                   @ 4-byte Reload
	and	r5, r3, r10
	eor	r0, r6, r0
	str	r0, [sp, #64]                   @ 4-byte Spill
	and	r6, r9, r0
	and	r0, r2, r3
	eor	r7, r6, r11
	ldr	r9, [sp, #144]                  @ 4-byte Reload
	eor	r7, r7, lr
	eor	r7, r7, r4
	eor	r6, r5, r7
	eor	r4, r3, r7
	and	r6, r6, r12
	and	r0, r0, r4
	eor	lr, r6, r2
	eor	r6, r5, r2
	and	r6, r6, r4
	eor	r0, r5, r0
	eor	r1, r6, r7
	and	r7, r7, r10
	and	r7, r7, r12
	eor	r0, r0, r4
	eor	r7, r5, r7
	eor	r6, r1, lr
	eor	r7, r7, r12
	ldr	r2, [sp, #84]                   @ 4-byte Reload
	eor	r11, r0, r7
	mov	r5, r1
	eor	r3, r11, r6
	str	r1, [sp, #48]                   @ 4-byte Spill
	eor	r10, r0, r1
	ldr	r1, [sp, #132]                  @ 4-byte Reload
	str	r3, [sp, #32]                   @ 4-byte Spill
	and	r3, r3, r2
	and	r2, r11, r8
	str	r3, [sp, #44]                   @ 4-byte Spill
	eor	r3, r3, r2
	str	r2, [sp, #100]                  @ 4-byte Spill
	and	r2, r10, r1
	ldr	r1, [sp, #128]                  @ 4-byte Reload
	str	r2, [sp, #80]                   @ 4-byte Spill
	movw	r12, #61680
	eor	r1, r1, r8
	str	r3, [sp, #52]                   @ 4-byte Spill
	and	r4, r6, r1
	ldr	r1, [sp, #120]                  @ 4-byte Reload
	str	r4, [sp, #68]                   @ 4-byte Spill
	movt	r12, #61680
	and	r1, r0, r1
	str	r1, [sp, #84]                   @ 4-byte Spill
	eor	r1, r4, r1
	str	lr, [sp, #24]                   @ 4-byte Spill
	eor	r4, r1, r2
	ldr	r1, [r9, #-56]
	mov	r2, r3
	str	r6, [sp, #40]                   @ 4-byte Spill
	eor	r1, r4, r1
	eor	r1, r1, r3
	ldr	r3, [sp, #92]                   @ 4-byte Reload
	and	r8, r0, r3
	ldr	r0, [sp, #124]                  @ 4-byte Reload
	eor	r3, r7, lr
	str	r3, [sp, #28]                   @ 4-byte Spill
	and	r0, r7, r0
	movw	lr, #3855
	eor	r0, r0, r8
	str	r0, [sp, #56]                   @ 4-byte Spill
	eor	r0, r1, r0
	ldr	r1, [sp, #36]                   @ 4-byte Reload
	movt	lr, #3855
	and	r3, r3, r1
	ldr	r1, [sp, #60]                   @ 4-byte Reload
	str	r3, [sp, #128]                  @ 4-byte Spill
	and	r1, r5, r1
	eor	r3, r3, r1
	eor	r5, r0, r3
	str	r5, [sp, #132]                  @ 4-byte Spill
	and	r0, r12, r5, ror #4
	and	r6, lr, r5, ror #12
	orr	r0, r6, r0
	eor	r6, r2, r4
	eor	r0, r0, r5
	ldr	r2, [sp, #140]                  @ 4-byte Reload
	ldr	r5, [r9, #-36]
	and	r10, r10, r2
	str	r6, [sp, #124]                  @ 4-byte Spill
	eor	r1, r1, r5
	ldr	r2, [sp, #32]                   @ 4-byte Reload
	eor	r1, r1, r10
	str	r0, [sp, #120]                  @ 4-byte Spill
	eor	r5, r1, r6
	str	r5, [sp, #140]                  @ 4-byte Spill
	and	r1, r12, r5, ror #4
	and	r6, lr, r5, ror #12
	orr	r1, r6, r1
	ldr	r6, [r9, #-52]
	eor	r5, r1, r5
	ldr	r1, [sp, #88]                   @ 4-byte Reload
	str	r5, [sp, #36]                   @ 4-byte Spill
	and	r1, r2, r1
	ldr	r2, [sp, #76]                   @ 4-byte Reload
	eor	r1, r1, r8
	and	r2, r11, r2
	eor	r1, r1, r4
	eor	r6, r2, r6
	eor	lr, r6, r3
	ldr	r3, [sp, #64]                   @ 4-byte Reload
	ldr	r6, [sp, #24]                   @ 4-byte Reload
	and	r4, r6, r3
	ldr	r3, [sp, #136]                  @ 4-byte Reload
	str	r4, [sp, #92]                   @ 4-byte Spill
	and	r3, r7, r3
	eor	r12, r3, r4
	ldr	r3, [sp, #72]                   @ 4-byte Reload
	and	r3, r6, r3
	eor	r4, r12, r3
	eor	r6, lr, r4
	eor	r6, r6, r1
	eor	r7, r5, r6
	eor	r8, r7, r0
	ldr	r7, [r9, #-60]
	ldr	r0, [sp, #44]                   @ 4-byte Reload
	eor	r7, r10, r7
	eor	r7, r7, r0
	ldr	r0, [sp, #96]                   @ 4-byte Reload
	eor	r11, r7, r1
	ldr	r1, [sp, #28]                   @ 4-byte Reload
	movw	r7, #61680
	and	r1, r1, r0
	ldr	r0, [sp, #104]                  @ 4-byte Reload
	eor	lr, r1, r2
	ldr	r1, [sp, #40]                   @ 4-byte Reload
	ldr	r2, [r9, #-64]
	movt	r7, #61680
	and	r1, r1, r0
	eor	r1, r2, r1
	eor	r1, r1, r3
	eor	r0, r1, lr
	movw	r1, #3855
	movt	r1, #3855
	str	r0, [sp, #104]                  @ 4-byte Spill
	and	r2, r7, r0, ror #4
	and	r3, r1, r0, ror #12
	orr	r2, r3, r2
	and	r3, r1, r6, ror #12
	eor	r0, r2, r0
	str	r0, [sp, #96]                   @ 4-byte Spill
	eor	r2, r0, r11
	eor	r0, r2, r5
	and	r2, r7, r6, ror #4
	orr	r2, r3, r2
	mov	r5, r7
	mov	r7, r1
	eor	r1, r2, r6
	str	r1, [sp, #88]                   @ 4-byte Spill
	eor	r1, r0, r1
	str	r0, [sp, #136]                  @ 4-byte Spill
	ldr	r0, [sp, #68]                   @ 4-byte Reload
	ldr	r2, [sp, #56]                   @ 4-byte Reload
	eor	r3, r2, r0
	ldr	r0, [sp, #116]                  @ 4-byte Reload
	ldr	r2, [sp, #48]                   @ 4-byte Reload
	and	r6, r2, r0
	ldr	r0, [r9, #-44]
	eor	r6, r10, r6
	ldr	r2, [sp, #80]                   @ 4-byte Reload
	eor	r0, r6, r0
	eor	r0, r0, r3
	eor	r0, r0, r2
	ldr	r2, [sp, #52]                   @ 4-byte Reload
	eor	r0, r0, r4
	eor	r0, r0, r2
	and	r4, r5, r0, ror #4
	and	r2, r7, r0, ror #12
	orr	r2, r2, r4
	eor	r4, r2, r0
	ldr	r2, [r9, #-40]
	eor	r2, r6, r2
	eor	r2, r2, r3
	ldr	r3, [sp, #84]                   @ 4-byte Reload
	eor	r2, r2, r3
	ldr	r3, [sp, #100]                  @ 4-byte Reload
	eor	r2, r2, r12
	eor	r2, r2, r3
	ldr	r3, [sp, #140]                  @ 4-byte Reload
	eor	r6, r2, lr
	eor	lr, r4, r6
	eor	r2, r1, lr
	eor	r1, r8, r2, ror #16
	eor	r12, r1, r2
	eor	r1, r8, r4
	mov	r2, r5
	and	r4, r5, r6, ror #4
	and	r5, r7, r6, ror #12
	mov	r8, r7
	orr	r5, r5, r4
	eor	r6, r5, r6
	ldr	r5, [r9, #-48]
	eor	r10, r6, r3
	ldr	r3, [sp, #92]                   @ 4-byte Reload
	eor	r1, r1, r10
	eor	r5, r3, r5
	ldr	r3, [sp, #128]                  @ 4-byte Reload
	eor	r5, r5, r3
	ldr	r3, [sp, #124]                  @ 4-byte Reload
	eor	r7, r5, r3
	ldr	r3, [sp, #36]                   @ 4-byte Reload
	and	r5, r2, r7, ror #4
	and	r2, r8, r7, ror #12
	orr	r2, r2, r5
	eor	r8, r2, r7
	movw	r2, #3855
	eor	r0, r8, r0
	str	r0, [sp, #100]                  @ 4-byte Spill
	eor	r0, r0, r1, ror #16
	movt	r2, #3855
	eor	r0, r0, r1
	ldr	r1, [sp, #88]                   @ 4-byte Reload
	str	r0, [sp, #124]                  @ 4-byte Spill
	eor	r4, r0, r12
	eor	r0, r3, r7
	and	r5, r2, r11, ror #12
	eor	r7, r0, r1
	eor	r0, r6, r7
	eor	r6, lr, r0, ror #16
	eor	r9, r6, r0
	movw	r0, #61680
	movt	r0, #61680
	and	r1, r0, r11, ror #4
	orr	r1, r5, r1
	eor	r6, r10, lr
	eor	r1, r1, r11
	ldr	r0, [sp, #136]                  @ 4-byte Reload
	eor	r5, r6, r1
	mov	r11, r3
	eor	r2, r0, r5, ror #16
	eor	r2, r2, r5
	ldr	r5, [sp, #132]                  @ 4-byte Reload
	eor	r0, r2, r9
	str	r0, [sp, #92]                   @ 4-byte Spill
	eor	r0, r4, r0
	eor	r4, r1, r5
	eor	r1, r4, r8
	mov	r8, r12
	eor	r1, r1, r6
	str	r0, [sp, #140]                  @ 4-byte Spill
	eor	r7, r7, r1, ror #16
	eor	r7, r7, r1
	ldr	r1, [sp, #104]                  @ 4-byte Reload
	eor	r12, r7, r12
	eor	r1, r3, r1
	ldr	r3, [sp, #96]                   @ 4-byte Reload
	eor	r3, lr, r3
	eor	r6, r1, r3, ror #16
	eor	r5, r6, r3
	mov	r6, r12
	eor	r3, r2, r5
	str	r3, [sp, #76]                   @ 4-byte Spill
	eor	r3, r12, r3
	str	r3, [sp, #128]                  @ 4-byte Spill
	orr	r12, r3, r0
	eor	r3, r7, r9
	eor	r0, r6, r5
	str	r3, [sp, #116]                  @ 4-byte Spill
	and	r3, r0, r3
	str	r0, [sp, #84]                   @ 4-byte Spill
	eor	r0, r3, r12
	ldr	r3, [sp, #120]                  @ 4-byte Reload
	str	r0, [sp, #96]                   @ 4-byte Spill
	eor	r1, r3, r1
	str	r6, [sp, #136]                  @ 4-byte Spill
	eor	r1, r1, r10
	eor	r3, r4, r1, ror #16
	eor	r1, r3, r1
	eor	r0, r2, r1
	ldr	r2, [sp, #100]                  @ 4-byte Reload
	str	r0, [sp, #132]                  @ 4-byte Spill
	eor	r0, r6, r0
	eor	r2, r2, r11
	str	r0, [sp, #60]                   @ 4-byte Spill
	eor	r2, r2, r2, ror #16
	eor	lr, r2, r10
	mov	r2, r8
	eor	r11, r7, lr
	eor	r7, r9, lr
	eor	r3, r11, r9
	eor	r10, r2, r5
	eor	r4, r3, r8
	eor	r2, r10, r7
	mov	r8, r3
	str	r3, [sp, #104]                  @ 4-byte Spill
	and	r3, r4, r0
	eor	r0, r0, r2
	and	r9, r0, r6
	ldr	r0, [sp, #96]                   @ 4-byte Reload
	eor	r12, r9, r3
	str	r4, [sp, #80]                   @ 4-byte Spill
	eor	r4, r0, r12
	ldr	r0, [sp, #124]                  @ 4-byte Reload
	str	r2, [sp, #120]                  @ 4-byte Spill
	mov	r6, r7
	eor	r1, r0, r1
	ldr	r0, [sp, #116]                  @ 4-byte Reload
	ldr	r2, [sp, #76]                   @ 4-byte Reload
	eor	r3, r0, r1
	str	r11, [sp, #100]                 @ 4-byte Spill
	eor	r5, r2, r7
	and	r11, r8, r11
	ldr	r8, [sp, #120]                  @ 4-byte Reload
	eor	r1, r1, lr
	str	r3, [sp, #96]                   @ 4-byte Spill
	and	r3, r3, r5
	str	r5, [sp, #68]                   @ 4-byte Spill
	ldr	r5, [sp, #132]                  @ 4-byte Reload
	str	r7, [sp, #52]                   @ 4-byte Spill
	eor	r7, r8, r11
	eor	r7, r7, r5
	str	r1, [sp, #88]                   @ 4-byte Spill
	eor	r7, r7, r3
	str	r4, [sp, #40]                   @ 4-byte Spill
	eor	r11, r7, r12
	eor	r7, r0, r2
	and	r1, r7, r1
	ldr	r0, [sp, #128]                  @ 4-byte Reload
	eor	r1, r1, r10
	and	r12, r11, r4
	eor	r1, r1, r3
	ldr	r3, [sp, #140]                  @ 4-byte Reload
	and	r2, r8, r6
	str	r7, [sp, #48]                   @ 4-byte Spill
	and	lr, r0, r3
	ldr	r0, [sp, #92]                   @ 4-byte Reload
	eor	r2, r9, r2
	eor	r3, r0, r10
	ldr	r0, [sp, #124]                  @ 4-byte Reload
	str	r3, [sp, #92]                   @ 4-byte Spill
	eor	r5, r1, r2
	eor	r4, r7, r0
	eor	r1, r11, r5
	and	r6, r4, r3
	str	r4, [sp, #64]                   @ 4-byte Spill
	eor	r3, lr, r6
	ldr	r4, [sp, #40]                   @ 4-byte Reload
	eor	r3, r3, r0
	ldr	r0, [sp, #136]                  @ 4-byte Reload
	eor	r3, r3, r0
	ldr	r0, [sp, #116]                  @ 4-byte Reload
	eor	r3, r3, r2
	and	r2, r3, r11
	eor	r7, r3, r4
	and	r2, r2, r1
	eor	r2, r12, r2
	eor	r6, r2, r1
	eor	r2, r12, r5
	and	r2, r2, r7
	and	r10, r6, r0
	eor	r2, r2, r3
	eor	r3, r12, r3
	and	r1, r3, r1
	str	r2, [sp, #124]                  @ 4-byte Spill
	eor	r0, r1, r5
	ldr	r1, [sp, #132]                  @ 4-byte Reload
	str	r0, [sp, #44]                   @ 4-byte Spill
	eor	lr, r0, r2
	eor	r1, r1, r8
	eor	r9, r6, r0
	ldr	r0, [sp, #128]                  @ 4-byte Reload
	and	r1, lr, r1
	and	r5, r5, r4
	eor	r2, r1, r10
	and	r0, r9, r0
	and	r5, r5, r7
	eor	r11, r2, r0
	str	r0, [sp, #76]                   @ 4-byte Spill
	eor	r0, r12, r5
	str	r1, [sp, #72]                   @ 4-byte Spill
	eor	r8, r0, r7
	ldr	r0, [sp, #60]                   @ 4-byte Reload
	eor	r2, r6, r8
	str	r10, [sp, #116]                 @ 4-byte Spill
	eor	r7, r2, lr
	str	r11, [sp, #56]                  @ 4-byte Spill
	and	r5, r7, r0
	ldr	r0, [sp, #84]                   @ 4-byte Reload
	and	r0, r6, r0
	ldr	r6, [sp, #144]                  @ 4-byte Reload
	eor	r5, r5, r0
	str	r0, [sp, #60]                   @ 4-byte Spill
	ldr	r0, [sp, #80]                   @ 4-byte Reload
	eor	r3, r5, r11
	ldr	r1, [r6, #-92]
	and	r4, r7, r0
	ldr	r0, [sp, #140]                  @ 4-byte Reload
	str	r3, [sp, #40]                   @ 4-byte Spill
	and	r7, r9, r0
	ldr	r0, [r6, #-88]
	eor	r1, r7, r1
	str	r0, [sp, #84]                   @ 4-byte Spill
	ldr	r0, [r6, #-84]
	eor	r1, r1, r4
	str	r0, [sp, #36]                   @ 4-byte Spill
	eor	r0, r1, r3
	ldr	r3, [sp, #124]                  @ 4-byte Reload
	ldr	r5, [sp, #68]                   @ 4-byte Reload
	ldr	r1, [sp, #52]                   @ 4-byte Reload
	eor	r9, r8, r3
	str	r7, [sp, #32]                   @ 4-byte Spill
	and	r7, r9, r5
	ldr	r5, [sp, #136]                  @ 4-byte Reload
	and	r1, r2, r1
	ldr	r12, [r6, #-96]
	eor	r10, r7, r1
	and	r7, lr, r5
	str	r0, [sp, #140]                  @ 4-byte Spill
	eor	r5, r12, r7
	ldr	r7, [sp, #48]                   @ 4-byte Reload
	ldr	lr, [sp, #44]                   @ 4-byte Reload
	and	r7, r3, r7
	str	r10, [sp, #68]                  @ 4-byte Spill
	eor	r3, r5, r7
	movw	r5, #16191
	eor	r12, r3, r10
	movw	r3, #49344
	movt	r3, #49344
	movt	r5, #16191
	and	r3, r3, r12, ror #2
	and	r5, r5, r12, ror #10
	orr	r3, r5, r3
	str	r12, [sp, #136]                 @ 4-byte Spill
	eor	r3, r3, r12
	str	r3, [sp, #128]                  @ 4-byte Spill
	eor	r3, r3, r0
	ldr	r0, [sp, #120]                  @ 4-byte Reload
	ldr	r12, [sp, #32]                  @ 4-byte Reload
	and	r0, r2, r0
	str	r0, [sp, #52]                   @ 4-byte Spill
	eor	r0, r4, r0
	str	r0, [sp, #48]                   @ 4-byte Spill
	eor	r2, r0, r11
	ldr	r0, [sp, #64]                   @ 4-byte Reload
	ldr	r4, [r6, #-68]
	movw	r11, #49344
	and	r0, lr, r0
	movw	r6, #16191
	eor	r4, r0, r4
	movt	r11, #49344
	eor	r4, r4, r12
	movt	r6, #16191
	eor	r10, r4, r2
	str	r2, [sp, #80]                   @ 4-byte Spill
	and	r4, r11, r10, ror #2
	and	r5, r6, r10, ror #10
	orr	r4, r5, r4
	eor	r2, r4, r10
	str	r2, [sp, #132]                  @ 4-byte Spill
	eor	r5, r3, r2
	ldr	r2, [sp, #36]                   @ 4-byte Reload
	ldr	r3, [sp, #124]                  @ 4-byte Reload
	eor	r1, r1, r2
	ldr	r2, [sp, #96]                   @ 4-byte Reload
	str	r5, [sp, #120]                  @ 4-byte Spill
	and	r2, r9, r2
	str	r2, [sp, #96]                   @ 4-byte Spill
	eor	r0, r2, r0
	ldr	r2, [sp, #88]                   @ 4-byte Reload
	str	r0, [sp, #64]                   @ 4-byte Spill
	eor	r0, r1, r0
	ldr	r1, [sp, #100]                  @ 4-byte Reload
	and	r2, r3, r2
	str	r2, [sp, #100]                  @ 4-byte Spill
	and	r1, r8, r1
	ldr	r4, [sp, #76]                   @ 4-byte Reload
	eor	r9, r1, r2
	ldr	r1, [sp, #40]                   @ 4-byte Reload
	eor	r2, r9, r7
	eor	r0, r0, r2
	eor	r7, r0, r1
	ldr	r1, [sp, #60]                   @ 4-byte Reload
	and	r3, r6, r7, ror #10
	and	r0, r11, r7, ror #2
	orr	r0, r3, r0
	ldr	r6, [sp, #48]                   @ 4-byte Reload
	eor	r0, r0, r7
	str	r0, [sp, #124]                  @ 4-byte Spill
	eor	r0, r5, r0
	str	r0, [sp, #40]                   @ 4-byte Spill
	ldr	r0, [sp, #104]                  @ 4-byte Reload
	and	r0, r8, r0
	eor	r8, r0, r1
	ldr	r0, [sp, #72]                   @ 4-byte Reload
	ldr	r1, [sp, #144]                  @ 4-byte Reload
	eor	r3, r8, r0
	ldr	r0, [sp, #92]                   @ 4-byte Reload
	and	r0, lr, r0
	ldr	lr, [sp, #132]                  @ 4-byte Reload
	eor	r5, r12, r0
	ldr	r0, [r1, #-76]
	mov	r12, r11
	eor	r7, lr, r7
	eor	r0, r5, r0
	eor	r0, r0, r3
	eor	r0, r0, r4
	movw	r4, #16191
	eor	r0, r0, r2
	movt	r4, #16191
	eor	r0, r0, r6
	and	r2, r11, r0, ror #2
	and	r4, r4, r0, ror #10
	orr	r2, r4, r2
	ldr	r4, [r1, #-72]
	ldr	r1, [sp, #116]                  @ 4-byte Reload
	eor	r2, r2, r0
	eor	r4, r5, r4
	movw	r11, #3855
	eor	r3, r4, r3
	movt	r11, #3855
	eor	r3, r3, r1
	eor	r1, r3, r9
	ldr	r3, [sp, #52]                   @ 4-byte Reload
	eor	r1, r1, r3
	ldr	r3, [sp, #68]                   @ 4-byte Reload
	eor	r4, r1, r3
	ldr	r3, [sp, #40]                   @ 4-byte Reload
	eor	r1, r2, r4
	str	r1, [sp, #88]                   @ 4-byte Spill
	eor	r3, r3, r1
	movw	r1, #61680
	movt	r1, #61680
	and	r5, r1, r3, ror #12
	and	r1, r11, r3, ror #20
	orr	r9, r1, r5
	ldr	r1, [sp, #84]                   @ 4-byte Reload
	ldr	r5, [sp, #56]                   @ 4-byte Reload
	eor	r5, r5, r1
	ldr	r1, [sp, #64]                   @ 4-byte Reload
	eor	r5, r5, r6
	eor	r5, r5, r8
	movw	r8, #16191
	eor	r5, r5, r1
	movt	r8, #16191
	and	r1, r12, r5, ror #2
	and	r6, r8, r5, ror #10
	orr	r1, r6, r1
	eor	r1, r1, r5
	str	r1, [sp, #104]                  @ 4-byte Spill
	eor	r7, r7, r1
	eor	r6, r7, r9
	eor	r2, r7, r2
	eor	r11, r6, r3
	and	r7, r12, r4, ror #2
	and	r6, r8, r4, ror #10
	movw	r9, #3855
	orr	r7, r6, r7
	movt	r9, #3855
	eor	r1, r7, r4
	movw	r4, #61680
	eor	r10, r1, r10
	movt	r4, #61680
	eor	r2, r2, r10
	mov	r3, r12
	mov	r12, r8
	str	r10, [sp, #84]                  @ 4-byte Spill
	and	r7, r4, r2, ror #12
	and	r4, r9, r2, ror #20
	orr	r8, r4, r7
	ldr	r4, [sp, #144]                  @ 4-byte Reload
	ldr	r7, [sp, #100]                  @ 4-byte Reload
	mov	r6, r11
	str	r11, [sp, #72]                  @ 4-byte Spill
	ldr	r4, [r4, #-80]
	eor	r4, r7, r4
	ldr	r7, [sp, #96]                   @ 4-byte Reload
	eor	r4, r4, r7
	ldr	r7, [sp, #80]                   @ 4-byte Reload
	eor	r4, r4, r7
	and	r7, r3, r4, ror #2
	and	r3, r12, r4, ror #10
	orr	r3, r3, r7
	movw	r7, #61680
	eor	r12, r3, r4
	movt	r7, #61680
	eor	r0, r12, r0
	str	r0, [sp, #96]                   @ 4-byte Spill
	eor	r0, r0, r8
	ldr	r3, [sp, #140]                  @ 4-byte Reload
	eor	r0, r0, r2
	str	r0, [sp, #100]                  @ 4-byte Spill
	eor	r8, r0, r11
	ldr	r0, [sp, #124]                  @ 4-byte Reload
	eor	r2, lr, r4
	mov	lr, r9
	eor	r4, r2, r0
	eor	r1, r1, r4
	and	r2, r7, r1, ror #12
	and	r0, r9, r1, ror #20
	orr	r0, r0, r2
	ldr	r2, [sp, #88]                   @ 4-byte Reload
	eor	r0, r2, r0
	eor	r9, r0, r1
	movw	r1, #49344
	eor	r0, r10, r2
	mov	r10, r2
	movw	r2, #16191
	movt	r1, #49344
	movt	r2, #16191
	and	r1, r1, r3, ror #2
	and	r2, r2, r3, ror #10
	orr	r1, r2, r1
	eor	r1, r1, r3
	eor	r2, r0, r1
	and	r3, r7, r2, ror #12
	and	r11, lr, r2, ror #20
	ldr	r7, [sp, #120]                  @ 4-byte Reload
	orr	r3, r11, r3
	eor	r11, r1, r5
	movw	r1, #61680
	eor	r3, r7, r3
	movt	r1, #61680
	eor	r2, r3, r2
	eor	r3, r2, r9
	str	r3, [sp, #92]                   @ 4-byte Spill
	eor	lr, r8, r3
	eor	r3, r11, r12
	eor	r0, r3, r0
	movw	r12, #3855
	movt	r12, #3855
	ldr	r8, [sp, #132]                  @ 4-byte Reload
	and	r3, r1, r0, ror #12
	and	r5, r12, r0, ror #20
	orr	r3, r5, r3
	str	lr, [sp, #140]                  @ 4-byte Spill
	eor	r3, r4, r3
	eor	r5, r3, r0
	ldr	r0, [sp, #128]                  @ 4-byte Reload
	eor	r7, r5, r6
	eor	r0, r10, r0
	and	r3, r1, r0, ror #12
	ldr	r1, [sp, #136]                  @ 4-byte Reload
	and	r4, r12, r0, ror #20
	orr	r3, r4, r3
	eor	r4, r8, r1
	eor	r3, r4, r3
	eor	r12, r3, r0
	ldr	r3, [sp, #84]                   @ 4-byte Reload
	eor	r10, r2, r12
	eor	r6, r7, r12
	eor	r0, r7, r10
	str	r0, [sp, #144]                  @ 4-byte Spill
	orr	r1, r0, lr
	eor	lr, r5, r9
	mov	r0, r7
	and	r7, r6, lr
	eor	r1, r7, r1
	str	r1, [sp, #88]                   @ 4-byte Spill
	ldr	r1, [sp, #104]                  @ 4-byte Reload
	str	r6, [sp, #124]                  @ 4-byte Spill
	eor	r7, r1, r4
	movw	r1, #61680
	eor	r7, r7, r3
	movt	r1, #61680
	str	r0, [sp, #116]                  @ 4-byte Spill
	and	r4, r1, r7, ror #12
	movw	r1, #3855
	movt	r1, #3855
	str	lr, [sp, #76]                   @ 4-byte Spill
	and	r1, r1, r7, ror #20
	orr	r1, r1, r4
	movw	r4, #3855
	eor	r1, r11, r1
	movt	r4, #3855
	eor	r7, r1, r7
	eor	r1, r2, r7
	str	r1, [sp, #136]                  @ 4-byte Spill
	eor	r6, r0, r1
	ldr	r1, [sp, #96]                   @ 4-byte Reload
	movw	r2, #61680
	str	r6, [sp, #104]                  @ 4-byte Spill
	eor	r1, r1, r8
	movt	r2, #61680
	and	r2, r2, r1, ror #12
	and	r4, r4, r1, ror #20
	orr	r2, r4, r2
	eor	r1, r1, r2
	eor	r2, r1, r3
	mov	r3, r0
	eor	r1, r5, r2
	ldr	r5, [sp, #72]                   @ 4-byte Reload
	str	r1, [sp, #128]                  @ 4-byte Spill
	eor	r1, r1, r9
	str	r1, [sp, #132]                  @ 4-byte Spill
	eor	r1, r1, r5
	eor	r9, r9, r2
	eor	r5, r5, r12
	eor	r11, r5, r9
	str	r1, [sp, #120]                  @ 4-byte Spill
	and	r1, r1, r6
	eor	r6, r6, r11
	and	r6, r6, r0
	eor	r0, r6, r1
	ldr	r1, [sp, #88]                   @ 4-byte Reload
	str	r0, [sp, #68]                   @ 4-byte Spill
	eor	r4, r1, r0
	and	r0, r11, r9
	eor	r8, r6, r0
	ldr	r6, [sp, #100]                  @ 4-byte Reload
	eor	r1, r10, r9
	str	r1, [sp, #72]                   @ 4-byte Spill
	eor	r7, r6, r7
	eor	r0, lr, r7
	str	r0, [sp, #96]                   @ 4-byte Spill
	and	r12, r0, r1
	eor	r0, lr, r10
	eor	r1, r7, r2
	str	r1, [sp, #84]                   @ 4-byte Spill
	and	r2, r0, r1
	mov	r1, r0
	eor	r2, r2, r5
	str	r0, [sp, #88]                   @ 4-byte Spill
	eor	r2, r2, r12
	ldr	r0, [sp, #144]                  @ 4-byte Reload
	eor	r10, r2, r8
	ldr	r2, [sp, #140]                  @ 4-byte Reload
	mov	lr, r12
	eor	r1, r1, r6
	and	r12, r0, r2
	ldr	r2, [sp, #92]                   @ 4-byte Reload
	str	r1, [sp, #92]                   @ 4-byte Spill
	and	r7, r10, r4
	eor	r0, r2, r5
	str	r0, [sp, #80]                   @ 4-byte Spill
	and	r5, r1, r0
	ldr	r1, [sp, #128]                  @ 4-byte Reload
	eor	r0, r12, r5
	eor	r0, r0, r6
	eor	r0, r0, r3
	eor	r5, r0, r8
	ldr	r0, [sp, #132]                  @ 4-byte Reload
	eor	r12, r5, r4
	and	r2, r7, r12
	and	r7, r0, r1
	ldr	r0, [sp, #136]                  @ 4-byte Reload
	eor	r7, r11, r7
	eor	r7, r7, r0
	ldr	r0, [sp, #68]                   @ 4-byte Reload
	eor	r6, r7, lr
	eor	r7, r6, r0
	ldr	r6, [sp, #72]                   @ 4-byte Reload
	and	r0, r7, r4
	eor	lr, r7, r10
	eor	r1, r0, r2
	and	r2, r5, r7
	and	r2, r2, lr
	eor	r8, r1, r12
	eor	r2, r0, r2
	eor	r3, r2, lr
	eor	r2, r0, r10
	and	r2, r2, r12
	eor	r7, r3, r8
	eor	r2, r2, r5
	and	r1, r7, r9
	eor	r4, r8, r2
	str	r4, [sp, #64]                   @ 4-byte Spill
	and	r6, r4, r6
	ldr	r4, [sp, #84]                   @ 4-byte Reload
	eor	r12, r6, r1
	eor	r0, r0, r5
	and	r9, r2, r4
	ldr	r4, [sp, #128]                  @ 4-byte Reload
	str	r9, [sp, #84]                   @ 4-byte Spill
	and	r0, r0, lr
	and	r6, r8, r4
	ldr	r4, [sp, #76]                   @ 4-byte Reload
	eor	r6, r6, r9
	str	r1, [sp, #68]                   @ 4-byte Spill
	and	r9, r3, r4
	and	r1, r7, r11
	eor	r4, r6, r9
	str	r1, [sp, #72]                   @ 4-byte Spill
	eor	r4, r4, r1
	str	r12, [sp, #100]                 @ 4-byte Spill
	eor	r1, r4, r12
	eor	r4, r0, r10
	ldr	r0, [sp, #140]                  @ 4-byte Reload
	eor	r10, r3, r4
	str	r1, [sp, #76]                   @ 4-byte Spill
	eor	r1, r4, r2
	and	r12, r10, r0
	ldr	r0, [sp, #136]                  @ 4-byte Reload
	str	r6, [sp, #128]                  @ 4-byte Spill
	eor	r5, r0, r11
	ldr	r0, [sp, #80]                   @ 4-byte Reload
	and	r5, r1, r5
	mov	r11, r1
	and	r6, r4, r0
	ldr	r0, [sp, #124]                  @ 4-byte Reload
	eor	r6, r5, r6
	eor	r5, r5, r9
	and	r1, r3, r0
	ldr	r0, [sp, #132]                  @ 4-byte Reload
	eor	r6, r6, r12
	mov	r9, r11
	and	r0, r8, r0
	eor	r0, r0, r1
	str	r0, [sp, #136]                  @ 4-byte Spill
	eor	lr, r6, r0
	ldr	r0, [sp, #76]                   @ 4-byte Reload
	eor	r6, r7, r11
	eor	r0, r0, lr
	str	r0, [sp, #140]                  @ 4-byte Spill
	ldr	r0, [sp, #144]                  @ 4-byte Reload
	and	r3, r10, r0
	ldr	r0, [sp, #104]                  @ 4-byte Reload
	eor	r5, r5, r3
	and	r7, r6, r0
	ldr	r0, [sp, #96]                   @ 4-byte Reload
	eor	r1, r7, r1
	ldr	r7, [sp, #64]                   @ 4-byte Reload
	eor	r1, r1, r5
	and	r8, r7, r0
	ldr	r0, [sp, #92]                   @ 4-byte Reload
	and	r4, r4, r0
	ldr	r0, [sp, #68]                   @ 4-byte Reload
	eor	r10, r8, r4
	eor	r7, r10, r0
	ldr	r0, [sp, #88]                   @ 4-byte Reload
	and	r2, r2, r0
	ldr	r0, [sp, #128]                  @ 4-byte Reload
	eor	r11, r0, r2
	eor	r7, r7, r11
	eor	r3, r11, r3
	eor	r0, r7, r1
	ldr	r7, [sp, #120]                  @ 4-byte Reload
	str	r0, [sp, #124]                  @ 4-byte Spill
	and	r6, r6, r7
	ldr	r0, [sp, #72]                   @ 4-byte Reload
	eor	r7, r6, r12
	eor	r7, r7, r1
	eor	r1, r6, r0
	eor	r3, r3, r1
	eor	r0, r1, r5
	eor	r1, r12, r4
	ldr	r4, [sp, #108]                  @ 4-byte Reload
	eor	r12, r1, r0
	ldr	r1, [sp, #84]                   @ 4-byte Reload
	ldr	r5, [sp, #100]                  @ 4-byte Reload
	adds	r4, r4, #1
	eor	r1, r8, r1
	eor	r6, r3, lr
	eor	r1, r1, r0
	str	r1, [sp, #128]                  @ 4-byte Spill
	ldr	r1, [sp, #136]                  @ 4-byte Reload
	mov	r3, r7
	eor	r1, r10, r1
	eor	r11, r1, r0
	ldr	r0, [sp, #116]                  @ 4-byte Reload
	ldr	r1, [sp, #16]                   @ 4-byte Reload
	and	r0, r9, r0
	eor	r0, r0, r2
	ldr	r2, [sp, #112]                  @ 4-byte Reload
	eor	lr, r0, r5
	adc	r2, r2, #0
	subs	r0, r4, r1
	ldr	r0, [sp, #12]                   @ 4-byte Reload
	sbcs	r0, r2, r0
	blo	.Laes_BB24_5
	b	.Laes_BB24_7
.Laes_BB24_6:
	ldr	r3, [sp, #136]                  @ 4-byte Reload
	mov	r6, r8
.Laes_BB24_7:                               @ %"aes_soft::soft::ciphers::planes::DecryptPlaneCipher::process_planes::<#42add9d049d0c5fd>.exit"
	ldr	r5, [sp, #20]                   @ 4-byte Reload
	ldm	r5, {r0, r1, r4, r9}
	eor	r2, r0, lr
	eor	r0, r1, r3
	movw	lr, #21845
	str	r2, [sp, #144]                  @ 4-byte Spill
	eor	r1, r0, r2, lsr #1
	movt	lr, #21845
	and	r1, r1, lr
	str	r1, [sp, #136]                  @ 4-byte Spill
	eor	r8, r1, r0
	ldr	r0, [sp, #124]                  @ 4-byte Reload
	eor	r1, r4, r11
	str	r1, [sp, #132]                  @ 4-byte Spill
	eor	r0, r9, r0
	ldr	r2, [sp, #128]                  @ 4-byte Reload
	eor	r4, r0, r1, lsr #1
	movw	r1, #13107
	and	r10, r4, lr
	movt	r1, #13107
	eor	r0, r10, r0
	eor	r4, r0, r8, lsr #2
	and	r1, r4, r1
	eor	r9, r1, r0
	ldr	r0, [r5, #16]
	eor	r1, r8, r1, lsl #2
	eor	r11, r0, r2
	ldr	r0, [r5, #20]
	movw	r2, #13107
	eor	r6, r0, r6
	movt	r2, #13107
	eor	r0, r6, r11, lsr #1
	and	r3, r0, lr
	ldr	r0, [sp, #140]                  @ 4-byte Reload
	eor	r7, r3, r6
	ldr	r6, [r5, #24]
	ldr	r5, [r5, #28]
	eor	r3, r11, r3, lsl #1
	eor	r6, r6, r0
	eor	r5, r5, r12
	movw	r12, #3855
	eor	r4, r5, r6, lsr #1
	movt	r12, #3855
	and	lr, r4, lr
	ldr	r4, [sp, #8]                    @ 4-byte Reload
	eor	r5, lr, r5
	eor	r0, r5, r7, lsr #2
	and	r0, r0, r2
	eor	r5, r0, r5
	eor	r0, r7, r0, lsl #2
	eor	r2, r5, r9, lsr #4
	eor	r7, r0, r1, lsr #4
	and	r2, r2, r12
	and	r7, r7, r12
	eor	r5, r2, r5
	eor	r0, r7, r0
	str	r0, [r4, #24]
	eor	r0, r9, r2, lsl #4
	str	r0, [r4, #20]
	eor	r0, r1, r7, lsl #4
	ldr	r1, [sp, #136]                  @ 4-byte Reload
	str	r0, [r4, #16]
	eor	r7, r6, lr, lsl #1
	ldr	r0, [sp, #144]                  @ 4-byte Reload
	eor	r6, r7, r3, lsr #2
	str	r5, [r4, #28]
	movw	r5, #13107
	eor	r0, r0, r1, lsl #1
	ldr	r1, [sp, #132]                  @ 4-byte Reload
	movt	r5, #13107
	and	r6, r6, r5
	eor	r1, r1, r10, lsl #1
	eor	r7, r6, r7
	eor	r2, r1, r0, lsr #2
	and	r2, r2, r5
	eor	r1, r2, r1
	eor	r0, r0, r2, lsl #2
	eor	r2, r3, r6, lsl #2
	eor	r5, r7, r1, lsr #4
	eor	r3, r2, r0, lsr #4
	and	r5, r5, r12
	and	r3, r3, r12
	eor	r7, r5, r7
	eor	r2, r3, r2
	eor	r1, r1, r5, lsl #4
	eor	r0, r0, r3, lsl #4
	str	r7, [r4, #12]
	str	r2, [r4, #8]
	str	r1, [r4, #4]
	str	r0, [r4]
	add	sp, sp, #148
	pop	{r4, r5, r6, r7, r8, r9, r10, r11, pc}
.Laes_func_end24:
	.size	aes.aes_soft.soft.ciphers.planes.process_outlined.2, .Laes_func_end24-aes.aes_soft.soft.ciphers.planes.process_outlined.2
	.cantunwind
	.fnend
                                        @ -- End function
	.section	.text.aes.aes_narrow.blocks.process_all_batches.2,"ax",%progbits
	.p2align	2                               @ -- Begin function aes_narrow::blocks::process_all_batches::<#a3dcb71d05bd149b>
	.type	aes.aes_narrow.blocks.process_all_batches.2,%function
	.code	32
aes.aes_narrow.blocks.process_all_batches.2: @ @aes.aes_narrow.blocks.process_all_batches.2
	.fnstart
@ %bb.0:                                @ %start
	.save	{r4, r5, r6, r7, r8, r9, r10, r11, lr}
	push	{r4, r5, r6, r7, r8, r9, r10, r11, lr}
	.pad	#20
	sub	sp, sp, #20
	ldr	r7, [sp, #68]
	mov	r6, r0
	ldr	r4, [sp, #64]
	orrs	r0, r4, r7
	beq	.Laes_BB25_3
@ %bb.1:                                @ %join.5.preheader
	mov	r8, r3
	mov	r11, r2
	mov	r5, #0
	mov	r9, #0
.Laes_BB25_2:                               @ %join.5
                                        @ =>This Inner Loop Header: Depth=1
	ldr	r0, [sp, #56]
	subs	r10, r4, r5
	mov	r1, #2
	mov	r2, r11
	add	r0, r0, r5, lsl #4
	str	r0, [sp]
	sbc	r0, r7, r9
	cmp	r10, #2
	movhs	r10, r1
	cmp	r0, #0
	movne	r10, r1
	mov	r0, #0
	str	r10, [sp, #8]
	mov	r3, r8
	str	r0, [sp, #12]
	mov	r0, r6
	bl	aes.aes_soft.soft.blocks.filled_up.process_filled_up.2
	adds	r5, r10, r5
	adc	r9, r9, #0
	subs	r0, r5, r4
	sbcs	r0, r9, r7
	blo	.Laes_BB25_2
.Laes_BB25_3:                               @ %after.1
	add	sp, sp, #20
	pop	{r4, r5, r6, r7, r8, r9, r10, r11, pc}
.Laes_func_end25:
	.size	aes.aes_narrow.blocks.process_all_batches.2, .Laes_func_end25-aes.aes_narrow.blocks.process_all_batches.2
	.cantunwind
	.fnend
                                        @ -- End function
	.section	.text.aes.key_wrap.wrapping.unwrap,"ax",%progbits
	.p2align	2                               @ -- Begin function key_wrap::wrapping::unwrap::<#10c636071cb6e37c>
	.type	aes.key_wrap.wrapping.unwrap,%function
	.code	32
aes.key_wrap.wrapping.unwrap: @ @aes.key_wrap.wrapping.unwrap
	.fnstart
@ %bb.0:                                @ %start
	.save	{r4, r5, r6, r7, r8, r9, r10, r11, lr}
	push	{r4, r5, r6, r7, r8, r9, r10, r11, lr}
	.pad	#28
	sub	sp, sp, #28
	ldr	r8, [sp, #72]
	mov	r4, #1
	ldr	r12, [sp, #76]
	mov	r10, #0
	adds	r7, r8, #1
	adc	r6, r12, #0
	subs	r5, r8, #2
	sbcs	r5, r12, #0
	blo	.Laes_BB26_8
@ %bb.1:                                @ %start
	eor	r7, r2, r7
	eor	r6, r3, r6
	orrs	r7, r7, r6
	bne	.Laes_BB26_8
@ %bb.2:                                @ %after.1
	subs	r2, r2, #1
	ldr	r11, [sp, #64]
	sbc	r9, r3, #0
	add	r10, r1, #8
	subs	r6, r11, r10
	mov	r7, #0
	lsl	r3, r9, #3
	sbc	lr, r7, #0
	orr	r12, r3, r2, lsr #29
	subs	r6, r6, r2, lsl #3
	sbcs	r6, lr, r12
	bhs	.Laes_BB26_5
@ %bb.3:                                @ %join.7.i.i.i.i.i.i.i.i.preheader
	mov	r6, #0
.Laes_BB26_4:                               @ %join.7.i.i.i.i.i.i.i.i
                                        @ =>This Inner Loop Header: Depth=1
	mov	r3, r10
	mov	r5, r11
	ldr	r4, [r3, r6, lsl #3]!
	ldr	r3, [r3, #4]
	str	r4, [r5, r6, lsl #3]!
	adds	r6, r6, #1
	adc	r7, r7, #0
	str	r3, [r5, #4]
	subs	r3, r6, r2
	sbcs	r3, r7, r9
	blo	.Laes_BB26_4
	b	.Laes_BB26_6
.Laes_BB26_5:                               @ %apart.2.i.i.i.i.i.i.i.i
	mov	r5, r0
	mov	r6, r1
	lsl	r2, r2, #3
	mov	r0, r11
	mov	r1, r10
	bl	memmove
	mov	r1, r6
	mov	r0, r5
.Laes_BB26_6:                               @ %"key_wrap::wrapping::unwrap_all::<#10c636071cb6e37c>.exit"
	ldr	r2, [r1]
	ldr	r1, [r1, #4]
	str	r1, [sp, #12]
	add	r1, sp, #8
	str	r2, [sp, #8]
	mov	r2, r11
	ldr	r5, [sp, #76]
	str	r8, [sp]
	str	r5, [sp, #4]
	bl	aes.key_wrap.steps.unwrap_in_place
	movw	r2, #42662
	ldr	r0, [sp, #8]
	movt	r2, #42662
	add	r3, sp, #8
	ldr	r1, [sp, #12]
	stm	r3, {r0, r1, r2}
	add	r0, sp, #8
	str	r2, [sp, #20]
	ldr	r1, .Laes_CPI26_0
.Laes_PC26_0:
	add	r1, pc, r1
	bl	aes.aes_cipher.blocks.difference
	cmp	r0, #0
	beq	.Laes_BB26_9
@ %bb.7:                                @ %loop.5.preheader.i
	subs	r4, r8, #1
	mov	r1, #1
	sbc	r0, r5, #0
	cmp	r4, #1
	movhi	r1, r4
	cmp	r0, #0
	mov	r0, #1
	mov	r10, #1
	movne	r0, r4
	mov	r5, #0
	moveq	r0, r1
	mov	r1, #0
	lsl	r2, r0, #3
	mov	r0, r11
	bl	memset
	str	r5, [r11, r4, lsl #3]!
	mov	r4, #1
	str	r5, [r11, #4]
.Laes_BB26_8:                               @ %return.10
	mov	r0, r4
	mov	r1, r10
	add	sp, sp, #28
	pop	{r4, r5, r6, r7, r8, r9, r10, r11, pc}
.Laes_BB26_9:
	mov	r10, #0
	mov	r4, #0
	mov	r0, r4
	mov	r1, r10
	add	sp, sp, #28
	pop	{r4, r5, r6, r7, r8, r9, r10, r11, pc}
	.p2align	2
@ %bb.10:
.Laes_CPI26_0:
	.long	.Laes_static.2-(.Laes_PC26_0+8)
.Laes_func_end26:
	.size	aes.key_wrap.wrapping.unwrap, .Laes_func_end26-aes.key_wrap.wrapping.unwrap
	.cantunwind
	.fnend
                                        @ -- End function
	.section	.text.aes.key_wrap.steps.unwrap_in_place,"ax",%progbits
	.p2align	2                               @ -- Begin function key_wrap::steps::unwrap_in_place::<#10c636071cb6e37c>
	.type	aes.key_wrap.steps.unwrap_in_place,%function
	.code	32
aes.key_wrap.steps.unwrap_in_place: @ @aes.key_wrap.steps.unwrap_in_place
	.fnstart
@ %bb.0:                                @ %start
	.save	{r4, r5, r6, r7, r8, r9, r10, r11, lr}
	push	{r4, r5, r6, r7, r8, r9, r10, r11, lr}
	.pad	#60
	sub	sp, sp, #60
	mov	lr, r2
	ldr	r3, [sp, #100]
	ldr	r2, [sp, #96]
	mov	r12, r0
	orrs	r0, r2, r3
	beq	.Laes_BB27_13
@ %bb.1:                                @ %join.5.preheader
	mov	r10, r1
	add	r1, r3, r3, lsl #2
	mov	r0, #5
	mov	r4, #1
	umlal	r4, r1, r2, r0
	add	r8, sp, #40
	add	r5, r12, #8
	add	r9, r8, #8
	add	r0, sp, #28
	mov	r7, #0
	str	r4, [sp, #20]                   @ 4-byte Spill
	mov	r4, #0
	str	r1, [sp, #24]                   @ 4-byte Spill
	stm	r0, {r5, r12, lr}               @ 12-byte Folded Spill
.Laes_BB27_2:                               @ %join.5.i
                                        @ =>This Inner Loop Header: Depth=1
	mvn	r1, r4
	mvn	r0, r7
	adds	r1, r2, r1
	ldr	r2, [sp, #20]                   @ 4-byte Reload
	adc	r0, r3, r0
	ldr	r6, [r10, #4]
	adds	r2, r2, r1
	ldr	r3, [r10]
	rev	r2, r2
	mov	r11, r8
	eor	r2, r2, r6
	ldr	r6, [sp, #24]                   @ 4-byte Reload
	str	r2, [r10, #4]
	adc	r0, r6, r0
	mov	r6, lr
	rev	r0, r0
	str	r2, [sp, #44]
	eor	r0, r0, r3
	str	r0, [r10]
	ldr	r8, [r6, r1, lsl #3]!
	str	r0, [sp, #40]
	ldr	r2, [r5]
	ldr	r3, [r5, #4]
	mov	r5, #0
	ldr	r0, [r12]
	ldr	r1, [r6, #4]
	str	r8, [r9]
	mov	r8, r11
	str	r1, [r9, #4]
	mov	r1, #1
	str	r1, [sp, #8]
	str	r5, [sp, #12]
	str	r11, [sp]
	bl	aes.aes_narrow.blocks.process_all_batches.2
	bl	aes.aes_cipher.zeroize.stack.wipe_stack.1024
	ldr	r0, [sp, #40]
	ldr	r1, [sp, #44]
	str	r1, [r10, #4]
	str	r0, [r10]
	ldrd	r0, r1, [r9]
	str	r0, [r6]
	mov	r0, r11
	str	r1, [r6, #4]
	bl	aes.aes_cipher.zeroize.elements.zeroize_elements.3
	add	lr, sp, #28
	adds	r4, r4, #1
	ldr	r2, [sp, #96]
	adc	r7, r7, #0
	ldr	r3, [sp, #100]
	ldm	lr, {r5, r12, lr}               @ 12-byte Folded Reload
	subs	r0, r4, r2
	sbcs	r0, r7, r3
	blo	.Laes_BB27_2
@ %bb.3:                                @ %"key_wrap::steps::unwrap_turn::<#10c636071cb6e37c>.exit.loopexit"
	mov	r0, #1
	mov	r4, #0
	orr	r0, r0, r2, lsl #2
	str	r0, [sp, #24]                   @ 4-byte Spill
	lsl	r0, r3, #2
	mov	r7, #0
	orr	r0, r0, r2, lsr #30
	str	r0, [sp, #20]                   @ 4-byte Spill
.Laes_BB27_4:                               @ %join.5.i.1
                                        @ =>This Inner Loop Header: Depth=1
	mvn	r1, r4
	mvn	r0, r7
	adds	r1, r2, r1
	ldr	r2, [sp, #24]                   @ 4-byte Reload
	adc	r0, r3, r0
	ldr	r6, [r10, #4]
	adds	r2, r2, r1
	ldr	r3, [r10]
	rev	r2, r2
	eor	r2, r2, r6
	ldr	r6, [sp, #20]                   @ 4-byte Reload
	str	r2, [r10, #4]
	adc	r0, r6, r0
	mov	r6, lr
	rev	r0, r0
	str	r2, [sp, #44]
	eor	r0, r0, r3
	str	r0, [r10]
	ldr	r8, [r6, r1, lsl #3]!
	str	r0, [sp, #40]
	ldr	r2, [r5]
	ldr	r3, [r5, #4]
	mov	r5, #0
	ldr	r0, [r12]
	ldr	r1, [r6, #4]
	str	r8, [r9]
	str	r1, [r9, #4]
	mov	r1, #1
	str	r1, [sp, #8]
	str	r5, [sp, #12]
	str	r11, [sp]
	bl	aes.aes_narrow.blocks.process_all_batches.2
	bl	aes.aes_cipher.zeroize.stack.wipe_stack.1024
	ldr	r0, [sp, #40]
	ldr	r1, [sp, #44]
	str	r1, [r10, #4]
	str	r0, [r10]
	ldrd	r0, r1, [r9]
	str	r0, [r6]
	mov	r0, r11
	str	r1, [r6, #4]
	bl	aes.aes_cipher.zeroize.elements.zeroize_elements.3
	add	lr, sp, #28
	adds	r4, r4, #1
	ldr	r2, [sp, #96]
	adc	r7, r7, #0
	ldr	r3, [sp, #100]
	ldm	lr, {r5, r12, lr}               @ 12-byte Folded Reload
	subs	r0, r4, r2
	sbcs	r0, r7, r3
	blo	.Laes_BB27_4
@ %bb.5:                                @ %"key_wrap::steps::unwrap_turn::<#10c636071cb6e37c>.exit.loopexit.1"
	add	r1, r3, r3, lsl #1
	mov	r0, #3
	mov	r4, #1
	mov	r7, #0
	umlal	r4, r1, r2, r0
	str	r4, [sp, #20]                   @ 4-byte Spill
	mov	r4, #0
	str	r1, [sp, #24]                   @ 4-byte Spill
.Laes_BB27_6:                               @ %join.5.i.2
                                        @ =>This Inner Loop Header: Depth=1
	mvn	r1, r4
	mvn	r0, r7
	adds	r1, r2, r1
	ldr	r2, [sp, #20]                   @ 4-byte Reload
	adc	r0, r3, r0
	ldr	r6, [r10, #4]
	adds	r2, r2, r1
	ldr	r3, [r10]
	rev	r2, r2
	eor	r2, r2, r6
	ldr	r6, [sp, #24]                   @ 4-byte Reload
	str	r2, [r10, #4]
	adc	r0, r6, r0
	mov	r6, lr
	rev	r0, r0
	str	r2, [sp, #44]
	eor	r0, r0, r3
	str	r0, [r10]
	ldr	r8, [r6, r1, lsl #3]!
	str	r0, [sp, #40]
	ldr	r2, [r5]
	ldr	r3, [r5, #4]
	mov	r5, #0
	ldr	r0, [r12]
	ldr	r1, [r6, #4]
	str	r8, [r9]
	mov	r8, r11
	str	r1, [r9, #4]
	mov	r1, #1
	str	r1, [sp, #8]
	str	r5, [sp, #12]
	str	r11, [sp]
	bl	aes.aes_narrow.blocks.process_all_batches.2
	bl	aes.aes_cipher.zeroize.stack.wipe_stack.1024
	ldr	r0, [sp, #40]
	ldr	r1, [sp, #44]
	str	r1, [r10, #4]
	str	r0, [r10]
	ldrd	r0, r1, [r9]
	str	r0, [r6]
	mov	r0, r11
	str	r1, [r6, #4]
	bl	aes.aes_cipher.zeroize.elements.zeroize_elements.3
	add	lr, sp, #28
	adds	r4, r4, #1
	ldr	r2, [sp, #96]
	adc	r7, r7, #0
	ldr	r3, [sp, #100]
	ldm	lr, {r5, r12, lr}               @ 12-byte Folded Reload
	subs	r0, r4, r2
	sbcs	r0, r7, r3
	blo	.Laes_BB27_6
@ %bb.7:                                @ %"key_wrap::steps::unwrap_turn::<#10c636071cb6e37c>.exit.loopexit.2"
	mov	r0, #1
	mov	r4, #0
	orr	r0, r0, r2, lsl #1
	str	r0, [sp, #24]                   @ 4-byte Spill
	lsl	r0, r3, #1
	mov	r7, #0
	mov	r11, r8
	orr	r0, r0, r2, lsr #31
	str	r0, [sp, #20]                   @ 4-byte Spill
.Laes_BB27_8:                               @ %join.5.i.3
                                        @ =>This Inner Loop Header: Depth=1
	mvn	r1, r4
	mvn	r0, r7
	adds	r1, r2, r1
	ldr	r2, [sp, #24]                   @ 4-byte Reload
	adc	r0, r3, r0
	ldr	r6, [r10, #4]
	adds	r2, r2, r1
	ldr	r3, [r10]
	rev	r2, r2
	eor	r2, r2, r6
	ldr	r6, [sp, #20]                   @ 4-byte Reload
	str	r2, [r10, #4]
	adc	r0, r6, r0
	mov	r6, lr
	rev	r0, r0
	str	r2, [sp, #44]
	eor	r0, r0, r3
	str	r0, [r10]
	ldr	r8, [r6, r1, lsl #3]!
	str	r0, [sp, #40]
	ldr	r2, [r5]
	ldr	r3, [r5, #4]
	mov	r5, #0
	ldr	r0, [r12]
	ldr	r1, [r6, #4]
	str	r8, [r9]
	str	r1, [r9, #4]
	mov	r1, #1
	str	r1, [sp, #8]
	str	r5, [sp, #12]
	str	r11, [sp]
	bl	aes.aes_narrow.blocks.process_all_batches.2
	bl	aes.aes_cipher.zeroize.stack.wipe_stack.1024
	ldr	r0, [sp, #40]
	ldr	r1, [sp, #44]
	str	r1, [r10, #4]
	str	r0, [r10]
	ldrd	r0, r1, [r9]
	str	r0, [r6]
	mov	r0, r11
	str	r1, [r6, #4]
	bl	aes.aes_cipher.zeroize.elements.zeroize_elements.3
	add	lr, sp, #28
	adds	r4, r4, #1
	ldr	r2, [sp, #96]
	adc	r7, r7, #0
	ldr	r3, [sp, #100]
	ldm	lr, {r5, r12, lr}               @ 12-byte Folded Reload
	subs	r0, r4, r2
	sbcs	r0, r7, r3
	blo	.Laes_BB27_8
@ %bb.9:                                @ %"key_wrap::steps::unwrap_turn::<#10c636071cb6e37c>.exit.loopexit.3"
	adds	r0, r2, #1
	mov	r8, #0
	mov	r4, #0
	str	r0, [sp, #24]                   @ 4-byte Spill
	adc	r0, r3, #0
	str	r0, [sp, #20]                   @ 4-byte Spill
.Laes_BB27_10:                              @ %join.5.i.4
                                        @ =>This Inner Loop Header: Depth=1
	mvn	r1, r8
	mvn	r0, r4
	adds	r1, r2, r1
	ldr	r2, [sp, #24]                   @ 4-byte Reload
	ldr	r6, [sp, #20]                   @ 4-byte Reload
	adc	r0, r3, r0
	adds	r2, r2, r1
	ldr	r3, [r10]
	adc	r0, r6, r0
	ldr	r7, [r10, #4]
	rev	r2, r2
	rev	r0, r0
	eor	r2, r2, r7
	eor	r0, r0, r3
	str	r2, [r10, #4]
	mov	r6, lr
	str	r0, [r10]
	mov	r7, #0
	ldr	r1, [r6, r1, lsl #3]!
	str	r2, [sp, #44]
	ldr	r3, [r6, #4]
	stm	r9, {r1, r3}
	mov	r1, #1
	str	r0, [sp, #40]
	ldr	r2, [r5]
	ldr	r3, [r5, #4]
	ldr	r0, [r12]
	str	r1, [sp, #8]
	str	r7, [sp, #12]
	str	r11, [sp]
	bl	aes.aes_narrow.blocks.process_all_batches.2
	bl	aes.aes_cipher.zeroize.stack.wipe_stack.1024
	ldr	r0, [sp, #40]
	ldr	r1, [sp, #44]
	str	r1, [r10, #4]
	str	r0, [r10]
	ldrd	r0, r1, [r9]
	str	r0, [r6]
	mov	r0, r11
	str	r1, [r6, #4]
	bl	aes.aes_cipher.zeroize.elements.zeroize_elements.3
	add	lr, sp, #28
	adds	r8, r8, #1
	ldr	r2, [sp, #96]
	adc	r4, r4, #0
	ldr	r3, [sp, #100]
	ldm	lr, {r5, r12, lr}               @ 12-byte Folded Reload
	subs	r0, r8, r2
	sbcs	r0, r4, r3
	blo	.Laes_BB27_10
@ %bb.11:                               @ %join.5.i.5.preheader
	mov	r4, #0
	mov	r7, #0
.Laes_BB27_12:                              @ %join.5.i.5
                                        @ =>This Inner Loop Header: Depth=1
	subs	r0, r2, r4
	ldr	r2, [r10, #4]
	rev	r0, r0
	ldr	r1, [r10]
	eor	r0, r0, r2
	sbc	r2, r3, r7
	rev	r2, r2
	ldr	r3, [sp, #96]
	eor	r1, r2, r1
	mvn	r2, r4
	add	r2, r3, r2
	str	r0, [r10, #4]
	str	r1, [r10]
	mov	r6, lr
	ldr	r2, [r6, r2, lsl #3]!
	mov	r8, #1
	str	r0, [sp, #44]
	ldr	r3, [r6, #4]
	ldr	r0, [r12]
	str	r1, [sp, #40]
	mov	r1, #0
	strd	r2, r3, [r9]
	ldr	r2, [r5]
	ldr	r3, [r5, #4]
	str	r8, [sp, #8]
	str	r1, [sp, #12]
	str	r11, [sp]
	bl	aes.aes_narrow.blocks.process_all_batches.2
	bl	aes.aes_cipher.zeroize.stack.wipe_stack.1024
	ldr	r0, [sp, #40]
	ldr	r1, [sp, #44]
	str	r1, [r10, #4]
	str	r0, [r10]
	ldrd	r0, r1, [r9]
	str	r0, [r6]
	mov	r0, r11
	str	r1, [r6, #4]
	bl	aes.aes_cipher.zeroize.elements.zeroize_elements.3
	add	lr, sp, #28
	adds	r4, r4, #1
	ldr	r2, [sp, #96]
	adc	r7, r7, #0
	ldr	r3, [sp, #100]
	ldm	lr, {r5, r12, lr}               @ 12-byte Folded Reload
	subs	r0, r4, r2
	sbcs	r0, r7, r3
	blo	.Laes_BB27_12
.Laes_BB27_13:                              @ %after.1
	add	sp, sp, #60
	pop	{r4, r5, r6, r7, r8, r9, r10, r11, pc}
.Laes_func_end27:
	.size	aes.key_wrap.steps.unwrap_in_place, .Laes_func_end27-aes.key_wrap.steps.unwrap_in_place
	.cantunwind
	.fnend
                                        @ -- End function
	.section	.text.aes.aes_cipher.zeroize.elements.zeroize_elements.3,"ax",%progbits
	.p2align	2                               @ -- Begin function aes_cipher::zeroize::elements::zeroize_elements::<#51e2d7e6a2c2e10f>
	.type	aes.aes_cipher.zeroize.elements.zeroize_elements.3,%function
	.code	32
aes.aes_cipher.zeroize.elements.zeroize_elements.3: @ @aes.aes_cipher.zeroize.elements.zeroize_elements.3
	.fnstart
@ %bb.0:                                @ %start
	.save	{r4, r5, r11, lr}
	push	{r4, r5, r11, lr}
	.pad	#8
	sub	sp, sp, #8
	mov	r2, #0
	str	r2, [sp, #4]
	str	r2, [sp]
	@APP
	@NO_APP
	ldrd	r4, r5, [sp]
	@APP
	@NO_APP
	str	r2, [r0, #12]
	str	r2, [r0, #8]
	str	r2, [r0, #4]
	str	r2, [r0]
	mov	r3, r2
	@APP
	@NO_APP
	ldrd	r0, r1, [sp]
	strd	r2, r3, [sp]
	@APP
	@NO_APP
	add	sp, sp, #8
	pop	{r4, r5, r11, pc}
.Laes_func_end28:
	.size	aes.aes_cipher.zeroize.elements.zeroize_elements.3, .Laes_func_end28-aes.aes_cipher.zeroize.elements.zeroize_elements.3
	.cantunwind
	.fnend
                                        @ -- End function
	.section	.text.aes.aes_cipher.blocks.difference,"ax",%progbits
	.p2align	2                               @ -- Begin function aes_cipher::blocks::difference
	.type	aes.aes_cipher.blocks.difference,%function
	.code	32
aes.aes_cipher.blocks.difference:       @ @aes.aes_cipher.blocks.difference
	.fnstart
@ %bb.0:                                @ %start
	.save	{r4, r5, r6, r7, r11, lr}
	push	{r4, r5, r6, r7, r11, lr}
	ldrb	r2, [r0]
	ldrb	r4, [r1]
	ldrb	r3, [r0, #1]
	ldrb	r5, [r1, #1]
	eor	r2, r4, r2
	ldrb	r12, [r0, #2]
	ldrb	r6, [r1, #2]
	eor	r3, r5, r3
	ldrb	lr, [r0, #3]
	orr	r2, r3, r2
	ldrb	r7, [r1, #3]
	eor	r3, r6, r12
	orr	r2, r3, r2
	eor	r3, r7, lr
	ldrb	r7, [r1, #4]
	orr	r2, r3, r2
	ldrb	r3, [r0, #4]
	eor	r3, r7, r3
	ldrb	r7, [r1, #5]
	orr	r2, r3, r2
	ldrb	r3, [r0, #5]
	eor	r3, r7, r3
	ldrb	r7, [r1, #6]
	orr	r2, r3, r2
	ldrb	r3, [r0, #6]
	eor	r3, r7, r3
	ldrb	r7, [r1, #7]
	orr	r2, r3, r2
	ldrb	r3, [r0, #7]
	eor	r3, r7, r3
	ldrb	r7, [r1, #8]
	orr	r2, r3, r2
	ldrb	r3, [r0, #8]
	eor	r3, r7, r3
	ldrb	r7, [r1, #9]
	orr	r2, r3, r2
	ldrb	r3, [r0, #9]
	eor	r3, r7, r3
	ldrb	r7, [r1, #10]
	orr	r2, r3, r2
	ldrb	r3, [r0, #10]
	eor	r3, r7, r3
	ldrb	r7, [r1, #11]
	orr	r2, r3, r2
	ldrb	r3, [r0, #11]
	eor	r3, r7, r3
	ldrb	r7, [r1, #12]
	orr	r2, r3, r2
	ldrb	r3, [r0, #12]
	eor	r3, r7, r3
	ldrb	r7, [r1, #13]
	orr	r2, r3, r2
	ldrb	r3, [r0, #13]
	eor	r3, r7, r3
	ldrb	r7, [r1, #14]
	orr	r2, r3, r2
	ldrb	r3, [r0, #14]
	ldrb	r0, [r0, #15]
	ldrb	r1, [r1, #15]
	eor	r3, r7, r3
	orr	r2, r3, r2
	eor	r0, r1, r0
	orr	r0, r0, r2
	pop	{r4, r5, r6, r7, r11, pc}
.Laes_func_end29:
	.size	aes.aes_cipher.blocks.difference, .Laes_func_end29-aes.aes_cipher.blocks.difference
	.cantunwind
	.fnend
                                        @ -- End function
	.section	.text.aes.key_wrap.padded.unwrap_padded,"ax",%progbits
	.p2align	2                               @ -- Begin function key_wrap::padded::unwrap_padded::<#10c636071cb6e37c>
	.type	aes.key_wrap.padded.unwrap_padded,%function
	.code	32
aes.key_wrap.padded.unwrap_padded: @ @aes.key_wrap.padded.unwrap_padded
	.fnstart
@ %bb.0:                                @ %start
	.save	{r4, r5, r6, r7, r8, r9, r10, r11, lr}
	push	{r4, r5, r6, r7, r8, r9, r10, r11, lr}
	.pad	#52
	sub	sp, sp, #52
	mov	r9, r1
	ldr	r1, [sp, #104]
	ldr	r7, [sp, #108]
	mov	r8, r0
	adds	r0, r1, #1
	mvn	r6, #-536870912
	adc	r3, r7, #0
	subs	r1, r1, #1
	sbc	r7, r7, #0
	subs	r6, r6, r1
	rscs	r7, r7, #0
	blo	.Laes_BB30_5
@ %bb.1:                                @ %start
	ldr	r7, [sp, #92]
	ldr	r6, [sp, #88]
	eor	r3, r7, r3
	eor	r0, r6, r0
	orrs	r0, r0, r3
	bne	.Laes_BB30_5
@ %bb.2:                                @ %after.1
	subs	r0, r6, #1
	ldr	r10, [sp, #96]
	str	r1, [sp, #20]                   @ 4-byte Spill
	sbc	r11, r7, #0
	add	r1, r2, #8
	mov	r6, #0
	subs	r4, r10, r1
	lsl	r3, r11, #3
	sbc	lr, r6, #0
	orr	r12, r3, r0, lsr #29
	subs	r4, r4, r0, lsl #3
	sbcs	r4, lr, r12
	bhs	.Laes_BB30_6
@ %bb.3:                                @ %join.7.i.i.i.i.i.i.i.preheader
	mov	r4, #0
.Laes_BB30_4:                               @ %join.7.i.i.i.i.i.i.i
                                        @ =>This Inner Loop Header: Depth=1
	mov	r3, r1
	mov	r7, r10
	ldr	r5, [r3, r4, lsl #3]!
	ldr	r3, [r3, #4]
	str	r5, [r7, r4, lsl #3]!
	adds	r4, r4, #1
	adc	r6, r6, #0
	str	r3, [r7, #4]
	subs	r3, r4, r0
	sbcs	r3, r6, r11
	blo	.Laes_BB30_4
	b	.Laes_BB30_7
.Laes_BB30_5:                               @ %join.5
	mov	r0, #0
	str	r0, [r8, #4]
	mov	r0, #1
	strh	r0, [r8]
	add	sp, sp, #52
	pop	{r4, r5, r6, r7, r8, r9, r10, r11, pc}
.Laes_BB30_6:                               @ %apart.2.i.i.i.i.i.i.i
	lsl	r6, r0, #3
	mov	r7, r2
	mov	r0, r10
	mov	r2, r6
	bl	memmove
	mov	r2, r7
.Laes_BB30_7:                               @ %"key_wrap::wrapping::copy_apart.exit"
	ldr	r3, [r2]
	ldr	r0, [r2, #4]
	ldr	r11, [sp, #104]
	ldr	r5, [sp, #108]
	eor	r1, r11, #1
	str	r0, [sp, #28]
	orrs	r1, r1, r5
	str	r3, [sp, #24]
	bne	.Laes_BB30_9
@ %bb.8:                                @ %"key_wrap::steps::unwrap_string::<#10c636071cb6e37c>.exit.thread"
	str	r3, [sp, #32]
	add	r3, sp, #36
	ldr	r2, [r10, #4]
	mov	r4, #1
	ldr	r1, [r10]
	stm	r3, {r0, r1, r2}
	mov	r1, #0
	ldr	r0, [r9]
	ldr	r2, [r9, #8]
	ldr	r3, [r9, #12]
	str	r4, [sp, #8]
	add	r4, sp, #32
	str	r1, [sp, #12]
	str	r4, [sp]
	bl	aes.aes_narrow.blocks.process_all_batches.2
	bl	aes.aes_cipher.zeroize.stack.wipe_stack.1024
	ldr	r0, [sp, #40]
	ldr	r1, [sp, #44]
	str	r0, [r10]
	mov	r0, r4
	ldr	r7, [sp, #32]
	ldr	r6, [sp, #36]
	str	r1, [r10, #4]
	bl	aes.aes_cipher.zeroize.elements.zeroize_elements.3
	mov	r0, r7
	mov	r1, r6
	mov	r2, r10
	str	r11, [sp]
	str	r5, [sp, #4]
	bl	aes.key_wrap.padded.difference
	orrs	r0, r0, r1
	bne	.Laes_BB30_11
	b	.Laes_BB30_12
.Laes_BB30_9:                               @ %"key_wrap::steps::unwrap_string::<#10c636071cb6e37c>.exit"
	add	r1, sp, #24
	mov	r0, r9
	mov	r2, r10
	str	r11, [sp]
	str	r5, [sp, #4]
	bl	aes.key_wrap.steps.unwrap_in_place
	ldr	r6, [sp, #28]
	mov	r2, r10
	ldr	r0, [sp, #24]
	str	r11, [sp]
	mov	r1, r6
	str	r5, [sp, #4]
	bl	aes.key_wrap.padded.difference
	orrs	r0, r0, r1
	beq	.Laes_BB30_12
@ %bb.10:                               @ %join.8.i.preheader
	mvn	r0, #7
	add	r2, r0, r11, lsl #3
	mov	r0, r10
	mov	r1, #0
	bl	memset
.Laes_BB30_11:                              @ %"core::slice::edits::slice+T::fill::<#1e8902aced0720be>.exit"
	ldr	r1, [sp, #20]                   @ 4-byte Reload
	mov	r0, #0
	str	r0, [r10, r1, lsl #3]!
	str	r0, [r10, #4]
	str	r0, [r8, #4]
	movw	r0, #257
	strh	r0, [r8]
	add	sp, sp, #52
	pop	{r4, r5, r6, r7, r8, r9, r10, r11, pc}
.Laes_BB30_12:                              @ %join.16
	mov	r0, #0
	strh	r0, [r8]
	rev	r0, r6
	str	r0, [r8, #4]
	add	sp, sp, #52
	pop	{r4, r5, r6, r7, r8, r9, r10, r11, pc}
.Laes_func_end30:
	.size	aes.key_wrap.padded.unwrap_padded, .Laes_func_end30-aes.key_wrap.padded.unwrap_padded
	.cantunwind
	.fnend
                                        @ -- End function
	.section	.text.aes.key_wrap.padded.difference,"ax",%progbits
	.p2align	2                               @ -- Begin function key_wrap::padded::difference
	.type	aes.key_wrap.padded.difference,%function
	.code	32
aes.key_wrap.padded.difference:         @ @aes.key_wrap.padded.difference
	.fnstart
@ %bb.0:                                @ %start
	.save	{r4, r5, r6, r7, r8, r9, r10, lr}
	push	{r4, r5, r6, r7, r8, r9, r10, lr}
	ldr	r3, [sp, #32]
	mov	r8, r0
	ldr	r0, [sp, #36]
	rev	r1, r1
	rsbs	r10, r1, r3, lsl #3
	add	r4, r2, r3, lsl #3
	lsl	r0, r0, #3
	and	r5, r10, #7
	orr	r0, r0, r3, lsr #29
	ldrb	r6, [r4, #-1]
	sbc	r9, r0, #0
	mov	r0, #0
	mov	r1, r5
	bl	aes.key_wrap.padded.mask_below
	and	r6, r0, r6
	mov	r0, #1
	mov	r1, r5
	ldrb	r7, [r4, #-2]
	bl	aes.key_wrap.padded.mask_below
	and	r0, r0, r7
	mov	r1, r5
	orr	r6, r0, r6
	mov	r0, #2
	ldrb	r7, [r4, #-3]
	bl	aes.key_wrap.padded.mask_below
	and	r0, r0, r7
	mov	r1, r5
	orr	r6, r6, r0
	mov	r0, #3
	ldrb	r7, [r4, #-4]
	bl	aes.key_wrap.padded.mask_below
	and	r0, r0, r7
	mov	r1, r5
	orr	r6, r6, r0
	mov	r0, #4
	ldrb	r7, [r4, #-5]
	bl	aes.key_wrap.padded.mask_below
	and	r0, r0, r7
	mov	r1, r5
	orr	r6, r6, r0
	mov	r0, #5
	ldrb	r7, [r4, #-6]
	bl	aes.key_wrap.padded.mask_below
	and	r0, r0, r7
	mov	r1, r5
	orr	r6, r6, r0
	mov	r0, #6
	ldrb	r7, [r4, #-7]
	bl	aes.key_wrap.padded.mask_below
	and	r0, r0, r7
	mov	r1, r5
	orr	r6, r6, r0
	mov	r0, #7
	ldrb	r4, [r4, #-8]
	bl	aes.key_wrap.padded.mask_below
	and	r0, r0, r4
	lsr	r1, r10, #3
	orr	r0, r6, r0
	movw	r3, #42586
	rev	r2, r8
	movt	r3, #22950
	orr	r1, r1, r9, lsl #29
	add	r2, r2, r3
	uxtb	r0, r0
	orr	r1, r1, r2
	orr	r0, r1, r0
	lsr	r1, r9, #3
	pop	{r4, r5, r6, r7, r8, r9, r10, pc}
.Laes_func_end31:
	.size	aes.key_wrap.padded.difference, .Laes_func_end31-aes.key_wrap.padded.difference
	.cantunwind
	.fnend
                                        @ -- End function
	.section	.text.aes.key_wrap.padded.mask_below,"ax",%progbits
	.p2align	2                               @ -- Begin function key_wrap::padded::mask_below
	.type	aes.key_wrap.padded.mask_below,%function
	.code	32
aes.key_wrap.padded.mask_below:         @ @aes.key_wrap.padded.mask_below
	.fnstart
@ %bb.0:                                @ %start
	sub	r0, r0, r1
	lsr	r0, r0, #24
	bx	lr
.Laes_func_end32:
	.size	aes.key_wrap.padded.mask_below, .Laes_func_end32-aes.key_wrap.padded.mask_below
	.cantunwind
	.fnend
                                        @ -- End function
	.section	.text.aes.aes_c.single_rounds.inverse_mixed,"ax",%progbits
	.p2align	2                               @ -- Begin function aes_c::single_rounds::inverse_mixed
	.type	aes.aes_c.single_rounds.inverse_mixed,%function
	.code	32
aes.aes_c.single_rounds.inverse_mixed:  @ @aes.aes_c.single_rounds.inverse_mixed
	.fnstart
@ %bb.0:                                @ %start
	.save	{r4, r5, r6, r7, r8, r9, r10, r11, lr}
	push	{r4, r5, r6, r7, r8, r9, r10, r11, lr}
	.pad	#60
	sub	sp, sp, #60
	mov	r1, r0
	str	r0, [sp, #24]                   @ 4-byte Spill
	add	r0, sp, #28
	bl	aes.aes_planes.soft.word.word32.U32Word.in_every_slot
	add	lr, sp, #28
	ldr	r6, [sp, #52]
	ldr	r1, [sp, #56]
	ldm	lr, {r2, r3, r7, lr}
	eor	r9, r7, r7, ror #8
	eor	r0, r6, r6, ror #8
	eor	r12, r1, r1, ror #8
	eor	r4, r0, r1
	eor	r1, r2, r2, ror #8
	eor	r8, r12, r2
	eor	r5, r4, r9
	eor	r2, r1, r3
	eor	r10, r3, r3, ror #8
	ldr	r3, [sp, #48]
	eor	r5, r5, r8
	str	r0, [sp, #20]                   @ 4-byte Spill
	eor	r0, r10, r7
	str	r3, [sp, #16]                   @ 4-byte Spill
	eor	r3, r3, r3, ror #8
	eor	r7, r0, r5, ror #16
	str	r0, [sp, #12]                   @ 4-byte Spill
	eor	r0, r7, r5
	str	r3, [sp, #8]                    @ 4-byte Spill
	eor	r5, lr, lr, ror #8
	eor	r3, r3, r6
	eor	r2, r2, r12
	eor	r7, r3, r5
	str	r5, [sp, #4]                    @ 4-byte Spill
	eor	r7, r7, r2
	eor	r5, r9, lr
	eor	lr, r5, r12
	ror	r11, r7, #16
	eor	r11, r11, r0, lsr #1
	eor	r5, r11, lr
	movw	r11, #43690
	eor	r5, r5, r7
	movt	r11, #43690
	and	r5, r11, r5, lsl #1
	eor	r5, r5, r0
	eor	r0, r3, r1
	eor	r1, r4, r3
	eor	r0, r0, r0, ror #16
	eor	r7, r1, r10
	eor	r0, r0, r8
	ror	r6, r7, #16
	eor	r6, r6, r0, lsr #1
	eor	r2, r6, r2
	eor	r2, r2, r7
	and	r2, r11, r2, lsl #1
	eor	r10, r2, r0
	movw	r2, #13107
	movt	r2, #13107
	eor	r0, r5, r10, lsr #2
	and	r8, r0, r2
	ldr	r2, [sp, #44]
	ldr	r0, [sp, #12]                   @ 4-byte Reload
	eor	r9, r8, r5
	eor	r5, r2, r2, ror #8
	eor	r6, r5, r0
	ldr	r0, [sp, #4]                    @ 4-byte Reload
	eor	r1, r6, r1
	eor	r2, r0, r2
	ldr	r0, [sp, #8]                    @ 4-byte Reload
	eor	r2, r2, r12
	eor	r6, r2, r1, ror #16
	eor	r1, r6, r1
	eor	r6, r4, r0
	eor	r7, r6, lr
	ldr	r0, [sp, #16]                   @ 4-byte Reload
	ror	r6, r7, #16
	eor	r5, r5, r0
	eor	r6, r6, r1, lsr #1
	movw	r0, #13107
	eor	r6, r6, r5
	movt	r0, #13107
	eor	r7, r6, r7
	movw	r6, #3855
	movt	r6, #3855
	and	r7, r11, r7, lsl #1
	eor	r1, r7, r1
	ldr	r7, [sp, #20]                   @ 4-byte Reload
	eor	r2, r2, r7
	eor	r3, r3, r2, ror #16
	eor	r2, r3, r2
	eor	r3, r12, r5
	ldr	r5, [sp, #24]                   @ 4-byte Reload
	ror	r7, r3, #16
	eor	r7, r7, r2, lsr #1
	eor	r7, r7, r4
	eor	r3, r7, r3
	and	r3, r11, r3, lsl #1
	eor	r2, r3, r2
	eor	r3, r2, r1, lsr #2
	and	r3, r3, r0
	eor	r0, r10, r8, lsl #2
	eor	r2, r3, r2
	eor	r7, r2, r9, lsr #4
	eor	r1, r1, r3, lsl #2
	and	r7, r7, r6
	eor	r2, r7, r2
	str	r2, [r5, #12]
	eor	r2, r1, r0, lsr #4
	and	r2, r2, r6
	eor	r1, r2, r1
	str	r1, [r5, #8]
	eor	r1, r9, r7, lsl #4
	eor	r0, r0, r2, lsl #4
	str	r1, [r5, #4]
	str	r0, [r5]
	add	sp, sp, #60
	pop	{r4, r5, r6, r7, r8, r9, r10, r11, pc}
.Laes_func_end33:
	.size	aes.aes_c.single_rounds.inverse_mixed, .Laes_func_end33-aes.aes_c.single_rounds.inverse_mixed
	.cantunwind
	.fnend
                                        @ -- End function
	.section	.text.aes.aes_c.single_rounds.inverse_round,"ax",%progbits
	.p2align	2                               @ -- Begin function aes_c::single_rounds::inverse_round
	.type	aes.aes_c.single_rounds.inverse_round,%function
	.code	32
aes.aes_c.single_rounds.inverse_round:  @ @aes.aes_c.single_rounds.inverse_round
	.fnstart
@ %bb.0:                                @ %start
	.save	{r4, r5, r6, r7, r8, r9, r10, r11, lr}
	push	{r4, r5, r6, r7, r8, r9, r10, r11, lr}
	.pad	#132
	sub	sp, sp, #132
	str	r1, [sp, #80]                   @ 4-byte Spill
	mov	r1, r0
	str	r0, [sp, #84]                   @ 4-byte Spill
	add	r0, sp, #100
	bl	aes.aes_planes.soft.word.word32.U32Word.in_every_slot
	ldr	lr, [sp, #100]
	ldr	r9, [sp, #112]
	ldr	r5, [sp, #128]
	mvn	r0, lr
	eor	r8, r9, r0
	str	r0, [sp, #60]                   @ 4-byte Spill
	ldr	r0, [sp, #124]
	ldr	r12, [sp, #104]
	ldr	r4, [sp, #108]
	str	r0, [sp, #24]                   @ 4-byte Spill
	mvn	r7, r0
	eor	r0, r5, r7
	ldr	r3, [sp, #116]
	eor	r2, r0, r8
	eor	r1, r4, r12
	str	r1, [sp, #64]                   @ 4-byte Spill
	and	r11, r2, r0
	str	r2, [sp, #96]                   @ 4-byte Spill
	eor	r1, r2, r1
	eor	r2, r3, r9
	eor	r10, r3, r7
	and	r1, r1, r2
	str	r1, [sp, #32]                   @ 4-byte Spill
	eor	r6, r1, r11
	ldr	r1, [sp, #120]
	eor	lr, r12, lr
	str	r0, [sp, #52]                   @ 4-byte Spill
	eor	r0, r0, lr
	str	r12, [sp, #20]                  @ 4-byte Spill
	mvn	r11, r1
	eor	r4, r4, r11
	eor	r1, r10, r4
	str	r1, [sp, #72]                   @ 4-byte Spill
	and	r12, r0, r1
	str	r0, [sp, #76]                   @ 4-byte Spill
	eor	r1, r5, r4
	eor	r0, r10, lr
	and	r4, r0, r1
	str	r0, [sp, #92]                   @ 4-byte Spill
	ldr	r0, [sp, #64]                   @ 4-byte Reload
	eor	r4, r4, r8
	str	r2, [sp, #88]                   @ 4-byte Spill
	eor	r4, r4, r12
	ldr	r2, [sp, #24]                   @ 4-byte Reload
	eor	r4, r4, r6
	str	r1, [sp, #68]                   @ 4-byte Spill
	eor	r1, r5, r3
	mvn	r3, r0
	and	r5, r1, r2
	ldr	r0, [sp, #96]                   @ 4-byte Reload
	eor	r5, r5, r3
	str	r3, [sp, #44]                   @ 4-byte Spill
	eor	r5, r5, r0
	ldr	r0, [sp, #88]                   @ 4-byte Reload
	eor	r12, r5, r12
	str	r1, [sp, #28]                   @ 4-byte Spill
	eor	r5, r0, r3
	eor	r3, r1, r7
	eor	r1, r3, r9
	str	r6, [sp, #40]                   @ 4-byte Spill
	str	r3, [sp, #48]                   @ 4-byte Spill
	and	r6, r1, r5
	ldr	r3, [sp, #60]                   @ 4-byte Reload
	str	r1, [sp, #56]                   @ 4-byte Spill
	ldr	r1, [sp, #32]                   @ 4-byte Reload
	eor	r3, r0, r3
	str	r5, [sp, #64]                   @ 4-byte Spill
	eor	r5, r1, r6
	str	r3, [sp, #32]                   @ 4-byte Spill
	eor	r1, r12, r5
	and	r12, r10, r3
	ldr	r3, [sp, #20]                   @ 4-byte Reload
	mov	r6, r0
	str	r8, [sp, #36]                   @ 4-byte Spill
	eor	r8, r1, r4
	eor	r7, r2, r3
	eor	r3, r9, r11
	eor	r2, r3, r7
	eor	r3, r0, lr
	orr	r0, r2, r3
	str	r2, [sp, #20]                   @ 4-byte Spill
	eor	r0, r0, r12
	and	r12, r2, r3
	eor	lr, r0, r5
	ldr	r0, [sp, #36]                   @ 4-byte Reload
	ldr	r2, [sp, #40]                   @ 4-byte Reload
	and	r9, r1, lr
	eor	r0, r7, r0
	ldr	r7, [sp, #92]                   @ 4-byte Reload
	str	r0, [sp, #24]                   @ 4-byte Spill
	eor	r7, r7, r11
	and	r5, r7, r0
	eor	r0, r12, r5
	eor	r0, r0, r11
	eor	r0, r0, r6
	eor	r0, r0, r2
	and	r1, r0, r1
	eor	r2, r9, r0
	and	r1, r1, r8
	and	r2, r2, r8
	eor	r1, r9, r1
	eor	r11, r2, r4
	eor	r5, r1, r8
	eor	r2, r0, lr
	eor	r6, r5, r11
	and	r10, r5, r10
	and	r12, r6, r3
	eor	r3, r9, r4
	and	r3, r3, r2
	str	r10, [sp, #4]                   @ 4-byte Spill
	eor	r8, r3, r0
	ldr	r3, [sp, #96]                   @ 4-byte Reload
	ldr	r0, [sp, #44]                   @ 4-byte Reload
	eor	r1, r11, r8
	str	r12, [sp, #60]                  @ 4-byte Spill
	eor	r0, r3, r0
	str	r1, [sp, #12]                   @ 4-byte Spill
	and	r0, r1, r0
	str	r0, [sp, #8]                    @ 4-byte Spill
	eor	r0, r0, r10
	eor	r10, r0, r12
	and	r0, r4, lr
	and	r0, r0, r2
	str	r10, [sp, #36]                  @ 4-byte Spill
	eor	r0, r9, r0
	eor	r0, r0, r2
	eor	r12, r5, r0
	eor	r2, r12, r1
	ldr	r1, [sp, #56]                   @ 4-byte Reload
	and	r9, r12, r3
	str	r2, [sp, #40]                   @ 4-byte Spill
	and	r4, r2, r1
	ldr	r1, [sp, #20]                   @ 4-byte Reload
	eor	r2, r4, r9
	str	r4, [sp, #44]                   @ 4-byte Spill
	and	r3, r6, r1
	and	r1, r11, r7
	eor	r4, r2, r10
	eor	r7, r3, r1
	eor	r7, r7, r4
	str	r1, [sp, #20]                   @ 4-byte Spill
	movw	r1, #3072
	str	r2, [sp, #56]                   @ 4-byte Spill
	eor	r6, r7, r7, lsr #4
	movt	r1, #783
	and	r6, r6, r1
	movw	r1, #13056
	movt	r1, #13056
	ldr	r2, [sp, #52]                   @ 4-byte Reload
	orr	r6, r6, r6, lsl #4
	eor	r10, r0, r8
	eor	r7, r6, r7
	and	r2, r12, r2
	str	r2, [sp, #52]                   @ 4-byte Spill
	eor	r6, r7, r7, lsr #2
	str	r4, [sp, #96]                   @ 4-byte Spill
	and	r6, r6, r1
	ldr	r1, [sp, #76]                   @ 4-byte Reload
	str	r3, [sp, #16]                   @ 4-byte Spill
	and	r1, r10, r1
	orr	r6, r6, r6, lsl #2
	eor	r1, r1, r2
	ldr	r2, [sp, #68]                   @ 4-byte Reload
	eor	lr, r6, r7
	ldr	r7, [sp, #4]                    @ 4-byte Reload
	and	r4, r8, r2
	ldr	r2, [sp, #28]                   @ 4-byte Reload
	str	r4, [sp, #68]                   @ 4-byte Spill
	and	r6, r0, r2
	eor	r2, r6, r4
	str	r2, [sp, #28]                   @ 4-byte Spill
	eor	r6, r2, r7
	ldr	r2, [sp, #24]                   @ 4-byte Reload
	eor	r4, r6, r9
	movw	r6, #13056
	and	r7, r11, r2
	ldr	r2, [sp, #8]                    @ 4-byte Reload
	eor	r4, r4, r1
	movw	r11, #3072
	eor	r7, r2, r7
	ldr	r2, [sp, #32]                   @ 4-byte Reload
	eor	r7, r7, r3
	movt	r11, #783
	and	r12, r5, r2
	ldr	r2, [sp, #48]                   @ 4-byte Reload
	movt	r6, #13056
	ldr	r3, [sp, #88]                   @ 4-byte Reload
	and	r0, r0, r2
	ldr	r5, [sp, #92]                   @ 4-byte Reload
	eor	r0, r0, r12
	eor	r9, lr, lr, ror #8
	eor	r2, r7, r0
	str	r2, [sp, #24]                   @ 4-byte Spill
	eor	r7, r4, r2
	eor	r4, r7, r7, lsr #4
	and	r4, r4, r11
	orr	r4, r4, r4, lsl #4
	eor	r7, r4, r7
	eor	r4, r7, r7, lsr #2
	and	r4, r4, r6
	orr	r4, r4, r4, lsl #2
	eor	r2, r4, r7
	str	r2, [sp, #48]                   @ 4-byte Spill
	and	r4, r8, r5
	ldr	r5, [sp, #20]                   @ 4-byte Reload
	eor	r7, r2, r2, ror #8
	str	r7, [sp, #76]                   @ 4-byte Spill
	eor	r2, r7, lr
	ldr	r7, [sp, #12]                   @ 4-byte Reload
	str	r2, [sp, #32]                   @ 4-byte Spill
	and	r7, r7, r3
	eor	r3, r7, r4
	eor	r1, r3, r1
	eor	r3, r1, r1, lsr #4
	and	r3, r3, r11
	orr	r3, r3, r3, lsl #4
	eor	r1, r3, r1
	eor	r3, r1, r1, lsr #2
	and	r3, r3, r6
	orr	r3, r3, r3, lsl #2
	eor	r8, r3, r1
	ldr	r1, [sp, #72]                   @ 4-byte Reload
	eor	r3, r9, r8
	str	r3, [sp, #88]                   @ 4-byte Spill
	and	r1, r10, r1
	str	r1, [sp, #92]                   @ 4-byte Spill
	eor	lr, r1, r5
	ldr	r1, [sp, #96]                   @ 4-byte Reload
	eor	r0, lr, r0
	mov	r5, r11
	eor	r0, r0, r1
	eor	r1, r0, r0, lsr #4
	and	r1, r1, r11
	orr	r1, r1, r1, lsl #4
	eor	r0, r1, r0
	eor	r1, r0, r0, lsr #2
	and	r1, r1, r6
	orr	r1, r1, r1, lsl #2
	eor	r1, r1, r0
	eor	r11, r1, r1, ror #8
	eor	r0, r11, r3
	ldr	r3, [sp, #16]                   @ 4-byte Reload
	eor	r7, r0, r2
	ldr	r0, [sp, #64]                   @ 4-byte Reload
	ldr	r2, [sp, #40]                   @ 4-byte Reload
	and	r0, r2, r0
	ldr	r2, [sp, #36]                   @ 4-byte Reload
	eor	r0, r0, r12
	eor	r0, r0, r2
	ldr	r2, [sp, #44]                   @ 4-byte Reload
	eor	r2, r2, r3
	movw	r3, #13056
	eor	r2, r2, r0
	movt	r3, #13056
	eor	r6, r2, r2, lsr #4
	and	r6, r6, r5
	orr	r6, r6, r6, lsl #4
	eor	r2, r6, r2
	eor	r6, r2, r2, lsr #2
	and	r6, r6, r3
	orr	r6, r6, r6, lsl #2
	eor	r2, r6, r2
	eor	r6, r8, r8, ror #8
	movw	r8, #43690
	eor	r10, r2, r2, ror #8
	eor	r2, r2, r6
	eor	r1, r10, r1
	str	r1, [sp, #64]                   @ 4-byte Spill
	eor	r1, r1, r7, ror #16
	movt	r8, #43690
	eor	r12, r1, r7
	ldr	r1, [sp, #28]                   @ 4-byte Reload
	eor	r7, r1, r4
	ldr	r1, [sp, #60]                   @ 4-byte Reload
	ldr	r4, [sp, #56]                   @ 4-byte Reload
	eor	r1, r7, r1
	eor	r1, r1, r4
	ldr	r4, [sp, #24]                   @ 4-byte Reload
	eor	r1, r1, r4
	eor	r4, r1, r1, lsr #4
	and	r4, r4, r5
	eor	r5, r2, r9
	ldr	r2, [sp, #52]                   @ 4-byte Reload
	orr	r4, r4, r4, lsl #4
	eor	r1, r4, r1
	eor	r2, lr, r2
	eor	r2, r2, r7
	eor	r4, r1, r1, lsr #2
	eor	r0, r2, r0
	and	r4, r4, r3
	eor	r2, r0, r0, lsr #4
	orr	r4, r4, r4, lsl #2
	eor	r1, r4, r1
	str	r1, [sp, #60]                   @ 4-byte Spill
	eor	r3, r1, r1, ror #8
	ldr	r1, [sp, #48]                   @ 4-byte Reload
	str	r3, [sp, #56]                   @ 4-byte Spill
	eor	r1, r3, r1
	movw	r3, #3072
	movt	r3, #783
	and	r2, r2, r3
	movw	r3, #13056
	orr	r2, r2, r2, lsl #4
	movt	r3, #13056
	eor	r0, r2, r0
	eor	r2, r0, r0, lsr #2
	and	r2, r2, r3
	orr	r2, r2, r2, lsl #2
	eor	r0, r2, r0
	eor	r3, r0, r0, ror #8
	eor	r0, r9, r0
	eor	r2, r5, r3
	eor	lr, r0, r11
	eor	r7, r2, r1
	ldr	r0, [sp, #88]                   @ 4-byte Reload
	ror	r2, r7, #16
	eor	r2, r2, r12, lsr #1
	eor	r2, r2, lr
	eor	r2, r2, r7
	eor	r7, r1, r6
	and	r2, r8, r2, lsl #1
	eor	r6, r0, r7, ror #16
	eor	r2, r2, r12
	ldr	r12, [sp, #32]                  @ 4-byte Reload
	eor	r7, r6, r7
	eor	r6, r12, r1
	eor	r0, r6, r10
	mov	r10, r8
	ror	r4, r0, #16
	eor	r4, r4, r7, lsr #1
	eor	r5, r4, r5
	movw	r4, #13107
	eor	r0, r5, r0
	movt	r4, #13107
	and	r0, r8, r0, lsl #1
	eor	r0, r0, r7
	str	r0, [sp, #88]                   @ 4-byte Spill
	eor	r0, r2, r0, lsr #2
	and	r0, r0, r4
	str	r0, [sp, #72]                   @ 4-byte Spill
	eor	r8, r0, r2
	ldr	r0, [sp, #68]                   @ 4-byte Reload
	ldr	r2, [sp, #92]                   @ 4-byte Reload
	movw	r4, #3072
	movt	r4, #783
	str	r8, [sp, #52]                   @ 4-byte Spill
	eor	r0, r2, r0
	ldr	r2, [sp, #96]                   @ 4-byte Reload
	eor	r0, r0, r2
	eor	r2, r0, r0, lsr #4
	and	r2, r2, r4
	movw	r4, #13056
	movt	r4, #13056
	orr	r2, r2, r2, lsl #4
	eor	r0, r2, r0
	eor	r2, r0, r0, lsr #2
	and	r2, r2, r4
	ldr	r4, [sp, #64]                   @ 4-byte Reload
	orr	r2, r2, r2, lsl #2
	eor	r0, r2, r0
	eor	r2, r0, r0, ror #8
	eor	r0, r3, r0
	eor	r4, r4, r2
	eor	r0, r0, r9
	eor	r4, r4, r6
	eor	r3, r0, r4, ror #16
	eor	r3, r3, r4
	ldr	r4, [sp, #56]                   @ 4-byte Reload
	eor	r7, lr, r4
	ldr	r4, [sp, #60]                   @ 4-byte Reload
	eor	r7, r7, r12
	eor	r4, r2, r4
	ror	r6, r7, #16
	eor	r6, r6, r3, lsr #1
	eor	r2, r6, r4
	eor	r2, r2, r7
	and	r2, r10, r2, lsl #1
	eor	r11, r2, r3
	ldr	r2, [sp, #76]                   @ 4-byte Reload
	eor	r0, r2, r0
	movw	r2, #13107
	movt	r2, #13107
	eor	r1, r1, r0, ror #16
	eor	r0, r1, r0
	eor	r1, r4, r9
	ror	r3, r1, #16
	eor	r3, r3, r0, lsr #1
	eor	r1, r3, r1
	eor	r1, r1, r12
	ldr	r12, [sp, #84]                  @ 4-byte Reload
	and	r1, r10, r1, lsl #1
	eor	r1, r1, r0
	eor	r0, r1, r11, lsr #2
	and	lr, r0, r2
	movw	r0, #3855
	eor	r1, lr, r1
	movt	r0, #3855
	eor	r3, r1, r8, lsr #4
	and	r5, r3, r0
	ldr	r0, [sp, #80]                   @ 4-byte Reload
	eor	r7, r5, r1
	ldrb	r1, [r0, #15]
	ldrb	r8, [r0, #7]
	eor	r4, r1, r7, lsr #24
	ldrb	r1, [r0]
	str	r1, [sp, #96]                   @ 4-byte Spill
	ldrb	r1, [r0, #1]
	str	r1, [sp, #92]                   @ 4-byte Spill
	ldrb	r1, [r0, #2]
	str	r1, [sp, #76]                   @ 4-byte Spill
	ldrb	r1, [r0, #3]
	str	r1, [sp, #68]                   @ 4-byte Spill
	ldrb	r1, [r0, #4]
	str	r1, [sp, #64]                   @ 4-byte Spill
	ldrb	r1, [r0, #5]
	str	r1, [sp, #60]                   @ 4-byte Spill
	ldrb	r1, [r0, #6]
	str	r1, [sp, #56]                   @ 4-byte Spill
	ldrb	r10, [r0, #8]
	ldrb	r9, [r0, #9]
	ldrb	r6, [r0, #10]
	ldrb	r3, [r0, #11]
	ldrb	r2, [r0, #12]
	ldrb	r1, [r0, #13]
	ldrb	r0, [r0, #14]
	strb	r4, [r12, #15]
	eor	r0, r0, r7, lsr #16
	strb	r0, [r12, #14]
	eor	r0, r1, r7, lsr #8
	strb	r0, [r12, #13]
	eor	r0, r7, r2
	ldr	r2, [sp, #72]                   @ 4-byte Reload
	ldr	r1, [sp, #88]                   @ 4-byte Reload
	movw	r7, #3855
	strb	r0, [r12, #12]
	eor	r0, r11, lr, lsl #2
	eor	r1, r1, r2, lsl #2
	movt	r7, #3855
	eor	r2, r0, r1, lsr #4
	and	r2, r2, r7
	eor	r0, r2, r0
	eor	r3, r3, r0, lsr #24
	strb	r3, [r12, #11]
	eor	r3, r6, r0, lsr #16
	strb	r3, [r12, #10]
	eor	r3, r9, r0, lsr #8
	eor	r0, r0, r10
	strb	r0, [r12, #8]
	ldr	r0, [sp, #52]                   @ 4-byte Reload
	strb	r3, [r12, #9]
	eor	r0, r0, r5, lsl #4
	eor	r3, r8, r0, lsr #24
	strb	r3, [r12, #7]
	ldr	r3, [sp, #56]                   @ 4-byte Reload
	eor	r3, r3, r0, lsr #16
	strb	r3, [r12, #6]
	ldr	r3, [sp, #60]                   @ 4-byte Reload
	eor	r3, r3, r0, lsr #8
	strb	r3, [r12, #5]
	ldr	r3, [sp, #64]                   @ 4-byte Reload
	eor	r0, r0, r3
	strb	r0, [r12, #4]
	eor	r0, r1, r2, lsl #4
	ldr	r1, [sp, #68]                   @ 4-byte Reload
	eor	r1, r1, r0, lsr #24
	strb	r1, [r12, #3]
	ldr	r1, [sp, #76]                   @ 4-byte Reload
	eor	r1, r1, r0, lsr #16
	strb	r1, [r12, #2]
	ldr	r1, [sp, #92]                   @ 4-byte Reload
	eor	r1, r1, r0, lsr #8
	strb	r1, [r12, #1]
	ldr	r1, [sp, #96]                   @ 4-byte Reload
	eor	r0, r0, r1
	strb	r0, [r12]
	add	sp, sp, #132
	pop	{r4, r5, r6, r7, r8, r9, r10, r11, pc}
.Laes_func_end34:
	.size	aes.aes_c.single_rounds.inverse_round, .Laes_func_end34-aes.aes_c.single_rounds.inverse_round
	.cantunwind
	.fnend
                                        @ -- End function
	.section	.text.aes.aes_c.single_rounds.inverse_rounds,"ax",%progbits
	.p2align	2                               @ -- Begin function aes_c::single_rounds::inverse_rounds
	.type	aes.aes_c.single_rounds.inverse_rounds,%function
	.code	32
aes.aes_c.single_rounds.inverse_rounds: @ @aes.aes_c.single_rounds.inverse_rounds
	.fnstart
@ %bb.0:                                @ %start
	.save	{r4, r5, r6, r7, r8, r9, r10, r11, lr}
	push	{r4, r5, r6, r7, r8, r9, r10, r11, lr}
	.pad	#96
	sub	sp, sp, #96
	str	r1, [sp]                        @ 4-byte Spill
	mov	r3, #0
	mov	r1, #0
	str	r0, [sp, #68]                   @ 4-byte Spill
.Laes_BB35_1:                               @ %join.5.i.i
                                        @ =>This Inner Loop Header: Depth=1
	ldr	r8, [r0, r3, lsl #4]!
	movw	r4, #21845
	str	r1, [sp, #64]                   @ 4-byte Spill
	movt	r4, #21845
	ldr	r7, [r0, #16]
	mov	r12, r0
	ldr	r10, [r0, #4]
	movw	lr, #13107
	eor	r2, r7, r8, lsr #1
	ldr	r1, [r0, #20]
	str	r3, [sp, #60]                   @ 4-byte Spill
	and	r3, r2, r4
	eor	r5, r3, r7
	eor	r7, r1, r10, lsr #1
	and	r2, r7, r4
	ldr	r6, [r0, #8]
	ldr	r11, [r0, #12]
	eor	r0, r2, r1
	eor	r7, r0, r5, lsr #2
	str	r5, [sp, #92]                   @ 4-byte Spill
	movt	lr, #13107
	and	r5, r7, lr
	str	r5, [sp, #84]                   @ 4-byte Spill
	eor	r0, r5, r0
	ldr	r5, [r12, #24]
	eor	r3, r8, r3, lsl #1
	str	r12, [sp, #56]                  @ 4-byte Spill
	eor	r8, r10, r2, lsl #1
	ldr	r12, [r12, #28]
	movw	r10, #3855
	str	r6, [sp, #88]                   @ 4-byte Spill
	eor	r6, r5, r6, lsr #1
	and	r6, r6, r4
	eor	r7, r12, r11, lsr #1
	and	r1, r7, r4
	eor	r9, r6, r5
	eor	r7, r1, r12
	movw	r5, #3855
	eor	r4, r7, r9, lsr #2
	movt	r5, #3855
	and	r4, r4, lr
	mov	r12, lr
	eor	r7, r4, r7
	str	r7, [sp, #52]                   @ 4-byte Spill
	eor	r7, r7, r0, lsr #4
	eor	r1, r11, r1, lsl #1
	and	r7, r7, r5
	str	r7, [sp, #40]                   @ 4-byte Spill
	movt	r10, #3855
	eor	r4, r9, r4, lsl #2
	eor	lr, r0, r7, lsl #4
	ldr	r0, [sp, #88]                   @ 4-byte Reload
	eor	r7, r8, r3, lsr #2
	eor	r6, r0, r6, lsl #1
	and	r7, r7, r12
	ldr	r0, [sp, #92]                   @ 4-byte Reload
	eor	r8, r7, r8
	eor	r5, r1, r6, lsr #2
	eor	r3, r3, r7, lsl #2
	and	r5, r5, r12
	eor	r1, r5, r1
	eor	r6, r6, r5, lsl #2
	eor	r2, r6, r3, lsr #4
	and	r2, r2, r10
	eor	r11, r2, r6
	ldr	r6, [sp, #84]                   @ 4-byte Reload
	eor	r9, r3, r2, lsl #4
	eor	r12, r11, lr
	str	r12, [sp, #88]                  @ 4-byte Spill
	eor	r6, r0, r6, lsl #2
	eor	r0, r4, r6, lsr #4
	and	r0, r0, r10
	eor	r6, r6, r0, lsl #4
	eor	r0, r4, r0
	eor	r2, r9, r6
	str	r2, [sp, #28]                   @ 4-byte Spill
	eor	r3, r2, r12
	eor	r2, r1, r8, lsr #4
	and	r5, r2, r10
	mvn	r0, r0
	eor	r2, r5, r1
	eor	r1, lr, r0
	eor	r7, r6, r2
	str	r0, [sp, #76]                   @ 4-byte Spill
	eor	r0, r1, r7
	mvn	r4, r2
	eor	r1, r11, r4
	str	r0, [sp, #84]                   @ 4-byte Spill
	orr	r10, r3, r0
	mvn	r9, r9
	eor	r0, r12, r9
	str	r1, [sp, #72]                   @ 4-byte Spill
	and	r1, r0, r1
	str	r3, [sp, #92]                   @ 4-byte Spill
	str	r0, [sp, #32]                   @ 4-byte Spill
	eor	r0, r10, r1
	ldr	r1, [sp, #52]                   @ 4-byte Reload
	eor	r5, r8, r5, lsl #4
	ldr	r3, [sp, #40]                   @ 4-byte Reload
	eor	r6, r6, r5
	str	r7, [sp, #48]                   @ 4-byte Spill
	eor	r8, lr, r9
	eor	r7, r3, r1
	str	r2, [sp, #16]                   @ 4-byte Spill
	eor	r2, r11, r7
	eor	r10, r7, r4
	eor	r1, r2, r4
	str	r0, [sp, #24]                   @ 4-byte Spill
	mvn	r0, r6
	str	r1, [sp, #20]                   @ 4-byte Spill
	eor	r1, r1, lr
	eor	lr, r8, r10
	eor	r6, lr, r6
	str	r0, [sp, #80]                   @ 4-byte Spill
	eor	r0, r12, r0
	str	r0, [sp, #44]                   @ 4-byte Spill
	and	r11, r1, r0
	and	r6, r6, r12
	ldr	r0, [sp, #24]                   @ 4-byte Reload
	eor	r12, r6, r11
	ldr	r3, [sp, #28]                   @ 4-byte Reload
	eor	r9, r0, r12
	ldr	r0, [sp, #76]                   @ 4-byte Reload
	str	r1, [sp, #36]                   @ 4-byte Spill
	eor	r11, r5, r0
	ldr	r5, [sp, #72]                   @ 4-byte Reload
	eor	r0, r3, r10
	str	r0, [sp, #24]                   @ 4-byte Spill
	eor	r1, r5, r11
	str	r2, [sp, #12]                   @ 4-byte Spill
	and	r4, r0, r1
	ldr	r0, [sp, #16]                   @ 4-byte Reload
	eor	r11, r11, r7
	str	r1, [sp, #52]                   @ 4-byte Spill
	and	r2, r2, r0
	ldr	r0, [sp, #80]                   @ 4-byte Reload
	ldr	r7, [sp, #84]                   @ 4-byte Reload
	eor	r2, r2, r0
	mov	r0, lr
	eor	r2, r2, lr
	and	r1, r0, r10
	eor	r2, r2, r4
	eor	r6, r6, r1
	eor	r2, r2, r12
	mov	r12, r0
	eor	r0, r3, r5
	ldr	r5, [sp, #92]                   @ 4-byte Reload
	and	r1, r0, r11
	ldr	r3, [sp, #48]                   @ 4-byte Reload
	eor	r1, r1, r8
	and	r5, r5, r7
	eor	r1, r1, r4
	ldr	r4, [sp, #76]                   @ 4-byte Reload
	eor	r7, r8, r3
	str	r0, [sp, #16]                   @ 4-byte Spill
	eor	r3, r0, r4
	str	r3, [sp, #28]                   @ 4-byte Spill
	and	r3, r3, r7
	ldr	r0, [sp, #88]                   @ 4-byte Reload
	eor	r3, r5, r3
	eor	r1, r1, r6
	eor	r3, r3, r4
	str	r10, [sp, #40]                  @ 4-byte Spill
	eor	r3, r3, r0
	eor	r10, r2, r1
	eor	r8, r3, r6
	and	lr, r2, r9
	and	r2, r10, r2
	eor	r5, r8, r9
	and	r0, r2, r8
	str	r7, [sp, #8]                    @ 4-byte Spill
	eor	r0, lr, r0
	eor	r7, lr, r1
	eor	r2, r0, r10
	and	r0, r1, r9
	and	r0, r0, r5
	and	r7, r5, r7
	eor	r0, lr, r0
	ldr	r3, [sp, #40]                   @ 4-byte Reload
	eor	r0, r0, r5
	eor	r5, r7, r8
	ldr	r4, [sp, #24]                   @ 4-byte Reload
	eor	r9, r0, r2
	eor	r7, r0, r5
	and	r3, r9, r3
	str	r7, [sp, #40]                   @ 4-byte Spill
	and	r7, r7, r4
	eor	r4, r7, r3
	ldr	r7, [sp, #12]                   @ 4-byte Reload
	str	r3, [sp, #48]                   @ 4-byte Spill
	and	r3, r5, r11
	and	r7, r0, r7
	str	r3, [sp, #76]                   @ 4-byte Spill
	eor	r11, r7, r3
	ldr	r3, [sp, #72]                   @ 4-byte Reload
	mov	r6, r12
	and	r12, r9, r12
	and	r3, r2, r3
	str	r3, [sp, #72]                   @ 4-byte Spill
	eor	r7, r11, r3
	eor	r3, r8, lr
	and	r3, r3, r10
	eor	r7, r7, r12
	eor	r1, r3, r1
	ldr	r3, [sp, #84]                   @ 4-byte Reload
	str	r12, [sp, #4]                   @ 4-byte Spill
	eor	r12, r7, r4
	eor	r7, r2, r1
	eor	r10, r1, r5
	and	r8, r7, r3
	ldr	r3, [sp, #80]                   @ 4-byte Reload
	str	r4, [sp, #24]                   @ 4-byte Spill
	eor	r3, r6, r3
	ldr	r6, [sp, #36]                   @ 4-byte Reload
	and	lr, r10, r3
	ldr	r3, [sp, #8]                    @ 4-byte Reload
	and	r4, r1, r3
	ldr	r3, [sp, #32]                   @ 4-byte Reload
	eor	r4, lr, r4
	and	r3, r2, r3
	ldr	r2, [sp, #20]                   @ 4-byte Reload
	eor	r4, r4, r8
	str	r3, [sp, #8]                    @ 4-byte Spill
	and	r0, r0, r2
	eor	r0, r0, r3
	str	r0, [sp, #32]                   @ 4-byte Spill
	eor	r4, r4, r0
	movw	r3, #3072
	eor	r0, r12, r4
	movt	r3, #783
	eor	r2, r0, r0, lsr #4
	and	r2, r2, r3
	movw	r3, #13056
	movt	r3, #13056
	add	r2, r2, r2, lsl #4
	eor	r0, r2, r0
	eor	r2, r0, r0, lsr #2
	and	r2, r2, r3
	add	r2, r2, r2, lsl #2
	eor	r0, r2, r0
	eor	r2, r9, r10
	and	r9, r2, r6
	ldr	r6, [sp, #4]                    @ 4-byte Reload
	eor	r12, r9, r6
	ldr	r6, [sp, #92]                   @ 4-byte Reload
	and	r6, r7, r6
	ldr	r7, [sp, #16]                   @ 4-byte Reload
	and	r7, r5, r7
	eor	r5, r11, r7
	str	r5, [sp, #36]                   @ 4-byte Spill
	eor	r5, r5, r6
	movw	r11, #3072
	eor	r5, r5, r12
	movt	r11, #783
	eor	r4, r5, r4
	eor	r5, r4, r4, lsr #4
	and	r5, r5, r11
	add	r5, r5, r5, lsl #4
	eor	r4, r5, r4
	eor	r5, r4, r4, lsr #2
	and	r5, r5, r3
	add	r5, r5, r5, lsl #2
	eor	r3, r5, r4
	str	r3, [sp, #84]                   @ 4-byte Spill
	eor	r3, r3, r3, ror #8
	str	r3, [sp, #80]                   @ 4-byte Spill
	eor	r5, r3, r0
	ldr	r3, [sp, #72]                   @ 4-byte Reload
	eor	r0, r0, r0, ror #8
	str	r0, [sp, #72]                   @ 4-byte Spill
	eor	r3, lr, r3
	mov	lr, r5
	eor	r4, r3, r6
	ldr	r3, [sp, #28]                   @ 4-byte Reload
	eor	r6, r12, r4
	str	r6, [sp, #12]                   @ 4-byte Spill
	and	r1, r1, r3
	str	r1, [sp, #16]                   @ 4-byte Spill
	eor	r1, r8, r1
	movw	r12, #13056
	eor	r1, r1, r6
	movt	r12, #13056
	str	lr, [sp, #4]                    @ 4-byte Spill
	eor	r6, r1, r1, lsr #4
	and	r6, r6, r11
	add	r6, r6, r6, lsl #4
	eor	r1, r6, r1
	eor	r6, r1, r1, lsr #2
	and	r6, r6, r12
	add	r6, r6, r6, lsl #2
	eor	r3, r6, r1
	eor	r0, r0, r3
	str	r0, [sp, #92]                   @ 4-byte Spill
	eor	r1, r0, r5
	ldr	r0, [sp, #44]                   @ 4-byte Reload
	str	r1, [sp, #28]                   @ 4-byte Spill
	and	r0, r2, r0
	ldr	r2, [sp, #8]                    @ 4-byte Reload
	eor	r0, r0, r2
	eor	r2, r0, r4
	eor	r0, r9, r8
	eor	r0, r0, r2
	str	r2, [sp, #20]                   @ 4-byte Spill
	ldr	r2, [sp, #88]                   @ 4-byte Reload
	mov	r8, lr
	eor	r6, r0, r0, lsr #4
	ldr	r9, [sp, #12]                   @ 4-byte Reload
	and	r6, r6, r11
	and	r4, r10, r2
	eor	r7, r4, r7
	add	r6, r6, r6, lsl #4
	eor	r0, r6, r0
	eor	r6, r0, r0, lsr #2
	and	r6, r6, r12
	add	r6, r6, r6, lsl #2
	eor	r0, r6, r0
	eor	r5, r0, r0, ror #8
	eor	r6, r1, r5
	ldr	r1, [sp, #24]                   @ 4-byte Reload
	eor	r7, r7, r1
	mov	r1, r12
	eor	r4, r7, r7, lsr #4
	and	r4, r4, r11
	add	r4, r4, r4, lsl #4
	eor	r7, r4, r7
	eor	r4, r7, r7, lsr #2
	and	r4, r4, r12
	eor	r12, r3, r3, ror #8
	ldr	r3, [sp, #32]                   @ 4-byte Reload
	add	r4, r4, r4, lsl #2
	eor	r7, r4, r7
	eor	r4, r7, r7, ror #8
	eor	r7, r12, r7
	eor	r2, r0, r4
	ldr	r0, [sp, #16]                   @ 4-byte Reload
	eor	r10, r2, r12
	eor	r2, r10, r6, ror #16
	eor	r2, r2, r6
	eor	r6, lr, r4
	movw	lr, #21845
	eor	r4, r7, r6, ror #16
	movt	lr, #21845
	eor	r6, r4, r6
	str	r6, [sp, #88]                   @ 4-byte Spill
	ldr	r4, [sp, #40]                   @ 4-byte Reload
	eor	r6, r2, r6, lsr #1
	and	r6, r6, lr
	str	r6, [sp, #44]                   @ 4-byte Spill
	eor	lr, r6, r2
	ldr	r2, [sp, #52]                   @ 4-byte Reload
	str	lr, [sp, #24]                   @ 4-byte Spill
	and	r11, r4, r2
	movw	r4, #3072
	eor	r2, r11, r0
	movt	r4, #783
	eor	r3, r2, r3
	ldr	r0, [sp, #92]                   @ 4-byte Reload
	eor	r3, r3, r9
	eor	r6, r3, r3, lsr #4
	and	r6, r6, r4
	add	r6, r6, r6, lsl #4
	eor	r3, r6, r3
	eor	r6, r3, r3, lsr #2
	and	r6, r6, r1
	add	r6, r6, r6, lsl #2
	eor	r3, r6, r3
	eor	r6, r3, r3, ror #8
	eor	r3, r5, r3
	eor	r7, r7, r6
	eor	r7, r7, r0
	eor	r5, r3, r7, ror #16
	eor	r0, r5, r7
	ldr	r5, [sp, #48]                   @ 4-byte Reload
	str	r0, [sp, #52]                   @ 4-byte Spill
	eor	r2, r2, r5
	ldr	r5, [sp, #36]                   @ 4-byte Reload
	eor	r2, r2, r5
	ldr	r5, [sp, #20]                   @ 4-byte Reload
	eor	r2, r2, r5
	eor	r5, r2, r2, lsr #4
	and	r5, r5, r4
	add	r5, r5, r5, lsl #4
	eor	r2, r5, r2
	eor	r5, r2, r2, lsr #2
	and	r5, r5, r1
	add	r5, r5, r5, lsl #2
	eor	r2, r5, r2
	eor	r7, r2, r2, ror #8
	eor	r2, r12, r2
	eor	r1, r10, r7
	eor	r2, r2, r6
	eor	r1, r1, r8
	movw	r10, #13107
	movt	r10, #13107
	eor	r5, r2, r1, ror #16
	eor	r1, r5, r1
	eor	r5, r1, r0, lsr #1
	movw	r0, #21845
	movt	r0, #21845
	and	r0, r5, r0
	str	r0, [sp, #48]                   @ 4-byte Spill
	eor	r5, r0, r1
	movw	r0, #3072
	eor	r1, r5, lr, lsr #2
	movt	r0, #783
	and	r8, r1, r10
	ldr	r1, [sp, #76]                   @ 4-byte Reload
	eor	r10, r8, r5
	ldr	r5, [sp, #92]                   @ 4-byte Reload
	eor	r4, r11, r1
	ldr	r1, [sp, #28]                   @ 4-byte Reload
	eor	r4, r4, r9
	movw	r11, #13107
	movt	r11, #13107
	eor	r6, r4, r4, lsr #4
	and	r6, r6, r0
	movw	r0, #13056
	movt	r0, #13056
	add	r6, r6, r6, lsl #4
	eor	r4, r6, r4
	eor	r6, r4, r4, lsr #2
	and	r6, r6, r0
	add	r6, r6, r6, lsl #2
	eor	r4, r6, r4
	eor	r6, r4, r4, ror #8
	eor	r4, r7, r4
	eor	r3, r3, r6
	eor	r7, r4, r12
	eor	r3, r3, r1
	ldr	r1, [sp, #80]                   @ 4-byte Reload
	eor	r4, r7, r3, ror #16
	eor	r4, r4, r3
	eor	r3, r5, r1
	ldr	r1, [sp, #84]                   @ 4-byte Reload
	eor	r2, r3, r2
	eor	r3, r6, r1
	movw	r1, #21845
	eor	r6, r3, r2, ror #16
	eor	r0, r3, r12
	eor	r6, r6, r2
	movt	r1, #21845
	eor	r2, r6, r4, lsr #1
	eor	r3, r5, r0, ror #16
	and	lr, r2, r1
	ldr	r2, [sp, #72]                   @ 4-byte Reload
	eor	r0, r3, r0
	eor	r6, lr, r6
	eor	r3, r7, r2
	ldr	r2, [sp, #4]                    @ 4-byte Reload
	eor	r7, r2, r3, ror #16
	movw	r2, #3855
	eor	r9, r7, r3
	ldr	r3, [sp, #56]                   @ 4-byte Reload
	movt	r2, #3855
	eor	r7, r0, r9, lsr #1
	and	r7, r7, r1
	eor	r0, r7, r0
	eor	r5, r0, r6, lsr #2
	and	r5, r5, r11
	eor	r0, r5, r0
	eor	r1, r0, r10, lsr #4
	eor	r6, r6, r5, lsl #2
	and	r1, r1, r2
	eor	r0, r1, r0
	str	r0, [r3, #28]
	ldr	r0, [sp, #24]                   @ 4-byte Reload
	eor	r1, r10, r1, lsl #4
	str	r1, [r3, #20]
	mov	r1, r3
	eor	r0, r0, r8, lsl #2
	mov	r8, r2
	eor	r5, r6, r0, lsr #4
	and	r5, r5, r2
	ldr	r2, [sp, #48]                   @ 4-byte Reload
	eor	r6, r5, r6
	str	r6, [r3, #24]
	eor	r0, r0, r5, lsl #4
	str	r0, [r3, #16]
	ldr	r0, [sp, #52]                   @ 4-byte Reload
	ldr	r3, [sp, #44]                   @ 4-byte Reload
	eor	r0, r0, r2, lsl #1
	ldr	r2, [sp, #88]                   @ 4-byte Reload
	eor	r12, r2, r3, lsl #1
	eor	r2, r4, lr, lsl #1
	eor	r3, r9, r7, lsl #1
	eor	r6, r0, r12, lsr #2
	eor	r7, r3, r2, lsr #2
	and	r6, r6, r11
	and	r7, r7, r11
	eor	r0, r6, r0
	eor	r3, r7, r3
	eor	r2, r2, r7, lsl #2
	eor	r7, r12, r6, lsl #2
	eor	r5, r3, r0, lsr #4
	and	r5, r5, r8
	eor	r3, r5, r3
	str	r3, [r1, #12]
	eor	r3, r2, r7, lsr #4
	eor	r0, r0, r5, lsl #4
	and	r3, r3, r8
	str	r0, [r1, #4]
	eor	r2, r3, r2
	str	r2, [r1, #8]
	eor	r0, r7, r3, lsl #4
	ldr	r2, [sp, #60]                   @ 4-byte Reload
	str	r0, [r1]
	ldr	r0, [sp, #64]                   @ 4-byte Reload
	adds	r3, r2, #2
	adc	r1, r0, #0
	subs	r2, r2, #6
	sbcs	r2, r0, #0
	ldr	r0, [sp, #68]                   @ 4-byte Reload
	blo	.Laes_BB35_1
@ %bb.2:                                @ %join.5.i2.i.preheader
	mov	r0, #0
	mov	r5, #0
.Laes_BB35_3:                               @ %join.5.i2.i
                                        @ =>This Inner Loop Header: Depth=1
	ldr	r2, [sp, #68]                   @ 4-byte Reload
	ldr	r1, [sp]                        @ 4-byte Reload
	ldrb	r3, [r2, r0, lsl #4]!
	ldrb	r7, [r1, r0, lsl #4]!
	ldrb	r6, [r2, #15]
	eor	r3, r7, r3
	str	r3, [sp, #32]                   @ 4-byte Spill
	ldrb	r3, [r1, #1]
	str	r3, [sp, #92]                   @ 4-byte Spill
	ldrb	r3, [r1, #2]
	str	r3, [sp, #88]                   @ 4-byte Spill
	ldrb	r3, [r1, #3]
	str	r3, [sp, #80]                   @ 4-byte Spill
	ldrb	r3, [r1, #4]
	str	r3, [sp, #72]                   @ 4-byte Spill
	ldrb	r3, [r2, #1]
	str	r3, [sp, #84]                   @ 4-byte Spill
	ldrb	r3, [r2, #2]
	str	r3, [sp, #76]                   @ 4-byte Spill
	ldrb	r3, [r2, #3]
	str	r3, [sp, #64]                   @ 4-byte Spill
	ldrb	r3, [r2, #4]
	str	r3, [sp, #60]                   @ 4-byte Spill
	ldrb	r3, [r1, #5]
	str	r3, [sp, #56]                   @ 4-byte Spill
	ldrb	r3, [r2, #5]
	str	r3, [sp, #52]                   @ 4-byte Spill
	ldrb	r3, [r1, #6]
	str	r3, [sp, #48]                   @ 4-byte Spill
	ldrb	r3, [r2, #6]
	str	r3, [sp, #44]                   @ 4-byte Spill
	ldrb	r3, [r1, #7]
	str	r3, [sp, #40]                   @ 4-byte Spill
	ldrb	r3, [r2, #7]
	str	r3, [sp, #36]                   @ 4-byte Spill
	ldrb	r3, [r1, #8]
	str	r3, [sp, #28]                   @ 4-byte Spill
	ldrb	r3, [r2, #8]
	str	r3, [sp, #24]                   @ 4-byte Spill
	ldrb	r3, [r1, #9]
	str	r3, [sp, #20]                   @ 4-byte Spill
	ldrb	r3, [r2, #9]
	str	r3, [sp, #16]                   @ 4-byte Spill
	ldrb	r3, [r1, #10]
	ldrb	r4, [r1, #11]
	ldrb	r12, [r1, #12]
	ldrb	r9, [r1, #13]
	ldrb	r10, [r1, #14]
	ldrb	r1, [r1, #15]
	ldrb	r8, [r2, #14]
	str	r3, [sp, #12]                   @ 4-byte Spill
	eor	r1, r1, r6
	ldrb	r3, [r2, #10]
	ldrb	r11, [r2, #13]
	str	r3, [sp, #8]                    @ 4-byte Spill
	strb	r1, [r2, #15]
	eor	r1, r10, r8
	ldrb	r3, [r2, #12]
	strb	r1, [r2, #14]
	eor	r1, r9, r11
	ldrb	lr, [r2, #11]
	strb	r1, [r2, #13]
	eor	r1, r12, r3
	strb	r1, [r2, #12]
	eor	r1, r4, lr
	strb	r1, [r2, #11]
	ldr	r1, [sp, #12]                   @ 4-byte Reload
	ldr	r3, [sp, #8]                    @ 4-byte Reload
	ldr	r7, [sp, #32]                   @ 4-byte Reload
	eor	r1, r1, r3
	strb	r1, [r2, #10]
	ldr	r1, [sp, #20]                   @ 4-byte Reload
	ldr	r3, [sp, #16]                   @ 4-byte Reload
	strb	r7, [r2]
	eor	r1, r1, r3
	strb	r1, [r2, #9]
	ldr	r1, [sp, #28]                   @ 4-byte Reload
	ldr	r3, [sp, #24]                   @ 4-byte Reload
	eor	r1, r1, r3
	strb	r1, [r2, #8]
	ldr	r1, [sp, #40]                   @ 4-byte Reload
	ldr	r3, [sp, #36]                   @ 4-byte Reload
	eor	r1, r1, r3
	strb	r1, [r2, #7]
	ldr	r1, [sp, #48]                   @ 4-byte Reload
	ldr	r3, [sp, #44]                   @ 4-byte Reload
	eor	r1, r1, r3
	strb	r1, [r2, #6]
	ldr	r1, [sp, #56]                   @ 4-byte Reload
	ldr	r3, [sp, #52]                   @ 4-byte Reload
	eor	r1, r1, r3
	strb	r1, [r2, #5]
	ldr	r1, [sp, #72]                   @ 4-byte Reload
	ldr	r3, [sp, #60]                   @ 4-byte Reload
	eor	r1, r1, r3
	strb	r1, [r2, #4]
	ldr	r1, [sp, #80]                   @ 4-byte Reload
	ldr	r3, [sp, #64]                   @ 4-byte Reload
	eor	r1, r1, r3
	strb	r1, [r2, #3]
	ldr	r1, [sp, #88]                   @ 4-byte Reload
	ldr	r3, [sp, #76]                   @ 4-byte Reload
	eor	r1, r1, r3
	strb	r1, [r2, #2]
	ldr	r1, [sp, #92]                   @ 4-byte Reload
	ldr	r3, [sp, #84]                   @ 4-byte Reload
	eor	r1, r1, r3
	strb	r1, [r2, #1]
	adds	r1, r0, #1
	adc	r2, r5, #0
	subs	r0, r0, #7
	sbcs	r0, r5, #0
	mov	r0, r1
	mov	r5, r2
	blo	.Laes_BB35_3
@ %bb.4:                                @ %"aes_soft::soft::hazmat::par::equiv_inv_cipher_round_par::<#e817d94f9a7b6ba6>.exit"
	add	sp, sp, #96
	pop	{r4, r5, r6, r7, r8, r9, r10, r11, pc}
.Laes_func_end35:
	.size	aes.aes_c.single_rounds.inverse_rounds, .Laes_func_end35-aes.aes_c.single_rounds.inverse_rounds
	.cantunwind
	.fnend
                                        @ -- End function
	.section	.text.aes.cmac.pieces.Message.is_tag_so_far,"ax",%progbits
	.p2align	2                               @ -- Begin function cmac::pieces::Message::is_tag_so_far::<#4f733d09d7f6c6b4>
	.type	aes.cmac.pieces.Message.is_tag_so_far,%function
	.code	32
aes.cmac.pieces.Message.is_tag_so_far: @ @aes.cmac.pieces.Message.is_tag_so_far
	.fnstart
@ %bb.0:                                @ %start
	.save	{r4, r5, r6, lr}
	push	{r4, r5, r6, lr}
	.pad	#40
	sub	sp, sp, #40
	mov	r4, r2
	ldrd	r2, r3, [r0, #8]
	mov	r6, #16
	mov	r5, #0
	cmp	r2, #16
	movhs	r2, r6
	cmp	r3, #0
	movne	r2, r6
	add	r3, r0, #32
	stm	sp, {r2, r5}
	add	r5, sp, #8
	add	r2, r0, #16
	mov	r0, r5
	bl	aes.cmac.tags.tag_at_end
	add	r3, sp, #8
	add	r12, sp, #24
	add	r6, sp, #24
	ldm	r3, {r0, r1, r2, r3}
	stm	r12, {r0, r1, r2, r3}
	mov	r0, r6
	mov	r1, r4
	ldr	r2, [sp, #56]
	bl	memcpy
	mov	r0, r6
	mov	r1, r5
	bl	aes.aes_cipher.blocks.difference
	clz	r0, r0
	lsr	r0, r0, #5
	add	sp, sp, #40
	pop	{r4, r5, r6, pc}
.Laes_func_end36:
	.size	aes.cmac.pieces.Message.is_tag_so_far, .Laes_func_end36-aes.cmac.pieces.Message.is_tag_so_far
	.cantunwind
	.fnend
                                        @ -- End function
	.section	.text.aes.cmac.tags.is_tag_start,"ax",%progbits
	.p2align	2                               @ -- Begin function cmac::tags::is_tag_start::<#4f733d09d7f6c6b4>
	.type	aes.cmac.tags.is_tag_start,%function
	.code	32
aes.cmac.tags.is_tag_start: @ @aes.cmac.tags.is_tag_start
	.fnstart
@ %bb.0:                                @ %start
	.save	{r4, r5, r11, lr}
	push	{r4, r5, r11, lr}
	.pad	#40
	sub	sp, sp, #40
	mov	r4, r2
	mov	r2, r1
	str	r4, [sp]
	add	r4, sp, #8
	mov	r1, r0
	str	r3, [sp, #4]
	mov	r0, r4
	bl	aes.cmac.tags.tag
	add	r3, sp, #8
	add	r12, sp, #24
	add	r5, sp, #24
	ldm	r3, {r0, r1, r2, r3}
	stm	r12, {r0, r1, r2, r3}
	mov	r0, r5
	ldr	r1, [sp, #56]
	ldr	r2, [sp, #64]
	bl	memcpy
	mov	r0, r5
	mov	r1, r4
	bl	aes.aes_cipher.blocks.difference
	clz	r0, r0
	lsr	r0, r0, #5
	add	sp, sp, #40
	pop	{r4, r5, r11, pc}
.Laes_func_end37:
	.size	aes.cmac.tags.is_tag_start, .Laes_func_end37-aes.cmac.tags.is_tag_start
	.cantunwind
	.fnend
                                        @ -- End function
	.section	.text.aes.aes_c.single_rounds.mixed,"ax",%progbits
	.p2align	2                               @ -- Begin function aes_c::single_rounds::mixed
	.type	aes.aes_c.single_rounds.mixed,%function
	.code	32
aes.aes_c.single_rounds.mixed:          @ @aes.aes_c.single_rounds.mixed
	.fnstart
@ %bb.0:                                @ %start
	.save	{r4, r5, r6, r7, r8, r9, r10, r11, lr}
	push	{r4, r5, r6, r7, r8, r9, r10, r11, lr}
	.pad	#36
	sub	sp, sp, #36
	mov	r9, r0
	add	r0, sp, #4
	mov	r1, r9
	bl	aes.aes_planes.soft.word.word32.U32Word.in_every_slot
	ldr	r0, [sp, #28]
	movw	r12, #43690
	ldr	r10, [sp, #24]
	movt	r12, #43690
	ldr	r4, [sp, #32]
	eor	r1, r0, r0, ror #8
	ror	r0, r0, #8
	eor	r5, r10, r10, ror #8
	ldr	r11, [sp, #16]
	eor	r0, r0, r1, ror #16
	ldmib	sp, {r8, lr}
	eor	r2, r0, r5
	eor	r0, r4, r4, ror #8
	eor	r3, r11, r11, ror #8
	ror	r5, r5, #16
	ror	r6, r0, #16
	eor	r6, r6, r2, lsr #1
	eor	r6, r6, r4, ror #8
	eor	r1, r6, r1
	and	r1, r12, r1, lsl #1
	eor	r4, r1, r2
	ldr	r1, [sp, #20]
	ldr	r2, [sp, #12]
	eor	r6, r1, r1, ror #8
	eor	r7, r3, r6, ror #16
	ror	r3, r3, #16
	eor	r1, r7, r1, ror #8
	eor	r7, lr, lr, ror #8
	eor	r1, r1, r0
	eor	r5, r5, r1, lsr #1
	eor	r5, r5, r10, ror #8
	movw	r10, #13107
	eor	r5, r5, r6
	movt	r10, #13107
	and	r5, r12, r5, lsl #1
	eor	r6, r5, r1
	eor	r1, r4, r6, lsr #2
	and	r1, r1, r10
	eor	r5, r1, r4
	eor	r4, r2, r2, ror #8
	ror	r2, r2, #8
	eor	r1, r6, r1, lsl #2
	eor	r2, r2, r4, ror #16
	eor	r2, r2, r7
	ror	r7, r7, #16
	eor	r3, r3, r2, lsr #1
	eor	r3, r3, r4
	eor	r3, r3, r11, ror #8
	eor	r3, r3, r0
	and	r3, r12, r3, lsl #1
	eor	r2, r3, r2
	eor	r3, r8, r8, ror #8
	ror	r4, r3, #16
	eor	r4, r4, r8, ror #8
	eor	r4, r4, r0
	eor	r7, r7, r4, lsr #1
	eor	r3, r7, r3
	eor	r3, r3, lr, ror #8
	eor	r0, r3, r0
	and	r0, r12, r0, lsl #1
	eor	r0, r0, r4
	movw	r4, #3855
	movt	r4, #3855
	eor	r3, r2, r0, lsr #2
	and	r3, r3, r10
	eor	r2, r3, r2
	eor	r0, r0, r3, lsl #2
	eor	r7, r5, r2, lsr #4
	eor	r3, r1, r0, lsr #4
	and	r7, r7, r4
	and	r3, r3, r4
	eor	r5, r7, r5
	eor	r1, r3, r1
	str	r1, [r9, #8]
	eor	r1, r2, r7, lsl #4
	eor	r0, r0, r3, lsl #4
	str	r5, [r9, #12]
	str	r1, [r9, #4]
	str	r0, [r9]
	add	sp, sp, #36
	pop	{r4, r5, r6, r7, r8, r9, r10, r11, pc}
.Laes_func_end38:
	.size	aes.aes_c.single_rounds.mixed, .Laes_func_end38-aes.aes_c.single_rounds.mixed
	.cantunwind
	.fnend
                                        @ -- End function
	.section	.text.aes.aes_c.single_rounds.round,"ax",%progbits
	.p2align	2                               @ -- Begin function aes_c::single_rounds::round
	.type	aes.aes_c.single_rounds.round,%function
	.code	32
aes.aes_c.single_rounds.round:          @ @aes.aes_c.single_rounds.round
	.fnstart
@ %bb.0:                                @ %start
	.save	{r4, r5, r6, r7, r8, r9, r10, r11, lr}
	push	{r4, r5, r6, r7, r8, r9, r10, r11, lr}
	.pad	#124
	sub	sp, sp, #124
	str	r1, [sp, #56]                   @ 4-byte Spill
	mov	r1, r0
	str	r0, [sp, #80]                   @ 4-byte Spill
	add	r0, sp, #92
	bl	aes.aes_planes.soft.word.word32.U32Word.in_every_slot
	add	r9, sp, #100
	ldr	r12, [sp, #96]
	ldr	r0, [sp, #120]
	ldm	r9, {r2, r3, r9}
	eor	r5, r0, r12
	eor	r8, r9, r2
	ldr	lr, [sp, #112]
	eor	r1, r5, r8
	ldr	r6, [sp, #116]
	eor	r3, r1, r3
	str	r1, [sp, #88]                   @ 4-byte Spill
	eor	r1, r3, r2
	eor	r10, r6, lr
	ldr	r11, [sp, #92]
	eor	r4, r1, r10
	str	r1, [sp, #84]                   @ 4-byte Spill
	eor	r1, r0, r9
	eor	r6, r3, r6
	str	r9, [sp, #72]                   @ 4-byte Spill
	eor	r7, r6, r1
	eor	r9, r10, r11
	eor	r3, r7, r4
	eor	r12, r9, r12
	str	r4, [sp]                        @ 4-byte Spill
	and	r4, r3, r8
	str	r8, [sp, #40]                   @ 4-byte Spill
	eor	r8, r7, r10
	str	r3, [sp, #52]                   @ 4-byte Spill
	and	r3, r12, r9
	eor	r3, r8, r3
	and	r10, r8, r5
	eor	r3, r3, r10
	str	r5, [sp, #64]                   @ 4-byte Spill
	eor	r3, r3, r5
	ldr	r5, [sp]                        @ 4-byte Reload
	and	lr, r7, r1
	str	r1, [sp, #36]                   @ 4-byte Spill
	mov	r1, r7
	str	r7, [sp, #68]                   @ 4-byte Spill
	eor	r7, r0, r2
	eor	r4, r4, lr
	and	r2, r5, r7
	eor	r1, r1, r11
	eor	lr, r2, lr
	eor	r2, r9, r0
	str	r2, [sp, #20]                   @ 4-byte Spill
	and	r2, r1, r2
	eor	r2, r8, r2
	eor	r3, r3, r4
	eor	r2, r2, r10
	str	r1, [sp, #48]                   @ 4-byte Spill
	eor	r0, r2, r0
	ldr	r2, [sp, #84]                   @ 4-byte Reload
	eor	r0, r0, lr
	str	r12, [sp, #44]                  @ 4-byte Spill
	eor	r1, r0, r3
	str	r1, [sp, #32]                   @ 4-byte Spill
	ldr	r1, [sp, #88]                   @ 4-byte Reload
	str	r7, [sp, #76]                   @ 4-byte Spill
	and	r10, r2, r1
	eor	r1, r12, r7
	eor	r2, r2, r11
	str	r2, [sp, #60]                   @ 4-byte Spill
	and	r2, r2, r1
	str	r1, [sp, #16]                   @ 4-byte Spill
	ldr	r1, [sp, #72]                   @ 4-byte Reload
	mov	r12, r7
	eor	r2, r6, r2
	eor	r1, r9, r1
	eor	r2, r2, r10
	and	r7, r1, r11
	eor	r2, r2, r4
	eor	r7, r7, r12
	and	r6, r3, r2
	eor	r7, r7, r5
	ldr	r4, [sp, #32]                   @ 4-byte Reload
	eor	r7, r7, r10
	str	r1, [sp, #12]                   @ 4-byte Spill
	eor	r7, r7, lr
	eor	r1, r6, r7
	eor	r2, r2, r7
	and	r1, r1, r4
	eor	r10, r1, r0
	eor	r1, r1, r6
	and	r1, r1, r0
	eor	lr, r1, r3
	eor	r3, r6, r0
	and	r0, r3, r2
	eor	r1, r1, r3
	eor	r0, r0, r7
	eor	r4, lr, r10
	and	r1, r1, r0
	eor	r12, r0, r10
	eor	r2, r1, r2
	stmib	sp, {r4, lr}                    @ 8-byte Folded Spill
	eor	r4, r2, r4
	and	r7, r2, r9
	eor	r9, r2, r0
	ldr	r3, [sp, #52]                   @ 4-byte Reload
	and	r6, r9, r8
	eor	r1, r4, r12
	str	r4, [sp, #72]                   @ 4-byte Spill
	and	r8, r4, r5
	ldr	r4, [sp, #84]                   @ 4-byte Reload
	eor	r7, r6, r7
	and	r3, r1, r3
	str	r7, [sp, #24]                   @ 4-byte Spill
	eor	r7, r7, r3
	and	r3, r10, r11
	and	r11, lr, r4
	eor	r5, r11, r3
	ldr	r3, [sp, #64]                   @ 4-byte Reload
	eor	r4, r8, r5
	str	r12, [sp, #28]                  @ 4-byte Spill
	and	r3, r9, r3
	str	r3, [sp, #52]                   @ 4-byte Spill
	eor	r4, r4, r3
	ldr	r3, [sp, #20]                   @ 4-byte Reload
	eor	r8, r4, r7
	str	r7, [sp, #32]                   @ 4-byte Spill
	and	r4, r0, r3
	movw	lr, #13056
	eor	r3, r8, r4
	ldr	r4, [sp, #40]                   @ 4-byte Reload
	str	r3, [sp, #64]                   @ 4-byte Spill
	movt	lr, #13056
	and	r1, r1, r4
	ldr	r4, [sp, #36]                   @ 4-byte Reload
	and	r4, r12, r4
	str	r4, [sp, #84]                   @ 4-byte Spill
	eor	r1, r1, r4
	ldr	r12, [sp, #4]                   @ 4-byte Reload
	ldr	r4, [sp, #16]                   @ 4-byte Reload
	and	r4, r12, r4
	eor	r9, r1, r4
	ldr	r4, [sp, #12]                   @ 4-byte Reload
	and	r7, r10, r4
	eor	r7, r9, r7
	eor	r7, r7, r3
	movw	r3, #768
	movt	r3, #3087
	eor	r4, r7, r7, lsr #4
	and	r4, r4, r3
	ldr	r3, [sp, #48]                   @ 4-byte Reload
	and	r0, r0, r3
	ldr	r3, [sp, #44]                   @ 4-byte Reload
	eor	r0, r5, r0
	orr	r4, r4, r4, lsl #4
	and	r2, r2, r3
	eor	r0, r0, r6
	eor	r2, r0, r2
	movw	r3, #768
	eor	r5, r2, r1
	movt	r3, #3087
	eor	r1, r5, r8
	eor	r4, r4, r7
	mvn	r1, r1
	eor	r7, r4, r4, lsr #2
	eor	r2, r1, r1, lsr #4
	and	r7, r7, lr
	and	r2, r2, r3
	orr	r7, r7, r7, lsl #2
	eor	r1, r1, r2, lsl #4
	eor	r4, r7, r4
	eor	r1, r1, r2
	eor	r10, r4, r4, ror #8
	eor	r2, r1, r1, lsr #2
	and	r2, r2, lr
	ror	r7, r10, #16
	eor	r4, r7, r4, ror #8
	orr	r2, r2, r2, lsl #2
	eor	r1, r2, r1
	str	r1, [sp, #48]                   @ 4-byte Spill
	ldr	r2, [sp, #88]                   @ 4-byte Reload
	eor	r8, r1, r1, ror #8
	ldr	r1, [sp, #60]                   @ 4-byte Reload
	eor	r3, r4, r8
	and	r4, r12, r1
	ldr	r1, [sp, #24]                   @ 4-byte Reload
	eor	r7, r4, r11
	movw	r11, #768
	eor	r7, r7, r1
	ldr	r1, [sp, #8]                    @ 4-byte Reload
	movt	r11, #3087
	and	r6, r1, r2
	ldr	r2, [sp, #28]                   @ 4-byte Reload
	eor	r4, r9, r6
	eor	r12, r7, r4
	eor	r0, r12, r0
	eor	r7, r0, r0, lsr #4
	and	r7, r7, r11
	orr	r7, r7, r7, lsl #4
	eor	r0, r7, r0
	eor	r7, r0, r0, lsr #2
	and	r7, r7, lr
	orr	r7, r7, r7, lsl #2
	eor	r7, r7, r0
	eor	r9, r7, r7, ror #8
	ror	r0, r9, #16
	eor	r0, r0, r3, lsr #1
	eor	r6, r0, r10
	ldr	r0, [sp, #68]                   @ 4-byte Reload
	and	r0, r2, r0
	ldr	r2, [sp, #32]                   @ 4-byte Reload
	eor	r0, r2, r0
	eor	r4, r4, r0
	eor	r2, r4, r4, lsr #4
	and	r2, r2, r11
	orr	r2, r2, r2, lsl #4
	eor	r2, r2, r4
	eor	r4, r2, r2, lsr #2
	and	r4, r4, lr
	orr	r4, r4, r4, lsl #2
	eor	r4, r4, r2
	eor	r10, r4, r4, ror #8
	eor	r2, r6, r10
	movw	r6, #43690
	eor	r2, r2, r7, ror #8
	movt	r6, #43690
	ror	r7, r8, #16
	mov	r8, r6
	and	r2, r6, r2, lsl #1
	eor	r1, r2, r3
	ldr	r2, [sp, #52]                   @ 4-byte Reload
	eor	r2, r5, r2
	ldr	r5, [sp, #48]                   @ 4-byte Reload
	mvn	r2, r2
	eor	r3, r2, r2, lsr #4
	and	r3, r3, r11
	eor	r2, r2, r3, lsl #4
	eor	r2, r2, r3
	eor	r3, r2, r2, lsr #2
	and	r3, r3, lr
	orr	r3, r3, r3, lsl #2
	eor	r2, r3, r2
	eor	r3, r2, r2, ror #8
	ror	r2, r2, #8
	eor	r2, r2, r3, ror #16
	eor	r2, r2, r10
	eor	r7, r7, r2, lsr #1
	eor	r7, r7, r5, ror #8
	eor	r7, r7, r10
	eor	r3, r7, r3
	ror	r7, r10, #16
	and	r3, r6, r3, lsl #1
	ldr	r6, [sp, #72]                   @ 4-byte Reload
	eor	r2, r3, r2
	movw	r3, #13107
	str	r2, [sp, #88]                   @ 4-byte Spill
	movt	r3, #13107
	eor	r2, r1, r2, lsr #2
	and	r2, r2, r3
	ldr	r3, [sp, #76]                   @ 4-byte Reload
	eor	r5, r2, r1
	eor	r1, r0, r12
	and	r3, r6, r3
	ldr	r6, [sp, #84]                   @ 4-byte Reload
	mvn	r1, r1
	str	r2, [sp, #68]                   @ 4-byte Spill
	eor	r3, r6, r3
	eor	r2, r1, r1, lsr #4
	eor	r0, r3, r0
	ldr	r3, [sp, #64]                   @ 4-byte Reload
	and	r2, r2, r11
	str	r5, [sp, #60]                   @ 4-byte Spill
	eor	r0, r0, r3
	eor	r1, r1, r2, lsl #4
	mvn	r0, r0
	eor	r1, r1, r2
	eor	r3, r0, r0, lsr #4
	and	r3, r3, r11
	eor	r2, r1, r1, lsr #2
	and	r2, r2, lr
	eor	r0, r0, r3, lsl #4
	eor	r0, r0, r3
	orr	r2, r2, r2, lsl #2
	eor	r1, r2, r1
	eor	r3, r0, r0, lsr #2
	and	r3, r3, lr
	eor	r2, r1, r1, ror #8
	ror	r1, r1, #8
	orr	r3, r3, r3, lsl #2
	eor	r1, r1, r2, ror #16
	eor	r0, r3, r0
	eor	r3, r0, r0, ror #8
	eor	r1, r1, r3
	ror	r3, r3, #16
	eor	r7, r7, r1, lsr #1
	eor	r7, r7, r4, ror #8
	eor	r2, r7, r2
	and	r2, r8, r2, lsl #1
	eor	r1, r2, r1
	eor	r2, r12, r12, lsr #4
	and	r2, r2, r11
	orr	r2, r2, r2, lsl #4
	eor	r2, r2, r12
	eor	r7, r2, r2, lsr #2
	and	r7, r7, lr
	orr	r7, r7, r7, lsl #2
	eor	r2, r7, r2
	eor	r7, r2, r2, ror #8
	ror	r2, r2, #8
	eor	r2, r2, r7, ror #16
	eor	r2, r2, r10
	eor	r2, r2, r9
	eor	r3, r3, r2, lsr #1
	eor	r3, r3, r7
	eor	r0, r3, r0, ror #8
	and	r0, r8, r0, lsl #1
	eor	r6, r0, r2
	movw	r2, #13107
	movt	r2, #13107
	eor	r0, r1, r6, lsr #2
	and	r3, r0, r2
	movw	r0, #3855
	eor	r2, r3, r1
	movt	r0, #3855
	eor	r1, r2, r5, lsr #4
	and	r4, r1, r0
	ldr	r0, [sp, #56]                   @ 4-byte Reload
	eor	r7, r4, r2
	ldrb	r1, [r0, #1]
	str	r1, [sp, #84]                   @ 4-byte Spill
	ldrb	r1, [r0, #2]
	str	r1, [sp, #76]                   @ 4-byte Spill
	ldrb	r1, [r0, #3]
	str	r1, [sp, #72]                   @ 4-byte Spill
	ldrb	r1, [r0, #4]
	str	r1, [sp, #64]                   @ 4-byte Spill
	ldrb	r1, [r0, #5]
	ldrb	r2, [r0, #15]
	str	r1, [sp, #52]                   @ 4-byte Spill
	ldrb	r1, [r0, #6]
	eor	r12, r2, r7, lsr #24
	str	r1, [sp, #48]                   @ 4-byte Spill
	ldrb	r1, [r0, #7]
	ldrb	r5, [r0, #14]
	str	r1, [sp, #44]                   @ 4-byte Spill
	ldrb	r11, [r0]
	eor	r5, r5, r7, lsr #16
	ldrb	r10, [r0, #8]
	ldrb	r9, [r0, #9]
	ldrb	r8, [r0, #10]
	ldrb	lr, [r0, #11]
	ldrb	r2, [r0, #12]
	ldrb	r1, [r0, #13]
	ldr	r0, [sp, #80]                   @ 4-byte Reload
	strb	r5, [r0, #14]
	mov	r5, r0
	strb	r12, [r0, #15]
	eor	r0, r1, r7, lsr #8
	strb	r0, [r5, #13]
	eor	r0, r7, r2
	ldr	r1, [sp, #68]                   @ 4-byte Reload
	movw	r2, #3855
	strb	r0, [r5, #12]
	movt	r2, #3855
	ldr	r0, [sp, #88]                   @ 4-byte Reload
	eor	r0, r0, r1, lsl #2
	eor	r1, r6, r3, lsl #2
	eor	r3, r1, r0, lsr #4
	and	r3, r3, r2
	eor	r1, r3, r1
	eor	r0, r0, r3, lsl #4
	eor	r2, lr, r1, lsr #24
	strb	r2, [r5, #11]
	eor	r2, r8, r1, lsr #16
	strb	r2, [r5, #10]
	eor	r2, r9, r1, lsr #8
	eor	r1, r1, r10
	strb	r1, [r5, #8]
	ldr	r1, [sp, #60]                   @ 4-byte Reload
	strb	r2, [r5, #9]
	eor	r1, r1, r4, lsl #4
	ldr	r2, [sp, #44]                   @ 4-byte Reload
	eor	r2, r2, r1, lsr #24
	strb	r2, [r5, #7]
	ldr	r2, [sp, #48]                   @ 4-byte Reload
	eor	r2, r2, r1, lsr #16
	strb	r2, [r5, #6]
	ldr	r2, [sp, #52]                   @ 4-byte Reload
	eor	r2, r2, r1, lsr #8
	strb	r2, [r5, #5]
	ldr	r2, [sp, #64]                   @ 4-byte Reload
	eor	r1, r1, r2
	strb	r1, [r5, #4]
	ldr	r1, [sp, #72]                   @ 4-byte Reload
	eor	r1, r1, r0, lsr #24
	strb	r1, [r5, #3]
	ldr	r1, [sp, #76]                   @ 4-byte Reload
	eor	r1, r1, r0, lsr #16
	strb	r1, [r5, #2]
	ldr	r1, [sp, #84]                   @ 4-byte Reload
	eor	r1, r1, r0, lsr #8
	eor	r0, r0, r11
	strb	r1, [r5, #1]
	strb	r0, [r5]
	add	sp, sp, #124
	pop	{r4, r5, r6, r7, r8, r9, r10, r11, pc}
.Laes_func_end39:
	.size	aes.aes_c.single_rounds.round, .Laes_func_end39-aes.aes_c.single_rounds.round
	.cantunwind
	.fnend
                                        @ -- End function
	.section	.text.aes.aes_c.single_rounds.rounds,"ax",%progbits
	.p2align	2                               @ -- Begin function aes_c::single_rounds::rounds
	.type	aes.aes_c.single_rounds.rounds,%function
	.code	32
aes.aes_c.single_rounds.rounds:         @ @aes.aes_c.single_rounds.rounds
	.fnstart
@ %bb.0:                                @ %start
	.save	{r4, r5, r6, r7, r8, r9, r10, r11, lr}
	push	{r4, r5, r6, r7, r8, r9, r10, r11, lr}
	.pad	#96
	sub	sp, sp, #96
	str	r1, [sp]                        @ 4-byte Spill
	mov	r3, #0
	mov	r1, #0
	str	r0, [sp, #76]                   @ 4-byte Spill
.Laes_BB40_1:                               @ %join.5.i.i
                                        @ =>This Inner Loop Header: Depth=1
	mov	r2, r0
	str	r3, [sp, #68]                   @ 4-byte Spill
	ldr	r0, [r2, r3, lsl #4]!
	movw	r5, #21845
	str	r1, [sp, #72]                   @ 4-byte Spill
	movt	r5, #21845
	ldr	r3, [r2, #16]
	mov	r4, r2
	ldr	r1, [r2, #4]
	ldr	r6, [r2, #8]
	ldr	r10, [r2, #12]
	ldr	r2, [r2, #20]
	str	r3, [sp, #92]                   @ 4-byte Spill
	eor	r3, r3, r0, lsr #1
	and	r9, r3, r5
	eor	r7, r2, r1, lsr #1
	and	r8, r7, r5
	movw	r3, #13107
	eor	r0, r0, r9, lsl #1
	str	r2, [sp, #80]                   @ 4-byte Spill
	eor	r12, r1, r8, lsl #1
	movt	r3, #13107
	eor	r2, r12, r0, lsr #2
	ldr	r11, [r4, #24]
	and	r2, r2, r3
	str	r4, [sp, #64]                   @ 4-byte Spill
	ldr	r4, [r4, #28]
	eor	r1, r0, r2, lsl #2
	eor	r0, r11, r6, lsr #1
	and	lr, r0, r5
	eor	r7, r4, r10, lsr #1
	and	r7, r7, r5
	movw	r0, #13107
	eor	r6, r6, lr, lsl #1
	movt	r0, #13107
	eor	r5, r10, r7, lsl #1
	movw	r10, #3855
	eor	r3, r5, r6, lsr #2
	str	r1, [sp, #60]                   @ 4-byte Spill
	and	r3, r3, r0
	movt	r10, #3855
	eor	r7, r7, r4
	eor	r0, r6, r3, lsl #2
	eor	r6, r0, r1, lsr #4
	and	r1, r6, r10
	str	r1, [sp, #56]                   @ 4-byte Spill
	eor	r6, r1, r0
	eor	r0, r2, r12
	eor	r1, r3, r5
	movw	r3, #13107
	eor	r2, r1, r0, lsr #4
	str	r6, [sp, #84]                   @ 4-byte Spill
	and	r2, r2, r10
	mov	r12, r10
	movt	r3, #13107
	eor	r1, r2, r1
	eor	r0, r0, r2, lsl #4
	str	r0, [sp, #44]                   @ 4-byte Spill
	eor	r0, r0, r6
	str	r0, [sp, #88]                   @ 4-byte Spill
	ldr	r0, [sp, #92]                   @ 4-byte Reload
	eor	r9, r9, r0
	ldr	r0, [sp, #80]                   @ 4-byte Reload
	eor	r5, r8, r0
	eor	r0, lr, r11
	eor	r6, r5, r9, lsr #2
	and	r10, r6, r3
	eor	r8, r10, r5
	eor	r5, r7, r0, lsr #2
	and	r4, r5, r3
	ldr	r3, [sp, #88]                   @ 4-byte Reload
	eor	r7, r4, r7
	eor	r5, r7, r8, lsr #4
	eor	r0, r0, r4, lsl #2
	and	r6, r5, r12
	eor	r5, r6, r7
	eor	r7, r9, r10, lsl #2
	eor	r6, r8, r6, lsl #4
	ldr	r8, [sp, #44]                   @ 4-byte Reload
	eor	r4, r0, r7, lsr #4
	and	r4, r4, r12
	eor	r0, r4, r0
	eor	r12, r7, r4, lsl #4
	eor	r2, r0, r1
	eor	r9, r12, r5
	str	r9, [sp, #40]                   @ 4-byte Spill
	eor	r7, r9, r3
	str	r7, [sp, #92]                   @ 4-byte Spill
	eor	r6, r6, r7
	eor	r7, r6, r8
	str	r7, [sp, #80]                   @ 4-byte Spill
	eor	r11, r7, r2
	eor	r7, r6, r1
	ldr	r1, [sp, #84]                   @ 4-byte Reload
	eor	r8, r8, r5
	str	r7, [sp, #48]                   @ 4-byte Spill
	eor	r1, r1, r5
	str	r1, [sp, #36]                   @ 4-byte Spill
	eor	r6, r7, r1
	str	r6, [sp, #16]                   @ 4-byte Spill
	eor	r7, r6, r11
	str	r7, [sp, #52]                   @ 4-byte Spill
	and	r0, r7, r3
	and	r7, r6, r1
	ldr	r1, [sp, #56]                   @ 4-byte Reload
	eor	r4, r0, r7
	ldr	r0, [sp, #60]                   @ 4-byte Reload
	eor	r10, r6, r2
	str	r4, [sp, #28]                   @ 4-byte Spill
	eor	lr, r0, r1, lsl #4
	and	r0, r10, r9
	eor	r3, lr, r2
	mov	r2, r6
	eor	r12, r3, r12
	str	r11, [sp, #20]                  @ 4-byte Spill
	and	r1, r12, r3
	and	r11, r11, r8
	eor	r6, r10, r1
	eor	r1, r2, lr
	eor	r6, r6, r0
	eor	r2, r3, r5
	eor	r6, r6, r9
	eor	r9, r11, r7
	eor	r6, r6, r4
	and	r4, r1, r2
	eor	r4, r10, r4
	str	r2, [sp, #12]                   @ 4-byte Spill
	eor	r0, r4, r0
	ldr	r2, [sp, #80]                   @ 4-byte Reload
	eor	r0, r0, r5
	str	r1, [sp, #44]                   @ 4-byte Spill
	eor	r1, r0, r9
	ldr	r0, [sp, #92]                   @ 4-byte Reload
	eor	r7, r2, lr
	str	r7, [sp, #24]                   @ 4-byte Spill
	and	r5, r2, r0
	eor	r0, r12, r8
	str	r0, [sp, #32]                   @ 4-byte Spill
	and	r4, r7, r0
	ldr	r0, [sp, #48]                   @ 4-byte Reload
	eor	r11, r1, r6
	str	r8, [sp, #8]                    @ 4-byte Spill
	eor	r4, r0, r4
	ldr	r0, [sp, #28]                   @ 4-byte Reload
	eor	r4, r4, r5
	str	r12, [sp, #60]                  @ 4-byte Spill
	eor	r2, r4, r0
	ldr	r0, [sp, #84]                   @ 4-byte Reload
	and	r4, r6, r2
	eor	r0, r3, r0
	str	r0, [sp, #84]                   @ 4-byte Spill
	and	r7, r0, lr
	eor	r0, r4, r1
	eor	r7, r7, r8
	ldr	r8, [sp, #20]                   @ 4-byte Reload
	eor	r7, r7, r8
	eor	r5, r7, r5
	eor	r7, r5, r9
	eor	r5, r4, r7
	and	r5, r5, r11
	eor	r9, r5, r1
	eor	r5, r5, r4
	and	r12, r5, r1
	eor	r5, r2, r7
	and	r4, r0, r5
	eor	r0, r12, r0
	eor	r7, r4, r7
	eor	r11, r12, r6
	and	r0, r0, r7
	eor	r6, r11, r9
	eor	r1, r0, r5
	eor	r0, r7, r9
	eor	r5, r1, r6
	ldr	r2, [sp, #52]                   @ 4-byte Reload
	eor	r4, r5, r0
	str	r4, [sp, #4]                    @ 4-byte Spill
	and	r12, r4, r2
	ldr	r2, [sp, #80]                   @ 4-byte Reload
	eor	r4, r1, r7
	str	r1, [sp, #48]                   @ 4-byte Spill
	and	r3, r1, r3
	and	r1, r4, r10
	eor	r10, r1, r3
	and	r3, r9, lr
	and	r2, r11, r2
	str	r1, [sp, #28]                   @ 4-byte Spill
	eor	r1, r10, r12
	eor	r3, r2, r3
	and	r12, r5, r8
	str	r3, [sp, #20]                   @ 4-byte Spill
	eor	r12, r12, r3
	ldr	r3, [sp, #40]                   @ 4-byte Reload
	movw	lr, #768
	str	r9, [sp, #56]                   @ 4-byte Spill
	and	r3, r4, r3
	str	r3, [sp, #52]                   @ 4-byte Spill
	eor	r4, r12, r3
	movt	lr, #3087
	eor	r3, r4, r1
	ldr	r4, [sp, #12]                   @ 4-byte Reload
	str	r3, [sp, #40]                   @ 4-byte Spill
	movw	r9, #13056
	and	r4, r7, r4
	movt	r9, #13056
	eor	r12, r3, r4
	ldr	r3, [sp, #16]                   @ 4-byte Reload
	str	r12, [sp, #80]                  @ 4-byte Spill
	and	r4, r0, r3
	ldr	r3, [sp, #8]                    @ 4-byte Reload
	eor	r1, r1, r4
	and	r5, r5, r3
	ldr	r3, [sp, #36]                   @ 4-byte Reload
	and	r0, r0, r3
	ldr	r3, [sp, #24]                   @ 4-byte Reload
	eor	r5, r0, r5
	eor	r5, r5, r1
	eor	r5, r5, r12
	mvn	r5, r5
	eor	r4, r5, r5, lsr #4
	and	r4, r4, lr
	eor	r5, r5, r4, lsl #4
	eor	r5, r5, r4
	eor	r4, r5, r5, lsr #2
	and	r4, r4, r9
	add	r4, r4, r4, lsl #2
	eor	r5, r4, r5
	and	r4, r6, r3
	eor	r4, r4, r2
	ldr	r2, [sp, #88]                   @ 4-byte Reload
	ldr	r3, [sp, #4]                    @ 4-byte Reload
	eor	r4, r4, r10
	eor	r12, r5, r5, ror #8
	and	r2, r3, r2
	eor	r10, r2, r0
	ldr	r0, [sp, #32]                   @ 4-byte Reload
	and	r0, r6, r0
	eor	r8, r10, r0
	ldr	r0, [sp, #92]                   @ 4-byte Reload
	and	r0, r11, r0
	eor	r0, r8, r0
	eor	r6, r4, r0
	eor	r0, r0, r1
	eor	r1, r1, r6
	eor	r4, r6, r6, lsr #4
	and	r4, r4, lr
	mvn	r1, r1
	add	r4, r4, r4, lsl #4
	eor	r4, r4, r6
	eor	r2, r4, r4, lsr #2
	and	r2, r2, r9
	add	r2, r2, r2, lsl #2
	eor	r2, r2, r4
	eor	r4, r2, r2, ror #8
	ror	r2, r2, #8
	eor	r3, r4, r12, ror #16
	eor	r5, r3, r5, ror #8
	eor	r3, r0, r0, lsr #4
	and	r3, r3, lr
	eor	r2, r2, r4, ror #16
	ldr	r4, [sp, #20]                   @ 4-byte Reload
	add	r3, r3, r3, lsl #4
	eor	r0, r3, r0
	eor	r3, r0, r0, lsr #2
	and	r3, r3, r9
	add	r3, r3, r3, lsl #2
	eor	r0, r3, r0
	ldr	r3, [sp, #44]                   @ 4-byte Reload
	and	r3, r7, r3
	eor	r11, r0, r0, ror #8
	eor	r3, r4, r3
	ldr	r4, [sp, #28]                   @ 4-byte Reload
	eor	r2, r2, r11
	eor	r4, r3, r4
	eor	r3, r6, r4
	eor	r7, r3, r3, lsr #4
	and	r7, r7, lr
	add	r7, r7, r7, lsl #4
	eor	r3, r7, r3
	eor	r7, r3, r3, lsr #2
	and	r7, r7, r9
	add	r7, r7, r7, lsl #2
	eor	r3, r7, r3
	str	r3, [sp, #32]                   @ 4-byte Spill
	movw	r7, #21845
	eor	r3, r3, r3, ror #8
	movt	r7, #21845
	eor	r2, r2, r3
	str	r2, [sp, #92]                   @ 4-byte Spill
	eor	r2, r5, r2, lsr #1
	and	r2, r2, r7
	str	r2, [sp, #88]                   @ 4-byte Spill
	eor	r5, r2, r5
	ror	r2, r11, #16
	eor	r0, r2, r0, ror #8
	eor	r2, r1, r1, lsr #4
	and	r2, r2, lr
	str	r5, [sp, #28]                   @ 4-byte Spill
	eor	r1, r1, r2, lsl #4
	eor	r1, r1, r2
	eor	r2, r1, r1, lsr #2
	and	r2, r2, r9
	add	r2, r2, r2, lsl #2
	eor	r1, r2, r1
	eor	r2, r1, r1, ror #8
	ror	r1, r1, #8
	eor	r0, r0, r2
	eor	r1, r1, r2, ror #16
	movw	r2, #13107
	eor	r1, r1, r12
	str	r1, [sp, #44]                   @ 4-byte Spill
	movt	r2, #13107
	eor	r1, r0, r1, lsr #1
	and	r1, r1, r7
	str	r1, [sp, #36]                   @ 4-byte Spill
	eor	r0, r1, r0
	eor	r1, r0, r5, lsr #2
	and	r12, r1, r2
	ldr	r1, [sp, #48]                   @ 4-byte Reload
	eor	r5, r12, r0
	ldr	r0, [sp, #60]                   @ 4-byte Reload
	and	r0, r1, r0
	ldr	r1, [sp, #40]                   @ 4-byte Reload
	eor	r0, r4, r0
	eor	r0, r0, r10
	eor	r2, r0, r1
	ldr	r1, [sp, #52]                   @ 4-byte Reload
	eor	r0, r0, r1
	mvn	r2, r2
	eor	r4, r2, r2, lsr #4
	ldr	r1, [sp, #84]                   @ 4-byte Reload
	mvn	r0, r0
	and	r4, r4, lr
	eor	r6, r0, r0, lsr #4
	and	r6, r6, lr
	eor	r2, r2, r4, lsl #4
	eor	r2, r2, r4
	eor	r0, r0, r6, lsl #4
	eor	r0, r0, r6
	eor	r4, r2, r2, lsr #2
	and	r4, r4, r9
	eor	r6, r0, r0, lsr #2
	and	r6, r6, r9
	add	r4, r4, r4, lsl #2
	eor	r2, r4, r2
	add	r6, r6, r6, lsl #2
	eor	r0, r6, r0
	eor	r4, r2, r2, ror #8
	ror	r2, r2, #8
	eor	r6, r0, r0, ror #8
	ror	r0, r0, #8
	eor	r2, r2, r4, ror #16
	eor	r0, r0, r6, ror #16
	eor	r2, r2, r11
	eor	r10, r0, r11
	eor	r2, r2, r6
	eor	r0, r2, r10, lsr #1
	and	r6, r0, r7
	eor	r0, r6, r2
	ldr	r2, [sp, #56]                   @ 4-byte Reload
	and	r2, r2, r1
	ldr	r1, [sp, #80]                   @ 4-byte Reload
	eor	r2, r8, r2
	eor	r2, r2, r1
	ldr	r1, [sp, #32]                   @ 4-byte Reload
	eor	r8, r2, r2, lsr #4
	and	r7, r8, lr
	movw	r8, #3855
	movt	r8, #3855
	add	r7, r7, r7, lsl #4
	eor	r2, r7, r2
	eor	r7, r2, r2, lsr #2
	and	r7, r7, r9
	movw	r9, #13107
	movt	r9, #13107
	add	r7, r7, r7, lsl #2
	eor	r2, r7, r2
	eor	r7, r2, r2, ror #8
	ror	r2, r2, #8
	eor	r3, r7, r3, ror #16
	eor	r2, r2, r7, ror #16
	eor	r3, r3, r11
	eor	lr, r2, r4
	eor	r3, r3, r1, ror #8
	movw	r1, #21845
	ldr	r2, [sp, #64]                   @ 4-byte Reload
	eor	r7, r3, lr, lsr #1
	movt	r1, #21845
	and	r7, r7, r1
	eor	r3, r7, r3
	eor	r4, r3, r0, lsr #2
	and	r4, r4, r9
	eor	r3, r4, r3
	eor	r0, r0, r4, lsl #2
	ldr	r4, [sp, #28]                   @ 4-byte Reload
	eor	r1, r5, r3, lsr #4
	and	r1, r1, r8
	eor	r5, r1, r5
	str	r5, [r2, #28]
	eor	r5, r4, r12, lsl #2
	eor	r1, r3, r1, lsl #4
	eor	r4, r5, r0, lsr #4
	ldr	r3, [sp, #44]                   @ 4-byte Reload
	and	r4, r4, r8
	str	r1, [r2, #20]
	eor	r1, r10, r6, lsl #1
	ldr	r6, [sp, #88]                   @ 4-byte Reload
	eor	r0, r0, r4, lsl #4
	str	r0, [r2, #16]
	eor	r0, lr, r7, lsl #1
	ldr	r7, [sp, #36]                   @ 4-byte Reload
	eor	r5, r4, r5
	str	r5, [r2, #24]
	mov	r4, r2
	eor	r2, r0, r1, lsr #2
	eor	r3, r3, r7, lsl #1
	ldr	r7, [sp, #92]                   @ 4-byte Reload
	and	r2, r2, r9
	eor	r7, r7, r6, lsl #1
	eor	r0, r2, r0
	eor	r1, r1, r2, lsl #2
	eor	r6, r3, r7, lsr #2
	and	r6, r6, r9
	eor	r3, r6, r3
	eor	r5, r3, r0, lsr #4
	eor	r2, r7, r6, lsl #2
	and	r5, r5, r8
	eor	r3, r5, r3
	str	r3, [r4, #12]
	eor	r3, r2, r1, lsr #4
	eor	r0, r0, r5, lsl #4
	and	r3, r3, r8
	str	r0, [r4, #4]
	eor	r2, r3, r2
	str	r2, [r4, #8]
	eor	r0, r1, r3, lsl #4
	ldr	r2, [sp, #68]                   @ 4-byte Reload
	str	r0, [r4]
	ldr	r0, [sp, #72]                   @ 4-byte Reload
	adds	r3, r2, #2
	adc	r1, r0, #0
	subs	r2, r2, #6
	sbcs	r2, r0, #0
	ldr	r0, [sp, #76]                   @ 4-byte Reload
	blo	.Laes_BB40_1
@ %bb.2:                                @ %join.5.i.i.i.preheader
	mov	r0, #0
	mov	r5, #0
.Laes_BB40_3:                               @ %join.5.i.i.i
                                        @ =>This Inner Loop Header: Depth=1
	ldr	r2, [sp, #76]                   @ 4-byte Reload
	ldr	r1, [sp]                        @ 4-byte Reload
	ldrb	r3, [r2, r0, lsl #4]!
	ldrb	r7, [r1, r0, lsl #4]!
	ldrb	r6, [r2, #15]
	eor	r3, r7, r3
	str	r3, [sp, #32]                   @ 4-byte Spill
	ldrb	r3, [r1, #1]
	str	r3, [sp, #92]                   @ 4-byte Spill
	ldrb	r3, [r1, #2]
	str	r3, [sp, #88]                   @ 4-byte Spill
	ldrb	r3, [r1, #3]
	str	r3, [sp, #80]                   @ 4-byte Spill
	ldrb	r3, [r1, #4]
	str	r3, [sp, #68]                   @ 4-byte Spill
	ldrb	r3, [r2, #1]
	str	r3, [sp, #84]                   @ 4-byte Spill
	ldrb	r3, [r2, #2]
	str	r3, [sp, #72]                   @ 4-byte Spill
	ldrb	r3, [r2, #3]
	str	r3, [sp, #64]                   @ 4-byte Spill
	ldrb	r3, [r2, #4]
	str	r3, [sp, #60]                   @ 4-byte Spill
	ldrb	r3, [r1, #5]
	str	r3, [sp, #56]                   @ 4-byte Spill
	ldrb	r3, [r2, #5]
	str	r3, [sp, #52]                   @ 4-byte Spill
	ldrb	r3, [r1, #6]
	str	r3, [sp, #48]                   @ 4-byte Spill
	ldrb	r3, [r2, #6]
	str	r3, [sp, #44]                   @ 4-byte Spill
	ldrb	r3, [r1, #7]
	str	r3, [sp, #40]                   @ 4-byte Spill
	ldrb	r3, [r2, #7]
	str	r3, [sp, #36]                   @ 4-byte Spill
	ldrb	r3, [r1, #8]
	str	r3, [sp, #28]                   @ 4-byte Spill
	ldrb	r3, [r2, #8]
	str	r3, [sp, #24]                   @ 4-byte Spill
	ldrb	r3, [r1, #9]
	str	r3, [sp, #20]                   @ 4-byte Spill
	ldrb	r3, [r2, #9]
	str	r3, [sp, #16]                   @ 4-byte Spill
	ldrb	r3, [r1, #10]
	ldrb	r4, [r1, #11]
	ldrb	r12, [r1, #12]
	ldrb	r9, [r1, #13]
	ldrb	r10, [r1, #14]
	ldrb	r1, [r1, #15]
	ldrb	r8, [r2, #14]
	str	r3, [sp, #12]                   @ 4-byte Spill
	eor	r1, r1, r6
	ldrb	r3, [r2, #10]
	ldrb	r11, [r2, #13]
	str	r3, [sp, #8]                    @ 4-byte Spill
	strb	r1, [r2, #15]
	eor	r1, r10, r8
	ldrb	r3, [r2, #12]
	strb	r1, [r2, #14]
	eor	r1, r9, r11
	ldrb	lr, [r2, #11]
	strb	r1, [r2, #13]
	eor	r1, r12, r3
	strb	r1, [r2, #12]
	eor	r1, r4, lr
	strb	r1, [r2, #11]
	ldr	r1, [sp, #12]                   @ 4-byte Reload
	ldr	r3, [sp, #8]                    @ 4-byte Reload
	ldr	r7, [sp, #32]                   @ 4-byte Reload
	eor	r1, r1, r3
	strb	r1, [r2, #10]
	ldr	r1, [sp, #20]                   @ 4-byte Reload
	ldr	r3, [sp, #16]                   @ 4-byte Reload
	strb	r7, [r2]
	eor	r1, r1, r3
	strb	r1, [r2, #9]
	ldr	r1, [sp, #28]                   @ 4-byte Reload
	ldr	r3, [sp, #24]                   @ 4-byte Reload
	eor	r1, r1, r3
	strb	r1, [r2, #8]
	ldr	r1, [sp, #40]                   @ 4-byte Reload
	ldr	r3, [sp, #36]                   @ 4-byte Reload
	eor	r1, r1, r3
	strb	r1, [r2, #7]
	ldr	r1, [sp, #48]                   @ 4-byte Reload
	ldr	r3, [sp, #44]                   @ 4-byte Reload
	eor	r1, r1, r3
	strb	r1, [r2, #6]
	ldr	r1, [sp, #56]                   @ 4-byte Reload
	ldr	r3, [sp, #52]                   @ 4-byte Reload
	eor	r1, r1, r3
	strb	r1, [r2, #5]
	ldr	r1, [sp, #68]                   @ 4-byte Reload
	ldr	r3, [sp, #60]                   @ 4-byte Reload
	eor	r1, r1, r3
	strb	r1, [r2, #4]
	ldr	r1, [sp, #80]                   @ 4-byte Reload
	ldr	r3, [sp, #64]                   @ 4-byte Reload
	eor	r1, r1, r3
	strb	r1, [r2, #3]
	ldr	r1, [sp, #88]                   @ 4-byte Reload
	ldr	r3, [sp, #72]                   @ 4-byte Reload
	eor	r1, r1, r3
	strb	r1, [r2, #2]
	ldr	r1, [sp, #92]                   @ 4-byte Reload
	ldr	r3, [sp, #84]                   @ 4-byte Reload
	eor	r1, r1, r3
	strb	r1, [r2, #1]
	adds	r1, r0, #1
	adc	r2, r5, #0
	subs	r0, r0, #7
	sbcs	r0, r5, #0
	mov	r0, r1
	mov	r5, r2
	blo	.Laes_BB40_3
@ %bb.4:                                @ %"aes_soft::soft::hazmat::par::cipher_round_par::<#e817d94f9a7b6ba6>.exit"
	add	sp, sp, #96
	pop	{r4, r5, r6, r7, r8, r9, r10, r11, pc}
.Laes_func_end40:
	.size	aes.aes_c.single_rounds.rounds, .Laes_func_end40-aes.aes_c.single_rounds.rounds
	.cantunwind
	.fnend
                                        @ -- End function
	.section	.text.aes.ccm.mode.decrypt,"ax",%progbits
	.p2align	2                               @ -- Begin function ccm::mode::decrypt::<#4f733d09d7f6c6b4>
	.type	aes.ccm.mode.decrypt,%function
	.code	32
aes.ccm.mode.decrypt: @ @aes.ccm.mode.decrypt
	.fnstart
@ %bb.0:                                @ %start
	.save	{r4, r5, r6, r7, r8, r9, r10, r11, lr}
	push	{r4, r5, r6, r7, r8, r9, r10, r11, lr}
	.pad	#92
	sub	sp, sp, #92
	ldr	r8, [sp, #176]
	mov	r3, #0
	ldr	r9, [sp, #180]
	subs	r7, r8, #4
	sbc	r6, r9, #0
	rsbs	r7, r7, #12
	rscs	r7, r6, #0
	blo	.Laes_BB41_5
@ %bb.1:                                @ %start
	ands	r7, r8, #1
	bne	.Laes_BB41_5
@ %bb.2:                                @ %after.1.i
	ldr	r10, [sp, #128]
	mov	r3, #1
	ldr	r11, [sp, #132]
	mvn	r5, #6
	subs	r7, r10, #14
	mvn	r4, #0
	sbc	r6, r11, #0
	subs	r7, r7, r5
	sbcs	r7, r6, r4
	blo	.Laes_BB41_5
@ %bb.3:                                @ %after.15.i
	ldr	r5, [sp, #164]
	eor	r3, r10, #7
	ldr	r4, [sp, #160]
	orrs	r3, r3, r11
	beq	.Laes_BB41_6
@ %bb.4:                                @ %"ccm::formatting::check.exit"
	mov	r3, #120
	eor	r3, r3, r10, lsl #3
	rsb	r6, r3, #32
	lsr	r7, r4, r3
	orr	r7, r7, r5, lsl r6
	subs	r6, r3, #32
	lsr	r3, r5, r3
	movwpl	r3, #0
	lsrpl	r7, r5, r6
	orrs	r3, r7, r3
	mov	r3, #2
	beq	.Laes_BB41_6
.Laes_BB41_5:                               @ %arm.1
	strb	r3, [r0, #2]
	mov	r1, #1
	strh	r1, [r0]
	add	sp, sp, #92
	pop	{r4, r5, r6, r7, r8, r9, r10, r11, pc}
.Laes_BB41_6:                               @ %join.4
	str	r0, [sp, #52]                   @ 4-byte Spill
	add	r0, sp, #56
	mov	r5, #0
	mov	r7, r1
	mov	r1, r2
	mov	r6, r2
	mov	r2, r10
	str	r5, [sp, #64]
	str	r5, [sp, #56]
	str	r5, [sp, #60]
	str	r5, [sp, #67]
	bl	memcpy
	add	r2, sp, #56
	rsb	r0, r10, #14
	str	r0, [sp, #44]                   @ 4-byte Spill
	strb	r0, [sp, #72]
	ldm	r2, {r0, r1, r2}
	str	r0, [sp, #73]
	ldr	r0, [sp, #164]
	str	r1, [sp, #77]
	add	r1, sp, #72
	str	r4, [sp, #8]
	str	r0, [sp, #12]
	ldr	r0, [sp, #152]
	ldr	r3, [sp, #67]
	str	r2, [sp, #81]
	mov	r2, #16
	str	r3, [sp, #84]
	mov	r3, #0
	str	r0, [sp]
	mov	r0, r7
	bl	aes.aes_ctr.add_in_batches.add_keystream
	ldr	r0, [sp, #164]
	mov	r1, r6
	str	r0, [sp, #36]
	add	r0, sp, #56
	str	r0, [sp, #40]
	mov	r2, r10
	ldr	r0, [sp, #144]
	mov	r3, r11
	str	r0, [sp, #16]
	ldr	r0, [sp, #148]
	str	r0, [sp, #20]
	ldr	r0, [sp, #136]
	str	r4, [sp, #32]
	ldr	r4, [sp, #152]
	str	r0, [sp, #8]
	mov	r0, r7
	str	r7, [sp, #48]                   @ 4-byte Spill
	mov	r7, r6
	str	r4, [sp, #24]
	stm	sp, {r8, r9}
	bl	aes.ccm.message.put_tag
	add	r3, sp, #56
	add	r12, sp, #72
	add	r6, sp, #72
	ldm	r3, {r0, r1, r2, r3}
	stm	r12, {r0, r1, r2, r3}
	mov	r0, r6
	mov	r2, r8
	ldr	r1, [sp, #168]
	bl	memcpy
	add	r1, sp, #56
	mov	r0, r6
	bl	aes.aes_cipher.blocks.difference
	cmp	r0, #0
	beq	.Laes_BB41_8
@ %bb.7:                                @ %join.7
	add	r0, sp, #56
	mov	r1, r7
	mov	r2, r10
	str	r5, [sp, #64]
	str	r5, [sp, #56]
	str	r5, [sp, #60]
	str	r5, [sp, #67]
	bl	memcpy
	add	r2, sp, #56
	ldr	r0, [sp, #44]                   @ 4-byte Reload
	strb	r0, [sp, #72]
	ldm	r2, {r0, r1, r2}
	str	r0, [sp, #73]
	str	r1, [sp, #77]
	ldr	r1, [sp, #160]
	ldr	r0, [sp, #164]
	str	r1, [sp, #8]
	add	r1, sp, #72
	str	r0, [sp, #12]
	ldr	r0, [sp, #48]                   @ 4-byte Reload
	ldr	r3, [sp, #67]
	str	r2, [sp, #81]
	mov	r2, #16
	str	r3, [sp, #84]
	mov	r3, #0
	str	r4, [sp]
	bl	aes.aes_ctr.add_in_batches.add_keystream
	ldr	r0, [sp, #52]                   @ 4-byte Reload
	movw	r1, #257
	strb	r5, [r0, #2]
	strh	r1, [r0]
	add	sp, sp, #92
	pop	{r4, r5, r6, r7, r8, r9, r10, r11, pc}
.Laes_BB41_8:                               @ %then.5
	ldr	r0, [sp, #52]                   @ 4-byte Reload
	strb	r5, [r0, #2]
	strh	r5, [r0]
	add	sp, sp, #92
	pop	{r4, r5, r6, r7, r8, r9, r10, r11, pc}
.Laes_func_end41:
	.size	aes.ccm.mode.decrypt, .Laes_func_end41-aes.ccm.mode.decrypt
	.cantunwind
	.fnend
                                        @ -- End function
	.section	.text.aes.ccm.message.put_tag,"ax",%progbits
	.p2align	2                               @ -- Begin function ccm::message::put_tag::<#4f733d09d7f6c6b4>
	.type	aes.ccm.message.put_tag,%function
	.code	32
aes.ccm.message.put_tag: @ @aes.ccm.message.put_tag
	.fnstart
@ %bb.0:                                @ %start
	.save	{r4, r5, r6, r7, r8, r9, r10, r11, lr}
	push	{r4, r5, r6, r7, r8, r9, r10, r11, lr}
	.pad	#156
	sub	sp, sp, #156
	mov	r9, r0
	ldr	r0, [sp, #224]
	mov	r5, #0
	mov	r6, r2
	rev	r0, r0
	str	r0, [sp, #116]
	ldr	r0, [sp, #228]
	mov	r7, r1
	str	r5, [sp, #128]
	rev	r0, r0
	str	r0, [sp, #112]
	add	r0, sp, #120
	str	r5, [sp, #108]
	str	r5, [sp, #104]
	str	r5, [sp, #100]
	str	r5, [sp, #96]
	str	r5, [sp, #120]
	str	r5, [sp, #124]
	str	r5, [sp, #131]
	bl	memcpy
	ldr	r0, [sp, #124]
	ldr	r2, [sp, #128]
	str	r0, [sp, #141]
	ldr	r3, [sp, #131]
	ldr	r0, [sp, #212]
	ldr	r10, [sp, #208]
	str	r2, [sp, #145]
	str	r3, [sp, #148]
	orrs	r8, r10, r0
	ldr	r3, [sp, #192]
	mov	r0, #78
	ldr	r2, [sp, #196]
	movweq	r0, #14
	subs	r3, r3, #2
	ldr	r1, [sp, #120]
	sbcs	r2, r2, #0
	adc	r2, r5, #0
	teq	r2, #1
	movwne	r3, #0
	and	r2, r3, #62
	rsb	r2, r6, r2, lsl #2
	add	r0, r0, r2
	strb	r0, [sp, #136]
	add	r0, sp, #136
	rsb	r2, r6, #15
	add	r0, r0, #1
	str	r1, [r0], r6
	add	r1, sp, #112
	add	r1, r1, r6
	sub	r1, r1, #7
	bl	memcpy
	ldr	r4, [sp, #232]
	mov	r11, r9
	ldr	r0, [sp, #136]
	ldr	r1, [sp, #140]
	ldr	r2, [sp, #144]
	ldr	r3, [sp, #148]
	str	r1, [r4, #4]
	mov	r1, #1
	str	r3, [r4, #12]
	str	r2, [r4, #8]
	str	r0, [r4]
	ldr	r2, [r11, #8]!
	ldr	r0, [r9]
	ldr	r3, [r9, #12]
	str	r1, [sp, #8]
	str	r5, [sp, #12]
	str	r4, [sp]
	bl	aes.aes_narrow.blocks.process_all_batches.1
	bl	aes.aes_cipher.zeroize.stack.wipe_stack.1024
	ldr	r2, [sp, #216]
	cmp	r8, #0
	beq	.Laes_BB42_8
@ %bb.1:                                @ %join.3.i
	ldr	lr, [sp, #212]
	lsr	r0, r10, #8
	str	r5, [sp, #148]
	str	r5, [sp, #144]
	orr	r1, r0, lr, lsl #24
	rev	r0, r10
	rsbs	r1, r1, #254
	str	r5, [sp, #140]
	sbcs	r1, r5, lr, lsr #8
	str	r5, [sp, #136]
	str	r7, [sp, #92]                   @ 4-byte Spill
	blo	.Laes_BB42_4
@ %bb.2:                                @ %then.1.i.i
	add	r2, sp, #120
	add	r3, sp, #136
	add	r2, r2, #6
	lsr	r1, r0, #16
	subs	r2, r3, r2
	mov	r8, #0
	sbc	r3, r8, #0
	rsbs	r2, r2, #1
	rscs	r2, r3, #0
	blo	.Laes_BB42_5
@ %bb.3:                                @ %join.7.i.i.i.i.i.i.preheader.i.i
	lsr	r0, r0, #24
	strb	r1, [sp, #136]
	strb	r0, [sp, #137]
	b	.Laes_BB42_6
.Laes_BB42_4:                               @ %join.3.i.i
	movw	r1, #65279
	str	r0, [sp, #138]
	mov	r0, #6
	strh	r1, [sp, #136]
	b	.Laes_BB42_7
.Laes_BB42_5:                               @ %apart.2.i.i.i.i.i.i.i.i
	strh	r1, [sp, #136]
.Laes_BB42_6:                               @ %"ccm::formatting::put_length.exit.i"
	mov	r0, #2
.Laes_BB42_7:                               @ %"ccm::formatting::put_length.exit.i"
	rsb	r7, r0, #16
	mov	r8, lr
	subs	r1, r7, r10
	rscs	r1, lr, #0
	movhs	r7, r10
	add	r10, sp, #136
	ldr	r1, [sp, #200]
	orr	r0, r10, r0
	mov	r2, r7
	movwlo	r8, #0
	bl	memcpy
	mov	r0, #16
	mov	r1, #0
	strd	r0, r1, [sp]
	mov	r0, r9
	mov	r1, r4
	mov	r2, r10
	bl	aes.cmac.chaining.chain
	ldr	r0, [sp, #208]
	ldr	r1, [sp, #212]
	subs	r0, r0, r7
	sbc	r1, r1, r8
	strd	r0, r1, [sp]
	mov	r1, r4
	ldr	r0, [sp, #200]
	add	r2, r0, r7
	mov	r0, r9
	bl	aes.cmac.chaining.chain
	ldr	r7, [sp, #92]                   @ 4-byte Reload
	ldr	r2, [sp, #216]
.Laes_BB42_8:                               @ %"ccm::message::chain_additional::<#4f733d09d7f6c6b4>.exit"
	ldr	r1, [sp, #228]
	ldr	r0, [sp, #224]
	strd	r0, r1, [sp]
	mov	r0, r9
	mov	r1, r4
	bl	aes.cmac.chaining.chain
	add	r0, sp, #136
	mov	r1, r7
	mov	r2, r6
	str	r5, [sp, #147]
	str	r5, [sp, #144]
	str	r5, [sp, #140]
	str	r5, [sp, #136]
	bl	memcpy
	rsb	r0, r6, #14
	strb	r0, [sp, #96]
	ldrb	r0, [sp, #150]
	add	r2, sp, #136
	strb	r0, [sp, #111]
	ldrh	r0, [sp, #148]
	strh	r0, [sp, #109]
	ldm	r2, {r0, r1, r2}
	str	r2, [sp, #105]
	str	r0, [sp, #97]
	ldr	r2, [r11]
	ldr	r3, [r11, #4]
	ldr	r0, [r9]
	str	r1, [sp, #101]
	mov	r1, #1
	str	r1, [sp, #8]
	add	r1, sp, #96
	str	r5, [sp, #12]
	str	r1, [sp]
	bl	aes.aes_narrow.blocks.process_all_batches.1
	bl	aes.aes_cipher.zeroize.stack.wipe_stack.1024
	ldrb	r0, [r4, #15]
	ldrb	r1, [sp, #111]
	ldrb	r5, [r4, #14]
	eor	r0, r1, r0
	str	r0, [sp, #32]                   @ 4-byte Spill
	ldrb	r0, [r4]
	str	r0, [sp, #92]                   @ 4-byte Spill
	ldrb	r0, [r4, #1]
	str	r0, [sp, #88]                   @ 4-byte Spill
	ldrb	r0, [r4, #2]
	str	r0, [sp, #84]                   @ 4-byte Spill
	ldrb	r0, [r4, #3]
	str	r0, [sp, #80]                   @ 4-byte Spill
	ldrb	r0, [r4, #4]
	str	r0, [sp, #76]                   @ 4-byte Spill
	ldrb	r0, [r4, #5]
	str	r0, [sp, #72]                   @ 4-byte Spill
	ldrb	r0, [r4, #6]
	str	r0, [sp, #64]                   @ 4-byte Spill
	ldrb	r0, [r4, #7]
	str	r0, [sp, #56]                   @ 4-byte Spill
	ldrb	r0, [r4, #8]
	str	r0, [sp, #48]                   @ 4-byte Spill
	ldrb	r0, [r4, #9]
	str	r0, [sp, #40]                   @ 4-byte Spill
	ldrb	r0, [r4, #10]
	str	r0, [sp, #28]                   @ 4-byte Spill
	ldrb	r0, [r4, #11]
	str	r0, [sp, #20]                   @ 4-byte Spill
	ldrb	r0, [sp, #96]
	str	r0, [sp, #68]                   @ 4-byte Spill
	ldrb	r0, [sp, #97]
	str	r0, [sp, #60]                   @ 4-byte Spill
	ldrb	r0, [sp, #98]
	str	r0, [sp, #52]                   @ 4-byte Spill
	ldrb	r0, [sp, #99]
	str	r0, [sp, #44]                   @ 4-byte Spill
	ldrb	r0, [sp, #100]
	str	r0, [sp, #36]                   @ 4-byte Spill
	ldrb	r0, [sp, #101]
	str	r0, [sp, #24]                   @ 4-byte Spill
	ldrb	r0, [sp, #110]
	ldrb	r6, [r4, #13]
	ldrb	r1, [sp, #109]
	eor	r0, r0, r5
	ldrb	r9, [r4, #12]
	ldrb	r2, [sp, #108]
	strb	r0, [r4, #14]
	eor	r0, r1, r6
	strb	r0, [r4, #13]
	eor	r0, r2, r9
	strb	r0, [r4, #12]
	ldrb	r3, [sp, #107]
	ldr	r0, [sp, #20]                   @ 4-byte Reload
	ldrb	r12, [sp, #106]
	eor	r0, r3, r0
	strb	r0, [r4, #11]
	ldr	r0, [sp, #28]                   @ 4-byte Reload
	ldrb	lr, [sp, #105]
	eor	r0, r12, r0
	strb	r0, [r4, #10]
	ldr	r0, [sp, #40]                   @ 4-byte Reload
	ldrb	r7, [sp, #104]
	eor	r0, lr, r0
	strb	r0, [r4, #9]
	ldr	r0, [sp, #48]                   @ 4-byte Reload
	ldrb	r8, [sp, #103]
	eor	r0, r7, r0
	strb	r0, [r4, #8]
	ldr	r0, [sp, #56]                   @ 4-byte Reload
	ldrb	r11, [sp, #102]
	eor	r0, r8, r0
	strb	r0, [r4, #7]
	ldr	r0, [sp, #64]                   @ 4-byte Reload
	ldr	r1, [sp, #24]                   @ 4-byte Reload
	eor	r0, r11, r0
	strb	r0, [r4, #6]
	ldr	r0, [sp, #72]                   @ 4-byte Reload
	ldr	r10, [sp, #32]                  @ 4-byte Reload
	eor	r0, r1, r0
	strb	r0, [r4, #5]
	ldr	r0, [sp, #76]                   @ 4-byte Reload
	ldr	r1, [sp, #36]                   @ 4-byte Reload
	strb	r10, [r4, #15]
	eor	r0, r1, r0
	strb	r0, [r4, #4]
	ldr	r0, [sp, #80]                   @ 4-byte Reload
	ldr	r1, [sp, #44]                   @ 4-byte Reload
	eor	r0, r1, r0
	strb	r0, [r4, #3]
	ldr	r0, [sp, #84]                   @ 4-byte Reload
	ldr	r1, [sp, #52]                   @ 4-byte Reload
	eor	r0, r1, r0
	strb	r0, [r4, #2]
	ldr	r0, [sp, #88]                   @ 4-byte Reload
	ldr	r1, [sp, #60]                   @ 4-byte Reload
	eor	r0, r1, r0
	strb	r0, [r4, #1]
	ldr	r0, [sp, #92]                   @ 4-byte Reload
	ldr	r1, [sp, #68]                   @ 4-byte Reload
	eor	r0, r1, r0
	strb	r0, [r4]
	add	sp, sp, #156
	pop	{r4, r5, r6, r7, r8, r9, r10, r11, pc}
.Laes_func_end42:
	.size	aes.ccm.message.put_tag, .Laes_func_end42-aes.ccm.message.put_tag
	.cantunwind
	.fnend
                                        @ -- End function
	.section	.text.aes.ccm.mode.encrypt,"ax",%progbits
	.p2align	2                               @ -- Begin function ccm::mode::encrypt::<#4f733d09d7f6c6b4>
	.type	aes.ccm.mode.encrypt,%function
	.code	32
aes.ccm.mode.encrypt: @ @aes.ccm.mode.encrypt
	.fnstart
@ %bb.0:                                @ %start
	.save	{r4, r5, r6, r7, r8, r9, r10, r11, lr}
	push	{r4, r5, r6, r7, r8, r9, r10, r11, lr}
	.pad	#100
	sub	sp, sp, #100
	ldr	r11, [sp, #176]
	mov	r6, #0
	ldr	r12, [sp, #180]
	subs	r4, r11, #4
	sbc	r7, r12, #0
	rsbs	r4, r4, #12
	rscs	r7, r7, #0
	blo	.Laes_BB43_3
@ %bb.1:                                @ %start
	ands	r7, r11, #1
	bne	.Laes_BB43_3
@ %bb.2:                                @ %after.1.i
	subs	r7, r2, #14
	mvn	r5, #6
	sbc	r4, r3, #0
	mov	r6, #1
	subs	r5, r7, r5
	mvn	lr, #0
	sbcs	r7, r4, lr
	bhs	.Laes_BB43_5
.Laes_BB43_3:                               @ %"ccm::formatting::check.exit.thread"
	mov	r4, #1
.Laes_BB43_4:                               @ %return.5
	mov	r0, r4
	mov	r1, r6
	add	sp, sp, #100
	pop	{r4, r5, r6, r7, r8, r9, r10, r11, pc}
.Laes_BB43_5:                               @ %after.15.i
	ldr	lr, [sp, #164]
	eor	r7, r2, #7
	mov	r10, #0
	mov	r4, #0
	orrs	r7, r7, r3
	beq	.Laes_BB43_7
@ %bb.6:                                @ %"ccm::formatting::check.exit"
	mov	r7, #120
	ldr	r5, [sp, #160]
	eor	r7, r7, r2, lsl #3
	subs	r4, r7, #32
	lsr	r6, lr, r7
	lsr	r5, r5, r7
	rsb	r7, r7, #32
	movwpl	r6, #0
	orr	r7, r5, lr, lsl r7
	lsrpl	r7, lr, r4
	orrs	r4, r7, r6
	movwne	r4, #1
	mov	r6, #2
	bne	.Laes_BB43_4
.Laes_BB43_7:                               @ %arm.1
	ldr	r6, [sp, #144]
	add	r9, sp, #48
	ldr	r5, [sp, #152]
	ldr	r8, [sp, #136]
	ldr	r7, [sp, #160]
	str	r6, [sp, #16]
	ldr	r6, [sp, #148]
	str	r7, [sp, #32]
	mov	r7, r2
	str	r6, [sp, #20]
	mov	r6, r0
	str	r5, [sp, #24]
	mov	r5, lr
	str	r8, [sp, #8]
	mov	r8, r4
	str	lr, [sp, #36]
	mov	r4, r1
	str	r9, [sp, #40]
	stm	sp, {r11, r12}
	bl	aes.ccm.message.put_tag
	ldr	r0, [sp, #168]
	mov	r1, r9
	mov	r2, r11
	bl	memcpy
	add	r0, sp, #80
	mov	r1, r4
	mov	r2, r7
	str	r10, [sp, #88]
	str	r10, [sp, #80]
	str	r10, [sp, #84]
	str	r10, [sp, #91]
	bl	memcpy
	add	r2, sp, #80
	rsb	r0, r7, #14
	strb	r0, [sp, #64]
	ldm	r2, {r0, r1, r2}
	str	r0, [sp, #65]
	ldr	r0, [sp, #160]
	str	r0, [sp, #8]
	str	r1, [sp, #69]
	add	r1, sp, #64
	ldr	r0, [sp, #152]
	ldr	r3, [sp, #91]
	str	r2, [sp, #73]
	mov	r2, #16
	str	r3, [sp, #76]
	mov	r3, #0
	str	r0, [sp]
	mov	r0, r6
	str	r5, [sp, #12]
	bl	aes.aes_ctr.add_in_batches.add_keystream
	mov	r4, r8
	mov	r6, #0
	mov	r0, r4
	mov	r1, r6
	add	sp, sp, #100
	pop	{r4, r5, r6, r7, r8, r9, r10, r11, pc}
.Laes_func_end43:
	.size	aes.ccm.mode.encrypt, .Laes_func_end43-aes.ccm.mode.encrypt
	.cantunwind
	.fnend
                                        @ -- End function
	.section	.text.aes.fotsgure_aes_version,"ax",%progbits
	export_aes	fotsgure_aes_version
	.p2align	2
	.type	aes.fotsgure_aes_version,%function
	.code	32
aes.fotsgure_aes_version:                   @ @aes.fotsgure_aes_version
	.fnstart
@ %bb.0:
	mov	r0, #400
	mov	r1, #0
	mov	r2, #0
	mov	r3, #0
	mov	r12, #0
	bx	lr
.Laes_func_end44:
	.size	aes.fotsgure_aes_version, .Laes_func_end44-aes.fotsgure_aes_version
	.cantunwind
	.fnend
                                        @ -- End function
	.section	.text.aes.fotsgure_aes_set_key,"ax",%progbits
	export_aes	fotsgure_aes_set_key
	.p2align	2
	.type	aes.fotsgure_aes_set_key,%function
	.code	32
aes.fotsgure_aes_set_key:                   @ @aes.fotsgure_aes_set_key
	.fnstart
@ %bb.0:
	.save	{r4, r5, r6, r7, r8, lr}
	push	{r4, r5, r6, r7, r8, lr}
	cmp	r2, #32
	mov	r4, r2
	bicne	r2, r4, #8
	cmpne	r2, #16
	bne	.Laes_BB45_2
@ %bb.1:                                @ %join.3.i.i
	add	r8, r0, #4
	mov	r6, r0
	mov	r7, r1
	mov	r1, #0
	mov	r0, r8
	mov	r2, #480
	mov	r5, #0
	bl	memset
	cmp	r7, #0
	mov	r0, r8
	addeq	r7, r7, #4096
	mov	r2, r4
	mov	r3, #0
	mov	r1, r7
	bl	aes.aes_narrow.word_room.expand_words
	bl	aes.aes_cipher.zeroize.stack.wipe_stack.768
	mov	r0, r5
	str	r4, [r6]
	mov	r1, #0
	mov	r2, #0
	mov	r3, #0
	mov	r12, #0
	mov	lr, r1
	pop	{r4, r5, r6, r7, r8, pc}
.Laes_BB45_2:                               @ %then.1.i.i
	mov	r1, #0
	mov	r2, #484
	bl	memset
	mov	r0, #1
	mov	r1, #0
	mov	r2, #0
	mov	r3, #0
	mov	r12, #0
	mov	lr, r1
	pop	{r4, r5, r6, r7, r8, pc}
.Laes_func_end45:
	.size	aes.fotsgure_aes_set_key, .Laes_func_end45-aes.fotsgure_aes_set_key
	.cantunwind
	.fnend
                                        @ -- End function
	.section	.text.aes.fotsgure_aes_key_length,"ax",%progbits
	export_aes	fotsgure_aes_key_length
	.p2align	2
	.type	aes.fotsgure_aes_key_length,%function
	.code	32
aes.fotsgure_aes_key_length:                @ @aes.fotsgure_aes_key_length
	.fnstart
@ %bb.0:
	ldr	r1, [r0]
	bic	r0, r1, #8
	cmp	r0, #16
	mov	r0, r1
	movne	r0, #0
	cmp	r1, #32
	moveq	r0, r1
	mov	r1, #0
	mov	r2, #0
	mov	r3, #0
	mov	r12, #0
	bx	lr
.Laes_func_end46:
	.size	aes.fotsgure_aes_key_length, .Laes_func_end46-aes.fotsgure_aes_key_length
	.cantunwind
	.fnend
                                        @ -- End function
	.section	.text.aes.fotsgure_aes_wipe,"ax",%progbits
	export_aes	fotsgure_aes_wipe
	.p2align	2
	.type	aes.fotsgure_aes_wipe,%function
	.code	32
aes.fotsgure_aes_wipe:                      @ @aes.fotsgure_aes_wipe
	.fnstart
@ %bb.0:
	.save	{r4, lr}
	push	{r4, lr}
	mov	r1, #0
	mov	r2, #484
	mov	r4, r0
	bl	memset
	add	r0, r4, #4
	pop	{r4, lr}
	b	aes.aes_cipher.zeroize.elements.zeroize_elements.1
.Laes_func_end47:
	.size	aes.fotsgure_aes_wipe, .Laes_func_end47-aes.fotsgure_aes_wipe
	.cantunwind
	.fnend
                                        @ -- End function
	.section	.text.aes.fotsgure_aes_encrypt_blocks,"ax",%progbits
	export_aes	fotsgure_aes_encrypt_blocks
	.p2align	2
	.type	aes.fotsgure_aes_encrypt_blocks,%function
	.code	32
aes.fotsgure_aes_encrypt_blocks:            @ @aes.fotsgure_aes_encrypt_blocks
	.fnstart
@ %bb.0:
	.save	{r4, r5, r11, lr}
	push	{r4, r5, r11, lr}
	.pad	#16
	sub	sp, sp, #16
	mov	r4, r2
	ldr	r2, [r0]
	cmp	r2, #32
	bicne	r3, r2, #8
	movne	r5, #2
	cmpne	r3, #16
	bne	.Laes_BB48_2
@ %bb.1:                                @ %join.3.i.i
	cmp	r1, #0
	mov	r3, #56
	addeq	r1, r1, #4096
	str	r1, [sp]
	lsr	r1, r2, #31
	adds	r2, r3, r2, lsl #1
	adc	r3, r1, #0
	add	r0, r0, #4
	mov	r5, #0
	strd	r4, r5, [sp, #8]
	bl	aes.aes_narrow.blocks.process_all_batches.1
	bl	aes.aes_cipher.zeroize.stack.wipe_stack.1024
.Laes_BB48_2:                               @ %wide_fotsgure_aes_encrypt_blocks.exit
	mov	r0, r5
	add	sp, sp, #16
	mov	r1, #0
	mov	r2, #0
	mov	r3, #0
	mov	r12, #0
	mov	lr, r1
	pop	{r4, r5, r11, pc}
.Laes_func_end48:
	.size	aes.fotsgure_aes_encrypt_blocks, .Laes_func_end48-aes.fotsgure_aes_encrypt_blocks
	.cantunwind
	.fnend
                                        @ -- End function
	.section	.text.aes.fotsgure_aes_decrypt_blocks,"ax",%progbits
	export_aes	fotsgure_aes_decrypt_blocks
	.p2align	2
	.type	aes.fotsgure_aes_decrypt_blocks,%function
	.code	32
aes.fotsgure_aes_decrypt_blocks:            @ @aes.fotsgure_aes_decrypt_blocks
	.fnstart
@ %bb.0:
	.save	{r4, r5, r11, lr}
	push	{r4, r5, r11, lr}
	.pad	#16
	sub	sp, sp, #16
	mov	r4, r2
	ldr	r2, [r0]
	cmp	r2, #32
	bicne	r3, r2, #8
	movne	r5, #2
	cmpne	r3, #16
	bne	.Laes_BB49_2
@ %bb.1:                                @ %join.3.i.i
	cmp	r1, #0
	mov	r3, #56
	addeq	r1, r1, #4096
	str	r1, [sp]
	lsr	r1, r2, #31
	adds	r2, r3, r2, lsl #1
	adc	r3, r1, #0
	add	r0, r0, #4
	mov	r5, #0
	strd	r4, r5, [sp, #8]
	bl	aes.aes_narrow.blocks.process_all_batches.2
	bl	aes.aes_cipher.zeroize.stack.wipe_stack.1024
.Laes_BB49_2:                               @ %wide_fotsgure_aes_decrypt_blocks.exit
	mov	r0, r5
	add	sp, sp, #16
	mov	r1, #0
	mov	r2, #0
	mov	r3, #0
	mov	r12, #0
	mov	lr, r1
	pop	{r4, r5, r11, pc}
.Laes_func_end49:
	.size	aes.fotsgure_aes_decrypt_blocks, .Laes_func_end49-aes.fotsgure_aes_decrypt_blocks
	.cantunwind
	.fnend
                                        @ -- End function
	.section	.text.aes.fotsgure_aes_encrypt_blocks_to,"ax",%progbits
	export_aes	fotsgure_aes_encrypt_blocks_to
	.p2align	2
	.type	aes.fotsgure_aes_encrypt_blocks_to,%function
	.code	32
aes.fotsgure_aes_encrypt_blocks_to:         @ @aes.fotsgure_aes_encrypt_blocks_to
	.fnstart
@ %bb.0:
	.save	{r4, r5, r6, r7, r8, lr}
	push	{r4, r5, r6, r7, r8, lr}
	.pad	#16
	sub	sp, sp, #16
	cmp	r3, #0
	mov	r8, r2
	addeq	r3, r3, #4096
	cmp	r1, #0
	addeq	r1, r1, #4096
	ldr	r2, [sp, #40]
	mov	r5, #3
	cmp	r8, r2
	bne	.Laes_BB50_8
@ %bb.1:                                @ %join.3.i.i
	ldr	r2, [r0]
	mov	r5, #2
	sub	r2, r2, #16
	cmp	r2, #16
	bhi	.Laes_BB50_8
@ %bb.2:                                @ %join.3.i.i
	movw	r6, #257
	mov	r12, #1
	movt	r6, #1
	tst	r6, r12, lsl r2
	beq	.Laes_BB50_8
@ %bb.3:                                @ %join.6.i.i
	subs	r6, r3, r1
	mov	r2, #0
	sbc	r5, r2, #0
	subs	r6, r6, r8, lsl #4
	sbcs	r6, r5, r8, lsr #28
	bhs	.Laes_BB50_6
@ %bb.4:                                @ %join.7.i.i.i.i.i.i.i.i.preheader
	mov	r5, #0
.Laes_BB50_5:                               @ %join.7.i.i.i.i.i.i.i.i
                                        @ =>This Inner Loop Header: Depth=1
	mov	r6, r1
	mov	r7, r3
	ldr	r4, [r6, r5, lsl #4]!
	ldr	r12, [r6, #4]
	ldr	lr, [r6, #8]
	ldr	r6, [r6, #12]
	str	r4, [r7, r5, lsl #4]!
	adds	r5, r5, #1
	adc	r2, r2, #0
	str	r6, [r7, #12]
	str	lr, [r7, #8]
	str	r12, [r7, #4]
	subs	r7, r5, r8
	sbcs	r7, r2, #0
	blo	.Laes_BB50_5
	b	.Laes_BB50_7
.Laes_BB50_6:                               @ %apart.2.i.i.i.i.i.i.i.i
	mov	r5, r0
	lsl	r2, r8, #4
	mov	r0, r3
	mov	r6, r3
	bl	memmove
	mov	r3, r6
	mov	r0, r5
.Laes_BB50_7:                               @ %"core::slice::edits::slice+T::copy_from_slice::<#b9e87c6de6ee7501>.exit.i.i"
	ldr	r1, [r0], #4
	mov	r2, #56
	str	r3, [sp]
	mov	r5, #0
	str	r8, [sp, #8]
	lsr	r3, r1, #31
	adds	r2, r2, r1, lsl #1
	adc	r3, r3, #0
	str	r5, [sp, #12]
	bl	aes.aes_narrow.blocks.process_all_batches.1
	bl	aes.aes_cipher.zeroize.stack.wipe_stack.1024
.Laes_BB50_8:                               @ %wide_fotsgure_aes_encrypt_blocks_to.exit
	mov	r0, r5
	add	sp, sp, #16
	mov	r1, #0
	mov	r2, #0
	mov	r3, #0
	mov	r12, #0
	mov	lr, r1
	pop	{r4, r5, r6, r7, r8, pc}
.Laes_func_end50:
	.size	aes.fotsgure_aes_encrypt_blocks_to, .Laes_func_end50-aes.fotsgure_aes_encrypt_blocks_to
	.cantunwind
	.fnend
                                        @ -- End function
	.section	.text.aes.fotsgure_aes_decrypt_blocks_to,"ax",%progbits
	export_aes	fotsgure_aes_decrypt_blocks_to
	.p2align	2
	.type	aes.fotsgure_aes_decrypt_blocks_to,%function
	.code	32
aes.fotsgure_aes_decrypt_blocks_to:         @ @aes.fotsgure_aes_decrypt_blocks_to
	.fnstart
@ %bb.0:
	.save	{r4, r5, r6, r7, r8, lr}
	push	{r4, r5, r6, r7, r8, lr}
	.pad	#16
	sub	sp, sp, #16
	cmp	r3, #0
	mov	r8, r2
	addeq	r3, r3, #4096
	cmp	r1, #0
	addeq	r1, r1, #4096
	ldr	r2, [sp, #40]
	mov	r5, #3
	cmp	r8, r2
	bne	.Laes_BB51_8
@ %bb.1:                                @ %join.3.i.i
	ldr	r2, [r0]
	mov	r5, #2
	sub	r2, r2, #16
	cmp	r2, #16
	bhi	.Laes_BB51_8
@ %bb.2:                                @ %join.3.i.i
	movw	r6, #257
	mov	r12, #1
	movt	r6, #1
	tst	r6, r12, lsl r2
	beq	.Laes_BB51_8
@ %bb.3:                                @ %join.6.i.i
	subs	r6, r3, r1
	mov	r2, #0
	sbc	r5, r2, #0
	subs	r6, r6, r8, lsl #4
	sbcs	r6, r5, r8, lsr #28
	bhs	.Laes_BB51_6
@ %bb.4:                                @ %join.7.i.i.i.i.i.i.i.i.preheader
	mov	r5, #0
.Laes_BB51_5:                               @ %join.7.i.i.i.i.i.i.i.i
                                        @ =>This Inner Loop Header: Depth=1
	mov	r6, r1
	mov	r7, r3
	ldr	r4, [r6, r5, lsl #4]!
	ldr	r12, [r6, #4]
	ldr	lr, [r6, #8]
	ldr	r6, [r6, #12]
	str	r4, [r7, r5, lsl #4]!
	adds	r5, r5, #1
	adc	r2, r2, #0
	str	r6, [r7, #12]
	str	lr, [r7, #8]
	str	r12, [r7, #4]
	subs	r7, r5, r8
	sbcs	r7, r2, #0
	blo	.Laes_BB51_5
	b	.Laes_BB51_7
.Laes_BB51_6:                               @ %apart.2.i.i.i.i.i.i.i.i
	mov	r5, r0
	lsl	r2, r8, #4
	mov	r0, r3
	mov	r6, r3
	bl	memmove
	mov	r3, r6
	mov	r0, r5
.Laes_BB51_7:                               @ %"core::slice::edits::slice+T::copy_from_slice::<#b9e87c6de6ee7501>.exit.i.i"
	ldr	r1, [r0], #4
	mov	r2, #56
	str	r3, [sp]
	mov	r5, #0
	str	r8, [sp, #8]
	lsr	r3, r1, #31
	adds	r2, r2, r1, lsl #1
	adc	r3, r3, #0
	str	r5, [sp, #12]
	bl	aes.aes_narrow.blocks.process_all_batches.2
	bl	aes.aes_cipher.zeroize.stack.wipe_stack.1024
.Laes_BB51_8:                               @ %wide_fotsgure_aes_decrypt_blocks_to.exit
	mov	r0, r5
	add	sp, sp, #16
	mov	r1, #0
	mov	r2, #0
	mov	r3, #0
	mov	r12, #0
	mov	lr, r1
	pop	{r4, r5, r6, r7, r8, pc}
.Laes_func_end51:
	.size	aes.fotsgure_aes_decrypt_blocks_to, .Laes_func_end51-aes.fotsgure_aes_decrypt_blocks_to
	.cantunwind
	.fnend
                                        @ -- End function
	.section	.text.aes.fotsgure_aes_add_keystream,"ax",%progbits
	export_aes	fotsgure_aes_add_keystream
	.p2align	2
	.type	aes.fotsgure_aes_add_keystream,%function
	.code	32
aes.fotsgure_aes_add_keystream:             @ @aes.fotsgure_aes_add_keystream
	.fnstart
@ %bb.0:
	.save	{r4, r5, r6, r7, r8, r10, r11, lr}
	push	{r4, r5, r6, r7, r8, r10, r11, lr}
	.pad	#32
	sub	sp, sp, #32
	mov	r5, r1
	cmp	r2, #0
	ldr	r12, [r5, #16]!
	mov	r10, r3
	addeq	r2, r2, #4096
	mov	r7, #0
	ldr	r3, [r5, #4]
	adds	r4, r12, r10
	adcs	r4, r3, #0
	adcs	r7, r7, #0
	mov	r7, #4
	bne	.Laes_BB52_4
@ %bb.1:                                @ %join.3.i.i.i
	ldr	r4, [r0]
	mov	r7, #2
	sub	lr, r4, #16
	cmp	lr, #16
	bhi	.Laes_BB52_4
@ %bb.2:                                @ %join.3.i.i.i
	movw	r6, #257
	mov	r8, #1
	movt	r6, #1
	tst	r6, r8, lsl lr
	beq	.Laes_BB52_4
@ %bb.3:                                @ %then.1.i.i
	mov	r6, #56
	add	r0, r0, #4
	adds	r6, r6, r4, lsl #1
	str	r0, [sp, #16]
	lsr	r0, r4, #31
	mov	r7, #0
	adc	r0, r0, #0
	str	r0, [sp, #28]
	add	r0, sp, #16
	str	r2, [sp]
	mov	r2, r12
	str	r10, [sp, #8]
	str	r7, [sp, #20]
	str	r6, [sp, #24]
	str	r7, [sp, #12]
	bl	aes.aes_ctr.add_in_batches.add_keystream
	ldrd	r0, r1, [r5]
	adds	r0, r0, r10
	adc	r1, r1, #0
	strd	r0, r1, [r5]
.Laes_BB52_4:                               @ %wide_fotsgure_aes_add_keystream.exit
	mov	r0, r7
	add	sp, sp, #32
	mov	r1, #0
	mov	r2, #0
	mov	r3, #0
	mov	r12, #0
	mov	lr, r1
	pop	{r4, r5, r6, r7, r8, r10, r11, pc}
.Laes_func_end52:
	.size	aes.fotsgure_aes_add_keystream, .Laes_func_end52-aes.fotsgure_aes_add_keystream
	.cantunwind
	.fnend
                                        @ -- End function
	.section	.text.aes.fotsgure_aes_add_keystream_to,"ax",%progbits
	export_aes	fotsgure_aes_add_keystream_to
	.p2align	2
	.type	aes.fotsgure_aes_add_keystream_to,%function
	.code	32
aes.fotsgure_aes_add_keystream_to:          @ @aes.fotsgure_aes_add_keystream_to
	.fnstart
@ %bb.0:
	.save	{r4, r5, r6, r7, r8, r9, r10, lr}
	push	{r4, r5, r6, r7, r8, r9, r10, lr}
	.pad	#32
	sub	sp, sp, #32
	ldr	r4, [sp, #64]
	mov	r6, r3
	ldr	r3, [sp, #68]
	mov	r7, #3
	cmp	r4, #0
	addeq	r4, r4, #4096
	cmp	r2, #0
	addeq	r2, r2, #4096
	cmp	r6, r3
	bne	.Laes_BB53_12
@ %bb.1:                                @ %join.3.i.i
	mov	r10, r1
	mov	r12, #0
	ldr	r3, [r10, #16]!
	ldr	r7, [r10, #4]
	adds	r3, r3, r6
	adcs	r3, r7, #0
	mov	r7, #4
	adcs	r3, r12, #0
	bne	.Laes_BB53_12
@ %bb.2:                                @ %join.3.i.i.i
	ldr	r3, [r0]
	mov	r7, #2
	sub	r3, r3, #16
	cmp	r3, #16
	bhi	.Laes_BB53_12
@ %bb.3:                                @ %join.3.i.i.i
	movw	r8, #257
	mov	r12, #1
	movt	r8, #1
	tst	r8, r12, lsl r3
	beq	.Laes_BB53_12
@ %bb.4:                                @ %join.6.i.i
	subs	r7, r4, r2
	mov	r3, #0
	sbc	r12, r3, #0
	subs	r7, r7, r6
	sbcs	r7, r12, #0
	bhs	.Laes_BB53_7
@ %bb.5:                                @ %join.7.i.i.i.i.i.i.i.i.preheader
	mov	r7, #0
.Laes_BB53_6:                               @ %join.7.i.i.i.i.i.i.i.i
                                        @ =>This Inner Loop Header: Depth=1
	ldrb	r5, [r2, r7]
	strb	r5, [r4, r7]
	adds	r7, r7, #1
	adc	r3, r3, #0
	subs	r5, r7, r6
	sbcs	r5, r3, #0
	blo	.Laes_BB53_6
	b	.Laes_BB53_8
.Laes_BB53_7:                               @ %apart.2.i.i.i.i.i.i.i.i
	mov	r9, r0
	mov	r7, r1
	mov	r1, r2
	mov	r0, r4
	mov	r2, r6
	bl	memmove
	mov	r0, r9
	mov	r1, r7
.Laes_BB53_8:                               @ %"core::slice::edits::slice+T::copy_from_slice::<i8,20'core::clone::U8Clone{}>.exit.i.i"
	ldm	r10, {r2, r9}
	mov	r3, #0
	adds	r7, r2, r6
	adcs	r7, r9, #0
	mov	r7, #4
	adcs	r3, r3, #0
	bne	.Laes_BB53_12
@ %bb.9:                                @ %join.3.i.i.i.i
	ldr	r3, [r0]
	mov	r7, #2
	sub	r12, r3, #16
	cmp	r12, #16
	bhi	.Laes_BB53_12
@ %bb.10:                               @ %join.3.i.i.i.i
	mov	r5, #1
	tst	r8, r5, lsl r12
	beq	.Laes_BB53_12
@ %bb.11:                               @ %then.1.i.i.i
	mov	r5, #56
	add	r0, r0, #4
	adds	r5, r5, r3, lsl #1
	str	r0, [sp, #16]
	lsr	r0, r3, #31
	mov	r7, #0
	adc	r0, r0, #0
	str	r0, [sp, #28]
	add	r0, sp, #16
	mov	r3, r9
	str	r7, [sp, #20]
	str	r5, [sp, #24]
	strd	r6, r7, [sp, #8]
	str	r4, [sp]
	bl	aes.aes_ctr.add_in_batches.add_keystream
	ldrd	r0, r1, [r10]
	adds	r0, r0, r6
	adc	r1, r1, #0
	strd	r0, r1, [r10]
.Laes_BB53_12:                              @ %wide_fotsgure_aes_add_keystream_to.exit
	mov	r0, r7
	add	sp, sp, #32
	mov	r1, #0
	mov	r2, #0
	mov	r3, #0
	mov	r12, #0
	mov	lr, r1
	pop	{r4, r5, r6, r7, r8, r9, r10, pc}
.Laes_func_end53:
	.size	aes.fotsgure_aes_add_keystream_to, .Laes_func_end53-aes.fotsgure_aes_add_keystream_to
	.cantunwind
	.fnend
                                        @ -- End function
	.section	.text.aes.fotsgure_aes_cbc_encrypt,"ax",%progbits
	export_aes	fotsgure_aes_cbc_encrypt
	.p2align	2
	.type	aes.fotsgure_aes_cbc_encrypt,%function
	.code	32
aes.fotsgure_aes_cbc_encrypt:               @ @aes.fotsgure_aes_cbc_encrypt
	.fnstart
@ %bb.0:
	.save	{r4, r5, r6, r7, r8, r9, r10, r11, lr}
	push	{r4, r5, r6, r7, r8, r9, r10, r11, lr}
	.pad	#84
	sub	sp, sp, #84
	ldr	r5, [r0]
	cmp	r2, #0
	addeq	r2, r2, #4096
	cmp	r5, #32
	bicne	r6, r5, #8
	movne	r7, #2
	cmpne	r6, #16
	bne	.Laes_BB54_5
@ %bb.1:                                @ %join.3.i.i
	ldr	r7, [r1, #8]
	ldr	r12, [r1]
	ldr	r4, [r1, #4]
	ldr	r6, [r1, #12]
	str	r1, [sp, #16]                   @ 4-byte Spill
	lsr	r1, r5, #31
	str	r7, [sp, #72]
	mov	r7, #56
	adds	r5, r7, r5, lsl #1
	str	r6, [sp, #76]
	adc	r6, r1, #0
	cmp	r3, #0
	str	r2, [sp, #32]                   @ 4-byte Spill
	str	r4, [sp, #68]
	str	r12, [sp, #64]
	str	r3, [sp, #28]                   @ 4-byte Spill
	beq	.Laes_BB54_4
@ %bb.2:                                @ %join.5.lr.ph.i.i.i
	add	r0, r0, #4
	str	r0, [sp, #20]                   @ 4-byte Spill
	ldrb	r0, [sp, #79]
	mov	r7, #0
	str	r0, [sp, #60]                   @ 4-byte Spill
	mov	r8, #0
	ldrb	r0, [sp, #78]
	str	r0, [sp, #56]                   @ 4-byte Spill
	ldrb	r0, [sp, #77]
	str	r0, [sp, #52]                   @ 4-byte Spill
	ldrb	r0, [sp, #76]
	str	r0, [sp, #48]                   @ 4-byte Spill
	ldrb	r0, [sp, #75]
	str	r0, [sp, #44]                   @ 4-byte Spill
	ldrb	r0, [sp, #74]
	str	r0, [sp, #40]                   @ 4-byte Spill
	ldrb	r0, [sp, #73]
	str	r0, [sp, #36]                   @ 4-byte Spill
	ldrb	r0, [sp, #72]
	ldrb	r1, [sp, #71]
	ldrb	r10, [sp, #70]
	ldrb	r12, [sp, #69]
	ldrb	r11, [sp, #68]
	ldrb	r3, [sp, #64]
	ldrb	r9, [sp, #65]
	ldrb	lr, [sp, #66]
	ldrb	r2, [sp, #67]
	str	r6, [sp, #24]                   @ 4-byte Spill
.Laes_BB54_3:                               @ %join.5.i.i.i
                                        @ =>This Inner Loop Header: Depth=1
	ldr	r4, [sp, #32]                   @ 4-byte Reload
	mov	r6, r5
	ldrb	r5, [r4, r7, lsl #4]!
	eor	r3, r5, r3
	mov	r5, r6
	strb	r3, [sp, #64]
	ldrb	r3, [r4, #15]
	ldr	r6, [sp, #60]                   @ 4-byte Reload
	eor	r3, r3, r6
	strb	r3, [sp, #79]
	ldrb	r3, [r4, #14]
	ldr	r6, [sp, #56]                   @ 4-byte Reload
	eor	r3, r3, r6
	strb	r3, [sp, #78]
	ldrb	r3, [r4, #13]
	ldr	r6, [sp, #52]                   @ 4-byte Reload
	eor	r3, r3, r6
	strb	r3, [sp, #77]
	ldrb	r3, [r4, #12]
	ldr	r6, [sp, #48]                   @ 4-byte Reload
	eor	r3, r3, r6
	strb	r3, [sp, #76]
	ldrb	r3, [r4, #11]
	ldr	r6, [sp, #44]                   @ 4-byte Reload
	eor	r3, r3, r6
	strb	r3, [sp, #75]
	ldrb	r3, [r4, #10]
	ldr	r6, [sp, #40]                   @ 4-byte Reload
	eor	r3, r3, r6
	strb	r3, [sp, #74]
	ldrb	r3, [r4, #9]
	ldr	r6, [sp, #36]                   @ 4-byte Reload
	eor	r3, r3, r6
	strb	r3, [sp, #73]
	ldrb	r3, [r4, #8]
	ldrb	r6, [r4, #4]
	eor	r0, r3, r0
	strb	r0, [sp, #72]
	ldrb	r0, [r4, #7]
	eor	r6, r6, r11
	ldrb	r3, [r4, #3]
	eor	r0, r0, r1
	strb	r0, [sp, #71]
	ldrb	r0, [r4, #6]
	eor	r2, r3, r2
	ldrb	r1, [r4, #2]
	eor	r0, r0, r10
	strb	r0, [sp, #70]
	ldrb	r0, [r4, #5]
	eor	r1, r1, lr
	strb	r1, [sp, #66]
	mov	r1, #0
	eor	r0, r0, r12
	strb	r0, [sp, #69]
	ldrb	r0, [r4, #1]
	strb	r6, [sp, #68]
	eor	r0, r0, r9
	strb	r0, [sp, #65]
	mov	r0, #1
	ldr	r6, [sp, #24]                   @ 4-byte Reload
	strd	r0, r1, [sp, #8]
	add	r0, sp, #64
	str	r0, [sp]
	ldr	r0, [sp, #20]                   @ 4-byte Reload
	mov	r3, r6
	strb	r2, [sp, #67]
	mov	r2, r5
	bl	aes.aes_narrow.blocks.process_all_batches.1
	bl	aes.aes_cipher.zeroize.stack.wipe_stack.1024
	ldrb	r0, [sp, #79]
	adds	r7, r7, #1
	str	r0, [sp, #60]                   @ 4-byte Spill
	adc	r8, r8, #0
	strb	r0, [r4, #15]
	ldrb	r0, [sp, #78]
	str	r0, [sp, #56]                   @ 4-byte Spill
	strb	r0, [r4, #14]
	ldrb	r0, [sp, #77]
	str	r0, [sp, #52]                   @ 4-byte Spill
	strb	r0, [r4, #13]
	ldrb	r0, [sp, #76]
	str	r0, [sp, #48]                   @ 4-byte Spill
	strb	r0, [r4, #12]
	ldrb	r0, [sp, #75]
	str	r0, [sp, #44]                   @ 4-byte Spill
	strb	r0, [r4, #11]
	ldrb	r0, [sp, #74]
	str	r0, [sp, #40]                   @ 4-byte Spill
	strb	r0, [r4, #10]
	ldrb	r0, [sp, #73]
	ldrb	r1, [sp, #71]
	ldrb	r10, [sp, #70]
	ldrb	r12, [sp, #69]
	ldrb	r11, [sp, #68]
	ldrb	r3, [sp, #64]
	ldrb	r9, [sp, #65]
	ldrb	lr, [sp, #66]
	ldrb	r2, [sp, #67]
	str	r0, [sp, #36]                   @ 4-byte Spill
	strb	r0, [r4, #9]
	ldrb	r0, [sp, #72]
	strb	r0, [r4, #8]
	strb	r1, [r4, #7]
	strb	r10, [r4, #6]
	strb	r12, [r4, #5]
	strb	r11, [r4, #4]
	strb	r2, [r4, #3]
	strb	lr, [r4, #2]
	strb	r9, [r4, #1]
	strb	r3, [r4]
	ldr	r4, [sp, #28]                   @ 4-byte Reload
	subs	r4, r7, r4
	sbcs	r4, r8, #0
	blo	.Laes_BB54_3
.Laes_BB54_4:                               @ %"cbc::chain::Cbc::encrypt_blocks::<#4f733d09d7f6c6b4>.exit.i.i"
	add	r3, sp, #64
	ldr	r7, [sp, #16]                   @ 4-byte Reload
	ldm	r3, {r0, r1, r2, r3}
	str	r3, [r7, #12]
	str	r2, [r7, #8]
	str	r1, [r7, #4]
	str	r0, [r7]
	mov	r7, #0
.Laes_BB54_5:                               @ %wide_fotsgure_aes_cbc_encrypt.exit
	mov	r0, r7
	add	sp, sp, #84
	mov	r1, #0
	mov	r2, #0
	mov	r3, #0
	mov	r12, #0
	mov	lr, r1
	pop	{r4, r5, r6, r7, r8, r9, r10, r11, pc}
.Laes_func_end54:
	.size	aes.fotsgure_aes_cbc_encrypt, .Laes_func_end54-aes.fotsgure_aes_cbc_encrypt
	.cantunwind
	.fnend
                                        @ -- End function
	.section	.text.aes.fotsgure_aes_cbc_decrypt,"ax",%progbits
	export_aes	fotsgure_aes_cbc_decrypt
	.p2align	2
	.type	aes.fotsgure_aes_cbc_decrypt,%function
	.code	32
aes.fotsgure_aes_cbc_decrypt:               @ @aes.fotsgure_aes_cbc_decrypt
	.fnstart
@ %bb.0:
	.save	{r4, r5, r6, lr}
	push	{r4, r5, r6, lr}
	.pad	#40
	sub	sp, sp, #40
	ldr	r4, [r0]
	cmp	r4, #32
	bicne	r12, r4, #8
	movne	r5, #2
	cmpne	r12, #16
	bne	.Laes_BB55_2
@ %bb.1:                                @ %join.3.i.i
	cmp	r2, #0
	str	r3, [sp, #32]
	addeq	r2, r2, #4096
	str	r2, [sp, #24]
	add	r2, sp, #8
	ldr	r12, [r1]
	ldr	lr, [r1, #4]
	add	r0, r0, #4
	ldr	r3, [r1, #8]
	mov	r5, #0
	ldr	r6, [r1, #12]
	str	r2, [sp]
	mov	r2, #56
	str	r3, [sp, #16]
	lsr	r3, r4, #31
	adds	r2, r2, r4, lsl #1
	str	r5, [sp, #36]
	adc	r3, r3, #0
	str	r5, [sp, #28]
	str	r6, [sp, #20]
	mov	r4, r1
	str	lr, [sp, #12]
	str	r12, [sp, #8]
	bl	aes.aes_narrow.borrowed_words.call_to_decrypt
	bl	aes.aes_cipher.zeroize.stack.wipe_stack.2032
	add	r3, sp, #8
	ldm	r3, {r0, r1, r2, r3}
	str	r3, [r4, #12]
	str	r2, [r4, #8]
	str	r1, [r4, #4]
	str	r0, [r4]
.Laes_BB55_2:                               @ %wide_fotsgure_aes_cbc_decrypt.exit
	mov	r0, r5
	add	sp, sp, #40
	mov	r1, #0
	mov	r2, #0
	mov	r3, #0
	mov	r12, #0
	mov	lr, r1
	pop	{r4, r5, r6, pc}
.Laes_func_end55:
	.size	aes.fotsgure_aes_cbc_decrypt, .Laes_func_end55-aes.fotsgure_aes_cbc_decrypt
	.cantunwind
	.fnend
                                        @ -- End function
	.section	.text.aes.fotsgure_aes_wrap,"ax",%progbits
	export_aes	fotsgure_aes_wrap
	.p2align	2
	.type	aes.fotsgure_aes_wrap,%function
	.code	32
aes.fotsgure_aes_wrap:                      @ @aes.fotsgure_aes_wrap
	.fnstart
@ %bb.0:
	.save	{r4, r5, r6, lr}
	push	{r4, r5, r6, lr}
	.pad	#32
	sub	sp, sp, #32
	ldr	r12, [r0]
	cmp	r12, #32
	bicne	lr, r12, #8
	movne	r4, #2
	cmpne	lr, #16
	bne	.Laes_BB56_2
@ %bb.1:                                @ %join.3.i.i
	mov	r4, #56
	add	r0, r0, #4
	adds	r4, r4, r12, lsl #1
	str	r0, [sp, #16]
	lsr	r0, r12, #31
	ldr	r6, [sp, #48]
	adc	r0, r0, #0
	cmp	r3, #0
	addeq	r3, r3, #4096
	cmp	r1, #0
	str	r0, [sp, #28]
	addeq	r1, r1, #4096
	add	r0, sp, #16
	mov	r5, #0
	str	r3, [sp]
	mov	r3, #0
	str	r6, [sp, #8]
	str	r5, [sp, #20]
	str	r4, [sp, #24]
	str	r5, [sp, #12]
	bl	aes.key_wrap.wrapping.wrap
	uxtb	r4, r0
	cmp	r4, #0
	movwne	r4, #5
	bl	aes.aes_cipher.zeroize.stack.wipe_stack.512
.Laes_BB56_2:                               @ %wide_fotsgure_aes_wrap.exit
	mov	r0, r4
	add	sp, sp, #32
	mov	r1, #0
	mov	r2, #0
	mov	r3, #0
	mov	r12, #0
	mov	lr, r1
	pop	{r4, r5, r6, pc}
.Laes_func_end56:
	.size	aes.fotsgure_aes_wrap, .Laes_func_end56-aes.fotsgure_aes_wrap
	.cantunwind
	.fnend
                                        @ -- End function
	.section	.text.aes.fotsgure_aes_unwrap,"ax",%progbits
	export_aes	fotsgure_aes_unwrap
	.p2align	2
	.type	aes.fotsgure_aes_unwrap,%function
	.code	32
aes.fotsgure_aes_unwrap:                    @ @aes.fotsgure_aes_unwrap
	.fnstart
@ %bb.0:
	.save	{r4, r5, r6, lr}
	push	{r4, r5, r6, lr}
	.pad	#32
	sub	sp, sp, #32
	ldr	r12, [r0]
	cmp	r12, #32
	bicne	lr, r12, #8
	movne	r4, #2
	cmpne	lr, #16
	bne	.Laes_BB57_2
@ %bb.1:                                @ %join.3.i.i
	mov	r4, #56
	add	r0, r0, #4
	adds	r4, r4, r12, lsl #1
	str	r0, [sp, #16]
	lsr	r0, r12, #31
	ldr	r6, [sp, #48]
	adc	r0, r0, #0
	cmp	r3, #0
	addeq	r3, r3, #4096
	cmp	r1, #0
	str	r0, [sp, #28]
	addeq	r1, r1, #4096
	add	r0, sp, #16
	mov	r5, #0
	str	r3, [sp]
	mov	r3, #0
	str	r6, [sp, #8]
	str	r5, [sp, #20]
	str	r4, [sp, #24]
	str	r5, [sp, #12]
	bl	aes.key_wrap.wrapping.unwrap
	mov	r4, #6
	tst	r1, #255
	movweq	r4, #5
	uxtb	r0, r0
	cmp	r0, #0
	moveq	r4, r0
	bl	aes.aes_cipher.zeroize.stack.wipe_stack.512
.Laes_BB57_2:                               @ %wide_fotsgure_aes_unwrap.exit
	mov	r0, r4
	add	sp, sp, #32
	mov	r1, #0
	mov	r2, #0
	mov	r3, #0
	mov	r12, #0
	mov	lr, r1
	pop	{r4, r5, r6, pc}
.Laes_func_end57:
	.size	aes.fotsgure_aes_unwrap, .Laes_func_end57-aes.fotsgure_aes_unwrap
	.cantunwind
	.fnend
                                        @ -- End function
	.section	.text.aes.fotsgure_aes_wrap_padded,"ax",%progbits
	export_aes	fotsgure_aes_wrap_padded
	.p2align	2
	.type	aes.fotsgure_aes_wrap_padded,%function
	.code	32
aes.fotsgure_aes_wrap_padded:               @ @aes.fotsgure_aes_wrap_padded
	.fnstart
@ %bb.0:
	.save	{r4, r5, r6, lr}
	push	{r4, r5, r6, lr}
	.pad	#32
	sub	sp, sp, #32
	ldr	r12, [r0]
	cmp	r12, #32
	bicne	lr, r12, #8
	movne	r4, #2
	cmpne	lr, #16
	bne	.Laes_BB58_2
@ %bb.1:                                @ %join.3.i.i
	mov	r4, #56
	add	r0, r0, #4
	adds	r4, r4, r12, lsl #1
	str	r0, [sp, #16]
	lsr	r0, r12, #31
	ldr	r6, [sp, #48]
	adc	r0, r0, #0
	cmp	r3, #0
	addeq	r3, r3, #4096
	cmp	r1, #0
	str	r0, [sp, #28]
	addeq	r1, r1, #4096
	add	r0, sp, #16
	mov	r5, #0
	str	r3, [sp]
	mov	r3, #0
	str	r6, [sp, #8]
	str	r5, [sp, #20]
	str	r4, [sp, #24]
	str	r5, [sp, #12]
	bl	aes.key_wrap.padded.wrap_padded
	uxtb	r4, r0
	cmp	r4, #0
	movwne	r4, #5
	bl	aes.aes_cipher.zeroize.stack.wipe_stack.512
.Laes_BB58_2:                               @ %wide_fotsgure_aes_wrap_padded.exit
	mov	r0, r4
	add	sp, sp, #32
	mov	r1, #0
	mov	r2, #0
	mov	r3, #0
	mov	r12, #0
	mov	lr, r1
	pop	{r4, r5, r6, pc}
.Laes_func_end58:
	.size	aes.fotsgure_aes_wrap_padded, .Laes_func_end58-aes.fotsgure_aes_wrap_padded
	.cantunwind
	.fnend
                                        @ -- End function
	.section	.text.aes.fotsgure_aes_unwrap_padded,"ax",%progbits
	export_aes	fotsgure_aes_unwrap_padded
	.p2align	2
	.type	aes.fotsgure_aes_unwrap_padded,%function
	.code	32
aes.fotsgure_aes_unwrap_padded:             @ @aes.fotsgure_aes_unwrap_padded
	.fnstart
@ %bb.0:
	.save	{r4, r5, r6, r7, r8, lr}
	push	{r4, r5, r6, r7, r8, lr}
	.pad	#48
	sub	sp, sp, #48
	ldr	r4, [r0]
	mov	r5, #0
	ldr	r8, [sp, #76]
	cmp	r4, #32
	str	r5, [sp, #44]
	bicne	r6, r4, #8
	str	r5, [sp, #40]
	cmpne	r6, #16
	bne	.Laes_BB59_3
@ %bb.1:                                @ %join.3.i.i
	mov	r7, #56
	add	r0, r0, #4
	adds	r7, r7, r4, lsl #1
	str	r0, [sp, #24]
	lsr	r0, r4, #31
	ldr	r6, [sp, #72]
	adc	r0, r0, #0
	cmp	r3, #0
	addeq	r3, r3, #4096
	cmp	r1, #0
	str	r3, [sp, #8]
	addeq	r1, r1, #4096
	add	r3, sp, #24
	str	r0, [sp, #36]
	add	r0, sp, #40
	stm	sp, {r2, r5}
	mov	r2, r1
	mov	r1, r3
	str	r6, [sp, #16]
	str	r5, [sp, #28]
	str	r7, [sp, #32]
	str	r5, [sp, #20]
	bl	aes.key_wrap.padded.unwrap_padded
	bl	aes.aes_cipher.zeroize.stack.wipe_stack.512
	ldrb	r0, [sp, #40]
	cmp	r0, #0
	beq	.Laes_BB59_4
@ %bb.2:                                @ %arm.5.i.i
	ldrb	r1, [sp, #41]
	mov	r0, #6
	mov	r5, #0
	cmp	r1, #0
	movweq	r0, #5
	str	r5, [r8]
	add	sp, sp, #48
	mov	r1, #0
	mov	r2, #0
	mov	r3, #0
	mov	r12, #0
	mov	lr, r1
	pop	{r4, r5, r6, r7, r8, pc}
.Laes_BB59_3:
	mov	r0, #2
	str	r5, [r8]
	add	sp, sp, #48
	mov	r1, #0
	mov	r2, #0
	mov	r3, #0
	mov	r12, #0
	mov	lr, r1
	pop	{r4, r5, r6, r7, r8, pc}
.Laes_BB59_4:                               @ %arm.4.i.i
	mov	r0, #0
	ldr	r5, [sp, #44]
	str	r5, [r8]
	add	sp, sp, #48
	mov	r1, #0
	mov	r2, #0
	mov	r3, #0
	mov	r12, #0
	mov	lr, r1
	pop	{r4, r5, r6, r7, r8, pc}
.Laes_func_end59:
	.size	aes.fotsgure_aes_unwrap_padded, .Laes_func_end59-aes.fotsgure_aes_unwrap_padded
	.cantunwind
	.fnend
                                        @ -- End function
	.section	.text.aes.fotsgure_aes_cmac,"ax",%progbits
	export_aes	fotsgure_aes_cmac
	.p2align	2
	.type	aes.fotsgure_aes_cmac,%function
	.code	32
aes.fotsgure_aes_cmac:                      @ @aes.fotsgure_aes_cmac
	.fnstart
@ %bb.0:
	.save	{r4, r5, r6, lr}
	push	{r4, r5, r6, lr}
	.pad	#40
	sub	sp, sp, #40
	mov	r6, r2
	mov	r2, r1
	ldr	r1, [r0]
	mov	r4, r3
	cmp	r1, #32
	bicne	r3, r1, #8
	movne	r5, #2
	cmpne	r3, #16
	bne	.Laes_BB60_2
@ %bb.1:                                @ %join.3.i.i
	mov	r3, #56
	add	r0, r0, #4
	adds	r3, r3, r1, lsl #1
	str	r0, [sp, #8]
	lsr	r0, r1, #31
	add	r1, sp, #8
	adc	r0, r0, #0
	cmp	r2, #0
	str	r0, [sp, #20]
	addeq	r2, r2, #4096
	add	r0, sp, #24
	mov	r5, #0
	str	r6, [sp]
	str	r5, [sp, #12]
	str	r3, [sp, #16]
	str	r5, [sp, #4]
	bl	aes.cmac.tags.tag
	add	r3, sp, #24
	ldm	r3, {r0, r1, r2, r3}
	str	r3, [r4, #12]
	str	r2, [r4, #8]
	str	r1, [r4, #4]
	str	r0, [r4]
	bl	aes.aes_cipher.zeroize.stack.wipe_stack.768
.Laes_BB60_2:                               @ %wide_fotsgure_aes_cmac.exit
	mov	r0, r5
	add	sp, sp, #40
	mov	r1, #0
	mov	r2, #0
	mov	r3, #0
	mov	r12, #0
	mov	lr, r1
	pop	{r4, r5, r6, pc}
.Laes_func_end60:
	.size	aes.fotsgure_aes_cmac, .Laes_func_end60-aes.fotsgure_aes_cmac
	.cantunwind
	.fnend
                                        @ -- End function
	.section	.text.aes.fotsgure_aes_cmac_verify,"ax",%progbits
	export_aes	fotsgure_aes_cmac_verify
	.p2align	2
	.type	aes.fotsgure_aes_cmac_verify,%function
	.code	32
aes.fotsgure_aes_cmac_verify:               @ @aes.fotsgure_aes_cmac_verify
	.fnstart
@ %bb.0:
	.save	{r4, r6, r8, r9, r11, lr}
	push	{r4, r6, r8, r9, r11, lr}
	.pad	#32
	sub	sp, sp, #32
	cmp	r3, #0
	ldr	r12, [r0]
	addeq	r3, r3, #4096
	cmp	r1, #0
	addeq	r1, r1, #4096
	cmp	r12, #32
	bicne	r6, r12, #8
	movne	r4, #2
	cmpne	r6, #16
	bne	.Laes_BB61_3
@ %bb.1:                                @ %join.3.i.i
	ldr	r8, [sp, #56]
	mov	r4, #7
	sub	r6, r8, #4
	cmp	r6, #12
	bhi	.Laes_BB61_3
@ %bb.2:                                @ %join.6.i.i
	mov	r6, #56
	add	r0, r0, #4
	adds	r6, r6, r12, lsl #1
	str	r0, [sp, #16]
	lsr	r0, r12, #31
	mov	r9, #0
	adc	r0, r0, #0
	str	r0, [sp, #28]
	add	r0, sp, #16
	str	r3, [sp]
	mov	r3, #0
	str	r9, [sp, #20]
	str	r6, [sp, #24]
	strd	r8, r9, [sp, #8]
	bl	aes.cmac.tags.is_tag_start
	mov	r4, #6
	cmp	r0, #0
	movwne	r4, #0
	bl	aes.aes_cipher.zeroize.stack.wipe_stack.768
.Laes_BB61_3:                               @ %wide_fotsgure_aes_cmac_verify.exit
	mov	r0, r4
	add	sp, sp, #32
	mov	r1, #0
	mov	r2, #0
	mov	r3, #0
	mov	r12, #0
	mov	lr, r1
	pop	{r4, r6, r8, r9, r11, pc}
.Laes_func_end61:
	.size	aes.fotsgure_aes_cmac_verify, .Laes_func_end61-aes.fotsgure_aes_cmac_verify
	.cantunwind
	.fnend
                                        @ -- End function
	.section	.text.aes.fotsgure_aes_cmac_begin,"ax",%progbits
	export_aes	fotsgure_aes_cmac_begin
	.p2align	2
	.type	aes.fotsgure_aes_cmac_begin,%function
	.code	32
aes.fotsgure_aes_cmac_begin:                @ @aes.fotsgure_aes_cmac_begin
	.fnstart
@ %bb.0:
	.save	{r4, r5, r6, lr}
	push	{r4, r5, r6, lr}
	ldr	r0, [r0]
	mov	r5, #2
	sub	r0, r0, #16
	cmp	r0, #16
	bhi	.Laes_BB62_3
@ %bb.1:
	mov	r4, r1
	movw	r1, #257
	mov	r6, #1
	movt	r1, #1
	tst	r1, r6, lsl r0
	beq	.Laes_BB62_3
@ %bb.2:                                @ %join.3.i.i
	add	r0, r4, #8
	mov	r1, #0
	mov	r2, #40
	mov	r5, #0
	bl	memset
	str	r6, [r4]
	str	r5, [r4, #4]
.Laes_BB62_3:                               @ %wide_fotsgure_aes_cmac_begin.exit
	mov	r0, r5
	mov	r1, #0
	mov	r2, #0
	mov	r3, #0
	mov	r12, #0
	mov	lr, r1
	pop	{r4, r5, r6, pc}
.Laes_func_end62:
	.size	aes.fotsgure_aes_cmac_begin, .Laes_func_end62-aes.fotsgure_aes_cmac_begin
	.cantunwind
	.fnend
                                        @ -- End function
	.section	.text.aes.fotsgure_aes_cmac_update,"ax",%progbits
	export_aes	fotsgure_aes_cmac_update
	.p2align	2
	.type	aes.fotsgure_aes_cmac_update,%function
	.code	32
aes.fotsgure_aes_cmac_update:               @ @aes.fotsgure_aes_cmac_update
	.fnstart
@ %bb.0:
	.save	{r4, r6, r7, lr}
	push	{r4, r6, r7, lr}
	.pad	#24
	sub	sp, sp, #24
	mov	r6, r3
	ldr	r3, [r0]
	cmp	r2, #0
	addeq	r2, r2, #4096
	cmp	r3, #32
	bicne	r7, r3, #8
	movne	r4, #2
	cmpne	r7, #16
	bne	.Laes_BB63_4
@ %bb.1:                                @ %join.3.i.i
	mov	r4, #56
	add	r0, r0, #4
	adds	r4, r4, r3, lsl #1
	str	r0, [sp, #8]
	lsr	r0, r3, #31
	mov	r7, #0
	adc	r0, r0, #0
	str	r0, [sp, #20]
	ldm	r1, {r0, r3}
	eor	r0, r0, #1
	str	r4, [sp, #16]
	mov	r4, #10
	orrs	r0, r0, r3
	str	r7, [sp, #12]
	bne	.Laes_BB63_3
@ %bb.2:                                @ %join.3.i.i.i
	add	r0, r1, #8
	add	r1, sp, #8
	strd	r6, r7, [sp]
	bl	aes.cmac.chain_in_pieces.ChainInPieces.extend
	mov	r4, #0
.Laes_BB63_3:                               @ %"cmac::pieces::Message::update::<#4f733d09d7f6c6b4>.exit.i.i"
	bl	aes.aes_cipher.zeroize.stack.wipe_stack.768
.Laes_BB63_4:                               @ %wide_fotsgure_aes_cmac_update.exit
	mov	r0, r4
	add	sp, sp, #24
	mov	r1, #0
	mov	r2, #0
	mov	r3, #0
	mov	r12, #0
	mov	lr, r1
	pop	{r4, r6, r7, pc}
.Laes_func_end63:
	.size	aes.fotsgure_aes_cmac_update, .Laes_func_end63-aes.fotsgure_aes_cmac_update
	.cantunwind
	.fnend
                                        @ -- End function
	.section	.text.aes.fotsgure_aes_cmac_finish,"ax",%progbits
	export_aes	fotsgure_aes_cmac_finish
	.p2align	2
	.type	aes.fotsgure_aes_cmac_finish,%function
	.code	32
aes.fotsgure_aes_cmac_finish:               @ @aes.fotsgure_aes_cmac_finish
	.fnstart
@ %bb.0:
	.save	{r4, r5, r11, lr}
	push	{r4, r5, r11, lr}
	.pad	#40
	sub	sp, sp, #40
	ldr	r4, [r0]
	mov	r3, r0
	cmp	r4, #32
	bicne	r12, r4, #8
	movne	r0, #2
	cmpne	r12, #16
	bne	.Laes_BB64_3
@ %bb.1:                                @ %join.3.i.i
	mov	r0, #56
	mov	r12, #0
	adds	r0, r0, r4, lsl #1
	str	r0, [sp, #16]
	add	r0, r3, #4
	str	r0, [sp, #8]
	lsr	r0, r4, #31
	str	r12, [sp, #12]
	adc	r0, r0, #0
	str	r0, [sp, #20]
	ldm	r1, {r0, r3}
	eor	r0, r0, #1
	orrs	r0, r0, r3
	bne	.Laes_BB64_4
@ %bb.2:                                @ %arm.4.i.i
	ldr	r0, [r1, #8]
	mov	r4, #16
	ldr	r3, [r1, #12]
	add	lr, sp, #8
	cmp	r0, #16
	mov	r5, r2
	movhs	r0, r4
	cmp	r3, #0
	movne	r0, r4
	add	r3, r1, #32
	stm	sp, {r0, r12}
	add	r12, r1, #16
	add	r0, sp, #24
	mov	r4, r1
	mov	r1, lr
	mov	r2, r12
	bl	aes.cmac.tags.tag_at_end
	mov	r0, r4
	bl	aes.cmac.pieces.MessageZeroize.zeroize
	bl	aes.aes_cipher.zeroize.stack.wipe_stack.768
	add	r4, sp, #24
	mov	r0, #0
	ldm	r4, {r1, r2, r3, r4}
	str	r4, [r5, #12]
	str	r3, [r5, #8]
	str	r2, [r5, #4]
	str	r1, [r5]
.Laes_BB64_3:                               @ %wide_fotsgure_aes_cmac_finish.exit
	add	sp, sp, #40
	mov	r1, #0
	mov	r2, #0
	mov	r3, #0
	mov	r12, #0
	mov	lr, r1
	pop	{r4, r5, r11, pc}
.Laes_BB64_4:                               @ %"cmac::pieces::Message::finish::<#4f733d09d7f6c6b4>.exit.i.i"
	bl	aes.aes_cipher.zeroize.stack.wipe_stack.768
	mov	r0, #10
	add	sp, sp, #40
	mov	r1, #0
	mov	r2, #0
	mov	r3, #0
	mov	r12, #0
	mov	lr, r1
	pop	{r4, r5, r11, pc}
.Laes_func_end64:
	.size	aes.fotsgure_aes_cmac_finish, .Laes_func_end64-aes.fotsgure_aes_cmac_finish
	.cantunwind
	.fnend
                                        @ -- End function
	.section	.text.aes.fotsgure_aes_cmac_accept,"ax",%progbits
	export_aes	fotsgure_aes_cmac_accept
	.p2align	2
	.type	aes.fotsgure_aes_cmac_accept,%function
	.code	32
aes.fotsgure_aes_cmac_accept:               @ @aes.fotsgure_aes_cmac_accept
	.fnstart
@ %bb.0:
	.save	{r4, r6, r7, lr}
	push	{r4, r6, r7, lr}
	.pad	#24
	sub	sp, sp, #24
	ldr	r4, [r0]
	cmp	r2, #0
	addeq	r2, r2, #4096
	mov	r6, r3
	cmp	r4, #32
	bicne	r7, r4, #8
	movne	r3, #2
	cmpne	r7, #16
	bne	.Laes_BB65_6
@ %bb.1:                                @ %join.3.i.i
	sub	r7, r6, #4
	mov	r3, #7
	cmp	r7, #12
	bhi	.Laes_BB65_6
@ %bb.2:                                @ %join.6.i.i
	mov	r3, #56
	add	r0, r0, #4
	adds	r3, r3, r4, lsl #1
	str	r0, [sp, #8]
	lsr	r0, r4, #31
	str	r3, [sp, #16]
	adc	r0, r0, #0
	str	r0, [sp, #20]
	ldm	r1, {r0, r3}
	mov	r7, #0
	eor	r0, r0, #1
	str	r7, [sp, #12]
	orrs	r0, r0, r3
	mov	r3, #10
	bne	.Laes_BB65_5
@ %bb.3:                                @ %join.3.i.i.i
	add	r3, sp, #8
	mov	r0, r1
	mov	r4, r1
	strd	r6, r7, [sp]
	mov	r1, r3
	bl	aes.cmac.pieces.Message.is_tag_so_far
	mov	r3, #6
	cmp	r0, #0
	beq	.Laes_BB65_5
@ %bb.4:                                @ %join.7.i.i.i
	mov	r0, r4
	bl	aes.cmac.pieces.MessageZeroize.zeroize
	mov	r3, #0
.Laes_BB65_5:                               @ %"cmac::pieces::Message::accept::<#4f733d09d7f6c6b4>.exit.i.i"
	mov	r4, r3
	bl	aes.aes_cipher.zeroize.stack.wipe_stack.768
	mov	r3, r4
.Laes_BB65_6:                               @ %wide_fotsgure_aes_cmac_accept.exit
	mov	r0, r3
	add	sp, sp, #24
	mov	r1, #0
	mov	r2, #0
	mov	r3, #0
	mov	r12, #0
	mov	lr, r1
	pop	{r4, r6, r7, pc}
.Laes_func_end65:
	.size	aes.fotsgure_aes_cmac_accept, .Laes_func_end65-aes.fotsgure_aes_cmac_accept
	.cantunwind
	.fnend
                                        @ -- End function
	.section	.text.aes.fotsgure_aes_cmac_wipe,"ax",%progbits
	export_aes	fotsgure_aes_cmac_wipe
	.p2align	2
	.type	aes.fotsgure_aes_cmac_wipe,%function
	.code	32
aes.fotsgure_aes_cmac_wipe:                 @ @aes.fotsgure_aes_cmac_wipe
	.fnstart
@ %bb.0:
	.save	{r4, lr}
	push	{r4, lr}
	mov	r1, #0
	mov	r2, #48
	mov	r4, r0
	bl	memset
	mov	r0, r4
	pop	{r4, lr}
	b	aes.cmac.pieces.MessageZeroize.zeroize
.Laes_func_end66:
	.size	aes.fotsgure_aes_cmac_wipe, .Laes_func_end66-aes.fotsgure_aes_cmac_wipe
	.cantunwind
	.fnend
                                        @ -- End function
	.section	.text.aes.fotsgure_aes_ccm_seal,"ax",%progbits
	export_aes	fotsgure_aes_ccm_seal
	.p2align	2
	.type	aes.fotsgure_aes_ccm_seal,%function
	.code	32
aes.fotsgure_aes_ccm_seal:                  @ @aes.fotsgure_aes_ccm_seal
	.fnstart
@ %bb.0:
	.save	{r4, r5, r6, r7, r8, r9, r11, lr}
	push	{r4, r5, r6, r7, r8, r9, r11, lr}
	.pad	#64
	sub	sp, sp, #64
	ldr	r5, [r0]
	cmp	r5, #32
	bicne	r4, r5, #8
	movne	r7, #2
	cmpne	r4, #16
	bne	.Laes_BB67_2
@ %bb.1:                                @ %join.3.i.i
	mov	r6, #56
	add	r0, r0, #4
	ldr	r4, [sp, #108]
	adds	r6, r6, r5, lsl #1
	str	r0, [sp, #48]
	lsr	r0, r5, #31
	ldr	r9, [sp, #100]
	adc	r0, r0, #0
	cmp	r4, #0
	str	r0, [sp, #60]
	addeq	r4, r4, #4096
	cmp	r9, #0
	addeq	r9, r9, #4096
	cmp	r3, #0
	addeq	r3, r3, #4096
	cmp	r1, #0
	addeq	r1, r1, #4096
	add	r0, sp, #48
	mov	r7, #0
	ldr	r8, [sp, #112]
	ldr	r12, [sp, #104]
	ldr	lr, [sp, #96]
	str	r3, [sp]
	mov	r3, #0
	str	r8, [sp, #40]
	str	r7, [sp, #52]
	str	r6, [sp, #56]
	str	r7, [sp, #44]
	str	r12, [sp, #24]
	str	r7, [sp, #28]
	str	r4, [sp, #32]
	str	lr, [sp, #8]
	str	r7, [sp, #12]
	str	r9, [sp, #16]
	bl	aes.ccm.mode.encrypt
	mov	r5, r0
	mov	r4, r1
	bl	aes.aes_cipher.zeroize.stack.wipe_stack.1024
	tst	r5, #255
	movne	r0, #7
	uxtabne	r7, r0, r4
.Laes_BB67_2:                               @ %wide_fotsgure_aes_ccm_seal.exit
	mov	r0, r7
	add	sp, sp, #64
	mov	r1, #0
	mov	r2, #0
	mov	r3, #0
	mov	r12, #0
	mov	lr, r1
	pop	{r4, r5, r6, r7, r8, r9, r11, pc}
.Laes_func_end67:
	.size	aes.fotsgure_aes_ccm_seal, .Laes_func_end67-aes.fotsgure_aes_ccm_seal
	.cantunwind
	.fnend
                                        @ -- End function
	.section	.text.aes.fotsgure_aes_ccm_open,"ax",%progbits
	export_aes	fotsgure_aes_ccm_open
	.p2align	2
	.type	aes.fotsgure_aes_ccm_open,%function
	.code	32
aes.fotsgure_aes_ccm_open:                  @ @aes.fotsgure_aes_ccm_open
	.fnstart
@ %bb.0:
	.save	{r4, r5, r6, r7, r8, r9, r11, lr}
	push	{r4, r5, r6, r7, r8, r9, r11, lr}
	.pad	#80
	sub	sp, sp, #80
	ldr	r5, [r0]
	cmp	r5, #32
	bicne	r12, r5, #8
	movne	r7, #2
	cmpne	r12, #16
	bne	.Laes_BB68_3
@ %bb.1:                                @ %join.3.i.i
	mov	r4, #56
	add	r0, r0, #4
	ldr	r6, [sp, #124]
	adds	r4, r4, r5, lsl #1
	str	r0, [sp, #56]
	lsr	r0, r5, #31
	ldr	r9, [sp, #116]
	adc	r0, r0, #0
	cmp	r6, #0
	str	r0, [sp, #68]
	addeq	r6, r6, #4096
	cmp	r9, #0
	addeq	r9, r9, #4096
	cmp	r3, #0
	addeq	r3, r3, #4096
	cmp	r1, #0
	str	r3, [sp, #8]
	addeq	r1, r1, #4096
	add	r3, sp, #56
	add	r0, sp, #77
	mov	r7, #0
	ldr	r8, [sp, #128]
	ldr	r12, [sp, #120]
	ldr	lr, [sp, #112]
	stm	sp, {r2, r7}
	mov	r2, r1
	mov	r1, r3
	str	r8, [sp, #48]
	str	r7, [sp, #60]
	str	r4, [sp, #64]
	str	r7, [sp, #52]
	str	r12, [sp, #32]
	str	r7, [sp, #36]
	str	r6, [sp, #40]
	str	lr, [sp, #16]
	str	r7, [sp, #20]
	str	r9, [sp, #24]
	bl	aes.ccm.mode.decrypt
	bl	aes.aes_cipher.zeroize.stack.wipe_stack.1024
	ldrb	r0, [sp, #77]
	cmp	r0, #0
	beq	.Laes_BB68_3
@ %bb.2:                                @ %arm.5.i.i
	ldrb	r0, [sp, #78]
	mov	r7, #6
	cmp	r0, #0
	ldrbeq	r0, [sp, #79]
	addeq	r7, r0, #7
.Laes_BB68_3:                               @ %wide_fotsgure_aes_ccm_open.exit
	mov	r0, r7
	add	sp, sp, #80
	mov	r1, #0
	mov	r2, #0
	mov	r3, #0
	mov	r12, #0
	mov	lr, r1
	pop	{r4, r5, r6, r7, r8, r9, r11, pc}
.Laes_func_end68:
	.size	aes.fotsgure_aes_ccm_open, .Laes_func_end68-aes.fotsgure_aes_ccm_open
	.cantunwind
	.fnend
                                        @ -- End function
	.section	.text.aes.fotsgure_aes_cipher_round,"ax",%progbits
	export_aes	fotsgure_aes_cipher_round
	.p2align	2
	.type	aes.fotsgure_aes_cipher_round,%function
	.code	32
aes.fotsgure_aes_cipher_round:              @ @aes.fotsgure_aes_cipher_round
	.fnstart
@ %bb.0:
	.save	{r11, lr}
	push	{r11, lr}
	bl	aes.aes_c.single_rounds.round
	pop	{r11, lr}
	b	aes.aes_cipher.zeroize.stack.wipe_stack.512
.Laes_func_end69:
	.size	aes.fotsgure_aes_cipher_round, .Laes_func_end69-aes.fotsgure_aes_cipher_round
	.cantunwind
	.fnend
                                        @ -- End function
	.section	.text.aes.fotsgure_aes_equiv_inv_cipher_round,"ax",%progbits
	export_aes	fotsgure_aes_equiv_inv_cipher_round
	.p2align	2
	.type	aes.fotsgure_aes_equiv_inv_cipher_round,%function
	.code	32
aes.fotsgure_aes_equiv_inv_cipher_round:    @ @aes.fotsgure_aes_equiv_inv_cipher_round
	.fnstart
@ %bb.0:
	.save	{r11, lr}
	push	{r11, lr}
	bl	aes.aes_c.single_rounds.inverse_round
	pop	{r11, lr}
	b	aes.aes_cipher.zeroize.stack.wipe_stack.512
.Laes_func_end70:
	.size	aes.fotsgure_aes_equiv_inv_cipher_round, .Laes_func_end70-aes.fotsgure_aes_equiv_inv_cipher_round
	.cantunwind
	.fnend
                                        @ -- End function
	.section	.text.aes.fotsgure_aes_cipher_round_par,"ax",%progbits
	export_aes	fotsgure_aes_cipher_round_par
	.p2align	2
	.type	aes.fotsgure_aes_cipher_round_par,%function
	.code	32
aes.fotsgure_aes_cipher_round_par:          @ @aes.fotsgure_aes_cipher_round_par
	.fnstart
@ %bb.0:
	.save	{r11, lr}
	push	{r11, lr}
	bl	aes.aes_c.single_rounds.rounds
	pop	{r11, lr}
	b	aes.aes_cipher.zeroize.stack.wipe_stack.512
.Laes_func_end71:
	.size	aes.fotsgure_aes_cipher_round_par, .Laes_func_end71-aes.fotsgure_aes_cipher_round_par
	.cantunwind
	.fnend
                                        @ -- End function
	.section	.text.aes.fotsgure_aes_equiv_inv_cipher_round_par,"ax",%progbits
	export_aes	fotsgure_aes_equiv_inv_cipher_round_par
	.p2align	2
	.type	aes.fotsgure_aes_equiv_inv_cipher_round_par,%function
	.code	32
aes.fotsgure_aes_equiv_inv_cipher_round_par: @ @aes.fotsgure_aes_equiv_inv_cipher_round_par
	.fnstart
@ %bb.0:
	.save	{r11, lr}
	push	{r11, lr}
	bl	aes.aes_c.single_rounds.inverse_rounds
	pop	{r11, lr}
	b	aes.aes_cipher.zeroize.stack.wipe_stack.512
.Laes_func_end72:
	.size	aes.fotsgure_aes_equiv_inv_cipher_round_par, .Laes_func_end72-aes.fotsgure_aes_equiv_inv_cipher_round_par
	.cantunwind
	.fnend
                                        @ -- End function
	.section	.text.aes.fotsgure_aes_mix_columns,"ax",%progbits
	export_aes	fotsgure_aes_mix_columns
	.p2align	2
	.type	aes.fotsgure_aes_mix_columns,%function
	.code	32
aes.fotsgure_aes_mix_columns:               @ @aes.fotsgure_aes_mix_columns
	.fnstart
@ %bb.0:
	.save	{r11, lr}
	push	{r11, lr}
	bl	aes.aes_c.single_rounds.mixed
	pop	{r11, lr}
	b	aes.aes_cipher.zeroize.stack.wipe_stack.512
.Laes_func_end73:
	.size	aes.fotsgure_aes_mix_columns, .Laes_func_end73-aes.fotsgure_aes_mix_columns
	.cantunwind
	.fnend
                                        @ -- End function
	.section	.text.aes.fotsgure_aes_inv_mix_columns,"ax",%progbits
	export_aes	fotsgure_aes_inv_mix_columns
	.p2align	2
	.type	aes.fotsgure_aes_inv_mix_columns,%function
	.code	32
aes.fotsgure_aes_inv_mix_columns:           @ @aes.fotsgure_aes_inv_mix_columns
	.fnstart
@ %bb.0:
	.save	{r11, lr}
	push	{r11, lr}
	bl	aes.aes_c.single_rounds.inverse_mixed
	pop	{r11, lr}
	b	aes.aes_cipher.zeroize.stack.wipe_stack.512
.Laes_func_end74:
	.size	aes.fotsgure_aes_inv_mix_columns, .Laes_func_end74-aes.fotsgure_aes_inv_mix_columns
	.cantunwind
	.fnend
                                        @ -- End function
	.section	.text.aes.fotsgure_aes_encrypt_blocks_with,"ax",%progbits
	export_aes	fotsgure_aes_encrypt_blocks_with
	.p2align	2
	.type	aes.fotsgure_aes_encrypt_blocks_with,%function
	.code	32
aes.fotsgure_aes_encrypt_blocks_with:       @ @aes.fotsgure_aes_encrypt_blocks_with
	.fnstart
@ %bb.0:
	.save	{r4, r5, r6, r7, r8, r9, r11, lr}
	push	{r4, r5, r6, r7, r8, r9, r11, lr}
	.pad	#504
	sub	sp, sp, #504
	cmp	r1, #32
	mov	r8, r3
	mov	r5, r2
	mov	r4, r1
	mov	r7, r0
	bicne	r0, r4, #8
	movne	r9, #1
	cmpne	r0, #16
	bne	.Laes_BB75_2
@ %bb.1:                                @ %join.3.i.i
	add	r6, sp, #16
	mov	r1, #0
	mov	r2, #484
	mov	r9, #0
	mov	r0, r6
	bl	memset
	cmp	r7, #0
	orr	r6, r6, #4
	addeq	r7, r7, #4096
	mov	r2, r4
	mov	r0, r6
	mov	r3, #0
	mov	r1, r7
	bl	aes.aes_narrow.word_room.expand_words
	bl	aes.aes_cipher.zeroize.stack.wipe_stack.768
	cmp	r5, #0
	mov	r1, #56
	addeq	r5, r5, #4096
	adds	r2, r1, r4, lsl #1
	lsr	r0, r4, #31
	adc	r3, r0, #0
	mov	r0, r6
	str	r4, [sp, #16]
	strd	r8, r9, [sp, #8]
	str	r5, [sp]
	bl	aes.aes_narrow.blocks.process_all_batches.1
	bl	aes.aes_cipher.zeroize.stack.wipe_stack.1024
	mov	r0, r6
	str	r9, [sp, #16]
	bl	aes.aes_cipher.zeroize.elements.zeroize_elements.1
.Laes_BB75_2:                               @ %wide_fotsgure_aes_encrypt_blocks_with.exit
	mov	r0, r9
	add	sp, sp, #504
	mov	r1, #0
	mov	r2, #0
	mov	r3, #0
	mov	r12, #0
	mov	lr, r1
	pop	{r4, r5, r6, r7, r8, r9, r11, pc}
.Laes_func_end75:
	.size	aes.fotsgure_aes_encrypt_blocks_with, .Laes_func_end75-aes.fotsgure_aes_encrypt_blocks_with
	.cantunwind
	.fnend
                                        @ -- End function
	.section	.text.aes.fotsgure_aes_decrypt_blocks_with,"ax",%progbits
	export_aes	fotsgure_aes_decrypt_blocks_with
	.p2align	2
	.type	aes.fotsgure_aes_decrypt_blocks_with,%function
	.code	32
aes.fotsgure_aes_decrypt_blocks_with:       @ @aes.fotsgure_aes_decrypt_blocks_with
	.fnstart
@ %bb.0:
	.save	{r4, r5, r6, r7, r8, r10, r11, lr}
	push	{r4, r5, r6, r7, r8, r10, r11, lr}
	.pad	#504
	sub	sp, sp, #504
	mov	r5, r2
	cmp	r2, #0
	mov	r7, r0
	mov	r0, #0
	addeq	r5, r5, #4096
	cmp	r1, #32
	mov	r10, r3
	mov	r4, r1
	str	r0, [sp, #20]
	bicne	r0, r4, #8
	movne	r6, #1
	cmpne	r0, #16
	bne	.Laes_BB76_4
@ %bb.1:                                @ %join.3.i.i
	add	r0, sp, #20
	mov	r1, #0
	add	r8, r0, #4
	add	r0, r0, #36
	mov	r2, #448
	mov	r11, #0
	bl	memset
	cmp	r7, #0
	mov	r0, r8
	addeq	r7, r7, #4096
	mov	r2, r4
	mov	r3, #0
	mov	r1, r7
	bl	aes.aes_narrow.word_room.expand_words
	bl	aes.aes_cipher.zeroize.stack.wipe_stack.768
	cmp	r4, #32
	str	r4, [sp, #20]
	andne	r0, r4, #48
	movne	r6, #2
	cmpne	r0, #16
	bne	.Laes_BB76_3
@ %bb.2:                                @ %join.3.i15.i.i
	mov	r1, #56
	adds	r2, r1, r4, lsl #1
	lsr	r0, r4, #31
	adc	r3, r0, #0
	mov	r0, r8
	strd	r10, r11, [sp, #8]
	str	r5, [sp]
	bl	aes.aes_narrow.blocks.process_all_batches.2
	bl	aes.aes_cipher.zeroize.stack.wipe_stack.1024
	mov	r6, #0
.Laes_BB76_3:                               @ %"aes_c::blocks::fotsgure_aes_decrypt_blocks.exit.i.i"
	mov	r0, #0
	str	r0, [sp, #20]
	mov	r0, r8
	bl	aes.aes_cipher.zeroize.elements.zeroize_elements.1
.Laes_BB76_4:                               @ %wide_fotsgure_aes_decrypt_blocks_with.exit
	mov	r0, r6
	add	sp, sp, #504
	mov	r1, #0
	mov	r2, #0
	mov	r3, #0
	mov	r12, #0
	mov	lr, r1
	pop	{r4, r5, r6, r7, r8, r10, r11, pc}
.Laes_func_end76:
	.size	aes.fotsgure_aes_decrypt_blocks_with, .Laes_func_end76-aes.fotsgure_aes_decrypt_blocks_with
	.cantunwind
	.fnend
                                        @ -- End function
	.section	.text.aes.fotsgure_aes_add_keystream_with,"ax",%progbits
	export_aes	fotsgure_aes_add_keystream_with
	.p2align	2
	.type	aes.fotsgure_aes_add_keystream_with,%function
	.code	32
aes.fotsgure_aes_add_keystream_with:        @ @aes.fotsgure_aes_add_keystream_with
	.fnstart
@ %bb.0:
	.save	{r4, r5, r6, r7, r8, r9, r10, r11, lr}
	push	{r4, r5, r6, r7, r8, r9, r10, r11, lr}
	.pad	#524
	sub	sp, sp, #524
	cmp	r3, #0
	addeq	r3, r3, #4096
	cmp	r0, #0
	addeq	r0, r0, #4096
	cmp	r1, #32
	bicne	r7, r1, #8
	movne	r5, #1
	cmpne	r7, #16
	bne	.Laes_BB77_3
@ %bb.1:                                @ %join.3.i.i
	mov	r6, r2
	ldr	r10, [sp, #560]
	ldr	r7, [r6, #16]!
	mov	r11, #0
	ldr	r5, [r6, #4]
	adds	r7, r7, r10
	adcs	r7, r5, #0
	mov	r5, #4
	adcs	r7, r11, #0
	bne	.Laes_BB77_3
@ %bb.2:                                @ %join.6.i.i
	add	r4, sp, #40
	mov	r5, r0
	mov	r7, r1
	str	r2, [sp, #20]                   @ 4-byte Spill
	mov	r0, r4
	mov	r1, #0
	mov	r2, #484
	mov	r9, r3
	bl	memset
	orr	r4, r4, #4
	mov	r1, r5
	mov	r2, r7
	mov	r3, #0
	mov	r0, r4
	bl	aes.aes_narrow.word_room.expand_words
	mov	r1, #56
	adds	r5, r1, r7, lsl #1
	lsr	r0, r7, #31
	adc	r8, r0, #0
	bl	aes.aes_cipher.zeroize.stack.wipe_stack.768
	ldrd	r2, r3, [r6]
	add	r0, sp, #24
	ldr	r1, [sp, #20]                   @ 4-byte Reload
	str	r8, [sp, #36]
	str	r5, [sp, #32]
	str	r11, [sp, #28]
	str	r4, [sp, #24]
	str	r7, [sp, #40]
	strd	r10, r11, [sp, #8]
	str	r9, [sp]
	bl	aes.aes_ctr.add_in_batches.add_keystream
	ldrd	r0, r1, [r6]
	str	r11, [sp, #40]
	adds	r0, r0, r10
	adc	r1, r1, #0
	strd	r0, r1, [r6]
	mov	r0, r4
	bl	aes.aes_cipher.zeroize.elements.zeroize_elements.1
	mov	r5, #0
.Laes_BB77_3:                               @ %wide_fotsgure_aes_add_keystream_with.exit
	mov	r0, r5
	add	sp, sp, #524
	mov	r1, #0
	mov	r2, #0
	mov	r3, #0
	mov	r12, #0
	mov	lr, r1
	pop	{r4, r5, r6, r7, r8, r9, r10, r11, pc}
.Laes_func_end77:
	.size	aes.fotsgure_aes_add_keystream_with, .Laes_func_end77-aes.fotsgure_aes_add_keystream_with
	.cantunwind
	.fnend
                                        @ -- End function
	.type	.Laes_static.0,%object              @ @static.0
	.section	.rodata..Laes_static.0,"a",%progbits
.Laes_static.0:
	.ascii	"\001\002\004\b\020 @\200\0336"
	.size	.Laes_static.0, 10

	.type	.Laes_static.2,%object              @ @static.2
	.section	.rodata.cst16,"aM",%progbits,16
.Laes_static.2:
	.zero	16,166
	.size	.Laes_static.2, 16

	.ident	"rattle logic=dac8208d650f15bf3e2dc313a14fa4c783a3acf887bdfab66e1714b038d9e11b"
	.section	".note.GNU-stack","",%progbits

	.section	.note.fotsgure,"",%note
	.p2align	2, 0x0
	.long	9, 112, 1
	.asciz	"Fotsgure"
	.p2align	2, 0x0
	.asciz	"fotsgure_aes 0.4.0, arm/aes.s, sources SHA-256 f3fecc818c73814a93835f06896045f67fddc8c102490795e0e19679064b46a4"
	.p2align	2, 0x0
