@ Made by tools/dist from the proved crate aes_c; BUILD says from what. Don't edit it.
/* A Rust crate defines in_rust; for x86-64, a static library of both builds defines chosen, and choose_*.c calls these names. */
	.macro	export_aes_v6m name
	.ifdef	in_rust
	.globl	aes_v6m.\name
	.hidden	aes_v6m.\name
	.else
	.globl	\name
	.set	\name, aes_v6m.\name
	.endif
	.endm
	.syntax	unified
	.file	"rattle"
	.section	.text.aes_v6m.aes_narrow.word_room.expand_words,"ax",%progbits
	.p2align	2                               @ -- Begin function aes_narrow::word_room::expand_words::<#6af90bfc14753d47>
	.type	aes_v6m.aes_narrow.word_room.expand_words,%function
	.code	16
	.thumb_func
aes_v6m.aes_narrow.word_room.expand_words: @ @aes_v6m.aes_narrow.word_room.expand_words
	.fnstart
@ %bb.0:                                @ %start
	.save	{r4, r5, r6, r7, lr}
	push	{r4, r5, r6, r7, lr}
	.pad	#276
	sub	sp, #276
	str	r3, [sp, #8]                    @ 4-byte Spill
	mov	r4, r0
	movs	r0, #3
	cmp	r2, #24
	str	r4, [sp, #220]                  @ 4-byte Spill
	str	r0, [sp, #164]                  @ 4-byte Spill
	str	r2, [sp, #4]                    @ 4-byte Spill
	bne	.Laes_v6m_BB0_1
	b	.Laes_v6m_BB0_9
.Laes_v6m_BB0_1:                                @ %start
	cmp	r2, #16
	beq	.Laes_v6m_BB0_2
	bl	.Laes_v6m_BB0_22
.Laes_v6m_BB0_2:                                @ %then.1.i160
	add	r0, sp, #244
	bl	aes_v6m.aes_planes.soft.word.word32.U32Word.in_every_slot
	ldr	r2, [sp, #244]
	ldr	r6, [sp, #248]
	ldr	r0, [sp, #252]
	str	r0, [sp, #240]                  @ 4-byte Spill
	ldr	r3, [sp, #256]
	ldr	r5, [sp, #260]
	ldr	r0, [sp, #264]
	ldr	r1, [sp, #268]
	ldr	r7, [sp, #272]
	str	r2, [sp, #236]                  @ 4-byte Spill
	str	r2, [r4]
	str	r6, [sp, #208]                  @ 4-byte Spill
	str	r6, [r4, #4]
	ldr	r6, [sp, #240]                  @ 4-byte Reload
	str	r6, [r4, #8]
	str	r3, [r4, #12]
	str	r5, [sp, #228]                  @ 4-byte Spill
	str	r5, [r4, #16]
	str	r0, [r4, #20]
	str	r1, [r4, #24]
	str	r7, [sp, #180]                  @ 4-byte Spill
	str	r7, [r4, #28]
	movs	r2, #0
	str	r2, [sp, #184]                  @ 4-byte Spill
	str	r2, [sp, #104]                  @ 4-byte Spill
	mov	r7, r2
	mov	r4, r6
.Laes_v6m_BB0_3:                                @ %join.5.i.i161
                                        @ =>This Inner Loop Header: Depth=1
	str	r2, [sp, #128]                  @ 4-byte Spill
	str	r7, [sp, #132]                  @ 4-byte Spill
	ldr	r2, [sp, #228]                  @ 4-byte Reload
	str	r4, [sp, #240]                  @ 4-byte Spill
	eors	r2, r4
	mov	r4, r2
	ldr	r5, [sp, #180]                  @ 4-byte Reload
	mov	r2, r5
	str	r5, [sp, #180]                  @ 4-byte Spill
	ldr	r6, [sp, #208]                  @ 4-byte Reload
	eors	r2, r6
	str	r2, [sp, #140]                  @ 4-byte Spill
	mov	r7, r2
	eors	r7, r4
	str	r4, [sp, #192]                  @ 4-byte Spill
	str	r7, [sp, #200]                  @ 4-byte Spill
	eors	r3, r7
	mov	r2, r3
	ldr	r7, [sp, #240]                  @ 4-byte Reload
	eors	r2, r7
	str	r2, [sp, #136]                  @ 4-byte Spill
	eors	r0, r1
	mov	r7, r2
	eors	r7, r0
	str	r7, [sp, #216]                  @ 4-byte Spill
	eors	r3, r1
	ldr	r2, [sp, #228]                  @ 4-byte Reload
	eors	r5, r2
	mov	r2, r3
	eors	r2, r5
	str	r2, [sp, #224]                  @ 4-byte Spill
	str	r5, [sp, #148]                  @ 4-byte Spill
	mov	r1, r2
	eors	r1, r7
	str	r1, [sp, #168]                  @ 4-byte Spill
	mov	r7, r1
	ands	r7, r4
	mov	r4, r2
	ands	r4, r5
	eors	r7, r4
	str	r7, [sp, #212]                  @ 4-byte Spill
	mov	r5, r2
	eors	r5, r0
	ldr	r1, [sp, #236]                  @ 4-byte Reload
	eors	r0, r1
	eors	r6, r0
	str	r6, [sp, #208]                  @ 4-byte Spill
	ands	r6, r0
	str	r5, [sp, #196]                  @ 4-byte Spill
	eors	r6, r5
	ldr	r1, [sp, #140]                  @ 4-byte Reload
	ands	r5, r1
	eors	r6, r5
	eors	r6, r1
	eors	r6, r7
	str	r6, [sp, #232]                  @ 4-byte Spill
	ldr	r2, [sp, #240]                  @ 4-byte Reload
	ldr	r7, [sp, #180]                  @ 4-byte Reload
	eors	r2, r7
	str	r2, [sp, #240]                  @ 4-byte Spill
	ldr	r6, [sp, #216]                  @ 4-byte Reload
	ands	r6, r2
	eors	r6, r4
	str	r6, [sp, #188]                  @ 4-byte Spill
	ldr	r2, [sp, #224]                  @ 4-byte Reload
	ldr	r1, [sp, #236]                  @ 4-byte Reload
	eors	r2, r1
	str	r2, [sp, #116]                  @ 4-byte Spill
	mov	r1, r0
	eors	r1, r7
	str	r1, [sp, #172]                  @ 4-byte Spill
	ands	r2, r1
	ldr	r1, [sp, #196]                  @ 4-byte Reload
	eors	r2, r1
	eors	r2, r5
	eors	r2, r7
	eors	r2, r6
	mov	r1, r2
	ldr	r6, [sp, #232]                  @ 4-byte Reload
	eors	r1, r6
	str	r1, [sp, #204]                  @ 4-byte Spill
	ldr	r5, [sp, #136]                  @ 4-byte Reload
	mov	r7, r5
	ldr	r1, [sp, #200]                  @ 4-byte Reload
	ands	r7, r1
	ldr	r4, [sp, #208]                  @ 4-byte Reload
	ldr	r1, [sp, #240]                  @ 4-byte Reload
	eors	r4, r1
	str	r4, [sp, #156]                  @ 4-byte Spill
	ldr	r1, [sp, #236]                  @ 4-byte Reload
	eors	r5, r1
	str	r0, [sp, #176]                  @ 4-byte Spill
	str	r5, [sp, #124]                  @ 4-byte Spill
	ands	r5, r4
	eors	r5, r3
	eors	r5, r7
	ldr	r3, [sp, #212]                  @ 4-byte Reload
	eors	r5, r3
	mov	r3, r6
	ands	r3, r5
	ldr	r4, [sp, #228]                  @ 4-byte Reload
	eors	r4, r0
	str	r4, [sp, #228]                  @ 4-byte Spill
	ands	r4, r1
	ldr	r0, [sp, #240]                  @ 4-byte Reload
	eors	r4, r0
	ldr	r0, [sp, #216]                  @ 4-byte Reload
	eors	r4, r0
	eors	r4, r7
	ldr	r0, [sp, #188]                  @ 4-byte Reload
	eors	r4, r0
	mov	r7, r3
	eors	r7, r4
	ldr	r0, [sp, #204]                  @ 4-byte Reload
	ands	r7, r0
	mov	r1, r7
	eors	r1, r2
	eors	r7, r3
	ands	r7, r2
	eors	r6, r7
	str	r6, [sp, #232]                  @ 4-byte Spill
	eors	r6, r1
	str	r1, [sp, #108]                  @ 4-byte Spill
	str	r6, [sp, #204]                  @ 4-byte Spill
	eors	r5, r4
	eors	r3, r2
	eors	r7, r3
	ands	r3, r5
	eors	r3, r4
	ands	r7, r3
	eors	r7, r5
	mov	r4, r7
	eors	r4, r6
	str	r4, [sp, #144]                  @ 4-byte Spill
	mov	r0, r3
	eors	r0, r1
	eors	r4, r0
	mov	r6, r0
	ldr	r2, [sp, #168]                  @ 4-byte Reload
	ands	r2, r4
	ldr	r0, [sp, #176]                  @ 4-byte Reload
	ands	r0, r7
	mov	r5, r7
	eors	r5, r3
	str	r5, [sp, #152]                  @ 4-byte Spill
	ldr	r1, [sp, #196]                  @ 4-byte Reload
	ands	r1, r5
	str	r1, [sp, #196]                  @ 4-byte Spill
	eors	r0, r1
	str	r0, [sp, #176]                  @ 4-byte Spill
	eors	r2, r0
	str	r2, [sp, #168]                  @ 4-byte Spill
	ldr	r1, [sp, #224]                  @ 4-byte Reload
	ands	r1, r6
	eors	r1, r2
	mov	r0, r1
	str	r1, [sp, #224]                  @ 4-byte Spill
	ldr	r1, .Laes_v6m_CPI0_11
	ldr	r5, [sp, #184]                  @ 4-byte Reload
	ldrb	r1, [r1, r5]
	str	r1, [sp, #212]                  @ 4-byte Spill
	str	r5, [sp, #184]                  @ 4-byte Spill
	lsrs	r2, r1, #1
	movs	r1, #64
	str	r1, [sp, #188]                  @ 4-byte Spill
	ands	r2, r1
	ldr	r1, [sp, #164]                  @ 4-byte Reload
	lsls	r1, r1, #8
	str	r1, [sp, #160]                  @ 4-byte Spill
	muls	r2, r1, r2
	eors	r2, r0
	ldr	r0, [sp, #192]                  @ 4-byte Reload
	ands	r4, r0
	ldr	r0, [sp, #148]                  @ 4-byte Reload
	ands	r6, r0
	str	r6, [sp, #120]                  @ 4-byte Spill
	eors	r4, r6
	ldr	r0, [sp, #204]                  @ 4-byte Reload
	ldr	r6, [sp, #156]                  @ 4-byte Reload
	ands	r6, r0
	eors	r6, r4
	str	r6, [sp, #156]                  @ 4-byte Spill
	ldr	r0, [sp, #200]                  @ 4-byte Reload
	ldr	r1, [sp, #232]                  @ 4-byte Reload
	ands	r0, r1
	eors	r0, r6
	str	r0, [sp, #200]                  @ 4-byte Spill
	eors	r2, r0
	movs	r0, #14
	str	r0, [sp, #192]                  @ 4-byte Spill
	rors	r2, r0
	ldr	r1, .Laes_v6m_CPI0_12
	ands	r2, r1
	lsls	r0, r5, #5
	str	r0, [sp, #112]                  @ 4-byte Spill
	ldr	r1, [sp, #220]                  @ 4-byte Reload
	adds	r0, r1, r0
	ldr	r1, [r0, #28]
	str	r0, [sp, #148]                  @ 4-byte Spill
	eors	r1, r2
	lsls	r2, r1, #2
	ldr	r5, .Laes_v6m_CPI0_13
	ands	r2, r5
	eors	r2, r1
	lsls	r5, r2, #4
	ldr	r1, .Laes_v6m_CPI0_14
	ands	r5, r1
	eors	r5, r2
	str	r5, [sp, #180]                  @ 4-byte Spill
	str	r5, [r0, #60]
	ldr	r5, [sp, #216]                  @ 4-byte Reload
	ldr	r0, [sp, #144]                  @ 4-byte Reload
	ands	r5, r0
	ldr	r0, [sp, #236]                  @ 4-byte Reload
	ldr	r6, [sp, #108]                  @ 4-byte Reload
	ands	r0, r6
	ldr	r1, [sp, #232]                  @ 4-byte Reload
	ldr	r2, [sp, #136]                  @ 4-byte Reload
	ands	r1, r2
	str	r1, [sp, #232]                  @ 4-byte Spill
	eors	r0, r1
	str	r0, [sp, #236]                  @ 4-byte Spill
	eors	r5, r0
	ldr	r1, [sp, #140]                  @ 4-byte Reload
	ldr	r0, [sp, #152]                  @ 4-byte Reload
	ands	r0, r1
	str	r0, [sp, #152]                  @ 4-byte Spill
	eors	r5, r0
	ldr	r0, [sp, #168]                  @ 4-byte Reload
	eors	r5, r0
	str	r5, [sp, #216]                  @ 4-byte Spill
	ldr	r1, [sp, #172]                  @ 4-byte Reload
	ands	r1, r3
	eors	r1, r5
	mov	r2, r1
	str	r1, [sp, #172]                  @ 4-byte Spill
	ldr	r1, [sp, #228]                  @ 4-byte Reload
	ands	r6, r1
	mov	r0, r6
	ldr	r1, [sp, #212]                  @ 4-byte Reload
	lsls	r1, r1, #4
	ldr	r5, [sp, #188]                  @ 4-byte Reload
	ands	r1, r5
	ldr	r6, [sp, #160]                  @ 4-byte Reload
	muls	r1, r6, r1
	eors	r1, r0
	ldr	r0, [sp, #156]                  @ 4-byte Reload
	eors	r1, r0
	eors	r1, r2
	ldr	r0, [sp, #192]                  @ 4-byte Reload
	rors	r1, r0
	ldr	r0, .Laes_v6m_CPI0_12
	ands	r1, r0
	ldr	r6, [sp, #148]                  @ 4-byte Reload
	ldr	r2, [r6, #8]
	eors	r2, r1
	lsls	r1, r2, #2
	ldr	r0, .Laes_v6m_CPI0_13
	ands	r1, r0
	eors	r1, r2
	lsls	r2, r1, #4
	ldr	r0, .Laes_v6m_CPI0_14
	ands	r2, r0
	eors	r2, r1
	str	r2, [sp, #168]                  @ 4-byte Spill
	str	r2, [r6, #40]
	ldr	r1, [sp, #116]                  @ 4-byte Reload
	ands	r3, r1
	ldr	r0, [sp, #236]                  @ 4-byte Reload
	eors	r3, r0
	ldr	r0, [sp, #196]                  @ 4-byte Reload
	eors	r3, r0
	str	r3, [sp, #196]                  @ 4-byte Spill
	ldr	r0, [sp, #208]                  @ 4-byte Reload
	ands	r7, r0
	eors	r7, r3
	eors	r7, r4
	ldr	r4, [sp, #212]                  @ 4-byte Reload
	lsls	r1, r4, #5
	ands	r1, r5
	ldr	r6, [sp, #160]                  @ 4-byte Reload
	muls	r1, r6, r1
	eors	r1, r7
	ldr	r0, [sp, #216]                  @ 4-byte Reload
	eors	r1, r0
	ldr	r3, [sp, #192]                  @ 4-byte Reload
	rors	r1, r3
	ldr	r2, .Laes_v6m_CPI0_12
	bics	r2, r1
	ldr	r0, [sp, #148]                  @ 4-byte Reload
	ldr	r1, [r0, #4]
	eors	r1, r2
	lsls	r2, r1, #2
	ldr	r5, .Laes_v6m_CPI0_13
	ands	r2, r5
	eors	r2, r1
	lsls	r1, r2, #4
	ldr	r5, .Laes_v6m_CPI0_14
	ands	r1, r5
	eors	r1, r2
	str	r1, [sp, #208]                  @ 4-byte Spill
	mov	r5, r0
	str	r1, [r0, #36]
	lsls	r1, r4, #31
	lsrs	r1, r1, #25
	mov	r4, r6
	muls	r1, r6, r1
	eors	r1, r7
	ldr	r2, [sp, #152]                  @ 4-byte Reload
	eors	r1, r2
	rors	r1, r3
	mov	r6, r3
	ldr	r2, .Laes_v6m_CPI0_12
	bics	r2, r1
	ldr	r0, [sp, #220]                  @ 4-byte Reload
	ldr	r1, [sp, #112]                  @ 4-byte Reload
	ldr	r1, [r0, r1]
	eors	r1, r2
	lsls	r2, r1, #2
	ldr	r0, .Laes_v6m_CPI0_13
	ands	r2, r0
	eors	r2, r1
	lsls	r1, r2, #4
	ldr	r0, .Laes_v6m_CPI0_14
	ands	r1, r0
	eors	r1, r2
	str	r1, [sp, #236]                  @ 4-byte Spill
	str	r1, [r5, #32]
	ldr	r5, [sp, #212]                  @ 4-byte Reload
	mov	r1, r5
	ldr	r2, [sp, #188]                  @ 4-byte Reload
	ands	r1, r2
	muls	r1, r4, r1
	mov	r3, r4
	ldr	r0, [sp, #224]                  @ 4-byte Reload
	eors	r1, r0
	ldr	r7, [sp, #204]                  @ 4-byte Reload
	ldr	r4, [sp, #124]                  @ 4-byte Reload
	ands	r7, r4
	ldr	r0, [sp, #232]                  @ 4-byte Reload
	eors	r7, r0
	ldr	r0, [sp, #176]                  @ 4-byte Reload
	eors	r7, r0
	ldr	r0, [sp, #200]                  @ 4-byte Reload
	eors	r7, r0
	str	r7, [sp, #204]                  @ 4-byte Spill
	eors	r1, r7
	rors	r1, r6
	ldr	r0, .Laes_v6m_CPI0_12
	bics	r0, r1
	ldr	r7, [sp, #148]                  @ 4-byte Reload
	ldr	r1, [r7, #24]
	eors	r1, r0
	lsls	r0, r1, #2
	ldr	r4, .Laes_v6m_CPI0_13
	ands	r0, r4
	eors	r0, r1
	lsls	r1, r0, #4
	ldr	r4, .Laes_v6m_CPI0_14
	ands	r1, r4
	eors	r1, r0
	str	r1, [r7, #56]
	ldr	r0, [sp, #240]                  @ 4-byte Reload
	ldr	r4, [sp, #144]                  @ 4-byte Reload
	ands	r4, r0
	lsls	r0, r5, #1
	ands	r0, r2
	mov	r5, r3
	muls	r0, r3, r0
	eors	r0, r4
	ldr	r2, [sp, #224]                  @ 4-byte Reload
	eors	r0, r2
	ldr	r2, [sp, #120]                  @ 4-byte Reload
	eors	r0, r2
	ldr	r2, [sp, #172]                  @ 4-byte Reload
	eors	r0, r2
	ldr	r4, [sp, #192]                  @ 4-byte Reload
	rors	r0, r4
	ldr	r2, .Laes_v6m_CPI0_12
	bics	r2, r0
	ldr	r0, [r7, #20]
	eors	r0, r2
	lsls	r2, r0, #2
	ldr	r6, .Laes_v6m_CPI0_13
	ands	r2, r6
	eors	r2, r0
	lsls	r0, r2, #4
	ldr	r3, .Laes_v6m_CPI0_14
	ands	r0, r3
	eors	r0, r2
	str	r0, [r7, #52]
	ldr	r2, [sp, #212]                  @ 4-byte Reload
	lsls	r2, r2, #2
	ldr	r6, [sp, #188]                  @ 4-byte Reload
	ands	r2, r6
	muls	r2, r5, r2
	ldr	r5, [sp, #204]                  @ 4-byte Reload
	eors	r2, r5
	rors	r2, r4
	ldr	r3, .Laes_v6m_CPI0_12
	ands	r2, r3
	ldr	r4, [r7, #16]
	eors	r4, r2
	lsls	r2, r4, #2
	ldr	r3, .Laes_v6m_CPI0_13
	ands	r2, r3
	eors	r2, r4
	lsls	r6, r2, #4
	ldr	r4, .Laes_v6m_CPI0_14
	ands	r6, r4
	eors	r6, r2
	str	r6, [sp, #228]                  @ 4-byte Spill
	str	r6, [r7, #48]
	ldr	r2, [sp, #212]                  @ 4-byte Reload
	lsls	r2, r2, #3
	ldr	r6, [sp, #188]                  @ 4-byte Reload
	ands	r2, r6
	ldr	r3, [sp, #160]                  @ 4-byte Reload
	muls	r2, r3, r2
	ldr	r3, [sp, #196]                  @ 4-byte Reload
	eors	r2, r3
	eors	r2, r5
	ldr	r3, [sp, #192]                  @ 4-byte Reload
	rors	r2, r3
	ldr	r3, .Laes_v6m_CPI0_12
	ands	r2, r3
	ldr	r3, [r7, #12]
	eors	r3, r2
	lsls	r2, r3, #2
	ldr	r5, .Laes_v6m_CPI0_13
	ands	r2, r5
	eors	r2, r3
	lsls	r3, r2, #4
	ands	r3, r4
	eors	r3, r2
	str	r3, [r7, #44]
	ldr	r7, [sp, #184]                  @ 4-byte Reload
	adds	r5, r7, #1
	ldr	r4, [sp, #104]                  @ 4-byte Reload
	ldr	r2, [sp, #132]                  @ 4-byte Reload
	adcs	r2, r4
	subs	r7, #9
	ldr	r7, [sp, #128]                  @ 4-byte Reload
	sbcs	r7, r4
	ldr	r4, [sp, #168]                  @ 4-byte Reload
	str	r5, [sp, #184]                  @ 4-byte Spill
	mov	r7, r2
	bhs	.Laes_v6m_BB0_4
	b	.Laes_v6m_BB0_3
.Laes_v6m_BB0_4:                                @ %join.5.i.i161
	bl	.Laes_v6m_BB0_33
	.p2align	2
@ %bb.5:
.Laes_v6m_CPI0_11:
	.long	.Laes_v6m_static.0
	.p2align	2
@ %bb.6:
.Laes_v6m_CPI0_12:
	.long	50529027                        @ 0x3030303
	.p2align	2
@ %bb.7:
.Laes_v6m_CPI0_13:
	.long	4244438268                      @ 0xfcfcfcfc
	.p2align	2
@ %bb.8:
.Laes_v6m_CPI0_14:
	.long	4042322160                      @ 0xf0f0f0f0
	.p2align	1
.Laes_v6m_BB0_9:                                @ %then.4.i157
	add	r0, sp, #244
	mov	r6, r1
	bl	aes_v6m.aes_planes.soft.word.word32.U32Word.in_every_slot
	ldr	r7, [sp, #244]
	ldr	r0, [sp, #248]
	str	r0, [sp, #96]                   @ 4-byte Spill
	ldr	r0, [sp, #252]
	str	r0, [sp, #88]                   @ 4-byte Spill
	ldr	r0, [sp, #256]
	str	r0, [sp, #100]                  @ 4-byte Spill
	ldr	r0, [sp, #260]
	str	r0, [sp, #104]                  @ 4-byte Spill
	ldr	r0, [sp, #264]
	str	r0, [sp, #92]                   @ 4-byte Spill
	ldr	r0, [sp, #268]
	str	r0, [sp, #84]                   @ 4-byte Spill
	ldr	r0, [sp, #272]
	str	r0, [sp, #132]                  @ 4-byte Spill
	adds	r6, #8
	add	r0, sp, #244
	mov	r1, r6
	bl	aes_v6m.aes_planes.soft.word.word32.U32Word.in_every_slot
	ldr	r0, [sp, #272]
	str	r0, [sp, #216]                  @ 4-byte Spill
	ldr	r0, [sp, #268]
	str	r0, [sp, #196]                  @ 4-byte Spill
	add	r6, sp, #252
	ldm	r6, {r0, r1, r5, r6}
	str	r0, [sp, #212]                  @ 4-byte Spill
	ldr	r0, [sp, #248]
	str	r0, [sp, #224]                  @ 4-byte Spill
	ldr	r0, [sp, #244]
	str	r0, [sp, #232]                  @ 4-byte Spill
	str	r7, [sp, #80]                   @ 4-byte Spill
	str	r7, [r4]
	mov	r7, r1
	ldr	r0, [sp, #96]                   @ 4-byte Reload
	str	r0, [r4, #4]
	ldr	r0, [sp, #88]                   @ 4-byte Reload
	str	r0, [r4, #8]
	ldr	r0, [sp, #100]                  @ 4-byte Reload
	str	r0, [r4, #12]
	ldr	r0, [sp, #104]                  @ 4-byte Reload
	str	r0, [r4, #16]
	ldr	r0, [sp, #92]                   @ 4-byte Reload
	str	r0, [r4, #20]
	ldr	r0, [sp, #84]                   @ 4-byte Reload
	str	r0, [r4, #24]
	ldr	r0, [sp, #132]                  @ 4-byte Reload
	str	r0, [r4, #28]
	movs	r0, #0
	str	r0, [sp, #136]                  @ 4-byte Spill
	str	r0, [sp, #12]                   @ 4-byte Spill
	mov	r3, r0
.Laes_v6m_BB0_10:                               @ %join.5.i164.i
                                        @ =>This Inner Loop Header: Depth=1
	str	r7, [sp, #120]                  @ 4-byte Spill
	str	r6, [sp, #124]                  @ 4-byte Spill
	str	r0, [sp, #72]                   @ 4-byte Spill
	str	r3, [sp, #76]                   @ 4-byte Spill
	mov	r0, r5
	str	r5, [sp, #192]                  @ 4-byte Spill
	ldr	r3, [sp, #212]                  @ 4-byte Reload
	eors	r0, r3
	str	r0, [sp, #204]                  @ 4-byte Spill
	ldr	r4, [sp, #216]                  @ 4-byte Reload
	mov	r1, r4
	str	r4, [sp, #216]                  @ 4-byte Spill
	ldr	r2, [sp, #224]                  @ 4-byte Reload
	eors	r1, r2
	str	r1, [sp, #112]                  @ 4-byte Spill
	mov	r5, r1
	eors	r5, r0
	str	r5, [sp, #172]                  @ 4-byte Spill
	eors	r5, r7
	mov	r0, r5
	eors	r0, r3
	str	r0, [sp, #108]                  @ 4-byte Spill
	ldr	r2, [sp, #196]                  @ 4-byte Reload
	mov	r3, r2
	eors	r3, r6
	mov	r6, r0
	eors	r6, r3
	str	r6, [sp, #200]                  @ 4-byte Spill
	eors	r5, r2
	ldr	r0, [sp, #192]                  @ 4-byte Reload
	eors	r4, r0
	str	r4, [sp, #188]                  @ 4-byte Spill
	mov	r2, r5
	eors	r2, r4
	str	r2, [sp, #180]                  @ 4-byte Spill
	mov	r7, r2
	eors	r7, r6
	str	r7, [sp, #152]                  @ 4-byte Spill
	ldr	r0, [sp, #204]                  @ 4-byte Reload
	ands	r7, r0
	mov	r0, r2
	ands	r0, r4
	eors	r7, r0
	mov	r6, r2
	eors	r6, r3
	ldr	r1, [sp, #232]                  @ 4-byte Reload
	eors	r3, r1
	str	r3, [sp, #208]                  @ 4-byte Spill
	mov	r1, r3
	ldr	r2, [sp, #224]                  @ 4-byte Reload
	eors	r1, r2
	str	r1, [sp, #128]                  @ 4-byte Spill
	mov	r4, r1
	ands	r4, r3
	mov	r1, r6
	str	r6, [sp, #168]                  @ 4-byte Spill
	eors	r4, r6
	ldr	r3, [sp, #112]                  @ 4-byte Reload
	ands	r1, r3
	eors	r4, r1
	eors	r4, r3
	eors	r4, r7
	mov	r6, r4
	str	r4, [sp, #236]                  @ 4-byte Spill
	ldr	r2, [sp, #216]                  @ 4-byte Reload
	mov	r3, r2
	ldr	r4, [sp, #212]                  @ 4-byte Reload
	eors	r3, r4
	str	r3, [sp, #160]                  @ 4-byte Spill
	ldr	r4, [sp, #200]                  @ 4-byte Reload
	ands	r4, r3
	eors	r4, r0
	mov	r3, r4
	str	r4, [sp, #228]                  @ 4-byte Spill
	ldr	r0, [sp, #180]                  @ 4-byte Reload
	ldr	r4, [sp, #232]                  @ 4-byte Reload
	eors	r0, r4
	str	r0, [sp, #56]                   @ 4-byte Spill
	ldr	r4, [sp, #208]                  @ 4-byte Reload
	eors	r4, r2
	str	r4, [sp, #156]                  @ 4-byte Spill
	ands	r0, r4
	ldr	r4, [sp, #168]                  @ 4-byte Reload
	eors	r0, r4
	eors	r0, r1
	eors	r0, r2
	eors	r0, r3
	mov	r1, r0
	eors	r1, r6
	str	r1, [sp, #240]                  @ 4-byte Spill
	ldr	r1, [sp, #108]                  @ 4-byte Reload
	mov	r4, r1
	ldr	r2, [sp, #172]                  @ 4-byte Reload
	ands	r4, r2
	ldr	r2, [sp, #128]                  @ 4-byte Reload
	ldr	r3, [sp, #160]                  @ 4-byte Reload
	eors	r2, r3
	mov	r3, r2
	str	r2, [sp, #148]                  @ 4-byte Spill
	mov	r2, r1
	ldr	r6, [sp, #232]                  @ 4-byte Reload
	eors	r2, r6
	str	r2, [sp, #52]                   @ 4-byte Spill
	ands	r2, r3
	eors	r2, r5
	eors	r2, r4
	eors	r2, r7
	ldr	r7, [sp, #236]                  @ 4-byte Reload
	ands	r7, r2
	ldr	r1, [sp, #208]                  @ 4-byte Reload
	ldr	r5, [sp, #192]                  @ 4-byte Reload
	eors	r1, r5
	str	r1, [sp, #60]                   @ 4-byte Spill
	mov	r5, r1
	ands	r5, r6
	ldr	r3, [sp, #160]                  @ 4-byte Reload
	eors	r5, r3
	ldr	r1, [sp, #200]                  @ 4-byte Reload
	eors	r5, r1
	eors	r5, r4
	ldr	r1, [sp, #228]                  @ 4-byte Reload
	eors	r5, r1
	mov	r6, r7
	eors	r6, r5
	ldr	r1, [sp, #240]                  @ 4-byte Reload
	ands	r6, r1
	mov	r4, r6
	eors	r4, r0
	eors	r6, r7
	ands	r6, r0
	ldr	r1, [sp, #236]                  @ 4-byte Reload
	eors	r1, r6
	str	r1, [sp, #236]                  @ 4-byte Spill
	eors	r1, r4
	str	r4, [sp, #40]                   @ 4-byte Spill
	str	r1, [sp, #184]                  @ 4-byte Spill
	eors	r2, r5
	eors	r7, r0
	eors	r6, r7
	ands	r7, r2
	eors	r7, r5
	ands	r6, r7
	eors	r6, r2
	mov	r3, r6
	eors	r3, r1
	str	r3, [sp, #116]                  @ 4-byte Spill
	mov	r5, r7
	str	r7, [sp, #176]                  @ 4-byte Spill
	eors	r5, r4
	eors	r3, r5
	ldr	r2, [sp, #152]                  @ 4-byte Reload
	ands	r2, r3
	ldr	r0, [sp, #208]                  @ 4-byte Reload
	ands	r0, r6
	mov	r4, r6
	eors	r4, r7
	str	r4, [sp, #144]                  @ 4-byte Spill
	ldr	r1, [sp, #168]                  @ 4-byte Reload
	ands	r1, r4
	str	r1, [sp, #168]                  @ 4-byte Spill
	eors	r0, r1
	str	r0, [sp, #208]                  @ 4-byte Spill
	mov	r1, r2
	eors	r1, r0
	str	r1, [sp, #152]                  @ 4-byte Spill
	ldr	r0, [sp, #180]                  @ 4-byte Reload
	ands	r0, r5
	eors	r0, r1
	mov	r1, r0
	str	r0, [sp, #180]                  @ 4-byte Spill
	ldr	r7, [sp, #136]                  @ 4-byte Reload
	lsls	r2, r7, #1
	str	r2, [sp, #68]                   @ 4-byte Spill
	ldr	r4, .Laes_v6m_CPI0_15
	ldrb	r0, [r4, r2]
	str	r0, [sp, #140]                  @ 4-byte Spill
	lsrs	r2, r0, #1
	movs	r0, #64
	str	r0, [sp, #240]                  @ 4-byte Spill
	ands	r2, r0
	ldr	r4, [sp, #164]                  @ 4-byte Reload
	lsls	r0, r4, #8
	str	r0, [sp, #228]                  @ 4-byte Spill
	muls	r2, r0, r2
	eors	r2, r1
	ldr	r0, [sp, #204]                  @ 4-byte Reload
	mov	r4, r3
	ands	r4, r0
	ldr	r0, [sp, #188]                  @ 4-byte Reload
	ands	r5, r0
	str	r5, [sp, #48]                   @ 4-byte Spill
	eors	r4, r5
	str	r4, [sp, #44]                   @ 4-byte Spill
	ldr	r0, [sp, #184]                  @ 4-byte Reload
	ldr	r1, [sp, #148]                  @ 4-byte Reload
	ands	r1, r0
	eors	r1, r4
	str	r1, [sp, #148]                  @ 4-byte Spill
	ldr	r0, [sp, #172]                  @ 4-byte Reload
	ldr	r3, [sp, #236]                  @ 4-byte Reload
	ands	r0, r3
	eors	r0, r1
	str	r0, [sp, #172]                  @ 4-byte Spill
	eors	r2, r0
	movs	r1, #14
	rors	r2, r1
	str	r1, [sp, #188]                  @ 4-byte Spill
	ldr	r4, .Laes_v6m_CPI0_16
	ands	r2, r4
	ldr	r4, [sp, #132]                  @ 4-byte Reload
	eors	r2, r4
	lsls	r0, r2, #2
	ldr	r4, .Laes_v6m_CPI0_17
	ands	r0, r4
	eors	r0, r2
	str	r0, [sp, #132]                  @ 4-byte Spill
	lsls	r0, r0, #4
	ldr	r2, .Laes_v6m_CPI0_18
	ands	r0, r2
	str	r0, [sp, #64]                   @ 4-byte Spill
	ldr	r2, [sp, #216]                  @ 4-byte Reload
	lsrs	r2, r2, #4
	ldr	r4, .Laes_v6m_CPI0_19
	ands	r2, r4
	orrs	r2, r0
	movs	r4, #96
	muls	r4, r7, r4
	ldr	r5, [sp, #220]                  @ 4-byte Reload
	adds	r0, r5, r4
	str	r0, [sp, #204]                  @ 4-byte Spill
	str	r2, [r0, #60]
	ldr	r3, [sp, #200]                  @ 4-byte Reload
	ldr	r0, [sp, #116]                  @ 4-byte Reload
	ands	r3, r0
	ldr	r5, [sp, #40]                   @ 4-byte Reload
	mov	r2, r5
	ldr	r0, [sp, #232]                  @ 4-byte Reload
	ands	r2, r0
	ldr	r0, [sp, #236]                  @ 4-byte Reload
	ldr	r4, [sp, #108]                  @ 4-byte Reload
	ands	r0, r4
	str	r0, [sp, #236]                  @ 4-byte Spill
	eors	r2, r0
	eors	r3, r2
	ldr	r0, [sp, #112]                  @ 4-byte Reload
	ldr	r4, [sp, #144]                  @ 4-byte Reload
	ands	r4, r0
	str	r4, [sp, #144]                  @ 4-byte Spill
	eors	r3, r4
	ldr	r0, [sp, #152]                  @ 4-byte Reload
	eors	r3, r0
	str	r3, [sp, #200]                  @ 4-byte Spill
	ldr	r0, [sp, #156]                  @ 4-byte Reload
	ldr	r4, [sp, #176]                  @ 4-byte Reload
	ands	r0, r4
	eors	r0, r3
	str	r0, [sp, #156]                  @ 4-byte Spill
	ldr	r3, [sp, #60]                   @ 4-byte Reload
	ands	r5, r3
	ldr	r3, [sp, #140]                  @ 4-byte Reload
	lsls	r4, r3, #4
	ldr	r7, [sp, #240]                  @ 4-byte Reload
	ands	r4, r7
	ldr	r7, [sp, #228]                  @ 4-byte Reload
	muls	r4, r7, r4
	eors	r4, r5
	ldr	r5, [sp, #148]                  @ 4-byte Reload
	eors	r4, r5
	eors	r4, r0
	rors	r4, r1
	ldr	r0, .Laes_v6m_CPI0_16
	ands	r4, r0
	ldr	r1, [sp, #88]                   @ 4-byte Reload
	eors	r4, r1
	lsls	r0, r4, #2
	ldr	r1, .Laes_v6m_CPI0_17
	ands	r0, r1
	eors	r0, r4
	str	r0, [sp, #152]                  @ 4-byte Spill
	lsls	r0, r0, #4
	ldr	r1, .Laes_v6m_CPI0_18
	ands	r0, r1
	str	r0, [sp, #60]                   @ 4-byte Spill
	ldr	r1, [sp, #212]                  @ 4-byte Reload
	lsrs	r1, r1, #4
	ldr	r4, .Laes_v6m_CPI0_19
	ands	r1, r4
	orrs	r1, r0
	ldr	r5, [sp, #204]                  @ 4-byte Reload
	str	r1, [r5, #40]
	ldr	r0, [sp, #56]                   @ 4-byte Reload
	ldr	r1, [sp, #176]                  @ 4-byte Reload
	ands	r1, r0
	eors	r1, r2
	ldr	r0, [sp, #168]                  @ 4-byte Reload
	eors	r1, r0
	str	r1, [sp, #176]                  @ 4-byte Spill
	ldr	r0, [sp, #128]                  @ 4-byte Reload
	ands	r6, r0
	eors	r6, r1
	ldr	r0, [sp, #44]                   @ 4-byte Reload
	eors	r6, r0
	lsls	r0, r3, #5
	mov	r2, r3
	ldr	r1, [sp, #240]                  @ 4-byte Reload
	ands	r0, r1
	mov	r3, r7
	muls	r0, r7, r0
	eors	r0, r6
	ldr	r1, [sp, #200]                  @ 4-byte Reload
	eors	r0, r1
	ldr	r4, [sp, #188]                  @ 4-byte Reload
	rors	r0, r4
	ldr	r1, .Laes_v6m_CPI0_16
	bics	r1, r0
	ldr	r0, [sp, #96]                   @ 4-byte Reload
	eors	r1, r0
	lsls	r0, r1, #2
	ldr	r7, .Laes_v6m_CPI0_17
	ands	r0, r7
	eors	r0, r1
	str	r0, [sp, #148]                  @ 4-byte Spill
	lsls	r1, r0, #4
	ldr	r0, .Laes_v6m_CPI0_18
	ands	r1, r0
	str	r1, [sp, #56]                   @ 4-byte Spill
	ldr	r0, [sp, #224]                  @ 4-byte Reload
	lsrs	r0, r0, #4
	ldr	r7, .Laes_v6m_CPI0_19
	ands	r0, r7
	orrs	r0, r1
	str	r0, [r5, #36]
	lsls	r0, r2, #31
	lsrs	r0, r0, #25
	muls	r0, r3, r0
	eors	r0, r6
	ldr	r1, [sp, #144]                  @ 4-byte Reload
	eors	r0, r1
	rors	r0, r4
	mov	r6, r4
	ldr	r1, .Laes_v6m_CPI0_16
	bics	r1, r0
	ldr	r0, [sp, #80]                   @ 4-byte Reload
	eors	r1, r0
	lsls	r0, r1, #2
	ldr	r4, .Laes_v6m_CPI0_17
	ands	r0, r4
	eors	r0, r1
	str	r0, [sp, #144]                  @ 4-byte Spill
	lsls	r1, r0, #4
	ldr	r0, .Laes_v6m_CPI0_18
	ands	r1, r0
	str	r1, [sp, #80]                   @ 4-byte Spill
	ldr	r0, [sp, #232]                  @ 4-byte Reload
	lsrs	r0, r0, #4
	ldr	r4, .Laes_v6m_CPI0_19
	ands	r0, r4
	orrs	r0, r1
	str	r0, [r5, #32]
	mov	r0, r2
	ldr	r7, [sp, #240]                  @ 4-byte Reload
	ands	r0, r7
	muls	r0, r3, r0
	ldr	r2, [sp, #180]                  @ 4-byte Reload
	eors	r0, r2
	ldr	r3, [sp, #184]                  @ 4-byte Reload
	ldr	r1, [sp, #52]                   @ 4-byte Reload
	ands	r3, r1
	ldr	r1, [sp, #236]                  @ 4-byte Reload
	eors	r3, r1
	ldr	r1, [sp, #208]                  @ 4-byte Reload
	eors	r3, r1
	ldr	r1, [sp, #172]                  @ 4-byte Reload
	eors	r3, r1
	str	r3, [sp, #184]                  @ 4-byte Spill
	eors	r0, r3
	rors	r0, r6
	ldr	r1, .Laes_v6m_CPI0_16
	bics	r1, r0
	ldr	r0, [sp, #84]                   @ 4-byte Reload
	eors	r1, r0
	lsls	r0, r1, #2
	ldr	r3, .Laes_v6m_CPI0_17
	ands	r0, r3
	eors	r0, r1
	str	r0, [sp, #128]                  @ 4-byte Spill
	lsls	r1, r0, #4
	ldr	r0, .Laes_v6m_CPI0_18
	ands	r1, r0
	str	r1, [sp, #84]                   @ 4-byte Spill
	ldr	r0, [sp, #196]                  @ 4-byte Reload
	lsrs	r0, r0, #4
	ldr	r3, .Laes_v6m_CPI0_19
	ands	r0, r3
	orrs	r0, r1
	str	r0, [r5, #56]
	ldr	r0, [sp, #160]                  @ 4-byte Reload
	ldr	r1, [sp, #116]                  @ 4-byte Reload
	ands	r1, r0
	ldr	r3, [sp, #140]                  @ 4-byte Reload
	lsls	r0, r3, #1
	ands	r0, r7
	ldr	r4, [sp, #228]                  @ 4-byte Reload
	muls	r0, r4, r0
	eors	r0, r1
	eors	r0, r2
	ldr	r1, [sp, #48]                   @ 4-byte Reload
	eors	r0, r1
	ldr	r1, [sp, #156]                  @ 4-byte Reload
	eors	r0, r1
	mov	r2, r6
	rors	r0, r6
	ldr	r1, .Laes_v6m_CPI0_16
	bics	r1, r0
	ldr	r0, [sp, #92]                   @ 4-byte Reload
	eors	r1, r0
	lsls	r0, r1, #2
	ldr	r6, .Laes_v6m_CPI0_17
	ands	r0, r6
	eors	r0, r1
	str	r0, [sp, #156]                  @ 4-byte Spill
	lsls	r1, r0, #4
	ldr	r0, .Laes_v6m_CPI0_18
	ands	r1, r0
	str	r1, [sp, #52]                   @ 4-byte Spill
	ldr	r0, [sp, #124]                  @ 4-byte Reload
	lsrs	r0, r0, #4
	ldr	r6, .Laes_v6m_CPI0_19
	ands	r0, r6
	orrs	r0, r1
	str	r0, [r5, #52]
	mov	r6, r5
	lsls	r0, r3, #2
	mov	r1, r7
	ands	r0, r7
	muls	r0, r4, r0
	ldr	r5, [sp, #184]                  @ 4-byte Reload
	eors	r0, r5
	mov	r3, r2
	rors	r0, r2
	ldr	r2, .Laes_v6m_CPI0_16
	ands	r0, r2
	ldr	r2, [sp, #104]                  @ 4-byte Reload
	eors	r0, r2
	lsls	r2, r0, #2
	ldr	r7, .Laes_v6m_CPI0_17
	ands	r2, r7
	eors	r2, r0
	str	r2, [sp, #104]                  @ 4-byte Spill
	lsls	r2, r2, #4
	ldr	r0, .Laes_v6m_CPI0_18
	ands	r2, r0
	str	r2, [sp, #48]                   @ 4-byte Spill
	ldr	r0, [sp, #192]                  @ 4-byte Reload
	lsrs	r0, r0, #4
	ldr	r7, .Laes_v6m_CPI0_19
	ands	r0, r7
	orrs	r0, r2
	str	r0, [r6, #48]
	ldr	r0, [sp, #140]                  @ 4-byte Reload
	lsls	r0, r0, #3
	ands	r0, r1
	muls	r0, r4, r0
	ldr	r1, [sp, #176]                  @ 4-byte Reload
	eors	r0, r1
	eors	r0, r5
	rors	r0, r3
	ldr	r1, .Laes_v6m_CPI0_16
	ands	r0, r1
	ldr	r2, [sp, #100]                  @ 4-byte Reload
	eors	r0, r2
	lsls	r3, r0, #2
	ldr	r2, .Laes_v6m_CPI0_17
	ands	r3, r2
	eors	r3, r0
	str	r3, [sp, #116]                  @ 4-byte Spill
	lsls	r4, r3, #4
	ldr	r3, .Laes_v6m_CPI0_18
	ands	r4, r3
	str	r4, [sp, #44]                   @ 4-byte Spill
	ldr	r0, [sp, #120]                  @ 4-byte Reload
	lsrs	r0, r0, #4
	ldr	r5, .Laes_v6m_CPI0_19
	ands	r0, r5
	orrs	r0, r4
	str	r0, [r6, #44]
	ldr	r0, [sp, #132]                  @ 4-byte Reload
	lsrs	r0, r0, #2
	ands	r0, r1
	mov	r5, r1
	ldr	r1, [sp, #216]                  @ 4-byte Reload
	eors	r0, r1
	lsls	r1, r0, #2
	ands	r1, r2
	eors	r1, r0
	lsls	r0, r1, #4
	ands	r0, r3
	eors	r0, r1
	str	r0, [sp, #176]                  @ 4-byte Spill
	str	r0, [r6, #92]
	ldr	r0, [sp, #152]                  @ 4-byte Reload
	lsrs	r0, r0, #2
	ands	r0, r5
	ldr	r1, [sp, #212]                  @ 4-byte Reload
	eors	r0, r1
	lsls	r1, r0, #2
	ands	r1, r2
	eors	r1, r0
	lsls	r0, r1, #4
	ands	r0, r3
	eors	r0, r1
	str	r0, [sp, #180]                  @ 4-byte Spill
	str	r0, [r6, #72]
	ldr	r0, [sp, #148]                  @ 4-byte Reload
	lsrs	r0, r0, #2
	ands	r0, r5
	ldr	r1, [sp, #224]                  @ 4-byte Reload
	eors	r0, r1
	lsls	r1, r0, #2
	ands	r1, r2
	eors	r1, r0
	lsls	r0, r1, #4
	ands	r0, r3
	eors	r0, r1
	str	r0, [sp, #108]                  @ 4-byte Spill
	str	r0, [r6, #68]
	ldr	r0, [sp, #144]                  @ 4-byte Reload
	lsrs	r0, r0, #2
	ands	r0, r5
	ldr	r1, [sp, #232]                  @ 4-byte Reload
	eors	r0, r1
	lsls	r1, r0, #2
	ands	r1, r2
	eors	r1, r0
	lsls	r0, r1, #4
	ands	r0, r3
	eors	r0, r1
	str	r0, [sp, #208]                  @ 4-byte Spill
	str	r0, [r6, #64]
	ldr	r0, [sp, #128]                  @ 4-byte Reload
	lsrs	r0, r0, #2
	ands	r0, r5
	mov	r4, r5
	ldr	r1, [sp, #196]                  @ 4-byte Reload
	eors	r0, r1
	lsls	r1, r0, #2
	ands	r1, r2
	eors	r1, r0
	lsls	r7, r1, #4
	ands	r7, r3
	eors	r7, r1
	str	r7, [r6, #88]
	mov	r5, r6
	str	r7, [sp, #112]                  @ 4-byte Spill
	ldr	r0, [sp, #156]                  @ 4-byte Reload
	lsrs	r0, r0, #2
	mov	r3, r4
	ands	r0, r4
	ldr	r1, [sp, #124]                  @ 4-byte Reload
	eors	r0, r1
	lsls	r1, r0, #2
	ands	r1, r2
	mov	r4, r2
	eors	r1, r0
	lsls	r0, r1, #4
	ldr	r6, .Laes_v6m_CPI0_18
	ands	r0, r6
	eors	r0, r1
	str	r0, [r5, #84]
	mov	r2, r0
	str	r0, [sp, #36]                   @ 4-byte Spill
	ldr	r0, [sp, #104]                  @ 4-byte Reload
	lsrs	r0, r0, #2
	ands	r0, r3
	ldr	r1, [sp, #192]                  @ 4-byte Reload
	eors	r0, r1
	lsls	r1, r0, #2
	ands	r1, r4
	eors	r1, r0
	lsls	r0, r1, #4
	ands	r0, r6
	mov	r3, r6
	eors	r0, r1
	str	r0, [r5, #80]
	mov	r6, r0
	str	r0, [sp, #140]                  @ 4-byte Spill
	ldr	r0, [sp, #116]                  @ 4-byte Reload
	lsrs	r0, r0, #2
	ldr	r1, .Laes_v6m_CPI0_16
	ands	r0, r1
	ldr	r1, [sp, #120]                  @ 4-byte Reload
	eors	r0, r1
	lsls	r1, r0, #2
	ands	r1, r4
	eors	r1, r0
	lsls	r4, r1, #4
	ands	r4, r3
	eors	r4, r1
	str	r4, [r5, #76]
	str	r4, [sp, #40]                   @ 4-byte Spill
	eors	r7, r2
	str	r7, [sp, #236]                  @ 4-byte Spill
	ldr	r0, [sp, #208]                  @ 4-byte Reload
	eors	r7, r0
	str	r7, [sp, #224]                  @ 4-byte Spill
	mov	r3, r7
	ldr	r5, [sp, #108]                  @ 4-byte Reload
	eors	r3, r5
	str	r3, [sp, #120]                  @ 4-byte Spill
	ands	r3, r7
	ldr	r0, [sp, #176]                  @ 4-byte Reload
	eors	r5, r0
	mov	r2, r6
	mov	r7, r6
	ldr	r6, [sp, #180]                  @ 4-byte Reload
	eors	r2, r6
	str	r2, [sp, #96]                   @ 4-byte Spill
	mov	r1, r5
	eors	r1, r2
	mov	r2, r1
	str	r1, [sp, #192]                  @ 4-byte Spill
	eors	r2, r4
	mov	r4, r2
	ldr	r1, [sp, #112]                  @ 4-byte Reload
	eors	r4, r1
	str	r4, [sp, #216]                  @ 4-byte Spill
	eors	r7, r0
	str	r7, [sp, #92]                   @ 4-byte Spill
	mov	r0, r4
	eors	r0, r7
	str	r0, [sp, #200]                  @ 4-byte Spill
	mov	r1, r0
	ldr	r7, [sp, #236]                  @ 4-byte Reload
	eors	r1, r7
	str	r1, [sp, #184]                  @ 4-byte Spill
	mov	r0, r3
	eors	r0, r1
	mov	r3, r1
	str	r5, [sp, #24]                   @ 4-byte Spill
	ands	r3, r5
	eors	r0, r3
	eors	r0, r5
	mov	r4, r0
	eors	r2, r6
	str	r2, [sp, #88]                   @ 4-byte Spill
	mov	r0, r7
	eors	r0, r2
	str	r0, [sp, #236]                  @ 4-byte Spill
	ldr	r2, [sp, #200]                  @ 4-byte Reload
	mov	r7, r2
	eors	r7, r0
	str	r7, [sp, #168]                  @ 4-byte Spill
	ldr	r0, [sp, #96]                   @ 4-byte Reload
	ands	r7, r0
	mov	r5, r2
	ldr	r0, [sp, #92]                   @ 4-byte Reload
	ands	r5, r0
	eors	r7, r5
	mov	r6, r4
	eors	r6, r7
	str	r6, [sp, #232]                  @ 4-byte Spill
	ldr	r4, [sp, #224]                  @ 4-byte Reload
	ldr	r0, [sp, #176]                  @ 4-byte Reload
	eors	r4, r0
	str	r4, [sp, #172]                  @ 4-byte Spill
	ldr	r1, [sp, #208]                  @ 4-byte Reload
	eors	r2, r1
	str	r2, [sp, #28]                   @ 4-byte Spill
	ands	r2, r4
	ldr	r4, [sp, #184]                  @ 4-byte Reload
	eors	r2, r4
	eors	r2, r3
	eors	r2, r0
	ldr	r3, [sp, #180]                  @ 4-byte Reload
	eors	r0, r3
	ldr	r4, [sp, #236]                  @ 4-byte Reload
	ands	r4, r0
	b	.Laes_v6m_BB0_16
	.p2align	2
@ %bb.11:
.Laes_v6m_CPI0_15:
	.long	.Laes_v6m_static.0
	.p2align	2
@ %bb.12:
.Laes_v6m_CPI0_16:
	.long	50529027                        @ 0x3030303
	.p2align	2
@ %bb.13:
.Laes_v6m_CPI0_17:
	.long	4244438268                      @ 0xfcfcfcfc
	.p2align	2
@ %bb.14:
.Laes_v6m_CPI0_18:
	.long	4042322160                      @ 0xf0f0f0f0
	.p2align	2
@ %bb.15:
.Laes_v6m_CPI0_19:
	.long	252645135                       @ 0xf0f0f0f
	.p2align	1
.Laes_v6m_BB0_16:                               @ %join.5.i164.i
                                        @   in Loop: Header=BB0_10 Depth=1
	str	r0, [sp, #124]                  @ 4-byte Spill
	eors	r4, r5
	eors	r2, r4
	mov	r1, r2
	eors	r1, r6
	str	r1, [sp, #212]                  @ 4-byte Spill
	ldr	r5, [sp, #88]                   @ 4-byte Reload
	mov	r1, r5
	ldr	r3, [sp, #192]                  @ 4-byte Reload
	ands	r1, r3
	str	r1, [sp, #196]                  @ 4-byte Spill
	ldr	r3, [sp, #120]                  @ 4-byte Reload
	eors	r3, r0
	mov	r0, r3
	str	r3, [sp, #160]                  @ 4-byte Spill
	mov	r3, r5
	ldr	r6, [sp, #208]                  @ 4-byte Reload
	eors	r3, r6
	str	r3, [sp, #32]                   @ 4-byte Spill
	ands	r3, r0
	ldr	r0, [sp, #216]                  @ 4-byte Reload
	eors	r3, r0
	eors	r3, r1
	eors	r3, r7
	ldr	r5, [sp, #232]                  @ 4-byte Reload
	ands	r5, r3
	ldr	r1, [sp, #224]                  @ 4-byte Reload
	ldr	r0, [sp, #140]                  @ 4-byte Reload
	eors	r1, r0
	str	r1, [sp, #20]                   @ 4-byte Spill
	mov	r0, r1
	ands	r0, r6
	ldr	r6, [sp, #124]                  @ 4-byte Reload
	eors	r0, r6
	ldr	r1, [sp, #236]                  @ 4-byte Reload
	eors	r0, r1
	ldr	r1, [sp, #196]                  @ 4-byte Reload
	eors	r0, r1
	eors	r0, r4
	mov	r7, r5
	eors	r7, r0
	ldr	r1, [sp, #212]                  @ 4-byte Reload
	ands	r7, r1
	mov	r1, r7
	eors	r1, r2
	eors	r7, r5
	ands	r7, r2
	ldr	r4, [sp, #232]                  @ 4-byte Reload
	eors	r4, r7
	str	r4, [sp, #232]                  @ 4-byte Spill
	eors	r4, r1
	str	r1, [sp, #16]                   @ 4-byte Spill
	str	r4, [sp, #216]                  @ 4-byte Spill
	eors	r3, r0
	eors	r5, r2
	eors	r7, r5
	ands	r5, r3
	eors	r5, r0
	ands	r7, r5
	eors	r7, r3
	mov	r2, r7
	eors	r2, r4
	str	r2, [sp, #100]                  @ 4-byte Spill
	mov	r0, r5
	str	r5, [sp, #196]                  @ 4-byte Spill
	eors	r0, r1
	eors	r2, r0
	mov	r6, r0
	ldr	r3, [sp, #168]                  @ 4-byte Reload
	ands	r3, r2
	ldr	r0, [sp, #224]                  @ 4-byte Reload
	ands	r0, r7
	mov	r4, r7
	eors	r4, r5
	ldr	r1, [sp, #184]                  @ 4-byte Reload
	ands	r1, r4
	str	r1, [sp, #184]                  @ 4-byte Spill
	eors	r0, r1
	str	r0, [sp, #224]                  @ 4-byte Spill
	mov	r1, r3
	eors	r1, r0
	str	r1, [sp, #168]                  @ 4-byte Spill
	ldr	r0, [sp, #200]                  @ 4-byte Reload
	ands	r0, r6
	eors	r0, r1
	mov	r1, r0
	str	r0, [sp, #200]                  @ 4-byte Spill
	ldr	r0, .Laes_v6m_CPI0_20
	ldr	r3, [sp, #68]                   @ 4-byte Reload
	adds	r0, r0, r3
	ldrb	r0, [r0, #1]
	str	r0, [sp, #212]                  @ 4-byte Spill
	lsrs	r3, r0, #1
	ldr	r0, [sp, #240]                  @ 4-byte Reload
	ands	r3, r0
	ldr	r0, [sp, #228]                  @ 4-byte Reload
	muls	r3, r0, r3
	eors	r3, r1
	ldr	r0, [sp, #96]                   @ 4-byte Reload
	ands	r2, r0
	ldr	r0, [sp, #92]                   @ 4-byte Reload
	ands	r6, r0
	str	r6, [sp, #92]                   @ 4-byte Spill
	eors	r2, r6
	str	r2, [sp, #96]                   @ 4-byte Spill
	ldr	r0, [sp, #216]                  @ 4-byte Reload
	ldr	r1, [sp, #160]                  @ 4-byte Reload
	ands	r1, r0
	eors	r1, r2
	str	r1, [sp, #160]                  @ 4-byte Spill
	ldr	r0, [sp, #192]                  @ 4-byte Reload
	ldr	r6, [sp, #232]                  @ 4-byte Reload
	ands	r0, r6
	eors	r0, r1
	str	r0, [sp, #192]                  @ 4-byte Spill
	eors	r3, r0
	ldr	r0, [sp, #188]                  @ 4-byte Reload
	rors	r3, r0
	ldr	r0, .Laes_v6m_CPI0_21
	ands	r3, r0
	ldr	r0, [sp, #64]                   @ 4-byte Reload
	orrs	r3, r0
	ldr	r0, [sp, #132]                  @ 4-byte Reload
	eors	r3, r0
	lsls	r0, r3, #2
	ldr	r1, .Laes_v6m_CPI0_22
	ands	r0, r1
	eors	r0, r3
	str	r0, [sp, #68]                   @ 4-byte Spill
	lsls	r3, r0, #4
	ldr	r1, .Laes_v6m_CPI0_23
	ands	r3, r1
	eors	r3, r0
	str	r3, [sp, #132]                  @ 4-byte Spill
	ldr	r0, [sp, #204]                  @ 4-byte Reload
	str	r3, [r0, #124]
	ldr	r0, [sp, #100]                  @ 4-byte Reload
	ldr	r5, [sp, #236]                  @ 4-byte Reload
	ands	r5, r0
	ldr	r2, [sp, #16]                   @ 4-byte Reload
	mov	r3, r2
	ldr	r0, [sp, #208]                  @ 4-byte Reload
	ands	r3, r0
	mov	r0, r6
	ldr	r1, [sp, #88]                   @ 4-byte Reload
	ands	r0, r1
	str	r0, [sp, #232]                  @ 4-byte Spill
	eors	r3, r0
	eors	r5, r3
	ldr	r0, [sp, #24]                   @ 4-byte Reload
	ands	r4, r0
	str	r4, [sp, #64]                   @ 4-byte Spill
	eors	r5, r4
	ldr	r0, [sp, #168]                  @ 4-byte Reload
	eors	r5, r0
	str	r5, [sp, #236]                  @ 4-byte Spill
	ldr	r0, [sp, #172]                  @ 4-byte Reload
	ldr	r1, [sp, #196]                  @ 4-byte Reload
	ands	r0, r1
	eors	r0, r5
	mov	r1, r0
	str	r0, [sp, #172]                  @ 4-byte Spill
	ldr	r0, [sp, #20]                   @ 4-byte Reload
	mov	r4, r2
	ands	r4, r0
	ldr	r0, [sp, #212]                  @ 4-byte Reload
	lsls	r0, r0, #4
	ldr	r2, [sp, #240]                  @ 4-byte Reload
	ands	r0, r2
	ldr	r6, [sp, #228]                  @ 4-byte Reload
	muls	r0, r6, r0
	eors	r0, r4
	ldr	r4, [sp, #160]                  @ 4-byte Reload
	eors	r0, r4
	eors	r0, r1
	ldr	r5, [sp, #188]                  @ 4-byte Reload
	rors	r0, r5
	ldr	r4, .Laes_v6m_CPI0_21
	ands	r0, r4
	ldr	r4, [sp, #60]                   @ 4-byte Reload
	orrs	r0, r4
	ldr	r4, [sp, #152]                  @ 4-byte Reload
	eors	r0, r4
	lsls	r4, r0, #2
	ldr	r1, .Laes_v6m_CPI0_22
	ands	r4, r1
	eors	r4, r0
	lsls	r0, r4, #4
	mov	r1, r4
	str	r4, [sp, #168]                  @ 4-byte Spill
	ldr	r4, .Laes_v6m_CPI0_23
	ands	r0, r4
	eors	r0, r1
	str	r0, [sp, #88]                   @ 4-byte Spill
	ldr	r1, [sp, #204]                  @ 4-byte Reload
	str	r0, [r1, #104]
	ldr	r0, [sp, #196]                  @ 4-byte Reload
	ldr	r1, [sp, #28]                   @ 4-byte Reload
	ands	r0, r1
	eors	r0, r3
	ldr	r1, [sp, #184]                  @ 4-byte Reload
	eors	r0, r1
	str	r0, [sp, #196]                  @ 4-byte Spill
	ldr	r1, [sp, #120]                  @ 4-byte Reload
	ands	r7, r1
	eors	r7, r0
	ldr	r0, [sp, #96]                   @ 4-byte Reload
	eors	r7, r0
	ldr	r0, [sp, #212]                  @ 4-byte Reload
	lsls	r0, r0, #5
	ands	r0, r2
	muls	r0, r6, r0
	eors	r0, r7
	ldr	r1, [sp, #236]                  @ 4-byte Reload
	eors	r0, r1
	mov	r4, r5
	rors	r0, r5
	ldr	r2, .Laes_v6m_CPI0_21
	bics	r2, r0
	ldr	r0, [sp, #56]                   @ 4-byte Reload
	orrs	r2, r0
	ldr	r0, [sp, #148]                  @ 4-byte Reload
	eors	r2, r0
	lsls	r3, r2, #2
	ldr	r0, .Laes_v6m_CPI0_22
	ands	r3, r0
	eors	r3, r2
	str	r3, [sp, #184]                  @ 4-byte Spill
	lsls	r0, r3, #4
	ldr	r1, .Laes_v6m_CPI0_23
	ands	r0, r1
	eors	r0, r3
	ldr	r5, [sp, #204]                  @ 4-byte Reload
	str	r0, [sp, #96]                   @ 4-byte Spill
	str	r0, [r5, #100]
	ldr	r3, [sp, #212]                  @ 4-byte Reload
	lsls	r0, r3, #31
	lsrs	r0, r0, #25
	mov	r2, r6
	muls	r0, r6, r0
	eors	r0, r7
	ldr	r1, [sp, #64]                   @ 4-byte Reload
	eors	r0, r1
	rors	r0, r4
	mov	r7, r4
	ldr	r1, .Laes_v6m_CPI0_21
	bics	r1, r0
	ldr	r0, [sp, #80]                   @ 4-byte Reload
	orrs	r1, r0
	ldr	r0, [sp, #144]                  @ 4-byte Reload
	eors	r1, r0
	lsls	r4, r1, #2
	ldr	r0, .Laes_v6m_CPI0_22
	ands	r4, r0
	eors	r4, r1
	str	r4, [sp, #236]                  @ 4-byte Spill
	lsls	r0, r4, #4
	ldr	r1, .Laes_v6m_CPI0_23
	ands	r0, r1
	eors	r0, r4
	str	r0, [sp, #80]                   @ 4-byte Spill
	str	r0, [r5, #96]
	mov	r6, r5
	mov	r5, r3
	mov	r1, r3
	ldr	r0, [sp, #240]                  @ 4-byte Reload
	ands	r1, r0
	muls	r1, r2, r1
	ldr	r3, [sp, #200]                  @ 4-byte Reload
	eors	r1, r3
	ldr	r2, [sp, #216]                  @ 4-byte Reload
	ldr	r4, [sp, #32]                   @ 4-byte Reload
	ands	r2, r4
	ldr	r4, [sp, #232]                  @ 4-byte Reload
	eors	r2, r4
	ldr	r4, [sp, #224]                  @ 4-byte Reload
	eors	r2, r4
	ldr	r4, [sp, #192]                  @ 4-byte Reload
	eors	r2, r4
	str	r2, [sp, #216]                  @ 4-byte Spill
	eors	r1, r2
	rors	r1, r7
	ldr	r2, .Laes_v6m_CPI0_21
	bics	r2, r1
	ldr	r1, [sp, #84]                   @ 4-byte Reload
	orrs	r2, r1
	ldr	r1, [sp, #128]                  @ 4-byte Reload
	eors	r2, r1
	lsls	r4, r2, #2
	ldr	r1, .Laes_v6m_CPI0_22
	ands	r4, r1
	eors	r4, r2
	lsls	r1, r4, #4
	ldr	r2, .Laes_v6m_CPI0_23
	ands	r1, r2
	eors	r1, r4
	str	r1, [sp, #84]                   @ 4-byte Spill
	str	r1, [r6, #120]
	ldr	r1, [sp, #124]                  @ 4-byte Reload
	ldr	r2, [sp, #100]                  @ 4-byte Reload
	ands	r2, r1
	lsls	r1, r5, #1
	ands	r1, r0
	ldr	r6, [sp, #228]                  @ 4-byte Reload
	muls	r1, r6, r1
	eors	r1, r2
	eors	r1, r3
	ldr	r2, [sp, #92]                   @ 4-byte Reload
	eors	r1, r2
	ldr	r0, [sp, #172]                  @ 4-byte Reload
	eors	r1, r0
	rors	r1, r7
	ldr	r2, .Laes_v6m_CPI0_21
	bics	r2, r1
	ldr	r1, [sp, #52]                   @ 4-byte Reload
	orrs	r2, r1
	ldr	r1, [sp, #156]                  @ 4-byte Reload
	eors	r2, r1
	lsls	r5, r2, #2
	ldr	r0, .Laes_v6m_CPI0_22
	ands	r5, r0
	eors	r5, r2
	lsls	r1, r5, #4
	ldr	r0, .Laes_v6m_CPI0_23
	ands	r1, r0
	eors	r1, r5
	str	r1, [sp, #92]                   @ 4-byte Spill
	ldr	r3, [sp, #204]                  @ 4-byte Reload
	str	r1, [r3, #116]
	ldr	r0, [sp, #212]                  @ 4-byte Reload
	lsls	r1, r0, #2
	ldr	r0, [sp, #240]                  @ 4-byte Reload
	ands	r1, r0
	muls	r1, r6, r1
	ldr	r2, [sp, #216]                  @ 4-byte Reload
	eors	r1, r2
	rors	r1, r7
	ldr	r7, .Laes_v6m_CPI0_21
	ands	r1, r7
	ldr	r2, [sp, #48]                   @ 4-byte Reload
	orrs	r1, r2
	ldr	r2, [sp, #104]                  @ 4-byte Reload
	eors	r1, r2
	lsls	r2, r1, #2
	ldr	r6, .Laes_v6m_CPI0_22
	ands	r2, r6
	eors	r2, r1
	lsls	r1, r2, #4
	ldr	r6, .Laes_v6m_CPI0_23
	ands	r1, r6
	eors	r1, r2
	str	r1, [sp, #104]                  @ 4-byte Spill
	str	r1, [r3, #112]
	ldr	r1, [sp, #212]                  @ 4-byte Reload
	lsls	r6, r1, #3
	ands	r6, r0
	ldr	r0, [sp, #228]                  @ 4-byte Reload
	muls	r6, r0, r6
	ldr	r0, [sp, #196]                  @ 4-byte Reload
	eors	r6, r0
	ldr	r0, [sp, #216]                  @ 4-byte Reload
	eors	r6, r0
	ldr	r0, [sp, #188]                  @ 4-byte Reload
	rors	r6, r0
	ands	r6, r7
	ldr	r0, [sp, #44]                   @ 4-byte Reload
	orrs	r6, r0
	ldr	r0, [sp, #116]                  @ 4-byte Reload
	eors	r6, r0
	lsls	r1, r6, #2
	ldr	r0, .Laes_v6m_CPI0_22
	ands	r1, r0
	eors	r1, r6
	lsls	r6, r1, #4
	ldr	r7, .Laes_v6m_CPI0_23
	ands	r6, r7
	eors	r6, r1
	str	r6, [sp, #100]                  @ 4-byte Spill
	str	r6, [r3, #108]
	ldr	r3, [sp, #184]                  @ 4-byte Reload
	lsrs	r3, r3, #2
	ldr	r6, .Laes_v6m_CPI0_21
	ands	r3, r6
	ldr	r6, [sp, #108]                  @ 4-byte Reload
	eors	r3, r6
	lsls	r6, r3, #2
	ands	r6, r0
	eors	r6, r3
	lsls	r0, r6, #4
	ands	r0, r7
	eors	r0, r6
	str	r0, [sp, #224]                  @ 4-byte Spill
	lsrs	r3, r4, #2
	ldr	r6, .Laes_v6m_CPI0_21
	ands	r3, r6
	ldr	r0, [sp, #112]                  @ 4-byte Reload
	eors	r3, r0
	lsls	r4, r3, #2
	ldr	r0, .Laes_v6m_CPI0_22
	ands	r4, r0
	eors	r4, r3
	lsls	r0, r4, #4
	ands	r0, r7
	eors	r0, r4
	str	r0, [sp, #196]                  @ 4-byte Spill
	lsrs	r3, r5, #2
	ands	r3, r6
	mov	r5, r6
	ldr	r0, [sp, #36]                   @ 4-byte Reload
	eors	r3, r0
	lsls	r4, r3, #2
	ldr	r0, .Laes_v6m_CPI0_22
	ands	r4, r0
	eors	r4, r3
	lsls	r6, r4, #4
	ands	r6, r7
	eors	r6, r4
	ldr	r3, [sp, #68]                   @ 4-byte Reload
	lsrs	r3, r3, #2
	ands	r3, r5
	ldr	r4, [sp, #176]                  @ 4-byte Reload
	eors	r3, r4
	lsls	r4, r3, #2
	ands	r4, r0
	eors	r4, r3
	lsls	r0, r4, #4
	ands	r0, r7
	eors	r0, r4
	str	r0, [sp, #216]                  @ 4-byte Spill
	ldr	r0, [sp, #168]                  @ 4-byte Reload
	lsrs	r3, r0, #2
	ands	r3, r5
	ldr	r0, [sp, #180]                  @ 4-byte Reload
	eors	r3, r0
	lsls	r4, r3, #2
	ldr	r0, .Laes_v6m_CPI0_22
	ands	r4, r0
	eors	r4, r3
	lsls	r0, r4, #4
	ands	r0, r7
	eors	r0, r4
	str	r0, [sp, #212]                  @ 4-byte Spill
	ldr	r0, [sp, #236]                  @ 4-byte Reload
	lsrs	r0, r0, #2
	ands	r0, r5
	mov	r7, r5
	ldr	r3, [sp, #208]                  @ 4-byte Reload
	eors	r0, r3
	lsls	r3, r0, #2
	ldr	r5, .Laes_v6m_CPI0_22
	ands	r3, r5
	eors	r3, r0
	lsls	r0, r3, #4
	ldr	r4, .Laes_v6m_CPI0_23
	ands	r0, r4
	eors	r0, r3
	str	r0, [sp, #232]                  @ 4-byte Spill
	ldr	r3, [sp, #76]                   @ 4-byte Reload
	lsrs	r0, r2, #2
	ands	r0, r7
	ldr	r2, [sp, #140]                  @ 4-byte Reload
	eors	r0, r2
	lsls	r2, r0, #2
	ands	r2, r5
	mov	r7, r5
	eors	r2, r0
	lsls	r5, r2, #4
	ands	r5, r4
	eors	r5, r2
	lsrs	r0, r1, #2
	ldr	r1, .Laes_v6m_CPI0_21
	ands	r0, r1
	ldr	r1, [sp, #40]                   @ 4-byte Reload
	eors	r0, r1
	lsls	r1, r0, #2
	ands	r1, r7
	eors	r1, r0
	lsls	r7, r1, #4
	ands	r7, r4
	eors	r7, r1
	ldr	r1, [sp, #136]                  @ 4-byte Reload
	adds	r0, r1, #1
	ldr	r2, [sp, #12]                   @ 4-byte Reload
	adcs	r3, r2
	subs	r1, r1, #3
	ldr	r1, [sp, #72]                   @ 4-byte Reload
	sbcs	r1, r2
	str	r0, [sp, #136]                  @ 4-byte Spill
	mov	r0, r3
	bhs	.Laes_v6m_BB0_17
	bl	.Laes_v6m_BB0_10
.Laes_v6m_BB0_17:                               @ %join.5.i164.i
	bl	.Laes_v6m_BB0_33
	.p2align	2
@ %bb.18:
.Laes_v6m_CPI0_20:
	.long	.Laes_v6m_static.0
	.p2align	2
@ %bb.19:
.Laes_v6m_CPI0_21:
	.long	50529027                        @ 0x3030303
	.p2align	2
@ %bb.20:
.Laes_v6m_CPI0_22:
	.long	4244438268                      @ 0xfcfcfcfc
	.p2align	2
@ %bb.21:
.Laes_v6m_CPI0_23:
	.long	4042322160                      @ 0xf0f0f0f0
	.p2align	1
.Laes_v6m_BB0_22:                               @ %else.5.i
	lsls	r0, r0, #7
	adds	r0, r4, r0
	str	r0, [sp, #80]                   @ 4-byte Spill
	movs	r0, #7
	lsls	r0, r0, #6
	adds	r0, r4, r0
	str	r0, [sp, #84]                   @ 4-byte Spill
	add	r0, sp, #244
	mov	r7, r1
	bl	aes_v6m.aes_planes.soft.word.word32.U32Word.in_every_slot
	ldr	r0, [sp, #244]
	str	r0, [sp, #240]                  @ 4-byte Spill
	ldr	r0, [sp, #248]
	str	r0, [sp, #228]                  @ 4-byte Spill
	ldr	r0, [sp, #252]
	str	r0, [sp, #212]                  @ 4-byte Spill
	ldr	r0, [sp, #256]
	str	r0, [sp, #208]                  @ 4-byte Spill
	ldr	r0, [sp, #260]
	str	r0, [sp, #204]                  @ 4-byte Spill
	ldr	r0, [sp, #264]
	str	r0, [sp, #200]                  @ 4-byte Spill
	ldr	r0, [sp, #268]
	str	r0, [sp, #196]                  @ 4-byte Spill
	ldr	r0, [sp, #272]
	str	r0, [sp, #188]                  @ 4-byte Spill
	adds	r7, #16
	add	r0, sp, #244
	mov	r1, r7
	bl	aes_v6m.aes_planes.soft.word.word32.U32Word.in_every_slot
	ldr	r1, [sp, #244]
	ldr	r5, [sp, #248]
	ldr	r0, [sp, #252]
	str	r0, [sp, #236]                  @ 4-byte Spill
	ldr	r2, [sp, #256]
	ldr	r3, [sp, #260]
	ldr	r7, [sp, #264]
	ldr	r0, [sp, #268]
	ldr	r6, [sp, #272]
	str	r1, [sp, #232]                  @ 4-byte Spill
	str	r1, [r4, #32]
	str	r5, [sp, #216]                  @ 4-byte Spill
	str	r5, [r4, #36]
	ldr	r1, [sp, #236]                  @ 4-byte Reload
	str	r1, [r4, #40]
	str	r2, [r4, #44]
	str	r3, [sp, #224]                  @ 4-byte Spill
	str	r3, [r4, #48]
	str	r7, [r4, #52]
	str	r0, [r4, #56]
	str	r6, [sp, #192]                  @ 4-byte Spill
	str	r6, [r4, #60]
	ldr	r1, [sp, #240]                  @ 4-byte Reload
	str	r1, [r4]
	ldr	r1, [sp, #228]                  @ 4-byte Reload
	str	r1, [r4, #4]
	ldr	r1, [sp, #212]                  @ 4-byte Reload
	str	r1, [r4, #8]
	ldr	r1, [sp, #208]                  @ 4-byte Reload
	str	r1, [r4, #12]
	ldr	r1, [sp, #204]                  @ 4-byte Reload
	str	r1, [r4, #16]
	ldr	r1, [sp, #200]                  @ 4-byte Reload
	str	r1, [r4, #20]
	ldr	r1, [sp, #196]                  @ 4-byte Reload
	str	r1, [r4, #24]
	ldr	r1, [sp, #188]                  @ 4-byte Reload
	str	r1, [r4, #28]
	movs	r1, #0
	str	r1, [sp, #168]                  @ 4-byte Spill
	str	r1, [sp, #88]                   @ 4-byte Spill
	mov	r3, r1
.Laes_v6m_BB0_23:                               @ %join.5.i348.i
                                        @ =>This Inner Loop Header: Depth=1
	str	r1, [sp, #132]                  @ 4-byte Spill
	str	r3, [sp, #136]                  @ 4-byte Spill
	ldr	r4, [sp, #224]                  @ 4-byte Reload
	ldr	r5, [sp, #236]                  @ 4-byte Reload
	eors	r4, r5
	str	r4, [sp, #156]                  @ 4-byte Spill
	str	r5, [sp, #236]                  @ 4-byte Spill
	ldr	r6, [sp, #192]                  @ 4-byte Reload
	mov	r3, r6
	str	r6, [sp, #192]                  @ 4-byte Spill
	ldr	r1, [sp, #216]                  @ 4-byte Reload
	eors	r3, r1
	str	r3, [sp, #152]                  @ 4-byte Spill
	mov	r1, r3
	eors	r1, r4
	str	r1, [sp, #200]                  @ 4-byte Spill
	eors	r2, r1
	mov	r1, r2
	eors	r1, r5
	str	r1, [sp, #148]                  @ 4-byte Spill
	eors	r7, r0
	mov	r3, r1
	eors	r3, r7
	str	r3, [sp, #212]                  @ 4-byte Spill
	eors	r2, r0
	str	r2, [sp, #188]                  @ 4-byte Spill
	ldr	r1, [sp, #224]                  @ 4-byte Reload
	eors	r6, r1
	mov	r4, r2
	eors	r4, r6
	str	r4, [sp, #208]                  @ 4-byte Spill
	str	r6, [sp, #140]                  @ 4-byte Spill
	mov	r0, r4
	eors	r0, r3
	str	r0, [sp, #176]                  @ 4-byte Spill
	ldr	r1, [sp, #156]                  @ 4-byte Reload
	ands	r0, r1
	mov	r1, r4
	ands	r1, r6
	eors	r0, r1
	mov	r6, r0
	str	r0, [sp, #204]                  @ 4-byte Spill
	mov	r5, r4
	eors	r5, r7
	ldr	r0, [sp, #232]                  @ 4-byte Reload
	eors	r7, r0
	ldr	r4, [sp, #216]                  @ 4-byte Reload
	eors	r4, r7
	str	r4, [sp, #216]                  @ 4-byte Spill
	ands	r4, r7
	eors	r4, r5
	mov	r3, r5
	str	r5, [sp, #196]                  @ 4-byte Spill
	ldr	r0, [sp, #152]                  @ 4-byte Reload
	ands	r3, r0
	eors	r4, r3
	eors	r4, r0
	eors	r4, r6
	str	r4, [sp, #240]                  @ 4-byte Spill
	ldr	r4, [sp, #236]                  @ 4-byte Reload
	ldr	r2, [sp, #192]                  @ 4-byte Reload
	eors	r4, r2
	ldr	r6, [sp, #212]                  @ 4-byte Reload
	ands	r6, r4
	eors	r6, r1
	ldr	r1, [sp, #208]                  @ 4-byte Reload
	ldr	r0, [sp, #232]                  @ 4-byte Reload
	eors	r1, r0
	str	r1, [sp, #120]                  @ 4-byte Spill
	mov	r0, r7
	eors	r0, r2
	str	r0, [sp, #180]                  @ 4-byte Spill
	ands	r1, r0
	eors	r1, r5
	eors	r1, r3
	eors	r1, r2
	eors	r1, r6
	mov	r5, r4
	str	r4, [sp, #236]                  @ 4-byte Spill
	mov	r2, r1
	ldr	r0, [sp, #240]                  @ 4-byte Reload
	eors	r2, r0
	str	r2, [sp, #192]                  @ 4-byte Spill
	ldr	r0, [sp, #148]                  @ 4-byte Reload
	mov	r4, r0
	ldr	r3, [sp, #200]                  @ 4-byte Reload
	ands	r4, r3
	ldr	r3, [sp, #216]                  @ 4-byte Reload
	eors	r3, r5
	str	r3, [sp, #228]                  @ 4-byte Spill
	mov	r5, r0
	ldr	r3, [sp, #232]                  @ 4-byte Reload
	eors	r5, r3
	str	r5, [sp, #128]                  @ 4-byte Spill
	ldr	r0, [sp, #228]                  @ 4-byte Reload
	ands	r5, r0
	ldr	r0, [sp, #188]                  @ 4-byte Reload
	eors	r5, r0
	eors	r5, r4
	ldr	r0, [sp, #204]                  @ 4-byte Reload
	eors	r5, r0
	mov	r2, r7
	str	r7, [sp, #184]                  @ 4-byte Spill
	ldr	r7, [sp, #240]                  @ 4-byte Reload
	ands	r7, r5
	ldr	r0, [sp, #224]                  @ 4-byte Reload
	eors	r0, r2
	str	r0, [sp, #224]                  @ 4-byte Spill
	ands	r0, r3
	ldr	r2, [sp, #236]                  @ 4-byte Reload
	eors	r0, r2
	ldr	r2, [sp, #212]                  @ 4-byte Reload
	eors	r0, r2
	eors	r0, r4
	eors	r0, r6
	mov	r2, r7
	eors	r2, r0
	ldr	r3, [sp, #192]                  @ 4-byte Reload
	ands	r2, r3
	mov	r6, r2
	eors	r6, r1
	eors	r2, r7
	ands	r2, r1
	ldr	r3, [sp, #240]                  @ 4-byte Reload
	eors	r3, r2
	str	r3, [sp, #240]                  @ 4-byte Spill
	mov	r4, r3
	eors	r4, r6
	mov	r3, r6
	str	r6, [sp, #104]                  @ 4-byte Spill
	str	r4, [sp, #204]                  @ 4-byte Spill
	eors	r5, r0
	eors	r7, r1
	eors	r2, r7
	ands	r7, r5
	eors	r7, r0
	ands	r2, r7
	eors	r2, r5
	mov	r6, r2
	eors	r6, r4
	str	r6, [sp, #160]                  @ 4-byte Spill
	mov	r0, r7
	str	r7, [sp, #192]                  @ 4-byte Spill
	eors	r0, r3
	eors	r6, r0
	mov	r5, r0
	ldr	r3, [sp, #176]                  @ 4-byte Reload
	ands	r3, r6
	ldr	r0, [sp, #184]                  @ 4-byte Reload
	ands	r0, r2
	mov	r4, r2
	eors	r4, r7
	str	r4, [sp, #172]                  @ 4-byte Spill
	ldr	r1, [sp, #196]                  @ 4-byte Reload
	ands	r1, r4
	str	r1, [sp, #196]                  @ 4-byte Spill
	eors	r0, r1
	str	r0, [sp, #184]                  @ 4-byte Spill
	eors	r3, r0
	str	r3, [sp, #176]                  @ 4-byte Spill
	ldr	r4, [sp, #208]                  @ 4-byte Reload
	ands	r4, r5
	eors	r4, r3
	str	r4, [sp, #208]                  @ 4-byte Spill
	ldr	r1, .Laes_v6m_CPI0_24
	ldr	r7, [sp, #168]                  @ 4-byte Reload
	ldrb	r0, [r1, r7]
	str	r0, [sp, #188]                  @ 4-byte Spill
	lsrs	r1, r0, #1
	movs	r0, #64
	str	r0, [sp, #144]                  @ 4-byte Spill
	ands	r1, r0
	ldr	r3, [sp, #164]                  @ 4-byte Reload
	lsls	r0, r3, #8
	str	r0, [sp, #100]                  @ 4-byte Spill
	muls	r1, r0, r1
	eors	r1, r4
	ldr	r0, [sp, #156]                  @ 4-byte Reload
	ands	r6, r0
	ldr	r0, [sp, #140]                  @ 4-byte Reload
	ands	r5, r0
	str	r5, [sp, #124]                  @ 4-byte Spill
	eors	r6, r5
	str	r6, [sp, #108]                  @ 4-byte Spill
	ldr	r0, [sp, #204]                  @ 4-byte Reload
	ldr	r4, [sp, #228]                  @ 4-byte Reload
	ands	r4, r0
	eors	r4, r6
	str	r4, [sp, #228]                  @ 4-byte Spill
	ldr	r0, [sp, #200]                  @ 4-byte Reload
	ldr	r3, [sp, #240]                  @ 4-byte Reload
	ands	r0, r3
	eors	r0, r4
	str	r0, [sp, #200]                  @ 4-byte Spill
	eors	r1, r0
	movs	r0, #14
	str	r0, [sp, #140]                  @ 4-byte Spill
	rors	r1, r0
	ldr	r3, .Laes_v6m_CPI0_25
	ands	r1, r3
	lsls	r0, r7, #6
	str	r0, [sp, #112]                  @ 4-byte Spill
	ldr	r3, [sp, #220]                  @ 4-byte Reload
	adds	r4, r3, r0
	ldr	r3, [r4, #28]
	eors	r3, r1
	lsls	r1, r3, #2
	ldr	r5, .Laes_v6m_CPI0_26
	ands	r1, r5
	eors	r1, r3
	lsls	r0, r1, #4
	ldr	r3, .Laes_v6m_CPI0_27
	ands	r0, r3
	eors	r0, r1
	str	r0, [sp, #156]                  @ 4-byte Spill
	str	r0, [r4, #92]
	ldr	r5, [sp, #212]                  @ 4-byte Reload
	ldr	r0, [sp, #160]                  @ 4-byte Reload
	ands	r5, r0
	ldr	r0, [sp, #232]                  @ 4-byte Reload
	ldr	r6, [sp, #104]                  @ 4-byte Reload
	ands	r0, r6
	ldr	r1, [sp, #240]                  @ 4-byte Reload
	ldr	r3, [sp, #148]                  @ 4-byte Reload
	ands	r1, r3
	str	r1, [sp, #240]                  @ 4-byte Spill
	eors	r0, r1
	str	r0, [sp, #232]                  @ 4-byte Spill
	eors	r5, r0
	ldr	r1, [sp, #152]                  @ 4-byte Reload
	ldr	r0, [sp, #172]                  @ 4-byte Reload
	ands	r0, r1
	str	r0, [sp, #172]                  @ 4-byte Spill
	eors	r5, r0
	ldr	r0, [sp, #176]                  @ 4-byte Reload
	eors	r5, r0
	str	r5, [sp, #212]                  @ 4-byte Spill
	ldr	r1, [sp, #180]                  @ 4-byte Reload
	ldr	r0, [sp, #192]                  @ 4-byte Reload
	ands	r1, r0
	eors	r1, r5
	mov	r3, r1
	str	r1, [sp, #180]                  @ 4-byte Spill
	ldr	r1, [sp, #224]                  @ 4-byte Reload
	ands	r6, r1
	ldr	r1, [sp, #188]                  @ 4-byte Reload
	lsls	r1, r1, #4
	ldr	r7, [sp, #144]                  @ 4-byte Reload
	ands	r1, r7
	ldr	r5, [sp, #100]                  @ 4-byte Reload
	muls	r1, r5, r1
	eors	r1, r6
	ldr	r0, [sp, #228]                  @ 4-byte Reload
	eors	r1, r0
	eors	r1, r3
	ldr	r6, [sp, #140]                  @ 4-byte Reload
	rors	r1, r6
	ldr	r3, .Laes_v6m_CPI0_25
	ands	r1, r3
	ldr	r3, [r4, #8]
	eors	r3, r1
	lsls	r1, r3, #2
	ldr	r0, .Laes_v6m_CPI0_26
	ands	r1, r0
	eors	r1, r3
	lsls	r3, r1, #4
	ldr	r0, .Laes_v6m_CPI0_27
	ands	r3, r0
	eors	r3, r1
	str	r3, [sp, #228]                  @ 4-byte Spill
	str	r3, [r4, #72]
	ldr	r1, [sp, #120]                  @ 4-byte Reload
	ldr	r3, [sp, #192]                  @ 4-byte Reload
	ands	r3, r1
	ldr	r0, [sp, #232]                  @ 4-byte Reload
	eors	r3, r0
	ldr	r0, [sp, #196]                  @ 4-byte Reload
	eors	r3, r0
	str	r3, [sp, #192]                  @ 4-byte Spill
	ldr	r0, [sp, #216]                  @ 4-byte Reload
	ands	r2, r0
	eors	r2, r3
	ldr	r0, [sp, #108]                  @ 4-byte Reload
	eors	r2, r0
	ldr	r3, [sp, #188]                  @ 4-byte Reload
	lsls	r0, r3, #5
	ands	r0, r7
	muls	r0, r5, r0
	eors	r0, r2
	ldr	r1, [sp, #212]                  @ 4-byte Reload
	eors	r0, r1
	rors	r0, r6
	ldr	r1, .Laes_v6m_CPI0_25
	bics	r1, r0
	ldr	r0, [r4, #4]
	eors	r0, r1
	lsls	r1, r0, #2
	ldr	r7, .Laes_v6m_CPI0_26
	ands	r1, r7
	eors	r1, r0
	lsls	r0, r1, #4
	ldr	r7, .Laes_v6m_CPI0_27
	ands	r0, r7
	eors	r0, r1
	str	r0, [sp, #232]                  @ 4-byte Spill
	str	r0, [r4, #68]
	lsls	r0, r3, #31
	lsrs	r0, r0, #25
	muls	r0, r5, r0
	eors	r0, r2
	ldr	r1, [sp, #172]                  @ 4-byte Reload
	eors	r0, r1
	rors	r0, r6
	ldr	r1, .Laes_v6m_CPI0_25
	bics	r1, r0
	ldr	r0, [sp, #112]                  @ 4-byte Reload
	ldr	r2, [sp, #220]                  @ 4-byte Reload
	ldr	r0, [r2, r0]
	eors	r0, r1
	lsls	r1, r0, #2
	ldr	r2, .Laes_v6m_CPI0_26
	ands	r1, r2
	eors	r1, r0
	lsls	r0, r1, #4
	mov	r2, r7
	ands	r0, r7
	eors	r0, r1
	str	r0, [sp, #196]                  @ 4-byte Spill
	str	r0, [r4, #64]
	mov	r0, r3
	ldr	r7, [sp, #144]                  @ 4-byte Reload
	ands	r0, r7
	muls	r0, r5, r0
	ldr	r1, [sp, #208]                  @ 4-byte Reload
	eors	r0, r1
	ldr	r1, [sp, #204]                  @ 4-byte Reload
	ldr	r3, [sp, #128]                  @ 4-byte Reload
	ands	r1, r3
	ldr	r3, [sp, #240]                  @ 4-byte Reload
	eors	r1, r3
	ldr	r3, [sp, #184]                  @ 4-byte Reload
	eors	r1, r3
	ldr	r3, [sp, #200]                  @ 4-byte Reload
	eors	r1, r3
	str	r1, [sp, #204]                  @ 4-byte Spill
	eors	r0, r1
	rors	r0, r6
	ldr	r1, .Laes_v6m_CPI0_25
	bics	r1, r0
	ldr	r0, [r4, #24]
	eors	r0, r1
	lsls	r1, r0, #2
	ldr	r3, .Laes_v6m_CPI0_26
	ands	r1, r3
	eors	r1, r0
	lsls	r0, r1, #4
	ands	r0, r2
	eors	r0, r1
	str	r0, [sp, #176]                  @ 4-byte Spill
	str	r0, [r4, #88]
	mov	r2, r4
	ldr	r0, [sp, #236]                  @ 4-byte Reload
	ldr	r1, [sp, #160]                  @ 4-byte Reload
	ands	r1, r0
	ldr	r3, [sp, #188]                  @ 4-byte Reload
	lsls	r0, r3, #1
	mov	r4, r7
	ands	r0, r7
	muls	r0, r5, r0
	eors	r0, r1
	ldr	r1, [sp, #208]                  @ 4-byte Reload
	eors	r0, r1
	ldr	r1, [sp, #124]                  @ 4-byte Reload
	eors	r0, r1
	ldr	r1, [sp, #180]                  @ 4-byte Reload
	eors	r0, r1
	mov	r7, r6
	rors	r0, r6
	ldr	r1, .Laes_v6m_CPI0_25
	bics	r1, r0
	ldr	r0, [r2, #20]
	eors	r0, r1
	lsls	r1, r0, #2
	ldr	r6, .Laes_v6m_CPI0_26
	ands	r1, r6
	eors	r1, r0
	lsls	r0, r1, #4
	ldr	r6, .Laes_v6m_CPI0_27
	ands	r0, r6
	eors	r0, r1
	str	r0, [sp, #240]                  @ 4-byte Spill
	str	r0, [r2, #84]
	lsls	r0, r3, #2
	ands	r0, r4
	muls	r0, r5, r0
	ldr	r3, [sp, #204]                  @ 4-byte Reload
	eors	r0, r3
	rors	r0, r7
	ldr	r1, .Laes_v6m_CPI0_25
	ands	r0, r1
	ldr	r1, [r2, #16]
	eors	r1, r0
	lsls	r0, r1, #2
	ldr	r6, .Laes_v6m_CPI0_26
	ands	r0, r6
	eors	r0, r1
	lsls	r1, r0, #4
	ldr	r6, .Laes_v6m_CPI0_27
	ands	r1, r6
	eors	r1, r0
	str	r1, [sp, #216]                  @ 4-byte Spill
	str	r1, [r2, #80]
	str	r2, [sp, #116]                  @ 4-byte Spill
	ldr	r0, [sp, #188]                  @ 4-byte Reload
	lsls	r0, r0, #3
	ands	r0, r4
	muls	r0, r5, r0
	ldr	r1, [sp, #192]                  @ 4-byte Reload
	eors	r0, r1
	eors	r0, r3
	rors	r0, r7
	ldr	r1, .Laes_v6m_CPI0_25
	ands	r0, r1
	ldr	r1, [r2, #12]
	eors	r1, r0
	lsls	r0, r1, #2
	ldr	r3, .Laes_v6m_CPI0_26
	ands	r0, r3
	eors	r0, r1
	lsls	r5, r0, #4
	ldr	r3, .Laes_v6m_CPI0_27
	ands	r5, r3
	eors	r5, r0
	str	r5, [r2, #76]
	ldr	r0, [sp, #240]                  @ 4-byte Reload
	ldr	r3, [sp, #176]                  @ 4-byte Reload
	eors	r0, r3
	str	r0, [sp, #240]                  @ 4-byte Spill
	mov	r1, r0
	ldr	r0, [sp, #196]                  @ 4-byte Reload
	eors	r1, r0
	str	r1, [sp, #236]                  @ 4-byte Spill
	mov	r6, r1
	ldr	r0, [sp, #232]                  @ 4-byte Reload
	eors	r6, r0
	str	r6, [sp, #160]                  @ 4-byte Spill
	ands	r6, r1
	ldr	r7, [sp, #156]                  @ 4-byte Reload
	eors	r0, r7
	str	r0, [sp, #232]                  @ 4-byte Spill
	ldr	r4, [sp, #216]                  @ 4-byte Reload
	mov	r2, r4
	ldr	r1, [sp, #228]                  @ 4-byte Reload
	eors	r2, r1
	mov	r1, r2
	str	r2, [sp, #192]                  @ 4-byte Spill
	mov	r2, r0
	eors	r2, r1
	str	r2, [sp, #224]                  @ 4-byte Spill
	eors	r5, r2
	eors	r3, r5
	str	r3, [sp, #176]                  @ 4-byte Spill
	mov	r1, r4
	eors	r1, r7
	mov	r0, r3
	eors	r0, r1
	mov	r7, r1
	str	r1, [sp, #144]                  @ 4-byte Spill
	mov	r4, r0
	mov	r1, r0
	ldr	r2, [sp, #240]                  @ 4-byte Reload
	eors	r4, r2
	str	r4, [sp, #204]                  @ 4-byte Spill
	eors	r6, r4
	ldr	r3, [sp, #232]                  @ 4-byte Reload
	ands	r4, r3
	eors	r6, r4
	eors	r6, r3
	ldr	r0, [sp, #228]                  @ 4-byte Reload
	eors	r5, r0
	str	r5, [sp, #152]                  @ 4-byte Spill
	eors	r2, r5
	str	r2, [sp, #240]                  @ 4-byte Spill
	mov	r5, r1
	str	r1, [sp, #212]                  @ 4-byte Spill
	mov	r3, r1
	eors	r3, r2
	str	r3, [sp, #184]                  @ 4-byte Spill
	ldr	r0, [sp, #192]                  @ 4-byte Reload
	ands	r3, r0
	ands	r1, r7
	eors	r3, r1
	eors	r6, r3
	str	r6, [sp, #200]                  @ 4-byte Spill
	ldr	r0, [sp, #236]                  @ 4-byte Reload
	ldr	r7, [sp, #156]                  @ 4-byte Reload
	eors	r0, r7
	str	r0, [sp, #188]                  @ 4-byte Spill
	mov	r2, r5
	ldr	r5, [sp, #196]                  @ 4-byte Reload
	eors	r2, r5
	str	r2, [sp, #148]                  @ 4-byte Spill
	mov	r5, r2
	ands	r5, r0
	ldr	r0, [sp, #204]                  @ 4-byte Reload
	eors	r5, r0
	eors	r5, r4
	eors	r5, r7
	ldr	r0, [sp, #228]                  @ 4-byte Reload
	eors	r0, r7
	ldr	r7, [sp, #240]                  @ 4-byte Reload
	ands	r7, r0
	str	r0, [sp, #228]                  @ 4-byte Spill
	eors	r7, r1
	eors	r5, r7
	mov	r1, r5
	eors	r1, r6
	str	r1, [sp, #208]                  @ 4-byte Spill
	ldr	r6, [sp, #152]                  @ 4-byte Reload
	mov	r4, r6
	ldr	r1, [sp, #224]                  @ 4-byte Reload
	ands	r4, r1
	ldr	r2, [sp, #160]                  @ 4-byte Reload
	eors	r2, r0
	str	r2, [sp, #172]                  @ 4-byte Spill
	mov	r0, r6
	ldr	r1, [sp, #196]                  @ 4-byte Reload
	eors	r0, r1
	str	r0, [sp, #120]                  @ 4-byte Spill
	ands	r0, r2
	ldr	r2, [sp, #176]                  @ 4-byte Reload
	eors	r0, r2
	eors	r0, r4
	eors	r0, r3
	ldr	r6, [sp, #200]                  @ 4-byte Reload
	ands	r6, r0
	ldr	r3, [sp, #216]                  @ 4-byte Reload
	ldr	r2, [sp, #236]                  @ 4-byte Reload
	eors	r3, r2
	str	r3, [sp, #216]                  @ 4-byte Spill
	ands	r3, r1
	ldr	r2, [sp, #228]                  @ 4-byte Reload
	eors	r3, r2
	ldr	r2, [sp, #240]                  @ 4-byte Reload
	eors	r3, r2
	eors	r3, r4
	eors	r3, r7
	mov	r7, r6
	eors	r7, r3
	ldr	r1, [sp, #208]                  @ 4-byte Reload
	ands	r7, r1
	mov	r1, r7
	eors	r1, r5
	eors	r7, r6
	ands	r7, r5
	ldr	r2, [sp, #200]                  @ 4-byte Reload
	eors	r2, r7
	str	r2, [sp, #200]                  @ 4-byte Spill
	eors	r2, r1
	str	r2, [sp, #208]                  @ 4-byte Spill
	str	r1, [sp, #100]                  @ 4-byte Spill
	eors	r0, r3
	eors	r6, r5
	eors	r7, r6
	ands	r6, r0
	eors	r6, r3
	ands	r7, r6
	eors	r7, r0
	mov	r0, r7
	eors	r0, r2
	str	r0, [sp, #176]                  @ 4-byte Spill
	mov	r3, r6
	eors	r3, r1
	mov	r1, r0
	eors	r1, r3
	ldr	r5, [sp, #184]                  @ 4-byte Reload
	ands	r5, r1
	ldr	r2, [sp, #236]                  @ 4-byte Reload
	ands	r2, r7
	mov	r4, r7
	eors	r4, r6
	str	r4, [sp, #180]                  @ 4-byte Spill
	ldr	r0, [sp, #204]                  @ 4-byte Reload
	ands	r0, r4
	str	r0, [sp, #204]                  @ 4-byte Spill
	eors	r2, r0
	str	r2, [sp, #236]                  @ 4-byte Spill
	eors	r5, r2
	str	r5, [sp, #184]                  @ 4-byte Spill
	ldr	r0, [sp, #212]                  @ 4-byte Reload
	ands	r0, r3
	eors	r0, r5
	mov	r2, r0
	str	r0, [sp, #212]                  @ 4-byte Spill
	ldr	r0, [sp, #192]                  @ 4-byte Reload
	ands	r1, r0
	ldr	r0, [sp, #144]                  @ 4-byte Reload
	ands	r3, r0
	str	r3, [sp, #128]                  @ 4-byte Spill
	eors	r1, r3
	str	r1, [sp, #112]                  @ 4-byte Spill
	ldr	r0, [sp, #172]                  @ 4-byte Reload
	ldr	r3, [sp, #208]                  @ 4-byte Reload
	ands	r0, r3
	eors	r0, r1
	str	r0, [sp, #172]                  @ 4-byte Spill
	ldr	r1, [sp, #224]                  @ 4-byte Reload
	ldr	r4, [sp, #200]                  @ 4-byte Reload
	ands	r1, r4
	eors	r1, r0
	str	r1, [sp, #224]                  @ 4-byte Spill
	mov	r0, r1
	eors	r0, r2
	lsrs	r3, r0, #6
	ldr	r0, .Laes_v6m_CPI0_25
	ands	r3, r0
	ldr	r5, [sp, #116]                  @ 4-byte Reload
	ldr	r1, [r5, #36]
	str	r1, [sp, #104]                  @ 4-byte Spill
	ldr	r1, [r5, #40]
	str	r1, [sp, #96]                   @ 4-byte Spill
	ldr	r2, [r5, #44]
	str	r2, [sp, #144]                  @ 4-byte Spill
	ldr	r1, [r5, #48]
	str	r1, [sp, #92]                   @ 4-byte Spill
	ldr	r2, [r5, #52]
	str	r2, [sp, #124]                  @ 4-byte Spill
	ldr	r2, [r5, #56]
	str	r2, [sp, #156]                  @ 4-byte Spill
	ldr	r0, [r5, #60]
	eors	r0, r3
	lsls	r3, r0, #2
	ldr	r2, .Laes_v6m_CPI0_26
	ands	r3, r2
	eors	r3, r0
	lsls	r0, r3, #4
	ldr	r2, .Laes_v6m_CPI0_27
	ands	r0, r2
	eors	r0, r3
	ldr	r1, [r5, #32]
	str	r1, [sp, #108]                  @ 4-byte Spill
	str	r0, [sp, #192]                  @ 4-byte Spill
	str	r0, [r5, #124]
	ldr	r0, [sp, #208]                  @ 4-byte Reload
	ldr	r1, [sp, #120]                  @ 4-byte Reload
	ands	r0, r1
	ldr	r1, [sp, #152]                  @ 4-byte Reload
	ands	r4, r1
	eors	r0, r4
	ldr	r1, [sp, #236]                  @ 4-byte Reload
	eors	r0, r1
	ldr	r1, [sp, #224]                  @ 4-byte Reload
	eors	r0, r1
	str	r0, [sp, #208]                  @ 4-byte Spill
	lsrs	r0, r0, #6
	ldr	r3, .Laes_v6m_CPI0_25
	ands	r0, r3
	ldr	r1, [sp, #92]                   @ 4-byte Reload
	eors	r0, r1
	lsls	r3, r0, #2
	ldr	r1, .Laes_v6m_CPI0_26
	ands	r3, r1
	eors	r3, r0
	lsls	r0, r3, #4
	ldr	r1, .Laes_v6m_CPI0_27
	ands	r0, r1
	eors	r0, r3
	str	r0, [sp, #224]                  @ 4-byte Spill
	b	.Laes_v6m_BB0_28
	.p2align	2
@ %bb.24:
.Laes_v6m_CPI0_24:
	.long	.Laes_v6m_static.0
	.p2align	2
@ %bb.25:
.Laes_v6m_CPI0_25:
	.long	50529027                        @ 0x3030303
	.p2align	2
@ %bb.26:
.Laes_v6m_CPI0_26:
	.long	4244438268                      @ 0xfcfcfcfc
	.p2align	2
@ %bb.27:
.Laes_v6m_CPI0_27:
	.long	4042322160                      @ 0xf0f0f0f0
	.p2align	1
.Laes_v6m_BB0_28:                               @ %join.5.i348.i
                                        @   in Loop: Header=BB0_23 Depth=1
	str	r0, [r5, #112]
	ldr	r2, [sp, #240]                  @ 4-byte Reload
	ldr	r0, [sp, #176]                  @ 4-byte Reload
	ands	r2, r0
	ldr	r3, [sp, #196]                  @ 4-byte Reload
	ldr	r1, [sp, #100]                  @ 4-byte Reload
	ands	r3, r1
	eors	r3, r4
	eors	r2, r3
	ldr	r0, [sp, #232]                  @ 4-byte Reload
	ldr	r4, [sp, #180]                  @ 4-byte Reload
	ands	r4, r0
	str	r4, [sp, #180]                  @ 4-byte Spill
	eors	r2, r4
	ldr	r0, [sp, #184]                  @ 4-byte Reload
	eors	r2, r0
	ldr	r0, [sp, #188]                  @ 4-byte Reload
	ands	r0, r6
	eors	r0, r2
	str	r0, [sp, #188]                  @ 4-byte Spill
	ldr	r4, [sp, #216]                  @ 4-byte Reload
	ands	r1, r4
	ldr	r4, [sp, #172]                  @ 4-byte Reload
	eors	r1, r4
	eors	r1, r0
	lsrs	r0, r1, #6
	ldr	r1, .Laes_v6m_CPI0_28
	ands	r0, r1
	ldr	r1, [sp, #96]                   @ 4-byte Reload
	eors	r0, r1
	lsls	r1, r0, #2
	ldr	r4, .Laes_v6m_CPI0_29
	ands	r1, r4
	eors	r1, r0
	lsls	r0, r1, #4
	ldr	r4, .Laes_v6m_CPI0_30
	ands	r0, r4
	eors	r0, r1
	mov	r4, r5
	str	r0, [sp, #236]                  @ 4-byte Spill
	str	r0, [r5, #104]
	ldr	r0, [sp, #148]                  @ 4-byte Reload
	ands	r6, r0
	eors	r6, r3
	ldr	r0, [sp, #204]                  @ 4-byte Reload
	eors	r6, r0
	ldr	r0, [sp, #160]                  @ 4-byte Reload
	ands	r7, r0
	eors	r7, r6
	ldr	r0, [sp, #112]                  @ 4-byte Reload
	eors	r7, r0
	eors	r2, r7
	mvns	r0, r2
	lsrs	r0, r0, #6
	ldr	r5, .Laes_v6m_CPI0_28
	ands	r0, r5
	ldr	r1, [sp, #104]                  @ 4-byte Reload
	eors	r0, r1
	lsls	r1, r0, #2
	ldr	r2, .Laes_v6m_CPI0_29
	ands	r1, r2
	eors	r1, r0
	lsls	r0, r1, #4
	ldr	r2, .Laes_v6m_CPI0_30
	ands	r0, r2
	eors	r0, r1
	str	r0, [sp, #216]                  @ 4-byte Spill
	str	r0, [r4, #100]
	mov	r3, r4
	ldr	r0, [sp, #180]                  @ 4-byte Reload
	eors	r7, r0
	mvns	r0, r7
	lsrs	r0, r0, #6
	ands	r0, r5
	mov	r4, r5
	ldr	r1, [sp, #108]                  @ 4-byte Reload
	eors	r0, r1
	lsls	r1, r0, #2
	ldr	r7, .Laes_v6m_CPI0_29
	ands	r1, r7
	eors	r1, r0
	lsls	r0, r1, #4
	ands	r0, r2
	eors	r0, r1
	str	r0, [sp, #232]                  @ 4-byte Spill
	str	r0, [r3, #96]
	ldr	r0, [sp, #228]                  @ 4-byte Reload
	ldr	r1, [sp, #176]                  @ 4-byte Reload
	ands	r1, r0
	ldr	r0, [sp, #128]                  @ 4-byte Reload
	eors	r1, r0
	ldr	r0, [sp, #212]                  @ 4-byte Reload
	eors	r1, r0
	ldr	r0, [sp, #188]                  @ 4-byte Reload
	eors	r1, r0
	mvns	r0, r1
	ldr	r5, [sp, #136]                  @ 4-byte Reload
	lsrs	r0, r0, #6
	ands	r0, r4
	ldr	r1, [sp, #124]                  @ 4-byte Reload
	eors	r0, r1
	lsls	r1, r0, #2
	ands	r1, r7
	mov	r2, r7
	eors	r1, r0
	lsls	r7, r1, #4
	ldr	r0, .Laes_v6m_CPI0_30
	ands	r7, r0
	eors	r7, r1
	str	r7, [r3, #116]
	ldr	r4, [sp, #208]                  @ 4-byte Reload
	eors	r6, r4
	lsrs	r0, r6, #6
	ldr	r6, .Laes_v6m_CPI0_28
	ands	r0, r6
	ldr	r1, [sp, #144]                  @ 4-byte Reload
	eors	r0, r1
	lsls	r1, r0, #2
	ands	r1, r2
	eors	r1, r0
	lsls	r2, r1, #4
	ldr	r0, .Laes_v6m_CPI0_30
	ands	r2, r0
	eors	r2, r1
	str	r2, [r3, #108]
	ldr	r0, [sp, #212]                  @ 4-byte Reload
	mov	r1, r4
	eors	r1, r0
	mvns	r0, r1
	lsrs	r0, r0, #6
	ands	r0, r6
	ldr	r1, [sp, #156]                  @ 4-byte Reload
	eors	r0, r1
	lsls	r1, r0, #2
	ldr	r4, .Laes_v6m_CPI0_29
	ands	r1, r4
	eors	r1, r0
	lsls	r0, r1, #4
	ldr	r4, .Laes_v6m_CPI0_30
	ands	r0, r4
	eors	r0, r1
	str	r0, [r3, #120]
	ldr	r3, [sp, #168]                  @ 4-byte Reload
	adds	r1, r3, #1
	ldr	r4, [sp, #88]                   @ 4-byte Reload
	adcs	r5, r4
	subs	r3, r3, #5
	ldr	r3, [sp, #132]                  @ 4-byte Reload
	sbcs	r3, r4
	str	r1, [sp, #168]                  @ 4-byte Spill
	mov	r3, r5
	mov	r1, r5
	bhs	.Laes_v6m_BB0_32
	b	.Laes_v6m_BB0_23
	.p2align	2
@ %bb.29:
.Laes_v6m_CPI0_28:
	.long	50529027                        @ 0x3030303
	.p2align	2
@ %bb.30:
.Laes_v6m_CPI0_29:
	.long	4244438268                      @ 0xfcfcfcfc
	.p2align	2
@ %bb.31:
.Laes_v6m_CPI0_30:
	.long	4042322160                      @ 0xf0f0f0f0
	.p2align	1
.Laes_v6m_BB0_32:                               @ %after.1.i.i
	ldr	r3, [sp, #224]                  @ 4-byte Reload
	ldr	r4, [sp, #236]                  @ 4-byte Reload
	eors	r3, r4
	str	r3, [sp, #160]                  @ 4-byte Spill
	ldr	r1, [sp, #192]                  @ 4-byte Reload
	mov	r6, r1
	mov	r5, r1
	ldr	r1, [sp, #216]                  @ 4-byte Reload
	eors	r6, r1
	str	r6, [sp, #152]                  @ 4-byte Spill
	mov	r1, r6
	eors	r1, r3
	str	r1, [sp, #172]                  @ 4-byte Spill
	eors	r2, r1
	mov	r1, r2
	eors	r1, r4
	str	r1, [sp, #212]                  @ 4-byte Spill
	eors	r7, r0
	mov	r3, r1
	eors	r3, r7
	mov	r1, r3
	str	r3, [sp, #228]                  @ 4-byte Spill
	eors	r2, r0
	mov	r0, r5
	ldr	r3, [sp, #224]                  @ 4-byte Reload
	eors	r0, r3
	str	r0, [sp, #188]                  @ 4-byte Spill
	mov	r3, r2
	eors	r3, r0
	str	r3, [sp, #168]                  @ 4-byte Spill
	mov	r5, r3
	eors	r5, r1
	str	r5, [sp, #180]                  @ 4-byte Spill
	ldr	r6, [sp, #160]                  @ 4-byte Reload
	ands	r5, r6
	mov	r6, r3
	ands	r6, r0
	eors	r5, r6
	str	r5, [sp, #204]                  @ 4-byte Spill
	mov	r0, r3
	eors	r0, r7
	ldr	r1, [sp, #232]                  @ 4-byte Reload
	eors	r7, r1
	ldr	r3, [sp, #216]                  @ 4-byte Reload
	eors	r3, r7
	str	r3, [sp, #216]                  @ 4-byte Spill
	str	r7, [sp, #184]                  @ 4-byte Spill
	ands	r3, r7
	str	r0, [sp, #208]                  @ 4-byte Spill
	eors	r3, r0
	mov	r1, r0
	ldr	r0, [sp, #152]                  @ 4-byte Reload
	ands	r1, r0
	eors	r3, r1
	eors	r3, r0
	eors	r3, r5
	str	r3, [sp, #240]                  @ 4-byte Spill
	ldr	r0, [sp, #192]                  @ 4-byte Reload
	eors	r4, r0
	str	r4, [sp, #236]                  @ 4-byte Spill
	ldr	r5, [sp, #228]                  @ 4-byte Reload
	ands	r5, r4
	eors	r5, r6
	ldr	r6, [sp, #168]                  @ 4-byte Reload
	ldr	r7, [sp, #232]                  @ 4-byte Reload
	eors	r6, r7
	str	r6, [sp, #196]                  @ 4-byte Spill
	ldr	r7, [sp, #184]                  @ 4-byte Reload
	eors	r7, r0
	mov	r4, r0
	str	r7, [sp, #144]                  @ 4-byte Spill
	ands	r6, r7
	ldr	r0, [sp, #208]                  @ 4-byte Reload
	eors	r6, r0
	eors	r6, r1
	eors	r6, r4
	eors	r6, r5
	mov	r0, r6
	eors	r0, r3
	str	r0, [sp, #200]                  @ 4-byte Spill
	ldr	r0, [sp, #212]                  @ 4-byte Reload
	mov	r3, r0
	ldr	r4, [sp, #172]                  @ 4-byte Reload
	ands	r3, r4
	ldr	r7, [sp, #216]                  @ 4-byte Reload
	ldr	r1, [sp, #236]                  @ 4-byte Reload
	eors	r7, r1
	str	r7, [sp, #192]                  @ 4-byte Spill
	mov	r4, r0
	ldr	r1, [sp, #232]                  @ 4-byte Reload
	eors	r4, r1
	str	r4, [sp, #148]                  @ 4-byte Spill
	ands	r4, r7
	eors	r4, r2
	eors	r4, r3
	ldr	r0, [sp, #204]                  @ 4-byte Reload
	eors	r4, r0
	ldr	r7, [sp, #240]                  @ 4-byte Reload
	ands	r7, r4
	ldr	r0, [sp, #224]                  @ 4-byte Reload
	ldr	r2, [sp, #184]                  @ 4-byte Reload
	eors	r0, r2
	str	r0, [sp, #224]                  @ 4-byte Spill
	ands	r0, r1
	ldr	r1, [sp, #236]                  @ 4-byte Reload
	eors	r0, r1
	ldr	r2, [sp, #228]                  @ 4-byte Reload
	eors	r0, r2
	eors	r0, r3
	eors	r0, r5
	mov	r5, r7
	eors	r5, r0
	ldr	r1, [sp, #200]                  @ 4-byte Reload
	ands	r5, r1
	mov	r1, r5
	eors	r1, r6
	eors	r5, r7
	ands	r5, r6
	ldr	r2, [sp, #240]                  @ 4-byte Reload
	eors	r2, r5
	str	r2, [sp, #240]                  @ 4-byte Spill
	mov	r3, r2
	eors	r3, r1
	str	r3, [sp, #156]                  @ 4-byte Spill
	eors	r4, r0
	eors	r7, r6
	eors	r5, r7
	ands	r7, r4
	eors	r7, r0
	ands	r5, r7
	eors	r5, r4
	mov	r6, r5
	eors	r6, r3
	str	r7, [sp, #200]                  @ 4-byte Spill
	mov	r2, r7
	mov	r3, r1
	str	r1, [sp, #136]                  @ 4-byte Spill
	eors	r2, r1
	str	r2, [sp, #204]                  @ 4-byte Spill
	mov	r0, r6
	eors	r0, r2
	str	r0, [sp, #176]                  @ 4-byte Spill
	ldr	r1, [sp, #180]                  @ 4-byte Reload
	ands	r1, r0
	ldr	r0, [sp, #184]                  @ 4-byte Reload
	ands	r0, r5
	mov	r2, r5
	eors	r2, r7
	ldr	r4, [sp, #208]                  @ 4-byte Reload
	ands	r4, r2
	str	r4, [sp, #208]                  @ 4-byte Spill
	eors	r0, r4
	str	r0, [sp, #184]                  @ 4-byte Spill
	eors	r1, r0
	mov	r7, r1
	str	r1, [sp, #180]                  @ 4-byte Spill
	ldr	r1, [sp, #228]                  @ 4-byte Reload
	ands	r1, r6
	ldr	r4, [sp, #232]                  @ 4-byte Reload
	ands	r4, r3
	ldr	r0, [sp, #212]                  @ 4-byte Reload
	ldr	r3, [sp, #240]                  @ 4-byte Reload
	ands	r0, r3
	str	r0, [sp, #212]                  @ 4-byte Spill
	eors	r4, r0
	mov	r3, r1
	eors	r3, r4
	ldr	r0, [sp, #152]                  @ 4-byte Reload
	ands	r2, r0
	eors	r3, r2
	eors	r3, r7
	str	r3, [sp, #228]                  @ 4-byte Spill
	ldr	r0, [sp, #160]                  @ 4-byte Reload
	ldr	r1, [sp, #176]                  @ 4-byte Reload
	ands	r1, r0
	ldr	r0, [sp, #188]                  @ 4-byte Reload
	ldr	r7, [sp, #204]                  @ 4-byte Reload
	ands	r0, r7
	str	r0, [sp, #188]                  @ 4-byte Spill
	eors	r1, r0
	mov	r7, r1
	str	r1, [sp, #176]                  @ 4-byte Spill
	ldr	r0, [sp, #196]                  @ 4-byte Reload
	ldr	r1, [sp, #200]                  @ 4-byte Reload
	ands	r0, r1
	eors	r0, r4
	ldr	r1, [sp, #208]                  @ 4-byte Reload
	eors	r0, r1
	str	r0, [sp, #196]                  @ 4-byte Spill
	ldr	r1, [sp, #216]                  @ 4-byte Reload
	ands	r5, r1
	eors	r5, r0
	eors	r5, r7
	mov	r4, r5
	eors	r4, r3
	ldr	r0, [sp, #140]                  @ 4-byte Reload
	rors	r4, r0
	ldr	r0, .Laes_v6m_CPI0_31
	bics	r0, r4
	ldr	r7, [sp, #80]                   @ 4-byte Reload
	ldr	r4, [r7, #4]
	eors	r4, r0
	lsls	r0, r4, #2
	ldr	r1, .Laes_v6m_CPI0_32
	ands	r0, r1
	eors	r0, r4
	lsls	r4, r0, #4
	ldr	r1, .Laes_v6m_CPI0_33
	ands	r4, r1
	eors	r4, r0
	ldr	r3, [sp, #84]                   @ 4-byte Reload
	str	r4, [r3, #4]
	eors	r5, r2
	ldr	r4, [sp, #140]                  @ 4-byte Reload
	rors	r5, r4
	ldr	r0, .Laes_v6m_CPI0_31
	bics	r0, r5
	ldr	r2, [r7]
	eors	r2, r0
	lsls	r0, r2, #2
	ldr	r5, .Laes_v6m_CPI0_32
	ands	r0, r5
	eors	r0, r2
	lsls	r2, r0, #4
	ands	r2, r1
	eors	r2, r0
	str	r2, [r3]
	mov	r2, r3
	ldr	r5, [sp, #204]                  @ 4-byte Reload
	ldr	r0, [sp, #168]                  @ 4-byte Reload
	ands	r5, r0
	ldr	r0, [sp, #180]                  @ 4-byte Reload
	eors	r5, r0
	ldr	r3, [sp, #192]                  @ 4-byte Reload
	ldr	r0, [sp, #156]                  @ 4-byte Reload
	ands	r3, r0
	ldr	r0, [sp, #176]                  @ 4-byte Reload
	eors	r3, r0
	str	r3, [sp, #192]                  @ 4-byte Spill
	ldr	r1, [sp, #240]                  @ 4-byte Reload
	ldr	r0, [sp, #172]                  @ 4-byte Reload
	ands	r1, r0
	eors	r1, r3
	str	r1, [sp, #240]                  @ 4-byte Spill
	mov	r0, r1
	eors	r0, r5
	str	r5, [sp, #204]                  @ 4-byte Spill
	mov	r3, r4
	rors	r0, r4
	ldr	r1, .Laes_v6m_CPI0_31
	ands	r0, r1
	mov	r4, r7
	ldr	r1, [r7, #28]
	eors	r1, r0
	lsls	r0, r1, #2
	ldr	r7, .Laes_v6m_CPI0_32
	ands	r0, r7
	eors	r0, r1
	lsls	r1, r0, #4
	ldr	r7, .Laes_v6m_CPI0_33
	ands	r1, r7
	eors	r1, r0
	str	r1, [r2, #28]
	ldr	r0, [sp, #144]                  @ 4-byte Reload
	ldr	r7, [sp, #200]                  @ 4-byte Reload
	ands	r7, r0
	ldr	r0, [sp, #228]                  @ 4-byte Reload
	eors	r7, r0
	str	r7, [sp, #200]                  @ 4-byte Spill
	ldr	r0, [sp, #236]                  @ 4-byte Reload
	ands	r6, r0
	ldr	r0, [sp, #188]                  @ 4-byte Reload
	eors	r6, r0
	eors	r6, r5
	eors	r6, r7
	rors	r6, r3
	mov	r7, r3
	ldr	r0, .Laes_v6m_CPI0_0
	bics	r0, r6
	ldr	r1, [r4, #20]
	mov	r6, r4
	eors	r1, r0
	lsls	r0, r1, #2
	ldr	r4, .Laes_v6m_CPI0_3
	ands	r0, r4
	eors	r0, r1
	lsls	r1, r0, #4
	ldr	r5, .Laes_v6m_CPI0_2
	ands	r1, r5
	eors	r1, r0
	str	r1, [r2, #20]
	mov	r3, r2
	ldr	r1, [sp, #156]                  @ 4-byte Reload
	ldr	r0, [sp, #148]                  @ 4-byte Reload
	ands	r1, r0
	ldr	r0, [sp, #212]                  @ 4-byte Reload
	eors	r1, r0
	ldr	r0, [sp, #184]                  @ 4-byte Reload
	eors	r1, r0
	ldr	r0, [sp, #240]                  @ 4-byte Reload
	eors	r1, r0
	mov	r0, r1
	mov	r2, r1
	mov	r5, r7
	rors	r0, r7
	ldr	r1, .Laes_v6m_CPI0_0
	ands	r0, r1
	ldr	r1, [r6, #16]
	eors	r1, r0
	lsls	r0, r1, #2
	ands	r0, r4
	eors	r0, r1
	lsls	r1, r0, #4
	ldr	r4, .Laes_v6m_CPI0_2
	ands	r1, r4
	eors	r1, r0
	str	r1, [r3, #16]
	mov	r7, r3
	ldr	r0, [sp, #224]                  @ 4-byte Reload
	ldr	r1, [sp, #136]                  @ 4-byte Reload
	ands	r1, r0
	ldr	r0, [sp, #192]                  @ 4-byte Reload
	eors	r1, r0
	ldr	r0, [sp, #200]                  @ 4-byte Reload
	eors	r1, r0
	rors	r1, r5
	mov	r3, r5
	ldr	r4, .Laes_v6m_CPI0_0
	ands	r1, r4
	ldr	r0, [r6, #8]
	eors	r0, r1
	lsls	r1, r0, #2
	ldr	r5, .Laes_v6m_CPI0_3
	ands	r1, r5
	eors	r1, r0
	lsls	r0, r1, #4
	ldr	r5, .Laes_v6m_CPI0_2
	ands	r0, r5
	eors	r0, r1
	str	r0, [r7, #8]
	ldr	r0, [sp, #196]                  @ 4-byte Reload
	eors	r0, r2
	rors	r0, r3
	ands	r0, r4
	mov	r1, r0
	ldr	r0, [r6, #12]
	eors	r0, r1
	lsls	r1, r0, #2
	ldr	r5, .Laes_v6m_CPI0_3
	ands	r1, r5
	eors	r1, r0
	lsls	r0, r1, #4
	ldr	r5, .Laes_v6m_CPI0_2
	ands	r0, r5
	eors	r0, r1
	str	r0, [r7, #12]
	ldr	r0, [sp, #204]                  @ 4-byte Reload
	eors	r2, r0
	ldr	r0, .Laes_v6m_CPI0_5
	eors	r0, r2
	rors	r0, r3
	ands	r0, r4
	ldr	r1, [r6, #24]
	eors	r1, r0
	lsls	r0, r1, #2
	ldr	r2, .Laes_v6m_CPI0_3
	ands	r0, r2
	eors	r0, r1
	lsls	r1, r0, #4
	ldr	r2, .Laes_v6m_CPI0_2
	ands	r1, r2
	eors	r1, r0
	str	r1, [r7, #24]
.Laes_v6m_BB0_33:                               @ %"aes_planes::expansion::expand::<#389ec886eeff95cb>.exit"
	ldr	r0, [sp, #4]                    @ 4-byte Reload
	lsrs	r0, r0, #2
	ldr	r2, [sp, #8]                    @ 4-byte Reload
	lsls	r1, r2, #30
	adds	r0, r0, r1
	lsrs	r1, r2, #2
	movs	r2, #0
	adds	r0, r0, #6
	str	r0, [sp, #200]                  @ 4-byte Spill
	adcs	r1, r2
	str	r1, [sp, #204]                  @ 4-byte Spill
	movs	r3, #1
	ldr	r5, [sp, #220]                  @ 4-byte Reload
	mov	r4, r5
	str	r3, [sp, #196]                  @ 4-byte Spill
	str	r2, [sp, #188]                  @ 4-byte Spill
	mov	r1, r2
	b	.Laes_v6m_BB0_35
.Laes_v6m_BB0_34:                               @ %join.8.i
                                        @   in Loop: Header=BB0_35 Depth=1
	mvns	r5, r6
	mvns	r2, r0
	ldr	r0, [sp, #224]                  @ 4-byte Reload
	mvns	r0, r0
	ldr	r6, [sp, #228]                  @ 4-byte Reload
	mvns	r6, r6
	str	r6, [r4, #32]
	str	r0, [r4, #36]
	ldr	r0, [sp, #240]                  @ 4-byte Reload
	str	r0, [r4, #40]
	ldr	r0, [sp, #236]                  @ 4-byte Reload
	str	r0, [r4, #44]
	ldr	r0, [sp, #232]                  @ 4-byte Reload
	mov	r6, r4
	adds	r6, #48
	stm	r6!, {r0, r2, r5, r7}
	movs	r0, #0
	adds	r3, r3, #1
	adcs	r1, r0
	adds	r4, #32
	ldr	r0, [sp, #216]                  @ 4-byte Reload
	cmp	r0, #0
	ldr	r5, [sp, #220]                  @ 4-byte Reload
	bne	.Laes_v6m_BB0_35
	b	.Laes_v6m_BB0_48
.Laes_v6m_BB0_35:                               @ %join.5.i
                                        @ =>This Inner Loop Header: Depth=1
	lsls	r0, r3, #5
	adds	r7, r5, r0
	ldr	r2, [sp, #200]                  @ 4-byte Reload
	subs	r2, r3, r2
	mov	r2, r1
	ldr	r6, [sp, #204]                  @ 4-byte Reload
	sbcs	r2, r6
	ldr	r2, [sp, #196]                  @ 4-byte Reload
	blo	.Laes_v6m_BB0_37
@ %bb.36:                               @ %join.5.i
                                        @   in Loop: Header=BB0_35 Depth=1
	ldr	r2, [sp, #188]                  @ 4-byte Reload
.Laes_v6m_BB0_37:                               @ %join.5.i
                                        @   in Loop: Header=BB0_35 Depth=1
	str	r2, [sp, #216]                  @ 4-byte Spill
	ldr	r0, [r5, r0]
	str	r0, [sp, #228]                  @ 4-byte Spill
	ldr	r0, [r7, #4]
	str	r0, [sp, #224]                  @ 4-byte Spill
	ldr	r2, [r7, #8]
	str	r2, [sp, #240]                  @ 4-byte Spill
	ldr	r0, [r7, #12]
	str	r0, [sp, #236]                  @ 4-byte Spill
	ldr	r0, [r7, #16]
	str	r0, [sp, #232]                  @ 4-byte Spill
	ldr	r0, [r7, #20]
	ldr	r6, [r7, #24]
	ldr	r7, [r7, #28]
	bhs	.Laes_v6m_BB0_34
@ %bb.38:                               @ %ok.10.i
                                        @   in Loop: Header=BB0_35 Depth=1
	str	r7, [sp, #212]                  @ 4-byte Spill
	mov	r7, r3
	ldr	r5, [sp, #164]                  @ 4-byte Reload
	ands	r7, r5
	lsls	r7, r7, #2
	adr	r5, .Laes_v6m_JTI0_0
	ldr	r5, [r5, r7]
	ldr	r7, [sp, #212]                  @ 4-byte Reload
	mov	pc, r5
@ %bb.39:
	.p2align	2
.Laes_v6m_JTI0_0:
	.long	.Laes_v6m_BB0_44+1
	.long	.Laes_v6m_BB0_45+1
	.long	.Laes_v6m_BB0_43+1
	.long	.Laes_v6m_BB0_46+1
	.p2align	2
@ %bb.40:
.Laes_v6m_CPI0_31:
	.long	50529027                        @ 0x3030303
	.p2align	2
@ %bb.41:
.Laes_v6m_CPI0_32:
	.long	4244438268                      @ 0xfcfcfcfc
	.p2align	2
@ %bb.42:
.Laes_v6m_CPI0_33:
	.long	4042322160                      @ 0xf0f0f0f0
	.p2align	1
.Laes_v6m_BB0_43:                               @ %then.4.i
                                        @   in Loop: Header=BB0_35 Depth=1
	lsrs	r5, r7, #4
	eors	r5, r7
	ldr	r7, .Laes_v6m_CPI0_8
	ands	r5, r7
	movs	r7, #17
	muls	r5, r7, r5
	ldr	r2, [sp, #212]                  @ 4-byte Reload
	eors	r2, r5
	str	r2, [sp, #212]                  @ 4-byte Spill
	lsrs	r5, r6, #4
	eors	r5, r6
	str	r6, [sp, #208]                  @ 4-byte Spill
	ldr	r2, .Laes_v6m_CPI0_8
	ldr	r6, [sp, #208]                  @ 4-byte Reload
	ands	r5, r2
	muls	r5, r7, r5
	eors	r6, r5
	lsrs	r5, r0, #4
	eors	r5, r0
	ands	r5, r2
	muls	r5, r7, r5
	eors	r0, r5
	str	r0, [sp, #208]                  @ 4-byte Spill
	ldr	r0, [sp, #232]                  @ 4-byte Reload
	lsrs	r5, r0, #4
	eors	r5, r0
	ands	r5, r2
	muls	r5, r7, r5
	eors	r0, r5
	str	r0, [sp, #232]                  @ 4-byte Spill
	ldr	r0, [sp, #236]                  @ 4-byte Reload
	lsrs	r5, r0, #4
	eors	r5, r0
	ands	r5, r2
	muls	r5, r7, r5
	eors	r0, r5
	str	r0, [sp, #236]                  @ 4-byte Spill
	ldr	r0, [sp, #240]                  @ 4-byte Reload
	lsrs	r5, r0, #4
	eors	r5, r0
	ands	r5, r2
	muls	r5, r7, r5
	eors	r0, r5
	str	r0, [sp, #240]                  @ 4-byte Spill
	ldr	r0, [sp, #224]                  @ 4-byte Reload
	lsrs	r5, r0, #4
	eors	r5, r0
	ands	r5, r2
	muls	r5, r7, r5
	eors	r0, r5
	str	r0, [sp, #224]                  @ 4-byte Spill
	ldr	r0, [sp, #228]                  @ 4-byte Reload
	lsrs	r5, r0, #4
	eors	r5, r0
	ands	r5, r2
	muls	r5, r7, r5
	ldr	r7, [sp, #212]                  @ 4-byte Reload
	eors	r0, r5
	str	r0, [sp, #228]                  @ 4-byte Spill
	ldr	r0, [sp, #208]                  @ 4-byte Reload
	b	.Laes_v6m_BB0_34
.Laes_v6m_BB0_44:                               @ %ok.10.i
                                        @   in Loop: Header=BB0_35 Depth=1
	b	.Laes_v6m_BB0_34
.Laes_v6m_BB0_45:                               @ %then.1.i
                                        @   in Loop: Header=BB0_35 Depth=1
	str	r0, [sp, #208]                  @ 4-byte Spill
	mov	r0, r7
	lsrs	r7, r7, #4
	eors	r7, r0
	ldr	r5, .Laes_v6m_CPI0_6
	ands	r7, r5
	movs	r2, #17
	muls	r7, r2, r7
	eors	r7, r0
	lsrs	r0, r7, #2
	eors	r0, r7
	ldr	r5, .Laes_v6m_CPI0_9
	ands	r0, r5
	movs	r5, #5
	muls	r0, r5, r0
	eors	r0, r7
	str	r0, [sp, #212]                  @ 4-byte Spill
	lsrs	r7, r6, #4
	eors	r7, r6
	ldr	r0, .Laes_v6m_CPI0_6
	ands	r7, r0
	str	r2, [sp, #184]                  @ 4-byte Spill
	muls	r7, r2, r7
	eors	r7, r6
	lsrs	r6, r7, #2
	eors	r6, r7
	ldr	r2, .Laes_v6m_CPI0_9
	ands	r6, r2
	str	r5, [sp, #192]                  @ 4-byte Spill
	muls	r6, r5, r6
	eors	r6, r7
	ldr	r2, [sp, #208]                  @ 4-byte Reload
	lsrs	r7, r2, #4
	eors	r7, r2
	ands	r7, r0
	ldr	r0, [sp, #184]                  @ 4-byte Reload
	muls	r7, r0, r7
	eors	r7, r2
	lsrs	r0, r7, #2
	eors	r0, r7
	ldr	r2, .Laes_v6m_CPI0_9
	ands	r0, r2
	muls	r0, r5, r0
	eors	r0, r7
	str	r0, [sp, #208]                  @ 4-byte Spill
	ldr	r0, [sp, #232]                  @ 4-byte Reload
	lsrs	r7, r0, #4
	eors	r7, r0
	ldr	r2, .Laes_v6m_CPI0_6
	ands	r7, r2
	ldr	r5, [sp, #184]                  @ 4-byte Reload
	muls	r7, r5, r7
	eors	r7, r0
	lsrs	r0, r7, #2
	eors	r0, r7
	ldr	r2, .Laes_v6m_CPI0_9
	ands	r0, r2
	ldr	r2, [sp, #192]                  @ 4-byte Reload
	muls	r0, r2, r0
	eors	r0, r7
	str	r0, [sp, #232]                  @ 4-byte Spill
	ldr	r0, [sp, #236]                  @ 4-byte Reload
	lsrs	r7, r0, #4
	eors	r7, r0
	ldr	r2, .Laes_v6m_CPI0_6
	ands	r7, r2
	muls	r7, r5, r7
	mov	r2, r5
	eors	r7, r0
	lsrs	r0, r7, #2
	eors	r0, r7
	ldr	r5, .Laes_v6m_CPI0_9
	ands	r0, r5
	ldr	r5, [sp, #192]                  @ 4-byte Reload
	muls	r0, r5, r0
	eors	r0, r7
	str	r0, [sp, #236]                  @ 4-byte Spill
	ldr	r0, [sp, #240]                  @ 4-byte Reload
	lsrs	r7, r0, #4
	eors	r7, r0
	ldr	r5, .Laes_v6m_CPI0_6
	ands	r7, r5
	muls	r7, r2, r7
	eors	r7, r0
	lsrs	r0, r7, #2
	eors	r0, r7
	ldr	r5, .Laes_v6m_CPI0_9
	ands	r0, r5
	ldr	r5, [sp, #192]                  @ 4-byte Reload
	muls	r0, r5, r0
	eors	r0, r7
	str	r0, [sp, #240]                  @ 4-byte Spill
	ldr	r0, [sp, #224]                  @ 4-byte Reload
	lsrs	r7, r0, #4
	eors	r7, r0
	ldr	r5, .Laes_v6m_CPI0_6
	ands	r7, r5
	muls	r7, r2, r7
	eors	r7, r0
	lsrs	r0, r7, #2
	eors	r0, r7
	ldr	r2, .Laes_v6m_CPI0_9
	ands	r0, r2
	ldr	r2, [sp, #192]                  @ 4-byte Reload
	muls	r0, r2, r0
	eors	r0, r7
	str	r0, [sp, #224]                  @ 4-byte Spill
	ldr	r0, [sp, #228]                  @ 4-byte Reload
	lsrs	r7, r0, #4
	eors	r7, r0
	ldr	r2, .Laes_v6m_CPI0_6
	b	.Laes_v6m_BB0_47
.Laes_v6m_BB0_46:                               @ %then.7.i
                                        @   in Loop: Header=BB0_35 Depth=1
	str	r0, [sp, #208]                  @ 4-byte Spill
	mov	r0, r7
	lsrs	r7, r7, #4
	eors	r7, r0
	ldr	r5, .Laes_v6m_CPI0_7
	ands	r7, r5
	movs	r2, #17
	muls	r7, r2, r7
	eors	r7, r0
	lsrs	r0, r7, #2
	eors	r0, r7
	ldr	r5, .Laes_v6m_CPI0_9
	ands	r0, r5
	movs	r5, #5
	muls	r0, r5, r0
	eors	r0, r7
	str	r0, [sp, #212]                  @ 4-byte Spill
	lsrs	r7, r6, #4
	eors	r7, r6
	ldr	r0, .Laes_v6m_CPI0_7
	ands	r7, r0
	str	r2, [sp, #184]                  @ 4-byte Spill
	muls	r7, r2, r7
	eors	r7, r6
	lsrs	r6, r7, #2
	eors	r6, r7
	ldr	r2, .Laes_v6m_CPI0_9
	ands	r6, r2
	str	r5, [sp, #192]                  @ 4-byte Spill
	muls	r6, r5, r6
	eors	r6, r7
	ldr	r2, [sp, #208]                  @ 4-byte Reload
	lsrs	r7, r2, #4
	eors	r7, r2
	ands	r7, r0
	ldr	r0, [sp, #184]                  @ 4-byte Reload
	muls	r7, r0, r7
	eors	r7, r2
	lsrs	r0, r7, #2
	eors	r0, r7
	ldr	r2, .Laes_v6m_CPI0_9
	ands	r0, r2
	muls	r0, r5, r0
	eors	r0, r7
	str	r0, [sp, #208]                  @ 4-byte Spill
	ldr	r0, [sp, #232]                  @ 4-byte Reload
	lsrs	r7, r0, #4
	eors	r7, r0
	ldr	r2, .Laes_v6m_CPI0_7
	ands	r7, r2
	ldr	r5, [sp, #184]                  @ 4-byte Reload
	muls	r7, r5, r7
	eors	r7, r0
	lsrs	r0, r7, #2
	eors	r0, r7
	ldr	r2, .Laes_v6m_CPI0_9
	ands	r0, r2
	ldr	r2, [sp, #192]                  @ 4-byte Reload
	muls	r0, r2, r0
	eors	r0, r7
	str	r0, [sp, #232]                  @ 4-byte Spill
	ldr	r0, [sp, #236]                  @ 4-byte Reload
	lsrs	r7, r0, #4
	eors	r7, r0
	ldr	r2, .Laes_v6m_CPI0_7
	ands	r7, r2
	muls	r7, r5, r7
	mov	r2, r5
	eors	r7, r0
	lsrs	r0, r7, #2
	eors	r0, r7
	ldr	r5, .Laes_v6m_CPI0_9
	ands	r0, r5
	ldr	r5, [sp, #192]                  @ 4-byte Reload
	muls	r0, r5, r0
	eors	r0, r7
	str	r0, [sp, #236]                  @ 4-byte Spill
	ldr	r0, [sp, #240]                  @ 4-byte Reload
	lsrs	r7, r0, #4
	eors	r7, r0
	ldr	r5, .Laes_v6m_CPI0_7
	ands	r7, r5
	muls	r7, r2, r7
	eors	r7, r0
	lsrs	r0, r7, #2
	eors	r0, r7
	ldr	r5, .Laes_v6m_CPI0_9
	ands	r0, r5
	ldr	r5, [sp, #192]                  @ 4-byte Reload
	muls	r0, r5, r0
	eors	r0, r7
	str	r0, [sp, #240]                  @ 4-byte Spill
	ldr	r0, [sp, #224]                  @ 4-byte Reload
	lsrs	r7, r0, #4
	eors	r7, r0
	ldr	r5, .Laes_v6m_CPI0_7
	ands	r7, r5
	muls	r7, r2, r7
	eors	r7, r0
	lsrs	r0, r7, #2
	eors	r0, r7
	ldr	r2, .Laes_v6m_CPI0_9
	ands	r0, r2
	ldr	r2, [sp, #192]                  @ 4-byte Reload
	muls	r0, r2, r0
	eors	r0, r7
	str	r0, [sp, #224]                  @ 4-byte Spill
	ldr	r0, [sp, #228]                  @ 4-byte Reload
	lsrs	r7, r0, #4
	eors	r7, r0
	ldr	r2, .Laes_v6m_CPI0_7
.Laes_v6m_BB0_47:                               @ %join.8.i
                                        @   in Loop: Header=BB0_35 Depth=1
	ands	r7, r2
	ldr	r2, [sp, #184]                  @ 4-byte Reload
	muls	r7, r2, r7
	eors	r7, r0
	lsrs	r0, r7, #2
	eors	r0, r7
	ldr	r2, .Laes_v6m_CPI0_9
	ands	r0, r2
	ldr	r2, [sp, #192]                  @ 4-byte Reload
	muls	r0, r2, r0
	eors	r0, r7
	str	r0, [sp, #228]                  @ 4-byte Spill
	ldr	r0, [sp, #208]                  @ 4-byte Reload
	ldr	r7, [sp, #212]                  @ 4-byte Reload
	b	.Laes_v6m_BB0_34
.Laes_v6m_BB0_48:                               @ %"aes_soft::soft::key_layout::store::<#dfb00681c6d298fe>.exit"
	add	sp, #276
	pop	{r4, r5, r6, r7, pc}
	.p2align	2
@ %bb.49:
.Laes_v6m_CPI0_0:
	.long	50529027                        @ 0x3030303
.Laes_v6m_CPI0_2:
	.long	4042322160                      @ 0xf0f0f0f0
.Laes_v6m_CPI0_3:
	.long	4244438268                      @ 0xfcfcfcfc
.Laes_v6m_CPI0_5:
	.long	4294902015                      @ 0xffff00ff
.Laes_v6m_CPI0_6:
	.long	51317760                        @ 0x30f0c00
.Laes_v6m_CPI0_7:
	.long	202310400                       @ 0xc0f0300
.Laes_v6m_CPI0_8:
	.long	251662080                       @ 0xf000f00
.Laes_v6m_CPI0_9:
	.long	855651072                       @ 0x33003300
.Laes_v6m_func_end0:
	.size	aes_v6m.aes_narrow.word_room.expand_words, .Laes_v6m_func_end0-aes_v6m.aes_narrow.word_room.expand_words
	.cantunwind
	.fnend
                                        @ -- End function
	.section	.text.aes_v6m.aes_planes.soft.word.word32.U32Word.in_every_slot,"ax",%progbits
	.p2align	2                               @ -- Begin function aes_planes::soft::word::word32::U32Word::in_every_slot
	.type	aes_v6m.aes_planes.soft.word.word32.U32Word.in_every_slot,%function
	.code	16
	.thumb_func
aes_v6m.aes_planes.soft.word.word32.U32Word.in_every_slot: @ @aes_v6m.aes_planes.soft.word.word32.U32Word.in_every_slot
	.fnstart
@ %bb.0:                                @ %start
	.save	{r4, r5, r6, r7, lr}
	push	{r4, r5, r6, r7, lr}
	.pad	#40
	sub	sp, #40
	mov	r2, r0
	ldrb	r0, [r1, #12]
	ldrb	r3, [r1, #13]
	lsls	r3, r3, #8
	adds	r0, r3, r0
	ldrb	r3, [r1, #14]
	lsls	r3, r3, #16
	adds	r0, r0, r3
	ldrb	r3, [r1, #15]
	lsls	r3, r3, #24
	adds	r3, r0, r3
	str	r3, [sp, #28]                   @ 4-byte Spill
	lsrs	r6, r3, #1
	eors	r6, r3
	ldr	r5, .Laes_v6m_CPI1_0
	ands	r6, r5
	str	r6, [sp, #24]                   @ 4-byte Spill
	eors	r6, r3
	ldrb	r3, [r1, #8]
	ldrb	r4, [r1, #9]
	lsls	r4, r4, #8
	adds	r3, r4, r3
	ldrb	r4, [r1, #10]
	lsls	r4, r4, #16
	adds	r3, r3, r4
	ldrb	r4, [r1, #11]
	lsls	r4, r4, #24
	adds	r0, r3, r4
	str	r0, [sp, #20]                   @ 4-byte Spill
	lsrs	r7, r0, #1
	eors	r7, r0
	ands	r7, r5
	mov	r3, r7
	eors	r3, r0
	str	r3, [sp, #36]                   @ 4-byte Spill
	lsrs	r0, r3, #2
	eors	r0, r6
	ldr	r3, .Laes_v6m_CPI1_1
	ands	r0, r3
	str	r0, [sp, #32]                   @ 4-byte Spill
	eors	r6, r0
	ldrb	r3, [r1, #4]
	ldrb	r4, [r1, #5]
	lsls	r4, r4, #8
	adds	r3, r4, r3
	ldrb	r4, [r1, #6]
	lsls	r4, r4, #16
	adds	r3, r3, r4
	ldrb	r4, [r1, #7]
	lsls	r4, r4, #24
	adds	r3, r3, r4
	str	r3, [sp, #4]                    @ 4-byte Spill
	lsrs	r0, r3, #1
	eors	r0, r3
	ands	r0, r5
	mov	r5, r0
	eors	r5, r3
	ldrb	r3, [r1]
	ldrb	r4, [r1, #1]
	lsls	r4, r4, #8
	adds	r3, r4, r3
	ldrb	r4, [r1, #2]
	lsls	r4, r4, #16
	adds	r3, r3, r4
	ldrb	r1, [r1, #3]
	lsls	r1, r1, #24
	adds	r3, r3, r1
	str	r3, [sp]                        @ 4-byte Spill
	lsrs	r4, r3, #1
	eors	r4, r3
	ldr	r1, .Laes_v6m_CPI1_0
	ands	r4, r1
	mov	r1, r4
	eors	r1, r3
	str	r1, [sp, #12]                   @ 4-byte Spill
	lsrs	r3, r1, #2
	eors	r3, r5
	ldr	r1, .Laes_v6m_CPI1_1
	ands	r3, r1
	eors	r5, r3
	str	r5, [sp, #16]                   @ 4-byte Spill
	lsrs	r5, r5, #4
	eors	r5, r6
	ldr	r1, .Laes_v6m_CPI1_2
	ands	r5, r1
	str	r5, [sp, #8]                    @ 4-byte Spill
	eors	r6, r5
	strb	r6, [r2, #28]
	lsrs	r1, r6, #24
	strb	r1, [r2, #31]
	lsrs	r1, r6, #16
	strb	r1, [r2, #30]
	lsrs	r1, r6, #8
	strb	r1, [r2, #29]
	ldr	r1, [sp, #24]                   @ 4-byte Reload
	lsls	r1, r1, #1
	ldr	r5, [sp, #28]                   @ 4-byte Reload
	eors	r1, r5
	lsls	r6, r7, #1
	ldr	r5, [sp, #20]                   @ 4-byte Reload
	eors	r6, r5
	str	r6, [sp, #24]                   @ 4-byte Spill
	lsrs	r7, r6, #2
	eors	r7, r1
	ldr	r5, .Laes_v6m_CPI1_1
	ands	r7, r5
	eors	r1, r7
	lsls	r0, r0, #1
	ldr	r6, [sp, #4]                    @ 4-byte Reload
	eors	r0, r6
	lsls	r4, r4, #1
	ldr	r6, [sp]                        @ 4-byte Reload
	eors	r4, r6
	str	r4, [sp, #4]                    @ 4-byte Spill
	lsrs	r4, r4, #2
	eors	r4, r0
	ands	r4, r5
	eors	r0, r4
	str	r0, [sp, #28]                   @ 4-byte Spill
	lsrs	r0, r0, #4
	eors	r0, r1
	ldr	r6, .Laes_v6m_CPI1_2
	ands	r0, r6
	str	r0, [sp, #20]                   @ 4-byte Spill
	eors	r1, r0
	strb	r1, [r2, #24]
	ldr	r0, [sp, #32]                   @ 4-byte Reload
	lsls	r0, r0, #2
	ldr	r5, [sp, #36]                   @ 4-byte Reload
	eors	r0, r5
	lsls	r5, r3, #2
	ldr	r3, [sp, #12]                   @ 4-byte Reload
	eors	r5, r3
	str	r5, [sp, #36]                   @ 4-byte Spill
	lsrs	r5, r5, #4
	eors	r5, r0
	ands	r5, r6
	eors	r0, r5
	strb	r0, [r2, #20]
	ldr	r3, [sp, #8]                    @ 4-byte Reload
	lsls	r3, r3, #4
	ldr	r6, [sp, #16]                   @ 4-byte Reload
	eors	r3, r6
	strb	r3, [r2, #12]
	lsrs	r6, r1, #24
	strb	r6, [r2, #27]
	lsrs	r6, r1, #16
	strb	r6, [r2, #26]
	lsrs	r1, r1, #8
	strb	r1, [r2, #25]
	lsrs	r1, r0, #24
	strb	r1, [r2, #23]
	lsrs	r1, r0, #16
	strb	r1, [r2, #22]
	lsrs	r0, r0, #8
	strb	r0, [r2, #21]
	lsls	r7, r7, #2
	ldr	r0, [sp, #24]                   @ 4-byte Reload
	eors	r7, r0
	lsls	r0, r4, #2
	ldr	r1, [sp, #4]                    @ 4-byte Reload
	eors	r0, r1
	lsrs	r4, r0, #4
	eors	r4, r7
	ldr	r1, .Laes_v6m_CPI1_2
	ands	r4, r1
	eors	r7, r4
	strb	r7, [r2, #16]
	lsrs	r1, r3, #24
	strb	r1, [r2, #15]
	lsrs	r1, r3, #16
	strb	r1, [r2, #14]
	lsrs	r1, r3, #8
	strb	r1, [r2, #13]
	ldr	r1, [sp, #20]                   @ 4-byte Reload
	lsls	r3, r1, #4
	ldr	r1, [sp, #28]                   @ 4-byte Reload
	eors	r3, r1
	strb	r3, [r2, #8]
	lsls	r1, r5, #4
	ldr	r5, [sp, #36]                   @ 4-byte Reload
	eors	r1, r5
	strb	r1, [r2, #4]
	lsrs	r5, r7, #24
	strb	r5, [r2, #19]
	lsrs	r5, r7, #16
	strb	r5, [r2, #18]
	lsrs	r5, r7, #8
	strb	r5, [r2, #17]
	lsrs	r5, r3, #24
	strb	r5, [r2, #11]
	lsrs	r5, r3, #16
	strb	r5, [r2, #10]
	lsrs	r3, r3, #8
	strb	r3, [r2, #9]
	lsrs	r3, r1, #24
	strb	r3, [r2, #7]
	lsrs	r3, r1, #16
	strb	r3, [r2, #6]
	lsrs	r1, r1, #8
	strb	r1, [r2, #5]
	lsls	r1, r4, #4
	eors	r1, r0
	strb	r1, [r2]
	lsrs	r0, r1, #24
	strb	r0, [r2, #3]
	lsrs	r0, r1, #16
	strb	r0, [r2, #2]
	lsrs	r0, r1, #8
	strb	r0, [r2, #1]
	add	sp, #40
	pop	{r4, r5, r6, r7, pc}
	.p2align	2
@ %bb.1:
.Laes_v6m_CPI1_0:
	.long	1431655765                      @ 0x55555555
.Laes_v6m_CPI1_1:
	.long	858993459                       @ 0x33333333
.Laes_v6m_CPI1_2:
	.long	252645135                       @ 0xf0f0f0f
.Laes_v6m_func_end1:
	.size	aes_v6m.aes_planes.soft.word.word32.U32Word.in_every_slot, .Laes_v6m_func_end1-aes_v6m.aes_planes.soft.word.word32.U32Word.in_every_slot
	.cantunwind
	.fnend
                                        @ -- End function
	.section	.text.aes_v6m.aes_cipher.zeroize.stack.wipe_stack.768,"ax",%progbits
	.p2align	1                               @ -- Begin function aes_cipher::zeroize::stack::wipe_stack::<=768>
	.type	aes_v6m.aes_cipher.zeroize.stack.wipe_stack.768,%function
	.code	16
	.thumb_func
aes_v6m.aes_cipher.zeroize.stack.wipe_stack.768: @ @aes_v6m.aes_cipher.zeroize.stack.wipe_stack.768
	.fnstart
@ %bb.0:                                @ %start
	.save	{r4, lr}
	push	{r4, lr}
	.pad	#508
	sub	sp, #508
	.pad	#268
	sub	sp, #268
	movs	r0, #3
	lsls	r2, r0, #8
	add	r0, sp, #8
	movs	r4, #0
	mov	r1, r4
	bl	memset
	str	r4, [sp, #4]
	str	r4, [sp]
	@APP
	@NO_APP
	ldr	r1, [sp, #4]
	lsls	r2, r1, #24
	ldr	r0, [sp]
	lsrs	r3, r0, #8
	adds	r2, r3, r2
	@APP
	@NO_APP
	lsrs	r1, r1, #8
	subs	r2, r2, #3
	sbcs	r1, r4
	bhs	.Laes_v6m_BB2_2
@ %bb.1:                                @ %then.1
	add	r1, sp, #8
	ldrb	r0, [r1, r0]
	@APP
	@NO_APP
	ldr	r1, [sp, #4]
	ldr	r1, [sp]
	str	r4, [sp, #4]
	str	r0, [sp]
	@APP
	@NO_APP
.Laes_v6m_BB2_2:                                @ %common.ret
	add	sp, #508
	add	sp, #268
	pop	{r4, pc}
.Laes_v6m_func_end2:
	.size	aes_v6m.aes_cipher.zeroize.stack.wipe_stack.768, .Laes_v6m_func_end2-aes_v6m.aes_cipher.zeroize.stack.wipe_stack.768
	.cantunwind
	.fnend
                                        @ -- End function
	.section	.text.aes_v6m.aes_ctr.add_in_batches.add_keystream,"ax",%progbits
	.p2align	1                               @ -- Begin function aes_ctr::add_in_batches::add_keystream::<#4f733d09d7f6c6b4>
	.type	aes_v6m.aes_ctr.add_in_batches.add_keystream,%function
	.code	16
	.thumb_func
aes_v6m.aes_ctr.add_in_batches.add_keystream: @ @aes_v6m.aes_ctr.add_in_batches.add_keystream
	.fnstart
@ %bb.0:                                @ %start
	.save	{r4, r5, r6, r7, lr}
	push	{r4, r5, r6, r7, lr}
	.pad	#228
	sub	sp, #228
	str	r3, [sp, #156]                  @ 4-byte Spill
	ldrb	r4, [r1, #12]
	ldrb	r5, [r1, #13]
	lsls	r5, r5, #8
	adds	r4, r5, r4
	ldrb	r5, [r1, #14]
	lsls	r5, r5, #16
	ldrb	r6, [r1, #15]
	lsls	r6, r6, #24
	adds	r5, r6, r5
	adds	r4, r5, r4
	str	r4, [sp, #172]
	ldrb	r4, [r1, #8]
	ldrb	r5, [r1, #9]
	lsls	r5, r5, #8
	adds	r4, r5, r4
	ldrb	r5, [r1, #10]
	lsls	r5, r5, #16
	ldrb	r6, [r1, #11]
	lsls	r6, r6, #24
	adds	r5, r6, r5
	adds	r4, r5, r4
	str	r4, [sp, #168]
	ldrb	r4, [r1, #4]
	ldrb	r5, [r1, #5]
	lsls	r5, r5, #8
	adds	r4, r5, r4
	ldrb	r5, [r1, #6]
	lsls	r5, r5, #16
	ldrb	r6, [r1, #7]
	lsls	r6, r6, #24
	adds	r5, r6, r5
	adds	r4, r5, r4
	str	r4, [sp, #164]
	ldrb	r4, [r1]
	ldrb	r5, [r1, #1]
	lsls	r5, r5, #8
	adds	r4, r5, r4
	ldrb	r5, [r1, #2]
	lsls	r5, r5, #16
	ldrb	r1, [r1, #3]
	lsls	r1, r1, #24
	adds	r1, r1, r5
	adds	r1, r1, r4
	str	r1, [sp, #160]
	movs	r3, #0
	str	r3, [sp, #180]
	str	r3, [sp, #176]
	movs	r4, #15
	str	r2, [sp, #148]                  @ 4-byte Spill
	mov	r7, r2
	ands	r7, r4
	movs	r1, #16
	subs	r1, r1, r7
	ldr	r6, [sp, #260]
	ldr	r5, [sp, #256]
	ldr	r2, [sp, #248]
	subs	r1, r1, r5
	str	r3, [sp, #140]                  @ 4-byte Spill
	sbcs	r3, r6
	bhs	.Laes_v6m_BB3_2
@ %bb.1:                                @ %else.2.i
	str	r5, [sp, #200]
	ldr	r1, [sp, #148]                  @ 4-byte Reload
	str	r1, [sp, #184]
	movs	r1, #0
	str	r1, [sp, #196]
	str	r2, [sp, #192]
	add	r1, sp, #160
	str	r1, [sp, #176]
	str	r6, [sp, #204]
	ldr	r1, [sp, #156]                  @ 4-byte Reload
	str	r1, [sp, #188]
	ldrb	r1, [r0, #15]
	str	r1, [sp, #156]                  @ 4-byte Spill
	ldrb	r1, [r0, #14]
	str	r1, [sp, #152]                  @ 4-byte Spill
	ldrb	r1, [r0, #12]
	str	r1, [sp, #148]                  @ 4-byte Spill
	ldrb	r1, [r0, #13]
	str	r1, [sp, #144]                  @ 4-byte Spill
	ldrb	r1, [r0, #11]
	str	r1, [sp, #140]                  @ 4-byte Spill
	ldrb	r6, [r0, #10]
	ldrb	r7, [r0, #8]
	ldrb	r4, [r0, #9]
	ldrb	r3, [r0, #3]
	ldrb	r2, [r0, #2]
	ldrb	r1, [r0]
	ldrb	r0, [r0, #1]
	add	r5, sp, #176
	str	r5, [sp]
	lsls	r0, r0, #8
	adds	r0, r0, r1
	lsls	r1, r2, #16
	lsls	r2, r3, #24
	adds	r1, r2, r1
	adds	r0, r1, r0
	lsls	r1, r4, #8
	adds	r1, r1, r7
	lsls	r2, r6, #16
	ldr	r3, [sp, #140]                  @ 4-byte Reload
	lsls	r3, r3, #24
	adds	r2, r3, r2
	adds	r2, r2, r1
	ldr	r1, [sp, #144]                  @ 4-byte Reload
	lsls	r1, r1, #8
	ldr	r3, [sp, #148]                  @ 4-byte Reload
	adds	r1, r1, r3
	ldr	r3, [sp, #152]                  @ 4-byte Reload
	lsls	r3, r3, #16
	ldr	r4, [sp, #156]                  @ 4-byte Reload
	lsls	r4, r4, #24
	adds	r3, r4, r3
	adds	r3, r3, r1
	bl	aes_v6m.aes_narrow.borrowed_words.call_to_encrypt
	bl	aes_v6m.aes_cipher.zeroize.stack.wipe_stack.2032
	add	sp, #228
	pop	{r4, r5, r6, r7, pc}
.Laes_v6m_BB3_2:                                @ %then.1.i
	str	r2, [sp, #152]                  @ 4-byte Spill
	add	r1, sp, #28
	stm	r1!, {r4, r5, r6}               @ 12-byte Folded Spill
	ldr	r1, [sp, #148]                  @ 4-byte Reload
	lsrs	r1, r1, #4
	ldr	r3, [sp, #156]                  @ 4-byte Reload
	lsls	r2, r3, #28
	adds	r1, r1, r2
	ldrb	r2, [r0, #15]
	str	r2, [sp, #148]                  @ 4-byte Spill
	ldrb	r2, [r0, #14]
	str	r2, [sp, #144]                  @ 4-byte Spill
	ldrb	r2, [r0, #12]
	str	r2, [sp, #136]                  @ 4-byte Spill
	ldrb	r2, [r0, #13]
	str	r2, [sp, #132]                  @ 4-byte Spill
	ldrb	r2, [r0, #11]
	str	r2, [sp, #128]                  @ 4-byte Spill
	ldrb	r2, [r0, #10]
	str	r2, [sp, #124]                  @ 4-byte Spill
	ldrb	r2, [r0, #8]
	str	r2, [sp, #120]                  @ 4-byte Spill
	ldrb	r2, [r0, #9]
	str	r2, [sp, #116]                  @ 4-byte Spill
	ldrb	r2, [r0, #3]
	str	r2, [sp, #112]                  @ 4-byte Spill
	ldrb	r2, [r0, #2]
	str	r2, [sp, #108]                  @ 4-byte Spill
	ldrb	r2, [r0]
	str	r2, [sp, #104]                  @ 4-byte Spill
	ldrb	r6, [r0, #1]
	lsrs	r2, r3, #4
	ldr	r0, [sp, #172]
	rev	r0, r0
	add	r3, sp, #212
	adds	r4, r1, r0
	strb	r4, [r3, #15]
	ldr	r0, [sp, #168]
	rev	r0, r0
	adcs	r0, r2
	strb	r0, [r3, #11]
	ldr	r1, [sp, #164]
	rev	r1, r1
	ldr	r5, [sp, #140]                  @ 4-byte Reload
	adcs	r1, r5
	strb	r1, [r3, #7]
	ldr	r2, [sp, #160]
	rev	r2, r2
	adcs	r2, r5
	str	r7, [sp, #24]                   @ 4-byte Spill
	lsrs	r7, r4, #16
	strb	r7, [r3, #13]
	lsrs	r7, r4, #8
	strb	r7, [r3, #14]
	ldr	r7, [sp, #24]                   @ 4-byte Reload
	lsrs	r4, r4, #24
	strb	r4, [r3, #12]
	lsrs	r4, r0, #16
	strb	r4, [r3, #9]
	lsrs	r4, r0, #24
	strb	r4, [r3, #8]
	lsrs	r0, r0, #8
	strb	r0, [r3, #10]
	lsrs	r0, r1, #24
	strb	r0, [r3, #4]
	lsrs	r0, r1, #16
	strb	r0, [r3, #5]
	lsrs	r0, r1, #8
	strb	r0, [r3, #6]
	strb	r2, [r3, #3]
	lsrs	r0, r2, #8
	strb	r0, [r3, #2]
	lsrs	r0, r2, #16
	strb	r0, [r3, #1]
	lsrs	r0, r2, #24
	strb	r0, [r3]
	movs	r0, #1
	str	r0, [sp, #20]                   @ 4-byte Spill
	str	r0, [sp, #8]
	str	r5, [sp, #12]
	str	r3, [sp]
	lsls	r0, r6, #8
	ldr	r1, [sp, #104]                  @ 4-byte Reload
	adds	r0, r0, r1
	ldr	r1, [sp, #108]                  @ 4-byte Reload
	lsls	r1, r1, #16
	ldr	r2, [sp, #112]                  @ 4-byte Reload
	lsls	r2, r2, #24
	adds	r1, r2, r1
	adds	r0, r1, r0
	ldr	r1, [sp, #116]                  @ 4-byte Reload
	lsls	r1, r1, #8
	ldr	r2, [sp, #120]                  @ 4-byte Reload
	adds	r1, r1, r2
	ldr	r2, [sp, #124]                  @ 4-byte Reload
	lsls	r2, r2, #16
	ldr	r3, [sp, #128]                  @ 4-byte Reload
	lsls	r3, r3, #24
	adds	r2, r3, r2
	adds	r2, r2, r1
	ldr	r1, [sp, #132]                  @ 4-byte Reload
	lsls	r1, r1, #8
	ldr	r3, [sp, #136]                  @ 4-byte Reload
	adds	r1, r1, r3
	ldr	r3, [sp, #144]                  @ 4-byte Reload
	lsls	r3, r3, #16
	ldr	r4, [sp, #148]                  @ 4-byte Reload
	lsls	r4, r4, #24
	adds	r3, r4, r3
	adds	r3, r3, r1
	bl	aes_v6m.aes_narrow.blocks.process_all_batches.1
	bl	aes_v6m.aes_cipher.zeroize.stack.wipe_stack.1024
	cmp	r7, #0
	beq	.Laes_v6m_BB3_11
@ %bb.3:                                @ %then.1.i
	ldr	r4, [sp, #32]                   @ 4-byte Reload
	mov	r0, r4
	ldr	r6, [sp, #36]                   @ 4-byte Reload
	orrs	r0, r6
	ldr	r1, [sp, #140]                  @ 4-byte Reload
	mov	r3, r1
	ldr	r5, [sp, #28]                   @ 4-byte Reload
	beq	.Laes_v6m_BB3_12
@ %bb.4:                                @ %join.8.i72.i.i.preheader
	movs	r2, #0
	subs	r0, r4, #1
	str	r0, [sp, #148]                  @ 4-byte Spill
	mov	r3, r6
	sbcs	r3, r2
	movs	r0, #3
	mov	r1, r6
	mov	r6, r4
	str	r0, [sp, #156]                  @ 4-byte Spill
	ands	r6, r0
	mov	r0, r6
	mov	r6, r1
	ldr	r1, [sp, #148]                  @ 4-byte Reload
	subs	r1, r1, #3
	sbcs	r3, r2
	blo	.Laes_v6m_BB3_8
@ %bb.5:                                @ %join.8.i72.i.i.preheader.new
	str	r0, [sp, #136]                  @ 4-byte Spill
	ldr	r0, [sp, #156]                  @ 4-byte Reload
	bics	r4, r0
	str	r4, [sp, #148]                  @ 4-byte Spill
	movs	r5, #0
	mov	r2, r5
	str	r5, [sp, #144]                  @ 4-byte Spill
	ldr	r3, [sp, #152]                  @ 4-byte Reload
	mov	r4, r7
.Laes_v6m_BB3_6:                                @ %join.8.i72.i.i
                                        @ =>This Inner Loop Header: Depth=1
	ldrb	r7, [r3, r2]
	adds	r6, r2, r4
	add	r1, sp, #212
	ldrb	r6, [r1, r6]
	eors	r6, r7
	strb	r6, [r3, r2]
	mov	r6, r2
	ldr	r0, [sp, #20]                   @ 4-byte Reload
	orrs	r6, r0
	ldrb	r7, [r3, r6]
	adds	r0, r6, r4
	ldrb	r0, [r1, r0]
	eors	r0, r7
	strb	r0, [r3, r6]
	movs	r0, #2
	orrs	r0, r2
	ldrb	r6, [r3, r0]
	adds	r7, r0, r4
	ldrb	r7, [r1, r7]
	eors	r7, r6
	strb	r7, [r3, r0]
	mov	r0, r2
	ldr	r6, [sp, #156]                  @ 4-byte Reload
	orrs	r0, r6
	ldrb	r6, [r3, r0]
	adds	r7, r0, r4
	ldrb	r1, [r1, r7]
	eors	r1, r6
	strb	r1, [r3, r0]
	adds	r2, r2, #4
	ldr	r0, [sp, #144]                  @ 4-byte Reload
	adcs	r5, r0
	mov	r0, r2
	ldr	r1, [sp, #148]                  @ 4-byte Reload
	eors	r0, r1
	orrs	r0, r5
	bne	.Laes_v6m_BB3_6
@ %bb.7:                                @ %join.3.i.i.i.loopexit.unr-lcssa
	ldr	r0, [sp, #136]                  @ 4-byte Reload
	cmp	r0, #0
	ldr	r3, [sp, #32]                   @ 4-byte Reload
	ldr	r6, [sp, #36]                   @ 4-byte Reload
	mov	r1, r6
	ldr	r5, [sp, #28]                   @ 4-byte Reload
	mov	r7, r4
	ldr	r4, [sp, #32]                   @ 4-byte Reload
	beq	.Laes_v6m_BB3_12
.Laes_v6m_BB3_8:                                @ %join.8.i72.i.i.epil.preheader
	ldr	r4, [sp, #152]                  @ 4-byte Reload
	ldrb	r1, [r4, r2]
	str	r1, [sp, #156]                  @ 4-byte Spill
	adds	r1, r2, r7
	add	r3, sp, #212
	ldrb	r1, [r3, r1]
	ldr	r3, [sp, #156]                  @ 4-byte Reload
	eors	r1, r3
	strb	r1, [r4, r2]
	ldr	r4, [sp, #32]                   @ 4-byte Reload
	cmp	r0, #1
	mov	r3, r4
	mov	r1, r6
	beq	.Laes_v6m_BB3_12
@ %bb.9:                                @ %join.8.i72.i.i.epil.1
	adds	r1, r2, #1
	ldr	r3, [sp, #152]                  @ 4-byte Reload
	ldrb	r3, [r3, r1]
	str	r3, [sp, #156]                  @ 4-byte Spill
	adds	r3, r1, r7
	add	r4, sp, #212
	ldrb	r3, [r4, r3]
	ldr	r4, [sp, #32]                   @ 4-byte Reload
	ldr	r6, [sp, #156]                  @ 4-byte Reload
	eors	r3, r6
	ldr	r6, [sp, #152]                  @ 4-byte Reload
	strb	r3, [r6, r1]
	ldr	r6, [sp, #36]                   @ 4-byte Reload
	cmp	r0, #2
	mov	r3, r4
	mov	r1, r6
	beq	.Laes_v6m_BB3_12
@ %bb.10:                               @ %join.8.i72.i.i.epil.2
	adds	r0, r2, #2
	ldr	r4, [sp, #152]                  @ 4-byte Reload
	ldrb	r1, [r4, r0]
	adds	r2, r0, r7
	add	r3, sp, #212
	ldrb	r2, [r3, r2]
	eors	r2, r1
	strb	r2, [r4, r0]
	ldr	r4, [sp, #32]                   @ 4-byte Reload
	mov	r3, r4
	mov	r1, r6
	b	.Laes_v6m_BB3_12
.Laes_v6m_BB3_11:
	ldr	r1, [sp, #140]                  @ 4-byte Reload
	mov	r3, r1
	ldr	r5, [sp, #28]                   @ 4-byte Reload
	ldr	r6, [sp, #36]                   @ 4-byte Reload
	ldr	r4, [sp, #32]                   @ 4-byte Reload
.Laes_v6m_BB3_12:                               @ %join.3.i.i.i
	subs	r2, r4, r3
	str	r1, [sp, #148]                  @ 4-byte Spill
	sbcs	r6, r1
	mov	r0, r2
	subs	r0, #16
	mov	r0, r6
	ldr	r1, [sp, #140]                  @ 4-byte Reload
	sbcs	r0, r1
	bhs	.Laes_v6m_BB3_13
	b	.Laes_v6m_BB3_14
.Laes_v6m_BB3_13:                               @ %join.8.i.i.i
                                        @ =>This Inner Loop Header: Depth=1
	str	r3, [sp, #156]                  @ 4-byte Spill
	ldr	r2, [sp, #152]                  @ 4-byte Reload
	ldrb	r0, [r2, r3]
	ldr	r1, [sp, #156]                  @ 4-byte Reload
	adds	r3, r1, r7
	bics	r3, r5
	add	r4, sp, #212
	ldrb	r1, [r4, r3]
	eors	r1, r0
	str	r1, [sp, #72]                   @ 4-byte Spill
	ldr	r0, [sp, #156]                  @ 4-byte Reload
	adds	r2, r2, r0
	ldrb	r0, [r2, #1]
	str	r0, [sp, #144]                  @ 4-byte Spill
	adds	r5, r4, r3
	ldrb	r0, [r5, #1]
	str	r0, [sp, #140]                  @ 4-byte Spill
	ldrb	r0, [r2, #2]
	str	r0, [sp, #136]                  @ 4-byte Spill
	ldrb	r0, [r5, #2]
	str	r0, [sp, #132]                  @ 4-byte Spill
	ldrb	r0, [r2, #3]
	str	r0, [sp, #128]                  @ 4-byte Spill
	ldrb	r0, [r5, #3]
	str	r0, [sp, #124]                  @ 4-byte Spill
	ldrb	r0, [r2, #4]
	str	r0, [sp, #120]                  @ 4-byte Spill
	ldrb	r0, [r5, #4]
	str	r0, [sp, #116]                  @ 4-byte Spill
	ldrb	r0, [r2, #5]
	str	r0, [sp, #112]                  @ 4-byte Spill
	ldrb	r0, [r5, #5]
	str	r0, [sp, #108]                  @ 4-byte Spill
	ldrb	r0, [r2, #6]
	str	r0, [sp, #104]                  @ 4-byte Spill
	ldrb	r0, [r5, #6]
	str	r0, [sp, #100]                  @ 4-byte Spill
	ldrb	r0, [r2, #7]
	str	r0, [sp, #96]                   @ 4-byte Spill
	ldrb	r0, [r5, #7]
	str	r0, [sp, #92]                   @ 4-byte Spill
	ldrb	r0, [r2, #8]
	str	r0, [sp, #88]                   @ 4-byte Spill
	ldrb	r0, [r5, #8]
	str	r0, [sp, #84]                   @ 4-byte Spill
	ldrb	r0, [r2, #9]
	str	r0, [sp, #80]                   @ 4-byte Spill
	ldrb	r0, [r5, #9]
	str	r0, [sp, #76]                   @ 4-byte Spill
	ldrb	r0, [r2, #10]
	str	r0, [sp, #68]                   @ 4-byte Spill
	ldrb	r0, [r5, #10]
	str	r0, [sp, #64]                   @ 4-byte Spill
	ldrb	r0, [r2, #11]
	str	r0, [sp, #60]                   @ 4-byte Spill
	ldrb	r0, [r5, #11]
	str	r0, [sp, #56]                   @ 4-byte Spill
	ldrb	r0, [r2, #12]
	str	r0, [sp, #52]                   @ 4-byte Spill
	ldrb	r3, [r5, #12]
	ldrb	r0, [r2, #13]
	str	r0, [sp, #48]                   @ 4-byte Spill
	ldrb	r1, [r5, #13]
	ldrb	r0, [r2, #14]
	str	r0, [sp, #44]                   @ 4-byte Spill
	ldrb	r0, [r5, #14]
	ldrb	r4, [r2, #15]
	str	r4, [sp, #40]                   @ 4-byte Spill
	ldrb	r5, [r5, #15]
	ldr	r6, [sp, #156]                  @ 4-byte Reload
	ldr	r4, [sp, #72]                   @ 4-byte Reload
	ldr	r7, [sp, #152]                  @ 4-byte Reload
	strb	r4, [r7, r6]
	ldr	r4, [sp, #40]                   @ 4-byte Reload
	eors	r5, r4
	strb	r5, [r2, #15]
	ldr	r5, [sp, #28]                   @ 4-byte Reload
	ldr	r4, [sp, #44]                   @ 4-byte Reload
	eors	r0, r4
	strb	r0, [r2, #14]
	ldr	r0, [sp, #48]                   @ 4-byte Reload
	eors	r1, r0
	strb	r1, [r2, #13]
	ldr	r0, [sp, #52]                   @ 4-byte Reload
	eors	r3, r0
	strb	r3, [r2, #12]
	ldr	r3, [sp, #156]                  @ 4-byte Reload
	ldr	r0, [sp, #60]                   @ 4-byte Reload
	ldr	r1, [sp, #56]                   @ 4-byte Reload
	eors	r1, r0
	strb	r1, [r2, #11]
	ldr	r7, [sp, #24]                   @ 4-byte Reload
	ldr	r0, [sp, #68]                   @ 4-byte Reload
	ldr	r1, [sp, #64]                   @ 4-byte Reload
	eors	r1, r0
	strb	r1, [r2, #10]
	ldr	r4, [sp, #32]                   @ 4-byte Reload
	ldr	r0, [sp, #80]                   @ 4-byte Reload
	ldr	r1, [sp, #76]                   @ 4-byte Reload
	eors	r1, r0
	strb	r1, [r2, #9]
	ldr	r0, [sp, #88]                   @ 4-byte Reload
	ldr	r1, [sp, #84]                   @ 4-byte Reload
	eors	r1, r0
	strb	r1, [r2, #8]
	ldr	r0, [sp, #96]                   @ 4-byte Reload
	ldr	r1, [sp, #92]                   @ 4-byte Reload
	eors	r1, r0
	strb	r1, [r2, #7]
	ldr	r0, [sp, #104]                  @ 4-byte Reload
	ldr	r1, [sp, #100]                  @ 4-byte Reload
	eors	r1, r0
	strb	r1, [r2, #6]
	ldr	r0, [sp, #112]                  @ 4-byte Reload
	ldr	r1, [sp, #108]                  @ 4-byte Reload
	eors	r1, r0
	strb	r1, [r2, #5]
	ldr	r0, [sp, #120]                  @ 4-byte Reload
	ldr	r1, [sp, #116]                  @ 4-byte Reload
	eors	r1, r0
	strb	r1, [r2, #4]
	ldr	r0, [sp, #128]                  @ 4-byte Reload
	ldr	r1, [sp, #124]                  @ 4-byte Reload
	eors	r1, r0
	strb	r1, [r2, #3]
	ldr	r0, [sp, #136]                  @ 4-byte Reload
	ldr	r1, [sp, #132]                  @ 4-byte Reload
	eors	r1, r0
	strb	r1, [r2, #2]
	ldr	r0, [sp, #144]                  @ 4-byte Reload
	ldr	r1, [sp, #140]                  @ 4-byte Reload
	eors	r1, r0
	strb	r1, [r2, #1]
	movs	r0, #0
	adds	r3, #16
	ldr	r1, [sp, #148]                  @ 4-byte Reload
	adcs	r1, r0
	subs	r2, r4, r3
	ldr	r6, [sp, #36]                   @ 4-byte Reload
	str	r1, [sp, #148]                  @ 4-byte Spill
	sbcs	r6, r1
	subs	r1, r5, r2
	sbcs	r0, r6
	bhs	.Laes_v6m_BB3_14
	b	.Laes_v6m_BB3_13
.Laes_v6m_BB3_14:                               @ %after.4.i.i.i
	subs	r0, r3, r4
	ldr	r0, [sp, #36]                   @ 4-byte Reload
	ldr	r1, [sp, #148]                  @ 4-byte Reload
	sbcs	r1, r0
	bhs	.Laes_v6m_BB3_22
@ %bb.15:                               @ %then.9.i.i.i
	add	r0, sp, #212
	mov	r1, r2
	orrs	r1, r6
	beq	.Laes_v6m_BB3_22
@ %bb.16:                               @ %join.8.i15.i.i.preheader
	ldr	r1, [sp, #152]                  @ 4-byte Reload
	adds	r1, r1, r3
	adds	r3, r3, r7
	bics	r3, r5
	adds	r0, r0, r3
	movs	r3, #3
	mov	r5, r2
	ands	r5, r3
	movs	r4, #0
	subs	r7, r2, #4
	sbcs	r6, r4
	blo	.Laes_v6m_BB3_20
@ %bb.17:                               @ %join.8.i15.i.i.preheader.new
	str	r5, [sp, #148]                  @ 4-byte Spill
	movs	r4, #12
	ands	r2, r4
	movs	r7, #0
	mov	r4, r7
	str	r7, [sp, #156]                  @ 4-byte Spill
	str	r3, [sp, #152]                  @ 4-byte Spill
.Laes_v6m_BB3_18:                               @ %join.8.i15.i.i
                                        @ =>This Inner Loop Header: Depth=1
	ldrb	r3, [r0, r4]
	ldrb	r5, [r1, r4]
	eors	r5, r3
	strb	r5, [r1, r4]
	mov	r3, r4
	ldr	r5, [sp, #20]                   @ 4-byte Reload
	orrs	r3, r5
	ldrb	r5, [r0, r3]
	ldrb	r6, [r1, r3]
	eors	r6, r5
	strb	r6, [r1, r3]
	movs	r3, #2
	orrs	r3, r4
	ldrb	r5, [r0, r3]
	ldrb	r6, [r1, r3]
	eors	r6, r5
	strb	r6, [r1, r3]
	mov	r3, r4
	ldr	r5, [sp, #152]                  @ 4-byte Reload
	orrs	r3, r5
	ldrb	r5, [r0, r3]
	ldrb	r6, [r1, r3]
	eors	r6, r5
	strb	r6, [r1, r3]
	adds	r4, r4, #4
	ldr	r3, [sp, #156]                  @ 4-byte Reload
	adcs	r7, r3
	mov	r3, r4
	eors	r3, r2
	orrs	r3, r7
	bne	.Laes_v6m_BB3_18
@ %bb.19:                               @ %"aes_ctr::add_in_batches::add_to_one::<#72982bb057555e7c>.exit.i.loopexit.unr-lcssa"
	ldr	r5, [sp, #148]                  @ 4-byte Reload
	cmp	r5, #0
	beq	.Laes_v6m_BB3_22
.Laes_v6m_BB3_20:                               @ %join.8.i15.i.i.epil.preheader
	ldrb	r2, [r0, r4]
	ldrb	r3, [r1, r4]
	eors	r3, r2
	strb	r3, [r1, r4]
	cmp	r5, #1
	beq	.Laes_v6m_BB3_22
@ %bb.21:                               @ %join.8.i15.i.i.epil.1
	adds	r2, r4, #1
	ldrb	r3, [r0, r2]
	mov	r6, r5
	ldrb	r5, [r1, r2]
	eors	r5, r3
	strb	r5, [r1, r2]
	cmp	r6, #2
	bne	.Laes_v6m_BB3_23
.Laes_v6m_BB3_22:                               @ %"aes_ctr::add_in_batches::add_stream::<#72982bb057555e7c>.exit"
	add	sp, #228
	pop	{r4, r5, r6, r7, pc}
.Laes_v6m_BB3_23:                               @ %join.8.i15.i.i.epil.2
	adds	r2, r4, #2
	ldrb	r0, [r0, r2]
	ldrb	r3, [r1, r2]
	eors	r3, r0
	strb	r3, [r1, r2]
	add	sp, #228
	pop	{r4, r5, r6, r7, pc}
.Laes_v6m_func_end3:
	.size	aes_v6m.aes_ctr.add_in_batches.add_keystream, .Laes_v6m_func_end3-aes_v6m.aes_ctr.add_in_batches.add_keystream
	.cantunwind
	.fnend
                                        @ -- End function
	.section	.text.aes_v6m.aes_narrow.blocks.process_all_batches.1,"ax",%progbits
	.p2align	1                               @ -- Begin function aes_narrow::blocks::process_all_batches::<#1a21aa7f601e7603>
	.type	aes_v6m.aes_narrow.blocks.process_all_batches.1,%function
	.code	16
	.thumb_func
aes_v6m.aes_narrow.blocks.process_all_batches.1: @ @aes_v6m.aes_narrow.blocks.process_all_batches.1
	.fnstart
@ %bb.0:                                @ %start
	.save	{r4, r5, r6, r7, lr}
	push	{r4, r5, r6, r7, lr}
	.pad	#44
	sub	sp, #44
	add	r1, sp, #32
	stm	r1!, {r0, r2, r3}               @ 12-byte Folded Spill
	ldr	r1, [sp, #76]
	ldr	r7, [sp, #72]
	mov	r0, r7
	orrs	r0, r1
	beq	.Laes_v6m_BB4_7
@ %bb.1:                                @ %join.5.preheader
	ldr	r0, [sp, #64]
	str	r0, [sp, #24]                   @ 4-byte Spill
	movs	r3, #0
	mov	r6, r3
	mov	r5, r3
	str	r1, [sp, #28]                   @ 4-byte Spill
	str	r3, [sp, #20]                   @ 4-byte Spill
	b	.Laes_v6m_BB4_3
.Laes_v6m_BB4_2:                                @ %join.5
                                        @   in Loop: Header=BB4_3 Depth=1
	str	r4, [sp, #8]
	add	r3, sp, #32
	ldm	r3, {r0, r2, r3}                @ 12-byte Folded Reload
	bl	aes_v6m.aes_soft.soft.blocks.filled_up.process_filled_up.1
	adds	r6, r4, r6
	ldr	r3, [sp, #20]                   @ 4-byte Reload
	adcs	r5, r3
	subs	r0, r6, r7
	mov	r0, r5
	ldr	r1, [sp, #28]                   @ 4-byte Reload
	sbcs	r0, r1
	bhs	.Laes_v6m_BB4_7
.Laes_v6m_BB4_3:                                @ %join.5
                                        @ =>This Inner Loop Header: Depth=1
	str	r3, [sp, #12]
	lsls	r0, r6, #4
	ldr	r3, [sp, #24]                   @ 4-byte Reload
	adds	r0, r3, r0
	str	r0, [sp]
	subs	r4, r7, r6
	sbcs	r1, r5
	movs	r0, #2
	cmp	r4, #2
	blo	.Laes_v6m_BB4_5
@ %bb.4:                                @ %join.5
                                        @   in Loop: Header=BB4_3 Depth=1
	mov	r4, r0
.Laes_v6m_BB4_5:                                @ %join.5
                                        @   in Loop: Header=BB4_3 Depth=1
	cmp	r1, #0
	beq	.Laes_v6m_BB4_2
@ %bb.6:                                @ %join.5
                                        @   in Loop: Header=BB4_3 Depth=1
	mov	r4, r0
	b	.Laes_v6m_BB4_2
.Laes_v6m_BB4_7:                                @ %after.1
	add	sp, #44
	pop	{r4, r5, r6, r7, pc}
.Laes_v6m_func_end4:
	.size	aes_v6m.aes_narrow.blocks.process_all_batches.1, .Laes_v6m_func_end4-aes_v6m.aes_narrow.blocks.process_all_batches.1
	.cantunwind
	.fnend
                                        @ -- End function
	.section	.text.aes_v6m.aes_soft.soft.blocks.filled_up.process_filled_up.1,"ax",%progbits
	.p2align	1                               @ -- Begin function aes_soft::soft::blocks::filled_up::process_filled_up::<#1a21aa7f601e7603>
	.type	aes_v6m.aes_soft.soft.blocks.filled_up.process_filled_up.1,%function
	.code	16
	.thumb_func
aes_v6m.aes_soft.soft.blocks.filled_up.process_filled_up.1: @ @aes_v6m.aes_soft.soft.blocks.filled_up.process_filled_up.1
	.fnstart
@ %bb.0:                                @ %start
	.save	{r4, r5, r6, r7, lr}
	push	{r4, r5, r6, r7, lr}
	.pad	#156
	sub	sp, #156
	str	r3, [sp, #8]                    @ 4-byte Spill
	str	r2, [sp, #24]                   @ 4-byte Spill
	str	r0, [sp, #20]                   @ 4-byte Spill
	movs	r6, #0
	str	r6, [sp, #120]
	str	r6, [sp, #116]
	str	r6, [sp, #112]
	str	r6, [sp, #108]
	str	r6, [sp, #104]
	str	r6, [sp, #100]
	str	r6, [sp, #96]
	str	r6, [sp, #92]
	str	r6, [sp, #60]
	str	r6, [sp, #64]
	str	r6, [sp, #68]
	str	r6, [sp, #72]
	str	r6, [sp, #76]
	str	r6, [sp, #80]
	str	r6, [sp, #84]
	str	r6, [sp, #88]
	str	r6, [sp, #28]
	str	r6, [sp, #32]
	str	r6, [sp, #36]
	str	r6, [sp, #40]
	str	r6, [sp, #44]
	str	r6, [sp, #48]
	str	r6, [sp, #52]
	str	r6, [sp, #56]
	ldr	r4, [sp, #176]
	ldrb	r0, [r4, #12]
	ldrb	r1, [r4, #13]
	lsls	r1, r1, #8
	adds	r0, r1, r0
	ldrb	r1, [r4, #14]
	lsls	r1, r1, #16
	ldrb	r2, [r4, #15]
	lsls	r2, r2, #24
	adds	r1, r2, r1
	adds	r0, r1, r0
	str	r0, [sp, #136]
	ldrb	r0, [r4, #8]
	ldrb	r1, [r4, #9]
	lsls	r1, r1, #8
	adds	r0, r1, r0
	ldrb	r1, [r4, #10]
	lsls	r1, r1, #16
	ldrb	r2, [r4, #11]
	lsls	r2, r2, #24
	adds	r1, r2, r1
	adds	r0, r1, r0
	str	r0, [sp, #132]
	ldrb	r0, [r4, #4]
	ldrb	r1, [r4, #5]
	lsls	r1, r1, #8
	adds	r0, r1, r0
	ldrb	r1, [r4, #6]
	lsls	r1, r1, #16
	ldrb	r2, [r4, #7]
	lsls	r2, r2, #24
	adds	r1, r2, r1
	adds	r0, r1, r0
	str	r0, [sp, #128]
	ldrb	r0, [r4]
	ldrb	r1, [r4, #1]
	lsls	r1, r1, #8
	adds	r0, r1, r0
	ldrb	r1, [r4, #2]
	lsls	r1, r1, #16
	ldrb	r2, [r4, #3]
	lsls	r2, r2, #24
	adds	r1, r2, r1
	adds	r0, r1, r0
	str	r0, [sp, #124]
	add	r0, sp, #124
	adds	r0, #16
	movs	r2, #16
	mov	r1, r4
	bl	memcpy
	ldr	r5, [sp, #188]
	ldr	r7, [sp, #184]
	mov	r1, r7
	orrs	r1, r5
	rsbs	r0, r1, #0
	adcs	r0, r1
	str	r0, [sp, #12]                   @ 4-byte Spill
	ldr	r3, [sp, #8]                    @ 4-byte Reload
	lsls	r0, r3, #29
	ldr	r2, [sp, #24]                   @ 4-byte Reload
	lsrs	r2, r2, #3
	adds	r0, r2, r0
	lsrs	r3, r3, #3
	subs	r0, r0, #1
	str	r0, [sp, #24]                   @ 4-byte Spill
	sbcs	r3, r6
	cmp	r1, #0
	str	r5, [sp, #4]                    @ 4-byte Spill
	str	r7, [sp, #16]                   @ 4-byte Spill
	beq	.Laes_v6m_BB5_2
@ %bb.1:                                @ %join.8.i
	ldrb	r0, [r4, #12]
	ldrb	r1, [r4, #13]
	lsls	r1, r1, #8
	adds	r0, r1, r0
	ldrb	r1, [r4, #14]
	lsls	r1, r1, #16
	ldrb	r2, [r4, #15]
	lsls	r2, r2, #24
	adds	r1, r2, r1
	adds	r0, r1, r0
	str	r0, [sp, #136]
	ldrb	r0, [r4, #8]
	ldrb	r1, [r4, #9]
	lsls	r1, r1, #8
	adds	r0, r1, r0
	ldrb	r1, [r4, #10]
	lsls	r1, r1, #16
	ldrb	r2, [r4, #11]
	lsls	r2, r2, #24
	adds	r1, r2, r1
	adds	r0, r1, r0
	str	r0, [sp, #132]
	ldrb	r0, [r4, #4]
	ldrb	r1, [r4, #5]
	lsls	r1, r1, #8
	adds	r0, r1, r0
	ldrb	r1, [r4, #6]
	lsls	r1, r1, #16
	ldrb	r2, [r4, #7]
	lsls	r2, r2, #24
	adds	r1, r2, r1
	adds	r0, r1, r0
	str	r0, [sp, #128]
	ldrb	r0, [r4]
	ldrb	r1, [r4, #1]
	lsls	r1, r1, #8
	adds	r0, r1, r0
	ldrb	r1, [r4, #2]
	lsls	r1, r1, #16
	ldrb	r2, [r4, #3]
	lsls	r2, r2, #24
	adds	r1, r2, r1
	adds	r0, r1, r0
	str	r0, [sp, #124]
	movs	r0, #1
	eors	r0, r7
	orrs	r0, r5
	bne	.Laes_v6m_BB5_3
.Laes_v6m_BB5_2:                                @ %then.6.i
	add	r0, sp, #124
	add	r1, sp, #60
	ldm	r0!, {r2, r5, r6, r7}
	stm	r1!, {r2, r5, r6, r7}
	ldm	r0!, {r2, r5, r6, r7}
	stm	r1!, {r2, r5, r6, r7}
	b	.Laes_v6m_BB5_4
.Laes_v6m_BB5_3:                                @ %join.8.i.1
	add	r5, sp, #124
	mov	r0, r5
	adds	r0, #16
	mov	r1, r4
	adds	r1, #16
	movs	r2, #16
	mov	r6, r3
	bl	memcpy
	mov	r3, r6
	add	r0, sp, #60
	ldm	r5!, {r1, r2, r6, r7}
	stm	r0!, {r1, r2, r6, r7}
	ldm	r5!, {r1, r2, r6, r7}
	stm	r0!, {r1, r2, r6, r7}
.Laes_v6m_BB5_4:                                @ %"aes_soft::soft::blocks::filled_up::filled_up::<#7d3b633001169d8c>.exit"
	add	r0, sp, #60
	str	r0, [sp]
	add	r6, sp, #28
	mov	r0, r6
	ldr	r1, [sp, #20]                   @ 4-byte Reload
	ldr	r2, [sp, #24]                   @ 4-byte Reload
	bl	aes_v6m.aes_soft.soft.ciphers.planes.process_outlined.1
	add	r0, sp, #92
	ldm	r6!, {r1, r2, r3, r5}
	stm	r0!, {r1, r2, r3, r5}
	ldm	r6!, {r1, r2, r3, r5}
	stm	r0!, {r1, r2, r3, r5}
	ldr	r0, [sp, #12]                   @ 4-byte Reload
	cmp	r0, #0
	ldr	r5, [sp, #16]                   @ 4-byte Reload
	bne	.Laes_v6m_BB5_7
@ %bb.5:                                @ %join.8.i22
	add	r1, sp, #92
	movs	r2, #16
	mov	r0, r4
	bl	memcpy
	movs	r0, #1
	eors	r5, r0
	ldr	r0, [sp, #4]                    @ 4-byte Reload
	orrs	r5, r0
	beq	.Laes_v6m_BB5_7
@ %bb.6:                                @ %join.8.i22.1
	adds	r4, #16
	add	r1, sp, #92
	adds	r1, #16
	movs	r2, #16
	mov	r0, r4
	bl	memcpy
.Laes_v6m_BB5_7:                                @ %"aes_soft::soft::blocks::filled_up::copy_first::<#7d3b633001169d8c>.exit"
	add	sp, #156
	pop	{r4, r5, r6, r7, pc}
.Laes_v6m_func_end5:
	.size	aes_v6m.aes_soft.soft.blocks.filled_up.process_filled_up.1, .Laes_v6m_func_end5-aes_v6m.aes_soft.soft.blocks.filled_up.process_filled_up.1
	.cantunwind
	.fnend
                                        @ -- End function
	.section	.text.aes_v6m.aes_soft.soft.ciphers.planes.process_outlined.1,"ax",%progbits
	.p2align	2                               @ -- Begin function aes_soft::soft::ciphers::planes::process_outlined::<#18f5f0e5023a24e4>
	.type	aes_v6m.aes_soft.soft.ciphers.planes.process_outlined.1,%function
	.code	16
	.thumb_func
aes_v6m.aes_soft.soft.ciphers.planes.process_outlined.1: @ @aes_v6m.aes_soft.soft.ciphers.planes.process_outlined.1
	.fnstart
@ %bb.0:                                @ %start
	.save	{r4, r5, r6, r7, lr}
	push	{r4, r5, r6, r7, lr}
	.pad	#156
	sub	sp, #156
	str	r3, [sp, #12]                   @ 4-byte Spill
	str	r2, [sp, #16]                   @ 4-byte Spill
	str	r1, [sp, #32]                   @ 4-byte Spill
	str	r0, [sp, #4]                    @ 4-byte Spill
	ldr	r6, [sp, #176]
	ldrb	r0, [r6, #28]
	ldrb	r1, [r6, #29]
	lsls	r1, r1, #8
	adds	r0, r1, r0
	ldrb	r1, [r6, #30]
	lsls	r1, r1, #16
	adds	r0, r0, r1
	ldrb	r1, [r6, #31]
	lsls	r1, r1, #24
	adds	r2, r0, r1
	ldrb	r0, [r6, #12]
	ldrb	r1, [r6, #13]
	lsls	r1, r1, #8
	adds	r0, r1, r0
	ldrb	r1, [r6, #14]
	lsls	r1, r1, #16
	adds	r0, r0, r1
	ldrb	r1, [r6, #15]
	lsls	r1, r1, #24
	adds	r0, r0, r1
	str	r0, [sp, #144]                  @ 4-byte Spill
	lsrs	r0, r0, #1
	eors	r0, r2
	ldr	r5, .Laes_v6m_CPI6_9
	ands	r0, r5
	str	r0, [sp, #136]                  @ 4-byte Spill
	eors	r2, r0
	ldrb	r1, [r6, #24]
	ldrb	r3, [r6, #25]
	lsls	r3, r3, #8
	adds	r1, r3, r1
	ldrb	r3, [r6, #26]
	lsls	r3, r3, #16
	adds	r1, r1, r3
	ldrb	r3, [r6, #27]
	lsls	r3, r3, #24
	adds	r0, r1, r3
	ldrb	r1, [r6, #8]
	ldrb	r3, [r6, #9]
	lsls	r3, r3, #8
	adds	r1, r3, r1
	ldrb	r3, [r6, #10]
	lsls	r3, r3, #16
	adds	r1, r1, r3
	ldrb	r3, [r6, #11]
	lsls	r3, r3, #24
	adds	r1, r1, r3
	str	r1, [sp, #132]                  @ 4-byte Spill
	lsrs	r3, r1, #1
	eors	r3, r0
	ands	r3, r5
	eors	r0, r3
	str	r0, [sp, #148]                  @ 4-byte Spill
	lsrs	r0, r0, #2
	eors	r0, r2
	ldr	r1, .Laes_v6m_CPI6_10
	ands	r0, r1
	str	r0, [sp, #140]                  @ 4-byte Spill
	eors	r2, r0
	ldrb	r1, [r6, #20]
	ldrb	r4, [r6, #21]
	lsls	r4, r4, #8
	adds	r1, r4, r1
	ldrb	r4, [r6, #22]
	lsls	r4, r4, #16
	adds	r1, r1, r4
	ldrb	r4, [r6, #23]
	lsls	r4, r4, #24
	adds	r0, r1, r4
	ldrb	r1, [r6, #4]
	ldrb	r4, [r6, #5]
	lsls	r4, r4, #8
	adds	r1, r4, r1
	ldrb	r4, [r6, #6]
	lsls	r4, r4, #16
	adds	r1, r1, r4
	ldrb	r4, [r6, #7]
	lsls	r4, r4, #24
	adds	r1, r1, r4
	str	r1, [sp, #120]                  @ 4-byte Spill
	lsrs	r4, r1, #1
	eors	r4, r0
	ands	r4, r5
	eors	r0, r4
	ldrb	r1, [r6, #16]
	ldrb	r5, [r6, #17]
	lsls	r5, r5, #8
	adds	r1, r5, r1
	ldrb	r5, [r6, #18]
	lsls	r5, r5, #16
	adds	r1, r1, r5
	ldrb	r5, [r6, #19]
	lsls	r5, r5, #24
	adds	r1, r1, r5
	str	r1, [sp, #152]                  @ 4-byte Spill
	ldrb	r1, [r6]
	ldrb	r5, [r6, #1]
	lsls	r5, r5, #8
	adds	r1, r5, r1
	ldrb	r5, [r6, #2]
	lsls	r5, r5, #16
	adds	r1, r1, r5
	ldrb	r5, [r6, #3]
	lsls	r5, r5, #24
	adds	r1, r1, r5
	str	r1, [sp, #112]                  @ 4-byte Spill
	lsrs	r7, r1, #1
	ldr	r1, [sp, #152]                  @ 4-byte Reload
	eors	r7, r1
	ldr	r5, .Laes_v6m_CPI6_9
	ands	r7, r5
	eors	r1, r7
	str	r1, [sp, #152]                  @ 4-byte Spill
	lsrs	r6, r1, #2
	eors	r6, r0
	ldr	r5, .Laes_v6m_CPI6_10
	ands	r6, r5
	eors	r0, r6
	str	r0, [sp, #124]                  @ 4-byte Spill
	lsrs	r0, r0, #4
	eors	r0, r2
	ldr	r1, .Laes_v6m_CPI6_11
	ands	r0, r1
	str	r0, [sp, #116]                  @ 4-byte Spill
	ldr	r1, [sp, #32]                   @ 4-byte Reload
	ldr	r1, [r1, #28]
	eors	r1, r2
	eors	r1, r0
	str	r1, [sp, #128]                  @ 4-byte Spill
	ldr	r0, [sp, #136]                  @ 4-byte Reload
	lsls	r1, r0, #1
	ldr	r0, [sp, #144]                  @ 4-byte Reload
	eors	r1, r0
	lsls	r2, r3, #1
	ldr	r0, [sp, #132]                  @ 4-byte Reload
	eors	r2, r0
	str	r2, [sp, #136]                  @ 4-byte Spill
	lsrs	r2, r2, #2
	eors	r2, r1
	ands	r2, r5
	eors	r1, r2
	lsls	r3, r4, #1
	ldr	r0, [sp, #120]                  @ 4-byte Reload
	eors	r3, r0
	lsls	r7, r7, #1
	ldr	r0, [sp, #112]                  @ 4-byte Reload
	eors	r7, r0
	lsrs	r0, r7, #2
	eors	r0, r3
	ands	r0, r5
	eors	r3, r0
	str	r3, [sp, #144]                  @ 4-byte Spill
	lsrs	r5, r3, #4
	eors	r5, r1
	ldr	r3, .Laes_v6m_CPI6_11
	ands	r5, r3
	ldr	r3, [sp, #32]                   @ 4-byte Reload
	ldr	r4, [r3, #24]
	eors	r4, r1
	eors	r4, r5
	str	r4, [sp, #80]                   @ 4-byte Spill
	ldr	r1, [sp, #140]                  @ 4-byte Reload
	lsls	r1, r1, #2
	ldr	r4, [sp, #148]                  @ 4-byte Reload
	eors	r1, r4
	lsls	r6, r6, #2
	ldr	r4, [sp, #152]                  @ 4-byte Reload
	eors	r6, r4
	str	r6, [sp, #152]                  @ 4-byte Spill
	lsrs	r6, r6, #4
	eors	r6, r1
	ldr	r4, .Laes_v6m_CPI6_11
	ands	r6, r4
	ldr	r4, [r3, #20]
	eors	r4, r1
	eors	r4, r6
	str	r4, [sp, #120]                  @ 4-byte Spill
	lsls	r1, r2, #2
	ldr	r2, [sp, #136]                  @ 4-byte Reload
	eors	r1, r2
	lsls	r0, r0, #2
	eors	r0, r7
	lsrs	r2, r0, #4
	eors	r2, r1
	ldr	r4, .Laes_v6m_CPI6_11
	ands	r2, r4
	ldr	r4, [r3, #16]
	eors	r4, r1
	eors	r4, r2
	str	r4, [sp, #56]                   @ 4-byte Spill
	ldr	r1, [sp, #116]                  @ 4-byte Reload
	lsls	r1, r1, #4
	mov	r4, r3
	ldr	r7, [r3, #12]
	eors	r7, r1
	ldr	r1, [sp, #124]                  @ 4-byte Reload
	eors	r7, r1
	lsls	r1, r5, #4
	ldr	r3, [r3, #8]
	eors	r3, r1
	ldr	r1, [sp, #144]                  @ 4-byte Reload
	eors	r3, r1
	str	r3, [sp, #148]                  @ 4-byte Spill
	lsls	r1, r6, #4
	ldr	r3, [r4, #4]
	eors	r3, r1
	ldr	r1, [sp, #152]                  @ 4-byte Reload
	eors	r3, r1
	str	r3, [sp, #116]                  @ 4-byte Spill
	lsls	r1, r2, #4
	ldr	r2, [r4]
	eors	r2, r1
	eors	r2, r0
	str	r2, [sp, #132]                  @ 4-byte Spill
	movs	r0, #0
	ldr	r1, [sp, #16]                   @ 4-byte Reload
	subs	r3, r1, #2
	ldr	r5, [sp, #12]                   @ 4-byte Reload
	str	r0, [sp, #28]                   @ 4-byte Spill
	sbcs	r5, r0
	lsls	r0, r5, #30
	lsrs	r1, r3, #2
	adds	r1, r1, r0
	str	r5, [sp]                        @ 4-byte Spill
	lsrs	r5, r5, #2
	mov	r0, r1
	orrs	r0, r5
	str	r3, [sp, #8]                    @ 4-byte Spill
	bne	.Laes_v6m_BB6_4
	bl	.Laes_v6m_BB6_21
	.p2align	2
@ %bb.1:
.Laes_v6m_CPI6_9:
	.long	1431655765                      @ 0x55555555
	.p2align	2
@ %bb.2:
.Laes_v6m_CPI6_10:
	.long	858993459                       @ 0x33333333
	.p2align	2
@ %bb.3:
.Laes_v6m_CPI6_11:
	.long	252645135                       @ 0xf0f0f0f
	.p2align	1
.Laes_v6m_BB6_4:                                @ %join.7.i.preheader
	mov	r2, r5
	ldr	r3, [sp, #28]                   @ 4-byte Reload
	str	r3, [sp, #60]                   @ 4-byte Spill
	ldr	r5, [sp, #56]                   @ 4-byte Reload
	str	r1, [sp, #24]                   @ 4-byte Spill
	str	r2, [sp, #20]                   @ 4-byte Spill
.Laes_v6m_BB6_5:                                @ %join.7.i
                                        @ =>This Inner Loop Header: Depth=1
	str	r3, [sp, #48]                   @ 4-byte Spill
	ldr	r2, [sp, #148]                  @ 4-byte Reload
	mov	r1, r2
	eors	r1, r5
	str	r1, [sp, #64]                   @ 4-byte Spill
	ldr	r3, [sp, #116]                  @ 4-byte Reload
	ldr	r6, [sp, #128]                  @ 4-byte Reload
	eors	r3, r6
	str	r3, [sp, #152]                  @ 4-byte Spill
	str	r6, [sp, #128]                  @ 4-byte Spill
	mov	r0, r3
	eors	r0, r1
	str	r0, [sp, #68]                   @ 4-byte Spill
	eors	r7, r0
	mov	r3, r7
	eors	r3, r2
	str	r3, [sp, #140]                  @ 4-byte Spill
	ldr	r1, [sp, #120]                  @ 4-byte Reload
	ldr	r0, [sp, #80]                   @ 4-byte Reload
	eors	r1, r0
	mov	r4, r3
	eors	r4, r1
	str	r4, [sp, #144]                  @ 4-byte Spill
	eors	r7, r0
	mov	r3, r5
	eors	r3, r6
	str	r3, [sp, #104]                  @ 4-byte Spill
	mov	r6, r7
	eors	r6, r3
	mov	r0, r6
	eors	r0, r4
	mov	r4, r0
	str	r0, [sp, #84]                   @ 4-byte Spill
	ldr	r0, [sp, #64]                   @ 4-byte Reload
	ands	r4, r0
	mov	r0, r6
	ands	r0, r3
	eors	r4, r0
	str	r4, [sp, #112]                  @ 4-byte Spill
	ldr	r2, [sp, #132]                  @ 4-byte Reload
	eors	r2, r1
	str	r2, [sp, #124]                  @ 4-byte Spill
	ldr	r3, [sp, #116]                  @ 4-byte Reload
	eors	r3, r2
	str	r3, [sp, #116]                  @ 4-byte Spill
	ands	r3, r2
	mov	r2, r1
	eors	r2, r6
	mov	r1, r6
	str	r6, [sp, #108]                  @ 4-byte Spill
	eors	r3, r2
	str	r2, [sp, #120]                  @ 4-byte Spill
	ldr	r4, [sp, #152]                  @ 4-byte Reload
	ands	r2, r4
	eors	r3, r2
	eors	r3, r4
	ldr	r4, [sp, #112]                  @ 4-byte Reload
	eors	r3, r4
	str	r3, [sp, #136]                  @ 4-byte Spill
	ldr	r4, [sp, #148]                  @ 4-byte Reload
	ldr	r6, [sp, #128]                  @ 4-byte Reload
	eors	r4, r6
	str	r4, [sp, #148]                  @ 4-byte Spill
	ldr	r3, [sp, #144]                  @ 4-byte Reload
	ands	r3, r4
	eors	r3, r0
	mov	r4, r1
	ldr	r0, [sp, #132]                  @ 4-byte Reload
	eors	r4, r0
	str	r4, [sp, #52]                   @ 4-byte Spill
	ldr	r0, [sp, #124]                  @ 4-byte Reload
	eors	r0, r6
	str	r0, [sp, #96]                   @ 4-byte Spill
	ands	r4, r0
	ldr	r0, [sp, #120]                  @ 4-byte Reload
	eors	r4, r0
	eors	r4, r2
	eors	r4, r6
	eors	r4, r3
	mov	r1, r4
	ldr	r0, [sp, #136]                  @ 4-byte Reload
	eors	r1, r0
	str	r1, [sp, #128]                  @ 4-byte Spill
	ldr	r0, [sp, #140]                  @ 4-byte Reload
	mov	r1, r0
	ldr	r2, [sp, #68]                   @ 4-byte Reload
	ands	r1, r2
	ldr	r6, [sp, #116]                  @ 4-byte Reload
	ldr	r2, [sp, #148]                  @ 4-byte Reload
	eors	r6, r2
	str	r6, [sp, #44]                   @ 4-byte Spill
	mov	r2, r0
	ldr	r0, [sp, #132]                  @ 4-byte Reload
	eors	r2, r0
	mov	r0, r2
	str	r2, [sp, #92]                   @ 4-byte Spill
	mov	r2, r5
	mov	r5, r0
	ands	r5, r6
	eors	r5, r7
	eors	r5, r1
	ldr	r0, [sp, #112]                  @ 4-byte Reload
	eors	r5, r0
	ldr	r6, [sp, #136]                  @ 4-byte Reload
	ands	r6, r5
	ldr	r0, [sp, #124]                  @ 4-byte Reload
	eors	r2, r0
	str	r2, [sp, #56]                   @ 4-byte Spill
	mov	r0, r2
	ldr	r2, [sp, #132]                  @ 4-byte Reload
	ands	r0, r2
	ldr	r2, [sp, #148]                  @ 4-byte Reload
	eors	r0, r2
	ldr	r2, [sp, #144]                  @ 4-byte Reload
	eors	r0, r2
	eors	r0, r1
	eors	r0, r3
	mov	r7, r6
	eors	r7, r0
	ldr	r1, [sp, #128]                  @ 4-byte Reload
	ands	r7, r1
	mov	r1, r7
	eors	r1, r4
	eors	r7, r6
	ands	r7, r4
	ldr	r2, [sp, #136]                  @ 4-byte Reload
	eors	r2, r7
	str	r2, [sp, #136]                  @ 4-byte Spill
	eors	r2, r1
	mov	r3, r2
	str	r2, [sp, #88]                   @ 4-byte Spill
	eors	r5, r0
	eors	r6, r4
	mov	r2, r6
	eors	r7, r6
	ands	r2, r5
	eors	r2, r0
	ands	r7, r2
	eors	r7, r5
	mov	r6, r7
	eors	r6, r3
	mov	r3, r2
	str	r2, [sp, #112]                  @ 4-byte Spill
	str	r1, [sp, #100]                  @ 4-byte Spill
	eors	r2, r1
	str	r2, [sp, #72]                   @ 4-byte Spill
	mov	r0, r6
	eors	r0, r2
	str	r0, [sp, #76]                   @ 4-byte Spill
	ldr	r5, [sp, #84]                   @ 4-byte Reload
	ands	r5, r0
	ldr	r0, [sp, #124]                  @ 4-byte Reload
	ands	r0, r7
	mov	r2, r7
	eors	r2, r3
	ldr	r3, [sp, #120]                  @ 4-byte Reload
	ands	r3, r2
	str	r3, [sp, #120]                  @ 4-byte Spill
	mov	r4, r2
	eors	r0, r3
	str	r0, [sp, #124]                  @ 4-byte Spill
	eors	r5, r0
	ldr	r3, [sp, #144]                  @ 4-byte Reload
	ands	r3, r6
	ldr	r0, [sp, #132]                  @ 4-byte Reload
	ands	r0, r1
	ldr	r2, [sp, #140]                  @ 4-byte Reload
	ldr	r1, [sp, #136]                  @ 4-byte Reload
	ands	r2, r1
	eors	r0, r2
	str	r0, [sp, #132]                  @ 4-byte Spill
	eors	r3, r0
	ldr	r0, [sp, #152]                  @ 4-byte Reload
	ands	r4, r0
	str	r4, [sp, #84]                   @ 4-byte Spill
	eors	r3, r4
	eors	r3, r5
	str	r3, [sp, #144]                  @ 4-byte Spill
	ldr	r1, [sp, #96]                   @ 4-byte Reload
	ldr	r0, [sp, #112]                  @ 4-byte Reload
	ands	r1, r0
	eors	r1, r3
	mov	r3, r1
	str	r1, [sp, #96]                   @ 4-byte Spill
	ldr	r1, [sp, #108]                  @ 4-byte Reload
	ldr	r4, [sp, #72]                   @ 4-byte Reload
	ands	r1, r4
	eors	r1, r5
	str	r1, [sp, #108]                  @ 4-byte Spill
	ldr	r0, [sp, #148]                  @ 4-byte Reload
	ands	r6, r0
	ldr	r0, [sp, #104]                  @ 4-byte Reload
	ands	r4, r0
	str	r4, [sp, #72]                   @ 4-byte Spill
	eors	r6, r4
	eors	r6, r1
	eors	r6, r3
	movs	r0, #2
	str	r0, [sp, #104]                  @ 4-byte Spill
	mov	r3, r6
	rors	r3, r0
	ldr	r1, .Laes_v6m_CPI6_12
	ands	r3, r1
	movs	r0, #10
	str	r0, [sp, #80]                   @ 4-byte Spill
	mov	r4, r6
	rors	r4, r0
	ldr	r1, .Laes_v6m_CPI6_13
	ands	r4, r1
	orrs	r4, r3
	eors	r6, r4
	movs	r0, #12
	str	r0, [sp, #148]                  @ 4-byte Spill
	mov	r3, r6
	rors	r3, r0
	ldr	r1, .Laes_v6m_CPI6_14
	ands	r3, r1
	movs	r0, #20
	str	r0, [sp, #128]                  @ 4-byte Spill
	mov	r1, r6
	rors	r1, r0
	ldr	r5, .Laes_v6m_CPI6_15
	ands	r1, r5
	orrs	r1, r3
	ldr	r3, [sp, #60]                   @ 4-byte Reload
	lsls	r3, r3, #7
	ldr	r5, [sp, #32]                   @ 4-byte Reload
	adds	r3, r5, r3
	str	r3, [sp, #152]                  @ 4-byte Spill
	ldr	r5, [r3, #52]
	eors	r5, r1
	eors	r5, r4
	str	r5, [sp, #140]                  @ 4-byte Spill
	ldr	r0, [sp, #92]                   @ 4-byte Reload
	ldr	r3, [sp, #88]                   @ 4-byte Reload
	ands	r0, r3
	eors	r0, r2
	ldr	r1, [sp, #124]                  @ 4-byte Reload
	eors	r0, r1
	ldr	r1, [sp, #64]                   @ 4-byte Reload
	ldr	r2, [sp, #76]                   @ 4-byte Reload
	ands	r2, r1
	ldr	r1, [sp, #72]                   @ 4-byte Reload
	eors	r2, r1
	str	r2, [sp, #76]                   @ 4-byte Spill
	ldr	r1, [sp, #44]                   @ 4-byte Reload
	ands	r3, r1
	eors	r3, r2
	str	r3, [sp, #88]                   @ 4-byte Spill
	ldr	r1, [sp, #136]                  @ 4-byte Reload
	ldr	r4, [sp, #68]                   @ 4-byte Reload
	ands	r1, r4
	eors	r1, r3
	str	r1, [sp, #136]                  @ 4-byte Spill
	eors	r0, r1
	str	r0, [sp, #92]                   @ 4-byte Spill
	mov	r2, r0
	ldr	r3, [sp, #104]                  @ 4-byte Reload
	rors	r2, r3
	ldr	r4, .Laes_v6m_CPI6_12
	ands	r2, r4
	mov	r1, r0
	ldr	r5, [sp, #80]                   @ 4-byte Reload
	rors	r1, r5
	ldr	r4, .Laes_v6m_CPI6_13
	ands	r1, r4
	orrs	r1, r2
	str	r1, [sp, #72]                   @ 4-byte Spill
	eors	r1, r0
	str	r1, [sp, #64]                   @ 4-byte Spill
	ldr	r2, [sp, #140]                  @ 4-byte Reload
	eors	r2, r1
	str	r2, [sp, #140]                  @ 4-byte Spill
	mov	r2, r0
	ldr	r0, [sp, #108]                  @ 4-byte Reload
	eors	r2, r0
	mov	r1, r2
	rors	r1, r3
	ldr	r0, .Laes_v6m_CPI6_12
	ands	r1, r0
	mov	r4, r2
	mov	r0, r5
	rors	r4, r5
	ldr	r3, .Laes_v6m_CPI6_13
	ands	r4, r3
	orrs	r4, r1
	eors	r2, r4
	str	r2, [sp, #44]                   @ 4-byte Spill
	mov	r1, r2
	ldr	r3, [sp, #148]                  @ 4-byte Reload
	rors	r1, r3
	ldr	r5, .Laes_v6m_CPI6_14
	ands	r1, r5
	mov	r3, r2
	ldr	r2, [sp, #128]                  @ 4-byte Reload
	rors	r3, r2
	ldr	r2, .Laes_v6m_CPI6_15
	ands	r3, r2
	orrs	r3, r1
	ldr	r1, [sp, #152]                  @ 4-byte Reload
	ldr	r1, [r1, #56]
	eors	r1, r3
	eors	r1, r4
	eors	r1, r6
	str	r1, [sp, #124]                  @ 4-byte Spill
	ldr	r2, [sp, #140]                  @ 4-byte Reload
	eors	r2, r1
	str	r2, [sp, #140]                  @ 4-byte Spill
	ldr	r1, [sp, #52]                   @ 4-byte Reload
	ldr	r2, [sp, #112]                  @ 4-byte Reload
	ands	r2, r1
	ldr	r1, [sp, #132]                  @ 4-byte Reload
	eors	r2, r1
	ldr	r1, [sp, #120]                  @ 4-byte Reload
	eors	r2, r1
	str	r2, [sp, #112]                  @ 4-byte Spill
	ldr	r1, [sp, #116]                  @ 4-byte Reload
	ands	r7, r1
	eors	r7, r2
	ldr	r1, [sp, #76]                   @ 4-byte Reload
	eors	r7, r1
	ldr	r2, [sp, #84]                   @ 4-byte Reload
	eors	r2, r7
	mov	r1, r2
	ldr	r6, [sp, #104]                  @ 4-byte Reload
	rors	r1, r6
	ldr	r3, .Laes_v6m_CPI6_12
	ands	r1, r3
	mov	r3, r2
	rors	r3, r0
	ldr	r4, .Laes_v6m_CPI6_13
	ands	r3, r4
	orrs	r3, r1
	eors	r2, r3
	str	r2, [sp, #84]                   @ 4-byte Spill
	mov	r1, r2
	ldr	r4, [sp, #148]                  @ 4-byte Reload
	rors	r1, r4
	ands	r1, r5
	ldr	r4, [sp, #128]                  @ 4-byte Reload
	rors	r2, r4
	ldr	r4, .Laes_v6m_CPI6_15
	ands	r2, r4
	orrs	r2, r1
	ldr	r1, [sp, #152]                  @ 4-byte Reload
	ldr	r5, [r1, #32]
	eors	r5, r2
	eors	r5, r3
	ldr	r2, [sp, #136]                  @ 4-byte Reload
	ldr	r1, [sp, #108]                  @ 4-byte Reload
	eors	r2, r1
	mov	r1, r2
	mov	r3, r6
	rors	r1, r6
	ldr	r4, .Laes_v6m_CPI6_12
	ands	r1, r4
	mov	r4, r2
	rors	r4, r0
	ldr	r6, .Laes_v6m_CPI6_13
	ands	r4, r6
	orrs	r4, r1
	eors	r2, r4
	str	r2, [sp, #136]                  @ 4-byte Spill
	eors	r5, r2
	str	r5, [sp, #116]                  @ 4-byte Spill
	ldr	r6, [sp, #140]                  @ 4-byte Reload
	eors	r6, r5
	ldr	r1, [sp, #144]                  @ 4-byte Reload
	eors	r7, r1
	mov	r1, r7
	rors	r1, r3
	ldr	r2, .Laes_v6m_CPI6_12
	ands	r1, r2
	mov	r3, r7
	rors	r3, r0
	ldr	r0, .Laes_v6m_CPI6_13
	ands	r3, r0
	orrs	r3, r1
	eors	r7, r3
	mov	r1, r7
	ldr	r0, [sp, #148]                  @ 4-byte Reload
	rors	r1, r0
	ldr	r0, .Laes_v6m_CPI6_14
	ands	r1, r0
	mov	r2, r7
	ldr	r0, [sp, #128]                  @ 4-byte Reload
	rors	r2, r0
	ldr	r5, .Laes_v6m_CPI6_15
	ands	r2, r5
	orrs	r2, r1
	ldr	r1, [sp, #152]                  @ 4-byte Reload
	ldr	r5, [r1, #36]
	eors	r5, r2
	eors	r5, r3
	ldr	r0, [sp, #84]                   @ 4-byte Reload
	eors	r5, r0
	ldr	r2, [sp, #136]                  @ 4-byte Reload
	eors	r5, r2
	mov	r0, r6
	str	r6, [sp, #120]                  @ 4-byte Spill
	mov	r1, r6
	eors	r1, r5
	mov	r6, r5
	str	r1, [sp, #68]                   @ 4-byte Spill
	ands	r1, r0
	str	r1, [sp, #144]                  @ 4-byte Spill
	mov	r1, r2
	ldr	r3, [sp, #148]                  @ 4-byte Reload
	rors	r1, r3
	ldr	r0, .Laes_v6m_CPI6_14
	ands	r1, r0
	ldr	r5, [sp, #128]                  @ 4-byte Reload
	rors	r2, r5
	ldr	r0, .Laes_v6m_CPI6_15
	ands	r2, r0
	orrs	r2, r1
	ldr	r0, [sp, #152]                  @ 4-byte Reload
	ldr	r0, [r0, #60]
	eors	r0, r2
	eors	r0, r4
	ldr	r1, [sp, #44]                   @ 4-byte Reload
	eors	r0, r1
	str	r0, [sp, #108]                  @ 4-byte Spill
	eors	r6, r0
	str	r6, [sp, #76]                   @ 4-byte Spill
	ldr	r4, [sp, #100]                  @ 4-byte Reload
	ldr	r0, [sp, #56]                   @ 4-byte Reload
	ands	r4, r0
	ldr	r0, [sp, #88]                   @ 4-byte Reload
	eors	r4, r0
	ldr	r0, [sp, #96]                   @ 4-byte Reload
	eors	r4, r0
	mov	r1, r4
	ldr	r0, [sp, #104]                  @ 4-byte Reload
	rors	r1, r0
	ldr	r0, .Laes_v6m_CPI6_12
	ands	r1, r0
	mov	r0, r4
	ldr	r2, [sp, #80]                   @ 4-byte Reload
	rors	r0, r2
	ldr	r2, .Laes_v6m_CPI6_13
	ands	r0, r2
	orrs	r0, r1
	eors	r4, r0
	str	r4, [sp, #100]                  @ 4-byte Spill
	mov	r1, r4
	rors	r1, r3
	ldr	r2, .Laes_v6m_CPI6_14
	ands	r1, r2
	mov	r2, r4
	mov	r4, r5
	rors	r2, r5
	ldr	r5, .Laes_v6m_CPI6_15
	ands	r2, r5
	orrs	r2, r1
	ldr	r1, [sp, #152]                  @ 4-byte Reload
	ldr	r6, [r1, #40]
	eors	r6, r2
	eors	r6, r0
	eors	r6, r7
	str	r6, [sp, #132]                  @ 4-byte Spill
	ldr	r2, [sp, #64]                   @ 4-byte Reload
	mov	r0, r2
	rors	r0, r3
	mov	r6, r3
	ldr	r3, .Laes_v6m_CPI6_14
	ands	r0, r3
	rors	r2, r4
	ands	r2, r5
	orrs	r2, r0
	mov	r3, r2
	mov	r2, r1
	ldr	r4, [r1, #48]
	eors	r4, r3
	ldr	r1, [sp, #72]                   @ 4-byte Reload
	eors	r4, r1
	ldr	r1, [sp, #136]                  @ 4-byte Reload
	eors	r4, r1
	ldr	r7, [sp, #112]                  @ 4-byte Reload
	ldr	r0, [sp, #92]                   @ 4-byte Reload
	eors	r7, r0
	mov	r0, r7
	ldr	r3, [sp, #104]                  @ 4-byte Reload
	rors	r0, r3
	ldr	r3, .Laes_v6m_CPI6_12
	ands	r0, r3
	mov	r3, r7
	ldr	r5, [sp, #80]                   @ 4-byte Reload
	rors	r3, r5
	ldr	r5, .Laes_v6m_CPI6_13
	ands	r3, r5
	orrs	r3, r0
	eors	r7, r3
	eors	r4, r7
	mov	r5, r4
	str	r4, [sp, #96]                   @ 4-byte Spill
	ldr	r0, [sp, #132]                  @ 4-byte Reload
	eors	r5, r0
	str	r5, [sp, #64]                   @ 4-byte Spill
	ldr	r0, [sp, #76]                   @ 4-byte Reload
	eors	r0, r5
	mov	r1, r0
	str	r0, [sp, #56]                   @ 4-byte Spill
	mov	r0, r7
	rors	r0, r6
	ldr	r5, .Laes_v6m_CPI6_14
	ands	r0, r5
	ldr	r5, [sp, #128]                  @ 4-byte Reload
	rors	r7, r5
	ldr	r5, .Laes_v6m_CPI6_15
	ands	r7, r5
	orrs	r7, r0
	ldr	r0, [r2, #44]
	eors	r0, r7
	ldr	r2, [sp, #100]                  @ 4-byte Reload
	eors	r0, r2
	ldr	r2, [sp, #136]                  @ 4-byte Reload
	eors	r0, r2
	eors	r0, r3
	eors	r0, r1
	ldr	r1, [sp, #124]                  @ 4-byte Reload
	eors	r1, r0
	str	r1, [sp, #124]                  @ 4-byte Spill
	mov	r6, r0
	ldr	r7, [sp, #108]                  @ 4-byte Reload
	eors	r4, r7
	mov	r0, r1
	eors	r0, r4
	str	r4, [sp, #40]                   @ 4-byte Spill
	mov	r2, r0
	mov	r3, r0
	ldr	r0, [sp, #140]                  @ 4-byte Reload
	eors	r2, r0
	str	r2, [sp, #136]                  @ 4-byte Spill
	ldr	r5, [sp, #144]                  @ 4-byte Reload
	eors	r5, r2
	ldr	r1, [sp, #76]                   @ 4-byte Reload
	ands	r2, r1
	eors	r5, r2
	eors	r5, r1
	ldr	r1, [sp, #132]                  @ 4-byte Reload
	eors	r6, r1
	str	r6, [sp, #112]                  @ 4-byte Spill
	eors	r0, r6
	str	r0, [sp, #140]                  @ 4-byte Spill
	str	r3, [sp, #100]                  @ 4-byte Spill
	mov	r6, r3
	eors	r6, r0
	str	r6, [sp, #36]                   @ 4-byte Spill
	ldr	r0, [sp, #64]                   @ 4-byte Reload
	ands	r6, r0
	mov	r0, r3
	ands	r0, r4
	eors	r6, r0
	eors	r5, r6
	str	r5, [sp, #144]                  @ 4-byte Spill
	ldr	r5, [sp, #120]                  @ 4-byte Reload
	mov	r4, r7
	eors	r5, r7
	str	r5, [sp, #92]                   @ 4-byte Spill
	mov	r1, r3
	ldr	r7, [sp, #116]                  @ 4-byte Reload
	eors	r1, r7
	str	r1, [sp, #52]                   @ 4-byte Spill
	ands	r1, r5
	ldr	r3, [sp, #136]                  @ 4-byte Reload
	eors	r1, r3
	eors	r1, r2
	eors	r1, r4
	ldr	r2, [sp, #132]                  @ 4-byte Reload
	eors	r2, r4
	ldr	r5, [sp, #140]                  @ 4-byte Reload
	ands	r5, r2
	str	r2, [sp, #132]                  @ 4-byte Spill
	eors	r5, r0
	eors	r1, r5
	mov	r3, r1
	ldr	r0, [sp, #144]                  @ 4-byte Reload
	eors	r3, r0
	str	r3, [sp, #108]                  @ 4-byte Spill
	ldr	r3, [sp, #112]                  @ 4-byte Reload
	mov	r4, r3
	ldr	r0, [sp, #56]                   @ 4-byte Reload
	ands	r4, r0
	ldr	r0, [sp, #68]                   @ 4-byte Reload
	eors	r0, r2
	str	r0, [sp, #44]                   @ 4-byte Spill
	mov	r2, r3
	eors	r2, r7
	str	r2, [sp, #84]                   @ 4-byte Spill
	ands	r2, r0
	ldr	r0, [sp, #124]                  @ 4-byte Reload
	eors	r2, r0
	eors	r2, r4
	eors	r2, r6
	ldr	r6, [sp, #144]                  @ 4-byte Reload
	mov	r7, r6
	ands	r7, r2
	ldr	r3, [sp, #96]                   @ 4-byte Reload
	ldr	r0, [sp, #120]                  @ 4-byte Reload
	eors	r3, r0
	str	r3, [sp, #96]                   @ 4-byte Spill
	ldr	r0, [sp, #116]                  @ 4-byte Reload
	ands	r3, r0
	ldr	r0, [sp, #132]                  @ 4-byte Reload
	eors	r3, r0
	ldr	r0, [sp, #140]                  @ 4-byte Reload
	eors	r3, r0
	eors	r3, r4
	eors	r3, r5
	mov	r5, r7
	eors	r5, r3
	ldr	r0, [sp, #108]                  @ 4-byte Reload
	ands	r5, r0
	mov	r0, r5
	eors	r0, r1
	eors	r5, r7
	ands	r5, r1
	eors	r6, r5
	str	r6, [sp, #144]                  @ 4-byte Spill
	eors	r6, r0
	str	r6, [sp, #80]                   @ 4-byte Spill
	eors	r2, r3
	eors	r7, r1
	eors	r5, r7
	ands	r7, r2
	eors	r7, r3
	ands	r5, r7
	str	r7, [sp, #104]                  @ 4-byte Spill
	eors	r5, r2
	mov	r3, r5
	eors	r3, r6
	mov	r1, r7
	str	r0, [sp, #108]                  @ 4-byte Spill
	eors	r1, r0
	str	r1, [sp, #88]                   @ 4-byte Spill
	mov	r0, r3
	eors	r0, r1
	str	r0, [sp, #72]                   @ 4-byte Spill
	ldr	r2, [sp, #36]                   @ 4-byte Reload
	ands	r2, r0
	ldr	r0, [sp, #120]                  @ 4-byte Reload
	ands	r0, r5
	mov	r1, r5
	eors	r1, r7
	ldr	r4, [sp, #136]                  @ 4-byte Reload
	ands	r4, r1
	str	r4, [sp, #136]                  @ 4-byte Spill
	eors	r0, r4
	str	r0, [sp, #120]                  @ 4-byte Spill
	mov	r4, r2
	eors	r4, r0
	ldr	r0, [sp, #140]                  @ 4-byte Reload
	ands	r0, r3
	ldr	r6, [sp, #116]                  @ 4-byte Reload
	ldr	r2, [sp, #108]                  @ 4-byte Reload
	ands	r6, r2
	ldr	r2, [sp, #112]                  @ 4-byte Reload
	ldr	r7, [sp, #144]                  @ 4-byte Reload
	ands	r2, r7
	eors	r6, r2
	str	r6, [sp, #116]                  @ 4-byte Spill
	mov	r7, r2
	eors	r0, r6
	ldr	r2, [sp, #76]                   @ 4-byte Reload
	ands	r1, r2
	str	r1, [sp, #76]                   @ 4-byte Spill
	eors	r0, r1
	eors	r0, r4
	mov	r1, r4
	str	r0, [sp, #140]                  @ 4-byte Spill
	ldr	r4, [sp, #92]                   @ 4-byte Reload
	ldr	r2, [sp, #104]                  @ 4-byte Reload
	ands	r4, r2
	eors	r4, r0
	str	r4, [sp, #92]                   @ 4-byte Spill
	ldr	r0, [sp, #100]                  @ 4-byte Reload
	ldr	r2, [sp, #88]                   @ 4-byte Reload
	ands	r0, r2
	eors	r0, r1
	mov	r1, r0
	str	r0, [sp, #100]                  @ 4-byte Spill
	ldr	r0, [sp, #132]                  @ 4-byte Reload
	ands	r3, r0
	ldr	r0, [sp, #40]                   @ 4-byte Reload
	ands	r2, r0
	str	r2, [sp, #88]                   @ 4-byte Spill
	eors	r3, r2
	eors	r3, r1
	eors	r3, r4
	movs	r1, #4
	str	r1, [sp, #112]                  @ 4-byte Spill
	mov	r0, r3
	rors	r0, r1
	ldr	r2, .Laes_v6m_CPI6_14
	ands	r0, r2
	mov	r6, r3
	ldr	r2, [sp, #148]                  @ 4-byte Reload
	rors	r6, r2
	ldr	r4, .Laes_v6m_CPI6_15
	ands	r6, r4
	orrs	r6, r0
	eors	r3, r6
	movs	r1, #16
	str	r1, [sp, #124]                  @ 4-byte Spill
	b	.Laes_v6m_BB6_10
	.p2align	2
@ %bb.6:
.Laes_v6m_CPI6_12:
	.long	3233857728                      @ 0xc0c0c0c0
	.p2align	2
@ %bb.7:
.Laes_v6m_CPI6_13:
	.long	1061109567                      @ 0x3f3f3f3f
	.p2align	2
@ %bb.8:
.Laes_v6m_CPI6_14:
	.long	4042322160                      @ 0xf0f0f0f0
	.p2align	2
@ %bb.9:
.Laes_v6m_CPI6_15:
	.long	252645135                       @ 0xf0f0f0f
	.p2align	1
.Laes_v6m_BB6_10:                               @ %join.7.i
                                        @   in Loop: Header=BB6_5 Depth=1
	mov	r0, r3
	rors	r0, r1
	ldr	r1, [sp, #152]                  @ 4-byte Reload
	ldr	r1, [r1, #84]
	eors	r1, r0
	eors	r1, r6
	str	r1, [sp, #132]                  @ 4-byte Spill
	ldr	r4, [sp, #84]                   @ 4-byte Reload
	ldr	r6, [sp, #80]                   @ 4-byte Reload
	ands	r4, r6
	eors	r4, r7
	ldr	r0, [sp, #120]                  @ 4-byte Reload
	eors	r4, r0
	ldr	r0, [sp, #64]                   @ 4-byte Reload
	ldr	r7, [sp, #72]                   @ 4-byte Reload
	ands	r7, r0
	mov	r1, r7
	ldr	r0, [sp, #88]                   @ 4-byte Reload
	eors	r1, r0
	str	r1, [sp, #72]                   @ 4-byte Spill
	ldr	r0, [sp, #44]                   @ 4-byte Reload
	ands	r6, r0
	eors	r6, r1
	str	r6, [sp, #80]                   @ 4-byte Spill
	ldr	r0, [sp, #144]                  @ 4-byte Reload
	ldr	r1, [sp, #56]                   @ 4-byte Reload
	ands	r0, r1
	eors	r0, r6
	str	r0, [sp, #144]                  @ 4-byte Spill
	eors	r4, r0
	str	r4, [sp, #84]                   @ 4-byte Spill
	mov	r1, r4
	ldr	r0, [sp, #112]                  @ 4-byte Reload
	rors	r1, r0
	ldr	r6, .Laes_v6m_CPI6_16
	ands	r1, r6
	mov	r0, r4
	mov	r7, r2
	rors	r0, r2
	ldr	r2, .Laes_v6m_CPI6_17
	ands	r0, r2
	orrs	r0, r1
	str	r0, [sp, #64]                   @ 4-byte Spill
	eors	r0, r4
	str	r0, [sp, #44]                   @ 4-byte Spill
	ldr	r1, [sp, #132]                  @ 4-byte Reload
	eors	r1, r0
	mov	r2, r4
	ldr	r0, [sp, #100]                  @ 4-byte Reload
	eors	r2, r0
	mov	r4, r2
	ldr	r0, [sp, #112]                  @ 4-byte Reload
	rors	r4, r0
	ands	r4, r6
	mov	r6, r2
	rors	r6, r7
	ldr	r0, .Laes_v6m_CPI6_17
	ands	r6, r0
	orrs	r6, r4
	eors	r2, r6
	str	r2, [sp, #40]                   @ 4-byte Spill
	mov	r4, r2
	ldr	r7, [sp, #124]                  @ 4-byte Reload
	rors	r4, r7
	ldr	r0, [sp, #152]                  @ 4-byte Reload
	ldr	r0, [r0, #88]
	eors	r0, r4
	eors	r0, r6
	eors	r0, r3
	str	r0, [sp, #88]                   @ 4-byte Spill
	eors	r1, r0
	str	r1, [sp, #132]                  @ 4-byte Spill
	ldr	r1, [sp, #104]                  @ 4-byte Reload
	ldr	r0, [sp, #52]                   @ 4-byte Reload
	ands	r1, r0
	ldr	r0, [sp, #116]                  @ 4-byte Reload
	eors	r1, r0
	ldr	r0, [sp, #136]                  @ 4-byte Reload
	eors	r1, r0
	str	r1, [sp, #104]                  @ 4-byte Spill
	ldr	r0, [sp, #68]                   @ 4-byte Reload
	ands	r5, r0
	eors	r5, r1
	ldr	r0, [sp, #72]                   @ 4-byte Reload
	eors	r5, r0
	ldr	r0, [sp, #76]                   @ 4-byte Reload
	eors	r0, r5
	mov	r3, r0
	ldr	r2, [sp, #112]                  @ 4-byte Reload
	rors	r3, r2
	ldr	r1, .Laes_v6m_CPI6_16
	ands	r3, r1
	mov	r4, r0
	ldr	r6, [sp, #148]                  @ 4-byte Reload
	rors	r4, r6
	ldr	r1, .Laes_v6m_CPI6_17
	ands	r4, r1
	orrs	r4, r3
	eors	r0, r4
	str	r0, [sp, #76]                   @ 4-byte Spill
	mov	r3, r0
	rors	r3, r7
	ldr	r0, [sp, #152]                  @ 4-byte Reload
	ldr	r0, [r0, #64]
	eors	r0, r3
	eors	r0, r4
	ldr	r3, [sp, #144]                  @ 4-byte Reload
	ldr	r1, [sp, #100]                  @ 4-byte Reload
	eors	r3, r1
	mov	r4, r3
	mov	r1, r3
	rors	r4, r2
	ldr	r2, .Laes_v6m_CPI6_16
	ands	r4, r2
	rors	r3, r6
	mov	r7, r6
	ldr	r2, .Laes_v6m_CPI6_17
	ands	r3, r2
	orrs	r3, r4
	eors	r1, r3
	str	r1, [sp, #144]                  @ 4-byte Spill
	eors	r0, r1
	str	r0, [sp, #120]                  @ 4-byte Spill
	ldr	r2, [sp, #132]                  @ 4-byte Reload
	eors	r2, r0
	ldr	r0, [sp, #140]                  @ 4-byte Reload
	eors	r5, r0
	mov	r4, r5
	ldr	r0, [sp, #112]                  @ 4-byte Reload
	rors	r4, r0
	ldr	r0, .Laes_v6m_CPI6_16
	ands	r4, r0
	mov	r6, r5
	rors	r6, r7
	ldr	r0, .Laes_v6m_CPI6_17
	ands	r6, r0
	orrs	r6, r4
	eors	r5, r6
	mov	r4, r5
	ldr	r0, [sp, #124]                  @ 4-byte Reload
	rors	r4, r0
	ldr	r7, [sp, #152]                  @ 4-byte Reload
	ldr	r1, [r7, #68]
	eors	r1, r4
	eors	r1, r6
	ldr	r0, [sp, #76]                   @ 4-byte Reload
	eors	r1, r0
	ldr	r6, [sp, #144]                  @ 4-byte Reload
	eors	r1, r6
	mov	r4, r2
	str	r2, [sp, #116]                  @ 4-byte Spill
	eors	r2, r1
	mov	r0, r1
	str	r2, [sp, #56]                   @ 4-byte Spill
	ands	r2, r4
	str	r2, [sp, #136]                  @ 4-byte Spill
	mov	r2, r6
	ldr	r4, [sp, #124]                  @ 4-byte Reload
	rors	r2, r4
	ldr	r6, [r7, #92]
	eors	r6, r2
	eors	r6, r3
	ldr	r1, [sp, #40]                   @ 4-byte Reload
	eors	r6, r1
	eors	r0, r6
	str	r0, [sp, #68]                   @ 4-byte Spill
	ldr	r3, [sp, #108]                  @ 4-byte Reload
	ldr	r1, [sp, #96]                   @ 4-byte Reload
	ands	r3, r1
	ldr	r1, [sp, #80]                   @ 4-byte Reload
	eors	r3, r1
	ldr	r1, [sp, #92]                   @ 4-byte Reload
	eors	r3, r1
	mov	r1, r3
	ldr	r7, [sp, #112]                  @ 4-byte Reload
	rors	r1, r7
	ldr	r0, .Laes_v6m_CPI6_16
	ands	r1, r0
	mov	r2, r3
	ldr	r0, [sp, #148]                  @ 4-byte Reload
	rors	r2, r0
	ldr	r0, .Laes_v6m_CPI6_17
	ands	r2, r0
	orrs	r2, r1
	eors	r3, r2
	str	r3, [sp, #108]                  @ 4-byte Spill
	mov	r1, r3
	rors	r1, r4
	ldr	r3, [sp, #152]                  @ 4-byte Reload
	ldr	r0, [r3, #72]
	eors	r0, r1
	eors	r0, r2
	eors	r0, r5
	str	r0, [sp, #140]                  @ 4-byte Spill
	ldr	r1, [sp, #44]                   @ 4-byte Reload
	rors	r1, r4
	ldr	r4, [r3, #80]
	mov	r2, r3
	eors	r4, r1
	ldr	r1, [sp, #64]                   @ 4-byte Reload
	eors	r4, r1
	ldr	r1, [sp, #144]                  @ 4-byte Reload
	eors	r4, r1
	ldr	r0, [sp, #84]                   @ 4-byte Reload
	ldr	r5, [sp, #104]                  @ 4-byte Reload
	eors	r5, r0
	mov	r1, r5
	rors	r1, r7
	ldr	r0, .Laes_v6m_CPI6_16
	ands	r1, r0
	mov	r0, r5
	ldr	r3, [sp, #148]                  @ 4-byte Reload
	rors	r0, r3
	ldr	r3, .Laes_v6m_CPI6_17
	ands	r0, r3
	orrs	r0, r1
	eors	r5, r0
	eors	r4, r5
	mov	r7, r5
	mov	r3, r4
	str	r4, [sp, #92]                   @ 4-byte Spill
	ldr	r1, [sp, #140]                  @ 4-byte Reload
	eors	r3, r1
	str	r3, [sp, #52]                   @ 4-byte Spill
	ldr	r5, [sp, #68]                   @ 4-byte Reload
	mov	r1, r5
	eors	r1, r3
	str	r1, [sp, #80]                   @ 4-byte Spill
	ldr	r3, [sp, #124]                  @ 4-byte Reload
	rors	r7, r3
	ldr	r3, [r2, #76]
	eors	r3, r7
	ldr	r2, [sp, #108]                  @ 4-byte Reload
	eors	r3, r2
	ldr	r2, [sp, #144]                  @ 4-byte Reload
	eors	r3, r2
	eors	r3, r0
	eors	r3, r1
	str	r3, [sp, #144]                  @ 4-byte Spill
	ldr	r0, [sp, #88]                   @ 4-byte Reload
	eors	r0, r3
	str	r0, [sp, #88]                   @ 4-byte Spill
	eors	r4, r6
	eors	r0, r4
	str	r0, [sp, #112]                  @ 4-byte Spill
	mov	r7, r4
	str	r4, [sp, #104]                  @ 4-byte Spill
	mov	r3, r0
	ldr	r1, [sp, #132]                  @ 4-byte Reload
	eors	r3, r1
	str	r3, [sp, #96]                   @ 4-byte Spill
	ldr	r2, [sp, #136]                  @ 4-byte Reload
	eors	r2, r3
	mov	r0, r3
	ands	r0, r5
	eors	r2, r0
	eors	r2, r5
	ldr	r4, [sp, #144]                  @ 4-byte Reload
	ldr	r5, [sp, #140]                  @ 4-byte Reload
	eors	r4, r5
	str	r4, [sp, #144]                  @ 4-byte Spill
	eors	r1, r4
	str	r1, [sp, #132]                  @ 4-byte Spill
	ldr	r3, [sp, #112]                  @ 4-byte Reload
	mov	r4, r3
	eors	r4, r1
	str	r4, [sp, #108]                  @ 4-byte Spill
	ldr	r1, [sp, #52]                   @ 4-byte Reload
	ands	r4, r1
	mov	r1, r3
	ands	r1, r7
	eors	r4, r1
	eors	r2, r4
	str	r2, [sp, #136]                  @ 4-byte Spill
	ldr	r7, [sp, #116]                  @ 4-byte Reload
	eors	r7, r6
	str	r7, [sp, #84]                   @ 4-byte Spill
	mov	r2, r3
	ldr	r3, [sp, #120]                  @ 4-byte Reload
	eors	r2, r3
	str	r2, [sp, #44]                   @ 4-byte Spill
	ands	r2, r7
	ldr	r3, [sp, #96]                   @ 4-byte Reload
	eors	r2, r3
	eors	r2, r0
	eors	r2, r6
	mov	r0, r5
	eors	r0, r6
	ldr	r7, [sp, #132]                  @ 4-byte Reload
	ands	r7, r0
	mov	r6, r0
	str	r0, [sp, #140]                  @ 4-byte Spill
	eors	r7, r1
	eors	r2, r7
	mov	r0, r2
	ldr	r5, [sp, #136]                  @ 4-byte Reload
	eors	r0, r5
	str	r0, [sp, #100]                  @ 4-byte Spill
	ldr	r1, [sp, #144]                  @ 4-byte Reload
	mov	r3, r1
	ldr	r0, [sp, #80]                   @ 4-byte Reload
	ands	r3, r0
	ldr	r0, [sp, #56]                   @ 4-byte Reload
	eors	r0, r6
	str	r0, [sp, #40]                   @ 4-byte Spill
	mov	r6, r1
	ldr	r1, [sp, #120]                  @ 4-byte Reload
	eors	r6, r1
	str	r6, [sp, #76]                   @ 4-byte Spill
	ands	r6, r0
	ldr	r0, [sp, #88]                   @ 4-byte Reload
	eors	r6, r0
	eors	r6, r3
	eors	r6, r4
	mov	r1, r5
	ands	r1, r6
	ldr	r0, [sp, #92]                   @ 4-byte Reload
	ldr	r4, [sp, #116]                  @ 4-byte Reload
	eors	r0, r4
	str	r0, [sp, #92]                   @ 4-byte Spill
	ldr	r4, [sp, #120]                  @ 4-byte Reload
	ands	r0, r4
	ldr	r4, [sp, #140]                  @ 4-byte Reload
	eors	r0, r4
	ldr	r4, [sp, #132]                  @ 4-byte Reload
	eors	r0, r4
	eors	r0, r3
	eors	r0, r7
	mov	r4, r1
	eors	r4, r0
	ldr	r3, [sp, #100]                  @ 4-byte Reload
	ands	r4, r3
	mov	r3, r4
	eors	r3, r2
	eors	r4, r1
	ands	r4, r2
	eors	r5, r4
	str	r5, [sp, #136]                  @ 4-byte Spill
	eors	r5, r3
	str	r5, [sp, #72]                   @ 4-byte Spill
	eors	r6, r0
	eors	r1, r2
	eors	r4, r1
	ands	r1, r6
	eors	r1, r0
	ands	r4, r1
	eors	r4, r6
	mov	r7, r4
	eors	r7, r5
	mov	r0, r1
	str	r1, [sp, #100]                  @ 4-byte Spill
	mov	r2, r1
	mov	r5, r3
	str	r3, [sp, #88]                   @ 4-byte Spill
	eors	r2, r3
	mov	r3, r7
	eors	r3, r2
	str	r3, [sp, #64]                   @ 4-byte Spill
	ldr	r1, [sp, #108]                  @ 4-byte Reload
	ands	r1, r3
	ldr	r3, [sp, #116]                  @ 4-byte Reload
	ands	r3, r4
	mov	r6, r4
	eors	r6, r0
	ldr	r0, [sp, #96]                   @ 4-byte Reload
	ands	r0, r6
	str	r0, [sp, #96]                   @ 4-byte Spill
	eors	r3, r0
	str	r3, [sp, #116]                  @ 4-byte Spill
	eors	r1, r3
	str	r1, [sp, #108]                  @ 4-byte Spill
	ldr	r0, [sp, #132]                  @ 4-byte Reload
	ands	r0, r7
	ldr	r1, [sp, #120]                  @ 4-byte Reload
	ands	r1, r5
	ldr	r3, [sp, #144]                  @ 4-byte Reload
	ldr	r5, [sp, #136]                  @ 4-byte Reload
	ands	r3, r5
	str	r3, [sp, #144]                  @ 4-byte Spill
	eors	r1, r3
	str	r1, [sp, #120]                  @ 4-byte Spill
	eors	r0, r1
	ldr	r1, [sp, #68]                   @ 4-byte Reload
	ands	r6, r1
	str	r6, [sp, #68]                   @ 4-byte Spill
	eors	r0, r6
	ldr	r5, [sp, #108]                  @ 4-byte Reload
	eors	r0, r5
	str	r0, [sp, #132]                  @ 4-byte Spill
	ldr	r1, [sp, #84]                   @ 4-byte Reload
	ldr	r3, [sp, #100]                  @ 4-byte Reload
	ands	r1, r3
	eors	r1, r0
	str	r1, [sp, #84]                   @ 4-byte Spill
	ldr	r0, [sp, #112]                  @ 4-byte Reload
	ands	r0, r2
	eors	r0, r5
	str	r0, [sp, #112]                  @ 4-byte Spill
	ldr	r3, [sp, #140]                  @ 4-byte Reload
	ands	r7, r3
	ldr	r3, [sp, #104]                  @ 4-byte Reload
	ands	r2, r3
	eors	r7, r2
	eors	r7, r0
	eors	r7, r1
	movs	r0, #6
	str	r0, [sp, #108]                  @ 4-byte Spill
	mov	r1, r7
	rors	r1, r0
	ldr	r0, .Laes_v6m_CPI6_18
	ands	r1, r0
	movs	r3, #14
	str	r3, [sp, #104]                  @ 4-byte Spill
	mov	r0, r7
	rors	r0, r3
	ldr	r5, .Laes_v6m_CPI6_19
	ands	r0, r5
	orrs	r0, r1
	eors	r7, r0
	mov	r1, r7
	ldr	r5, [sp, #148]                  @ 4-byte Reload
	rors	r1, r5
	ldr	r5, .Laes_v6m_CPI6_16
	ands	r1, r5
	mov	r5, r7
	ldr	r6, [sp, #128]                  @ 4-byte Reload
	rors	r5, r6
	ldr	r6, .Laes_v6m_CPI6_17
	ands	r5, r6
	orrs	r5, r1
	ldr	r1, [sp, #152]                  @ 4-byte Reload
	ldr	r1, [r1, #116]
	eors	r1, r5
	eors	r1, r0
	str	r1, [sp, #140]                  @ 4-byte Spill
	ldr	r0, [sp, #76]                   @ 4-byte Reload
	ldr	r5, [sp, #72]                   @ 4-byte Reload
	ands	r0, r5
	ldr	r1, [sp, #144]                  @ 4-byte Reload
	eors	r0, r1
	ldr	r1, [sp, #116]                  @ 4-byte Reload
	eors	r0, r1
	ldr	r1, [sp, #52]                   @ 4-byte Reload
	ldr	r6, [sp, #64]                   @ 4-byte Reload
	ands	r6, r1
	eors	r6, r2
	str	r6, [sp, #64]                   @ 4-byte Spill
	ldr	r1, [sp, #40]                   @ 4-byte Reload
	ands	r5, r1
	eors	r5, r6
	str	r5, [sp, #72]                   @ 4-byte Spill
	ldr	r1, [sp, #136]                  @ 4-byte Reload
	ldr	r2, [sp, #80]                   @ 4-byte Reload
	ands	r1, r2
	eors	r1, r5
	str	r1, [sp, #136]                  @ 4-byte Spill
	eors	r0, r1
	str	r0, [sp, #76]                   @ 4-byte Spill
	mov	r2, r0
	ldr	r6, [sp, #108]                  @ 4-byte Reload
	rors	r2, r6
	ldr	r1, .Laes_v6m_CPI6_18
	ands	r2, r1
	mov	r1, r0
	ldr	r5, [sp, #104]                  @ 4-byte Reload
	rors	r1, r5
	ldr	r3, .Laes_v6m_CPI6_19
	ands	r1, r3
	orrs	r1, r2
	str	r1, [sp, #52]                   @ 4-byte Spill
	eors	r1, r0
	str	r1, [sp, #40]                   @ 4-byte Spill
	ldr	r2, [sp, #140]                  @ 4-byte Reload
	eors	r2, r1
	str	r2, [sp, #140]                  @ 4-byte Spill
	mov	r2, r0
	ldr	r0, [sp, #112]                  @ 4-byte Reload
	eors	r2, r0
	mov	r3, r2
	rors	r3, r6
	ldr	r0, .Laes_v6m_CPI6_18
	ands	r3, r0
	mov	r0, r2
	rors	r0, r5
	ldr	r1, .Laes_v6m_CPI6_19
	ands	r0, r1
	orrs	r0, r3
	eors	r2, r0
	str	r2, [sp, #36]                   @ 4-byte Spill
	mov	r3, r2
	ldr	r6, [sp, #148]                  @ 4-byte Reload
	rors	r3, r6
	ldr	r1, .Laes_v6m_CPI6_16
	ands	r3, r1
	mov	r5, r2
	ldr	r2, [sp, #128]                  @ 4-byte Reload
	rors	r5, r2
	ldr	r1, .Laes_v6m_CPI6_17
	ands	r5, r1
	orrs	r5, r3
	ldr	r1, [sp, #152]                  @ 4-byte Reload
	ldr	r3, [r1, #120]
	eors	r3, r5
	eors	r3, r0
	eors	r3, r7
	str	r3, [sp, #80]                   @ 4-byte Spill
	ldr	r0, [sp, #140]                  @ 4-byte Reload
	eors	r0, r3
	str	r0, [sp, #140]                  @ 4-byte Spill
	ldr	r1, [sp, #100]                  @ 4-byte Reload
	ldr	r0, [sp, #44]                   @ 4-byte Reload
	ands	r1, r0
	ldr	r0, [sp, #120]                  @ 4-byte Reload
	eors	r1, r0
	ldr	r0, [sp, #96]                   @ 4-byte Reload
	eors	r1, r0
	str	r1, [sp, #100]                  @ 4-byte Spill
	ldr	r0, [sp, #56]                   @ 4-byte Reload
	ands	r4, r0
	eors	r4, r1
	ldr	r0, [sp, #64]                   @ 4-byte Reload
	eors	r4, r0
	ldr	r5, [sp, #68]                   @ 4-byte Reload
	eors	r5, r4
	mov	r3, r5
	ldr	r0, [sp, #108]                  @ 4-byte Reload
	rors	r3, r0
	ldr	r0, .Laes_v6m_CPI6_18
	ands	r3, r0
	mov	r0, r5
	ldr	r1, [sp, #104]                  @ 4-byte Reload
	rors	r0, r1
	ldr	r1, .Laes_v6m_CPI6_19
	ands	r0, r1
	orrs	r0, r3
	eors	r5, r0
	str	r5, [sp, #68]                   @ 4-byte Spill
	mov	r3, r5
	b	.Laes_v6m_BB6_15
	.p2align	2
@ %bb.11:
.Laes_v6m_CPI6_16:
	.long	4042322160                      @ 0xf0f0f0f0
	.p2align	2
@ %bb.12:
.Laes_v6m_CPI6_17:
	.long	252645135                       @ 0xf0f0f0f
	.p2align	2
@ %bb.13:
.Laes_v6m_CPI6_18:
	.long	4244438268                      @ 0xfcfcfcfc
	.p2align	2
@ %bb.14:
.Laes_v6m_CPI6_19:
	.long	50529027                        @ 0x3030303
	.p2align	1
.Laes_v6m_BB6_15:                               @ %join.7.i
                                        @   in Loop: Header=BB6_5 Depth=1
	rors	r3, r6
	ldr	r1, .Laes_v6m_CPI6_20
	ands	r3, r1
	rors	r5, r2
	ldr	r1, .Laes_v6m_CPI6_21
	ands	r5, r1
	orrs	r5, r3
	ldr	r1, [sp, #152]                  @ 4-byte Reload
	ldr	r2, [r1, #96]
	eors	r2, r5
	eors	r2, r0
	ldr	r3, [sp, #136]                  @ 4-byte Reload
	ldr	r0, [sp, #112]                  @ 4-byte Reload
	eors	r3, r0
	mov	r0, r3
	ldr	r1, [sp, #108]                  @ 4-byte Reload
	rors	r0, r1
	ldr	r5, .Laes_v6m_CPI6_22
	ands	r0, r5
	mov	r5, r3
	ldr	r6, [sp, #104]                  @ 4-byte Reload
	rors	r5, r6
	ldr	r7, .Laes_v6m_CPI6_23
	ands	r5, r7
	orrs	r5, r0
	eors	r3, r5
	str	r3, [sp, #136]                  @ 4-byte Spill
	eors	r2, r3
	str	r2, [sp, #116]                  @ 4-byte Spill
	ldr	r7, [sp, #140]                  @ 4-byte Reload
	eors	r7, r2
	str	r7, [sp, #120]                  @ 4-byte Spill
	ldr	r0, [sp, #132]                  @ 4-byte Reload
	eors	r4, r0
	mov	r3, r4
	rors	r3, r1
	ldr	r0, .Laes_v6m_CPI6_22
	ands	r3, r0
	mov	r0, r4
	rors	r0, r6
	ldr	r1, .Laes_v6m_CPI6_23
	ands	r0, r1
	orrs	r0, r3
	eors	r4, r0
	mov	r3, r4
	ldr	r1, [sp, #148]                  @ 4-byte Reload
	rors	r3, r1
	ldr	r1, .Laes_v6m_CPI6_20
	ands	r3, r1
	mov	r7, r4
	ldr	r2, [sp, #128]                  @ 4-byte Reload
	rors	r7, r2
	ldr	r1, .Laes_v6m_CPI6_21
	ands	r7, r1
	orrs	r7, r3
	ldr	r1, [sp, #152]                  @ 4-byte Reload
	ldr	r3, [r1, #100]
	eors	r3, r7
	eors	r3, r0
	ldr	r0, [sp, #68]                   @ 4-byte Reload
	eors	r3, r0
	ldr	r7, [sp, #136]                  @ 4-byte Reload
	eors	r3, r7
	str	r3, [sp, #112]                  @ 4-byte Spill
	ldr	r6, [sp, #120]                  @ 4-byte Reload
	mov	r0, r6
	eors	r0, r3
	str	r0, [sp, #64]                   @ 4-byte Spill
	ands	r0, r6
	str	r0, [sp, #144]                  @ 4-byte Spill
	mov	r0, r7
	ldr	r3, [sp, #148]                  @ 4-byte Reload
	rors	r0, r3
	ldr	r3, .Laes_v6m_CPI6_20
	ands	r0, r3
	mov	r3, r7
	mov	r7, r2
	rors	r3, r2
	ldr	r2, .Laes_v6m_CPI6_21
	ands	r3, r2
	orrs	r3, r0
	ldr	r1, [r1, #124]
	eors	r1, r3
	eors	r1, r5
	ldr	r0, [sp, #36]                   @ 4-byte Reload
	eors	r1, r0
	str	r1, [sp, #68]                   @ 4-byte Spill
	ldr	r0, [sp, #112]                  @ 4-byte Reload
	eors	r0, r1
	str	r0, [sp, #112]                  @ 4-byte Spill
	ldr	r1, [sp, #88]                   @ 4-byte Reload
	ldr	r2, [sp, #92]                   @ 4-byte Reload
	ands	r1, r2
	ldr	r0, [sp, #72]                   @ 4-byte Reload
	eors	r1, r0
	ldr	r0, [sp, #84]                   @ 4-byte Reload
	eors	r1, r0
	mov	r3, r1
	ldr	r0, [sp, #108]                  @ 4-byte Reload
	rors	r3, r0
	ldr	r0, .Laes_v6m_CPI6_22
	ands	r3, r0
	mov	r2, r1
	ldr	r0, [sp, #104]                  @ 4-byte Reload
	rors	r2, r0
	ldr	r0, .Laes_v6m_CPI6_23
	ands	r2, r0
	orrs	r2, r3
	eors	r1, r2
	mov	r3, r1
	mov	r5, r1
	str	r1, [sp, #88]                   @ 4-byte Spill
	ldr	r1, [sp, #148]                  @ 4-byte Reload
	rors	r3, r1
	ldr	r6, .Laes_v6m_CPI6_20
	ands	r3, r6
	rors	r5, r7
	ldr	r0, .Laes_v6m_CPI6_21
	ands	r5, r0
	orrs	r5, r3
	ldr	r3, [sp, #152]                  @ 4-byte Reload
	ldr	r0, [r3, #104]
	eors	r0, r5
	eors	r0, r2
	eors	r0, r4
	str	r0, [sp, #132]                  @ 4-byte Spill
	ldr	r0, [sp, #40]                   @ 4-byte Reload
	mov	r2, r0
	rors	r2, r1
	ands	r2, r6
	rors	r0, r7
	ldr	r1, .Laes_v6m_CPI6_21
	ands	r0, r1
	orrs	r0, r2
	ldr	r5, [r3, #112]
	eors	r5, r0
	ldr	r0, [sp, #52]                   @ 4-byte Reload
	eors	r5, r0
	ldr	r0, [sp, #136]                  @ 4-byte Reload
	eors	r5, r0
	ldr	r3, [sp, #100]                  @ 4-byte Reload
	ldr	r0, [sp, #76]                   @ 4-byte Reload
	eors	r3, r0
	mov	r2, r3
	ldr	r0, [sp, #108]                  @ 4-byte Reload
	rors	r2, r0
	ldr	r0, .Laes_v6m_CPI6_22
	ands	r2, r0
	mov	r1, r3
	ldr	r0, [sp, #104]                  @ 4-byte Reload
	rors	r1, r0
	ldr	r0, .Laes_v6m_CPI6_23
	ands	r1, r0
	orrs	r1, r2
	eors	r3, r1
	eors	r5, r3
	mov	r0, r5
	str	r5, [sp, #100]                  @ 4-byte Spill
	ldr	r2, [sp, #132]                  @ 4-byte Reload
	eors	r0, r2
	str	r0, [sp, #76]                   @ 4-byte Spill
	ldr	r4, [sp, #112]                  @ 4-byte Reload
	mov	r2, r4
	eors	r2, r0
	mov	r0, r2
	str	r2, [sp, #72]                   @ 4-byte Spill
	mov	r2, r3
	ldr	r7, [sp, #148]                  @ 4-byte Reload
	rors	r2, r7
	ldr	r7, .Laes_v6m_CPI6_20
	ands	r2, r7
	ldr	r7, [sp, #128]                  @ 4-byte Reload
	rors	r3, r7
	ldr	r7, .Laes_v6m_CPI6_21
	ands	r3, r7
	orrs	r3, r2
	ldr	r2, [sp, #152]                  @ 4-byte Reload
	ldr	r7, [r2, #108]
	eors	r7, r3
	ldr	r2, [sp, #88]                   @ 4-byte Reload
	eors	r7, r2
	ldr	r2, [sp, #136]                  @ 4-byte Reload
	eors	r7, r2
	eors	r7, r1
	eors	r7, r0
	ldr	r1, [sp, #80]                   @ 4-byte Reload
	eors	r1, r7
	str	r1, [sp, #80]                   @ 4-byte Spill
	ldr	r2, [sp, #68]                   @ 4-byte Reload
	eors	r5, r2
	mov	r2, r1
	eors	r2, r5
	str	r5, [sp, #84]                   @ 4-byte Spill
	mov	r3, r2
	mov	r6, r2
	ldr	r1, [sp, #140]                  @ 4-byte Reload
	eors	r3, r1
	str	r3, [sp, #128]                  @ 4-byte Spill
	ldr	r0, [sp, #144]                  @ 4-byte Reload
	eors	r0, r3
	ands	r3, r4
	eors	r0, r3
	eors	r0, r4
	str	r0, [sp, #144]                  @ 4-byte Spill
	ldr	r0, [sp, #132]                  @ 4-byte Reload
	eors	r7, r0
	eors	r1, r7
	str	r1, [sp, #140]                  @ 4-byte Spill
	eors	r6, r1
	str	r6, [sp, #52]                   @ 4-byte Spill
	ldr	r0, [sp, #76]                   @ 4-byte Reload
	ands	r6, r0
	mov	r4, r2
	str	r2, [sp, #96]                   @ 4-byte Spill
	ands	r4, r5
	eors	r6, r4
	ldr	r1, [sp, #144]                  @ 4-byte Reload
	eors	r1, r6
	str	r1, [sp, #144]                  @ 4-byte Spill
	ldr	r5, [sp, #120]                  @ 4-byte Reload
	ldr	r0, [sp, #68]                   @ 4-byte Reload
	eors	r5, r0
	str	r5, [sp, #148]                  @ 4-byte Spill
	ldr	r0, [sp, #116]                  @ 4-byte Reload
	eors	r2, r0
	str	r2, [sp, #56]                   @ 4-byte Spill
	ands	r2, r5
	ldr	r5, [sp, #128]                  @ 4-byte Reload
	eors	r2, r5
	eors	r2, r3
	ldr	r0, [sp, #68]                   @ 4-byte Reload
	eors	r2, r0
	ldr	r3, [sp, #132]                  @ 4-byte Reload
	eors	r3, r0
	str	r3, [sp, #132]                  @ 4-byte Spill
	ldr	r5, [sp, #140]                  @ 4-byte Reload
	ands	r5, r3
	eors	r5, r4
	eors	r2, r5
	mov	r3, r2
	eors	r3, r1
	str	r3, [sp, #136]                  @ 4-byte Spill
	mov	r0, r7
	ldr	r3, [sp, #72]                   @ 4-byte Reload
	ands	r0, r3
	mov	r1, r0
	str	r0, [sp, #104]                  @ 4-byte Spill
	ldr	r3, [sp, #64]                   @ 4-byte Reload
	ldr	r0, [sp, #132]                  @ 4-byte Reload
	eors	r3, r0
	str	r3, [sp, #68]                   @ 4-byte Spill
	mov	r4, r7
	ldr	r0, [sp, #116]                  @ 4-byte Reload
	eors	r4, r0
	str	r4, [sp, #108]                  @ 4-byte Spill
	mov	r0, r4
	ands	r0, r3
	ldr	r3, [sp, #80]                   @ 4-byte Reload
	eors	r0, r3
	eors	r0, r1
	eors	r0, r6
	ldr	r4, [sp, #144]                  @ 4-byte Reload
	ands	r4, r0
	ldr	r1, [sp, #100]                  @ 4-byte Reload
	ldr	r3, [sp, #120]                  @ 4-byte Reload
	eors	r1, r3
	str	r1, [sp, #100]                  @ 4-byte Spill
	mov	r3, r1
	ldr	r1, [sp, #116]                  @ 4-byte Reload
	ands	r3, r1
	ldr	r1, [sp, #132]                  @ 4-byte Reload
	eors	r3, r1
	ldr	r1, [sp, #140]                  @ 4-byte Reload
	eors	r3, r1
	ldr	r1, [sp, #104]                  @ 4-byte Reload
	eors	r3, r1
	eors	r3, r5
	mov	r5, r4
	eors	r5, r3
	ldr	r1, [sp, #136]                  @ 4-byte Reload
	ands	r5, r1
	mov	r6, r5
	eors	r6, r2
	eors	r5, r4
	ands	r5, r2
	ldr	r1, [sp, #144]                  @ 4-byte Reload
	eors	r1, r5
	str	r1, [sp, #144]                  @ 4-byte Spill
	eors	r1, r6
	str	r1, [sp, #92]                   @ 4-byte Spill
	str	r6, [sp, #136]                  @ 4-byte Spill
	eors	r0, r3
	eors	r4, r2
	mov	r2, r4
	eors	r5, r4
	ands	r2, r0
	eors	r2, r3
	ands	r5, r2
	eors	r5, r0
	mov	r4, r5
	eors	r4, r1
	mov	r0, r2
	mov	r1, r2
	str	r2, [sp, #104]                  @ 4-byte Spill
	eors	r0, r6
	str	r0, [sp, #80]                   @ 4-byte Spill
	mov	r2, r4
	eors	r2, r0
	str	r2, [sp, #88]                   @ 4-byte Spill
	ldr	r0, [sp, #52]                   @ 4-byte Reload
	ands	r0, r2
	ldr	r3, [sp, #120]                  @ 4-byte Reload
	ands	r3, r5
	mov	r2, r5
	eors	r2, r1
	ldr	r1, [sp, #128]                  @ 4-byte Reload
	ands	r1, r2
	str	r1, [sp, #128]                  @ 4-byte Spill
	eors	r3, r1
	str	r3, [sp, #120]                  @ 4-byte Spill
	eors	r0, r3
	mov	r3, r0
	ldr	r0, [sp, #140]                  @ 4-byte Reload
	ands	r0, r4
	ldr	r6, [sp, #116]                  @ 4-byte Reload
	ldr	r1, [sp, #136]                  @ 4-byte Reload
	ands	r6, r1
	ldr	r1, [sp, #144]                  @ 4-byte Reload
	ands	r7, r1
	eors	r6, r7
	str	r6, [sp, #116]                  @ 4-byte Spill
	eors	r0, r6
	ldr	r1, [sp, #112]                  @ 4-byte Reload
	ands	r2, r1
	str	r2, [sp, #112]                  @ 4-byte Spill
	eors	r0, r2
	mov	r6, r3
	eors	r0, r3
	str	r0, [sp, #140]                  @ 4-byte Spill
	ldr	r1, [sp, #148]                  @ 4-byte Reload
	ldr	r2, [sp, #104]                  @ 4-byte Reload
	ands	r1, r2
	eors	r1, r0
	str	r1, [sp, #148]                  @ 4-byte Spill
	ldr	r1, [sp, #96]                   @ 4-byte Reload
	ldr	r3, [sp, #80]                   @ 4-byte Reload
	ands	r1, r3
	eors	r1, r6
	mov	r2, r1
	str	r1, [sp, #96]                   @ 4-byte Spill
	ldr	r0, [sp, #132]                  @ 4-byte Reload
	ands	r4, r0
	ldr	r1, [sp, #84]                   @ 4-byte Reload
	ands	r3, r1
	eors	r4, r3
	eors	r4, r2
	ldr	r1, [sp, #148]                  @ 4-byte Reload
	eors	r4, r1
	movs	r0, #8
	str	r0, [sp, #84]                   @ 4-byte Spill
	mov	r1, r4
	rors	r1, r0
	str	r1, [sp, #52]                   @ 4-byte Spill
	eors	r4, r1
	ldr	r1, [sp, #108]                  @ 4-byte Reload
	ldr	r6, [sp, #92]                   @ 4-byte Reload
	ands	r1, r6
	eors	r1, r7
	ldr	r0, [sp, #120]                  @ 4-byte Reload
	eors	r1, r0
	mov	r7, r1
	ldr	r1, [sp, #76]                   @ 4-byte Reload
	ldr	r2, [sp, #88]                   @ 4-byte Reload
	ands	r2, r1
	eors	r2, r3
	str	r2, [sp, #88]                   @ 4-byte Spill
	ldr	r0, [sp, #68]                   @ 4-byte Reload
	ands	r6, r0
	eors	r6, r2
	str	r6, [sp, #92]                   @ 4-byte Spill
	ldr	r0, [sp, #144]                  @ 4-byte Reload
	ldr	r1, [sp, #72]                   @ 4-byte Reload
	ands	r0, r1
	eors	r0, r6
	str	r0, [sp, #144]                  @ 4-byte Spill
	mov	r6, r7
	eors	r6, r0
	str	r6, [sp, #108]                  @ 4-byte Spill
	ldr	r2, [sp, #96]                   @ 4-byte Reload
	eors	r6, r2
	mov	r7, r6
	ldr	r0, [sp, #84]                   @ 4-byte Reload
	rors	r7, r0
	eors	r6, r7
	str	r6, [sp, #120]                  @ 4-byte Spill
	ldr	r3, [sp, #124]                  @ 4-byte Reload
	rors	r6, r3
	movs	r3, #152
	ldr	r1, [sp, #152]                  @ 4-byte Reload
	ldr	r1, [r1, r3]
	eors	r1, r6
	eors	r1, r7
	eors	r1, r4
	str	r1, [sp, #80]                   @ 4-byte Spill
	ldr	r3, [sp, #144]                  @ 4-byte Reload
	eors	r3, r2
	mov	r1, r3
	mov	r6, r0
	rors	r1, r0
	str	r1, [sp, #96]                   @ 4-byte Spill
	eors	r3, r1
	str	r3, [sp, #144]                  @ 4-byte Spill
	ldr	r1, [sp, #104]                  @ 4-byte Reload
	ldr	r3, [sp, #56]                   @ 4-byte Reload
	ands	r1, r3
	ldr	r3, [sp, #116]                  @ 4-byte Reload
	eors	r1, r3
	ldr	r3, [sp, #128]                  @ 4-byte Reload
	eors	r1, r3
	str	r1, [sp, #104]                  @ 4-byte Spill
	ldr	r3, [sp, #64]                   @ 4-byte Reload
	ands	r5, r3
	eors	r5, r1
	ldr	r0, [sp, #88]                   @ 4-byte Reload
	eors	r5, r0
	ldr	r3, [sp, #112]                  @ 4-byte Reload
	eors	r3, r5
	mov	r2, r3
	rors	r2, r6
	eors	r3, r2
	str	r3, [sp, #112]                  @ 4-byte Spill
	ldr	r7, [sp, #124]                  @ 4-byte Reload
	rors	r3, r7
	movs	r6, #128
	ldr	r0, [sp, #152]                  @ 4-byte Reload
	ldr	r6, [r0, r6]
	eors	r6, r3
	eors	r6, r2
	ldr	r2, [sp, #144]                  @ 4-byte Reload
	eors	r6, r2
	str	r6, [sp, #132]                  @ 4-byte Spill
	rors	r2, r7
	movs	r3, #156
	ldr	r1, [r0, r3]
	mov	r3, r0
	eors	r1, r2
	ldr	r0, [sp, #96]                   @ 4-byte Reload
	eors	r1, r0
	ldr	r0, [sp, #120]                  @ 4-byte Reload
	eors	r1, r0
	str	r1, [sp, #128]                  @ 4-byte Spill
	rors	r4, r7
	mov	r6, r7
	movs	r2, #148
	ldr	r3, [r3, r2]
	eors	r3, r4
	ldr	r0, [sp, #52]                   @ 4-byte Reload
	eors	r3, r0
	ldr	r4, [sp, #108]                  @ 4-byte Reload
	mov	r2, r4
	ldr	r0, [sp, #84]                   @ 4-byte Reload
	rors	r2, r0
	str	r2, [sp, #96]                   @ 4-byte Spill
	eors	r2, r4
	eors	r3, r2
	str	r3, [sp, #120]                  @ 4-byte Spill
	ldr	r3, [sp, #140]                  @ 4-byte Reload
	eors	r5, r3
	mov	r7, r5
	rors	r7, r0
	eors	r5, r7
	ldr	r1, [sp, #136]                  @ 4-byte Reload
	ldr	r3, [sp, #100]                  @ 4-byte Reload
	ands	r1, r3
	ldr	r3, [sp, #92]                   @ 4-byte Reload
	eors	r1, r3
	ldr	r3, [sp, #148]                  @ 4-byte Reload
	eors	r1, r3
	mov	r3, r1
	rors	r3, r0
	eors	r1, r3
	str	r1, [sp, #136]                  @ 4-byte Spill
	mov	r4, r1
	mov	r1, r6
	rors	r4, r6
	movs	r6, #136
	ldr	r0, [sp, #152]                  @ 4-byte Reload
	ldr	r6, [r0, r6]
	eors	r6, r4
	eors	r6, r3
	eors	r6, r5
	str	r6, [sp, #148]                  @ 4-byte Spill
	rors	r5, r1
	movs	r3, #132
	ldr	r1, [r0, r3]
	eors	r1, r5
	eors	r1, r7
	ldr	r3, [sp, #112]                  @ 4-byte Reload
	eors	r1, r3
	ldr	r4, [sp, #144]                  @ 4-byte Reload
	eors	r1, r4
	str	r1, [sp, #116]                  @ 4-byte Spill
	ldr	r7, [sp, #124]                  @ 4-byte Reload
	rors	r2, r7
	movs	r3, #144
	b	.Laes_v6m_BB6_20
	.p2align	2
@ %bb.16:
.Laes_v6m_CPI6_20:
	.long	4042322160                      @ 0xf0f0f0f0
	.p2align	2
@ %bb.17:
.Laes_v6m_CPI6_21:
	.long	252645135                       @ 0xf0f0f0f
	.p2align	2
@ %bb.18:
.Laes_v6m_CPI6_22:
	.long	4244438268                      @ 0xfcfcfcfc
	.p2align	2
@ %bb.19:
.Laes_v6m_CPI6_23:
	.long	50529027                        @ 0x3030303
	.p2align	1
.Laes_v6m_BB6_20:                               @ %join.7.i
                                        @   in Loop: Header=BB6_5 Depth=1
	ldr	r5, [r0, r3]
	mov	r6, r0
	ldr	r3, [sp, #48]                   @ 4-byte Reload
	eors	r5, r2
	ldr	r0, [sp, #96]                   @ 4-byte Reload
	eors	r5, r0
	eors	r5, r4
	ldr	r1, [sp, #104]                  @ 4-byte Reload
	ldr	r0, [sp, #108]                  @ 4-byte Reload
	eors	r1, r0
	mov	r0, r1
	ldr	r2, [sp, #84]                   @ 4-byte Reload
	rors	r0, r2
	eors	r1, r0
	eors	r5, r1
	rors	r1, r7
	movs	r2, #140
	ldr	r7, [r6, r2]
	eors	r7, r1
	ldr	r1, [sp, #24]                   @ 4-byte Reload
	ldr	r2, [sp, #136]                  @ 4-byte Reload
	eors	r7, r2
	eors	r7, r4
	eors	r7, r0
	ldr	r2, [sp, #60]                   @ 4-byte Reload
	adds	r2, r2, #1
	ldr	r0, [sp, #28]                   @ 4-byte Reload
	adcs	r3, r0
	str	r2, [sp, #60]                   @ 4-byte Spill
	subs	r0, r2, r1
	mov	r0, r3
	ldr	r4, [sp, #20]                   @ 4-byte Reload
	sbcs	r0, r4
	bhs	.Laes_v6m_BB6_22
	bl	.Laes_v6m_BB6_5
.Laes_v6m_BB6_21:
	ldr	r5, [sp, #56]                   @ 4-byte Reload
.Laes_v6m_BB6_22:                               @ %after.3.i
	str	r5, [sp, #56]                   @ 4-byte Spill
	mov	r2, r5
	ldr	r3, [sp, #148]                  @ 4-byte Reload
	eors	r2, r3
	str	r2, [sp, #140]                  @ 4-byte Spill
	ldr	r0, [sp, #128]                  @ 4-byte Reload
	ldr	r6, [sp, #116]                  @ 4-byte Reload
	eors	r0, r6
	str	r0, [sp, #72]                   @ 4-byte Spill
	mov	r1, r0
	eors	r1, r2
	str	r1, [sp, #144]                  @ 4-byte Spill
	eors	r7, r1
	mov	r1, r7
	eors	r1, r3
	str	r1, [sp, #100]                  @ 4-byte Spill
	ldr	r3, [sp, #120]                  @ 4-byte Reload
	ldr	r0, [sp, #80]                   @ 4-byte Reload
	eors	r3, r0
	eors	r1, r3
	str	r1, [sp, #136]                  @ 4-byte Spill
	eors	r7, r0
	ldr	r4, [sp, #128]                  @ 4-byte Reload
	eors	r4, r5
	mov	r2, r7
	eors	r2, r4
	str	r2, [sp, #104]                  @ 4-byte Spill
	str	r4, [sp, #84]                   @ 4-byte Spill
	mov	r0, r2
	eors	r0, r1
	str	r0, [sp, #76]                   @ 4-byte Spill
	mov	r1, r0
	ldr	r0, [sp, #140]                  @ 4-byte Reload
	ands	r1, r0
	mov	r0, r1
	mov	r1, r2
	ands	r1, r4
	eors	r0, r1
	str	r0, [sp, #108]                  @ 4-byte Spill
	eors	r2, r3
	ldr	r5, [sp, #132]                  @ 4-byte Reload
	eors	r3, r5
	str	r5, [sp, #132]                  @ 4-byte Spill
	eors	r6, r3
	str	r6, [sp, #116]                  @ 4-byte Spill
	mov	r4, r6
	ands	r4, r3
	mov	r6, r3
	str	r3, [sp, #120]                  @ 4-byte Spill
	str	r2, [sp, #124]                  @ 4-byte Spill
	eors	r4, r2
	ldr	r0, [sp, #72]                   @ 4-byte Reload
	ands	r2, r0
	eors	r4, r2
	eors	r4, r0
	ldr	r0, [sp, #108]                  @ 4-byte Reload
	eors	r4, r0
	str	r4, [sp, #152]                  @ 4-byte Spill
	ldr	r4, [sp, #148]                  @ 4-byte Reload
	ldr	r0, [sp, #128]                  @ 4-byte Reload
	eors	r4, r0
	str	r4, [sp, #148]                  @ 4-byte Spill
	ldr	r3, [sp, #136]                  @ 4-byte Reload
	ands	r3, r4
	eors	r3, r1
	ldr	r4, [sp, #104]                  @ 4-byte Reload
	eors	r4, r5
	str	r4, [sp, #48]                   @ 4-byte Spill
	eors	r6, r0
	str	r6, [sp, #96]                   @ 4-byte Spill
	ands	r4, r6
	ldr	r1, [sp, #124]                  @ 4-byte Reload
	eors	r4, r1
	eors	r4, r2
	eors	r4, r0
	eors	r4, r3
	mov	r0, r4
	ldr	r1, [sp, #152]                  @ 4-byte Reload
	eors	r0, r1
	str	r0, [sp, #128]                  @ 4-byte Spill
	ldr	r2, [sp, #100]                  @ 4-byte Reload
	mov	r6, r2
	ldr	r1, [sp, #144]                  @ 4-byte Reload
	ands	r6, r1
	ldr	r0, [sp, #116]                  @ 4-byte Reload
	ldr	r1, [sp, #148]                  @ 4-byte Reload
	eors	r0, r1
	mov	r1, r0
	str	r0, [sp, #80]                   @ 4-byte Spill
	ldr	r0, [sp, #132]                  @ 4-byte Reload
	eors	r2, r0
	mov	r0, r2
	str	r2, [sp, #112]                  @ 4-byte Spill
	ands	r0, r1
	eors	r0, r7
	eors	r0, r6
	ldr	r1, [sp, #108]                  @ 4-byte Reload
	eors	r0, r1
	ldr	r2, [sp, #152]                  @ 4-byte Reload
	mov	r5, r2
	ands	r5, r0
	ldr	r7, [sp, #56]                   @ 4-byte Reload
	ldr	r1, [sp, #120]                  @ 4-byte Reload
	eors	r7, r1
	str	r7, [sp, #56]                   @ 4-byte Spill
	ldr	r1, [sp, #132]                  @ 4-byte Reload
	ands	r7, r1
	ldr	r1, [sp, #148]                  @ 4-byte Reload
	eors	r7, r1
	ldr	r1, [sp, #136]                  @ 4-byte Reload
	eors	r7, r1
	eors	r7, r6
	eors	r7, r3
	mov	r3, r5
	eors	r3, r7
	ldr	r1, [sp, #128]                  @ 4-byte Reload
	ands	r3, r1
	mov	r1, r3
	eors	r1, r4
	eors	r3, r5
	ands	r3, r4
	eors	r2, r3
	str	r2, [sp, #152]                  @ 4-byte Spill
	eors	r2, r1
	str	r1, [sp, #128]                  @ 4-byte Spill
	eors	r0, r7
	eors	r5, r4
	eors	r3, r5
	ands	r5, r0
	eors	r5, r7
	ands	r3, r5
	eors	r3, r0
	mov	r4, r3
	eors	r4, r2
	str	r4, [sp, #92]                   @ 4-byte Spill
	mov	r6, r5
	str	r5, [sp, #108]                  @ 4-byte Spill
	eors	r6, r1
	eors	r4, r6
	ldr	r1, [sp, #76]                   @ 4-byte Reload
	ands	r1, r4
	ldr	r7, [sp, #120]                  @ 4-byte Reload
	ands	r7, r3
	mov	r0, r3
	eors	r0, r5
	mov	r5, r0
	str	r0, [sp, #88]                   @ 4-byte Spill
	ldr	r0, [sp, #124]                  @ 4-byte Reload
	ands	r0, r5
	str	r0, [sp, #124]                  @ 4-byte Spill
	eors	r7, r0
	str	r7, [sp, #120]                  @ 4-byte Spill
	eors	r1, r7
	str	r1, [sp, #76]                   @ 4-byte Spill
	ldr	r5, [sp, #104]                  @ 4-byte Reload
	ands	r5, r6
	eors	r5, r1
	ldr	r0, [sp, #112]                  @ 4-byte Reload
	ands	r0, r2
	ldr	r1, [sp, #100]                  @ 4-byte Reload
	ldr	r7, [sp, #152]                  @ 4-byte Reload
	ands	r1, r7
	str	r1, [sp, #100]                  @ 4-byte Spill
	eors	r0, r1
	ldr	r1, [sp, #120]                  @ 4-byte Reload
	eors	r0, r1
	mov	r1, r0
	ldr	r0, [sp, #140]                  @ 4-byte Reload
	ands	r4, r0
	ldr	r0, [sp, #84]                   @ 4-byte Reload
	ands	r6, r0
	str	r6, [sp, #120]                  @ 4-byte Spill
	eors	r4, r6
	str	r4, [sp, #36]                   @ 4-byte Spill
	ldr	r0, [sp, #80]                   @ 4-byte Reload
	ands	r2, r0
	eors	r2, r4
	str	r2, [sp, #40]                   @ 4-byte Spill
	ldr	r0, [sp, #144]                  @ 4-byte Reload
	ands	r7, r0
	eors	r7, r2
	str	r7, [sp, #152]                  @ 4-byte Spill
	eors	r1, r7
	str	r1, [sp, #112]                  @ 4-byte Spill
	eors	r1, r5
	str	r5, [sp, #104]                  @ 4-byte Spill
	movs	r7, #2
	mov	r2, r1
	rors	r2, r7
	ldr	r0, .Laes_v6m_CPI6_24
	ands	r2, r0
	movs	r4, #10
	mov	r6, r1
	rors	r6, r4
	str	r4, [sp, #80]                   @ 4-byte Spill
	ldr	r0, .Laes_v6m_CPI6_25
	ands	r6, r0
	orrs	r6, r2
	str	r6, [sp, #44]                   @ 4-byte Spill
	eors	r1, r6
	str	r1, [sp, #68]                   @ 4-byte Spill
	ldr	r0, [sp, #152]                  @ 4-byte Reload
	eors	r0, r5
	mov	r6, r0
	rors	r6, r7
	ldr	r1, .Laes_v6m_CPI6_24
	ands	r6, r1
	mov	r2, r0
	rors	r2, r4
	ldr	r1, .Laes_v6m_CPI6_25
	ands	r2, r1
	orrs	r2, r6
	eors	r0, r2
	movs	r4, #12
	str	r4, [sp, #144]                  @ 4-byte Spill
	mov	r6, r0
	mov	r1, r0
	str	r0, [sp, #152]                  @ 4-byte Spill
	rors	r6, r4
	ldr	r0, .Laes_v6m_CPI6_26
	ands	r6, r0
	movs	r4, #20
	str	r4, [sp, #140]                  @ 4-byte Spill
	mov	r0, r1
	rors	r0, r4
	ldr	r1, .Laes_v6m_CPI6_27
	ands	r0, r1
	orrs	r0, r6
	movs	r6, #3
	ldr	r1, [sp, #8]                    @ 4-byte Reload
	bics	r1, r6
	str	r1, [sp, #52]                   @ 4-byte Spill
	lsls	r6, r1, #5
	ldr	r1, [sp, #32]                   @ 4-byte Reload
	adds	r1, r1, r6
	str	r1, [sp, #84]                   @ 4-byte Spill
	ldr	r1, [r1, #60]
	eors	r1, r0
	eors	r1, r2
	ldr	r0, [sp, #68]                   @ 4-byte Reload
	eors	r1, r0
	str	r1, [sp, #60]                   @ 4-byte Spill
	ldr	r0, [sp, #136]                  @ 4-byte Reload
	ldr	r6, [sp, #92]                   @ 4-byte Reload
	ands	r0, r6
	ldr	r1, [sp, #132]                  @ 4-byte Reload
	ldr	r2, [sp, #128]                  @ 4-byte Reload
	ands	r1, r2
	ldr	r2, [sp, #100]                  @ 4-byte Reload
	eors	r1, r2
	str	r1, [sp, #132]                  @ 4-byte Spill
	eors	r0, r1
	ldr	r2, [sp, #88]                   @ 4-byte Reload
	ldr	r1, [sp, #72]                   @ 4-byte Reload
	ands	r2, r1
	str	r2, [sp, #88]                   @ 4-byte Spill
	eors	r0, r2
	ldr	r1, [sp, #76]                   @ 4-byte Reload
	eors	r0, r1
	str	r0, [sp, #136]                  @ 4-byte Spill
	ldr	r1, [sp, #96]                   @ 4-byte Reload
	ldr	r2, [sp, #108]                  @ 4-byte Reload
	ands	r1, r2
	eors	r1, r0
	str	r1, [sp, #96]                   @ 4-byte Spill
	ldr	r0, [sp, #148]                  @ 4-byte Reload
	ands	r6, r0
	ldr	r0, [sp, #120]                  @ 4-byte Reload
	eors	r6, r0
	ldr	r0, [sp, #104]                  @ 4-byte Reload
	eors	r6, r0
	eors	r6, r1
	mov	r2, r6
	rors	r2, r7
	mov	r5, r7
	ldr	r7, .Laes_v6m_CPI6_24
	ands	r2, r7
	mov	r0, r6
	ldr	r4, [sp, #80]                   @ 4-byte Reload
	rors	r0, r4
	ldr	r1, .Laes_v6m_CPI6_25
	ands	r0, r1
	orrs	r0, r2
	eors	r6, r0
	str	r6, [sp, #92]                   @ 4-byte Spill
	mov	r2, r6
	ldr	r1, [sp, #144]                  @ 4-byte Reload
	rors	r2, r1
	ldr	r1, .Laes_v6m_CPI6_26
	ands	r2, r1
	ldr	r1, [sp, #140]                  @ 4-byte Reload
	rors	r6, r1
	ldr	r1, .Laes_v6m_CPI6_27
	ands	r6, r1
	orrs	r6, r2
	ldr	r1, [sp, #84]                   @ 4-byte Reload
	ldr	r1, [r1, #52]
	eors	r1, r6
	eors	r1, r0
	ldr	r2, [sp, #112]                  @ 4-byte Reload
	mov	r0, r2
	mov	r6, r5
	rors	r0, r5
	ands	r0, r7
	mov	r7, r2
	rors	r7, r4
	ldr	r5, .Laes_v6m_CPI6_25
	ands	r7, r5
	orrs	r7, r0
	str	r7, [sp, #148]                  @ 4-byte Spill
	eors	r7, r2
	eors	r1, r7
	str	r1, [sp, #120]                  @ 4-byte Spill
	ldr	r1, [sp, #108]                  @ 4-byte Reload
	ldr	r0, [sp, #48]                   @ 4-byte Reload
	ands	r1, r0
	ldr	r0, [sp, #132]                  @ 4-byte Reload
	eors	r1, r0
	ldr	r0, [sp, #124]                  @ 4-byte Reload
	eors	r1, r0
	str	r1, [sp, #108]                  @ 4-byte Spill
	ldr	r0, [sp, #116]                  @ 4-byte Reload
	ands	r3, r0
	eors	r3, r1
	ldr	r0, [sp, #36]                   @ 4-byte Reload
	eors	r3, r0
	ldr	r2, [sp, #136]                  @ 4-byte Reload
	eors	r2, r3
	mov	r0, r2
	mov	r1, r6
	str	r6, [sp, #64]                   @ 4-byte Spill
	rors	r0, r6
	ldr	r5, .Laes_v6m_CPI6_24
	ands	r0, r5
	mov	r6, r2
	rors	r6, r4
	ldr	r5, .Laes_v6m_CPI6_25
	ands	r6, r5
	orrs	r6, r0
	eors	r2, r6
	str	r2, [sp, #136]                  @ 4-byte Spill
	ldr	r2, [sp, #128]                  @ 4-byte Reload
	ldr	r0, [sp, #56]                   @ 4-byte Reload
	ands	r2, r0
	ldr	r0, [sp, #40]                   @ 4-byte Reload
	eors	r2, r0
	ldr	r0, [sp, #96]                   @ 4-byte Reload
	eors	r2, r0
	mov	r0, r2
	rors	r0, r1
	ldr	r1, .Laes_v6m_CPI6_24
	ands	r0, r1
	mov	r1, r2
	rors	r1, r4
	ands	r1, r5
	orrs	r1, r0
	mov	r0, r2
	eors	r0, r1
	mov	r2, r0
	mov	r5, r0
	str	r0, [sp, #128]                  @ 4-byte Spill
	ldr	r4, [sp, #144]                  @ 4-byte Reload
	rors	r2, r4
	ldr	r0, .Laes_v6m_CPI6_26
	ands	r2, r0
	mov	r0, r5
	ldr	r5, [sp, #140]                  @ 4-byte Reload
	rors	r0, r5
	ldr	r5, .Laes_v6m_CPI6_27
	ands	r0, r5
	orrs	r0, r2
	ldr	r5, [sp, #84]                   @ 4-byte Reload
	ldr	r2, [r5, #40]
	eors	r2, r0
	eors	r2, r1
	ldr	r1, [sp, #136]                  @ 4-byte Reload
	eors	r2, r1
	str	r2, [sp, #132]                  @ 4-byte Spill
	mov	r0, r1
	rors	r0, r4
	ldr	r2, .Laes_v6m_CPI6_26
	ands	r0, r2
	ldr	r4, [sp, #140]                  @ 4-byte Reload
	rors	r1, r4
	ldr	r2, .Laes_v6m_CPI6_27
	ands	r1, r2
	orrs	r1, r0
	ldr	r2, [r5, #36]
	eors	r2, r1
	eors	r2, r6
	ldr	r0, [sp, #88]                   @ 4-byte Reload
	eors	r3, r0
	mov	r0, r3
	ldr	r1, [sp, #64]                   @ 4-byte Reload
	rors	r0, r1
	ldr	r1, .Laes_v6m_CPI6_24
	ands	r0, r1
	mov	r1, r3
	ldr	r5, [sp, #80]                   @ 4-byte Reload
	rors	r1, r5
	ldr	r5, .Laes_v6m_CPI6_25
	ands	r1, r5
	orrs	r1, r0
	eors	r3, r1
	eors	r2, r3
	ldr	r0, [sp, #152]                  @ 4-byte Reload
	eors	r2, r0
	str	r2, [sp, #124]                  @ 4-byte Spill
	ldr	r5, [sp, #68]                   @ 4-byte Reload
	mov	r0, r5
	ldr	r6, [sp, #144]                  @ 4-byte Reload
	rors	r0, r6
	ldr	r2, .Laes_v6m_CPI6_26
	ands	r0, r2
	rors	r5, r4
	ldr	r2, .Laes_v6m_CPI6_27
	ands	r5, r2
	orrs	r5, r0
	ldr	r4, [sp, #84]                   @ 4-byte Reload
	ldr	r2, [r4, #56]
	eors	r2, r5
	ldr	r0, [sp, #44]                   @ 4-byte Reload
	eors	r2, r0
	ldr	r0, [sp, #92]                   @ 4-byte Reload
	eors	r2, r0
	str	r2, [sp, #136]                  @ 4-byte Spill
	mov	r0, r3
	mov	r2, r6
	rors	r0, r6
	ldr	r5, .Laes_v6m_CPI6_26
	ands	r0, r5
	ldr	r6, [sp, #140]                  @ 4-byte Reload
	rors	r3, r6
	ldr	r5, .Laes_v6m_CPI6_27
	ands	r3, r5
	orrs	r3, r0
	ldr	r0, [r4, #32]
	eors	r0, r3
	eors	r0, r1
	ldr	r3, [sp, #152]                  @ 4-byte Reload
	eors	r0, r3
	str	r0, [sp, #116]                  @ 4-byte Spill
	mov	r0, r7
	rors	r0, r2
	ldr	r1, .Laes_v6m_CPI6_26
	ands	r0, r1
	rors	r7, r6
	ldr	r1, .Laes_v6m_CPI6_27
	ands	r7, r1
	orrs	r7, r0
	ldr	r5, [r4, #48]
	mov	r6, r4
	eors	r5, r7
	ldr	r0, [sp, #148]                  @ 4-byte Reload
	eors	r5, r0
	eors	r5, r3
	ldr	r2, [sp, #108]                  @ 4-byte Reload
	ldr	r0, [sp, #112]                  @ 4-byte Reload
	eors	r2, r0
	mov	r0, r2
	ldr	r1, [sp, #64]                   @ 4-byte Reload
	rors	r0, r1
	ldr	r1, .Laes_v6m_CPI6_24
	ands	r0, r1
	mov	r1, r2
	ldr	r4, [sp, #80]                   @ 4-byte Reload
	rors	r1, r4
	ldr	r4, .Laes_v6m_CPI6_25
	ands	r1, r4
	orrs	r1, r0
	eors	r2, r1
	eors	r5, r2
	mov	r0, r2
	ldr	r4, [sp, #144]                  @ 4-byte Reload
	rors	r0, r4
	ldr	r4, .Laes_v6m_CPI6_26
	ands	r0, r4
	ldr	r4, [sp, #140]                  @ 4-byte Reload
	rors	r2, r4
	ldr	r4, .Laes_v6m_CPI6_27
	ands	r2, r4
	orrs	r2, r0
	ldr	r0, [r6, #44]
	eors	r0, r2
	ldr	r2, [sp, #128]                  @ 4-byte Reload
	eors	r0, r2
	eors	r0, r3
	eors	r0, r1
	ldr	r1, [sp, #52]                   @ 4-byte Reload
	adds	r1, r1, #2
	ldr	r2, [sp, #16]                   @ 4-byte Reload
	subs	r1, r1, r2
	ldr	r1, [sp, #12]                   @ 4-byte Reload
	ldr	r3, [sp]                        @ 4-byte Reload
	sbcs	r3, r1
	blo	.Laes_v6m_BB6_27
	b	.Laes_v6m_BB6_35
	.p2align	2
@ %bb.23:
.Laes_v6m_CPI6_24:
	.long	3233857728                      @ 0xc0c0c0c0
	.p2align	2
@ %bb.24:
.Laes_v6m_CPI6_25:
	.long	1061109567                      @ 0x3f3f3f3f
	.p2align	2
@ %bb.25:
.Laes_v6m_CPI6_26:
	.long	4042322160                      @ 0xf0f0f0f0
	.p2align	2
@ %bb.26:
.Laes_v6m_CPI6_27:
	.long	252645135                       @ 0xf0f0f0f
	.p2align	1
.Laes_v6m_BB6_27:                               @ %then.11.i
	mov	r4, r5
	ldr	r6, [sp, #132]                  @ 4-byte Reload
	eors	r4, r6
	str	r4, [sp, #64]                   @ 4-byte Spill
	ldr	r1, [sp, #124]                  @ 4-byte Reload
	ldr	r7, [sp, #60]                   @ 4-byte Reload
	eors	r1, r7
	str	r1, [sp, #88]                   @ 4-byte Spill
	mov	r3, r1
	eors	r3, r4
	str	r3, [sp, #68]                   @ 4-byte Spill
	eors	r0, r3
	mov	r2, r0
	eors	r2, r6
	str	r2, [sp, #104]                  @ 4-byte Spill
	ldr	r1, [sp, #120]                  @ 4-byte Reload
	ldr	r6, [sp, #136]                  @ 4-byte Reload
	eors	r1, r6
	eors	r2, r1
	str	r2, [sp, #152]                  @ 4-byte Spill
	eors	r0, r6
	mov	r3, r5
	eors	r3, r7
	mov	r6, r0
	eors	r6, r3
	str	r6, [sp, #128]                  @ 4-byte Spill
	str	r3, [sp, #80]                   @ 4-byte Spill
	mov	r4, r6
	eors	r4, r2
	str	r4, [sp, #76]                   @ 4-byte Spill
	ldr	r2, [sp, #64]                   @ 4-byte Reload
	ands	r4, r2
	mov	r2, r4
	mov	r4, r6
	ands	r4, r3
	eors	r2, r4
	str	r2, [sp, #136]                  @ 4-byte Spill
	mov	r2, r6
	eors	r2, r1
	ldr	r3, [sp, #116]                  @ 4-byte Reload
	eors	r1, r3
	ldr	r6, [sp, #124]                  @ 4-byte Reload
	eors	r6, r1
	str	r6, [sp, #124]                  @ 4-byte Spill
	ands	r6, r1
	mov	r3, r1
	str	r1, [sp, #120]                  @ 4-byte Spill
	str	r2, [sp, #108]                  @ 4-byte Spill
	eors	r6, r2
	mov	r1, r2
	ldr	r2, [sp, #88]                   @ 4-byte Reload
	ands	r1, r2
	eors	r6, r1
	eors	r6, r2
	ldr	r2, [sp, #136]                  @ 4-byte Reload
	eors	r6, r2
	str	r6, [sp, #148]                  @ 4-byte Spill
	ldr	r6, [sp, #132]                  @ 4-byte Reload
	eors	r6, r7
	str	r6, [sp, #132]                  @ 4-byte Spill
	ldr	r2, [sp, #152]                  @ 4-byte Reload
	ands	r2, r6
	eors	r2, r4
	mov	r4, r2
	str	r2, [sp, #84]                   @ 4-byte Spill
	ldr	r6, [sp, #128]                  @ 4-byte Reload
	ldr	r2, [sp, #116]                  @ 4-byte Reload
	eors	r6, r2
	str	r6, [sp, #52]                   @ 4-byte Spill
	eors	r3, r7
	str	r3, [sp, #96]                   @ 4-byte Spill
	str	r5, [sp, #100]                  @ 4-byte Spill
	mov	r5, r6
	ands	r5, r3
	ldr	r2, [sp, #108]                  @ 4-byte Reload
	eors	r5, r2
	eors	r5, r1
	eors	r5, r7
	eors	r5, r4
	mov	r1, r5
	ldr	r3, [sp, #148]                  @ 4-byte Reload
	eors	r1, r3
	str	r1, [sp, #112]                  @ 4-byte Spill
	ldr	r1, [sp, #104]                  @ 4-byte Reload
	mov	r2, r1
	ldr	r6, [sp, #68]                   @ 4-byte Reload
	ands	r2, r6
	ldr	r4, [sp, #124]                  @ 4-byte Reload
	ldr	r6, [sp, #132]                  @ 4-byte Reload
	eors	r4, r6
	str	r4, [sp, #48]                   @ 4-byte Spill
	mov	r6, r1
	ldr	r1, [sp, #116]                  @ 4-byte Reload
	eors	r6, r1
	str	r6, [sp, #92]                   @ 4-byte Spill
	mov	r7, r6
	ands	r7, r4
	eors	r7, r0
	eors	r7, r2
	ldr	r0, [sp, #136]                  @ 4-byte Reload
	eors	r7, r0
	mov	r4, r3
	ands	r4, r7
	ldr	r0, [sp, #100]                  @ 4-byte Reload
	ldr	r6, [sp, #120]                  @ 4-byte Reload
	eors	r0, r6
	str	r0, [sp, #100]                  @ 4-byte Spill
	ands	r0, r1
	ldr	r1, [sp, #132]                  @ 4-byte Reload
	eors	r0, r1
	ldr	r6, [sp, #152]                  @ 4-byte Reload
	eors	r0, r6
	eors	r0, r2
	ldr	r1, [sp, #84]                   @ 4-byte Reload
	eors	r0, r1
	mov	r6, r4
	eors	r6, r0
	ldr	r1, [sp, #112]                  @ 4-byte Reload
	ands	r6, r1
	mov	r1, r6
	eors	r1, r5
	eors	r6, r4
	ands	r6, r5
	eors	r3, r6
	str	r3, [sp, #148]                  @ 4-byte Spill
	eors	r3, r1
	str	r3, [sp, #84]                   @ 4-byte Spill
	eors	r7, r0
	mov	r2, r4
	eors	r2, r5
	eors	r6, r2
	ands	r2, r7
	eors	r2, r0
	ands	r6, r2
	eors	r6, r7
	mov	r4, r6
	eors	r4, r3
	mov	r0, r2
	str	r2, [sp, #112]                  @ 4-byte Spill
	str	r1, [sp, #56]                   @ 4-byte Spill
	eors	r2, r1
	str	r2, [sp, #136]                  @ 4-byte Spill
	mov	r3, r4
	eors	r3, r2
	str	r3, [sp, #72]                   @ 4-byte Spill
	ldr	r2, [sp, #76]                   @ 4-byte Reload
	ands	r2, r3
	ldr	r3, [sp, #120]                  @ 4-byte Reload
	ands	r3, r6
	mov	r5, r6
	eors	r5, r0
	ldr	r0, [sp, #108]                  @ 4-byte Reload
	ands	r0, r5
	str	r0, [sp, #108]                  @ 4-byte Spill
	eors	r3, r0
	str	r3, [sp, #120]                  @ 4-byte Spill
	eors	r2, r3
	ldr	r0, [sp, #152]                  @ 4-byte Reload
	ands	r0, r4
	ldr	r3, [sp, #116]                  @ 4-byte Reload
	ands	r3, r1
	ldr	r1, [sp, #104]                  @ 4-byte Reload
	ldr	r7, [sp, #148]                  @ 4-byte Reload
	ands	r1, r7
	str	r1, [sp, #104]                  @ 4-byte Spill
	eors	r3, r1
	str	r3, [sp, #116]                  @ 4-byte Spill
	eors	r0, r3
	ldr	r1, [sp, #88]                   @ 4-byte Reload
	ands	r5, r1
	str	r5, [sp, #88]                   @ 4-byte Spill
	eors	r0, r5
	eors	r0, r2
	str	r0, [sp, #152]                  @ 4-byte Spill
	ldr	r1, [sp, #96]                   @ 4-byte Reload
	ldr	r3, [sp, #112]                  @ 4-byte Reload
	ands	r1, r3
	eors	r1, r0
	str	r1, [sp, #96]                   @ 4-byte Spill
	ldr	r0, [sp, #128]                  @ 4-byte Reload
	ldr	r7, [sp, #136]                  @ 4-byte Reload
	ands	r0, r7
	eors	r0, r2
	mov	r2, r0
	str	r0, [sp, #128]                  @ 4-byte Spill
	ldr	r0, [sp, #132]                  @ 4-byte Reload
	ands	r4, r0
	ldr	r0, [sp, #80]                   @ 4-byte Reload
	ands	r7, r0
	eors	r4, r7
	eors	r4, r2
	eors	r4, r1
	movs	r0, #4
	str	r0, [sp, #76]                   @ 4-byte Spill
	mov	r5, r4
	rors	r5, r0
	ldr	r0, .Laes_v6m_CPI6_28
	ands	r5, r0
	mov	r3, r4
	ldr	r0, [sp, #144]                  @ 4-byte Reload
	rors	r3, r0
	ldr	r0, .Laes_v6m_CPI6_29
	ands	r3, r0
	orrs	r3, r5
	eors	r4, r3
	movs	r0, #16
	str	r0, [sp, #60]                   @ 4-byte Spill
	mov	r5, r4
	rors	r5, r0
	ldr	r1, [sp, #8]                    @ 4-byte Reload
	lsls	r0, r1, #5
	str	r0, [sp, #132]                  @ 4-byte Spill
	ldr	r1, [sp, #32]                   @ 4-byte Reload
	adds	r0, r1, r0
	str	r0, [sp, #80]                   @ 4-byte Spill
	ldr	r0, [r0, #20]
	eors	r0, r5
	eors	r0, r3
	str	r0, [sp, #136]                  @ 4-byte Spill
	ldr	r0, [sp, #92]                   @ 4-byte Reload
	ldr	r3, [sp, #84]                   @ 4-byte Reload
	ands	r0, r3
	ldr	r1, [sp, #104]                  @ 4-byte Reload
	eors	r0, r1
	ldr	r1, [sp, #120]                  @ 4-byte Reload
	eors	r0, r1
	ldr	r1, [sp, #64]                   @ 4-byte Reload
	ldr	r2, [sp, #72]                   @ 4-byte Reload
	ands	r2, r1
	eors	r2, r7
	str	r2, [sp, #72]                   @ 4-byte Spill
	ldr	r1, [sp, #48]                   @ 4-byte Reload
	ands	r3, r1
	eors	r3, r2
	str	r3, [sp, #84]                   @ 4-byte Spill
	ldr	r1, [sp, #148]                  @ 4-byte Reload
	ldr	r5, [sp, #68]                   @ 4-byte Reload
	ands	r1, r5
	eors	r1, r3
	str	r1, [sp, #148]                  @ 4-byte Spill
	eors	r0, r1
	str	r0, [sp, #92]                   @ 4-byte Spill
	mov	r3, r0
	ldr	r7, [sp, #76]                   @ 4-byte Reload
	rors	r3, r7
	ldr	r5, .Laes_v6m_CPI6_28
	ands	r3, r5
	mov	r2, r0
	ldr	r1, [sp, #144]                  @ 4-byte Reload
	rors	r2, r1
	ldr	r1, .Laes_v6m_CPI6_29
	ands	r2, r1
	orrs	r2, r3
	str	r2, [sp, #104]                  @ 4-byte Spill
	eors	r2, r0
	str	r2, [sp, #68]                   @ 4-byte Spill
	ldr	r1, [sp, #136]                  @ 4-byte Reload
	eors	r1, r2
	mov	r2, r0
	ldr	r0, [sp, #128]                  @ 4-byte Reload
	eors	r2, r0
	mov	r0, r2
	mov	r3, r2
	rors	r3, r7
	mov	r2, r7
	ands	r3, r5
	mov	r5, r0
	ldr	r7, [sp, #144]                  @ 4-byte Reload
	rors	r5, r7
	ldr	r7, .Laes_v6m_CPI6_29
	ands	r5, r7
	orrs	r5, r3
	eors	r0, r5
	str	r0, [sp, #48]                   @ 4-byte Spill
	mov	r3, r0
	ldr	r7, [sp, #60]                   @ 4-byte Reload
	rors	r3, r7
	ldr	r0, [sp, #80]                   @ 4-byte Reload
	ldr	r0, [r0, #24]
	eors	r0, r3
	eors	r0, r5
	eors	r0, r4
	str	r0, [sp, #120]                  @ 4-byte Spill
	eors	r1, r0
	str	r1, [sp, #136]                  @ 4-byte Spill
	ldr	r0, [sp, #52]                   @ 4-byte Reload
	ldr	r1, [sp, #112]                  @ 4-byte Reload
	ands	r1, r0
	ldr	r0, [sp, #116]                  @ 4-byte Reload
	eors	r1, r0
	ldr	r0, [sp, #108]                  @ 4-byte Reload
	eors	r1, r0
	str	r1, [sp, #112]                  @ 4-byte Spill
	ldr	r0, [sp, #124]                  @ 4-byte Reload
	ands	r6, r0
	eors	r6, r1
	ldr	r0, [sp, #72]                   @ 4-byte Reload
	eors	r6, r0
	ldr	r0, [sp, #88]                   @ 4-byte Reload
	eors	r0, r6
	mov	r1, r0
	mov	r4, r2
	rors	r1, r2
	ldr	r2, .Laes_v6m_CPI6_28
	ands	r1, r2
	mov	r2, r0
	ldr	r3, [sp, #144]                  @ 4-byte Reload
	rors	r2, r3
	ldr	r5, .Laes_v6m_CPI6_29
	ands	r2, r5
	orrs	r2, r1
	eors	r0, r2
	str	r0, [sp, #88]                   @ 4-byte Spill
	mov	r1, r0
	rors	r1, r7
	ldr	r5, [sp, #32]                   @ 4-byte Reload
	ldr	r0, [sp, #132]                  @ 4-byte Reload
	ldr	r0, [r5, r0]
	eors	r0, r1
	eors	r0, r2
	ldr	r7, [sp, #148]                  @ 4-byte Reload
	ldr	r1, [sp, #128]                  @ 4-byte Reload
	eors	r7, r1
	mov	r1, r7
	rors	r1, r4
	ldr	r2, .Laes_v6m_CPI6_28
	ands	r1, r2
	mov	r5, r7
	rors	r5, r3
	ldr	r2, .Laes_v6m_CPI6_29
	ands	r5, r2
	orrs	r5, r1
	eors	r7, r5
	str	r7, [sp, #148]                  @ 4-byte Spill
	eors	r0, r7
	str	r0, [sp, #132]                  @ 4-byte Spill
	ldr	r7, [sp, #136]                  @ 4-byte Reload
	eors	r7, r0
	ldr	r0, [sp, #152]                  @ 4-byte Reload
	eors	r6, r0
	mov	r1, r6
	rors	r1, r4
	ldr	r0, .Laes_v6m_CPI6_28
	ands	r1, r0
	mov	r2, r6
	rors	r2, r3
	ldr	r0, .Laes_v6m_CPI6_29
	ands	r2, r0
	orrs	r2, r1
	eors	r6, r2
	mov	r0, r6
	ldr	r4, [sp, #60]                   @ 4-byte Reload
	rors	r0, r4
	ldr	r3, [sp, #80]                   @ 4-byte Reload
	ldr	r1, [r3, #4]
	eors	r1, r0
	eors	r1, r2
	ldr	r0, [sp, #88]                   @ 4-byte Reload
	eors	r1, r0
	ldr	r2, [sp, #148]                  @ 4-byte Reload
	eors	r1, r2
	str	r7, [sp, #108]                  @ 4-byte Spill
	mov	r0, r7
	eors	r0, r1
	str	r0, [sp, #64]                   @ 4-byte Spill
	ands	r0, r7
	str	r0, [sp, #152]                  @ 4-byte Spill
	mov	r0, r2
	rors	r0, r4
	ldr	r2, [r3, #28]
	mov	r7, r3
	eors	r2, r0
	eors	r2, r5
	ldr	r0, [sp, #48]                   @ 4-byte Reload
	eors	r2, r0
	str	r2, [sp, #116]                  @ 4-byte Spill
	eors	r1, r2
	str	r1, [sp, #88]                   @ 4-byte Spill
	ldr	r5, [sp, #56]                   @ 4-byte Reload
	ldr	r0, [sp, #100]                  @ 4-byte Reload
	ands	r5, r0
	ldr	r0, [sp, #84]                   @ 4-byte Reload
	eors	r5, r0
	ldr	r0, [sp, #96]                   @ 4-byte Reload
	eors	r5, r0
	mov	r0, r5
	ldr	r1, [sp, #76]                   @ 4-byte Reload
	rors	r0, r1
	ldr	r1, .Laes_v6m_CPI6_28
	ands	r0, r1
	mov	r2, r5
	ldr	r3, [sp, #144]                  @ 4-byte Reload
	rors	r2, r3
	ldr	r1, .Laes_v6m_CPI6_29
	ands	r2, r1
	orrs	r2, r0
	eors	r5, r2
	mov	r0, r5
	rors	r0, r4
	mov	r1, r4
	mov	r4, r7
	ldr	r7, [r7, #8]
	eors	r7, r0
	eors	r7, r2
	eors	r7, r6
	ldr	r2, [sp, #68]                   @ 4-byte Reload
	rors	r2, r1
	ldr	r0, [r4, #16]
	eors	r0, r2
	ldr	r2, [sp, #104]                  @ 4-byte Reload
	eors	r0, r2
	ldr	r2, [sp, #148]                  @ 4-byte Reload
	eors	r0, r2
	mov	r4, r0
	ldr	r0, [sp, #92]                   @ 4-byte Reload
	ldr	r6, [sp, #112]                  @ 4-byte Reload
	eors	r6, r0
	mov	r2, r6
	ldr	r0, [sp, #76]                   @ 4-byte Reload
	rors	r2, r0
	ldr	r0, .Laes_v6m_CPI6_28
	ands	r2, r0
	mov	r0, r6
	rors	r0, r3
	ldr	r3, .Laes_v6m_CPI6_29
	ands	r0, r3
	orrs	r0, r2
	eors	r6, r0
	eors	r4, r6
	mov	r3, r4
	str	r4, [sp, #96]                   @ 4-byte Spill
	eors	r3, r7
	str	r3, [sp, #104]                  @ 4-byte Spill
	ldr	r2, [sp, #88]                   @ 4-byte Reload
	eors	r2, r3
	str	r2, [sp, #112]                  @ 4-byte Spill
	rors	r6, r1
	ldr	r1, [sp, #80]                   @ 4-byte Reload
	ldr	r3, [r1, #12]
	eors	r3, r6
	eors	r3, r5
	ldr	r5, [sp, #148]                  @ 4-byte Reload
	eors	r3, r5
	eors	r3, r0
	eors	r3, r2
	ldr	r0, [sp, #120]                  @ 4-byte Reload
	eors	r0, r3
	str	r0, [sp, #120]                  @ 4-byte Spill
	mov	r6, r3
	ldr	r1, [sp, #116]                  @ 4-byte Reload
	mov	r3, r1
	eors	r3, r4
	eors	r0, r3
	str	r0, [sp, #148]                  @ 4-byte Spill
	mov	r5, r3
	str	r3, [sp, #92]                   @ 4-byte Spill
	mov	r3, r0
	ldr	r2, [sp, #136]                  @ 4-byte Reload
	eors	r3, r2
	str	r3, [sp, #128]                  @ 4-byte Spill
	ldr	r4, [sp, #152]                  @ 4-byte Reload
	eors	r4, r3
	mov	r0, r3
	ldr	r3, [sp, #88]                   @ 4-byte Reload
	ands	r0, r3
	eors	r4, r0
	eors	r4, r3
	mov	r3, r4
	eors	r6, r7
	str	r6, [sp, #124]                  @ 4-byte Spill
	eors	r2, r6
	str	r2, [sp, #136]                  @ 4-byte Spill
	ldr	r6, [sp, #148]                  @ 4-byte Reload
	mov	r4, r6
	eors	r4, r2
	str	r4, [sp, #68]                   @ 4-byte Spill
	ldr	r2, [sp, #104]                  @ 4-byte Reload
	ands	r4, r2
	mov	r2, r6
	ands	r2, r5
	eors	r4, r2
	eors	r3, r4
	str	r3, [sp, #152]                  @ 4-byte Spill
	ldr	r3, [sp, #108]                  @ 4-byte Reload
	eors	r3, r1
	str	r3, [sp, #84]                   @ 4-byte Spill
	mov	r5, r6
	ldr	r6, [sp, #132]                  @ 4-byte Reload
	eors	r5, r6
	str	r5, [sp, #56]                   @ 4-byte Spill
	ands	r5, r3
	ldr	r3, [sp, #128]                  @ 4-byte Reload
	eors	r5, r3
	eors	r5, r0
	eors	r5, r1
	eors	r7, r1
	ldr	r6, [sp, #136]                  @ 4-byte Reload
	ands	r6, r7
	mov	r1, r7
	str	r7, [sp, #60]                   @ 4-byte Spill
	eors	r6, r2
	eors	r5, r6
	mov	r2, r5
	ldr	r0, [sp, #152]                  @ 4-byte Reload
	eors	r2, r0
	str	r2, [sp, #100]                  @ 4-byte Spill
	ldr	r2, [sp, #124]                  @ 4-byte Reload
	mov	r7, r2
	ldr	r0, [sp, #112]                  @ 4-byte Reload
	ands	r7, r0
	ldr	r0, [sp, #64]                   @ 4-byte Reload
	eors	r0, r1
	str	r0, [sp, #72]                   @ 4-byte Spill
	mov	r1, r2
	ldr	r3, [sp, #132]                  @ 4-byte Reload
	eors	r1, r3
	str	r1, [sp, #116]                  @ 4-byte Spill
	ands	r1, r0
	ldr	r0, [sp, #120]                  @ 4-byte Reload
	eors	r1, r0
	eors	r1, r7
	eors	r1, r4
	ldr	r4, [sp, #152]                  @ 4-byte Reload
	ands	r4, r1
	ldr	r0, [sp, #96]                   @ 4-byte Reload
	ldr	r2, [sp, #108]                  @ 4-byte Reload
	eors	r0, r2
	str	r0, [sp, #96]                   @ 4-byte Spill
	ands	r0, r3
	ldr	r2, [sp, #60]                   @ 4-byte Reload
	eors	r0, r2
	ldr	r2, [sp, #136]                  @ 4-byte Reload
	eors	r0, r2
	eors	r0, r7
	eors	r0, r6
	mov	r7, r4
	eors	r7, r0
	ldr	r2, [sp, #100]                  @ 4-byte Reload
	ands	r7, r2
	mov	r2, r7
	eors	r2, r5
	eors	r7, r4
	ands	r7, r5
	ldr	r3, [sp, #152]                  @ 4-byte Reload
	eors	r3, r7
	str	r3, [sp, #152]                  @ 4-byte Spill
	eors	r3, r2
	str	r2, [sp, #120]                  @ 4-byte Spill
	eors	r1, r0
	eors	r4, r5
	mov	r5, r4
	eors	r7, r4
	ands	r5, r1
	eors	r5, r0
	ands	r7, r5
	eors	r7, r1
	mov	r1, r7
	eors	r1, r3
	str	r1, [sp, #80]                   @ 4-byte Spill
	mov	r4, r5
	mov	r0, r5
	str	r5, [sp, #100]                  @ 4-byte Spill
	eors	r4, r2
	mov	r5, r1
	eors	r5, r4
	ldr	r2, [sp, #68]                   @ 4-byte Reload
	ands	r2, r5
	ldr	r1, [sp, #108]                  @ 4-byte Reload
	ands	r1, r7
	mov	r6, r7
	eors	r6, r0
	str	r6, [sp, #76]                   @ 4-byte Spill
	ldr	r0, [sp, #128]                  @ 4-byte Reload
	ands	r0, r6
	str	r0, [sp, #128]                  @ 4-byte Spill
	eors	r1, r0
	eors	r2, r1
	str	r2, [sp, #68]                   @ 4-byte Spill
	mov	r6, r1
	ldr	r0, [sp, #148]                  @ 4-byte Reload
	ands	r0, r4
	eors	r0, r2
	str	r0, [sp, #148]                  @ 4-byte Spill
	ldr	r0, [sp, #116]                  @ 4-byte Reload
	ands	r0, r3
	ldr	r2, [sp, #124]                  @ 4-byte Reload
	ldr	r1, [sp, #152]                  @ 4-byte Reload
	ands	r2, r1
	str	r2, [sp, #124]                  @ 4-byte Spill
	eors	r0, r2
	eors	r0, r6
	mov	r2, r0
	ldr	r0, [sp, #104]                  @ 4-byte Reload
	ands	r5, r0
	ldr	r0, [sp, #92]                   @ 4-byte Reload
	ands	r4, r0
	str	r4, [sp, #36]                   @ 4-byte Spill
	eors	r5, r4
	str	r5, [sp, #40]                   @ 4-byte Spill
	ldr	r0, [sp, #72]                   @ 4-byte Reload
	ands	r3, r0
	eors	r3, r5
	str	r3, [sp, #44]                   @ 4-byte Spill
	ldr	r0, [sp, #112]                  @ 4-byte Reload
	ands	r1, r0
	eors	r1, r3
	mov	r3, r2
	eors	r3, r1
	str	r3, [sp, #116]                  @ 4-byte Spill
	mov	r5, r1
	ldr	r6, [sp, #148]                  @ 4-byte Reload
	eors	r3, r6
	movs	r4, #6
	mov	r2, r3
	rors	r2, r4
	ldr	r1, .Laes_v6m_CPI6_30
	ands	r2, r1
	movs	r1, #14
	str	r1, [sp, #104]                  @ 4-byte Spill
	mov	r0, r3
	rors	r0, r1
	ldr	r1, .Laes_v6m_CPI6_31
	ands	r0, r1
	orrs	r0, r2
	str	r0, [sp, #52]                   @ 4-byte Spill
	eors	r3, r0
	mov	r2, r3
	str	r3, [sp, #48]                   @ 4-byte Spill
	mov	r0, r5
	eors	r0, r6
	mov	r5, r0
	rors	r5, r4
	ldr	r1, .Laes_v6m_CPI6_30
	ands	r5, r1
	mov	r1, r0
	ldr	r3, [sp, #104]                  @ 4-byte Reload
	rors	r1, r3
	ldr	r3, .Laes_v6m_CPI6_31
	ands	r1, r3
	orrs	r1, r5
	eors	r0, r1
	mov	r5, r0
	str	r0, [sp, #152]                  @ 4-byte Spill
	ldr	r3, [sp, #144]                  @ 4-byte Reload
	rors	r5, r3
	ldr	r3, .Laes_v6m_CPI6_28
	ands	r5, r3
	ldr	r3, [sp, #140]                  @ 4-byte Reload
	rors	r0, r3
	ldr	r3, .Laes_v6m_CPI6_29
	ands	r0, r3
	orrs	r0, r5
	ldr	r5, [sp, #16]                   @ 4-byte Reload
	lsls	r5, r5, #5
	str	r5, [sp, #92]                   @ 4-byte Spill
	ldr	r6, [sp, #32]                   @ 4-byte Reload
	adds	r3, r6, r5
	str	r3, [sp, #112]                  @ 4-byte Spill
	subs	r5, r3, #4
	ldr	r5, [r5]
	eors	r5, r0
	eors	r5, r1
	eors	r5, r2
	str	r5, [sp, #108]                  @ 4-byte Spill
	ldr	r0, [sp, #136]                  @ 4-byte Reload
	ldr	r3, [sp, #80]                   @ 4-byte Reload
	ands	r0, r3
	ldr	r1, [sp, #132]                  @ 4-byte Reload
	ldr	r2, [sp, #120]                  @ 4-byte Reload
	ands	r1, r2
	ldr	r2, [sp, #124]                  @ 4-byte Reload
	eors	r1, r2
	str	r1, [sp, #132]                  @ 4-byte Spill
	eors	r0, r1
	ldr	r1, [sp, #76]                   @ 4-byte Reload
	ldr	r2, [sp, #88]                   @ 4-byte Reload
	ands	r1, r2
	str	r1, [sp, #76]                   @ 4-byte Spill
	eors	r0, r1
	ldr	r1, [sp, #68]                   @ 4-byte Reload
	eors	r0, r1
	str	r0, [sp, #136]                  @ 4-byte Spill
	ldr	r1, [sp, #84]                   @ 4-byte Reload
	ldr	r2, [sp, #100]                  @ 4-byte Reload
	ands	r1, r2
	eors	r1, r0
	str	r1, [sp, #84]                   @ 4-byte Spill
	ldr	r0, [sp, #60]                   @ 4-byte Reload
	ands	r3, r0
	ldr	r0, [sp, #36]                   @ 4-byte Reload
	eors	r3, r0
	ldr	r0, [sp, #148]                  @ 4-byte Reload
	eors	r3, r0
	eors	r3, r1
	mov	r1, r3
	mov	r6, r3
	str	r4, [sp, #72]                   @ 4-byte Spill
	rors	r1, r4
	ldr	r0, .Laes_v6m_CPI6_30
	ands	r1, r0
	mov	r0, r3
	ldr	r5, [sp, #104]                  @ 4-byte Reload
	b	.Laes_v6m_BB6_30
	.p2align	2
@ %bb.28:
.Laes_v6m_CPI6_28:
	.long	4042322160                      @ 0xf0f0f0f0
	.p2align	2
@ %bb.29:
.Laes_v6m_CPI6_29:
	.long	252645135                       @ 0xf0f0f0f
	.p2align	1
.Laes_v6m_BB6_30:                               @ %then.11.i
	rors	r0, r5
	ldr	r2, .Laes_v6m_CPI6_31
	ands	r0, r2
	orrs	r0, r1
	eors	r6, r0
	str	r6, [sp, #80]                   @ 4-byte Spill
	mov	r1, r6
	ldr	r2, [sp, #144]                  @ 4-byte Reload
	rors	r1, r2
	ldr	r2, .Laes_v6m_CPI6_32
	ands	r1, r2
	mov	r3, r6
	ldr	r2, [sp, #140]                  @ 4-byte Reload
	rors	r3, r2
	ldr	r2, .Laes_v6m_CPI6_33
	ands	r3, r2
	orrs	r3, r1
	ldr	r1, [sp, #112]                  @ 4-byte Reload
	subs	r1, #12
	ldr	r6, [r1]
	eors	r6, r3
	eors	r6, r0
	ldr	r0, [sp, #116]                  @ 4-byte Reload
	mov	r1, r0
	rors	r1, r4
	ldr	r2, .Laes_v6m_CPI6_30
	ands	r1, r2
	mov	r3, r0
	rors	r3, r5
	mov	r2, r5
	ldr	r4, .Laes_v6m_CPI6_31
	ands	r3, r4
	orrs	r3, r1
	str	r3, [sp, #88]                   @ 4-byte Spill
	eors	r3, r0
	str	r3, [sp, #68]                   @ 4-byte Spill
	eors	r6, r3
	str	r6, [sp, #148]                  @ 4-byte Spill
	ldr	r0, [sp, #56]                   @ 4-byte Reload
	ldr	r1, [sp, #100]                  @ 4-byte Reload
	ands	r1, r0
	ldr	r0, [sp, #132]                  @ 4-byte Reload
	eors	r1, r0
	ldr	r0, [sp, #128]                  @ 4-byte Reload
	eors	r1, r0
	str	r1, [sp, #100]                  @ 4-byte Spill
	ldr	r0, [sp, #64]                   @ 4-byte Reload
	ands	r7, r0
	eors	r7, r1
	ldr	r0, [sp, #40]                   @ 4-byte Reload
	eors	r7, r0
	ldr	r4, [sp, #136]                  @ 4-byte Reload
	eors	r4, r7
	mov	r3, r4
	ldr	r5, [sp, #72]                   @ 4-byte Reload
	rors	r3, r5
	ldr	r0, .Laes_v6m_CPI6_30
	ands	r3, r0
	mov	r1, r4
	rors	r1, r2
	ldr	r0, .Laes_v6m_CPI6_31
	ands	r1, r0
	orrs	r1, r3
	eors	r4, r1
	ldr	r0, [sp, #120]                  @ 4-byte Reload
	ldr	r3, [sp, #96]                   @ 4-byte Reload
	ands	r0, r3
	ldr	r3, [sp, #44]                   @ 4-byte Reload
	eors	r0, r3
	ldr	r3, [sp, #84]                   @ 4-byte Reload
	eors	r0, r3
	mov	r6, r0
	rors	r6, r5
	ldr	r3, .Laes_v6m_CPI6_30
	ands	r6, r3
	mov	r3, r0
	rors	r3, r2
	ldr	r2, .Laes_v6m_CPI6_31
	ands	r3, r2
	orrs	r3, r6
	eors	r0, r3
	mov	r6, r0
	str	r0, [sp, #120]                  @ 4-byte Spill
	ldr	r5, [sp, #144]                  @ 4-byte Reload
	rors	r6, r5
	ldr	r2, .Laes_v6m_CPI6_32
	ands	r6, r2
	ldr	r2, [sp, #140]                  @ 4-byte Reload
	rors	r0, r2
	ldr	r2, .Laes_v6m_CPI6_33
	ands	r0, r2
	orrs	r0, r6
	ldr	r2, [sp, #112]                  @ 4-byte Reload
	mov	r6, r2
	subs	r6, #24
	ldr	r6, [r6]
	eors	r6, r0
	eors	r6, r3
	mov	r3, r4
	eors	r6, r4
	str	r6, [sp, #132]                  @ 4-byte Spill
	mov	r0, r4
	mov	r6, r5
	rors	r0, r5
	ldr	r4, .Laes_v6m_CPI6_32
	ands	r0, r4
	ldr	r5, [sp, #140]                  @ 4-byte Reload
	rors	r3, r5
	ldr	r4, .Laes_v6m_CPI6_33
	ands	r3, r4
	orrs	r3, r0
	subs	r2, #28
	ldr	r0, [r2]
	eors	r0, r3
	eors	r0, r1
	ldr	r1, [sp, #76]                   @ 4-byte Reload
	eors	r7, r1
	mov	r1, r7
	ldr	r2, [sp, #72]                   @ 4-byte Reload
	rors	r1, r2
	ldr	r2, .Laes_v6m_CPI6_30
	ands	r1, r2
	mov	r3, r7
	ldr	r2, [sp, #104]                  @ 4-byte Reload
	rors	r3, r2
	ldr	r2, .Laes_v6m_CPI6_31
	ands	r3, r2
	orrs	r3, r1
	eors	r7, r3
	eors	r0, r7
	ldr	r1, [sp, #152]                  @ 4-byte Reload
	eors	r0, r1
	str	r0, [sp, #124]                  @ 4-byte Spill
	ldr	r1, [sp, #48]                   @ 4-byte Reload
	mov	r0, r1
	rors	r0, r6
	ldr	r2, .Laes_v6m_CPI6_32
	ands	r0, r2
	rors	r1, r5
	mov	r4, r5
	ldr	r2, .Laes_v6m_CPI6_33
	ands	r1, r2
	orrs	r1, r0
	mov	r5, r1
	ldr	r2, [sp, #112]                  @ 4-byte Reload
	mov	r0, r2
	subs	r0, #8
	ldr	r1, [r0]
	eors	r1, r5
	ldr	r0, [sp, #52]                   @ 4-byte Reload
	eors	r1, r0
	ldr	r0, [sp, #80]                   @ 4-byte Reload
	eors	r1, r0
	str	r1, [sp, #96]                   @ 4-byte Spill
	mov	r0, r7
	mov	r5, r6
	rors	r0, r6
	ldr	r1, .Laes_v6m_CPI6_32
	ands	r0, r1
	rors	r7, r4
	mov	r1, r4
	ldr	r6, .Laes_v6m_CPI6_33
	ands	r7, r6
	orrs	r7, r0
	mov	r0, r2
	mov	r4, r2
	subs	r0, #32
	ldr	r0, [r0]
	eors	r0, r7
	eors	r0, r3
	ldr	r3, [sp, #152]                  @ 4-byte Reload
	eors	r0, r3
	str	r0, [sp, #128]                  @ 4-byte Spill
	ldr	r2, [sp, #68]                   @ 4-byte Reload
	mov	r0, r2
	mov	r7, r5
	rors	r0, r5
	ldr	r5, .Laes_v6m_CPI6_32
	ands	r0, r5
	rors	r2, r1
	mov	r5, r1
	ands	r2, r6
	orrs	r2, r0
	mov	r0, r4
	subs	r0, #16
	ldr	r6, [r0]
	eors	r6, r2
	ldr	r0, [sp, #88]                   @ 4-byte Reload
	eors	r6, r0
	eors	r6, r3
	ldr	r0, [sp, #116]                  @ 4-byte Reload
	ldr	r4, [sp, #100]                  @ 4-byte Reload
	eors	r4, r0
	mov	r2, r4
	ldr	r0, [sp, #72]                   @ 4-byte Reload
	rors	r2, r0
	ldr	r0, .Laes_v6m_CPI6_30
	ands	r2, r0
	mov	r0, r4
	ldr	r1, [sp, #104]                  @ 4-byte Reload
	rors	r0, r1
	ldr	r1, .Laes_v6m_CPI6_31
	ands	r0, r1
	orrs	r0, r2
	eors	r4, r0
	eors	r6, r4
	str	r6, [sp, #136]                  @ 4-byte Spill
	mov	r2, r4
	rors	r2, r7
	ldr	r1, .Laes_v6m_CPI6_32
	ands	r2, r1
	rors	r4, r5
	ldr	r1, .Laes_v6m_CPI6_33
	ands	r4, r1
	orrs	r4, r2
	ldr	r2, [sp, #112]                  @ 4-byte Reload
	subs	r2, #20
	ldr	r5, [r2]
	eors	r5, r4
	ldr	r2, [sp, #120]                  @ 4-byte Reload
	eors	r5, r2
	eors	r5, r3
	eors	r5, r0
	b	.Laes_v6m_BB6_36
	.p2align	2
@ %bb.31:
.Laes_v6m_CPI6_30:
	.long	4244438268                      @ 0xfcfcfcfc
	.p2align	2
@ %bb.32:
.Laes_v6m_CPI6_31:
	.long	50529027                        @ 0x3030303
	.p2align	2
@ %bb.33:
.Laes_v6m_CPI6_32:
	.long	4042322160                      @ 0xf0f0f0f0
	.p2align	2
@ %bb.34:
.Laes_v6m_CPI6_33:
	.long	252645135                       @ 0xf0f0f0f
	.p2align	1
.Laes_v6m_BB6_35:                               @ %else.12.i
	ldr	r7, [sp, #60]                   @ 4-byte Reload
	lsrs	r1, r7, #4
	eors	r1, r7
	ldr	r3, .Laes_v6m_CPI6_8
	ands	r1, r3
	movs	r4, #17
	muls	r1, r4, r1
	eors	r1, r7
	str	r1, [sp, #108]                  @ 4-byte Spill
	ldr	r6, [sp, #136]                  @ 4-byte Reload
	lsrs	r1, r6, #4
	eors	r1, r6
	ands	r1, r3
	muls	r1, r4, r1
	eors	r1, r6
	str	r1, [sp, #96]                   @ 4-byte Spill
	ldr	r6, [sp, #120]                  @ 4-byte Reload
	mov	r7, r5
	lsrs	r5, r6, #4
	eors	r5, r6
	ands	r5, r3
	muls	r5, r4, r5
	eors	r5, r6
	str	r5, [sp, #148]                  @ 4-byte Spill
	lsrs	r5, r7, #4
	eors	r5, r7
	ands	r5, r3
	muls	r5, r4, r5
	eors	r5, r7
	str	r5, [sp, #136]                  @ 4-byte Spill
	lsrs	r5, r0, #4
	eors	r5, r0
	ands	r5, r3
	muls	r5, r4, r5
	eors	r5, r0
	ldr	r6, [sp, #132]                  @ 4-byte Reload
	lsrs	r0, r6, #4
	eors	r0, r6
	ands	r0, r3
	muls	r0, r4, r0
	eors	r0, r6
	str	r0, [sp, #132]                  @ 4-byte Spill
	ldr	r0, [sp, #124]                  @ 4-byte Reload
	lsrs	r6, r0, #4
	eors	r6, r0
	ands	r6, r3
	muls	r6, r4, r6
	eors	r6, r0
	str	r6, [sp, #124]                  @ 4-byte Spill
	ldr	r0, [sp, #116]                  @ 4-byte Reload
	lsrs	r6, r0, #4
	eors	r6, r0
	ands	r6, r3
	muls	r6, r4, r6
	eors	r6, r0
	str	r6, [sp, #128]                  @ 4-byte Spill
	lsls	r0, r2, #5
	str	r0, [sp, #92]                   @ 4-byte Spill
.Laes_v6m_BB6_36:                               @ %"aes_soft::soft::ciphers::planes::EncryptPlaneCipher::process_planes::<#42add9d049d0c5fd>.exit"
	ldr	r4, [sp, #136]                  @ 4-byte Reload
	ldr	r1, [sp, #132]                  @ 4-byte Reload
	eors	r4, r1
	ldr	r7, [sp, #108]                  @ 4-byte Reload
	mov	r3, r7
	str	r7, [sp, #108]                  @ 4-byte Spill
	ldr	r0, [sp, #124]                  @ 4-byte Reload
	eors	r3, r0
	str	r3, [sp, #80]                   @ 4-byte Spill
	eors	r3, r4
	str	r4, [sp, #72]                   @ 4-byte Spill
	str	r3, [sp, #88]                   @ 4-byte Spill
	eors	r5, r3
	mov	r2, r5
	eors	r2, r1
	str	r2, [sp, #112]                  @ 4-byte Spill
	ldr	r1, [sp, #148]                  @ 4-byte Reload
	ldr	r0, [sp, #96]                   @ 4-byte Reload
	eors	r1, r0
	eors	r2, r1
	str	r2, [sp, #144]                  @ 4-byte Spill
	eors	r5, r0
	str	r5, [sp, #100]                  @ 4-byte Spill
	mov	r3, r7
	ldr	r0, [sp, #136]                  @ 4-byte Reload
	eors	r3, r0
	str	r3, [sp, #68]                   @ 4-byte Spill
	eors	r5, r3
	str	r5, [sp, #140]                  @ 4-byte Spill
	mov	r0, r5
	eors	r0, r2
	str	r0, [sp, #104]                  @ 4-byte Spill
	ands	r0, r4
	mov	r7, r5
	ands	r7, r3
	eors	r0, r7
	str	r0, [sp, #96]                   @ 4-byte Spill
	mov	r3, r5
	mov	r5, r1
	eors	r3, r1
	ldr	r1, [sp, #128]                  @ 4-byte Reload
	eors	r5, r1
	str	r1, [sp, #128]                  @ 4-byte Spill
	ldr	r6, [sp, #124]                  @ 4-byte Reload
	eors	r6, r5
	str	r6, [sp, #124]                  @ 4-byte Spill
	ands	r6, r5
	str	r5, [sp, #148]                  @ 4-byte Spill
	str	r3, [sp, #116]                  @ 4-byte Spill
	eors	r6, r3
	ldr	r2, [sp, #80]                   @ 4-byte Reload
	ands	r3, r2
	eors	r6, r3
	eors	r6, r2
	eors	r6, r0
	str	r6, [sp, #152]                  @ 4-byte Spill
	ldr	r2, [sp, #132]                  @ 4-byte Reload
	ldr	r0, [sp, #108]                  @ 4-byte Reload
	eors	r2, r0
	ldr	r4, [sp, #144]                  @ 4-byte Reload
	ands	r4, r2
	mov	r6, r2
	str	r2, [sp, #132]                  @ 4-byte Spill
	eors	r4, r7
	ldr	r2, [sp, #140]                  @ 4-byte Reload
	eors	r2, r1
	str	r2, [sp, #76]                   @ 4-byte Spill
	eors	r5, r0
	str	r5, [sp, #120]                  @ 4-byte Spill
	ands	r2, r5
	ldr	r1, [sp, #116]                  @ 4-byte Reload
	eors	r2, r1
	eors	r2, r3
	eors	r2, r0
	eors	r2, r4
	mov	r1, r2
	ldr	r0, [sp, #152]                  @ 4-byte Reload
	eors	r1, r0
	str	r1, [sp, #108]                  @ 4-byte Spill
	ldr	r7, [sp, #112]                  @ 4-byte Reload
	mov	r3, r7
	ldr	r1, [sp, #88]                   @ 4-byte Reload
	ands	r3, r1
	ldr	r1, [sp, #124]                  @ 4-byte Reload
	eors	r1, r6
	str	r1, [sp, #64]                   @ 4-byte Spill
	ldr	r5, [sp, #128]                  @ 4-byte Reload
	eors	r7, r5
	str	r7, [sp, #60]                   @ 4-byte Spill
	ands	r7, r1
	ldr	r1, [sp, #100]                  @ 4-byte Reload
	eors	r7, r1
	eors	r7, r3
	ldr	r1, [sp, #96]                   @ 4-byte Reload
	eors	r7, r1
	mov	r6, r0
	ands	r6, r7
	ldr	r0, [sp, #136]                  @ 4-byte Reload
	ldr	r1, [sp, #148]                  @ 4-byte Reload
	eors	r0, r1
	str	r0, [sp, #136]                  @ 4-byte Spill
	ands	r0, r5
	ldr	r1, [sp, #132]                  @ 4-byte Reload
	eors	r0, r1
	ldr	r1, [sp, #144]                  @ 4-byte Reload
	eors	r0, r1
	eors	r0, r3
	eors	r0, r4
	mov	r3, r6
	eors	r3, r0
	ldr	r1, [sp, #108]                  @ 4-byte Reload
	ands	r3, r1
	mov	r1, r3
	eors	r1, r2
	eors	r3, r6
	ands	r3, r2
	ldr	r4, [sp, #152]                  @ 4-byte Reload
	eors	r4, r3
	str	r4, [sp, #152]                  @ 4-byte Spill
	eors	r4, r1
	str	r4, [sp, #108]                  @ 4-byte Spill
	str	r1, [sp, #84]                   @ 4-byte Spill
	eors	r7, r0
	eors	r6, r2
	eors	r3, r6
	ands	r6, r7
	eors	r6, r0
	ands	r3, r6
	eors	r3, r7
	mov	r7, r3
	eors	r7, r4
	mov	r2, r6
	eors	r2, r1
	str	r2, [sp, #96]                   @ 4-byte Spill
	mov	r0, r7
	eors	r0, r2
	str	r0, [sp, #100]                  @ 4-byte Spill
	ldr	r2, [sp, #104]                  @ 4-byte Reload
	ands	r2, r0
	ldr	r1, [sp, #148]                  @ 4-byte Reload
	ands	r1, r3
	mov	r5, r3
	eors	r5, r6
	ldr	r0, [sp, #116]                  @ 4-byte Reload
	ands	r0, r5
	str	r0, [sp, #116]                  @ 4-byte Spill
	eors	r1, r0
	str	r1, [sp, #148]                  @ 4-byte Spill
	eors	r2, r1
	str	r2, [sp, #104]                  @ 4-byte Spill
	ldr	r4, [sp, #144]                  @ 4-byte Reload
	ands	r4, r7
	ldr	r2, [sp, #128]                  @ 4-byte Reload
	ldr	r0, [sp, #84]                   @ 4-byte Reload
	ands	r2, r0
	ldr	r1, [sp, #112]                  @ 4-byte Reload
	ldr	r0, [sp, #152]                  @ 4-byte Reload
	ands	r1, r0
	str	r1, [sp, #112]                  @ 4-byte Spill
	eors	r2, r1
	str	r2, [sp, #128]                  @ 4-byte Spill
	eors	r4, r2
	ldr	r0, [sp, #80]                   @ 4-byte Reload
	ands	r5, r0
	str	r5, [sp, #80]                   @ 4-byte Spill
	eors	r4, r5
	ldr	r1, [sp, #104]                  @ 4-byte Reload
	eors	r4, r1
	str	r4, [sp, #144]                  @ 4-byte Spill
	ldr	r0, [sp, #120]                  @ 4-byte Reload
	ands	r0, r6
	eors	r0, r4
	str	r0, [sp, #120]                  @ 4-byte Spill
	ldr	r2, [sp, #140]                  @ 4-byte Reload
	ldr	r5, [sp, #96]                   @ 4-byte Reload
	ands	r2, r5
	eors	r2, r1
	str	r2, [sp, #140]                  @ 4-byte Spill
	ldr	r0, [sp, #132]                  @ 4-byte Reload
	ands	r7, r0
	ldr	r0, [sp, #92]                   @ 4-byte Reload
	ldr	r1, [sp, #32]                   @ 4-byte Reload
	adds	r0, r1, r0
	str	r0, [sp, #56]                   @ 4-byte Spill
	ldr	r0, [r0, #20]
	eors	r0, r7
	ldr	r4, [sp, #68]                   @ 4-byte Reload
	ands	r5, r4
	str	r5, [sp, #96]                   @ 4-byte Spill
	eors	r0, r5
	eors	r0, r2
	ldr	r1, [sp, #120]                  @ 4-byte Reload
	eors	r0, r1
	str	r0, [sp, #132]                  @ 4-byte Spill
	ldr	r5, [sp, #60]                   @ 4-byte Reload
	ldr	r7, [sp, #108]                  @ 4-byte Reload
	ands	r5, r7
	ldr	r0, [sp, #112]                  @ 4-byte Reload
	eors	r5, r0
	ldr	r0, [sp, #148]                  @ 4-byte Reload
	eors	r5, r0
	ldr	r1, [sp, #72]                   @ 4-byte Reload
	ldr	r0, [sp, #100]                  @ 4-byte Reload
	ands	r0, r1
	ldr	r1, [sp, #96]                   @ 4-byte Reload
	eors	r0, r1
	str	r0, [sp, #100]                  @ 4-byte Spill
	ldr	r1, [sp, #64]                   @ 4-byte Reload
	ands	r7, r1
	eors	r7, r0
	str	r7, [sp, #108]                  @ 4-byte Spill
	ldr	r0, [sp, #88]                   @ 4-byte Reload
	ldr	r1, [sp, #152]                  @ 4-byte Reload
	ands	r1, r0
	eors	r1, r7
	str	r1, [sp, #152]                  @ 4-byte Spill
	eors	r5, r1
	ldr	r2, [sp, #56]                   @ 4-byte Reload
	ldr	r0, [r2, #16]
	eors	r0, r5
	str	r0, [sp, #148]                  @ 4-byte Spill
	lsrs	r1, r0, #1
	ldr	r0, [sp, #132]                  @ 4-byte Reload
	eors	r1, r0
	ldr	r7, .Laes_v6m_CPI6_0
	ands	r1, r7
	str	r1, [sp, #112]                  @ 4-byte Spill
	eors	r0, r1
	str	r0, [sp, #132]                  @ 4-byte Spill
	lsrs	r4, r0, #2
	mov	r7, r2
	ldr	r0, [r2, #24]
	ldr	r2, [sp, #140]                  @ 4-byte Reload
	eors	r0, r2
	eors	r0, r5
	str	r0, [sp, #104]                  @ 4-byte Spill
	lsrs	r1, r0, #1
	ldr	r0, [r7, #28]
	eors	r0, r2
	ldr	r2, [sp, #152]                  @ 4-byte Reload
	eors	r0, r2
	eors	r1, r0
	ldr	r2, .Laes_v6m_CPI6_0
	ands	r1, r2
	str	r1, [sp, #152]                  @ 4-byte Spill
	eors	r0, r1
	eors	r4, r0
	ldr	r2, .Laes_v6m_CPI6_1
	ands	r4, r2
	str	r4, [sp, #96]                   @ 4-byte Spill
	eors	r0, r4
	ldr	r2, [sp, #76]                   @ 4-byte Reload
	ands	r6, r2
	ldr	r1, [sp, #128]                  @ 4-byte Reload
	eors	r6, r1
	ldr	r1, [sp, #116]                  @ 4-byte Reload
	eors	r6, r1
	ldr	r2, [sp, #124]                  @ 4-byte Reload
	ands	r3, r2
	eors	r3, r6
	ldr	r1, [sp, #100]                  @ 4-byte Reload
	eors	r3, r1
	ldr	r4, [r7, #4]
	ldr	r1, [sp, #144]                  @ 4-byte Reload
	eors	r4, r1
	eors	r4, r3
	ldr	r1, [sp, #92]                   @ 4-byte Reload
	ldr	r2, [sp, #32]                   @ 4-byte Reload
	ldr	r2, [r2, r1]
	ldr	r1, [sp, #80]                   @ 4-byte Reload
	eors	r2, r1
	eors	r2, r3
	str	r2, [sp, #144]                  @ 4-byte Spill
	lsrs	r1, r2, #1
	eors	r1, r4
	ldr	r2, .Laes_v6m_CPI6_0
	ands	r1, r2
	str	r1, [sp, #140]                  @ 4-byte Spill
	eors	r4, r1
	lsrs	r1, r4, #2
	str	r1, [sp, #124]                  @ 4-byte Spill
	ldr	r2, [r7, #12]
	eors	r2, r6
	eors	r2, r5
	ldr	r1, [sp, #136]                  @ 4-byte Reload
	ldr	r3, [sp, #84]                   @ 4-byte Reload
	ands	r3, r1
	ldr	r6, [r7, #8]
	eors	r6, r3
	ldr	r1, [sp, #108]                  @ 4-byte Reload
	eors	r6, r1
	ldr	r1, [sp, #120]                  @ 4-byte Reload
	eors	r6, r1
	lsrs	r1, r6, #1
	eors	r1, r2
	ldr	r3, .Laes_v6m_CPI6_0
	ands	r1, r3
	str	r1, [sp, #128]                  @ 4-byte Spill
	eors	r2, r1
	ldr	r5, [sp, #124]                  @ 4-byte Reload
	eors	r5, r2
	ldr	r1, .Laes_v6m_CPI6_1
	ands	r5, r1
	eors	r2, r5
	lsrs	r3, r2, #4
	eors	r3, r0
	ldr	r1, .Laes_v6m_CPI6_2
	ands	r3, r1
	eors	r0, r3
	ldr	r1, [sp, #4]                    @ 4-byte Reload
	strb	r0, [r1, #28]
	lsrs	r7, r0, #24
	strb	r7, [r1, #31]
	lsrs	r7, r0, #16
	strb	r7, [r1, #30]
	lsrs	r0, r0, #8
	strb	r0, [r1, #29]
	ldr	r0, [sp, #96]                   @ 4-byte Reload
	lsls	r7, r0, #2
	ldr	r0, [sp, #132]                  @ 4-byte Reload
	eors	r7, r0
	lsls	r0, r5, #2
	eors	r0, r4
	str	r0, [sp, #136]                  @ 4-byte Spill
	lsrs	r0, r0, #4
	eors	r0, r7
	ldr	r4, .Laes_v6m_CPI6_2
	ands	r0, r4
	str	r0, [sp, #132]                  @ 4-byte Spill
	eors	r7, r0
	strb	r7, [r1, #24]
	lsls	r3, r3, #4
	eors	r3, r2
	strb	r3, [r1, #20]
	ldr	r0, [sp, #152]                  @ 4-byte Reload
	lsls	r5, r0, #1
	ldr	r2, [sp, #104]                  @ 4-byte Reload
	eors	r5, r2
	ldr	r2, [sp, #112]                  @ 4-byte Reload
	lsls	r0, r2, #1
	ldr	r2, [sp, #148]                  @ 4-byte Reload
	eors	r0, r2
	str	r0, [sp, #152]                  @ 4-byte Spill
	lsrs	r0, r0, #2
	eors	r0, r5
	ldr	r4, .Laes_v6m_CPI6_1
	ands	r0, r4
	str	r0, [sp, #124]                  @ 4-byte Spill
	eors	r5, r0
	ldr	r0, [sp, #128]                  @ 4-byte Reload
	lsls	r0, r0, #1
	eors	r0, r6
	ldr	r2, [sp, #140]                  @ 4-byte Reload
	lsls	r6, r2, #1
	ldr	r2, [sp, #144]                  @ 4-byte Reload
	eors	r6, r2
	str	r6, [sp, #144]                  @ 4-byte Spill
	lsrs	r2, r6, #2
	eors	r2, r0
	ands	r2, r4
	eors	r0, r2
	str	r0, [sp, #148]                  @ 4-byte Spill
	lsrs	r0, r0, #4
	eors	r0, r5
	ldr	r4, .Laes_v6m_CPI6_2
	ands	r0, r4
	str	r0, [sp, #140]                  @ 4-byte Spill
	eors	r5, r0
	strb	r5, [r1, #12]
	lsrs	r4, r7, #24
	strb	r4, [r1, #27]
	lsrs	r4, r7, #16
	strb	r4, [r1, #26]
	lsrs	r4, r7, #8
	strb	r4, [r1, #25]
	lsrs	r4, r3, #24
	strb	r4, [r1, #23]
	lsrs	r4, r3, #16
	strb	r4, [r1, #22]
	lsrs	r3, r3, #8
	strb	r3, [r1, #21]
	ldr	r0, [sp, #132]                  @ 4-byte Reload
	lsls	r3, r0, #4
	ldr	r4, [sp, #136]                  @ 4-byte Reload
	eors	r3, r4
	strb	r3, [r1, #16]
	lsrs	r4, r5, #24
	strb	r4, [r1, #15]
	lsrs	r4, r5, #16
	strb	r4, [r1, #14]
	lsrs	r0, r5, #8
	strb	r0, [r1, #13]
	ldr	r0, [sp, #124]                  @ 4-byte Reload
	lsls	r6, r0, #2
	ldr	r0, [sp, #152]                  @ 4-byte Reload
	eors	r6, r0
	lsls	r0, r2, #2
	ldr	r2, [sp, #144]                  @ 4-byte Reload
	eors	r0, r2
	lsrs	r7, r0, #4
	eors	r7, r6
	ldr	r2, .Laes_v6m_CPI6_2
	ands	r7, r2
	eors	r6, r7
	strb	r6, [r1, #8]
	ldr	r2, [sp, #140]                  @ 4-byte Reload
	lsls	r4, r2, #4
	ldr	r2, [sp, #148]                  @ 4-byte Reload
	eors	r4, r2
	strb	r4, [r1, #4]
	lsrs	r2, r3, #24
	strb	r2, [r1, #19]
	lsrs	r2, r3, #16
	strb	r2, [r1, #18]
	lsrs	r2, r3, #8
	strb	r2, [r1, #17]
	lsrs	r2, r6, #24
	strb	r2, [r1, #11]
	lsrs	r2, r6, #16
	strb	r2, [r1, #10]
	lsrs	r2, r6, #8
	strb	r2, [r1, #9]
	lsrs	r2, r4, #24
	strb	r2, [r1, #7]
	lsrs	r2, r4, #16
	strb	r2, [r1, #6]
	lsrs	r2, r4, #8
	strb	r2, [r1, #5]
	lsls	r2, r7, #4
	eors	r2, r0
	strb	r2, [r1]
	lsrs	r0, r2, #24
	strb	r0, [r1, #3]
	lsrs	r0, r2, #16
	strb	r0, [r1, #2]
	lsrs	r0, r2, #8
	strb	r0, [r1, #1]
	add	sp, #156
	pop	{r4, r5, r6, r7, pc}
	.p2align	2
@ %bb.37:
.Laes_v6m_CPI6_0:
	.long	1431655765                      @ 0x55555555
.Laes_v6m_CPI6_1:
	.long	858993459                       @ 0x33333333
.Laes_v6m_CPI6_2:
	.long	252645135                       @ 0xf0f0f0f
.Laes_v6m_CPI6_8:
	.long	251662080                       @ 0xf000f00
.Laes_v6m_func_end6:
	.size	aes_v6m.aes_soft.soft.ciphers.planes.process_outlined.1, .Laes_v6m_func_end6-aes_v6m.aes_soft.soft.ciphers.planes.process_outlined.1
	.cantunwind
	.fnend
                                        @ -- End function
	.section	.text.aes_v6m.aes_cipher.zeroize.stack.wipe_stack.1024,"ax",%progbits
	.p2align	1                               @ -- Begin function aes_cipher::zeroize::stack::wipe_stack::<=1024>
	.type	aes_v6m.aes_cipher.zeroize.stack.wipe_stack.1024,%function
	.code	16
	.thumb_func
aes_v6m.aes_cipher.zeroize.stack.wipe_stack.1024: @ @aes_v6m.aes_cipher.zeroize.stack.wipe_stack.1024
	.fnstart
@ %bb.0:                                @ %start
	.save	{r4, r5, r6, lr}
	push	{r4, r5, r6, lr}
	.pad	#508
	sub	sp, #508
	.pad	#508
	sub	sp, #508
	.pad	#16
	sub	sp, #16
	movs	r0, #1
	lsls	r2, r0, #10
	add	r0, sp, #8
	movs	r4, #0
	mov	r1, r4
	bl	memset
	str	r4, [sp, #4]
	str	r4, [sp]
	@APP
	@NO_APP
	ldr	r0, [sp]
	lsrs	r1, r0, #10
	ldr	r2, [sp, #4]
	orrs	r2, r1
	@APP
	@NO_APP
	bne	.Laes_v6m_BB7_2
@ %bb.1:                                @ %then.1
	add	r1, sp, #8
	ldrb	r0, [r1, r0]
	@APP
	@NO_APP
	ldr	r1, [sp, #4]
	ldr	r1, [sp]
	str	r4, [sp, #4]
	str	r0, [sp]
	@APP
	@NO_APP
.Laes_v6m_BB7_2:                                @ %common.ret
	add	sp, #508
	add	sp, #508
	add	sp, #16
	pop	{r4, r5, r6, pc}
.Laes_v6m_func_end7:
	.size	aes_v6m.aes_cipher.zeroize.stack.wipe_stack.1024, .Laes_v6m_func_end7-aes_v6m.aes_cipher.zeroize.stack.wipe_stack.1024
	.cantunwind
	.fnend
                                        @ -- End function
	.section	.text.aes_v6m.aes_narrow.borrowed_words.call_to_encrypt,"ax",%progbits
	.p2align	1                               @ -- Begin function aes_narrow::borrowed_words::call_to_encrypt::<#b6a72634b88802f3>
	.type	aes_v6m.aes_narrow.borrowed_words.call_to_encrypt,%function
	.code	16
	.thumb_func
aes_v6m.aes_narrow.borrowed_words.call_to_encrypt: @ @aes_v6m.aes_narrow.borrowed_words.call_to_encrypt
	.fnstart
@ %bb.0:                                @ %start
	.save	{r4, r5, r6, r7, lr}
	push	{r4, r5, r6, r7, lr}
	.pad	#468
	sub	sp, #468
	str	r3, [sp, #44]                   @ 4-byte Spill
	str	r3, [sp, #204]
	str	r2, [sp, #40]                   @ 4-byte Spill
	str	r2, [sp, #200]
	movs	r6, #0
	str	r6, [sp, #196]
	str	r0, [sp, #36]                   @ 4-byte Spill
	str	r0, [sp, #192]
	ldr	r0, [sp, #488]
	ldr	r1, [r0, #24]
	str	r1, [sp, #172]                  @ 4-byte Spill
	ldr	r5, [r0, #28]
	ldr	r7, [r0, #8]
	ldr	r3, [r0, #12]
	ldr	r2, [r0, #16]
	ldr	r1, [r0]
	str	r7, [sp, #168]                  @ 4-byte Spill
	lsls	r0, r7, #28
	str	r3, [sp, #48]                   @ 4-byte Spill
	str	r2, [sp, #180]                  @ 4-byte Spill
	str	r1, [sp, #164]                  @ 4-byte Spill
	beq	.Laes_v6m_BB8_2
@ %bb.1:                                @ %then.1.i.i
	movs	r0, #0
	str	r0, [sp]
	str	r0, [sp, #4]
	str	r2, [sp, #8]
	ldr	r0, [sp, #172]                  @ 4-byte Reload
	str	r0, [sp, #16]
	str	r5, [sp, #20]
	add	r0, sp, #192
	ldr	r2, [sp, #168]                  @ 4-byte Reload
	bl	aes_v6m.aes_ctr.add_in_batches.add_next
	b	.Laes_v6m_BB8_3
.Laes_v6m_BB8_2:
	mov	r0, r6
	mov	r1, r6
.Laes_v6m_BB8_3:                                @ %join.3.i.i
	str	r0, [sp, #184]                  @ 4-byte Spill
	ldr	r2, [sp, #172]                  @ 4-byte Reload
	subs	r0, r2, r0
	mov	r2, r5
	mov	r7, r1
	sbcs	r2, r1
	subs	r0, #32
	sbcs	r2, r6
	bhs	.Laes_v6m_BB8_4
	b	.Laes_v6m_BB8_6
.Laes_v6m_BB8_4:                                @ %join.11.lr.ph.i.i
	add	r0, sp, #212
	adds	r0, #32
	str	r0, [sp, #28]                   @ 4-byte Spill
	ldr	r4, [sp, #48]                   @ 4-byte Reload
	ldr	r6, [sp, #184]                  @ 4-byte Reload
	str	r5, [sp, #32]                   @ 4-byte Spill
.Laes_v6m_BB8_5:                                @ %join.11.i.i
                                        @ =>This Inner Loop Header: Depth=1
	movs	r1, #0
	str	r1, [sp, #188]                  @ 4-byte Spill
	movs	r2, #224
	ldr	r0, [sp, #28]                   @ 4-byte Reload
	bl	memset
	ldr	r0, [sp, #168]                  @ 4-byte Reload
	str	r6, [sp, #184]                  @ 4-byte Spill
	adds	r0, r6, r0
	str	r7, [sp, #160]                  @ 4-byte Spill
	mov	r2, r7
	adcs	r2, r4
	lsrs	r0, r0, #4
	lsls	r1, r2, #28
	adds	r3, r0, r1
	ldr	r7, [sp, #164]                  @ 4-byte Reload
	ldrb	r0, [r7]
	lsls	r0, r0, #24
	ldrb	r1, [r7, #1]
	lsls	r1, r1, #16
	adds	r0, r1, r0
	ldrb	r1, [r7, #2]
	lsls	r1, r1, #8
	adds	r0, r0, r1
	ldrb	r1, [r7, #3]
	adds	r0, r0, r1
	str	r0, [sp, #156]                  @ 4-byte Spill
	ldrb	r1, [r7, #5]
	lsls	r1, r1, #16
	ldrb	r4, [r7, #4]
	lsls	r4, r4, #24
	adds	r1, r4, r1
	ldrb	r4, [r7, #6]
	lsls	r4, r4, #8
	adds	r1, r1, r4
	ldrb	r4, [r7, #7]
	adds	r1, r1, r4
	ldrb	r4, [r7, #8]
	lsls	r4, r4, #24
	ldrb	r5, [r7, #9]
	lsls	r5, r5, #16
	adds	r4, r5, r4
	ldrb	r5, [r7, #10]
	lsls	r5, r5, #8
	adds	r4, r4, r5
	ldrb	r5, [r7, #11]
	adds	r4, r4, r5
	lsrs	r2, r2, #4
	ldrb	r5, [r7, #13]
	lsls	r5, r5, #16
	ldrb	r6, [r7, #12]
	lsls	r6, r6, #24
	adds	r5, r6, r5
	ldrb	r6, [r7, #14]
	lsls	r6, r6, #8
	adds	r5, r5, r6
	ldrb	r6, [r7, #15]
	adds	r6, r5, r6
	add	r5, sp, #212
	adds	r3, r3, r6
	strb	r3, [r5, #15]
	adcs	r2, r4
	ldr	r0, [sp, #188]                  @ 4-byte Reload
	adcs	r1, r0
	str	r1, [sp, #176]                  @ 4-byte Spill
	ldr	r7, [sp, #156]                  @ 4-byte Reload
	adcs	r7, r0
	lsrs	r0, r2, #8
	str	r0, [sp, #156]                  @ 4-byte Spill
	lsrs	r6, r3, #24
	lsrs	r4, r3, #16
	lsrs	r0, r3, #8
	adds	r1, r3, #1
	strb	r1, [r5, #31]
	strb	r0, [r5, #14]
	strb	r4, [r5, #13]
	strb	r6, [r5, #12]
	strb	r2, [r5, #11]
	mov	r6, r2
	ldr	r0, [sp, #188]                  @ 4-byte Reload
	adcs	r6, r0
	strb	r6, [r5, #27]
	ldr	r3, [sp, #156]                  @ 4-byte Reload
	strb	r3, [r5, #10]
	ldr	r4, [sp, #176]                  @ 4-byte Reload
	strb	r4, [r5, #7]
	adcs	r4, r0
	strb	r4, [r5, #23]
	mov	r3, r7
	strb	r7, [r5, #3]
	adcs	r7, r0
	lsrs	r0, r1, #24
	strb	r0, [r5, #28]
	lsrs	r0, r2, #16
	strb	r0, [r5, #9]
	lsrs	r0, r1, #16
	strb	r0, [r5, #29]
	lsrs	r0, r2, #24
	strb	r0, [r5, #8]
	lsrs	r0, r1, #8
	strb	r0, [r5, #30]
	ldr	r1, [sp, #176]                  @ 4-byte Reload
	lsrs	r0, r1, #8
	strb	r0, [r5, #6]
	lsrs	r0, r6, #24
	strb	r0, [r5, #24]
	lsrs	r0, r1, #16
	strb	r0, [r5, #5]
	lsrs	r0, r6, #16
	strb	r0, [r5, #25]
	lsrs	r0, r1, #24
	strb	r0, [r5, #4]
	lsrs	r0, r6, #8
	strb	r0, [r5, #26]
	lsrs	r0, r4, #24
	strb	r0, [r5, #20]
	lsrs	r0, r4, #16
	strb	r0, [r5, #21]
	lsrs	r0, r4, #8
	strb	r0, [r5, #22]
	strb	r7, [r5, #19]
	lsrs	r0, r3, #8
	strb	r0, [r5, #2]
	lsrs	r0, r3, #16
	strb	r0, [r5, #1]
	lsrs	r0, r3, #24
	strb	r0, [r5]
	lsrs	r0, r7, #8
	strb	r0, [r5, #18]
	lsrs	r0, r7, #16
	strb	r0, [r5, #17]
	lsrs	r0, r7, #24
	strb	r0, [r5, #16]
	movs	r0, #2
	str	r0, [sp, #8]
	ldr	r0, [sp, #188]                  @ 4-byte Reload
	str	r0, [sp, #12]
	str	r5, [sp]
	add	r3, sp, #36
	ldm	r3, {r0, r2, r3}                @ 12-byte Folded Reload
	bl	aes_v6m.aes_soft.soft.blocks.filled_up.process_filled_up.1
	ldr	r3, [sp, #180]                  @ 4-byte Reload
	ldr	r1, [sp, #184]                  @ 4-byte Reload
	adds	r0, r3, r1
	ldrb	r2, [r0, #1]
	str	r2, [sp, #176]                  @ 4-byte Spill
	ldrb	r2, [r0, #2]
	str	r2, [sp, #156]                  @ 4-byte Spill
	ldrb	r2, [r0, #3]
	str	r2, [sp, #152]                  @ 4-byte Spill
	ldrb	r2, [r0, #4]
	str	r2, [sp, #148]                  @ 4-byte Spill
	ldrb	r2, [r0, #5]
	str	r2, [sp, #144]                  @ 4-byte Spill
	ldrb	r2, [r0, #6]
	str	r2, [sp, #136]                  @ 4-byte Spill
	ldrb	r2, [r0, #7]
	str	r2, [sp, #128]                  @ 4-byte Spill
	ldrb	r2, [r0, #8]
	str	r2, [sp, #120]                  @ 4-byte Spill
	ldrb	r2, [r0, #9]
	str	r2, [sp, #116]                  @ 4-byte Spill
	ldrb	r2, [r0, #10]
	str	r2, [sp, #108]                  @ 4-byte Spill
	ldrb	r2, [r0, #11]
	str	r2, [sp, #100]                  @ 4-byte Spill
	ldrb	r2, [r0, #12]
	str	r2, [sp, #88]                   @ 4-byte Spill
	ldrb	r2, [r0, #13]
	str	r2, [sp, #84]                   @ 4-byte Spill
	ldrb	r2, [r0, #14]
	str	r2, [sp, #76]                   @ 4-byte Spill
	ldrb	r2, [r0, #15]
	str	r2, [sp, #64]                   @ 4-byte Spill
	ldrb	r1, [r3, r1]
	ldr	r2, [sp, #212]
	eors	r2, r1
	str	r2, [sp, #56]                   @ 4-byte Spill
	ldrb	r1, [r5, #1]
	str	r1, [sp, #140]                  @ 4-byte Spill
	ldrb	r1, [r5, #2]
	str	r1, [sp, #132]                  @ 4-byte Spill
	ldrb	r1, [r5, #3]
	str	r1, [sp, #124]                  @ 4-byte Spill
	ldrb	r1, [r5, #5]
	str	r1, [sp, #112]                  @ 4-byte Spill
	ldrb	r1, [r5, #6]
	str	r1, [sp, #104]                  @ 4-byte Spill
	ldrb	r1, [r5, #7]
	str	r1, [sp, #92]                   @ 4-byte Spill
	ldrb	r1, [r5, #9]
	str	r1, [sp, #80]                   @ 4-byte Spill
	ldrb	r1, [r5, #10]
	str	r1, [sp, #72]                   @ 4-byte Spill
	ldrb	r1, [r5, #11]
	str	r1, [sp, #60]                   @ 4-byte Spill
	ldrb	r1, [r5, #13]
	str	r1, [sp, #52]                   @ 4-byte Spill
	ldrb	r2, [r5, #14]
	ldrb	r1, [r5, #15]
	ldr	r3, [sp, #216]
	str	r3, [sp, #96]                   @ 4-byte Spill
	ldr	r3, [sp, #220]
	str	r3, [sp, #68]                   @ 4-byte Spill
	ldr	r3, [sp, #224]
	ldr	r7, [sp, #184]                  @ 4-byte Reload
	ldr	r6, [sp, #180]                  @ 4-byte Reload
	ldr	r4, [sp, #56]                   @ 4-byte Reload
	strb	r4, [r6, r7]
	ldr	r6, [sp, #64]                   @ 4-byte Reload
	eors	r1, r6
	strb	r1, [r0, #15]
	ldr	r1, [sp, #76]                   @ 4-byte Reload
	eors	r2, r1
	strb	r2, [r0, #14]
	ldr	r1, [sp, #84]                   @ 4-byte Reload
	ldr	r2, [sp, #52]                   @ 4-byte Reload
	eors	r2, r1
	strb	r2, [r0, #13]
	ldr	r1, [sp, #88]                   @ 4-byte Reload
	eors	r3, r1
	strb	r3, [r0, #12]
	ldr	r1, [sp, #100]                  @ 4-byte Reload
	ldr	r2, [sp, #60]                   @ 4-byte Reload
	eors	r2, r1
	strb	r2, [r0, #11]
	ldr	r1, [sp, #108]                  @ 4-byte Reload
	ldr	r2, [sp, #72]                   @ 4-byte Reload
	eors	r2, r1
	strb	r2, [r0, #10]
	ldr	r1, [sp, #116]                  @ 4-byte Reload
	ldr	r2, [sp, #80]                   @ 4-byte Reload
	eors	r2, r1
	strb	r2, [r0, #9]
	ldr	r1, [sp, #120]                  @ 4-byte Reload
	ldr	r2, [sp, #68]                   @ 4-byte Reload
	eors	r2, r1
	strb	r2, [r0, #8]
	ldr	r1, [sp, #128]                  @ 4-byte Reload
	ldr	r2, [sp, #92]                   @ 4-byte Reload
	eors	r2, r1
	strb	r2, [r0, #7]
	ldr	r1, [sp, #136]                  @ 4-byte Reload
	ldr	r2, [sp, #104]                  @ 4-byte Reload
	eors	r2, r1
	strb	r2, [r0, #6]
	ldr	r1, [sp, #144]                  @ 4-byte Reload
	ldr	r2, [sp, #112]                  @ 4-byte Reload
	eors	r2, r1
	strb	r2, [r0, #5]
	ldr	r1, [sp, #148]                  @ 4-byte Reload
	ldr	r2, [sp, #96]                   @ 4-byte Reload
	eors	r2, r1
	strb	r2, [r0, #4]
	ldr	r1, [sp, #152]                  @ 4-byte Reload
	ldr	r2, [sp, #124]                  @ 4-byte Reload
	eors	r2, r1
	strb	r2, [r0, #3]
	ldr	r1, [sp, #156]                  @ 4-byte Reload
	ldr	r2, [sp, #132]                  @ 4-byte Reload
	eors	r2, r1
	strb	r2, [r0, #2]
	ldr	r1, [sp, #176]                  @ 4-byte Reload
	ldr	r2, [sp, #140]                  @ 4-byte Reload
	eors	r2, r1
	strb	r2, [r0, #1]
	ldrb	r1, [r0, #16]
	str	r1, [sp, #176]                  @ 4-byte Spill
	ldrb	r1, [r0, #17]
	str	r1, [sp, #156]                  @ 4-byte Spill
	ldrb	r1, [r0, #18]
	str	r1, [sp, #152]                  @ 4-byte Spill
	ldrb	r1, [r0, #19]
	str	r1, [sp, #148]                  @ 4-byte Spill
	ldrb	r1, [r0, #20]
	str	r1, [sp, #144]                  @ 4-byte Spill
	ldrb	r1, [r0, #21]
	str	r1, [sp, #140]                  @ 4-byte Spill
	ldrb	r1, [r0, #22]
	str	r1, [sp, #132]                  @ 4-byte Spill
	ldrb	r1, [r0, #23]
	str	r1, [sp, #124]                  @ 4-byte Spill
	ldrb	r1, [r0, #24]
	str	r1, [sp, #112]                  @ 4-byte Spill
	ldrb	r1, [r0, #25]
	str	r1, [sp, #108]                  @ 4-byte Spill
	ldrb	r1, [r0, #26]
	str	r1, [sp, #100]                  @ 4-byte Spill
	ldrb	r1, [r0, #27]
	str	r1, [sp, #88]                   @ 4-byte Spill
	ldrb	r1, [r0, #28]
	str	r1, [sp, #80]                   @ 4-byte Spill
	ldrb	r1, [r0, #29]
	str	r1, [sp, #76]                   @ 4-byte Spill
	ldrb	r1, [r0, #30]
	str	r1, [sp, #68]                   @ 4-byte Spill
	ldrb	r1, [r0, #31]
	ldrb	r4, [r5, #31]
	eors	r4, r1
	ldrb	r1, [r5, #17]
	str	r1, [sp, #136]                  @ 4-byte Spill
	ldrb	r1, [r5, #18]
	str	r1, [sp, #128]                  @ 4-byte Spill
	ldrb	r1, [r5, #19]
	str	r1, [sp, #120]                  @ 4-byte Spill
	ldrb	r1, [r5, #21]
	str	r1, [sp, #104]                  @ 4-byte Spill
	ldrb	r1, [r5, #22]
	str	r1, [sp, #96]                   @ 4-byte Spill
	ldrb	r1, [r5, #23]
	str	r1, [sp, #84]                   @ 4-byte Spill
	ldrb	r1, [r5, #25]
	str	r1, [sp, #72]                   @ 4-byte Spill
	ldrb	r7, [r5, #26]
	ldrb	r6, [r5, #27]
	ldrb	r3, [r5, #29]
	ldrb	r1, [r5, #30]
	ldr	r2, [sp, #228]
	str	r2, [sp, #116]                  @ 4-byte Spill
	ldr	r2, [sp, #232]
	str	r2, [sp, #92]                   @ 4-byte Spill
	ldr	r5, [sp, #236]
	ldr	r2, [sp, #240]
	strb	r4, [r0, #31]
	ldr	r4, [sp, #68]                   @ 4-byte Reload
	eors	r1, r4
	strb	r1, [r0, #30]
	ldr	r1, [sp, #76]                   @ 4-byte Reload
	eors	r3, r1
	strb	r3, [r0, #29]
	ldr	r1, [sp, #80]                   @ 4-byte Reload
	eors	r2, r1
	strb	r2, [r0, #28]
	ldr	r1, [sp, #88]                   @ 4-byte Reload
	eors	r6, r1
	strb	r6, [r0, #27]
	ldr	r1, [sp, #32]                   @ 4-byte Reload
	ldr	r2, [sp, #100]                  @ 4-byte Reload
	eors	r7, r2
	strb	r7, [r0, #26]
	ldr	r2, [sp, #108]                  @ 4-byte Reload
	ldr	r3, [sp, #72]                   @ 4-byte Reload
	eors	r3, r2
	strb	r3, [r0, #25]
	ldr	r2, [sp, #112]                  @ 4-byte Reload
	eors	r5, r2
	strb	r5, [r0, #24]
	ldr	r2, [sp, #124]                  @ 4-byte Reload
	ldr	r3, [sp, #84]                   @ 4-byte Reload
	eors	r3, r2
	strb	r3, [r0, #23]
	ldr	r2, [sp, #132]                  @ 4-byte Reload
	ldr	r3, [sp, #96]                   @ 4-byte Reload
	eors	r3, r2
	strb	r3, [r0, #22]
	ldr	r2, [sp, #140]                  @ 4-byte Reload
	ldr	r3, [sp, #104]                  @ 4-byte Reload
	eors	r3, r2
	strb	r3, [r0, #21]
	ldr	r2, [sp, #144]                  @ 4-byte Reload
	ldr	r3, [sp, #92]                   @ 4-byte Reload
	eors	r3, r2
	strb	r3, [r0, #20]
	ldr	r2, [sp, #148]                  @ 4-byte Reload
	ldr	r3, [sp, #120]                  @ 4-byte Reload
	eors	r3, r2
	strb	r3, [r0, #19]
	ldr	r2, [sp, #152]                  @ 4-byte Reload
	ldr	r3, [sp, #128]                  @ 4-byte Reload
	eors	r3, r2
	strb	r3, [r0, #18]
	ldr	r2, [sp, #156]                  @ 4-byte Reload
	ldr	r3, [sp, #136]                  @ 4-byte Reload
	eors	r3, r2
	strb	r3, [r0, #17]
	ldr	r2, [sp, #176]                  @ 4-byte Reload
	ldr	r3, [sp, #116]                  @ 4-byte Reload
	eors	r3, r2
	strb	r3, [r0, #16]
	ldr	r0, [sp, #184]                  @ 4-byte Reload
	adds	r0, #32
	ldr	r3, [sp, #160]                  @ 4-byte Reload
	ldr	r4, [sp, #188]                  @ 4-byte Reload
	adcs	r3, r4
	mov	r6, r0
	ldr	r2, [sp, #172]                  @ 4-byte Reload
	subs	r0, r2, r0
	mov	r5, r1
	mov	r7, r3
	sbcs	r1, r3
	movs	r2, #31
	subs	r0, r2, r0
	sbcs	r4, r1
	ldr	r4, [sp, #48]                   @ 4-byte Reload
	bhs	.Laes_v6m_BB8_7
	b	.Laes_v6m_BB8_5
.Laes_v6m_BB8_6:
	ldr	r4, [sp, #48]                   @ 4-byte Reload
	ldr	r6, [sp, #184]                  @ 4-byte Reload
.Laes_v6m_BB8_7:                                @ %loop.13.preheader.i.i
	ldr	r0, [sp, #172]                  @ 4-byte Reload
	subs	r0, r6, r0
	mov	r0, r7
	sbcs	r0, r5
	mov	r0, r6
	mov	r1, r7
	bhs	.Laes_v6m_BB8_9
.Laes_v6m_BB8_8:                                @ %join.16.i.i
                                        @ =>This Inner Loop Header: Depth=1
	ldr	r7, [sp, #172]                  @ 4-byte Reload
	str	r7, [sp, #16]
	str	r5, [sp, #20]
	str	r0, [sp]
	str	r1, [sp, #4]
	ldr	r0, [sp, #180]                  @ 4-byte Reload
	str	r0, [sp, #8]
	add	r0, sp, #192
	ldr	r1, [sp, #164]                  @ 4-byte Reload
	ldr	r2, [sp, #168]                  @ 4-byte Reload
	mov	r3, r4
	bl	aes_v6m.aes_ctr.add_in_batches.add_next
	subs	r2, r0, r7
	mov	r2, r1
	sbcs	r2, r5
	blo	.Laes_v6m_BB8_8
.Laes_v6m_BB8_9:                                @ %"aes_ctr::add_in_batches::AddStreamBlockCipherEncClosure::call::<#b3b189439790eae9>.exit"
	add	sp, #468
	pop	{r4, r5, r6, r7, pc}
.Laes_v6m_func_end8:
	.size	aes_v6m.aes_narrow.borrowed_words.call_to_encrypt, .Laes_v6m_func_end8-aes_v6m.aes_narrow.borrowed_words.call_to_encrypt
	.cantunwind
	.fnend
                                        @ -- End function
	.section	.text.aes_v6m.aes_ctr.add_in_batches.add_next,"ax",%progbits
	.p2align	1                               @ -- Begin function aes_ctr::add_in_batches::add_next::<#a8e061590e9ece31>
	.type	aes_v6m.aes_ctr.add_in_batches.add_next,%function
	.code	16
	.thumb_func
aes_v6m.aes_ctr.add_in_batches.add_next: @ @aes_v6m.aes_ctr.add_in_batches.add_next
	.fnstart
@ %bb.0:                                @ %start
	.save	{r4, r5, r6, r7, lr}
	push	{r4, r5, r6, r7, lr}
	.pad	#420
	sub	sp, #420
	mov	r7, r3
	mov	r6, r2
	mov	r4, r1
	str	r0, [sp, #152]                  @ 4-byte Spill
	add	r5, sp, #164
	mov	r0, r5
	adds	r0, #32
	movs	r1, #0
	str	r1, [sp, #156]                  @ 4-byte Spill
	movs	r2, #224
	bl	memset
	ldr	r0, [sp, #444]
	str	r0, [sp, #24]                   @ 4-byte Spill
	ldr	r1, [sp, #440]
	str	r1, [sp, #20]                   @ 4-byte Spill
	adds	r1, r1, r6
	str	r1, [sp, #40]                   @ 4-byte Spill
	adcs	r7, r0
	lsrs	r0, r1, #4
	lsls	r1, r7, #28
	adds	r0, r0, r1
	str	r0, [sp, #148]                  @ 4-byte Spill
	ldrb	r0, [r4]
	lsls	r0, r0, #24
	ldrb	r1, [r4, #1]
	lsls	r1, r1, #16
	adds	r0, r1, r0
	ldrb	r1, [r4, #2]
	lsls	r1, r1, #8
	adds	r0, r0, r1
	ldrb	r1, [r4, #3]
	adds	r0, r0, r1
	str	r0, [sp, #160]                  @ 4-byte Spill
	ldrb	r1, [r4, #5]
	lsls	r1, r1, #16
	ldrb	r2, [r4, #4]
	lsls	r2, r2, #24
	adds	r1, r2, r1
	ldrb	r2, [r4, #6]
	lsls	r2, r2, #8
	adds	r1, r1, r2
	ldrb	r2, [r4, #7]
	adds	r1, r1, r2
	ldrb	r2, [r4, #8]
	lsls	r2, r2, #24
	ldrb	r6, [r4, #9]
	lsls	r6, r6, #16
	adds	r2, r6, r2
	ldrb	r6, [r4, #10]
	lsls	r6, r6, #8
	adds	r2, r2, r6
	ldrb	r6, [r4, #11]
	adds	r6, r2, r6
	lsrs	r2, r7, #4
	ldrb	r7, [r4, #13]
	lsls	r7, r7, #16
	ldrb	r3, [r4, #12]
	lsls	r3, r3, #24
	adds	r3, r3, r7
	ldrb	r7, [r4, #14]
	lsls	r7, r7, #8
	adds	r3, r3, r7
	ldrb	r4, [r4, #15]
	adds	r3, r3, r4
	ldr	r0, [sp, #148]                  @ 4-byte Reload
	adds	r3, r0, r3
	strb	r3, [r5, #15]
	adcs	r2, r6
	ldr	r0, [sp, #156]                  @ 4-byte Reload
	adcs	r1, r0
	ldr	r4, [sp, #160]                  @ 4-byte Reload
	adcs	r4, r0
	str	r4, [sp, #160]                  @ 4-byte Spill
	lsrs	r4, r3, #24
	str	r4, [sp, #144]                  @ 4-byte Spill
	lsrs	r6, r3, #16
	lsrs	r4, r3, #8
	adds	r7, r3, #1
	strb	r7, [r5, #31]
	strb	r4, [r5, #14]
	strb	r6, [r5, #13]
	ldr	r3, [sp, #144]                  @ 4-byte Reload
	strb	r3, [r5, #12]
	strb	r2, [r5, #11]
	mov	r6, r2
	adcs	r6, r0
	strb	r6, [r5, #27]
	mov	r4, r1
	str	r1, [sp, #148]                  @ 4-byte Spill
	strb	r1, [r5, #7]
	adcs	r4, r0
	strb	r4, [r5, #23]
	ldr	r3, [sp, #160]                  @ 4-byte Reload
	strb	r3, [r5, #3]
	adcs	r3, r0
	lsrs	r0, r7, #24
	strb	r0, [r5, #28]
	lsrs	r0, r2, #8
	strb	r0, [r5, #10]
	lsrs	r0, r7, #16
	strb	r0, [r5, #29]
	lsrs	r0, r2, #16
	strb	r0, [r5, #9]
	lsrs	r0, r7, #8
	ldr	r7, [sp, #40]                   @ 4-byte Reload
	strb	r0, [r5, #30]
	lsrs	r0, r2, #24
	strb	r0, [r5, #8]
	lsrs	r0, r6, #24
	strb	r0, [r5, #24]
	ldr	r1, [sp, #148]                  @ 4-byte Reload
	lsrs	r0, r1, #8
	strb	r0, [r5, #6]
	lsrs	r0, r6, #16
	strb	r0, [r5, #25]
	lsrs	r0, r1, #16
	strb	r0, [r5, #5]
	lsrs	r0, r6, #8
	ldr	r6, [sp, #20]                   @ 4-byte Reload
	strb	r0, [r5, #26]
	lsrs	r0, r1, #24
	strb	r0, [r5, #4]
	ldr	r1, [sp, #160]                  @ 4-byte Reload
	lsrs	r0, r1, #8
	strb	r0, [r5, #2]
	lsrs	r0, r1, #16
	strb	r0, [r5, #1]
	lsrs	r0, r1, #24
	strb	r0, [r5]
	strb	r3, [r5, #19]
	lsrs	r0, r4, #24
	strb	r0, [r5, #20]
	lsrs	r0, r4, #16
	strb	r0, [r5, #21]
	lsrs	r0, r4, #8
	strb	r0, [r5, #22]
	lsrs	r0, r3, #24
	strb	r0, [r5, #16]
	lsrs	r0, r3, #16
	strb	r0, [r5, #17]
	lsrs	r0, r3, #8
	strb	r0, [r5, #18]
	ldr	r5, [sp, #156]                  @ 4-byte Reload
	ldr	r3, [sp, #460]
	ldr	r0, [sp, #456]
	str	r0, [sp, #144]                  @ 4-byte Spill
	subs	r4, r0, r6
	str	r3, [sp, #148]                  @ 4-byte Spill
	ldr	r0, [sp, #24]                   @ 4-byte Reload
	sbcs	r3, r0
	movs	r0, #15
	str	r0, [sp, #28]                   @ 4-byte Spill
	ands	r7, r0
	movs	r0, #32
	str	r7, [sp, #40]                   @ 4-byte Spill
	subs	r1, r0, r7
	movs	r0, #1
	subs	r2, r4, r1
	mov	r2, r3
	sbcs	r2, r5
	blo	.Laes_v6m_BB9_2
@ %bb.1:                                @ %start
	mov	r0, r5
.Laes_v6m_BB9_2:                                @ %start
	blo	.Laes_v6m_BB9_4
@ %bb.3:                                @ %start
	mov	r4, r1
.Laes_v6m_BB9_4:                                @ %start
	ldr	r1, [sp, #40]                   @ 4-byte Reload
	adds	r2, r4, r1
	uxtb	r1, r2
	lsrs	r1, r1, #4
	lsls	r2, r2, #28
	beq	.Laes_v6m_BB9_6
@ %bb.5:
	adds	r1, r1, #1
.Laes_v6m_BB9_6:                                @ %start
	str	r4, [sp, #32]                   @ 4-byte Spill
	cmp	r0, #0
	bne	.Laes_v6m_BB9_8
@ %bb.7:                                @ %start
	mov	r3, r0
.Laes_v6m_BB9_8:                                @ %start
	str	r3, [sp, #36]                   @ 4-byte Spill
	ldr	r5, [sp, #152]                  @ 4-byte Reload
	ldrb	r0, [r5, #12]
	ldrb	r2, [r5, #13]
	lsls	r2, r2, #8
	adds	r0, r2, r0
	ldrb	r2, [r5, #14]
	lsls	r2, r2, #16
	ldrb	r3, [r5, #15]
	lsls	r3, r3, #24
	adds	r2, r3, r2
	adds	r3, r2, r0
	ldrb	r0, [r5, #8]
	ldrb	r2, [r5, #9]
	lsls	r2, r2, #8
	adds	r0, r2, r0
	ldrb	r2, [r5, #10]
	lsls	r2, r2, #16
	ldrb	r4, [r5, #11]
	lsls	r4, r4, #24
	adds	r2, r4, r2
	adds	r2, r2, r0
	ldrb	r0, [r5]
	ldrb	r4, [r5, #1]
	lsls	r4, r4, #8
	adds	r0, r4, r0
	ldrb	r4, [r5, #2]
	lsls	r4, r4, #16
	ldrb	r5, [r5, #3]
	lsls	r5, r5, #24
	adds	r4, r5, r4
	adds	r0, r4, r0
	ldr	r4, [sp, #448]
	cmp	r1, #1
	bne	.Laes_v6m_BB9_10
@ %bb.9:                                @ %then.1.i.i.i
	movs	r1, #0
	movs	r5, #1
	b	.Laes_v6m_BB9_11
.Laes_v6m_BB9_10:                               @ %else.2.i.i.i
	movs	r1, #0
	movs	r5, #2
.Laes_v6m_BB9_11:                               @ %"aes_ctr::keystream::fill_by_backend::<#a8e061590e9ece31>.exit"
	str	r5, [sp, #8]
	str	r1, [sp, #12]
	add	r1, sp, #164
	str	r1, [sp]
	bl	aes_v6m.aes_soft.soft.blocks.filled_up.process_filled_up.1
	adds	r0, r4, r6
	str	r0, [sp, #156]                  @ 4-byte Spill
	movs	r0, #0
	ldr	r1, [sp, #40]                   @ 4-byte Reload
	cmp	r1, #0
	ldr	r3, [sp, #36]                   @ 4-byte Reload
	str	r0, [sp, #140]                  @ 4-byte Spill
	bne	.Laes_v6m_BB9_12
	b	.Laes_v6m_BB9_27
.Laes_v6m_BB9_12:                               @ %then.1.i
	movs	r0, #16
	ldr	r1, [sp, #40]                   @ 4-byte Reload
	subs	r2, r0, r1
	movs	r0, #1
	movs	r1, #0
	ldr	r5, [sp, #32]                   @ 4-byte Reload
	subs	r4, r5, r2
	mov	r4, r3
	sbcs	r4, r1
	mov	r4, r5
	str	r5, [sp, #160]                  @ 4-byte Spill
	blo	.Laes_v6m_BB9_13
	b	.Laes_v6m_BB9_40
.Laes_v6m_BB9_13:                               @ %then.1.i
	blo	.Laes_v6m_BB9_14
	b	.Laes_v6m_BB9_41
.Laes_v6m_BB9_14:                               @ %then.1.i
	cmp	r0, #0
	str	r3, [sp, #152]                  @ 4-byte Spill
	ldr	r2, [sp, #28]                   @ 4-byte Reload
	bne	.Laes_v6m_BB9_16
.Laes_v6m_BB9_15:                               @ %then.1.i
	str	r0, [sp, #152]                  @ 4-byte Spill
.Laes_v6m_BB9_16:                               @ %then.1.i
	ldr	r5, [sp, #144]                  @ 4-byte Reload
	eors	r5, r6
	ldr	r0, [sp, #24]                   @ 4-byte Reload
	ldr	r1, [sp, #148]                  @ 4-byte Reload
	eors	r1, r0
	orrs	r1, r5
	ldr	r1, [sp, #160]                  @ 4-byte Reload
	beq	.Laes_v6m_BB9_26
@ %bb.17:                               @ %join.8.i85.preheader
	movs	r0, #3
	mov	r2, r1
	str	r0, [sp, #148]                  @ 4-byte Spill
	ands	r2, r0
	movs	r5, #0
	subs	r0, r1, #4
	ldr	r0, [sp, #152]                  @ 4-byte Reload
	sbcs	r0, r5
	str	r2, [sp, #136]                  @ 4-byte Spill
	blo	.Laes_v6m_BB9_21
@ %bb.18:                               @ %join.8.i85.preheader.new
	movs	r0, #28
	ands	r0, r1
	str	r0, [sp, #144]                  @ 4-byte Spill
	movs	r2, #0
	mov	r5, r2
	mov	r1, r2
	ldr	r0, [sp, #40]                   @ 4-byte Reload
.Laes_v6m_BB9_19:                               @ %join.8.i85
                                        @ =>This Inner Loop Header: Depth=1
	ldr	r3, [sp, #156]                  @ 4-byte Reload
	ldrb	r7, [r3, r5]
	adds	r3, r5, r0
	add	r6, sp, #164
	ldrb	r3, [r6, r3]
	eors	r3, r7
	ldr	r4, [sp, #156]                  @ 4-byte Reload
	strb	r3, [r4, r5]
	movs	r3, #1
	orrs	r3, r5
	ldr	r4, [sp, #156]                  @ 4-byte Reload
	ldrb	r7, [r4, r3]
	adds	r4, r3, r0
	ldrb	r4, [r6, r4]
	eors	r4, r7
	ldr	r7, [sp, #156]                  @ 4-byte Reload
	strb	r4, [r7, r3]
	movs	r3, #2
	orrs	r3, r5
	ldr	r4, [sp, #156]                  @ 4-byte Reload
	ldrb	r4, [r4, r3]
	adds	r7, r3, r0
	ldrb	r7, [r6, r7]
	eors	r7, r4
	ldr	r4, [sp, #156]                  @ 4-byte Reload
	strb	r7, [r4, r3]
	mov	r3, r5
	ldr	r4, [sp, #148]                  @ 4-byte Reload
	orrs	r3, r4
	ldr	r4, [sp, #156]                  @ 4-byte Reload
	ldrb	r4, [r4, r3]
	adds	r7, r3, r0
	ldrb	r6, [r6, r7]
	eors	r6, r4
	ldr	r4, [sp, #156]                  @ 4-byte Reload
	strb	r6, [r4, r3]
	adds	r5, r5, #4
	adcs	r1, r2
	mov	r3, r5
	ldr	r4, [sp, #144]                  @ 4-byte Reload
	eors	r3, r4
	orrs	r3, r1
	bne	.Laes_v6m_BB9_19
@ %bb.20:                               @ %join.3.i.loopexit.unr-lcssa
	ldr	r2, [sp, #136]                  @ 4-byte Reload
	cmp	r2, #0
	ldr	r3, [sp, #36]                   @ 4-byte Reload
	ldr	r4, [sp, #32]                   @ 4-byte Reload
	ldr	r1, [sp, #160]                  @ 4-byte Reload
	bne	.Laes_v6m_BB9_21
	b	.Laes_v6m_BB9_43
.Laes_v6m_BB9_21:                               @ %join.8.i85.epil.preheader
	ldr	r0, [sp, #156]                  @ 4-byte Reload
	ldrb	r7, [r0, r5]
	ldr	r1, [sp, #40]                   @ 4-byte Reload
	adds	r1, r5, r1
	add	r2, sp, #164
	ldrb	r1, [r2, r1]
	ldr	r2, [sp, #136]                  @ 4-byte Reload
	eors	r1, r7
	strb	r1, [r0, r5]
	cmp	r2, #1
	beq	.Laes_v6m_BB9_25
@ %bb.22:                               @ %join.8.i85.epil.1
	adds	r6, r5, #1
	ldrb	r1, [r0, r6]
	mov	r7, r2
	ldr	r2, [sp, #40]                   @ 4-byte Reload
	adds	r2, r6, r2
	add	r3, sp, #164
	ldrb	r2, [r3, r2]
	eors	r2, r1
	strb	r2, [r0, r6]
	cmp	r7, #2
	beq	.Laes_v6m_BB9_24
@ %bb.23:                               @ %join.8.i85.epil.2
	adds	r5, r5, #2
	ldrb	r1, [r0, r5]
	ldr	r2, [sp, #40]                   @ 4-byte Reload
	adds	r2, r5, r2
	add	r3, sp, #164
	ldrb	r2, [r3, r2]
	eors	r2, r1
	strb	r2, [r0, r5]
.Laes_v6m_BB9_24:                               @ %join.3.i
	ldr	r3, [sp, #36]                   @ 4-byte Reload
.Laes_v6m_BB9_25:                               @ %join.3.i
	ldr	r2, [sp, #28]                   @ 4-byte Reload
	ldr	r1, [sp, #160]                  @ 4-byte Reload
.Laes_v6m_BB9_26:                               @ %join.3.i
	ldr	r0, [sp, #152]                  @ 4-byte Reload
	b	.Laes_v6m_BB9_28
.Laes_v6m_BB9_27:
	mov	r1, r0
	ldr	r4, [sp, #32]                   @ 4-byte Reload
	ldr	r2, [sp, #28]                   @ 4-byte Reload
.Laes_v6m_BB9_28:                               @ %join.3.i
	subs	r5, r4, r1
	mov	r6, r3
	str	r0, [sp, #152]                  @ 4-byte Spill
	sbcs	r6, r0
	mov	r0, r5
	subs	r0, #16
	mov	r0, r6
	ldr	r7, [sp, #140]                  @ 4-byte Reload
	sbcs	r0, r7
	bhs	.Laes_v6m_BB9_29
	b	.Laes_v6m_BB9_30
.Laes_v6m_BB9_29:                               @ %join.8.i
                                        @ =>This Inner Loop Header: Depth=1
	str	r1, [sp, #160]                  @ 4-byte Spill
	ldr	r4, [sp, #156]                  @ 4-byte Reload
	ldrb	r0, [r4, r1]
	ldr	r1, [sp, #160]                  @ 4-byte Reload
	ldr	r3, [sp, #40]                   @ 4-byte Reload
	adds	r1, r1, r3
	bics	r1, r2
	add	r2, sp, #164
	ldrb	r3, [r2, r1]
	eors	r3, r0
	str	r3, [sp, #80]                   @ 4-byte Spill
	ldr	r0, [sp, #160]                  @ 4-byte Reload
	adds	r3, r4, r0
	ldrb	r0, [r3, #1]
	str	r0, [sp, #148]                  @ 4-byte Spill
	adds	r0, r2, r1
	ldrb	r1, [r0, #1]
	str	r1, [sp, #144]                  @ 4-byte Spill
	ldrb	r1, [r3, #2]
	str	r1, [sp, #140]                  @ 4-byte Spill
	ldrb	r1, [r0, #2]
	str	r1, [sp, #136]                  @ 4-byte Spill
	ldrb	r1, [r3, #3]
	str	r1, [sp, #132]                  @ 4-byte Spill
	ldrb	r1, [r0, #3]
	str	r1, [sp, #128]                  @ 4-byte Spill
	ldrb	r1, [r3, #4]
	str	r1, [sp, #124]                  @ 4-byte Spill
	ldrb	r1, [r0, #4]
	str	r1, [sp, #120]                  @ 4-byte Spill
	ldrb	r1, [r3, #5]
	str	r1, [sp, #116]                  @ 4-byte Spill
	ldrb	r1, [r0, #5]
	str	r1, [sp, #112]                  @ 4-byte Spill
	ldrb	r1, [r3, #6]
	str	r1, [sp, #108]                  @ 4-byte Spill
	ldrb	r1, [r0, #6]
	str	r1, [sp, #104]                  @ 4-byte Spill
	ldrb	r1, [r3, #7]
	str	r1, [sp, #100]                  @ 4-byte Spill
	ldrb	r1, [r0, #7]
	str	r1, [sp, #96]                   @ 4-byte Spill
	ldrb	r1, [r3, #8]
	str	r1, [sp, #92]                   @ 4-byte Spill
	ldrb	r1, [r0, #8]
	str	r1, [sp, #88]                   @ 4-byte Spill
	ldrb	r1, [r3, #9]
	str	r1, [sp, #84]                   @ 4-byte Spill
	ldrb	r1, [r0, #9]
	str	r1, [sp, #76]                   @ 4-byte Spill
	ldrb	r1, [r3, #10]
	str	r1, [sp, #72]                   @ 4-byte Spill
	ldrb	r1, [r0, #10]
	str	r1, [sp, #68]                   @ 4-byte Spill
	ldrb	r1, [r3, #11]
	str	r1, [sp, #64]                   @ 4-byte Spill
	ldrb	r1, [r0, #11]
	str	r1, [sp, #60]                   @ 4-byte Spill
	ldrb	r1, [r3, #12]
	str	r1, [sp, #56]                   @ 4-byte Spill
	ldrb	r4, [r0, #12]
	ldrb	r1, [r3, #13]
	str	r1, [sp, #52]                   @ 4-byte Spill
	ldrb	r2, [r0, #13]
	ldrb	r1, [r3, #14]
	str	r1, [sp, #48]                   @ 4-byte Spill
	ldrb	r1, [r0, #14]
	ldrb	r5, [r3, #15]
	str	r5, [sp, #44]                   @ 4-byte Spill
	ldrb	r0, [r0, #15]
	ldr	r7, [sp, #160]                  @ 4-byte Reload
	ldr	r6, [sp, #80]                   @ 4-byte Reload
	ldr	r5, [sp, #156]                  @ 4-byte Reload
	strb	r6, [r5, r7]
	ldr	r5, [sp, #44]                   @ 4-byte Reload
	eors	r0, r5
	strb	r0, [r3, #15]
	ldr	r0, [sp, #48]                   @ 4-byte Reload
	eors	r1, r0
	strb	r1, [r3, #14]
	ldr	r0, [sp, #52]                   @ 4-byte Reload
	eors	r2, r0
	strb	r2, [r3, #13]
	ldr	r2, [sp, #28]                   @ 4-byte Reload
	ldr	r0, [sp, #56]                   @ 4-byte Reload
	eors	r4, r0
	strb	r4, [r3, #12]
	ldr	r4, [sp, #32]                   @ 4-byte Reload
	ldr	r0, [sp, #64]                   @ 4-byte Reload
	ldr	r1, [sp, #60]                   @ 4-byte Reload
	eors	r1, r0
	strb	r1, [r3, #11]
	ldr	r0, [sp, #72]                   @ 4-byte Reload
	ldr	r1, [sp, #68]                   @ 4-byte Reload
	eors	r1, r0
	strb	r1, [r3, #10]
	ldr	r0, [sp, #84]                   @ 4-byte Reload
	ldr	r1, [sp, #76]                   @ 4-byte Reload
	eors	r1, r0
	strb	r1, [r3, #9]
	ldr	r0, [sp, #92]                   @ 4-byte Reload
	ldr	r1, [sp, #88]                   @ 4-byte Reload
	eors	r1, r0
	strb	r1, [r3, #8]
	ldr	r0, [sp, #100]                  @ 4-byte Reload
	ldr	r1, [sp, #96]                   @ 4-byte Reload
	eors	r1, r0
	strb	r1, [r3, #7]
	ldr	r0, [sp, #108]                  @ 4-byte Reload
	ldr	r1, [sp, #104]                  @ 4-byte Reload
	eors	r1, r0
	strb	r1, [r3, #6]
	ldr	r0, [sp, #116]                  @ 4-byte Reload
	ldr	r1, [sp, #112]                  @ 4-byte Reload
	eors	r1, r0
	strb	r1, [r3, #5]
	ldr	r0, [sp, #124]                  @ 4-byte Reload
	ldr	r1, [sp, #120]                  @ 4-byte Reload
	eors	r1, r0
	strb	r1, [r3, #4]
	ldr	r0, [sp, #132]                  @ 4-byte Reload
	ldr	r1, [sp, #128]                  @ 4-byte Reload
	eors	r1, r0
	strb	r1, [r3, #3]
	ldr	r0, [sp, #140]                  @ 4-byte Reload
	ldr	r1, [sp, #136]                  @ 4-byte Reload
	eors	r1, r0
	strb	r1, [r3, #2]
	ldr	r0, [sp, #148]                  @ 4-byte Reload
	ldr	r1, [sp, #144]                  @ 4-byte Reload
	eors	r1, r0
	strb	r1, [r3, #1]
	ldr	r3, [sp, #36]                   @ 4-byte Reload
	movs	r0, #0
	ldr	r1, [sp, #160]                  @ 4-byte Reload
	adds	r1, #16
	str	r1, [sp, #160]                  @ 4-byte Spill
	ldr	r7, [sp, #152]                  @ 4-byte Reload
	adcs	r7, r0
	ldr	r1, [sp, #160]                  @ 4-byte Reload
	subs	r5, r4, r1
	mov	r6, r3
	str	r7, [sp, #152]                  @ 4-byte Spill
	sbcs	r6, r7
	subs	r1, r2, r5
	ldr	r1, [sp, #160]                  @ 4-byte Reload
	sbcs	r0, r6
	bhs	.Laes_v6m_BB9_30
	b	.Laes_v6m_BB9_29
.Laes_v6m_BB9_30:                               @ %after.4.i
	str	r1, [sp, #160]                  @ 4-byte Spill
	subs	r0, r1, r4
	ldr	r0, [sp, #152]                  @ 4-byte Reload
	sbcs	r0, r3
	bhs	.Laes_v6m_BB9_39
@ %bb.31:                               @ %then.9.i
	add	r1, sp, #164
	mov	r0, r5
	orrs	r0, r6
	beq	.Laes_v6m_BB9_39
@ %bb.32:                               @ %join.8.i28.preheader
	ldr	r0, [sp, #156]                  @ 4-byte Reload
	ldr	r4, [sp, #160]                  @ 4-byte Reload
	adds	r0, r0, r4
	mov	r3, r2
	ldr	r2, [sp, #40]                   @ 4-byte Reload
	adds	r2, r4, r2
	bics	r2, r3
	adds	r1, r1, r2
	movs	r4, #3
	mov	r2, r5
	ands	r2, r4
	movs	r3, #0
	subs	r7, r5, #4
	sbcs	r6, r3
	mov	r6, r2
	blo	.Laes_v6m_BB9_36
@ %bb.33:                               @ %join.8.i28.preheader.new
	str	r6, [sp, #152]                  @ 4-byte Spill
	movs	r3, #12
	ands	r5, r3
	movs	r7, #0
	mov	r3, r7
	str	r7, [sp, #160]                  @ 4-byte Spill
	str	r4, [sp, #156]                  @ 4-byte Spill
.Laes_v6m_BB9_34:                               @ %join.8.i28
                                        @ =>This Inner Loop Header: Depth=1
	ldrb	r2, [r1, r3]
	ldrb	r4, [r0, r3]
	eors	r4, r2
	strb	r4, [r0, r3]
	movs	r2, #1
	orrs	r2, r3
	ldrb	r4, [r1, r2]
	ldrb	r6, [r0, r2]
	eors	r6, r4
	strb	r6, [r0, r2]
	movs	r2, #2
	orrs	r2, r3
	ldrb	r4, [r1, r2]
	ldrb	r6, [r0, r2]
	eors	r6, r4
	strb	r6, [r0, r2]
	mov	r2, r3
	ldr	r4, [sp, #156]                  @ 4-byte Reload
	orrs	r2, r4
	ldrb	r4, [r1, r2]
	ldrb	r6, [r0, r2]
	eors	r6, r4
	strb	r6, [r0, r2]
	adds	r3, r3, #4
	ldr	r2, [sp, #160]                  @ 4-byte Reload
	adcs	r7, r2
	mov	r2, r3
	eors	r2, r5
	orrs	r2, r7
	bne	.Laes_v6m_BB9_34
@ %bb.35:                               @ %"aes_ctr::add_blocks::add_blocks.exit.loopexit.unr-lcssa"
	ldr	r6, [sp, #152]                  @ 4-byte Reload
	cmp	r6, #0
	ldr	r4, [sp, #32]                   @ 4-byte Reload
	beq	.Laes_v6m_BB9_39
.Laes_v6m_BB9_36:                               @ %join.8.i28.epil.preheader
	ldrb	r2, [r1, r3]
	ldrb	r4, [r0, r3]
	eors	r4, r2
	strb	r4, [r0, r3]
	ldr	r4, [sp, #32]                   @ 4-byte Reload
	cmp	r6, #1
	beq	.Laes_v6m_BB9_39
@ %bb.37:                               @ %join.8.i28.epil.1
	adds	r2, r3, #1
	ldrb	r4, [r1, r2]
	ldrb	r5, [r0, r2]
	eors	r5, r4
	ldr	r4, [sp, #32]                   @ 4-byte Reload
	strb	r5, [r0, r2]
	cmp	r6, #2
	beq	.Laes_v6m_BB9_39
@ %bb.38:                               @ %join.8.i28.epil.2
	adds	r2, r3, #2
	ldrb	r1, [r1, r2]
	ldrb	r3, [r0, r2]
	eors	r3, r1
	strb	r3, [r0, r2]
.Laes_v6m_BB9_39:                               @ %"aes_ctr::add_blocks::add_blocks.exit"
	ldr	r0, [sp, #20]                   @ 4-byte Reload
	adds	r0, r4, r0
	ldr	r1, [sp, #24]                   @ 4-byte Reload
	ldr	r2, [sp, #36]                   @ 4-byte Reload
	adcs	r2, r1
	mov	r1, r2
	add	sp, #420
	pop	{r4, r5, r6, r7, pc}
.Laes_v6m_BB9_40:                               @ %then.1.i
	str	r2, [sp, #160]                  @ 4-byte Spill
	bhs	.Laes_v6m_BB9_41
	b	.Laes_v6m_BB9_14
.Laes_v6m_BB9_41:                               @ %then.1.i
	mov	r0, r1
	cmp	r0, #0
	str	r3, [sp, #152]                  @ 4-byte Spill
	ldr	r2, [sp, #28]                   @ 4-byte Reload
	bne	.Laes_v6m_BB9_42
	b	.Laes_v6m_BB9_15
.Laes_v6m_BB9_42:                               @ %then.1.i
	b	.Laes_v6m_BB9_16
.Laes_v6m_BB9_43:
	ldr	r2, [sp, #28]                   @ 4-byte Reload
	b	.Laes_v6m_BB9_26
.Laes_v6m_func_end9:
	.size	aes_v6m.aes_ctr.add_in_batches.add_next, .Laes_v6m_func_end9-aes_v6m.aes_ctr.add_in_batches.add_next
	.cantunwind
	.fnend
                                        @ -- End function
	.section	.text.aes_v6m.aes_cipher.zeroize.stack.wipe_stack.2032,"ax",%progbits
	.p2align	2                               @ -- Begin function aes_cipher::zeroize::stack::wipe_stack::<=2032>
	.type	aes_v6m.aes_cipher.zeroize.stack.wipe_stack.2032,%function
	.code	16
	.thumb_func
aes_v6m.aes_cipher.zeroize.stack.wipe_stack.2032: @ @aes_v6m.aes_cipher.zeroize.stack.wipe_stack.2032
	.fnstart
@ %bb.0:                                @ %start
	.save	{r4, r5, r6, lr}
	push	{r4, r5, r6, lr}
	ldr	r6, .Laes_v6m_CPI10_0
	.pad	#2040
	add	sp, r6
	movs	r0, #127
	lsls	r2, r0, #4
	add	r0, sp, #8
	movs	r4, #0
	mov	r1, r4
	bl	memset
	str	r4, [sp, #4]
	str	r4, [sp]
	@APP
	@NO_APP
	ldr	r1, [sp, #4]
	lsls	r2, r1, #28
	ldr	r0, [sp]
	lsrs	r3, r0, #4
	adds	r2, r3, r2
	@APP
	@NO_APP
	lsrs	r1, r1, #4
	subs	r2, #127
	sbcs	r1, r4
	bhs	.Laes_v6m_BB10_2
@ %bb.1:                                @ %then.1
	add	r1, sp, #8
	ldrb	r0, [r1, r0]
	@APP
	@NO_APP
	ldr	r1, [sp, #4]
	ldr	r1, [sp]
	str	r4, [sp, #4]
	str	r0, [sp]
	@APP
	@NO_APP
.Laes_v6m_BB10_2:                               @ %common.ret
	ldr	r6, .Laes_v6m_CPI10_1
	add	sp, r6
	pop	{r4, r5, r6, pc}
	.p2align	2
@ %bb.3:
.Laes_v6m_CPI10_0:
	.long	4294965256                      @ 0xfffff808
.Laes_v6m_CPI10_1:
	.long	2040                            @ 0x7f8
.Laes_v6m_func_end10:
	.size	aes_v6m.aes_cipher.zeroize.stack.wipe_stack.2032, .Laes_v6m_func_end10-aes_v6m.aes_cipher.zeroize.stack.wipe_stack.2032
	.cantunwind
	.fnend
                                        @ -- End function
	.section	.text.aes_v6m.aes_cipher.zeroize.elements.zeroize_elements.1,"ax",%progbits
	.p2align	1                               @ -- Begin function aes_cipher::zeroize::elements::zeroize_elements::<#54a2bb646728b9ee>
	.type	aes_v6m.aes_cipher.zeroize.elements.zeroize_elements.1,%function
	.code	16
	.thumb_func
aes_v6m.aes_cipher.zeroize.elements.zeroize_elements.1: @ @aes_v6m.aes_cipher.zeroize.elements.zeroize_elements.1
	.fnstart
@ %bb.0:                                @ %start
	.save	{r4, r5, r6, r7, lr}
	push	{r4, r5, r6, r7, lr}
	.pad	#12
	sub	sp, #12
	movs	r4, #0
	str	r4, [sp, #4]
	str	r4, [sp]
	@APP
	@NO_APP
	ldr	r2, [sp, #4]
	ldr	r1, [sp]
	@APP
	@NO_APP
	mov	r3, r1
	subs	r3, #120
	sbcs	r2, r4
	bhs	.Laes_v6m_BB11_2
@ %bb.1:                                @ %then.1.i
	lsls	r6, r1, #2
	ldr	r7, [r0, r6]
	movs	r1, #15
	lsls	r2, r1, #5
	movs	r1, #0
	mov	r5, r0
	bl	memset
	ldr	r0, [r5, r6]
	ands	r0, r7
	b	.Laes_v6m_BB11_3
.Laes_v6m_BB11_2:                               @ %"aes_cipher::zeroize::observe::<#94bc162b3f62047f>.exit12"
	movs	r1, #15
	lsls	r2, r1, #5
	mov	r1, r4
	bl	memset
	mov	r0, r4
.Laes_v6m_BB11_3:                               @ %"aes_cipher::zeroize::observe::<#94bc162b3f62047f>.exit"
	@APP
	@NO_APP
	ldr	r1, [sp, #4]
	ldr	r1, [sp]
	str	r4, [sp, #4]
	uxtb	r0, r0
	str	r0, [sp]
	@APP
	@NO_APP
	add	sp, #12
	pop	{r4, r5, r6, r7, pc}
.Laes_v6m_func_end11:
	.size	aes_v6m.aes_cipher.zeroize.elements.zeroize_elements.1, .Laes_v6m_func_end11-aes_v6m.aes_cipher.zeroize.elements.zeroize_elements.1
	.cantunwind
	.fnend
                                        @ -- End function
	.section	.text.aes_v6m.cmac.tags.tag,"ax",%progbits
	.p2align	1                               @ -- Begin function cmac::tags::tag::<#4f733d09d7f6c6b4>
	.type	aes_v6m.cmac.tags.tag,%function
	.code	16
	.thumb_func
aes_v6m.cmac.tags.tag: @ @aes_v6m.cmac.tags.tag
	.fnstart
@ %bb.0:                                @ %start
	.save	{r4, r5, r6, r7, lr}
	push	{r4, r5, r6, r7, lr}
	.pad	#60
	sub	sp, #60
	str	r2, [sp, #12]                   @ 4-byte Spill
	mov	r3, r1
	str	r1, [sp, #20]                   @ 4-byte Spill
	str	r0, [sp, #24]                   @ 4-byte Spill
	movs	r4, #0
	str	r4, [sp, #40]
	str	r4, [sp, #36]
	str	r4, [sp, #32]
	str	r4, [sp, #28]
	str	r4, [sp, #4]
	ldr	r5, [sp, #84]
	ldr	r6, [sp, #80]
	mov	r0, r5
	orrs	r0, r6
	subs	r1, r0, #1
	sbcs	r0, r1
	subs	r7, r6, r0
	movs	r0, #15
	bics	r7, r0
	str	r7, [sp]
	add	r1, sp, #28
	str	r1, [sp, #16]                   @ 4-byte Spill
	mov	r0, r3
	bl	aes_v6m.cmac.chaining.chain
	subs	r0, r6, r7
	sbcs	r5, r4
	str	r0, [sp]
	str	r5, [sp, #4]
	ldr	r0, [sp, #12]                   @ 4-byte Reload
	adds	r3, r0, r7
	add	r6, sp, #44
	mov	r0, r6
	ldr	r1, [sp, #20]                   @ 4-byte Reload
	ldr	r2, [sp, #16]                   @ 4-byte Reload
	bl	aes_v6m.cmac.tags.tag_at_end
	movs	r2, #16
	ldr	r0, [sp, #24]                   @ 4-byte Reload
	mov	r1, r6
	bl	memcpy
	add	sp, #60
	pop	{r4, r5, r6, r7, pc}
.Laes_v6m_func_end12:
	.size	aes_v6m.cmac.tags.tag, .Laes_v6m_func_end12-aes_v6m.cmac.tags.tag
	.cantunwind
	.fnend
                                        @ -- End function
	.section	.text.aes_v6m.cmac.chaining.chain,"ax",%progbits
	.p2align	1                               @ -- Begin function cmac::chaining::chain::<#4f733d09d7f6c6b4>
	.type	aes_v6m.cmac.chaining.chain,%function
	.code	16
	.thumb_func
aes_v6m.cmac.chaining.chain: @ @aes_v6m.cmac.chaining.chain
	.fnstart
@ %bb.0:                                @ %start
	.save	{r4, r5, r6, r7, lr}
	push	{r4, r5, r6, r7, lr}
	.pad	#172
	sub	sp, #172
	str	r2, [sp, #28]                   @ 4-byte Spill
	mov	r5, r1
	str	r0, [sp, #24]                   @ 4-byte Spill
	ldr	r2, [sp, #196]
	lsls	r0, r2, #28
	ldr	r3, [sp, #192]
	lsrs	r1, r3, #4
	adds	r1, r1, r0
	str	r2, [sp, #40]                   @ 4-byte Spill
	lsrs	r0, r2, #4
	movs	r7, #0
	adds	r2, r1, #1
	str	r2, [sp, #36]                   @ 4-byte Spill
	mov	r2, r0
	adcs	r2, r7
	str	r2, [sp, #32]                   @ 4-byte Spill
	str	r3, [sp, #44]                   @ 4-byte Spill
	lsls	r2, r3, #28
	cmp	r2, #0
	beq	.Laes_v6m_BB13_3
@ %bb.1:                                @ %start
	beq	.Laes_v6m_BB13_4
.Laes_v6m_BB13_2:                               @ %start
	ldr	r0, [sp, #44]                   @ 4-byte Reload
	ldr	r1, [sp, #40]                   @ 4-byte Reload
	orrs	r0, r1
	bne	.Laes_v6m_BB13_5
	b	.Laes_v6m_BB13_9
.Laes_v6m_BB13_3:                               @ %start
	str	r1, [sp, #36]                   @ 4-byte Spill
	bne	.Laes_v6m_BB13_2
.Laes_v6m_BB13_4:                               @ %start
	str	r0, [sp, #32]                   @ 4-byte Spill
	ldr	r0, [sp, #44]                   @ 4-byte Reload
	ldr	r1, [sp, #40]                   @ 4-byte Reload
	orrs	r0, r1
	bne	.Laes_v6m_BB13_5
	b	.Laes_v6m_BB13_9
.Laes_v6m_BB13_5:                               @ %join.5.lr.ph
	mov	r4, r7
	mov	r6, r7
	str	r7, [sp, #20]                   @ 4-byte Spill
	b	.Laes_v6m_BB13_7
.Laes_v6m_BB13_6:                               @ %join.5
                                        @   in Loop: Header=BB13_7 Depth=1
	subs	r2, r1, r0
	ldr	r1, [sp, #28]                   @ 4-byte Reload
	adds	r1, r1, r0
	add	r7, sp, #156
	mov	r0, r7
	bl	memcpy
	ldrb	r0, [r5, #15]
	ldrb	r1, [r7, #15]
	eors	r1, r0
	str	r1, [sp, #76]                   @ 4-byte Spill
	ldrb	r0, [r5]
	str	r0, [sp, #144]                  @ 4-byte Spill
	ldrb	r0, [r5, #1]
	str	r0, [sp, #140]                  @ 4-byte Spill
	ldrb	r0, [r7, #1]
	str	r0, [sp, #136]                  @ 4-byte Spill
	ldrb	r0, [r5, #2]
	str	r0, [sp, #132]                  @ 4-byte Spill
	ldrb	r0, [r7, #2]
	str	r0, [sp, #128]                  @ 4-byte Spill
	ldrb	r0, [r5, #3]
	str	r0, [sp, #124]                  @ 4-byte Spill
	ldrb	r0, [r7, #3]
	str	r0, [sp, #120]                  @ 4-byte Spill
	ldrb	r0, [r5, #4]
	str	r0, [sp, #116]                  @ 4-byte Spill
	ldrb	r0, [r5, #5]
	str	r0, [sp, #112]                  @ 4-byte Spill
	ldrb	r0, [r7, #5]
	str	r0, [sp, #108]                  @ 4-byte Spill
	ldrb	r0, [r5, #6]
	str	r0, [sp, #100]                  @ 4-byte Spill
	ldrb	r0, [r7, #6]
	str	r0, [sp, #96]                   @ 4-byte Spill
	ldrb	r0, [r5, #7]
	str	r0, [sp, #92]                   @ 4-byte Spill
	ldrb	r0, [r7, #7]
	str	r0, [sp, #88]                   @ 4-byte Spill
	ldrb	r0, [r5, #8]
	str	r0, [sp, #84]                   @ 4-byte Spill
	ldrb	r0, [r5, #9]
	str	r0, [sp, #80]                   @ 4-byte Spill
	ldrb	r0, [r7, #9]
	str	r0, [sp, #68]                   @ 4-byte Spill
	ldrb	r0, [r5, #10]
	str	r0, [sp, #64]                   @ 4-byte Spill
	ldrb	r6, [r7, #10]
	ldrb	r0, [r5, #11]
	str	r0, [sp, #60]                   @ 4-byte Spill
	ldrb	r3, [r7, #11]
	ldrb	r0, [r5, #12]
	str	r0, [sp, #56]                   @ 4-byte Spill
	ldrb	r0, [r5, #13]
	str	r0, [sp, #52]                   @ 4-byte Spill
	ldrb	r2, [r7, #13]
	ldrb	r0, [r5, #14]
	str	r0, [sp, #48]                   @ 4-byte Spill
	ldrb	r0, [r7, #14]
	ldr	r1, [sp, #156]
	str	r1, [sp, #104]                  @ 4-byte Spill
	ldr	r1, [sp, #160]
	str	r1, [sp, #72]                   @ 4-byte Spill
	ldr	r4, [sp, #164]
	ldr	r1, [sp, #168]
	ldr	r7, [sp, #76]                   @ 4-byte Reload
	strb	r7, [r5, #15]
	ldr	r7, [sp, #48]                   @ 4-byte Reload
	eors	r0, r7
	strb	r0, [r5, #14]
	ldr	r0, [sp, #52]                   @ 4-byte Reload
	eors	r2, r0
	strb	r2, [r5, #13]
	ldr	r0, [sp, #56]                   @ 4-byte Reload
	eors	r1, r0
	strb	r1, [r5, #12]
	ldr	r0, [sp, #60]                   @ 4-byte Reload
	eors	r3, r0
	strb	r3, [r5, #11]
	ldr	r0, [sp, #64]                   @ 4-byte Reload
	eors	r6, r0
	strb	r6, [r5, #10]
	ldr	r0, [sp, #80]                   @ 4-byte Reload
	ldr	r1, [sp, #68]                   @ 4-byte Reload
	eors	r1, r0
	strb	r1, [r5, #9]
	ldr	r0, [sp, #84]                   @ 4-byte Reload
	eors	r4, r0
	strb	r4, [r5, #8]
	ldr	r0, [sp, #92]                   @ 4-byte Reload
	ldr	r1, [sp, #88]                   @ 4-byte Reload
	eors	r1, r0
	strb	r1, [r5, #7]
	ldr	r0, [sp, #100]                  @ 4-byte Reload
	ldr	r1, [sp, #96]                   @ 4-byte Reload
	eors	r1, r0
	strb	r1, [r5, #6]
	ldr	r0, [sp, #112]                  @ 4-byte Reload
	ldr	r1, [sp, #108]                  @ 4-byte Reload
	eors	r1, r0
	strb	r1, [r5, #5]
	ldr	r0, [sp, #116]                  @ 4-byte Reload
	ldr	r1, [sp, #72]                   @ 4-byte Reload
	eors	r1, r0
	strb	r1, [r5, #4]
	ldr	r0, [sp, #124]                  @ 4-byte Reload
	ldr	r1, [sp, #120]                  @ 4-byte Reload
	eors	r1, r0
	strb	r1, [r5, #3]
	ldr	r0, [sp, #132]                  @ 4-byte Reload
	ldr	r1, [sp, #128]                  @ 4-byte Reload
	eors	r1, r0
	strb	r1, [r5, #2]
	ldr	r0, [sp, #140]                  @ 4-byte Reload
	ldr	r1, [sp, #136]                  @ 4-byte Reload
	eors	r1, r0
	strb	r1, [r5, #1]
	ldr	r0, [sp, #144]                  @ 4-byte Reload
	ldr	r1, [sp, #104]                  @ 4-byte Reload
	eors	r1, r0
	strb	r1, [r5]
	ldr	r0, [sp, #24]                   @ 4-byte Reload
	ldrb	r1, [r0, #15]
	str	r1, [sp, #144]                  @ 4-byte Spill
	ldrb	r1, [r0, #14]
	str	r1, [sp, #140]                  @ 4-byte Spill
	ldrb	r1, [r0, #12]
	str	r1, [sp, #136]                  @ 4-byte Spill
	ldrb	r1, [r0, #13]
	str	r1, [sp, #132]                  @ 4-byte Spill
	ldrb	r1, [r0, #11]
	str	r1, [sp, #128]                  @ 4-byte Spill
	ldrb	r1, [r0, #10]
	str	r1, [sp, #124]                  @ 4-byte Spill
	ldrb	r6, [r0, #8]
	ldrb	r4, [r0, #9]
	ldrb	r3, [r0, #3]
	ldrb	r2, [r0, #2]
	ldrb	r1, [r0]
	ldrb	r0, [r0, #1]
	movs	r7, #1
	str	r7, [sp, #8]
	ldr	r7, [sp, #20]                   @ 4-byte Reload
	str	r7, [sp, #12]
	str	r5, [sp]
	lsls	r0, r0, #8
	adds	r0, r0, r1
	lsls	r1, r2, #16
	lsls	r2, r3, #24
	adds	r1, r2, r1
	adds	r0, r1, r0
	lsls	r1, r4, #8
	adds	r1, r1, r6
	ldr	r2, [sp, #124]                  @ 4-byte Reload
	lsls	r2, r2, #16
	ldr	r3, [sp, #128]                  @ 4-byte Reload
	lsls	r3, r3, #24
	adds	r2, r3, r2
	adds	r2, r2, r1
	ldr	r1, [sp, #132]                  @ 4-byte Reload
	lsls	r1, r1, #8
	ldr	r3, [sp, #136]                  @ 4-byte Reload
	adds	r1, r1, r3
	ldr	r3, [sp, #140]                  @ 4-byte Reload
	lsls	r3, r3, #16
	ldr	r4, [sp, #144]                  @ 4-byte Reload
	lsls	r4, r4, #24
	adds	r3, r4, r3
	adds	r3, r3, r1
	bl	aes_v6m.aes_narrow.blocks.process_all_batches.1
	ldr	r4, [sp, #152]                  @ 4-byte Reload
	adds	r4, r4, #1
	ldr	r6, [sp, #148]                  @ 4-byte Reload
	adcs	r6, r7
	bl	aes_v6m.aes_cipher.zeroize.stack.wipe_stack.1024
	ldr	r0, [sp, #36]                   @ 4-byte Reload
	subs	r0, r4, r0
	mov	r0, r6
	ldr	r1, [sp, #32]                   @ 4-byte Reload
	sbcs	r0, r1
	bhs	.Laes_v6m_BB13_9
.Laes_v6m_BB13_7:                               @ %join.5
                                        @ =>This Inner Loop Header: Depth=1
	str	r7, [sp, #168]
	str	r7, [sp, #164]
	str	r7, [sp, #160]
	str	r7, [sp, #156]
	lsrs	r0, r4, #28
	str	r6, [sp, #148]                  @ 4-byte Spill
	lsls	r1, r6, #4
	adds	r2, r1, r0
	str	r4, [sp, #152]                  @ 4-byte Spill
	lsls	r0, r4, #4
	mov	r1, r0
	adds	r1, #16
	adcs	r2, r7
	ldr	r3, [sp, #44]                   @ 4-byte Reload
	subs	r3, r1, r3
	ldr	r3, [sp, #40]                   @ 4-byte Reload
	sbcs	r2, r3
	bhs	.Laes_v6m_BB13_8
	b	.Laes_v6m_BB13_6
.Laes_v6m_BB13_8:                               @ %join.5
                                        @   in Loop: Header=BB13_7 Depth=1
	ldr	r1, [sp, #44]                   @ 4-byte Reload
	b	.Laes_v6m_BB13_6
.Laes_v6m_BB13_9:                               @ %after.1
	add	sp, #172
	pop	{r4, r5, r6, r7, pc}
.Laes_v6m_func_end13:
	.size	aes_v6m.cmac.chaining.chain, .Laes_v6m_func_end13-aes_v6m.cmac.chaining.chain
	.cantunwind
	.fnend
                                        @ -- End function
	.section	.text.aes_v6m.cmac.tags.tag_at_end,"ax",%progbits
	.p2align	1                               @ -- Begin function cmac::tags::tag_at_end::<#4f733d09d7f6c6b4>
	.type	aes_v6m.cmac.tags.tag_at_end,%function
	.code	16
	.thumb_func
aes_v6m.cmac.tags.tag_at_end: @ @aes_v6m.cmac.tags.tag_at_end
	.fnstart
@ %bb.0:                                @ %start
	.save	{r4, r5, r6, r7, lr}
	push	{r4, r5, r6, r7, lr}
	.pad	#140
	sub	sp, #140
	str	r3, [sp, #68]                   @ 4-byte Spill
	str	r2, [sp, #76]                   @ 4-byte Spill
	mov	r4, r1
	str	r0, [sp, #88]                   @ 4-byte Spill
	ldrb	r0, [r1, #15]
	str	r0, [sp, #84]                   @ 4-byte Spill
	ldrb	r0, [r1, #14]
	str	r0, [sp, #64]                   @ 4-byte Spill
	ldrb	r0, [r1, #12]
	str	r0, [sp, #60]                   @ 4-byte Spill
	ldrb	r0, [r1, #13]
	str	r0, [sp, #56]                   @ 4-byte Spill
	ldrb	r0, [r1, #11]
	str	r0, [sp, #52]                   @ 4-byte Spill
	ldrb	r0, [r1, #10]
	str	r0, [sp, #48]                   @ 4-byte Spill
	ldrb	r7, [r1, #8]
	ldrb	r3, [r1, #9]
	ldrb	r2, [r1, #3]
	ldrb	r6, [r1, #2]
	ldrb	r1, [r1]
	str	r4, [sp, #80]                   @ 4-byte Spill
	ldrb	r0, [r4, #1]
	movs	r5, #0
	str	r5, [sp, #136]
	str	r5, [sp, #132]
	str	r5, [sp, #128]
	str	r5, [sp, #124]
	movs	r4, #1
	str	r4, [sp, #72]                   @ 4-byte Spill
	str	r4, [sp, #8]
	str	r5, [sp, #12]
	add	r4, sp, #124
	str	r4, [sp]
	lsls	r0, r0, #8
	adds	r0, r0, r1
	lsls	r1, r6, #16
	lsls	r2, r2, #24
	adds	r1, r2, r1
	adds	r0, r1, r0
	lsls	r1, r3, #8
	adds	r1, r1, r7
	ldr	r2, [sp, #48]                   @ 4-byte Reload
	lsls	r2, r2, #16
	ldr	r3, [sp, #52]                   @ 4-byte Reload
	lsls	r3, r3, #24
	adds	r2, r3, r2
	adds	r2, r2, r1
	ldr	r1, [sp, #56]                   @ 4-byte Reload
	lsls	r1, r1, #8
	ldr	r3, [sp, #60]                   @ 4-byte Reload
	adds	r1, r1, r3
	ldr	r3, [sp, #64]                   @ 4-byte Reload
	lsls	r3, r3, #16
	ldr	r6, [sp, #84]                   @ 4-byte Reload
	lsls	r6, r6, #24
	adds	r3, r6, r3
	adds	r3, r3, r1
	bl	aes_v6m.aes_narrow.blocks.process_all_batches.1
	bl	aes_v6m.aes_cipher.zeroize.stack.wipe_stack.1024
	str	r5, [sp, #108]
	str	r5, [sp, #112]
	str	r5, [sp, #116]
	str	r5, [sp, #84]                   @ 4-byte Spill
	str	r5, [sp, #120]
	ldrb	r0, [r4, #11]
	str	r0, [sp, #64]                   @ 4-byte Spill
	ldrb	r0, [r4, #10]
	str	r0, [sp, #60]                   @ 4-byte Spill
	ldrb	r0, [r4, #9]
	str	r0, [sp, #56]                   @ 4-byte Spill
	ldrb	r5, [r4, #3]
	ldrb	r0, [r4, #2]
	str	r0, [sp, #52]                   @ 4-byte Spill
	ldrb	r0, [r4, #1]
	str	r0, [sp, #48]                   @ 4-byte Spill
	ldr	r0, [sp, #136]
	str	r0, [sp, #44]                   @ 4-byte Spill
	ldr	r0, [sp, #124]
	str	r0, [sp, #40]                   @ 4-byte Spill
	ldr	r7, [sp, #128]
	ldr	r6, [sp, #132]
	add	r0, sp, #108
	ldr	r4, [sp, #160]
	ldr	r1, [sp, #68]                   @ 4-byte Reload
	mov	r2, r4
	bl	memcpy
	lsls	r0, r6, #24
	lsrs	r2, r0, #31
	rev	r1, r7
	lsls	r3, r1, #1
	adds	r2, r3, r2
	str	r2, [sp, #24]                   @ 4-byte Spill
	ldr	r2, [sp, #40]                   @ 4-byte Reload
	lsls	r6, r2, #24
	asrs	r2, r6, #31
	movs	r3, #135
	str	r3, [sp, #20]                   @ 4-byte Spill
	ands	r2, r3
	ldr	r3, [sp, #44]                   @ 4-byte Reload
	rev	r7, r3
	lsls	r3, r7, #1
	eors	r3, r2
	ldr	r2, [sp, #48]                   @ 4-byte Reload
	lsls	r2, r2, #16
	adds	r2, r2, r6
	ldr	r6, [sp, #52]                   @ 4-byte Reload
	lsls	r6, r6, #8
	adds	r2, r2, r6
	adds	r2, r2, r5
	lsls	r2, r2, #1
	lsrs	r1, r1, #31
	adds	r5, r2, r1
	ldr	r1, [sp, #56]                   @ 4-byte Reload
	lsls	r1, r1, #16
	adds	r0, r1, r0
	ldr	r1, [sp, #60]                   @ 4-byte Reload
	lsls	r1, r1, #8
	adds	r0, r0, r1
	ldr	r1, [sp, #64]                   @ 4-byte Reload
	adds	r0, r0, r1
	lsls	r0, r0, #1
	lsrs	r1, r7, #31
	adds	r1, r0, r1
	movs	r0, #16
	eors	r0, r4
	ldr	r2, [sp, #164]
	orrs	r2, r0
	bne	.Laes_v6m_BB14_2
@ %bb.1:                                @ %then.1.i
	add	r4, sp, #108
	ldrb	r0, [r4, #15]
	eors	r0, r3
	lsrs	r2, r3, #16
	mov	r7, r5
	ldrb	r5, [r4, #13]
	eors	r5, r2
	str	r5, [sp, #68]                   @ 4-byte Spill
	lsrs	r2, r3, #24
	ldr	r5, [sp, #120]
	eors	r5, r2
	str	r5, [sp, #64]                   @ 4-byte Spill
	ldrb	r2, [r4, #11]
	eors	r2, r1
	str	r2, [sp, #60]                   @ 4-byte Spill
	ldrb	r2, [r4, #14]
	uxth	r3, r3
	lsrs	r3, r3, #8
	eors	r3, r2
	str	r3, [sp, #56]                   @ 4-byte Spill
	ldrb	r2, [r4, #9]
	lsrs	r3, r1, #16
	eors	r3, r2
	str	r3, [sp, #52]                   @ 4-byte Spill
	lsrs	r2, r1, #24
	ldr	r3, [sp, #116]
	eors	r3, r2
	str	r3, [sp, #48]                   @ 4-byte Spill
	ldrb	r2, [r4, #7]
	ldr	r3, [sp, #24]                   @ 4-byte Reload
	eors	r2, r3
	str	r2, [sp, #44]                   @ 4-byte Spill
	ldrb	r2, [r4, #10]
	uxth	r1, r1
	lsrs	r1, r1, #8
	eors	r1, r2
	str	r1, [sp, #40]                   @ 4-byte Spill
	ldrb	r1, [r4, #5]
	lsrs	r2, r3, #16
	eors	r2, r1
	str	r2, [sp, #36]                   @ 4-byte Spill
	lsrs	r1, r3, #24
	ldr	r2, [sp, #112]
	eors	r2, r1
	str	r2, [sp, #32]                   @ 4-byte Spill
	ldrb	r1, [r4, #3]
	eors	r1, r7
	str	r1, [sp, #28]                   @ 4-byte Spill
	ldrb	r2, [r4, #6]
	uxth	r1, r3
	lsrs	r1, r1, #8
	eors	r1, r2
	ldrb	r3, [r4, #1]
	lsrs	r2, r7, #16
	eors	r2, r3
	lsrs	r6, r7, #24
	ldr	r3, [sp, #108]
	eors	r3, r6
	ldrb	r6, [r4, #2]
	uxth	r4, r7
	lsrs	r4, r4, #8
	eors	r4, r6
	b	.Laes_v6m_BB14_3
.Laes_v6m_BB14_2:                               @ %else.2.i
	add	r0, sp, #108
	movs	r2, #128
	strb	r2, [r0, r4]
	lsrs	r2, r3, #7
	uxtb	r2, r2
	ldrb	r4, [r0, #14]
	eors	r4, r2
	str	r4, [sp, #56]                   @ 4-byte Spill
	lsls	r7, r3, #1
	lsrs	r2, r7, #16
	ldrb	r4, [r0, #13]
	eors	r4, r2
	str	r4, [sp, #68]                   @ 4-byte Spill
	lsrs	r2, r7, #24
	ldr	r4, [sp, #120]
	eors	r4, r2
	str	r4, [sp, #64]                   @ 4-byte Spill
	lsrs	r2, r3, #31
	lsls	r3, r1, #1
	adds	r2, r3, r2
	ldrb	r4, [r0, #11]
	eors	r4, r2
	str	r4, [sp, #60]                   @ 4-byte Spill
	ldrb	r2, [r0, #10]
	lsrs	r4, r1, #7
	uxtb	r4, r4
	eors	r4, r2
	str	r4, [sp, #40]                   @ 4-byte Spill
	ldrb	r2, [r0, #9]
	lsrs	r4, r3, #16
	eors	r4, r2
	str	r4, [sp, #52]                   @ 4-byte Spill
	lsrs	r2, r3, #24
	ldr	r3, [sp, #116]
	eors	r3, r2
	str	r3, [sp, #48]                   @ 4-byte Spill
	lsrs	r1, r1, #31
	ldr	r6, [sp, #24]                   @ 4-byte Reload
	lsls	r2, r6, #1
	adds	r1, r2, r1
	ldrb	r3, [r0, #7]
	eors	r3, r1
	str	r3, [sp, #44]                   @ 4-byte Spill
	ldrb	r3, [r0, #6]
	lsrs	r1, r6, #7
	uxtb	r1, r1
	eors	r1, r3
	ldrb	r3, [r0, #5]
	lsrs	r4, r2, #16
	eors	r4, r3
	str	r4, [sp, #36]                   @ 4-byte Spill
	lsrs	r2, r2, #24
	ldr	r3, [sp, #112]
	eors	r3, r2
	str	r3, [sp, #32]                   @ 4-byte Spill
	lsrs	r2, r6, #31
	lsls	r3, r5, #1
	adds	r2, r3, r2
	ldrb	r4, [r0, #3]
	eors	r4, r2
	str	r4, [sp, #28]                   @ 4-byte Spill
	ldrb	r2, [r0, #2]
	lsrs	r4, r5, #7
	uxtb	r4, r4
	eors	r4, r2
	ldrb	r6, [r0, #1]
	lsrs	r2, r3, #16
	eors	r2, r6
	lsrs	r6, r3, #24
	ldr	r3, [sp, #108]
	eors	r3, r6
	asrs	r6, r5, #31
	ldr	r5, [sp, #20]                   @ 4-byte Reload
	ands	r6, r5
	eors	r6, r7
	ldrb	r0, [r0, #15]
	eors	r0, r6
.Laes_v6m_BB14_3:                               @ %"cmac::tags::last_block::<#4f733d09d7f6c6b4>.exit"
	ldr	r5, [sp, #76]                   @ 4-byte Reload
	ldrb	r6, [r5, #15]
	eors	r6, r0
	add	r7, sp, #92
	strb	r6, [r7, #15]
	ldrb	r0, [r5, #14]
	ldr	r6, [sp, #56]                   @ 4-byte Reload
	eors	r0, r6
	strb	r0, [r7, #14]
	ldrb	r0, [r5, #13]
	ldr	r6, [sp, #68]                   @ 4-byte Reload
	eors	r0, r6
	strb	r0, [r7, #13]
	ldrb	r0, [r5, #12]
	ldr	r6, [sp, #64]                   @ 4-byte Reload
	eors	r0, r6
	strb	r0, [r7, #12]
	ldrb	r0, [r5, #11]
	ldr	r6, [sp, #60]                   @ 4-byte Reload
	eors	r0, r6
	strb	r0, [r7, #11]
	ldrb	r0, [r5, #10]
	ldr	r6, [sp, #40]                   @ 4-byte Reload
	eors	r0, r6
	strb	r0, [r7, #10]
	ldrb	r0, [r5, #9]
	ldr	r6, [sp, #52]                   @ 4-byte Reload
	eors	r0, r6
	strb	r0, [r7, #9]
	ldrb	r0, [r5, #8]
	ldr	r6, [sp, #48]                   @ 4-byte Reload
	eors	r0, r6
	strb	r0, [r7, #8]
	ldrb	r0, [r5, #7]
	ldr	r6, [sp, #44]                   @ 4-byte Reload
	eors	r0, r6
	strb	r0, [r7, #7]
	ldrb	r0, [r5, #6]
	eors	r0, r1
	strb	r0, [r7, #6]
	ldrb	r0, [r5, #5]
	ldr	r1, [sp, #36]                   @ 4-byte Reload
	eors	r0, r1
	strb	r0, [r7, #5]
	ldrb	r0, [r5, #4]
	ldr	r1, [sp, #32]                   @ 4-byte Reload
	eors	r0, r1
	strb	r0, [r7, #4]
	ldrb	r0, [r5, #3]
	ldr	r1, [sp, #28]                   @ 4-byte Reload
	eors	r0, r1
	strb	r0, [r7, #3]
	ldrb	r0, [r5, #2]
	eors	r0, r4
	strb	r0, [r7, #2]
	ldrb	r0, [r5, #1]
	eors	r0, r2
	strb	r0, [r7, #1]
	ldrb	r0, [r5]
	eors	r0, r3
	strb	r0, [r7]
	ldr	r5, [sp, #80]                   @ 4-byte Reload
	ldrb	r0, [r5, #15]
	str	r0, [sp, #76]                   @ 4-byte Spill
	ldrb	r0, [r5, #14]
	str	r0, [sp, #68]                   @ 4-byte Spill
	ldrb	r0, [r5, #12]
	str	r0, [sp, #64]                   @ 4-byte Spill
	ldrb	r0, [r5, #13]
	str	r0, [sp, #60]                   @ 4-byte Spill
	ldrb	r0, [r5, #11]
	str	r0, [sp, #56]                   @ 4-byte Spill
	ldrb	r0, [r5, #10]
	str	r0, [sp, #52]                   @ 4-byte Spill
	ldrb	r4, [r5, #8]
	ldrb	r3, [r5, #9]
	ldrb	r2, [r5, #3]
	ldrb	r1, [r5, #2]
	ldrb	r0, [r5]
	ldrb	r5, [r5, #1]
	ldr	r6, [sp, #72]                   @ 4-byte Reload
	str	r6, [sp, #8]
	ldr	r6, [sp, #84]                   @ 4-byte Reload
	str	r6, [sp, #12]
	str	r7, [sp]
	lsls	r5, r5, #8
	adds	r0, r5, r0
	lsls	r1, r1, #16
	lsls	r2, r2, #24
	adds	r1, r2, r1
	adds	r0, r1, r0
	lsls	r1, r3, #8
	adds	r1, r1, r4
	ldr	r2, [sp, #52]                   @ 4-byte Reload
	lsls	r2, r2, #16
	ldr	r3, [sp, #56]                   @ 4-byte Reload
	lsls	r3, r3, #24
	adds	r2, r3, r2
	adds	r2, r2, r1
	ldr	r1, [sp, #60]                   @ 4-byte Reload
	lsls	r1, r1, #8
	ldr	r3, [sp, #64]                   @ 4-byte Reload
	adds	r1, r1, r3
	ldr	r3, [sp, #68]                   @ 4-byte Reload
	lsls	r3, r3, #16
	ldr	r4, [sp, #76]                   @ 4-byte Reload
	lsls	r4, r4, #24
	adds	r3, r4, r3
	adds	r3, r3, r1
	bl	aes_v6m.aes_narrow.blocks.process_all_batches.1
	bl	aes_v6m.aes_cipher.zeroize.stack.wipe_stack.1024
	movs	r2, #16
	ldr	r0, [sp, #88]                   @ 4-byte Reload
	mov	r1, r7
	bl	memcpy
	add	sp, #140
	pop	{r4, r5, r6, r7, pc}
.Laes_v6m_func_end14:
	.size	aes_v6m.cmac.tags.tag_at_end, .Laes_v6m_func_end14-aes_v6m.cmac.tags.tag_at_end
	.cantunwind
	.fnend
                                        @ -- End function
	.section	.text.aes_v6m.cmac.pieces.MessageZeroize.zeroize,"ax",%progbits
	.p2align	1                               @ -- Begin function cmac::pieces::MessageZeroize::zeroize
	.type	aes_v6m.cmac.pieces.MessageZeroize.zeroize,%function
	.code	16
	.thumb_func
aes_v6m.cmac.pieces.MessageZeroize.zeroize: @ @aes_v6m.cmac.pieces.MessageZeroize.zeroize
	.fnstart
@ %bb.0:                                @ %start
	.save	{r4, lr}
	push	{r4, lr}
	mov	r4, r0
	movs	r0, #0
	str	r0, [r4]
	str	r0, [r4, #4]
	str	r0, [r4, #8]
	str	r0, [r4, #12]
	mov	r0, r4
	adds	r0, #16
	bl	aes_v6m.aes_cipher.zeroize.elements.zeroize_elements.2
	adds	r4, #32
	mov	r0, r4
	bl	aes_v6m.aes_cipher.zeroize.elements.zeroize_elements.2
	pop	{r4, pc}
.Laes_v6m_func_end15:
	.size	aes_v6m.cmac.pieces.MessageZeroize.zeroize, .Laes_v6m_func_end15-aes_v6m.cmac.pieces.MessageZeroize.zeroize
	.cantunwind
	.fnend
                                        @ -- End function
	.section	.text.aes_v6m.aes_cipher.zeroize.elements.zeroize_elements.2,"ax",%progbits
	.p2align	1                               @ -- Begin function aes_cipher::zeroize::elements::zeroize_elements::<#331496ca003a3905>
	.type	aes_v6m.aes_cipher.zeroize.elements.zeroize_elements.2,%function
	.code	16
	.thumb_func
aes_v6m.aes_cipher.zeroize.elements.zeroize_elements.2: @ @aes_v6m.aes_cipher.zeroize.elements.zeroize_elements.2
	.fnstart
@ %bb.0:                                @ %start
	.save	{r4, lr}
	push	{r4, lr}
	.pad	#8
	sub	sp, #8
	movs	r4, #0
	str	r4, [sp, #4]
	str	r4, [sp]
	@APP
	@NO_APP
	ldr	r1, [sp, #4]
	ldr	r1, [sp]
	@APP
	@NO_APP
	movs	r2, #16
	mov	r1, r4
	bl	memset
	@APP
	@NO_APP
	ldr	r0, [sp, #4]
	ldr	r0, [sp]
	str	r4, [sp, #4]
	str	r4, [sp]
	@APP
	@NO_APP
	add	sp, #8
	pop	{r4, pc}
.Laes_v6m_func_end16:
	.size	aes_v6m.aes_cipher.zeroize.elements.zeroize_elements.2, .Laes_v6m_func_end16-aes_v6m.aes_cipher.zeroize.elements.zeroize_elements.2
	.cantunwind
	.fnend
                                        @ -- End function
	.section	.text.aes_v6m.cmac.chain_in_pieces.ChainInPieces.extend,"ax",%progbits
	.p2align	1                               @ -- Begin function cmac::chain_in_pieces::ChainInPieces::extend::<#4f733d09d7f6c6b4>
	.type	aes_v6m.cmac.chain_in_pieces.ChainInPieces.extend,%function
	.code	16
	.thumb_func
aes_v6m.cmac.chain_in_pieces.ChainInPieces.extend: @ @aes_v6m.cmac.chain_in_pieces.ChainInPieces.extend
	.fnstart
@ %bb.0:                                @ %start
	.save	{r4, r5, r6, r7, lr}
	push	{r4, r5, r6, r7, lr}
	.pad	#60
	sub	sp, #60
	str	r1, [sp, #36]                   @ 4-byte Spill
	mov	r5, r0
	ldr	r4, [r0]
	movs	r0, #16
	cmp	r4, #16
	blo	.Laes_v6m_BB17_2
@ %bb.1:                                @ %start
	mov	r4, r0
.Laes_v6m_BB17_2:                               @ %start
	ldr	r1, [r5, #4]
	cmp	r1, #0
	beq	.Laes_v6m_BB17_4
@ %bb.3:                                @ %start
	mov	r4, r0
.Laes_v6m_BB17_4:                               @ %start
	movs	r6, #0
	subs	r0, r0, r4
	mov	r1, r6
	sbcs	r1, r6
	ldr	r3, [sp, #84]
	ldr	r7, [sp, #80]
	str	r0, [sp, #56]                   @ 4-byte Spill
	subs	r0, r0, r7
	mov	r0, r1
	sbcs	r0, r3
	str	r3, [sp, #28]                   @ 4-byte Spill
	bhs	.Laes_v6m_BB17_13
@ %bb.5:                                @ %join.3
	str	r7, [sp, #16]                   @ 4-byte Spill
	str	r5, [sp, #40]                   @ 4-byte Spill
	ldr	r5, [sp, #56]                   @ 4-byte Reload
	subs	r0, r7, r5
	str	r0, [sp, #32]                   @ 4-byte Spill
	mov	r0, r3
	sbcs	r0, r1
	str	r0, [sp, #44]                   @ 4-byte Spill
	adds	r0, r2, r5
	str	r0, [sp, #24]                   @ 4-byte Spill
	ldr	r7, [sp, #40]                   @ 4-byte Reload
	adds	r7, #24
	adds	r0, r7, r4
	str	r4, [sp, #20]                   @ 4-byte Spill
	subs	r3, r0, r2
	str	r3, [sp, #52]                   @ 4-byte Spill
	mov	r5, r6
	sbcs	r5, r6
	ldr	r4, [sp, #56]                   @ 4-byte Reload
	ldr	r3, [sp, #52]                   @ 4-byte Reload
	subs	r4, r3, r4
	sbcs	r5, r1
	blo	.Laes_v6m_BB17_6
	b	.Laes_v6m_BB17_21
.Laes_v6m_BB17_6:                               @ %join.7.i.i.i.i.i.i39.preheader
	movs	r1, #3
	ldr	r3, [sp, #56]                   @ 4-byte Reload
	str	r1, [sp, #52]                   @ 4-byte Spill
	ands	r3, r1
	movs	r4, #0
	ldr	r1, [sp, #20]                   @ 4-byte Reload
	subs	r1, #13
	mov	r5, r4
	sbcs	r5, r4
	subs	r1, r1, #3
	sbcs	r5, r4
	blo	.Laes_v6m_BB17_10
@ %bb.7:                                @ %join.7.i.i.i.i.i.i39.preheader.new
	str	r3, [sp, #12]                   @ 4-byte Spill
	movs	r1, #28
	ldr	r3, [sp, #56]                   @ 4-byte Reload
	ands	r3, r1
	str	r3, [sp, #56]                   @ 4-byte Spill
	movs	r5, #0
	mov	r4, r5
	str	r5, [sp, #48]                   @ 4-byte Spill
.Laes_v6m_BB17_8:                               @ %join.7.i.i.i.i.i.i39
                                        @ =>This Inner Loop Header: Depth=1
	ldrb	r1, [r2, r4]
	strb	r1, [r0, r4]
	movs	r1, #1
	orrs	r1, r4
	ldrb	r3, [r2, r1]
	strb	r3, [r0, r1]
	movs	r1, #2
	orrs	r1, r4
	ldrb	r3, [r2, r1]
	strb	r3, [r0, r1]
	mov	r1, r4
	ldr	r3, [sp, #52]                   @ 4-byte Reload
	orrs	r1, r3
	ldrb	r3, [r2, r1]
	strb	r3, [r0, r1]
	adds	r4, r4, #4
	ldr	r1, [sp, #48]                   @ 4-byte Reload
	adcs	r5, r1
	mov	r1, r4
	ldr	r3, [sp, #56]                   @ 4-byte Reload
	eors	r1, r3
	orrs	r1, r5
	bne	.Laes_v6m_BB17_8
@ %bb.9:                                @ %"core::slice::edits::slice+T::copy_from_slice::<i8,20'core::clone::U8Clone{}>.exit46.loopexit.unr-lcssa"
	ldr	r3, [sp, #12]                   @ 4-byte Reload
	cmp	r3, #0
	beq	.Laes_v6m_BB17_22
.Laes_v6m_BB17_10:                              @ %join.7.i.i.i.i.i.i39.epil.preheader
	ldrb	r1, [r2, r4]
	strb	r1, [r0, r4]
	cmp	r3, #1
	beq	.Laes_v6m_BB17_22
@ %bb.11:                               @ %join.7.i.i.i.i.i.i39.epil.1
	adds	r1, r4, #1
	mov	r5, r3
	ldrb	r3, [r2, r1]
	strb	r3, [r0, r1]
	cmp	r5, #2
	beq	.Laes_v6m_BB17_22
@ %bb.12:                               @ %join.7.i.i.i.i.i.i39.epil.2
	adds	r1, r4, #2
	ldrb	r2, [r2, r1]
	strb	r2, [r0, r1]
	b	.Laes_v6m_BB17_22
.Laes_v6m_BB17_13:                              @ %then.1
	adds	r0, r4, r7
	str	r0, [sp, #36]                   @ 4-byte Spill
	mov	r1, r3
	adcs	r1, r6
	str	r1, [sp, #44]                   @ 4-byte Spill
	adds	r0, r5, r4
	adds	r0, #24
	subs	r1, r0, r2
	mov	r4, r3
	mov	r3, r6
	sbcs	r3, r6
	subs	r1, r1, r7
	sbcs	r3, r4
	blo	.Laes_v6m_BB17_14
	b	.Laes_v6m_BB17_30
.Laes_v6m_BB17_14:                              @ %join.7.i.i.i.i.i.i.preheader
	movs	r1, #3
	mov	r3, r7
	str	r1, [sp, #56]                   @ 4-byte Spill
	ands	r3, r1
	subs	r4, r7, #4
	ldr	r1, [sp, #28]                   @ 4-byte Reload
	sbcs	r1, r6
	ldr	r1, [sp, #36]                   @ 4-byte Reload
	blo	.Laes_v6m_BB17_18
@ %bb.15:                               @ %join.7.i.i.i.i.i.i.preheader.new
	str	r3, [sp, #52]                   @ 4-byte Spill
	str	r5, [sp, #40]                   @ 4-byte Spill
	ldr	r1, [sp, #56]                   @ 4-byte Reload
	bics	r7, r1
	movs	r5, #0
	mov	r6, r5
	mov	r4, r5
	mov	r3, r7
.Laes_v6m_BB17_16:                              @ %join.7.i.i.i.i.i.i
                                        @ =>This Inner Loop Header: Depth=1
	ldrb	r7, [r2, r6]
	strb	r7, [r0, r6]
	movs	r7, #1
	orrs	r7, r6
	ldrb	r1, [r2, r7]
	strb	r1, [r0, r7]
	movs	r1, #2
	orrs	r1, r6
	ldrb	r7, [r2, r1]
	strb	r7, [r0, r1]
	mov	r1, r6
	ldr	r7, [sp, #56]                   @ 4-byte Reload
	orrs	r1, r7
	ldrb	r7, [r2, r1]
	strb	r7, [r0, r1]
	adds	r6, r6, #4
	adcs	r4, r5
	mov	r1, r6
	eors	r1, r3
	orrs	r1, r4
	bne	.Laes_v6m_BB17_16
@ %bb.17:                               @ %common.ret.loopexit72.unr-lcssa
	ldr	r3, [sp, #52]                   @ 4-byte Reload
	cmp	r3, #0
	ldr	r5, [sp, #40]                   @ 4-byte Reload
	ldr	r1, [sp, #36]                   @ 4-byte Reload
	bne	.Laes_v6m_BB17_18
	b	.Laes_v6m_BB17_33
.Laes_v6m_BB17_18:                              @ %join.7.i.i.i.i.i.i.epil.preheader
	mov	r7, r3
	ldrb	r3, [r2, r6]
	strb	r3, [r0, r6]
	cmp	r7, #1
	bne	.Laes_v6m_BB17_19
	b	.Laes_v6m_BB17_33
.Laes_v6m_BB17_19:                              @ %join.7.i.i.i.i.i.i.epil.1
	adds	r3, r6, #1
	ldrb	r4, [r2, r3]
	strb	r4, [r0, r3]
	cmp	r7, #2
	bne	.Laes_v6m_BB17_20
	b	.Laes_v6m_BB17_33
.Laes_v6m_BB17_20:                              @ %join.7.i.i.i.i.i.i.epil.2
	mov	r3, r1
	adds	r1, r6, #2
	ldrb	r2, [r2, r1]
	strb	r2, [r0, r1]
	mov	r1, r3
	b	.Laes_v6m_BB17_33
.Laes_v6m_BB17_21:                              @ %apart.2.i.i.i.i.i.i37
	mov	r1, r2
	ldr	r2, [sp, #56]                   @ 4-byte Reload
	bl	memmove
.Laes_v6m_BB17_22:                              @ %"core::slice::edits::slice+T::copy_from_slice::<i8,20'core::clone::U8Clone{}>.exit46"
	movs	r0, #16
	str	r0, [sp]
	str	r6, [sp, #4]
	ldr	r1, [sp, #40]                   @ 4-byte Reload
	adds	r1, #8
	str	r1, [sp, #56]                   @ 4-byte Spill
	ldr	r0, [sp, #36]                   @ 4-byte Reload
	mov	r2, r7
	bl	aes_v6m.cmac.chaining.chain
	ldr	r0, [sp, #32]                   @ 4-byte Reload
	subs	r4, r0, #1
	ldr	r5, [sp, #44]                   @ 4-byte Reload
	sbcs	r5, r6
	movs	r0, #15
	bics	r4, r0
	str	r4, [sp]
	str	r5, [sp, #4]
	ldr	r0, [sp, #36]                   @ 4-byte Reload
	ldr	r1, [sp, #56]                   @ 4-byte Reload
	ldr	r2, [sp, #24]                   @ 4-byte Reload
	bl	aes_v6m.cmac.chaining.chain
	ldr	r0, [sp, #32]                   @ 4-byte Reload
	subs	r3, r0, r4
	str	r5, [sp, #56]                   @ 4-byte Spill
	ldr	r0, [sp, #44]                   @ 4-byte Reload
	sbcs	r0, r5
	mov	r5, r4
	ldr	r1, [sp, #24]                   @ 4-byte Reload
	adds	r1, r1, r4
	mov	r4, r0
	subs	r0, r7, r1
	mov	r2, r6
	sbcs	r2, r6
	str	r3, [sp, #36]                   @ 4-byte Spill
	subs	r0, r0, r3
	str	r4, [sp, #44]                   @ 4-byte Spill
	sbcs	r2, r4
	bhs	.Laes_v6m_BB17_32
@ %bb.23:                               @ %join.7.i.i.i.i.i.i60.preheader
	ldr	r0, [sp, #16]                   @ 4-byte Reload
	ldr	r2, [sp, #20]                   @ 4-byte Reload
	adds	r0, r0, r2
	ldr	r2, [sp, #28]                   @ 4-byte Reload
	adcs	r2, r6
	subs	r0, r0, r5
	ldr	r5, [sp, #56]                   @ 4-byte Reload
	sbcs	r2, r5
	subs	r0, #17
	sbcs	r2, r6
	movs	r5, #3
	ldr	r3, [sp, #32]                   @ 4-byte Reload
	ands	r3, r5
	subs	r0, r0, #3
	sbcs	r2, r6
	mov	r0, r6
	blo	.Laes_v6m_BB17_27
@ %bb.24:                               @ %join.7.i.i.i.i.i.i60.preheader.new
	ldr	r0, [sp, #36]                   @ 4-byte Reload
	str	r3, [sp, #32]                   @ 4-byte Spill
	subs	r0, r0, r3
	str	r0, [sp, #56]                   @ 4-byte Spill
	ldr	r4, [sp, #44]                   @ 4-byte Reload
	sbcs	r4, r6
	str	r4, [sp, #52]                   @ 4-byte Spill
	mov	r0, r6
	str	r5, [sp, #48]                   @ 4-byte Spill
	mov	r5, r6
.Laes_v6m_BB17_25:                              @ %join.7.i.i.i.i.i.i60
                                        @ =>This Inner Loop Header: Depth=1
	ldrb	r2, [r1, r0]
	strb	r2, [r7, r0]
	movs	r2, #1
	orrs	r2, r0
	ldrb	r3, [r1, r2]
	strb	r3, [r7, r2]
	movs	r2, #2
	orrs	r2, r0
	ldrb	r3, [r1, r2]
	strb	r3, [r7, r2]
	mov	r2, r0
	ldr	r3, [sp, #48]                   @ 4-byte Reload
	orrs	r2, r3
	ldrb	r3, [r1, r2]
	strb	r3, [r7, r2]
	adds	r0, r0, #4
	adcs	r5, r6
	mov	r2, r5
	ldr	r3, [sp, #52]                   @ 4-byte Reload
	eors	r2, r3
	mov	r3, r0
	ldr	r4, [sp, #56]                   @ 4-byte Reload
	eors	r3, r4
	orrs	r3, r2
	bne	.Laes_v6m_BB17_25
@ %bb.26:                               @ %common.ret.loopexit.unr-lcssa
	ldr	r3, [sp, #32]                   @ 4-byte Reload
	cmp	r3, #0
	beq	.Laes_v6m_BB17_29
.Laes_v6m_BB17_27:                              @ %join.7.i.i.i.i.i.i60.epil.preheader
	ldrb	r2, [r1, r0]
	strb	r2, [r7, r0]
	cmp	r3, #1
	beq	.Laes_v6m_BB17_29
@ %bb.28:                               @ %join.7.i.i.i.i.i.i60.epil.1
	adds	r2, r0, #1
	mov	r5, r3
	ldrb	r3, [r1, r2]
	strb	r3, [r7, r2]
	cmp	r5, #2
	bne	.Laes_v6m_BB17_34
.Laes_v6m_BB17_29:
	ldr	r5, [sp, #40]                   @ 4-byte Reload
	b	.Laes_v6m_BB17_31
.Laes_v6m_BB17_30:                              @ %apart.2.i.i.i.i.i.i
	mov	r1, r2
	mov	r2, r7
	bl	memmove
.Laes_v6m_BB17_31:                              @ %common.ret
	ldr	r1, [sp, #36]                   @ 4-byte Reload
	b	.Laes_v6m_BB17_33
.Laes_v6m_BB17_32:                              @ %apart.2.i.i.i.i.i.i58
	mov	r0, r7
	ldr	r6, [sp, #36]                   @ 4-byte Reload
	mov	r2, r6
	bl	memmove
	ldr	r5, [sp, #40]                   @ 4-byte Reload
	mov	r1, r6
.Laes_v6m_BB17_33:                              @ %common.ret
	str	r1, [r5]
	ldr	r0, [sp, #44]                   @ 4-byte Reload
	str	r0, [r5, #4]
	add	sp, #60
	pop	{r4, r5, r6, r7, pc}
.Laes_v6m_BB17_34:                              @ %join.7.i.i.i.i.i.i60.epil.2
	adds	r0, r0, #2
	ldrb	r1, [r1, r0]
	strb	r1, [r7, r0]
	ldr	r5, [sp, #40]                   @ 4-byte Reload
	b	.Laes_v6m_BB17_31
.Laes_v6m_func_end17:
	.size	aes_v6m.cmac.chain_in_pieces.ChainInPieces.extend, .Laes_v6m_func_end17-aes_v6m.cmac.chain_in_pieces.ChainInPieces.extend
	.cantunwind
	.fnend
                                        @ -- End function
	.section	.text.aes_v6m.key_wrap.wrapping.wrap,"ax",%progbits
	.p2align	1                               @ -- Begin function key_wrap::wrapping::wrap::<#4f733d09d7f6c6b4>
	.type	aes_v6m.key_wrap.wrapping.wrap,%function
	.code	16
	.thumb_func
aes_v6m.key_wrap.wrapping.wrap: @ @aes_v6m.key_wrap.wrapping.wrap
	.fnstart
@ %bb.0:                                @ %start
	.save	{r4, r5, r6, r7, lr}
	push	{r4, r5, r6, r7, lr}
	.pad	#68
	sub	sp, #68
	str	r1, [sp, #32]                   @ 4-byte Spill
	str	r0, [sp, #28]                   @ 4-byte Spill
	movs	r0, #0
	adds	r6, r2, #1
	mov	r7, r3
	adcs	r7, r0
	movs	r4, #1
	subs	r5, r2, #2
	mov	r5, r3
	sbcs	r5, r0
	bhs	.Laes_v6m_BB18_1
	b	.Laes_v6m_BB18_12
.Laes_v6m_BB18_1:                               @ %start
	mov	r1, r2
	ldr	r2, [sp, #100]
	ldr	r5, [sp, #96]
	eors	r6, r5
	eors	r7, r2
	orrs	r7, r6
	beq	.Laes_v6m_BB18_2
	b	.Laes_v6m_BB18_12
.Laes_v6m_BB18_2:                               @ %arm.12
	ldr	r6, [sp, #88]
	movs	r4, #166
	strb	r4, [r6, #7]
	strb	r4, [r6, #6]
	strb	r4, [r6, #5]
	strb	r4, [r6, #4]
	strb	r4, [r6, #3]
	strb	r4, [r6, #2]
	strb	r4, [r6, #1]
	strb	r4, [r6]
	subs	r4, r5, #1
	str	r4, [sp, #12]                   @ 4-byte Spill
	sbcs	r2, r0
	str	r2, [sp, #20]                   @ 4-byte Spill
	lsrs	r4, r1, #29
	lsls	r5, r3, #3
	adds	r2, r5, r4
	str	r2, [sp, #64]                   @ 4-byte Spill
	str	r6, [sp, #16]                   @ 4-byte Spill
	mov	r5, r6
	adds	r5, #8
	ldr	r4, [sp, #32]                   @ 4-byte Reload
	subs	r7, r5, r4
	str	r0, [sp, #24]                   @ 4-byte Spill
	mov	r6, r0
	mov	r2, r1
	sbcs	r6, r0
	lsls	r0, r1, #3
	subs	r7, r7, r0
	ldr	r1, [sp, #64]                   @ 4-byte Reload
	sbcs	r6, r1
	blo	.Laes_v6m_BB18_3
	b	.Laes_v6m_BB18_10
.Laes_v6m_BB18_3:                               @ %join.7.i.i.i.i.i.i.preheader
	movs	r4, #3
	mov	r1, r2
	ands	r1, r4
	movs	r6, #0
	subs	r0, r2, #4
	sbcs	r3, r6
	str	r1, [sp, #8]                    @ 4-byte Spill
	bhs	.Laes_v6m_BB18_4
	b	.Laes_v6m_BB18_7
.Laes_v6m_BB18_4:                               @ %join.7.i.i.i.i.i.i.preheader.new
	bics	r2, r4
	movs	r0, #0
	mov	r3, r0
	str	r0, [sp, #36]                   @ 4-byte Spill
	mov	r1, r0
	ldr	r6, [sp, #32]                   @ 4-byte Reload
	mov	r7, r5
	str	r2, [sp, #40]                   @ 4-byte Spill
.Laes_v6m_BB18_5:                               @ %join.7.i.i.i.i.i.i
                                        @ =>This Inner Loop Header: Depth=1
	str	r1, [sp, #60]                   @ 4-byte Spill
	str	r3, [sp, #64]                   @ 4-byte Spill
	lsls	r4, r3, #3
	adds	r0, r6, r4
	ldrb	r1, [r0, #1]
	str	r1, [sp, #56]                   @ 4-byte Spill
	ldrb	r1, [r0, #2]
	str	r1, [sp, #52]                   @ 4-byte Spill
	ldrb	r1, [r0, #3]
	str	r1, [sp, #48]                   @ 4-byte Spill
	ldrb	r2, [r0, #4]
	ldrb	r1, [r0, #5]
	ldrb	r3, [r0, #6]
	ldrb	r0, [r0, #7]
	ldrb	r5, [r6, r4]
	strb	r5, [r7, r4]
	adds	r5, r7, r4
	strb	r0, [r5, #7]
	strb	r3, [r5, #6]
	strb	r1, [r5, #5]
	strb	r2, [r5, #4]
	ldr	r0, [sp, #48]                   @ 4-byte Reload
	strb	r0, [r5, #3]
	ldr	r0, [sp, #52]                   @ 4-byte Reload
	strb	r0, [r5, #2]
	ldr	r0, [sp, #56]                   @ 4-byte Reload
	strb	r0, [r5, #1]
	movs	r0, #8
	orrs	r0, r4
	adds	r1, r6, r0
	ldrb	r2, [r1, #4]
	str	r2, [sp, #56]                   @ 4-byte Spill
	ldrb	r2, [r1, #5]
	str	r2, [sp, #52]                   @ 4-byte Spill
	ldrb	r2, [r1, #7]
	str	r2, [sp, #48]                   @ 4-byte Spill
	ldrb	r2, [r1, #6]
	str	r2, [sp, #44]                   @ 4-byte Spill
	ldrb	r3, [r1, #1]
	ldrb	r2, [r1, #2]
	ldrb	r1, [r1, #3]
	ldrb	r5, [r6, r0]
	strb	r5, [r7, r0]
	adds	r0, r7, r0
	strb	r1, [r0, #3]
	strb	r2, [r0, #2]
	strb	r3, [r0, #1]
	ldr	r1, [sp, #44]                   @ 4-byte Reload
	strb	r1, [r0, #6]
	ldr	r1, [sp, #48]                   @ 4-byte Reload
	strb	r1, [r0, #7]
	ldr	r1, [sp, #52]                   @ 4-byte Reload
	strb	r1, [r0, #5]
	ldr	r1, [sp, #56]                   @ 4-byte Reload
	strb	r1, [r0, #4]
	movs	r0, #16
	orrs	r0, r4
	adds	r1, r6, r0
	ldrb	r2, [r1, #7]
	str	r2, [sp, #56]                   @ 4-byte Spill
	ldrb	r2, [r1, #6]
	str	r2, [sp, #52]                   @ 4-byte Spill
	ldrb	r2, [r1, #1]
	str	r2, [sp, #48]                   @ 4-byte Spill
	ldrb	r2, [r1, #2]
	str	r2, [sp, #44]                   @ 4-byte Spill
	ldrb	r5, [r1, #3]
	ldrb	r2, [r1, #4]
	ldrb	r1, [r1, #5]
	ldrb	r3, [r6, r0]
	strb	r3, [r7, r0]
	adds	r0, r7, r0
	strb	r1, [r0, #5]
	strb	r2, [r0, #4]
	strb	r5, [r0, #3]
	ldr	r1, [sp, #44]                   @ 4-byte Reload
	strb	r1, [r0, #2]
	ldr	r1, [sp, #48]                   @ 4-byte Reload
	strb	r1, [r0, #1]
	ldr	r1, [sp, #52]                   @ 4-byte Reload
	strb	r1, [r0, #6]
	ldr	r1, [sp, #56]                   @ 4-byte Reload
	strb	r1, [r0, #7]
	movs	r0, #24
	orrs	r0, r4
	adds	r1, r6, r0
	ldrb	r2, [r1, #1]
	str	r2, [sp, #56]                   @ 4-byte Spill
	ldrb	r2, [r1, #2]
	str	r2, [sp, #52]                   @ 4-byte Spill
	ldrb	r2, [r1, #3]
	str	r2, [sp, #48]                   @ 4-byte Spill
	ldrb	r5, [r1, #4]
	ldrb	r4, [r1, #5]
	ldrb	r3, [r1, #6]
	ldrb	r1, [r1, #7]
	ldrb	r2, [r6, r0]
	strb	r2, [r7, r0]
	ldr	r2, [sp, #40]                   @ 4-byte Reload
	adds	r0, r7, r0
	strb	r1, [r0, #7]
	ldr	r1, [sp, #60]                   @ 4-byte Reload
	strb	r3, [r0, #6]
	ldr	r3, [sp, #64]                   @ 4-byte Reload
	strb	r4, [r0, #5]
	strb	r5, [r0, #4]
	ldr	r4, [sp, #48]                   @ 4-byte Reload
	strb	r4, [r0, #3]
	ldr	r4, [sp, #52]                   @ 4-byte Reload
	strb	r4, [r0, #2]
	ldr	r4, [sp, #56]                   @ 4-byte Reload
	strb	r4, [r0, #1]
	adds	r3, r3, #4
	ldr	r0, [sp, #36]                   @ 4-byte Reload
	adcs	r1, r0
	mov	r0, r3
	eors	r0, r2
	orrs	r0, r1
	bne	.Laes_v6m_BB18_5
@ %bb.6:                                @ %"core::slice::edits::slice+T::copy_from_slice::<#76f67ba6cf9709da>.exit.loopexit.unr-lcssa"
	ldr	r1, [sp, #8]                    @ 4-byte Reload
	cmp	r1, #0
	mov	r5, r7
	mov	r6, r3
	beq	.Laes_v6m_BB18_11
.Laes_v6m_BB18_7:                               @ %join.7.i.i.i.i.i.i.epil.preheader
	lsls	r2, r6, #3
	ldr	r1, [sp, #32]                   @ 4-byte Reload
	adds	r0, r1, r2
	ldrb	r3, [r0, #1]
	str	r3, [sp, #64]                   @ 4-byte Spill
	ldrb	r3, [r0, #3]
	str	r3, [sp, #60]                   @ 4-byte Spill
	ldrb	r4, [r0, #2]
	mov	r3, r5
	ldrb	r5, [r0, #5]
	ldrb	r6, [r0, #4]
	ldrb	r7, [r0, #7]
	ldrb	r0, [r0, #6]
	ldrb	r1, [r1, r2]
	strb	r1, [r3, r2]
	adds	r1, r3, r2
	strb	r0, [r1, #6]
	strb	r7, [r1, #7]
	strb	r6, [r1, #4]
	strb	r5, [r1, #5]
	mov	r5, r3
	strb	r4, [r1, #2]
	ldr	r0, [sp, #60]                   @ 4-byte Reload
	strb	r0, [r1, #3]
	ldr	r0, [sp, #64]                   @ 4-byte Reload
	strb	r0, [r1, #1]
	ldr	r1, [sp, #8]                    @ 4-byte Reload
	cmp	r1, #1
	beq	.Laes_v6m_BB18_11
@ %bb.8:                                @ %join.7.i.i.i.i.i.i.epil.1
	mov	r0, r2
	adds	r0, #8
	ldr	r4, [sp, #32]                   @ 4-byte Reload
	adds	r1, r4, r0
	ldrb	r5, [r1, #1]
	str	r5, [sp, #64]                   @ 4-byte Spill
	ldrb	r5, [r1, #3]
	str	r5, [sp, #60]                   @ 4-byte Spill
	ldrb	r5, [r1, #2]
	str	r5, [sp, #56]                   @ 4-byte Spill
	ldrb	r6, [r1, #5]
	ldrb	r7, [r1, #4]
	ldrb	r5, [r1, #7]
	ldrb	r1, [r1, #6]
	ldrb	r4, [r4, r0]
	strb	r4, [r3, r0]
	adds	r0, r3, r0
	strb	r1, [r0, #6]
	strb	r5, [r0, #7]
	strb	r7, [r0, #4]
	strb	r6, [r0, #5]
	ldr	r1, [sp, #56]                   @ 4-byte Reload
	strb	r1, [r0, #2]
	mov	r5, r3
	ldr	r1, [sp, #60]                   @ 4-byte Reload
	strb	r1, [r0, #3]
	ldr	r1, [sp, #64]                   @ 4-byte Reload
	strb	r1, [r0, #1]
	ldr	r0, [sp, #8]                    @ 4-byte Reload
	cmp	r0, #2
	beq	.Laes_v6m_BB18_11
@ %bb.9:                                @ %join.7.i.i.i.i.i.i.epil.2
	adds	r2, #16
	ldr	r1, [sp, #32]                   @ 4-byte Reload
	adds	r0, r1, r2
	ldrb	r4, [r0, #1]
	str	r4, [sp, #64]                   @ 4-byte Spill
	ldrb	r4, [r0, #3]
	str	r4, [sp, #60]                   @ 4-byte Spill
	ldrb	r4, [r0, #2]
	ldrb	r5, [r0, #5]
	ldrb	r6, [r0, #4]
	ldrb	r7, [r0, #7]
	ldrb	r0, [r0, #6]
	ldrb	r1, [r1, r2]
	strb	r1, [r3, r2]
	adds	r1, r3, r2
	strb	r0, [r1, #6]
	strb	r7, [r1, #7]
	strb	r6, [r1, #4]
	strb	r5, [r1, #5]
	mov	r5, r3
	strb	r4, [r1, #2]
	ldr	r0, [sp, #60]                   @ 4-byte Reload
	strb	r0, [r1, #3]
	ldr	r0, [sp, #64]                   @ 4-byte Reload
	strb	r0, [r1, #1]
	b	.Laes_v6m_BB18_11
.Laes_v6m_BB18_10:                              @ %apart.2.i.i.i.i.i.i
	mov	r2, r0
	mov	r0, r5
	mov	r1, r4
	bl	memmove
.Laes_v6m_BB18_11:                              @ %"core::slice::edits::slice+T::copy_from_slice::<#76f67ba6cf9709da>.exit"
	ldr	r0, [sp, #12]                   @ 4-byte Reload
	str	r0, [sp]
	ldr	r0, [sp, #20]                   @ 4-byte Reload
	str	r0, [sp, #4]
	ldr	r0, [sp, #28]                   @ 4-byte Reload
	ldr	r1, [sp, #16]                   @ 4-byte Reload
	mov	r2, r5
	bl	aes_v6m.key_wrap.steps.wrap_in_place
	ldr	r4, [sp, #24]                   @ 4-byte Reload
.Laes_v6m_BB18_12:                              @ %return.10
	mov	r0, r4
	add	sp, #68
	pop	{r4, r5, r6, r7, pc}
.Laes_v6m_func_end18:
	.size	aes_v6m.key_wrap.wrapping.wrap, .Laes_v6m_func_end18-aes_v6m.key_wrap.wrapping.wrap
	.cantunwind
	.fnend
                                        @ -- End function
	.section	.text.aes_v6m.key_wrap.steps.wrap_in_place,"ax",%progbits
	.p2align	1                               @ -- Begin function key_wrap::steps::wrap_in_place::<#4f733d09d7f6c6b4>
	.type	aes_v6m.key_wrap.steps.wrap_in_place,%function
	.code	16
	.thumb_func
aes_v6m.key_wrap.steps.wrap_in_place: @ @aes_v6m.key_wrap.steps.wrap_in_place
	.fnstart
@ %bb.0:                                @ %start
	.save	{r4, r5, r6, r7, lr}
	push	{r4, r5, r6, r7, lr}
	.pad	#124
	sub	sp, #124
	mov	r5, r1
	str	r0, [sp, #88]                   @ 4-byte Spill
	ldr	r1, [sp, #148]
	ldr	r3, [sp, #144]
	mov	r0, r3
	orrs	r0, r1
	bne	.Laes_v6m_BB19_1
	bl	.Laes_v6m_BB19_13
.Laes_v6m_BB19_1:                               @ %join.5.preheader
	ldrb	r0, [r5, #4]
	str	r1, [sp, #96]                   @ 4-byte Spill
	ldrb	r1, [r5, #5]
	lsls	r1, r1, #8
	adds	r0, r1, r0
	ldrb	r1, [r5, #6]
	lsls	r1, r1, #16
	str	r3, [sp, #92]                   @ 4-byte Spill
	ldrb	r3, [r5, #7]
	lsls	r3, r3, #24
	adds	r1, r3, r1
	adds	r4, r1, r0
	ldrb	r0, [r5]
	ldrb	r1, [r5, #1]
	lsls	r1, r1, #8
	adds	r0, r1, r0
	ldrb	r1, [r5, #2]
	lsls	r1, r1, #16
	ldrb	r3, [r5, #3]
	lsls	r3, r3, #24
	adds	r1, r3, r1
	adds	r7, r1, r0
	movs	r0, #0
	mov	r6, r0
	str	r0, [sp, #76]                   @ 4-byte Spill
	str	r0, [sp, #72]                   @ 4-byte Spill
	str	r2, [sp, #100]                  @ 4-byte Spill
.Laes_v6m_BB19_2:                               @ %join.5.i
                                        @ =>This Inner Loop Header: Depth=1
	str	r6, [sp, #80]                   @ 4-byte Spill
	ldr	r0, [sp, #88]                   @ 4-byte Reload
	ldrb	r1, [r0, #15]
	str	r1, [sp, #68]                   @ 4-byte Spill
	ldrb	r1, [r0, #14]
	str	r1, [sp, #64]                   @ 4-byte Spill
	ldrb	r1, [r0, #12]
	str	r1, [sp, #60]                   @ 4-byte Spill
	ldrb	r1, [r0, #13]
	str	r1, [sp, #56]                   @ 4-byte Spill
	ldrb	r1, [r0, #11]
	str	r1, [sp, #52]                   @ 4-byte Spill
	ldrb	r1, [r0, #10]
	str	r1, [sp, #48]                   @ 4-byte Spill
	ldrb	r1, [r0, #8]
	str	r1, [sp, #44]                   @ 4-byte Spill
	ldrb	r1, [r0, #9]
	str	r1, [sp, #40]                   @ 4-byte Spill
	ldrb	r1, [r0, #3]
	str	r1, [sp, #36]                   @ 4-byte Spill
	ldrb	r1, [r0, #2]
	str	r1, [sp, #32]                   @ 4-byte Spill
	ldrb	r1, [r0]
	str	r1, [sp, #28]                   @ 4-byte Spill
	ldrb	r1, [r0, #1]
	str	r4, [sp, #108]
	str	r7, [sp, #104]
	lsls	r6, r6, #3
	adds	r4, r2, r6
	ldrb	r0, [r4, #4]
	ldrb	r3, [r4, #5]
	lsls	r3, r3, #8
	adds	r0, r3, r0
	ldrb	r3, [r4, #6]
	lsls	r3, r3, #16
	ldrb	r2, [r4, #7]
	lsls	r2, r2, #24
	adds	r2, r2, r3
	adds	r0, r2, r0
	str	r0, [sp, #116]
	ldr	r0, [sp, #100]                  @ 4-byte Reload
	ldrb	r0, [r0, r6]
	ldrb	r2, [r4, #1]
	lsls	r2, r2, #8
	adds	r0, r2, r0
	ldrb	r2, [r4, #2]
	lsls	r2, r2, #16
	ldrb	r3, [r4, #3]
	lsls	r3, r3, #24
	adds	r2, r3, r2
	adds	r0, r2, r0
	str	r0, [sp, #112]
	movs	r0, #1
	str	r0, [sp, #84]                   @ 4-byte Spill
	str	r0, [sp, #8]
	ldr	r0, [sp, #76]                   @ 4-byte Reload
	str	r0, [sp, #12]
	add	r0, sp, #104
	str	r0, [sp]
	lsls	r0, r1, #8
	ldr	r1, [sp, #28]                   @ 4-byte Reload
	adds	r0, r0, r1
	ldr	r1, [sp, #32]                   @ 4-byte Reload
	lsls	r1, r1, #16
	ldr	r2, [sp, #36]                   @ 4-byte Reload
	lsls	r2, r2, #24
	adds	r1, r2, r1
	adds	r0, r1, r0
	ldr	r1, [sp, #40]                   @ 4-byte Reload
	lsls	r1, r1, #8
	ldr	r2, [sp, #44]                   @ 4-byte Reload
	adds	r1, r1, r2
	ldr	r2, [sp, #48]                   @ 4-byte Reload
	lsls	r2, r2, #16
	ldr	r3, [sp, #52]                   @ 4-byte Reload
	lsls	r3, r3, #24
	adds	r2, r3, r2
	adds	r2, r2, r1
	ldr	r1, [sp, #56]                   @ 4-byte Reload
	lsls	r1, r1, #8
	ldr	r3, [sp, #60]                   @ 4-byte Reload
	adds	r1, r1, r3
	ldr	r3, [sp, #64]                   @ 4-byte Reload
	lsls	r3, r3, #16
	ldr	r7, [sp, #68]                   @ 4-byte Reload
	lsls	r7, r7, #24
	adds	r3, r7, r3
	adds	r3, r3, r1
	bl	aes_v6m.aes_narrow.blocks.process_all_batches.1
	bl	aes_v6m.aes_cipher.zeroize.stack.wipe_stack.1024
	ldr	r0, [sp, #108]
	strb	r0, [r5, #4]
	ldr	r1, [sp, #104]
	strb	r1, [r5]
	lsrs	r2, r0, #24
	strb	r2, [r5, #7]
	lsrs	r2, r0, #16
	strb	r2, [r5, #6]
	lsrs	r0, r0, #8
	strb	r0, [r5, #5]
	lsrs	r0, r1, #24
	strb	r0, [r5, #3]
	lsrs	r0, r1, #16
	strb	r0, [r5, #2]
	lsrs	r0, r1, #8
	strb	r0, [r5, #1]
	ldr	r0, [sp, #112]
	ldr	r1, [sp, #100]                  @ 4-byte Reload
	strb	r0, [r1, r6]
	ldr	r1, [sp, #116]
	lsrs	r2, r1, #16
	strb	r2, [r4, #6]
	lsrs	r2, r1, #24
	strb	r2, [r4, #7]
	strb	r1, [r4, #4]
	lsrs	r1, r1, #8
	strb	r1, [r4, #5]
	lsrs	r1, r0, #16
	strb	r1, [r4, #2]
	lsrs	r1, r0, #24
	strb	r1, [r4, #3]
	lsrs	r0, r0, #8
	strb	r0, [r4, #1]
	ldrb	r0, [r5]
	ldrb	r1, [r5, #1]
	lsls	r1, r1, #8
	adds	r0, r1, r0
	ldrb	r1, [r5, #2]
	lsls	r1, r1, #16
	ldrb	r2, [r5, #3]
	lsls	r2, r2, #24
	adds	r1, r2, r1
	adds	r0, r1, r0
	ldr	r1, [sp, #80]                   @ 4-byte Reload
	adds	r1, r1, #1
	str	r1, [sp, #80]                   @ 4-byte Spill
	ldr	r3, [sp, #72]                   @ 4-byte Reload
	ldr	r1, [sp, #76]                   @ 4-byte Reload
	adcs	r3, r1
	rev	r7, r3
	eors	r7, r0
	strb	r7, [r5]
	ldrb	r0, [r5, #4]
	ldrb	r1, [r5, #5]
	lsls	r1, r1, #8
	adds	r0, r1, r0
	ldrb	r1, [r5, #6]
	lsls	r1, r1, #16
	ldrb	r2, [r5, #7]
	lsls	r2, r2, #24
	adds	r1, r2, r1
	ldr	r6, [sp, #80]                   @ 4-byte Reload
	adds	r0, r1, r0
	rev	r4, r6
	eors	r4, r0
	strb	r4, [r5, #4]
	lsrs	r0, r7, #16
	strb	r0, [r5, #2]
	lsrs	r0, r7, #24
	strb	r0, [r5, #3]
	lsrs	r0, r7, #8
	strb	r0, [r5, #1]
	lsrs	r0, r4, #16
	strb	r0, [r5, #6]
	lsrs	r0, r4, #24
	strb	r0, [r5, #7]
	lsrs	r0, r4, #8
	strb	r0, [r5, #5]
	ldr	r0, [sp, #92]                   @ 4-byte Reload
	subs	r0, r6, r0
	str	r3, [sp, #72]                   @ 4-byte Spill
	ldr	r2, [sp, #100]                  @ 4-byte Reload
	ldr	r1, [sp, #96]                   @ 4-byte Reload
	sbcs	r3, r1
	bhs	.Laes_v6m_BB19_3
	b	.Laes_v6m_BB19_2
.Laes_v6m_BB19_3:                               @ %"key_wrap::steps::wrap_turn::<#4f733d09d7f6c6b4>.exit.loopexit"
	movs	r0, #0
	ldr	r2, [sp, #92]                   @ 4-byte Reload
	adds	r1, r2, #1
	str	r1, [sp, #24]                   @ 4-byte Spill
	ldr	r1, [sp, #96]                   @ 4-byte Reload
	adcs	r1, r0
	str	r1, [sp, #20]                   @ 4-byte Spill
	mov	r3, r0
	str	r0, [sp, #76]                   @ 4-byte Spill
	str	r0, [sp, #72]                   @ 4-byte Spill
.Laes_v6m_BB19_4:                               @ %join.5.i.1
                                        @ =>This Inner Loop Header: Depth=1
	ldr	r0, [sp, #88]                   @ 4-byte Reload
	ldrb	r1, [r0, #15]
	str	r1, [sp, #68]                   @ 4-byte Spill
	ldrb	r1, [r0, #14]
	str	r1, [sp, #64]                   @ 4-byte Spill
	ldrb	r1, [r0, #12]
	str	r1, [sp, #60]                   @ 4-byte Spill
	ldrb	r1, [r0, #13]
	str	r1, [sp, #56]                   @ 4-byte Spill
	ldrb	r1, [r0, #11]
	str	r1, [sp, #52]                   @ 4-byte Spill
	ldrb	r1, [r0, #10]
	str	r1, [sp, #48]                   @ 4-byte Spill
	ldrb	r1, [r0, #8]
	str	r1, [sp, #44]                   @ 4-byte Spill
	ldrb	r1, [r0, #9]
	str	r1, [sp, #40]                   @ 4-byte Spill
	ldrb	r1, [r0, #3]
	str	r1, [sp, #36]                   @ 4-byte Spill
	ldrb	r1, [r0, #2]
	str	r1, [sp, #32]                   @ 4-byte Spill
	ldrb	r1, [r0]
	str	r1, [sp, #28]                   @ 4-byte Spill
	ldrb	r1, [r0, #1]
	str	r4, [sp, #108]
	str	r7, [sp, #104]
	str	r3, [sp, #80]                   @ 4-byte Spill
	lsls	r6, r3, #3
	ldr	r0, [sp, #100]                  @ 4-byte Reload
	adds	r4, r0, r6
	ldrb	r0, [r4, #4]
	ldrb	r3, [r4, #5]
	lsls	r3, r3, #8
	adds	r0, r3, r0
	ldrb	r3, [r4, #6]
	lsls	r3, r3, #16
	ldrb	r2, [r4, #7]
	lsls	r2, r2, #24
	adds	r2, r2, r3
	adds	r0, r2, r0
	str	r0, [sp, #116]
	ldr	r0, [sp, #100]                  @ 4-byte Reload
	ldrb	r0, [r0, r6]
	ldrb	r2, [r4, #1]
	lsls	r2, r2, #8
	adds	r0, r2, r0
	ldrb	r2, [r4, #2]
	lsls	r2, r2, #16
	ldrb	r3, [r4, #3]
	lsls	r3, r3, #24
	adds	r2, r3, r2
	adds	r0, r2, r0
	str	r0, [sp, #112]
	ldr	r0, [sp, #84]                   @ 4-byte Reload
	str	r0, [sp, #8]
	ldr	r0, [sp, #76]                   @ 4-byte Reload
	str	r0, [sp, #12]
	add	r0, sp, #104
	str	r0, [sp]
	lsls	r0, r1, #8
	ldr	r1, [sp, #28]                   @ 4-byte Reload
	adds	r0, r0, r1
	ldr	r1, [sp, #32]                   @ 4-byte Reload
	lsls	r1, r1, #16
	ldr	r2, [sp, #36]                   @ 4-byte Reload
	lsls	r2, r2, #24
	adds	r1, r2, r1
	adds	r0, r1, r0
	ldr	r1, [sp, #40]                   @ 4-byte Reload
	lsls	r1, r1, #8
	ldr	r2, [sp, #44]                   @ 4-byte Reload
	adds	r1, r1, r2
	ldr	r2, [sp, #48]                   @ 4-byte Reload
	lsls	r2, r2, #16
	ldr	r3, [sp, #52]                   @ 4-byte Reload
	lsls	r3, r3, #24
	adds	r2, r3, r2
	adds	r2, r2, r1
	ldr	r1, [sp, #56]                   @ 4-byte Reload
	lsls	r1, r1, #8
	ldr	r3, [sp, #60]                   @ 4-byte Reload
	adds	r1, r1, r3
	ldr	r3, [sp, #64]                   @ 4-byte Reload
	lsls	r3, r3, #16
	ldr	r7, [sp, #68]                   @ 4-byte Reload
	lsls	r7, r7, #24
	adds	r3, r7, r3
	adds	r3, r3, r1
	bl	aes_v6m.aes_narrow.blocks.process_all_batches.1
	bl	aes_v6m.aes_cipher.zeroize.stack.wipe_stack.1024
	ldr	r0, [sp, #108]
	strb	r0, [r5, #4]
	ldr	r1, [sp, #104]
	strb	r1, [r5]
	lsrs	r2, r0, #24
	strb	r2, [r5, #7]
	lsrs	r2, r0, #16
	strb	r2, [r5, #6]
	lsrs	r0, r0, #8
	strb	r0, [r5, #5]
	lsrs	r0, r1, #24
	strb	r0, [r5, #3]
	lsrs	r0, r1, #16
	strb	r0, [r5, #2]
	lsrs	r0, r1, #8
	strb	r0, [r5, #1]
	ldr	r0, [sp, #112]
	ldr	r1, [sp, #100]                  @ 4-byte Reload
	strb	r0, [r1, r6]
	ldr	r1, [sp, #116]
	lsrs	r2, r1, #16
	strb	r2, [r4, #6]
	lsrs	r2, r1, #24
	strb	r2, [r4, #7]
	strb	r1, [r4, #4]
	lsrs	r1, r1, #8
	strb	r1, [r4, #5]
	lsrs	r1, r0, #16
	strb	r1, [r4, #2]
	lsrs	r1, r0, #24
	strb	r1, [r4, #3]
	lsrs	r0, r0, #8
	strb	r0, [r4, #1]
	ldrb	r0, [r5]
	ldrb	r1, [r5, #1]
	lsls	r1, r1, #8
	adds	r0, r1, r0
	ldrb	r1, [r5, #2]
	lsls	r1, r1, #16
	ldrb	r2, [r5, #3]
	lsls	r2, r2, #24
	adds	r1, r2, r1
	adds	r1, r1, r0
	ldr	r0, [sp, #24]                   @ 4-byte Reload
	ldr	r2, [sp, #80]                   @ 4-byte Reload
	adds	r0, r0, r2
	ldr	r2, [sp, #20]                   @ 4-byte Reload
	ldr	r6, [sp, #72]                   @ 4-byte Reload
	adcs	r2, r6
	rev	r7, r2
	eors	r7, r1
	strb	r7, [r5]
	ldrb	r1, [r5, #4]
	ldrb	r2, [r5, #5]
	lsls	r2, r2, #8
	adds	r1, r2, r1
	ldrb	r2, [r5, #6]
	lsls	r2, r2, #16
	ldrb	r3, [r5, #7]
	lsls	r3, r3, #24
	adds	r2, r3, r2
	adds	r1, r2, r1
	ldr	r2, [sp, #92]                   @ 4-byte Reload
	rev	r4, r0
	eors	r4, r1
	ldr	r1, [sp, #96]                   @ 4-byte Reload
	strb	r4, [r5, #4]
	lsrs	r0, r7, #16
	strb	r0, [r5, #2]
	lsrs	r0, r7, #24
	strb	r0, [r5, #3]
	lsrs	r0, r7, #8
	strb	r0, [r5, #1]
	lsrs	r0, r4, #16
	strb	r0, [r5, #6]
	lsrs	r0, r4, #24
	strb	r0, [r5, #7]
	lsrs	r0, r4, #8
	strb	r0, [r5, #5]
	ldr	r0, [sp, #80]                   @ 4-byte Reload
	adds	r0, r0, #1
	ldr	r3, [sp, #76]                   @ 4-byte Reload
	adcs	r6, r3
	mov	r3, r0
	subs	r0, r0, r2
	str	r6, [sp, #72]                   @ 4-byte Spill
	sbcs	r6, r1
	bhs	.Laes_v6m_BB19_5
	b	.Laes_v6m_BB19_4
.Laes_v6m_BB19_5:                               @ %"key_wrap::steps::wrap_turn::<#4f733d09d7f6c6b4>.exit.loopexit.1"
	lsrs	r0, r2, #31
	lsls	r1, r1, #1
	adds	r0, r1, r0
	str	r0, [sp, #24]                   @ 4-byte Spill
	lsls	r0, r2, #1
	adds	r0, r0, #1
	str	r0, [sp, #20]                   @ 4-byte Spill
	movs	r0, #0
	mov	r3, r0
	str	r0, [sp, #76]                   @ 4-byte Spill
	str	r0, [sp, #72]                   @ 4-byte Spill
.Laes_v6m_BB19_6:                               @ %join.5.i.2
                                        @ =>This Inner Loop Header: Depth=1
	str	r3, [sp, #80]                   @ 4-byte Spill
	ldr	r0, [sp, #88]                   @ 4-byte Reload
	ldrb	r1, [r0, #15]
	str	r1, [sp, #68]                   @ 4-byte Spill
	ldrb	r1, [r0, #14]
	str	r1, [sp, #64]                   @ 4-byte Spill
	ldrb	r1, [r0, #12]
	str	r1, [sp, #60]                   @ 4-byte Spill
	ldrb	r1, [r0, #13]
	str	r1, [sp, #56]                   @ 4-byte Spill
	ldrb	r1, [r0, #11]
	str	r1, [sp, #52]                   @ 4-byte Spill
	ldrb	r1, [r0, #10]
	str	r1, [sp, #48]                   @ 4-byte Spill
	ldrb	r1, [r0, #8]
	str	r1, [sp, #44]                   @ 4-byte Spill
	ldrb	r1, [r0, #9]
	str	r1, [sp, #40]                   @ 4-byte Spill
	ldrb	r1, [r0, #3]
	str	r1, [sp, #36]                   @ 4-byte Spill
	ldrb	r1, [r0, #2]
	str	r1, [sp, #32]                   @ 4-byte Spill
	ldrb	r1, [r0]
	str	r1, [sp, #28]                   @ 4-byte Spill
	ldrb	r1, [r0, #1]
	str	r4, [sp, #108]
	str	r7, [sp, #104]
	lsls	r6, r3, #3
	ldr	r7, [sp, #100]                  @ 4-byte Reload
	adds	r4, r7, r6
	ldrb	r0, [r4, #4]
	ldrb	r3, [r4, #5]
	lsls	r3, r3, #8
	adds	r0, r3, r0
	ldrb	r3, [r4, #6]
	lsls	r3, r3, #16
	ldrb	r2, [r4, #7]
	lsls	r2, r2, #24
	adds	r2, r2, r3
	adds	r0, r2, r0
	str	r0, [sp, #116]
	ldrb	r0, [r7, r6]
	ldrb	r2, [r4, #1]
	lsls	r2, r2, #8
	adds	r0, r2, r0
	ldrb	r2, [r4, #2]
	lsls	r2, r2, #16
	ldrb	r3, [r4, #3]
	lsls	r3, r3, #24
	adds	r2, r3, r2
	adds	r0, r2, r0
	str	r0, [sp, #112]
	ldr	r0, [sp, #84]                   @ 4-byte Reload
	str	r0, [sp, #8]
	ldr	r0, [sp, #76]                   @ 4-byte Reload
	str	r0, [sp, #12]
	add	r0, sp, #104
	str	r0, [sp]
	lsls	r0, r1, #8
	ldr	r1, [sp, #28]                   @ 4-byte Reload
	adds	r0, r0, r1
	ldr	r1, [sp, #32]                   @ 4-byte Reload
	lsls	r1, r1, #16
	ldr	r2, [sp, #36]                   @ 4-byte Reload
	lsls	r2, r2, #24
	adds	r1, r2, r1
	adds	r0, r1, r0
	ldr	r1, [sp, #40]                   @ 4-byte Reload
	lsls	r1, r1, #8
	ldr	r2, [sp, #44]                   @ 4-byte Reload
	adds	r1, r1, r2
	ldr	r2, [sp, #48]                   @ 4-byte Reload
	lsls	r2, r2, #16
	ldr	r3, [sp, #52]                   @ 4-byte Reload
	lsls	r3, r3, #24
	adds	r2, r3, r2
	adds	r2, r2, r1
	ldr	r1, [sp, #56]                   @ 4-byte Reload
	lsls	r1, r1, #8
	ldr	r3, [sp, #60]                   @ 4-byte Reload
	adds	r1, r1, r3
	ldr	r3, [sp, #64]                   @ 4-byte Reload
	lsls	r3, r3, #16
	ldr	r7, [sp, #68]                   @ 4-byte Reload
	lsls	r7, r7, #24
	adds	r3, r7, r3
	adds	r3, r3, r1
	bl	aes_v6m.aes_narrow.blocks.process_all_batches.1
	bl	aes_v6m.aes_cipher.zeroize.stack.wipe_stack.1024
	ldr	r0, [sp, #108]
	strb	r0, [r5, #4]
	ldr	r1, [sp, #104]
	strb	r1, [r5]
	lsrs	r2, r0, #24
	strb	r2, [r5, #7]
	lsrs	r2, r0, #16
	strb	r2, [r5, #6]
	lsrs	r0, r0, #8
	strb	r0, [r5, #5]
	lsrs	r0, r1, #24
	strb	r0, [r5, #3]
	lsrs	r0, r1, #16
	strb	r0, [r5, #2]
	lsrs	r0, r1, #8
	strb	r0, [r5, #1]
	ldr	r0, [sp, #112]
	ldr	r1, [sp, #100]                  @ 4-byte Reload
	strb	r0, [r1, r6]
	ldr	r1, [sp, #116]
	lsrs	r2, r1, #16
	strb	r2, [r4, #6]
	lsrs	r2, r1, #24
	strb	r2, [r4, #7]
	strb	r1, [r4, #4]
	lsrs	r1, r1, #8
	strb	r1, [r4, #5]
	lsrs	r1, r0, #16
	strb	r1, [r4, #2]
	lsrs	r1, r0, #24
	strb	r1, [r4, #3]
	lsrs	r0, r0, #8
	strb	r0, [r4, #1]
	ldrb	r0, [r5]
	ldrb	r1, [r5, #1]
	lsls	r1, r1, #8
	adds	r0, r1, r0
	ldrb	r1, [r5, #2]
	lsls	r1, r1, #16
	ldrb	r2, [r5, #3]
	lsls	r2, r2, #24
	adds	r1, r2, r1
	adds	r3, r1, r0
	ldr	r0, [sp, #20]                   @ 4-byte Reload
	ldr	r2, [sp, #80]                   @ 4-byte Reload
	adds	r0, r0, r2
	ldr	r2, [sp, #24]                   @ 4-byte Reload
	ldr	r1, [sp, #72]                   @ 4-byte Reload
	adcs	r2, r1
	rev	r7, r2
	eors	r7, r3
	strb	r7, [r5]
	ldrb	r3, [r5, #4]
	ldrb	r2, [r5, #5]
	lsls	r2, r2, #8
	adds	r4, r2, r3
	ldrb	r2, [r5, #6]
	lsls	r2, r2, #16
	ldrb	r3, [r5, #7]
	lsls	r3, r3, #24
	adds	r2, r3, r2
	ldr	r3, [sp, #80]                   @ 4-byte Reload
	adds	r2, r2, r4
	rev	r4, r0
	eors	r4, r2
	strb	r4, [r5, #4]
	lsrs	r0, r7, #16
	strb	r0, [r5, #2]
	lsrs	r0, r7, #24
	strb	r0, [r5, #3]
	lsrs	r0, r7, #8
	strb	r0, [r5, #1]
	lsrs	r0, r4, #16
	strb	r0, [r5, #6]
	lsrs	r0, r4, #24
	strb	r0, [r5, #7]
	lsrs	r0, r4, #8
	strb	r0, [r5, #5]
	adds	r3, r3, #1
	ldr	r0, [sp, #76]                   @ 4-byte Reload
	adcs	r1, r0
	ldr	r0, [sp, #92]                   @ 4-byte Reload
	subs	r0, r3, r0
	str	r1, [sp, #72]                   @ 4-byte Spill
	mov	r0, r1
	ldr	r1, [sp, #96]                   @ 4-byte Reload
	sbcs	r0, r1
	bhs	.Laes_v6m_BB19_7
	b	.Laes_v6m_BB19_6
.Laes_v6m_BB19_7:                               @ %"key_wrap::steps::wrap_turn::<#4f733d09d7f6c6b4>.exit.loopexit.2"
	movs	r2, #3
	movs	r6, #0
	ldr	r0, [sp, #92]                   @ 4-byte Reload
	ldr	r1, [sp, #96]                   @ 4-byte Reload
	mov	r3, r6
	bl	__aeabi_lmul
	adds	r0, r0, #1
	str	r0, [sp, #20]                   @ 4-byte Spill
	adcs	r1, r6
	str	r1, [sp, #24]                   @ 4-byte Spill
	mov	r2, r6
	str	r6, [sp, #76]                   @ 4-byte Spill
	str	r6, [sp, #72]                   @ 4-byte Spill
.Laes_v6m_BB19_8:                               @ %join.5.i.3
                                        @ =>This Inner Loop Header: Depth=1
	str	r2, [sp, #80]                   @ 4-byte Spill
	ldr	r0, [sp, #88]                   @ 4-byte Reload
	ldrb	r1, [r0, #15]
	str	r1, [sp, #68]                   @ 4-byte Spill
	ldrb	r1, [r0, #14]
	str	r1, [sp, #64]                   @ 4-byte Spill
	ldrb	r1, [r0, #12]
	str	r1, [sp, #60]                   @ 4-byte Spill
	ldrb	r1, [r0, #13]
	str	r1, [sp, #56]                   @ 4-byte Spill
	ldrb	r1, [r0, #11]
	str	r1, [sp, #52]                   @ 4-byte Spill
	ldrb	r1, [r0, #10]
	str	r1, [sp, #48]                   @ 4-byte Spill
	ldrb	r1, [r0, #8]
	str	r1, [sp, #44]                   @ 4-byte Spill
	ldrb	r1, [r0, #9]
	str	r1, [sp, #40]                   @ 4-byte Spill
	ldrb	r1, [r0, #3]
	str	r1, [sp, #36]                   @ 4-byte Spill
	ldrb	r1, [r0, #2]
	str	r1, [sp, #32]                   @ 4-byte Spill
	ldrb	r1, [r0]
	str	r1, [sp, #28]                   @ 4-byte Spill
	ldrb	r1, [r0, #1]
	str	r4, [sp, #108]
	str	r7, [sp, #104]
	lsls	r6, r2, #3
	ldr	r7, [sp, #100]                  @ 4-byte Reload
	adds	r4, r7, r6
	ldrb	r0, [r4, #4]
	ldrb	r3, [r4, #5]
	lsls	r3, r3, #8
	adds	r0, r3, r0
	ldrb	r3, [r4, #6]
	lsls	r3, r3, #16
	ldrb	r2, [r4, #7]
	lsls	r2, r2, #24
	adds	r2, r2, r3
	adds	r0, r2, r0
	str	r0, [sp, #116]
	ldrb	r0, [r7, r6]
	ldrb	r2, [r4, #1]
	lsls	r2, r2, #8
	adds	r0, r2, r0
	ldrb	r2, [r4, #2]
	lsls	r2, r2, #16
	ldrb	r3, [r4, #3]
	lsls	r3, r3, #24
	adds	r2, r3, r2
	adds	r0, r2, r0
	str	r0, [sp, #112]
	ldr	r0, [sp, #84]                   @ 4-byte Reload
	str	r0, [sp, #8]
	ldr	r0, [sp, #76]                   @ 4-byte Reload
	str	r0, [sp, #12]
	add	r0, sp, #104
	str	r0, [sp]
	lsls	r0, r1, #8
	ldr	r1, [sp, #28]                   @ 4-byte Reload
	adds	r0, r0, r1
	ldr	r1, [sp, #32]                   @ 4-byte Reload
	lsls	r1, r1, #16
	ldr	r2, [sp, #36]                   @ 4-byte Reload
	lsls	r2, r2, #24
	adds	r1, r2, r1
	adds	r0, r1, r0
	ldr	r1, [sp, #40]                   @ 4-byte Reload
	lsls	r1, r1, #8
	ldr	r2, [sp, #44]                   @ 4-byte Reload
	adds	r1, r1, r2
	ldr	r2, [sp, #48]                   @ 4-byte Reload
	lsls	r2, r2, #16
	ldr	r3, [sp, #52]                   @ 4-byte Reload
	lsls	r3, r3, #24
	adds	r2, r3, r2
	adds	r2, r2, r1
	ldr	r1, [sp, #56]                   @ 4-byte Reload
	lsls	r1, r1, #8
	ldr	r3, [sp, #60]                   @ 4-byte Reload
	adds	r1, r1, r3
	ldr	r3, [sp, #64]                   @ 4-byte Reload
	lsls	r3, r3, #16
	ldr	r7, [sp, #68]                   @ 4-byte Reload
	lsls	r7, r7, #24
	adds	r3, r7, r3
	adds	r3, r3, r1
	bl	aes_v6m.aes_narrow.blocks.process_all_batches.1
	bl	aes_v6m.aes_cipher.zeroize.stack.wipe_stack.1024
	ldr	r0, [sp, #108]
	strb	r0, [r5, #4]
	ldr	r1, [sp, #104]
	strb	r1, [r5]
	lsrs	r2, r0, #24
	strb	r2, [r5, #7]
	lsrs	r2, r0, #16
	strb	r2, [r5, #6]
	lsrs	r0, r0, #8
	strb	r0, [r5, #5]
	lsrs	r0, r1, #24
	strb	r0, [r5, #3]
	lsrs	r0, r1, #16
	strb	r0, [r5, #2]
	lsrs	r0, r1, #8
	strb	r0, [r5, #1]
	ldr	r0, [sp, #112]
	ldr	r1, [sp, #100]                  @ 4-byte Reload
	strb	r0, [r1, r6]
	ldr	r1, [sp, #116]
	lsrs	r2, r1, #16
	strb	r2, [r4, #6]
	lsrs	r2, r1, #24
	strb	r2, [r4, #7]
	strb	r1, [r4, #4]
	lsrs	r1, r1, #8
	strb	r1, [r4, #5]
	lsrs	r1, r0, #16
	strb	r1, [r4, #2]
	lsrs	r1, r0, #24
	strb	r1, [r4, #3]
	lsrs	r0, r0, #8
	strb	r0, [r4, #1]
	ldrb	r0, [r5]
	ldrb	r1, [r5, #1]
	lsls	r1, r1, #8
	adds	r0, r1, r0
	ldrb	r1, [r5, #2]
	lsls	r1, r1, #16
	ldrb	r2, [r5, #3]
	lsls	r2, r2, #24
	adds	r1, r2, r1
	adds	r3, r1, r0
	ldr	r0, [sp, #20]                   @ 4-byte Reload
	ldr	r2, [sp, #80]                   @ 4-byte Reload
	adds	r0, r0, r2
	ldr	r2, [sp, #24]                   @ 4-byte Reload
	ldr	r1, [sp, #72]                   @ 4-byte Reload
	adcs	r2, r1
	rev	r7, r2
	eors	r7, r3
	strb	r7, [r5]
	ldrb	r3, [r5, #4]
	ldrb	r2, [r5, #5]
	lsls	r2, r2, #8
	adds	r4, r2, r3
	ldrb	r2, [r5, #6]
	lsls	r2, r2, #16
	ldrb	r3, [r5, #7]
	lsls	r3, r3, #24
	adds	r2, r3, r2
	adds	r3, r2, r4
	ldr	r2, [sp, #80]                   @ 4-byte Reload
	rev	r4, r0
	eors	r4, r3
	strb	r4, [r5, #4]
	lsrs	r0, r7, #16
	strb	r0, [r5, #2]
	lsrs	r0, r7, #24
	strb	r0, [r5, #3]
	lsrs	r0, r7, #8
	strb	r0, [r5, #1]
	lsrs	r0, r4, #16
	strb	r0, [r5, #6]
	lsrs	r0, r4, #24
	strb	r0, [r5, #7]
	lsrs	r0, r4, #8
	strb	r0, [r5, #5]
	adds	r2, r2, #1
	ldr	r0, [sp, #76]                   @ 4-byte Reload
	adcs	r1, r0
	ldr	r0, [sp, #92]                   @ 4-byte Reload
	subs	r0, r2, r0
	str	r1, [sp, #72]                   @ 4-byte Spill
	mov	r0, r1
	ldr	r1, [sp, #96]                   @ 4-byte Reload
	sbcs	r0, r1
	bhs	.Laes_v6m_BB19_9
	b	.Laes_v6m_BB19_8
.Laes_v6m_BB19_9:                               @ %"key_wrap::steps::wrap_turn::<#4f733d09d7f6c6b4>.exit.loopexit.3"
	ldr	r2, [sp, #92]                   @ 4-byte Reload
	lsrs	r0, r2, #30
	ldr	r1, [sp, #96]                   @ 4-byte Reload
	lsls	r1, r1, #2
	adds	r0, r1, r0
	str	r0, [sp, #24]                   @ 4-byte Spill
	lsls	r0, r2, #2
	adds	r0, r0, #1
	str	r0, [sp, #20]                   @ 4-byte Spill
	movs	r0, #0
	mov	r2, r0
	str	r0, [sp, #76]                   @ 4-byte Spill
	str	r0, [sp, #72]                   @ 4-byte Spill
.Laes_v6m_BB19_10:                              @ %join.5.i.4
                                        @ =>This Inner Loop Header: Depth=1
	str	r2, [sp, #80]                   @ 4-byte Spill
	ldr	r0, [sp, #88]                   @ 4-byte Reload
	ldrb	r1, [r0, #15]
	str	r1, [sp, #68]                   @ 4-byte Spill
	ldrb	r1, [r0, #14]
	str	r1, [sp, #64]                   @ 4-byte Spill
	ldrb	r1, [r0, #12]
	str	r1, [sp, #60]                   @ 4-byte Spill
	ldrb	r1, [r0, #13]
	str	r1, [sp, #56]                   @ 4-byte Spill
	ldrb	r1, [r0, #11]
	str	r1, [sp, #52]                   @ 4-byte Spill
	ldrb	r1, [r0, #10]
	str	r1, [sp, #48]                   @ 4-byte Spill
	ldrb	r1, [r0, #8]
	str	r1, [sp, #44]                   @ 4-byte Spill
	ldrb	r1, [r0, #9]
	str	r1, [sp, #40]                   @ 4-byte Spill
	ldrb	r1, [r0, #3]
	str	r1, [sp, #36]                   @ 4-byte Spill
	ldrb	r1, [r0, #2]
	str	r1, [sp, #32]                   @ 4-byte Spill
	ldrb	r1, [r0]
	str	r1, [sp, #28]                   @ 4-byte Spill
	ldrb	r1, [r0, #1]
	str	r4, [sp, #108]
	str	r7, [sp, #104]
	lsls	r6, r2, #3
	ldr	r7, [sp, #100]                  @ 4-byte Reload
	adds	r4, r7, r6
	ldrb	r0, [r4, #4]
	ldrb	r3, [r4, #5]
	lsls	r3, r3, #8
	adds	r0, r3, r0
	ldrb	r3, [r4, #6]
	lsls	r3, r3, #16
	ldrb	r2, [r4, #7]
	lsls	r2, r2, #24
	adds	r2, r2, r3
	adds	r0, r2, r0
	str	r0, [sp, #116]
	ldrb	r0, [r7, r6]
	ldrb	r2, [r4, #1]
	lsls	r2, r2, #8
	adds	r0, r2, r0
	ldrb	r2, [r4, #2]
	lsls	r2, r2, #16
	ldrb	r3, [r4, #3]
	lsls	r3, r3, #24
	adds	r2, r3, r2
	adds	r0, r2, r0
	str	r0, [sp, #112]
	ldr	r0, [sp, #84]                   @ 4-byte Reload
	str	r0, [sp, #8]
	ldr	r0, [sp, #76]                   @ 4-byte Reload
	str	r0, [sp, #12]
	add	r0, sp, #104
	str	r0, [sp]
	lsls	r0, r1, #8
	ldr	r1, [sp, #28]                   @ 4-byte Reload
	adds	r0, r0, r1
	ldr	r1, [sp, #32]                   @ 4-byte Reload
	lsls	r1, r1, #16
	ldr	r2, [sp, #36]                   @ 4-byte Reload
	lsls	r2, r2, #24
	adds	r1, r2, r1
	adds	r0, r1, r0
	ldr	r1, [sp, #40]                   @ 4-byte Reload
	lsls	r1, r1, #8
	ldr	r2, [sp, #44]                   @ 4-byte Reload
	adds	r1, r1, r2
	ldr	r2, [sp, #48]                   @ 4-byte Reload
	lsls	r2, r2, #16
	ldr	r3, [sp, #52]                   @ 4-byte Reload
	lsls	r3, r3, #24
	adds	r2, r3, r2
	adds	r2, r2, r1
	ldr	r1, [sp, #56]                   @ 4-byte Reload
	lsls	r1, r1, #8
	ldr	r3, [sp, #60]                   @ 4-byte Reload
	adds	r1, r1, r3
	ldr	r3, [sp, #64]                   @ 4-byte Reload
	lsls	r3, r3, #16
	ldr	r7, [sp, #68]                   @ 4-byte Reload
	lsls	r7, r7, #24
	adds	r3, r7, r3
	adds	r3, r3, r1
	bl	aes_v6m.aes_narrow.blocks.process_all_batches.1
	bl	aes_v6m.aes_cipher.zeroize.stack.wipe_stack.1024
	ldr	r0, [sp, #108]
	strb	r0, [r5, #4]
	ldr	r1, [sp, #104]
	strb	r1, [r5]
	lsrs	r2, r0, #24
	strb	r2, [r5, #7]
	lsrs	r2, r0, #16
	strb	r2, [r5, #6]
	lsrs	r0, r0, #8
	strb	r0, [r5, #5]
	lsrs	r0, r1, #24
	strb	r0, [r5, #3]
	lsrs	r0, r1, #16
	strb	r0, [r5, #2]
	lsrs	r0, r1, #8
	strb	r0, [r5, #1]
	ldr	r0, [sp, #112]
	ldr	r1, [sp, #100]                  @ 4-byte Reload
	strb	r0, [r1, r6]
	ldr	r1, [sp, #116]
	lsrs	r2, r1, #16
	strb	r2, [r4, #6]
	lsrs	r2, r1, #24
	strb	r2, [r4, #7]
	strb	r1, [r4, #4]
	lsrs	r1, r1, #8
	strb	r1, [r4, #5]
	lsrs	r1, r0, #16
	strb	r1, [r4, #2]
	lsrs	r1, r0, #24
	strb	r1, [r4, #3]
	lsrs	r0, r0, #8
	strb	r0, [r4, #1]
	ldrb	r0, [r5]
	ldrb	r1, [r5, #1]
	lsls	r1, r1, #8
	adds	r0, r1, r0
	ldrb	r1, [r5, #2]
	lsls	r1, r1, #16
	ldrb	r2, [r5, #3]
	lsls	r2, r2, #24
	adds	r1, r2, r1
	adds	r3, r1, r0
	ldr	r0, [sp, #20]                   @ 4-byte Reload
	ldr	r2, [sp, #80]                   @ 4-byte Reload
	adds	r0, r0, r2
	ldr	r2, [sp, #24]                   @ 4-byte Reload
	ldr	r1, [sp, #72]                   @ 4-byte Reload
	adcs	r2, r1
	rev	r7, r2
	eors	r7, r3
	strb	r7, [r5]
	ldrb	r3, [r5, #4]
	ldrb	r2, [r5, #5]
	lsls	r2, r2, #8
	adds	r4, r2, r3
	ldrb	r2, [r5, #6]
	lsls	r2, r2, #16
	ldrb	r3, [r5, #7]
	lsls	r3, r3, #24
	adds	r2, r3, r2
	adds	r3, r2, r4
	ldr	r2, [sp, #80]                   @ 4-byte Reload
	rev	r4, r0
	eors	r4, r3
	strb	r4, [r5, #4]
	lsrs	r0, r7, #16
	strb	r0, [r5, #2]
	lsrs	r0, r7, #24
	strb	r0, [r5, #3]
	lsrs	r0, r7, #8
	strb	r0, [r5, #1]
	lsrs	r0, r4, #16
	strb	r0, [r5, #6]
	lsrs	r0, r4, #24
	strb	r0, [r5, #7]
	lsrs	r0, r4, #8
	strb	r0, [r5, #5]
	adds	r2, r2, #1
	ldr	r0, [sp, #76]                   @ 4-byte Reload
	adcs	r1, r0
	ldr	r0, [sp, #92]                   @ 4-byte Reload
	subs	r0, r2, r0
	str	r1, [sp, #72]                   @ 4-byte Spill
	mov	r0, r1
	ldr	r1, [sp, #96]                   @ 4-byte Reload
	sbcs	r0, r1
	bhs	.Laes_v6m_BB19_11
	b	.Laes_v6m_BB19_10
.Laes_v6m_BB19_11:                              @ %"key_wrap::steps::wrap_turn::<#4f733d09d7f6c6b4>.exit.loopexit.4"
	movs	r2, #5
	movs	r6, #0
	ldr	r0, [sp, #92]                   @ 4-byte Reload
	ldr	r1, [sp, #96]                   @ 4-byte Reload
	mov	r3, r6
	bl	__aeabi_lmul
	adds	r0, r0, #1
	str	r0, [sp, #20]                   @ 4-byte Spill
	adcs	r1, r6
	str	r1, [sp, #24]                   @ 4-byte Spill
	mov	r2, r6
	str	r6, [sp, #76]                   @ 4-byte Spill
	str	r6, [sp, #72]                   @ 4-byte Spill
	ldr	r3, [sp, #100]                  @ 4-byte Reload
.Laes_v6m_BB19_12:                              @ %join.5.i.5
                                        @ =>This Inner Loop Header: Depth=1
	str	r2, [sp, #80]                   @ 4-byte Spill
	ldr	r0, [sp, #88]                   @ 4-byte Reload
	ldrb	r1, [r0, #15]
	str	r1, [sp, #68]                   @ 4-byte Spill
	ldrb	r1, [r0, #14]
	str	r1, [sp, #64]                   @ 4-byte Spill
	ldrb	r1, [r0, #12]
	str	r1, [sp, #60]                   @ 4-byte Spill
	ldrb	r1, [r0, #13]
	str	r1, [sp, #56]                   @ 4-byte Spill
	ldrb	r1, [r0, #11]
	str	r1, [sp, #52]                   @ 4-byte Spill
	ldrb	r1, [r0, #10]
	str	r1, [sp, #48]                   @ 4-byte Spill
	ldrb	r1, [r0, #8]
	str	r1, [sp, #44]                   @ 4-byte Spill
	ldrb	r1, [r0, #9]
	str	r1, [sp, #40]                   @ 4-byte Spill
	ldrb	r1, [r0, #3]
	str	r1, [sp, #36]                   @ 4-byte Spill
	ldrb	r1, [r0, #2]
	str	r1, [sp, #32]                   @ 4-byte Spill
	ldrb	r1, [r0]
	str	r1, [sp, #28]                   @ 4-byte Spill
	ldrb	r1, [r0, #1]
	str	r4, [sp, #108]
	str	r7, [sp, #104]
	lsls	r6, r2, #3
	adds	r4, r3, r6
	ldrb	r0, [r4, #4]
	ldrb	r3, [r4, #5]
	lsls	r3, r3, #8
	adds	r0, r3, r0
	ldrb	r3, [r4, #6]
	lsls	r3, r3, #16
	ldrb	r2, [r4, #7]
	lsls	r2, r2, #24
	adds	r2, r2, r3
	adds	r0, r2, r0
	str	r0, [sp, #116]
	ldr	r0, [sp, #100]                  @ 4-byte Reload
	ldrb	r0, [r0, r6]
	ldrb	r2, [r4, #1]
	lsls	r2, r2, #8
	adds	r0, r2, r0
	ldrb	r2, [r4, #2]
	lsls	r2, r2, #16
	ldrb	r3, [r4, #3]
	lsls	r3, r3, #24
	adds	r2, r3, r2
	adds	r0, r2, r0
	str	r0, [sp, #112]
	ldr	r0, [sp, #84]                   @ 4-byte Reload
	str	r0, [sp, #8]
	ldr	r0, [sp, #76]                   @ 4-byte Reload
	str	r0, [sp, #12]
	add	r0, sp, #104
	str	r0, [sp]
	lsls	r0, r1, #8
	ldr	r1, [sp, #28]                   @ 4-byte Reload
	adds	r0, r0, r1
	ldr	r1, [sp, #32]                   @ 4-byte Reload
	lsls	r1, r1, #16
	ldr	r2, [sp, #36]                   @ 4-byte Reload
	lsls	r2, r2, #24
	adds	r1, r2, r1
	adds	r0, r1, r0
	ldr	r1, [sp, #40]                   @ 4-byte Reload
	lsls	r1, r1, #8
	ldr	r2, [sp, #44]                   @ 4-byte Reload
	adds	r1, r1, r2
	ldr	r2, [sp, #48]                   @ 4-byte Reload
	lsls	r2, r2, #16
	ldr	r3, [sp, #52]                   @ 4-byte Reload
	lsls	r3, r3, #24
	adds	r2, r3, r2
	adds	r2, r2, r1
	ldr	r1, [sp, #56]                   @ 4-byte Reload
	lsls	r1, r1, #8
	ldr	r3, [sp, #60]                   @ 4-byte Reload
	adds	r1, r1, r3
	ldr	r3, [sp, #64]                   @ 4-byte Reload
	lsls	r3, r3, #16
	ldr	r7, [sp, #68]                   @ 4-byte Reload
	lsls	r7, r7, #24
	adds	r3, r7, r3
	adds	r3, r3, r1
	bl	aes_v6m.aes_narrow.blocks.process_all_batches.1
	bl	aes_v6m.aes_cipher.zeroize.stack.wipe_stack.1024
	ldr	r0, [sp, #108]
	strb	r0, [r5, #4]
	ldr	r1, [sp, #104]
	strb	r1, [r5]
	lsrs	r2, r0, #24
	strb	r2, [r5, #7]
	lsrs	r2, r0, #16
	strb	r2, [r5, #6]
	lsrs	r0, r0, #8
	strb	r0, [r5, #5]
	lsrs	r0, r1, #24
	strb	r0, [r5, #3]
	lsrs	r0, r1, #16
	strb	r0, [r5, #2]
	lsrs	r0, r1, #8
	strb	r0, [r5, #1]
	ldr	r0, [sp, #112]
	ldr	r1, [sp, #100]                  @ 4-byte Reload
	strb	r0, [r1, r6]
	ldr	r1, [sp, #116]
	lsrs	r2, r1, #16
	strb	r2, [r4, #6]
	lsrs	r2, r1, #24
	strb	r2, [r4, #7]
	strb	r1, [r4, #4]
	lsrs	r1, r1, #8
	strb	r1, [r4, #5]
	lsrs	r1, r0, #16
	strb	r1, [r4, #2]
	lsrs	r1, r0, #24
	strb	r1, [r4, #3]
	lsrs	r0, r0, #8
	strb	r0, [r4, #1]
	ldrb	r0, [r5]
	ldrb	r1, [r5, #1]
	lsls	r1, r1, #8
	adds	r0, r1, r0
	ldrb	r1, [r5, #2]
	lsls	r1, r1, #16
	ldrb	r2, [r5, #3]
	lsls	r2, r2, #24
	adds	r1, r2, r1
	adds	r3, r1, r0
	ldr	r0, [sp, #20]                   @ 4-byte Reload
	ldr	r2, [sp, #80]                   @ 4-byte Reload
	adds	r6, r0, r2
	ldr	r2, [sp, #24]                   @ 4-byte Reload
	ldr	r1, [sp, #72]                   @ 4-byte Reload
	adcs	r2, r1
	rev	r7, r2
	eors	r7, r3
	strb	r7, [r5]
	ldrb	r3, [r5, #4]
	ldrb	r2, [r5, #5]
	lsls	r2, r2, #8
	adds	r4, r2, r3
	ldrb	r2, [r5, #6]
	lsls	r2, r2, #16
	ldrb	r3, [r5, #7]
	lsls	r3, r3, #24
	adds	r2, r3, r2
	ldr	r3, [sp, #100]                  @ 4-byte Reload
	adds	r0, r2, r4
	ldr	r2, [sp, #80]                   @ 4-byte Reload
	rev	r4, r6
	eors	r4, r0
	strb	r4, [r5, #4]
	lsrs	r0, r7, #16
	strb	r0, [r5, #2]
	lsrs	r0, r7, #24
	strb	r0, [r5, #3]
	lsrs	r0, r7, #8
	strb	r0, [r5, #1]
	lsrs	r0, r4, #16
	strb	r0, [r5, #6]
	lsrs	r0, r4, #24
	strb	r0, [r5, #7]
	lsrs	r0, r4, #8
	strb	r0, [r5, #5]
	adds	r2, r2, #1
	ldr	r0, [sp, #76]                   @ 4-byte Reload
	adcs	r1, r0
	ldr	r0, [sp, #92]                   @ 4-byte Reload
	subs	r0, r2, r0
	str	r1, [sp, #72]                   @ 4-byte Spill
	mov	r0, r1
	ldr	r1, [sp, #96]                   @ 4-byte Reload
	sbcs	r0, r1
	bhs	.Laes_v6m_BB19_13
	b	.Laes_v6m_BB19_12
.Laes_v6m_BB19_13:                              @ %after.1
	add	sp, #124
	pop	{r4, r5, r6, r7, pc}
.Laes_v6m_func_end19:
	.size	aes_v6m.key_wrap.steps.wrap_in_place, .Laes_v6m_func_end19-aes_v6m.key_wrap.steps.wrap_in_place
	.cantunwind
	.fnend
                                        @ -- End function
	.section	.text.aes_v6m.aes_cipher.zeroize.stack.wipe_stack.512,"ax",%progbits
	.p2align	1                               @ -- Begin function aes_cipher::zeroize::stack::wipe_stack::<=512>
	.type	aes_v6m.aes_cipher.zeroize.stack.wipe_stack.512,%function
	.code	16
	.thumb_func
aes_v6m.aes_cipher.zeroize.stack.wipe_stack.512: @ @aes_v6m.aes_cipher.zeroize.stack.wipe_stack.512
	.fnstart
@ %bb.0:                                @ %start
	.save	{r4, lr}
	push	{r4, lr}
	.pad	#508
	sub	sp, #508
	.pad	#12
	sub	sp, #12
	movs	r0, #1
	lsls	r2, r0, #9
	add	r0, sp, #8
	movs	r4, #0
	mov	r1, r4
	bl	memset
	str	r4, [sp, #4]
	str	r4, [sp]
	@APP
	@NO_APP
	ldr	r0, [sp]
	lsrs	r1, r0, #9
	ldr	r2, [sp, #4]
	orrs	r2, r1
	@APP
	@NO_APP
	bne	.Laes_v6m_BB20_2
@ %bb.1:                                @ %then.1
	add	r1, sp, #8
	ldrb	r0, [r1, r0]
	@APP
	@NO_APP
	ldr	r1, [sp, #4]
	ldr	r1, [sp]
	str	r4, [sp, #4]
	str	r0, [sp]
	@APP
	@NO_APP
.Laes_v6m_BB20_2:                               @ %common.ret
	add	sp, #508
	add	sp, #12
	pop	{r4, pc}
.Laes_v6m_func_end20:
	.size	aes_v6m.aes_cipher.zeroize.stack.wipe_stack.512, .Laes_v6m_func_end20-aes_v6m.aes_cipher.zeroize.stack.wipe_stack.512
	.cantunwind
	.fnend
                                        @ -- End function
	.section	.text.aes_v6m.key_wrap.padded.wrap_padded,"ax",%progbits
	.p2align	2                               @ -- Begin function key_wrap::padded::wrap_padded::<#4f733d09d7f6c6b4>
	.type	aes_v6m.key_wrap.padded.wrap_padded,%function
	.code	16
	.thumb_func
aes_v6m.key_wrap.padded.wrap_padded: @ @aes_v6m.key_wrap.padded.wrap_padded
	.fnstart
@ %bb.0:                                @ %start
	.save	{r4, r5, r6, r7, lr}
	push	{r4, r5, r6, r7, lr}
	.pad	#100
	sub	sp, #100
	str	r1, [sp, #68]                   @ 4-byte Spill
	mov	r1, r0
	mov	r0, r2
	str	r3, [sp, #72]                   @ 4-byte Spill
	orrs	r0, r3
	beq	.Laes_v6m_BB21_7
@ %bb.1:                                @ %"key_wrap::padded::fits.exit"
	ldr	r6, [sp, #132]
	ldr	r5, [sp, #128]
	movs	r0, #1
	lsls	r3, r2, #29
	mov	r3, r0
	beq	.Laes_v6m_BB21_3
@ %bb.2:                                @ %"key_wrap::padded::fits.exit"
	movs	r3, #2
.Laes_v6m_BB21_3:                               @ %"key_wrap::padded::fits.exit"
	lsrs	r4, r2, #3
	adds	r3, r3, r4
	eors	r3, r5
	orrs	r3, r6
	beq	.Laes_v6m_BB21_4
	b	.Laes_v6m_BB21_45
.Laes_v6m_BB21_4:                               @ %arm.5
	ldr	r7, [sp, #120]
	str	r2, [sp, #60]                   @ 4-byte Spill
	rev	r2, r2
	strb	r2, [r7, #4]
	lsrs	r0, r2, #24
	strb	r0, [r7, #7]
	lsrs	r0, r2, #16
	strb	r0, [r7, #6]
	str	r2, [sp, #24]                   @ 4-byte Spill
	lsrs	r0, r2, #8
	strb	r0, [r7, #5]
	ldr	r0, .Laes_v6m_CPI21_0
	ldr	r4, [sp, #72]                   @ 4-byte Reload
	orrs	r0, r4
	rev	r4, r0
	strb	r4, [r7]
	lsrs	r0, r4, #24
	strb	r0, [r7, #3]
	lsrs	r0, r4, #16
	strb	r0, [r7, #2]
	lsrs	r0, r4, #8
	strb	r0, [r7, #1]
	mov	r2, r5
	movs	r5, #0
	subs	r0, r2, #1
	mov	r3, r6
	sbcs	r6, r5
	str	r0, [sp, #36]                   @ 4-byte Spill
	orrs	r0, r6
	str	r1, [sp, #32]                   @ 4-byte Spill
	mov	r1, r7
	adds	r1, #8
	str	r1, [sp, #64]                   @ 4-byte Spill
	cmp	r0, #0
	bne	.Laes_v6m_BB21_5
	b	.Laes_v6m_BB21_44
.Laes_v6m_BB21_5:                               @ %join.5.i.preheader
	str	r6, [sp, #44]                   @ 4-byte Spill
	subs	r2, r2, #2
	sbcs	r3, r5
	movs	r0, #3
	ldr	r6, [sp, #36]                   @ 4-byte Reload
	mov	r1, r6
	ands	r1, r0
	str	r1, [sp, #28]                   @ 4-byte Spill
	subs	r2, r2, #3
	sbcs	r3, r5
	str	r7, [sp, #20]                   @ 4-byte Spill
	str	r4, [sp, #16]                   @ 4-byte Spill
	bhs	.Laes_v6m_BB21_8
@ %bb.6:
	mov	r7, r5
	mov	r2, r5
	b	.Laes_v6m_BB21_27
.Laes_v6m_BB21_7:
	movs	r0, #1
	add	sp, #100
	pop	{r4, r5, r6, r7, pc}
.Laes_v6m_BB21_8:                               @ %join.5.i.preheader.new
	mov	r3, r6
	bics	r3, r0
	str	r3, [sp, #40]                   @ 4-byte Spill
	mov	r7, r5
	mov	r2, r5
	b	.Laes_v6m_BB21_10
.Laes_v6m_BB21_9:                               @ %join.5.i
                                        @   in Loop: Header=BB21_10 Depth=1
	ldr	r0, [sp, #68]                   @ 4-byte Reload
	adds	r1, r0, r6
	ldr	r0, [sp, #52]                   @ 4-byte Reload
	bl	memcpy
	ldr	r0, [sp, #84]
	ldr	r1, [sp, #80]
	ldr	r2, [sp, #64]                   @ 4-byte Reload
	strb	r1, [r2, r6]
	adds	r2, r2, r6
	lsrs	r3, r0, #24
	strb	r3, [r2, #7]
	lsrs	r3, r0, #16
	strb	r3, [r2, #6]
	lsrs	r3, r0, #8
	strb	r3, [r2, #5]
	strb	r0, [r2, #4]
	lsrs	r0, r1, #24
	strb	r0, [r2, #3]
	lsrs	r0, r1, #16
	strb	r0, [r2, #2]
	lsrs	r0, r1, #8
	strb	r0, [r2, #1]
	adds	r7, r7, #4
	ldr	r2, [sp, #48]                   @ 4-byte Reload
	adcs	r2, r5
	mov	r0, r2
	eors	r0, r4
	mov	r1, r7
	ldr	r3, [sp, #40]                   @ 4-byte Reload
	eors	r1, r3
	orrs	r1, r0
	bne	.Laes_v6m_BB21_10
	b	.Laes_v6m_BB21_26
.Laes_v6m_BB21_10:                              @ %join.5.i
                                        @ =>This Inner Loop Header: Depth=1
	str	r5, [sp, #80]
	str	r5, [sp, #84]
	lsrs	r0, r7, #29
	str	r2, [sp, #48]                   @ 4-byte Spill
	lsls	r1, r2, #3
	adds	r1, r1, r0
	lsls	r6, r7, #3
	ldr	r0, [sp, #60]                   @ 4-byte Reload
	subs	r2, r0, r6
	ldr	r0, [sp, #72]                   @ 4-byte Reload
	str	r1, [sp, #56]                   @ 4-byte Spill
	sbcs	r0, r1
	movs	r1, #8
	str	r1, [sp, #76]                   @ 4-byte Spill
	cmp	r2, #8
	blo	.Laes_v6m_BB21_12
@ %bb.11:                               @ %join.5.i
                                        @   in Loop: Header=BB21_10 Depth=1
	ldr	r2, [sp, #76]                   @ 4-byte Reload
.Laes_v6m_BB21_12:                              @ %join.5.i
                                        @   in Loop: Header=BB21_10 Depth=1
	cmp	r0, #0
	beq	.Laes_v6m_BB21_14
@ %bb.13:                               @ %join.5.i
                                        @   in Loop: Header=BB21_10 Depth=1
	ldr	r2, [sp, #76]                   @ 4-byte Reload
.Laes_v6m_BB21_14:                              @ %join.5.i
                                        @   in Loop: Header=BB21_10 Depth=1
	ldr	r0, [sp, #68]                   @ 4-byte Reload
	adds	r1, r0, r6
	add	r0, sp, #80
	str	r0, [sp, #52]                   @ 4-byte Spill
	bl	memcpy
	ldr	r0, [sp, #84]
	ldr	r1, [sp, #80]
	ldr	r2, [sp, #64]                   @ 4-byte Reload
	strb	r1, [r2, r6]
	adds	r2, r2, r6
	lsrs	r3, r0, #24
	strb	r3, [r2, #7]
	lsrs	r3, r0, #16
	strb	r3, [r2, #6]
	lsrs	r3, r0, #8
	strb	r3, [r2, #5]
	strb	r0, [r2, #4]
	lsrs	r0, r1, #24
	strb	r0, [r2, #3]
	lsrs	r0, r1, #16
	strb	r0, [r2, #2]
	lsrs	r0, r1, #8
	strb	r0, [r2, #1]
	str	r5, [sp, #80]
	str	r5, [sp, #84]
	mov	r4, r6
	ldr	r0, [sp, #76]                   @ 4-byte Reload
	orrs	r4, r0
	ldr	r0, [sp, #60]                   @ 4-byte Reload
	subs	r2, r0, r4
	ldr	r0, [sp, #72]                   @ 4-byte Reload
	ldr	r1, [sp, #56]                   @ 4-byte Reload
	sbcs	r0, r1
	cmp	r2, #8
	blo	.Laes_v6m_BB21_16
@ %bb.15:                               @ %join.5.i
                                        @   in Loop: Header=BB21_10 Depth=1
	ldr	r2, [sp, #76]                   @ 4-byte Reload
.Laes_v6m_BB21_16:                              @ %join.5.i
                                        @   in Loop: Header=BB21_10 Depth=1
	cmp	r0, #0
	beq	.Laes_v6m_BB21_18
@ %bb.17:                               @ %join.5.i
                                        @   in Loop: Header=BB21_10 Depth=1
	ldr	r2, [sp, #76]                   @ 4-byte Reload
.Laes_v6m_BB21_18:                              @ %join.5.i
                                        @   in Loop: Header=BB21_10 Depth=1
	ldr	r0, [sp, #68]                   @ 4-byte Reload
	adds	r1, r0, r4
	ldr	r0, [sp, #52]                   @ 4-byte Reload
	bl	memcpy
	ldr	r0, [sp, #84]
	ldr	r1, [sp, #80]
	ldr	r2, [sp, #64]                   @ 4-byte Reload
	strb	r1, [r2, r4]
	adds	r2, r2, r4
	lsrs	r3, r0, #24
	strb	r3, [r2, #7]
	lsrs	r3, r0, #16
	strb	r3, [r2, #6]
	lsrs	r3, r0, #8
	strb	r3, [r2, #5]
	strb	r0, [r2, #4]
	lsrs	r0, r1, #24
	strb	r0, [r2, #3]
	lsrs	r0, r1, #16
	strb	r0, [r2, #2]
	lsrs	r0, r1, #8
	strb	r0, [r2, #1]
	str	r5, [sp, #80]
	str	r5, [sp, #84]
	movs	r4, #16
	orrs	r4, r6
	ldr	r0, [sp, #60]                   @ 4-byte Reload
	subs	r2, r0, r4
	ldr	r0, [sp, #72]                   @ 4-byte Reload
	ldr	r1, [sp, #56]                   @ 4-byte Reload
	sbcs	r0, r1
	cmp	r2, #8
	blo	.Laes_v6m_BB21_20
@ %bb.19:                               @ %join.5.i
                                        @   in Loop: Header=BB21_10 Depth=1
	ldr	r2, [sp, #76]                   @ 4-byte Reload
.Laes_v6m_BB21_20:                              @ %join.5.i
                                        @   in Loop: Header=BB21_10 Depth=1
	cmp	r0, #0
	beq	.Laes_v6m_BB21_22
@ %bb.21:                               @ %join.5.i
                                        @   in Loop: Header=BB21_10 Depth=1
	ldr	r2, [sp, #76]                   @ 4-byte Reload
.Laes_v6m_BB21_22:                              @ %join.5.i
                                        @   in Loop: Header=BB21_10 Depth=1
	ldr	r0, [sp, #68]                   @ 4-byte Reload
	adds	r1, r0, r4
	ldr	r0, [sp, #52]                   @ 4-byte Reload
	bl	memcpy
	ldr	r0, [sp, #84]
	ldr	r1, [sp, #80]
	ldr	r2, [sp, #64]                   @ 4-byte Reload
	strb	r1, [r2, r4]
	adds	r2, r2, r4
	lsrs	r3, r0, #24
	strb	r3, [r2, #7]
	lsrs	r3, r0, #16
	strb	r3, [r2, #6]
	lsrs	r3, r0, #8
	strb	r3, [r2, #5]
	strb	r0, [r2, #4]
	lsrs	r0, r1, #24
	strb	r0, [r2, #3]
	lsrs	r0, r1, #16
	strb	r0, [r2, #2]
	lsrs	r0, r1, #8
	strb	r0, [r2, #1]
	str	r5, [sp, #80]
	str	r5, [sp, #84]
	movs	r0, #24
	orrs	r6, r0
	ldr	r0, [sp, #60]                   @ 4-byte Reload
	subs	r2, r0, r6
	ldr	r0, [sp, #72]                   @ 4-byte Reload
	ldr	r1, [sp, #56]                   @ 4-byte Reload
	sbcs	r0, r1
	cmp	r2, #8
	blo	.Laes_v6m_BB21_24
@ %bb.23:                               @ %join.5.i
                                        @   in Loop: Header=BB21_10 Depth=1
	ldr	r2, [sp, #76]                   @ 4-byte Reload
.Laes_v6m_BB21_24:                              @ %join.5.i
                                        @   in Loop: Header=BB21_10 Depth=1
	cmp	r0, #0
	ldr	r4, [sp, #44]                   @ 4-byte Reload
	bne	.Laes_v6m_BB21_25
	b	.Laes_v6m_BB21_9
.Laes_v6m_BB21_25:                              @ %join.5.i
                                        @   in Loop: Header=BB21_10 Depth=1
	ldr	r2, [sp, #76]                   @ 4-byte Reload
	b	.Laes_v6m_BB21_9
.Laes_v6m_BB21_26:                              @ %"key_wrap::padded::fill.exit.unr-lcssa"
	ldr	r0, [sp, #28]                   @ 4-byte Reload
	cmp	r0, #0
	beq	.Laes_v6m_BB21_42
.Laes_v6m_BB21_27:                              @ %join.5.i.epil.preheader
	movs	r5, #0
	str	r5, [sp, #80]
	str	r5, [sp, #84]
	lsrs	r0, r7, #29
	lsls	r1, r2, #3
	adds	r6, r1, r0
	lsls	r4, r7, #3
	ldr	r0, [sp, #60]                   @ 4-byte Reload
	subs	r2, r0, r4
	ldr	r1, [sp, #72]                   @ 4-byte Reload
	sbcs	r1, r6
	movs	r0, #8
	cmp	r2, #8
	blo	.Laes_v6m_BB21_29
@ %bb.28:                               @ %join.5.i.epil.preheader
	mov	r2, r0
.Laes_v6m_BB21_29:                              @ %join.5.i.epil.preheader
	cmp	r1, #0
	beq	.Laes_v6m_BB21_31
@ %bb.30:                               @ %join.5.i.epil.preheader
	mov	r2, r0
.Laes_v6m_BB21_31:                              @ %join.5.i.epil.preheader
	ldr	r0, [sp, #68]                   @ 4-byte Reload
	adds	r1, r0, r4
	add	r0, sp, #80
	bl	memcpy
	ldr	r0, [sp, #84]
	ldr	r1, [sp, #80]
	ldr	r2, [sp, #64]                   @ 4-byte Reload
	strb	r1, [r2, r4]
	adds	r2, r2, r4
	lsrs	r3, r0, #24
	strb	r3, [r2, #7]
	lsrs	r3, r0, #16
	strb	r3, [r2, #6]
	lsrs	r3, r0, #8
	strb	r3, [r2, #5]
	strb	r0, [r2, #4]
	lsrs	r0, r1, #24
	strb	r0, [r2, #3]
	lsrs	r0, r1, #16
	strb	r0, [r2, #2]
	lsrs	r0, r1, #8
	strb	r0, [r2, #1]
	ldr	r0, [sp, #28]                   @ 4-byte Reload
	cmp	r0, #1
	beq	.Laes_v6m_BB21_42
@ %bb.32:                               @ %join.5.i.epil.1
	str	r5, [sp, #80]
	str	r5, [sp, #84]
	mov	r7, r4
	adds	r7, #8
	mov	r0, r6
	adcs	r0, r5
	ldr	r1, [sp, #60]                   @ 4-byte Reload
	subs	r2, r1, r7
	ldr	r1, [sp, #72]                   @ 4-byte Reload
	sbcs	r1, r0
	movs	r0, #8
	cmp	r2, #8
	blo	.Laes_v6m_BB21_34
@ %bb.33:                               @ %join.5.i.epil.1
	mov	r2, r0
.Laes_v6m_BB21_34:                              @ %join.5.i.epil.1
	cmp	r1, #0
	beq	.Laes_v6m_BB21_36
@ %bb.35:                               @ %join.5.i.epil.1
	mov	r2, r0
.Laes_v6m_BB21_36:                              @ %join.5.i.epil.1
	ldr	r0, [sp, #68]                   @ 4-byte Reload
	adds	r1, r0, r7
	add	r0, sp, #80
	bl	memcpy
	ldr	r0, [sp, #84]
	ldr	r1, [sp, #80]
	ldr	r2, [sp, #64]                   @ 4-byte Reload
	strb	r1, [r2, r7]
	adds	r2, r2, r7
	lsrs	r3, r0, #24
	strb	r3, [r2, #7]
	lsrs	r3, r0, #16
	strb	r3, [r2, #6]
	lsrs	r3, r0, #8
	strb	r3, [r2, #5]
	strb	r0, [r2, #4]
	lsrs	r0, r1, #24
	strb	r0, [r2, #3]
	lsrs	r0, r1, #16
	strb	r0, [r2, #2]
	lsrs	r0, r1, #8
	strb	r0, [r2, #1]
	ldr	r0, [sp, #28]                   @ 4-byte Reload
	cmp	r0, #2
	beq	.Laes_v6m_BB21_42
@ %bb.37:                               @ %join.5.i.epil.2
	str	r5, [sp, #80]
	str	r5, [sp, #84]
	adds	r4, #16
	adcs	r6, r5
	ldr	r0, [sp, #60]                   @ 4-byte Reload
	subs	r2, r0, r4
	ldr	r0, [sp, #72]                   @ 4-byte Reload
	sbcs	r0, r6
	str	r0, [sp, #72]                   @ 4-byte Spill
	movs	r0, #8
	cmp	r2, #8
	blo	.Laes_v6m_BB21_39
@ %bb.38:                               @ %join.5.i.epil.2
	mov	r2, r0
.Laes_v6m_BB21_39:                              @ %join.5.i.epil.2
	ldr	r1, [sp, #72]                   @ 4-byte Reload
	cmp	r1, #0
	beq	.Laes_v6m_BB21_41
@ %bb.40:                               @ %join.5.i.epil.2
	mov	r2, r0
.Laes_v6m_BB21_41:                              @ %join.5.i.epil.2
	ldr	r0, [sp, #68]                   @ 4-byte Reload
	adds	r1, r0, r4
	add	r0, sp, #80
	bl	memcpy
	ldr	r0, [sp, #84]
	ldr	r1, [sp, #80]
	ldr	r2, [sp, #64]                   @ 4-byte Reload
	strb	r1, [r2, r4]
	adds	r2, r2, r4
	lsrs	r3, r0, #24
	strb	r3, [r2, #7]
	lsrs	r3, r0, #16
	strb	r3, [r2, #6]
	lsrs	r3, r0, #8
	strb	r3, [r2, #5]
	strb	r0, [r2, #4]
	lsrs	r0, r1, #24
	strb	r0, [r2, #3]
	lsrs	r0, r1, #16
	strb	r0, [r2, #2]
	lsrs	r0, r1, #8
	strb	r0, [r2, #1]
.Laes_v6m_BB21_42:                              @ %"key_wrap::padded::fill.exit"
	movs	r0, #1
	ldr	r1, [sp, #36]                   @ 4-byte Reload
	eors	r1, r0
	ldr	r6, [sp, #44]                   @ 4-byte Reload
	orrs	r1, r6
	ldr	r7, [sp, #20]                   @ 4-byte Reload
	ldr	r2, [sp, #24]                   @ 4-byte Reload
	ldr	r1, [sp, #16]                   @ 4-byte Reload
	bne	.Laes_v6m_BB21_44
@ %bb.43:                               @ %then.1.i
	str	r1, [sp, #80]
	str	r2, [sp, #84]
	ldrb	r3, [r7, #12]
	ldrb	r2, [r7, #13]
	lsls	r2, r2, #8
	adds	r4, r2, r3
	ldrb	r2, [r7, #14]
	lsls	r2, r2, #16
	ldrb	r3, [r7, #15]
	lsls	r3, r3, #24
	adds	r2, r3, r2
	adds	r2, r2, r4
	str	r2, [sp, #92]
	ldrb	r3, [r7, #8]
	ldrb	r2, [r7, #9]
	lsls	r2, r2, #8
	adds	r4, r2, r3
	ldrb	r2, [r7, #10]
	lsls	r2, r2, #16
	ldrb	r3, [r7, #11]
	lsls	r3, r3, #24
	adds	r2, r3, r2
	adds	r2, r2, r4
	str	r2, [sp, #88]
	ldr	r2, [sp, #32]                   @ 4-byte Reload
	ldrb	r1, [r2, #15]
	str	r1, [sp, #76]                   @ 4-byte Spill
	ldrb	r1, [r2, #14]
	str	r1, [sp, #72]                   @ 4-byte Spill
	ldrb	r1, [r2, #12]
	str	r1, [sp, #68]                   @ 4-byte Spill
	ldrb	r1, [r2, #13]
	str	r1, [sp, #64]                   @ 4-byte Spill
	ldrb	r1, [r2, #11]
	str	r1, [sp, #60]                   @ 4-byte Spill
	ldrb	r1, [r2, #10]
	str	r1, [sp, #56]                   @ 4-byte Spill
	ldrb	r1, [r2, #8]
	str	r1, [sp, #52]                   @ 4-byte Spill
	ldrb	r1, [r2, #9]
	str	r1, [sp, #48]                   @ 4-byte Spill
	ldrb	r1, [r2, #3]
	str	r1, [sp, #44]                   @ 4-byte Spill
	ldrb	r5, [r2, #2]
	ldrb	r3, [r2]
	ldrb	r2, [r2, #1]
	movs	r6, #0
	str	r0, [sp, #8]
	str	r6, [sp, #12]
	add	r0, sp, #80
	str	r0, [sp]
	lsls	r0, r2, #8
	adds	r0, r0, r3
	lsls	r1, r5, #16
	ldr	r2, [sp, #44]                   @ 4-byte Reload
	lsls	r2, r2, #24
	adds	r1, r2, r1
	adds	r0, r1, r0
	ldr	r1, [sp, #48]                   @ 4-byte Reload
	lsls	r1, r1, #8
	ldr	r2, [sp, #52]                   @ 4-byte Reload
	adds	r1, r1, r2
	ldr	r2, [sp, #56]                   @ 4-byte Reload
	lsls	r2, r2, #16
	ldr	r3, [sp, #60]                   @ 4-byte Reload
	lsls	r3, r3, #24
	adds	r2, r3, r2
	adds	r2, r2, r1
	ldr	r1, [sp, #64]                   @ 4-byte Reload
	lsls	r1, r1, #8
	ldr	r3, [sp, #68]                   @ 4-byte Reload
	adds	r1, r1, r3
	ldr	r3, [sp, #72]                   @ 4-byte Reload
	lsls	r3, r3, #16
	ldr	r5, [sp, #76]                   @ 4-byte Reload
	lsls	r5, r5, #24
	adds	r3, r5, r3
	adds	r3, r3, r1
	bl	aes_v6m.aes_narrow.blocks.process_all_batches.1
	bl	aes_v6m.aes_cipher.zeroize.stack.wipe_stack.1024
	mov	r0, r6
	ldr	r3, [sp, #92]
	strb	r3, [r7, #12]
	ldr	r6, [sp, #88]
	strb	r6, [r7, #8]
	ldr	r2, [sp, #84]
	strb	r2, [r7, #4]
	ldr	r1, [sp, #80]
	strb	r1, [r7]
	lsrs	r5, r3, #24
	strb	r5, [r7, #15]
	lsrs	r5, r3, #16
	strb	r5, [r7, #14]
	lsrs	r3, r3, #8
	strb	r3, [r7, #13]
	lsrs	r3, r6, #24
	strb	r3, [r7, #11]
	lsrs	r3, r6, #16
	strb	r3, [r7, #10]
	lsrs	r3, r6, #8
	strb	r3, [r7, #9]
	lsrs	r3, r2, #24
	strb	r3, [r7, #7]
	lsrs	r3, r2, #16
	strb	r3, [r7, #6]
	lsrs	r2, r2, #8
	strb	r2, [r7, #5]
	lsrs	r2, r1, #24
	strb	r2, [r7, #3]
	lsrs	r2, r1, #16
	strb	r2, [r7, #2]
	lsrs	r1, r1, #8
	strb	r1, [r7, #1]
	add	sp, #100
	pop	{r4, r5, r6, r7, pc}
.Laes_v6m_BB21_44:                              @ %else.2.i
	ldr	r0, [sp, #36]                   @ 4-byte Reload
	str	r0, [sp]
	str	r6, [sp, #4]
	ldr	r0, [sp, #32]                   @ 4-byte Reload
	mov	r1, r7
	ldr	r2, [sp, #64]                   @ 4-byte Reload
	bl	aes_v6m.key_wrap.steps.wrap_in_place
	movs	r0, #0
.Laes_v6m_BB21_45:                              @ %return.4
	add	sp, #100
	pop	{r4, r5, r6, r7, pc}
	.p2align	2
@ %bb.46:
.Laes_v6m_CPI21_0:
	.long	2790873510                      @ 0xa65959a6
.Laes_v6m_func_end21:
	.size	aes_v6m.key_wrap.padded.wrap_padded, .Laes_v6m_func_end21-aes_v6m.key_wrap.padded.wrap_padded
	.cantunwind
	.fnend
                                        @ -- End function
	.section	.text.aes_v6m.aes_narrow.borrowed_words.call_to_decrypt,"ax",%progbits
	.p2align	2                               @ -- Begin function aes_narrow::borrowed_words::call_to_decrypt::<#a8a74a144d92a363>
	.type	aes_v6m.aes_narrow.borrowed_words.call_to_decrypt,%function
	.code	16
	.thumb_func
aes_v6m.aes_narrow.borrowed_words.call_to_decrypt: @ @aes_v6m.aes_narrow.borrowed_words.call_to_decrypt
	.fnstart
@ %bb.0:                                @ %start
	.save	{r4, r5, r6, r7, lr}
	push	{r4, r5, r6, r7, lr}
	.pad	#508
	sub	sp, #508
	.pad	#508
	sub	sp, #508
	.pad	#140
	sub	sp, #140
	ldr	r4, .Laes_v6m_CPI22_0
	add	r4, sp
	ldr	r4, [r4]
	ldr	r5, [r4, #24]
	ldr	r6, [r4, #28]
	mov	r1, r5
	orrs	r1, r6
	bne	.Laes_v6m_BB22_1
	b	.Laes_v6m_BB22_14
.Laes_v6m_BB22_1:                               @ %join.5.lr.ph.i.i
	ldr	r1, [r4, #16]
	str	r1, [sp, #28]                   @ 4-byte Spill
	movs	r1, #0
	mov	r7, r1
	str	r1, [sp, #44]                   @ 4-byte Spill
	str	r3, [sp, #56]                   @ 4-byte Spill
	str	r2, [sp, #64]                   @ 4-byte Spill
	str	r0, [sp, #52]                   @ 4-byte Spill
	str	r6, [sp, #32]                   @ 4-byte Spill
	str	r5, [sp, #36]                   @ 4-byte Spill
	str	r4, [sp, #24]                   @ 4-byte Spill
.Laes_v6m_BB22_2:                               @ %join.5.i.i
                                        @ =>This Loop Header: Depth=1
                                        @     Child Loop BB22_8 Depth 2
                                        @     Child Loop BB22_10 Depth 2
                                        @     Child Loop BB22_12 Depth 2
	str	r1, [sp, #48]                   @ 4-byte Spill
	movs	r0, #1
	str	r0, [sp, #120]                  @ 4-byte Spill
	lsls	r2, r0, #10
	add	r0, sp, #132
	str	r0, [sp, #112]                  @ 4-byte Spill
	ldr	r1, [sp, #44]                   @ 4-byte Reload
	bl	memset
	ldr	r1, [sp, #48]                   @ 4-byte Reload
	subs	r2, r5, r7
	mov	r5, r6
	sbcs	r5, r1
	movs	r0, #64
	cmp	r2, #64
	str	r2, [sp, #116]                  @ 4-byte Spill
	blo	.Laes_v6m_BB22_4
@ %bb.3:                                @ %join.5.i.i
                                        @   in Loop: Header=BB22_2 Depth=1
	mov	r2, r0
.Laes_v6m_BB22_4:                               @ %join.5.i.i
                                        @   in Loop: Header=BB22_2 Depth=1
	cmp	r5, #0
	beq	.Laes_v6m_BB22_6
@ %bb.5:                                @ %join.5.i.i
                                        @   in Loop: Header=BB22_2 Depth=1
	mov	r2, r0
.Laes_v6m_BB22_6:                               @ %join.5.i.i
                                        @   in Loop: Header=BB22_2 Depth=1
	adds	r0, r2, r7
	str	r0, [sp, #40]                   @ 4-byte Spill
	ldr	r6, [sp, #44]                   @ 4-byte Reload
	adcs	r1, r6
	str	r1, [sp, #48]                   @ 4-byte Spill
	lsrs	r0, r2, #28
	str	r2, [sp, #128]                  @ 4-byte Spill
	lsls	r2, r2, #4
	lsls	r1, r7, #4
	ldr	r3, [sp, #28]                   @ 4-byte Reload
	adds	r1, r3, r1
	ldr	r3, [sp, #112]                  @ 4-byte Reload
	subs	r7, r3, r1
	mov	r3, r6
	sbcs	r3, r6
	subs	r6, r7, r2
	sbcs	r3, r0
	add	r0, sp, #132
	mov	r6, r1
	bl	memcpy
	movs	r7, #0
	ldr	r0, [sp, #116]                  @ 4-byte Reload
	subs	r0, r0, #2
	sbcs	r5, r7
	mov	r5, r7
	str	r7, [sp, #112]                  @ 4-byte Spill
	ldr	r2, [sp, #64]                   @ 4-byte Reload
	ldr	r3, [sp, #128]                  @ 4-byte Reload
	str	r6, [sp, #124]                  @ 4-byte Spill
	blo	.Laes_v6m_BB22_9
@ %bb.7:                                @ %join.5.i.i.i.i.preheader
                                        @   in Loop: Header=BB22_2 Depth=1
	mov	r1, r6
	movs	r7, #0
	mov	r5, r7
	str	r7, [sp, #116]                  @ 4-byte Spill
.Laes_v6m_BB22_8:                               @ %join.5.i.i.i.i
                                        @   Parent Loop BB22_2 Depth=1
                                        @ =>  This Inner Loop Header: Depth=2
	movs	r0, #2
	str	r0, [sp, #8]
	ldr	r4, [sp, #116]                  @ 4-byte Reload
	str	r4, [sp, #12]
	lsls	r0, r5, #4
	adds	r0, r1, r0
	str	r0, [sp]
	ldr	r0, [sp, #52]                   @ 4-byte Reload
	ldr	r3, [sp, #56]                   @ 4-byte Reload
	bl	aes_v6m.aes_soft.soft.blocks.filled_up.process_filled_up.2
	ldr	r2, [sp, #64]                   @ 4-byte Reload
	ldr	r3, [sp, #128]                  @ 4-byte Reload
	adds	r5, r5, #2
	adcs	r7, r4
	subs	r0, r3, r5
	mov	r1, r4
	sbcs	r1, r7
	ldr	r6, [sp, #120]                  @ 4-byte Reload
	subs	r0, r6, r0
	sbcs	r4, r1
	ldr	r1, [sp, #124]                  @ 4-byte Reload
	blo	.Laes_v6m_BB22_8
.Laes_v6m_BB22_9:                               @ %loop.7.preheader.i.i.i.i
                                        @   in Loop: Header=BB22_2 Depth=1
	subs	r0, r5, r3
	mov	r0, r7
	ldr	r1, [sp, #112]                  @ 4-byte Reload
	sbcs	r0, r1
	bhs	.Laes_v6m_BB22_11
.Laes_v6m_BB22_10:                              @ %join.10.i.i.i.i
                                        @   Parent Loop BB22_2 Depth=1
                                        @ =>  This Inner Loop Header: Depth=2
	movs	r6, #0
	ldr	r0, [sp, #120]                  @ 4-byte Reload
	str	r0, [sp, #8]
	str	r6, [sp, #12]
	lsls	r0, r5, #4
	ldr	r1, [sp, #124]                  @ 4-byte Reload
	adds	r0, r1, r0
	str	r0, [sp]
	ldr	r0, [sp, #52]                   @ 4-byte Reload
	ldr	r3, [sp, #56]                   @ 4-byte Reload
	bl	aes_v6m.aes_soft.soft.blocks.filled_up.process_filled_up.2
	ldr	r2, [sp, #64]                   @ 4-byte Reload
	adds	r5, r5, #1
	adcs	r7, r6
	ldr	r0, [sp, #128]                  @ 4-byte Reload
	subs	r0, r5, r0
	mov	r0, r7
	sbcs	r0, r6
	blo	.Laes_v6m_BB22_10
.Laes_v6m_BB22_11:                              @ %join.7.lr.ph.i.i.i
                                        @   in Loop: Header=BB22_2 Depth=1
	ldr	r4, [sp, #24]                   @ 4-byte Reload
	ldrb	r7, [r4, #15]
	ldrb	r0, [r4, #14]
	str	r0, [sp, #72]                   @ 4-byte Spill
	ldrb	r0, [r4, #13]
	str	r0, [sp, #76]                   @ 4-byte Spill
	ldrb	r0, [r4, #12]
	str	r0, [sp, #80]                   @ 4-byte Spill
	ldrb	r0, [r4, #11]
	str	r0, [sp, #84]                   @ 4-byte Spill
	ldrb	r0, [r4, #10]
	str	r0, [sp, #88]                   @ 4-byte Spill
	ldrb	r0, [r4, #9]
	str	r0, [sp, #92]                   @ 4-byte Spill
	ldrb	r0, [r4, #8]
	str	r0, [sp, #96]                   @ 4-byte Spill
	ldrb	r0, [r4, #7]
	str	r0, [sp, #100]                  @ 4-byte Spill
	ldrb	r0, [r4, #6]
	str	r0, [sp, #104]                  @ 4-byte Spill
	ldrb	r0, [r4, #5]
	str	r0, [sp, #108]                  @ 4-byte Spill
	ldrb	r0, [r4, #4]
	str	r0, [sp, #112]                  @ 4-byte Spill
	ldrb	r0, [r4, #3]
	str	r0, [sp, #116]                  @ 4-byte Spill
	ldrb	r0, [r4, #2]
	str	r0, [sp, #120]                  @ 4-byte Spill
	ldrb	r5, [r4, #1]
	ldrb	r6, [r4]
	movs	r2, #0
	mov	r1, r2
	str	r2, [sp, #60]                   @ 4-byte Spill
.Laes_v6m_BB22_12:                              @ %join.7.i.i.i
                                        @   Parent Loop BB22_2 Depth=1
                                        @ =>  This Inner Loop Header: Depth=2
	str	r5, [sp, #68]                   @ 4-byte Spill
	lsls	r3, r1, #4
	ldr	r0, [sp, #124]                  @ 4-byte Reload
	ldrb	r5, [r0, r3]
	eors	r5, r6
	strb	r5, [r0, r3]
	adds	r6, r0, r3
	ldrb	r5, [r6, #15]
	eors	r5, r7
	strb	r5, [r6, #15]
	ldrb	r5, [r6, #14]
	ldr	r0, [sp, #72]                   @ 4-byte Reload
	eors	r5, r0
	strb	r5, [r6, #14]
	ldrb	r0, [r6, #13]
	ldr	r5, [sp, #76]                   @ 4-byte Reload
	eors	r0, r5
	strb	r0, [r6, #13]
	ldrb	r0, [r6, #12]
	ldr	r5, [sp, #80]                   @ 4-byte Reload
	eors	r0, r5
	strb	r0, [r6, #12]
	ldrb	r0, [r6, #11]
	ldr	r5, [sp, #84]                   @ 4-byte Reload
	eors	r0, r5
	strb	r0, [r6, #11]
	ldrb	r0, [r6, #10]
	ldr	r5, [sp, #88]                   @ 4-byte Reload
	eors	r0, r5
	strb	r0, [r6, #10]
	ldrb	r0, [r6, #9]
	ldr	r5, [sp, #92]                   @ 4-byte Reload
	eors	r0, r5
	strb	r0, [r6, #9]
	ldrb	r0, [r6, #8]
	ldr	r5, [sp, #96]                   @ 4-byte Reload
	eors	r0, r5
	strb	r0, [r6, #8]
	ldrb	r0, [r6, #7]
	ldr	r5, [sp, #100]                  @ 4-byte Reload
	eors	r0, r5
	strb	r0, [r6, #7]
	ldrb	r0, [r6, #6]
	ldr	r5, [sp, #104]                  @ 4-byte Reload
	eors	r0, r5
	strb	r0, [r6, #6]
	ldrb	r0, [r6, #5]
	ldr	r5, [sp, #108]                  @ 4-byte Reload
	eors	r0, r5
	strb	r0, [r6, #5]
	ldrb	r0, [r6, #4]
	ldr	r5, [sp, #112]                  @ 4-byte Reload
	eors	r0, r5
	strb	r0, [r6, #4]
	ldrb	r0, [r6, #3]
	ldr	r5, [sp, #116]                  @ 4-byte Reload
	eors	r0, r5
	strb	r0, [r6, #3]
	ldrb	r0, [r6, #2]
	ldr	r5, [sp, #120]                  @ 4-byte Reload
	eors	r0, r5
	strb	r0, [r6, #2]
	ldrb	r0, [r6, #1]
	ldr	r5, [sp, #68]                   @ 4-byte Reload
	eors	r0, r5
	strb	r0, [r6, #1]
	add	r6, sp, #132
	adds	r5, r6, r3
	ldrb	r7, [r5, #15]
	strb	r7, [r4, #15]
	ldrb	r0, [r5, #14]
	str	r0, [sp, #72]                   @ 4-byte Spill
	strb	r0, [r4, #14]
	ldrb	r0, [r5, #13]
	str	r0, [sp, #76]                   @ 4-byte Spill
	strb	r0, [r4, #13]
	ldrb	r0, [r5, #12]
	str	r0, [sp, #80]                   @ 4-byte Spill
	strb	r0, [r4, #12]
	ldrb	r0, [r5, #11]
	str	r0, [sp, #84]                   @ 4-byte Spill
	strb	r0, [r4, #11]
	ldrb	r0, [r5, #10]
	str	r0, [sp, #88]                   @ 4-byte Spill
	strb	r0, [r4, #10]
	ldrb	r0, [r5, #9]
	str	r0, [sp, #92]                   @ 4-byte Spill
	strb	r0, [r4, #9]
	ldrb	r0, [r5, #8]
	str	r0, [sp, #96]                   @ 4-byte Spill
	strb	r0, [r4, #8]
	ldrb	r0, [r5, #7]
	str	r0, [sp, #100]                  @ 4-byte Spill
	strb	r0, [r4, #7]
	ldrb	r0, [r5, #6]
	str	r0, [sp, #104]                  @ 4-byte Spill
	strb	r0, [r4, #6]
	ldrb	r0, [r5, #5]
	str	r0, [sp, #108]                  @ 4-byte Spill
	strb	r0, [r4, #5]
	ldrb	r0, [r5, #4]
	str	r0, [sp, #112]                  @ 4-byte Spill
	strb	r0, [r4, #4]
	ldrb	r0, [r5, #3]
	str	r0, [sp, #116]                  @ 4-byte Spill
	strb	r0, [r4, #3]
	ldrb	r0, [r5, #2]
	str	r0, [sp, #120]                  @ 4-byte Spill
	strb	r0, [r4, #2]
	ldrb	r5, [r5, #1]
	strb	r5, [r4, #1]
	ldrb	r6, [r6, r3]
	strb	r6, [r4]
	adds	r1, r1, #1
	ldr	r0, [sp, #60]                   @ 4-byte Reload
	adcs	r2, r0
	ldr	r3, [sp, #128]                  @ 4-byte Reload
	subs	r3, r1, r3
	mov	r3, r2
	sbcs	r3, r0
	blo	.Laes_v6m_BB22_12
@ %bb.13:                               @ %"cbc::decryption::unchain_part::<#c3f6a2486d05430b>.exit.loopexit.i.i"
                                        @   in Loop: Header=BB22_2 Depth=1
	ldr	r5, [sp, #36]                   @ 4-byte Reload
	ldr	r7, [sp, #40]                   @ 4-byte Reload
	subs	r0, r7, r5
	ldr	r1, [sp, #48]                   @ 4-byte Reload
	mov	r0, r1
	ldr	r6, [sp, #32]                   @ 4-byte Reload
	sbcs	r0, r6
	bhs	.Laes_v6m_BB22_14
	b	.Laes_v6m_BB22_2
.Laes_v6m_BB22_14:                              @ %"cbc::decryption::ChainBlockCipherDecClosure::call::<#c3f6a2486d05430b>.exit"
	add	sp, #508
	add	sp, #508
	add	sp, #140
	pop	{r4, r5, r6, r7, pc}
	.p2align	2
@ %bb.15:
.Laes_v6m_CPI22_0:
	.long	1176                            @ 0x498
.Laes_v6m_func_end22:
	.size	aes_v6m.aes_narrow.borrowed_words.call_to_decrypt, .Laes_v6m_func_end22-aes_v6m.aes_narrow.borrowed_words.call_to_decrypt
	.cantunwind
	.fnend
                                        @ -- End function
	.section	.text.aes_v6m.aes_soft.soft.blocks.filled_up.process_filled_up.2,"ax",%progbits
	.p2align	1                               @ -- Begin function aes_soft::soft::blocks::filled_up::process_filled_up::<#a3dcb71d05bd149b>
	.type	aes_v6m.aes_soft.soft.blocks.filled_up.process_filled_up.2,%function
	.code	16
	.thumb_func
aes_v6m.aes_soft.soft.blocks.filled_up.process_filled_up.2: @ @aes_v6m.aes_soft.soft.blocks.filled_up.process_filled_up.2
	.fnstart
@ %bb.0:                                @ %start
	.save	{r4, r5, r6, r7, lr}
	push	{r4, r5, r6, r7, lr}
	.pad	#156
	sub	sp, #156
	str	r3, [sp, #8]                    @ 4-byte Spill
	str	r2, [sp, #24]                   @ 4-byte Spill
	str	r0, [sp, #20]                   @ 4-byte Spill
	movs	r6, #0
	str	r6, [sp, #120]
	str	r6, [sp, #116]
	str	r6, [sp, #112]
	str	r6, [sp, #108]
	str	r6, [sp, #104]
	str	r6, [sp, #100]
	str	r6, [sp, #96]
	str	r6, [sp, #92]
	str	r6, [sp, #60]
	str	r6, [sp, #64]
	str	r6, [sp, #68]
	str	r6, [sp, #72]
	str	r6, [sp, #76]
	str	r6, [sp, #80]
	str	r6, [sp, #84]
	str	r6, [sp, #88]
	str	r6, [sp, #28]
	str	r6, [sp, #32]
	str	r6, [sp, #36]
	str	r6, [sp, #40]
	str	r6, [sp, #44]
	str	r6, [sp, #48]
	str	r6, [sp, #52]
	str	r6, [sp, #56]
	ldr	r4, [sp, #176]
	ldrb	r0, [r4, #12]
	ldrb	r1, [r4, #13]
	lsls	r1, r1, #8
	adds	r0, r1, r0
	ldrb	r1, [r4, #14]
	lsls	r1, r1, #16
	ldrb	r2, [r4, #15]
	lsls	r2, r2, #24
	adds	r1, r2, r1
	adds	r0, r1, r0
	str	r0, [sp, #136]
	ldrb	r0, [r4, #8]
	ldrb	r1, [r4, #9]
	lsls	r1, r1, #8
	adds	r0, r1, r0
	ldrb	r1, [r4, #10]
	lsls	r1, r1, #16
	ldrb	r2, [r4, #11]
	lsls	r2, r2, #24
	adds	r1, r2, r1
	adds	r0, r1, r0
	str	r0, [sp, #132]
	ldrb	r0, [r4, #4]
	ldrb	r1, [r4, #5]
	lsls	r1, r1, #8
	adds	r0, r1, r0
	ldrb	r1, [r4, #6]
	lsls	r1, r1, #16
	ldrb	r2, [r4, #7]
	lsls	r2, r2, #24
	adds	r1, r2, r1
	adds	r0, r1, r0
	str	r0, [sp, #128]
	ldrb	r0, [r4]
	ldrb	r1, [r4, #1]
	lsls	r1, r1, #8
	adds	r0, r1, r0
	ldrb	r1, [r4, #2]
	lsls	r1, r1, #16
	ldrb	r2, [r4, #3]
	lsls	r2, r2, #24
	adds	r1, r2, r1
	adds	r0, r1, r0
	str	r0, [sp, #124]
	add	r0, sp, #124
	adds	r0, #16
	movs	r2, #16
	mov	r1, r4
	bl	memcpy
	ldr	r5, [sp, #188]
	ldr	r7, [sp, #184]
	mov	r1, r7
	orrs	r1, r5
	rsbs	r0, r1, #0
	adcs	r0, r1
	str	r0, [sp, #12]                   @ 4-byte Spill
	ldr	r3, [sp, #8]                    @ 4-byte Reload
	lsls	r0, r3, #29
	ldr	r2, [sp, #24]                   @ 4-byte Reload
	lsrs	r2, r2, #3
	adds	r0, r2, r0
	lsrs	r3, r3, #3
	subs	r0, r0, #1
	str	r0, [sp, #24]                   @ 4-byte Spill
	sbcs	r3, r6
	cmp	r1, #0
	str	r5, [sp, #4]                    @ 4-byte Spill
	str	r7, [sp, #16]                   @ 4-byte Spill
	beq	.Laes_v6m_BB23_2
@ %bb.1:                                @ %join.8.i
	ldrb	r0, [r4, #12]
	ldrb	r1, [r4, #13]
	lsls	r1, r1, #8
	adds	r0, r1, r0
	ldrb	r1, [r4, #14]
	lsls	r1, r1, #16
	ldrb	r2, [r4, #15]
	lsls	r2, r2, #24
	adds	r1, r2, r1
	adds	r0, r1, r0
	str	r0, [sp, #136]
	ldrb	r0, [r4, #8]
	ldrb	r1, [r4, #9]
	lsls	r1, r1, #8
	adds	r0, r1, r0
	ldrb	r1, [r4, #10]
	lsls	r1, r1, #16
	ldrb	r2, [r4, #11]
	lsls	r2, r2, #24
	adds	r1, r2, r1
	adds	r0, r1, r0
	str	r0, [sp, #132]
	ldrb	r0, [r4, #4]
	ldrb	r1, [r4, #5]
	lsls	r1, r1, #8
	adds	r0, r1, r0
	ldrb	r1, [r4, #6]
	lsls	r1, r1, #16
	ldrb	r2, [r4, #7]
	lsls	r2, r2, #24
	adds	r1, r2, r1
	adds	r0, r1, r0
	str	r0, [sp, #128]
	ldrb	r0, [r4]
	ldrb	r1, [r4, #1]
	lsls	r1, r1, #8
	adds	r0, r1, r0
	ldrb	r1, [r4, #2]
	lsls	r1, r1, #16
	ldrb	r2, [r4, #3]
	lsls	r2, r2, #24
	adds	r1, r2, r1
	adds	r0, r1, r0
	str	r0, [sp, #124]
	movs	r0, #1
	eors	r0, r7
	orrs	r0, r5
	bne	.Laes_v6m_BB23_3
.Laes_v6m_BB23_2:                               @ %then.6.i
	add	r0, sp, #124
	add	r1, sp, #60
	ldm	r0!, {r2, r5, r6, r7}
	stm	r1!, {r2, r5, r6, r7}
	ldm	r0!, {r2, r5, r6, r7}
	stm	r1!, {r2, r5, r6, r7}
	b	.Laes_v6m_BB23_4
.Laes_v6m_BB23_3:                               @ %join.8.i.1
	add	r5, sp, #124
	mov	r0, r5
	adds	r0, #16
	mov	r1, r4
	adds	r1, #16
	movs	r2, #16
	mov	r6, r3
	bl	memcpy
	mov	r3, r6
	add	r0, sp, #60
	ldm	r5!, {r1, r2, r6, r7}
	stm	r0!, {r1, r2, r6, r7}
	ldm	r5!, {r1, r2, r6, r7}
	stm	r0!, {r1, r2, r6, r7}
.Laes_v6m_BB23_4:                               @ %"aes_soft::soft::blocks::filled_up::filled_up::<#7d3b633001169d8c>.exit"
	add	r0, sp, #60
	str	r0, [sp]
	add	r6, sp, #28
	mov	r0, r6
	ldr	r1, [sp, #20]                   @ 4-byte Reload
	ldr	r2, [sp, #24]                   @ 4-byte Reload
	bl	aes_v6m.aes_soft.soft.ciphers.planes.process_outlined.2
	add	r0, sp, #92
	ldm	r6!, {r1, r2, r3, r5}
	stm	r0!, {r1, r2, r3, r5}
	ldm	r6!, {r1, r2, r3, r5}
	stm	r0!, {r1, r2, r3, r5}
	ldr	r0, [sp, #12]                   @ 4-byte Reload
	cmp	r0, #0
	ldr	r5, [sp, #16]                   @ 4-byte Reload
	bne	.Laes_v6m_BB23_7
@ %bb.5:                                @ %join.8.i22
	add	r1, sp, #92
	movs	r2, #16
	mov	r0, r4
	bl	memcpy
	movs	r0, #1
	eors	r5, r0
	ldr	r0, [sp, #4]                    @ 4-byte Reload
	orrs	r5, r0
	beq	.Laes_v6m_BB23_7
@ %bb.6:                                @ %join.8.i22.1
	adds	r4, #16
	add	r1, sp, #92
	adds	r1, #16
	movs	r2, #16
	mov	r0, r4
	bl	memcpy
.Laes_v6m_BB23_7:                               @ %"aes_soft::soft::blocks::filled_up::copy_first::<#7d3b633001169d8c>.exit"
	add	sp, #156
	pop	{r4, r5, r6, r7, pc}
.Laes_v6m_func_end23:
	.size	aes_v6m.aes_soft.soft.blocks.filled_up.process_filled_up.2, .Laes_v6m_func_end23-aes_v6m.aes_soft.soft.blocks.filled_up.process_filled_up.2
	.cantunwind
	.fnend
                                        @ -- End function
	.section	.text.aes_v6m.aes_soft.soft.ciphers.planes.process_outlined.2,"ax",%progbits
	.p2align	2                               @ -- Begin function aes_soft::soft::ciphers::planes::process_outlined::<#4da0d9798c91611c>
	.type	aes_v6m.aes_soft.soft.ciphers.planes.process_outlined.2,%function
	.code	16
	.thumb_func
aes_v6m.aes_soft.soft.ciphers.planes.process_outlined.2: @ @aes_v6m.aes_soft.soft.ciphers.planes.process_outlined.2
	.fnstart
@ %bb.0:                                @ %start
	.save	{r4, r5, r6, r7, lr}
	push	{r4, r5, r6, r7, lr}
	.pad	#184
	sub	sp, #184
	str	r3, [sp, #96]                   @ 4-byte Spill
	str	r2, [sp, #116]                  @ 4-byte Spill
	str	r1, [sp, #16]                   @ 4-byte Spill
	str	r0, [sp]                        @ 4-byte Spill
	ldr	r3, [sp, #204]
	ldrb	r0, [r3, #28]
	ldrb	r1, [r3, #29]
	lsls	r1, r1, #8
	adds	r0, r1, r0
	ldrb	r1, [r3, #30]
	lsls	r1, r1, #16
	adds	r0, r0, r1
	ldrb	r1, [r3, #31]
	lsls	r1, r1, #24
	adds	r2, r0, r1
	ldrb	r0, [r3, #12]
	ldrb	r1, [r3, #13]
	lsls	r1, r1, #8
	adds	r0, r1, r0
	ldrb	r1, [r3, #14]
	lsls	r1, r1, #16
	adds	r0, r0, r1
	ldrb	r1, [r3, #15]
	lsls	r1, r1, #24
	adds	r0, r0, r1
	str	r0, [sp, #180]                  @ 4-byte Spill
	lsrs	r0, r0, #1
	eors	r0, r2
	ldr	r7, .Laes_v6m_CPI24_9
	ands	r0, r7
	str	r0, [sp, #168]                  @ 4-byte Spill
	eors	r2, r0
	mov	r4, r2
	str	r2, [sp, #176]                  @ 4-byte Spill
	ldrb	r0, [r3, #24]
	ldrb	r1, [r3, #25]
	lsls	r1, r1, #8
	adds	r0, r1, r0
	ldrb	r1, [r3, #26]
	lsls	r1, r1, #16
	adds	r0, r0, r1
	ldrb	r1, [r3, #27]
	lsls	r1, r1, #24
	adds	r0, r0, r1
	ldrb	r1, [r3, #8]
	ldrb	r2, [r3, #9]
	lsls	r2, r2, #8
	adds	r1, r2, r1
	ldrb	r2, [r3, #10]
	lsls	r2, r2, #16
	adds	r1, r1, r2
	ldrb	r2, [r3, #11]
	lsls	r2, r2, #24
	adds	r1, r1, r2
	str	r1, [sp, #164]                  @ 4-byte Spill
	lsrs	r1, r1, #1
	eors	r1, r0
	ands	r1, r7
	str	r1, [sp, #132]                  @ 4-byte Spill
	eors	r0, r1
	lsrs	r1, r0, #2
	eors	r1, r4
	ldr	r2, .Laes_v6m_CPI24_10
	ands	r1, r2
	str	r1, [sp, #172]                  @ 4-byte Spill
	lsls	r2, r1, #2
	eors	r2, r0
	ldrb	r0, [r3, #20]
	ldrb	r1, [r3, #21]
	lsls	r1, r1, #8
	adds	r0, r1, r0
	ldrb	r1, [r3, #22]
	lsls	r1, r1, #16
	adds	r0, r0, r1
	ldrb	r1, [r3, #23]
	lsls	r1, r1, #24
	adds	r4, r0, r1
	ldrb	r0, [r3, #4]
	ldrb	r1, [r3, #5]
	lsls	r1, r1, #8
	adds	r0, r1, r0
	ldrb	r1, [r3, #6]
	lsls	r1, r1, #16
	adds	r0, r0, r1
	ldrb	r1, [r3, #7]
	lsls	r1, r1, #24
	adds	r0, r0, r1
	str	r0, [sp, #152]                  @ 4-byte Spill
	lsrs	r0, r0, #1
	eors	r0, r4
	ands	r0, r7
	str	r0, [sp, #144]                  @ 4-byte Spill
	eors	r4, r0
	mov	r5, r4
	str	r4, [sp, #160]                  @ 4-byte Spill
	ldrb	r0, [r3, #16]
	ldrb	r1, [r3, #17]
	lsls	r1, r1, #8
	adds	r0, r1, r0
	ldrb	r1, [r3, #18]
	lsls	r1, r1, #16
	adds	r0, r0, r1
	ldrb	r1, [r3, #19]
	lsls	r1, r1, #24
	adds	r4, r0, r1
	ldrb	r0, [r3]
	ldrb	r1, [r3, #1]
	lsls	r1, r1, #8
	adds	r0, r1, r0
	ldrb	r1, [r3, #2]
	lsls	r1, r1, #16
	adds	r0, r0, r1
	ldrb	r1, [r3, #3]
	lsls	r1, r1, #24
	adds	r0, r0, r1
	str	r0, [sp, #124]                  @ 4-byte Spill
	lsrs	r6, r0, #1
	eors	r6, r4
	ands	r6, r7
	eors	r4, r6
	lsrs	r0, r4, #2
	eors	r0, r5
	ldr	r3, .Laes_v6m_CPI24_10
	ands	r0, r3
	lsls	r1, r0, #2
	eors	r1, r4
	str	r1, [sp, #128]                  @ 4-byte Spill
	lsrs	r4, r1, #4
	eors	r4, r2
	ldr	r1, .Laes_v6m_CPI24_11
	ands	r4, r1
	ldr	r3, [sp, #116]                  @ 4-byte Reload
	lsls	r1, r3, #5
	str	r1, [sp, #148]                  @ 4-byte Spill
	ldr	r3, [sp, #16]                   @ 4-byte Reload
	adds	r7, r3, r1
	ldr	r5, [r7, #20]
	str	r7, [sp, #140]                  @ 4-byte Spill
	eors	r5, r2
	eors	r5, r4
	str	r5, [sp, #156]                  @ 4-byte Spill
	ldr	r3, [sp, #172]                  @ 4-byte Reload
	ldr	r1, [sp, #176]                  @ 4-byte Reload
	eors	r3, r1
	str	r3, [sp, #172]                  @ 4-byte Spill
	ldr	r1, [sp, #160]                  @ 4-byte Reload
	eors	r0, r1
	lsrs	r2, r0, #4
	eors	r2, r3
	ldr	r1, .Laes_v6m_CPI24_11
	ands	r2, r1
	str	r2, [sp, #160]                  @ 4-byte Spill
	lsls	r2, r2, #4
	ldr	r3, [r7, #12]
	eors	r3, r2
	eors	r3, r0
	str	r3, [sp, #136]                  @ 4-byte Spill
	eors	r5, r3
	str	r5, [sp, #176]                  @ 4-byte Spill
	ldr	r0, [sp, #168]                  @ 4-byte Reload
	lsls	r0, r0, #1
	ldr	r2, [sp, #180]                  @ 4-byte Reload
	eors	r0, r2
	ldr	r1, [sp, #132]                  @ 4-byte Reload
	lsls	r1, r1, #1
	ldr	r2, [sp, #164]                  @ 4-byte Reload
	eors	r1, r2
	str	r1, [sp, #180]                  @ 4-byte Spill
	lsrs	r5, r1, #2
	eors	r5, r0
	ldr	r2, .Laes_v6m_CPI24_10
	ands	r5, r2
	eors	r0, r5
	ldr	r1, [sp, #144]                  @ 4-byte Reload
	lsls	r7, r1, #1
	ldr	r1, [sp, #152]                  @ 4-byte Reload
	eors	r7, r1
	lsls	r3, r6, #1
	ldr	r1, [sp, #124]                  @ 4-byte Reload
	eors	r3, r1
	lsrs	r1, r3, #2
	eors	r1, r7
	ands	r1, r2
	eors	r7, r1
	str	r7, [sp, #132]                  @ 4-byte Spill
	lsrs	r7, r7, #4
	eors	r7, r0
	ldr	r2, .Laes_v6m_CPI24_11
	ands	r7, r2
	ldr	r2, [sp, #140]                  @ 4-byte Reload
	ldr	r6, [r2, #24]
	eors	r6, r0
	eors	r6, r7
	lsls	r0, r4, #4
	ldr	r4, [r2, #4]
	eors	r4, r0
	ldr	r0, [sp, #128]                  @ 4-byte Reload
	eors	r4, r0
	str	r4, [sp, #152]                  @ 4-byte Spill
	mov	r2, r4
	eors	r2, r6
	str	r2, [sp, #144]                  @ 4-byte Spill
	ldr	r0, [sp, #176]                  @ 4-byte Reload
	eors	r0, r2
	str	r0, [sp, #176]                  @ 4-byte Spill
	lsls	r4, r5, #2
	ldr	r0, [sp, #180]                  @ 4-byte Reload
	eors	r4, r0
	lsls	r0, r1, #2
	eors	r0, r3
	lsrs	r1, r0, #4
	eors	r1, r4
	ldr	r2, .Laes_v6m_CPI24_11
	ands	r1, r2
	ldr	r2, [sp, #140]                  @ 4-byte Reload
	ldr	r3, [r2, #16]
	eors	r3, r4
	eors	r3, r1
	str	r3, [sp, #180]                  @ 4-byte Spill
	ldr	r2, [sp, #136]                  @ 4-byte Reload
	eors	r3, r2
	lsls	r1, r1, #4
	ldr	r4, [sp, #16]                   @ 4-byte Reload
	ldr	r2, [sp, #148]                  @ 4-byte Reload
	ldr	r4, [r4, r2]
	eors	r4, r1
	eors	r4, r0
	mov	r0, r4
	mov	r5, r4
	str	r4, [sp, #168]                  @ 4-byte Spill
	ldr	r1, [sp, #152]                  @ 4-byte Reload
	eors	r0, r1
	str	r0, [sp, #120]                  @ 4-byte Spill
	mov	r1, r0
	eors	r1, r3
	str	r1, [sp, #108]                  @ 4-byte Spill
	mov	r0, r1
	ldr	r1, [sp, #176]                  @ 4-byte Reload
	orrs	r0, r1
	ldr	r2, [sp, #180]                  @ 4-byte Reload
	eors	r2, r6
	str	r2, [sp, #128]                  @ 4-byte Spill
	mov	r4, r3
	mov	r1, r3
	eors	r4, r5
	str	r4, [sp, #92]                   @ 4-byte Spill
	ands	r4, r2
	eors	r4, r0
	str	r4, [sp, #164]                  @ 4-byte Spill
	lsls	r0, r7, #4
	ldr	r3, [sp, #140]                  @ 4-byte Reload
	ldr	r2, [r3, #8]
	eors	r2, r0
	ldr	r0, [sp, #132]                  @ 4-byte Reload
	eors	r2, r0
	str	r2, [sp, #148]                  @ 4-byte Spill
	ldr	r0, [sp, #152]                  @ 4-byte Reload
	eors	r0, r2
	str	r0, [sp, #152]                  @ 4-byte Spill
	mov	r5, r1
	str	r1, [sp, #112]                  @ 4-byte Spill
	eors	r1, r0
	mov	r7, r1
	ldr	r4, [r3, #28]
	ldr	r0, [sp, #172]                  @ 4-byte Reload
	eors	r4, r0
	ldr	r0, [sp, #160]                  @ 4-byte Reload
	eors	r4, r0
	mov	r3, r6
	eors	r6, r4
	str	r6, [sp, #160]                  @ 4-byte Spill
	ldr	r2, [sp, #136]                  @ 4-byte Reload
	ldr	r1, [sp, #168]                  @ 4-byte Reload
	eors	r1, r2
	str	r1, [sp, #168]                  @ 4-byte Spill
	eors	r1, r6
	mov	r0, r1
	str	r1, [sp, #172]                  @ 4-byte Spill
	eors	r0, r7
	str	r7, [sp, #88]                   @ 4-byte Spill
	ands	r0, r5
	ldr	r5, [sp, #180]                  @ 4-byte Reload
	eors	r5, r4
	str	r5, [sp, #180]                  @ 4-byte Spill
	eors	r3, r5
	str	r3, [sp, #104]                  @ 4-byte Spill
	eors	r2, r3
	str	r2, [sp, #136]                  @ 4-byte Spill
	mov	r3, r2
	ands	r3, r7
	eors	r3, r0
	str	r3, [sp, #124]                  @ 4-byte Spill
	ldr	r2, [sp, #164]                  @ 4-byte Reload
	eors	r2, r3
	str	r2, [sp, #164]                  @ 4-byte Spill
	mov	r7, r1
	ldr	r3, [sp, #160]                  @ 4-byte Reload
	ands	r7, r3
	eors	r7, r0
	ldr	r0, [sp, #148]                  @ 4-byte Reload
	ldr	r1, [sp, #156]                  @ 4-byte Reload
	eors	r0, r1
	ldr	r6, [sp, #128]                  @ 4-byte Reload
	mov	r1, r6
	eors	r1, r0
	str	r1, [sp, #84]                   @ 4-byte Spill
	ldr	r2, [sp, #120]                  @ 4-byte Reload
	mov	r5, r2
	eors	r5, r3
	str	r5, [sp, #132]                  @ 4-byte Spill
	ands	r5, r1
	str	r5, [sp, #100]                  @ 4-byte Spill
	eors	r2, r6
	eors	r0, r4
	str	r0, [sp, #148]                  @ 4-byte Spill
	mov	r6, r2
	mov	r3, r2
	str	r2, [sp, #120]                  @ 4-byte Spill
	ands	r6, r0
	ldr	r0, [sp, #168]                  @ 4-byte Reload
	eors	r6, r0
	eors	r6, r5
	eors	r6, r7
	mov	r5, r6
	ldr	r1, [sp, #164]                  @ 4-byte Reload
	ands	r5, r1
	ldr	r2, [sp, #108]                  @ 4-byte Reload
	ldr	r1, [sp, #176]                  @ 4-byte Reload
	ands	r2, r1
	ldr	r1, [sp, #144]                  @ 4-byte Reload
	eors	r0, r1
	str	r0, [sp, #168]                  @ 4-byte Spill
	mov	r1, r3
	ldr	r4, [sp, #156]                  @ 4-byte Reload
	eors	r1, r4
	str	r1, [sp, #80]                   @ 4-byte Spill
	ands	r1, r0
	eors	r1, r2
	eors	r1, r4
	ldr	r2, [sp, #112]                  @ 4-byte Reload
	eors	r1, r2
	eors	r1, r7
	mov	r2, r1
	ldr	r3, [sp, #164]                  @ 4-byte Reload
	eors	r2, r3
	mov	r0, r2
	bics	r0, r5
	mov	r5, r0
	ldr	r0, [sp, #104]                  @ 4-byte Reload
	ldr	r4, [sp, #180]                  @ 4-byte Reload
	ands	r0, r4
	ldr	r4, [sp, #152]                  @ 4-byte Reload
	eors	r0, r4
	ldr	r4, [sp, #172]                  @ 4-byte Reload
	eors	r0, r4
	ldr	r4, [sp, #100]                  @ 4-byte Reload
	eors	r0, r4
	ldr	r4, [sp, #124]                  @ 4-byte Reload
	eors	r0, r4
	ands	r3, r0
	str	r3, [sp, #164]                  @ 4-byte Spill
	eors	r5, r3
	mov	r4, r3
	eors	r4, r6
	ands	r4, r2
	eors	r4, r1
	str	r4, [sp, #144]                  @ 4-byte Spill
	eors	r4, r5
	mov	r7, r5
	str	r5, [sp, #124]                  @ 4-byte Spill
	str	r4, [sp, #156]                  @ 4-byte Spill
	ldr	r3, [sp, #132]                  @ 4-byte Reload
	ands	r3, r4
	mov	r2, r0
	eors	r2, r6
	ands	r0, r2
	ands	r0, r1
	ldr	r4, [sp, #164]                  @ 4-byte Reload
	eors	r0, r4
	eors	r0, r2
	mov	r5, r0
	eors	r5, r7
	ldr	r4, [sp, #160]                  @ 4-byte Reload
	ands	r4, r5
	str	r4, [sp, #160]                  @ 4-byte Spill
	eors	r3, r4
	str	r3, [sp, #132]                  @ 4-byte Spill
	mov	r3, r5
	ldr	r4, [sp, #172]                  @ 4-byte Reload
	ands	r3, r4
	str	r3, [sp, #100]                  @ 4-byte Spill
	ldr	r7, [sp, #180]                  @ 4-byte Reload
	ldr	r3, [sp, #124]                  @ 4-byte Reload
	ands	r7, r3
	ldr	r4, [sp, #148]                  @ 4-byte Reload
	ldr	r3, [sp, #144]                  @ 4-byte Reload
	ands	r4, r3
	str	r4, [sp, #148]                  @ 4-byte Spill
	eors	r7, r4
	str	r7, [sp, #180]                  @ 4-byte Spill
	ldr	r3, [sp, #128]                  @ 4-byte Reload
	ands	r3, r0
	str	r3, [sp, #128]                  @ 4-byte Spill
	eors	r7, r3
	ldr	r3, [sp, #100]                  @ 4-byte Reload
	eors	r7, r3
	ldr	r3, [sp, #132]                  @ 4-byte Reload
	eors	r7, r3
	ldr	r3, [sp, #164]                  @ 4-byte Reload
	eors	r3, r1
	ands	r3, r2
	eors	r3, r6
	mov	r1, r0
	eors	r1, r3
	str	r1, [sp, #164]                  @ 4-byte Spill
	ldr	r2, [sp, #176]                  @ 4-byte Reload
	ands	r2, r1
	str	r2, [sp, #176]                  @ 4-byte Spill
	mov	r4, r3
	ldr	r1, [sp, #144]                  @ 4-byte Reload
	eors	r4, r1
	ldr	r6, [sp, #172]                  @ 4-byte Reload
	ldr	r1, [sp, #152]                  @ 4-byte Reload
	eors	r6, r1
	ands	r6, r4
	str	r6, [sp, #172]                  @ 4-byte Spill
	ldr	r1, [sp, #168]                  @ 4-byte Reload
	ands	r1, r3
	eors	r1, r6
	eors	r1, r2
	ldr	r6, [sp, #104]                  @ 4-byte Reload
	ldr	r2, [sp, #124]                  @ 4-byte Reload
	ands	r2, r6
	ldr	r6, [sp, #92]                   @ 4-byte Reload
	ands	r0, r6
	eors	r2, r0
	str	r2, [sp, #124]                  @ 4-byte Spill
	eors	r1, r2
	str	r1, [sp, #168]                  @ 4-byte Spill
	eors	r7, r1
	str	r7, [sp, #152]                  @ 4-byte Spill
	ldr	r6, [sp, #108]                  @ 4-byte Reload
	ldr	r1, [sp, #164]                  @ 4-byte Reload
	ands	r1, r6
	str	r1, [sp, #164]                  @ 4-byte Spill
	ldr	r2, [sp, #172]                  @ 4-byte Reload
	ldr	r6, [sp, #128]                  @ 4-byte Reload
	eors	r2, r6
	eors	r2, r1
	str	r2, [sp, #172]                  @ 4-byte Spill
	eors	r5, r4
	ldr	r7, [sp, #88]                   @ 4-byte Reload
	ands	r7, r5
	eors	r7, r0
	eors	r7, r2
	ldr	r0, [sp, #84]                   @ 4-byte Reload
	ldr	r6, [sp, #156]                  @ 4-byte Reload
	ands	r6, r0
	str	r6, [sp, #156]                  @ 4-byte Spill
	ldr	r0, [sp, #80]                   @ 4-byte Reload
	ands	r3, r0
	eors	r6, r3
	ldr	r1, [sp, #160]                  @ 4-byte Reload
	eors	r1, r6
	ldr	r2, [sp, #144]                  @ 4-byte Reload
	ldr	r0, [sp, #120]                  @ 4-byte Reload
	ands	r2, r0
	str	r2, [sp, #144]                  @ 4-byte Spill
	ldr	r0, [sp, #180]                  @ 4-byte Reload
	eors	r0, r2
	eors	r1, r0
	eors	r1, r7
	str	r1, [sp, #160]                  @ 4-byte Spill
	ldr	r1, [sp, #136]                  @ 4-byte Reload
	ands	r5, r1
	mov	r1, r5
	ldr	r2, [sp, #176]                  @ 4-byte Reload
	eors	r1, r2
	eors	r1, r7
	str	r1, [sp, #136]                  @ 4-byte Spill
	ldr	r1, [sp, #100]                  @ 4-byte Reload
	eors	r5, r1
	ldr	r1, [sp, #164]                  @ 4-byte Reload
	eors	r0, r1
	eors	r0, r5
	ldr	r1, [sp, #168]                  @ 4-byte Reload
	eors	r0, r1
	str	r0, [sp, #180]                  @ 4-byte Spill
	ldr	r0, [sp, #172]                  @ 4-byte Reload
	eors	r5, r0
	eors	r3, r2
	eors	r3, r5
	ldr	r0, [sp, #156]                  @ 4-byte Reload
	ldr	r1, [sp, #148]                  @ 4-byte Reload
	eors	r0, r1
	eors	r0, r5
	str	r0, [sp, #156]                  @ 4-byte Spill
	ldr	r0, [sp, #124]                  @ 4-byte Reload
	eors	r6, r0
	eors	r6, r5
	str	r6, [sp, #168]                  @ 4-byte Spill
	ldr	r0, [sp, #112]                  @ 4-byte Reload
	ands	r4, r0
	ldr	r0, [sp, #144]                  @ 4-byte Reload
	eors	r4, r0
	ldr	r0, [sp, #132]                  @ 4-byte Reload
	eors	r4, r0
	str	r4, [sp, #148]                  @ 4-byte Spill
	movs	r1, #0
	ldr	r6, [sp, #116]                  @ 4-byte Reload
	subs	r4, r6, #2
	ldr	r5, [sp, #96]                   @ 4-byte Reload
	mov	r0, r5
	str	r1, [sp, #4]                    @ 4-byte Spill
	sbcs	r0, r1
	lsls	r1, r0, #30
	lsrs	r2, r4, #2
	adds	r1, r2, r1
	str	r1, [sp, #12]                   @ 4-byte Spill
	lsrs	r1, r0, #2
	str	r1, [sp, #8]                    @ 4-byte Spill
	movs	r1, #3
	str	r4, [sp, #132]                  @ 4-byte Spill
	bics	r4, r1
	str	r4, [sp, #128]                  @ 4-byte Spill
	adds	r1, r4, #2
	ldr	r2, .Laes_v6m_CPI24_12
	ldr	r4, .Laes_v6m_CPI24_13
	subs	r1, r1, r6
	sbcs	r0, r5
	blo	.Laes_v6m_BB24_6
	bl	.Laes_v6m_BB24_15
	.p2align	2
@ %bb.1:
.Laes_v6m_CPI24_9:
	.long	1431655765                      @ 0x55555555
	.p2align	2
@ %bb.2:
.Laes_v6m_CPI24_10:
	.long	858993459                       @ 0x33333333
	.p2align	2
@ %bb.3:
.Laes_v6m_CPI24_11:
	.long	252645135                       @ 0xf0f0f0f
	.p2align	2
@ %bb.4:
.Laes_v6m_CPI24_12:
	.long	50529027                        @ 0x3030303
	.p2align	2
@ %bb.5:
.Laes_v6m_CPI24_13:
	.long	4244438268                      @ 0xfcfcfcfc
	.p2align	1
.Laes_v6m_BB24_6:                               @ %then.3.i
	ldr	r6, [sp, #140]                  @ 4-byte Reload
	subs	r0, r6, #4
	ldr	r1, [r0]
	eors	r1, r3
	str	r1, [sp, #176]                  @ 4-byte Spill
	movs	r7, #6
	mov	r0, r1
	rors	r0, r7
	ands	r0, r4
	movs	r5, #14
	mov	r3, r2
	mov	r2, r1
	rors	r2, r5
	ands	r2, r3
	orrs	r2, r0
	eors	r2, r1
	mov	r3, r2
	str	r2, [sp, #144]                  @ 4-byte Spill
	mov	r0, r6
	subs	r0, #32
	ldr	r1, [r0]
	ldr	r0, [sp, #148]                  @ 4-byte Reload
	eors	r1, r0
	str	r1, [sp, #148]                  @ 4-byte Spill
	mov	r0, r1
	rors	r0, r7
	mov	r4, r7
	ldr	r2, .Laes_v6m_CPI24_14
	ands	r0, r2
	mov	r2, r1
	rors	r2, r5
	ldr	r7, .Laes_v6m_CPI24_15
	ands	r2, r7
	orrs	r2, r0
	eors	r2, r1
	str	r2, [sp, #116]                  @ 4-byte Spill
	mov	r0, r6
	subs	r0, #28
	ldr	r1, [r0]
	ldr	r0, [sp, #136]                  @ 4-byte Reload
	eors	r1, r0
	str	r1, [sp, #100]                  @ 4-byte Spill
	eors	r2, r1
	eors	r2, r3
	str	r2, [sp, #124]                  @ 4-byte Spill
	mov	r0, r6
	subs	r0, #20
	ldr	r2, [r0]
	ldr	r0, [sp, #160]                  @ 4-byte Reload
	eors	r2, r0
	mov	r0, r2
	mov	r7, r4
	str	r4, [sp, #172]                  @ 4-byte Spill
	rors	r0, r4
	ldr	r1, .Laes_v6m_CPI24_14
	ands	r0, r1
	mov	r4, r2
	rors	r4, r5
	str	r5, [sp, #164]                  @ 4-byte Spill
	ldr	r3, .Laes_v6m_CPI24_15
	ands	r4, r3
	orrs	r4, r0
	eors	r4, r2
	str	r4, [sp, #96]                   @ 4-byte Spill
	mov	r0, r6
	subs	r0, #12
	ldr	r3, [r0]
	ldr	r0, [sp, #180]                  @ 4-byte Reload
	eors	r3, r0
	str	r3, [sp, #112]                  @ 4-byte Spill
	mov	r0, r3
	rors	r0, r7
	ands	r0, r1
	mov	r1, r3
	rors	r1, r5
	ldr	r5, .Laes_v6m_CPI24_15
	ands	r1, r5
	orrs	r1, r0
	eors	r1, r3
	str	r1, [sp, #108]                  @ 4-byte Spill
	mov	r0, r6
	subs	r0, #8
	ldr	r3, [r0]
	ldr	r0, [sp, #152]                  @ 4-byte Reload
	eors	r3, r0
	mov	r0, r1
	eors	r0, r3
	str	r0, [sp, #120]                  @ 4-byte Spill
	eors	r0, r4
	ldr	r1, [sp, #124]                  @ 4-byte Reload
	eors	r0, r1
	movs	r4, #12
	str	r4, [sp, #180]                  @ 4-byte Spill
	mov	r1, r0
	rors	r1, r4
	ldr	r4, .Laes_v6m_CPI24_16
	ands	r1, r4
	movs	r4, #20
	str	r4, [sp, #160]                  @ 4-byte Spill
	mov	r5, r0
	rors	r5, r4
	ldr	r4, .Laes_v6m_CPI24_17
	ands	r5, r4
	orrs	r5, r1
	mov	r1, r6
	subs	r1, #24
	ldr	r7, [r1]
	ldr	r1, [sp, #168]                  @ 4-byte Reload
	eors	r7, r1
	mov	r1, r7
	ldr	r4, [sp, #172]                  @ 4-byte Reload
	rors	r1, r4
	ldr	r4, .Laes_v6m_CPI24_14
	ands	r1, r4
	mov	r4, r7
	str	r7, [sp, #136]                  @ 4-byte Spill
	ldr	r6, [sp, #164]                  @ 4-byte Reload
	rors	r4, r6
	ldr	r6, .Laes_v6m_CPI24_15
	ands	r4, r6
	orrs	r4, r1
	eors	r4, r7
	eors	r2, r4
	ldr	r1, [sp, #144]                  @ 4-byte Reload
	eors	r2, r1
	str	r2, [sp, #104]                  @ 4-byte Spill
	eors	r5, r2
	eors	r5, r0
	str	r5, [sp, #152]                  @ 4-byte Spill
	mov	r0, r3
	ldr	r2, [sp, #172]                  @ 4-byte Reload
	rors	r0, r2
	ldr	r7, .Laes_v6m_CPI24_14
	ands	r0, r7
	mov	r1, r3
	ldr	r5, [sp, #164]                  @ 4-byte Reload
	rors	r1, r5
	ands	r1, r6
	orrs	r1, r0
	eors	r1, r3
	str	r1, [sp, #84]                   @ 4-byte Spill
	ldr	r3, [sp, #176]                  @ 4-byte Reload
	eors	r3, r1
	str	r3, [sp, #176]                  @ 4-byte Spill
	ldr	r0, [sp, #120]                  @ 4-byte Reload
	eors	r3, r0
	str	r3, [sp, #168]                  @ 4-byte Spill
	ldr	r0, [sp, #140]                  @ 4-byte Reload
	subs	r0, #16
	ldr	r3, [r0]
	ldr	r0, [sp, #156]                  @ 4-byte Reload
	eors	r3, r0
	mov	r0, r3
	rors	r0, r2
	ands	r0, r7
	mov	r1, r3
	rors	r1, r5
	mov	r7, r5
	ands	r1, r6
	orrs	r1, r0
	eors	r1, r3
	mov	r5, r1
	str	r1, [sp, #140]                  @ 4-byte Spill
	ldr	r6, [sp, #100]                  @ 4-byte Reload
	mov	r1, r6
	rors	r1, r2
	ldr	r0, .Laes_v6m_CPI24_14
	ands	r1, r0
	mov	r0, r6
	rors	r0, r7
	ldr	r2, .Laes_v6m_CPI24_15
	ands	r0, r2
	orrs	r0, r1
	eors	r0, r6
	ldr	r1, [sp, #136]                  @ 4-byte Reload
	eors	r1, r0
	str	r1, [sp, #136]                  @ 4-byte Spill
	mov	r2, r5
	eors	r2, r1
	ldr	r1, [sp, #168]                  @ 4-byte Reload
	eors	r2, r1
	mov	r1, r2
	ldr	r5, [sp, #180]                  @ 4-byte Reload
	rors	r1, r5
	ldr	r6, .Laes_v6m_CPI24_16
	ands	r1, r6
	mov	r6, r2
	ldr	r7, [sp, #160]                  @ 4-byte Reload
	rors	r6, r7
	ldr	r7, .Laes_v6m_CPI24_17
	ands	r6, r7
	orrs	r6, r1
	ldr	r1, [sp, #96]                   @ 4-byte Reload
	eors	r3, r1
	ldr	r1, [sp, #144]                  @ 4-byte Reload
	eors	r3, r1
	eors	r6, r3
	eors	r6, r2
	str	r6, [sp, #172]                  @ 4-byte Spill
	ldr	r2, [sp, #152]                  @ 4-byte Reload
	eors	r6, r2
	str	r6, [sp, #164]                  @ 4-byte Spill
	ldr	r1, [sp, #168]                  @ 4-byte Reload
	eors	r0, r1
	mov	r1, r0
	rors	r1, r5
	mov	r7, r5
	ldr	r2, .Laes_v6m_CPI24_16
	ands	r1, r2
	mov	r2, r0
	ldr	r6, [sp, #160]                  @ 4-byte Reload
	rors	r2, r6
	ldr	r5, .Laes_v6m_CPI24_17
	ands	r2, r5
	orrs	r2, r1
	ldr	r1, [sp, #124]                  @ 4-byte Reload
	eors	r2, r1
	eors	r2, r0
	mov	r1, r2
	str	r2, [sp, #168]                  @ 4-byte Spill
	ldr	r0, [sp, #176]                  @ 4-byte Reload
	eors	r4, r0
	ldr	r0, [sp, #148]                  @ 4-byte Reload
	ldr	r5, [sp, #144]                  @ 4-byte Reload
	eors	r0, r5
	str	r0, [sp, #148]                  @ 4-byte Spill
	eors	r4, r0
	mov	r0, r4
	rors	r0, r7
	ldr	r2, .Laes_v6m_CPI24_16
	ands	r0, r2
	mov	r2, r4
	rors	r2, r6
	ldr	r7, .Laes_v6m_CPI24_17
	ands	r2, r7
	orrs	r2, r0
	ldr	r0, [sp, #136]                  @ 4-byte Reload
	eors	r2, r0
	eors	r2, r4
	str	r2, [sp, #92]                   @ 4-byte Spill
	eors	r2, r1
	str	r2, [sp, #100]                  @ 4-byte Spill
	ldr	r0, [sp, #164]                  @ 4-byte Reload
	eors	r0, r2
	str	r0, [sp, #88]                   @ 4-byte Spill
	ldr	r0, [sp, #140]                  @ 4-byte Reload
	ldr	r2, [sp, #112]                  @ 4-byte Reload
	eors	r0, r2
	str	r0, [sp, #140]                  @ 4-byte Spill
	eors	r5, r0
	mov	r0, r5
	mov	r2, r5
	ldr	r1, [sp, #180]                  @ 4-byte Reload
	rors	r0, r1
	ldr	r7, .Laes_v6m_CPI24_16
	ands	r0, r7
	mov	r4, r5
	mov	r5, r6
	rors	r4, r6
	ldr	r6, .Laes_v6m_CPI24_17
	ands	r4, r6
	orrs	r4, r0
	ldr	r0, [sp, #176]                  @ 4-byte Reload
	eors	r4, r0
	eors	r4, r2
	ldr	r0, [sp, #172]                  @ 4-byte Reload
	eors	r0, r4
	str	r4, [sp, #76]                   @ 4-byte Spill
	mov	r2, r0
	str	r0, [sp, #96]                   @ 4-byte Spill
	ldr	r0, [sp, #84]                   @ 4-byte Reload
	eors	r3, r0
	mov	r0, r3
	rors	r0, r1
	ands	r0, r7
	mov	r1, r3
	rors	r1, r5
	ands	r1, r6
	orrs	r1, r0
	ldr	r5, [sp, #120]                  @ 4-byte Reload
	eors	r1, r5
	eors	r1, r3
	str	r1, [sp, #124]                  @ 4-byte Spill
	mov	r0, r2
	eors	r0, r1
	str	r0, [sp, #156]                  @ 4-byte Spill
	ldr	r7, [sp, #152]                  @ 4-byte Reload
	eors	r0, r7
	str	r0, [sp, #112]                  @ 4-byte Spill
	ldr	r2, [sp, #88]                   @ 4-byte Reload
	ands	r0, r2
	mov	r3, r0
	mov	r6, r1
	eors	r6, r4
	str	r6, [sp, #80]                   @ 4-byte Spill
	ldr	r0, [sp, #116]                  @ 4-byte Reload
	mov	r1, r5
	eors	r1, r0
	mov	r0, r1
	ldr	r4, [sp, #180]                  @ 4-byte Reload
	rors	r0, r4
	ldr	r4, .Laes_v6m_CPI24_16
	ands	r0, r4
	mov	r5, r1
	ldr	r4, [sp, #160]                  @ 4-byte Reload
	rors	r5, r4
	ldr	r4, .Laes_v6m_CPI24_17
	ands	r5, r4
	orrs	r5, r0
	eors	r5, r1
	ldr	r0, [sp, #148]                  @ 4-byte Reload
	eors	r5, r0
	mov	r1, r7
	eors	r1, r5
	str	r1, [sp, #136]                  @ 4-byte Spill
	mov	r0, r5
	eors	r1, r6
	str	r1, [sp, #148]                  @ 4-byte Spill
	eors	r2, r1
	ldr	r5, [sp, #164]                  @ 4-byte Reload
	ands	r2, r5
	str	r2, [sp, #120]                  @ 4-byte Spill
	eors	r3, r2
	str	r3, [sp, #116]                  @ 4-byte Spill
	ldr	r1, [sp, #108]                  @ 4-byte Reload
	ldr	r2, [sp, #176]                  @ 4-byte Reload
	eors	r2, r1
	ldr	r1, [sp, #104]                  @ 4-byte Reload
	eors	r2, r1
	mov	r1, r2
	ldr	r3, [sp, #180]                  @ 4-byte Reload
	rors	r1, r3
	ldr	r3, .Laes_v6m_CPI24_16
	ands	r1, r3
	mov	r6, r2
	ldr	r3, [sp, #160]                  @ 4-byte Reload
	rors	r6, r3
	ands	r6, r4
	orrs	r6, r1
	ldr	r1, [sp, #140]                  @ 4-byte Reload
	eors	r6, r1
	eors	r6, r2
	str	r6, [sp, #176]                  @ 4-byte Spill
	mov	r4, r7
	eors	r4, r6
	ldr	r7, [sp, #124]                  @ 4-byte Reload
	ldr	r3, [sp, #172]                  @ 4-byte Reload
	eors	r3, r7
	ldr	r6, [sp, #168]                  @ 4-byte Reload
	eors	r7, r6
	eors	r4, r7
	eors	r6, r0
	str	r6, [sp, #168]                  @ 4-byte Spill
	mov	r2, r5
	eors	r2, r6
	mov	r1, r2
	str	r2, [sp, #108]                  @ 4-byte Spill
	orrs	r1, r4
	str	r4, [sp, #152]                  @ 4-byte Spill
	eors	r0, r5
	str	r0, [sp, #68]                   @ 4-byte Spill
	mov	r5, r0
	mov	r0, r3
	str	r3, [sp, #172]                  @ 4-byte Spill
	ands	r5, r3
	eors	r5, r1
	ldr	r1, [sp, #116]                  @ 4-byte Reload
	eors	r5, r1
	str	r5, [sp, #160]                  @ 4-byte Spill
	mov	r1, r2
	ands	r1, r4
	ldr	r3, [sp, #136]                  @ 4-byte Reload
	eors	r7, r3
	str	r7, [sp, #124]                  @ 4-byte Spill
	mov	r5, r0
	ldr	r4, [sp, #168]                  @ 4-byte Reload
	eors	r5, r4
	str	r5, [sp, #84]                   @ 4-byte Spill
	ldr	r0, [sp, #176]                  @ 4-byte Reload
	eors	r5, r0
	str	r5, [sp, #144]                  @ 4-byte Spill
	ands	r5, r7
	eors	r5, r1
	eors	r5, r0
	ldr	r1, [sp, #164]                  @ 4-byte Reload
	eors	r5, r1
	ldr	r3, [sp, #148]                  @ 4-byte Reload
	mov	r1, r3
	ldr	r2, [sp, #80]                   @ 4-byte Reload
	ands	r1, r2
	ldr	r0, [sp, #120]                  @ 4-byte Reload
	eors	r1, r0
	eors	r5, r1
	mov	r6, r5
	ldr	r0, [sp, #160]                  @ 4-byte Reload
	eors	r6, r0
	str	r6, [sp, #140]                  @ 4-byte Spill
	eors	r4, r2
	str	r4, [sp, #168]                  @ 4-byte Spill
	ldr	r2, [sp, #176]                  @ 4-byte Reload
	ldr	r0, [sp, #92]                   @ 4-byte Reload
	eors	r2, r0
	str	r2, [sp, #176]                  @ 4-byte Spill
	ldr	r0, [sp, #172]                  @ 4-byte Reload
	eors	r0, r2
	str	r0, [sp, #120]                  @ 4-byte Spill
	mov	r2, r0
	ands	r2, r4
	ldr	r4, [sp, #156]                  @ 4-byte Reload
	ldr	r0, [sp, #96]                   @ 4-byte Reload
	ands	r4, r0
	ldr	r0, [sp, #100]                  @ 4-byte Reload
	eors	r4, r0
	eors	r4, r3
	eors	r4, r2
	ldr	r0, [sp, #116]                  @ 4-byte Reload
	eors	r4, r0
	mov	r6, r4
	ldr	r0, [sp, #160]                  @ 4-byte Reload
	ands	r6, r0
	ldr	r0, [sp, #176]                  @ 4-byte Reload
	ldr	r3, [sp, #76]                   @ 4-byte Reload
	eors	r0, r3
	str	r0, [sp, #176]                  @ 4-byte Spill
	ldr	r7, [sp, #84]                   @ 4-byte Reload
	ands	r7, r0
	ldr	r0, [sp, #136]                  @ 4-byte Reload
	eors	r7, r0
	eors	r7, r2
	eors	r7, r1
	mov	r1, r6
	eors	r1, r7
	ldr	r0, [sp, #140]                  @ 4-byte Reload
	ands	r1, r0
	eors	r1, r5
	str	r1, [sp, #72]                   @ 4-byte Spill
	mov	r3, r4
	eors	r3, r7
	mov	r0, r6
	eors	r0, r5
	ands	r0, r3
	eors	r0, r7
	str	r0, [sp, #76]                   @ 4-byte Spill
	eors	r0, r1
	ldr	r1, [sp, #160]                  @ 4-byte Reload
	ands	r7, r1
	ldr	r1, [sp, #140]                  @ 4-byte Reload
	ands	r7, r1
	eors	r7, r6
	eors	r7, r1
	ands	r4, r5
	ands	r4, r3
	eors	r4, r6
	eors	r4, r3
	mov	r2, r4
	eors	r2, r7
	str	r2, [sp, #104]                  @ 4-byte Spill
	mov	r1, r2
	mov	r3, r0
	str	r0, [sp, #56]                   @ 4-byte Spill
	eors	r1, r0
	ldr	r0, [sp, #112]                  @ 4-byte Reload
	ands	r0, r1
	str	r0, [sp, #112]                  @ 4-byte Spill
	ldr	r6, [sp, #148]                  @ 4-byte Reload
	ands	r2, r6
	str	r2, [sp, #64]                   @ 4-byte Spill
	mov	r5, r0
	eors	r5, r2
	str	r5, [sp, #116]                  @ 4-byte Spill
	mov	r2, r4
	ldr	r5, [sp, #76]                   @ 4-byte Reload
	eors	r2, r5
	str	r2, [sp, #136]                  @ 4-byte Spill
	ldr	r0, [sp, #108]                  @ 4-byte Reload
	ands	r0, r2
	str	r0, [sp, #108]                  @ 4-byte Spill
	ldr	r2, [sp, #100]                  @ 4-byte Reload
	eors	r6, r2
	ands	r6, r3
	str	r6, [sp, #148]                  @ 4-byte Spill
	ldr	r2, [sp, #172]                  @ 4-byte Reload
	ands	r2, r4
	str	r2, [sp, #172]                  @ 4-byte Spill
	eors	r6, r2
	eors	r6, r0
	ldr	r2, [sp, #132]                  @ 4-byte Reload
	lsls	r0, r2, #5
	str	r0, [sp, #52]                   @ 4-byte Spill
	ldr	r2, [sp, #16]                   @ 4-byte Reload
	adds	r0, r2, r0
	str	r0, [sp, #160]                  @ 4-byte Spill
	ldr	r0, [r0, #8]
	eors	r0, r6
	ldr	r2, [sp, #116]                  @ 4-byte Reload
	eors	r0, r2
	ldr	r2, [sp, #68]                   @ 4-byte Reload
	ands	r4, r2
	ldr	r2, [sp, #156]                  @ 4-byte Reload
	ands	r2, r7
	eors	r2, r4
	str	r2, [sp, #156]                  @ 4-byte Spill
	eors	r0, r2
	mov	r3, r7
	ldr	r2, [sp, #72]                   @ 4-byte Reload
	eors	r3, r2
	str	r3, [sp, #100]                  @ 4-byte Spill
	ldr	r2, [sp, #120]                  @ 4-byte Reload
	ands	r2, r3
	str	r2, [sp, #120]                  @ 4-byte Spill
	ldr	r3, [sp, #144]                  @ 4-byte Reload
	ands	r3, r5
	str	r3, [sp, #144]                  @ 4-byte Spill
	eors	r2, r3
	str	r2, [sp, #48]                   @ 4-byte Spill
	eors	r0, r2
	str	r0, [sp, #68]                   @ 4-byte Spill
	movs	r2, #4
	str	r2, [sp, #132]                  @ 4-byte Spill
	mov	r3, r0
	rors	r3, r2
	ldr	r2, .Laes_v6m_CPI24_16
	ands	r3, r2
	mov	r5, r0
	ldr	r2, [sp, #180]                  @ 4-byte Reload
	rors	r5, r2
	ldr	r2, .Laes_v6m_CPI24_17
	ands	r5, r2
	orrs	r5, r3
	eors	r5, r0
	str	r5, [sp, #92]                   @ 4-byte Spill
	b	.Laes_v6m_BB24_11
	.p2align	2
@ %bb.7:
.Laes_v6m_CPI24_14:
	.long	4244438268                      @ 0xfcfcfcfc
	.p2align	2
@ %bb.8:
.Laes_v6m_CPI24_15:
	.long	50529027                        @ 0x3030303
	.p2align	2
@ %bb.9:
.Laes_v6m_CPI24_16:
	.long	4042322160                      @ 0xf0f0f0f0
	.p2align	2
@ %bb.10:
.Laes_v6m_CPI24_17:
	.long	252645135                       @ 0xf0f0f0f
	.p2align	1
.Laes_v6m_BB24_11:                              @ %then.3.i
	ldr	r0, [sp, #116]                  @ 4-byte Reload
	eors	r0, r6
	str	r0, [sp, #60]                   @ 4-byte Spill
	ldr	r2, [sp, #136]                  @ 4-byte Reload
	ldr	r3, [sp, #152]                  @ 4-byte Reload
	ands	r2, r3
	str	r2, [sp, #136]                  @ 4-byte Spill
	ldr	r3, [sp, #160]                  @ 4-byte Reload
	ldr	r3, [r3, #28]
	ldr	r5, [sp, #144]                  @ 4-byte Reload
	eors	r3, r5
	eors	r3, r2
	eors	r3, r0
	mov	r2, r3
	ldr	r0, [sp, #132]                  @ 4-byte Reload
	rors	r3, r0
	ldr	r0, .Laes_v6m_CPI24_18
	ands	r3, r0
	mov	r0, r2
	str	r2, [sp, #140]                  @ 4-byte Spill
	ldr	r5, [sp, #180]                  @ 4-byte Reload
	rors	r0, r5
	ldr	r5, .Laes_v6m_CPI24_19
	ands	r0, r5
	orrs	r0, r3
	eors	r0, r2
	mov	r3, r0
	str	r0, [sp, #144]                  @ 4-byte Spill
	ldr	r0, [sp, #88]                   @ 4-byte Reload
	ands	r1, r0
	eors	r1, r4
	eors	r1, r6
	ldr	r0, [sp, #80]                   @ 4-byte Reload
	ldr	r2, [sp, #104]                  @ 4-byte Reload
	ands	r2, r0
	str	r2, [sp, #104]                  @ 4-byte Spill
	ldr	r6, [sp, #160]                  @ 4-byte Reload
	ldr	r0, [r6, #12]
	eors	r0, r2
	ldr	r2, [sp, #48]                   @ 4-byte Reload
	eors	r0, r2
	ldr	r2, [sp, #176]                  @ 4-byte Reload
	ldr	r5, [sp, #72]                   @ 4-byte Reload
	ands	r2, r5
	str	r2, [sp, #176]                  @ 4-byte Spill
	ldr	r4, [sp, #96]                   @ 4-byte Reload
	ands	r7, r4
	eors	r7, r2
	ldr	r2, [sp, #84]                   @ 4-byte Reload
	mov	r4, r5
	ands	r4, r2
	mov	r2, r7
	eors	r2, r4
	str	r2, [sp, #80]                   @ 4-byte Spill
	eors	r0, r2
	eors	r0, r1
	mov	r2, r3
	eors	r2, r0
	ldr	r3, [sp, #92]                   @ 4-byte Reload
	eors	r2, r3
	str	r2, [sp, #84]                   @ 4-byte Spill
	ldr	r2, [r6, #4]
	ldr	r3, [sp, #136]                  @ 4-byte Reload
	eors	r2, r3
	ldr	r3, [sp, #112]                  @ 4-byte Reload
	eors	r2, r3
	eors	r2, r1
	str	r2, [sp, #152]                  @ 4-byte Spill
	ldr	r1, [sp, #168]                  @ 4-byte Reload
	ldr	r2, [sp, #100]                  @ 4-byte Reload
	ands	r2, r1
	ldr	r1, [sp, #104]                  @ 4-byte Reload
	eors	r2, r1
	mov	r6, r2
	str	r2, [sp, #100]                  @ 4-byte Spill
	ldr	r1, [sp, #164]                  @ 4-byte Reload
	ldr	r2, [sp, #56]                   @ 4-byte Reload
	ands	r2, r1
	ldr	r1, [sp, #16]                   @ 4-byte Reload
	ldr	r3, [sp, #52]                   @ 4-byte Reload
	ldr	r3, [r1, r3]
	eors	r3, r2
	eors	r3, r4
	eors	r3, r6
	mov	r1, r3
	ldr	r2, [sp, #132]                  @ 4-byte Reload
	rors	r1, r2
	ldr	r4, .Laes_v6m_CPI24_18
	ands	r1, r4
	mov	r6, r3
	mov	r4, r3
	str	r3, [sp, #104]                  @ 4-byte Spill
	ldr	r3, [sp, #180]                  @ 4-byte Reload
	rors	r6, r3
	ldr	r5, .Laes_v6m_CPI24_19
	ands	r6, r5
	orrs	r6, r1
	eors	r6, r4
	str	r6, [sp, #112]                  @ 4-byte Spill
	ldr	r1, [sp, #152]                  @ 4-byte Reload
	eors	r6, r1
	ldr	r1, [sp, #144]                  @ 4-byte Reload
	eors	r6, r1
	mov	r4, r6
	str	r6, [sp, #96]                   @ 4-byte Spill
	mov	r1, r0
	rors	r1, r2
	mov	r6, r2
	ldr	r5, .Laes_v6m_CPI24_18
	ands	r1, r5
	mov	r2, r0
	rors	r2, r3
	ldr	r3, .Laes_v6m_CPI24_19
	ands	r2, r3
	orrs	r2, r1
	eors	r2, r0
	str	r2, [sp, #88]                   @ 4-byte Spill
	mov	r0, r4
	eors	r0, r2
	ldr	r4, [sp, #156]                  @ 4-byte Reload
	ldr	r1, [sp, #148]                  @ 4-byte Reload
	eors	r4, r1
	ldr	r1, [sp, #124]                  @ 4-byte Reload
	ldr	r2, [sp, #76]                   @ 4-byte Reload
	ands	r2, r1
	ldr	r1, [sp, #136]                  @ 4-byte Reload
	eors	r2, r1
	ldr	r1, [sp, #160]                  @ 4-byte Reload
	ldr	r3, [r1, #20]
	eors	r3, r2
	eors	r3, r4
	ldr	r1, [sp, #108]                  @ 4-byte Reload
	eors	r3, r1
	ldr	r1, [sp, #80]                   @ 4-byte Reload
	eors	r3, r1
	ldr	r1, [sp, #116]                  @ 4-byte Reload
	eors	r3, r1
	mov	r1, r3
	rors	r1, r6
	ands	r1, r5
	mov	r5, r3
	ldr	r6, [sp, #180]                  @ 4-byte Reload
	rors	r5, r6
	ldr	r6, .Laes_v6m_CPI24_19
	ands	r5, r6
	orrs	r5, r1
	eors	r5, r3
	ldr	r1, [sp, #160]                  @ 4-byte Reload
	ldr	r1, [r1, #24]
	eors	r1, r2
	eors	r1, r4
	ldr	r2, [sp, #172]                  @ 4-byte Reload
	eors	r1, r2
	eors	r1, r7
	ldr	r2, [sp, #64]                   @ 4-byte Reload
	eors	r1, r2
	ldr	r2, [sp, #100]                  @ 4-byte Reload
	eors	r1, r2
	mov	r2, r5
	eors	r2, r1
	str	r2, [sp, #168]                  @ 4-byte Spill
	eors	r0, r2
	movs	r4, #16
	str	r4, [sp, #164]                  @ 4-byte Spill
	mov	r2, r0
	rors	r2, r4
	ldr	r4, [sp, #84]                   @ 4-byte Reload
	eors	r2, r4
	eors	r2, r0
	str	r2, [sp, #116]                  @ 4-byte Spill
	eors	r5, r4
	mov	r7, r1
	ldr	r6, [sp, #132]                  @ 4-byte Reload
	rors	r7, r6
	ldr	r0, .Laes_v6m_CPI24_18
	ands	r7, r0
	mov	r0, r1
	ldr	r2, [sp, #180]                  @ 4-byte Reload
	rors	r0, r2
	ldr	r2, .Laes_v6m_CPI24_19
	ands	r0, r2
	orrs	r0, r7
	eors	r0, r1
	ldr	r1, [sp, #140]                  @ 4-byte Reload
	eors	r1, r0
	str	r1, [sp, #140]                  @ 4-byte Spill
	eors	r5, r1
	mov	r4, r5
	ldr	r1, [sp, #164]                  @ 4-byte Reload
	rors	r4, r1
	ldr	r1, [sp, #160]                  @ 4-byte Reload
	ldr	r2, [r1, #16]
	ldr	r1, [sp, #176]                  @ 4-byte Reload
	eors	r2, r1
	ldr	r1, [sp, #120]                  @ 4-byte Reload
	eors	r2, r1
	ldr	r1, [sp, #60]                   @ 4-byte Reload
	eors	r2, r1
	mov	r1, r2
	rors	r1, r6
	ldr	r6, .Laes_v6m_CPI24_18
	ands	r1, r6
	mov	r7, r2
	ldr	r6, [sp, #180]                  @ 4-byte Reload
	rors	r7, r6
	ldr	r6, .Laes_v6m_CPI24_19
	ands	r7, r6
	orrs	r7, r1
	eors	r7, r2
	eors	r3, r7
	eors	r4, r3
	eors	r4, r5
	str	r4, [sp, #120]                  @ 4-byte Spill
	mov	r1, r4
	ldr	r4, [sp, #116]                  @ 4-byte Reload
	eors	r1, r4
	str	r1, [sp, #160]                  @ 4-byte Spill
	ldr	r1, [sp, #144]                  @ 4-byte Reload
	eors	r2, r1
	ldr	r1, [sp, #88]                   @ 4-byte Reload
	eors	r2, r1
	eors	r0, r2
	mov	r1, r0
	ldr	r4, [sp, #164]                  @ 4-byte Reload
	rors	r1, r4
	ldr	r4, [sp, #168]                  @ 4-byte Reload
	eors	r1, r4
	eors	r1, r0
	str	r1, [sp, #172]                  @ 4-byte Spill
	ldr	r1, [sp, #140]                  @ 4-byte Reload
	eors	r1, r4
	ldr	r5, [sp, #152]                  @ 4-byte Reload
	mov	r4, r5
	ldr	r0, [sp, #132]                  @ 4-byte Reload
	rors	r4, r0
	ldr	r0, .Laes_v6m_CPI24_18
	ands	r4, r0
	mov	r0, r5
	ldr	r6, [sp, #180]                  @ 4-byte Reload
	rors	r0, r6
	ldr	r6, .Laes_v6m_CPI24_19
	ands	r0, r6
	orrs	r0, r4
	eors	r0, r5
	mov	r4, r1
	eors	r4, r0
	mov	r5, r4
	ldr	r6, [sp, #164]                  @ 4-byte Reload
	rors	r5, r6
	ldr	r6, [sp, #96]                   @ 4-byte Reload
	eors	r5, r6
	eors	r5, r4
	str	r5, [sp, #152]                  @ 4-byte Spill
	mov	r4, r5
	ldr	r5, [sp, #172]                  @ 4-byte Reload
	eors	r4, r5
	str	r4, [sp, #84]                   @ 4-byte Spill
	ldr	r5, [sp, #160]                  @ 4-byte Reload
	eors	r5, r4
	str	r5, [sp, #160]                  @ 4-byte Spill
	ldr	r4, [sp, #68]                   @ 4-byte Reload
	eors	r0, r4
	eors	r7, r0
	eors	r7, r1
	mov	r1, r7
	ldr	r4, [sp, #164]                  @ 4-byte Reload
	rors	r1, r4
	eors	r1, r2
	eors	r1, r7
	str	r1, [sp, #180]                  @ 4-byte Spill
	mov	r7, r1
	ldr	r2, [sp, #116]                  @ 4-byte Reload
	eors	r7, r2
	str	r7, [sp, #124]                  @ 4-byte Spill
	ldr	r6, [sp, #104]                  @ 4-byte Reload
	ldr	r1, [sp, #144]                  @ 4-byte Reload
	eors	r6, r1
	ldr	r1, [sp, #112]                  @ 4-byte Reload
	ldr	r4, [sp, #168]                  @ 4-byte Reload
	eors	r4, r1
	mov	r1, r4
	ldr	r2, [sp, #164]                  @ 4-byte Reload
	rors	r1, r2
	eors	r1, r6
	eors	r1, r4
	ldr	r4, [sp, #152]                  @ 4-byte Reload
	eors	r4, r1
	str	r4, [sp, #156]                  @ 4-byte Spill
	mov	r2, r1
	str	r1, [sp, #168]                  @ 4-byte Spill
	mov	r1, r7
	eors	r1, r4
	str	r1, [sp, #112]                  @ 4-byte Spill
	orrs	r1, r5
	ldr	r5, [sp, #180]                  @ 4-byte Reload
	ldr	r4, [sp, #172]                  @ 4-byte Reload
	eors	r5, r4
	str	r5, [sp, #136]                  @ 4-byte Spill
	eors	r7, r2
	str	r7, [sp, #100]                  @ 4-byte Spill
	ands	r7, r5
	eors	r7, r1
	str	r7, [sp, #176]                  @ 4-byte Spill
	ldr	r1, [sp, #92]                   @ 4-byte Reload
	eors	r6, r1
	ldr	r5, [sp, #140]                  @ 4-byte Reload
	eors	r6, r5
	mov	r1, r6
	ldr	r7, [sp, #164]                  @ 4-byte Reload
	rors	r1, r7
	eors	r1, r0
	eors	r1, r6
	str	r1, [sp, #148]                  @ 4-byte Spill
	ldr	r0, [sp, #152]                  @ 4-byte Reload
	eors	r0, r1
	str	r0, [sp, #152]                  @ 4-byte Spill
	ldr	r4, [sp, #124]                  @ 4-byte Reload
	mov	r2, r4
	eors	r2, r0
	str	r2, [sp, #96]                   @ 4-byte Spill
	ldr	r0, [sp, #144]                  @ 4-byte Reload
	eors	r3, r0
	mov	r0, r3
	rors	r0, r7
	eors	r0, r3
	eors	r0, r5
	ldr	r6, [sp, #180]                  @ 4-byte Reload
	eors	r6, r0
	str	r6, [sp, #180]                  @ 4-byte Spill
	ldr	r5, [sp, #172]                  @ 4-byte Reload
	eors	r6, r5
	str	r6, [sp, #108]                  @ 4-byte Spill
	ldr	r3, [sp, #116]                  @ 4-byte Reload
	eors	r6, r3
	str	r6, [sp, #104]                  @ 4-byte Spill
	ands	r6, r2
	eors	r5, r0
	ldr	r1, [sp, #168]                  @ 4-byte Reload
	eors	r1, r3
	str	r1, [sp, #168]                  @ 4-byte Spill
	eors	r1, r5
	str	r1, [sp, #132]                  @ 4-byte Spill
	mov	r7, r5
	str	r5, [sp, #172]                  @ 4-byte Spill
	mov	r3, r2
	eors	r3, r1
	ands	r3, r4
	eors	r6, r3
	str	r6, [sp, #164]                  @ 4-byte Spill
	ldr	r5, [sp, #176]                  @ 4-byte Reload
	eors	r5, r6
	str	r5, [sp, #176]                  @ 4-byte Spill
	mov	r2, r1
	ands	r2, r7
	eors	r2, r3
	ldr	r6, [sp, #148]                  @ 4-byte Reload
	ldr	r1, [sp, #120]                  @ 4-byte Reload
	eors	r6, r1
	ldr	r4, [sp, #136]                  @ 4-byte Reload
	mov	r1, r4
	eors	r1, r6
	str	r1, [sp, #92]                   @ 4-byte Spill
	mov	r3, r4
	ldr	r4, [sp, #156]                  @ 4-byte Reload
	eors	r3, r4
	eors	r4, r7
	str	r4, [sp, #156]                  @ 4-byte Spill
	ands	r1, r4
	str	r1, [sp, #144]                  @ 4-byte Spill
	eors	r6, r0
	str	r6, [sp, #148]                  @ 4-byte Spill
	mov	r4, r3
	mov	r7, r3
	str	r3, [sp, #88]                   @ 4-byte Spill
	ands	r4, r6
	ldr	r6, [sp, #168]                  @ 4-byte Reload
	eors	r4, r6
	eors	r4, r1
	eors	r4, r2
	mov	r1, r4
	ands	r1, r5
	ldr	r3, [sp, #112]                  @ 4-byte Reload
	ldr	r0, [sp, #160]                  @ 4-byte Reload
	ands	r3, r0
	ldr	r0, [sp, #84]                   @ 4-byte Reload
	eors	r6, r0
	mov	r0, r6
	str	r6, [sp, #168]                  @ 4-byte Spill
	ldr	r5, [sp, #120]                  @ 4-byte Reload
	eors	r7, r5
	str	r7, [sp, #84]                   @ 4-byte Spill
	mov	r6, r7
	ands	r6, r0
	eors	r6, r3
	eors	r6, r5
	ldr	r0, [sp, #124]                  @ 4-byte Reload
	eors	r6, r0
	eors	r6, r2
	mov	r3, r6
	ldr	r0, [sp, #176]                  @ 4-byte Reload
	eors	r3, r0
	ands	r1, r3
	ldr	r2, [sp, #108]                  @ 4-byte Reload
	ldr	r5, [sp, #180]                  @ 4-byte Reload
	ands	r2, r5
	ldr	r5, [sp, #132]                  @ 4-byte Reload
	eors	r2, r5
	ldr	r7, [sp, #152]                  @ 4-byte Reload
	eors	r2, r7
	ldr	r5, [sp, #144]                  @ 4-byte Reload
	eors	r2, r5
	ldr	r5, [sp, #164]                  @ 4-byte Reload
	eors	r2, r5
	ands	r0, r2
	str	r0, [sp, #176]                  @ 4-byte Spill
	eors	r1, r0
	eors	r1, r3
	mov	r5, r1
	str	r1, [sp, #140]                  @ 4-byte Spill
	mov	r1, r6
	ands	r1, r2
	eors	r2, r4
	ands	r1, r2
	eors	r1, r0
	eors	r1, r2
	mov	r7, r1
	eors	r7, r5
	ldr	r5, [sp, #172]                  @ 4-byte Reload
	ands	r5, r7
	str	r5, [sp, #172]                  @ 4-byte Spill
	eors	r0, r4
	ands	r0, r3
	eors	r0, r6
	str	r0, [sp, #144]                  @ 4-byte Spill
	ldr	r3, [sp, #140]                  @ 4-byte Reload
	eors	r3, r0
	str	r3, [sp, #164]                  @ 4-byte Spill
	ldr	r0, [sp, #156]                  @ 4-byte Reload
	ands	r0, r3
	eors	r0, r5
	str	r0, [sp, #156]                  @ 4-byte Spill
	mov	r3, r7
	ldr	r0, [sp, #132]                  @ 4-byte Reload
	ands	r3, r0
	str	r3, [sp, #116]                  @ 4-byte Spill
	ldr	r0, [sp, #148]                  @ 4-byte Reload
	ldr	r3, [sp, #144]                  @ 4-byte Reload
	ands	r0, r3
	str	r0, [sp, #148]                  @ 4-byte Spill
	ldr	r3, [sp, #180]                  @ 4-byte Reload
	ldr	r5, [sp, #140]                  @ 4-byte Reload
	ands	r3, r5
	eors	r3, r0
	str	r3, [sp, #180]                  @ 4-byte Spill
	ldr	r5, [sp, #136]                  @ 4-byte Reload
	ands	r5, r1
	str	r5, [sp, #136]                  @ 4-byte Spill
	mov	r0, r3
	eors	r0, r5
	ldr	r3, [sp, #116]                  @ 4-byte Reload
	eors	r0, r3
	ldr	r3, [sp, #156]                  @ 4-byte Reload
	eors	r0, r3
	ldr	r3, [sp, #176]                  @ 4-byte Reload
	eors	r3, r6
	ands	r3, r2
	eors	r3, r4
	mov	r4, r1
	eors	r4, r3
	str	r4, [sp, #120]                  @ 4-byte Spill
	ldr	r2, [sp, #160]                  @ 4-byte Reload
	ands	r2, r4
	str	r2, [sp, #160]                  @ 4-byte Spill
	mov	r5, r3
	mov	r6, r3
	str	r3, [sp, #176]                  @ 4-byte Spill
	ldr	r3, [sp, #144]                  @ 4-byte Reload
	eors	r5, r3
	ldr	r3, [sp, #132]                  @ 4-byte Reload
	ldr	r4, [sp, #152]                  @ 4-byte Reload
	eors	r3, r4
	ands	r3, r5
	ldr	r4, [sp, #168]                  @ 4-byte Reload
	ands	r4, r6
	eors	r4, r3
	eors	r4, r2
	ldr	r2, [sp, #100]                  @ 4-byte Reload
	ands	r1, r2
	ldr	r2, [sp, #140]                  @ 4-byte Reload
	ldr	r6, [sp, #108]                  @ 4-byte Reload
	ands	r2, r6
	eors	r2, r1
	str	r2, [sp, #140]                  @ 4-byte Spill
	eors	r4, r2
	str	r4, [sp, #168]                  @ 4-byte Spill
	eors	r0, r4
	str	r0, [sp, #132]                  @ 4-byte Spill
	ldr	r0, [sp, #112]                  @ 4-byte Reload
	ldr	r2, [sp, #120]                  @ 4-byte Reload
	ands	r2, r0
	str	r2, [sp, #120]                  @ 4-byte Spill
	ldr	r0, [sp, #136]                  @ 4-byte Reload
	eors	r3, r0
	eors	r3, r2
	eors	r7, r5
	ldr	r2, [sp, #96]                   @ 4-byte Reload
	ands	r2, r7
	eors	r2, r1
	eors	r2, r3
	ldr	r0, [sp, #92]                   @ 4-byte Reload
	ldr	r6, [sp, #164]                  @ 4-byte Reload
	ands	r6, r0
	str	r6, [sp, #164]                  @ 4-byte Spill
	ldr	r0, [sp, #84]                   @ 4-byte Reload
	ldr	r1, [sp, #176]                  @ 4-byte Reload
	ands	r1, r0
	str	r1, [sp, #176]                  @ 4-byte Spill
	eors	r6, r1
	ldr	r1, [sp, #172]                  @ 4-byte Reload
	eors	r1, r6
	ldr	r0, [sp, #88]                   @ 4-byte Reload
	ldr	r4, [sp, #144]                  @ 4-byte Reload
	b	.Laes_v6m_BB24_14
	.p2align	2
@ %bb.12:
.Laes_v6m_CPI24_18:
	.long	4042322160                      @ 0xf0f0f0f0
	.p2align	2
@ %bb.13:
.Laes_v6m_CPI24_19:
	.long	252645135                       @ 0xf0f0f0f
	.p2align	1
.Laes_v6m_BB24_14:                              @ %then.3.i
	ands	r4, r0
	str	r4, [sp, #144]                  @ 4-byte Spill
	ldr	r0, [sp, #180]                  @ 4-byte Reload
	eors	r0, r4
	eors	r1, r0
	eors	r1, r2
	mov	r4, r2
	str	r1, [sp, #172]                  @ 4-byte Spill
	ldr	r1, [sp, #104]                  @ 4-byte Reload
	ands	r7, r1
	mov	r1, r7
	ldr	r2, [sp, #160]                  @ 4-byte Reload
	eors	r1, r2
	eors	r1, r4
	str	r1, [sp, #152]                  @ 4-byte Spill
	ldr	r1, [sp, #116]                  @ 4-byte Reload
	eors	r7, r1
	ldr	r1, [sp, #120]                  @ 4-byte Reload
	eors	r0, r1
	eors	r0, r7
	ldr	r1, [sp, #168]                  @ 4-byte Reload
	eors	r0, r1
	ldr	r1, [sp, #176]                  @ 4-byte Reload
	str	r0, [sp, #180]                  @ 4-byte Spill
	eors	r7, r3
	eors	r1, r2
	eors	r1, r7
	str	r1, [sp, #176]                  @ 4-byte Spill
	ldr	r0, [sp, #164]                  @ 4-byte Reload
	ldr	r1, [sp, #148]                  @ 4-byte Reload
	eors	r0, r1
	eors	r0, r7
	str	r0, [sp, #164]                  @ 4-byte Spill
	ldr	r0, [sp, #140]                  @ 4-byte Reload
	eors	r6, r0
	eors	r6, r7
	str	r6, [sp, #160]                  @ 4-byte Spill
	ldr	r0, [sp, #124]                  @ 4-byte Reload
	ands	r5, r0
	ldr	r0, [sp, #144]                  @ 4-byte Reload
	eors	r5, r0
	ldr	r0, [sp, #156]                  @ 4-byte Reload
	eors	r5, r0
	b	.Laes_v6m_BB24_17
.Laes_v6m_BB24_15:                              @ %else.4.i
	lsrs	r0, r3, #4
	eors	r0, r3
	ldr	r4, .Laes_v6m_CPI24_20
	ands	r0, r4
	movs	r1, #17
	muls	r0, r1, r0
	eors	r0, r3
	str	r0, [sp, #176]                  @ 4-byte Spill
	ldr	r2, [sp, #152]                  @ 4-byte Reload
	lsrs	r0, r2, #4
	eors	r0, r2
	ands	r0, r4
	muls	r0, r1, r0
	eors	r0, r2
	str	r0, [sp, #132]                  @ 4-byte Spill
	ldr	r2, [sp, #180]                  @ 4-byte Reload
	lsrs	r0, r2, #4
	eors	r0, r2
	ands	r0, r4
	muls	r0, r1, r0
	eors	r0, r2
	str	r0, [sp, #180]                  @ 4-byte Spill
	ldr	r0, [sp, #156]                  @ 4-byte Reload
	lsrs	r2, r0, #4
	eors	r2, r0
	ands	r2, r4
	muls	r2, r1, r2
	eors	r2, r0
	str	r2, [sp, #164]                  @ 4-byte Spill
	ldr	r0, [sp, #160]                  @ 4-byte Reload
	lsrs	r2, r0, #4
	eors	r2, r0
	ands	r2, r4
	muls	r2, r1, r2
	eors	r2, r0
	str	r2, [sp, #172]                  @ 4-byte Spill
	ldr	r0, [sp, #168]                  @ 4-byte Reload
	lsrs	r2, r0, #4
	eors	r2, r0
	ands	r2, r4
	muls	r2, r1, r2
	eors	r2, r0
	str	r2, [sp, #160]                  @ 4-byte Spill
	ldr	r0, [sp, #136]                  @ 4-byte Reload
	lsrs	r2, r0, #4
	eors	r2, r0
	ands	r2, r4
	muls	r2, r1, r2
	eors	r2, r0
	str	r2, [sp, #152]                  @ 4-byte Spill
	ldr	r3, [sp, #148]                  @ 4-byte Reload
	lsrs	r5, r3, #4
	eors	r5, r3
	ands	r5, r4
	muls	r5, r1, r5
	eors	r5, r3
	b	.Laes_v6m_BB24_17
	.p2align	2
@ %bb.16:
.Laes_v6m_CPI24_20:
	.long	251662080                       @ 0xf000f00
	.p2align	1
.Laes_v6m_BB24_17:                              @ %join.5.i
	ldr	r0, [sp, #128]                  @ 4-byte Reload
	lsls	r1, r0, #5
	ldr	r2, [sp, #16]                   @ 4-byte Reload
	adds	r4, r2, r1
	ldr	r6, [r4, #60]
	ldr	r0, [sp, #176]                  @ 4-byte Reload
	eors	r6, r0
	str	r6, [sp, #140]                  @ 4-byte Spill
	movs	r3, #2
	mov	r1, r6
	rors	r1, r3
	ldr	r0, .Laes_v6m_CPI24_21
	ands	r1, r0
	movs	r7, #10
	mov	r2, r6
	rors	r2, r7
	ldr	r0, .Laes_v6m_CPI24_22
	ands	r2, r0
	adds	r0, r2, r1
	eors	r0, r6
	mov	r6, r0
	str	r0, [sp, #168]                  @ 4-byte Spill
	ldr	r2, [r4, #32]
	eors	r2, r5
	str	r2, [sp, #124]                  @ 4-byte Spill
	mov	r0, r2
	rors	r0, r3
	ldr	r1, .Laes_v6m_CPI24_21
	ands	r0, r1
	mov	r1, r2
	rors	r1, r7
	ldr	r5, .Laes_v6m_CPI24_22
	ands	r1, r5
	adds	r0, r1, r0
	eors	r0, r2
	str	r0, [sp, #108]                  @ 4-byte Spill
	ldr	r1, [r4, #36]
	ldr	r2, [sp, #152]                  @ 4-byte Reload
	eors	r1, r2
	str	r1, [sp, #148]                  @ 4-byte Spill
	eors	r0, r1
	eors	r0, r6
	str	r0, [sp, #152]                  @ 4-byte Spill
	ldr	r2, [r4, #44]
	ldr	r0, [sp, #172]                  @ 4-byte Reload
	eors	r2, r0
	str	r2, [sp, #128]                  @ 4-byte Spill
	mov	r0, r2
	rors	r0, r3
	ldr	r1, .Laes_v6m_CPI24_21
	ands	r0, r1
	mov	r1, r2
	rors	r1, r7
	ands	r1, r5
	adds	r0, r1, r0
	eors	r0, r2
	mov	r6, r0
	str	r0, [sp, #136]                  @ 4-byte Spill
	ldr	r2, [r4, #52]
	ldr	r0, [sp, #180]                  @ 4-byte Reload
	eors	r2, r0
	str	r2, [sp, #144]                  @ 4-byte Spill
	mov	r0, r2
	rors	r0, r3
	str	r3, [sp, #120]                  @ 4-byte Spill
	ldr	r1, .Laes_v6m_CPI24_21
	ands	r0, r1
	mov	r1, r2
	rors	r1, r7
	ands	r1, r5
	adds	r1, r1, r0
	eors	r1, r2
	str	r1, [sp, #100]                  @ 4-byte Spill
	ldr	r5, [r4, #56]
	ldr	r0, [sp, #132]                  @ 4-byte Reload
	eors	r5, r0
	mov	r0, r1
	eors	r0, r5
	str	r0, [sp, #112]                  @ 4-byte Spill
	eors	r0, r6
	ldr	r1, [sp, #152]                  @ 4-byte Reload
	eors	r0, r1
	movs	r2, #12
	str	r2, [sp, #180]                  @ 4-byte Spill
	mov	r1, r0
	rors	r1, r2
	ldr	r2, .Laes_v6m_CPI24_23
	ands	r1, r2
	movs	r2, #20
	str	r2, [sp, #172]                  @ 4-byte Spill
	mov	r6, r0
	rors	r6, r2
	ldr	r2, .Laes_v6m_CPI24_24
	ands	r6, r2
	orrs	r6, r1
	str	r6, [sp, #176]                  @ 4-byte Spill
	ldr	r2, [r4, #40]
	ldr	r1, [sp, #160]                  @ 4-byte Reload
	eors	r2, r1
	mov	r1, r2
	rors	r1, r3
	ldr	r3, .Laes_v6m_CPI24_21
	ands	r1, r3
	mov	r6, r2
	str	r2, [sp, #160]                  @ 4-byte Spill
	rors	r6, r7
	ldr	r3, .Laes_v6m_CPI24_22
	ands	r6, r3
	adds	r1, r6, r1
	eors	r1, r2
	str	r1, [sp, #132]                  @ 4-byte Spill
	ldr	r6, [sp, #128]                  @ 4-byte Reload
	eors	r6, r1
	ldr	r1, [sp, #168]                  @ 4-byte Reload
	eors	r6, r1
	mov	r1, r6
	str	r6, [sp, #128]                  @ 4-byte Spill
	ldr	r6, [sp, #176]                  @ 4-byte Reload
	eors	r6, r1
	eors	r6, r0
	str	r6, [sp, #176]                  @ 4-byte Spill
	mov	r0, r5
	ldr	r3, [sp, #120]                  @ 4-byte Reload
	rors	r0, r3
	ldr	r1, .Laes_v6m_CPI24_21
	ands	r0, r1
	mov	r6, r5
	rors	r6, r7
	ldr	r2, .Laes_v6m_CPI24_22
	ands	r6, r2
	adds	r6, r6, r0
	eors	r6, r5
	str	r6, [sp, #92]                   @ 4-byte Spill
	ldr	r2, [sp, #140]                  @ 4-byte Reload
	eors	r2, r6
	str	r2, [sp, #140]                  @ 4-byte Spill
	ldr	r0, [sp, #112]                  @ 4-byte Reload
	eors	r2, r0
	ldr	r4, [r4, #48]
	ldr	r0, [sp, #164]                  @ 4-byte Reload
	eors	r4, r0
	mov	r0, r4
	mov	r5, r3
	rors	r0, r3
	ands	r0, r1
	mov	r6, r4
	rors	r6, r7
	ldr	r1, .Laes_v6m_CPI24_22
	ands	r6, r1
	adds	r3, r6, r0
	eors	r3, r4
	str	r3, [sp, #116]                  @ 4-byte Spill
	ldr	r1, [sp, #148]                  @ 4-byte Reload
	mov	r0, r1
	rors	r0, r5
	ldr	r5, .Laes_v6m_CPI24_21
	ands	r0, r5
	mov	r6, r1
	str	r7, [sp, #156]                  @ 4-byte Spill
	rors	r6, r7
	ldr	r5, .Laes_v6m_CPI24_22
	ands	r6, r5
	adds	r0, r6, r0
	eors	r0, r1
	ldr	r1, [sp, #160]                  @ 4-byte Reload
	eors	r1, r0
	str	r1, [sp, #160]                  @ 4-byte Spill
	mov	r7, r3
	eors	r7, r1
	eors	r7, r2
	mov	r6, r7
	ldr	r1, [sp, #180]                  @ 4-byte Reload
	rors	r6, r1
	ldr	r3, .Laes_v6m_CPI24_23
	ands	r6, r3
	mov	r3, r7
	ldr	r5, [sp, #172]                  @ 4-byte Reload
	rors	r3, r5
	ldr	r5, .Laes_v6m_CPI24_24
	ands	r3, r5
	orrs	r3, r6
	ldr	r5, [sp, #136]                  @ 4-byte Reload
	eors	r4, r5
	ldr	r5, [sp, #168]                  @ 4-byte Reload
	eors	r4, r5
	eors	r3, r4
	eors	r3, r7
	str	r3, [sp, #164]                  @ 4-byte Spill
	ldr	r6, [sp, #176]                  @ 4-byte Reload
	eors	r3, r6
	str	r3, [sp, #136]                  @ 4-byte Spill
	eors	r0, r2
	mov	r5, r0
	rors	r5, r1
	ldr	r3, .Laes_v6m_CPI24_23
	ands	r5, r3
	mov	r6, r0
	ldr	r3, [sp, #172]                  @ 4-byte Reload
	rors	r6, r3
	ldr	r7, .Laes_v6m_CPI24_24
	ands	r6, r7
	orrs	r6, r5
	ldr	r5, [sp, #152]                  @ 4-byte Reload
	eors	r6, r5
	eors	r6, r0
	mov	r5, r6
	str	r6, [sp, #148]                  @ 4-byte Spill
	ldr	r6, [sp, #140]                  @ 4-byte Reload
	ldr	r2, [sp, #132]                  @ 4-byte Reload
	eors	r2, r6
	ldr	r0, [sp, #124]                  @ 4-byte Reload
	ldr	r7, [sp, #168]                  @ 4-byte Reload
	eors	r0, r7
	str	r0, [sp, #124]                  @ 4-byte Spill
	eors	r2, r0
	mov	r0, r2
	rors	r0, r1
	ldr	r1, .Laes_v6m_CPI24_23
	ands	r0, r1
	mov	r1, r2
	rors	r1, r3
	ldr	r7, .Laes_v6m_CPI24_24
	ands	r1, r7
	orrs	r1, r0
	ldr	r0, [sp, #160]                  @ 4-byte Reload
	eors	r1, r0
	eors	r1, r2
	str	r1, [sp, #132]                  @ 4-byte Spill
	eors	r1, r5
	str	r1, [sp, #96]                   @ 4-byte Spill
	ldr	r0, [sp, #136]                  @ 4-byte Reload
	eors	r0, r1
	str	r0, [sp, #104]                  @ 4-byte Spill
	ldr	r0, [sp, #116]                  @ 4-byte Reload
	ldr	r1, [sp, #144]                  @ 4-byte Reload
	eors	r0, r1
	str	r0, [sp, #116]                  @ 4-byte Spill
	ldr	r2, [sp, #168]                  @ 4-byte Reload
	eors	r2, r0
	mov	r0, r2
	ldr	r1, [sp, #180]                  @ 4-byte Reload
	rors	r0, r1
	ldr	r5, .Laes_v6m_CPI24_23
	ands	r0, r5
	mov	r7, r2
	rors	r7, r3
	ldr	r5, .Laes_v6m_CPI24_24
	ands	r7, r5
	orrs	r7, r0
	eors	r7, r6
	eors	r7, r2
	ldr	r0, [sp, #164]                  @ 4-byte Reload
	eors	r0, r7
	mov	r6, r0
	str	r0, [sp, #160]                  @ 4-byte Spill
	ldr	r0, [sp, #92]                   @ 4-byte Reload
	eors	r4, r0
	mov	r0, r4
	rors	r0, r1
	ldr	r1, .Laes_v6m_CPI24_23
	ands	r0, r1
	mov	r2, r4
	rors	r2, r3
	ands	r2, r5
	orrs	r2, r0
	ldr	r1, [sp, #112]                  @ 4-byte Reload
	eors	r2, r1
	eors	r2, r4
	str	r2, [sp, #152]                  @ 4-byte Spill
	mov	r0, r6
	eors	r0, r2
	str	r0, [sp, #92]                   @ 4-byte Spill
	ldr	r4, [sp, #176]                  @ 4-byte Reload
	eors	r0, r4
	str	r0, [sp, #80]                   @ 4-byte Spill
	ldr	r3, [sp, #104]                  @ 4-byte Reload
	ands	r0, r3
	mov	r5, r0
	mov	r3, r2
	eors	r3, r7
	str	r3, [sp, #144]                  @ 4-byte Spill
	ldr	r0, [sp, #108]                  @ 4-byte Reload
	mov	r2, r1
	eors	r2, r0
	mov	r0, r2
	ldr	r1, [sp, #180]                  @ 4-byte Reload
	rors	r0, r1
	ldr	r1, .Laes_v6m_CPI24_23
	ands	r0, r1
	mov	r1, r2
	ldr	r6, [sp, #172]                  @ 4-byte Reload
	rors	r1, r6
	ldr	r6, .Laes_v6m_CPI24_24
	ands	r1, r6
	orrs	r1, r0
	eors	r1, r2
	ldr	r0, [sp, #124]                  @ 4-byte Reload
	eors	r1, r0
	str	r1, [sp, #112]                  @ 4-byte Spill
	mov	r0, r4
	eors	r0, r1
	str	r0, [sp, #108]                  @ 4-byte Spill
	eors	r0, r3
	str	r0, [sp, #168]                  @ 4-byte Spill
	ldr	r1, [sp, #104]                  @ 4-byte Reload
	eors	r1, r0
	ldr	r0, [sp, #136]                  @ 4-byte Reload
	ands	r1, r0
	str	r1, [sp, #84]                   @ 4-byte Spill
	eors	r5, r1
	str	r5, [sp, #124]                  @ 4-byte Spill
	ldr	r0, [sp, #100]                  @ 4-byte Reload
	ldr	r2, [sp, #140]                  @ 4-byte Reload
	eors	r2, r0
	ldr	r0, [sp, #128]                  @ 4-byte Reload
	eors	r2, r0
	mov	r0, r2
	ldr	r1, [sp, #180]                  @ 4-byte Reload
	rors	r0, r1
	ldr	r1, .Laes_v6m_CPI24_23
	ands	r0, r1
	mov	r1, r2
	ldr	r3, [sp, #172]                  @ 4-byte Reload
	rors	r1, r3
	ands	r1, r6
	orrs	r1, r0
	ldr	r0, [sp, #116]                  @ 4-byte Reload
	eors	r1, r0
	eors	r1, r2
	mov	r6, r4
	eors	r6, r1
	ldr	r3, [sp, #152]                  @ 4-byte Reload
	ldr	r4, [sp, #164]                  @ 4-byte Reload
	eors	r4, r3
	str	r4, [sp, #164]                  @ 4-byte Spill
	ldr	r0, [sp, #148]                  @ 4-byte Reload
	eors	r3, r0
	str	r3, [sp, #152]                  @ 4-byte Spill
	eors	r6, r3
	str	r6, [sp, #176]                  @ 4-byte Spill
	ldr	r2, [sp, #112]                  @ 4-byte Reload
	eors	r0, r2
	str	r0, [sp, #148]                  @ 4-byte Spill
	ldr	r5, [sp, #136]                  @ 4-byte Reload
	mov	r3, r5
	eors	r3, r0
	str	r3, [sp, #88]                   @ 4-byte Spill
	mov	r0, r3
	orrs	r0, r6
	eors	r2, r5
	str	r2, [sp, #112]                  @ 4-byte Spill
	mov	r3, r2
	ands	r3, r4
	eors	r3, r0
	ldr	r0, [sp, #124]                  @ 4-byte Reload
	eors	r3, r0
	ldr	r2, [sp, #168]                  @ 4-byte Reload
	ldr	r0, [sp, #144]                  @ 4-byte Reload
	ands	r2, r0
	ldr	r4, [sp, #84]                   @ 4-byte Reload
	eors	r2, r4
	str	r2, [sp, #116]                  @ 4-byte Spill
	ldr	r6, [sp, #148]                  @ 4-byte Reload
	eors	r0, r6
	str	r0, [sp, #128]                  @ 4-byte Spill
	ldr	r5, [sp, #132]                  @ 4-byte Reload
	eors	r5, r1
	ldr	r2, [sp, #164]                  @ 4-byte Reload
	mov	r0, r2
	eors	r0, r5
	str	r0, [sp, #76]                   @ 4-byte Spill
	ldr	r4, [sp, #128]                  @ 4-byte Reload
	ands	r0, r4
	str	r0, [sp, #140]                  @ 4-byte Spill
	eors	r6, r2
	mov	r4, r6
	str	r6, [sp, #148]                  @ 4-byte Spill
	eors	r5, r7
	str	r5, [sp, #132]                  @ 4-byte Spill
	ands	r4, r5
	ldr	r7, [sp, #108]                  @ 4-byte Reload
	eors	r4, r7
	eors	r4, r0
	ldr	r2, [sp, #116]                  @ 4-byte Reload
	eors	r4, r2
	mov	r6, r4
	ands	r6, r3
	ldr	r0, [sp, #88]                   @ 4-byte Reload
	ldr	r5, [sp, #176]                  @ 4-byte Reload
	ands	r0, r5
	ldr	r5, [sp, #152]                  @ 4-byte Reload
	eors	r5, r7
	str	r5, [sp, #152]                  @ 4-byte Spill
	ldr	r7, [sp, #148]                  @ 4-byte Reload
	eors	r7, r1
	str	r7, [sp, #72]                   @ 4-byte Spill
	ands	r7, r5
	eors	r7, r0
	eors	r7, r1
	ldr	r0, [sp, #136]                  @ 4-byte Reload
	eors	r7, r0
	eors	r7, r2
	mov	r0, r7
	eors	r0, r3
	ands	r6, r0
	mov	r2, r0
	str	r0, [sp, #100]                  @ 4-byte Spill
	ldr	r0, [sp, #92]                   @ 4-byte Reload
	ldr	r1, [sp, #160]                  @ 4-byte Reload
	ands	r0, r1
	ldr	r1, [sp, #96]                   @ 4-byte Reload
	eors	r0, r1
	ldr	r1, [sp, #168]                  @ 4-byte Reload
	eors	r0, r1
	ldr	r1, [sp, #140]                  @ 4-byte Reload
	eors	r0, r1
	ldr	r1, [sp, #124]                  @ 4-byte Reload
	eors	r0, r1
	ands	r3, r0
	eors	r6, r3
	eors	r6, r2
	mov	r2, r6
	str	r6, [sp, #108]                  @ 4-byte Spill
	mov	r6, r7
	ands	r6, r0
	eors	r0, r4
	ands	r6, r0
	eors	r6, r3
	eors	r6, r0
	mov	r1, r6
	eors	r1, r2
	str	r1, [sp, #116]                  @ 4-byte Spill
	ldr	r2, [sp, #144]                  @ 4-byte Reload
	ands	r2, r1
	str	r2, [sp, #144]                  @ 4-byte Spill
	mov	r5, r3
	eors	r5, r4
	ldr	r1, [sp, #100]                  @ 4-byte Reload
	ands	r5, r1
	eors	r5, r7
	str	r5, [sp, #124]                  @ 4-byte Spill
	ldr	r1, [sp, #108]                  @ 4-byte Reload
	eors	r1, r5
	str	r1, [sp, #140]                  @ 4-byte Spill
	ldr	r5, [sp, #128]                  @ 4-byte Reload
	ands	r5, r1
	eors	r5, r2
	str	r5, [sp, #128]                  @ 4-byte Spill
	ldr	r2, [sp, #116]                  @ 4-byte Reload
	ldr	r5, [sp, #168]                  @ 4-byte Reload
	ands	r2, r5
	str	r2, [sp, #84]                   @ 4-byte Spill
	ldr	r2, [sp, #132]                  @ 4-byte Reload
	ldr	r5, [sp, #124]                  @ 4-byte Reload
	ands	r2, r5
	str	r2, [sp, #132]                  @ 4-byte Spill
	ldr	r1, [sp, #108]                  @ 4-byte Reload
	ldr	r5, [sp, #160]                  @ 4-byte Reload
	ands	r5, r1
	eors	r5, r2
	str	r5, [sp, #160]                  @ 4-byte Spill
	ldr	r2, [sp, #164]                  @ 4-byte Reload
	ands	r2, r6
	str	r2, [sp, #164]                  @ 4-byte Spill
	eors	r5, r2
	ldr	r2, [sp, #84]                   @ 4-byte Reload
	eors	r5, r2
	ldr	r2, [sp, #128]                  @ 4-byte Reload
	eors	r5, r2
	eors	r3, r7
	ands	r3, r0
	eors	r3, r4
	mov	r0, r6
	eors	r0, r3
	str	r0, [sp, #100]                  @ 4-byte Spill
	ldr	r7, [sp, #176]                  @ 4-byte Reload
	ands	r7, r0
	str	r7, [sp, #176]                  @ 4-byte Spill
	mov	r2, r3
	ldr	r0, [sp, #124]                  @ 4-byte Reload
	eors	r2, r0
	ldr	r4, [sp, #168]                  @ 4-byte Reload
	ldr	r0, [sp, #96]                   @ 4-byte Reload
	eors	r4, r0
	ands	r4, r2
	str	r4, [sp, #168]                  @ 4-byte Spill
	ldr	r0, [sp, #152]                  @ 4-byte Reload
	ands	r0, r3
	eors	r0, r4
	eors	r0, r7
	ldr	r4, [sp, #112]                  @ 4-byte Reload
	ands	r6, r4
	ldr	r4, [sp, #92]                   @ 4-byte Reload
	ands	r1, r4
	eors	r1, r6
	str	r1, [sp, #108]                  @ 4-byte Spill
	eors	r0, r1
	str	r0, [sp, #152]                  @ 4-byte Spill
	eors	r5, r0
	str	r5, [sp, #112]                  @ 4-byte Spill
	ldr	r0, [sp, #88]                   @ 4-byte Reload
	ldr	r1, [sp, #100]                  @ 4-byte Reload
	ands	r1, r0
	str	r1, [sp, #100]                  @ 4-byte Spill
	ldr	r0, [sp, #168]                  @ 4-byte Reload
	ldr	r4, [sp, #164]                  @ 4-byte Reload
	eors	r0, r4
	eors	r0, r1
	mov	r1, r0
	str	r0, [sp, #168]                  @ 4-byte Spill
	ldr	r0, [sp, #116]                  @ 4-byte Reload
	eors	r0, r2
	str	r0, [sp, #116]                  @ 4-byte Spill
	ldr	r4, [sp, #104]                  @ 4-byte Reload
	ands	r4, r0
	b	.Laes_v6m_BB24_22
	.p2align	2
@ %bb.18:
.Laes_v6m_CPI24_21:
	.long	3233857728                      @ 0xc0c0c0c0
	.p2align	2
@ %bb.19:
.Laes_v6m_CPI24_22:
	.long	1061109567                      @ 0x3f3f3f3f
	.p2align	2
@ %bb.20:
.Laes_v6m_CPI24_23:
	.long	4042322160                      @ 0xf0f0f0f0
	.p2align	2
@ %bb.21:
.Laes_v6m_CPI24_24:
	.long	252645135                       @ 0xf0f0f0f
	.p2align	1
.Laes_v6m_BB24_22:                              @ %join.5.i
	eors	r4, r6
	eors	r4, r1
	ldr	r0, [sp, #76]                   @ 4-byte Reload
	ldr	r7, [sp, #140]                  @ 4-byte Reload
	ands	r7, r0
	str	r7, [sp, #140]                  @ 4-byte Spill
	ldr	r0, [sp, #72]                   @ 4-byte Reload
	ands	r3, r0
	eors	r7, r3
	ldr	r5, [sp, #144]                  @ 4-byte Reload
	eors	r5, r7
	ldr	r0, [sp, #148]                  @ 4-byte Reload
	ldr	r1, [sp, #124]                  @ 4-byte Reload
	ands	r1, r0
	str	r1, [sp, #124]                  @ 4-byte Spill
	ldr	r0, [sp, #160]                  @ 4-byte Reload
	eors	r0, r1
	eors	r5, r0
	eors	r5, r4
	str	r5, [sp, #144]                  @ 4-byte Spill
	ldr	r1, [sp, #80]                   @ 4-byte Reload
	ldr	r5, [sp, #116]                  @ 4-byte Reload
	ands	r5, r1
	mov	r1, r5
	ldr	r6, [sp, #176]                  @ 4-byte Reload
	eors	r1, r6
	eors	r1, r4
	str	r1, [sp, #116]                  @ 4-byte Spill
	ldr	r1, [sp, #84]                   @ 4-byte Reload
	eors	r5, r1
	ldr	r1, [sp, #100]                  @ 4-byte Reload
	eors	r0, r1
	eors	r0, r5
	ldr	r1, [sp, #152]                  @ 4-byte Reload
	eors	r0, r1
	str	r0, [sp, #160]                  @ 4-byte Spill
	ldr	r0, [sp, #168]                  @ 4-byte Reload
	eors	r5, r0
	eors	r3, r6
	eors	r3, r5
	str	r3, [sp, #176]                  @ 4-byte Spill
	ldr	r0, [sp, #140]                  @ 4-byte Reload
	ldr	r1, [sp, #132]                  @ 4-byte Reload
	eors	r0, r1
	eors	r0, r5
	str	r0, [sp, #140]                  @ 4-byte Spill
	ldr	r0, [sp, #108]                  @ 4-byte Reload
	eors	r7, r0
	eors	r7, r5
	ldr	r0, [sp, #136]                  @ 4-byte Reload
	ands	r2, r0
	ldr	r0, [sp, #124]                  @ 4-byte Reload
	eors	r2, r0
	ldr	r0, [sp, #128]                  @ 4-byte Reload
	eors	r2, r0
	mov	r3, r2
	ldr	r0, [sp, #12]                   @ 4-byte Reload
	mov	r5, r0
	ldr	r2, [sp, #8]                    @ 4-byte Reload
	orrs	r0, r2
	str	r7, [sp, #164]                  @ 4-byte Spill
	bne	.Laes_v6m_BB24_23
	bl	.Laes_v6m_BB24_38
.Laes_v6m_BB24_23:                              @ %join.10.i.preheader
	ldr	r0, [sp, #4]                    @ 4-byte Reload
	mov	r6, r0
	mov	r1, r0
	ldr	r4, [sp, #144]                  @ 4-byte Reload
	mov	r7, r3
	ldr	r3, [sp, #176]                  @ 4-byte Reload
.Laes_v6m_BB24_24:                              @ %join.10.i
                                        @ =>This Inner Loop Header: Depth=1
	str	r1, [sp, #32]                   @ 4-byte Spill
	str	r6, [sp, #36]                   @ 4-byte Spill
	subs	r0, r5, r6
	lsls	r0, r0, #7
	ldr	r1, [sp, #16]                   @ 4-byte Reload
	adds	r2, r1, r0
	ldr	r5, [r2, #28]
	eors	r5, r3
	str	r5, [sp, #136]                  @ 4-byte Spill
	movs	r6, #8
	mov	r3, r5
	rors	r3, r6
	eors	r3, r5
	str	r3, [sp, #148]                  @ 4-byte Spill
	ldr	r0, [r1, r0]
	eors	r0, r7
	str	r0, [sp, #124]                  @ 4-byte Spill
	mov	r7, r0
	rors	r7, r6
	eors	r7, r0
	str	r7, [sp, #104]                  @ 4-byte Spill
	ldr	r5, [r2, #4]
	ldr	r0, [sp, #116]                  @ 4-byte Reload
	eors	r5, r0
	str	r5, [sp, #128]                  @ 4-byte Spill
	eors	r7, r5
	eors	r7, r3
	str	r7, [sp, #152]                  @ 4-byte Spill
	ldr	r0, [r2, #12]
	eors	r0, r4
	str	r0, [sp, #132]                  @ 4-byte Spill
	mov	r1, r0
	rors	r1, r6
	eors	r1, r0
	mov	r4, r1
	str	r1, [sp, #92]                   @ 4-byte Spill
	ldr	r3, [r2, #20]
	ldr	r0, [sp, #160]                  @ 4-byte Reload
	eors	r3, r0
	str	r3, [sp, #116]                  @ 4-byte Spill
	mov	r1, r3
	rors	r1, r6
	eors	r1, r3
	str	r1, [sp, #100]                  @ 4-byte Spill
	ldr	r0, [r2, #24]
	str	r2, [sp, #176]                  @ 4-byte Spill
	ldr	r3, [sp, #112]                  @ 4-byte Reload
	eors	r0, r3
	mov	r5, r1
	eors	r5, r0
	str	r5, [sp, #108]                  @ 4-byte Spill
	eors	r5, r4
	eors	r5, r7
	movs	r1, #16
	str	r1, [sp, #168]                  @ 4-byte Spill
	mov	r4, r5
	rors	r4, r1
	ldr	r1, [r2, #8]
	ldr	r2, [sp, #164]                  @ 4-byte Reload
	eors	r1, r2
	str	r1, [sp, #160]                  @ 4-byte Spill
	mov	r2, r1
	rors	r2, r6
	eors	r2, r1
	ldr	r7, [sp, #132]                  @ 4-byte Reload
	eors	r7, r2
	ldr	r3, [sp, #148]                  @ 4-byte Reload
	eors	r7, r3
	str	r7, [sp, #132]                  @ 4-byte Spill
	eors	r4, r7
	eors	r4, r5
	str	r4, [sp, #144]                  @ 4-byte Spill
	mov	r1, r0
	rors	r1, r6
	eors	r1, r0
	str	r1, [sp, #96]                   @ 4-byte Spill
	ldr	r0, [sp, #136]                  @ 4-byte Reload
	eors	r0, r1
	str	r0, [sp, #136]                  @ 4-byte Spill
	mov	r1, r0
	ldr	r0, [sp, #108]                  @ 4-byte Reload
	eors	r1, r0
	mov	r7, r1
	str	r1, [sp, #112]                  @ 4-byte Spill
	ldr	r0, [sp, #176]                  @ 4-byte Reload
	ldr	r5, [r0, #16]
	ldr	r0, [sp, #140]                  @ 4-byte Reload
	eors	r5, r0
	mov	r4, r5
	rors	r4, r6
	eors	r4, r5
	ldr	r1, [sp, #128]                  @ 4-byte Reload
	mov	r0, r1
	rors	r0, r6
	eors	r0, r1
	ldr	r1, [sp, #160]                  @ 4-byte Reload
	eors	r1, r0
	str	r1, [sp, #160]                  @ 4-byte Spill
	mov	r3, r4
	eors	r3, r1
	eors	r3, r7
	mov	r6, r3
	ldr	r1, [sp, #168]                  @ 4-byte Reload
	rors	r6, r1
	ldr	r7, [sp, #92]                   @ 4-byte Reload
	eors	r5, r7
	ldr	r7, [sp, #148]                  @ 4-byte Reload
	eors	r5, r7
	eors	r6, r5
	eors	r6, r3
	str	r6, [sp, #164]                  @ 4-byte Spill
	mov	r3, r6
	ldr	r6, [sp, #144]                  @ 4-byte Reload
	eors	r3, r6
	str	r3, [sp, #140]                  @ 4-byte Spill
	ldr	r3, [sp, #112]                  @ 4-byte Reload
	eors	r0, r3
	mov	r6, r0
	rors	r6, r1
	ldr	r3, [sp, #152]                  @ 4-byte Reload
	eors	r6, r3
	eors	r6, r0
	str	r6, [sp, #112]                  @ 4-byte Spill
	ldr	r7, [sp, #136]                  @ 4-byte Reload
	eors	r2, r7
	ldr	r0, [sp, #124]                  @ 4-byte Reload
	ldr	r3, [sp, #148]                  @ 4-byte Reload
	eors	r0, r3
	str	r0, [sp, #124]                  @ 4-byte Spill
	eors	r2, r0
	mov	r0, r2
	rors	r0, r1
	ldr	r1, [sp, #160]                  @ 4-byte Reload
	eors	r0, r1
	eors	r0, r2
	str	r0, [sp, #128]                  @ 4-byte Spill
	mov	r1, r0
	eors	r1, r6
	str	r1, [sp, #152]                  @ 4-byte Spill
	ldr	r0, [sp, #140]                  @ 4-byte Reload
	eors	r0, r1
	str	r0, [sp, #60]                   @ 4-byte Spill
	ldr	r0, [sp, #116]                  @ 4-byte Reload
	eors	r4, r0
	str	r4, [sp, #88]                   @ 4-byte Spill
	eors	r3, r4
	mov	r2, r3
	ldr	r0, [sp, #168]                  @ 4-byte Reload
	rors	r2, r0
	eors	r2, r7
	eors	r2, r3
	ldr	r1, [sp, #164]                  @ 4-byte Reload
	eors	r1, r2
	str	r1, [sp, #48]                   @ 4-byte Spill
	ldr	r3, [sp, #96]                   @ 4-byte Reload
	eors	r5, r3
	mov	r6, r5
	rors	r6, r0
	ldr	r4, [sp, #108]                  @ 4-byte Reload
	eors	r6, r4
	eors	r6, r5
	str	r6, [sp, #148]                  @ 4-byte Spill
	mov	r0, r1
	eors	r0, r6
	str	r0, [sp, #116]                  @ 4-byte Spill
	ldr	r7, [sp, #144]                  @ 4-byte Reload
	eors	r0, r7
	str	r0, [sp, #92]                   @ 4-byte Spill
	ldr	r1, [sp, #60]                   @ 4-byte Reload
	ands	r0, r1
	mov	r3, r6
	eors	r3, r2
	mov	r5, r3
	ldr	r3, [sp, #104]                  @ 4-byte Reload
	eors	r4, r3
	mov	r3, r4
	mov	r6, r4
	ldr	r4, [sp, #168]                  @ 4-byte Reload
	rors	r3, r4
	eors	r3, r6
	ldr	r6, [sp, #124]                  @ 4-byte Reload
	eors	r3, r6
	mov	r6, r7
	eors	r6, r3
	mov	r7, r6
	str	r6, [sp, #108]                  @ 4-byte Spill
	mov	r6, r3
	str	r3, [sp, #76]                   @ 4-byte Spill
	mov	r3, r7
	eors	r3, r5
	str	r3, [sp, #124]                  @ 4-byte Spill
	eors	r1, r3
	ldr	r3, [sp, #140]                  @ 4-byte Reload
	ands	r1, r3
	eors	r0, r1
	str	r0, [sp, #104]                  @ 4-byte Spill
	ldr	r0, [sp, #112]                  @ 4-byte Reload
	eors	r0, r6
	str	r0, [sp, #160]                  @ 4-byte Spill
	mov	r3, r5
	mov	r6, r5
	str	r5, [sp, #20]                   @ 4-byte Spill
	eors	r3, r0
	mov	r5, r3
	str	r3, [sp, #28]                   @ 4-byte Spill
	ldr	r3, [sp, #136]                  @ 4-byte Reload
	ldr	r7, [sp, #100]                  @ 4-byte Reload
	eors	r3, r7
	ldr	r7, [sp, #132]                  @ 4-byte Reload
	eors	r3, r7
	mov	r0, r3
	rors	r0, r4
	ldr	r4, [sp, #88]                   @ 4-byte Reload
	eors	r0, r4
	eors	r0, r3
	str	r0, [sp, #88]                   @ 4-byte Spill
	ldr	r4, [sp, #128]                  @ 4-byte Reload
	eors	r4, r0
	str	r4, [sp, #128]                  @ 4-byte Spill
	ldr	r0, [sp, #164]                  @ 4-byte Reload
	ldr	r3, [sp, #148]                  @ 4-byte Reload
	eors	r0, r3
	mov	r3, r0
	mov	r7, r0
	str	r0, [sp, #164]                  @ 4-byte Spill
	eors	r3, r4
	str	r3, [sp, #136]                  @ 4-byte Spill
	mov	r0, r3
	ands	r0, r5
	ldr	r3, [sp, #116]                  @ 4-byte Reload
	ldr	r4, [sp, #48]                   @ 4-byte Reload
	ands	r3, r4
	ldr	r4, [sp, #152]                  @ 4-byte Reload
	eors	r3, r4
	ldr	r4, [sp, #124]                  @ 4-byte Reload
	eors	r3, r4
	eors	r3, r0
	ldr	r5, [sp, #104]                  @ 4-byte Reload
	eors	r3, r5
	ands	r4, r6
	eors	r4, r1
	str	r4, [sp, #96]                   @ 4-byte Spill
	mov	r5, r7
	ldr	r6, [sp, #160]                  @ 4-byte Reload
	eors	r5, r6
	str	r5, [sp, #44]                   @ 4-byte Spill
	ldr	r1, [sp, #128]                  @ 4-byte Reload
	eors	r1, r2
	str	r1, [sp, #128]                  @ 4-byte Spill
	ands	r5, r1
	ldr	r1, [sp, #108]                  @ 4-byte Reload
	eors	r5, r1
	eors	r5, r0
	eors	r5, r4
	mov	r0, r3
	eors	r0, r5
	str	r0, [sp, #100]                  @ 4-byte Spill
	ldr	r2, [sp, #144]                  @ 4-byte Reload
	ldr	r4, [sp, #88]                   @ 4-byte Reload
	eors	r2, r4
	ldr	r0, [sp, #148]                  @ 4-byte Reload
	ldr	r1, [sp, #112]                  @ 4-byte Reload
	eors	r0, r1
	str	r0, [sp, #148]                  @ 4-byte Spill
	eors	r2, r0
	str	r2, [sp, #144]                  @ 4-byte Spill
	ldr	r1, [sp, #140]                  @ 4-byte Reload
	eors	r6, r1
	str	r6, [sp, #160]                  @ 4-byte Spill
	mov	r0, r6
	orrs	r0, r2
	ldr	r7, [sp, #76]                   @ 4-byte Reload
	eors	r7, r1
	str	r7, [sp, #76]                   @ 4-byte Spill
	ldr	r1, [sp, #164]                  @ 4-byte Reload
	ands	r7, r1
	eors	r7, r0
	ldr	r0, [sp, #104]                  @ 4-byte Reload
	eors	r7, r0
	mov	r6, r3
	ands	r6, r7
	str	r6, [sp, #132]                  @ 4-byte Spill
	ldr	r2, [sp, #160]                  @ 4-byte Reload
	ldr	r0, [sp, #144]                  @ 4-byte Reload
	ands	r2, r0
	ldr	r1, [sp, #148]                  @ 4-byte Reload
	ldr	r0, [sp, #108]                  @ 4-byte Reload
	eors	r1, r0
	str	r1, [sp, #148]                  @ 4-byte Spill
	ldr	r0, [sp, #44]                   @ 4-byte Reload
	eors	r0, r4
	str	r0, [sp, #80]                   @ 4-byte Spill
	ands	r0, r1
	eors	r0, r2
	eors	r0, r4
	ldr	r1, [sp, #140]                  @ 4-byte Reload
	eors	r0, r1
	ldr	r1, [sp, #96]                   @ 4-byte Reload
	eors	r0, r1
	eors	r6, r0
	ldr	r4, [sp, #100]                  @ 4-byte Reload
	ands	r6, r4
	eors	r6, r5
	str	r6, [sp, #68]                   @ 4-byte Spill
	mov	r2, r3
	ands	r2, r0
	ands	r2, r4
	ldr	r3, [sp, #132]                  @ 4-byte Reload
	eors	r2, r3
	eors	r2, r4
	str	r2, [sp, #96]                   @ 4-byte Spill
	mov	r1, r2
	eors	r1, r6
	str	r1, [sp, #112]                  @ 4-byte Spill
	ldr	r2, [sp, #160]                  @ 4-byte Reload
	ands	r2, r1
	str	r2, [sp, #160]                  @ 4-byte Spill
	mov	r4, r0
	eors	r4, r7
	mov	r1, r3
	eors	r1, r5
	ands	r1, r4
	eors	r1, r0
	str	r1, [sp, #104]                  @ 4-byte Spill
	ldr	r6, [sp, #68]                   @ 4-byte Reload
	eors	r6, r1
	ldr	r0, [sp, #152]                  @ 4-byte Reload
	ldr	r1, [sp, #124]                  @ 4-byte Reload
	eors	r0, r1
	ands	r0, r6
	str	r0, [sp, #152]                  @ 4-byte Spill
	str	r6, [sp, #24]                   @ 4-byte Spill
	ldr	r1, [sp, #164]                  @ 4-byte Reload
	ldr	r3, [sp, #96]                   @ 4-byte Reload
	ands	r1, r3
	str	r1, [sp, #164]                  @ 4-byte Spill
	mov	r2, r0
	eors	r2, r1
	ldr	r0, [sp, #160]                  @ 4-byte Reload
	eors	r2, r0
	str	r2, [sp, #52]                   @ 4-byte Spill
	ands	r7, r5
	ands	r7, r4
	ldr	r0, [sp, #132]                  @ 4-byte Reload
	eors	r7, r0
	eors	r7, r4
	eors	r3, r7
	str	r3, [sp, #72]                   @ 4-byte Spill
	mov	r1, r3
	eors	r1, r6
	str	r1, [sp, #84]                   @ 4-byte Spill
	ldr	r0, [sp, #92]                   @ 4-byte Reload
	ands	r0, r1
	str	r0, [sp, #92]                   @ 4-byte Spill
	ldr	r1, [sp, #124]                  @ 4-byte Reload
	ands	r1, r3
	str	r1, [sp, #124]                  @ 4-byte Spill
	mov	r3, r0
	eors	r3, r1
	str	r3, [sp, #56]                   @ 4-byte Spill
	mov	r1, r3
	eors	r1, r2
	ldr	r2, [sp, #112]                  @ 4-byte Reload
	ldr	r0, [sp, #144]                  @ 4-byte Reload
	ands	r2, r0
	str	r2, [sp, #112]                  @ 4-byte Spill
	ldr	r3, [sp, #80]                   @ 4-byte Reload
	ldr	r0, [sp, #68]                   @ 4-byte Reload
	ands	r3, r0
	str	r3, [sp, #80]                   @ 4-byte Spill
	ldr	r6, [sp, #176]                  @ 4-byte Reload
	subs	r0, r6, #4
	ldr	r5, [r0]
	eors	r5, r3
	eors	r5, r2
	eors	r5, r1
	movs	r2, #6
	str	r2, [sp, #100]                  @ 4-byte Spill
	mov	r0, r5
	rors	r0, r2
	ldr	r3, .Laes_v6m_CPI24_25
	ands	r0, r3
	movs	r2, #14
	mov	r4, r5
	str	r5, [sp, #108]                  @ 4-byte Spill
	rors	r5, r2
	str	r2, [sp, #132]                  @ 4-byte Spill
	ldr	r3, .Laes_v6m_CPI24_26
	ands	r5, r3
	orrs	r5, r0
	eors	r5, r4
	str	r5, [sp, #144]                  @ 4-byte Spill
	mov	r3, r7
	ldr	r0, [sp, #104]                  @ 4-byte Reload
	eors	r3, r0
	str	r3, [sp, #64]                   @ 4-byte Spill
	ldr	r5, [sp, #136]                  @ 4-byte Reload
	ands	r5, r3
	str	r5, [sp, #136]                  @ 4-byte Spill
	ldr	r4, [sp, #128]                  @ 4-byte Reload
	ands	r4, r0
	subs	r6, #16
	ldr	r3, [r6]
	eors	r3, r4
	eors	r3, r5
	eors	r3, r1
	mov	r0, r3
	ldr	r1, [sp, #100]                  @ 4-byte Reload
	rors	r0, r1
	ldr	r1, .Laes_v6m_CPI24_25
	ands	r0, r1
	mov	r1, r3
	str	r3, [sp, #88]                   @ 4-byte Spill
	rors	r1, r2
	ldr	r2, .Laes_v6m_CPI24_26
	ands	r1, r2
	orrs	r1, r0
	eors	r1, r3
	mov	r2, r1
	str	r1, [sp, #40]                   @ 4-byte Spill
	ldr	r1, [sp, #96]                   @ 4-byte Reload
	ldr	r0, [sp, #76]                   @ 4-byte Reload
	ands	r1, r0
	str	r1, [sp, #96]                   @ 4-byte Spill
	ldr	r0, [sp, #116]                  @ 4-byte Reload
	ands	r0, r7
	eors	r0, r1
	str	r0, [sp, #116]                  @ 4-byte Spill
	ldr	r1, [sp, #152]                  @ 4-byte Reload
	eors	r1, r0
	str	r1, [sp, #152]                  @ 4-byte Spill
	ldr	r6, [sp, #68]                   @ 4-byte Reload
	ldr	r0, [sp, #148]                  @ 4-byte Reload
	ands	r6, r0
	ldr	r0, [sp, #112]                  @ 4-byte Reload
	eors	r6, r0
	ldr	r0, [sp, #176]                  @ 4-byte Reload
	subs	r0, #12
	ldr	r3, [r0]
	eors	r3, r6
	eors	r3, r1
	ldr	r0, [sp, #160]                  @ 4-byte Reload
	eors	r3, r0
	ldr	r0, [sp, #48]                   @ 4-byte Reload
	ands	r7, r0
	eors	r7, r4
	ldr	r0, [sp, #104]                  @ 4-byte Reload
	ldr	r1, [sp, #44]                   @ 4-byte Reload
	ands	r0, r1
	str	r0, [sp, #104]                  @ 4-byte Spill
	mov	r1, r7
	eors	r1, r0
	str	r1, [sp, #160]                  @ 4-byte Spill
	eors	r3, r1
	ldr	r0, [sp, #56]                   @ 4-byte Reload
	eors	r3, r0
	eors	r2, r3
	str	r2, [sp, #76]                   @ 4-byte Spill
	ldr	r0, [sp, #144]                  @ 4-byte Reload
	eors	r2, r0
	mov	r1, r2
	ldr	r0, [sp, #180]                  @ 4-byte Reload
	rors	r1, r0
	ldr	r4, .Laes_v6m_CPI24_27
	ands	r1, r4
	mov	r5, r2
	ldr	r4, [sp, #172]                  @ 4-byte Reload
	rors	r5, r4
	ldr	r4, .Laes_v6m_CPI24_28
	ands	r5, r4
	orrs	r5, r1
	eors	r5, r2
	ldr	r0, [sp, #20]                   @ 4-byte Reload
	ldr	r1, [sp, #72]                   @ 4-byte Reload
	ands	r1, r0
	str	r1, [sp, #72]                   @ 4-byte Spill
	ldr	r0, [sp, #28]                   @ 4-byte Reload
	ldr	r2, [sp, #64]                   @ 4-byte Reload
	ands	r2, r0
	eors	r2, r1
	str	r2, [sp, #64]                   @ 4-byte Spill
	ldr	r0, [sp, #176]                  @ 4-byte Reload
	subs	r0, #8
	ldr	r1, [r0]
	eors	r1, r6
	ldr	r0, [sp, #152]                  @ 4-byte Reload
	eors	r1, r0
	ldr	r0, [sp, #164]                  @ 4-byte Reload
	eors	r1, r0
	eors	r1, r7
	ldr	r0, [sp, #124]                  @ 4-byte Reload
	eors	r1, r0
	eors	r1, r2
	mov	r0, r1
	ldr	r6, [sp, #100]                  @ 4-byte Reload
	rors	r0, r6
	ldr	r7, .Laes_v6m_CPI24_25
	ands	r0, r7
	mov	r4, r1
	str	r1, [sp, #164]                  @ 4-byte Spill
	ldr	r2, [sp, #132]                  @ 4-byte Reload
	rors	r4, r2
	ldr	r2, .Laes_v6m_CPI24_26
	ands	r4, r2
	orrs	r4, r0
	eors	r4, r1
	ldr	r0, [sp, #108]                  @ 4-byte Reload
	eors	r0, r4
	str	r0, [sp, #108]                  @ 4-byte Spill
	eors	r5, r0
	str	r5, [sp, #68]                   @ 4-byte Spill
	ldr	r0, [sp, #60]                   @ 4-byte Reload
	ldr	r1, [sp, #84]                   @ 4-byte Reload
	ands	r1, r0
	ldr	r0, [sp, #96]                   @ 4-byte Reload
	eors	r1, r0
	ldr	r0, [sp, #52]                   @ 4-byte Reload
	eors	r1, r0
	mov	r5, r1
	str	r1, [sp, #84]                   @ 4-byte Spill
	ldr	r1, [sp, #136]                  @ 4-byte Reload
	ldr	r0, [sp, #80]                   @ 4-byte Reload
	eors	r1, r0
	str	r1, [sp, #136]                  @ 4-byte Spill
	ldr	r0, [sp, #176]                  @ 4-byte Reload
	subs	r0, #20
	ldr	r2, [r0]
	ldr	r0, [sp, #72]                   @ 4-byte Reload
	eors	r2, r0
	eors	r2, r1
	ldr	r0, [sp, #160]                  @ 4-byte Reload
	eors	r2, r0
	eors	r2, r5
	mov	r0, r2
	mov	r1, r6
	rors	r0, r6
	ands	r0, r7
	mov	r7, r2
	str	r2, [sp, #80]                   @ 4-byte Spill
	ldr	r5, [sp, #132]                  @ 4-byte Reload
	rors	r7, r5
	ldr	r6, .Laes_v6m_CPI24_26
	ands	r7, r6
	orrs	r7, r0
	eors	r7, r2
	ldr	r0, [sp, #88]                   @ 4-byte Reload
	ldr	r2, [sp, #144]                  @ 4-byte Reload
	eors	r0, r2
	eors	r0, r7
	str	r0, [sp, #88]                   @ 4-byte Spill
	eors	r4, r0
	mov	r0, r4
	ldr	r2, [sp, #180]                  @ 4-byte Reload
	rors	r0, r2
	ldr	r2, .Laes_v6m_CPI24_27
	ands	r0, r2
	mov	r2, r4
	ldr	r6, [sp, #172]                  @ 4-byte Reload
	rors	r2, r6
	ldr	r6, .Laes_v6m_CPI24_28
	ands	r2, r6
	orrs	r2, r0
	mov	r0, r3
	rors	r0, r1
	mov	r6, r1
	ldr	r1, .Laes_v6m_CPI24_25
	ands	r0, r1
	mov	r1, r3
	rors	r1, r5
	ldr	r5, .Laes_v6m_CPI24_26
	ands	r1, r5
	orrs	r1, r0
	eors	r1, r3
	str	r1, [sp, #72]                   @ 4-byte Spill
	ldr	r0, [sp, #164]                  @ 4-byte Reload
	eors	r0, r1
	str	r0, [sp, #164]                  @ 4-byte Spill
	eors	r2, r0
	eors	r2, r4
	str	r2, [sp, #128]                  @ 4-byte Spill
	ldr	r0, [sp, #68]                   @ 4-byte Reload
	eors	r2, r0
	str	r2, [sp, #96]                   @ 4-byte Spill
	ldr	r1, [sp, #176]                  @ 4-byte Reload
	mov	r0, r1
	subs	r0, #28
	ldr	r2, [r0]
	ldr	r0, [sp, #112]                  @ 4-byte Reload
	eors	r2, r0
	ldr	r0, [sp, #92]                   @ 4-byte Reload
	eors	r2, r0
	ldr	r0, [sp, #84]                   @ 4-byte Reload
	eors	r2, r0
	mov	r4, r2
	str	r2, [sp, #124]                  @ 4-byte Spill
	ldr	r0, [sp, #140]                  @ 4-byte Reload
	ldr	r3, [sp, #24]                   @ 4-byte Reload
	ands	r3, r0
	mov	r0, r1
	subs	r0, #32
	ldr	r2, [r0]
	eors	r2, r3
	ldr	r0, [sp, #104]                  @ 4-byte Reload
	eors	r2, r0
	ldr	r0, [sp, #64]                   @ 4-byte Reload
	eors	r2, r0
	mov	r0, r2
	rors	r0, r6
	ldr	r3, .Laes_v6m_CPI24_25
	ands	r0, r3
	mov	r5, r2
	ldr	r3, [sp, #132]                  @ 4-byte Reload
	rors	r5, r3
	ldr	r3, .Laes_v6m_CPI24_26
	ands	r5, r3
	orrs	r5, r0
	eors	r5, r2
	mov	r0, r5
	eors	r0, r4
	ldr	r3, [sp, #144]                  @ 4-byte Reload
	eors	r0, r3
	str	r0, [sp, #152]                  @ 4-byte Spill
	eors	r7, r0
	ldr	r0, [sp, #164]                  @ 4-byte Reload
	eors	r7, r0
	mov	r0, r7
	ldr	r3, [sp, #180]                  @ 4-byte Reload
	rors	r0, r3
	ldr	r3, .Laes_v6m_CPI24_27
	ands	r0, r3
	mov	r3, r7
	ldr	r6, [sp, #172]                  @ 4-byte Reload
	rors	r3, r6
	ldr	r6, .Laes_v6m_CPI24_28
	ands	r3, r6
	orrs	r3, r0
	mov	r0, r1
	subs	r0, #24
	ldr	r1, [r0]
	ldr	r0, [sp, #52]                   @ 4-byte Reload
	eors	r1, r0
	ldr	r0, [sp, #56]                   @ 4-byte Reload
	eors	r1, r0
	ldr	r0, [sp, #116]                  @ 4-byte Reload
	eors	r1, r0
	ldr	r0, [sp, #136]                  @ 4-byte Reload
	eors	r1, r0
	mov	r0, r1
	ldr	r4, [sp, #100]                  @ 4-byte Reload
	rors	r0, r4
	ldr	r6, .Laes_v6m_CPI24_25
	ands	r0, r6
	mov	r6, r1
	ldr	r4, [sp, #132]                  @ 4-byte Reload
	rors	r6, r4
	ldr	r4, .Laes_v6m_CPI24_26
	ands	r6, r4
	orrs	r6, r0
	eors	r6, r1
	ldr	r0, [sp, #80]                   @ 4-byte Reload
	ldr	r4, [sp, #144]                  @ 4-byte Reload
	eors	r0, r4
	eors	r0, r6
	str	r0, [sp, #80]                   @ 4-byte Spill
	eors	r3, r0
	eors	r3, r7
	str	r3, [sp, #148]                  @ 4-byte Spill
	ldr	r0, [sp, #164]                  @ 4-byte Reload
	eors	r5, r0
	mov	r0, r5
	ldr	r3, [sp, #180]                  @ 4-byte Reload
	rors	r0, r3
	ldr	r3, .Laes_v6m_CPI24_27
	ands	r0, r3
	mov	r3, r5
	ldr	r7, [sp, #172]                  @ 4-byte Reload
	rors	r3, r7
	ldr	r4, .Laes_v6m_CPI24_28
	ands	r3, r4
	orrs	r3, r0
	ldr	r0, [sp, #144]                  @ 4-byte Reload
	eors	r2, r0
	eors	r3, r2
	eors	r3, r5
	str	r3, [sp, #112]                  @ 4-byte Spill
	ldr	r0, [sp, #148]                  @ 4-byte Reload
	eors	r0, r3
	str	r0, [sp, #116]                  @ 4-byte Spill
	mov	r3, r0
	ldr	r0, [sp, #96]                   @ 4-byte Reload
	eors	r3, r0
	str	r3, [sp, #160]                  @ 4-byte Spill
	ands	r3, r0
	str	r3, [sp, #136]                  @ 4-byte Spill
	eors	r2, r6
	ldr	r4, [sp, #108]                  @ 4-byte Reload
	eors	r2, r4
	mov	r0, r2
	ldr	r3, [sp, #180]                  @ 4-byte Reload
	rors	r0, r3
	ldr	r3, .Laes_v6m_CPI24_27
	ands	r0, r3
	mov	r6, r2
	rors	r6, r7
	ldr	r5, .Laes_v6m_CPI24_28
	ands	r6, r5
	orrs	r6, r0
	ldr	r5, [sp, #124]                  @ 4-byte Reload
	mov	r0, r5
	ldr	r3, [sp, #100]                  @ 4-byte Reload
	rors	r0, r3
	ldr	r3, .Laes_v6m_CPI24_25
	ands	r0, r3
	mov	r3, r5
	ldr	r7, [sp, #132]                  @ 4-byte Reload
	rors	r3, r7
	ldr	r7, .Laes_v6m_CPI24_26
	ands	r3, r7
	orrs	r3, r0
	eors	r3, r5
	eors	r1, r3
	eors	r6, r1
	eors	r6, r2
	ldr	r0, [sp, #164]                  @ 4-byte Reload
	eors	r0, r4
	str	r0, [sp, #164]                  @ 4-byte Spill
	eors	r3, r0
	mov	r0, r3
	ldr	r5, [sp, #180]                  @ 4-byte Reload
	rors	r0, r5
	ldr	r2, .Laes_v6m_CPI24_27
	ands	r0, r2
	mov	r4, r3
	ldr	r7, [sp, #172]                  @ 4-byte Reload
	rors	r4, r7
	ldr	r2, .Laes_v6m_CPI24_28
	ands	r4, r2
	orrs	r4, r0
	ldr	r0, [sp, #152]                  @ 4-byte Reload
	eors	r4, r0
	eors	r4, r3
	str	r4, [sp, #144]                  @ 4-byte Spill
	mov	r3, r4
	eors	r3, r6
	str	r3, [sp, #152]                  @ 4-byte Spill
	ldr	r0, [sp, #40]                   @ 4-byte Reload
	eors	r1, r0
	ldr	r0, [sp, #164]                  @ 4-byte Reload
	eors	r1, r0
	mov	r0, r1
	rors	r0, r5
	mov	r4, r5
	ldr	r2, .Laes_v6m_CPI24_27
	ands	r0, r2
	mov	r2, r1
	rors	r2, r7
	ldr	r5, .Laes_v6m_CPI24_28
	ands	r2, r5
	orrs	r2, r0
	ldr	r0, [sp, #88]                   @ 4-byte Reload
	eors	r2, r0
	eors	r2, r1
	str	r2, [sp, #124]                  @ 4-byte Spill
	mov	r0, r2
	ldr	r1, [sp, #148]                  @ 4-byte Reload
	eors	r0, r1
	str	r0, [sp, #92]                   @ 4-byte Spill
	mov	r5, r0
	eors	r5, r3
	str	r5, [sp, #56]                   @ 4-byte Spill
	ldr	r1, [sp, #160]                  @ 4-byte Reload
	eors	r5, r1
	ands	r5, r0
	str	r5, [sp, #132]                  @ 4-byte Spill
	ldr	r0, [sp, #136]                  @ 4-byte Reload
	eors	r0, r5
	str	r0, [sp, #136]                  @ 4-byte Spill
	ldr	r1, [sp, #80]                   @ 4-byte Reload
	ldr	r0, [sp, #72]                   @ 4-byte Reload
	eors	r1, r0
	ldr	r0, [sp, #108]                  @ 4-byte Reload
	eors	r1, r0
	mov	r0, r1
	rors	r0, r4
	ldr	r2, .Laes_v6m_CPI24_27
	ands	r0, r2
	mov	r2, r1
	rors	r2, r7
	ldr	r3, .Laes_v6m_CPI24_28
	ands	r2, r3
	orrs	r2, r0
	ldr	r0, [sp, #76]                   @ 4-byte Reload
	eors	r2, r0
	eors	r2, r1
	eors	r6, r2
	ldr	r4, [sp, #124]                  @ 4-byte Reload
	ldr	r0, [sp, #128]                  @ 4-byte Reload
	eors	r4, r0
	mov	r5, r4
	str	r4, [sp, #104]                  @ 4-byte Spill
	eors	r5, r6
	str	r5, [sp, #140]                  @ 4-byte Spill
	ldr	r1, [sp, #144]                  @ 4-byte Reload
	ldr	r3, [sp, #112]                  @ 4-byte Reload
	eors	r1, r3
	mov	r7, r1
	mov	r3, r1
	str	r1, [sp, #164]                  @ 4-byte Spill
	ldr	r1, [sp, #96]                   @ 4-byte Reload
	eors	r7, r1
	str	r7, [sp, #24]                   @ 4-byte Spill
	ands	r5, r7
	ldr	r0, [sp, #68]                   @ 4-byte Reload
	eors	r6, r0
	str	r6, [sp, #76]                   @ 4-byte Spill
	eors	r4, r3
	str	r4, [sp, #48]                   @ 4-byte Spill
	ands	r4, r6
	ldr	r1, [sp, #116]                  @ 4-byte Reload
	eors	r4, r1
	eors	r4, r5
	ldr	r1, [sp, #136]                  @ 4-byte Reload
	eors	r4, r1
	mov	r1, r4
	str	r4, [sp, #100]                  @ 4-byte Spill
	ldr	r6, [sp, #124]                  @ 4-byte Reload
	eors	r6, r0
	mov	r7, r6
	str	r6, [sp, #124]                  @ 4-byte Spill
	ldr	r0, [sp, #128]                  @ 4-byte Reload
	eors	r7, r0
	mov	r4, r7
	str	r7, [sp, #84]                   @ 4-byte Spill
	ldr	r3, [sp, #148]                  @ 4-byte Reload
	eors	r4, r3
	str	r4, [sp, #88]                   @ 4-byte Spill
	ldr	r0, [sp, #56]                   @ 4-byte Reload
	ands	r4, r0
	ldr	r0, [sp, #132]                  @ 4-byte Reload
	eors	r4, r0
	ands	r7, r6
	ldr	r0, [sp, #160]                  @ 4-byte Reload
	eors	r7, r0
	ldr	r0, [sp, #152]                  @ 4-byte Reload
	eors	r7, r0
	eors	r7, r5
	eors	r7, r4
	mov	r0, r7
	eors	r0, r1
	str	r0, [sp, #108]                  @ 4-byte Spill
	mov	r0, r3
	eors	r0, r2
	ldr	r3, [sp, #144]                  @ 4-byte Reload
	ldr	r1, [sp, #128]                  @ 4-byte Reload
	eors	r3, r1
	str	r3, [sp, #144]                  @ 4-byte Spill
	eors	r0, r3
	str	r0, [sp, #148]                  @ 4-byte Spill
	ldr	r6, [sp, #92]                   @ 4-byte Reload
	ldr	r1, [sp, #164]                  @ 4-byte Reload
	eors	r1, r6
	str	r1, [sp, #164]                  @ 4-byte Spill
	orrs	r1, r0
	ldr	r0, [sp, #112]                  @ 4-byte Reload
	eors	r0, r6
	str	r0, [sp, #112]                  @ 4-byte Spill
	mov	r6, r0
	ldr	r0, [sp, #104]                  @ 4-byte Reload
	ands	r6, r0
	eors	r6, r1
	eors	r6, r4
	mov	r5, r7
	ands	r5, r6
	ldr	r3, [sp, #164]                  @ 4-byte Reload
	ldr	r0, [sp, #148]                  @ 4-byte Reload
	ands	r3, r0
	ldr	r1, [sp, #116]                  @ 4-byte Reload
	ldr	r0, [sp, #144]                  @ 4-byte Reload
	eors	r0, r1
	str	r0, [sp, #144]                  @ 4-byte Spill
	ldr	r4, [sp, #48]                   @ 4-byte Reload
	eors	r4, r2
	str	r4, [sp, #68]                   @ 4-byte Spill
	ands	r4, r0
	b	.Laes_v6m_BB24_29
	.p2align	2
@ %bb.25:
.Laes_v6m_CPI24_25:
	.long	4244438268                      @ 0xfcfcfcfc
	.p2align	2
@ %bb.26:
.Laes_v6m_CPI24_26:
	.long	50529027                        @ 0x3030303
	.p2align	2
@ %bb.27:
.Laes_v6m_CPI24_27:
	.long	4042322160                      @ 0xf0f0f0f0
	.p2align	2
@ %bb.28:
.Laes_v6m_CPI24_28:
	.long	252645135                       @ 0xf0f0f0f
	.p2align	1
.Laes_v6m_BB24_29:                              @ %join.10.i
                                        @   in Loop: Header=BB24_24 Depth=1
	eors	r4, r3
	eors	r4, r2
	ldr	r0, [sp, #92]                   @ 4-byte Reload
	eors	r4, r0
	ldr	r0, [sp, #136]                  @ 4-byte Reload
	eors	r4, r0
	mov	r0, r5
	eors	r0, r4
	ldr	r3, [sp, #108]                  @ 4-byte Reload
	ands	r0, r3
	ldr	r2, [sp, #100]                  @ 4-byte Reload
	eors	r0, r2
	mov	r1, r0
	str	r0, [sp, #132]                  @ 4-byte Spill
	ands	r7, r4
	ands	r7, r3
	eors	r7, r5
	eors	r7, r3
	mov	r0, r7
	eors	r0, r1
	str	r0, [sp, #128]                  @ 4-byte Spill
	ldr	r1, [sp, #164]                  @ 4-byte Reload
	ands	r1, r0
	str	r1, [sp, #164]                  @ 4-byte Spill
	mov	r3, r4
	eors	r3, r6
	mov	r0, r5
	eors	r0, r2
	ands	r0, r3
	eors	r0, r4
	str	r0, [sp, #108]                  @ 4-byte Spill
	ldr	r2, [sp, #132]                  @ 4-byte Reload
	eors	r2, r0
	str	r2, [sp, #52]                   @ 4-byte Spill
	ldr	r0, [sp, #152]                  @ 4-byte Reload
	ldr	r4, [sp, #160]                  @ 4-byte Reload
	eors	r0, r4
	ands	r0, r2
	str	r0, [sp, #152]                  @ 4-byte Spill
	ldr	r4, [sp, #104]                  @ 4-byte Reload
	ands	r4, r7
	str	r4, [sp, #104]                  @ 4-byte Spill
	mov	r2, r0
	eors	r2, r4
	eors	r2, r1
	str	r2, [sp, #40]                   @ 4-byte Spill
	ldr	r0, [sp, #100]                  @ 4-byte Reload
	ands	r6, r0
	ands	r6, r3
	eors	r6, r5
	eors	r6, r3
	mov	r3, r7
	eors	r3, r6
	str	r3, [sp, #60]                   @ 4-byte Spill
	mov	r4, r3
	ldr	r0, [sp, #52]                   @ 4-byte Reload
	eors	r4, r0
	str	r4, [sp, #72]                   @ 4-byte Spill
	ldr	r1, [sp, #88]                   @ 4-byte Reload
	ands	r1, r4
	str	r1, [sp, #88]                   @ 4-byte Spill
	ldr	r0, [sp, #160]                  @ 4-byte Reload
	ands	r0, r3
	str	r0, [sp, #160]                  @ 4-byte Spill
	mov	r4, r1
	eors	r4, r0
	str	r4, [sp, #44]                   @ 4-byte Spill
	eors	r4, r2
	str	r4, [sp, #80]                   @ 4-byte Spill
	ldr	r1, [sp, #128]                  @ 4-byte Reload
	ldr	r0, [sp, #148]                  @ 4-byte Reload
	ands	r1, r0
	str	r1, [sp, #128]                  @ 4-byte Spill
	ldr	r2, [sp, #68]                   @ 4-byte Reload
	ldr	r0, [sp, #132]                  @ 4-byte Reload
	ands	r2, r0
	str	r2, [sp, #68]                   @ 4-byte Spill
	ldr	r3, [sp, #176]                  @ 4-byte Reload
	mov	r0, r3
	subs	r0, #36
	ldr	r5, [r0]
	eors	r5, r2
	eors	r5, r1
	eors	r5, r4
	movs	r1, #4
	str	r1, [sp, #100]                  @ 4-byte Spill
	mov	r0, r5
	rors	r0, r1
	ldr	r1, .Laes_v6m_CPI24_29
	ands	r0, r1
	mov	r1, r5
	str	r5, [sp, #116]                  @ 4-byte Spill
	ldr	r4, [sp, #180]                  @ 4-byte Reload
	rors	r1, r4
	ldr	r2, .Laes_v6m_CPI24_30
	ands	r1, r2
	orrs	r1, r0
	eors	r1, r5
	str	r1, [sp, #136]                  @ 4-byte Spill
	mov	r1, r6
	ldr	r0, [sp, #108]                  @ 4-byte Reload
	eors	r1, r0
	str	r1, [sp, #64]                   @ 4-byte Spill
	ldr	r2, [sp, #140]                  @ 4-byte Reload
	ands	r2, r1
	str	r2, [sp, #140]                  @ 4-byte Spill
	ldr	r1, [sp, #76]                   @ 4-byte Reload
	ands	r1, r0
	str	r1, [sp, #76]                   @ 4-byte Spill
	mov	r0, r3
	mov	r5, r3
	subs	r0, #48
	ldr	r3, [r0]
	eors	r3, r1
	eors	r3, r2
	ldr	r0, [sp, #80]                   @ 4-byte Reload
	eors	r3, r0
	mov	r0, r3
	ldr	r1, [sp, #100]                  @ 4-byte Reload
	rors	r0, r1
	ldr	r1, .Laes_v6m_CPI24_29
	ands	r0, r1
	mov	r1, r3
	str	r3, [sp, #80]                   @ 4-byte Spill
	rors	r1, r4
	ldr	r2, .Laes_v6m_CPI24_30
	ands	r1, r2
	orrs	r1, r0
	eors	r1, r3
	str	r1, [sp, #28]                   @ 4-byte Spill
	ldr	r0, [sp, #112]                  @ 4-byte Reload
	ands	r7, r0
	ldr	r0, [sp, #84]                   @ 4-byte Reload
	ands	r0, r6
	eors	r0, r7
	str	r0, [sp, #84]                   @ 4-byte Spill
	ldr	r4, [sp, #152]                  @ 4-byte Reload
	eors	r4, r0
	str	r4, [sp, #152]                  @ 4-byte Spill
	ldr	r2, [sp, #132]                  @ 4-byte Reload
	ldr	r0, [sp, #144]                  @ 4-byte Reload
	ands	r2, r0
	ldr	r0, [sp, #128]                  @ 4-byte Reload
	eors	r2, r0
	str	r2, [sp, #132]                  @ 4-byte Spill
	mov	r3, r5
	mov	r0, r5
	subs	r0, #44
	ldr	r5, [r0]
	eors	r5, r2
	eors	r5, r4
	ldr	r0, [sp, #164]                  @ 4-byte Reload
	eors	r5, r0
	ldr	r0, [sp, #124]                  @ 4-byte Reload
	ands	r6, r0
	ldr	r0, [sp, #76]                   @ 4-byte Reload
	eors	r6, r0
	ldr	r0, [sp, #108]                  @ 4-byte Reload
	ldr	r2, [sp, #48]                   @ 4-byte Reload
	ands	r0, r2
	str	r0, [sp, #108]                  @ 4-byte Spill
	mov	r2, r6
	eors	r2, r0
	str	r2, [sp, #164]                  @ 4-byte Spill
	eors	r5, r2
	ldr	r0, [sp, #44]                   @ 4-byte Reload
	eors	r5, r0
	mov	r2, r1
	eors	r2, r5
	str	r2, [sp, #112]                  @ 4-byte Spill
	ldr	r0, [sp, #136]                  @ 4-byte Reload
	eors	r2, r0
	mov	r4, r2
	ldr	r1, [sp, #168]                  @ 4-byte Reload
	rors	r4, r1
	eors	r4, r2
	ldr	r0, [sp, #96]                   @ 4-byte Reload
	ldr	r2, [sp, #60]                   @ 4-byte Reload
	ands	r2, r0
	str	r2, [sp, #60]                   @ 4-byte Spill
	ldr	r0, [sp, #24]                   @ 4-byte Reload
	ldr	r1, [sp, #64]                   @ 4-byte Reload
	ands	r1, r0
	eors	r1, r2
	str	r1, [sp, #64]                   @ 4-byte Spill
	subs	r3, #40
	ldr	r3, [r3]
	ldr	r0, [sp, #132]                  @ 4-byte Reload
	eors	r3, r0
	ldr	r0, [sp, #152]                  @ 4-byte Reload
	eors	r3, r0
	ldr	r0, [sp, #104]                  @ 4-byte Reload
	eors	r3, r0
	eors	r3, r6
	ldr	r0, [sp, #160]                  @ 4-byte Reload
	eors	r3, r0
	eors	r3, r1
	mov	r0, r3
	ldr	r1, [sp, #100]                  @ 4-byte Reload
	rors	r0, r1
	ldr	r1, .Laes_v6m_CPI24_29
	ands	r0, r1
	mov	r1, r3
	str	r3, [sp, #160]                  @ 4-byte Spill
	ldr	r6, [sp, #180]                  @ 4-byte Reload
	rors	r1, r6
	ldr	r2, .Laes_v6m_CPI24_30
	ands	r1, r2
	orrs	r1, r0
	eors	r1, r3
	ldr	r0, [sp, #116]                  @ 4-byte Reload
	eors	r0, r1
	str	r0, [sp, #116]                  @ 4-byte Spill
	eors	r4, r0
	str	r4, [sp, #76]                   @ 4-byte Spill
	ldr	r0, [sp, #56]                   @ 4-byte Reload
	ldr	r2, [sp, #72]                   @ 4-byte Reload
	ands	r2, r0
	eors	r2, r7
	ldr	r0, [sp, #40]                   @ 4-byte Reload
	eors	r2, r0
	mov	r3, r2
	str	r2, [sp, #72]                   @ 4-byte Spill
	ldr	r4, [sp, #140]                  @ 4-byte Reload
	ldr	r0, [sp, #68]                   @ 4-byte Reload
	eors	r4, r0
	str	r4, [sp, #140]                  @ 4-byte Spill
	ldr	r0, [sp, #176]                  @ 4-byte Reload
	subs	r0, #52
	ldr	r2, [r0]
	ldr	r0, [sp, #60]                   @ 4-byte Reload
	eors	r2, r0
	eors	r2, r4
	ldr	r0, [sp, #164]                  @ 4-byte Reload
	eors	r2, r0
	eors	r2, r3
	mov	r0, r2
	ldr	r3, [sp, #100]                  @ 4-byte Reload
	rors	r0, r3
	ldr	r4, .Laes_v6m_CPI24_29
	ands	r0, r4
	mov	r7, r2
	str	r2, [sp, #152]                  @ 4-byte Spill
	rors	r7, r6
	ldr	r4, .Laes_v6m_CPI24_30
	ands	r7, r4
	orrs	r7, r0
	eors	r7, r2
	ldr	r0, [sp, #80]                   @ 4-byte Reload
	ldr	r2, [sp, #136]                  @ 4-byte Reload
	eors	r0, r2
	eors	r0, r7
	str	r0, [sp, #80]                   @ 4-byte Spill
	eors	r1, r0
	mov	r2, r1
	ldr	r0, [sp, #168]                  @ 4-byte Reload
	rors	r2, r0
	mov	r0, r5
	rors	r0, r3
	ldr	r4, .Laes_v6m_CPI24_29
	ands	r0, r4
	mov	r4, r5
	rors	r4, r6
	ldr	r6, .Laes_v6m_CPI24_30
	ands	r4, r6
	orrs	r4, r0
	eors	r4, r5
	str	r4, [sp, #68]                   @ 4-byte Spill
	ldr	r0, [sp, #160]                  @ 4-byte Reload
	eors	r0, r4
	str	r0, [sp, #160]                  @ 4-byte Spill
	eors	r2, r0
	eors	r2, r1
	str	r2, [sp, #96]                   @ 4-byte Spill
	ldr	r0, [sp, #76]                   @ 4-byte Reload
	eors	r2, r0
	str	r2, [sp, #148]                  @ 4-byte Spill
	ldr	r1, [sp, #176]                  @ 4-byte Reload
	mov	r0, r1
	subs	r0, #56
	ldr	r6, [r0]
	ldr	r0, [sp, #40]                   @ 4-byte Reload
	eors	r6, r0
	ldr	r0, [sp, #44]                   @ 4-byte Reload
	eors	r6, r0
	ldr	r0, [sp, #84]                   @ 4-byte Reload
	eors	r6, r0
	ldr	r0, [sp, #140]                  @ 4-byte Reload
	eors	r6, r0
	mov	r0, r6
	mov	r2, r3
	rors	r0, r3
	ldr	r3, .Laes_v6m_CPI24_29
	ands	r0, r3
	mov	r3, r6
	ldr	r4, [sp, #180]                  @ 4-byte Reload
	rors	r3, r4
	ldr	r5, .Laes_v6m_CPI24_30
	ands	r3, r5
	orrs	r3, r0
	eors	r3, r6
	ldr	r0, [sp, #152]                  @ 4-byte Reload
	ldr	r4, [sp, #136]                  @ 4-byte Reload
	eors	r0, r4
	eors	r0, r3
	str	r0, [sp, #152]                  @ 4-byte Spill
	mov	r0, r1
	subs	r0, #60
	ldr	r4, [r0]
	ldr	r0, [sp, #128]                  @ 4-byte Reload
	eors	r4, r0
	ldr	r0, [sp, #88]                   @ 4-byte Reload
	eors	r4, r0
	ldr	r0, [sp, #72]                   @ 4-byte Reload
	eors	r4, r0
	str	r4, [sp, #144]                  @ 4-byte Spill
	ldr	r0, [sp, #92]                   @ 4-byte Reload
	ldr	r4, [sp, #52]                   @ 4-byte Reload
	ands	r4, r0
	mov	r0, r1
	subs	r0, #64
	ldr	r0, [r0]
	eors	r0, r4
	ldr	r1, [sp, #108]                  @ 4-byte Reload
	eors	r0, r1
	ldr	r1, [sp, #64]                   @ 4-byte Reload
	eors	r0, r1
	mov	r4, r0
	rors	r4, r2
	ldr	r1, .Laes_v6m_CPI24_29
	ands	r4, r1
	mov	r1, r0
	ldr	r2, [sp, #180]                  @ 4-byte Reload
	rors	r1, r2
	ands	r1, r5
	orrs	r1, r4
	eors	r1, r0
	ldr	r2, [sp, #160]                  @ 4-byte Reload
	mov	r4, r2
	eors	r4, r1
	ldr	r5, [sp, #144]                  @ 4-byte Reload
	eors	r1, r5
	ldr	r5, [sp, #136]                  @ 4-byte Reload
	eors	r1, r5
	eors	r7, r1
	eors	r7, r2
	mov	r2, r7
	ldr	r5, [sp, #168]                  @ 4-byte Reload
	rors	r2, r5
	ldr	r5, [sp, #152]                  @ 4-byte Reload
	eors	r2, r5
	eors	r2, r7
	str	r2, [sp, #164]                  @ 4-byte Spill
	ldr	r2, [sp, #136]                  @ 4-byte Reload
	eors	r0, r2
	mov	r7, r4
	ldr	r5, [sp, #168]                  @ 4-byte Reload
	rors	r7, r5
	eors	r7, r0
	eors	r7, r4
	str	r7, [sp, #104]                  @ 4-byte Spill
	ldr	r2, [sp, #164]                  @ 4-byte Reload
	eors	r2, r7
	str	r2, [sp, #140]                  @ 4-byte Spill
	ldr	r4, [sp, #148]                  @ 4-byte Reload
	eors	r2, r4
	str	r2, [sp, #128]                  @ 4-byte Spill
	ands	r2, r4
	str	r2, [sp, #132]                  @ 4-byte Spill
	eors	r0, r3
	ldr	r2, [sp, #116]                  @ 4-byte Reload
	eors	r0, r2
	mov	r7, r0
	rors	r7, r5
	ldr	r3, [sp, #144]                  @ 4-byte Reload
	mov	r4, r3
	ldr	r2, [sp, #100]                  @ 4-byte Reload
	rors	r4, r2
	ldr	r2, .Laes_v6m_CPI24_29
	ands	r4, r2
	mov	r2, r3
	ldr	r5, [sp, #180]                  @ 4-byte Reload
	rors	r2, r5
	ldr	r5, .Laes_v6m_CPI24_30
	ands	r2, r5
	orrs	r2, r4
	eors	r2, r3
	eors	r6, r2
	eors	r7, r6
	eors	r7, r0
	mov	r4, r7
	ldr	r5, [sp, #116]                  @ 4-byte Reload
	ldr	r0, [sp, #160]                  @ 4-byte Reload
	eors	r0, r5
	eors	r2, r0
	mov	r7, r0
	mov	r3, r2
	ldr	r0, [sp, #168]                  @ 4-byte Reload
	rors	r3, r0
	eors	r3, r1
	eors	r3, r2
	str	r3, [sp, #160]                  @ 4-byte Spill
	mov	r1, r3
	eors	r1, r4
	mov	r3, r1
	str	r1, [sp, #108]                  @ 4-byte Spill
	ldr	r1, [sp, #28]                   @ 4-byte Reload
	eors	r6, r1
	eors	r6, r7
	mov	r7, r6
	rors	r7, r0
	mov	r1, r0
	ldr	r0, [sp, #80]                   @ 4-byte Reload
	eors	r7, r0
	eors	r7, r6
	mov	r0, r7
	str	r7, [sp, #144]                  @ 4-byte Spill
	ldr	r2, [sp, #164]                  @ 4-byte Reload
	eors	r0, r2
	str	r0, [sp, #88]                   @ 4-byte Spill
	mov	r2, r0
	eors	r2, r3
	str	r2, [sp, #124]                  @ 4-byte Spill
	ldr	r3, [sp, #128]                  @ 4-byte Reload
	eors	r2, r3
	ands	r2, r0
	ldr	r0, [sp, #132]                  @ 4-byte Reload
	eors	r0, r2
	str	r0, [sp, #132]                  @ 4-byte Spill
	ldr	r0, [sp, #152]                  @ 4-byte Reload
	ldr	r3, [sp, #68]                   @ 4-byte Reload
	eors	r0, r3
	eors	r0, r5
	mov	r6, r0
	rors	r6, r1
	ldr	r1, [sp, #112]                  @ 4-byte Reload
	eors	r6, r1
	eors	r6, r0
	eors	r4, r6
	ldr	r0, [sp, #96]                   @ 4-byte Reload
	eors	r7, r0
	mov	r5, r7
	str	r7, [sp, #136]                  @ 4-byte Spill
	eors	r5, r4
	str	r5, [sp, #56]                   @ 4-byte Spill
	mov	r0, r4
	ldr	r3, [sp, #160]                  @ 4-byte Reload
	ldr	r1, [sp, #104]                  @ 4-byte Reload
	eors	r3, r1
	mov	r1, r3
	str	r3, [sp, #168]                  @ 4-byte Spill
	ldr	r4, [sp, #148]                  @ 4-byte Reload
	eors	r1, r4
	str	r1, [sp, #112]                  @ 4-byte Spill
	mov	r4, r5
	ands	r4, r1
	ldr	r1, [sp, #76]                   @ 4-byte Reload
	eors	r0, r1
	str	r0, [sp, #60]                   @ 4-byte Spill
	eors	r7, r3
	str	r7, [sp, #152]                  @ 4-byte Spill
	mov	r5, r7
	ands	r5, r0
	ldr	r0, [sp, #140]                  @ 4-byte Reload
	eors	r5, r0
	eors	r5, r4
	ldr	r0, [sp, #132]                  @ 4-byte Reload
	eors	r5, r0
	ldr	r3, [sp, #144]                  @ 4-byte Reload
	eors	r3, r1
	mov	r1, r3
	mov	r0, r3
	str	r3, [sp, #144]                  @ 4-byte Spill
	ldr	r3, [sp, #96]                   @ 4-byte Reload
	eors	r1, r3
	mov	r7, r1
	mov	r3, r1
	str	r1, [sp, #64]                   @ 4-byte Spill
	ldr	r1, [sp, #164]                  @ 4-byte Reload
	eors	r7, r1
	str	r7, [sp, #92]                   @ 4-byte Spill
	mov	r1, r7
	ldr	r7, [sp, #124]                  @ 4-byte Reload
	ands	r1, r7
	eors	r1, r2
	ands	r3, r0
	ldr	r0, [sp, #128]                  @ 4-byte Reload
	eors	r3, r0
	ldr	r0, [sp, #108]                  @ 4-byte Reload
	eors	r3, r0
	eors	r3, r4
	eors	r3, r1
	mov	r0, r3
	eors	r0, r5
	str	r0, [sp, #116]                  @ 4-byte Spill
	ldr	r0, [sp, #164]                  @ 4-byte Reload
	eors	r0, r6
	ldr	r4, [sp, #160]                  @ 4-byte Reload
	ldr	r2, [sp, #96]                   @ 4-byte Reload
	eors	r4, r2
	str	r4, [sp, #160]                  @ 4-byte Spill
	eors	r0, r4
	str	r0, [sp, #164]                  @ 4-byte Spill
	ldr	r4, [sp, #168]                  @ 4-byte Reload
	ldr	r7, [sp, #88]                   @ 4-byte Reload
	eors	r4, r7
	mov	r2, r4
	str	r4, [sp, #168]                  @ 4-byte Spill
	orrs	r2, r0
	ldr	r0, [sp, #104]                  @ 4-byte Reload
	eors	r0, r7
	str	r0, [sp, #104]                  @ 4-byte Spill
	mov	r7, r0
	ldr	r0, [sp, #136]                  @ 4-byte Reload
	ands	r7, r0
	eors	r7, r2
	eors	r7, r1
	mov	r0, r3
	ands	r0, r7
	str	r0, [sp, #96]                   @ 4-byte Spill
	mov	r0, r4
	ldr	r1, [sp, #164]                  @ 4-byte Reload
	ands	r0, r1
	ldr	r4, [sp, #160]                  @ 4-byte Reload
	ldr	r1, [sp, #140]                  @ 4-byte Reload
	eors	r4, r1
	str	r4, [sp, #160]                  @ 4-byte Spill
	ldr	r2, [sp, #152]                  @ 4-byte Reload
	eors	r2, r6
	str	r2, [sp, #140]                  @ 4-byte Spill
	ands	r2, r4
	eors	r2, r0
	eors	r2, r6
	ldr	r0, [sp, #88]                   @ 4-byte Reload
	eors	r2, r0
	ldr	r0, [sp, #132]                  @ 4-byte Reload
	eors	r2, r0
	ldr	r6, [sp, #96]                   @ 4-byte Reload
	mov	r0, r6
	eors	r0, r2
	ldr	r4, [sp, #116]                  @ 4-byte Reload
	ands	r0, r4
	eors	r0, r5
	mov	r1, r0
	str	r0, [sp, #132]                  @ 4-byte Spill
	ands	r3, r2
	ands	r3, r4
	eors	r3, r6
	eors	r3, r4
	mov	r4, r3
	eors	r4, r0
	str	r4, [sp, #100]                  @ 4-byte Spill
	ldr	r0, [sp, #168]                  @ 4-byte Reload
	ands	r0, r4
	str	r0, [sp, #168]                  @ 4-byte Spill
	mov	r4, r2
	eors	r4, r7
	mov	r0, r6
	eors	r0, r5
	ands	r0, r4
	eors	r0, r2
	str	r0, [sp, #116]                  @ 4-byte Spill
	mov	r2, r1
	eors	r2, r0
	ldr	r6, [sp, #108]                  @ 4-byte Reload
	ldr	r1, [sp, #128]                  @ 4-byte Reload
	eors	r6, r1
	ands	r6, r2
	str	r6, [sp, #108]                  @ 4-byte Spill
	ldr	r1, [sp, #136]                  @ 4-byte Reload
	ands	r1, r3
	str	r1, [sp, #136]                  @ 4-byte Spill
	eors	r6, r1
	ldr	r0, [sp, #168]                  @ 4-byte Reload
	eors	r6, r0
	mov	r1, r6
	str	r6, [sp, #76]                   @ 4-byte Spill
	ands	r7, r5
	ands	r7, r4
	ldr	r0, [sp, #96]                   @ 4-byte Reload
	eors	r7, r0
	eors	r7, r4
	mov	r6, r3
	eors	r6, r7
	str	r6, [sp, #96]                   @ 4-byte Spill
	mov	r4, r7
	str	r7, [sp, #84]                   @ 4-byte Spill
	eors	r6, r2
	ldr	r0, [sp, #124]                  @ 4-byte Reload
	ands	r0, r6
	ldr	r5, [sp, #104]                  @ 4-byte Reload
	ands	r3, r5
	b	.Laes_v6m_BB24_32
	.p2align	2
@ %bb.30:
.Laes_v6m_CPI24_29:
	.long	4042322160                      @ 0xf0f0f0f0
	.p2align	2
@ %bb.31:
.Laes_v6m_CPI24_30:
	.long	252645135                       @ 0xf0f0f0f
	.p2align	1
.Laes_v6m_BB24_32:                              @ %join.10.i
                                        @   in Loop: Header=BB24_24 Depth=1
	eors	r0, r3
	eors	r0, r1
	mov	r5, r0
	str	r0, [sp, #124]                  @ 4-byte Spill
	ldr	r0, [sp, #92]                   @ 4-byte Reload
	ands	r6, r0
	ldr	r1, [sp, #100]                  @ 4-byte Reload
	ldr	r0, [sp, #164]                  @ 4-byte Reload
	ands	r1, r0
	str	r1, [sp, #100]                  @ 4-byte Spill
	ldr	r7, [sp, #176]                  @ 4-byte Reload
	mov	r0, r7
	subs	r0, #92
	ldr	r0, [r0]
	eors	r0, r1
	eors	r0, r6
	eors	r0, r5
	str	r0, [sp, #80]                   @ 4-byte Spill
	ldr	r5, [sp, #148]                  @ 4-byte Reload
	ldr	r0, [sp, #96]                   @ 4-byte Reload
	ands	r5, r0
	str	r5, [sp, #148]                  @ 4-byte Spill
	ldr	r1, [sp, #116]                  @ 4-byte Reload
	eors	r4, r1
	str	r4, [sp, #92]                   @ 4-byte Spill
	ldr	r0, [sp, #112]                  @ 4-byte Reload
	ands	r0, r4
	eors	r0, r5
	str	r0, [sp, #112]                  @ 4-byte Spill
	ldr	r0, [sp, #88]                   @ 4-byte Reload
	ands	r2, r0
	mov	r0, r7
	subs	r0, #96
	ldr	r4, [r0]
	eors	r4, r2
	ldr	r0, [sp, #152]                  @ 4-byte Reload
	ands	r0, r1
	str	r0, [sp, #152]                  @ 4-byte Spill
	eors	r4, r0
	ldr	r0, [sp, #112]                  @ 4-byte Reload
	eors	r4, r0
	mov	r0, r4
	ldr	r5, [sp, #120]                  @ 4-byte Reload
	rors	r0, r5
	ldr	r1, .Laes_v6m_CPI24_31
	ands	r0, r1
	mov	r2, r4
	str	r4, [sp, #72]                   @ 4-byte Spill
	ldr	r1, [sp, #156]                  @ 4-byte Reload
	rors	r2, r1
	ldr	r1, .Laes_v6m_CPI24_32
	ands	r2, r1
	orrs	r2, r0
	eors	r2, r4
	str	r2, [sp, #68]                   @ 4-byte Spill
	ldr	r0, [sp, #80]                   @ 4-byte Reload
	eors	r2, r0
	str	r2, [sp, #104]                  @ 4-byte Spill
	ldr	r0, [sp, #96]                   @ 4-byte Reload
	ldr	r1, [sp, #128]                  @ 4-byte Reload
	ands	r0, r1
	str	r0, [sp, #96]                   @ 4-byte Spill
	eors	r6, r0
	str	r6, [sp, #88]                   @ 4-byte Spill
	ldr	r1, [sp, #76]                   @ 4-byte Reload
	eors	r6, r1
	str	r6, [sp, #52]                   @ 4-byte Spill
	ldr	r2, [sp, #140]                  @ 4-byte Reload
	ldr	r0, [sp, #132]                  @ 4-byte Reload
	ands	r2, r0
	str	r2, [sp, #140]                  @ 4-byte Spill
	mov	r0, r7
	subs	r0, #68
	ldr	r1, [r0]
	eors	r1, r2
	ldr	r0, [sp, #100]                  @ 4-byte Reload
	eors	r1, r0
	eors	r1, r6
	mov	r0, r1
	mov	r6, r5
	rors	r0, r5
	ldr	r2, .Laes_v6m_CPI24_31
	ands	r0, r2
	mov	r2, r1
	str	r1, [sp, #164]                  @ 4-byte Spill
	ldr	r5, [sp, #156]                  @ 4-byte Reload
	rors	r2, r5
	ldr	r4, .Laes_v6m_CPI24_32
	ands	r2, r4
	orrs	r2, r0
	eors	r2, r1
	str	r2, [sp, #128]                  @ 4-byte Spill
	ldr	r1, [sp, #104]                  @ 4-byte Reload
	eors	r1, r2
	str	r1, [sp, #104]                  @ 4-byte Spill
	ldr	r0, [sp, #92]                   @ 4-byte Reload
	ldr	r2, [sp, #56]                   @ 4-byte Reload
	ands	r0, r2
	str	r0, [sp, #92]                   @ 4-byte Spill
	ldr	r2, [sp, #140]                  @ 4-byte Reload
	eors	r2, r0
	str	r2, [sp, #140]                  @ 4-byte Spill
	subs	r7, #84
	ldr	r4, [r7]
	ldr	r0, [sp, #148]                  @ 4-byte Reload
	eors	r4, r0
	eors	r4, r2
	ldr	r0, [sp, #116]                  @ 4-byte Reload
	ldr	r2, [sp, #60]                   @ 4-byte Reload
	ands	r0, r2
	str	r0, [sp, #116]                  @ 4-byte Spill
	ldr	r2, [sp, #144]                  @ 4-byte Reload
	ldr	r7, [sp, #84]                   @ 4-byte Reload
	ands	r2, r7
	eors	r2, r0
	str	r2, [sp, #144]                  @ 4-byte Spill
	ldr	r0, [sp, #152]                  @ 4-byte Reload
	eors	r0, r2
	str	r0, [sp, #152]                  @ 4-byte Spill
	eors	r4, r0
	ldr	r0, [sp, #124]                  @ 4-byte Reload
	eors	r4, r0
	mov	r0, r4
	rors	r0, r6
	ldr	r2, .Laes_v6m_CPI24_31
	ands	r0, r2
	mov	r2, r4
	rors	r2, r5
	ldr	r5, .Laes_v6m_CPI24_32
	ands	r2, r5
	orrs	r2, r0
	eors	r2, r4
	str	r2, [sp, #60]                   @ 4-byte Spill
	eors	r1, r2
	str	r1, [sp, #124]                  @ 4-byte Spill
	ldr	r0, [sp, #64]                   @ 4-byte Reload
	mov	r1, r7
	ands	r1, r0
	eors	r1, r3
	str	r1, [sp, #84]                   @ 4-byte Spill
	ldr	r6, [sp, #108]                  @ 4-byte Reload
	eors	r6, r1
	ldr	r1, [sp, #132]                  @ 4-byte Reload
	ldr	r0, [sp, #160]                  @ 4-byte Reload
	ands	r1, r0
	ldr	r0, [sp, #100]                  @ 4-byte Reload
	eors	r1, r0
	str	r1, [sp, #132]                  @ 4-byte Spill
	ldr	r7, [sp, #176]                  @ 4-byte Reload
	mov	r0, r7
	subs	r0, #76
	ldr	r2, [r0]
	eors	r2, r1
	eors	r2, r6
	ldr	r0, [sp, #168]                  @ 4-byte Reload
	eors	r2, r0
	ldr	r0, [sp, #152]                  @ 4-byte Reload
	eors	r2, r0
	ldr	r0, [sp, #88]                   @ 4-byte Reload
	eors	r2, r0
	mov	r0, r2
	ldr	r1, [sp, #120]                  @ 4-byte Reload
	rors	r0, r1
	ldr	r1, .Laes_v6m_CPI24_31
	ands	r0, r1
	mov	r1, r2
	str	r2, [sp, #160]                  @ 4-byte Spill
	ldr	r3, [sp, #156]                  @ 4-byte Reload
	rors	r1, r3
	ldr	r3, .Laes_v6m_CPI24_32
	ands	r1, r3
	orrs	r1, r0
	eors	r1, r2
	mov	r0, r7
	subs	r0, #72
	ldr	r0, [r0]
	ldr	r2, [sp, #132]                  @ 4-byte Reload
	eors	r0, r2
	eors	r0, r6
	ldr	r2, [sp, #136]                  @ 4-byte Reload
	eors	r0, r2
	ldr	r2, [sp, #144]                  @ 4-byte Reload
	eors	r0, r2
	ldr	r2, [sp, #96]                   @ 4-byte Reload
	eors	r0, r2
	ldr	r2, [sp, #112]                  @ 4-byte Reload
	eors	r0, r2
	mov	r2, r1
	eors	r2, r0
	str	r2, [sp, #168]                  @ 4-byte Spill
	ldr	r5, [sp, #124]                  @ 4-byte Reload
	eors	r5, r2
	str	r5, [sp, #124]                  @ 4-byte Spill
	mov	r2, r5
	ldr	r3, [sp, #180]                  @ 4-byte Reload
	rors	r2, r3
	ldr	r3, .Laes_v6m_CPI24_33
	ands	r2, r3
	ldr	r3, [sp, #172]                  @ 4-byte Reload
	rors	r5, r3
	ldr	r3, .Laes_v6m_CPI24_34
	ands	r5, r3
	orrs	r5, r2
	str	r5, [sp, #148]                  @ 4-byte Spill
	subs	r7, #88
	ldr	r5, [r7]
	ldr	r2, [sp, #76]                   @ 4-byte Reload
	eors	r5, r2
	ldr	r2, [sp, #88]                   @ 4-byte Reload
	eors	r5, r2
	ldr	r2, [sp, #84]                   @ 4-byte Reload
	eors	r5, r2
	ldr	r2, [sp, #140]                  @ 4-byte Reload
	eors	r5, r2
	mov	r3, r5
	ldr	r6, [sp, #120]                  @ 4-byte Reload
	rors	r3, r6
	ldr	r2, .Laes_v6m_CPI24_31
	ands	r3, r2
	mov	r2, r5
	str	r5, [sp, #152]                  @ 4-byte Spill
	ldr	r7, [sp, #156]                  @ 4-byte Reload
	rors	r2, r7
	ldr	r7, .Laes_v6m_CPI24_32
	ands	r2, r7
	orrs	r2, r3
	eors	r2, r5
	mov	r3, r2
	str	r2, [sp, #132]                  @ 4-byte Spill
	ldr	r2, [sp, #128]                  @ 4-byte Reload
	eors	r4, r2
	eors	r4, r3
	ldr	r2, [sp, #148]                  @ 4-byte Reload
	eors	r2, r4
	ldr	r3, [sp, #124]                  @ 4-byte Reload
	eors	r2, r3
	str	r2, [sp, #148]                  @ 4-byte Spill
	eors	r4, r1
	mov	r3, r0
	rors	r3, r6
	ldr	r1, .Laes_v6m_CPI24_31
	ands	r3, r1
	mov	r1, r0
	ldr	r2, [sp, #156]                  @ 4-byte Reload
	rors	r1, r2
	ands	r1, r7
	orrs	r1, r3
	eors	r1, r0
	ldr	r0, [sp, #164]                  @ 4-byte Reload
	eors	r0, r1
	str	r0, [sp, #164]                  @ 4-byte Spill
	eors	r4, r0
	mov	r0, r4
	ldr	r6, [sp, #180]                  @ 4-byte Reload
	rors	r0, r6
	ldr	r3, .Laes_v6m_CPI24_33
	ands	r0, r3
	mov	r2, r4
	ldr	r3, [sp, #172]                  @ 4-byte Reload
	rors	r2, r3
	ldr	r5, .Laes_v6m_CPI24_34
	ands	r2, r5
	orrs	r2, r0
	ldr	r0, [sp, #176]                  @ 4-byte Reload
	subs	r0, #80
	ldr	r7, [r0]
	ldr	r0, [sp, #116]                  @ 4-byte Reload
	eors	r7, r0
	ldr	r0, [sp, #92]                   @ 4-byte Reload
	eors	r7, r0
	ldr	r0, [sp, #52]                   @ 4-byte Reload
	eors	r7, r0
	mov	r0, r7
	ldr	r3, [sp, #120]                  @ 4-byte Reload
	rors	r0, r3
	ldr	r3, .Laes_v6m_CPI24_31
	ands	r0, r3
	mov	r3, r7
	ldr	r5, [sp, #156]                  @ 4-byte Reload
	rors	r3, r5
	ldr	r5, .Laes_v6m_CPI24_32
	ands	r3, r5
	orrs	r3, r0
	eors	r3, r7
	ldr	r0, [sp, #160]                  @ 4-byte Reload
	eors	r0, r3
	str	r0, [sp, #160]                  @ 4-byte Spill
	eors	r2, r0
	eors	r2, r4
	str	r2, [sp, #112]                  @ 4-byte Spill
	mov	r0, r2
	ldr	r2, [sp, #148]                  @ 4-byte Reload
	eors	r0, r2
	str	r0, [sp, #176]                  @ 4-byte Spill
	ldr	r0, [sp, #128]                  @ 4-byte Reload
	eors	r7, r0
	ldr	r0, [sp, #60]                   @ 4-byte Reload
	eors	r7, r0
	eors	r1, r7
	mov	r0, r1
	rors	r0, r6
	ldr	r2, .Laes_v6m_CPI24_33
	ands	r0, r2
	mov	r4, r1
	ldr	r2, [sp, #172]                  @ 4-byte Reload
	rors	r4, r2
	ldr	r2, .Laes_v6m_CPI24_34
	ands	r4, r2
	orrs	r4, r0
	ldr	r2, [sp, #168]                  @ 4-byte Reload
	eors	r4, r2
	eors	r4, r1
	ldr	r0, [sp, #164]                  @ 4-byte Reload
	eors	r0, r2
	ldr	r5, [sp, #80]                   @ 4-byte Reload
	mov	r1, r5
	ldr	r2, [sp, #120]                  @ 4-byte Reload
	rors	r1, r2
	ldr	r2, .Laes_v6m_CPI24_31
	ands	r1, r2
	mov	r6, r5
	ldr	r2, [sp, #156]                  @ 4-byte Reload
	rors	r6, r2
	ldr	r2, .Laes_v6m_CPI24_32
	ands	r6, r2
	orrs	r6, r1
	eors	r6, r5
	str	r6, [sp, #140]                  @ 4-byte Spill
	mov	r1, r0
	eors	r1, r6
	mov	r5, r1
	ldr	r2, [sp, #180]                  @ 4-byte Reload
	rors	r5, r2
	ldr	r6, .Laes_v6m_CPI24_33
	ands	r5, r6
	mov	r6, r1
	ldr	r2, [sp, #172]                  @ 4-byte Reload
	rors	r6, r2
	ldr	r2, .Laes_v6m_CPI24_34
	ands	r6, r2
	orrs	r6, r5
	ldr	r5, [sp, #104]                  @ 4-byte Reload
	eors	r6, r5
	eors	r6, r1
	str	r6, [sp, #136]                  @ 4-byte Spill
	mov	r5, r6
	eors	r5, r4
	str	r5, [sp, #108]                  @ 4-byte Spill
	ldr	r1, [sp, #176]                  @ 4-byte Reload
	eors	r1, r5
	str	r1, [sp, #176]                  @ 4-byte Spill
	ldr	r1, [sp, #152]                  @ 4-byte Reload
	ldr	r2, [sp, #140]                  @ 4-byte Reload
	eors	r2, r1
	str	r2, [sp, #140]                  @ 4-byte Spill
	eors	r3, r2
	eors	r3, r0
	mov	r0, r3
	ldr	r1, [sp, #180]                  @ 4-byte Reload
	rors	r0, r1
	ldr	r2, .Laes_v6m_CPI24_33
	ands	r0, r2
	mov	r6, r3
	ldr	r5, [sp, #172]                  @ 4-byte Reload
	rors	r6, r5
	ldr	r2, .Laes_v6m_CPI24_34
	ands	r6, r2
	orrs	r6, r0
	eors	r6, r7
	eors	r6, r3
	mov	r0, r6
	ldr	r2, [sp, #148]                  @ 4-byte Reload
	eors	r0, r2
	str	r0, [sp, #144]                  @ 4-byte Spill
	ldr	r0, [sp, #68]                   @ 4-byte Reload
	ldr	r7, [sp, #168]                  @ 4-byte Reload
	eors	r7, r0
	mov	r0, r7
	rors	r0, r1
	ldr	r1, .Laes_v6m_CPI24_33
	ands	r0, r1
	mov	r3, r7
	rors	r3, r5
	ldr	r1, .Laes_v6m_CPI24_34
	ands	r3, r1
	orrs	r3, r0
	ldr	r1, [sp, #72]                   @ 4-byte Reload
	ldr	r0, [sp, #128]                  @ 4-byte Reload
	eors	r1, r0
	eors	r3, r1
	eors	r3, r7
	ldr	r5, [sp, #136]                  @ 4-byte Reload
	eors	r5, r3
	str	r5, [sp, #152]                  @ 4-byte Spill
	str	r3, [sp, #168]                  @ 4-byte Spill
	ldr	r7, [sp, #144]                  @ 4-byte Reload
	mov	r0, r7
	eors	r0, r5
	str	r0, [sp, #104]                  @ 4-byte Spill
	ldr	r2, [sp, #176]                  @ 4-byte Reload
	orrs	r0, r2
	mov	r2, r6
	eors	r2, r4
	str	r2, [sp, #116]                  @ 4-byte Spill
	mov	r5, r7
	eors	r5, r3
	str	r5, [sp, #80]                   @ 4-byte Spill
	mov	r3, r5
	ands	r3, r2
	eors	r3, r0
	ldr	r0, [sp, #132]                  @ 4-byte Reload
	eors	r1, r0
	ldr	r0, [sp, #164]                  @ 4-byte Reload
	eors	r1, r0
	mov	r0, r1
	ldr	r2, [sp, #180]                  @ 4-byte Reload
	rors	r0, r2
	ldr	r2, .Laes_v6m_CPI24_4
	ands	r0, r2
	mov	r5, r1
	ldr	r7, [sp, #172]                  @ 4-byte Reload
	rors	r5, r7
	ldr	r2, .Laes_v6m_CPI24_2
	ands	r5, r2
	orrs	r5, r0
	ldr	r0, [sp, #140]                  @ 4-byte Reload
	eors	r5, r0
	eors	r5, r1
	str	r5, [sp, #132]                  @ 4-byte Spill
	mov	r1, r6
	ldr	r0, [sp, #136]                  @ 4-byte Reload
	eors	r0, r5
	str	r0, [sp, #136]                  @ 4-byte Spill
	ldr	r6, [sp, #144]                  @ 4-byte Reload
	eors	r6, r0
	ldr	r5, [sp, #160]                  @ 4-byte Reload
	ldr	r0, [sp, #128]                  @ 4-byte Reload
	eors	r5, r0
	mov	r0, r5
	ldr	r2, [sp, #180]                  @ 4-byte Reload
	rors	r0, r2
	ldr	r2, .Laes_v6m_CPI24_4
	ands	r0, r2
	mov	r2, r5
	rors	r2, r7
	ldr	r7, .Laes_v6m_CPI24_2
	ands	r2, r7
	orrs	r2, r0
	eors	r2, r5
	ldr	r0, [sp, #164]                  @ 4-byte Reload
	eors	r2, r0
	mov	r7, r1
	eors	r7, r2
	str	r7, [sp, #160]                  @ 4-byte Spill
	eors	r7, r4
	str	r7, [sp, #100]                  @ 4-byte Spill
	ldr	r1, [sp, #148]                  @ 4-byte Reload
	eors	r7, r1
	str	r7, [sp, #76]                   @ 4-byte Spill
	str	r6, [sp, #124]                  @ 4-byte Spill
	ands	r7, r6
	eors	r4, r2
	ldr	r0, [sp, #168]                  @ 4-byte Reload
	eors	r0, r1
	str	r0, [sp, #168]                  @ 4-byte Spill
	mov	r5, r0
	eors	r5, r4
	str	r5, [sp, #164]                  @ 4-byte Spill
	eors	r6, r5
	ldr	r0, [sp, #144]                  @ 4-byte Reload
	ands	r6, r0
	eors	r7, r6
	str	r7, [sp, #140]                  @ 4-byte Spill
	eors	r3, r7
	mov	r0, r5
	ands	r0, r4
	eors	r0, r6
	ldr	r7, [sp, #132]                  @ 4-byte Reload
	ldr	r1, [sp, #112]                  @ 4-byte Reload
	eors	r7, r1
	ldr	r6, [sp, #116]                  @ 4-byte Reload
	mov	r5, r6
	eors	r5, r7
	str	r5, [sp, #96]                   @ 4-byte Spill
	ldr	r1, [sp, #152]                  @ 4-byte Reload
	eors	r6, r1
	str	r6, [sp, #92]                   @ 4-byte Spill
	eors	r1, r4
	str	r1, [sp, #152]                  @ 4-byte Spill
	ldr	r5, [sp, #96]                   @ 4-byte Reload
	ands	r5, r1
	str	r5, [sp, #128]                  @ 4-byte Spill
	eors	r7, r2
	str	r7, [sp, #132]                  @ 4-byte Spill
	ands	r6, r7
	ldr	r7, [sp, #168]                  @ 4-byte Reload
	eors	r6, r7
	eors	r6, r5
	eors	r6, r0
	mov	r1, r6
	ands	r1, r3
	str	r1, [sp, #148]                  @ 4-byte Spill
	ldr	r2, [sp, #104]                  @ 4-byte Reload
	ldr	r5, [sp, #176]                  @ 4-byte Reload
	ands	r2, r5
	ldr	r1, [sp, #108]                  @ 4-byte Reload
	eors	r7, r1
	mov	r1, r7
	str	r7, [sp, #168]                  @ 4-byte Spill
	ldr	r7, [sp, #92]                   @ 4-byte Reload
	ldr	r5, [sp, #112]                  @ 4-byte Reload
	eors	r7, r5
	str	r7, [sp, #72]                   @ 4-byte Spill
	ands	r7, r1
	eors	r7, r2
	eors	r7, r5
	ldr	r2, [sp, #144]                  @ 4-byte Reload
	eors	r7, r2
	eors	r7, r0
	mov	r1, r7
	eors	r1, r3
	ldr	r5, [sp, #148]                  @ 4-byte Reload
	ands	r5, r1
	ldr	r2, [sp, #100]                  @ 4-byte Reload
	ldr	r0, [sp, #160]                  @ 4-byte Reload
	ands	r2, r0
	ldr	r0, [sp, #164]                  @ 4-byte Reload
	eors	r2, r0
	ldr	r0, [sp, #136]                  @ 4-byte Reload
	eors	r2, r0
	ldr	r0, [sp, #128]                  @ 4-byte Reload
	eors	r2, r0
	ldr	r0, [sp, #140]                  @ 4-byte Reload
	eors	r2, r0
	ands	r3, r2
	mov	r0, r5
	eors	r0, r3
	eors	r0, r1
	mov	r5, r0
	str	r0, [sp, #148]                  @ 4-byte Spill
	mov	r0, r7
	ands	r0, r2
	eors	r2, r6
	ands	r0, r2
	eors	r0, r3
	eors	r0, r2
	str	r0, [sp, #112]                  @ 4-byte Spill
	eors	r0, r5
	b	.Laes_v6m_BB24_37
	.p2align	2
@ %bb.33:
.Laes_v6m_CPI24_31:
	.long	3233857728                      @ 0xc0c0c0c0
	.p2align	2
@ %bb.34:
.Laes_v6m_CPI24_32:
	.long	1061109567                      @ 0x3f3f3f3f
	.p2align	2
@ %bb.35:
.Laes_v6m_CPI24_33:
	.long	4042322160                      @ 0xf0f0f0f0
	.p2align	2
@ %bb.36:
.Laes_v6m_CPI24_34:
	.long	252645135                       @ 0xf0f0f0f
	.p2align	1
.Laes_v6m_BB24_37:                              @ %join.10.i
                                        @   in Loop: Header=BB24_24 Depth=1
	str	r0, [sp, #84]                   @ 4-byte Spill
	ands	r4, r0
	mov	r0, r3
	eors	r0, r6
	ands	r0, r1
	eors	r0, r7
	eors	r5, r0
	str	r5, [sp, #140]                  @ 4-byte Spill
	mov	r1, r0
	str	r0, [sp, #128]                  @ 4-byte Spill
	ldr	r0, [sp, #152]                  @ 4-byte Reload
	ands	r0, r5
	eors	r0, r4
	str	r0, [sp, #152]                  @ 4-byte Spill
	ldr	r0, [sp, #84]                   @ 4-byte Reload
	ldr	r5, [sp, #164]                  @ 4-byte Reload
	ands	r0, r5
	str	r0, [sp, #88]                   @ 4-byte Spill
	ldr	r0, [sp, #132]                  @ 4-byte Reload
	ands	r0, r1
	str	r0, [sp, #132]                  @ 4-byte Spill
	ldr	r5, [sp, #160]                  @ 4-byte Reload
	ldr	r1, [sp, #148]                  @ 4-byte Reload
	ands	r5, r1
	eors	r5, r0
	str	r5, [sp, #160]                  @ 4-byte Spill
	ldr	r0, [sp, #116]                  @ 4-byte Reload
	ldr	r1, [sp, #112]                  @ 4-byte Reload
	ands	r0, r1
	str	r0, [sp, #116]                  @ 4-byte Spill
	mov	r1, r5
	eors	r1, r0
	ldr	r0, [sp, #88]                   @ 4-byte Reload
	eors	r1, r0
	ldr	r0, [sp, #152]                  @ 4-byte Reload
	eors	r1, r0
	eors	r3, r7
	ands	r3, r2
	eors	r3, r6
	ldr	r0, [sp, #112]                  @ 4-byte Reload
	eors	r0, r3
	str	r0, [sp, #108]                  @ 4-byte Spill
	ldr	r2, [sp, #176]                  @ 4-byte Reload
	ands	r2, r0
	str	r2, [sp, #176]                  @ 4-byte Spill
	mov	r7, r3
	ldr	r0, [sp, #128]                  @ 4-byte Reload
	eors	r7, r0
	ldr	r0, [sp, #136]                  @ 4-byte Reload
	ldr	r5, [sp, #164]                  @ 4-byte Reload
	eors	r5, r0
	ands	r5, r7
	str	r5, [sp, #164]                  @ 4-byte Spill
	ldr	r0, [sp, #168]                  @ 4-byte Reload
	ands	r0, r3
	eors	r0, r5
	eors	r0, r2
	mov	r5, r0
	ldr	r6, [sp, #80]                   @ 4-byte Reload
	ldr	r2, [sp, #112]                  @ 4-byte Reload
	ands	r2, r6
	ldr	r0, [sp, #148]                  @ 4-byte Reload
	ldr	r6, [sp, #100]                  @ 4-byte Reload
	ands	r0, r6
	eors	r0, r2
	str	r0, [sp, #148]                  @ 4-byte Spill
	eors	r5, r0
	str	r5, [sp, #168]                  @ 4-byte Spill
	eors	r1, r5
	str	r1, [sp, #112]                  @ 4-byte Spill
	ldr	r6, [sp, #104]                  @ 4-byte Reload
	ldr	r0, [sp, #108]                  @ 4-byte Reload
	ands	r0, r6
	str	r0, [sp, #108]                  @ 4-byte Spill
	ldr	r6, [sp, #164]                  @ 4-byte Reload
	ldr	r1, [sp, #116]                  @ 4-byte Reload
	eors	r6, r1
	eors	r6, r0
	str	r6, [sp, #164]                  @ 4-byte Spill
	ldr	r5, [sp, #84]                   @ 4-byte Reload
	eors	r5, r7
	ldr	r1, [sp, #124]                  @ 4-byte Reload
	ands	r1, r5
	eors	r1, r2
	eors	r1, r6
	str	r1, [sp, #124]                  @ 4-byte Spill
	ldr	r0, [sp, #96]                   @ 4-byte Reload
	ldr	r2, [sp, #140]                  @ 4-byte Reload
	ands	r2, r0
	str	r2, [sp, #140]                  @ 4-byte Spill
	ldr	r0, [sp, #72]                   @ 4-byte Reload
	ands	r3, r0
	eors	r2, r3
	eors	r4, r2
	ldr	r1, [sp, #92]                   @ 4-byte Reload
	ldr	r0, [sp, #128]                  @ 4-byte Reload
	ands	r0, r1
	str	r0, [sp, #128]                  @ 4-byte Spill
	ldr	r6, [sp, #160]                  @ 4-byte Reload
	eors	r6, r0
	eors	r4, r6
	ldr	r0, [sp, #124]                  @ 4-byte Reload
	eors	r4, r0
	ldr	r1, [sp, #76]                   @ 4-byte Reload
	ands	r5, r1
	mov	r1, r5
	ldr	r0, [sp, #176]                  @ 4-byte Reload
	eors	r1, r0
	ldr	r0, [sp, #124]                  @ 4-byte Reload
	eors	r1, r0
	str	r1, [sp, #116]                  @ 4-byte Spill
	ldr	r0, [sp, #88]                   @ 4-byte Reload
	eors	r5, r0
	ldr	r0, [sp, #108]                  @ 4-byte Reload
	eors	r6, r0
	eors	r6, r5
	ldr	r0, [sp, #168]                  @ 4-byte Reload
	eors	r6, r0
	str	r6, [sp, #160]                  @ 4-byte Spill
	ldr	r6, [sp, #36]                   @ 4-byte Reload
	ldr	r0, [sp, #164]                  @ 4-byte Reload
	eors	r5, r0
	ldr	r0, [sp, #176]                  @ 4-byte Reload
	eors	r3, r0
	eors	r3, r5
	ldr	r0, [sp, #140]                  @ 4-byte Reload
	ldr	r1, [sp, #132]                  @ 4-byte Reload
	eors	r0, r1
	eors	r0, r5
	str	r0, [sp, #140]                  @ 4-byte Spill
	ldr	r0, [sp, #148]                  @ 4-byte Reload
	eors	r2, r0
	eors	r2, r5
	ldr	r5, [sp, #12]                   @ 4-byte Reload
	str	r2, [sp, #164]                  @ 4-byte Spill
	ldr	r0, [sp, #144]                  @ 4-byte Reload
	ands	r7, r0
	ldr	r0, [sp, #128]                  @ 4-byte Reload
	eors	r7, r0
	ldr	r0, [sp, #152]                  @ 4-byte Reload
	eors	r7, r0
	adds	r6, r6, #1
	ldr	r0, [sp, #4]                    @ 4-byte Reload
	ldr	r2, [sp, #32]                   @ 4-byte Reload
	adcs	r2, r0
	subs	r0, r6, r5
	mov	r1, r2
	mov	r0, r2
	ldr	r2, [sp, #8]                    @ 4-byte Reload
	sbcs	r0, r2
	bhs	.Laes_v6m_BB24_39
	bl	.Laes_v6m_BB24_24
.Laes_v6m_BB24_38:
	ldr	r4, [sp, #144]                  @ 4-byte Reload
	mov	r7, r3
	ldr	r3, [sp, #176]                  @ 4-byte Reload
.Laes_v6m_BB24_39:                              @ %"aes_soft::soft::ciphers::planes::DecryptPlaneCipher::process_planes::<#42add9d049d0c5fd>.exit"
	ldr	r6, [sp, #16]                   @ 4-byte Reload
	ldr	r2, [r6, #28]
	eors	r2, r3
	ldr	r1, [r6, #24]
	ldr	r0, [sp, #112]                  @ 4-byte Reload
	eors	r1, r0
	str	r1, [sp, #180]                  @ 4-byte Spill
	lsrs	r0, r1, #1
	eors	r0, r2
	ldr	r1, .Laes_v6m_CPI24_0
	ands	r0, r1
	str	r0, [sp, #176]                  @ 4-byte Spill
	eors	r2, r0
	ldr	r5, [r6, #20]
	ldr	r0, [sp, #160]                  @ 4-byte Reload
	eors	r5, r0
	ldr	r3, [r6, #16]
	mov	r1, r6
	ldr	r0, [sp, #140]                  @ 4-byte Reload
	eors	r3, r0
	str	r3, [sp, #172]                  @ 4-byte Spill
	lsrs	r0, r3, #1
	eors	r0, r5
	ldr	r3, .Laes_v6m_CPI24_0
	ands	r0, r3
	str	r0, [sp, #168]                  @ 4-byte Spill
	eors	r5, r0
	str	r5, [sp, #152]                  @ 4-byte Spill
	lsrs	r3, r5, #2
	eors	r3, r2
	ldr	r5, .Laes_v6m_CPI24_1
	ands	r3, r5
	str	r3, [sp, #144]                  @ 4-byte Spill
	eors	r2, r3
	ldr	r6, [r6, #12]
	eors	r6, r4
	ldr	r3, [r1, #8]
	ldr	r0, [sp, #164]                  @ 4-byte Reload
	eors	r3, r0
	str	r3, [sp, #164]                  @ 4-byte Spill
	lsrs	r0, r3, #1
	eors	r0, r6
	ldr	r4, .Laes_v6m_CPI24_0
	ands	r0, r4
	str	r0, [sp, #160]                  @ 4-byte Spill
	eors	r6, r0
	ldr	r3, [r1, #4]
	ldr	r0, [sp, #116]                  @ 4-byte Reload
	eors	r3, r0
	ldr	r0, [r1]
	eors	r0, r7
	str	r0, [sp, #156]                  @ 4-byte Spill
	lsrs	r0, r0, #1
	eors	r0, r3
	ands	r0, r4
	str	r0, [sp, #148]                  @ 4-byte Spill
	eors	r3, r0
	lsrs	r0, r3, #2
	eors	r0, r6
	ands	r0, r5
	eors	r6, r0
	lsrs	r1, r6, #4
	eors	r1, r2
	ldr	r4, .Laes_v6m_CPI24_2
	ands	r1, r4
	eors	r2, r1
	ldr	r4, [sp]                        @ 4-byte Reload
	strb	r2, [r4, #28]
	lsrs	r5, r2, #24
	strb	r5, [r4, #31]
	lsrs	r5, r2, #16
	strb	r5, [r4, #30]
	lsrs	r5, r2, #8
	strb	r5, [r4, #29]
	ldr	r2, [sp, #144]                  @ 4-byte Reload
	lsls	r7, r2, #2
	ldr	r2, [sp, #152]                  @ 4-byte Reload
	eors	r7, r2
	lsls	r0, r0, #2
	eors	r0, r3
	str	r0, [sp, #152]                  @ 4-byte Spill
	lsrs	r0, r0, #4
	eors	r0, r7
	ldr	r2, .Laes_v6m_CPI24_2
	ands	r0, r2
	str	r0, [sp, #144]                  @ 4-byte Spill
	eors	r7, r0
	strb	r7, [r4, #24]
	lsls	r0, r1, #4
	eors	r0, r6
	str	r0, [sp, #140]                  @ 4-byte Spill
	strb	r0, [r4, #20]
	ldr	r0, [sp, #176]                  @ 4-byte Reload
	lsls	r6, r0, #1
	ldr	r0, [sp, #180]                  @ 4-byte Reload
	eors	r6, r0
	ldr	r0, [sp, #168]                  @ 4-byte Reload
	lsls	r3, r0, #1
	ldr	r0, [sp, #172]                  @ 4-byte Reload
	eors	r3, r0
	str	r3, [sp, #180]                  @ 4-byte Spill
	lsrs	r0, r3, #2
	eors	r0, r6
	ldr	r5, .Laes_v6m_CPI24_1
	ands	r0, r5
	str	r0, [sp, #176]                  @ 4-byte Spill
	eors	r6, r0
	ldr	r0, [sp, #160]                  @ 4-byte Reload
	lsls	r3, r0, #1
	ldr	r0, [sp, #164]                  @ 4-byte Reload
	eors	r3, r0
	ldr	r0, [sp, #148]                  @ 4-byte Reload
	lsls	r1, r0, #1
	ldr	r0, [sp, #156]                  @ 4-byte Reload
	eors	r1, r0
	str	r1, [sp, #172]                  @ 4-byte Spill
	lsrs	r0, r1, #2
	eors	r0, r3
	ands	r0, r5
	eors	r3, r0
	lsrs	r5, r3, #4
	eors	r5, r6
	ands	r5, r2
	eors	r6, r5
	strb	r6, [r4, #12]
	lsrs	r2, r7, #24
	strb	r2, [r4, #27]
	lsrs	r2, r7, #16
	strb	r2, [r4, #26]
	lsrs	r2, r7, #8
	strb	r2, [r4, #25]
	ldr	r1, [sp, #140]                  @ 4-byte Reload
	lsrs	r2, r1, #24
	strb	r2, [r4, #23]
	lsrs	r2, r1, #16
	strb	r2, [r4, #22]
	lsrs	r1, r1, #8
	strb	r1, [r4, #21]
	ldr	r1, [sp, #144]                  @ 4-byte Reload
	lsls	r1, r1, #4
	ldr	r2, [sp, #152]                  @ 4-byte Reload
	eors	r1, r2
	strb	r1, [r4, #16]
	lsrs	r2, r6, #24
	strb	r2, [r4, #15]
	lsrs	r2, r6, #16
	strb	r2, [r4, #14]
	lsrs	r2, r6, #8
	strb	r2, [r4, #13]
	ldr	r2, [sp, #176]                  @ 4-byte Reload
	lsls	r6, r2, #2
	ldr	r2, [sp, #180]                  @ 4-byte Reload
	eors	r6, r2
	lsls	r0, r0, #2
	ldr	r2, [sp, #172]                  @ 4-byte Reload
	eors	r0, r2
	lsrs	r2, r0, #4
	eors	r2, r6
	ldr	r7, .Laes_v6m_CPI24_2
	ands	r2, r7
	eors	r6, r2
	strb	r6, [r4, #8]
	lsls	r5, r5, #4
	eors	r5, r3
	strb	r5, [r4, #4]
	lsrs	r3, r1, #24
	strb	r3, [r4, #19]
	lsrs	r3, r1, #16
	strb	r3, [r4, #18]
	lsrs	r1, r1, #8
	strb	r1, [r4, #17]
	lsrs	r1, r6, #24
	strb	r1, [r4, #11]
	lsrs	r1, r6, #16
	strb	r1, [r4, #10]
	lsrs	r1, r6, #8
	strb	r1, [r4, #9]
	lsrs	r1, r5, #24
	strb	r1, [r4, #7]
	lsrs	r1, r5, #16
	strb	r1, [r4, #6]
	lsrs	r1, r5, #8
	strb	r1, [r4, #5]
	lsls	r1, r2, #4
	eors	r1, r0
	strb	r1, [r4]
	lsrs	r0, r1, #24
	strb	r0, [r4, #3]
	lsrs	r0, r1, #16
	strb	r0, [r4, #2]
	lsrs	r0, r1, #8
	strb	r0, [r4, #1]
	add	sp, #184
	pop	{r4, r5, r6, r7, pc}
	.p2align	2
@ %bb.40:
.Laes_v6m_CPI24_0:
	.long	1431655765                      @ 0x55555555
.Laes_v6m_CPI24_1:
	.long	858993459                       @ 0x33333333
.Laes_v6m_CPI24_2:
	.long	252645135                       @ 0xf0f0f0f
.Laes_v6m_CPI24_4:
	.long	4042322160                      @ 0xf0f0f0f0
.Laes_v6m_func_end24:
	.size	aes_v6m.aes_soft.soft.ciphers.planes.process_outlined.2, .Laes_v6m_func_end24-aes_v6m.aes_soft.soft.ciphers.planes.process_outlined.2
	.cantunwind
	.fnend
                                        @ -- End function
	.section	.text.aes_v6m.aes_narrow.blocks.process_all_batches.2,"ax",%progbits
	.p2align	1                               @ -- Begin function aes_narrow::blocks::process_all_batches::<#a3dcb71d05bd149b>
	.type	aes_v6m.aes_narrow.blocks.process_all_batches.2,%function
	.code	16
	.thumb_func
aes_v6m.aes_narrow.blocks.process_all_batches.2: @ @aes_v6m.aes_narrow.blocks.process_all_batches.2
	.fnstart
@ %bb.0:                                @ %start
	.save	{r4, r5, r6, r7, lr}
	push	{r4, r5, r6, r7, lr}
	.pad	#44
	sub	sp, #44
	add	r1, sp, #32
	stm	r1!, {r0, r2, r3}               @ 12-byte Folded Spill
	ldr	r1, [sp, #76]
	ldr	r7, [sp, #72]
	mov	r0, r7
	orrs	r0, r1
	beq	.Laes_v6m_BB25_7
@ %bb.1:                                @ %join.5.preheader
	ldr	r0, [sp, #64]
	str	r0, [sp, #24]                   @ 4-byte Spill
	movs	r3, #0
	mov	r6, r3
	mov	r5, r3
	str	r1, [sp, #28]                   @ 4-byte Spill
	str	r3, [sp, #20]                   @ 4-byte Spill
	b	.Laes_v6m_BB25_3
.Laes_v6m_BB25_2:                               @ %join.5
                                        @   in Loop: Header=BB25_3 Depth=1
	str	r4, [sp, #8]
	add	r3, sp, #32
	ldm	r3, {r0, r2, r3}                @ 12-byte Folded Reload
	bl	aes_v6m.aes_soft.soft.blocks.filled_up.process_filled_up.2
	adds	r6, r4, r6
	ldr	r3, [sp, #20]                   @ 4-byte Reload
	adcs	r5, r3
	subs	r0, r6, r7
	mov	r0, r5
	ldr	r1, [sp, #28]                   @ 4-byte Reload
	sbcs	r0, r1
	bhs	.Laes_v6m_BB25_7
.Laes_v6m_BB25_3:                               @ %join.5
                                        @ =>This Inner Loop Header: Depth=1
	str	r3, [sp, #12]
	lsls	r0, r6, #4
	ldr	r3, [sp, #24]                   @ 4-byte Reload
	adds	r0, r3, r0
	str	r0, [sp]
	subs	r4, r7, r6
	sbcs	r1, r5
	movs	r0, #2
	cmp	r4, #2
	blo	.Laes_v6m_BB25_5
@ %bb.4:                                @ %join.5
                                        @   in Loop: Header=BB25_3 Depth=1
	mov	r4, r0
.Laes_v6m_BB25_5:                               @ %join.5
                                        @   in Loop: Header=BB25_3 Depth=1
	cmp	r1, #0
	beq	.Laes_v6m_BB25_2
@ %bb.6:                                @ %join.5
                                        @   in Loop: Header=BB25_3 Depth=1
	mov	r4, r0
	b	.Laes_v6m_BB25_2
.Laes_v6m_BB25_7:                               @ %after.1
	add	sp, #44
	pop	{r4, r5, r6, r7, pc}
.Laes_v6m_func_end25:
	.size	aes_v6m.aes_narrow.blocks.process_all_batches.2, .Laes_v6m_func_end25-aes_v6m.aes_narrow.blocks.process_all_batches.2
	.cantunwind
	.fnend
                                        @ -- End function
	.section	.text.aes_v6m.key_wrap.wrapping.unwrap,"ax",%progbits
	.p2align	2                               @ -- Begin function key_wrap::wrapping::unwrap::<#10c636071cb6e37c>
	.type	aes_v6m.key_wrap.wrapping.unwrap,%function
	.code	16
	.thumb_func
aes_v6m.key_wrap.wrapping.unwrap: @ @aes_v6m.key_wrap.wrapping.unwrap
	.fnstart
@ %bb.0:                                @ %start
	.save	{r4, r5, r6, r7, lr}
	push	{r4, r5, r6, r7, lr}
	.pad	#100
	sub	sp, #100
	str	r1, [sp, #32]                   @ 4-byte Spill
	str	r0, [sp, #24]                   @ 4-byte Spill
	movs	r5, #0
	ldr	r7, [sp, #132]
	ldr	r4, [sp, #128]
	adds	r0, r4, #1
	mov	r1, r7
	adcs	r1, r5
	movs	r6, #1
	str	r4, [sp, #28]                   @ 4-byte Spill
	subs	r4, r4, #2
	mov	r4, r7
	sbcs	r4, r5
	bhs	.Laes_v6m_BB26_1
	b	.Laes_v6m_BB26_21
.Laes_v6m_BB26_1:                               @ %start
	eors	r0, r2
	eors	r1, r3
	orrs	r1, r0
	beq	.Laes_v6m_BB26_2
	b	.Laes_v6m_BB26_21
.Laes_v6m_BB26_2:                               @ %after.1
	str	r7, [sp, #20]                   @ 4-byte Spill
	ldr	r6, [sp, #120]
	movs	r5, #0
	subs	r0, r2, #1
	sbcs	r3, r5
	str	r3, [sp, #44]                   @ 4-byte Spill
	lsls	r1, r3, #3
	lsrs	r2, r0, #29
	adds	r3, r1, r2
	ldr	r1, [sp, #32]                   @ 4-byte Reload
	adds	r1, #8
	subs	r4, r6, r1
	mov	r7, r5
	sbcs	r7, r5
	lsls	r2, r0, #3
	subs	r4, r4, r2
	sbcs	r7, r3
	str	r6, [sp, #52]                   @ 4-byte Spill
	blo	.Laes_v6m_BB26_3
	b	.Laes_v6m_BB26_14
.Laes_v6m_BB26_3:                               @ %join.7.i.i.i.i.i.i.i.i.preheader
	str	r1, [sp, #48]                   @ 4-byte Spill
	movs	r2, #1
	cmp	r0, #1
	mov	r7, r0
	bhi	.Laes_v6m_BB26_4
	b	.Laes_v6m_BB26_24
.Laes_v6m_BB26_4:                               @ %join.7.i.i.i.i.i.i.i.i.preheader
	ldr	r3, [sp, #44]                   @ 4-byte Reload
	cmp	r3, #0
	mov	r4, r0
	bne	.Laes_v6m_BB26_5
	b	.Laes_v6m_BB26_25
.Laes_v6m_BB26_5:                               @ %join.7.i.i.i.i.i.i.i.i.preheader
	beq	.Laes_v6m_BB26_7
.Laes_v6m_BB26_6:                               @ %join.7.i.i.i.i.i.i.i.i.preheader
	mov	r7, r4
.Laes_v6m_BB26_7:                               @ %join.7.i.i.i.i.i.i.i.i.preheader
	movs	r4, #3
	mov	r2, r7
	ands	r2, r4
	movs	r1, #0
	subs	r0, r0, #4
	mov	r0, r3
	str	r1, [sp, #40]                   @ 4-byte Spill
	sbcs	r0, r1
	str	r5, [sp, #16]                   @ 4-byte Spill
	ldr	r1, [sp, #48]                   @ 4-byte Reload
	str	r2, [sp, #12]                   @ 4-byte Spill
	bhs	.Laes_v6m_BB26_8
	b	.Laes_v6m_BB26_11
.Laes_v6m_BB26_8:                               @ %join.7.i.i.i.i.i.i.i.i.preheader.new
	bics	r7, r4
	str	r7, [sp, #36]                   @ 4-byte Spill
	ldr	r0, [sp, #40]                   @ 4-byte Reload
	mov	r4, r0
	mov	r2, r0
.Laes_v6m_BB26_9:                               @ %join.7.i.i.i.i.i.i.i.i
                                        @ =>This Inner Loop Header: Depth=1
	str	r2, [sp, #72]                   @ 4-byte Spill
	str	r4, [sp, #76]                   @ 4-byte Spill
	lsls	r0, r4, #3
	ldr	r7, [sp, #48]                   @ 4-byte Reload
	adds	r1, r7, r0
	ldrb	r2, [r1, #1]
	str	r2, [sp, #68]                   @ 4-byte Spill
	ldrb	r2, [r1, #2]
	str	r2, [sp, #64]                   @ 4-byte Spill
	ldrb	r2, [r1, #3]
	str	r2, [sp, #60]                   @ 4-byte Spill
	ldrb	r3, [r1, #4]
	ldrb	r2, [r1, #5]
	ldrb	r5, [r1, #6]
	ldrb	r1, [r1, #7]
	ldrb	r6, [r7, r0]
	ldr	r4, [sp, #52]                   @ 4-byte Reload
	strb	r6, [r4, r0]
	adds	r6, r4, r0
	strb	r1, [r6, #7]
	strb	r5, [r6, #6]
	strb	r2, [r6, #5]
	strb	r3, [r6, #4]
	ldr	r1, [sp, #60]                   @ 4-byte Reload
	strb	r1, [r6, #3]
	ldr	r1, [sp, #64]                   @ 4-byte Reload
	strb	r1, [r6, #2]
	ldr	r1, [sp, #68]                   @ 4-byte Reload
	strb	r1, [r6, #1]
	movs	r1, #8
	orrs	r1, r0
	adds	r2, r7, r1
	ldrb	r3, [r2, #4]
	str	r3, [sp, #68]                   @ 4-byte Spill
	ldrb	r3, [r2, #5]
	str	r3, [sp, #64]                   @ 4-byte Spill
	ldrb	r3, [r2, #7]
	str	r3, [sp, #60]                   @ 4-byte Spill
	ldrb	r3, [r2, #6]
	str	r3, [sp, #56]                   @ 4-byte Spill
	ldrb	r5, [r2, #1]
	ldrb	r3, [r2, #2]
	ldrb	r2, [r2, #3]
	ldrb	r6, [r7, r1]
	strb	r6, [r4, r1]
	adds	r1, r4, r1
	strb	r2, [r1, #3]
	strb	r3, [r1, #2]
	strb	r5, [r1, #1]
	ldr	r2, [sp, #56]                   @ 4-byte Reload
	strb	r2, [r1, #6]
	ldr	r2, [sp, #60]                   @ 4-byte Reload
	strb	r2, [r1, #7]
	ldr	r2, [sp, #64]                   @ 4-byte Reload
	strb	r2, [r1, #5]
	ldr	r2, [sp, #68]                   @ 4-byte Reload
	strb	r2, [r1, #4]
	movs	r1, #16
	orrs	r1, r0
	adds	r2, r7, r1
	ldrb	r3, [r2, #7]
	str	r3, [sp, #68]                   @ 4-byte Spill
	ldrb	r3, [r2, #6]
	str	r3, [sp, #64]                   @ 4-byte Spill
	ldrb	r3, [r2, #1]
	str	r3, [sp, #60]                   @ 4-byte Spill
	ldrb	r3, [r2, #2]
	str	r3, [sp, #56]                   @ 4-byte Spill
	ldrb	r6, [r2, #3]
	ldrb	r3, [r2, #4]
	ldrb	r2, [r2, #5]
	ldrb	r5, [r7, r1]
	strb	r5, [r4, r1]
	adds	r1, r4, r1
	strb	r2, [r1, #5]
	strb	r3, [r1, #4]
	strb	r6, [r1, #3]
	ldr	r2, [sp, #56]                   @ 4-byte Reload
	strb	r2, [r1, #2]
	ldr	r2, [sp, #60]                   @ 4-byte Reload
	strb	r2, [r1, #1]
	ldr	r2, [sp, #64]                   @ 4-byte Reload
	strb	r2, [r1, #6]
	ldr	r2, [sp, #68]                   @ 4-byte Reload
	strb	r2, [r1, #7]
	movs	r1, #24
	orrs	r1, r0
	adds	r0, r7, r1
	ldrb	r2, [r0, #1]
	str	r2, [sp, #68]                   @ 4-byte Spill
	ldrb	r2, [r0, #2]
	str	r2, [sp, #64]                   @ 4-byte Spill
	ldrb	r2, [r0, #3]
	str	r2, [sp, #60]                   @ 4-byte Spill
	ldrb	r5, [r0, #4]
	ldrb	r6, [r0, #5]
	ldrb	r2, [r0, #6]
	ldrb	r0, [r0, #7]
	ldrb	r3, [r7, r1]
	strb	r3, [r4, r1]
	adds	r1, r4, r1
	strb	r0, [r1, #7]
	strb	r2, [r1, #6]
	ldr	r2, [sp, #72]                   @ 4-byte Reload
	strb	r6, [r1, #5]
	strb	r5, [r1, #4]
	ldr	r0, [sp, #60]                   @ 4-byte Reload
	strb	r0, [r1, #3]
	ldr	r4, [sp, #76]                   @ 4-byte Reload
	ldr	r0, [sp, #64]                   @ 4-byte Reload
	strb	r0, [r1, #2]
	ldr	r0, [sp, #68]                   @ 4-byte Reload
	strb	r0, [r1, #1]
	adds	r4, r4, #4
	ldr	r0, [sp, #40]                   @ 4-byte Reload
	adcs	r2, r0
	mov	r0, r2
	ldr	r1, [sp, #44]                   @ 4-byte Reload
	eors	r0, r1
	mov	r1, r4
	ldr	r3, [sp, #36]                   @ 4-byte Reload
	eors	r1, r3
	orrs	r1, r0
	bne	.Laes_v6m_BB26_9
@ %bb.10:                               @ %"key_wrap::wrapping::unwrap_all::<#10c636071cb6e37c>.exit.loopexit.unr-lcssa"
	ldr	r2, [sp, #12]                   @ 4-byte Reload
	cmp	r2, #0
	str	r4, [sp, #40]                   @ 4-byte Spill
	ldr	r5, [sp, #16]                   @ 4-byte Reload
	ldr	r6, [sp, #52]                   @ 4-byte Reload
	ldr	r1, [sp, #48]                   @ 4-byte Reload
	beq	.Laes_v6m_BB26_15
.Laes_v6m_BB26_11:                              @ %join.7.i.i.i.i.i.i.i.i.epil.preheader
	ldr	r0, [sp, #40]                   @ 4-byte Reload
	lsls	r0, r0, #3
	adds	r1, r1, r0
	ldrb	r3, [r1, #1]
	str	r3, [sp, #76]                   @ 4-byte Spill
	ldrb	r3, [r1, #3]
	str	r3, [sp, #72]                   @ 4-byte Spill
	ldrb	r3, [r1, #2]
	str	r3, [sp, #68]                   @ 4-byte Spill
	ldrb	r5, [r1, #5]
	ldrb	r6, [r1, #4]
	ldrb	r7, [r1, #7]
	ldrb	r1, [r1, #6]
	mov	r4, r2
	ldr	r2, [sp, #48]                   @ 4-byte Reload
	ldrb	r2, [r2, r0]
	ldr	r3, [sp, #52]                   @ 4-byte Reload
	strb	r2, [r3, r0]
	ldr	r2, [sp, #52]                   @ 4-byte Reload
	adds	r2, r2, r0
	strb	r1, [r2, #6]
	strb	r7, [r2, #7]
	ldr	r3, [sp, #48]                   @ 4-byte Reload
	strb	r6, [r2, #4]
	ldr	r6, [sp, #52]                   @ 4-byte Reload
	strb	r5, [r2, #5]
	ldr	r5, [sp, #16]                   @ 4-byte Reload
	ldr	r1, [sp, #68]                   @ 4-byte Reload
	strb	r1, [r2, #2]
	ldr	r1, [sp, #72]                   @ 4-byte Reload
	strb	r1, [r2, #3]
	ldr	r1, [sp, #76]                   @ 4-byte Reload
	strb	r1, [r2, #1]
	cmp	r4, #1
	beq	.Laes_v6m_BB26_15
@ %bb.12:                               @ %join.7.i.i.i.i.i.i.i.i.epil.1
	mov	r1, r0
	adds	r1, #8
	adds	r2, r3, r1
	ldrb	r3, [r2, #1]
	str	r3, [sp, #76]                   @ 4-byte Spill
	ldrb	r3, [r2, #3]
	str	r3, [sp, #72]                   @ 4-byte Spill
	ldrb	r3, [r2, #2]
	str	r3, [sp, #68]                   @ 4-byte Spill
	ldrb	r6, [r2, #5]
	ldrb	r7, [r2, #4]
	ldrb	r3, [r2, #7]
	ldrb	r2, [r2, #6]
	ldr	r4, [sp, #48]                   @ 4-byte Reload
	ldrb	r4, [r4, r1]
	ldr	r5, [sp, #52]                   @ 4-byte Reload
	strb	r4, [r5, r1]
	ldr	r4, [sp, #52]                   @ 4-byte Reload
	adds	r1, r4, r1
	strb	r2, [r1, #6]
	strb	r3, [r1, #7]
	strb	r7, [r1, #4]
	ldr	r2, [sp, #48]                   @ 4-byte Reload
	strb	r6, [r1, #5]
	ldr	r6, [sp, #52]                   @ 4-byte Reload
	ldr	r3, [sp, #68]                   @ 4-byte Reload
	strb	r3, [r1, #2]
	ldr	r5, [sp, #16]                   @ 4-byte Reload
	ldr	r3, [sp, #72]                   @ 4-byte Reload
	strb	r3, [r1, #3]
	ldr	r3, [sp, #76]                   @ 4-byte Reload
	strb	r3, [r1, #1]
	ldr	r1, [sp, #12]                   @ 4-byte Reload
	cmp	r1, #2
	beq	.Laes_v6m_BB26_15
@ %bb.13:                               @ %join.7.i.i.i.i.i.i.i.i.epil.2
	adds	r0, #16
	adds	r1, r2, r0
	ldrb	r3, [r1, #1]
	str	r3, [sp, #76]                   @ 4-byte Spill
	ldrb	r3, [r1, #3]
	str	r3, [sp, #72]                   @ 4-byte Spill
	ldrb	r4, [r1, #2]
	ldrb	r5, [r1, #5]
	ldrb	r6, [r1, #4]
	ldrb	r7, [r1, #7]
	ldrb	r1, [r1, #6]
	ldrb	r2, [r2, r0]
	ldr	r3, [sp, #52]                   @ 4-byte Reload
	strb	r2, [r3, r0]
	ldr	r2, [sp, #52]                   @ 4-byte Reload
	adds	r0, r2, r0
	strb	r1, [r0, #6]
	strb	r7, [r0, #7]
	strb	r6, [r0, #4]
	ldr	r6, [sp, #52]                   @ 4-byte Reload
	strb	r5, [r0, #5]
	ldr	r5, [sp, #16]                   @ 4-byte Reload
	strb	r4, [r0, #2]
	ldr	r1, [sp, #72]                   @ 4-byte Reload
	strb	r1, [r0, #3]
	ldr	r1, [sp, #76]                   @ 4-byte Reload
	strb	r1, [r0, #1]
	b	.Laes_v6m_BB26_15
.Laes_v6m_BB26_14:                              @ %apart.2.i.i.i.i.i.i.i.i
	mov	r0, r6
	bl	memmove
.Laes_v6m_BB26_15:                              @ %"key_wrap::wrapping::unwrap_all::<#10c636071cb6e37c>.exit"
	ldr	r0, [sp, #32]                   @ 4-byte Reload
	ldrb	r1, [r0, #4]
	ldrb	r2, [r0, #5]
	lsls	r2, r2, #8
	adds	r1, r2, r1
	ldrb	r2, [r0, #6]
	lsls	r2, r2, #16
	ldrb	r3, [r0, #7]
	lsls	r3, r3, #24
	adds	r2, r3, r2
	adds	r1, r2, r1
	str	r1, [sp, #84]
	ldrb	r1, [r0]
	ldrb	r2, [r0, #1]
	lsls	r2, r2, #8
	adds	r1, r2, r1
	ldrb	r2, [r0, #2]
	lsls	r2, r2, #16
	ldrb	r0, [r0, #3]
	lsls	r0, r0, #24
	adds	r0, r0, r2
	adds	r0, r0, r1
	str	r0, [sp, #80]
	ldr	r0, [sp, #28]                   @ 4-byte Reload
	str	r0, [sp]
	ldr	r7, [sp, #20]                   @ 4-byte Reload
	str	r7, [sp, #4]
	add	r1, sp, #80
	ldr	r0, [sp, #24]                   @ 4-byte Reload
	mov	r2, r6
	bl	aes_v6m.key_wrap.steps.unwrap_in_place
	ldr	r0, [sp, #80]
	ldr	r1, [sp, #84]
	ldr	r2, .Laes_v6m_CPI26_0
	str	r2, [sp, #92]
	add	r3, sp, #80
	stm	r3!, {r0, r1, r2}
	add	r0, sp, #80
	ldr	r1, .Laes_v6m_CPI26_1
	bl	aes_v6m.aes_cipher.blocks.difference
	cmp	r0, #0
	mov	r6, r5
	beq	.Laes_v6m_BB26_21
@ %bb.16:                               @ %loop.5.preheader.i
	movs	r6, #0
	ldr	r0, [sp, #28]                   @ 4-byte Reload
	subs	r4, r0, #1
	sbcs	r7, r6
	movs	r5, #1
	cmp	r4, #1
	mov	r0, r4
	bls	.Laes_v6m_BB26_22
@ %bb.17:                               @ %loop.5.preheader.i
	cmp	r7, #0
	mov	r1, r4
	beq	.Laes_v6m_BB26_23
.Laes_v6m_BB26_18:                              @ %loop.5.preheader.i
	beq	.Laes_v6m_BB26_20
.Laes_v6m_BB26_19:                              @ %loop.5.preheader.i
	mov	r0, r1
.Laes_v6m_BB26_20:                              @ %loop.5.preheader.i
	lsls	r2, r0, #3
	ldr	r7, [sp, #52]                   @ 4-byte Reload
	mov	r0, r7
	mov	r1, r6
	bl	memset
	lsls	r0, r4, #3
	strb	r6, [r7, r0]
	adds	r0, r7, r0
	strb	r6, [r0, #7]
	strb	r6, [r0, #6]
	strb	r6, [r0, #5]
	strb	r6, [r0, #4]
	strb	r6, [r0, #3]
	strb	r6, [r0, #2]
	strb	r6, [r0, #1]
	mov	r6, r5
.Laes_v6m_BB26_21:                              @ %return.10
	mov	r0, r6
	mov	r1, r5
	add	sp, #100
	pop	{r4, r5, r6, r7, pc}
.Laes_v6m_BB26_22:                              @ %loop.5.preheader.i
	mov	r0, r5
	cmp	r7, #0
	mov	r1, r4
	bne	.Laes_v6m_BB26_18
.Laes_v6m_BB26_23:                              @ %loop.5.preheader.i
	mov	r1, r5
	bne	.Laes_v6m_BB26_19
	b	.Laes_v6m_BB26_20
.Laes_v6m_BB26_24:                              @ %join.7.i.i.i.i.i.i.i.i.preheader
	mov	r7, r2
	ldr	r3, [sp, #44]                   @ 4-byte Reload
	cmp	r3, #0
	mov	r4, r0
	beq	.Laes_v6m_BB26_25
	b	.Laes_v6m_BB26_5
.Laes_v6m_BB26_25:                              @ %join.7.i.i.i.i.i.i.i.i.preheader
	mov	r4, r2
	beq	.Laes_v6m_BB26_26
	b	.Laes_v6m_BB26_6
.Laes_v6m_BB26_26:                              @ %join.7.i.i.i.i.i.i.i.i.preheader
	b	.Laes_v6m_BB26_7
	.p2align	2
@ %bb.27:
.Laes_v6m_CPI26_0:
	.long	2795939494                      @ 0xa6a6a6a6
.Laes_v6m_CPI26_1:
	.long	.Laes_v6m_static.2
.Laes_v6m_func_end26:
	.size	aes_v6m.key_wrap.wrapping.unwrap, .Laes_v6m_func_end26-aes_v6m.key_wrap.wrapping.unwrap
	.cantunwind
	.fnend
                                        @ -- End function
	.section	.text.aes_v6m.key_wrap.steps.unwrap_in_place,"ax",%progbits
	.p2align	1                               @ -- Begin function key_wrap::steps::unwrap_in_place::<#10c636071cb6e37c>
	.type	aes_v6m.key_wrap.steps.unwrap_in_place,%function
	.code	16
	.thumb_func
aes_v6m.key_wrap.steps.unwrap_in_place: @ @aes_v6m.key_wrap.steps.unwrap_in_place
	.fnstart
@ %bb.0:                                @ %start
	.save	{r4, r5, r6, r7, lr}
	push	{r4, r5, r6, r7, lr}
	.pad	#116
	sub	sp, #116
	mov	r5, r1
	mov	r6, r0
	ldr	r7, [sp, #140]
	ldr	r0, [sp, #136]
	mov	r1, r0
	orrs	r1, r7
	bne	.Laes_v6m_BB27_1
	bl	.Laes_v6m_BB27_13
.Laes_v6m_BB27_1:                               @ %join.5.preheader
	str	r2, [sp, #92]                   @ 4-byte Spill
	movs	r2, #5
	movs	r4, #0
	mov	r1, r7
	str	r0, [sp, #88]                   @ 4-byte Spill
	mov	r3, r4
	bl	__aeabi_lmul
	ldr	r3, [sp, #88]                   @ 4-byte Reload
	adds	r0, r0, #1
	str	r0, [sp, #20]                   @ 4-byte Spill
	adcs	r1, r4
	str	r1, [sp, #24]                   @ 4-byte Spill
	mov	r2, r4
	str	r4, [sp, #72]                   @ 4-byte Spill
	str	r7, [sp, #84]                   @ 4-byte Spill
.Laes_v6m_BB27_2:                               @ %join.5.i
                                        @ =>This Inner Loop Header: Depth=1
	str	r4, [sp, #76]                   @ 4-byte Spill
	str	r2, [sp, #68]                   @ 4-byte Spill
	ldr	r0, [sp, #76]                   @ 4-byte Reload
	mvns	r1, r0
	mvns	r0, r2
	adds	r0, r3, r0
	adcs	r1, r7
	ldr	r2, [sp, #20]                   @ 4-byte Reload
	adds	r2, r2, r0
	ldr	r3, [sp, #24]                   @ 4-byte Reload
	adcs	r1, r3
	ldrb	r3, [r5, #4]
	ldrb	r4, [r5, #5]
	lsls	r4, r4, #8
	adds	r3, r4, r3
	ldrb	r4, [r5, #6]
	lsls	r4, r4, #16
	ldrb	r7, [r5, #7]
	lsls	r7, r7, #24
	adds	r4, r7, r4
	adds	r3, r4, r3
	rev	r2, r2
	eors	r2, r3
	strb	r2, [r5, #4]
	ldrb	r3, [r5]
	ldrb	r4, [r5, #1]
	lsls	r4, r4, #8
	adds	r3, r4, r3
	ldrb	r4, [r5, #2]
	lsls	r4, r4, #16
	ldrb	r7, [r5, #3]
	lsls	r7, r7, #24
	adds	r4, r7, r4
	adds	r3, r4, r3
	rev	r1, r1
	eors	r1, r3
	strb	r1, [r5]
	lsrs	r3, r2, #16
	strb	r3, [r5, #6]
	lsrs	r3, r2, #24
	strb	r3, [r5, #7]
	lsrs	r3, r2, #8
	strb	r3, [r5, #5]
	lsrs	r3, r1, #16
	strb	r3, [r5, #2]
	lsrs	r3, r1, #24
	strb	r3, [r5, #3]
	lsrs	r3, r1, #8
	strb	r3, [r5, #1]
	str	r2, [sp, #100]
	str	r1, [sp, #96]
	lsls	r7, r0, #3
	ldr	r3, [sp, #92]                   @ 4-byte Reload
	adds	r4, r3, r7
	str	r7, [sp, #64]                   @ 4-byte Spill
	ldrb	r0, [r4, #4]
	ldrb	r1, [r4, #5]
	lsls	r1, r1, #8
	adds	r0, r1, r0
	ldrb	r1, [r4, #6]
	lsls	r1, r1, #16
	ldrb	r2, [r4, #7]
	lsls	r2, r2, #24
	adds	r1, r2, r1
	adds	r0, r1, r0
	str	r0, [sp, #108]
	ldrb	r0, [r3, r7]
	ldrb	r1, [r4, #1]
	lsls	r1, r1, #8
	adds	r0, r1, r0
	ldrb	r1, [r4, #2]
	lsls	r1, r1, #16
	ldrb	r2, [r4, #3]
	lsls	r2, r2, #24
	adds	r1, r2, r1
	adds	r0, r1, r0
	str	r0, [sp, #104]
	ldrb	r0, [r6, #15]
	str	r0, [sp, #56]                   @ 4-byte Spill
	ldrb	r0, [r6, #14]
	str	r0, [sp, #52]                   @ 4-byte Spill
	ldrb	r0, [r6, #12]
	str	r0, [sp, #48]                   @ 4-byte Spill
	ldrb	r0, [r6, #13]
	str	r0, [sp, #44]                   @ 4-byte Spill
	ldrb	r0, [r6, #11]
	str	r0, [sp, #40]                   @ 4-byte Spill
	ldrb	r0, [r6, #10]
	str	r0, [sp, #36]                   @ 4-byte Spill
	ldrb	r0, [r6, #8]
	str	r0, [sp, #32]                   @ 4-byte Spill
	ldrb	r0, [r6, #9]
	str	r0, [sp, #28]                   @ 4-byte Spill
	ldrb	r7, [r6, #3]
	ldrb	r3, [r6, #2]
	ldrb	r2, [r6]
	ldrb	r1, [r6, #1]
	movs	r0, #1
	str	r0, [sp, #80]                   @ 4-byte Spill
	str	r0, [sp, #8]
	ldr	r0, [sp, #72]                   @ 4-byte Reload
	str	r0, [sp, #12]
	add	r0, sp, #96
	str	r0, [sp, #60]                   @ 4-byte Spill
	str	r0, [sp]
	lsls	r0, r1, #8
	adds	r0, r0, r2
	lsls	r1, r3, #16
	lsls	r2, r7, #24
	adds	r1, r2, r1
	adds	r0, r1, r0
	ldr	r1, [sp, #28]                   @ 4-byte Reload
	lsls	r1, r1, #8
	ldr	r2, [sp, #32]                   @ 4-byte Reload
	adds	r1, r1, r2
	ldr	r2, [sp, #36]                   @ 4-byte Reload
	lsls	r2, r2, #16
	ldr	r3, [sp, #40]                   @ 4-byte Reload
	lsls	r3, r3, #24
	adds	r2, r3, r2
	adds	r2, r2, r1
	ldr	r1, [sp, #44]                   @ 4-byte Reload
	lsls	r1, r1, #8
	ldr	r3, [sp, #48]                   @ 4-byte Reload
	adds	r1, r1, r3
	ldr	r3, [sp, #52]                   @ 4-byte Reload
	lsls	r3, r3, #16
	ldr	r7, [sp, #56]                   @ 4-byte Reload
	lsls	r7, r7, #24
	adds	r3, r7, r3
	ldr	r7, [sp, #84]                   @ 4-byte Reload
	adds	r3, r3, r1
	bl	aes_v6m.aes_narrow.blocks.process_all_batches.2
	bl	aes_v6m.aes_cipher.zeroize.stack.wipe_stack.1024
	ldr	r0, [sp, #100]
	strb	r0, [r5, #4]
	ldr	r1, [sp, #96]
	strb	r1, [r5]
	lsrs	r2, r0, #24
	strb	r2, [r5, #7]
	lsrs	r2, r0, #16
	strb	r2, [r5, #6]
	lsrs	r0, r0, #8
	strb	r0, [r5, #5]
	lsrs	r0, r1, #24
	strb	r0, [r5, #3]
	lsrs	r0, r1, #16
	strb	r0, [r5, #2]
	lsrs	r0, r1, #8
	strb	r0, [r5, #1]
	ldr	r0, [sp, #104]
	ldr	r1, [sp, #64]                   @ 4-byte Reload
	ldr	r2, [sp, #92]                   @ 4-byte Reload
	strb	r0, [r2, r1]
	ldr	r1, [sp, #108]
	lsrs	r2, r1, #16
	strb	r2, [r4, #6]
	lsrs	r2, r1, #24
	strb	r2, [r4, #7]
	strb	r1, [r4, #4]
	lsrs	r1, r1, #8
	strb	r1, [r4, #5]
	lsrs	r1, r0, #16
	strb	r1, [r4, #2]
	lsrs	r1, r0, #24
	strb	r1, [r4, #3]
	lsrs	r0, r0, #8
	strb	r0, [r4, #1]
	ldr	r0, [sp, #60]                   @ 4-byte Reload
	bl	aes_v6m.aes_cipher.zeroize.elements.zeroize_elements.3
	ldr	r4, [sp, #76]                   @ 4-byte Reload
	ldr	r2, [sp, #68]                   @ 4-byte Reload
	ldr	r3, [sp, #88]                   @ 4-byte Reload
	adds	r2, r2, #1
	ldr	r0, [sp, #72]                   @ 4-byte Reload
	adcs	r4, r0
	subs	r0, r2, r3
	mov	r0, r4
	sbcs	r0, r7
	bhs	.Laes_v6m_BB27_3
	b	.Laes_v6m_BB27_2
.Laes_v6m_BB27_3:                               @ %"key_wrap::steps::unwrap_turn::<#10c636071cb6e37c>.exit.loopexit"
	lsrs	r0, r3, #30
	lsls	r1, r7, #2
	adds	r0, r1, r0
	str	r0, [sp, #24]                   @ 4-byte Spill
	lsls	r0, r3, #2
	adds	r0, r0, #1
	str	r0, [sp, #20]                   @ 4-byte Spill
	movs	r0, #0
	mov	r2, r0
	str	r0, [sp, #72]                   @ 4-byte Spill
	mov	r1, r0
.Laes_v6m_BB27_4:                               @ %join.5.i.1
                                        @ =>This Inner Loop Header: Depth=1
	str	r1, [sp, #76]                   @ 4-byte Spill
	str	r2, [sp, #68]                   @ 4-byte Spill
	ldr	r0, [sp, #76]                   @ 4-byte Reload
	mvns	r1, r0
	mvns	r0, r2
	adds	r0, r3, r0
	adcs	r1, r7
	ldr	r2, [sp, #20]                   @ 4-byte Reload
	adds	r2, r2, r0
	ldr	r3, [sp, #24]                   @ 4-byte Reload
	adcs	r1, r3
	ldrb	r3, [r5, #4]
	ldrb	r4, [r5, #5]
	lsls	r4, r4, #8
	adds	r3, r4, r3
	ldrb	r4, [r5, #6]
	lsls	r4, r4, #16
	ldrb	r7, [r5, #7]
	lsls	r7, r7, #24
	adds	r4, r7, r4
	adds	r3, r4, r3
	rev	r2, r2
	eors	r2, r3
	strb	r2, [r5, #4]
	ldrb	r3, [r5]
	ldrb	r4, [r5, #1]
	lsls	r4, r4, #8
	adds	r3, r4, r3
	ldrb	r4, [r5, #2]
	lsls	r4, r4, #16
	ldrb	r7, [r5, #3]
	lsls	r7, r7, #24
	adds	r4, r7, r4
	adds	r3, r4, r3
	rev	r1, r1
	eors	r1, r3
	strb	r1, [r5]
	lsrs	r3, r2, #16
	strb	r3, [r5, #6]
	lsrs	r3, r2, #24
	strb	r3, [r5, #7]
	lsrs	r3, r2, #8
	strb	r3, [r5, #5]
	lsrs	r3, r1, #16
	strb	r3, [r5, #2]
	lsrs	r3, r1, #24
	strb	r3, [r5, #3]
	lsrs	r3, r1, #8
	strb	r3, [r5, #1]
	str	r2, [sp, #100]
	str	r1, [sp, #96]
	lsls	r7, r0, #3
	ldr	r3, [sp, #92]                   @ 4-byte Reload
	adds	r4, r3, r7
	str	r7, [sp, #64]                   @ 4-byte Spill
	ldrb	r0, [r4, #4]
	ldrb	r1, [r4, #5]
	lsls	r1, r1, #8
	adds	r0, r1, r0
	ldrb	r1, [r4, #6]
	lsls	r1, r1, #16
	ldrb	r2, [r4, #7]
	lsls	r2, r2, #24
	adds	r1, r2, r1
	adds	r0, r1, r0
	str	r0, [sp, #108]
	ldrb	r0, [r3, r7]
	ldrb	r1, [r4, #1]
	lsls	r1, r1, #8
	adds	r0, r1, r0
	ldrb	r1, [r4, #2]
	lsls	r1, r1, #16
	ldrb	r2, [r4, #3]
	lsls	r2, r2, #24
	adds	r1, r2, r1
	adds	r0, r1, r0
	str	r0, [sp, #104]
	ldrb	r0, [r6, #15]
	str	r0, [sp, #56]                   @ 4-byte Spill
	ldrb	r0, [r6, #14]
	str	r0, [sp, #52]                   @ 4-byte Spill
	ldrb	r0, [r6, #12]
	str	r0, [sp, #48]                   @ 4-byte Spill
	ldrb	r0, [r6, #13]
	str	r0, [sp, #44]                   @ 4-byte Spill
	ldrb	r0, [r6, #11]
	str	r0, [sp, #40]                   @ 4-byte Spill
	ldrb	r0, [r6, #10]
	str	r0, [sp, #36]                   @ 4-byte Spill
	ldrb	r0, [r6, #8]
	str	r0, [sp, #32]                   @ 4-byte Spill
	ldrb	r0, [r6, #9]
	str	r0, [sp, #28]                   @ 4-byte Spill
	ldrb	r3, [r6, #3]
	ldrb	r2, [r6, #2]
	ldrb	r1, [r6]
	ldrb	r0, [r6, #1]
	ldr	r7, [sp, #80]                   @ 4-byte Reload
	str	r7, [sp, #8]
	ldr	r7, [sp, #72]                   @ 4-byte Reload
	str	r7, [sp, #12]
	add	r7, sp, #96
	str	r7, [sp, #60]                   @ 4-byte Spill
	str	r7, [sp]
	lsls	r0, r0, #8
	adds	r0, r0, r1
	lsls	r1, r2, #16
	lsls	r2, r3, #24
	adds	r1, r2, r1
	adds	r0, r1, r0
	ldr	r1, [sp, #28]                   @ 4-byte Reload
	lsls	r1, r1, #8
	ldr	r2, [sp, #32]                   @ 4-byte Reload
	adds	r1, r1, r2
	ldr	r2, [sp, #36]                   @ 4-byte Reload
	lsls	r2, r2, #16
	ldr	r3, [sp, #40]                   @ 4-byte Reload
	lsls	r3, r3, #24
	adds	r2, r3, r2
	adds	r2, r2, r1
	ldr	r1, [sp, #44]                   @ 4-byte Reload
	lsls	r1, r1, #8
	ldr	r3, [sp, #48]                   @ 4-byte Reload
	adds	r1, r1, r3
	ldr	r3, [sp, #52]                   @ 4-byte Reload
	lsls	r3, r3, #16
	ldr	r7, [sp, #56]                   @ 4-byte Reload
	lsls	r7, r7, #24
	adds	r3, r7, r3
	ldr	r7, [sp, #84]                   @ 4-byte Reload
	adds	r3, r3, r1
	bl	aes_v6m.aes_narrow.blocks.process_all_batches.2
	bl	aes_v6m.aes_cipher.zeroize.stack.wipe_stack.1024
	ldr	r0, [sp, #100]
	strb	r0, [r5, #4]
	ldr	r1, [sp, #96]
	strb	r1, [r5]
	lsrs	r2, r0, #24
	strb	r2, [r5, #7]
	lsrs	r2, r0, #16
	strb	r2, [r5, #6]
	lsrs	r0, r0, #8
	strb	r0, [r5, #5]
	lsrs	r0, r1, #24
	strb	r0, [r5, #3]
	lsrs	r0, r1, #16
	strb	r0, [r5, #2]
	lsrs	r0, r1, #8
	strb	r0, [r5, #1]
	ldr	r0, [sp, #104]
	ldr	r1, [sp, #64]                   @ 4-byte Reload
	ldr	r2, [sp, #92]                   @ 4-byte Reload
	strb	r0, [r2, r1]
	ldr	r1, [sp, #108]
	lsrs	r2, r1, #16
	strb	r2, [r4, #6]
	lsrs	r2, r1, #24
	strb	r2, [r4, #7]
	strb	r1, [r4, #4]
	lsrs	r1, r1, #8
	strb	r1, [r4, #5]
	lsrs	r1, r0, #16
	strb	r1, [r4, #2]
	lsrs	r1, r0, #24
	strb	r1, [r4, #3]
	lsrs	r0, r0, #8
	strb	r0, [r4, #1]
	ldr	r0, [sp, #60]                   @ 4-byte Reload
	bl	aes_v6m.aes_cipher.zeroize.elements.zeroize_elements.3
	ldr	r1, [sp, #76]                   @ 4-byte Reload
	ldr	r2, [sp, #68]                   @ 4-byte Reload
	ldr	r3, [sp, #88]                   @ 4-byte Reload
	adds	r2, r2, #1
	ldr	r0, [sp, #72]                   @ 4-byte Reload
	adcs	r1, r0
	subs	r0, r2, r3
	mov	r0, r1
	sbcs	r0, r7
	bhs	.Laes_v6m_BB27_5
	b	.Laes_v6m_BB27_4
.Laes_v6m_BB27_5:                               @ %"key_wrap::steps::unwrap_turn::<#10c636071cb6e37c>.exit.loopexit.1"
	movs	r2, #3
	movs	r4, #0
	mov	r0, r3
	mov	r1, r7
	mov	r3, r4
	bl	__aeabi_lmul
	ldr	r3, [sp, #88]                   @ 4-byte Reload
	adds	r0, r0, #1
	str	r0, [sp, #20]                   @ 4-byte Spill
	adcs	r1, r4
	str	r1, [sp, #24]                   @ 4-byte Spill
	mov	r2, r4
	str	r4, [sp, #72]                   @ 4-byte Spill
.Laes_v6m_BB27_6:                               @ %join.5.i.2
                                        @ =>This Inner Loop Header: Depth=1
	str	r4, [sp, #76]                   @ 4-byte Spill
	str	r2, [sp, #68]                   @ 4-byte Spill
	ldr	r0, [sp, #76]                   @ 4-byte Reload
	mvns	r1, r0
	mvns	r0, r2
	adds	r0, r3, r0
	adcs	r1, r7
	ldr	r2, [sp, #20]                   @ 4-byte Reload
	adds	r2, r2, r0
	ldr	r3, [sp, #24]                   @ 4-byte Reload
	adcs	r1, r3
	ldrb	r3, [r5, #4]
	ldrb	r4, [r5, #5]
	lsls	r4, r4, #8
	adds	r3, r4, r3
	ldrb	r4, [r5, #6]
	lsls	r4, r4, #16
	ldrb	r7, [r5, #7]
	lsls	r7, r7, #24
	adds	r4, r7, r4
	adds	r3, r4, r3
	rev	r2, r2
	eors	r2, r3
	strb	r2, [r5, #4]
	ldrb	r3, [r5]
	ldrb	r4, [r5, #1]
	lsls	r4, r4, #8
	adds	r3, r4, r3
	ldrb	r4, [r5, #2]
	lsls	r4, r4, #16
	ldrb	r7, [r5, #3]
	lsls	r7, r7, #24
	adds	r4, r7, r4
	adds	r3, r4, r3
	rev	r1, r1
	eors	r1, r3
	strb	r1, [r5]
	lsrs	r3, r2, #16
	strb	r3, [r5, #6]
	lsrs	r3, r2, #24
	strb	r3, [r5, #7]
	lsrs	r3, r2, #8
	strb	r3, [r5, #5]
	lsrs	r3, r1, #16
	strb	r3, [r5, #2]
	lsrs	r3, r1, #24
	strb	r3, [r5, #3]
	lsrs	r3, r1, #8
	strb	r3, [r5, #1]
	str	r2, [sp, #100]
	str	r1, [sp, #96]
	lsls	r7, r0, #3
	ldr	r3, [sp, #92]                   @ 4-byte Reload
	adds	r4, r3, r7
	str	r7, [sp, #64]                   @ 4-byte Spill
	ldrb	r0, [r4, #4]
	ldrb	r1, [r4, #5]
	lsls	r1, r1, #8
	adds	r0, r1, r0
	ldrb	r1, [r4, #6]
	lsls	r1, r1, #16
	ldrb	r2, [r4, #7]
	lsls	r2, r2, #24
	adds	r1, r2, r1
	adds	r0, r1, r0
	str	r0, [sp, #108]
	ldrb	r0, [r3, r7]
	ldrb	r1, [r4, #1]
	lsls	r1, r1, #8
	adds	r0, r1, r0
	ldrb	r1, [r4, #2]
	lsls	r1, r1, #16
	ldrb	r2, [r4, #3]
	lsls	r2, r2, #24
	adds	r1, r2, r1
	adds	r0, r1, r0
	str	r0, [sp, #104]
	ldrb	r0, [r6, #15]
	str	r0, [sp, #56]                   @ 4-byte Spill
	ldrb	r0, [r6, #14]
	str	r0, [sp, #52]                   @ 4-byte Spill
	ldrb	r0, [r6, #12]
	str	r0, [sp, #48]                   @ 4-byte Spill
	ldrb	r0, [r6, #13]
	str	r0, [sp, #44]                   @ 4-byte Spill
	ldrb	r0, [r6, #11]
	str	r0, [sp, #40]                   @ 4-byte Spill
	ldrb	r0, [r6, #10]
	str	r0, [sp, #36]                   @ 4-byte Spill
	ldrb	r0, [r6, #8]
	str	r0, [sp, #32]                   @ 4-byte Spill
	ldrb	r0, [r6, #9]
	str	r0, [sp, #28]                   @ 4-byte Spill
	ldrb	r3, [r6, #3]
	ldrb	r2, [r6, #2]
	ldrb	r1, [r6]
	ldrb	r0, [r6, #1]
	ldr	r7, [sp, #80]                   @ 4-byte Reload
	str	r7, [sp, #8]
	ldr	r7, [sp, #72]                   @ 4-byte Reload
	str	r7, [sp, #12]
	add	r7, sp, #96
	str	r7, [sp, #60]                   @ 4-byte Spill
	str	r7, [sp]
	lsls	r0, r0, #8
	adds	r0, r0, r1
	lsls	r1, r2, #16
	lsls	r2, r3, #24
	adds	r1, r2, r1
	adds	r0, r1, r0
	ldr	r1, [sp, #28]                   @ 4-byte Reload
	lsls	r1, r1, #8
	ldr	r2, [sp, #32]                   @ 4-byte Reload
	adds	r1, r1, r2
	ldr	r2, [sp, #36]                   @ 4-byte Reload
	lsls	r2, r2, #16
	ldr	r3, [sp, #40]                   @ 4-byte Reload
	lsls	r3, r3, #24
	adds	r2, r3, r2
	adds	r2, r2, r1
	ldr	r1, [sp, #44]                   @ 4-byte Reload
	lsls	r1, r1, #8
	ldr	r3, [sp, #48]                   @ 4-byte Reload
	adds	r1, r1, r3
	ldr	r3, [sp, #52]                   @ 4-byte Reload
	lsls	r3, r3, #16
	ldr	r7, [sp, #56]                   @ 4-byte Reload
	lsls	r7, r7, #24
	adds	r3, r7, r3
	ldr	r7, [sp, #84]                   @ 4-byte Reload
	adds	r3, r3, r1
	bl	aes_v6m.aes_narrow.blocks.process_all_batches.2
	bl	aes_v6m.aes_cipher.zeroize.stack.wipe_stack.1024
	ldr	r0, [sp, #100]
	strb	r0, [r5, #4]
	ldr	r1, [sp, #96]
	strb	r1, [r5]
	lsrs	r2, r0, #24
	strb	r2, [r5, #7]
	lsrs	r2, r0, #16
	strb	r2, [r5, #6]
	lsrs	r0, r0, #8
	strb	r0, [r5, #5]
	lsrs	r0, r1, #24
	strb	r0, [r5, #3]
	lsrs	r0, r1, #16
	strb	r0, [r5, #2]
	lsrs	r0, r1, #8
	strb	r0, [r5, #1]
	ldr	r0, [sp, #104]
	ldr	r1, [sp, #64]                   @ 4-byte Reload
	ldr	r2, [sp, #92]                   @ 4-byte Reload
	strb	r0, [r2, r1]
	ldr	r1, [sp, #108]
	lsrs	r2, r1, #16
	strb	r2, [r4, #6]
	lsrs	r2, r1, #24
	strb	r2, [r4, #7]
	strb	r1, [r4, #4]
	lsrs	r1, r1, #8
	strb	r1, [r4, #5]
	lsrs	r1, r0, #16
	strb	r1, [r4, #2]
	lsrs	r1, r0, #24
	strb	r1, [r4, #3]
	lsrs	r0, r0, #8
	strb	r0, [r4, #1]
	ldr	r0, [sp, #60]                   @ 4-byte Reload
	bl	aes_v6m.aes_cipher.zeroize.elements.zeroize_elements.3
	ldr	r4, [sp, #76]                   @ 4-byte Reload
	ldr	r2, [sp, #68]                   @ 4-byte Reload
	ldr	r3, [sp, #88]                   @ 4-byte Reload
	adds	r2, r2, #1
	ldr	r0, [sp, #72]                   @ 4-byte Reload
	adcs	r4, r0
	subs	r0, r2, r3
	mov	r0, r4
	sbcs	r0, r7
	bhs	.Laes_v6m_BB27_7
	b	.Laes_v6m_BB27_6
.Laes_v6m_BB27_7:                               @ %"key_wrap::steps::unwrap_turn::<#10c636071cb6e37c>.exit.loopexit.2"
	lsrs	r0, r3, #31
	lsls	r1, r7, #1
	adds	r0, r1, r0
	str	r0, [sp, #24]                   @ 4-byte Spill
	lsls	r0, r3, #1
	adds	r0, r0, #1
	str	r0, [sp, #20]                   @ 4-byte Spill
	movs	r0, #0
	mov	r2, r0
	str	r0, [sp, #72]                   @ 4-byte Spill
	mov	r1, r0
.Laes_v6m_BB27_8:                               @ %join.5.i.3
                                        @ =>This Inner Loop Header: Depth=1
	str	r1, [sp, #76]                   @ 4-byte Spill
	str	r2, [sp, #68]                   @ 4-byte Spill
	ldr	r0, [sp, #76]                   @ 4-byte Reload
	mvns	r1, r0
	mvns	r0, r2
	adds	r0, r3, r0
	adcs	r1, r7
	ldr	r2, [sp, #20]                   @ 4-byte Reload
	adds	r2, r2, r0
	ldr	r3, [sp, #24]                   @ 4-byte Reload
	adcs	r1, r3
	ldrb	r3, [r5, #4]
	ldrb	r4, [r5, #5]
	lsls	r4, r4, #8
	adds	r3, r4, r3
	ldrb	r4, [r5, #6]
	lsls	r4, r4, #16
	ldrb	r7, [r5, #7]
	lsls	r7, r7, #24
	adds	r4, r7, r4
	adds	r3, r4, r3
	rev	r2, r2
	eors	r2, r3
	strb	r2, [r5, #4]
	ldrb	r3, [r5]
	ldrb	r4, [r5, #1]
	lsls	r4, r4, #8
	adds	r3, r4, r3
	ldrb	r4, [r5, #2]
	lsls	r4, r4, #16
	ldrb	r7, [r5, #3]
	lsls	r7, r7, #24
	adds	r4, r7, r4
	adds	r3, r4, r3
	rev	r1, r1
	eors	r1, r3
	strb	r1, [r5]
	lsrs	r3, r2, #16
	strb	r3, [r5, #6]
	lsrs	r3, r2, #24
	strb	r3, [r5, #7]
	lsrs	r3, r2, #8
	strb	r3, [r5, #5]
	lsrs	r3, r1, #16
	strb	r3, [r5, #2]
	lsrs	r3, r1, #24
	strb	r3, [r5, #3]
	lsrs	r3, r1, #8
	strb	r3, [r5, #1]
	str	r2, [sp, #100]
	str	r1, [sp, #96]
	lsls	r7, r0, #3
	ldr	r3, [sp, #92]                   @ 4-byte Reload
	adds	r4, r3, r7
	str	r7, [sp, #64]                   @ 4-byte Spill
	ldrb	r0, [r4, #4]
	ldrb	r1, [r4, #5]
	lsls	r1, r1, #8
	adds	r0, r1, r0
	ldrb	r1, [r4, #6]
	lsls	r1, r1, #16
	ldrb	r2, [r4, #7]
	lsls	r2, r2, #24
	adds	r1, r2, r1
	adds	r0, r1, r0
	str	r0, [sp, #108]
	ldrb	r0, [r3, r7]
	ldrb	r1, [r4, #1]
	lsls	r1, r1, #8
	adds	r0, r1, r0
	ldrb	r1, [r4, #2]
	lsls	r1, r1, #16
	ldrb	r2, [r4, #3]
	lsls	r2, r2, #24
	adds	r1, r2, r1
	adds	r0, r1, r0
	str	r0, [sp, #104]
	ldrb	r0, [r6, #15]
	str	r0, [sp, #56]                   @ 4-byte Spill
	ldrb	r0, [r6, #14]
	str	r0, [sp, #52]                   @ 4-byte Spill
	ldrb	r0, [r6, #12]
	str	r0, [sp, #48]                   @ 4-byte Spill
	ldrb	r0, [r6, #13]
	str	r0, [sp, #44]                   @ 4-byte Spill
	ldrb	r0, [r6, #11]
	str	r0, [sp, #40]                   @ 4-byte Spill
	ldrb	r0, [r6, #10]
	str	r0, [sp, #36]                   @ 4-byte Spill
	ldrb	r0, [r6, #8]
	str	r0, [sp, #32]                   @ 4-byte Spill
	ldrb	r0, [r6, #9]
	str	r0, [sp, #28]                   @ 4-byte Spill
	ldrb	r3, [r6, #3]
	ldrb	r2, [r6, #2]
	ldrb	r1, [r6]
	ldrb	r0, [r6, #1]
	ldr	r7, [sp, #80]                   @ 4-byte Reload
	str	r7, [sp, #8]
	ldr	r7, [sp, #72]                   @ 4-byte Reload
	str	r7, [sp, #12]
	add	r7, sp, #96
	str	r7, [sp, #60]                   @ 4-byte Spill
	str	r7, [sp]
	lsls	r0, r0, #8
	adds	r0, r0, r1
	lsls	r1, r2, #16
	lsls	r2, r3, #24
	adds	r1, r2, r1
	adds	r0, r1, r0
	ldr	r1, [sp, #28]                   @ 4-byte Reload
	lsls	r1, r1, #8
	ldr	r2, [sp, #32]                   @ 4-byte Reload
	adds	r1, r1, r2
	ldr	r2, [sp, #36]                   @ 4-byte Reload
	lsls	r2, r2, #16
	ldr	r3, [sp, #40]                   @ 4-byte Reload
	lsls	r3, r3, #24
	adds	r2, r3, r2
	adds	r2, r2, r1
	ldr	r1, [sp, #44]                   @ 4-byte Reload
	lsls	r1, r1, #8
	ldr	r3, [sp, #48]                   @ 4-byte Reload
	adds	r1, r1, r3
	ldr	r3, [sp, #52]                   @ 4-byte Reload
	lsls	r3, r3, #16
	ldr	r7, [sp, #56]                   @ 4-byte Reload
	lsls	r7, r7, #24
	adds	r3, r7, r3
	ldr	r7, [sp, #84]                   @ 4-byte Reload
	adds	r3, r3, r1
	bl	aes_v6m.aes_narrow.blocks.process_all_batches.2
	bl	aes_v6m.aes_cipher.zeroize.stack.wipe_stack.1024
	ldr	r0, [sp, #100]
	strb	r0, [r5, #4]
	ldr	r1, [sp, #96]
	strb	r1, [r5]
	lsrs	r2, r0, #24
	strb	r2, [r5, #7]
	lsrs	r2, r0, #16
	strb	r2, [r5, #6]
	lsrs	r0, r0, #8
	strb	r0, [r5, #5]
	lsrs	r0, r1, #24
	strb	r0, [r5, #3]
	lsrs	r0, r1, #16
	strb	r0, [r5, #2]
	lsrs	r0, r1, #8
	strb	r0, [r5, #1]
	ldr	r0, [sp, #104]
	ldr	r1, [sp, #64]                   @ 4-byte Reload
	ldr	r2, [sp, #92]                   @ 4-byte Reload
	strb	r0, [r2, r1]
	ldr	r1, [sp, #108]
	lsrs	r2, r1, #16
	strb	r2, [r4, #6]
	lsrs	r2, r1, #24
	strb	r2, [r4, #7]
	strb	r1, [r4, #4]
	lsrs	r1, r1, #8
	strb	r1, [r4, #5]
	lsrs	r1, r0, #16
	strb	r1, [r4, #2]
	lsrs	r1, r0, #24
	strb	r1, [r4, #3]
	lsrs	r0, r0, #8
	strb	r0, [r4, #1]
	ldr	r0, [sp, #60]                   @ 4-byte Reload
	bl	aes_v6m.aes_cipher.zeroize.elements.zeroize_elements.3
	ldr	r1, [sp, #76]                   @ 4-byte Reload
	ldr	r2, [sp, #68]                   @ 4-byte Reload
	ldr	r3, [sp, #88]                   @ 4-byte Reload
	adds	r2, r2, #1
	ldr	r0, [sp, #72]                   @ 4-byte Reload
	adcs	r1, r0
	subs	r0, r2, r3
	mov	r0, r1
	sbcs	r0, r7
	bhs	.Laes_v6m_BB27_9
	b	.Laes_v6m_BB27_8
.Laes_v6m_BB27_9:                               @ %"key_wrap::steps::unwrap_turn::<#10c636071cb6e37c>.exit.loopexit.3"
	movs	r0, #0
	adds	r1, r3, #1
	str	r1, [sp, #24]                   @ 4-byte Spill
	mov	r1, r7
	adcs	r1, r0
	str	r1, [sp, #20]                   @ 4-byte Spill
	mov	r2, r0
	str	r0, [sp, #72]                   @ 4-byte Spill
	mov	r1, r0
.Laes_v6m_BB27_10:                              @ %join.5.i.4
                                        @ =>This Inner Loop Header: Depth=1
	str	r1, [sp, #76]                   @ 4-byte Spill
	str	r2, [sp, #68]                   @ 4-byte Spill
	ldr	r0, [sp, #76]                   @ 4-byte Reload
	mvns	r1, r0
	mvns	r0, r2
	adds	r0, r3, r0
	adcs	r1, r7
	ldr	r2, [sp, #24]                   @ 4-byte Reload
	adds	r2, r2, r0
	ldr	r3, [sp, #20]                   @ 4-byte Reload
	adcs	r1, r3
	ldrb	r3, [r5, #4]
	ldrb	r4, [r5, #5]
	lsls	r4, r4, #8
	adds	r3, r4, r3
	ldrb	r4, [r5, #6]
	lsls	r4, r4, #16
	ldrb	r7, [r5, #7]
	lsls	r7, r7, #24
	adds	r4, r7, r4
	adds	r3, r4, r3
	rev	r2, r2
	eors	r2, r3
	strb	r2, [r5, #4]
	ldrb	r3, [r5]
	ldrb	r4, [r5, #1]
	lsls	r4, r4, #8
	adds	r3, r4, r3
	ldrb	r4, [r5, #2]
	lsls	r4, r4, #16
	ldrb	r7, [r5, #3]
	lsls	r7, r7, #24
	adds	r4, r7, r4
	adds	r3, r4, r3
	rev	r1, r1
	eors	r1, r3
	strb	r1, [r5]
	lsrs	r3, r2, #16
	strb	r3, [r5, #6]
	lsrs	r3, r2, #24
	strb	r3, [r5, #7]
	lsrs	r3, r2, #8
	strb	r3, [r5, #5]
	lsrs	r3, r1, #16
	strb	r3, [r5, #2]
	lsrs	r3, r1, #24
	strb	r3, [r5, #3]
	lsrs	r3, r1, #8
	strb	r3, [r5, #1]
	str	r2, [sp, #100]
	str	r1, [sp, #96]
	lsls	r7, r0, #3
	ldr	r3, [sp, #92]                   @ 4-byte Reload
	adds	r4, r3, r7
	str	r7, [sp, #64]                   @ 4-byte Spill
	ldrb	r0, [r4, #4]
	ldrb	r1, [r4, #5]
	lsls	r1, r1, #8
	adds	r0, r1, r0
	ldrb	r1, [r4, #6]
	lsls	r1, r1, #16
	ldrb	r2, [r4, #7]
	lsls	r2, r2, #24
	adds	r1, r2, r1
	adds	r0, r1, r0
	str	r0, [sp, #108]
	ldrb	r0, [r3, r7]
	ldrb	r1, [r4, #1]
	lsls	r1, r1, #8
	adds	r0, r1, r0
	ldrb	r1, [r4, #2]
	lsls	r1, r1, #16
	ldrb	r2, [r4, #3]
	lsls	r2, r2, #24
	adds	r1, r2, r1
	adds	r0, r1, r0
	str	r0, [sp, #104]
	ldrb	r0, [r6, #15]
	str	r0, [sp, #56]                   @ 4-byte Spill
	ldrb	r0, [r6, #14]
	str	r0, [sp, #52]                   @ 4-byte Spill
	ldrb	r0, [r6, #12]
	str	r0, [sp, #48]                   @ 4-byte Spill
	ldrb	r0, [r6, #13]
	str	r0, [sp, #44]                   @ 4-byte Spill
	ldrb	r0, [r6, #11]
	str	r0, [sp, #40]                   @ 4-byte Spill
	ldrb	r0, [r6, #10]
	str	r0, [sp, #36]                   @ 4-byte Spill
	ldrb	r0, [r6, #8]
	str	r0, [sp, #32]                   @ 4-byte Spill
	ldrb	r0, [r6, #9]
	str	r0, [sp, #28]                   @ 4-byte Spill
	ldrb	r3, [r6, #3]
	ldrb	r2, [r6, #2]
	ldrb	r1, [r6]
	ldrb	r0, [r6, #1]
	ldr	r7, [sp, #80]                   @ 4-byte Reload
	str	r7, [sp, #8]
	ldr	r7, [sp, #72]                   @ 4-byte Reload
	str	r7, [sp, #12]
	add	r7, sp, #96
	str	r7, [sp, #60]                   @ 4-byte Spill
	str	r7, [sp]
	lsls	r0, r0, #8
	adds	r0, r0, r1
	lsls	r1, r2, #16
	lsls	r2, r3, #24
	adds	r1, r2, r1
	adds	r0, r1, r0
	ldr	r1, [sp, #28]                   @ 4-byte Reload
	lsls	r1, r1, #8
	ldr	r2, [sp, #32]                   @ 4-byte Reload
	adds	r1, r1, r2
	ldr	r2, [sp, #36]                   @ 4-byte Reload
	lsls	r2, r2, #16
	ldr	r3, [sp, #40]                   @ 4-byte Reload
	lsls	r3, r3, #24
	adds	r2, r3, r2
	adds	r2, r2, r1
	ldr	r1, [sp, #44]                   @ 4-byte Reload
	lsls	r1, r1, #8
	ldr	r3, [sp, #48]                   @ 4-byte Reload
	adds	r1, r1, r3
	ldr	r3, [sp, #52]                   @ 4-byte Reload
	lsls	r3, r3, #16
	ldr	r7, [sp, #56]                   @ 4-byte Reload
	lsls	r7, r7, #24
	adds	r3, r7, r3
	ldr	r7, [sp, #84]                   @ 4-byte Reload
	adds	r3, r3, r1
	bl	aes_v6m.aes_narrow.blocks.process_all_batches.2
	bl	aes_v6m.aes_cipher.zeroize.stack.wipe_stack.1024
	ldr	r0, [sp, #100]
	strb	r0, [r5, #4]
	ldr	r1, [sp, #96]
	strb	r1, [r5]
	lsrs	r2, r0, #24
	strb	r2, [r5, #7]
	lsrs	r2, r0, #16
	strb	r2, [r5, #6]
	lsrs	r0, r0, #8
	strb	r0, [r5, #5]
	lsrs	r0, r1, #24
	strb	r0, [r5, #3]
	lsrs	r0, r1, #16
	strb	r0, [r5, #2]
	lsrs	r0, r1, #8
	strb	r0, [r5, #1]
	ldr	r0, [sp, #104]
	ldr	r1, [sp, #64]                   @ 4-byte Reload
	ldr	r2, [sp, #92]                   @ 4-byte Reload
	strb	r0, [r2, r1]
	ldr	r1, [sp, #108]
	lsrs	r2, r1, #16
	strb	r2, [r4, #6]
	lsrs	r2, r1, #24
	strb	r2, [r4, #7]
	strb	r1, [r4, #4]
	lsrs	r1, r1, #8
	strb	r1, [r4, #5]
	lsrs	r1, r0, #16
	strb	r1, [r4, #2]
	lsrs	r1, r0, #24
	strb	r1, [r4, #3]
	lsrs	r0, r0, #8
	strb	r0, [r4, #1]
	ldr	r0, [sp, #60]                   @ 4-byte Reload
	bl	aes_v6m.aes_cipher.zeroize.elements.zeroize_elements.3
	ldr	r1, [sp, #76]                   @ 4-byte Reload
	ldr	r2, [sp, #68]                   @ 4-byte Reload
	ldr	r3, [sp, #88]                   @ 4-byte Reload
	adds	r2, r2, #1
	ldr	r0, [sp, #72]                   @ 4-byte Reload
	adcs	r1, r0
	subs	r0, r2, r3
	mov	r0, r1
	sbcs	r0, r7
	bhs	.Laes_v6m_BB27_11
	b	.Laes_v6m_BB27_10
.Laes_v6m_BB27_11:                              @ %join.5.i.5.preheader
	movs	r0, #0
	mov	r4, r0
	str	r0, [sp, #76]                   @ 4-byte Spill
	str	r6, [sp, #28]                   @ 4-byte Spill
	mov	r6, r0
.Laes_v6m_BB27_12:                              @ %join.5.i.5
                                        @ =>This Inner Loop Header: Depth=1
	ldrb	r0, [r5]
	ldrb	r1, [r5, #1]
	lsls	r1, r1, #8
	adds	r0, r1, r0
	ldrb	r1, [r5, #2]
	lsls	r1, r1, #16
	ldrb	r2, [r5, #3]
	lsls	r2, r2, #24
	adds	r1, r2, r1
	adds	r2, r1, r0
	subs	r1, r3, r4
	str	r4, [sp, #72]                   @ 4-byte Spill
	str	r6, [sp, #68]                   @ 4-byte Spill
	sbcs	r7, r6
	rev	r0, r7
	eors	r0, r2
	strb	r0, [r5]
	ldrb	r2, [r5, #4]
	ldrb	r3, [r5, #5]
	lsls	r3, r3, #8
	adds	r2, r3, r2
	ldrb	r3, [r5, #6]
	lsls	r3, r3, #16
	ldrb	r7, [r5, #7]
	lsls	r7, r7, #24
	adds	r3, r7, r3
	adds	r2, r3, r2
	rev	r1, r1
	eors	r1, r2
	strb	r1, [r5, #4]
	lsrs	r2, r0, #16
	strb	r2, [r5, #2]
	lsrs	r2, r0, #24
	strb	r2, [r5, #3]
	lsrs	r2, r0, #8
	strb	r2, [r5, #1]
	lsrs	r2, r1, #16
	strb	r2, [r5, #6]
	lsrs	r2, r1, #24
	strb	r2, [r5, #7]
	lsrs	r2, r1, #8
	strb	r2, [r5, #5]
	str	r1, [sp, #100]
	str	r0, [sp, #96]
	mvns	r0, r4
	ldr	r1, [sp, #88]                   @ 4-byte Reload
	adds	r0, r1, r0
	lsls	r6, r0, #3
	ldr	r3, [sp, #92]                   @ 4-byte Reload
	adds	r7, r3, r6
	ldrb	r0, [r7, #4]
	ldrb	r1, [r7, #5]
	lsls	r1, r1, #8
	adds	r0, r1, r0
	ldrb	r1, [r7, #6]
	lsls	r1, r1, #16
	ldrb	r2, [r7, #7]
	lsls	r2, r2, #24
	adds	r1, r2, r1
	adds	r0, r1, r0
	str	r0, [sp, #108]
	ldrb	r0, [r3, r6]
	ldrb	r1, [r7, #1]
	lsls	r1, r1, #8
	adds	r0, r1, r0
	ldrb	r1, [r7, #2]
	lsls	r1, r1, #16
	ldrb	r2, [r7, #3]
	lsls	r2, r2, #24
	adds	r1, r2, r1
	adds	r0, r1, r0
	str	r0, [sp, #104]
	ldr	r0, [sp, #28]                   @ 4-byte Reload
	ldrb	r1, [r0, #15]
	str	r1, [sp, #60]                   @ 4-byte Spill
	ldrb	r1, [r0, #14]
	str	r1, [sp, #56]                   @ 4-byte Spill
	ldrb	r1, [r0, #12]
	str	r1, [sp, #52]                   @ 4-byte Spill
	ldrb	r1, [r0, #13]
	str	r1, [sp, #48]                   @ 4-byte Spill
	ldrb	r1, [r0, #11]
	str	r1, [sp, #44]                   @ 4-byte Spill
	ldrb	r1, [r0, #10]
	str	r1, [sp, #40]                   @ 4-byte Spill
	ldrb	r1, [r0, #8]
	str	r1, [sp, #36]                   @ 4-byte Spill
	ldrb	r1, [r0, #9]
	str	r1, [sp, #32]                   @ 4-byte Spill
	ldrb	r2, [r0, #3]
	ldrb	r4, [r0, #2]
	ldrb	r1, [r0]
	ldrb	r0, [r0, #1]
	ldr	r3, [sp, #80]                   @ 4-byte Reload
	str	r3, [sp, #8]
	ldr	r3, [sp, #76]                   @ 4-byte Reload
	str	r3, [sp, #12]
	add	r3, sp, #96
	str	r3, [sp, #64]                   @ 4-byte Spill
	str	r3, [sp]
	lsls	r0, r0, #8
	adds	r0, r0, r1
	lsls	r1, r4, #16
	lsls	r2, r2, #24
	adds	r1, r2, r1
	adds	r0, r1, r0
	ldr	r1, [sp, #32]                   @ 4-byte Reload
	lsls	r1, r1, #8
	ldr	r2, [sp, #36]                   @ 4-byte Reload
	adds	r1, r1, r2
	ldr	r2, [sp, #40]                   @ 4-byte Reload
	lsls	r2, r2, #16
	ldr	r3, [sp, #44]                   @ 4-byte Reload
	lsls	r3, r3, #24
	adds	r2, r3, r2
	adds	r2, r2, r1
	ldr	r1, [sp, #48]                   @ 4-byte Reload
	lsls	r1, r1, #8
	ldr	r3, [sp, #52]                   @ 4-byte Reload
	adds	r1, r1, r3
	ldr	r3, [sp, #56]                   @ 4-byte Reload
	lsls	r3, r3, #16
	ldr	r4, [sp, #60]                   @ 4-byte Reload
	lsls	r4, r4, #24
	adds	r3, r4, r3
	adds	r3, r3, r1
	bl	aes_v6m.aes_narrow.blocks.process_all_batches.2
	bl	aes_v6m.aes_cipher.zeroize.stack.wipe_stack.1024
	ldr	r0, [sp, #100]
	strb	r0, [r5, #4]
	ldr	r1, [sp, #96]
	strb	r1, [r5]
	lsrs	r2, r0, #24
	strb	r2, [r5, #7]
	lsrs	r2, r0, #16
	strb	r2, [r5, #6]
	lsrs	r0, r0, #8
	strb	r0, [r5, #5]
	lsrs	r0, r1, #24
	strb	r0, [r5, #3]
	lsrs	r0, r1, #16
	strb	r0, [r5, #2]
	lsrs	r0, r1, #8
	strb	r0, [r5, #1]
	ldr	r0, [sp, #104]
	ldr	r1, [sp, #92]                   @ 4-byte Reload
	strb	r0, [r1, r6]
	ldr	r1, [sp, #108]
	lsrs	r2, r1, #16
	strb	r2, [r7, #6]
	lsrs	r2, r1, #24
	strb	r2, [r7, #7]
	strb	r1, [r7, #4]
	lsrs	r1, r1, #8
	strb	r1, [r7, #5]
	lsrs	r1, r0, #16
	strb	r1, [r7, #2]
	lsrs	r1, r0, #24
	strb	r1, [r7, #3]
	lsrs	r0, r0, #8
	strb	r0, [r7, #1]
	ldr	r7, [sp, #84]                   @ 4-byte Reload
	ldr	r0, [sp, #64]                   @ 4-byte Reload
	bl	aes_v6m.aes_cipher.zeroize.elements.zeroize_elements.3
	ldr	r3, [sp, #88]                   @ 4-byte Reload
	ldr	r0, [sp, #72]                   @ 4-byte Reload
	adds	r0, r0, #1
	ldr	r1, [sp, #68]                   @ 4-byte Reload
	ldr	r2, [sp, #76]                   @ 4-byte Reload
	adcs	r1, r2
	mov	r4, r0
	subs	r0, r0, r3
	mov	r6, r1
	mov	r0, r1
	sbcs	r0, r7
	bhs	.Laes_v6m_BB27_13
	b	.Laes_v6m_BB27_12
.Laes_v6m_BB27_13:                              @ %after.1
	add	sp, #116
	pop	{r4, r5, r6, r7, pc}
.Laes_v6m_func_end27:
	.size	aes_v6m.key_wrap.steps.unwrap_in_place, .Laes_v6m_func_end27-aes_v6m.key_wrap.steps.unwrap_in_place
	.cantunwind
	.fnend
                                        @ -- End function
	.section	.text.aes_v6m.aes_cipher.zeroize.elements.zeroize_elements.3,"ax",%progbits
	.p2align	1                               @ -- Begin function aes_cipher::zeroize::elements::zeroize_elements::<#51e2d7e6a2c2e10f>
	.type	aes_v6m.aes_cipher.zeroize.elements.zeroize_elements.3,%function
	.code	16
	.thumb_func
aes_v6m.aes_cipher.zeroize.elements.zeroize_elements.3: @ @aes_v6m.aes_cipher.zeroize.elements.zeroize_elements.3
	.fnstart
@ %bb.0:                                @ %start
	.save	{r4, lr}
	push	{r4, lr}
	.pad	#8
	sub	sp, #8
	movs	r4, #0
	str	r4, [sp, #4]
	str	r4, [sp]
	@APP
	@NO_APP
	ldr	r1, [sp, #4]
	ldr	r1, [sp]
	@APP
	@NO_APP
	movs	r2, #16
	mov	r1, r4
	bl	memset
	@APP
	@NO_APP
	ldr	r0, [sp, #4]
	ldr	r0, [sp]
	str	r4, [sp, #4]
	str	r4, [sp]
	@APP
	@NO_APP
	add	sp, #8
	pop	{r4, pc}
.Laes_v6m_func_end28:
	.size	aes_v6m.aes_cipher.zeroize.elements.zeroize_elements.3, .Laes_v6m_func_end28-aes_v6m.aes_cipher.zeroize.elements.zeroize_elements.3
	.cantunwind
	.fnend
                                        @ -- End function
	.section	.text.aes_v6m.aes_cipher.blocks.difference,"ax",%progbits
	.p2align	1                               @ -- Begin function aes_cipher::blocks::difference
	.type	aes_v6m.aes_cipher.blocks.difference,%function
	.code	16
	.thumb_func
aes_v6m.aes_cipher.blocks.difference:       @ @aes_v6m.aes_cipher.blocks.difference
	.fnstart
@ %bb.0:                                @ %start
	.save	{r4, lr}
	push	{r4, lr}
	ldrb	r2, [r0]
	ldrb	r3, [r1]
	eors	r3, r2
	ldrb	r2, [r0, #1]
	ldrb	r4, [r1, #1]
	eors	r4, r2
	orrs	r4, r3
	ldrb	r2, [r0, #2]
	ldrb	r3, [r1, #2]
	eors	r3, r2
	orrs	r3, r4
	ldrb	r2, [r0, #3]
	ldrb	r4, [r1, #3]
	eors	r4, r2
	orrs	r4, r3
	ldrb	r2, [r0, #4]
	ldrb	r3, [r1, #4]
	eors	r3, r2
	orrs	r3, r4
	ldrb	r2, [r0, #5]
	ldrb	r4, [r1, #5]
	eors	r4, r2
	orrs	r4, r3
	ldrb	r2, [r0, #6]
	ldrb	r3, [r1, #6]
	eors	r3, r2
	orrs	r3, r4
	ldrb	r2, [r0, #7]
	ldrb	r4, [r1, #7]
	eors	r4, r2
	orrs	r4, r3
	ldrb	r2, [r0, #8]
	ldrb	r3, [r1, #8]
	eors	r3, r2
	orrs	r3, r4
	ldrb	r2, [r0, #9]
	ldrb	r4, [r1, #9]
	eors	r4, r2
	orrs	r4, r3
	ldrb	r2, [r0, #10]
	ldrb	r3, [r1, #10]
	eors	r3, r2
	orrs	r3, r4
	ldrb	r2, [r0, #11]
	ldrb	r4, [r1, #11]
	eors	r4, r2
	orrs	r4, r3
	ldrb	r2, [r0, #12]
	ldrb	r3, [r1, #12]
	eors	r3, r2
	orrs	r3, r4
	ldrb	r2, [r0, #13]
	ldrb	r4, [r1, #13]
	eors	r4, r2
	orrs	r4, r3
	ldrb	r2, [r0, #14]
	ldrb	r3, [r1, #14]
	eors	r3, r2
	orrs	r3, r4
	ldrb	r2, [r0, #15]
	ldrb	r0, [r1, #15]
	eors	r0, r2
	orrs	r0, r3
	pop	{r4, pc}
.Laes_v6m_func_end29:
	.size	aes_v6m.aes_cipher.blocks.difference, .Laes_v6m_func_end29-aes_v6m.aes_cipher.blocks.difference
	.cantunwind
	.fnend
                                        @ -- End function
	.section	.text.aes_v6m.key_wrap.padded.unwrap_padded,"ax",%progbits
	.p2align	1                               @ -- Begin function key_wrap::padded::unwrap_padded::<#10c636071cb6e37c>
	.type	aes_v6m.key_wrap.padded.unwrap_padded,%function
	.code	16
	.thumb_func
aes_v6m.key_wrap.padded.unwrap_padded: @ @aes_v6m.key_wrap.padded.unwrap_padded
	.fnstart
@ %bb.0:                                @ %start
	.save	{r4, r5, r6, r7, lr}
	push	{r4, r5, r6, r7, lr}
	.pad	#124
	sub	sp, #124
	str	r2, [sp, #44]                   @ 4-byte Spill
	str	r1, [sp, #36]                   @ 4-byte Spill
	movs	r5, #0
	ldr	r2, [sp, #164]
	ldr	r7, [sp, #160]
	adds	r1, r7, #1
	mov	r3, r2
	adcs	r3, r5
	subs	r6, r7, #1
	str	r2, [sp, #40]                   @ 4-byte Spill
	sbcs	r2, r5
	lsrs	r4, r6, #29
	orrs	r4, r2
	beq	.Laes_v6m_BB30_1
	b	.Laes_v6m_BB30_14
.Laes_v6m_BB30_1:                               @ %start
	ldr	r2, [sp, #148]
	ldr	r4, [sp, #144]
	eors	r1, r4
	eors	r3, r2
	orrs	r3, r1
	beq	.Laes_v6m_BB30_2
	b	.Laes_v6m_BB30_14
.Laes_v6m_BB30_2:                               @ %after.1
	str	r7, [sp, #32]                   @ 4-byte Spill
	str	r6, [sp, #24]                   @ 4-byte Spill
	str	r0, [sp, #28]                   @ 4-byte Spill
	ldr	r0, [sp, #152]
	subs	r4, r4, #1
	sbcs	r2, r5
	str	r2, [sp, #56]                   @ 4-byte Spill
	lsls	r1, r2, #3
	lsrs	r3, r4, #29
	adds	r3, r1, r3
	ldr	r1, [sp, #44]                   @ 4-byte Reload
	adds	r1, #8
	subs	r7, r0, r1
	mov	r6, r5
	sbcs	r6, r5
	lsls	r2, r4, #3
	subs	r7, r7, r2
	sbcs	r6, r3
	str	r5, [sp, #64]                   @ 4-byte Spill
	str	r0, [sp, #60]                   @ 4-byte Spill
	blo	.Laes_v6m_BB30_3
	b	.Laes_v6m_BB30_15
.Laes_v6m_BB30_3:                               @ %join.7.i.i.i.i.i.i.i.preheader
	movs	r6, #1
	cmp	r4, #1
	mov	r3, r4
	bhi	.Laes_v6m_BB30_4
	b	.Laes_v6m_BB30_22
.Laes_v6m_BB30_4:                               @ %join.7.i.i.i.i.i.i.i.preheader
	ldr	r0, [sp, #56]                   @ 4-byte Reload
	cmp	r0, #0
	mov	r7, r4
	bne	.Laes_v6m_BB30_5
	b	.Laes_v6m_BB30_23
.Laes_v6m_BB30_5:                               @ %join.7.i.i.i.i.i.i.i.preheader
	str	r1, [sp, #52]                   @ 4-byte Spill
	beq	.Laes_v6m_BB30_7
.Laes_v6m_BB30_6:                               @ %join.7.i.i.i.i.i.i.i.preheader
	mov	r3, r7
.Laes_v6m_BB30_7:                               @ %join.7.i.i.i.i.i.i.i.preheader
	movs	r6, #3
	mov	r0, r3
	ands	r0, r6
	subs	r2, r4, #4
	ldr	r2, [sp, #56]                   @ 4-byte Reload
	sbcs	r2, r5
	mov	r2, r5
	str	r0, [sp, #20]                   @ 4-byte Spill
	bhs	.Laes_v6m_BB30_8
	b	.Laes_v6m_BB30_11
.Laes_v6m_BB30_8:                               @ %join.7.i.i.i.i.i.i.i.preheader.new
	bics	r3, r6
	str	r3, [sp, #48]                   @ 4-byte Spill
	mov	r2, r5
	mov	r4, r5
.Laes_v6m_BB30_9:                               @ %join.7.i.i.i.i.i.i.i
                                        @ =>This Inner Loop Header: Depth=1
	str	r4, [sp, #88]                   @ 4-byte Spill
	str	r2, [sp, #92]                   @ 4-byte Spill
	lsls	r4, r2, #3
	ldr	r6, [sp, #52]                   @ 4-byte Reload
	adds	r2, r6, r4
	ldrb	r0, [r2, #1]
	str	r0, [sp, #80]                   @ 4-byte Spill
	ldrb	r0, [r2, #2]
	str	r0, [sp, #76]                   @ 4-byte Spill
	ldrb	r0, [r2, #3]
	str	r0, [sp, #72]                   @ 4-byte Spill
	ldrb	r1, [r2, #4]
	ldrb	r0, [r2, #5]
	ldrb	r7, [r2, #6]
	ldrb	r2, [r2, #7]
	ldrb	r5, [r6, r4]
	ldr	r3, [sp, #60]                   @ 4-byte Reload
	strb	r5, [r3, r4]
	adds	r5, r3, r4
	strb	r2, [r5, #7]
	strb	r7, [r5, #6]
	strb	r0, [r5, #5]
	strb	r1, [r5, #4]
	ldr	r0, [sp, #72]                   @ 4-byte Reload
	strb	r0, [r5, #3]
	ldr	r0, [sp, #76]                   @ 4-byte Reload
	strb	r0, [r5, #2]
	ldr	r0, [sp, #80]                   @ 4-byte Reload
	strb	r0, [r5, #1]
	movs	r0, #8
	orrs	r0, r4
	str	r4, [sp, #84]                   @ 4-byte Spill
	adds	r2, r6, r0
	ldrb	r1, [r2, #4]
	str	r1, [sp, #80]                   @ 4-byte Spill
	ldrb	r1, [r2, #5]
	str	r1, [sp, #76]                   @ 4-byte Spill
	ldrb	r1, [r2, #7]
	str	r1, [sp, #72]                   @ 4-byte Spill
	ldrb	r1, [r2, #6]
	str	r1, [sp, #68]                   @ 4-byte Spill
	ldrb	r5, [r2, #1]
	ldrb	r1, [r2, #2]
	ldrb	r2, [r2, #3]
	ldrb	r7, [r6, r0]
	strb	r7, [r3, r0]
	adds	r0, r3, r0
	strb	r2, [r0, #3]
	strb	r1, [r0, #2]
	strb	r5, [r0, #1]
	ldr	r1, [sp, #68]                   @ 4-byte Reload
	strb	r1, [r0, #6]
	ldr	r1, [sp, #72]                   @ 4-byte Reload
	strb	r1, [r0, #7]
	ldr	r1, [sp, #76]                   @ 4-byte Reload
	strb	r1, [r0, #5]
	ldr	r1, [sp, #80]                   @ 4-byte Reload
	strb	r1, [r0, #4]
	movs	r0, #16
	orrs	r0, r4
	adds	r1, r6, r0
	ldrb	r2, [r1, #7]
	str	r2, [sp, #80]                   @ 4-byte Spill
	ldrb	r2, [r1, #6]
	str	r2, [sp, #76]                   @ 4-byte Spill
	ldrb	r2, [r1, #1]
	str	r2, [sp, #72]                   @ 4-byte Spill
	ldrb	r7, [r1, #2]
	ldrb	r5, [r1, #3]
	ldrb	r2, [r1, #4]
	ldrb	r1, [r1, #5]
	ldrb	r4, [r6, r0]
	strb	r4, [r3, r0]
	adds	r0, r3, r0
	strb	r1, [r0, #5]
	strb	r2, [r0, #4]
	strb	r5, [r0, #3]
	strb	r7, [r0, #2]
	ldr	r1, [sp, #72]                   @ 4-byte Reload
	strb	r1, [r0, #1]
	ldr	r1, [sp, #76]                   @ 4-byte Reload
	strb	r1, [r0, #6]
	ldr	r1, [sp, #80]                   @ 4-byte Reload
	strb	r1, [r0, #7]
	movs	r0, #24
	ldr	r1, [sp, #84]                   @ 4-byte Reload
	orrs	r0, r1
	adds	r1, r6, r0
	ldrb	r2, [r1, #1]
	str	r2, [sp, #84]                   @ 4-byte Spill
	ldrb	r2, [r1, #2]
	str	r2, [sp, #80]                   @ 4-byte Spill
	ldrb	r2, [r1, #3]
	str	r2, [sp, #76]                   @ 4-byte Spill
	ldrb	r5, [r1, #4]
	ldrb	r4, [r1, #5]
	ldrb	r7, [r1, #6]
	ldrb	r1, [r1, #7]
	ldrb	r2, [r6, r0]
	strb	r2, [r3, r0]
	ldr	r2, [sp, #92]                   @ 4-byte Reload
	adds	r0, r3, r0
	strb	r1, [r0, #7]
	strb	r7, [r0, #6]
	strb	r4, [r0, #5]
	strb	r5, [r0, #4]
	ldr	r5, [sp, #64]                   @ 4-byte Reload
	ldr	r1, [sp, #76]                   @ 4-byte Reload
	strb	r1, [r0, #3]
	ldr	r4, [sp, #88]                   @ 4-byte Reload
	ldr	r1, [sp, #80]                   @ 4-byte Reload
	strb	r1, [r0, #2]
	ldr	r1, [sp, #84]                   @ 4-byte Reload
	strb	r1, [r0, #1]
	adds	r2, r2, #4
	adcs	r4, r5
	mov	r0, r4
	ldr	r1, [sp, #56]                   @ 4-byte Reload
	eors	r0, r1
	mov	r1, r2
	ldr	r6, [sp, #48]                   @ 4-byte Reload
	eors	r1, r6
	orrs	r1, r0
	bne	.Laes_v6m_BB30_9
@ %bb.10:                               @ %"key_wrap::wrapping::copy_apart.exit.loopexit.unr-lcssa"
	ldr	r0, [sp, #20]                   @ 4-byte Reload
	cmp	r0, #0
	beq	.Laes_v6m_BB30_16
.Laes_v6m_BB30_11:                              @ %join.7.i.i.i.i.i.i.i.epil.preheader
	lsls	r3, r2, #3
	mov	r4, r0
	ldr	r0, [sp, #52]                   @ 4-byte Reload
	adds	r1, r0, r3
	ldrb	r2, [r1, #1]
	str	r2, [sp, #92]                   @ 4-byte Spill
	ldrb	r2, [r1, #3]
	str	r2, [sp, #88]                   @ 4-byte Spill
	ldrb	r2, [r1, #2]
	str	r2, [sp, #84]                   @ 4-byte Spill
	ldrb	r5, [r1, #5]
	ldrb	r6, [r1, #4]
	ldrb	r7, [r1, #7]
	ldrb	r1, [r1, #6]
	ldrb	r2, [r0, r3]
	ldr	r0, [sp, #60]                   @ 4-byte Reload
	strb	r2, [r0, r3]
	adds	r2, r0, r3
	strb	r1, [r2, #6]
	strb	r7, [r2, #7]
	strb	r6, [r2, #4]
	strb	r5, [r2, #5]
	ldr	r5, [sp, #64]                   @ 4-byte Reload
	ldr	r1, [sp, #84]                   @ 4-byte Reload
	strb	r1, [r2, #2]
	ldr	r1, [sp, #88]                   @ 4-byte Reload
	strb	r1, [r2, #3]
	ldr	r1, [sp, #92]                   @ 4-byte Reload
	strb	r1, [r2, #1]
	cmp	r4, #1
	beq	.Laes_v6m_BB30_16
@ %bb.12:                               @ %join.7.i.i.i.i.i.i.i.epil.1
	mov	r1, r3
	adds	r1, #8
	ldr	r0, [sp, #52]                   @ 4-byte Reload
	adds	r2, r0, r1
	ldrb	r4, [r2, #1]
	str	r4, [sp, #92]                   @ 4-byte Spill
	ldrb	r4, [r2, #3]
	str	r4, [sp, #88]                   @ 4-byte Spill
	ldrb	r4, [r2, #2]
	str	r4, [sp, #84]                   @ 4-byte Spill
	ldrb	r6, [r2, #5]
	ldrb	r7, [r2, #4]
	ldrb	r5, [r2, #7]
	ldrb	r2, [r2, #6]
	ldrb	r4, [r0, r1]
	ldr	r0, [sp, #60]                   @ 4-byte Reload
	strb	r4, [r0, r1]
	adds	r1, r0, r1
	strb	r2, [r1, #6]
	strb	r5, [r1, #7]
	strb	r7, [r1, #4]
	strb	r6, [r1, #5]
	ldr	r0, [sp, #84]                   @ 4-byte Reload
	strb	r0, [r1, #2]
	ldr	r5, [sp, #64]                   @ 4-byte Reload
	ldr	r0, [sp, #88]                   @ 4-byte Reload
	strb	r0, [r1, #3]
	ldr	r0, [sp, #92]                   @ 4-byte Reload
	strb	r0, [r1, #1]
	ldr	r0, [sp, #20]                   @ 4-byte Reload
	cmp	r0, #2
	beq	.Laes_v6m_BB30_16
@ %bb.13:                               @ %join.7.i.i.i.i.i.i.i.epil.2
	adds	r3, #16
	ldr	r0, [sp, #52]                   @ 4-byte Reload
	adds	r1, r0, r3
	ldrb	r2, [r1, #1]
	str	r2, [sp, #92]                   @ 4-byte Spill
	ldrb	r2, [r1, #3]
	str	r2, [sp, #88]                   @ 4-byte Spill
	ldrb	r4, [r1, #2]
	ldrb	r5, [r1, #5]
	ldrb	r6, [r1, #4]
	ldrb	r7, [r1, #7]
	ldrb	r1, [r1, #6]
	ldrb	r2, [r0, r3]
	ldr	r0, [sp, #60]                   @ 4-byte Reload
	strb	r2, [r0, r3]
	adds	r0, r0, r3
	strb	r1, [r0, #6]
	strb	r7, [r0, #7]
	strb	r6, [r0, #4]
	strb	r5, [r0, #5]
	ldr	r5, [sp, #64]                   @ 4-byte Reload
	strb	r4, [r0, #2]
	ldr	r1, [sp, #88]                   @ 4-byte Reload
	strb	r1, [r0, #3]
	ldr	r1, [sp, #92]                   @ 4-byte Reload
	strb	r1, [r0, #1]
	b	.Laes_v6m_BB30_16
.Laes_v6m_BB30_14:                              @ %join.5
	strb	r5, [r0, #7]
	strb	r5, [r0, #6]
	strb	r5, [r0, #5]
	strb	r5, [r0, #4]
	strb	r5, [r0, #1]
	movs	r1, #1
	strb	r1, [r0]
	add	sp, #124
	pop	{r4, r5, r6, r7, pc}
.Laes_v6m_BB30_15:                              @ %apart.2.i.i.i.i.i.i.i
	bl	memmove
.Laes_v6m_BB30_16:                              @ %"key_wrap::wrapping::copy_apart.exit"
	ldr	r1, [sp, #44]                   @ 4-byte Reload
	ldrb	r0, [r1, #4]
	ldrb	r2, [r1, #5]
	lsls	r2, r2, #8
	adds	r0, r2, r0
	ldrb	r2, [r1, #6]
	lsls	r2, r2, #16
	ldrb	r3, [r1, #7]
	lsls	r3, r3, #24
	adds	r2, r3, r2
	adds	r0, r2, r0
	str	r0, [sp, #100]
	ldrb	r2, [r1]
	ldrb	r3, [r1, #1]
	lsls	r3, r3, #8
	adds	r2, r3, r2
	ldrb	r3, [r1, #2]
	lsls	r3, r3, #16
	ldrb	r1, [r1, #3]
	lsls	r1, r1, #24
	adds	r1, r1, r3
	adds	r1, r1, r2
	str	r1, [sp, #96]
	movs	r4, #1
	ldr	r3, [sp, #32]                   @ 4-byte Reload
	mov	r2, r3
	eors	r2, r4
	ldr	r6, [sp, #40]                   @ 4-byte Reload
	orrs	r2, r6
	str	r4, [sp, #92]                   @ 4-byte Spill
	bne	.Laes_v6m_BB30_18
@ %bb.17:                               @ %"key_wrap::steps::unwrap_string::<#10c636071cb6e37c>.exit.thread"
	str	r1, [sp, #104]
	str	r0, [sp, #108]
	ldr	r7, [sp, #60]                   @ 4-byte Reload
	ldrb	r0, [r7, #4]
	ldrb	r1, [r7, #5]
	lsls	r1, r1, #8
	adds	r0, r1, r0
	ldrb	r1, [r7, #6]
	lsls	r1, r1, #16
	ldrb	r2, [r7, #7]
	lsls	r2, r2, #24
	adds	r1, r2, r1
	adds	r0, r1, r0
	str	r0, [sp, #116]
	ldrb	r0, [r7]
	ldrb	r1, [r7, #1]
	lsls	r1, r1, #8
	adds	r0, r1, r0
	ldrb	r1, [r7, #2]
	lsls	r1, r1, #16
	ldrb	r2, [r7, #3]
	lsls	r2, r2, #24
	adds	r1, r2, r1
	adds	r0, r1, r0
	str	r0, [sp, #112]
	ldr	r0, [sp, #36]                   @ 4-byte Reload
	ldrb	r1, [r0, #15]
	str	r1, [sp, #84]                   @ 4-byte Spill
	ldrb	r1, [r0, #14]
	str	r1, [sp, #80]                   @ 4-byte Spill
	ldrb	r1, [r0, #12]
	str	r1, [sp, #76]                   @ 4-byte Spill
	ldrb	r1, [r0, #13]
	str	r1, [sp, #72]                   @ 4-byte Spill
	ldrb	r1, [r0, #11]
	str	r1, [sp, #68]                   @ 4-byte Spill
	ldrb	r1, [r0, #10]
	str	r1, [sp, #56]                   @ 4-byte Spill
	ldrb	r1, [r0, #8]
	str	r1, [sp, #52]                   @ 4-byte Spill
	ldrb	r5, [r0, #9]
	ldrb	r3, [r0, #3]
	ldrb	r2, [r0, #2]
	ldrb	r1, [r0]
	ldrb	r0, [r0, #1]
	str	r4, [sp, #8]
	ldr	r6, [sp, #64]                   @ 4-byte Reload
	str	r6, [sp, #12]
	add	r4, sp, #104
	str	r4, [sp, #88]                   @ 4-byte Spill
	str	r4, [sp]
	lsls	r0, r0, #8
	adds	r0, r0, r1
	lsls	r1, r2, #16
	lsls	r2, r3, #24
	adds	r1, r2, r1
	adds	r0, r1, r0
	lsls	r1, r5, #8
	ldr	r5, [sp, #64]                   @ 4-byte Reload
	ldr	r2, [sp, #52]                   @ 4-byte Reload
	adds	r1, r1, r2
	ldr	r2, [sp, #56]                   @ 4-byte Reload
	lsls	r2, r2, #16
	ldr	r3, [sp, #68]                   @ 4-byte Reload
	lsls	r3, r3, #24
	adds	r2, r3, r2
	adds	r2, r2, r1
	ldr	r1, [sp, #72]                   @ 4-byte Reload
	lsls	r1, r1, #8
	ldr	r3, [sp, #76]                   @ 4-byte Reload
	adds	r1, r1, r3
	ldr	r3, [sp, #80]                   @ 4-byte Reload
	lsls	r3, r3, #16
	ldr	r4, [sp, #84]                   @ 4-byte Reload
	lsls	r4, r4, #24
	adds	r3, r4, r3
	adds	r3, r3, r1
	bl	aes_v6m.aes_narrow.blocks.process_all_batches.2
	bl	aes_v6m.aes_cipher.zeroize.stack.wipe_stack.1024
	ldr	r0, [sp, #116]
	strb	r0, [r7, #4]
	ldr	r1, [sp, #112]
	strb	r1, [r7]
	lsrs	r2, r0, #24
	strb	r2, [r7, #7]
	lsrs	r2, r0, #16
	strb	r2, [r7, #6]
	lsrs	r0, r0, #8
	strb	r0, [r7, #5]
	lsrs	r0, r1, #24
	strb	r0, [r7, #3]
	lsrs	r0, r1, #16
	strb	r0, [r7, #2]
	lsrs	r0, r1, #8
	strb	r0, [r7, #1]
	ldr	r4, [sp, #108]
	ldr	r6, [sp, #104]
	ldr	r0, [sp, #88]                   @ 4-byte Reload
	bl	aes_v6m.aes_cipher.zeroize.elements.zeroize_elements.3
	ldr	r0, [sp, #32]                   @ 4-byte Reload
	str	r0, [sp]
	ldr	r0, [sp, #40]                   @ 4-byte Reload
	str	r0, [sp, #4]
	mov	r0, r6
	mov	r1, r4
	mov	r2, r7
	bl	aes_v6m.key_wrap.padded.difference
	orrs	r1, r0
	ldr	r6, [sp, #24]                   @ 4-byte Reload
	bne	.Laes_v6m_BB30_20
	b	.Laes_v6m_BB30_21
.Laes_v6m_BB30_18:                              @ %"key_wrap::steps::unwrap_string::<#10c636071cb6e37c>.exit"
	str	r3, [sp]
	str	r6, [sp, #4]
	add	r1, sp, #96
	ldr	r0, [sp, #36]                   @ 4-byte Reload
	mov	r4, r3
	ldr	r7, [sp, #60]                   @ 4-byte Reload
	mov	r2, r7
	bl	aes_v6m.key_wrap.steps.unwrap_in_place
	ldr	r1, [sp, #100]
	ldr	r0, [sp, #96]
	str	r4, [sp]
	mov	r4, r1
	str	r6, [sp, #4]
	mov	r2, r7
	bl	aes_v6m.key_wrap.padded.difference
	orrs	r1, r0
	ldr	r6, [sp, #24]                   @ 4-byte Reload
	beq	.Laes_v6m_BB30_21
@ %bb.19:                               @ %join.8.i.preheader
	ldr	r0, [sp, #32]                   @ 4-byte Reload
	lsls	r2, r0, #3
	subs	r2, #8
	movs	r1, #0
	mov	r0, r7
	bl	memset
.Laes_v6m_BB30_20:                              @ %"core::slice::edits::slice+T::fill::<#1e8902aced0720be>.exit"
	lsls	r0, r6, #3
	strb	r5, [r7, r0]
	adds	r0, r7, r0
	strb	r5, [r0, #7]
	strb	r5, [r0, #6]
	strb	r5, [r0, #5]
	strb	r5, [r0, #4]
	strb	r5, [r0, #3]
	strb	r5, [r0, #2]
	strb	r5, [r0, #1]
	ldr	r0, [sp, #28]                   @ 4-byte Reload
	ldr	r1, [sp, #92]                   @ 4-byte Reload
	strb	r1, [r0]
	strb	r5, [r0, #6]
	strb	r5, [r0, #7]
	strb	r5, [r0, #4]
	strb	r5, [r0, #5]
	strb	r1, [r0, #1]
	add	sp, #124
	pop	{r4, r5, r6, r7, pc}
.Laes_v6m_BB30_21:                              @ %join.16
	ldr	r2, [sp, #28]                   @ 4-byte Reload
	strb	r5, [r2, #1]
	strb	r5, [r2]
	rev	r0, r4
	strb	r0, [r2, #4]
	lsrs	r1, r0, #24
	strb	r1, [r2, #7]
	lsrs	r1, r0, #16
	strb	r1, [r2, #6]
	lsrs	r0, r0, #8
	strb	r0, [r2, #5]
	add	sp, #124
	pop	{r4, r5, r6, r7, pc}
.Laes_v6m_BB30_22:                              @ %join.7.i.i.i.i.i.i.i.preheader
	mov	r3, r6
	ldr	r0, [sp, #56]                   @ 4-byte Reload
	cmp	r0, #0
	mov	r7, r4
	beq	.Laes_v6m_BB30_23
	b	.Laes_v6m_BB30_5
.Laes_v6m_BB30_23:                              @ %join.7.i.i.i.i.i.i.i.preheader
	mov	r7, r6
	str	r1, [sp, #52]                   @ 4-byte Spill
	beq	.Laes_v6m_BB30_24
	b	.Laes_v6m_BB30_6
.Laes_v6m_BB30_24:                              @ %join.7.i.i.i.i.i.i.i.preheader
	b	.Laes_v6m_BB30_7
.Laes_v6m_func_end30:
	.size	aes_v6m.key_wrap.padded.unwrap_padded, .Laes_v6m_func_end30-aes_v6m.key_wrap.padded.unwrap_padded
	.cantunwind
	.fnend
                                        @ -- End function
	.section	.text.aes_v6m.key_wrap.padded.difference,"ax",%progbits
	.p2align	2                               @ -- Begin function key_wrap::padded::difference
	.type	aes_v6m.key_wrap.padded.difference,%function
	.code	16
	.thumb_func
aes_v6m.key_wrap.padded.difference:         @ @aes_v6m.key_wrap.padded.difference
	.fnstart
@ %bb.0:                                @ %start
	.save	{r4, r5, r6, r7, lr}
	push	{r4, r5, r6, r7, lr}
	.pad	#20
	sub	sp, #20
	str	r0, [sp, #16]                   @ 4-byte Spill
	ldr	r0, [sp, #40]
	lsrs	r3, r0, #29
	ldr	r4, [sp, #44]
	lsls	r4, r4, #3
	adds	r4, r4, r3
	rev	r1, r1
	lsls	r3, r0, #3
	movs	r0, #0
	subs	r6, r3, r1
	str	r6, [sp, #8]                    @ 4-byte Spill
	sbcs	r4, r0
	str	r4, [sp, #12]                   @ 4-byte Spill
	adds	r5, r2, r3
	subs	r1, r5, #1
	ldrb	r7, [r1]
	movs	r1, #7
	str	r1, [sp, #4]                    @ 4-byte Spill
	ands	r6, r1
	mov	r1, r6
	bl	aes_v6m.key_wrap.padded.mask_below
	mov	r4, r0
	ands	r4, r7
	subs	r0, r5, #2
	ldrb	r0, [r0]
	str	r0, [sp]                        @ 4-byte Spill
	movs	r0, #1
	mov	r1, r6
	bl	aes_v6m.key_wrap.padded.mask_below
	mov	r7, r0
	ldr	r0, [sp]                        @ 4-byte Reload
	ands	r7, r0
	orrs	r7, r4
	subs	r0, r5, #3
	ldrb	r0, [r0]
	str	r0, [sp]                        @ 4-byte Spill
	movs	r0, #2
	mov	r1, r6
	bl	aes_v6m.key_wrap.padded.mask_below
	mov	r4, r0
	ldr	r0, [sp]                        @ 4-byte Reload
	ands	r4, r0
	orrs	r4, r7
	subs	r0, r5, #4
	ldrb	r0, [r0]
	str	r0, [sp]                        @ 4-byte Spill
	movs	r0, #3
	mov	r1, r6
	bl	aes_v6m.key_wrap.padded.mask_below
	mov	r7, r0
	ldr	r0, [sp]                        @ 4-byte Reload
	ands	r7, r0
	orrs	r7, r4
	subs	r0, r5, #5
	ldrb	r0, [r0]
	str	r0, [sp]                        @ 4-byte Spill
	movs	r0, #4
	mov	r1, r6
	bl	aes_v6m.key_wrap.padded.mask_below
	mov	r4, r0
	ldr	r0, [sp]                        @ 4-byte Reload
	ands	r4, r0
	orrs	r4, r7
	subs	r0, r5, #6
	ldrb	r0, [r0]
	str	r0, [sp]                        @ 4-byte Spill
	movs	r0, #5
	mov	r1, r6
	bl	aes_v6m.key_wrap.padded.mask_below
	mov	r7, r0
	ldr	r0, [sp]                        @ 4-byte Reload
	ands	r7, r0
	orrs	r7, r4
	subs	r0, r5, #7
	ldrb	r0, [r0]
	str	r0, [sp]                        @ 4-byte Spill
	movs	r0, #6
	mov	r1, r6
	bl	aes_v6m.key_wrap.padded.mask_below
	mov	r4, r0
	ldr	r0, [sp]                        @ 4-byte Reload
	ands	r4, r0
	orrs	r4, r7
	subs	r5, #8
	ldrb	r5, [r5]
	ldr	r0, [sp, #4]                    @ 4-byte Reload
	mov	r1, r6
	bl	aes_v6m.key_wrap.padded.mask_below
	ands	r0, r5
	orrs	r0, r4
	uxtb	r1, r0
	ldr	r4, [sp, #12]                   @ 4-byte Reload
	lsls	r0, r4, #29
	ldr	r2, [sp, #8]                    @ 4-byte Reload
	lsrs	r2, r2, #3
	adds	r2, r2, r0
	ldr	r0, [sp, #16]                   @ 4-byte Reload
	rev	r0, r0
	ldr	r3, .Laes_v6m_CPI31_0
	adds	r0, r0, r3
	orrs	r0, r2
	orrs	r0, r1
	lsrs	r1, r4, #3
	add	sp, #20
	pop	{r4, r5, r6, r7, pc}
	.p2align	2
@ %bb.1:
.Laes_v6m_CPI31_0:
	.long	1504093786                      @ 0x59a6a65a
.Laes_v6m_func_end31:
	.size	aes_v6m.key_wrap.padded.difference, .Laes_v6m_func_end31-aes_v6m.key_wrap.padded.difference
	.cantunwind
	.fnend
                                        @ -- End function
	.section	.text.aes_v6m.key_wrap.padded.mask_below,"ax",%progbits
	.p2align	1                               @ -- Begin function key_wrap::padded::mask_below
	.type	aes_v6m.key_wrap.padded.mask_below,%function
	.code	16
	.thumb_func
aes_v6m.key_wrap.padded.mask_below:         @ @aes_v6m.key_wrap.padded.mask_below
	.fnstart
@ %bb.0:                                @ %start
	subs	r0, r0, r1
	lsrs	r0, r0, #24
	bx	lr
.Laes_v6m_func_end32:
	.size	aes_v6m.key_wrap.padded.mask_below, .Laes_v6m_func_end32-aes_v6m.key_wrap.padded.mask_below
	.cantunwind
	.fnend
                                        @ -- End function
	.section	.text.aes_v6m.aes_c.single_rounds.inverse_mixed,"ax",%progbits
	.p2align	2                               @ -- Begin function aes_c::single_rounds::inverse_mixed
	.type	aes_v6m.aes_c.single_rounds.inverse_mixed,%function
	.code	16
	.thumb_func
aes_v6m.aes_c.single_rounds.inverse_mixed:  @ @aes_v6m.aes_c.single_rounds.inverse_mixed
	.fnstart
@ %bb.0:                                @ %start
	.save	{r4, r5, r6, r7, lr}
	push	{r4, r5, r6, r7, lr}
	.pad	#100
	sub	sp, #100
	mov	r1, r0
	str	r0, [sp, #32]                   @ 4-byte Spill
	add	r0, sp, #68
	bl	aes_v6m.aes_planes.soft.word.word32.U32Word.in_every_slot
	movs	r3, #8
	str	r3, [sp, #44]                   @ 4-byte Spill
	ldr	r0, [sp, #88]
	str	r0, [sp, #56]                   @ 4-byte Spill
	mov	r7, r0
	rors	r7, r3
	eors	r7, r0
	ldr	r0, [sp, #92]
	mov	r1, r7
	eors	r1, r0
	str	r1, [sp, #48]                   @ 4-byte Spill
	mov	r4, r0
	rors	r4, r3
	eors	r4, r0
	str	r4, [sp, #8]                    @ 4-byte Spill
	ldr	r2, [sp, #96]
	mov	r0, r4
	eors	r0, r2
	str	r0, [sp, #64]                   @ 4-byte Spill
	eors	r0, r1
	mov	r6, r0
	str	r0, [sp, #24]                   @ 4-byte Spill
	ldr	r5, [sp, #84]
	mov	r0, r5
	rors	r0, r3
	eors	r0, r5
	mov	r4, r0
	str	r0, [sp, #20]                   @ 4-byte Spill
	ldr	r1, [sp, #72]
	str	r1, [sp, #60]                   @ 4-byte Spill
	mov	r0, r1
	rors	r0, r3
	eors	r0, r1
	str	r0, [sp, #28]                   @ 4-byte Spill
	ldr	r1, [sp, #76]
	str	r1, [sp, #12]                   @ 4-byte Spill
	eors	r0, r1
	str	r0, [sp, #16]                   @ 4-byte Spill
	mov	r3, r4
	eors	r3, r0
	eors	r3, r6
	movs	r0, #16
	str	r0, [sp, #40]                   @ 4-byte Spill
	mov	r4, r3
	rors	r4, r0
	mov	r6, r2
	ldr	r1, [sp, #44]                   @ 4-byte Reload
	rors	r6, r1
	eors	r6, r2
	ldr	r0, [sp, #80]
	mov	r2, r0
	rors	r2, r1
	eors	r2, r0
	str	r2, [sp, #52]                   @ 4-byte Spill
	eors	r5, r2
	eors	r5, r6
	mov	r2, r6
	str	r6, [sp, #36]                   @ 4-byte Spill
	eors	r4, r5
	eors	r4, r3
	lsrs	r3, r4, #1
	str	r3, [sp, #4]                    @ 4-byte Spill
	ldr	r3, [sp, #12]                   @ 4-byte Reload
	mov	r6, r3
	rors	r6, r1
	eors	r6, r3
	eors	r0, r6
	eors	r0, r2
	str	r0, [sp, #12]                   @ 4-byte Spill
	ldr	r2, [sp, #64]                   @ 4-byte Reload
	eors	r7, r2
	eors	r7, r0
	mov	r2, r7
	ldr	r3, [sp, #40]                   @ 4-byte Reload
	rors	r2, r3
	ldr	r0, [sp, #4]                    @ 4-byte Reload
	eors	r2, r0
	ldr	r1, [sp, #20]                   @ 4-byte Reload
	ldr	r0, [sp, #56]                   @ 4-byte Reload
	eors	r1, r0
	eors	r2, r1
	eors	r2, r7
	lsls	r2, r2, #1
	ldr	r0, .Laes_v6m_CPI33_0
	ands	r2, r0
	eors	r2, r4
	str	r2, [sp, #20]                   @ 4-byte Spill
	lsrs	r0, r2, #2
	str	r0, [sp, #56]                   @ 4-byte Spill
	ldr	r0, [sp, #8]                    @ 4-byte Reload
	eors	r5, r0
	mov	r2, r5
	rors	r2, r3
	ldr	r4, [sp, #48]                   @ 4-byte Reload
	eors	r2, r4
	eors	r2, r5
	lsrs	r0, r2, #1
	ldr	r5, [sp, #36]                   @ 4-byte Reload
	mov	r7, r1
	eors	r7, r5
	mov	r1, r7
	rors	r1, r3
	eors	r1, r0
	ldr	r0, [sp, #64]                   @ 4-byte Reload
	eors	r1, r0
	eors	r1, r7
	lsls	r0, r1, #1
	ldr	r1, .Laes_v6m_CPI33_0
	ands	r0, r1
	eors	r0, r2
	ldr	r1, [sp, #56]                   @ 4-byte Reload
	eors	r1, r0
	ldr	r2, .Laes_v6m_CPI33_1
	ands	r1, r2
	str	r1, [sp, #56]                   @ 4-byte Spill
	eors	r0, r1
	ldr	r2, [sp, #68]
	mov	r3, r2
	ldr	r1, [sp, #44]                   @ 4-byte Reload
	rors	r3, r1
	eors	r3, r2
	ldr	r1, [sp, #60]                   @ 4-byte Reload
	eors	r1, r3
	eors	r1, r5
	str	r1, [sp, #60]                   @ 4-byte Spill
	ldr	r5, [sp, #52]                   @ 4-byte Reload
	eors	r5, r4
	eors	r5, r1
	str	r5, [sp, #52]                   @ 4-byte Spill
	ldr	r7, [sp, #40]                   @ 4-byte Reload
	rors	r5, r7
	ldr	r1, [sp, #64]                   @ 4-byte Reload
	eors	r6, r1
	ldr	r1, [sp, #36]                   @ 4-byte Reload
	eors	r1, r2
	eors	r6, r1
	mov	r4, r6
	rors	r4, r7
	ldr	r2, [sp, #16]                   @ 4-byte Reload
	eors	r4, r2
	eors	r4, r6
	lsrs	r2, r4, #1
	eors	r2, r5
	ldr	r5, [sp, #12]                   @ 4-byte Reload
	eors	r2, r5
	ldr	r5, [sp, #52]                   @ 4-byte Reload
	eors	r2, r5
	lsls	r2, r2, #1
	ldr	r5, .Laes_v6m_CPI33_0
	ands	r2, r5
	eors	r2, r4
	ldr	r4, [sp, #48]                   @ 4-byte Reload
	eors	r3, r4
	mov	r4, r3
	rors	r4, r7
	eors	r4, r3
	eors	r4, r1
	lsrs	r3, r4, #1
	ldr	r6, [sp, #28]                   @ 4-byte Reload
	ldr	r5, [sp, #24]                   @ 4-byte Reload
	eors	r6, r5
	mov	r5, r6
	rors	r5, r7
	eors	r5, r3
	ldr	r1, [sp, #60]                   @ 4-byte Reload
	eors	r5, r1
	eors	r5, r6
	lsls	r3, r5, #1
	ldr	r1, .Laes_v6m_CPI33_0
	ands	r3, r1
	eors	r3, r4
	lsrs	r4, r3, #2
	eors	r4, r2
	ldr	r1, .Laes_v6m_CPI33_1
	ands	r4, r1
	eors	r2, r4
	lsrs	r1, r2, #4
	eors	r1, r0
	ldr	r5, .Laes_v6m_CPI33_2
	ands	r1, r5
	eors	r0, r1
	ldr	r7, [sp, #32]                   @ 4-byte Reload
	strb	r0, [r7, #12]
	lsrs	r6, r0, #24
	strb	r6, [r7, #15]
	lsrs	r6, r0, #16
	strb	r6, [r7, #14]
	lsrs	r0, r0, #8
	strb	r0, [r7, #13]
	ldr	r0, [sp, #56]                   @ 4-byte Reload
	lsls	r6, r0, #2
	ldr	r0, [sp, #20]                   @ 4-byte Reload
	eors	r6, r0
	lsls	r0, r4, #2
	eors	r0, r3
	lsrs	r3, r0, #4
	eors	r3, r6
	ands	r3, r5
	eors	r6, r3
	strb	r6, [r7, #8]
	lsls	r1, r1, #4
	eors	r1, r2
	strb	r1, [r7, #4]
	lsrs	r2, r6, #24
	strb	r2, [r7, #11]
	lsrs	r2, r6, #16
	strb	r2, [r7, #10]
	lsrs	r2, r6, #8
	strb	r2, [r7, #9]
	lsrs	r2, r1, #24
	strb	r2, [r7, #7]
	lsrs	r2, r1, #16
	strb	r2, [r7, #6]
	lsrs	r1, r1, #8
	strb	r1, [r7, #5]
	lsls	r1, r3, #4
	eors	r1, r0
	strb	r1, [r7]
	lsrs	r0, r1, #24
	strb	r0, [r7, #3]
	lsrs	r0, r1, #16
	strb	r0, [r7, #2]
	lsrs	r0, r1, #8
	strb	r0, [r7, #1]
	add	sp, #100
	pop	{r4, r5, r6, r7, pc}
	.p2align	2
@ %bb.1:
.Laes_v6m_CPI33_0:
	.long	2863311530                      @ 0xaaaaaaaa
.Laes_v6m_CPI33_1:
	.long	858993459                       @ 0x33333333
.Laes_v6m_CPI33_2:
	.long	252645135                       @ 0xf0f0f0f
.Laes_v6m_func_end33:
	.size	aes_v6m.aes_c.single_rounds.inverse_mixed, .Laes_v6m_func_end33-aes_v6m.aes_c.single_rounds.inverse_mixed
	.cantunwind
	.fnend
                                        @ -- End function
	.section	.text.aes_v6m.aes_c.single_rounds.inverse_round,"ax",%progbits
	.p2align	2                               @ -- Begin function aes_c::single_rounds::inverse_round
	.type	aes_v6m.aes_c.single_rounds.inverse_round,%function
	.code	16
	.thumb_func
aes_v6m.aes_c.single_rounds.inverse_round:  @ @aes_v6m.aes_c.single_rounds.inverse_round
	.fnstart
@ %bb.0:                                @ %start
	.save	{r4, r5, r6, r7, lr}
	push	{r4, r5, r6, r7, lr}
	.pad	#164
	sub	sp, #164
	str	r1, [sp, #28]                   @ 4-byte Spill
	mov	r1, r0
	str	r0, [sp, #32]                   @ 4-byte Spill
	add	r0, sp, #132
	bl	aes_v6m.aes_planes.soft.word.word32.U32Word.in_every_slot
	ldr	r7, [sp, #132]
	ldr	r4, [sp, #136]
	mov	r5, r4
	eors	r5, r7
	str	r5, [sp, #120]                  @ 4-byte Spill
	ldr	r0, [sp, #144]
	ldr	r1, [sp, #148]
	str	r1, [sp, #128]                  @ 4-byte Spill
	eors	r1, r0
	str	r1, [sp, #88]                   @ 4-byte Spill
	str	r0, [sp, #124]                  @ 4-byte Spill
	mov	r3, r1
	eors	r3, r5
	str	r3, [sp, #104]                  @ 4-byte Spill
	ldr	r2, [sp, #156]
	mov	r6, r2
	str	r2, [sp, #112]                  @ 4-byte Spill
	eors	r6, r4
	str	r6, [sp, #68]                   @ 4-byte Spill
	ldr	r1, [sp, #152]
	mvns	r5, r1
	str	r5, [sp, #92]                   @ 4-byte Spill
	eors	r0, r5
	eors	r0, r6
	str	r0, [sp, #96]                   @ 4-byte Spill
	mov	r1, r0
	orrs	r1, r3
	mvns	r0, r7
	str	r0, [sp, #116]                  @ 4-byte Spill
	ldr	r5, [sp, #88]                   @ 4-byte Reload
	mov	r3, r5
	eors	r3, r0
	str	r3, [sp, #64]                   @ 4-byte Spill
	mvns	r7, r2
	ldr	r0, [sp, #128]                  @ 4-byte Reload
	eors	r0, r7
	str	r0, [sp, #48]                   @ 4-byte Spill
	ands	r0, r3
	eors	r0, r1
	str	r0, [sp, #100]                  @ 4-byte Spill
	ldr	r6, [sp, #140]
	eors	r4, r6
	mvns	r0, r4
	str	r0, [sp, #40]                   @ 4-byte Spill
	mov	r1, r5
	mov	r2, r5
	eors	r2, r0
	mov	r0, r2
	str	r2, [sp, #24]                   @ 4-byte Spill
	ldr	r5, [sp, #160]
	str	r5, [sp, #60]                   @ 4-byte Spill
	ldr	r2, [sp, #128]                  @ 4-byte Reload
	eors	r2, r5
	str	r2, [sp, #128]                  @ 4-byte Spill
	mov	r3, r2
	eors	r3, r7
	str	r3, [sp, #72]                   @ 4-byte Spill
	mov	r2, r3
	ldr	r3, [sp, #124]                  @ 4-byte Reload
	eors	r2, r3
	str	r2, [sp, #80]                   @ 4-byte Spill
	ands	r2, r0
	mov	r0, r3
	ldr	r3, [sp, #116]                  @ 4-byte Reload
	eors	r0, r3
	str	r0, [sp, #124]                  @ 4-byte Spill
	eors	r7, r5
	str	r7, [sp, #44]                   @ 4-byte Spill
	mov	r3, r7
	eors	r3, r0
	str	r3, [sp, #108]                  @ 4-byte Spill
	eors	r4, r3
	ands	r4, r1
	eors	r2, r4
	ldr	r5, [sp, #100]                  @ 4-byte Reload
	eors	r5, r2
	ldr	r0, [sp, #92]                   @ 4-byte Reload
	eors	r6, r0
	str	r6, [sp, #116]                  @ 4-byte Spill
	ldr	r7, [sp, #48]                   @ 4-byte Reload
	mov	r3, r7
	eors	r3, r6
	str	r3, [sp, #20]                   @ 4-byte Spill
	ldr	r6, [sp, #44]                   @ 4-byte Reload
	mov	r0, r6
	ldr	r1, [sp, #120]                  @ 4-byte Reload
	eors	r0, r1
	str	r0, [sp, #84]                   @ 4-byte Spill
	ands	r0, r3
	ldr	r1, [sp, #128]                  @ 4-byte Reload
	ldr	r3, [sp, #112]                  @ 4-byte Reload
	ands	r3, r1
	ldr	r1, [sp, #40]                   @ 4-byte Reload
	eors	r3, r1
	mov	r1, r3
	ldr	r3, [sp, #108]                  @ 4-byte Reload
	eors	r1, r3
	eors	r1, r0
	eors	r1, r2
	str	r1, [sp, #112]                  @ 4-byte Spill
	mov	r2, r1
	ands	r2, r5
	str	r2, [sp, #76]                   @ 4-byte Spill
	str	r5, [sp, #100]                  @ 4-byte Spill
	mov	r1, r3
	ands	r1, r6
	eors	r1, r4
	ldr	r4, [sp, #120]                  @ 4-byte Reload
	eors	r4, r7
	ldr	r3, [sp, #116]                  @ 4-byte Reload
	ldr	r2, [sp, #60]                   @ 4-byte Reload
	eors	r3, r2
	str	r3, [sp, #116]                  @ 4-byte Spill
	mov	r7, r4
	mov	r2, r4
	str	r4, [sp, #120]                  @ 4-byte Spill
	ands	r7, r3
	ldr	r6, [sp, #124]                  @ 4-byte Reload
	eors	r7, r6
	eors	r7, r0
	eors	r7, r1
	ldr	r4, [sp, #76]                   @ 4-byte Reload
	eors	r4, r7
	ldr	r3, [sp, #96]                   @ 4-byte Reload
	ldr	r0, [sp, #104]                  @ 4-byte Reload
	ands	r3, r0
	ldr	r0, [sp, #68]                   @ 4-byte Reload
	eors	r6, r0
	str	r6, [sp, #124]                  @ 4-byte Spill
	mov	r0, r2
	ldr	r2, [sp, #92]                   @ 4-byte Reload
	eors	r0, r2
	str	r0, [sp, #4]                    @ 4-byte Spill
	ands	r0, r6
	eors	r0, r3
	eors	r0, r2
	ldr	r3, [sp, #88]                   @ 4-byte Reload
	eors	r0, r3
	eors	r0, r1
	mov	r1, r0
	eors	r1, r5
	mov	r2, r4
	ands	r2, r1
	eors	r2, r0
	str	r2, [sp, #36]                   @ 4-byte Spill
	ldr	r3, [sp, #112]                  @ 4-byte Reload
	eors	r3, r7
	ldr	r5, [sp, #76]                   @ 4-byte Reload
	mov	r4, r5
	eors	r4, r0
	ands	r4, r3
	eors	r4, r7
	mov	r6, r4
	eors	r4, r2
	str	r4, [sp, #52]                   @ 4-byte Spill
	ldr	r2, [sp, #100]                  @ 4-byte Reload
	ands	r7, r2
	ands	r7, r1
	eors	r7, r5
	eors	r7, r1
	ldr	r1, [sp, #112]                  @ 4-byte Reload
	ands	r0, r1
	ands	r0, r3
	eors	r0, r5
	eors	r0, r3
	mov	r3, r0
	eors	r3, r7
	str	r3, [sp, #68]                   @ 4-byte Spill
	mov	r2, r3
	eors	r2, r4
	str	r2, [sp, #76]                   @ 4-byte Spill
	ldr	r1, [sp, #80]                   @ 4-byte Reload
	ands	r1, r2
	str	r1, [sp, #80]                   @ 4-byte Spill
	mov	r2, r3
	ldr	r3, [sp, #108]                  @ 4-byte Reload
	ands	r2, r3
	str	r2, [sp]                        @ 4-byte Spill
	mov	r3, r1
	eors	r3, r2
	str	r3, [sp, #60]                   @ 4-byte Spill
	mov	r1, r0
	eors	r1, r6
	str	r1, [sp, #92]                   @ 4-byte Spill
	mov	r4, r6
	str	r6, [sp, #56]                   @ 4-byte Spill
	ldr	r2, [sp, #104]                  @ 4-byte Reload
	ands	r2, r1
	str	r2, [sp, #104]                  @ 4-byte Spill
	ldr	r1, [sp, #116]                  @ 4-byte Reload
	ldr	r5, [sp, #36]                   @ 4-byte Reload
	ands	r1, r5
	str	r1, [sp, #116]                  @ 4-byte Spill
	ldr	r6, [sp, #128]                  @ 4-byte Reload
	ands	r6, r7
	eors	r6, r1
	str	r6, [sp, #128]                  @ 4-byte Spill
	ldr	r1, [sp, #120]                  @ 4-byte Reload
	ands	r1, r5
	str	r1, [sp, #120]                  @ 4-byte Spill
	mov	r5, r6
	eors	r5, r1
	str	r5, [sp, #16]                   @ 4-byte Spill
	eors	r5, r2
	eors	r5, r3
	ldr	r1, [sp, #96]                   @ 4-byte Reload
	ldr	r3, [sp, #92]                   @ 4-byte Reload
	ands	r3, r1
	str	r3, [sp, #92]                   @ 4-byte Spill
	ldr	r1, [sp, #108]                  @ 4-byte Reload
	ldr	r2, [sp, #40]                   @ 4-byte Reload
	eors	r1, r2
	ldr	r2, [sp, #52]                   @ 4-byte Reload
	ands	r1, r2
	str	r1, [sp, #108]                  @ 4-byte Spill
	ldr	r2, [sp, #124]                  @ 4-byte Reload
	ands	r2, r4
	eors	r2, r1
	eors	r2, r3
	ldr	r4, [sp, #64]                   @ 4-byte Reload
	ands	r4, r0
	str	r4, [sp, #64]                   @ 4-byte Spill
	ldr	r1, [sp, #72]                   @ 4-byte Reload
	ands	r1, r7
	eors	r1, r4
	str	r1, [sp, #72]                   @ 4-byte Spill
	eors	r2, r1
	str	r2, [sp, #124]                  @ 4-byte Spill
	eors	r5, r2
	lsrs	r1, r5, #4
	eors	r1, r5
	ldr	r2, .Laes_v6m_CPI34_0
	ands	r1, r2
	movs	r2, #17
	str	r2, [sp, #112]                  @ 4-byte Spill
	muls	r1, r2, r1
	eors	r1, r5
	lsrs	r2, r1, #2
	eors	r2, r1
	ldr	r3, .Laes_v6m_CPI34_1
	ands	r2, r3
	movs	r6, #5
	muls	r2, r6, r2
	eors	r2, r1
	str	r2, [sp, #12]                   @ 4-byte Spill
	movs	r1, #8
	str	r1, [sp, #100]                  @ 4-byte Spill
	mov	r5, r2
	rors	r5, r1
	eors	r5, r2
	str	r5, [sp, #8]                    @ 4-byte Spill
	ldr	r2, [sp, #68]                   @ 4-byte Reload
	ldr	r1, [sp, #44]                   @ 4-byte Reload
	ands	r2, r1
	str	r2, [sp, #68]                   @ 4-byte Spill
	ldr	r1, [sp, #36]                   @ 4-byte Reload
	eors	r7, r1
	ldr	r1, [sp, #84]                   @ 4-byte Reload
	ands	r1, r7
	eors	r1, r2
	str	r1, [sp, #84]                   @ 4-byte Spill
	ldr	r2, [sp, #48]                   @ 4-byte Reload
	ands	r0, r2
	ldr	r2, [sp, #128]                  @ 4-byte Reload
	eors	r2, r0
	ldr	r4, [sp]                        @ 4-byte Reload
	eors	r2, r4
	eors	r2, r1
	ldr	r1, [sp, #124]                  @ 4-byte Reload
	eors	r2, r1
	lsrs	r1, r2, #4
	eors	r1, r2
	ldr	r4, .Laes_v6m_CPI34_0
	ands	r1, r4
	ldr	r4, [sp, #112]                  @ 4-byte Reload
	muls	r1, r4, r1
	eors	r1, r2
	lsrs	r2, r1, #2
	eors	r2, r1
	ands	r2, r3
	str	r6, [sp, #96]                   @ 4-byte Spill
	muls	r2, r6, r2
	eors	r2, r1
	eors	r5, r2
	str	r5, [sp, #128]                  @ 4-byte Spill
	mov	r1, r2
	ldr	r3, [sp, #100]                  @ 4-byte Reload
	rors	r1, r3
	eors	r1, r2
	str	r1, [sp, #44]                   @ 4-byte Spill
	ldr	r1, [sp, #108]                  @ 4-byte Reload
	eors	r0, r1
	ldr	r1, [sp, #104]                  @ 4-byte Reload
	eors	r0, r1
	ldr	r6, [sp, #60]                   @ 4-byte Reload
	eors	r6, r0
	ldr	r1, [sp, #56]                   @ 4-byte Reload
	ldr	r2, [sp, #4]                    @ 4-byte Reload
	ands	r1, r2
	str	r1, [sp, #56]                   @ 4-byte Spill
	ldr	r2, [sp, #92]                   @ 4-byte Reload
	eors	r2, r1
	eors	r2, r6
	str	r6, [sp, #60]                   @ 4-byte Spill
	lsrs	r1, r2, #4
	eors	r1, r2
	ldr	r3, .Laes_v6m_CPI34_0
	ands	r1, r3
	muls	r1, r4, r1
	mov	r5, r4
	eors	r1, r2
	lsrs	r4, r1, #2
	eors	r4, r1
	ldr	r2, .Laes_v6m_CPI34_1
	ands	r4, r2
	ldr	r3, [sp, #96]                   @ 4-byte Reload
	muls	r4, r3, r4
	eors	r4, r1
	ldr	r1, [sp, #44]                   @ 4-byte Reload
	eors	r1, r4
	str	r1, [sp, #48]                   @ 4-byte Spill
	ldr	r2, [sp, #128]                  @ 4-byte Reload
	eors	r1, r2
	str	r1, [sp, #104]                  @ 4-byte Spill
	ldr	r1, [sp, #20]                   @ 4-byte Reload
	ands	r7, r1
	ldr	r1, [sp, #116]                  @ 4-byte Reload
	eors	r1, r7
	eors	r1, r6
	lsrs	r2, r1, #4
	eors	r2, r1
	ldr	r6, .Laes_v6m_CPI34_0
	ands	r2, r6
	muls	r2, r5, r2
	eors	r2, r1
	lsrs	r1, r2, #2
	eors	r1, r2
	ldr	r5, .Laes_v6m_CPI34_1
	ands	r1, r5
	muls	r1, r3, r1
	eors	r1, r2
	mov	r2, r1
	ldr	r5, [sp, #100]                  @ 4-byte Reload
	rors	r2, r5
	eors	r2, r1
	str	r2, [sp, #40]                   @ 4-byte Spill
	ldr	r2, [sp, #24]                   @ 4-byte Reload
	ldr	r6, [sp, #76]                   @ 4-byte Reload
	ands	r6, r2
	mov	r2, r6
	ldr	r6, [sp, #64]                   @ 4-byte Reload
	eors	r2, r6
	eors	r2, r0
	str	r2, [sp, #76]                   @ 4-byte Spill
	ldr	r0, [sp, #80]                   @ 4-byte Reload
	ldr	r3, [sp, #92]                   @ 4-byte Reload
	eors	r3, r0
	eors	r3, r2
	lsrs	r0, r3, #4
	eors	r0, r3
	ldr	r2, .Laes_v6m_CPI34_0
	ands	r0, r2
	ldr	r2, [sp, #112]                  @ 4-byte Reload
	muls	r0, r2, r0
	eors	r0, r3
	lsrs	r2, r0, #2
	eors	r2, r0
	ldr	r3, .Laes_v6m_CPI34_1
	ands	r2, r3
	ldr	r3, [sp, #96]                   @ 4-byte Reload
	muls	r2, r3, r2
	eors	r2, r0
	str	r2, [sp, #124]                  @ 4-byte Spill
	mov	r0, r2
	rors	r0, r5
	eors	r0, r2
	mov	r5, r0
	str	r0, [sp, #92]                   @ 4-byte Spill
	ldr	r0, [sp, #56]                   @ 4-byte Reload
	eors	r7, r0
	ldr	r2, [sp, #72]                   @ 4-byte Reload
	eors	r2, r7
	ldr	r0, [sp, #60]                   @ 4-byte Reload
	eors	r2, r0
	lsrs	r0, r2, #4
	eors	r0, r2
	ldr	r6, .Laes_v6m_CPI34_0
	ands	r0, r6
	ldr	r6, [sp, #112]                  @ 4-byte Reload
	muls	r0, r6, r0
	eors	r0, r2
	lsrs	r2, r0, #2
	eors	r2, r0
	ldr	r6, .Laes_v6m_CPI34_1
	ands	r2, r6
	muls	r2, r3, r2
	eors	r2, r0
	mov	r3, r5
	eors	r3, r2
	str	r3, [sp, #72]                   @ 4-byte Spill
	ldr	r0, [sp, #40]                   @ 4-byte Reload
	eors	r3, r0
	ldr	r0, [sp, #104]                  @ 4-byte Reload
	eors	r3, r0
	movs	r0, #16
	str	r0, [sp, #108]                  @ 4-byte Spill
	mov	r5, r3
	rors	r5, r0
	mov	r0, r4
	ldr	r6, [sp, #100]                  @ 4-byte Reload
	rors	r0, r6
	eors	r0, r4
	str	r0, [sp, #116]                  @ 4-byte Spill
	ldr	r0, [sp, #68]                   @ 4-byte Reload
	eors	r7, r0
	ldr	r0, [sp, #16]                   @ 4-byte Reload
	eors	r7, r0
	ldr	r0, [sp, #76]                   @ 4-byte Reload
	eors	r7, r0
	lsrs	r4, r7, #4
	eors	r4, r7
	ldr	r0, .Laes_v6m_CPI34_0
	ands	r4, r0
	ldr	r0, [sp, #112]                  @ 4-byte Reload
	muls	r4, r0, r4
	eors	r4, r7
	lsrs	r7, r4, #2
	eors	r7, r4
	ldr	r0, .Laes_v6m_CPI34_1
	ands	r7, r0
	ldr	r0, [sp, #96]                   @ 4-byte Reload
	muls	r7, r0, r7
	eors	r7, r4
	mov	r0, r7
	mov	r4, r6
	rors	r0, r6
	eors	r0, r7
	str	r0, [sp, #68]                   @ 4-byte Spill
	eors	r1, r0
	ldr	r0, [sp, #116]                  @ 4-byte Reload
	eors	r1, r0
	eors	r5, r1
	eors	r5, r3
	lsrs	r6, r5, #1
	mov	r3, r2
	rors	r3, r4
	eors	r3, r2
	eors	r7, r0
	eors	r7, r3
	ldr	r4, [sp, #8]                    @ 4-byte Reload
	eors	r4, r7
	ldr	r2, [sp, #48]                   @ 4-byte Reload
	eors	r4, r2
	mov	r2, r4
	ldr	r0, [sp, #108]                  @ 4-byte Reload
	rors	r2, r0
	eors	r2, r6
	ldr	r6, [sp, #12]                   @ 4-byte Reload
	ldr	r0, [sp, #40]                   @ 4-byte Reload
	eors	r0, r6
	eors	r2, r0
	eors	r2, r4
	lsls	r2, r2, #1
	ldr	r4, .Laes_v6m_CPI34_2
	ands	r2, r4
	eors	r2, r5
	str	r2, [sp, #80]                   @ 4-byte Spill
	lsrs	r4, r2, #2
	ldr	r2, [sp, #44]                   @ 4-byte Reload
	eors	r1, r2
	mov	r5, r1
	ldr	r6, [sp, #108]                  @ 4-byte Reload
	rors	r5, r6
	ldr	r2, [sp, #128]                  @ 4-byte Reload
	eors	r5, r2
	eors	r5, r1
	lsrs	r1, r5, #1
	ldr	r2, [sp, #116]                  @ 4-byte Reload
	eors	r0, r2
	mov	r2, r0
	rors	r2, r6
	eors	r2, r1
	eors	r2, r0
	ldr	r6, [sp, #48]                   @ 4-byte Reload
	eors	r2, r6
	lsls	r2, r2, #1
	ldr	r0, .Laes_v6m_CPI34_2
	ands	r2, r0
	eors	r2, r5
	eors	r4, r2
	ldr	r0, .Laes_v6m_CPI34_3
	ands	r4, r0
	str	r4, [sp, #76]                   @ 4-byte Spill
	eors	r2, r4
	ldr	r1, [sp, #88]                   @ 4-byte Reload
	ldr	r5, [sp, #52]                   @ 4-byte Reload
	ands	r5, r1
	ldr	r1, [sp, #120]                  @ 4-byte Reload
	eors	r5, r1
	ldr	r1, [sp, #84]                   @ 4-byte Reload
	eors	r5, r1
	lsrs	r1, r5, #4
	eors	r1, r5
	ldr	r0, .Laes_v6m_CPI34_0
	ands	r1, r0
	ldr	r0, [sp, #112]                  @ 4-byte Reload
	muls	r1, r0, r1
	eors	r1, r5
	lsrs	r5, r1, #2
	eors	r5, r1
	ldr	r0, .Laes_v6m_CPI34_1
	ands	r5, r0
	ldr	r0, [sp, #96]                   @ 4-byte Reload
	muls	r5, r0, r5
	eors	r5, r1
	ldr	r4, [sp, #116]                  @ 4-byte Reload
	mov	r0, r4
	eors	r0, r5
	str	r0, [sp, #120]                  @ 4-byte Spill
	eors	r3, r0
	eors	r3, r6
	mov	r6, r3
	ldr	r1, [sp, #108]                  @ 4-byte Reload
	rors	r6, r1
	ldr	r0, [sp, #72]                   @ 4-byte Reload
	eors	r6, r0
	eors	r6, r3
	lsrs	r0, r6, #1
	str	r0, [sp, #112]                  @ 4-byte Spill
	mov	r3, r5
	ldr	r0, [sp, #100]                  @ 4-byte Reload
	rors	r3, r0
	eors	r3, r5
	ldr	r5, [sp, #124]                  @ 4-byte Reload
	eors	r5, r3
	eors	r5, r4
	str	r5, [sp, #124]                  @ 4-byte Spill
	ldr	r0, [sp, #68]                   @ 4-byte Reload
	eors	r0, r5
	ldr	r4, [sp, #128]                  @ 4-byte Reload
	eors	r0, r4
	mov	r5, r0
	rors	r5, r1
	ldr	r4, [sp, #112]                  @ 4-byte Reload
	eors	r5, r4
	eors	r5, r7
	eors	r5, r0
	lsls	r5, r5, #1
	ldr	r7, .Laes_v6m_CPI34_2
	ands	r5, r7
	eors	r5, r6
	ldr	r0, [sp, #104]                  @ 4-byte Reload
	ldr	r6, [sp, #92]                   @ 4-byte Reload
	eors	r6, r0
	mov	r4, r6
	rors	r4, r1
	ldr	r0, [sp, #128]                  @ 4-byte Reload
	eors	r3, r0
	mov	r0, r3
	rors	r0, r1
	ldr	r1, [sp, #120]                  @ 4-byte Reload
	eors	r0, r1
	eors	r0, r3
	lsrs	r1, r0, #1
	eors	r1, r4
	ldr	r3, [sp, #124]                  @ 4-byte Reload
	eors	r1, r3
	eors	r1, r6
	lsls	r4, r1, #1
	ands	r4, r7
	eors	r4, r0
	lsrs	r1, r4, #2
	eors	r1, r5
	ldr	r0, .Laes_v6m_CPI34_3
	ands	r1, r0
	eors	r5, r1
	lsrs	r3, r5, #4
	eors	r3, r2
	ldr	r0, .Laes_v6m_CPI34_4
	ands	r3, r0
	eors	r2, r3
	ldr	r7, [sp, #28]                   @ 4-byte Reload
	ldrb	r0, [r7, #12]
	eors	r0, r2
	ldrb	r6, [r7, #1]
	str	r6, [sp, #128]                  @ 4-byte Spill
	ldrb	r6, [r7, #2]
	str	r6, [sp, #124]                  @ 4-byte Spill
	ldrb	r6, [r7, #3]
	str	r6, [sp, #120]                  @ 4-byte Spill
	ldrb	r6, [r7]
	str	r6, [sp, #116]                  @ 4-byte Spill
	ldrb	r6, [r7, #5]
	str	r6, [sp, #112]                  @ 4-byte Spill
	ldrb	r6, [r7, #6]
	str	r6, [sp, #108]                  @ 4-byte Spill
	ldrb	r6, [r7, #7]
	str	r6, [sp, #104]                  @ 4-byte Spill
	ldrb	r6, [r7, #9]
	str	r6, [sp, #100]                  @ 4-byte Spill
	ldrb	r6, [r7, #10]
	str	r6, [sp, #96]                   @ 4-byte Spill
	ldrb	r6, [r7, #11]
	str	r6, [sp, #92]                   @ 4-byte Spill
	ldrb	r6, [r7, #4]
	str	r6, [sp, #88]                   @ 4-byte Spill
	ldrb	r6, [r7, #8]
	str	r6, [sp, #72]                   @ 4-byte Spill
	ldrb	r6, [r7, #13]
	str	r6, [sp, #84]                   @ 4-byte Spill
	ldrb	r6, [r7, #14]
	str	r6, [sp, #64]                   @ 4-byte Spill
	ldrb	r6, [r7, #15]
	str	r6, [sp, #68]                   @ 4-byte Spill
	ldr	r7, [sp, #32]                   @ 4-byte Reload
	strb	r0, [r7, #12]
	lsrs	r0, r2, #24
	ldr	r6, [sp, #68]                   @ 4-byte Reload
	eors	r0, r6
	strb	r0, [r7, #15]
	lsrs	r0, r2, #16
	ldr	r6, [sp, #64]                   @ 4-byte Reload
	eors	r0, r6
	strb	r0, [r7, #14]
	lsrs	r0, r2, #8
	ldr	r2, [sp, #84]                   @ 4-byte Reload
	eors	r0, r2
	strb	r0, [r7, #13]
	ldr	r0, [sp, #76]                   @ 4-byte Reload
	lsls	r0, r0, #2
	ldr	r2, [sp, #80]                   @ 4-byte Reload
	eors	r0, r2
	lsls	r2, r1, #2
	eors	r2, r4
	lsrs	r1, r2, #4
	eors	r1, r0
	ldr	r4, .Laes_v6m_CPI34_4
	ands	r1, r4
	eors	r0, r1
	ldr	r4, [sp, #72]                   @ 4-byte Reload
	eors	r4, r0
	strb	r4, [r7, #8]
	lsls	r3, r3, #4
	eors	r3, r5
	ldr	r4, [sp, #88]                   @ 4-byte Reload
	eors	r4, r3
	strb	r4, [r7, #4]
	lsrs	r4, r0, #24
	ldr	r5, [sp, #92]                   @ 4-byte Reload
	eors	r4, r5
	strb	r4, [r7, #11]
	lsrs	r4, r0, #16
	ldr	r5, [sp, #96]                   @ 4-byte Reload
	eors	r4, r5
	strb	r4, [r7, #10]
	lsrs	r0, r0, #8
	ldr	r4, [sp, #100]                  @ 4-byte Reload
	eors	r0, r4
	strb	r0, [r7, #9]
	lsrs	r0, r3, #24
	ldr	r5, [sp, #104]                  @ 4-byte Reload
	eors	r0, r5
	strb	r0, [r7, #7]
	lsrs	r0, r3, #16
	ldr	r5, [sp, #108]                  @ 4-byte Reload
	eors	r0, r5
	strb	r0, [r7, #6]
	lsrs	r0, r3, #8
	ldr	r3, [sp, #112]                  @ 4-byte Reload
	eors	r0, r3
	strb	r0, [r7, #5]
	lsls	r0, r1, #4
	eors	r0, r2
	ldr	r1, [sp, #116]                  @ 4-byte Reload
	eors	r1, r0
	strb	r1, [r7]
	lsrs	r1, r0, #24
	ldr	r2, [sp, #120]                  @ 4-byte Reload
	eors	r1, r2
	strb	r1, [r7, #3]
	lsrs	r1, r0, #16
	ldr	r2, [sp, #124]                  @ 4-byte Reload
	eors	r1, r2
	strb	r1, [r7, #2]
	lsrs	r0, r0, #8
	ldr	r1, [sp, #128]                  @ 4-byte Reload
	eors	r0, r1
	strb	r0, [r7, #1]
	add	sp, #164
	pop	{r4, r5, r6, r7, pc}
	.p2align	2
@ %bb.1:
.Laes_v6m_CPI34_0:
	.long	51317760                        @ 0x30f0c00
.Laes_v6m_CPI34_1:
	.long	855651072                       @ 0x33003300
.Laes_v6m_CPI34_2:
	.long	2863311530                      @ 0xaaaaaaaa
.Laes_v6m_CPI34_3:
	.long	858993459                       @ 0x33333333
.Laes_v6m_CPI34_4:
	.long	252645135                       @ 0xf0f0f0f
.Laes_v6m_func_end34:
	.size	aes_v6m.aes_c.single_rounds.inverse_round, .Laes_v6m_func_end34-aes_v6m.aes_c.single_rounds.inverse_round
	.cantunwind
	.fnend
                                        @ -- End function
	.section	.text.aes_v6m.aes_c.single_rounds.inverse_rounds,"ax",%progbits
	.p2align	2                               @ -- Begin function aes_c::single_rounds::inverse_rounds
	.type	aes_v6m.aes_c.single_rounds.inverse_rounds,%function
	.code	16
	.thumb_func
aes_v6m.aes_c.single_rounds.inverse_rounds: @ @aes_v6m.aes_c.single_rounds.inverse_rounds
	.fnstart
@ %bb.0:                                @ %start
	.save	{r4, r5, r6, r7, lr}
	push	{r4, r5, r6, r7, lr}
	.pad	#164
	sub	sp, #164
	str	r1, [sp, #4]                    @ 4-byte Spill
	movs	r1, #0
	mov	r2, r1
	str	r1, [sp]                        @ 4-byte Spill
	mov	r3, r1
	str	r0, [sp, #152]                  @ 4-byte Spill
.Laes_v6m_BB35_1:                               @ %join.5.i.i
                                        @ =>This Inner Loop Header: Depth=1
	str	r2, [sp, #40]                   @ 4-byte Spill
	str	r1, [sp, #44]                   @ 4-byte Spill
	str	r3, [sp, #48]                   @ 4-byte Spill
	lsls	r1, r2, #4
	str	r1, [sp, #68]                   @ 4-byte Spill
	adds	r3, r0, r1
	ldrb	r0, [r3, #28]
	ldrb	r1, [r3, #29]
	lsls	r1, r1, #8
	adds	r0, r1, r0
	ldrb	r1, [r3, #30]
	lsls	r1, r1, #16
	adds	r0, r0, r1
	ldrb	r1, [r3, #31]
	lsls	r1, r1, #24
	adds	r2, r0, r1
	str	r2, [sp, #160]                  @ 4-byte Spill
	ldrb	r0, [r3, #12]
	ldrb	r1, [r3, #13]
	lsls	r1, r1, #8
	adds	r0, r1, r0
	ldrb	r1, [r3, #14]
	lsls	r1, r1, #16
	adds	r0, r0, r1
	ldrb	r1, [r3, #15]
	lsls	r1, r1, #24
	adds	r0, r0, r1
	lsrs	r4, r0, #1
	eors	r4, r2
	ldr	r2, .Laes_v6m_CPI35_5
	ands	r4, r2
	str	r4, [sp, #140]                  @ 4-byte Spill
	lsls	r6, r4, #1
	eors	r6, r0
	ldrb	r0, [r3, #24]
	ldrb	r1, [r3, #25]
	lsls	r1, r1, #8
	adds	r0, r1, r0
	ldrb	r1, [r3, #26]
	lsls	r1, r1, #16
	adds	r0, r0, r1
	ldrb	r1, [r3, #27]
	lsls	r1, r1, #24
	adds	r7, r0, r1
	str	r7, [sp, #156]                  @ 4-byte Spill
	ldrb	r0, [r3, #8]
	ldrb	r1, [r3, #9]
	lsls	r1, r1, #8
	adds	r0, r1, r0
	ldrb	r1, [r3, #10]
	lsls	r1, r1, #16
	adds	r0, r0, r1
	ldrb	r1, [r3, #11]
	str	r3, [sp, #36]                   @ 4-byte Spill
	lsls	r1, r1, #24
	adds	r0, r0, r1
	lsrs	r4, r0, #1
	eors	r4, r7
	ands	r4, r2
	lsls	r1, r4, #1
	eors	r1, r0
	str	r1, [sp, #136]                  @ 4-byte Spill
	lsrs	r1, r1, #2
	eors	r1, r6
	ldr	r0, .Laes_v6m_CPI35_6
	ands	r1, r0
	str	r1, [sp, #128]                  @ 4-byte Spill
	eors	r6, r1
	str	r6, [sp, #148]                  @ 4-byte Spill
	ldrb	r0, [r3, #20]
	ldrb	r1, [r3, #21]
	lsls	r1, r1, #8
	adds	r0, r1, r0
	ldrb	r1, [r3, #22]
	lsls	r1, r1, #16
	adds	r0, r0, r1
	ldrb	r1, [r3, #23]
	lsls	r1, r1, #24
	adds	r7, r0, r1
	str	r7, [sp, #124]                  @ 4-byte Spill
	ldrb	r0, [r3, #4]
	ldrb	r1, [r3, #5]
	lsls	r1, r1, #8
	adds	r0, r1, r0
	ldrb	r1, [r3, #6]
	lsls	r1, r1, #16
	adds	r0, r0, r1
	ldrb	r1, [r3, #7]
	lsls	r1, r1, #24
	adds	r0, r0, r1
	lsrs	r6, r0, #1
	eors	r6, r7
	ands	r6, r2
	mov	r7, r2
	lsls	r2, r6, #1
	eors	r2, r0
	ldrb	r0, [r3, #16]
	ldrb	r1, [r3, #17]
	lsls	r1, r1, #8
	adds	r0, r1, r0
	ldrb	r1, [r3, #18]
	lsls	r1, r1, #16
	adds	r0, r0, r1
	ldrb	r1, [r3, #19]
	lsls	r1, r1, #24
	adds	r5, r0, r1
	str	r5, [sp, #120]                  @ 4-byte Spill
	ldr	r0, [sp, #152]                  @ 4-byte Reload
	ldr	r1, [sp, #68]                   @ 4-byte Reload
	ldrb	r0, [r0, r1]
	ldrb	r1, [r3, #1]
	lsls	r1, r1, #8
	adds	r0, r1, r0
	ldrb	r1, [r3, #2]
	lsls	r1, r1, #16
	adds	r0, r0, r1
	ldrb	r1, [r3, #3]
	lsls	r1, r1, #24
	adds	r1, r0, r1
	lsrs	r0, r1, #1
	eors	r0, r5
	ands	r0, r7
	lsls	r5, r0, #1
	eors	r5, r1
	lsrs	r1, r5, #2
	eors	r1, r2
	ldr	r3, .Laes_v6m_CPI35_6
	ands	r1, r3
	eors	r2, r1
	lsrs	r7, r2, #4
	ldr	r3, [sp, #148]                  @ 4-byte Reload
	eors	r7, r3
	ldr	r3, .Laes_v6m_CPI35_7
	ands	r7, r3
	str	r7, [sp, #132]                  @ 4-byte Spill
	lsls	r3, r7, #4
	eors	r3, r2
	str	r3, [sp, #144]                  @ 4-byte Spill
	ldr	r2, [sp, #140]                  @ 4-byte Reload
	ldr	r3, [sp, #160]                  @ 4-byte Reload
	eors	r2, r3
	str	r2, [sp, #140]                  @ 4-byte Spill
	ldr	r3, [sp, #156]                  @ 4-byte Reload
	eors	r4, r3
	lsrs	r7, r4, #2
	eors	r7, r2
	ldr	r3, .Laes_v6m_CPI35_6
	ands	r7, r3
	str	r7, [sp, #156]                  @ 4-byte Spill
	lsls	r2, r7, #2
	eors	r2, r4
	ldr	r4, [sp, #124]                  @ 4-byte Reload
	eors	r6, r4
	ldr	r4, [sp, #120]                  @ 4-byte Reload
	eors	r0, r4
	lsrs	r4, r0, #2
	eors	r4, r6
	ands	r4, r3
	lsls	r3, r4, #2
	eors	r3, r0
	str	r3, [sp, #116]                  @ 4-byte Spill
	lsrs	r0, r3, #4
	eors	r0, r2
	ldr	r3, .Laes_v6m_CPI35_7
	ands	r0, r3
	eors	r2, r0
	mvns	r2, r2
	str	r2, [sp, #124]                  @ 4-byte Spill
	ldr	r3, [sp, #144]                  @ 4-byte Reload
	eors	r3, r2
	str	r3, [sp, #160]                  @ 4-byte Spill
	ldr	r2, [sp, #128]                  @ 4-byte Reload
	lsls	r7, r2, #2
	ldr	r2, [sp, #136]                  @ 4-byte Reload
	eors	r7, r2
	lsls	r1, r1, #2
	eors	r1, r5
	lsrs	r5, r1, #4
	eors	r5, r7
	ldr	r2, .Laes_v6m_CPI35_7
	ands	r5, r2
	eors	r7, r5
	mov	r3, r7
	str	r7, [sp, #100]                  @ 4-byte Spill
	ldr	r2, [sp, #132]                  @ 4-byte Reload
	ldr	r7, [sp, #148]                  @ 4-byte Reload
	eors	r2, r7
	str	r2, [sp, #132]                  @ 4-byte Spill
	mvns	r7, r2
	mov	r2, r3
	eors	r2, r7
	mov	r3, r7
	str	r7, [sp, #136]                  @ 4-byte Spill
	str	r2, [sp, #148]                  @ 4-byte Spill
	ldr	r7, [sp, #160]                  @ 4-byte Reload
	eors	r2, r7
	str	r2, [sp, #120]                  @ 4-byte Spill
	ldr	r2, [sp, #156]                  @ 4-byte Reload
	ldr	r7, [sp, #140]                  @ 4-byte Reload
	eors	r2, r7
	eors	r4, r6
	lsrs	r6, r4, #4
	eors	r6, r2
	ldr	r7, .Laes_v6m_CPI35_7
	ands	r6, r7
	eors	r2, r6
	str	r2, [sp, #156]                  @ 4-byte Spill
	eors	r2, r3
	lsls	r0, r0, #4
	ldr	r3, [sp, #116]                  @ 4-byte Reload
	eors	r0, r3
	str	r0, [sp, #128]                  @ 4-byte Spill
	lsls	r3, r5, #4
	eors	r3, r1
	mvns	r1, r3
	str	r1, [sp, #108]                  @ 4-byte Spill
	eors	r3, r0
	str	r3, [sp, #140]                  @ 4-byte Spill
	mov	r7, r3
	eors	r7, r2
	str	r7, [sp, #28]                   @ 4-byte Spill
	ldr	r1, [sp, #120]                  @ 4-byte Reload
	ands	r7, r1
	mov	r5, r3
	ldr	r1, [sp, #148]                  @ 4-byte Reload
	eors	r5, r1
	str	r5, [sp, #60]                   @ 4-byte Spill
	ldr	r1, [sp, #160]                  @ 4-byte Reload
	ldr	r3, [sp, #156]                  @ 4-byte Reload
	eors	r1, r3
	str	r1, [sp, #160]                  @ 4-byte Spill
	ands	r5, r1
	lsls	r0, r6, #4
	eors	r0, r4
	mov	r3, r0
	str	r0, [sp, #80]                   @ 4-byte Spill
	ldr	r1, [sp, #108]                  @ 4-byte Reload
	eors	r3, r1
	str	r3, [sp, #112]                  @ 4-byte Spill
	eors	r5, r3
	eors	r5, r7
	str	r2, [sp, #24]                   @ 4-byte Spill
	eors	r3, r2
	mov	r6, r3
	ands	r6, r2
	ldr	r2, [sp, #144]                  @ 4-byte Reload
	ldr	r1, [sp, #128]                  @ 4-byte Reload
	eors	r2, r1
	str	r2, [sp, #144]                  @ 4-byte Spill
	mov	r1, r3
	mov	r4, r3
	str	r3, [sp, #116]                  @ 4-byte Spill
	eors	r1, r2
	ldr	r2, [sp, #100]                  @ 4-byte Reload
	mov	r3, r2
	eors	r3, r0
	ands	r1, r3
	mov	r0, r3
	str	r3, [sp, #104]                  @ 4-byte Spill
	eors	r6, r1
	str	r6, [sp, #92]                   @ 4-byte Spill
	eors	r5, r6
	str	r5, [sp, #96]                   @ 4-byte Spill
	ldr	r3, [sp, #156]                  @ 4-byte Reload
	eors	r3, r2
	mov	r2, r3
	mov	r6, r3
	str	r3, [sp, #156]                  @ 4-byte Spill
	ldr	r5, [sp, #132]                  @ 4-byte Reload
	ands	r2, r5
	ldr	r3, [sp, #144]                  @ 4-byte Reload
	mvns	r3, r3
	str	r3, [sp, #88]                   @ 4-byte Spill
	eors	r2, r3
	eors	r2, r4
	eors	r2, r7
	eors	r0, r3
	mov	r4, r0
	str	r0, [sp, #20]                   @ 4-byte Spill
	ldr	r0, [sp, #136]                  @ 4-byte Reload
	eors	r0, r6
	str	r0, [sp, #136]                  @ 4-byte Spill
	mov	r3, r0
	ldr	r0, [sp, #80]                   @ 4-byte Reload
	eors	r3, r0
	str	r3, [sp, #100]                  @ 4-byte Spill
	ands	r3, r4
	eors	r3, r1
	eors	r2, r3
	mov	r1, r2
	ldr	r4, [sp, #96]                   @ 4-byte Reload
	eors	r1, r4
	str	r1, [sp, #84]                   @ 4-byte Spill
	ldr	r7, [sp, #128]                  @ 4-byte Reload
	eors	r7, r5
	mov	r4, r0
	ldr	r0, [sp, #124]                  @ 4-byte Reload
	eors	r4, r0
	eors	r4, r7
	mov	r6, r7
	ldr	r0, [sp, #104]                  @ 4-byte Reload
	ldr	r1, [sp, #140]                  @ 4-byte Reload
	eors	r1, r0
	mov	r7, r1
	str	r1, [sp, #140]                  @ 4-byte Spill
	orrs	r7, r4
	mov	r5, r4
	str	r4, [sp, #80]                   @ 4-byte Spill
	ldr	r4, [sp, #108]                  @ 4-byte Reload
	eors	r4, r0
	str	r4, [sp, #108]                  @ 4-byte Spill
	ldr	r0, [sp, #148]                  @ 4-byte Reload
	ands	r4, r0
	eors	r4, r7
	eors	r4, r3
	mov	r7, r2
	ands	r7, r4
	ands	r1, r5
	mov	r0, r6
	ldr	r3, [sp, #112]                  @ 4-byte Reload
	eors	r0, r3
	str	r0, [sp, #128]                  @ 4-byte Spill
	ldr	r6, [sp, #60]                   @ 4-byte Reload
	ldr	r3, [sp, #124]                  @ 4-byte Reload
	eors	r6, r3
	str	r6, [sp, #144]                  @ 4-byte Spill
	ands	r6, r0
	eors	r6, r1
	eors	r6, r3
	ldr	r1, [sp, #104]                  @ 4-byte Reload
	eors	r6, r1
	ldr	r0, [sp, #92]                   @ 4-byte Reload
	eors	r6, r0
	mov	r0, r6
	eors	r0, r7
	ldr	r3, [sp, #84]                   @ 4-byte Reload
	ands	r0, r3
	ldr	r1, [sp, #96]                   @ 4-byte Reload
	eors	r0, r1
	ands	r2, r3
	ands	r2, r6
	eors	r2, r7
	eors	r2, r3
	mov	r5, r2
	eors	r5, r0
	str	r5, [sp, #124]                  @ 4-byte Spill
	str	r0, [sp, #112]                  @ 4-byte Spill
	ldr	r3, [sp, #140]                  @ 4-byte Reload
	ands	r3, r5
	str	r3, [sp, #140]                  @ 4-byte Spill
	mov	r5, r7
	eors	r5, r1
	mov	r1, r6
	eors	r1, r4
	ands	r5, r1
	eors	r5, r6
	str	r5, [sp, #132]                  @ 4-byte Spill
	mov	r6, r0
	eors	r6, r5
	ldr	r0, [sp, #88]                   @ 4-byte Reload
	ldr	r5, [sp, #116]                  @ 4-byte Reload
	eors	r0, r5
	ands	r0, r6
	mov	r5, r0
	str	r0, [sp, #88]                   @ 4-byte Spill
	str	r6, [sp, #32]                   @ 4-byte Spill
	ldr	r0, [sp, #148]                  @ 4-byte Reload
	ands	r0, r2
	str	r0, [sp, #148]                  @ 4-byte Spill
	eors	r5, r0
	eors	r5, r3
	str	r5, [sp, #8]                    @ 4-byte Spill
	ldr	r0, [sp, #96]                   @ 4-byte Reload
	ands	r4, r0
	ands	r4, r1
	eors	r4, r7
	eors	r4, r1
	mov	r3, r4
	eors	r3, r2
	str	r3, [sp, #76]                   @ 4-byte Spill
	mov	r1, r3
	eors	r1, r6
	str	r1, [sp, #84]                   @ 4-byte Spill
	ldr	r0, [sp, #100]                  @ 4-byte Reload
	ands	r0, r1
	str	r0, [sp, #100]                  @ 4-byte Spill
	ldr	r1, [sp, #116]                  @ 4-byte Reload
	ands	r1, r3
	str	r1, [sp, #116]                  @ 4-byte Spill
	eors	r0, r1
	str	r0, [sp, #16]                   @ 4-byte Spill
	eors	r0, r5
	mov	r6, r0
	str	r0, [sp, #52]                   @ 4-byte Spill
	ldr	r0, [sp, #108]                  @ 4-byte Reload
	ands	r2, r0
	ldr	r0, [sp, #136]                  @ 4-byte Reload
	ands	r0, r4
	eors	r0, r2
	mov	r3, r0
	str	r0, [sp, #136]                  @ 4-byte Spill
	mov	r0, r4
	ldr	r1, [sp, #132]                  @ 4-byte Reload
	eors	r0, r1
	str	r0, [sp, #92]                   @ 4-byte Spill
	ldr	r1, [sp, #120]                  @ 4-byte Reload
	ands	r1, r0
	str	r1, [sp, #120]                  @ 4-byte Spill
	ldr	r0, [sp, #112]                  @ 4-byte Reload
	ldr	r5, [sp, #144]                  @ 4-byte Reload
	ands	r5, r0
	str	r5, [sp, #144]                  @ 4-byte Spill
	eors	r1, r5
	mov	r7, r1
	eors	r7, r3
	eors	r7, r6
	lsrs	r5, r7, #4
	eors	r5, r7
	ldr	r6, .Laes_v6m_CPI35_8
	ands	r5, r6
	movs	r0, #17
	str	r0, [sp, #108]                  @ 4-byte Spill
	muls	r5, r0, r5
	eors	r5, r7
	lsrs	r7, r5, #2
	eors	r7, r5
	ldr	r6, .Laes_v6m_CPI35_9
	ands	r7, r6
	movs	r6, #5
	muls	r7, r6, r7
	eors	r7, r5
	str	r7, [sp, #96]                   @ 4-byte Spill
	movs	r3, #8
	mov	r0, r7
	rors	r0, r3
	str	r3, [sp, #72]                   @ 4-byte Spill
	eors	r0, r7
	str	r0, [sp, #64]                   @ 4-byte Spill
	ldr	r0, [sp, #124]                  @ 4-byte Reload
	ldr	r5, [sp, #80]                   @ 4-byte Reload
	ands	r0, r5
	str	r0, [sp, #124]                  @ 4-byte Spill
	ldr	r7, [sp, #144]                  @ 4-byte Reload
	eors	r7, r0
	ldr	r0, [sp, #52]                   @ 4-byte Reload
	eors	r7, r0
	lsrs	r5, r7, #4
	eors	r5, r7
	ldr	r0, .Laes_v6m_CPI35_8
	ands	r5, r0
	ldr	r0, [sp, #108]                  @ 4-byte Reload
	muls	r5, r0, r5
	eors	r5, r7
	lsrs	r0, r5, #2
	eors	r0, r5
	ldr	r7, .Laes_v6m_CPI35_9
	ands	r0, r7
	muls	r0, r6, r0
	mov	r7, r6
	eors	r0, r5
	str	r0, [sp, #144]                  @ 4-byte Spill
	mov	r5, r0
	rors	r5, r3
	eors	r5, r0
	mov	r0, r5
	str	r5, [sp, #56]                   @ 4-byte Spill
	ldr	r3, [sp, #84]                   @ 4-byte Reload
	ldr	r5, [sp, #20]                   @ 4-byte Reload
	ands	r3, r5
	eors	r3, r2
	ldr	r2, [sp, #8]                    @ 4-byte Reload
	eors	r3, r2
	mov	r5, r3
	str	r3, [sp, #84]                   @ 4-byte Spill
	ldr	r2, [sp, #24]                   @ 4-byte Reload
	ldr	r3, [sp, #76]                   @ 4-byte Reload
	ands	r3, r2
	str	r3, [sp, #76]                   @ 4-byte Spill
	eors	r1, r3
	ldr	r3, [sp, #132]                  @ 4-byte Reload
	ldr	r6, [sp, #160]                  @ 4-byte Reload
	ands	r6, r3
	str	r6, [sp, #160]                  @ 4-byte Spill
	ldr	r2, [sp, #156]                  @ 4-byte Reload
	ands	r4, r2
	eors	r4, r6
	ldr	r2, [sp, #60]                   @ 4-byte Reload
	ands	r3, r2
	str	r3, [sp, #132]                  @ 4-byte Spill
	mov	r2, r4
	eors	r2, r3
	eors	r1, r2
	eors	r1, r5
	lsrs	r3, r1, #4
	eors	r3, r1
	ldr	r5, .Laes_v6m_CPI35_8
	ands	r3, r5
	ldr	r5, [sp, #108]                  @ 4-byte Reload
	muls	r3, r5, r3
	eors	r3, r1
	lsrs	r6, r3, #2
	eors	r6, r3
	ldr	r1, .Laes_v6m_CPI35_9
	ands	r6, r1
	muls	r6, r7, r6
	eors	r6, r3
	str	r6, [sp, #60]                   @ 4-byte Spill
	mov	r1, r0
	eors	r1, r6
	ldr	r0, [sp, #64]                   @ 4-byte Reload
	eors	r1, r0
	str	r1, [sp, #80]                   @ 4-byte Spill
	ldr	r0, [sp, #140]                  @ 4-byte Reload
	eors	r2, r0
	ldr	r0, [sp, #16]                   @ 4-byte Reload
	eors	r2, r0
	ldr	r1, [sp, #112]                  @ 4-byte Reload
	ldr	r0, [sp, #128]                  @ 4-byte Reload
	ands	r1, r0
	ldr	r0, [sp, #88]                   @ 4-byte Reload
	eors	r1, r0
	ldr	r0, [sp, #124]                  @ 4-byte Reload
	eors	r1, r0
	ldr	r0, [sp, #136]                  @ 4-byte Reload
	eors	r1, r0
	str	r1, [sp, #112]                  @ 4-byte Spill
	eors	r2, r1
	lsrs	r1, r2, #4
	eors	r1, r2
	ldr	r0, .Laes_v6m_CPI35_8
	ands	r1, r0
	muls	r1, r5, r1
	eors	r1, r2
	b	.Laes_v6m_BB35_7
	.p2align	2
@ %bb.2:
.Laes_v6m_CPI35_5:
	.long	1431655765                      @ 0x55555555
	.p2align	2
@ %bb.3:
.Laes_v6m_CPI35_6:
	.long	858993459                       @ 0x33333333
	.p2align	2
@ %bb.4:
.Laes_v6m_CPI35_7:
	.long	252645135                       @ 0xf0f0f0f
	.p2align	2
@ %bb.5:
.Laes_v6m_CPI35_8:
	.long	51317760                        @ 0x30f0c00
	.p2align	2
@ %bb.6:
.Laes_v6m_CPI35_9:
	.long	855651072                       @ 0x33003300
	.p2align	1
.Laes_v6m_BB35_7:                               @ %join.5.i.i
                                        @   in Loop: Header=BB35_1 Depth=1
	lsrs	r0, r1, #2
	eors	r0, r1
	ldr	r2, .Laes_v6m_CPI35_10
	ands	r0, r2
	muls	r0, r7, r0
	eors	r0, r1
	str	r0, [sp, #140]                  @ 4-byte Spill
	mov	r2, r0
	ldr	r3, [sp, #72]                   @ 4-byte Reload
	rors	r2, r3
	eors	r2, r0
	ldr	r0, [sp, #92]                   @ 4-byte Reload
	ldr	r1, [sp, #28]                   @ 4-byte Reload
	ands	r0, r1
	ldr	r1, [sp, #76]                   @ 4-byte Reload
	eors	r0, r1
	str	r0, [sp, #92]                   @ 4-byte Spill
	ldr	r1, [sp, #148]                  @ 4-byte Reload
	eors	r4, r1
	ldr	r1, [sp, #116]                  @ 4-byte Reload
	eors	r4, r1
	eors	r4, r0
	ldr	r0, [sp, #112]                  @ 4-byte Reload
	eors	r4, r0
	lsrs	r1, r4, #4
	eors	r1, r4
	ldr	r0, .Laes_v6m_CPI35_11
	ands	r1, r0
	muls	r1, r5, r1
	eors	r1, r4
	lsrs	r0, r1, #2
	eors	r0, r1
	ldr	r4, .Laes_v6m_CPI35_10
	ands	r0, r4
	mov	r6, r7
	muls	r0, r7, r0
	eors	r0, r1
	str	r0, [sp, #156]                  @ 4-byte Spill
	mov	r1, r0
	rors	r1, r3
	eors	r1, r0
	str	r1, [sp, #88]                   @ 4-byte Spill
	ldr	r3, [sp, #144]                  @ 4-byte Reload
	eors	r3, r1
	str	r3, [sp, #144]                  @ 4-byte Spill
	eors	r3, r2
	ldr	r0, [sp, #80]                   @ 4-byte Reload
	eors	r3, r0
	movs	r1, #16
	str	r1, [sp, #128]                  @ 4-byte Spill
	mov	r4, r3
	rors	r4, r1
	ldr	r0, [sp, #160]                  @ 4-byte Reload
	ldr	r1, [sp, #120]                  @ 4-byte Reload
	eors	r0, r1
	ldr	r1, [sp, #52]                   @ 4-byte Reload
	eors	r0, r1
	lsrs	r1, r0, #4
	eors	r1, r0
	ldr	r7, .Laes_v6m_CPI35_0
	ands	r1, r7
	muls	r1, r5, r1
	eors	r1, r0
	lsrs	r0, r1, #2
	eors	r0, r1
	ldr	r5, .Laes_v6m_CPI35_2
	ands	r0, r5
	muls	r0, r6, r0
	mov	r7, r6
	str	r6, [sp, #12]                   @ 4-byte Spill
	eors	r0, r1
	mov	r1, r0
	ldr	r5, [sp, #72]                   @ 4-byte Reload
	rors	r1, r5
	eors	r1, r0
	ldr	r6, [sp, #140]                  @ 4-byte Reload
	eors	r6, r1
	str	r6, [sp, #140]                  @ 4-byte Spill
	eors	r4, r6
	eors	r4, r3
	str	r4, [sp, #136]                  @ 4-byte Spill
	ldr	r3, [sp, #156]                  @ 4-byte Reload
	eors	r3, r2
	str	r3, [sp, #156]                  @ 4-byte Spill
	ldr	r2, [sp, #144]                  @ 4-byte Reload
	eors	r2, r3
	mov	r4, r2
	str	r2, [sp, #112]                  @ 4-byte Spill
	ldr	r2, [sp, #124]                  @ 4-byte Reload
	ldr	r3, [sp, #100]                  @ 4-byte Reload
	eors	r2, r3
	ldr	r3, [sp, #84]                   @ 4-byte Reload
	eors	r2, r3
	lsrs	r3, r2, #4
	eors	r3, r2
	ldr	r6, .Laes_v6m_CPI35_0
	ands	r3, r6
	ldr	r6, [sp, #108]                  @ 4-byte Reload
	muls	r3, r6, r3
	eors	r3, r2
	lsrs	r2, r3, #2
	eors	r2, r3
	ldr	r6, .Laes_v6m_CPI35_2
	ands	r2, r6
	muls	r2, r7, r2
	eors	r2, r3
	str	r2, [sp, #84]                   @ 4-byte Spill
	mov	r6, r2
	rors	r6, r5
	eors	r6, r2
	str	r6, [sp, #120]                  @ 4-byte Spill
	ldr	r2, [sp, #96]                   @ 4-byte Reload
	eors	r2, r6
	str	r2, [sp, #96]                   @ 4-byte Spill
	eors	r1, r2
	eors	r1, r4
	mov	r4, r1
	ldr	r2, [sp, #128]                  @ 4-byte Reload
	rors	r4, r2
	ldr	r3, [sp, #60]                   @ 4-byte Reload
	mov	r6, r3
	rors	r6, r5
	eors	r6, r3
	eors	r0, r6
	ldr	r5, [sp, #56]                   @ 4-byte Reload
	eors	r0, r5
	eors	r4, r0
	eors	r4, r1
	lsrs	r3, r4, #1
	ldr	r1, [sp, #136]                  @ 4-byte Reload
	eors	r3, r1
	ldr	r1, .Laes_v6m_CPI35_4
	ands	r3, r1
	str	r3, [sp, #148]                  @ 4-byte Spill
	lsls	r3, r3, #1
	eors	r3, r4
	lsrs	r1, r3, #2
	str	r1, [sp, #160]                  @ 4-byte Spill
	ldr	r1, [sp, #140]                  @ 4-byte Reload
	eors	r1, r5
	mov	r7, r1
	mov	r5, r2
	rors	r7, r2
	ldr	r4, [sp, #144]                  @ 4-byte Reload
	eors	r7, r4
	eors	r7, r1
	str	r7, [sp, #116]                  @ 4-byte Spill
	ldr	r2, [sp, #88]                   @ 4-byte Reload
	eors	r0, r2
	mov	r4, r0
	rors	r4, r5
	ldr	r5, [sp, #156]                  @ 4-byte Reload
	eors	r4, r5
	eors	r4, r0
	lsrs	r0, r4, #1
	eors	r0, r7
	ldr	r1, .Laes_v6m_CPI35_4
	ands	r0, r1
	str	r0, [sp, #100]                  @ 4-byte Spill
	lsls	r2, r0, #1
	eors	r2, r4
	str	r2, [sp, #124]                  @ 4-byte Spill
	ldr	r1, [sp, #160]                  @ 4-byte Reload
	eors	r1, r2
	ldr	r0, .Laes_v6m_CPI35_3
	ands	r1, r0
	str	r1, [sp, #160]                  @ 4-byte Spill
	lsls	r0, r1, #2
	eors	r0, r3
	str	r0, [sp, #140]                  @ 4-byte Spill
	ldr	r0, [sp, #104]                  @ 4-byte Reload
	ldr	r3, [sp, #32]                   @ 4-byte Reload
	ands	r3, r0
	ldr	r0, [sp, #132]                  @ 4-byte Reload
	eors	r3, r0
	ldr	r0, [sp, #92]                   @ 4-byte Reload
	eors	r3, r0
	lsrs	r0, r3, #4
	eors	r0, r3
	ldr	r1, .Laes_v6m_CPI35_0
	ands	r0, r1
	ldr	r1, [sp, #108]                  @ 4-byte Reload
	muls	r0, r1, r0
	eors	r0, r3
	lsrs	r4, r0, #2
	eors	r4, r0
	ldr	r1, .Laes_v6m_CPI35_2
	ands	r4, r1
	ldr	r1, [sp, #12]                   @ 4-byte Reload
	muls	r4, r1, r4
	eors	r4, r0
	mov	r0, r4
	ldr	r1, [sp, #72]                   @ 4-byte Reload
	rors	r0, r1
	eors	r0, r4
	ldr	r2, [sp, #84]                   @ 4-byte Reload
	eors	r2, r0
	ldr	r7, [sp, #56]                   @ 4-byte Reload
	eors	r2, r7
	eors	r6, r2
	eors	r6, r5
	mov	r3, r6
	ldr	r1, [sp, #128]                  @ 4-byte Reload
	rors	r3, r1
	ldr	r5, [sp, #80]                   @ 4-byte Reload
	eors	r3, r5
	eors	r3, r6
	eors	r4, r7
	ldr	r6, [sp, #64]                   @ 4-byte Reload
	eors	r6, r4
	ldr	r5, [sp, #144]                  @ 4-byte Reload
	eors	r6, r5
	mov	r5, r6
	rors	r5, r1
	ldr	r7, [sp, #96]                   @ 4-byte Reload
	eors	r5, r7
	eors	r5, r6
	lsrs	r6, r5, #1
	eors	r6, r3
	ldr	r7, .Laes_v6m_CPI35_4
	ands	r6, r7
	str	r6, [sp, #108]                  @ 4-byte Spill
	lsls	r7, r6, #1
	eors	r7, r5
	str	r7, [sp, #144]                  @ 4-byte Spill
	ldr	r5, [sp, #120]                  @ 4-byte Reload
	ldr	r6, [sp, #112]                  @ 4-byte Reload
	eors	r5, r6
	mov	r6, r5
	rors	r6, r1
	eors	r6, r2
	eors	r6, r5
	ldr	r2, [sp, #156]                  @ 4-byte Reload
	eors	r0, r2
	mov	r2, r0
	rors	r2, r1
	eors	r2, r4
	eors	r2, r0
	lsrs	r7, r2, #1
	eors	r7, r6
	ldr	r0, .Laes_v6m_CPI35_4
	ands	r7, r0
	lsls	r0, r7, #1
	eors	r0, r2
	lsrs	r2, r0, #2
	ldr	r1, [sp, #144]                  @ 4-byte Reload
	eors	r2, r1
	ldr	r1, .Laes_v6m_CPI35_3
	ands	r2, r1
	str	r2, [sp, #156]                  @ 4-byte Spill
	lsls	r1, r2, #2
	eors	r1, r0
	lsrs	r2, r1, #4
	ldr	r0, [sp, #140]                  @ 4-byte Reload
	eors	r2, r0
	ldr	r5, .Laes_v6m_CPI35_1
	ands	r2, r5
	str	r2, [sp, #128]                  @ 4-byte Spill
	lsls	r2, r2, #4
	eors	r2, r1
	str	r2, [sp, #132]                  @ 4-byte Spill
	ldr	r0, [sp, #152]                  @ 4-byte Reload
	ldr	r1, [sp, #68]                   @ 4-byte Reload
	strb	r2, [r0, r1]
	ldr	r0, [sp, #136]                  @ 4-byte Reload
	ldr	r1, [sp, #148]                  @ 4-byte Reload
	eors	r1, r0
	str	r1, [sp, #148]                  @ 4-byte Spill
	lsrs	r4, r1, #2
	ldr	r0, [sp, #100]                  @ 4-byte Reload
	ldr	r1, [sp, #116]                  @ 4-byte Reload
	eors	r0, r1
	eors	r4, r0
	ldr	r1, .Laes_v6m_CPI35_3
	ands	r4, r1
	eors	r0, r4
	ldr	r2, [sp, #108]                  @ 4-byte Reload
	eors	r2, r3
	eors	r7, r6
	lsrs	r3, r7, #2
	eors	r3, r2
	ands	r3, r1
	eors	r2, r3
	lsrs	r6, r2, #4
	eors	r6, r0
	ands	r6, r5
	eors	r0, r6
	ldr	r5, [sp, #36]                   @ 4-byte Reload
	strb	r0, [r5, #28]
	lsrs	r1, r0, #24
	strb	r1, [r5, #31]
	lsrs	r1, r0, #16
	strb	r1, [r5, #30]
	lsrs	r1, r0, #8
	strb	r1, [r5, #29]
	mov	r1, r5
	lsls	r0, r4, #2
	ldr	r4, [sp, #148]                  @ 4-byte Reload
	eors	r0, r4
	lsls	r5, r3, #2
	eors	r5, r7
	lsrs	r3, r5, #4
	eors	r3, r0
	ldr	r4, .Laes_v6m_CPI35_1
	ands	r3, r4
	eors	r0, r3
	strb	r0, [r1, #24]
	lsls	r6, r6, #4
	eors	r6, r2
	strb	r6, [r1, #20]
	ldr	r2, [sp, #160]                  @ 4-byte Reload
	ldr	r4, [sp, #124]                  @ 4-byte Reload
	eors	r2, r4
	ldr	r7, [sp, #156]                  @ 4-byte Reload
	ldr	r4, [sp, #144]                  @ 4-byte Reload
	eors	r7, r4
	str	r7, [sp, #156]                  @ 4-byte Spill
	lsrs	r4, r7, #4
	eors	r4, r2
	ldr	r7, .Laes_v6m_CPI35_1
	ands	r4, r7
	eors	r2, r4
	strb	r2, [r1, #12]
	lsrs	r7, r0, #24
	strb	r7, [r1, #27]
	lsrs	r7, r0, #16
	strb	r7, [r1, #26]
	lsrs	r0, r0, #8
	mov	r7, r1
	strb	r0, [r1, #25]
	lsrs	r0, r6, #24
	strb	r0, [r1, #23]
	lsrs	r0, r6, #16
	strb	r0, [r1, #22]
	lsrs	r0, r6, #8
	strb	r0, [r1, #21]
	lsls	r0, r3, #4
	eors	r0, r5
	strb	r0, [r1, #16]
	lsrs	r1, r2, #24
	strb	r1, [r7, #15]
	lsrs	r1, r2, #16
	strb	r1, [r7, #14]
	lsrs	r1, r2, #8
	strb	r1, [r7, #13]
	ldr	r1, [sp, #140]                  @ 4-byte Reload
	ldr	r2, [sp, #128]                  @ 4-byte Reload
	eors	r2, r1
	strb	r2, [r7, #8]
	lsls	r1, r4, #4
	ldr	r3, [sp, #156]                  @ 4-byte Reload
	eors	r1, r3
	strb	r1, [r7, #4]
	lsrs	r3, r0, #24
	strb	r3, [r7, #19]
	lsrs	r3, r0, #16
	strb	r3, [r7, #18]
	ldr	r3, [sp, #48]                   @ 4-byte Reload
	lsrs	r0, r0, #8
	strb	r0, [r7, #17]
	lsrs	r0, r2, #24
	strb	r0, [r7, #11]
	lsrs	r0, r2, #16
	strb	r0, [r7, #10]
	lsrs	r0, r2, #8
	strb	r0, [r7, #9]
	lsrs	r0, r1, #24
	strb	r0, [r7, #7]
	lsrs	r0, r1, #16
	strb	r0, [r7, #6]
	lsrs	r0, r1, #8
	strb	r0, [r7, #5]
	ldr	r1, [sp, #132]                  @ 4-byte Reload
	lsrs	r0, r1, #24
	strb	r0, [r7, #3]
	lsrs	r0, r1, #16
	strb	r0, [r7, #2]
	lsrs	r0, r1, #8
	strb	r0, [r7, #1]
	ldr	r1, [sp, #40]                   @ 4-byte Reload
	adds	r0, r1, #2
	ldr	r2, [sp]                        @ 4-byte Reload
	adcs	r3, r2
	subs	r1, r1, #6
	ldr	r1, [sp, #44]                   @ 4-byte Reload
	sbcs	r1, r2
	mov	r2, r0
	ldr	r0, [sp, #152]                  @ 4-byte Reload
	mov	r1, r3
	bhs	.Laes_v6m_BB35_10
	b	.Laes_v6m_BB35_1
	.p2align	2
@ %bb.8:
.Laes_v6m_CPI35_10:
	.long	855651072                       @ 0x33003300
	.p2align	2
@ %bb.9:
.Laes_v6m_CPI35_11:
	.long	51317760                        @ 0x30f0c00
	.p2align	1
.Laes_v6m_BB35_10:                              @ %join.5.i2.i.preheader
	movs	r0, #0
	mov	r1, r0
	str	r0, [sp, #36]                   @ 4-byte Spill
	mov	r3, r0
.Laes_v6m_BB35_11:                              @ %join.5.i2.i
                                        @ =>This Inner Loop Header: Depth=1
	str	r1, [sp, #148]                  @ 4-byte Spill
	str	r0, [sp, #156]                  @ 4-byte Spill
	str	r3, [sp, #160]                  @ 4-byte Spill
	lsls	r4, r1, #4
	ldr	r0, [sp, #152]                  @ 4-byte Reload
	ldrb	r0, [r0, r4]
	ldr	r1, [sp, #4]                    @ 4-byte Reload
	ldrb	r2, [r1, r4]
	eors	r2, r0
	str	r2, [sp, #76]                   @ 4-byte Spill
	adds	r3, r1, r4
	ldrb	r0, [r3, #1]
	str	r0, [sp, #144]                  @ 4-byte Spill
	ldr	r0, [sp, #152]                  @ 4-byte Reload
	adds	r5, r0, r4
	ldrb	r0, [r5, #1]
	str	r0, [sp, #140]                  @ 4-byte Spill
	ldrb	r0, [r3, #2]
	str	r0, [sp, #136]                  @ 4-byte Spill
	ldrb	r0, [r5, #2]
	str	r0, [sp, #132]                  @ 4-byte Spill
	ldrb	r0, [r3, #3]
	str	r0, [sp, #128]                  @ 4-byte Spill
	ldrb	r0, [r5, #3]
	str	r0, [sp, #124]                  @ 4-byte Spill
	ldrb	r0, [r3, #4]
	str	r0, [sp, #120]                  @ 4-byte Spill
	ldrb	r0, [r5, #4]
	str	r0, [sp, #116]                  @ 4-byte Spill
	ldrb	r0, [r3, #5]
	str	r0, [sp, #112]                  @ 4-byte Spill
	ldrb	r0, [r5, #5]
	str	r0, [sp, #108]                  @ 4-byte Spill
	ldrb	r0, [r3, #6]
	str	r0, [sp, #104]                  @ 4-byte Spill
	ldrb	r0, [r5, #6]
	str	r0, [sp, #100]                  @ 4-byte Spill
	ldrb	r0, [r3, #7]
	str	r0, [sp, #96]                   @ 4-byte Spill
	ldrb	r0, [r5, #7]
	str	r0, [sp, #92]                   @ 4-byte Spill
	ldrb	r0, [r3, #8]
	str	r0, [sp, #88]                   @ 4-byte Spill
	ldrb	r0, [r5, #8]
	str	r0, [sp, #84]                   @ 4-byte Spill
	ldrb	r0, [r3, #9]
	str	r0, [sp, #80]                   @ 4-byte Spill
	ldrb	r0, [r5, #9]
	str	r0, [sp, #72]                   @ 4-byte Spill
	ldrb	r0, [r3, #10]
	str	r0, [sp, #68]                   @ 4-byte Spill
	ldrb	r0, [r5, #10]
	str	r0, [sp, #64]                   @ 4-byte Spill
	ldrb	r0, [r3, #11]
	str	r0, [sp, #60]                   @ 4-byte Spill
	ldrb	r0, [r5, #11]
	str	r0, [sp, #56]                   @ 4-byte Spill
	ldrb	r0, [r3, #12]
	str	r0, [sp, #52]                   @ 4-byte Spill
	ldrb	r2, [r5, #12]
	ldrb	r0, [r3, #13]
	str	r0, [sp, #48]                   @ 4-byte Spill
	ldrb	r6, [r5, #13]
	ldrb	r0, [r3, #14]
	str	r0, [sp, #44]                   @ 4-byte Spill
	ldrb	r1, [r5, #14]
	ldrb	r0, [r3, #15]
	str	r0, [sp, #40]                   @ 4-byte Spill
	ldrb	r7, [r5, #15]
	ldr	r3, [sp, #152]                  @ 4-byte Reload
	ldr	r0, [sp, #76]                   @ 4-byte Reload
	strb	r0, [r3, r4]
	ldr	r3, [sp, #160]                  @ 4-byte Reload
	ldr	r0, [sp, #40]                   @ 4-byte Reload
	eors	r7, r0
	strb	r7, [r5, #15]
	ldr	r0, [sp, #44]                   @ 4-byte Reload
	eors	r1, r0
	strb	r1, [r5, #14]
	ldr	r0, [sp, #48]                   @ 4-byte Reload
	eors	r6, r0
	strb	r6, [r5, #13]
	ldr	r0, [sp, #52]                   @ 4-byte Reload
	eors	r2, r0
	strb	r2, [r5, #12]
	ldr	r0, [sp, #60]                   @ 4-byte Reload
	ldr	r1, [sp, #56]                   @ 4-byte Reload
	eors	r1, r0
	strb	r1, [r5, #11]
	ldr	r0, [sp, #68]                   @ 4-byte Reload
	ldr	r1, [sp, #64]                   @ 4-byte Reload
	eors	r1, r0
	strb	r1, [r5, #10]
	ldr	r0, [sp, #80]                   @ 4-byte Reload
	ldr	r1, [sp, #72]                   @ 4-byte Reload
	eors	r1, r0
	strb	r1, [r5, #9]
	ldr	r0, [sp, #88]                   @ 4-byte Reload
	ldr	r1, [sp, #84]                   @ 4-byte Reload
	eors	r1, r0
	strb	r1, [r5, #8]
	ldr	r0, [sp, #96]                   @ 4-byte Reload
	ldr	r1, [sp, #92]                   @ 4-byte Reload
	eors	r1, r0
	strb	r1, [r5, #7]
	ldr	r0, [sp, #104]                  @ 4-byte Reload
	ldr	r1, [sp, #100]                  @ 4-byte Reload
	eors	r1, r0
	strb	r1, [r5, #6]
	ldr	r0, [sp, #112]                  @ 4-byte Reload
	ldr	r1, [sp, #108]                  @ 4-byte Reload
	eors	r1, r0
	strb	r1, [r5, #5]
	ldr	r0, [sp, #120]                  @ 4-byte Reload
	ldr	r1, [sp, #116]                  @ 4-byte Reload
	eors	r1, r0
	strb	r1, [r5, #4]
	ldr	r0, [sp, #128]                  @ 4-byte Reload
	ldr	r1, [sp, #124]                  @ 4-byte Reload
	eors	r1, r0
	strb	r1, [r5, #3]
	ldr	r0, [sp, #136]                  @ 4-byte Reload
	ldr	r1, [sp, #132]                  @ 4-byte Reload
	eors	r1, r0
	strb	r1, [r5, #2]
	ldr	r0, [sp, #144]                  @ 4-byte Reload
	ldr	r1, [sp, #140]                  @ 4-byte Reload
	eors	r1, r0
	strb	r1, [r5, #1]
	ldr	r1, [sp, #148]                  @ 4-byte Reload
	adds	r0, r1, #1
	ldr	r2, [sp, #36]                   @ 4-byte Reload
	adcs	r3, r2
	subs	r1, r1, #7
	ldr	r1, [sp, #156]                  @ 4-byte Reload
	sbcs	r1, r2
	mov	r1, r0
	mov	r0, r3
	bhs	.Laes_v6m_BB35_12
	b	.Laes_v6m_BB35_11
.Laes_v6m_BB35_12:                              @ %"aes_soft::soft::hazmat::par::equiv_inv_cipher_round_par::<#e817d94f9a7b6ba6>.exit"
	add	sp, #164
	pop	{r4, r5, r6, r7, pc}
	.p2align	2
@ %bb.13:
.Laes_v6m_CPI35_0:
	.long	51317760                        @ 0x30f0c00
.Laes_v6m_CPI35_1:
	.long	252645135                       @ 0xf0f0f0f
.Laes_v6m_CPI35_2:
	.long	855651072                       @ 0x33003300
.Laes_v6m_CPI35_3:
	.long	858993459                       @ 0x33333333
.Laes_v6m_CPI35_4:
	.long	1431655765                      @ 0x55555555
.Laes_v6m_func_end35:
	.size	aes_v6m.aes_c.single_rounds.inverse_rounds, .Laes_v6m_func_end35-aes_v6m.aes_c.single_rounds.inverse_rounds
	.cantunwind
	.fnend
                                        @ -- End function
	.section	.text.aes_v6m.cmac.pieces.Message.is_tag_so_far,"ax",%progbits
	.p2align	1                               @ -- Begin function cmac::pieces::Message::is_tag_so_far::<#4f733d09d7f6c6b4>
	.type	aes_v6m.cmac.pieces.Message.is_tag_so_far,%function
	.code	16
	.thumb_func
aes_v6m.cmac.pieces.Message.is_tag_so_far: @ @aes_v6m.cmac.pieces.Message.is_tag_so_far
	.fnstart
@ %bb.0:                                @ %start
	.save	{r4, r5, r6, lr}
	push	{r4, r5, r6, lr}
	.pad	#40
	sub	sp, #40
	mov	r4, r2
	mov	r3, r0
	ldr	r0, [r0, #8]
	ldr	r2, [r3, #12]
	movs	r5, #0
	str	r5, [sp, #4]
	movs	r5, #16
	cmp	r0, #16
	blo	.Laes_v6m_BB36_2
@ %bb.1:                                @ %start
	mov	r0, r5
.Laes_v6m_BB36_2:                               @ %start
	cmp	r2, #0
	beq	.Laes_v6m_BB36_4
@ %bb.3:                                @ %start
	mov	r0, r5
.Laes_v6m_BB36_4:                               @ %start
	str	r0, [sp]
	mov	r2, r3
	adds	r2, #16
	adds	r3, #32
	add	r5, sp, #8
	mov	r0, r5
	bl	aes_v6m.cmac.tags.tag_at_end
	ldr	r0, [sp, #20]
	str	r0, [sp, #36]
	ldr	r0, [sp, #16]
	str	r0, [sp, #32]
	ldr	r0, [sp, #12]
	str	r0, [sp, #28]
	ldr	r0, [sp, #8]
	str	r0, [sp, #24]
	add	r6, sp, #24
	ldr	r2, [sp, #56]
	mov	r0, r6
	mov	r1, r4
	bl	memcpy
	mov	r0, r6
	mov	r1, r5
	bl	aes_v6m.aes_cipher.blocks.difference
	rsbs	r1, r0, #0
	adcs	r0, r1
	add	sp, #40
	pop	{r4, r5, r6, pc}
.Laes_v6m_func_end36:
	.size	aes_v6m.cmac.pieces.Message.is_tag_so_far, .Laes_v6m_func_end36-aes_v6m.cmac.pieces.Message.is_tag_so_far
	.cantunwind
	.fnend
                                        @ -- End function
	.section	.text.aes_v6m.cmac.tags.is_tag_start,"ax",%progbits
	.p2align	1                               @ -- Begin function cmac::tags::is_tag_start::<#4f733d09d7f6c6b4>
	.type	aes_v6m.cmac.tags.is_tag_start,%function
	.code	16
	.thumb_func
aes_v6m.cmac.tags.is_tag_start: @ @aes_v6m.cmac.tags.is_tag_start
	.fnstart
@ %bb.0:                                @ %start
	.save	{r4, r5, r7, lr}
	push	{r4, r5, r7, lr}
	.pad	#40
	sub	sp, #40
	mov	r5, r1
	mov	r1, r0
	str	r2, [sp]
	str	r3, [sp, #4]
	add	r4, sp, #8
	mov	r0, r4
	mov	r2, r5
	bl	aes_v6m.cmac.tags.tag
	ldr	r0, [sp, #20]
	str	r0, [sp, #36]
	ldr	r0, [sp, #16]
	str	r0, [sp, #32]
	ldr	r0, [sp, #12]
	str	r0, [sp, #28]
	ldr	r0, [sp, #8]
	str	r0, [sp, #24]
	add	r5, sp, #24
	ldr	r1, [sp, #56]
	ldr	r2, [sp, #64]
	mov	r0, r5
	bl	memcpy
	mov	r0, r5
	mov	r1, r4
	bl	aes_v6m.aes_cipher.blocks.difference
	rsbs	r1, r0, #0
	adcs	r0, r1
	add	sp, #40
	pop	{r4, r5, r7, pc}
.Laes_v6m_func_end37:
	.size	aes_v6m.cmac.tags.is_tag_start, .Laes_v6m_func_end37-aes_v6m.cmac.tags.is_tag_start
	.cantunwind
	.fnend
                                        @ -- End function
	.section	.text.aes_v6m.aes_c.single_rounds.mixed,"ax",%progbits
	.p2align	2                               @ -- Begin function aes_c::single_rounds::mixed
	.type	aes_v6m.aes_c.single_rounds.mixed,%function
	.code	16
	.thumb_func
aes_v6m.aes_c.single_rounds.mixed:          @ @aes_v6m.aes_c.single_rounds.mixed
	.fnstart
@ %bb.0:                                @ %start
	.save	{r4, r5, r6, r7, lr}
	push	{r4, r5, r6, r7, lr}
	.pad	#68
	sub	sp, #68
	mov	r1, r0
	str	r0, [sp, #28]                   @ 4-byte Spill
	add	r0, sp, #36
	bl	aes_v6m.aes_planes.soft.word.word32.U32Word.in_every_slot
	movs	r7, #8
	ldr	r0, [sp, #60]
	mov	r2, r0
	rors	r2, r7
	eors	r0, r2
	movs	r5, #16
	mov	r1, r0
	rors	r1, r5
	str	r5, [sp, #8]                    @ 4-byte Spill
	eors	r1, r2
	ldr	r6, [sp, #56]
	mov	r2, r6
	rors	r2, r7
	str	r2, [sp, #24]                   @ 4-byte Spill
	eors	r6, r2
	eors	r1, r6
	lsrs	r2, r1, #1
	ldr	r4, [sp, #64]
	mov	r3, r4
	rors	r3, r7
	eors	r4, r3
	str	r4, [sp, #32]                   @ 4-byte Spill
	rors	r4, r5
	eors	r4, r2
	eors	r4, r3
	eors	r4, r0
	lsls	r5, r4, #1
	ldr	r0, .Laes_v6m_CPI38_0
	ands	r5, r0
	eors	r5, r1
	ldr	r2, [sp, #48]
	mov	r0, r2
	rors	r0, r7
	str	r0, [sp, #16]                   @ 4-byte Spill
	eors	r2, r0
	ldr	r0, [sp, #52]
	mov	r3, r0
	rors	r3, r7
	eors	r0, r3
	mov	r1, r0
	ldr	r4, [sp, #8]                    @ 4-byte Reload
	rors	r1, r4
	eors	r1, r2
	eors	r1, r3
	ldr	r3, [sp, #32]                   @ 4-byte Reload
	eors	r1, r3
	lsrs	r3, r1, #1
	rors	r6, r4
	eors	r6, r3
	ldr	r3, [sp, #24]                   @ 4-byte Reload
	eors	r6, r3
	eors	r6, r0
	lsls	r3, r6, #1
	ldr	r0, .Laes_v6m_CPI38_0
	ands	r3, r0
	eors	r3, r1
	str	r3, [sp, #24]                   @ 4-byte Spill
	lsrs	r0, r3, #2
	eors	r0, r5
	ldr	r1, .Laes_v6m_CPI38_1
	ands	r0, r1
	str	r0, [sp, #20]                   @ 4-byte Spill
	eors	r5, r0
	ldr	r3, [sp, #44]
	mov	r0, r3
	str	r7, [sp, #4]                    @ 4-byte Spill
	rors	r0, r7
	eors	r3, r0
	mov	r1, r3
	rors	r1, r4
	eors	r1, r0
	ldr	r0, [sp, #40]
	mov	r6, r0
	rors	r6, r7
	str	r6, [sp, #12]                   @ 4-byte Spill
	eors	r0, r6
	eors	r1, r0
	lsrs	r7, r1, #1
	rors	r2, r4
	mov	r6, r4
	eors	r2, r7
	eors	r2, r3
	ldr	r3, [sp, #16]                   @ 4-byte Reload
	eors	r2, r3
	ldr	r4, [sp, #32]                   @ 4-byte Reload
	eors	r2, r4
	lsls	r2, r2, #1
	ldr	r3, .Laes_v6m_CPI38_0
	ands	r2, r3
	eors	r2, r1
	ldr	r3, [sp, #36]
	mov	r7, r3
	ldr	r1, [sp, #4]                    @ 4-byte Reload
	rors	r7, r1
	eors	r3, r7
	mov	r1, r3
	rors	r1, r6
	eors	r1, r7
	eors	r1, r4
	lsrs	r7, r1, #1
	rors	r0, r6
	eors	r0, r7
	eors	r0, r3
	ldr	r3, [sp, #12]                   @ 4-byte Reload
	eors	r0, r3
	eors	r0, r4
	lsls	r0, r0, #1
	ldr	r3, .Laes_v6m_CPI38_0
	ands	r0, r3
	eors	r0, r1
	lsrs	r1, r0, #2
	eors	r1, r2
	ldr	r3, .Laes_v6m_CPI38_1
	ands	r1, r3
	eors	r2, r1
	lsrs	r3, r2, #4
	eors	r3, r5
	ldr	r6, .Laes_v6m_CPI38_2
	ands	r3, r6
	eors	r5, r3
	ldr	r4, [sp, #28]                   @ 4-byte Reload
	strb	r5, [r4, #12]
	lsrs	r7, r5, #24
	strb	r7, [r4, #15]
	lsrs	r7, r5, #16
	strb	r7, [r4, #14]
	mov	r7, r4
	lsrs	r4, r5, #8
	mov	r5, r7
	strb	r4, [r7, #13]
	ldr	r4, [sp, #20]                   @ 4-byte Reload
	lsls	r4, r4, #2
	ldr	r7, [sp, #24]                   @ 4-byte Reload
	eors	r4, r7
	lsls	r1, r1, #2
	eors	r1, r0
	lsrs	r0, r1, #4
	eors	r0, r4
	ands	r0, r6
	eors	r4, r0
	strb	r4, [r5, #8]
	lsls	r3, r3, #4
	eors	r3, r2
	strb	r3, [r5, #4]
	lsrs	r2, r4, #24
	strb	r2, [r5, #11]
	lsrs	r2, r4, #16
	strb	r2, [r5, #10]
	lsrs	r2, r4, #8
	strb	r2, [r5, #9]
	lsrs	r2, r3, #24
	strb	r2, [r5, #7]
	lsrs	r2, r3, #16
	strb	r2, [r5, #6]
	lsrs	r2, r3, #8
	strb	r2, [r5, #5]
	lsls	r0, r0, #4
	eors	r0, r1
	strb	r0, [r5]
	lsrs	r1, r0, #24
	strb	r1, [r5, #3]
	lsrs	r1, r0, #16
	strb	r1, [r5, #2]
	lsrs	r0, r0, #8
	strb	r0, [r5, #1]
	add	sp, #68
	pop	{r4, r5, r6, r7, pc}
	.p2align	2
@ %bb.1:
.Laes_v6m_CPI38_0:
	.long	2863311530                      @ 0xaaaaaaaa
.Laes_v6m_CPI38_1:
	.long	858993459                       @ 0x33333333
.Laes_v6m_CPI38_2:
	.long	252645135                       @ 0xf0f0f0f
.Laes_v6m_func_end38:
	.size	aes_v6m.aes_c.single_rounds.mixed, .Laes_v6m_func_end38-aes_v6m.aes_c.single_rounds.mixed
	.cantunwind
	.fnend
                                        @ -- End function
	.section	.text.aes_v6m.aes_c.single_rounds.round,"ax",%progbits
	.p2align	2                               @ -- Begin function aes_c::single_rounds::round
	.type	aes_v6m.aes_c.single_rounds.round,%function
	.code	16
	.thumb_func
aes_v6m.aes_c.single_rounds.round:          @ @aes_v6m.aes_c.single_rounds.round
	.fnstart
@ %bb.0:                                @ %start
	.save	{r4, r5, r6, r7, lr}
	push	{r4, r5, r6, r7, lr}
	.pad	#140
	sub	sp, #140
	str	r1, [sp, #24]                   @ 4-byte Spill
	mov	r1, r0
	str	r0, [sp, #28]                   @ 4-byte Spill
	add	r0, sp, #108
	bl	aes_v6m.aes_planes.soft.word.word32.U32Word.in_every_slot
	ldr	r7, [sp, #116]
	ldr	r1, [sp, #124]
	mov	r2, r1
	str	r1, [sp, #64]                   @ 4-byte Spill
	eors	r2, r7
	str	r7, [sp, #96]                   @ 4-byte Spill
	ldr	r0, [sp, #112]
	str	r0, [sp, #88]                   @ 4-byte Spill
	ldr	r6, [sp, #136]
	mov	r3, r6
	eors	r3, r0
	str	r3, [sp, #36]                   @ 4-byte Spill
	mov	r0, r3
	eors	r0, r2
	str	r0, [sp, #40]                   @ 4-byte Spill
	mov	r4, r2
	str	r2, [sp, #16]                   @ 4-byte Spill
	ldr	r2, [sp, #120]
	eors	r2, r0
	mov	r5, r2
	eors	r5, r7
	str	r5, [sp, #32]                   @ 4-byte Spill
	ldr	r7, [sp, #128]
	ldr	r0, [sp, #132]
	eors	r7, r0
	eors	r5, r7
	str	r5, [sp, #104]                  @ 4-byte Spill
	eors	r2, r0
	str	r2, [sp, #84]                   @ 4-byte Spill
	mov	r0, r6
	eors	r0, r1
	mov	r3, r2
	eors	r3, r0
	str	r3, [sp, #68]                   @ 4-byte Spill
	str	r0, [sp, #12]                   @ 4-byte Spill
	mov	r2, r3
	eors	r2, r5
	str	r2, [sp, #72]                   @ 4-byte Spill
	mov	r1, r2
	ands	r1, r4
	mov	r2, r3
	ands	r2, r0
	eors	r1, r2
	mov	r0, r1
	str	r1, [sp, #76]                   @ 4-byte Spill
	ldr	r1, [sp, #108]
	str	r1, [sp, #100]                  @ 4-byte Spill
	mov	r5, r3
	eors	r5, r7
	eors	r7, r1
	str	r7, [sp, #92]                   @ 4-byte Spill
	ldr	r4, [sp, #88]                   @ 4-byte Reload
	eors	r4, r7
	str	r4, [sp, #88]                   @ 4-byte Spill
	ands	r4, r7
	mov	r1, r5
	str	r5, [sp, #80]                   @ 4-byte Spill
	eors	r4, r5
	ldr	r3, [sp, #36]                   @ 4-byte Reload
	ands	r1, r3
	eors	r4, r1
	eors	r4, r3
	eors	r4, r0
	ldr	r7, [sp, #96]                   @ 4-byte Reload
	eors	r7, r6
	str	r7, [sp, #96]                   @ 4-byte Spill
	ldr	r3, [sp, #104]                  @ 4-byte Reload
	ands	r3, r7
	eors	r3, r2
	ldr	r7, [sp, #68]                   @ 4-byte Reload
	ldr	r5, [sp, #100]                  @ 4-byte Reload
	eors	r7, r5
	str	r7, [sp, #20]                   @ 4-byte Spill
	ldr	r0, [sp, #92]                   @ 4-byte Reload
	eors	r0, r6
	str	r0, [sp, #60]                   @ 4-byte Spill
	ands	r7, r0
	ldr	r0, [sp, #80]                   @ 4-byte Reload
	eors	r7, r0
	eors	r7, r1
	eors	r7, r6
	eors	r7, r3
	mov	r0, r7
	eors	r0, r4
	str	r0, [sp, #56]                   @ 4-byte Spill
	ldr	r2, [sp, #32]                   @ 4-byte Reload
	mov	r1, r2
	ldr	r0, [sp, #40]                   @ 4-byte Reload
	ands	r1, r0
	ldr	r0, [sp, #88]                   @ 4-byte Reload
	ldr	r6, [sp, #96]                   @ 4-byte Reload
	eors	r0, r6
	str	r0, [sp, #8]                    @ 4-byte Spill
	mov	r6, r2
	eors	r6, r5
	str	r6, [sp, #4]                    @ 4-byte Spill
	ands	r6, r0
	ldr	r0, [sp, #84]                   @ 4-byte Reload
	eors	r6, r0
	eors	r6, r1
	ldr	r0, [sp, #76]                   @ 4-byte Reload
	eors	r6, r0
	mov	r5, r4
	ands	r5, r6
	ldr	r2, [sp, #64]                   @ 4-byte Reload
	ldr	r0, [sp, #92]                   @ 4-byte Reload
	eors	r2, r0
	str	r2, [sp, #64]                   @ 4-byte Spill
	ldr	r0, [sp, #100]                  @ 4-byte Reload
	ands	r2, r0
	ldr	r0, [sp, #96]                   @ 4-byte Reload
	eors	r2, r0
	ldr	r0, [sp, #104]                  @ 4-byte Reload
	eors	r2, r0
	eors	r2, r1
	eors	r2, r3
	mov	r3, r5
	eors	r3, r2
	ldr	r0, [sp, #56]                   @ 4-byte Reload
	ands	r3, r0
	mov	r0, r3
	eors	r0, r7
	eors	r3, r5
	ands	r3, r7
	eors	r4, r3
	mov	r1, r4
	eors	r1, r0
	str	r1, [sp, #84]                   @ 4-byte Spill
	mov	r1, r0
	str	r0, [sp, #44]                   @ 4-byte Spill
	eors	r6, r2
	eors	r5, r7
	eors	r3, r5
	ands	r5, r6
	eors	r5, r2
	ands	r3, r5
	eors	r3, r6
	str	r3, [sp, #56]                   @ 4-byte Spill
	mov	r0, r3
	ldr	r2, [sp, #84]                   @ 4-byte Reload
	eors	r0, r2
	str	r5, [sp, #76]                   @ 4-byte Spill
	mov	r2, r5
	eors	r2, r1
	str	r2, [sp, #48]                   @ 4-byte Spill
	mov	r1, r0
	eors	r1, r2
	str	r1, [sp, #52]                   @ 4-byte Spill
	ldr	r2, [sp, #72]                   @ 4-byte Reload
	ands	r2, r1
	ldr	r7, [sp, #92]                   @ 4-byte Reload
	ands	r7, r3
	mov	r1, r3
	eors	r1, r5
	ldr	r3, [sp, #80]                   @ 4-byte Reload
	ands	r3, r1
	str	r3, [sp, #80]                   @ 4-byte Spill
	mov	r6, r1
	eors	r7, r3
	str	r7, [sp, #92]                   @ 4-byte Spill
	eors	r2, r7
	str	r2, [sp, #72]                   @ 4-byte Spill
	ldr	r1, [sp, #104]                  @ 4-byte Reload
	ands	r1, r0
	ldr	r7, [sp, #100]                  @ 4-byte Reload
	ldr	r5, [sp, #44]                   @ 4-byte Reload
	ands	r7, r5
	ldr	r3, [sp, #32]                   @ 4-byte Reload
	ands	r3, r4
	eors	r7, r3
	str	r7, [sp, #100]                  @ 4-byte Spill
	eors	r1, r7
	ldr	r2, [sp, #36]                   @ 4-byte Reload
	ands	r6, r2
	str	r6, [sp, #36]                   @ 4-byte Spill
	eors	r1, r6
	ldr	r7, [sp, #72]                   @ 4-byte Reload
	eors	r1, r7
	str	r1, [sp, #104]                  @ 4-byte Spill
	ldr	r6, [sp, #60]                   @ 4-byte Reload
	ldr	r5, [sp, #76]                   @ 4-byte Reload
	ands	r6, r5
	eors	r6, r1
	str	r6, [sp, #60]                   @ 4-byte Spill
	ldr	r1, [sp, #68]                   @ 4-byte Reload
	ldr	r5, [sp, #48]                   @ 4-byte Reload
	ands	r1, r5
	eors	r1, r7
	mov	r2, r1
	str	r1, [sp, #68]                   @ 4-byte Spill
	ldr	r1, [sp, #96]                   @ 4-byte Reload
	ands	r0, r1
	ldr	r1, [sp, #12]                   @ 4-byte Reload
	ands	r5, r1
	str	r5, [sp, #48]                   @ 4-byte Spill
	eors	r0, r5
	eors	r0, r2
	eors	r0, r6
	mvns	r0, r0
	lsrs	r1, r0, #4
	eors	r1, r0
	ldr	r2, .Laes_v6m_CPI39_0
	ands	r1, r2
	lsls	r6, r1, #4
	eors	r6, r0
	eors	r6, r1
	lsrs	r7, r6, #2
	eors	r7, r6
	ldr	r0, .Laes_v6m_CPI39_1
	ands	r7, r0
	movs	r0, #5
	str	r0, [sp, #72]                   @ 4-byte Spill
	muls	r7, r0, r7
	eors	r7, r6
	movs	r0, #8
	str	r0, [sp, #96]                   @ 4-byte Spill
	mov	r1, r7
	rors	r1, r0
	str	r1, [sp, #32]                   @ 4-byte Spill
	eors	r7, r1
	ldr	r0, [sp, #84]                   @ 4-byte Reload
	ldr	r5, [sp, #4]                    @ 4-byte Reload
	ands	r5, r0
	eors	r5, r3
	ldr	r1, [sp, #92]                   @ 4-byte Reload
	eors	r5, r1
	ldr	r1, [sp, #52]                   @ 4-byte Reload
	ldr	r3, [sp, #16]                   @ 4-byte Reload
	ands	r1, r3
	ldr	r2, [sp, #48]                   @ 4-byte Reload
	eors	r1, r2
	str	r1, [sp, #52]                   @ 4-byte Spill
	ldr	r2, [sp, #8]                    @ 4-byte Reload
	ands	r0, r2
	eors	r0, r1
	str	r0, [sp, #84]                   @ 4-byte Spill
	ldr	r1, [sp, #40]                   @ 4-byte Reload
	ands	r4, r1
	eors	r4, r0
	eors	r5, r4
	ldr	r3, [sp, #68]                   @ 4-byte Reload
	mov	r0, r3
	eors	r0, r5
	mvns	r0, r0
	lsrs	r1, r0, #4
	eors	r1, r0
	ldr	r2, .Laes_v6m_CPI39_0
	ands	r1, r2
	lsls	r6, r1, #4
	eors	r6, r0
	eors	r6, r1
	lsrs	r2, r6, #2
	eors	r2, r6
	ldr	r0, .Laes_v6m_CPI39_1
	ands	r2, r0
	ldr	r0, [sp, #72]                   @ 4-byte Reload
	muls	r2, r0, r2
	eors	r2, r6
	mov	r0, r2
	ldr	r1, [sp, #96]                   @ 4-byte Reload
	rors	r0, r1
	eors	r2, r0
	movs	r6, #16
	str	r6, [sp, #92]                   @ 4-byte Spill
	mov	r1, r2
	rors	r1, r6
	eors	r1, r0
	eors	r1, r7
	lsrs	r0, r1, #1
	str	r0, [sp, #16]                   @ 4-byte Spill
	eors	r4, r3
	lsrs	r0, r4, #4
	eors	r0, r4
	ldr	r3, .Laes_v6m_CPI39_0
	ands	r0, r3
	movs	r3, #17
	str	r3, [sp, #40]                   @ 4-byte Spill
	muls	r0, r3, r0
	eors	r0, r4
	lsrs	r4, r0, #2
	eors	r4, r0
	ldr	r3, .Laes_v6m_CPI39_1
	ands	r4, r3
	ldr	r3, [sp, #72]                   @ 4-byte Reload
	muls	r4, r3, r4
	eors	r4, r0
	mov	r0, r4
	ldr	r3, [sp, #96]                   @ 4-byte Reload
	rors	r0, r3
	eors	r4, r0
	str	r4, [sp, #48]                   @ 4-byte Spill
	ldr	r3, [sp, #92]                   @ 4-byte Reload
	rors	r4, r3
	ldr	r6, [sp, #16]                   @ 4-byte Reload
	eors	r4, r6
	eors	r4, r0
	eors	r4, r2
	lsls	r0, r4, #1
	ldr	r2, .Laes_v6m_CPI39_2
	ands	r0, r2
	eors	r0, r1
	str	r0, [sp, #68]                   @ 4-byte Spill
	rors	r7, r3
	lsrs	r1, r5, #4
	eors	r1, r5
	ldr	r0, .Laes_v6m_CPI39_0
	ands	r1, r0
	ldr	r3, [sp, #40]                   @ 4-byte Reload
	muls	r1, r3, r1
	eors	r1, r5
	lsrs	r0, r1, #2
	eors	r0, r1
	ldr	r2, .Laes_v6m_CPI39_1
	ands	r0, r2
	ldr	r4, [sp, #72]                   @ 4-byte Reload
	muls	r0, r4, r0
	eors	r0, r1
	mov	r1, r0
	ldr	r2, [sp, #96]                   @ 4-byte Reload
	rors	r1, r2
	eors	r0, r1
	mov	r2, r0
	ldr	r6, [sp, #92]                   @ 4-byte Reload
	rors	r2, r6
	eors	r2, r1
	ldr	r1, [sp, #48]                   @ 4-byte Reload
	eors	r2, r1
	ldr	r1, [sp, #20]                   @ 4-byte Reload
	ldr	r6, [sp, #76]                   @ 4-byte Reload
	ands	r6, r1
	ldr	r1, [sp, #100]                  @ 4-byte Reload
	eors	r6, r1
	ldr	r1, [sp, #80]                   @ 4-byte Reload
	eors	r6, r1
	str	r6, [sp, #76]                   @ 4-byte Spill
	eors	r5, r6
	lsrs	r1, r5, #4
	eors	r1, r5
	ldr	r6, .Laes_v6m_CPI39_0
	ands	r1, r6
	muls	r1, r3, r1
	eors	r1, r5
	lsrs	r6, r1, #2
	eors	r6, r1
	ldr	r5, .Laes_v6m_CPI39_1
	ands	r6, r5
	muls	r6, r4, r6
	mov	r3, r4
	eors	r6, r1
	mov	r1, r6
	ldr	r4, [sp, #96]                   @ 4-byte Reload
	rors	r1, r4
	str	r1, [sp, #20]                   @ 4-byte Spill
	eors	r6, r1
	eors	r2, r6
	lsrs	r1, r2, #1
	eors	r1, r7
	eors	r1, r0
	ldr	r0, [sp, #32]                   @ 4-byte Reload
	eors	r1, r0
	lsls	r0, r1, #1
	ldr	r1, .Laes_v6m_CPI39_2
	ands	r0, r1
	eors	r0, r2
	str	r0, [sp, #100]                  @ 4-byte Spill
	lsrs	r1, r0, #2
	ldr	r0, [sp, #68]                   @ 4-byte Reload
	eors	r1, r0
	ldr	r2, .Laes_v6m_CPI39_3
	ands	r1, r2
	str	r1, [sp, #80]                   @ 4-byte Spill
	eors	r0, r1
	str	r0, [sp, #68]                   @ 4-byte Spill
	ldr	r0, [sp, #88]                   @ 4-byte Reload
	ldr	r1, [sp, #56]                   @ 4-byte Reload
	ands	r1, r0
	ldr	r0, [sp, #76]                   @ 4-byte Reload
	eors	r1, r0
	ldr	r0, [sp, #52]                   @ 4-byte Reload
	eors	r1, r0
	str	r1, [sp, #56]                   @ 4-byte Spill
	ldr	r0, [sp, #104]                  @ 4-byte Reload
	eors	r0, r1
	mvns	r0, r0
	lsrs	r1, r0, #4
	eors	r1, r0
	ldr	r2, .Laes_v6m_CPI39_0
	ands	r1, r2
	lsls	r2, r1, #4
	eors	r2, r0
	eors	r2, r1
	lsrs	r0, r2, #2
	eors	r0, r2
	ands	r0, r5
	mov	r7, r3
	muls	r0, r3, r0
	eors	r0, r2
	mov	r1, r0
	rors	r1, r4
	str	r1, [sp, #104]                  @ 4-byte Spill
	mov	r3, r4
	eors	r0, r1
	ldr	r1, [sp, #64]                   @ 4-byte Reload
	ldr	r4, [sp, #44]                   @ 4-byte Reload
	ands	r4, r1
	ldr	r1, [sp, #84]                   @ 4-byte Reload
	eors	r4, r1
	ldr	r1, [sp, #60]                   @ 4-byte Reload
	eors	r4, r1
	lsrs	r1, r4, #4
	eors	r1, r4
	ldr	r2, .Laes_v6m_CPI39_0
	ands	r1, r2
	ldr	r2, [sp, #40]                   @ 4-byte Reload
	muls	r1, r2, r1
	eors	r1, r4
	lsrs	r4, r1, #2
	eors	r4, r1
	ands	r4, r5
	muls	r4, r7, r4
	eors	r4, r1
	mov	r1, r4
	rors	r1, r3
	eors	r4, r1
	mov	r5, r4
	ldr	r7, [sp, #92]                   @ 4-byte Reload
	rors	r5, r7
	eors	r5, r1
	eors	r5, r0
	lsrs	r1, r5, #1
	rors	r6, r7
	eors	r6, r1
	eors	r6, r4
	ldr	r2, [sp, #48]                   @ 4-byte Reload
	eors	r6, r2
	ldr	r1, [sp, #20]                   @ 4-byte Reload
	eors	r6, r1
	lsls	r6, r6, #1
	ldr	r4, .Laes_v6m_CPI39_2
	ands	r6, r4
	eors	r6, r5
	rors	r0, r7
	ldr	r1, [sp, #36]                   @ 4-byte Reload
	ldr	r3, [sp, #56]                   @ 4-byte Reload
	eors	r3, r1
	mvns	r1, r3
	lsrs	r3, r1, #4
	eors	r3, r1
	ldr	r5, .Laes_v6m_CPI39_0
	ands	r3, r5
	lsls	r5, r3, #4
	eors	r5, r1
	eors	r5, r3
	lsrs	r3, r5, #2
	eors	r3, r5
	ldr	r1, .Laes_v6m_CPI39_1
	ands	r3, r1
	ldr	r1, [sp, #72]                   @ 4-byte Reload
	muls	r3, r1, r3
	eors	r3, r5
	mov	r1, r3
	ldr	r5, [sp, #96]                   @ 4-byte Reload
	rors	r1, r5
	eors	r3, r1
	mov	r5, r3
	rors	r5, r7
	eors	r5, r1
	eors	r5, r2
	lsrs	r1, r5, #1
	eors	r1, r0
	ldr	r0, [sp, #104]                  @ 4-byte Reload
	eors	r1, r0
	eors	r1, r2
	eors	r1, r3
	lsls	r2, r1, #1
	ands	r2, r4
	eors	r2, r5
	lsrs	r0, r2, #2
	eors	r0, r6
	ldr	r1, .Laes_v6m_CPI39_3
	ands	r0, r1
	eors	r6, r0
	str	r6, [sp, #64]                   @ 4-byte Spill
	lsrs	r3, r6, #4
	ldr	r4, [sp, #68]                   @ 4-byte Reload
	eors	r3, r4
	ldr	r1, .Laes_v6m_CPI39_4
	ands	r3, r1
	eors	r4, r3
	ldr	r6, [sp, #24]                   @ 4-byte Reload
	ldrb	r1, [r6, #12]
	eors	r1, r4
	ldrb	r5, [r6, #1]
	str	r5, [sp, #104]                  @ 4-byte Spill
	ldrb	r5, [r6, #2]
	str	r5, [sp, #96]                   @ 4-byte Spill
	ldrb	r5, [r6, #3]
	str	r5, [sp, #92]                   @ 4-byte Spill
	ldrb	r5, [r6]
	str	r5, [sp, #88]                   @ 4-byte Spill
	ldrb	r5, [r6, #5]
	str	r5, [sp, #84]                   @ 4-byte Spill
	ldrb	r5, [r6, #6]
	str	r5, [sp, #76]                   @ 4-byte Spill
	ldrb	r5, [r6, #7]
	str	r5, [sp, #72]                   @ 4-byte Spill
	ldrb	r5, [r6, #9]
	str	r5, [sp, #68]                   @ 4-byte Spill
	ldrb	r5, [r6, #10]
	str	r5, [sp, #60]                   @ 4-byte Spill
	ldrb	r5, [r6, #11]
	str	r5, [sp, #56]                   @ 4-byte Spill
	ldrb	r5, [r6, #4]
	str	r5, [sp, #52]                   @ 4-byte Spill
	ldrb	r5, [r6, #8]
	ldrb	r7, [r6, #13]
	str	r7, [sp, #48]                   @ 4-byte Spill
	ldrb	r7, [r6, #14]
	str	r7, [sp, #44]                   @ 4-byte Spill
	ldrb	r7, [r6, #15]
	ldr	r6, [sp, #28]                   @ 4-byte Reload
	strb	r1, [r6, #12]
	lsrs	r1, r4, #24
	eors	r1, r7
	strb	r1, [r6, #15]
	lsrs	r1, r4, #16
	ldr	r7, [sp, #44]                   @ 4-byte Reload
	eors	r1, r7
	strb	r1, [r6, #14]
	lsrs	r1, r4, #8
	ldr	r4, [sp, #48]                   @ 4-byte Reload
	eors	r1, r4
	strb	r1, [r6, #13]
	ldr	r1, [sp, #80]                   @ 4-byte Reload
	lsls	r7, r1, #2
	ldr	r1, [sp, #100]                  @ 4-byte Reload
	eors	r7, r1
	lsls	r0, r0, #2
	eors	r0, r2
	lsrs	r2, r0, #4
	eors	r2, r7
	ldr	r1, .Laes_v6m_CPI39_4
	ands	r2, r1
	eors	r7, r2
	eors	r5, r7
	strb	r5, [r6, #8]
	lsls	r1, r3, #4
	ldr	r3, [sp, #64]                   @ 4-byte Reload
	eors	r1, r3
	ldr	r3, [sp, #52]                   @ 4-byte Reload
	eors	r3, r1
	strb	r3, [r6, #4]
	lsrs	r3, r7, #24
	ldr	r4, [sp, #56]                   @ 4-byte Reload
	eors	r3, r4
	strb	r3, [r6, #11]
	lsrs	r3, r7, #16
	ldr	r4, [sp, #60]                   @ 4-byte Reload
	eors	r3, r4
	strb	r3, [r6, #10]
	lsrs	r3, r7, #8
	ldr	r4, [sp, #68]                   @ 4-byte Reload
	eors	r3, r4
	strb	r3, [r6, #9]
	lsrs	r3, r1, #24
	ldr	r5, [sp, #72]                   @ 4-byte Reload
	eors	r3, r5
	strb	r3, [r6, #7]
	lsrs	r3, r1, #16
	ldr	r5, [sp, #76]                   @ 4-byte Reload
	eors	r3, r5
	strb	r3, [r6, #6]
	lsrs	r1, r1, #8
	ldr	r3, [sp, #84]                   @ 4-byte Reload
	eors	r1, r3
	strb	r1, [r6, #5]
	lsls	r1, r2, #4
	eors	r1, r0
	ldr	r0, [sp, #88]                   @ 4-byte Reload
	eors	r0, r1
	strb	r0, [r6]
	lsrs	r0, r1, #24
	ldr	r2, [sp, #92]                   @ 4-byte Reload
	eors	r0, r2
	strb	r0, [r6, #3]
	lsrs	r0, r1, #16
	ldr	r2, [sp, #96]                   @ 4-byte Reload
	eors	r0, r2
	strb	r0, [r6, #2]
	lsrs	r0, r1, #8
	ldr	r1, [sp, #104]                  @ 4-byte Reload
	eors	r0, r1
	strb	r0, [r6, #1]
	add	sp, #140
	pop	{r4, r5, r6, r7, pc}
	.p2align	2
@ %bb.1:
.Laes_v6m_CPI39_0:
	.long	202310400                       @ 0xc0f0300
.Laes_v6m_CPI39_1:
	.long	855651072                       @ 0x33003300
.Laes_v6m_CPI39_2:
	.long	2863311530                      @ 0xaaaaaaaa
.Laes_v6m_CPI39_3:
	.long	858993459                       @ 0x33333333
.Laes_v6m_CPI39_4:
	.long	252645135                       @ 0xf0f0f0f
.Laes_v6m_func_end39:
	.size	aes_v6m.aes_c.single_rounds.round, .Laes_v6m_func_end39-aes_v6m.aes_c.single_rounds.round
	.cantunwind
	.fnend
                                        @ -- End function
	.section	.text.aes_v6m.aes_c.single_rounds.rounds,"ax",%progbits
	.p2align	2                               @ -- Begin function aes_c::single_rounds::rounds
	.type	aes_v6m.aes_c.single_rounds.rounds,%function
	.code	16
	.thumb_func
aes_v6m.aes_c.single_rounds.rounds:         @ @aes_v6m.aes_c.single_rounds.rounds
	.fnstart
@ %bb.0:                                @ %start
	.save	{r4, r5, r6, r7, lr}
	push	{r4, r5, r6, r7, lr}
	.pad	#132
	sub	sp, #132
	str	r1, [sp, #4]                    @ 4-byte Spill
	movs	r1, #0
	mov	r2, r1
	str	r1, [sp]                        @ 4-byte Spill
	mov	r3, r1
	str	r0, [sp, #124]                  @ 4-byte Spill
.Laes_v6m_BB40_1:                               @ %join.5.i.i
                                        @ =>This Inner Loop Header: Depth=1
	str	r2, [sp, #28]                   @ 4-byte Spill
	str	r1, [sp, #32]                   @ 4-byte Spill
	str	r3, [sp, #36]                   @ 4-byte Spill
	lsls	r1, r2, #4
	str	r1, [sp, #60]                   @ 4-byte Spill
	adds	r3, r0, r1
	ldrb	r0, [r3, #28]
	ldrb	r1, [r3, #29]
	lsls	r1, r1, #8
	adds	r0, r1, r0
	ldrb	r1, [r3, #30]
	lsls	r1, r1, #16
	adds	r0, r0, r1
	ldrb	r1, [r3, #31]
	lsls	r1, r1, #24
	adds	r4, r0, r1
	str	r4, [sp, #116]                  @ 4-byte Spill
	ldrb	r0, [r3, #12]
	ldrb	r1, [r3, #13]
	lsls	r1, r1, #8
	adds	r0, r1, r0
	ldrb	r1, [r3, #14]
	lsls	r1, r1, #16
	adds	r0, r0, r1
	ldrb	r1, [r3, #15]
	lsls	r1, r1, #24
	adds	r0, r0, r1
	lsrs	r5, r0, #1
	eors	r5, r4
	ldr	r4, .Laes_v6m_CPI40_5
	ands	r5, r4
	str	r5, [sp, #104]                  @ 4-byte Spill
	lsls	r1, r5, #1
	eors	r1, r0
	mov	r2, r1
	str	r1, [sp, #128]                  @ 4-byte Spill
	ldrb	r0, [r3, #24]
	ldrb	r1, [r3, #25]
	lsls	r1, r1, #8
	adds	r0, r1, r0
	ldrb	r1, [r3, #26]
	lsls	r1, r1, #16
	adds	r0, r0, r1
	ldrb	r1, [r3, #27]
	lsls	r1, r1, #24
	adds	r5, r0, r1
	str	r5, [sp, #108]                  @ 4-byte Spill
	ldrb	r0, [r3, #8]
	ldrb	r1, [r3, #9]
	lsls	r1, r1, #8
	adds	r0, r1, r0
	ldrb	r1, [r3, #10]
	lsls	r1, r1, #16
	adds	r0, r0, r1
	ldrb	r1, [r3, #11]
	lsls	r1, r1, #24
	adds	r0, r0, r1
	lsrs	r1, r0, #1
	eors	r1, r5
	ands	r1, r4
	str	r1, [sp, #84]                   @ 4-byte Spill
	lsls	r1, r1, #1
	eors	r1, r0
	lsrs	r5, r1, #2
	eors	r5, r2
	ldr	r0, .Laes_v6m_CPI40_6
	ands	r5, r0
	str	r5, [sp, #120]                  @ 4-byte Spill
	lsls	r6, r5, #2
	eors	r6, r1
	str	r3, [sp, #24]                   @ 4-byte Spill
	ldrb	r0, [r3, #20]
	ldrb	r1, [r3, #21]
	lsls	r1, r1, #8
	adds	r0, r1, r0
	ldrb	r1, [r3, #22]
	lsls	r1, r1, #16
	adds	r0, r0, r1
	ldrb	r1, [r3, #23]
	lsls	r1, r1, #24
	adds	r2, r0, r1
	str	r2, [sp, #88]                   @ 4-byte Spill
	ldrb	r0, [r3, #4]
	ldrb	r1, [r3, #5]
	lsls	r1, r1, #8
	adds	r0, r1, r0
	ldrb	r1, [r3, #6]
	lsls	r1, r1, #16
	adds	r0, r0, r1
	ldrb	r1, [r3, #7]
	lsls	r1, r1, #24
	adds	r0, r0, r1
	lsrs	r5, r0, #1
	eors	r5, r2
	ands	r5, r4
	lsls	r7, r5, #1
	eors	r7, r0
	ldrb	r0, [r3, #16]
	ldrb	r1, [r3, #17]
	lsls	r1, r1, #8
	adds	r0, r1, r0
	ldrb	r1, [r3, #18]
	lsls	r1, r1, #16
	adds	r0, r0, r1
	ldrb	r1, [r3, #19]
	lsls	r1, r1, #24
	adds	r4, r0, r1
	ldr	r0, [sp, #124]                  @ 4-byte Reload
	ldr	r1, [sp, #60]                   @ 4-byte Reload
	ldrb	r0, [r0, r1]
	ldrb	r1, [r3, #1]
	lsls	r1, r1, #8
	adds	r0, r1, r0
	ldrb	r1, [r3, #2]
	lsls	r1, r1, #16
	adds	r0, r0, r1
	ldrb	r1, [r3, #3]
	lsls	r1, r1, #24
	adds	r1, r0, r1
	lsrs	r2, r1, #1
	eors	r2, r4
	ldr	r0, .Laes_v6m_CPI40_5
	ands	r2, r0
	lsls	r0, r2, #1
	eors	r0, r1
	lsrs	r1, r0, #2
	eors	r1, r7
	ldr	r3, .Laes_v6m_CPI40_6
	ands	r1, r3
	lsls	r3, r1, #2
	eors	r3, r0
	str	r3, [sp, #100]                  @ 4-byte Spill
	lsrs	r3, r3, #4
	eors	r3, r6
	ldr	r0, .Laes_v6m_CPI40_7
	ands	r3, r0
	str	r3, [sp, #92]                   @ 4-byte Spill
	eors	r6, r3
	str	r6, [sp, #112]                  @ 4-byte Spill
	ldr	r0, [sp, #120]                  @ 4-byte Reload
	ldr	r3, [sp, #128]                  @ 4-byte Reload
	eors	r0, r3
	str	r0, [sp, #120]                  @ 4-byte Spill
	eors	r1, r7
	lsrs	r3, r1, #4
	eors	r3, r0
	ldr	r0, .Laes_v6m_CPI40_7
	ands	r3, r0
	str	r3, [sp, #96]                   @ 4-byte Spill
	lsls	r0, r3, #4
	eors	r0, r1
	str	r0, [sp, #128]                  @ 4-byte Spill
	eors	r0, r6
	str	r0, [sp, #48]                   @ 4-byte Spill
	ldr	r6, [sp, #104]                  @ 4-byte Reload
	ldr	r0, [sp, #116]                  @ 4-byte Reload
	eors	r6, r0
	ldr	r0, [sp, #108]                  @ 4-byte Reload
	ldr	r7, [sp, #84]                   @ 4-byte Reload
	eors	r7, r0
	lsrs	r1, r7, #2
	eors	r1, r6
	ldr	r3, .Laes_v6m_CPI40_6
	ands	r1, r3
	eors	r6, r1
	ldr	r0, [sp, #88]                   @ 4-byte Reload
	eors	r5, r0
	eors	r2, r4
	lsrs	r0, r2, #2
	eors	r0, r5
	ands	r0, r3
	eors	r5, r0
	lsrs	r3, r5, #4
	eors	r3, r6
	ldr	r4, .Laes_v6m_CPI40_7
	ands	r3, r4
	eors	r6, r3
	str	r6, [sp, #104]                  @ 4-byte Spill
	lsls	r4, r1, #2
	eors	r4, r7
	lsls	r0, r0, #2
	eors	r0, r2
	lsrs	r2, r0, #4
	eors	r2, r4
	ldr	r1, .Laes_v6m_CPI40_7
	ands	r2, r1
	lsls	r7, r2, #4
	eors	r7, r0
	mov	r1, r7
	eors	r1, r6
	str	r1, [sp, #40]                   @ 4-byte Spill
	ldr	r6, [sp, #48]                   @ 4-byte Reload
	eors	r1, r6
	str	r1, [sp, #44]                   @ 4-byte Spill
	lsls	r0, r3, #4
	eors	r0, r5
	eors	r0, r1
	mov	r5, r0
	ldr	r1, [sp, #128]                  @ 4-byte Reload
	eors	r5, r1
	str	r5, [sp, #88]                   @ 4-byte Spill
	ldr	r1, [sp, #96]                   @ 4-byte Reload
	ldr	r3, [sp, #120]                  @ 4-byte Reload
	eors	r1, r3
	eors	r2, r4
	eors	r2, r1
	mov	r3, r5
	eors	r3, r2
	str	r3, [sp, #120]                  @ 4-byte Spill
	mov	r5, r2
	eors	r1, r0
	mov	r0, r1
	str	r1, [sp, #96]                   @ 4-byte Spill
	ldr	r1, [sp, #112]                  @ 4-byte Reload
	ldr	r2, [sp, #104]                  @ 4-byte Reload
	eors	r1, r2
	str	r1, [sp, #12]                   @ 4-byte Spill
	eors	r0, r1
	mov	r4, r0
	eors	r4, r3
	str	r4, [sp, #20]                   @ 4-byte Spill
	ands	r4, r6
	mov	r2, r0
	mov	r3, r0
	ands	r2, r1
	eors	r4, r2
	ldr	r0, [sp, #92]                   @ 4-byte Reload
	lsls	r0, r0, #4
	ldr	r1, [sp, #100]                  @ 4-byte Reload
	eors	r0, r1
	str	r0, [sp, #116]                  @ 4-byte Spill
	mov	r1, r0
	mov	r6, r5
	eors	r1, r5
	mov	r0, r7
	eors	r0, r1
	str	r0, [sp, #56]                   @ 4-byte Spill
	ands	r0, r1
	mov	r5, r1
	str	r1, [sp, #92]                   @ 4-byte Spill
	eors	r6, r3
	str	r6, [sp, #108]                  @ 4-byte Spill
	mov	r7, r3
	str	r3, [sp, #64]                   @ 4-byte Spill
	eors	r0, r6
	mov	r1, r6
	ldr	r3, [sp, #40]                   @ 4-byte Reload
	ands	r1, r3
	eors	r0, r1
	eors	r0, r3
	eors	r0, r4
	str	r0, [sp, #84]                   @ 4-byte Spill
	ldr	r6, [sp, #128]                  @ 4-byte Reload
	ldr	r0, [sp, #104]                  @ 4-byte Reload
	eors	r6, r0
	str	r6, [sp, #128]                  @ 4-byte Spill
	ldr	r3, [sp, #120]                  @ 4-byte Reload
	ands	r3, r6
	eors	r3, r2
	str	r3, [sp, #76]                   @ 4-byte Spill
	ldr	r2, [sp, #116]                  @ 4-byte Reload
	eors	r7, r2
	str	r7, [sp, #16]                   @ 4-byte Spill
	mov	r2, r5
	eors	r2, r0
	str	r2, [sp, #80]                   @ 4-byte Spill
	ands	r7, r2
	ldr	r2, [sp, #108]                  @ 4-byte Reload
	eors	r7, r2
	eors	r7, r1
	eors	r7, r0
	eors	r7, r3
	mov	r0, r7
	ldr	r3, [sp, #84]                   @ 4-byte Reload
	eors	r0, r3
	str	r0, [sp, #104]                  @ 4-byte Spill
	ldr	r0, [sp, #88]                   @ 4-byte Reload
	mov	r1, r0
	ldr	r2, [sp, #44]                   @ 4-byte Reload
	ands	r1, r2
	ldr	r6, [sp, #56]                   @ 4-byte Reload
	ldr	r2, [sp, #128]                  @ 4-byte Reload
	eors	r6, r2
	str	r6, [sp, #8]                    @ 4-byte Spill
	mov	r2, r0
	ldr	r5, [sp, #116]                  @ 4-byte Reload
	eors	r2, r5
	str	r2, [sp, #100]                  @ 4-byte Spill
	ands	r2, r6
	ldr	r0, [sp, #96]                   @ 4-byte Reload
	eors	r2, r0
	eors	r2, r1
	eors	r2, r4
	mov	r6, r3
	ands	r6, r2
	ldr	r4, [sp, #112]                  @ 4-byte Reload
	ldr	r0, [sp, #92]                   @ 4-byte Reload
	eors	r4, r0
	str	r4, [sp, #112]                  @ 4-byte Spill
	ands	r4, r5
	ldr	r5, [sp, #128]                  @ 4-byte Reload
	eors	r4, r5
	ldr	r5, [sp, #120]                  @ 4-byte Reload
	eors	r4, r5
	eors	r4, r1
	ldr	r0, [sp, #76]                   @ 4-byte Reload
	eors	r4, r0
	mov	r3, r6
	eors	r3, r4
	ldr	r0, [sp, #104]                  @ 4-byte Reload
	ands	r3, r0
	mov	r1, r3
	eors	r1, r7
	eors	r3, r6
	ands	r3, r7
	ldr	r5, [sp, #84]                   @ 4-byte Reload
	eors	r5, r3
	str	r5, [sp, #84]                   @ 4-byte Spill
	eors	r5, r1
	str	r5, [sp, #76]                   @ 4-byte Spill
	str	r1, [sp, #52]                   @ 4-byte Spill
	eors	r2, r4
	eors	r6, r7
	eors	r3, r6
	ands	r6, r2
	eors	r6, r4
	ands	r3, r6
	eors	r3, r2
	str	r3, [sp, #68]                   @ 4-byte Spill
	mov	r4, r3
	eors	r4, r5
	str	r6, [sp, #104]                  @ 4-byte Spill
	mov	r7, r6
	eors	r7, r1
	mov	r0, r4
	eors	r0, r7
	str	r0, [sp, #72]                   @ 4-byte Spill
	ldr	r5, [sp, #20]                   @ 4-byte Reload
	ands	r5, r0
	ldr	r0, [sp, #92]                   @ 4-byte Reload
	ands	r0, r3
	mov	r1, r3
	eors	r1, r6
	ldr	r3, [sp, #108]                  @ 4-byte Reload
	ands	r3, r1
	str	r3, [sp, #108]                  @ 4-byte Spill
	mov	r2, r1
	eors	r0, r3
	str	r0, [sp, #92]                   @ 4-byte Spill
	eors	r5, r0
	ldr	r1, [sp, #120]                  @ 4-byte Reload
	ands	r1, r4
	ldr	r3, [sp, #116]                  @ 4-byte Reload
	ldr	r6, [sp, #52]                   @ 4-byte Reload
	ands	r3, r6
	ldr	r6, [sp, #88]                   @ 4-byte Reload
	ldr	r0, [sp, #84]                   @ 4-byte Reload
	ands	r6, r0
	str	r6, [sp, #88]                   @ 4-byte Spill
	eors	r3, r6
	str	r3, [sp, #116]                  @ 4-byte Spill
	eors	r1, r3
	ldr	r3, [sp, #40]                   @ 4-byte Reload
	ands	r2, r3
	str	r2, [sp, #20]                   @ 4-byte Spill
	eors	r1, r2
	eors	r1, r5
	str	r1, [sp, #120]                  @ 4-byte Spill
	ldr	r2, [sp, #80]                   @ 4-byte Reload
	ldr	r3, [sp, #104]                  @ 4-byte Reload
	ands	r2, r3
	eors	r2, r1
	str	r2, [sp, #80]                   @ 4-byte Spill
	ldr	r1, [sp, #64]                   @ 4-byte Reload
	ands	r1, r7
	eors	r1, r5
	mov	r3, r1
	str	r1, [sp, #64]                   @ 4-byte Spill
	ldr	r1, [sp, #128]                  @ 4-byte Reload
	ands	r4, r1
	ldr	r1, [sp, #12]                   @ 4-byte Reload
	ands	r7, r1
	eors	r4, r7
	eors	r4, r3
	eors	r4, r2
	mvns	r1, r4
	lsrs	r2, r1, #4
	eors	r2, r1
	ldr	r4, .Laes_v6m_CPI40_8
	ands	r2, r4
	lsls	r3, r2, #4
	eors	r3, r1
	eors	r3, r2
	lsrs	r2, r3, #2
	eors	r2, r3
	ldr	r1, .Laes_v6m_CPI40_9
	ands	r2, r1
	movs	r6, #5
	muls	r2, r6, r2
	eors	r2, r3
	movs	r1, #8
	str	r1, [sp, #96]                   @ 4-byte Spill
	mov	r3, r2
	rors	r3, r1
	str	r3, [sp, #12]                   @ 4-byte Spill
	eors	r2, r3
	str	r2, [sp, #128]                  @ 4-byte Spill
	ldr	r1, [sp, #76]                   @ 4-byte Reload
	ldr	r2, [sp, #100]                  @ 4-byte Reload
	ands	r2, r1
	ldr	r3, [sp, #88]                   @ 4-byte Reload
	eors	r2, r3
	ldr	r3, [sp, #92]                   @ 4-byte Reload
	eors	r2, r3
	mov	r5, r2
	ldr	r2, [sp, #72]                   @ 4-byte Reload
	ldr	r3, [sp, #48]                   @ 4-byte Reload
	ands	r2, r3
	eors	r2, r7
	str	r2, [sp, #72]                   @ 4-byte Spill
	ldr	r3, [sp, #8]                    @ 4-byte Reload
	ands	r1, r3
	eors	r1, r2
	str	r1, [sp, #76]                   @ 4-byte Spill
	ldr	r2, [sp, #44]                   @ 4-byte Reload
	ands	r0, r2
	eors	r0, r1
	eors	r5, r0
	str	r5, [sp, #100]                  @ 4-byte Spill
	ldr	r7, [sp, #64]                   @ 4-byte Reload
	mov	r1, r7
	eors	r1, r5
	mvns	r1, r1
	lsrs	r2, r1, #4
	eors	r2, r1
	ands	r2, r4
	lsls	r4, r2, #4
	eors	r4, r1
	eors	r4, r2
	lsrs	r3, r4, #2
	eors	r3, r4
	ldr	r1, .Laes_v6m_CPI40_9
	ands	r3, r1
	mov	r5, r6
	str	r6, [sp, #40]                   @ 4-byte Spill
	muls	r3, r6, r3
	eors	r3, r4
	mov	r2, r3
	ldr	r4, [sp, #96]                   @ 4-byte Reload
	rors	r2, r4
	eors	r3, r2
	movs	r6, #16
	str	r6, [sp, #88]                   @ 4-byte Spill
	mov	r1, r3
	rors	r1, r6
	eors	r1, r2
	ldr	r2, [sp, #128]                  @ 4-byte Reload
	eors	r1, r2
	lsrs	r2, r1, #1
	str	r2, [sp, #92]                   @ 4-byte Spill
	eors	r0, r7
	lsrs	r2, r0, #4
	eors	r2, r0
	ldr	r6, .Laes_v6m_CPI40_8
	ands	r2, r6
	movs	r6, #17
	str	r6, [sp, #48]                   @ 4-byte Spill
	muls	r2, r6, r2
	eors	r2, r0
	lsrs	r0, r2, #2
	eors	r0, r2
	ldr	r6, .Laes_v6m_CPI40_2
	ands	r0, r6
	muls	r0, r5, r0
	eors	r0, r2
	mov	r2, r0
	rors	r2, r4
	eors	r0, r2
	str	r0, [sp, #64]                   @ 4-byte Spill
	ldr	r6, [sp, #88]                   @ 4-byte Reload
	rors	r0, r6
	eors	r0, r2
	eors	r0, r3
	str	r0, [sp, #44]                   @ 4-byte Spill
	ldr	r7, [sp, #92]                   @ 4-byte Reload
	eors	r7, r0
	ldr	r4, .Laes_v6m_CPI40_4
	ands	r7, r4
	str	r7, [sp, #92]                   @ 4-byte Spill
	lsls	r3, r7, #1
	eors	r3, r1
	str	r3, [sp, #84]                   @ 4-byte Spill
	ldr	r2, [sp, #128]                  @ 4-byte Reload
	rors	r2, r6
	ldr	r3, [sp, #100]                  @ 4-byte Reload
	lsrs	r1, r3, #4
	eors	r1, r3
	ldr	r0, .Laes_v6m_CPI40_0
	ands	r1, r0
	ldr	r7, [sp, #48]                   @ 4-byte Reload
	muls	r1, r7, r1
	eors	r1, r3
	lsrs	r3, r1, #2
	eors	r3, r1
	ldr	r0, .Laes_v6m_CPI40_2
	ands	r3, r0
	ldr	r4, [sp, #40]                   @ 4-byte Reload
	muls	r3, r4, r3
	eors	r3, r1
	mov	r1, r3
	ldr	r0, [sp, #96]                   @ 4-byte Reload
	rors	r1, r0
	eors	r3, r1
	eors	r2, r3
	ldr	r5, [sp, #12]                   @ 4-byte Reload
	eors	r2, r5
	str	r2, [sp, #128]                  @ 4-byte Spill
	rors	r3, r6
	eors	r3, r1
	ldr	r1, [sp, #64]                   @ 4-byte Reload
	eors	r3, r1
	ldr	r5, [sp, #104]                  @ 4-byte Reload
	ldr	r1, [sp, #16]                   @ 4-byte Reload
	ands	r5, r1
	ldr	r1, [sp, #116]                  @ 4-byte Reload
	eors	r5, r1
	ldr	r1, [sp, #108]                  @ 4-byte Reload
	eors	r5, r1
	str	r5, [sp, #104]                  @ 4-byte Spill
	ldr	r2, [sp, #100]                  @ 4-byte Reload
	eors	r2, r5
	lsrs	r1, r2, #4
	eors	r1, r2
	b	.Laes_v6m_BB40_7
	.p2align	2
@ %bb.2:
.Laes_v6m_CPI40_5:
	.long	1431655765                      @ 0x55555555
	.p2align	2
@ %bb.3:
.Laes_v6m_CPI40_6:
	.long	858993459                       @ 0x33333333
	.p2align	2
@ %bb.4:
.Laes_v6m_CPI40_7:
	.long	252645135                       @ 0xf0f0f0f
	.p2align	2
@ %bb.5:
.Laes_v6m_CPI40_8:
	.long	202310400                       @ 0xc0f0300
	.p2align	2
@ %bb.6:
.Laes_v6m_CPI40_9:
	.long	855651072                       @ 0x33003300
	.p2align	1
.Laes_v6m_BB40_7:                               @ %join.5.i.i
                                        @   in Loop: Header=BB40_1 Depth=1
	ldr	r5, .Laes_v6m_CPI40_0
	ands	r1, r5
	muls	r1, r7, r1
	eors	r1, r2
	lsrs	r2, r1, #2
	eors	r2, r1
	ldr	r5, .Laes_v6m_CPI40_2
	ands	r2, r5
	muls	r2, r4, r2
	mov	r7, r4
	eors	r2, r1
	mov	r1, r2
	rors	r1, r0
	str	r1, [sp, #16]                   @ 4-byte Spill
	mov	r6, r0
	eors	r2, r1
	eors	r3, r2
	lsrs	r0, r3, #1
	ldr	r1, [sp, #128]                  @ 4-byte Reload
	eors	r0, r1
	ldr	r1, .Laes_v6m_CPI40_4
	ands	r0, r1
	str	r0, [sp, #116]                  @ 4-byte Spill
	lsls	r1, r0, #1
	eors	r1, r3
	lsrs	r0, r1, #2
	ldr	r3, [sp, #84]                   @ 4-byte Reload
	eors	r0, r3
	ldr	r3, .Laes_v6m_CPI40_3
	ands	r0, r3
	str	r0, [sp, #100]                  @ 4-byte Spill
	lsls	r0, r0, #2
	eors	r0, r1
	str	r0, [sp, #108]                  @ 4-byte Spill
	ldr	r1, [sp, #56]                   @ 4-byte Reload
	ldr	r3, [sp, #68]                   @ 4-byte Reload
	ands	r3, r1
	ldr	r0, [sp, #104]                  @ 4-byte Reload
	eors	r3, r0
	ldr	r0, [sp, #72]                   @ 4-byte Reload
	eors	r3, r0
	str	r3, [sp, #68]                   @ 4-byte Spill
	ldr	r0, [sp, #120]                  @ 4-byte Reload
	eors	r0, r3
	mvns	r1, r0
	lsrs	r3, r1, #4
	eors	r3, r1
	ldr	r0, .Laes_v6m_CPI40_0
	ands	r3, r0
	lsls	r4, r3, #4
	eors	r4, r1
	eors	r4, r3
	lsrs	r1, r4, #2
	eors	r1, r4
	ands	r1, r5
	mov	r5, r7
	muls	r1, r7, r1
	eors	r1, r4
	mov	r4, r1
	rors	r4, r6
	eors	r1, r4
	ldr	r3, [sp, #112]                  @ 4-byte Reload
	ldr	r7, [sp, #52]                   @ 4-byte Reload
	ands	r7, r3
	ldr	r0, [sp, #76]                   @ 4-byte Reload
	eors	r7, r0
	ldr	r0, [sp, #80]                   @ 4-byte Reload
	eors	r7, r0
	lsrs	r6, r7, #4
	eors	r6, r7
	ldr	r0, .Laes_v6m_CPI40_0
	ands	r6, r0
	ldr	r0, [sp, #48]                   @ 4-byte Reload
	muls	r6, r0, r6
	eors	r6, r7
	lsrs	r3, r6, #2
	eors	r3, r6
	ldr	r0, .Laes_v6m_CPI40_2
	ands	r3, r0
	muls	r3, r5, r3
	eors	r3, r6
	mov	r7, r3
	ldr	r0, [sp, #96]                   @ 4-byte Reload
	rors	r7, r0
	eors	r3, r7
	mov	r6, r3
	ldr	r5, [sp, #88]                   @ 4-byte Reload
	rors	r6, r5
	eors	r6, r7
	eors	r6, r1
	lsrs	r7, r6, #1
	rors	r2, r5
	eors	r2, r3
	ldr	r0, [sp, #64]                   @ 4-byte Reload
	eors	r2, r0
	ldr	r3, [sp, #16]                   @ 4-byte Reload
	eors	r2, r3
	eors	r7, r2
	ldr	r3, .Laes_v6m_CPI40_4
	ands	r7, r3
	lsls	r3, r7, #1
	eors	r3, r6
	mov	r6, r3
	str	r3, [sp, #80]                   @ 4-byte Spill
	rors	r1, r5
	eors	r1, r4
	eors	r1, r0
	ldr	r3, [sp, #20]                   @ 4-byte Reload
	ldr	r4, [sp, #68]                   @ 4-byte Reload
	eors	r4, r3
	mvns	r3, r4
	lsrs	r4, r3, #4
	eors	r4, r3
	ldr	r5, .Laes_v6m_CPI40_0
	ands	r4, r5
	lsls	r5, r4, #4
	eors	r5, r3
	eors	r5, r4
	lsrs	r4, r5, #2
	eors	r4, r5
	ldr	r3, .Laes_v6m_CPI40_2
	ands	r4, r3
	ldr	r3, [sp, #40]                   @ 4-byte Reload
	muls	r4, r3, r4
	eors	r4, r5
	mov	r3, r4
	ldr	r5, [sp, #96]                   @ 4-byte Reload
	rors	r3, r5
	eors	r4, r3
	eors	r1, r4
	ldr	r5, [sp, #88]                   @ 4-byte Reload
	rors	r4, r5
	eors	r4, r3
	eors	r4, r0
	lsrs	r5, r4, #1
	eors	r5, r1
	ldr	r0, .Laes_v6m_CPI40_4
	ands	r5, r0
	lsls	r0, r5, #1
	eors	r0, r4
	lsrs	r3, r0, #2
	eors	r3, r6
	ldr	r4, .Laes_v6m_CPI40_3
	ands	r3, r4
	str	r3, [sp, #120]                  @ 4-byte Spill
	lsls	r6, r3, #2
	eors	r6, r0
	lsrs	r3, r6, #4
	ldr	r0, [sp, #108]                  @ 4-byte Reload
	eors	r3, r0
	ldr	r0, .Laes_v6m_CPI40_1
	ands	r3, r0
	str	r3, [sp, #104]                  @ 4-byte Spill
	lsls	r3, r3, #4
	eors	r3, r6
	str	r3, [sp, #112]                  @ 4-byte Spill
	ldr	r0, [sp, #124]                  @ 4-byte Reload
	ldr	r6, [sp, #60]                   @ 4-byte Reload
	strb	r3, [r0, r6]
	ldr	r0, [sp, #92]                   @ 4-byte Reload
	ldr	r3, [sp, #44]                   @ 4-byte Reload
	eors	r0, r3
	ldr	r3, [sp, #116]                  @ 4-byte Reload
	ldr	r6, [sp, #128]                  @ 4-byte Reload
	eors	r3, r6
	str	r3, [sp, #116]                  @ 4-byte Spill
	lsrs	r6, r3, #2
	eors	r6, r0
	ands	r6, r4
	eors	r0, r6
	eors	r5, r1
	lsrs	r1, r5, #2
	eors	r7, r2
	eors	r1, r7
	ands	r1, r4
	eors	r7, r1
	lsrs	r3, r7, #4
	eors	r3, r0
	ldr	r2, .Laes_v6m_CPI40_1
	ands	r3, r2
	eors	r0, r3
	ldr	r4, [sp, #24]                   @ 4-byte Reload
	strb	r0, [r4, #28]
	lsrs	r2, r0, #24
	strb	r2, [r4, #31]
	lsrs	r2, r0, #16
	strb	r2, [r4, #30]
	lsrs	r2, r0, #8
	strb	r2, [r4, #29]
	lsls	r2, r6, #2
	ldr	r0, [sp, #116]                  @ 4-byte Reload
	eors	r2, r0
	lsls	r6, r1, #2
	eors	r6, r5
	lsrs	r0, r6, #4
	eors	r0, r2
	ldr	r1, .Laes_v6m_CPI40_1
	ands	r0, r1
	eors	r2, r0
	strb	r2, [r4, #24]
	lsls	r1, r3, #4
	eors	r1, r7
	strb	r1, [r4, #20]
	ldr	r3, [sp, #84]                   @ 4-byte Reload
	ldr	r5, [sp, #100]                  @ 4-byte Reload
	eors	r5, r3
	ldr	r7, [sp, #120]                  @ 4-byte Reload
	ldr	r3, [sp, #80]                   @ 4-byte Reload
	eors	r7, r3
	str	r7, [sp, #120]                  @ 4-byte Spill
	lsrs	r3, r7, #4
	eors	r3, r5
	ldr	r7, .Laes_v6m_CPI40_1
	ands	r3, r7
	eors	r5, r3
	strb	r5, [r4, #12]
	lsrs	r7, r2, #24
	strb	r7, [r4, #27]
	lsrs	r7, r2, #16
	strb	r7, [r4, #26]
	lsrs	r2, r2, #8
	mov	r7, r4
	strb	r2, [r4, #25]
	lsrs	r2, r1, #24
	strb	r2, [r4, #23]
	lsrs	r2, r1, #16
	strb	r2, [r4, #22]
	lsrs	r1, r1, #8
	strb	r1, [r4, #21]
	lsls	r0, r0, #4
	eors	r0, r6
	strb	r0, [r4, #16]
	lsrs	r1, r5, #24
	strb	r1, [r4, #15]
	lsrs	r1, r5, #16
	strb	r1, [r4, #14]
	lsrs	r1, r5, #8
	strb	r1, [r4, #13]
	ldr	r1, [sp, #108]                  @ 4-byte Reload
	ldr	r4, [sp, #104]                  @ 4-byte Reload
	eors	r4, r1
	strb	r4, [r7, #8]
	lsls	r1, r3, #4
	ldr	r3, [sp, #36]                   @ 4-byte Reload
	ldr	r2, [sp, #120]                  @ 4-byte Reload
	eors	r1, r2
	strb	r1, [r7, #4]
	lsrs	r2, r0, #24
	strb	r2, [r7, #19]
	lsrs	r2, r0, #16
	strb	r2, [r7, #18]
	lsrs	r0, r0, #8
	strb	r0, [r7, #17]
	lsrs	r0, r4, #24
	strb	r0, [r7, #11]
	lsrs	r0, r4, #16
	strb	r0, [r7, #10]
	lsrs	r0, r4, #8
	strb	r0, [r7, #9]
	lsrs	r0, r1, #24
	strb	r0, [r7, #7]
	lsrs	r0, r1, #16
	strb	r0, [r7, #6]
	lsrs	r0, r1, #8
	strb	r0, [r7, #5]
	ldr	r1, [sp, #112]                  @ 4-byte Reload
	lsrs	r0, r1, #24
	strb	r0, [r7, #3]
	lsrs	r0, r1, #16
	strb	r0, [r7, #2]
	lsrs	r0, r1, #8
	strb	r0, [r7, #1]
	ldr	r1, [sp, #28]                   @ 4-byte Reload
	adds	r0, r1, #2
	ldr	r2, [sp]                        @ 4-byte Reload
	adcs	r3, r2
	subs	r1, r1, #6
	ldr	r1, [sp, #32]                   @ 4-byte Reload
	sbcs	r1, r2
	mov	r2, r0
	ldr	r0, [sp, #124]                  @ 4-byte Reload
	mov	r1, r3
	bhs	.Laes_v6m_BB40_8
	b	.Laes_v6m_BB40_1
.Laes_v6m_BB40_8:                               @ %join.5.i.i.i.preheader
	movs	r0, #0
	mov	r1, r0
	str	r0, [sp]                        @ 4-byte Spill
	mov	r3, r0
.Laes_v6m_BB40_9:                               @ %join.5.i.i.i
                                        @ =>This Inner Loop Header: Depth=1
	str	r1, [sp, #116]                  @ 4-byte Spill
	str	r0, [sp, #120]                  @ 4-byte Spill
	str	r3, [sp, #128]                  @ 4-byte Spill
	lsls	r4, r1, #4
	ldr	r0, [sp, #124]                  @ 4-byte Reload
	ldrb	r0, [r0, r4]
	ldr	r1, [sp, #4]                    @ 4-byte Reload
	ldrb	r2, [r1, r4]
	eors	r2, r0
	str	r2, [sp, #44]                   @ 4-byte Spill
	adds	r3, r1, r4
	ldrb	r0, [r3, #1]
	str	r0, [sp, #112]                  @ 4-byte Spill
	ldr	r0, [sp, #124]                  @ 4-byte Reload
	adds	r5, r0, r4
	ldrb	r0, [r5, #1]
	str	r0, [sp, #108]                  @ 4-byte Spill
	ldrb	r0, [r3, #2]
	str	r0, [sp, #104]                  @ 4-byte Spill
	ldrb	r0, [r5, #2]
	str	r0, [sp, #100]                  @ 4-byte Spill
	ldrb	r0, [r3, #3]
	str	r0, [sp, #96]                   @ 4-byte Spill
	ldrb	r0, [r5, #3]
	str	r0, [sp, #92]                   @ 4-byte Spill
	ldrb	r0, [r3, #4]
	str	r0, [sp, #88]                   @ 4-byte Spill
	ldrb	r0, [r5, #4]
	str	r0, [sp, #84]                   @ 4-byte Spill
	ldrb	r0, [r3, #5]
	str	r0, [sp, #80]                   @ 4-byte Spill
	ldrb	r0, [r5, #5]
	str	r0, [sp, #76]                   @ 4-byte Spill
	ldrb	r0, [r3, #6]
	str	r0, [sp, #72]                   @ 4-byte Spill
	ldrb	r0, [r5, #6]
	str	r0, [sp, #68]                   @ 4-byte Spill
	ldrb	r0, [r3, #7]
	str	r0, [sp, #64]                   @ 4-byte Spill
	ldrb	r0, [r5, #7]
	str	r0, [sp, #60]                   @ 4-byte Spill
	ldrb	r0, [r3, #8]
	str	r0, [sp, #56]                   @ 4-byte Spill
	ldrb	r0, [r5, #8]
	str	r0, [sp, #52]                   @ 4-byte Spill
	ldrb	r0, [r3, #9]
	str	r0, [sp, #48]                   @ 4-byte Spill
	ldrb	r0, [r5, #9]
	str	r0, [sp, #40]                   @ 4-byte Spill
	ldrb	r0, [r3, #10]
	str	r0, [sp, #36]                   @ 4-byte Spill
	ldrb	r0, [r5, #10]
	str	r0, [sp, #32]                   @ 4-byte Spill
	ldrb	r0, [r3, #11]
	str	r0, [sp, #28]                   @ 4-byte Spill
	ldrb	r0, [r5, #11]
	str	r0, [sp, #24]                   @ 4-byte Spill
	ldrb	r0, [r3, #12]
	str	r0, [sp, #20]                   @ 4-byte Spill
	ldrb	r2, [r5, #12]
	ldrb	r0, [r3, #13]
	str	r0, [sp, #16]                   @ 4-byte Spill
	ldrb	r6, [r5, #13]
	ldrb	r0, [r3, #14]
	str	r0, [sp, #12]                   @ 4-byte Spill
	ldrb	r1, [r5, #14]
	ldrb	r0, [r3, #15]
	str	r0, [sp, #8]                    @ 4-byte Spill
	ldrb	r7, [r5, #15]
	ldr	r3, [sp, #124]                  @ 4-byte Reload
	ldr	r0, [sp, #44]                   @ 4-byte Reload
	strb	r0, [r3, r4]
	ldr	r3, [sp, #128]                  @ 4-byte Reload
	ldr	r0, [sp, #8]                    @ 4-byte Reload
	eors	r7, r0
	strb	r7, [r5, #15]
	ldr	r0, [sp, #12]                   @ 4-byte Reload
	eors	r1, r0
	strb	r1, [r5, #14]
	ldr	r0, [sp, #16]                   @ 4-byte Reload
	eors	r6, r0
	strb	r6, [r5, #13]
	ldr	r0, [sp, #20]                   @ 4-byte Reload
	eors	r2, r0
	strb	r2, [r5, #12]
	ldr	r0, [sp, #28]                   @ 4-byte Reload
	ldr	r1, [sp, #24]                   @ 4-byte Reload
	eors	r1, r0
	strb	r1, [r5, #11]
	ldr	r0, [sp, #36]                   @ 4-byte Reload
	ldr	r1, [sp, #32]                   @ 4-byte Reload
	eors	r1, r0
	strb	r1, [r5, #10]
	ldr	r0, [sp, #48]                   @ 4-byte Reload
	ldr	r1, [sp, #40]                   @ 4-byte Reload
	eors	r1, r0
	strb	r1, [r5, #9]
	ldr	r0, [sp, #56]                   @ 4-byte Reload
	ldr	r1, [sp, #52]                   @ 4-byte Reload
	eors	r1, r0
	strb	r1, [r5, #8]
	ldr	r0, [sp, #64]                   @ 4-byte Reload
	ldr	r1, [sp, #60]                   @ 4-byte Reload
	eors	r1, r0
	strb	r1, [r5, #7]
	ldr	r0, [sp, #72]                   @ 4-byte Reload
	ldr	r1, [sp, #68]                   @ 4-byte Reload
	eors	r1, r0
	strb	r1, [r5, #6]
	ldr	r0, [sp, #80]                   @ 4-byte Reload
	ldr	r1, [sp, #76]                   @ 4-byte Reload
	eors	r1, r0
	strb	r1, [r5, #5]
	ldr	r0, [sp, #88]                   @ 4-byte Reload
	ldr	r1, [sp, #84]                   @ 4-byte Reload
	eors	r1, r0
	strb	r1, [r5, #4]
	ldr	r0, [sp, #96]                   @ 4-byte Reload
	ldr	r1, [sp, #92]                   @ 4-byte Reload
	eors	r1, r0
	strb	r1, [r5, #3]
	ldr	r0, [sp, #104]                  @ 4-byte Reload
	ldr	r1, [sp, #100]                  @ 4-byte Reload
	eors	r1, r0
	strb	r1, [r5, #2]
	ldr	r0, [sp, #112]                  @ 4-byte Reload
	ldr	r1, [sp, #108]                  @ 4-byte Reload
	eors	r1, r0
	strb	r1, [r5, #1]
	ldr	r1, [sp, #116]                  @ 4-byte Reload
	adds	r0, r1, #1
	ldr	r2, [sp]                        @ 4-byte Reload
	adcs	r3, r2
	subs	r1, r1, #7
	ldr	r1, [sp, #120]                  @ 4-byte Reload
	sbcs	r1, r2
	mov	r1, r0
	mov	r0, r3
	bhs	.Laes_v6m_BB40_10
	b	.Laes_v6m_BB40_9
.Laes_v6m_BB40_10:                              @ %"aes_soft::soft::hazmat::par::cipher_round_par::<#e817d94f9a7b6ba6>.exit"
	add	sp, #132
	pop	{r4, r5, r6, r7, pc}
	.p2align	2
@ %bb.11:
.Laes_v6m_CPI40_0:
	.long	202310400                       @ 0xc0f0300
.Laes_v6m_CPI40_1:
	.long	252645135                       @ 0xf0f0f0f
.Laes_v6m_CPI40_2:
	.long	855651072                       @ 0x33003300
.Laes_v6m_CPI40_3:
	.long	858993459                       @ 0x33333333
.Laes_v6m_CPI40_4:
	.long	1431655765                      @ 0x55555555
.Laes_v6m_func_end40:
	.size	aes_v6m.aes_c.single_rounds.rounds, .Laes_v6m_func_end40-aes_v6m.aes_c.single_rounds.rounds
	.cantunwind
	.fnend
                                        @ -- End function
	.section	.text.aes_v6m.ccm.mode.decrypt,"ax",%progbits
	.p2align	1                               @ -- Begin function ccm::mode::decrypt::<#4f733d09d7f6c6b4>
	.type	aes_v6m.ccm.mode.decrypt,%function
	.code	16
	.thumb_func
aes_v6m.ccm.mode.decrypt: @ @aes_v6m.ccm.mode.decrypt
	.fnstart
@ %bb.0:                                @ %start
	.save	{r4, r5, r6, r7, lr}
	push	{r4, r5, r6, r7, lr}
	.pad	#148
	sub	sp, #148
	str	r2, [sp, #112]                  @ 4-byte Spill
	str	r1, [sp, #108]                  @ 4-byte Spill
	movs	r3, #0
	ldr	r6, [sp, #220]
	ldr	r4, [sp, #216]
	subs	r7, r4, #4
	str	r6, [sp, #104]                  @ 4-byte Spill
	sbcs	r6, r3
	movs	r2, #1
	mov	r1, r3
	movs	r5, #12
	subs	r5, r5, r7
	mov	r7, r3
	mov	r5, r3
	sbcs	r5, r6
	blo	.Laes_v6m_BB41_6
@ %bb.1:                                @ %start
	mov	r5, r4
	ands	r5, r2
	mov	r3, r2
	bne	.Laes_v6m_BB41_7
@ %bb.2:                                @ %after.1.i
	ldr	r6, [sp, #172]
	ldr	r2, [sp, #168]
	str	r3, [sp, #100]                  @ 4-byte Spill
	mov	r3, r2
	subs	r3, #14
	mov	r5, r6
	sbcs	r5, r7
	adds	r3, r3, #7
	ldr	r3, [sp, #100]                  @ 4-byte Reload
	adcs	r5, r7
	mov	r1, r3
	blo	.Laes_v6m_BB41_7
@ %bb.3:                                @ %after.15.i
	str	r7, [sp, #88]                   @ 4-byte Spill
	str	r4, [sp, #84]                   @ 4-byte Spill
	str	r0, [sp, #92]                   @ 4-byte Spill
	ldr	r0, [sp, #204]
	str	r0, [sp, #96]                   @ 4-byte Spill
	ldr	r4, [sp, #200]
	movs	r0, #7
	mov	r5, r2
	eors	r0, r2
	orrs	r0, r6
	ldr	r2, [sp, #112]                  @ 4-byte Reload
	beq	.Laes_v6m_BB41_8
@ %bb.4:                                @ %"ccm::formatting::check.exit"
	lsls	r0, r5, #3
	movs	r3, #120
	eors	r3, r0
	mov	r0, r4
	ldr	r1, [sp, #96]                   @ 4-byte Reload
	mov	r7, r2
	mov	r2, r3
	bl	__aeabi_llsr
	ldr	r3, [sp, #100]                  @ 4-byte Reload
	mov	r2, r7
	orrs	r1, r0
	beq	.Laes_v6m_BB41_8
@ %bb.5:
	movs	r1, #2
	ldr	r0, [sp, #92]                   @ 4-byte Reload
	ldr	r7, [sp, #88]                   @ 4-byte Reload
	b	.Laes_v6m_BB41_7
.Laes_v6m_BB41_6:
	mov	r3, r2
.Laes_v6m_BB41_7:                               @ %arm.1
	strb	r1, [r0, #2]
	strb	r7, [r0, #1]
	strb	r3, [r0]
	add	sp, #148
	pop	{r4, r5, r6, r7, pc}
.Laes_v6m_BB41_8:                               @ %join.4
	ldr	r0, [sp, #188]
	str	r0, [sp, #64]                   @ 4-byte Spill
	ldr	r0, [sp, #184]
	str	r0, [sp, #60]                   @ 4-byte Spill
	ldr	r0, [sp, #208]
	str	r0, [sp, #76]                   @ 4-byte Spill
	ldr	r0, [sp, #192]
	str	r0, [sp, #100]                  @ 4-byte Spill
	ldr	r0, [sp, #176]
	str	r0, [sp, #68]                   @ 4-byte Spill
	add	r7, sp, #116
	str	r6, [sp, #72]                   @ 4-byte Spill
	mov	r6, r4
	ldr	r4, [sp, #88]                   @ 4-byte Reload
	strh	r4, [r7, #12]
	strb	r4, [r7, #14]
	str	r4, [sp, #116]
	str	r4, [sp, #120]
	str	r4, [sp, #124]
	mov	r0, r7
	mov	r1, r2
	mov	r2, r5
	bl	memcpy
	movs	r0, #14
	subs	r0, r0, r5
	str	r5, [sp, #80]                   @ 4-byte Spill
	add	r5, sp, #132
	str	r0, [sp, #48]                   @ 4-byte Spill
	strb	r0, [r5]
	adds	r0, r5, #1
	movs	r2, #15
	mov	r1, r7
	bl	memcpy
	str	r6, [sp, #8]
	ldr	r7, [sp, #96]                   @ 4-byte Reload
	str	r7, [sp, #12]
	ldr	r0, [sp, #100]                  @ 4-byte Reload
	str	r0, [sp]
	movs	r2, #16
	ldr	r0, [sp, #108]                  @ 4-byte Reload
	mov	r1, r5
	mov	r3, r4
	bl	aes_v6m.aes_ctr.add_in_batches.add_keystream
	add	r0, sp, #116
	str	r0, [sp, #56]                   @ 4-byte Spill
	str	r6, [sp, #52]                   @ 4-byte Spill
	str	r6, [sp, #32]
	ldr	r6, [sp, #80]                   @ 4-byte Reload
	str	r7, [sp, #36]
	str	r0, [sp, #40]
	ldr	r0, [sp, #60]                   @ 4-byte Reload
	str	r0, [sp, #16]
	ldr	r0, [sp, #64]                   @ 4-byte Reload
	str	r0, [sp, #20]
	ldr	r0, [sp, #100]                  @ 4-byte Reload
	str	r0, [sp, #24]
	ldr	r7, [sp, #84]                   @ 4-byte Reload
	str	r7, [sp]
	ldr	r0, [sp, #104]                  @ 4-byte Reload
	str	r0, [sp, #4]
	ldr	r0, [sp, #68]                   @ 4-byte Reload
	str	r0, [sp, #8]
	ldr	r0, [sp, #108]                  @ 4-byte Reload
	ldr	r1, [sp, #112]                  @ 4-byte Reload
	mov	r2, r6
	ldr	r3, [sp, #72]                   @ 4-byte Reload
	bl	aes_v6m.ccm.message.put_tag
	ldr	r0, [sp, #128]
	str	r0, [sp, #144]
	ldr	r0, [sp, #124]
	str	r0, [sp, #140]
	ldr	r0, [sp, #120]
	str	r0, [sp, #136]
	ldr	r0, [sp, #116]
	str	r0, [sp, #132]
	add	r5, sp, #132
	mov	r0, r5
	ldr	r1, [sp, #76]                   @ 4-byte Reload
	mov	r2, r7
	bl	memcpy
	mov	r0, r5
	ldr	r1, [sp, #56]                   @ 4-byte Reload
	bl	aes_v6m.aes_cipher.blocks.difference
	cmp	r0, #0
	beq	.Laes_v6m_BB41_10
@ %bb.9:                                @ %join.7
	mov	r2, r6
	add	r6, sp, #116
	strh	r4, [r6, #12]
	strb	r4, [r6, #14]
	str	r4, [sp, #116]
	str	r4, [sp, #120]
	str	r4, [sp, #124]
	mov	r0, r6
	ldr	r1, [sp, #112]                  @ 4-byte Reload
	bl	memcpy
	add	r5, sp, #132
	ldr	r0, [sp, #48]                   @ 4-byte Reload
	strb	r0, [r5]
	adds	r0, r5, #1
	movs	r2, #15
	mov	r1, r6
	bl	memcpy
	ldr	r0, [sp, #52]                   @ 4-byte Reload
	str	r0, [sp, #8]
	ldr	r0, [sp, #96]                   @ 4-byte Reload
	str	r0, [sp, #12]
	ldr	r0, [sp, #100]                  @ 4-byte Reload
	str	r0, [sp]
	movs	r2, #16
	ldr	r0, [sp, #108]                  @ 4-byte Reload
	mov	r1, r5
	mov	r3, r4
	bl	aes_v6m.aes_ctr.add_in_batches.add_keystream
	ldr	r0, [sp, #92]                   @ 4-byte Reload
	strb	r4, [r0, #2]
	movs	r1, #1
	strb	r1, [r0, #1]
	strb	r1, [r0]
	add	sp, #148
	pop	{r4, r5, r6, r7, pc}
.Laes_v6m_BB41_10:                              @ %then.5
	ldr	r0, [sp, #92]                   @ 4-byte Reload
	strb	r4, [r0, #2]
	strb	r4, [r0, #1]
	strb	r4, [r0]
	add	sp, #148
	pop	{r4, r5, r6, r7, pc}
.Laes_v6m_func_end41:
	.size	aes_v6m.ccm.mode.decrypt, .Laes_v6m_func_end41-aes_v6m.ccm.mode.decrypt
	.cantunwind
	.fnend
                                        @ -- End function
	.section	.text.aes_v6m.ccm.message.put_tag,"ax",%progbits
	.p2align	2                               @ -- Begin function ccm::message::put_tag::<#4f733d09d7f6c6b4>
	.type	aes_v6m.ccm.message.put_tag,%function
	.code	16
	.thumb_func
aes_v6m.ccm.message.put_tag: @ @aes_v6m.ccm.message.put_tag
	.fnstart
@ %bb.0:                                @ %start
	.save	{r4, r5, r6, r7, lr}
	push	{r4, r5, r6, r7, lr}
	.pad	#180
	sub	sp, #180
	mov	r4, r0
	movs	r5, #0
	str	r5, [sp, #132]
	str	r5, [sp, #128]
	str	r5, [sp, #124]
	str	r5, [sp, #120]
	add	r0, sp, #148
	strh	r5, [r0, #12]
	strb	r5, [r0, #14]
	str	r5, [sp, #148]
	str	r5, [sp, #152]
	str	r5, [sp, #156]
	ldr	r3, [sp, #232]
	str	r3, [sp, #92]                   @ 4-byte Spill
	rev	r3, r3
	str	r3, [sp, #140]
	ldr	r3, [sp, #236]
	str	r3, [sp, #88]                   @ 4-byte Spill
	rev	r3, r3
	str	r3, [sp, #136]
	str	r0, [sp, #80]                   @ 4-byte Spill
	str	r1, [sp, #96]                   @ 4-byte Spill
	str	r2, [sp, #116]                  @ 4-byte Spill
	bl	memcpy
	ldr	r1, [sp, #204]
	ldr	r0, [sp, #200]
	subs	r0, r0, #2
	sbcs	r1, r5
	mov	r1, r5
	adcs	r1, r5
	movs	r2, #1
	str	r2, [sp, #112]                  @ 4-byte Spill
	eors	r1, r2
	mov	r1, r5
	bne	.Laes_v6m_BB42_2
@ %bb.1:                                @ %start
	mov	r1, r0
.Laes_v6m_BB42_2:                               @ %start
	lsls	r0, r1, #2
	movs	r1, #248
	ands	r1, r0
	ldr	r0, [sp, #116]                  @ 4-byte Reload
	subs	r0, r1, r0
	ldr	r1, [sp, #220]
	ldr	r2, [sp, #216]
	str	r2, [sp, #104]                  @ 4-byte Spill
	str	r1, [sp, #108]                  @ 4-byte Spill
	orrs	r2, r1
	str	r2, [sp, #84]                   @ 4-byte Spill
	str	r4, [sp, #100]                  @ 4-byte Spill
	beq	.Laes_v6m_BB42_4
@ %bb.3:                                @ %start
	movs	r1, #78
	b	.Laes_v6m_BB42_5
.Laes_v6m_BB42_4:
	movs	r1, #14
.Laes_v6m_BB42_5:                               @ %start
	adds	r0, r1, r0
	add	r4, sp, #164
	strb	r0, [r4]
	adds	r6, r4, #1
	movs	r7, #15
	mov	r0, r6
	ldr	r1, [sp, #80]                   @ 4-byte Reload
	mov	r2, r7
	bl	memcpy
	ldr	r3, [sp, #116]                  @ 4-byte Reload
	subs	r2, r7, r3
	adds	r0, r6, r3
	add	r1, sp, #136
	adds	r1, r1, r3
	subs	r1, r1, #7
	bl	memcpy
	ldrb	r0, [r4, #1]
	str	r0, [sp, #80]                   @ 4-byte Spill
	ldrb	r0, [r4, #2]
	str	r0, [sp, #76]                   @ 4-byte Spill
	ldrb	r0, [r4, #3]
	str	r0, [sp, #72]                   @ 4-byte Spill
	ldrb	r0, [r4, #5]
	str	r0, [sp, #68]                   @ 4-byte Spill
	ldrb	r0, [r4, #6]
	str	r0, [sp, #64]                   @ 4-byte Spill
	ldrb	r0, [r4, #7]
	str	r0, [sp, #60]                   @ 4-byte Spill
	ldrb	r0, [r4, #9]
	str	r0, [sp, #52]                   @ 4-byte Spill
	ldrb	r0, [r4, #10]
	str	r0, [sp, #48]                   @ 4-byte Spill
	ldrb	r7, [r4, #11]
	ldrb	r6, [r4, #13]
	ldrb	r2, [r4, #14]
	ldrb	r1, [r4, #15]
	ldr	r0, [sp, #164]
	str	r0, [sp, #56]                   @ 4-byte Spill
	ldr	r0, [sp, #168]
	str	r0, [sp, #44]                   @ 4-byte Spill
	ldr	r3, [sp, #172]
	ldr	r0, [sp, #176]
	ldr	r4, [sp, #240]
	strb	r1, [r4, #15]
	strb	r2, [r4, #14]
	strb	r6, [r4, #13]
	strb	r0, [r4, #12]
	strb	r7, [r4, #11]
	ldr	r0, [sp, #48]                   @ 4-byte Reload
	strb	r0, [r4, #10]
	ldr	r0, [sp, #52]                   @ 4-byte Reload
	strb	r0, [r4, #9]
	strb	r3, [r4, #8]
	ldr	r0, [sp, #60]                   @ 4-byte Reload
	strb	r0, [r4, #7]
	ldr	r0, [sp, #64]                   @ 4-byte Reload
	strb	r0, [r4, #6]
	ldr	r0, [sp, #68]                   @ 4-byte Reload
	strb	r0, [r4, #5]
	ldr	r0, [sp, #44]                   @ 4-byte Reload
	strb	r0, [r4, #4]
	ldr	r0, [sp, #72]                   @ 4-byte Reload
	strb	r0, [r4, #3]
	ldr	r0, [sp, #76]                   @ 4-byte Reload
	strb	r0, [r4, #2]
	ldr	r0, [sp, #80]                   @ 4-byte Reload
	strb	r0, [r4, #1]
	ldr	r0, [sp, #56]                   @ 4-byte Reload
	strb	r0, [r4]
	ldr	r6, [sp, #100]                  @ 4-byte Reload
	ldrb	r0, [r6, #15]
	str	r0, [sp, #80]                   @ 4-byte Spill
	ldrb	r0, [r6, #14]
	str	r0, [sp, #76]                   @ 4-byte Spill
	ldrb	r0, [r6, #12]
	str	r0, [sp, #72]                   @ 4-byte Spill
	ldrb	r0, [r6, #13]
	str	r0, [sp, #68]                   @ 4-byte Spill
	ldrb	r0, [r6, #11]
	str	r0, [sp, #64]                   @ 4-byte Spill
	ldrb	r0, [r6, #10]
	str	r0, [sp, #60]                   @ 4-byte Spill
	ldrb	r0, [r6, #8]
	str	r0, [sp, #56]                   @ 4-byte Spill
	ldrb	r0, [r6, #9]
	str	r0, [sp, #52]                   @ 4-byte Spill
	ldrb	r3, [r6, #3]
	ldrb	r2, [r6, #2]
	ldrb	r1, [r6]
	ldrb	r0, [r6, #1]
	ldr	r7, [sp, #112]                  @ 4-byte Reload
	str	r7, [sp, #8]
	str	r5, [sp, #12]
	str	r4, [sp]
	lsls	r0, r0, #8
	adds	r0, r0, r1
	lsls	r1, r2, #16
	lsls	r2, r3, #24
	adds	r1, r2, r1
	adds	r0, r1, r0
	ldr	r1, [sp, #52]                   @ 4-byte Reload
	lsls	r1, r1, #8
	ldr	r2, [sp, #56]                   @ 4-byte Reload
	adds	r1, r1, r2
	ldr	r2, [sp, #60]                   @ 4-byte Reload
	lsls	r2, r2, #16
	ldr	r3, [sp, #64]                   @ 4-byte Reload
	lsls	r3, r3, #24
	adds	r2, r3, r2
	adds	r2, r2, r1
	ldr	r1, [sp, #68]                   @ 4-byte Reload
	lsls	r1, r1, #8
	ldr	r3, [sp, #72]                   @ 4-byte Reload
	adds	r1, r1, r3
	ldr	r3, [sp, #76]                   @ 4-byte Reload
	lsls	r3, r3, #16
	ldr	r5, [sp, #80]                   @ 4-byte Reload
	lsls	r5, r5, #24
	adds	r3, r5, r3
	adds	r3, r3, r1
	bl	aes_v6m.aes_narrow.blocks.process_all_batches.1
	bl	aes_v6m.aes_cipher.zeroize.stack.wipe_stack.1024
	ldr	r0, [sp, #84]                   @ 4-byte Reload
	cmp	r0, #0
	ldr	r2, [sp, #224]
	beq	.Laes_v6m_BB42_17
@ %bb.6:                                @ %join.3.i
	str	r2, [sp, #84]                   @ 4-byte Spill
	movs	r5, #0
	str	r5, [sp, #176]
	str	r5, [sp, #172]
	str	r5, [sp, #168]
	str	r5, [sp, #164]
	ldr	r6, [sp, #104]                  @ 4-byte Reload
	lsrs	r0, r6, #8
	ldr	r3, [sp, #108]                  @ 4-byte Reload
	lsls	r1, r3, #24
	adds	r2, r0, r1
	rev	r1, r6
	lsrs	r0, r1, #16
	lsrs	r3, r3, #8
	movs	r6, #254
	subs	r2, r6, r2
	mov	r2, r5
	sbcs	r2, r3
	blo	.Laes_v6m_BB42_9
@ %bb.7:                                @ %then.1.i.i
	add	r2, sp, #148
	adds	r2, r2, #6
	movs	r3, #0
	add	r6, sp, #164
	subs	r2, r6, r2
	mov	r6, r3
	sbcs	r6, r3
	ldr	r7, [sp, #112]                  @ 4-byte Reload
	subs	r2, r7, r2
	sbcs	r3, r6
	blo	.Laes_v6m_BB42_10
@ %bb.8:                                @ %join.7.i.i.i.i.i.i.preheader.i.i
	lsrs	r1, r1, #24
	add	r2, sp, #164
	strb	r1, [r2, #1]
	strb	r0, [r2]
	b	.Laes_v6m_BB42_11
.Laes_v6m_BB42_9:                               @ %join.3.i.i
	add	r2, sp, #164
	ldr	r3, .Laes_v6m_CPI42_0
	strh	r3, [r2]
	strh	r1, [r2, #2]
	strh	r0, [r2, #4]
	movs	r0, #6
	b	.Laes_v6m_BB42_12
.Laes_v6m_BB42_10:                              @ %apart.2.i.i.i.i.i.i.i.i
	add	r1, sp, #164
	strh	r0, [r1]
.Laes_v6m_BB42_11:                              @ %"ccm::formatting::put_length.exit.i"
	movs	r0, #2
.Laes_v6m_BB42_12:                              @ %"ccm::formatting::put_length.exit.i"
	movs	r6, #16
	subs	r7, r6, r0
	ldr	r1, [sp, #104]                  @ 4-byte Reload
	subs	r1, r7, r1
	mov	r1, r5
	ldr	r2, [sp, #108]                  @ 4-byte Reload
	sbcs	r1, r2
	blo	.Laes_v6m_BB42_14
@ %bb.13:                               @ %"ccm::formatting::put_length.exit.i"
	ldr	r7, [sp, #104]                  @ 4-byte Reload
.Laes_v6m_BB42_14:                              @ %"ccm::formatting::put_length.exit.i"
	ldr	r1, [sp, #208]
	mov	r2, r5
	blo	.Laes_v6m_BB42_16
@ %bb.15:                               @ %"ccm::formatting::put_length.exit.i"
	ldr	r2, [sp, #108]                  @ 4-byte Reload
.Laes_v6m_BB42_16:                              @ %"ccm::formatting::put_length.exit.i"
	str	r2, [sp, #76]                   @ 4-byte Spill
	add	r2, sp, #164
	str	r2, [sp, #72]                   @ 4-byte Spill
	adds	r0, r2, r0
	str	r1, [sp, #80]                   @ 4-byte Spill
	mov	r2, r7
	bl	memcpy
	str	r6, [sp]
	str	r5, [sp, #4]
	ldr	r6, [sp, #100]                  @ 4-byte Reload
	mov	r0, r6
	mov	r1, r4
	ldr	r2, [sp, #72]                   @ 4-byte Reload
	bl	aes_v6m.cmac.chaining.chain
	ldr	r0, [sp, #104]                  @ 4-byte Reload
	subs	r0, r0, r7
	ldr	r1, [sp, #108]                  @ 4-byte Reload
	ldr	r2, [sp, #76]                   @ 4-byte Reload
	sbcs	r1, r2
	str	r0, [sp]
	str	r1, [sp, #4]
	ldr	r0, [sp, #80]                   @ 4-byte Reload
	adds	r2, r0, r7
	mov	r0, r6
	mov	r1, r4
	bl	aes_v6m.cmac.chaining.chain
	ldr	r2, [sp, #84]                   @ 4-byte Reload
.Laes_v6m_BB42_17:                              @ %"ccm::message::chain_additional::<#4f733d09d7f6c6b4>.exit"
	ldr	r0, [sp, #92]                   @ 4-byte Reload
	str	r0, [sp]
	ldr	r0, [sp, #88]                   @ 4-byte Reload
	str	r0, [sp, #4]
	mov	r0, r6
	mov	r1, r4
	bl	aes_v6m.cmac.chaining.chain
	add	r7, sp, #164
	movs	r0, #0
	str	r0, [sp, #108]                  @ 4-byte Spill
	strb	r0, [r7, #14]
	strh	r0, [r7, #12]
	str	r0, [sp, #172]
	str	r0, [sp, #168]
	str	r0, [sp, #164]
	mov	r0, r7
	ldr	r1, [sp, #96]                   @ 4-byte Reload
	ldr	r5, [sp, #116]                  @ 4-byte Reload
	mov	r2, r5
	bl	memcpy
	movs	r0, #14
	subs	r0, r0, r5
	add	r5, sp, #120
	strb	r0, [r5]
	ldrb	r0, [r7, #14]
	strb	r0, [r5, #15]
	ldrb	r0, [r7, #13]
	strb	r0, [r5, #14]
	ldr	r0, [sp, #176]
	strb	r0, [r5, #13]
	ldrb	r0, [r7, #11]
	strb	r0, [r5, #12]
	ldrb	r0, [r7, #10]
	strb	r0, [r5, #11]
	ldrb	r0, [r7, #9]
	strb	r0, [r5, #10]
	ldr	r0, [sp, #172]
	strb	r0, [r5, #9]
	ldrb	r0, [r7, #7]
	strb	r0, [r5, #8]
	ldrb	r0, [r7, #6]
	strb	r0, [r5, #7]
	ldrb	r0, [r7, #5]
	strb	r0, [r5, #6]
	ldr	r0, [sp, #168]
	strb	r0, [r5, #5]
	ldrb	r0, [r7, #3]
	strb	r0, [r5, #4]
	ldrb	r0, [r7, #2]
	strb	r0, [r5, #3]
	ldrb	r0, [r7, #1]
	strb	r0, [r5, #2]
	ldr	r0, [sp, #164]
	strb	r0, [r5, #1]
	ldrb	r0, [r6, #15]
	str	r0, [sp, #116]                  @ 4-byte Spill
	ldrb	r0, [r6, #14]
	str	r0, [sp, #104]                  @ 4-byte Spill
	ldrb	r0, [r6, #12]
	str	r0, [sp, #100]                  @ 4-byte Spill
	ldrb	r0, [r6, #13]
	str	r0, [sp, #96]                   @ 4-byte Spill
	ldrb	r0, [r6, #11]
	str	r0, [sp, #92]                   @ 4-byte Spill
	ldrb	r0, [r6, #10]
	str	r0, [sp, #88]                   @ 4-byte Spill
	ldrb	r0, [r6, #8]
	str	r0, [sp, #84]                   @ 4-byte Spill
	ldrb	r7, [r6, #9]
	ldrb	r3, [r6, #3]
	ldrb	r2, [r6, #2]
	ldrb	r1, [r6]
	ldrb	r0, [r6, #1]
	ldr	r6, [sp, #112]                  @ 4-byte Reload
	str	r6, [sp, #8]
	ldr	r6, [sp, #108]                  @ 4-byte Reload
	str	r6, [sp, #12]
	str	r5, [sp]
	lsls	r0, r0, #8
	adds	r0, r0, r1
	lsls	r1, r2, #16
	lsls	r2, r3, #24
	adds	r1, r2, r1
	adds	r0, r1, r0
	lsls	r1, r7, #8
	ldr	r2, [sp, #84]                   @ 4-byte Reload
	adds	r1, r1, r2
	ldr	r2, [sp, #88]                   @ 4-byte Reload
	lsls	r2, r2, #16
	ldr	r3, [sp, #92]                   @ 4-byte Reload
	lsls	r3, r3, #24
	adds	r2, r3, r2
	adds	r2, r2, r1
	ldr	r1, [sp, #96]                   @ 4-byte Reload
	lsls	r1, r1, #8
	ldr	r3, [sp, #100]                  @ 4-byte Reload
	adds	r1, r1, r3
	ldr	r3, [sp, #104]                  @ 4-byte Reload
	lsls	r3, r3, #16
	ldr	r6, [sp, #116]                  @ 4-byte Reload
	lsls	r6, r6, #24
	adds	r3, r6, r3
	adds	r3, r3, r1
	bl	aes_v6m.aes_narrow.blocks.process_all_batches.1
	bl	aes_v6m.aes_cipher.zeroize.stack.wipe_stack.1024
	ldrb	r0, [r4, #15]
	ldrb	r1, [r5, #15]
	eors	r1, r0
	str	r1, [sp, #44]                   @ 4-byte Spill
	ldrb	r0, [r4]
	str	r0, [sp, #116]                  @ 4-byte Spill
	ldrb	r0, [r5, #1]
	str	r0, [sp, #112]                  @ 4-byte Spill
	ldrb	r0, [r4, #1]
	str	r0, [sp, #108]                  @ 4-byte Spill
	ldrb	r0, [r5, #2]
	str	r0, [sp, #104]                  @ 4-byte Spill
	ldrb	r0, [r4, #2]
	str	r0, [sp, #100]                  @ 4-byte Spill
	ldrb	r0, [r5, #3]
	str	r0, [sp, #96]                   @ 4-byte Spill
	ldrb	r0, [r4, #3]
	str	r0, [sp, #92]                   @ 4-byte Spill
	ldrb	r0, [r4, #4]
	str	r0, [sp, #88]                   @ 4-byte Spill
	ldrb	r0, [r5, #5]
	str	r0, [sp, #84]                   @ 4-byte Spill
	ldrb	r0, [r4, #5]
	str	r0, [sp, #80]                   @ 4-byte Spill
	ldrb	r0, [r5, #6]
	str	r0, [sp, #72]                   @ 4-byte Spill
	ldrb	r0, [r4, #6]
	str	r0, [sp, #68]                   @ 4-byte Spill
	ldrb	r0, [r5, #7]
	str	r0, [sp, #64]                   @ 4-byte Spill
	ldrb	r0, [r4, #7]
	str	r0, [sp, #60]                   @ 4-byte Spill
	ldrb	r0, [r4, #8]
	str	r0, [sp, #56]                   @ 4-byte Spill
	ldrb	r0, [r5, #9]
	str	r0, [sp, #48]                   @ 4-byte Spill
	ldrb	r0, [r4, #9]
	str	r0, [sp, #40]                   @ 4-byte Spill
	ldrb	r0, [r5, #10]
	str	r0, [sp, #36]                   @ 4-byte Spill
	ldrb	r6, [r4, #10]
	ldrb	r0, [r5, #11]
	str	r0, [sp, #32]                   @ 4-byte Spill
	ldrb	r3, [r4, #11]
	ldrb	r0, [r4, #12]
	str	r0, [sp, #28]                   @ 4-byte Spill
	ldrb	r0, [r5, #13]
	str	r0, [sp, #24]                   @ 4-byte Spill
	ldrb	r2, [r4, #13]
	ldrb	r0, [r5, #14]
	str	r0, [sp, #20]                   @ 4-byte Spill
	ldrb	r0, [r4, #14]
	ldr	r1, [sp, #120]
	str	r1, [sp, #76]                   @ 4-byte Spill
	ldr	r1, [sp, #124]
	str	r1, [sp, #52]                   @ 4-byte Spill
	ldr	r5, [sp, #128]
	ldr	r1, [sp, #132]
	ldr	r7, [sp, #44]                   @ 4-byte Reload
	strb	r7, [r4, #15]
	ldr	r7, [sp, #20]                   @ 4-byte Reload
	eors	r0, r7
	strb	r0, [r4, #14]
	ldr	r0, [sp, #24]                   @ 4-byte Reload
	eors	r2, r0
	strb	r2, [r4, #13]
	ldr	r0, [sp, #28]                   @ 4-byte Reload
	eors	r1, r0
	strb	r1, [r4, #12]
	ldr	r0, [sp, #32]                   @ 4-byte Reload
	eors	r3, r0
	strb	r3, [r4, #11]
	ldr	r0, [sp, #36]                   @ 4-byte Reload
	eors	r6, r0
	strb	r6, [r4, #10]
	ldr	r0, [sp, #48]                   @ 4-byte Reload
	ldr	r1, [sp, #40]                   @ 4-byte Reload
	eors	r1, r0
	strb	r1, [r4, #9]
	ldr	r0, [sp, #56]                   @ 4-byte Reload
	eors	r5, r0
	strb	r5, [r4, #8]
	ldr	r0, [sp, #64]                   @ 4-byte Reload
	ldr	r1, [sp, #60]                   @ 4-byte Reload
	eors	r1, r0
	strb	r1, [r4, #7]
	ldr	r0, [sp, #72]                   @ 4-byte Reload
	ldr	r1, [sp, #68]                   @ 4-byte Reload
	eors	r1, r0
	strb	r1, [r4, #6]
	ldr	r0, [sp, #84]                   @ 4-byte Reload
	ldr	r1, [sp, #80]                   @ 4-byte Reload
	eors	r1, r0
	strb	r1, [r4, #5]
	ldr	r0, [sp, #88]                   @ 4-byte Reload
	ldr	r1, [sp, #52]                   @ 4-byte Reload
	eors	r1, r0
	strb	r1, [r4, #4]
	ldr	r0, [sp, #96]                   @ 4-byte Reload
	ldr	r1, [sp, #92]                   @ 4-byte Reload
	eors	r1, r0
	strb	r1, [r4, #3]
	ldr	r0, [sp, #104]                  @ 4-byte Reload
	ldr	r1, [sp, #100]                  @ 4-byte Reload
	eors	r1, r0
	strb	r1, [r4, #2]
	ldr	r0, [sp, #112]                  @ 4-byte Reload
	ldr	r1, [sp, #108]                  @ 4-byte Reload
	eors	r1, r0
	strb	r1, [r4, #1]
	ldr	r0, [sp, #116]                  @ 4-byte Reload
	ldr	r1, [sp, #76]                   @ 4-byte Reload
	eors	r1, r0
	strb	r1, [r4]
	add	sp, #180
	pop	{r4, r5, r6, r7, pc}
	.p2align	2
@ %bb.18:
.Laes_v6m_CPI42_0:
	.long	65279                           @ 0xfeff
.Laes_v6m_func_end42:
	.size	aes_v6m.ccm.message.put_tag, .Laes_v6m_func_end42-aes_v6m.ccm.message.put_tag
	.cantunwind
	.fnend
                                        @ -- End function
	.section	.text.aes_v6m.ccm.mode.encrypt,"ax",%progbits
	.p2align	1                               @ -- Begin function ccm::mode::encrypt::<#4f733d09d7f6c6b4>
	.type	aes_v6m.ccm.mode.encrypt,%function
	.code	16
	.thumb_func
aes_v6m.ccm.mode.encrypt: @ @aes_v6m.ccm.mode.encrypt
	.fnstart
@ %bb.0:                                @ %start
	.save	{r4, r5, r6, r7, lr}
	push	{r4, r5, r6, r7, lr}
	.pad	#140
	sub	sp, #140
	str	r1, [sp, #84]                   @ 4-byte Spill
	str	r0, [sp, #88]                   @ 4-byte Spill
	movs	r4, #0
	ldr	r7, [sp, #204]
	ldr	r6, [sp, #200]
	subs	r5, r6, #4
	str	r7, [sp, #80]                   @ 4-byte Spill
	sbcs	r7, r4
	movs	r0, #1
	movs	r1, #12
	subs	r1, r1, r5
	mov	r1, r4
	sbcs	r1, r7
	blo	.Laes_v6m_BB43_4
@ %bb.1:                                @ %start
	mov	r1, r6
	ands	r1, r0
	bne	.Laes_v6m_BB43_4
@ %bb.2:                                @ %after.1.i
	mov	r1, r2
	subs	r1, #14
	mov	r5, r3
	sbcs	r5, r4
	adds	r1, r1, #7
	adcs	r5, r4
	bhs	.Laes_v6m_BB43_5
@ %bb.3:
	movs	r4, #1
.Laes_v6m_BB43_4:                               @ %return.5
	mov	r1, r4
	add	sp, #140
	pop	{r4, r5, r6, r7, pc}
.Laes_v6m_BB43_5:                               @ %after.15.i
	ldr	r0, [sp, #188]
	str	r0, [sp, #76]                   @ 4-byte Spill
	ldr	r5, [sp, #184]
	movs	r0, #7
	eors	r0, r2
	orrs	r0, r3
	movs	r4, #0
	cmp	r0, #0
	mov	r0, r4
	beq	.Laes_v6m_BB43_9
@ %bb.6:                                @ %"ccm::formatting::check.exit"
	str	r3, [sp, #72]                   @ 4-byte Spill
	str	r2, [sp, #64]                   @ 4-byte Spill
	lsls	r0, r2, #3
	movs	r2, #120
	eors	r2, r0
	mov	r0, r5
	ldr	r1, [sp, #76]                   @ 4-byte Reload
	bl	__aeabi_llsr
	orrs	r1, r0
	subs	r2, r1, #1
	mov	r0, r1
	sbcs	r0, r2
	cmp	r1, #0
	beq	.Laes_v6m_BB43_8
@ %bb.7:
	movs	r4, #2
	mov	r1, r4
	add	sp, #140
	pop	{r4, r5, r6, r7, pc}
.Laes_v6m_BB43_8:
	ldr	r2, [sp, #64]                   @ 4-byte Reload
	ldr	r3, [sp, #72]                   @ 4-byte Reload
.Laes_v6m_BB43_9:                               @ %arm.1
	str	r0, [sp, #72]                   @ 4-byte Spill
	ldr	r0, [sp, #172]
	str	r0, [sp, #52]                   @ 4-byte Spill
	ldr	r1, [sp, #168]
	ldr	r7, [sp, #192]
	str	r7, [sp, #60]                   @ 4-byte Spill
	ldr	r7, [sp, #176]
	str	r7, [sp, #64]                   @ 4-byte Spill
	str	r5, [sp, #68]                   @ 4-byte Spill
	ldr	r0, [sp, #160]
	str	r0, [sp, #48]                   @ 4-byte Spill
	add	r0, sp, #92
	str	r0, [sp, #56]                   @ 4-byte Spill
	str	r5, [sp, #32]
	ldr	r5, [sp, #76]                   @ 4-byte Reload
	str	r5, [sp, #36]
	str	r0, [sp, #40]
	str	r1, [sp, #16]
	ldr	r0, [sp, #52]                   @ 4-byte Reload
	str	r0, [sp, #20]
	str	r7, [sp, #24]
	str	r6, [sp]
	ldr	r0, [sp, #80]                   @ 4-byte Reload
	str	r0, [sp, #4]
	ldr	r0, [sp, #48]                   @ 4-byte Reload
	str	r0, [sp, #8]
	ldr	r0, [sp, #88]                   @ 4-byte Reload
	ldr	r5, [sp, #84]                   @ 4-byte Reload
	mov	r1, r5
	mov	r7, r2
	bl	aes_v6m.ccm.message.put_tag
	ldr	r0, [sp, #60]                   @ 4-byte Reload
	ldr	r1, [sp, #56]                   @ 4-byte Reload
	mov	r2, r6
	bl	memcpy
	add	r6, sp, #124
	strh	r4, [r6, #12]
	strb	r4, [r6, #14]
	str	r4, [sp, #124]
	str	r4, [sp, #128]
	str	r4, [sp, #132]
	mov	r0, r6
	mov	r1, r5
	mov	r2, r7
	bl	memcpy
	movs	r0, #14
	subs	r0, r0, r7
	add	r5, sp, #108
	strb	r0, [r5]
	adds	r0, r5, #1
	movs	r2, #15
	mov	r1, r6
	bl	memcpy
	ldr	r0, [sp, #68]                   @ 4-byte Reload
	str	r0, [sp, #8]
	ldr	r0, [sp, #76]                   @ 4-byte Reload
	str	r0, [sp, #12]
	ldr	r0, [sp, #64]                   @ 4-byte Reload
	str	r0, [sp]
	movs	r2, #16
	ldr	r0, [sp, #88]                   @ 4-byte Reload
	mov	r1, r5
	mov	r3, r4
	bl	aes_v6m.aes_ctr.add_in_batches.add_keystream
	ldr	r0, [sp, #72]                   @ 4-byte Reload
	mov	r1, r4
	add	sp, #140
	pop	{r4, r5, r6, r7, pc}
.Laes_v6m_func_end43:
	.size	aes_v6m.ccm.mode.encrypt, .Laes_v6m_func_end43-aes_v6m.ccm.mode.encrypt
	.cantunwind
	.fnend
                                        @ -- End function
	.section	.text.aes_v6m.fotsgure_aes_version,"ax",%progbits
	export_aes_v6m	fotsgure_aes_version
	.p2align	1
	.type	aes_v6m.fotsgure_aes_version,%function
	.code	16
	.thumb_func
aes_v6m.fotsgure_aes_version:                   @ @aes_v6m.fotsgure_aes_version
	.fnstart
@ %bb.0:
	movs	r0, #25
	lsls	r0, r0, #4
	b	.Laes_v6m_return_26452
.Laes_v6m_return_26452:
	movs	r1, #0
	movs	r2, #0
	movs	r3, #0
	mov	r12, r1
	bx	lr
.Laes_v6m_func_end44:
	.size	aes_v6m.fotsgure_aes_version, .Laes_v6m_func_end44-aes_v6m.fotsgure_aes_version
	.cantunwind
	.fnend
                                        @ -- End function
	.section	.text.aes_v6m.fotsgure_aes_set_key,"ax",%progbits
	export_aes_v6m	fotsgure_aes_set_key
	.p2align	1
	.type	aes_v6m.fotsgure_aes_set_key,%function
	.code	16
	.thumb_func
aes_v6m.fotsgure_aes_set_key:                   @ @aes_v6m.fotsgure_aes_set_key
	.fnstart
@ %bb.0:
	.save	{r4, r5, r6, r7, lr}
	push	{r4, r5, r6, r7, lr}
	.pad	#4
	sub	sp, #4
	mov	r4, r2
	cmp	r2, #32
	beq	.Laes_v6m_BB45_3
@ %bb.1:
	movs	r2, #8
	mov	r3, r4
	bics	r3, r2
	cmp	r3, #16
	beq	.Laes_v6m_BB45_3
@ %bb.2:                                @ %then.1.i.i
	movs	r1, #121
	lsls	r2, r1, #2
	movs	r1, #0
	bl	memset
	movs	r5, #1
	mov	r0, r5
	add	sp, #4
	b	.Laes_v6m_return_26494
.Laes_v6m_BB45_3:                               @ %join.3.i.i
	str	r0, [sp]                        @ 4-byte Spill
	adds	r6, r0, #4
	movs	r0, #15
	lsls	r2, r0, #5
	movs	r5, #0
	mov	r0, r6
	mov	r7, r1
	mov	r1, r5
	bl	memset
	cmp	r7, #0
	bne	.Laes_v6m_BB45_5
@ %bb.4:
	movs	r0, #1
	lsls	r0, r0, #12
	adds	r7, r7, r0
.Laes_v6m_BB45_5:                               @ %join.3.i.i
	mov	r0, r6
	mov	r1, r7
	mov	r2, r4
	mov	r3, r5
	bl	aes_v6m.aes_narrow.word_room.expand_words
	bl	aes_v6m.aes_cipher.zeroize.stack.wipe_stack.768
	ldr	r0, [sp]                        @ 4-byte Reload
	str	r4, [r0]
	mov	r0, r5
	add	sp, #4
	b	.Laes_v6m_return_26494
.Laes_v6m_return_26494:
	movs	r1, #0
	movs	r2, #0
	movs	r3, #0
	mov	r12, r1
	mov	lr, r1
	pop	{r4, r5, r6, r7, pc}
.Laes_v6m_func_end45:
	.size	aes_v6m.fotsgure_aes_set_key, .Laes_v6m_func_end45-aes_v6m.fotsgure_aes_set_key
	.cantunwind
	.fnend
                                        @ -- End function
	.section	.text.aes_v6m.fotsgure_aes_key_length,"ax",%progbits
	export_aes_v6m	fotsgure_aes_key_length
	.p2align	1
	.type	aes_v6m.fotsgure_aes_key_length,%function
	.code	16
	.thumb_func
aes_v6m.fotsgure_aes_key_length:                @ @aes_v6m.fotsgure_aes_key_length
	.fnstart
@ %bb.0:
	ldr	r0, [r0]
	movs	r1, #8
	mov	r2, r0
	bics	r2, r1
	cmp	r2, #16
	mov	r1, r0
	bne	.Laes_v6m_BB46_3
@ %bb.1:
	cmp	r0, #32
	bne	.Laes_v6m_BB46_4
.Laes_v6m_BB46_2:
	b	.Laes_v6m_return_26555
.Laes_v6m_BB46_3:
	movs	r1, #0
	cmp	r0, #32
	beq	.Laes_v6m_BB46_2
.Laes_v6m_BB46_4:
	mov	r0, r1
	b	.Laes_v6m_return_26555
.Laes_v6m_return_26555:
	movs	r1, #0
	movs	r2, #0
	movs	r3, #0
	mov	r12, r1
	bx	lr
.Laes_v6m_func_end46:
	.size	aes_v6m.fotsgure_aes_key_length, .Laes_v6m_func_end46-aes_v6m.fotsgure_aes_key_length
	.cantunwind
	.fnend
                                        @ -- End function
	.section	.text.aes_v6m.fotsgure_aes_wipe,"ax",%progbits
	export_aes_v6m	fotsgure_aes_wipe
	.p2align	1
	.type	aes_v6m.fotsgure_aes_wipe,%function
	.code	16
	.thumb_func
aes_v6m.fotsgure_aes_wipe:                      @ @aes_v6m.fotsgure_aes_wipe
	.fnstart
@ %bb.0:
	.save	{r4, lr}
	push	{r4, lr}
	mov	r4, r0
	movs	r0, #121
	lsls	r2, r0, #2
	movs	r1, #0
	mov	r0, r4
	bl	memset
	adds	r0, r4, #4
	bl	aes_v6m.aes_cipher.zeroize.elements.zeroize_elements.1
	b	.Laes_v6m_return_26593
.Laes_v6m_return_26593:
	movs	r1, #0
	movs	r2, #0
	movs	r3, #0
	mov	r12, r1
	mov	lr, r1
	pop	{r4, pc}
.Laes_v6m_func_end47:
	.size	aes_v6m.fotsgure_aes_wipe, .Laes_v6m_func_end47-aes_v6m.fotsgure_aes_wipe
	.cantunwind
	.fnend
                                        @ -- End function
	.section	.text.aes_v6m.fotsgure_aes_encrypt_blocks,"ax",%progbits
	export_aes_v6m	fotsgure_aes_encrypt_blocks
	.p2align	1
	.type	aes_v6m.fotsgure_aes_encrypt_blocks,%function
	.code	16
	.thumb_func
aes_v6m.fotsgure_aes_encrypt_blocks:            @ @aes_v6m.fotsgure_aes_encrypt_blocks
	.fnstart
@ %bb.0:
	.save	{r4, r5, r7, lr}
	push	{r4, r5, r7, lr}
	.pad	#16
	sub	sp, #16
	ldr	r5, [r0]
	cmp	r5, #32
	beq	.Laes_v6m_BB48_3
@ %bb.1:
	movs	r3, #8
	mov	r4, r5
	bics	r4, r3
	cmp	r4, #16
	beq	.Laes_v6m_BB48_3
@ %bb.2:
	movs	r4, #2
	mov	r0, r4
	add	sp, #16
	b	.Laes_v6m_return_26632
.Laes_v6m_BB48_3:                               @ %join.3.i.i
	movs	r4, #0
	str	r2, [sp, #8]
	str	r4, [sp, #12]
	cmp	r1, #0
	bne	.Laes_v6m_BB48_5
@ %bb.4:
	movs	r2, #1
	lsls	r2, r2, #12
	adds	r1, r1, r2
.Laes_v6m_BB48_5:                               @ %join.3.i.i
	str	r1, [sp]
	lsrs	r3, r5, #31
	lsls	r2, r5, #1
	adds	r2, #56
	adcs	r3, r4
	adds	r0, r0, #4
	bl	aes_v6m.aes_narrow.blocks.process_all_batches.1
	bl	aes_v6m.aes_cipher.zeroize.stack.wipe_stack.1024
	mov	r0, r4
	add	sp, #16
	b	.Laes_v6m_return_26632
.Laes_v6m_return_26632:
	movs	r1, #0
	movs	r2, #0
	movs	r3, #0
	mov	r12, r1
	mov	lr, r1
	pop	{r4, r5, r7, pc}
.Laes_v6m_func_end48:
	.size	aes_v6m.fotsgure_aes_encrypt_blocks, .Laes_v6m_func_end48-aes_v6m.fotsgure_aes_encrypt_blocks
	.cantunwind
	.fnend
                                        @ -- End function
	.section	.text.aes_v6m.fotsgure_aes_decrypt_blocks,"ax",%progbits
	export_aes_v6m	fotsgure_aes_decrypt_blocks
	.p2align	1
	.type	aes_v6m.fotsgure_aes_decrypt_blocks,%function
	.code	16
	.thumb_func
aes_v6m.fotsgure_aes_decrypt_blocks:            @ @aes_v6m.fotsgure_aes_decrypt_blocks
	.fnstart
@ %bb.0:
	.save	{r4, r5, r7, lr}
	push	{r4, r5, r7, lr}
	.pad	#16
	sub	sp, #16
	ldr	r5, [r0]
	cmp	r5, #32
	beq	.Laes_v6m_BB49_3
@ %bb.1:
	movs	r3, #8
	mov	r4, r5
	bics	r4, r3
	cmp	r4, #16
	beq	.Laes_v6m_BB49_3
@ %bb.2:
	movs	r4, #2
	mov	r0, r4
	add	sp, #16
	b	.Laes_v6m_return_26693
.Laes_v6m_BB49_3:                               @ %join.3.i.i
	movs	r4, #0
	str	r2, [sp, #8]
	str	r4, [sp, #12]
	cmp	r1, #0
	bne	.Laes_v6m_BB49_5
@ %bb.4:
	movs	r2, #1
	lsls	r2, r2, #12
	adds	r1, r1, r2
.Laes_v6m_BB49_5:                               @ %join.3.i.i
	str	r1, [sp]
	lsrs	r3, r5, #31
	lsls	r2, r5, #1
	adds	r2, #56
	adcs	r3, r4
	adds	r0, r0, #4
	bl	aes_v6m.aes_narrow.blocks.process_all_batches.2
	bl	aes_v6m.aes_cipher.zeroize.stack.wipe_stack.1024
	mov	r0, r4
	add	sp, #16
	b	.Laes_v6m_return_26693
.Laes_v6m_return_26693:
	movs	r1, #0
	movs	r2, #0
	movs	r3, #0
	mov	r12, r1
	mov	lr, r1
	pop	{r4, r5, r7, pc}
.Laes_v6m_func_end49:
	.size	aes_v6m.fotsgure_aes_decrypt_blocks, .Laes_v6m_func_end49-aes_v6m.fotsgure_aes_decrypt_blocks
	.cantunwind
	.fnend
                                        @ -- End function
	.section	.text.aes_v6m.fotsgure_aes_encrypt_blocks_to,"ax",%progbits
	export_aes_v6m	fotsgure_aes_encrypt_blocks_to
	.p2align	2
	.type	aes_v6m.fotsgure_aes_encrypt_blocks_to,%function
	.code	16
	.thumb_func
aes_v6m.fotsgure_aes_encrypt_blocks_to:         @ @aes_v6m.fotsgure_aes_encrypt_blocks_to
	.fnstart
@ %bb.0:
	.save	{r4, r5, r6, r7, lr}
	push	{r4, r5, r6, r7, lr}
	.pad	#52
	sub	sp, #52
	mov	r7, r2
	movs	r6, #1
	lsls	r2, r6, #12
	cmp	r3, #0
	beq	.Laes_v6m_BB50_10
@ %bb.1:
	cmp	r1, #0
	beq	.Laes_v6m_BB50_11
.Laes_v6m_BB50_2:
	ldr	r2, [sp, #72]
	cmp	r7, r2
	bne	.Laes_v6m_BB50_12
.Laes_v6m_BB50_3:                               @ %join.3.i.i
	ldr	r2, [r0]
	subs	r2, #16
	movs	r5, #2
	cmp	r2, #16
	bhi	.Laes_v6m_BB50_13
@ %bb.4:                                @ %join.3.i.i
	str	r1, [sp, #48]                   @ 4-byte Spill
	mov	r4, r6
	lsls	r4, r2
	ldr	r2, .Laes_v6m_CPI50_0
	tst	r4, r2
	beq	.Laes_v6m_BB50_13
@ %bb.5:                                @ %join.6.i.i
	str	r0, [sp, #32]                   @ 4-byte Spill
	movs	r4, #0
	ldr	r1, [sp, #48]                   @ 4-byte Reload
	subs	r0, r3, r1
	str	r3, [sp, #44]                   @ 4-byte Spill
	str	r4, [sp, #28]                   @ 4-byte Spill
	sbcs	r4, r4
	lsrs	r5, r7, #28
	lsls	r2, r7, #4
	subs	r3, r0, r2
	sbcs	r4, r5
	bhs	.Laes_v6m_BB50_14
@ %bb.6:                                @ %join.7.i.i.i.i.i.i.i.i.preheader
	ldr	r2, [sp, #44]                   @ 4-byte Reload
	cmp	r7, #1
	str	r7, [sp, #40]                   @ 4-byte Spill
	bhi	.Laes_v6m_BB50_8
@ %bb.7:                                @ %join.7.i.i.i.i.i.i.i.i.preheader
	str	r6, [sp, #40]                   @ 4-byte Spill
.Laes_v6m_BB50_8:                               @ %join.7.i.i.i.i.i.i.i.i.preheader
	movs	r0, #3
	ldr	r1, [sp, #40]                   @ 4-byte Reload
	ands	r1, r0
	cmp	r7, #4
	bhs	.Laes_v6m_BB50_16
@ %bb.9:
	movs	r5, #0
	mov	r6, r2
	ldr	r2, [sp, #48]                   @ 4-byte Reload
	b	.Laes_v6m_BB50_19
.Laes_v6m_BB50_10:
	adds	r3, r3, r2
	cmp	r1, #0
	bne	.Laes_v6m_BB50_2
.Laes_v6m_BB50_11:
	adds	r1, r1, r2
	ldr	r2, [sp, #72]
	cmp	r7, r2
	beq	.Laes_v6m_BB50_3
.Laes_v6m_BB50_12:
	movs	r5, #3
.Laes_v6m_BB50_13:                              @ %wide_fotsgure_aes_encrypt_blocks_to.exit
	mov	r0, r5
	add	sp, #52
	b	.Laes_v6m_return_26811
.Laes_v6m_BB50_14:                              @ %apart.2.i.i.i.i.i.i.i.i
	ldr	r6, [sp, #44]                   @ 4-byte Reload
	mov	r0, r6
.Laes_v6m_BB50_15:                              @ %"core::slice::edits::slice+T::copy_from_slice::<#b9e87c6de6ee7501>.exit.i.i"
	bl	memmove
	b	.Laes_v6m_BB50_21
.Laes_v6m_BB50_16:                              @ %join.7.i.i.i.i.i.i.i.i.preheader.new
	str	r1, [sp, #20]                   @ 4-byte Spill
	str	r7, [sp, #24]                   @ 4-byte Spill
	ldr	r1, [sp, #40]                   @ 4-byte Reload
	bics	r1, r0
	str	r1, [sp, #40]                   @ 4-byte Spill
	movs	r4, #0
	mov	r5, r4
	str	r4, [sp, #36]                   @ 4-byte Spill
	mov	r6, r2
	ldr	r2, [sp, #48]                   @ 4-byte Reload
.Laes_v6m_BB50_17:                              @ %join.7.i.i.i.i.i.i.i.i
                                        @ =>This Inner Loop Header: Depth=1
	lsls	r7, r5, #4
	adds	r0, r6, r7
	adds	r1, r2, r7
	movs	r6, #16
	mov	r2, r6
	bl	memmove
	mov	r1, r7
	orrs	r1, r6
	ldr	r0, [sp, #44]                   @ 4-byte Reload
	adds	r0, r0, r1
	ldr	r2, [sp, #48]                   @ 4-byte Reload
	adds	r1, r2, r1
	mov	r2, r6
	bl	memmove
	movs	r1, #32
	orrs	r1, r7
	ldr	r0, [sp, #44]                   @ 4-byte Reload
	adds	r0, r0, r1
	ldr	r2, [sp, #48]                   @ 4-byte Reload
	adds	r1, r2, r1
	mov	r2, r6
	bl	memmove
	movs	r1, #48
	orrs	r1, r7
	ldr	r0, [sp, #44]                   @ 4-byte Reload
	adds	r0, r0, r1
	ldr	r2, [sp, #48]                   @ 4-byte Reload
	adds	r1, r2, r1
	mov	r2, r6
	ldr	r6, [sp, #44]                   @ 4-byte Reload
	bl	memmove
	ldr	r2, [sp, #48]                   @ 4-byte Reload
	adds	r5, r5, #4
	ldr	r0, [sp, #36]                   @ 4-byte Reload
	adcs	r4, r0
	mov	r0, r5
	ldr	r1, [sp, #40]                   @ 4-byte Reload
	eors	r0, r1
	orrs	r0, r4
	bne	.Laes_v6m_BB50_17
@ %bb.18:                               @ %"core::slice::edits::slice+T::copy_from_slice::<#b9e87c6de6ee7501>.exit.i.i.loopexit.unr-lcssa"
	ldr	r1, [sp, #20]                   @ 4-byte Reload
	cmp	r1, #0
	ldr	r7, [sp, #24]                   @ 4-byte Reload
	beq	.Laes_v6m_BB50_21
.Laes_v6m_BB50_19:                              @ %join.7.i.i.i.i.i.i.i.i.epil.preheader
	lsls	r4, r5, #4
	adds	r0, r6, r4
	mov	r5, r1
	adds	r1, r2, r4
	movs	r2, #16
	bl	memmove
	ldr	r2, [sp, #48]                   @ 4-byte Reload
	cmp	r5, #1
	beq	.Laes_v6m_BB50_21
@ %bb.20:                               @ %join.7.i.i.i.i.i.i.i.i.epil.1
	mov	r1, r4
	adds	r1, #16
	adds	r0, r6, r1
	adds	r1, r2, r1
	movs	r2, #16
	bl	memmove
	ldr	r1, [sp, #48]                   @ 4-byte Reload
	cmp	r5, #2
	bne	.Laes_v6m_BB50_22
.Laes_v6m_BB50_21:                              @ %"core::slice::edits::slice+T::copy_from_slice::<#b9e87c6de6ee7501>.exit.i.i"
	ldr	r0, [sp, #32]                   @ 4-byte Reload
	ldm	r0!, {r1}
	str	r7, [sp, #8]
	ldr	r5, [sp, #28]                   @ 4-byte Reload
	str	r5, [sp, #12]
	str	r6, [sp]
	lsrs	r3, r1, #31
	lsls	r2, r1, #1
	adds	r2, #56
	adcs	r3, r5
	bl	aes_v6m.aes_narrow.blocks.process_all_batches.1
	bl	aes_v6m.aes_cipher.zeroize.stack.wipe_stack.1024
	mov	r0, r5
	add	sp, #52
	b	.Laes_v6m_return_26811
.Laes_v6m_BB50_22:                              @ %join.7.i.i.i.i.i.i.i.i.epil.2
	adds	r4, #32
	adds	r0, r6, r4
	adds	r1, r1, r4
	movs	r2, #16
	b	.Laes_v6m_BB50_15
	.p2align	2
@ %bb.23:
.Laes_v6m_CPI50_0:
	.long	65793                           @ 0x10101
.Laes_v6m_return_26811:
	movs	r1, #0
	movs	r2, #0
	movs	r3, #0
	mov	r12, r1
	mov	lr, r1
	pop	{r4, r5, r6, r7, pc}
.Laes_v6m_func_end50:
	.size	aes_v6m.fotsgure_aes_encrypt_blocks_to, .Laes_v6m_func_end50-aes_v6m.fotsgure_aes_encrypt_blocks_to
	.cantunwind
	.fnend
                                        @ -- End function
	.section	.text.aes_v6m.fotsgure_aes_decrypt_blocks_to,"ax",%progbits
	export_aes_v6m	fotsgure_aes_decrypt_blocks_to
	.p2align	2
	.type	aes_v6m.fotsgure_aes_decrypt_blocks_to,%function
	.code	16
	.thumb_func
aes_v6m.fotsgure_aes_decrypt_blocks_to:         @ @aes_v6m.fotsgure_aes_decrypt_blocks_to
	.fnstart
@ %bb.0:
	.save	{r4, r5, r6, r7, lr}
	push	{r4, r5, r6, r7, lr}
	.pad	#52
	sub	sp, #52
	mov	r7, r2
	movs	r6, #1
	lsls	r2, r6, #12
	cmp	r3, #0
	beq	.Laes_v6m_BB51_10
@ %bb.1:
	cmp	r1, #0
	beq	.Laes_v6m_BB51_11
.Laes_v6m_BB51_2:
	ldr	r2, [sp, #72]
	cmp	r7, r2
	bne	.Laes_v6m_BB51_12
.Laes_v6m_BB51_3:                               @ %join.3.i.i
	ldr	r2, [r0]
	subs	r2, #16
	movs	r5, #2
	cmp	r2, #16
	bhi	.Laes_v6m_BB51_13
@ %bb.4:                                @ %join.3.i.i
	str	r1, [sp, #48]                   @ 4-byte Spill
	mov	r4, r6
	lsls	r4, r2
	ldr	r2, .Laes_v6m_CPI51_0
	tst	r4, r2
	beq	.Laes_v6m_BB51_13
@ %bb.5:                                @ %join.6.i.i
	str	r0, [sp, #32]                   @ 4-byte Spill
	movs	r4, #0
	ldr	r1, [sp, #48]                   @ 4-byte Reload
	subs	r0, r3, r1
	str	r3, [sp, #44]                   @ 4-byte Spill
	str	r4, [sp, #28]                   @ 4-byte Spill
	sbcs	r4, r4
	lsrs	r5, r7, #28
	lsls	r2, r7, #4
	subs	r3, r0, r2
	sbcs	r4, r5
	bhs	.Laes_v6m_BB51_14
@ %bb.6:                                @ %join.7.i.i.i.i.i.i.i.i.preheader
	ldr	r2, [sp, #44]                   @ 4-byte Reload
	cmp	r7, #1
	str	r7, [sp, #40]                   @ 4-byte Spill
	bhi	.Laes_v6m_BB51_8
@ %bb.7:                                @ %join.7.i.i.i.i.i.i.i.i.preheader
	str	r6, [sp, #40]                   @ 4-byte Spill
.Laes_v6m_BB51_8:                               @ %join.7.i.i.i.i.i.i.i.i.preheader
	movs	r0, #3
	ldr	r1, [sp, #40]                   @ 4-byte Reload
	ands	r1, r0
	cmp	r7, #4
	bhs	.Laes_v6m_BB51_16
@ %bb.9:
	movs	r5, #0
	mov	r6, r2
	ldr	r2, [sp, #48]                   @ 4-byte Reload
	b	.Laes_v6m_BB51_19
.Laes_v6m_BB51_10:
	adds	r3, r3, r2
	cmp	r1, #0
	bne	.Laes_v6m_BB51_2
.Laes_v6m_BB51_11:
	adds	r1, r1, r2
	ldr	r2, [sp, #72]
	cmp	r7, r2
	beq	.Laes_v6m_BB51_3
.Laes_v6m_BB51_12:
	movs	r5, #3
.Laes_v6m_BB51_13:                              @ %wide_fotsgure_aes_decrypt_blocks_to.exit
	mov	r0, r5
	add	sp, #52
	b	.Laes_v6m_return_27017
.Laes_v6m_BB51_14:                              @ %apart.2.i.i.i.i.i.i.i.i
	ldr	r6, [sp, #44]                   @ 4-byte Reload
	mov	r0, r6
.Laes_v6m_BB51_15:                              @ %"core::slice::edits::slice+T::copy_from_slice::<#b9e87c6de6ee7501>.exit.i.i"
	bl	memmove
	b	.Laes_v6m_BB51_21
.Laes_v6m_BB51_16:                              @ %join.7.i.i.i.i.i.i.i.i.preheader.new
	str	r1, [sp, #20]                   @ 4-byte Spill
	str	r7, [sp, #24]                   @ 4-byte Spill
	ldr	r1, [sp, #40]                   @ 4-byte Reload
	bics	r1, r0
	str	r1, [sp, #40]                   @ 4-byte Spill
	movs	r4, #0
	mov	r5, r4
	str	r4, [sp, #36]                   @ 4-byte Spill
	mov	r6, r2
	ldr	r2, [sp, #48]                   @ 4-byte Reload
.Laes_v6m_BB51_17:                              @ %join.7.i.i.i.i.i.i.i.i
                                        @ =>This Inner Loop Header: Depth=1
	lsls	r7, r5, #4
	adds	r0, r6, r7
	adds	r1, r2, r7
	movs	r6, #16
	mov	r2, r6
	bl	memmove
	mov	r1, r7
	orrs	r1, r6
	ldr	r0, [sp, #44]                   @ 4-byte Reload
	adds	r0, r0, r1
	ldr	r2, [sp, #48]                   @ 4-byte Reload
	adds	r1, r2, r1
	mov	r2, r6
	bl	memmove
	movs	r1, #32
	orrs	r1, r7
	ldr	r0, [sp, #44]                   @ 4-byte Reload
	adds	r0, r0, r1
	ldr	r2, [sp, #48]                   @ 4-byte Reload
	adds	r1, r2, r1
	mov	r2, r6
	bl	memmove
	movs	r1, #48
	orrs	r1, r7
	ldr	r0, [sp, #44]                   @ 4-byte Reload
	adds	r0, r0, r1
	ldr	r2, [sp, #48]                   @ 4-byte Reload
	adds	r1, r2, r1
	mov	r2, r6
	ldr	r6, [sp, #44]                   @ 4-byte Reload
	bl	memmove
	ldr	r2, [sp, #48]                   @ 4-byte Reload
	adds	r5, r5, #4
	ldr	r0, [sp, #36]                   @ 4-byte Reload
	adcs	r4, r0
	mov	r0, r5
	ldr	r1, [sp, #40]                   @ 4-byte Reload
	eors	r0, r1
	orrs	r0, r4
	bne	.Laes_v6m_BB51_17
@ %bb.18:                               @ %"core::slice::edits::slice+T::copy_from_slice::<#b9e87c6de6ee7501>.exit.i.i.loopexit.unr-lcssa"
	ldr	r1, [sp, #20]                   @ 4-byte Reload
	cmp	r1, #0
	ldr	r7, [sp, #24]                   @ 4-byte Reload
	beq	.Laes_v6m_BB51_21
.Laes_v6m_BB51_19:                              @ %join.7.i.i.i.i.i.i.i.i.epil.preheader
	lsls	r4, r5, #4
	adds	r0, r6, r4
	mov	r5, r1
	adds	r1, r2, r4
	movs	r2, #16
	bl	memmove
	ldr	r2, [sp, #48]                   @ 4-byte Reload
	cmp	r5, #1
	beq	.Laes_v6m_BB51_21
@ %bb.20:                               @ %join.7.i.i.i.i.i.i.i.i.epil.1
	mov	r1, r4
	adds	r1, #16
	adds	r0, r6, r1
	adds	r1, r2, r1
	movs	r2, #16
	bl	memmove
	ldr	r1, [sp, #48]                   @ 4-byte Reload
	cmp	r5, #2
	bne	.Laes_v6m_BB51_22
.Laes_v6m_BB51_21:                              @ %"core::slice::edits::slice+T::copy_from_slice::<#b9e87c6de6ee7501>.exit.i.i"
	ldr	r0, [sp, #32]                   @ 4-byte Reload
	ldm	r0!, {r1}
	str	r7, [sp, #8]
	ldr	r5, [sp, #28]                   @ 4-byte Reload
	str	r5, [sp, #12]
	str	r6, [sp]
	lsrs	r3, r1, #31
	lsls	r2, r1, #1
	adds	r2, #56
	adcs	r3, r5
	bl	aes_v6m.aes_narrow.blocks.process_all_batches.2
	bl	aes_v6m.aes_cipher.zeroize.stack.wipe_stack.1024
	mov	r0, r5
	add	sp, #52
	b	.Laes_v6m_return_27017
.Laes_v6m_BB51_22:                              @ %join.7.i.i.i.i.i.i.i.i.epil.2
	adds	r4, #32
	adds	r0, r6, r4
	adds	r1, r1, r4
	movs	r2, #16
	b	.Laes_v6m_BB51_15
	.p2align	2
@ %bb.23:
.Laes_v6m_CPI51_0:
	.long	65793                           @ 0x10101
.Laes_v6m_return_27017:
	movs	r1, #0
	movs	r2, #0
	movs	r3, #0
	mov	r12, r1
	mov	lr, r1
	pop	{r4, r5, r6, r7, pc}
.Laes_v6m_func_end51:
	.size	aes_v6m.fotsgure_aes_decrypt_blocks_to, .Laes_v6m_func_end51-aes_v6m.fotsgure_aes_decrypt_blocks_to
	.cantunwind
	.fnend
                                        @ -- End function
	.section	.text.aes_v6m.fotsgure_aes_add_keystream,"ax",%progbits
	export_aes_v6m	fotsgure_aes_add_keystream
	.p2align	2
	.type	aes_v6m.fotsgure_aes_add_keystream,%function
	.code	16
	.thumb_func
aes_v6m.fotsgure_aes_add_keystream:             @ @aes_v6m.fotsgure_aes_add_keystream
	.fnstart
@ %bb.0:
	.save	{r4, r5, r6, r7, lr}
	push	{r4, r5, r6, r7, lr}
	.pad	#52
	sub	sp, #52
	str	r3, [sp, #28]                   @ 4-byte Spill
	movs	r4, #1
	cmp	r2, #0
	bne	.Laes_v6m_BB52_2
@ %bb.1:
	lsls	r3, r4, #12
	adds	r2, r2, r3
.Laes_v6m_BB52_2:
	ldr	r5, [r1, #16]
	ldr	r6, [r1, #20]
	movs	r7, #0
	ldr	r3, [sp, #28]                   @ 4-byte Reload
	adds	r3, r5, r3
	mov	r3, r6
	adcs	r3, r7
	mov	r3, r7
	adcs	r3, r7
	beq	.Laes_v6m_BB52_5
@ %bb.3:
	movs	r6, #4
.Laes_v6m_BB52_4:                               @ %wide_fotsgure_aes_add_keystream.exit
	mov	r0, r6
	add	sp, #52
	b	.Laes_v6m_return_27176
.Laes_v6m_BB52_5:                               @ %join.3.i.i.i
	str	r6, [sp, #20]                   @ 4-byte Spill
	str	r5, [sp, #24]                   @ 4-byte Spill
	ldr	r5, [r0]
	mov	r3, r5
	subs	r3, #16
	movs	r6, #2
	cmp	r3, #16
	bhi	.Laes_v6m_BB52_4
@ %bb.6:                                @ %join.3.i.i.i
	lsls	r4, r3
	ldr	r3, .Laes_v6m_CPI52_0
	tst	r4, r3
	beq	.Laes_v6m_BB52_4
@ %bb.7:                                @ %then.1.i.i
	str	r7, [sp, #36]
	adds	r0, r0, #4
	str	r0, [sp, #32]
	lsrs	r0, r5, #31
	lsls	r3, r5, #1
	adds	r3, #56
	str	r3, [sp, #40]
	adcs	r0, r7
	str	r0, [sp, #44]
	ldr	r4, [sp, #28]                   @ 4-byte Reload
	str	r4, [sp, #8]
	str	r7, [sp, #12]
	str	r2, [sp]
	add	r0, sp, #32
	mov	r6, r1
	ldr	r2, [sp, #24]                   @ 4-byte Reload
	ldr	r3, [sp, #20]                   @ 4-byte Reload
	bl	aes_v6m.aes_ctr.add_in_batches.add_keystream
	ldr	r0, [r6, #16]
	adds	r0, r0, r4
	str	r0, [r6, #16]
	ldr	r0, [r6, #20]
	adcs	r0, r7
	str	r0, [r6, #20]
	mov	r6, r7
	mov	r0, r6
	add	sp, #52
	b	.Laes_v6m_return_27176
	.p2align	2
@ %bb.8:
.Laes_v6m_CPI52_0:
	.long	65793                           @ 0x10101
.Laes_v6m_return_27176:
	movs	r1, #0
	movs	r2, #0
	movs	r3, #0
	mov	r12, r1
	mov	lr, r1
	pop	{r4, r5, r6, r7, pc}
.Laes_v6m_func_end52:
	.size	aes_v6m.fotsgure_aes_add_keystream, .Laes_v6m_func_end52-aes_v6m.fotsgure_aes_add_keystream
	.cantunwind
	.fnend
                                        @ -- End function
	.section	.text.aes_v6m.fotsgure_aes_add_keystream_to,"ax",%progbits
	export_aes_v6m	fotsgure_aes_add_keystream_to
	.p2align	2
	.type	aes_v6m.fotsgure_aes_add_keystream_to,%function
	.code	16
	.thumb_func
aes_v6m.fotsgure_aes_add_keystream_to:          @ @aes_v6m.fotsgure_aes_add_keystream_to
	.fnstart
@ %bb.0:
	.save	{r4, r5, r6, r7, lr}
	push	{r4, r5, r6, r7, lr}
	.pad	#68
	sub	sp, #68
	str	r3, [sp, #44]                   @ 4-byte Spill
	str	r1, [sp, #40]                   @ 4-byte Spill
	str	r0, [sp, #28]                   @ 4-byte Spill
	movs	r7, #1
	lsls	r0, r7, #12
	ldr	r4, [sp, #88]
	cmp	r4, #0
	beq	.Laes_v6m_BB53_6
@ %bb.1:
	cmp	r2, #0
	beq	.Laes_v6m_BB53_7
.Laes_v6m_BB53_2:
	ldr	r0, [sp, #92]
	ldr	r1, [sp, #44]                   @ 4-byte Reload
	cmp	r1, r0
	bne	.Laes_v6m_BB53_8
.Laes_v6m_BB53_3:                               @ %join.3.i.i
	ldr	r0, [sp, #40]                   @ 4-byte Reload
	ldr	r1, [r0, #16]
	ldr	r0, [r0, #20]
	movs	r6, #0
	ldr	r3, [sp, #44]                   @ 4-byte Reload
	adds	r1, r1, r3
	adcs	r0, r6
	mov	r0, r6
	adcs	r0, r6
	beq	.Laes_v6m_BB53_9
@ %bb.4:
	movs	r5, #4
.Laes_v6m_BB53_5:                               @ %wide_fotsgure_aes_add_keystream_to.exit
	mov	r0, r5
	add	sp, #68
	b	.Laes_v6m_return_27281
.Laes_v6m_BB53_6:
	adds	r4, r4, r0
	cmp	r2, #0
	bne	.Laes_v6m_BB53_2
.Laes_v6m_BB53_7:
	adds	r2, r2, r0
	ldr	r0, [sp, #92]
	ldr	r1, [sp, #44]                   @ 4-byte Reload
	cmp	r1, r0
	beq	.Laes_v6m_BB53_3
.Laes_v6m_BB53_8:
	movs	r5, #3
	mov	r0, r5
	add	sp, #68
	b	.Laes_v6m_return_27281
.Laes_v6m_BB53_9:                               @ %join.3.i.i.i
	ldr	r0, [sp, #28]                   @ 4-byte Reload
	ldr	r0, [r0]
	subs	r0, #16
	movs	r5, #2
	cmp	r0, #16
	bhi	.Laes_v6m_BB53_5
@ %bb.10:                               @ %join.3.i.i.i
	mov	r1, r7
	lsls	r1, r0
	ldr	r0, .Laes_v6m_CPI53_0
	tst	r1, r0
	beq	.Laes_v6m_BB53_5
@ %bb.11:                               @ %join.6.i.i
	subs	r0, r4, r2
	mov	r1, r6
	sbcs	r1, r6
	ldr	r3, [sp, #44]                   @ 4-byte Reload
	subs	r0, r0, r3
	sbcs	r1, r6
	bhs	.Laes_v6m_BB53_14
@ %bb.12:                               @ %join.7.i.i.i.i.i.i.i.i.preheader
	movs	r1, #3
	ldr	r0, [sp, #44]                   @ 4-byte Reload
	mov	r3, r0
	str	r1, [sp, #36]                   @ 4-byte Spill
	ands	r3, r1
	cmp	r0, #4
	bhs	.Laes_v6m_BB53_15
@ %bb.13:
	movs	r5, #0
	b	.Laes_v6m_BB53_18
.Laes_v6m_BB53_14:                              @ %apart.2.i.i.i.i.i.i.i.i
	mov	r0, r4
	mov	r1, r2
	ldr	r2, [sp, #44]                   @ 4-byte Reload
	bl	memmove
	b	.Laes_v6m_BB53_21
.Laes_v6m_BB53_15:                              @ %join.7.i.i.i.i.i.i.i.i.preheader.new
	str	r3, [sp, #20]                   @ 4-byte Spill
	str	r6, [sp, #24]                   @ 4-byte Spill
	ldr	r6, [sp, #44]                   @ 4-byte Reload
	ldr	r0, [sp, #36]                   @ 4-byte Reload
	bics	r6, r0
	movs	r0, #0
	mov	r5, r0
	str	r7, [sp, #32]                   @ 4-byte Spill
	mov	r7, r0
.Laes_v6m_BB53_16:                              @ %join.7.i.i.i.i.i.i.i.i
                                        @ =>This Inner Loop Header: Depth=1
	ldrb	r1, [r2, r5]
	strb	r1, [r4, r5]
	mov	r1, r5
	ldr	r3, [sp, #32]                   @ 4-byte Reload
	orrs	r1, r3
	ldrb	r3, [r2, r1]
	strb	r3, [r4, r1]
	movs	r1, #2
	orrs	r1, r5
	ldrb	r3, [r2, r1]
	strb	r3, [r4, r1]
	mov	r1, r5
	ldr	r3, [sp, #36]                   @ 4-byte Reload
	orrs	r1, r3
	ldrb	r3, [r2, r1]
	strb	r3, [r4, r1]
	adds	r5, r5, #4
	adcs	r7, r0
	mov	r1, r5
	eors	r1, r6
	orrs	r1, r7
	bne	.Laes_v6m_BB53_16
@ %bb.17:                               @ %"core::slice::edits::slice+T::copy_from_slice::<i8,20'core::clone::U8Clone{}>.exit.i.i.loopexit.unr-lcssa"
	ldr	r3, [sp, #20]                   @ 4-byte Reload
	cmp	r3, #0
	ldr	r6, [sp, #24]                   @ 4-byte Reload
	ldr	r7, [sp, #32]                   @ 4-byte Reload
	beq	.Laes_v6m_BB53_21
.Laes_v6m_BB53_18:                              @ %join.7.i.i.i.i.i.i.i.i.epil.preheader
	ldrb	r0, [r2, r5]
	strb	r0, [r4, r5]
	cmp	r3, #1
	beq	.Laes_v6m_BB53_21
@ %bb.19:                               @ %join.7.i.i.i.i.i.i.i.i.epil.1
	adds	r0, r5, #1
	ldrb	r1, [r2, r0]
	strb	r1, [r4, r0]
	cmp	r3, #2
	beq	.Laes_v6m_BB53_21
@ %bb.20:                               @ %join.7.i.i.i.i.i.i.i.i.epil.2
	adds	r0, r5, #2
	ldrb	r1, [r2, r0]
	strb	r1, [r4, r0]
.Laes_v6m_BB53_21:                              @ %"core::slice::edits::slice+T::copy_from_slice::<i8,20'core::clone::U8Clone{}>.exit.i.i"
	ldr	r0, [sp, #40]                   @ 4-byte Reload
	ldr	r2, [r0, #16]
	ldr	r3, [r0, #20]
	ldr	r0, [sp, #44]                   @ 4-byte Reload
	adds	r0, r2, r0
	mov	r0, r3
	adcs	r0, r6
	mov	r0, r6
	adcs	r0, r6
	beq	.Laes_v6m_BB53_23
@ %bb.22:
	movs	r5, #4
	mov	r0, r5
	add	sp, #68
	b	.Laes_v6m_return_27281
.Laes_v6m_BB53_23:                              @ %join.3.i.i.i.i
	ldr	r0, [sp, #28]                   @ 4-byte Reload
	ldr	r0, [r0]
	mov	r1, r0
	subs	r1, #16
	movs	r5, #2
	cmp	r1, #16
	bhi	.Laes_v6m_BB53_5
@ %bb.24:                               @ %join.3.i.i.i.i
	lsls	r7, r1
	ldr	r1, .Laes_v6m_CPI53_0
	tst	r7, r1
	beq	.Laes_v6m_BB53_5
@ %bb.25:                               @ %then.1.i.i.i
	str	r6, [sp, #52]
	ldr	r1, [sp, #28]                   @ 4-byte Reload
	adds	r1, r1, #4
	str	r1, [sp, #48]
	lsrs	r1, r0, #31
	lsls	r0, r0, #1
	adds	r0, #56
	str	r0, [sp, #56]
	adcs	r1, r6
	str	r1, [sp, #60]
	ldr	r5, [sp, #44]                   @ 4-byte Reload
	str	r5, [sp, #8]
	str	r6, [sp, #12]
	str	r4, [sp]
	add	r0, sp, #48
	ldr	r4, [sp, #40]                   @ 4-byte Reload
	mov	r1, r4
	bl	aes_v6m.aes_ctr.add_in_batches.add_keystream
	ldr	r0, [r4, #16]
	adds	r0, r0, r5
	str	r0, [r4, #16]
	ldr	r0, [r4, #20]
	adcs	r0, r6
	str	r0, [r4, #20]
	mov	r5, r6
	mov	r0, r5
	add	sp, #68
	b	.Laes_v6m_return_27281
	.p2align	2
@ %bb.26:
.Laes_v6m_CPI53_0:
	.long	65793                           @ 0x10101
.Laes_v6m_return_27281:
	movs	r1, #0
	movs	r2, #0
	movs	r3, #0
	mov	r12, r1
	mov	lr, r1
	pop	{r4, r5, r6, r7, pc}
.Laes_v6m_func_end53:
	.size	aes_v6m.fotsgure_aes_add_keystream_to, .Laes_v6m_func_end53-aes_v6m.fotsgure_aes_add_keystream_to
	.cantunwind
	.fnend
                                        @ -- End function
	.section	.text.aes_v6m.fotsgure_aes_cbc_encrypt,"ax",%progbits
	export_aes_v6m	fotsgure_aes_cbc_encrypt
	.p2align	1
	.type	aes_v6m.fotsgure_aes_cbc_encrypt,%function
	.code	16
	.thumb_func
aes_v6m.fotsgure_aes_cbc_encrypt:               @ @aes_v6m.fotsgure_aes_cbc_encrypt
	.fnstart
@ %bb.0:
	.save	{r4, r5, r6, r7, lr}
	push	{r4, r5, r6, r7, lr}
	.pad	#124
	sub	sp, #124
	str	r3, [sp, #40]                   @ 4-byte Spill
	mov	r7, r2
	movs	r4, #1
	cmp	r2, #0
	bne	.Laes_v6m_BB54_2
@ %bb.1:
	lsls	r2, r4, #12
	adds	r7, r7, r2
.Laes_v6m_BB54_2:
	ldr	r5, [r0]
	cmp	r5, #32
	beq	.Laes_v6m_BB54_5
@ %bb.3:
	movs	r2, #8
	mov	r3, r5
	bics	r3, r2
	cmp	r3, #16
	beq	.Laes_v6m_BB54_5
@ %bb.4:
	movs	r0, #2
	add	sp, #124
	b	.Laes_v6m_return_27498
.Laes_v6m_BB54_5:                               @ %join.3.i.i
	ldrb	r2, [r1, #12]
	ldrb	r3, [r1, #13]
	lsls	r3, r3, #8
	adds	r2, r3, r2
	ldrb	r3, [r1, #14]
	lsls	r3, r3, #16
	str	r4, [sp, #32]                   @ 4-byte Spill
	ldrb	r4, [r1, #15]
	lsls	r4, r4, #24
	adds	r3, r4, r3
	adds	r2, r3, r2
	str	r2, [sp, #120]
	ldrb	r2, [r1, #8]
	ldrb	r3, [r1, #9]
	lsls	r3, r3, #8
	adds	r2, r3, r2
	ldrb	r3, [r1, #10]
	lsls	r3, r3, #16
	ldrb	r4, [r1, #11]
	lsls	r4, r4, #24
	adds	r3, r4, r3
	adds	r2, r3, r2
	str	r2, [sp, #116]
	ldrb	r2, [r1, #4]
	ldrb	r3, [r1, #5]
	lsls	r3, r3, #8
	adds	r2, r3, r2
	ldrb	r3, [r1, #6]
	lsls	r3, r3, #16
	ldrb	r4, [r1, #7]
	lsls	r4, r4, #24
	adds	r3, r4, r3
	adds	r2, r3, r2
	str	r2, [sp, #112]
	ldrb	r2, [r1]
	ldrb	r3, [r1, #1]
	lsls	r3, r3, #8
	adds	r2, r3, r2
	ldrb	r3, [r1, #2]
	lsls	r3, r3, #16
	str	r1, [sp, #16]                   @ 4-byte Spill
	ldrb	r4, [r1, #3]
	lsls	r4, r4, #24
	adds	r3, r4, r3
	adds	r2, r3, r2
	str	r2, [sp, #108]
	lsrs	r1, r5, #31
	lsls	r2, r5, #1
	movs	r3, #0
	adds	r2, #56
	str	r2, [sp, #24]                   @ 4-byte Spill
	str	r3, [sp, #36]                   @ 4-byte Spill
	adcs	r1, r3
	str	r1, [sp, #28]                   @ 4-byte Spill
	ldr	r1, [sp, #40]                   @ 4-byte Reload
	cmp	r1, #0
	bne	.Laes_v6m_BB54_6
	b	.Laes_v6m_BB54_8
.Laes_v6m_BB54_6:                               @ %join.5.lr.ph.i.i.i
	mov	r4, r7
	adds	r0, r0, #4
	str	r0, [sp, #20]                   @ 4-byte Spill
	add	r3, sp, #108
	ldrb	r2, [r3, #15]
	ldrb	r1, [r3, #14]
	ldrb	r0, [r3, #13]
	str	r0, [sp, #48]                   @ 4-byte Spill
	ldrb	r0, [r3, #12]
	str	r0, [sp, #52]                   @ 4-byte Spill
	ldrb	r0, [r3, #11]
	str	r0, [sp, #56]                   @ 4-byte Spill
	ldrb	r0, [r3, #10]
	str	r0, [sp, #60]                   @ 4-byte Spill
	ldrb	r0, [r3, #9]
	str	r0, [sp, #64]                   @ 4-byte Spill
	ldrb	r0, [r3, #8]
	str	r0, [sp, #68]                   @ 4-byte Spill
	ldrb	r0, [r3, #7]
	str	r0, [sp, #72]                   @ 4-byte Spill
	ldrb	r0, [r3, #6]
	str	r0, [sp, #76]                   @ 4-byte Spill
	ldrb	r0, [r3, #5]
	str	r0, [sp, #80]                   @ 4-byte Spill
	ldrb	r0, [r3, #4]
	str	r0, [sp, #84]                   @ 4-byte Spill
	ldrb	r0, [r3, #3]
	str	r0, [sp, #88]                   @ 4-byte Spill
	ldrb	r5, [r3, #2]
	str	r5, [sp, #92]                   @ 4-byte Spill
	ldrb	r5, [r3, #1]
	str	r5, [sp, #96]                   @ 4-byte Spill
	ldrb	r3, [r3]
	ldr	r7, [sp, #36]                   @ 4-byte Reload
	mov	r5, r7
	str	r7, [sp, #100]                  @ 4-byte Spill
	str	r4, [sp, #104]                  @ 4-byte Spill
.Laes_v6m_BB54_7:                               @ %join.5.i.i.i
                                        @ =>This Inner Loop Header: Depth=1
	lsls	r0, r5, #4
	str	r0, [sp, #44]                   @ 4-byte Spill
	ldr	r4, [sp, #104]                  @ 4-byte Reload
	ldrb	r4, [r4, r0]
	eors	r4, r3
	add	r6, sp, #108
	strb	r4, [r6]
	ldr	r3, [sp, #104]                  @ 4-byte Reload
	adds	r4, r3, r0
	ldrb	r3, [r4, #15]
	eors	r3, r2
	strb	r3, [r6, #15]
	ldrb	r2, [r4, #14]
	eors	r2, r1
	strb	r2, [r6, #14]
	ldrb	r1, [r4, #13]
	ldr	r0, [sp, #48]                   @ 4-byte Reload
	eors	r1, r0
	strb	r1, [r6, #13]
	ldrb	r0, [r4, #12]
	ldr	r1, [sp, #52]                   @ 4-byte Reload
	eors	r0, r1
	strb	r0, [r6, #12]
	ldrb	r0, [r4, #11]
	ldr	r1, [sp, #56]                   @ 4-byte Reload
	eors	r0, r1
	strb	r0, [r6, #11]
	ldrb	r0, [r4, #10]
	ldr	r1, [sp, #60]                   @ 4-byte Reload
	eors	r0, r1
	strb	r0, [r6, #10]
	ldrb	r0, [r4, #9]
	ldr	r1, [sp, #64]                   @ 4-byte Reload
	eors	r0, r1
	strb	r0, [r6, #9]
	ldrb	r0, [r4, #8]
	ldr	r1, [sp, #68]                   @ 4-byte Reload
	eors	r0, r1
	strb	r0, [r6, #8]
	ldrb	r0, [r4, #7]
	ldr	r1, [sp, #72]                   @ 4-byte Reload
	eors	r0, r1
	strb	r0, [r6, #7]
	ldrb	r0, [r4, #6]
	ldr	r1, [sp, #76]                   @ 4-byte Reload
	eors	r0, r1
	strb	r0, [r6, #6]
	ldrb	r0, [r4, #5]
	ldr	r1, [sp, #80]                   @ 4-byte Reload
	eors	r0, r1
	strb	r0, [r6, #5]
	ldrb	r0, [r4, #4]
	ldr	r1, [sp, #84]                   @ 4-byte Reload
	eors	r0, r1
	strb	r0, [r6, #4]
	ldrb	r0, [r4, #3]
	ldr	r1, [sp, #88]                   @ 4-byte Reload
	eors	r0, r1
	strb	r0, [r6, #3]
	ldrb	r0, [r4, #2]
	ldr	r1, [sp, #92]                   @ 4-byte Reload
	eors	r0, r1
	strb	r0, [r6, #2]
	ldrb	r0, [r4, #1]
	ldr	r1, [sp, #96]                   @ 4-byte Reload
	eors	r0, r1
	strb	r0, [r6, #1]
	ldr	r0, [sp, #32]                   @ 4-byte Reload
	str	r0, [sp, #8]
	ldr	r7, [sp, #36]                   @ 4-byte Reload
	str	r7, [sp, #12]
	str	r6, [sp]
	add	r3, sp, #20
	ldm	r3, {r0, r2, r3}                @ 12-byte Folded Reload
	bl	aes_v6m.aes_narrow.blocks.process_all_batches.1
	bl	aes_v6m.aes_cipher.zeroize.stack.wipe_stack.1024
	ldrb	r3, [r6]
	ldr	r0, [sp, #104]                  @ 4-byte Reload
	ldr	r1, [sp, #44]                   @ 4-byte Reload
	strb	r3, [r0, r1]
	ldrb	r2, [r6, #15]
	strb	r2, [r4, #15]
	ldrb	r1, [r6, #14]
	strb	r1, [r4, #14]
	ldrb	r0, [r6, #13]
	str	r0, [sp, #48]                   @ 4-byte Spill
	strb	r0, [r4, #13]
	ldrb	r0, [r6, #12]
	str	r0, [sp, #52]                   @ 4-byte Spill
	strb	r0, [r4, #12]
	ldrb	r0, [r6, #11]
	str	r0, [sp, #56]                   @ 4-byte Spill
	strb	r0, [r4, #11]
	ldrb	r0, [r6, #10]
	str	r0, [sp, #60]                   @ 4-byte Spill
	strb	r0, [r4, #10]
	ldrb	r0, [r6, #9]
	str	r0, [sp, #64]                   @ 4-byte Spill
	strb	r0, [r4, #9]
	ldrb	r0, [r6, #8]
	str	r0, [sp, #68]                   @ 4-byte Spill
	strb	r0, [r4, #8]
	ldrb	r0, [r6, #7]
	str	r0, [sp, #72]                   @ 4-byte Spill
	strb	r0, [r4, #7]
	ldrb	r0, [r6, #6]
	str	r0, [sp, #76]                   @ 4-byte Spill
	strb	r0, [r4, #6]
	ldrb	r0, [r6, #5]
	str	r0, [sp, #80]                   @ 4-byte Spill
	strb	r0, [r4, #5]
	ldrb	r0, [r6, #4]
	str	r0, [sp, #84]                   @ 4-byte Spill
	strb	r0, [r4, #4]
	ldrb	r0, [r6, #3]
	str	r0, [sp, #88]                   @ 4-byte Spill
	strb	r0, [r4, #3]
	ldrb	r0, [r6, #2]
	str	r0, [sp, #92]                   @ 4-byte Spill
	strb	r0, [r4, #2]
	ldrb	r6, [r6, #1]
	str	r6, [sp, #96]                   @ 4-byte Spill
	strb	r6, [r4, #1]
	adds	r5, r5, #1
	ldr	r6, [sp, #100]                  @ 4-byte Reload
	adcs	r6, r7
	ldr	r4, [sp, #40]                   @ 4-byte Reload
	subs	r4, r5, r4
	str	r6, [sp, #100]                  @ 4-byte Spill
	sbcs	r6, r7
	bhs	.Laes_v6m_BB54_8
	b	.Laes_v6m_BB54_7
.Laes_v6m_BB54_8:                               @ %"cbc::chain::Cbc::encrypt_blocks::<#4f733d09d7f6c6b4>.exit.i.i"
	add	r1, sp, #108
	movs	r2, #16
	ldr	r0, [sp, #16]                   @ 4-byte Reload
	bl	memcpy
	movs	r0, #0
	add	sp, #124
	b	.Laes_v6m_return_27498
.Laes_v6m_return_27498:
	movs	r1, #0
	movs	r2, #0
	movs	r3, #0
	mov	r12, r1
	mov	lr, r1
	pop	{r4, r5, r6, r7, pc}
.Laes_v6m_func_end54:
	.size	aes_v6m.fotsgure_aes_cbc_encrypt, .Laes_v6m_func_end54-aes_v6m.fotsgure_aes_cbc_encrypt
	.cantunwind
	.fnend
                                        @ -- End function
	.section	.text.aes_v6m.fotsgure_aes_cbc_decrypt,"ax",%progbits
	export_aes_v6m	fotsgure_aes_cbc_decrypt
	.p2align	1
	.type	aes_v6m.fotsgure_aes_cbc_decrypt,%function
	.code	16
	.thumb_func
aes_v6m.fotsgure_aes_cbc_decrypt:               @ @aes_v6m.fotsgure_aes_cbc_decrypt
	.fnstart
@ %bb.0:
	.save	{r4, r5, r6, lr}
	push	{r4, r5, r6, lr}
	.pad	#40
	sub	sp, #40
	ldr	r6, [r0]
	cmp	r6, #32
	beq	.Laes_v6m_BB55_3
@ %bb.1:
	movs	r4, #8
	mov	r5, r6
	bics	r5, r4
	cmp	r5, #16
	beq	.Laes_v6m_BB55_3
@ %bb.2:
	movs	r4, #2
	mov	r0, r4
	add	sp, #40
	b	.Laes_v6m_return_27776
.Laes_v6m_BB55_3:                               @ %join.3.i.i
	movs	r4, #0
	str	r4, [sp, #36]
	str	r3, [sp, #32]
	str	r4, [sp, #28]
	cmp	r2, #0
	bne	.Laes_v6m_BB55_5
@ %bb.4:
	movs	r3, #1
	lsls	r3, r3, #12
	adds	r2, r2, r3
.Laes_v6m_BB55_5:                               @ %join.3.i.i
	str	r2, [sp, #24]
	ldrb	r2, [r1, #12]
	ldrb	r3, [r1, #13]
	lsls	r3, r3, #8
	adds	r2, r3, r2
	ldrb	r3, [r1, #14]
	lsls	r3, r3, #16
	ldrb	r5, [r1, #15]
	lsls	r5, r5, #24
	adds	r3, r5, r3
	adds	r2, r3, r2
	str	r2, [sp, #20]
	ldrb	r2, [r1, #8]
	ldrb	r3, [r1, #9]
	lsls	r3, r3, #8
	adds	r2, r3, r2
	ldrb	r3, [r1, #10]
	lsls	r3, r3, #16
	ldrb	r5, [r1, #11]
	lsls	r5, r5, #24
	adds	r3, r5, r3
	adds	r2, r3, r2
	str	r2, [sp, #16]
	ldrb	r2, [r1, #4]
	ldrb	r3, [r1, #5]
	lsls	r3, r3, #8
	adds	r2, r3, r2
	ldrb	r3, [r1, #6]
	lsls	r3, r3, #16
	ldrb	r5, [r1, #7]
	lsls	r5, r5, #24
	adds	r3, r5, r3
	adds	r2, r3, r2
	str	r2, [sp, #12]
	ldrb	r2, [r1]
	ldrb	r3, [r1, #1]
	lsls	r3, r3, #8
	adds	r2, r3, r2
	ldrb	r3, [r1, #2]
	lsls	r3, r3, #16
	ldrb	r5, [r1, #3]
	lsls	r5, r5, #24
	adds	r3, r5, r3
	adds	r2, r3, r2
	str	r2, [sp, #8]
	add	r5, sp, #8
	str	r5, [sp]
	lsrs	r3, r6, #31
	lsls	r2, r6, #1
	adds	r2, #56
	adcs	r3, r4
	adds	r0, r0, #4
	mov	r6, r1
	bl	aes_v6m.aes_narrow.borrowed_words.call_to_decrypt
	bl	aes_v6m.aes_cipher.zeroize.stack.wipe_stack.2032
	movs	r2, #16
	mov	r0, r6
	mov	r1, r5
	bl	memcpy
	mov	r0, r4
	add	sp, #40
	b	.Laes_v6m_return_27776
.Laes_v6m_return_27776:
	movs	r1, #0
	movs	r2, #0
	movs	r3, #0
	mov	r12, r1
	mov	lr, r1
	pop	{r4, r5, r6, pc}
.Laes_v6m_func_end55:
	.size	aes_v6m.fotsgure_aes_cbc_decrypt, .Laes_v6m_func_end55-aes_v6m.fotsgure_aes_cbc_decrypt
	.cantunwind
	.fnend
                                        @ -- End function
	.section	.text.aes_v6m.fotsgure_aes_wrap,"ax",%progbits
	export_aes_v6m	fotsgure_aes_wrap
	.p2align	1
	.type	aes_v6m.fotsgure_aes_wrap,%function
	.code	16
	.thumb_func
aes_v6m.fotsgure_aes_wrap:                      @ @aes_v6m.fotsgure_aes_wrap
	.fnstart
@ %bb.0:
	.save	{r4, r5, r6, lr}
	push	{r4, r5, r6, lr}
	.pad	#32
	sub	sp, #32
	ldr	r5, [r0]
	cmp	r5, #32
	beq	.Laes_v6m_BB56_3
@ %bb.1:
	movs	r4, #8
	mov	r6, r5
	bics	r6, r4
	cmp	r6, #16
	beq	.Laes_v6m_BB56_3
@ %bb.2:
	movs	r4, #2
	mov	r0, r4
	add	sp, #32
	b	.Laes_v6m_return_27889
.Laes_v6m_BB56_3:                               @ %join.3.i.i
	ldr	r6, [sp, #48]
	movs	r4, #0
	str	r4, [sp, #20]
	adds	r0, r0, #4
	str	r0, [sp, #16]
	lsrs	r0, r5, #31
	lsls	r5, r5, #1
	adds	r5, #56
	str	r5, [sp, #24]
	adcs	r0, r4
	str	r0, [sp, #28]
	str	r6, [sp, #8]
	str	r4, [sp, #12]
	movs	r0, #1
	lsls	r0, r0, #12
	cmp	r3, #0
	bne	.Laes_v6m_BB56_5
@ %bb.4:
	adds	r3, r3, r0
.Laes_v6m_BB56_5:                               @ %join.3.i.i
	str	r3, [sp]
	cmp	r1, #0
	bne	.Laes_v6m_BB56_7
@ %bb.6:
	adds	r1, r1, r0
.Laes_v6m_BB56_7:                               @ %join.3.i.i
	add	r0, sp, #16
	mov	r3, r4
	bl	aes_v6m.key_wrap.wrapping.wrap
	uxtb	r4, r0
	cmp	r4, #0
	beq	.Laes_v6m_BB56_9
@ %bb.8:
	movs	r4, #5
.Laes_v6m_BB56_9:                               @ %join.3.i.i
	bl	aes_v6m.aes_cipher.zeroize.stack.wipe_stack.512
	mov	r0, r4
	add	sp, #32
	b	.Laes_v6m_return_27889
.Laes_v6m_return_27889:
	movs	r1, #0
	movs	r2, #0
	movs	r3, #0
	mov	r12, r1
	mov	lr, r1
	pop	{r4, r5, r6, pc}
.Laes_v6m_func_end56:
	.size	aes_v6m.fotsgure_aes_wrap, .Laes_v6m_func_end56-aes_v6m.fotsgure_aes_wrap
	.cantunwind
	.fnend
                                        @ -- End function
	.section	.text.aes_v6m.fotsgure_aes_unwrap,"ax",%progbits
	export_aes_v6m	fotsgure_aes_unwrap
	.p2align	1
	.type	aes_v6m.fotsgure_aes_unwrap,%function
	.code	16
	.thumb_func
aes_v6m.fotsgure_aes_unwrap:                    @ @aes_v6m.fotsgure_aes_unwrap
	.fnstart
@ %bb.0:
	.save	{r4, r5, r6, lr}
	push	{r4, r5, r6, lr}
	.pad	#32
	sub	sp, #32
	ldr	r5, [r0]
	cmp	r5, #32
	beq	.Laes_v6m_BB57_3
@ %bb.1:
	movs	r4, #8
	mov	r6, r5
	bics	r6, r4
	cmp	r6, #16
	beq	.Laes_v6m_BB57_3
@ %bb.2:
	movs	r4, #2
	mov	r0, r4
	add	sp, #32
	b	.Laes_v6m_return_27968
.Laes_v6m_BB57_3:                               @ %join.3.i.i
	ldr	r6, [sp, #48]
	movs	r4, #0
	str	r4, [sp, #20]
	adds	r0, r0, #4
	str	r0, [sp, #16]
	lsrs	r0, r5, #31
	lsls	r5, r5, #1
	adds	r5, #56
	str	r5, [sp, #24]
	adcs	r0, r4
	str	r0, [sp, #28]
	str	r6, [sp, #8]
	str	r4, [sp, #12]
	movs	r0, #1
	lsls	r0, r0, #12
	cmp	r3, #0
	bne	.Laes_v6m_BB57_5
@ %bb.4:
	adds	r3, r3, r0
.Laes_v6m_BB57_5:                               @ %join.3.i.i
	str	r3, [sp]
	cmp	r1, #0
	bne	.Laes_v6m_BB57_7
@ %bb.6:
	adds	r1, r1, r0
.Laes_v6m_BB57_7:                               @ %join.3.i.i
	add	r0, sp, #16
	mov	r3, r4
	bl	aes_v6m.key_wrap.wrapping.unwrap
	lsls	r1, r1, #24
	beq	.Laes_v6m_BB57_9
@ %bb.8:                                @ %join.3.i.i
	movs	r4, #6
	uxtb	r0, r0
	cmp	r0, #0
	beq	.Laes_v6m_BB57_10
	b	.Laes_v6m_BB57_11
.Laes_v6m_BB57_9:
	movs	r4, #5
	uxtb	r0, r0
	cmp	r0, #0
	bne	.Laes_v6m_BB57_11
.Laes_v6m_BB57_10:                              @ %join.3.i.i
	mov	r4, r0
.Laes_v6m_BB57_11:                              @ %join.3.i.i
	bl	aes_v6m.aes_cipher.zeroize.stack.wipe_stack.512
	mov	r0, r4
	add	sp, #32
	b	.Laes_v6m_return_27968
.Laes_v6m_return_27968:
	movs	r1, #0
	movs	r2, #0
	movs	r3, #0
	mov	r12, r1
	mov	lr, r1
	pop	{r4, r5, r6, pc}
.Laes_v6m_func_end57:
	.size	aes_v6m.fotsgure_aes_unwrap, .Laes_v6m_func_end57-aes_v6m.fotsgure_aes_unwrap
	.cantunwind
	.fnend
                                        @ -- End function
	.section	.text.aes_v6m.fotsgure_aes_wrap_padded,"ax",%progbits
	export_aes_v6m	fotsgure_aes_wrap_padded
	.p2align	1
	.type	aes_v6m.fotsgure_aes_wrap_padded,%function
	.code	16
	.thumb_func
aes_v6m.fotsgure_aes_wrap_padded:               @ @aes_v6m.fotsgure_aes_wrap_padded
	.fnstart
@ %bb.0:
	.save	{r4, r5, r6, lr}
	push	{r4, r5, r6, lr}
	.pad	#32
	sub	sp, #32
	ldr	r5, [r0]
	cmp	r5, #32
	beq	.Laes_v6m_BB58_3
@ %bb.1:
	movs	r4, #8
	mov	r6, r5
	bics	r6, r4
	cmp	r6, #16
	beq	.Laes_v6m_BB58_3
@ %bb.2:
	movs	r4, #2
	mov	r0, r4
	add	sp, #32
	b	.Laes_v6m_return_28057
.Laes_v6m_BB58_3:                               @ %join.3.i.i
	ldr	r6, [sp, #48]
	movs	r4, #0
	str	r4, [sp, #20]
	adds	r0, r0, #4
	str	r0, [sp, #16]
	lsrs	r0, r5, #31
	lsls	r5, r5, #1
	adds	r5, #56
	str	r5, [sp, #24]
	adcs	r0, r4
	str	r0, [sp, #28]
	str	r6, [sp, #8]
	str	r4, [sp, #12]
	movs	r0, #1
	lsls	r0, r0, #12
	cmp	r3, #0
	bne	.Laes_v6m_BB58_5
@ %bb.4:
	adds	r3, r3, r0
.Laes_v6m_BB58_5:                               @ %join.3.i.i
	str	r3, [sp]
	cmp	r1, #0
	bne	.Laes_v6m_BB58_7
@ %bb.6:
	adds	r1, r1, r0
.Laes_v6m_BB58_7:                               @ %join.3.i.i
	add	r0, sp, #16
	mov	r3, r4
	bl	aes_v6m.key_wrap.padded.wrap_padded
	uxtb	r4, r0
	cmp	r4, #0
	beq	.Laes_v6m_BB58_9
@ %bb.8:
	movs	r4, #5
.Laes_v6m_BB58_9:                               @ %join.3.i.i
	bl	aes_v6m.aes_cipher.zeroize.stack.wipe_stack.512
	mov	r0, r4
	add	sp, #32
	b	.Laes_v6m_return_28057
.Laes_v6m_return_28057:
	movs	r1, #0
	movs	r2, #0
	movs	r3, #0
	mov	r12, r1
	mov	lr, r1
	pop	{r4, r5, r6, pc}
.Laes_v6m_func_end58:
	.size	aes_v6m.fotsgure_aes_wrap_padded, .Laes_v6m_func_end58-aes_v6m.fotsgure_aes_wrap_padded
	.cantunwind
	.fnend
                                        @ -- End function
	.section	.text.aes_v6m.fotsgure_aes_unwrap_padded,"ax",%progbits
	export_aes_v6m	fotsgure_aes_unwrap_padded
	.p2align	1
	.type	aes_v6m.fotsgure_aes_unwrap_padded,%function
	.code	16
	.thumb_func
aes_v6m.fotsgure_aes_unwrap_padded:             @ @aes_v6m.fotsgure_aes_unwrap_padded
	.fnstart
@ %bb.0:
	.save	{r4, r5, r6, r7, lr}
	push	{r4, r5, r6, r7, lr}
	.pad	#60
	sub	sp, #60
	mov	r4, r1
	movs	r6, #0
	str	r6, [sp, #52]
	str	r6, [sp, #48]
	ldr	r7, [r0]
	ldr	r1, [sp, #84]
	str	r1, [sp, #28]                   @ 4-byte Spill
	cmp	r7, #32
	beq	.Laes_v6m_BB59_3
@ %bb.1:
	movs	r5, #8
	mov	r1, r7
	bics	r1, r5
	cmp	r1, #16
	beq	.Laes_v6m_BB59_3
@ %bb.2:
	movs	r0, #2
	ldr	r1, [sp, #28]                   @ 4-byte Reload
	str	r6, [r1]
	add	sp, #60
	b	.Laes_v6m_return_28143
.Laes_v6m_BB59_3:                               @ %join.3.i.i
	ldr	r1, [sp, #80]
	str	r6, [sp, #36]
	adds	r0, r0, #4
	str	r0, [sp, #32]
	lsrs	r0, r7, #31
	lsls	r5, r7, #1
	adds	r5, #56
	str	r5, [sp, #40]
	adcs	r0, r6
	str	r0, [sp, #44]
	str	r1, [sp, #16]
	str	r6, [sp, #20]
	movs	r0, #1
	lsls	r0, r0, #12
	cmp	r3, #0
	bne	.Laes_v6m_BB59_5
@ %bb.4:
	adds	r3, r3, r0
.Laes_v6m_BB59_5:                               @ %join.3.i.i
	str	r2, [sp]
	str	r6, [sp, #4]
	str	r3, [sp, #8]
	cmp	r4, #0
	bne	.Laes_v6m_BB59_7
@ %bb.6:
	adds	r4, r4, r0
.Laes_v6m_BB59_7:                               @ %join.3.i.i
	add	r5, sp, #48
	add	r1, sp, #32
	mov	r0, r5
	mov	r2, r4
	bl	aes_v6m.key_wrap.padded.unwrap_padded
	bl	aes_v6m.aes_cipher.zeroize.stack.wipe_stack.512
	ldrb	r0, [r5]
	cmp	r0, #0
	beq	.Laes_v6m_BB59_10
@ %bb.8:                                @ %arm.5.i.i
	add	r0, sp, #48
	ldrb	r0, [r0, #1]
	cmp	r0, #0
	beq	.Laes_v6m_BB59_11
@ %bb.9:                                @ %arm.5.i.i
	movs	r0, #6
	ldr	r1, [sp, #28]                   @ 4-byte Reload
	str	r6, [r1]
	add	sp, #60
	b	.Laes_v6m_return_28143
.Laes_v6m_BB59_10:                              @ %arm.4.i.i
	movs	r0, #0
	ldr	r6, [sp, #52]
	ldr	r1, [sp, #28]                   @ 4-byte Reload
	str	r6, [r1]
	add	sp, #60
	b	.Laes_v6m_return_28143
.Laes_v6m_BB59_11:
	movs	r0, #5
	ldr	r1, [sp, #28]                   @ 4-byte Reload
	str	r6, [r1]
	add	sp, #60
	b	.Laes_v6m_return_28143
.Laes_v6m_return_28143:
	movs	r1, #0
	movs	r2, #0
	movs	r3, #0
	mov	r12, r1
	mov	lr, r1
	pop	{r4, r5, r6, r7, pc}
.Laes_v6m_func_end59:
	.size	aes_v6m.fotsgure_aes_unwrap_padded, .Laes_v6m_func_end59-aes_v6m.fotsgure_aes_unwrap_padded
	.cantunwind
	.fnend
                                        @ -- End function
	.section	.text.aes_v6m.fotsgure_aes_cmac,"ax",%progbits
	export_aes_v6m	fotsgure_aes_cmac
	.p2align	1
	.type	aes_v6m.fotsgure_aes_cmac,%function
	.code	16
	.thumb_func
aes_v6m.fotsgure_aes_cmac:                      @ @aes_v6m.fotsgure_aes_cmac
	.fnstart
@ %bb.0:
	.save	{r4, r5, r6, lr}
	push	{r4, r5, r6, lr}
	.pad	#40
	sub	sp, #40
	mov	r4, r3
	mov	r3, r1
	ldr	r1, [r0]
	cmp	r1, #32
	beq	.Laes_v6m_BB60_3
@ %bb.1:
	movs	r5, #8
	mov	r6, r1
	bics	r6, r5
	cmp	r6, #16
	beq	.Laes_v6m_BB60_3
@ %bb.2:
	movs	r5, #2
	mov	r0, r5
	add	sp, #40
	b	.Laes_v6m_return_28245
.Laes_v6m_BB60_3:                               @ %join.3.i.i
	movs	r5, #0
	str	r5, [sp, #12]
	adds	r0, r0, #4
	str	r0, [sp, #8]
	lsrs	r0, r1, #31
	lsls	r1, r1, #1
	adds	r1, #56
	str	r1, [sp, #16]
	adcs	r0, r5
	str	r0, [sp, #20]
	str	r2, [sp]
	str	r5, [sp, #4]
	cmp	r3, #0
	bne	.Laes_v6m_BB60_5
@ %bb.4:
	movs	r0, #1
	lsls	r0, r0, #12
	adds	r3, r3, r0
.Laes_v6m_BB60_5:                               @ %join.3.i.i
	add	r6, sp, #24
	add	r1, sp, #8
	mov	r0, r6
	mov	r2, r3
	bl	aes_v6m.cmac.tags.tag
	movs	r2, #16
	mov	r0, r4
	mov	r1, r6
	bl	memcpy
	bl	aes_v6m.aes_cipher.zeroize.stack.wipe_stack.768
	mov	r0, r5
	add	sp, #40
	b	.Laes_v6m_return_28245
.Laes_v6m_return_28245:
	movs	r1, #0
	movs	r2, #0
	movs	r3, #0
	mov	r12, r1
	mov	lr, r1
	pop	{r4, r5, r6, pc}
.Laes_v6m_func_end60:
	.size	aes_v6m.fotsgure_aes_cmac, .Laes_v6m_func_end60-aes_v6m.fotsgure_aes_cmac
	.cantunwind
	.fnend
                                        @ -- End function
	.section	.text.aes_v6m.fotsgure_aes_cmac_verify,"ax",%progbits
	export_aes_v6m	fotsgure_aes_cmac_verify
	.p2align	1
	.type	aes_v6m.fotsgure_aes_cmac_verify,%function
	.code	16
	.thumb_func
aes_v6m.fotsgure_aes_cmac_verify:               @ @aes_v6m.fotsgure_aes_cmac_verify
	.fnstart
@ %bb.0:
	.save	{r4, r5, r6, lr}
	push	{r4, r5, r6, lr}
	.pad	#32
	sub	sp, #32
	movs	r4, #1
	lsls	r4, r4, #12
	cmp	r3, #0
	beq	.Laes_v6m_BB61_3
@ %bb.1:
	cmp	r1, #0
	beq	.Laes_v6m_BB61_4
.Laes_v6m_BB61_2:
	ldr	r5, [r0]
	cmp	r5, #32
	bne	.Laes_v6m_BB61_5
	b	.Laes_v6m_BB61_7
.Laes_v6m_BB61_3:
	adds	r3, r3, r4
	cmp	r1, #0
	bne	.Laes_v6m_BB61_2
.Laes_v6m_BB61_4:
	adds	r1, r1, r4
	ldr	r5, [r0]
	cmp	r5, #32
	beq	.Laes_v6m_BB61_7
.Laes_v6m_BB61_5:
	movs	r4, #8
	mov	r6, r5
	bics	r6, r4
	cmp	r6, #16
	beq	.Laes_v6m_BB61_7
@ %bb.6:
	movs	r0, #2
	add	sp, #32
	b	.Laes_v6m_return_28334
.Laes_v6m_BB61_7:                               @ %join.3.i.i
	ldr	r6, [sp, #48]
	subs	r4, r6, #4
	cmp	r4, #12
	bhi	.Laes_v6m_BB61_11
@ %bb.8:                                @ %join.6.i.i
	movs	r4, #0
	str	r4, [sp, #20]
	adds	r0, r0, #4
	str	r0, [sp, #16]
	lsrs	r0, r5, #31
	lsls	r5, r5, #1
	adds	r5, #56
	str	r5, [sp, #24]
	adcs	r0, r4
	str	r0, [sp, #28]
	str	r6, [sp, #8]
	str	r4, [sp, #12]
	str	r3, [sp]
	add	r0, sp, #16
	mov	r5, r4
	mov	r3, r4
	bl	aes_v6m.cmac.tags.is_tag_start
	cmp	r0, #0
	bne	.Laes_v6m_BB61_10
@ %bb.9:                                @ %join.6.i.i
	movs	r5, #6
.Laes_v6m_BB61_10:                              @ %join.6.i.i
	bl	aes_v6m.aes_cipher.zeroize.stack.wipe_stack.768
	mov	r0, r5
	add	sp, #32
	b	.Laes_v6m_return_28334
.Laes_v6m_BB61_11:
	movs	r0, #7
	add	sp, #32
	b	.Laes_v6m_return_28334
.Laes_v6m_return_28334:
	movs	r1, #0
	movs	r2, #0
	movs	r3, #0
	mov	r12, r1
	mov	lr, r1
	pop	{r4, r5, r6, pc}
.Laes_v6m_func_end61:
	.size	aes_v6m.fotsgure_aes_cmac_verify, .Laes_v6m_func_end61-aes_v6m.fotsgure_aes_cmac_verify
	.cantunwind
	.fnend
                                        @ -- End function
	.section	.text.aes_v6m.fotsgure_aes_cmac_begin,"ax",%progbits
	export_aes_v6m	fotsgure_aes_cmac_begin
	.p2align	2
	.type	aes_v6m.fotsgure_aes_cmac_begin,%function
	.code	16
	.thumb_func
aes_v6m.fotsgure_aes_cmac_begin:                @ @aes_v6m.fotsgure_aes_cmac_begin
	.fnstart
@ %bb.0:
	.save	{r4, r5, r6, lr}
	push	{r4, r5, r6, lr}
	ldr	r0, [r0]
	subs	r0, #16
	movs	r5, #2
	cmp	r0, #16
	bhi	.Laes_v6m_BB62_3
@ %bb.1:
	mov	r4, r1
	movs	r6, #1
	mov	r1, r6
	lsls	r1, r0
	ldr	r0, .Laes_v6m_CPI62_0
	tst	r1, r0
	beq	.Laes_v6m_BB62_3
@ %bb.2:                                @ %join.3.i.i
	mov	r0, r4
	adds	r0, #8
	movs	r5, #0
	movs	r2, #40
	mov	r1, r5
	bl	memset
	str	r6, [r4]
	str	r5, [r4, #4]
.Laes_v6m_BB62_3:                               @ %wide_fotsgure_aes_cmac_begin.exit
	mov	r0, r5
	b	.Laes_v6m_return_28418
	.p2align	2
@ %bb.4:
.Laes_v6m_CPI62_0:
	.long	65793                           @ 0x10101
.Laes_v6m_return_28418:
	movs	r1, #0
	movs	r2, #0
	movs	r3, #0
	mov	r12, r1
	mov	lr, r1
	pop	{r4, r5, r6, pc}
.Laes_v6m_func_end62:
	.size	aes_v6m.fotsgure_aes_cmac_begin, .Laes_v6m_func_end62-aes_v6m.fotsgure_aes_cmac_begin
	.cantunwind
	.fnend
                                        @ -- End function
	.section	.text.aes_v6m.fotsgure_aes_cmac_update,"ax",%progbits
	export_aes_v6m	fotsgure_aes_cmac_update
	.p2align	1
	.type	aes_v6m.fotsgure_aes_cmac_update,%function
	.code	16
	.thumb_func
aes_v6m.fotsgure_aes_cmac_update:               @ @aes_v6m.fotsgure_aes_cmac_update
	.fnstart
@ %bb.0:
	.save	{r4, r5, r6, r7, lr}
	push	{r4, r5, r6, r7, lr}
	.pad	#28
	sub	sp, #28
	movs	r5, #1
	cmp	r2, #0
	bne	.Laes_v6m_BB63_2
@ %bb.1:
	lsls	r4, r5, #12
	adds	r2, r2, r4
.Laes_v6m_BB63_2:
	ldr	r4, [r0]
	cmp	r4, #32
	beq	.Laes_v6m_BB63_5
@ %bb.3:
	movs	r6, #8
	mov	r7, r4
	bics	r7, r6
	cmp	r7, #16
	beq	.Laes_v6m_BB63_5
@ %bb.4:
	movs	r4, #2
	mov	r0, r4
	add	sp, #28
	b	.Laes_v6m_return_28468
.Laes_v6m_BB63_5:                               @ %join.3.i.i
	adds	r0, r0, #4
	str	r0, [sp, #8]
	lsrs	r0, r4, #31
	lsls	r6, r4, #1
	movs	r4, #0
	adds	r6, #56
	str	r6, [sp, #16]
	str	r4, [sp, #12]
	adcs	r0, r4
	str	r0, [sp, #20]
	ldm	r1!, {r0, r6}
	eors	r0, r5
	subs	r1, #8
	orrs	r0, r6
	bne	.Laes_v6m_BB63_7
@ %bb.6:                                @ %join.3.i.i.i
	str	r3, [sp]
	str	r4, [sp, #4]
	adds	r1, #8
	add	r3, sp, #8
	mov	r0, r1
	mov	r1, r3
	bl	aes_v6m.cmac.chain_in_pieces.ChainInPieces.extend
	bl	aes_v6m.aes_cipher.zeroize.stack.wipe_stack.768
	mov	r0, r4
	add	sp, #28
	b	.Laes_v6m_return_28468
.Laes_v6m_BB63_7:
	movs	r4, #10
	bl	aes_v6m.aes_cipher.zeroize.stack.wipe_stack.768
	mov	r0, r4
	add	sp, #28
	b	.Laes_v6m_return_28468
.Laes_v6m_return_28468:
	movs	r1, #0
	movs	r2, #0
	movs	r3, #0
	mov	r12, r1
	mov	lr, r1
	pop	{r4, r5, r6, r7, pc}
.Laes_v6m_func_end63:
	.size	aes_v6m.fotsgure_aes_cmac_update, .Laes_v6m_func_end63-aes_v6m.fotsgure_aes_cmac_update
	.cantunwind
	.fnend
                                        @ -- End function
	.section	.text.aes_v6m.fotsgure_aes_cmac_finish,"ax",%progbits
	export_aes_v6m	fotsgure_aes_cmac_finish
	.p2align	1
	.type	aes_v6m.fotsgure_aes_cmac_finish,%function
	.code	16
	.thumb_func
aes_v6m.fotsgure_aes_cmac_finish:               @ @aes_v6m.fotsgure_aes_cmac_finish
	.fnstart
@ %bb.0:
	.save	{r4, r5, r6, r7, lr}
	push	{r4, r5, r6, r7, lr}
	.pad	#52
	sub	sp, #52
	ldr	r3, [r0]
	cmp	r3, #32
	beq	.Laes_v6m_BB64_3
@ %bb.1:
	movs	r4, #8
	mov	r5, r3
	bics	r5, r4
	cmp	r5, #16
	beq	.Laes_v6m_BB64_3
@ %bb.2:
	movs	r0, #2
	add	sp, #52
	b	.Laes_v6m_return_28540
.Laes_v6m_BB64_3:                               @ %join.3.i.i
	adds	r0, r0, #4
	str	r0, [sp, #16]
	lsrs	r4, r3, #31
	lsls	r3, r3, #1
	movs	r0, #0
	adds	r3, #56
	str	r3, [sp, #24]
	str	r0, [sp, #20]
	adcs	r4, r0
	str	r4, [sp, #28]
	ldm	r1!, {r3, r4}
	movs	r5, #1
	eors	r5, r3
	subs	r1, #8
	orrs	r5, r4
	bne	.Laes_v6m_BB64_9
@ %bb.4:                                @ %arm.4.i.i
	ldr	r3, [r1, #8]
	ldr	r5, [r1, #12]
	str	r0, [sp, #4]
	movs	r4, #16
	cmp	r3, #16
	blo	.Laes_v6m_BB64_6
@ %bb.5:                                @ %arm.4.i.i
	mov	r3, r4
.Laes_v6m_BB64_6:                               @ %arm.4.i.i
	str	r0, [sp, #8]                    @ 4-byte Spill
	str	r2, [sp, #12]                   @ 4-byte Spill
	cmp	r5, #0
	beq	.Laes_v6m_BB64_8
@ %bb.7:                                @ %arm.4.i.i
	mov	r3, r4
.Laes_v6m_BB64_8:                               @ %arm.4.i.i
	str	r3, [sp]
	mov	r2, r1
	adds	r2, #16
	mov	r3, r1
	adds	r3, #32
	add	r6, sp, #36
	add	r7, sp, #16
	mov	r0, r6
	mov	r5, r1
	mov	r1, r7
	bl	aes_v6m.cmac.tags.tag_at_end
	mov	r0, r5
	bl	aes_v6m.cmac.pieces.MessageZeroize.zeroize
	bl	aes_v6m.aes_cipher.zeroize.stack.wipe_stack.768
	ldr	r0, [sp, #12]                   @ 4-byte Reload
	mov	r1, r6
	mov	r2, r4
	bl	memcpy
	ldr	r0, [sp, #8]                    @ 4-byte Reload
	add	sp, #52
	b	.Laes_v6m_return_28540
.Laes_v6m_BB64_9:                               @ %"cmac::pieces::Message::finish::<#4f733d09d7f6c6b4>.exit.i.i"
	bl	aes_v6m.aes_cipher.zeroize.stack.wipe_stack.768
	movs	r0, #10
	add	sp, #52
	b	.Laes_v6m_return_28540
.Laes_v6m_return_28540:
	movs	r1, #0
	movs	r2, #0
	movs	r3, #0
	mov	r12, r1
	mov	lr, r1
	pop	{r4, r5, r6, r7, pc}
.Laes_v6m_func_end64:
	.size	aes_v6m.fotsgure_aes_cmac_finish, .Laes_v6m_func_end64-aes_v6m.fotsgure_aes_cmac_finish
	.cantunwind
	.fnend
                                        @ -- End function
	.section	.text.aes_v6m.fotsgure_aes_cmac_accept,"ax",%progbits
	export_aes_v6m	fotsgure_aes_cmac_accept
	.p2align	1
	.type	aes_v6m.fotsgure_aes_cmac_accept,%function
	.code	16
	.thumb_func
aes_v6m.fotsgure_aes_cmac_accept:               @ @aes_v6m.fotsgure_aes_cmac_accept
	.fnstart
@ %bb.0:
	.save	{r4, r5, r6, r7, lr}
	push	{r4, r5, r6, r7, lr}
	.pad	#28
	sub	sp, #28
	movs	r4, #1
	cmp	r2, #0
	bne	.Laes_v6m_BB65_2
@ %bb.1:
	lsls	r5, r4, #12
	adds	r2, r2, r5
.Laes_v6m_BB65_2:
	ldr	r5, [r0]
	cmp	r5, #32
	beq	.Laes_v6m_BB65_5
@ %bb.3:
	movs	r6, #8
	mov	r7, r5
	bics	r7, r6
	cmp	r7, #16
	beq	.Laes_v6m_BB65_5
@ %bb.4:
	movs	r0, #2
	add	sp, #28
	b	.Laes_v6m_return_28645
.Laes_v6m_BB65_5:                               @ %join.3.i.i
	subs	r6, r3, #4
	cmp	r6, #12
	bhi	.Laes_v6m_BB65_9
@ %bb.6:                                @ %join.6.i.i
	adds	r0, r0, #4
	str	r0, [sp, #8]
	lsrs	r6, r5, #31
	lsls	r5, r5, #1
	movs	r0, #0
	adds	r5, #56
	str	r5, [sp, #16]
	str	r0, [sp, #12]
	adcs	r6, r0
	str	r6, [sp, #20]
	ldm	r1!, {r5, r6}
	eors	r5, r4
	subs	r1, #8
	orrs	r5, r6
	bne	.Laes_v6m_BB65_10
@ %bb.7:                                @ %join.3.i.i.i
	str	r3, [sp]
	mov	r5, r0
	str	r0, [sp, #4]
	add	r3, sp, #8
	mov	r4, r1
	mov	r0, r1
	mov	r1, r3
	bl	aes_v6m.cmac.pieces.Message.is_tag_so_far
	cmp	r0, #0
	beq	.Laes_v6m_BB65_11
@ %bb.8:                                @ %join.7.i.i.i
	mov	r0, r4
	bl	aes_v6m.cmac.pieces.MessageZeroize.zeroize
	bl	aes_v6m.aes_cipher.zeroize.stack.wipe_stack.768
	mov	r0, r5
	add	sp, #28
	b	.Laes_v6m_return_28645
.Laes_v6m_BB65_9:
	movs	r0, #7
	add	sp, #28
	b	.Laes_v6m_return_28645
.Laes_v6m_BB65_10:
	movs	r5, #10
	bl	aes_v6m.aes_cipher.zeroize.stack.wipe_stack.768
	mov	r0, r5
	add	sp, #28
	b	.Laes_v6m_return_28645
.Laes_v6m_BB65_11:
	movs	r5, #6
	bl	aes_v6m.aes_cipher.zeroize.stack.wipe_stack.768
	mov	r0, r5
	add	sp, #28
	b	.Laes_v6m_return_28645
.Laes_v6m_return_28645:
	movs	r1, #0
	movs	r2, #0
	movs	r3, #0
	mov	r12, r1
	mov	lr, r1
	pop	{r4, r5, r6, r7, pc}
.Laes_v6m_func_end65:
	.size	aes_v6m.fotsgure_aes_cmac_accept, .Laes_v6m_func_end65-aes_v6m.fotsgure_aes_cmac_accept
	.cantunwind
	.fnend
                                        @ -- End function
	.section	.text.aes_v6m.fotsgure_aes_cmac_wipe,"ax",%progbits
	export_aes_v6m	fotsgure_aes_cmac_wipe
	.p2align	1
	.type	aes_v6m.fotsgure_aes_cmac_wipe,%function
	.code	16
	.thumb_func
aes_v6m.fotsgure_aes_cmac_wipe:                 @ @aes_v6m.fotsgure_aes_cmac_wipe
	.fnstart
@ %bb.0:
	.save	{r4, lr}
	push	{r4, lr}
	mov	r4, r0
	movs	r1, #0
	movs	r2, #48
	bl	memset
	mov	r0, r4
	bl	aes_v6m.cmac.pieces.MessageZeroize.zeroize
	b	.Laes_v6m_return_28729
.Laes_v6m_return_28729:
	movs	r1, #0
	movs	r2, #0
	movs	r3, #0
	mov	r12, r1
	mov	lr, r1
	pop	{r4, pc}
.Laes_v6m_func_end66:
	.size	aes_v6m.fotsgure_aes_cmac_wipe, .Laes_v6m_func_end66-aes_v6m.fotsgure_aes_cmac_wipe
	.cantunwind
	.fnend
                                        @ -- End function
	.section	.text.aes_v6m.fotsgure_aes_ccm_seal,"ax",%progbits
	export_aes_v6m	fotsgure_aes_ccm_seal
	.p2align	1
	.type	aes_v6m.fotsgure_aes_ccm_seal,%function
	.code	16
	.thumb_func
aes_v6m.fotsgure_aes_ccm_seal:                  @ @aes_v6m.fotsgure_aes_ccm_seal
	.fnstart
@ %bb.0:
	.save	{r4, r5, r6, r7, lr}
	push	{r4, r5, r6, r7, lr}
	.pad	#76
	sub	sp, #76
	ldr	r7, [r0]
	cmp	r7, #32
	beq	.Laes_v6m_BB67_4
@ %bb.1:
	movs	r5, #8
	mov	r4, r7
	bics	r4, r5
	cmp	r4, #16
	beq	.Laes_v6m_BB67_4
@ %bb.2:
	movs	r4, #2
.Laes_v6m_BB67_3:                               @ %wide_fotsgure_aes_ccm_seal.exit
	mov	r0, r4
	add	sp, #76
	b	.Laes_v6m_return_28769
.Laes_v6m_BB67_4:                               @ %join.3.i.i
	str	r2, [sp, #52]                   @ 4-byte Spill
	ldr	r2, [sp, #112]
	ldr	r6, [sp, #108]
	ldr	r4, [sp, #104]
	str	r4, [sp, #48]                   @ 4-byte Spill
	ldr	r5, [sp, #100]
	movs	r4, #0
	str	r4, [sp, #60]
	adds	r0, r0, #4
	str	r0, [sp, #56]
	lsrs	r0, r7, #31
	lsls	r7, r7, #1
	adds	r7, #56
	str	r7, [sp, #64]
	adcs	r0, r4
	str	r0, [sp, #68]
	str	r2, [sp, #40]
	str	r4, [sp, #44]
	movs	r0, #1
	lsls	r0, r0, #12
	cmp	r6, #0
	bne	.Laes_v6m_BB67_6
@ %bb.5:
	adds	r6, r6, r0
.Laes_v6m_BB67_6:                               @ %join.3.i.i
	ldr	r2, [sp, #96]
	ldr	r7, [sp, #48]                   @ 4-byte Reload
	str	r7, [sp, #24]
	str	r4, [sp, #28]
	str	r6, [sp, #32]
	cmp	r5, #0
	beq	.Laes_v6m_BB67_12
@ %bb.7:                                @ %join.3.i.i
	add	r6, sp, #8
	stm	r6!, {r2, r4, r5}
	cmp	r3, #0
	beq	.Laes_v6m_BB67_13
.Laes_v6m_BB67_8:                               @ %join.3.i.i
	ldr	r2, [sp, #52]                   @ 4-byte Reload
	str	r3, [sp]
	cmp	r1, #0
	bne	.Laes_v6m_BB67_10
.Laes_v6m_BB67_9:
	adds	r1, r1, r0
.Laes_v6m_BB67_10:                              @ %join.3.i.i
	add	r0, sp, #56
	mov	r3, r4
	bl	aes_v6m.ccm.mode.encrypt
	mov	r5, r1
	lsls	r6, r0, #24
	bl	aes_v6m.aes_cipher.zeroize.stack.wipe_stack.1024
	cmp	r6, #0
	beq	.Laes_v6m_BB67_3
@ %bb.11:                               @ %arm.5.i.i
	uxtb	r0, r5
	adds	r4, r0, #7
	mov	r0, r4
	add	sp, #76
	b	.Laes_v6m_return_28769
.Laes_v6m_BB67_12:
	adds	r5, r5, r0
	add	r6, sp, #8
	stm	r6!, {r2, r4, r5}
	cmp	r3, #0
	bne	.Laes_v6m_BB67_8
.Laes_v6m_BB67_13:
	adds	r3, r3, r0
	ldr	r2, [sp, #52]                   @ 4-byte Reload
	str	r3, [sp]
	cmp	r1, #0
	beq	.Laes_v6m_BB67_9
	b	.Laes_v6m_BB67_10
.Laes_v6m_return_28769:
	movs	r1, #0
	movs	r2, #0
	movs	r3, #0
	mov	r12, r1
	mov	lr, r1
	pop	{r4, r5, r6, r7, pc}
.Laes_v6m_func_end67:
	.size	aes_v6m.fotsgure_aes_ccm_seal, .Laes_v6m_func_end67-aes_v6m.fotsgure_aes_ccm_seal
	.cantunwind
	.fnend
                                        @ -- End function
	.section	.text.aes_v6m.fotsgure_aes_ccm_open,"ax",%progbits
	export_aes_v6m	fotsgure_aes_ccm_open
	.p2align	1
	.type	aes_v6m.fotsgure_aes_ccm_open,%function
	.code	16
	.thumb_func
aes_v6m.fotsgure_aes_ccm_open:                  @ @aes_v6m.fotsgure_aes_ccm_open
	.fnstart
@ %bb.0:
	.save	{r4, r5, r6, r7, lr}
	push	{r4, r5, r6, r7, lr}
	.pad	#84
	sub	sp, #84
	mov	r5, r1
	ldr	r7, [r0]
	cmp	r7, #32
	beq	.Laes_v6m_BB68_4
@ %bb.1:
	movs	r1, #8
	mov	r4, r7
	bics	r4, r1
	cmp	r4, #16
	beq	.Laes_v6m_BB68_4
@ %bb.2:
	movs	r4, #2
.Laes_v6m_BB68_3:                               @ %wide_fotsgure_aes_ccm_open.exit
	mov	r0, r4
	add	sp, #84
	b	.Laes_v6m_return_28883
.Laes_v6m_BB68_4:                               @ %join.3.i.i
	str	r2, [sp, #60]                   @ 4-byte Spill
	ldr	r2, [sp, #120]
	ldr	r6, [sp, #116]
	ldr	r1, [sp, #112]
	str	r1, [sp, #56]                   @ 4-byte Spill
	ldr	r1, [sp, #108]
	movs	r4, #0
	str	r4, [sp, #68]
	adds	r0, r0, #4
	str	r0, [sp, #64]
	lsrs	r0, r7, #31
	lsls	r7, r7, #1
	adds	r7, #56
	str	r7, [sp, #72]
	adcs	r0, r4
	str	r0, [sp, #76]
	str	r2, [sp, #48]
	str	r4, [sp, #52]
	movs	r0, #1
	lsls	r0, r0, #12
	cmp	r6, #0
	bne	.Laes_v6m_BB68_6
@ %bb.5:
	adds	r6, r6, r0
.Laes_v6m_BB68_6:                               @ %join.3.i.i
	ldr	r2, [sp, #104]
	ldr	r7, [sp, #56]                   @ 4-byte Reload
	str	r7, [sp, #32]
	str	r4, [sp, #36]
	str	r6, [sp, #40]
	cmp	r1, #0
	bne	.Laes_v6m_BB68_8
@ %bb.7:
	adds	r1, r1, r0
.Laes_v6m_BB68_8:                               @ %join.3.i.i
	str	r2, [sp, #16]
	str	r4, [sp, #20]
	str	r1, [sp, #24]
	cmp	r3, #0
	bne	.Laes_v6m_BB68_10
@ %bb.9:
	adds	r3, r3, r0
.Laes_v6m_BB68_10:                              @ %join.3.i.i
	ldr	r1, [sp, #60]                   @ 4-byte Reload
	str	r1, [sp]
	str	r4, [sp, #4]
	str	r3, [sp, #8]
	cmp	r5, #0
	bne	.Laes_v6m_BB68_12
@ %bb.11:
	adds	r5, r5, r0
.Laes_v6m_BB68_12:                              @ %join.3.i.i
	add	r6, sp, #80
	add	r1, sp, #64
	mov	r0, r6
	mov	r2, r5
	bl	aes_v6m.ccm.mode.decrypt
	bl	aes_v6m.aes_cipher.zeroize.stack.wipe_stack.1024
	ldrb	r0, [r6]
	cmp	r0, #0
	beq	.Laes_v6m_BB68_3
@ %bb.13:                               @ %arm.5.i.i
	add	r0, sp, #80
	ldrb	r0, [r0, #1]
	cmp	r0, #0
	beq	.Laes_v6m_BB68_15
@ %bb.14:
	movs	r4, #6
	mov	r0, r4
	add	sp, #84
	b	.Laes_v6m_return_28883
.Laes_v6m_BB68_15:                              @ %arm.8.i.i
	add	r0, sp, #80
	ldrb	r0, [r0, #2]
	adds	r4, r0, #7
	mov	r0, r4
	add	sp, #84
	b	.Laes_v6m_return_28883
.Laes_v6m_return_28883:
	movs	r1, #0
	movs	r2, #0
	movs	r3, #0
	mov	r12, r1
	mov	lr, r1
	pop	{r4, r5, r6, r7, pc}
.Laes_v6m_func_end68:
	.size	aes_v6m.fotsgure_aes_ccm_open, .Laes_v6m_func_end68-aes_v6m.fotsgure_aes_ccm_open
	.cantunwind
	.fnend
                                        @ -- End function
	.section	.text.aes_v6m.fotsgure_aes_cipher_round,"ax",%progbits
	export_aes_v6m	fotsgure_aes_cipher_round
	.p2align	1
	.type	aes_v6m.fotsgure_aes_cipher_round,%function
	.code	16
	.thumb_func
aes_v6m.fotsgure_aes_cipher_round:              @ @aes_v6m.fotsgure_aes_cipher_round
	.fnstart
@ %bb.0:
	.save	{r7, lr}
	push	{r7, lr}
	bl	aes_v6m.aes_c.single_rounds.round
	bl	aes_v6m.aes_cipher.zeroize.stack.wipe_stack.512
	b	.Laes_v6m_return_28988
.Laes_v6m_return_28988:
	movs	r1, #0
	movs	r2, #0
	movs	r3, #0
	mov	r12, r1
	mov	lr, r1
	pop	{r7, pc}
.Laes_v6m_func_end69:
	.size	aes_v6m.fotsgure_aes_cipher_round, .Laes_v6m_func_end69-aes_v6m.fotsgure_aes_cipher_round
	.cantunwind
	.fnend
                                        @ -- End function
	.section	.text.aes_v6m.fotsgure_aes_equiv_inv_cipher_round,"ax",%progbits
	export_aes_v6m	fotsgure_aes_equiv_inv_cipher_round
	.p2align	1
	.type	aes_v6m.fotsgure_aes_equiv_inv_cipher_round,%function
	.code	16
	.thumb_func
aes_v6m.fotsgure_aes_equiv_inv_cipher_round:    @ @aes_v6m.fotsgure_aes_equiv_inv_cipher_round
	.fnstart
@ %bb.0:
	.save	{r7, lr}
	push	{r7, lr}
	bl	aes_v6m.aes_c.single_rounds.inverse_round
	bl	aes_v6m.aes_cipher.zeroize.stack.wipe_stack.512
	b	.Laes_v6m_return_29014
.Laes_v6m_return_29014:
	movs	r1, #0
	movs	r2, #0
	movs	r3, #0
	mov	r12, r1
	mov	lr, r1
	pop	{r7, pc}
.Laes_v6m_func_end70:
	.size	aes_v6m.fotsgure_aes_equiv_inv_cipher_round, .Laes_v6m_func_end70-aes_v6m.fotsgure_aes_equiv_inv_cipher_round
	.cantunwind
	.fnend
                                        @ -- End function
	.section	.text.aes_v6m.fotsgure_aes_cipher_round_par,"ax",%progbits
	export_aes_v6m	fotsgure_aes_cipher_round_par
	.p2align	1
	.type	aes_v6m.fotsgure_aes_cipher_round_par,%function
	.code	16
	.thumb_func
aes_v6m.fotsgure_aes_cipher_round_par:          @ @aes_v6m.fotsgure_aes_cipher_round_par
	.fnstart
@ %bb.0:
	.save	{r7, lr}
	push	{r7, lr}
	bl	aes_v6m.aes_c.single_rounds.rounds
	bl	aes_v6m.aes_cipher.zeroize.stack.wipe_stack.512
	b	.Laes_v6m_return_29040
.Laes_v6m_return_29040:
	movs	r1, #0
	movs	r2, #0
	movs	r3, #0
	mov	r12, r1
	mov	lr, r1
	pop	{r7, pc}
.Laes_v6m_func_end71:
	.size	aes_v6m.fotsgure_aes_cipher_round_par, .Laes_v6m_func_end71-aes_v6m.fotsgure_aes_cipher_round_par
	.cantunwind
	.fnend
                                        @ -- End function
	.section	.text.aes_v6m.fotsgure_aes_equiv_inv_cipher_round_par,"ax",%progbits
	export_aes_v6m	fotsgure_aes_equiv_inv_cipher_round_par
	.p2align	1
	.type	aes_v6m.fotsgure_aes_equiv_inv_cipher_round_par,%function
	.code	16
	.thumb_func
aes_v6m.fotsgure_aes_equiv_inv_cipher_round_par: @ @aes_v6m.fotsgure_aes_equiv_inv_cipher_round_par
	.fnstart
@ %bb.0:
	.save	{r7, lr}
	push	{r7, lr}
	bl	aes_v6m.aes_c.single_rounds.inverse_rounds
	bl	aes_v6m.aes_cipher.zeroize.stack.wipe_stack.512
	b	.Laes_v6m_return_29066
.Laes_v6m_return_29066:
	movs	r1, #0
	movs	r2, #0
	movs	r3, #0
	mov	r12, r1
	mov	lr, r1
	pop	{r7, pc}
.Laes_v6m_func_end72:
	.size	aes_v6m.fotsgure_aes_equiv_inv_cipher_round_par, .Laes_v6m_func_end72-aes_v6m.fotsgure_aes_equiv_inv_cipher_round_par
	.cantunwind
	.fnend
                                        @ -- End function
	.section	.text.aes_v6m.fotsgure_aes_mix_columns,"ax",%progbits
	export_aes_v6m	fotsgure_aes_mix_columns
	.p2align	1
	.type	aes_v6m.fotsgure_aes_mix_columns,%function
	.code	16
	.thumb_func
aes_v6m.fotsgure_aes_mix_columns:               @ @aes_v6m.fotsgure_aes_mix_columns
	.fnstart
@ %bb.0:
	.save	{r7, lr}
	push	{r7, lr}
	bl	aes_v6m.aes_c.single_rounds.mixed
	bl	aes_v6m.aes_cipher.zeroize.stack.wipe_stack.512
	b	.Laes_v6m_return_29092
.Laes_v6m_return_29092:
	movs	r1, #0
	movs	r2, #0
	movs	r3, #0
	mov	r12, r1
	mov	lr, r1
	pop	{r7, pc}
.Laes_v6m_func_end73:
	.size	aes_v6m.fotsgure_aes_mix_columns, .Laes_v6m_func_end73-aes_v6m.fotsgure_aes_mix_columns
	.cantunwind
	.fnend
                                        @ -- End function
	.section	.text.aes_v6m.fotsgure_aes_inv_mix_columns,"ax",%progbits
	export_aes_v6m	fotsgure_aes_inv_mix_columns
	.p2align	1
	.type	aes_v6m.fotsgure_aes_inv_mix_columns,%function
	.code	16
	.thumb_func
aes_v6m.fotsgure_aes_inv_mix_columns:           @ @aes_v6m.fotsgure_aes_inv_mix_columns
	.fnstart
@ %bb.0:
	.save	{r7, lr}
	push	{r7, lr}
	bl	aes_v6m.aes_c.single_rounds.inverse_mixed
	bl	aes_v6m.aes_cipher.zeroize.stack.wipe_stack.512
	b	.Laes_v6m_return_29118
.Laes_v6m_return_29118:
	movs	r1, #0
	movs	r2, #0
	movs	r3, #0
	mov	r12, r1
	mov	lr, r1
	pop	{r7, pc}
.Laes_v6m_func_end74:
	.size	aes_v6m.fotsgure_aes_inv_mix_columns, .Laes_v6m_func_end74-aes_v6m.fotsgure_aes_inv_mix_columns
	.cantunwind
	.fnend
                                        @ -- End function
	.section	.text.aes_v6m.fotsgure_aes_encrypt_blocks_with,"ax",%progbits
	export_aes_v6m	fotsgure_aes_encrypt_blocks_with
	.p2align	1
	.type	aes_v6m.fotsgure_aes_encrypt_blocks_with,%function
	.code	16
	.thumb_func
aes_v6m.fotsgure_aes_encrypt_blocks_with:       @ @aes_v6m.fotsgure_aes_encrypt_blocks_with
	.fnstart
@ %bb.0:
	.save	{r4, r5, r6, r7, lr}
	push	{r4, r5, r6, r7, lr}
	.pad	#508
	sub	sp, #508
	.pad	#8
	sub	sp, #8
	mov	r5, r1
	mov	r6, r0
	cmp	r1, #32
	beq	.Laes_v6m_BB75_3
@ %bb.1:
	movs	r0, #8
	mov	r1, r5
	bics	r1, r0
	cmp	r1, #16
	beq	.Laes_v6m_BB75_3
@ %bb.2:
	movs	r4, #1
	mov	r0, r4
	add	sp, #508
	add	sp, #8
	b	.Laes_v6m_return_29161
.Laes_v6m_BB75_3:                               @ %join.3.i.i
	str	r3, [sp, #24]                   @ 4-byte Spill
	str	r2, [sp, #28]                   @ 4-byte Spill
	movs	r0, #121
	lsls	r2, r0, #2
	add	r7, sp, #32
	movs	r4, #0
	mov	r0, r7
	mov	r1, r4
	bl	memset
	movs	r0, #1
	lsls	r0, r0, #12
	cmp	r6, #0
	str	r0, [sp, #20]                   @ 4-byte Spill
	bne	.Laes_v6m_BB75_5
@ %bb.4:
	adds	r6, r6, r0
.Laes_v6m_BB75_5:                               @ %join.3.i.i
	adds	r7, r7, #4
	mov	r0, r7
	mov	r1, r6
	mov	r2, r5
	mov	r3, r4
	bl	aes_v6m.aes_narrow.word_room.expand_words
	bl	aes_v6m.aes_cipher.zeroize.stack.wipe_stack.768
	str	r5, [sp, #32]
	ldr	r0, [sp, #24]                   @ 4-byte Reload
	str	r0, [sp, #8]
	str	r4, [sp, #12]
	ldr	r0, [sp, #28]                   @ 4-byte Reload
	cmp	r0, #0
	bne	.Laes_v6m_BB75_7
@ %bb.6:
	ldr	r1, [sp, #20]                   @ 4-byte Reload
	adds	r0, r0, r1
.Laes_v6m_BB75_7:                               @ %join.3.i.i
	str	r0, [sp]
	lsrs	r3, r5, #31
	lsls	r2, r5, #1
	adds	r2, #56
	adcs	r3, r4
	mov	r0, r7
	bl	aes_v6m.aes_narrow.blocks.process_all_batches.1
	bl	aes_v6m.aes_cipher.zeroize.stack.wipe_stack.1024
	str	r4, [sp, #32]
	mov	r0, r7
	bl	aes_v6m.aes_cipher.zeroize.elements.zeroize_elements.1
	mov	r0, r4
	add	sp, #508
	add	sp, #8
	b	.Laes_v6m_return_29161
.Laes_v6m_return_29161:
	movs	r1, #0
	movs	r2, #0
	movs	r3, #0
	mov	r12, r1
	mov	lr, r1
	pop	{r4, r5, r6, r7, pc}
.Laes_v6m_func_end75:
	.size	aes_v6m.fotsgure_aes_encrypt_blocks_with, .Laes_v6m_func_end75-aes_v6m.fotsgure_aes_encrypt_blocks_with
	.cantunwind
	.fnend
                                        @ -- End function
	.section	.text.aes_v6m.fotsgure_aes_decrypt_blocks_with,"ax",%progbits
	export_aes_v6m	fotsgure_aes_decrypt_blocks_with
	.p2align	1
	.type	aes_v6m.fotsgure_aes_decrypt_blocks_with,%function
	.code	16
	.thumb_func
aes_v6m.fotsgure_aes_decrypt_blocks_with:       @ @aes_v6m.fotsgure_aes_decrypt_blocks_with
	.fnstart
@ %bb.0:
	.save	{r4, r5, r6, r7, lr}
	push	{r4, r5, r6, r7, lr}
	.pad	#508
	sub	sp, #508
	.pad	#8
	sub	sp, #8
	mov	r5, r2
	mov	r4, r1
	mov	r7, r0
	movs	r0, #0
	str	r0, [sp, #32]
	movs	r6, #1
	lsls	r0, r6, #12
	cmp	r2, #0
	str	r0, [sp, #24]                   @ 4-byte Spill
	bne	.Laes_v6m_BB76_2
@ %bb.1:
	adds	r5, r5, r0
.Laes_v6m_BB76_2:
	add	r0, sp, #32
	cmp	r4, #32
	beq	.Laes_v6m_BB76_5
@ %bb.3:
	movs	r1, #8
	mov	r2, r4
	bics	r2, r1
	cmp	r2, #16
	beq	.Laes_v6m_BB76_5
@ %bb.4:                                @ %wide_fotsgure_aes_decrypt_blocks_with.exit
	mov	r0, r6
	add	sp, #508
	add	sp, #8
	b	.Laes_v6m_return_29266
.Laes_v6m_BB76_5:                               @ %join.3.i.i
	str	r3, [sp, #20]                   @ 4-byte Spill
	adds	r0, r0, #4
	str	r0, [sp, #28]                   @ 4-byte Spill
	add	r0, sp, #32
	adds	r0, #36
	movs	r1, #7
	lsls	r2, r1, #6
	movs	r1, #0
	mov	r6, r1
	bl	memset
	cmp	r7, #0
	bne	.Laes_v6m_BB76_7
@ %bb.6:
	ldr	r0, [sp, #24]                   @ 4-byte Reload
	adds	r7, r7, r0
.Laes_v6m_BB76_7:                               @ %join.3.i.i
	ldr	r0, [sp, #28]                   @ 4-byte Reload
	mov	r1, r7
	mov	r2, r4
	mov	r7, r6
	mov	r3, r6
	bl	aes_v6m.aes_narrow.word_room.expand_words
	bl	aes_v6m.aes_cipher.zeroize.stack.wipe_stack.768
	str	r4, [sp, #32]
	cmp	r4, #32
	beq	.Laes_v6m_BB76_10
@ %bb.8:                                @ %join.3.i.i
	movs	r0, #48
	ands	r0, r4
	cmp	r0, #16
	beq	.Laes_v6m_BB76_10
@ %bb.9:
	movs	r6, #2
	ldr	r4, [sp, #28]                   @ 4-byte Reload
	b	.Laes_v6m_BB76_11
.Laes_v6m_BB76_10:                              @ %join.3.i15.i.i
	ldr	r0, [sp, #20]                   @ 4-byte Reload
	str	r0, [sp, #8]
	str	r7, [sp, #12]
	str	r5, [sp]
	lsrs	r3, r4, #31
	lsls	r2, r4, #1
	adds	r2, #56
	adcs	r3, r7
	ldr	r4, [sp, #28]                   @ 4-byte Reload
	mov	r0, r4
	bl	aes_v6m.aes_narrow.blocks.process_all_batches.2
	bl	aes_v6m.aes_cipher.zeroize.stack.wipe_stack.1024
	mov	r6, r7
.Laes_v6m_BB76_11:                              @ %"aes_c::blocks::fotsgure_aes_decrypt_blocks.exit.i.i"
	str	r7, [sp, #32]
	mov	r0, r4
	bl	aes_v6m.aes_cipher.zeroize.elements.zeroize_elements.1
	mov	r0, r6
	add	sp, #508
	add	sp, #8
	b	.Laes_v6m_return_29266
.Laes_v6m_return_29266:
	movs	r1, #0
	movs	r2, #0
	movs	r3, #0
	mov	r12, r1
	mov	lr, r1
	pop	{r4, r5, r6, r7, pc}
.Laes_v6m_func_end76:
	.size	aes_v6m.fotsgure_aes_decrypt_blocks_with, .Laes_v6m_func_end76-aes_v6m.fotsgure_aes_decrypt_blocks_with
	.cantunwind
	.fnend
                                        @ -- End function
	.section	.text.aes_v6m.fotsgure_aes_add_keystream_with,"ax",%progbits
	export_aes_v6m	fotsgure_aes_add_keystream_with
	.p2align	1
	.type	aes_v6m.fotsgure_aes_add_keystream_with,%function
	.code	16
	.thumb_func
aes_v6m.fotsgure_aes_add_keystream_with:        @ @aes_v6m.fotsgure_aes_add_keystream_with
	.fnstart
@ %bb.0:
	.save	{r4, r5, r6, r7, lr}
	push	{r4, r5, r6, r7, lr}
	.pad	#508
	sub	sp, #508
	.pad	#24
	sub	sp, #24
	movs	r4, #1
	lsls	r5, r4, #12
	cmp	r3, #0
	beq	.Laes_v6m_BB77_3
@ %bb.1:
	cmp	r0, #0
	beq	.Laes_v6m_BB77_4
.Laes_v6m_BB77_2:
	cmp	r1, #32
	bne	.Laes_v6m_BB77_5
	b	.Laes_v6m_BB77_7
.Laes_v6m_BB77_3:
	adds	r3, r3, r5
	cmp	r0, #0
	bne	.Laes_v6m_BB77_2
.Laes_v6m_BB77_4:
	adds	r0, r0, r5
	cmp	r1, #32
	beq	.Laes_v6m_BB77_7
.Laes_v6m_BB77_5:
	movs	r5, #8
	mov	r6, r1
	bics	r6, r5
	cmp	r6, #16
	beq	.Laes_v6m_BB77_7
@ %bb.6:                                @ %wide_fotsgure_aes_add_keystream_with.exit
	mov	r0, r4
	add	sp, #508
	add	sp, #24
	b	.Laes_v6m_return_29381
.Laes_v6m_BB77_7:                               @ %join.3.i.i
	ldr	r7, [sp, #552]
	ldr	r5, [r2, #16]
	ldr	r6, [r2, #20]
	movs	r4, #0
	adds	r5, r5, r7
	adcs	r6, r4
	mov	r5, r4
	adcs	r5, r4
	beq	.Laes_v6m_BB77_9
@ %bb.8:
	movs	r4, #4
	mov	r0, r4
	add	sp, #508
	add	sp, #24
	b	.Laes_v6m_return_29381
.Laes_v6m_BB77_9:                               @ %join.6.i.i
	movs	r5, #121
	lsls	r5, r5, #2
	str	r5, [sp, #24]                   @ 4-byte Spill
	add	r6, sp, #48
	str	r0, [sp, #16]                   @ 4-byte Spill
	mov	r0, r6
	str	r1, [sp, #28]                   @ 4-byte Spill
	mov	r1, r4
	mov	r5, r2
	ldr	r2, [sp, #24]                   @ 4-byte Reload
	str	r3, [sp, #24]                   @ 4-byte Spill
	bl	memset
	adds	r0, r6, #4
	str	r0, [sp, #20]                   @ 4-byte Spill
	ldr	r1, [sp, #16]                   @ 4-byte Reload
	ldr	r6, [sp, #28]                   @ 4-byte Reload
	mov	r2, r6
	mov	r3, r4
	bl	aes_v6m.aes_narrow.word_room.expand_words
	mov	r0, r6
	lsrs	r6, r6, #31
	str	r7, [sp, #16]                   @ 4-byte Spill
	lsls	r7, r0, #1
	adds	r7, #56
	adcs	r6, r4
	bl	aes_v6m.aes_cipher.zeroize.stack.wipe_stack.768
	str	r6, [sp, #44]
	str	r7, [sp, #40]
	str	r4, [sp, #36]
	ldr	r6, [sp, #20]                   @ 4-byte Reload
	str	r6, [sp, #32]
	ldr	r0, [sp, #28]                   @ 4-byte Reload
	str	r0, [sp, #48]
	ldr	r2, [r5, #16]
	ldr	r3, [r5, #20]
	ldr	r7, [sp, #16]                   @ 4-byte Reload
	str	r7, [sp, #8]
	str	r4, [sp, #12]
	ldr	r0, [sp, #24]                   @ 4-byte Reload
	str	r0, [sp]
	add	r0, sp, #32
	mov	r1, r5
	bl	aes_v6m.aes_ctr.add_in_batches.add_keystream
	ldr	r0, [r5, #16]
	adds	r0, r0, r7
	str	r0, [r5, #16]
	ldr	r0, [r5, #20]
	adcs	r0, r4
	str	r0, [r5, #20]
	str	r4, [sp, #48]
	mov	r0, r6
	bl	aes_v6m.aes_cipher.zeroize.elements.zeroize_elements.1
	mov	r0, r4
	add	sp, #508
	add	sp, #24
	b	.Laes_v6m_return_29381
.Laes_v6m_return_29381:
	movs	r1, #0
	movs	r2, #0
	movs	r3, #0
	mov	r12, r1
	mov	lr, r1
	pop	{r4, r5, r6, r7, pc}
.Laes_v6m_func_end77:
	.size	aes_v6m.fotsgure_aes_add_keystream_with, .Laes_v6m_func_end77-aes_v6m.fotsgure_aes_add_keystream_with
	.cantunwind
	.fnend
                                        @ -- End function
	.type	.Laes_v6m_static.0,%object              @ @static.0
	.section	.rodata..Laes_v6m_static.0,"a",%progbits
.Laes_v6m_static.0:
	.ascii	"\001\002\004\b\020 @\200\0336"
	.size	.Laes_v6m_static.0, 10

	.type	.Laes_v6m_static.2,%object              @ @static.2
	.section	.rodata.cst16,"aM",%progbits,16
.Laes_v6m_static.2:
	.zero	16,166
	.size	.Laes_v6m_static.2, 16

	.ident	"rattle logic=dac8208d650f15bf3e2dc313a14fa4c783a3acf887bdfab66e1714b038d9e11b"
	.section	".note.GNU-stack","",%progbits

	.section	.note.fotsgure,"",%note
	.p2align	2, 0x0
	.long	9, 118, 1
	.asciz	"Fotsgure"
	.p2align	2, 0x0
	.asciz	"fotsgure_aes 0.4.0, thumb/aes_v6m.s, sources SHA-256 f3fecc818c73814a93835f06896045f67fddc8c102490795e0e19679064b46a4"
	.p2align	2, 0x0
