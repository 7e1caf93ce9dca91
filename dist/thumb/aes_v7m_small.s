@ Made by tools/dist from the proved crate aes_c; BUILD says from what. Don't edit it.
/* A Rust crate defines in_rust; for x86-64, a static library of both builds defines chosen, and choose_*.c calls these names. */
	.macro	export_aes_v7m_small name
	.ifdef	in_rust
	.globl	aes_v7m_small.\name
	.hidden	aes_v7m_small.\name
	.else
	.globl	\name
	.set	\name, aes_v7m_small.\name
	.endif
	.endm
	.syntax	unified
	.file	"rattle"
	.section	.text.aes_v7m_small.aes_narrow.word_room.expand_words,"ax",%progbits
	.p2align	2                               @ -- Begin function aes_narrow::word_room::expand_words::<#6af90bfc14753d47>
	.type	aes_v7m_small.aes_narrow.word_room.expand_words,%function
	.code	16
	.thumb_func
aes_v7m_small.aes_narrow.word_room.expand_words: @ @aes_v7m_small.aes_narrow.word_room.expand_words
	.fnstart
@ %bb.0:                                @ %start
	.save	{r4, r5, r6, r7, r8, r9, r10, r11, lr}
	push.w	{r4, r5, r6, r7, r8, r9, r10, r11, lr}
	.pad	#180
	sub	sp, #180
	cmp	r2, #24
	mov	r10, r0
	beq	.Laes_v7m_small_BB0_4
@ %bb.1:                                @ %start
	cmp	r2, #16
	bne.w	.Laes_v7m_small_BB0_7
@ %bb.2:                                @ %then.1.i
	add.w	r8, sp, #148
	mov	r11, r3
	mov	r9, r2
	mov	r0, r8
	movs	r2, #0
	movs	r3, #0
	movs	r6, #0
	bl	aes_v7m_small.aes_soft.soft.plane_words.PlaneWordsFourWords.load
	mov	r0, r10
	movs	r2, #0
	movs	r3, #0
	str.w	r8, [sp]
	bl	aes_v7m_small.aes_soft.soft.plane_words.PlaneWordsFourWords.store
	movs	r5, #0
	.p2align	2
.Laes_v7m_small_BB0_3:                                @ %join.5.i.i
                                        @ =>This Inner Loop Header: Depth=1
	add	r7, sp, #116
	mov	r0, r7
	mov	r1, r10
	mov	r2, r6
	mov	r3, r5
	bl	aes_v7m_small.aes_soft.soft.plane_words.PlaneWordsFourWords.read_back
	movw	r0, :lower16:.Laes_v7m_small_static.0
	movt	r0, :upper16:.Laes_v7m_small_static.0
	ldrb	r3, [r0, r6]
	mov	r0, r8
	mov	r1, r7
	mov	r2, r8
	bl	aes_v7m_small.aes_soft.soft.plane_words.PlaneWordsFourWords.rotated
	adds	r7, r6, #1
	adc	r4, r5, #0
	mov	r0, r10
	mov	r2, r7
	mov	r3, r4
	str.w	r8, [sp]
	bl	aes_v7m_small.aes_soft.soft.plane_words.PlaneWordsFourWords.store
	subs.w	r0, r6, #9
	sbcs	r0, r5, #0
	mov	r6, r7
	mov	r5, r4
	blo	.Laes_v7m_small_BB0_3
	b	.Laes_v7m_small_BB0_11
.Laes_v7m_small_BB0_4:                                @ %then.4.i
	add	r6, sp, #148
	strd	r2, r3, [sp, #8]                @ 8-byte Folded Spill
	mov	r0, r6
	movs	r2, #0
	movs	r3, #0
	mov	r4, r1
	movs	r5, #0
	bl	aes_v7m_small.aes_soft.soft.plane_words.PlaneWordsFourWords.load
	add	r0, sp, #116
	mov	r1, r4
	movs	r2, #8
	movs	r3, #0
	bl	aes_v7m_small.aes_soft.soft.plane_words.PlaneWordsFourWords.load
	mov	r0, r10
	movs	r2, #0
	movs	r3, #0
	str	r6, [sp]
	bl	aes_v7m_small.aes_soft.soft.plane_words.PlaneWordsFourWords.store
	movs	r0, #0
	str.w	r10, [sp, #16]                  @ 4-byte Spill
	.p2align	2
.Laes_v7m_small_BB0_5:                                @ %join.5.i14.i
                                        @ =>This Inner Loop Header: Depth=1
	mov	r10, r0
	movw	r0, :lower16:.Laes_v7m_small_static.0
	movt	r0, :upper16:.Laes_v7m_small_static.0
	mov	r11, r5
	ldrb.w	r3, [r0, r5, lsl #1]
	add.w	r6, r0, r5, lsl #1
	add	r5, sp, #84
	add	r4, sp, #116
	mov	r0, r5
	add	r1, sp, #148
	mov	r2, r4
	bl	aes_v7m_small.aes_soft.soft.plane_words.PlaneWordsFourWords.rotated
	add	r7, sp, #52
	mov	r0, r7
	mov	r1, r4
	mov	r2, r5
	bl	aes_v7m_small.aes_soft.soft.plane_words.PlaneWordsFourWords.plain
	add.w	r9, sp, #20
	mov	r0, r9
	mov	r1, r4
	mov	r2, r5
	bl	aes_v7m_small.aes_soft.soft.plane_words.PlaneWordsFourWords.straddled
	add.w	r5, r10, r10, lsl #1
	movs	r2, #1
	mov.w	r8, #3
	mov	r3, r5
	ldr	r4, [sp, #16]                   @ 4-byte Reload
	umlal	r2, r3, r11, r8
	mov	r0, r4
	str.w	r9, [sp]
	bl	aes_v7m_small.aes_soft.soft.plane_words.PlaneWordsFourWords.store
	movs	r2, #2
	mov	r3, r5
	umlal	r2, r3, r11, r8
	mov	r0, r4
	str	r7, [sp]
	bl	aes_v7m_small.aes_soft.soft.plane_words.PlaneWordsFourWords.store
	ldrb	r3, [r6, #1]
	add	r6, sp, #148
	mov	r0, r6
	add	r1, sp, #84
	mov	r2, r7
	bl	aes_v7m_small.aes_soft.soft.plane_words.PlaneWordsFourWords.rotated
	add	r0, sp, #116
	mov	r1, r7
	mov	r2, r6
	bl	aes_v7m_small.aes_soft.soft.plane_words.PlaneWordsFourWords.plain
	umlal	r8, r5, r11, r8
	mov	r0, r4
	mov	r2, r8
	mov	r3, r5
	str	r6, [sp]
	bl	aes_v7m_small.aes_soft.soft.plane_words.PlaneWordsFourWords.store
	adds.w	r5, r11, #1
	adc	r0, r10, #0
	subs.w	r1, r11, #3
	sbcs	r1, r10, #0
	blo	.Laes_v7m_small_BB0_5
@ %bb.6:                                @ %"aes_planes::expansion::expand_192::<#389ec886eeff95cb>.exit.i"
	ldr.w	r10, [sp, #16]                  @ 4-byte Reload
	b	.Laes_v7m_small_BB0_10
.Laes_v7m_small_BB0_7:                                @ %else.5.i
	add.w	r8, sp, #148
	strd	r2, r3, [sp, #8]                @ 8-byte Folded Spill
	mov	r0, r8
	movs	r2, #0
	movs	r3, #0
	mov	r5, r1
	movs	r6, #0
	bl	aes_v7m_small.aes_soft.soft.plane_words.PlaneWordsFourWords.load
	add.w	r9, sp, #116
	mov	r0, r9
	mov	r1, r5
	movs	r2, #16
	movs	r3, #0
	bl	aes_v7m_small.aes_soft.soft.plane_words.PlaneWordsFourWords.load
	mov	r0, r10
	movs	r2, #0
	movs	r3, #0
	str.w	r8, [sp]
	bl	aes_v7m_small.aes_soft.soft.plane_words.PlaneWordsFourWords.store
	mov	r0, r10
	movs	r2, #1
	movs	r3, #0
	str.w	r9, [sp]
	bl	aes_v7m_small.aes_soft.soft.plane_words.PlaneWordsFourWords.store
	movs	r0, #0
	.p2align	2
.Laes_v7m_small_BB0_8:                                @ %join.5.i23.i
                                        @ =>This Inner Loop Header: Depth=1
	mov	r4, r0
	lsls	r0, r0, #1
	mov	r7, r6
	orr.w	r5, r0, r6, lsr #31
	lsls	r6, r6, #1
	add.w	r11, sp, #84
	mov	r0, r11
	mov	r1, r10
	mov	r2, r6
	mov	r3, r5
	bl	aes_v7m_small.aes_soft.soft.plane_words.PlaneWordsFourWords.read_back
	movw	r0, :lower16:.Laes_v7m_small_static.0
	movt	r0, :upper16:.Laes_v7m_small_static.0
	ldrb	r3, [r0, r7]
	mov	r0, r8
	mov	r1, r11
	mov	r2, r9
	bl	aes_v7m_small.aes_soft.soft.plane_words.PlaneWordsFourWords.rotated
	movs	r0, #2
	adds.w	r2, r0, r7, lsl #1
	adc	r3, r5, #0
	mov	r0, r10
	str.w	r8, [sp]
	bl	aes_v7m_small.aes_soft.soft.plane_words.PlaneWordsFourWords.store
	adds	r2, r6, #1
	add	r6, sp, #52
	mov	r0, r6
	mov	r1, r10
	mov	r3, r5
	bl	aes_v7m_small.aes_soft.soft.plane_words.PlaneWordsFourWords.read_back
	mov	r0, r9
	mov	r1, r6
	mov	r2, r8
	bl	aes_v7m_small.aes_soft.soft.plane_words.PlaneWordsFourWords.substituted
	movs	r0, #3
	adds.w	r2, r0, r7, lsl #1
	adc	r3, r5, #0
	mov	r0, r10
	str.w	r9, [sp]
	bl	aes_v7m_small.aes_soft.soft.plane_words.PlaneWordsFourWords.store
	adds	r6, r7, #1
	adc	r0, r4, #0
	subs	r1, r7, #5
	sbcs	r1, r4, #0
	blo	.Laes_v7m_small_BB0_8
@ %bb.9:                                @ %"aes_planes::expansion::expand_256::<#389ec886eeff95cb>.exit.i"
	add	r4, sp, #20
	mov	r0, r4
	mov	r1, r10
	movs	r2, #12
	movs	r3, #0
	bl	aes_v7m_small.aes_soft.soft.plane_words.PlaneWordsFourWords.read_back
	add	r2, sp, #116
	mov	r0, r8
	mov	r1, r4
	movs	r3, #64
	bl	aes_v7m_small.aes_soft.soft.plane_words.PlaneWordsFourWords.rotated
	mov	r0, r10
	movs	r2, #14
	movs	r3, #0
	str.w	r8, [sp]
	bl	aes_v7m_small.aes_soft.soft.plane_words.PlaneWordsFourWords.store
.Laes_v7m_small_BB0_10:                               @ %"aes_planes::expansion::expand::<#389ec886eeff95cb>.exit"
	ldrd	r9, r11, [sp, #8]               @ 8-byte Folded Reload
.Laes_v7m_small_BB0_11:                               @ %"aes_planes::expansion::expand::<#389ec886eeff95cb>.exit"
	lsr.w	r0, r9, #2
	orr.w	r0, r0, r11, lsl #30
	lsr.w	r1, r11, #2
	adds	r2, r0, #6
	adc	r3, r1, #0
	mov	r0, r10
	add	sp, #180
	pop.w	{r4, r5, r6, r7, r8, r9, r10, r11, lr}
	b	aes_v7m_small.aes_soft.soft.key_layout.store
.Laes_v7m_small_func_end0:
	.size	aes_v7m_small.aes_narrow.word_room.expand_words, .Laes_v7m_small_func_end0-aes_v7m_small.aes_narrow.word_room.expand_words
	.cantunwind
	.fnend
                                        @ -- End function
	.section	.text.aes_v7m_small.aes_soft.soft.plane_words.PlaneWordsFourWords.load,"ax",%progbits
	.p2align	2                               @ -- Begin function aes_soft::soft::plane_words::PlaneWordsFourWords::load::<#6af90bfc14753d47>
	.type	aes_v7m_small.aes_soft.soft.plane_words.PlaneWordsFourWords.load,%function
	.code	16
	.thumb_func
aes_v7m_small.aes_soft.soft.plane_words.PlaneWordsFourWords.load: @ @aes_v7m_small.aes_soft.soft.plane_words.PlaneWordsFourWords.load
	.fnstart
@ %bb.0:                                @ %start
	.save	{r4, r5, r7, lr}
	push	{r4, r5, r7, lr}
	.pad	#64
	sub	sp, #64
	mov	r4, r0
	adds	r0, r1, r2
	ldr	r1, [r1, r2]
	ldr	r2, [r0, #4]
	ldr	r3, [r0, #8]
	ldr	r0, [r0, #12]
	mov	r5, sp
	strd	r1, r1, [sp, #32]
	strd	r0, r0, [sp, #56]
	add	r1, sp, #32
	mov	r0, r5
	strd	r2, r2, [sp, #40]
	strd	r3, r3, [sp, #48]
	bl	aes_v7m_small.aes_planes.soft.word.transpose.transpose
	mov	r0, r4
	mov	r1, r5
	movs	r2, #32
	bl	memcpy
	add	sp, #64
	pop	{r4, r5, r7, pc}
.Laes_v7m_small_func_end1:
	.size	aes_v7m_small.aes_soft.soft.plane_words.PlaneWordsFourWords.load, .Laes_v7m_small_func_end1-aes_v7m_small.aes_soft.soft.plane_words.PlaneWordsFourWords.load
	.cantunwind
	.fnend
                                        @ -- End function
	.section	.text.aes_v7m_small.aes_planes.soft.word.transpose.transpose,"ax",%progbits
	.p2align	2                               @ -- Begin function aes_planes::soft::word::transpose::transpose::<#9d6d04665546a1c3>
	.type	aes_v7m_small.aes_planes.soft.word.transpose.transpose,%function
	.code	16
	.thumb_func
aes_v7m_small.aes_planes.soft.word.transpose.transpose: @ @aes_v7m_small.aes_planes.soft.word.transpose.transpose
	.fnstart
@ %bb.0:                                @ %start
	.save	{r4, r5, r6, r7, r8, r9, lr}
	push.w	{r4, r5, r6, r7, r8, r9, lr}
	ldr	r2, [r1]
	ldr	r3, [r1, #4]
	ldr.w	r12, [r1, #8]
	ldr.w	lr, [r1, #12]
	eor.w	r7, r3, r2, lsr #1
	bic	r7, r7, #-1431655766
	ldr	r4, [r1, #16]
	ldr	r5, [r1, #20]
	eor.w	r2, r2, r7, lsl #1
	eor.w	r8, r7, r3
	eor.w	r7, lr, r12, lsr #1
	bic	r7, r7, #-1431655766
	ldr	r6, [r1, #24]
	ldr	r1, [r1, #28]
	eor.w	r3, r12, r7, lsl #1
	eor.w	r12, r7, lr
	eor.w	r7, r5, r4, lsr #1
	bic	r7, r7, #-1431655766
	eor.w	r4, r4, r7, lsl #1
	eors	r7, r5
	eor.w	r5, r1, r6, lsr #1
	bic	r5, r5, #-1431655766
	eor.w	r6, r6, r5, lsl #1
	eors	r1, r5
	eor.w	r5, r3, r2, lsr #2
	bic	r5, r5, #-858993460
	eor.w	r2, r2, r5, lsl #2
	eor.w	lr, r5, r3
	eor.w	r5, r6, r4, lsr #2
	bic	r5, r5, #-858993460
	eor.w	r9, r5, r6
	eor.w	r6, r1, r7, lsr #2
	eor.w	r4, r4, r5, lsl #2
	eor.w	r5, r12, r8, lsr #2
	bic	r6, r6, #-858993460
	bic	r5, r5, #-858993460
	eor.w	r7, r7, r6, lsl #2
	eors	r1, r6
	eor.w	r6, r4, r2, lsr #4
	eor.w	r3, r8, r5, lsl #2
	bic	r6, r6, #-252645136
	eor.w	r5, r5, r12
	eor.w	r12, r6, r4
	eor.w	r4, r7, r3, lsr #4
	bic	r4, r4, #-252645136
	eor.w	r8, r2, r6, lsl #4
	eor.w	r3, r3, r4, lsl #4
	eors	r7, r4
	eor.w	r4, r9, lr, lsr #4
	eor.w	r2, r1, r5, lsr #4
	bic	r4, r4, #-252645136
	bic	r2, r2, #-252645136
	eor.w	r6, lr, r4, lsl #4
	eor.w	r4, r4, r9
	eor.w	r5, r5, r2, lsl #4
	eors	r1, r2
	str.w	r8, [r0]
	str	r3, [r0, #4]
	str	r6, [r0, #8]
	str	r5, [r0, #12]
	str.w	r12, [r0, #16]
	str	r7, [r0, #20]
	str	r4, [r0, #24]
	str	r1, [r0, #28]
	pop.w	{r4, r5, r6, r7, r8, r9, pc}
.Laes_v7m_small_func_end2:
	.size	aes_v7m_small.aes_planes.soft.word.transpose.transpose, .Laes_v7m_small_func_end2-aes_v7m_small.aes_planes.soft.word.transpose.transpose
	.cantunwind
	.fnend
                                        @ -- End function
	.section	.text.aes_v7m_small.aes_soft.soft.plane_words.PlaneWordsFourWords.read_back,"ax",%progbits
	.p2align	2                               @ -- Begin function aes_soft::soft::plane_words::PlaneWordsFourWords::read_back::<#6af90bfc14753d47>
	.type	aes_v7m_small.aes_soft.soft.plane_words.PlaneWordsFourWords.read_back,%function
	.code	16
	.thumb_func
aes_v7m_small.aes_soft.soft.plane_words.PlaneWordsFourWords.read_back: @ @aes_v7m_small.aes_soft.soft.plane_words.PlaneWordsFourWords.read_back
	.fnstart
@ %bb.0:                                @ %start
	.save	{r4, r5, r7, lr}
	push	{r4, r5, r7, lr}
	.pad	#32
	sub	sp, #32
	mov	r5, sp
	mov	r4, r0
	mov	r0, r5
	bl	aes_v7m_small.aes_planes.soft.round_keys.round_key.1
	mov	r0, r4
	mov	r1, r5
	movs	r2, #32
	bl	memcpy
	add	sp, #32
	pop	{r4, r5, r7, pc}
.Laes_v7m_small_func_end3:
	.size	aes_v7m_small.aes_soft.soft.plane_words.PlaneWordsFourWords.read_back, .Laes_v7m_small_func_end3-aes_v7m_small.aes_soft.soft.plane_words.PlaneWordsFourWords.read_back
	.cantunwind
	.fnend
                                        @ -- End function
	.section	.text.aes_v7m_small.aes_planes.soft.round_keys.round_key.1,"ax",%progbits
	.p2align	2                               @ -- Begin function aes_planes::soft::round_keys::round_key::<#6af90bfc14753d47>
	.type	aes_v7m_small.aes_planes.soft.round_keys.round_key.1,%function
	.code	16
	.thumb_func
aes_v7m_small.aes_planes.soft.round_keys.round_key.1: @ @aes_v7m_small.aes_planes.soft.round_keys.round_key.1
	.fnstart
@ %bb.0:                                @ %start
	.save	{r4, r5, r6, lr}
	push	{r4, r5, r6, lr}
	lsls	r3, r2, #5
	add.w	r2, r1, r2, lsl #5
	add.w	lr, r2, #4
	add.w	r6, r2, #16
	ldr	r1, [r1, r3]
	ldm.w	lr, {r3, r12, lr}
	ldm	r6, {r4, r5, r6}
	ldr	r2, [r2, #28]
	str	r1, [r0]
	str	r3, [r0, #4]
	str.w	r12, [r0, #8]
	str.w	lr, [r0, #12]
	str	r4, [r0, #16]
	str	r5, [r0, #20]
	str	r6, [r0, #24]
	str	r2, [r0, #28]
	pop	{r4, r5, r6, pc}
.Laes_v7m_small_func_end4:
	.size	aes_v7m_small.aes_planes.soft.round_keys.round_key.1, .Laes_v7m_small_func_end4-aes_v7m_small.aes_planes.soft.round_keys.round_key.1
	.cantunwind
	.fnend
                                        @ -- End function
	.section	.text.aes_v7m_small.aes_soft.soft.plane_words.PlaneWordsFourWords.rotated,"ax",%progbits
	.p2align	2                               @ -- Begin function aes_soft::soft::plane_words::PlaneWordsFourWords::rotated::<#6af90bfc14753d47>
	.type	aes_v7m_small.aes_soft.soft.plane_words.PlaneWordsFourWords.rotated,%function
	.code	16
	.thumb_func
aes_v7m_small.aes_soft.soft.plane_words.PlaneWordsFourWords.rotated: @ @aes_v7m_small.aes_soft.soft.plane_words.PlaneWordsFourWords.rotated
	.fnstart
@ %bb.0:                                @ %start
	.save	{r4, r5, r6, r7, r8, lr}
	push.w	{r4, r5, r6, r7, r8, lr}
	.pad	#96
	sub	sp, #96
	add.w	r8, sp, #32
	mov	r6, r2
	mov	r4, r0
	mov	r0, r8
	movs	r2, #32
	mov	r5, r3
	bl	memcpy
	mov	r7, sp
	mov	r0, r7
	mov	r1, r6
	movs	r2, #32
	bl	memcpy
	mov	r0, r7
	bl	aes_v7m_small.aes_soft.soft.plane_words.substitute
	mov	r0, r7
	mov	r1, r5
	bl	aes_v7m_small.aes_planes.soft.key_columns.add_round_constant
	add	r5, sp, #64
	mov	r0, r5
	mov	r1, r8
	mov	r2, r7
	movs	r3, #14
	bl	aes_v7m_small.aes_planes.soft.key_columns.summed_columns
	mov	r0, r4
	mov	r1, r5
	movs	r2, #32
	bl	memcpy
	add	sp, #96
	pop.w	{r4, r5, r6, r7, r8, pc}
.Laes_v7m_small_func_end5:
	.size	aes_v7m_small.aes_soft.soft.plane_words.PlaneWordsFourWords.rotated, .Laes_v7m_small_func_end5-aes_v7m_small.aes_soft.soft.plane_words.PlaneWordsFourWords.rotated
	.cantunwind
	.fnend
                                        @ -- End function
	.section	.text.aes_v7m_small.aes_soft.soft.plane_words.substitute,"ax",%progbits
	.p2align	2                               @ -- Begin function aes_soft::soft::plane_words::substitute::<#6af90bfc14753d47>
	.type	aes_v7m_small.aes_soft.soft.plane_words.substitute,%function
	.code	16
	.thumb_func
aes_v7m_small.aes_soft.soft.plane_words.substitute: @ @aes_v7m_small.aes_soft.soft.plane_words.substitute
	.fnstart
@ %bb.0:                                @ %start
	.save	{r4, lr}
	push	{r4, lr}
	mov	r4, r0
	bl	aes_v7m_small.aes_planes.soft.sbox.sub_bytes
	mov	r0, r4
	pop.w	{r4, lr}
	b	aes_v7m_small.aes_planes.soft.sbox.sub_bytes_nots
.Laes_v7m_small_func_end6:
	.size	aes_v7m_small.aes_soft.soft.plane_words.substitute, .Laes_v7m_small_func_end6-aes_v7m_small.aes_soft.soft.plane_words.substitute
	.cantunwind
	.fnend
                                        @ -- End function
	.section	.text.aes_v7m_small.aes_planes.soft.sbox.sub_bytes,"ax",%progbits
	.p2align	2                               @ -- Begin function aes_planes::soft::sbox::sub_bytes::<#6af90bfc14753d47>
	.type	aes_v7m_small.aes_planes.soft.sbox.sub_bytes,%function
	.code	16
	.thumb_func
aes_v7m_small.aes_planes.soft.sbox.sub_bytes: @ @aes_v7m_small.aes_planes.soft.sbox.sub_bytes
	.fnstart
@ %bb.0:                                @ %start
	.save	{r4, r5, r6, r7, r8, r9, r10, r11, lr}
	push.w	{r4, r5, r6, r7, r8, r9, r10, r11, lr}
	.pad	#64
	sub	sp, #64
	mov	r2, r0
	ldr	r3, [r0, #4]
	ldr	r0, [r0, #8]
	ldrd	r9, r4, [r2, #12]
	ldr	r1, [r2, #28]
	str	r3, [sp, #28]                   @ 4-byte Spill
	eors	r3, r1
	eor.w	lr, r4, r0
	ldrd	r6, r5, [r2, #20]
	eor.w	r7, r3, lr
	str	r3, [sp, #4]                    @ 4-byte Spill
	eor.w	r3, r7, r9
	eor.w	r8, r5, r6
	eor.w	r12, r1, r4
	eor.w	r10, r3, r0
	eors	r3, r5
	eor.w	r6, r1, r0
	eor.w	r0, r3, r12
	eor.w	r5, r10, r8
	strd	r12, r6, [sp, #48]              @ 8-byte Folded Spill
	str	r0, [sp, #56]                   @ 4-byte Spill
	and.w	r12, r12, r0
	eors	r0, r5
	str	r0, [sp, #44]                   @ 4-byte Spill
	and.w	r0, r0, lr
	eor.w	r0, r0, r12
	ldr.w	r9, [r2]
	str	r0, [sp, #16]                   @ 4-byte Spill
	ldr	r0, [sp, #28]                   @ 4-byte Reload
	str.w	lr, [sp, #40]                   @ 4-byte Spill
	eor.w	lr, r8, r9
	str	r1, [sp]                        @ 4-byte Spill
	str	r7, [sp, #60]                   @ 4-byte Spill
	and.w	r7, r5, r6
	eor.w	r1, lr, r0
	eor.w	r11, r7, r12
	eor.w	r12, r10, r9
	eor.w	r7, r1, r6
	str	r7, [sp, #28]                   @ 4-byte Spill
	and.w	r7, r7, r12
	eor.w	r0, lr, r4
	eors	r3, r7
	and.w	r4, r0, r9
	ldr	r7, [sp, #60]                   @ 4-byte Reload
	str	r0, [sp, #20]                   @ 4-byte Spill
	eors	r4, r6
	ldr	r0, [sp, #56]                   @ 4-byte Reload
	str.w	r10, [sp, #32]                  @ 4-byte Spill
	eors	r4, r5
	and.w	r7, r7, r10
	ldr.w	r10, [sp, #4]                   @ 4-byte Reload
	eor.w	r6, r4, r7
	eors	r7, r3
	eor.w	r3, r0, r8
	and.w	r4, r1, lr
	eors	r4, r3
	and.w	r8, r3, r10
	str	r5, [sp, #36]                   @ 4-byte Spill
	ldr	r5, [sp, #16]                   @ 4-byte Reload
	eor.w	r4, r4, r8
	eor.w	r4, r4, r10
	str.w	r12, [sp, #24]                  @ 4-byte Spill
	eor.w	r12, r4, r5
	ldr	r4, [sp]                        @ 4-byte Reload
	str	r1, [sp, #8]                    @ 4-byte Spill
	eor.w	r1, lr, r4
	eor.w	r0, r0, r9
	str	r0, [sp, #16]                   @ 4-byte Spill
	ands	r0, r1
	eors	r0, r3
	eor.w	r0, r0, r8
	eors	r7, r5
	eors	r0, r4
	str	r1, [sp, #12]                   @ 4-byte Spill
	eor.w	r1, r6, r11
	eor.w	r5, r0, r11
	and.w	r0, r12, r7
	eor.w	r8, r0, r1
	eor.w	r4, r12, r5
	and.w	r4, r4, r8
	eor.w	r8, r7, r1
	eor.w	r7, r0, r5
	and.w	r6, r7, r8
	eors	r1, r6
	eor.w	r6, r4, r0
	eor.w	r0, r4, r5
	and.w	r4, r6, r5
	eor.w	r5, r4, r7
	ands	r5, r1
	eor.w	r5, r5, r8
	eor.w	r6, r5, r1
	and.w	r8, r6, r3
	and.w	r3, r6, r10
	str	r3, [sp, #4]                    @ 4-byte Spill
	and.w	r3, r5, lr
	str	r3, [sp]                        @ 4-byte Spill
	ldr	r3, [sp, #8]                    @ 4-byte Reload
	eor.w	r7, r4, r12
	and.w	r11, r5, r3
	ldr	r3, [sp, #24]                   @ 4-byte Reload
	eor.w	r6, r7, r0
	ands	r3, r6
	str	r3, [sp, #24]                   @ 4-byte Spill
	ldr	r3, [sp, #28]                   @ 4-byte Reload
	and.w	r9, r9, r0
	and.w	r12, r6, r3
	ldr	r3, [sp, #20]                   @ 4-byte Reload
	eor.w	lr, r5, r6
	ands	r3, r0
	str	r3, [sp, #28]                   @ 4-byte Spill
	ldr	r3, [sp, #56]                   @ 4-byte Reload
	eors	r0, r1
	and.w	r5, r0, r3
	ldr	r3, [sp, #48]                   @ 4-byte Reload
	ldr	r4, [sp, #44]                   @ 4-byte Reload
	and.w	r10, r0, r3
	ldr	r3, [sp, #40]                   @ 4-byte Reload
	eor.w	r0, r0, lr
	ands	r3, r0
	ands	r4, r0
	eor.w	r0, r3, r10
	eor.w	r11, r11, r0
	eor.w	r12, r12, r0
	ldr	r0, [sp, #12]                   @ 4-byte Reload
	ldr	r3, [sp, #60]                   @ 4-byte Reload
	and.w	r6, r1, r0
	ldr	r0, [sp, #16]                   @ 4-byte Reload
	ands	r0, r1
	ldr	r1, [sp, #32]                   @ 4-byte Reload
	ands	r1, r7
	ands	r7, r3
	ldr	r3, [sp, #24]                   @ 4-byte Reload
	eor.w	r9, r9, r1
	eors	r3, r1
	ldr	r1, [sp]                        @ 4-byte Reload
	eor.w	r0, r0, r9
	eor.w	r1, r1, r8
	eor.w	r0, r0, r8
	eors	r4, r1
	eor.w	r8, r3, r1
	ldr	r1, [sp, #36]                   @ 4-byte Reload
	eor.w	r7, r7, r12
	and.w	r3, lr, r1
	eor.w	r3, r3, r9
	ldr.w	r9, [sp, #4]                    @ 4-byte Reload
	eor.w	r1, r11, r0
	eor.w	r3, r3, r9
	eors	r3, r4
	eors	r4, r5
	ldr	r5, [sp, #52]                   @ 4-byte Reload
	eors	r6, r3
	eor.w	r11, r1, r3
	ldr	r3, [sp, #28]                   @ 4-byte Reload
	eor.w	r1, r1, r9
	and.w	r5, r5, lr
	eor.w	r3, r3, r12
	eor.w	r5, r5, r10
	strd	r1, r11, [r2]
	eor.w	r1, r8, r7
	eors	r3, r6
	eors	r5, r4
	eors	r0, r1
	eors	r6, r5
	str	r3, [r2, #8]
	str	r0, [r2, #12]
	eor.w	r0, r7, r4
	eor.w	r3, r1, r4
	strd	r1, r6, [r2, #16]
	strd	r3, r0, [r2, #24]
	add	sp, #64
	pop.w	{r4, r5, r6, r7, r8, r9, r10, r11, pc}
.Laes_v7m_small_func_end7:
	.size	aes_v7m_small.aes_planes.soft.sbox.sub_bytes, .Laes_v7m_small_func_end7-aes_v7m_small.aes_planes.soft.sbox.sub_bytes
	.cantunwind
	.fnend
                                        @ -- End function
	.section	.text.aes_v7m_small.aes_planes.soft.sbox.sub_bytes_nots,"ax",%progbits
	.p2align	2                               @ -- Begin function aes_planes::soft::sbox::sub_bytes_nots::<#6af90bfc14753d47>
	.type	aes_v7m_small.aes_planes.soft.sbox.sub_bytes_nots,%function
	.code	16
	.thumb_func
aes_v7m_small.aes_planes.soft.sbox.sub_bytes_nots: @ @aes_v7m_small.aes_planes.soft.sbox.sub_bytes_nots
	.fnstart
@ %bb.0:                                @ %start
	.save	{r7, lr}
	push	{r7, lr}
	ldrd	r1, r2, [r0]
	ldrd	r3, r12, [r0, #20]
	mvn.w	lr, r1
	mvns	r2, r2
	mvns	r3, r3
	mvn.w	r1, r12
	strd	lr, r2, [r0]
	strd	r3, r1, [r0, #20]
	pop	{r7, pc}
.Laes_v7m_small_func_end8:
	.size	aes_v7m_small.aes_planes.soft.sbox.sub_bytes_nots, .Laes_v7m_small_func_end8-aes_v7m_small.aes_planes.soft.sbox.sub_bytes_nots
	.cantunwind
	.fnend
                                        @ -- End function
	.section	.text.aes_v7m_small.aes_planes.soft.key_columns.add_round_constant,"ax",%progbits
	.p2align	2                               @ -- Begin function aes_planes::soft::key_columns::add_round_constant::<#6af90bfc14753d47>
	.type	aes_v7m_small.aes_planes.soft.key_columns.add_round_constant,%function
	.code	16
	.thumb_func
aes_v7m_small.aes_planes.soft.key_columns.add_round_constant: @ @aes_v7m_small.aes_planes.soft.key_columns.add_round_constant
	.fnstart
@ %bb.0:                                @ %start
	.save	{r4, r5, r6, r7, r8, r9, lr}
	push.w	{r4, r5, r6, r7, r8, r9, lr}
	movs	r2, #64
	and.w	r3, r2, r1, lsl #6
	orr.w	r12, r3, r3, lsl #1
	and.w	r3, r2, r1, lsl #5
	ldrd	r6, r7, [r0]
	orr.w	lr, r3, r3, lsl #1
	and.w	r4, r2, r1, lsl #3
	orr.w	r9, r4, r4, lsl #1
	eor.w	lr, r7, lr, lsl #8
	and.w	r4, r2, r1, lsl #1
	ldr	r7, [r0, #20]
	orr.w	r4, r4, r4, lsl #1
	and.w	r3, r2, r1, lsl #4
	and.w	r5, r2, r1, lsl #2
	and.w	r2, r2, r1, lsr #1
	and	r1, r1, #64
	eor.w	r4, r7, r4, lsl #8
	ldr	r7, [r0, #24]
	orr.w	r8, r5, r5, lsl #1
	ldr	r5, [r0, #8]
	orr.w	r1, r1, r1, lsl #1
	orr.w	r3, r3, r3, lsl #1
	eor.w	r1, r7, r1, lsl #8
	ldr	r7, [r0, #28]
	eor.w	r12, r6, r12, lsl #8
	eor.w	r3, r5, r3, lsl #8
	ldr	r5, [r0, #12]
	ldr	r6, [r0, #16]
	orr.w	r2, r2, r2, lsl #1
	eor.w	r2, r7, r2, lsl #8
	strd	r12, lr, [r0]
	add.w	r12, r0, #8
	eor.w	r5, r5, r9, lsl #8
	eor.w	r6, r6, r8, lsl #8
	stm.w	r12, {r3, r5, r6}
	strd	r4, r1, [r0, #20]
	str	r2, [r0, #28]
	pop.w	{r4, r5, r6, r7, r8, r9, pc}
.Laes_v7m_small_func_end9:
	.size	aes_v7m_small.aes_planes.soft.key_columns.add_round_constant, .Laes_v7m_small_func_end9-aes_v7m_small.aes_planes.soft.key_columns.add_round_constant
	.cantunwind
	.fnend
                                        @ -- End function
	.section	.text.aes_v7m_small.aes_planes.soft.key_columns.summed_columns,"ax",%progbits
	.p2align	2                               @ -- Begin function aes_planes::soft::key_columns::summed_columns::<#6af90bfc14753d47>
	.type	aes_v7m_small.aes_planes.soft.key_columns.summed_columns,%function
	.code	16
	.thumb_func
aes_v7m_small.aes_planes.soft.key_columns.summed_columns: @ @aes_v7m_small.aes_planes.soft.key_columns.summed_columns
	.fnstart
@ %bb.0:                                @ %start
	.save	{r4, r5, r6, r7, r8, r9, r10, r11, lr}
	push.w	{r4, r5, r6, r7, r8, r9, r10, r11, lr}
	.pad	#4
	sub	sp, #4
	ldrd	r7, r4, [r2]
	ldm.w	r1, {r5, r6, r8, r9}
	rors	r7, r3
	bic	r7, r7, #-50529028
	eors	r7, r5
	mov.w	r12, #-50529028
	and.w	r5, r12, r7, lsl #2
	eors	r5, r7
	mov.w	lr, #-252645136
	rors	r4, r3
	and.w	r7, lr, r5, lsl #4
	bic	r4, r4, #-50529028
	eors	r5, r7
	eors	r4, r6
	str	r5, [sp]                        @ 4-byte Spill
	and.w	r5, r12, r4, lsl #2
	ldrd	r11, r10, [r2, #8]
	eors	r4, r5
	and.w	r5, lr, r4, lsl #4
	eors	r5, r4
	ror.w	r4, r11, r3
	bic	r4, r4, #-50529028
	eor.w	r4, r4, r8
	and.w	r6, r12, r4, lsl #2
	eors	r4, r6
	and.w	r6, lr, r4, lsl #4
	eor.w	r8, r6, r4
	ror.w	r4, r10, r3
	bic	r4, r4, #-50529028
	eor.w	r4, r4, r9
	and.w	r7, r12, r4, lsl #2
	eors	r4, r7
	and.w	r7, lr, r4, lsl #4
	eor.w	r9, r7, r4
	ldr	r4, [r2, #16]
	ldr	r6, [r1, #16]
	rors	r4, r3
	bic	r4, r4, #-50529028
	eors	r4, r6
	and.w	r6, r12, r4, lsl #2
	eors	r4, r6
	and.w	r6, lr, r4, lsl #4
	eor.w	r10, r6, r4
	ldr	r6, [r2, #20]
	ldr	r7, [r1, #20]
	rors	r6, r3
	bic	r6, r6, #-50529028
	eors	r6, r7
	and.w	r7, r12, r6, lsl #2
	eors	r6, r7
	and.w	r7, lr, r6, lsl #4
	eors	r6, r7
	ldr	r7, [r2, #24]
	ldr	r2, [r2, #28]
	ldr	r4, [r1, #24]
	ldr	r1, [r1, #28]
	rors	r2, r3
	rors	r7, r3
	bic	r2, r2, #-50529028
	bic	r7, r7, #-50529028
	eors	r1, r2
	eors	r4, r7
	and.w	r2, r12, r1, lsl #2
	and.w	r7, r12, r4, lsl #2
	eors	r1, r2
	eors	r4, r7
	and.w	r2, lr, r1, lsl #4
	and.w	r7, lr, r4, lsl #4
	eors	r1, r2
	ldr	r2, [sp]                        @ 4-byte Reload
	eors	r4, r7
	str	r2, [r0]
	str	r5, [r0, #4]
	str.w	r8, [r0, #8]
	str.w	r9, [r0, #12]
	str.w	r10, [r0, #16]
	str	r6, [r0, #20]
	str	r4, [r0, #24]
	str	r1, [r0, #28]
	add	sp, #4
	pop.w	{r4, r5, r6, r7, r8, r9, r10, r11, pc}
.Laes_v7m_small_func_end10:
	.size	aes_v7m_small.aes_planes.soft.key_columns.summed_columns, .Laes_v7m_small_func_end10-aes_v7m_small.aes_planes.soft.key_columns.summed_columns
	.cantunwind
	.fnend
                                        @ -- End function
	.section	.text.aes_v7m_small.aes_soft.soft.plane_words.PlaneWordsFourWords.store,"ax",%progbits
	.p2align	2                               @ -- Begin function aes_soft::soft::plane_words::PlaneWordsFourWords::store::<#6af90bfc14753d47>
	.type	aes_v7m_small.aes_soft.soft.plane_words.PlaneWordsFourWords.store,%function
	.code	16
	.thumb_func
aes_v7m_small.aes_soft.soft.plane_words.PlaneWordsFourWords.store: @ @aes_v7m_small.aes_soft.soft.plane_words.PlaneWordsFourWords.store
	.fnstart
@ %bb.0:                                @ %start
	.save	{r4, r5, r6, r7, lr}
	push	{r4, r5, r6, r7, lr}
	.pad	#36
	sub	sp, #36
	ldr	r1, [sp, #56]
	add	r7, sp, #4
	mov	r5, r2
	mov	r6, r0
	mov	r0, r7
	movs	r2, #32
	mov	r4, r3
	bl	memcpy
	mov	r0, r6
	mov	r2, r5
	mov	r3, r4
	str	r7, [sp]
	bl	aes_v7m_small.aes_planes.soft.round_keys.store_round_key
	add	sp, #36
	pop	{r4, r5, r6, r7, pc}
.Laes_v7m_small_func_end11:
	.size	aes_v7m_small.aes_soft.soft.plane_words.PlaneWordsFourWords.store, .Laes_v7m_small_func_end11-aes_v7m_small.aes_soft.soft.plane_words.PlaneWordsFourWords.store
	.cantunwind
	.fnend
                                        @ -- End function
	.section	.text.aes_v7m_small.aes_planes.soft.round_keys.store_round_key,"ax",%progbits
	.p2align	2                               @ -- Begin function aes_planes::soft::round_keys::store_round_key::<#6af90bfc14753d47>
	.type	aes_v7m_small.aes_planes.soft.round_keys.store_round_key,%function
	.code	16
	.thumb_func
aes_v7m_small.aes_planes.soft.round_keys.store_round_key: @ @aes_v7m_small.aes_planes.soft.round_keys.store_round_key
	.fnstart
@ %bb.0:                                @ %start
	ldr	r1, [sp]
	lsls	r3, r2, #5
	ldr.w	r12, [r1]
	str.w	r12, [r0, r3]
	ldr	r3, [r1, #4]
	add.w	r0, r0, r2, lsl #5
	str	r3, [r0, #4]
	ldr	r2, [r1, #8]
	str	r2, [r0, #8]
	ldr	r2, [r1, #12]
	str	r2, [r0, #12]
	ldr	r2, [r1, #16]
	str	r2, [r0, #16]
	ldr	r2, [r1, #20]
	str	r2, [r0, #20]
	ldr	r2, [r1, #24]
	str	r2, [r0, #24]
	ldr	r1, [r1, #28]
	str	r1, [r0, #28]
	bx	lr
.Laes_v7m_small_func_end12:
	.size	aes_v7m_small.aes_planes.soft.round_keys.store_round_key, .Laes_v7m_small_func_end12-aes_v7m_small.aes_planes.soft.round_keys.store_round_key
	.cantunwind
	.fnend
                                        @ -- End function
	.section	.text.aes_v7m_small.aes_soft.soft.plane_words.PlaneWordsFourWords.straddled,"ax",%progbits
	.p2align	2                               @ -- Begin function aes_soft::soft::plane_words::PlaneWordsFourWords::straddled::<#6af90bfc14753d47>
	.type	aes_v7m_small.aes_soft.soft.plane_words.PlaneWordsFourWords.straddled,%function
	.code	16
	.thumb_func
aes_v7m_small.aes_soft.soft.plane_words.PlaneWordsFourWords.straddled: @ @aes_v7m_small.aes_soft.soft.plane_words.PlaneWordsFourWords.straddled
	.fnstart
@ %bb.0:                                @ %start
	.save	{r4, r5, r6, r7, lr}
	push	{r4, r5, r6, r7, lr}
	.pad	#100
	sub	sp, #100
	add	r6, sp, #36
	mov	r4, r2
	mov	r5, r0
	mov	r0, r6
	movs	r2, #32
	bl	memcpy
	add	r7, sp, #4
	mov	r0, r7
	mov	r1, r4
	movs	r2, #32
	bl	memcpy
	add	r4, sp, #68
	mov	r0, r4
	mov	r1, r6
	mov	r2, r7
	bl	aes_v7m_small.aes_planes.soft.key_columns.straddle_columns
	mov	r0, r5
	mov	r1, r4
	movs	r2, #32
	bl	memcpy
	add	sp, #100
	pop	{r4, r5, r6, r7, pc}
.Laes_v7m_small_func_end13:
	.size	aes_v7m_small.aes_soft.soft.plane_words.PlaneWordsFourWords.straddled, .Laes_v7m_small_func_end13-aes_v7m_small.aes_soft.soft.plane_words.PlaneWordsFourWords.straddled
	.cantunwind
	.fnend
                                        @ -- End function
	.section	.text.aes_v7m_small.aes_planes.soft.key_columns.straddle_columns,"ax",%progbits
	.p2align	2                               @ -- Begin function aes_planes::soft::key_columns::straddle_columns::<#6af90bfc14753d47>
	.type	aes_v7m_small.aes_planes.soft.key_columns.straddle_columns,%function
	.code	16
	.thumb_func
aes_v7m_small.aes_planes.soft.key_columns.straddle_columns: @ @aes_v7m_small.aes_planes.soft.key_columns.straddle_columns
	.fnstart
@ %bb.0:                                @ %start
	.save	{r4, r5, r6, r7, r8, r9, r10, r11, lr}
	push.w	{r4, r5, r6, r7, r8, r9, r10, r11, lr}
	.pad	#4
	sub	sp, #4
	mov	r5, r2
	ldr	r2, [r1]
	mov	r6, r1
	ldr	r1, [r5]
	mov	r4, r0
	mov	r0, r2
	bl	aes_v7m_small.aes_planes.soft.key_columns.straddle
	ldr	r2, [r6, #4]
	ldr	r1, [r5, #4]
	str	r0, [sp]                        @ 4-byte Spill
	mov	r0, r2
	bl	aes_v7m_small.aes_planes.soft.key_columns.straddle
	ldr	r2, [r6, #8]
	ldr	r1, [r5, #8]
	mov	r9, r0
	mov	r0, r2
	bl	aes_v7m_small.aes_planes.soft.key_columns.straddle
	ldr	r2, [r6, #12]
	ldr	r1, [r5, #12]
	mov	r10, r0
	mov	r0, r2
	bl	aes_v7m_small.aes_planes.soft.key_columns.straddle
	ldr	r2, [r6, #16]
	ldr	r1, [r5, #16]
	mov	r11, r0
	mov	r0, r2
	bl	aes_v7m_small.aes_planes.soft.key_columns.straddle
	ldr	r2, [r6, #20]
	ldr	r1, [r5, #20]
	mov	r7, r0
	mov	r0, r2
	bl	aes_v7m_small.aes_planes.soft.key_columns.straddle
	ldr	r2, [r6, #24]
	ldr	r1, [r5, #24]
	mov	r8, r0
	mov	r0, r2
	bl	aes_v7m_small.aes_planes.soft.key_columns.straddle
	ldr	r2, [r6, #28]
	ldr	r1, [r5, #28]
	mov	r5, r0
	mov	r0, r2
	bl	aes_v7m_small.aes_planes.soft.key_columns.straddle
	ldr	r1, [sp]                        @ 4-byte Reload
	str.w	r9, [r4, #4]
	str	r1, [r4]
	str.w	r10, [r4, #8]
	str.w	r11, [r4, #12]
	str	r7, [r4, #16]
	str.w	r8, [r4, #20]
	str	r5, [r4, #24]
	str	r0, [r4, #28]
	add	sp, #4
	pop.w	{r4, r5, r6, r7, r8, r9, r10, r11, pc}
.Laes_v7m_small_func_end14:
	.size	aes_v7m_small.aes_planes.soft.key_columns.straddle_columns, .Laes_v7m_small_func_end14-aes_v7m_small.aes_planes.soft.key_columns.straddle_columns
	.cantunwind
	.fnend
                                        @ -- End function
	.section	.text.aes_v7m_small.aes_planes.soft.key_columns.straddle,"ax",%progbits
	.p2align	2                               @ -- Begin function aes_planes::soft::key_columns::straddle::<#6af90bfc14753d47>
	.type	aes_v7m_small.aes_planes.soft.key_columns.straddle,%function
	.code	16
	.thumb_func
aes_v7m_small.aes_planes.soft.key_columns.straddle: @ @aes_v7m_small.aes_planes.soft.key_columns.straddle
	.fnstart
@ %bb.0:                                @ %start
	mov.w	r2, #252645135
	and.w	r0, r2, r0, lsr #4
	mov.w	r2, #-252645136
	and.w	r1, r2, r1, lsl #4
	add	r0, r1
	bx	lr
.Laes_v7m_small_func_end15:
	.size	aes_v7m_small.aes_planes.soft.key_columns.straddle, .Laes_v7m_small_func_end15-aes_v7m_small.aes_planes.soft.key_columns.straddle
	.cantunwind
	.fnend
                                        @ -- End function
	.section	.text.aes_v7m_small.aes_soft.soft.plane_words.PlaneWordsFourWords.plain,"ax",%progbits
	.p2align	2                               @ -- Begin function aes_soft::soft::plane_words::PlaneWordsFourWords::plain::<#6af90bfc14753d47>
	.type	aes_v7m_small.aes_soft.soft.plane_words.PlaneWordsFourWords.plain,%function
	.code	16
	.thumb_func
aes_v7m_small.aes_soft.soft.plane_words.PlaneWordsFourWords.plain: @ @aes_v7m_small.aes_soft.soft.plane_words.PlaneWordsFourWords.plain
	.fnstart
@ %bb.0:                                @ %start
	.save	{r4, r5, r6, r7, lr}
	push	{r4, r5, r6, r7, lr}
	.pad	#100
	sub	sp, #100
	add	r6, sp, #36
	mov	r4, r2
	mov	r5, r0
	mov	r0, r6
	movs	r2, #32
	bl	memcpy
	add	r7, sp, #4
	mov	r0, r7
	mov	r1, r4
	movs	r2, #32
	bl	memcpy
	add	r4, sp, #68
	mov	r0, r4
	mov	r1, r6
	mov	r2, r7
	movs	r3, #2
	bl	aes_v7m_small.aes_planes.soft.key_columns.summed_columns
	mov	r0, r5
	mov	r1, r4
	movs	r2, #32
	bl	memcpy
	add	sp, #100
	pop	{r4, r5, r6, r7, pc}
.Laes_v7m_small_func_end16:
	.size	aes_v7m_small.aes_soft.soft.plane_words.PlaneWordsFourWords.plain, .Laes_v7m_small_func_end16-aes_v7m_small.aes_soft.soft.plane_words.PlaneWordsFourWords.plain
	.cantunwind
	.fnend
                                        @ -- End function
	.section	.text.aes_v7m_small.aes_soft.soft.plane_words.PlaneWordsFourWords.substituted,"ax",%progbits
	.p2align	2                               @ -- Begin function aes_soft::soft::plane_words::PlaneWordsFourWords::substituted::<#6af90bfc14753d47>
	.type	aes_v7m_small.aes_soft.soft.plane_words.PlaneWordsFourWords.substituted,%function
	.code	16
	.thumb_func
aes_v7m_small.aes_soft.soft.plane_words.PlaneWordsFourWords.substituted: @ @aes_v7m_small.aes_soft.soft.plane_words.PlaneWordsFourWords.substituted
	.fnstart
@ %bb.0:                                @ %start
	.save	{r4, r5, r6, r7, lr}
	push	{r4, r5, r6, r7, lr}
	.pad	#100
	sub	sp, #100
	add	r6, sp, #36
	mov	r5, r2
	mov	r4, r0
	mov	r0, r6
	movs	r2, #32
	bl	memcpy
	add	r7, sp, #4
	mov	r0, r7
	mov	r1, r5
	movs	r2, #32
	bl	memcpy
	mov	r0, r7
	bl	aes_v7m_small.aes_soft.soft.plane_words.substitute
	add	r5, sp, #68
	mov	r0, r5
	mov	r1, r6
	mov	r2, r7
	movs	r3, #6
	bl	aes_v7m_small.aes_planes.soft.key_columns.summed_columns
	mov	r0, r4
	mov	r1, r5
	movs	r2, #32
	bl	memcpy
	add	sp, #100
	pop	{r4, r5, r6, r7, pc}
.Laes_v7m_small_func_end17:
	.size	aes_v7m_small.aes_soft.soft.plane_words.PlaneWordsFourWords.substituted, .Laes_v7m_small_func_end17-aes_v7m_small.aes_soft.soft.plane_words.PlaneWordsFourWords.substituted
	.cantunwind
	.fnend
                                        @ -- End function
	.section	.text.aes_v7m_small.aes_soft.soft.key_layout.store,"ax",%progbits
	.p2align	2                               @ -- Begin function aes_soft::soft::key_layout::store::<#dfb00681c6d298fe>
	.type	aes_v7m_small.aes_soft.soft.key_layout.store,%function
	.code	16
	.thumb_func
aes_v7m_small.aes_soft.soft.key_layout.store: @ @aes_v7m_small.aes_soft.soft.key_layout.store
	.fnstart
@ %bb.0:                                @ %start
	.save	{r4, r5, r6, r7, r8, r9, r10, r11, lr}
	push.w	{r4, r5, r6, r7, r8, r9, r10, r11, lr}
	.pad	#76
	sub	sp, #76
	mov	r9, r0
	add.w	r10, sp, #12
	mov	r11, r3
	str	r2, [sp, #8]                    @ 4-byte Spill
	mov	r0, r10
	mov	r1, r9
	movs	r2, #1
	movs	r3, #0
	movs	r5, #1
	movs	r7, #0
	bl	aes_v7m_small.aes_planes.soft.round_keys.round_key.1
	mov	r1, r10
	add.w	r8, sp, #44
	ldm	r1!, {r0, r2, r3, r6}
	mov	r12, r8
	stm.w	r12!, {r0, r2, r3, r6}
	ldm.w	r1, {r0, r2, r3, r6}
	stm.w	r12, {r0, r2, r3, r6}
	str.w	r11, [sp, #4]                   @ 4-byte Spill
	b	.Laes_v7m_small_BB18_3
.Laes_v7m_small_BB18_1:                               @ %join.8
                                        @   in Loop: Header=BB18_3 Depth=1
	bl	aes_v7m_small.aes_planes.soft.shifts.swap_columns
.Laes_v7m_small_BB18_2:                               @ %join.8
                                        @   in Loop: Header=BB18_3 Depth=1
	mov	r0, r8
	bl	aes_v7m_small.aes_planes.soft.sbox.sub_bytes_nots
	mov	r0, r9
	mov	r2, r5
	mov	r3, r7
	str.w	r8, [sp]
	bl	aes_v7m_small.aes_planes.soft.round_keys.store_round_key
	adds	r5, #1
	adc	r7, r7, #0
	mov	r0, r10
	mov	r1, r9
	mov	r2, r5
	mov	r3, r7
	bl	aes_v7m_small.aes_planes.soft.round_keys.round_key.1
	mov	r1, r10
	ldm	r1!, {r2, r3, r4, r6}
	mov	r0, r8
	stm	r0!, {r2, r3, r4, r6}
	ldr	r2, [sp, #8]                    @ 4-byte Reload
	subs	r2, r5, r2
	sbcs.w	r2, r7, r11
	ldm.w	r1, {r2, r3, r4, r6}
	stm	r0!, {r2, r3, r4, r6}
	bhs	.Laes_v7m_small_BB18_10
.Laes_v7m_small_BB18_3:                               @ %ok.10
                                        @ =>This Inner Loop Header: Depth=1
	and	r0, r5, #3
.Laes_v7m_small_CPI18_0:
	tbb	[pc, r0]
@ %bb.4:
.Laes_v7m_small_JTI18_0:
	.byte	(.Laes_v7m_small_BB18_6-(.Laes_v7m_small_CPI18_0+4))/2
	.byte	(.Laes_v7m_small_BB18_7-(.Laes_v7m_small_CPI18_0+4))/2
	.byte	(.Laes_v7m_small_BB18_5-(.Laes_v7m_small_CPI18_0+4))/2
	.byte	(.Laes_v7m_small_BB18_8-(.Laes_v7m_small_CPI18_0+4))/2
	.p2align	1
	.p2align	2
.Laes_v7m_small_BB18_5:                               @ %then.4.i
                                        @   in Loop: Header=BB18_3 Depth=1
	add	r0, sp, #44
	movs	r1, #4
	mov.w	r2, #251662080
	b	.Laes_v7m_small_BB18_1
.Laes_v7m_small_BB18_6:                               @ %ok.10
                                        @   in Loop: Header=BB18_3 Depth=1
	b	.Laes_v7m_small_BB18_2
.Laes_v7m_small_BB18_7:                               @ %then.1.i
                                        @   in Loop: Header=BB18_3 Depth=1
	movw	r2, #3072
	add.w	r11, sp, #44
	movt	r2, #783
	b	.Laes_v7m_small_BB18_9
	.p2align	2
.Laes_v7m_small_BB18_8:                               @ %then.7.i
                                        @   in Loop: Header=BB18_3 Depth=1
	movw	r2, #768
	add.w	r11, sp, #44
	movt	r2, #3087
.Laes_v7m_small_BB18_9:                               @ %join.8
                                        @   in Loop: Header=BB18_3 Depth=1
	mov	r0, r11
	movs	r1, #4
	bl	aes_v7m_small.aes_planes.soft.shifts.swap_columns
	mov	r0, r11
	ldr.w	r11, [sp, #4]                   @ 4-byte Reload
	movs	r1, #2
	mov.w	r2, #855651072
	b	.Laes_v7m_small_BB18_1
.Laes_v7m_small_BB18_10:                              @ %after.1.critedge
	mov	r0, r8
	bl	aes_v7m_small.aes_planes.soft.sbox.sub_bytes_nots
	mov	r0, r9
	mov	r2, r5
	mov	r3, r7
	str.w	r8, [sp]
	bl	aes_v7m_small.aes_planes.soft.round_keys.store_round_key
	add	sp, #76
	pop.w	{r4, r5, r6, r7, r8, r9, r10, r11, pc}
.Laes_v7m_small_func_end18:
	.size	aes_v7m_small.aes_soft.soft.key_layout.store, .Laes_v7m_small_func_end18-aes_v7m_small.aes_soft.soft.key_layout.store
	.cantunwind
	.fnend
                                        @ -- End function
	.section	.text.aes_v7m_small.aes_planes.soft.shifts.swap_columns,"ax",%progbits
	.p2align	2                               @ -- Begin function aes_planes::soft::shifts::swap_columns::<#6af90bfc14753d47>
	.type	aes_v7m_small.aes_planes.soft.shifts.swap_columns,%function
	.code	16
	.thumb_func
aes_v7m_small.aes_planes.soft.shifts.swap_columns: @ @aes_v7m_small.aes_planes.soft.shifts.swap_columns
	.fnstart
@ %bb.0:                                @ %start
	.save	{r4, r5, r6, r7, r8, r9, r10, r11, lr}
	push.w	{r4, r5, r6, r7, r8, r9, r10, r11, lr}
	.pad	#20
	sub	sp, #20
	mov	r4, r0
	mov	r5, r2
	ldr	r2, [r4, #24]
	ldr	r0, [r0]
	str	r2, [sp, #8]                    @ 4-byte Spill
	ldr	r2, [r4, #28]
	add.w	r10, r4, #4
	ldm.w	r10, {r7, r8, r10}
	ldrd	r9, r11, [r4, #16]
	str	r2, [sp, #16]                   @ 4-byte Spill
	mov	r2, r5
	mov	r6, r1
	bl	aes_v7m_small.aes_planes.soft.shifts.delta_swap_1
	str	r0, [sp, #12]                   @ 4-byte Spill
	mov	r0, r7
	mov	r1, r6
	mov	r2, r5
	bl	aes_v7m_small.aes_planes.soft.shifts.delta_swap_1
	str	r0, [sp, #4]                    @ 4-byte Spill
	mov	r0, r8
	mov	r1, r6
	mov	r2, r5
	bl	aes_v7m_small.aes_planes.soft.shifts.delta_swap_1
	mov	r8, r0
	mov	r0, r10
	mov	r1, r6
	mov	r2, r5
	bl	aes_v7m_small.aes_planes.soft.shifts.delta_swap_1
	mov	r10, r0
	mov	r0, r9
	mov	r1, r6
	mov	r2, r5
	bl	aes_v7m_small.aes_planes.soft.shifts.delta_swap_1
	mov	r9, r0
	mov	r0, r11
	mov	r1, r6
	mov	r2, r5
	bl	aes_v7m_small.aes_planes.soft.shifts.delta_swap_1
	mov	r11, r0
	ldr	r0, [sp, #8]                    @ 4-byte Reload
	mov	r1, r6
	mov	r2, r5
	bl	aes_v7m_small.aes_planes.soft.shifts.delta_swap_1
	mov	r7, r0
	ldr	r0, [sp, #16]                   @ 4-byte Reload
	mov	r1, r6
	mov	r2, r5
	bl	aes_v7m_small.aes_planes.soft.shifts.delta_swap_1
	ldr	r1, [sp, #12]                   @ 4-byte Reload
	adds	r2, r4, #4
	str	r1, [r4]
	ldr	r1, [sp, #4]                    @ 4-byte Reload
	strd	r9, r11, [r4, #16]
	stm.w	r2, {r1, r8, r10}
	strd	r7, r0, [r4, #24]
	add	sp, #20
	pop.w	{r4, r5, r6, r7, r8, r9, r10, r11, pc}
.Laes_v7m_small_func_end19:
	.size	aes_v7m_small.aes_planes.soft.shifts.swap_columns, .Laes_v7m_small_func_end19-aes_v7m_small.aes_planes.soft.shifts.swap_columns
	.cantunwind
	.fnend
                                        @ -- End function
	.section	.text.aes_v7m_small.aes_planes.soft.shifts.delta_swap_1,"ax",%progbits
	.p2align	2                               @ -- Begin function aes_planes::soft::shifts::delta_swap_1::<#6af90bfc14753d47>
	.type	aes_v7m_small.aes_planes.soft.shifts.delta_swap_1,%function
	.code	16
	.thumb_func
aes_v7m_small.aes_planes.soft.shifts.delta_swap_1: @ @aes_v7m_small.aes_planes.soft.shifts.delta_swap_1
	.fnstart
@ %bb.0:                                @ %start
	lsr.w	r3, r0, r1
	eors	r3, r0
	ands	r2, r3
	lsl.w	r1, r2, r1
	eors	r0, r1
	eors	r0, r2
	bx	lr
.Laes_v7m_small_func_end20:
	.size	aes_v7m_small.aes_planes.soft.shifts.delta_swap_1, .Laes_v7m_small_func_end20-aes_v7m_small.aes_planes.soft.shifts.delta_swap_1
	.cantunwind
	.fnend
                                        @ -- End function
	.section	.text.aes_v7m_small.aes_cipher.zeroize.stack.wipe_stack.768,"ax",%progbits
	.p2align	2                               @ -- Begin function aes_cipher::zeroize::stack::wipe_stack::<=768>
	.type	aes_v7m_small.aes_cipher.zeroize.stack.wipe_stack.768,%function
	.code	16
	.thumb_func
aes_v7m_small.aes_cipher.zeroize.stack.wipe_stack.768: @ @aes_v7m_small.aes_cipher.zeroize.stack.wipe_stack.768
	.fnstart
@ %bb.0:                                @ %start
	.save	{r4, r5, r7, lr}
	push	{r4, r5, r7, lr}
	.pad	#776
	sub.w	sp, sp, #776
	add	r4, sp, #8
	mov	r0, r4
	movs	r1, #0
	mov.w	r2, #768
	movs	r5, #0
	bl	memset
	strd	r5, r5, [sp]
	@APP
	@NO_APP
	mov	r0, sp
	ldrd	r1, r2, [r0]
	@APP
	@NO_APP
	subs.w	r3, r1, #768
	sbcs	r2, r2, #0
	itt	hs
	addhs.w	sp, sp, #776
	pophs	{r4, r5, r7, pc}
.Laes_v7m_small_BB21_1:                               @ %then.1
	ldrb	r1, [r4, r1]
	@APP
	@NO_APP
	ldrd	r2, r3, [r0]
	strd	r1, r5, [r0]
	@APP
	@NO_APP
	add.w	sp, sp, #776
	pop	{r4, r5, r7, pc}
.Laes_v7m_small_func_end21:
	.size	aes_v7m_small.aes_cipher.zeroize.stack.wipe_stack.768, .Laes_v7m_small_func_end21-aes_v7m_small.aes_cipher.zeroize.stack.wipe_stack.768
	.cantunwind
	.fnend
                                        @ -- End function
	.section	.text.aes_v7m_small.aes_ctr.add_in_batches.add_to_one,"ax",%progbits
	.p2align	2                               @ -- Begin function aes_ctr::add_in_batches::add_to_one::<#72982bb057555e7c>
	.type	aes_v7m_small.aes_ctr.add_in_batches.add_to_one,%function
	.code	16
	.thumb_func
aes_v7m_small.aes_ctr.add_in_batches.add_to_one: @ @aes_v7m_small.aes_ctr.add_in_batches.add_to_one
	.fnstart
@ %bb.0:                                @ %start
	.save	{r4, r5, r6, r7, r8, r9, r10, r11, lr}
	push.w	{r4, r5, r6, r7, r8, r9, r10, r11, lr}
	.pad	#36
	sub	sp, #36
	mov	r6, r0
	lsrs	r0, r2, #4
	mov	r4, r2
	ldr.w	r8, [sp, #72]
	ldrd	r9, r10, [sp, #80]
	movs	r7, #0
	orr.w	r2, r0, r3, lsl #28
	lsrs	r3, r3, #4
	movs	r5, #1
	add.w	r11, sp, #20
	mov	r0, r1
	strd	r7, r7, [sp, #28]
	strd	r7, r7, [sp, #20]
	strd	r5, r7, [sp, #8]
	str.w	r11, [sp]
	bl	aes_v7m_small.aes_ctr.counter_blocks.WholeBlockCounterBlocks.put
	ldr	r0, [r6]
	ldr	r2, [r6, #8]
	ldr	r3, [r6, #12]
	strd	r5, r7, [sp, #8]
	str.w	r11, [sp]
	bl	aes_v7m_small.aes_narrow.blocks.process_all_batches.1
	bl	aes_v7m_small.aes_cipher.zeroize.stack.wipe_stack.1024
	and	r2, r4, #15
	mov	r0, r11
	movs	r3, #0
	strd	r9, r10, [sp, #8]
	str.w	r8, [sp]
	bl	aes_v7m_small.aes_ctr.add_blocks.add_blocks
	add	sp, #36
	pop.w	{r4, r5, r6, r7, r8, r9, r10, r11, pc}
.Laes_v7m_small_func_end22:
	.size	aes_v7m_small.aes_ctr.add_in_batches.add_to_one, .Laes_v7m_small_func_end22-aes_v7m_small.aes_ctr.add_in_batches.add_to_one
	.cantunwind
	.fnend
                                        @ -- End function
	.section	.text.aes_v7m_small.aes_ctr.counter_blocks.WholeBlockCounterBlocks.put,"ax",%progbits
	.p2align	2                               @ -- Begin function aes_ctr::counter_blocks::WholeBlockCounterBlocks::put
	.type	aes_v7m_small.aes_ctr.counter_blocks.WholeBlockCounterBlocks.put,%function
	.code	16
	.thumb_func
aes_v7m_small.aes_ctr.counter_blocks.WholeBlockCounterBlocks.put: @ @aes_v7m_small.aes_ctr.counter_blocks.WholeBlockCounterBlocks.put
	.fnstart
@ %bb.0:                                @ %start
	.save	{r4, r5, r6, lr}
	push	{r4, r5, r6, lr}
	ldr	r1, [r0, #12]
	ldr	r5, [r0]
	rev	r1, r1
	adds	r2, r2, r1
	ldr	r1, [r0, #4]
	ldr	r0, [r0, #8]
	rev	r1, r1
	rev	r0, r0
	adcs	r0, r3
	rev	r5, r5
	adcs	r3, r1, #0
	ldr.w	r12, [sp, #16]
	adc	r1, r5, #0
	lsrs	r5, r1, #24
	strb.w	r5, [r12]
	lsrs	r5, r1, #16
	strb.w	r5, [r12, #1]
	lsrs	r5, r1, #8
	strb.w	r5, [r12, #2]
	lsrs	r5, r3, #24
	strb.w	r5, [r12, #4]
	lsrs	r5, r3, #16
	strb.w	r5, [r12, #5]
	lsrs	r5, r3, #8
	strb.w	r5, [r12, #6]
	lsrs	r5, r0, #24
	strb.w	r5, [r12, #8]
	lsrs	r5, r0, #16
	strb.w	r5, [r12, #9]
	lsrs	r5, r0, #8
	ldrd	r4, lr, [sp, #24]
	strb.w	r5, [r12, #10]
	lsrs	r5, r2, #24
	strb.w	r5, [r12, #12]
	lsrs	r5, r2, #16
	strb.w	r5, [r12, #13]
	subs	r5, r4, #1
	lsr.w	r6, r2, #8
	sbc	r4, lr, #0
	strb.w	r6, [r12, #14]
	orrs.w	r6, r5, r4
	strb.w	r1, [r12, #3]
	strb.w	r3, [r12, #7]
	strb.w	r0, [r12, #11]
	strb.w	r2, [r12, #15]
	it	eq
	popeq	{r4, r5, r6, pc}
	.p2align	2
.Laes_v7m_small_BB23_1:                               @ %join.5
                                        @ =>This Inner Loop Header: Depth=1
	adds	r2, #1
	eor	r6, r5, #1
	adcs	r0, r0, #0
	orr.w	r6, r6, r4
	adcs	r3, r3, #0
	adc	r1, r1, #0
	cmp	r6, #0
	bne	.Laes_v7m_small_BB23_1
@ %bb.2:                                @ %after.1.loopexit
	lsrs	r6, r1, #24
	strb.w	r6, [r12, #16]
	lsrs	r6, r1, #16
	strb.w	r6, [r12, #17]
	uxth	r6, r1
	strb.w	r1, [r12, #19]
	lsrs	r1, r3, #24
	strb.w	r1, [r12, #20]
	lsrs	r1, r3, #16
	strb.w	r1, [r12, #21]
	uxth	r1, r3
	lsrs	r1, r1, #8
	strb.w	r1, [r12, #22]
	lsrs	r1, r0, #24
	strb.w	r1, [r12, #24]
	lsrs	r1, r0, #16
	strb.w	r1, [r12, #25]
	uxth	r1, r0
	strb.w	r0, [r12, #27]
	lsrs	r0, r2, #24
	strb.w	r0, [r12, #28]
	lsrs	r0, r2, #16
	strb.w	r0, [r12, #29]
	uxth	r0, r2
	lsrs	r6, r6, #8
	lsrs	r1, r1, #8
	lsrs	r0, r0, #8
	strb.w	r6, [r12, #18]
	strb.w	r3, [r12, #23]
	strb.w	r1, [r12, #26]
	strb.w	r0, [r12, #30]
	strb.w	r2, [r12, #31]
	pop	{r4, r5, r6, pc}
.Laes_v7m_small_func_end23:
	.size	aes_v7m_small.aes_ctr.counter_blocks.WholeBlockCounterBlocks.put, .Laes_v7m_small_func_end23-aes_v7m_small.aes_ctr.counter_blocks.WholeBlockCounterBlocks.put
	.cantunwind
	.fnend
                                        @ -- End function
	.section	.text.aes_v7m_small.aes_narrow.blocks.process_all_batches.1,"ax",%progbits
	.p2align	2                               @ -- Begin function aes_narrow::blocks::process_all_batches::<#1a21aa7f601e7603>
	.type	aes_v7m_small.aes_narrow.blocks.process_all_batches.1,%function
	.code	16
	.thumb_func
aes_v7m_small.aes_narrow.blocks.process_all_batches.1: @ @aes_v7m_small.aes_narrow.blocks.process_all_batches.1
	.fnstart
@ %bb.0:                                @ %start
	.save	{r4, r5, r6, r7, r8, r9, r10, r11, lr}
	push.w	{r4, r5, r6, r7, r8, r9, r10, r11, lr}
	.pad	#20
	sub	sp, #20
	ldrd	r4, r11, [sp, #64]
	orrs.w	r1, r4, r11
	beq	.Laes_v7m_small_BB24_3
@ %bb.1:                                @ %join.5.preheader
	mov	r8, r3
	mov	r5, r2
	mov	r6, r0
	mov.w	r10, #0
	mov.w	r9, #0
	movs	r7, #0
	.p2align	2
.Laes_v7m_small_BB24_2:                               @ %join.5
                                        @ =>This Inner Loop Header: Depth=1
	subs.w	r1, r4, r9
	sbc.w	r0, r11, r7
	cmp	r1, #2
	mov.w	r2, #2
	it	hs
	movhs	r1, r2
	cmp	r0, #0
	ldr	r0, [sp, #56]
	it	ne
	movne	r1, r2
	add.w	r0, r0, r9, lsl #4
	adds.w	r9, r9, r1
	str	r0, [sp]
	mov	r0, r6
	mov	r2, r5
	mov	r3, r8
	adc	r7, r7, #0
	strd	r1, r10, [sp, #8]
	bl	aes_v7m_small.aes_soft.soft.blocks.filled_up.process_filled_up.1
	subs.w	r0, r9, r4
	sbcs.w	r0, r7, r11
	blo	.Laes_v7m_small_BB24_2
.Laes_v7m_small_BB24_3:                               @ %after.1
	add	sp, #20
	pop.w	{r4, r5, r6, r7, r8, r9, r10, r11, pc}
.Laes_v7m_small_func_end24:
	.size	aes_v7m_small.aes_narrow.blocks.process_all_batches.1, .Laes_v7m_small_func_end24-aes_v7m_small.aes_narrow.blocks.process_all_batches.1
	.cantunwind
	.fnend
                                        @ -- End function
	.section	.text.aes_v7m_small.aes_soft.soft.blocks.filled_up.process_filled_up.1,"ax",%progbits
	.p2align	2                               @ -- Begin function aes_soft::soft::blocks::filled_up::process_filled_up::<#1a21aa7f601e7603>
	.type	aes_v7m_small.aes_soft.soft.blocks.filled_up.process_filled_up.1,%function
	.code	16
	.thumb_func
aes_v7m_small.aes_soft.soft.blocks.filled_up.process_filled_up.1: @ @aes_v7m_small.aes_soft.soft.blocks.filled_up.process_filled_up.1
	.fnstart
@ %bb.0:                                @ %start
	.save	{r4, r5, r6, r7, r8, r9, r10, r11, lr}
	push.w	{r4, r5, r6, r7, r8, r9, r10, r11, lr}
	.pad	#132
	sub	sp, #132
	ldr.w	r11, [sp, #168]
	mov	r12, r0
	movs	r0, #0
	strd	r0, r0, [sp, #92]
	strd	r0, r0, [sp, #84]
	strd	r0, r0, [sp, #76]
	strd	r0, r0, [sp, #68]
	strd	r0, r0, [sp, #36]
	strd	r0, r0, [sp, #44]
	strd	r0, r0, [sp, #52]
	strd	r0, r0, [sp, #60]
	strd	r0, r0, [sp, #4]
	strd	r0, r0, [sp, #12]
	strd	r0, r0, [sp, #20]
	strd	r0, r0, [sp, #28]
	ldr.w	r0, [r11]
	ldr.w	r4, [r11, #12]
	add	r1, sp, #100
	ldr.w	r6, [r11, #4]
	ldr.w	r7, [r11, #8]
	stm	r1!, {r0, r6, r7}
	strd	r4, r0, [sp, #112]
	lsrs	r0, r2, #3
	ldrd	r9, r8, [sp, #176]
	orr.w	r0, r0, r3, lsl #29
	lsrs	r3, r3, #3
	subs	r2, r0, #1
	sbc	r3, r3, #0
	orrs.w	r0, r9, r8
	clz	r0, r0
	lsr.w	r10, r0, #5
	strd	r6, r7, [sp, #120]
	str	r4, [sp, #128]
	beq	.Laes_v7m_small_BB25_2
@ %bb.1:                                @ %join.8.i
	ldr.w	r1, [r11, #4]
	add.w	lr, sp, #104
	ldr.w	r0, [r11]
	ldr.w	r7, [r11, #12]
	ldr.w	r6, [r11, #8]
	stm.w	lr, {r1, r6, r7}
	eor	r1, r9, #1
	orrs.w	r1, r1, r8
	str	r0, [sp, #100]
	bne	.Laes_v7m_small_BB25_3
.Laes_v7m_small_BB25_2:                               @ %then.6.i
	add	r0, sp, #100
	ldm	r0!, {r1, r4, r5, r6}
	add	r7, sp, #36
	stm	r7!, {r1, r4, r5, r6}
	ldm.w	r0, {r1, r4, r5, r6}
	stm	r7!, {r1, r4, r5, r6}
	b	.Laes_v7m_small_BB25_4
.Laes_v7m_small_BB25_3:                               @ %join.8.i.1
	ldr.w	r0, [r11, #16]
	add.w	lr, sp, #116
	ldr.w	r1, [r11, #20]
	ldr.w	r7, [r11, #28]
	ldr.w	r6, [r11, #24]
	stm.w	lr, {r0, r1, r6, r7}
	add	r0, sp, #100
	ldm	r0!, {r4, r5, r6, r7}
	add	r1, sp, #36
	stm	r1!, {r4, r5, r6, r7}
	ldm.w	r0, {r4, r5, r6, r7}
	stm	r1!, {r4, r5, r6, r7}
.Laes_v7m_small_BB25_4:                               @ %"aes_soft::soft::blocks::filled_up::filled_up::<#7d3b633001169d8c>.exit"
	add	r4, sp, #4
	add	r7, sp, #36
	mov	r0, r4
	mov	r1, r12
	str	r7, [sp]
	bl	aes_v7m_small.aes_soft.soft.ciphers.planes.process_outlined.1
	ldm	r4!, {r1, r2, r3, r7}
	add	r0, sp, #68
	stm	r0!, {r1, r2, r3, r7}
	ldm.w	r4, {r1, r2, r3, r7}
	cmp.w	r10, #0
	stm	r0!, {r1, r2, r3, r7}
	bne	.Laes_v7m_small_BB25_7
@ %bb.5:                                @ %join.8.i22
	add	r3, sp, #68
	ldm	r3, {r0, r1, r3}
	ldr	r2, [sp, #80]
	str.w	r1, [r11, #4]
	eor	r1, r9, #1
	orrs.w	r1, r1, r8
	str.w	r2, [r11, #12]
	str.w	r3, [r11, #8]
	str.w	r0, [r11]
	beq	.Laes_v7m_small_BB25_7
@ %bb.6:                                @ %join.8.i22.1
	add	r3, sp, #84
	ldr	r2, [sp, #96]
	ldm	r3, {r0, r1, r3}
	str.w	r2, [r11, #28]
	str.w	r3, [r11, #24]
	str.w	r1, [r11, #20]
	str.w	r0, [r11, #16]
.Laes_v7m_small_BB25_7:                               @ %"aes_soft::soft::blocks::filled_up::copy_first::<#7d3b633001169d8c>.exit"
	add	sp, #132
	pop.w	{r4, r5, r6, r7, r8, r9, r10, r11, pc}
.Laes_v7m_small_func_end25:
	.size	aes_v7m_small.aes_soft.soft.blocks.filled_up.process_filled_up.1, .Laes_v7m_small_func_end25-aes_v7m_small.aes_soft.soft.blocks.filled_up.process_filled_up.1
	.cantunwind
	.fnend
                                        @ -- End function
	.section	.text.aes_v7m_small.aes_soft.soft.ciphers.planes.process_outlined.1,"ax",%progbits
	.p2align	2                               @ -- Begin function aes_soft::soft::ciphers::planes::process_outlined::<#18f5f0e5023a24e4>
	.type	aes_v7m_small.aes_soft.soft.ciphers.planes.process_outlined.1,%function
	.code	16
	.thumb_func
aes_v7m_small.aes_soft.soft.ciphers.planes.process_outlined.1: @ @aes_v7m_small.aes_soft.soft.ciphers.planes.process_outlined.1
	.fnstart
@ %bb.0:                                @ %start
	.save	{r4, r5, r6, r7, r8, r9, r10, r11, lr}
	push.w	{r4, r5, r6, r7, r8, r9, r10, r11, lr}
	.pad	#140
	sub	sp, #140
	mov	r9, r1
	ldr	r1, [sp, #176]
	mov	r5, r2
	str	r0, [sp, #8]                    @ 4-byte Spill
	ldr	r0, [r1]
	ldr	r2, [r1, #4]
	ldr	r6, [r1, #16]
	ldr	r4, [r1, #20]
	mov	r8, r3
	ldr	r3, [r1, #8]
	ldr.w	r12, [r1, #12]
	ldr	r7, [r1, #24]
	ldr	r1, [r1, #28]
	strd	r0, r6, [sp, #108]
	strd	r2, r4, [sp, #116]
	add	r0, sp, #124
	add	r4, sp, #44
	stm.w	r0, {r3, r7, r12}
	str	r1, [sp, #136]
	add	r1, sp, #108
	mov	r0, r4
	bl	aes_v7m_small.aes_planes.soft.word.transpose.transpose
	subs	r0, r5, #2
	str	r5, [sp, #20]                   @ 4-byte Spill
	str.w	r8, [sp, #4]                    @ 4-byte Spill
	str	r0, [sp, #12]                   @ 4-byte Spill
	mov	r2, r4
	ldm	r2!, {r3, r4, r6, r7}
	add	r1, sp, #76
	sbc	r10, r8, #0
	lsrs	r0, r0, #2
	stm	r1!, {r3, r4, r6, r7}
	orr.w	r11, r0, r10, lsl #30
	ldm.w	r2, {r0, r3, r6, r7}
	movs	r2, #0
	stm	r1!, {r0, r3, r6, r7}
	add	r0, sp, #108
	mov	r1, r9
	movs	r3, #0
	str.w	r9, [sp, #32]                   @ 4-byte Spill
	bl	aes_v7m_small.aes_planes.soft.round_keys.round_key.2
	add.w	lr, sp, #108
	ldm.w	lr, {r0, r1, r2, r3, r7, r8, lr}
	ldrd	r4, r6, [sp, #76]
	ldr.w	r12, [sp, #136]
	eor.w	r5, r4, r0
	ldr	r4, [sp, #84]
	eors	r1, r6
	ldr	r6, [sp, #88]
	eors	r2, r4
	ldr	r4, [sp, #92]
	eors	r3, r6
	ldr	r6, [sp, #96]
	eors	r4, r7
	ldr	r7, [sp, #100]
	ldr	r0, [sp, #104]
	strd	r5, r1, [sp, #76]
	add	r1, sp, #84
	eor.w	r6, r6, r8
	eor.w	r7, r7, lr
	eor.w	r0, r0, r12
	stm	r1!, {r2, r3, r4, r6, r7}
	orrs.w	r1, r11, r10, lsr #2
	str.w	r10, [sp, #16]                  @ 4-byte Spill
	str	r0, [sp, #104]
	beq.w	.Laes_v7m_small_BB26_3
@ %bb.1:                                @ %join.7.lr.ph.i
	ldr	r0, [sp, #16]                   @ 4-byte Reload
	mov.w	r10, #0
	lsrs	r0, r0, #2
	movs	r1, #0
	str	r0, [sp, #24]                   @ 4-byte Spill
	str.w	r11, [sp, #28]                  @ 4-byte Spill
	.p2align	2
.Laes_v7m_small_BB26_2:                               @ %join.7.i
                                        @ =>This Inner Loop Header: Depth=1
	lsls	r0, r1, #2
	add	r5, sp, #76
	orr.w	r9, r0, r10, lsr #30
	lsl.w	r11, r10, #2
	mov	r0, r5
	str	r1, [sp, #40]                   @ 4-byte Spill
	add.w	r4, r11, #1
	bl	aes_v7m_small.aes_planes.soft.sbox.sub_bytes
	mov	r0, r5
	bl	aes_v7m_small.aes_planes.soft.mix_columns.mix_columns_1
	ldr.w	r8, [sp, #32]                   @ 4-byte Reload
	add	r0, sp, #108
	mov	r1, r8
	mov	r2, r4
	mov	r3, r9
	str.w	r9, [sp, #36]                   @ 4-byte Spill
	bl	aes_v7m_small.aes_planes.soft.round_keys.round_key.2
	add.w	lr, sp, #108
	ldm.w	lr, {r0, r1, r2, r3, r4, r5, r12, lr}
	ldrd	r6, r7, [sp, #76]
	eors	r0, r6
	ldr	r6, [sp, #84]
	eors	r1, r7
	ldr	r7, [sp, #88]
	eors	r2, r6
	ldr	r6, [sp, #92]
	eors	r3, r7
	ldr	r7, [sp, #96]
	eors	r4, r6
	ldr	r6, [sp, #100]
	eors	r5, r7
	ldr	r7, [sp, #104]
	eor.w	r6, r6, r12
	add.w	r12, sp, #76
	eor.w	r7, r7, lr
	stm.w	r12, {r0, r1, r2, r3, r4, r5, r6, r7}
	add	r5, sp, #76
	mov	r0, r5
	add.w	r4, r11, #2
	bl	aes_v7m_small.aes_planes.soft.sbox.sub_bytes
	mov	r0, r5
	bl	aes_v7m_small.aes_planes.soft.mix_columns.mix_columns_2
	add	r0, sp, #108
	mov	r1, r8
	mov	r2, r4
	mov	r3, r9
	bl	aes_v7m_small.aes_planes.soft.round_keys.round_key.2
	add	r7, sp, #108
	ldrd	r4, r5, [sp, #76]
	ldm	r7, {r0, r1, r2, r3, r7}
	eors	r1, r5
	ldr	r5, [sp, #88]
	eors	r0, r4
	ldr	r4, [sp, #84]
	ldrd	r6, lr, [sp, #128]
	eors	r3, r5
	ldr	r5, [sp, #96]
	eors	r2, r4
	ldr	r4, [sp, #92]
	ldr.w	r12, [sp, #136]
	eors	r5, r6
	ldr	r6, [sp, #104]
	eors	r4, r7
	ldr	r7, [sp, #100]
	eor.w	r6, r6, r12
	add.w	r12, sp, #76
	eor.w	r7, r7, lr
	stm.w	r12, {r0, r1, r2, r3, r4, r5, r7}
	add.w	r4, r11, #3
	add.w	r11, sp, #76
	mov	r0, r11
	str	r6, [sp, #104]
	bl	aes_v7m_small.aes_planes.soft.sbox.sub_bytes
	mov	r0, r11
	bl	aes_v7m_small.aes_planes.soft.mix_columns.mix_columns_3
	mov	r1, r8
	mov	r9, r8
	ldr.w	r8, [sp, #36]                   @ 4-byte Reload
	add	r0, sp, #108
	mov	r2, r4
	mov	r3, r8
	bl	aes_v7m_small.aes_planes.soft.round_keys.round_key.2
	add	r7, sp, #108
	ldrd	r4, r5, [sp, #76]
	ldm	r7, {r0, r1, r2, r3, r7}
	eors	r1, r5
	ldr	r5, [sp, #88]
	eors	r0, r4
	ldr	r4, [sp, #84]
	ldrd	r6, lr, [sp, #128]
	eors	r3, r5
	ldr	r5, [sp, #96]
	eors	r2, r4
	ldr	r4, [sp, #92]
	ldr.w	r12, [sp, #136]
	eors	r5, r6
	ldr	r6, [sp, #104]
	eors	r4, r7
	ldr	r7, [sp, #100]
	eor.w	r6, r6, r12
	add.w	r12, sp, #76
	eor.w	r7, r7, lr
	stm.w	r12, {r0, r1, r2, r3, r4, r5, r7}
	movs	r0, #4
	adds.w	r4, r0, r10, lsl #2
	mov	r0, r11
	str	r6, [sp, #104]
	adc	r7, r8, #0
	bl	aes_v7m_small.aes_planes.soft.sbox.sub_bytes
	mov	r0, r11
	bl	aes_v7m_small.aes_planes.soft.mix_columns.mix_columns_0
	add	r0, sp, #108
	mov	r1, r9
	mov	r2, r4
	mov	r3, r7
	bl	aes_v7m_small.aes_planes.soft.round_keys.round_key.2
	add	r7, sp, #108
	ldm	r7, {r0, r1, r2, r3, r7}
	ldrd	r4, r5, [sp, #76]
	ldrd	r6, lr, [sp, #128]
	eors	r0, r4
	ldr	r4, [sp, #84]
	eors	r1, r5
	ldr	r5, [sp, #88]
	eors	r2, r4
	ldr	r4, [sp, #92]
	eors	r3, r5
	ldr	r5, [sp, #96]
	eors	r4, r7
	ldr	r7, [sp, #100]
	strd	r0, r1, [sp, #76]
	ldr	r1, [sp, #40]                   @ 4-byte Reload
	str	r2, [sp, #84]
	ldr	r2, [sp, #28]                   @ 4-byte Reload
	add	r0, sp, #88
	adds.w	r10, r10, #1
	eor.w	r5, r5, r6
	eor.w	r7, r7, lr
	stm	r0!, {r3, r4, r5, r7}
	adc	r1, r1, #0
	subs.w	r0, r10, r2
	ldr.w	r12, [sp, #136]
	ldr	r6, [sp, #104]
	ldr	r0, [sp, #24]                   @ 4-byte Reload
	eor.w	r6, r6, r12
	sbcs.w	r0, r1, r0
	str	r6, [sp, #104]
	blo.w	.Laes_v7m_small_BB26_2
.Laes_v7m_small_BB26_3:                               @ %after.3.i
	ldr	r0, [sp, #12]                   @ 4-byte Reload
	add.w	r9, sp, #76
	bic	r8, r0, #3
	mov	r0, r9
	add.w	r4, r8, #1
	bl	aes_v7m_small.aes_planes.soft.sbox.sub_bytes
	mov	r0, r9
	bl	aes_v7m_small.aes_planes.soft.mix_columns.mix_columns_1
	ldr.w	r11, [sp, #32]                  @ 4-byte Reload
	ldr.w	r10, [sp, #16]                  @ 4-byte Reload
	add	r0, sp, #108
	mov	r1, r11
	mov	r2, r4
	mov	r3, r10
	bl	aes_v7m_small.aes_planes.soft.round_keys.round_key.2
	add	r5, sp, #108
	ldm	r5, {r0, r1, r2, r3, r5}
	ldrd	r6, r7, [sp, #76]
	add.w	lr, sp, #128
	eors	r0, r6
	ldr	r6, [sp, #84]
	eors	r1, r7
	eors	r2, r6
	ldr	r6, [sp, #92]
	ldr	r7, [sp, #88]
	eors	r5, r6
	ldr	r6, [sp, #100]
	ldm.w	lr, {r4, r12, lr}
	eors	r3, r7
	ldr	r7, [sp, #96]
	eor.w	r6, r6, r12
	add.w	r12, sp, #76
	stm.w	r12, {r0, r1, r2, r3, r5}
	ldr	r5, [sp, #20]                   @ 4-byte Reload
	eors	r4, r7
	ldr	r7, [sp, #104]
	add.w	r0, r8, #2
	ldr.w	r8, [sp, #4]                    @ 4-byte Reload
	subs	r0, r0, r5
	eor.w	r7, r7, lr
	sbcs.w	r0, r10, r8
	strd	r4, r6, [sp, #96]
	str	r7, [sp, #104]
	bhs	.Laes_v7m_small_BB26_5
@ %bb.4:                                @ %then.11.i
	add	r5, sp, #76
	mov	r0, r5
	mov	r4, r10
	bl	aes_v7m_small.aes_planes.soft.sbox.sub_bytes
	mov	r0, r5
	mov	r10, r5
	bl	aes_v7m_small.aes_planes.soft.mix_columns.mix_columns_2
	ldr	r2, [sp, #12]                   @ 4-byte Reload
	add	r0, sp, #108
	mov	r1, r11
	mov	r3, r4
	bl	aes_v7m_small.aes_planes.soft.round_keys.round_key.2
	add	r7, sp, #108
	ldrd	r4, r5, [sp, #76]
	ldm	r7, {r0, r1, r2, r3, r7}
	eors	r1, r5
	ldr	r5, [sp, #88]
	eors	r0, r4
	ldr	r4, [sp, #84]
	ldrd	r6, lr, [sp, #128]
	eors	r3, r5
	ldr	r5, [sp, #96]
	eors	r2, r4
	ldr	r4, [sp, #92]
	ldr.w	r12, [sp, #136]
	eors	r5, r6
	ldr	r6, [sp, #104]
	eors	r4, r7
	ldr	r7, [sp, #100]
	eor.w	r6, r6, r12
	add.w	r12, sp, #76
	eor.w	r7, r7, lr
	stm.w	r12, {r0, r1, r2, r3, r4, r5, r7}
	ldr	r0, [sp, #20]                   @ 4-byte Reload
	str	r6, [sp, #104]
	subs	r7, r0, #1
	mov	r0, r10
	sbc	r4, r8, #0
	bl	aes_v7m_small.aes_planes.soft.sbox.sub_bytes
	mov	r0, r10
	bl	aes_v7m_small.aes_planes.soft.mix_columns.mix_columns_3
	add	r0, sp, #108
	mov	r1, r11
	mov	r2, r7
	mov	r3, r4
	bl	aes_v7m_small.aes_planes.soft.round_keys.round_key.2
	add	r7, sp, #108
	ldrd	r4, r5, [sp, #76]
	ldm	r7, {r0, r1, r2, r3, r7}
	eors	r1, r5
	ldr	r5, [sp, #88]
	eors	r0, r4
	ldr	r4, [sp, #84]
	ldrd	r6, lr, [sp, #128]
	eors	r3, r5
	ldr	r5, [sp, #96]
	eors	r2, r4
	ldr	r4, [sp, #92]
	ldr.w	r12, [sp, #136]
	eors	r5, r6
	ldr	r6, [sp, #104]
	eors	r4, r7
	ldr	r7, [sp, #100]
	eor.w	r6, r6, r12
	add.w	r12, sp, #76
	eor.w	r7, r7, lr
	stm.w	r12, {r0, r1, r2, r3, r4, r5}
	ldr	r5, [sp, #20]                   @ 4-byte Reload
	strd	r7, r6, [sp, #100]
	b	.Laes_v7m_small_BB26_6
.Laes_v7m_small_BB26_5:                               @ %else.12.i
	add	r0, sp, #76
	movs	r1, #4
	mov.w	r2, #251662080
	bl	aes_v7m_small.aes_planes.soft.shifts.swap_columns
.Laes_v7m_small_BB26_6:                               @ %"aes_soft::soft::ciphers::planes::EncryptPlaneCipher::process_planes::<#42add9d049d0c5fd>.exit"
	ldr	r4, [sp, #8]                    @ 4-byte Reload
	mov	r0, r9
	mov	r6, r11
	add.w	r11, sp, #44
	bl	aes_v7m_small.aes_planes.soft.sbox.sub_bytes
	add	r0, sp, #108
	mov	r1, r6
	mov	r2, r5
	mov	r3, r8
	bl	aes_v7m_small.aes_planes.soft.round_keys.round_key.2
	add.w	lr, sp, #108
	ldm.w	lr, {r0, r1, r2, r3, r7, r8, lr}
	ldrd	r6, r5, [sp, #76]
	ldr.w	r12, [sp, #136]
	eor.w	r10, r6, r0
	ldr	r6, [sp, #84]
	eors	r1, r5
	eors	r2, r6
	ldr	r6, [sp, #92]
	ldr	r5, [sp, #88]
	eor.w	r0, r6, r7
	ldr	r6, [sp, #104]
	eors	r3, r5
	ldr	r5, [sp, #96]
	ldr	r7, [sp, #100]
	eor.w	r6, r6, r12
	strd	r10, r1, [sp, #76]
	add	r1, sp, #92
	eor.w	r5, r5, r8
	eor.w	r7, r7, lr
	strd	r2, r3, [sp, #84]
	stm	r1!, {r0, r5, r7}
	str	r6, [sp, #104]
	ldm.w	r9!, {r1, r2, r3, r7}
	mov	r0, r11
	stm	r0!, {r1, r2, r3, r7}
	ldm.w	r9, {r1, r2, r3, r7}
	stm	r0!, {r1, r2, r3, r7}
	add	r0, sp, #108
	mov	r1, r11
	bl	aes_v7m_small.aes_planes.soft.word.transpose.transpose
	add	r7, sp, #116
	ldrd	r0, r12, [sp, #108]
	ldm	r7, {r2, r3, r7}
	ldrd	r6, r5, [sp, #128]
	ldr	r1, [sp, #136]
	str	r0, [r4]
	str	r2, [r4, #4]
	str	r7, [r4, #8]
	str	r5, [r4, #12]
	str.w	r12, [r4, #16]
	str	r3, [r4, #20]
	str	r6, [r4, #24]
	str	r1, [r4, #28]
	add	sp, #140
	pop.w	{r4, r5, r6, r7, r8, r9, r10, r11, pc}
.Laes_v7m_small_func_end26:
	.size	aes_v7m_small.aes_soft.soft.ciphers.planes.process_outlined.1, .Laes_v7m_small_func_end26-aes_v7m_small.aes_soft.soft.ciphers.planes.process_outlined.1
	.cantunwind
	.fnend
                                        @ -- End function
	.section	.text.aes_v7m_small.aes_planes.soft.mix_columns.mix_columns_0,"ax",%progbits
	.p2align	2                               @ -- Begin function aes_planes::soft::mix_columns::mix_columns_0::<#e817d94f9a7b6ba6>
	.type	aes_v7m_small.aes_planes.soft.mix_columns.mix_columns_0,%function
	.code	16
	.thumb_func
aes_v7m_small.aes_planes.soft.mix_columns.mix_columns_0: @ @aes_v7m_small.aes_planes.soft.mix_columns.mix_columns_0
	.fnstart
@ %bb.0:                                @ %start
	.save	{r4, r5, r6, r7, r8, r9, r10, r11, lr}
	push.w	{r4, r5, r6, r7, r8, r9, r10, r11, lr}
	ldm.w	r0, {r4, r5, r6}
	ldrd	r2, r1, [r0, #12]
	eor.w	r7, r4, r4, ror #8
	ror.w	r3, r7, #16
	eor.w	r9, r3, r4, ror #8
	eor.w	r4, r5, r5, ror #8
	eor.w	r7, r7, r4, ror #16
	eor.w	r11, r7, r5, ror #8
	ror.w	r7, r6, #8
	eor.w	r6, r6, r6, ror #8
	eor.w	r7, r7, r6, ror #16
	eor.w	r10, r7, r4
	eor.w	r7, r2, r2, ror #8
	eor.w	r6, r6, r7, ror #16
	ldrd	r8, lr, [r0, #20]
	eor.w	r2, r6, r2, ror #8
	eor.w	r6, r1, r1, ror #8
	eor.w	r7, r7, r6, ror #16
	eor.w	r1, r7, r1, ror #8
	ror.w	r7, r8, #8
	eor.w	r3, r8, r8, ror #8
	eor.w	r7, r7, r3, ror #16
	ldr.w	r12, [r0, #28]
	eor.w	r8, r7, r6
	ror.w	r7, lr, #8
	eor.w	r4, lr, lr, ror #8
	eor.w	r7, r7, r4, ror #16
	eor.w	lr, r7, r3
	ror.w	r7, r12, #8
	eor.w	r5, r12, r12, ror #8
	eors	r2, r5
	eor.w	r7, r7, r5, ror #16
	eor.w	r6, r9, r5
	eor.w	r3, r11, r5
	eors	r1, r5
	eors	r7, r4
	strd	r10, r2, [r0, #8]
	add.w	r2, r0, #16
	strd	r6, r3, [r0]
	stm.w	r2, {r1, r8, lr}
	str	r7, [r0, #28]
	pop.w	{r4, r5, r6, r7, r8, r9, r10, r11, pc}
.Laes_v7m_small_func_end27:
	.size	aes_v7m_small.aes_planes.soft.mix_columns.mix_columns_0, .Laes_v7m_small_func_end27-aes_v7m_small.aes_planes.soft.mix_columns.mix_columns_0
	.cantunwind
	.fnend
                                        @ -- End function
	.section	.text.aes_v7m_small.aes_planes.soft.mix_columns.mix_columns_1,"ax",%progbits
	.p2align	2                               @ -- Begin function aes_planes::soft::mix_columns::mix_columns_1::<#e817d94f9a7b6ba6>
	.type	aes_v7m_small.aes_planes.soft.mix_columns.mix_columns_1,%function
	.code	16
	.thumb_func
aes_v7m_small.aes_planes.soft.mix_columns.mix_columns_1: @ @aes_v7m_small.aes_planes.soft.mix_columns.mix_columns_1
	.fnstart
@ %bb.0:                                @ %start
	.save	{r4, r5, r6, r7, r8, r9, r10, r11, lr}
	push.w	{r4, r5, r6, r7, r8, r9, r10, r11, lr}
	.pad	#64
	sub	sp, #64
	ldm.w	r0, {r9, r11, lr}
	mov.w	r1, #1061109567
	mov.w	r6, #-1061109568
	and.w	r3, r1, r9, ror #10
	and.w	r7, r6, r9, ror #2
	add.w	r12, r3, r7
	and.w	r3, r1, r11, ror #10
	and.w	r7, r6, r11, ror #2
	add	r3, r7
	ldr	r2, [r0, #12]
	str	r3, [sp, #56]                   @ 4-byte Spill
	and.w	r3, r1, lr, ror #10
	and.w	r7, r6, lr, ror #2
	ldr	r4, [r0, #16]
	add	r3, r7
	str	r3, [sp, #60]                   @ 4-byte Spill
	and.w	r3, r1, r2, ror #10
	and.w	r7, r6, r2, ror #2
	str	r2, [sp, #28]                   @ 4-byte Spill
	ldr	r5, [r0, #20]
	adds	r2, r3, r7
	and.w	r3, r1, r4, ror #10
	and.w	r7, r6, r4, ror #2
	add	r3, r7
	ldrd	r8, r10, [r0, #24]
	str	r3, [sp, #52]                   @ 4-byte Spill
	and.w	r3, r1, r5, ror #10
	and.w	r7, r6, r5, ror #2
	str	r5, [sp, #40]                   @ 4-byte Spill
	add	r3, r7
	and.w	r7, r1, r8, ror #10
	and.w	r5, r6, r8, ror #2
	add	r5, r7
	str	r5, [sp, #48]                   @ 4-byte Spill
	and.w	r1, r1, r10, ror #10
	and.w	r5, r6, r10, ror #2
	add	r1, r5
	str	r2, [sp, #24]                   @ 4-byte Spill
	str	r1, [sp, #36]                   @ 4-byte Spill
	eor.w	r9, r9, r12
	mov.w	r2, #252645135
	mov.w	r1, #-252645136
	and.w	r5, r2, r9, ror #20
	and.w	r7, r1, r9, ror #12
	add	r7, r5
	str	r7, [sp, #20]                   @ 4-byte Spill
	ldr	r7, [sp, #56]                   @ 4-byte Reload
	str	r4, [sp, #32]                   @ 4-byte Spill
	eor.w	r4, r7, r11
	and.w	r5, r2, r4, ror #20
	and.w	r7, r1, r4, ror #12
	add	r7, r5
	str	r7, [sp, #12]                   @ 4-byte Spill
	ldr	r7, [sp, #60]                   @ 4-byte Reload
	str.w	r12, [sp, #44]                  @ 4-byte Spill
	eor.w	r12, r7, lr
	and.w	r5, r2, r12, ror #20
	and.w	r7, r1, r12, ror #12
	add	r7, r5
	str	r7, [sp, #8]                    @ 4-byte Spill
	ldrd	r11, r7, [sp, #24]              @ 8-byte Folded Reload
	ldr	r6, [sp, #32]                   @ 4-byte Reload
	eor.w	lr, r11, r7
	and.w	r5, r2, lr, ror #20
	and.w	r7, r1, lr, ror #12
	add	r5, r7
	str	r5, [sp, #28]                   @ 4-byte Spill
	ldr	r5, [sp, #52]                   @ 4-byte Reload
	str	r3, [sp, #16]                   @ 4-byte Spill
	eors	r5, r6
	and.w	r7, r2, r5, ror #20
	and.w	r6, r1, r5, ror #12
	add	r6, r7
	str	r6, [sp, #32]                   @ 4-byte Spill
	ldr	r6, [sp, #40]                   @ 4-byte Reload
	eor.w	r7, r3, r6
	and.w	r6, r2, r7, ror #20
	and.w	r3, r1, r7, ror #12
	add	r3, r6
	str	r3, [sp, #40]                   @ 4-byte Spill
	ldr	r3, [sp, #48]                   @ 4-byte Reload
	eor.w	r3, r3, r8
	and.w	r8, r2, r3, ror #20
	and.w	r6, r1, r3, ror #12
	add	r6, r8
	ldr.w	r8, [sp, #36]                   @ 4-byte Reload
	str	r6, [sp, #4]                    @ 4-byte Spill
	eor.w	r6, r8, r10
	and.w	r2, r2, r6, ror #20
	and.w	r1, r1, r6, ror #12
	add	r1, r2
	str	r1, [sp]                        @ 4-byte Spill
	ldr	r1, [sp, #44]                   @ 4-byte Reload
	ldr	r2, [sp, #20]                   @ 4-byte Reload
	eor.w	r10, r2, r1
	ldr	r1, [sp, #12]                   @ 4-byte Reload
	ldr	r2, [sp, #56]                   @ 4-byte Reload
	eor.w	r1, r1, r9
	eor.w	r9, r1, r2
	ldr	r2, [sp, #60]                   @ 4-byte Reload
	ldr	r1, [sp, #8]                    @ 4-byte Reload
	eors	r2, r1
	eor.w	r1, r2, r4
	str	r1, [sp, #60]                   @ 4-byte Spill
	ldr	r1, [sp, #28]                   @ 4-byte Reload
	eor.w	r4, r12, r1
	ldr	r1, [sp, #32]                   @ 4-byte Reload
	eor.w	r4, r4, r11
	eor.w	r2, lr, r1
	ldr	r1, [sp, #52]                   @ 4-byte Reload
	eor.w	r12, r10, r6
	eors	r2, r1
	eor.w	r1, r9, r6
	eors	r4, r6
	eor.w	lr, r2, r6
	ldr	r6, [sp, #16]                   @ 4-byte Reload
	ldr	r2, [sp, #40]                   @ 4-byte Reload
	strd	r12, r1, [r0]
	eors	r6, r2
	eors	r6, r5
	ldr	r5, [sp, #48]                   @ 4-byte Reload
	ldr	r2, [sp, #4]                    @ 4-byte Reload
	ldr	r1, [sp, #60]                   @ 4-byte Reload
	eors	r5, r2
	ldr	r2, [sp]                        @ 4-byte Reload
	eors	r7, r5
	eor.w	r5, r8, r2
	eors	r3, r5
	add.w	r2, r0, #8
	stm.w	r2, {r1, r4, lr}
	strd	r6, r7, [r0, #20]
	str	r3, [r0, #28]
	add	sp, #64
	pop.w	{r4, r5, r6, r7, r8, r9, r10, r11, pc}
.Laes_v7m_small_func_end28:
	.size	aes_v7m_small.aes_planes.soft.mix_columns.mix_columns_1, .Laes_v7m_small_func_end28-aes_v7m_small.aes_planes.soft.mix_columns.mix_columns_1
	.cantunwind
	.fnend
                                        @ -- End function
	.section	.text.aes_v7m_small.aes_planes.soft.mix_columns.mix_columns_2,"ax",%progbits
	.p2align	2                               @ -- Begin function aes_planes::soft::mix_columns::mix_columns_2::<#e817d94f9a7b6ba6>
	.type	aes_v7m_small.aes_planes.soft.mix_columns.mix_columns_2,%function
	.code	16
	.thumb_func
aes_v7m_small.aes_planes.soft.mix_columns.mix_columns_2: @ @aes_v7m_small.aes_planes.soft.mix_columns.mix_columns_2
	.fnstart
@ %bb.0:                                @ %start
	.save	{r4, r5, r6, r7, r8, r9, r10, r11, lr}
	push.w	{r4, r5, r6, r7, r8, r9, r10, r11, lr}
	.pad	#24
	sub	sp, #24
	ldm.w	r0, {r4, r5, r12, lr}
	mov.w	r2, #252645135
	mov.w	r1, #-252645136
	and.w	r3, r2, r4, ror #12
	and.w	r6, r1, r4, ror #4
	add	r3, r6
	str	r3, [sp]                        @ 4-byte Spill
	and.w	r3, r2, r5, ror #12
	and.w	r7, r1, r5, ror #4
	add.w	r10, r3, r7
	and.w	r3, r2, r12, ror #12
	and.w	r7, r1, r12, ror #4
	ldrd	r11, r9, [r0, #16]
	add.w	r8, r3, r7
	and.w	r3, r2, lr, ror #12
	and.w	r7, r1, lr, ror #4
	add	r3, r7
	str	r3, [sp, #4]                    @ 4-byte Spill
	and.w	r3, r2, r11, ror #12
	and.w	r7, r1, r11, ror #4
	add	r3, r7
	str	r3, [sp, #8]                    @ 4-byte Spill
	and.w	r3, r2, r9, ror #12
	and.w	r7, r1, r9, ror #4
	add	r3, r7
	str	r3, [sp, #16]                   @ 4-byte Spill
	ldrd	r7, r3, [r0, #24]
	str.w	r9, [sp, #20]                   @ 4-byte Spill
	and.w	r9, r2, r7, ror #12
	and.w	r6, r1, r7, ror #4
	add	r9, r6
	and.w	r2, r2, r3, ror #12
	and.w	r1, r1, r3, ror #4
	ldr	r6, [sp]                        @ 4-byte Reload
	add	r1, r2
	str	r1, [sp, #12]                   @ 4-byte Spill
	eor.w	r1, r6, r4
	eor.w	r2, r10, r5
	eor.w	r4, r6, r1, ror #16
	eor.w	r1, r1, r2, ror #16
	eor.w	r10, r10, r1
	eor.w	r6, r8, r12
	ldr	r1, [sp, #4]                    @ 4-byte Reload
	eor.w	r5, r8, r6, ror #16
	eor.w	r12, r5, r2
	eor.w	r5, r1, lr
	eor.w	r6, r6, r5, ror #16
	eors	r6, r1
	ldr	r1, [sp, #8]                    @ 4-byte Reload
	str	r4, [sp]                        @ 4-byte Spill
	eor.w	r2, r1, r11
	eor.w	r5, r5, r2, ror #16
	eors	r5, r1
	ldrd	r4, r1, [sp, #16]               @ 8-byte Folded Reload
	eor.w	r7, r7, r9
	eors	r1, r4
	eor.w	r4, r4, r1, ror #16
	eor.w	lr, r4, r2
	eor.w	r4, r9, r7, ror #16
	eor.w	r8, r4, r1
	ldr	r1, [sp, #12]                   @ 4-byte Reload
	ldr	r2, [sp]                        @ 4-byte Reload
	eors	r3, r1
	eor.w	r4, r2, r3
	eor.w	r2, r10, r3
	eors	r6, r3
	eors	r5, r3
	eor.w	r3, r1, r3, ror #16
	eors	r3, r7
	strd	r4, r2, [r0]
	strd	r12, r6, [r0, #8]
	strd	r5, lr, [r0, #16]
	strd	r8, r3, [r0, #24]
	add	sp, #24
	pop.w	{r4, r5, r6, r7, r8, r9, r10, r11, pc}
.Laes_v7m_small_func_end29:
	.size	aes_v7m_small.aes_planes.soft.mix_columns.mix_columns_2, .Laes_v7m_small_func_end29-aes_v7m_small.aes_planes.soft.mix_columns.mix_columns_2
	.cantunwind
	.fnend
                                        @ -- End function
	.section	.text.aes_v7m_small.aes_planes.soft.mix_columns.mix_columns_3,"ax",%progbits
	.p2align	2                               @ -- Begin function aes_planes::soft::mix_columns::mix_columns_3::<#e817d94f9a7b6ba6>
	.type	aes_v7m_small.aes_planes.soft.mix_columns.mix_columns_3,%function
	.code	16
	.thumb_func
aes_v7m_small.aes_planes.soft.mix_columns.mix_columns_3: @ @aes_v7m_small.aes_planes.soft.mix_columns.mix_columns_3
	.fnstart
@ %bb.0:                                @ %start
	.save	{r4, r5, r6, r7, r8, r9, r10, r11, lr}
	push.w	{r4, r5, r6, r7, r8, r9, r10, r11, lr}
	.pad	#64
	sub	sp, #64
	ldm.w	r0, {r9, r11, lr}
	mov.w	r1, #50529027
	mov.w	r6, #-50529028
	and.w	r3, r1, r9, ror #14
	and.w	r7, r6, r9, ror #6
	add.w	r12, r3, r7
	and.w	r3, r1, r11, ror #14
	and.w	r7, r6, r11, ror #6
	add	r3, r7
	ldr	r2, [r0, #12]
	str	r3, [sp, #56]                   @ 4-byte Spill
	and.w	r3, r1, lr, ror #14
	and.w	r7, r6, lr, ror #6
	ldr	r4, [r0, #16]
	add	r3, r7
	str	r3, [sp, #60]                   @ 4-byte Spill
	and.w	r3, r1, r2, ror #14
	and.w	r7, r6, r2, ror #6
	str	r2, [sp, #28]                   @ 4-byte Spill
	ldr	r5, [r0, #20]
	adds	r2, r3, r7
	and.w	r3, r1, r4, ror #14
	and.w	r7, r6, r4, ror #6
	add	r3, r7
	ldrd	r8, r10, [r0, #24]
	str	r3, [sp, #52]                   @ 4-byte Spill
	and.w	r3, r1, r5, ror #14
	and.w	r7, r6, r5, ror #6
	str	r5, [sp, #40]                   @ 4-byte Spill
	add	r3, r7
	and.w	r7, r1, r8, ror #14
	and.w	r5, r6, r8, ror #6
	add	r5, r7
	str	r5, [sp, #48]                   @ 4-byte Spill
	and.w	r1, r1, r10, ror #14
	and.w	r5, r6, r10, ror #6
	add	r1, r5
	str	r2, [sp, #24]                   @ 4-byte Spill
	str	r1, [sp, #36]                   @ 4-byte Spill
	eor.w	r9, r9, r12
	mov.w	r2, #252645135
	mov.w	r1, #-252645136
	and.w	r5, r2, r9, ror #20
	and.w	r7, r1, r9, ror #12
	add	r7, r5
	str	r7, [sp, #20]                   @ 4-byte Spill
	ldr	r7, [sp, #56]                   @ 4-byte Reload
	str	r4, [sp, #32]                   @ 4-byte Spill
	eor.w	r4, r7, r11
	and.w	r5, r2, r4, ror #20
	and.w	r7, r1, r4, ror #12
	add	r7, r5
	str	r7, [sp, #12]                   @ 4-byte Spill
	ldr	r7, [sp, #60]                   @ 4-byte Reload
	str.w	r12, [sp, #44]                  @ 4-byte Spill
	eor.w	r12, r7, lr
	and.w	r5, r2, r12, ror #20
	and.w	r7, r1, r12, ror #12
	add	r7, r5
	str	r7, [sp, #8]                    @ 4-byte Spill
	ldrd	r11, r7, [sp, #24]              @ 8-byte Folded Reload
	ldr	r6, [sp, #32]                   @ 4-byte Reload
	eor.w	lr, r11, r7
	and.w	r5, r2, lr, ror #20
	and.w	r7, r1, lr, ror #12
	add	r5, r7
	str	r5, [sp, #28]                   @ 4-byte Spill
	ldr	r5, [sp, #52]                   @ 4-byte Reload
	str	r3, [sp, #16]                   @ 4-byte Spill
	eors	r5, r6
	and.w	r7, r2, r5, ror #20
	and.w	r6, r1, r5, ror #12
	add	r6, r7
	str	r6, [sp, #32]                   @ 4-byte Spill
	ldr	r6, [sp, #40]                   @ 4-byte Reload
	eor.w	r7, r3, r6
	and.w	r6, r2, r7, ror #20
	and.w	r3, r1, r7, ror #12
	add	r3, r6
	str	r3, [sp, #40]                   @ 4-byte Spill
	ldr	r3, [sp, #48]                   @ 4-byte Reload
	eor.w	r3, r3, r8
	and.w	r8, r2, r3, ror #20
	and.w	r6, r1, r3, ror #12
	add	r6, r8
	ldr.w	r8, [sp, #36]                   @ 4-byte Reload
	str	r6, [sp, #4]                    @ 4-byte Spill
	eor.w	r6, r8, r10
	and.w	r2, r2, r6, ror #20
	and.w	r1, r1, r6, ror #12
	add	r1, r2
	str	r1, [sp]                        @ 4-byte Spill
	ldr	r1, [sp, #44]                   @ 4-byte Reload
	ldr	r2, [sp, #20]                   @ 4-byte Reload
	eor.w	r10, r2, r1
	ldr	r1, [sp, #12]                   @ 4-byte Reload
	ldr	r2, [sp, #56]                   @ 4-byte Reload
	eor.w	r1, r1, r9
	eor.w	r9, r1, r2
	ldr	r2, [sp, #60]                   @ 4-byte Reload
	ldr	r1, [sp, #8]                    @ 4-byte Reload
	eors	r2, r1
	eor.w	r1, r2, r4
	str	r1, [sp, #60]                   @ 4-byte Spill
	ldr	r1, [sp, #28]                   @ 4-byte Reload
	eor.w	r4, r12, r1
	ldr	r1, [sp, #32]                   @ 4-byte Reload
	eor.w	r4, r4, r11
	eor.w	r2, lr, r1
	ldr	r1, [sp, #52]                   @ 4-byte Reload
	eor.w	r12, r10, r6
	eors	r2, r1
	eor.w	r1, r9, r6
	eors	r4, r6
	eor.w	lr, r2, r6
	ldr	r6, [sp, #16]                   @ 4-byte Reload
	ldr	r2, [sp, #40]                   @ 4-byte Reload
	strd	r12, r1, [r0]
	eors	r6, r2
	eors	r6, r5
	ldr	r5, [sp, #48]                   @ 4-byte Reload
	ldr	r2, [sp, #4]                    @ 4-byte Reload
	ldr	r1, [sp, #60]                   @ 4-byte Reload
	eors	r5, r2
	ldr	r2, [sp]                        @ 4-byte Reload
	eors	r7, r5
	eor.w	r5, r8, r2
	eors	r3, r5
	add.w	r2, r0, #8
	stm.w	r2, {r1, r4, lr}
	strd	r6, r7, [r0, #20]
	str	r3, [r0, #28]
	add	sp, #64
	pop.w	{r4, r5, r6, r7, r8, r9, r10, r11, pc}
.Laes_v7m_small_func_end30:
	.size	aes_v7m_small.aes_planes.soft.mix_columns.mix_columns_3, .Laes_v7m_small_func_end30-aes_v7m_small.aes_planes.soft.mix_columns.mix_columns_3
	.cantunwind
	.fnend
                                        @ -- End function
	.section	.text.aes_v7m_small.aes_planes.soft.round_keys.round_key.2,"ax",%progbits
	.p2align	2                               @ -- Begin function aes_planes::soft::round_keys::round_key::<#e817d94f9a7b6ba6>
	.type	aes_v7m_small.aes_planes.soft.round_keys.round_key.2,%function
	.code	16
	.thumb_func
aes_v7m_small.aes_planes.soft.round_keys.round_key.2: @ @aes_v7m_small.aes_planes.soft.round_keys.round_key.2
	.fnstart
@ %bb.0:                                @ %start
	.save	{r4, r5, r6, lr}
	push	{r4, r5, r6, lr}
	lsls	r3, r2, #5
	add.w	r2, r1, r2, lsl #5
	add.w	lr, r2, #4
	add.w	r6, r2, #16
	ldr	r1, [r1, r3]
	ldm.w	lr, {r3, r12, lr}
	ldm	r6, {r4, r5, r6}
	ldr	r2, [r2, #28]
	str	r1, [r0]
	str	r3, [r0, #4]
	str.w	r12, [r0, #8]
	str.w	lr, [r0, #12]
	str	r4, [r0, #16]
	str	r5, [r0, #20]
	str	r6, [r0, #24]
	str	r2, [r0, #28]
	pop	{r4, r5, r6, pc}
.Laes_v7m_small_func_end31:
	.size	aes_v7m_small.aes_planes.soft.round_keys.round_key.2, .Laes_v7m_small_func_end31-aes_v7m_small.aes_planes.soft.round_keys.round_key.2
	.cantunwind
	.fnend
                                        @ -- End function
	.section	.text.aes_v7m_small.aes_cipher.zeroize.stack.wipe_stack.1024,"ax",%progbits
	.p2align	2                               @ -- Begin function aes_cipher::zeroize::stack::wipe_stack::<=1024>
	.type	aes_v7m_small.aes_cipher.zeroize.stack.wipe_stack.1024,%function
	.code	16
	.thumb_func
aes_v7m_small.aes_cipher.zeroize.stack.wipe_stack.1024: @ @aes_v7m_small.aes_cipher.zeroize.stack.wipe_stack.1024
	.fnstart
@ %bb.0:                                @ %start
	.save	{r4, r5, r7, lr}
	push	{r4, r5, r7, lr}
	.pad	#1032
	sub.w	sp, sp, #1032
	add	r4, sp, #8
	mov	r0, r4
	movs	r1, #0
	mov.w	r2, #1024
	movs	r5, #0
	bl	memset
	strd	r5, r5, [sp]
	@APP
	@NO_APP
	mov	r0, sp
	ldrd	r1, r2, [r0]
	@APP
	@NO_APP
	subs.w	r3, r1, #1024
	sbcs	r2, r2, #0
	itt	hs
	addhs.w	sp, sp, #1032
	pophs	{r4, r5, r7, pc}
.Laes_v7m_small_BB32_1:                               @ %then.1
	ldrb	r1, [r4, r1]
	@APP
	@NO_APP
	ldrd	r2, r3, [r0]
	strd	r1, r5, [r0]
	@APP
	@NO_APP
	add.w	sp, sp, #1032
	pop	{r4, r5, r7, pc}
.Laes_v7m_small_func_end32:
	.size	aes_v7m_small.aes_cipher.zeroize.stack.wipe_stack.1024, .Laes_v7m_small_func_end32-aes_v7m_small.aes_cipher.zeroize.stack.wipe_stack.1024
	.cantunwind
	.fnend
                                        @ -- End function
	.section	.text.aes_v7m_small.aes_ctr.add_blocks.add_blocks,"ax",%progbits
	.p2align	2                               @ -- Begin function aes_ctr::add_blocks::add_blocks
	.type	aes_v7m_small.aes_ctr.add_blocks.add_blocks,%function
	.code	16
	.thumb_func
aes_v7m_small.aes_ctr.add_blocks.add_blocks:      @ @aes_v7m_small.aes_ctr.add_blocks.add_blocks
	.fnstart
@ %bb.0:                                @ %start
	.save	{r4, r5, r6, r7, r8, r9, r10, r11, lr}
	push.w	{r4, r5, r6, r7, r8, r9, r10, r11, lr}
	.pad	#20
	sub	sp, #20
	ldrd	r4, r11, [sp, #64]
	ldr.w	r9, [sp, #56]
	mov	r10, r2
	mov	r8, r0
	orrs.w	r0, r2, r3
	mov.w	r5, #0
	beq	.Laes_v7m_small_BB33_2
@ %bb.1:                                @ %then.1
	rsbs.w	r7, r10, #16
	sbc.w	r6, r5, r3
	subs	r0, r4, r7
	sbcs.w	r0, r11, r6
	mov	r0, r8
	mov	r2, r10
	itt	lo
	movlo	r6, r11
	movlo	r7, r4
	str.w	r9, [sp]
	strd	r7, r6, [sp, #8]
	bl	aes_v7m_small.aes_ctr.add_blocks.add_part
	mov	r5, r7
	b	.Laes_v7m_small_BB33_3
.Laes_v7m_small_BB33_2:
	movs	r6, #0
.Laes_v7m_small_BB33_3:                               @ %join.3
	subs	r1, r4, r5
	sbc.w	r2, r11, r6
	subs.w	r0, r1, #16
	sbcs	r0, r2, #0
	blo	.Laes_v7m_small_BB33_5
	.p2align	2
.Laes_v7m_small_BB33_4:                               @ %join.8
                                        @ =>This Inner Loop Header: Depth=1
	add.w	r0, r5, r10
	bic	r0, r0, #15
	movs	r7, #0
	movs	r2, #16
	add	r0, r8
	add.w	r1, r9, r5
	adds	r5, #16
	strd	r2, r7, [sp, #8]
	mov.w	r2, #0
	mov.w	r3, #0
	adc	r6, r6, #0
	str	r1, [sp]
	bl	aes_v7m_small.aes_ctr.add_blocks.add_part
	subs	r1, r4, r5
	sbc.w	r2, r11, r6
	rsbs.w	r0, r1, #15
	sbcs.w	r0, r7, r2
	blo	.Laes_v7m_small_BB33_4
.Laes_v7m_small_BB33_5:                               @ %after.4
	subs	r0, r5, r4
	sbcs.w	r0, r6, r11
	itt	hs
	addhs	sp, #20
	pophs.w	{r4, r5, r6, r7, r8, r9, r10, r11, pc}
.Laes_v7m_small_BB33_6:                               @ %then.9
	add.w	r0, r5, r10
	bic	r0, r0, #15
	add.w	r7, r9, r5
	add	r0, r8
	strd	r1, r2, [sp, #64]
	movs	r2, #0
	movs	r3, #0
	str	r7, [sp, #56]
	add	sp, #20
	pop.w	{r4, r5, r6, r7, r8, r9, r10, r11, lr}
	b	aes_v7m_small.aes_ctr.add_blocks.add_part
.Laes_v7m_small_func_end33:
	.size	aes_v7m_small.aes_ctr.add_blocks.add_blocks, .Laes_v7m_small_func_end33-aes_v7m_small.aes_ctr.add_blocks.add_blocks
	.cantunwind
	.fnend
                                        @ -- End function
	.section	.text.aes_v7m_small.aes_ctr.add_blocks.add_part,"ax",%progbits
	.p2align	2                               @ -- Begin function aes_ctr::add_blocks::add_part
	.type	aes_v7m_small.aes_ctr.add_blocks.add_part,%function
	.code	16
	.thumb_func
aes_v7m_small.aes_ctr.add_blocks.add_part:        @ @aes_v7m_small.aes_ctr.add_blocks.add_part
	.fnstart
@ %bb.0:                                @ %start
	.save	{r4, r5, r6, r7, r8, r9, r10, r11, lr}
	push.w	{r4, r5, r6, r7, r8, r9, r10, r11, lr}
	.pad	#28
	sub	sp, #28
	ldrd	r3, lr, [sp, #72]
	orrs.w	r1, r3, lr
	beq.w	.Laes_v7m_small_BB34_11
@ %bb.1:                                @ %start
	ldr.w	r11, [sp, #64]
	eor	r7, r3, #16
	orrs.w	r7, r7, lr
	bne	.Laes_v7m_small_BB34_3
@ %bb.2:                                @ %then.1
	ldrb.w	r5, [r11, #1]
	ldrb	r2, [r0, #1]
	ldrb.w	lr, [r11]
	ldrb	r6, [r0]
	eors	r2, r5
	ldrb.w	r8, [r11, #3]
	eor.w	r6, r6, lr
	str	r2, [sp, #16]                   @ 4-byte Spill
	ldrb	r2, [r0, #3]
	ldrb.w	r9, [r11, #2]
	str	r6, [sp, #20]                   @ 4-byte Spill
	ldrb	r6, [r0, #2]
	eor.w	r2, r2, r8
	ldrb.w	r4, [r11, #5]
	eor.w	r6, r6, r9
	str	r2, [sp, #8]                    @ 4-byte Spill
	ldrb	r2, [r0, #5]
	ldrb.w	r3, [r11, #4]
	str	r6, [sp, #12]                   @ 4-byte Spill
	ldrb	r6, [r0, #4]
	ldrb.w	r7, [r11, #7]
	eor.w	r9, r2, r4
	ldrb	r2, [r0, #7]
	eors	r3, r6
	ldrb.w	r1, [r11, #11]
	ldrb.w	r10, [r11, #9]
	ldrb.w	r12, [r11, #6]
	str	r3, [sp, #4]                    @ 4-byte Spill
	ldrb	r3, [r0, #6]
	eors	r7, r2
	ldrb	r2, [r0, #9]
	str	r1, [sp, #24]                   @ 4-byte Spill
	ldrb.w	r1, [r11, #8]
	eor.w	r8, r3, r12
	ldrb	r3, [r0, #8]
	ldrb.w	r12, [r11, #10]
	eor.w	r10, r10, r2
	ldrb	r2, [r0, #10]
	eors	r1, r3
	ldrb	r3, [r0, #11]
	eor.w	r6, r2, r12
	ldr	r2, [sp, #24]                   @ 4-byte Reload
	ldrb.w	r12, [r11, #12]
	eor.w	r5, r3, r2
	ldrb	r2, [r0, #12]
	ldrb	r3, [r0, #13]
	eor.w	r4, r2, r12
	ldrb	r2, [r0, #14]
	ldrb.w	r12, [r0, #15]
	ldrb.w	r0, [r11, #15]
	ldrb.w	lr, [r11, #13]
	eor.w	r0, r0, r12
	strb.w	r0, [r11, #15]
	ldr	r0, [sp, #4]                    @ 4-byte Reload
	eor.w	lr, lr, r3
	strb.w	r0, [r11, #4]
	ldr	r0, [sp, #8]                    @ 4-byte Reload
	ldrb.w	r3, [r11, #14]
	strb.w	r0, [r11, #3]
	ldr	r0, [sp, #12]                   @ 4-byte Reload
	eors	r2, r3
	strb.w	r0, [r11, #2]
	ldr	r0, [sp, #16]                   @ 4-byte Reload
	strb.w	r2, [r11, #14]
	strb.w	r0, [r11, #1]
	ldr	r0, [sp, #20]                   @ 4-byte Reload
	strb.w	lr, [r11, #13]
	strb.w	r4, [r11, #12]
	strb.w	r5, [r11, #11]
	strb.w	r6, [r11, #10]
	strb.w	r10, [r11, #9]
	strb.w	r1, [r11, #8]
	strb.w	r7, [r11, #7]
	strb.w	r8, [r11, #6]
	strb.w	r9, [r11, #5]
	strb.w	r0, [r11]
	add	sp, #28
	pop.w	{r4, r5, r6, r7, r8, r9, r10, r11, pc}
.Laes_v7m_small_BB34_3:                               @ %join.8.preheader
	cmp	r3, #1
	mov.w	r7, #1
	mov.w	r4, #1
	it	hi
	movhi	r7, r3
	cmp.w	lr, #0
	ite	ne
	movne	r4, r3
	moveq	r4, r7
	subs	r3, #4
	sbcs	r3, lr, #0
	and	r12, r4, #3
	bhs	.Laes_v7m_small_BB34_5
@ %bb.4:
	movs	r3, #0
	b	.Laes_v7m_small_BB34_8
.Laes_v7m_small_BB34_5:                               @ %join.8.preheader.new
	bic	r8, r4, #3
	movs	r3, #0
	movs	r5, #0
	.p2align	2
.Laes_v7m_small_BB34_6:                               @ %join.8
                                        @ =>This Inner Loop Header: Depth=1
	adds	r6, r3, r2
	ldrb	r6, [r0, r6]
	ldrb.w	r7, [r11, r3]
	eors	r6, r7
	strb.w	r6, [r11, r3]
	orr	r6, r3, #1
	adds	r7, r6, r2
	ldrb	r7, [r0, r7]
	ldrb.w	r4, [r11, r6]
	eors	r4, r7
	strb.w	r4, [r11, r6]
	orr	r4, r3, #2
	adds	r6, r4, r2
	ldrb	r6, [r0, r6]
	ldrb.w	r7, [r11, r4]
	eors	r6, r7
	strb.w	r6, [r11, r4]
	orr	r4, r3, #3
	adds	r3, #4
	add.w	r6, r4, r2
	adc	r5, r5, #0
	ldrb.w	r9, [r0, r6]
	ldrb.w	r7, [r11, r4]
	eor.w	r1, r3, r8
	eor.w	r6, r5, lr
	orrs	r1, r6
	eor.w	r1, r7, r9
	strb.w	r1, [r11, r4]
	bne	.Laes_v7m_small_BB34_6
@ %bb.7:                                @ %join.3.loopexit.unr-lcssa
	cmp.w	r12, #0
	beq	.Laes_v7m_small_BB34_11
.Laes_v7m_small_BB34_8:                               @ %join.8.epil.preheader
	adds	r1, r3, r2
	ldrb	r1, [r0, r1]
	ldrb.w	r7, [r11, r3]
	cmp.w	r12, #1
	eor.w	r1, r1, r7
	strb.w	r1, [r11, r3]
	beq	.Laes_v7m_small_BB34_11
@ %bb.9:                                @ %join.8.epil.1
	adds	r1, r3, #1
	adds	r7, r1, r2
	ldrb	r7, [r0, r7]
	ldrb.w	r6, [r11, r1]
	cmp.w	r12, #2
	eor.w	r7, r7, r6
	strb.w	r7, [r11, r1]
	beq	.Laes_v7m_small_BB34_11
@ %bb.10:                               @ %join.8.epil.2
	adds	r1, r3, #2
	add	r2, r1
	ldrb	r0, [r0, r2]
	ldrb.w	r2, [r11, r1]
	eors	r0, r2
	strb.w	r0, [r11, r1]
.Laes_v7m_small_BB34_11:                              @ %join.3
	add	sp, #28
	pop.w	{r4, r5, r6, r7, r8, r9, r10, r11, pc}
.Laes_v7m_small_func_end34:
	.size	aes_v7m_small.aes_ctr.add_blocks.add_part, .Laes_v7m_small_func_end34-aes_v7m_small.aes_ctr.add_blocks.add_part
	.cantunwind
	.fnend
                                        @ -- End function
	.section	.text.aes_v7m_small.aes_narrow.borrowed_words.call_to_encrypt,"ax",%progbits
	.p2align	2                               @ -- Begin function aes_narrow::borrowed_words::call_to_encrypt::<#b6a72634b88802f3>
	.type	aes_v7m_small.aes_narrow.borrowed_words.call_to_encrypt,%function
	.code	16
	.thumb_func
aes_v7m_small.aes_narrow.borrowed_words.call_to_encrypt: @ @aes_v7m_small.aes_narrow.borrowed_words.call_to_encrypt
	.fnstart
@ %bb.0:                                @ %start
	.save	{r4, lr}
	push	{r4, lr}
	.pad	#32
	sub	sp, #32
	ldr.w	lr, [sp, #40]
	str	r0, [sp, #16]
	movs	r0, #0
	str	r0, [sp, #20]
	str	r3, [sp, #28]
	ldrd	r0, r4, [lr, #24]
	ldrd	r12, r3, [lr, #8]
	ldr.w	r1, [lr]
	ldr.w	lr, [lr, #16]
	str	r2, [sp, #24]
	strd	r0, r4, [sp, #8]
	add	r0, sp, #16
	mov	r2, r12
	str.w	lr, [sp]
	bl	aes_v7m_small.aes_ctr.add_in_batches.add_by_backend
	add	sp, #32
	pop	{r4, pc}
.Laes_v7m_small_func_end35:
	.size	aes_v7m_small.aes_narrow.borrowed_words.call_to_encrypt, .Laes_v7m_small_func_end35-aes_v7m_small.aes_narrow.borrowed_words.call_to_encrypt
	.cantunwind
	.fnend
                                        @ -- End function
	.section	.text.aes_v7m_small.aes_ctr.add_in_batches.add_by_backend,"ax",%progbits
	.p2align	2                               @ -- Begin function aes_ctr::add_in_batches::add_by_backend::<#a8e061590e9ece31>
	.type	aes_v7m_small.aes_ctr.add_in_batches.add_by_backend,%function
	.code	16
	.thumb_func
aes_v7m_small.aes_ctr.add_in_batches.add_by_backend: @ @aes_v7m_small.aes_ctr.add_in_batches.add_by_backend
	.fnstart
@ %bb.0:                                @ %start
	.save	{r4, r5, r6, r7, r8, r9, r10, r11, lr}
	push.w	{r4, r5, r6, r7, r8, r9, r10, r11, lr}
	.pad	#292
	sub	sp, #292
	mov	r10, r3
	mov	r9, r2
	ldrd	r2, r3, [sp, #336]
	mov	r11, r0
	ands	r4, r9, #15
	mov.w	r7, #0
	strd	r1, r9, [sp, #28]               @ 8-byte Folded Spill
	beq	.Laes_v7m_small_BB36_2
@ %bb.1:                                @ %then.1
	rsb.w	r6, r4, #32
	subs	r0, r2, r6
	sbcs	r0, r3, #0
	mov.w	r8, #0
	it	lo
	movlo	r6, r2
	it	lo
	movlo.w	r8, #1
	cmp.w	r8, #0
	add.w	r0, r6, r4
	it	ne
	movne	r8, r3
	uxtb	r1, r0
	lsls	r0, r0, #28
	lsr.w	r0, r9, #4
	lsr.w	r5, r1, #4
	mov.w	r2, #1
	orr.w	r0, r0, r10, lsl #28
	it	ne
	addne.w	r5, r2, r1, lsr #4
	str	r0, [sp, #20]                   @ 4-byte Spill
	add	r0, sp, #36
	movs	r1, #0
	mov.w	r2, #256
	lsr.w	r9, r10, #4
	bl	memset
	str	r5, [sp]
	ldr	r5, [sp, #28]                   @ 4-byte Reload
	ldr	r2, [sp, #20]                   @ 4-byte Reload
	str	r7, [sp, #4]
	mov	r0, r11
	mov	r1, r5
	mov	r3, r9
	ldr.w	r9, [sp, #32]                   @ 4-byte Reload
	add	r7, sp, #36
	str	r7, [sp, #8]
	bl	aes_v7m_small.aes_ctr.keystream.fill_by_backend
	ldr	r1, [sp, #328]
	mov	r0, r7
	mov	r2, r4
	movs	r3, #0
	strd	r6, r8, [sp, #8]
	str	r1, [sp]
	bl	aes_v7m_small.aes_ctr.add_blocks.add_blocks
	ldrd	r2, r3, [sp, #336]
	mov	r7, r6
	b	.Laes_v7m_small_BB36_3
.Laes_v7m_small_BB36_2:
	mov	r5, r1
	mov.w	r8, #0
.Laes_v7m_small_BB36_3:                               @ %join.3
	subs	r0, r2, r7
	sbc.w	r1, r3, r8
	subs	r0, #32
	sbcs	r0, r1, #0
	mov	r4, r3
	blo	.Laes_v7m_small_BB36_5
	.p2align	2
.Laes_v7m_small_BB36_4:                               @ %join.11
                                        @ =>This Inner Loop Header: Depth=1
	adds.w	r0, r7, r9
	adc.w	r1, r8, r10
	lsrs	r0, r0, #4
	orr.w	r2, r0, r1, lsl #28
	ldr	r0, [sp, #328]
	lsrs	r3, r1, #4
	adds	r6, r0, r7
	adds	r7, #32
	mov	r0, r11
	mov	r1, r5
	adc	r8, r8, #0
	str	r6, [sp]
	bl	aes_v7m_small.aes_ctr.add_in_batches.add_batch
	ldr	r2, [sp, #336]
	subs	r0, r2, r7
	sbc.w	r1, r4, r8
	rsbs.w	r0, r0, #31
	mov.w	r0, #0
	sbcs	r0, r1
	blo	.Laes_v7m_small_BB36_4
.Laes_v7m_small_BB36_5:                               @ %loop.13.preheader
	subs	r0, r7, r2
	sbcs.w	r0, r8, r4
	strd	r11, r10, [sp, #20]             @ 8-byte Folded Spill
	bhs	.Laes_v7m_small_BB36_7
	.p2align	2
.Laes_v7m_small_BB36_6:                               @ %join.16
                                        @ =>This Inner Loop Header: Depth=1
	adds.w	r0, r7, r9
	ldr	r2, [sp, #336]
	and	r6, r0, #15
	adc.w	r1, r8, r10
	rsb.w	r9, r6, #32
	subs	r2, r2, r7
	mov	r11, r7
	sbc.w	r3, r4, r8
	subs.w	r7, r2, r9
	sbcs	r7, r3, #0
	mov.w	r10, #0
	it	lo
	movlo	r9, r2
	it	lo
	movlo.w	r10, #1
	cmp.w	r10, #0
	add.w	r2, r9, r6
	it	ne
	movne	r10, r3
	uxtb	r3, r2
	lsls	r2, r2, #28
	lsr.w	r5, r3, #4
	mov.w	r2, #1
	lsr.w	r0, r0, #4
	it	ne
	addne.w	r5, r2, r3, lsr #4
	orr.w	r7, r0, r1, lsl #28
	lsrs	r4, r1, #4
	add	r0, sp, #36
	movs	r1, #0
	mov.w	r2, #256
	bl	memset
	movs	r0, #0
	str	r0, [sp, #4]
	ldr	r0, [sp, #20]                   @ 4-byte Reload
	ldr	r1, [sp, #28]                   @ 4-byte Reload
	str	r5, [sp]
	mov	r2, r7
	mov	r3, r4
	add	r5, sp, #36
	str	r5, [sp, #8]
	bl	aes_v7m_small.aes_ctr.keystream.fill_by_backend
	ldr	r0, [sp, #328]
	adds.w	r7, r9, r11
	adc.w	r8, r8, r10
	add.w	r1, r0, r11
	strd	r9, r10, [sp, #8]
	ldr	r4, [sp, #340]
	ldr.w	r9, [sp, #32]                   @ 4-byte Reload
	ldr.w	r10, [sp, #24]                  @ 4-byte Reload
	mov	r0, r5
	mov	r2, r6
	movs	r3, #0
	str	r1, [sp]
	bl	aes_v7m_small.aes_ctr.add_blocks.add_blocks
	ldr	r0, [sp, #336]
	subs	r0, r7, r0
	sbcs.w	r0, r8, r4
	blo	.Laes_v7m_small_BB36_6
.Laes_v7m_small_BB36_7:                               @ %after.12
	add	sp, #292
	pop.w	{r4, r5, r6, r7, r8, r9, r10, r11, pc}
.Laes_v7m_small_func_end36:
	.size	aes_v7m_small.aes_ctr.add_in_batches.add_by_backend, .Laes_v7m_small_func_end36-aes_v7m_small.aes_ctr.add_in_batches.add_by_backend
	.cantunwind
	.fnend
                                        @ -- End function
	.section	.text.aes_v7m_small.aes_ctr.add_in_batches.add_batch,"ax",%progbits
	.p2align	2                               @ -- Begin function aes_ctr::add_in_batches::add_batch::<#a8e061590e9ece31>
	.type	aes_v7m_small.aes_ctr.add_in_batches.add_batch,%function
	.code	16
	.thumb_func
aes_v7m_small.aes_ctr.add_in_batches.add_batch: @ @aes_v7m_small.aes_ctr.add_in_batches.add_batch
	.fnstart
@ %bb.0:                                @ %start
	.save	{r4, r5, r6, r7, r8, r9, r10, r11, lr}
	push.w	{r4, r5, r6, r7, r8, r9, r10, r11, lr}
	.pad	#276
	sub	sp, #276
	add.w	r8, sp, #20
	mov	r6, r2
	mov	r7, r1
	ldr.w	r9, [sp, #312]
	mov	r4, r0
	mov	r0, r8
	movs	r1, #0
	mov.w	r2, #256
	mov	r5, r3
	mov.w	r10, #0
	bl	memset
	mov.w	r11, #2
	mov	r0, r7
	mov	r2, r6
	mov	r3, r5
	strd	r11, r10, [sp, #8]
	str.w	r8, [sp]
	bl	aes_v7m_small.aes_ctr.counter_blocks.WholeBlockCounterBlocks.put
	ldr	r0, [r4]
	ldr	r2, [r4, #8]
	ldr	r3, [r4, #12]
	strd	r11, r10, [sp, #8]
	str.w	r8, [sp]
	bl	aes_v7m_small.aes_soft.soft.blocks.filled_up.process_filled_up.1
	movs	r0, #32
	strd	r0, r10, [sp, #8]
	mov	r0, r8
	movs	r2, #0
	movs	r3, #0
	str.w	r9, [sp]
	bl	aes_v7m_small.aes_ctr.add_blocks.add_blocks
	add	sp, #276
	pop.w	{r4, r5, r6, r7, r8, r9, r10, r11, pc}
.Laes_v7m_small_func_end37:
	.size	aes_v7m_small.aes_ctr.add_in_batches.add_batch, .Laes_v7m_small_func_end37-aes_v7m_small.aes_ctr.add_in_batches.add_batch
	.cantunwind
	.fnend
                                        @ -- End function
	.section	.text.aes_v7m_small.aes_ctr.keystream.fill_by_backend,"ax",%progbits
	.p2align	2                               @ -- Begin function aes_ctr::keystream::fill_by_backend::<#a8e061590e9ece31>
	.type	aes_v7m_small.aes_ctr.keystream.fill_by_backend,%function
	.code	16
	.thumb_func
aes_v7m_small.aes_ctr.keystream.fill_by_backend: @ @aes_v7m_small.aes_ctr.keystream.fill_by_backend
	.fnstart
@ %bb.0:                                @ %start
	.save	{r4, r5, r6, r7, r8, r9, lr}
	push.w	{r4, r5, r6, r7, r8, r9, lr}
	.pad	#20
	sub	sp, #20
	ldr.w	r8, [sp, #56]
	ldrd	r5, r9, [sp, #48]
	mov	r4, r0
	movs	r6, #0
	movs	r7, #2
	mov	r0, r1
	strd	r7, r6, [sp, #8]
	str.w	r8, [sp]
	bl	aes_v7m_small.aes_ctr.counter_blocks.WholeBlockCounterBlocks.put
	eor	r0, r5, #1
	orrs.w	r0, r0, r9
	ldr	r0, [r4]
	ldr	r2, [r4, #8]
	ldr	r3, [r4, #12]
	itee	ne
	strdne	r7, r6, [sp, #8]
	moveq	r1, #1
	strdeq	r1, r6, [sp, #8]
	str.w	r8, [sp]
	bl	aes_v7m_small.aes_soft.soft.blocks.filled_up.process_filled_up.1
	add	sp, #20
	pop.w	{r4, r5, r6, r7, r8, r9, pc}
.Laes_v7m_small_func_end38:
	.size	aes_v7m_small.aes_ctr.keystream.fill_by_backend, .Laes_v7m_small_func_end38-aes_v7m_small.aes_ctr.keystream.fill_by_backend
	.cantunwind
	.fnend
                                        @ -- End function
	.section	.text.aes_v7m_small.aes_cipher.zeroize.stack.wipe_stack.2032,"ax",%progbits
	.p2align	2                               @ -- Begin function aes_cipher::zeroize::stack::wipe_stack::<=2032>
	.type	aes_v7m_small.aes_cipher.zeroize.stack.wipe_stack.2032,%function
	.code	16
	.thumb_func
aes_v7m_small.aes_cipher.zeroize.stack.wipe_stack.2032: @ @aes_v7m_small.aes_cipher.zeroize.stack.wipe_stack.2032
	.fnstart
@ %bb.0:                                @ %start
	.save	{r4, r5, r7, lr}
	push	{r4, r5, r7, lr}
	.pad	#2040
	sub.w	sp, sp, #2040
	add	r4, sp, #8
	mov	r0, r4
	movs	r1, #0
	mov.w	r2, #2032
	movs	r5, #0
	bl	memset
	strd	r5, r5, [sp]
	@APP
	@NO_APP
	mov	r0, sp
	ldrd	r1, r2, [r0]
	@APP
	@NO_APP
	subs.w	r3, r1, #2032
	sbcs	r2, r2, #0
	itt	hs
	addhs.w	sp, sp, #2040
	pophs	{r4, r5, r7, pc}
.Laes_v7m_small_BB39_1:                               @ %then.1
	ldrb	r1, [r4, r1]
	@APP
	@NO_APP
	ldrd	r2, r3, [r0]
	strd	r1, r5, [r0]
	@APP
	@NO_APP
	add.w	sp, sp, #2040
	pop	{r4, r5, r7, pc}
.Laes_v7m_small_func_end39:
	.size	aes_v7m_small.aes_cipher.zeroize.stack.wipe_stack.2032, .Laes_v7m_small_func_end39-aes_v7m_small.aes_cipher.zeroize.stack.wipe_stack.2032
	.cantunwind
	.fnend
                                        @ -- End function
	.section	.text.aes_v7m_small.aes_cipher.zeroize.elements.zeroize_elements.1,"ax",%progbits
	.p2align	2                               @ -- Begin function aes_cipher::zeroize::elements::zeroize_elements::<#54a2bb646728b9ee>
	.type	aes_v7m_small.aes_cipher.zeroize.elements.zeroize_elements.1,%function
	.code	16
	.thumb_func
aes_v7m_small.aes_cipher.zeroize.elements.zeroize_elements.1: @ @aes_v7m_small.aes_cipher.zeroize.elements.zeroize_elements.1
	.fnstart
@ %bb.0:                                @ %start
	.save	{r4, r5, r6, r7, lr}
	push	{r4, r5, r6, r7, lr}
	.pad	#12
	sub	sp, #12
	movs	r1, #0
	strd	r1, r1, [sp]
	@APP
	@NO_APP
	mov	r5, sp
	ldrd	r6, r1, [r5]
	@APP
	@NO_APP
	subs.w	r2, r6, #120
	sbcs	r1, r1, #0
	bhs	.Laes_v7m_small_BB40_2
@ %bb.1:                                @ %then.1.i
	ldr.w	r7, [r0, r6, lsl #2]
	movs	r1, #0
	mov.w	r2, #480
	mov	r4, r0
	bl	memset
	ldr.w	r0, [r4, r6, lsl #2]
	and.w	r4, r7, r0
	b	.Laes_v7m_small_BB40_3
.Laes_v7m_small_BB40_2:                               @ %"aes_cipher::zeroize::observe::<#94bc162b3f62047f>.exit12"
	movs	r1, #0
	mov.w	r2, #480
	movs	r4, #0
	bl	memset
.Laes_v7m_small_BB40_3:                               @ %"aes_cipher::zeroize::observe::<#94bc162b3f62047f>.exit"
	@APP
	@NO_APP
	ldrd	r1, r2, [r5]
	uxtb	r0, r4
	movs	r1, #0
	strd	r0, r1, [r5]
	@APP
	@NO_APP
	add	sp, #12
	b	.Laes_v7m_small_return_3336
.Laes_v7m_small_return_3336:
	movs	r1, #0
	movs	r2, #0
	movs	r3, #0
	mov	r12, r1
	mov	lr, r1
	pop	{r4, r5, r6, r7, pc}
.Laes_v7m_small_func_end40:
	.size	aes_v7m_small.aes_cipher.zeroize.elements.zeroize_elements.1, .Laes_v7m_small_func_end40-aes_v7m_small.aes_cipher.zeroize.elements.zeroize_elements.1
	.cantunwind
	.fnend
                                        @ -- End function
	.section	.text.aes_v7m_small.cmac.tags.tag,"ax",%progbits
	.p2align	2                               @ -- Begin function cmac::tags::tag::<#4f733d09d7f6c6b4>
	.type	aes_v7m_small.cmac.tags.tag,%function
	.code	16
	.thumb_func
aes_v7m_small.cmac.tags.tag: @ @aes_v7m_small.cmac.tags.tag
	.fnstart
@ %bb.0:                                @ %start
	.save	{r4, r5, r6, r7, r8, r9, r10, lr}
	push.w	{r4, r5, r6, r7, r8, r9, r10, lr}
	.pad	#40
	sub	sp, #40
	ldrd	r10, r8, [sp, #72]
	mov	r4, r0
	orrs.w	r0, r10, r8
	it	ne
	movne	r0, #1
	sub.w	r0, r10, r0
	add.w	r9, sp, #8
	mov	r5, r1
	bic	r7, r0, #15
	movs	r3, #0
	mov	r0, r1
	mov	r1, r9
	mov	r6, r2
	strd	r3, r3, [sp, #16]
	strd	r3, r3, [sp, #8]
	strd	r7, r3, [sp]
	bl	aes_v7m_small.cmac.chaining.chain
	adds	r3, r6, r7
	subs.w	r7, r10, r7
	sbc	r6, r8, #0
	add	r0, sp, #24
	mov	r1, r5
	mov	r2, r9
	strd	r7, r6, [sp]
	bl	aes_v7m_small.cmac.tags.tag_at_end
	add	r3, sp, #24
	ldr	r2, [sp, #36]
	ldm	r3, {r0, r1, r3}
	str	r2, [r4, #12]
	str	r3, [r4, #8]
	str	r1, [r4, #4]
	str	r0, [r4]
	add	sp, #40
	pop.w	{r4, r5, r6, r7, r8, r9, r10, pc}
.Laes_v7m_small_func_end41:
	.size	aes_v7m_small.cmac.tags.tag, .Laes_v7m_small_func_end41-aes_v7m_small.cmac.tags.tag
	.cantunwind
	.fnend
                                        @ -- End function
	.section	.text.aes_v7m_small.cmac.chaining.chain,"ax",%progbits
	.p2align	2                               @ -- Begin function cmac::chaining::chain::<#4f733d09d7f6c6b4>
	.type	aes_v7m_small.cmac.chaining.chain,%function
	.code	16
	.thumb_func
aes_v7m_small.cmac.chaining.chain: @ @aes_v7m_small.cmac.chaining.chain
	.fnstart
@ %bb.0:                                @ %start
	.save	{r4, r5, r6, r7, r8, r9, r10, r11, lr}
	push.w	{r4, r5, r6, r7, r8, r9, r10, r11, lr}
	.pad	#92
	sub	sp, #92
	ldrd	r6, r4, [sp, #128]
	mov	r5, r1
	lsrs	r1, r6, #4
	orr.w	r1, r1, r4, lsl #28
	lsr.w	r12, r4, #4
	adds.w	lr, r1, #1
	adc	r7, r12, #0
	lsls	r3, r6, #28
	itt	eq
	moveq	lr, r1
	moveq	r7, r12
	orrs.w	r1, r6, r4
	beq.w	.Laes_v7m_small_BB42_3
@ %bb.1:                                @ %join.5.lr.ph
	mov.w	r10, #0
	mov.w	r8, #0
	movs	r1, #0
	add	r3, sp, #20
	str	r2, [sp, #32]                   @ 4-byte Spill
	stm.w	r3, {r0, r7, lr}                @ 12-byte Folded Spill
	.p2align	2
.Laes_v7m_small_BB42_2:                               @ %join.5
                                        @ =>This Inner Loop Header: Depth=1
	str	r1, [sp, #72]                   @ 4-byte Spill
	lsls	r0, r1, #4
	movs	r1, #16
	orr.w	r0, r0, r8, lsr #28
	adds.w	r3, r1, r8, lsl #4
	adc	r0, r0, #0
	subs	r1, r3, r6
	sbcs	r0, r4
	it	hs
	movhs	r3, r6
	add.w	r1, r2, r8, lsl #4
	sub.w	r2, r3, r8, lsl #4
	add	r0, sp, #76
	strd	r10, r10, [sp, #84]
	strd	r10, r10, [sp, #76]
	bl	memcpy
	ldrb	r0, [r5, #4]
	ldrb.w	lr, [r5, #15]
	str	r0, [sp, #68]                   @ 4-byte Spill
	ldrb	r0, [r5, #5]
	ldrb	r3, [r5, #13]
	str	r0, [sp, #64]                   @ 4-byte Spill
	ldrb	r0, [r5, #6]
	ldrb	r7, [r5, #14]
	str	r0, [sp, #56]                   @ 4-byte Spill
	ldrb.w	r0, [sp, #91]
	ldrb.w	r1, [sp, #90]
	eor.w	r0, r0, lr
	str	r0, [sp, #60]                   @ 4-byte Spill
	ldrb.w	r0, [sp, #89]
	ldrb	r2, [r5, #11]
	eors	r0, r3
	eors	r1, r7
	str	r0, [sp, #48]                   @ 4-byte Spill
	ldrb.w	r0, [sp, #87]
	ldrb	r6, [r5, #12]
	str	r1, [sp, #52]                   @ 4-byte Spill
	ldrb.w	r1, [sp, #88]
	eors	r0, r2
	ldrb.w	r11, [r5, #9]
	eors	r1, r6
	str	r0, [sp, #40]                   @ 4-byte Spill
	ldrb.w	r0, [sp, #85]
	ldrb.w	r12, [r5, #10]
	str	r1, [sp, #44]                   @ 4-byte Spill
	ldrb.w	r1, [sp, #86]
	ldrb.w	r9, [r5, #7]
	eor.w	lr, r0, r11
	ldrb.w	r0, [sp, #83]
	eor.w	r1, r1, r12
	ldrb.w	r10, [r5, #8]
	str	r1, [sp, #36]                   @ 4-byte Spill
	ldrb.w	r1, [sp, #84]
	ldrb.w	r6, [sp, #82]
	eor.w	r3, r0, r9
	ldr	r0, [sp, #56]                   @ 4-byte Reload
	eor.w	r12, r1, r10
	ldrb.w	r7, [sp, #81]
	eors	r6, r0
	ldrb.w	r0, [sp, #80]
	ldr	r1, [sp, #64]                   @ 4-byte Reload
	ldr	r2, [sp, #68]                   @ 4-byte Reload
	eors	r7, r1
	ldrb	r1, [r5, #3]
	eors	r2, r0
	ldrb.w	r0, [sp, #79]
	ldrb	r4, [r5, #2]
	eors	r0, r1
	strb	r0, [r5, #3]
	ldr	r0, [sp, #36]                   @ 4-byte Reload
	ldrb.w	r9, [sp, #78]
	strb	r0, [r5, #10]
	ldr	r0, [sp, #40]                   @ 4-byte Reload
	eor.w	r9, r9, r4
	strb	r0, [r5, #11]
	ldr	r0, [sp, #44]                   @ 4-byte Reload
	ldrb	r1, [r5]
	strb	r0, [r5, #12]
	ldr	r0, [sp, #48]                   @ 4-byte Reload
	ldrb.w	r10, [r5, #1]
	strb	r0, [r5, #13]
	ldr	r0, [sp, #52]                   @ 4-byte Reload
	ldrb.w	r11, [sp, #77]
	ldrb.w	r4, [sp, #76]
	strb	r0, [r5, #14]
	ldr	r0, [sp, #60]                   @ 4-byte Reload
	eor.w	r10, r10, r11
	eors	r1, r4
	strb.w	r9, [r5, #2]
	ldr.w	r9, [sp, #20]                   @ 4-byte Reload
	strb	r1, [r5]
	strb.w	r10, [r5, #1]
	strb	r2, [r5, #4]
	strb	r7, [r5, #5]
	strb	r6, [r5, #6]
	strb	r3, [r5, #7]
	strb.w	r12, [r5, #8]
	strb.w	lr, [r5, #9]
	strb	r0, [r5, #15]
	ldr.w	r0, [r9]
	ldr.w	r2, [r9, #8]
	ldr.w	r3, [r9, #12]
	movs	r1, #1
	movs	r7, #0
	mov.w	r10, #0
	strd	r1, r7, [sp, #8]
	str	r5, [sp]
	bl	aes_v7m_small.aes_narrow.blocks.process_all_batches.1
	bl	aes_v7m_small.aes_cipher.zeroize.stack.wipe_stack.1024
	ldr	r1, [sp, #72]                   @ 4-byte Reload
	ldrd	r7, lr, [sp, #24]               @ 8-byte Folded Reload
	adds.w	r8, r8, #1
	ldrd	r6, r4, [sp, #128]
	ldr	r2, [sp, #32]                   @ 4-byte Reload
	adc	r1, r1, #0
	subs.w	r0, r8, lr
	sbcs.w	r0, r1, r7
	blo.w	.Laes_v7m_small_BB42_2
.Laes_v7m_small_BB42_3:                               @ %after.1
	add	sp, #92
	pop.w	{r4, r5, r6, r7, r8, r9, r10, r11, pc}
.Laes_v7m_small_func_end42:
	.size	aes_v7m_small.cmac.chaining.chain, .Laes_v7m_small_func_end42-aes_v7m_small.cmac.chaining.chain
	.cantunwind
	.fnend
                                        @ -- End function
	.section	.text.aes_v7m_small.cmac.tags.tag_at_end,"ax",%progbits
	.p2align	2                               @ -- Begin function cmac::tags::tag_at_end::<#4f733d09d7f6c6b4>
	.type	aes_v7m_small.cmac.tags.tag_at_end,%function
	.code	16
	.thumb_func
aes_v7m_small.cmac.tags.tag_at_end: @ @aes_v7m_small.cmac.tags.tag_at_end
	.fnstart
@ %bb.0:                                @ %start
	.save	{r4, r5, r6, r7, r8, r9, r10, r11, lr}
	push.w	{r4, r5, r6, r7, r8, r9, r10, r11, lr}
	.pad	#108
	sub	sp, #108
	str	r3, [sp, #64]                   @ 4-byte Spill
	mov	r10, r2
	str	r0, [sp, #72]                   @ 4-byte Spill
	movs	r7, #0
	ldr	r0, [r1]
	ldr	r2, [r1, #8]
	str	r1, [sp, #68]                   @ 4-byte Spill
	ldr	r3, [r1, #12]
	movs	r1, #1
	strd	r1, r7, [sp, #8]
	add	r1, sp, #92
	str	r7, [sp, #104]
	strd	r7, r7, [sp, #96]
	str	r7, [sp, #92]
	str	r1, [sp]
	bl	aes_v7m_small.aes_narrow.blocks.process_all_batches.1
	bl	aes_v7m_small.aes_cipher.zeroize.stack.wipe_stack.1024
	ldrb.w	r1, [sp, #93]
	ldrb.w	r0, [sp, #92]
	ldrb.w	r2, [sp, #94]
	lsls	r1, r1, #16
	ldrb.w	r5, [sp, #101]
	lsl.w	lr, r0, #24
	orr.w	r0, r1, r0, lsl #24
	ldrb.w	r3, [sp, #95]
	orr.w	r0, r0, r2, lsl #8
	ldrb.w	r2, [sp, #100]
	ldrb.w	r4, [sp, #102]
	ldr	r1, [sp, #96]
	lsls	r5, r5, #16
	ldrb.w	r12, [sp, #103]
	add	r0, r3
	lsls	r3, r2, #24
	orr.w	r2, r5, r2, lsl #24
	rev	r1, r1
	orr.w	r2, r2, r4, lsl #8
	ldr	r4, [sp, #104]
	add	r2, r12
	lsls	r5, r1, #1
	lsls	r0, r0, #1
	rev	r4, r4
	orr.w	r8, r5, r3, lsr #31
	orr.w	r9, r0, r1, lsr #31
	lsls	r0, r2, #1
	movs	r5, #135
	orr.w	r11, r0, r4, lsr #31
	and.w	r0, r5, lr, asr #31
	eor.w	r6, r0, r4, lsl #1
	ldr	r4, [sp, #144]
	strd	r7, r7, [sp, #92]
	strd	r7, r7, [sp, #100]
	add	r7, sp, #92
	ldr	r1, [sp, #64]                   @ 4-byte Reload
	mov	r0, r7
	mov	r2, r4
	bl	memcpy
	ldr	r2, [sp, #148]
	eor	r0, r4, #16
	orrs	r0, r2
	bne	.Laes_v7m_small_BB43_2
@ %bb.1:                                @ %then.1.i
	ldrb.w	r4, [sp, #94]
	uxth	r0, r6
	uxth.w	r3, r9
	str	r0, [sp, #28]                   @ 4-byte Spill
	uxth.w	r0, r11
	ldrb.w	r2, [sp, #97]
	ldrb.w	r1, [sp, #98]
	eor.w	r3, r4, r3, lsr #8
	str	r0, [sp, #32]                   @ 4-byte Spill
	uxth.w	lr, r8
	ldrb.w	r0, [sp, #95]
	str	r3, [sp, #56]                   @ 4-byte Spill
	ldrb.w	r3, [sp, #99]
	ldrb.w	r7, [sp, #92]
	eor.w	r1, r1, lr, lsr #8
	eor.w	r2, r2, r8, lsr #16
	ldrb.w	r5, [sp, #93]
	eor.w	r0, r0, r9
	str	r1, [sp, #40]                   @ 4-byte Spill
	ldrb.w	r1, [sp, #102]
	str	r2, [sp, #44]                   @ 4-byte Spill
	eor.w	r2, r3, r8
	ldr	r3, [sp, #32]                   @ 4-byte Reload
	eor.w	r4, r7, r9, lsr #24
	str	r0, [sp, #52]                   @ 4-byte Spill
	ldrb.w	r0, [sp, #100]
	ldrb.w	r12, [sp, #96]
	str	r4, [sp, #64]                   @ 4-byte Spill
	eor.w	r4, r5, r9, lsr #16
	str	r2, [sp, #36]                   @ 4-byte Spill
	ldrb.w	r2, [sp, #101]
	eor.w	r5, r1, r3, lsr #8
	ldrb.w	r1, [sp, #103]
	eor.w	r0, r0, r11, lsr #24
	eor.w	r7, r12, r8, lsr #24
	str	r0, [sp, #32]                   @ 4-byte Spill
	eor.w	r8, r2, r11, lsr #16
	eor.w	r12, r1, r11
	ldrb.w	r0, [sp, #106]
	ldrb.w	r1, [sp, #104]
	ldr	r2, [sp, #28]                   @ 4-byte Reload
	eor.w	r9, r1, r6, lsr #24
	eor.w	r11, r0, r2, lsr #8
	ldrb.w	r0, [sp, #105]
	ldrb.w	r1, [sp, #107]
	str	r4, [sp, #60]                   @ 4-byte Spill
	str	r7, [sp, #48]                   @ 4-byte Spill
	eor.w	lr, r0, r6, lsr #16
	eor.w	r4, r1, r6
	b	.Laes_v7m_small_BB43_3
.Laes_v7m_small_BB43_2:                               @ %else.2.i
	lsl.w	r3, r8, #1
	orr.w	r0, r3, r11, lsr #31
	mov	r1, r4
	str	r0, [sp, #36]                   @ 4-byte Spill
	and.w	r0, r5, r9, asr #31
	movs	r5, #128
	strb	r5, [r7, r1]
	ldrb.w	r5, [sp, #92]
	ldrb.w	r7, [sp, #93]
	lsl.w	r2, r9, #1
	ubfx	r12, r9, #7, #8
	ldrb.w	r9, [sp, #94]
	orr.w	lr, r2, r8, lsr #31
	str	r0, [sp, #28]                   @ 4-byte Spill
	ldrb.w	r0, [sp, #95]
	ldrb.w	r1, [sp, #96]
	eor.w	r5, r5, r2, lsr #24
	eor.w	r2, r7, r2, lsr #16
	str	r2, [sp, #60]                   @ 4-byte Spill
	ldrb.w	r2, [sp, #97]
	eor.w	r7, r9, r12
	str	r7, [sp, #56]                   @ 4-byte Spill
	ldrb.w	r7, [sp, #98]
	eor.w	r0, r0, lr
	eor.w	r1, r1, r3, lsr #24
	ubfx	r8, r8, #7, #8
	str	r0, [sp, #52]                   @ 4-byte Spill
	ldrb.w	r0, [sp, #99]
	str	r1, [sp, #48]                   @ 4-byte Spill
	eor.w	r1, r2, r3, lsr #16
	ldr	r3, [sp, #36]                   @ 4-byte Reload
	eor.w	r2, r7, r8
	str	r2, [sp, #40]                   @ 4-byte Spill
	ldrb.w	r2, [sp, #102]
	eors	r0, r3
	lsl.w	r4, r11, #1
	ubfx	r11, r11, #7, #8
	str	r1, [sp, #44]                   @ 4-byte Spill
	ldrb.w	r1, [sp, #100]
	str	r0, [sp, #36]                   @ 4-byte Spill
	ldrb.w	r0, [sp, #101]
	str	r5, [sp, #64]                   @ 4-byte Spill
	eor.w	r5, r2, r11
	ldrb.w	r2, [sp, #103]
	eor.w	r1, r1, r4, lsr #24
	eor.w	r8, r0, r4, lsr #16
	orr.w	r0, r4, r6, lsr #31
	str	r1, [sp, #32]                   @ 4-byte Spill
	eor.w	r12, r2, r0
	ldrb.w	r1, [sp, #104]
	ldrb.w	r2, [sp, #105]
	lsls	r0, r6, #1
	eor.w	r9, r1, r0, lsr #24
	eor.w	lr, r2, r0, lsr #16
	ldr	r0, [sp, #28]                   @ 4-byte Reload
	ldrb.w	r2, [sp, #106]
	ldrb.w	r3, [sp, #107]
	eor.w	r0, r0, r6, lsl #1
	ubfx	r1, r6, #7, #8
	eor.w	r11, r2, r1
	eor.w	r4, r3, r0
.Laes_v7m_small_BB43_3:                               @ %"cmac::tags::last_block::<#4f733d09d7f6c6b4>.exit"
	ldrb.w	r0, [r10, #15]
	ldrb.w	r1, [r10, #14]
	eors	r0, r4
	str	r0, [sp, #28]                   @ 4-byte Spill
	eor.w	r0, r1, r11
	ldrb.w	r1, [r10, #13]
	str	r0, [sp, #24]                   @ 4-byte Spill
	eor.w	r0, r1, lr
	ldrb.w	r2, [r10, #12]
	str	r0, [sp, #20]                   @ 4-byte Spill
	ldrb.w	r4, [r10, #8]
	ldr	r0, [sp, #32]                   @ 4-byte Reload
	eor.w	r11, r2, r9
	ldrb.w	r3, [r10, #11]
	eors	r4, r0
	ldrb.w	r0, [r10, #7]
	ldr	r2, [sp, #36]                   @ 4-byte Reload
	ldrb.w	r7, [r10, #10]
	eor.w	r9, r3, r12
	ldrb.w	r1, [r10, #6]
	eor.w	r12, r0, r2
	ldr	r0, [sp, #40]                   @ 4-byte Reload
	eor.w	lr, r7, r5
	ldrb.w	r5, [r10, #9]
	eors	r1, r0
	ldrb.w	r2, [r10, #5]
	ldr	r0, [sp, #44]                   @ 4-byte Reload
	eor.w	r8, r8, r5
	ldrb.w	r3, [r10, #4]
	eors	r2, r0
	ldr	r0, [sp, #48]                   @ 4-byte Reload
	ldrb.w	r5, [r10, #3]
	ldr	r6, [sp, #52]                   @ 4-byte Reload
	eors	r3, r0
	ldrb.w	r0, [r10, #2]
	eors	r5, r6
	ldr	r6, [sp, #56]                   @ 4-byte Reload
	ldr	r7, [sp, #60]                   @ 4-byte Reload
	eors	r0, r6
	strb.w	r0, [sp, #78]
	ldr	r0, [sp, #20]                   @ 4-byte Reload
	ldrb.w	r6, [r10, #1]
	strb.w	r1, [sp, #82]
	strb.w	r0, [sp, #89]
	ldr	r0, [sp, #24]                   @ 4-byte Reload
	ldr	r1, [sp, #68]                   @ 4-byte Reload
	ldrb.w	r10, [r10]
	eors	r6, r7
	ldr	r7, [sp, #64]                   @ 4-byte Reload
	strb.w	r3, [sp, #80]
	strb.w	r2, [sp, #81]
	strb.w	r0, [sp, #90]
	ldr	r0, [r1]
	ldr	r2, [r1, #8]
	ldr	r3, [r1, #12]
	ldr	r1, [sp, #28]                   @ 4-byte Reload
	eor.w	r7, r7, r10
	strb.w	r7, [sp, #76]
	strb.w	r1, [sp, #91]
	movs	r1, #0
	movs	r7, #1
	strd	r7, r1, [sp, #8]
	add	r1, sp, #76
	strb.w	r6, [sp, #77]
	strb.w	r5, [sp, #79]
	strb.w	r12, [sp, #83]
	strb.w	r4, [sp, #84]
	strb.w	r8, [sp, #85]
	strb.w	lr, [sp, #86]
	strb.w	r9, [sp, #87]
	strb.w	r11, [sp, #88]
	str	r1, [sp]
	bl	aes_v7m_small.aes_narrow.blocks.process_all_batches.1
	bl	aes_v7m_small.aes_cipher.zeroize.stack.wipe_stack.1024
	ldr	r2, [sp, #88]
	ldrd	r1, r3, [sp, #80]
	ldrd	r7, r0, [sp, #72]               @ 4-byte Reload
	str	r2, [r7, #12]
	str	r3, [r7, #8]
	str	r1, [r7, #4]
	str	r0, [r7]
	add	sp, #108
	pop.w	{r4, r5, r6, r7, r8, r9, r10, r11, pc}
.Laes_v7m_small_func_end43:
	.size	aes_v7m_small.cmac.tags.tag_at_end, .Laes_v7m_small_func_end43-aes_v7m_small.cmac.tags.tag_at_end
	.cantunwind
	.fnend
                                        @ -- End function
	.section	.text.aes_v7m_small.cmac.pieces.MessageZeroize.zeroize,"ax",%progbits
	.p2align	2                               @ -- Begin function cmac::pieces::MessageZeroize::zeroize
	.type	aes_v7m_small.cmac.pieces.MessageZeroize.zeroize,%function
	.code	16
	.thumb_func
aes_v7m_small.cmac.pieces.MessageZeroize.zeroize: @ @aes_v7m_small.cmac.pieces.MessageZeroize.zeroize
	.fnstart
@ %bb.0:                                @ %start
	.save	{r4, lr}
	push	{r4, lr}
	mov	r4, r0
	adds	r0, #16
	movs	r1, #0
	strd	r1, r1, [r4]
	strd	r1, r1, [r4, #8]
	bl	aes_v7m_small.aes_cipher.zeroize.elements.zeroize_elements.2
	add.w	r0, r4, #32
	pop.w	{r4, lr}
	b	aes_v7m_small.aes_cipher.zeroize.elements.zeroize_elements.2
.Laes_v7m_small_func_end44:
	.size	aes_v7m_small.cmac.pieces.MessageZeroize.zeroize, .Laes_v7m_small_func_end44-aes_v7m_small.cmac.pieces.MessageZeroize.zeroize
	.cantunwind
	.fnend
                                        @ -- End function
	.section	.text.aes_v7m_small.aes_cipher.zeroize.elements.zeroize_elements.2,"ax",%progbits
	.p2align	2                               @ -- Begin function aes_cipher::zeroize::elements::zeroize_elements::<#331496ca003a3905>
	.type	aes_v7m_small.aes_cipher.zeroize.elements.zeroize_elements.2,%function
	.code	16
	.thumb_func
aes_v7m_small.aes_cipher.zeroize.elements.zeroize_elements.2: @ @aes_v7m_small.aes_cipher.zeroize.elements.zeroize_elements.2
	.fnstart
@ %bb.0:                                @ %start
	.pad	#8
	sub	sp, #8
	movs	r1, #0
	strd	r1, r1, [sp]
	@APP
	@NO_APP
	mov	r12, sp
	ldrd	r3, r2, [r12]
	@APP
	@NO_APP
	str	r1, [r0, #12]
	str	r1, [r0, #8]
	str	r1, [r0, #4]
	str	r1, [r0]
	@APP
	@NO_APP
	ldrd	r0, r2, [r12]
	strd	r1, r1, [r12]
	@APP
	@NO_APP
	add	sp, #8
	b	.Laes_v7m_small_return_3888
.Laes_v7m_small_return_3888:
	movs	r1, #0
	movs	r2, #0
	movs	r3, #0
	mov	r12, r1
	bx	lr
.Laes_v7m_small_func_end45:
	.size	aes_v7m_small.aes_cipher.zeroize.elements.zeroize_elements.2, .Laes_v7m_small_func_end45-aes_v7m_small.aes_cipher.zeroize.elements.zeroize_elements.2
	.cantunwind
	.fnend
                                        @ -- End function
	.section	.text.aes_v7m_small.cmac.chain_in_pieces.ChainInPieces.extend,"ax",%progbits
	.p2align	2                               @ -- Begin function cmac::chain_in_pieces::ChainInPieces::extend::<#4f733d09d7f6c6b4>
	.type	aes_v7m_small.cmac.chain_in_pieces.ChainInPieces.extend,%function
	.code	16
	.thumb_func
aes_v7m_small.cmac.chain_in_pieces.ChainInPieces.extend: @ @aes_v7m_small.cmac.chain_in_pieces.ChainInPieces.extend
	.fnstart
@ %bb.0:                                @ %start
	.save	{r4, r5, r6, r7, r8, r9, r10, r11, lr}
	push.w	{r4, r5, r6, r7, r8, r9, r10, r11, lr}
	.pad	#28
	sub	sp, #28
	mov	lr, r0
	ldrd	r8, r0, [r0]
	ldr	r5, [sp, #64]
	cmp.w	r8, #16
	mov.w	r3, #16
	it	hs
	movhs	r8, r3
	cmp	r0, #0
	ldr	r6, [sp, #68]
	it	ne
	movne	r8, r3
	movs	r7, #0
	rsbs.w	r3, r8, #16
	sbc	r4, r7, #0
	subs	r0, r3, r5
	sbcs.w	r0, r4, r6
	bhs	.Laes_v7m_small_BB46_9
@ %bb.1:                                @ %join.3
	add.w	r11, lr, #24
	subs	r5, r5, r3
	add.w	r0, r11, r8
	str	r1, [sp, #24]                   @ 4-byte Spill
	sbc.w	r9, r6, r4
	subs	r1, r0, r2
	sbc	r7, r7, #0
	subs	r1, r1, r3
	sbcs.w	r1, r7, r4
	add.w	r6, r2, r3
	bhs	.Laes_v7m_small_BB46_12
@ %bb.2:                                @ %join.7.i.i.i.i.i.i39.preheader
	movs	r1, #0
	subs.w	r7, r8, #13
	sbc	r4, r1, #0
	subs	r7, #3
	sbcs	r7, r4, #0
	and	r12, r3, #3
	blo	.Laes_v7m_small_BB46_6
@ %bb.3:                                @ %join.7.i.i.i.i.i.i39.preheader.new
	str.w	r9, [sp, #20]                   @ 4-byte Spill
	mov	r10, r6
	mov	r9, r5
	and	r3, r3, #28
	movs	r7, #0
	.p2align	2
.Laes_v7m_small_BB46_4:                               @ %join.7.i.i.i.i.i.i39
                                        @ =>This Inner Loop Header: Depth=1
	ldrb	r4, [r2, r1]
	strb	r4, [r0, r1]
	orr	r4, r1, #1
	ldrb	r5, [r2, r4]
	strb	r5, [r0, r4]
	orr	r5, r1, #2
	ldrb	r4, [r2, r5]
	strb	r4, [r0, r5]
	orr	r5, r1, #3
	adds	r1, #4
	ldrb	r4, [r2, r5]
	adc	r7, r7, #0
	eor.w	r6, r1, r3
	orrs	r6, r7
	strb	r4, [r0, r5]
	bne	.Laes_v7m_small_BB46_4
@ %bb.5:                                @ %"core::slice::edits::slice+T::copy_from_slice::<i8,20'core::clone::U8Clone{}>.exit46.loopexit.unr-lcssa"
	mov	r5, r9
	ldr.w	r9, [sp, #20]                   @ 4-byte Reload
	cmp.w	r12, #0
	mov	r6, r10
	beq	.Laes_v7m_small_BB46_13
.Laes_v7m_small_BB46_6:                               @ %join.7.i.i.i.i.i.i39.epil.preheader
	ldrb	r3, [r2, r1]
	cmp.w	r12, #1
	strb	r3, [r0, r1]
	beq	.Laes_v7m_small_BB46_13
@ %bb.7:                                @ %join.7.i.i.i.i.i.i39.epil.1
	adds	r3, r1, #1
	ldrb	r7, [r2, r3]
	cmp.w	r12, #2
	strb	r7, [r0, r3]
	beq	.Laes_v7m_small_BB46_13
@ %bb.8:                                @ %join.7.i.i.i.i.i.i39.epil.2
	adds	r1, #2
	ldrb	r2, [r2, r1]
	strb	r2, [r0, r1]
	b	.Laes_v7m_small_BB46_13
.Laes_v7m_small_BB46_9:                               @ %then.1
	add.w	r0, lr, r8
	adds.w	r9, r8, r5
	add.w	r0, r0, #24
	adc	r10, r6, #0
	subs	r1, r0, r2
	sbc	r3, r7, #0
	subs	r1, r1, r5
	sbcs.w	r1, r3, r6
	bhs	.Laes_v7m_small_BB46_16
@ %bb.10:                               @ %join.7.i.i.i.i.i.i.preheader
	subs	r1, r5, #4
	sbcs	r1, r6, #0
	and	r12, r5, #3
	bhs	.Laes_v7m_small_BB46_19
@ %bb.11:
	movs	r3, #0
	b	.Laes_v7m_small_BB46_22
.Laes_v7m_small_BB46_12:                              @ %apart.2.i.i.i.i.i.i37
	mov	r1, r2
	mov	r2, r3
	mov	r4, lr
	bl	memmove
	mov	lr, r4
.Laes_v7m_small_BB46_13:                              @ %"core::slice::edits::slice+T::copy_from_slice::<i8,20'core::clone::U8Clone{}>.exit46"
	subs	r0, r5, #1
	bic	r10, r0, #15
	strd	r5, r6, [sp, #8]                @ 8-byte Folded Spill
	sbc	r4, r9, #0
	add.w	r7, r6, r10
	subs.w	r0, r5, r10
	ldr	r6, [sp, #24]                   @ 4-byte Reload
	sbc.w	r5, r9, r4
	add.w	r9, lr, #8
	str	r0, [sp, #16]                   @ 4-byte Spill
	mov.w	r12, #0
	movs	r3, #16
	mov	r0, r6
	mov	r1, r9
	mov	r2, r11
	str.w	lr, [sp, #20]                   @ 4-byte Spill
	strd	r3, r12, [sp]
	bl	aes_v7m_small.cmac.chaining.chain
	mov	r1, r9
	ldrd	r2, r9, [sp, #12]               @ 8-byte Folded Reload
	mov	r0, r6
	strd	r10, r4, [sp]
	bl	aes_v7m_small.cmac.chaining.chain
	subs.w	r0, r11, r7
	mov.w	r1, #0
	sbc	r1, r1, #0
	subs.w	r0, r0, r9
	sbcs.w	r0, r1, r5
	str	r5, [sp, #24]                   @ 4-byte Spill
	bhs	.Laes_v7m_small_BB46_18
@ %bb.14:                               @ %join.7.i.i.i.i.i.i60.preheader
	ldr	r0, [sp, #64]
	ldr	r1, [sp, #68]
	adds.w	r0, r0, r8
	adc	r1, r1, #0
	subs.w	r0, r0, r10
	sbcs	r1, r4
	subs	r0, #17
	sbc	r1, r1, #0
	subs	r0, #3
	sbcs	r0, r1, #0
	ldr	r0, [sp, #8]                    @ 4-byte Reload
	and	r12, r0, #3
	bhs	.Laes_v7m_small_BB46_25
@ %bb.15:
	ldrd	lr, r10, [sp, #20]              @ 8-byte Folded Reload
	movs	r1, #0
	b	.Laes_v7m_small_BB46_28
.Laes_v7m_small_BB46_16:                              @ %apart.2.i.i.i.i.i.i
	mov	r1, r2
	mov	r2, r5
	mov	r5, lr
	bl	memmove
.Laes_v7m_small_BB46_17:                              @ %common.ret
	mov	lr, r5
	b	.Laes_v7m_small_BB46_31
.Laes_v7m_small_BB46_18:                              @ %apart.2.i.i.i.i.i.i58
	mov	r0, r11
	mov	r1, r7
	mov	r2, r9
	bl	memmove
	ldrd	lr, r10, [sp, #20]              @ 8-byte Folded Reload
	b	.Laes_v7m_small_BB46_31
.Laes_v7m_small_BB46_19:                              @ %join.7.i.i.i.i.i.i.preheader.new
	mov	r8, r9
	bic	r7, r5, #3
	movs	r3, #0
	movs	r6, #0
	.p2align	2
.Laes_v7m_small_BB46_20:                              @ %join.7.i.i.i.i.i.i
                                        @ =>This Inner Loop Header: Depth=1
	ldrb	r5, [r2, r3]
	strb	r5, [r0, r3]
	orr	r5, r3, #1
	ldrb	r4, [r2, r5]
	strb	r4, [r0, r5]
	orr	r5, r3, #2
	ldrb	r4, [r2, r5]
	strb	r4, [r0, r5]
	orr	r5, r3, #3
	adds	r3, #4
	ldrb	r4, [r2, r5]
	adc	r6, r6, #0
	eor.w	r1, r3, r7
	orrs	r1, r6
	strb	r4, [r0, r5]
	bne	.Laes_v7m_small_BB46_20
@ %bb.21:                               @ %common.ret.loopexit72.unr-lcssa
	cmp.w	r12, #0
	mov	r9, r8
	beq	.Laes_v7m_small_BB46_31
.Laes_v7m_small_BB46_22:                              @ %join.7.i.i.i.i.i.i.epil.preheader
	ldrb	r7, [r2, r3]
	cmp.w	r12, #1
	strb	r7, [r0, r3]
	beq	.Laes_v7m_small_BB46_31
@ %bb.23:                               @ %join.7.i.i.i.i.i.i.epil.1
	adds	r7, r3, #1
	ldrb	r6, [r2, r7]
	mov	r5, lr
	cmp.w	r12, #2
	strb	r6, [r0, r7]
	beq	.Laes_v7m_small_BB46_17
@ %bb.24:                               @ %join.7.i.i.i.i.i.i.epil.2
	adds	r1, r3, #2
	ldrb	r2, [r2, r1]
	strb	r2, [r0, r1]
	b	.Laes_v7m_small_BB46_17
.Laes_v7m_small_BB46_25:                              @ %join.7.i.i.i.i.i.i60.preheader.new
	ldr.w	r10, [sp, #24]                  @ 4-byte Reload
	ldr.w	r8, [sp, #20]                   @ 4-byte Reload
	subs.w	lr, r9, r12
	sbc	r3, r10, #0
	movs	r1, #0
	movs	r5, #0
	.p2align	2
.Laes_v7m_small_BB46_26:                              @ %join.7.i.i.i.i.i.i60
                                        @ =>This Inner Loop Header: Depth=1
	ldrb	r6, [r7, r1]
	strb.w	r6, [r11, r1]
	orr	r6, r1, #1
	ldrb	r4, [r7, r6]
	strb.w	r4, [r11, r6]
	orr	r6, r1, #2
	ldrb	r4, [r7, r6]
	strb.w	r4, [r11, r6]
	orr	r6, r1, #3
	adds	r1, #4
	adc	r5, r5, #0
	ldrb	r4, [r7, r6]
	eor.w	r0, r1, lr
	eor.w	r2, r5, r3
	orrs	r0, r2
	strb.w	r4, [r11, r6]
	bne	.Laes_v7m_small_BB46_26
@ %bb.27:                               @ %common.ret.loopexit.unr-lcssa
	cmp.w	r12, #0
	mov	lr, r8
	beq	.Laes_v7m_small_BB46_31
.Laes_v7m_small_BB46_28:                              @ %join.7.i.i.i.i.i.i60.epil.preheader
	ldrb	r2, [r7, r1]
	cmp.w	r12, #1
	strb.w	r2, [r11, r1]
	beq	.Laes_v7m_small_BB46_31
@ %bb.29:                               @ %join.7.i.i.i.i.i.i60.epil.1
	adds	r2, r1, #1
	ldrb	r3, [r7, r2]
	cmp.w	r12, #2
	strb.w	r3, [r11, r2]
	beq	.Laes_v7m_small_BB46_31
@ %bb.30:                               @ %join.7.i.i.i.i.i.i60.epil.2
	adds	r0, r1, #2
	ldrb	r1, [r7, r0]
	strb.w	r1, [r11, r0]
.Laes_v7m_small_BB46_31:                              @ %common.ret
	strd	r9, r10, [lr]
	add	sp, #28
	pop.w	{r4, r5, r6, r7, r8, r9, r10, r11, pc}
.Laes_v7m_small_func_end46:
	.size	aes_v7m_small.cmac.chain_in_pieces.ChainInPieces.extend, .Laes_v7m_small_func_end46-aes_v7m_small.cmac.chain_in_pieces.ChainInPieces.extend
	.cantunwind
	.fnend
                                        @ -- End function
	.section	.text.aes_v7m_small.key_wrap.wrapping.wrap,"ax",%progbits
	.p2align	2                               @ -- Begin function key_wrap::wrapping::wrap::<#4f733d09d7f6c6b4>
	.type	aes_v7m_small.key_wrap.wrapping.wrap,%function
	.code	16
	.thumb_func
aes_v7m_small.key_wrap.wrapping.wrap: @ @aes_v7m_small.key_wrap.wrapping.wrap
	.fnstart
@ %bb.0:                                @ %start
	.save	{r4, r5, r6, r7, r8, r9, r10, r11, lr}
	push.w	{r4, r5, r6, r7, r8, r9, r10, r11, lr}
	.pad	#76
	sub	sp, #76
	adds	r7, r2, #1
	mov	r4, r0
	adc	r6, r3, #0
	subs	r0, r2, #2
	sbcs	r0, r3, #0
	mov.w	r0, #1
	blo.w	.Laes_v7m_small_BB47_18
@ %bb.1:                                @ %start
	ldrd	r5, r12, [sp, #120]
	eors	r7, r5
	eor.w	r6, r6, r12
	orrs	r7, r6
	bne.w	.Laes_v7m_small_BB47_18
@ %bb.2:                                @ %arm.12
	ldr	r7, [sp, #112]
	subs.w	r11, r5, #1
	add.w	r8, r7, #8
	str	r4, [sp, #20]                   @ 4-byte Spill
	sbc	lr, r12, #0
	lsls	r0, r3, #3
	subs.w	r5, r8, r1
	mov.w	r4, #0
	orr.w	r0, r0, r2, lsr #29
	sbc	r4, r4, #0
	subs.w	r5, r5, r2, lsl #3
	mov.w	r10, #-1499027802
	sbcs.w	r0, r4, r0
	str.w	r10, [r7, #4]
	str.w	r10, [r7]
	str.w	r8, [sp, #32]                   @ 4-byte Spill
	bhs	.Laes_v7m_small_BB47_5
@ %bb.3:                                @ %join.7.i.i.i.i.i.i.preheader
	subs	r0, r2, #4
	sbcs	r0, r3, #0
	and	r12, r2, #3
	bhs	.Laes_v7m_small_BB47_6
@ %bb.4:
	movs	r2, #0
	b	.Laes_v7m_small_BB47_9
.Laes_v7m_small_BB47_5:                               @ %apart.2.i.i.i.i.i.i
	lsls	r2, r2, #3
	mov	r0, r8
	mov	r4, lr
	bl	memmove
	mov	lr, r4
	mov.w	r0, #-1499027802
	b	.Laes_v7m_small_BB47_13
.Laes_v7m_small_BB47_6:                               @ %join.7.i.i.i.i.i.i.preheader.new
	mov	r6, lr
	mov	r9, r7
	bic	lr, r2, #3
	movs	r2, #0
	movs	r7, #0
	.p2align	2
.Laes_v7m_small_BB47_7:                               @ %join.7.i.i.i.i.i.i
                                        @ =>This Inner Loop Header: Depth=1
	add.w	r4, r1, r2, lsl #3
	ldr.w	r0, [r1, r2, lsl #3]
	ldr	r4, [r4, #4]
	add.w	r5, r8, r2, lsl #3
	str.w	r0, [r8, r2, lsl #3]
	str	r4, [r5, #4]
	orr	r0, r2, #1
	add.w	r4, r1, r0, lsl #3
	ldr.w	r3, [r1, r0, lsl #3]
	ldr	r4, [r4, #4]
	add.w	r5, r8, r0, lsl #3
	str.w	r3, [r8, r0, lsl #3]
	orr	r0, r2, #2
	str	r4, [r5, #4]
	add.w	r4, r1, r0, lsl #3
	ldr.w	r5, [r1, r0, lsl #3]
	ldr	r4, [r4, #4]
	add.w	r3, r8, r0, lsl #3
	str.w	r5, [r8, r0, lsl #3]
	str	r4, [r3, #4]
	orr	r0, r2, #3
	ldr.w	r5, [r1, r0, lsl #3]
	add.w	r4, r1, r0, lsl #3
	adds	r2, #4
	add.w	r3, r8, r0, lsl #3
	ldr	r4, [r4, #4]
	str.w	r5, [r8, r0, lsl #3]
	adc	r7, r7, #0
	eor.w	r0, r2, lr
	orrs	r0, r7
	str	r4, [r3, #4]
	bne	.Laes_v7m_small_BB47_7
@ %bb.8:                                @ %"core::slice::edits::slice+T::copy_from_slice::<#76f67ba6cf9709da>.exit.loopexit.unr-lcssa"
	cmp.w	r12, #0
	mov	r7, r9
	mov	lr, r6
	beq	.Laes_v7m_small_BB47_12
.Laes_v7m_small_BB47_9:                               @ %join.7.i.i.i.i.i.i.epil.preheader
	add.w	r3, r1, r2, lsl #3
	ldr.w	r6, [r1, r2, lsl #3]
	ldr	r3, [r3, #4]
	add.w	r0, r8, r2, lsl #3
	cmp.w	r12, #1
	str.w	r6, [r8, r2, lsl #3]
	str	r3, [r0, #4]
	beq	.Laes_v7m_small_BB47_12
@ %bb.10:                               @ %join.7.i.i.i.i.i.i.epil.1
	adds	r0, r2, #1
	add.w	r6, r1, r0, lsl #3
	ldr.w	r5, [r1, r0, lsl #3]
	ldr	r6, [r6, #4]
	add.w	r3, r8, r0, lsl #3
	cmp.w	r12, #2
	str.w	r5, [r8, r0, lsl #3]
	str	r6, [r3, #4]
	beq	.Laes_v7m_small_BB47_12
@ %bb.11:                               @ %join.7.i.i.i.i.i.i.epil.2
	adds	r0, r2, #2
	add.w	r3, r1, r0, lsl #3
	ldr.w	r1, [r1, r0, lsl #3]
	ldr	r3, [r3, #4]
	add.w	r2, r8, r0, lsl #3
	str.w	r1, [r8, r0, lsl #3]
	str	r3, [r2, #4]
.Laes_v7m_small_BB47_12:                              @ %"core::slice::edits::slice+T::copy_from_slice::<#76f67ba6cf9709da>.exit.loopexit"
	ldr.w	r10, [r7]
	ldr	r0, [r7, #4]
.Laes_v7m_small_BB47_13:                              @ %"core::slice::edits::slice+T::copy_from_slice::<#76f67ba6cf9709da>.exit"
	movs	r3, #0
	movs	r6, #0
	str.w	r11, [sp, #36]                  @ 4-byte Spill
	.p2align	2
.Laes_v7m_small_BB47_14:                              @ %join.5.i
                                        @ =>This Loop Header: Depth=1
                                        @     Child Loop BB47_15 Depth 2
	umull	r1, r2, r3, r11
	mla	r2, r3, lr, r2
	str	r3, [sp, #28]                   @ 4-byte Spill
	mul	r3, r6, r11
	adds	r1, #1
	ldr	r5, [sp, #20]                   @ 4-byte Reload
	str	r1, [sp, #44]                   @ 4-byte Spill
	adc.w	r1, r2, r3
	mov.w	r9, #0
	mov.w	r8, #0
	str	r6, [sp, #24]                   @ 4-byte Spill
	str	r1, [sp, #40]                   @ 4-byte Spill
	.p2align	2
.Laes_v7m_small_BB47_15:                              @ %join.5.i.i
                                        @   Parent Loop BB47_14 Depth=1
                                        @ =>  This Inner Loop Header: Depth=2
	ldr	r1, [sp, #44]                   @ 4-byte Reload
	ldr	r4, [sp, #32]                   @ 4-byte Reload
	adds.w	r1, r1, r9
	str	r1, [sp, #52]                   @ 4-byte Spill
	ldr	r1, [sp, #40]                   @ 4-byte Reload
	add.w	r11, r4, r9, lsl #3
	adc.w	r1, r1, r8
	str	r1, [sp, #48]                   @ 4-byte Spill
	ldr.w	r1, [r11, #4]
	ldr.w	r2, [r4, r9, lsl #3]
	strd	r10, r0, [sp, #56]
	str	r2, [sp, #64]
	ldr	r0, [r5]
	ldr	r2, [r5, #8]
	ldr	r3, [r5, #12]
	str	r1, [sp, #68]
	movs	r1, #1
	movs	r6, #0
	strd	r1, r6, [sp, #8]
	add	r1, sp, #56
	str	r1, [sp]
	mov	r6, lr
	bl	aes_v7m_small.aes_narrow.blocks.process_all_batches.1
	bl	aes_v7m_small.aes_cipher.zeroize.stack.wipe_stack.1024
	add	r3, sp, #56
	ldm	r3, {r0, r1, r2, r3}
	str	r1, [r7, #4]
	str	r0, [r7]
	str.w	r2, [r4, r9, lsl #3]
	str.w	r3, [r11, #4]
	ldr	r2, [sp, #48]                   @ 4-byte Reload
	ldr.w	r11, [sp, #36]                  @ 4-byte Reload
	ldr	r1, [r7]
	ldr	r3, [sp, #52]                   @ 4-byte Reload
	ldr	r0, [r7, #4]
	rev	r2, r2
	adds.w	r9, r9, #1
	rev	r3, r3
	eor.w	r10, r1, r2
	adc	r8, r8, #0
	subs.w	r1, r9, r11
	mov	lr, r6
	eor.w	r0, r0, r3
	sbcs.w	r1, r8, r6
	str.w	r10, [r7]
	str	r0, [r7, #4]
	blo	.Laes_v7m_small_BB47_15
@ %bb.16:                               @ %"key_wrap::steps::wrap_turn::<#4f733d09d7f6c6b4>.exit.i.loopexit"
                                        @   in Loop: Header=BB47_14 Depth=1
	ldr	r3, [sp, #28]                   @ 4-byte Reload
	ldr	r6, [sp, #24]                   @ 4-byte Reload
	adds	r1, r3, #1
	adc	r2, r6, #0
	subs	r3, #5
	sbcs	r3, r6, #0
	mov	r3, r1
	mov	r6, r2
	blo	.Laes_v7m_small_BB47_14
@ %bb.17:
	movs	r0, #0
.Laes_v7m_small_BB47_18:                              @ %return.10
	add	sp, #76
	pop.w	{r4, r5, r6, r7, r8, r9, r10, r11, pc}
.Laes_v7m_small_func_end47:
	.size	aes_v7m_small.key_wrap.wrapping.wrap, .Laes_v7m_small_func_end47-aes_v7m_small.key_wrap.wrapping.wrap
	.cantunwind
	.fnend
                                        @ -- End function
	.section	.text.aes_v7m_small.aes_cipher.zeroize.stack.wipe_stack.512,"ax",%progbits
	.p2align	2                               @ -- Begin function aes_cipher::zeroize::stack::wipe_stack::<=512>
	.type	aes_v7m_small.aes_cipher.zeroize.stack.wipe_stack.512,%function
	.code	16
	.thumb_func
aes_v7m_small.aes_cipher.zeroize.stack.wipe_stack.512: @ @aes_v7m_small.aes_cipher.zeroize.stack.wipe_stack.512
	.fnstart
@ %bb.0:                                @ %start
	.save	{r4, r5, r7, lr}
	push	{r4, r5, r7, lr}
	.pad	#520
	sub.w	sp, sp, #520
	add	r4, sp, #8
	mov	r0, r4
	movs	r1, #0
	mov.w	r2, #512
	movs	r5, #0
	bl	memset
	strd	r5, r5, [sp]
	@APP
	@NO_APP
	mov	r0, sp
	ldrd	r1, r2, [r0]
	@APP
	@NO_APP
	subs.w	r3, r1, #512
	sbcs	r2, r2, #0
	itt	hs
	addhs.w	sp, sp, #520
	pophs	{r4, r5, r7, pc}
.Laes_v7m_small_BB48_1:                               @ %then.1
	ldrb	r1, [r4, r1]
	@APP
	@NO_APP
	ldrd	r2, r3, [r0]
	strd	r1, r5, [r0]
	@APP
	@NO_APP
	add.w	sp, sp, #520
	b	.Laes_v7m_small_return_4450
.Laes_v7m_small_return_4450:
	movs	r1, #0
	movs	r2, #0
	movs	r3, #0
	mov	r12, r1
	mov	lr, r1
	pop	{r4, r5, r7, pc}
.Laes_v7m_small_func_end48:
	.size	aes_v7m_small.aes_cipher.zeroize.stack.wipe_stack.512, .Laes_v7m_small_func_end48-aes_v7m_small.aes_cipher.zeroize.stack.wipe_stack.512
	.cantunwind
	.fnend
                                        @ -- End function
	.section	.text.aes_v7m_small.key_wrap.padded.wrap_padded,"ax",%progbits
	.p2align	2                               @ -- Begin function key_wrap::padded::wrap_padded::<#4f733d09d7f6c6b4>
	.type	aes_v7m_small.key_wrap.padded.wrap_padded,%function
	.code	16
	.thumb_func
aes_v7m_small.key_wrap.padded.wrap_padded: @ @aes_v7m_small.key_wrap.padded.wrap_padded
	.fnstart
@ %bb.0:                                @ %start
	.save	{r4, r5, r6, r7, r8, r9, r10, r11, lr}
	push.w	{r4, r5, r6, r7, r8, r9, r10, r11, lr}
	.pad	#84
	sub	sp, #84
	orrs.w	r7, r2, r3
	beq	.Laes_v7m_small_BB49_5
@ %bb.1:                                @ %"key_wrap::padded::fits.exit"
	mov	r7, r0
	lsls	r0, r2, #29
	mov.w	r0, #2
	ldrd	r8, lr, [sp, #128]
	it	eq
	moveq	r0, #1
	add.w	r0, r0, r2, lsr #3
	eor.w	r0, r0, r8
	orrs.w	r0, r0, lr
	bne	.Laes_v7m_small_BB49_5
@ %bb.2:                                @ %arm.5
	movw	r5, #22950
	ldr.w	r9, [sp, #120]
	subs.w	r11, r8, #1
	movt	r5, #42585
	sbc	r12, lr, #0
	orrs	r5, r3
	add.w	r6, r9, #8
	rev	r5, r5
	rev	r4, r2
	orrs.w	r0, r11, r12
	str.w	r4, [r9, #4]
	str.w	r5, [r9]
	strd	r7, r6, [sp, #24]               @ 8-byte Folded Spill
	str.w	r11, [sp, #44]                  @ 4-byte Spill
	beq.w	.Laes_v7m_small_BB49_14
@ %bb.3:                                @ %join.5.i.preheader
	mov	r9, r3
	mov	r3, r1
	subs.w	r1, r8, #2
	str	r0, [sp, #36]                   @ 4-byte Spill
	sbc	r0, lr, #0
	subs	r1, #3
	and	lr, r11, #3
	sbcs	r0, r0, #0
	str	r4, [sp, #40]                   @ 4-byte Spill
	str.w	r12, [sp, #20]                  @ 4-byte Spill
	str	r2, [sp, #60]                   @ 4-byte Spill
	bhs	.Laes_v7m_small_BB49_6
@ %bb.4:
	mov.w	r8, #0
	mov.w	r10, #0
	mov	r6, r9
	mov	r12, r3
	b	.Laes_v7m_small_BB49_9
.Laes_v7m_small_BB49_5:
	movs	r0, #1
	add	sp, #84
	pop.w	{r4, r5, r6, r7, r8, r9, r10, r11, pc}
.Laes_v7m_small_BB49_6:                               @ %join.5.i.preheader.new
	str.w	r9, [sp, #52]                   @ 4-byte Spill
	ldr.w	r9, [sp, #28]                   @ 4-byte Reload
	bic	r0, r11, #3
	mov.w	r8, #0
	mov.w	r10, #0
	mov	r12, r3
	str.w	lr, [sp, #32]                   @ 4-byte Spill
	str	r0, [sp, #48]                   @ 4-byte Spill
	.p2align	2
.Laes_v7m_small_BB49_7:                               @ %join.5.i
                                        @ =>This Inner Loop Header: Depth=1
	lsl.w	r0, r10, #3
	str.w	r10, [sp, #56]                  @ 4-byte Spill
	orr.w	r10, r0, r8, lsr #29
	ldr	r0, [sp, #60]                   @ 4-byte Reload
	ldr	r7, [sp, #52]                   @ 4-byte Reload
	subs.w	r2, r0, r8, lsl #3
	sbc.w	r0, r7, r10
	cmp	r2, #8
	add.w	r1, r12, r8, lsl #3
	mov.w	r3, #8
	it	hs
	movhs	r2, r3
	cmp	r0, #0
	mov.w	r6, #0
	add	r0, sp, #64
	it	ne
	movne	r2, r3
	strd	r6, r6, [sp, #64]
	mov	r6, r12
	bl	memcpy
	ldrd	r0, r1, [sp, #64]
	movs	r3, #8
	str.w	r0, [r9, r8, lsl #3]
	ldr	r0, [sp, #60]                   @ 4-byte Reload
	add.w	r2, r9, r8, lsl #3
	orr.w	r4, r3, r8, lsl #3
	str	r1, [r2, #4]
	subs	r2, r0, r4
	sbc.w	r0, r7, r10
	cmp	r2, #8
	it	hs
	movhs	r2, r3
	cmp	r0, #0
	mov.w	r0, #0
	add.w	r1, r6, r4
	it	ne
	movne	r2, r3
	strd	r0, r0, [sp, #64]
	add	r0, sp, #64
	bl	memcpy
	ldrd	r0, r1, [sp, #64]
	add.w	r2, r9, r4
	str.w	r0, [r9, r4]
	movs	r0, #16
	orr.w	r4, r0, r8, lsl #3
	ldr	r0, [sp, #60]                   @ 4-byte Reload
	str	r1, [r2, #4]
	subs	r2, r0, r4
	sbc.w	r0, r7, r10
	cmp	r2, #8
	mov.w	r3, #8
	it	hs
	movhs	r2, r3
	cmp	r0, #0
	mov.w	r0, #0
	add.w	r1, r6, r4
	it	ne
	movne	r2, r3
	strd	r0, r0, [sp, #64]
	add	r0, sp, #64
	bl	memcpy
	ldrd	r0, r1, [sp, #64]
	add.w	r2, r9, r4
	str.w	r0, [r9, r4]
	movs	r0, #24
	orr.w	r4, r0, r8, lsl #3
	ldr	r0, [sp, #60]                   @ 4-byte Reload
	str	r1, [r2, #4]
	subs	r2, r0, r4
	sbc.w	r0, r7, r10
	cmp	r2, #8
	mov.w	r3, #8
	it	hs
	movhs	r2, r3
	cmp	r0, #0
	mov.w	r0, #0
	add.w	r1, r6, r4
	it	ne
	movne	r2, r3
	strd	r0, r0, [sp, #64]
	add	r0, sp, #64
	bl	memcpy
	ldr.w	r10, [sp, #56]                  @ 4-byte Reload
	adds.w	r8, r8, #4
	ldr	r0, [sp, #48]                   @ 4-byte Reload
	ldr	r1, [sp, #20]                   @ 4-byte Reload
	adc	r10, r10, #0
	eor.w	r0, r0, r8
	eor.w	r1, r1, r10
	orrs	r0, r1
	ldrd	r0, r1, [sp, #64]
	mov	r12, r6
	add.w	r2, r9, r4
	str.w	r0, [r9, r4]
	str	r1, [r2, #4]
	bne.w	.Laes_v7m_small_BB49_7
@ %bb.8:                                @ %"key_wrap::padded::fill.exit.unr-lcssa"
	ldr.w	lr, [sp, #32]                   @ 4-byte Reload
	ldr	r6, [sp, #52]                   @ 4-byte Reload
	cmp.w	lr, #0
	beq	.Laes_v7m_small_BB49_12
.Laes_v7m_small_BB49_9:                               @ %join.5.i.epil.preheader
	lsl.w	r0, r10, #3
	orr.w	r3, r0, r8, lsr #29
	ldr	r0, [sp, #60]                   @ 4-byte Reload
	str	r3, [sp, #56]                   @ 4-byte Spill
	subs.w	r2, r0, r8, lsl #3
	sbc.w	r0, r6, r3
	cmp	r2, #8
	mov.w	r10, #8
	it	hs
	movhs	r2, r10
	cmp	r0, #0
	mov.w	r0, #0
	add.w	r1, r12, r8, lsl #3
	it	ne
	movne	r2, r10
	strd	r0, r0, [sp, #64]
	add	r0, sp, #64
	mov	r9, lr
	mov	r4, r12
	bl	memcpy
	mov	r7, r6
	ldr	r6, [sp, #28]                   @ 4-byte Reload
	ldrd	r0, r1, [sp, #64]
	add.w	r2, r6, r8, lsl #3
	cmp.w	r9, #1
	str.w	r0, [r6, r8, lsl #3]
	str	r1, [r2, #4]
	beq	.Laes_v7m_small_BB49_12
@ %bb.10:                               @ %join.5.i.epil.1
	ldr	r0, [sp, #56]                   @ 4-byte Reload
	ldr	r2, [sp, #60]                   @ 4-byte Reload
	str	r5, [sp, #52]                   @ 4-byte Spill
	adds.w	r5, r10, r8, lsl #3
	adc	r0, r0, #0
	subs	r2, r2, r5
	sbc.w	r0, r7, r0
	cmp	r2, #8
	mov	r3, r9
	add.w	r1, r4, r5
	it	hs
	movhs	r2, r10
	cmp	r0, #0
	mov.w	r9, #0
	add	r0, sp, #64
	mov	r6, r7
	it	ne
	movne	r2, r10
	strd	r9, r9, [sp, #64]
	mov	r10, r3
	bl	memcpy
	ldrd	r0, r1, [sp, #64]
	ldr	r3, [sp, #28]                   @ 4-byte Reload
	ldr.w	r11, [sp, #44]                  @ 4-byte Reload
	adds	r2, r3, r5
	str	r0, [r3, r5]
	ldr	r5, [sp, #52]                   @ 4-byte Reload
	ldr	r7, [sp, #60]                   @ 4-byte Reload
	cmp.w	r10, #2
	str	r1, [r2, #4]
	beq	.Laes_v7m_small_BB49_12
@ %bb.11:                               @ %join.5.i.epil.2
	movs	r0, #16
	adds.w	r5, r0, r8, lsl #3
	ldr	r0, [sp, #56]                   @ 4-byte Reload
	add.w	r1, r4, r5
	adc	r0, r0, #0
	subs	r2, r7, r5
	sbc.w	r0, r6, r0
	cmp	r2, #8
	mov.w	r3, #8
	it	hs
	movhs	r2, r3
	cmp	r0, #0
	add	r0, sp, #64
	it	ne
	movne	r2, r3
	strd	r9, r9, [sp, #64]
	bl	memcpy
	ldrd	r0, r1, [sp, #64]
	ldr	r3, [sp, #28]                   @ 4-byte Reload
	ldr.w	r11, [sp, #44]                  @ 4-byte Reload
	adds	r2, r3, r5
	str	r0, [r3, r5]
	ldr	r5, [sp, #52]                   @ 4-byte Reload
	str	r1, [r2, #4]
.Laes_v7m_small_BB49_12:                              @ %"key_wrap::padded::fill.exit"
	ldr.w	r12, [sp, #20]                  @ 4-byte Reload
	eor	r0, r11, #1
	orrs.w	r0, r0, r12
	ldr.w	r8, [sp, #120]
	ldr	r7, [sp, #24]                   @ 4-byte Reload
	ldrd	r0, r4, [sp, #36]               @ 8-byte Folded Reload
	bne	.Laes_v7m_small_BB49_14
@ %bb.13:                               @ %then.1.i
	ldr.w	r1, [r8, #8]
	ldr.w	r0, [r8, #12]
	strd	r5, r4, [sp, #64]
	str	r0, [sp, #76]
	ldr	r0, [r7]
	ldr	r2, [r7, #8]
	ldr	r3, [r7, #12]
	str	r1, [sp, #72]
	movs	r4, #0
	movs	r1, #1
	strd	r1, r4, [sp, #8]
	add	r1, sp, #64
	str	r1, [sp]
	bl	aes_v7m_small.aes_narrow.blocks.process_all_batches.1
	bl	aes_v7m_small.aes_cipher.zeroize.stack.wipe_stack.1024
	add	r6, sp, #64
	ldm	r6, {r1, r2, r3, r6}
	mov	r0, r4
	str.w	r2, [r8, #4]
	str.w	r1, [r8]
	str.w	r6, [r8, #12]
	str.w	r3, [r8, #8]
	add	sp, #84
	pop.w	{r4, r5, r6, r7, r8, r9, r10, r11, pc}
.Laes_v7m_small_BB49_14:                              @ %else.2.i
	clz	r0, r0
	lsrs	r0, r0, #5
	movs	r2, #0
	movs	r3, #0
	str	r0, [sp, #32]                   @ 4-byte Spill
	b	.Laes_v7m_small_BB49_16
	.p2align	2
.Laes_v7m_small_BB49_15:                              @ %"key_wrap::steps::wrap_turn::<#4f733d09d7f6c6b4>.exit.i.i"
                                        @   in Loop: Header=BB49_16 Depth=1
	ldr	r2, [sp, #40]                   @ 4-byte Reload
	ldr	r3, [sp, #36]                   @ 4-byte Reload
	adds	r0, r2, #1
	adc	r1, r3, #0
	subs	r2, #5
	sbcs	r2, r3, #0
	mov	r2, r0
	mov	r3, r1
	bhs	.Laes_v7m_small_BB49_19
.Laes_v7m_small_BB49_16:                              @ %join.5.i.i
                                        @ =>This Loop Header: Depth=1
                                        @     Child Loop BB49_18 Depth 2
	ldr	r0, [sp, #32]                   @ 4-byte Reload
	strd	r3, r2, [sp, #36]               @ 8-byte Folded Spill
	cmp	r0, #0
	bne	.Laes_v7m_small_BB49_15
@ %bb.17:                               @ %join.5.lr.ph.i.i.i
                                        @   in Loop: Header=BB49_16 Depth=1
	umull	r0, r1, r2, r11
	mla	r1, r2, r12, r1
	mul	r2, r3, r11
	adds	r0, #1
	ldr.w	r8, [sp, #120]
	ldrd	r9, r10, [sp, #24]              @ 8-byte Folded Reload
	str	r0, [sp, #52]                   @ 4-byte Spill
	adc.w	r0, r1, r2
	movs	r6, #0
	movs	r7, #0
	str	r0, [sp, #48]                   @ 4-byte Spill
	.p2align	2
.Laes_v7m_small_BB49_18:                              @ %join.5.i.i.i
                                        @   Parent Loop BB49_16 Depth=1
                                        @ =>  This Inner Loop Header: Depth=2
	ldr	r0, [sp, #52]                   @ 4-byte Reload
	add.w	r11, r10, r6, lsl #3
	adds	r0, r0, r6
	str	r0, [sp, #60]                   @ 4-byte Spill
	ldr	r0, [sp, #48]                   @ 4-byte Reload
	ldr.w	r1, [r11, #4]
	adcs	r0, r7
	str	r0, [sp, #56]                   @ 4-byte Spill
	ldr.w	r0, [r10, r6, lsl #3]
	strd	r5, r4, [sp, #64]
	str	r0, [sp, #72]
	ldr.w	r0, [r9]
	ldr.w	r2, [r9, #8]
	ldr.w	r3, [r9, #12]
	str	r1, [sp, #76]
	movs	r1, #1
	movs	r4, #0
	strd	r1, r4, [sp, #8]
	add	r1, sp, #64
	mov	r5, r12
	str	r1, [sp]
	bl	aes_v7m_small.aes_narrow.blocks.process_all_batches.1
	bl	aes_v7m_small.aes_cipher.zeroize.stack.wipe_stack.1024
	add	r3, sp, #64
	ldm	r3, {r0, r1, r2, r3}
	str.w	r1, [r8, #4]
	str.w	r0, [r8]
	str.w	r2, [r10, r6, lsl #3]
	str.w	r3, [r11, #4]
	ldr	r2, [sp, #56]                   @ 4-byte Reload
	ldr.w	r0, [r8]
	ldr	r3, [sp, #60]                   @ 4-byte Reload
	ldr.w	r11, [sp, #44]                  @ 4-byte Reload
	ldr.w	r1, [r8, #4]
	rev	r2, r2
	adds	r6, #1
	rev	r3, r3
	mov	r12, r5
	eor.w	r5, r0, r2
	adc	r7, r7, #0
	subs.w	r0, r6, r11
	eor.w	r4, r1, r3
	sbcs.w	r0, r7, r12
	str.w	r5, [r8]
	str.w	r4, [r8, #4]
	blo	.Laes_v7m_small_BB49_18
	b	.Laes_v7m_small_BB49_15
.Laes_v7m_small_BB49_19:
	movs	r0, #0
	add	sp, #84
	pop.w	{r4, r5, r6, r7, r8, r9, r10, r11, pc}
.Laes_v7m_small_func_end49:
	.size	aes_v7m_small.key_wrap.padded.wrap_padded, .Laes_v7m_small_func_end49-aes_v7m_small.key_wrap.padded.wrap_padded
	.cantunwind
	.fnend
                                        @ -- End function
	.section	.text.aes_v7m_small.aes_narrow.borrowed_words.call_to_decrypt,"ax",%progbits
	.p2align	2                               @ -- Begin function aes_narrow::borrowed_words::call_to_decrypt::<#a8a74a144d92a363>
	.type	aes_v7m_small.aes_narrow.borrowed_words.call_to_decrypt,%function
	.code	16
	.thumb_func
aes_v7m_small.aes_narrow.borrowed_words.call_to_decrypt: @ @aes_v7m_small.aes_narrow.borrowed_words.call_to_decrypt
	.fnstart
@ %bb.0:                                @ %start
	.save	{r4, r5, r6, r7, r8, r9, r10, r11, lr}
	push.w	{r4, r5, r6, r7, r8, r9, r10, r11, lr}
	.pad	#1148
	subw	sp, sp, #1148
	ldr.w	r10, [sp, #1184]
	str	r0, [sp, #36]                   @ 4-byte Spill
	ldrd	r7, r6, [r10, #24]
	orrs.w	r1, r7, r6
	beq.w	.Laes_v7m_small_BB50_11
@ %bb.1:                                @ %join.5.lr.ph.i.i
	ldr.w	r0, [r10, #16]
	mov	r9, r3
	str	r0, [sp, #16]                   @ 4-byte Spill
	movs	r1, #0
	movs	r5, #0
	add	r0, sp, #20
	str	r3, [sp, #32]                   @ 4-byte Spill
	stm	r0!, {r2, r6, r7}               @ 12-byte Folded Spill
	.p2align	2
.Laes_v7m_small_BB50_2:                               @ %join.5.i.i
                                        @ =>This Loop Header: Depth=1
                                        @     Child Loop BB50_4 Depth 2
                                        @     Child Loop BB50_7 Depth 2
                                        @     Child Loop BB50_9 Depth 2
	subs	r4, r7, r1
	mov.w	r7, #64
	mov	r0, r1
	sbc.w	r8, r6, r5
	cmp	r4, #64
	mov.w	r1, #64
	it	lo
	movlo	r7, r4
	cmp.w	r8, #0
	it	ne
	movne	r7, r1
	ldr	r1, [sp, #16]                   @ 4-byte Reload
	mov.w	r2, #1024
	add.w	r11, r1, r0, lsl #4
	adds	r0, r0, r7
	str	r0, [sp, #40]                   @ 4-byte Spill
	adc	r5, r5, #0
	lsls	r0, r7, #4
	add	r1, sp, #124
	str	r5, [sp, #44]                   @ 4-byte Spill
	str	r0, [sp, #120]                  @ 4-byte Spill
	subs.w	r5, r1, r11
	mov.w	r0, #0
	sbc	r6, r0, #0
	mov	r0, r1
	movs	r1, #0
	bl	memset
	subs.w	r0, r5, r7, lsl #4
	sbcs.w	r0, r6, r7, lsr #28
	ldr	r2, [sp, #120]                  @ 4-byte Reload
	add	r0, sp, #124
	mov	r1, r11
	str	r7, [sp, #48]                   @ 4-byte Spill
	bl	memcpy
	subs	r0, r4, #2
	ldr	r7, [sp, #36]                   @ 4-byte Reload
	sbcs	r0, r8, #0
	str.w	r11, [sp, #52]                  @ 4-byte Spill
	blo	.Laes_v7m_small_BB50_5
@ %bb.3:                                @ %join.5.i.i.i.i.preheader
                                        @   in Loop: Header=BB50_2 Depth=1
	ldr.w	r8, [sp, #48]                   @ 4-byte Reload
	ldr.w	r11, [sp, #20]                  @ 4-byte Reload
	movs	r6, #0
	movs	r5, #0
	movs	r4, #0
	.p2align	2
.Laes_v7m_small_BB50_4:                               @ %join.5.i.i.i.i
                                        @   Parent Loop BB50_2 Depth=1
                                        @ =>  This Inner Loop Header: Depth=2
	ldr	r0, [sp, #52]                   @ 4-byte Reload
	mov	r2, r11
	add.w	r1, r0, r5, lsl #4
	movs	r0, #2
	adds	r5, #2
	strd	r0, r6, [sp, #8]
	mov	r0, r7
	mov	r3, r9
	adc	r4, r4, #0
	str	r1, [sp]
	bl	aes_v7m_small.aes_soft.soft.blocks.filled_up.process_filled_up.2
	subs.w	r0, r8, r5
	sbc.w	r1, r6, r4
	rsbs.w	r0, r0, #1
	sbcs.w	r0, r6, r1
	blo	.Laes_v7m_small_BB50_4
	b	.Laes_v7m_small_BB50_6
	.p2align	2
.Laes_v7m_small_BB50_5:                               @   in Loop: Header=BB50_2 Depth=1
	ldr.w	r8, [sp, #48]                   @ 4-byte Reload
	ldr.w	r11, [sp, #20]                  @ 4-byte Reload
	movs	r5, #0
	movs	r4, #0
.Laes_v7m_small_BB50_6:                               @ %loop.7.preheader.i.i.i.i
                                        @   in Loop: Header=BB50_2 Depth=1
	subs.w	r0, r5, r8
	ldr	r6, [sp, #52]                   @ 4-byte Reload
	sbcs	r0, r4, #0
	bhs	.Laes_v7m_small_BB50_8
	.p2align	2
.Laes_v7m_small_BB50_7:                               @ %join.10.i.i.i.i
                                        @   Parent Loop BB50_2 Depth=1
                                        @ =>  This Inner Loop Header: Depth=2
	movs	r0, #0
	movs	r2, #1
	add.w	r1, r6, r5, lsl #4
	strd	r2, r0, [sp, #8]
	mov	r0, r7
	mov	r2, r11
	mov	r3, r9
	str	r1, [sp]
	bl	aes_v7m_small.aes_soft.soft.blocks.filled_up.process_filled_up.2
	adds	r5, #1
	adc	r4, r4, #0
	subs.w	r0, r5, r8
	sbcs	r0, r4, #0
	blo	.Laes_v7m_small_BB50_7
.Laes_v7m_small_BB50_8:                               @ %join.7.lr.ph.i.i.i
                                        @   in Loop: Header=BB50_2 Depth=1
	ldrb.w	r0, [r10]
	ldrb.w	r3, [r10, #9]
	str	r0, [sp, #104]                  @ 4-byte Spill
	ldrb.w	r0, [r10, #1]
	ldrb.w	r12, [r10, #10]
	str	r0, [sp, #100]                  @ 4-byte Spill
	ldrb.w	r0, [r10, #2]
	ldrb.w	r8, [r10, #11]
	str	r0, [sp, #92]                   @ 4-byte Spill
	ldrb.w	r0, [r10, #3]
	ldrb.w	r7, [r10, #12]
	str	r0, [sp, #80]                   @ 4-byte Spill
	ldrb.w	r0, [r10, #4]
	ldrb.w	r6, [r10, #13]
	str	r0, [sp, #96]                   @ 4-byte Spill
	ldrb.w	r0, [r10, #5]
	ldrb.w	r11, [r10, #14]
	str	r0, [sp, #116]                  @ 4-byte Spill
	ldrb.w	r0, [r10, #6]
	ldrb.w	lr, [r10, #15]
	str	r0, [sp, #112]                  @ 4-byte Spill
	ldrb.w	r0, [r10, #7]
	str	r3, [sp, #88]                   @ 4-byte Spill
	str	r0, [sp, #120]                  @ 4-byte Spill
	ldrb.w	r0, [r10, #8]
	movs	r2, #0
	movs	r3, #0
	str	r0, [sp, #84]                   @ 4-byte Spill
	.p2align	2
.Laes_v7m_small_BB50_9:                               @ %join.7.i.i.i
                                        @   Parent Loop BB50_2 Depth=1
                                        @ =>  This Inner Loop Header: Depth=2
	str	r3, [sp, #76]                   @ 4-byte Spill
	ldr	r3, [sp, #52]                   @ 4-byte Reload
	ldr	r5, [sp, #88]                   @ 4-byte Reload
	add.w	r4, r3, r2, lsl #4
	ldrb	r0, [r4, #15]
	ldrb	r1, [r4, #14]
	eor.w	r0, r0, lr
	str	r0, [sp, #72]                   @ 4-byte Spill
	ldrb	r0, [r4, #13]
	eor.w	r11, r11, r1
	ldrb	r1, [r4, #12]
	eors	r0, r6
	str	r0, [sp, #68]                   @ 4-byte Spill
	eor.w	r0, r1, r7
	ldrb	r1, [r4, #11]
	ldrb	r7, [r4, #10]
	str	r0, [sp, #64]                   @ 4-byte Spill
	eor.w	r0, r1, r8
	str	r0, [sp, #60]                   @ 4-byte Spill
	eor.w	r0, r7, r12
	str	r0, [sp, #56]                   @ 4-byte Spill
	ldrb	r0, [r4, #9]
	ldrb	r1, [r4, #8]
	eors	r0, r5
	str	r0, [sp, #88]                   @ 4-byte Spill
	ldr	r0, [sp, #84]                   @ 4-byte Reload
	ldrb	r7, [r4, #7]
	eors	r0, r1
	str	r0, [sp, #84]                   @ 4-byte Spill
	ldr	r0, [sp, #120]                  @ 4-byte Reload
	ldrb	r5, [r4, #6]
	eors	r7, r0
	ldr	r0, [sp, #112]                  @ 4-byte Reload
	ldr	r1, [sp, #116]                  @ 4-byte Reload
	eors	r5, r0
	ldrb	r0, [r4, #5]
	ldrb.w	r8, [r4, #4]
	eors	r0, r1
	strb	r0, [r4, #5]
	ldr	r0, [sp, #84]                   @ 4-byte Reload
	ldr	r1, [sp, #96]                   @ 4-byte Reload
	strb	r0, [r4, #8]
	ldr	r0, [sp, #88]                   @ 4-byte Reload
	eor.w	r8, r8, r1
	strb	r0, [r4, #9]
	ldr	r0, [sp, #56]                   @ 4-byte Reload
	ldrb	r6, [r4, #3]
	strb	r0, [r4, #10]
	ldr	r0, [sp, #60]                   @ 4-byte Reload
	ldr	r1, [sp, #80]                   @ 4-byte Reload
	strb	r0, [r4, #11]
	ldr	r0, [sp, #64]                   @ 4-byte Reload
	ldrb.w	r9, [r4, #2]
	eors	r6, r1
	ldr	r1, [sp, #92]                   @ 4-byte Reload
	strb	r0, [r4, #12]
	ldr	r0, [sp, #68]                   @ 4-byte Reload
	eor.w	r9, r9, r1
	ldrb.w	lr, [r4, #1]
	ldr	r1, [sp, #100]                  @ 4-byte Reload
	mov	r12, r10
	lsl.w	r10, r2, #4
	strb	r0, [r4, #13]
	ldr	r0, [sp, #72]                   @ 4-byte Reload
	str	r2, [sp, #108]                  @ 4-byte Spill
	ldrb.w	r2, [r3, r10]
	eor.w	lr, lr, r1
	ldr	r1, [sp, #104]                  @ 4-byte Reload
	strb	r0, [r4, #15]
	ldr	r0, [sp, #108]                  @ 4-byte Reload
	eors	r2, r1
	add	r1, sp, #124
	strb.w	r2, [r3, r10]
	strb.w	lr, [r4, #1]
	strb.w	r9, [r4, #2]
	strb	r6, [r4, #3]
	strb.w	r8, [r4, #4]
	strb	r5, [r4, #6]
	strb	r7, [r4, #7]
	strb.w	r11, [r4, #14]
	add.w	r0, r1, r0, lsl #4
	ldrb	r7, [r0, #5]
	ldrb.w	r3, [r1, r10]
	str	r7, [sp, #116]                  @ 4-byte Spill
	ldrb	r7, [r0, #6]
	mov	r10, r12
	str	r7, [sp, #112]                  @ 4-byte Spill
	ldrb	r7, [r0, #7]
	ldrb	r2, [r0, #1]
	str	r7, [sp, #120]                  @ 4-byte Spill
	ldrb	r7, [r0, #10]
	ldrb	r1, [r0, #2]
	ldrb.w	r9, [r0, #3]
	ldrb.w	r12, [r0, #4]
	ldrb	r4, [r0, #8]
	ldrb	r5, [r0, #9]
	str	r7, [sp, #72]                   @ 4-byte Spill
	ldrb.w	r8, [r0, #11]
	ldrb	r7, [r0, #12]
	ldrb	r6, [r0, #13]
	ldrb.w	r11, [r0, #14]
	ldrb.w	lr, [r0, #15]
	ldr	r0, [sp, #116]                  @ 4-byte Reload
	str	r2, [sp, #100]                  @ 4-byte Spill
	strb.w	r0, [r10, #5]
	ldr	r0, [sp, #112]                  @ 4-byte Reload
	strb.w	r2, [r10, #1]
	strb.w	r0, [r10, #6]
	ldr	r0, [sp, #120]                  @ 4-byte Reload
	ldr	r2, [sp, #108]                  @ 4-byte Reload
	str	r3, [sp, #104]                  @ 4-byte Spill
	strb.w	r3, [r10]
	ldr	r3, [sp, #76]                   @ 4-byte Reload
	strb.w	r0, [r10, #7]
	ldr	r0, [sp, #48]                   @ 4-byte Reload
	adds	r2, #1
	str.w	r12, [sp, #96]                  @ 4-byte Spill
	strb.w	r12, [r10, #4]
	ldr.w	r12, [sp, #72]                  @ 4-byte Reload
	adc	r3, r3, #0
	subs	r0, r2, r0
	sbcs	r0, r3, #0
	str	r1, [sp, #92]                   @ 4-byte Spill
	strb.w	r1, [r10, #2]
	str.w	r9, [sp, #80]                   @ 4-byte Spill
	strb.w	r9, [r10, #3]
	str	r4, [sp, #84]                   @ 4-byte Spill
	strb.w	r4, [r10, #8]
	str	r5, [sp, #88]                   @ 4-byte Spill
	strb.w	r5, [r10, #9]
	strb.w	r12, [r10, #10]
	strb.w	r8, [r10, #11]
	strb.w	r7, [r10, #12]
	strb.w	r6, [r10, #13]
	strb.w	r11, [r10, #14]
	strb.w	lr, [r10, #15]
	blo.w	.Laes_v7m_small_BB50_9
@ %bb.10:                               @ %"cbc::decryption::unchain_part::<#c3f6a2486d05430b>.exit.loopexit.i.i"
                                        @   in Loop: Header=BB50_2 Depth=1
	ldr	r7, [sp, #28]                   @ 4-byte Reload
	ldr	r1, [sp, #40]                   @ 4-byte Reload
	ldr	r6, [sp, #24]                   @ 4-byte Reload
	ldr	r5, [sp, #44]                   @ 4-byte Reload
	subs	r0, r1, r7
	ldr.w	r9, [sp, #32]                   @ 4-byte Reload
	sbcs.w	r0, r5, r6
	blo.w	.Laes_v7m_small_BB50_2
.Laes_v7m_small_BB50_11:                              @ %"cbc::decryption::ChainBlockCipherDecClosure::call::<#c3f6a2486d05430b>.exit"
	addw	sp, sp, #1148
	pop.w	{r4, r5, r6, r7, r8, r9, r10, r11, pc}
.Laes_v7m_small_func_end50:
	.size	aes_v7m_small.aes_narrow.borrowed_words.call_to_decrypt, .Laes_v7m_small_func_end50-aes_v7m_small.aes_narrow.borrowed_words.call_to_decrypt
	.cantunwind
	.fnend
                                        @ -- End function
	.section	.text.aes_v7m_small.aes_soft.soft.blocks.filled_up.process_filled_up.2,"ax",%progbits
	.p2align	2                               @ -- Begin function aes_soft::soft::blocks::filled_up::process_filled_up::<#a3dcb71d05bd149b>
	.type	aes_v7m_small.aes_soft.soft.blocks.filled_up.process_filled_up.2,%function
	.code	16
	.thumb_func
aes_v7m_small.aes_soft.soft.blocks.filled_up.process_filled_up.2: @ @aes_v7m_small.aes_soft.soft.blocks.filled_up.process_filled_up.2
	.fnstart
@ %bb.0:                                @ %start
	.save	{r4, r5, r6, r7, r8, r9, r10, r11, lr}
	push.w	{r4, r5, r6, r7, r8, r9, r10, r11, lr}
	.pad	#132
	sub	sp, #132
	ldr.w	r11, [sp, #168]
	mov	r12, r0
	movs	r0, #0
	strd	r0, r0, [sp, #92]
	strd	r0, r0, [sp, #84]
	strd	r0, r0, [sp, #76]
	strd	r0, r0, [sp, #68]
	strd	r0, r0, [sp, #36]
	strd	r0, r0, [sp, #44]
	strd	r0, r0, [sp, #52]
	strd	r0, r0, [sp, #60]
	strd	r0, r0, [sp, #4]
	strd	r0, r0, [sp, #12]
	strd	r0, r0, [sp, #20]
	strd	r0, r0, [sp, #28]
	ldr.w	r0, [r11]
	ldr.w	r4, [r11, #12]
	add	r1, sp, #100
	ldr.w	r6, [r11, #4]
	ldr.w	r7, [r11, #8]
	stm	r1!, {r0, r6, r7}
	strd	r4, r0, [sp, #112]
	lsrs	r0, r2, #3
	ldrd	r9, r8, [sp, #176]
	orr.w	r0, r0, r3, lsl #29
	lsrs	r3, r3, #3
	subs	r2, r0, #1
	sbc	r3, r3, #0
	orrs.w	r0, r9, r8
	clz	r0, r0
	lsr.w	r10, r0, #5
	strd	r6, r7, [sp, #120]
	str	r4, [sp, #128]
	beq	.Laes_v7m_small_BB51_2
@ %bb.1:                                @ %join.8.i
	ldr.w	r1, [r11, #4]
	add.w	lr, sp, #104
	ldr.w	r0, [r11]
	ldr.w	r7, [r11, #12]
	ldr.w	r6, [r11, #8]
	stm.w	lr, {r1, r6, r7}
	eor	r1, r9, #1
	orrs.w	r1, r1, r8
	str	r0, [sp, #100]
	bne	.Laes_v7m_small_BB51_3
.Laes_v7m_small_BB51_2:                               @ %then.6.i
	add	r0, sp, #100
	ldm	r0!, {r1, r4, r5, r6}
	add	r7, sp, #36
	stm	r7!, {r1, r4, r5, r6}
	ldm.w	r0, {r1, r4, r5, r6}
	stm	r7!, {r1, r4, r5, r6}
	b	.Laes_v7m_small_BB51_4
.Laes_v7m_small_BB51_3:                               @ %join.8.i.1
	ldr.w	r0, [r11, #16]
	add.w	lr, sp, #116
	ldr.w	r1, [r11, #20]
	ldr.w	r7, [r11, #28]
	ldr.w	r6, [r11, #24]
	stm.w	lr, {r0, r1, r6, r7}
	add	r0, sp, #100
	ldm	r0!, {r4, r5, r6, r7}
	add	r1, sp, #36
	stm	r1!, {r4, r5, r6, r7}
	ldm.w	r0, {r4, r5, r6, r7}
	stm	r1!, {r4, r5, r6, r7}
.Laes_v7m_small_BB51_4:                               @ %"aes_soft::soft::blocks::filled_up::filled_up::<#7d3b633001169d8c>.exit"
	add	r4, sp, #4
	add	r7, sp, #36
	mov	r0, r4
	mov	r1, r12
	str	r7, [sp]
	bl	aes_v7m_small.aes_soft.soft.ciphers.planes.process_outlined.2
	ldm	r4!, {r1, r2, r3, r7}
	add	r0, sp, #68
	stm	r0!, {r1, r2, r3, r7}
	ldm.w	r4, {r1, r2, r3, r7}
	cmp.w	r10, #0
	stm	r0!, {r1, r2, r3, r7}
	bne	.Laes_v7m_small_BB51_7
@ %bb.5:                                @ %join.8.i22
	add	r3, sp, #68
	ldm	r3, {r0, r1, r3}
	ldr	r2, [sp, #80]
	str.w	r1, [r11, #4]
	eor	r1, r9, #1
	orrs.w	r1, r1, r8
	str.w	r2, [r11, #12]
	str.w	r3, [r11, #8]
	str.w	r0, [r11]
	beq	.Laes_v7m_small_BB51_7
@ %bb.6:                                @ %join.8.i22.1
	add	r3, sp, #84
	ldr	r2, [sp, #96]
	ldm	r3, {r0, r1, r3}
	str.w	r2, [r11, #28]
	str.w	r3, [r11, #24]
	str.w	r1, [r11, #20]
	str.w	r0, [r11, #16]
.Laes_v7m_small_BB51_7:                               @ %"aes_soft::soft::blocks::filled_up::copy_first::<#7d3b633001169d8c>.exit"
	add	sp, #132
	pop.w	{r4, r5, r6, r7, r8, r9, r10, r11, pc}
.Laes_v7m_small_func_end51:
	.size	aes_v7m_small.aes_soft.soft.blocks.filled_up.process_filled_up.2, .Laes_v7m_small_func_end51-aes_v7m_small.aes_soft.soft.blocks.filled_up.process_filled_up.2
	.cantunwind
	.fnend
                                        @ -- End function
	.section	.text.aes_v7m_small.aes_soft.soft.ciphers.planes.process_outlined.2,"ax",%progbits
	.p2align	2                               @ -- Begin function aes_soft::soft::ciphers::planes::process_outlined::<#4da0d9798c91611c>
	.type	aes_v7m_small.aes_soft.soft.ciphers.planes.process_outlined.2,%function
	.code	16
	.thumb_func
aes_v7m_small.aes_soft.soft.ciphers.planes.process_outlined.2: @ @aes_v7m_small.aes_soft.soft.ciphers.planes.process_outlined.2
	.fnstart
@ %bb.0:                                @ %start
	.save	{r4, r5, r6, r7, r8, r9, r10, r11, lr}
	push.w	{r4, r5, r6, r7, r8, r9, r10, r11, lr}
	.pad	#124
	sub	sp, #124
	mov	r8, r1
	ldr	r1, [sp, #160]
	str	r0, [sp, #12]                   @ 4-byte Spill
	ldr	r0, [r1]
	ldr	r6, [r1, #16]
	mov	r10, r3
	ldr	r3, [r1, #8]
	mov	r9, r2
	ldr	r2, [r1, #4]
	ldr	r7, [r1, #12]
	ldr	r5, [r1, #20]
	ldr	r4, [r1, #24]
	ldr	r1, [r1, #28]
	strd	r0, r6, [sp, #92]
	add	r0, sp, #108
	stm	r0!, {r3, r4, r7}
	add	r4, sp, #28
	str	r1, [sp, #120]
	add	r1, sp, #92
	mov	r0, r4
	strd	r2, r5, [sp, #100]
	bl	aes_v7m_small.aes_planes.soft.word.transpose.transpose
	subs.w	r7, r9, #2
	sbc	r12, r10, #0
	lsrs	r0, r7, #2
	mov	r3, r10
	str.w	r10, [sp, #4]                   @ 4-byte Spill
	orr.w	r10, r0, r12, lsl #30
	mov	r0, r4
	ldm	r0!, {r2, r4, r5, r6}
	add	r1, sp, #60
	stm	r1!, {r2, r4, r5, r6}
	lsr.w	r2, r12, #2
	str	r2, [sp, #20]                   @ 4-byte Spill
	ldm.w	r0, {r2, r4, r5, r6}
	bic	r11, r7, #3
	add.w	r0, r11, #1
	stm	r1!, {r2, r4, r5, r6}
	str	r0, [sp, #8]                    @ 4-byte Spill
	add	r0, sp, #92
	mov	r1, r8
	mov	r2, r9
	str	r7, [sp]                        @ 4-byte Spill
	str.w	r8, [sp, #24]                   @ 4-byte Spill
	mov	r8, r12
	bl	aes_v7m_small.aes_planes.soft.round_keys.round_key.2
	add.w	lr, sp, #92
	ldrd	r6, r7, [sp, #60]
	ldm.w	lr, {r0, r1, r2, r3, r4, r5, lr}
	eors	r1, r7
	ldr	r7, [sp, #72]
	eors	r0, r6
	ldr	r6, [sp, #68]
	eors	r3, r7
	ldr	r7, [sp, #80]
	eors	r2, r6
	ldr	r6, [sp, #76]
	ldr.w	r12, [sp, #120]
	eors	r5, r7
	ldr	r7, [sp, #88]
	eors	r4, r6
	ldr	r6, [sp, #84]
	eor.w	r7, r7, r12
	add.w	r12, sp, #60
	eor.w	r6, r6, lr
	stm.w	r12, {r0, r1, r2, r3, r4, r5, r6, r7}
	add	r0, sp, #60
	bl	aes_v7m_small.aes_planes.soft.sbox.inv_sub_bytes
	mov	r1, r9
	ldr.w	r9, [sp, #4]                    @ 4-byte Reload
	add.w	r0, r11, #2
	subs	r0, r0, r1
	mov	r11, r8
	sbcs.w	r0, r8, r9
	bhs	.Laes_v7m_small_BB52_2
@ %bb.1:                                @ %then.3.i
	subs	r2, r1, #1
	sbc	r3, r9, #0
	ldr.w	r9, [sp, #24]                   @ 4-byte Reload
	add	r0, sp, #92
	mov	r1, r9
	bl	aes_v7m_small.aes_planes.soft.round_keys.round_key.2
	add	r7, sp, #92
	ldrd	r4, r5, [sp, #60]
	ldm	r7, {r0, r1, r2, r3, r7}
	eors	r1, r5
	ldr	r5, [sp, #72]
	eors	r0, r4
	ldr	r4, [sp, #68]
	ldrd	r6, lr, [sp, #112]
	eors	r3, r5
	ldr	r5, [sp, #80]
	eors	r2, r4
	ldr	r4, [sp, #76]
	ldr.w	r12, [sp, #120]
	eors	r5, r6
	ldr	r6, [sp, #88]
	eors	r4, r7
	ldr	r7, [sp, #84]
	eor.w	r6, r6, r12
	add.w	r12, sp, #60
	eor.w	r7, r7, lr
	stm.w	r12, {r0, r1, r2, r3, r4, r5, r7}
	add	r4, sp, #60
	mov	r0, r4
	str	r6, [sp, #88]
	bl	aes_v7m_small.aes_planes.soft.mix_columns.inv_mix_columns_3
	mov	r0, r4
	bl	aes_v7m_small.aes_planes.soft.sbox.inv_sub_bytes
	ldr	r2, [sp]                        @ 4-byte Reload
	add	r0, sp, #92
	mov	r1, r9
	mov	r3, r11
	bl	aes_v7m_small.aes_planes.soft.round_keys.round_key.2
	add	r7, sp, #92
	ldrd	r4, r5, [sp, #60]
	ldm	r7, {r0, r1, r2, r3, r7}
	eors	r1, r5
	ldr	r5, [sp, #72]
	eors	r0, r4
	ldr	r4, [sp, #68]
	ldrd	r6, lr, [sp, #112]
	eors	r3, r5
	ldr	r5, [sp, #80]
	eors	r2, r4
	ldr	r4, [sp, #76]
	ldr.w	r12, [sp, #120]
	eors	r5, r6
	ldr	r6, [sp, #88]
	eors	r4, r7
	ldr	r7, [sp, #84]
	eor.w	r6, r6, r12
	add.w	r12, sp, #60
	eor.w	r7, r7, lr
	stm.w	r12, {r0, r1, r2, r3, r4, r5, r7}
	add	r4, sp, #60
	mov	r0, r4
	str	r6, [sp, #88]
	bl	aes_v7m_small.aes_planes.soft.mix_columns.inv_mix_columns_2
	mov	r0, r4
	bl	aes_v7m_small.aes_planes.soft.sbox.inv_sub_bytes
	b	.Laes_v7m_small_BB52_3
.Laes_v7m_small_BB52_2:                               @ %else.4.i
	add	r0, sp, #60
	movs	r1, #4
	mov.w	r2, #251662080
	bl	aes_v7m_small.aes_planes.soft.shifts.swap_columns
	ldr.w	r9, [sp, #24]                   @ 4-byte Reload
.Laes_v7m_small_BB52_3:                               @ %join.5.i
	mov	r3, r11
	ldr	r2, [sp, #8]                    @ 4-byte Reload
	add	r0, sp, #92
	mov	r1, r9
	bl	aes_v7m_small.aes_planes.soft.round_keys.round_key.2
	add	r7, sp, #92
	ldrd	r4, r5, [sp, #60]
	ldm	r7, {r0, r1, r2, r3, r7}
	eors	r1, r5
	ldr	r5, [sp, #72]
	eors	r0, r4
	ldr	r4, [sp, #68]
	ldrd	r6, lr, [sp, #112]
	eors	r3, r5
	ldr	r5, [sp, #80]
	eors	r2, r4
	ldr	r4, [sp, #76]
	ldr.w	r12, [sp, #120]
	eors	r5, r6
	ldr	r6, [sp, #88]
	eors	r4, r7
	ldr	r7, [sp, #84]
	eor.w	r6, r6, r12
	add.w	r12, sp, #60
	eor.w	r7, r7, lr
	stm.w	r12, {r0, r1, r2, r3, r4, r5, r7}
	add	r4, sp, #60
	mov	r0, r4
	str	r6, [sp, #88]
	bl	aes_v7m_small.aes_planes.soft.mix_columns.inv_mix_columns_1
	mov	r0, r4
	bl	aes_v7m_small.aes_planes.soft.sbox.inv_sub_bytes
	ldr	r2, [sp, #20]                   @ 4-byte Reload
	mov	r1, r9
	orrs.w	r0, r10, r2
	beq.w	.Laes_v7m_small_BB52_6
@ %bb.4:                                @ %join.10.lr.ph.i
	mov.w	r9, #0
	mov.w	r8, #0
	str.w	r10, [sp, #16]                  @ 4-byte Spill
	.p2align	2
.Laes_v7m_small_BB52_5:                               @ %join.10.i
                                        @ =>This Inner Loop Header: Depth=1
	subs.w	r11, r10, r9
	sbc.w	r0, r2, r8
	lsls	r0, r0, #2
	orr.w	r10, r0, r11, lsr #30
	lsl.w	r2, r11, #2
	add	r0, sp, #92
	mov	r3, r10
	bl	aes_v7m_small.aes_planes.soft.round_keys.round_key.2
	add	r5, sp, #92
	ldrd	r6, r7, [sp, #60]
	ldm	r5, {r0, r1, r2, r3, r5}
	eors	r1, r7
	ldr	r7, [sp, #72]
	ldrd	r4, lr, [sp, #112]
	eors	r0, r6
	ldr	r6, [sp, #68]
	eors	r3, r7
	ldr	r7, [sp, #80]
	ldr.w	r12, [sp, #120]
	eors	r2, r6
	ldr	r6, [sp, #76]
	eors	r4, r7
	ldr	r7, [sp, #88]
	eors	r5, r6
	ldr	r6, [sp, #84]
	eor.w	r7, r7, r12
	add.w	r12, sp, #60
	stm.w	r12, {r0, r1, r2, r3, r5}
	add	r0, sp, #80
	eor.w	r6, r6, lr
	stm	r0!, {r4, r6, r7}
	add	r4, sp, #60
	mov	r0, r4
	bl	aes_v7m_small.aes_planes.soft.mix_columns.inv_mix_columns_0
	mov	r0, r4
	bl	aes_v7m_small.aes_planes.soft.sbox.inv_sub_bytes
	mov.w	r0, #-1
	adds.w	r2, r0, r11, lsl #2
	ldr	r1, [sp, #24]                   @ 4-byte Reload
	sbc	r3, r10, #0
	add	r0, sp, #92
	bl	aes_v7m_small.aes_planes.soft.round_keys.round_key.2
	add	r7, sp, #92
	ldm	r7, {r0, r1, r2, r3, r7}
	ldrd	r4, r5, [sp, #60]
	add.w	lr, sp, #112
	eors	r0, r4
	ldr	r4, [sp, #68]
	eors	r1, r5
	ldr	r5, [sp, #72]
	eors	r2, r4
	ldr	r4, [sp, #76]
	ldm.w	lr, {r6, r12, lr}
	eors	r3, r5
	ldr	r5, [sp, #80]
	eors	r4, r7
	ldr	r7, [sp, #84]
	eors	r5, r6
	ldr	r6, [sp, #88]
	eor.w	r7, r7, r12
	add.w	r12, sp, #60
	stm.w	r12, {r0, r1, r2, r3, r4, r5, r7}
	add	r4, sp, #60
	eor.w	r6, r6, lr
	mov	r0, r4
	str	r6, [sp, #88]
	bl	aes_v7m_small.aes_planes.soft.mix_columns.inv_mix_columns_3
	mov	r0, r4
	bl	aes_v7m_small.aes_planes.soft.sbox.inv_sub_bytes
	mvn	r0, #1
	adds.w	r2, r0, r11, lsl #2
	ldr	r1, [sp, #24]                   @ 4-byte Reload
	sbc	r3, r10, #0
	add	r0, sp, #92
	bl	aes_v7m_small.aes_planes.soft.round_keys.round_key.2
	add	r7, sp, #92
	ldrd	r4, r5, [sp, #60]
	ldm	r7, {r0, r1, r2, r3, r7}
	eors	r1, r5
	ldr	r5, [sp, #72]
	eors	r0, r4
	ldr	r4, [sp, #68]
	ldrd	r6, lr, [sp, #112]
	eors	r3, r5
	ldr	r5, [sp, #80]
	eors	r2, r4
	ldr	r4, [sp, #76]
	ldr.w	r12, [sp, #120]
	eors	r5, r6
	ldr	r6, [sp, #88]
	eors	r4, r7
	ldr	r7, [sp, #84]
	eor.w	r6, r6, r12
	add.w	r12, sp, #60
	eor.w	r7, r7, lr
	stm.w	r12, {r0, r1, r2, r3, r4, r5, r7}
	add	r4, sp, #60
	mov	r0, r4
	str	r6, [sp, #88]
	bl	aes_v7m_small.aes_planes.soft.mix_columns.inv_mix_columns_2
	mov	r0, r4
	bl	aes_v7m_small.aes_planes.soft.sbox.inv_sub_bytes
	mvn	r0, #2
	adds.w	r2, r0, r11, lsl #2
	ldr	r1, [sp, #24]                   @ 4-byte Reload
	sbc	r3, r10, #0
	ldr.w	r10, [sp, #16]                  @ 4-byte Reload
	add	r0, sp, #92
	bl	aes_v7m_small.aes_planes.soft.round_keys.round_key.2
	add	r7, sp, #92
	ldrd	r4, r5, [sp, #60]
	ldm	r7, {r0, r1, r2, r3, r7}
	eors	r1, r5
	ldr	r5, [sp, #72]
	eors	r0, r4
	ldr	r4, [sp, #68]
	ldrd	r6, lr, [sp, #112]
	eors	r3, r5
	ldr	r5, [sp, #80]
	eors	r2, r4
	ldr	r4, [sp, #76]
	ldr.w	r12, [sp, #120]
	eors	r5, r6
	ldr	r6, [sp, #88]
	eors	r4, r7
	ldr	r7, [sp, #84]
	eor.w	r6, r6, r12
	add.w	r12, sp, #60
	eor.w	r7, r7, lr
	stm.w	r12, {r0, r1, r2, r3, r4, r5, r7}
	add	r4, sp, #60
	mov	r0, r4
	str	r6, [sp, #88]
	bl	aes_v7m_small.aes_planes.soft.mix_columns.inv_mix_columns_1
	mov	r0, r4
	bl	aes_v7m_small.aes_planes.soft.sbox.inv_sub_bytes
	ldrd	r2, r1, [sp, #20]               @ 8-byte Folded Reload
	adds.w	r9, r9, #1
	adc	r8, r8, #0
	subs.w	r0, r9, r10
	sbcs.w	r0, r8, r2
	blo.w	.Laes_v7m_small_BB52_5
.Laes_v7m_small_BB52_6:                               @ %"aes_soft::soft::ciphers::planes::DecryptPlaneCipher::process_planes::<#42add9d049d0c5fd>.exit"
	add	r0, sp, #92
	movs	r2, #0
	movs	r3, #0
	bl	aes_v7m_small.aes_planes.soft.round_keys.round_key.2
	add	r7, sp, #92
	ldrd	r4, r5, [sp, #60]
	ldm	r7, {r0, r1, r2, r3, r7}
	eors	r1, r5
	ldr	r5, [sp, #72]
	eors	r0, r4
	ldr	r4, [sp, #68]
	ldrd	r6, lr, [sp, #112]
	eors	r3, r5
	ldr	r5, [sp, #80]
	eors	r2, r4
	ldr	r4, [sp, #76]
	ldr.w	r12, [sp, #120]
	eors	r5, r6
	ldr	r6, [sp, #88]
	eors	r4, r7
	ldr	r7, [sp, #84]
	eor.w	r6, r6, r12
	add.w	r12, sp, #60
	eor.w	r7, r7, lr
	stm.w	r12, {r0, r1, r2, r3, r4, r5, r7}
	str	r6, [sp, #88]
	add	r5, sp, #60
	add	r1, sp, #28
	ldm	r5!, {r2, r3, r6, r7}
	mov	r0, r1
	stm	r0!, {r2, r3, r6, r7}
	ldm.w	r5, {r2, r3, r6, r7}
	stm	r0!, {r2, r3, r6, r7}
	add	r0, sp, #92
	bl	aes_v7m_small.aes_planes.soft.word.transpose.transpose
	add	r7, sp, #100
	ldrd	r0, r12, [sp, #92]
	ldm	r7, {r2, r3, r7}
	ldrd	r6, r5, [sp, #112]
	ldr	r4, [sp, #120]
	ldr	r1, [sp, #12]                   @ 4-byte Reload
	str	r0, [r1]
	str	r2, [r1, #4]
	str	r7, [r1, #8]
	str	r5, [r1, #12]
	str.w	r12, [r1, #16]
	str	r3, [r1, #20]
	str	r6, [r1, #24]
	str	r4, [r1, #28]
	add	sp, #124
	pop.w	{r4, r5, r6, r7, r8, r9, r10, r11, pc}
.Laes_v7m_small_func_end52:
	.size	aes_v7m_small.aes_soft.soft.ciphers.planes.process_outlined.2, .Laes_v7m_small_func_end52-aes_v7m_small.aes_soft.soft.ciphers.planes.process_outlined.2
	.cantunwind
	.fnend
                                        @ -- End function
	.section	.text.aes_v7m_small.aes_planes.soft.sbox.inv_sub_bytes,"ax",%progbits
	.p2align	2                               @ -- Begin function aes_planes::soft::sbox::inv_sub_bytes::<#e817d94f9a7b6ba6>
	.type	aes_v7m_small.aes_planes.soft.sbox.inv_sub_bytes,%function
	.code	16
	.thumb_func
aes_v7m_small.aes_planes.soft.sbox.inv_sub_bytes: @ @aes_v7m_small.aes_planes.soft.sbox.inv_sub_bytes
	.fnstart
@ %bb.0:                                @ %start
	.save	{r4, r5, r6, r7, r8, r9, r10, r11, lr}
	push.w	{r4, r5, r6, r7, r8, r9, r10, r11, lr}
	.pad	#76
	sub	sp, #76
	mov	lr, r0
	ldr	r5, [r0]
	ldrd	r8, r0, [r0, #4]
	ldrd	r2, r11, [lr, #24]
	ldrd	r4, r12, [lr, #12]
	str	r0, [sp, #44]                   @ 4-byte Spill
	eor.w	r3, r11, r2
	eor.w	r1, r12, r4
	eor.w	r7, r0, r8
	eor.w	r9, r4, r5
	eor.w	r0, r11, r12
	str.w	r11, [sp, #40]                  @ 4-byte Spill
	eor.w	r10, r1, r7
	eor.w	r6, r3, r9
	eor.w	r11, r0, r2
	str	r7, [sp, #72]                   @ 4-byte Spill
	eor.w	r7, r6, r10
	str	r0, [sp, #68]                   @ 4-byte Spill
	eor.w	r0, r11, r4
	str	r5, [sp, #48]                   @ 4-byte Spill
	and.w	r5, r7, r1
	and.w	r7, r0, r10
	str	r0, [sp, #56]                   @ 4-byte Spill
	eor.w	r0, r5, r7
	and.w	r7, r6, r3
	str	r6, [sp, #64]                   @ 4-byte Spill
	str	r0, [sp, #8]                    @ 4-byte Spill
	eor.w	r0, r5, r7
	eor.w	r6, r2, r12
	ldr.w	r12, [lr, #20]
	ldr	r5, [sp, #48]                   @ 4-byte Reload
	str.w	r10, [sp, #52]                  @ 4-byte Spill
	mov	r10, r3
	str	r3, [sp, #60]                   @ 4-byte Spill
	eor.w	r3, r2, r8
	eor.w	r2, r8, r5
	eor.w	r4, r4, r12
	str	r0, [sp, #20]                   @ 4-byte Spill
	eor.w	r0, r4, r3
	eor.w	r4, r1, r2
	str	r0, [sp, #4]                    @ 4-byte Spill
	mov	r7, r1
	eor.w	r8, r1, r5
	str	r1, [sp, #24]                   @ 4-byte Spill
	orr.w	r1, r0, r4
	ldr	r0, [sp, #44]                   @ 4-byte Reload
	str	r4, [sp]                        @ 4-byte Spill
	mov	r4, r6
	str	r6, [sp, #28]                   @ 4-byte Spill
	and.w	r6, r6, r8
	str.w	r8, [sp, #48]                   @ 4-byte Spill
	eor.w	r8, r1, r6
	eor.w	r1, r12, r0
	ldr	r0, [sp, #40]                   @ 4-byte Reload
	eor.w	r6, r4, r2
	eors	r0, r1
	str	r0, [sp, #32]                   @ 4-byte Spill
	eor.w	r5, r3, r9
	and.w	r3, r6, r0
	eor.w	r0, r10, r2
	eors	r1, r4
	str	r0, [sp, #44]                   @ 4-byte Spill
	str	r1, [sp, #40]                   @ 4-byte Spill
	ands	r0, r1
	ldr	r1, [sp, #68]                   @ 4-byte Reload
	eor.w	r3, r3, r9
	eor.w	r2, r3, r0
	and.w	r3, r11, r1
	ldr	r1, [sp, #72]                   @ 4-byte Reload
	str.w	r11, [sp, #36]                  @ 4-byte Spill
	eors	r3, r1
	ldr.w	r11, [sp, #64]                  @ 4-byte Reload
	ldr	r1, [sp, #8]                    @ 4-byte Reload
	eor.w	r3, r3, r11
	eor.w	r4, r8, r1
	ldrd	r8, r9, [sp]                    @ 8-byte Folded Reload
	eors	r0, r3
	eor.w	r3, r6, r12
	str	r6, [sp, #16]                   @ 4-byte Spill
	eors	r0, r1
	and.w	r1, r9, r8
	and.w	r6, r3, r5
	eors	r1, r6
	str	r3, [sp, #8]                    @ 4-byte Spill
	eors	r1, r7
	ldr	r3, [sp, #20]                   @ 4-byte Reload
	eor.w	r1, r1, r12
	eor.w	r12, r2, r3
	eors	r1, r3
	str	r5, [sp, #12]                   @ 4-byte Spill
	and.w	r5, r0, r4
	eor.w	r2, r0, r12
	ands	r0, r1
	ands	r0, r2
	eor.w	r6, r5, r1
	eors	r0, r5
	ands	r6, r2
	eors	r2, r0
	eor.w	r0, r5, r12
	eor.w	r3, r4, r1
	ands	r0, r3
	eor.w	r6, r6, r12
	eors	r0, r1
	eor.w	r1, r6, r2
	and.w	r7, r1, r8
	and.w	r10, r1, r9
	ldr	r1, [sp, #12]                   @ 4-byte Reload
	str	r7, [sp, #20]                   @ 4-byte Spill
	ands	r1, r6
	str	r1, [sp, #12]                   @ 4-byte Spill
	ldr	r1, [sp, #8]                    @ 4-byte Reload
	and.w	r7, r12, r4
	and.w	r4, r6, r1
	ldr	r1, [sp, #28]                   @ 4-byte Reload
	bics	r3, r7
	and.w	r12, r2, r1
	ldr	r1, [sp, #32]                   @ 4-byte Reload
	eors	r5, r3
	and.w	r7, r0, r1
	ldr	r1, [sp, #16]                   @ 4-byte Reload
	eors	r6, r0
	ands	r1, r0
	str	r1, [sp, #32]                   @ 4-byte Spill
	ldr	r1, [sp, #48]                   @ 4-byte Reload
	eor.w	r9, r2, r5
	and.w	r8, r2, r1
	ldr	r1, [sp, #68]                   @ 4-byte Reload
	eors	r0, r5
	ands	r1, r5
	str	r1, [sp, #16]                   @ 4-byte Spill
	ldr	r1, [sp, #36]                   @ 4-byte Reload
	ldr	r3, [sp, #44]                   @ 4-byte Reload
	ands	r5, r1
	ldr	r1, [sp, #40]                   @ 4-byte Reload
	eor.w	r5, r5, r8
	ands	r1, r0
	ands	r0, r3
	str	r0, [sp, #68]                   @ 4-byte Spill
	ldr	r0, [sp, #24]                   @ 4-byte Reload
	str.w	r12, [sp, #28]                  @ 4-byte Spill
	ands	r0, r6
	str	r0, [sp, #48]                   @ 4-byte Spill
	ldr	r0, [sp, #72]                   @ 4-byte Reload
	eor.w	r0, r0, r11
	and.w	r2, r6, r0
	ldr	r0, [sp, #52]                   @ 4-byte Reload
	eor.w	r6, r6, r9
	and.w	r11, r6, r0
	ldr	r0, [sp, #56]                   @ 4-byte Reload
	eor.w	r11, r11, r8
	ands	r6, r0
	ldr	r0, [sp, #12]                   @ 4-byte Reload
	mov	r8, r2
	eor.w	r0, r0, r10
	str	r0, [sp, #56]                   @ 4-byte Spill
	ldr	r0, [sp, #16]                   @ 4-byte Reload
	eors	r0, r7
	str	r0, [sp, #44]                   @ 4-byte Spill
	ldr	r0, [sp, #20]                   @ 4-byte Reload
	eors	r7, r1
	eor.w	r3, r0, r12
	eors	r3, r2
	ldr	r2, [sp, #64]                   @ 4-byte Reload
	eors	r1, r4
	and.w	r12, r9, r2
	eor.w	r2, r6, r10
	str	r2, [sp, #52]                   @ 4-byte Spill
	eor.w	r6, r6, r12
	ldr	r2, [sp, #56]                   @ 4-byte Reload
	eor.w	r4, r4, r10
	eor.w	r11, r11, r3
	eors	r3, r6
	eors	r7, r3
	eors	r4, r3
	eors	r3, r5
	eors	r5, r2
	str	r7, [sp, #64]                   @ 4-byte Spill
	str	r4, [sp, #72]                   @ 4-byte Spill
	eor.w	r10, r5, r8
	ldr	r4, [sp, #32]                   @ 4-byte Reload
	ldr	r5, [sp, #48]                   @ 4-byte Reload
	ldr	r7, [sp, #44]                   @ 4-byte Reload
	eor.w	r8, r5, r4
	eor.w	r5, r7, r4
	eor.w	r4, r10, r0
	eors	r4, r5
	eors	r4, r6
	ldr	r6, [sp, #60]                   @ 4-byte Reload
	ldr	r0, [sp, #68]                   @ 4-byte Reload
	and.w	r2, r9, r6
	eor.w	r6, r0, r2
	ldr	r0, [sp, #52]                   @ 4-byte Reload
	eors	r3, r1
	eors	r1, r2
	eor.w	r2, r0, r11
	ldr	r0, [sp, #28]                   @ 4-byte Reload
	eors	r1, r5
	eor.w	r5, r10, r0
	eors	r5, r7
	eor.w	r0, r5, r12
	eor.w	r1, r1, r11
	eors	r0, r6
	strd	r3, r1, [lr, #8]
	ldr	r1, [sp, #64]                   @ 4-byte Reload
	str.w	r0, [lr, #24]
	ldr	r0, [sp, #72]                   @ 4-byte Reload
	eor.w	r5, r8, r6
	strd	r5, r2, [lr]
	strd	r1, r4, [lr, #16]
	str.w	r0, [lr, #28]
	add	sp, #76
	pop.w	{r4, r5, r6, r7, r8, r9, r10, r11, pc}
.Laes_v7m_small_func_end53:
	.size	aes_v7m_small.aes_planes.soft.sbox.inv_sub_bytes, .Laes_v7m_small_func_end53-aes_v7m_small.aes_planes.soft.sbox.inv_sub_bytes
	.cantunwind
	.fnend
                                        @ -- End function
	.section	.text.aes_v7m_small.aes_planes.soft.mix_columns.inv_mix_columns_0,"ax",%progbits
	.p2align	2                               @ -- Begin function aes_planes::soft::mix_columns::inv_mix_columns_0::<#e817d94f9a7b6ba6>
	.type	aes_v7m_small.aes_planes.soft.mix_columns.inv_mix_columns_0,%function
	.code	16
	.thumb_func
aes_v7m_small.aes_planes.soft.mix_columns.inv_mix_columns_0: @ @aes_v7m_small.aes_planes.soft.mix_columns.inv_mix_columns_0
	.fnstart
@ %bb.0:                                @ %start
	.save	{r4, r5, r6, r7, r8, r9, r10, r11, lr}
	push.w	{r4, r5, r6, r7, r8, r9, r10, r11, lr}
	.pad	#16
	sub	sp, #16
	ldrd	r9, r1, [r0, #16]
	ldrd	r2, r5, [r0, #24]
	ldrd	r11, r7, [r0]
	eor.w	r8, r9, r9, ror #8
	ldr.w	lr, [r0, #8]
	eor.w	r3, r1, r1, ror #8
	eor.w	r4, r2, r2, ror #8
	eor.w	r1, r1, r8
	eor.w	r6, r7, r7, ror #8
	str	r3, [sp, #4]                    @ 4-byte Spill
	str	r1, [sp, #12]                   @ 4-byte Spill
	eors	r2, r3
	eor.w	r12, r4, r5
	eor.w	r1, r11, r11, ror #8
	eor.w	r3, r5, r5, ror #8
	str	r4, [sp, #8]                    @ 4-byte Spill
	eor.w	r10, r6, lr
	eor.w	r4, r12, r2
	eor.w	r5, r3, r11
	eor.w	r11, r1, r7
	ldr	r7, [r0, #12]
	eors	r6, r4
	eor.w	r4, r4, r10
	eor.w	lr, lr, lr, ror #8
	eors	r1, r2
	eor.w	r8, r8, r4
	eor.w	r4, r12, lr
	eor.w	r1, r1, r1, ror #16
	eor.w	lr, lr, r7
	eor.w	r7, r7, r7, ror #8
	eors	r4, r5
	eors	r1, r5
	eor.w	r5, r11, r3
	eor.w	r11, r7, r9
	eors	r7, r2
	str	r1, [sp]                        @ 4-byte Spill
	eors	r7, r5
	eor.w	r5, r5, r6, ror #16
	ldr	r1, [sp, #4]                    @ 4-byte Reload
	eor.w	r9, r5, r6
	eor.w	r6, r10, r4, ror #16
	eor.w	r10, r6, r4
	eor.w	r6, lr, r3
	eor.w	r1, r1, r12
	eors	r1, r6
	eor.w	r6, r6, r7, ror #16
	ldr	r5, [sp, #8]                    @ 4-byte Reload
	eors	r7, r6
	eor.w	r6, r11, r3
	eor.w	r4, r6, r5
	ldr	r5, [sp, #12]                   @ 4-byte Reload
	eor.w	r6, r6, r8, ror #16
	eors	r3, r5
	eor.w	r5, r5, r1, ror #16
	eors	r1, r5
	eor.w	r5, r12, r3, ror #16
	eors	r3, r5
	ldr	r5, [sp]                        @ 4-byte Reload
	eor.w	r6, r6, r8
	eor.w	r2, r2, r4, ror #16
	stm.w	r0, {r5, r9, r10}
	strd	r7, r6, [r0, #12]
	adds	r0, #20
	eors	r2, r4
	stm	r0!, {r1, r2, r3}
	add	sp, #16
	pop.w	{r4, r5, r6, r7, r8, r9, r10, r11, pc}
.Laes_v7m_small_func_end54:
	.size	aes_v7m_small.aes_planes.soft.mix_columns.inv_mix_columns_0, .Laes_v7m_small_func_end54-aes_v7m_small.aes_planes.soft.mix_columns.inv_mix_columns_0
	.cantunwind
	.fnend
                                        @ -- End function
	.section	.text.aes_v7m_small.aes_planes.soft.mix_columns.inv_mix_columns_3,"ax",%progbits
	.p2align	2                               @ -- Begin function aes_planes::soft::mix_columns::inv_mix_columns_3::<#e817d94f9a7b6ba6>
	.type	aes_v7m_small.aes_planes.soft.mix_columns.inv_mix_columns_3,%function
	.code	16
	.thumb_func
aes_v7m_small.aes_planes.soft.mix_columns.inv_mix_columns_3: @ @aes_v7m_small.aes_planes.soft.mix_columns.inv_mix_columns_3
	.fnstart
@ %bb.0:                                @ %start
	.save	{r4, r5, r6, r7, r8, r9, r10, r11, lr}
	push.w	{r4, r5, r6, r7, r8, r9, r10, r11, lr}
	.pad	#68
	sub	sp, #68
	ldr	r2, [r0]
	ldrd	r11, r12, [r0, #4]
	mov.w	r3, #50529027
	mov.w	r5, #-50529028
	and.w	r6, r3, r2, ror #14
	and.w	r4, r5, r2, ror #6
	str	r2, [sp, #48]                   @ 4-byte Spill
	ldrd	r7, r1, [r0, #12]
	adds	r2, r6, r4
	and.w	r6, r3, r11, ror #14
	and.w	r4, r5, r11, ror #6
	str	r2, [sp, #52]                   @ 4-byte Spill
	adds	r2, r6, r4
	and.w	r4, r3, r12, ror #14
	and.w	r6, r5, r12, ror #6
	ldr.w	lr, [r0, #20]
	str	r2, [sp, #60]                   @ 4-byte Spill
	adds	r2, r4, r6
	and.w	r6, r3, r7, ror #14
	and.w	r4, r5, r7, ror #6
	str	r2, [sp, #56]                   @ 4-byte Spill
	adds	r2, r6, r4
	and.w	r4, r3, r1, ror #14
	and.w	r6, r5, r1, ror #6
	add.w	r8, r4, r6
	and.w	r6, r3, lr, ror #14
	and.w	r4, r5, lr, ror #6
	str	r7, [sp, #28]                   @ 4-byte Spill
	mov	r7, r1
	str	r1, [sp, #40]                   @ 4-byte Spill
	add.w	r9, r6, r4
	ldrd	r4, r1, [r0, #24]
	ldr	r6, [sp, #56]                   @ 4-byte Reload
	str	r2, [sp, #64]                   @ 4-byte Spill
	and.w	r2, r3, r4, ror #14
	and.w	r10, r5, r4, ror #6
	and.w	r3, r3, r1, ror #14
	and.w	r5, r5, r1, ror #6
	add	r2, r10
	add	r3, r5
	ldr	r5, [sp, #60]                   @ 4-byte Reload
	eor.w	r6, r6, r12
	eor.w	r8, r8, r7
	str	r6, [sp, #32]                   @ 4-byte Spill
	eor.w	r6, r9, lr
	eors	r2, r4
	eor.w	r7, r3, r1
	eor.w	r3, r8, lr
	eor.w	r5, r5, r11
	str	r6, [sp, #36]                   @ 4-byte Spill
	str	r3, [sp, #60]                   @ 4-byte Spill
	eors	r6, r4
	eor.w	r3, r2, r1
	eor.w	r12, r12, r5
	eor.w	r1, r3, r6
	eors	r5, r1
	eor.w	r1, r1, r12
	str	r2, [sp, #44]                   @ 4-byte Spill
	eor.w	r10, r1, r8
	ldrd	r2, r1, [sp, #48]               @ 8-byte Folded Reload
	str.w	r12, [sp, #56]                  @ 4-byte Spill
	eors	r1, r2
	eor.w	r4, r1, r11
	eors	r1, r6
	mov	r12, r6
	str	r6, [sp, #12]                   @ 4-byte Spill
	mov.w	r6, #252645135
	mov.w	r8, #-252645136
	and.w	lr, r6, r1, ror #20
	and.w	r11, r8, r1, ror #12
	str	r4, [sp]                        @ 4-byte Spill
	str	r1, [sp, #52]                   @ 4-byte Spill
	add.w	r1, lr, r11
	and.w	lr, r6, r5, ror #20
	and.w	r4, r8, r5, ror #12
	strd	r1, r5, [sp, #20]               @ 8-byte Folded Spill
	add.w	r1, lr, r4
	str	r1, [sp, #16]                   @ 4-byte Spill
	ldr	r1, [sp, #64]                   @ 4-byte Reload
	ldr	r5, [sp, #28]                   @ 4-byte Reload
	eor.w	r4, r7, r2
	ldr	r2, [sp, #32]                   @ 4-byte Reload
	eor.w	r9, r1, r5
	eor.w	r1, r2, r5
	eor.w	r5, r3, r2
	eor.w	lr, r5, r4
	str	r1, [sp, #28]                   @ 4-byte Spill
	mov	r1, r3
	str	r3, [sp, #8]                    @ 4-byte Spill
	and.w	r5, r6, lr, ror #20
	and.w	r3, r8, lr, ror #12
	adds	r2, r5, r3
	str	r2, [sp, #64]                   @ 4-byte Spill
	ldr	r2, [sp]                        @ 4-byte Reload
	str	r4, [sp, #48]                   @ 4-byte Spill
	eor.w	r3, r2, r7
	ldr	r2, [sp, #40]                   @ 4-byte Reload
	eor.w	r4, r12, r9
	eor.w	r2, r2, r9
	eor.w	r9, r4, r3
	and.w	r4, r6, r9, ror #20
	and.w	r11, r8, r9, ror #12
	str	r2, [sp]                        @ 4-byte Spill
	add.w	r2, r4, r11
	and.w	r4, r6, r10, ror #20
	and.w	r11, r8, r10, ror #12
	str	r2, [sp, #40]                   @ 4-byte Spill
	add.w	r2, r4, r11
	str	r2, [sp, #32]                   @ 4-byte Spill
	ldr	r2, [sp, #28]                   @ 4-byte Reload
	ldr.w	r12, [sp, #60]                  @ 4-byte Reload
	eor.w	r4, r2, r7
	ldr	r2, [sp, #36]                   @ 4-byte Reload
	str.w	r10, [sp, #4]                   @ 4-byte Spill
	eor.w	r11, r1, r2
	eor.w	r11, r11, r4
	and.w	r1, r6, r11, ror #20
	and.w	r5, r8, r11, ror #12
	add	r1, r5
	str	r1, [sp, #36]                   @ 4-byte Spill
	ldr	r1, [sp]                        @ 4-byte Reload
	eor.w	r5, r1, r7
	ldr	r1, [sp, #44]                   @ 4-byte Reload
	eor.w	r7, r7, r12
	eors	r1, r5
	and.w	r2, r6, r1, ror #20
	and.w	r10, r8, r1, ror #12
	add	r2, r10
	str	r2, [sp, #44]                   @ 4-byte Spill
	and.w	r6, r6, r7, ror #20
	and.w	r2, r8, r7, ror #12
	add.w	r10, r6, r2
	ldr	r2, [sp, #52]                   @ 4-byte Reload
	ldr	r6, [sp, #20]                   @ 4-byte Reload
	eors	r6, r2
	ldr	r2, [sp, #48]                   @ 4-byte Reload
	eors	r2, r6
	str	r2, [sp, #52]                   @ 4-byte Spill
	ldr	r2, [sp, #16]                   @ 4-byte Reload
	eors	r3, r2
	ldr	r2, [sp, #24]                   @ 4-byte Reload
	eor.w	r8, r3, r2
	ldr	r2, [sp, #56]                   @ 4-byte Reload
	ldr	r3, [sp, #64]                   @ 4-byte Reload
	eors	r2, r3
	ldr	r3, [sp, #40]                   @ 4-byte Reload
	eor.w	lr, lr, r2
	eors	r4, r3
	ldr	r3, [sp, #32]                   @ 4-byte Reload
	ldr	r2, [sp, #44]                   @ 4-byte Reload
	eors	r5, r3
	ldr	r3, [sp, #4]                    @ 4-byte Reload
	eor.w	r4, r4, r9
	eors	r5, r3
	ldr	r3, [sp, #36]                   @ 4-byte Reload
	eor.w	r6, r12, r3
	ldr	r3, [sp, #12]                   @ 4-byte Reload
	eor.w	r6, r6, r11
	eors	r3, r2
	eors	r1, r3
	ldr	r3, [sp, #8]                    @ 4-byte Reload
	ldr	r2, [sp, #52]                   @ 4-byte Reload
	eor.w	r3, r3, r10
	eors	r3, r7
	stm.w	r0, {r2, r8, lr}
	add.w	r2, r0, #12
	stm	r2!, {r4, r5, r6}
	strd	r1, r3, [r0, #24]
	add	sp, #68
	pop.w	{r4, r5, r6, r7, r8, r9, r10, r11, pc}
.Laes_v7m_small_func_end55:
	.size	aes_v7m_small.aes_planes.soft.mix_columns.inv_mix_columns_3, .Laes_v7m_small_func_end55-aes_v7m_small.aes_planes.soft.mix_columns.inv_mix_columns_3
	.cantunwind
	.fnend
                                        @ -- End function
	.section	.text.aes_v7m_small.aes_planes.soft.mix_columns.inv_mix_columns_2,"ax",%progbits
	.p2align	2                               @ -- Begin function aes_planes::soft::mix_columns::inv_mix_columns_2::<#e817d94f9a7b6ba6>
	.type	aes_v7m_small.aes_planes.soft.mix_columns.inv_mix_columns_2,%function
	.code	16
	.thumb_func
aes_v7m_small.aes_planes.soft.mix_columns.inv_mix_columns_2: @ @aes_v7m_small.aes_planes.soft.mix_columns.inv_mix_columns_2
	.fnstart
@ %bb.0:                                @ %start
	.save	{r4, r5, r6, r7, r8, r9, r10, r11, lr}
	push.w	{r4, r5, r6, r7, r8, r9, r10, r11, lr}
	.pad	#32
	sub	sp, #32
	ldrd	r10, r9, [r0]
	mov.w	r4, #252645135
	mov.w	r5, #-252645136
	ldrd	r8, r2, [r0, #8]
	and.w	r6, r4, r10, ror #12
	and.w	r7, r5, r10, ror #4
	adds	r3, r6, r7
	and.w	r7, r4, r9, ror #12
	and.w	r6, r5, r9, ror #4
	str	r3, [sp, #28]                   @ 4-byte Spill
	adds	r3, r7, r6
	and.w	r6, r4, r8, ror #12
	and.w	r7, r5, r8, ror #4
	ldrd	r1, r12, [r0, #16]
	add	r7, r6
	str	r7, [sp, #12]                   @ 4-byte Spill
	and.w	r7, r4, r2, ror #12
	and.w	r6, r5, r2, ror #4
	str	r2, [sp, #20]                   @ 4-byte Spill
	adds	r2, r7, r6
	and.w	r6, r4, r1, ror #12
	and.w	r7, r5, r1, ror #4
	str	r2, [sp, #24]                   @ 4-byte Spill
	mov	r2, r1
	str	r1, [sp, #16]                   @ 4-byte Spill
	adds	r1, r6, r7
	and.w	r7, r4, r12, ror #12
	and.w	r6, r5, r12, ror #4
	eor.w	lr, r3, r9
	ldr	r3, [sp, #12]                   @ 4-byte Reload
	str	r1, [sp, #8]                    @ 4-byte Spill
	adds	r1, r7, r6
	str	r1, [sp, #4]                    @ 4-byte Spill
	ldrd	r6, r1, [r0, #24]
	eor.w	r3, r3, r8
	str	r3, [sp]                        @ 4-byte Spill
	ldr	r3, [sp, #8]                    @ 4-byte Reload
	and.w	r7, r4, r6, ror #12
	and.w	r11, r5, r6, ror #4
	add	r11, r7
	eor.w	r7, r3, r2
	ldr	r2, [sp, #4]                    @ 4-byte Reload
	and.w	r4, r4, r1, ror #12
	and.w	r5, r5, r1, ror #4
	add	r4, r5
	eor.w	r3, r2, r12
	eor.w	r2, r11, r6
	eor.w	r5, r7, r12
	str	r5, [sp, #12]                   @ 4-byte Spill
	eor.w	r5, r3, r6
	eor.w	r6, r2, r1
	eors	r4, r1
	eor.w	r11, lr, r8
	eor.w	r1, r6, r5
	eor.w	r12, r1, lr
	eor.w	r1, r1, r11
	eor.w	r8, r1, r7
	ldr	r1, [sp, #28]                   @ 4-byte Reload
	str	r3, [sp, #4]                    @ 4-byte Spill
	str	r2, [sp, #8]                    @ 4-byte Spill
	eor.w	r1, r1, r10
	ldrd	lr, r3, [sp, #20]               @ 8-byte Folded Reload
	ldr	r2, [sp]                        @ 4-byte Reload
	eor.w	r9, r9, r1
	eors	r1, r5
	eor.w	r3, r3, lr
	eor.w	r10, r10, r4
	eor.w	lr, lr, r2
	eor.w	r7, r6, r2
	eor.w	r1, r1, r1, ror #16
	ldr	r2, [sp, #16]                   @ 4-byte Reload
	eor.w	r1, r1, r10
	str	r1, [sp, #28]                   @ 4-byte Spill
	eor.w	r1, r9, r4
	eor.w	r9, r3, r2
	eors	r3, r5
	eors	r3, r1
	eor.w	r1, r1, r12, ror #16
	eor.w	r7, r7, r10
	eor.w	r10, r1, r12
	ldr	r1, [sp, #4]                    @ 4-byte Reload
	eor.w	r2, r11, r7, ror #16
	eor.w	r12, r2, r7
	eor.w	r7, lr, r4
	eors	r1, r6
	eors	r1, r7
	eor.w	r7, r7, r3, ror #16
	eor.w	lr, r7, r3
	ldr	r2, [sp, #8]                    @ 4-byte Reload
	ldr	r3, [sp, #12]                   @ 4-byte Reload
	eor.w	r7, r9, r4
	eors	r2, r7
	eors	r4, r3
	eor.w	r3, r3, r1, ror #16
	eors	r1, r3
	eor.w	r3, r5, r2, ror #16
	eors	r2, r3
	eor.w	r3, r6, r4, ror #16
	eor.w	r7, r7, r8, ror #16
	eors	r3, r4
	ldr	r4, [sp, #28]                   @ 4-byte Reload
	eor.w	r7, r7, r8
	stm.w	r0, {r4, r10, r12, lr}
	strd	r7, r1, [r0, #16]
	strd	r2, r3, [r0, #24]
	add	sp, #32
	pop.w	{r4, r5, r6, r7, r8, r9, r10, r11, pc}
.Laes_v7m_small_func_end56:
	.size	aes_v7m_small.aes_planes.soft.mix_columns.inv_mix_columns_2, .Laes_v7m_small_func_end56-aes_v7m_small.aes_planes.soft.mix_columns.inv_mix_columns_2
	.cantunwind
	.fnend
                                        @ -- End function
	.section	.text.aes_v7m_small.aes_planes.soft.mix_columns.inv_mix_columns_1,"ax",%progbits
	.p2align	2                               @ -- Begin function aes_planes::soft::mix_columns::inv_mix_columns_1::<#e817d94f9a7b6ba6>
	.type	aes_v7m_small.aes_planes.soft.mix_columns.inv_mix_columns_1,%function
	.code	16
	.thumb_func
aes_v7m_small.aes_planes.soft.mix_columns.inv_mix_columns_1: @ @aes_v7m_small.aes_planes.soft.mix_columns.inv_mix_columns_1
	.fnstart
@ %bb.0:                                @ %start
	.save	{r4, r5, r6, r7, r8, r9, r10, r11, lr}
	push.w	{r4, r5, r6, r7, r8, r9, r10, r11, lr}
	.pad	#68
	sub	sp, #68
	ldr	r2, [r0]
	ldrd	r11, r12, [r0, #4]
	mov.w	r3, #1061109567
	mov.w	r5, #-1061109568
	and.w	r6, r3, r2, ror #10
	and.w	r4, r5, r2, ror #2
	str	r2, [sp, #48]                   @ 4-byte Spill
	ldrd	r7, r1, [r0, #12]
	adds	r2, r6, r4
	and.w	r6, r3, r11, ror #10
	and.w	r4, r5, r11, ror #2
	str	r2, [sp, #52]                   @ 4-byte Spill
	adds	r2, r6, r4
	and.w	r4, r3, r12, ror #10
	and.w	r6, r5, r12, ror #2
	ldr.w	lr, [r0, #20]
	str	r2, [sp, #60]                   @ 4-byte Spill
	adds	r2, r4, r6
	and.w	r6, r3, r7, ror #10
	and.w	r4, r5, r7, ror #2
	str	r2, [sp, #56]                   @ 4-byte Spill
	adds	r2, r6, r4
	and.w	r4, r3, r1, ror #10
	and.w	r6, r5, r1, ror #2
	add.w	r8, r4, r6
	and.w	r6, r3, lr, ror #10
	and.w	r4, r5, lr, ror #2
	str	r7, [sp, #28]                   @ 4-byte Spill
	mov	r7, r1
	str	r1, [sp, #40]                   @ 4-byte Spill
	add.w	r9, r6, r4
	ldrd	r4, r1, [r0, #24]
	ldr	r6, [sp, #56]                   @ 4-byte Reload
	str	r2, [sp, #64]                   @ 4-byte Spill
	and.w	r2, r3, r4, ror #10
	and.w	r10, r5, r4, ror #2
	and.w	r3, r3, r1, ror #10
	and.w	r5, r5, r1, ror #2
	add	r2, r10
	add	r3, r5
	ldr	r5, [sp, #60]                   @ 4-byte Reload
	eor.w	r6, r6, r12
	eor.w	r8, r8, r7
	str	r6, [sp, #32]                   @ 4-byte Spill
	eor.w	r6, r9, lr
	eors	r2, r4
	eor.w	r7, r3, r1
	eor.w	r3, r8, lr
	eor.w	r5, r5, r11
	str	r6, [sp, #36]                   @ 4-byte Spill
	str	r3, [sp, #60]                   @ 4-byte Spill
	eors	r6, r4
	eor.w	r3, r2, r1
	eor.w	r12, r12, r5
	eor.w	r1, r3, r6
	eors	r5, r1
	eor.w	r1, r1, r12
	str	r2, [sp, #44]                   @ 4-byte Spill
	eor.w	r10, r1, r8
	ldrd	r2, r1, [sp, #48]               @ 8-byte Folded Reload
	str.w	r12, [sp, #56]                  @ 4-byte Spill
	eors	r1, r2
	eor.w	r4, r1, r11
	eors	r1, r6
	mov	r12, r6
	str	r6, [sp, #12]                   @ 4-byte Spill
	mov.w	r6, #252645135
	mov.w	r8, #-252645136
	and.w	lr, r6, r1, ror #20
	and.w	r11, r8, r1, ror #12
	str	r4, [sp]                        @ 4-byte Spill
	str	r1, [sp, #52]                   @ 4-byte Spill
	add.w	r1, lr, r11
	and.w	lr, r6, r5, ror #20
	and.w	r4, r8, r5, ror #12
	strd	r1, r5, [sp, #20]               @ 8-byte Folded Spill
	add.w	r1, lr, r4
	str	r1, [sp, #16]                   @ 4-byte Spill
	ldr	r1, [sp, #64]                   @ 4-byte Reload
	ldr	r5, [sp, #28]                   @ 4-byte Reload
	eor.w	r4, r7, r2
	ldr	r2, [sp, #32]                   @ 4-byte Reload
	eor.w	r9, r1, r5
	eor.w	r1, r2, r5
	eor.w	r5, r3, r2
	eor.w	lr, r5, r4
	str	r1, [sp, #28]                   @ 4-byte Spill
	mov	r1, r3
	str	r3, [sp, #8]                    @ 4-byte Spill
	and.w	r5, r6, lr, ror #20
	and.w	r3, r8, lr, ror #12
	adds	r2, r5, r3
	str	r2, [sp, #64]                   @ 4-byte Spill
	ldr	r2, [sp]                        @ 4-byte Reload
	str	r4, [sp, #48]                   @ 4-byte Spill
	eor.w	r3, r2, r7
	ldr	r2, [sp, #40]                   @ 4-byte Reload
	eor.w	r4, r12, r9
	eor.w	r2, r2, r9
	eor.w	r9, r4, r3
	and.w	r4, r6, r9, ror #20
	and.w	r11, r8, r9, ror #12
	str	r2, [sp]                        @ 4-byte Spill
	add.w	r2, r4, r11
	and.w	r4, r6, r10, ror #20
	and.w	r11, r8, r10, ror #12
	str	r2, [sp, #40]                   @ 4-byte Spill
	add.w	r2, r4, r11
	str	r2, [sp, #32]                   @ 4-byte Spill
	ldr	r2, [sp, #28]                   @ 4-byte Reload
	ldr.w	r12, [sp, #60]                  @ 4-byte Reload
	eor.w	r4, r2, r7
	ldr	r2, [sp, #36]                   @ 4-byte Reload
	str.w	r10, [sp, #4]                   @ 4-byte Spill
	eor.w	r11, r1, r2
	eor.w	r11, r11, r4
	and.w	r1, r6, r11, ror #20
	and.w	r5, r8, r11, ror #12
	add	r1, r5
	str	r1, [sp, #36]                   @ 4-byte Spill
	ldr	r1, [sp]                        @ 4-byte Reload
	eor.w	r5, r1, r7
	ldr	r1, [sp, #44]                   @ 4-byte Reload
	eor.w	r7, r7, r12
	eors	r1, r5
	and.w	r2, r6, r1, ror #20
	and.w	r10, r8, r1, ror #12
	add	r2, r10
	str	r2, [sp, #44]                   @ 4-byte Spill
	and.w	r6, r6, r7, ror #20
	and.w	r2, r8, r7, ror #12
	add.w	r10, r6, r2
	ldr	r2, [sp, #52]                   @ 4-byte Reload
	ldr	r6, [sp, #20]                   @ 4-byte Reload
	eors	r6, r2
	ldr	r2, [sp, #48]                   @ 4-byte Reload
	eors	r2, r6
	str	r2, [sp, #52]                   @ 4-byte Spill
	ldr	r2, [sp, #16]                   @ 4-byte Reload
	eors	r3, r2
	ldr	r2, [sp, #24]                   @ 4-byte Reload
	eor.w	r8, r3, r2
	ldr	r2, [sp, #56]                   @ 4-byte Reload
	ldr	r3, [sp, #64]                   @ 4-byte Reload
	eors	r2, r3
	ldr	r3, [sp, #40]                   @ 4-byte Reload
	eor.w	lr, lr, r2
	eors	r4, r3
	ldr	r3, [sp, #32]                   @ 4-byte Reload
	ldr	r2, [sp, #44]                   @ 4-byte Reload
	eors	r5, r3
	ldr	r3, [sp, #4]                    @ 4-byte Reload
	eor.w	r4, r4, r9
	eors	r5, r3
	ldr	r3, [sp, #36]                   @ 4-byte Reload
	eor.w	r6, r12, r3
	ldr	r3, [sp, #12]                   @ 4-byte Reload
	eor.w	r6, r6, r11
	eors	r3, r2
	eors	r1, r3
	ldr	r3, [sp, #8]                    @ 4-byte Reload
	ldr	r2, [sp, #52]                   @ 4-byte Reload
	eor.w	r3, r3, r10
	eors	r3, r7
	stm.w	r0, {r2, r8, lr}
	add.w	r2, r0, #12
	stm	r2!, {r4, r5, r6}
	strd	r1, r3, [r0, #24]
	add	sp, #68
	pop.w	{r4, r5, r6, r7, r8, r9, r10, r11, pc}
.Laes_v7m_small_func_end57:
	.size	aes_v7m_small.aes_planes.soft.mix_columns.inv_mix_columns_1, .Laes_v7m_small_func_end57-aes_v7m_small.aes_planes.soft.mix_columns.inv_mix_columns_1
	.cantunwind
	.fnend
                                        @ -- End function
	.section	.text.aes_v7m_small.aes_narrow.blocks.process_all_batches.2,"ax",%progbits
	.p2align	2                               @ -- Begin function aes_narrow::blocks::process_all_batches::<#a3dcb71d05bd149b>
	.type	aes_v7m_small.aes_narrow.blocks.process_all_batches.2,%function
	.code	16
	.thumb_func
aes_v7m_small.aes_narrow.blocks.process_all_batches.2: @ @aes_v7m_small.aes_narrow.blocks.process_all_batches.2
	.fnstart
@ %bb.0:                                @ %start
	.save	{r4, r5, r6, r7, r8, r9, r10, r11, lr}
	push.w	{r4, r5, r6, r7, r8, r9, r10, r11, lr}
	.pad	#20
	sub	sp, #20
	ldrd	r4, r11, [sp, #64]
	orrs.w	r1, r4, r11
	beq	.Laes_v7m_small_BB58_3
@ %bb.1:                                @ %join.5.preheader
	mov	r8, r3
	mov	r5, r2
	mov	r6, r0
	mov.w	r10, #0
	mov.w	r9, #0
	movs	r7, #0
	.p2align	2
.Laes_v7m_small_BB58_2:                               @ %join.5
                                        @ =>This Inner Loop Header: Depth=1
	subs.w	r1, r4, r9
	sbc.w	r0, r11, r7
	cmp	r1, #2
	mov.w	r2, #2
	it	hs
	movhs	r1, r2
	cmp	r0, #0
	ldr	r0, [sp, #56]
	it	ne
	movne	r1, r2
	add.w	r0, r0, r9, lsl #4
	adds.w	r9, r9, r1
	str	r0, [sp]
	mov	r0, r6
	mov	r2, r5
	mov	r3, r8
	adc	r7, r7, #0
	strd	r1, r10, [sp, #8]
	bl	aes_v7m_small.aes_soft.soft.blocks.filled_up.process_filled_up.2
	subs.w	r0, r9, r4
	sbcs.w	r0, r7, r11
	blo	.Laes_v7m_small_BB58_2
.Laes_v7m_small_BB58_3:                               @ %after.1
	add	sp, #20
	pop.w	{r4, r5, r6, r7, r8, r9, r10, r11, pc}
.Laes_v7m_small_func_end58:
	.size	aes_v7m_small.aes_narrow.blocks.process_all_batches.2, .Laes_v7m_small_func_end58-aes_v7m_small.aes_narrow.blocks.process_all_batches.2
	.cantunwind
	.fnend
                                        @ -- End function
	.section	.text.aes_v7m_small.key_wrap.wrapping.unwrap,"ax",%progbits
	.p2align	2                               @ -- Begin function key_wrap::wrapping::unwrap::<#10c636071cb6e37c>
	.type	aes_v7m_small.key_wrap.wrapping.unwrap,%function
	.code	16
	.thumb_func
aes_v7m_small.key_wrap.wrapping.unwrap: @ @aes_v7m_small.key_wrap.wrapping.unwrap
	.fnstart
@ %bb.0:                                @ %start
	.save	{r4, r5, r6, r7, r8, r9, r10, r11, lr}
	push.w	{r4, r5, r6, r7, r8, r9, r10, r11, lr}
	.pad	#60
	sub	sp, #60
	ldrd	r11, r8, [sp, #104]
	mov	r4, r0
	adds.w	r7, r11, #1
	adc	r5, r8, #0
	subs.w	r0, r11, #2
	sbcs	r0, r8, #0
	mov.w	r0, #1
	mov.w	r6, #0
	blo.w	.Laes_v7m_small_BB59_19
@ %bb.1:                                @ %start
	eors	r7, r2
	eors	r5, r3
	orrs	r7, r5
	bne.w	.Laes_v7m_small_BB59_19
@ %bb.2:                                @ %after.1
	ldr.w	r10, [sp, #96]
	subs	r0, r2, #1
	add.w	r6, r1, #8
	sbc	lr, r3, #0
	lsl.w	r2, lr, #3
	subs.w	r7, r10, r6
	mov.w	r5, #0
	orr.w	r2, r2, r0, lsr #29
	sbc	r5, r5, #0
	subs.w	r7, r7, r0, lsl #3
	sbcs.w	r2, r5, r2
	str	r4, [sp, #28]                   @ 4-byte Spill
	bhs	.Laes_v7m_small_BB59_5
@ %bb.3:                                @ %join.7.i.i.i.i.i.i.i.i.preheader
	cmp	r0, #1
	mov.w	r7, #1
	mov.w	r2, #1
	it	hi
	movhi	r7, r0
	cmp.w	lr, #0
	ite	ne
	movne	r2, r0
	moveq	r2, r7
	subs	r0, #4
	sbcs	r0, lr, #0
	and	r12, r2, #3
	bhs	.Laes_v7m_small_BB59_6
@ %bb.4:
	movs	r2, #0
	b	.Laes_v7m_small_BB59_9
.Laes_v7m_small_BB59_5:                               @ %apart.2.i.i.i.i.i.i.i.i
	lsls	r2, r0, #3
	mov	r0, r10
	mov	r4, r1
	mov	r1, r6
	bl	memmove
	mov	r1, r4
	b	.Laes_v7m_small_BB59_12
.Laes_v7m_small_BB59_6:                               @ %join.7.i.i.i.i.i.i.i.i.preheader.new
	mov	r9, r8
	bic	r8, r2, #3
	movs	r2, #0
	movs	r4, #0
	.p2align	2
.Laes_v7m_small_BB59_7:                               @ %join.7.i.i.i.i.i.i.i.i
                                        @ =>This Inner Loop Header: Depth=1
	add.w	r0, r6, r2, lsl #3
	ldr.w	r3, [r6, r2, lsl #3]
	ldr	r0, [r0, #4]
	add.w	r5, r10, r2, lsl #3
	str.w	r3, [r10, r2, lsl #3]
	str	r0, [r5, #4]
	orr	r0, r2, #1
	add.w	r5, r6, r0, lsl #3
	ldr.w	r7, [r6, r0, lsl #3]
	ldr	r5, [r5, #4]
	add.w	r3, r10, r0, lsl #3
	str.w	r7, [r10, r0, lsl #3]
	orr	r0, r2, #2
	str	r5, [r3, #4]
	add.w	r5, r6, r0, lsl #3
	ldr.w	r7, [r6, r0, lsl #3]
	ldr	r5, [r5, #4]
	add.w	r3, r10, r0, lsl #3
	str.w	r7, [r10, r0, lsl #3]
	str	r5, [r3, #4]
	orr	r0, r2, #3
	ldr.w	r7, [r6, r0, lsl #3]
	adds	r2, #4
	add.w	r5, r6, r0, lsl #3
	adc	r4, r4, #0
	add.w	r3, r10, r0, lsl #3
	ldr	r5, [r5, #4]
	str.w	r7, [r10, r0, lsl #3]
	eor.w	r0, r2, r8
	eor.w	r7, r4, lr
	orrs	r0, r7
	str	r5, [r3, #4]
	bne	.Laes_v7m_small_BB59_7
@ %bb.8:                                @ %"key_wrap::wrapping::copy_apart.exit.i.loopexit.unr-lcssa"
	cmp.w	r12, #0
	mov	r8, r9
	beq	.Laes_v7m_small_BB59_12
.Laes_v7m_small_BB59_9:                               @ %join.7.i.i.i.i.i.i.i.i.epil.preheader
	add.w	r3, r6, r2, lsl #3
	ldr.w	r7, [r6, r2, lsl #3]
	ldr	r3, [r3, #4]
	add.w	r0, r10, r2, lsl #3
	cmp.w	r12, #1
	str.w	r7, [r10, r2, lsl #3]
	str	r3, [r0, #4]
	beq	.Laes_v7m_small_BB59_12
@ %bb.10:                               @ %join.7.i.i.i.i.i.i.i.i.epil.1
	adds	r0, r2, #1
	add.w	r7, r6, r0, lsl #3
	ldr.w	r5, [r6, r0, lsl #3]
	ldr	r7, [r7, #4]
	add.w	r3, r10, r0, lsl #3
	cmp.w	r12, #2
	str.w	r5, [r10, r0, lsl #3]
	str	r7, [r3, #4]
	beq	.Laes_v7m_small_BB59_12
@ %bb.11:                               @ %join.7.i.i.i.i.i.i.i.i.epil.2
	adds	r0, r2, #2
	add.w	r3, r6, r0, lsl #3
	ldr.w	r7, [r6, r0, lsl #3]
	ldr	r3, [r3, #4]
	add.w	r2, r10, r0, lsl #3
	str.w	r7, [r10, r0, lsl #3]
	str	r3, [r2, #4]
.Laes_v7m_small_BB59_12:                              @ %"key_wrap::wrapping::copy_apart.exit.i"
	ldr.w	r9, [r1]
	ldr.w	r10, [r1, #4]
	movs	r0, #0
	movs	r1, #0
	.p2align	2
.Laes_v7m_small_BB59_13:                              @ %join.5.lr.ph.i.i.i
                                        @ =>This Loop Header: Depth=1
                                        @     Child Loop BB59_14 Depth 2
	str	r0, [sp, #24]                   @ 4-byte Spill
	rsbs.w	r0, r0, #5
	umull	r7, r2, r0, r11
	mov.w	r3, #0
	sbcs	r3, r1
	mla	r0, r0, r8, r2
	str	r1, [sp, #20]                   @ 4-byte Spill
	mul	r3, r3, r11
	adds	r1, r7, #1
	adcs	r0, r3
	movs	r7, #0
	movs	r4, #0
	str	r1, [sp, #36]                   @ 4-byte Spill
	str	r0, [sp, #32]                   @ 4-byte Spill
	.p2align	2
.Laes_v7m_small_BB59_14:                              @ %join.5.i.i.i
                                        @   Parent Loop BB59_13 Depth=1
                                        @ =>  This Inner Loop Header: Depth=2
	mvns	r1, r7
	adds.w	r5, r11, r1
	ldr	r1, [sp, #36]                   @ 4-byte Reload
	mvn.w	r0, r4
	ldr	r2, [sp, #32]                   @ 4-byte Reload
	adc.w	r0, r0, r8
	adds	r1, r1, r5
	ldr.w	r8, [sp, #96]
	adcs	r0, r2
	rev	r0, r0
	rev	r1, r1
	add.w	r11, r8, r5, lsl #3
	eor.w	r0, r0, r9
	eor.w	r1, r1, r10
	add	r3, sp, #40
	ldr.w	r6, [r11, #4]
	ldr.w	r2, [r8, r5, lsl #3]
	stm	r3!, {r0, r1, r2}
	ldr	r1, [sp, #28]                   @ 4-byte Reload
	str	r6, [sp, #52]
	ldr	r0, [r1]
	ldr	r2, [r1, #8]
	ldr	r3, [r1, #12]
	movs	r1, #0
	movs	r6, #1
	strd	r6, r1, [sp, #8]
	add	r6, sp, #40
	str	r6, [sp]
	bl	aes_v7m_small.aes_narrow.blocks.process_all_batches.2
	bl	aes_v7m_small.aes_cipher.zeroize.stack.wipe_stack.1024
	ldrd	r0, r1, [sp, #48]
	ldrd	r9, r10, [sp, #40]
	str.w	r0, [r8, r5, lsl #3]
	str.w	r1, [r11, #4]
	ldrd	r11, r8, [sp, #104]
	mov	r0, r6
	bl	aes_v7m_small.aes_cipher.zeroize.elements.zeroize_elements.3
	adds	r7, #1
	adc	r4, r4, #0
	subs.w	r0, r7, r11
	sbcs.w	r0, r4, r8
	blo	.Laes_v7m_small_BB59_14
@ %bb.15:                               @ %"key_wrap::steps::unwrap_turn::<#10c636071cb6e37c>.exit.i.i"
                                        @   in Loop: Header=BB59_13 Depth=1
	ldr	r2, [sp, #24]                   @ 4-byte Reload
	ldr	r3, [sp, #20]                   @ 4-byte Reload
	adds	r0, r2, #1
	adc	r1, r3, #0
	subs	r2, #5
	sbcs	r2, r3, #0
	blo	.Laes_v7m_small_BB59_13
@ %bb.16:                               @ %"key_wrap::wrapping::unwrap_all::<#10c636071cb6e37c>.exit"
	mov.w	r0, #-1499027802
	movw	r1, :lower16:.Laes_v7m_small_static.2
	strd	r0, r0, [sp, #48]
	movt	r1, :upper16:.Laes_v7m_small_static.2
	add	r0, sp, #40
	strd	r9, r10, [sp, #40]
	bl	aes_v7m_small.aes_cipher.blocks.difference
	mov.w	r6, #0
	cbz	r0, .Laes_v7m_small_BB59_18
@ %bb.17:                               @ %loop.5.preheader.i
	subs.w	r4, r11, #1
	sbc	r0, r8, #0
	cmp	r4, #1
	mov.w	r1, #1
	it	hi
	movhi	r1, r4
	cmp	r0, #0
	mov.w	r0, #1
	ldr	r7, [sp, #96]
	ite	ne
	movne	r0, r4
	moveq	r0, r1
	lsls	r2, r0, #3
	mov	r0, r7
	movs	r1, #0
	movs	r5, #1
	bl	memset
	add.w	r1, r7, r4, lsl #3
	mov	r0, r5
	str.w	r6, [r7, r4, lsl #3]
	str	r6, [r1, #4]
	movs	r6, #1
	b	.Laes_v7m_small_BB59_19
.Laes_v7m_small_BB59_18:
	movs	r0, #0
.Laes_v7m_small_BB59_19:                              @ %return.10
	mov	r1, r6
	add	sp, #60
	pop.w	{r4, r5, r6, r7, r8, r9, r10, r11, pc}
.Laes_v7m_small_func_end59:
	.size	aes_v7m_small.key_wrap.wrapping.unwrap, .Laes_v7m_small_func_end59-aes_v7m_small.key_wrap.wrapping.unwrap
	.cantunwind
	.fnend
                                        @ -- End function
	.section	.text.aes_v7m_small.aes_cipher.zeroize.elements.zeroize_elements.3,"ax",%progbits
	.p2align	2                               @ -- Begin function aes_cipher::zeroize::elements::zeroize_elements::<#51e2d7e6a2c2e10f>
	.type	aes_v7m_small.aes_cipher.zeroize.elements.zeroize_elements.3,%function
	.code	16
	.thumb_func
aes_v7m_small.aes_cipher.zeroize.elements.zeroize_elements.3: @ @aes_v7m_small.aes_cipher.zeroize.elements.zeroize_elements.3
	.fnstart
@ %bb.0:                                @ %start
	.pad	#8
	sub	sp, #8
	movs	r1, #0
	strd	r1, r1, [sp]
	@APP
	@NO_APP
	mov	r12, sp
	ldrd	r3, r2, [r12]
	@APP
	@NO_APP
	str	r1, [r0, #12]
	str	r1, [r0, #8]
	str	r1, [r0, #4]
	str	r1, [r0]
	@APP
	@NO_APP
	ldrd	r0, r2, [r12]
	strd	r1, r1, [r12]
	@APP
	@NO_APP
	add	sp, #8
	bx	lr
.Laes_v7m_small_func_end60:
	.size	aes_v7m_small.aes_cipher.zeroize.elements.zeroize_elements.3, .Laes_v7m_small_func_end60-aes_v7m_small.aes_cipher.zeroize.elements.zeroize_elements.3
	.cantunwind
	.fnend
                                        @ -- End function
	.section	.text.aes_v7m_small.aes_cipher.blocks.difference,"ax",%progbits
	.p2align	2                               @ -- Begin function aes_cipher::blocks::difference
	.type	aes_v7m_small.aes_cipher.blocks.difference,%function
	.code	16
	.thumb_func
aes_v7m_small.aes_cipher.blocks.difference:       @ @aes_v7m_small.aes_cipher.blocks.difference
	.fnstart
@ %bb.0:                                @ %start
	.save	{r4, r5, r6, r7, lr}
	push	{r4, r5, r6, r7, lr}
	ldrb	r2, [r0]
	ldrb	r3, [r0, #1]
	ldrb	r4, [r1]
	ldrb	r5, [r1, #1]
	ldrb.w	r12, [r0, #2]
	ldrb	r6, [r1, #2]
	ldrb.w	lr, [r0, #3]
	ldrb	r7, [r1, #3]
	eors	r2, r4
	eors	r3, r5
	orrs	r2, r3
	eor.w	r3, r6, r12
	orrs	r2, r3
	eor.w	r3, r7, lr
	ldrb	r7, [r0, #4]
	ldrb	r6, [r1, #4]
	orrs	r2, r3
	eor.w	r3, r6, r7
	ldrb	r7, [r0, #5]
	ldrb	r6, [r1, #5]
	orrs	r2, r3
	eor.w	r3, r6, r7
	ldrb	r7, [r0, #6]
	ldrb	r6, [r1, #6]
	orrs	r2, r3
	eor.w	r3, r6, r7
	ldrb	r7, [r0, #7]
	ldrb	r6, [r1, #7]
	orrs	r2, r3
	eor.w	r3, r6, r7
	ldrb	r7, [r0, #8]
	ldrb	r6, [r1, #8]
	orrs	r2, r3
	eor.w	r3, r6, r7
	ldrb	r7, [r0, #9]
	ldrb	r6, [r1, #9]
	orrs	r2, r3
	eor.w	r3, r6, r7
	ldrb	r7, [r0, #10]
	ldrb	r6, [r1, #10]
	orrs	r2, r3
	eor.w	r3, r6, r7
	ldrb	r7, [r0, #11]
	ldrb	r6, [r1, #11]
	orrs	r2, r3
	eor.w	r3, r6, r7
	ldrb	r7, [r0, #12]
	ldrb	r6, [r1, #12]
	orrs	r2, r3
	eor.w	r3, r6, r7
	ldrb	r7, [r0, #13]
	ldrb	r6, [r1, #13]
	orrs	r2, r3
	eor.w	r3, r6, r7
	ldrb	r7, [r0, #14]
	ldrb	r6, [r1, #14]
	ldrb	r0, [r0, #15]
	ldrb	r1, [r1, #15]
	orrs	r2, r3
	eor.w	r3, r6, r7
	orrs	r2, r3
	eors	r0, r1
	orrs	r0, r2
	pop	{r4, r5, r6, r7, pc}
.Laes_v7m_small_func_end61:
	.size	aes_v7m_small.aes_cipher.blocks.difference, .Laes_v7m_small_func_end61-aes_v7m_small.aes_cipher.blocks.difference
	.cantunwind
	.fnend
                                        @ -- End function
	.section	.text.aes_v7m_small.key_wrap.padded.unwrap_padded,"ax",%progbits
	.p2align	2                               @ -- Begin function key_wrap::padded::unwrap_padded::<#10c636071cb6e37c>
	.type	aes_v7m_small.key_wrap.padded.unwrap_padded,%function
	.code	16
	.thumb_func
aes_v7m_small.key_wrap.padded.unwrap_padded: @ @aes_v7m_small.key_wrap.padded.unwrap_padded
	.fnstart
@ %bb.0:                                @ %start
	.save	{r4, r5, r6, r7, r8, r9, r10, r11, lr}
	push.w	{r4, r5, r6, r7, r8, r9, r10, r11, lr}
	.pad	#76
	sub	sp, #76
	ldrd	r5, r7, [sp, #128]
	mov	r11, r1
	subs.w	r10, r5, #1
	sbc	r6, r7, #0
	orr.w	r3, r6, r10, lsr #29
	adds	r1, r5, #1
	adc	r7, r7, #0
	cmp	r3, #0
	mov	r9, r0
	itttt	eq
	ldrdeq	r4, r3, [sp, #112]
	eoreq	r1, r4
	eoreq	r7, r3
	orrseq.w	r1, r1, r7
	beq	.Laes_v7m_small_BB62_2
@ %bb.1:                                @ %join.5
	movs	r0, #1
	b	.Laes_v7m_small_BB62_25
.Laes_v7m_small_BB62_2:                               @ %after.1
	ldr	r0, [sp, #120]
	subs	r4, #1
	add.w	r1, r2, #8
	sbc	lr, r3, #0
	str	r6, [sp, #24]                   @ 4-byte Spill
	lsl.w	r3, lr, #3
	subs	r7, r0, r1
	mov.w	r6, #0
	orr.w	r3, r3, r4, lsr #29
	sbc	r6, r6, #0
	subs.w	r7, r7, r4, lsl #3
	sbcs.w	r3, r6, r3
	str.w	r11, [sp, #28]                  @ 4-byte Spill
	bhs	.Laes_v7m_small_BB62_5
@ %bb.3:                                @ %join.7.i.i.i.i.i.i.i.preheader
	cmp	r4, #1
	mov.w	r7, #1
	mov.w	r3, #1
	it	hi
	movhi	r7, r4
	cmp.w	lr, #0
	ite	ne
	movne	r3, r4
	moveq	r3, r7
	subs	r7, r4, #4
	sbcs	r7, lr, #0
	and	r12, r3, #3
	bhs	.Laes_v7m_small_BB62_6
@ %bb.4:
	movs	r3, #0
	b	.Laes_v7m_small_BB62_9
.Laes_v7m_small_BB62_5:                               @ %apart.2.i.i.i.i.i.i.i
	lsls	r3, r4, #3
	mov	r6, r2
	mov	r2, r3
	bl	memmove
	mov	r2, r6
	b	.Laes_v7m_small_BB62_12
.Laes_v7m_small_BB62_6:                               @ %join.7.i.i.i.i.i.i.i.preheader.new
	mov	r11, r0
	bic	r8, r3, #3
	movs	r3, #0
	movs	r6, #0
	.p2align	2
.Laes_v7m_small_BB62_7:                               @ %join.7.i.i.i.i.i.i.i
                                        @ =>This Inner Loop Header: Depth=1
	add.w	r0, r1, r3, lsl #3
	ldr.w	r5, [r1, r3, lsl #3]
	ldr	r0, [r0, #4]
	add.w	r4, r11, r3, lsl #3
	str.w	r5, [r11, r3, lsl #3]
	str	r0, [r4, #4]
	orr	r0, r3, #1
	add.w	r5, r1, r0, lsl #3
	ldr.w	r7, [r1, r0, lsl #3]
	ldr	r5, [r5, #4]
	add.w	r4, r11, r0, lsl #3
	str.w	r7, [r11, r0, lsl #3]
	orr	r0, r3, #2
	str	r5, [r4, #4]
	add.w	r5, r1, r0, lsl #3
	ldr.w	r7, [r1, r0, lsl #3]
	ldr	r5, [r5, #4]
	add.w	r4, r11, r0, lsl #3
	str.w	r7, [r11, r0, lsl #3]
	str	r5, [r4, #4]
	orr	r0, r3, #3
	ldr.w	r7, [r1, r0, lsl #3]
	adds	r3, #4
	add.w	r5, r1, r0, lsl #3
	adc	r6, r6, #0
	add.w	r4, r11, r0, lsl #3
	ldr	r5, [r5, #4]
	str.w	r7, [r11, r0, lsl #3]
	eor.w	r0, r3, r8
	eor.w	r7, r6, lr
	orrs	r0, r7
	str	r5, [r4, #4]
	bne	.Laes_v7m_small_BB62_7
@ %bb.8:                                @ %"key_wrap::wrapping::copy_apart.exit.loopexit.unr-lcssa"
	ldr	r5, [sp, #128]
	mov	r0, r11
	ldr.w	r11, [sp, #28]                  @ 4-byte Reload
	cmp.w	r12, #0
	beq	.Laes_v7m_small_BB62_12
.Laes_v7m_small_BB62_9:                               @ %join.7.i.i.i.i.i.i.i.epil.preheader
	add.w	r7, r1, r3, lsl #3
	ldr.w	r6, [r1, r3, lsl #3]
	ldr	r7, [r7, #4]
	add.w	r4, r0, r3, lsl #3
	cmp.w	r12, #1
	str.w	r6, [r0, r3, lsl #3]
	str	r7, [r4, #4]
	beq	.Laes_v7m_small_BB62_12
@ %bb.10:                               @ %join.7.i.i.i.i.i.i.i.epil.1
	adds	r4, r3, #1
	add.w	r6, r1, r4, lsl #3
	mov	r7, r5
	ldr.w	r5, [r1, r4, lsl #3]
	ldr	r6, [r6, #4]
	add.w	lr, r0, r4, lsl #3
	str.w	r5, [r0, r4, lsl #3]
	mov	r5, r7
	cmp.w	r12, #2
	str.w	r6, [lr, #4]
	beq	.Laes_v7m_small_BB62_12
@ %bb.11:                               @ %join.7.i.i.i.i.i.i.i.epil.2
	adds	r6, r3, #2
	add.w	r7, r1, r6, lsl #3
	ldr.w	r1, [r1, r6, lsl #3]
	ldr	r7, [r7, #4]
	add.w	r3, r0, r6, lsl #3
	str.w	r1, [r0, r6, lsl #3]
	str	r7, [r3, #4]
.Laes_v7m_small_BB62_12:                              @ %"key_wrap::wrapping::copy_apart.exit"
	ldr	r3, [sp, #132]
	ldr.w	r8, [r2]
	ldr	r4, [r2, #4]
	eor	r0, r5, #1
	orrs	r0, r3
	bne	.Laes_v7m_small_BB62_14
@ %bb.13:                               @ %then.1.i
	ldr	r6, [sp, #120]
	ldr.w	r2, [r11, #8]
	ldr	r0, [r6, #4]
	ldr	r1, [r6]
	str	r0, [sp, #68]
	ldr.w	r0, [r11]
	ldr.w	r3, [r11, #12]
	strd	r8, r4, [sp, #56]
	str	r1, [sp, #64]
	movs	r1, #0
	movs	r7, #1
	add	r4, sp, #56
	strd	r7, r1, [sp, #8]
	str	r4, [sp]
	bl	aes_v7m_small.aes_narrow.blocks.process_all_batches.2
	bl	aes_v7m_small.aes_cipher.zeroize.stack.wipe_stack.1024
	ldrd	r0, r11, [sp, #56]
	ldrd	r1, r2, [sp, #64]
	strd	r0, r11, [sp, #48]
	mov	r0, r4
	str	r2, [r6, #4]
	str	r1, [r6]
	bl	aes_v7m_small.aes_cipher.zeroize.elements.zeroize_elements.3
	ldr	r3, [sp, #132]
	b	.Laes_v7m_small_BB62_19
.Laes_v7m_small_BB62_14:                              @ %else.2.i
	mov	r11, r4
	movs	r0, #0
	movs	r1, #0
	strd	r10, r9, [sp, #16]              @ 8-byte Folded Spill
	.p2align	2
.Laes_v7m_small_BB62_15:                              @ %join.5.i.i
                                        @ =>This Loop Header: Depth=1
                                        @     Child Loop BB62_16 Depth 2
	str	r0, [sp, #36]                   @ 4-byte Spill
	rsbs.w	r0, r0, #5
	umull	r6, r2, r0, r5
	mov.w	r7, #0
	sbcs	r7, r1
	mla	r0, r0, r3, r2
	str	r1, [sp, #32]                   @ 4-byte Spill
	muls	r7, r5, r7
	adds	r1, r6, #1
	ldr.w	r9, [sp, #28]                   @ 4-byte Reload
	adcs	r0, r7
	movs	r7, #0
	movs	r6, #0
	str	r1, [sp, #44]                   @ 4-byte Spill
	str	r0, [sp, #40]                   @ 4-byte Spill
	.p2align	2
.Laes_v7m_small_BB62_16:                              @ %join.5.i.i.i
                                        @   Parent Loop BB62_15 Depth=1
                                        @ =>  This Inner Loop Header: Depth=2
	mvns	r1, r7
	mvns	r0, r6
	adds	r4, r5, r1
	ldr	r1, [sp, #44]                   @ 4-byte Reload
	adcs	r0, r3
	ldr	r3, [sp, #120]
	ldr	r2, [sp, #40]                   @ 4-byte Reload
	adds	r1, r1, r4
	add.w	r10, r3, r4, lsl #3
	adcs	r0, r2
	rev	r0, r0
	rev	r1, r1
	ldr.w	r5, [r10, #4]
	eor.w	r0, r0, r8
	eor.w	r1, r1, r11
	ldr.w	r2, [r3, r4, lsl #3]
	add	r3, sp, #56
	stm	r3!, {r0, r1, r2}
	ldr.w	r0, [r9]
	ldr.w	r2, [r9, #8]
	ldr.w	r3, [r9, #12]
	str	r5, [sp, #68]
	movs	r1, #0
	movs	r5, #1
	strd	r5, r1, [sp, #8]
	add	r5, sp, #56
	str	r5, [sp]
	bl	aes_v7m_small.aes_narrow.blocks.process_all_batches.2
	bl	aes_v7m_small.aes_cipher.zeroize.stack.wipe_stack.1024
	ldrd	r0, r1, [sp, #64]
	ldr	r2, [sp, #120]
	ldrd	r8, r11, [sp, #56]
	str.w	r0, [r2, r4, lsl #3]
	mov	r0, r5
	ldr	r5, [sp, #128]
	str.w	r1, [r10, #4]
	bl	aes_v7m_small.aes_cipher.zeroize.elements.zeroize_elements.3
	ldr	r3, [sp, #132]
	adds	r7, #1
	adc	r6, r6, #0
	subs	r0, r7, r5
	sbcs.w	r0, r6, r3
	blo	.Laes_v7m_small_BB62_16
@ %bb.17:                               @ %"key_wrap::steps::unwrap_turn::<#10c636071cb6e37c>.exit.i.i"
                                        @   in Loop: Header=BB62_15 Depth=1
	ldr	r2, [sp, #36]                   @ 4-byte Reload
	ldr	r7, [sp, #32]                   @ 4-byte Reload
	adds	r0, r2, #1
	adc	r1, r7, #0
	subs	r2, #5
	sbcs	r2, r7, #0
	blo	.Laes_v7m_small_BB62_15
@ %bb.18:                               @ %"key_wrap::steps::unwrap_string::<#10c636071cb6e37c>.exit.loopexit"
	ldrd	r10, r9, [sp, #16]              @ 8-byte Folded Reload
	ldr	r6, [sp, #120]
	strd	r8, r11, [sp, #48]
.Laes_v7m_small_BB62_19:                              @ %"key_wrap::steps::unwrap_string::<#10c636071cb6e37c>.exit"
	add	r0, sp, #48
	mov	r1, r6
	mov	r2, r5
	mov	r4, r3
	bl	aes_v7m_small.key_wrap.padded.difference
	orrs	r0, r1
	beq	.Laes_v7m_small_BB62_27
@ %bb.20:                               @ %then.14
	orrs.w	r0, r5, r4
	beq	.Laes_v7m_small_BB62_24
@ %bb.21:                               @ %loop.5.preheader.i
	ldr	r0, [sp, #24]                   @ 4-byte Reload
	orrs.w	r0, r0, r10
	beq	.Laes_v7m_small_BB62_23
@ %bb.22:                               @ %join.8.i.preheader
	mvn	r0, #7
	add.w	r2, r0, r5, lsl #3
	mov	r0, r6
	movs	r1, #0
	bl	memset
.Laes_v7m_small_BB62_23:                              @ %after.4.i
	add.w	r0, r6, r10, lsl #3
	movs	r1, #0
	str.w	r1, [r6, r10, lsl #3]
	str	r1, [r0, #4]
.Laes_v7m_small_BB62_24:                              @ %"core::slice::edits::slice+T::fill::<#1e8902aced0720be>.exit"
	movw	r0, #257
.Laes_v7m_small_BB62_25:                              @ %common.ret
	strh.w	r0, [r9]
	movs	r0, #0
.Laes_v7m_small_BB62_26:                              @ %common.ret
	str.w	r0, [r9, #4]
	add	sp, #76
	pop.w	{r4, r5, r6, r7, r8, r9, r10, r11, pc}
.Laes_v7m_small_BB62_27:                              @ %join.16
	rev.w	r0, r11
	movs	r1, #0
	strh.w	r1, [r9]
	b	.Laes_v7m_small_BB62_26
.Laes_v7m_small_func_end62:
	.size	aes_v7m_small.key_wrap.padded.unwrap_padded, .Laes_v7m_small_func_end62-aes_v7m_small.key_wrap.padded.unwrap_padded
	.cantunwind
	.fnend
                                        @ -- End function
	.section	.text.aes_v7m_small.key_wrap.padded.difference,"ax",%progbits
	.p2align	2                               @ -- Begin function key_wrap::padded::difference
	.type	aes_v7m_small.key_wrap.padded.difference,%function
	.code	16
	.thumb_func
aes_v7m_small.key_wrap.padded.difference:         @ @aes_v7m_small.key_wrap.padded.difference
	.fnstart
@ %bb.0:                                @ %start
	.save	{r4, r5, r6, r7, r8, r9, r10, lr}
	push.w	{r4, r5, r6, r7, r8, r9, r10, lr}
	ldr	r7, [r0]
	ldr	r0, [r0, #4]
	lsls	r3, r3, #3
	rev	r0, r0
	rsbs	r9, r0, r2, lsl #3
	add.w	r5, r1, r2, lsl #3
	and	r4, r9, #7
	orr.w	r3, r3, r2, lsr #29
	ldrb	r6, [r5, #-1]
	mov.w	r0, #0
	mov	r1, r4
	rev.w	r8, r7
	sbc	r10, r3, #0
	bl	aes_v7m_small.key_wrap.padded.mask_below
	ldrb	r7, [r5, #-2]
	ands	r6, r0
	movs	r0, #1
	mov	r1, r4
	bl	aes_v7m_small.key_wrap.padded.mask_below
	ands	r0, r7
	ldrb	r7, [r5, #-3]
	orrs	r6, r0
	movs	r0, #2
	mov	r1, r4
	bl	aes_v7m_small.key_wrap.padded.mask_below
	ands	r0, r7
	ldrb	r7, [r5, #-4]
	orrs	r6, r0
	movs	r0, #3
	mov	r1, r4
	bl	aes_v7m_small.key_wrap.padded.mask_below
	ands	r0, r7
	ldrb	r7, [r5, #-5]
	orrs	r6, r0
	movs	r0, #4
	mov	r1, r4
	bl	aes_v7m_small.key_wrap.padded.mask_below
	ands	r0, r7
	ldrb	r7, [r5, #-6]
	orrs	r6, r0
	movs	r0, #5
	mov	r1, r4
	bl	aes_v7m_small.key_wrap.padded.mask_below
	ands	r0, r7
	ldrb	r7, [r5, #-7]
	orrs	r6, r0
	movs	r0, #6
	mov	r1, r4
	bl	aes_v7m_small.key_wrap.padded.mask_below
	ands	r0, r7
	ldrb	r5, [r5, #-8]
	orrs	r6, r0
	movs	r0, #7
	mov	r1, r4
	bl	aes_v7m_small.key_wrap.padded.mask_below
	movw	r1, #42586
	ands	r0, r5
	movt	r1, #22950
	lsr.w	r3, r9, #3
	orrs	r0, r6
	add.w	r2, r8, r1
	orr.w	r3, r3, r10, lsl #29
	orrs	r2, r3
	uxtb	r0, r0
	lsr.w	r1, r10, #3
	orrs	r0, r2
	pop.w	{r4, r5, r6, r7, r8, r9, r10, pc}
.Laes_v7m_small_func_end63:
	.size	aes_v7m_small.key_wrap.padded.difference, .Laes_v7m_small_func_end63-aes_v7m_small.key_wrap.padded.difference
	.cantunwind
	.fnend
                                        @ -- End function
	.section	.text.aes_v7m_small.key_wrap.padded.mask_below,"ax",%progbits
	.p2align	2                               @ -- Begin function key_wrap::padded::mask_below
	.type	aes_v7m_small.key_wrap.padded.mask_below,%function
	.code	16
	.thumb_func
aes_v7m_small.key_wrap.padded.mask_below:         @ @aes_v7m_small.key_wrap.padded.mask_below
	.fnstart
@ %bb.0:                                @ %start
	subs	r0, r0, r1
	lsrs	r0, r0, #24
	bx	lr
.Laes_v7m_small_func_end64:
	.size	aes_v7m_small.key_wrap.padded.mask_below, .Laes_v7m_small_func_end64-aes_v7m_small.key_wrap.padded.mask_below
	.cantunwind
	.fnend
                                        @ -- End function
	.section	.text.aes_v7m_small.aes_c.single_rounds.inverse_mixed,"ax",%progbits
	.p2align	2                               @ -- Begin function aes_c::single_rounds::inverse_mixed
	.type	aes_v7m_small.aes_c.single_rounds.inverse_mixed,%function
	.code	16
	.thumb_func
aes_v7m_small.aes_c.single_rounds.inverse_mixed:  @ @aes_v7m_small.aes_c.single_rounds.inverse_mixed
	.fnstart
@ %bb.0:                                @ %start
	.save	{r4, r5, r7, lr}
	push	{r4, r5, r7, lr}
	.pad	#64
	sub	sp, #64
	mov	r4, r0
	ldr	r0, [r0]
	ldr	r1, [r4, #4]
	ldr	r2, [r4, #8]
	ldr	r3, [r4, #12]
	mov	r5, sp
	strd	r0, r0, [sp, #32]
	strd	r1, r1, [sp, #40]
	add	r1, sp, #32
	mov	r0, r5
	strd	r2, r2, [sp, #48]
	strd	r3, r3, [sp, #56]
	bl	aes_v7m_small.aes_planes.soft.word.transpose.transpose
	mov	r0, r5
	bl	aes_v7m_small.aes_planes.soft.mix_columns.inv_mix_columns_0
	add	r0, sp, #32
	mov	r1, r5
	bl	aes_v7m_small.aes_planes.soft.word.transpose.transpose
	ldr	r0, [sp, #32]
	ldr	r1, [sp, #40]
	ldr	r2, [sp, #48]
	ldr	r3, [sp, #56]
	str	r0, [r4]
	str	r1, [r4, #4]
	str	r2, [r4, #8]
	str	r3, [r4, #12]
	add	sp, #64
	pop	{r4, r5, r7, pc}
.Laes_v7m_small_func_end65:
	.size	aes_v7m_small.aes_c.single_rounds.inverse_mixed, .Laes_v7m_small_func_end65-aes_v7m_small.aes_c.single_rounds.inverse_mixed
	.cantunwind
	.fnend
                                        @ -- End function
	.section	.text.aes_v7m_small.aes_c.single_rounds.inverse_round,"ax",%progbits
	.p2align	2                               @ -- Begin function aes_c::single_rounds::inverse_round
	.type	aes_v7m_small.aes_c.single_rounds.inverse_round,%function
	.code	16
	.thumb_func
aes_v7m_small.aes_c.single_rounds.inverse_round:  @ @aes_v7m_small.aes_c.single_rounds.inverse_round
	.fnstart
@ %bb.0:                                @ %start
	.save	{r4, r5, r6, r7, r8, r9, r10, r11, lr}
	push.w	{r4, r5, r6, r7, r8, r9, r10, r11, lr}
	.pad	#92
	sub	sp, #92
	mov	r4, r0
	mov	r5, r1
	ldr	r0, [r0]
	ldr	r1, [r4, #4]
	ldr	r2, [r4, #8]
	ldr	r3, [r4, #12]
	add	r6, sp, #28
	strd	r0, r0, [sp, #60]
	strd	r1, r1, [sp, #68]
	add	r1, sp, #60
	mov	r0, r6
	strd	r2, r2, [sp, #76]
	strd	r3, r3, [sp, #84]
	bl	aes_v7m_small.aes_planes.soft.word.transpose.transpose
	mov	r0, r6
	bl	aes_v7m_small.aes_planes.soft.sbox.sub_bytes_nots
	mov	r0, r6
	bl	aes_v7m_small.aes_planes.soft.sbox.inv_sub_bytes
	movw	r2, #3072
	movt	r2, #783
	mov	r0, r6
	movs	r1, #4
	bl	aes_v7m_small.aes_planes.soft.shifts.swap_columns
	mov	r0, r6
	movs	r1, #2
	mov.w	r2, #855651072
	bl	aes_v7m_small.aes_planes.soft.shifts.swap_columns
	mov	r0, r6
	bl	aes_v7m_small.aes_planes.soft.mix_columns.inv_mix_columns_0
	add	r0, sp, #60
	mov	r1, r6
	bl	aes_v7m_small.aes_planes.soft.word.transpose.transpose
	ldrb	r2, [r5, #4]
	ldr	r0, [sp, #84]
	str	r2, [sp, #8]                    @ 4-byte Spill
	ldrb	r2, [r5, #5]
	ldrb.w	r9, [r5, #12]
	str	r2, [sp, #4]                    @ 4-byte Spill
	ldrb	r2, [r5, #14]
	ldrb.w	r8, [r5, #13]
	ldrb.w	lr, [r5, #15]
	eor.w	r2, r2, r0, lsr #16
	eor.w	r7, lr, r0, lsr #24
	str	r2, [sp, #20]                   @ 4-byte Spill
	eor.w	r2, r8, r0, lsr #8
	eor.w	r0, r0, r9
	ldr	r3, [sp, #68]
	ldr	r1, [sp, #76]
	ldrb.w	r11, [r5, #7]
	ldrb.w	r10, [r5, #8]
	str	r0, [sp, #12]                   @ 4-byte Spill
	ldr	r0, [sp, #4]                    @ 4-byte Reload
	ldrb	r6, [r5, #9]
	ldrb.w	r12, [r5, #11]
	str	r2, [sp, #16]                   @ 4-byte Spill
	ldrb	r2, [r5, #10]
	eor.w	lr, r10, r1
	eor.w	r10, r11, r3, lsr #24
	eor.w	r11, r0, r3, lsr #8
	ldr	r0, [sp, #8]                    @ 4-byte Reload
	str	r7, [sp, #24]                   @ 4-byte Spill
	eor.w	r9, r12, r1, lsr #24
	eor.w	r8, r2, r1, lsr #16
	eor.w	r6, r6, r1, lsr #8
	ldrb	r7, [r5, #6]
	eor.w	r12, r0, r3
	ldr	r0, [sp, #60]
	ldrb	r1, [r5, #3]
	eor.w	r7, r7, r3, lsr #16
	ldrb	r2, [r5, #2]
	eor.w	r3, r1, r0, lsr #24
	ldrb	r1, [r5, #1]
	ldrb	r5, [r5]
	eor.w	r2, r2, r0, lsr #16
	eor.w	r1, r1, r0, lsr #8
	eors	r0, r5
	strb	r0, [r4]
	ldr	r0, [sp, #12]                   @ 4-byte Reload
	strb	r1, [r4, #1]
	strb	r0, [r4, #12]
	ldr	r0, [sp, #16]                   @ 4-byte Reload
	strb	r2, [r4, #2]
	strb	r0, [r4, #13]
	ldr	r0, [sp, #20]                   @ 4-byte Reload
	strb	r3, [r4, #3]
	strb	r0, [r4, #14]
	ldr	r0, [sp, #24]                   @ 4-byte Reload
	strb.w	r12, [r4, #4]
	strb.w	r11, [r4, #5]
	strb	r7, [r4, #6]
	strb.w	r10, [r4, #7]
	strb.w	lr, [r4, #8]
	strb	r6, [r4, #9]
	strb.w	r8, [r4, #10]
	strb.w	r9, [r4, #11]
	strb	r0, [r4, #15]
	add	sp, #92
	pop.w	{r4, r5, r6, r7, r8, r9, r10, r11, pc}
.Laes_v7m_small_func_end66:
	.size	aes_v7m_small.aes_c.single_rounds.inverse_round, .Laes_v7m_small_func_end66-aes_v7m_small.aes_c.single_rounds.inverse_round
	.cantunwind
	.fnend
                                        @ -- End function
	.section	.text.aes_v7m_small.aes_c.single_rounds.inverse_rounds,"ax",%progbits
	.p2align	2                               @ -- Begin function aes_c::single_rounds::inverse_rounds
	.type	aes_v7m_small.aes_c.single_rounds.inverse_rounds,%function
	.code	16
	.thumb_func
aes_v7m_small.aes_c.single_rounds.inverse_rounds: @ @aes_v7m_small.aes_c.single_rounds.inverse_rounds
	.fnstart
@ %bb.0:                                @ %start
	.save	{r4, r5, r6, r7, r8, r9, r10, r11, lr}
	push.w	{r4, r5, r6, r7, r8, r9, r10, r11, lr}
	.pad	#124
	sub	sp, #124
	mov.w	r10, #0
	mov.w	r9, #0
	str	r1, [sp]                        @ 4-byte Spill
	str	r0, [sp, #56]                   @ 4-byte Spill
	.p2align	2
.Laes_v7m_small_BB67_1:                               @ %join.5.i.i
                                        @ =>This Inner Loop Header: Depth=1
	mov	r11, r10
	lsl.w	r8, r11, #4
	add.w	r5, r0, r11, lsl #4
	ldr.w	r0, [r0, r8]
	ldr	r6, [r5, #16]
	ldr	r1, [r5, #4]
	ldr	r2, [r5, #8]
	ldr	r4, [r5, #20]
	ldr	r3, [r5, #28]
	strd	r0, r6, [sp, #92]
	add	r0, sp, #108
	add	r6, sp, #60
	adds.w	r10, r10, #2
	ldr.w	r12, [r5, #12]
	ldr	r7, [r5, #24]
	strd	r1, r4, [sp, #100]
	stm.w	r0, {r2, r7, r12}
	add	r1, sp, #92
	mov	r0, r6
	str.w	r9, [sp, #52]                   @ 4-byte Spill
	adc	r9, r9, #0
	str	r3, [sp, #120]
	bl	aes_v7m_small.aes_planes.soft.word.transpose.transpose
	mov	r0, r6
	bl	aes_v7m_small.aes_planes.soft.sbox.sub_bytes_nots
	mov	r0, r6
	bl	aes_v7m_small.aes_planes.soft.sbox.inv_sub_bytes
	movw	r2, #3072
	movt	r2, #783
	mov	r0, r6
	movs	r1, #4
	bl	aes_v7m_small.aes_planes.soft.shifts.swap_columns
	mov	r0, r6
	movs	r1, #2
	mov.w	r2, #855651072
	bl	aes_v7m_small.aes_planes.soft.shifts.swap_columns
	mov	r0, r6
	bl	aes_v7m_small.aes_planes.soft.mix_columns.inv_mix_columns_0
	add	r0, sp, #92
	mov	r1, r6
	bl	aes_v7m_small.aes_planes.soft.word.transpose.transpose
	ldrd	r0, lr, [sp, #92]
	ldr	r1, [sp, #56]                   @ 4-byte Reload
	add	r7, sp, #100
	str.w	r0, [r1, r8]
	subs.w	r1, r11, #6
	ldr	r1, [sp, #52]                   @ 4-byte Reload
	ldm	r7, {r2, r3, r7}
	ldrd	r6, r4, [sp, #112]
	ldr.w	r12, [sp, #120]
	ldr	r0, [sp, #56]                   @ 4-byte Reload
	sbcs	r1, r1, #0
	str	r2, [r5, #4]
	str	r7, [r5, #8]
	str	r4, [r5, #12]
	str.w	lr, [r5, #16]
	str	r3, [r5, #20]
	str	r6, [r5, #24]
	str.w	r12, [r5, #28]
	blo	.Laes_v7m_small_BB67_1
@ %bb.2:                                @ %join.5.i2.i.preheader
	movs	r7, #0
	movs	r6, #0
	.p2align	2
.Laes_v7m_small_BB67_3:                               @ %join.5.i2.i
                                        @ =>This Inner Loop Header: Depth=1
	ldr	r1, [sp]                        @ 4-byte Reload
	str	r6, [sp, #24]                   @ 4-byte Spill
	add.w	r2, r1, r7, lsl #4
	ldrb	r6, [r2, #1]
	lsls	r5, r7, #4
	str	r6, [sp, #52]                   @ 4-byte Spill
	ldrb	r6, [r2, #2]
	ldrb	r3, [r0, r5]
	str	r6, [sp, #48]                   @ 4-byte Spill
	ldrb	r6, [r2, #3]
	ldrb	r1, [r1, r5]
	str	r6, [sp, #44]                   @ 4-byte Spill
	ldrb	r6, [r2, #4]
	ldrb.w	r9, [r2, #5]
	str	r6, [sp, #40]                   @ 4-byte Spill
	ldrb	r6, [r2, #6]
	eors	r3, r1
	str	r6, [sp, #36]                   @ 4-byte Spill
	ldrb	r6, [r2, #7]
	ldrb	r1, [r2, #10]
	str	r6, [sp, #28]                   @ 4-byte Spill
	ldrb	r6, [r2, #8]
	ldrb.w	lr, [r2, #11]
	str	r6, [sp, #20]                   @ 4-byte Spill
	ldrb	r6, [r2, #9]
	ldrb.w	r12, [r2, #12]
	ldrb.w	r8, [r2, #13]
	ldrb	r4, [r2, #14]
	ldrb.w	r11, [r2, #15]
	add.w	r2, r0, r7, lsl #4
	ldrb.w	r10, [r2, #15]
	strb	r3, [r0, r5]
	eor.w	r0, r11, r10
	str	r0, [sp, #32]                   @ 4-byte Spill
	ldrb	r0, [r2, #14]
	ldrb	r5, [r2, #13]
	str	r7, [sp, #16]                   @ 4-byte Spill
	eors	r0, r4
	ldrb	r7, [r2, #11]
	str	r0, [sp, #12]                   @ 4-byte Spill
	eor.w	r0, r8, r5
	ldrb	r5, [r2, #12]
	eor.w	r10, lr, r7
	ldrb	r7, [r2, #9]
	str	r0, [sp, #8]                    @ 4-byte Spill
	eor.w	r0, r12, r5
	str	r0, [sp, #4]                    @ 4-byte Spill
	eor.w	lr, r6, r7
	ldrb	r7, [r2, #8]
	ldr	r0, [sp, #20]                   @ 4-byte Reload
	ldrb	r5, [r2, #10]
	ldrb	r6, [r2, #7]
	eors	r7, r0
	ldr	r0, [sp, #28]                   @ 4-byte Reload
	eor.w	r8, r1, r5
	eors	r6, r0
	ldrb	r4, [r2, #6]
	ldrb	r0, [r2, #5]
	ldr	r1, [sp, #36]                   @ 4-byte Reload
	eor.w	r12, r9, r0
	eors	r4, r1
	ldrb.w	r9, [r2, #4]
	ldr	r1, [sp, #40]                   @ 4-byte Reload
	ldrb	r0, [r2, #3]
	eor.w	r9, r9, r1
	ldr	r1, [sp, #44]                   @ 4-byte Reload
	ldr	r5, [sp, #48]                   @ 4-byte Reload
	eor.w	r3, r1, r0
	ldrb	r0, [r2, #2]
	ldrb	r1, [r2, #1]
	eors	r0, r5
	strb	r0, [r2, #2]
	ldr	r0, [sp, #4]                    @ 4-byte Reload
	ldr.w	r11, [sp, #52]                  @ 4-byte Reload
	strb	r0, [r2, #12]
	ldr	r0, [sp, #8]                    @ 4-byte Reload
	eor.w	r1, r1, r11
	strb	r0, [r2, #13]
	ldr	r0, [sp, #12]                   @ 4-byte Reload
	strb	r1, [r2, #1]
	strb	r0, [r2, #14]
	ldr	r0, [sp, #16]                   @ 4-byte Reload
	ldr	r1, [sp, #24]                   @ 4-byte Reload
	strb	r7, [r2, #8]
	adds	r7, r0, #1
	strb	r3, [r2, #3]
	strb	r6, [r2, #7]
	adc	r6, r1, #0
	subs	r3, r0, #7
	sbcs	r1, r1, #0
	ldr	r0, [sp, #56]                   @ 4-byte Reload
	ldr	r1, [sp, #32]                   @ 4-byte Reload
	strb.w	r9, [r2, #4]
	strb.w	r12, [r2, #5]
	strb	r4, [r2, #6]
	strb.w	lr, [r2, #9]
	strb.w	r8, [r2, #10]
	strb.w	r10, [r2, #11]
	strb	r1, [r2, #15]
	blo.w	.Laes_v7m_small_BB67_3
@ %bb.4:                                @ %"aes_soft::soft::hazmat::par::equiv_inv_cipher_round_par::<#e817d94f9a7b6ba6>.exit"
	add	sp, #124
	pop.w	{r4, r5, r6, r7, r8, r9, r10, r11, pc}
.Laes_v7m_small_func_end67:
	.size	aes_v7m_small.aes_c.single_rounds.inverse_rounds, .Laes_v7m_small_func_end67-aes_v7m_small.aes_c.single_rounds.inverse_rounds
	.cantunwind
	.fnend
                                        @ -- End function
	.section	.text.aes_v7m_small.cmac.pieces.Message.is_tag_so_far,"ax",%progbits
	.p2align	2                               @ -- Begin function cmac::pieces::Message::is_tag_so_far::<#4f733d09d7f6c6b4>
	.type	aes_v7m_small.cmac.pieces.Message.is_tag_so_far,%function
	.code	16
	.thumb_func
aes_v7m_small.cmac.pieces.Message.is_tag_so_far: @ @aes_v7m_small.cmac.pieces.Message.is_tag_so_far
	.fnstart
@ %bb.0:                                @ %start
	.save	{r4, r5, r6, r7, r8, lr}
	push.w	{r4, r5, r6, r7, r8, lr}
	.pad	#40
	sub	sp, #40
	mov	r4, r2
	ldrd	r7, r2, [r0, #8]
	movs	r3, #16
	cmp	r7, #16
	it	hs
	movhs	r7, r3
	add	r6, sp, #8
	ldr.w	r8, [sp, #64]
	cmp	r2, #0
	it	ne
	movne	r7, r3
	add.w	r2, r0, #16
	add.w	r3, r0, #32
	movs	r5, #0
	mov	r0, r6
	strd	r7, r5, [sp]
	bl	aes_v7m_small.cmac.tags.tag_at_end
	ldr	r2, [sp, #20]
	add	r3, sp, #8
	ldm	r3, {r0, r1, r3}
	str	r2, [sp, #36]
	add	r2, sp, #24
	add	r7, sp, #24
	stm	r2!, {r0, r1, r3}
	mov	r0, r7
	mov	r1, r4
	mov	r2, r8
	bl	memcpy
	mov	r0, r7
	mov	r1, r6
	bl	aes_v7m_small.aes_cipher.blocks.difference
	clz	r0, r0
	lsrs	r0, r0, #5
	add	sp, #40
	pop.w	{r4, r5, r6, r7, r8, pc}
.Laes_v7m_small_func_end68:
	.size	aes_v7m_small.cmac.pieces.Message.is_tag_so_far, .Laes_v7m_small_func_end68-aes_v7m_small.cmac.pieces.Message.is_tag_so_far
	.cantunwind
	.fnend
                                        @ -- End function
	.section	.text.aes_v7m_small.cmac.tags.is_tag_start,"ax",%progbits
	.p2align	2                               @ -- Begin function cmac::tags::is_tag_start::<#4f733d09d7f6c6b4>
	.type	aes_v7m_small.cmac.tags.is_tag_start,%function
	.code	16
	.thumb_func
aes_v7m_small.cmac.tags.is_tag_start: @ @aes_v7m_small.cmac.tags.is_tag_start
	.fnstart
@ %bb.0:                                @ %start
	.save	{r4, r5, r6, r7, lr}
	push	{r4, r5, r6, r7, lr}
	.pad	#44
	sub	sp, #44
	add	r6, sp, #12
	mov	r12, r2
	mov	r2, r1
	ldr	r4, [sp, #64]
	ldr	r5, [sp, #72]
	mov	r1, r0
	mov	r0, r6
	strd	r12, r3, [sp]
	bl	aes_v7m_small.cmac.tags.tag
	ldr	r2, [sp, #24]
	add	r3, sp, #12
	ldm	r3, {r0, r1, r3}
	str	r2, [sp, #40]
	add	r2, sp, #28
	add	r7, sp, #28
	stm	r2!, {r0, r1, r3}
	mov	r0, r7
	mov	r1, r4
	mov	r2, r5
	bl	memcpy
	mov	r0, r7
	mov	r1, r6
	bl	aes_v7m_small.aes_cipher.blocks.difference
	clz	r0, r0
	lsrs	r0, r0, #5
	add	sp, #44
	pop	{r4, r5, r6, r7, pc}
.Laes_v7m_small_func_end69:
	.size	aes_v7m_small.cmac.tags.is_tag_start, .Laes_v7m_small_func_end69-aes_v7m_small.cmac.tags.is_tag_start
	.cantunwind
	.fnend
                                        @ -- End function
	.section	.text.aes_v7m_small.aes_c.single_rounds.mixed,"ax",%progbits
	.p2align	2                               @ -- Begin function aes_c::single_rounds::mixed
	.type	aes_v7m_small.aes_c.single_rounds.mixed,%function
	.code	16
	.thumb_func
aes_v7m_small.aes_c.single_rounds.mixed:          @ @aes_v7m_small.aes_c.single_rounds.mixed
	.fnstart
@ %bb.0:                                @ %start
	.save	{r4, r5, r7, lr}
	push	{r4, r5, r7, lr}
	.pad	#64
	sub	sp, #64
	mov	r4, r0
	ldr	r0, [r0]
	ldr	r1, [r4, #4]
	ldr	r2, [r4, #8]
	ldr	r3, [r4, #12]
	mov	r5, sp
	strd	r0, r0, [sp, #32]
	strd	r1, r1, [sp, #40]
	add	r1, sp, #32
	mov	r0, r5
	strd	r2, r2, [sp, #48]
	strd	r3, r3, [sp, #56]
	bl	aes_v7m_small.aes_planes.soft.word.transpose.transpose
	mov	r0, r5
	bl	aes_v7m_small.aes_planes.soft.mix_columns.mix_columns_0
	add	r0, sp, #32
	mov	r1, r5
	bl	aes_v7m_small.aes_planes.soft.word.transpose.transpose
	ldr	r0, [sp, #32]
	ldr	r1, [sp, #40]
	ldr	r2, [sp, #48]
	ldr	r3, [sp, #56]
	str	r0, [r4]
	str	r1, [r4, #4]
	str	r2, [r4, #8]
	str	r3, [r4, #12]
	add	sp, #64
	pop	{r4, r5, r7, pc}
.Laes_v7m_small_func_end70:
	.size	aes_v7m_small.aes_c.single_rounds.mixed, .Laes_v7m_small_func_end70-aes_v7m_small.aes_c.single_rounds.mixed
	.cantunwind
	.fnend
                                        @ -- End function
	.section	.text.aes_v7m_small.aes_c.stream.fotsgure_aes_add_keystream,"ax",%progbits
	.p2align	2                               @ -- Begin function aes_c::stream::fotsgure_aes_add_keystream
	.type	aes_v7m_small.aes_c.stream.fotsgure_aes_add_keystream,%function
	.code	16
	.thumb_func
aes_v7m_small.aes_c.stream.fotsgure_aes_add_keystream: @ @aes_v7m_small.aes_c.stream.fotsgure_aes_add_keystream
	.fnstart
@ %bb.0:                                @ %start
	.save	{r4, r5, r6, r7, r8, r9, r10, r11, lr}
	push.w	{r4, r5, r6, r7, r8, r9, r10, r11, lr}
	.pad	#84
	sub	sp, #84
	ldr.w	r8, [sp, #120]
	ldrd	r12, r3, [r1, #16]
	ldr.w	r9, [sp, #124]
	mov	r4, r1
	adds.w	r1, r12, r8
	adcs.w	r1, r3, r9
	mov.w	r1, #0
	adcs	r1, r1, #0
	beq	.Laes_v7m_small_BB71_2
@ %bb.1:
	movs	r0, #4
	add	sp, #84
	b	.Laes_v7m_small_return_7861
.Laes_v7m_small_BB71_2:                               @ %join.3.i
	ldr	r7, [r0]
	mov	r1, r0
	sub.w	r5, r7, #16
	cmp	r5, #16
	mov.w	r0, #2
	bhi	.Laes_v7m_small_BB71_8
@ %bb.3:                                @ %join.3.i
	movs	r6, #1
	lsls	r6, r5
	movw	r5, #257
	movt	r5, #1
	tst	r6, r5
	beq	.Laes_v7m_small_BB71_8
@ %bb.4:                                @ %then.1
	adds	r0, r1, #4
	movs	r1, #56
	adds.w	r10, r1, r7, lsl #1
	ldr	r1, [r4, #12]
	ldr	r5, [r4]
	lsr.w	r6, r7, #31
	str	r1, [sp, #44]
	add	r1, sp, #32
	adc	lr, r6, #0
	ldr	r6, [r4, #4]
	ldr	r7, [r4, #8]
	stm	r1!, {r5, r6, r7}
	and	r1, r12, #15
	rsb.w	r1, r1, #16
	mov.w	r11, #0
	subs.w	r1, r1, r8
	sbcs.w	r1, r11, r9
	str	r0, [sp, #16]
	strd	r11, r10, [sp, #20]
	str.w	lr, [sp, #28]
	str.w	r11, [sp, #52]
	str.w	r11, [sp, #48]
	bhs	.Laes_v7m_small_BB71_6
@ %bb.5:                                @ %else.2.i.i
	add	r1, sp, #32
	str	r1, [sp, #48]
	strd	r12, r3, [sp, #56]
	strd	r2, r11, [sp, #64]
	add	r1, sp, #48
	mov	r2, r10
	mov	r3, lr
	strd	r8, r9, [sp, #72]
	str	r1, [sp]
	bl	aes_v7m_small.aes_narrow.borrowed_words.call_to_encrypt
	bl	aes_v7m_small.aes_cipher.zeroize.stack.wipe_stack.2032
	b	.Laes_v7m_small_BB71_7
.Laes_v7m_small_BB71_6:                               @ %then.1.i.i
	str	r2, [sp]
	add	r0, sp, #16
	add	r1, sp, #32
	mov	r2, r12
	strd	r8, r9, [sp, #8]
	bl	aes_v7m_small.aes_ctr.add_in_batches.add_to_one
.Laes_v7m_small_BB71_7:                               @ %"aes_ctr::add_in_batches::add_keystream::<#4f733d09d7f6c6b4>.exit"
	ldrd	r0, r1, [r4, #16]
	adds.w	r0, r0, r8
	adc.w	r1, r1, r9
	strd	r0, r1, [r4, #16]
	movs	r0, #0
.Laes_v7m_small_BB71_8:                               @ %join.3
	add	sp, #84
	b	.Laes_v7m_small_return_7861
.Laes_v7m_small_return_7861:
	movs	r1, #0
	movs	r2, #0
	movs	r3, #0
	mov	r12, r1
	mov	lr, r1
	pop.w	{r4, r5, r6, r7, r8, r9, r10, r11, pc}
.Laes_v7m_small_func_end71:
	.size	aes_v7m_small.aes_c.stream.fotsgure_aes_add_keystream, .Laes_v7m_small_func_end71-aes_v7m_small.aes_c.stream.fotsgure_aes_add_keystream
	.cantunwind
	.fnend
                                        @ -- End function
	.section	.text.aes_v7m_small.aes_c.single_rounds.round,"ax",%progbits
	.p2align	2                               @ -- Begin function aes_c::single_rounds::round
	.type	aes_v7m_small.aes_c.single_rounds.round,%function
	.code	16
	.thumb_func
aes_v7m_small.aes_c.single_rounds.round:          @ @aes_v7m_small.aes_c.single_rounds.round
	.fnstart
@ %bb.0:                                @ %start
	.save	{r4, r5, r6, r7, r8, r9, r10, r11, lr}
	push.w	{r4, r5, r6, r7, r8, r9, r10, r11, lr}
	.pad	#92
	sub	sp, #92
	mov	r4, r0
	mov	r5, r1
	ldr	r0, [r0]
	ldr	r1, [r4, #4]
	ldr	r2, [r4, #8]
	ldr	r3, [r4, #12]
	add	r6, sp, #28
	strd	r0, r0, [sp, #60]
	strd	r1, r1, [sp, #68]
	add	r1, sp, #60
	mov	r0, r6
	strd	r2, r2, [sp, #76]
	strd	r3, r3, [sp, #84]
	bl	aes_v7m_small.aes_planes.soft.word.transpose.transpose
	mov	r0, r6
	bl	aes_v7m_small.aes_planes.soft.sbox.sub_bytes
	mov	r0, r6
	bl	aes_v7m_small.aes_planes.soft.sbox.sub_bytes_nots
	movw	r2, #768
	movt	r2, #3087
	mov	r0, r6
	movs	r1, #4
	bl	aes_v7m_small.aes_planes.soft.shifts.swap_columns
	mov	r0, r6
	movs	r1, #2
	mov.w	r2, #855651072
	bl	aes_v7m_small.aes_planes.soft.shifts.swap_columns
	mov	r0, r6
	bl	aes_v7m_small.aes_planes.soft.mix_columns.mix_columns_0
	add	r0, sp, #60
	mov	r1, r6
	bl	aes_v7m_small.aes_planes.soft.word.transpose.transpose
	ldrb	r2, [r5, #4]
	ldr	r0, [sp, #84]
	str	r2, [sp, #8]                    @ 4-byte Spill
	ldrb	r2, [r5, #5]
	ldrb.w	r9, [r5, #12]
	str	r2, [sp, #4]                    @ 4-byte Spill
	ldrb	r2, [r5, #14]
	ldrb.w	r8, [r5, #13]
	ldrb.w	lr, [r5, #15]
	eor.w	r2, r2, r0, lsr #16
	eor.w	r7, lr, r0, lsr #24
	str	r2, [sp, #20]                   @ 4-byte Spill
	eor.w	r2, r8, r0, lsr #8
	eor.w	r0, r0, r9
	ldr	r3, [sp, #68]
	ldr	r1, [sp, #76]
	ldrb.w	r11, [r5, #7]
	ldrb.w	r10, [r5, #8]
	str	r0, [sp, #12]                   @ 4-byte Spill
	ldr	r0, [sp, #4]                    @ 4-byte Reload
	ldrb	r6, [r5, #9]
	ldrb.w	r12, [r5, #11]
	str	r2, [sp, #16]                   @ 4-byte Spill
	ldrb	r2, [r5, #10]
	eor.w	lr, r10, r1
	eor.w	r10, r11, r3, lsr #24
	eor.w	r11, r0, r3, lsr #8
	ldr	r0, [sp, #8]                    @ 4-byte Reload
	str	r7, [sp, #24]                   @ 4-byte Spill
	eor.w	r9, r12, r1, lsr #24
	eor.w	r8, r2, r1, lsr #16
	eor.w	r6, r6, r1, lsr #8
	ldrb	r7, [r5, #6]
	eor.w	r12, r0, r3
	ldr	r0, [sp, #60]
	ldrb	r1, [r5, #3]
	eor.w	r7, r7, r3, lsr #16
	ldrb	r2, [r5, #2]
	eor.w	r3, r1, r0, lsr #24
	ldrb	r1, [r5, #1]
	ldrb	r5, [r5]
	eor.w	r2, r2, r0, lsr #16
	eor.w	r1, r1, r0, lsr #8
	eors	r0, r5
	strb	r0, [r4]
	ldr	r0, [sp, #12]                   @ 4-byte Reload
	strb	r1, [r4, #1]
	strb	r0, [r4, #12]
	ldr	r0, [sp, #16]                   @ 4-byte Reload
	strb	r2, [r4, #2]
	strb	r0, [r4, #13]
	ldr	r0, [sp, #20]                   @ 4-byte Reload
	strb	r3, [r4, #3]
	strb	r0, [r4, #14]
	ldr	r0, [sp, #24]                   @ 4-byte Reload
	strb.w	r12, [r4, #4]
	strb.w	r11, [r4, #5]
	strb	r7, [r4, #6]
	strb.w	r10, [r4, #7]
	strb.w	lr, [r4, #8]
	strb	r6, [r4, #9]
	strb.w	r8, [r4, #10]
	strb.w	r9, [r4, #11]
	strb	r0, [r4, #15]
	add	sp, #92
	pop.w	{r4, r5, r6, r7, r8, r9, r10, r11, pc}
.Laes_v7m_small_func_end72:
	.size	aes_v7m_small.aes_c.single_rounds.round, .Laes_v7m_small_func_end72-aes_v7m_small.aes_c.single_rounds.round
	.cantunwind
	.fnend
                                        @ -- End function
	.section	.text.aes_v7m_small.aes_c.single_rounds.rounds,"ax",%progbits
	.p2align	2                               @ -- Begin function aes_c::single_rounds::rounds
	.type	aes_v7m_small.aes_c.single_rounds.rounds,%function
	.code	16
	.thumb_func
aes_v7m_small.aes_c.single_rounds.rounds:         @ @aes_v7m_small.aes_c.single_rounds.rounds
	.fnstart
@ %bb.0:                                @ %start
	.save	{r4, r5, r6, r7, r8, r9, r10, r11, lr}
	push.w	{r4, r5, r6, r7, r8, r9, r10, r11, lr}
	.pad	#124
	sub	sp, #124
	mov.w	r10, #0
	mov.w	r9, #0
	str	r1, [sp]                        @ 4-byte Spill
	str	r0, [sp, #56]                   @ 4-byte Spill
	.p2align	2
.Laes_v7m_small_BB73_1:                               @ %join.5.i.i
                                        @ =>This Inner Loop Header: Depth=1
	mov	r11, r10
	lsl.w	r8, r11, #4
	add.w	r5, r0, r11, lsl #4
	ldr.w	r0, [r0, r8]
	ldr	r6, [r5, #16]
	ldr	r1, [r5, #4]
	ldr	r2, [r5, #8]
	ldr	r4, [r5, #20]
	ldr	r3, [r5, #28]
	strd	r0, r6, [sp, #92]
	add	r0, sp, #108
	add	r6, sp, #60
	adds.w	r10, r10, #2
	ldr.w	r12, [r5, #12]
	ldr	r7, [r5, #24]
	strd	r1, r4, [sp, #100]
	stm.w	r0, {r2, r7, r12}
	add	r1, sp, #92
	mov	r0, r6
	str.w	r9, [sp, #52]                   @ 4-byte Spill
	adc	r9, r9, #0
	str	r3, [sp, #120]
	bl	aes_v7m_small.aes_planes.soft.word.transpose.transpose
	mov	r0, r6
	bl	aes_v7m_small.aes_planes.soft.sbox.sub_bytes
	mov	r0, r6
	bl	aes_v7m_small.aes_planes.soft.sbox.sub_bytes_nots
	movw	r2, #768
	movt	r2, #3087
	mov	r0, r6
	movs	r1, #4
	bl	aes_v7m_small.aes_planes.soft.shifts.swap_columns
	mov	r0, r6
	movs	r1, #2
	mov.w	r2, #855651072
	bl	aes_v7m_small.aes_planes.soft.shifts.swap_columns
	mov	r0, r6
	bl	aes_v7m_small.aes_planes.soft.mix_columns.mix_columns_0
	add	r0, sp, #92
	mov	r1, r6
	bl	aes_v7m_small.aes_planes.soft.word.transpose.transpose
	ldrd	r0, lr, [sp, #92]
	ldr	r1, [sp, #56]                   @ 4-byte Reload
	add	r7, sp, #100
	str.w	r0, [r1, r8]
	subs.w	r1, r11, #6
	ldr	r1, [sp, #52]                   @ 4-byte Reload
	ldm	r7, {r2, r3, r7}
	ldrd	r6, r4, [sp, #112]
	ldr.w	r12, [sp, #120]
	ldr	r0, [sp, #56]                   @ 4-byte Reload
	sbcs	r1, r1, #0
	str	r2, [r5, #4]
	str	r7, [r5, #8]
	str	r4, [r5, #12]
	str.w	lr, [r5, #16]
	str	r3, [r5, #20]
	str	r6, [r5, #24]
	str.w	r12, [r5, #28]
	blo	.Laes_v7m_small_BB73_1
@ %bb.2:                                @ %join.5.i.i.i.preheader
	movs	r7, #0
	movs	r6, #0
	.p2align	2
.Laes_v7m_small_BB73_3:                               @ %join.5.i.i.i
                                        @ =>This Inner Loop Header: Depth=1
	ldr	r1, [sp]                        @ 4-byte Reload
	str	r6, [sp, #24]                   @ 4-byte Spill
	add.w	r2, r1, r7, lsl #4
	ldrb	r6, [r2, #1]
	lsls	r5, r7, #4
	str	r6, [sp, #52]                   @ 4-byte Spill
	ldrb	r6, [r2, #2]
	ldrb	r3, [r0, r5]
	str	r6, [sp, #48]                   @ 4-byte Spill
	ldrb	r6, [r2, #3]
	ldrb	r1, [r1, r5]
	str	r6, [sp, #44]                   @ 4-byte Spill
	ldrb	r6, [r2, #4]
	ldrb.w	r9, [r2, #5]
	str	r6, [sp, #40]                   @ 4-byte Spill
	ldrb	r6, [r2, #6]
	eors	r3, r1
	str	r6, [sp, #36]                   @ 4-byte Spill
	ldrb	r6, [r2, #7]
	ldrb	r1, [r2, #10]
	str	r6, [sp, #28]                   @ 4-byte Spill
	ldrb	r6, [r2, #8]
	ldrb.w	lr, [r2, #11]
	str	r6, [sp, #20]                   @ 4-byte Spill
	ldrb	r6, [r2, #9]
	ldrb.w	r12, [r2, #12]
	ldrb.w	r8, [r2, #13]
	ldrb	r4, [r2, #14]
	ldrb.w	r11, [r2, #15]
	add.w	r2, r0, r7, lsl #4
	ldrb.w	r10, [r2, #15]
	strb	r3, [r0, r5]
	eor.w	r0, r11, r10
	str	r0, [sp, #32]                   @ 4-byte Spill
	ldrb	r0, [r2, #14]
	ldrb	r5, [r2, #13]
	str	r7, [sp, #16]                   @ 4-byte Spill
	eors	r0, r4
	ldrb	r7, [r2, #11]
	str	r0, [sp, #12]                   @ 4-byte Spill
	eor.w	r0, r8, r5
	ldrb	r5, [r2, #12]
	eor.w	r10, lr, r7
	ldrb	r7, [r2, #9]
	str	r0, [sp, #8]                    @ 4-byte Spill
	eor.w	r0, r12, r5
	str	r0, [sp, #4]                    @ 4-byte Spill
	eor.w	lr, r6, r7
	ldrb	r7, [r2, #8]
	ldr	r0, [sp, #20]                   @ 4-byte Reload
	ldrb	r5, [r2, #10]
	ldrb	r6, [r2, #7]
	eors	r7, r0
	ldr	r0, [sp, #28]                   @ 4-byte Reload
	eor.w	r8, r1, r5
	eors	r6, r0
	ldrb	r4, [r2, #6]
	ldrb	r0, [r2, #5]
	ldr	r1, [sp, #36]                   @ 4-byte Reload
	eor.w	r12, r9, r0
	eors	r4, r1
	ldrb.w	r9, [r2, #4]
	ldr	r1, [sp, #40]                   @ 4-byte Reload
	ldrb	r0, [r2, #3]
	eor.w	r9, r9, r1
	ldr	r1, [sp, #44]                   @ 4-byte Reload
	ldr	r5, [sp, #48]                   @ 4-byte Reload
	eor.w	r3, r1, r0
	ldrb	r0, [r2, #2]
	ldrb	r1, [r2, #1]
	eors	r0, r5
	strb	r0, [r2, #2]
	ldr	r0, [sp, #4]                    @ 4-byte Reload
	ldr.w	r11, [sp, #52]                  @ 4-byte Reload
	strb	r0, [r2, #12]
	ldr	r0, [sp, #8]                    @ 4-byte Reload
	eor.w	r1, r1, r11
	strb	r0, [r2, #13]
	ldr	r0, [sp, #12]                   @ 4-byte Reload
	strb	r1, [r2, #1]
	strb	r0, [r2, #14]
	ldr	r0, [sp, #16]                   @ 4-byte Reload
	ldr	r1, [sp, #24]                   @ 4-byte Reload
	strb	r7, [r2, #8]
	adds	r7, r0, #1
	strb	r3, [r2, #3]
	strb	r6, [r2, #7]
	adc	r6, r1, #0
	subs	r3, r0, #7
	sbcs	r1, r1, #0
	ldr	r0, [sp, #56]                   @ 4-byte Reload
	ldr	r1, [sp, #32]                   @ 4-byte Reload
	strb.w	r9, [r2, #4]
	strb.w	r12, [r2, #5]
	strb	r4, [r2, #6]
	strb.w	lr, [r2, #9]
	strb.w	r8, [r2, #10]
	strb.w	r10, [r2, #11]
	strb	r1, [r2, #15]
	blo.w	.Laes_v7m_small_BB73_3
@ %bb.4:                                @ %"aes_soft::soft::hazmat::par::cipher_round_par::<#e817d94f9a7b6ba6>.exit"
	add	sp, #124
	pop.w	{r4, r5, r6, r7, r8, r9, r10, r11, pc}
.Laes_v7m_small_func_end73:
	.size	aes_v7m_small.aes_c.single_rounds.rounds, .Laes_v7m_small_func_end73-aes_v7m_small.aes_c.single_rounds.rounds
	.cantunwind
	.fnend
                                        @ -- End function
	.section	.text.aes_v7m_small.ccm.mode.decrypt,"ax",%progbits
	.p2align	2                               @ -- Begin function ccm::mode::decrypt::<#4f733d09d7f6c6b4>
	.type	aes_v7m_small.ccm.mode.decrypt,%function
	.code	16
	.thumb_func
aes_v7m_small.ccm.mode.decrypt: @ @aes_v7m_small.ccm.mode.decrypt
	.fnstart
@ %bb.0:                                @ %start
	.save	{r4, r5, r6, r7, r8, r9, r10, r11, lr}
	push.w	{r4, r5, r6, r7, r8, r9, r10, r11, lr}
	.pad	#124
	sub	sp, #124
	ldrd	r6, r11, [sp, #208]
	mov	r10, r1
	subs	r1, r6, #4
	sbc	r3, r11, #0
	rsbs.w	r1, r1, #12
	mov.w	r1, #0
	sbcs.w	r3, r1, r3
	blo	.Laes_v7m_small_BB74_7
@ %bb.1:                                @ %start
	ands	r3, r6, #1
	bne	.Laes_v7m_small_BB74_7
@ %bb.2:                                @ %after.1.i
	ldrd	r8, r4, [sp, #160]
	mvn	r7, #6
	subs.w	r1, r8, #14
	sbc	r3, r4, #0
	subs	r1, r1, r7
	sbcs	r1, r3, #-1
	bhs	.Laes_v7m_small_BB74_4
@ %bb.3:
	movs	r1, #1
	b	.Laes_v7m_small_BB74_7
.Laes_v7m_small_BB74_4:                               @ %after.15.i
	ldrd	r3, r5, [sp, #192]
	eor	r1, r8, #7
	orrs	r1, r4
	beq	.Laes_v7m_small_BB74_8
@ %bb.5:                                @ %"ccm::formatting::check.exit"
	movs	r1, #120
	eor.w	r1, r1, r8, lsl #3
	rsb.w	r7, r1, #32
	lsrs	r3, r1
	lsl.w	r7, r5, r7
	orrs	r3, r7
	subs.w	r7, r1, #32
	lsr.w	r1, r5, r1
	it	pl
	lsrpl.w	r3, r5, r7
	it	pl
	movpl	r1, #0
	orrs	r1, r3
	beq	.Laes_v7m_small_BB74_8
@ %bb.6:
	movs	r1, #2
.Laes_v7m_small_BB74_7:                               @ %arm.1
	movs	r2, #1
	strh	r2, [r0]
	strb	r1, [r0, #2]
	add	sp, #124
	pop.w	{r4, r5, r6, r7, r8, r9, r10, r11, pc}
.Laes_v7m_small_BB74_8:                               @ %join.4
	str	r0, [sp, #48]                   @ 4-byte Spill
	movs	r7, #0
	add	r0, sp, #56
	str	r2, [sp, #52]                   @ 4-byte Spill
	mov	r1, r2
	mov	r2, r8
	rsb.w	r4, r8, #14
	str.w	r7, [sp, #67]
	str	r7, [sp, #64]
	strd	r7, r7, [sp, #56]
	bl	memcpy
	add	r2, sp, #56
	ldrd	r5, r12, [sp, #192]
	ldm	r2, {r0, r1, r2}
	ldr.w	r3, [sp, #67]
	str.w	r0, [sp, #73]
	rsbs.w	r0, r5, #16
	sbcs.w	r0, r7, r12
	mov.w	r9, #0
	str	r4, [sp, #44]                   @ 4-byte Spill
	strb.w	r4, [sp, #72]
	str.w	r1, [sp, #77]
	str.w	r2, [sp, #81]
	str	r3, [sp, #84]
	str	r7, [sp, #92]
	it	lo
	movlo.w	r9, #1
	cmp.w	r9, #0
	str	r7, [sp, #88]
	beq	.Laes_v7m_small_BB74_10
@ %bb.9:                                @ %else.2.i.i.i
	add	r0, sp, #72
	str	r0, [sp, #88]
	movs	r0, #16
	str	r0, [sp, #96]
	ldr	r4, [sp, #184]
	ldr.w	r0, [r10]
	ldr.w	r2, [r10, #8]
	ldr.w	r3, [r10, #12]
	add	r1, sp, #88
	str	r7, [sp, #100]
	strd	r4, r7, [sp, #104]
	str	r5, [sp, #112]
	str.w	r12, [sp, #116]
	str	r1, [sp]
	mov	r7, r12
	bl	aes_v7m_small.aes_narrow.borrowed_words.call_to_encrypt
	bl	aes_v7m_small.aes_cipher.zeroize.stack.wipe_stack.2032
	b	.Laes_v7m_small_BB74_11
.Laes_v7m_small_BB74_10:                              @ %then.1.i.i.i
	ldr	r4, [sp, #184]
	add	r1, sp, #72
	mov	r0, r10
	movs	r2, #16
	movs	r3, #0
	strd	r5, r12, [sp, #8]
	str	r4, [sp]
	mov	r7, r12
	bl	aes_v7m_small.aes_ctr.add_in_batches.add_to_one
.Laes_v7m_small_BB74_11:                              @ %"ccm::message::process_text::<#4f733d09d7f6c6b4>.exit"
	ldr	r0, [sp, #176]
	add	r1, sp, #72
	str	r0, [sp, #16]
	ldr	r0, [sp, #180]
	strd	r5, r7, [sp, #32]
	str	r1, [sp, #40]
	mov	r5, r1
	ldr	r1, [sp, #52]                   @ 4-byte Reload
	ldrd	r3, r7, [sp, #164]
	strd	r0, r4, [sp, #20]
	mov	r0, r10
	mov	r2, r8
	strd	r6, r11, [sp]
	str	r7, [sp, #8]
	bl	aes_v7m_small.ccm.message.put_tag
	ldr	r2, [sp, #84]
	add	r3, sp, #72
	ldm	r3, {r0, r1, r3}
	str	r2, [sp, #100]
	add	r2, sp, #88
	stm	r2!, {r0, r1, r3}
	add	r7, sp, #88
	ldr	r1, [sp, #200]
	mov	r0, r7
	mov	r2, r6
	bl	memcpy
	mov	r0, r7
	mov	r1, r5
	bl	aes_v7m_small.aes_cipher.blocks.difference
	cbz	r0, .Laes_v7m_small_BB74_14
@ %bb.12:                               @ %join.7
	ldr	r1, [sp, #52]                   @ 4-byte Reload
	movs	r6, #0
	add	r0, sp, #56
	mov	r2, r8
	str.w	r6, [sp, #67]
	str	r6, [sp, #64]
	strd	r6, r6, [sp, #56]
	bl	memcpy
	ldr	r0, [sp, #44]                   @ 4-byte Reload
	add	r2, sp, #56
	strb.w	r0, [sp, #72]
	ldm	r2, {r0, r1, r2}
	ldr.w	r3, [sp, #67]
	cmp.w	r9, #0
	str.w	r0, [sp, #73]
	str.w	r1, [sp, #77]
	str.w	r2, [sp, #81]
	str	r3, [sp, #84]
	str	r6, [sp, #92]
	str	r6, [sp, #88]
	beq	.Laes_v7m_small_BB74_15
@ %bb.13:                               @ %else.2.i.i.i35
	movs	r0, #16
	str	r0, [sp, #96]
	ldr	r0, [sp, #192]
	ldr.w	r2, [r10, #8]
	str	r0, [sp, #112]
	ldr.w	r0, [r10]
	ldr.w	r3, [r10, #12]
	ldr	r1, [sp, #196]
	str	r5, [sp, #88]
	str	r6, [sp, #100]
	strd	r4, r6, [sp, #104]
	str	r1, [sp, #116]
	str	r7, [sp]
	bl	aes_v7m_small.aes_narrow.borrowed_words.call_to_encrypt
	bl	aes_v7m_small.aes_cipher.zeroize.stack.wipe_stack.2032
	b	.Laes_v7m_small_BB74_16
.Laes_v7m_small_BB74_14:                              @ %then.5
	ldr	r1, [sp, #48]                   @ 4-byte Reload
	movs	r0, #0
	strh	r0, [r1]
	b	.Laes_v7m_small_BB74_17
.Laes_v7m_small_BB74_15:                              @ %then.1.i.i.i34
	ldrd	r1, r0, [sp, #192]
	movs	r2, #16
	strd	r1, r0, [sp, #8]
	add	r1, sp, #72
	mov	r0, r10
	movs	r3, #0
	str	r4, [sp]
	bl	aes_v7m_small.aes_ctr.add_in_batches.add_to_one
.Laes_v7m_small_BB74_16:                              @ %"ccm::message::process_text::<#4f733d09d7f6c6b4>.exit43"
	ldr	r1, [sp, #48]                   @ 4-byte Reload
	movw	r0, #257
	strh	r0, [r1]
	movs	r0, #0
.Laes_v7m_small_BB74_17:                              @ %common.ret
	strb	r0, [r1, #2]
	add	sp, #124
	pop.w	{r4, r5, r6, r7, r8, r9, r10, r11, pc}
.Laes_v7m_small_func_end74:
	.size	aes_v7m_small.ccm.mode.decrypt, .Laes_v7m_small_func_end74-aes_v7m_small.ccm.mode.decrypt
	.cantunwind
	.fnend
                                        @ -- End function
	.section	.text.aes_v7m_small.ccm.message.put_tag,"ax",%progbits
	.p2align	2                               @ -- Begin function ccm::message::put_tag::<#4f733d09d7f6c6b4>
	.type	aes_v7m_small.ccm.message.put_tag,%function
	.code	16
	.thumb_func
aes_v7m_small.ccm.message.put_tag: @ @aes_v7m_small.ccm.message.put_tag
	.fnstart
@ %bb.0:                                @ %start
	.save	{r4, r5, r6, r7, r8, r9, r10, r11, lr}
	push.w	{r4, r5, r6, r7, r8, r9, r10, r11, lr}
	.pad	#100
	sub	sp, #100
	mov	r6, r2
	ldrd	r3, r2, [sp, #168]
	mov	r10, r0
	ldrd	r0, r12, [sp, #136]
	rev	r2, r2
	rev	r3, r3
	strd	r2, r3, [sp, #56]
	subs	r2, r0, #2
	mov.w	r4, #0
	sbcs	r0, r12, #0
	adc	r0, r4, #0
	ldrd	r7, r5, [sp, #152]
	strd	r4, r4, [sp, #48]
	strd	r4, r4, [sp, #40]
	teq.w	r0, #1
	it	ne
	movne	r2, #0
	and	r0, r2, #62
	movs	r2, #78
	rsb	r0, r6, r0, lsl #2
	orrs.w	r8, r7, r5
	it	eq
	moveq	r2, #14
	ldr.w	r9, [sp, #176]
	add.w	r11, r2, r0
	add	r0, sp, #68
	mov	r2, r6
	strd	r4, r4, [sp, #68]
	str	r4, [sp, #76]
	str.w	r4, [sp, #79]
	str	r1, [sp, #36]                   @ 4-byte Spill
	bl	memcpy
	add	r3, sp, #68
	ldm	r3, {r1, r2, r3}
	strb.w	r11, [sp, #84]
	add.w	r11, sp, #84
	str.w	r1, [sp, #85]
	add	r1, sp, #56
	add.w	r0, r11, #1
	ldr.w	r7, [sp, #79]
	add	r1, r6
	str.w	r2, [sp, #89]
	add	r0, r6
	subs	r1, #7
	rsb.w	r2, r6, #15
	str.w	r3, [sp, #93]
	str	r7, [sp, #96]
	bl	memcpy
	ldr	r0, [sp, #84]
	ldr	r1, [sp, #88]
	ldr	r2, [sp, #92]
	ldr	r3, [sp, #96]
	str.w	r0, [r9]
	str.w	r1, [r9, #4]
	str.w	r2, [r9, #8]
	str.w	r3, [r9, #12]
	ldr.w	r0, [r10]
	ldr.w	r2, [r10, #8]
	ldr.w	r3, [r10, #12]
	movs	r5, #1
	strd	r5, r4, [sp, #8]
	str.w	r9, [sp]
	bl	aes_v7m_small.aes_narrow.blocks.process_all_batches.1
	bl	aes_v7m_small.aes_cipher.zeroize.stack.wipe_stack.1024
	ldr	r2, [sp, #160]
	cmp.w	r8, #0
	beq	.Laes_v7m_small_BB75_8
@ %bb.1:                                @ %join.3.i
	ldr.w	r8, [sp, #152]
	ldr.w	r12, [sp, #156]
	lsr.w	r0, r8, #8
	orr.w	r0, r0, r12, lsl #24
	rsbs.w	r0, r0, #254
	ldr	r1, [sp, #144]
	sbcs.w	r0, r4, r12, lsr #8
	rev.w	r0, r8
	strd	r4, r4, [sp, #92]
	strd	r4, r4, [sp, #84]
	blo	.Laes_v7m_small_BB75_4
@ %bb.2:                                @ %then.1.i.i
	add	r2, sp, #68
	adds	r2, #6
	subs.w	r2, r11, r2
	mov.w	r3, #0
	sbc	r7, r3, #0
	rsbs.w	r2, r2, #1
	sbcs.w	r2, r3, r7
	lsr.w	r2, r0, #16
	mov	r5, r11
	blo	.Laes_v7m_small_BB75_5
@ %bb.3:                                @ %join.7.i.i.i.i.i.i.preheader.i.i
	lsrs	r0, r0, #24
	strb.w	r2, [sp, #84]
	strb.w	r0, [sp, #85]
	b	.Laes_v7m_small_BB75_6
.Laes_v7m_small_BB75_4:                               @ %join.3.i.i
	mov	r5, r11
	movw	r2, #65279
	str.w	r0, [sp, #86]
	movs	r0, #6
	strh.w	r2, [sp, #84]
	b	.Laes_v7m_small_BB75_7
.Laes_v7m_small_BB75_5:                               @ %apart.2.i.i.i.i.i.i.i.i
	strh.w	r2, [sp, #84]
.Laes_v7m_small_BB75_6:                               @ %"ccm::formatting::put_length.exit.i"
	movs	r0, #2
.Laes_v7m_small_BB75_7:                               @ %"ccm::formatting::put_length.exit.i"
	rsb.w	r2, r0, #16
	subs.w	r3, r2, r8
	mov.w	r3, #0
	sbcs.w	r3, r3, r12
	mov	r3, r12
	ite	lo
	movlo	r3, #0
	movhs	r2, r8
	subs.w	r8, r8, r2
	add	r0, r5
	add.w	r11, r1, r2
	sbc.w	r7, r12, r3
	bl	memcpy
	movs	r3, #16
	mov	r0, r10
	mov	r1, r9
	mov	r2, r5
	movs	r5, #0
	strd	r3, r5, [sp]
	bl	aes_v7m_small.cmac.chaining.chain
	mov	r0, r10
	mov	r1, r9
	mov	r2, r11
	strd	r8, r7, [sp]
	bl	aes_v7m_small.cmac.chaining.chain
	ldr	r2, [sp, #160]
	movs	r5, #1
.Laes_v7m_small_BB75_8:                               @ %"ccm::message::chain_additional::<#4f733d09d7f6c6b4>.exit"
	ldrd	r3, r7, [sp, #168]
	mov	r0, r10
	mov	r1, r9
	strd	r3, r7, [sp]
	bl	aes_v7m_small.cmac.chaining.chain
	ldr	r1, [sp, #36]                   @ 4-byte Reload
	add	r0, sp, #84
	mov	r2, r6
	rsb.w	r7, r6, #14
	str.w	r4, [sp, #95]
	str	r4, [sp, #92]
	strd	r4, r4, [sp, #84]
	bl	memcpy
	add	r2, sp, #84
	ldm	r2, {r0, r1, r2}
	ldrh.w	r3, [sp, #96]
	ldrb.w	r6, [sp, #98]
	str.w	r0, [sp, #41]
	str.w	r2, [sp, #49]
	strh.w	r3, [sp, #53]
	ldr.w	r0, [r10]
	ldr.w	r2, [r10, #8]
	ldr.w	r3, [r10, #12]
	str.w	r1, [sp, #45]
	add	r1, sp, #40
	strb.w	r7, [sp, #40]
	strb.w	r6, [sp, #55]
	strd	r5, r4, [sp, #8]
	str	r1, [sp]
	bl	aes_v7m_small.aes_narrow.blocks.process_all_batches.1
	bl	aes_v7m_small.aes_cipher.zeroize.stack.wipe_stack.1024
	ldrb.w	r0, [r9, #4]
	ldrb.w	r4, [r9, #14]
	str	r0, [sp, #36]                   @ 4-byte Spill
	ldrb.w	r0, [sp, #54]
	ldrb.w	r1, [r9, #12]
	eors	r0, r4
	ldrb.w	lr, [r9, #15]
	ldrb.w	r5, [sp, #55]
	str	r0, [sp, #28]                   @ 4-byte Spill
	ldrb.w	r0, [sp, #52]
	ldrb.w	r7, [r9, #10]
	eor.w	r5, r5, lr
	eors	r0, r1
	ldrb.w	r1, [sp, #50]
	ldrb.w	r6, [r9, #13]
	str	r5, [sp, #32]                   @ 4-byte Spill
	ldrb.w	r5, [sp, #53]
	ldrb.w	r12, [r9, #8]
	eors	r7, r1
	ldrb.w	r1, [sp, #48]
	ldrb.w	r2, [r9, #11]
	eors	r6, r5
	ldrb.w	r5, [sp, #51]
	ldrb.w	r10, [r9, #6]
	eor.w	lr, r1, r12
	ldrb.w	r1, [sp, #46]
	str	r0, [sp, #20]                   @ 4-byte Spill
	eor.w	r0, r5, r2
	ldrb.w	r3, [r9, #9]
	str	r0, [sp, #16]                   @ 4-byte Spill
	ldrb.w	r5, [sp, #49]
	eor.w	r12, r1, r10
	ldrb.w	r1, [sp, #44]
	ldr	r0, [sp, #36]                   @ 4-byte Reload
	str	r6, [sp, #24]                   @ 4-byte Spill
	eor.w	r6, r5, r3
	eor.w	r3, r1, r0
	ldrb.w	r0, [r9, #3]
	ldrb.w	r4, [sp, #43]
	ldrb.w	r11, [r9, #7]
	eor.w	r2, r4, r0
	ldrb.w	r4, [r9, #1]
	ldrb.w	r0, [sp, #41]
	ldrb.w	r5, [sp, #47]
	eors	r0, r4
	strb.w	r0, [r9, #1]
	ldr	r0, [sp, #16]                   @ 4-byte Reload
	ldrb.w	r8, [r9, #5]
	strb.w	r0, [r9, #11]
	ldr	r0, [sp, #20]                   @ 4-byte Reload
	eor.w	r11, r11, r5
	ldrb.w	r5, [sp, #45]
	strb.w	r0, [r9, #12]
	ldr	r0, [sp, #24]                   @ 4-byte Reload
	eor.w	r8, r8, r5
	ldrb.w	r5, [r9, #2]
	ldrb.w	r10, [sp, #42]
	strb.w	r0, [r9, #13]
	ldr	r0, [sp, #28]                   @ 4-byte Reload
	eor.w	r10, r10, r5
	ldrb.w	r5, [r9]
	ldrb.w	r1, [sp, #40]
	strb.w	r0, [r9, #14]
	ldr	r0, [sp, #32]                   @ 4-byte Reload
	eors	r1, r5
	strb.w	r1, [r9]
	strb.w	r10, [r9, #2]
	strb.w	r2, [r9, #3]
	strb.w	r3, [r9, #4]
	strb.w	r8, [r9, #5]
	strb.w	r12, [r9, #6]
	strb.w	r11, [r9, #7]
	strb.w	lr, [r9, #8]
	strb.w	r6, [r9, #9]
	strb.w	r7, [r9, #10]
	strb.w	r0, [r9, #15]
	add	sp, #100
	pop.w	{r4, r5, r6, r7, r8, r9, r10, r11, pc}
.Laes_v7m_small_func_end75:
	.size	aes_v7m_small.ccm.message.put_tag, .Laes_v7m_small_func_end75-aes_v7m_small.ccm.message.put_tag
	.cantunwind
	.fnend
                                        @ -- End function
	.section	.text.aes_v7m_small.ccm.mode.encrypt,"ax",%progbits
	.p2align	2                               @ -- Begin function ccm::mode::encrypt::<#4f733d09d7f6c6b4>
	.type	aes_v7m_small.ccm.mode.encrypt,%function
	.code	16
	.thumb_func
aes_v7m_small.ccm.mode.encrypt: @ @aes_v7m_small.ccm.mode.encrypt
	.fnstart
@ %bb.0:                                @ %start
	.save	{r4, r5, r6, r7, r8, r9, r10, r11, lr}
	push.w	{r4, r5, r6, r7, r8, r9, r10, r11, lr}
	.pad	#132
	sub	sp, #132
	ldrd	r4, r12, [sp, #208]
	movs	r5, #0
	subs	r7, r4, #4
	sbc	r6, r12, #0
	rsbs.w	r7, r7, #12
	sbcs.w	r7, r5, r6
	blo	.Laes_v7m_small_BB76_4
@ %bb.1:                                @ %start
	ands	r7, r4, #1
	bne	.Laes_v7m_small_BB76_4
@ %bb.2:                                @ %after.1.i
	subs.w	r7, r2, #14
	mvn	r5, #6
	sbc	r6, r3, #0
	subs	r7, r7, r5
	sbcs	r7, r6, #-1
	bhs	.Laes_v7m_small_BB76_6
@ %bb.3:
	movs	r5, #1
.Laes_v7m_small_BB76_4:                               @ %"ccm::formatting::check.exit.thread"
	movs	r0, #1
.Laes_v7m_small_BB76_5:                               @ %return.5
	mov	r1, r5
	add	sp, #132
	pop.w	{r4, r5, r6, r7, r8, r9, r10, r11, pc}
.Laes_v7m_small_BB76_6:                               @ %after.15.i
	eor	r7, r2, #7
	ldrd	r8, r11, [sp, #192]
	orrs	r7, r3
	mov.w	r10, #0
	mov.w	r7, #0
	beq	.Laes_v7m_small_BB76_9
@ %bb.7:                                @ %"ccm::formatting::check.exit"
	movs	r7, #120
	eor.w	r7, r7, r2, lsl #3
	rsb.w	r5, r7, #32
	lsr.w	r6, r8, r7
	lsl.w	r5, r11, r5
	orrs	r6, r5
	subs.w	r5, r7, #32
	lsr.w	r7, r11, r7
	it	pl
	lsrpl.w	r6, r11, r5
	it	pl
	movpl	r7, #0
	orrs	r7, r6
	it	ne
	movne	r7, #1
	beq	.Laes_v7m_small_BB76_9
@ %bb.8:
	movs	r5, #2
	mov	r0, r7
	b	.Laes_v7m_small_BB76_5
.Laes_v7m_small_BB76_9:                               @ %arm.1
	ldrd	r5, r9, [sp, #176]
	ldr	r6, [sp, #184]
	ldr.w	lr, [sp, #168]
	str	r7, [sp, #44]                   @ 4-byte Spill
	add	r7, sp, #48
	strd	r8, r11, [sp, #32]
	str	r7, [sp, #40]
	strd	r5, r9, [sp, #16]
	str	r6, [sp, #24]
	strd	r4, r12, [sp]
	mov	r9, r0
	mov	r6, r1
	mov	r5, r2
	str.w	lr, [sp, #8]
	bl	aes_v7m_small.ccm.message.put_tag
	ldr	r0, [sp, #200]
	mov	r1, r7
	mov	r2, r4
	bl	memcpy
	add	r0, sp, #64
	mov	r1, r6
	mov	r2, r5
	rsb.w	r4, r5, #14
	str.w	r10, [sp, #75]
	str.w	r10, [sp, #72]
	strd	r10, r10, [sp, #64]
	bl	memcpy
	add	r2, sp, #64
	ldm	r2, {r0, r1, r2}
	ldr.w	r3, [sp, #75]
	str.w	r0, [sp, #81]
	rsbs.w	r0, r8, #16
	sbcs.w	r0, r10, r11
	strb.w	r4, [sp, #80]
	str.w	r1, [sp, #85]
	str.w	r2, [sp, #89]
	str	r3, [sp, #92]
	str.w	r10, [sp, #100]
	str.w	r10, [sp, #96]
	bhs	.Laes_v7m_small_BB76_11
@ %bb.10:                               @ %else.2.i.i.i
	movs	r1, #16
	add	r0, sp, #80
	str	r1, [sp, #104]
	ldr	r1, [sp, #184]
	str	r0, [sp, #96]
	movs	r0, #0
	str	r0, [sp, #108]
	strd	r1, r0, [sp, #112]
	ldr.w	r0, [r9]
	ldr.w	r2, [r9, #8]
	ldr.w	r3, [r9, #12]
	add	r1, sp, #96
	str.w	r8, [sp, #120]
	str.w	r11, [sp, #124]
	str	r1, [sp]
	bl	aes_v7m_small.aes_narrow.borrowed_words.call_to_encrypt
	bl	aes_v7m_small.aes_cipher.zeroize.stack.wipe_stack.2032
	b	.Laes_v7m_small_BB76_12
.Laes_v7m_small_BB76_11:                              @ %then.1.i.i.i
	ldr	r7, [sp, #184]
	add	r1, sp, #80
	mov	r0, r9
	movs	r2, #16
	movs	r3, #0
	strd	r8, r11, [sp, #8]
	str	r7, [sp]
	bl	aes_v7m_small.aes_ctr.add_in_batches.add_to_one
.Laes_v7m_small_BB76_12:                              @ %"ccm::message::process_text::<#4f733d09d7f6c6b4>.exit"
	ldr	r0, [sp, #44]                   @ 4-byte Reload
	movs	r5, #0
	b	.Laes_v7m_small_BB76_5
.Laes_v7m_small_func_end76:
	.size	aes_v7m_small.ccm.mode.encrypt, .Laes_v7m_small_func_end76-aes_v7m_small.ccm.mode.encrypt
	.cantunwind
	.fnend
                                        @ -- End function
	.section	.text.aes_v7m_small.fotsgure_aes_version,"ax",%progbits
	export_aes_v7m_small	fotsgure_aes_version
	.p2align	2
	.type	aes_v7m_small.fotsgure_aes_version,%function
	.code	16
	.thumb_func
aes_v7m_small.fotsgure_aes_version:                   @ @aes_v7m_small.fotsgure_aes_version
	.fnstart
@ %bb.0:
	mov.w	r0, #400
	b	.Laes_v7m_small_return_8883
.Laes_v7m_small_return_8883:
	movs	r1, #0
	movs	r2, #0
	movs	r3, #0
	mov	r12, r1
	bx	lr
.Laes_v7m_small_func_end77:
	.size	aes_v7m_small.fotsgure_aes_version, .Laes_v7m_small_func_end77-aes_v7m_small.fotsgure_aes_version
	.cantunwind
	.fnend
                                        @ -- End function
	.section	.text.aes_v7m_small.fotsgure_aes_set_key,"ax",%progbits
	export_aes_v7m_small	fotsgure_aes_set_key
	.p2align	2
	.type	aes_v7m_small.fotsgure_aes_set_key,%function
	.code	16
	.thumb_func
aes_v7m_small.fotsgure_aes_set_key:                   @ @aes_v7m_small.fotsgure_aes_set_key
	.fnstart
@ %bb.0:
	.save	{r4, r5, r6, r7, r8, lr}
	push.w	{r4, r5, r6, r7, r8, lr}
	mov	r4, r2
	cmp	r2, #32
	beq	.Laes_v7m_small_BB78_3
@ %bb.1:
	bic	r2, r4, #8
	cmp	r2, #16
	beq	.Laes_v7m_small_BB78_3
@ %bb.2:                                @ %then.1.i.i
	movs	r1, #0
	mov.w	r2, #484
	bl	memset
	movs	r0, #1
	b	.Laes_v7m_small_return_8918
.Laes_v7m_small_BB78_3:                               @ %join.3.i.i
	cmp	r1, #0
	it	eq
	addeq.w	r1, r1, #4096
	add.w	r8, r0, #4
	mov	r6, r0
	mov	r0, r8
	mov	r7, r1
	movs	r1, #0
	mov.w	r2, #480
	movs	r5, #0
	bl	memset
	mov	r0, r8
	mov	r1, r7
	mov	r2, r4
	movs	r3, #0
	bl	aes_v7m_small.aes_narrow.word_room.expand_words
	bl	aes_v7m_small.aes_cipher.zeroize.stack.wipe_stack.768
	mov	r0, r5
	str	r4, [r6]
	b	.Laes_v7m_small_return_8918
.Laes_v7m_small_return_8918:
	movs	r1, #0
	movs	r2, #0
	movs	r3, #0
	mov	r12, r1
	mov	lr, r1
	pop.w	{r4, r5, r6, r7, r8, pc}
.Laes_v7m_small_func_end78:
	.size	aes_v7m_small.fotsgure_aes_set_key, .Laes_v7m_small_func_end78-aes_v7m_small.fotsgure_aes_set_key
	.cantunwind
	.fnend
                                        @ -- End function
	.section	.text.aes_v7m_small.fotsgure_aes_key_length,"ax",%progbits
	export_aes_v7m_small	fotsgure_aes_key_length
	.p2align	2
	.type	aes_v7m_small.fotsgure_aes_key_length,%function
	.code	16
	.thumb_func
aes_v7m_small.fotsgure_aes_key_length:                @ @aes_v7m_small.fotsgure_aes_key_length
	.fnstart
@ %bb.0:
	ldr	r1, [r0]
	bic	r0, r1, #8
	cmp	r0, #16
	mov	r0, r1
	it	ne
	movne	r0, #0
	cmp	r1, #32
	it	eq
	moveq	r0, r1
	b	.Laes_v7m_small_return_8970
.Laes_v7m_small_return_8970:
	movs	r1, #0
	movs	r2, #0
	movs	r3, #0
	mov	r12, r1
	bx	lr
.Laes_v7m_small_func_end79:
	.size	aes_v7m_small.fotsgure_aes_key_length, .Laes_v7m_small_func_end79-aes_v7m_small.fotsgure_aes_key_length
	.cantunwind
	.fnend
                                        @ -- End function
	.section	.text.aes_v7m_small.fotsgure_aes_wipe,"ax",%progbits
	export_aes_v7m_small	fotsgure_aes_wipe
	.p2align	2
	.type	aes_v7m_small.fotsgure_aes_wipe,%function
	.code	16
	.thumb_func
aes_v7m_small.fotsgure_aes_wipe:                      @ @aes_v7m_small.fotsgure_aes_wipe
	.fnstart
@ %bb.0:
	.save	{r4, lr}
	push	{r4, lr}
	movs	r1, #0
	mov.w	r2, #484
	adds	r4, r0, #4
	bl	memset
	mov	r0, r4
	pop.w	{r4, lr}
	b	aes_v7m_small.aes_cipher.zeroize.elements.zeroize_elements.1
.Laes_v7m_small_func_end80:
	.size	aes_v7m_small.fotsgure_aes_wipe, .Laes_v7m_small_func_end80-aes_v7m_small.fotsgure_aes_wipe
	.cantunwind
	.fnend
                                        @ -- End function
	.section	.text.aes_v7m_small.fotsgure_aes_encrypt_blocks,"ax",%progbits
	export_aes_v7m_small	fotsgure_aes_encrypt_blocks
	.p2align	2
	.type	aes_v7m_small.fotsgure_aes_encrypt_blocks,%function
	.code	16
	.thumb_func
aes_v7m_small.fotsgure_aes_encrypt_blocks:            @ @aes_v7m_small.fotsgure_aes_encrypt_blocks
	.fnstart
@ %bb.0:
	.save	{r4, lr}
	push	{r4, lr}
	.pad	#16
	sub	sp, #16
	ldr	r3, [r0]
	cmp	r3, #32
	beq	.Laes_v7m_small_BB81_3
@ %bb.1:
	bic	r4, r3, #8
	cmp	r4, #16
	beq	.Laes_v7m_small_BB81_3
@ %bb.2:
	movs	r4, #2
	b	.Laes_v7m_small_BB81_4
.Laes_v7m_small_BB81_3:                               @ %join.3.i.i
	cmp	r1, #0
	mov.w	r4, #56
	it	eq
	addeq.w	r1, r1, #4096
	lsr.w	lr, r3, #31
	adds.w	r12, r4, r3, lsl #1
	mov.w	r4, #0
	add.w	r0, r0, #4
	adc	r3, lr, #0
	strd	r2, r4, [sp, #8]
	mov	r2, r12
	str	r1, [sp]
	bl	aes_v7m_small.aes_narrow.blocks.process_all_batches.1
	bl	aes_v7m_small.aes_cipher.zeroize.stack.wipe_stack.1024
.Laes_v7m_small_BB81_4:                               @ %wide_fotsgure_aes_encrypt_blocks.exit
	mov	r0, r4
	add	sp, #16
	b	.Laes_v7m_small_return_9046
.Laes_v7m_small_return_9046:
	movs	r1, #0
	movs	r2, #0
	movs	r3, #0
	mov	r12, r1
	mov	lr, r1
	pop	{r4, pc}
.Laes_v7m_small_func_end81:
	.size	aes_v7m_small.fotsgure_aes_encrypt_blocks, .Laes_v7m_small_func_end81-aes_v7m_small.fotsgure_aes_encrypt_blocks
	.cantunwind
	.fnend
                                        @ -- End function
	.section	.text.aes_v7m_small.fotsgure_aes_decrypt_blocks,"ax",%progbits
	export_aes_v7m_small	fotsgure_aes_decrypt_blocks
	.p2align	2
	.type	aes_v7m_small.fotsgure_aes_decrypt_blocks,%function
	.code	16
	.thumb_func
aes_v7m_small.fotsgure_aes_decrypt_blocks:            @ @aes_v7m_small.fotsgure_aes_decrypt_blocks
	.fnstart
@ %bb.0:
	.save	{r4, lr}
	push	{r4, lr}
	.pad	#16
	sub	sp, #16
	ldr	r3, [r0]
	cmp	r3, #32
	beq	.Laes_v7m_small_BB82_3
@ %bb.1:
	bic	r4, r3, #8
	cmp	r4, #16
	beq	.Laes_v7m_small_BB82_3
@ %bb.2:
	movs	r4, #2
	b	.Laes_v7m_small_BB82_4
.Laes_v7m_small_BB82_3:                               @ %join.3.i.i
	cmp	r1, #0
	mov.w	r4, #56
	it	eq
	addeq.w	r1, r1, #4096
	lsr.w	lr, r3, #31
	adds.w	r12, r4, r3, lsl #1
	mov.w	r4, #0
	add.w	r0, r0, #4
	adc	r3, lr, #0
	strd	r2, r4, [sp, #8]
	mov	r2, r12
	str	r1, [sp]
	bl	aes_v7m_small.aes_narrow.blocks.process_all_batches.2
	bl	aes_v7m_small.aes_cipher.zeroize.stack.wipe_stack.1024
.Laes_v7m_small_BB82_4:                               @ %wide_fotsgure_aes_decrypt_blocks.exit
	mov	r0, r4
	add	sp, #16
	b	.Laes_v7m_small_return_9100
.Laes_v7m_small_return_9100:
	movs	r1, #0
	movs	r2, #0
	movs	r3, #0
	mov	r12, r1
	mov	lr, r1
	pop	{r4, pc}
.Laes_v7m_small_func_end82:
	.size	aes_v7m_small.fotsgure_aes_decrypt_blocks, .Laes_v7m_small_func_end82-aes_v7m_small.fotsgure_aes_decrypt_blocks
	.cantunwind
	.fnend
                                        @ -- End function
	.section	.text.aes_v7m_small.fotsgure_aes_encrypt_blocks_to,"ax",%progbits
	export_aes_v7m_small	fotsgure_aes_encrypt_blocks_to
	.p2align	2
	.type	aes_v7m_small.fotsgure_aes_encrypt_blocks_to,%function
	.code	16
	.thumb_func
aes_v7m_small.fotsgure_aes_encrypt_blocks_to:         @ @aes_v7m_small.fotsgure_aes_encrypt_blocks_to
	.fnstart
@ %bb.0:
	.save	{r4, r5, r6, r7, r8, r9, r10, r11, lr}
	push.w	{r4, r5, r6, r7, r8, r9, r10, r11, lr}
	.pad	#20
	sub	sp, #20
	mov	r8, r3
	ldr	r3, [sp, #56]
	cmp	r1, #0
	it	eq
	addeq.w	r1, r1, #4096
	cmp.w	r8, #0
	it	eq
	addeq.w	r8, r8, #4096
	cmp	r2, r3
	bne	.Laes_v7m_small_BB83_6
@ %bb.1:                                @ %join.3.i.i
	ldr	r3, [r0]
	movs	r5, #2
	subs	r3, #16
	cmp	r3, #16
	bhi.w	.Laes_v7m_small_BB83_15
@ %bb.2:                                @ %join.3.i.i
	movs	r6, #1
	lsl.w	r3, r6, r3
	movw	r6, #257
	movt	r6, #1
	tst	r3, r6
	beq.w	.Laes_v7m_small_BB83_15
@ %bb.3:                                @ %join.6.i.i
	subs.w	r3, r8, r1
	mov.w	r6, #0
	sbc	r6, r6, #0
	subs.w	r3, r3, r2, lsl #4
	sbcs.w	r3, r6, r2, lsr #28
	bhs	.Laes_v7m_small_BB83_7
@ %bb.4:                                @ %join.7.i.i.i.i.i.i.i.i.preheader
	cmp	r2, #1
	mov	r3, r2
	it	ls
	movls	r3, #1
	cmp	r2, #4
	and	r12, r3, #3
	bhs	.Laes_v7m_small_BB83_8
@ %bb.5:
	movs	r5, #0
	b	.Laes_v7m_small_BB83_11
.Laes_v7m_small_BB83_6:
	movs	r5, #3
	b	.Laes_v7m_small_BB83_15
.Laes_v7m_small_BB83_7:                               @ %apart.2.i.i.i.i.i.i.i.i
	lsls	r3, r2, #4
	mov	r5, r0
	mov	r0, r8
	mov	r6, r2
	mov	r2, r3
	bl	memmove
	mov	r0, r5
	mov	r2, r6
	b	.Laes_v7m_small_BB83_14
.Laes_v7m_small_BB83_8:                               @ %join.7.i.i.i.i.i.i.i.i.preheader.new
	bic	lr, r3, #3
	movs	r5, #0
	movs	r3, #0
	.p2align	2
.Laes_v7m_small_BB83_9:                               @ %join.7.i.i.i.i.i.i.i.i
                                        @ =>This Inner Loop Header: Depth=1
	add.w	r4, r1, r5, lsl #4
	lsls	r6, r5, #4
	ldr.w	r9, [r4, #4]
	ldr.w	r10, [r4, #8]
	ldr	r4, [r4, #12]
	add.w	r7, r8, r5, lsl #4
	ldr.w	r11, [r1, r6]
	str	r4, [r7, #12]
	orr	r4, r5, #1
	str.w	r11, [r8, r6]
	str.w	r10, [r7, #8]
	str.w	r9, [r7, #4]
	lsls	r6, r4, #4
	add.w	r7, r8, r4, lsl #4
	add.w	r4, r1, r4, lsl #4
	ldr.w	r9, [r4, #4]
	ldr.w	r10, [r4, #8]
	ldr	r4, [r4, #12]
	ldr.w	r11, [r1, r6]
	str	r4, [r7, #12]
	orr	r4, r5, #2
	str.w	r11, [r8, r6]
	str.w	r10, [r7, #8]
	str.w	r9, [r7, #4]
	lsls	r6, r4, #4
	add.w	r7, r8, r4, lsl #4
	add.w	r4, r1, r4, lsl #4
	ldr.w	r9, [r4, #4]
	ldr.w	r10, [r4, #8]
	ldr	r4, [r4, #12]
	ldr.w	r11, [r1, r6]
	str	r4, [r7, #12]
	orr	r4, r5, #3
	str.w	r11, [r8, r6]
	str.w	r10, [r7, #8]
	str.w	r9, [r7, #4]
	lsls	r6, r4, #4
	add.w	r7, r8, r4, lsl #4
	add.w	r4, r1, r4, lsl #4
	ldr.w	r9, [r4, #4]
	ldr.w	r10, [r4, #8]
	ldr	r4, [r4, #12]
	adds	r5, #4
	ldr.w	r11, [r1, r6]
	str	r4, [r7, #12]
	adc	r3, r3, #0
	eor.w	r4, r5, lr
	orrs	r4, r3
	str.w	r11, [r8, r6]
	str.w	r10, [r7, #8]
	str.w	r9, [r7, #4]
	bne	.Laes_v7m_small_BB83_9
@ %bb.10:                               @ %"core::slice::edits::slice+T::copy_from_slice::<#b9e87c6de6ee7501>.exit.i.i.loopexit.unr-lcssa"
	cmp.w	r12, #0
	beq	.Laes_v7m_small_BB83_14
.Laes_v7m_small_BB83_11:                              @ %join.7.i.i.i.i.i.i.i.i.epil.preheader
	lsls	r3, r5, #4
	add.w	r6, r1, r5, lsl #4
	ldr.w	lr, [r6, #4]
	ldr.w	r9, [r6, #8]
	ldr	r4, [r1, r3]
	ldr	r6, [r6, #12]
	add.w	r7, r8, r5, lsl #4
	cmp.w	r12, #1
	str.w	r4, [r8, r3]
	str	r6, [r7, #12]
	str.w	r9, [r7, #8]
	str.w	lr, [r7, #4]
	beq	.Laes_v7m_small_BB83_14
@ %bb.12:                               @ %join.7.i.i.i.i.i.i.i.i.epil.1
	adds	r3, r5, #1
	lsls	r7, r3, #4
	add.w	r6, r8, r3, lsl #4
	add.w	r3, r1, r3, lsl #4
	ldr.w	lr, [r3, #4]
	ldr.w	r9, [r3, #8]
	ldr	r4, [r1, r7]
	ldr	r3, [r3, #12]
	cmp.w	r12, #2
	str.w	r4, [r8, r7]
	str	r3, [r6, #12]
	str.w	r9, [r6, #8]
	str.w	lr, [r6, #4]
	beq	.Laes_v7m_small_BB83_14
@ %bb.13:                               @ %join.7.i.i.i.i.i.i.i.i.epil.2
	adds	r3, r5, #2
	lsls	r7, r3, #4
	add.w	r6, r8, r3, lsl #4
	add.w	r3, r1, r3, lsl #4
	ldr	r5, [r3, #4]
	ldr	r4, [r3, #8]
	ldr	r1, [r1, r7]
	ldr	r3, [r3, #12]
	str.w	r1, [r8, r7]
	str	r3, [r6, #12]
	str	r4, [r6, #8]
	str	r5, [r6, #4]
.Laes_v7m_small_BB83_14:                              @ %"core::slice::edits::slice+T::copy_from_slice::<#b9e87c6de6ee7501>.exit.i.i"
	ldr	r1, [r0], #4
	movs	r7, #56
	lsrs	r3, r1, #31
	adds.w	r1, r7, r1, lsl #1
	mov.w	r5, #0
	adc	r3, r3, #0
	strd	r2, r5, [sp, #8]
	mov	r2, r1
	str.w	r8, [sp]
	bl	aes_v7m_small.aes_narrow.blocks.process_all_batches.1
	bl	aes_v7m_small.aes_cipher.zeroize.stack.wipe_stack.1024
.Laes_v7m_small_BB83_15:                              @ %wide_fotsgure_aes_encrypt_blocks_to.exit
	mov	r0, r5
	add	sp, #20
	b	.Laes_v7m_small_return_9299
.Laes_v7m_small_return_9299:
	movs	r1, #0
	movs	r2, #0
	movs	r3, #0
	mov	r12, r1
	mov	lr, r1
	pop.w	{r4, r5, r6, r7, r8, r9, r10, r11, pc}
.Laes_v7m_small_func_end83:
	.size	aes_v7m_small.fotsgure_aes_encrypt_blocks_to, .Laes_v7m_small_func_end83-aes_v7m_small.fotsgure_aes_encrypt_blocks_to
	.cantunwind
	.fnend
                                        @ -- End function
	.section	.text.aes_v7m_small.fotsgure_aes_decrypt_blocks_to,"ax",%progbits
	export_aes_v7m_small	fotsgure_aes_decrypt_blocks_to
	.p2align	2
	.type	aes_v7m_small.fotsgure_aes_decrypt_blocks_to,%function
	.code	16
	.thumb_func
aes_v7m_small.fotsgure_aes_decrypt_blocks_to:         @ @aes_v7m_small.fotsgure_aes_decrypt_blocks_to
	.fnstart
@ %bb.0:
	.save	{r4, r5, r6, r7, r8, r9, r10, r11, lr}
	push.w	{r4, r5, r6, r7, r8, r9, r10, r11, lr}
	.pad	#20
	sub	sp, #20
	mov	r8, r3
	ldr	r3, [sp, #56]
	cmp	r1, #0
	it	eq
	addeq.w	r1, r1, #4096
	cmp.w	r8, #0
	it	eq
	addeq.w	r8, r8, #4096
	cmp	r2, r3
	bne	.Laes_v7m_small_BB84_6
@ %bb.1:                                @ %join.3.i.i
	ldr	r3, [r0]
	movs	r5, #2
	subs	r3, #16
	cmp	r3, #16
	bhi.w	.Laes_v7m_small_BB84_15
@ %bb.2:                                @ %join.3.i.i
	movs	r6, #1
	lsl.w	r3, r6, r3
	movw	r6, #257
	movt	r6, #1
	tst	r3, r6
	beq.w	.Laes_v7m_small_BB84_15
@ %bb.3:                                @ %join.6.i.i
	subs.w	r3, r8, r1
	mov.w	r6, #0
	sbc	r6, r6, #0
	subs.w	r3, r3, r2, lsl #4
	sbcs.w	r3, r6, r2, lsr #28
	bhs	.Laes_v7m_small_BB84_7
@ %bb.4:                                @ %join.7.i.i.i.i.i.i.i.i.preheader
	cmp	r2, #1
	mov	r3, r2
	it	ls
	movls	r3, #1
	cmp	r2, #4
	and	r12, r3, #3
	bhs	.Laes_v7m_small_BB84_8
@ %bb.5:
	movs	r5, #0
	b	.Laes_v7m_small_BB84_11
.Laes_v7m_small_BB84_6:
	movs	r5, #3
	b	.Laes_v7m_small_BB84_15
.Laes_v7m_small_BB84_7:                               @ %apart.2.i.i.i.i.i.i.i.i
	lsls	r3, r2, #4
	mov	r5, r0
	mov	r0, r8
	mov	r6, r2
	mov	r2, r3
	bl	memmove
	mov	r0, r5
	mov	r2, r6
	b	.Laes_v7m_small_BB84_14
.Laes_v7m_small_BB84_8:                               @ %join.7.i.i.i.i.i.i.i.i.preheader.new
	bic	lr, r3, #3
	movs	r5, #0
	movs	r3, #0
	.p2align	2
.Laes_v7m_small_BB84_9:                               @ %join.7.i.i.i.i.i.i.i.i
                                        @ =>This Inner Loop Header: Depth=1
	add.w	r4, r1, r5, lsl #4
	lsls	r6, r5, #4
	ldr.w	r9, [r4, #4]
	ldr.w	r10, [r4, #8]
	ldr	r4, [r4, #12]
	add.w	r7, r8, r5, lsl #4
	ldr.w	r11, [r1, r6]
	str	r4, [r7, #12]
	orr	r4, r5, #1
	str.w	r11, [r8, r6]
	str.w	r10, [r7, #8]
	str.w	r9, [r7, #4]
	lsls	r6, r4, #4
	add.w	r7, r8, r4, lsl #4
	add.w	r4, r1, r4, lsl #4
	ldr.w	r9, [r4, #4]
	ldr.w	r10, [r4, #8]
	ldr	r4, [r4, #12]
	ldr.w	r11, [r1, r6]
	str	r4, [r7, #12]
	orr	r4, r5, #2
	str.w	r11, [r8, r6]
	str.w	r10, [r7, #8]
	str.w	r9, [r7, #4]
	lsls	r6, r4, #4
	add.w	r7, r8, r4, lsl #4
	add.w	r4, r1, r4, lsl #4
	ldr.w	r9, [r4, #4]
	ldr.w	r10, [r4, #8]
	ldr	r4, [r4, #12]
	ldr.w	r11, [r1, r6]
	str	r4, [r7, #12]
	orr	r4, r5, #3
	str.w	r11, [r8, r6]
	str.w	r10, [r7, #8]
	str.w	r9, [r7, #4]
	lsls	r6, r4, #4
	add.w	r7, r8, r4, lsl #4
	add.w	r4, r1, r4, lsl #4
	ldr.w	r9, [r4, #4]
	ldr.w	r10, [r4, #8]
	ldr	r4, [r4, #12]
	adds	r5, #4
	ldr.w	r11, [r1, r6]
	str	r4, [r7, #12]
	adc	r3, r3, #0
	eor.w	r4, r5, lr
	orrs	r4, r3
	str.w	r11, [r8, r6]
	str.w	r10, [r7, #8]
	str.w	r9, [r7, #4]
	bne	.Laes_v7m_small_BB84_9
@ %bb.10:                               @ %"core::slice::edits::slice+T::copy_from_slice::<#b9e87c6de6ee7501>.exit.i.i.loopexit.unr-lcssa"
	cmp.w	r12, #0
	beq	.Laes_v7m_small_BB84_14
.Laes_v7m_small_BB84_11:                              @ %join.7.i.i.i.i.i.i.i.i.epil.preheader
	lsls	r3, r5, #4
	add.w	r6, r1, r5, lsl #4
	ldr.w	lr, [r6, #4]
	ldr.w	r9, [r6, #8]
	ldr	r4, [r1, r3]
	ldr	r6, [r6, #12]
	add.w	r7, r8, r5, lsl #4
	cmp.w	r12, #1
	str.w	r4, [r8, r3]
	str	r6, [r7, #12]
	str.w	r9, [r7, #8]
	str.w	lr, [r7, #4]
	beq	.Laes_v7m_small_BB84_14
@ %bb.12:                               @ %join.7.i.i.i.i.i.i.i.i.epil.1
	adds	r3, r5, #1
	lsls	r7, r3, #4
	add.w	r6, r8, r3, lsl #4
	add.w	r3, r1, r3, lsl #4
	ldr.w	lr, [r3, #4]
	ldr.w	r9, [r3, #8]
	ldr	r4, [r1, r7]
	ldr	r3, [r3, #12]
	cmp.w	r12, #2
	str.w	r4, [r8, r7]
	str	r3, [r6, #12]
	str.w	r9, [r6, #8]
	str.w	lr, [r6, #4]
	beq	.Laes_v7m_small_BB84_14
@ %bb.13:                               @ %join.7.i.i.i.i.i.i.i.i.epil.2
	adds	r3, r5, #2
	lsls	r7, r3, #4
	add.w	r6, r8, r3, lsl #4
	add.w	r3, r1, r3, lsl #4
	ldr	r5, [r3, #4]
	ldr	r4, [r3, #8]
	ldr	r1, [r1, r7]
	ldr	r3, [r3, #12]
	str.w	r1, [r8, r7]
	str	r3, [r6, #12]
	str	r4, [r6, #8]
	str	r5, [r6, #4]
.Laes_v7m_small_BB84_14:                              @ %"core::slice::edits::slice+T::copy_from_slice::<#b9e87c6de6ee7501>.exit.i.i"
	ldr	r1, [r0], #4
	movs	r7, #56
	lsrs	r3, r1, #31
	adds.w	r1, r7, r1, lsl #1
	mov.w	r5, #0
	adc	r3, r3, #0
	strd	r2, r5, [sp, #8]
	mov	r2, r1
	str.w	r8, [sp]
	bl	aes_v7m_small.aes_narrow.blocks.process_all_batches.2
	bl	aes_v7m_small.aes_cipher.zeroize.stack.wipe_stack.1024
.Laes_v7m_small_BB84_15:                              @ %wide_fotsgure_aes_decrypt_blocks_to.exit
	mov	r0, r5
	add	sp, #20
	b	.Laes_v7m_small_return_9498
.Laes_v7m_small_return_9498:
	movs	r1, #0
	movs	r2, #0
	movs	r3, #0
	mov	r12, r1
	mov	lr, r1
	pop.w	{r4, r5, r6, r7, r8, r9, r10, r11, pc}
.Laes_v7m_small_func_end84:
	.size	aes_v7m_small.fotsgure_aes_decrypt_blocks_to, .Laes_v7m_small_func_end84-aes_v7m_small.fotsgure_aes_decrypt_blocks_to
	.cantunwind
	.fnend
                                        @ -- End function
	.section	.text.aes_v7m_small.fotsgure_aes_add_keystream,"ax",%progbits
	export_aes_v7m_small	fotsgure_aes_add_keystream
	.p2align	2
	.type	aes_v7m_small.fotsgure_aes_add_keystream,%function
	.code	16
	.thumb_func
aes_v7m_small.fotsgure_aes_add_keystream:             @ @aes_v7m_small.fotsgure_aes_add_keystream
	.fnstart
@ %bb.0:
	.save	{r7, lr}
	push	{r7, lr}
	.pad	#8
	sub	sp, #8
	mov.w	r12, #0
	cmp	r2, #0
	it	eq
	addeq.w	r2, r2, #4096
	strd	r3, r12, [sp]
	bl	aes_v7m_small.aes_c.stream.fotsgure_aes_add_keystream
	add	sp, #8
	b	.Laes_v7m_small_return_9531
.Laes_v7m_small_return_9531:
	movs	r1, #0
	movs	r2, #0
	movs	r3, #0
	mov	r12, r1
	mov	lr, r1
	pop	{r7, pc}
.Laes_v7m_small_func_end85:
	.size	aes_v7m_small.fotsgure_aes_add_keystream, .Laes_v7m_small_func_end85-aes_v7m_small.fotsgure_aes_add_keystream
	.cantunwind
	.fnend
                                        @ -- End function
	.section	.text.aes_v7m_small.fotsgure_aes_add_keystream_to,"ax",%progbits
	export_aes_v7m_small	fotsgure_aes_add_keystream_to
	.p2align	2
	.type	aes_v7m_small.fotsgure_aes_add_keystream_to,%function
	.code	16
	.thumb_func
aes_v7m_small.fotsgure_aes_add_keystream_to:          @ @aes_v7m_small.fotsgure_aes_add_keystream_to
	.fnstart
@ %bb.0:
	.save	{r4, r5, r6, r7, r8, r9, lr}
	push.w	{r4, r5, r6, r7, r8, r9, lr}
	.pad	#4
	sub	sp, #4
	ldrd	r8, r7, [sp, #32]
	cmp	r2, #0
	it	eq
	addeq.w	r2, r2, #4096
	cmp.w	r8, #0
	it	eq
	addeq.w	r8, r8, #4096
	cmp	r3, r7
	bne	.Laes_v7m_small_BB86_3
@ %bb.1:                                @ %join.3.i.i
	ldrd	r7, r6, [r1, #16]
	adds	r7, r7, r3
	adcs	r7, r6, #0
	mov.w	r7, #0
	adcs	r7, r7, #0
	beq	.Laes_v7m_small_BB86_5
@ %bb.2:
	mov.w	r12, #4
	b	.Laes_v7m_small_BB86_4
.Laes_v7m_small_BB86_3:
	mov.w	r12, #3
.Laes_v7m_small_BB86_4:                               @ %wide_fotsgure_aes_add_keystream_to.exit
	mov	r0, r12
	add	sp, #4
	b	.Laes_v7m_small_return_9581
.Laes_v7m_small_BB86_5:                               @ %join.3.i.i.i
	ldr	r7, [r0]
	mov.w	r12, #2
	sub.w	r6, r7, #16
	cmp	r6, #16
	bhi	.Laes_v7m_small_BB86_4
@ %bb.6:                                @ %join.3.i.i.i
	movs	r7, #1
	lsls	r7, r6
	movw	r6, #257
	movt	r6, #1
	tst	r7, r6
	beq	.Laes_v7m_small_BB86_4
@ %bb.7:                                @ %join.6.i.i
	subs.w	r7, r8, r2
	mov.w	r6, #0
	sbc	r6, r6, #0
	subs	r7, r7, r3
	sbcs	r7, r6, #0
	bhs	.Laes_v7m_small_BB86_10
@ %bb.8:                                @ %join.7.i.i.i.i.i.i.i.i.preheader
	cmp	r3, #4
	and	r12, r3, #3
	bhs	.Laes_v7m_small_BB86_11
@ %bb.9:
	movs	r4, #0
	b	.Laes_v7m_small_BB86_14
.Laes_v7m_small_BB86_10:                              @ %apart.2.i.i.i.i.i.i.i.i
	mov	r4, r0
	mov	r0, r8
	mov	r6, r1
	mov	r1, r2
	mov	r2, r3
	mov	r7, r3
	bl	memmove
	mov	r0, r4
	mov	r1, r6
	mov	r3, r7
	b	.Laes_v7m_small_BB86_17
.Laes_v7m_small_BB86_11:                              @ %join.7.i.i.i.i.i.i.i.i.preheader.new
	bic	lr, r3, #3
	movs	r4, #0
	movs	r6, #0
	.p2align	2
.Laes_v7m_small_BB86_12:                              @ %join.7.i.i.i.i.i.i.i.i
                                        @ =>This Inner Loop Header: Depth=1
	ldrb	r7, [r2, r4]
	strb.w	r7, [r8, r4]
	orr	r7, r4, #1
	ldrb	r5, [r2, r7]
	strb.w	r5, [r8, r7]
	orr	r5, r4, #2
	ldrb	r7, [r2, r5]
	strb.w	r7, [r8, r5]
	orr	r5, r4, #3
	adds	r4, #4
	ldrb.w	r9, [r2, r5]
	adc	r6, r6, #0
	eor.w	r7, r4, lr
	orrs	r7, r6
	strb.w	r9, [r8, r5]
	bne	.Laes_v7m_small_BB86_12
@ %bb.13:                               @ %"core::slice::edits::slice+T::copy_from_slice::<i8,20'core::clone::U8Clone{}>.exit.i.i.loopexit.unr-lcssa"
	cmp.w	r12, #0
	beq	.Laes_v7m_small_BB86_17
.Laes_v7m_small_BB86_14:                              @ %join.7.i.i.i.i.i.i.i.i.epil.preheader
	ldrb	r7, [r2, r4]
	cmp.w	r12, #1
	strb.w	r7, [r8, r4]
	beq	.Laes_v7m_small_BB86_17
@ %bb.15:                               @ %join.7.i.i.i.i.i.i.i.i.epil.1
	adds	r7, r4, #1
	ldrb	r6, [r2, r7]
	cmp.w	r12, #2
	strb.w	r6, [r8, r7]
	beq	.Laes_v7m_small_BB86_17
@ %bb.16:                               @ %join.7.i.i.i.i.i.i.i.i.epil.2
	adds	r7, r4, #2
	ldrb	r2, [r2, r7]
	strb.w	r2, [r8, r7]
.Laes_v7m_small_BB86_17:                              @ %"core::slice::edits::slice+T::copy_from_slice::<i8,20'core::clone::U8Clone{}>.exit.i.i"
	movs	r2, #0
	str	r2, [sp, #36]
	mov	r2, r8
	str	r3, [sp, #32]
	add	sp, #4
	pop.w	{r4, r5, r6, r7, r8, r9, lr}
	b	aes_v7m_small.aes_c.stream.fotsgure_aes_add_keystream
.Laes_v7m_small_return_9581:
	movs	r1, #0
	movs	r2, #0
	movs	r3, #0
	mov	r12, r1
	mov	lr, r1
	pop.w	{r4, r5, r6, r7, r8, r9, pc}
.Laes_v7m_small_func_end86:
	.size	aes_v7m_small.fotsgure_aes_add_keystream_to, .Laes_v7m_small_func_end86-aes_v7m_small.fotsgure_aes_add_keystream_to
	.cantunwind
	.fnend
                                        @ -- End function
	.section	.text.aes_v7m_small.fotsgure_aes_cbc_encrypt,"ax",%progbits
	export_aes_v7m_small	fotsgure_aes_cbc_encrypt
	.p2align	2
	.type	aes_v7m_small.fotsgure_aes_cbc_encrypt,%function
	.code	16
	.thumb_func
aes_v7m_small.fotsgure_aes_cbc_encrypt:               @ @aes_v7m_small.fotsgure_aes_cbc_encrypt
	.fnstart
@ %bb.0:
	.save	{r4, r5, r6, r7, r8, r9, r10, r11, lr}
	push.w	{r4, r5, r6, r7, r8, r9, r10, r11, lr}
	.pad	#124
	sub	sp, #124
	ldr	r7, [r0]
	cmp	r2, #0
	it	eq
	addeq.w	r2, r2, #4096
	cmp	r7, #32
	str	r2, [sp, #36]                   @ 4-byte Spill
	str	r3, [sp, #40]                   @ 4-byte Spill
	beq	.Laes_v7m_small_BB87_3
@ %bb.1:
	bic	r2, r7, #8
	cmp	r2, #16
	beq	.Laes_v7m_small_BB87_3
@ %bb.2:
	movs	r0, #2
	add	sp, #124
	b	.Laes_v7m_small_return_9710
.Laes_v7m_small_BB87_3:                               @ %join.3.i.i
	movs	r3, #56
	lsrs	r2, r7, #31
	adds.w	r3, r3, r7, lsl #1
	adc	r2, r2, #0
	str	r3, [sp, #28]                   @ 4-byte Spill
	str	r2, [sp, #32]                   @ 4-byte Spill
	ldr	r6, [r1]
	ldr	r2, [r1, #4]
	ldr	r3, [r1, #12]
	str	r1, [sp, #20]                   @ 4-byte Spill
	ldr	r7, [r1, #8]
	ldr	r1, [sp, #40]                   @ 4-byte Reload
	str	r3, [sp, #120]
	cmp	r1, #0
	strd	r2, r7, [sp, #112]
	str	r6, [sp, #108]
	beq.w	.Laes_v7m_small_BB87_6
@ %bb.4:                                @ %join.5.lr.ph.i.i.i
	adds	r0, #4
	str	r0, [sp, #24]                   @ 4-byte Spill
	ldrb.w	r0, [sp, #108]
	ldrb.w	r12, [sp, #116]
	str	r0, [sp, #84]                   @ 4-byte Spill
	ldrb.w	r0, [sp, #109]
	ldrb.w	r8, [sp, #117]
	str	r0, [sp, #100]                  @ 4-byte Spill
	ldrb.w	r0, [sp, #110]
	ldrb.w	lr, [sp, #118]
	str	r0, [sp, #92]                   @ 4-byte Spill
	ldrb.w	r0, [sp, #111]
	ldrb.w	r11, [sp, #119]
	str	r0, [sp, #96]                   @ 4-byte Spill
	ldrb.w	r0, [sp, #112]
	ldrb.w	r4, [sp, #120]
	str	r0, [sp, #104]                  @ 4-byte Spill
	ldrb.w	r0, [sp, #113]
	ldrb.w	r10, [sp, #121]
	str	r0, [sp, #88]                   @ 4-byte Spill
	ldrb.w	r0, [sp, #114]
	ldrb.w	r3, [sp, #122]
	str	r0, [sp, #76]                   @ 4-byte Spill
	ldrb.w	r0, [sp, #115]
	ldrb.w	r7, [sp, #123]
	movs	r2, #0
	movs	r5, #0
	str	r0, [sp, #80]                   @ 4-byte Spill
	.p2align	2
.Laes_v7m_small_BB87_5:                               @ %join.5.i.i.i
                                        @ =>This Inner Loop Header: Depth=1
	str	r5, [sp, #72]                   @ 4-byte Spill
	ldr	r5, [sp, #36]                   @ 4-byte Reload
	add.w	r9, r5, r2, lsl #4
	ldrb.w	r0, [r9, #15]
	ldrb.w	r1, [r9, #14]
	eors	r0, r7
	str	r0, [sp, #68]                   @ 4-byte Spill
	eor.w	r0, r1, r3
	str	r0, [sp, #64]                   @ 4-byte Spill
	ldrb.w	r0, [r9, #13]
	ldrb.w	r1, [r9, #12]
	eor.w	r0, r0, r10
	str	r0, [sp, #60]                   @ 4-byte Spill
	eor.w	r0, r1, r4
	str	r0, [sp, #56]                   @ 4-byte Spill
	ldrb.w	r0, [r9, #11]
	ldrb.w	r1, [r9, #10]
	eor.w	r0, r0, r11
	ldrb.w	r7, [r9, #9]
	str	r0, [sp, #52]                   @ 4-byte Spill
	eor.w	r0, r1, lr
	str	r0, [sp, #48]                   @ 4-byte Spill
	eor.w	r0, r7, r8
	ldrb.w	r7, [r9, #7]
	ldr	r1, [sp, #80]                   @ 4-byte Reload
	str	r0, [sp, #44]                   @ 4-byte Spill
	ldrb.w	r0, [r9, #6]
	eors	r7, r1
	ldr	r1, [sp, #76]                   @ 4-byte Reload
	ldrb.w	r6, [r9, #8]
	eor.w	lr, r0, r1
	ldrb.w	r1, [r9, #5]
	ldr	r0, [sp, #88]                   @ 4-byte Reload
	eor.w	r3, r6, r12
	ldrb.w	r4, [r9, #4]
	eor.w	r12, r1, r0
	ldr	r0, [sp, #104]                  @ 4-byte Reload
	ldrb.w	r10, [r9, #2]
	eor.w	r8, r4, r0
	ldrb.w	r4, [r9, #3]
	ldr	r0, [sp, #96]                   @ 4-byte Reload
	mov	r6, r2
	eors	r4, r0
	ldr	r0, [sp, #92]                   @ 4-byte Reload
	ldrb.w	r1, [r9, #1]
	eor.w	r11, r10, r0
	lsls	r0, r2, #4
	str	r0, [sp, #96]                   @ 4-byte Spill
	ldrb	r0, [r5, r0]
	ldr	r2, [sp, #84]                   @ 4-byte Reload
	ldr.w	r10, [sp, #100]                 @ 4-byte Reload
	eors	r0, r2
	strb.w	r0, [sp, #108]
	ldr	r0, [sp, #44]                   @ 4-byte Reload
	eor.w	r1, r1, r10
	strb.w	r0, [sp, #117]
	ldr	r0, [sp, #48]                   @ 4-byte Reload
	strb.w	r1, [sp, #109]
	strb.w	r0, [sp, #118]
	ldr	r0, [sp, #52]                   @ 4-byte Reload
	movs	r1, #0
	strb.w	r0, [sp, #119]
	ldr	r0, [sp, #56]                   @ 4-byte Reload
	ldr	r2, [sp, #28]                   @ 4-byte Reload
	strb.w	r0, [sp, #120]
	ldr	r0, [sp, #60]                   @ 4-byte Reload
	strb.w	r3, [sp, #116]
	strb.w	r0, [sp, #121]
	ldr	r0, [sp, #64]                   @ 4-byte Reload
	ldr	r3, [sp, #32]                   @ 4-byte Reload
	strb.w	r0, [sp, #122]
	ldr	r0, [sp, #68]                   @ 4-byte Reload
	strb.w	r11, [sp, #110]
	strb.w	r0, [sp, #123]
	movs	r0, #1
	strd	r0, r1, [sp, #8]
	ldr	r0, [sp, #24]                   @ 4-byte Reload
	add	r1, sp, #108
	strb.w	r4, [sp, #111]
	strb.w	r8, [sp, #112]
	strb.w	r12, [sp, #113]
	strb.w	lr, [sp, #114]
	strb.w	r7, [sp, #115]
	str	r1, [sp]
	bl	aes_v7m_small.aes_narrow.blocks.process_all_batches.1
	bl	aes_v7m_small.aes_cipher.zeroize.stack.wipe_stack.1024
	ldrb.w	r7, [sp, #116]
	ldrb.w	r1, [sp, #112]
	ldrb.w	r0, [sp, #109]
	str	r7, [sp, #68]                   @ 4-byte Spill
	ldrb.w	r7, [sp, #117]
	str	r1, [sp, #104]                  @ 4-byte Spill
	ldrb.w	r4, [sp, #108]
	str	r7, [sp, #64]                   @ 4-byte Spill
	ldr	r7, [sp, #96]                   @ 4-byte Reload
	str	r0, [sp, #100]                  @ 4-byte Spill
	strb.w	r0, [r9, #1]
	ldr	r0, [sp, #104]                  @ 4-byte Reload
	ldrb.w	r2, [sp, #110]
	ldrb.w	r10, [sp, #114]
	ldrb.w	r3, [sp, #111]
	ldrb.w	r8, [sp, #115]
	ldrb.w	r12, [sp, #120]
	strb	r4, [r5, r7]
	ldr	r5, [sp, #72]                   @ 4-byte Reload
	strb.w	r0, [r9, #4]
	ldr	r0, [sp, #40]                   @ 4-byte Reload
	str	r4, [sp, #84]                   @ 4-byte Spill
	mov	r4, r10
	str	r2, [sp, #92]                   @ 4-byte Spill
	strb.w	r2, [r9, #2]
	adds	r2, r6, #1
	ldrb.w	r1, [sp, #113]
	ldrb.w	lr, [sp, #118]
	ldrb.w	r11, [sp, #119]
	ldrb.w	r10, [sp, #121]
	str	r3, [sp, #96]                   @ 4-byte Spill
	strb.w	r3, [r9, #3]
	str	r4, [sp, #76]                   @ 4-byte Spill
	strb.w	r4, [r9, #6]
	str.w	r8, [sp, #80]                   @ 4-byte Spill
	strb.w	r8, [r9, #7]
	ldr.w	r8, [sp, #64]                   @ 4-byte Reload
	mov	r4, r12
	ldr.w	r12, [sp, #68]                  @ 4-byte Reload
	ldrb.w	r3, [sp, #122]
	adc	r5, r5, #0
	subs	r0, r2, r0
	ldrb.w	r7, [sp, #123]
	sbcs	r0, r5, #0
	str	r1, [sp, #88]                   @ 4-byte Spill
	strb.w	r1, [r9, #5]
	strb.w	r12, [r9, #8]
	strb.w	r8, [r9, #9]
	strb.w	lr, [r9, #10]
	strb.w	r11, [r9, #11]
	strb.w	r4, [r9, #12]
	strb.w	r10, [r9, #13]
	strb.w	r3, [r9, #14]
	strb.w	r7, [r9, #15]
	blo.w	.Laes_v7m_small_BB87_5
.Laes_v7m_small_BB87_6:                               @ %"cbc::chain::Cbc::encrypt_blocks::<#4f733d09d7f6c6b4>.exit.i.i"
	add	r3, sp, #108
	ldr	r2, [sp, #120]
	ldm	r3, {r0, r1, r3}
	ldr	r7, [sp, #20]                   @ 4-byte Reload
	str	r2, [r7, #12]
	str	r3, [r7, #8]
	str	r1, [r7, #4]
	str	r0, [r7]
	movs	r0, #0
	add	sp, #124
	b	.Laes_v7m_small_return_9710
.Laes_v7m_small_return_9710:
	movs	r1, #0
	movs	r2, #0
	movs	r3, #0
	mov	r12, r1
	mov	lr, r1
	pop.w	{r4, r5, r6, r7, r8, r9, r10, r11, pc}
.Laes_v7m_small_func_end87:
	.size	aes_v7m_small.fotsgure_aes_cbc_encrypt, .Laes_v7m_small_func_end87-aes_v7m_small.fotsgure_aes_cbc_encrypt
	.cantunwind
	.fnend
                                        @ -- End function
	.section	.text.aes_v7m_small.fotsgure_aes_cbc_decrypt,"ax",%progbits
	export_aes_v7m_small	fotsgure_aes_cbc_decrypt
	.p2align	2
	.type	aes_v7m_small.fotsgure_aes_cbc_decrypt,%function
	.code	16
	.thumb_func
aes_v7m_small.fotsgure_aes_cbc_decrypt:               @ @aes_v7m_small.fotsgure_aes_cbc_decrypt
	.fnstart
@ %bb.0:
	.save	{r4, r5, r6, r7, lr}
	push	{r4, r5, r6, r7, lr}
	.pad	#44
	sub	sp, #44
	ldr.w	r12, [r0]
	cmp.w	r12, #32
	beq	.Laes_v7m_small_BB88_3
@ %bb.1:
	bic	r4, r12, #8
	cmp	r4, #16
	beq	.Laes_v7m_small_BB88_3
@ %bb.2:
	movs	r4, #2
	b	.Laes_v7m_small_BB88_4
.Laes_v7m_small_BB88_3:                               @ %join.3.i.i
	cmp	r2, #0
	mov.w	r4, #56
	it	eq
	addeq.w	r2, r2, #4096
	lsr.w	lr, r12, #31
	adds.w	r12, r4, r12, lsl #1
	ldr	r4, [r1]
	ldr	r5, [r1, #4]
	ldr	r6, [r1, #12]
	adc	lr, lr, #0
	ldr	r7, [r1, #8]
	str	r4, [sp, #8]
	movs	r4, #0
	adds	r0, #4
	str	r5, [sp, #12]
	strd	r6, r2, [sp, #20]
	strd	r4, r3, [sp, #28]
	add	r5, sp, #8
	mov	r2, r12
	mov	r3, lr
	str	r7, [sp, #16]
	str	r4, [sp, #36]
	str	r5, [sp]
	mov	r5, r1
	bl	aes_v7m_small.aes_narrow.borrowed_words.call_to_decrypt
	bl	aes_v7m_small.aes_cipher.zeroize.stack.wipe_stack.2032
	add	r3, sp, #8
	ldr	r2, [sp, #20]
	ldm	r3, {r0, r1, r3}
	str	r2, [r5, #12]
	str	r3, [r5, #8]
	str	r1, [r5, #4]
	str	r0, [r5]
.Laes_v7m_small_BB88_4:                               @ %wide_fotsgure_aes_cbc_decrypt.exit
	mov	r0, r4
	add	sp, #44
	b	.Laes_v7m_small_return_9986
.Laes_v7m_small_return_9986:
	movs	r1, #0
	movs	r2, #0
	movs	r3, #0
	mov	r12, r1
	mov	lr, r1
	pop	{r4, r5, r6, r7, pc}
.Laes_v7m_small_func_end88:
	.size	aes_v7m_small.fotsgure_aes_cbc_decrypt, .Laes_v7m_small_func_end88-aes_v7m_small.fotsgure_aes_cbc_decrypt
	.cantunwind
	.fnend
                                        @ -- End function
	.section	.text.aes_v7m_small.fotsgure_aes_wrap,"ax",%progbits
	export_aes_v7m_small	fotsgure_aes_wrap
	.p2align	2
	.type	aes_v7m_small.fotsgure_aes_wrap,%function
	.code	16
	.thumb_func
aes_v7m_small.fotsgure_aes_wrap:                      @ @aes_v7m_small.fotsgure_aes_wrap
	.fnstart
@ %bb.0:
	.save	{r4, r5, r7, lr}
	push	{r4, r5, r7, lr}
	.pad	#32
	sub	sp, #32
	ldr.w	r12, [r0]
	cmp.w	r12, #32
	beq	.Laes_v7m_small_BB89_3
@ %bb.1:
	bic	lr, r12, #8
	cmp.w	lr, #16
	beq	.Laes_v7m_small_BB89_3
@ %bb.2:
	movs	r0, #2
	add	sp, #32
	b	.Laes_v7m_small_return_10022
.Laes_v7m_small_BB89_3:                               @ %join.3.i.i
	cmp	r3, #0
	ldr.w	lr, [sp, #48]
	it	eq
	addeq.w	r3, r3, #4096
	cmp	r1, #0
	add.w	r0, r0, #4
	mov.w	r5, #56
	it	eq
	addeq.w	r1, r1, #4096
	lsr.w	r4, r12, #31
	adds.w	r5, r5, r12, lsl #1
	str	r0, [sp, #16]
	mov.w	r0, #0
	adc	r4, r4, #0
	strd	r0, r5, [sp, #20]
	strd	lr, r0, [sp, #8]
	add	r0, sp, #16
	mov	r5, r3
	movs	r3, #0
	str	r4, [sp, #28]
	str	r5, [sp]
	bl	aes_v7m_small.key_wrap.wrapping.wrap
	uxtb	r4, r0
	bl	aes_v7m_small.aes_cipher.zeroize.stack.wipe_stack.512
	mov	r0, r4
	cmp	r4, #0
	it	ne
	movne	r0, #5
	add	sp, #32
	b	.Laes_v7m_small_return_10022
.Laes_v7m_small_return_10022:
	movs	r1, #0
	movs	r2, #0
	movs	r3, #0
	mov	r12, r1
	mov	lr, r1
	pop	{r4, r5, r7, pc}
.Laes_v7m_small_func_end89:
	.size	aes_v7m_small.fotsgure_aes_wrap, .Laes_v7m_small_func_end89-aes_v7m_small.fotsgure_aes_wrap
	.cantunwind
	.fnend
                                        @ -- End function
	.section	.text.aes_v7m_small.fotsgure_aes_unwrap,"ax",%progbits
	export_aes_v7m_small	fotsgure_aes_unwrap
	.p2align	2
	.type	aes_v7m_small.fotsgure_aes_unwrap,%function
	.code	16
	.thumb_func
aes_v7m_small.fotsgure_aes_unwrap:                    @ @aes_v7m_small.fotsgure_aes_unwrap
	.fnstart
@ %bb.0:
	.save	{r4, r5, r7, lr}
	push	{r4, r5, r7, lr}
	.pad	#32
	sub	sp, #32
	ldr.w	r12, [r0]
	cmp.w	r12, #32
	beq	.Laes_v7m_small_BB90_3
@ %bb.1:
	bic	r4, r12, #8
	cmp	r4, #16
	beq	.Laes_v7m_small_BB90_3
@ %bb.2:
	movs	r0, #2
	add	sp, #32
	b	.Laes_v7m_small_return_10089
.Laes_v7m_small_BB90_3:                               @ %join.3.i.i
	cmp	r3, #0
	ldr.w	lr, [sp, #48]
	it	eq
	addeq.w	r3, r3, #4096
	cmp	r1, #0
	add.w	r0, r0, #4
	mov.w	r5, #56
	it	eq
	addeq.w	r1, r1, #4096
	lsr.w	r4, r12, #31
	adds.w	r5, r5, r12, lsl #1
	str	r0, [sp, #16]
	mov.w	r0, #0
	adc	r4, r4, #0
	strd	r0, r5, [sp, #20]
	strd	lr, r0, [sp, #8]
	add	r0, sp, #16
	mov	r5, r3
	movs	r3, #0
	str	r4, [sp, #28]
	str	r5, [sp]
	bl	aes_v7m_small.key_wrap.wrapping.unwrap
	mov	r4, r1
	uxtb	r5, r0
	bl	aes_v7m_small.aes_cipher.zeroize.stack.wipe_stack.512
	lsls	r0, r4, #24
	mov.w	r0, #6
	it	eq
	moveq	r0, #5
	cmp	r5, #0
	it	eq
	moveq	r0, r5
	add	sp, #32
	b	.Laes_v7m_small_return_10089
.Laes_v7m_small_return_10089:
	movs	r1, #0
	movs	r2, #0
	movs	r3, #0
	mov	r12, r1
	mov	lr, r1
	pop	{r4, r5, r7, pc}
.Laes_v7m_small_func_end90:
	.size	aes_v7m_small.fotsgure_aes_unwrap, .Laes_v7m_small_func_end90-aes_v7m_small.fotsgure_aes_unwrap
	.cantunwind
	.fnend
                                        @ -- End function
	.section	.text.aes_v7m_small.fotsgure_aes_wrap_padded,"ax",%progbits
	export_aes_v7m_small	fotsgure_aes_wrap_padded
	.p2align	2
	.type	aes_v7m_small.fotsgure_aes_wrap_padded,%function
	.code	16
	.thumb_func
aes_v7m_small.fotsgure_aes_wrap_padded:               @ @aes_v7m_small.fotsgure_aes_wrap_padded
	.fnstart
@ %bb.0:
	.save	{r4, r5, r7, lr}
	push	{r4, r5, r7, lr}
	.pad	#32
	sub	sp, #32
	ldr.w	r12, [r0]
	cmp.w	r12, #32
	beq	.Laes_v7m_small_BB91_3
@ %bb.1:
	bic	lr, r12, #8
	cmp.w	lr, #16
	beq	.Laes_v7m_small_BB91_3
@ %bb.2:
	movs	r0, #2
	add	sp, #32
	b	.Laes_v7m_small_return_10160
.Laes_v7m_small_BB91_3:                               @ %join.3.i.i
	cmp	r3, #0
	ldr.w	lr, [sp, #48]
	it	eq
	addeq.w	r3, r3, #4096
	cmp	r1, #0
	add.w	r0, r0, #4
	mov.w	r5, #56
	it	eq
	addeq.w	r1, r1, #4096
	lsr.w	r4, r12, #31
	adds.w	r5, r5, r12, lsl #1
	str	r0, [sp, #16]
	mov.w	r0, #0
	adc	r4, r4, #0
	strd	r0, r5, [sp, #20]
	strd	lr, r0, [sp, #8]
	add	r0, sp, #16
	mov	r5, r3
	movs	r3, #0
	str	r4, [sp, #28]
	str	r5, [sp]
	bl	aes_v7m_small.key_wrap.padded.wrap_padded
	uxtb	r4, r0
	bl	aes_v7m_small.aes_cipher.zeroize.stack.wipe_stack.512
	mov	r0, r4
	cmp	r4, #0
	it	ne
	movne	r0, #5
	add	sp, #32
	b	.Laes_v7m_small_return_10160
.Laes_v7m_small_return_10160:
	movs	r1, #0
	movs	r2, #0
	movs	r3, #0
	mov	r12, r1
	mov	lr, r1
	pop	{r4, r5, r7, pc}
.Laes_v7m_small_func_end91:
	.size	aes_v7m_small.fotsgure_aes_wrap_padded, .Laes_v7m_small_func_end91-aes_v7m_small.fotsgure_aes_wrap_padded
	.cantunwind
	.fnend
                                        @ -- End function
	.section	.text.aes_v7m_small.fotsgure_aes_unwrap_padded,"ax",%progbits
	export_aes_v7m_small	fotsgure_aes_unwrap_padded
	.p2align	2
	.type	aes_v7m_small.fotsgure_aes_unwrap_padded,%function
	.code	16
	.thumb_func
aes_v7m_small.fotsgure_aes_unwrap_padded:             @ @aes_v7m_small.fotsgure_aes_unwrap_padded
	.fnstart
@ %bb.0:
	.save	{r4, r5, r6, r7, r8, lr}
	push.w	{r4, r5, r6, r7, r8, lr}
	.pad	#48
	sub	sp, #48
	ldr	r5, [r0]
	ldr.w	r8, [sp, #76]
	movs	r4, #0
	cmp	r5, #32
	str	r4, [sp, #44]
	str	r4, [sp, #40]
	beq	.Laes_v7m_small_BB92_3
@ %bb.1:
	bic	r6, r5, #8
	cmp	r6, #16
	beq	.Laes_v7m_small_BB92_3
@ %bb.2:
	movs	r0, #2
	b	.Laes_v7m_small_BB92_6
.Laes_v7m_small_BB92_3:                               @ %join.3.i.i
	ldr.w	r12, [sp, #72]
	cmp	r3, #0
	it	eq
	addeq.w	r3, r3, #4096
	cmp	r1, #0
	mov.w	r6, #56
	it	eq
	addeq.w	r1, r1, #4096
	adds	r0, #4
	lsrs	r7, r5, #31
	adds.w	r6, r6, r5, lsl #1
	add.w	lr, sp, #24
	strd	r12, r4, [sp, #16]
	add.w	r12, sp, #24
	adc	r7, r7, #0
	stm.w	lr, {r0, r4, r6, r7}
	strd	r2, r4, [sp]
	add	r0, sp, #40
	mov	r2, r1
	mov	r1, r12
	str	r3, [sp, #8]
	bl	aes_v7m_small.key_wrap.padded.unwrap_padded
	bl	aes_v7m_small.aes_cipher.zeroize.stack.wipe_stack.512
	ldrb.w	r0, [sp, #40]
	cbz	r0, .Laes_v7m_small_BB92_5
@ %bb.4:                                @ %arm.5.i.i
	ldrb.w	r0, [sp, #41]
	movs	r4, #0
	cmp	r0, #0
	mov.w	r0, #6
	it	eq
	moveq	r0, #5
	b	.Laes_v7m_small_BB92_6
.Laes_v7m_small_BB92_5:                               @ %arm.4.i.i
	ldr	r4, [sp, #44]
	movs	r0, #0
.Laes_v7m_small_BB92_6:                               @ %wide_fotsgure_aes_unwrap_padded.exit
	str.w	r4, [r8]
	add	sp, #48
	b	.Laes_v7m_small_return_10271
.Laes_v7m_small_return_10271:
	movs	r1, #0
	movs	r2, #0
	movs	r3, #0
	mov	r12, r1
	mov	lr, r1
	pop.w	{r4, r5, r6, r7, r8, pc}
.Laes_v7m_small_func_end92:
	.size	aes_v7m_small.fotsgure_aes_unwrap_padded, .Laes_v7m_small_func_end92-aes_v7m_small.fotsgure_aes_unwrap_padded
	.cantunwind
	.fnend
                                        @ -- End function
	.section	.text.aes_v7m_small.fotsgure_aes_cmac,"ax",%progbits
	export_aes_v7m_small	fotsgure_aes_cmac
	.p2align	2
	.type	aes_v7m_small.fotsgure_aes_cmac,%function
	.code	16
	.thumb_func
aes_v7m_small.fotsgure_aes_cmac:                      @ @aes_v7m_small.fotsgure_aes_cmac
	.fnstart
@ %bb.0:
	.save	{r4, r5, r7, lr}
	push	{r4, r5, r7, lr}
	.pad	#40
	sub	sp, #40
	ldr	r5, [r0]
	mov	r4, r3
	mov	r12, r2
	cmp	r5, #32
	mov	r2, r1
	beq	.Laes_v7m_small_BB93_3
@ %bb.1:
	bic	r1, r5, #8
	cmp	r1, #16
	beq	.Laes_v7m_small_BB93_3
@ %bb.2:
	movs	r5, #2
	b	.Laes_v7m_small_BB93_4
.Laes_v7m_small_BB93_3:                               @ %join.3.i.i
	cmp	r2, #0
	mov.w	r3, #56
	it	eq
	addeq.w	r2, r2, #4096
	lsrs	r1, r5, #31
	adds.w	r3, r3, r5, lsl #1
	add.w	r0, r0, #4
	adc	r1, r1, #0
	str	r0, [sp, #8]
	movs	r5, #0
	str	r1, [sp, #20]
	add	r0, sp, #24
	add	r1, sp, #8
	strd	r5, r3, [sp, #12]
	strd	r12, r5, [sp]
	bl	aes_v7m_small.cmac.tags.tag
	add	r3, sp, #24
	ldr	r2, [sp, #36]
	ldm	r3, {r0, r1, r3}
	str	r2, [r4, #12]
	str	r3, [r4, #8]
	str	r1, [r4, #4]
	str	r0, [r4]
	bl	aes_v7m_small.aes_cipher.zeroize.stack.wipe_stack.768
.Laes_v7m_small_BB93_4:                               @ %wide_fotsgure_aes_cmac.exit
	mov	r0, r5
	add	sp, #40
	b	.Laes_v7m_small_return_10338
.Laes_v7m_small_return_10338:
	movs	r1, #0
	movs	r2, #0
	movs	r3, #0
	mov	r12, r1
	mov	lr, r1
	pop	{r4, r5, r7, pc}
.Laes_v7m_small_func_end93:
	.size	aes_v7m_small.fotsgure_aes_cmac, .Laes_v7m_small_func_end93-aes_v7m_small.fotsgure_aes_cmac
	.cantunwind
	.fnend
                                        @ -- End function
	.section	.text.aes_v7m_small.fotsgure_aes_cmac_verify,"ax",%progbits
	export_aes_v7m_small	fotsgure_aes_cmac_verify
	.p2align	2
	.type	aes_v7m_small.fotsgure_aes_cmac_verify,%function
	.code	16
	.thumb_func
aes_v7m_small.fotsgure_aes_cmac_verify:               @ @aes_v7m_small.fotsgure_aes_cmac_verify
	.fnstart
@ %bb.0:
	.save	{r4, r5, r7, lr}
	push	{r4, r5, r7, lr}
	.pad	#32
	sub	sp, #32
	cmp	r1, #0
	it	eq
	addeq.w	r1, r1, #4096
	ldr.w	lr, [r0]
	cmp	r3, #0
	it	eq
	addeq.w	r3, r3, #4096
	cmp.w	lr, #32
	beq	.Laes_v7m_small_BB94_3
@ %bb.1:
	bic	r4, lr, #8
	cmp	r4, #16
	beq	.Laes_v7m_small_BB94_3
@ %bb.2:
	movs	r0, #2
	add	sp, #32
	b	.Laes_v7m_small_return_10380
.Laes_v7m_small_BB94_3:                               @ %join.3.i.i
	ldr.w	r12, [sp, #48]
	sub.w	r4, r12, #4
	cmp	r4, #12
	bhi	.Laes_v7m_small_BB94_5
@ %bb.4:                                @ %join.6.i.i
	adds	r0, #4
	movs	r5, #56
	lsr.w	r4, lr, #31
	adds.w	r5, r5, lr, lsl #1
	str	r0, [sp, #16]
	mov.w	r0, #0
	adc	r4, r4, #0
	strd	r0, r5, [sp, #20]
	strd	r12, r0, [sp, #8]
	add	r0, sp, #16
	mov	r5, r3
	movs	r3, #0
	str	r4, [sp, #28]
	str	r5, [sp]
	bl	aes_v7m_small.cmac.tags.is_tag_start
	mov	r4, r0
	bl	aes_v7m_small.aes_cipher.zeroize.stack.wipe_stack.768
	movs	r0, #6
	cmp	r4, #0
	it	ne
	movne	r0, #0
	add	sp, #32
	b	.Laes_v7m_small_return_10380
.Laes_v7m_small_BB94_5:
	movs	r0, #7
	add	sp, #32
	b	.Laes_v7m_small_return_10380
.Laes_v7m_small_return_10380:
	movs	r1, #0
	movs	r2, #0
	movs	r3, #0
	mov	r12, r1
	mov	lr, r1
	pop	{r4, r5, r7, pc}
.Laes_v7m_small_func_end94:
	.size	aes_v7m_small.fotsgure_aes_cmac_verify, .Laes_v7m_small_func_end94-aes_v7m_small.fotsgure_aes_cmac_verify
	.cantunwind
	.fnend
                                        @ -- End function
	.section	.text.aes_v7m_small.fotsgure_aes_cmac_begin,"ax",%progbits
	export_aes_v7m_small	fotsgure_aes_cmac_begin
	.p2align	2
	.type	aes_v7m_small.fotsgure_aes_cmac_begin,%function
	.code	16
	.thumb_func
aes_v7m_small.fotsgure_aes_cmac_begin:                @ @aes_v7m_small.fotsgure_aes_cmac_begin
	.fnstart
@ %bb.0:
	.save	{r4, r5, r6, lr}
	push	{r4, r5, r6, lr}
	ldr	r0, [r0]
	movs	r5, #2
	subs	r0, #16
	cmp	r0, #16
	bhi	.Laes_v7m_small_BB95_3
@ %bb.1:
	mov	r4, r1
	movs	r6, #1
	movw	r1, #257
	lsl.w	r0, r6, r0
	movt	r1, #1
	tst	r0, r1
	beq	.Laes_v7m_small_BB95_3
@ %bb.2:                                @ %join.3.i.i
	add.w	r0, r4, #8
	movs	r1, #0
	movs	r2, #40
	movs	r5, #0
	bl	memset
	strd	r6, r5, [r4]
.Laes_v7m_small_BB95_3:                               @ %wide_fotsgure_aes_cmac_begin.exit
	mov	r0, r5
	b	.Laes_v7m_small_return_10459
.Laes_v7m_small_return_10459:
	movs	r1, #0
	movs	r2, #0
	movs	r3, #0
	mov	r12, r1
	mov	lr, r1
	pop	{r4, r5, r6, pc}
.Laes_v7m_small_func_end95:
	.size	aes_v7m_small.fotsgure_aes_cmac_begin, .Laes_v7m_small_func_end95-aes_v7m_small.fotsgure_aes_cmac_begin
	.cantunwind
	.fnend
                                        @ -- End function
	.section	.text.aes_v7m_small.fotsgure_aes_cmac_update,"ax",%progbits
	export_aes_v7m_small	fotsgure_aes_cmac_update
	.p2align	2
	.type	aes_v7m_small.fotsgure_aes_cmac_update,%function
	.code	16
	.thumb_func
aes_v7m_small.fotsgure_aes_cmac_update:               @ @aes_v7m_small.fotsgure_aes_cmac_update
	.fnstart
@ %bb.0:
	.save	{r4, lr}
	push	{r4, lr}
	.pad	#24
	sub	sp, #24
	ldr.w	r12, [r0]
	cmp	r2, #0
	it	eq
	addeq.w	r2, r2, #4096
	cmp.w	r12, #32
	beq	.Laes_v7m_small_BB96_3
@ %bb.1:
	bic	r4, r12, #8
	cmp	r4, #16
	beq	.Laes_v7m_small_BB96_3
@ %bb.2:
	movs	r4, #2
	b	.Laes_v7m_small_BB96_7
.Laes_v7m_small_BB96_3:                               @ %join.3.i.i
	add.w	lr, r0, #4
	movs	r0, #56
	adds.w	r0, r0, r12, lsl #1
	str.w	lr, [sp, #8]
	str	r0, [sp, #16]
	ldrd	r0, lr, [r1]
	lsr.w	r4, r12, #31
	eor	r0, r0, #1
	adc	r12, r4, #0
	movs	r4, #0
	orrs.w	r0, r0, lr
	str	r4, [sp, #12]
	str.w	r12, [sp, #20]
	bne	.Laes_v7m_small_BB96_5
@ %bb.4:                                @ %join.3.i.i.i
	add.w	r0, r1, #8
	add	r1, sp, #8
	strd	r3, r4, [sp]
	bl	aes_v7m_small.cmac.chain_in_pieces.ChainInPieces.extend
	b	.Laes_v7m_small_BB96_6
.Laes_v7m_small_BB96_5:
	movs	r4, #10
.Laes_v7m_small_BB96_6:                               @ %"cmac::pieces::Message::update::<#4f733d09d7f6c6b4>.exit.i.i"
	bl	aes_v7m_small.aes_cipher.zeroize.stack.wipe_stack.768
.Laes_v7m_small_BB96_7:                               @ %wide_fotsgure_aes_cmac_update.exit
	mov	r0, r4
	add	sp, #24
	b	.Laes_v7m_small_return_10526
.Laes_v7m_small_return_10526:
	movs	r1, #0
	movs	r2, #0
	movs	r3, #0
	mov	r12, r1
	mov	lr, r1
	pop	{r4, pc}
.Laes_v7m_small_func_end96:
	.size	aes_v7m_small.fotsgure_aes_cmac_update, .Laes_v7m_small_func_end96-aes_v7m_small.fotsgure_aes_cmac_update
	.cantunwind
	.fnend
                                        @ -- End function
	.section	.text.aes_v7m_small.fotsgure_aes_cmac_finish,"ax",%progbits
	export_aes_v7m_small	fotsgure_aes_cmac_finish
	.p2align	2
	.type	aes_v7m_small.fotsgure_aes_cmac_finish,%function
	.code	16
	.thumb_func
aes_v7m_small.fotsgure_aes_cmac_finish:               @ @aes_v7m_small.fotsgure_aes_cmac_finish
	.fnstart
@ %bb.0:
	.save	{r4, r5, r6, r7, lr}
	push	{r4, r5, r6, r7, lr}
	.pad	#44
	sub	sp, #44
	ldr	r3, [r0]
	cmp	r3, #32
	beq	.Laes_v7m_small_BB97_3
@ %bb.1:
	bic	r5, r3, #8
	cmp	r5, #16
	beq	.Laes_v7m_small_BB97_3
@ %bb.2:
	movs	r4, #2
	b	.Laes_v7m_small_BB97_6
.Laes_v7m_small_BB97_3:                               @ %join.3.i.i
	movs	r4, #56
	adds	r0, #4
	lsrs	r5, r3, #31
	adds.w	r3, r4, r3, lsl #1
	str	r0, [sp, #8]
	str	r3, [sp, #16]
	ldrd	r0, r3, [r1]
	adc	r5, r5, #0
	eor	r0, r0, #1
	movs	r4, #0
	orrs	r0, r3
	str	r4, [sp, #12]
	str	r5, [sp, #20]
	bne	.Laes_v7m_small_BB97_5
@ %bb.4:                                @ %arm.4.i.i
	ldrd	r6, r0, [r1, #8]
	movs	r3, #16
	cmp	r6, #16
	it	hs
	movhs	r6, r3
	add.w	r12, r1, #16
	add.w	lr, sp, #8
	cmp	r0, #0
	it	ne
	movne	r6, r3
	add.w	r3, r1, #32
	add	r0, sp, #28
	mov	r5, r1
	mov	r1, lr
	mov	r7, r2
	mov	r2, r12
	strd	r6, r4, [sp]
	bl	aes_v7m_small.cmac.tags.tag_at_end
	mov	r0, r5
	bl	aes_v7m_small.cmac.pieces.MessageZeroize.zeroize
	bl	aes_v7m_small.aes_cipher.zeroize.stack.wipe_stack.768
	add	r3, sp, #28
	ldr	r2, [sp, #40]
	ldm	r3, {r0, r1, r3}
	str	r2, [r7, #12]
	str	r3, [r7, #8]
	str	r1, [r7, #4]
	str	r0, [r7]
	b	.Laes_v7m_small_BB97_6
.Laes_v7m_small_BB97_5:                               @ %"cmac::pieces::Message::finish::<#4f733d09d7f6c6b4>.exit.i.i"
	bl	aes_v7m_small.aes_cipher.zeroize.stack.wipe_stack.768
	movs	r4, #10
.Laes_v7m_small_BB97_6:                               @ %wide_fotsgure_aes_cmac_finish.exit
	mov	r0, r4
	add	sp, #44
	b	.Laes_v7m_small_return_10613
.Laes_v7m_small_return_10613:
	movs	r1, #0
	movs	r2, #0
	movs	r3, #0
	mov	r12, r1
	mov	lr, r1
	pop	{r4, r5, r6, r7, pc}
.Laes_v7m_small_func_end97:
	.size	aes_v7m_small.fotsgure_aes_cmac_finish, .Laes_v7m_small_func_end97-aes_v7m_small.fotsgure_aes_cmac_finish
	.cantunwind
	.fnend
                                        @ -- End function
	.section	.text.aes_v7m_small.fotsgure_aes_cmac_accept,"ax",%progbits
	export_aes_v7m_small	fotsgure_aes_cmac_accept
	.p2align	2
	.type	aes_v7m_small.fotsgure_aes_cmac_accept,%function
	.code	16
	.thumb_func
aes_v7m_small.fotsgure_aes_cmac_accept:               @ @aes_v7m_small.fotsgure_aes_cmac_accept
	.fnstart
@ %bb.0:
	.save	{r4, r5, r7, lr}
	push	{r4, r5, r7, lr}
	.pad	#24
	sub	sp, #24
	ldr	r5, [r0]
	cmp	r2, #0
	it	eq
	addeq.w	r2, r2, #4096
	cmp	r5, #32
	beq	.Laes_v7m_small_BB98_3
@ %bb.1:
	bic	r4, r5, #8
	cmp	r4, #16
	beq	.Laes_v7m_small_BB98_3
@ %bb.2:
	movs	r0, #2
	add	sp, #24
	b	.Laes_v7m_small_return_10652
.Laes_v7m_small_BB98_3:                               @ %join.3.i.i
	subs	r4, r3, #4
	cmp	r4, #12
	bhi	.Laes_v7m_small_BB98_7
@ %bb.4:                                @ %join.6.i.i
	add.w	r12, r0, #4
	movs	r0, #56
	lsrs	r4, r5, #31
	adds.w	r0, r0, r5, lsl #1
	adc	r5, r4, #0
	str	r0, [sp, #16]
	ldrd	r0, r4, [r1]
	mov.w	lr, #0
	eor	r0, r0, #1
	orrs	r0, r4
	str.w	r12, [sp, #8]
	str.w	lr, [sp, #12]
	str	r5, [sp, #20]
	bne	.Laes_v7m_small_BB98_8
@ %bb.5:                                @ %join.3.i.i.i
	add.w	r12, sp, #8
	mov	r5, r1
	mov	r0, r1
	mov	r1, r12
	strd	r3, lr, [sp]
	bl	aes_v7m_small.cmac.pieces.Message.is_tag_so_far
	cbz	r0, .Laes_v7m_small_BB98_9
@ %bb.6:                                @ %join.7.i.i.i
	mov	r0, r5
	bl	aes_v7m_small.cmac.pieces.MessageZeroize.zeroize
	movs	r4, #0
	b	.Laes_v7m_small_BB98_10
.Laes_v7m_small_BB98_7:
	movs	r0, #7
	add	sp, #24
	b	.Laes_v7m_small_return_10652
.Laes_v7m_small_BB98_8:
	movs	r4, #10
	b	.Laes_v7m_small_BB98_10
.Laes_v7m_small_BB98_9:
	movs	r4, #6
.Laes_v7m_small_BB98_10:                              @ %"cmac::pieces::Message::accept::<#4f733d09d7f6c6b4>.exit.i.i"
	bl	aes_v7m_small.aes_cipher.zeroize.stack.wipe_stack.768
	mov	r0, r4
	add	sp, #24
	b	.Laes_v7m_small_return_10652
.Laes_v7m_small_return_10652:
	movs	r1, #0
	movs	r2, #0
	movs	r3, #0
	mov	r12, r1
	mov	lr, r1
	pop	{r4, r5, r7, pc}
.Laes_v7m_small_func_end98:
	.size	aes_v7m_small.fotsgure_aes_cmac_accept, .Laes_v7m_small_func_end98-aes_v7m_small.fotsgure_aes_cmac_accept
	.cantunwind
	.fnend
                                        @ -- End function
	.section	.text.aes_v7m_small.fotsgure_aes_cmac_wipe,"ax",%progbits
	export_aes_v7m_small	fotsgure_aes_cmac_wipe
	.p2align	2
	.type	aes_v7m_small.fotsgure_aes_cmac_wipe,%function
	.code	16
	.thumb_func
aes_v7m_small.fotsgure_aes_cmac_wipe:                 @ @aes_v7m_small.fotsgure_aes_cmac_wipe
	.fnstart
@ %bb.0:
	.save	{r4, lr}
	push	{r4, lr}
	movs	r1, #0
	movs	r2, #48
	mov	r4, r0
	bl	memset
	mov	r0, r4
	pop.w	{r4, lr}
	b	aes_v7m_small.cmac.pieces.MessageZeroize.zeroize
.Laes_v7m_small_func_end99:
	.size	aes_v7m_small.fotsgure_aes_cmac_wipe, .Laes_v7m_small_func_end99-aes_v7m_small.fotsgure_aes_cmac_wipe
	.cantunwind
	.fnend
                                        @ -- End function
	.section	.text.aes_v7m_small.fotsgure_aes_ccm_seal,"ax",%progbits
	export_aes_v7m_small	fotsgure_aes_ccm_seal
	.p2align	2
	.type	aes_v7m_small.fotsgure_aes_ccm_seal,%function
	.code	16
	.thumb_func
aes_v7m_small.fotsgure_aes_ccm_seal:                  @ @aes_v7m_small.fotsgure_aes_ccm_seal
	.fnstart
@ %bb.0:
	.save	{r4, r5, r6, r7, r8, r9, lr}
	push.w	{r4, r5, r6, r7, r8, r9, lr}
	.pad	#68
	sub	sp, #68
	ldr	r4, [r0]
	cmp	r4, #32
	beq	.Laes_v7m_small_BB100_3
@ %bb.1:
	bic	r6, r4, #8
	cmp	r6, #16
	beq	.Laes_v7m_small_BB100_3
@ %bb.2:
	movs	r0, #2
	add	sp, #68
	b	.Laes_v7m_small_return_10757
.Laes_v7m_small_BB100_3:                              @ %join.3.i.i
	ldrd	r9, r5, [sp, #104]
	ldrd	lr, r12, [sp, #96]
	cmp	r5, #0
	it	eq
	addeq.w	r5, r5, #4096
	cmp.w	r12, #0
	it	eq
	addeq.w	r12, r12, #4096
	cmp	r3, #0
	it	eq
	addeq.w	r3, r3, #4096
	cmp	r1, #0
	mov.w	r7, #56
	ldr.w	r8, [sp, #112]
	it	eq
	addeq.w	r1, r1, #4096
	adds	r0, #4
	lsrs	r6, r4, #31
	adds.w	r4, r7, r4, lsl #1
	adc	r6, r6, #0
	str	r0, [sp, #48]
	movs	r0, #0
	add	r7, sp, #52
	stm	r7!, {r0, r4, r6}
	strd	r8, r0, [sp, #40]
	strd	r9, r0, [sp, #24]
	mov	r6, r0
	strd	r0, r12, [sp, #12]
	add	r0, sp, #48
	mov	r7, r3
	movs	r3, #0
	str	r5, [sp, #32]
	str.w	lr, [sp, #8]
	str	r7, [sp]
	bl	aes_v7m_small.ccm.mode.encrypt
	mov	r5, r0
	mov	r4, r1
	bl	aes_v7m_small.aes_cipher.zeroize.stack.wipe_stack.1024
	lsls	r0, r5, #24
	itee	eq
	moveq	r0, r6
	uxtbne	r0, r4
	addne	r0, #7
	add	sp, #68
	b	.Laes_v7m_small_return_10757
.Laes_v7m_small_return_10757:
	movs	r1, #0
	movs	r2, #0
	movs	r3, #0
	mov	r12, r1
	mov	lr, r1
	pop.w	{r4, r5, r6, r7, r8, r9, pc}
.Laes_v7m_small_func_end100:
	.size	aes_v7m_small.fotsgure_aes_ccm_seal, .Laes_v7m_small_func_end100-aes_v7m_small.fotsgure_aes_ccm_seal
	.cantunwind
	.fnend
                                        @ -- End function
	.section	.text.aes_v7m_small.fotsgure_aes_ccm_open,"ax",%progbits
	export_aes_v7m_small	fotsgure_aes_ccm_open
	.p2align	2
	.type	aes_v7m_small.fotsgure_aes_ccm_open,%function
	.code	16
	.thumb_func
aes_v7m_small.fotsgure_aes_ccm_open:                  @ @aes_v7m_small.fotsgure_aes_ccm_open
	.fnstart
@ %bb.0:
	.save	{r4, r5, r6, r7, r8, r9, lr}
	push.w	{r4, r5, r6, r7, r8, r9, lr}
	.pad	#76
	sub	sp, #76
	ldr.w	lr, [r0]
	cmp.w	lr, #32
	beq	.Laes_v7m_small_BB101_3
@ %bb.1:
	bic	r6, lr, #8
	cmp	r6, #16
	beq	.Laes_v7m_small_BB101_3
@ %bb.2:
	movs	r0, #2
	add	sp, #76
	b	.Laes_v7m_small_return_10839
.Laes_v7m_small_BB101_3:                              @ %join.3.i.i
	ldrd	r7, r4, [sp, #112]
	ldrd	r8, r12, [sp, #104]
	cmp	r4, #0
	it	eq
	addeq.w	r4, r4, #4096
	cmp.w	r12, #0
	it	eq
	addeq.w	r12, r12, #4096
	cmp	r3, #0
	ldr.w	r9, [sp, #120]
	it	eq
	addeq.w	r3, r3, #4096
	cmp	r1, #0
	add.w	r0, r0, #4
	mov.w	r6, #56
	it	eq
	addeq.w	r1, r1, #4096
	lsr.w	r5, lr, #31
	adds.w	r6, r6, lr, lsl #1
	str	r0, [sp, #56]
	mov.w	r0, #0
	str.w	r12, [sp, #24]
	add.w	r12, sp, #56
	adc	r5, r5, #0
	strd	r0, r6, [sp, #60]
	strd	r9, r0, [sp, #48]
	strd	r7, r0, [sp, #32]
	str	r4, [sp, #40]
	strd	r8, r0, [sp, #16]
	str	r2, [sp]
	mov	r4, r0
	str	r0, [sp, #4]
	add.w	r0, sp, #73
	mov	r2, r1
	mov	r1, r12
	str	r5, [sp, #68]
	str	r3, [sp, #8]
	bl	aes_v7m_small.ccm.mode.decrypt
	bl	aes_v7m_small.aes_cipher.zeroize.stack.wipe_stack.1024
	ldrb.w	r0, [sp, #73]
	cbz	r0, .Laes_v7m_small_BB101_5
@ %bb.4:                                @ %arm.5.i.i
	ldrb.w	r0, [sp, #74]
	cmp	r0, #0
	itee	ne
	movne	r0, #6
	ldrbeq.w	r0, [sp, #75]
	addeq	r0, #7
	add	sp, #76
	b	.Laes_v7m_small_return_10839
.Laes_v7m_small_BB101_5:
	mov	r0, r4
	add	sp, #76
	b	.Laes_v7m_small_return_10839
.Laes_v7m_small_return_10839:
	movs	r1, #0
	movs	r2, #0
	movs	r3, #0
	mov	r12, r1
	mov	lr, r1
	pop.w	{r4, r5, r6, r7, r8, r9, pc}
.Laes_v7m_small_func_end101:
	.size	aes_v7m_small.fotsgure_aes_ccm_open, .Laes_v7m_small_func_end101-aes_v7m_small.fotsgure_aes_ccm_open
	.cantunwind
	.fnend
                                        @ -- End function
	.section	.text.aes_v7m_small.fotsgure_aes_cipher_round,"ax",%progbits
	export_aes_v7m_small	fotsgure_aes_cipher_round
	.p2align	2
	.type	aes_v7m_small.fotsgure_aes_cipher_round,%function
	.code	16
	.thumb_func
aes_v7m_small.fotsgure_aes_cipher_round:              @ @aes_v7m_small.fotsgure_aes_cipher_round
	.fnstart
@ %bb.0:
	.save	{r7, lr}
	push	{r7, lr}
	bl	aes_v7m_small.aes_c.single_rounds.round
	pop.w	{r7, lr}
	b	aes_v7m_small.aes_cipher.zeroize.stack.wipe_stack.512
.Laes_v7m_small_func_end102:
	.size	aes_v7m_small.fotsgure_aes_cipher_round, .Laes_v7m_small_func_end102-aes_v7m_small.fotsgure_aes_cipher_round
	.cantunwind
	.fnend
                                        @ -- End function
	.section	.text.aes_v7m_small.fotsgure_aes_equiv_inv_cipher_round,"ax",%progbits
	export_aes_v7m_small	fotsgure_aes_equiv_inv_cipher_round
	.p2align	2
	.type	aes_v7m_small.fotsgure_aes_equiv_inv_cipher_round,%function
	.code	16
	.thumb_func
aes_v7m_small.fotsgure_aes_equiv_inv_cipher_round:    @ @aes_v7m_small.fotsgure_aes_equiv_inv_cipher_round
	.fnstart
@ %bb.0:
	.save	{r7, lr}
	push	{r7, lr}
	bl	aes_v7m_small.aes_c.single_rounds.inverse_round
	pop.w	{r7, lr}
	b	aes_v7m_small.aes_cipher.zeroize.stack.wipe_stack.512
.Laes_v7m_small_func_end103:
	.size	aes_v7m_small.fotsgure_aes_equiv_inv_cipher_round, .Laes_v7m_small_func_end103-aes_v7m_small.fotsgure_aes_equiv_inv_cipher_round
	.cantunwind
	.fnend
                                        @ -- End function
	.section	.text.aes_v7m_small.fotsgure_aes_cipher_round_par,"ax",%progbits
	export_aes_v7m_small	fotsgure_aes_cipher_round_par
	.p2align	2
	.type	aes_v7m_small.fotsgure_aes_cipher_round_par,%function
	.code	16
	.thumb_func
aes_v7m_small.fotsgure_aes_cipher_round_par:          @ @aes_v7m_small.fotsgure_aes_cipher_round_par
	.fnstart
@ %bb.0:
	.save	{r7, lr}
	push	{r7, lr}
	bl	aes_v7m_small.aes_c.single_rounds.rounds
	pop.w	{r7, lr}
	b	aes_v7m_small.aes_cipher.zeroize.stack.wipe_stack.512
.Laes_v7m_small_func_end104:
	.size	aes_v7m_small.fotsgure_aes_cipher_round_par, .Laes_v7m_small_func_end104-aes_v7m_small.fotsgure_aes_cipher_round_par
	.cantunwind
	.fnend
                                        @ -- End function
	.section	.text.aes_v7m_small.fotsgure_aes_equiv_inv_cipher_round_par,"ax",%progbits
	export_aes_v7m_small	fotsgure_aes_equiv_inv_cipher_round_par
	.p2align	2
	.type	aes_v7m_small.fotsgure_aes_equiv_inv_cipher_round_par,%function
	.code	16
	.thumb_func
aes_v7m_small.fotsgure_aes_equiv_inv_cipher_round_par: @ @aes_v7m_small.fotsgure_aes_equiv_inv_cipher_round_par
	.fnstart
@ %bb.0:
	.save	{r7, lr}
	push	{r7, lr}
	bl	aes_v7m_small.aes_c.single_rounds.inverse_rounds
	pop.w	{r7, lr}
	b	aes_v7m_small.aes_cipher.zeroize.stack.wipe_stack.512
.Laes_v7m_small_func_end105:
	.size	aes_v7m_small.fotsgure_aes_equiv_inv_cipher_round_par, .Laes_v7m_small_func_end105-aes_v7m_small.fotsgure_aes_equiv_inv_cipher_round_par
	.cantunwind
	.fnend
                                        @ -- End function
	.section	.text.aes_v7m_small.fotsgure_aes_mix_columns,"ax",%progbits
	export_aes_v7m_small	fotsgure_aes_mix_columns
	.p2align	2
	.type	aes_v7m_small.fotsgure_aes_mix_columns,%function
	.code	16
	.thumb_func
aes_v7m_small.fotsgure_aes_mix_columns:               @ @aes_v7m_small.fotsgure_aes_mix_columns
	.fnstart
@ %bb.0:
	.save	{r7, lr}
	push	{r7, lr}
	bl	aes_v7m_small.aes_c.single_rounds.mixed
	pop.w	{r7, lr}
	b	aes_v7m_small.aes_cipher.zeroize.stack.wipe_stack.512
.Laes_v7m_small_func_end106:
	.size	aes_v7m_small.fotsgure_aes_mix_columns, .Laes_v7m_small_func_end106-aes_v7m_small.fotsgure_aes_mix_columns
	.cantunwind
	.fnend
                                        @ -- End function
	.section	.text.aes_v7m_small.fotsgure_aes_inv_mix_columns,"ax",%progbits
	export_aes_v7m_small	fotsgure_aes_inv_mix_columns
	.p2align	2
	.type	aes_v7m_small.fotsgure_aes_inv_mix_columns,%function
	.code	16
	.thumb_func
aes_v7m_small.fotsgure_aes_inv_mix_columns:           @ @aes_v7m_small.fotsgure_aes_inv_mix_columns
	.fnstart
@ %bb.0:
	.save	{r7, lr}
	push	{r7, lr}
	bl	aes_v7m_small.aes_c.single_rounds.inverse_mixed
	pop.w	{r7, lr}
	b	aes_v7m_small.aes_cipher.zeroize.stack.wipe_stack.512
.Laes_v7m_small_func_end107:
	.size	aes_v7m_small.fotsgure_aes_inv_mix_columns, .Laes_v7m_small_func_end107-aes_v7m_small.fotsgure_aes_inv_mix_columns
	.cantunwind
	.fnend
                                        @ -- End function
	.section	.text.aes_v7m_small.fotsgure_aes_encrypt_blocks_with,"ax",%progbits
	export_aes_v7m_small	fotsgure_aes_encrypt_blocks_with
	.p2align	2
	.type	aes_v7m_small.fotsgure_aes_encrypt_blocks_with,%function
	.code	16
	.thumb_func
aes_v7m_small.fotsgure_aes_encrypt_blocks_with:       @ @aes_v7m_small.fotsgure_aes_encrypt_blocks_with
	.fnstart
@ %bb.0:
	.save	{r4, r5, r6, r7, r8, r9, r10, r11, lr}
	push.w	{r4, r5, r6, r7, r8, r9, r10, r11, lr}
	.pad	#500
	sub	sp, #500
	mov	r10, r3
	cmp	r1, #32
	beq	.Laes_v7m_small_BB108_3
@ %bb.1:
	bic	r3, r1, #8
	cmp	r3, #16
	beq	.Laes_v7m_small_BB108_3
@ %bb.2:
	movs	r6, #1
	b	.Laes_v7m_small_BB108_4
.Laes_v7m_small_BB108_3:                              @ %join.3.i.i
	cmp	r2, #0
	it	eq
	addeq.w	r2, r2, #4096
	cmp	r0, #0
	mov.w	r6, #56
	it	eq
	addeq.w	r0, r0, #4096
	add	r3, sp, #16
	lsrs	r7, r1, #31
	adds.w	r9, r6, r1, lsl #1
	adc	r8, r7, #0
	mov	r7, r0
	mov	r0, r3
	mov	r4, r1
	movs	r1, #0
	mov	r11, r2
	mov.w	r2, #484
	adds	r5, r3, #4
	movs	r6, #0
	bl	memset
	mov	r0, r5
	mov	r1, r7
	mov	r2, r4
	movs	r3, #0
	bl	aes_v7m_small.aes_narrow.word_room.expand_words
	bl	aes_v7m_small.aes_cipher.zeroize.stack.wipe_stack.768
	mov	r0, r5
	mov	r2, r9
	mov	r3, r8
	str	r4, [sp, #16]
	strd	r10, r6, [sp, #8]
	str.w	r11, [sp]
	bl	aes_v7m_small.aes_narrow.blocks.process_all_batches.1
	bl	aes_v7m_small.aes_cipher.zeroize.stack.wipe_stack.1024
	mov	r0, r5
	str	r6, [sp, #16]
	bl	aes_v7m_small.aes_cipher.zeroize.elements.zeroize_elements.1
.Laes_v7m_small_BB108_4:                              @ %wide_fotsgure_aes_encrypt_blocks_with.exit
	mov	r0, r6
	add	sp, #500
	b	.Laes_v7m_small_return_11085
.Laes_v7m_small_return_11085:
	movs	r1, #0
	movs	r2, #0
	movs	r3, #0
	mov	r12, r1
	mov	lr, r1
	pop.w	{r4, r5, r6, r7, r8, r9, r10, r11, pc}
.Laes_v7m_small_func_end108:
	.size	aes_v7m_small.fotsgure_aes_encrypt_blocks_with, .Laes_v7m_small_func_end108-aes_v7m_small.fotsgure_aes_encrypt_blocks_with
	.cantunwind
	.fnend
                                        @ -- End function
	.section	.text.aes_v7m_small.fotsgure_aes_decrypt_blocks_with,"ax",%progbits
	export_aes_v7m_small	fotsgure_aes_decrypt_blocks_with
	.p2align	2
	.type	aes_v7m_small.fotsgure_aes_decrypt_blocks_with,%function
	.code	16
	.thumb_func
aes_v7m_small.fotsgure_aes_decrypt_blocks_with:       @ @aes_v7m_small.fotsgure_aes_decrypt_blocks_with
	.fnstart
@ %bb.0:
	.save	{r4, r5, r6, r7, r8, r9, lr}
	push.w	{r4, r5, r6, r7, r8, r9, lr}
	.pad	#500
	sub	sp, #500
	mov	r5, r2
	mov	r7, r1
	cmp	r2, #0
	mov	r8, r3
	it	eq
	addeq.w	r5, r5, #4096
	movs	r1, #0
	cmp	r7, #32
	str	r1, [sp, #16]
	beq	.Laes_v7m_small_BB109_3
@ %bb.1:
	bic	r1, r7, #8
	cmp	r1, #16
	beq	.Laes_v7m_small_BB109_3
@ %bb.2:
	movs	r6, #1
	b	.Laes_v7m_small_BB109_8
.Laes_v7m_small_BB109_3:                              @ %join.3.i.i
	add	r1, sp, #16
	add.w	r9, r1, #4
	cmp	r0, #0
	it	eq
	addeq.w	r0, r0, #4096
	mov	r4, r0
	mov	r0, r9
	movs	r1, #0
	mov.w	r2, #480
	movs	r6, #0
	bl	memset
	mov	r0, r9
	mov	r1, r4
	mov	r2, r7
	movs	r3, #0
	bl	aes_v7m_small.aes_narrow.word_room.expand_words
	bl	aes_v7m_small.aes_cipher.zeroize.stack.wipe_stack.768
	cmp	r7, #32
	str	r7, [sp, #16]
	beq	.Laes_v7m_small_BB109_6
@ %bb.4:                                @ %join.3.i.i
	and	r0, r7, #48
	cmp	r0, #16
	beq	.Laes_v7m_small_BB109_6
@ %bb.5:
	movs	r6, #2
	b	.Laes_v7m_small_BB109_7
.Laes_v7m_small_BB109_6:                              @ %join.3.i15.i.i
	movs	r1, #56
	lsrs	r0, r7, #31
	adds.w	r2, r1, r7, lsl #1
	adc	r3, r0, #0
	mov	r0, r9
	strd	r8, r6, [sp, #8]
	str	r5, [sp]
	bl	aes_v7m_small.aes_narrow.blocks.process_all_batches.2
	bl	aes_v7m_small.aes_cipher.zeroize.stack.wipe_stack.1024
.Laes_v7m_small_BB109_7:                              @ %"aes_c::blocks::fotsgure_aes_decrypt_blocks.exit.i.i"
	movs	r0, #0
	str	r0, [sp, #16]
	mov	r0, r9
	bl	aes_v7m_small.aes_cipher.zeroize.elements.zeroize_elements.1
.Laes_v7m_small_BB109_8:                              @ %wide_fotsgure_aes_decrypt_blocks_with.exit
	mov	r0, r6
	add	sp, #500
	b	.Laes_v7m_small_return_11174
.Laes_v7m_small_return_11174:
	movs	r1, #0
	movs	r2, #0
	movs	r3, #0
	mov	r12, r1
	mov	lr, r1
	pop.w	{r4, r5, r6, r7, r8, r9, pc}
.Laes_v7m_small_func_end109:
	.size	aes_v7m_small.fotsgure_aes_decrypt_blocks_with, .Laes_v7m_small_func_end109-aes_v7m_small.fotsgure_aes_decrypt_blocks_with
	.cantunwind
	.fnend
                                        @ -- End function
	.section	.text.aes_v7m_small.fotsgure_aes_add_keystream_with,"ax",%progbits
	export_aes_v7m_small	fotsgure_aes_add_keystream_with
	.p2align	2
	.type	aes_v7m_small.fotsgure_aes_add_keystream_with,%function
	.code	16
	.thumb_func
aes_v7m_small.fotsgure_aes_add_keystream_with:        @ @aes_v7m_small.fotsgure_aes_add_keystream_with
	.fnstart
@ %bb.0:
	.save	{r4, r5, r6, r7, r8, r9, r10, r11, lr}
	push.w	{r4, r5, r6, r7, r8, r9, r10, r11, lr}
	.pad	#580
	sub.w	sp, sp, #580
	cmp	r0, #0
	it	eq
	addeq.w	r0, r0, #4096
	cmp	r3, #0
	it	eq
	addeq.w	r3, r3, #4096
	cmp	r1, #32
	mov	r4, r2
	beq	.Laes_v7m_small_BB110_3
@ %bb.1:
	bic	r2, r1, #8
	cmp	r2, #16
	beq	.Laes_v7m_small_BB110_3
@ %bb.2:
	movs	r0, #1
	add.w	sp, sp, #580
	b	.Laes_v7m_small_return_11216
.Laes_v7m_small_BB110_3:                              @ %join.3.i.i
	ldr.w	r10, [sp, #616]
	ldrd	r2, r7, [r4, #16]
	mov.w	r11, #0
	adds.w	r2, r2, r10
	adcs	r2, r7, #0
	adcs	r2, r11, #0
	beq	.Laes_v7m_small_BB110_5
@ %bb.4:
	movs	r0, #4
	add.w	sp, sp, #580
	b	.Laes_v7m_small_return_11216
.Laes_v7m_small_BB110_5:                              @ %join.6.i.i
	add	r2, sp, #44
	movs	r7, #56
	str	r3, [sp, #20]                   @ 4-byte Spill
	adds	r5, r2, #4
	lsrs	r3, r1, #31
	adds.w	r8, r7, r1, lsl #1
	mov	r6, r0
	mov	r0, r2
	mov	r7, r1
	mov.w	r1, #0
	mov.w	r2, #484
	adc	r9, r3, #0
	bl	memset
	mov	r0, r5
	mov	r1, r6
	mov	r2, r7
	movs	r3, #0
	bl	aes_v7m_small.aes_narrow.word_room.expand_words
	bl	aes_v7m_small.aes_cipher.zeroize.stack.wipe_stack.768
	ldrd	r2, r3, [r4, #16]
	ldr	r0, [r4]
	add.w	r12, sp, #528
	str	r7, [sp, #44]
	ldr	r1, [r4, #4]
	ldr	r7, [r4, #12]
	ldr	r6, [r4, #8]
	stm.w	r12, {r0, r1, r6, r7}
	and	r0, r2, #15
	rsb.w	r0, r0, #16
	subs.w	r0, r0, r10
	sbcs	r0, r11, #0
	strd	r5, r11, [sp, #24]
	strd	r8, r9, [sp, #32]
	str.w	r11, [sp, #548]
	str.w	r11, [sp, #544]
	bhs	.Laes_v7m_small_BB110_7
@ %bb.6:                                @ %else.2.i.i.i.i
	add	r0, sp, #528
	str	r0, [sp, #544]
	ldr	r0, [sp, #20]                   @ 4-byte Reload
	strd	r2, r3, [sp, #552]
	str	r0, [sp, #560]
	movs	r0, #0
	str	r0, [sp, #572]
	strd	r0, r10, [sp, #564]
	add	r1, sp, #544
	mov	r0, r5
	mov	r2, r8
	mov	r3, r9
	str	r1, [sp]
	bl	aes_v7m_small.aes_narrow.borrowed_words.call_to_encrypt
	bl	aes_v7m_small.aes_cipher.zeroize.stack.wipe_stack.2032
	b	.Laes_v7m_small_BB110_8
.Laes_v7m_small_BB110_7:                              @ %then.1.i.i.i.i
	movs	r0, #0
	ldr	r7, [sp, #20]                   @ 4-byte Reload
	strd	r10, r0, [sp, #8]
	add	r0, sp, #24
	add	r1, sp, #528
	str	r7, [sp]
	bl	aes_v7m_small.aes_ctr.add_in_batches.add_to_one
.Laes_v7m_small_BB110_8:                              @ %"aes_ctr::add_in_batches::add_keystream::<#4f733d09d7f6c6b4>.exit.i.i"
	ldrd	r0, r1, [r4, #16]
	adds.w	r0, r0, r10
	adc	r1, r1, #0
	strd	r0, r1, [r4, #16]
	movs	r4, #0
	mov	r0, r5
	str	r4, [sp, #44]
	bl	aes_v7m_small.aes_cipher.zeroize.elements.zeroize_elements.1
	mov	r0, r4
	add.w	sp, sp, #580
	b	.Laes_v7m_small_return_11216
.Laes_v7m_small_return_11216:
	movs	r1, #0
	movs	r2, #0
	movs	r3, #0
	mov	r12, r1
	mov	lr, r1
	pop.w	{r4, r5, r6, r7, r8, r9, r10, r11, pc}
.Laes_v7m_small_func_end110:
	.size	aes_v7m_small.fotsgure_aes_add_keystream_with, .Laes_v7m_small_func_end110-aes_v7m_small.fotsgure_aes_add_keystream_with
	.cantunwind
	.fnend
                                        @ -- End function
	.type	.Laes_v7m_small_static.0,%object              @ @static.0
	.section	.rodata..Laes_v7m_small_static.0,"a",%progbits
.Laes_v7m_small_static.0:
	.ascii	"\001\002\004\b\020 @\200\0336"
	.size	.Laes_v7m_small_static.0, 10

	.type	.Laes_v7m_small_static.2,%object              @ @static.2
	.section	.rodata.cst16,"aM",%progbits,16
.Laes_v7m_small_static.2:
	.zero	16,166
	.size	.Laes_v7m_small_static.2, 16

	.ident	"rattle logic=dac8208d650f15bf3e2dc313a14fa4c783a3acf887bdfab66e1714b038d9e11b"
	.section	".note.GNU-stack","",%progbits

	.section	.note.fotsgure,"",%note
	.p2align	2, 0x0
	.long	9, 124, 1
	.asciz	"Fotsgure"
	.p2align	2, 0x0
	.asciz	"fotsgure_aes 0.4.0, thumb/aes_v7m_small.s, sources SHA-256 f3fecc818c73814a93835f06896045f67fddc8c102490795e0e19679064b46a4"
	.p2align	2, 0x0
