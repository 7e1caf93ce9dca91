@ Made by tools/dist from the proved crate aes_c; BUILD says from what. Don't edit it.
/* A Rust crate defines in_rust; for x86-64, a static library of both builds defines chosen, and choose_*.c calls these names. */
	.macro	export_aes_v6m_small name
	.ifdef	in_rust
	.globl	aes_v6m_small.\name
	.hidden	aes_v6m_small.\name
	.else
	.globl	\name
	.set	\name, aes_v6m_small.\name
	.endif
	.endm
	.syntax	unified
	.file	"rattle"
	.section	.text.aes_v6m_small.aes_narrow.word_room.expand_words,"ax",%progbits
	.p2align	2                               @ -- Begin function aes_narrow::word_room::expand_words::<#6af90bfc14753d47>
	.type	aes_v6m_small.aes_narrow.word_room.expand_words,%function
	.code	16
	.thumb_func
aes_v6m_small.aes_narrow.word_room.expand_words: @ @aes_v6m_small.aes_narrow.word_room.expand_words
	.fnstart
@ %bb.0:                                @ %start
	.save	{r4, r5, r6, r7, lr}
	push	{r4, r5, r6, r7, lr}
	.pad	#220
	sub	sp, #220
	str	r3, [sp, #12]                   @ 4-byte Spill
	mov	r7, r0
	cmp	r2, #24
	str	r2, [sp, #8]                    @ 4-byte Spill
	str	r0, [sp, #56]                   @ 4-byte Spill
	beq	.Laes_v6m_small_BB0_4
@ %bb.1:                                @ %start
	cmp	r2, #16
	beq	.Laes_v6m_small_BB0_2
	b	.Laes_v6m_small_BB0_7
.Laes_v6m_small_BB0_2:                                @ %then.1.i
	add	r5, sp, #188
	movs	r4, #0
	mov	r0, r5
	mov	r2, r4
	mov	r3, r4
	bl	aes_v6m_small.aes_soft.soft.plane_words.PlaneWordsFourWords.load
	str	r5, [sp]
	mov	r0, r7
	mov	r2, r4
	mov	r3, r4
	bl	aes_v6m_small.aes_soft.soft.plane_words.PlaneWordsFourWords.store
	mov	r6, r4
	str	r4, [sp, #48]                   @ 4-byte Spill
	mov	r7, r4
	mov	r5, r4
.Laes_v6m_small_BB0_3:                                @ %join.5.i.i
                                        @ =>This Inner Loop Header: Depth=1
	add	r0, sp, #156
	str	r0, [sp, #52]                   @ 4-byte Spill
	ldr	r1, [sp, #56]                   @ 4-byte Reload
	mov	r2, r6
	mov	r3, r7
	bl	aes_v6m_small.aes_soft.soft.plane_words.PlaneWordsFourWords.read_back
	ldr	r0, .Laes_v6m_small_CPI0_0
	ldrb	r3, [r0, r6]
	add	r4, sp, #188
	mov	r0, r4
	ldr	r1, [sp, #52]                   @ 4-byte Reload
	mov	r2, r4
	bl	aes_v6m_small.aes_soft.soft.plane_words.PlaneWordsFourWords.rotated
	str	r4, [sp]
	adds	r2, r6, #1
	str	r2, [sp, #52]                   @ 4-byte Spill
	ldr	r4, [sp, #48]                   @ 4-byte Reload
	adcs	r5, r4
	ldr	r0, [sp, #56]                   @ 4-byte Reload
	mov	r3, r5
	bl	aes_v6m_small.aes_soft.soft.plane_words.PlaneWordsFourWords.store
	subs	r6, #9
	sbcs	r7, r4
	ldr	r6, [sp, #52]                   @ 4-byte Reload
	mov	r7, r5
	blo	.Laes_v6m_small_BB0_3
	b	.Laes_v6m_small_BB0_6
.Laes_v6m_small_BB0_4:                                @ %then.4.i
	add	r4, sp, #188
	movs	r6, #0
	mov	r0, r4
	mov	r5, r1
	mov	r2, r6
	mov	r3, r6
	bl	aes_v6m_small.aes_soft.soft.plane_words.PlaneWordsFourWords.load
	add	r0, sp, #156
	movs	r2, #8
	mov	r1, r5
	mov	r3, r6
	bl	aes_v6m_small.aes_soft.soft.plane_words.PlaneWordsFourWords.load
	str	r4, [sp]
	mov	r0, r7
	mov	r2, r6
	mov	r3, r6
	bl	aes_v6m_small.aes_soft.soft.plane_words.PlaneWordsFourWords.store
	mov	r0, r6
	str	r6, [sp, #16]                   @ 4-byte Spill
	mov	r5, r6
	mov	r2, r6
.Laes_v6m_small_BB0_5:                                @ %join.5.i14.i
                                        @ =>This Inner Loop Header: Depth=1
	str	r0, [sp, #52]                   @ 4-byte Spill
	str	r2, [sp, #48]                   @ 4-byte Spill
	lsls	r1, r0, #1
	str	r1, [sp, #44]                   @ 4-byte Spill
	ldr	r2, .Laes_v6m_small_CPI0_0
	ldrb	r3, [r2, r1]
	add	r4, sp, #124
	add	r1, sp, #188
	str	r1, [sp, #40]                   @ 4-byte Spill
	add	r6, sp, #156
	str	r6, [sp, #36]                   @ 4-byte Spill
	mov	r0, r4
	mov	r2, r6
	bl	aes_v6m_small.aes_soft.soft.plane_words.PlaneWordsFourWords.rotated
	add	r0, sp, #92
	str	r0, [sp, #24]                   @ 4-byte Spill
	mov	r1, r6
	mov	r2, r4
	str	r4, [sp, #28]                   @ 4-byte Spill
	bl	aes_v6m_small.aes_soft.soft.plane_words.PlaneWordsFourWords.plain
	add	r7, sp, #60
	mov	r0, r7
	mov	r1, r6
	mov	r2, r4
	bl	aes_v6m_small.aes_soft.soft.plane_words.PlaneWordsFourWords.straddled
	movs	r2, #3
	ldr	r0, [sp, #52]                   @ 4-byte Reload
	str	r5, [sp, #32]                   @ 4-byte Spill
	mov	r1, r5
	ldr	r6, [sp, #16]                   @ 4-byte Reload
	mov	r3, r6
	bl	__aeabi_lmul
	mov	r4, r0
	str	r0, [sp, #20]                   @ 4-byte Spill
	mov	r5, r1
	str	r7, [sp]
	adds	r2, r0, #1
	mov	r3, r1
	adcs	r3, r6
	ldr	r0, [sp, #56]                   @ 4-byte Reload
	bl	aes_v6m_small.aes_soft.soft.plane_words.PlaneWordsFourWords.store
	ldr	r7, [sp, #24]                   @ 4-byte Reload
	str	r7, [sp]
	adds	r2, r4, #2
	mov	r3, r5
	adcs	r3, r6
	ldr	r0, [sp, #56]                   @ 4-byte Reload
	bl	aes_v6m_small.aes_soft.soft.plane_words.PlaneWordsFourWords.store
	ldr	r0, .Laes_v6m_small_CPI0_0
	ldr	r1, [sp, #44]                   @ 4-byte Reload
	adds	r0, r0, r1
	ldrb	r3, [r0, #1]
	ldr	r4, [sp, #40]                   @ 4-byte Reload
	mov	r0, r4
	ldr	r1, [sp, #28]                   @ 4-byte Reload
	mov	r2, r7
	bl	aes_v6m_small.aes_soft.soft.plane_words.PlaneWordsFourWords.rotated
	ldr	r0, [sp, #36]                   @ 4-byte Reload
	mov	r1, r7
	mov	r2, r4
	bl	aes_v6m_small.aes_soft.soft.plane_words.PlaneWordsFourWords.plain
	str	r4, [sp]
	ldr	r0, [sp, #20]                   @ 4-byte Reload
	adds	r2, r0, #3
	adcs	r5, r6
	ldr	r0, [sp, #56]                   @ 4-byte Reload
	mov	r3, r5
	bl	aes_v6m_small.aes_soft.soft.plane_words.PlaneWordsFourWords.store
	ldr	r2, [sp, #48]                   @ 4-byte Reload
	ldr	r1, [sp, #52]                   @ 4-byte Reload
	adds	r0, r1, #1
	adcs	r2, r6
	subs	r1, r1, #3
	ldr	r1, [sp, #32]                   @ 4-byte Reload
	sbcs	r1, r6
	mov	r5, r2
	blo	.Laes_v6m_small_BB0_5
.Laes_v6m_small_BB0_6:                                @ %"aes_planes::expansion::expand_128::<#389ec886eeff95cb>.exit.i"
	ldr	r0, [sp, #56]                   @ 4-byte Reload
	b	.Laes_v6m_small_BB0_10
.Laes_v6m_small_BB0_7:                                @ %else.5.i
	add	r0, sp, #188
	str	r0, [sp, #52]                   @ 4-byte Spill
	movs	r5, #0
	mov	r4, r1
	mov	r2, r5
	mov	r3, r5
	bl	aes_v6m_small.aes_soft.soft.plane_words.PlaneWordsFourWords.load
	add	r6, sp, #156
	movs	r2, #16
	mov	r0, r6
	mov	r1, r4
	mov	r3, r5
	bl	aes_v6m_small.aes_soft.soft.plane_words.PlaneWordsFourWords.load
	ldr	r0, [sp, #52]                   @ 4-byte Reload
	str	r0, [sp]
	mov	r0, r7
	mov	r2, r5
	mov	r3, r5
	bl	aes_v6m_small.aes_soft.soft.plane_words.PlaneWordsFourWords.store
	str	r6, [sp]
	movs	r2, #1
	mov	r0, r7
	mov	r3, r5
	bl	aes_v6m_small.aes_soft.soft.plane_words.PlaneWordsFourWords.store
	mov	r0, r5
	str	r5, [sp, #48]                   @ 4-byte Spill
	mov	r2, r5
.Laes_v6m_small_BB0_8:                                @ %join.5.i23.i
                                        @ =>This Inner Loop Header: Depth=1
	str	r2, [sp, #44]                   @ 4-byte Spill
	mov	r3, r0
	lsrs	r0, r0, #31
	lsls	r1, r5, #1
	adds	r4, r1, r0
	lsls	r2, r3, #1
	str	r2, [sp, #52]                   @ 4-byte Spill
	mov	r7, r3
	str	r3, [sp, #40]                   @ 4-byte Spill
	add	r6, sp, #124
	mov	r0, r6
	ldr	r1, [sp, #56]                   @ 4-byte Reload
	mov	r3, r4
	bl	aes_v6m_small.aes_soft.soft.plane_words.PlaneWordsFourWords.read_back
	ldr	r0, .Laes_v6m_small_CPI0_0
	ldrb	r3, [r0, r7]
	add	r7, sp, #188
	str	r7, [sp, #32]                   @ 4-byte Spill
	add	r2, sp, #156
	str	r2, [sp, #36]                   @ 4-byte Spill
	mov	r0, r7
	mov	r1, r6
	bl	aes_v6m_small.aes_soft.soft.plane_words.PlaneWordsFourWords.rotated
	str	r7, [sp]
	ldr	r6, [sp, #52]                   @ 4-byte Reload
	adds	r2, r6, #2
	mov	r3, r4
	ldr	r0, [sp, #48]                   @ 4-byte Reload
	adcs	r3, r0
	ldr	r7, [sp, #56]                   @ 4-byte Reload
	mov	r0, r7
	bl	aes_v6m_small.aes_soft.soft.plane_words.PlaneWordsFourWords.store
	adds	r2, r6, #1
	add	r6, sp, #92
	mov	r0, r6
	mov	r1, r7
	mov	r3, r4
	bl	aes_v6m_small.aes_soft.soft.plane_words.PlaneWordsFourWords.read_back
	ldr	r7, [sp, #36]                   @ 4-byte Reload
	mov	r0, r7
	mov	r1, r6
	ldr	r2, [sp, #32]                   @ 4-byte Reload
	bl	aes_v6m_small.aes_soft.soft.plane_words.PlaneWordsFourWords.substituted
	str	r7, [sp]
	ldr	r0, [sp, #52]                   @ 4-byte Reload
	adds	r2, r0, #3
	ldr	r6, [sp, #48]                   @ 4-byte Reload
	adcs	r4, r6
	ldr	r0, [sp, #56]                   @ 4-byte Reload
	mov	r3, r4
	bl	aes_v6m_small.aes_soft.soft.plane_words.PlaneWordsFourWords.store
	ldr	r2, [sp, #44]                   @ 4-byte Reload
	ldr	r1, [sp, #40]                   @ 4-byte Reload
	adds	r0, r1, #1
	adcs	r2, r6
	subs	r1, r1, #5
	sbcs	r5, r6
	mov	r5, r2
	blo	.Laes_v6m_small_BB0_8
@ %bb.9:                                @ %"aes_planes::expansion::expand_256::<#389ec886eeff95cb>.exit.i"
	add	r5, sp, #60
	movs	r2, #12
	movs	r4, #0
	mov	r0, r5
	ldr	r7, [sp, #56]                   @ 4-byte Reload
	mov	r1, r7
	mov	r3, r4
	bl	aes_v6m_small.aes_soft.soft.plane_words.PlaneWordsFourWords.read_back
	add	r6, sp, #188
	add	r2, sp, #156
	movs	r3, #64
	mov	r0, r6
	mov	r1, r5
	bl	aes_v6m_small.aes_soft.soft.plane_words.PlaneWordsFourWords.rotated
	str	r6, [sp]
	movs	r2, #14
	mov	r0, r7
	mov	r3, r4
	bl	aes_v6m_small.aes_soft.soft.plane_words.PlaneWordsFourWords.store
	mov	r0, r7
.Laes_v6m_small_BB0_10:                               @ %"aes_planes::expansion::expand::<#389ec886eeff95cb>.exit"
	ldr	r1, [sp, #8]                    @ 4-byte Reload
	lsrs	r2, r1, #2
	ldr	r3, [sp, #12]                   @ 4-byte Reload
	lsls	r1, r3, #30
	adds	r2, r2, r1
	lsrs	r1, r3, #2
	movs	r3, #0
	adds	r2, r2, #6
	adcs	r3, r1
	bl	aes_v6m_small.aes_soft.soft.key_layout.store
	add	sp, #220
	pop	{r4, r5, r6, r7, pc}
	.p2align	2
@ %bb.11:
.Laes_v6m_small_CPI0_0:
	.long	.Laes_v6m_small_static.0
.Laes_v6m_small_func_end0:
	.size	aes_v6m_small.aes_narrow.word_room.expand_words, .Laes_v6m_small_func_end0-aes_v6m_small.aes_narrow.word_room.expand_words
	.cantunwind
	.fnend
                                        @ -- End function
	.section	.text.aes_v6m_small.aes_soft.soft.plane_words.PlaneWordsFourWords.load,"ax",%progbits
	.p2align	1                               @ -- Begin function aes_soft::soft::plane_words::PlaneWordsFourWords::load::<#6af90bfc14753d47>
	.type	aes_v6m_small.aes_soft.soft.plane_words.PlaneWordsFourWords.load,%function
	.code	16
	.thumb_func
aes_v6m_small.aes_soft.soft.plane_words.PlaneWordsFourWords.load: @ @aes_v6m_small.aes_soft.soft.plane_words.PlaneWordsFourWords.load
	.fnstart
@ %bb.0:                                @ %start
	.save	{r4, r5, r6, r7, lr}
	push	{r4, r5, r6, r7, lr}
	.pad	#92
	sub	sp, #92
	str	r0, [sp, #24]                   @ 4-byte Spill
	adds	r5, r1, r2
	ldrb	r0, [r5, #12]
	ldrb	r3, [r5, #13]
	lsls	r3, r3, #8
	adds	r0, r3, r0
	ldrb	r3, [r5, #14]
	lsls	r3, r3, #16
	adds	r0, r0, r3
	ldrb	r3, [r5, #15]
	lsls	r3, r3, #24
	adds	r0, r0, r3
	ldrb	r3, [r5, #3]
	str	r3, [sp, #20]                   @ 4-byte Spill
	ldrb	r3, [r5, #2]
	str	r3, [sp, #16]                   @ 4-byte Spill
	ldrb	r1, [r1, r2]
	str	r1, [sp, #12]                   @ 4-byte Spill
	ldrb	r1, [r5, #1]
	str	r1, [sp, #8]                    @ 4-byte Spill
	ldrb	r1, [r5, #7]
	str	r1, [sp, #4]                    @ 4-byte Spill
	ldrb	r7, [r5, #6]
	ldrb	r6, [r5, #4]
	ldrb	r4, [r5, #5]
	ldrb	r3, [r5, #11]
	ldrb	r2, [r5, #10]
	ldrb	r1, [r5, #8]
	ldrb	r5, [r5, #9]
	str	r0, [sp, #88]
	str	r0, [sp, #84]
	lsls	r0, r5, #8
	adds	r0, r0, r1
	lsls	r1, r2, #16
	adds	r0, r0, r1
	lsls	r1, r3, #24
	adds	r0, r0, r1
	str	r0, [sp, #80]
	str	r0, [sp, #76]
	lsls	r0, r4, #8
	adds	r0, r0, r6
	lsls	r1, r7, #16
	adds	r0, r0, r1
	ldr	r1, [sp, #4]                    @ 4-byte Reload
	lsls	r1, r1, #24
	adds	r0, r0, r1
	str	r0, [sp, #72]
	str	r0, [sp, #68]
	ldr	r0, [sp, #8]                    @ 4-byte Reload
	lsls	r0, r0, #8
	ldr	r1, [sp, #12]                   @ 4-byte Reload
	adds	r0, r0, r1
	ldr	r1, [sp, #16]                   @ 4-byte Reload
	lsls	r1, r1, #16
	adds	r0, r0, r1
	ldr	r1, [sp, #20]                   @ 4-byte Reload
	lsls	r1, r1, #24
	adds	r0, r0, r1
	str	r0, [sp, #64]
	str	r0, [sp, #60]
	add	r5, sp, #28
	add	r1, sp, #60
	mov	r0, r5
	bl	aes_v6m_small.aes_planes.soft.word.transpose.transpose
	movs	r2, #32
	ldr	r0, [sp, #24]                   @ 4-byte Reload
	mov	r1, r5
	bl	memcpy
	add	sp, #92
	pop	{r4, r5, r6, r7, pc}
.Laes_v6m_small_func_end1:
	.size	aes_v6m_small.aes_soft.soft.plane_words.PlaneWordsFourWords.load, .Laes_v6m_small_func_end1-aes_v6m_small.aes_soft.soft.plane_words.PlaneWordsFourWords.load
	.cantunwind
	.fnend
                                        @ -- End function
	.section	.text.aes_v6m_small.aes_planes.soft.word.transpose.transpose,"ax",%progbits
	.p2align	2                               @ -- Begin function aes_planes::soft::word::transpose::transpose::<#9d6d04665546a1c3>
	.type	aes_v6m_small.aes_planes.soft.word.transpose.transpose,%function
	.code	16
	.thumb_func
aes_v6m_small.aes_planes.soft.word.transpose.transpose: @ @aes_v6m_small.aes_planes.soft.word.transpose.transpose
	.fnstart
@ %bb.0:                                @ %start
	.save	{r4, r5, r6, r7, lr}
	push	{r4, r5, r6, r7, lr}
	.pad	#40
	sub	sp, #40
	mov	r2, r0
	ldrb	r0, [r1, #28]
	ldrb	r3, [r1, #29]
	lsls	r3, r3, #8
	adds	r0, r3, r0
	ldrb	r3, [r1, #30]
	lsls	r3, r3, #16
	ldrb	r4, [r1, #31]
	lsls	r4, r4, #24
	adds	r3, r4, r3
	adds	r3, r3, r0
	ldrb	r0, [r1, #24]
	ldrb	r4, [r1, #25]
	lsls	r4, r4, #8
	adds	r0, r4, r0
	ldrb	r4, [r1, #26]
	lsls	r4, r4, #16
	ldrb	r5, [r1, #27]
	lsls	r5, r5, #24
	adds	r4, r5, r4
	adds	r0, r4, r0
	str	r0, [sp, #36]                   @ 4-byte Spill
	lsrs	r0, r0, #1
	eors	r0, r3
	ldr	r7, .Laes_v6m_small_CPI2_0
	ands	r0, r7
	str	r0, [sp, #28]                   @ 4-byte Spill
	eors	r3, r0
	ldrb	r0, [r1, #20]
	ldrb	r4, [r1, #21]
	lsls	r4, r4, #8
	adds	r0, r4, r0
	ldrb	r4, [r1, #22]
	lsls	r4, r4, #16
	ldrb	r5, [r1, #23]
	lsls	r5, r5, #24
	adds	r4, r5, r4
	adds	r6, r4, r0
	ldrb	r0, [r1, #16]
	ldrb	r4, [r1, #17]
	lsls	r4, r4, #8
	adds	r0, r4, r0
	ldrb	r4, [r1, #18]
	lsls	r4, r4, #16
	ldrb	r5, [r1, #19]
	lsls	r5, r5, #24
	adds	r4, r5, r4
	adds	r0, r4, r0
	str	r0, [sp, #20]                   @ 4-byte Spill
	lsrs	r0, r0, #1
	eors	r0, r6
	ands	r0, r7
	str	r0, [sp, #16]                   @ 4-byte Spill
	eors	r6, r0
	str	r6, [sp, #32]                   @ 4-byte Spill
	lsrs	r0, r6, #2
	eors	r0, r3
	ldr	r4, .Laes_v6m_small_CPI2_1
	ands	r0, r4
	str	r0, [sp, #24]                   @ 4-byte Spill
	eors	r3, r0
	ldrb	r0, [r1, #12]
	ldrb	r4, [r1, #13]
	lsls	r4, r4, #8
	adds	r0, r4, r0
	ldrb	r4, [r1, #14]
	lsls	r4, r4, #16
	ldrb	r6, [r1, #15]
	lsls	r6, r6, #24
	adds	r4, r6, r4
	adds	r5, r4, r0
	ldrb	r0, [r1, #8]
	ldrb	r4, [r1, #9]
	lsls	r4, r4, #8
	adds	r0, r4, r0
	ldrb	r4, [r1, #10]
	lsls	r4, r4, #16
	ldrb	r6, [r1, #11]
	lsls	r6, r6, #24
	adds	r4, r6, r4
	adds	r0, r4, r0
	str	r0, [sp, #12]                   @ 4-byte Spill
	lsrs	r0, r0, #1
	eors	r0, r5
	ands	r0, r7
	eors	r5, r0
	ldrb	r4, [r1, #4]
	ldrb	r6, [r1, #5]
	lsls	r6, r6, #8
	adds	r4, r6, r4
	ldrb	r6, [r1, #6]
	lsls	r6, r6, #16
	ldrb	r7, [r1, #7]
	lsls	r7, r7, #24
	adds	r6, r7, r6
	adds	r7, r6, r4
	ldrb	r4, [r1]
	ldrb	r6, [r1, #1]
	lsls	r6, r6, #8
	adds	r4, r6, r4
	ldrb	r6, [r1, #2]
	lsls	r6, r6, #16
	ldrb	r1, [r1, #3]
	lsls	r1, r1, #24
	adds	r1, r1, r6
	adds	r1, r1, r4
	str	r1, [sp]                        @ 4-byte Spill
	lsrs	r4, r1, #1
	eors	r4, r7
	ldr	r1, .Laes_v6m_small_CPI2_0
	ands	r4, r1
	eors	r7, r4
	str	r7, [sp, #4]                    @ 4-byte Spill
	lsrs	r6, r7, #2
	eors	r6, r5
	ldr	r1, .Laes_v6m_small_CPI2_1
	ands	r6, r1
	eors	r5, r6
	str	r5, [sp, #8]                    @ 4-byte Spill
	lsrs	r7, r5, #4
	eors	r7, r3
	ldr	r1, .Laes_v6m_small_CPI2_2
	ands	r7, r1
	eors	r3, r7
	strb	r3, [r2, #28]
	lsrs	r1, r3, #24
	strb	r1, [r2, #31]
	lsrs	r1, r3, #16
	strb	r1, [r2, #30]
	lsrs	r1, r3, #8
	strb	r1, [r2, #29]
	ldr	r1, [sp, #28]                   @ 4-byte Reload
	lsls	r3, r1, #1
	ldr	r1, [sp, #36]                   @ 4-byte Reload
	eors	r3, r1
	ldr	r1, [sp, #16]                   @ 4-byte Reload
	lsls	r5, r1, #1
	ldr	r1, [sp, #20]                   @ 4-byte Reload
	eors	r5, r1
	str	r5, [sp, #28]                   @ 4-byte Spill
	lsrs	r5, r5, #2
	eors	r5, r3
	ldr	r1, .Laes_v6m_small_CPI2_1
	ands	r5, r1
	eors	r3, r5
	lsls	r0, r0, #1
	ldr	r1, [sp, #12]                   @ 4-byte Reload
	eors	r0, r1
	lsls	r1, r4, #1
	ldr	r4, [sp]                        @ 4-byte Reload
	eors	r1, r4
	str	r1, [sp, #16]                   @ 4-byte Spill
	lsrs	r1, r1, #2
	eors	r1, r0
	ldr	r4, .Laes_v6m_small_CPI2_1
	ands	r1, r4
	eors	r0, r1
	str	r0, [sp, #36]                   @ 4-byte Spill
	lsrs	r0, r0, #4
	eors	r0, r3
	ldr	r4, .Laes_v6m_small_CPI2_2
	ands	r0, r4
	str	r0, [sp, #20]                   @ 4-byte Spill
	eors	r3, r0
	strb	r3, [r2, #24]
	ldr	r0, [sp, #24]                   @ 4-byte Reload
	lsls	r0, r0, #2
	ldr	r4, [sp, #32]                   @ 4-byte Reload
	eors	r0, r4
	lsls	r6, r6, #2
	ldr	r4, [sp, #4]                    @ 4-byte Reload
	eors	r6, r4
	str	r6, [sp, #32]                   @ 4-byte Spill
	lsrs	r6, r6, #4
	eors	r6, r0
	ldr	r4, .Laes_v6m_small_CPI2_2
	ands	r6, r4
	eors	r0, r6
	strb	r0, [r2, #20]
	lsls	r7, r7, #4
	ldr	r4, [sp, #8]                    @ 4-byte Reload
	eors	r7, r4
	strb	r7, [r2, #12]
	lsrs	r4, r3, #24
	strb	r4, [r2, #27]
	lsrs	r4, r3, #16
	strb	r4, [r2, #26]
	lsrs	r3, r3, #8
	strb	r3, [r2, #25]
	lsrs	r3, r0, #24
	strb	r3, [r2, #23]
	lsrs	r3, r0, #16
	strb	r3, [r2, #22]
	lsrs	r0, r0, #8
	strb	r0, [r2, #21]
	lsls	r5, r5, #2
	ldr	r0, [sp, #28]                   @ 4-byte Reload
	eors	r5, r0
	lsls	r1, r1, #2
	ldr	r0, [sp, #16]                   @ 4-byte Reload
	eors	r1, r0
	lsrs	r3, r1, #4
	eors	r3, r5
	ldr	r0, .Laes_v6m_small_CPI2_2
	ands	r3, r0
	eors	r5, r3
	strb	r5, [r2, #16]
	lsrs	r0, r7, #24
	strb	r0, [r2, #15]
	lsrs	r0, r7, #16
	strb	r0, [r2, #14]
	lsrs	r0, r7, #8
	strb	r0, [r2, #13]
	ldr	r0, [sp, #20]                   @ 4-byte Reload
	lsls	r4, r0, #4
	ldr	r0, [sp, #36]                   @ 4-byte Reload
	eors	r4, r0
	strb	r4, [r2, #8]
	lsls	r0, r6, #4
	ldr	r6, [sp, #32]                   @ 4-byte Reload
	eors	r0, r6
	strb	r0, [r2, #4]
	lsrs	r6, r5, #24
	strb	r6, [r2, #19]
	lsrs	r6, r5, #16
	strb	r6, [r2, #18]
	lsrs	r5, r5, #8
	strb	r5, [r2, #17]
	lsrs	r5, r4, #24
	strb	r5, [r2, #11]
	lsrs	r5, r4, #16
	strb	r5, [r2, #10]
	lsrs	r4, r4, #8
	strb	r4, [r2, #9]
	lsrs	r4, r0, #24
	strb	r4, [r2, #7]
	lsrs	r4, r0, #16
	strb	r4, [r2, #6]
	lsrs	r0, r0, #8
	strb	r0, [r2, #5]
	lsls	r0, r3, #4
	eors	r0, r1
	strb	r0, [r2]
	lsrs	r1, r0, #24
	strb	r1, [r2, #3]
	lsrs	r1, r0, #16
	strb	r1, [r2, #2]
	lsrs	r0, r0, #8
	strb	r0, [r2, #1]
	add	sp, #40
	pop	{r4, r5, r6, r7, pc}
	.p2align	2
@ %bb.1:
.Laes_v6m_small_CPI2_0:
	.long	1431655765                      @ 0x55555555
.Laes_v6m_small_CPI2_1:
	.long	858993459                       @ 0x33333333
.Laes_v6m_small_CPI2_2:
	.long	252645135                       @ 0xf0f0f0f
.Laes_v6m_small_func_end2:
	.size	aes_v6m_small.aes_planes.soft.word.transpose.transpose, .Laes_v6m_small_func_end2-aes_v6m_small.aes_planes.soft.word.transpose.transpose
	.cantunwind
	.fnend
                                        @ -- End function
	.section	.text.aes_v6m_small.aes_soft.soft.plane_words.PlaneWordsFourWords.read_back,"ax",%progbits
	.p2align	1                               @ -- Begin function aes_soft::soft::plane_words::PlaneWordsFourWords::read_back::<#6af90bfc14753d47>
	.type	aes_v6m_small.aes_soft.soft.plane_words.PlaneWordsFourWords.read_back,%function
	.code	16
	.thumb_func
aes_v6m_small.aes_soft.soft.plane_words.PlaneWordsFourWords.read_back: @ @aes_v6m_small.aes_soft.soft.plane_words.PlaneWordsFourWords.read_back
	.fnstart
@ %bb.0:                                @ %start
	.save	{r4, r5, r7, lr}
	push	{r4, r5, r7, lr}
	.pad	#32
	sub	sp, #32
	mov	r4, r0
	mov	r5, sp
	mov	r0, r5
	bl	aes_v6m_small.aes_planes.soft.round_keys.round_key.1
	movs	r2, #32
	mov	r0, r4
	mov	r1, r5
	bl	memcpy
	add	sp, #32
	pop	{r4, r5, r7, pc}
.Laes_v6m_small_func_end3:
	.size	aes_v6m_small.aes_soft.soft.plane_words.PlaneWordsFourWords.read_back, .Laes_v6m_small_func_end3-aes_v6m_small.aes_soft.soft.plane_words.PlaneWordsFourWords.read_back
	.cantunwind
	.fnend
                                        @ -- End function
	.section	.text.aes_v6m_small.aes_planes.soft.round_keys.round_key.1,"ax",%progbits
	.p2align	1                               @ -- Begin function aes_planes::soft::round_keys::round_key::<#6af90bfc14753d47>
	.type	aes_v6m_small.aes_planes.soft.round_keys.round_key.1,%function
	.code	16
	.thumb_func
aes_v6m_small.aes_planes.soft.round_keys.round_key.1: @ @aes_v6m_small.aes_planes.soft.round_keys.round_key.1
	.fnstart
@ %bb.0:                                @ %start
	.save	{r4, r5, r6, r7, lr}
	push	{r4, r5, r6, r7, lr}
	.pad	#12
	sub	sp, #12
	lsls	r2, r2, #5
	ldr	r7, [r1, r2]
	adds	r1, r1, r2
	ldr	r2, [r1, #4]
	str	r2, [sp, #8]                    @ 4-byte Spill
	ldr	r4, [r1, #8]
	str	r4, [sp, #4]                    @ 4-byte Spill
	ldr	r3, [r1, #12]
	ldr	r2, [r1, #16]
	str	r2, [sp]                        @ 4-byte Spill
	ldr	r5, [r1, #20]
	ldr	r6, [r1, #24]
	ldr	r1, [r1, #28]
	strb	r1, [r0, #28]
	strb	r6, [r0, #24]
	strb	r5, [r0, #20]
	strb	r2, [r0, #16]
	strb	r3, [r0, #12]
	strb	r4, [r0, #8]
	ldr	r2, [sp, #8]                    @ 4-byte Reload
	strb	r2, [r0, #4]
	lsrs	r2, r7, #24
	strb	r2, [r0, #3]
	lsrs	r2, r7, #16
	strb	r2, [r0, #2]
	lsrs	r2, r7, #8
	strb	r2, [r0, #1]
	strb	r7, [r0]
	lsrs	r2, r1, #24
	strb	r2, [r0, #31]
	lsrs	r2, r1, #16
	strb	r2, [r0, #30]
	lsrs	r1, r1, #8
	strb	r1, [r0, #29]
	lsrs	r1, r6, #24
	strb	r1, [r0, #27]
	lsrs	r1, r6, #16
	strb	r1, [r0, #26]
	lsrs	r1, r6, #8
	strb	r1, [r0, #25]
	lsrs	r1, r5, #24
	strb	r1, [r0, #23]
	lsrs	r1, r5, #16
	strb	r1, [r0, #22]
	lsrs	r1, r5, #8
	strb	r1, [r0, #21]
	ldr	r2, [sp]                        @ 4-byte Reload
	lsrs	r1, r2, #24
	strb	r1, [r0, #19]
	lsrs	r1, r2, #16
	strb	r1, [r0, #18]
	lsrs	r1, r2, #8
	strb	r1, [r0, #17]
	lsrs	r1, r3, #24
	strb	r1, [r0, #15]
	lsrs	r1, r3, #16
	strb	r1, [r0, #14]
	lsrs	r1, r3, #8
	strb	r1, [r0, #13]
	ldr	r2, [sp, #4]                    @ 4-byte Reload
	lsrs	r1, r2, #24
	strb	r1, [r0, #11]
	lsrs	r1, r2, #16
	strb	r1, [r0, #10]
	lsrs	r1, r2, #8
	strb	r1, [r0, #9]
	ldr	r2, [sp, #8]                    @ 4-byte Reload
	lsrs	r1, r2, #24
	strb	r1, [r0, #7]
	lsrs	r1, r2, #16
	strb	r1, [r0, #6]
	lsrs	r1, r2, #8
	strb	r1, [r0, #5]
	add	sp, #12
	pop	{r4, r5, r6, r7, pc}
.Laes_v6m_small_func_end4:
	.size	aes_v6m_small.aes_planes.soft.round_keys.round_key.1, .Laes_v6m_small_func_end4-aes_v6m_small.aes_planes.soft.round_keys.round_key.1
	.cantunwind
	.fnend
                                        @ -- End function
	.section	.text.aes_v6m_small.aes_soft.soft.plane_words.PlaneWordsFourWords.rotated,"ax",%progbits
	.p2align	1                               @ -- Begin function aes_soft::soft::plane_words::PlaneWordsFourWords::rotated::<#6af90bfc14753d47>
	.type	aes_v6m_small.aes_soft.soft.plane_words.PlaneWordsFourWords.rotated,%function
	.code	16
	.thumb_func
aes_v6m_small.aes_soft.soft.plane_words.PlaneWordsFourWords.rotated: @ @aes_v6m_small.aes_soft.soft.plane_words.PlaneWordsFourWords.rotated
	.fnstart
@ %bb.0:                                @ %start
	.save	{r4, r5, r6, r7, lr}
	push	{r4, r5, r6, r7, lr}
	.pad	#108
	sub	sp, #108
	str	r3, [sp, #4]                    @ 4-byte Spill
	mov	r7, r2
	str	r0, [sp, #8]                    @ 4-byte Spill
	add	r6, sp, #44
	movs	r5, #32
	mov	r0, r6
	mov	r2, r5
	bl	memcpy
	add	r4, sp, #12
	mov	r0, r4
	mov	r1, r7
	mov	r2, r5
	bl	memcpy
	mov	r0, r4
	bl	aes_v6m_small.aes_soft.soft.plane_words.substitute
	mov	r0, r4
	ldr	r1, [sp, #4]                    @ 4-byte Reload
	bl	aes_v6m_small.aes_planes.soft.key_columns.add_round_constant
	add	r7, sp, #76
	movs	r3, #14
	mov	r0, r7
	mov	r1, r6
	mov	r2, r4
	bl	aes_v6m_small.aes_planes.soft.key_columns.summed_columns
	ldr	r0, [sp, #8]                    @ 4-byte Reload
	mov	r1, r7
	mov	r2, r5
	bl	memcpy
	add	sp, #108
	pop	{r4, r5, r6, r7, pc}
.Laes_v6m_small_func_end5:
	.size	aes_v6m_small.aes_soft.soft.plane_words.PlaneWordsFourWords.rotated, .Laes_v6m_small_func_end5-aes_v6m_small.aes_soft.soft.plane_words.PlaneWordsFourWords.rotated
	.cantunwind
	.fnend
                                        @ -- End function
	.section	.text.aes_v6m_small.aes_soft.soft.plane_words.substitute,"ax",%progbits
	.p2align	1                               @ -- Begin function aes_soft::soft::plane_words::substitute::<#6af90bfc14753d47>
	.type	aes_v6m_small.aes_soft.soft.plane_words.substitute,%function
	.code	16
	.thumb_func
aes_v6m_small.aes_soft.soft.plane_words.substitute: @ @aes_v6m_small.aes_soft.soft.plane_words.substitute
	.fnstart
@ %bb.0:                                @ %start
	.save	{r4, lr}
	push	{r4, lr}
	mov	r4, r0
	bl	aes_v6m_small.aes_planes.soft.sbox.sub_bytes
	mov	r0, r4
	bl	aes_v6m_small.aes_planes.soft.sbox.sub_bytes_nots
	pop	{r4, pc}
.Laes_v6m_small_func_end6:
	.size	aes_v6m_small.aes_soft.soft.plane_words.substitute, .Laes_v6m_small_func_end6-aes_v6m_small.aes_soft.soft.plane_words.substitute
	.cantunwind
	.fnend
                                        @ -- End function
	.section	.text.aes_v6m_small.aes_planes.soft.sbox.sub_bytes,"ax",%progbits
	.p2align	1                               @ -- Begin function aes_planes::soft::sbox::sub_bytes::<#6af90bfc14753d47>
	.type	aes_v6m_small.aes_planes.soft.sbox.sub_bytes,%function
	.code	16
	.thumb_func
aes_v6m_small.aes_planes.soft.sbox.sub_bytes: @ @aes_v6m_small.aes_planes.soft.sbox.sub_bytes
	.fnstart
@ %bb.0:                                @ %start
	.save	{r4, r5, r6, r7, lr}
	push	{r4, r5, r6, r7, lr}
	.pad	#96
	sub	sp, #96
	mov	r1, r0
	str	r0, [sp, #36]                   @ 4-byte Spill
	ldr	r0, [r0]
	str	r0, [sp, #92]                   @ 4-byte Spill
	ldr	r4, [r1, #4]
	str	r4, [sp, #76]                   @ 4-byte Spill
	ldr	r7, [r1, #8]
	ldr	r0, [r1, #12]
	str	r0, [sp, #56]                   @ 4-byte Spill
	ldr	r5, [r1, #16]
	str	r5, [sp, #68]                   @ 4-byte Spill
	ldr	r6, [r1, #20]
	ldr	r2, [r1, #24]
	ldr	r1, [r1, #28]
	eors	r5, r7
	str	r7, [sp, #64]                   @ 4-byte Spill
	mov	r0, r1
	str	r1, [sp, #44]                   @ 4-byte Spill
	eors	r0, r4
	str	r0, [sp, #32]                   @ 4-byte Spill
	mov	r3, r0
	eors	r3, r5
	mov	r4, r5
	str	r5, [sp, #12]                   @ 4-byte Spill
	str	r3, [sp, #72]                   @ 4-byte Spill
	ldr	r5, [sp, #56]                   @ 4-byte Reload
	eors	r5, r3
	mov	r0, r5
	eors	r0, r7
	str	r0, [sp, #28]                   @ 4-byte Spill
	eors	r6, r2
	eors	r0, r6
	str	r0, [sp, #84]                   @ 4-byte Spill
	eors	r5, r2
	str	r5, [sp, #56]                   @ 4-byte Spill
	mov	r2, r1
	ldr	r1, [sp, #68]                   @ 4-byte Reload
	eors	r2, r1
	eors	r5, r2
	mov	r1, r2
	str	r2, [sp, #8]                    @ 4-byte Spill
	mov	r3, r5
	eors	r3, r0
	str	r3, [sp, #52]                   @ 4-byte Spill
	ands	r3, r4
	mov	r2, r5
	ands	r2, r1
	eors	r3, r2
	str	r3, [sp, #40]                   @ 4-byte Spill
	mov	r0, r5
	mov	r1, r5
	str	r5, [sp, #48]                   @ 4-byte Spill
	eors	r0, r6
	ldr	r5, [sp, #92]                   @ 4-byte Reload
	eors	r6, r5
	str	r6, [sp, #80]                   @ 4-byte Spill
	ldr	r7, [sp, #76]                   @ 4-byte Reload
	eors	r7, r6
	str	r7, [sp, #76]                   @ 4-byte Spill
	ands	r7, r6
	str	r0, [sp, #60]                   @ 4-byte Spill
	eors	r7, r0
	mov	r5, r0
	ldr	r0, [sp, #32]                   @ 4-byte Reload
	ands	r5, r0
	eors	r7, r5
	eors	r7, r0
	eors	r7, r3
	str	r7, [sp, #88]                   @ 4-byte Spill
	ldr	r4, [sp, #64]                   @ 4-byte Reload
	ldr	r0, [sp, #44]                   @ 4-byte Reload
	eors	r4, r0
	ldr	r6, [sp, #84]                   @ 4-byte Reload
	ands	r6, r4
	mov	r7, r4
	str	r4, [sp, #64]                   @ 4-byte Spill
	eors	r6, r2
	mov	r4, r1
	ldr	r3, [sp, #92]                   @ 4-byte Reload
	eors	r4, r3
	str	r4, [sp, #16]                   @ 4-byte Spill
	ldr	r1, [sp, #80]                   @ 4-byte Reload
	eors	r1, r0
	str	r1, [sp, #4]                    @ 4-byte Spill
	ands	r4, r1
	ldr	r1, [sp, #60]                   @ 4-byte Reload
	eors	r4, r1
	eors	r4, r5
	eors	r4, r0
	eors	r4, r6
	ldr	r0, [sp, #88]                   @ 4-byte Reload
	eors	r0, r4
	str	r0, [sp, #24]                   @ 4-byte Spill
	ldr	r2, [sp, #28]                   @ 4-byte Reload
	mov	r1, r2
	ldr	r5, [sp, #72]                   @ 4-byte Reload
	ands	r1, r5
	ldr	r5, [sp, #76]                   @ 4-byte Reload
	eors	r5, r7
	mov	r7, r5
	str	r5, [sp, #44]                   @ 4-byte Spill
	mov	r5, r2
	eors	r5, r3
	str	r5, [sp]                        @ 4-byte Spill
	ands	r5, r7
	ldr	r0, [sp, #56]                   @ 4-byte Reload
	eors	r5, r0
	eors	r5, r1
	ldr	r0, [sp, #40]                   @ 4-byte Reload
	eors	r5, r0
	ldr	r3, [sp, #88]                   @ 4-byte Reload
	mov	r7, r3
	ands	r7, r5
	ldr	r0, [sp, #68]                   @ 4-byte Reload
	ldr	r2, [sp, #80]                   @ 4-byte Reload
	eors	r0, r2
	str	r0, [sp, #68]                   @ 4-byte Spill
	ldr	r2, [sp, #92]                   @ 4-byte Reload
	ands	r0, r2
	ldr	r2, [sp, #64]                   @ 4-byte Reload
	eors	r0, r2
	ldr	r2, [sp, #84]                   @ 4-byte Reload
	eors	r0, r2
	eors	r0, r1
	eors	r0, r6
	mov	r1, r7
	eors	r1, r0
	ldr	r2, [sp, #24]                   @ 4-byte Reload
	ands	r1, r2
	mov	r6, r1
	eors	r6, r4
	eors	r1, r7
	ands	r1, r4
	mov	r2, r3
	eors	r2, r1
	str	r2, [sp, #88]                   @ 4-byte Spill
	mov	r3, r2
	eors	r3, r6
	str	r3, [sp, #20]                   @ 4-byte Spill
	str	r6, [sp, #24]                   @ 4-byte Spill
	eors	r5, r0
	eors	r7, r4
	eors	r1, r7
	ands	r7, r5
	eors	r7, r0
	ands	r1, r7
	eors	r1, r5
	mov	r5, r1
	eors	r5, r3
	mov	r3, r7
	eors	r3, r6
	mov	r0, r5
	eors	r0, r3
	str	r0, [sp, #40]                   @ 4-byte Spill
	ldr	r2, [sp, #52]                   @ 4-byte Reload
	ands	r2, r0
	ldr	r6, [sp, #80]                   @ 4-byte Reload
	ands	r6, r1
	mov	r0, r1
	eors	r0, r7
	str	r0, [sp, #56]                   @ 4-byte Spill
	ldr	r0, [sp, #60]                   @ 4-byte Reload
	ldr	r4, [sp, #56]                   @ 4-byte Reload
	ands	r0, r4
	str	r0, [sp, #60]                   @ 4-byte Spill
	eors	r6, r0
	str	r6, [sp, #80]                   @ 4-byte Spill
	eors	r2, r6
	str	r2, [sp, #52]                   @ 4-byte Spill
	ldr	r0, [sp, #48]                   @ 4-byte Reload
	mov	r4, r3
	ands	r0, r3
	eors	r0, r2
	mov	r6, r0
	str	r0, [sp, #48]                   @ 4-byte Spill
	ldr	r0, [sp, #12]                   @ 4-byte Reload
	ldr	r3, [sp, #40]                   @ 4-byte Reload
	ands	r3, r0
	ldr	r0, [sp, #8]                    @ 4-byte Reload
	ands	r4, r0
	eors	r3, r4
	str	r3, [sp, #40]                   @ 4-byte Spill
	ldr	r2, [sp, #44]                   @ 4-byte Reload
	ldr	r0, [sp, #20]                   @ 4-byte Reload
	ands	r2, r0
	eors	r2, r3
	str	r2, [sp, #44]                   @ 4-byte Spill
	ldr	r0, [sp, #72]                   @ 4-byte Reload
	ldr	r3, [sp, #88]                   @ 4-byte Reload
	ands	r0, r3
	eors	r0, r2
	str	r0, [sp, #72]                   @ 4-byte Spill
	eors	r0, r6
	ldr	r6, [sp, #36]                   @ 4-byte Reload
	str	r0, [r6, #28]
	ldr	r2, [sp, #84]                   @ 4-byte Reload
	ands	r2, r5
	ldr	r0, [sp, #92]                   @ 4-byte Reload
	ldr	r6, [sp, #24]                   @ 4-byte Reload
	ands	r0, r6
	ldr	r6, [sp, #28]                   @ 4-byte Reload
	ands	r3, r6
	str	r3, [sp, #88]                   @ 4-byte Spill
	eors	r0, r3
	str	r0, [sp, #92]                   @ 4-byte Spill
	eors	r2, r0
	ldr	r0, [sp, #32]                   @ 4-byte Reload
	ldr	r3, [sp, #56]                   @ 4-byte Reload
	ands	r3, r0
	str	r3, [sp, #56]                   @ 4-byte Spill
	mov	r0, r2
	eors	r0, r3
	ldr	r2, [sp, #52]                   @ 4-byte Reload
	eors	r0, r2
	str	r0, [sp, #84]                   @ 4-byte Spill
	ldr	r2, [sp, #4]                    @ 4-byte Reload
	ands	r2, r7
	eors	r2, r0
	ldr	r0, [sp, #64]                   @ 4-byte Reload
	ands	r5, r0
	eors	r5, r4
	ldr	r6, [sp, #48]                   @ 4-byte Reload
	eors	r5, r6
	eors	r5, r2
	ldr	r0, [sp, #36]                   @ 4-byte Reload
	str	r5, [r0, #20]
	ldr	r4, [sp]                        @ 4-byte Reload
	ldr	r3, [sp, #20]                   @ 4-byte Reload
	ands	r3, r4
	ldr	r4, [sp, #88]                   @ 4-byte Reload
	eors	r3, r4
	ldr	r4, [sp, #80]                   @ 4-byte Reload
	eors	r3, r4
	ldr	r4, [sp, #72]                   @ 4-byte Reload
	eors	r3, r4
	str	r3, [r0, #16]
	ldr	r4, [sp, #68]                   @ 4-byte Reload
	ldr	r5, [sp, #24]                   @ 4-byte Reload
	ands	r5, r4
	ldr	r4, [sp, #44]                   @ 4-byte Reload
	eors	r5, r4
	eors	r5, r2
	str	r5, [r0, #8]
	ldr	r2, [sp, #16]                   @ 4-byte Reload
	ands	r7, r2
	ldr	r2, [sp, #92]                   @ 4-byte Reload
	eors	r7, r2
	ldr	r2, [sp, #60]                   @ 4-byte Reload
	eors	r7, r2
	ldr	r4, [sp, #76]                   @ 4-byte Reload
	ands	r1, r4
	ldr	r2, [sp, #40]                   @ 4-byte Reload
	eors	r1, r2
	eors	r1, r7
	ldr	r2, [sp, #84]                   @ 4-byte Reload
	eors	r2, r1
	str	r2, [r0, #4]
	ldr	r2, [sp, #56]                   @ 4-byte Reload
	eors	r1, r2
	str	r1, [r0]
	eors	r6, r3
	str	r6, [r0, #24]
	eors	r7, r3
	str	r7, [r0, #12]
	add	sp, #96
	pop	{r4, r5, r6, r7, pc}
.Laes_v6m_small_func_end7:
	.size	aes_v6m_small.aes_planes.soft.sbox.sub_bytes, .Laes_v6m_small_func_end7-aes_v6m_small.aes_planes.soft.sbox.sub_bytes
	.cantunwind
	.fnend
                                        @ -- End function
	.section	.text.aes_v6m_small.aes_planes.soft.sbox.sub_bytes_nots,"ax",%progbits
	.p2align	1                               @ -- Begin function aes_planes::soft::sbox::sub_bytes_nots::<#6af90bfc14753d47>
	.type	aes_v6m_small.aes_planes.soft.sbox.sub_bytes_nots,%function
	.code	16
	.thumb_func
aes_v6m_small.aes_planes.soft.sbox.sub_bytes_nots: @ @aes_v6m_small.aes_planes.soft.sbox.sub_bytes_nots
	.fnstart
@ %bb.0:                                @ %start
	ldr	r1, [r0, #24]
	mvns	r1, r1
	str	r1, [r0, #24]
	ldr	r1, [r0, #20]
	mvns	r1, r1
	str	r1, [r0, #20]
	ldr	r1, [r0, #4]
	mvns	r1, r1
	str	r1, [r0, #4]
	ldr	r1, [r0]
	mvns	r1, r1
	str	r1, [r0]
	bx	lr
.Laes_v6m_small_func_end8:
	.size	aes_v6m_small.aes_planes.soft.sbox.sub_bytes_nots, .Laes_v6m_small_func_end8-aes_v6m_small.aes_planes.soft.sbox.sub_bytes_nots
	.cantunwind
	.fnend
                                        @ -- End function
	.section	.text.aes_v6m_small.aes_planes.soft.key_columns.add_round_constant,"ax",%progbits
	.p2align	1                               @ -- Begin function aes_planes::soft::key_columns::add_round_constant::<#6af90bfc14753d47>
	.type	aes_v6m_small.aes_planes.soft.key_columns.add_round_constant,%function
	.code	16
	.thumb_func
aes_v6m_small.aes_planes.soft.key_columns.add_round_constant: @ @aes_v6m_small.aes_planes.soft.key_columns.add_round_constant
	.fnstart
@ %bb.0:                                @ %start
	.save	{r4, r5, r7, lr}
	push	{r4, r5, r7, lr}
	movs	r3, #64
	mov	r4, r1
	ands	r4, r3
	movs	r2, #3
	lsls	r2, r2, #8
	muls	r4, r2, r4
	ldr	r5, [r0, #24]
	eors	r5, r4
	str	r5, [r0, #24]
	lsrs	r4, r1, #1
	ands	r4, r3
	muls	r4, r2, r4
	ldr	r5, [r0, #28]
	eors	r5, r4
	str	r5, [r0, #28]
	lsls	r4, r1, #1
	ands	r4, r3
	muls	r4, r2, r4
	ldr	r5, [r0, #20]
	eors	r5, r4
	str	r5, [r0, #20]
	lsls	r4, r1, #2
	ands	r4, r3
	muls	r4, r2, r4
	ldr	r5, [r0, #16]
	eors	r5, r4
	str	r5, [r0, #16]
	lsls	r4, r1, #3
	ands	r4, r3
	muls	r4, r2, r4
	ldr	r5, [r0, #12]
	eors	r5, r4
	str	r5, [r0, #12]
	lsls	r4, r1, #4
	ands	r4, r3
	muls	r4, r2, r4
	ldr	r5, [r0, #8]
	eors	r5, r4
	str	r5, [r0, #8]
	lsls	r4, r1, #5
	ands	r4, r3
	muls	r4, r2, r4
	ldr	r3, [r0, #4]
	eors	r3, r4
	str	r3, [r0, #4]
	lsls	r1, r1, #31
	lsrs	r1, r1, #25
	muls	r1, r2, r1
	ldr	r2, [r0]
	eors	r2, r1
	str	r2, [r0]
	pop	{r4, r5, r7, pc}
.Laes_v6m_small_func_end9:
	.size	aes_v6m_small.aes_planes.soft.key_columns.add_round_constant, .Laes_v6m_small_func_end9-aes_v6m_small.aes_planes.soft.key_columns.add_round_constant
	.cantunwind
	.fnend
                                        @ -- End function
	.section	.text.aes_v6m_small.aes_planes.soft.key_columns.summed_columns,"ax",%progbits
	.p2align	2                               @ -- Begin function aes_planes::soft::key_columns::summed_columns::<#6af90bfc14753d47>
	.type	aes_v6m_small.aes_planes.soft.key_columns.summed_columns,%function
	.code	16
	.thumb_func
aes_v6m_small.aes_planes.soft.key_columns.summed_columns: @ @aes_v6m_small.aes_planes.soft.key_columns.summed_columns
	.fnstart
@ %bb.0:                                @ %start
	.save	{r4, r5, r6, r7, lr}
	push	{r4, r5, r6, r7, lr}
	.pad	#48
	sub	sp, #48
	str	r3, [sp, #4]                    @ 4-byte Spill
	ldr	r5, [r2, #28]
	rors	r5, r3
	ldr	r3, .Laes_v6m_small_CPI10_0
	ands	r5, r3
	ldr	r4, [r1, #28]
	eors	r4, r5
	lsls	r3, r4, #2
	ldr	r5, .Laes_v6m_small_CPI10_1
	ands	r3, r5
	eors	r3, r4
	lsls	r4, r3, #4
	ldr	r5, .Laes_v6m_small_CPI10_2
	ands	r4, r5
	eors	r4, r3
	mov	r5, r4
	str	r4, [sp, #40]                   @ 4-byte Spill
	ldr	r3, [r1]
	str	r3, [sp, #44]                   @ 4-byte Spill
	ldr	r3, [r2]
	str	r3, [sp, #36]                   @ 4-byte Spill
	ldr	r3, [r1, #4]
	str	r3, [sp, #28]                   @ 4-byte Spill
	ldr	r3, [r2, #4]
	str	r3, [sp, #24]                   @ 4-byte Spill
	ldr	r3, [r1, #8]
	str	r3, [sp, #16]                   @ 4-byte Spill
	ldr	r3, [r2, #8]
	str	r3, [sp]                        @ 4-byte Spill
	ldr	r3, [r1, #12]
	str	r3, [sp, #12]                   @ 4-byte Spill
	ldr	r4, [r2, #12]
	ldr	r3, [r1, #16]
	str	r3, [sp, #8]                    @ 4-byte Spill
	ldr	r3, [r2, #16]
	ldr	r6, [r1, #20]
	str	r6, [sp, #20]                   @ 4-byte Spill
	ldr	r7, [r2, #20]
	ldr	r6, [r1, #24]
	ldr	r2, [r2, #24]
	strb	r5, [r0, #28]
	ldr	r5, [sp, #4]                    @ 4-byte Reload
	rors	r2, r5
	ldr	r1, .Laes_v6m_small_CPI10_0
	ands	r2, r1
	eors	r2, r6
	lsls	r1, r2, #2
	ldr	r6, .Laes_v6m_small_CPI10_1
	ands	r1, r6
	eors	r1, r2
	lsls	r2, r1, #4
	ldr	r6, .Laes_v6m_small_CPI10_2
	ands	r2, r6
	eors	r2, r1
	str	r2, [sp, #32]                   @ 4-byte Spill
	strb	r2, [r0, #24]
	rors	r7, r5
	mov	r2, r5
	ldr	r6, .Laes_v6m_small_CPI10_0
	ands	r7, r6
	ldr	r1, [sp, #20]                   @ 4-byte Reload
	eors	r7, r1
	lsls	r1, r7, #2
	ldr	r5, .Laes_v6m_small_CPI10_1
	ands	r1, r5
	eors	r1, r7
	lsls	r7, r1, #4
	ldr	r5, .Laes_v6m_small_CPI10_2
	ands	r7, r5
	eors	r7, r1
	str	r7, [sp, #20]                   @ 4-byte Spill
	strb	r7, [r0, #20]
	mov	r7, r2
	rors	r3, r2
	ands	r3, r6
	ldr	r1, [sp, #8]                    @ 4-byte Reload
	eors	r3, r1
	lsls	r1, r3, #2
	ldr	r2, .Laes_v6m_small_CPI10_1
	ands	r1, r2
	eors	r1, r3
	lsls	r2, r1, #4
	ands	r2, r5
	mov	r6, r5
	eors	r2, r1
	strb	r2, [r0, #16]
	rors	r4, r7
	mov	r1, r7
	ldr	r5, .Laes_v6m_small_CPI10_0
	ands	r4, r5
	ldr	r3, [sp, #12]                   @ 4-byte Reload
	eors	r4, r3
	lsls	r3, r4, #2
	ldr	r7, .Laes_v6m_small_CPI10_1
	ands	r3, r7
	eors	r3, r4
	lsls	r7, r3, #4
	ands	r7, r6
	eors	r7, r3
	strb	r7, [r0, #12]
	ldr	r6, [sp]                        @ 4-byte Reload
	rors	r6, r1
	ands	r6, r5
	ldr	r3, [sp, #16]                   @ 4-byte Reload
	eors	r6, r3
	lsls	r4, r6, #2
	ldr	r3, .Laes_v6m_small_CPI10_1
	ands	r4, r3
	eors	r4, r6
	lsls	r3, r4, #4
	ldr	r5, .Laes_v6m_small_CPI10_2
	ands	r3, r5
	eors	r3, r4
	strb	r3, [r0, #8]
	ldr	r4, [sp, #24]                   @ 4-byte Reload
	rors	r4, r1
	ldr	r5, .Laes_v6m_small_CPI10_0
	ands	r4, r5
	ldr	r5, [sp, #28]                   @ 4-byte Reload
	eors	r4, r5
	lsls	r5, r4, #2
	ldr	r6, .Laes_v6m_small_CPI10_1
	ands	r5, r6
	eors	r5, r4
	lsls	r4, r5, #4
	ldr	r6, .Laes_v6m_small_CPI10_2
	ands	r4, r6
	eors	r4, r5
	strb	r4, [r0, #4]
	ldr	r5, [sp, #36]                   @ 4-byte Reload
	rors	r5, r1
	ldr	r1, .Laes_v6m_small_CPI10_0
	ands	r5, r1
	ldr	r1, [sp, #44]                   @ 4-byte Reload
	eors	r5, r1
	lsls	r1, r5, #2
	ldr	r6, .Laes_v6m_small_CPI10_1
	ands	r1, r6
	eors	r1, r5
	lsls	r6, r1, #4
	ldr	r5, .Laes_v6m_small_CPI10_2
	ands	r6, r5
	eors	r6, r1
	strb	r6, [r0]
	ldr	r1, [sp, #40]                   @ 4-byte Reload
	lsrs	r5, r1, #24
	strb	r5, [r0, #31]
	lsrs	r5, r1, #16
	strb	r5, [r0, #30]
	lsrs	r5, r1, #8
	strb	r5, [r0, #29]
	ldr	r1, [sp, #32]                   @ 4-byte Reload
	lsrs	r5, r1, #24
	strb	r5, [r0, #27]
	lsrs	r5, r1, #16
	strb	r5, [r0, #26]
	lsrs	r5, r1, #8
	strb	r5, [r0, #25]
	ldr	r1, [sp, #20]                   @ 4-byte Reload
	lsrs	r5, r1, #24
	strb	r5, [r0, #23]
	lsrs	r5, r1, #16
	strb	r5, [r0, #22]
	lsrs	r5, r1, #8
	strb	r5, [r0, #21]
	lsrs	r5, r2, #24
	strb	r5, [r0, #19]
	lsrs	r5, r2, #16
	strb	r5, [r0, #18]
	lsrs	r2, r2, #8
	strb	r2, [r0, #17]
	lsrs	r2, r7, #24
	strb	r2, [r0, #15]
	lsrs	r2, r7, #16
	strb	r2, [r0, #14]
	lsrs	r1, r7, #8
	strb	r1, [r0, #13]
	lsrs	r1, r3, #24
	strb	r1, [r0, #11]
	lsrs	r1, r3, #16
	strb	r1, [r0, #10]
	lsrs	r1, r3, #8
	strb	r1, [r0, #9]
	lsrs	r1, r4, #24
	strb	r1, [r0, #7]
	lsrs	r1, r4, #16
	strb	r1, [r0, #6]
	lsrs	r1, r4, #8
	strb	r1, [r0, #5]
	lsrs	r1, r6, #24
	strb	r1, [r0, #3]
	lsrs	r1, r6, #16
	strb	r1, [r0, #2]
	lsrs	r1, r6, #8
	strb	r1, [r0, #1]
	add	sp, #48
	pop	{r4, r5, r6, r7, pc}
	.p2align	2
@ %bb.1:
.Laes_v6m_small_CPI10_0:
	.long	50529027                        @ 0x3030303
.Laes_v6m_small_CPI10_1:
	.long	4244438268                      @ 0xfcfcfcfc
.Laes_v6m_small_CPI10_2:
	.long	4042322160                      @ 0xf0f0f0f0
.Laes_v6m_small_func_end10:
	.size	aes_v6m_small.aes_planes.soft.key_columns.summed_columns, .Laes_v6m_small_func_end10-aes_v6m_small.aes_planes.soft.key_columns.summed_columns
	.cantunwind
	.fnend
                                        @ -- End function
	.section	.text.aes_v6m_small.aes_soft.soft.plane_words.PlaneWordsFourWords.store,"ax",%progbits
	.p2align	1                               @ -- Begin function aes_soft::soft::plane_words::PlaneWordsFourWords::store::<#6af90bfc14753d47>
	.type	aes_v6m_small.aes_soft.soft.plane_words.PlaneWordsFourWords.store,%function
	.code	16
	.thumb_func
aes_v6m_small.aes_soft.soft.plane_words.PlaneWordsFourWords.store: @ @aes_v6m_small.aes_soft.soft.plane_words.PlaneWordsFourWords.store
	.fnstart
@ %bb.0:                                @ %start
	.save	{r4, r5, r6, r7, lr}
	push	{r4, r5, r6, r7, lr}
	.pad	#36
	sub	sp, #36
	mov	r4, r3
	mov	r5, r2
	mov	r6, r0
	add	r7, sp, #4
	ldr	r1, [sp, #56]
	movs	r2, #32
	mov	r0, r7
	bl	memcpy
	str	r7, [sp]
	mov	r0, r6
	mov	r2, r5
	mov	r3, r4
	bl	aes_v6m_small.aes_planes.soft.round_keys.store_round_key
	add	sp, #36
	pop	{r4, r5, r6, r7, pc}
.Laes_v6m_small_func_end11:
	.size	aes_v6m_small.aes_soft.soft.plane_words.PlaneWordsFourWords.store, .Laes_v6m_small_func_end11-aes_v6m_small.aes_soft.soft.plane_words.PlaneWordsFourWords.store
	.cantunwind
	.fnend
                                        @ -- End function
	.section	.text.aes_v6m_small.aes_planes.soft.round_keys.store_round_key,"ax",%progbits
	.p2align	1                               @ -- Begin function aes_planes::soft::round_keys::store_round_key::<#6af90bfc14753d47>
	.type	aes_v6m_small.aes_planes.soft.round_keys.store_round_key,%function
	.code	16
	.thumb_func
aes_v6m_small.aes_planes.soft.round_keys.store_round_key: @ @aes_v6m_small.aes_planes.soft.round_keys.store_round_key
	.fnstart
@ %bb.0:                                @ %start
	ldr	r1, [sp]
	ldr	r3, [r1]
	lsls	r2, r2, #5
	str	r3, [r0, r2]
	adds	r0, r0, r2
	ldr	r2, [r1, #4]
	str	r2, [r0, #4]
	ldr	r2, [r1, #8]
	str	r2, [r0, #8]
	ldr	r2, [r1, #12]
	str	r2, [r0, #12]
	ldr	r2, [r1, #16]
	str	r2, [r0, #16]
	ldr	r2, [r1, #20]
	str	r2, [r0, #20]
	ldr	r2, [r1, #24]
	str	r2, [r0, #24]
	ldr	r1, [r1, #28]
	str	r1, [r0, #28]
	bx	lr
.Laes_v6m_small_func_end12:
	.size	aes_v6m_small.aes_planes.soft.round_keys.store_round_key, .Laes_v6m_small_func_end12-aes_v6m_small.aes_planes.soft.round_keys.store_round_key
	.cantunwind
	.fnend
                                        @ -- End function
	.section	.text.aes_v6m_small.aes_soft.soft.plane_words.PlaneWordsFourWords.straddled,"ax",%progbits
	.p2align	1                               @ -- Begin function aes_soft::soft::plane_words::PlaneWordsFourWords::straddled::<#6af90bfc14753d47>
	.type	aes_v6m_small.aes_soft.soft.plane_words.PlaneWordsFourWords.straddled,%function
	.code	16
	.thumb_func
aes_v6m_small.aes_soft.soft.plane_words.PlaneWordsFourWords.straddled: @ @aes_v6m_small.aes_soft.soft.plane_words.PlaneWordsFourWords.straddled
	.fnstart
@ %bb.0:                                @ %start
	.save	{r4, r5, r6, r7, lr}
	push	{r4, r5, r6, r7, lr}
	.pad	#100
	sub	sp, #100
	mov	r7, r2
	str	r0, [sp]                        @ 4-byte Spill
	add	r6, sp, #36
	movs	r5, #32
	mov	r0, r6
	mov	r2, r5
	bl	memcpy
	add	r4, sp, #4
	mov	r0, r4
	mov	r1, r7
	mov	r2, r5
	bl	memcpy
	add	r7, sp, #68
	mov	r0, r7
	mov	r1, r6
	mov	r2, r4
	bl	aes_v6m_small.aes_planes.soft.key_columns.straddle_columns
	ldr	r0, [sp]                        @ 4-byte Reload
	mov	r1, r7
	mov	r2, r5
	bl	memcpy
	add	sp, #100
	pop	{r4, r5, r6, r7, pc}
.Laes_v6m_small_func_end13:
	.size	aes_v6m_small.aes_soft.soft.plane_words.PlaneWordsFourWords.straddled, .Laes_v6m_small_func_end13-aes_v6m_small.aes_soft.soft.plane_words.PlaneWordsFourWords.straddled
	.cantunwind
	.fnend
                                        @ -- End function
	.section	.text.aes_v6m_small.aes_planes.soft.key_columns.straddle_columns,"ax",%progbits
	.p2align	1                               @ -- Begin function aes_planes::soft::key_columns::straddle_columns::<#6af90bfc14753d47>
	.type	aes_v6m_small.aes_planes.soft.key_columns.straddle_columns,%function
	.code	16
	.thumb_func
aes_v6m_small.aes_planes.soft.key_columns.straddle_columns: @ @aes_v6m_small.aes_planes.soft.key_columns.straddle_columns
	.fnstart
@ %bb.0:                                @ %start
	.save	{r4, r5, r6, r7, lr}
	push	{r4, r5, r6, r7, lr}
	.pad	#28
	sub	sp, #28
	mov	r6, r2
	mov	r7, r1
	mov	r4, r0
	ldr	r1, [r2]
	ldr	r0, [r7]
	bl	aes_v6m_small.aes_planes.soft.key_columns.straddle
	str	r0, [sp, #24]                   @ 4-byte Spill
	ldr	r0, [r7, #4]
	ldr	r1, [r6, #4]
	bl	aes_v6m_small.aes_planes.soft.key_columns.straddle
	str	r0, [sp, #20]                   @ 4-byte Spill
	ldr	r0, [r7, #8]
	ldr	r1, [r6, #8]
	bl	aes_v6m_small.aes_planes.soft.key_columns.straddle
	str	r0, [sp, #16]                   @ 4-byte Spill
	ldr	r0, [r7, #12]
	ldr	r1, [r6, #12]
	bl	aes_v6m_small.aes_planes.soft.key_columns.straddle
	str	r0, [sp, #12]                   @ 4-byte Spill
	ldr	r0, [r7, #16]
	ldr	r1, [r6, #16]
	bl	aes_v6m_small.aes_planes.soft.key_columns.straddle
	str	r0, [sp, #8]                    @ 4-byte Spill
	ldr	r0, [r7, #20]
	ldr	r1, [r6, #20]
	bl	aes_v6m_small.aes_planes.soft.key_columns.straddle
	str	r0, [sp, #4]                    @ 4-byte Spill
	ldr	r0, [r7, #24]
	ldr	r1, [r6, #24]
	bl	aes_v6m_small.aes_planes.soft.key_columns.straddle
	mov	r5, r0
	ldr	r0, [r7, #28]
	ldr	r1, [r6, #28]
	bl	aes_v6m_small.aes_planes.soft.key_columns.straddle
	strb	r0, [r4, #28]
	lsrs	r1, r5, #24
	strb	r1, [r4, #27]
	lsrs	r1, r5, #16
	strb	r1, [r4, #26]
	lsrs	r1, r5, #8
	strb	r1, [r4, #25]
	strb	r5, [r4, #24]
	ldr	r2, [sp, #4]                    @ 4-byte Reload
	lsrs	r1, r2, #24
	strb	r1, [r4, #23]
	lsrs	r1, r2, #16
	strb	r1, [r4, #22]
	lsrs	r1, r2, #8
	strb	r1, [r4, #21]
	strb	r2, [r4, #20]
	ldr	r2, [sp, #8]                    @ 4-byte Reload
	lsrs	r1, r2, #24
	strb	r1, [r4, #19]
	lsrs	r1, r2, #16
	strb	r1, [r4, #18]
	lsrs	r1, r2, #8
	strb	r1, [r4, #17]
	strb	r2, [r4, #16]
	ldr	r2, [sp, #12]                   @ 4-byte Reload
	lsrs	r1, r2, #24
	strb	r1, [r4, #15]
	lsrs	r1, r2, #16
	strb	r1, [r4, #14]
	lsrs	r1, r2, #8
	strb	r1, [r4, #13]
	strb	r2, [r4, #12]
	ldr	r2, [sp, #16]                   @ 4-byte Reload
	lsrs	r1, r2, #24
	strb	r1, [r4, #11]
	lsrs	r1, r2, #16
	strb	r1, [r4, #10]
	lsrs	r1, r2, #8
	strb	r1, [r4, #9]
	strb	r2, [r4, #8]
	ldr	r2, [sp, #20]                   @ 4-byte Reload
	lsrs	r1, r2, #24
	strb	r1, [r4, #7]
	lsrs	r1, r2, #16
	strb	r1, [r4, #6]
	lsrs	r1, r2, #8
	strb	r1, [r4, #5]
	strb	r2, [r4, #4]
	ldr	r2, [sp, #24]                   @ 4-byte Reload
	lsrs	r1, r2, #24
	strb	r1, [r4, #3]
	lsrs	r1, r2, #16
	strb	r1, [r4, #2]
	lsrs	r1, r2, #8
	strb	r1, [r4, #1]
	strb	r2, [r4]
	lsrs	r1, r0, #24
	strb	r1, [r4, #31]
	lsrs	r1, r0, #16
	strb	r1, [r4, #30]
	lsrs	r0, r0, #8
	strb	r0, [r4, #29]
	add	sp, #28
	pop	{r4, r5, r6, r7, pc}
.Laes_v6m_small_func_end14:
	.size	aes_v6m_small.aes_planes.soft.key_columns.straddle_columns, .Laes_v6m_small_func_end14-aes_v6m_small.aes_planes.soft.key_columns.straddle_columns
	.cantunwind
	.fnend
                                        @ -- End function
	.section	.text.aes_v6m_small.aes_planes.soft.key_columns.straddle,"ax",%progbits
	.p2align	2                               @ -- Begin function aes_planes::soft::key_columns::straddle::<#6af90bfc14753d47>
	.type	aes_v6m_small.aes_planes.soft.key_columns.straddle,%function
	.code	16
	.thumb_func
aes_v6m_small.aes_planes.soft.key_columns.straddle: @ @aes_v6m_small.aes_planes.soft.key_columns.straddle
	.fnstart
@ %bb.0:                                @ %start
	lsrs	r0, r0, #4
	ldr	r2, .Laes_v6m_small_CPI15_0
	ands	r2, r0
	lsls	r0, r1, #4
	ldr	r1, .Laes_v6m_small_CPI15_1
	ands	r1, r0
	adds	r0, r1, r2
	bx	lr
	.p2align	2
@ %bb.1:
.Laes_v6m_small_CPI15_0:
	.long	252645135                       @ 0xf0f0f0f
.Laes_v6m_small_CPI15_1:
	.long	4042322160                      @ 0xf0f0f0f0
.Laes_v6m_small_func_end15:
	.size	aes_v6m_small.aes_planes.soft.key_columns.straddle, .Laes_v6m_small_func_end15-aes_v6m_small.aes_planes.soft.key_columns.straddle
	.cantunwind
	.fnend
                                        @ -- End function
	.section	.text.aes_v6m_small.aes_soft.soft.plane_words.PlaneWordsFourWords.plain,"ax",%progbits
	.p2align	1                               @ -- Begin function aes_soft::soft::plane_words::PlaneWordsFourWords::plain::<#6af90bfc14753d47>
	.type	aes_v6m_small.aes_soft.soft.plane_words.PlaneWordsFourWords.plain,%function
	.code	16
	.thumb_func
aes_v6m_small.aes_soft.soft.plane_words.PlaneWordsFourWords.plain: @ @aes_v6m_small.aes_soft.soft.plane_words.PlaneWordsFourWords.plain
	.fnstart
@ %bb.0:                                @ %start
	.save	{r4, r5, r6, r7, lr}
	push	{r4, r5, r6, r7, lr}
	.pad	#100
	sub	sp, #100
	mov	r7, r2
	str	r0, [sp]                        @ 4-byte Spill
	add	r6, sp, #36
	movs	r5, #32
	mov	r0, r6
	mov	r2, r5
	bl	memcpy
	add	r4, sp, #4
	mov	r0, r4
	mov	r1, r7
	mov	r2, r5
	bl	memcpy
	add	r7, sp, #68
	movs	r3, #2
	mov	r0, r7
	mov	r1, r6
	mov	r2, r4
	bl	aes_v6m_small.aes_planes.soft.key_columns.summed_columns
	ldr	r0, [sp]                        @ 4-byte Reload
	mov	r1, r7
	mov	r2, r5
	bl	memcpy
	add	sp, #100
	pop	{r4, r5, r6, r7, pc}
.Laes_v6m_small_func_end16:
	.size	aes_v6m_small.aes_soft.soft.plane_words.PlaneWordsFourWords.plain, .Laes_v6m_small_func_end16-aes_v6m_small.aes_soft.soft.plane_words.PlaneWordsFourWords.plain
	.cantunwind
	.fnend
                                        @ -- End function
	.section	.text.aes_v6m_small.aes_soft.soft.plane_words.PlaneWordsFourWords.substituted,"ax",%progbits
	.p2align	1                               @ -- Begin function aes_soft::soft::plane_words::PlaneWordsFourWords::substituted::<#6af90bfc14753d47>
	.type	aes_v6m_small.aes_soft.soft.plane_words.PlaneWordsFourWords.substituted,%function
	.code	16
	.thumb_func
aes_v6m_small.aes_soft.soft.plane_words.PlaneWordsFourWords.substituted: @ @aes_v6m_small.aes_soft.soft.plane_words.PlaneWordsFourWords.substituted
	.fnstart
@ %bb.0:                                @ %start
	.save	{r4, r5, r6, r7, lr}
	push	{r4, r5, r6, r7, lr}
	.pad	#100
	sub	sp, #100
	mov	r7, r2
	str	r0, [sp]                        @ 4-byte Spill
	add	r6, sp, #36
	movs	r5, #32
	mov	r0, r6
	mov	r2, r5
	bl	memcpy
	add	r4, sp, #4
	mov	r0, r4
	mov	r1, r7
	mov	r2, r5
	bl	memcpy
	mov	r0, r4
	bl	aes_v6m_small.aes_soft.soft.plane_words.substitute
	add	r7, sp, #68
	movs	r3, #6
	mov	r0, r7
	mov	r1, r6
	mov	r2, r4
	bl	aes_v6m_small.aes_planes.soft.key_columns.summed_columns
	ldr	r0, [sp]                        @ 4-byte Reload
	mov	r1, r7
	mov	r2, r5
	bl	memcpy
	add	sp, #100
	pop	{r4, r5, r6, r7, pc}
.Laes_v6m_small_func_end17:
	.size	aes_v6m_small.aes_soft.soft.plane_words.PlaneWordsFourWords.substituted, .Laes_v6m_small_func_end17-aes_v6m_small.aes_soft.soft.plane_words.PlaneWordsFourWords.substituted
	.cantunwind
	.fnend
                                        @ -- End function
	.section	.text.aes_v6m_small.aes_soft.soft.key_layout.store,"ax",%progbits
	.p2align	2                               @ -- Begin function aes_soft::soft::key_layout::store::<#dfb00681c6d298fe>
	.type	aes_v6m_small.aes_soft.soft.key_layout.store,%function
	.code	16
	.thumb_func
aes_v6m_small.aes_soft.soft.key_layout.store: @ @aes_v6m_small.aes_soft.soft.key_layout.store
	.fnstart
@ %bb.0:                                @ %start
	.save	{r4, r5, r6, r7, lr}
	push	{r4, r5, r6, r7, lr}
	.pad	#84
	sub	sp, #84
	str	r3, [sp, #12]                   @ 4-byte Spill
	str	r2, [sp, #8]                    @ 4-byte Spill
	mov	r1, r0
	add	r4, sp, #20
	movs	r5, #1
	movs	r6, #0
	mov	r0, r4
	str	r1, [sp, #16]                   @ 4-byte Spill
	mov	r2, r5
	mov	r3, r6
	bl	aes_v6m_small.aes_planes.soft.round_keys.round_key.1
	add	r0, sp, #52
	ldm	r4!, {r1, r2, r3, r7}
	stm	r0!, {r1, r2, r3, r7}
	ldm	r4!, {r1, r2, r3, r7}
	stm	r0!, {r1, r2, r3, r7}
	b	.Laes_v6m_small_BB18_3
.Laes_v6m_small_BB18_1:                               @ %join.8
                                        @   in Loop: Header=BB18_3 Depth=1
	bl	aes_v6m_small.aes_planes.soft.shifts.swap_columns
.Laes_v6m_small_BB18_2:                               @ %join.8
                                        @   in Loop: Header=BB18_3 Depth=1
	add	r4, sp, #52
	mov	r0, r4
	bl	aes_v6m_small.aes_planes.soft.sbox.sub_bytes_nots
	str	r4, [sp]
	ldr	r0, [sp, #16]                   @ 4-byte Reload
	mov	r2, r5
	mov	r3, r7
	bl	aes_v6m_small.aes_planes.soft.round_keys.store_round_key
	movs	r6, #0
	adds	r5, r5, #1
	adcs	r6, r7
	add	r7, sp, #20
	mov	r0, r7
	ldr	r1, [sp, #16]                   @ 4-byte Reload
	mov	r2, r5
	mov	r3, r6
	bl	aes_v6m_small.aes_planes.soft.round_keys.round_key.1
	ldm	r7!, {r0, r1, r2, r3}
	stm	r4!, {r0, r1, r2, r3}
	ldm	r7!, {r0, r1, r2, r3}
	stm	r4!, {r0, r1, r2, r3}
	ldr	r0, [sp, #8]                    @ 4-byte Reload
	subs	r0, r5, r0
	mov	r0, r6
	ldr	r1, [sp, #12]                   @ 4-byte Reload
	sbcs	r0, r1
	bhs	.Laes_v6m_small_BB18_10
.Laes_v6m_small_BB18_3:                               @ %ok.10
                                        @ =>This Inner Loop Header: Depth=1
	movs	r0, #3
	ands	r0, r5
	mov	r7, r6
	.p2align	2
	add	r0, pc
	ldrb	r0, [r0, #4]
	lsls	r0, r0, #1
.Laes_v6m_small_CPI18_4:
	add	pc, r0
@ %bb.4:
	.p2align	2
.Laes_v6m_small_JTI18_0:
	.byte	(.Laes_v6m_small_BB18_6-(.Laes_v6m_small_CPI18_4+4))/2
	.byte	(.Laes_v6m_small_BB18_7-(.Laes_v6m_small_CPI18_4+4))/2
	.byte	(.Laes_v6m_small_BB18_5-(.Laes_v6m_small_CPI18_4+4))/2
	.byte	(.Laes_v6m_small_BB18_8-(.Laes_v6m_small_CPI18_4+4))/2
	.p2align	1
.Laes_v6m_small_BB18_5:                               @ %then.4.i
                                        @   in Loop: Header=BB18_3 Depth=1
	add	r0, sp, #52
	movs	r1, #4
	ldr	r2, .Laes_v6m_small_CPI18_2
	b	.Laes_v6m_small_BB18_1
.Laes_v6m_small_BB18_6:                               @ %ok.10
                                        @   in Loop: Header=BB18_3 Depth=1
	b	.Laes_v6m_small_BB18_2
.Laes_v6m_small_BB18_7:                               @ %then.1.i
                                        @   in Loop: Header=BB18_3 Depth=1
	add	r4, sp, #52
	movs	r1, #4
	ldr	r2, .Laes_v6m_small_CPI18_3
	b	.Laes_v6m_small_BB18_9
.Laes_v6m_small_BB18_8:                               @ %then.7.i
                                        @   in Loop: Header=BB18_3 Depth=1
	add	r4, sp, #52
	movs	r1, #4
	ldr	r2, .Laes_v6m_small_CPI18_1
.Laes_v6m_small_BB18_9:                               @ %join.8
                                        @   in Loop: Header=BB18_3 Depth=1
	mov	r0, r4
	bl	aes_v6m_small.aes_planes.soft.shifts.swap_columns
	movs	r1, #2
	mov	r0, r4
	ldr	r2, .Laes_v6m_small_CPI18_0
	b	.Laes_v6m_small_BB18_1
.Laes_v6m_small_BB18_10:                              @ %after.1.critedge
	add	r4, sp, #52
	mov	r0, r4
	bl	aes_v6m_small.aes_planes.soft.sbox.sub_bytes_nots
	str	r4, [sp]
	ldr	r0, [sp, #16]                   @ 4-byte Reload
	mov	r2, r5
	mov	r3, r6
	bl	aes_v6m_small.aes_planes.soft.round_keys.store_round_key
	add	sp, #84
	pop	{r4, r5, r6, r7, pc}
	.p2align	2
@ %bb.11:
.Laes_v6m_small_CPI18_0:
	.long	855651072                       @ 0x33003300
.Laes_v6m_small_CPI18_1:
	.long	202310400                       @ 0xc0f0300
.Laes_v6m_small_CPI18_2:
	.long	251662080                       @ 0xf000f00
.Laes_v6m_small_CPI18_3:
	.long	51317760                        @ 0x30f0c00
.Laes_v6m_small_func_end18:
	.size	aes_v6m_small.aes_soft.soft.key_layout.store, .Laes_v6m_small_func_end18-aes_v6m_small.aes_soft.soft.key_layout.store
	.cantunwind
	.fnend
                                        @ -- End function
	.section	.text.aes_v6m_small.aes_planes.soft.shifts.swap_columns,"ax",%progbits
	.p2align	1                               @ -- Begin function aes_planes::soft::shifts::swap_columns::<#6af90bfc14753d47>
	.type	aes_v6m_small.aes_planes.soft.shifts.swap_columns,%function
	.code	16
	.thumb_func
aes_v6m_small.aes_planes.soft.shifts.swap_columns: @ @aes_v6m_small.aes_planes.soft.shifts.swap_columns
	.fnstart
@ %bb.0:                                @ %start
	.save	{r4, r5, r6, r7, lr}
	push	{r4, r5, r6, r7, lr}
	.pad	#36
	sub	sp, #36
	mov	r5, r2
	mov	r6, r1
	mov	r4, r0
	ldr	r0, [r0]
	ldr	r7, [r4, #4]
	ldr	r1, [r4, #8]
	str	r1, [sp, #12]                   @ 4-byte Spill
	ldr	r1, [r4, #12]
	str	r1, [sp, #4]                    @ 4-byte Spill
	ldr	r1, [r4, #16]
	str	r1, [sp, #8]                    @ 4-byte Spill
	ldr	r1, [r4, #20]
	str	r1, [sp, #16]                   @ 4-byte Spill
	ldr	r1, [r4, #24]
	str	r1, [sp, #24]                   @ 4-byte Spill
	ldr	r1, [r4, #28]
	str	r1, [sp, #32]                   @ 4-byte Spill
	mov	r1, r6
	bl	aes_v6m_small.aes_planes.soft.shifts.delta_swap_1
	str	r0, [sp, #28]                   @ 4-byte Spill
	mov	r0, r7
	mov	r1, r6
	mov	r2, r5
	bl	aes_v6m_small.aes_planes.soft.shifts.delta_swap_1
	str	r0, [sp, #20]                   @ 4-byte Spill
	ldr	r0, [sp, #12]                   @ 4-byte Reload
	mov	r1, r6
	mov	r2, r5
	bl	aes_v6m_small.aes_planes.soft.shifts.delta_swap_1
	str	r0, [sp, #12]                   @ 4-byte Spill
	ldr	r0, [sp, #4]                    @ 4-byte Reload
	mov	r1, r6
	mov	r2, r5
	bl	aes_v6m_small.aes_planes.soft.shifts.delta_swap_1
	str	r0, [sp, #4]                    @ 4-byte Spill
	ldr	r0, [sp, #8]                    @ 4-byte Reload
	mov	r1, r6
	mov	r2, r5
	bl	aes_v6m_small.aes_planes.soft.shifts.delta_swap_1
	str	r0, [sp, #8]                    @ 4-byte Spill
	ldr	r0, [sp, #16]                   @ 4-byte Reload
	mov	r1, r6
	mov	r2, r5
	bl	aes_v6m_small.aes_planes.soft.shifts.delta_swap_1
	str	r0, [sp, #16]                   @ 4-byte Spill
	ldr	r0, [sp, #24]                   @ 4-byte Reload
	mov	r1, r6
	mov	r2, r5
	bl	aes_v6m_small.aes_planes.soft.shifts.delta_swap_1
	mov	r7, r0
	ldr	r0, [sp, #32]                   @ 4-byte Reload
	mov	r1, r6
	mov	r2, r5
	bl	aes_v6m_small.aes_planes.soft.shifts.delta_swap_1
	ldr	r1, [sp, #28]                   @ 4-byte Reload
	str	r1, [r4]
	ldr	r1, [sp, #20]                   @ 4-byte Reload
	str	r1, [r4, #4]
	ldr	r1, [sp, #12]                   @ 4-byte Reload
	str	r1, [r4, #8]
	ldr	r1, [sp, #4]                    @ 4-byte Reload
	str	r1, [r4, #12]
	ldr	r1, [sp, #8]                    @ 4-byte Reload
	str	r1, [r4, #16]
	ldr	r1, [sp, #16]                   @ 4-byte Reload
	str	r1, [r4, #20]
	str	r7, [r4, #24]
	str	r0, [r4, #28]
	add	sp, #36
	pop	{r4, r5, r6, r7, pc}
.Laes_v6m_small_func_end19:
	.size	aes_v6m_small.aes_planes.soft.shifts.swap_columns, .Laes_v6m_small_func_end19-aes_v6m_small.aes_planes.soft.shifts.swap_columns
	.cantunwind
	.fnend
                                        @ -- End function
	.section	.text.aes_v6m_small.aes_planes.soft.shifts.delta_swap_1,"ax",%progbits
	.p2align	1                               @ -- Begin function aes_planes::soft::shifts::delta_swap_1::<#6af90bfc14753d47>
	.type	aes_v6m_small.aes_planes.soft.shifts.delta_swap_1,%function
	.code	16
	.thumb_func
aes_v6m_small.aes_planes.soft.shifts.delta_swap_1: @ @aes_v6m_small.aes_planes.soft.shifts.delta_swap_1
	.fnstart
@ %bb.0:                                @ %start
	mov	r3, r0
	lsrs	r3, r1
	eors	r3, r0
	ands	r3, r2
	mov	r2, r3
	lsls	r2, r1
	eors	r0, r2
	eors	r0, r3
	bx	lr
.Laes_v6m_small_func_end20:
	.size	aes_v6m_small.aes_planes.soft.shifts.delta_swap_1, .Laes_v6m_small_func_end20-aes_v6m_small.aes_planes.soft.shifts.delta_swap_1
	.cantunwind
	.fnend
                                        @ -- End function
	.section	.text.aes_v6m_small.aes_cipher.zeroize.stack.wipe_stack.768,"ax",%progbits
	.p2align	1                               @ -- Begin function aes_cipher::zeroize::stack::wipe_stack::<=768>
	.type	aes_v6m_small.aes_cipher.zeroize.stack.wipe_stack.768,%function
	.code	16
	.thumb_func
aes_v6m_small.aes_cipher.zeroize.stack.wipe_stack.768: @ @aes_v6m_small.aes_cipher.zeroize.stack.wipe_stack.768
	.fnstart
@ %bb.0:                                @ %start
	.save	{r4, lr}
	push	{r4, lr}
	.pad	#508
	sub	sp, #508
	.pad	#268
	sub	sp, #268
	movs	r0, #3
	lsls	r2, r0, #8
	add	r0, sp, #8
	movs	r4, #0
	mov	r1, r4
	bl	memset
	str	r4, [sp, #4]
	str	r4, [sp]
	@APP
	@NO_APP
	ldr	r1, [sp, #4]
	lsls	r2, r1, #24
	ldr	r0, [sp]
	lsrs	r3, r0, #8
	adds	r2, r3, r2
	@APP
	@NO_APP
	lsrs	r1, r1, #8
	subs	r2, r2, #3
	sbcs	r1, r4
	bhs	.Laes_v6m_small_BB21_2
@ %bb.1:                                @ %then.1
	add	r1, sp, #8
	ldrb	r0, [r1, r0]
	@APP
	@NO_APP
	ldr	r1, [sp, #4]
	ldr	r1, [sp]
	str	r4, [sp, #4]
	str	r0, [sp]
	@APP
	@NO_APP
.Laes_v6m_small_BB21_2:                               @ %common.ret
	add	sp, #508
	add	sp, #268
	pop	{r4, pc}
.Laes_v6m_small_func_end21:
	.size	aes_v6m_small.aes_cipher.zeroize.stack.wipe_stack.768, .Laes_v6m_small_func_end21-aes_v6m_small.aes_cipher.zeroize.stack.wipe_stack.768
	.cantunwind
	.fnend
                                        @ -- End function
	.section	.text.aes_v6m_small.aes_ctr.add_in_batches.add_to_one,"ax",%progbits
	.p2align	1                               @ -- Begin function aes_ctr::add_in_batches::add_to_one::<#72982bb057555e7c>
	.type	aes_v6m_small.aes_ctr.add_in_batches.add_to_one,%function
	.code	16
	.thumb_func
aes_v6m_small.aes_ctr.add_in_batches.add_to_one: @ @aes_v6m_small.aes_ctr.add_in_batches.add_to_one
	.fnstart
@ %bb.0:                                @ %start
	.save	{r4, r5, r6, r7, lr}
	push	{r4, r5, r6, r7, lr}
	.pad	#76
	sub	sp, #76
	str	r2, [sp, #56]                   @ 4-byte Spill
	mov	r7, r0
	movs	r5, #0
	str	r5, [sp, #72]
	str	r5, [sp, #68]
	str	r5, [sp, #64]
	str	r5, [sp, #60]
	movs	r0, #1
	str	r0, [sp, #36]                   @ 4-byte Spill
	str	r0, [sp, #8]
	str	r5, [sp, #12]
	add	r4, sp, #60
	str	r4, [sp]
	str	r4, [sp, #52]                   @ 4-byte Spill
	lsls	r0, r3, #28
	lsrs	r6, r2, #4
	adds	r2, r6, r0
	lsrs	r3, r3, #4
	mov	r0, r1
	bl	aes_v6m_small.aes_ctr.counter_blocks.WholeBlockCounterBlocks.put
	ldrb	r0, [r7, #15]
	str	r0, [sp, #48]                   @ 4-byte Spill
	ldrb	r0, [r7, #14]
	str	r0, [sp, #44]                   @ 4-byte Spill
	ldrb	r0, [r7, #12]
	str	r0, [sp, #40]                   @ 4-byte Spill
	ldrb	r0, [r7, #13]
	str	r0, [sp, #32]                   @ 4-byte Spill
	ldrb	r0, [r7, #11]
	str	r0, [sp, #28]                   @ 4-byte Spill
	ldrb	r0, [r7, #10]
	str	r0, [sp, #24]                   @ 4-byte Spill
	ldrb	r0, [r7, #8]
	str	r0, [sp, #20]                   @ 4-byte Spill
	ldrb	r3, [r7, #9]
	ldrb	r2, [r7, #3]
	ldrb	r1, [r7, #2]
	ldrb	r0, [r7]
	ldrb	r7, [r7, #1]
	ldr	r6, [sp, #36]                   @ 4-byte Reload
	str	r6, [sp, #8]
	str	r5, [sp, #12]
	str	r4, [sp]
	lsls	r4, r7, #8
	adds	r0, r4, r0
	lsls	r1, r1, #16
	lsls	r2, r2, #24
	adds	r1, r2, r1
	adds	r0, r1, r0
	lsls	r1, r3, #8
	ldr	r2, [sp, #20]                   @ 4-byte Reload
	adds	r1, r1, r2
	ldr	r2, [sp, #24]                   @ 4-byte Reload
	lsls	r2, r2, #16
	ldr	r3, [sp, #28]                   @ 4-byte Reload
	lsls	r3, r3, #24
	adds	r2, r3, r2
	adds	r2, r2, r1
	ldr	r1, [sp, #32]                   @ 4-byte Reload
	lsls	r1, r1, #8
	ldr	r3, [sp, #40]                   @ 4-byte Reload
	adds	r1, r1, r3
	ldr	r3, [sp, #44]                   @ 4-byte Reload
	lsls	r3, r3, #16
	ldr	r4, [sp, #48]                   @ 4-byte Reload
	lsls	r4, r4, #24
	adds	r3, r4, r3
	adds	r3, r3, r1
	bl	aes_v6m_small.aes_narrow.blocks.process_all_batches.1
	bl	aes_v6m_small.aes_cipher.zeroize.stack.wipe_stack.1024
	ldr	r0, [sp, #108]
	str	r0, [sp, #12]
	ldr	r0, [sp, #104]
	str	r0, [sp, #8]
	ldr	r0, [sp, #96]
	str	r0, [sp]
	movs	r2, #15
	ldr	r0, [sp, #56]                   @ 4-byte Reload
	ands	r2, r0
	ldr	r0, [sp, #52]                   @ 4-byte Reload
	mov	r3, r5
	bl	aes_v6m_small.aes_ctr.add_blocks.add_blocks
	add	sp, #76
	pop	{r4, r5, r6, r7, pc}
.Laes_v6m_small_func_end22:
	.size	aes_v6m_small.aes_ctr.add_in_batches.add_to_one, .Laes_v6m_small_func_end22-aes_v6m_small.aes_ctr.add_in_batches.add_to_one
	.cantunwind
	.fnend
                                        @ -- End function
	.section	.text.aes_v6m_small.aes_ctr.counter_blocks.WholeBlockCounterBlocks.put,"ax",%progbits
	.p2align	1                               @ -- Begin function aes_ctr::counter_blocks::WholeBlockCounterBlocks::put
	.type	aes_v6m_small.aes_ctr.counter_blocks.WholeBlockCounterBlocks.put,%function
	.code	16
	.thumb_func
aes_v6m_small.aes_ctr.counter_blocks.WholeBlockCounterBlocks.put: @ @aes_v6m_small.aes_ctr.counter_blocks.WholeBlockCounterBlocks.put
	.fnstart
@ %bb.0:                                @ %start
	.save	{r4, r5, r6, r7, lr}
	push	{r4, r5, r6, r7, lr}
	.pad	#44
	sub	sp, #44
	ldrb	r1, [r0]
	lsls	r1, r1, #24
	ldrb	r4, [r0, #1]
	lsls	r4, r4, #16
	adds	r1, r4, r1
	ldrb	r4, [r0, #2]
	lsls	r4, r4, #8
	adds	r1, r1, r4
	ldrb	r4, [r0, #3]
	adds	r1, r1, r4
	ldrb	r4, [r0, #5]
	lsls	r4, r4, #16
	ldrb	r5, [r0, #4]
	lsls	r5, r5, #24
	adds	r4, r5, r4
	ldrb	r5, [r0, #6]
	lsls	r5, r5, #8
	adds	r4, r4, r5
	ldrb	r5, [r0, #7]
	adds	r4, r4, r5
	ldrb	r5, [r0, #8]
	lsls	r5, r5, #24
	ldrb	r6, [r0, #9]
	lsls	r6, r6, #16
	adds	r5, r6, r5
	ldrb	r6, [r0, #10]
	lsls	r6, r6, #8
	adds	r5, r5, r6
	ldrb	r6, [r0, #11]
	adds	r5, r5, r6
	ldrb	r6, [r0, #13]
	lsls	r6, r6, #16
	ldrb	r7, [r0, #12]
	lsls	r7, r7, #24
	adds	r6, r7, r6
	ldrb	r7, [r0, #14]
	lsls	r7, r7, #8
	adds	r6, r6, r7
	ldrb	r0, [r0, #15]
	adds	r7, r6, r0
	movs	r6, #0
	ldr	r0, [sp, #64]
	adds	r2, r2, r7
	strb	r2, [r0, #15]
	adcs	r5, r3
	strb	r5, [r0, #11]
	adcs	r4, r6
	strb	r4, [r0, #7]
	adcs	r1, r6
	lsrs	r3, r2, #16
	strb	r3, [r0, #13]
	lsrs	r3, r2, #8
	strb	r3, [r0, #14]
	lsrs	r3, r2, #24
	strb	r3, [r0, #12]
	lsrs	r3, r5, #16
	strb	r3, [r0, #9]
	lsrs	r3, r5, #24
	strb	r3, [r0, #8]
	lsrs	r3, r5, #8
	strb	r3, [r0, #10]
	lsrs	r3, r4, #24
	strb	r3, [r0, #4]
	lsrs	r3, r4, #16
	strb	r3, [r0, #5]
	lsrs	r3, r4, #8
	strb	r3, [r0, #6]
	strb	r1, [r0, #3]
	lsrs	r3, r1, #8
	strb	r3, [r0, #2]
	lsrs	r3, r1, #16
	strb	r3, [r0, #1]
	lsrs	r3, r1, #24
	str	r0, [sp, #40]                   @ 4-byte Spill
	strb	r3, [r0]
	ldr	r3, [sp, #76]
	ldr	r7, [sp, #72]
	subs	r0, r7, #1
	sbcs	r3, r6
	mov	r7, r0
	orrs	r7, r3
	beq	.Laes_v6m_small_BB23_3
.Laes_v6m_small_BB23_1:                               @ %join.5
                                        @ =>This Inner Loop Header: Depth=1
	adds	r2, r2, #1
	adcs	r5, r6
	adcs	r4, r6
	adcs	r1, r6
	movs	r7, #1
	eors	r7, r0
	orrs	r7, r3
	bne	.Laes_v6m_small_BB23_1
@ %bb.2:                                @ %after.1.loopexit
	lsrs	r0, r5, #16
	str	r0, [sp, #16]                   @ 4-byte Spill
	lsrs	r0, r5, #24
	str	r0, [sp, #20]                   @ 4-byte Spill
	uxth	r0, r5
	lsrs	r0, r0, #8
	str	r0, [sp, #4]                    @ 4-byte Spill
	lsrs	r0, r4, #16
	str	r0, [sp, #24]                   @ 4-byte Spill
	lsrs	r0, r4, #24
	str	r0, [sp, #28]                   @ 4-byte Spill
	uxth	r0, r4
	lsrs	r0, r0, #8
	str	r0, [sp, #8]                    @ 4-byte Spill
	lsrs	r0, r1, #16
	str	r0, [sp, #32]                   @ 4-byte Spill
	lsrs	r0, r1, #24
	str	r0, [sp, #36]                   @ 4-byte Spill
	uxth	r0, r1
	lsrs	r0, r0, #8
	str	r0, [sp, #12]                   @ 4-byte Spill
	lsrs	r7, r2, #16
	lsrs	r3, r2, #24
	uxth	r6, r2
	lsrs	r6, r6, #8
	ldr	r0, [sp, #40]                   @ 4-byte Reload
	strb	r2, [r0, #31]
	strb	r6, [r0, #30]
	strb	r7, [r0, #29]
	strb	r3, [r0, #28]
	strb	r5, [r0, #27]
	ldr	r2, [sp, #4]                    @ 4-byte Reload
	strb	r2, [r0, #26]
	ldr	r2, [sp, #16]                   @ 4-byte Reload
	strb	r2, [r0, #25]
	ldr	r2, [sp, #20]                   @ 4-byte Reload
	strb	r2, [r0, #24]
	strb	r4, [r0, #23]
	ldr	r2, [sp, #8]                    @ 4-byte Reload
	strb	r2, [r0, #22]
	ldr	r2, [sp, #24]                   @ 4-byte Reload
	strb	r2, [r0, #21]
	ldr	r2, [sp, #28]                   @ 4-byte Reload
	strb	r2, [r0, #20]
	strb	r1, [r0, #19]
	ldr	r1, [sp, #12]                   @ 4-byte Reload
	strb	r1, [r0, #18]
	ldr	r1, [sp, #32]                   @ 4-byte Reload
	strb	r1, [r0, #17]
	ldr	r1, [sp, #36]                   @ 4-byte Reload
	strb	r1, [r0, #16]
.Laes_v6m_small_BB23_3:                               @ %after.1
	add	sp, #44
	pop	{r4, r5, r6, r7, pc}
.Laes_v6m_small_func_end23:
	.size	aes_v6m_small.aes_ctr.counter_blocks.WholeBlockCounterBlocks.put, .Laes_v6m_small_func_end23-aes_v6m_small.aes_ctr.counter_blocks.WholeBlockCounterBlocks.put
	.cantunwind
	.fnend
                                        @ -- End function
	.section	.text.aes_v6m_small.aes_narrow.blocks.process_all_batches.1,"ax",%progbits
	.p2align	1                               @ -- Begin function aes_narrow::blocks::process_all_batches::<#1a21aa7f601e7603>
	.type	aes_v6m_small.aes_narrow.blocks.process_all_batches.1,%function
	.code	16
	.thumb_func
aes_v6m_small.aes_narrow.blocks.process_all_batches.1: @ @aes_v6m_small.aes_narrow.blocks.process_all_batches.1
	.fnstart
@ %bb.0:                                @ %start
	.save	{r4, r5, r6, r7, lr}
	push	{r4, r5, r6, r7, lr}
	.pad	#44
	sub	sp, #44
	add	r1, sp, #32
	stm	r1!, {r0, r2, r3}               @ 12-byte Folded Spill
	ldr	r1, [sp, #76]
	ldr	r7, [sp, #72]
	mov	r0, r7
	orrs	r0, r1
	beq	.Laes_v6m_small_BB24_7
@ %bb.1:                                @ %join.5.preheader
	ldr	r0, [sp, #64]
	str	r0, [sp, #24]                   @ 4-byte Spill
	movs	r3, #0
	mov	r6, r3
	mov	r5, r3
	str	r1, [sp, #28]                   @ 4-byte Spill
	str	r3, [sp, #20]                   @ 4-byte Spill
	b	.Laes_v6m_small_BB24_3
.Laes_v6m_small_BB24_2:                               @ %join.5
                                        @   in Loop: Header=BB24_3 Depth=1
	str	r4, [sp, #8]
	add	r3, sp, #32
	ldm	r3, {r0, r2, r3}                @ 12-byte Folded Reload
	bl	aes_v6m_small.aes_soft.soft.blocks.filled_up.process_filled_up.1
	adds	r6, r4, r6
	ldr	r3, [sp, #20]                   @ 4-byte Reload
	adcs	r5, r3
	subs	r0, r6, r7
	mov	r0, r5
	ldr	r1, [sp, #28]                   @ 4-byte Reload
	sbcs	r0, r1
	bhs	.Laes_v6m_small_BB24_7
.Laes_v6m_small_BB24_3:                               @ %join.5
                                        @ =>This Inner Loop Header: Depth=1
	str	r3, [sp, #12]
	lsls	r0, r6, #4
	ldr	r3, [sp, #24]                   @ 4-byte Reload
	adds	r0, r3, r0
	str	r0, [sp]
	subs	r4, r7, r6
	sbcs	r1, r5
	movs	r0, #2
	cmp	r4, #2
	blo	.Laes_v6m_small_BB24_5
@ %bb.4:                                @ %join.5
                                        @   in Loop: Header=BB24_3 Depth=1
	mov	r4, r0
.Laes_v6m_small_BB24_5:                               @ %join.5
                                        @   in Loop: Header=BB24_3 Depth=1
	cmp	r1, #0
	beq	.Laes_v6m_small_BB24_2
@ %bb.6:                                @ %join.5
                                        @   in Loop: Header=BB24_3 Depth=1
	mov	r4, r0
	b	.Laes_v6m_small_BB24_2
.Laes_v6m_small_BB24_7:                               @ %after.1
	add	sp, #44
	pop	{r4, r5, r6, r7, pc}
.Laes_v6m_small_func_end24:
	.size	aes_v6m_small.aes_narrow.blocks.process_all_batches.1, .Laes_v6m_small_func_end24-aes_v6m_small.aes_narrow.blocks.process_all_batches.1
	.cantunwind
	.fnend
                                        @ -- End function
	.section	.text.aes_v6m_small.aes_soft.soft.blocks.filled_up.process_filled_up.1,"ax",%progbits
	.p2align	1                               @ -- Begin function aes_soft::soft::blocks::filled_up::process_filled_up::<#1a21aa7f601e7603>
	.type	aes_v6m_small.aes_soft.soft.blocks.filled_up.process_filled_up.1,%function
	.code	16
	.thumb_func
aes_v6m_small.aes_soft.soft.blocks.filled_up.process_filled_up.1: @ @aes_v6m_small.aes_soft.soft.blocks.filled_up.process_filled_up.1
	.fnstart
@ %bb.0:                                @ %start
	.save	{r4, r5, r6, r7, lr}
	push	{r4, r5, r6, r7, lr}
	.pad	#156
	sub	sp, #156
	str	r3, [sp, #8]                    @ 4-byte Spill
	str	r2, [sp, #24]                   @ 4-byte Spill
	str	r0, [sp, #20]                   @ 4-byte Spill
	movs	r6, #0
	str	r6, [sp, #120]
	str	r6, [sp, #116]
	str	r6, [sp, #112]
	str	r6, [sp, #108]
	str	r6, [sp, #104]
	str	r6, [sp, #100]
	str	r6, [sp, #96]
	str	r6, [sp, #92]
	str	r6, [sp, #60]
	str	r6, [sp, #64]
	str	r6, [sp, #68]
	str	r6, [sp, #72]
	str	r6, [sp, #76]
	str	r6, [sp, #80]
	str	r6, [sp, #84]
	str	r6, [sp, #88]
	str	r6, [sp, #28]
	str	r6, [sp, #32]
	str	r6, [sp, #36]
	str	r6, [sp, #40]
	str	r6, [sp, #44]
	str	r6, [sp, #48]
	str	r6, [sp, #52]
	str	r6, [sp, #56]
	ldr	r4, [sp, #176]
	ldrb	r0, [r4, #12]
	ldrb	r1, [r4, #13]
	lsls	r1, r1, #8
	adds	r0, r1, r0
	ldrb	r1, [r4, #14]
	lsls	r1, r1, #16
	ldrb	r2, [r4, #15]
	lsls	r2, r2, #24
	adds	r1, r2, r1
	adds	r0, r1, r0
	str	r0, [sp, #136]
	ldrb	r0, [r4, #8]
	ldrb	r1, [r4, #9]
	lsls	r1, r1, #8
	adds	r0, r1, r0
	ldrb	r1, [r4, #10]
	lsls	r1, r1, #16
	ldrb	r2, [r4, #11]
	lsls	r2, r2, #24
	adds	r1, r2, r1
	adds	r0, r1, r0
	str	r0, [sp, #132]
	ldrb	r0, [r4, #4]
	ldrb	r1, [r4, #5]
	lsls	r1, r1, #8
	adds	r0, r1, r0
	ldrb	r1, [r4, #6]
	lsls	r1, r1, #16
	ldrb	r2, [r4, #7]
	lsls	r2, r2, #24
	adds	r1, r2, r1
	adds	r0, r1, r0
	str	r0, [sp, #128]
	ldrb	r0, [r4]
	ldrb	r1, [r4, #1]
	lsls	r1, r1, #8
	adds	r0, r1, r0
	ldrb	r1, [r4, #2]
	lsls	r1, r1, #16
	ldrb	r2, [r4, #3]
	lsls	r2, r2, #24
	adds	r1, r2, r1
	adds	r0, r1, r0
	str	r0, [sp, #124]
	add	r0, sp, #124
	adds	r0, #16
	movs	r2, #16
	mov	r1, r4
	bl	memcpy
	ldr	r5, [sp, #188]
	ldr	r7, [sp, #184]
	mov	r1, r7
	orrs	r1, r5
	rsbs	r0, r1, #0
	adcs	r0, r1
	str	r0, [sp, #12]                   @ 4-byte Spill
	ldr	r3, [sp, #8]                    @ 4-byte Reload
	lsls	r0, r3, #29
	ldr	r2, [sp, #24]                   @ 4-byte Reload
	lsrs	r2, r2, #3
	adds	r0, r2, r0
	lsrs	r3, r3, #3
	subs	r0, r0, #1
	str	r0, [sp, #24]                   @ 4-byte Spill
	sbcs	r3, r6
	cmp	r1, #0
	str	r5, [sp, #4]                    @ 4-byte Spill
	str	r7, [sp, #16]                   @ 4-byte Spill
	beq	.Laes_v6m_small_BB25_2
@ %bb.1:                                @ %join.8.i
	ldrb	r0, [r4, #12]
	ldrb	r1, [r4, #13]
	lsls	r1, r1, #8
	adds	r0, r1, r0
	ldrb	r1, [r4, #14]
	lsls	r1, r1, #16
	ldrb	r2, [r4, #15]
	lsls	r2, r2, #24
	adds	r1, r2, r1
	adds	r0, r1, r0
	str	r0, [sp, #136]
	ldrb	r0, [r4, #8]
	ldrb	r1, [r4, #9]
	lsls	r1, r1, #8
	adds	r0, r1, r0
	ldrb	r1, [r4, #10]
	lsls	r1, r1, #16
	ldrb	r2, [r4, #11]
	lsls	r2, r2, #24
	adds	r1, r2, r1
	adds	r0, r1, r0
	str	r0, [sp, #132]
	ldrb	r0, [r4, #4]
	ldrb	r1, [r4, #5]
	lsls	r1, r1, #8
	adds	r0, r1, r0
	ldrb	r1, [r4, #6]
	lsls	r1, r1, #16
	ldrb	r2, [r4, #7]
	lsls	r2, r2, #24
	adds	r1, r2, r1
	adds	r0, r1, r0
	str	r0, [sp, #128]
	ldrb	r0, [r4]
	ldrb	r1, [r4, #1]
	lsls	r1, r1, #8
	adds	r0, r1, r0
	ldrb	r1, [r4, #2]
	lsls	r1, r1, #16
	ldrb	r2, [r4, #3]
	lsls	r2, r2, #24
	adds	r1, r2, r1
	adds	r0, r1, r0
	str	r0, [sp, #124]
	movs	r0, #1
	eors	r0, r7
	orrs	r0, r5
	bne	.Laes_v6m_small_BB25_3
.Laes_v6m_small_BB25_2:                               @ %then.6.i
	add	r0, sp, #124
	add	r1, sp, #60
	ldm	r0!, {r2, r5, r6, r7}
	stm	r1!, {r2, r5, r6, r7}
	ldm	r0!, {r2, r5, r6, r7}
	stm	r1!, {r2, r5, r6, r7}
	b	.Laes_v6m_small_BB25_4
.Laes_v6m_small_BB25_3:                               @ %join.8.i.1
	add	r5, sp, #124
	mov	r0, r5
	adds	r0, #16
	mov	r1, r4
	adds	r1, #16
	movs	r2, #16
	mov	r6, r3
	bl	memcpy
	mov	r3, r6
	add	r0, sp, #60
	ldm	r5!, {r1, r2, r6, r7}
	stm	r0!, {r1, r2, r6, r7}
	ldm	r5!, {r1, r2, r6, r7}
	stm	r0!, {r1, r2, r6, r7}
.Laes_v6m_small_BB25_4:                               @ %"aes_soft::soft::blocks::filled_up::filled_up::<#7d3b633001169d8c>.exit"
	add	r0, sp, #60
	str	r0, [sp]
	add	r6, sp, #28
	mov	r0, r6
	ldr	r1, [sp, #20]                   @ 4-byte Reload
	ldr	r2, [sp, #24]                   @ 4-byte Reload
	bl	aes_v6m_small.aes_soft.soft.ciphers.planes.process_outlined.1
	add	r0, sp, #92
	ldm	r6!, {r1, r2, r3, r5}
	stm	r0!, {r1, r2, r3, r5}
	ldm	r6!, {r1, r2, r3, r5}
	stm	r0!, {r1, r2, r3, r5}
	ldr	r0, [sp, #12]                   @ 4-byte Reload
	cmp	r0, #0
	ldr	r5, [sp, #16]                   @ 4-byte Reload
	bne	.Laes_v6m_small_BB25_7
@ %bb.5:                                @ %join.8.i22
	add	r1, sp, #92
	movs	r2, #16
	mov	r0, r4
	bl	memcpy
	movs	r0, #1
	eors	r5, r0
	ldr	r0, [sp, #4]                    @ 4-byte Reload
	orrs	r5, r0
	beq	.Laes_v6m_small_BB25_7
@ %bb.6:                                @ %join.8.i22.1
	adds	r4, #16
	add	r1, sp, #92
	adds	r1, #16
	movs	r2, #16
	mov	r0, r4
	bl	memcpy
.Laes_v6m_small_BB25_7:                               @ %"aes_soft::soft::blocks::filled_up::copy_first::<#7d3b633001169d8c>.exit"
	add	sp, #156
	pop	{r4, r5, r6, r7, pc}
.Laes_v6m_small_func_end25:
	.size	aes_v6m_small.aes_soft.soft.blocks.filled_up.process_filled_up.1, .Laes_v6m_small_func_end25-aes_v6m_small.aes_soft.soft.blocks.filled_up.process_filled_up.1
	.cantunwind
	.fnend
                                        @ -- End function
	.section	.text.aes_v6m_small.aes_soft.soft.ciphers.planes.process_outlined.1,"ax",%progbits
	.p2align	2                               @ -- Begin function aes_soft::soft::ciphers::planes::process_outlined::<#18f5f0e5023a24e4>
	.type	aes_v6m_small.aes_soft.soft.ciphers.planes.process_outlined.1,%function
	.code	16
	.thumb_func
aes_v6m_small.aes_soft.soft.ciphers.planes.process_outlined.1: @ @aes_v6m_small.aes_soft.soft.ciphers.planes.process_outlined.1
	.fnstart
@ %bb.0:                                @ %start
	.save	{r4, r5, r6, r7, lr}
	push	{r4, r5, r6, r7, lr}
	.pad	#204
	sub	sp, #204
	str	r3, [sp, #76]                   @ 4-byte Spill
	str	r2, [sp, #80]                   @ 4-byte Spill
	str	r1, [sp, #96]                   @ 4-byte Spill
	str	r0, [sp, #68]                   @ 4-byte Spill
	ldr	r0, [sp, #224]
	ldrb	r1, [r0, #28]
	ldrb	r2, [r0, #29]
	lsls	r2, r2, #8
	adds	r1, r2, r1
	ldrb	r2, [r0, #30]
	lsls	r2, r2, #16
	adds	r1, r1, r2
	ldrb	r2, [r0, #31]
	lsls	r2, r2, #24
	adds	r1, r1, r2
	str	r1, [sp, #20]                   @ 4-byte Spill
	ldrb	r1, [r0, #3]
	str	r1, [sp, #104]                  @ 4-byte Spill
	ldrb	r1, [r0, #2]
	str	r1, [sp, #100]                  @ 4-byte Spill
	ldrb	r1, [r0]
	str	r1, [sp, #92]                   @ 4-byte Spill
	ldrb	r1, [r0, #1]
	str	r1, [sp, #88]                   @ 4-byte Spill
	ldrb	r1, [r0, #19]
	str	r1, [sp, #84]                   @ 4-byte Spill
	ldrb	r1, [r0, #18]
	str	r1, [sp, #72]                   @ 4-byte Spill
	ldrb	r1, [r0, #16]
	str	r1, [sp, #64]                   @ 4-byte Spill
	ldrb	r1, [r0, #17]
	str	r1, [sp, #60]                   @ 4-byte Spill
	ldrb	r1, [r0, #7]
	str	r1, [sp, #56]                   @ 4-byte Spill
	ldrb	r1, [r0, #6]
	str	r1, [sp, #52]                   @ 4-byte Spill
	ldrb	r1, [r0, #4]
	str	r1, [sp, #48]                   @ 4-byte Spill
	ldrb	r1, [r0, #5]
	str	r1, [sp, #44]                   @ 4-byte Spill
	ldrb	r1, [r0, #23]
	str	r1, [sp, #40]                   @ 4-byte Spill
	ldrb	r1, [r0, #22]
	str	r1, [sp, #36]                   @ 4-byte Spill
	ldrb	r1, [r0, #20]
	str	r1, [sp, #32]                   @ 4-byte Spill
	ldrb	r1, [r0, #21]
	str	r1, [sp, #28]                   @ 4-byte Spill
	ldrb	r1, [r0, #11]
	str	r1, [sp, #24]                   @ 4-byte Spill
	ldrb	r1, [r0, #10]
	str	r1, [sp, #16]                   @ 4-byte Spill
	ldrb	r1, [r0, #8]
	str	r1, [sp, #12]                   @ 4-byte Spill
	ldrb	r1, [r0, #9]
	str	r1, [sp, #8]                    @ 4-byte Spill
	ldrb	r1, [r0, #27]
	str	r1, [sp, #4]                    @ 4-byte Spill
	ldrb	r6, [r0, #26]
	ldrb	r5, [r0, #24]
	ldrb	r4, [r0, #25]
	ldrb	r3, [r0, #15]
	ldrb	r2, [r0, #14]
	ldrb	r1, [r0, #12]
	ldrb	r0, [r0, #13]
	ldr	r7, [sp, #20]                   @ 4-byte Reload
	str	r7, [sp, #200]
	lsls	r0, r0, #8
	adds	r0, r0, r1
	lsls	r1, r2, #16
	adds	r0, r0, r1
	lsls	r1, r3, #24
	adds	r0, r0, r1
	str	r0, [sp, #196]
	lsls	r0, r4, #8
	adds	r0, r0, r5
	lsls	r1, r6, #16
	adds	r0, r0, r1
	ldr	r1, [sp, #4]                    @ 4-byte Reload
	lsls	r1, r1, #24
	adds	r0, r0, r1
	str	r0, [sp, #192]
	ldr	r0, [sp, #8]                    @ 4-byte Reload
	lsls	r0, r0, #8
	ldr	r1, [sp, #12]                   @ 4-byte Reload
	adds	r0, r0, r1
	ldr	r1, [sp, #16]                   @ 4-byte Reload
	lsls	r1, r1, #16
	adds	r0, r0, r1
	ldr	r1, [sp, #24]                   @ 4-byte Reload
	lsls	r1, r1, #24
	adds	r0, r0, r1
	str	r0, [sp, #188]
	ldr	r0, [sp, #28]                   @ 4-byte Reload
	lsls	r0, r0, #8
	ldr	r1, [sp, #32]                   @ 4-byte Reload
	adds	r0, r0, r1
	ldr	r1, [sp, #36]                   @ 4-byte Reload
	lsls	r1, r1, #16
	adds	r0, r0, r1
	ldr	r1, [sp, #40]                   @ 4-byte Reload
	lsls	r1, r1, #24
	adds	r0, r0, r1
	str	r0, [sp, #184]
	ldr	r0, [sp, #44]                   @ 4-byte Reload
	lsls	r0, r0, #8
	ldr	r1, [sp, #48]                   @ 4-byte Reload
	adds	r0, r0, r1
	ldr	r1, [sp, #52]                   @ 4-byte Reload
	lsls	r1, r1, #16
	adds	r0, r0, r1
	ldr	r1, [sp, #56]                   @ 4-byte Reload
	lsls	r1, r1, #24
	adds	r0, r0, r1
	str	r0, [sp, #180]
	ldr	r0, [sp, #60]                   @ 4-byte Reload
	lsls	r0, r0, #8
	ldr	r1, [sp, #64]                   @ 4-byte Reload
	adds	r0, r0, r1
	ldr	r1, [sp, #72]                   @ 4-byte Reload
	lsls	r1, r1, #16
	adds	r0, r0, r1
	ldr	r1, [sp, #84]                   @ 4-byte Reload
	lsls	r1, r1, #24
	adds	r0, r0, r1
	str	r0, [sp, #176]
	ldr	r0, [sp, #88]                   @ 4-byte Reload
	lsls	r0, r0, #8
	ldr	r1, [sp, #92]                   @ 4-byte Reload
	adds	r0, r0, r1
	ldr	r1, [sp, #100]                  @ 4-byte Reload
	lsls	r1, r1, #16
	adds	r0, r0, r1
	ldr	r1, [sp, #104]                  @ 4-byte Reload
	lsls	r1, r1, #24
	adds	r0, r0, r1
	str	r0, [sp, #172]
	add	r4, sp, #108
	add	r1, sp, #172
	mov	r0, r4
	bl	aes_v6m_small.aes_planes.soft.word.transpose.transpose
	add	r0, sp, #140
	ldm	r4!, {r1, r2, r3, r5}
	stm	r0!, {r1, r2, r3, r5}
	ldm	r4!, {r1, r2, r3, r5}
	stm	r0!, {r1, r2, r3, r5}
	add	r0, sp, #172
	movs	r4, #0
	ldr	r1, [sp, #96]                   @ 4-byte Reload
	mov	r2, r4
	mov	r3, r4
	bl	aes_v6m_small.aes_planes.soft.round_keys.round_key.2
	ldr	r0, [sp, #200]
	ldr	r1, [sp, #168]
	eors	r1, r0
	str	r1, [sp, #168]
	ldr	r0, [sp, #196]
	ldr	r1, [sp, #164]
	eors	r1, r0
	str	r1, [sp, #164]
	ldr	r0, [sp, #192]
	ldr	r1, [sp, #160]
	eors	r1, r0
	str	r1, [sp, #160]
	ldr	r0, [sp, #188]
	ldr	r1, [sp, #156]
	eors	r1, r0
	str	r1, [sp, #156]
	ldr	r0, [sp, #184]
	ldr	r1, [sp, #152]
	eors	r1, r0
	str	r1, [sp, #152]
	ldr	r0, [sp, #180]
	ldr	r1, [sp, #148]
	eors	r1, r0
	str	r1, [sp, #148]
	ldr	r0, [sp, #176]
	ldr	r1, [sp, #144]
	eors	r1, r0
	str	r1, [sp, #144]
	ldr	r0, [sp, #172]
	ldr	r1, [sp, #140]
	eors	r1, r0
	str	r1, [sp, #140]
	ldr	r0, [sp, #80]                   @ 4-byte Reload
	subs	r1, r0, #2
	ldr	r2, [sp, #76]                   @ 4-byte Reload
	str	r4, [sp, #92]                   @ 4-byte Spill
	sbcs	r2, r4
	lsls	r0, r2, #30
	str	r1, [sp, #72]                   @ 4-byte Spill
	lsrs	r1, r1, #2
	adds	r1, r1, r0
	str	r2, [sp, #64]                   @ 4-byte Spill
	lsrs	r2, r2, #2
	mov	r0, r1
	orrs	r0, r2
	bne	.Laes_v6m_small_BB26_1
	b	.Laes_v6m_small_BB26_3
.Laes_v6m_small_BB26_1:                               @ %join.7.lr.ph.i
	ldr	r7, [sp, #92]                   @ 4-byte Reload
	mov	r5, r7
	str	r1, [sp, #88]                   @ 4-byte Spill
	str	r2, [sp, #84]                   @ 4-byte Spill
.Laes_v6m_small_BB26_2:                               @ %join.7.i
                                        @ =>This Inner Loop Header: Depth=1
	str	r5, [sp, #100]                  @ 4-byte Spill
	str	r7, [sp, #104]                  @ 4-byte Spill
	add	r4, sp, #140
	mov	r0, r4
	bl	aes_v6m_small.aes_planes.soft.sbox.sub_bytes
	mov	r0, r4
	bl	aes_v6m_small.aes_planes.soft.mix_columns.mix_columns_1
	lsrs	r0, r5, #30
	lsls	r1, r7, #2
	adds	r6, r1, r0
	lsls	r5, r5, #2
	adds	r2, r5, #1
	add	r0, sp, #172
	ldr	r7, [sp, #96]                   @ 4-byte Reload
	mov	r1, r7
	mov	r3, r6
	bl	aes_v6m_small.aes_planes.soft.round_keys.round_key.2
	ldr	r0, [sp, #200]
	ldr	r1, [sp, #168]
	eors	r1, r0
	str	r1, [sp, #168]
	ldr	r0, [sp, #196]
	ldr	r1, [sp, #164]
	eors	r1, r0
	str	r1, [sp, #164]
	ldr	r0, [sp, #192]
	ldr	r1, [sp, #160]
	eors	r1, r0
	str	r1, [sp, #160]
	ldr	r0, [sp, #188]
	ldr	r1, [sp, #156]
	eors	r1, r0
	str	r1, [sp, #156]
	ldr	r0, [sp, #184]
	ldr	r1, [sp, #152]
	eors	r1, r0
	str	r1, [sp, #152]
	ldr	r0, [sp, #180]
	ldr	r1, [sp, #148]
	eors	r1, r0
	str	r1, [sp, #148]
	ldr	r0, [sp, #176]
	ldr	r1, [sp, #144]
	eors	r1, r0
	str	r1, [sp, #144]
	ldr	r0, [sp, #172]
	ldr	r1, [sp, #140]
	eors	r1, r0
	str	r1, [sp, #140]
	mov	r0, r4
	bl	aes_v6m_small.aes_planes.soft.sbox.sub_bytes
	mov	r0, r4
	bl	aes_v6m_small.aes_planes.soft.mix_columns.mix_columns_2
	adds	r2, r5, #2
	add	r0, sp, #172
	mov	r1, r7
	mov	r3, r6
	bl	aes_v6m_small.aes_planes.soft.round_keys.round_key.2
	ldr	r0, [sp, #200]
	ldr	r1, [sp, #168]
	eors	r1, r0
	str	r1, [sp, #168]
	ldr	r0, [sp, #196]
	ldr	r1, [sp, #164]
	eors	r1, r0
	str	r1, [sp, #164]
	ldr	r0, [sp, #192]
	ldr	r1, [sp, #160]
	eors	r1, r0
	str	r1, [sp, #160]
	ldr	r0, [sp, #188]
	ldr	r1, [sp, #156]
	eors	r1, r0
	str	r1, [sp, #156]
	ldr	r0, [sp, #184]
	ldr	r1, [sp, #152]
	eors	r1, r0
	str	r1, [sp, #152]
	ldr	r0, [sp, #180]
	ldr	r1, [sp, #148]
	eors	r1, r0
	str	r1, [sp, #148]
	ldr	r0, [sp, #176]
	ldr	r1, [sp, #144]
	eors	r1, r0
	str	r1, [sp, #144]
	ldr	r0, [sp, #172]
	ldr	r1, [sp, #140]
	eors	r1, r0
	str	r1, [sp, #140]
	mov	r0, r4
	bl	aes_v6m_small.aes_planes.soft.sbox.sub_bytes
	mov	r0, r4
	bl	aes_v6m_small.aes_planes.soft.mix_columns.mix_columns_3
	adds	r2, r5, #3
	add	r0, sp, #172
	mov	r1, r7
	mov	r3, r6
	bl	aes_v6m_small.aes_planes.soft.round_keys.round_key.2
	ldr	r0, [sp, #200]
	ldr	r1, [sp, #168]
	eors	r1, r0
	str	r1, [sp, #168]
	ldr	r0, [sp, #196]
	ldr	r1, [sp, #164]
	eors	r1, r0
	str	r1, [sp, #164]
	ldr	r0, [sp, #192]
	ldr	r1, [sp, #160]
	eors	r1, r0
	str	r1, [sp, #160]
	ldr	r0, [sp, #188]
	ldr	r1, [sp, #156]
	eors	r1, r0
	str	r1, [sp, #156]
	ldr	r0, [sp, #184]
	ldr	r1, [sp, #152]
	eors	r1, r0
	str	r1, [sp, #152]
	ldr	r0, [sp, #180]
	ldr	r1, [sp, #148]
	eors	r1, r0
	str	r1, [sp, #148]
	ldr	r0, [sp, #176]
	ldr	r1, [sp, #144]
	eors	r1, r0
	str	r1, [sp, #144]
	ldr	r0, [sp, #172]
	ldr	r1, [sp, #140]
	eors	r1, r0
	str	r1, [sp, #140]
	mov	r0, r4
	bl	aes_v6m_small.aes_planes.soft.sbox.sub_bytes
	mov	r0, r4
	bl	aes_v6m_small.aes_planes.soft.mix_columns.mix_columns_0
	adds	r2, r5, #4
	ldr	r5, [sp, #100]                  @ 4-byte Reload
	ldr	r4, [sp, #92]                   @ 4-byte Reload
	adcs	r6, r4
	add	r0, sp, #172
	mov	r1, r7
	mov	r3, r6
	ldr	r7, [sp, #104]                  @ 4-byte Reload
	bl	aes_v6m_small.aes_planes.soft.round_keys.round_key.2
	ldr	r2, [sp, #84]                   @ 4-byte Reload
	ldr	r0, [sp, #200]
	ldr	r1, [sp, #168]
	eors	r1, r0
	str	r1, [sp, #168]
	ldr	r0, [sp, #196]
	ldr	r1, [sp, #164]
	eors	r1, r0
	str	r1, [sp, #164]
	ldr	r0, [sp, #192]
	ldr	r1, [sp, #160]
	eors	r1, r0
	str	r1, [sp, #160]
	ldr	r0, [sp, #188]
	ldr	r1, [sp, #156]
	eors	r1, r0
	str	r1, [sp, #156]
	ldr	r0, [sp, #184]
	ldr	r1, [sp, #152]
	eors	r1, r0
	str	r1, [sp, #152]
	ldr	r0, [sp, #180]
	ldr	r1, [sp, #148]
	eors	r1, r0
	str	r1, [sp, #148]
	ldr	r0, [sp, #176]
	ldr	r1, [sp, #144]
	eors	r1, r0
	str	r1, [sp, #144]
	ldr	r0, [sp, #172]
	ldr	r1, [sp, #140]
	eors	r1, r0
	str	r1, [sp, #140]
	ldr	r1, [sp, #88]                   @ 4-byte Reload
	adds	r5, r5, #1
	adcs	r7, r4
	subs	r0, r5, r1
	mov	r0, r7
	sbcs	r0, r2
	bhs	.Laes_v6m_small_BB26_3
	b	.Laes_v6m_small_BB26_2
.Laes_v6m_small_BB26_3:                               @ %after.3.i
	add	r4, sp, #140
	mov	r0, r4
	bl	aes_v6m_small.aes_planes.soft.sbox.sub_bytes
	mov	r0, r4
	bl	aes_v6m_small.aes_planes.soft.mix_columns.mix_columns_1
	movs	r0, #3
	ldr	r4, [sp, #72]                   @ 4-byte Reload
	bics	r4, r0
	adds	r2, r4, #1
	add	r0, sp, #172
	ldr	r7, [sp, #96]                   @ 4-byte Reload
	mov	r1, r7
	ldr	r5, [sp, #64]                   @ 4-byte Reload
	mov	r3, r5
	bl	aes_v6m_small.aes_planes.soft.round_keys.round_key.2
	mov	r2, r5
	ldr	r0, [sp, #200]
	ldr	r1, [sp, #168]
	eors	r1, r0
	str	r1, [sp, #168]
	ldr	r0, [sp, #196]
	ldr	r1, [sp, #164]
	eors	r1, r0
	str	r1, [sp, #164]
	ldr	r0, [sp, #192]
	ldr	r1, [sp, #160]
	eors	r1, r0
	str	r1, [sp, #160]
	ldr	r0, [sp, #188]
	ldr	r1, [sp, #156]
	eors	r1, r0
	str	r1, [sp, #156]
	ldr	r0, [sp, #184]
	ldr	r1, [sp, #152]
	eors	r1, r0
	str	r1, [sp, #152]
	ldr	r0, [sp, #180]
	ldr	r1, [sp, #148]
	eors	r1, r0
	str	r1, [sp, #148]
	ldr	r0, [sp, #176]
	ldr	r1, [sp, #144]
	eors	r1, r0
	str	r1, [sp, #144]
	ldr	r0, [sp, #172]
	ldr	r1, [sp, #140]
	eors	r1, r0
	str	r1, [sp, #140]
	adds	r0, r4, #2
	ldr	r6, [sp, #80]                   @ 4-byte Reload
	subs	r0, r0, r6
	mov	r0, r5
	ldr	r5, [sp, #76]                   @ 4-byte Reload
	sbcs	r0, r5
	bhs	.Laes_v6m_small_BB26_5
@ %bb.4:                                @ %then.11.i
	add	r4, sp, #140
	mov	r0, r4
	mov	r6, r2
	bl	aes_v6m_small.aes_planes.soft.sbox.sub_bytes
	mov	r0, r4
	bl	aes_v6m_small.aes_planes.soft.mix_columns.mix_columns_2
	add	r0, sp, #172
	mov	r1, r7
	ldr	r2, [sp, #72]                   @ 4-byte Reload
	mov	r3, r6
	bl	aes_v6m_small.aes_planes.soft.round_keys.round_key.2
	ldr	r0, [sp, #200]
	ldr	r1, [sp, #168]
	eors	r1, r0
	str	r1, [sp, #168]
	ldr	r0, [sp, #196]
	ldr	r1, [sp, #164]
	eors	r1, r0
	str	r1, [sp, #164]
	ldr	r0, [sp, #192]
	ldr	r1, [sp, #160]
	eors	r1, r0
	str	r1, [sp, #160]
	ldr	r0, [sp, #188]
	ldr	r1, [sp, #156]
	eors	r1, r0
	str	r1, [sp, #156]
	ldr	r0, [sp, #184]
	ldr	r1, [sp, #152]
	eors	r1, r0
	str	r1, [sp, #152]
	ldr	r0, [sp, #180]
	ldr	r1, [sp, #148]
	eors	r1, r0
	str	r1, [sp, #148]
	ldr	r0, [sp, #176]
	ldr	r1, [sp, #144]
	eors	r1, r0
	str	r1, [sp, #144]
	ldr	r0, [sp, #172]
	ldr	r1, [sp, #140]
	eors	r1, r0
	str	r1, [sp, #140]
	mov	r0, r4
	bl	aes_v6m_small.aes_planes.soft.sbox.sub_bytes
	mov	r0, r4
	bl	aes_v6m_small.aes_planes.soft.mix_columns.mix_columns_3
	movs	r0, #0
	ldr	r6, [sp, #80]                   @ 4-byte Reload
	subs	r2, r6, #1
	mov	r3, r5
	sbcs	r3, r0
	add	r0, sp, #172
	mov	r1, r7
	bl	aes_v6m_small.aes_planes.soft.round_keys.round_key.2
	ldr	r0, [sp, #200]
	ldr	r1, [sp, #168]
	eors	r1, r0
	str	r1, [sp, #168]
	ldr	r0, [sp, #196]
	ldr	r1, [sp, #164]
	eors	r1, r0
	str	r1, [sp, #164]
	ldr	r0, [sp, #192]
	ldr	r1, [sp, #160]
	eors	r1, r0
	str	r1, [sp, #160]
	ldr	r0, [sp, #188]
	ldr	r1, [sp, #156]
	eors	r1, r0
	str	r1, [sp, #156]
	ldr	r0, [sp, #184]
	ldr	r1, [sp, #152]
	eors	r1, r0
	str	r1, [sp, #152]
	ldr	r0, [sp, #180]
	ldr	r1, [sp, #148]
	eors	r1, r0
	str	r1, [sp, #148]
	ldr	r0, [sp, #176]
	ldr	r1, [sp, #144]
	eors	r1, r0
	str	r1, [sp, #144]
	ldr	r0, [sp, #172]
	ldr	r1, [sp, #140]
	eors	r1, r0
	str	r1, [sp, #140]
	b	.Laes_v6m_small_BB26_6
.Laes_v6m_small_BB26_5:                               @ %else.12.i
	add	r0, sp, #140
	movs	r1, #4
	ldr	r2, .Laes_v6m_small_CPI26_0
	bl	aes_v6m_small.aes_planes.soft.shifts.swap_columns
.Laes_v6m_small_BB26_6:                               @ %"aes_soft::soft::ciphers::planes::EncryptPlaneCipher::process_planes::<#42add9d049d0c5fd>.exit"
	add	r4, sp, #140
	mov	r0, r4
	bl	aes_v6m_small.aes_planes.soft.sbox.sub_bytes
	add	r0, sp, #172
	mov	r1, r7
	mov	r2, r6
	mov	r3, r5
	bl	aes_v6m_small.aes_planes.soft.round_keys.round_key.2
	ldr	r0, [sp, #200]
	ldr	r1, [sp, #168]
	eors	r1, r0
	str	r1, [sp, #168]
	ldr	r0, [sp, #196]
	ldr	r1, [sp, #164]
	eors	r1, r0
	str	r1, [sp, #164]
	ldr	r0, [sp, #192]
	ldr	r1, [sp, #160]
	eors	r1, r0
	str	r1, [sp, #160]
	ldr	r0, [sp, #188]
	ldr	r1, [sp, #156]
	eors	r1, r0
	str	r1, [sp, #156]
	ldr	r0, [sp, #184]
	ldr	r1, [sp, #152]
	eors	r1, r0
	str	r1, [sp, #152]
	ldr	r0, [sp, #180]
	ldr	r1, [sp, #148]
	eors	r1, r0
	str	r1, [sp, #148]
	ldr	r0, [sp, #176]
	ldr	r1, [sp, #144]
	eors	r1, r0
	str	r1, [sp, #144]
	ldr	r0, [sp, #172]
	ldr	r1, [sp, #140]
	eors	r1, r0
	str	r1, [sp, #140]
	add	r1, sp, #108
	mov	r0, r1
	ldm	r4!, {r2, r3, r5, r6}
	stm	r0!, {r2, r3, r5, r6}
	ldm	r4!, {r2, r3, r5, r6}
	stm	r0!, {r2, r3, r5, r6}
	add	r0, sp, #172
	bl	aes_v6m_small.aes_planes.soft.word.transpose.transpose
	ldr	r0, [sp, #172]
	str	r0, [sp, #104]                  @ 4-byte Spill
	ldr	r0, [sp, #180]
	str	r0, [sp, #100]                  @ 4-byte Spill
	ldr	r2, [sp, #188]
	ldr	r3, [sp, #196]
	ldr	r4, [sp, #176]
	ldr	r5, [sp, #184]
	ldr	r6, [sp, #192]
	ldr	r7, [sp, #200]
	lsrs	r0, r7, #24
	ldr	r1, [sp, #68]                   @ 4-byte Reload
	strb	r0, [r1, #31]
	lsrs	r0, r7, #16
	strb	r0, [r1, #30]
	lsrs	r0, r7, #8
	strb	r0, [r1, #29]
	strb	r7, [r1, #28]
	lsrs	r0, r6, #24
	strb	r0, [r1, #27]
	lsrs	r0, r6, #16
	strb	r0, [r1, #26]
	lsrs	r0, r6, #8
	strb	r0, [r1, #25]
	strb	r6, [r1, #24]
	lsrs	r0, r5, #24
	strb	r0, [r1, #23]
	lsrs	r0, r5, #16
	strb	r0, [r1, #22]
	lsrs	r0, r5, #8
	strb	r0, [r1, #21]
	strb	r5, [r1, #20]
	lsrs	r0, r4, #24
	strb	r0, [r1, #19]
	lsrs	r0, r4, #16
	strb	r0, [r1, #18]
	lsrs	r0, r4, #8
	strb	r0, [r1, #17]
	strb	r4, [r1, #16]
	lsrs	r0, r3, #24
	strb	r0, [r1, #15]
	lsrs	r0, r3, #16
	strb	r0, [r1, #14]
	lsrs	r0, r3, #8
	strb	r0, [r1, #13]
	strb	r3, [r1, #12]
	lsrs	r0, r2, #24
	strb	r0, [r1, #11]
	lsrs	r0, r2, #16
	strb	r0, [r1, #10]
	lsrs	r0, r2, #8
	strb	r0, [r1, #9]
	strb	r2, [r1, #8]
	ldr	r2, [sp, #100]                  @ 4-byte Reload
	lsrs	r0, r2, #24
	strb	r0, [r1, #7]
	lsrs	r0, r2, #16
	strb	r0, [r1, #6]
	lsrs	r0, r2, #8
	strb	r0, [r1, #5]
	strb	r2, [r1, #4]
	ldr	r2, [sp, #104]                  @ 4-byte Reload
	lsrs	r0, r2, #24
	strb	r0, [r1, #3]
	lsrs	r0, r2, #16
	strb	r0, [r1, #2]
	lsrs	r0, r2, #8
	strb	r0, [r1, #1]
	strb	r2, [r1]
	add	sp, #204
	pop	{r4, r5, r6, r7, pc}
	.p2align	2
@ %bb.7:
.Laes_v6m_small_CPI26_0:
	.long	251662080                       @ 0xf000f00
.Laes_v6m_small_func_end26:
	.size	aes_v6m_small.aes_soft.soft.ciphers.planes.process_outlined.1, .Laes_v6m_small_func_end26-aes_v6m_small.aes_soft.soft.ciphers.planes.process_outlined.1
	.cantunwind
	.fnend
                                        @ -- End function
	.section	.text.aes_v6m_small.aes_planes.soft.mix_columns.mix_columns_0,"ax",%progbits
	.p2align	1                               @ -- Begin function aes_planes::soft::mix_columns::mix_columns_0::<#e817d94f9a7b6ba6>
	.type	aes_v6m_small.aes_planes.soft.mix_columns.mix_columns_0,%function
	.code	16
	.thumb_func
aes_v6m_small.aes_planes.soft.mix_columns.mix_columns_0: @ @aes_v6m_small.aes_planes.soft.mix_columns.mix_columns_0
	.fnstart
@ %bb.0:                                @ %start
	.save	{r4, r5, r6, r7, lr}
	push	{r4, r5, r6, r7, lr}
	.pad	#16
	sub	sp, #16
	mov	r1, r0
	ldr	r2, [r0, #28]
	movs	r6, #8
	mov	r0, r2
	rors	r0, r6
	eors	r2, r0
	str	r2, [sp, #12]                   @ 4-byte Spill
	movs	r4, #16
	rors	r2, r4
	eors	r2, r0
	ldr	r0, [r1, #24]
	mov	r3, r0
	rors	r3, r6
	eors	r0, r3
	eors	r2, r0
	str	r2, [r1, #28]
	rors	r0, r4
	eors	r0, r3
	ldr	r2, [r1, #20]
	mov	r3, r2
	rors	r3, r6
	eors	r2, r3
	eors	r0, r2
	str	r0, [r1, #24]
	rors	r2, r4
	eors	r2, r3
	ldr	r5, [r1, #16]
	mov	r0, r5
	rors	r0, r6
	str	r0, [sp, #4]                    @ 4-byte Spill
	eors	r5, r0
	eors	r2, r5
	str	r2, [r1, #20]
	ldr	r2, [r1, #8]
	mov	r0, r2
	rors	r0, r6
	eors	r2, r0
	str	r2, [sp]                        @ 4-byte Spill
	rors	r2, r4
	mov	r3, r4
	eors	r2, r0
	ldr	r4, [r1, #4]
	mov	r0, r4
	rors	r0, r6
	str	r0, [sp, #8]                    @ 4-byte Spill
	eors	r4, r0
	eors	r2, r4
	str	r2, [r1, #8]
	ldr	r7, [r1]
	mov	r0, r7
	rors	r0, r6
	eors	r7, r0
	mov	r2, r7
	rors	r2, r3
	eors	r2, r0
	ldr	r0, [sp, #12]                   @ 4-byte Reload
	eors	r2, r0
	str	r2, [r1]
	ldr	r0, [r1, #12]
	mov	r2, r0
	rors	r2, r6
	eors	r0, r2
	rors	r5, r3
	eors	r5, r0
	ldr	r6, [sp, #4]                    @ 4-byte Reload
	eors	r5, r6
	ldr	r6, [sp, #12]                   @ 4-byte Reload
	eors	r5, r6
	str	r5, [r1, #16]
	mov	r5, r3
	rors	r0, r3
	ldr	r3, [sp]                        @ 4-byte Reload
	eors	r0, r3
	eors	r0, r2
	eors	r0, r6
	str	r0, [r1, #12]
	rors	r4, r5
	eors	r4, r7
	ldr	r0, [sp, #8]                    @ 4-byte Reload
	eors	r4, r0
	eors	r4, r6
	str	r4, [r1, #4]
	add	sp, #16
	pop	{r4, r5, r6, r7, pc}
.Laes_v6m_small_func_end27:
	.size	aes_v6m_small.aes_planes.soft.mix_columns.mix_columns_0, .Laes_v6m_small_func_end27-aes_v6m_small.aes_planes.soft.mix_columns.mix_columns_0
	.cantunwind
	.fnend
                                        @ -- End function
	.section	.text.aes_v6m_small.aes_planes.soft.mix_columns.mix_columns_1,"ax",%progbits
	.p2align	2                               @ -- Begin function aes_planes::soft::mix_columns::mix_columns_1::<#e817d94f9a7b6ba6>
	.type	aes_v6m_small.aes_planes.soft.mix_columns.mix_columns_1,%function
	.code	16
	.thumb_func
aes_v6m_small.aes_planes.soft.mix_columns.mix_columns_1: @ @aes_v6m_small.aes_planes.soft.mix_columns.mix_columns_1
	.fnstart
@ %bb.0:                                @ %start
	.save	{r4, r5, r6, r7, lr}
	push	{r4, r5, r6, r7, lr}
	.pad	#40
	sub	sp, #40
	mov	r7, r0
	ldr	r3, [r0, #28]
	movs	r5, #2
	mov	r0, r3
	rors	r0, r5
	str	r5, [sp, #16]                   @ 4-byte Spill
	ldr	r1, .Laes_v6m_small_CPI28_0
	ands	r0, r1
	movs	r2, #10
	str	r2, [sp, #28]                   @ 4-byte Spill
	mov	r1, r3
	rors	r1, r2
	ldr	r2, .Laes_v6m_small_CPI28_1
	ands	r1, r2
	adds	r0, r1, r0
	eors	r3, r0
	str	r3, [sp, #20]                   @ 4-byte Spill
	movs	r2, #12
	str	r2, [sp, #36]                   @ 4-byte Spill
	mov	r1, r3
	rors	r1, r2
	ldr	r2, .Laes_v6m_small_CPI28_2
	ands	r1, r2
	movs	r6, #20
	mov	r2, r3
	rors	r2, r6
	str	r6, [sp, #32]                   @ 4-byte Spill
	ldr	r3, .Laes_v6m_small_CPI28_3
	ands	r2, r3
	adds	r1, r2, r1
	eors	r1, r0
	ldr	r0, [r7, #24]
	mov	r2, r0
	rors	r2, r5
	ldr	r3, .Laes_v6m_small_CPI28_0
	ands	r2, r3
	mov	r3, r0
	ldr	r4, [sp, #28]                   @ 4-byte Reload
	rors	r3, r4
	ldr	r5, .Laes_v6m_small_CPI28_1
	ands	r3, r5
	adds	r2, r3, r2
	eors	r0, r2
	eors	r1, r0
	str	r1, [r7, #28]
	mov	r1, r0
	ldr	r5, [sp, #36]                   @ 4-byte Reload
	rors	r1, r5
	ldr	r3, .Laes_v6m_small_CPI28_2
	ands	r1, r3
	rors	r0, r6
	ldr	r3, .Laes_v6m_small_CPI28_3
	ands	r0, r3
	adds	r1, r0, r1
	eors	r1, r2
	ldr	r0, [r7, #20]
	mov	r2, r0
	ldr	r6, [sp, #16]                   @ 4-byte Reload
	rors	r2, r6
	ldr	r3, .Laes_v6m_small_CPI28_0
	ands	r2, r3
	mov	r3, r0
	rors	r3, r4
	ldr	r4, .Laes_v6m_small_CPI28_1
	ands	r3, r4
	adds	r2, r3, r2
	eors	r0, r2
	eors	r1, r0
	str	r1, [r7, #24]
	mov	r1, r0
	rors	r1, r5
	ldr	r3, .Laes_v6m_small_CPI28_2
	ands	r1, r3
	ldr	r3, [sp, #32]                   @ 4-byte Reload
	rors	r0, r3
	ldr	r3, .Laes_v6m_small_CPI28_3
	ands	r0, r3
	adds	r1, r0, r1
	eors	r1, r2
	ldr	r0, [r7, #16]
	mov	r2, r0
	mov	r4, r6
	rors	r2, r6
	ldr	r3, .Laes_v6m_small_CPI28_0
	ands	r2, r3
	mov	r3, r0
	ldr	r6, [sp, #28]                   @ 4-byte Reload
	rors	r3, r6
	ldr	r5, .Laes_v6m_small_CPI28_1
	ands	r3, r5
	adds	r2, r3, r2
	str	r2, [sp, #12]                   @ 4-byte Spill
	eors	r0, r2
	eors	r1, r0
	str	r1, [r7, #20]
	ldr	r3, [r7, #8]
	str	r7, [sp, #24]                   @ 4-byte Spill
	mov	r1, r3
	rors	r1, r4
	mov	r5, r4
	ldr	r2, .Laes_v6m_small_CPI28_0
	ands	r1, r2
	mov	r2, r3
	rors	r2, r6
	ldr	r4, .Laes_v6m_small_CPI28_1
	ands	r2, r4
	adds	r2, r2, r1
	eors	r3, r2
	mov	r1, r3
	str	r3, [sp, #8]                    @ 4-byte Spill
	ldr	r4, [sp, #36]                   @ 4-byte Reload
	rors	r1, r4
	ldr	r4, .Laes_v6m_small_CPI28_2
	ands	r1, r4
	ldr	r4, [sp, #32]                   @ 4-byte Reload
	rors	r3, r4
	ldr	r4, .Laes_v6m_small_CPI28_3
	ands	r3, r4
	adds	r1, r3, r1
	eors	r1, r2
	ldr	r4, [r7, #4]
	mov	r3, r4
	rors	r3, r5
	ldr	r2, .Laes_v6m_small_CPI28_0
	ands	r3, r2
	mov	r2, r4
	rors	r2, r6
	ldr	r7, .Laes_v6m_small_CPI28_1
	ands	r2, r7
	adds	r2, r2, r3
	str	r2, [sp, #4]                    @ 4-byte Spill
	eors	r4, r2
	eors	r1, r4
	ldr	r7, [sp, #24]                   @ 4-byte Reload
	str	r1, [r7, #8]
	ldr	r7, [r7]
	mov	r1, r7
	rors	r1, r5
	ldr	r2, .Laes_v6m_small_CPI28_0
	ands	r1, r2
	mov	r2, r7
	rors	r2, r6
	ldr	r3, .Laes_v6m_small_CPI28_1
	ands	r2, r3
	adds	r1, r2, r1
	eors	r7, r1
	str	r7, [sp]                        @ 4-byte Spill
	mov	r2, r7
	ldr	r5, [sp, #36]                   @ 4-byte Reload
	rors	r2, r5
	ldr	r3, .Laes_v6m_small_CPI28_2
	ands	r2, r3
	mov	r3, r7
	ldr	r6, [sp, #32]                   @ 4-byte Reload
	rors	r3, r6
	ldr	r7, .Laes_v6m_small_CPI28_3
	ands	r3, r7
	adds	r2, r3, r2
	eors	r2, r1
	ldr	r1, [sp, #20]                   @ 4-byte Reload
	eors	r2, r1
	ldr	r3, [sp, #24]                   @ 4-byte Reload
	str	r2, [r3]
	mov	r1, r0
	rors	r1, r5
	ldr	r2, .Laes_v6m_small_CPI28_2
	ands	r1, r2
	mov	r5, r6
	rors	r0, r6
	ands	r0, r7
	adds	r1, r0, r1
	ldr	r0, [r3, #12]
	mov	r2, r0
	ldr	r3, [sp, #16]                   @ 4-byte Reload
	rors	r2, r3
	ldr	r3, .Laes_v6m_small_CPI28_0
	ands	r2, r3
	mov	r3, r0
	ldr	r6, [sp, #28]                   @ 4-byte Reload
	rors	r3, r6
	ldr	r6, .Laes_v6m_small_CPI28_1
	ands	r3, r6
	adds	r7, r3, r2
	eors	r0, r7
	eors	r1, r0
	ldr	r3, [sp, #12]                   @ 4-byte Reload
	eors	r1, r3
	ldr	r3, [sp, #20]                   @ 4-byte Reload
	eors	r1, r3
	ldr	r6, [sp, #24]                   @ 4-byte Reload
	str	r1, [r6, #16]
	mov	r1, r0
	ldr	r2, [sp, #36]                   @ 4-byte Reload
	rors	r1, r2
	ldr	r2, .Laes_v6m_small_CPI28_2
	ands	r1, r2
	rors	r0, r5
	ldr	r2, .Laes_v6m_small_CPI28_3
	ands	r0, r2
	adds	r0, r0, r1
	ldr	r1, [sp, #8]                    @ 4-byte Reload
	eors	r0, r1
	eors	r0, r7
	eors	r0, r3
	str	r0, [r6, #12]
	mov	r0, r4
	ldr	r1, [sp, #36]                   @ 4-byte Reload
	rors	r0, r1
	ldr	r1, .Laes_v6m_small_CPI28_2
	ands	r0, r1
	rors	r4, r5
	ldr	r1, .Laes_v6m_small_CPI28_3
	ands	r4, r1
	adds	r0, r4, r0
	ldr	r1, [sp]                        @ 4-byte Reload
	eors	r0, r1
	ldr	r1, [sp, #4]                    @ 4-byte Reload
	eors	r0, r1
	eors	r0, r3
	str	r0, [r6, #4]
	add	sp, #40
	pop	{r4, r5, r6, r7, pc}
	.p2align	2
@ %bb.1:
.Laes_v6m_small_CPI28_0:
	.long	3233857728                      @ 0xc0c0c0c0
.Laes_v6m_small_CPI28_1:
	.long	1061109567                      @ 0x3f3f3f3f
.Laes_v6m_small_CPI28_2:
	.long	4042322160                      @ 0xf0f0f0f0
.Laes_v6m_small_CPI28_3:
	.long	252645135                       @ 0xf0f0f0f
.Laes_v6m_small_func_end28:
	.size	aes_v6m_small.aes_planes.soft.mix_columns.mix_columns_1, .Laes_v6m_small_func_end28-aes_v6m_small.aes_planes.soft.mix_columns.mix_columns_1
	.cantunwind
	.fnend
                                        @ -- End function
	.section	.text.aes_v6m_small.aes_planes.soft.mix_columns.mix_columns_2,"ax",%progbits
	.p2align	2                               @ -- Begin function aes_planes::soft::mix_columns::mix_columns_2::<#e817d94f9a7b6ba6>
	.type	aes_v6m_small.aes_planes.soft.mix_columns.mix_columns_2,%function
	.code	16
	.thumb_func
aes_v6m_small.aes_planes.soft.mix_columns.mix_columns_2: @ @aes_v6m_small.aes_planes.soft.mix_columns.mix_columns_2
	.fnstart
@ %bb.0:                                @ %start
	.save	{r4, r5, r6, r7, lr}
	push	{r4, r5, r6, r7, lr}
	.pad	#24
	sub	sp, #24
	mov	r5, r0
	ldr	r2, [r0, #28]
	movs	r6, #4
	mov	r0, r2
	rors	r0, r6
	ldr	r4, .Laes_v6m_small_CPI29_0
	ands	r0, r4
	movs	r7, #12
	mov	r1, r2
	rors	r1, r7
	ldr	r3, .Laes_v6m_small_CPI29_1
	ands	r1, r3
	adds	r0, r1, r0
	eors	r2, r0
	str	r2, [sp, #12]                   @ 4-byte Spill
	movs	r3, #16
	str	r3, [sp, #20]                   @ 4-byte Spill
	mov	r1, r2
	rors	r1, r3
	eors	r1, r0
	ldr	r0, [r5, #24]
	mov	r2, r0
	rors	r2, r6
	mov	r3, r6
	str	r6, [sp, #16]                   @ 4-byte Spill
	ands	r2, r4
	mov	r4, r0
	rors	r4, r7
	mov	r6, r7
	ldr	r7, .Laes_v6m_small_CPI29_1
	ands	r4, r7
	adds	r2, r4, r2
	eors	r0, r2
	eors	r1, r0
	str	r1, [r5, #28]
	ldr	r7, [sp, #20]                   @ 4-byte Reload
	rors	r0, r7
	eors	r0, r2
	ldr	r1, [r5, #20]
	mov	r2, r1
	rors	r2, r3
	ldr	r3, .Laes_v6m_small_CPI29_0
	ands	r2, r3
	mov	r4, r1
	rors	r4, r6
	ldr	r3, .Laes_v6m_small_CPI29_1
	ands	r4, r3
	adds	r2, r4, r2
	eors	r1, r2
	eors	r0, r1
	str	r0, [r5, #24]
	rors	r1, r7
	eors	r1, r2
	ldr	r7, [r5, #16]
	mov	r0, r7
	ldr	r4, [sp, #16]                   @ 4-byte Reload
	rors	r0, r4
	ldr	r2, .Laes_v6m_small_CPI29_0
	ands	r0, r2
	mov	r2, r7
	rors	r2, r6
	mov	r3, r6
	ldr	r6, .Laes_v6m_small_CPI29_1
	ands	r2, r6
	adds	r0, r2, r0
	str	r0, [sp, #8]                    @ 4-byte Spill
	eors	r7, r0
	eors	r1, r7
	str	r1, [r5, #20]
	ldr	r2, [r5, #8]
	mov	r0, r2
	rors	r0, r4
	mov	r6, r4
	ldr	r1, .Laes_v6m_small_CPI29_0
	ands	r0, r1
	mov	r1, r2
	mov	r4, r3
	rors	r1, r3
	ldr	r3, .Laes_v6m_small_CPI29_1
	ands	r1, r3
	adds	r1, r1, r0
	eors	r2, r1
	str	r2, [sp, #4]                    @ 4-byte Spill
	mov	r0, r2
	ldr	r2, [sp, #20]                   @ 4-byte Reload
	rors	r0, r2
	eors	r0, r1
	ldr	r3, [r5, #4]
	mov	r2, r3
	rors	r2, r6
	ldr	r1, .Laes_v6m_small_CPI29_0
	ands	r2, r1
	mov	r1, r3
	rors	r1, r4
	mov	r6, r4
	ldr	r4, .Laes_v6m_small_CPI29_1
	ands	r1, r4
	adds	r1, r1, r2
	str	r1, [sp]                        @ 4-byte Spill
	eors	r3, r1
	eors	r0, r3
	str	r0, [r5, #8]
	ldr	r4, [r5]
	mov	r0, r4
	ldr	r1, [sp, #16]                   @ 4-byte Reload
	rors	r0, r1
	ldr	r1, .Laes_v6m_small_CPI29_0
	ands	r0, r1
	mov	r1, r4
	rors	r1, r6
	ldr	r2, .Laes_v6m_small_CPI29_1
	ands	r1, r2
	adds	r0, r1, r0
	eors	r4, r0
	mov	r1, r4
	ldr	r2, [sp, #20]                   @ 4-byte Reload
	rors	r1, r2
	eors	r1, r0
	ldr	r0, [sp, #12]                   @ 4-byte Reload
	eors	r1, r0
	str	r1, [r5]
	ldr	r1, [r5, #12]
	mov	r2, r1
	ldr	r0, [sp, #16]                   @ 4-byte Reload
	rors	r2, r0
	ldr	r0, .Laes_v6m_small_CPI29_0
	ands	r2, r0
	mov	r0, r1
	rors	r0, r6
	ldr	r6, .Laes_v6m_small_CPI29_1
	ands	r0, r6
	adds	r0, r0, r2
	eors	r1, r0
	ldr	r6, [sp, #20]                   @ 4-byte Reload
	rors	r7, r6
	eors	r7, r1
	ldr	r2, [sp, #8]                    @ 4-byte Reload
	eors	r7, r2
	ldr	r2, [sp, #12]                   @ 4-byte Reload
	eors	r7, r2
	str	r7, [r5, #16]
	mov	r7, r6
	rors	r1, r6
	ldr	r6, [sp, #4]                    @ 4-byte Reload
	eors	r1, r6
	eors	r1, r0
	eors	r1, r2
	str	r1, [r5, #12]
	rors	r3, r7
	eors	r3, r4
	ldr	r0, [sp]                        @ 4-byte Reload
	eors	r3, r0
	eors	r3, r2
	str	r3, [r5, #4]
	add	sp, #24
	pop	{r4, r5, r6, r7, pc}
	.p2align	2
@ %bb.1:
.Laes_v6m_small_CPI29_0:
	.long	4042322160                      @ 0xf0f0f0f0
.Laes_v6m_small_CPI29_1:
	.long	252645135                       @ 0xf0f0f0f
.Laes_v6m_small_func_end29:
	.size	aes_v6m_small.aes_planes.soft.mix_columns.mix_columns_2, .Laes_v6m_small_func_end29-aes_v6m_small.aes_planes.soft.mix_columns.mix_columns_2
	.cantunwind
	.fnend
                                        @ -- End function
	.section	.text.aes_v6m_small.aes_planes.soft.mix_columns.mix_columns_3,"ax",%progbits
	.p2align	2                               @ -- Begin function aes_planes::soft::mix_columns::mix_columns_3::<#e817d94f9a7b6ba6>
	.type	aes_v6m_small.aes_planes.soft.mix_columns.mix_columns_3,%function
	.code	16
	.thumb_func
aes_v6m_small.aes_planes.soft.mix_columns.mix_columns_3: @ @aes_v6m_small.aes_planes.soft.mix_columns.mix_columns_3
	.fnstart
@ %bb.0:                                @ %start
	.save	{r4, r5, r6, r7, lr}
	push	{r4, r5, r6, r7, lr}
	.pad	#40
	sub	sp, #40
	mov	r7, r0
	ldr	r3, [r0, #28]
	movs	r5, #6
	mov	r0, r3
	rors	r0, r5
	str	r5, [sp, #16]                   @ 4-byte Spill
	ldr	r1, .Laes_v6m_small_CPI30_0
	ands	r0, r1
	movs	r2, #14
	str	r2, [sp, #28]                   @ 4-byte Spill
	mov	r1, r3
	rors	r1, r2
	ldr	r2, .Laes_v6m_small_CPI30_1
	ands	r1, r2
	adds	r0, r1, r0
	eors	r3, r0
	str	r3, [sp, #20]                   @ 4-byte Spill
	movs	r2, #12
	str	r2, [sp, #36]                   @ 4-byte Spill
	mov	r1, r3
	rors	r1, r2
	ldr	r2, .Laes_v6m_small_CPI30_2
	ands	r1, r2
	movs	r6, #20
	mov	r2, r3
	rors	r2, r6
	str	r6, [sp, #32]                   @ 4-byte Spill
	ldr	r3, .Laes_v6m_small_CPI30_3
	ands	r2, r3
	adds	r1, r2, r1
	eors	r1, r0
	ldr	r0, [r7, #24]
	mov	r2, r0
	rors	r2, r5
	ldr	r3, .Laes_v6m_small_CPI30_0
	ands	r2, r3
	mov	r3, r0
	ldr	r4, [sp, #28]                   @ 4-byte Reload
	rors	r3, r4
	ldr	r5, .Laes_v6m_small_CPI30_1
	ands	r3, r5
	adds	r2, r3, r2
	eors	r0, r2
	eors	r1, r0
	str	r1, [r7, #28]
	mov	r1, r0
	ldr	r5, [sp, #36]                   @ 4-byte Reload
	rors	r1, r5
	ldr	r3, .Laes_v6m_small_CPI30_2
	ands	r1, r3
	rors	r0, r6
	ldr	r3, .Laes_v6m_small_CPI30_3
	ands	r0, r3
	adds	r1, r0, r1
	eors	r1, r2
	ldr	r0, [r7, #20]
	mov	r2, r0
	ldr	r6, [sp, #16]                   @ 4-byte Reload
	rors	r2, r6
	ldr	r3, .Laes_v6m_small_CPI30_0
	ands	r2, r3
	mov	r3, r0
	rors	r3, r4
	ldr	r4, .Laes_v6m_small_CPI30_1
	ands	r3, r4
	adds	r2, r3, r2
	eors	r0, r2
	eors	r1, r0
	str	r1, [r7, #24]
	mov	r1, r0
	rors	r1, r5
	ldr	r3, .Laes_v6m_small_CPI30_2
	ands	r1, r3
	ldr	r3, [sp, #32]                   @ 4-byte Reload
	rors	r0, r3
	ldr	r3, .Laes_v6m_small_CPI30_3
	ands	r0, r3
	adds	r1, r0, r1
	eors	r1, r2
	ldr	r0, [r7, #16]
	mov	r2, r0
	mov	r4, r6
	rors	r2, r6
	ldr	r3, .Laes_v6m_small_CPI30_0
	ands	r2, r3
	mov	r3, r0
	ldr	r6, [sp, #28]                   @ 4-byte Reload
	rors	r3, r6
	ldr	r5, .Laes_v6m_small_CPI30_1
	ands	r3, r5
	adds	r2, r3, r2
	str	r2, [sp, #12]                   @ 4-byte Spill
	eors	r0, r2
	eors	r1, r0
	str	r1, [r7, #20]
	ldr	r3, [r7, #8]
	str	r7, [sp, #24]                   @ 4-byte Spill
	mov	r1, r3
	rors	r1, r4
	mov	r5, r4
	ldr	r2, .Laes_v6m_small_CPI30_0
	ands	r1, r2
	mov	r2, r3
	rors	r2, r6
	ldr	r4, .Laes_v6m_small_CPI30_1
	ands	r2, r4
	adds	r2, r2, r1
	eors	r3, r2
	mov	r1, r3
	str	r3, [sp, #8]                    @ 4-byte Spill
	ldr	r4, [sp, #36]                   @ 4-byte Reload
	rors	r1, r4
	ldr	r4, .Laes_v6m_small_CPI30_2
	ands	r1, r4
	ldr	r4, [sp, #32]                   @ 4-byte Reload
	rors	r3, r4
	ldr	r4, .Laes_v6m_small_CPI30_3
	ands	r3, r4
	adds	r1, r3, r1
	eors	r1, r2
	ldr	r4, [r7, #4]
	mov	r3, r4
	rors	r3, r5
	ldr	r2, .Laes_v6m_small_CPI30_0
	ands	r3, r2
	mov	r2, r4
	rors	r2, r6
	ldr	r7, .Laes_v6m_small_CPI30_1
	ands	r2, r7
	adds	r2, r2, r3
	str	r2, [sp, #4]                    @ 4-byte Spill
	eors	r4, r2
	eors	r1, r4
	ldr	r7, [sp, #24]                   @ 4-byte Reload
	str	r1, [r7, #8]
	ldr	r7, [r7]
	mov	r1, r7
	rors	r1, r5
	ldr	r2, .Laes_v6m_small_CPI30_0
	ands	r1, r2
	mov	r2, r7
	rors	r2, r6
	ldr	r3, .Laes_v6m_small_CPI30_1
	ands	r2, r3
	adds	r1, r2, r1
	eors	r7, r1
	str	r7, [sp]                        @ 4-byte Spill
	mov	r2, r7
	ldr	r5, [sp, #36]                   @ 4-byte Reload
	rors	r2, r5
	ldr	r3, .Laes_v6m_small_CPI30_2
	ands	r2, r3
	mov	r3, r7
	ldr	r6, [sp, #32]                   @ 4-byte Reload
	rors	r3, r6
	ldr	r7, .Laes_v6m_small_CPI30_3
	ands	r3, r7
	adds	r2, r3, r2
	eors	r2, r1
	ldr	r1, [sp, #20]                   @ 4-byte Reload
	eors	r2, r1
	ldr	r3, [sp, #24]                   @ 4-byte Reload
	str	r2, [r3]
	mov	r1, r0
	rors	r1, r5
	ldr	r2, .Laes_v6m_small_CPI30_2
	ands	r1, r2
	mov	r5, r6
	rors	r0, r6
	ands	r0, r7
	adds	r1, r0, r1
	ldr	r0, [r3, #12]
	mov	r2, r0
	ldr	r3, [sp, #16]                   @ 4-byte Reload
	rors	r2, r3
	ldr	r3, .Laes_v6m_small_CPI30_0
	ands	r2, r3
	mov	r3, r0
	ldr	r6, [sp, #28]                   @ 4-byte Reload
	rors	r3, r6
	ldr	r6, .Laes_v6m_small_CPI30_1
	ands	r3, r6
	adds	r7, r3, r2
	eors	r0, r7
	eors	r1, r0
	ldr	r3, [sp, #12]                   @ 4-byte Reload
	eors	r1, r3
	ldr	r3, [sp, #20]                   @ 4-byte Reload
	eors	r1, r3
	ldr	r6, [sp, #24]                   @ 4-byte Reload
	str	r1, [r6, #16]
	mov	r1, r0
	ldr	r2, [sp, #36]                   @ 4-byte Reload
	rors	r1, r2
	ldr	r2, .Laes_v6m_small_CPI30_2
	ands	r1, r2
	rors	r0, r5
	ldr	r2, .Laes_v6m_small_CPI30_3
	ands	r0, r2
	adds	r0, r0, r1
	ldr	r1, [sp, #8]                    @ 4-byte Reload
	eors	r0, r1
	eors	r0, r7
	eors	r0, r3
	str	r0, [r6, #12]
	mov	r0, r4
	ldr	r1, [sp, #36]                   @ 4-byte Reload
	rors	r0, r1
	ldr	r1, .Laes_v6m_small_CPI30_2
	ands	r0, r1
	rors	r4, r5
	ldr	r1, .Laes_v6m_small_CPI30_3
	ands	r4, r1
	adds	r0, r4, r0
	ldr	r1, [sp]                        @ 4-byte Reload
	eors	r0, r1
	ldr	r1, [sp, #4]                    @ 4-byte Reload
	eors	r0, r1
	eors	r0, r3
	str	r0, [r6, #4]
	add	sp, #40
	pop	{r4, r5, r6, r7, pc}
	.p2align	2
@ %bb.1:
.Laes_v6m_small_CPI30_0:
	.long	4244438268                      @ 0xfcfcfcfc
.Laes_v6m_small_CPI30_1:
	.long	50529027                        @ 0x3030303
.Laes_v6m_small_CPI30_2:
	.long	4042322160                      @ 0xf0f0f0f0
.Laes_v6m_small_CPI30_3:
	.long	252645135                       @ 0xf0f0f0f
.Laes_v6m_small_func_end30:
	.size	aes_v6m_small.aes_planes.soft.mix_columns.mix_columns_3, .Laes_v6m_small_func_end30-aes_v6m_small.aes_planes.soft.mix_columns.mix_columns_3
	.cantunwind
	.fnend
                                        @ -- End function
	.section	.text.aes_v6m_small.aes_planes.soft.round_keys.round_key.2,"ax",%progbits
	.p2align	1                               @ -- Begin function aes_planes::soft::round_keys::round_key::<#e817d94f9a7b6ba6>
	.type	aes_v6m_small.aes_planes.soft.round_keys.round_key.2,%function
	.code	16
	.thumb_func
aes_v6m_small.aes_planes.soft.round_keys.round_key.2: @ @aes_v6m_small.aes_planes.soft.round_keys.round_key.2
	.fnstart
@ %bb.0:                                @ %start
	.save	{r4, r5, r6, r7, lr}
	push	{r4, r5, r6, r7, lr}
	.pad	#12
	sub	sp, #12
	lsls	r2, r2, #5
	ldr	r7, [r1, r2]
	adds	r1, r1, r2
	ldr	r2, [r1, #4]
	str	r2, [sp, #8]                    @ 4-byte Spill
	ldr	r4, [r1, #8]
	str	r4, [sp, #4]                    @ 4-byte Spill
	ldr	r3, [r1, #12]
	ldr	r2, [r1, #16]
	str	r2, [sp]                        @ 4-byte Spill
	ldr	r5, [r1, #20]
	ldr	r6, [r1, #24]
	ldr	r1, [r1, #28]
	strb	r1, [r0, #28]
	strb	r6, [r0, #24]
	strb	r5, [r0, #20]
	strb	r2, [r0, #16]
	strb	r3, [r0, #12]
	strb	r4, [r0, #8]
	ldr	r2, [sp, #8]                    @ 4-byte Reload
	strb	r2, [r0, #4]
	lsrs	r2, r7, #24
	strb	r2, [r0, #3]
	lsrs	r2, r7, #16
	strb	r2, [r0, #2]
	lsrs	r2, r7, #8
	strb	r2, [r0, #1]
	strb	r7, [r0]
	lsrs	r2, r1, #24
	strb	r2, [r0, #31]
	lsrs	r2, r1, #16
	strb	r2, [r0, #30]
	lsrs	r1, r1, #8
	strb	r1, [r0, #29]
	lsrs	r1, r6, #24
	strb	r1, [r0, #27]
	lsrs	r1, r6, #16
	strb	r1, [r0, #26]
	lsrs	r1, r6, #8
	strb	r1, [r0, #25]
	lsrs	r1, r5, #24
	strb	r1, [r0, #23]
	lsrs	r1, r5, #16
	strb	r1, [r0, #22]
	lsrs	r1, r5, #8
	strb	r1, [r0, #21]
	ldr	r2, [sp]                        @ 4-byte Reload
	lsrs	r1, r2, #24
	strb	r1, [r0, #19]
	lsrs	r1, r2, #16
	strb	r1, [r0, #18]
	lsrs	r1, r2, #8
	strb	r1, [r0, #17]
	lsrs	r1, r3, #24
	strb	r1, [r0, #15]
	lsrs	r1, r3, #16
	strb	r1, [r0, #14]
	lsrs	r1, r3, #8
	strb	r1, [r0, #13]
	ldr	r2, [sp, #4]                    @ 4-byte Reload
	lsrs	r1, r2, #24
	strb	r1, [r0, #11]
	lsrs	r1, r2, #16
	strb	r1, [r0, #10]
	lsrs	r1, r2, #8
	strb	r1, [r0, #9]
	ldr	r2, [sp, #8]                    @ 4-byte Reload
	lsrs	r1, r2, #24
	strb	r1, [r0, #7]
	lsrs	r1, r2, #16
	strb	r1, [r0, #6]
	lsrs	r1, r2, #8
	strb	r1, [r0, #5]
	add	sp, #12
	pop	{r4, r5, r6, r7, pc}
.Laes_v6m_small_func_end31:
	.size	aes_v6m_small.aes_planes.soft.round_keys.round_key.2, .Laes_v6m_small_func_end31-aes_v6m_small.aes_planes.soft.round_keys.round_key.2
	.cantunwind
	.fnend
                                        @ -- End function
	.section	.text.aes_v6m_small.aes_cipher.zeroize.stack.wipe_stack.1024,"ax",%progbits
	.p2align	1                               @ -- Begin function aes_cipher::zeroize::stack::wipe_stack::<=1024>
	.type	aes_v6m_small.aes_cipher.zeroize.stack.wipe_stack.1024,%function
	.code	16
	.thumb_func
aes_v6m_small.aes_cipher.zeroize.stack.wipe_stack.1024: @ @aes_v6m_small.aes_cipher.zeroize.stack.wipe_stack.1024
	.fnstart
@ %bb.0:                                @ %start
	.save	{r4, r5, r6, lr}
	push	{r4, r5, r6, lr}
	.pad	#508
	sub	sp, #508
	.pad	#508
	sub	sp, #508
	.pad	#16
	sub	sp, #16
	movs	r0, #1
	lsls	r2, r0, #10
	add	r0, sp, #8
	movs	r4, #0
	mov	r1, r4
	bl	memset
	str	r4, [sp, #4]
	str	r4, [sp]
	@APP
	@NO_APP
	ldr	r0, [sp]
	lsrs	r1, r0, #10
	ldr	r2, [sp, #4]
	orrs	r2, r1
	@APP
	@NO_APP
	bne	.Laes_v6m_small_BB32_2
@ %bb.1:                                @ %then.1
	add	r1, sp, #8
	ldrb	r0, [r1, r0]
	@APP
	@NO_APP
	ldr	r1, [sp, #4]
	ldr	r1, [sp]
	str	r4, [sp, #4]
	str	r0, [sp]
	@APP
	@NO_APP
.Laes_v6m_small_BB32_2:                               @ %common.ret
	add	sp, #508
	add	sp, #508
	add	sp, #16
	pop	{r4, r5, r6, pc}
.Laes_v6m_small_func_end32:
	.size	aes_v6m_small.aes_cipher.zeroize.stack.wipe_stack.1024, .Laes_v6m_small_func_end32-aes_v6m_small.aes_cipher.zeroize.stack.wipe_stack.1024
	.cantunwind
	.fnend
                                        @ -- End function
	.section	.text.aes_v6m_small.aes_ctr.add_blocks.add_blocks,"ax",%progbits
	.p2align	1                               @ -- Begin function aes_ctr::add_blocks::add_blocks
	.type	aes_v6m_small.aes_ctr.add_blocks.add_blocks,%function
	.code	16
	.thumb_func
aes_v6m_small.aes_ctr.add_blocks.add_blocks:      @ @aes_v6m_small.aes_ctr.add_blocks.add_blocks
	.fnstart
@ %bb.0:                                @ %start
	.save	{r4, r5, r6, r7, lr}
	push	{r4, r5, r6, r7, lr}
	.pad	#44
	sub	sp, #44
	str	r0, [sp, #36]                   @ 4-byte Spill
	mov	r0, r2
	orrs	r0, r3
	movs	r5, #0
	ldr	r4, [sp, #76]
	ldr	r7, [sp, #72]
	ldr	r1, [sp, #64]
	cmp	r0, #0
	str	r2, [sp, #32]                   @ 4-byte Spill
	str	r1, [sp, #24]                   @ 4-byte Spill
	str	r4, [sp, #28]                   @ 4-byte Spill
	str	r7, [sp, #40]                   @ 4-byte Spill
	beq	.Laes_v6m_small_BB33_6
@ %bb.1:                                @ %then.1
	str	r5, [sp, #20]                   @ 4-byte Spill
	str	r1, [sp]
	movs	r1, #0
	movs	r0, #16
	subs	r5, r0, r2
	sbcs	r1, r3
	subs	r2, r7, r5
	mov	r2, r4
	sbcs	r2, r1
	blo	.Laes_v6m_small_BB33_3
@ %bb.2:                                @ %then.1
	mov	r4, r1
.Laes_v6m_small_BB33_3:                               @ %then.1
	str	r4, [sp, #12]
	ldr	r6, [sp, #36]                   @ 4-byte Reload
	blo	.Laes_v6m_small_BB33_5
@ %bb.4:                                @ %then.1
	mov	r7, r5
.Laes_v6m_small_BB33_5:                               @ %then.1
	str	r7, [sp, #8]
	mov	r0, r6
	ldr	r2, [sp, #32]                   @ 4-byte Reload
	bl	aes_v6m_small.aes_ctr.add_blocks.add_part
	ldr	r5, [sp, #20]                   @ 4-byte Reload
	b	.Laes_v6m_small_BB33_7
.Laes_v6m_small_BB33_6:
	mov	r7, r5
	mov	r4, r5
.Laes_v6m_small_BB33_7:                               @ %join.3
	ldr	r0, [sp, #40]                   @ 4-byte Reload
	subs	r0, r0, r7
	ldr	r3, [sp, #28]                   @ 4-byte Reload
	mov	r1, r3
	sbcs	r1, r4
	mov	r2, r0
	subs	r2, #16
	mov	r2, r1
	sbcs	r2, r5
	blo	.Laes_v6m_small_BB33_9
.Laes_v6m_small_BB33_8:                               @ %join.8
                                        @ =>This Inner Loop Header: Depth=1
	movs	r6, #0
	movs	r0, #16
	str	r0, [sp, #8]
	str	r6, [sp, #12]
	ldr	r0, [sp, #24]                   @ 4-byte Reload
	adds	r0, r0, r7
	str	r0, [sp]
	ldr	r0, [sp, #32]                   @ 4-byte Reload
	adds	r0, r7, r0
	movs	r5, #15
	bics	r0, r5
	ldr	r1, [sp, #36]                   @ 4-byte Reload
	adds	r0, r1, r0
	mov	r2, r6
	mov	r3, r6
	bl	aes_v6m_small.aes_ctr.add_blocks.add_part
	ldr	r3, [sp, #28]                   @ 4-byte Reload
	adds	r7, #16
	adcs	r4, r6
	ldr	r0, [sp, #40]                   @ 4-byte Reload
	subs	r0, r0, r7
	mov	r1, r3
	sbcs	r1, r4
	subs	r2, r5, r0
	sbcs	r6, r1
	blo	.Laes_v6m_small_BB33_8
.Laes_v6m_small_BB33_9:                               @ %after.4
	ldr	r2, [sp, #40]                   @ 4-byte Reload
	subs	r2, r7, r2
	sbcs	r4, r3
	bhs	.Laes_v6m_small_BB33_11
@ %bb.10:                               @ %then.9
	str	r0, [sp, #8]
	str	r1, [sp, #12]
	ldr	r0, [sp, #24]                   @ 4-byte Reload
	adds	r0, r0, r7
	str	r0, [sp]
	ldr	r0, [sp, #32]                   @ 4-byte Reload
	adds	r0, r7, r0
	movs	r1, #15
	bics	r0, r1
	ldr	r1, [sp, #36]                   @ 4-byte Reload
	adds	r0, r1, r0
	movs	r2, #0
	mov	r3, r2
	bl	aes_v6m_small.aes_ctr.add_blocks.add_part
.Laes_v6m_small_BB33_11:                              @ %join.11
	add	sp, #44
	pop	{r4, r5, r6, r7, pc}
.Laes_v6m_small_func_end33:
	.size	aes_v6m_small.aes_ctr.add_blocks.add_blocks, .Laes_v6m_small_func_end33-aes_v6m_small.aes_ctr.add_blocks.add_blocks
	.cantunwind
	.fnend
                                        @ -- End function
	.section	.text.aes_v6m_small.aes_ctr.add_blocks.add_part,"ax",%progbits
	.p2align	1                               @ -- Begin function aes_ctr::add_blocks::add_part
	.type	aes_v6m_small.aes_ctr.add_blocks.add_part,%function
	.code	16
	.thumb_func
aes_v6m_small.aes_ctr.add_blocks.add_part:        @ @aes_v6m_small.aes_ctr.add_blocks.add_part
	.fnstart
@ %bb.0:                                @ %start
	.save	{r4, r5, r6, r7, lr}
	push	{r4, r5, r6, r7, lr}
	.pad	#100
	sub	sp, #100
	mov	r7, r0
	ldr	r0, [sp, #132]
	ldr	r4, [sp, #128]
	mov	r1, r4
	orrs	r1, r0
	bne	.Laes_v6m_small_BB34_1
	b	.Laes_v6m_small_BB34_16
.Laes_v6m_small_BB34_1:                               @ %start
	ldr	r1, [sp, #120]
	movs	r5, #16
	eors	r5, r4
	orrs	r5, r0
	bne	.Laes_v6m_small_BB34_3
@ %bb.2:                                @ %then.1
	ldrb	r2, [r1, #15]
	ldrb	r0, [r7, #15]
	eors	r0, r2
	str	r0, [sp, #24]                   @ 4-byte Spill
	ldrb	r2, [r1]
	str	r2, [sp, #96]                   @ 4-byte Spill
	ldrb	r2, [r7]
	str	r2, [sp, #92]                   @ 4-byte Spill
	ldrb	r2, [r1, #1]
	str	r2, [sp, #88]                   @ 4-byte Spill
	ldrb	r2, [r7, #1]
	str	r2, [sp, #84]                   @ 4-byte Spill
	ldrb	r0, [r1, #2]
	str	r0, [sp, #80]                   @ 4-byte Spill
	ldrb	r0, [r7, #2]
	str	r0, [sp, #76]                   @ 4-byte Spill
	ldrb	r0, [r1, #3]
	str	r0, [sp, #72]                   @ 4-byte Spill
	ldrb	r0, [r7, #3]
	str	r0, [sp, #68]                   @ 4-byte Spill
	ldrb	r0, [r1, #4]
	str	r0, [sp, #64]                   @ 4-byte Spill
	ldrb	r0, [r7, #4]
	str	r0, [sp, #60]                   @ 4-byte Spill
	ldrb	r0, [r1, #5]
	str	r0, [sp, #56]                   @ 4-byte Spill
	ldrb	r0, [r7, #5]
	str	r0, [sp, #52]                   @ 4-byte Spill
	ldrb	r0, [r1, #6]
	str	r0, [sp, #48]                   @ 4-byte Spill
	ldrb	r0, [r7, #6]
	str	r0, [sp, #44]                   @ 4-byte Spill
	ldrb	r0, [r1, #7]
	str	r0, [sp, #40]                   @ 4-byte Spill
	ldrb	r0, [r7, #7]
	str	r0, [sp, #36]                   @ 4-byte Spill
	ldrb	r0, [r1, #8]
	str	r0, [sp, #32]                   @ 4-byte Spill
	ldrb	r0, [r7, #8]
	str	r0, [sp, #28]                   @ 4-byte Spill
	ldrb	r0, [r1, #9]
	str	r0, [sp, #20]                   @ 4-byte Spill
	ldrb	r6, [r7, #9]
	ldrb	r0, [r1, #10]
	str	r0, [sp, #16]                   @ 4-byte Spill
	ldrb	r5, [r7, #10]
	ldrb	r0, [r1, #11]
	str	r0, [sp, #12]                   @ 4-byte Spill
	ldrb	r4, [r7, #11]
	ldrb	r0, [r1, #12]
	str	r0, [sp, #8]                    @ 4-byte Spill
	ldrb	r3, [r7, #12]
	ldrb	r0, [r1, #13]
	str	r0, [sp, #4]                    @ 4-byte Spill
	ldrb	r2, [r7, #13]
	ldrb	r0, [r1, #14]
	str	r0, [sp]                        @ 4-byte Spill
	ldrb	r0, [r7, #14]
	ldr	r7, [sp, #24]                   @ 4-byte Reload
	strb	r7, [r1, #15]
	ldr	r7, [sp]                        @ 4-byte Reload
	eors	r0, r7
	strb	r0, [r1, #14]
	ldr	r0, [sp, #4]                    @ 4-byte Reload
	eors	r2, r0
	strb	r2, [r1, #13]
	ldr	r0, [sp, #8]                    @ 4-byte Reload
	eors	r3, r0
	strb	r3, [r1, #12]
	ldr	r0, [sp, #12]                   @ 4-byte Reload
	eors	r4, r0
	strb	r4, [r1, #11]
	ldr	r0, [sp, #16]                   @ 4-byte Reload
	eors	r5, r0
	strb	r5, [r1, #10]
	ldr	r0, [sp, #20]                   @ 4-byte Reload
	eors	r6, r0
	strb	r6, [r1, #9]
	ldr	r0, [sp, #32]                   @ 4-byte Reload
	ldr	r2, [sp, #28]                   @ 4-byte Reload
	eors	r2, r0
	strb	r2, [r1, #8]
	ldr	r0, [sp, #40]                   @ 4-byte Reload
	ldr	r2, [sp, #36]                   @ 4-byte Reload
	eors	r2, r0
	strb	r2, [r1, #7]
	ldr	r0, [sp, #48]                   @ 4-byte Reload
	ldr	r2, [sp, #44]                   @ 4-byte Reload
	eors	r2, r0
	strb	r2, [r1, #6]
	ldr	r0, [sp, #56]                   @ 4-byte Reload
	ldr	r2, [sp, #52]                   @ 4-byte Reload
	eors	r2, r0
	strb	r2, [r1, #5]
	ldr	r0, [sp, #64]                   @ 4-byte Reload
	ldr	r2, [sp, #60]                   @ 4-byte Reload
	eors	r2, r0
	strb	r2, [r1, #4]
	ldr	r0, [sp, #72]                   @ 4-byte Reload
	ldr	r2, [sp, #68]                   @ 4-byte Reload
	eors	r2, r0
	strb	r2, [r1, #3]
	ldr	r0, [sp, #80]                   @ 4-byte Reload
	ldr	r2, [sp, #76]                   @ 4-byte Reload
	eors	r2, r0
	strb	r2, [r1, #2]
	ldr	r0, [sp, #88]                   @ 4-byte Reload
	ldr	r2, [sp, #84]                   @ 4-byte Reload
	eors	r2, r0
	strb	r2, [r1, #1]
	ldr	r0, [sp, #96]                   @ 4-byte Reload
	ldr	r2, [sp, #92]                   @ 4-byte Reload
	eors	r2, r0
	strb	r2, [r1]
	add	sp, #100
	pop	{r4, r5, r6, r7, pc}
.Laes_v6m_small_BB34_3:                               @ %join.8.preheader
	movs	r5, #1
	cmp	r4, #1
	mov	r3, r4
	bhi	.Laes_v6m_small_BB34_5
@ %bb.4:                                @ %join.8.preheader
	mov	r3, r5
.Laes_v6m_small_BB34_5:                               @ %join.8.preheader
	cmp	r0, #0
	mov	r6, r4
	bne	.Laes_v6m_small_BB34_7
@ %bb.6:                                @ %join.8.preheader
	mov	r6, r5
.Laes_v6m_small_BB34_7:                               @ %join.8.preheader
	beq	.Laes_v6m_small_BB34_9
@ %bb.8:                                @ %join.8.preheader
	mov	r3, r6
.Laes_v6m_small_BB34_9:                               @ %join.8.preheader
	str	r3, [sp, #92]                   @ 4-byte Spill
	movs	r5, #3
	mov	r6, r3
	str	r5, [sp, #88]                   @ 4-byte Spill
	ands	r6, r5
	movs	r3, #0
	subs	r4, r4, #4
	mov	r4, r0
	str	r3, [sp, #96]                   @ 4-byte Spill
	sbcs	r4, r3
	blo	.Laes_v6m_small_BB34_13
@ %bb.10:                               @ %join.8.preheader.new
	str	r6, [sp, #76]                   @ 4-byte Spill
	ldr	r3, [sp, #88]                   @ 4-byte Reload
	ldr	r4, [sp, #92]                   @ 4-byte Reload
	bics	r4, r3
	str	r4, [sp, #92]                   @ 4-byte Spill
	ldr	r4, [sp, #96]                   @ 4-byte Reload
	mov	r5, r4
	str	r7, [sp, #84]                   @ 4-byte Spill
	str	r0, [sp, #80]                   @ 4-byte Spill
.Laes_v6m_small_BB34_11:                              @ %join.8
                                        @ =>This Inner Loop Header: Depth=1
	ldrb	r6, [r1, r5]
	adds	r7, r5, r2
	ldr	r0, [sp, #84]                   @ 4-byte Reload
	ldrb	r7, [r0, r7]
	eors	r7, r6
	strb	r7, [r1, r5]
	movs	r6, #1
	orrs	r6, r5
	ldrb	r7, [r1, r6]
	adds	r3, r6, r2
	ldrb	r3, [r0, r3]
	eors	r3, r7
	strb	r3, [r1, r6]
	movs	r3, #2
	orrs	r3, r5
	ldrb	r6, [r1, r3]
	adds	r7, r3, r2
	ldrb	r7, [r0, r7]
	eors	r7, r6
	strb	r7, [r1, r3]
	mov	r3, r5
	ldr	r6, [sp, #88]                   @ 4-byte Reload
	orrs	r3, r6
	ldrb	r6, [r1, r3]
	adds	r7, r3, r2
	ldrb	r7, [r0, r7]
	eors	r7, r6
	strb	r7, [r1, r3]
	ldr	r0, [sp, #80]                   @ 4-byte Reload
	adds	r5, r5, #4
	ldr	r3, [sp, #96]                   @ 4-byte Reload
	adcs	r4, r3
	mov	r3, r4
	eors	r3, r0
	mov	r6, r5
	mov	r7, r1
	ldr	r1, [sp, #92]                   @ 4-byte Reload
	eors	r6, r1
	mov	r1, r7
	orrs	r6, r3
	bne	.Laes_v6m_small_BB34_11
@ %bb.12:                               @ %join.3.loopexit.unr-lcssa
	ldr	r6, [sp, #76]                   @ 4-byte Reload
	cmp	r6, #0
	str	r5, [sp, #96]                   @ 4-byte Spill
	ldr	r7, [sp, #84]                   @ 4-byte Reload
	beq	.Laes_v6m_small_BB34_16
.Laes_v6m_small_BB34_13:                              @ %join.8.epil.preheader
	ldr	r5, [sp, #96]                   @ 4-byte Reload
	ldrb	r3, [r1, r5]
	adds	r4, r5, r2
	ldrb	r4, [r7, r4]
	eors	r4, r3
	strb	r4, [r1, r5]
	cmp	r6, #1
	beq	.Laes_v6m_small_BB34_16
@ %bb.14:                               @ %join.8.epil.1
	ldr	r3, [sp, #96]                   @ 4-byte Reload
	adds	r3, r3, #1
	ldrb	r4, [r1, r3]
	adds	r5, r3, r2
	ldrb	r5, [r7, r5]
	eors	r5, r4
	strb	r5, [r1, r3]
	cmp	r6, #2
	beq	.Laes_v6m_small_BB34_16
@ %bb.15:                               @ %join.8.epil.2
	ldr	r3, [sp, #96]                   @ 4-byte Reload
	adds	r3, r3, #2
	ldrb	r4, [r1, r3]
	adds	r2, r3, r2
	ldrb	r0, [r7, r2]
	eors	r0, r4
	strb	r0, [r1, r3]
.Laes_v6m_small_BB34_16:                              @ %join.3
	add	sp, #100
	pop	{r4, r5, r6, r7, pc}
.Laes_v6m_small_func_end34:
	.size	aes_v6m_small.aes_ctr.add_blocks.add_part, .Laes_v6m_small_func_end34-aes_v6m_small.aes_ctr.add_blocks.add_part
	.cantunwind
	.fnend
                                        @ -- End function
	.section	.text.aes_v6m_small.aes_narrow.borrowed_words.call_to_encrypt,"ax",%progbits
	.p2align	1                               @ -- Begin function aes_narrow::borrowed_words::call_to_encrypt::<#b6a72634b88802f3>
	.type	aes_v6m_small.aes_narrow.borrowed_words.call_to_encrypt,%function
	.code	16
	.thumb_func
aes_v6m_small.aes_narrow.borrowed_words.call_to_encrypt: @ @aes_v6m_small.aes_narrow.borrowed_words.call_to_encrypt
	.fnstart
@ %bb.0:                                @ %start
	.save	{r4, r5, r7, lr}
	push	{r4, r5, r7, lr}
	.pad	#32
	sub	sp, #32
	str	r3, [sp, #28]
	str	r2, [sp, #24]
	movs	r1, #0
	str	r1, [sp, #20]
	str	r0, [sp, #16]
	ldr	r0, [sp, #48]
	mov	r4, r0
	adds	r4, #8
	ldm	r4, {r2, r3, r4}
	ldr	r1, [r0]
	ldr	r5, [r0, #24]
	ldr	r0, [r0, #28]
	str	r5, [sp, #8]
	str	r0, [sp, #12]
	str	r4, [sp]
	add	r0, sp, #16
	bl	aes_v6m_small.aes_ctr.add_in_batches.add_by_backend
	add	sp, #32
	pop	{r4, r5, r7, pc}
.Laes_v6m_small_func_end35:
	.size	aes_v6m_small.aes_narrow.borrowed_words.call_to_encrypt, .Laes_v6m_small_func_end35-aes_v6m_small.aes_narrow.borrowed_words.call_to_encrypt
	.cantunwind
	.fnend
                                        @ -- End function
	.section	.text.aes_v6m_small.aes_ctr.add_in_batches.add_by_backend,"ax",%progbits
	.p2align	1                               @ -- Begin function aes_ctr::add_in_batches::add_by_backend::<#a8e061590e9ece31>
	.type	aes_v6m_small.aes_ctr.add_in_batches.add_by_backend,%function
	.code	16
	.thumb_func
aes_v6m_small.aes_ctr.add_in_batches.add_by_backend: @ @aes_v6m_small.aes_ctr.add_in_batches.add_by_backend
	.fnstart
@ %bb.0:                                @ %start
	.save	{r4, r5, r6, r7, lr}
	push	{r4, r5, r6, r7, lr}
	.pad	#324
	sub	sp, #324
	mov	r4, r2
	str	r0, [sp, #44]                   @ 4-byte Spill
	movs	r0, #15
	str	r2, [sp, #20]                   @ 4-byte Spill
	str	r0, [sp, #16]                   @ 4-byte Spill
	ands	r4, r0
	movs	r6, #0
	ldr	r2, [sp, #356]
	ldr	r7, [sp, #352]
	ldr	r0, [sp, #344]
	str	r0, [sp, #40]                   @ 4-byte Spill
	cmp	r4, #0
	str	r3, [sp, #24]                   @ 4-byte Spill
	str	r1, [sp, #48]                   @ 4-byte Spill
	str	r2, [sp, #64]                   @ 4-byte Spill
	str	r7, [sp, #60]                   @ 4-byte Spill
	beq	.Laes_v6m_small_BB36_10
@ %bb.1:                                @ %then.1
	mov	r5, r7
	movs	r0, #1
	str	r0, [sp, #36]                   @ 4-byte Spill
	lsls	r2, r0, #8
	add	r7, sp, #68
	mov	r0, r7
	mov	r1, r6
	bl	memset
	str	r6, [sp, #4]
	str	r7, [sp, #52]                   @ 4-byte Spill
	str	r7, [sp, #8]
	movs	r0, #32
	subs	r0, r0, r4
	subs	r1, r5, r0
	ldr	r1, [sp, #64]                   @ 4-byte Reload
	str	r6, [sp, #56]                   @ 4-byte Spill
	sbcs	r1, r6
	blo	.Laes_v6m_small_BB36_3
@ %bb.2:                                @ %then.1
	mov	r5, r0
.Laes_v6m_small_BB36_3:                               @ %then.1
	ldr	r7, [sp, #36]                   @ 4-byte Reload
	blo	.Laes_v6m_small_BB36_5
@ %bb.4:                                @ %then.1
	ldr	r7, [sp, #56]                   @ 4-byte Reload
.Laes_v6m_small_BB36_5:                               @ %then.1
	adds	r1, r5, r4
	uxtb	r0, r1
	lsrs	r0, r0, #4
	lsls	r1, r1, #28
	beq	.Laes_v6m_small_BB36_7
@ %bb.6:
	adds	r0, r0, #1
.Laes_v6m_small_BB36_7:                               @ %then.1
	str	r0, [sp]
	ldr	r0, [sp, #20]                   @ 4-byte Reload
	lsrs	r0, r0, #4
	ldr	r3, [sp, #24]                   @ 4-byte Reload
	lsls	r1, r3, #28
	adds	r2, r0, r1
	lsrs	r3, r3, #4
	ldr	r0, [sp, #44]                   @ 4-byte Reload
	ldr	r1, [sp, #48]                   @ 4-byte Reload
	bl	aes_v6m_small.aes_ctr.keystream.fill_by_backend
	cmp	r7, #0
	ldr	r6, [sp, #64]                   @ 4-byte Reload
	bne	.Laes_v6m_small_BB36_9
@ %bb.8:                                @ %then.1
	mov	r6, r7
.Laes_v6m_small_BB36_9:                               @ %then.1
	str	r5, [sp, #8]
	str	r6, [sp, #12]
	ldr	r0, [sp, #40]                   @ 4-byte Reload
	str	r0, [sp]
	ldr	r0, [sp, #52]                   @ 4-byte Reload
	mov	r2, r4
	ldr	r3, [sp, #56]                   @ 4-byte Reload
	bl	aes_v6m_small.aes_ctr.add_blocks.add_blocks
	ldr	r2, [sp, #64]                   @ 4-byte Reload
	ldr	r7, [sp, #60]                   @ 4-byte Reload
	b	.Laes_v6m_small_BB36_11
.Laes_v6m_small_BB36_10:
	mov	r5, r6
.Laes_v6m_small_BB36_11:                              @ %join.3
	subs	r0, r7, r5
	mov	r1, r2
	sbcs	r1, r6
	movs	r3, #0
	subs	r0, #32
	str	r3, [sp, #56]                   @ 4-byte Spill
	sbcs	r1, r3
	ldr	r1, [sp, #20]                   @ 4-byte Reload
	ldr	r2, [sp, #24]                   @ 4-byte Reload
	blo	.Laes_v6m_small_BB36_13
.Laes_v6m_small_BB36_12:                              @ %join.11
                                        @ =>This Inner Loop Header: Depth=1
	ldr	r0, [sp, #40]                   @ 4-byte Reload
	adds	r0, r0, r5
	str	r0, [sp]
	adds	r0, r5, r1
	mov	r4, r1
	mov	r1, r6
	adcs	r1, r2
	lsrs	r0, r0, #4
	mov	r7, r2
	lsls	r2, r1, #28
	adds	r2, r0, r2
	lsrs	r3, r1, #4
	ldr	r0, [sp, #44]                   @ 4-byte Reload
	ldr	r1, [sp, #48]                   @ 4-byte Reload
	bl	aes_v6m_small.aes_ctr.add_in_batches.add_batch
	movs	r0, #0
	adds	r5, #32
	adcs	r6, r0
	ldr	r1, [sp, #60]                   @ 4-byte Reload
	subs	r1, r1, r5
	ldr	r2, [sp, #64]                   @ 4-byte Reload
	sbcs	r2, r6
	movs	r3, #31
	subs	r1, r3, r1
	mov	r1, r4
	sbcs	r0, r2
	mov	r2, r7
	blo	.Laes_v6m_small_BB36_12
.Laes_v6m_small_BB36_13:                              @ %loop.13.preheader
	ldr	r3, [sp, #60]                   @ 4-byte Reload
	subs	r0, r5, r3
	mov	r0, r6
	ldr	r7, [sp, #64]                   @ 4-byte Reload
	sbcs	r0, r7
	blo	.Laes_v6m_small_BB36_16
.Laes_v6m_small_BB36_14:                              @ %after.12
	add	sp, #324
	pop	{r4, r5, r6, r7, pc}
.Laes_v6m_small_BB36_15:                              @ %join.16
                                        @   in Loop: Header=BB36_16 Depth=1
	str	r7, [sp, #8]
	str	r4, [sp, #12]
	ldr	r0, [sp, #40]                   @ 4-byte Reload
	adds	r0, r0, r5
	str	r0, [sp]
	ldr	r0, [sp, #28]                   @ 4-byte Reload
	mov	r2, r6
	ldr	r3, [sp, #56]                   @ 4-byte Reload
	bl	aes_v6m_small.aes_ctr.add_blocks.add_blocks
	adds	r5, r7, r5
	ldr	r6, [sp, #32]                   @ 4-byte Reload
	adcs	r6, r4
	ldr	r3, [sp, #60]                   @ 4-byte Reload
	subs	r0, r5, r3
	mov	r0, r6
	ldr	r4, [sp, #64]                   @ 4-byte Reload
	sbcs	r0, r4
	bhs	.Laes_v6m_small_BB36_14
.Laes_v6m_small_BB36_16:                              @ %join.16
                                        @ =>This Inner Loop Header: Depth=1
	movs	r0, #1
	str	r0, [sp, #52]                   @ 4-byte Spill
	lsls	r2, r0, #8
	add	r4, sp, #68
	mov	r0, r4
	ldr	r7, [sp, #56]                   @ 4-byte Reload
	mov	r1, r7
	bl	memset
	str	r7, [sp, #4]
	str	r4, [sp, #28]                   @ 4-byte Spill
	str	r4, [sp, #8]
	ldr	r0, [sp, #20]                   @ 4-byte Reload
	adds	r1, r5, r0
	mov	r0, r6
	ldr	r2, [sp, #24]                   @ 4-byte Reload
	adcs	r0, r2
	str	r5, [sp, #36]                   @ 4-byte Spill
	ldr	r2, [sp, #60]                   @ 4-byte Reload
	subs	r5, r2, r5
	ldr	r4, [sp, #64]                   @ 4-byte Reload
	str	r6, [sp, #32]                   @ 4-byte Spill
	sbcs	r4, r6
	mov	r6, r1
	ldr	r2, [sp, #16]                   @ 4-byte Reload
	ands	r6, r2
	movs	r2, #32
	subs	r2, r2, r6
	subs	r3, r5, r2
	mov	r3, r4
	sbcs	r3, r7
	blo	.Laes_v6m_small_BB36_18
@ %bb.17:                               @ %join.16
                                        @   in Loop: Header=BB36_16 Depth=1
	ldr	r3, [sp, #56]                   @ 4-byte Reload
	str	r3, [sp, #52]                   @ 4-byte Spill
.Laes_v6m_small_BB36_18:                              @ %join.16
                                        @   in Loop: Header=BB36_16 Depth=1
	blo	.Laes_v6m_small_BB36_20
@ %bb.19:                               @ %join.16
                                        @   in Loop: Header=BB36_16 Depth=1
	mov	r5, r2
.Laes_v6m_small_BB36_20:                              @ %join.16
                                        @   in Loop: Header=BB36_16 Depth=1
	mov	r7, r5
	adds	r3, r5, r6
	uxtb	r2, r3
	lsrs	r2, r2, #4
	lsls	r3, r3, #28
	ldr	r5, [sp, #36]                   @ 4-byte Reload
	beq	.Laes_v6m_small_BB36_22
@ %bb.21:                               @   in Loop: Header=BB36_16 Depth=1
	adds	r2, r2, #1
.Laes_v6m_small_BB36_22:                              @ %join.16
                                        @   in Loop: Header=BB36_16 Depth=1
	str	r2, [sp]
	lsrs	r1, r1, #4
	lsls	r2, r0, #28
	adds	r2, r1, r2
	lsrs	r3, r0, #4
	ldr	r0, [sp, #44]                   @ 4-byte Reload
	ldr	r1, [sp, #48]                   @ 4-byte Reload
	bl	aes_v6m_small.aes_ctr.keystream.fill_by_backend
	ldr	r0, [sp, #52]                   @ 4-byte Reload
	cmp	r0, #0
	bne	.Laes_v6m_small_BB36_15
@ %bb.23:                               @ %join.16
                                        @   in Loop: Header=BB36_16 Depth=1
	mov	r4, r0
	b	.Laes_v6m_small_BB36_15
.Laes_v6m_small_func_end36:
	.size	aes_v6m_small.aes_ctr.add_in_batches.add_by_backend, .Laes_v6m_small_func_end36-aes_v6m_small.aes_ctr.add_in_batches.add_by_backend
	.cantunwind
	.fnend
                                        @ -- End function
	.section	.text.aes_v6m_small.aes_ctr.add_in_batches.add_batch,"ax",%progbits
	.p2align	1                               @ -- Begin function aes_ctr::add_in_batches::add_batch::<#a8e061590e9ece31>
	.type	aes_v6m_small.aes_ctr.add_in_batches.add_batch,%function
	.code	16
	.thumb_func
aes_v6m_small.aes_ctr.add_in_batches.add_batch: @ @aes_v6m_small.aes_ctr.add_in_batches.add_batch
	.fnstart
@ %bb.0:                                @ %start
	.save	{r4, r5, r6, r7, lr}
	push	{r4, r5, r6, r7, lr}
	.pad	#300
	sub	sp, #300
	add	r4, sp, #32
	stm	r4!, {r1, r2, r3}               @ 12-byte Folded Spill
	mov	r6, r0
	movs	r0, #1
	lsls	r2, r0, #8
	add	r7, sp, #44
	movs	r4, #0
	mov	r0, r7
	mov	r1, r4
	bl	memset
	movs	r5, #2
	str	r5, [sp, #8]
	str	r4, [sp, #12]
	str	r7, [sp]
	add	r3, sp, #32
	ldm	r3, {r0, r2, r3}                @ 12-byte Folded Reload
	bl	aes_v6m_small.aes_ctr.counter_blocks.WholeBlockCounterBlocks.put
	ldrb	r0, [r6, #15]
	str	r0, [sp, #40]                   @ 4-byte Spill
	ldrb	r0, [r6, #14]
	str	r0, [sp, #36]                   @ 4-byte Spill
	ldrb	r0, [r6, #12]
	str	r0, [sp, #32]                   @ 4-byte Spill
	ldrb	r0, [r6, #13]
	str	r0, [sp, #28]                   @ 4-byte Spill
	ldrb	r0, [r6, #11]
	str	r0, [sp, #24]                   @ 4-byte Spill
	ldrb	r0, [r6, #10]
	str	r0, [sp, #20]                   @ 4-byte Spill
	ldrb	r0, [r6, #8]
	str	r0, [sp, #16]                   @ 4-byte Spill
	ldrb	r3, [r6, #9]
	ldrb	r2, [r6, #3]
	ldrb	r1, [r6, #2]
	ldrb	r0, [r6]
	ldrb	r6, [r6, #1]
	str	r5, [sp, #8]
	str	r4, [sp, #12]
	str	r7, [sp]
	lsls	r5, r6, #8
	adds	r0, r5, r0
	lsls	r1, r1, #16
	lsls	r2, r2, #24
	adds	r1, r2, r1
	adds	r0, r1, r0
	lsls	r1, r3, #8
	ldr	r2, [sp, #16]                   @ 4-byte Reload
	adds	r1, r1, r2
	ldr	r2, [sp, #20]                   @ 4-byte Reload
	lsls	r2, r2, #16
	ldr	r3, [sp, #24]                   @ 4-byte Reload
	lsls	r3, r3, #24
	adds	r2, r3, r2
	adds	r2, r2, r1
	ldr	r1, [sp, #28]                   @ 4-byte Reload
	lsls	r1, r1, #8
	ldr	r3, [sp, #32]                   @ 4-byte Reload
	adds	r1, r1, r3
	ldr	r3, [sp, #36]                   @ 4-byte Reload
	lsls	r3, r3, #16
	ldr	r5, [sp, #40]                   @ 4-byte Reload
	lsls	r5, r5, #24
	adds	r3, r5, r3
	adds	r3, r3, r1
	bl	aes_v6m_small.aes_soft.soft.blocks.filled_up.process_filled_up.1
	movs	r0, #32
	str	r0, [sp, #8]
	str	r4, [sp, #12]
	ldr	r0, [sp, #320]
	str	r0, [sp]
	mov	r0, r7
	mov	r2, r4
	mov	r3, r4
	bl	aes_v6m_small.aes_ctr.add_blocks.add_blocks
	add	sp, #300
	pop	{r4, r5, r6, r7, pc}
.Laes_v6m_small_func_end37:
	.size	aes_v6m_small.aes_ctr.add_in_batches.add_batch, .Laes_v6m_small_func_end37-aes_v6m_small.aes_ctr.add_in_batches.add_batch
	.cantunwind
	.fnend
                                        @ -- End function
	.section	.text.aes_v6m_small.aes_ctr.keystream.fill_by_backend,"ax",%progbits
	.p2align	1                               @ -- Begin function aes_ctr::keystream::fill_by_backend::<#a8e061590e9ece31>
	.type	aes_v6m_small.aes_ctr.keystream.fill_by_backend,%function
	.code	16
	.thumb_func
aes_v6m_small.aes_ctr.keystream.fill_by_backend: @ @aes_v6m_small.aes_ctr.keystream.fill_by_backend
	.fnstart
@ %bb.0:                                @ %start
	.save	{r4, r5, r6, r7, lr}
	push	{r4, r5, r6, r7, lr}
	.pad	#20
	sub	sp, #20
	mov	r4, r0
	movs	r5, #0
	movs	r0, #2
	str	r0, [sp, #16]                   @ 4-byte Spill
	str	r0, [sp, #8]
	str	r5, [sp, #12]
	ldr	r6, [sp, #48]
	str	r6, [sp]
	mov	r0, r1
	bl	aes_v6m_small.aes_ctr.counter_blocks.WholeBlockCounterBlocks.put
	ldrb	r0, [r4, #12]
	ldrb	r1, [r4, #13]
	lsls	r1, r1, #8
	adds	r0, r1, r0
	ldrb	r1, [r4, #14]
	lsls	r1, r1, #16
	ldrb	r2, [r4, #15]
	lsls	r2, r2, #24
	adds	r1, r2, r1
	adds	r3, r1, r0
	ldrb	r0, [r4, #8]
	ldrb	r1, [r4, #9]
	lsls	r1, r1, #8
	adds	r0, r1, r0
	ldrb	r1, [r4, #10]
	lsls	r1, r1, #16
	ldrb	r2, [r4, #11]
	lsls	r2, r2, #24
	adds	r1, r2, r1
	adds	r2, r1, r0
	ldrb	r0, [r4]
	ldrb	r1, [r4, #1]
	lsls	r1, r1, #8
	adds	r0, r1, r0
	ldrb	r1, [r4, #2]
	lsls	r1, r1, #16
	ldrb	r4, [r4, #3]
	lsls	r4, r4, #24
	adds	r1, r4, r1
	adds	r0, r1, r0
	movs	r1, #1
	ldr	r4, [sp, #40]
	eors	r4, r1
	ldr	r7, [sp, #44]
	orrs	r7, r4
	beq	.Laes_v6m_small_BB38_2
@ %bb.1:                                @ %else.2.i.i
	ldr	r1, [sp, #16]                   @ 4-byte Reload
.Laes_v6m_small_BB38_2:                               @ %"aes_narrow::borrowed_words::BorrowedWordsBlockCipherEncBackend::encrypt_first_blocks::<#95e33a1c16e0c457>.exit"
	str	r1, [sp, #8]
	str	r5, [sp, #12]
	str	r6, [sp]
	bl	aes_v6m_small.aes_soft.soft.blocks.filled_up.process_filled_up.1
	add	sp, #20
	pop	{r4, r5, r6, r7, pc}
.Laes_v6m_small_func_end38:
	.size	aes_v6m_small.aes_ctr.keystream.fill_by_backend, .Laes_v6m_small_func_end38-aes_v6m_small.aes_ctr.keystream.fill_by_backend
	.cantunwind
	.fnend
                                        @ -- End function
	.section	.text.aes_v6m_small.aes_cipher.zeroize.stack.wipe_stack.2032,"ax",%progbits
	.p2align	2                               @ -- Begin function aes_cipher::zeroize::stack::wipe_stack::<=2032>
	.type	aes_v6m_small.aes_cipher.zeroize.stack.wipe_stack.2032,%function
	.code	16
	.thumb_func
aes_v6m_small.aes_cipher.zeroize.stack.wipe_stack.2032: @ @aes_v6m_small.aes_cipher.zeroize.stack.wipe_stack.2032
	.fnstart
@ %bb.0:                                @ %start
	.save	{r4, r5, r6, lr}
	push	{r4, r5, r6, lr}
	ldr	r6, .Laes_v6m_small_CPI39_0
	.pad	#2040
	add	sp, r6
	movs	r0, #127
	lsls	r2, r0, #4
	add	r0, sp, #8
	movs	r4, #0
	mov	r1, r4
	bl	memset
	str	r4, [sp, #4]
	str	r4, [sp]
	@APP
	@NO_APP
	ldr	r1, [sp, #4]
	lsls	r2, r1, #28
	ldr	r0, [sp]
	lsrs	r3, r0, #4
	adds	r2, r3, r2
	@APP
	@NO_APP
	lsrs	r1, r1, #4
	subs	r2, #127
	sbcs	r1, r4
	bhs	.Laes_v6m_small_BB39_2
@ %bb.1:                                @ %then.1
	add	r1, sp, #8
	ldrb	r0, [r1, r0]
	@APP
	@NO_APP
	ldr	r1, [sp, #4]
	ldr	r1, [sp]
	str	r4, [sp, #4]
	str	r0, [sp]
	@APP
	@NO_APP
.Laes_v6m_small_BB39_2:                               @ %common.ret
	ldr	r6, .Laes_v6m_small_CPI39_1
	add	sp, r6
	pop	{r4, r5, r6, pc}
	.p2align	2
@ %bb.3:
.Laes_v6m_small_CPI39_0:
	.long	4294965256                      @ 0xfffff808
.Laes_v6m_small_CPI39_1:
	.long	2040                            @ 0x7f8
.Laes_v6m_small_func_end39:
	.size	aes_v6m_small.aes_cipher.zeroize.stack.wipe_stack.2032, .Laes_v6m_small_func_end39-aes_v6m_small.aes_cipher.zeroize.stack.wipe_stack.2032
	.cantunwind
	.fnend
                                        @ -- End function
	.section	.text.aes_v6m_small.aes_cipher.zeroize.elements.zeroize_elements.1,"ax",%progbits
	.p2align	1                               @ -- Begin function aes_cipher::zeroize::elements::zeroize_elements::<#54a2bb646728b9ee>
	.type	aes_v6m_small.aes_cipher.zeroize.elements.zeroize_elements.1,%function
	.code	16
	.thumb_func
aes_v6m_small.aes_cipher.zeroize.elements.zeroize_elements.1: @ @aes_v6m_small.aes_cipher.zeroize.elements.zeroize_elements.1
	.fnstart
@ %bb.0:                                @ %start
	.save	{r4, r5, r6, r7, lr}
	push	{r4, r5, r6, r7, lr}
	.pad	#12
	sub	sp, #12
	movs	r4, #0
	str	r4, [sp, #4]
	str	r4, [sp]
	@APP
	@NO_APP
	ldr	r2, [sp, #4]
	ldr	r1, [sp]
	@APP
	@NO_APP
	mov	r3, r1
	subs	r3, #120
	sbcs	r2, r4
	bhs	.Laes_v6m_small_BB40_2
@ %bb.1:                                @ %then.1.i
	lsls	r6, r1, #2
	ldr	r7, [r0, r6]
	movs	r1, #15
	lsls	r2, r1, #5
	movs	r1, #0
	mov	r5, r0
	bl	memset
	ldr	r0, [r5, r6]
	ands	r0, r7
	b	.Laes_v6m_small_BB40_3
.Laes_v6m_small_BB40_2:                               @ %"aes_cipher::zeroize::observe::<#94bc162b3f62047f>.exit12"
	movs	r1, #15
	lsls	r2, r1, #5
	mov	r1, r4
	bl	memset
	mov	r0, r4
.Laes_v6m_small_BB40_3:                               @ %"aes_cipher::zeroize::observe::<#94bc162b3f62047f>.exit"
	@APP
	@NO_APP
	ldr	r1, [sp, #4]
	ldr	r1, [sp]
	str	r4, [sp, #4]
	uxtb	r0, r0
	str	r0, [sp]
	@APP
	@NO_APP
	add	sp, #12
	pop	{r4, r5, r6, r7, pc}
.Laes_v6m_small_func_end40:
	.size	aes_v6m_small.aes_cipher.zeroize.elements.zeroize_elements.1, .Laes_v6m_small_func_end40-aes_v6m_small.aes_cipher.zeroize.elements.zeroize_elements.1
	.cantunwind
	.fnend
                                        @ -- End function
	.section	.text.aes_v6m_small.cmac.tags.tag,"ax",%progbits
	.p2align	1                               @ -- Begin function cmac::tags::tag::<#4f733d09d7f6c6b4>
	.type	aes_v6m_small.cmac.tags.tag,%function
	.code	16
	.thumb_func
aes_v6m_small.cmac.tags.tag: @ @aes_v6m_small.cmac.tags.tag
	.fnstart
@ %bb.0:                                @ %start
	.save	{r4, r5, r6, r7, lr}
	push	{r4, r5, r6, r7, lr}
	.pad	#60
	sub	sp, #60
	str	r2, [sp, #12]                   @ 4-byte Spill
	mov	r3, r1
	str	r1, [sp, #20]                   @ 4-byte Spill
	str	r0, [sp, #24]                   @ 4-byte Spill
	movs	r4, #0
	str	r4, [sp, #40]
	str	r4, [sp, #36]
	str	r4, [sp, #32]
	str	r4, [sp, #28]
	str	r4, [sp, #4]
	ldr	r5, [sp, #84]
	ldr	r6, [sp, #80]
	mov	r0, r5
	orrs	r0, r6
	subs	r1, r0, #1
	sbcs	r0, r1
	subs	r7, r6, r0
	movs	r0, #15
	bics	r7, r0
	str	r7, [sp]
	add	r1, sp, #28
	str	r1, [sp, #16]                   @ 4-byte Spill
	mov	r0, r3
	bl	aes_v6m_small.cmac.chaining.chain
	subs	r0, r6, r7
	sbcs	r5, r4
	str	r0, [sp]
	str	r5, [sp, #4]
	ldr	r0, [sp, #12]                   @ 4-byte Reload
	adds	r3, r0, r7
	add	r6, sp, #44
	mov	r0, r6
	ldr	r1, [sp, #20]                   @ 4-byte Reload
	ldr	r2, [sp, #16]                   @ 4-byte Reload
	bl	aes_v6m_small.cmac.tags.tag_at_end
	movs	r2, #16
	ldr	r0, [sp, #24]                   @ 4-byte Reload
	mov	r1, r6
	bl	memcpy
	add	sp, #60
	pop	{r4, r5, r6, r7, pc}
.Laes_v6m_small_func_end41:
	.size	aes_v6m_small.cmac.tags.tag, .Laes_v6m_small_func_end41-aes_v6m_small.cmac.tags.tag
	.cantunwind
	.fnend
                                        @ -- End function
	.section	.text.aes_v6m_small.cmac.chaining.chain,"ax",%progbits
	.p2align	1                               @ -- Begin function cmac::chaining::chain::<#4f733d09d7f6c6b4>
	.type	aes_v6m_small.cmac.chaining.chain,%function
	.code	16
	.thumb_func
aes_v6m_small.cmac.chaining.chain: @ @aes_v6m_small.cmac.chaining.chain
	.fnstart
@ %bb.0:                                @ %start
	.save	{r4, r5, r6, r7, lr}
	push	{r4, r5, r6, r7, lr}
	.pad	#172
	sub	sp, #172
	str	r2, [sp, #28]                   @ 4-byte Spill
	mov	r5, r1
	str	r0, [sp, #24]                   @ 4-byte Spill
	ldr	r2, [sp, #196]
	lsls	r0, r2, #28
	ldr	r3, [sp, #192]
	lsrs	r1, r3, #4
	adds	r1, r1, r0
	str	r2, [sp, #40]                   @ 4-byte Spill
	lsrs	r0, r2, #4
	movs	r7, #0
	adds	r2, r1, #1
	str	r2, [sp, #36]                   @ 4-byte Spill
	mov	r2, r0
	adcs	r2, r7
	str	r2, [sp, #32]                   @ 4-byte Spill
	str	r3, [sp, #44]                   @ 4-byte Spill
	lsls	r2, r3, #28
	cmp	r2, #0
	bne	.Laes_v6m_small_BB42_2
@ %bb.1:                                @ %start
	str	r1, [sp, #36]                   @ 4-byte Spill
.Laes_v6m_small_BB42_2:                               @ %start
	bne	.Laes_v6m_small_BB42_4
@ %bb.3:                                @ %start
	str	r0, [sp, #32]                   @ 4-byte Spill
.Laes_v6m_small_BB42_4:                               @ %start
	ldr	r0, [sp, #44]                   @ 4-byte Reload
	ldr	r1, [sp, #40]                   @ 4-byte Reload
	orrs	r0, r1
	bne	.Laes_v6m_small_BB42_5
	b	.Laes_v6m_small_BB42_9
.Laes_v6m_small_BB42_5:                               @ %join.5.lr.ph
	mov	r4, r7
	mov	r6, r7
	str	r7, [sp, #20]                   @ 4-byte Spill
	b	.Laes_v6m_small_BB42_7
.Laes_v6m_small_BB42_6:                               @ %join.5
                                        @   in Loop: Header=BB42_7 Depth=1
	subs	r2, r1, r0
	ldr	r1, [sp, #28]                   @ 4-byte Reload
	adds	r1, r1, r0
	add	r7, sp, #156
	mov	r0, r7
	bl	memcpy
	ldrb	r0, [r5, #15]
	ldrb	r1, [r7, #15]
	eors	r1, r0
	str	r1, [sp, #76]                   @ 4-byte Spill
	ldrb	r0, [r5]
	str	r0, [sp, #144]                  @ 4-byte Spill
	ldrb	r0, [r5, #1]
	str	r0, [sp, #140]                  @ 4-byte Spill
	ldrb	r0, [r7, #1]
	str	r0, [sp, #136]                  @ 4-byte Spill
	ldrb	r0, [r5, #2]
	str	r0, [sp, #132]                  @ 4-byte Spill
	ldrb	r0, [r7, #2]
	str	r0, [sp, #128]                  @ 4-byte Spill
	ldrb	r0, [r5, #3]
	str	r0, [sp, #124]                  @ 4-byte Spill
	ldrb	r0, [r7, #3]
	str	r0, [sp, #120]                  @ 4-byte Spill
	ldrb	r0, [r5, #4]
	str	r0, [sp, #116]                  @ 4-byte Spill
	ldrb	r0, [r5, #5]
	str	r0, [sp, #112]                  @ 4-byte Spill
	ldrb	r0, [r7, #5]
	str	r0, [sp, #108]                  @ 4-byte Spill
	ldrb	r0, [r5, #6]
	str	r0, [sp, #100]                  @ 4-byte Spill
	ldrb	r0, [r7, #6]
	str	r0, [sp, #96]                   @ 4-byte Spill
	ldrb	r0, [r5, #7]
	str	r0, [sp, #92]                   @ 4-byte Spill
	ldrb	r0, [r7, #7]
	str	r0, [sp, #88]                   @ 4-byte Spill
	ldrb	r0, [r5, #8]
	str	r0, [sp, #84]                   @ 4-byte Spill
	ldrb	r0, [r5, #9]
	str	r0, [sp, #80]                   @ 4-byte Spill
	ldrb	r0, [r7, #9]
	str	r0, [sp, #68]                   @ 4-byte Spill
	ldrb	r0, [r5, #10]
	str	r0, [sp, #64]                   @ 4-byte Spill
	ldrb	r6, [r7, #10]
	ldrb	r0, [r5, #11]
	str	r0, [sp, #60]                   @ 4-byte Spill
	ldrb	r3, [r7, #11]
	ldrb	r0, [r5, #12]
	str	r0, [sp, #56]                   @ 4-byte Spill
	ldrb	r0, [r5, #13]
	str	r0, [sp, #52]                   @ 4-byte Spill
	ldrb	r2, [r7, #13]
	ldrb	r0, [r5, #14]
	str	r0, [sp, #48]                   @ 4-byte Spill
	ldrb	r0, [r7, #14]
	ldr	r1, [sp, #156]
	str	r1, [sp, #104]                  @ 4-byte Spill
	ldr	r1, [sp, #160]
	str	r1, [sp, #72]                   @ 4-byte Spill
	ldr	r4, [sp, #164]
	ldr	r1, [sp, #168]
	ldr	r7, [sp, #76]                   @ 4-byte Reload
	strb	r7, [r5, #15]
	ldr	r7, [sp, #48]                   @ 4-byte Reload
	eors	r0, r7
	strb	r0, [r5, #14]
	ldr	r0, [sp, #52]                   @ 4-byte Reload
	eors	r2, r0
	strb	r2, [r5, #13]
	ldr	r0, [sp, #56]                   @ 4-byte Reload
	eors	r1, r0
	strb	r1, [r5, #12]
	ldr	r0, [sp, #60]                   @ 4-byte Reload
	eors	r3, r0
	strb	r3, [r5, #11]
	ldr	r0, [sp, #64]                   @ 4-byte Reload
	eors	r6, r0
	strb	r6, [r5, #10]
	ldr	r0, [sp, #80]                   @ 4-byte Reload
	ldr	r1, [sp, #68]                   @ 4-byte Reload
	eors	r1, r0
	strb	r1, [r5, #9]
	ldr	r0, [sp, #84]                   @ 4-byte Reload
	eors	r4, r0
	strb	r4, [r5, #8]
	ldr	r0, [sp, #92]                   @ 4-byte Reload
	ldr	r1, [sp, #88]                   @ 4-byte Reload
	eors	r1, r0
	strb	r1, [r5, #7]
	ldr	r0, [sp, #100]                  @ 4-byte Reload
	ldr	r1, [sp, #96]                   @ 4-byte Reload
	eors	r1, r0
	strb	r1, [r5, #6]
	ldr	r0, [sp, #112]                  @ 4-byte Reload
	ldr	r1, [sp, #108]                  @ 4-byte Reload
	eors	r1, r0
	strb	r1, [r5, #5]
	ldr	r0, [sp, #116]                  @ 4-byte Reload
	ldr	r1, [sp, #72]                   @ 4-byte Reload
	eors	r1, r0
	strb	r1, [r5, #4]
	ldr	r0, [sp, #124]                  @ 4-byte Reload
	ldr	r1, [sp, #120]                  @ 4-byte Reload
	eors	r1, r0
	strb	r1, [r5, #3]
	ldr	r0, [sp, #132]                  @ 4-byte Reload
	ldr	r1, [sp, #128]                  @ 4-byte Reload
	eors	r1, r0
	strb	r1, [r5, #2]
	ldr	r0, [sp, #140]                  @ 4-byte Reload
	ldr	r1, [sp, #136]                  @ 4-byte Reload
	eors	r1, r0
	strb	r1, [r5, #1]
	ldr	r0, [sp, #144]                  @ 4-byte Reload
	ldr	r1, [sp, #104]                  @ 4-byte Reload
	eors	r1, r0
	strb	r1, [r5]
	ldr	r0, [sp, #24]                   @ 4-byte Reload
	ldrb	r1, [r0, #15]
	str	r1, [sp, #144]                  @ 4-byte Spill
	ldrb	r1, [r0, #14]
	str	r1, [sp, #140]                  @ 4-byte Spill
	ldrb	r1, [r0, #12]
	str	r1, [sp, #136]                  @ 4-byte Spill
	ldrb	r1, [r0, #13]
	str	r1, [sp, #132]                  @ 4-byte Spill
	ldrb	r1, [r0, #11]
	str	r1, [sp, #128]                  @ 4-byte Spill
	ldrb	r1, [r0, #10]
	str	r1, [sp, #124]                  @ 4-byte Spill
	ldrb	r6, [r0, #8]
	ldrb	r4, [r0, #9]
	ldrb	r3, [r0, #3]
	ldrb	r2, [r0, #2]
	ldrb	r1, [r0]
	ldrb	r0, [r0, #1]
	movs	r7, #1
	str	r7, [sp, #8]
	ldr	r7, [sp, #20]                   @ 4-byte Reload
	str	r7, [sp, #12]
	str	r5, [sp]
	lsls	r0, r0, #8
	adds	r0, r0, r1
	lsls	r1, r2, #16
	lsls	r2, r3, #24
	adds	r1, r2, r1
	adds	r0, r1, r0
	lsls	r1, r4, #8
	adds	r1, r1, r6
	ldr	r2, [sp, #124]                  @ 4-byte Reload
	lsls	r2, r2, #16
	ldr	r3, [sp, #128]                  @ 4-byte Reload
	lsls	r3, r3, #24
	adds	r2, r3, r2
	adds	r2, r2, r1
	ldr	r1, [sp, #132]                  @ 4-byte Reload
	lsls	r1, r1, #8
	ldr	r3, [sp, #136]                  @ 4-byte Reload
	adds	r1, r1, r3
	ldr	r3, [sp, #140]                  @ 4-byte Reload
	lsls	r3, r3, #16
	ldr	r4, [sp, #144]                  @ 4-byte Reload
	lsls	r4, r4, #24
	adds	r3, r4, r3
	adds	r3, r3, r1
	bl	aes_v6m_small.aes_narrow.blocks.process_all_batches.1
	ldr	r4, [sp, #152]                  @ 4-byte Reload
	adds	r4, r4, #1
	ldr	r6, [sp, #148]                  @ 4-byte Reload
	adcs	r6, r7
	bl	aes_v6m_small.aes_cipher.zeroize.stack.wipe_stack.1024
	ldr	r0, [sp, #36]                   @ 4-byte Reload
	subs	r0, r4, r0
	mov	r0, r6
	ldr	r1, [sp, #32]                   @ 4-byte Reload
	sbcs	r0, r1
	bhs	.Laes_v6m_small_BB42_9
.Laes_v6m_small_BB42_7:                               @ %join.5
                                        @ =>This Inner Loop Header: Depth=1
	str	r7, [sp, #168]
	str	r7, [sp, #164]
	str	r7, [sp, #160]
	str	r7, [sp, #156]
	lsrs	r0, r4, #28
	str	r6, [sp, #148]                  @ 4-byte Spill
	lsls	r1, r6, #4
	adds	r2, r1, r0
	str	r4, [sp, #152]                  @ 4-byte Spill
	lsls	r0, r4, #4
	mov	r1, r0
	adds	r1, #16
	adcs	r2, r7
	ldr	r3, [sp, #44]                   @ 4-byte Reload
	subs	r3, r1, r3
	ldr	r3, [sp, #40]                   @ 4-byte Reload
	sbcs	r2, r3
	bhs	.Laes_v6m_small_BB42_8
	b	.Laes_v6m_small_BB42_6
.Laes_v6m_small_BB42_8:                               @ %join.5
                                        @   in Loop: Header=BB42_7 Depth=1
	ldr	r1, [sp, #44]                   @ 4-byte Reload
	b	.Laes_v6m_small_BB42_6
.Laes_v6m_small_BB42_9:                               @ %after.1
	add	sp, #172
	pop	{r4, r5, r6, r7, pc}
.Laes_v6m_small_func_end42:
	.size	aes_v6m_small.cmac.chaining.chain, .Laes_v6m_small_func_end42-aes_v6m_small.cmac.chaining.chain
	.cantunwind
	.fnend
                                        @ -- End function
	.section	.text.aes_v6m_small.cmac.tags.tag_at_end,"ax",%progbits
	.p2align	1                               @ -- Begin function cmac::tags::tag_at_end::<#4f733d09d7f6c6b4>
	.type	aes_v6m_small.cmac.tags.tag_at_end,%function
	.code	16
	.thumb_func
aes_v6m_small.cmac.tags.tag_at_end: @ @aes_v6m_small.cmac.tags.tag_at_end
	.fnstart
@ %bb.0:                                @ %start
	.save	{r4, r5, r6, r7, lr}
	push	{r4, r5, r6, r7, lr}
	.pad	#140
	sub	sp, #140
	str	r3, [sp, #68]                   @ 4-byte Spill
	str	r2, [sp, #76]                   @ 4-byte Spill
	mov	r4, r1
	str	r0, [sp, #88]                   @ 4-byte Spill
	movs	r5, #0
	str	r5, [sp, #136]
	str	r5, [sp, #132]
	str	r5, [sp, #128]
	str	r5, [sp, #124]
	ldrb	r0, [r1, #15]
	str	r0, [sp, #84]                   @ 4-byte Spill
	ldrb	r0, [r1, #14]
	str	r0, [sp, #64]                   @ 4-byte Spill
	ldrb	r0, [r1, #12]
	str	r0, [sp, #60]                   @ 4-byte Spill
	ldrb	r0, [r1, #13]
	str	r0, [sp, #56]                   @ 4-byte Spill
	ldrb	r0, [r1, #11]
	str	r0, [sp, #52]                   @ 4-byte Spill
	ldrb	r0, [r1, #10]
	str	r0, [sp, #48]                   @ 4-byte Spill
	ldrb	r7, [r1, #8]
	ldrb	r6, [r1, #9]
	ldrb	r3, [r1, #3]
	ldrb	r2, [r1, #2]
	ldrb	r1, [r1]
	str	r4, [sp, #80]                   @ 4-byte Spill
	ldrb	r0, [r4, #1]
	movs	r4, #1
	str	r4, [sp, #72]                   @ 4-byte Spill
	str	r4, [sp, #8]
	str	r5, [sp, #12]
	add	r4, sp, #124
	str	r4, [sp]
	lsls	r0, r0, #8
	adds	r0, r0, r1
	lsls	r1, r2, #16
	lsls	r2, r3, #24
	adds	r1, r2, r1
	adds	r0, r1, r0
	lsls	r1, r6, #8
	adds	r1, r1, r7
	ldr	r2, [sp, #48]                   @ 4-byte Reload
	lsls	r2, r2, #16
	ldr	r3, [sp, #52]                   @ 4-byte Reload
	lsls	r3, r3, #24
	adds	r2, r3, r2
	adds	r2, r2, r1
	ldr	r1, [sp, #56]                   @ 4-byte Reload
	lsls	r1, r1, #8
	ldr	r3, [sp, #60]                   @ 4-byte Reload
	adds	r1, r1, r3
	ldr	r3, [sp, #64]                   @ 4-byte Reload
	lsls	r3, r3, #16
	ldr	r6, [sp, #84]                   @ 4-byte Reload
	lsls	r6, r6, #24
	adds	r3, r6, r3
	adds	r3, r3, r1
	bl	aes_v6m_small.aes_narrow.blocks.process_all_batches.1
	bl	aes_v6m_small.aes_cipher.zeroize.stack.wipe_stack.1024
	str	r5, [sp, #108]
	str	r5, [sp, #112]
	str	r5, [sp, #116]
	str	r5, [sp, #84]                   @ 4-byte Spill
	str	r5, [sp, #120]
	ldrb	r0, [r4, #11]
	str	r0, [sp, #64]                   @ 4-byte Spill
	ldrb	r0, [r4, #10]
	str	r0, [sp, #60]                   @ 4-byte Spill
	ldrb	r0, [r4, #9]
	str	r0, [sp, #56]                   @ 4-byte Spill
	ldrb	r0, [r4, #3]
	str	r0, [sp, #52]                   @ 4-byte Spill
	ldrb	r0, [r4, #2]
	str	r0, [sp, #48]                   @ 4-byte Spill
	ldrb	r0, [r4, #1]
	str	r0, [sp, #44]                   @ 4-byte Spill
	ldr	r0, [sp, #136]
	str	r0, [sp, #40]                   @ 4-byte Spill
	ldr	r0, [sp, #124]
	str	r0, [sp, #36]                   @ 4-byte Spill
	ldr	r7, [sp, #128]
	ldr	r6, [sp, #132]
	add	r0, sp, #108
	ldr	r4, [sp, #160]
	ldr	r1, [sp, #68]                   @ 4-byte Reload
	mov	r2, r4
	bl	memcpy
	lsls	r0, r6, #24
	lsrs	r2, r0, #31
	rev	r1, r7
	lsls	r3, r1, #1
	adds	r5, r3, r2
	ldr	r2, [sp, #36]                   @ 4-byte Reload
	lsls	r7, r2, #24
	asrs	r2, r7, #31
	movs	r3, #135
	str	r3, [sp, #24]                   @ 4-byte Spill
	ands	r2, r3
	ldr	r3, [sp, #40]                   @ 4-byte Reload
	rev	r6, r3
	lsls	r3, r6, #1
	eors	r3, r2
	ldr	r2, [sp, #44]                   @ 4-byte Reload
	lsls	r2, r2, #16
	adds	r2, r2, r7
	ldr	r7, [sp, #48]                   @ 4-byte Reload
	lsls	r7, r7, #8
	adds	r2, r2, r7
	ldr	r7, [sp, #52]                   @ 4-byte Reload
	adds	r2, r2, r7
	lsls	r2, r2, #1
	lsrs	r1, r1, #31
	adds	r7, r2, r1
	ldr	r1, [sp, #56]                   @ 4-byte Reload
	lsls	r1, r1, #16
	adds	r0, r1, r0
	ldr	r1, [sp, #60]                   @ 4-byte Reload
	lsls	r1, r1, #8
	adds	r0, r0, r1
	ldr	r1, [sp, #64]                   @ 4-byte Reload
	adds	r0, r0, r1
	lsls	r0, r0, #1
	lsrs	r1, r6, #31
	adds	r1, r0, r1
	movs	r0, #16
	eors	r0, r4
	ldr	r2, [sp, #164]
	orrs	r2, r0
	bne	.Laes_v6m_small_BB43_2
@ %bb.1:                                @ %then.1.i
	add	r4, sp, #108
	ldrb	r0, [r4, #15]
	eors	r0, r3
	lsrs	r2, r3, #16
	mov	r6, r5
	ldrb	r5, [r4, #13]
	eors	r5, r2
	str	r5, [sp, #68]                   @ 4-byte Spill
	lsrs	r2, r3, #24
	ldr	r5, [sp, #120]
	eors	r5, r2
	str	r5, [sp, #64]                   @ 4-byte Spill
	ldrb	r2, [r4, #11]
	eors	r2, r1
	str	r2, [sp, #60]                   @ 4-byte Spill
	ldrb	r2, [r4, #14]
	uxth	r3, r3
	lsrs	r3, r3, #8
	eors	r3, r2
	str	r3, [sp, #56]                   @ 4-byte Spill
	ldrb	r2, [r4, #9]
	lsrs	r3, r1, #16
	eors	r3, r2
	str	r3, [sp, #52]                   @ 4-byte Spill
	lsrs	r2, r1, #24
	ldr	r3, [sp, #116]
	eors	r3, r2
	str	r3, [sp, #48]                   @ 4-byte Spill
	ldrb	r2, [r4, #7]
	eors	r2, r6
	str	r2, [sp, #44]                   @ 4-byte Spill
	ldrb	r2, [r4, #10]
	uxth	r1, r1
	lsrs	r1, r1, #8
	eors	r1, r2
	str	r1, [sp, #40]                   @ 4-byte Spill
	ldrb	r1, [r4, #5]
	lsrs	r2, r6, #16
	eors	r2, r1
	str	r2, [sp, #36]                   @ 4-byte Spill
	lsrs	r1, r6, #24
	ldr	r2, [sp, #112]
	eors	r2, r1
	str	r2, [sp, #32]                   @ 4-byte Spill
	ldrb	r1, [r4, #3]
	eors	r1, r7
	str	r1, [sp, #28]                   @ 4-byte Spill
	ldrb	r2, [r4, #6]
	uxth	r1, r6
	lsrs	r1, r1, #8
	eors	r1, r2
	ldrb	r3, [r4, #1]
	lsrs	r2, r7, #16
	eors	r2, r3
	lsrs	r6, r7, #24
	ldr	r3, [sp, #108]
	eors	r3, r6
	ldrb	r6, [r4, #2]
	uxth	r4, r7
	lsrs	r4, r4, #8
	eors	r4, r6
	b	.Laes_v6m_small_BB43_3
.Laes_v6m_small_BB43_2:                               @ %else.2.i
	add	r0, sp, #108
	movs	r2, #128
	strb	r2, [r0, r4]
	lsrs	r2, r3, #7
	uxtb	r2, r2
	ldrb	r4, [r0, #14]
	eors	r4, r2
	str	r4, [sp, #56]                   @ 4-byte Spill
	lsls	r6, r3, #1
	str	r6, [sp, #20]                   @ 4-byte Spill
	lsrs	r2, r6, #16
	ldrb	r4, [r0, #13]
	eors	r4, r2
	str	r4, [sp, #68]                   @ 4-byte Spill
	lsrs	r2, r6, #24
	ldr	r4, [sp, #120]
	eors	r4, r2
	str	r4, [sp, #64]                   @ 4-byte Spill
	lsrs	r2, r3, #31
	lsls	r3, r1, #1
	adds	r2, r3, r2
	ldrb	r4, [r0, #11]
	eors	r4, r2
	str	r4, [sp, #60]                   @ 4-byte Spill
	ldrb	r2, [r0, #10]
	lsrs	r4, r1, #7
	uxtb	r4, r4
	eors	r4, r2
	str	r4, [sp, #40]                   @ 4-byte Spill
	ldrb	r2, [r0, #9]
	lsrs	r4, r3, #16
	eors	r4, r2
	str	r4, [sp, #52]                   @ 4-byte Spill
	lsrs	r2, r3, #24
	ldr	r3, [sp, #116]
	eors	r3, r2
	str	r3, [sp, #48]                   @ 4-byte Spill
	lsrs	r1, r1, #31
	lsls	r2, r5, #1
	adds	r1, r2, r1
	ldrb	r3, [r0, #7]
	eors	r3, r1
	str	r3, [sp, #44]                   @ 4-byte Spill
	ldrb	r3, [r0, #6]
	lsrs	r1, r5, #7
	uxtb	r1, r1
	eors	r1, r3
	ldrb	r3, [r0, #5]
	lsrs	r4, r2, #16
	eors	r4, r3
	str	r4, [sp, #36]                   @ 4-byte Spill
	lsrs	r2, r2, #24
	ldr	r3, [sp, #112]
	eors	r3, r2
	str	r3, [sp, #32]                   @ 4-byte Spill
	lsrs	r2, r5, #31
	lsls	r3, r7, #1
	adds	r2, r3, r2
	ldrb	r4, [r0, #3]
	eors	r4, r2
	str	r4, [sp, #28]                   @ 4-byte Spill
	ldrb	r2, [r0, #2]
	lsrs	r4, r7, #7
	uxtb	r4, r4
	eors	r4, r2
	ldrb	r6, [r0, #1]
	lsrs	r2, r3, #16
	eors	r2, r6
	lsrs	r6, r3, #24
	ldr	r3, [sp, #108]
	eors	r3, r6
	asrs	r6, r7, #31
	ldr	r5, [sp, #24]                   @ 4-byte Reload
	ands	r6, r5
	ldr	r5, [sp, #20]                   @ 4-byte Reload
	eors	r6, r5
	ldrb	r0, [r0, #15]
	eors	r0, r6
.Laes_v6m_small_BB43_3:                               @ %"cmac::tags::last_block::<#4f733d09d7f6c6b4>.exit"
	ldr	r5, [sp, #76]                   @ 4-byte Reload
	ldrb	r6, [r5, #15]
	eors	r6, r0
	add	r7, sp, #92
	strb	r6, [r7, #15]
	ldrb	r0, [r5, #14]
	ldr	r6, [sp, #56]                   @ 4-byte Reload
	eors	r0, r6
	strb	r0, [r7, #14]
	ldrb	r0, [r5, #13]
	ldr	r6, [sp, #68]                   @ 4-byte Reload
	eors	r0, r6
	strb	r0, [r7, #13]
	ldrb	r0, [r5, #12]
	ldr	r6, [sp, #64]                   @ 4-byte Reload
	eors	r0, r6
	strb	r0, [r7, #12]
	ldrb	r0, [r5, #11]
	ldr	r6, [sp, #60]                   @ 4-byte Reload
	eors	r0, r6
	strb	r0, [r7, #11]
	ldrb	r0, [r5, #10]
	ldr	r6, [sp, #40]                   @ 4-byte Reload
	eors	r0, r6
	strb	r0, [r7, #10]
	ldrb	r0, [r5, #9]
	ldr	r6, [sp, #52]                   @ 4-byte Reload
	eors	r0, r6
	strb	r0, [r7, #9]
	ldrb	r0, [r5, #8]
	ldr	r6, [sp, #48]                   @ 4-byte Reload
	eors	r0, r6
	strb	r0, [r7, #8]
	ldrb	r0, [r5, #7]
	ldr	r6, [sp, #44]                   @ 4-byte Reload
	eors	r0, r6
	strb	r0, [r7, #7]
	ldrb	r0, [r5, #6]
	eors	r0, r1
	strb	r0, [r7, #6]
	ldrb	r0, [r5, #5]
	ldr	r1, [sp, #36]                   @ 4-byte Reload
	eors	r0, r1
	strb	r0, [r7, #5]
	ldrb	r0, [r5, #4]
	ldr	r1, [sp, #32]                   @ 4-byte Reload
	eors	r0, r1
	strb	r0, [r7, #4]
	ldrb	r0, [r5, #3]
	ldr	r1, [sp, #28]                   @ 4-byte Reload
	eors	r0, r1
	strb	r0, [r7, #3]
	ldrb	r0, [r5, #2]
	eors	r0, r4
	strb	r0, [r7, #2]
	ldrb	r0, [r5, #1]
	eors	r0, r2
	strb	r0, [r7, #1]
	ldrb	r0, [r5]
	eors	r0, r3
	strb	r0, [r7]
	ldr	r5, [sp, #80]                   @ 4-byte Reload
	ldrb	r0, [r5, #15]
	str	r0, [sp, #76]                   @ 4-byte Spill
	ldrb	r0, [r5, #14]
	str	r0, [sp, #68]                   @ 4-byte Spill
	ldrb	r0, [r5, #12]
	str	r0, [sp, #64]                   @ 4-byte Spill
	ldrb	r0, [r5, #13]
	str	r0, [sp, #60]                   @ 4-byte Spill
	ldrb	r0, [r5, #11]
	str	r0, [sp, #56]                   @ 4-byte Spill
	ldrb	r0, [r5, #10]
	str	r0, [sp, #52]                   @ 4-byte Spill
	ldrb	r4, [r5, #8]
	ldrb	r3, [r5, #9]
	ldrb	r2, [r5, #3]
	ldrb	r1, [r5, #2]
	ldrb	r0, [r5]
	ldrb	r5, [r5, #1]
	ldr	r6, [sp, #72]                   @ 4-byte Reload
	str	r6, [sp, #8]
	ldr	r6, [sp, #84]                   @ 4-byte Reload
	str	r6, [sp, #12]
	str	r7, [sp]
	lsls	r5, r5, #8
	adds	r0, r5, r0
	lsls	r1, r1, #16
	lsls	r2, r2, #24
	adds	r1, r2, r1
	adds	r0, r1, r0
	lsls	r1, r3, #8
	adds	r1, r1, r4
	ldr	r2, [sp, #52]                   @ 4-byte Reload
	lsls	r2, r2, #16
	ldr	r3, [sp, #56]                   @ 4-byte Reload
	lsls	r3, r3, #24
	adds	r2, r3, r2
	adds	r2, r2, r1
	ldr	r1, [sp, #60]                   @ 4-byte Reload
	lsls	r1, r1, #8
	ldr	r3, [sp, #64]                   @ 4-byte Reload
	adds	r1, r1, r3
	ldr	r3, [sp, #68]                   @ 4-byte Reload
	lsls	r3, r3, #16
	ldr	r4, [sp, #76]                   @ 4-byte Reload
	lsls	r4, r4, #24
	adds	r3, r4, r3
	adds	r3, r3, r1
	bl	aes_v6m_small.aes_narrow.blocks.process_all_batches.1
	bl	aes_v6m_small.aes_cipher.zeroize.stack.wipe_stack.1024
	movs	r2, #16
	ldr	r0, [sp, #88]                   @ 4-byte Reload
	mov	r1, r7
	bl	memcpy
	add	sp, #140
	pop	{r4, r5, r6, r7, pc}
.Laes_v6m_small_func_end43:
	.size	aes_v6m_small.cmac.tags.tag_at_end, .Laes_v6m_small_func_end43-aes_v6m_small.cmac.tags.tag_at_end
	.cantunwind
	.fnend
                                        @ -- End function
	.section	.text.aes_v6m_small.cmac.pieces.MessageZeroize.zeroize,"ax",%progbits
	.p2align	1                               @ -- Begin function cmac::pieces::MessageZeroize::zeroize
	.type	aes_v6m_small.cmac.pieces.MessageZeroize.zeroize,%function
	.code	16
	.thumb_func
aes_v6m_small.cmac.pieces.MessageZeroize.zeroize: @ @aes_v6m_small.cmac.pieces.MessageZeroize.zeroize
	.fnstart
@ %bb.0:                                @ %start
	.save	{r4, lr}
	push	{r4, lr}
	mov	r4, r0
	movs	r0, #0
	str	r0, [r4]
	str	r0, [r4, #4]
	str	r0, [r4, #8]
	str	r0, [r4, #12]
	mov	r0, r4
	adds	r0, #16
	bl	aes_v6m_small.aes_cipher.zeroize.elements.zeroize_elements.2
	adds	r4, #32
	mov	r0, r4
	bl	aes_v6m_small.aes_cipher.zeroize.elements.zeroize_elements.2
	pop	{r4, pc}
.Laes_v6m_small_func_end44:
	.size	aes_v6m_small.cmac.pieces.MessageZeroize.zeroize, .Laes_v6m_small_func_end44-aes_v6m_small.cmac.pieces.MessageZeroize.zeroize
	.cantunwind
	.fnend
                                        @ -- End function
	.section	.text.aes_v6m_small.aes_cipher.zeroize.elements.zeroize_elements.2,"ax",%progbits
	.p2align	1                               @ -- Begin function aes_cipher::zeroize::elements::zeroize_elements::<#331496ca003a3905>
	.type	aes_v6m_small.aes_cipher.zeroize.elements.zeroize_elements.2,%function
	.code	16
	.thumb_func
aes_v6m_small.aes_cipher.zeroize.elements.zeroize_elements.2: @ @aes_v6m_small.aes_cipher.zeroize.elements.zeroize_elements.2
	.fnstart
@ %bb.0:                                @ %start
	.save	{r4, lr}
	push	{r4, lr}
	.pad	#8
	sub	sp, #8
	movs	r4, #0
	str	r4, [sp, #4]
	str	r4, [sp]
	@APP
	@NO_APP
	ldr	r1, [sp, #4]
	ldr	r1, [sp]
	@APP
	@NO_APP
	movs	r2, #16
	mov	r1, r4
	bl	memset
	@APP
	@NO_APP
	ldr	r0, [sp, #4]
	ldr	r0, [sp]
	str	r4, [sp, #4]
	str	r4, [sp]
	@APP
	@NO_APP
	add	sp, #8
	pop	{r4, pc}
.Laes_v6m_small_func_end45:
	.size	aes_v6m_small.aes_cipher.zeroize.elements.zeroize_elements.2, .Laes_v6m_small_func_end45-aes_v6m_small.aes_cipher.zeroize.elements.zeroize_elements.2
	.cantunwind
	.fnend
                                        @ -- End function
	.section	.text.aes_v6m_small.cmac.chain_in_pieces.ChainInPieces.extend,"ax",%progbits
	.p2align	1                               @ -- Begin function cmac::chain_in_pieces::ChainInPieces::extend::<#4f733d09d7f6c6b4>
	.type	aes_v6m_small.cmac.chain_in_pieces.ChainInPieces.extend,%function
	.code	16
	.thumb_func
aes_v6m_small.cmac.chain_in_pieces.ChainInPieces.extend: @ @aes_v6m_small.cmac.chain_in_pieces.ChainInPieces.extend
	.fnstart
@ %bb.0:                                @ %start
	.save	{r4, r5, r6, r7, lr}
	push	{r4, r5, r6, r7, lr}
	.pad	#60
	sub	sp, #60
	str	r1, [sp, #36]                   @ 4-byte Spill
	mov	r5, r0
	ldr	r4, [r0]
	movs	r0, #16
	cmp	r4, #16
	blo	.Laes_v6m_small_BB46_2
@ %bb.1:                                @ %start
	mov	r4, r0
.Laes_v6m_small_BB46_2:                               @ %start
	ldr	r1, [r5, #4]
	cmp	r1, #0
	beq	.Laes_v6m_small_BB46_4
@ %bb.3:                                @ %start
	mov	r4, r0
.Laes_v6m_small_BB46_4:                               @ %start
	movs	r6, #0
	subs	r0, r0, r4
	mov	r1, r6
	sbcs	r1, r6
	ldr	r3, [sp, #84]
	ldr	r7, [sp, #80]
	str	r0, [sp, #56]                   @ 4-byte Spill
	subs	r0, r0, r7
	mov	r0, r1
	sbcs	r0, r3
	str	r3, [sp, #28]                   @ 4-byte Spill
	bhs	.Laes_v6m_small_BB46_13
@ %bb.5:                                @ %join.3
	str	r7, [sp, #16]                   @ 4-byte Spill
	str	r5, [sp, #40]                   @ 4-byte Spill
	ldr	r5, [sp, #56]                   @ 4-byte Reload
	subs	r0, r7, r5
	str	r0, [sp, #32]                   @ 4-byte Spill
	mov	r0, r3
	sbcs	r0, r1
	str	r0, [sp, #44]                   @ 4-byte Spill
	adds	r0, r2, r5
	str	r0, [sp, #24]                   @ 4-byte Spill
	ldr	r7, [sp, #40]                   @ 4-byte Reload
	adds	r7, #24
	adds	r0, r7, r4
	str	r4, [sp, #20]                   @ 4-byte Spill
	subs	r3, r0, r2
	str	r3, [sp, #52]                   @ 4-byte Spill
	mov	r5, r6
	sbcs	r5, r6
	ldr	r4, [sp, #56]                   @ 4-byte Reload
	ldr	r3, [sp, #52]                   @ 4-byte Reload
	subs	r4, r3, r4
	sbcs	r5, r1
	blo	.Laes_v6m_small_BB46_6
	b	.Laes_v6m_small_BB46_21
.Laes_v6m_small_BB46_6:                               @ %join.7.i.i.i.i.i.i39.preheader
	movs	r1, #3
	ldr	r3, [sp, #56]                   @ 4-byte Reload
	str	r1, [sp, #52]                   @ 4-byte Spill
	ands	r3, r1
	movs	r4, #0
	ldr	r1, [sp, #20]                   @ 4-byte Reload
	subs	r1, #13
	mov	r5, r4
	sbcs	r5, r4
	subs	r1, r1, #3
	sbcs	r5, r4
	blo	.Laes_v6m_small_BB46_10
@ %bb.7:                                @ %join.7.i.i.i.i.i.i39.preheader.new
	str	r3, [sp, #12]                   @ 4-byte Spill
	movs	r1, #28
	ldr	r3, [sp, #56]                   @ 4-byte Reload
	ands	r3, r1
	str	r3, [sp, #56]                   @ 4-byte Spill
	movs	r5, #0
	mov	r4, r5
	str	r5, [sp, #48]                   @ 4-byte Spill
.Laes_v6m_small_BB46_8:                               @ %join.7.i.i.i.i.i.i39
                                        @ =>This Inner Loop Header: Depth=1
	ldrb	r1, [r2, r4]
	strb	r1, [r0, r4]
	movs	r1, #1
	orrs	r1, r4
	ldrb	r3, [r2, r1]
	strb	r3, [r0, r1]
	movs	r1, #2
	orrs	r1, r4
	ldrb	r3, [r2, r1]
	strb	r3, [r0, r1]
	mov	r1, r4
	ldr	r3, [sp, #52]                   @ 4-byte Reload
	orrs	r1, r3
	ldrb	r3, [r2, r1]
	strb	r3, [r0, r1]
	adds	r4, r4, #4
	ldr	r1, [sp, #48]                   @ 4-byte Reload
	adcs	r5, r1
	mov	r1, r4
	ldr	r3, [sp, #56]                   @ 4-byte Reload
	eors	r1, r3
	orrs	r1, r5
	bne	.Laes_v6m_small_BB46_8
@ %bb.9:                                @ %"core::slice::edits::slice+T::copy_from_slice::<i8,20'core::clone::U8Clone{}>.exit46.loopexit.unr-lcssa"
	ldr	r3, [sp, #12]                   @ 4-byte Reload
	cmp	r3, #0
	beq	.Laes_v6m_small_BB46_22
.Laes_v6m_small_BB46_10:                              @ %join.7.i.i.i.i.i.i39.epil.preheader
	ldrb	r1, [r2, r4]
	strb	r1, [r0, r4]
	cmp	r3, #1
	beq	.Laes_v6m_small_BB46_22
@ %bb.11:                               @ %join.7.i.i.i.i.i.i39.epil.1
	adds	r1, r4, #1
	mov	r5, r3
	ldrb	r3, [r2, r1]
	strb	r3, [r0, r1]
	cmp	r5, #2
	beq	.Laes_v6m_small_BB46_22
@ %bb.12:                               @ %join.7.i.i.i.i.i.i39.epil.2
	adds	r1, r4, #2
	ldrb	r2, [r2, r1]
	strb	r2, [r0, r1]
	b	.Laes_v6m_small_BB46_22
.Laes_v6m_small_BB46_13:                              @ %then.1
	adds	r0, r4, r7
	str	r0, [sp, #36]                   @ 4-byte Spill
	mov	r1, r3
	adcs	r1, r6
	str	r1, [sp, #44]                   @ 4-byte Spill
	adds	r0, r5, r4
	adds	r0, #24
	subs	r1, r0, r2
	mov	r4, r3
	mov	r3, r6
	sbcs	r3, r6
	subs	r1, r1, r7
	sbcs	r3, r4
	blo	.Laes_v6m_small_BB46_14
	b	.Laes_v6m_small_BB46_30
.Laes_v6m_small_BB46_14:                              @ %join.7.i.i.i.i.i.i.preheader
	movs	r1, #3
	mov	r3, r7
	str	r1, [sp, #56]                   @ 4-byte Spill
	ands	r3, r1
	subs	r4, r7, #4
	ldr	r1, [sp, #28]                   @ 4-byte Reload
	sbcs	r1, r6
	ldr	r1, [sp, #36]                   @ 4-byte Reload
	blo	.Laes_v6m_small_BB46_18
@ %bb.15:                               @ %join.7.i.i.i.i.i.i.preheader.new
	str	r3, [sp, #52]                   @ 4-byte Spill
	str	r5, [sp, #40]                   @ 4-byte Spill
	ldr	r1, [sp, #56]                   @ 4-byte Reload
	bics	r7, r1
	movs	r5, #0
	mov	r6, r5
	mov	r4, r5
	mov	r3, r7
.Laes_v6m_small_BB46_16:                              @ %join.7.i.i.i.i.i.i
                                        @ =>This Inner Loop Header: Depth=1
	ldrb	r7, [r2, r6]
	strb	r7, [r0, r6]
	movs	r7, #1
	orrs	r7, r6
	ldrb	r1, [r2, r7]
	strb	r1, [r0, r7]
	movs	r1, #2
	orrs	r1, r6
	ldrb	r7, [r2, r1]
	strb	r7, [r0, r1]
	mov	r1, r6
	ldr	r7, [sp, #56]                   @ 4-byte Reload
	orrs	r1, r7
	ldrb	r7, [r2, r1]
	strb	r7, [r0, r1]
	adds	r6, r6, #4
	adcs	r4, r5
	mov	r1, r6
	eors	r1, r3
	orrs	r1, r4
	bne	.Laes_v6m_small_BB46_16
@ %bb.17:                               @ %common.ret.loopexit72.unr-lcssa
	ldr	r3, [sp, #52]                   @ 4-byte Reload
	cmp	r3, #0
	ldr	r5, [sp, #40]                   @ 4-byte Reload
	ldr	r1, [sp, #36]                   @ 4-byte Reload
	bne	.Laes_v6m_small_BB46_18
	b	.Laes_v6m_small_BB46_33
.Laes_v6m_small_BB46_18:                              @ %join.7.i.i.i.i.i.i.epil.preheader
	mov	r7, r3
	ldrb	r3, [r2, r6]
	strb	r3, [r0, r6]
	cmp	r7, #1
	bne	.Laes_v6m_small_BB46_19
	b	.Laes_v6m_small_BB46_33
.Laes_v6m_small_BB46_19:                              @ %join.7.i.i.i.i.i.i.epil.1
	adds	r3, r6, #1
	ldrb	r4, [r2, r3]
	strb	r4, [r0, r3]
	cmp	r7, #2
	bne	.Laes_v6m_small_BB46_20
	b	.Laes_v6m_small_BB46_33
.Laes_v6m_small_BB46_20:                              @ %join.7.i.i.i.i.i.i.epil.2
	mov	r3, r1
	adds	r1, r6, #2
	ldrb	r2, [r2, r1]
	strb	r2, [r0, r1]
	mov	r1, r3
	b	.Laes_v6m_small_BB46_33
.Laes_v6m_small_BB46_21:                              @ %apart.2.i.i.i.i.i.i37
	mov	r1, r2
	ldr	r2, [sp, #56]                   @ 4-byte Reload
	bl	memmove
.Laes_v6m_small_BB46_22:                              @ %"core::slice::edits::slice+T::copy_from_slice::<i8,20'core::clone::U8Clone{}>.exit46"
	movs	r0, #16
	str	r0, [sp]
	str	r6, [sp, #4]
	ldr	r1, [sp, #40]                   @ 4-byte Reload
	adds	r1, #8
	str	r1, [sp, #56]                   @ 4-byte Spill
	ldr	r0, [sp, #36]                   @ 4-byte Reload
	mov	r2, r7
	bl	aes_v6m_small.cmac.chaining.chain
	ldr	r0, [sp, #32]                   @ 4-byte Reload
	subs	r4, r0, #1
	ldr	r5, [sp, #44]                   @ 4-byte Reload
	sbcs	r5, r6
	movs	r0, #15
	bics	r4, r0
	str	r4, [sp]
	str	r5, [sp, #4]
	ldr	r0, [sp, #36]                   @ 4-byte Reload
	ldr	r1, [sp, #56]                   @ 4-byte Reload
	ldr	r2, [sp, #24]                   @ 4-byte Reload
	bl	aes_v6m_small.cmac.chaining.chain
	ldr	r0, [sp, #32]                   @ 4-byte Reload
	subs	r3, r0, r4
	str	r5, [sp, #56]                   @ 4-byte Spill
	ldr	r0, [sp, #44]                   @ 4-byte Reload
	sbcs	r0, r5
	mov	r5, r4
	ldr	r1, [sp, #24]                   @ 4-byte Reload
	adds	r1, r1, r4
	mov	r4, r0
	subs	r0, r7, r1
	mov	r2, r6
	sbcs	r2, r6
	str	r3, [sp, #36]                   @ 4-byte Spill
	subs	r0, r0, r3
	str	r4, [sp, #44]                   @ 4-byte Spill
	sbcs	r2, r4
	bhs	.Laes_v6m_small_BB46_32
@ %bb.23:                               @ %join.7.i.i.i.i.i.i60.preheader
	ldr	r0, [sp, #16]                   @ 4-byte Reload
	ldr	r2, [sp, #20]                   @ 4-byte Reload
	adds	r0, r0, r2
	ldr	r2, [sp, #28]                   @ 4-byte Reload
	adcs	r2, r6
	subs	r0, r0, r5
	ldr	r5, [sp, #56]                   @ 4-byte Reload
	sbcs	r2, r5
	subs	r0, #17
	sbcs	r2, r6
	movs	r5, #3
	ldr	r3, [sp, #32]                   @ 4-byte Reload
	ands	r3, r5
	subs	r0, r0, #3
	sbcs	r2, r6
	mov	r0, r6
	blo	.Laes_v6m_small_BB46_27
@ %bb.24:                               @ %join.7.i.i.i.i.i.i60.preheader.new
	ldr	r0, [sp, #36]                   @ 4-byte Reload
	str	r3, [sp, #32]                   @ 4-byte Spill
	subs	r0, r0, r3
	str	r0, [sp, #56]                   @ 4-byte Spill
	ldr	r4, [sp, #44]                   @ 4-byte Reload
	sbcs	r4, r6
	str	r4, [sp, #52]                   @ 4-byte Spill
	mov	r0, r6
	str	r5, [sp, #48]                   @ 4-byte Spill
	mov	r5, r6
.Laes_v6m_small_BB46_25:                              @ %join.7.i.i.i.i.i.i60
                                        @ =>This Inner Loop Header: Depth=1
	ldrb	r2, [r1, r0]
	strb	r2, [r7, r0]
	movs	r2, #1
	orrs	r2, r0
	ldrb	r3, [r1, r2]
	strb	r3, [r7, r2]
	movs	r2, #2
	orrs	r2, r0
	ldrb	r3, [r1, r2]
	strb	r3, [r7, r2]
	mov	r2, r0
	ldr	r3, [sp, #48]                   @ 4-byte Reload
	orrs	r2, r3
	ldrb	r3, [r1, r2]
	strb	r3, [r7, r2]
	adds	r0, r0, #4
	adcs	r5, r6
	mov	r2, r5
	ldr	r3, [sp, #52]                   @ 4-byte Reload
	eors	r2, r3
	mov	r3, r0
	ldr	r4, [sp, #56]                   @ 4-byte Reload
	eors	r3, r4
	orrs	r3, r2
	bne	.Laes_v6m_small_BB46_25
@ %bb.26:                               @ %common.ret.loopexit.unr-lcssa
	ldr	r3, [sp, #32]                   @ 4-byte Reload
	cmp	r3, #0
	beq	.Laes_v6m_small_BB46_29
.Laes_v6m_small_BB46_27:                              @ %join.7.i.i.i.i.i.i60.epil.preheader
	ldrb	r2, [r1, r0]
	strb	r2, [r7, r0]
	cmp	r3, #1
	beq	.Laes_v6m_small_BB46_29
@ %bb.28:                               @ %join.7.i.i.i.i.i.i60.epil.1
	adds	r2, r0, #1
	mov	r5, r3
	ldrb	r3, [r1, r2]
	strb	r3, [r7, r2]
	cmp	r5, #2
	bne	.Laes_v6m_small_BB46_34
.Laes_v6m_small_BB46_29:
	ldr	r5, [sp, #40]                   @ 4-byte Reload
	b	.Laes_v6m_small_BB46_31
.Laes_v6m_small_BB46_30:                              @ %apart.2.i.i.i.i.i.i
	mov	r1, r2
	mov	r2, r7
	bl	memmove
.Laes_v6m_small_BB46_31:                              @ %common.ret
	ldr	r1, [sp, #36]                   @ 4-byte Reload
	b	.Laes_v6m_small_BB46_33
.Laes_v6m_small_BB46_32:                              @ %apart.2.i.i.i.i.i.i58
	mov	r0, r7
	ldr	r6, [sp, #36]                   @ 4-byte Reload
	mov	r2, r6
	bl	memmove
	ldr	r5, [sp, #40]                   @ 4-byte Reload
	mov	r1, r6
.Laes_v6m_small_BB46_33:                              @ %common.ret
	str	r1, [r5]
	ldr	r0, [sp, #44]                   @ 4-byte Reload
	str	r0, [r5, #4]
	add	sp, #60
	pop	{r4, r5, r6, r7, pc}
.Laes_v6m_small_BB46_34:                              @ %join.7.i.i.i.i.i.i60.epil.2
	adds	r0, r0, #2
	ldrb	r1, [r1, r0]
	strb	r1, [r7, r0]
	ldr	r5, [sp, #40]                   @ 4-byte Reload
	b	.Laes_v6m_small_BB46_31
.Laes_v6m_small_func_end46:
	.size	aes_v6m_small.cmac.chain_in_pieces.ChainInPieces.extend, .Laes_v6m_small_func_end46-aes_v6m_small.cmac.chain_in_pieces.ChainInPieces.extend
	.cantunwind
	.fnend
                                        @ -- End function
	.section	.text.aes_v6m_small.key_wrap.wrapping.wrap,"ax",%progbits
	.p2align	2                               @ -- Begin function key_wrap::wrapping::wrap::<#4f733d09d7f6c6b4>
	.type	aes_v6m_small.key_wrap.wrapping.wrap,%function
	.code	16
	.thumb_func
aes_v6m_small.key_wrap.wrapping.wrap: @ @aes_v6m_small.key_wrap.wrapping.wrap
	.fnstart
@ %bb.0:                                @ %start
	.save	{r4, r5, r6, r7, lr}
	push	{r4, r5, r6, r7, lr}
	.pad	#116
	sub	sp, #116
	str	r1, [sp, #56]                   @ 4-byte Spill
	mov	r1, r0
	movs	r7, #0
	adds	r5, r2, #1
	mov	r6, r3
	adcs	r6, r7
	movs	r0, #1
	str	r2, [sp, #52]                   @ 4-byte Spill
	subs	r4, r2, #2
	mov	r4, r3
	sbcs	r4, r7
	bhs	.Laes_v6m_small_BB47_1
	b	.Laes_v6m_small_BB47_16
.Laes_v6m_small_BB47_1:                               @ %start
	str	r1, [sp, #28]                   @ 4-byte Spill
	ldr	r1, [sp, #148]
	ldr	r4, [sp, #144]
	eors	r5, r4
	eors	r6, r1
	orrs	r6, r5
	beq	.Laes_v6m_small_BB47_2
	b	.Laes_v6m_small_BB47_16
.Laes_v6m_small_BB47_2:                               @ %arm.12
	ldr	r2, [sp, #136]
	movs	r0, #166
	strb	r0, [r2, #7]
	ldr	r6, .Laes_v6m_small_CPI47_0
	strb	r6, [r2, #4]
	strb	r0, [r2, #3]
	strb	r6, [r2]
	lsrs	r0, r6, #16
	strb	r0, [r2, #6]
	lsrs	r5, r6, #8
	strb	r5, [r2, #5]
	strb	r0, [r2, #2]
	strb	r5, [r2, #1]
	subs	r0, r4, #1
	str	r0, [sp, #44]                   @ 4-byte Spill
	sbcs	r1, r7
	str	r1, [sp, #32]                   @ 4-byte Spill
	ldr	r1, [sp, #52]                   @ 4-byte Reload
	lsrs	r0, r1, #29
	lsls	r4, r3, #3
	adds	r0, r4, r0
	str	r0, [sp, #92]                   @ 4-byte Spill
	str	r2, [sp, #16]                   @ 4-byte Spill
	adds	r2, #8
	ldr	r0, [sp, #56]                   @ 4-byte Reload
	subs	r4, r2, r0
	mov	r0, r7
	sbcs	r0, r7
	lsls	r5, r1, #3
	subs	r4, r4, r5
	ldr	r4, [sp, #92]                   @ 4-byte Reload
	sbcs	r0, r4
	str	r2, [sp, #80]                   @ 4-byte Spill
	blo	.Laes_v6m_small_BB47_3
	b	.Laes_v6m_small_BB47_11
.Laes_v6m_small_BB47_3:                               @ %join.7.i.i.i.i.i.i.preheader
	movs	r5, #3
	mov	r0, r1
	ands	r0, r5
	movs	r2, #0
	subs	r6, r1, #4
	sbcs	r3, r2
	str	r0, [sp, #40]                   @ 4-byte Spill
	bhs	.Laes_v6m_small_BB47_4
	b	.Laes_v6m_small_BB47_7
.Laes_v6m_small_BB47_4:                               @ %join.7.i.i.i.i.i.i.preheader.new
	bics	r1, r5
	movs	r0, #0
	mov	r2, r0
	str	r0, [sp, #48]                   @ 4-byte Spill
	mov	r3, r0
	str	r1, [sp, #52]                   @ 4-byte Spill
.Laes_v6m_small_BB47_5:                               @ %join.7.i.i.i.i.i.i
                                        @ =>This Inner Loop Header: Depth=1
	str	r3, [sp, #84]                   @ 4-byte Spill
	str	r2, [sp, #92]                   @ 4-byte Spill
	lsls	r6, r2, #3
	ldr	r3, [sp, #56]                   @ 4-byte Reload
	adds	r0, r3, r6
	ldrb	r1, [r0, #1]
	str	r1, [sp, #76]                   @ 4-byte Spill
	ldrb	r1, [r0, #2]
	str	r1, [sp, #72]                   @ 4-byte Spill
	ldrb	r1, [r0, #3]
	str	r1, [sp, #68]                   @ 4-byte Spill
	ldrb	r1, [r0, #4]
	str	r1, [sp, #64]                   @ 4-byte Spill
	ldrb	r1, [r0, #5]
	ldrb	r5, [r0, #6]
	ldrb	r0, [r0, #7]
	ldrb	r2, [r3, r6]
	ldr	r4, [sp, #80]                   @ 4-byte Reload
	strb	r2, [r4, r6]
	adds	r2, r4, r6
	strb	r0, [r2, #7]
	strb	r5, [r2, #6]
	strb	r1, [r2, #5]
	ldr	r0, [sp, #64]                   @ 4-byte Reload
	strb	r0, [r2, #4]
	ldr	r0, [sp, #68]                   @ 4-byte Reload
	strb	r0, [r2, #3]
	ldr	r0, [sp, #72]                   @ 4-byte Reload
	strb	r0, [r2, #2]
	ldr	r0, [sp, #76]                   @ 4-byte Reload
	strb	r0, [r2, #1]
	movs	r0, #8
	orrs	r0, r6
	adds	r1, r3, r0
	ldrb	r2, [r1, #4]
	str	r2, [sp, #76]                   @ 4-byte Spill
	ldrb	r2, [r1, #5]
	str	r2, [sp, #72]                   @ 4-byte Spill
	ldrb	r2, [r1, #7]
	str	r2, [sp, #68]                   @ 4-byte Spill
	ldrb	r2, [r1, #6]
	str	r2, [sp, #64]                   @ 4-byte Spill
	ldrb	r2, [r1, #1]
	str	r2, [sp, #60]                   @ 4-byte Spill
	ldrb	r2, [r1, #2]
	ldrb	r1, [r1, #3]
	ldrb	r5, [r3, r0]
	strb	r5, [r4, r0]
	adds	r0, r4, r0
	strb	r1, [r0, #3]
	strb	r2, [r0, #2]
	ldr	r1, [sp, #60]                   @ 4-byte Reload
	strb	r1, [r0, #1]
	ldr	r1, [sp, #64]                   @ 4-byte Reload
	strb	r1, [r0, #6]
	ldr	r1, [sp, #68]                   @ 4-byte Reload
	strb	r1, [r0, #7]
	ldr	r1, [sp, #72]                   @ 4-byte Reload
	strb	r1, [r0, #5]
	ldr	r1, [sp, #76]                   @ 4-byte Reload
	strb	r1, [r0, #4]
	movs	r0, #16
	orrs	r0, r6
	adds	r1, r3, r0
	ldrb	r2, [r1, #7]
	str	r2, [sp, #76]                   @ 4-byte Spill
	ldrb	r2, [r1, #6]
	str	r2, [sp, #72]                   @ 4-byte Spill
	ldrb	r2, [r1, #1]
	str	r2, [sp, #68]                   @ 4-byte Spill
	ldrb	r2, [r1, #2]
	str	r2, [sp, #64]                   @ 4-byte Spill
	ldrb	r2, [r1, #3]
	str	r2, [sp, #60]                   @ 4-byte Spill
	ldrb	r2, [r1, #4]
	ldrb	r1, [r1, #5]
	ldrb	r5, [r3, r0]
	strb	r5, [r4, r0]
	adds	r0, r4, r0
	strb	r1, [r0, #5]
	strb	r2, [r0, #4]
	ldr	r1, [sp, #60]                   @ 4-byte Reload
	strb	r1, [r0, #3]
	ldr	r1, [sp, #64]                   @ 4-byte Reload
	strb	r1, [r0, #2]
	ldr	r1, [sp, #68]                   @ 4-byte Reload
	strb	r1, [r0, #1]
	ldr	r1, [sp, #72]                   @ 4-byte Reload
	strb	r1, [r0, #6]
	ldr	r1, [sp, #76]                   @ 4-byte Reload
	strb	r1, [r0, #7]
	movs	r0, #24
	orrs	r0, r6
	adds	r1, r3, r0
	ldrb	r2, [r1, #1]
	str	r2, [sp, #76]                   @ 4-byte Spill
	ldrb	r2, [r1, #2]
	str	r2, [sp, #72]                   @ 4-byte Spill
	ldrb	r2, [r1, #3]
	str	r2, [sp, #68]                   @ 4-byte Spill
	ldrb	r5, [r1, #4]
	ldrb	r6, [r1, #5]
	ldrb	r2, [r1, #6]
	ldrb	r1, [r1, #7]
	ldrb	r3, [r3, r0]
	strb	r3, [r4, r0]
	ldr	r3, [sp, #84]                   @ 4-byte Reload
	adds	r0, r4, r0
	strb	r1, [r0, #7]
	ldr	r1, [sp, #52]                   @ 4-byte Reload
	strb	r2, [r0, #6]
	ldr	r2, [sp, #92]                   @ 4-byte Reload
	strb	r6, [r0, #5]
	strb	r5, [r0, #4]
	ldr	r4, [sp, #68]                   @ 4-byte Reload
	strb	r4, [r0, #3]
	ldr	r4, [sp, #72]                   @ 4-byte Reload
	strb	r4, [r0, #2]
	ldr	r4, [sp, #76]                   @ 4-byte Reload
	strb	r4, [r0, #1]
	adds	r2, r2, #4
	ldr	r0, [sp, #48]                   @ 4-byte Reload
	adcs	r3, r0
	mov	r0, r2
	eors	r0, r1
	orrs	r0, r3
	beq	.Laes_v6m_small_BB47_6
	b	.Laes_v6m_small_BB47_5
.Laes_v6m_small_BB47_6:                               @ %"core::slice::edits::slice+T::copy_from_slice::<#76f67ba6cf9709da>.exit.loopexit.unr-lcssa"
	ldr	r0, [sp, #40]                   @ 4-byte Reload
	cmp	r0, #0
	beq	.Laes_v6m_small_BB47_10
.Laes_v6m_small_BB47_7:                               @ %join.7.i.i.i.i.i.i.epil.preheader
	lsls	r2, r2, #3
	ldr	r3, [sp, #56]                   @ 4-byte Reload
	adds	r0, r3, r2
	ldrb	r1, [r0, #1]
	str	r1, [sp, #92]                   @ 4-byte Spill
	ldrb	r1, [r0, #3]
	str	r1, [sp, #84]                   @ 4-byte Spill
	ldrb	r1, [r0, #2]
	str	r1, [sp, #76]                   @ 4-byte Spill
	ldrb	r5, [r0, #5]
	ldrb	r6, [r0, #4]
	ldrb	r4, [r0, #7]
	ldrb	r1, [r0, #6]
	ldrb	r3, [r3, r2]
	ldr	r0, [sp, #80]                   @ 4-byte Reload
	strb	r3, [r0, r2]
	adds	r3, r0, r2
	ldr	r0, [sp, #40]                   @ 4-byte Reload
	strb	r1, [r3, #6]
	strb	r4, [r3, #7]
	strb	r6, [r3, #4]
	strb	r5, [r3, #5]
	ldr	r1, [sp, #76]                   @ 4-byte Reload
	strb	r1, [r3, #2]
	ldr	r1, [sp, #84]                   @ 4-byte Reload
	strb	r1, [r3, #3]
	ldr	r1, [sp, #92]                   @ 4-byte Reload
	strb	r1, [r3, #1]
	cmp	r0, #1
	beq	.Laes_v6m_small_BB47_10
@ %bb.8:                                @ %join.7.i.i.i.i.i.i.epil.1
	mov	r0, r2
	adds	r0, #8
	ldr	r5, [sp, #56]                   @ 4-byte Reload
	adds	r1, r5, r0
	ldrb	r3, [r1, #1]
	str	r3, [sp, #92]                   @ 4-byte Spill
	ldrb	r3, [r1, #3]
	str	r3, [sp, #84]                   @ 4-byte Spill
	ldrb	r3, [r1, #2]
	str	r3, [sp, #76]                   @ 4-byte Spill
	ldrb	r3, [r1, #5]
	str	r3, [sp, #72]                   @ 4-byte Spill
	ldrb	r6, [r1, #4]
	ldrb	r4, [r1, #7]
	ldrb	r3, [r1, #6]
	ldrb	r5, [r5, r0]
	ldr	r1, [sp, #80]                   @ 4-byte Reload
	strb	r5, [r1, r0]
	adds	r0, r1, r0
	strb	r3, [r0, #6]
	strb	r4, [r0, #7]
	strb	r6, [r0, #4]
	ldr	r1, [sp, #72]                   @ 4-byte Reload
	strb	r1, [r0, #5]
	ldr	r1, [sp, #76]                   @ 4-byte Reload
	strb	r1, [r0, #2]
	ldr	r1, [sp, #84]                   @ 4-byte Reload
	strb	r1, [r0, #3]
	ldr	r1, [sp, #92]                   @ 4-byte Reload
	strb	r1, [r0, #1]
	ldr	r0, [sp, #40]                   @ 4-byte Reload
	cmp	r0, #2
	beq	.Laes_v6m_small_BB47_10
@ %bb.9:                                @ %join.7.i.i.i.i.i.i.epil.2
	adds	r2, #16
	ldr	r3, [sp, #56]                   @ 4-byte Reload
	adds	r0, r3, r2
	ldrb	r1, [r0, #1]
	str	r1, [sp, #92]                   @ 4-byte Spill
	ldrb	r1, [r0, #3]
	str	r1, [sp, #84]                   @ 4-byte Spill
	ldrb	r1, [r0, #2]
	str	r1, [sp, #76]                   @ 4-byte Spill
	ldrb	r5, [r0, #5]
	ldrb	r6, [r0, #4]
	ldrb	r4, [r0, #7]
	ldrb	r1, [r0, #6]
	ldrb	r3, [r3, r2]
	ldr	r0, [sp, #80]                   @ 4-byte Reload
	strb	r3, [r0, r2]
	adds	r2, r0, r2
	strb	r1, [r2, #6]
	strb	r4, [r2, #7]
	strb	r6, [r2, #4]
	strb	r5, [r2, #5]
	ldr	r0, [sp, #76]                   @ 4-byte Reload
	strb	r0, [r2, #2]
	ldr	r0, [sp, #84]                   @ 4-byte Reload
	strb	r0, [r2, #3]
	ldr	r0, [sp, #92]                   @ 4-byte Reload
	strb	r0, [r2, #1]
.Laes_v6m_small_BB47_10:                              @ %"core::slice::edits::slice+T::copy_from_slice::<#76f67ba6cf9709da>.exit.loopexit"
	ldr	r3, [sp, #16]                   @ 4-byte Reload
	ldrb	r0, [r3, #4]
	ldrb	r1, [r3, #5]
	lsls	r1, r1, #8
	adds	r0, r1, r0
	ldrb	r1, [r3, #6]
	lsls	r1, r1, #16
	ldrb	r2, [r3, #7]
	lsls	r2, r2, #24
	adds	r1, r2, r1
	adds	r6, r1, r0
	ldrb	r0, [r3]
	ldrb	r1, [r3, #1]
	lsls	r1, r1, #8
	adds	r0, r1, r0
	ldrb	r1, [r3, #2]
	lsls	r1, r1, #16
	ldrb	r2, [r3, #3]
	lsls	r2, r2, #24
	adds	r1, r2, r1
	adds	r4, r1, r0
	b	.Laes_v6m_small_BB47_12
.Laes_v6m_small_BB47_11:                              @ %apart.2.i.i.i.i.i.i
	mov	r0, r2
	ldr	r1, [sp, #56]                   @ 4-byte Reload
	mov	r2, r5
	bl	memmove
	mov	r4, r6
.Laes_v6m_small_BB47_12:                              @ %"core::slice::edits::slice+T::copy_from_slice::<#76f67ba6cf9709da>.exit"
	mov	r1, r7
	mov	r2, r7
	ldr	r3, [sp, #32]                   @ 4-byte Reload
	str	r7, [sp, #88]                   @ 4-byte Spill
.Laes_v6m_small_BB47_13:                              @ %join.5.i
                                        @ =>This Loop Header: Depth=1
                                        @     Child Loop BB47_14 Depth 2
	str	r1, [sp, #20]                   @ 4-byte Spill
	mov	r0, r1
	str	r2, [sp, #24]                   @ 4-byte Spill
	mov	r1, r2
	ldr	r2, [sp, #44]                   @ 4-byte Reload
	bl	__aeabi_lmul
	adds	r0, r0, #1
	str	r0, [sp, #36]                   @ 4-byte Spill
	adcs	r1, r7
	str	r1, [sp, #40]                   @ 4-byte Spill
	mov	r1, r7
	str	r7, [sp, #84]                   @ 4-byte Spill
	ldr	r7, [sp, #16]                   @ 4-byte Reload
.Laes_v6m_small_BB47_14:                              @ %join.5.i.i
                                        @   Parent Loop BB47_13 Depth=1
                                        @ =>  This Inner Loop Header: Depth=2
	add	r0, sp, #92
	stm	r0!, {r1, r4, r6}               @ 4-byte Spill
	lsls	r5, r1, #3
	ldr	r3, [sp, #80]                   @ 4-byte Reload
	adds	r4, r3, r5
	str	r5, [sp, #76]                   @ 4-byte Spill
	ldrb	r0, [r4, #4]
	ldrb	r1, [r4, #5]
	lsls	r1, r1, #8
	adds	r0, r1, r0
	ldrb	r1, [r4, #6]
	lsls	r1, r1, #16
	ldrb	r2, [r4, #7]
	lsls	r2, r2, #24
	adds	r1, r2, r1
	adds	r0, r1, r0
	str	r0, [sp, #108]
	ldrb	r0, [r3, r5]
	ldrb	r1, [r4, #1]
	lsls	r1, r1, #8
	adds	r0, r1, r0
	ldrb	r1, [r4, #2]
	lsls	r1, r1, #16
	ldrb	r2, [r4, #3]
	lsls	r2, r2, #24
	adds	r1, r2, r1
	adds	r0, r1, r0
	str	r0, [sp, #104]
	ldr	r0, [sp, #28]                   @ 4-byte Reload
	ldrb	r1, [r0, #15]
	str	r1, [sp, #72]                   @ 4-byte Spill
	ldrb	r1, [r0, #14]
	str	r1, [sp, #68]                   @ 4-byte Spill
	ldrb	r1, [r0, #12]
	str	r1, [sp, #64]                   @ 4-byte Spill
	ldrb	r1, [r0, #13]
	str	r1, [sp, #60]                   @ 4-byte Spill
	ldrb	r1, [r0, #11]
	str	r1, [sp, #56]                   @ 4-byte Spill
	ldrb	r1, [r0, #10]
	str	r1, [sp, #52]                   @ 4-byte Spill
	ldrb	r1, [r0, #8]
	str	r1, [sp, #48]                   @ 4-byte Spill
	ldrb	r3, [r0, #9]
	ldrb	r2, [r0, #3]
	ldrb	r5, [r0, #2]
	ldrb	r1, [r0]
	ldrb	r0, [r0, #1]
	movs	r6, #1
	str	r6, [sp, #8]
	ldr	r6, [sp, #88]                   @ 4-byte Reload
	str	r6, [sp, #12]
	add	r6, sp, #96
	str	r6, [sp]
	lsls	r0, r0, #8
	adds	r0, r0, r1
	lsls	r5, r5, #16
	lsls	r1, r2, #24
	adds	r1, r1, r5
	adds	r0, r1, r0
	lsls	r1, r3, #8
	ldr	r2, [sp, #48]                   @ 4-byte Reload
	adds	r1, r1, r2
	ldr	r2, [sp, #52]                   @ 4-byte Reload
	lsls	r2, r2, #16
	ldr	r3, [sp, #56]                   @ 4-byte Reload
	lsls	r3, r3, #24
	adds	r2, r3, r2
	adds	r2, r2, r1
	ldr	r1, [sp, #60]                   @ 4-byte Reload
	lsls	r1, r1, #8
	ldr	r3, [sp, #64]                   @ 4-byte Reload
	adds	r1, r1, r3
	ldr	r3, [sp, #68]                   @ 4-byte Reload
	lsls	r3, r3, #16
	ldr	r5, [sp, #72]                   @ 4-byte Reload
	lsls	r5, r5, #24
	adds	r3, r5, r3
	adds	r3, r3, r1
	bl	aes_v6m_small.aes_narrow.blocks.process_all_batches.1
	bl	aes_v6m_small.aes_cipher.zeroize.stack.wipe_stack.1024
	ldr	r0, [sp, #100]
	strb	r0, [r7, #4]
	ldr	r1, [sp, #96]
	strb	r1, [r7]
	lsrs	r2, r0, #24
	strb	r2, [r7, #7]
	lsrs	r2, r0, #16
	strb	r2, [r7, #6]
	lsrs	r0, r0, #8
	strb	r0, [r7, #5]
	lsrs	r0, r1, #24
	strb	r0, [r7, #3]
	lsrs	r0, r1, #16
	strb	r0, [r7, #2]
	lsrs	r0, r1, #8
	strb	r0, [r7, #1]
	ldr	r0, [sp, #104]
	ldr	r1, [sp, #76]                   @ 4-byte Reload
	ldr	r2, [sp, #80]                   @ 4-byte Reload
	strb	r0, [r2, r1]
	ldr	r1, [sp, #108]
	lsrs	r2, r1, #16
	strb	r2, [r4, #6]
	lsrs	r2, r1, #24
	strb	r2, [r4, #7]
	strb	r1, [r4, #4]
	lsrs	r1, r1, #8
	strb	r1, [r4, #5]
	lsrs	r1, r0, #16
	strb	r1, [r4, #2]
	lsrs	r1, r0, #24
	strb	r1, [r4, #3]
	lsrs	r0, r0, #8
	strb	r0, [r4, #1]
	ldrb	r0, [r7]
	ldrb	r1, [r7, #1]
	lsls	r1, r1, #8
	adds	r0, r1, r0
	ldrb	r1, [r7, #2]
	lsls	r1, r1, #16
	ldrb	r2, [r7, #3]
	lsls	r2, r2, #24
	adds	r1, r2, r1
	adds	r1, r1, r0
	ldr	r0, [sp, #36]                   @ 4-byte Reload
	ldr	r2, [sp, #92]                   @ 4-byte Reload
	adds	r0, r0, r2
	ldr	r2, [sp, #40]                   @ 4-byte Reload
	ldr	r5, [sp, #84]                   @ 4-byte Reload
	adcs	r2, r5
	rev	r4, r2
	eors	r4, r1
	strb	r4, [r7]
	ldrb	r1, [r7, #4]
	ldrb	r2, [r7, #5]
	lsls	r2, r2, #8
	adds	r1, r2, r1
	ldrb	r2, [r7, #6]
	lsls	r2, r2, #16
	ldrb	r3, [r7, #7]
	lsls	r3, r3, #24
	adds	r2, r3, r2
	adds	r1, r2, r1
	rev	r6, r0
	eors	r6, r1
	ldr	r1, [sp, #92]                   @ 4-byte Reload
	strb	r6, [r7, #4]
	lsrs	r0, r4, #16
	strb	r0, [r7, #2]
	lsrs	r0, r4, #24
	strb	r0, [r7, #3]
	lsrs	r0, r4, #8
	strb	r0, [r7, #1]
	lsrs	r0, r6, #16
	strb	r0, [r7, #6]
	lsrs	r0, r6, #24
	strb	r0, [r7, #7]
	lsrs	r0, r6, #8
	strb	r0, [r7, #5]
	adds	r1, r1, #1
	ldr	r0, [sp, #88]                   @ 4-byte Reload
	adcs	r5, r0
	ldr	r0, [sp, #44]                   @ 4-byte Reload
	subs	r0, r1, r0
	str	r5, [sp, #84]                   @ 4-byte Spill
	ldr	r3, [sp, #32]                   @ 4-byte Reload
	sbcs	r5, r3
	bhs	.Laes_v6m_small_BB47_15
	b	.Laes_v6m_small_BB47_14
.Laes_v6m_small_BB47_15:                              @ %"key_wrap::steps::wrap_turn::<#4f733d09d7f6c6b4>.exit.i.loopexit"
                                        @   in Loop: Header=BB47_13 Depth=1
	movs	r0, #0
	ldr	r5, [sp, #20]                   @ 4-byte Reload
	adds	r1, r5, #1
	ldr	r7, [sp, #24]                   @ 4-byte Reload
	mov	r2, r7
	adcs	r2, r0
	subs	r5, r5, #5
	sbcs	r7, r0
	ldr	r7, [sp, #88]                   @ 4-byte Reload
	bhs	.Laes_v6m_small_BB47_16
	b	.Laes_v6m_small_BB47_13
.Laes_v6m_small_BB47_16:                              @ %return.10
	add	sp, #116
	pop	{r4, r5, r6, r7, pc}
	.p2align	2
@ %bb.17:
.Laes_v6m_small_CPI47_0:
	.long	2795939494                      @ 0xa6a6a6a6
.Laes_v6m_small_func_end47:
	.size	aes_v6m_small.key_wrap.wrapping.wrap, .Laes_v6m_small_func_end47-aes_v6m_small.key_wrap.wrapping.wrap
	.cantunwind
	.fnend
                                        @ -- End function
	.section	.text.aes_v6m_small.aes_cipher.zeroize.stack.wipe_stack.512,"ax",%progbits
	.p2align	1                               @ -- Begin function aes_cipher::zeroize::stack::wipe_stack::<=512>
	.type	aes_v6m_small.aes_cipher.zeroize.stack.wipe_stack.512,%function
	.code	16
	.thumb_func
aes_v6m_small.aes_cipher.zeroize.stack.wipe_stack.512: @ @aes_v6m_small.aes_cipher.zeroize.stack.wipe_stack.512
	.fnstart
@ %bb.0:                                @ %start
	.save	{r4, lr}
	push	{r4, lr}
	.pad	#508
	sub	sp, #508
	.pad	#12
	sub	sp, #12
	movs	r0, #1
	lsls	r2, r0, #9
	add	r0, sp, #8
	movs	r4, #0
	mov	r1, r4
	bl	memset
	str	r4, [sp, #4]
	str	r4, [sp]
	@APP
	@NO_APP
	ldr	r0, [sp]
	lsrs	r1, r0, #9
	ldr	r2, [sp, #4]
	orrs	r2, r1
	@APP
	@NO_APP
	bne	.Laes_v6m_small_BB48_2
@ %bb.1:                                @ %then.1
	add	r1, sp, #8
	ldrb	r0, [r1, r0]
	@APP
	@NO_APP
	ldr	r1, [sp, #4]
	ldr	r1, [sp]
	str	r4, [sp, #4]
	str	r0, [sp]
	@APP
	@NO_APP
.Laes_v6m_small_BB48_2:                               @ %common.ret
	add	sp, #508
	add	sp, #12
	pop	{r4, pc}
.Laes_v6m_small_func_end48:
	.size	aes_v6m_small.aes_cipher.zeroize.stack.wipe_stack.512, .Laes_v6m_small_func_end48-aes_v6m_small.aes_cipher.zeroize.stack.wipe_stack.512
	.cantunwind
	.fnend
                                        @ -- End function
	.section	.text.aes_v6m_small.key_wrap.padded.wrap_padded,"ax",%progbits
	.p2align	2                               @ -- Begin function key_wrap::padded::wrap_padded::<#4f733d09d7f6c6b4>
	.type	aes_v6m_small.key_wrap.padded.wrap_padded,%function
	.code	16
	.thumb_func
aes_v6m_small.key_wrap.padded.wrap_padded: @ @aes_v6m_small.key_wrap.padded.wrap_padded
	.fnstart
@ %bb.0:                                @ %start
	.save	{r4, r5, r6, r7, lr}
	push	{r4, r5, r6, r7, lr}
	.pad	#116
	sub	sp, #116
	str	r1, [sp, #84]                   @ 4-byte Spill
	mov	r1, r2
	str	r3, [sp, #92]                   @ 4-byte Spill
	orrs	r1, r3
	beq	.Laes_v6m_small_BB49_7
@ %bb.1:                                @ %"key_wrap::padded::fits.exit"
	str	r0, [sp, #32]                   @ 4-byte Spill
	ldr	r1, [sp, #148]
	ldr	r6, [sp, #144]
	movs	r0, #1
	lsls	r3, r2, #29
	mov	r3, r0
	beq	.Laes_v6m_small_BB49_3
@ %bb.2:                                @ %"key_wrap::padded::fits.exit"
	movs	r3, #2
.Laes_v6m_small_BB49_3:                               @ %"key_wrap::padded::fits.exit"
	lsrs	r4, r2, #3
	adds	r3, r3, r4
	eors	r3, r6
	orrs	r3, r1
	beq	.Laes_v6m_small_BB49_4
	b	.Laes_v6m_small_BB49_52
.Laes_v6m_small_BB49_4:                               @ %arm.5
	ldr	r4, [sp, #136]
	str	r2, [sp, #80]                   @ 4-byte Spill
	rev	r2, r2
	strb	r2, [r4, #4]
	lsrs	r0, r2, #24
	strb	r0, [r4, #7]
	lsrs	r0, r2, #16
	strb	r0, [r4, #6]
	str	r2, [sp, #44]                   @ 4-byte Spill
	lsrs	r0, r2, #8
	strb	r0, [r4, #5]
	ldr	r0, .Laes_v6m_small_CPI49_1
	ldr	r3, [sp, #92]                   @ 4-byte Reload
	orrs	r0, r3
	rev	r3, r0
	strb	r3, [r4]
	lsrs	r0, r3, #24
	strb	r0, [r4, #3]
	lsrs	r0, r3, #16
	strb	r0, [r4, #2]
	str	r3, [sp, #76]                   @ 4-byte Spill
	lsrs	r0, r3, #8
	strb	r0, [r4, #1]
	movs	r2, #0
	subs	r5, r6, #1
	mov	r7, r1
	sbcs	r7, r2
	mov	r0, r5
	orrs	r0, r7
	rsbs	r3, r0, #0
	adcs	r3, r0
	str	r3, [sp, #16]                   @ 4-byte Spill
	mov	r3, r4
	adds	r3, #8
	str	r3, [sp, #88]                   @ 4-byte Spill
	cmp	r0, #0
	str	r5, [sp, #36]                   @ 4-byte Spill
	str	r4, [sp, #28]                   @ 4-byte Spill
	str	r7, [sp, #48]                   @ 4-byte Spill
	bne	.Laes_v6m_small_BB49_5
	b	.Laes_v6m_small_BB49_44
.Laes_v6m_small_BB49_5:                               @ %join.5.i.preheader
	str	r2, [sp, #72]                   @ 4-byte Spill
	subs	r2, r6, #2
	ldr	r0, [sp, #72]                   @ 4-byte Reload
	sbcs	r1, r0
	movs	r0, #3
	mov	r3, r5
	ands	r3, r0
	str	r3, [sp, #40]                   @ 4-byte Spill
	subs	r2, r2, #3
	ldr	r2, [sp, #72]                   @ 4-byte Reload
	sbcs	r1, r2
	bhs	.Laes_v6m_small_BB49_8
@ %bb.6:
	mov	r3, r2
	mov	r4, r2
	b	.Laes_v6m_small_BB49_27
.Laes_v6m_small_BB49_7:
	movs	r0, #1
	add	sp, #116
	pop	{r4, r5, r6, r7, pc}
.Laes_v6m_small_BB49_8:                               @ %join.5.i.preheader.new
	bics	r5, r0
	str	r5, [sp, #52]                   @ 4-byte Spill
	mov	r3, r2
	mov	r4, r2
	b	.Laes_v6m_small_BB49_10
.Laes_v6m_small_BB49_9:                               @ %join.5.i
                                        @   in Loop: Header=BB49_10 Depth=1
	ldr	r0, [sp, #84]                   @ 4-byte Reload
	mov	r4, r1
	adds	r1, r0, r1
	ldr	r0, [sp, #64]                   @ 4-byte Reload
	bl	memcpy
	ldr	r0, [sp, #100]
	ldr	r1, [sp, #96]
	ldr	r2, [sp, #88]                   @ 4-byte Reload
	strb	r1, [r2, r4]
	adds	r2, r2, r4
	lsrs	r3, r0, #24
	strb	r3, [r2, #7]
	lsrs	r3, r0, #16
	strb	r3, [r2, #6]
	lsrs	r3, r0, #8
	strb	r3, [r2, #5]
	strb	r0, [r2, #4]
	lsrs	r0, r1, #24
	strb	r0, [r2, #3]
	lsrs	r0, r1, #16
	strb	r0, [r2, #2]
	lsrs	r0, r1, #8
	strb	r0, [r2, #1]
	ldr	r3, [sp, #60]                   @ 4-byte Reload
	adds	r3, r3, #4
	ldr	r2, [sp, #72]                   @ 4-byte Reload
	ldr	r4, [sp, #56]                   @ 4-byte Reload
	adcs	r4, r2
	mov	r0, r4
	eors	r0, r7
	mov	r1, r3
	ldr	r7, [sp, #52]                   @ 4-byte Reload
	eors	r1, r7
	orrs	r1, r0
	bne	.Laes_v6m_small_BB49_10
	b	.Laes_v6m_small_BB49_26
.Laes_v6m_small_BB49_10:                              @ %join.5.i
                                        @ =>This Inner Loop Header: Depth=1
	str	r2, [sp, #96]
	str	r2, [sp, #100]
	lsrs	r0, r3, #29
	str	r4, [sp, #56]                   @ 4-byte Spill
	lsls	r1, r4, #3
	adds	r7, r1, r0
	lsls	r1, r3, #3
	ldr	r0, [sp, #80]                   @ 4-byte Reload
	str	r1, [sp, #68]                   @ 4-byte Spill
	subs	r2, r0, r1
	ldr	r0, [sp, #92]                   @ 4-byte Reload
	sbcs	r0, r7
	movs	r4, #8
	cmp	r2, #8
	blo	.Laes_v6m_small_BB49_12
@ %bb.11:                               @ %join.5.i
                                        @   in Loop: Header=BB49_10 Depth=1
	mov	r2, r4
.Laes_v6m_small_BB49_12:                              @ %join.5.i
                                        @   in Loop: Header=BB49_10 Depth=1
	str	r3, [sp, #60]                   @ 4-byte Spill
	cmp	r0, #0
	beq	.Laes_v6m_small_BB49_14
@ %bb.13:                               @ %join.5.i
                                        @   in Loop: Header=BB49_10 Depth=1
	mov	r2, r4
.Laes_v6m_small_BB49_14:                              @ %join.5.i
                                        @   in Loop: Header=BB49_10 Depth=1
	ldr	r0, [sp, #84]                   @ 4-byte Reload
	ldr	r6, [sp, #68]                   @ 4-byte Reload
	adds	r1, r0, r6
	add	r0, sp, #96
	str	r0, [sp, #64]                   @ 4-byte Spill
	bl	memcpy
	ldr	r0, [sp, #100]
	ldr	r1, [sp, #96]
	ldr	r2, [sp, #88]                   @ 4-byte Reload
	strb	r1, [r2, r6]
	adds	r2, r2, r6
	lsrs	r3, r0, #24
	strb	r3, [r2, #7]
	lsrs	r3, r0, #16
	strb	r3, [r2, #6]
	lsrs	r3, r0, #8
	strb	r3, [r2, #5]
	strb	r0, [r2, #4]
	lsrs	r0, r1, #24
	strb	r0, [r2, #3]
	lsrs	r0, r1, #16
	strb	r0, [r2, #2]
	lsrs	r0, r1, #8
	strb	r0, [r2, #1]
	ldr	r0, [sp, #72]                   @ 4-byte Reload
	str	r0, [sp, #96]
	str	r0, [sp, #100]
	orrs	r6, r4
	ldr	r0, [sp, #80]                   @ 4-byte Reload
	subs	r2, r0, r6
	ldr	r0, [sp, #92]                   @ 4-byte Reload
	sbcs	r0, r7
	cmp	r2, #8
	blo	.Laes_v6m_small_BB49_16
@ %bb.15:                               @ %join.5.i
                                        @   in Loop: Header=BB49_10 Depth=1
	mov	r2, r4
.Laes_v6m_small_BB49_16:                              @ %join.5.i
                                        @   in Loop: Header=BB49_10 Depth=1
	cmp	r0, #0
	beq	.Laes_v6m_small_BB49_18
@ %bb.17:                               @ %join.5.i
                                        @   in Loop: Header=BB49_10 Depth=1
	mov	r2, r4
.Laes_v6m_small_BB49_18:                              @ %join.5.i
                                        @   in Loop: Header=BB49_10 Depth=1
	ldr	r0, [sp, #84]                   @ 4-byte Reload
	adds	r1, r0, r6
	ldr	r0, [sp, #64]                   @ 4-byte Reload
	bl	memcpy
	ldr	r0, [sp, #100]
	ldr	r1, [sp, #96]
	ldr	r2, [sp, #88]                   @ 4-byte Reload
	strb	r1, [r2, r6]
	adds	r2, r2, r6
	lsrs	r3, r0, #24
	strb	r3, [r2, #7]
	lsrs	r3, r0, #16
	strb	r3, [r2, #6]
	lsrs	r3, r0, #8
	strb	r3, [r2, #5]
	strb	r0, [r2, #4]
	lsrs	r0, r1, #24
	strb	r0, [r2, #3]
	lsrs	r0, r1, #16
	strb	r0, [r2, #2]
	lsrs	r0, r1, #8
	strb	r0, [r2, #1]
	ldr	r0, [sp, #72]                   @ 4-byte Reload
	str	r0, [sp, #96]
	str	r0, [sp, #100]
	movs	r6, #16
	ldr	r0, [sp, #68]                   @ 4-byte Reload
	orrs	r6, r0
	ldr	r0, [sp, #80]                   @ 4-byte Reload
	subs	r2, r0, r6
	ldr	r0, [sp, #92]                   @ 4-byte Reload
	sbcs	r0, r7
	cmp	r2, #8
	blo	.Laes_v6m_small_BB49_20
@ %bb.19:                               @ %join.5.i
                                        @   in Loop: Header=BB49_10 Depth=1
	mov	r2, r4
.Laes_v6m_small_BB49_20:                              @ %join.5.i
                                        @   in Loop: Header=BB49_10 Depth=1
	cmp	r0, #0
	beq	.Laes_v6m_small_BB49_22
@ %bb.21:                               @ %join.5.i
                                        @   in Loop: Header=BB49_10 Depth=1
	mov	r2, r4
.Laes_v6m_small_BB49_22:                              @ %join.5.i
                                        @   in Loop: Header=BB49_10 Depth=1
	ldr	r0, [sp, #84]                   @ 4-byte Reload
	adds	r1, r0, r6
	ldr	r0, [sp, #64]                   @ 4-byte Reload
	bl	memcpy
	ldr	r0, [sp, #100]
	ldr	r1, [sp, #96]
	ldr	r2, [sp, #88]                   @ 4-byte Reload
	strb	r1, [r2, r6]
	adds	r2, r2, r6
	lsrs	r3, r0, #24
	strb	r3, [r2, #7]
	lsrs	r3, r0, #16
	strb	r3, [r2, #6]
	lsrs	r3, r0, #8
	strb	r3, [r2, #5]
	strb	r0, [r2, #4]
	lsrs	r0, r1, #24
	strb	r0, [r2, #3]
	lsrs	r0, r1, #16
	strb	r0, [r2, #2]
	lsrs	r0, r1, #8
	strb	r0, [r2, #1]
	ldr	r0, [sp, #72]                   @ 4-byte Reload
	str	r0, [sp, #96]
	str	r0, [sp, #100]
	movs	r0, #24
	ldr	r2, [sp, #68]                   @ 4-byte Reload
	orrs	r2, r0
	ldr	r0, [sp, #80]                   @ 4-byte Reload
	mov	r1, r2
	subs	r2, r0, r2
	ldr	r0, [sp, #92]                   @ 4-byte Reload
	sbcs	r0, r7
	cmp	r2, #8
	blo	.Laes_v6m_small_BB49_24
@ %bb.23:                               @ %join.5.i
                                        @   in Loop: Header=BB49_10 Depth=1
	mov	r2, r4
.Laes_v6m_small_BB49_24:                              @ %join.5.i
                                        @   in Loop: Header=BB49_10 Depth=1
	cmp	r0, #0
	ldr	r5, [sp, #36]                   @ 4-byte Reload
	ldr	r7, [sp, #48]                   @ 4-byte Reload
	bne	.Laes_v6m_small_BB49_25
	b	.Laes_v6m_small_BB49_9
.Laes_v6m_small_BB49_25:                              @ %join.5.i
                                        @   in Loop: Header=BB49_10 Depth=1
	mov	r2, r4
	b	.Laes_v6m_small_BB49_9
.Laes_v6m_small_BB49_26:                              @ %"key_wrap::padded::fill.exit.unr-lcssa"
	ldr	r0, [sp, #40]                   @ 4-byte Reload
	cmp	r0, #0
	bne	.Laes_v6m_small_BB49_27
	b	.Laes_v6m_small_BB49_42
.Laes_v6m_small_BB49_27:                              @ %join.5.i.epil.preheader
	movs	r0, #0
	str	r0, [sp, #96]
	str	r0, [sp, #68]                   @ 4-byte Spill
	str	r0, [sp, #100]
	lsrs	r0, r3, #29
	lsls	r1, r4, #3
	adds	r7, r1, r0
	lsls	r4, r3, #3
	ldr	r0, [sp, #80]                   @ 4-byte Reload
	subs	r2, r0, r4
	ldr	r1, [sp, #92]                   @ 4-byte Reload
	str	r7, [sp, #72]                   @ 4-byte Spill
	sbcs	r1, r7
	movs	r0, #8
	cmp	r2, #8
	blo	.Laes_v6m_small_BB49_29
@ %bb.28:                               @ %join.5.i.epil.preheader
	mov	r2, r0
.Laes_v6m_small_BB49_29:                              @ %join.5.i.epil.preheader
	cmp	r1, #0
	beq	.Laes_v6m_small_BB49_31
@ %bb.30:                               @ %join.5.i.epil.preheader
	mov	r2, r0
.Laes_v6m_small_BB49_31:                              @ %join.5.i.epil.preheader
	ldr	r0, [sp, #84]                   @ 4-byte Reload
	adds	r1, r0, r4
	add	r0, sp, #96
	bl	memcpy
	ldr	r0, [sp, #100]
	ldr	r1, [sp, #96]
	ldr	r2, [sp, #88]                   @ 4-byte Reload
	strb	r1, [r2, r4]
	adds	r2, r2, r4
	lsrs	r3, r0, #24
	strb	r3, [r2, #7]
	lsrs	r3, r0, #16
	strb	r3, [r2, #6]
	lsrs	r3, r0, #8
	strb	r3, [r2, #5]
	strb	r0, [r2, #4]
	lsrs	r0, r1, #24
	strb	r0, [r2, #3]
	lsrs	r0, r1, #16
	strb	r0, [r2, #2]
	lsrs	r0, r1, #8
	strb	r0, [r2, #1]
	ldr	r0, [sp, #40]                   @ 4-byte Reload
	cmp	r0, #1
	beq	.Laes_v6m_small_BB49_42
@ %bb.32:                               @ %join.5.i.epil.1
	ldr	r1, [sp, #68]                   @ 4-byte Reload
	str	r1, [sp, #96]
	str	r1, [sp, #100]
	mov	r6, r4
	adds	r6, #8
	ldr	r0, [sp, #72]                   @ 4-byte Reload
	adcs	r0, r1
	ldr	r1, [sp, #80]                   @ 4-byte Reload
	subs	r2, r1, r6
	ldr	r1, [sp, #92]                   @ 4-byte Reload
	sbcs	r1, r0
	movs	r0, #8
	cmp	r2, #8
	blo	.Laes_v6m_small_BB49_34
@ %bb.33:                               @ %join.5.i.epil.1
	mov	r2, r0
.Laes_v6m_small_BB49_34:                              @ %join.5.i.epil.1
	cmp	r1, #0
	beq	.Laes_v6m_small_BB49_36
@ %bb.35:                               @ %join.5.i.epil.1
	mov	r2, r0
.Laes_v6m_small_BB49_36:                              @ %join.5.i.epil.1
	ldr	r0, [sp, #84]                   @ 4-byte Reload
	adds	r1, r0, r6
	add	r0, sp, #96
	bl	memcpy
	ldr	r0, [sp, #100]
	ldr	r1, [sp, #96]
	ldr	r2, [sp, #88]                   @ 4-byte Reload
	strb	r1, [r2, r6]
	adds	r2, r2, r6
	lsrs	r3, r0, #24
	strb	r3, [r2, #7]
	lsrs	r3, r0, #16
	strb	r3, [r2, #6]
	lsrs	r3, r0, #8
	strb	r3, [r2, #5]
	strb	r0, [r2, #4]
	lsrs	r0, r1, #24
	strb	r0, [r2, #3]
	lsrs	r0, r1, #16
	strb	r0, [r2, #2]
	lsrs	r0, r1, #8
	strb	r0, [r2, #1]
	ldr	r0, [sp, #40]                   @ 4-byte Reload
	cmp	r0, #2
	ldr	r5, [sp, #36]                   @ 4-byte Reload
	beq	.Laes_v6m_small_BB49_42
@ %bb.37:                               @ %join.5.i.epil.2
	ldr	r0, [sp, #68]                   @ 4-byte Reload
	str	r0, [sp, #96]
	str	r0, [sp, #100]
	adds	r4, #16
	ldr	r1, [sp, #72]                   @ 4-byte Reload
	adcs	r1, r0
	ldr	r0, [sp, #80]                   @ 4-byte Reload
	subs	r2, r0, r4
	ldr	r0, [sp, #92]                   @ 4-byte Reload
	sbcs	r0, r1
	str	r0, [sp, #92]                   @ 4-byte Spill
	movs	r0, #8
	cmp	r2, #8
	blo	.Laes_v6m_small_BB49_39
@ %bb.38:                               @ %join.5.i.epil.2
	mov	r2, r0
.Laes_v6m_small_BB49_39:                              @ %join.5.i.epil.2
	ldr	r1, [sp, #92]                   @ 4-byte Reload
	cmp	r1, #0
	ldr	r7, [sp, #88]                   @ 4-byte Reload
	beq	.Laes_v6m_small_BB49_41
@ %bb.40:                               @ %join.5.i.epil.2
	mov	r2, r0
.Laes_v6m_small_BB49_41:                              @ %join.5.i.epil.2
	ldr	r0, [sp, #84]                   @ 4-byte Reload
	adds	r1, r0, r4
	add	r0, sp, #96
	bl	memcpy
	ldr	r0, [sp, #100]
	ldr	r1, [sp, #96]
	strb	r1, [r7, r4]
	adds	r2, r7, r4
	lsrs	r3, r0, #24
	strb	r3, [r2, #7]
	lsrs	r3, r0, #16
	strb	r3, [r2, #6]
	lsrs	r3, r0, #8
	strb	r3, [r2, #5]
	strb	r0, [r2, #4]
	lsrs	r0, r1, #24
	strb	r0, [r2, #3]
	lsrs	r0, r1, #16
	strb	r0, [r2, #2]
	lsrs	r0, r1, #8
	strb	r0, [r2, #1]
.Laes_v6m_small_BB49_42:                              @ %"key_wrap::padded::fill.exit"
	movs	r0, #1
	mov	r1, r5
	eors	r1, r0
	ldr	r7, [sp, #48]                   @ 4-byte Reload
	orrs	r1, r7
	ldr	r4, [sp, #28]                   @ 4-byte Reload
	bne	.Laes_v6m_small_BB49_44
@ %bb.43:                               @ %then.1.i
	ldr	r1, [sp, #76]                   @ 4-byte Reload
	str	r1, [sp, #96]
	ldr	r1, [sp, #44]                   @ 4-byte Reload
	str	r1, [sp, #100]
	ldrb	r1, [r4, #12]
	ldrb	r2, [r4, #13]
	lsls	r2, r2, #8
	adds	r1, r2, r1
	ldrb	r2, [r4, #14]
	lsls	r2, r2, #16
	ldrb	r3, [r4, #15]
	lsls	r3, r3, #24
	adds	r2, r3, r2
	adds	r1, r2, r1
	str	r1, [sp, #108]
	ldrb	r1, [r4, #8]
	ldrb	r2, [r4, #9]
	lsls	r2, r2, #8
	adds	r1, r2, r1
	ldrb	r2, [r4, #10]
	lsls	r2, r2, #16
	ldrb	r3, [r4, #11]
	lsls	r3, r3, #24
	adds	r2, r3, r2
	adds	r1, r2, r1
	str	r1, [sp, #104]
	ldr	r1, [sp, #32]                   @ 4-byte Reload
	ldrb	r2, [r1, #15]
	str	r2, [sp, #92]                   @ 4-byte Spill
	ldrb	r2, [r1, #14]
	str	r2, [sp, #88]                   @ 4-byte Spill
	ldrb	r2, [r1, #12]
	str	r2, [sp, #84]                   @ 4-byte Spill
	ldrb	r2, [r1, #13]
	str	r2, [sp, #80]                   @ 4-byte Spill
	ldrb	r2, [r1, #11]
	str	r2, [sp, #76]                   @ 4-byte Spill
	ldrb	r2, [r1, #10]
	str	r2, [sp, #72]                   @ 4-byte Spill
	ldrb	r2, [r1, #8]
	str	r2, [sp, #68]                   @ 4-byte Spill
	ldrb	r7, [r1, #9]
	ldrb	r5, [r1, #3]
	ldrb	r3, [r1, #2]
	ldrb	r2, [r1]
	ldrb	r1, [r1, #1]
	movs	r6, #0
	str	r0, [sp, #8]
	str	r6, [sp, #12]
	add	r0, sp, #96
	str	r0, [sp]
	lsls	r0, r1, #8
	adds	r0, r0, r2
	lsls	r1, r3, #16
	lsls	r2, r5, #24
	adds	r1, r2, r1
	adds	r0, r1, r0
	lsls	r1, r7, #8
	ldr	r2, [sp, #68]                   @ 4-byte Reload
	adds	r1, r1, r2
	ldr	r2, [sp, #72]                   @ 4-byte Reload
	lsls	r2, r2, #16
	ldr	r3, [sp, #76]                   @ 4-byte Reload
	lsls	r3, r3, #24
	adds	r2, r3, r2
	adds	r2, r2, r1
	ldr	r1, [sp, #80]                   @ 4-byte Reload
	lsls	r1, r1, #8
	ldr	r3, [sp, #84]                   @ 4-byte Reload
	adds	r1, r1, r3
	ldr	r3, [sp, #88]                   @ 4-byte Reload
	lsls	r3, r3, #16
	ldr	r5, [sp, #92]                   @ 4-byte Reload
	lsls	r5, r5, #24
	adds	r3, r5, r3
	adds	r3, r3, r1
	bl	aes_v6m_small.aes_narrow.blocks.process_all_batches.1
	bl	aes_v6m_small.aes_cipher.zeroize.stack.wipe_stack.1024
	mov	r0, r6
	ldr	r3, [sp, #108]
	strb	r3, [r4, #12]
	ldr	r6, [sp, #104]
	strb	r6, [r4, #8]
	ldr	r2, [sp, #100]
	strb	r2, [r4, #4]
	ldr	r1, [sp, #96]
	strb	r1, [r4]
	lsrs	r5, r3, #24
	strb	r5, [r4, #15]
	lsrs	r5, r3, #16
	strb	r5, [r4, #14]
	lsrs	r3, r3, #8
	strb	r3, [r4, #13]
	lsrs	r3, r6, #24
	strb	r3, [r4, #11]
	lsrs	r3, r6, #16
	strb	r3, [r4, #10]
	lsrs	r3, r6, #8
	strb	r3, [r4, #9]
	lsrs	r3, r2, #24
	strb	r3, [r4, #7]
	lsrs	r3, r2, #16
	strb	r3, [r4, #6]
	lsrs	r2, r2, #8
	strb	r2, [r4, #5]
	lsrs	r2, r1, #24
	strb	r2, [r4, #3]
	lsrs	r2, r1, #16
	strb	r2, [r4, #2]
	lsrs	r1, r1, #8
	strb	r1, [r4, #1]
	add	sp, #116
	pop	{r4, r5, r6, r7, pc}
.Laes_v6m_small_BB49_44:                              @ %else.2.i
	ldr	r6, [sp, #44]                   @ 4-byte Reload
	movs	r1, #0
	mov	r2, r1
	b	.Laes_v6m_small_BB49_48
	.p2align	2
@ %bb.45:
.Laes_v6m_small_CPI49_1:
	.long	2790873510                      @ 0xa65959a6
	.p2align	1
.Laes_v6m_small_BB49_46:                              @   in Loop: Header=BB49_48 Depth=1
	ldr	r1, [sp, #76]                   @ 4-byte Reload
.Laes_v6m_small_BB49_47:                              @ %"key_wrap::steps::wrap_turn::<#4f733d09d7f6c6b4>.exit.i.i"
                                        @   in Loop: Header=BB49_48 Depth=1
	str	r1, [sp, #76]                   @ 4-byte Spill
	movs	r0, #0
	ldr	r3, [sp, #24]                   @ 4-byte Reload
	adds	r1, r3, #1
	ldr	r7, [sp, #20]                   @ 4-byte Reload
	mov	r2, r7
	adcs	r2, r0
	subs	r3, r3, #5
	sbcs	r7, r0
	ldr	r7, [sp, #48]                   @ 4-byte Reload
	blo	.Laes_v6m_small_BB49_48
	b	.Laes_v6m_small_BB49_52
.Laes_v6m_small_BB49_48:                              @ %join.5.i.i
                                        @ =>This Loop Header: Depth=1
                                        @     Child Loop BB49_50 Depth 2
	ldr	r0, [sp, #16]                   @ 4-byte Reload
	cmp	r0, #0
	str	r1, [sp, #24]                   @ 4-byte Spill
	str	r2, [sp, #20]                   @ 4-byte Spill
	bne	.Laes_v6m_small_BB49_46
@ %bb.49:                               @ %join.5.lr.ph.i.i.i
                                        @   in Loop: Header=BB49_48 Depth=1
	mov	r0, r1
	mov	r1, r2
	mov	r2, r5
	mov	r3, r7
	bl	__aeabi_lmul
	movs	r2, #0
	adds	r0, r0, #1
	str	r0, [sp, #40]                   @ 4-byte Spill
	adcs	r1, r2
	str	r1, [sp, #44]                   @ 4-byte Spill
	mov	r3, r2
	str	r2, [sp, #84]                   @ 4-byte Spill
	str	r2, [sp, #80]                   @ 4-byte Spill
	ldr	r1, [sp, #76]                   @ 4-byte Reload
.Laes_v6m_small_BB49_50:                              @ %join.5.i.i.i
                                        @   Parent Loop BB49_48 Depth=1
                                        @ =>  This Inner Loop Header: Depth=2
	str	r3, [sp, #92]                   @ 4-byte Spill
	str	r1, [sp, #96]
	str	r6, [sp, #100]
	lsls	r7, r3, #3
	ldr	r3, [sp, #88]                   @ 4-byte Reload
	adds	r5, r3, r7
	ldrb	r0, [r5, #4]
	ldrb	r1, [r5, #5]
	lsls	r1, r1, #8
	adds	r0, r1, r0
	ldrb	r1, [r5, #6]
	lsls	r1, r1, #16
	ldrb	r2, [r5, #7]
	lsls	r2, r2, #24
	adds	r1, r2, r1
	adds	r0, r1, r0
	str	r0, [sp, #108]
	ldrb	r0, [r3, r7]
	ldrb	r1, [r5, #1]
	lsls	r1, r1, #8
	adds	r0, r1, r0
	ldrb	r1, [r5, #2]
	lsls	r1, r1, #16
	ldrb	r2, [r5, #3]
	lsls	r2, r2, #24
	adds	r1, r2, r1
	adds	r0, r1, r0
	str	r0, [sp, #104]
	ldr	r3, [sp, #32]                   @ 4-byte Reload
	ldrb	r0, [r3, #15]
	str	r0, [sp, #76]                   @ 4-byte Spill
	ldrb	r0, [r3, #14]
	str	r0, [sp, #72]                   @ 4-byte Spill
	ldrb	r0, [r3, #12]
	str	r0, [sp, #68]                   @ 4-byte Spill
	ldrb	r0, [r3, #13]
	str	r0, [sp, #64]                   @ 4-byte Spill
	ldrb	r0, [r3, #11]
	str	r0, [sp, #60]                   @ 4-byte Spill
	ldrb	r0, [r3, #10]
	str	r0, [sp, #56]                   @ 4-byte Spill
	ldrb	r0, [r3, #8]
	str	r0, [sp, #52]                   @ 4-byte Spill
	ldrb	r2, [r3, #9]
	ldrb	r1, [r3, #3]
	ldrb	r4, [r3, #2]
	ldrb	r0, [r3]
	ldrb	r6, [r3, #1]
	movs	r3, #1
	str	r3, [sp, #8]
	ldr	r3, [sp, #84]                   @ 4-byte Reload
	str	r3, [sp, #12]
	add	r3, sp, #96
	str	r3, [sp]
	lsls	r3, r6, #8
	adds	r3, r3, r0
	lsls	r4, r4, #16
	lsls	r0, r1, #24
	adds	r0, r0, r4
	adds	r0, r0, r3
	lsls	r1, r2, #8
	ldr	r2, [sp, #52]                   @ 4-byte Reload
	adds	r1, r1, r2
	ldr	r2, [sp, #56]                   @ 4-byte Reload
	lsls	r2, r2, #16
	ldr	r3, [sp, #60]                   @ 4-byte Reload
	lsls	r3, r3, #24
	adds	r2, r3, r2
	adds	r2, r2, r1
	ldr	r1, [sp, #64]                   @ 4-byte Reload
	lsls	r1, r1, #8
	ldr	r3, [sp, #68]                   @ 4-byte Reload
	adds	r1, r1, r3
	ldr	r3, [sp, #72]                   @ 4-byte Reload
	lsls	r3, r3, #16
	ldr	r4, [sp, #76]                   @ 4-byte Reload
	lsls	r4, r4, #24
	adds	r3, r4, r3
	ldr	r4, [sp, #28]                   @ 4-byte Reload
	adds	r3, r3, r1
	bl	aes_v6m_small.aes_narrow.blocks.process_all_batches.1
	bl	aes_v6m_small.aes_cipher.zeroize.stack.wipe_stack.1024
	ldr	r0, [sp, #100]
	strb	r0, [r4, #4]
	ldr	r1, [sp, #96]
	strb	r1, [r4]
	lsrs	r2, r0, #24
	strb	r2, [r4, #7]
	lsrs	r2, r0, #16
	strb	r2, [r4, #6]
	lsrs	r0, r0, #8
	strb	r0, [r4, #5]
	lsrs	r0, r1, #24
	strb	r0, [r4, #3]
	lsrs	r0, r1, #16
	strb	r0, [r4, #2]
	lsrs	r0, r1, #8
	strb	r0, [r4, #1]
	ldr	r0, [sp, #104]
	ldr	r1, [sp, #88]                   @ 4-byte Reload
	strb	r0, [r1, r7]
	ldr	r1, [sp, #108]
	lsrs	r2, r1, #16
	strb	r2, [r5, #6]
	lsrs	r2, r1, #24
	strb	r2, [r5, #7]
	strb	r1, [r5, #4]
	lsrs	r1, r1, #8
	strb	r1, [r5, #5]
	lsrs	r1, r0, #16
	strb	r1, [r5, #2]
	lsrs	r1, r0, #24
	strb	r1, [r5, #3]
	lsrs	r0, r0, #8
	strb	r0, [r5, #1]
	ldrb	r0, [r4]
	ldrb	r1, [r4, #1]
	lsls	r1, r1, #8
	adds	r0, r1, r0
	ldrb	r1, [r4, #2]
	lsls	r1, r1, #16
	ldrb	r2, [r4, #3]
	lsls	r2, r2, #24
	adds	r1, r2, r1
	adds	r3, r1, r0
	ldr	r0, [sp, #40]                   @ 4-byte Reload
	ldr	r1, [sp, #92]                   @ 4-byte Reload
	adds	r0, r0, r1
	ldr	r2, [sp, #44]                   @ 4-byte Reload
	ldr	r7, [sp, #80]                   @ 4-byte Reload
	adcs	r2, r7
	rev	r1, r2
	eors	r1, r3
	strb	r1, [r4]
	ldrb	r3, [r4, #4]
	ldrb	r2, [r4, #5]
	lsls	r2, r2, #8
	adds	r5, r2, r3
	ldrb	r2, [r4, #6]
	lsls	r2, r2, #16
	ldrb	r3, [r4, #7]
	lsls	r3, r3, #24
	adds	r2, r3, r2
	ldr	r3, [sp, #92]                   @ 4-byte Reload
	adds	r2, r2, r5
	rev	r6, r0
	eors	r6, r2
	strb	r6, [r4, #4]
	lsrs	r0, r1, #16
	strb	r0, [r4, #2]
	lsrs	r0, r1, #24
	strb	r0, [r4, #3]
	lsrs	r0, r1, #8
	strb	r0, [r4, #1]
	lsrs	r0, r6, #16
	strb	r0, [r4, #6]
	lsrs	r0, r6, #24
	strb	r0, [r4, #7]
	lsrs	r0, r6, #8
	strb	r0, [r4, #5]
	adds	r3, r3, #1
	ldr	r0, [sp, #84]                   @ 4-byte Reload
	adcs	r7, r0
	ldr	r0, [sp, #36]                   @ 4-byte Reload
	mov	r5, r0
	subs	r0, r3, r0
	str	r7, [sp, #80]                   @ 4-byte Spill
	ldr	r2, [sp, #48]                   @ 4-byte Reload
	sbcs	r7, r2
	bhs	.Laes_v6m_small_BB49_51
	b	.Laes_v6m_small_BB49_50
.Laes_v6m_small_BB49_51:                              @ %join.5.i.i.i
                                        @   in Loop: Header=BB49_48 Depth=1
	b	.Laes_v6m_small_BB49_47
.Laes_v6m_small_BB49_52:                              @ %return.4
	add	sp, #116
	pop	{r4, r5, r6, r7, pc}
@ %bb.53:
.Laes_v6m_small_func_end49:
	.size	aes_v6m_small.key_wrap.padded.wrap_padded, .Laes_v6m_small_func_end49-aes_v6m_small.key_wrap.padded.wrap_padded
	.cantunwind
	.fnend
                                        @ -- End function
	.section	.text.aes_v6m_small.aes_narrow.borrowed_words.call_to_decrypt,"ax",%progbits
	.p2align	2                               @ -- Begin function aes_narrow::borrowed_words::call_to_decrypt::<#a8a74a144d92a363>
	.type	aes_v6m_small.aes_narrow.borrowed_words.call_to_decrypt,%function
	.code	16
	.thumb_func
aes_v6m_small.aes_narrow.borrowed_words.call_to_decrypt: @ @aes_v6m_small.aes_narrow.borrowed_words.call_to_decrypt
	.fnstart
@ %bb.0:                                @ %start
	.save	{r4, r5, r6, r7, lr}
	push	{r4, r5, r6, r7, lr}
	.pad	#508
	sub	sp, #508
	.pad	#508
	sub	sp, #508
	.pad	#140
	sub	sp, #140
	ldr	r4, .Laes_v6m_small_CPI50_0
	add	r4, sp
	ldr	r4, [r4]
	ldr	r5, [r4, #24]
	ldr	r6, [r4, #28]
	mov	r1, r5
	orrs	r1, r6
	bne	.Laes_v6m_small_BB50_1
	b	.Laes_v6m_small_BB50_14
.Laes_v6m_small_BB50_1:                               @ %join.5.lr.ph.i.i
	ldr	r1, [r4, #16]
	str	r1, [sp, #28]                   @ 4-byte Spill
	movs	r1, #0
	mov	r7, r1
	str	r1, [sp, #44]                   @ 4-byte Spill
	str	r3, [sp, #56]                   @ 4-byte Spill
	str	r2, [sp, #64]                   @ 4-byte Spill
	str	r0, [sp, #52]                   @ 4-byte Spill
	str	r6, [sp, #32]                   @ 4-byte Spill
	str	r5, [sp, #36]                   @ 4-byte Spill
	str	r4, [sp, #24]                   @ 4-byte Spill
.Laes_v6m_small_BB50_2:                               @ %join.5.i.i
                                        @ =>This Loop Header: Depth=1
                                        @     Child Loop BB50_8 Depth 2
                                        @     Child Loop BB50_10 Depth 2
                                        @     Child Loop BB50_12 Depth 2
	str	r1, [sp, #48]                   @ 4-byte Spill
	movs	r0, #1
	str	r0, [sp, #120]                  @ 4-byte Spill
	lsls	r2, r0, #10
	add	r0, sp, #132
	str	r0, [sp, #112]                  @ 4-byte Spill
	ldr	r1, [sp, #44]                   @ 4-byte Reload
	bl	memset
	ldr	r1, [sp, #48]                   @ 4-byte Reload
	subs	r2, r5, r7
	mov	r5, r6
	sbcs	r5, r1
	movs	r0, #64
	cmp	r2, #64
	str	r2, [sp, #116]                  @ 4-byte Spill
	blo	.Laes_v6m_small_BB50_4
@ %bb.3:                                @ %join.5.i.i
                                        @   in Loop: Header=BB50_2 Depth=1
	mov	r2, r0
.Laes_v6m_small_BB50_4:                               @ %join.5.i.i
                                        @   in Loop: Header=BB50_2 Depth=1
	cmp	r5, #0
	beq	.Laes_v6m_small_BB50_6
@ %bb.5:                                @ %join.5.i.i
                                        @   in Loop: Header=BB50_2 Depth=1
	mov	r2, r0
.Laes_v6m_small_BB50_6:                               @ %join.5.i.i
                                        @   in Loop: Header=BB50_2 Depth=1
	adds	r0, r2, r7
	str	r0, [sp, #40]                   @ 4-byte Spill
	ldr	r6, [sp, #44]                   @ 4-byte Reload
	adcs	r1, r6
	str	r1, [sp, #48]                   @ 4-byte Spill
	lsrs	r0, r2, #28
	str	r2, [sp, #128]                  @ 4-byte Spill
	lsls	r2, r2, #4
	lsls	r1, r7, #4
	ldr	r3, [sp, #28]                   @ 4-byte Reload
	adds	r1, r3, r1
	ldr	r3, [sp, #112]                  @ 4-byte Reload
	subs	r7, r3, r1
	mov	r3, r6
	sbcs	r3, r6
	subs	r6, r7, r2
	sbcs	r3, r0
	add	r0, sp, #132
	mov	r6, r1
	bl	memcpy
	movs	r7, #0
	ldr	r0, [sp, #116]                  @ 4-byte Reload
	subs	r0, r0, #2
	sbcs	r5, r7
	mov	r5, r7
	str	r7, [sp, #112]                  @ 4-byte Spill
	ldr	r2, [sp, #64]                   @ 4-byte Reload
	ldr	r3, [sp, #128]                  @ 4-byte Reload
	str	r6, [sp, #124]                  @ 4-byte Spill
	blo	.Laes_v6m_small_BB50_9
@ %bb.7:                                @ %join.5.i.i.i.i.preheader
                                        @   in Loop: Header=BB50_2 Depth=1
	mov	r1, r6
	movs	r7, #0
	mov	r5, r7
	str	r7, [sp, #116]                  @ 4-byte Spill
.Laes_v6m_small_BB50_8:                               @ %join.5.i.i.i.i
                                        @   Parent Loop BB50_2 Depth=1
                                        @ =>  This Inner Loop Header: Depth=2
	movs	r0, #2
	str	r0, [sp, #8]
	ldr	r4, [sp, #116]                  @ 4-byte Reload
	str	r4, [sp, #12]
	lsls	r0, r5, #4
	adds	r0, r1, r0
	str	r0, [sp]
	ldr	r0, [sp, #52]                   @ 4-byte Reload
	ldr	r3, [sp, #56]                   @ 4-byte Reload
	bl	aes_v6m_small.aes_soft.soft.blocks.filled_up.process_filled_up.2
	ldr	r2, [sp, #64]                   @ 4-byte Reload
	ldr	r3, [sp, #128]                  @ 4-byte Reload
	adds	r5, r5, #2
	adcs	r7, r4
	subs	r0, r3, r5
	mov	r1, r4
	sbcs	r1, r7
	ldr	r6, [sp, #120]                  @ 4-byte Reload
	subs	r0, r6, r0
	sbcs	r4, r1
	ldr	r1, [sp, #124]                  @ 4-byte Reload
	blo	.Laes_v6m_small_BB50_8
.Laes_v6m_small_BB50_9:                               @ %loop.7.preheader.i.i.i.i
                                        @   in Loop: Header=BB50_2 Depth=1
	subs	r0, r5, r3
	mov	r0, r7
	ldr	r1, [sp, #112]                  @ 4-byte Reload
	sbcs	r0, r1
	bhs	.Laes_v6m_small_BB50_11
.Laes_v6m_small_BB50_10:                              @ %join.10.i.i.i.i
                                        @   Parent Loop BB50_2 Depth=1
                                        @ =>  This Inner Loop Header: Depth=2
	movs	r6, #0
	ldr	r0, [sp, #120]                  @ 4-byte Reload
	str	r0, [sp, #8]
	str	r6, [sp, #12]
	lsls	r0, r5, #4
	ldr	r1, [sp, #124]                  @ 4-byte Reload
	adds	r0, r1, r0
	str	r0, [sp]
	ldr	r0, [sp, #52]                   @ 4-byte Reload
	ldr	r3, [sp, #56]                   @ 4-byte Reload
	bl	aes_v6m_small.aes_soft.soft.blocks.filled_up.process_filled_up.2
	ldr	r2, [sp, #64]                   @ 4-byte Reload
	adds	r5, r5, #1
	adcs	r7, r6
	ldr	r0, [sp, #128]                  @ 4-byte Reload
	subs	r0, r5, r0
	mov	r0, r7
	sbcs	r0, r6
	blo	.Laes_v6m_small_BB50_10
.Laes_v6m_small_BB50_11:                              @ %join.7.lr.ph.i.i.i
                                        @   in Loop: Header=BB50_2 Depth=1
	ldr	r4, [sp, #24]                   @ 4-byte Reload
	ldrb	r7, [r4, #15]
	ldrb	r0, [r4, #14]
	str	r0, [sp, #72]                   @ 4-byte Spill
	ldrb	r0, [r4, #13]
	str	r0, [sp, #76]                   @ 4-byte Spill
	ldrb	r0, [r4, #12]
	str	r0, [sp, #80]                   @ 4-byte Spill
	ldrb	r0, [r4, #11]
	str	r0, [sp, #84]                   @ 4-byte Spill
	ldrb	r0, [r4, #10]
	str	r0, [sp, #88]                   @ 4-byte Spill
	ldrb	r0, [r4, #9]
	str	r0, [sp, #92]                   @ 4-byte Spill
	ldrb	r0, [r4, #8]
	str	r0, [sp, #96]                   @ 4-byte Spill
	ldrb	r0, [r4, #7]
	str	r0, [sp, #100]                  @ 4-byte Spill
	ldrb	r0, [r4, #6]
	str	r0, [sp, #104]                  @ 4-byte Spill
	ldrb	r0, [r4, #5]
	str	r0, [sp, #108]                  @ 4-byte Spill
	ldrb	r0, [r4, #4]
	str	r0, [sp, #112]                  @ 4-byte Spill
	ldrb	r0, [r4, #3]
	str	r0, [sp, #116]                  @ 4-byte Spill
	ldrb	r0, [r4, #2]
	str	r0, [sp, #120]                  @ 4-byte Spill
	ldrb	r5, [r4, #1]
	ldrb	r6, [r4]
	movs	r2, #0
	mov	r1, r2
	str	r2, [sp, #60]                   @ 4-byte Spill
.Laes_v6m_small_BB50_12:                              @ %join.7.i.i.i
                                        @   Parent Loop BB50_2 Depth=1
                                        @ =>  This Inner Loop Header: Depth=2
	str	r5, [sp, #68]                   @ 4-byte Spill
	lsls	r3, r1, #4
	ldr	r0, [sp, #124]                  @ 4-byte Reload
	ldrb	r5, [r0, r3]
	eors	r5, r6
	strb	r5, [r0, r3]
	adds	r6, r0, r3
	ldrb	r5, [r6, #15]
	eors	r5, r7
	strb	r5, [r6, #15]
	ldrb	r5, [r6, #14]
	ldr	r0, [sp, #72]                   @ 4-byte Reload
	eors	r5, r0
	strb	r5, [r6, #14]
	ldrb	r0, [r6, #13]
	ldr	r5, [sp, #76]                   @ 4-byte Reload
	eors	r0, r5
	strb	r0, [r6, #13]
	ldrb	r0, [r6, #12]
	ldr	r5, [sp, #80]                   @ 4-byte Reload
	eors	r0, r5
	strb	r0, [r6, #12]
	ldrb	r0, [r6, #11]
	ldr	r5, [sp, #84]                   @ 4-byte Reload
	eors	r0, r5
	strb	r0, [r6, #11]
	ldrb	r0, [r6, #10]
	ldr	r5, [sp, #88]                   @ 4-byte Reload
	eors	r0, r5
	strb	r0, [r6, #10]
	ldrb	r0, [r6, #9]
	ldr	r5, [sp, #92]                   @ 4-byte Reload
	eors	r0, r5
	strb	r0, [r6, #9]
	ldrb	r0, [r6, #8]
	ldr	r5, [sp, #96]                   @ 4-byte Reload
	eors	r0, r5
	strb	r0, [r6, #8]
	ldrb	r0, [r6, #7]
	ldr	r5, [sp, #100]                  @ 4-byte Reload
	eors	r0, r5
	strb	r0, [r6, #7]
	ldrb	r0, [r6, #6]
	ldr	r5, [sp, #104]                  @ 4-byte Reload
	eors	r0, r5
	strb	r0, [r6, #6]
	ldrb	r0, [r6, #5]
	ldr	r5, [sp, #108]                  @ 4-byte Reload
	eors	r0, r5
	strb	r0, [r6, #5]
	ldrb	r0, [r6, #4]
	ldr	r5, [sp, #112]                  @ 4-byte Reload
	eors	r0, r5
	strb	r0, [r6, #4]
	ldrb	r0, [r6, #3]
	ldr	r5, [sp, #116]                  @ 4-byte Reload
	eors	r0, r5
	strb	r0, [r6, #3]
	ldrb	r0, [r6, #2]
	ldr	r5, [sp, #120]                  @ 4-byte Reload
	eors	r0, r5
	strb	r0, [r6, #2]
	ldrb	r0, [r6, #1]
	ldr	r5, [sp, #68]                   @ 4-byte Reload
	eors	r0, r5
	strb	r0, [r6, #1]
	add	r6, sp, #132
	adds	r5, r6, r3
	ldrb	r7, [r5, #15]
	strb	r7, [r4, #15]
	ldrb	r0, [r5, #14]
	str	r0, [sp, #72]                   @ 4-byte Spill
	strb	r0, [r4, #14]
	ldrb	r0, [r5, #13]
	str	r0, [sp, #76]                   @ 4-byte Spill
	strb	r0, [r4, #13]
	ldrb	r0, [r5, #12]
	str	r0, [sp, #80]                   @ 4-byte Spill
	strb	r0, [r4, #12]
	ldrb	r0, [r5, #11]
	str	r0, [sp, #84]                   @ 4-byte Spill
	strb	r0, [r4, #11]
	ldrb	r0, [r5, #10]
	str	r0, [sp, #88]                   @ 4-byte Spill
	strb	r0, [r4, #10]
	ldrb	r0, [r5, #9]
	str	r0, [sp, #92]                   @ 4-byte Spill
	strb	r0, [r4, #9]
	ldrb	r0, [r5, #8]
	str	r0, [sp, #96]                   @ 4-byte Spill
	strb	r0, [r4, #8]
	ldrb	r0, [r5, #7]
	str	r0, [sp, #100]                  @ 4-byte Spill
	strb	r0, [r4, #7]
	ldrb	r0, [r5, #6]
	str	r0, [sp, #104]                  @ 4-byte Spill
	strb	r0, [r4, #6]
	ldrb	r0, [r5, #5]
	str	r0, [sp, #108]                  @ 4-byte Spill
	strb	r0, [r4, #5]
	ldrb	r0, [r5, #4]
	str	r0, [sp, #112]                  @ 4-byte Spill
	strb	r0, [r4, #4]
	ldrb	r0, [r5, #3]
	str	r0, [sp, #116]                  @ 4-byte Spill
	strb	r0, [r4, #3]
	ldrb	r0, [r5, #2]
	str	r0, [sp, #120]                  @ 4-byte Spill
	strb	r0, [r4, #2]
	ldrb	r5, [r5, #1]
	strb	r5, [r4, #1]
	ldrb	r6, [r6, r3]
	strb	r6, [r4]
	adds	r1, r1, #1
	ldr	r0, [sp, #60]                   @ 4-byte Reload
	adcs	r2, r0
	ldr	r3, [sp, #128]                  @ 4-byte Reload
	subs	r3, r1, r3
	mov	r3, r2
	sbcs	r3, r0
	blo	.Laes_v6m_small_BB50_12
@ %bb.13:                               @ %"cbc::decryption::unchain_part::<#c3f6a2486d05430b>.exit.loopexit.i.i"
                                        @   in Loop: Header=BB50_2 Depth=1
	ldr	r5, [sp, #36]                   @ 4-byte Reload
	ldr	r7, [sp, #40]                   @ 4-byte Reload
	subs	r0, r7, r5
	ldr	r1, [sp, #48]                   @ 4-byte Reload
	mov	r0, r1
	ldr	r6, [sp, #32]                   @ 4-byte Reload
	sbcs	r0, r6
	bhs	.Laes_v6m_small_BB50_14
	b	.Laes_v6m_small_BB50_2
.Laes_v6m_small_BB50_14:                              @ %"cbc::decryption::ChainBlockCipherDecClosure::call::<#c3f6a2486d05430b>.exit"
	add	sp, #508
	add	sp, #508
	add	sp, #140
	pop	{r4, r5, r6, r7, pc}
	.p2align	2
@ %bb.15:
.Laes_v6m_small_CPI50_0:
	.long	1176                            @ 0x498
.Laes_v6m_small_func_end50:
	.size	aes_v6m_small.aes_narrow.borrowed_words.call_to_decrypt, .Laes_v6m_small_func_end50-aes_v6m_small.aes_narrow.borrowed_words.call_to_decrypt
	.cantunwind
	.fnend
                                        @ -- End function
	.section	.text.aes_v6m_small.aes_soft.soft.blocks.filled_up.process_filled_up.2,"ax",%progbits
	.p2align	1                               @ -- Begin function aes_soft::soft::blocks::filled_up::process_filled_up::<#a3dcb71d05bd149b>
	.type	aes_v6m_small.aes_soft.soft.blocks.filled_up.process_filled_up.2,%function
	.code	16
	.thumb_func
aes_v6m_small.aes_soft.soft.blocks.filled_up.process_filled_up.2: @ @aes_v6m_small.aes_soft.soft.blocks.filled_up.process_filled_up.2
	.fnstart
@ %bb.0:                                @ %start
	.save	{r4, r5, r6, r7, lr}
	push	{r4, r5, r6, r7, lr}
	.pad	#156
	sub	sp, #156
	str	r3, [sp, #8]                    @ 4-byte Spill
	str	r2, [sp, #24]                   @ 4-byte Spill
	str	r0, [sp, #20]                   @ 4-byte Spill
	movs	r6, #0
	str	r6, [sp, #120]
	str	r6, [sp, #116]
	str	r6, [sp, #112]
	str	r6, [sp, #108]
	str	r6, [sp, #104]
	str	r6, [sp, #100]
	str	r6, [sp, #96]
	str	r6, [sp, #92]
	str	r6, [sp, #60]
	str	r6, [sp, #64]
	str	r6, [sp, #68]
	str	r6, [sp, #72]
	str	r6, [sp, #76]
	str	r6, [sp, #80]
	str	r6, [sp, #84]
	str	r6, [sp, #88]
	str	r6, [sp, #28]
	str	r6, [sp, #32]
	str	r6, [sp, #36]
	str	r6, [sp, #40]
	str	r6, [sp, #44]
	str	r6, [sp, #48]
	str	r6, [sp, #52]
	str	r6, [sp, #56]
	ldr	r4, [sp, #176]
	ldrb	r0, [r4, #12]
	ldrb	r1, [r4, #13]
	lsls	r1, r1, #8
	adds	r0, r1, r0
	ldrb	r1, [r4, #14]
	lsls	r1, r1, #16
	ldrb	r2, [r4, #15]
	lsls	r2, r2, #24
	adds	r1, r2, r1
	adds	r0, r1, r0
	str	r0, [sp, #136]
	ldrb	r0, [r4, #8]
	ldrb	r1, [r4, #9]
	lsls	r1, r1, #8
	adds	r0, r1, r0
	ldrb	r1, [r4, #10]
	lsls	r1, r1, #16
	ldrb	r2, [r4, #11]
	lsls	r2, r2, #24
	adds	r1, r2, r1
	adds	r0, r1, r0
	str	r0, [sp, #132]
	ldrb	r0, [r4, #4]
	ldrb	r1, [r4, #5]
	lsls	r1, r1, #8
	adds	r0, r1, r0
	ldrb	r1, [r4, #6]
	lsls	r1, r1, #16
	ldrb	r2, [r4, #7]
	lsls	r2, r2, #24
	adds	r1, r2, r1
	adds	r0, r1, r0
	str	r0, [sp, #128]
	ldrb	r0, [r4]
	ldrb	r1, [r4, #1]
	lsls	r1, r1, #8
	adds	r0, r1, r0
	ldrb	r1, [r4, #2]
	lsls	r1, r1, #16
	ldrb	r2, [r4, #3]
	lsls	r2, r2, #24
	adds	r1, r2, r1
	adds	r0, r1, r0
	str	r0, [sp, #124]
	add	r0, sp, #124
	adds	r0, #16
	movs	r2, #16
	mov	r1, r4
	bl	memcpy
	ldr	r5, [sp, #188]
	ldr	r7, [sp, #184]
	mov	r1, r7
	orrs	r1, r5
	rsbs	r0, r1, #0
	adcs	r0, r1
	str	r0, [sp, #12]                   @ 4-byte Spill
	ldr	r3, [sp, #8]                    @ 4-byte Reload
	lsls	r0, r3, #29
	ldr	r2, [sp, #24]                   @ 4-byte Reload
	lsrs	r2, r2, #3
	adds	r0, r2, r0
	lsrs	r3, r3, #3
	subs	r0, r0, #1
	str	r0, [sp, #24]                   @ 4-byte Spill
	sbcs	r3, r6
	cmp	r1, #0
	str	r5, [sp, #4]                    @ 4-byte Spill
	str	r7, [sp, #16]                   @ 4-byte Spill
	beq	.Laes_v6m_small_BB51_2
@ %bb.1:                                @ %join.8.i
	ldrb	r0, [r4, #12]
	ldrb	r1, [r4, #13]
	lsls	r1, r1, #8
	adds	r0, r1, r0
	ldrb	r1, [r4, #14]
	lsls	r1, r1, #16
	ldrb	r2, [r4, #15]
	lsls	r2, r2, #24
	adds	r1, r2, r1
	adds	r0, r1, r0
	str	r0, [sp, #136]
	ldrb	r0, [r4, #8]
	ldrb	r1, [r4, #9]
	lsls	r1, r1, #8
	adds	r0, r1, r0
	ldrb	r1, [r4, #10]
	lsls	r1, r1, #16
	ldrb	r2, [r4, #11]
	lsls	r2, r2, #24
	adds	r1, r2, r1
	adds	r0, r1, r0
	str	r0, [sp, #132]
	ldrb	r0, [r4, #4]
	ldrb	r1, [r4, #5]
	lsls	r1, r1, #8
	adds	r0, r1, r0
	ldrb	r1, [r4, #6]
	lsls	r1, r1, #16
	ldrb	r2, [r4, #7]
	lsls	r2, r2, #24
	adds	r1, r2, r1
	adds	r0, r1, r0
	str	r0, [sp, #128]
	ldrb	r0, [r4]
	ldrb	r1, [r4, #1]
	lsls	r1, r1, #8
	adds	r0, r1, r0
	ldrb	r1, [r4, #2]
	lsls	r1, r1, #16
	ldrb	r2, [r4, #3]
	lsls	r2, r2, #24
	adds	r1, r2, r1
	adds	r0, r1, r0
	str	r0, [sp, #124]
	movs	r0, #1
	eors	r0, r7
	orrs	r0, r5
	bne	.Laes_v6m_small_BB51_3
.Laes_v6m_small_BB51_2:                               @ %then.6.i
	add	r0, sp, #124
	add	r1, sp, #60
	ldm	r0!, {r2, r5, r6, r7}
	stm	r1!, {r2, r5, r6, r7}
	ldm	r0!, {r2, r5, r6, r7}
	stm	r1!, {r2, r5, r6, r7}
	b	.Laes_v6m_small_BB51_4
.Laes_v6m_small_BB51_3:                               @ %join.8.i.1
	add	r5, sp, #124
	mov	r0, r5
	adds	r0, #16
	mov	r1, r4
	adds	r1, #16
	movs	r2, #16
	mov	r6, r3
	bl	memcpy
	mov	r3, r6
	add	r0, sp, #60
	ldm	r5!, {r1, r2, r6, r7}
	stm	r0!, {r1, r2, r6, r7}
	ldm	r5!, {r1, r2, r6, r7}
	stm	r0!, {r1, r2, r6, r7}
.Laes_v6m_small_BB51_4:                               @ %"aes_soft::soft::blocks::filled_up::filled_up::<#7d3b633001169d8c>.exit"
	add	r0, sp, #60
	str	r0, [sp]
	add	r6, sp, #28
	mov	r0, r6
	ldr	r1, [sp, #20]                   @ 4-byte Reload
	ldr	r2, [sp, #24]                   @ 4-byte Reload
	bl	aes_v6m_small.aes_soft.soft.ciphers.planes.process_outlined.2
	add	r0, sp, #92
	ldm	r6!, {r1, r2, r3, r5}
	stm	r0!, {r1, r2, r3, r5}
	ldm	r6!, {r1, r2, r3, r5}
	stm	r0!, {r1, r2, r3, r5}
	ldr	r0, [sp, #12]                   @ 4-byte Reload
	cmp	r0, #0
	ldr	r5, [sp, #16]                   @ 4-byte Reload
	bne	.Laes_v6m_small_BB51_7
@ %bb.5:                                @ %join.8.i22
	add	r1, sp, #92
	movs	r2, #16
	mov	r0, r4
	bl	memcpy
	movs	r0, #1
	eors	r5, r0
	ldr	r0, [sp, #4]                    @ 4-byte Reload
	orrs	r5, r0
	beq	.Laes_v6m_small_BB51_7
@ %bb.6:                                @ %join.8.i22.1
	adds	r4, #16
	add	r1, sp, #92
	adds	r1, #16
	movs	r2, #16
	mov	r0, r4
	bl	memcpy
.Laes_v6m_small_BB51_7:                               @ %"aes_soft::soft::blocks::filled_up::copy_first::<#7d3b633001169d8c>.exit"
	add	sp, #156
	pop	{r4, r5, r6, r7, pc}
.Laes_v6m_small_func_end51:
	.size	aes_v6m_small.aes_soft.soft.blocks.filled_up.process_filled_up.2, .Laes_v6m_small_func_end51-aes_v6m_small.aes_soft.soft.blocks.filled_up.process_filled_up.2
	.cantunwind
	.fnend
                                        @ -- End function
	.section	.text.aes_v6m_small.aes_soft.soft.ciphers.planes.process_outlined.2,"ax",%progbits
	.p2align	2                               @ -- Begin function aes_soft::soft::ciphers::planes::process_outlined::<#4da0d9798c91611c>
	.type	aes_v6m_small.aes_soft.soft.ciphers.planes.process_outlined.2,%function
	.code	16
	.thumb_func
aes_v6m_small.aes_soft.soft.ciphers.planes.process_outlined.2: @ @aes_v6m_small.aes_soft.soft.ciphers.planes.process_outlined.2
	.fnstart
@ %bb.0:                                @ %start
	.save	{r4, r5, r6, r7, lr}
	push	{r4, r5, r6, r7, lr}
	.pad	#204
	sub	sp, #204
	str	r3, [sp, #80]                   @ 4-byte Spill
	str	r2, [sp, #76]                   @ 4-byte Spill
	str	r1, [sp, #104]                  @ 4-byte Spill
	str	r0, [sp, #84]                   @ 4-byte Spill
	ldr	r0, [sp, #224]
	ldrb	r1, [r0, #28]
	ldrb	r2, [r0, #29]
	lsls	r2, r2, #8
	adds	r1, r2, r1
	ldrb	r2, [r0, #30]
	lsls	r2, r2, #16
	adds	r1, r1, r2
	ldrb	r2, [r0, #31]
	lsls	r2, r2, #24
	adds	r1, r1, r2
	str	r1, [sp, #20]                   @ 4-byte Spill
	ldrb	r1, [r0, #3]
	str	r1, [sp, #100]                  @ 4-byte Spill
	ldrb	r1, [r0, #2]
	str	r1, [sp, #96]                   @ 4-byte Spill
	ldrb	r1, [r0]
	str	r1, [sp, #92]                   @ 4-byte Spill
	ldrb	r1, [r0, #1]
	str	r1, [sp, #88]                   @ 4-byte Spill
	ldrb	r1, [r0, #19]
	str	r1, [sp, #72]                   @ 4-byte Spill
	ldrb	r1, [r0, #18]
	str	r1, [sp, #68]                   @ 4-byte Spill
	ldrb	r1, [r0, #16]
	str	r1, [sp, #64]                   @ 4-byte Spill
	ldrb	r1, [r0, #17]
	str	r1, [sp, #60]                   @ 4-byte Spill
	ldrb	r1, [r0, #7]
	str	r1, [sp, #56]                   @ 4-byte Spill
	ldrb	r1, [r0, #6]
	str	r1, [sp, #52]                   @ 4-byte Spill
	ldrb	r1, [r0, #4]
	str	r1, [sp, #48]                   @ 4-byte Spill
	ldrb	r1, [r0, #5]
	str	r1, [sp, #44]                   @ 4-byte Spill
	ldrb	r1, [r0, #23]
	str	r1, [sp, #40]                   @ 4-byte Spill
	ldrb	r1, [r0, #22]
	str	r1, [sp, #36]                   @ 4-byte Spill
	ldrb	r1, [r0, #20]
	str	r1, [sp, #32]                   @ 4-byte Spill
	ldrb	r1, [r0, #21]
	str	r1, [sp, #28]                   @ 4-byte Spill
	ldrb	r1, [r0, #11]
	str	r1, [sp, #24]                   @ 4-byte Spill
	ldrb	r1, [r0, #10]
	str	r1, [sp, #16]                   @ 4-byte Spill
	ldrb	r1, [r0, #8]
	str	r1, [sp, #12]                   @ 4-byte Spill
	ldrb	r1, [r0, #9]
	str	r1, [sp, #8]                    @ 4-byte Spill
	ldrb	r1, [r0, #27]
	str	r1, [sp, #4]                    @ 4-byte Spill
	ldrb	r6, [r0, #26]
	ldrb	r5, [r0, #24]
	ldrb	r4, [r0, #25]
	ldrb	r3, [r0, #15]
	ldrb	r2, [r0, #14]
	ldrb	r1, [r0, #12]
	ldrb	r0, [r0, #13]
	ldr	r7, [sp, #20]                   @ 4-byte Reload
	str	r7, [sp, #200]
	lsls	r0, r0, #8
	adds	r0, r0, r1
	lsls	r1, r2, #16
	adds	r0, r0, r1
	lsls	r1, r3, #24
	adds	r0, r0, r1
	str	r0, [sp, #196]
	lsls	r0, r4, #8
	adds	r0, r0, r5
	lsls	r1, r6, #16
	adds	r0, r0, r1
	ldr	r1, [sp, #4]                    @ 4-byte Reload
	lsls	r1, r1, #24
	adds	r0, r0, r1
	str	r0, [sp, #192]
	ldr	r0, [sp, #8]                    @ 4-byte Reload
	lsls	r0, r0, #8
	ldr	r1, [sp, #12]                   @ 4-byte Reload
	adds	r0, r0, r1
	ldr	r1, [sp, #16]                   @ 4-byte Reload
	lsls	r1, r1, #16
	adds	r0, r0, r1
	ldr	r1, [sp, #24]                   @ 4-byte Reload
	lsls	r1, r1, #24
	adds	r0, r0, r1
	str	r0, [sp, #188]
	ldr	r0, [sp, #28]                   @ 4-byte Reload
	lsls	r0, r0, #8
	ldr	r1, [sp, #32]                   @ 4-byte Reload
	adds	r0, r0, r1
	ldr	r1, [sp, #36]                   @ 4-byte Reload
	lsls	r1, r1, #16
	adds	r0, r0, r1
	ldr	r1, [sp, #40]                   @ 4-byte Reload
	lsls	r1, r1, #24
	adds	r0, r0, r1
	str	r0, [sp, #184]
	ldr	r0, [sp, #44]                   @ 4-byte Reload
	lsls	r0, r0, #8
	ldr	r1, [sp, #48]                   @ 4-byte Reload
	adds	r0, r0, r1
	ldr	r1, [sp, #52]                   @ 4-byte Reload
	lsls	r1, r1, #16
	adds	r0, r0, r1
	ldr	r1, [sp, #56]                   @ 4-byte Reload
	lsls	r1, r1, #24
	adds	r0, r0, r1
	str	r0, [sp, #180]
	ldr	r0, [sp, #60]                   @ 4-byte Reload
	lsls	r0, r0, #8
	ldr	r1, [sp, #64]                   @ 4-byte Reload
	adds	r0, r0, r1
	ldr	r1, [sp, #68]                   @ 4-byte Reload
	lsls	r1, r1, #16
	adds	r0, r0, r1
	ldr	r1, [sp, #72]                   @ 4-byte Reload
	lsls	r1, r1, #24
	adds	r0, r0, r1
	str	r0, [sp, #176]
	ldr	r0, [sp, #88]                   @ 4-byte Reload
	lsls	r0, r0, #8
	ldr	r1, [sp, #92]                   @ 4-byte Reload
	adds	r0, r0, r1
	ldr	r1, [sp, #96]                   @ 4-byte Reload
	lsls	r1, r1, #16
	adds	r0, r0, r1
	ldr	r1, [sp, #100]                  @ 4-byte Reload
	lsls	r1, r1, #24
	adds	r0, r0, r1
	str	r0, [sp, #172]
	add	r4, sp, #108
	add	r1, sp, #172
	mov	r0, r4
	bl	aes_v6m_small.aes_planes.soft.word.transpose.transpose
	add	r7, sp, #140
	mov	r0, r7
	ldm	r4!, {r1, r2, r3, r5}
	stm	r0!, {r1, r2, r3, r5}
	ldm	r4!, {r1, r2, r3, r5}
	stm	r0!, {r1, r2, r3, r5}
	ldr	r5, [sp, #104]                  @ 4-byte Reload
	add	r0, sp, #172
	mov	r1, r5
	ldr	r6, [sp, #76]                   @ 4-byte Reload
	mov	r2, r6
	ldr	r4, [sp, #80]                   @ 4-byte Reload
	mov	r3, r4
	bl	aes_v6m_small.aes_planes.soft.round_keys.round_key.2
	ldr	r0, [sp, #200]
	ldr	r1, [sp, #168]
	eors	r1, r0
	str	r1, [sp, #168]
	ldr	r0, [sp, #196]
	ldr	r1, [sp, #164]
	eors	r1, r0
	str	r1, [sp, #164]
	ldr	r0, [sp, #192]
	ldr	r1, [sp, #160]
	eors	r1, r0
	str	r1, [sp, #160]
	ldr	r0, [sp, #188]
	ldr	r1, [sp, #156]
	eors	r1, r0
	str	r1, [sp, #156]
	ldr	r0, [sp, #184]
	ldr	r1, [sp, #152]
	eors	r1, r0
	str	r1, [sp, #152]
	ldr	r0, [sp, #180]
	ldr	r1, [sp, #148]
	eors	r1, r0
	str	r1, [sp, #148]
	ldr	r0, [sp, #176]
	ldr	r1, [sp, #144]
	eors	r1, r0
	str	r1, [sp, #144]
	ldr	r0, [sp, #172]
	ldr	r1, [sp, #140]
	eors	r1, r0
	str	r1, [sp, #140]
	mov	r0, r7
	bl	aes_v6m_small.aes_planes.soft.sbox.inv_sub_bytes
	mov	r2, r6
	mov	r3, r4
	movs	r6, #0
	subs	r7, r2, #2
	sbcs	r4, r6
	lsls	r0, r4, #30
	lsrs	r1, r7, #2
	adds	r0, r1, r0
	str	r0, [sp, #92]                   @ 4-byte Spill
	lsrs	r0, r4, #2
	str	r0, [sp, #88]                   @ 4-byte Spill
	movs	r0, #3
	mov	r1, r7
	bics	r1, r0
	adds	r0, r1, #1
	str	r0, [sp, #96]                   @ 4-byte Spill
	adds	r0, r1, #2
	subs	r0, r0, r2
	mov	r0, r4
	sbcs	r0, r3
	str	r6, [sp, #100]                  @ 4-byte Spill
	bhs	.Laes_v6m_small_BB52_2
@ %bb.1:                                @ %then.3.i
	movs	r0, #0
	subs	r2, r2, #1
	sbcs	r3, r0
	add	r0, sp, #172
	mov	r1, r5
	bl	aes_v6m_small.aes_planes.soft.round_keys.round_key.2
	ldr	r0, [sp, #200]
	ldr	r1, [sp, #168]
	eors	r1, r0
	str	r1, [sp, #168]
	ldr	r0, [sp, #196]
	ldr	r1, [sp, #164]
	eors	r1, r0
	str	r1, [sp, #164]
	ldr	r0, [sp, #192]
	ldr	r1, [sp, #160]
	eors	r1, r0
	str	r1, [sp, #160]
	ldr	r0, [sp, #188]
	ldr	r1, [sp, #156]
	eors	r1, r0
	str	r1, [sp, #156]
	ldr	r0, [sp, #184]
	ldr	r1, [sp, #152]
	eors	r1, r0
	str	r1, [sp, #152]
	ldr	r0, [sp, #180]
	ldr	r1, [sp, #148]
	eors	r1, r0
	str	r1, [sp, #148]
	ldr	r0, [sp, #176]
	ldr	r1, [sp, #144]
	eors	r1, r0
	str	r1, [sp, #144]
	ldr	r0, [sp, #172]
	ldr	r1, [sp, #140]
	eors	r1, r0
	str	r1, [sp, #140]
	add	r6, sp, #140
	mov	r0, r6
	bl	aes_v6m_small.aes_planes.soft.mix_columns.inv_mix_columns_3
	mov	r0, r6
	bl	aes_v6m_small.aes_planes.soft.sbox.inv_sub_bytes
	add	r0, sp, #172
	mov	r1, r5
	mov	r2, r7
	mov	r3, r4
	bl	aes_v6m_small.aes_planes.soft.round_keys.round_key.2
	ldr	r0, [sp, #200]
	ldr	r1, [sp, #168]
	eors	r1, r0
	str	r1, [sp, #168]
	ldr	r0, [sp, #196]
	ldr	r1, [sp, #164]
	eors	r1, r0
	str	r1, [sp, #164]
	ldr	r0, [sp, #192]
	ldr	r1, [sp, #160]
	eors	r1, r0
	str	r1, [sp, #160]
	ldr	r0, [sp, #188]
	ldr	r1, [sp, #156]
	eors	r1, r0
	str	r1, [sp, #156]
	ldr	r0, [sp, #184]
	ldr	r1, [sp, #152]
	eors	r1, r0
	str	r1, [sp, #152]
	ldr	r0, [sp, #180]
	ldr	r1, [sp, #148]
	eors	r1, r0
	str	r1, [sp, #148]
	ldr	r0, [sp, #176]
	ldr	r1, [sp, #144]
	eors	r1, r0
	str	r1, [sp, #144]
	ldr	r0, [sp, #172]
	ldr	r1, [sp, #140]
	eors	r1, r0
	str	r1, [sp, #140]
	mov	r0, r6
	bl	aes_v6m_small.aes_planes.soft.mix_columns.inv_mix_columns_2
	mov	r0, r6
	ldr	r6, [sp, #100]                  @ 4-byte Reload
	bl	aes_v6m_small.aes_planes.soft.sbox.inv_sub_bytes
	b	.Laes_v6m_small_BB52_3
.Laes_v6m_small_BB52_2:                               @ %else.4.i
	add	r0, sp, #140
	movs	r1, #4
	ldr	r2, .Laes_v6m_small_CPI52_0
	bl	aes_v6m_small.aes_planes.soft.shifts.swap_columns
.Laes_v6m_small_BB52_3:                               @ %join.5.i
	add	r0, sp, #172
	mov	r1, r5
	ldr	r2, [sp, #96]                   @ 4-byte Reload
	mov	r3, r4
	bl	aes_v6m_small.aes_planes.soft.round_keys.round_key.2
	ldr	r0, [sp, #200]
	ldr	r1, [sp, #168]
	eors	r1, r0
	str	r1, [sp, #168]
	ldr	r0, [sp, #196]
	ldr	r1, [sp, #164]
	eors	r1, r0
	str	r1, [sp, #164]
	ldr	r0, [sp, #192]
	ldr	r1, [sp, #160]
	eors	r1, r0
	str	r1, [sp, #160]
	ldr	r0, [sp, #188]
	ldr	r1, [sp, #156]
	eors	r1, r0
	str	r1, [sp, #156]
	ldr	r0, [sp, #184]
	ldr	r1, [sp, #152]
	eors	r1, r0
	str	r1, [sp, #152]
	ldr	r0, [sp, #180]
	ldr	r1, [sp, #148]
	eors	r1, r0
	str	r1, [sp, #148]
	ldr	r0, [sp, #176]
	ldr	r1, [sp, #144]
	eors	r1, r0
	str	r1, [sp, #144]
	ldr	r0, [sp, #172]
	ldr	r1, [sp, #140]
	eors	r1, r0
	str	r1, [sp, #140]
	add	r4, sp, #140
	mov	r0, r4
	bl	aes_v6m_small.aes_planes.soft.mix_columns.inv_mix_columns_1
	mov	r0, r4
	bl	aes_v6m_small.aes_planes.soft.sbox.inv_sub_bytes
	ldr	r3, [sp, #92]                   @ 4-byte Reload
	mov	r0, r3
	ldr	r2, [sp, #88]                   @ 4-byte Reload
	orrs	r0, r2
	mov	r1, r5
	bne	.Laes_v6m_small_BB52_4
	b	.Laes_v6m_small_BB52_6
.Laes_v6m_small_BB52_4:                               @ %join.10.lr.ph.i
	mov	r5, r6
	mov	r4, r6
.Laes_v6m_small_BB52_5:                               @ %join.10.i
                                        @ =>This Inner Loop Header: Depth=1
	str	r5, [sp, #96]                   @ 4-byte Spill
	subs	r0, r3, r5
	mov	r3, r2
	sbcs	r3, r4
	lsrs	r2, r0, #30
	lsls	r3, r3, #2
	adds	r6, r3, r2
	lsls	r5, r0, #2
	add	r0, sp, #172
	mov	r2, r5
	mov	r3, r6
	bl	aes_v6m_small.aes_planes.soft.round_keys.round_key.2
	ldr	r0, [sp, #200]
	ldr	r1, [sp, #168]
	eors	r1, r0
	str	r1, [sp, #168]
	ldr	r0, [sp, #196]
	ldr	r1, [sp, #164]
	eors	r1, r0
	str	r1, [sp, #164]
	ldr	r0, [sp, #192]
	ldr	r1, [sp, #160]
	eors	r1, r0
	str	r1, [sp, #160]
	ldr	r0, [sp, #188]
	ldr	r1, [sp, #156]
	eors	r1, r0
	str	r1, [sp, #156]
	ldr	r0, [sp, #184]
	ldr	r1, [sp, #152]
	eors	r1, r0
	str	r1, [sp, #152]
	ldr	r0, [sp, #180]
	ldr	r1, [sp, #148]
	eors	r1, r0
	str	r1, [sp, #148]
	ldr	r0, [sp, #176]
	ldr	r1, [sp, #144]
	eors	r1, r0
	str	r1, [sp, #144]
	ldr	r0, [sp, #172]
	ldr	r1, [sp, #140]
	eors	r1, r0
	str	r1, [sp, #140]
	add	r7, sp, #140
	mov	r0, r7
	bl	aes_v6m_small.aes_planes.soft.mix_columns.inv_mix_columns_0
	mov	r0, r7
	bl	aes_v6m_small.aes_planes.soft.sbox.inv_sub_bytes
	subs	r2, r5, #1
	mov	r3, r6
	ldr	r0, [sp, #100]                  @ 4-byte Reload
	sbcs	r3, r0
	add	r0, sp, #172
	ldr	r1, [sp, #104]                  @ 4-byte Reload
	bl	aes_v6m_small.aes_planes.soft.round_keys.round_key.2
	ldr	r0, [sp, #200]
	ldr	r1, [sp, #168]
	eors	r1, r0
	str	r1, [sp, #168]
	ldr	r0, [sp, #196]
	ldr	r1, [sp, #164]
	eors	r1, r0
	str	r1, [sp, #164]
	ldr	r0, [sp, #192]
	ldr	r1, [sp, #160]
	eors	r1, r0
	str	r1, [sp, #160]
	ldr	r0, [sp, #188]
	ldr	r1, [sp, #156]
	eors	r1, r0
	str	r1, [sp, #156]
	ldr	r0, [sp, #184]
	ldr	r1, [sp, #152]
	eors	r1, r0
	str	r1, [sp, #152]
	ldr	r0, [sp, #180]
	ldr	r1, [sp, #148]
	eors	r1, r0
	str	r1, [sp, #148]
	ldr	r0, [sp, #176]
	ldr	r1, [sp, #144]
	eors	r1, r0
	str	r1, [sp, #144]
	ldr	r0, [sp, #172]
	ldr	r1, [sp, #140]
	eors	r1, r0
	str	r1, [sp, #140]
	mov	r0, r7
	bl	aes_v6m_small.aes_planes.soft.mix_columns.inv_mix_columns_3
	mov	r0, r7
	bl	aes_v6m_small.aes_planes.soft.sbox.inv_sub_bytes
	subs	r2, r5, #2
	mov	r3, r6
	ldr	r0, [sp, #100]                  @ 4-byte Reload
	sbcs	r3, r0
	add	r0, sp, #172
	ldr	r1, [sp, #104]                  @ 4-byte Reload
	bl	aes_v6m_small.aes_planes.soft.round_keys.round_key.2
	ldr	r0, [sp, #200]
	ldr	r1, [sp, #168]
	eors	r1, r0
	str	r1, [sp, #168]
	ldr	r0, [sp, #196]
	ldr	r1, [sp, #164]
	eors	r1, r0
	str	r1, [sp, #164]
	ldr	r0, [sp, #192]
	ldr	r1, [sp, #160]
	eors	r1, r0
	str	r1, [sp, #160]
	ldr	r0, [sp, #188]
	ldr	r1, [sp, #156]
	eors	r1, r0
	str	r1, [sp, #156]
	ldr	r0, [sp, #184]
	ldr	r1, [sp, #152]
	eors	r1, r0
	str	r1, [sp, #152]
	ldr	r0, [sp, #180]
	ldr	r1, [sp, #148]
	eors	r1, r0
	str	r1, [sp, #148]
	ldr	r0, [sp, #176]
	ldr	r1, [sp, #144]
	eors	r1, r0
	str	r1, [sp, #144]
	ldr	r0, [sp, #172]
	ldr	r1, [sp, #140]
	eors	r1, r0
	str	r1, [sp, #140]
	mov	r0, r7
	bl	aes_v6m_small.aes_planes.soft.mix_columns.inv_mix_columns_2
	mov	r0, r7
	bl	aes_v6m_small.aes_planes.soft.sbox.inv_sub_bytes
	subs	r2, r5, #3
	ldr	r5, [sp, #96]                   @ 4-byte Reload
	ldr	r0, [sp, #100]                  @ 4-byte Reload
	sbcs	r6, r0
	add	r0, sp, #172
	ldr	r1, [sp, #104]                  @ 4-byte Reload
	mov	r3, r6
	ldr	r6, [sp, #100]                  @ 4-byte Reload
	bl	aes_v6m_small.aes_planes.soft.round_keys.round_key.2
	ldr	r0, [sp, #200]
	ldr	r1, [sp, #168]
	eors	r1, r0
	str	r1, [sp, #168]
	ldr	r0, [sp, #196]
	ldr	r1, [sp, #164]
	eors	r1, r0
	str	r1, [sp, #164]
	ldr	r0, [sp, #192]
	ldr	r1, [sp, #160]
	eors	r1, r0
	str	r1, [sp, #160]
	ldr	r0, [sp, #188]
	ldr	r1, [sp, #156]
	eors	r1, r0
	str	r1, [sp, #156]
	ldr	r0, [sp, #184]
	ldr	r1, [sp, #152]
	eors	r1, r0
	str	r1, [sp, #152]
	ldr	r0, [sp, #180]
	ldr	r1, [sp, #148]
	eors	r1, r0
	str	r1, [sp, #148]
	ldr	r0, [sp, #176]
	ldr	r1, [sp, #144]
	eors	r1, r0
	str	r1, [sp, #144]
	ldr	r0, [sp, #172]
	ldr	r1, [sp, #140]
	eors	r1, r0
	str	r1, [sp, #140]
	mov	r0, r7
	bl	aes_v6m_small.aes_planes.soft.mix_columns.inv_mix_columns_1
	mov	r0, r7
	bl	aes_v6m_small.aes_planes.soft.sbox.inv_sub_bytes
	ldr	r1, [sp, #104]                  @ 4-byte Reload
	ldr	r2, [sp, #88]                   @ 4-byte Reload
	ldr	r3, [sp, #92]                   @ 4-byte Reload
	adds	r5, r5, #1
	adcs	r4, r6
	subs	r0, r5, r3
	mov	r0, r4
	sbcs	r0, r2
	bhs	.Laes_v6m_small_BB52_6
	b	.Laes_v6m_small_BB52_5
.Laes_v6m_small_BB52_6:                               @ %"aes_soft::soft::ciphers::planes::DecryptPlaneCipher::process_planes::<#42add9d049d0c5fd>.exit"
	add	r0, sp, #172
	movs	r2, #0
	mov	r3, r2
	bl	aes_v6m_small.aes_planes.soft.round_keys.round_key.2
	ldr	r0, [sp, #200]
	ldr	r1, [sp, #168]
	eors	r1, r0
	str	r1, [sp, #168]
	ldr	r0, [sp, #196]
	ldr	r1, [sp, #164]
	eors	r1, r0
	str	r1, [sp, #164]
	ldr	r0, [sp, #192]
	ldr	r1, [sp, #160]
	eors	r1, r0
	str	r1, [sp, #160]
	ldr	r0, [sp, #188]
	ldr	r1, [sp, #156]
	eors	r1, r0
	str	r1, [sp, #156]
	ldr	r0, [sp, #184]
	ldr	r1, [sp, #152]
	eors	r1, r0
	str	r1, [sp, #152]
	ldr	r0, [sp, #180]
	ldr	r1, [sp, #148]
	eors	r1, r0
	str	r1, [sp, #148]
	ldr	r0, [sp, #176]
	ldr	r1, [sp, #144]
	eors	r1, r0
	str	r1, [sp, #144]
	ldr	r0, [sp, #172]
	ldr	r1, [sp, #140]
	eors	r1, r0
	str	r1, [sp, #140]
	add	r0, sp, #140
	add	r1, sp, #108
	mov	r2, r1
	ldm	r0!, {r3, r4, r5, r6}
	stm	r2!, {r3, r4, r5, r6}
	ldm	r0!, {r3, r4, r5, r6}
	stm	r2!, {r3, r4, r5, r6}
	add	r0, sp, #172
	bl	aes_v6m_small.aes_planes.soft.word.transpose.transpose
	ldr	r0, [sp, #172]
	str	r0, [sp, #104]                  @ 4-byte Spill
	ldr	r0, [sp, #180]
	str	r0, [sp, #100]                  @ 4-byte Spill
	ldr	r2, [sp, #188]
	ldr	r3, [sp, #196]
	ldr	r4, [sp, #176]
	ldr	r5, [sp, #184]
	ldr	r6, [sp, #192]
	ldr	r7, [sp, #200]
	lsrs	r0, r7, #24
	ldr	r1, [sp, #84]                   @ 4-byte Reload
	strb	r0, [r1, #31]
	lsrs	r0, r7, #16
	strb	r0, [r1, #30]
	lsrs	r0, r7, #8
	strb	r0, [r1, #29]
	strb	r7, [r1, #28]
	lsrs	r0, r6, #24
	strb	r0, [r1, #27]
	lsrs	r0, r6, #16
	strb	r0, [r1, #26]
	lsrs	r0, r6, #8
	strb	r0, [r1, #25]
	strb	r6, [r1, #24]
	lsrs	r0, r5, #24
	strb	r0, [r1, #23]
	lsrs	r0, r5, #16
	strb	r0, [r1, #22]
	lsrs	r0, r5, #8
	strb	r0, [r1, #21]
	strb	r5, [r1, #20]
	lsrs	r0, r4, #24
	strb	r0, [r1, #19]
	lsrs	r0, r4, #16
	strb	r0, [r1, #18]
	lsrs	r0, r4, #8
	strb	r0, [r1, #17]
	strb	r4, [r1, #16]
	lsrs	r0, r3, #24
	strb	r0, [r1, #15]
	lsrs	r0, r3, #16
	strb	r0, [r1, #14]
	lsrs	r0, r3, #8
	strb	r0, [r1, #13]
	strb	r3, [r1, #12]
	lsrs	r0, r2, #24
	strb	r0, [r1, #11]
	lsrs	r0, r2, #16
	strb	r0, [r1, #10]
	lsrs	r0, r2, #8
	strb	r0, [r1, #9]
	strb	r2, [r1, #8]
	ldr	r2, [sp, #100]                  @ 4-byte Reload
	lsrs	r0, r2, #24
	strb	r0, [r1, #7]
	lsrs	r0, r2, #16
	strb	r0, [r1, #6]
	lsrs	r0, r2, #8
	strb	r0, [r1, #5]
	strb	r2, [r1, #4]
	ldr	r2, [sp, #104]                  @ 4-byte Reload
	lsrs	r0, r2, #24
	strb	r0, [r1, #3]
	lsrs	r0, r2, #16
	strb	r0, [r1, #2]
	lsrs	r0, r2, #8
	strb	r0, [r1, #1]
	strb	r2, [r1]
	add	sp, #204
	pop	{r4, r5, r6, r7, pc}
	.p2align	2
@ %bb.7:
.Laes_v6m_small_CPI52_0:
	.long	251662080                       @ 0xf000f00
.Laes_v6m_small_func_end52:
	.size	aes_v6m_small.aes_soft.soft.ciphers.planes.process_outlined.2, .Laes_v6m_small_func_end52-aes_v6m_small.aes_soft.soft.ciphers.planes.process_outlined.2
	.cantunwind
	.fnend
                                        @ -- End function
	.section	.text.aes_v6m_small.aes_planes.soft.sbox.inv_sub_bytes,"ax",%progbits
	.p2align	1                               @ -- Begin function aes_planes::soft::sbox::inv_sub_bytes::<#e817d94f9a7b6ba6>
	.type	aes_v6m_small.aes_planes.soft.sbox.inv_sub_bytes,%function
	.code	16
	.thumb_func
aes_v6m_small.aes_planes.soft.sbox.inv_sub_bytes: @ @aes_v6m_small.aes_planes.soft.sbox.inv_sub_bytes
	.fnstart
@ %bb.0:                                @ %start
	.save	{r4, r5, r6, r7, lr}
	push	{r4, r5, r6, r7, lr}
	.pad	#96
	sub	sp, #96
	str	r0, [sp, #20]                   @ 4-byte Spill
	ldr	r4, [r0]
	str	r4, [sp, #76]                   @ 4-byte Spill
	ldr	r2, [r0, #4]
	ldr	r1, [r0, #8]
	str	r1, [sp, #68]                   @ 4-byte Spill
	ldr	r1, [r0, #12]
	ldr	r7, [r0, #16]
	ldr	r3, [r0, #20]
	str	r3, [sp, #56]                   @ 4-byte Spill
	ldr	r6, [r0, #24]
	ldr	r0, [r0, #28]
	str	r0, [sp, #4]                    @ 4-byte Spill
	mov	r5, r2
	mov	r3, r2
	str	r2, [sp, #80]                   @ 4-byte Spill
	eors	r5, r4
	str	r5, [sp, #92]                   @ 4-byte Spill
	mov	r0, r7
	mov	r4, r7
	str	r7, [sp, #88]                   @ 4-byte Spill
	eors	r0, r1
	mov	r2, r1
	str	r1, [sp, #84]                   @ 4-byte Spill
	mov	r1, r0
	mov	r7, r0
	str	r0, [sp, #32]                   @ 4-byte Spill
	eors	r1, r5
	str	r1, [sp, #72]                   @ 4-byte Spill
	mov	r5, r6
	eors	r5, r3
	str	r5, [sp, #44]                   @ 4-byte Spill
	ldr	r0, [sp, #56]                   @ 4-byte Reload
	eors	r0, r2
	eors	r0, r5
	str	r0, [sp, #24]                   @ 4-byte Spill
	orrs	r0, r1
	mov	r3, r6
	mov	r2, r6
	eors	r3, r4
	str	r3, [sp, #64]                   @ 4-byte Spill
	mov	r1, r7
	ldr	r5, [sp, #76]                   @ 4-byte Reload
	eors	r1, r5
	str	r1, [sp, #16]                   @ 4-byte Spill
	mov	r6, r3
	ands	r6, r1
	eors	r6, r0
	ldr	r4, [sp, #80]                   @ 4-byte Reload
	ldr	r0, [sp, #68]                   @ 4-byte Reload
	eors	r4, r0
	str	r4, [sp, #80]                   @ 4-byte Spill
	mov	r1, r7
	eors	r1, r4
	mov	r3, r5
	ldr	r0, [sp, #84]                   @ 4-byte Reload
	eors	r3, r0
	str	r3, [sp, #76]                   @ 4-byte Spill
	ldr	r5, [sp, #4]                    @ 4-byte Reload
	mov	r0, r5
	eors	r0, r2
	str	r0, [sp, #60]                   @ 4-byte Spill
	mov	r4, r0
	eors	r4, r3
	str	r4, [sp, #52]                   @ 4-byte Spill
	mov	r0, r4
	eors	r0, r1
	mov	r4, r1
	str	r1, [sp, #12]                   @ 4-byte Spill
	ands	r0, r7
	ldr	r1, [sp, #88]                   @ 4-byte Reload
	mov	r7, r5
	eors	r1, r5
	str	r1, [sp, #88]                   @ 4-byte Spill
	eors	r2, r1
	str	r2, [sp, #28]                   @ 4-byte Spill
	ldr	r1, [sp, #84]                   @ 4-byte Reload
	eors	r1, r2
	str	r1, [sp, #84]                   @ 4-byte Spill
	ands	r1, r4
	eors	r1, r0
	str	r1, [sp, #40]                   @ 4-byte Spill
	eors	r6, r1
	ldr	r3, [sp, #52]                   @ 4-byte Reload
	ldr	r1, [sp, #60]                   @ 4-byte Reload
	ands	r3, r1
	eors	r3, r0
	ldr	r2, [sp, #68]                   @ 4-byte Reload
	ldr	r0, [sp, #56]                   @ 4-byte Reload
	eors	r2, r0
	ldr	r5, [sp, #64]                   @ 4-byte Reload
	mov	r4, r5
	eors	r4, r2
	str	r4, [sp, #8]                    @ 4-byte Spill
	ldr	r0, [sp, #92]                   @ 4-byte Reload
	eors	r1, r0
	str	r1, [sp, #48]                   @ 4-byte Spill
	ands	r1, r4
	str	r1, [sp, #36]                   @ 4-byte Spill
	eors	r0, r5
	eors	r2, r7
	str	r2, [sp, #68]                   @ 4-byte Spill
	mov	r5, r0
	mov	r4, r0
	str	r0, [sp, #92]                   @ 4-byte Spill
	ands	r5, r2
	ldr	r2, [sp, #76]                   @ 4-byte Reload
	eors	r5, r2
	eors	r5, r1
	eors	r5, r3
	mov	r7, r5
	ands	r7, r6
	ldr	r0, [sp, #24]                   @ 4-byte Reload
	ldr	r1, [sp, #72]                   @ 4-byte Reload
	ands	r0, r1
	ldr	r1, [sp, #44]                   @ 4-byte Reload
	eors	r2, r1
	mov	r1, r2
	str	r2, [sp, #76]                   @ 4-byte Spill
	mov	r2, r4
	ldr	r4, [sp, #56]                   @ 4-byte Reload
	eors	r2, r4
	str	r2, [sp, #44]                   @ 4-byte Spill
	ands	r2, r1
	eors	r2, r0
	ldr	r0, [sp, #32]                   @ 4-byte Reload
	eors	r2, r0
	eors	r2, r4
	eors	r2, r3
	mov	r3, r6
	eors	r3, r2
	mov	r4, r3
	bics	r4, r7
	ldr	r0, [sp, #28]                   @ 4-byte Reload
	ldr	r1, [sp, #88]                   @ 4-byte Reload
	ands	r0, r1
	ldr	r1, [sp, #80]                   @ 4-byte Reload
	eors	r0, r1
	ldr	r1, [sp, #52]                   @ 4-byte Reload
	eors	r0, r1
	ldr	r1, [sp, #36]                   @ 4-byte Reload
	eors	r0, r1
	ldr	r1, [sp, #40]                   @ 4-byte Reload
	eors	r0, r1
	ands	r6, r0
	eors	r4, r6
	mov	r1, r6
	eors	r1, r5
	ands	r1, r3
	eors	r1, r2
	str	r1, [sp, #56]                   @ 4-byte Spill
	mov	r3, r1
	eors	r3, r4
	str	r3, [sp, #36]                   @ 4-byte Spill
	mov	r1, r4
	str	r4, [sp, #4]                    @ 4-byte Spill
	ldr	r4, [sp, #48]                   @ 4-byte Reload
	ands	r4, r3
	mov	r3, r0
	eors	r3, r5
	ands	r0, r2
	ands	r0, r3
	eors	r0, r6
	eors	r0, r3
	mov	r7, r0
	eors	r7, r1
	str	r7, [sp, #40]                   @ 4-byte Spill
	ldr	r1, [sp, #60]                   @ 4-byte Reload
	ands	r1, r7
	str	r1, [sp, #60]                   @ 4-byte Spill
	eors	r4, r1
	mov	r7, r4
	str	r4, [sp, #48]                   @ 4-byte Spill
	eors	r6, r2
	ands	r6, r3
	eors	r6, r5
	mov	r5, r6
	ldr	r1, [sp, #56]                   @ 4-byte Reload
	eors	r5, r1
	ldr	r4, [sp, #32]                   @ 4-byte Reload
	ands	r4, r5
	ldr	r2, [sp, #92]                   @ 4-byte Reload
	ands	r2, r1
	str	r2, [sp, #92]                   @ 4-byte Spill
	eors	r4, r2
	eors	r4, r7
	ldr	r3, [sp, #20]                   @ 4-byte Reload
	str	r4, [r3]
	ldr	r2, [sp, #80]                   @ 4-byte Reload
	ldr	r7, [sp, #52]                   @ 4-byte Reload
	eors	r2, r7
	ands	r2, r5
	str	r2, [sp, #80]                   @ 4-byte Spill
	mov	r1, r6
	eors	r1, r0
	str	r1, [sp, #32]                   @ 4-byte Spill
	ldr	r4, [sp, #72]                   @ 4-byte Reload
	ands	r4, r1
	str	r4, [sp, #72]                   @ 4-byte Spill
	ldr	r1, [sp, #64]                   @ 4-byte Reload
	ands	r1, r0
	str	r1, [sp, #64]                   @ 4-byte Spill
	eors	r4, r1
	eors	r4, r2
	ldr	r1, [sp, #40]                   @ 4-byte Reload
	eors	r5, r1
	str	r5, [sp]                        @ 4-byte Spill
	ldr	r2, [sp, #84]                   @ 4-byte Reload
	ands	r2, r5
	str	r2, [sp, #84]                   @ 4-byte Spill
	ands	r1, r7
	str	r1, [sp, #40]                   @ 4-byte Spill
	eors	r2, r1
	str	r2, [sp, #52]                   @ 4-byte Spill
	eors	r2, r4
	ldr	r5, [sp, #24]                   @ 4-byte Reload
	ldr	r7, [sp, #32]                   @ 4-byte Reload
	ands	r7, r5
	str	r7, [sp, #32]                   @ 4-byte Spill
	ldr	r1, [sp, #44]                   @ 4-byte Reload
	ands	r1, r6
	str	r1, [sp, #44]                   @ 4-byte Spill
	eors	r7, r1
	eors	r7, r2
	str	r7, [r3, #28]
	ldr	r5, [sp, #8]                    @ 4-byte Reload
	ldr	r1, [sp, #36]                   @ 4-byte Reload
	ands	r1, r5
	ldr	r5, [sp, #68]                   @ 4-byte Reload
	ldr	r7, [sp, #56]                   @ 4-byte Reload
	ands	r7, r5
	str	r7, [sp, #56]                   @ 4-byte Spill
	mov	r7, r1
	mov	r5, r1
	ldr	r1, [sp, #56]                   @ 4-byte Reload
	eors	r7, r1
	eors	r7, r2
	str	r7, [r3, #16]
	ldr	r3, [sp, #12]                   @ 4-byte Reload
	ldr	r7, [sp]                        @ 4-byte Reload
	ands	r7, r3
	ldr	r3, [sp, #16]                   @ 4-byte Reload
	ands	r0, r3
	eors	r7, r0
	eors	r7, r4
	mov	r3, r5
	ldr	r4, [sp, #44]                   @ 4-byte Reload
	eors	r3, r4
	str	r3, [sp, #36]                   @ 4-byte Spill
	ldr	r4, [sp, #60]                   @ 4-byte Reload
	eors	r4, r3
	ldr	r3, [sp, #88]                   @ 4-byte Reload
	ldr	r5, [sp, #4]                    @ 4-byte Reload
	ands	r3, r5
	eors	r3, r1
	str	r3, [sp, #88]                   @ 4-byte Spill
	ldr	r1, [sp, #92]                   @ 4-byte Reload
	eors	r1, r3
	str	r1, [sp, #92]                   @ 4-byte Spill
	mov	r3, r4
	eors	r3, r1
	eors	r3, r7
	mov	r4, r3
	ldr	r3, [sp, #20]                   @ 4-byte Reload
	str	r4, [r3, #12]
	ldr	r4, [sp, #84]                   @ 4-byte Reload
	ldr	r1, [sp, #32]                   @ 4-byte Reload
	eors	r4, r1
	eors	r4, r7
	str	r4, [r3, #4]
	mov	r7, r3
	ldr	r3, [sp, #28]                   @ 4-byte Reload
	ands	r5, r3
	eors	r5, r0
	eors	r2, r5
	ldr	r0, [sp, #36]                   @ 4-byte Reload
	eors	r2, r0
	str	r2, [r7, #8]
	ldr	r0, [sp, #76]                   @ 4-byte Reload
	ands	r6, r0
	eors	r6, r1
	eors	r6, r5
	ldr	r0, [sp, #80]                   @ 4-byte Reload
	eors	r6, r0
	ldr	r0, [sp, #72]                   @ 4-byte Reload
	eors	r0, r6
	ldr	r1, [sp, #92]                   @ 4-byte Reload
	eors	r0, r1
	ldr	r2, [sp, #52]                   @ 4-byte Reload
	eors	r0, r2
	str	r0, [r7, #20]
	ldr	r0, [sp, #64]                   @ 4-byte Reload
	eors	r6, r0
	ldr	r0, [sp, #88]                   @ 4-byte Reload
	eors	r6, r0
	ldr	r0, [sp, #40]                   @ 4-byte Reload
	eors	r6, r0
	ldr	r0, [sp, #48]                   @ 4-byte Reload
	eors	r6, r0
	str	r6, [r7, #24]
	add	sp, #96
	pop	{r4, r5, r6, r7, pc}
.Laes_v6m_small_func_end53:
	.size	aes_v6m_small.aes_planes.soft.sbox.inv_sub_bytes, .Laes_v6m_small_func_end53-aes_v6m_small.aes_planes.soft.sbox.inv_sub_bytes
	.cantunwind
	.fnend
                                        @ -- End function
	.section	.text.aes_v6m_small.aes_planes.soft.mix_columns.inv_mix_columns_0,"ax",%progbits
	.p2align	1                               @ -- Begin function aes_planes::soft::mix_columns::inv_mix_columns_0::<#e817d94f9a7b6ba6>
	.type	aes_v6m_small.aes_planes.soft.mix_columns.inv_mix_columns_0,%function
	.code	16
	.thumb_func
aes_v6m_small.aes_planes.soft.mix_columns.inv_mix_columns_0: @ @aes_v6m_small.aes_planes.soft.mix_columns.inv_mix_columns_0
	.fnstart
@ %bb.0:                                @ %start
	.save	{r4, r5, r6, r7, lr}
	push	{r4, r5, r6, r7, lr}
	.pad	#40
	sub	sp, #40
	mov	r6, r0
	ldr	r0, [r0, #28]
	movs	r5, #8
	mov	r1, r0
	rors	r1, r5
	eors	r1, r0
	mov	r3, r1
	str	r1, [sp, #12]                   @ 4-byte Spill
	mov	r7, r0
	ldr	r0, [r6, #16]
	str	r0, [sp, #28]                   @ 4-byte Spill
	mov	r1, r0
	rors	r1, r5
	eors	r1, r0
	str	r1, [sp, #8]                    @ 4-byte Spill
	ldr	r0, [r6, #20]
	mov	r2, r1
	eors	r2, r0
	str	r2, [sp, #4]                    @ 4-byte Spill
	mov	r1, r3
	eors	r1, r2
	movs	r3, #16
	str	r3, [sp, #36]                   @ 4-byte Spill
	mov	r2, r1
	rors	r2, r3
	ldr	r3, [r6, #24]
	mov	r4, r3
	rors	r4, r5
	eors	r4, r3
	eors	r7, r4
	str	r7, [sp, #32]                   @ 4-byte Spill
	eors	r2, r7
	eors	r2, r1
	str	r2, [r6, #28]
	ldr	r2, [r6]
	str	r2, [sp, #20]                   @ 4-byte Spill
	mov	r1, r2
	str	r5, [sp, #24]                   @ 4-byte Spill
	rors	r1, r5
	eors	r1, r2
	mov	r2, r1
	str	r1, [sp, #16]                   @ 4-byte Spill
	mov	r1, r0
	rors	r1, r5
	eors	r1, r0
	eors	r3, r1
	mov	r0, r3
	eors	r0, r2
	mov	r2, r0
	ldr	r5, [sp, #36]                   @ 4-byte Reload
	rors	r2, r5
	eors	r2, r0
	ldr	r7, [sp, #12]                   @ 4-byte Reload
	ldr	r0, [sp, #20]                   @ 4-byte Reload
	eors	r0, r7
	str	r0, [sp, #20]                   @ 4-byte Spill
	eors	r2, r0
	str	r2, [r6]
	ldr	r2, [r6, #12]
	mov	r0, r2
	ldr	r5, [sp, #24]                   @ 4-byte Reload
	rors	r0, r5
	eors	r0, r2
	ldr	r5, [sp, #28]                   @ 4-byte Reload
	eors	r5, r0
	eors	r5, r7
	str	r5, [sp, #28]                   @ 4-byte Spill
	eors	r4, r5
	mov	r5, r4
	ldr	r7, [sp, #36]                   @ 4-byte Reload
	rors	r5, r7
	eors	r5, r3
	eors	r5, r4
	str	r5, [r6, #24]
	ldr	r7, [r6, #8]
	str	r7, [sp]                        @ 4-byte Spill
	mov	r5, r7
	ldr	r4, [sp, #24]                   @ 4-byte Reload
	rors	r5, r4
	eors	r5, r7
	eors	r2, r5
	ldr	r4, [sp, #12]                   @ 4-byte Reload
	eors	r2, r4
	ldr	r4, [sp, #32]                   @ 4-byte Reload
	eors	r1, r4
	eors	r1, r2
	mov	r4, r1
	ldr	r7, [sp, #36]                   @ 4-byte Reload
	rors	r4, r7
	ldr	r7, [sp, #4]                    @ 4-byte Reload
	eors	r4, r7
	eors	r4, r1
	str	r4, [r6, #20]
	ldr	r1, [r6, #4]
	ldr	r4, [sp, #16]                   @ 4-byte Reload
	eors	r4, r1
	ldr	r7, [sp, #12]                   @ 4-byte Reload
	eors	r4, r7
	str	r4, [sp, #16]                   @ 4-byte Spill
	eors	r0, r3
	eors	r0, r4
	mov	r4, r0
	ldr	r7, [sp, #36]                   @ 4-byte Reload
	rors	r4, r7
	eors	r4, r2
	eors	r4, r0
	str	r4, [r6, #12]
	ldr	r0, [sp, #32]                   @ 4-byte Reload
	eors	r5, r0
	ldr	r0, [sp, #20]                   @ 4-byte Reload
	eors	r5, r0
	mov	r2, r5
	ldr	r4, [sp, #36]                   @ 4-byte Reload
	rors	r2, r4
	mov	r0, r1
	ldr	r7, [sp, #24]                   @ 4-byte Reload
	rors	r0, r7
	eors	r0, r1
	ldr	r1, [sp]                        @ 4-byte Reload
	eors	r1, r0
	eors	r2, r1
	mov	r7, r1
	eors	r2, r5
	str	r2, [r6, #8]
	ldr	r1, [sp, #32]                   @ 4-byte Reload
	eors	r3, r1
	eors	r0, r3
	mov	r1, r0
	rors	r1, r4
	ldr	r2, [sp, #16]                   @ 4-byte Reload
	eors	r1, r2
	eors	r1, r0
	str	r1, [r6, #4]
	eors	r3, r7
	ldr	r0, [sp, #8]                    @ 4-byte Reload
	eors	r3, r0
	mov	r0, r3
	rors	r0, r4
	ldr	r1, [sp, #28]                   @ 4-byte Reload
	eors	r0, r1
	eors	r0, r3
	str	r0, [r6, #16]
	add	sp, #40
	pop	{r4, r5, r6, r7, pc}
.Laes_v6m_small_func_end54:
	.size	aes_v6m_small.aes_planes.soft.mix_columns.inv_mix_columns_0, .Laes_v6m_small_func_end54-aes_v6m_small.aes_planes.soft.mix_columns.inv_mix_columns_0
	.cantunwind
	.fnend
                                        @ -- End function
	.section	.text.aes_v6m_small.aes_planes.soft.mix_columns.inv_mix_columns_3,"ax",%progbits
	.p2align	2                               @ -- Begin function aes_planes::soft::mix_columns::inv_mix_columns_3::<#e817d94f9a7b6ba6>
	.type	aes_v6m_small.aes_planes.soft.mix_columns.inv_mix_columns_3,%function
	.code	16
	.thumb_func
aes_v6m_small.aes_planes.soft.mix_columns.inv_mix_columns_3: @ @aes_v6m_small.aes_planes.soft.mix_columns.inv_mix_columns_3
	.fnstart
@ %bb.0:                                @ %start
	.save	{r4, r5, r6, r7, lr}
	push	{r4, r5, r6, r7, lr}
	.pad	#56
	sub	sp, #56
	mov	r7, r0
	ldr	r3, [r0, #28]
	str	r3, [sp, #52]                   @ 4-byte Spill
	movs	r5, #6
	mov	r0, r3
	rors	r0, r5
	str	r5, [sp, #32]                   @ 4-byte Spill
	ldr	r6, .Laes_v6m_small_CPI55_0
	ands	r0, r6
	movs	r2, #14
	str	r2, [sp, #48]                   @ 4-byte Spill
	mov	r1, r3
	rors	r1, r2
	ldr	r2, .Laes_v6m_small_CPI55_1
	ands	r1, r2
	adds	r0, r1, r0
	eors	r0, r3
	mov	r3, r0
	str	r0, [sp, #20]                   @ 4-byte Spill
	ldr	r4, [r7, #16]
	str	r4, [sp, #36]                   @ 4-byte Spill
	mov	r0, r4
	rors	r0, r5
	ands	r0, r6
	mov	r1, r4
	ldr	r5, [sp, #48]                   @ 4-byte Reload
	rors	r1, r5
	ands	r1, r2
	adds	r0, r1, r0
	eors	r0, r4
	str	r0, [sp, #4]                    @ 4-byte Spill
	ldr	r1, [r7, #20]
	str	r1, [sp, #16]                   @ 4-byte Spill
	str	r7, [sp, #44]                   @ 4-byte Spill
	eors	r0, r1
	str	r0, [sp]                        @ 4-byte Spill
	mov	r2, r3
	eors	r2, r0
	movs	r3, #12
	str	r3, [sp, #40]                   @ 4-byte Spill
	mov	r0, r2
	rors	r0, r3
	ldr	r3, .Laes_v6m_small_CPI55_2
	ands	r0, r3
	movs	r4, #20
	str	r4, [sp, #12]                   @ 4-byte Spill
	mov	r3, r2
	rors	r3, r4
	ldr	r4, .Laes_v6m_small_CPI55_3
	ands	r3, r4
	adds	r3, r3, r0
	ldr	r7, [r7, #24]
	mov	r0, r7
	ldr	r1, [sp, #32]                   @ 4-byte Reload
	rors	r0, r1
	ldr	r4, .Laes_v6m_small_CPI55_0
	ands	r0, r4
	mov	r4, r7
	rors	r4, r5
	ldr	r5, .Laes_v6m_small_CPI55_1
	ands	r4, r5
	adds	r5, r4, r0
	eors	r5, r7
	ldr	r6, [sp, #52]                   @ 4-byte Reload
	eors	r6, r5
	str	r6, [sp, #52]                   @ 4-byte Spill
	eors	r3, r6
	eors	r3, r2
	ldr	r0, [sp, #44]                   @ 4-byte Reload
	str	r3, [r0, #28]
	ldr	r4, [r0]
	str	r4, [sp, #28]                   @ 4-byte Spill
	mov	r2, r4
	mov	r0, r1
	rors	r2, r1
	ldr	r1, .Laes_v6m_small_CPI55_0
	ands	r2, r1
	mov	r3, r4
	ldr	r6, [sp, #48]                   @ 4-byte Reload
	rors	r3, r6
	ldr	r1, .Laes_v6m_small_CPI55_1
	ands	r3, r1
	adds	r2, r3, r2
	eors	r2, r4
	mov	r4, r2
	str	r2, [sp, #24]                   @ 4-byte Spill
	ldr	r1, [sp, #16]                   @ 4-byte Reload
	mov	r2, r1
	rors	r2, r0
	ldr	r3, .Laes_v6m_small_CPI55_0
	ands	r2, r3
	mov	r3, r1
	rors	r3, r6
	ldr	r6, .Laes_v6m_small_CPI55_1
	ands	r3, r6
	adds	r6, r3, r2
	eors	r6, r1
	mov	r1, r7
	eors	r1, r6
	str	r1, [sp, #8]                    @ 4-byte Spill
	eors	r1, r4
	mov	r3, r1
	ldr	r2, [sp, #40]                   @ 4-byte Reload
	rors	r3, r2
	ldr	r2, .Laes_v6m_small_CPI55_2
	ands	r3, r2
	mov	r4, r1
	ldr	r7, [sp, #12]                   @ 4-byte Reload
	rors	r4, r7
	ldr	r2, .Laes_v6m_small_CPI55_3
	ands	r4, r2
	adds	r3, r4, r3
	eors	r3, r1
	ldr	r2, [sp, #20]                   @ 4-byte Reload
	ldr	r1, [sp, #28]                   @ 4-byte Reload
	eors	r1, r2
	str	r1, [sp, #28]                   @ 4-byte Spill
	eors	r3, r1
	ldr	r1, [sp, #44]                   @ 4-byte Reload
	str	r3, [r1]
	ldr	r3, [r1, #12]
	mov	r1, r3
	rors	r1, r0
	ldr	r0, .Laes_v6m_small_CPI55_0
	ands	r1, r0
	mov	r4, r3
	ldr	r0, [sp, #48]                   @ 4-byte Reload
	rors	r4, r0
	ldr	r0, .Laes_v6m_small_CPI55_1
	ands	r4, r0
	adds	r1, r4, r1
	eors	r1, r3
	ldr	r0, [sp, #36]                   @ 4-byte Reload
	eors	r0, r1
	eors	r0, r2
	str	r0, [sp, #36]                   @ 4-byte Spill
	eors	r5, r0
	mov	r4, r5
	ldr	r0, [sp, #40]                   @ 4-byte Reload
	rors	r4, r0
	ldr	r0, .Laes_v6m_small_CPI55_2
	ands	r4, r0
	mov	r0, r5
	rors	r0, r7
	ldr	r2, .Laes_v6m_small_CPI55_3
	ands	r0, r2
	adds	r0, r0, r4
	ldr	r2, [sp, #8]                    @ 4-byte Reload
	eors	r0, r2
	eors	r0, r5
	ldr	r2, [sp, #44]                   @ 4-byte Reload
	str	r0, [r2, #24]
	ldr	r4, [r2, #8]
	str	r4, [sp, #16]                   @ 4-byte Spill
	mov	r0, r4
	ldr	r2, [sp, #32]                   @ 4-byte Reload
	rors	r0, r2
	ldr	r2, .Laes_v6m_small_CPI55_0
	ands	r0, r2
	mov	r5, r4
	ldr	r2, [sp, #48]                   @ 4-byte Reload
	rors	r5, r2
	ldr	r2, .Laes_v6m_small_CPI55_1
	ands	r5, r2
	adds	r0, r5, r0
	eors	r0, r4
	eors	r3, r0
	ldr	r2, [sp, #20]                   @ 4-byte Reload
	eors	r3, r2
	ldr	r2, [sp, #52]                   @ 4-byte Reload
	eors	r6, r2
	eors	r6, r3
	mov	r5, r6
	ldr	r4, [sp, #40]                   @ 4-byte Reload
	rors	r5, r4
	ldr	r2, .Laes_v6m_small_CPI55_2
	ands	r5, r2
	mov	r2, r6
	rors	r2, r7
	ldr	r7, .Laes_v6m_small_CPI55_3
	ands	r2, r7
	adds	r2, r2, r5
	ldr	r5, [sp]                        @ 4-byte Reload
	eors	r2, r5
	eors	r2, r6
	ldr	r7, [sp, #44]                   @ 4-byte Reload
	str	r2, [r7, #20]
	ldr	r6, [r7, #4]
	str	r6, [sp]                        @ 4-byte Spill
	ldr	r2, [sp, #24]                   @ 4-byte Reload
	eors	r2, r6
	ldr	r5, [sp, #20]                   @ 4-byte Reload
	eors	r2, r5
	str	r2, [sp, #24]                   @ 4-byte Spill
	ldr	r5, [sp, #8]                    @ 4-byte Reload
	eors	r1, r5
	eors	r1, r2
	mov	r5, r1
	rors	r5, r4
	ldr	r2, .Laes_v6m_small_CPI55_2
	ands	r5, r2
	mov	r6, r1
	ldr	r2, [sp, #12]                   @ 4-byte Reload
	rors	r6, r2
	ldr	r4, .Laes_v6m_small_CPI55_3
	ands	r6, r4
	adds	r5, r6, r5
	eors	r5, r3
	eors	r5, r1
	str	r5, [r7, #12]
	ldr	r1, [sp, #52]                   @ 4-byte Reload
	eors	r0, r1
	ldr	r1, [sp, #28]                   @ 4-byte Reload
	eors	r0, r1
	mov	r1, r0
	ldr	r6, [sp, #40]                   @ 4-byte Reload
	rors	r1, r6
	ldr	r3, .Laes_v6m_small_CPI55_2
	ands	r1, r3
	mov	r3, r0
	rors	r3, r2
	ands	r3, r4
	adds	r3, r3, r1
	ldr	r7, [sp]                        @ 4-byte Reload
	mov	r1, r7
	ldr	r2, [sp, #32]                   @ 4-byte Reload
	rors	r1, r2
	ldr	r4, .Laes_v6m_small_CPI55_0
	ands	r1, r4
	mov	r5, r7
	ldr	r4, [sp, #48]                   @ 4-byte Reload
	rors	r5, r4
	ldr	r2, .Laes_v6m_small_CPI55_1
	ands	r5, r2
	adds	r1, r5, r1
	eors	r1, r7
	ldr	r2, [sp, #16]                   @ 4-byte Reload
	eors	r2, r1
	str	r2, [sp, #16]                   @ 4-byte Spill
	eors	r3, r2
	eors	r3, r0
	ldr	r4, [sp, #44]                   @ 4-byte Reload
	str	r3, [r4, #8]
	ldr	r0, [sp, #52]                   @ 4-byte Reload
	ldr	r7, [sp, #8]                    @ 4-byte Reload
	eors	r7, r0
	eors	r1, r7
	mov	r0, r1
	rors	r0, r6
	ldr	r2, .Laes_v6m_small_CPI55_2
	ands	r0, r2
	mov	r2, r1
	ldr	r5, [sp, #12]                   @ 4-byte Reload
	rors	r2, r5
	ldr	r3, .Laes_v6m_small_CPI55_3
	ands	r2, r3
	adds	r0, r2, r0
	ldr	r2, [sp, #24]                   @ 4-byte Reload
	eors	r0, r2
	eors	r0, r1
	mov	r2, r4
	str	r0, [r4, #4]
	mov	r1, r7
	ldr	r0, [sp, #16]                   @ 4-byte Reload
	eors	r1, r0
	ldr	r0, [sp, #4]                    @ 4-byte Reload
	eors	r1, r0
	mov	r0, r1
	mov	r4, r1
	rors	r0, r6
	ldr	r1, .Laes_v6m_small_CPI55_2
	ands	r0, r1
	mov	r1, r4
	rors	r1, r5
	ands	r1, r3
	adds	r0, r1, r0
	ldr	r1, [sp, #36]                   @ 4-byte Reload
	eors	r0, r1
	eors	r0, r4
	str	r0, [r2, #16]
	add	sp, #56
	pop	{r4, r5, r6, r7, pc}
	.p2align	2
@ %bb.1:
.Laes_v6m_small_CPI55_0:
	.long	4244438268                      @ 0xfcfcfcfc
.Laes_v6m_small_CPI55_1:
	.long	50529027                        @ 0x3030303
.Laes_v6m_small_CPI55_2:
	.long	4042322160                      @ 0xf0f0f0f0
.Laes_v6m_small_CPI55_3:
	.long	252645135                       @ 0xf0f0f0f
.Laes_v6m_small_func_end55:
	.size	aes_v6m_small.aes_planes.soft.mix_columns.inv_mix_columns_3, .Laes_v6m_small_func_end55-aes_v6m_small.aes_planes.soft.mix_columns.inv_mix_columns_3
	.cantunwind
	.fnend
                                        @ -- End function
	.section	.text.aes_v6m_small.aes_planes.soft.mix_columns.inv_mix_columns_2,"ax",%progbits
	.p2align	2                               @ -- Begin function aes_planes::soft::mix_columns::inv_mix_columns_2::<#e817d94f9a7b6ba6>
	.type	aes_v6m_small.aes_planes.soft.mix_columns.inv_mix_columns_2,%function
	.code	16
	.thumb_func
aes_v6m_small.aes_planes.soft.mix_columns.inv_mix_columns_2: @ @aes_v6m_small.aes_planes.soft.mix_columns.inv_mix_columns_2
	.fnstart
@ %bb.0:                                @ %start
	.save	{r4, r5, r6, r7, lr}
	push	{r4, r5, r6, r7, lr}
	.pad	#52
	sub	sp, #52
	ldr	r5, [r0, #28]
	str	r5, [sp, #36]                   @ 4-byte Spill
	movs	r6, #4
	mov	r4, r5
	rors	r4, r6
	ldr	r1, .Laes_v6m_small_CPI56_0
	ands	r4, r1
	movs	r3, #12
	mov	r1, r5
	rors	r1, r3
	str	r3, [sp, #48]                   @ 4-byte Spill
	ldr	r2, .Laes_v6m_small_CPI56_1
	ands	r1, r2
	adds	r1, r1, r4
	eors	r1, r5
	mov	r5, r1
	str	r1, [sp, #40]                   @ 4-byte Spill
	ldr	r7, [r0, #16]
	str	r7, [sp, #32]                   @ 4-byte Spill
	mov	r4, r7
	rors	r4, r6
	ldr	r1, .Laes_v6m_small_CPI56_0
	ands	r4, r1
	mov	r1, r7
	rors	r1, r3
	ands	r1, r2
	adds	r2, r1, r4
	eors	r2, r7
	str	r2, [sp, #12]                   @ 4-byte Spill
	ldr	r1, [r0, #20]
	str	r1, [sp, #24]                   @ 4-byte Spill
	mov	r3, r2
	eors	r3, r1
	str	r3, [sp, #8]                    @ 4-byte Spill
	mov	r2, r5
	eors	r2, r3
	movs	r1, #16
	str	r1, [sp, #16]                   @ 4-byte Spill
	mov	r3, r2
	rors	r3, r1
	ldr	r1, [r0, #24]
	mov	r4, r1
	mov	r7, r6
	rors	r4, r6
	ldr	r5, .Laes_v6m_small_CPI56_0
	ands	r4, r5
	mov	r5, r1
	ldr	r6, [sp, #48]                   @ 4-byte Reload
	rors	r5, r6
	ldr	r6, .Laes_v6m_small_CPI56_1
	ands	r5, r6
	adds	r4, r5, r4
	eors	r4, r1
	str	r4, [sp]                        @ 4-byte Spill
	ldr	r6, [sp, #36]                   @ 4-byte Reload
	eors	r6, r4
	str	r6, [sp, #36]                   @ 4-byte Spill
	eors	r3, r6
	eors	r3, r2
	str	r0, [sp, #44]                   @ 4-byte Spill
	str	r3, [r0, #28]
	ldr	r4, [r0]
	mov	r2, r4
	mov	r5, r7
	str	r7, [sp, #20]                   @ 4-byte Spill
	rors	r2, r7
	ldr	r0, .Laes_v6m_small_CPI56_0
	ands	r2, r0
	mov	r3, r4
	ldr	r0, [sp, #48]                   @ 4-byte Reload
	rors	r3, r0
	ldr	r6, .Laes_v6m_small_CPI56_1
	ands	r3, r6
	adds	r6, r3, r2
	eors	r6, r4
	str	r6, [sp, #28]                   @ 4-byte Spill
	ldr	r7, [sp, #24]                   @ 4-byte Reload
	mov	r2, r7
	rors	r2, r5
	ldr	r3, .Laes_v6m_small_CPI56_0
	ands	r2, r3
	mov	r3, r7
	mov	r5, r7
	rors	r3, r0
	ldr	r0, .Laes_v6m_small_CPI56_1
	ands	r3, r0
	adds	r7, r3, r2
	eors	r7, r5
	eors	r1, r7
	str	r1, [sp, #24]                   @ 4-byte Spill
	eors	r1, r6
	mov	r2, r1
	ldr	r6, [sp, #16]                   @ 4-byte Reload
	rors	r2, r6
	eors	r2, r1
	ldr	r0, [sp, #40]                   @ 4-byte Reload
	eors	r4, r0
	str	r4, [sp, #4]                    @ 4-byte Spill
	eors	r2, r4
	ldr	r0, [sp, #44]                   @ 4-byte Reload
	str	r2, [r0]
	ldr	r3, [r0, #12]
	mov	r1, r3
	ldr	r4, [sp, #20]                   @ 4-byte Reload
	rors	r1, r4
	ldr	r0, .Laes_v6m_small_CPI56_0
	ands	r1, r0
	mov	r5, r3
	ldr	r0, [sp, #48]                   @ 4-byte Reload
	rors	r5, r0
	ldr	r0, .Laes_v6m_small_CPI56_1
	ands	r5, r0
	adds	r1, r5, r1
	eors	r1, r3
	ldr	r5, [sp, #32]                   @ 4-byte Reload
	eors	r5, r1
	ldr	r0, [sp, #40]                   @ 4-byte Reload
	eors	r5, r0
	str	r5, [sp, #32]                   @ 4-byte Spill
	ldr	r0, [sp]                        @ 4-byte Reload
	eors	r0, r5
	mov	r5, r0
	rors	r5, r6
	ldr	r2, [sp, #24]                   @ 4-byte Reload
	eors	r5, r2
	eors	r5, r0
	ldr	r0, [sp, #44]                   @ 4-byte Reload
	str	r5, [r0, #24]
	ldr	r2, [r0, #8]
	mov	r0, r2
	str	r2, [sp]                        @ 4-byte Spill
	rors	r0, r4
	ldr	r4, .Laes_v6m_small_CPI56_0
	ands	r0, r4
	mov	r5, r2
	ldr	r4, [sp, #48]                   @ 4-byte Reload
	rors	r5, r4
	ldr	r4, .Laes_v6m_small_CPI56_1
	ands	r5, r4
	adds	r0, r5, r0
	eors	r0, r2
	eors	r3, r0
	ldr	r4, [sp, #40]                   @ 4-byte Reload
	eors	r3, r4
	ldr	r4, [sp, #36]                   @ 4-byte Reload
	eors	r7, r4
	eors	r7, r3
	mov	r5, r7
	mov	r4, r6
	rors	r5, r6
	ldr	r6, [sp, #8]                    @ 4-byte Reload
	eors	r5, r6
	eors	r5, r7
	ldr	r2, [sp, #44]                   @ 4-byte Reload
	str	r5, [r2, #20]
	ldr	r7, [r2, #4]
	ldr	r5, [sp, #28]                   @ 4-byte Reload
	eors	r5, r7
	ldr	r6, [sp, #40]                   @ 4-byte Reload
	eors	r5, r6
	str	r5, [sp, #28]                   @ 4-byte Spill
	ldr	r2, [sp, #24]                   @ 4-byte Reload
	eors	r1, r2
	eors	r1, r5
	mov	r5, r1
	rors	r5, r4
	mov	r2, r4
	eors	r5, r3
	eors	r5, r1
	ldr	r1, [sp, #44]                   @ 4-byte Reload
	str	r5, [r1, #12]
	ldr	r4, [sp, #36]                   @ 4-byte Reload
	eors	r0, r4
	ldr	r1, [sp, #4]                    @ 4-byte Reload
	eors	r0, r1
	mov	r1, r0
	rors	r1, r2
	mov	r2, r7
	ldr	r3, [sp, #20]                   @ 4-byte Reload
	rors	r2, r3
	ldr	r5, .Laes_v6m_small_CPI56_0
	ands	r2, r5
	mov	r5, r7
	ldr	r6, [sp, #48]                   @ 4-byte Reload
	rors	r5, r6
	ldr	r6, .Laes_v6m_small_CPI56_1
	ands	r5, r6
	adds	r2, r5, r2
	eors	r2, r7
	ldr	r3, [sp]                        @ 4-byte Reload
	eors	r3, r2
	eors	r1, r3
	eors	r1, r0
	ldr	r5, [sp, #44]                   @ 4-byte Reload
	str	r1, [r5, #8]
	ldr	r6, [sp, #24]                   @ 4-byte Reload
	eors	r6, r4
	eors	r2, r6
	mov	r0, r2
	ldr	r1, [sp, #16]                   @ 4-byte Reload
	rors	r0, r1
	ldr	r4, [sp, #28]                   @ 4-byte Reload
	eors	r0, r4
	eors	r0, r2
	str	r0, [r5, #4]
	eors	r6, r3
	ldr	r0, [sp, #12]                   @ 4-byte Reload
	eors	r6, r0
	mov	r0, r6
	rors	r0, r1
	ldr	r1, [sp, #32]                   @ 4-byte Reload
	eors	r0, r1
	eors	r0, r6
	str	r0, [r5, #16]
	add	sp, #52
	pop	{r4, r5, r6, r7, pc}
	.p2align	2
@ %bb.1:
.Laes_v6m_small_CPI56_0:
	.long	4042322160                      @ 0xf0f0f0f0
.Laes_v6m_small_CPI56_1:
	.long	252645135                       @ 0xf0f0f0f
.Laes_v6m_small_func_end56:
	.size	aes_v6m_small.aes_planes.soft.mix_columns.inv_mix_columns_2, .Laes_v6m_small_func_end56-aes_v6m_small.aes_planes.soft.mix_columns.inv_mix_columns_2
	.cantunwind
	.fnend
                                        @ -- End function
	.section	.text.aes_v6m_small.aes_planes.soft.mix_columns.inv_mix_columns_1,"ax",%progbits
	.p2align	2                               @ -- Begin function aes_planes::soft::mix_columns::inv_mix_columns_1::<#e817d94f9a7b6ba6>
	.type	aes_v6m_small.aes_planes.soft.mix_columns.inv_mix_columns_1,%function
	.code	16
	.thumb_func
aes_v6m_small.aes_planes.soft.mix_columns.inv_mix_columns_1: @ @aes_v6m_small.aes_planes.soft.mix_columns.inv_mix_columns_1
	.fnstart
@ %bb.0:                                @ %start
	.save	{r4, r5, r6, r7, lr}
	push	{r4, r5, r6, r7, lr}
	.pad	#56
	sub	sp, #56
	mov	r7, r0
	ldr	r3, [r0, #28]
	str	r3, [sp, #52]                   @ 4-byte Spill
	movs	r5, #2
	mov	r0, r3
	rors	r0, r5
	str	r5, [sp, #32]                   @ 4-byte Spill
	ldr	r6, .Laes_v6m_small_CPI57_0
	ands	r0, r6
	movs	r2, #10
	str	r2, [sp, #48]                   @ 4-byte Spill
	mov	r1, r3
	rors	r1, r2
	ldr	r2, .Laes_v6m_small_CPI57_1
	ands	r1, r2
	adds	r0, r1, r0
	eors	r0, r3
	mov	r3, r0
	str	r0, [sp, #20]                   @ 4-byte Spill
	ldr	r4, [r7, #16]
	str	r4, [sp, #36]                   @ 4-byte Spill
	mov	r0, r4
	rors	r0, r5
	ands	r0, r6
	mov	r1, r4
	ldr	r5, [sp, #48]                   @ 4-byte Reload
	rors	r1, r5
	ands	r1, r2
	adds	r0, r1, r0
	eors	r0, r4
	str	r0, [sp, #4]                    @ 4-byte Spill
	ldr	r1, [r7, #20]
	str	r1, [sp, #16]                   @ 4-byte Spill
	str	r7, [sp, #44]                   @ 4-byte Spill
	eors	r0, r1
	str	r0, [sp]                        @ 4-byte Spill
	mov	r2, r3
	eors	r2, r0
	movs	r3, #12
	str	r3, [sp, #40]                   @ 4-byte Spill
	mov	r0, r2
	rors	r0, r3
	ldr	r3, .Laes_v6m_small_CPI57_2
	ands	r0, r3
	movs	r4, #20
	str	r4, [sp, #12]                   @ 4-byte Spill
	mov	r3, r2
	rors	r3, r4
	ldr	r4, .Laes_v6m_small_CPI57_3
	ands	r3, r4
	adds	r3, r3, r0
	ldr	r7, [r7, #24]
	mov	r0, r7
	ldr	r1, [sp, #32]                   @ 4-byte Reload
	rors	r0, r1
	ldr	r4, .Laes_v6m_small_CPI57_0
	ands	r0, r4
	mov	r4, r7
	rors	r4, r5
	ldr	r5, .Laes_v6m_small_CPI57_1
	ands	r4, r5
	adds	r5, r4, r0
	eors	r5, r7
	ldr	r6, [sp, #52]                   @ 4-byte Reload
	eors	r6, r5
	str	r6, [sp, #52]                   @ 4-byte Spill
	eors	r3, r6
	eors	r3, r2
	ldr	r0, [sp, #44]                   @ 4-byte Reload
	str	r3, [r0, #28]
	ldr	r4, [r0]
	str	r4, [sp, #28]                   @ 4-byte Spill
	mov	r2, r4
	mov	r0, r1
	rors	r2, r1
	ldr	r1, .Laes_v6m_small_CPI57_0
	ands	r2, r1
	mov	r3, r4
	ldr	r6, [sp, #48]                   @ 4-byte Reload
	rors	r3, r6
	ldr	r1, .Laes_v6m_small_CPI57_1
	ands	r3, r1
	adds	r2, r3, r2
	eors	r2, r4
	mov	r4, r2
	str	r2, [sp, #24]                   @ 4-byte Spill
	ldr	r1, [sp, #16]                   @ 4-byte Reload
	mov	r2, r1
	rors	r2, r0
	ldr	r3, .Laes_v6m_small_CPI57_0
	ands	r2, r3
	mov	r3, r1
	rors	r3, r6
	ldr	r6, .Laes_v6m_small_CPI57_1
	ands	r3, r6
	adds	r6, r3, r2
	eors	r6, r1
	mov	r1, r7
	eors	r1, r6
	str	r1, [sp, #8]                    @ 4-byte Spill
	eors	r1, r4
	mov	r3, r1
	ldr	r2, [sp, #40]                   @ 4-byte Reload
	rors	r3, r2
	ldr	r2, .Laes_v6m_small_CPI57_2
	ands	r3, r2
	mov	r4, r1
	ldr	r7, [sp, #12]                   @ 4-byte Reload
	rors	r4, r7
	ldr	r2, .Laes_v6m_small_CPI57_3
	ands	r4, r2
	adds	r3, r4, r3
	eors	r3, r1
	ldr	r2, [sp, #20]                   @ 4-byte Reload
	ldr	r1, [sp, #28]                   @ 4-byte Reload
	eors	r1, r2
	str	r1, [sp, #28]                   @ 4-byte Spill
	eors	r3, r1
	ldr	r1, [sp, #44]                   @ 4-byte Reload
	str	r3, [r1]
	ldr	r3, [r1, #12]
	mov	r1, r3
	rors	r1, r0
	ldr	r0, .Laes_v6m_small_CPI57_0
	ands	r1, r0
	mov	r4, r3
	ldr	r0, [sp, #48]                   @ 4-byte Reload
	rors	r4, r0
	ldr	r0, .Laes_v6m_small_CPI57_1
	ands	r4, r0
	adds	r1, r4, r1
	eors	r1, r3
	ldr	r0, [sp, #36]                   @ 4-byte Reload
	eors	r0, r1
	eors	r0, r2
	str	r0, [sp, #36]                   @ 4-byte Spill
	eors	r5, r0
	mov	r4, r5
	ldr	r0, [sp, #40]                   @ 4-byte Reload
	rors	r4, r0
	ldr	r0, .Laes_v6m_small_CPI57_2
	ands	r4, r0
	mov	r0, r5
	rors	r0, r7
	ldr	r2, .Laes_v6m_small_CPI57_3
	ands	r0, r2
	adds	r0, r0, r4
	ldr	r2, [sp, #8]                    @ 4-byte Reload
	eors	r0, r2
	eors	r0, r5
	ldr	r2, [sp, #44]                   @ 4-byte Reload
	str	r0, [r2, #24]
	ldr	r4, [r2, #8]
	str	r4, [sp, #16]                   @ 4-byte Spill
	mov	r0, r4
	ldr	r2, [sp, #32]                   @ 4-byte Reload
	rors	r0, r2
	ldr	r2, .Laes_v6m_small_CPI57_0
	ands	r0, r2
	mov	r5, r4
	ldr	r2, [sp, #48]                   @ 4-byte Reload
	rors	r5, r2
	ldr	r2, .Laes_v6m_small_CPI57_1
	ands	r5, r2
	adds	r0, r5, r0
	eors	r0, r4
	eors	r3, r0
	ldr	r2, [sp, #20]                   @ 4-byte Reload
	eors	r3, r2
	ldr	r2, [sp, #52]                   @ 4-byte Reload
	eors	r6, r2
	eors	r6, r3
	mov	r5, r6
	ldr	r4, [sp, #40]                   @ 4-byte Reload
	rors	r5, r4
	ldr	r2, .Laes_v6m_small_CPI57_2
	ands	r5, r2
	mov	r2, r6
	rors	r2, r7
	ldr	r7, .Laes_v6m_small_CPI57_3
	ands	r2, r7
	adds	r2, r2, r5
	ldr	r5, [sp]                        @ 4-byte Reload
	eors	r2, r5
	eors	r2, r6
	ldr	r7, [sp, #44]                   @ 4-byte Reload
	str	r2, [r7, #20]
	ldr	r6, [r7, #4]
	str	r6, [sp]                        @ 4-byte Spill
	ldr	r2, [sp, #24]                   @ 4-byte Reload
	eors	r2, r6
	ldr	r5, [sp, #20]                   @ 4-byte Reload
	eors	r2, r5
	str	r2, [sp, #24]                   @ 4-byte Spill
	ldr	r5, [sp, #8]                    @ 4-byte Reload
	eors	r1, r5
	eors	r1, r2
	mov	r5, r1
	rors	r5, r4
	ldr	r2, .Laes_v6m_small_CPI57_2
	ands	r5, r2
	mov	r6, r1
	ldr	r2, [sp, #12]                   @ 4-byte Reload
	rors	r6, r2
	ldr	r4, .Laes_v6m_small_CPI57_3
	ands	r6, r4
	adds	r5, r6, r5
	eors	r5, r3
	eors	r5, r1
	str	r5, [r7, #12]
	ldr	r1, [sp, #52]                   @ 4-byte Reload
	eors	r0, r1
	ldr	r1, [sp, #28]                   @ 4-byte Reload
	eors	r0, r1
	mov	r1, r0
	ldr	r6, [sp, #40]                   @ 4-byte Reload
	rors	r1, r6
	ldr	r3, .Laes_v6m_small_CPI57_2
	ands	r1, r3
	mov	r3, r0
	rors	r3, r2
	ands	r3, r4
	adds	r3, r3, r1
	ldr	r7, [sp]                        @ 4-byte Reload
	mov	r1, r7
	ldr	r2, [sp, #32]                   @ 4-byte Reload
	rors	r1, r2
	ldr	r4, .Laes_v6m_small_CPI57_0
	ands	r1, r4
	mov	r5, r7
	ldr	r4, [sp, #48]                   @ 4-byte Reload
	rors	r5, r4
	ldr	r2, .Laes_v6m_small_CPI57_1
	ands	r5, r2
	adds	r1, r5, r1
	eors	r1, r7
	ldr	r2, [sp, #16]                   @ 4-byte Reload
	eors	r2, r1
	str	r2, [sp, #16]                   @ 4-byte Spill
	eors	r3, r2
	eors	r3, r0
	ldr	r4, [sp, #44]                   @ 4-byte Reload
	str	r3, [r4, #8]
	ldr	r0, [sp, #52]                   @ 4-byte Reload
	ldr	r7, [sp, #8]                    @ 4-byte Reload
	eors	r7, r0
	eors	r1, r7
	mov	r0, r1
	rors	r0, r6
	ldr	r2, .Laes_v6m_small_CPI57_2
	ands	r0, r2
	mov	r2, r1
	ldr	r5, [sp, #12]                   @ 4-byte Reload
	rors	r2, r5
	ldr	r3, .Laes_v6m_small_CPI57_3
	ands	r2, r3
	adds	r0, r2, r0
	ldr	r2, [sp, #24]                   @ 4-byte Reload
	eors	r0, r2
	eors	r0, r1
	mov	r2, r4
	str	r0, [r4, #4]
	mov	r1, r7
	ldr	r0, [sp, #16]                   @ 4-byte Reload
	eors	r1, r0
	ldr	r0, [sp, #4]                    @ 4-byte Reload
	eors	r1, r0
	mov	r0, r1
	mov	r4, r1
	rors	r0, r6
	ldr	r1, .Laes_v6m_small_CPI57_2
	ands	r0, r1
	mov	r1, r4
	rors	r1, r5
	ands	r1, r3
	adds	r0, r1, r0
	ldr	r1, [sp, #36]                   @ 4-byte Reload
	eors	r0, r1
	eors	r0, r4
	str	r0, [r2, #16]
	add	sp, #56
	pop	{r4, r5, r6, r7, pc}
	.p2align	2
@ %bb.1:
.Laes_v6m_small_CPI57_0:
	.long	3233857728                      @ 0xc0c0c0c0
.Laes_v6m_small_CPI57_1:
	.long	1061109567                      @ 0x3f3f3f3f
.Laes_v6m_small_CPI57_2:
	.long	4042322160                      @ 0xf0f0f0f0
.Laes_v6m_small_CPI57_3:
	.long	252645135                       @ 0xf0f0f0f
.Laes_v6m_small_func_end57:
	.size	aes_v6m_small.aes_planes.soft.mix_columns.inv_mix_columns_1, .Laes_v6m_small_func_end57-aes_v6m_small.aes_planes.soft.mix_columns.inv_mix_columns_1
	.cantunwind
	.fnend
                                        @ -- End function
	.section	.text.aes_v6m_small.aes_narrow.blocks.process_all_batches.2,"ax",%progbits
	.p2align	1                               @ -- Begin function aes_narrow::blocks::process_all_batches::<#a3dcb71d05bd149b>
	.type	aes_v6m_small.aes_narrow.blocks.process_all_batches.2,%function
	.code	16
	.thumb_func
aes_v6m_small.aes_narrow.blocks.process_all_batches.2: @ @aes_v6m_small.aes_narrow.blocks.process_all_batches.2
	.fnstart
@ %bb.0:                                @ %start
	.save	{r4, r5, r6, r7, lr}
	push	{r4, r5, r6, r7, lr}
	.pad	#44
	sub	sp, #44
	add	r1, sp, #32
	stm	r1!, {r0, r2, r3}               @ 12-byte Folded Spill
	ldr	r1, [sp, #76]
	ldr	r7, [sp, #72]
	mov	r0, r7
	orrs	r0, r1
	beq	.Laes_v6m_small_BB58_7
@ %bb.1:                                @ %join.5.preheader
	ldr	r0, [sp, #64]
	str	r0, [sp, #24]                   @ 4-byte Spill
	movs	r3, #0
	mov	r6, r3
	mov	r5, r3
	str	r1, [sp, #28]                   @ 4-byte Spill
	str	r3, [sp, #20]                   @ 4-byte Spill
	b	.Laes_v6m_small_BB58_3
.Laes_v6m_small_BB58_2:                               @ %join.5
                                        @   in Loop: Header=BB58_3 Depth=1
	str	r4, [sp, #8]
	add	r3, sp, #32
	ldm	r3, {r0, r2, r3}                @ 12-byte Folded Reload
	bl	aes_v6m_small.aes_soft.soft.blocks.filled_up.process_filled_up.2
	adds	r6, r4, r6
	ldr	r3, [sp, #20]                   @ 4-byte Reload
	adcs	r5, r3
	subs	r0, r6, r7
	mov	r0, r5
	ldr	r1, [sp, #28]                   @ 4-byte Reload
	sbcs	r0, r1
	bhs	.Laes_v6m_small_BB58_7
.Laes_v6m_small_BB58_3:                               @ %join.5
                                        @ =>This Inner Loop Header: Depth=1
	str	r3, [sp, #12]
	lsls	r0, r6, #4
	ldr	r3, [sp, #24]                   @ 4-byte Reload
	adds	r0, r3, r0
	str	r0, [sp]
	subs	r4, r7, r6
	sbcs	r1, r5
	movs	r0, #2
	cmp	r4, #2
	blo	.Laes_v6m_small_BB58_5
@ %bb.4:                                @ %join.5
                                        @   in Loop: Header=BB58_3 Depth=1
	mov	r4, r0
.Laes_v6m_small_BB58_5:                               @ %join.5
                                        @   in Loop: Header=BB58_3 Depth=1
	cmp	r1, #0
	beq	.Laes_v6m_small_BB58_2
@ %bb.6:                                @ %join.5
                                        @   in Loop: Header=BB58_3 Depth=1
	mov	r4, r0
	b	.Laes_v6m_small_BB58_2
.Laes_v6m_small_BB58_7:                               @ %after.1
	add	sp, #44
	pop	{r4, r5, r6, r7, pc}
.Laes_v6m_small_func_end58:
	.size	aes_v6m_small.aes_narrow.blocks.process_all_batches.2, .Laes_v6m_small_func_end58-aes_v6m_small.aes_narrow.blocks.process_all_batches.2
	.cantunwind
	.fnend
                                        @ -- End function
	.section	.text.aes_v6m_small.key_wrap.wrapping.unwrap,"ax",%progbits
	.p2align	2                               @ -- Begin function key_wrap::wrapping::unwrap::<#10c636071cb6e37c>
	.type	aes_v6m_small.key_wrap.wrapping.unwrap,%function
	.code	16
	.thumb_func
aes_v6m_small.key_wrap.wrapping.unwrap: @ @aes_v6m_small.key_wrap.wrapping.unwrap
	.fnstart
@ %bb.0:                                @ %start
	.save	{r4, r5, r6, r7, lr}
	push	{r4, r5, r6, r7, lr}
	.pad	#124
	sub	sp, #124
	str	r3, [sp, #64]                   @ 4-byte Spill
	str	r1, [sp, #48]                   @ 4-byte Spill
	str	r0, [sp, #20]                   @ 4-byte Spill
	movs	r5, #0
	ldr	r3, [sp, #156]
	ldr	r7, [sp, #152]
	adds	r1, r7, #1
	mov	r4, r3
	adcs	r4, r5
	movs	r0, #1
	subs	r6, r7, #2
	str	r3, [sp, #36]                   @ 4-byte Spill
	mov	r6, r3
	sbcs	r6, r5
	bhs	.Laes_v6m_small_BB59_1
	b	.Laes_v6m_small_BB59_29
.Laes_v6m_small_BB59_1:                               @ %start
	eors	r1, r2
	ldr	r3, [sp, #64]                   @ 4-byte Reload
	eors	r4, r3
	orrs	r4, r1
	beq	.Laes_v6m_small_BB59_2
	b	.Laes_v6m_small_BB59_29
.Laes_v6m_small_BB59_2:                               @ %after.1
	mov	r1, r3
	ldr	r0, [sp, #144]
	movs	r6, #0
	subs	r5, r2, #1
	sbcs	r1, r6
	str	r1, [sp, #64]                   @ 4-byte Spill
	lsls	r2, r1, #3
	lsrs	r1, r5, #29
	adds	r3, r2, r1
	ldr	r1, [sp, #48]                   @ 4-byte Reload
	adds	r1, #8
	subs	r4, r0, r1
	str	r6, [sp, #92]                   @ 4-byte Spill
	sbcs	r6, r6
	lsls	r2, r5, #3
	subs	r4, r4, r2
	sbcs	r6, r3
	str	r0, [sp, #88]                   @ 4-byte Spill
	str	r7, [sp, #96]                   @ 4-byte Spill
	blo	.Laes_v6m_small_BB59_3
	b	.Laes_v6m_small_BB59_16
.Laes_v6m_small_BB59_3:                               @ %join.7.i.i.i.i.i.i.i.i.preheader
	str	r1, [sp, #60]                   @ 4-byte Spill
	movs	r0, #1
	cmp	r5, #1
	mov	r3, r5
	bhi	.Laes_v6m_small_BB59_5
@ %bb.4:                                @ %join.7.i.i.i.i.i.i.i.i.preheader
	mov	r3, r0
.Laes_v6m_small_BB59_5:                               @ %join.7.i.i.i.i.i.i.i.i.preheader
	ldr	r2, [sp, #64]                   @ 4-byte Reload
	cmp	r2, #0
	mov	r4, r5
	ldr	r1, [sp, #60]                   @ 4-byte Reload
	bne	.Laes_v6m_small_BB59_7
@ %bb.6:                                @ %join.7.i.i.i.i.i.i.i.i.preheader
	mov	r4, r0
.Laes_v6m_small_BB59_7:                               @ %join.7.i.i.i.i.i.i.i.i.preheader
	beq	.Laes_v6m_small_BB59_9
@ %bb.8:                                @ %join.7.i.i.i.i.i.i.i.i.preheader
	mov	r3, r4
.Laes_v6m_small_BB59_9:                               @ %join.7.i.i.i.i.i.i.i.i.preheader
	movs	r6, #3
	mov	r0, r3
	ands	r0, r6
	movs	r4, #0
	subs	r5, r5, #4
	mov	r5, r2
	str	r4, [sp, #56]                   @ 4-byte Spill
	sbcs	r5, r4
	str	r0, [sp, #44]                   @ 4-byte Spill
	bhs	.Laes_v6m_small_BB59_10
	b	.Laes_v6m_small_BB59_13
.Laes_v6m_small_BB59_10:                              @ %join.7.i.i.i.i.i.i.i.i.preheader.new
	bics	r3, r6
	ldr	r0, [sp, #56]                   @ 4-byte Reload
	mov	r2, r0
	mov	r4, r0
	ldr	r5, [sp, #88]                   @ 4-byte Reload
	str	r3, [sp, #52]                   @ 4-byte Spill
.Laes_v6m_small_BB59_11:                              @ %join.7.i.i.i.i.i.i.i.i
                                        @ =>This Inner Loop Header: Depth=1
	str	r4, [sp, #84]                   @ 4-byte Spill
	str	r2, [sp, #100]                  @ 4-byte Spill
	lsls	r7, r2, #3
	ldr	r2, [sp, #60]                   @ 4-byte Reload
	adds	r0, r2, r7
	ldrb	r1, [r0, #1]
	str	r1, [sp, #80]                   @ 4-byte Spill
	ldrb	r1, [r0, #2]
	str	r1, [sp, #76]                   @ 4-byte Spill
	ldrb	r1, [r0, #3]
	str	r1, [sp, #72]                   @ 4-byte Spill
	ldrb	r6, [r0, #4]
	ldrb	r1, [r0, #5]
	ldrb	r4, [r0, #6]
	ldrb	r0, [r0, #7]
	ldrb	r3, [r2, r7]
	strb	r3, [r5, r7]
	adds	r3, r5, r7
	strb	r0, [r3, #7]
	strb	r4, [r3, #6]
	strb	r1, [r3, #5]
	strb	r6, [r3, #4]
	ldr	r0, [sp, #72]                   @ 4-byte Reload
	strb	r0, [r3, #3]
	ldr	r0, [sp, #76]                   @ 4-byte Reload
	strb	r0, [r3, #2]
	ldr	r0, [sp, #80]                   @ 4-byte Reload
	strb	r0, [r3, #1]
	movs	r0, #8
	orrs	r0, r7
	adds	r1, r2, r0
	ldrb	r3, [r1, #4]
	str	r3, [sp, #80]                   @ 4-byte Spill
	ldrb	r3, [r1, #5]
	str	r3, [sp, #76]                   @ 4-byte Spill
	ldrb	r3, [r1, #7]
	str	r3, [sp, #72]                   @ 4-byte Spill
	ldrb	r3, [r1, #6]
	str	r3, [sp, #68]                   @ 4-byte Spill
	ldrb	r4, [r1, #1]
	ldrb	r3, [r1, #2]
	ldrb	r1, [r1, #3]
	ldrb	r6, [r2, r0]
	strb	r6, [r5, r0]
	adds	r0, r5, r0
	strb	r1, [r0, #3]
	strb	r3, [r0, #2]
	strb	r4, [r0, #1]
	ldr	r1, [sp, #68]                   @ 4-byte Reload
	strb	r1, [r0, #6]
	ldr	r1, [sp, #72]                   @ 4-byte Reload
	strb	r1, [r0, #7]
	ldr	r1, [sp, #76]                   @ 4-byte Reload
	strb	r1, [r0, #5]
	ldr	r1, [sp, #80]                   @ 4-byte Reload
	strb	r1, [r0, #4]
	movs	r0, #16
	orrs	r0, r7
	adds	r1, r2, r0
	ldrb	r3, [r1, #7]
	str	r3, [sp, #80]                   @ 4-byte Spill
	ldrb	r3, [r1, #6]
	str	r3, [sp, #76]                   @ 4-byte Spill
	ldrb	r3, [r1, #1]
	str	r3, [sp, #72]                   @ 4-byte Spill
	ldrb	r3, [r1, #2]
	str	r3, [sp, #68]                   @ 4-byte Spill
	ldrb	r6, [r1, #3]
	ldrb	r3, [r1, #4]
	ldrb	r1, [r1, #5]
	ldrb	r4, [r2, r0]
	strb	r4, [r5, r0]
	adds	r0, r5, r0
	strb	r1, [r0, #5]
	strb	r3, [r0, #4]
	strb	r6, [r0, #3]
	ldr	r1, [sp, #68]                   @ 4-byte Reload
	strb	r1, [r0, #2]
	ldr	r1, [sp, #72]                   @ 4-byte Reload
	strb	r1, [r0, #1]
	ldr	r1, [sp, #76]                   @ 4-byte Reload
	strb	r1, [r0, #6]
	ldr	r1, [sp, #80]                   @ 4-byte Reload
	strb	r1, [r0, #7]
	movs	r0, #24
	orrs	r0, r7
	adds	r1, r2, r0
	ldrb	r3, [r1, #1]
	str	r3, [sp, #80]                   @ 4-byte Spill
	ldrb	r3, [r1, #2]
	str	r3, [sp, #76]                   @ 4-byte Spill
	ldrb	r3, [r1, #3]
	str	r3, [sp, #72]                   @ 4-byte Spill
	ldrb	r6, [r1, #4]
	ldrb	r7, [r1, #5]
	ldrb	r4, [r1, #6]
	ldrb	r1, [r1, #7]
	ldrb	r3, [r2, r0]
	strb	r3, [r5, r0]
	ldr	r3, [sp, #52]                   @ 4-byte Reload
	adds	r0, r5, r0
	strb	r1, [r0, #7]
	strb	r4, [r0, #6]
	ldr	r4, [sp, #84]                   @ 4-byte Reload
	ldr	r2, [sp, #100]                  @ 4-byte Reload
	strb	r7, [r0, #5]
	strb	r6, [r0, #4]
	ldr	r1, [sp, #72]                   @ 4-byte Reload
	strb	r1, [r0, #3]
	ldr	r1, [sp, #76]                   @ 4-byte Reload
	strb	r1, [r0, #2]
	ldr	r1, [sp, #80]                   @ 4-byte Reload
	strb	r1, [r0, #1]
	adds	r2, r2, #4
	ldr	r0, [sp, #56]                   @ 4-byte Reload
	adcs	r4, r0
	mov	r0, r4
	ldr	r1, [sp, #64]                   @ 4-byte Reload
	eors	r0, r1
	mov	r1, r2
	eors	r1, r3
	orrs	r1, r0
	bne	.Laes_v6m_small_BB59_11
@ %bb.12:                               @ %"key_wrap::wrapping::copy_apart.exit.i.loopexit.unr-lcssa"
	ldr	r0, [sp, #44]                   @ 4-byte Reload
	cmp	r0, #0
	str	r2, [sp, #56]                   @ 4-byte Spill
	ldr	r1, [sp, #60]                   @ 4-byte Reload
	beq	.Laes_v6m_small_BB59_17
.Laes_v6m_small_BB59_13:                              @ %join.7.i.i.i.i.i.i.i.i.epil.preheader
	ldr	r2, [sp, #56]                   @ 4-byte Reload
	lsls	r2, r2, #3
	mov	r4, r0
	adds	r0, r1, r2
	ldrb	r1, [r0, #1]
	str	r1, [sp, #100]                  @ 4-byte Spill
	ldrb	r1, [r0, #3]
	str	r1, [sp, #84]                   @ 4-byte Spill
	ldrb	r1, [r0, #2]
	str	r1, [sp, #80]                   @ 4-byte Spill
	ldrb	r5, [r0, #5]
	ldrb	r6, [r0, #4]
	ldrb	r7, [r0, #7]
	ldrb	r3, [r0, #6]
	ldr	r0, [sp, #60]                   @ 4-byte Reload
	ldrb	r1, [r0, r2]
	ldr	r0, [sp, #88]                   @ 4-byte Reload
	strb	r1, [r0, r2]
	adds	r1, r0, r2
	strb	r3, [r1, #6]
	strb	r7, [r1, #7]
	ldr	r3, [sp, #60]                   @ 4-byte Reload
	strb	r6, [r1, #4]
	strb	r5, [r1, #5]
	ldr	r0, [sp, #80]                   @ 4-byte Reload
	strb	r0, [r1, #2]
	ldr	r0, [sp, #84]                   @ 4-byte Reload
	strb	r0, [r1, #3]
	ldr	r0, [sp, #100]                  @ 4-byte Reload
	strb	r0, [r1, #1]
	cmp	r4, #1
	beq	.Laes_v6m_small_BB59_17
@ %bb.14:                               @ %join.7.i.i.i.i.i.i.i.i.epil.1
	mov	r0, r2
	adds	r0, #8
	adds	r1, r3, r0
	ldrb	r3, [r1, #1]
	str	r3, [sp, #100]                  @ 4-byte Spill
	ldrb	r3, [r1, #3]
	str	r3, [sp, #84]                   @ 4-byte Spill
	ldrb	r3, [r1, #2]
	str	r3, [sp, #80]                   @ 4-byte Spill
	ldrb	r6, [r1, #5]
	ldrb	r7, [r1, #4]
	ldrb	r5, [r1, #7]
	ldrb	r3, [r1, #6]
	ldr	r1, [sp, #60]                   @ 4-byte Reload
	ldrb	r4, [r1, r0]
	ldr	r1, [sp, #88]                   @ 4-byte Reload
	strb	r4, [r1, r0]
	adds	r0, r1, r0
	strb	r3, [r0, #6]
	strb	r5, [r0, #7]
	strb	r7, [r0, #4]
	ldr	r1, [sp, #60]                   @ 4-byte Reload
	strb	r6, [r0, #5]
	ldr	r3, [sp, #80]                   @ 4-byte Reload
	strb	r3, [r0, #2]
	ldr	r3, [sp, #84]                   @ 4-byte Reload
	strb	r3, [r0, #3]
	ldr	r3, [sp, #100]                  @ 4-byte Reload
	strb	r3, [r0, #1]
	ldr	r0, [sp, #44]                   @ 4-byte Reload
	cmp	r0, #2
	beq	.Laes_v6m_small_BB59_17
@ %bb.15:                               @ %join.7.i.i.i.i.i.i.i.i.epil.2
	adds	r2, #16
	adds	r0, r1, r2
	ldrb	r3, [r0, #1]
	str	r3, [sp, #100]                  @ 4-byte Spill
	ldrb	r3, [r0, #3]
	str	r3, [sp, #84]                   @ 4-byte Spill
	ldrb	r4, [r0, #2]
	ldrb	r5, [r0, #5]
	ldrb	r6, [r0, #4]
	ldrb	r7, [r0, #7]
	ldrb	r3, [r0, #6]
	ldrb	r1, [r1, r2]
	ldr	r0, [sp, #88]                   @ 4-byte Reload
	strb	r1, [r0, r2]
	adds	r1, r0, r2
	strb	r3, [r1, #6]
	strb	r7, [r1, #7]
	strb	r6, [r1, #4]
	strb	r5, [r1, #5]
	strb	r4, [r1, #2]
	ldr	r0, [sp, #84]                   @ 4-byte Reload
	strb	r0, [r1, #3]
	ldr	r0, [sp, #100]                  @ 4-byte Reload
	strb	r0, [r1, #1]
	b	.Laes_v6m_small_BB59_17
.Laes_v6m_small_BB59_16:                              @ %apart.2.i.i.i.i.i.i.i.i
	bl	memmove
.Laes_v6m_small_BB59_17:                              @ %"key_wrap::wrapping::copy_apart.exit.i"
	ldr	r3, [sp, #48]                   @ 4-byte Reload
	ldrb	r0, [r3, #4]
	ldrb	r1, [r3, #5]
	lsls	r1, r1, #8
	adds	r0, r1, r0
	ldrb	r1, [r3, #6]
	lsls	r1, r1, #16
	ldrb	r2, [r3, #7]
	lsls	r2, r2, #24
	adds	r1, r2, r1
	adds	r0, r1, r0
	str	r0, [sp, #100]                  @ 4-byte Spill
	ldrb	r0, [r3]
	ldrb	r1, [r3, #1]
	lsls	r1, r1, #8
	adds	r0, r1, r0
	ldrb	r1, [r3, #2]
	lsls	r1, r1, #16
	ldrb	r2, [r3, #3]
	lsls	r2, r2, #24
	adds	r1, r2, r1
	adds	r7, r1, r0
	ldr	r4, [sp, #92]                   @ 4-byte Reload
	mov	r3, r4
	mov	r2, r4
	ldr	r6, [sp, #36]                   @ 4-byte Reload
.Laes_v6m_small_BB59_18:                              @ %join.5.lr.ph.i.i.i
                                        @ =>This Loop Header: Depth=1
                                        @     Child Loop BB59_19 Depth 2
	movs	r0, #5
	str	r3, [sp, #24]                   @ 4-byte Spill
	subs	r0, r0, r3
	mov	r1, r4
	str	r2, [sp, #28]                   @ 4-byte Spill
	sbcs	r1, r2
	ldr	r2, [sp, #96]                   @ 4-byte Reload
	mov	r3, r6
	bl	__aeabi_lmul
	adds	r0, r0, #1
	str	r0, [sp, #40]                   @ 4-byte Spill
	adcs	r1, r4
	str	r1, [sp, #44]                   @ 4-byte Spill
	mov	r1, r4
	mov	r2, r4
	ldr	r4, [sp, #20]                   @ 4-byte Reload
	ldr	r5, [sp, #100]                  @ 4-byte Reload
.Laes_v6m_small_BB59_19:                              @ %join.5.i.i.i
                                        @   Parent Loop BB59_18 Depth=1
                                        @ =>  This Inner Loop Header: Depth=2
	str	r2, [sp, #84]                   @ 4-byte Spill
	str	r1, [sp, #100]                  @ 4-byte Spill
	mvns	r0, r2
	ldr	r1, [sp, #100]                  @ 4-byte Reload
	mvns	r1, r1
	ldr	r2, [sp, #96]                   @ 4-byte Reload
	adds	r1, r2, r1
	adcs	r0, r6
	ldr	r2, [sp, #40]                   @ 4-byte Reload
	adds	r2, r2, r1
	ldr	r3, [sp, #44]                   @ 4-byte Reload
	adcs	r0, r3
	rev	r2, r2
	eors	r2, r5
	str	r2, [sp, #108]
	rev	r0, r0
	eors	r0, r7
	str	r0, [sp, #104]
	lsls	r5, r1, #3
	ldr	r3, [sp, #88]                   @ 4-byte Reload
	adds	r7, r3, r5
	str	r5, [sp, #80]                   @ 4-byte Spill
	ldrb	r0, [r7, #4]
	ldrb	r1, [r7, #5]
	lsls	r1, r1, #8
	adds	r0, r1, r0
	ldrb	r1, [r7, #6]
	lsls	r1, r1, #16
	ldrb	r2, [r7, #7]
	lsls	r2, r2, #24
	adds	r1, r2, r1
	adds	r0, r1, r0
	str	r0, [sp, #116]
	ldrb	r0, [r3, r5]
	ldrb	r1, [r7, #1]
	lsls	r1, r1, #8
	adds	r0, r1, r0
	ldrb	r1, [r7, #2]
	lsls	r1, r1, #16
	ldrb	r2, [r7, #3]
	lsls	r2, r2, #24
	adds	r1, r2, r1
	adds	r0, r1, r0
	str	r0, [sp, #112]
	ldrb	r0, [r4, #15]
	str	r0, [sp, #72]                   @ 4-byte Spill
	ldrb	r0, [r4, #14]
	str	r0, [sp, #68]                   @ 4-byte Spill
	ldrb	r0, [r4, #12]
	str	r0, [sp, #64]                   @ 4-byte Spill
	ldrb	r0, [r4, #13]
	str	r0, [sp, #60]                   @ 4-byte Spill
	ldrb	r0, [r4, #11]
	str	r0, [sp, #56]                   @ 4-byte Spill
	ldrb	r0, [r4, #10]
	str	r0, [sp, #52]                   @ 4-byte Spill
	ldrb	r0, [r4, #8]
	str	r0, [sp, #48]                   @ 4-byte Spill
	ldrb	r3, [r4, #9]
	ldrb	r2, [r4, #3]
	ldrb	r1, [r4, #2]
	ldrb	r5, [r4]
	ldrb	r6, [r4, #1]
	movs	r0, #1
	str	r0, [sp, #32]                   @ 4-byte Spill
	str	r0, [sp, #8]
	ldr	r0, [sp, #92]                   @ 4-byte Reload
	str	r0, [sp, #12]
	add	r0, sp, #104
	str	r0, [sp, #76]                   @ 4-byte Spill
	str	r0, [sp]
	lsls	r6, r6, #8
	adds	r5, r6, r5
	ldr	r6, [sp, #36]                   @ 4-byte Reload
	lsls	r0, r1, #16
	lsls	r1, r2, #24
	adds	r0, r1, r0
	adds	r0, r0, r5
	lsls	r1, r3, #8
	ldr	r2, [sp, #48]                   @ 4-byte Reload
	adds	r1, r1, r2
	ldr	r2, [sp, #52]                   @ 4-byte Reload
	lsls	r2, r2, #16
	ldr	r3, [sp, #56]                   @ 4-byte Reload
	lsls	r3, r3, #24
	adds	r2, r3, r2
	adds	r2, r2, r1
	ldr	r1, [sp, #60]                   @ 4-byte Reload
	lsls	r1, r1, #8
	ldr	r3, [sp, #64]                   @ 4-byte Reload
	adds	r1, r1, r3
	ldr	r3, [sp, #68]                   @ 4-byte Reload
	lsls	r3, r3, #16
	ldr	r5, [sp, #72]                   @ 4-byte Reload
	lsls	r5, r5, #24
	adds	r3, r5, r3
	adds	r3, r3, r1
	bl	aes_v6m_small.aes_narrow.blocks.process_all_batches.2
	bl	aes_v6m_small.aes_cipher.zeroize.stack.wipe_stack.1024
	ldr	r0, [sp, #112]
	ldr	r1, [sp, #80]                   @ 4-byte Reload
	ldr	r2, [sp, #88]                   @ 4-byte Reload
	strb	r0, [r2, r1]
	ldr	r1, [sp, #116]
	strb	r1, [r7, #4]
	lsrs	r2, r1, #24
	strb	r2, [r7, #7]
	lsrs	r2, r1, #16
	strb	r2, [r7, #6]
	lsrs	r1, r1, #8
	strb	r1, [r7, #5]
	lsrs	r1, r0, #24
	strb	r1, [r7, #3]
	lsrs	r1, r0, #16
	strb	r1, [r7, #2]
	lsrs	r0, r0, #8
	strb	r0, [r7, #1]
	ldr	r5, [sp, #108]
	ldr	r7, [sp, #104]
	ldr	r0, [sp, #76]                   @ 4-byte Reload
	bl	aes_v6m_small.aes_cipher.zeroize.elements.zeroize_elements.3
	ldr	r2, [sp, #84]                   @ 4-byte Reload
	ldr	r1, [sp, #100]                  @ 4-byte Reload
	adds	r1, r1, #1
	ldr	r0, [sp, #92]                   @ 4-byte Reload
	adcs	r2, r0
	ldr	r0, [sp, #96]                   @ 4-byte Reload
	subs	r0, r1, r0
	mov	r0, r2
	sbcs	r0, r6
	bhs	.Laes_v6m_small_BB59_20
	b	.Laes_v6m_small_BB59_19
.Laes_v6m_small_BB59_20:                              @ %"key_wrap::steps::unwrap_turn::<#10c636071cb6e37c>.exit.i.i"
                                        @   in Loop: Header=BB59_18 Depth=1
	str	r5, [sp, #100]                  @ 4-byte Spill
	movs	r5, #0
	ldr	r2, [sp, #24]                   @ 4-byte Reload
	adds	r0, r2, #1
	ldr	r3, [sp, #28]                   @ 4-byte Reload
	mov	r1, r3
	adcs	r1, r5
	subs	r2, r2, #5
	sbcs	r3, r5
	mov	r3, r0
	mov	r2, r1
	ldr	r4, [sp, #92]                   @ 4-byte Reload
	bhs	.Laes_v6m_small_BB59_21
	b	.Laes_v6m_small_BB59_18
.Laes_v6m_small_BB59_21:                              @ %"key_wrap::wrapping::unwrap_all::<#10c636071cb6e37c>.exit"
	ldr	r0, .Laes_v6m_small_CPI59_0
	str	r0, [sp, #116]
	str	r0, [sp, #112]
	str	r7, [sp, #104]
	ldr	r0, [sp, #100]                  @ 4-byte Reload
	str	r0, [sp, #108]
	add	r0, sp, #104
	ldr	r1, .Laes_v6m_small_CPI59_1
	bl	aes_v6m_small.aes_cipher.blocks.difference
	cmp	r0, #0
	mov	r0, r5
	ldr	r1, [sp, #96]                   @ 4-byte Reload
	beq	.Laes_v6m_small_BB59_29
@ %bb.22:                               @ %loop.5.preheader.i
	movs	r5, #0
	subs	r4, r1, #1
	ldr	r1, [sp, #36]                   @ 4-byte Reload
	sbcs	r1, r5
	cmp	r4, #1
	mov	r0, r4
	ldr	r7, [sp, #32]                   @ 4-byte Reload
	bhi	.Laes_v6m_small_BB59_24
@ %bb.23:                               @ %loop.5.preheader.i
	mov	r0, r7
.Laes_v6m_small_BB59_24:                              @ %loop.5.preheader.i
	cmp	r1, #0
	mov	r1, r4
	ldr	r6, [sp, #88]                   @ 4-byte Reload
	bne	.Laes_v6m_small_BB59_26
@ %bb.25:                               @ %loop.5.preheader.i
	mov	r1, r7
.Laes_v6m_small_BB59_26:                              @ %loop.5.preheader.i
	beq	.Laes_v6m_small_BB59_28
@ %bb.27:                               @ %loop.5.preheader.i
	mov	r0, r1
.Laes_v6m_small_BB59_28:                              @ %loop.5.preheader.i
	lsls	r2, r0, #3
	mov	r0, r6
	mov	r1, r5
	bl	memset
	lsls	r0, r4, #3
	strb	r5, [r6, r0]
	adds	r0, r6, r0
	strb	r5, [r0, #7]
	strb	r5, [r0, #6]
	strb	r5, [r0, #5]
	strb	r5, [r0, #4]
	strb	r5, [r0, #3]
	strb	r5, [r0, #2]
	strb	r5, [r0, #1]
	mov	r5, r7
	mov	r0, r7
.Laes_v6m_small_BB59_29:                              @ %return.10
	mov	r1, r5
	add	sp, #124
	pop	{r4, r5, r6, r7, pc}
	.p2align	2
@ %bb.30:
.Laes_v6m_small_CPI59_0:
	.long	2795939494                      @ 0xa6a6a6a6
.Laes_v6m_small_CPI59_1:
	.long	.Laes_v6m_small_static.2
.Laes_v6m_small_func_end59:
	.size	aes_v6m_small.key_wrap.wrapping.unwrap, .Laes_v6m_small_func_end59-aes_v6m_small.key_wrap.wrapping.unwrap
	.cantunwind
	.fnend
                                        @ -- End function
	.section	.text.aes_v6m_small.aes_cipher.zeroize.elements.zeroize_elements.3,"ax",%progbits
	.p2align	1                               @ -- Begin function aes_cipher::zeroize::elements::zeroize_elements::<#51e2d7e6a2c2e10f>
	.type	aes_v6m_small.aes_cipher.zeroize.elements.zeroize_elements.3,%function
	.code	16
	.thumb_func
aes_v6m_small.aes_cipher.zeroize.elements.zeroize_elements.3: @ @aes_v6m_small.aes_cipher.zeroize.elements.zeroize_elements.3
	.fnstart
@ %bb.0:                                @ %start
	.save	{r4, lr}
	push	{r4, lr}
	.pad	#8
	sub	sp, #8
	movs	r4, #0
	str	r4, [sp, #4]
	str	r4, [sp]
	@APP
	@NO_APP
	ldr	r1, [sp, #4]
	ldr	r1, [sp]
	@APP
	@NO_APP
	movs	r2, #16
	mov	r1, r4
	bl	memset
	@APP
	@NO_APP
	ldr	r0, [sp, #4]
	ldr	r0, [sp]
	str	r4, [sp, #4]
	str	r4, [sp]
	@APP
	@NO_APP
	add	sp, #8
	pop	{r4, pc}
.Laes_v6m_small_func_end60:
	.size	aes_v6m_small.aes_cipher.zeroize.elements.zeroize_elements.3, .Laes_v6m_small_func_end60-aes_v6m_small.aes_cipher.zeroize.elements.zeroize_elements.3
	.cantunwind
	.fnend
                                        @ -- End function
	.section	.text.aes_v6m_small.aes_cipher.blocks.difference,"ax",%progbits
	.p2align	1                               @ -- Begin function aes_cipher::blocks::difference
	.type	aes_v6m_small.aes_cipher.blocks.difference,%function
	.code	16
	.thumb_func
aes_v6m_small.aes_cipher.blocks.difference:       @ @aes_v6m_small.aes_cipher.blocks.difference
	.fnstart
@ %bb.0:                                @ %start
	.save	{r4, lr}
	push	{r4, lr}
	ldrb	r2, [r0]
	ldrb	r3, [r1]
	eors	r3, r2
	ldrb	r2, [r0, #1]
	ldrb	r4, [r1, #1]
	eors	r4, r2
	orrs	r4, r3
	ldrb	r2, [r0, #2]
	ldrb	r3, [r1, #2]
	eors	r3, r2
	orrs	r3, r4
	ldrb	r2, [r0, #3]
	ldrb	r4, [r1, #3]
	eors	r4, r2
	orrs	r4, r3
	ldrb	r2, [r0, #4]
	ldrb	r3, [r1, #4]
	eors	r3, r2
	orrs	r3, r4
	ldrb	r2, [r0, #5]
	ldrb	r4, [r1, #5]
	eors	r4, r2
	orrs	r4, r3
	ldrb	r2, [r0, #6]
	ldrb	r3, [r1, #6]
	eors	r3, r2
	orrs	r3, r4
	ldrb	r2, [r0, #7]
	ldrb	r4, [r1, #7]
	eors	r4, r2
	orrs	r4, r3
	ldrb	r2, [r0, #8]
	ldrb	r3, [r1, #8]
	eors	r3, r2
	orrs	r3, r4
	ldrb	r2, [r0, #9]
	ldrb	r4, [r1, #9]
	eors	r4, r2
	orrs	r4, r3
	ldrb	r2, [r0, #10]
	ldrb	r3, [r1, #10]
	eors	r3, r2
	orrs	r3, r4
	ldrb	r2, [r0, #11]
	ldrb	r4, [r1, #11]
	eors	r4, r2
	orrs	r4, r3
	ldrb	r2, [r0, #12]
	ldrb	r3, [r1, #12]
	eors	r3, r2
	orrs	r3, r4
	ldrb	r2, [r0, #13]
	ldrb	r4, [r1, #13]
	eors	r4, r2
	orrs	r4, r3
	ldrb	r2, [r0, #14]
	ldrb	r3, [r1, #14]
	eors	r3, r2
	orrs	r3, r4
	ldrb	r2, [r0, #15]
	ldrb	r0, [r1, #15]
	eors	r0, r2
	orrs	r0, r3
	pop	{r4, pc}
.Laes_v6m_small_func_end61:
	.size	aes_v6m_small.aes_cipher.blocks.difference, .Laes_v6m_small_func_end61-aes_v6m_small.aes_cipher.blocks.difference
	.cantunwind
	.fnend
                                        @ -- End function
	.section	.text.aes_v6m_small.key_wrap.padded.unwrap_padded,"ax",%progbits
	.p2align	1                               @ -- Begin function key_wrap::padded::unwrap_padded::<#10c636071cb6e37c>
	.type	aes_v6m_small.key_wrap.padded.unwrap_padded,%function
	.code	16
	.thumb_func
aes_v6m_small.key_wrap.padded.unwrap_padded: @ @aes_v6m_small.key_wrap.padded.unwrap_padded
	.fnstart
@ %bb.0:                                @ %start
	.save	{r4, r5, r6, r7, lr}
	push	{r4, r5, r6, r7, lr}
	.pad	#140
	sub	sp, #140
	str	r2, [sp, #60]                   @ 4-byte Spill
	str	r1, [sp, #28]                   @ 4-byte Spill
	movs	r4, #0
	ldr	r3, [sp, #180]
	ldr	r5, [sp, #176]
	adds	r7, r5, #1
	mov	r2, r3
	adcs	r2, r4
	subs	r1, r5, #1
	str	r3, [sp, #48]                   @ 4-byte Spill
	mov	r6, r3
	str	r4, [sp, #104]                  @ 4-byte Spill
	sbcs	r6, r4
	lsrs	r3, r1, #29
	orrs	r3, r6
	beq	.Laes_v6m_small_BB62_1
	b	.Laes_v6m_small_BB62_16
.Laes_v6m_small_BB62_1:                               @ %start
	ldr	r4, [sp, #164]
	ldr	r3, [sp, #160]
	eors	r7, r3
	eors	r2, r4
	orrs	r2, r7
	beq	.Laes_v6m_small_BB62_2
	b	.Laes_v6m_small_BB62_16
.Laes_v6m_small_BB62_2:                               @ %after.1
	str	r6, [sp, #16]                   @ 4-byte Spill
	str	r5, [sp, #44]                   @ 4-byte Spill
	str	r1, [sp, #20]                   @ 4-byte Spill
	str	r0, [sp, #24]                   @ 4-byte Spill
	ldr	r0, [sp, #168]
	subs	r5, r3, #1
	ldr	r6, [sp, #104]                  @ 4-byte Reload
	sbcs	r4, r6
	str	r4, [sp, #76]                   @ 4-byte Spill
	lsls	r3, r4, #3
	lsrs	r2, r5, #29
	adds	r3, r3, r2
	ldr	r1, [sp, #60]                   @ 4-byte Reload
	adds	r1, #8
	subs	r4, r0, r1
	sbcs	r6, r6
	lsls	r2, r5, #3
	subs	r4, r4, r2
	sbcs	r6, r3
	str	r0, [sp, #100]                  @ 4-byte Spill
	blo	.Laes_v6m_small_BB62_3
	b	.Laes_v6m_small_BB62_17
.Laes_v6m_small_BB62_3:                               @ %join.7.i.i.i.i.i.i.i.preheader
	movs	r2, #1
	cmp	r5, #1
	mov	r3, r5
	bhi	.Laes_v6m_small_BB62_5
@ %bb.4:                                @ %join.7.i.i.i.i.i.i.i.preheader
	mov	r3, r2
.Laes_v6m_small_BB62_5:                               @ %join.7.i.i.i.i.i.i.i.preheader
	ldr	r0, [sp, #76]                   @ 4-byte Reload
	cmp	r0, #0
	mov	r4, r5
	bne	.Laes_v6m_small_BB62_7
@ %bb.6:                                @ %join.7.i.i.i.i.i.i.i.preheader
	mov	r4, r2
.Laes_v6m_small_BB62_7:                               @ %join.7.i.i.i.i.i.i.i.preheader
	beq	.Laes_v6m_small_BB62_9
@ %bb.8:                                @ %join.7.i.i.i.i.i.i.i.preheader
	mov	r3, r4
.Laes_v6m_small_BB62_9:                               @ %join.7.i.i.i.i.i.i.i.preheader
	movs	r6, #3
	mov	r2, r3
	ands	r2, r6
	movs	r0, #0
	subs	r5, r5, #4
	ldr	r5, [sp, #76]                   @ 4-byte Reload
	str	r0, [sp, #72]                   @ 4-byte Spill
	sbcs	r5, r0
	str	r2, [sp, #56]                   @ 4-byte Spill
	bhs	.Laes_v6m_small_BB62_10
	b	.Laes_v6m_small_BB62_13
.Laes_v6m_small_BB62_10:                              @ %join.7.i.i.i.i.i.i.i.preheader.new
	bics	r3, r6
	ldr	r0, [sp, #72]                   @ 4-byte Reload
	mov	r4, r0
	mov	r2, r0
	ldr	r5, [sp, #100]                  @ 4-byte Reload
	str	r1, [sp, #68]                   @ 4-byte Spill
	str	r3, [sp, #64]                   @ 4-byte Spill
.Laes_v6m_small_BB62_11:                              @ %join.7.i.i.i.i.i.i.i
                                        @ =>This Inner Loop Header: Depth=1
	str	r2, [sp, #96]                   @ 4-byte Spill
	str	r4, [sp, #108]                  @ 4-byte Spill
	lsls	r7, r4, #3
	ldr	r3, [sp, #68]                   @ 4-byte Reload
	adds	r2, r3, r7
	ldrb	r0, [r2, #1]
	str	r0, [sp, #92]                   @ 4-byte Spill
	ldrb	r0, [r2, #2]
	str	r0, [sp, #88]                   @ 4-byte Spill
	ldrb	r0, [r2, #3]
	str	r0, [sp, #84]                   @ 4-byte Spill
	ldrb	r0, [r2, #4]
	ldrb	r6, [r2, #5]
	ldrb	r4, [r2, #6]
	ldrb	r2, [r2, #7]
	ldrb	r1, [r3, r7]
	strb	r1, [r5, r7]
	adds	r1, r5, r7
	strb	r2, [r1, #7]
	strb	r4, [r1, #6]
	strb	r6, [r1, #5]
	strb	r0, [r1, #4]
	ldr	r0, [sp, #84]                   @ 4-byte Reload
	strb	r0, [r1, #3]
	ldr	r0, [sp, #88]                   @ 4-byte Reload
	strb	r0, [r1, #2]
	ldr	r0, [sp, #92]                   @ 4-byte Reload
	strb	r0, [r1, #1]
	movs	r0, #8
	orrs	r0, r7
	adds	r1, r3, r0
	ldrb	r2, [r1, #4]
	str	r2, [sp, #92]                   @ 4-byte Spill
	ldrb	r2, [r1, #5]
	str	r2, [sp, #88]                   @ 4-byte Spill
	ldrb	r2, [r1, #7]
	str	r2, [sp, #84]                   @ 4-byte Spill
	ldrb	r2, [r1, #6]
	str	r2, [sp, #80]                   @ 4-byte Spill
	ldrb	r4, [r1, #1]
	ldrb	r2, [r1, #2]
	ldrb	r1, [r1, #3]
	ldrb	r6, [r3, r0]
	strb	r6, [r5, r0]
	adds	r0, r5, r0
	strb	r1, [r0, #3]
	strb	r2, [r0, #2]
	strb	r4, [r0, #1]
	ldr	r1, [sp, #80]                   @ 4-byte Reload
	strb	r1, [r0, #6]
	ldr	r1, [sp, #84]                   @ 4-byte Reload
	strb	r1, [r0, #7]
	ldr	r1, [sp, #88]                   @ 4-byte Reload
	strb	r1, [r0, #5]
	ldr	r1, [sp, #92]                   @ 4-byte Reload
	strb	r1, [r0, #4]
	movs	r0, #16
	orrs	r0, r7
	adds	r1, r3, r0
	ldrb	r2, [r1, #7]
	str	r2, [sp, #92]                   @ 4-byte Spill
	ldrb	r2, [r1, #6]
	str	r2, [sp, #88]                   @ 4-byte Spill
	ldrb	r2, [r1, #1]
	str	r2, [sp, #84]                   @ 4-byte Spill
	ldrb	r2, [r1, #2]
	str	r2, [sp, #80]                   @ 4-byte Spill
	ldrb	r6, [r1, #3]
	ldrb	r2, [r1, #4]
	ldrb	r1, [r1, #5]
	ldrb	r4, [r3, r0]
	strb	r4, [r5, r0]
	adds	r0, r5, r0
	strb	r1, [r0, #5]
	strb	r2, [r0, #4]
	strb	r6, [r0, #3]
	ldr	r1, [sp, #80]                   @ 4-byte Reload
	strb	r1, [r0, #2]
	ldr	r1, [sp, #84]                   @ 4-byte Reload
	strb	r1, [r0, #1]
	ldr	r1, [sp, #88]                   @ 4-byte Reload
	strb	r1, [r0, #6]
	ldr	r1, [sp, #92]                   @ 4-byte Reload
	strb	r1, [r0, #7]
	movs	r0, #24
	orrs	r0, r7
	adds	r1, r3, r0
	ldrb	r2, [r1, #1]
	str	r2, [sp, #92]                   @ 4-byte Spill
	ldrb	r2, [r1, #2]
	str	r2, [sp, #88]                   @ 4-byte Spill
	ldrb	r4, [r1, #3]
	ldrb	r6, [r1, #4]
	ldrb	r7, [r1, #5]
	ldrb	r2, [r1, #6]
	ldrb	r1, [r1, #7]
	ldrb	r3, [r3, r0]
	strb	r3, [r5, r0]
	ldr	r3, [sp, #64]                   @ 4-byte Reload
	adds	r0, r5, r0
	strb	r1, [r0, #7]
	strb	r2, [r0, #6]
	ldr	r2, [sp, #96]                   @ 4-byte Reload
	strb	r7, [r0, #5]
	strb	r6, [r0, #4]
	strb	r4, [r0, #3]
	ldr	r4, [sp, #108]                  @ 4-byte Reload
	ldr	r1, [sp, #88]                   @ 4-byte Reload
	strb	r1, [r0, #2]
	ldr	r1, [sp, #92]                   @ 4-byte Reload
	strb	r1, [r0, #1]
	adds	r4, r4, #4
	ldr	r0, [sp, #72]                   @ 4-byte Reload
	adcs	r2, r0
	mov	r0, r2
	ldr	r1, [sp, #76]                   @ 4-byte Reload
	eors	r0, r1
	mov	r1, r4
	eors	r1, r3
	orrs	r1, r0
	bne	.Laes_v6m_small_BB62_11
@ %bb.12:                               @ %"key_wrap::wrapping::copy_apart.exit.loopexit.unr-lcssa"
	ldr	r2, [sp, #56]                   @ 4-byte Reload
	cmp	r2, #0
	str	r4, [sp, #72]                   @ 4-byte Spill
	ldr	r1, [sp, #68]                   @ 4-byte Reload
	beq	.Laes_v6m_small_BB62_18
.Laes_v6m_small_BB62_13:                              @ %join.7.i.i.i.i.i.i.i.epil.preheader
	ldr	r0, [sp, #72]                   @ 4-byte Reload
	lsls	r3, r0, #3
	adds	r0, r1, r3
	ldrb	r4, [r0, #1]
	str	r4, [sp, #108]                  @ 4-byte Spill
	ldrb	r4, [r0, #3]
	str	r4, [sp, #96]                   @ 4-byte Spill
	ldrb	r4, [r0, #2]
	str	r4, [sp, #92]                   @ 4-byte Spill
	ldrb	r4, [r0, #5]
	str	r4, [sp, #88]                   @ 4-byte Spill
	ldrb	r6, [r0, #4]
	mov	r5, r1
	ldrb	r7, [r0, #7]
	ldrb	r1, [r0, #6]
	mov	r4, r2
	ldrb	r2, [r5, r3]
	ldr	r0, [sp, #100]                  @ 4-byte Reload
	strb	r2, [r0, r3]
	adds	r2, r0, r3
	strb	r1, [r2, #6]
	strb	r7, [r2, #7]
	strb	r6, [r2, #4]
	ldr	r1, [sp, #88]                   @ 4-byte Reload
	strb	r1, [r2, #5]
	ldr	r1, [sp, #92]                   @ 4-byte Reload
	strb	r1, [r2, #2]
	ldr	r1, [sp, #96]                   @ 4-byte Reload
	strb	r1, [r2, #3]
	ldr	r1, [sp, #108]                  @ 4-byte Reload
	strb	r1, [r2, #1]
	cmp	r4, #1
	beq	.Laes_v6m_small_BB62_18
@ %bb.14:                               @ %join.7.i.i.i.i.i.i.i.epil.1
	mov	r1, r3
	adds	r1, #8
	adds	r2, r5, r1
	ldrb	r0, [r2, #1]
	str	r0, [sp, #108]                  @ 4-byte Spill
	ldrb	r0, [r2, #3]
	str	r0, [sp, #96]                   @ 4-byte Spill
	ldrb	r0, [r2, #2]
	str	r0, [sp, #92]                   @ 4-byte Spill
	ldrb	r0, [r2, #5]
	str	r0, [sp, #88]                   @ 4-byte Spill
	ldrb	r7, [r2, #4]
	ldrb	r6, [r2, #7]
	ldrb	r2, [r2, #6]
	ldrb	r4, [r5, r1]
	ldr	r0, [sp, #100]                  @ 4-byte Reload
	strb	r4, [r0, r1]
	adds	r1, r0, r1
	strb	r2, [r1, #6]
	strb	r6, [r1, #7]
	strb	r7, [r1, #4]
	ldr	r2, [sp, #88]                   @ 4-byte Reload
	strb	r2, [r1, #5]
	ldr	r2, [sp, #92]                   @ 4-byte Reload
	strb	r2, [r1, #2]
	ldr	r2, [sp, #96]                   @ 4-byte Reload
	strb	r2, [r1, #3]
	ldr	r2, [sp, #108]                  @ 4-byte Reload
	strb	r2, [r1, #1]
	ldr	r1, [sp, #56]                   @ 4-byte Reload
	cmp	r1, #2
	beq	.Laes_v6m_small_BB62_18
@ %bb.15:                               @ %join.7.i.i.i.i.i.i.i.epil.2
	mov	r0, r5
	adds	r3, #16
	adds	r1, r5, r3
	ldrb	r2, [r1, #1]
	str	r2, [sp, #108]                  @ 4-byte Spill
	ldrb	r2, [r1, #3]
	str	r2, [sp, #96]                   @ 4-byte Spill
	ldrb	r4, [r1, #2]
	ldrb	r5, [r1, #5]
	ldrb	r6, [r1, #4]
	ldrb	r7, [r1, #7]
	ldrb	r1, [r1, #6]
	ldrb	r2, [r0, r3]
	ldr	r0, [sp, #100]                  @ 4-byte Reload
	strb	r2, [r0, r3]
	adds	r0, r0, r3
	strb	r1, [r0, #6]
	strb	r7, [r0, #7]
	strb	r6, [r0, #4]
	strb	r5, [r0, #5]
	strb	r4, [r0, #2]
	ldr	r1, [sp, #96]                   @ 4-byte Reload
	strb	r1, [r0, #3]
	ldr	r1, [sp, #108]                  @ 4-byte Reload
	strb	r1, [r0, #1]
	b	.Laes_v6m_small_BB62_18
.Laes_v6m_small_BB62_16:                              @ %join.5
	ldr	r1, [sp, #104]                  @ 4-byte Reload
	strb	r1, [r0, #7]
	strb	r1, [r0, #6]
	strb	r1, [r0, #5]
	strb	r1, [r0, #4]
	strb	r1, [r0, #1]
	movs	r1, #1
	strb	r1, [r0]
	add	sp, #140
	pop	{r4, r5, r6, r7, pc}
.Laes_v6m_small_BB62_17:                              @ %apart.2.i.i.i.i.i.i.i
	bl	memmove
.Laes_v6m_small_BB62_18:                              @ %"key_wrap::wrapping::copy_apart.exit"
	ldr	r3, [sp, #60]                   @ 4-byte Reload
	ldrb	r0, [r3, #4]
	ldrb	r1, [r3, #5]
	lsls	r1, r1, #8
	adds	r0, r1, r0
	ldrb	r1, [r3, #6]
	lsls	r1, r1, #16
	ldrb	r2, [r3, #7]
	lsls	r2, r2, #24
	adds	r1, r2, r1
	adds	r6, r1, r0
	ldrb	r0, [r3]
	ldrb	r1, [r3, #1]
	lsls	r1, r1, #8
	adds	r0, r1, r0
	ldrb	r1, [r3, #2]
	lsls	r1, r1, #16
	ldrb	r2, [r3, #3]
	lsls	r2, r2, #24
	adds	r1, r2, r1
	adds	r7, r1, r0
	movs	r4, #1
	ldr	r3, [sp, #44]                   @ 4-byte Reload
	mov	r0, r3
	eors	r0, r4
	ldr	r5, [sp, #48]                   @ 4-byte Reload
	orrs	r0, r5
	str	r4, [sp, #40]                   @ 4-byte Spill
	bne	.Laes_v6m_small_BB62_20
@ %bb.19:                               @ %then.1.i
	str	r7, [sp, #120]
	str	r6, [sp, #124]
	ldr	r7, [sp, #100]                  @ 4-byte Reload
	ldrb	r0, [r7, #4]
	ldrb	r1, [r7, #5]
	lsls	r1, r1, #8
	adds	r0, r1, r0
	ldrb	r1, [r7, #6]
	lsls	r1, r1, #16
	ldrb	r2, [r7, #7]
	lsls	r2, r2, #24
	adds	r1, r2, r1
	adds	r0, r1, r0
	str	r0, [sp, #132]
	ldrb	r0, [r7]
	ldrb	r1, [r7, #1]
	lsls	r1, r1, #8
	adds	r0, r1, r0
	ldrb	r1, [r7, #2]
	lsls	r1, r1, #16
	ldrb	r2, [r7, #3]
	lsls	r2, r2, #24
	adds	r1, r2, r1
	adds	r0, r1, r0
	str	r0, [sp, #128]
	ldr	r0, [sp, #28]                   @ 4-byte Reload
	ldrb	r1, [r0, #15]
	str	r1, [sp, #108]                  @ 4-byte Spill
	ldrb	r1, [r0, #14]
	str	r1, [sp, #96]                   @ 4-byte Spill
	ldrb	r1, [r0, #12]
	str	r1, [sp, #92]                   @ 4-byte Spill
	ldrb	r1, [r0, #13]
	str	r1, [sp, #88]                   @ 4-byte Spill
	ldrb	r1, [r0, #11]
	str	r1, [sp, #84]                   @ 4-byte Spill
	ldrb	r1, [r0, #10]
	str	r1, [sp, #80]                   @ 4-byte Spill
	ldrb	r1, [r0, #8]
	str	r1, [sp, #76]                   @ 4-byte Spill
	ldrb	r6, [r0, #9]
	ldrb	r5, [r0, #3]
	ldrb	r3, [r0, #2]
	ldrb	r2, [r0]
	ldrb	r1, [r0, #1]
	movs	r0, #0
	str	r4, [sp, #8]
	str	r0, [sp, #12]
	add	r0, sp, #120
	str	r0, [sp, #104]                  @ 4-byte Spill
	str	r0, [sp]
	lsls	r0, r1, #8
	adds	r0, r0, r2
	lsls	r1, r3, #16
	lsls	r2, r5, #24
	adds	r1, r2, r1
	adds	r0, r1, r0
	lsls	r1, r6, #8
	ldr	r5, [sp, #48]                   @ 4-byte Reload
	ldr	r2, [sp, #76]                   @ 4-byte Reload
	adds	r1, r1, r2
	ldr	r6, [sp, #44]                   @ 4-byte Reload
	ldr	r2, [sp, #80]                   @ 4-byte Reload
	lsls	r2, r2, #16
	ldr	r3, [sp, #84]                   @ 4-byte Reload
	lsls	r3, r3, #24
	adds	r2, r3, r2
	adds	r2, r2, r1
	ldr	r1, [sp, #88]                   @ 4-byte Reload
	lsls	r1, r1, #8
	ldr	r3, [sp, #92]                   @ 4-byte Reload
	adds	r1, r1, r3
	ldr	r3, [sp, #96]                   @ 4-byte Reload
	lsls	r3, r3, #16
	ldr	r4, [sp, #108]                  @ 4-byte Reload
	lsls	r4, r4, #24
	adds	r3, r4, r3
	adds	r3, r3, r1
	bl	aes_v6m_small.aes_narrow.blocks.process_all_batches.2
	bl	aes_v6m_small.aes_cipher.zeroize.stack.wipe_stack.1024
	ldr	r0, [sp, #132]
	strb	r0, [r7, #4]
	ldr	r1, [sp, #128]
	strb	r1, [r7]
	lsrs	r2, r0, #24
	strb	r2, [r7, #7]
	lsrs	r2, r0, #16
	strb	r2, [r7, #6]
	lsrs	r0, r0, #8
	strb	r0, [r7, #5]
	lsrs	r0, r1, #24
	strb	r0, [r7, #3]
	lsrs	r0, r1, #16
	strb	r0, [r7, #2]
	lsrs	r0, r1, #8
	strb	r0, [r7, #1]
	ldr	r0, [sp, #124]
	str	r0, [sp, #108]                  @ 4-byte Spill
	str	r0, [sp, #116]
	ldr	r0, [sp, #120]
	str	r0, [sp, #112]
	ldr	r0, [sp, #104]                  @ 4-byte Reload
	bl	aes_v6m_small.aes_cipher.zeroize.elements.zeroize_elements.3
	mov	r3, r6
	b	.Laes_v6m_small_BB62_25
.Laes_v6m_small_BB62_20:                              @ %else.2.i
	str	r6, [sp, #108]                  @ 4-byte Spill
	ldr	r4, [sp, #104]                  @ 4-byte Reload
	mov	r1, r4
	mov	r2, r4
.Laes_v6m_small_BB62_21:                              @ %join.5.i.i
                                        @ =>This Loop Header: Depth=1
                                        @     Child Loop BB62_22 Depth 2
	movs	r0, #5
	str	r1, [sp, #32]                   @ 4-byte Spill
	subs	r0, r0, r1
	mov	r1, r4
	str	r2, [sp, #36]                   @ 4-byte Spill
	sbcs	r1, r2
	mov	r2, r3
	mov	r6, r3
	mov	r3, r5
	bl	__aeabi_lmul
	mov	r2, r6
	adds	r0, r0, #1
	str	r0, [sp, #52]                   @ 4-byte Spill
	adcs	r1, r4
	str	r1, [sp, #56]                   @ 4-byte Spill
	mov	r1, r4
	mov	r3, r4
	ldr	r4, [sp, #28]                   @ 4-byte Reload
	ldr	r6, [sp, #108]                  @ 4-byte Reload
.Laes_v6m_small_BB62_22:                              @ %join.5.i.i.i
                                        @   Parent Loop BB62_21 Depth=1
                                        @ =>  This Inner Loop Header: Depth=2
	str	r3, [sp, #96]                   @ 4-byte Spill
	str	r1, [sp, #108]                  @ 4-byte Spill
	mvns	r0, r3
	ldr	r1, [sp, #108]                  @ 4-byte Reload
	mvns	r1, r1
	adds	r1, r2, r1
	adcs	r0, r5
	ldr	r2, [sp, #52]                   @ 4-byte Reload
	adds	r2, r2, r1
	ldr	r3, [sp, #56]                   @ 4-byte Reload
	adcs	r0, r3
	rev	r2, r2
	eors	r2, r6
	str	r2, [sp, #124]
	rev	r0, r0
	eors	r0, r7
	str	r0, [sp, #120]
	lsls	r5, r1, #3
	ldr	r3, [sp, #100]                  @ 4-byte Reload
	adds	r7, r3, r5
	str	r5, [sp, #92]                   @ 4-byte Spill
	ldrb	r0, [r7, #4]
	ldrb	r1, [r7, #5]
	lsls	r1, r1, #8
	adds	r0, r1, r0
	ldrb	r1, [r7, #6]
	lsls	r1, r1, #16
	ldrb	r2, [r7, #7]
	lsls	r2, r2, #24
	adds	r1, r2, r1
	adds	r0, r1, r0
	str	r0, [sp, #132]
	ldrb	r0, [r3, r5]
	ldrb	r1, [r7, #1]
	lsls	r1, r1, #8
	adds	r0, r1, r0
	ldrb	r1, [r7, #2]
	lsls	r1, r1, #16
	ldrb	r2, [r7, #3]
	lsls	r2, r2, #24
	adds	r1, r2, r1
	adds	r0, r1, r0
	str	r0, [sp, #128]
	ldrb	r0, [r4, #15]
	str	r0, [sp, #84]                   @ 4-byte Spill
	ldrb	r0, [r4, #14]
	str	r0, [sp, #80]                   @ 4-byte Spill
	ldrb	r0, [r4, #12]
	str	r0, [sp, #76]                   @ 4-byte Spill
	ldrb	r0, [r4, #13]
	str	r0, [sp, #72]                   @ 4-byte Spill
	ldrb	r0, [r4, #11]
	str	r0, [sp, #68]                   @ 4-byte Spill
	ldrb	r0, [r4, #10]
	str	r0, [sp, #64]                   @ 4-byte Spill
	ldrb	r0, [r4, #8]
	str	r0, [sp, #60]                   @ 4-byte Spill
	ldrb	r2, [r4, #9]
	ldrb	r1, [r4, #3]
	ldrb	r0, [r4, #2]
	ldrb	r5, [r4]
	ldrb	r6, [r4, #1]
	ldr	r3, [sp, #40]                   @ 4-byte Reload
	str	r3, [sp, #8]
	ldr	r3, [sp, #104]                  @ 4-byte Reload
	str	r3, [sp, #12]
	add	r3, sp, #120
	str	r3, [sp, #88]                   @ 4-byte Spill
	str	r3, [sp]
	lsls	r6, r6, #8
	adds	r5, r6, r5
	lsls	r0, r0, #16
	lsls	r1, r1, #24
	adds	r0, r1, r0
	adds	r0, r0, r5
	lsls	r1, r2, #8
	ldr	r2, [sp, #60]                   @ 4-byte Reload
	adds	r1, r1, r2
	ldr	r2, [sp, #64]                   @ 4-byte Reload
	lsls	r2, r2, #16
	ldr	r3, [sp, #68]                   @ 4-byte Reload
	lsls	r3, r3, #24
	adds	r2, r3, r2
	adds	r2, r2, r1
	ldr	r1, [sp, #72]                   @ 4-byte Reload
	lsls	r1, r1, #8
	ldr	r3, [sp, #76]                   @ 4-byte Reload
	adds	r1, r1, r3
	ldr	r3, [sp, #80]                   @ 4-byte Reload
	lsls	r3, r3, #16
	ldr	r5, [sp, #84]                   @ 4-byte Reload
	lsls	r5, r5, #24
	adds	r3, r5, r3
	ldr	r5, [sp, #48]                   @ 4-byte Reload
	adds	r3, r3, r1
	bl	aes_v6m_small.aes_narrow.blocks.process_all_batches.2
	bl	aes_v6m_small.aes_cipher.zeroize.stack.wipe_stack.1024
	ldr	r0, [sp, #128]
	ldr	r1, [sp, #92]                   @ 4-byte Reload
	ldr	r2, [sp, #100]                  @ 4-byte Reload
	strb	r0, [r2, r1]
	ldr	r1, [sp, #132]
	strb	r1, [r7, #4]
	lsrs	r2, r1, #24
	strb	r2, [r7, #7]
	lsrs	r2, r1, #16
	strb	r2, [r7, #6]
	lsrs	r1, r1, #8
	strb	r1, [r7, #5]
	lsrs	r1, r0, #24
	strb	r1, [r7, #3]
	lsrs	r1, r0, #16
	strb	r1, [r7, #2]
	lsrs	r0, r0, #8
	strb	r0, [r7, #1]
	ldr	r6, [sp, #124]
	ldr	r7, [sp, #120]
	ldr	r0, [sp, #88]                   @ 4-byte Reload
	bl	aes_v6m_small.aes_cipher.zeroize.elements.zeroize_elements.3
	ldr	r3, [sp, #96]                   @ 4-byte Reload
	ldr	r1, [sp, #108]                  @ 4-byte Reload
	ldr	r2, [sp, #44]                   @ 4-byte Reload
	adds	r1, r1, #1
	ldr	r0, [sp, #104]                  @ 4-byte Reload
	adcs	r3, r0
	subs	r0, r1, r2
	mov	r0, r3
	sbcs	r0, r5
	bhs	.Laes_v6m_small_BB62_23
	b	.Laes_v6m_small_BB62_22
.Laes_v6m_small_BB62_23:                              @ %"key_wrap::steps::unwrap_turn::<#10c636071cb6e37c>.exit.i.i"
                                        @   in Loop: Header=BB62_21 Depth=1
	str	r6, [sp, #108]                  @ 4-byte Spill
	movs	r0, #0
	mov	r6, r2
	ldr	r3, [sp, #32]                   @ 4-byte Reload
	adds	r1, r3, #1
	ldr	r4, [sp, #36]                   @ 4-byte Reload
	mov	r2, r4
	adcs	r2, r0
	subs	r3, r3, #5
	mov	r3, r6
	sbcs	r4, r0
	ldr	r4, [sp, #104]                  @ 4-byte Reload
	bhs	.Laes_v6m_small_BB62_24
	b	.Laes_v6m_small_BB62_21
.Laes_v6m_small_BB62_24:                              @ %"key_wrap::steps::unwrap_string::<#10c636071cb6e37c>.exit.loopexit"
	str	r7, [sp, #112]
	ldr	r0, [sp, #108]                  @ 4-byte Reload
	str	r0, [sp, #116]
	ldr	r7, [sp, #100]                  @ 4-byte Reload
.Laes_v6m_small_BB62_25:                              @ %"key_wrap::steps::unwrap_string::<#10c636071cb6e37c>.exit"
	add	r0, sp, #112
	mov	r1, r7
	mov	r2, r3
	mov	r6, r3
	mov	r3, r5
	bl	aes_v6m_small.key_wrap.padded.difference
	orrs	r1, r0
	ldr	r4, [sp, #24]                   @ 4-byte Reload
	mov	r0, r5
	ldr	r5, [sp, #20]                   @ 4-byte Reload
	beq	.Laes_v6m_small_BB62_31
@ %bb.26:                               @ %then.14
	orrs	r0, r6
	ldr	r2, [sp, #40]                   @ 4-byte Reload
	beq	.Laes_v6m_small_BB62_30
@ %bb.27:                               @ %loop.5.preheader.i
	ldr	r0, [sp, #16]                   @ 4-byte Reload
	orrs	r0, r5
	beq	.Laes_v6m_small_BB62_29
@ %bb.28:                               @ %join.8.i.preheader
	lsls	r2, r6, #3
	subs	r2, #8
	movs	r1, #0
	mov	r0, r7
	bl	memset
	ldr	r2, [sp, #40]                   @ 4-byte Reload
.Laes_v6m_small_BB62_29:                              @ %after.4.i
	lsls	r0, r5, #3
	movs	r1, #0
	strb	r1, [r7, r0]
	adds	r0, r7, r0
	strb	r1, [r0, #7]
	strb	r1, [r0, #6]
	strb	r1, [r0, #5]
	strb	r1, [r0, #4]
	strb	r1, [r0, #3]
	strb	r1, [r0, #2]
	strb	r1, [r0, #1]
.Laes_v6m_small_BB62_30:                              @ %"core::slice::edits::slice+T::fill::<#1e8902aced0720be>.exit"
	movs	r0, #0
	strb	r0, [r4, #7]
	strb	r0, [r4, #6]
	strb	r0, [r4, #5]
	strb	r0, [r4, #4]
	strb	r2, [r4, #1]
	strb	r2, [r4]
	add	sp, #140
	pop	{r4, r5, r6, r7, pc}
.Laes_v6m_small_BB62_31:                              @ %join.16
	movs	r0, #0
	strb	r0, [r4, #1]
	strb	r0, [r4]
	ldr	r0, [sp, #108]                  @ 4-byte Reload
	rev	r0, r0
	strb	r0, [r4, #4]
	lsrs	r1, r0, #24
	strb	r1, [r4, #7]
	lsrs	r1, r0, #16
	strb	r1, [r4, #6]
	lsrs	r0, r0, #8
	strb	r0, [r4, #5]
	add	sp, #140
	pop	{r4, r5, r6, r7, pc}
.Laes_v6m_small_func_end62:
	.size	aes_v6m_small.key_wrap.padded.unwrap_padded, .Laes_v6m_small_func_end62-aes_v6m_small.key_wrap.padded.unwrap_padded
	.cantunwind
	.fnend
                                        @ -- End function
	.section	.text.aes_v6m_small.key_wrap.padded.difference,"ax",%progbits
	.p2align	2                               @ -- Begin function key_wrap::padded::difference
	.type	aes_v6m_small.key_wrap.padded.difference,%function
	.code	16
	.thumb_func
aes_v6m_small.key_wrap.padded.difference:         @ @aes_v6m_small.key_wrap.padded.difference
	.fnstart
@ %bb.0:                                @ %start
	.save	{r4, r5, r6, r7, lr}
	push	{r4, r5, r6, r7, lr}
	.pad	#20
	sub	sp, #20
	ldrb	r4, [r0, #4]
	ldrb	r5, [r0, #5]
	lsls	r5, r5, #8
	adds	r4, r5, r4
	ldrb	r5, [r0, #6]
	lsls	r5, r5, #16
	ldrb	r6, [r0, #7]
	lsls	r6, r6, #24
	adds	r5, r6, r5
	adds	r4, r5, r4
	rev	r4, r4
	lsrs	r5, r2, #29
	lsls	r3, r3, #3
	adds	r6, r3, r5
	lsls	r3, r2, #3
	movs	r2, #0
	subs	r4, r3, r4
	sbcs	r6, r2
	str	r6, [sp, #16]                   @ 4-byte Spill
	lsrs	r5, r4, #3
	lsls	r6, r6, #29
	adds	r5, r5, r6
	ldrb	r6, [r0]
	ldrb	r7, [r0, #1]
	lsls	r7, r7, #8
	adds	r6, r7, r6
	ldrb	r7, [r0, #2]
	lsls	r7, r7, #16
	ldrb	r0, [r0, #3]
	lsls	r0, r0, #24
	adds	r0, r0, r7
	adds	r0, r0, r6
	rev	r0, r0
	ldr	r6, .Laes_v6m_small_CPI63_0
	adds	r0, r0, r6
	orrs	r0, r5
	str	r0, [sp, #12]                   @ 4-byte Spill
	movs	r0, #7
	str	r0, [sp, #8]                    @ 4-byte Spill
	ands	r4, r0
	adds	r5, r1, r3
	subs	r0, r5, #1
	ldrb	r6, [r0]
	mov	r0, r2
	mov	r1, r4
	bl	aes_v6m_small.key_wrap.padded.mask_below
	mov	r7, r0
	ands	r7, r6
	subs	r0, r5, #2
	ldrb	r0, [r0]
	str	r0, [sp, #4]                    @ 4-byte Spill
	movs	r0, #1
	mov	r1, r4
	bl	aes_v6m_small.key_wrap.padded.mask_below
	mov	r6, r0
	ldr	r0, [sp, #4]                    @ 4-byte Reload
	ands	r6, r0
	orrs	r6, r7
	subs	r0, r5, #3
	ldrb	r0, [r0]
	str	r0, [sp, #4]                    @ 4-byte Spill
	movs	r0, #2
	mov	r1, r4
	bl	aes_v6m_small.key_wrap.padded.mask_below
	mov	r7, r0
	ldr	r0, [sp, #4]                    @ 4-byte Reload
	ands	r7, r0
	orrs	r7, r6
	subs	r0, r5, #4
	ldrb	r0, [r0]
	str	r0, [sp, #4]                    @ 4-byte Spill
	movs	r0, #3
	mov	r1, r4
	bl	aes_v6m_small.key_wrap.padded.mask_below
	mov	r6, r0
	ldr	r0, [sp, #4]                    @ 4-byte Reload
	ands	r6, r0
	orrs	r6, r7
	subs	r0, r5, #5
	ldrb	r0, [r0]
	str	r0, [sp, #4]                    @ 4-byte Spill
	movs	r0, #4
	mov	r1, r4
	bl	aes_v6m_small.key_wrap.padded.mask_below
	mov	r7, r0
	ldr	r0, [sp, #4]                    @ 4-byte Reload
	ands	r7, r0
	orrs	r7, r6
	subs	r0, r5, #6
	ldrb	r0, [r0]
	str	r0, [sp, #4]                    @ 4-byte Spill
	movs	r0, #5
	mov	r1, r4
	bl	aes_v6m_small.key_wrap.padded.mask_below
	mov	r6, r0
	ldr	r0, [sp, #4]                    @ 4-byte Reload
	ands	r6, r0
	orrs	r6, r7
	subs	r0, r5, #7
	ldrb	r0, [r0]
	str	r0, [sp, #4]                    @ 4-byte Spill
	movs	r0, #6
	mov	r1, r4
	bl	aes_v6m_small.key_wrap.padded.mask_below
	mov	r7, r0
	ldr	r0, [sp, #4]                    @ 4-byte Reload
	ands	r7, r0
	orrs	r7, r6
	subs	r5, #8
	ldrb	r5, [r5]
	ldr	r0, [sp, #8]                    @ 4-byte Reload
	mov	r1, r4
	bl	aes_v6m_small.key_wrap.padded.mask_below
	ands	r0, r5
	orrs	r0, r7
	uxtb	r0, r0
	ldr	r1, [sp, #12]                   @ 4-byte Reload
	orrs	r0, r1
	ldr	r1, [sp, #16]                   @ 4-byte Reload
	lsrs	r1, r1, #3
	add	sp, #20
	pop	{r4, r5, r6, r7, pc}
	.p2align	2
@ %bb.1:
.Laes_v6m_small_CPI63_0:
	.long	1504093786                      @ 0x59a6a65a
.Laes_v6m_small_func_end63:
	.size	aes_v6m_small.key_wrap.padded.difference, .Laes_v6m_small_func_end63-aes_v6m_small.key_wrap.padded.difference
	.cantunwind
	.fnend
                                        @ -- End function
	.section	.text.aes_v6m_small.key_wrap.padded.mask_below,"ax",%progbits
	.p2align	1                               @ -- Begin function key_wrap::padded::mask_below
	.type	aes_v6m_small.key_wrap.padded.mask_below,%function
	.code	16
	.thumb_func
aes_v6m_small.key_wrap.padded.mask_below:         @ @aes_v6m_small.key_wrap.padded.mask_below
	.fnstart
@ %bb.0:                                @ %start
	subs	r0, r0, r1
	lsrs	r0, r0, #24
	bx	lr
.Laes_v6m_small_func_end64:
	.size	aes_v6m_small.key_wrap.padded.mask_below, .Laes_v6m_small_func_end64-aes_v6m_small.key_wrap.padded.mask_below
	.cantunwind
	.fnend
                                        @ -- End function
	.section	.text.aes_v6m_small.aes_c.single_rounds.inverse_mixed,"ax",%progbits
	.p2align	1                               @ -- Begin function aes_c::single_rounds::inverse_mixed
	.type	aes_v6m_small.aes_c.single_rounds.inverse_mixed,%function
	.code	16
	.thumb_func
aes_v6m_small.aes_c.single_rounds.inverse_mixed:  @ @aes_v6m_small.aes_c.single_rounds.inverse_mixed
	.fnstart
@ %bb.0:                                @ %start
	.save	{r4, r5, r6, r7, lr}
	push	{r4, r5, r6, r7, lr}
	.pad	#92
	sub	sp, #92
	mov	r4, r0
	ldrb	r0, [r0, #12]
	ldrb	r1, [r4, #13]
	lsls	r1, r1, #8
	adds	r0, r1, r0
	ldrb	r1, [r4, #14]
	lsls	r1, r1, #16
	adds	r0, r0, r1
	ldrb	r1, [r4, #15]
	lsls	r1, r1, #24
	adds	r0, r0, r1
	ldrb	r1, [r4, #3]
	str	r1, [sp, #24]                   @ 4-byte Spill
	ldrb	r1, [r4, #2]
	str	r1, [sp, #20]                   @ 4-byte Spill
	ldrb	r1, [r4]
	str	r1, [sp, #16]                   @ 4-byte Spill
	ldrb	r1, [r4, #1]
	str	r1, [sp, #12]                   @ 4-byte Spill
	ldrb	r1, [r4, #7]
	str	r1, [sp, #8]                    @ 4-byte Spill
	ldrb	r1, [r4, #6]
	str	r1, [sp, #4]                    @ 4-byte Spill
	ldrb	r7, [r4, #4]
	ldrb	r6, [r4, #5]
	ldrb	r5, [r4, #11]
	ldrb	r3, [r4, #10]
	ldrb	r2, [r4, #8]
	ldrb	r1, [r4, #9]
	str	r0, [sp, #88]
	str	r0, [sp, #84]
	lsls	r0, r1, #8
	adds	r0, r0, r2
	lsls	r1, r3, #16
	adds	r0, r0, r1
	lsls	r1, r5, #24
	adds	r0, r0, r1
	str	r0, [sp, #80]
	str	r0, [sp, #76]
	lsls	r0, r6, #8
	adds	r0, r0, r7
	ldr	r1, [sp, #4]                    @ 4-byte Reload
	lsls	r1, r1, #16
	adds	r0, r0, r1
	ldr	r1, [sp, #8]                    @ 4-byte Reload
	lsls	r1, r1, #24
	adds	r0, r0, r1
	str	r0, [sp, #72]
	str	r0, [sp, #68]
	ldr	r0, [sp, #12]                   @ 4-byte Reload
	lsls	r0, r0, #8
	ldr	r1, [sp, #16]                   @ 4-byte Reload
	adds	r0, r0, r1
	ldr	r1, [sp, #20]                   @ 4-byte Reload
	lsls	r1, r1, #16
	adds	r0, r0, r1
	ldr	r1, [sp, #24]                   @ 4-byte Reload
	lsls	r1, r1, #24
	adds	r0, r0, r1
	str	r0, [sp, #64]
	str	r0, [sp, #60]
	add	r5, sp, #28
	add	r1, sp, #60
	mov	r0, r5
	bl	aes_v6m_small.aes_planes.soft.word.transpose.transpose
	mov	r0, r5
	bl	aes_v6m_small.aes_planes.soft.mix_columns.inv_mix_columns_0
	add	r0, sp, #60
	mov	r1, r5
	bl	aes_v6m_small.aes_planes.soft.word.transpose.transpose
	ldr	r0, [sp, #60]
	ldr	r1, [sp, #68]
	ldr	r2, [sp, #76]
	ldr	r3, [sp, #84]
	lsrs	r5, r3, #24
	strb	r5, [r4, #15]
	lsrs	r5, r3, #16
	strb	r5, [r4, #14]
	lsrs	r5, r3, #8
	strb	r5, [r4, #13]
	strb	r3, [r4, #12]
	lsrs	r3, r2, #24
	strb	r3, [r4, #11]
	lsrs	r3, r2, #16
	strb	r3, [r4, #10]
	lsrs	r3, r2, #8
	strb	r3, [r4, #9]
	strb	r2, [r4, #8]
	lsrs	r2, r1, #24
	strb	r2, [r4, #7]
	lsrs	r2, r1, #16
	strb	r2, [r4, #6]
	lsrs	r2, r1, #8
	strb	r2, [r4, #5]
	strb	r1, [r4, #4]
	lsrs	r1, r0, #24
	strb	r1, [r4, #3]
	lsrs	r1, r0, #16
	strb	r1, [r4, #2]
	lsrs	r1, r0, #8
	strb	r1, [r4, #1]
	strb	r0, [r4]
	add	sp, #92
	pop	{r4, r5, r6, r7, pc}
.Laes_v6m_small_func_end65:
	.size	aes_v6m_small.aes_c.single_rounds.inverse_mixed, .Laes_v6m_small_func_end65-aes_v6m_small.aes_c.single_rounds.inverse_mixed
	.cantunwind
	.fnend
                                        @ -- End function
	.section	.text.aes_v6m_small.aes_c.single_rounds.inverse_round,"ax",%progbits
	.p2align	2                               @ -- Begin function aes_c::single_rounds::inverse_round
	.type	aes_v6m_small.aes_c.single_rounds.inverse_round,%function
	.code	16
	.thumb_func
aes_v6m_small.aes_c.single_rounds.inverse_round:  @ @aes_v6m_small.aes_c.single_rounds.inverse_round
	.fnstart
@ %bb.0:                                @ %start
	.save	{r4, r5, r6, r7, lr}
	push	{r4, r5, r6, r7, lr}
	.pad	#116
	sub	sp, #116
	mov	r5, r1
	mov	r4, r0
	ldrb	r0, [r0, #12]
	ldrb	r1, [r4, #13]
	lsls	r1, r1, #8
	adds	r0, r1, r0
	ldrb	r1, [r4, #14]
	lsls	r1, r1, #16
	adds	r0, r0, r1
	ldrb	r1, [r4, #15]
	lsls	r1, r1, #24
	adds	r0, r0, r1
	ldrb	r1, [r4, #3]
	str	r1, [sp, #48]                   @ 4-byte Spill
	ldrb	r1, [r4, #2]
	str	r1, [sp, #44]                   @ 4-byte Spill
	ldrb	r1, [r4]
	str	r1, [sp, #40]                   @ 4-byte Spill
	ldrb	r1, [r4, #1]
	str	r1, [sp, #36]                   @ 4-byte Spill
	ldrb	r1, [r4, #7]
	str	r1, [sp, #32]                   @ 4-byte Spill
	ldrb	r1, [r4, #6]
	str	r1, [sp, #28]                   @ 4-byte Spill
	ldrb	r1, [r4, #4]
	str	r1, [sp, #24]                   @ 4-byte Spill
	ldrb	r7, [r4, #5]
	ldrb	r6, [r4, #11]
	ldrb	r3, [r4, #10]
	ldrb	r2, [r4, #8]
	ldrb	r1, [r4, #9]
	str	r0, [sp, #112]
	str	r0, [sp, #108]
	lsls	r0, r1, #8
	adds	r0, r0, r2
	lsls	r1, r3, #16
	adds	r0, r0, r1
	lsls	r1, r6, #24
	adds	r0, r0, r1
	str	r0, [sp, #104]
	str	r0, [sp, #100]
	lsls	r0, r7, #8
	ldr	r1, [sp, #24]                   @ 4-byte Reload
	adds	r0, r0, r1
	ldr	r1, [sp, #28]                   @ 4-byte Reload
	lsls	r1, r1, #16
	adds	r0, r0, r1
	ldr	r1, [sp, #32]                   @ 4-byte Reload
	lsls	r1, r1, #24
	adds	r0, r0, r1
	str	r0, [sp, #96]
	str	r0, [sp, #92]
	ldr	r0, [sp, #36]                   @ 4-byte Reload
	lsls	r0, r0, #8
	ldr	r1, [sp, #40]                   @ 4-byte Reload
	adds	r0, r0, r1
	ldr	r1, [sp, #44]                   @ 4-byte Reload
	lsls	r1, r1, #16
	adds	r0, r0, r1
	ldr	r1, [sp, #48]                   @ 4-byte Reload
	lsls	r1, r1, #24
	adds	r0, r0, r1
	str	r0, [sp, #88]
	str	r0, [sp, #84]
	add	r6, sp, #52
	add	r1, sp, #84
	mov	r0, r6
	bl	aes_v6m_small.aes_planes.soft.word.transpose.transpose
	mov	r0, r6
	bl	aes_v6m_small.aes_planes.soft.sbox.sub_bytes_nots
	mov	r0, r6
	bl	aes_v6m_small.aes_planes.soft.sbox.inv_sub_bytes
	movs	r1, #4
	ldr	r2, .Laes_v6m_small_CPI66_0
	mov	r0, r6
	bl	aes_v6m_small.aes_planes.soft.shifts.swap_columns
	movs	r1, #2
	ldr	r2, .Laes_v6m_small_CPI66_1
	mov	r0, r6
	bl	aes_v6m_small.aes_planes.soft.shifts.swap_columns
	mov	r0, r6
	bl	aes_v6m_small.aes_planes.soft.mix_columns.inv_mix_columns_0
	add	r0, sp, #84
	mov	r1, r6
	bl	aes_v6m_small.aes_planes.soft.word.transpose.transpose
	ldr	r0, [sp, #84]
	str	r0, [sp, #40]                   @ 4-byte Spill
	ldr	r0, [sp, #92]
	str	r0, [sp, #24]                   @ 4-byte Spill
	ldr	r6, [sp, #100]
	ldr	r2, [sp, #108]
	lsrs	r3, r2, #24
	ldrb	r1, [r5, #15]
	eors	r1, r3
	ldrb	r0, [r5]
	str	r0, [sp, #48]                   @ 4-byte Spill
	ldrb	r0, [r5, #1]
	str	r0, [sp, #44]                   @ 4-byte Spill
	ldrb	r0, [r5, #2]
	str	r0, [sp, #36]                   @ 4-byte Spill
	ldrb	r0, [r5, #3]
	str	r0, [sp, #32]                   @ 4-byte Spill
	ldrb	r0, [r5, #4]
	str	r0, [sp, #28]                   @ 4-byte Spill
	ldrb	r0, [r5, #5]
	str	r0, [sp, #20]                   @ 4-byte Spill
	ldrb	r0, [r5, #6]
	str	r0, [sp, #16]                   @ 4-byte Spill
	ldrb	r0, [r5, #7]
	str	r0, [sp, #12]                   @ 4-byte Spill
	ldrb	r3, [r5, #8]
	ldrb	r0, [r5, #9]
	str	r0, [sp, #8]                    @ 4-byte Spill
	ldrb	r0, [r5, #10]
	str	r0, [sp, #4]                    @ 4-byte Spill
	ldrb	r0, [r5, #11]
	str	r0, [sp]                        @ 4-byte Spill
	ldrb	r0, [r5, #12]
	ldrb	r7, [r5, #13]
	ldrb	r5, [r5, #14]
	strb	r1, [r4, #15]
	lsrs	r1, r2, #16
	eors	r1, r5
	strb	r1, [r4, #14]
	lsrs	r1, r2, #8
	eors	r1, r7
	strb	r1, [r4, #13]
	eors	r0, r2
	strb	r0, [r4, #12]
	lsrs	r0, r6, #24
	ldr	r1, [sp]                        @ 4-byte Reload
	eors	r0, r1
	strb	r0, [r4, #11]
	lsrs	r0, r6, #16
	ldr	r1, [sp, #4]                    @ 4-byte Reload
	eors	r0, r1
	strb	r0, [r4, #10]
	lsrs	r0, r6, #8
	ldr	r1, [sp, #8]                    @ 4-byte Reload
	eors	r0, r1
	strb	r0, [r4, #9]
	eors	r3, r6
	strb	r3, [r4, #8]
	ldr	r1, [sp, #24]                   @ 4-byte Reload
	lsrs	r0, r1, #24
	ldr	r2, [sp, #12]                   @ 4-byte Reload
	eors	r0, r2
	strb	r0, [r4, #7]
	lsrs	r0, r1, #16
	ldr	r2, [sp, #16]                   @ 4-byte Reload
	eors	r0, r2
	strb	r0, [r4, #6]
	lsrs	r0, r1, #8
	ldr	r2, [sp, #20]                   @ 4-byte Reload
	eors	r0, r2
	strb	r0, [r4, #5]
	ldr	r0, [sp, #28]                   @ 4-byte Reload
	eors	r0, r1
	strb	r0, [r4, #4]
	ldr	r1, [sp, #40]                   @ 4-byte Reload
	lsrs	r0, r1, #24
	ldr	r2, [sp, #32]                   @ 4-byte Reload
	eors	r0, r2
	strb	r0, [r4, #3]
	lsrs	r0, r1, #16
	ldr	r2, [sp, #36]                   @ 4-byte Reload
	eors	r0, r2
	strb	r0, [r4, #2]
	lsrs	r0, r1, #8
	ldr	r2, [sp, #44]                   @ 4-byte Reload
	eors	r0, r2
	strb	r0, [r4, #1]
	ldr	r0, [sp, #48]                   @ 4-byte Reload
	eors	r0, r1
	strb	r0, [r4]
	add	sp, #116
	pop	{r4, r5, r6, r7, pc}
	.p2align	2
@ %bb.1:
.Laes_v6m_small_CPI66_0:
	.long	51317760                        @ 0x30f0c00
.Laes_v6m_small_CPI66_1:
	.long	855651072                       @ 0x33003300
.Laes_v6m_small_func_end66:
	.size	aes_v6m_small.aes_c.single_rounds.inverse_round, .Laes_v6m_small_func_end66-aes_v6m_small.aes_c.single_rounds.inverse_round
	.cantunwind
	.fnend
                                        @ -- End function
	.section	.text.aes_v6m_small.aes_c.single_rounds.inverse_rounds,"ax",%progbits
	.p2align	2                               @ -- Begin function aes_c::single_rounds::inverse_rounds
	.type	aes_v6m_small.aes_c.single_rounds.inverse_rounds,%function
	.code	16
	.thumb_func
aes_v6m_small.aes_c.single_rounds.inverse_rounds: @ @aes_v6m_small.aes_c.single_rounds.inverse_rounds
	.fnstart
@ %bb.0:                                @ %start
	.save	{r4, r5, r6, r7, lr}
	push	{r4, r5, r6, r7, lr}
	.pad	#196
	sub	sp, #196
	str	r1, [sp, #4]                    @ 4-byte Spill
	movs	r1, #0
	mov	r2, r1
	str	r1, [sp, #16]                   @ 4-byte Spill
	mov	r3, r1
	str	r0, [sp, #128]                  @ 4-byte Spill
.Laes_v6m_small_BB67_1:                               @ %join.5.i.i
                                        @ =>This Inner Loop Header: Depth=1
	str	r2, [sp, #116]                  @ 4-byte Spill
	str	r1, [sp, #120]                  @ 4-byte Spill
	str	r3, [sp, #124]                  @ 4-byte Spill
	lsls	r2, r2, #4
	adds	r5, r0, r2
	str	r2, [sp, #112]                  @ 4-byte Spill
	ldrb	r0, [r5, #28]
	ldrb	r1, [r5, #29]
	lsls	r1, r1, #8
	adds	r0, r1, r0
	ldrb	r1, [r5, #30]
	lsls	r1, r1, #16
	adds	r0, r0, r1
	ldrb	r1, [r5, #31]
	lsls	r1, r1, #24
	adds	r0, r0, r1
	str	r0, [sp, #40]                   @ 4-byte Spill
	ldrb	r0, [r5, #3]
	str	r0, [sp, #108]                  @ 4-byte Spill
	ldrb	r0, [r5, #2]
	str	r0, [sp, #104]                  @ 4-byte Spill
	ldr	r0, [sp, #128]                  @ 4-byte Reload
	ldrb	r0, [r0, r2]
	str	r0, [sp, #100]                  @ 4-byte Spill
	ldrb	r0, [r5, #1]
	str	r0, [sp, #96]                   @ 4-byte Spill
	ldrb	r0, [r5, #19]
	str	r0, [sp, #92]                   @ 4-byte Spill
	ldrb	r0, [r5, #18]
	str	r0, [sp, #88]                   @ 4-byte Spill
	ldrb	r0, [r5, #16]
	str	r0, [sp, #84]                   @ 4-byte Spill
	ldrb	r0, [r5, #17]
	str	r0, [sp, #80]                   @ 4-byte Spill
	ldrb	r0, [r5, #7]
	str	r0, [sp, #76]                   @ 4-byte Spill
	ldrb	r0, [r5, #6]
	str	r0, [sp, #72]                   @ 4-byte Spill
	ldrb	r0, [r5, #4]
	str	r0, [sp, #68]                   @ 4-byte Spill
	ldrb	r0, [r5, #5]
	str	r0, [sp, #64]                   @ 4-byte Spill
	ldrb	r0, [r5, #23]
	str	r0, [sp, #60]                   @ 4-byte Spill
	ldrb	r0, [r5, #22]
	str	r0, [sp, #56]                   @ 4-byte Spill
	ldrb	r0, [r5, #20]
	str	r0, [sp, #52]                   @ 4-byte Spill
	ldrb	r0, [r5, #21]
	str	r0, [sp, #48]                   @ 4-byte Spill
	ldrb	r0, [r5, #11]
	str	r0, [sp, #44]                   @ 4-byte Spill
	ldrb	r0, [r5, #10]
	str	r0, [sp, #36]                   @ 4-byte Spill
	ldrb	r0, [r5, #8]
	str	r0, [sp, #32]                   @ 4-byte Spill
	ldrb	r0, [r5, #9]
	str	r0, [sp, #28]                   @ 4-byte Spill
	ldrb	r0, [r5, #27]
	str	r0, [sp, #24]                   @ 4-byte Spill
	ldrb	r0, [r5, #26]
	str	r0, [sp, #20]                   @ 4-byte Spill
	ldrb	r6, [r5, #24]
	ldrb	r4, [r5, #25]
	ldrb	r3, [r5, #15]
	ldrb	r2, [r5, #14]
	ldrb	r1, [r5, #12]
	ldrb	r0, [r5, #13]
	ldr	r7, [sp, #40]                   @ 4-byte Reload
	str	r7, [sp, #192]
	lsls	r0, r0, #8
	adds	r0, r0, r1
	lsls	r1, r2, #16
	adds	r0, r0, r1
	lsls	r1, r3, #24
	adds	r0, r0, r1
	str	r0, [sp, #188]
	lsls	r0, r4, #8
	adds	r0, r0, r6
	ldr	r1, [sp, #20]                   @ 4-byte Reload
	lsls	r1, r1, #16
	adds	r0, r0, r1
	ldr	r1, [sp, #24]                   @ 4-byte Reload
	lsls	r1, r1, #24
	adds	r0, r0, r1
	str	r0, [sp, #184]
	ldr	r0, [sp, #28]                   @ 4-byte Reload
	lsls	r0, r0, #8
	ldr	r1, [sp, #32]                   @ 4-byte Reload
	adds	r0, r0, r1
	ldr	r1, [sp, #36]                   @ 4-byte Reload
	lsls	r1, r1, #16
	adds	r0, r0, r1
	ldr	r1, [sp, #44]                   @ 4-byte Reload
	lsls	r1, r1, #24
	adds	r0, r0, r1
	str	r0, [sp, #180]
	ldr	r0, [sp, #48]                   @ 4-byte Reload
	lsls	r0, r0, #8
	ldr	r1, [sp, #52]                   @ 4-byte Reload
	adds	r0, r0, r1
	ldr	r1, [sp, #56]                   @ 4-byte Reload
	lsls	r1, r1, #16
	adds	r0, r0, r1
	ldr	r1, [sp, #60]                   @ 4-byte Reload
	lsls	r1, r1, #24
	adds	r0, r0, r1
	str	r0, [sp, #176]
	ldr	r0, [sp, #64]                   @ 4-byte Reload
	lsls	r0, r0, #8
	ldr	r1, [sp, #68]                   @ 4-byte Reload
	adds	r0, r0, r1
	ldr	r1, [sp, #72]                   @ 4-byte Reload
	lsls	r1, r1, #16
	adds	r0, r0, r1
	ldr	r1, [sp, #76]                   @ 4-byte Reload
	lsls	r1, r1, #24
	adds	r0, r0, r1
	str	r0, [sp, #172]
	ldr	r0, [sp, #80]                   @ 4-byte Reload
	lsls	r0, r0, #8
	ldr	r1, [sp, #84]                   @ 4-byte Reload
	adds	r0, r0, r1
	ldr	r1, [sp, #88]                   @ 4-byte Reload
	lsls	r1, r1, #16
	adds	r0, r0, r1
	ldr	r1, [sp, #92]                   @ 4-byte Reload
	lsls	r1, r1, #24
	adds	r0, r0, r1
	str	r0, [sp, #168]
	ldr	r0, [sp, #96]                   @ 4-byte Reload
	lsls	r0, r0, #8
	ldr	r1, [sp, #100]                  @ 4-byte Reload
	adds	r0, r0, r1
	ldr	r1, [sp, #104]                  @ 4-byte Reload
	lsls	r1, r1, #16
	adds	r0, r0, r1
	ldr	r1, [sp, #108]                  @ 4-byte Reload
	lsls	r1, r1, #24
	adds	r0, r0, r1
	str	r0, [sp, #164]
	add	r6, sp, #132
	add	r1, sp, #164
	mov	r0, r6
	bl	aes_v6m_small.aes_planes.soft.word.transpose.transpose
	mov	r0, r6
	bl	aes_v6m_small.aes_planes.soft.sbox.sub_bytes_nots
	mov	r0, r6
	bl	aes_v6m_small.aes_planes.soft.sbox.inv_sub_bytes
	movs	r1, #4
	ldr	r2, .Laes_v6m_small_CPI67_0
	mov	r0, r6
	bl	aes_v6m_small.aes_planes.soft.shifts.swap_columns
	movs	r1, #2
	ldr	r2, .Laes_v6m_small_CPI67_1
	mov	r0, r6
	bl	aes_v6m_small.aes_planes.soft.shifts.swap_columns
	mov	r0, r6
	bl	aes_v6m_small.aes_planes.soft.mix_columns.inv_mix_columns_0
	add	r0, sp, #164
	mov	r1, r6
	bl	aes_v6m_small.aes_planes.soft.word.transpose.transpose
	ldr	r0, [sp, #172]
	str	r0, [sp, #108]                  @ 4-byte Spill
	ldr	r0, [sp, #180]
	str	r0, [sp, #104]                  @ 4-byte Spill
	ldr	r0, [sp, #188]
	str	r0, [sp, #100]                  @ 4-byte Spill
	ldr	r6, [sp, #168]
	ldr	r7, [sp, #176]
	ldr	r4, [sp, #184]
	ldr	r0, [sp, #192]
	ldr	r3, [sp, #164]
	ldr	r1, [sp, #128]                  @ 4-byte Reload
	ldr	r2, [sp, #112]                  @ 4-byte Reload
	strb	r3, [r1, r2]
	mov	r2, r3
	lsrs	r1, r0, #24
	strb	r1, [r5, #31]
	lsrs	r1, r0, #16
	strb	r1, [r5, #30]
	lsrs	r1, r0, #8
	strb	r1, [r5, #29]
	strb	r0, [r5, #28]
	lsrs	r0, r4, #24
	strb	r0, [r5, #27]
	lsrs	r0, r4, #16
	strb	r0, [r5, #26]
	lsrs	r0, r4, #8
	strb	r0, [r5, #25]
	strb	r4, [r5, #24]
	lsrs	r0, r7, #24
	strb	r0, [r5, #23]
	lsrs	r0, r7, #16
	strb	r0, [r5, #22]
	lsrs	r0, r7, #8
	strb	r0, [r5, #21]
	strb	r7, [r5, #20]
	lsrs	r0, r6, #24
	strb	r0, [r5, #19]
	lsrs	r0, r6, #16
	strb	r0, [r5, #18]
	lsrs	r0, r6, #8
	strb	r0, [r5, #17]
	strb	r6, [r5, #16]
	ldr	r1, [sp, #100]                  @ 4-byte Reload
	lsrs	r0, r1, #24
	strb	r0, [r5, #15]
	lsrs	r0, r1, #16
	strb	r0, [r5, #14]
	lsrs	r0, r1, #8
	strb	r0, [r5, #13]
	strb	r1, [r5, #12]
	ldr	r3, [sp, #124]                  @ 4-byte Reload
	ldr	r1, [sp, #104]                  @ 4-byte Reload
	lsrs	r0, r1, #24
	strb	r0, [r5, #11]
	lsrs	r0, r1, #16
	strb	r0, [r5, #10]
	lsrs	r0, r1, #8
	strb	r0, [r5, #9]
	strb	r1, [r5, #8]
	ldr	r1, [sp, #108]                  @ 4-byte Reload
	lsrs	r0, r1, #24
	strb	r0, [r5, #7]
	lsrs	r0, r1, #16
	strb	r0, [r5, #6]
	lsrs	r0, r1, #8
	strb	r0, [r5, #5]
	strb	r1, [r5, #4]
	lsrs	r0, r2, #24
	strb	r0, [r5, #3]
	lsrs	r0, r2, #16
	strb	r0, [r5, #2]
	lsrs	r0, r2, #8
	strb	r0, [r5, #1]
	ldr	r1, [sp, #116]                  @ 4-byte Reload
	adds	r0, r1, #2
	ldr	r2, [sp, #16]                   @ 4-byte Reload
	adcs	r3, r2
	subs	r1, r1, #6
	ldr	r1, [sp, #120]                  @ 4-byte Reload
	sbcs	r1, r2
	mov	r2, r0
	ldr	r0, [sp, #128]                  @ 4-byte Reload
	mov	r1, r3
	bhs	.Laes_v6m_small_BB67_2
	b	.Laes_v6m_small_BB67_1
.Laes_v6m_small_BB67_2:                               @ %join.5.i2.i.preheader
	movs	r0, #0
	mov	r1, r0
	str	r0, [sp]                        @ 4-byte Spill
	mov	r3, r0
.Laes_v6m_small_BB67_3:                               @ %join.5.i2.i
                                        @ =>This Inner Loop Header: Depth=1
	str	r1, [sp, #116]                  @ 4-byte Spill
	str	r0, [sp, #120]                  @ 4-byte Spill
	str	r3, [sp, #124]                  @ 4-byte Spill
	lsls	r4, r1, #4
	ldr	r0, [sp, #128]                  @ 4-byte Reload
	ldrb	r0, [r0, r4]
	ldr	r1, [sp, #4]                    @ 4-byte Reload
	ldrb	r2, [r1, r4]
	eors	r2, r0
	str	r2, [sp, #44]                   @ 4-byte Spill
	adds	r3, r1, r4
	ldrb	r0, [r3, #1]
	str	r0, [sp, #112]                  @ 4-byte Spill
	ldr	r0, [sp, #128]                  @ 4-byte Reload
	adds	r5, r0, r4
	ldrb	r0, [r5, #1]
	str	r0, [sp, #108]                  @ 4-byte Spill
	ldrb	r0, [r3, #2]
	str	r0, [sp, #104]                  @ 4-byte Spill
	ldrb	r0, [r5, #2]
	str	r0, [sp, #100]                  @ 4-byte Spill
	ldrb	r0, [r3, #3]
	str	r0, [sp, #96]                   @ 4-byte Spill
	ldrb	r0, [r5, #3]
	str	r0, [sp, #92]                   @ 4-byte Spill
	ldrb	r0, [r3, #4]
	str	r0, [sp, #88]                   @ 4-byte Spill
	ldrb	r0, [r5, #4]
	str	r0, [sp, #84]                   @ 4-byte Spill
	ldrb	r0, [r3, #5]
	str	r0, [sp, #80]                   @ 4-byte Spill
	ldrb	r0, [r5, #5]
	str	r0, [sp, #76]                   @ 4-byte Spill
	ldrb	r0, [r3, #6]
	str	r0, [sp, #72]                   @ 4-byte Spill
	ldrb	r0, [r5, #6]
	str	r0, [sp, #68]                   @ 4-byte Spill
	ldrb	r0, [r3, #7]
	str	r0, [sp, #64]                   @ 4-byte Spill
	ldrb	r0, [r5, #7]
	str	r0, [sp, #60]                   @ 4-byte Spill
	ldrb	r0, [r3, #8]
	str	r0, [sp, #56]                   @ 4-byte Spill
	ldrb	r0, [r5, #8]
	str	r0, [sp, #52]                   @ 4-byte Spill
	ldrb	r0, [r3, #9]
	str	r0, [sp, #48]                   @ 4-byte Spill
	ldrb	r0, [r5, #9]
	str	r0, [sp, #40]                   @ 4-byte Spill
	ldrb	r0, [r3, #10]
	str	r0, [sp, #36]                   @ 4-byte Spill
	ldrb	r0, [r5, #10]
	str	r0, [sp, #32]                   @ 4-byte Spill
	ldrb	r0, [r3, #11]
	str	r0, [sp, #28]                   @ 4-byte Spill
	ldrb	r0, [r5, #11]
	str	r0, [sp, #24]                   @ 4-byte Spill
	ldrb	r0, [r3, #12]
	str	r0, [sp, #20]                   @ 4-byte Spill
	ldrb	r2, [r5, #12]
	ldrb	r0, [r3, #13]
	str	r0, [sp, #16]                   @ 4-byte Spill
	ldrb	r6, [r5, #13]
	ldrb	r0, [r3, #14]
	str	r0, [sp, #12]                   @ 4-byte Spill
	ldrb	r1, [r5, #14]
	ldrb	r0, [r3, #15]
	str	r0, [sp, #8]                    @ 4-byte Spill
	ldrb	r7, [r5, #15]
	ldr	r3, [sp, #128]                  @ 4-byte Reload
	ldr	r0, [sp, #44]                   @ 4-byte Reload
	strb	r0, [r3, r4]
	ldr	r3, [sp, #124]                  @ 4-byte Reload
	ldr	r0, [sp, #8]                    @ 4-byte Reload
	eors	r7, r0
	strb	r7, [r5, #15]
	ldr	r0, [sp, #12]                   @ 4-byte Reload
	eors	r1, r0
	strb	r1, [r5, #14]
	ldr	r0, [sp, #16]                   @ 4-byte Reload
	eors	r6, r0
	strb	r6, [r5, #13]
	ldr	r0, [sp, #20]                   @ 4-byte Reload
	eors	r2, r0
	strb	r2, [r5, #12]
	ldr	r0, [sp, #28]                   @ 4-byte Reload
	ldr	r1, [sp, #24]                   @ 4-byte Reload
	eors	r1, r0
	strb	r1, [r5, #11]
	ldr	r0, [sp, #36]                   @ 4-byte Reload
	ldr	r1, [sp, #32]                   @ 4-byte Reload
	eors	r1, r0
	strb	r1, [r5, #10]
	ldr	r0, [sp, #48]                   @ 4-byte Reload
	ldr	r1, [sp, #40]                   @ 4-byte Reload
	eors	r1, r0
	strb	r1, [r5, #9]
	ldr	r0, [sp, #56]                   @ 4-byte Reload
	ldr	r1, [sp, #52]                   @ 4-byte Reload
	eors	r1, r0
	strb	r1, [r5, #8]
	ldr	r0, [sp, #64]                   @ 4-byte Reload
	ldr	r1, [sp, #60]                   @ 4-byte Reload
	eors	r1, r0
	strb	r1, [r5, #7]
	ldr	r0, [sp, #72]                   @ 4-byte Reload
	ldr	r1, [sp, #68]                   @ 4-byte Reload
	eors	r1, r0
	strb	r1, [r5, #6]
	ldr	r0, [sp, #80]                   @ 4-byte Reload
	ldr	r1, [sp, #76]                   @ 4-byte Reload
	eors	r1, r0
	strb	r1, [r5, #5]
	ldr	r0, [sp, #88]                   @ 4-byte Reload
	ldr	r1, [sp, #84]                   @ 4-byte Reload
	eors	r1, r0
	strb	r1, [r5, #4]
	ldr	r0, [sp, #96]                   @ 4-byte Reload
	ldr	r1, [sp, #92]                   @ 4-byte Reload
	eors	r1, r0
	strb	r1, [r5, #3]
	ldr	r0, [sp, #104]                  @ 4-byte Reload
	ldr	r1, [sp, #100]                  @ 4-byte Reload
	eors	r1, r0
	strb	r1, [r5, #2]
	ldr	r0, [sp, #112]                  @ 4-byte Reload
	ldr	r1, [sp, #108]                  @ 4-byte Reload
	eors	r1, r0
	strb	r1, [r5, #1]
	ldr	r1, [sp, #116]                  @ 4-byte Reload
	adds	r0, r1, #1
	ldr	r2, [sp]                        @ 4-byte Reload
	adcs	r3, r2
	subs	r1, r1, #7
	ldr	r1, [sp, #120]                  @ 4-byte Reload
	sbcs	r1, r2
	mov	r1, r0
	mov	r0, r3
	bhs	.Laes_v6m_small_BB67_4
	b	.Laes_v6m_small_BB67_3
.Laes_v6m_small_BB67_4:                               @ %"aes_soft::soft::hazmat::par::equiv_inv_cipher_round_par::<#e817d94f9a7b6ba6>.exit"
	add	sp, #196
	pop	{r4, r5, r6, r7, pc}
	.p2align	2
@ %bb.5:
.Laes_v6m_small_CPI67_0:
	.long	51317760                        @ 0x30f0c00
.Laes_v6m_small_CPI67_1:
	.long	855651072                       @ 0x33003300
.Laes_v6m_small_func_end67:
	.size	aes_v6m_small.aes_c.single_rounds.inverse_rounds, .Laes_v6m_small_func_end67-aes_v6m_small.aes_c.single_rounds.inverse_rounds
	.cantunwind
	.fnend
                                        @ -- End function
	.section	.text.aes_v6m_small.cmac.pieces.Message.is_tag_so_far,"ax",%progbits
	.p2align	1                               @ -- Begin function cmac::pieces::Message::is_tag_so_far::<#4f733d09d7f6c6b4>
	.type	aes_v6m_small.cmac.pieces.Message.is_tag_so_far,%function
	.code	16
	.thumb_func
aes_v6m_small.cmac.pieces.Message.is_tag_so_far: @ @aes_v6m_small.cmac.pieces.Message.is_tag_so_far
	.fnstart
@ %bb.0:                                @ %start
	.save	{r4, r5, r6, lr}
	push	{r4, r5, r6, lr}
	.pad	#40
	sub	sp, #40
	mov	r4, r2
	mov	r3, r0
	ldr	r0, [r0, #8]
	ldr	r2, [r3, #12]
	movs	r5, #0
	str	r5, [sp, #4]
	movs	r5, #16
	cmp	r0, #16
	blo	.Laes_v6m_small_BB68_2
@ %bb.1:                                @ %start
	mov	r0, r5
.Laes_v6m_small_BB68_2:                               @ %start
	cmp	r2, #0
	beq	.Laes_v6m_small_BB68_4
@ %bb.3:                                @ %start
	mov	r0, r5
.Laes_v6m_small_BB68_4:                               @ %start
	str	r0, [sp]
	mov	r2, r3
	adds	r2, #16
	adds	r3, #32
	add	r5, sp, #8
	mov	r0, r5
	bl	aes_v6m_small.cmac.tags.tag_at_end
	ldr	r0, [sp, #20]
	str	r0, [sp, #36]
	ldr	r0, [sp, #16]
	str	r0, [sp, #32]
	ldr	r0, [sp, #12]
	str	r0, [sp, #28]
	ldr	r0, [sp, #8]
	str	r0, [sp, #24]
	add	r6, sp, #24
	ldr	r2, [sp, #56]
	mov	r0, r6
	mov	r1, r4
	bl	memcpy
	mov	r0, r6
	mov	r1, r5
	bl	aes_v6m_small.aes_cipher.blocks.difference
	rsbs	r1, r0, #0
	adcs	r0, r1
	add	sp, #40
	pop	{r4, r5, r6, pc}
.Laes_v6m_small_func_end68:
	.size	aes_v6m_small.cmac.pieces.Message.is_tag_so_far, .Laes_v6m_small_func_end68-aes_v6m_small.cmac.pieces.Message.is_tag_so_far
	.cantunwind
	.fnend
                                        @ -- End function
	.section	.text.aes_v6m_small.cmac.tags.is_tag_start,"ax",%progbits
	.p2align	1                               @ -- Begin function cmac::tags::is_tag_start::<#4f733d09d7f6c6b4>
	.type	aes_v6m_small.cmac.tags.is_tag_start,%function
	.code	16
	.thumb_func
aes_v6m_small.cmac.tags.is_tag_start: @ @aes_v6m_small.cmac.tags.is_tag_start
	.fnstart
@ %bb.0:                                @ %start
	.save	{r4, r5, r7, lr}
	push	{r4, r5, r7, lr}
	.pad	#40
	sub	sp, #40
	mov	r5, r1
	mov	r1, r0
	str	r2, [sp]
	str	r3, [sp, #4]
	add	r4, sp, #8
	mov	r0, r4
	mov	r2, r5
	bl	aes_v6m_small.cmac.tags.tag
	ldr	r0, [sp, #20]
	str	r0, [sp, #36]
	ldr	r0, [sp, #16]
	str	r0, [sp, #32]
	ldr	r0, [sp, #12]
	str	r0, [sp, #28]
	ldr	r0, [sp, #8]
	str	r0, [sp, #24]
	add	r5, sp, #24
	ldr	r1, [sp, #56]
	ldr	r2, [sp, #64]
	mov	r0, r5
	bl	memcpy
	mov	r0, r5
	mov	r1, r4
	bl	aes_v6m_small.aes_cipher.blocks.difference
	rsbs	r1, r0, #0
	adcs	r0, r1
	add	sp, #40
	pop	{r4, r5, r7, pc}
.Laes_v6m_small_func_end69:
	.size	aes_v6m_small.cmac.tags.is_tag_start, .Laes_v6m_small_func_end69-aes_v6m_small.cmac.tags.is_tag_start
	.cantunwind
	.fnend
                                        @ -- End function
	.section	.text.aes_v6m_small.aes_c.single_rounds.mixed,"ax",%progbits
	.p2align	1                               @ -- Begin function aes_c::single_rounds::mixed
	.type	aes_v6m_small.aes_c.single_rounds.mixed,%function
	.code	16
	.thumb_func
aes_v6m_small.aes_c.single_rounds.mixed:          @ @aes_v6m_small.aes_c.single_rounds.mixed
	.fnstart
@ %bb.0:                                @ %start
	.save	{r4, r5, r6, r7, lr}
	push	{r4, r5, r6, r7, lr}
	.pad	#92
	sub	sp, #92
	mov	r4, r0
	ldrb	r0, [r0, #12]
	ldrb	r1, [r4, #13]
	lsls	r1, r1, #8
	adds	r0, r1, r0
	ldrb	r1, [r4, #14]
	lsls	r1, r1, #16
	adds	r0, r0, r1
	ldrb	r1, [r4, #15]
	lsls	r1, r1, #24
	adds	r0, r0, r1
	ldrb	r1, [r4, #3]
	str	r1, [sp, #24]                   @ 4-byte Spill
	ldrb	r1, [r4, #2]
	str	r1, [sp, #20]                   @ 4-byte Spill
	ldrb	r1, [r4]
	str	r1, [sp, #16]                   @ 4-byte Spill
	ldrb	r1, [r4, #1]
	str	r1, [sp, #12]                   @ 4-byte Spill
	ldrb	r1, [r4, #7]
	str	r1, [sp, #8]                    @ 4-byte Spill
	ldrb	r1, [r4, #6]
	str	r1, [sp, #4]                    @ 4-byte Spill
	ldrb	r7, [r4, #4]
	ldrb	r6, [r4, #5]
	ldrb	r5, [r4, #11]
	ldrb	r3, [r4, #10]
	ldrb	r2, [r4, #8]
	ldrb	r1, [r4, #9]
	str	r0, [sp, #88]
	str	r0, [sp, #84]
	lsls	r0, r1, #8
	adds	r0, r0, r2
	lsls	r1, r3, #16
	adds	r0, r0, r1
	lsls	r1, r5, #24
	adds	r0, r0, r1
	str	r0, [sp, #80]
	str	r0, [sp, #76]
	lsls	r0, r6, #8
	adds	r0, r0, r7
	ldr	r1, [sp, #4]                    @ 4-byte Reload
	lsls	r1, r1, #16
	adds	r0, r0, r1
	ldr	r1, [sp, #8]                    @ 4-byte Reload
	lsls	r1, r1, #24
	adds	r0, r0, r1
	str	r0, [sp, #72]
	str	r0, [sp, #68]
	ldr	r0, [sp, #12]                   @ 4-byte Reload
	lsls	r0, r0, #8
	ldr	r1, [sp, #16]                   @ 4-byte Reload
	adds	r0, r0, r1
	ldr	r1, [sp, #20]                   @ 4-byte Reload
	lsls	r1, r1, #16
	adds	r0, r0, r1
	ldr	r1, [sp, #24]                   @ 4-byte Reload
	lsls	r1, r1, #24
	adds	r0, r0, r1
	str	r0, [sp, #64]
	str	r0, [sp, #60]
	add	r5, sp, #28
	add	r1, sp, #60
	mov	r0, r5
	bl	aes_v6m_small.aes_planes.soft.word.transpose.transpose
	mov	r0, r5
	bl	aes_v6m_small.aes_planes.soft.mix_columns.mix_columns_0
	add	r0, sp, #60
	mov	r1, r5
	bl	aes_v6m_small.aes_planes.soft.word.transpose.transpose
	ldr	r0, [sp, #60]
	ldr	r1, [sp, #68]
	ldr	r2, [sp, #76]
	ldr	r3, [sp, #84]
	lsrs	r5, r3, #24
	strb	r5, [r4, #15]
	lsrs	r5, r3, #16
	strb	r5, [r4, #14]
	lsrs	r5, r3, #8
	strb	r5, [r4, #13]
	strb	r3, [r4, #12]
	lsrs	r3, r2, #24
	strb	r3, [r4, #11]
	lsrs	r3, r2, #16
	strb	r3, [r4, #10]
	lsrs	r3, r2, #8
	strb	r3, [r4, #9]
	strb	r2, [r4, #8]
	lsrs	r2, r1, #24
	strb	r2, [r4, #7]
	lsrs	r2, r1, #16
	strb	r2, [r4, #6]
	lsrs	r2, r1, #8
	strb	r2, [r4, #5]
	strb	r1, [r4, #4]
	lsrs	r1, r0, #24
	strb	r1, [r4, #3]
	lsrs	r1, r0, #16
	strb	r1, [r4, #2]
	lsrs	r1, r0, #8
	strb	r1, [r4, #1]
	strb	r0, [r4]
	add	sp, #92
	pop	{r4, r5, r6, r7, pc}
.Laes_v6m_small_func_end70:
	.size	aes_v6m_small.aes_c.single_rounds.mixed, .Laes_v6m_small_func_end70-aes_v6m_small.aes_c.single_rounds.mixed
	.cantunwind
	.fnend
                                        @ -- End function
	.section	.text.aes_v6m_small.aes_c.stream.fotsgure_aes_add_keystream,"ax",%progbits
	.p2align	2                               @ -- Begin function aes_c::stream::fotsgure_aes_add_keystream
	.type	aes_v6m_small.aes_c.stream.fotsgure_aes_add_keystream,%function
	.code	16
	.thumb_func
aes_v6m_small.aes_c.stream.fotsgure_aes_add_keystream: @ @aes_v6m_small.aes_c.stream.fotsgure_aes_add_keystream
	.fnstart
@ %bb.0:                                @ %start
	.save	{r4, r5, r6, r7, lr}
	push	{r4, r5, r6, r7, lr}
	.pad	#108
	sub	sp, #108
	str	r2, [sp, #36]                   @ 4-byte Spill
	mov	r4, r1
	ldr	r2, [r1, #16]
	ldr	r6, [r1, #20]
	movs	r5, #0
	ldr	r7, [sp, #132]
	ldr	r3, [sp, #128]
	adds	r1, r2, r3
	mov	r1, r6
	adcs	r1, r7
	mov	r1, r5
	adcs	r1, r5
	beq	.Laes_v6m_small_BB71_2
@ %bb.1:
	movs	r1, #4
	b	.Laes_v6m_small_BB71_8
.Laes_v6m_small_BB71_2:                               @ %join.3.i
	str	r6, [sp, #28]                   @ 4-byte Spill
	str	r3, [sp, #32]                   @ 4-byte Spill
	mov	r3, r5
	ldr	r6, [r0]
	mov	r5, r6
	subs	r5, #16
	movs	r1, #2
	cmp	r5, #16
	bhi	.Laes_v6m_small_BB71_8
@ %bb.3:                                @ %join.3.i
	str	r7, [sp, #24]                   @ 4-byte Spill
	movs	r7, #1
	lsls	r7, r5
	ldr	r5, .Laes_v6m_small_CPI71_0
	tst	r7, r5
	beq	.Laes_v6m_small_BB71_8
@ %bb.4:                                @ %then.1
	mov	r1, r3
	str	r3, [sp, #44]
	adds	r0, r0, #4
	str	r0, [sp, #40]
	lsrs	r3, r6, #31
	lsls	r5, r6, #1
	adds	r5, #56
	str	r5, [sp, #16]                   @ 4-byte Spill
	str	r5, [sp, #48]
	adcs	r3, r1
	str	r3, [sp, #20]                   @ 4-byte Spill
	str	r3, [sp, #52]
	ldrb	r5, [r4, #12]
	ldrb	r6, [r4, #13]
	lsls	r6, r6, #8
	adds	r5, r6, r5
	ldrb	r6, [r4, #14]
	lsls	r6, r6, #16
	ldrb	r7, [r4, #15]
	lsls	r7, r7, #24
	adds	r6, r7, r6
	adds	r5, r6, r5
	str	r5, [sp, #68]
	ldrb	r5, [r4, #8]
	ldrb	r6, [r4, #9]
	lsls	r6, r6, #8
	adds	r5, r6, r5
	ldrb	r6, [r4, #10]
	lsls	r6, r6, #16
	ldrb	r7, [r4, #11]
	lsls	r7, r7, #24
	adds	r6, r7, r6
	adds	r5, r6, r5
	str	r5, [sp, #64]
	ldrb	r5, [r4, #4]
	ldrb	r6, [r4, #5]
	lsls	r6, r6, #8
	adds	r5, r6, r5
	ldrb	r6, [r4, #6]
	lsls	r6, r6, #16
	ldrb	r7, [r4, #7]
	lsls	r7, r7, #24
	adds	r6, r7, r6
	adds	r5, r6, r5
	str	r5, [sp, #60]
	ldrb	r5, [r4]
	ldrb	r6, [r4, #1]
	lsls	r6, r6, #8
	adds	r5, r6, r5
	ldrb	r6, [r4, #2]
	lsls	r6, r6, #16
	ldrb	r7, [r4, #3]
	lsls	r7, r7, #24
	adds	r6, r7, r6
	adds	r5, r6, r5
	str	r5, [sp, #56]
	str	r1, [sp, #76]
	str	r1, [sp, #72]
	movs	r5, #15
	ands	r5, r2
	movs	r6, #16
	subs	r5, r6, r5
	mov	r6, r1
	ldr	r3, [sp, #32]                   @ 4-byte Reload
	subs	r5, r5, r3
	mov	r5, r1
	ldr	r7, [sp, #24]                   @ 4-byte Reload
	sbcs	r5, r7
	bhs	.Laes_v6m_small_BB71_6
@ %bb.5:                                @ %else.2.i.i
	str	r3, [sp, #96]
	str	r2, [sp, #80]
	movs	r2, #0
	str	r2, [sp, #92]
	ldr	r1, [sp, #36]                   @ 4-byte Reload
	str	r1, [sp, #88]
	add	r2, sp, #56
	str	r2, [sp, #72]
	str	r7, [sp, #100]
	ldr	r1, [sp, #28]                   @ 4-byte Reload
	str	r1, [sp, #84]
	add	r2, sp, #72
	str	r2, [sp]
	ldr	r2, [sp, #16]                   @ 4-byte Reload
	mov	r5, r3
	ldr	r3, [sp, #20]                   @ 4-byte Reload
	bl	aes_v6m_small.aes_narrow.borrowed_words.call_to_encrypt
	bl	aes_v6m_small.aes_cipher.zeroize.stack.wipe_stack.2032
	b	.Laes_v6m_small_BB71_7
.Laes_v6m_small_BB71_6:                               @ %then.1.i.i
	ldr	r0, [sp, #36]                   @ 4-byte Reload
	str	r0, [sp]
	str	r3, [sp, #8]
	str	r7, [sp, #12]
	add	r0, sp, #40
	add	r1, sp, #56
	mov	r5, r3
	ldr	r3, [sp, #28]                   @ 4-byte Reload
	bl	aes_v6m_small.aes_ctr.add_in_batches.add_to_one
.Laes_v6m_small_BB71_7:                               @ %"aes_ctr::add_in_batches::add_keystream::<#4f733d09d7f6c6b4>.exit"
	ldr	r0, [r4, #16]
	adds	r0, r0, r5
	str	r0, [r4, #16]
	ldr	r0, [r4, #20]
	adcs	r0, r7
	str	r0, [r4, #20]
	mov	r1, r6
.Laes_v6m_small_BB71_8:                               @ %join.3
	mov	r0, r1
	add	sp, #108
	pop	{r4, r5, r6, r7, pc}
	.p2align	2
@ %bb.9:
.Laes_v6m_small_CPI71_0:
	.long	65793                           @ 0x10101
.Laes_v6m_small_func_end71:
	.size	aes_v6m_small.aes_c.stream.fotsgure_aes_add_keystream, .Laes_v6m_small_func_end71-aes_v6m_small.aes_c.stream.fotsgure_aes_add_keystream
	.cantunwind
	.fnend
                                        @ -- End function
	.section	.text.aes_v6m_small.aes_c.single_rounds.round,"ax",%progbits
	.p2align	2                               @ -- Begin function aes_c::single_rounds::round
	.type	aes_v6m_small.aes_c.single_rounds.round,%function
	.code	16
	.thumb_func
aes_v6m_small.aes_c.single_rounds.round:          @ @aes_v6m_small.aes_c.single_rounds.round
	.fnstart
@ %bb.0:                                @ %start
	.save	{r4, r5, r6, r7, lr}
	push	{r4, r5, r6, r7, lr}
	.pad	#116
	sub	sp, #116
	mov	r5, r1
	mov	r4, r0
	ldrb	r0, [r0, #12]
	ldrb	r1, [r4, #13]
	lsls	r1, r1, #8
	adds	r0, r1, r0
	ldrb	r1, [r4, #14]
	lsls	r1, r1, #16
	adds	r0, r0, r1
	ldrb	r1, [r4, #15]
	lsls	r1, r1, #24
	adds	r0, r0, r1
	ldrb	r1, [r4, #3]
	str	r1, [sp, #48]                   @ 4-byte Spill
	ldrb	r1, [r4, #2]
	str	r1, [sp, #44]                   @ 4-byte Spill
	ldrb	r1, [r4]
	str	r1, [sp, #40]                   @ 4-byte Spill
	ldrb	r1, [r4, #1]
	str	r1, [sp, #36]                   @ 4-byte Spill
	ldrb	r1, [r4, #7]
	str	r1, [sp, #32]                   @ 4-byte Spill
	ldrb	r1, [r4, #6]
	str	r1, [sp, #28]                   @ 4-byte Spill
	ldrb	r1, [r4, #4]
	str	r1, [sp, #24]                   @ 4-byte Spill
	ldrb	r7, [r4, #5]
	ldrb	r6, [r4, #11]
	ldrb	r3, [r4, #10]
	ldrb	r2, [r4, #8]
	ldrb	r1, [r4, #9]
	str	r0, [sp, #112]
	str	r0, [sp, #108]
	lsls	r0, r1, #8
	adds	r0, r0, r2
	lsls	r1, r3, #16
	adds	r0, r0, r1
	lsls	r1, r6, #24
	adds	r0, r0, r1
	str	r0, [sp, #104]
	str	r0, [sp, #100]
	lsls	r0, r7, #8
	ldr	r1, [sp, #24]                   @ 4-byte Reload
	adds	r0, r0, r1
	ldr	r1, [sp, #28]                   @ 4-byte Reload
	lsls	r1, r1, #16
	adds	r0, r0, r1
	ldr	r1, [sp, #32]                   @ 4-byte Reload
	lsls	r1, r1, #24
	adds	r0, r0, r1
	str	r0, [sp, #96]
	str	r0, [sp, #92]
	ldr	r0, [sp, #36]                   @ 4-byte Reload
	lsls	r0, r0, #8
	ldr	r1, [sp, #40]                   @ 4-byte Reload
	adds	r0, r0, r1
	ldr	r1, [sp, #44]                   @ 4-byte Reload
	lsls	r1, r1, #16
	adds	r0, r0, r1
	ldr	r1, [sp, #48]                   @ 4-byte Reload
	lsls	r1, r1, #24
	adds	r0, r0, r1
	str	r0, [sp, #88]
	str	r0, [sp, #84]
	add	r6, sp, #52
	add	r1, sp, #84
	mov	r0, r6
	bl	aes_v6m_small.aes_planes.soft.word.transpose.transpose
	mov	r0, r6
	bl	aes_v6m_small.aes_planes.soft.sbox.sub_bytes
	mov	r0, r6
	bl	aes_v6m_small.aes_planes.soft.sbox.sub_bytes_nots
	movs	r1, #4
	ldr	r2, .Laes_v6m_small_CPI72_0
	mov	r0, r6
	bl	aes_v6m_small.aes_planes.soft.shifts.swap_columns
	movs	r1, #2
	ldr	r2, .Laes_v6m_small_CPI72_1
	mov	r0, r6
	bl	aes_v6m_small.aes_planes.soft.shifts.swap_columns
	mov	r0, r6
	bl	aes_v6m_small.aes_planes.soft.mix_columns.mix_columns_0
	add	r0, sp, #84
	mov	r1, r6
	bl	aes_v6m_small.aes_planes.soft.word.transpose.transpose
	ldr	r0, [sp, #84]
	str	r0, [sp, #40]                   @ 4-byte Spill
	ldr	r0, [sp, #92]
	str	r0, [sp, #24]                   @ 4-byte Spill
	ldr	r6, [sp, #100]
	ldr	r2, [sp, #108]
	lsrs	r3, r2, #24
	ldrb	r1, [r5, #15]
	eors	r1, r3
	ldrb	r0, [r5]
	str	r0, [sp, #48]                   @ 4-byte Spill
	ldrb	r0, [r5, #1]
	str	r0, [sp, #44]                   @ 4-byte Spill
	ldrb	r0, [r5, #2]
	str	r0, [sp, #36]                   @ 4-byte Spill
	ldrb	r0, [r5, #3]
	str	r0, [sp, #32]                   @ 4-byte Spill
	ldrb	r0, [r5, #4]
	str	r0, [sp, #28]                   @ 4-byte Spill
	ldrb	r0, [r5, #5]
	str	r0, [sp, #20]                   @ 4-byte Spill
	ldrb	r0, [r5, #6]
	str	r0, [sp, #16]                   @ 4-byte Spill
	ldrb	r0, [r5, #7]
	str	r0, [sp, #12]                   @ 4-byte Spill
	ldrb	r3, [r5, #8]
	ldrb	r0, [r5, #9]
	str	r0, [sp, #8]                    @ 4-byte Spill
	ldrb	r0, [r5, #10]
	str	r0, [sp, #4]                    @ 4-byte Spill
	ldrb	r0, [r5, #11]
	str	r0, [sp]                        @ 4-byte Spill
	ldrb	r0, [r5, #12]
	ldrb	r7, [r5, #13]
	ldrb	r5, [r5, #14]
	strb	r1, [r4, #15]
	lsrs	r1, r2, #16
	eors	r1, r5
	strb	r1, [r4, #14]
	lsrs	r1, r2, #8
	eors	r1, r7
	strb	r1, [r4, #13]
	eors	r0, r2
	strb	r0, [r4, #12]
	lsrs	r0, r6, #24
	ldr	r1, [sp]                        @ 4-byte Reload
	eors	r0, r1
	strb	r0, [r4, #11]
	lsrs	r0, r6, #16
	ldr	r1, [sp, #4]                    @ 4-byte Reload
	eors	r0, r1
	strb	r0, [r4, #10]
	lsrs	r0, r6, #8
	ldr	r1, [sp, #8]                    @ 4-byte Reload
	eors	r0, r1
	strb	r0, [r4, #9]
	eors	r3, r6
	strb	r3, [r4, #8]
	ldr	r1, [sp, #24]                   @ 4-byte Reload
	lsrs	r0, r1, #24
	ldr	r2, [sp, #12]                   @ 4-byte Reload
	eors	r0, r2
	strb	r0, [r4, #7]
	lsrs	r0, r1, #16
	ldr	r2, [sp, #16]                   @ 4-byte Reload
	eors	r0, r2
	strb	r0, [r4, #6]
	lsrs	r0, r1, #8
	ldr	r2, [sp, #20]                   @ 4-byte Reload
	eors	r0, r2
	strb	r0, [r4, #5]
	ldr	r0, [sp, #28]                   @ 4-byte Reload
	eors	r0, r1
	strb	r0, [r4, #4]
	ldr	r1, [sp, #40]                   @ 4-byte Reload
	lsrs	r0, r1, #24
	ldr	r2, [sp, #32]                   @ 4-byte Reload
	eors	r0, r2
	strb	r0, [r4, #3]
	lsrs	r0, r1, #16
	ldr	r2, [sp, #36]                   @ 4-byte Reload
	eors	r0, r2
	strb	r0, [r4, #2]
	lsrs	r0, r1, #8
	ldr	r2, [sp, #44]                   @ 4-byte Reload
	eors	r0, r2
	strb	r0, [r4, #1]
	ldr	r0, [sp, #48]                   @ 4-byte Reload
	eors	r0, r1
	strb	r0, [r4]
	add	sp, #116
	pop	{r4, r5, r6, r7, pc}
	.p2align	2
@ %bb.1:
.Laes_v6m_small_CPI72_0:
	.long	202310400                       @ 0xc0f0300
.Laes_v6m_small_CPI72_1:
	.long	855651072                       @ 0x33003300
.Laes_v6m_small_func_end72:
	.size	aes_v6m_small.aes_c.single_rounds.round, .Laes_v6m_small_func_end72-aes_v6m_small.aes_c.single_rounds.round
	.cantunwind
	.fnend
                                        @ -- End function
	.section	.text.aes_v6m_small.aes_c.single_rounds.rounds,"ax",%progbits
	.p2align	2                               @ -- Begin function aes_c::single_rounds::rounds
	.type	aes_v6m_small.aes_c.single_rounds.rounds,%function
	.code	16
	.thumb_func
aes_v6m_small.aes_c.single_rounds.rounds:         @ @aes_v6m_small.aes_c.single_rounds.rounds
	.fnstart
@ %bb.0:                                @ %start
	.save	{r4, r5, r6, r7, lr}
	push	{r4, r5, r6, r7, lr}
	.pad	#196
	sub	sp, #196
	str	r1, [sp, #4]                    @ 4-byte Spill
	movs	r1, #0
	mov	r2, r1
	str	r1, [sp, #16]                   @ 4-byte Spill
	mov	r3, r1
	str	r0, [sp, #128]                  @ 4-byte Spill
.Laes_v6m_small_BB73_1:                               @ %join.5.i.i
                                        @ =>This Inner Loop Header: Depth=1
	str	r2, [sp, #116]                  @ 4-byte Spill
	str	r1, [sp, #120]                  @ 4-byte Spill
	str	r3, [sp, #124]                  @ 4-byte Spill
	lsls	r2, r2, #4
	adds	r5, r0, r2
	str	r2, [sp, #112]                  @ 4-byte Spill
	ldrb	r0, [r5, #28]
	ldrb	r1, [r5, #29]
	lsls	r1, r1, #8
	adds	r0, r1, r0
	ldrb	r1, [r5, #30]
	lsls	r1, r1, #16
	adds	r0, r0, r1
	ldrb	r1, [r5, #31]
	lsls	r1, r1, #24
	adds	r0, r0, r1
	str	r0, [sp, #40]                   @ 4-byte Spill
	ldrb	r0, [r5, #3]
	str	r0, [sp, #108]                  @ 4-byte Spill
	ldrb	r0, [r5, #2]
	str	r0, [sp, #104]                  @ 4-byte Spill
	ldr	r0, [sp, #128]                  @ 4-byte Reload
	ldrb	r0, [r0, r2]
	str	r0, [sp, #100]                  @ 4-byte Spill
	ldrb	r0, [r5, #1]
	str	r0, [sp, #96]                   @ 4-byte Spill
	ldrb	r0, [r5, #19]
	str	r0, [sp, #92]                   @ 4-byte Spill
	ldrb	r0, [r5, #18]
	str	r0, [sp, #88]                   @ 4-byte Spill
	ldrb	r0, [r5, #16]
	str	r0, [sp, #84]                   @ 4-byte Spill
	ldrb	r0, [r5, #17]
	str	r0, [sp, #80]                   @ 4-byte Spill
	ldrb	r0, [r5, #7]
	str	r0, [sp, #76]                   @ 4-byte Spill
	ldrb	r0, [r5, #6]
	str	r0, [sp, #72]                   @ 4-byte Spill
	ldrb	r0, [r5, #4]
	str	r0, [sp, #68]                   @ 4-byte Spill
	ldrb	r0, [r5, #5]
	str	r0, [sp, #64]                   @ 4-byte Spill
	ldrb	r0, [r5, #23]
	str	r0, [sp, #60]                   @ 4-byte Spill
	ldrb	r0, [r5, #22]
	str	r0, [sp, #56]                   @ 4-byte Spill
	ldrb	r0, [r5, #20]
	str	r0, [sp, #52]                   @ 4-byte Spill
	ldrb	r0, [r5, #21]
	str	r0, [sp, #48]                   @ 4-byte Spill
	ldrb	r0, [r5, #11]
	str	r0, [sp, #44]                   @ 4-byte Spill
	ldrb	r0, [r5, #10]
	str	r0, [sp, #36]                   @ 4-byte Spill
	ldrb	r0, [r5, #8]
	str	r0, [sp, #32]                   @ 4-byte Spill
	ldrb	r0, [r5, #9]
	str	r0, [sp, #28]                   @ 4-byte Spill
	ldrb	r0, [r5, #27]
	str	r0, [sp, #24]                   @ 4-byte Spill
	ldrb	r0, [r5, #26]
	str	r0, [sp, #20]                   @ 4-byte Spill
	ldrb	r6, [r5, #24]
	ldrb	r4, [r5, #25]
	ldrb	r3, [r5, #15]
	ldrb	r2, [r5, #14]
	ldrb	r1, [r5, #12]
	ldrb	r0, [r5, #13]
	ldr	r7, [sp, #40]                   @ 4-byte Reload
	str	r7, [sp, #192]
	lsls	r0, r0, #8
	adds	r0, r0, r1
	lsls	r1, r2, #16
	adds	r0, r0, r1
	lsls	r1, r3, #24
	adds	r0, r0, r1
	str	r0, [sp, #188]
	lsls	r0, r4, #8
	adds	r0, r0, r6
	ldr	r1, [sp, #20]                   @ 4-byte Reload
	lsls	r1, r1, #16
	adds	r0, r0, r1
	ldr	r1, [sp, #24]                   @ 4-byte Reload
	lsls	r1, r1, #24
	adds	r0, r0, r1
	str	r0, [sp, #184]
	ldr	r0, [sp, #28]                   @ 4-byte Reload
	lsls	r0, r0, #8
	ldr	r1, [sp, #32]                   @ 4-byte Reload
	adds	r0, r0, r1
	ldr	r1, [sp, #36]                   @ 4-byte Reload
	lsls	r1, r1, #16
	adds	r0, r0, r1
	ldr	r1, [sp, #44]                   @ 4-byte Reload
	lsls	r1, r1, #24
	adds	r0, r0, r1
	str	r0, [sp, #180]
	ldr	r0, [sp, #48]                   @ 4-byte Reload
	lsls	r0, r0, #8
	ldr	r1, [sp, #52]                   @ 4-byte Reload
	adds	r0, r0, r1
	ldr	r1, [sp, #56]                   @ 4-byte Reload
	lsls	r1, r1, #16
	adds	r0, r0, r1
	ldr	r1, [sp, #60]                   @ 4-byte Reload
	lsls	r1, r1, #24
	adds	r0, r0, r1
	str	r0, [sp, #176]
	ldr	r0, [sp, #64]                   @ 4-byte Reload
	lsls	r0, r0, #8
	ldr	r1, [sp, #68]                   @ 4-byte Reload
	adds	r0, r0, r1
	ldr	r1, [sp, #72]                   @ 4-byte Reload
	lsls	r1, r1, #16
	adds	r0, r0, r1
	ldr	r1, [sp, #76]                   @ 4-byte Reload
	lsls	r1, r1, #24
	adds	r0, r0, r1
	str	r0, [sp, #172]
	ldr	r0, [sp, #80]                   @ 4-byte Reload
	lsls	r0, r0, #8
	ldr	r1, [sp, #84]                   @ 4-byte Reload
	adds	r0, r0, r1
	ldr	r1, [sp, #88]                   @ 4-byte Reload
	lsls	r1, r1, #16
	adds	r0, r0, r1
	ldr	r1, [sp, #92]                   @ 4-byte Reload
	lsls	r1, r1, #24
	adds	r0, r0, r1
	str	r0, [sp, #168]
	ldr	r0, [sp, #96]                   @ 4-byte Reload
	lsls	r0, r0, #8
	ldr	r1, [sp, #100]                  @ 4-byte Reload
	adds	r0, r0, r1
	ldr	r1, [sp, #104]                  @ 4-byte Reload
	lsls	r1, r1, #16
	adds	r0, r0, r1
	ldr	r1, [sp, #108]                  @ 4-byte Reload
	lsls	r1, r1, #24
	adds	r0, r0, r1
	str	r0, [sp, #164]
	add	r6, sp, #132
	add	r1, sp, #164
	mov	r0, r6
	bl	aes_v6m_small.aes_planes.soft.word.transpose.transpose
	mov	r0, r6
	bl	aes_v6m_small.aes_planes.soft.sbox.sub_bytes
	mov	r0, r6
	bl	aes_v6m_small.aes_planes.soft.sbox.sub_bytes_nots
	movs	r1, #4
	ldr	r2, .Laes_v6m_small_CPI73_0
	mov	r0, r6
	bl	aes_v6m_small.aes_planes.soft.shifts.swap_columns
	movs	r1, #2
	ldr	r2, .Laes_v6m_small_CPI73_1
	mov	r0, r6
	bl	aes_v6m_small.aes_planes.soft.shifts.swap_columns
	mov	r0, r6
	bl	aes_v6m_small.aes_planes.soft.mix_columns.mix_columns_0
	add	r0, sp, #164
	mov	r1, r6
	bl	aes_v6m_small.aes_planes.soft.word.transpose.transpose
	ldr	r0, [sp, #172]
	str	r0, [sp, #108]                  @ 4-byte Spill
	ldr	r0, [sp, #180]
	str	r0, [sp, #104]                  @ 4-byte Spill
	ldr	r0, [sp, #188]
	str	r0, [sp, #100]                  @ 4-byte Spill
	ldr	r6, [sp, #168]
	ldr	r7, [sp, #176]
	ldr	r4, [sp, #184]
	ldr	r0, [sp, #192]
	ldr	r3, [sp, #164]
	ldr	r1, [sp, #128]                  @ 4-byte Reload
	ldr	r2, [sp, #112]                  @ 4-byte Reload
	strb	r3, [r1, r2]
	mov	r2, r3
	lsrs	r1, r0, #24
	strb	r1, [r5, #31]
	lsrs	r1, r0, #16
	strb	r1, [r5, #30]
	lsrs	r1, r0, #8
	strb	r1, [r5, #29]
	strb	r0, [r5, #28]
	lsrs	r0, r4, #24
	strb	r0, [r5, #27]
	lsrs	r0, r4, #16
	strb	r0, [r5, #26]
	lsrs	r0, r4, #8
	strb	r0, [r5, #25]
	strb	r4, [r5, #24]
	lsrs	r0, r7, #24
	strb	r0, [r5, #23]
	lsrs	r0, r7, #16
	strb	r0, [r5, #22]
	lsrs	r0, r7, #8
	strb	r0, [r5, #21]
	strb	r7, [r5, #20]
	lsrs	r0, r6, #24
	strb	r0, [r5, #19]
	lsrs	r0, r6, #16
	strb	r0, [r5, #18]
	lsrs	r0, r6, #8
	strb	r0, [r5, #17]
	strb	r6, [r5, #16]
	ldr	r1, [sp, #100]                  @ 4-byte Reload
	lsrs	r0, r1, #24
	strb	r0, [r5, #15]
	lsrs	r0, r1, #16
	strb	r0, [r5, #14]
	lsrs	r0, r1, #8
	strb	r0, [r5, #13]
	strb	r1, [r5, #12]
	ldr	r3, [sp, #124]                  @ 4-byte Reload
	ldr	r1, [sp, #104]                  @ 4-byte Reload
	lsrs	r0, r1, #24
	strb	r0, [r5, #11]
	lsrs	r0, r1, #16
	strb	r0, [r5, #10]
	lsrs	r0, r1, #8
	strb	r0, [r5, #9]
	strb	r1, [r5, #8]
	ldr	r1, [sp, #108]                  @ 4-byte Reload
	lsrs	r0, r1, #24
	strb	r0, [r5, #7]
	lsrs	r0, r1, #16
	strb	r0, [r5, #6]
	lsrs	r0, r1, #8
	strb	r0, [r5, #5]
	strb	r1, [r5, #4]
	lsrs	r0, r2, #24
	strb	r0, [r5, #3]
	lsrs	r0, r2, #16
	strb	r0, [r5, #2]
	lsrs	r0, r2, #8
	strb	r0, [r5, #1]
	ldr	r1, [sp, #116]                  @ 4-byte Reload
	adds	r0, r1, #2
	ldr	r2, [sp, #16]                   @ 4-byte Reload
	adcs	r3, r2
	subs	r1, r1, #6
	ldr	r1, [sp, #120]                  @ 4-byte Reload
	sbcs	r1, r2
	mov	r2, r0
	ldr	r0, [sp, #128]                  @ 4-byte Reload
	mov	r1, r3
	bhs	.Laes_v6m_small_BB73_2
	b	.Laes_v6m_small_BB73_1
.Laes_v6m_small_BB73_2:                               @ %join.5.i.i.i.preheader
	movs	r0, #0
	mov	r1, r0
	str	r0, [sp]                        @ 4-byte Spill
	mov	r3, r0
.Laes_v6m_small_BB73_3:                               @ %join.5.i.i.i
                                        @ =>This Inner Loop Header: Depth=1
	str	r1, [sp, #116]                  @ 4-byte Spill
	str	r0, [sp, #120]                  @ 4-byte Spill
	str	r3, [sp, #124]                  @ 4-byte Spill
	lsls	r4, r1, #4
	ldr	r0, [sp, #128]                  @ 4-byte Reload
	ldrb	r0, [r0, r4]
	ldr	r1, [sp, #4]                    @ 4-byte Reload
	ldrb	r2, [r1, r4]
	eors	r2, r0
	str	r2, [sp, #44]                   @ 4-byte Spill
	adds	r3, r1, r4
	ldrb	r0, [r3, #1]
	str	r0, [sp, #112]                  @ 4-byte Spill
	ldr	r0, [sp, #128]                  @ 4-byte Reload
	adds	r5, r0, r4
	ldrb	r0, [r5, #1]
	str	r0, [sp, #108]                  @ 4-byte Spill
	ldrb	r0, [r3, #2]
	str	r0, [sp, #104]                  @ 4-byte Spill
	ldrb	r0, [r5, #2]
	str	r0, [sp, #100]                  @ 4-byte Spill
	ldrb	r0, [r3, #3]
	str	r0, [sp, #96]                   @ 4-byte Spill
	ldrb	r0, [r5, #3]
	str	r0, [sp, #92]                   @ 4-byte Spill
	ldrb	r0, [r3, #4]
	str	r0, [sp, #88]                   @ 4-byte Spill
	ldrb	r0, [r5, #4]
	str	r0, [sp, #84]                   @ 4-byte Spill
	ldrb	r0, [r3, #5]
	str	r0, [sp, #80]                   @ 4-byte Spill
	ldrb	r0, [r5, #5]
	str	r0, [sp, #76]                   @ 4-byte Spill
	ldrb	r0, [r3, #6]
	str	r0, [sp, #72]                   @ 4-byte Spill
	ldrb	r0, [r5, #6]
	str	r0, [sp, #68]                   @ 4-byte Spill
	ldrb	r0, [r3, #7]
	str	r0, [sp, #64]                   @ 4-byte Spill
	ldrb	r0, [r5, #7]
	str	r0, [sp, #60]                   @ 4-byte Spill
	ldrb	r0, [r3, #8]
	str	r0, [sp, #56]                   @ 4-byte Spill
	ldrb	r0, [r5, #8]
	str	r0, [sp, #52]                   @ 4-byte Spill
	ldrb	r0, [r3, #9]
	str	r0, [sp, #48]                   @ 4-byte Spill
	ldrb	r0, [r5, #9]
	str	r0, [sp, #40]                   @ 4-byte Spill
	ldrb	r0, [r3, #10]
	str	r0, [sp, #36]                   @ 4-byte Spill
	ldrb	r0, [r5, #10]
	str	r0, [sp, #32]                   @ 4-byte Spill
	ldrb	r0, [r3, #11]
	str	r0, [sp, #28]                   @ 4-byte Spill
	ldrb	r0, [r5, #11]
	str	r0, [sp, #24]                   @ 4-byte Spill
	ldrb	r0, [r3, #12]
	str	r0, [sp, #20]                   @ 4-byte Spill
	ldrb	r2, [r5, #12]
	ldrb	r0, [r3, #13]
	str	r0, [sp, #16]                   @ 4-byte Spill
	ldrb	r6, [r5, #13]
	ldrb	r0, [r3, #14]
	str	r0, [sp, #12]                   @ 4-byte Spill
	ldrb	r1, [r5, #14]
	ldrb	r0, [r3, #15]
	str	r0, [sp, #8]                    @ 4-byte Spill
	ldrb	r7, [r5, #15]
	ldr	r3, [sp, #128]                  @ 4-byte Reload
	ldr	r0, [sp, #44]                   @ 4-byte Reload
	strb	r0, [r3, r4]
	ldr	r3, [sp, #124]                  @ 4-byte Reload
	ldr	r0, [sp, #8]                    @ 4-byte Reload
	eors	r7, r0
	strb	r7, [r5, #15]
	ldr	r0, [sp, #12]                   @ 4-byte Reload
	eors	r1, r0
	strb	r1, [r5, #14]
	ldr	r0, [sp, #16]                   @ 4-byte Reload
	eors	r6, r0
	strb	r6, [r5, #13]
	ldr	r0, [sp, #20]                   @ 4-byte Reload
	eors	r2, r0
	strb	r2, [r5, #12]
	ldr	r0, [sp, #28]                   @ 4-byte Reload
	ldr	r1, [sp, #24]                   @ 4-byte Reload
	eors	r1, r0
	strb	r1, [r5, #11]
	ldr	r0, [sp, #36]                   @ 4-byte Reload
	ldr	r1, [sp, #32]                   @ 4-byte Reload
	eors	r1, r0
	strb	r1, [r5, #10]
	ldr	r0, [sp, #48]                   @ 4-byte Reload
	ldr	r1, [sp, #40]                   @ 4-byte Reload
	eors	r1, r0
	strb	r1, [r5, #9]
	ldr	r0, [sp, #56]                   @ 4-byte Reload
	ldr	r1, [sp, #52]                   @ 4-byte Reload
	eors	r1, r0
	strb	r1, [r5, #8]
	ldr	r0, [sp, #64]                   @ 4-byte Reload
	ldr	r1, [sp, #60]                   @ 4-byte Reload
	eors	r1, r0
	strb	r1, [r5, #7]
	ldr	r0, [sp, #72]                   @ 4-byte Reload
	ldr	r1, [sp, #68]                   @ 4-byte Reload
	eors	r1, r0
	strb	r1, [r5, #6]
	ldr	r0, [sp, #80]                   @ 4-byte Reload
	ldr	r1, [sp, #76]                   @ 4-byte Reload
	eors	r1, r0
	strb	r1, [r5, #5]
	ldr	r0, [sp, #88]                   @ 4-byte Reload
	ldr	r1, [sp, #84]                   @ 4-byte Reload
	eors	r1, r0
	strb	r1, [r5, #4]
	ldr	r0, [sp, #96]                   @ 4-byte Reload
	ldr	r1, [sp, #92]                   @ 4-byte Reload
	eors	r1, r0
	strb	r1, [r5, #3]
	ldr	r0, [sp, #104]                  @ 4-byte Reload
	ldr	r1, [sp, #100]                  @ 4-byte Reload
	eors	r1, r0
	strb	r1, [r5, #2]
	ldr	r0, [sp, #112]                  @ 4-byte Reload
	ldr	r1, [sp, #108]                  @ 4-byte Reload
	eors	r1, r0
	strb	r1, [r5, #1]
	ldr	r1, [sp, #116]                  @ 4-byte Reload
	adds	r0, r1, #1
	ldr	r2, [sp]                        @ 4-byte Reload
	adcs	r3, r2
	subs	r1, r1, #7
	ldr	r1, [sp, #120]                  @ 4-byte Reload
	sbcs	r1, r2
	mov	r1, r0
	mov	r0, r3
	bhs	.Laes_v6m_small_BB73_4
	b	.Laes_v6m_small_BB73_3
.Laes_v6m_small_BB73_4:                               @ %"aes_soft::soft::hazmat::par::cipher_round_par::<#e817d94f9a7b6ba6>.exit"
	add	sp, #196
	pop	{r4, r5, r6, r7, pc}
	.p2align	2
@ %bb.5:
.Laes_v6m_small_CPI73_0:
	.long	202310400                       @ 0xc0f0300
.Laes_v6m_small_CPI73_1:
	.long	855651072                       @ 0x33003300
.Laes_v6m_small_func_end73:
	.size	aes_v6m_small.aes_c.single_rounds.rounds, .Laes_v6m_small_func_end73-aes_v6m_small.aes_c.single_rounds.rounds
	.cantunwind
	.fnend
                                        @ -- End function
	.section	.text.aes_v6m_small.ccm.mode.decrypt,"ax",%progbits
	.p2align	1                               @ -- Begin function ccm::mode::decrypt::<#4f733d09d7f6c6b4>
	.type	aes_v6m_small.ccm.mode.decrypt,%function
	.code	16
	.thumb_func
aes_v6m_small.ccm.mode.decrypt: @ @aes_v6m_small.ccm.mode.decrypt
	.fnstart
@ %bb.0:                                @ %start
	.save	{r4, r5, r6, r7, lr}
	push	{r4, r5, r6, r7, lr}
	.pad	#204
	sub	sp, #204
	str	r2, [sp, #132]                  @ 4-byte Spill
	str	r1, [sp, #128]                  @ 4-byte Spill
	movs	r4, #0
	ldr	r3, [sp, #276]
	ldr	r7, [sp, #272]
	subs	r2, r7, #4
	str	r3, [sp, #124]                  @ 4-byte Spill
	sbcs	r3, r4
	movs	r5, #1
	mov	r1, r4
	movs	r6, #12
	subs	r2, r6, r2
	mov	r2, r4
	sbcs	r2, r3
	blo	.Laes_v6m_small_BB74_6
@ %bb.1:                                @ %start
	mov	r2, r7
	ands	r2, r5
	bne	.Laes_v6m_small_BB74_6
@ %bb.2:                                @ %after.1.i
	ldr	r6, [sp, #228]
	ldr	r3, [sp, #224]
	mov	r1, r3
	subs	r1, #14
	mov	r2, r6
	sbcs	r2, r4
	adds	r1, r1, #7
	adcs	r2, r4
	mov	r1, r5
	blo	.Laes_v6m_small_BB74_6
@ %bb.3:                                @ %after.15.i
	str	r0, [sp, #112]                  @ 4-byte Spill
	ldr	r0, [sp, #260]
	str	r0, [sp, #120]                  @ 4-byte Spill
	ldr	r0, [sp, #256]
	movs	r1, #7
	eors	r1, r3
	str	r6, [sp, #100]                  @ 4-byte Spill
	orrs	r1, r6
	str	r0, [sp, #116]                  @ 4-byte Spill
	beq	.Laes_v6m_small_BB74_7
@ %bb.4:                                @ %"ccm::formatting::check.exit"
	lsls	r1, r3, #3
	movs	r2, #120
	eors	r2, r1
	ldr	r1, [sp, #120]                  @ 4-byte Reload
	mov	r6, r3
	bl	__aeabi_llsr
	mov	r3, r6
	orrs	r1, r0
	beq	.Laes_v6m_small_BB74_7
@ %bb.5:
	movs	r1, #2
	ldr	r0, [sp, #112]                  @ 4-byte Reload
.Laes_v6m_small_BB74_6:                               @ %arm.1
	strb	r1, [r0, #2]
	strb	r4, [r0, #1]
	strb	r5, [r0]
	add	sp, #204
	pop	{r4, r5, r6, r7, pc}
.Laes_v6m_small_BB74_7:                               @ %join.4
	add	r5, sp, #136
	strb	r4, [r5, #14]
	strh	r4, [r5, #12]
	str	r4, [sp, #144]
	str	r4, [sp, #140]
	str	r4, [sp, #136]
	mov	r0, r5
	ldr	r1, [sp, #132]                  @ 4-byte Reload
	mov	r2, r3
	mov	r6, r3
	bl	memcpy
	movs	r0, #14
	str	r6, [sp, #108]                  @ 4-byte Spill
	subs	r1, r0, r6
	add	r0, sp, #152
	str	r1, [sp, #80]                   @ 4-byte Spill
	strb	r1, [r0]
	adds	r0, r0, #1
	movs	r2, #15
	mov	r1, r5
	bl	memcpy
	ldr	r1, [sp, #116]                  @ 4-byte Reload
	str	r4, [sp, #172]
	str	r4, [sp, #168]
	movs	r2, #16
	subs	r0, r2, r1
	mov	r0, r4
	ldr	r3, [sp, #120]                  @ 4-byte Reload
	sbcs	r0, r3
	bhs	.Laes_v6m_small_BB74_9
@ %bb.8:
	movs	r4, #1
.Laes_v6m_small_BB74_9:                               @ %join.4
	ldr	r6, [sp, #128]                  @ 4-byte Reload
	ldr	r0, [sp, #244]
	str	r0, [sp, #88]                   @ 4-byte Spill
	ldr	r0, [sp, #240]
	str	r0, [sp, #84]                   @ 4-byte Spill
	ldr	r0, [sp, #264]
	str	r0, [sp, #96]                   @ 4-byte Spill
	ldr	r3, [sp, #248]
	ldr	r0, [sp, #232]
	str	r0, [sp, #92]                   @ 4-byte Spill
	cmp	r4, #0
	str	r2, [sp, #76]                   @ 4-byte Spill
	str	r3, [sp, #104]                  @ 4-byte Spill
	beq	.Laes_v6m_small_BB74_11
@ %bb.10:                               @ %else.2.i.i.i
	str	r1, [sp, #192]
	movs	r0, #0
	str	r0, [sp, #180]
	str	r2, [sp, #176]
	str	r0, [sp, #188]
	str	r3, [sp, #184]
	add	r0, sp, #152
	str	r0, [sp, #168]
	ldr	r0, [sp, #120]                  @ 4-byte Reload
	str	r0, [sp, #196]
	ldrb	r0, [r6, #15]
	str	r0, [sp, #72]                   @ 4-byte Spill
	ldrb	r0, [r6, #14]
	str	r0, [sp, #68]                   @ 4-byte Spill
	ldrb	r0, [r6, #12]
	str	r0, [sp, #64]                   @ 4-byte Spill
	ldrb	r0, [r6, #13]
	str	r0, [sp, #60]                   @ 4-byte Spill
	ldrb	r0, [r6, #11]
	str	r0, [sp, #56]                   @ 4-byte Spill
	ldrb	r0, [r6, #10]
	str	r0, [sp, #52]                   @ 4-byte Spill
	ldrb	r0, [r6, #8]
	str	r0, [sp, #48]                   @ 4-byte Spill
	ldrb	r5, [r6, #9]
	ldrb	r3, [r6, #3]
	ldrb	r2, [r6, #2]
	ldrb	r1, [r6]
	ldrb	r0, [r6, #1]
	add	r6, sp, #168
	str	r6, [sp]
	ldr	r6, [sp, #128]                  @ 4-byte Reload
	lsls	r0, r0, #8
	adds	r0, r0, r1
	lsls	r1, r2, #16
	lsls	r2, r3, #24
	adds	r1, r2, r1
	adds	r0, r1, r0
	lsls	r1, r5, #8
	ldr	r2, [sp, #48]                   @ 4-byte Reload
	adds	r1, r1, r2
	ldr	r2, [sp, #52]                   @ 4-byte Reload
	lsls	r2, r2, #16
	ldr	r3, [sp, #56]                   @ 4-byte Reload
	lsls	r3, r3, #24
	adds	r2, r3, r2
	adds	r2, r2, r1
	ldr	r1, [sp, #60]                   @ 4-byte Reload
	lsls	r1, r1, #8
	ldr	r3, [sp, #64]                   @ 4-byte Reload
	adds	r1, r1, r3
	ldr	r3, [sp, #68]                   @ 4-byte Reload
	lsls	r3, r3, #16
	ldr	r5, [sp, #72]                   @ 4-byte Reload
	lsls	r5, r5, #24
	adds	r3, r5, r3
	adds	r3, r3, r1
	bl	aes_v6m_small.aes_narrow.borrowed_words.call_to_encrypt
	bl	aes_v6m_small.aes_cipher.zeroize.stack.wipe_stack.2032
	b	.Laes_v6m_small_BB74_12
.Laes_v6m_small_BB74_11:                              @ %then.1.i.i.i
	str	r3, [sp]
	str	r1, [sp, #8]
	ldr	r0, [sp, #120]                  @ 4-byte Reload
	str	r0, [sp, #12]
	add	r1, sp, #152
	movs	r2, #16
	movs	r3, #0
	mov	r0, r6
	bl	aes_v6m_small.aes_ctr.add_in_batches.add_to_one
.Laes_v6m_small_BB74_12:                              @ %"ccm::message::process_text::<#4f733d09d7f6c6b4>.exit"
	add	r5, sp, #152
	ldr	r0, [sp, #116]                  @ 4-byte Reload
	str	r0, [sp, #32]
	ldr	r0, [sp, #120]                  @ 4-byte Reload
	str	r0, [sp, #36]
	str	r5, [sp, #40]
	ldr	r0, [sp, #84]                   @ 4-byte Reload
	str	r0, [sp, #16]
	ldr	r0, [sp, #88]                   @ 4-byte Reload
	str	r0, [sp, #20]
	ldr	r0, [sp, #104]                  @ 4-byte Reload
	str	r0, [sp, #24]
	str	r7, [sp]
	ldr	r0, [sp, #124]                  @ 4-byte Reload
	str	r0, [sp, #4]
	ldr	r0, [sp, #92]                   @ 4-byte Reload
	str	r0, [sp, #8]
	mov	r0, r6
	ldr	r1, [sp, #132]                  @ 4-byte Reload
	ldr	r2, [sp, #108]                  @ 4-byte Reload
	ldr	r3, [sp, #100]                  @ 4-byte Reload
	bl	aes_v6m_small.ccm.message.put_tag
	ldr	r0, [sp, #164]
	str	r0, [sp, #180]
	ldr	r0, [sp, #160]
	str	r0, [sp, #176]
	ldr	r0, [sp, #156]
	str	r0, [sp, #172]
	ldr	r0, [sp, #152]
	str	r0, [sp, #168]
	add	r6, sp, #168
	mov	r0, r6
	ldr	r1, [sp, #96]                   @ 4-byte Reload
	mov	r2, r7
	bl	memcpy
	mov	r0, r6
	mov	r1, r5
	bl	aes_v6m_small.aes_cipher.blocks.difference
	cmp	r0, #0
	beq	.Laes_v6m_small_BB74_15
@ %bb.13:                               @ %join.7
	add	r5, sp, #136
	movs	r6, #0
	strb	r6, [r5, #14]
	strh	r6, [r5, #12]
	str	r6, [sp, #144]
	str	r6, [sp, #140]
	str	r6, [sp, #136]
	mov	r0, r5
	ldr	r1, [sp, #132]                  @ 4-byte Reload
	ldr	r2, [sp, #108]                  @ 4-byte Reload
	bl	memcpy
	add	r0, sp, #152
	ldr	r1, [sp, #80]                   @ 4-byte Reload
	strb	r1, [r0]
	adds	r0, r0, #1
	movs	r2, #15
	mov	r1, r5
	bl	memcpy
	str	r6, [sp, #172]
	str	r6, [sp, #168]
	cmp	r4, #0
	beq	.Laes_v6m_small_BB74_16
@ %bb.14:                               @ %else.2.i.i.i35
	ldr	r0, [sp, #116]                  @ 4-byte Reload
	str	r0, [sp, #192]
	str	r6, [sp, #180]
	ldr	r0, [sp, #76]                   @ 4-byte Reload
	str	r0, [sp, #176]
	str	r6, [sp, #188]
	ldr	r0, [sp, #104]                  @ 4-byte Reload
	str	r0, [sp, #184]
	add	r0, sp, #152
	str	r0, [sp, #168]
	ldr	r0, [sp, #120]                  @ 4-byte Reload
	str	r0, [sp, #196]
	ldr	r0, [sp, #128]                  @ 4-byte Reload
	ldrb	r1, [r0, #15]
	str	r1, [sp, #132]                  @ 4-byte Spill
	ldrb	r1, [r0, #14]
	str	r1, [sp, #124]                  @ 4-byte Spill
	ldrb	r1, [r0, #12]
	str	r1, [sp, #120]                  @ 4-byte Spill
	ldrb	r1, [r0, #13]
	str	r1, [sp, #116]                  @ 4-byte Spill
	ldrb	r1, [r0, #11]
	str	r1, [sp, #108]                  @ 4-byte Spill
	ldrb	r1, [r0, #10]
	str	r1, [sp, #104]                  @ 4-byte Spill
	ldrb	r5, [r0, #8]
	ldrb	r4, [r0, #9]
	ldrb	r3, [r0, #3]
	ldrb	r2, [r0, #2]
	ldrb	r1, [r0]
	ldrb	r0, [r0, #1]
	add	r7, sp, #168
	str	r7, [sp]
	lsls	r0, r0, #8
	adds	r0, r0, r1
	lsls	r1, r2, #16
	lsls	r2, r3, #24
	adds	r1, r2, r1
	adds	r0, r1, r0
	lsls	r1, r4, #8
	adds	r1, r1, r5
	ldr	r2, [sp, #104]                  @ 4-byte Reload
	lsls	r2, r2, #16
	ldr	r3, [sp, #108]                  @ 4-byte Reload
	lsls	r3, r3, #24
	adds	r2, r3, r2
	adds	r2, r2, r1
	ldr	r1, [sp, #116]                  @ 4-byte Reload
	lsls	r1, r1, #8
	ldr	r3, [sp, #120]                  @ 4-byte Reload
	adds	r1, r1, r3
	ldr	r3, [sp, #124]                  @ 4-byte Reload
	lsls	r3, r3, #16
	ldr	r4, [sp, #132]                  @ 4-byte Reload
	lsls	r4, r4, #24
	adds	r3, r4, r3
	adds	r3, r3, r1
	bl	aes_v6m_small.aes_narrow.borrowed_words.call_to_encrypt
	bl	aes_v6m_small.aes_cipher.zeroize.stack.wipe_stack.2032
	b	.Laes_v6m_small_BB74_17
.Laes_v6m_small_BB74_15:                              @ %then.5
	movs	r0, #0
	ldr	r1, [sp, #112]                  @ 4-byte Reload
	strb	r0, [r1, #2]
	strb	r0, [r1, #1]
	strb	r0, [r1]
	add	sp, #204
	pop	{r4, r5, r6, r7, pc}
.Laes_v6m_small_BB74_16:                              @ %then.1.i.i.i34
	ldr	r0, [sp, #104]                  @ 4-byte Reload
	str	r0, [sp]
	ldr	r0, [sp, #116]                  @ 4-byte Reload
	str	r0, [sp, #8]
	ldr	r0, [sp, #120]                  @ 4-byte Reload
	str	r0, [sp, #12]
	add	r1, sp, #152
	movs	r2, #16
	movs	r3, #0
	ldr	r0, [sp, #128]                  @ 4-byte Reload
	bl	aes_v6m_small.aes_ctr.add_in_batches.add_to_one
.Laes_v6m_small_BB74_17:                              @ %"ccm::message::process_text::<#4f733d09d7f6c6b4>.exit43"
	ldr	r0, [sp, #112]                  @ 4-byte Reload
	strb	r6, [r0, #2]
	movs	r1, #1
	strb	r1, [r0, #1]
	strb	r1, [r0]
	add	sp, #204
	pop	{r4, r5, r6, r7, pc}
.Laes_v6m_small_func_end74:
	.size	aes_v6m_small.ccm.mode.decrypt, .Laes_v6m_small_func_end74-aes_v6m_small.ccm.mode.decrypt
	.cantunwind
	.fnend
                                        @ -- End function
	.section	.text.aes_v6m_small.ccm.message.put_tag,"ax",%progbits
	.p2align	2                               @ -- Begin function ccm::message::put_tag::<#4f733d09d7f6c6b4>
	.type	aes_v6m_small.ccm.message.put_tag,%function
	.code	16
	.thumb_func
aes_v6m_small.ccm.message.put_tag: @ @aes_v6m_small.ccm.message.put_tag
	.fnstart
@ %bb.0:                                @ %start
	.save	{r4, r5, r6, r7, lr}
	push	{r4, r5, r6, r7, lr}
	.pad	#180
	sub	sp, #180
	mov	r4, r0
	movs	r5, #0
	str	r5, [sp, #132]
	str	r5, [sp, #128]
	str	r5, [sp, #124]
	str	r5, [sp, #120]
	add	r0, sp, #148
	strh	r5, [r0, #12]
	strb	r5, [r0, #14]
	str	r5, [sp, #148]
	str	r5, [sp, #152]
	str	r5, [sp, #156]
	ldr	r3, [sp, #232]
	str	r3, [sp, #92]                   @ 4-byte Spill
	rev	r3, r3
	str	r3, [sp, #140]
	ldr	r3, [sp, #236]
	str	r3, [sp, #88]                   @ 4-byte Spill
	rev	r3, r3
	str	r3, [sp, #136]
	str	r0, [sp, #80]                   @ 4-byte Spill
	str	r1, [sp, #96]                   @ 4-byte Spill
	str	r2, [sp, #116]                  @ 4-byte Spill
	bl	memcpy
	ldr	r1, [sp, #204]
	ldr	r0, [sp, #200]
	subs	r0, r0, #2
	sbcs	r1, r5
	mov	r1, r5
	adcs	r1, r5
	movs	r2, #1
	str	r2, [sp, #112]                  @ 4-byte Spill
	eors	r1, r2
	mov	r1, r5
	bne	.Laes_v6m_small_BB75_2
@ %bb.1:                                @ %start
	mov	r1, r0
.Laes_v6m_small_BB75_2:                               @ %start
	lsls	r0, r1, #2
	movs	r1, #248
	ands	r1, r0
	ldr	r0, [sp, #116]                  @ 4-byte Reload
	subs	r0, r1, r0
	ldr	r1, [sp, #220]
	ldr	r2, [sp, #216]
	str	r2, [sp, #104]                  @ 4-byte Spill
	str	r1, [sp, #108]                  @ 4-byte Spill
	orrs	r2, r1
	str	r2, [sp, #84]                   @ 4-byte Spill
	str	r4, [sp, #100]                  @ 4-byte Spill
	beq	.Laes_v6m_small_BB75_4
@ %bb.3:                                @ %start
	movs	r1, #78
	b	.Laes_v6m_small_BB75_5
.Laes_v6m_small_BB75_4:
	movs	r1, #14
.Laes_v6m_small_BB75_5:                               @ %start
	adds	r0, r1, r0
	add	r4, sp, #164
	strb	r0, [r4]
	adds	r6, r4, #1
	movs	r7, #15
	mov	r0, r6
	ldr	r1, [sp, #80]                   @ 4-byte Reload
	mov	r2, r7
	bl	memcpy
	ldr	r3, [sp, #116]                  @ 4-byte Reload
	subs	r2, r7, r3
	adds	r0, r6, r3
	add	r1, sp, #136
	adds	r1, r1, r3
	subs	r1, r1, #7
	bl	memcpy
	ldrb	r0, [r4, #1]
	str	r0, [sp, #80]                   @ 4-byte Spill
	ldrb	r0, [r4, #2]
	str	r0, [sp, #76]                   @ 4-byte Spill
	ldrb	r0, [r4, #3]
	str	r0, [sp, #72]                   @ 4-byte Spill
	ldrb	r0, [r4, #5]
	str	r0, [sp, #68]                   @ 4-byte Spill
	ldrb	r0, [r4, #6]
	str	r0, [sp, #64]                   @ 4-byte Spill
	ldrb	r0, [r4, #7]
	str	r0, [sp, #60]                   @ 4-byte Spill
	ldrb	r0, [r4, #9]
	str	r0, [sp, #52]                   @ 4-byte Spill
	ldrb	r0, [r4, #10]
	str	r0, [sp, #48]                   @ 4-byte Spill
	ldrb	r7, [r4, #11]
	ldrb	r6, [r4, #13]
	ldrb	r2, [r4, #14]
	ldrb	r1, [r4, #15]
	ldr	r0, [sp, #164]
	str	r0, [sp, #56]                   @ 4-byte Spill
	ldr	r0, [sp, #168]
	str	r0, [sp, #44]                   @ 4-byte Spill
	ldr	r3, [sp, #172]
	ldr	r0, [sp, #176]
	ldr	r4, [sp, #240]
	strb	r1, [r4, #15]
	strb	r2, [r4, #14]
	strb	r6, [r4, #13]
	strb	r0, [r4, #12]
	strb	r7, [r4, #11]
	ldr	r0, [sp, #48]                   @ 4-byte Reload
	strb	r0, [r4, #10]
	ldr	r0, [sp, #52]                   @ 4-byte Reload
	strb	r0, [r4, #9]
	strb	r3, [r4, #8]
	ldr	r0, [sp, #60]                   @ 4-byte Reload
	strb	r0, [r4, #7]
	ldr	r0, [sp, #64]                   @ 4-byte Reload
	strb	r0, [r4, #6]
	ldr	r0, [sp, #68]                   @ 4-byte Reload
	strb	r0, [r4, #5]
	ldr	r0, [sp, #44]                   @ 4-byte Reload
	strb	r0, [r4, #4]
	ldr	r0, [sp, #72]                   @ 4-byte Reload
	strb	r0, [r4, #3]
	ldr	r0, [sp, #76]                   @ 4-byte Reload
	strb	r0, [r4, #2]
	ldr	r0, [sp, #80]                   @ 4-byte Reload
	strb	r0, [r4, #1]
	ldr	r0, [sp, #56]                   @ 4-byte Reload
	strb	r0, [r4]
	ldr	r6, [sp, #100]                  @ 4-byte Reload
	ldrb	r0, [r6, #15]
	str	r0, [sp, #80]                   @ 4-byte Spill
	ldrb	r0, [r6, #14]
	str	r0, [sp, #76]                   @ 4-byte Spill
	ldrb	r0, [r6, #12]
	str	r0, [sp, #72]                   @ 4-byte Spill
	ldrb	r0, [r6, #13]
	str	r0, [sp, #68]                   @ 4-byte Spill
	ldrb	r0, [r6, #11]
	str	r0, [sp, #64]                   @ 4-byte Spill
	ldrb	r0, [r6, #10]
	str	r0, [sp, #60]                   @ 4-byte Spill
	ldrb	r0, [r6, #8]
	str	r0, [sp, #56]                   @ 4-byte Spill
	ldrb	r0, [r6, #9]
	str	r0, [sp, #52]                   @ 4-byte Spill
	ldrb	r3, [r6, #3]
	ldrb	r2, [r6, #2]
	ldrb	r1, [r6]
	ldrb	r0, [r6, #1]
	ldr	r7, [sp, #112]                  @ 4-byte Reload
	str	r7, [sp, #8]
	str	r5, [sp, #12]
	str	r4, [sp]
	lsls	r0, r0, #8
	adds	r0, r0, r1
	lsls	r1, r2, #16
	lsls	r2, r3, #24
	adds	r1, r2, r1
	adds	r0, r1, r0
	ldr	r1, [sp, #52]                   @ 4-byte Reload
	lsls	r1, r1, #8
	ldr	r2, [sp, #56]                   @ 4-byte Reload
	adds	r1, r1, r2
	ldr	r2, [sp, #60]                   @ 4-byte Reload
	lsls	r2, r2, #16
	ldr	r3, [sp, #64]                   @ 4-byte Reload
	lsls	r3, r3, #24
	adds	r2, r3, r2
	adds	r2, r2, r1
	ldr	r1, [sp, #68]                   @ 4-byte Reload
	lsls	r1, r1, #8
	ldr	r3, [sp, #72]                   @ 4-byte Reload
	adds	r1, r1, r3
	ldr	r3, [sp, #76]                   @ 4-byte Reload
	lsls	r3, r3, #16
	ldr	r5, [sp, #80]                   @ 4-byte Reload
	lsls	r5, r5, #24
	adds	r3, r5, r3
	adds	r3, r3, r1
	bl	aes_v6m_small.aes_narrow.blocks.process_all_batches.1
	bl	aes_v6m_small.aes_cipher.zeroize.stack.wipe_stack.1024
	ldr	r0, [sp, #84]                   @ 4-byte Reload
	cmp	r0, #0
	ldr	r2, [sp, #224]
	beq	.Laes_v6m_small_BB75_17
@ %bb.6:                                @ %join.3.i
	str	r2, [sp, #84]                   @ 4-byte Spill
	movs	r5, #0
	str	r5, [sp, #176]
	str	r5, [sp, #172]
	str	r5, [sp, #168]
	str	r5, [sp, #164]
	ldr	r6, [sp, #104]                  @ 4-byte Reload
	lsrs	r0, r6, #8
	ldr	r3, [sp, #108]                  @ 4-byte Reload
	lsls	r1, r3, #24
	adds	r2, r0, r1
	rev	r1, r6
	lsrs	r0, r1, #16
	lsrs	r3, r3, #8
	movs	r6, #254
	subs	r2, r6, r2
	mov	r2, r5
	sbcs	r2, r3
	blo	.Laes_v6m_small_BB75_9
@ %bb.7:                                @ %then.1.i.i
	add	r2, sp, #148
	adds	r2, r2, #6
	movs	r3, #0
	add	r6, sp, #164
	subs	r2, r6, r2
	mov	r6, r3
	sbcs	r6, r3
	ldr	r7, [sp, #112]                  @ 4-byte Reload
	subs	r2, r7, r2
	sbcs	r3, r6
	blo	.Laes_v6m_small_BB75_10
@ %bb.8:                                @ %join.7.i.i.i.i.i.i.preheader.i.i
	lsrs	r1, r1, #24
	add	r2, sp, #164
	strb	r1, [r2, #1]
	strb	r0, [r2]
	b	.Laes_v6m_small_BB75_11
.Laes_v6m_small_BB75_9:                               @ %join.3.i.i
	add	r2, sp, #164
	ldr	r3, .Laes_v6m_small_CPI75_0
	strh	r3, [r2]
	strh	r1, [r2, #2]
	strh	r0, [r2, #4]
	movs	r0, #6
	b	.Laes_v6m_small_BB75_12
.Laes_v6m_small_BB75_10:                              @ %apart.2.i.i.i.i.i.i.i.i
	add	r1, sp, #164
	strh	r0, [r1]
.Laes_v6m_small_BB75_11:                              @ %"ccm::formatting::put_length.exit.i"
	movs	r0, #2
.Laes_v6m_small_BB75_12:                              @ %"ccm::formatting::put_length.exit.i"
	movs	r6, #16
	subs	r7, r6, r0
	ldr	r1, [sp, #104]                  @ 4-byte Reload
	subs	r1, r7, r1
	mov	r1, r5
	ldr	r2, [sp, #108]                  @ 4-byte Reload
	sbcs	r1, r2
	blo	.Laes_v6m_small_BB75_14
@ %bb.13:                               @ %"ccm::formatting::put_length.exit.i"
	ldr	r7, [sp, #104]                  @ 4-byte Reload
.Laes_v6m_small_BB75_14:                              @ %"ccm::formatting::put_length.exit.i"
	ldr	r1, [sp, #208]
	mov	r2, r5
	blo	.Laes_v6m_small_BB75_16
@ %bb.15:                               @ %"ccm::formatting::put_length.exit.i"
	ldr	r2, [sp, #108]                  @ 4-byte Reload
.Laes_v6m_small_BB75_16:                              @ %"ccm::formatting::put_length.exit.i"
	str	r2, [sp, #76]                   @ 4-byte Spill
	add	r2, sp, #164
	str	r2, [sp, #72]                   @ 4-byte Spill
	adds	r0, r2, r0
	str	r1, [sp, #80]                   @ 4-byte Spill
	mov	r2, r7
	bl	memcpy
	str	r6, [sp]
	str	r5, [sp, #4]
	ldr	r6, [sp, #100]                  @ 4-byte Reload
	mov	r0, r6
	mov	r1, r4
	ldr	r2, [sp, #72]                   @ 4-byte Reload
	bl	aes_v6m_small.cmac.chaining.chain
	ldr	r0, [sp, #104]                  @ 4-byte Reload
	subs	r0, r0, r7
	ldr	r1, [sp, #108]                  @ 4-byte Reload
	ldr	r2, [sp, #76]                   @ 4-byte Reload
	sbcs	r1, r2
	str	r0, [sp]
	str	r1, [sp, #4]
	ldr	r0, [sp, #80]                   @ 4-byte Reload
	adds	r2, r0, r7
	mov	r0, r6
	mov	r1, r4
	bl	aes_v6m_small.cmac.chaining.chain
	ldr	r2, [sp, #84]                   @ 4-byte Reload
.Laes_v6m_small_BB75_17:                              @ %"ccm::message::chain_additional::<#4f733d09d7f6c6b4>.exit"
	ldr	r0, [sp, #92]                   @ 4-byte Reload
	str	r0, [sp]
	ldr	r0, [sp, #88]                   @ 4-byte Reload
	str	r0, [sp, #4]
	mov	r0, r6
	mov	r1, r4
	bl	aes_v6m_small.cmac.chaining.chain
	add	r7, sp, #164
	movs	r0, #0
	str	r0, [sp, #108]                  @ 4-byte Spill
	strb	r0, [r7, #14]
	strh	r0, [r7, #12]
	str	r0, [sp, #172]
	str	r0, [sp, #168]
	str	r0, [sp, #164]
	mov	r0, r7
	ldr	r1, [sp, #96]                   @ 4-byte Reload
	ldr	r5, [sp, #116]                  @ 4-byte Reload
	mov	r2, r5
	bl	memcpy
	movs	r0, #14
	subs	r0, r0, r5
	add	r5, sp, #120
	strb	r0, [r5]
	ldrb	r0, [r7, #14]
	strb	r0, [r5, #15]
	ldrb	r0, [r7, #13]
	strb	r0, [r5, #14]
	ldr	r0, [sp, #176]
	strb	r0, [r5, #13]
	ldrb	r0, [r7, #11]
	strb	r0, [r5, #12]
	ldrb	r0, [r7, #10]
	strb	r0, [r5, #11]
	ldrb	r0, [r7, #9]
	strb	r0, [r5, #10]
	ldr	r0, [sp, #172]
	strb	r0, [r5, #9]
	ldrb	r0, [r7, #7]
	strb	r0, [r5, #8]
	ldrb	r0, [r7, #6]
	strb	r0, [r5, #7]
	ldrb	r0, [r7, #5]
	strb	r0, [r5, #6]
	ldr	r0, [sp, #168]
	strb	r0, [r5, #5]
	ldrb	r0, [r7, #3]
	strb	r0, [r5, #4]
	ldrb	r0, [r7, #2]
	strb	r0, [r5, #3]
	ldrb	r0, [r7, #1]
	strb	r0, [r5, #2]
	ldr	r0, [sp, #164]
	strb	r0, [r5, #1]
	ldrb	r0, [r6, #15]
	str	r0, [sp, #116]                  @ 4-byte Spill
	ldrb	r0, [r6, #14]
	str	r0, [sp, #104]                  @ 4-byte Spill
	ldrb	r0, [r6, #12]
	str	r0, [sp, #100]                  @ 4-byte Spill
	ldrb	r0, [r6, #13]
	str	r0, [sp, #96]                   @ 4-byte Spill
	ldrb	r0, [r6, #11]
	str	r0, [sp, #92]                   @ 4-byte Spill
	ldrb	r0, [r6, #10]
	str	r0, [sp, #88]                   @ 4-byte Spill
	ldrb	r0, [r6, #8]
	str	r0, [sp, #84]                   @ 4-byte Spill
	ldrb	r7, [r6, #9]
	ldrb	r3, [r6, #3]
	ldrb	r2, [r6, #2]
	ldrb	r1, [r6]
	ldrb	r0, [r6, #1]
	ldr	r6, [sp, #112]                  @ 4-byte Reload
	str	r6, [sp, #8]
	ldr	r6, [sp, #108]                  @ 4-byte Reload
	str	r6, [sp, #12]
	str	r5, [sp]
	lsls	r0, r0, #8
	adds	r0, r0, r1
	lsls	r1, r2, #16
	lsls	r2, r3, #24
	adds	r1, r2, r1
	adds	r0, r1, r0
	lsls	r1, r7, #8
	ldr	r2, [sp, #84]                   @ 4-byte Reload
	adds	r1, r1, r2
	ldr	r2, [sp, #88]                   @ 4-byte Reload
	lsls	r2, r2, #16
	ldr	r3, [sp, #92]                   @ 4-byte Reload
	lsls	r3, r3, #24
	adds	r2, r3, r2
	adds	r2, r2, r1
	ldr	r1, [sp, #96]                   @ 4-byte Reload
	lsls	r1, r1, #8
	ldr	r3, [sp, #100]                  @ 4-byte Reload
	adds	r1, r1, r3
	ldr	r3, [sp, #104]                  @ 4-byte Reload
	lsls	r3, r3, #16
	ldr	r6, [sp, #116]                  @ 4-byte Reload
	lsls	r6, r6, #24
	adds	r3, r6, r3
	adds	r3, r3, r1
	bl	aes_v6m_small.aes_narrow.blocks.process_all_batches.1
	bl	aes_v6m_small.aes_cipher.zeroize.stack.wipe_stack.1024
	ldrb	r0, [r4, #15]
	ldrb	r1, [r5, #15]
	eors	r1, r0
	str	r1, [sp, #44]                   @ 4-byte Spill
	ldrb	r0, [r4]
	str	r0, [sp, #116]                  @ 4-byte Spill
	ldrb	r0, [r5, #1]
	str	r0, [sp, #112]                  @ 4-byte Spill
	ldrb	r0, [r4, #1]
	str	r0, [sp, #108]                  @ 4-byte Spill
	ldrb	r0, [r5, #2]
	str	r0, [sp, #104]                  @ 4-byte Spill
	ldrb	r0, [r4, #2]
	str	r0, [sp, #100]                  @ 4-byte Spill
	ldrb	r0, [r5, #3]
	str	r0, [sp, #96]                   @ 4-byte Spill
	ldrb	r0, [r4, #3]
	str	r0, [sp, #92]                   @ 4-byte Spill
	ldrb	r0, [r4, #4]
	str	r0, [sp, #88]                   @ 4-byte Spill
	ldrb	r0, [r5, #5]
	str	r0, [sp, #84]                   @ 4-byte Spill
	ldrb	r0, [r4, #5]
	str	r0, [sp, #80]                   @ 4-byte Spill
	ldrb	r0, [r5, #6]
	str	r0, [sp, #72]                   @ 4-byte Spill
	ldrb	r0, [r4, #6]
	str	r0, [sp, #68]                   @ 4-byte Spill
	ldrb	r0, [r5, #7]
	str	r0, [sp, #64]                   @ 4-byte Spill
	ldrb	r0, [r4, #7]
	str	r0, [sp, #60]                   @ 4-byte Spill
	ldrb	r0, [r4, #8]
	str	r0, [sp, #56]                   @ 4-byte Spill
	ldrb	r0, [r5, #9]
	str	r0, [sp, #48]                   @ 4-byte Spill
	ldrb	r0, [r4, #9]
	str	r0, [sp, #40]                   @ 4-byte Spill
	ldrb	r0, [r5, #10]
	str	r0, [sp, #36]                   @ 4-byte Spill
	ldrb	r6, [r4, #10]
	ldrb	r0, [r5, #11]
	str	r0, [sp, #32]                   @ 4-byte Spill
	ldrb	r3, [r4, #11]
	ldrb	r0, [r4, #12]
	str	r0, [sp, #28]                   @ 4-byte Spill
	ldrb	r0, [r5, #13]
	str	r0, [sp, #24]                   @ 4-byte Spill
	ldrb	r2, [r4, #13]
	ldrb	r0, [r5, #14]
	str	r0, [sp, #20]                   @ 4-byte Spill
	ldrb	r0, [r4, #14]
	ldr	r1, [sp, #120]
	str	r1, [sp, #76]                   @ 4-byte Spill
	ldr	r1, [sp, #124]
	str	r1, [sp, #52]                   @ 4-byte Spill
	ldr	r5, [sp, #128]
	ldr	r1, [sp, #132]
	ldr	r7, [sp, #44]                   @ 4-byte Reload
	strb	r7, [r4, #15]
	ldr	r7, [sp, #20]                   @ 4-byte Reload
	eors	r0, r7
	strb	r0, [r4, #14]
	ldr	r0, [sp, #24]                   @ 4-byte Reload
	eors	r2, r0
	strb	r2, [r4, #13]
	ldr	r0, [sp, #28]                   @ 4-byte Reload
	eors	r1, r0
	strb	r1, [r4, #12]
	ldr	r0, [sp, #32]                   @ 4-byte Reload
	eors	r3, r0
	strb	r3, [r4, #11]
	ldr	r0, [sp, #36]                   @ 4-byte Reload
	eors	r6, r0
	strb	r6, [r4, #10]
	ldr	r0, [sp, #48]                   @ 4-byte Reload
	ldr	r1, [sp, #40]                   @ 4-byte Reload
	eors	r1, r0
	strb	r1, [r4, #9]
	ldr	r0, [sp, #56]                   @ 4-byte Reload
	eors	r5, r0
	strb	r5, [r4, #8]
	ldr	r0, [sp, #64]                   @ 4-byte Reload
	ldr	r1, [sp, #60]                   @ 4-byte Reload
	eors	r1, r0
	strb	r1, [r4, #7]
	ldr	r0, [sp, #72]                   @ 4-byte Reload
	ldr	r1, [sp, #68]                   @ 4-byte Reload
	eors	r1, r0
	strb	r1, [r4, #6]
	ldr	r0, [sp, #84]                   @ 4-byte Reload
	ldr	r1, [sp, #80]                   @ 4-byte Reload
	eors	r1, r0
	strb	r1, [r4, #5]
	ldr	r0, [sp, #88]                   @ 4-byte Reload
	ldr	r1, [sp, #52]                   @ 4-byte Reload
	eors	r1, r0
	strb	r1, [r4, #4]
	ldr	r0, [sp, #96]                   @ 4-byte Reload
	ldr	r1, [sp, #92]                   @ 4-byte Reload
	eors	r1, r0
	strb	r1, [r4, #3]
	ldr	r0, [sp, #104]                  @ 4-byte Reload
	ldr	r1, [sp, #100]                  @ 4-byte Reload
	eors	r1, r0
	strb	r1, [r4, #2]
	ldr	r0, [sp, #112]                  @ 4-byte Reload
	ldr	r1, [sp, #108]                  @ 4-byte Reload
	eors	r1, r0
	strb	r1, [r4, #1]
	ldr	r0, [sp, #116]                  @ 4-byte Reload
	ldr	r1, [sp, #76]                   @ 4-byte Reload
	eors	r1, r0
	strb	r1, [r4]
	add	sp, #180
	pop	{r4, r5, r6, r7, pc}
	.p2align	2
@ %bb.18:
.Laes_v6m_small_CPI75_0:
	.long	65279                           @ 0xfeff
.Laes_v6m_small_func_end75:
	.size	aes_v6m_small.ccm.message.put_tag, .Laes_v6m_small_func_end75-aes_v6m_small.ccm.message.put_tag
	.cantunwind
	.fnend
                                        @ -- End function
	.section	.text.aes_v6m_small.ccm.mode.encrypt,"ax",%progbits
	.p2align	1                               @ -- Begin function ccm::mode::encrypt::<#4f733d09d7f6c6b4>
	.type	aes_v6m_small.ccm.mode.encrypt,%function
	.code	16
	.thumb_func
aes_v6m_small.ccm.mode.encrypt: @ @aes_v6m_small.ccm.mode.encrypt
	.fnstart
@ %bb.0:                                @ %start
	.save	{r4, r5, r6, r7, lr}
	push	{r4, r5, r6, r7, lr}
	.pad	#172
	sub	sp, #172
	str	r1, [sp, #80]                   @ 4-byte Spill
	str	r0, [sp, #84]                   @ 4-byte Spill
	movs	r4, #0
	ldr	r6, [sp, #236]
	ldr	r7, [sp, #232]
	subs	r5, r7, #4
	str	r6, [sp, #76]                   @ 4-byte Spill
	sbcs	r6, r4
	movs	r0, #1
	movs	r1, #12
	subs	r1, r1, r5
	mov	r1, r4
	sbcs	r1, r6
	bhs	.Laes_v6m_small_BB76_1
	b	.Laes_v6m_small_BB76_12
.Laes_v6m_small_BB76_1:                               @ %start
	mov	r1, r7
	ands	r1, r0
	beq	.Laes_v6m_small_BB76_2
	b	.Laes_v6m_small_BB76_12
.Laes_v6m_small_BB76_2:                               @ %after.1.i
	mov	r1, r2
	subs	r1, #14
	mov	r5, r3
	sbcs	r5, r4
	adds	r1, r1, #7
	adcs	r5, r4
	bhs	.Laes_v6m_small_BB76_4
@ %bb.3:
	movs	r4, #1
	b	.Laes_v6m_small_BB76_12
.Laes_v6m_small_BB76_4:                               @ %after.15.i
	ldr	r6, [sp, #220]
	ldr	r1, [sp, #216]
	movs	r0, #7
	eors	r0, r2
	orrs	r0, r3
	movs	r4, #0
	cmp	r0, #0
	mov	r0, r4
	beq	.Laes_v6m_small_BB76_8
@ %bb.5:                                @ %"ccm::formatting::check.exit"
	str	r3, [sp, #72]                   @ 4-byte Spill
	str	r2, [sp, #68]                   @ 4-byte Spill
	lsls	r0, r2, #3
	movs	r2, #120
	eors	r2, r0
	mov	r0, r1
	mov	r5, r1
	mov	r1, r6
	bl	__aeabi_llsr
	orrs	r1, r0
	subs	r2, r1, #1
	mov	r0, r1
	sbcs	r0, r2
	cmp	r1, #0
	beq	.Laes_v6m_small_BB76_7
@ %bb.6:
	movs	r4, #2
	b	.Laes_v6m_small_BB76_12
.Laes_v6m_small_BB76_7:
	ldr	r2, [sp, #68]                   @ 4-byte Reload
	ldr	r3, [sp, #72]                   @ 4-byte Reload
	mov	r1, r5
.Laes_v6m_small_BB76_8:                               @ %arm.1
	str	r0, [sp, #72]                   @ 4-byte Spill
	ldr	r0, [sp, #204]
	str	r0, [sp, #68]                   @ 4-byte Spill
	str	r1, [sp, #64]                   @ 4-byte Spill
	ldr	r0, [sp, #200]
	str	r0, [sp, #48]                   @ 4-byte Spill
	ldr	r0, [sp, #224]
	str	r0, [sp, #60]                   @ 4-byte Spill
	mov	r0, r6
	str	r6, [sp, #56]                   @ 4-byte Spill
	ldr	r5, [sp, #208]
	ldr	r6, [sp, #192]
	str	r6, [sp, #52]                   @ 4-byte Spill
	add	r6, sp, #88
	str	r1, [sp, #32]
	str	r0, [sp, #36]
	str	r6, [sp, #40]
	ldr	r0, [sp, #48]                   @ 4-byte Reload
	str	r0, [sp, #16]
	ldr	r0, [sp, #68]                   @ 4-byte Reload
	str	r0, [sp, #20]
	str	r5, [sp, #68]                   @ 4-byte Spill
	str	r5, [sp, #24]
	str	r7, [sp]
	ldr	r0, [sp, #76]                   @ 4-byte Reload
	str	r0, [sp, #4]
	ldr	r0, [sp, #52]                   @ 4-byte Reload
	str	r0, [sp, #8]
	ldr	r0, [sp, #84]                   @ 4-byte Reload
	ldr	r1, [sp, #80]                   @ 4-byte Reload
	mov	r5, r2
	bl	aes_v6m_small.ccm.message.put_tag
	ldr	r0, [sp, #60]                   @ 4-byte Reload
	mov	r1, r6
	mov	r2, r7
	bl	memcpy
	add	r6, sp, #104
	strb	r4, [r6, #14]
	strh	r4, [r6, #12]
	str	r4, [sp, #112]
	str	r4, [sp, #108]
	str	r4, [sp, #104]
	mov	r0, r6
	ldr	r1, [sp, #80]                   @ 4-byte Reload
	mov	r2, r5
	bl	memcpy
	movs	r0, #14
	subs	r0, r0, r5
	add	r1, sp, #120
	strb	r0, [r1]
	adds	r0, r1, #1
	movs	r2, #15
	mov	r1, r6
	ldr	r5, [sp, #56]                   @ 4-byte Reload
	bl	memcpy
	str	r4, [sp, #140]
	str	r4, [sp, #136]
	movs	r0, #16
	ldr	r2, [sp, #64]                   @ 4-byte Reload
	subs	r1, r0, r2
	mov	r1, r4
	sbcs	r1, r5
	mov	r1, r2
	bhs	.Laes_v6m_small_BB76_10
@ %bb.9:                                @ %else.2.i.i.i
	str	r1, [sp, #160]
	movs	r1, #0
	str	r1, [sp, #148]
	str	r0, [sp, #144]
	str	r1, [sp, #156]
	ldr	r0, [sp, #68]                   @ 4-byte Reload
	str	r0, [sp, #152]
	add	r0, sp, #120
	str	r0, [sp, #136]
	str	r5, [sp, #164]
	ldr	r0, [sp, #84]                   @ 4-byte Reload
	ldrb	r1, [r0, #15]
	str	r1, [sp, #80]                   @ 4-byte Spill
	ldrb	r1, [r0, #14]
	str	r1, [sp, #76]                   @ 4-byte Spill
	ldrb	r1, [r0, #12]
	str	r1, [sp, #68]                   @ 4-byte Spill
	ldrb	r1, [r0, #13]
	str	r1, [sp, #64]                   @ 4-byte Spill
	ldrb	r1, [r0, #11]
	str	r1, [sp, #60]                   @ 4-byte Spill
	ldrb	r1, [r0, #10]
	str	r1, [sp, #56]                   @ 4-byte Spill
	ldrb	r6, [r0, #8]
	ldrb	r5, [r0, #9]
	ldrb	r3, [r0, #3]
	ldrb	r2, [r0, #2]
	ldrb	r1, [r0]
	ldrb	r0, [r0, #1]
	add	r7, sp, #136
	str	r7, [sp]
	lsls	r0, r0, #8
	adds	r0, r0, r1
	lsls	r1, r2, #16
	lsls	r2, r3, #24
	adds	r1, r2, r1
	adds	r0, r1, r0
	lsls	r1, r5, #8
	adds	r1, r1, r6
	ldr	r2, [sp, #56]                   @ 4-byte Reload
	lsls	r2, r2, #16
	ldr	r3, [sp, #60]                   @ 4-byte Reload
	lsls	r3, r3, #24
	adds	r2, r3, r2
	adds	r2, r2, r1
	ldr	r1, [sp, #64]                   @ 4-byte Reload
	lsls	r1, r1, #8
	ldr	r3, [sp, #68]                   @ 4-byte Reload
	adds	r1, r1, r3
	ldr	r3, [sp, #76]                   @ 4-byte Reload
	lsls	r3, r3, #16
	ldr	r5, [sp, #80]                   @ 4-byte Reload
	lsls	r5, r5, #24
	adds	r3, r5, r3
	adds	r3, r3, r1
	bl	aes_v6m_small.aes_narrow.borrowed_words.call_to_encrypt
	bl	aes_v6m_small.aes_cipher.zeroize.stack.wipe_stack.2032
	b	.Laes_v6m_small_BB76_11
.Laes_v6m_small_BB76_10:                              @ %then.1.i.i.i
	ldr	r0, [sp, #68]                   @ 4-byte Reload
	str	r0, [sp]
	str	r1, [sp, #8]
	str	r5, [sp, #12]
	add	r1, sp, #120
	movs	r2, #16
	movs	r3, #0
	ldr	r0, [sp, #84]                   @ 4-byte Reload
	bl	aes_v6m_small.aes_ctr.add_in_batches.add_to_one
.Laes_v6m_small_BB76_11:                              @ %"ccm::message::process_text::<#4f733d09d7f6c6b4>.exit"
	ldr	r0, [sp, #72]                   @ 4-byte Reload
.Laes_v6m_small_BB76_12:                              @ %return.5
	mov	r1, r4
	add	sp, #172
	pop	{r4, r5, r6, r7, pc}
.Laes_v6m_small_func_end76:
	.size	aes_v6m_small.ccm.mode.encrypt, .Laes_v6m_small_func_end76-aes_v6m_small.ccm.mode.encrypt
	.cantunwind
	.fnend
                                        @ -- End function
	.section	.text.aes_v6m_small.fotsgure_aes_version,"ax",%progbits
	export_aes_v6m_small	fotsgure_aes_version
	.p2align	1
	.type	aes_v6m_small.fotsgure_aes_version,%function
	.code	16
	.thumb_func
aes_v6m_small.fotsgure_aes_version:                   @ @aes_v6m_small.fotsgure_aes_version
	.fnstart
@ %bb.0:
	movs	r0, #25
	lsls	r0, r0, #4
	b	.Laes_v6m_small_return_14914
.Laes_v6m_small_return_14914:
	movs	r1, #0
	movs	r2, #0
	movs	r3, #0
	mov	r12, r1
	bx	lr
.Laes_v6m_small_func_end77:
	.size	aes_v6m_small.fotsgure_aes_version, .Laes_v6m_small_func_end77-aes_v6m_small.fotsgure_aes_version
	.cantunwind
	.fnend
                                        @ -- End function
	.section	.text.aes_v6m_small.fotsgure_aes_set_key,"ax",%progbits
	export_aes_v6m_small	fotsgure_aes_set_key
	.p2align	1
	.type	aes_v6m_small.fotsgure_aes_set_key,%function
	.code	16
	.thumb_func
aes_v6m_small.fotsgure_aes_set_key:                   @ @aes_v6m_small.fotsgure_aes_set_key
	.fnstart
@ %bb.0:
	.save	{r4, r5, r6, r7, lr}
	push	{r4, r5, r6, r7, lr}
	.pad	#4
	sub	sp, #4
	mov	r4, r2
	cmp	r2, #32
	beq	.Laes_v6m_small_BB78_3
@ %bb.1:
	movs	r2, #8
	mov	r3, r4
	bics	r3, r2
	cmp	r3, #16
	beq	.Laes_v6m_small_BB78_3
@ %bb.2:                                @ %then.1.i.i
	movs	r1, #121
	lsls	r2, r1, #2
	movs	r1, #0
	bl	memset
	movs	r5, #1
	b	.Laes_v6m_small_BB78_6
.Laes_v6m_small_BB78_3:                               @ %join.3.i.i
	str	r0, [sp]                        @ 4-byte Spill
	adds	r6, r0, #4
	movs	r0, #15
	lsls	r2, r0, #5
	movs	r5, #0
	mov	r0, r6
	mov	r7, r1
	mov	r1, r5
	bl	memset
	cmp	r7, #0
	bne	.Laes_v6m_small_BB78_5
@ %bb.4:
	movs	r0, #1
	lsls	r0, r0, #12
	adds	r7, r7, r0
.Laes_v6m_small_BB78_5:                               @ %join.3.i.i
	mov	r0, r6
	mov	r1, r7
	mov	r2, r4
	mov	r3, r5
	bl	aes_v6m_small.aes_narrow.word_room.expand_words
	bl	aes_v6m_small.aes_cipher.zeroize.stack.wipe_stack.768
	ldr	r0, [sp]                        @ 4-byte Reload
	str	r4, [r0]
.Laes_v6m_small_BB78_6:                               @ %wide_fotsgure_aes_set_key.exit
	mov	r0, r5
	add	sp, #4
	b	.Laes_v6m_small_return_14983
.Laes_v6m_small_return_14983:
	movs	r1, #0
	movs	r2, #0
	movs	r3, #0
	mov	r12, r1
	mov	lr, r1
	pop	{r4, r5, r6, r7, pc}
.Laes_v6m_small_func_end78:
	.size	aes_v6m_small.fotsgure_aes_set_key, .Laes_v6m_small_func_end78-aes_v6m_small.fotsgure_aes_set_key
	.cantunwind
	.fnend
                                        @ -- End function
	.section	.text.aes_v6m_small.fotsgure_aes_key_length,"ax",%progbits
	export_aes_v6m_small	fotsgure_aes_key_length
	.p2align	1
	.type	aes_v6m_small.fotsgure_aes_key_length,%function
	.code	16
	.thumb_func
aes_v6m_small.fotsgure_aes_key_length:                @ @aes_v6m_small.fotsgure_aes_key_length
	.fnstart
@ %bb.0:
	ldr	r0, [r0]
	movs	r1, #8
	mov	r2, r0
	bics	r2, r1
	cmp	r2, #16
	mov	r1, r0
	bne	.Laes_v6m_small_BB79_3
@ %bb.1:
	cmp	r0, #32
	bne	.Laes_v6m_small_BB79_4
.Laes_v6m_small_BB79_2:
	b	.Laes_v6m_small_return_15016
.Laes_v6m_small_BB79_3:
	movs	r1, #0
	cmp	r0, #32
	beq	.Laes_v6m_small_BB79_2
.Laes_v6m_small_BB79_4:
	mov	r0, r1
	b	.Laes_v6m_small_return_15016
.Laes_v6m_small_return_15016:
	movs	r1, #0
	movs	r2, #0
	movs	r3, #0
	mov	r12, r1
	bx	lr
.Laes_v6m_small_func_end79:
	.size	aes_v6m_small.fotsgure_aes_key_length, .Laes_v6m_small_func_end79-aes_v6m_small.fotsgure_aes_key_length
	.cantunwind
	.fnend
                                        @ -- End function
	.section	.text.aes_v6m_small.fotsgure_aes_wipe,"ax",%progbits
	export_aes_v6m_small	fotsgure_aes_wipe
	.p2align	1
	.type	aes_v6m_small.fotsgure_aes_wipe,%function
	.code	16
	.thumb_func
aes_v6m_small.fotsgure_aes_wipe:                      @ @aes_v6m_small.fotsgure_aes_wipe
	.fnstart
@ %bb.0:
	.save	{r4, lr}
	push	{r4, lr}
	mov	r4, r0
	movs	r0, #121
	lsls	r2, r0, #2
	movs	r1, #0
	mov	r0, r4
	bl	memset
	adds	r0, r4, #4
	bl	aes_v6m_small.aes_cipher.zeroize.elements.zeroize_elements.1
	b	.Laes_v6m_small_return_15054
.Laes_v6m_small_return_15054:
	movs	r1, #0
	movs	r2, #0
	movs	r3, #0
	mov	r12, r1
	mov	lr, r1
	pop	{r4, pc}
.Laes_v6m_small_func_end80:
	.size	aes_v6m_small.fotsgure_aes_wipe, .Laes_v6m_small_func_end80-aes_v6m_small.fotsgure_aes_wipe
	.cantunwind
	.fnend
                                        @ -- End function
	.section	.text.aes_v6m_small.fotsgure_aes_encrypt_blocks,"ax",%progbits
	export_aes_v6m_small	fotsgure_aes_encrypt_blocks
	.p2align	1
	.type	aes_v6m_small.fotsgure_aes_encrypt_blocks,%function
	.code	16
	.thumb_func
aes_v6m_small.fotsgure_aes_encrypt_blocks:            @ @aes_v6m_small.fotsgure_aes_encrypt_blocks
	.fnstart
@ %bb.0:
	.save	{r4, r5, r7, lr}
	push	{r4, r5, r7, lr}
	.pad	#16
	sub	sp, #16
	ldr	r5, [r0]
	cmp	r5, #32
	beq	.Laes_v6m_small_BB81_3
@ %bb.1:
	movs	r3, #8
	mov	r4, r5
	bics	r4, r3
	cmp	r4, #16
	beq	.Laes_v6m_small_BB81_3
@ %bb.2:
	movs	r4, #2
	b	.Laes_v6m_small_BB81_6
.Laes_v6m_small_BB81_3:                               @ %join.3.i.i
	movs	r4, #0
	str	r2, [sp, #8]
	str	r4, [sp, #12]
	cmp	r1, #0
	bne	.Laes_v6m_small_BB81_5
@ %bb.4:
	movs	r2, #1
	lsls	r2, r2, #12
	adds	r1, r1, r2
.Laes_v6m_small_BB81_5:                               @ %join.3.i.i
	str	r1, [sp]
	lsrs	r3, r5, #31
	lsls	r2, r5, #1
	adds	r2, #56
	adcs	r3, r4
	adds	r0, r0, #4
	bl	aes_v6m_small.aes_narrow.blocks.process_all_batches.1
	bl	aes_v6m_small.aes_cipher.zeroize.stack.wipe_stack.1024
.Laes_v6m_small_BB81_6:                               @ %wide_fotsgure_aes_encrypt_blocks.exit
	mov	r0, r4
	add	sp, #16
	b	.Laes_v6m_small_return_15114
.Laes_v6m_small_return_15114:
	movs	r1, #0
	movs	r2, #0
	movs	r3, #0
	mov	r12, r1
	mov	lr, r1
	pop	{r4, r5, r7, pc}
.Laes_v6m_small_func_end81:
	.size	aes_v6m_small.fotsgure_aes_encrypt_blocks, .Laes_v6m_small_func_end81-aes_v6m_small.fotsgure_aes_encrypt_blocks
	.cantunwind
	.fnend
                                        @ -- End function
	.section	.text.aes_v6m_small.fotsgure_aes_decrypt_blocks,"ax",%progbits
	export_aes_v6m_small	fotsgure_aes_decrypt_blocks
	.p2align	1
	.type	aes_v6m_small.fotsgure_aes_decrypt_blocks,%function
	.code	16
	.thumb_func
aes_v6m_small.fotsgure_aes_decrypt_blocks:            @ @aes_v6m_small.fotsgure_aes_decrypt_blocks
	.fnstart
@ %bb.0:
	.save	{r4, r5, r7, lr}
	push	{r4, r5, r7, lr}
	.pad	#16
	sub	sp, #16
	ldr	r5, [r0]
	cmp	r5, #32
	beq	.Laes_v6m_small_BB82_3
@ %bb.1:
	movs	r3, #8
	mov	r4, r5
	bics	r4, r3
	cmp	r4, #16
	beq	.Laes_v6m_small_BB82_3
@ %bb.2:
	movs	r4, #2
	b	.Laes_v6m_small_BB82_6
.Laes_v6m_small_BB82_3:                               @ %join.3.i.i
	movs	r4, #0
	str	r2, [sp, #8]
	str	r4, [sp, #12]
	cmp	r1, #0
	bne	.Laes_v6m_small_BB82_5
@ %bb.4:
	movs	r2, #1
	lsls	r2, r2, #12
	adds	r1, r1, r2
.Laes_v6m_small_BB82_5:                               @ %join.3.i.i
	str	r1, [sp]
	lsrs	r3, r5, #31
	lsls	r2, r5, #1
	adds	r2, #56
	adcs	r3, r4
	adds	r0, r0, #4
	bl	aes_v6m_small.aes_narrow.blocks.process_all_batches.2
	bl	aes_v6m_small.aes_cipher.zeroize.stack.wipe_stack.1024
.Laes_v6m_small_BB82_6:                               @ %wide_fotsgure_aes_decrypt_blocks.exit
	mov	r0, r4
	add	sp, #16
	b	.Laes_v6m_small_return_15174
.Laes_v6m_small_return_15174:
	movs	r1, #0
	movs	r2, #0
	movs	r3, #0
	mov	r12, r1
	mov	lr, r1
	pop	{r4, r5, r7, pc}
.Laes_v6m_small_func_end82:
	.size	aes_v6m_small.fotsgure_aes_decrypt_blocks, .Laes_v6m_small_func_end82-aes_v6m_small.fotsgure_aes_decrypt_blocks
	.cantunwind
	.fnend
                                        @ -- End function
	.section	.text.aes_v6m_small.fotsgure_aes_encrypt_blocks_to,"ax",%progbits
	export_aes_v6m_small	fotsgure_aes_encrypt_blocks_to
	.p2align	2
	.type	aes_v6m_small.fotsgure_aes_encrypt_blocks_to,%function
	.code	16
	.thumb_func
aes_v6m_small.fotsgure_aes_encrypt_blocks_to:         @ @aes_v6m_small.fotsgure_aes_encrypt_blocks_to
	.fnstart
@ %bb.0:
	.save	{r4, r5, r6, r7, lr}
	push	{r4, r5, r6, r7, lr}
	.pad	#52
	sub	sp, #52
	mov	r7, r2
	movs	r6, #1
	lsls	r2, r6, #12
	cmp	r3, #0
	bne	.Laes_v6m_small_BB83_2
@ %bb.1:
	adds	r3, r3, r2
.Laes_v6m_small_BB83_2:
	cmp	r1, #0
	bne	.Laes_v6m_small_BB83_4
@ %bb.3:
	adds	r1, r1, r2
.Laes_v6m_small_BB83_4:
	ldr	r2, [sp, #72]
	cmp	r7, r2
	bne	.Laes_v6m_small_BB83_12
@ %bb.5:                                @ %join.3.i.i
	ldr	r2, [r0]
	subs	r2, #16
	movs	r5, #2
	cmp	r2, #16
	bls	.Laes_v6m_small_BB83_6
	b	.Laes_v6m_small_BB83_21
.Laes_v6m_small_BB83_6:                               @ %join.3.i.i
	str	r1, [sp, #48]                   @ 4-byte Spill
	mov	r4, r6
	lsls	r4, r2
	ldr	r2, .Laes_v6m_small_CPI83_0
	tst	r4, r2
	beq	.Laes_v6m_small_BB83_21
@ %bb.7:                                @ %join.6.i.i
	str	r0, [sp, #32]                   @ 4-byte Spill
	movs	r4, #0
	ldr	r1, [sp, #48]                   @ 4-byte Reload
	subs	r0, r3, r1
	str	r3, [sp, #44]                   @ 4-byte Spill
	str	r4, [sp, #28]                   @ 4-byte Spill
	sbcs	r4, r4
	lsrs	r5, r7, #28
	lsls	r2, r7, #4
	subs	r3, r0, r2
	sbcs	r4, r5
	bhs	.Laes_v6m_small_BB83_13
@ %bb.8:                                @ %join.7.i.i.i.i.i.i.i.i.preheader
	ldr	r2, [sp, #44]                   @ 4-byte Reload
	cmp	r7, #1
	str	r7, [sp, #40]                   @ 4-byte Spill
	bhi	.Laes_v6m_small_BB83_10
@ %bb.9:                                @ %join.7.i.i.i.i.i.i.i.i.preheader
	str	r6, [sp, #40]                   @ 4-byte Spill
.Laes_v6m_small_BB83_10:                              @ %join.7.i.i.i.i.i.i.i.i.preheader
	movs	r0, #3
	ldr	r1, [sp, #40]                   @ 4-byte Reload
	ands	r1, r0
	cmp	r7, #4
	bhs	.Laes_v6m_small_BB83_15
@ %bb.11:
	movs	r5, #0
	mov	r6, r2
	ldr	r2, [sp, #48]                   @ 4-byte Reload
	b	.Laes_v6m_small_BB83_18
.Laes_v6m_small_BB83_12:
	movs	r5, #3
	b	.Laes_v6m_small_BB83_21
.Laes_v6m_small_BB83_13:                              @ %apart.2.i.i.i.i.i.i.i.i
	ldr	r6, [sp, #44]                   @ 4-byte Reload
	mov	r0, r6
.Laes_v6m_small_BB83_14:                              @ %"core::slice::edits::slice+T::copy_from_slice::<#b9e87c6de6ee7501>.exit.i.i"
	bl	memmove
	b	.Laes_v6m_small_BB83_20
.Laes_v6m_small_BB83_15:                              @ %join.7.i.i.i.i.i.i.i.i.preheader.new
	str	r1, [sp, #20]                   @ 4-byte Spill
	str	r7, [sp, #24]                   @ 4-byte Spill
	ldr	r1, [sp, #40]                   @ 4-byte Reload
	bics	r1, r0
	str	r1, [sp, #40]                   @ 4-byte Spill
	movs	r4, #0
	mov	r5, r4
	str	r4, [sp, #36]                   @ 4-byte Spill
	mov	r6, r2
	ldr	r2, [sp, #48]                   @ 4-byte Reload
.Laes_v6m_small_BB83_16:                              @ %join.7.i.i.i.i.i.i.i.i
                                        @ =>This Inner Loop Header: Depth=1
	lsls	r7, r5, #4
	adds	r0, r6, r7
	adds	r1, r2, r7
	movs	r6, #16
	mov	r2, r6
	bl	memmove
	mov	r1, r7
	orrs	r1, r6
	ldr	r0, [sp, #44]                   @ 4-byte Reload
	adds	r0, r0, r1
	ldr	r2, [sp, #48]                   @ 4-byte Reload
	adds	r1, r2, r1
	mov	r2, r6
	bl	memmove
	movs	r1, #32
	orrs	r1, r7
	ldr	r0, [sp, #44]                   @ 4-byte Reload
	adds	r0, r0, r1
	ldr	r2, [sp, #48]                   @ 4-byte Reload
	adds	r1, r2, r1
	mov	r2, r6
	bl	memmove
	movs	r1, #48
	orrs	r1, r7
	ldr	r0, [sp, #44]                   @ 4-byte Reload
	adds	r0, r0, r1
	ldr	r2, [sp, #48]                   @ 4-byte Reload
	adds	r1, r2, r1
	mov	r2, r6
	ldr	r6, [sp, #44]                   @ 4-byte Reload
	bl	memmove
	ldr	r2, [sp, #48]                   @ 4-byte Reload
	adds	r5, r5, #4
	ldr	r0, [sp, #36]                   @ 4-byte Reload
	adcs	r4, r0
	mov	r0, r5
	ldr	r1, [sp, #40]                   @ 4-byte Reload
	eors	r0, r1
	orrs	r0, r4
	bne	.Laes_v6m_small_BB83_16
@ %bb.17:                               @ %"core::slice::edits::slice+T::copy_from_slice::<#b9e87c6de6ee7501>.exit.i.i.loopexit.unr-lcssa"
	ldr	r1, [sp, #20]                   @ 4-byte Reload
	cmp	r1, #0
	ldr	r7, [sp, #24]                   @ 4-byte Reload
	beq	.Laes_v6m_small_BB83_20
.Laes_v6m_small_BB83_18:                              @ %join.7.i.i.i.i.i.i.i.i.epil.preheader
	lsls	r4, r5, #4
	adds	r0, r6, r4
	mov	r5, r1
	adds	r1, r2, r4
	movs	r2, #16
	bl	memmove
	ldr	r2, [sp, #48]                   @ 4-byte Reload
	cmp	r5, #1
	beq	.Laes_v6m_small_BB83_20
@ %bb.19:                               @ %join.7.i.i.i.i.i.i.i.i.epil.1
	mov	r1, r4
	adds	r1, #16
	adds	r0, r6, r1
	adds	r1, r2, r1
	movs	r2, #16
	bl	memmove
	ldr	r1, [sp, #48]                   @ 4-byte Reload
	cmp	r5, #2
	bne	.Laes_v6m_small_BB83_22
.Laes_v6m_small_BB83_20:                              @ %"core::slice::edits::slice+T::copy_from_slice::<#b9e87c6de6ee7501>.exit.i.i"
	ldr	r0, [sp, #32]                   @ 4-byte Reload
	ldm	r0!, {r1}
	str	r7, [sp, #8]
	ldr	r5, [sp, #28]                   @ 4-byte Reload
	str	r5, [sp, #12]
	str	r6, [sp]
	lsrs	r3, r1, #31
	lsls	r2, r1, #1
	adds	r2, #56
	adcs	r3, r5
	bl	aes_v6m_small.aes_narrow.blocks.process_all_batches.1
	bl	aes_v6m_small.aes_cipher.zeroize.stack.wipe_stack.1024
.Laes_v6m_small_BB83_21:                              @ %wide_fotsgure_aes_encrypt_blocks_to.exit
	mov	r0, r5
	add	sp, #52
	b	.Laes_v6m_small_return_15364
.Laes_v6m_small_BB83_22:                              @ %join.7.i.i.i.i.i.i.i.i.epil.2
	adds	r4, #32
	adds	r0, r6, r4
	adds	r1, r1, r4
	movs	r2, #16
	b	.Laes_v6m_small_BB83_14
	.p2align	2
@ %bb.23:
.Laes_v6m_small_CPI83_0:
	.long	65793                           @ 0x10101
.Laes_v6m_small_return_15364:
	movs	r1, #0
	movs	r2, #0
	movs	r3, #0
	mov	r12, r1
	mov	lr, r1
	pop	{r4, r5, r6, r7, pc}
.Laes_v6m_small_func_end83:
	.size	aes_v6m_small.fotsgure_aes_encrypt_blocks_to, .Laes_v6m_small_func_end83-aes_v6m_small.fotsgure_aes_encrypt_blocks_to
	.cantunwind
	.fnend
                                        @ -- End function
	.section	.text.aes_v6m_small.fotsgure_aes_decrypt_blocks_to,"ax",%progbits
	export_aes_v6m_small	fotsgure_aes_decrypt_blocks_to
	.p2align	2
	.type	aes_v6m_small.fotsgure_aes_decrypt_blocks_to,%function
	.code	16
	.thumb_func
aes_v6m_small.fotsgure_aes_decrypt_blocks_to:         @ @aes_v6m_small.fotsgure_aes_decrypt_blocks_to
	.fnstart
@ %bb.0:
	.save	{r4, r5, r6, r7, lr}
	push	{r4, r5, r6, r7, lr}
	.pad	#52
	sub	sp, #52
	mov	r7, r2
	movs	r6, #1
	lsls	r2, r6, #12
	cmp	r3, #0
	bne	.Laes_v6m_small_BB84_2
@ %bb.1:
	adds	r3, r3, r2
.Laes_v6m_small_BB84_2:
	cmp	r1, #0
	bne	.Laes_v6m_small_BB84_4
@ %bb.3:
	adds	r1, r1, r2
.Laes_v6m_small_BB84_4:
	ldr	r2, [sp, #72]
	cmp	r7, r2
	bne	.Laes_v6m_small_BB84_12
@ %bb.5:                                @ %join.3.i.i
	ldr	r2, [r0]
	subs	r2, #16
	movs	r5, #2
	cmp	r2, #16
	bls	.Laes_v6m_small_BB84_6
	b	.Laes_v6m_small_BB84_21
.Laes_v6m_small_BB84_6:                               @ %join.3.i.i
	str	r1, [sp, #48]                   @ 4-byte Spill
	mov	r4, r6
	lsls	r4, r2
	ldr	r2, .Laes_v6m_small_CPI84_0
	tst	r4, r2
	beq	.Laes_v6m_small_BB84_21
@ %bb.7:                                @ %join.6.i.i
	str	r0, [sp, #32]                   @ 4-byte Spill
	movs	r4, #0
	ldr	r1, [sp, #48]                   @ 4-byte Reload
	subs	r0, r3, r1
	str	r3, [sp, #44]                   @ 4-byte Spill
	str	r4, [sp, #28]                   @ 4-byte Spill
	sbcs	r4, r4
	lsrs	r5, r7, #28
	lsls	r2, r7, #4
	subs	r3, r0, r2
	sbcs	r4, r5
	bhs	.Laes_v6m_small_BB84_13
@ %bb.8:                                @ %join.7.i.i.i.i.i.i.i.i.preheader
	ldr	r2, [sp, #44]                   @ 4-byte Reload
	cmp	r7, #1
	str	r7, [sp, #40]                   @ 4-byte Spill
	bhi	.Laes_v6m_small_BB84_10
@ %bb.9:                                @ %join.7.i.i.i.i.i.i.i.i.preheader
	str	r6, [sp, #40]                   @ 4-byte Spill
.Laes_v6m_small_BB84_10:                              @ %join.7.i.i.i.i.i.i.i.i.preheader
	movs	r0, #3
	ldr	r1, [sp, #40]                   @ 4-byte Reload
	ands	r1, r0
	cmp	r7, #4
	bhs	.Laes_v6m_small_BB84_15
@ %bb.11:
	movs	r5, #0
	mov	r6, r2
	ldr	r2, [sp, #48]                   @ 4-byte Reload
	b	.Laes_v6m_small_BB84_18
.Laes_v6m_small_BB84_12:
	movs	r5, #3
	b	.Laes_v6m_small_BB84_21
.Laes_v6m_small_BB84_13:                              @ %apart.2.i.i.i.i.i.i.i.i
	ldr	r6, [sp, #44]                   @ 4-byte Reload
	mov	r0, r6
.Laes_v6m_small_BB84_14:                              @ %"core::slice::edits::slice+T::copy_from_slice::<#b9e87c6de6ee7501>.exit.i.i"
	bl	memmove
	b	.Laes_v6m_small_BB84_20
.Laes_v6m_small_BB84_15:                              @ %join.7.i.i.i.i.i.i.i.i.preheader.new
	str	r1, [sp, #20]                   @ 4-byte Spill
	str	r7, [sp, #24]                   @ 4-byte Spill
	ldr	r1, [sp, #40]                   @ 4-byte Reload
	bics	r1, r0
	str	r1, [sp, #40]                   @ 4-byte Spill
	movs	r4, #0
	mov	r5, r4
	str	r4, [sp, #36]                   @ 4-byte Spill
	mov	r6, r2
	ldr	r2, [sp, #48]                   @ 4-byte Reload
.Laes_v6m_small_BB84_16:                              @ %join.7.i.i.i.i.i.i.i.i
                                        @ =>This Inner Loop Header: Depth=1
	lsls	r7, r5, #4
	adds	r0, r6, r7
	adds	r1, r2, r7
	movs	r6, #16
	mov	r2, r6
	bl	memmove
	mov	r1, r7
	orrs	r1, r6
	ldr	r0, [sp, #44]                   @ 4-byte Reload
	adds	r0, r0, r1
	ldr	r2, [sp, #48]                   @ 4-byte Reload
	adds	r1, r2, r1
	mov	r2, r6
	bl	memmove
	movs	r1, #32
	orrs	r1, r7
	ldr	r0, [sp, #44]                   @ 4-byte Reload
	adds	r0, r0, r1
	ldr	r2, [sp, #48]                   @ 4-byte Reload
	adds	r1, r2, r1
	mov	r2, r6
	bl	memmove
	movs	r1, #48
	orrs	r1, r7
	ldr	r0, [sp, #44]                   @ 4-byte Reload
	adds	r0, r0, r1
	ldr	r2, [sp, #48]                   @ 4-byte Reload
	adds	r1, r2, r1
	mov	r2, r6
	ldr	r6, [sp, #44]                   @ 4-byte Reload
	bl	memmove
	ldr	r2, [sp, #48]                   @ 4-byte Reload
	adds	r5, r5, #4
	ldr	r0, [sp, #36]                   @ 4-byte Reload
	adcs	r4, r0
	mov	r0, r5
	ldr	r1, [sp, #40]                   @ 4-byte Reload
	eors	r0, r1
	orrs	r0, r4
	bne	.Laes_v6m_small_BB84_16
@ %bb.17:                               @ %"core::slice::edits::slice+T::copy_from_slice::<#b9e87c6de6ee7501>.exit.i.i.loopexit.unr-lcssa"
	ldr	r1, [sp, #20]                   @ 4-byte Reload
	cmp	r1, #0
	ldr	r7, [sp, #24]                   @ 4-byte Reload
	beq	.Laes_v6m_small_BB84_20
.Laes_v6m_small_BB84_18:                              @ %join.7.i.i.i.i.i.i.i.i.epil.preheader
	lsls	r4, r5, #4
	adds	r0, r6, r4
	mov	r5, r1
	adds	r1, r2, r4
	movs	r2, #16
	bl	memmove
	ldr	r2, [sp, #48]                   @ 4-byte Reload
	cmp	r5, #1
	beq	.Laes_v6m_small_BB84_20
@ %bb.19:                               @ %join.7.i.i.i.i.i.i.i.i.epil.1
	mov	r1, r4
	adds	r1, #16
	adds	r0, r6, r1
	adds	r1, r2, r1
	movs	r2, #16
	bl	memmove
	ldr	r1, [sp, #48]                   @ 4-byte Reload
	cmp	r5, #2
	bne	.Laes_v6m_small_BB84_22
.Laes_v6m_small_BB84_20:                              @ %"core::slice::edits::slice+T::copy_from_slice::<#b9e87c6de6ee7501>.exit.i.i"
	ldr	r0, [sp, #32]                   @ 4-byte Reload
	ldm	r0!, {r1}
	str	r7, [sp, #8]
	ldr	r5, [sp, #28]                   @ 4-byte Reload
	str	r5, [sp, #12]
	str	r6, [sp]
	lsrs	r3, r1, #31
	lsls	r2, r1, #1
	adds	r2, #56
	adcs	r3, r5
	bl	aes_v6m_small.aes_narrow.blocks.process_all_batches.2
	bl	aes_v6m_small.aes_cipher.zeroize.stack.wipe_stack.1024
.Laes_v6m_small_BB84_21:                              @ %wide_fotsgure_aes_decrypt_blocks_to.exit
	mov	r0, r5
	add	sp, #52
	b	.Laes_v6m_small_return_15564
.Laes_v6m_small_BB84_22:                              @ %join.7.i.i.i.i.i.i.i.i.epil.2
	adds	r4, #32
	adds	r0, r6, r4
	adds	r1, r1, r4
	movs	r2, #16
	b	.Laes_v6m_small_BB84_14
	.p2align	2
@ %bb.23:
.Laes_v6m_small_CPI84_0:
	.long	65793                           @ 0x10101
.Laes_v6m_small_return_15564:
	movs	r1, #0
	movs	r2, #0
	movs	r3, #0
	mov	r12, r1
	mov	lr, r1
	pop	{r4, r5, r6, r7, pc}
.Laes_v6m_small_func_end84:
	.size	aes_v6m_small.fotsgure_aes_decrypt_blocks_to, .Laes_v6m_small_func_end84-aes_v6m_small.fotsgure_aes_decrypt_blocks_to
	.cantunwind
	.fnend
                                        @ -- End function
	.section	.text.aes_v6m_small.fotsgure_aes_add_keystream,"ax",%progbits
	export_aes_v6m_small	fotsgure_aes_add_keystream
	.p2align	1
	.type	aes_v6m_small.fotsgure_aes_add_keystream,%function
	.code	16
	.thumb_func
aes_v6m_small.fotsgure_aes_add_keystream:             @ @aes_v6m_small.fotsgure_aes_add_keystream
	.fnstart
@ %bb.0:
	.save	{r4, lr}
	push	{r4, lr}
	.pad	#8
	sub	sp, #8
	movs	r4, #0
	str	r3, [sp]
	str	r4, [sp, #4]
	cmp	r2, #0
	bne	.Laes_v6m_small_BB85_2
@ %bb.1:
	movs	r3, #1
	lsls	r3, r3, #12
	adds	r2, r2, r3
.Laes_v6m_small_BB85_2:
	bl	aes_v6m_small.aes_c.stream.fotsgure_aes_add_keystream
	add	sp, #8
	b	.Laes_v6m_small_return_15612
.Laes_v6m_small_return_15612:
	movs	r1, #0
	movs	r2, #0
	movs	r3, #0
	mov	r12, r1
	mov	lr, r1
	pop	{r4, pc}
.Laes_v6m_small_func_end85:
	.size	aes_v6m_small.fotsgure_aes_add_keystream, .Laes_v6m_small_func_end85-aes_v6m_small.fotsgure_aes_add_keystream
	.cantunwind
	.fnend
                                        @ -- End function
	.section	.text.aes_v6m_small.fotsgure_aes_add_keystream_to,"ax",%progbits
	export_aes_v6m_small	fotsgure_aes_add_keystream_to
	.p2align	2
	.type	aes_v6m_small.fotsgure_aes_add_keystream_to,%function
	.code	16
	.thumb_func
aes_v6m_small.fotsgure_aes_add_keystream_to:          @ @aes_v6m_small.fotsgure_aes_add_keystream_to
	.fnstart
@ %bb.0:
	.save	{r4, r5, r6, r7, lr}
	push	{r4, r5, r6, r7, lr}
	.pad	#36
	sub	sp, #36
	str	r3, [sp, #32]                   @ 4-byte Spill
	str	r1, [sp, #28]                   @ 4-byte Spill
	str	r0, [sp, #16]                   @ 4-byte Spill
	movs	r7, #1
	lsls	r0, r7, #12
	ldr	r4, [sp, #56]
	cmp	r4, #0
	bne	.Laes_v6m_small_BB86_2
@ %bb.1:
	adds	r4, r4, r0
.Laes_v6m_small_BB86_2:
	cmp	r2, #0
	bne	.Laes_v6m_small_BB86_4
@ %bb.3:
	adds	r2, r2, r0
.Laes_v6m_small_BB86_4:
	ldr	r1, [sp, #60]
	ldr	r0, [sp, #32]                   @ 4-byte Reload
	cmp	r0, r1
	bne	.Laes_v6m_small_BB86_7
@ %bb.5:                                @ %join.3.i.i
	ldr	r0, [sp, #28]                   @ 4-byte Reload
	ldr	r1, [r0, #16]
	ldr	r3, [r0, #20]
	movs	r6, #0
	ldr	r0, [sp, #32]                   @ 4-byte Reload
	adds	r0, r1, r0
	adcs	r3, r6
	mov	r0, r6
	adcs	r0, r6
	beq	.Laes_v6m_small_BB86_8
@ %bb.6:
	movs	r5, #4
	b	.Laes_v6m_small_BB86_21
.Laes_v6m_small_BB86_7:
	movs	r5, #3
	b	.Laes_v6m_small_BB86_21
.Laes_v6m_small_BB86_8:                               @ %join.3.i.i.i
	ldr	r0, [sp, #16]                   @ 4-byte Reload
	ldr	r0, [r0]
	subs	r0, #16
	movs	r5, #2
	cmp	r0, #16
	bhi	.Laes_v6m_small_BB86_21
@ %bb.9:                                @ %join.3.i.i.i
	mov	r1, r7
	lsls	r1, r0
	ldr	r0, .Laes_v6m_small_CPI86_0
	tst	r1, r0
	beq	.Laes_v6m_small_BB86_21
@ %bb.10:                               @ %join.6.i.i
	subs	r1, r4, r2
	mov	r3, r6
	sbcs	r3, r6
	ldr	r0, [sp, #32]                   @ 4-byte Reload
	subs	r0, r1, r0
	sbcs	r3, r6
	bhs	.Laes_v6m_small_BB86_13
@ %bb.11:                               @ %join.7.i.i.i.i.i.i.i.i.preheader
	movs	r1, #3
	ldr	r0, [sp, #32]                   @ 4-byte Reload
	mov	r3, r0
	str	r1, [sp, #24]                   @ 4-byte Spill
	ands	r3, r1
	cmp	r0, #4
	bhs	.Laes_v6m_small_BB86_14
@ %bb.12:
	movs	r5, #0
	b	.Laes_v6m_small_BB86_17
.Laes_v6m_small_BB86_13:                              @ %apart.2.i.i.i.i.i.i.i.i
	mov	r0, r4
	mov	r1, r2
	ldr	r2, [sp, #32]                   @ 4-byte Reload
	bl	memmove
	b	.Laes_v6m_small_BB86_20
.Laes_v6m_small_BB86_14:                              @ %join.7.i.i.i.i.i.i.i.i.preheader.new
	str	r3, [sp, #8]                    @ 4-byte Spill
	str	r6, [sp, #12]                   @ 4-byte Spill
	ldr	r1, [sp, #32]                   @ 4-byte Reload
	ldr	r0, [sp, #24]                   @ 4-byte Reload
	bics	r1, r0
	str	r1, [sp, #20]                   @ 4-byte Spill
	movs	r1, #0
	mov	r5, r1
	mov	r0, r1
.Laes_v6m_small_BB86_15:                              @ %join.7.i.i.i.i.i.i.i.i
                                        @ =>This Inner Loop Header: Depth=1
	ldrb	r3, [r2, r5]
	strb	r3, [r4, r5]
	mov	r3, r5
	orrs	r3, r7
	ldrb	r6, [r2, r3]
	strb	r6, [r4, r3]
	movs	r3, #2
	orrs	r3, r5
	ldrb	r6, [r2, r3]
	strb	r6, [r4, r3]
	mov	r3, r5
	ldr	r6, [sp, #24]                   @ 4-byte Reload
	orrs	r3, r6
	ldrb	r6, [r2, r3]
	strb	r6, [r4, r3]
	adds	r5, r5, #4
	adcs	r0, r1
	mov	r3, r5
	ldr	r6, [sp, #20]                   @ 4-byte Reload
	eors	r3, r6
	orrs	r3, r0
	bne	.Laes_v6m_small_BB86_15
@ %bb.16:                               @ %"core::slice::edits::slice+T::copy_from_slice::<i8,20'core::clone::U8Clone{}>.exit.i.i.loopexit.unr-lcssa"
	ldr	r3, [sp, #8]                    @ 4-byte Reload
	cmp	r3, #0
	ldr	r6, [sp, #12]                   @ 4-byte Reload
	beq	.Laes_v6m_small_BB86_20
.Laes_v6m_small_BB86_17:                              @ %join.7.i.i.i.i.i.i.i.i.epil.preheader
	ldrb	r0, [r2, r5]
	strb	r0, [r4, r5]
	cmp	r3, #1
	beq	.Laes_v6m_small_BB86_20
@ %bb.18:                               @ %join.7.i.i.i.i.i.i.i.i.epil.1
	adds	r0, r5, #1
	ldrb	r1, [r2, r0]
	strb	r1, [r4, r0]
	cmp	r3, #2
	beq	.Laes_v6m_small_BB86_20
@ %bb.19:                               @ %join.7.i.i.i.i.i.i.i.i.epil.2
	adds	r0, r5, #2
	ldrb	r1, [r2, r0]
	strb	r1, [r4, r0]
.Laes_v6m_small_BB86_20:                              @ %"core::slice::edits::slice+T::copy_from_slice::<i8,20'core::clone::U8Clone{}>.exit.i.i"
	ldr	r0, [sp, #32]                   @ 4-byte Reload
	str	r0, [sp]
	str	r6, [sp, #4]
	ldr	r0, [sp, #16]                   @ 4-byte Reload
	ldr	r1, [sp, #28]                   @ 4-byte Reload
	mov	r2, r4
	bl	aes_v6m_small.aes_c.stream.fotsgure_aes_add_keystream
	mov	r5, r0
.Laes_v6m_small_BB86_21:                              @ %wide_fotsgure_aes_add_keystream_to.exit
	mov	r0, r5
	add	sp, #36
	b	.Laes_v6m_small_return_15779
	.p2align	2
@ %bb.22:
.Laes_v6m_small_CPI86_0:
	.long	65793                           @ 0x10101
.Laes_v6m_small_return_15779:
	movs	r1, #0
	movs	r2, #0
	movs	r3, #0
	mov	r12, r1
	mov	lr, r1
	pop	{r4, r5, r6, r7, pc}
.Laes_v6m_small_func_end86:
	.size	aes_v6m_small.fotsgure_aes_add_keystream_to, .Laes_v6m_small_func_end86-aes_v6m_small.fotsgure_aes_add_keystream_to
	.cantunwind
	.fnend
                                        @ -- End function
	.section	.text.aes_v6m_small.fotsgure_aes_cbc_encrypt,"ax",%progbits
	export_aes_v6m_small	fotsgure_aes_cbc_encrypt
	.p2align	1
	.type	aes_v6m_small.fotsgure_aes_cbc_encrypt,%function
	.code	16
	.thumb_func
aes_v6m_small.fotsgure_aes_cbc_encrypt:               @ @aes_v6m_small.fotsgure_aes_cbc_encrypt
	.fnstart
@ %bb.0:
	.save	{r4, r5, r6, r7, lr}
	push	{r4, r5, r6, r7, lr}
	.pad	#124
	sub	sp, #124
	str	r3, [sp, #40]                   @ 4-byte Spill
	mov	r7, r2
	movs	r4, #1
	cmp	r2, #0
	bne	.Laes_v6m_small_BB87_2
@ %bb.1:
	lsls	r2, r4, #12
	adds	r7, r7, r2
.Laes_v6m_small_BB87_2:
	ldr	r5, [r0]
	cmp	r5, #32
	beq	.Laes_v6m_small_BB87_5
@ %bb.3:
	movs	r2, #8
	mov	r3, r5
	bics	r3, r2
	cmp	r3, #16
	beq	.Laes_v6m_small_BB87_5
@ %bb.4:
	movs	r0, #2
	add	sp, #124
	b	.Laes_v6m_small_return_15830
.Laes_v6m_small_BB87_5:                               @ %join.3.i.i
	ldrb	r2, [r1, #12]
	ldrb	r3, [r1, #13]
	lsls	r3, r3, #8
	adds	r2, r3, r2
	ldrb	r3, [r1, #14]
	lsls	r3, r3, #16
	str	r4, [sp, #32]                   @ 4-byte Spill
	ldrb	r4, [r1, #15]
	lsls	r4, r4, #24
	adds	r3, r4, r3
	adds	r2, r3, r2
	str	r2, [sp, #120]
	ldrb	r2, [r1, #8]
	ldrb	r3, [r1, #9]
	lsls	r3, r3, #8
	adds	r2, r3, r2
	ldrb	r3, [r1, #10]
	lsls	r3, r3, #16
	ldrb	r4, [r1, #11]
	lsls	r4, r4, #24
	adds	r3, r4, r3
	adds	r2, r3, r2
	str	r2, [sp, #116]
	ldrb	r2, [r1, #4]
	ldrb	r3, [r1, #5]
	lsls	r3, r3, #8
	adds	r2, r3, r2
	ldrb	r3, [r1, #6]
	lsls	r3, r3, #16
	ldrb	r4, [r1, #7]
	lsls	r4, r4, #24
	adds	r3, r4, r3
	adds	r2, r3, r2
	str	r2, [sp, #112]
	ldrb	r2, [r1]
	ldrb	r3, [r1, #1]
	lsls	r3, r3, #8
	adds	r2, r3, r2
	ldrb	r3, [r1, #2]
	lsls	r3, r3, #16
	str	r1, [sp, #16]                   @ 4-byte Spill
	ldrb	r4, [r1, #3]
	lsls	r4, r4, #24
	adds	r3, r4, r3
	adds	r2, r3, r2
	str	r2, [sp, #108]
	lsrs	r1, r5, #31
	lsls	r2, r5, #1
	movs	r3, #0
	adds	r2, #56
	str	r2, [sp, #24]                   @ 4-byte Spill
	str	r3, [sp, #36]                   @ 4-byte Spill
	adcs	r1, r3
	str	r1, [sp, #28]                   @ 4-byte Spill
	ldr	r1, [sp, #40]                   @ 4-byte Reload
	cmp	r1, #0
	bne	.Laes_v6m_small_BB87_6
	b	.Laes_v6m_small_BB87_8
.Laes_v6m_small_BB87_6:                               @ %join.5.lr.ph.i.i.i
	mov	r4, r7
	adds	r0, r0, #4
	str	r0, [sp, #20]                   @ 4-byte Spill
	add	r3, sp, #108
	ldrb	r2, [r3, #15]
	ldrb	r1, [r3, #14]
	ldrb	r0, [r3, #13]
	str	r0, [sp, #48]                   @ 4-byte Spill
	ldrb	r0, [r3, #12]
	str	r0, [sp, #52]                   @ 4-byte Spill
	ldrb	r0, [r3, #11]
	str	r0, [sp, #56]                   @ 4-byte Spill
	ldrb	r0, [r3, #10]
	str	r0, [sp, #60]                   @ 4-byte Spill
	ldrb	r0, [r3, #9]
	str	r0, [sp, #64]                   @ 4-byte Spill
	ldrb	r0, [r3, #8]
	str	r0, [sp, #68]                   @ 4-byte Spill
	ldrb	r0, [r3, #7]
	str	r0, [sp, #72]                   @ 4-byte Spill
	ldrb	r0, [r3, #6]
	str	r0, [sp, #76]                   @ 4-byte Spill
	ldrb	r0, [r3, #5]
	str	r0, [sp, #80]                   @ 4-byte Spill
	ldrb	r0, [r3, #4]
	str	r0, [sp, #84]                   @ 4-byte Spill
	ldrb	r0, [r3, #3]
	str	r0, [sp, #88]                   @ 4-byte Spill
	ldrb	r5, [r3, #2]
	str	r5, [sp, #92]                   @ 4-byte Spill
	ldrb	r5, [r3, #1]
	str	r5, [sp, #96]                   @ 4-byte Spill
	ldrb	r3, [r3]
	ldr	r7, [sp, #36]                   @ 4-byte Reload
	mov	r5, r7
	str	r7, [sp, #100]                  @ 4-byte Spill
	str	r4, [sp, #104]                  @ 4-byte Spill
.Laes_v6m_small_BB87_7:                               @ %join.5.i.i.i
                                        @ =>This Inner Loop Header: Depth=1
	lsls	r0, r5, #4
	str	r0, [sp, #44]                   @ 4-byte Spill
	ldr	r4, [sp, #104]                  @ 4-byte Reload
	ldrb	r4, [r4, r0]
	eors	r4, r3
	add	r6, sp, #108
	strb	r4, [r6]
	ldr	r3, [sp, #104]                  @ 4-byte Reload
	adds	r4, r3, r0
	ldrb	r3, [r4, #15]
	eors	r3, r2
	strb	r3, [r6, #15]
	ldrb	r2, [r4, #14]
	eors	r2, r1
	strb	r2, [r6, #14]
	ldrb	r1, [r4, #13]
	ldr	r0, [sp, #48]                   @ 4-byte Reload
	eors	r1, r0
	strb	r1, [r6, #13]
	ldrb	r0, [r4, #12]
	ldr	r1, [sp, #52]                   @ 4-byte Reload
	eors	r0, r1
	strb	r0, [r6, #12]
	ldrb	r0, [r4, #11]
	ldr	r1, [sp, #56]                   @ 4-byte Reload
	eors	r0, r1
	strb	r0, [r6, #11]
	ldrb	r0, [r4, #10]
	ldr	r1, [sp, #60]                   @ 4-byte Reload
	eors	r0, r1
	strb	r0, [r6, #10]
	ldrb	r0, [r4, #9]
	ldr	r1, [sp, #64]                   @ 4-byte Reload
	eors	r0, r1
	strb	r0, [r6, #9]
	ldrb	r0, [r4, #8]
	ldr	r1, [sp, #68]                   @ 4-byte Reload
	eors	r0, r1
	strb	r0, [r6, #8]
	ldrb	r0, [r4, #7]
	ldr	r1, [sp, #72]                   @ 4-byte Reload
	eors	r0, r1
	strb	r0, [r6, #7]
	ldrb	r0, [r4, #6]
	ldr	r1, [sp, #76]                   @ 4-byte Reload
	eors	r0, r1
	strb	r0, [r6, #6]
	ldrb	r0, [r4, #5]
	ldr	r1, [sp, #80]                   @ 4-byte Reload
	eors	r0, r1
	strb	r0, [r6, #5]
	ldrb	r0, [r4, #4]
	ldr	r1, [sp, #84]                   @ 4-byte Reload
	eors	r0, r1
	strb	r0, [r6, #4]
	ldrb	r0, [r4, #3]
	ldr	r1, [sp, #88]                   @ 4-byte Reload
	eors	r0, r1
	strb	r0, [r6, #3]
	ldrb	r0, [r4, #2]
	ldr	r1, [sp, #92]                   @ 4-byte Reload
	eors	r0, r1
	strb	r0, [r6, #2]
	ldrb	r0, [r4, #1]
	ldr	r1, [sp, #96]                   @ 4-byte Reload
	eors	r0, r1
	strb	r0, [r6, #1]
	ldr	r0, [sp, #32]                   @ 4-byte Reload
	str	r0, [sp, #8]
	ldr	r7, [sp, #36]                   @ 4-byte Reload
	str	r7, [sp, #12]
	str	r6, [sp]
	add	r3, sp, #20
	ldm	r3, {r0, r2, r3}                @ 12-byte Folded Reload
	bl	aes_v6m_small.aes_narrow.blocks.process_all_batches.1
	bl	aes_v6m_small.aes_cipher.zeroize.stack.wipe_stack.1024
	ldrb	r3, [r6]
	ldr	r0, [sp, #104]                  @ 4-byte Reload
	ldr	r1, [sp, #44]                   @ 4-byte Reload
	strb	r3, [r0, r1]
	ldrb	r2, [r6, #15]
	strb	r2, [r4, #15]
	ldrb	r1, [r6, #14]
	strb	r1, [r4, #14]
	ldrb	r0, [r6, #13]
	str	r0, [sp, #48]                   @ 4-byte Spill
	strb	r0, [r4, #13]
	ldrb	r0, [r6, #12]
	str	r0, [sp, #52]                   @ 4-byte Spill
	strb	r0, [r4, #12]
	ldrb	r0, [r6, #11]
	str	r0, [sp, #56]                   @ 4-byte Spill
	strb	r0, [r4, #11]
	ldrb	r0, [r6, #10]
	str	r0, [sp, #60]                   @ 4-byte Spill
	strb	r0, [r4, #10]
	ldrb	r0, [r6, #9]
	str	r0, [sp, #64]                   @ 4-byte Spill
	strb	r0, [r4, #9]
	ldrb	r0, [r6, #8]
	str	r0, [sp, #68]                   @ 4-byte Spill
	strb	r0, [r4, #8]
	ldrb	r0, [r6, #7]
	str	r0, [sp, #72]                   @ 4-byte Spill
	strb	r0, [r4, #7]
	ldrb	r0, [r6, #6]
	str	r0, [sp, #76]                   @ 4-byte Spill
	strb	r0, [r4, #6]
	ldrb	r0, [r6, #5]
	str	r0, [sp, #80]                   @ 4-byte Spill
	strb	r0, [r4, #5]
	ldrb	r0, [r6, #4]
	str	r0, [sp, #84]                   @ 4-byte Spill
	strb	r0, [r4, #4]
	ldrb	r0, [r6, #3]
	str	r0, [sp, #88]                   @ 4-byte Spill
	strb	r0, [r4, #3]
	ldrb	r0, [r6, #2]
	str	r0, [sp, #92]                   @ 4-byte Spill
	strb	r0, [r4, #2]
	ldrb	r6, [r6, #1]
	str	r6, [sp, #96]                   @ 4-byte Spill
	strb	r6, [r4, #1]
	adds	r5, r5, #1
	ldr	r6, [sp, #100]                  @ 4-byte Reload
	adcs	r6, r7
	ldr	r4, [sp, #40]                   @ 4-byte Reload
	subs	r4, r5, r4
	str	r6, [sp, #100]                  @ 4-byte Spill
	sbcs	r6, r7
	bhs	.Laes_v6m_small_BB87_8
	b	.Laes_v6m_small_BB87_7
.Laes_v6m_small_BB87_8:                               @ %"cbc::chain::Cbc::encrypt_blocks::<#4f733d09d7f6c6b4>.exit.i.i"
	add	r1, sp, #108
	movs	r2, #16
	ldr	r0, [sp, #16]                   @ 4-byte Reload
	bl	memcpy
	movs	r0, #0
	add	sp, #124
	b	.Laes_v6m_small_return_15830
.Laes_v6m_small_return_15830:
	movs	r1, #0
	movs	r2, #0
	movs	r3, #0
	mov	r12, r1
	mov	lr, r1
	pop	{r4, r5, r6, r7, pc}
.Laes_v6m_small_func_end87:
	.size	aes_v6m_small.fotsgure_aes_cbc_encrypt, .Laes_v6m_small_func_end87-aes_v6m_small.fotsgure_aes_cbc_encrypt
	.cantunwind
	.fnend
                                        @ -- End function
	.section	.text.aes_v6m_small.fotsgure_aes_cbc_decrypt,"ax",%progbits
	export_aes_v6m_small	fotsgure_aes_cbc_decrypt
	.p2align	1
	.type	aes_v6m_small.fotsgure_aes_cbc_decrypt,%function
	.code	16
	.thumb_func
aes_v6m_small.fotsgure_aes_cbc_decrypt:               @ @aes_v6m_small.fotsgure_aes_cbc_decrypt
	.fnstart
@ %bb.0:
	.save	{r4, r5, r6, lr}
	push	{r4, r5, r6, lr}
	.pad	#40
	sub	sp, #40
	ldr	r6, [r0]
	cmp	r6, #32
	beq	.Laes_v6m_small_BB88_3
@ %bb.1:
	movs	r4, #8
	mov	r5, r6
	bics	r5, r4
	cmp	r5, #16
	beq	.Laes_v6m_small_BB88_3
@ %bb.2:
	movs	r4, #2
	b	.Laes_v6m_small_BB88_6
.Laes_v6m_small_BB88_3:                               @ %join.3.i.i
	movs	r4, #0
	str	r4, [sp, #36]
	str	r3, [sp, #32]
	str	r4, [sp, #28]
	cmp	r2, #0
	bne	.Laes_v6m_small_BB88_5
@ %bb.4:
	movs	r3, #1
	lsls	r3, r3, #12
	adds	r2, r2, r3
.Laes_v6m_small_BB88_5:                               @ %join.3.i.i
	str	r2, [sp, #24]
	ldrb	r2, [r1, #12]
	ldrb	r3, [r1, #13]
	lsls	r3, r3, #8
	adds	r2, r3, r2
	ldrb	r3, [r1, #14]
	lsls	r3, r3, #16
	ldrb	r5, [r1, #15]
	lsls	r5, r5, #24
	adds	r3, r5, r3
	adds	r2, r3, r2
	str	r2, [sp, #20]
	ldrb	r2, [r1, #8]
	ldrb	r3, [r1, #9]
	lsls	r3, r3, #8
	adds	r2, r3, r2
	ldrb	r3, [r1, #10]
	lsls	r3, r3, #16
	ldrb	r5, [r1, #11]
	lsls	r5, r5, #24
	adds	r3, r5, r3
	adds	r2, r3, r2
	str	r2, [sp, #16]
	ldrb	r2, [r1, #4]
	ldrb	r3, [r1, #5]
	lsls	r3, r3, #8
	adds	r2, r3, r2
	ldrb	r3, [r1, #6]
	lsls	r3, r3, #16
	ldrb	r5, [r1, #7]
	lsls	r5, r5, #24
	adds	r3, r5, r3
	adds	r2, r3, r2
	str	r2, [sp, #12]
	ldrb	r2, [r1]
	ldrb	r3, [r1, #1]
	lsls	r3, r3, #8
	adds	r2, r3, r2
	ldrb	r3, [r1, #2]
	lsls	r3, r3, #16
	ldrb	r5, [r1, #3]
	lsls	r5, r5, #24
	adds	r3, r5, r3
	adds	r2, r3, r2
	str	r2, [sp, #8]
	add	r5, sp, #8
	str	r5, [sp]
	lsrs	r3, r6, #31
	lsls	r2, r6, #1
	adds	r2, #56
	adcs	r3, r4
	adds	r0, r0, #4
	mov	r6, r1
	bl	aes_v6m_small.aes_narrow.borrowed_words.call_to_decrypt
	bl	aes_v6m_small.aes_cipher.zeroize.stack.wipe_stack.2032
	movs	r2, #16
	mov	r0, r6
	mov	r1, r5
	bl	memcpy
.Laes_v6m_small_BB88_6:                               @ %wide_fotsgure_aes_cbc_decrypt.exit
	mov	r0, r4
	add	sp, #40
	b	.Laes_v6m_small_return_16181
.Laes_v6m_small_return_16181:
	movs	r1, #0
	movs	r2, #0
	movs	r3, #0
	mov	r12, r1
	mov	lr, r1
	pop	{r4, r5, r6, pc}
.Laes_v6m_small_func_end88:
	.size	aes_v6m_small.fotsgure_aes_cbc_decrypt, .Laes_v6m_small_func_end88-aes_v6m_small.fotsgure_aes_cbc_decrypt
	.cantunwind
	.fnend
                                        @ -- End function
	.section	.text.aes_v6m_small.fotsgure_aes_wrap,"ax",%progbits
	export_aes_v6m_small	fotsgure_aes_wrap
	.p2align	1
	.type	aes_v6m_small.fotsgure_aes_wrap,%function
	.code	16
	.thumb_func
aes_v6m_small.fotsgure_aes_wrap:                      @ @aes_v6m_small.fotsgure_aes_wrap
	.fnstart
@ %bb.0:
	.save	{r4, r5, r6, lr}
	push	{r4, r5, r6, lr}
	.pad	#32
	sub	sp, #32
	ldr	r5, [r0]
	cmp	r5, #32
	beq	.Laes_v6m_small_BB89_3
@ %bb.1:
	movs	r4, #8
	mov	r6, r5
	bics	r6, r4
	cmp	r6, #16
	beq	.Laes_v6m_small_BB89_3
@ %bb.2:
	movs	r4, #2
	b	.Laes_v6m_small_BB89_10
.Laes_v6m_small_BB89_3:                               @ %join.3.i.i
	ldr	r6, [sp, #48]
	movs	r4, #0
	str	r4, [sp, #20]
	adds	r0, r0, #4
	str	r0, [sp, #16]
	lsrs	r0, r5, #31
	lsls	r5, r5, #1
	adds	r5, #56
	str	r5, [sp, #24]
	adcs	r0, r4
	str	r0, [sp, #28]
	str	r6, [sp, #8]
	str	r4, [sp, #12]
	movs	r0, #1
	lsls	r0, r0, #12
	cmp	r3, #0
	bne	.Laes_v6m_small_BB89_5
@ %bb.4:
	adds	r3, r3, r0
.Laes_v6m_small_BB89_5:                               @ %join.3.i.i
	str	r3, [sp]
	cmp	r1, #0
	bne	.Laes_v6m_small_BB89_7
@ %bb.6:
	adds	r1, r1, r0
.Laes_v6m_small_BB89_7:                               @ %join.3.i.i
	add	r0, sp, #16
	mov	r3, r4
	bl	aes_v6m_small.key_wrap.wrapping.wrap
	uxtb	r4, r0
	cmp	r4, #0
	beq	.Laes_v6m_small_BB89_9
@ %bb.8:
	movs	r4, #5
.Laes_v6m_small_BB89_9:                               @ %join.3.i.i
	bl	aes_v6m_small.aes_cipher.zeroize.stack.wipe_stack.512
.Laes_v6m_small_BB89_10:                              @ %wide_fotsgure_aes_wrap.exit
	mov	r0, r4
	add	sp, #32
	b	.Laes_v6m_small_return_16259
.Laes_v6m_small_return_16259:
	movs	r1, #0
	movs	r2, #0
	movs	r3, #0
	mov	r12, r1
	mov	lr, r1
	pop	{r4, r5, r6, pc}
.Laes_v6m_small_func_end89:
	.size	aes_v6m_small.fotsgure_aes_wrap, .Laes_v6m_small_func_end89-aes_v6m_small.fotsgure_aes_wrap
	.cantunwind
	.fnend
                                        @ -- End function
	.section	.text.aes_v6m_small.fotsgure_aes_unwrap,"ax",%progbits
	export_aes_v6m_small	fotsgure_aes_unwrap
	.p2align	1
	.type	aes_v6m_small.fotsgure_aes_unwrap,%function
	.code	16
	.thumb_func
aes_v6m_small.fotsgure_aes_unwrap:                    @ @aes_v6m_small.fotsgure_aes_unwrap
	.fnstart
@ %bb.0:
	.save	{r4, r5, r6, lr}
	push	{r4, r5, r6, lr}
	.pad	#32
	sub	sp, #32
	ldr	r5, [r0]
	cmp	r5, #32
	beq	.Laes_v6m_small_BB90_3
@ %bb.1:
	movs	r4, #8
	mov	r6, r5
	bics	r6, r4
	cmp	r6, #16
	beq	.Laes_v6m_small_BB90_3
@ %bb.2:
	movs	r4, #2
	b	.Laes_v6m_small_BB90_13
.Laes_v6m_small_BB90_3:                               @ %join.3.i.i
	ldr	r6, [sp, #48]
	movs	r4, #0
	str	r4, [sp, #20]
	adds	r0, r0, #4
	str	r0, [sp, #16]
	lsrs	r0, r5, #31
	lsls	r5, r5, #1
	adds	r5, #56
	str	r5, [sp, #24]
	adcs	r0, r4
	str	r0, [sp, #28]
	str	r6, [sp, #8]
	str	r4, [sp, #12]
	movs	r0, #1
	lsls	r0, r0, #12
	cmp	r3, #0
	bne	.Laes_v6m_small_BB90_5
@ %bb.4:
	adds	r3, r3, r0
.Laes_v6m_small_BB90_5:                               @ %join.3.i.i
	str	r3, [sp]
	cmp	r1, #0
	bne	.Laes_v6m_small_BB90_7
@ %bb.6:
	adds	r1, r1, r0
.Laes_v6m_small_BB90_7:                               @ %join.3.i.i
	add	r0, sp, #16
	mov	r3, r4
	bl	aes_v6m_small.key_wrap.wrapping.unwrap
	lsls	r1, r1, #24
	beq	.Laes_v6m_small_BB90_9
@ %bb.8:                                @ %join.3.i.i
	movs	r4, #6
	b	.Laes_v6m_small_BB90_10
.Laes_v6m_small_BB90_9:
	movs	r4, #5
.Laes_v6m_small_BB90_10:                              @ %join.3.i.i
	uxtb	r0, r0
	cmp	r0, #0
	bne	.Laes_v6m_small_BB90_12
@ %bb.11:                               @ %join.3.i.i
	mov	r4, r0
.Laes_v6m_small_BB90_12:                              @ %join.3.i.i
	bl	aes_v6m_small.aes_cipher.zeroize.stack.wipe_stack.512
.Laes_v6m_small_BB90_13:                              @ %wide_fotsgure_aes_unwrap.exit
	mov	r0, r4
	add	sp, #32
	b	.Laes_v6m_small_return_16345
.Laes_v6m_small_return_16345:
	movs	r1, #0
	movs	r2, #0
	movs	r3, #0
	mov	r12, r1
	mov	lr, r1
	pop	{r4, r5, r6, pc}
.Laes_v6m_small_func_end90:
	.size	aes_v6m_small.fotsgure_aes_unwrap, .Laes_v6m_small_func_end90-aes_v6m_small.fotsgure_aes_unwrap
	.cantunwind
	.fnend
                                        @ -- End function
	.section	.text.aes_v6m_small.fotsgure_aes_wrap_padded,"ax",%progbits
	export_aes_v6m_small	fotsgure_aes_wrap_padded
	.p2align	1
	.type	aes_v6m_small.fotsgure_aes_wrap_padded,%function
	.code	16
	.thumb_func
aes_v6m_small.fotsgure_aes_wrap_padded:               @ @aes_v6m_small.fotsgure_aes_wrap_padded
	.fnstart
@ %bb.0:
	.save	{r4, r5, r6, lr}
	push	{r4, r5, r6, lr}
	.pad	#32
	sub	sp, #32
	ldr	r5, [r0]
	cmp	r5, #32
	beq	.Laes_v6m_small_BB91_3
@ %bb.1:
	movs	r4, #8
	mov	r6, r5
	bics	r6, r4
	cmp	r6, #16
	beq	.Laes_v6m_small_BB91_3
@ %bb.2:
	movs	r4, #2
	b	.Laes_v6m_small_BB91_10
.Laes_v6m_small_BB91_3:                               @ %join.3.i.i
	ldr	r6, [sp, #48]
	movs	r4, #0
	str	r4, [sp, #20]
	adds	r0, r0, #4
	str	r0, [sp, #16]
	lsrs	r0, r5, #31
	lsls	r5, r5, #1
	adds	r5, #56
	str	r5, [sp, #24]
	adcs	r0, r4
	str	r0, [sp, #28]
	str	r6, [sp, #8]
	str	r4, [sp, #12]
	movs	r0, #1
	lsls	r0, r0, #12
	cmp	r3, #0
	bne	.Laes_v6m_small_BB91_5
@ %bb.4:
	adds	r3, r3, r0
.Laes_v6m_small_BB91_5:                               @ %join.3.i.i
	str	r3, [sp]
	cmp	r1, #0
	bne	.Laes_v6m_small_BB91_7
@ %bb.6:
	adds	r1, r1, r0
.Laes_v6m_small_BB91_7:                               @ %join.3.i.i
	add	r0, sp, #16
	mov	r3, r4
	bl	aes_v6m_small.key_wrap.padded.wrap_padded
	uxtb	r4, r0
	cmp	r4, #0
	beq	.Laes_v6m_small_BB91_9
@ %bb.8:
	movs	r4, #5
.Laes_v6m_small_BB91_9:                               @ %join.3.i.i
	bl	aes_v6m_small.aes_cipher.zeroize.stack.wipe_stack.512
.Laes_v6m_small_BB91_10:                              @ %wide_fotsgure_aes_wrap_padded.exit
	mov	r0, r4
	add	sp, #32
	b	.Laes_v6m_small_return_16423
.Laes_v6m_small_return_16423:
	movs	r1, #0
	movs	r2, #0
	movs	r3, #0
	mov	r12, r1
	mov	lr, r1
	pop	{r4, r5, r6, pc}
.Laes_v6m_small_func_end91:
	.size	aes_v6m_small.fotsgure_aes_wrap_padded, .Laes_v6m_small_func_end91-aes_v6m_small.fotsgure_aes_wrap_padded
	.cantunwind
	.fnend
                                        @ -- End function
	.section	.text.aes_v6m_small.fotsgure_aes_unwrap_padded,"ax",%progbits
	export_aes_v6m_small	fotsgure_aes_unwrap_padded
	.p2align	1
	.type	aes_v6m_small.fotsgure_aes_unwrap_padded,%function
	.code	16
	.thumb_func
aes_v6m_small.fotsgure_aes_unwrap_padded:             @ @aes_v6m_small.fotsgure_aes_unwrap_padded
	.fnstart
@ %bb.0:
	.save	{r4, r5, r6, r7, lr}
	push	{r4, r5, r6, r7, lr}
	.pad	#60
	sub	sp, #60
	mov	r4, r1
	movs	r6, #0
	str	r6, [sp, #52]
	str	r6, [sp, #48]
	ldr	r7, [r0]
	ldr	r1, [sp, #84]
	str	r1, [sp, #28]                   @ 4-byte Spill
	cmp	r7, #32
	beq	.Laes_v6m_small_BB92_3
@ %bb.1:
	movs	r5, #8
	mov	r1, r7
	bics	r1, r5
	cmp	r1, #16
	beq	.Laes_v6m_small_BB92_3
@ %bb.2:
	movs	r0, #2
	b	.Laes_v6m_small_BB92_12
.Laes_v6m_small_BB92_3:                               @ %join.3.i.i
	ldr	r1, [sp, #80]
	str	r6, [sp, #36]
	adds	r0, r0, #4
	str	r0, [sp, #32]
	lsrs	r0, r7, #31
	lsls	r5, r7, #1
	adds	r5, #56
	str	r5, [sp, #40]
	adcs	r0, r6
	str	r0, [sp, #44]
	str	r1, [sp, #16]
	str	r6, [sp, #20]
	movs	r0, #1
	lsls	r0, r0, #12
	cmp	r3, #0
	bne	.Laes_v6m_small_BB92_5
@ %bb.4:
	adds	r3, r3, r0
.Laes_v6m_small_BB92_5:                               @ %join.3.i.i
	str	r2, [sp]
	str	r6, [sp, #4]
	str	r3, [sp, #8]
	cmp	r4, #0
	bne	.Laes_v6m_small_BB92_7
@ %bb.6:
	adds	r4, r4, r0
.Laes_v6m_small_BB92_7:                               @ %join.3.i.i
	add	r5, sp, #48
	add	r1, sp, #32
	mov	r0, r5
	mov	r2, r4
	bl	aes_v6m_small.key_wrap.padded.unwrap_padded
	bl	aes_v6m_small.aes_cipher.zeroize.stack.wipe_stack.512
	ldrb	r0, [r5]
	cmp	r0, #0
	beq	.Laes_v6m_small_BB92_10
@ %bb.8:                                @ %arm.5.i.i
	add	r0, sp, #48
	ldrb	r0, [r0, #1]
	cmp	r0, #0
	beq	.Laes_v6m_small_BB92_11
@ %bb.9:                                @ %arm.5.i.i
	movs	r0, #6
	b	.Laes_v6m_small_BB92_12
.Laes_v6m_small_BB92_10:                              @ %arm.4.i.i
	movs	r0, #0
	ldr	r6, [sp, #52]
	b	.Laes_v6m_small_BB92_12
.Laes_v6m_small_BB92_11:
	movs	r0, #5
.Laes_v6m_small_BB92_12:                              @ %wide_fotsgure_aes_unwrap_padded.exit
	ldr	r1, [sp, #28]                   @ 4-byte Reload
	str	r6, [r1]
	add	sp, #60
	b	.Laes_v6m_small_return_16522
.Laes_v6m_small_return_16522:
	movs	r1, #0
	movs	r2, #0
	movs	r3, #0
	mov	r12, r1
	mov	lr, r1
	pop	{r4, r5, r6, r7, pc}
.Laes_v6m_small_func_end92:
	.size	aes_v6m_small.fotsgure_aes_unwrap_padded, .Laes_v6m_small_func_end92-aes_v6m_small.fotsgure_aes_unwrap_padded
	.cantunwind
	.fnend
                                        @ -- End function
	.section	.text.aes_v6m_small.fotsgure_aes_cmac,"ax",%progbits
	export_aes_v6m_small	fotsgure_aes_cmac
	.p2align	1
	.type	aes_v6m_small.fotsgure_aes_cmac,%function
	.code	16
	.thumb_func
aes_v6m_small.fotsgure_aes_cmac:                      @ @aes_v6m_small.fotsgure_aes_cmac
	.fnstart
@ %bb.0:
	.save	{r4, r5, r6, lr}
	push	{r4, r5, r6, lr}
	.pad	#40
	sub	sp, #40
	mov	r4, r3
	mov	r3, r1
	ldr	r1, [r0]
	cmp	r1, #32
	beq	.Laes_v6m_small_BB93_3
@ %bb.1:
	movs	r5, #8
	mov	r6, r1
	bics	r6, r5
	cmp	r6, #16
	beq	.Laes_v6m_small_BB93_3
@ %bb.2:
	movs	r5, #2
	b	.Laes_v6m_small_BB93_6
.Laes_v6m_small_BB93_3:                               @ %join.3.i.i
	movs	r5, #0
	str	r5, [sp, #12]
	adds	r0, r0, #4
	str	r0, [sp, #8]
	lsrs	r0, r1, #31
	lsls	r1, r1, #1
	adds	r1, #56
	str	r1, [sp, #16]
	adcs	r0, r5
	str	r0, [sp, #20]
	str	r2, [sp]
	str	r5, [sp, #4]
	cmp	r3, #0
	bne	.Laes_v6m_small_BB93_5
@ %bb.4:
	movs	r0, #1
	lsls	r0, r0, #12
	adds	r3, r3, r0
.Laes_v6m_small_BB93_5:                               @ %join.3.i.i
	add	r6, sp, #24
	add	r1, sp, #8
	mov	r0, r6
	mov	r2, r3
	bl	aes_v6m_small.cmac.tags.tag
	movs	r2, #16
	mov	r0, r4
	mov	r1, r6
	bl	memcpy
	bl	aes_v6m_small.aes_cipher.zeroize.stack.wipe_stack.768
.Laes_v6m_small_BB93_6:                               @ %wide_fotsgure_aes_cmac.exit
	mov	r0, r5
	add	sp, #40
	b	.Laes_v6m_small_return_16595
.Laes_v6m_small_return_16595:
	movs	r1, #0
	movs	r2, #0
	movs	r3, #0
	mov	r12, r1
	mov	lr, r1
	pop	{r4, r5, r6, pc}
.Laes_v6m_small_func_end93:
	.size	aes_v6m_small.fotsgure_aes_cmac, .Laes_v6m_small_func_end93-aes_v6m_small.fotsgure_aes_cmac
	.cantunwind
	.fnend
                                        @ -- End function
	.section	.text.aes_v6m_small.fotsgure_aes_cmac_verify,"ax",%progbits
	export_aes_v6m_small	fotsgure_aes_cmac_verify
	.p2align	1
	.type	aes_v6m_small.fotsgure_aes_cmac_verify,%function
	.code	16
	.thumb_func
aes_v6m_small.fotsgure_aes_cmac_verify:               @ @aes_v6m_small.fotsgure_aes_cmac_verify
	.fnstart
@ %bb.0:
	.save	{r4, r5, r6, lr}
	push	{r4, r5, r6, lr}
	.pad	#32
	sub	sp, #32
	movs	r4, #1
	lsls	r4, r4, #12
	cmp	r3, #0
	bne	.Laes_v6m_small_BB94_2
@ %bb.1:
	adds	r3, r3, r4
.Laes_v6m_small_BB94_2:
	cmp	r1, #0
	bne	.Laes_v6m_small_BB94_4
@ %bb.3:
	adds	r1, r1, r4
.Laes_v6m_small_BB94_4:
	ldr	r5, [r0]
	cmp	r5, #32
	beq	.Laes_v6m_small_BB94_7
@ %bb.5:
	movs	r4, #8
	mov	r6, r5
	bics	r6, r4
	cmp	r6, #16
	beq	.Laes_v6m_small_BB94_7
@ %bb.6:
	movs	r0, #2
	add	sp, #32
	b	.Laes_v6m_small_return_16645
.Laes_v6m_small_BB94_7:                               @ %join.3.i.i
	ldr	r6, [sp, #48]
	subs	r4, r6, #4
	cmp	r4, #12
	bhi	.Laes_v6m_small_BB94_11
@ %bb.8:                                @ %join.6.i.i
	movs	r4, #0
	str	r4, [sp, #20]
	adds	r0, r0, #4
	str	r0, [sp, #16]
	lsrs	r0, r5, #31
	lsls	r5, r5, #1
	adds	r5, #56
	str	r5, [sp, #24]
	adcs	r0, r4
	str	r0, [sp, #28]
	str	r6, [sp, #8]
	str	r4, [sp, #12]
	str	r3, [sp]
	add	r0, sp, #16
	mov	r5, r4
	mov	r3, r4
	bl	aes_v6m_small.cmac.tags.is_tag_start
	cmp	r0, #0
	bne	.Laes_v6m_small_BB94_10
@ %bb.9:                                @ %join.6.i.i
	movs	r5, #6
.Laes_v6m_small_BB94_10:                              @ %join.6.i.i
	bl	aes_v6m_small.aes_cipher.zeroize.stack.wipe_stack.768
	mov	r0, r5
	add	sp, #32
	b	.Laes_v6m_small_return_16645
.Laes_v6m_small_BB94_11:
	movs	r0, #7
	add	sp, #32
	b	.Laes_v6m_small_return_16645
.Laes_v6m_small_return_16645:
	movs	r1, #0
	movs	r2, #0
	movs	r3, #0
	mov	r12, r1
	mov	lr, r1
	pop	{r4, r5, r6, pc}
.Laes_v6m_small_func_end94:
	.size	aes_v6m_small.fotsgure_aes_cmac_verify, .Laes_v6m_small_func_end94-aes_v6m_small.fotsgure_aes_cmac_verify
	.cantunwind
	.fnend
                                        @ -- End function
	.section	.text.aes_v6m_small.fotsgure_aes_cmac_begin,"ax",%progbits
	export_aes_v6m_small	fotsgure_aes_cmac_begin
	.p2align	2
	.type	aes_v6m_small.fotsgure_aes_cmac_begin,%function
	.code	16
	.thumb_func
aes_v6m_small.fotsgure_aes_cmac_begin:                @ @aes_v6m_small.fotsgure_aes_cmac_begin
	.fnstart
@ %bb.0:
	.save	{r4, r5, r6, lr}
	push	{r4, r5, r6, lr}
	ldr	r0, [r0]
	subs	r0, #16
	movs	r5, #2
	cmp	r0, #16
	bhi	.Laes_v6m_small_BB95_3
@ %bb.1:
	mov	r4, r1
	movs	r6, #1
	mov	r1, r6
	lsls	r1, r0
	ldr	r0, .Laes_v6m_small_CPI95_0
	tst	r1, r0
	beq	.Laes_v6m_small_BB95_3
@ %bb.2:                                @ %join.3.i.i
	mov	r0, r4
	adds	r0, #8
	movs	r5, #0
	movs	r2, #40
	mov	r1, r5
	bl	memset
	str	r6, [r4]
	str	r5, [r4, #4]
.Laes_v6m_small_BB95_3:                               @ %wide_fotsgure_aes_cmac_begin.exit
	mov	r0, r5
	b	.Laes_v6m_small_return_16729
	.p2align	2
@ %bb.4:
.Laes_v6m_small_CPI95_0:
	.long	65793                           @ 0x10101
.Laes_v6m_small_return_16729:
	movs	r1, #0
	movs	r2, #0
	movs	r3, #0
	mov	r12, r1
	mov	lr, r1
	pop	{r4, r5, r6, pc}
.Laes_v6m_small_func_end95:
	.size	aes_v6m_small.fotsgure_aes_cmac_begin, .Laes_v6m_small_func_end95-aes_v6m_small.fotsgure_aes_cmac_begin
	.cantunwind
	.fnend
                                        @ -- End function
	.section	.text.aes_v6m_small.fotsgure_aes_cmac_update,"ax",%progbits
	export_aes_v6m_small	fotsgure_aes_cmac_update
	.p2align	1
	.type	aes_v6m_small.fotsgure_aes_cmac_update,%function
	.code	16
	.thumb_func
aes_v6m_small.fotsgure_aes_cmac_update:               @ @aes_v6m_small.fotsgure_aes_cmac_update
	.fnstart
@ %bb.0:
	.save	{r4, r5, r6, r7, lr}
	push	{r4, r5, r6, r7, lr}
	.pad	#28
	sub	sp, #28
	movs	r5, #1
	cmp	r2, #0
	bne	.Laes_v6m_small_BB96_2
@ %bb.1:
	lsls	r4, r5, #12
	adds	r2, r2, r4
.Laes_v6m_small_BB96_2:
	ldr	r4, [r0]
	cmp	r4, #32
	beq	.Laes_v6m_small_BB96_5
@ %bb.3:
	movs	r6, #8
	mov	r7, r4
	bics	r7, r6
	cmp	r7, #16
	beq	.Laes_v6m_small_BB96_5
@ %bb.4:
	movs	r4, #2
	b	.Laes_v6m_small_BB96_9
.Laes_v6m_small_BB96_5:                               @ %join.3.i.i
	adds	r0, r0, #4
	str	r0, [sp, #8]
	lsrs	r0, r4, #31
	lsls	r6, r4, #1
	movs	r4, #0
	adds	r6, #56
	str	r6, [sp, #16]
	str	r4, [sp, #12]
	adcs	r0, r4
	str	r0, [sp, #20]
	ldm	r1!, {r0, r6}
	eors	r0, r5
	subs	r1, #8
	orrs	r0, r6
	bne	.Laes_v6m_small_BB96_7
@ %bb.6:                                @ %join.3.i.i.i
	str	r3, [sp]
	str	r4, [sp, #4]
	adds	r1, #8
	add	r3, sp, #8
	mov	r0, r1
	mov	r1, r3
	bl	aes_v6m_small.cmac.chain_in_pieces.ChainInPieces.extend
	b	.Laes_v6m_small_BB96_8
.Laes_v6m_small_BB96_7:
	movs	r4, #10
.Laes_v6m_small_BB96_8:                               @ %"cmac::pieces::Message::update::<#4f733d09d7f6c6b4>.exit.i.i"
	bl	aes_v6m_small.aes_cipher.zeroize.stack.wipe_stack.768
.Laes_v6m_small_BB96_9:                               @ %wide_fotsgure_aes_cmac_update.exit
	mov	r0, r4
	add	sp, #28
	b	.Laes_v6m_small_return_16810
.Laes_v6m_small_return_16810:
	movs	r1, #0
	movs	r2, #0
	movs	r3, #0
	mov	r12, r1
	mov	lr, r1
	pop	{r4, r5, r6, r7, pc}
.Laes_v6m_small_func_end96:
	.size	aes_v6m_small.fotsgure_aes_cmac_update, .Laes_v6m_small_func_end96-aes_v6m_small.fotsgure_aes_cmac_update
	.cantunwind
	.fnend
                                        @ -- End function
	.section	.text.aes_v6m_small.fotsgure_aes_cmac_finish,"ax",%progbits
	export_aes_v6m_small	fotsgure_aes_cmac_finish
	.p2align	1
	.type	aes_v6m_small.fotsgure_aes_cmac_finish,%function
	.code	16
	.thumb_func
aes_v6m_small.fotsgure_aes_cmac_finish:               @ @aes_v6m_small.fotsgure_aes_cmac_finish
	.fnstart
@ %bb.0:
	.save	{r4, r5, r6, r7, lr}
	push	{r4, r5, r6, r7, lr}
	.pad	#52
	sub	sp, #52
	ldr	r3, [r0]
	cmp	r3, #32
	beq	.Laes_v6m_small_BB97_3
@ %bb.1:
	movs	r4, #8
	mov	r5, r3
	bics	r5, r4
	cmp	r5, #16
	beq	.Laes_v6m_small_BB97_3
@ %bb.2:
	movs	r0, #2
	add	sp, #52
	b	.Laes_v6m_small_return_16848
.Laes_v6m_small_BB97_3:                               @ %join.3.i.i
	adds	r0, r0, #4
	str	r0, [sp, #16]
	lsrs	r4, r3, #31
	lsls	r3, r3, #1
	movs	r0, #0
	adds	r3, #56
	str	r3, [sp, #24]
	str	r0, [sp, #20]
	adcs	r4, r0
	str	r4, [sp, #28]
	ldm	r1!, {r3, r4}
	movs	r5, #1
	eors	r5, r3
	subs	r1, #8
	orrs	r5, r4
	bne	.Laes_v6m_small_BB97_9
@ %bb.4:                                @ %arm.4.i.i
	ldr	r3, [r1, #8]
	ldr	r5, [r1, #12]
	str	r0, [sp, #4]
	movs	r4, #16
	cmp	r3, #16
	blo	.Laes_v6m_small_BB97_6
@ %bb.5:                                @ %arm.4.i.i
	mov	r3, r4
.Laes_v6m_small_BB97_6:                               @ %arm.4.i.i
	str	r0, [sp, #8]                    @ 4-byte Spill
	str	r2, [sp, #12]                   @ 4-byte Spill
	cmp	r5, #0
	beq	.Laes_v6m_small_BB97_8
@ %bb.7:                                @ %arm.4.i.i
	mov	r3, r4
.Laes_v6m_small_BB97_8:                               @ %arm.4.i.i
	str	r3, [sp]
	mov	r2, r1
	adds	r2, #16
	mov	r3, r1
	adds	r3, #32
	add	r6, sp, #36
	add	r7, sp, #16
	mov	r0, r6
	mov	r5, r1
	mov	r1, r7
	bl	aes_v6m_small.cmac.tags.tag_at_end
	mov	r0, r5
	bl	aes_v6m_small.cmac.pieces.MessageZeroize.zeroize
	bl	aes_v6m_small.aes_cipher.zeroize.stack.wipe_stack.768
	ldr	r0, [sp, #12]                   @ 4-byte Reload
	mov	r1, r6
	mov	r2, r4
	bl	memcpy
	ldr	r0, [sp, #8]                    @ 4-byte Reload
	add	sp, #52
	b	.Laes_v6m_small_return_16848
.Laes_v6m_small_BB97_9:                               @ %"cmac::pieces::Message::finish::<#4f733d09d7f6c6b4>.exit.i.i"
	bl	aes_v6m_small.aes_cipher.zeroize.stack.wipe_stack.768
	movs	r0, #10
	add	sp, #52
	b	.Laes_v6m_small_return_16848
.Laes_v6m_small_return_16848:
	movs	r1, #0
	movs	r2, #0
	movs	r3, #0
	mov	r12, r1
	mov	lr, r1
	pop	{r4, r5, r6, r7, pc}
.Laes_v6m_small_func_end97:
	.size	aes_v6m_small.fotsgure_aes_cmac_finish, .Laes_v6m_small_func_end97-aes_v6m_small.fotsgure_aes_cmac_finish
	.cantunwind
	.fnend
                                        @ -- End function
	.section	.text.aes_v6m_small.fotsgure_aes_cmac_accept,"ax",%progbits
	export_aes_v6m_small	fotsgure_aes_cmac_accept
	.p2align	1
	.type	aes_v6m_small.fotsgure_aes_cmac_accept,%function
	.code	16
	.thumb_func
aes_v6m_small.fotsgure_aes_cmac_accept:               @ @aes_v6m_small.fotsgure_aes_cmac_accept
	.fnstart
@ %bb.0:
	.save	{r4, r5, r6, r7, lr}
	push	{r4, r5, r6, r7, lr}
	.pad	#28
	sub	sp, #28
	movs	r4, #1
	cmp	r2, #0
	bne	.Laes_v6m_small_BB98_2
@ %bb.1:
	lsls	r5, r4, #12
	adds	r2, r2, r5
.Laes_v6m_small_BB98_2:
	ldr	r5, [r0]
	cmp	r5, #32
	beq	.Laes_v6m_small_BB98_5
@ %bb.3:
	movs	r6, #8
	mov	r7, r5
	bics	r7, r6
	cmp	r7, #16
	beq	.Laes_v6m_small_BB98_5
@ %bb.4:
	movs	r0, #2
	add	sp, #28
	b	.Laes_v6m_small_return_16953
.Laes_v6m_small_BB98_5:                               @ %join.3.i.i
	subs	r6, r3, #4
	cmp	r6, #12
	bhi	.Laes_v6m_small_BB98_9
@ %bb.6:                                @ %join.6.i.i
	adds	r0, r0, #4
	str	r0, [sp, #8]
	lsrs	r6, r5, #31
	lsls	r5, r5, #1
	movs	r0, #0
	adds	r5, #56
	str	r5, [sp, #16]
	str	r0, [sp, #12]
	adcs	r6, r0
	str	r6, [sp, #20]
	ldm	r1!, {r5, r6}
	eors	r5, r4
	subs	r1, #8
	orrs	r5, r6
	bne	.Laes_v6m_small_BB98_10
@ %bb.7:                                @ %join.3.i.i.i
	str	r3, [sp]
	mov	r5, r0
	str	r0, [sp, #4]
	add	r3, sp, #8
	mov	r4, r1
	mov	r0, r1
	mov	r1, r3
	bl	aes_v6m_small.cmac.pieces.Message.is_tag_so_far
	cmp	r0, #0
	beq	.Laes_v6m_small_BB98_11
@ %bb.8:                                @ %join.7.i.i.i
	mov	r0, r4
	bl	aes_v6m_small.cmac.pieces.MessageZeroize.zeroize
	b	.Laes_v6m_small_BB98_12
.Laes_v6m_small_BB98_9:
	movs	r0, #7
	add	sp, #28
	b	.Laes_v6m_small_return_16953
.Laes_v6m_small_BB98_10:
	movs	r5, #10
	b	.Laes_v6m_small_BB98_12
.Laes_v6m_small_BB98_11:
	movs	r5, #6
.Laes_v6m_small_BB98_12:                              @ %"cmac::pieces::Message::accept::<#4f733d09d7f6c6b4>.exit.i.i"
	bl	aes_v6m_small.aes_cipher.zeroize.stack.wipe_stack.768
	mov	r0, r5
	add	sp, #28
	b	.Laes_v6m_small_return_16953
.Laes_v6m_small_return_16953:
	movs	r1, #0
	movs	r2, #0
	movs	r3, #0
	mov	r12, r1
	mov	lr, r1
	pop	{r4, r5, r6, r7, pc}
.Laes_v6m_small_func_end98:
	.size	aes_v6m_small.fotsgure_aes_cmac_accept, .Laes_v6m_small_func_end98-aes_v6m_small.fotsgure_aes_cmac_accept
	.cantunwind
	.fnend
                                        @ -- End function
	.section	.text.aes_v6m_small.fotsgure_aes_cmac_wipe,"ax",%progbits
	export_aes_v6m_small	fotsgure_aes_cmac_wipe
	.p2align	1
	.type	aes_v6m_small.fotsgure_aes_cmac_wipe,%function
	.code	16
	.thumb_func
aes_v6m_small.fotsgure_aes_cmac_wipe:                 @ @aes_v6m_small.fotsgure_aes_cmac_wipe
	.fnstart
@ %bb.0:
	.save	{r4, lr}
	push	{r4, lr}
	mov	r4, r0
	movs	r1, #0
	movs	r2, #48
	bl	memset
	mov	r0, r4
	bl	aes_v6m_small.cmac.pieces.MessageZeroize.zeroize
	b	.Laes_v6m_small_return_17032
.Laes_v6m_small_return_17032:
	movs	r1, #0
	movs	r2, #0
	movs	r3, #0
	mov	r12, r1
	mov	lr, r1
	pop	{r4, pc}
.Laes_v6m_small_func_end99:
	.size	aes_v6m_small.fotsgure_aes_cmac_wipe, .Laes_v6m_small_func_end99-aes_v6m_small.fotsgure_aes_cmac_wipe
	.cantunwind
	.fnend
                                        @ -- End function
	.section	.text.aes_v6m_small.fotsgure_aes_ccm_seal,"ax",%progbits
	export_aes_v6m_small	fotsgure_aes_ccm_seal
	.p2align	1
	.type	aes_v6m_small.fotsgure_aes_ccm_seal,%function
	.code	16
	.thumb_func
aes_v6m_small.fotsgure_aes_ccm_seal:                  @ @aes_v6m_small.fotsgure_aes_ccm_seal
	.fnstart
@ %bb.0:
	.save	{r4, r5, r6, r7, lr}
	push	{r4, r5, r6, r7, lr}
	.pad	#76
	sub	sp, #76
	ldr	r7, [r0]
	cmp	r7, #32
	beq	.Laes_v6m_small_BB100_3
@ %bb.1:
	movs	r5, #8
	mov	r4, r7
	bics	r4, r5
	cmp	r4, #16
	beq	.Laes_v6m_small_BB100_3
@ %bb.2:
	movs	r4, #2
	b	.Laes_v6m_small_BB100_13
.Laes_v6m_small_BB100_3:                              @ %join.3.i.i
	str	r2, [sp, #52]                   @ 4-byte Spill
	ldr	r2, [sp, #112]
	ldr	r6, [sp, #108]
	ldr	r4, [sp, #104]
	str	r4, [sp, #48]                   @ 4-byte Spill
	ldr	r5, [sp, #100]
	movs	r4, #0
	str	r4, [sp, #60]
	adds	r0, r0, #4
	str	r0, [sp, #56]
	lsrs	r0, r7, #31
	lsls	r7, r7, #1
	adds	r7, #56
	str	r7, [sp, #64]
	adcs	r0, r4
	str	r0, [sp, #68]
	str	r2, [sp, #40]
	str	r4, [sp, #44]
	movs	r0, #1
	lsls	r0, r0, #12
	cmp	r6, #0
	bne	.Laes_v6m_small_BB100_5
@ %bb.4:
	adds	r6, r6, r0
.Laes_v6m_small_BB100_5:                              @ %join.3.i.i
	ldr	r2, [sp, #96]
	ldr	r7, [sp, #48]                   @ 4-byte Reload
	str	r7, [sp, #24]
	str	r4, [sp, #28]
	str	r6, [sp, #32]
	cmp	r5, #0
	bne	.Laes_v6m_small_BB100_7
@ %bb.6:
	adds	r5, r5, r0
.Laes_v6m_small_BB100_7:                              @ %join.3.i.i
	add	r6, sp, #8
	stm	r6!, {r2, r4, r5}
	cmp	r3, #0
	bne	.Laes_v6m_small_BB100_9
@ %bb.8:
	adds	r3, r3, r0
.Laes_v6m_small_BB100_9:                              @ %join.3.i.i
	ldr	r2, [sp, #52]                   @ 4-byte Reload
	str	r3, [sp]
	cmp	r1, #0
	bne	.Laes_v6m_small_BB100_11
@ %bb.10:
	adds	r1, r1, r0
.Laes_v6m_small_BB100_11:                             @ %join.3.i.i
	add	r0, sp, #56
	mov	r3, r4
	bl	aes_v6m_small.ccm.mode.encrypt
	mov	r5, r1
	lsls	r6, r0, #24
	bl	aes_v6m_small.aes_cipher.zeroize.stack.wipe_stack.1024
	cmp	r6, #0
	beq	.Laes_v6m_small_BB100_13
@ %bb.12:                               @ %arm.5.i.i
	uxtb	r0, r5
	adds	r4, r0, #7
.Laes_v6m_small_BB100_13:                             @ %wide_fotsgure_aes_ccm_seal.exit
	mov	r0, r4
	add	sp, #76
	b	.Laes_v6m_small_return_17134
.Laes_v6m_small_return_17134:
	movs	r1, #0
	movs	r2, #0
	movs	r3, #0
	mov	r12, r1
	mov	lr, r1
	pop	{r4, r5, r6, r7, pc}
.Laes_v6m_small_func_end100:
	.size	aes_v6m_small.fotsgure_aes_ccm_seal, .Laes_v6m_small_func_end100-aes_v6m_small.fotsgure_aes_ccm_seal
	.cantunwind
	.fnend
                                        @ -- End function
	.section	.text.aes_v6m_small.fotsgure_aes_ccm_open,"ax",%progbits
	export_aes_v6m_small	fotsgure_aes_ccm_open
	.p2align	1
	.type	aes_v6m_small.fotsgure_aes_ccm_open,%function
	.code	16
	.thumb_func
aes_v6m_small.fotsgure_aes_ccm_open:                  @ @aes_v6m_small.fotsgure_aes_ccm_open
	.fnstart
@ %bb.0:
	.save	{r4, r5, r6, r7, lr}
	push	{r4, r5, r6, r7, lr}
	.pad	#84
	sub	sp, #84
	mov	r5, r1
	ldr	r7, [r0]
	cmp	r7, #32
	beq	.Laes_v6m_small_BB101_3
@ %bb.1:
	movs	r1, #8
	mov	r4, r7
	bics	r4, r1
	cmp	r4, #16
	beq	.Laes_v6m_small_BB101_3
@ %bb.2:
	movs	r4, #2
	b	.Laes_v6m_small_BB101_15
.Laes_v6m_small_BB101_3:                              @ %join.3.i.i
	str	r2, [sp, #60]                   @ 4-byte Spill
	ldr	r2, [sp, #120]
	ldr	r6, [sp, #116]
	ldr	r1, [sp, #112]
	str	r1, [sp, #56]                   @ 4-byte Spill
	ldr	r1, [sp, #108]
	movs	r4, #0
	str	r4, [sp, #68]
	adds	r0, r0, #4
	str	r0, [sp, #64]
	lsrs	r0, r7, #31
	lsls	r7, r7, #1
	adds	r7, #56
	str	r7, [sp, #72]
	adcs	r0, r4
	str	r0, [sp, #76]
	str	r2, [sp, #48]
	str	r4, [sp, #52]
	movs	r0, #1
	lsls	r0, r0, #12
	cmp	r6, #0
	bne	.Laes_v6m_small_BB101_5
@ %bb.4:
	adds	r6, r6, r0
.Laes_v6m_small_BB101_5:                              @ %join.3.i.i
	ldr	r2, [sp, #104]
	ldr	r7, [sp, #56]                   @ 4-byte Reload
	str	r7, [sp, #32]
	str	r4, [sp, #36]
	str	r6, [sp, #40]
	cmp	r1, #0
	bne	.Laes_v6m_small_BB101_7
@ %bb.6:
	adds	r1, r1, r0
.Laes_v6m_small_BB101_7:                              @ %join.3.i.i
	str	r2, [sp, #16]
	str	r4, [sp, #20]
	str	r1, [sp, #24]
	cmp	r3, #0
	bne	.Laes_v6m_small_BB101_9
@ %bb.8:
	adds	r3, r3, r0
.Laes_v6m_small_BB101_9:                              @ %join.3.i.i
	ldr	r1, [sp, #60]                   @ 4-byte Reload
	str	r1, [sp]
	str	r4, [sp, #4]
	str	r3, [sp, #8]
	cmp	r5, #0
	bne	.Laes_v6m_small_BB101_11
@ %bb.10:
	adds	r5, r5, r0
.Laes_v6m_small_BB101_11:                             @ %join.3.i.i
	add	r6, sp, #80
	add	r1, sp, #64
	mov	r0, r6
	mov	r2, r5
	bl	aes_v6m_small.ccm.mode.decrypt
	bl	aes_v6m_small.aes_cipher.zeroize.stack.wipe_stack.1024
	ldrb	r0, [r6]
	cmp	r0, #0
	beq	.Laes_v6m_small_BB101_15
@ %bb.12:                               @ %arm.5.i.i
	add	r0, sp, #80
	ldrb	r0, [r0, #1]
	cmp	r0, #0
	beq	.Laes_v6m_small_BB101_14
@ %bb.13:
	movs	r4, #6
	b	.Laes_v6m_small_BB101_15
.Laes_v6m_small_BB101_14:                             @ %arm.8.i.i
	add	r0, sp, #80
	ldrb	r0, [r0, #2]
	adds	r4, r0, #7
.Laes_v6m_small_BB101_15:                             @ %wide_fotsgure_aes_ccm_open.exit
	mov	r0, r4
	add	sp, #84
	b	.Laes_v6m_small_return_17250
.Laes_v6m_small_return_17250:
	movs	r1, #0
	movs	r2, #0
	movs	r3, #0
	mov	r12, r1
	mov	lr, r1
	pop	{r4, r5, r6, r7, pc}
.Laes_v6m_small_func_end101:
	.size	aes_v6m_small.fotsgure_aes_ccm_open, .Laes_v6m_small_func_end101-aes_v6m_small.fotsgure_aes_ccm_open
	.cantunwind
	.fnend
                                        @ -- End function
	.section	.text.aes_v6m_small.fotsgure_aes_cipher_round,"ax",%progbits
	export_aes_v6m_small	fotsgure_aes_cipher_round
	.p2align	1
	.type	aes_v6m_small.fotsgure_aes_cipher_round,%function
	.code	16
	.thumb_func
aes_v6m_small.fotsgure_aes_cipher_round:              @ @aes_v6m_small.fotsgure_aes_cipher_round
	.fnstart
@ %bb.0:
	.save	{r7, lr}
	push	{r7, lr}
	bl	aes_v6m_small.aes_c.single_rounds.round
	bl	aes_v6m_small.aes_cipher.zeroize.stack.wipe_stack.512
	b	.Laes_v6m_small_return_17276
.Laes_v6m_small_return_17276:
	movs	r1, #0
	movs	r2, #0
	movs	r3, #0
	mov	r12, r1
	mov	lr, r1
	pop	{r7, pc}
.Laes_v6m_small_func_end102:
	.size	aes_v6m_small.fotsgure_aes_cipher_round, .Laes_v6m_small_func_end102-aes_v6m_small.fotsgure_aes_cipher_round
	.cantunwind
	.fnend
                                        @ -- End function
	.section	.text.aes_v6m_small.fotsgure_aes_equiv_inv_cipher_round,"ax",%progbits
	export_aes_v6m_small	fotsgure_aes_equiv_inv_cipher_round
	.p2align	1
	.type	aes_v6m_small.fotsgure_aes_equiv_inv_cipher_round,%function
	.code	16
	.thumb_func
aes_v6m_small.fotsgure_aes_equiv_inv_cipher_round:    @ @aes_v6m_small.fotsgure_aes_equiv_inv_cipher_round
	.fnstart
@ %bb.0:
	.save	{r7, lr}
	push	{r7, lr}
	bl	aes_v6m_small.aes_c.single_rounds.inverse_round
	bl	aes_v6m_small.aes_cipher.zeroize.stack.wipe_stack.512
	b	.Laes_v6m_small_return_17302
.Laes_v6m_small_return_17302:
	movs	r1, #0
	movs	r2, #0
	movs	r3, #0
	mov	r12, r1
	mov	lr, r1
	pop	{r7, pc}
.Laes_v6m_small_func_end103:
	.size	aes_v6m_small.fotsgure_aes_equiv_inv_cipher_round, .Laes_v6m_small_func_end103-aes_v6m_small.fotsgure_aes_equiv_inv_cipher_round
	.cantunwind
	.fnend
                                        @ -- End function
	.section	.text.aes_v6m_small.fotsgure_aes_cipher_round_par,"ax",%progbits
	export_aes_v6m_small	fotsgure_aes_cipher_round_par
	.p2align	1
	.type	aes_v6m_small.fotsgure_aes_cipher_round_par,%function
	.code	16
	.thumb_func
aes_v6m_small.fotsgure_aes_cipher_round_par:          @ @aes_v6m_small.fotsgure_aes_cipher_round_par
	.fnstart
@ %bb.0:
	.save	{r7, lr}
	push	{r7, lr}
	bl	aes_v6m_small.aes_c.single_rounds.rounds
	bl	aes_v6m_small.aes_cipher.zeroize.stack.wipe_stack.512
	b	.Laes_v6m_small_return_17328
.Laes_v6m_small_return_17328:
	movs	r1, #0
	movs	r2, #0
	movs	r3, #0
	mov	r12, r1
	mov	lr, r1
	pop	{r7, pc}
.Laes_v6m_small_func_end104:
	.size	aes_v6m_small.fotsgure_aes_cipher_round_par, .Laes_v6m_small_func_end104-aes_v6m_small.fotsgure_aes_cipher_round_par
	.cantunwind
	.fnend
                                        @ -- End function
	.section	.text.aes_v6m_small.fotsgure_aes_equiv_inv_cipher_round_par,"ax",%progbits
	export_aes_v6m_small	fotsgure_aes_equiv_inv_cipher_round_par
	.p2align	1
	.type	aes_v6m_small.fotsgure_aes_equiv_inv_cipher_round_par,%function
	.code	16
	.thumb_func
aes_v6m_small.fotsgure_aes_equiv_inv_cipher_round_par: @ @aes_v6m_small.fotsgure_aes_equiv_inv_cipher_round_par
	.fnstart
@ %bb.0:
	.save	{r7, lr}
	push	{r7, lr}
	bl	aes_v6m_small.aes_c.single_rounds.inverse_rounds
	bl	aes_v6m_small.aes_cipher.zeroize.stack.wipe_stack.512
	b	.Laes_v6m_small_return_17354
.Laes_v6m_small_return_17354:
	movs	r1, #0
	movs	r2, #0
	movs	r3, #0
	mov	r12, r1
	mov	lr, r1
	pop	{r7, pc}
.Laes_v6m_small_func_end105:
	.size	aes_v6m_small.fotsgure_aes_equiv_inv_cipher_round_par, .Laes_v6m_small_func_end105-aes_v6m_small.fotsgure_aes_equiv_inv_cipher_round_par
	.cantunwind
	.fnend
                                        @ -- End function
	.section	.text.aes_v6m_small.fotsgure_aes_mix_columns,"ax",%progbits
	export_aes_v6m_small	fotsgure_aes_mix_columns
	.p2align	1
	.type	aes_v6m_small.fotsgure_aes_mix_columns,%function
	.code	16
	.thumb_func
aes_v6m_small.fotsgure_aes_mix_columns:               @ @aes_v6m_small.fotsgure_aes_mix_columns
	.fnstart
@ %bb.0:
	.save	{r7, lr}
	push	{r7, lr}
	bl	aes_v6m_small.aes_c.single_rounds.mixed
	bl	aes_v6m_small.aes_cipher.zeroize.stack.wipe_stack.512
	b	.Laes_v6m_small_return_17380
.Laes_v6m_small_return_17380:
	movs	r1, #0
	movs	r2, #0
	movs	r3, #0
	mov	r12, r1
	mov	lr, r1
	pop	{r7, pc}
.Laes_v6m_small_func_end106:
	.size	aes_v6m_small.fotsgure_aes_mix_columns, .Laes_v6m_small_func_end106-aes_v6m_small.fotsgure_aes_mix_columns
	.cantunwind
	.fnend
                                        @ -- End function
	.section	.text.aes_v6m_small.fotsgure_aes_inv_mix_columns,"ax",%progbits
	export_aes_v6m_small	fotsgure_aes_inv_mix_columns
	.p2align	1
	.type	aes_v6m_small.fotsgure_aes_inv_mix_columns,%function
	.code	16
	.thumb_func
aes_v6m_small.fotsgure_aes_inv_mix_columns:           @ @aes_v6m_small.fotsgure_aes_inv_mix_columns
	.fnstart
@ %bb.0:
	.save	{r7, lr}
	push	{r7, lr}
	bl	aes_v6m_small.aes_c.single_rounds.inverse_mixed
	bl	aes_v6m_small.aes_cipher.zeroize.stack.wipe_stack.512
	b	.Laes_v6m_small_return_17406
.Laes_v6m_small_return_17406:
	movs	r1, #0
	movs	r2, #0
	movs	r3, #0
	mov	r12, r1
	mov	lr, r1
	pop	{r7, pc}
.Laes_v6m_small_func_end107:
	.size	aes_v6m_small.fotsgure_aes_inv_mix_columns, .Laes_v6m_small_func_end107-aes_v6m_small.fotsgure_aes_inv_mix_columns
	.cantunwind
	.fnend
                                        @ -- End function
	.section	.text.aes_v6m_small.fotsgure_aes_encrypt_blocks_with,"ax",%progbits
	export_aes_v6m_small	fotsgure_aes_encrypt_blocks_with
	.p2align	1
	.type	aes_v6m_small.fotsgure_aes_encrypt_blocks_with,%function
	.code	16
	.thumb_func
aes_v6m_small.fotsgure_aes_encrypt_blocks_with:       @ @aes_v6m_small.fotsgure_aes_encrypt_blocks_with
	.fnstart
@ %bb.0:
	.save	{r4, r5, r6, r7, lr}
	push	{r4, r5, r6, r7, lr}
	.pad	#508
	sub	sp, #508
	.pad	#8
	sub	sp, #8
	mov	r5, r1
	mov	r6, r0
	cmp	r1, #32
	beq	.Laes_v6m_small_BB108_3
@ %bb.1:
	movs	r0, #8
	mov	r1, r5
	bics	r1, r0
	cmp	r1, #16
	beq	.Laes_v6m_small_BB108_3
@ %bb.2:
	movs	r4, #1
	b	.Laes_v6m_small_BB108_8
.Laes_v6m_small_BB108_3:                              @ %join.3.i.i
	str	r3, [sp, #24]                   @ 4-byte Spill
	str	r2, [sp, #28]                   @ 4-byte Spill
	movs	r0, #121
	lsls	r2, r0, #2
	add	r7, sp, #32
	movs	r4, #0
	mov	r0, r7
	mov	r1, r4
	bl	memset
	movs	r0, #1
	lsls	r0, r0, #12
	cmp	r6, #0
	str	r0, [sp, #20]                   @ 4-byte Spill
	bne	.Laes_v6m_small_BB108_5
@ %bb.4:
	adds	r6, r6, r0
.Laes_v6m_small_BB108_5:                              @ %join.3.i.i
	adds	r7, r7, #4
	mov	r0, r7
	mov	r1, r6
	mov	r2, r5
	mov	r3, r4
	bl	aes_v6m_small.aes_narrow.word_room.expand_words
	bl	aes_v6m_small.aes_cipher.zeroize.stack.wipe_stack.768
	str	r5, [sp, #32]
	ldr	r0, [sp, #24]                   @ 4-byte Reload
	str	r0, [sp, #8]
	str	r4, [sp, #12]
	ldr	r0, [sp, #28]                   @ 4-byte Reload
	cmp	r0, #0
	bne	.Laes_v6m_small_BB108_7
@ %bb.6:
	ldr	r1, [sp, #20]                   @ 4-byte Reload
	adds	r0, r0, r1
.Laes_v6m_small_BB108_7:                              @ %join.3.i.i
	str	r0, [sp]
	lsrs	r3, r5, #31
	lsls	r2, r5, #1
	adds	r2, #56
	adcs	r3, r4
	mov	r0, r7
	bl	aes_v6m_small.aes_narrow.blocks.process_all_batches.1
	bl	aes_v6m_small.aes_cipher.zeroize.stack.wipe_stack.1024
	str	r4, [sp, #32]
	mov	r0, r7
	bl	aes_v6m_small.aes_cipher.zeroize.elements.zeroize_elements.1
.Laes_v6m_small_BB108_8:                              @ %wide_fotsgure_aes_encrypt_blocks_with.exit
	mov	r0, r4
	add	sp, #508
	add	sp, #8
	b	.Laes_v6m_small_return_17498
.Laes_v6m_small_return_17498:
	movs	r1, #0
	movs	r2, #0
	movs	r3, #0
	mov	r12, r1
	mov	lr, r1
	pop	{r4, r5, r6, r7, pc}
.Laes_v6m_small_func_end108:
	.size	aes_v6m_small.fotsgure_aes_encrypt_blocks_with, .Laes_v6m_small_func_end108-aes_v6m_small.fotsgure_aes_encrypt_blocks_with
	.cantunwind
	.fnend
                                        @ -- End function
	.section	.text.aes_v6m_small.fotsgure_aes_decrypt_blocks_with,"ax",%progbits
	export_aes_v6m_small	fotsgure_aes_decrypt_blocks_with
	.p2align	1
	.type	aes_v6m_small.fotsgure_aes_decrypt_blocks_with,%function
	.code	16
	.thumb_func
aes_v6m_small.fotsgure_aes_decrypt_blocks_with:       @ @aes_v6m_small.fotsgure_aes_decrypt_blocks_with
	.fnstart
@ %bb.0:
	.save	{r4, r5, r6, r7, lr}
	push	{r4, r5, r6, r7, lr}
	.pad	#508
	sub	sp, #508
	.pad	#8
	sub	sp, #8
	mov	r5, r2
	mov	r4, r1
	mov	r7, r0
	movs	r0, #0
	str	r0, [sp, #32]
	movs	r6, #1
	lsls	r0, r6, #12
	cmp	r2, #0
	str	r0, [sp, #24]                   @ 4-byte Spill
	bne	.Laes_v6m_small_BB109_2
@ %bb.1:
	adds	r5, r5, r0
.Laes_v6m_small_BB109_2:
	add	r0, sp, #32
	cmp	r4, #32
	beq	.Laes_v6m_small_BB109_4
@ %bb.3:
	movs	r1, #8
	mov	r2, r4
	bics	r2, r1
	cmp	r2, #16
	bne	.Laes_v6m_small_BB109_11
.Laes_v6m_small_BB109_4:                              @ %join.3.i.i
	str	r3, [sp, #20]                   @ 4-byte Spill
	adds	r0, r0, #4
	movs	r1, #15
	lsls	r2, r1, #5
	movs	r1, #0
	str	r0, [sp, #28]                   @ 4-byte Spill
	mov	r6, r1
	bl	memset
	cmp	r7, #0
	bne	.Laes_v6m_small_BB109_6
@ %bb.5:
	ldr	r0, [sp, #24]                   @ 4-byte Reload
	adds	r7, r7, r0
.Laes_v6m_small_BB109_6:                              @ %join.3.i.i
	ldr	r0, [sp, #28]                   @ 4-byte Reload
	mov	r1, r7
	mov	r2, r4
	mov	r7, r6
	mov	r3, r6
	bl	aes_v6m_small.aes_narrow.word_room.expand_words
	bl	aes_v6m_small.aes_cipher.zeroize.stack.wipe_stack.768
	str	r4, [sp, #32]
	cmp	r4, #32
	beq	.Laes_v6m_small_BB109_9
@ %bb.7:                                @ %join.3.i.i
	movs	r0, #48
	ands	r0, r4
	cmp	r0, #16
	beq	.Laes_v6m_small_BB109_9
@ %bb.8:
	movs	r6, #2
	ldr	r4, [sp, #28]                   @ 4-byte Reload
	b	.Laes_v6m_small_BB109_10
.Laes_v6m_small_BB109_9:                              @ %join.3.i15.i.i
	ldr	r0, [sp, #20]                   @ 4-byte Reload
	str	r0, [sp, #8]
	str	r7, [sp, #12]
	str	r5, [sp]
	lsrs	r3, r4, #31
	lsls	r2, r4, #1
	adds	r2, #56
	adcs	r3, r7
	ldr	r4, [sp, #28]                   @ 4-byte Reload
	mov	r0, r4
	bl	aes_v6m_small.aes_narrow.blocks.process_all_batches.2
	bl	aes_v6m_small.aes_cipher.zeroize.stack.wipe_stack.1024
	mov	r6, r7
.Laes_v6m_small_BB109_10:                             @ %"aes_c::blocks::fotsgure_aes_decrypt_blocks.exit.i.i"
	str	r7, [sp, #32]
	mov	r0, r4
	bl	aes_v6m_small.aes_cipher.zeroize.elements.zeroize_elements.1
.Laes_v6m_small_BB109_11:                             @ %wide_fotsgure_aes_decrypt_blocks_with.exit
	mov	r0, r6
	add	sp, #508
	add	sp, #8
	b	.Laes_v6m_small_return_17604
.Laes_v6m_small_return_17604:
	movs	r1, #0
	movs	r2, #0
	movs	r3, #0
	mov	r12, r1
	mov	lr, r1
	pop	{r4, r5, r6, r7, pc}
.Laes_v6m_small_func_end109:
	.size	aes_v6m_small.fotsgure_aes_decrypt_blocks_with, .Laes_v6m_small_func_end109-aes_v6m_small.fotsgure_aes_decrypt_blocks_with
	.cantunwind
	.fnend
                                        @ -- End function
	.section	.text.aes_v6m_small.fotsgure_aes_add_keystream_with,"ax",%progbits
	export_aes_v6m_small	fotsgure_aes_add_keystream_with
	.p2align	1
	.type	aes_v6m_small.fotsgure_aes_add_keystream_with,%function
	.code	16
	.thumb_func
aes_v6m_small.fotsgure_aes_add_keystream_with:        @ @aes_v6m_small.fotsgure_aes_add_keystream_with
	.fnstart
@ %bb.0:
	.save	{r4, r5, r6, r7, lr}
	push	{r4, r5, r6, r7, lr}
	.pad	#508
	sub	sp, #508
	.pad	#88
	sub	sp, #88
	mov	r5, r2
	mov	r7, r1
	movs	r4, #1
	lsls	r1, r4, #12
	cmp	r3, #0
	beq	.Laes_v6m_small_BB110_3
@ %bb.1:
	cmp	r0, #0
	beq	.Laes_v6m_small_BB110_4
.Laes_v6m_small_BB110_2:
	cmp	r7, #32
	bne	.Laes_v6m_small_BB110_5
	b	.Laes_v6m_small_BB110_6
.Laes_v6m_small_BB110_3:
	adds	r3, r3, r1
	cmp	r0, #0
	bne	.Laes_v6m_small_BB110_2
.Laes_v6m_small_BB110_4:
	adds	r0, r0, r1
	cmp	r7, #32
	beq	.Laes_v6m_small_BB110_6
.Laes_v6m_small_BB110_5:
	movs	r1, #8
	mov	r2, r7
	bics	r2, r1
	cmp	r2, #16
	beq	.Laes_v6m_small_BB110_6
	b	.Laes_v6m_small_BB110_12
.Laes_v6m_small_BB110_6:                              @ %join.3.i.i
	ldr	r6, [sp, #616]
	ldr	r1, [r5, #16]
	ldr	r2, [r5, #20]
	movs	r4, #0
	str	r6, [sp, #32]                   @ 4-byte Spill
	adds	r1, r1, r6
	adcs	r2, r4
	mov	r1, r4
	adcs	r1, r4
	beq	.Laes_v6m_small_BB110_8
@ %bb.7:
	movs	r4, #4
	b	.Laes_v6m_small_BB110_12
.Laes_v6m_small_BB110_8:                              @ %join.6.i.i
	str	r3, [sp, #28]                   @ 4-byte Spill
	movs	r1, #121
	lsls	r2, r1, #2
	add	r6, sp, #60
	str	r0, [sp, #24]                   @ 4-byte Spill
	mov	r0, r6
	mov	r1, r4
	bl	memset
	adds	r0, r6, #4
	str	r0, [sp, #36]                   @ 4-byte Spill
	ldr	r1, [sp, #24]                   @ 4-byte Reload
	mov	r2, r7
	mov	r3, r4
	bl	aes_v6m_small.aes_narrow.word_room.expand_words
	lsrs	r6, r7, #31
	lsls	r0, r7, #1
	adds	r0, #56
	str	r0, [sp, #24]                   @ 4-byte Spill
	adcs	r6, r4
	bl	aes_v6m_small.aes_cipher.zeroize.stack.wipe_stack.768
	str	r6, [sp, #20]                   @ 4-byte Spill
	str	r6, [sp, #52]
	ldr	r6, [sp, #24]                   @ 4-byte Reload
	str	r6, [sp, #48]
	str	r4, [sp, #44]
	ldr	r0, [sp, #36]                   @ 4-byte Reload
	str	r0, [sp, #40]
	str	r7, [sp, #60]
	ldr	r2, [r5, #16]
	ldr	r3, [r5, #20]
	ldrb	r0, [r5, #12]
	ldrb	r1, [r5, #13]
	lsls	r1, r1, #8
	adds	r0, r1, r0
	ldrb	r1, [r5, #14]
	lsls	r1, r1, #16
	ldrb	r7, [r5, #15]
	lsls	r7, r7, #24
	adds	r1, r7, r1
	adds	r0, r1, r0
	str	r0, [sp, #556]
	ldrb	r0, [r5, #8]
	ldrb	r1, [r5, #9]
	lsls	r1, r1, #8
	adds	r0, r1, r0
	ldrb	r1, [r5, #10]
	lsls	r1, r1, #16
	ldrb	r7, [r5, #11]
	lsls	r7, r7, #24
	adds	r1, r7, r1
	adds	r0, r1, r0
	str	r0, [sp, #552]
	ldrb	r0, [r5, #4]
	ldrb	r1, [r5, #5]
	lsls	r1, r1, #8
	adds	r0, r1, r0
	ldrb	r1, [r5, #6]
	lsls	r1, r1, #16
	ldrb	r7, [r5, #7]
	lsls	r7, r7, #24
	adds	r1, r7, r1
	adds	r0, r1, r0
	str	r0, [sp, #548]
	ldrb	r0, [r5]
	ldrb	r1, [r5, #1]
	lsls	r1, r1, #8
	adds	r0, r1, r0
	ldrb	r1, [r5, #2]
	lsls	r1, r1, #16
	ldrb	r7, [r5, #3]
	lsls	r7, r7, #24
	adds	r1, r7, r1
	adds	r0, r1, r0
	str	r0, [sp, #544]
	str	r4, [sp, #564]
	str	r4, [sp, #560]
	movs	r0, #15
	ands	r0, r2
	movs	r1, #16
	subs	r0, r1, r0
	ldr	r7, [sp, #32]                   @ 4-byte Reload
	subs	r0, r0, r7
	mov	r0, r4
	sbcs	r0, r4
	bhs	.Laes_v6m_small_BB110_10
@ %bb.9:                                @ %else.2.i.i.i.i
	movs	r0, #0
	str	r0, [sp, #588]
	str	r7, [sp, #584]
	str	r2, [sp, #568]
	str	r0, [sp, #580]
	ldr	r0, [sp, #28]                   @ 4-byte Reload
	str	r0, [sp, #576]
	add	r0, sp, #544
	str	r0, [sp, #560]
	str	r3, [sp, #572]
	add	r0, sp, #560
	str	r0, [sp]
	ldr	r0, [sp, #36]                   @ 4-byte Reload
	mov	r2, r6
	ldr	r3, [sp, #20]                   @ 4-byte Reload
	bl	aes_v6m_small.aes_narrow.borrowed_words.call_to_encrypt
	bl	aes_v6m_small.aes_cipher.zeroize.stack.wipe_stack.2032
	b	.Laes_v6m_small_BB110_11
.Laes_v6m_small_BB110_10:                             @ %then.1.i.i.i.i
	str	r7, [sp, #8]
	str	r4, [sp, #12]
	ldr	r0, [sp, #28]                   @ 4-byte Reload
	str	r0, [sp]
	add	r0, sp, #40
	add	r1, sp, #544
	bl	aes_v6m_small.aes_ctr.add_in_batches.add_to_one
.Laes_v6m_small_BB110_11:                             @ %"aes_ctr::add_in_batches::add_keystream::<#4f733d09d7f6c6b4>.exit.i.i"
	ldr	r0, [r5, #16]
	adds	r0, r0, r7
	str	r0, [r5, #16]
	ldr	r0, [r5, #20]
	adcs	r0, r4
	str	r0, [r5, #20]
	str	r4, [sp, #60]
	ldr	r0, [sp, #36]                   @ 4-byte Reload
	bl	aes_v6m_small.aes_cipher.zeroize.elements.zeroize_elements.1
.Laes_v6m_small_BB110_12:                             @ %wide_fotsgure_aes_add_keystream_with.exit
	mov	r0, r4
	add	sp, #508
	add	sp, #88
	b	.Laes_v6m_small_return_17801
.Laes_v6m_small_return_17801:
	movs	r1, #0
	movs	r2, #0
	movs	r3, #0
	mov	r12, r1
	mov	lr, r1
	pop	{r4, r5, r6, r7, pc}
.Laes_v6m_small_func_end110:
	.size	aes_v6m_small.fotsgure_aes_add_keystream_with, .Laes_v6m_small_func_end110-aes_v6m_small.fotsgure_aes_add_keystream_with
	.cantunwind
	.fnend
                                        @ -- End function
	.type	.Laes_v6m_small_static.0,%object              @ @static.0
	.section	.rodata..Laes_v6m_small_static.0,"a",%progbits
.Laes_v6m_small_static.0:
	.ascii	"\001\002\004\b\020 @\200\0336"
	.size	.Laes_v6m_small_static.0, 10

	.type	.Laes_v6m_small_static.2,%object              @ @static.2
	.section	.rodata.cst16,"aM",%progbits,16
.Laes_v6m_small_static.2:
	.zero	16,166
	.size	.Laes_v6m_small_static.2, 16

	.ident	"rattle logic=dac8208d650f15bf3e2dc313a14fa4c783a3acf887bdfab66e1714b038d9e11b"
	.section	".note.GNU-stack","",%progbits

	.section	.note.fotsgure,"",%note
	.p2align	2, 0x0
	.long	9, 124, 1
	.asciz	"Fotsgure"
	.p2align	2, 0x0
	.asciz	"fotsgure_aes 0.4.0, thumb/aes_v6m_small.s, sources SHA-256 f3fecc818c73814a93835f06896045f67fddc8c102490795e0e19679064b46a4"
	.p2align	2, 0x0
